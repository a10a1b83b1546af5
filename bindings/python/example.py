"""Sales by minute, as bindings/c/example.c: a map built, kept as it is by a snapshot, changed, summed over a range, united."""
import pam


def tell(name: str, sales: pam.Map, lo: int, hi: int) -> None:
    part = sales[lo : hi + 1]
    print(f"{name}: {len(sales)} entries; {lo} to {hi}: sum {part.sum()}, greatest {part.max()}")


day = pam.Map({540: 12, 541: 7, 545: 30, 560: 4})
snapshot = day.copy()  # O(1): no entry is copied

day[541] = 100
del day[560]
tell("day", day, 540, 550)
tell("snapshot", snapshot, 540, 550)

late = pam.Map({545: 5, 600: 9})
both = day.union(late, how="sum")
tell("both", both, 540, 600)
for minute, sold in both.items():
    print(minute, sold)
