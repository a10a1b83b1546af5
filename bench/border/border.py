"""One operation on so many random pairs, of the module pam or of SortedDict: border.py OPERATION SIZE SEED pam|sorted. Nanoseconds
go to standard error, a checksum to standard output, as by border.c."""
import pathlib
import sys
import time
from array import array

sys.path.insert(0, str(pathlib.Path(__file__).resolve().parents[2] / "bindings/python"))

WORD = 2**64


def numbers(seed):
    state = seed
    while True:
        state = (state + 0x9E3779B97F4A7C15) % WORD
        z = (state ^ state >> 30) * 0xBF58476D1CE4E5B9 % WORD
        z = (z ^ z >> 27) * 0x94D049BB133111EB % WORD
        yield z ^ z >> 31


def timed(call):
    begun = time.perf_counter_ns()
    made = call()
    print(time.perf_counter_ns() - begun, file=sys.stderr)
    return made


def put(m, keys, vals):
    for key, val in zip(keys, vals):
        m[key] = val
    return m


def ranges(operation, keys):
    """The ranges that are summed: many short ones, or few wide ones."""
    count, wide = (100, (WORD - 1) // 2) if operation == "wide_sums" else (100000, (WORD - 1) // len(keys) * 100)
    return [(lo, min(lo + wide, WORD - 1)) for lo in (keys[i % len(keys)] for i in range(count))]


def by_pam(operation, keys, vals):
    import pam

    half, many = len(keys) // 2, pam.Map.from_arrays
    if operation == "put":
        return len(timed(lambda: put(pam.Map(), keys, vals)))
    if operation == "build":
        return len(timed(lambda: many(keys, vals)))
    if operation == "put_many":
        m = many(keys[:half], vals[:half])
        timed(lambda: m.put_many(keys[half:], vals[half:]))
        return len(m)
    if operation == "union":
        a, b = many(keys[:half], vals[:half]), many(keys[half:], vals[half:])
        return timed(lambda: a | b).sum()
    m = many(keys, vals)
    if operation == "get":
        return sum(timed(lambda: [m[key] for key in keys]))
    if operation == "get_many":
        return sum(timed(lambda: m.get_many(keys))[0])
    if operation in ("sums", "wide_sums"):
        asked = ranges(operation, keys)
        return sum(timed(lambda: [m.sum(lo, hi + 1) for lo, hi in asked]))
    return timed(lambda: sum(key ^ val for key, val in m.items()))


def by_sorted(operation, keys, vals):
    from sortedcontainers import SortedDict

    half = len(keys) // 2
    if operation == "put":
        return len(timed(lambda: put(SortedDict(), keys, vals)))
    if operation == "build":
        return len(timed(lambda: SortedDict(zip(keys, vals))))
    if operation == "put_many":
        m = SortedDict(zip(keys[:half], vals[:half]))
        timed(lambda: m.update(zip(keys[half:], vals[half:])))
        return len(m)
    if operation == "union":
        a, b = SortedDict(zip(keys[:half], vals[:half])), SortedDict(zip(keys[half:], vals[half:]))
        return sum(timed(lambda: SortedDict({**a, **b})).values())
    m = SortedDict(zip(keys, vals))
    if operation == "get":
        return sum(timed(lambda: [m[key] for key in keys]))
    if operation == "get_many":
        return sum(timed(lambda: array("Q", map(m.__getitem__, keys))))
    if operation in ("sums", "wide_sums"):
        asked = ranges(operation, keys)
        return sum(timed(lambda: [sum(map(m.__getitem__, m.irange(lo, hi))) for lo, hi in asked]))
    return timed(lambda: sum(key ^ val for key, val in m.items()))


def main():
    operation, size, seed, kind = sys.argv[1], int(sys.argv[2]), int(sys.argv[3]), sys.argv[4]
    source = numbers(seed)
    pairs = [(next(source), next(source) >> 44) for _ in range(size)]
    keys, vals = array("Q", [key for key, _ in pairs]), array("Q", [val for _, val in pairs])
    checksum = (by_pam if kind == "pam" else by_sorted)(operation, keys, vals)
    print(checksum % WORD)


main()
