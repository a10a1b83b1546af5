#!/usr/bin/env python3
"""One map over many processes: keys cut by ranges, a pam.Map for each range, on workers of Dask.

The fold of a range is associative, so that of a range over many partitions is combined from one number of each. Nothing but arrays,
numbers and, where a map moves, its bytes goes between processes.

    python3 dask_ranges.py [--workers W] [--entries N]

builds a map of N entries on W worker processes of the loopback, and times what it does. It needs Debian's python3-distributed and
python3-numpy.
"""
import argparse
import bisect
import time
from typing import Callable, List, Sequence

import numpy
from distributed import Client, Future, LocalCluster, wait

import pam

LIMIT = 1 << 64


def copied_with(part: pam.Map, keys: numpy.ndarray, vals: numpy.ndarray) -> pam.Map:
    """A partition with other entries put; the one before stays as it was, and what both have is kept once."""
    changed = part.copy()
    changed.put_many(keys, vals)
    return changed


class RangedMap:
    """A map from 64-bit numbers to 64-bit numbers whose partition i has the keys from bounds[i] up to bounds[i + 1].

    It never changes: put_many and union answer another one, which shares with this one what stays. There are no transactions: a
    RangedMap is whole once each of its partitions is.
    """

    def __init__(self, client: Client, bounds: Sequence[int], parts: List[Future]) -> None:
        self.client, self.bounds, self.parts = client, list(bounds), parts

    @classmethod
    def from_arrays(cls, client: Client, keys: numpy.ndarray, vals: numpy.ndarray, count: int) -> "RangedMap":
        """The map of two arrays, in `count` partitions of about as many keys each."""
        sample = numpy.sort(keys[:: max(len(keys) // 10000, 1)])
        inner = [int(sample[len(sample) * i // count]) for i in range(1, count)]
        whole = cls(client, [0, *sorted(set(inner) - {0}), LIMIT], [])
        whole.parts = [client.submit(pam.Map.from_arrays, k, v, pure=False) for k, v in whole._dealt(keys, vals)]
        return whole

    def _dealt(self, keys: numpy.ndarray, vals: numpy.ndarray):
        """The keys and values of each partition, in the order in which they stand."""
        owner = numpy.searchsorted(numpy.array(self.bounds[1:-1], dtype=numpy.uint64), keys, side="right")
        order = numpy.argsort(owner, kind="stable")
        cuts = numpy.searchsorted(owner[order], numpy.arange(1, len(self.bounds) - 1))
        return zip(numpy.split(keys[order], cuts), numpy.split(vals[order], cuts))

    def _touched(self, lo: int, hi: int) -> List[Future]:
        """The partitions that have keys from lo up to hi."""
        if lo >= hi:
            return []
        first = bisect.bisect_right(self.bounds, lo) - 1
        return self.parts[first : bisect.bisect_left(self.bounds, hi)]

    def _asked(self, ask: Callable[..., int], parts: List[Future], *words: int) -> List[int]:
        return self.client.gather([self.client.submit(ask, part, *words, pure=False) for part in parts])

    def sum(self, lo: int, hi: int) -> int:
        """The sum of the values at keys from lo up to hi, at most 2**64 - 1, in O(log n) at each partition that the range meets."""
        return min(sum(self._asked(pam.Map.sum, self._touched(lo, hi), lo, hi)), LIMIT - 1)

    def sums(self, ranges: Sequence[tuple]) -> List[int]:
        """The sums of many ranges with one message to each partition."""
        answers = self._asked(sums_of, self.parts, ranges)
        return [min(sum(column), LIMIT - 1) for column in zip(*answers)]

    def __len__(self) -> int:
        return sum(self._asked(len, self.parts))

    def snapshot(self) -> "RangedMap":
        """The same partitions: they never change, so this takes nothing."""
        return RangedMap(self.client, self.bounds, list(self.parts))

    def put_many(self, keys: numpy.ndarray, vals: numpy.ndarray) -> "RangedMap":
        """This map with other entries put, each partition where it lies."""
        dealt = zip(self.parts, self._dealt(keys, vals))
        parts = [self.client.submit(copied_with, part, k, v, pure=False) if len(k) else part for part, (k, v) in dealt]
        return RangedMap(self.client, self.bounds, parts)

    def union(self, other: "RangedMap", how: str = "second") -> "RangedMap":
        """The union with a map of the same bounds, partition by partition; a partition that lies elsewhere is sent as its bytes."""
        if self.bounds != other.bounds:
            raise ValueError("the maps are cut at other keys")
        parts = [self.client.submit(pam.Map.union, a, b, how, pure=False) for a, b in zip(self.parts, other.parts)]
        return RangedMap(self.client, self.bounds, parts)

    def made(self) -> "RangedMap":
        """This map, once each of its partitions is there."""
        wait(self.parts)
        return self


def sums_of(part: pam.Map, ranges: Sequence[tuple]) -> List[int]:
    return [part.sum(lo, hi) for lo, hi in ranges]


def random_part(seed: int, lo: int, hi: int, count: int) -> pam.Map:
    """A partition of random keys from lo up to hi, made where it will lie."""
    numbers = numpy.random.default_rng(seed)
    return pam.Map.from_arrays(numbers.integers(lo, hi, count, numpy.uint64), numbers.integers(0, 1000, count, numpy.uint64))


def random_map(client: Client, seed: int, entries: int, count: int) -> RangedMap:
    """A map of about so many random entries, in partitions of one width, each made by a worker from arrays."""
    bounds = [LIMIT * i // count for i in range(count + 1)]
    ends = zip(range(count), bounds, bounds[1:])
    parts = [client.submit(random_part, seed + i, lo, hi, entries // count, pure=False) for i, lo, hi in ends]
    return RangedMap(client, bounds, parts)


def timed(what: str, work: Callable):
    start = time.perf_counter()
    answer = work()
    print(f"{what:<52}{time.perf_counter() - start:10.3f} s", flush=True)
    return answer


def check(client: Client) -> None:
    """A small map beside sums that NumPy makes of the arrays."""
    numbers = numpy.random.default_rng(7)
    keys = numpy.unique(numbers.integers(0, LIMIT, 5000, numpy.uint64))
    vals = numbers.integers(0, 1000, len(keys), numpy.uint64)
    whole = RangedMap.from_arrays(client, keys, vals, 5)
    old = whole.snapshot()
    new = whole.put_many(keys[:100], vals[:100] + numpy.uint64(1))
    both = old.union(new, how="sum")
    for lo, hi in [(0, LIMIT), (int(keys[10]), int(keys[4000])), (int(keys[70]), int(keys[70])), (5, 4)]:
        inside = (keys >= numpy.uint64(lo)) & (keys < numpy.uint64(hi)) if hi < LIMIT else keys >= numpy.uint64(lo)
        told, added = int(vals[inside].sum()), int(inside[:100].sum())
        if lo >= hi:
            told = added = 0
        assert (old.sum(lo, hi), new.sum(lo, hi), both.sum(lo, hi)) == (told, told + added, 2 * told + added)
    assert len(both) == len(keys) == len(old)
    print("checked: sums of ranges, a snapshot and a union are those of the arrays")


def measure(client: Client, workers: int, entries: int) -> None:
    parts = 4 * workers
    whole = timed(f"{entries} entries built in {parts} partitions", random_map(client, 1, entries, parts).made)
    starts = numpy.random.default_rng(2).integers(0, LIMIT // 2, 1000, numpy.uint64)
    ranges = [(int(lo), int(lo) + LIMIT // 4) for lo in starts]
    timed("1000 range sums, one message to each partition", lambda: whole.sums(ranges))
    timed("10 range sums, one after another", lambda: [whole.sum(*ends) for ends in ranges[:10]])
    old = whole.snapshot()
    fresh = numpy.random.default_rng(3).integers(0, LIMIT, 100_000, numpy.uint64)
    new = timed("100000 entries put, a snapshot kept", whole.put_many(fresh, fresh & numpy.uint64(1023)).made)
    timed("union of the two versions", old.union(new).made)
    other = random_map(client, 100, entries // 10, parts).made()
    timed("union with a map of a tenth of the entries", new.union(other, how="sum").made)
    moved = [client.submit(pam.Map.to_bytes, whole.parts[0], pure=False).result()]
    print(f"a partition of {entries // parts} entries is {len(moved[0]) / max(entries // parts, 1):.1f} bytes an entry when it is sent")


def main() -> None:
    words = argparse.ArgumentParser(description="Range sums over a map that is cut by key ranges over several processes.")
    words.add_argument("--workers", type=int, default=2)
    words.add_argument("--entries", type=int, default=100_000)
    given = words.parse_args()
    cluster = LocalCluster(
        n_workers=given.workers, threads_per_worker=1, host="127.0.0.1", dashboard_address=None, memory_limit=0
    )
    with cluster, Client(cluster) as client:
        check(client)
        measure(client, given.workers, given.entries)


if __name__ == "__main__":
    main()
