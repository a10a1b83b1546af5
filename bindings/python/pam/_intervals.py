"""Sets of closed intervals of 64-bit numbers."""
import array
from collections.abc import Collection, Iterable, Iterator
from typing import Any, List, Tuple

from ._arrays import LIMIT, Numbers, lent, number, zeros
from ._library import BAD_CALL, NO_ROOM, NOT_THERE, Held, IntervalsHandle, Number, check, lib

BLOCK, ROOM = 1024, 64
LAST = LIMIT - 1
Interval = Tuple[int, int]


def _pair(left: int, right: int) -> Interval:
    left, right = number(left), number(right)
    if left > right:
        raise ValueError(f"an interval from {left} to {right} has its ends the wrong way round")
    return left, right


class Intervals(Held, Collection):  # type: ignore[type-arg]
    """A set of closed intervals of ints from 0 to 2**64 - 1, each a pair (left, right) with both ends in it.

    Ends beyond 64 bits are an OverflowError in every call, and left ends greater than their right ones a ValueError where they
    are to be added or asked for. Costs are in the number n of intervals and the number m of those that are answered.

    >>> rooms = Intervals([(9, 12), (11, 14)])
    >>> rooms.stab(11), (9, 12) in rooms, rooms.overlapping(13, 20)
    ([(9, 12), (11, 14)], True, [(11, 14)])
    """

    _Handle, _prefix = IntervalsHandle, "pam_intervals_"

    def __init__(self, intervals: Iterable[Interval] = (), /) -> None:
        """The set of some intervals. O(n log n); ValueError where a left end is greater than its right one."""
        if isinstance(intervals, Intervals):
            check(lib.pam_intervals_share(intervals._ref, self._ref))
            return
        lefts, rights = array.array("Q"), array.array("Q")
        for left, right in intervals:
            lefts.append(left)
            rights.append(right)
        self._build(lefts, rights)

    @classmethod
    def from_arrays(cls, lefts: Numbers, rights: Numbers) -> "Intervals":
        """The set of two arrays of one length: array.array('Q'), NumPy's uint64, memoryviews of these, or any ints. O(n log n).

        >>> Intervals.from_arrays([5, 1], [6, 2])
        Intervals([(1, 2), (5, 6)])
        """
        out = cls._empty()
        out._build(lefts, rights)
        return out

    def _build(self, lefts: Numbers, rights: Numbers) -> None:
        lefts, rights = lent(lefts), lent(rights)
        if lefts.length != rights.length:
            raise ValueError(f"{lefts.length} left ends and {rights.length} right ends")
        status = lib.pam_intervals_build(self._ref, *lefts, *rights)
        if status == BAD_CALL:
            raise ValueError("pam: a left end is greater than its right end, or the set was built before")
        check(status)

    def add(self, left: int, right: int) -> None:
        """Adds an interval, which may be there. O(log n).

        >>> a = Intervals()
        >>> a.add(1, 5)
        >>> a
        Intervals([(1, 5)])
        """
        check(lib.pam_intervals_add(self._ref, *_pair(left, right)))

    def discard(self, left: int, right: int) -> None:
        """Removes an interval, if it is there. O(log n)."""
        self._removed(left, right)

    def remove(self, left: int, right: int) -> None:
        """Removes an interval, or raises KeyError. O(log n)."""
        if not self._removed(left, right):
            raise KeyError((left, right))

    def _removed(self, left: int, right: int) -> bool:
        status = lib.pam_intervals_del(self._ref, number(left), number(right))
        if status == NOT_THERE:
            return False
        check(status)
        return True

    def covers(self, point: int) -> bool:
        """Whether an interval has the point in it. O(log n).

        >>> Intervals([(1, 5)]).covers(5), Intervals([(1, 5)]).covers(6)
        (True, False)
        """
        status = lib.pam_intervals_any(self._ref, number(point))
        if status == NOT_THERE:
            return False
        check(status)
        return True

    def stab(self, point: int) -> List[Interval]:
        """The intervals that have a point in them, in order. O(log n + m log n).

        >>> Intervals([(1, 5), (2, 3)]).stab(4)
        [(1, 5)]
        """
        return self._listed(lib.pam_intervals_stab, number(point))

    def overlapping(self, lo: int, hi: int) -> List[Interval]:
        """The intervals that have a number from lo to hi, both included, in them, in order. O(log n + m log n).

        >>> Intervals([(1, 5), (8, 9)]).overlapping(5, 7)
        [(1, 5)]
        """
        return self._listed(lib.pam_intervals_overlapping, *_pair(lo, hi))

    def _listed(self, call: Any, *words: int) -> List[Interval]:
        room, count = ROOM, Number()
        while True:
            lefts, rights = zeros(room), zeros(room)
            status = call(self._ref, *words, *lent(lefts), *lent(rights), count)
            if status != NO_ROOM:
                check(status)
                return list(zip(lefts[: count.value], rights))
            room = count.value

    def __contains__(self, interval: Any) -> bool:
        left, right = interval
        return self._filled(number(left), number(right), 1) == [(left, right)]

    def _filled(self, left: int, right: int, room: int) -> List[Interval]:
        lefts, rights, count = zeros(room), zeros(room), Number()
        check(lib.pam_intervals_fill(self._ref, left, right, *lent(lefts), *lent(rights), count))
        return list(zip(lefts[: count.value], rights))

    def _blocks(self) -> Iterator[List[Interval]]:
        first = (0, 0)
        while True:
            block = self._filled(*first, BLOCK)
            yield block
            if len(block) < BLOCK or block[-1] == (LAST, LAST):
                return
            left, right = block[-1]
            first = (left, right + 1) if right < LAST else (left + 1, 0)

    def __iter__(self) -> Iterator[Interval]:
        """The intervals by rising left ends, and of one left end by rising right ends, of a snapshot."""
        kept = self.copy()
        return (interval for block in kept._blocks() for interval in block)

    def __reduce__(self):
        return type(self), (list(self),)

    def __eq__(self, other: object) -> bool:
        if not isinstance(other, Intervals):
            return NotImplemented
        return len(self) == len(other) and all(mine == theirs for mine, theirs in zip(self, other))

    __hash__ = None  # type: ignore[assignment]

    def __repr__(self) -> str:
        shown = [f"({left}, {right})" for left, right in self._filled(0, 0, 10)]
        more = ", ..." if len(self) > 10 else ""
        return f"{type(self).__name__}([{', '.join(shown)}{more}])"
