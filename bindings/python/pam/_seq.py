"""Sequences of 64-bit numbers."""
import array
import operator
from collections.abc import Iterator, MutableSequence
from typing import Any, Optional, Tuple

from ._arrays import LIMIT, Numbers, lent, number, zeros
from ._library import BAD_CALL, NOT_THERE, Held, SeqHandle, Number, check, lib

BLOCK = 1024
_MISSING: Any = object()


class Seq(Held, MutableSequence):  # type: ignore[type-arg]
    """A sequence of ints from 0 to 2**64 - 1, with the sum and the greatest of any run of items in O(log n).

    It has the methods of list. Copies, parts and concatenations share memory, and no change of one sequence is seen in another.
    Costs are in the number n of items.

    >>> s = Seq([3, 1, 2])
    >>> s.append(9)
    >>> s[1:], s.sum(0, 2), list(reversed(s))
    (Seq([1, 2, 9]), 4, [9, 2, 1, 3])
    """

    _Handle, _prefix = SeqHandle, "pam_seq_"

    def __init__(self, items: Numbers = (), /) -> None:
        """The sequence of some ints, or of an array: array.array('Q'), NumPy's uint64, a memoryview of these. O(n)."""
        if isinstance(items, Seq):
            check(lib.pam_seq_share(items._ref, self._ref))
            return
        status = lib.pam_seq_build(self._ref, *lent(items))
        if status == BAD_CALL:
            raise ValueError("pam: it was built before")
        check(status)

    def _place(self, index: int) -> int:
        """The place of an index, which may be counted from the end; the library tells whether it has an item."""
        place = operator.index(index)
        if place < 0:
            place += len(self)
        if not 0 <= place < LIMIT:
            raise IndexError("sequence index out of range")
        return place

    @staticmethod
    def _check_place(status: int) -> None:
        if status == NOT_THERE:
            raise IndexError("sequence index out of range")
        check(status)

    def _run(self, start: Optional[int], stop: Optional[int]) -> Tuple[int, int]:
        """A slice's start and count."""
        start, stop, _ = slice(start, stop).indices(len(self))
        return start, max(stop - start, 0)

    # Parts

    def _taken(self, count: int) -> "Seq":
        out = self._empty()
        check(lib.pam_seq_take(self._ref, count, out._ref))
        return out

    def _skipped(self, count: int) -> "Seq":
        out = self._empty()
        check(lib.pam_seq_skip(self._ref, count, out._ref))
        return out

    def _appended(self, other: "Seq") -> "Seq":
        out = self._empty()
        check(lib.pam_seq_append(self._ref, other._ref, out._ref))
        return out

    def _reversed(self) -> "Seq":
        out = self._empty()
        check(lib.pam_seq_reverse(self._ref, out._ref))
        return out

    def __getitem__(self, index):
        """s[i] is an item, in O(log n); s[i:j] a sequence, in O(log n), or O(n) where it has a step.

        >>> s = Seq(range(6))
        >>> s[-1], s[2:4], s[::-1], s[::2]
        (5, Seq([2, 3]), Seq([5, 4, 3, 2, 1, 0]), Seq([0, 2, 4]))
        """
        if isinstance(index, slice):
            start, stop, step = index.indices(len(self))
            if step == 1:
                return self._skipped(start)._taken(max(stop - start, 0))
            return type(self)(self.to_array()[index])
        item = Number()
        status = lib.pam_seq_get(self._ref, self._place(index), item)
        if status:
            self._check_place(status)
        return item.value

    def __setitem__(self, index, item) -> None:
        """s[i] = item, in O(log n); s[i:j] = items, in O(log n + m) for m of them.

        >>> s = Seq(range(5))
        >>> s[0] = 7
        >>> s[1:3] = [8, 8, 8]
        >>> s
        Seq([7, 8, 8, 8, 3, 4])
        """
        if not isinstance(index, slice):
            self._check_place(lib.pam_seq_set(self._ref, self._place(index), number(item)))
            return
        items = item if isinstance(item, Seq) else type(self)(item)
        start, stop, step = index.indices(len(self))
        if step == 1:
            self._take_over(self._taken(start)._appended(items)._appended(self._skipped(max(start, stop))))
        elif len(items) != len(range(start, stop, step)):
            raise ValueError(f"{len(items)} items for a slice of {len(range(start, stop, step))}")
        else:
            whole = self.to_array()
            whole[index] = items.to_array()
            self._take_over(type(self)(whole))

    def __delitem__(self, index) -> None:
        """del s[i] and del s[i:j], in O(log n), or O(n) where there is a step.

        >>> s = Seq(range(5))
        >>> del s[0], s[1:3]
        >>> s
        Seq([1, 4])
        """
        if not isinstance(index, slice):
            place = self._place(index)
            self[place]  # IndexError where there is none
            self._take_over(self._taken(place)._appended(self._skipped(place + 1)))
            return
        start, stop, step = index.indices(len(self))
        if step == 1:
            self._take_over(self._taken(start)._appended(self._skipped(max(start, stop))))
        else:
            whole = self.to_array()
            del whole[index]
            self._take_over(type(self)(whole))

    def insert(self, index: int, item: int) -> None:
        """Puts an item before a place, in O(log n). As with lists, a place beyond an end is that end.

        >>> s = Seq([1, 3])
        >>> s.insert(1, 2)
        >>> s
        Seq([1, 2, 3])
        """
        place = slice(index, None).indices(len(self))[0]
        head = self._taken(place)
        head.append(item)
        self._take_over(head._appended(self._skipped(place)))

    # The end

    def append(self, item: int) -> None:
        """Puts an item at the end. O(log n)."""
        status = lib.pam_seq_push(self._ref, number(item))
        if status:
            check(status)

    def extend(self, items: Numbers) -> None:
        """Puts items at the end: an array or ints, in O(log n + m) for m of them, or another Seq, in O(log n).

        >>> s = Seq([1])
        >>> s.extend([2, 3])
        >>> s += Seq([4])
        >>> s
        Seq([1, 2, 3, 4])
        """
        if isinstance(items, Seq):
            self._take_over(self._appended(items))
        else:
            check(lib.pam_seq_push_many(self._ref, *lent(items)))

    def __add__(self, other: "Seq") -> "Seq":
        """a + b: the items of both, in O(log n).

        >>> Seq([1]) + Seq([2])
        Seq([1, 2])
        """
        return self._appended(other) if isinstance(other, Seq) else NotImplemented

    def reverse(self) -> None:
        """Turns the sequence round. O(n)."""
        self._take_over(self._reversed())

    def clear(self) -> None:
        """Removes all. O(n), or O(1) where copies have all of it."""
        del self[:]

    # Sums

    def _fold(self, start: Optional[int], stop: Optional[int]) -> Tuple[int, int]:
        total, greatest = Number(), Number()
        check(lib.pam_seq_fold_range(self._ref, *self._run(start, stop), total, greatest))
        return total.value, greatest.value

    def sum(self, start: Optional[int] = None, stop: Optional[int] = None) -> int:
        """The sum of the items of s[start:stop]; it stays at 2**64 - 1 where it would be more. O(log n).

        >>> Seq([1, 2, 3]).sum(1)
        5
        """
        return self._fold(start, stop)[0]

    def max(self, start: Optional[int] = None, stop: Optional[int] = None, *, default: Any = _MISSING) -> Any:
        """The greatest item of s[start:stop]; where it has none the default, or ValueError. O(log n).

        >>> Seq([1, 3, 2]).max(), Seq().max(default=0)
        (3, 0)
        """
        if self._run(start, stop)[1]:
            return self._fold(start, stop)[1]
        if default is _MISSING:
            raise ValueError("max() of a run with no items")
        return default

    # Walks, over a snapshot, and arrays

    def to_array(self, start: Optional[int] = None, stop: Optional[int] = None) -> "array.array[int]":
        """The items of s[start:stop] as an array. O(log n + m) for m of them.

        >>> Seq([1, 2, 3]).to_array(1)
        array('Q', [2, 3])
        """
        place, count = self._run(start, stop)
        items, found = zeros(count), Number()
        check(lib.pam_seq_fill(self._ref, place, *lent(items), found))
        return items

    def __iter__(self) -> Iterator[int]:
        kept = self.copy()
        starts = range(0, len(kept), BLOCK)
        return (item for start in starts for item in kept.to_array(start, start + BLOCK))

    def __reversed__(self) -> Iterator[int]:
        kept = self.copy()
        stops = range(len(kept), 0, -BLOCK)
        return (item for stop in stops for item in reversed(kept.to_array(max(stop - BLOCK, 0), stop)))

    def __contains__(self, item: object) -> bool:
        return any(item == found for found in self)

    def __reduce__(self):
        return type(self), (self.to_array(),)

    def __eq__(self, other: object) -> bool:
        if not isinstance(other, Seq):
            return NotImplemented
        return len(self) == len(other) and all(mine == theirs for mine, theirs in zip(self, other))

    __hash__ = None  # type: ignore[assignment]

    def __repr__(self) -> str:
        more = ", ..." if len(self) > 10 else ""
        return f"{type(self).__name__}([{', '.join(map(str, self.to_array(0, 10)))}{more}])"
