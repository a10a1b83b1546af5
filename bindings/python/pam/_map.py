"""Maps from 64-bit numbers, with and without a sign, to 64-bit numbers."""
import array
import operator
from collections.abc import ItemsView, Iterable, Iterator, KeysView, Mapping, MutableMapping, ValuesView
from typing import Any, Optional, Tuple, Type, TypeVar, Union

from . import _library as library
from ._arrays import LIMIT, Lent, Numbers, lent, lent_bytes, moved_down, moved_up, number, zeros
from ._library import BAD_CALL, NO_ROOM, NOT_A_MAP, NOT_THERE, OK, Held, MapHandle, Number, check, lib

LAST = LIMIT - 1
FIRST_BLOCK, LARGEST_BLOCK = 32, 4096
_MISSING: Any = object()


def _resolution(how: str) -> int:
    try:
        return library.RESOLUTIONS[how]
    except KeyError:
        raise ValueError(f"how is one of {', '.join(library.RESOLUTIONS)}, not {how!r}") from None


def _of_none(name: str, default: Any) -> Any:
    """What a call answers of no entries."""
    if default is _MISSING:
        raise ValueError(f"{name}() of a part with no entries")
    return default


Self = TypeVar("Self", bound="NumberMap")


class NumberMap(Held, MutableMapping):  # type: ignore[type-arg]
    """What maps with signed and with unsigned keys have in common. The library's key, here the raw one, is the key plus _shift."""

    _Handle, _prefix = MapHandle, "pam_map_"
    _kind: str
    _shift: int
    # The type code of an array of keys, and which keys there are.
    _code: str
    _span: str

    @staticmethod
    def _lent_keys(keys: Numbers) -> Lent:
        """The array of the raw keys of some keys."""
        raise NotImplementedError

    @staticmethod
    def _told_keys(raw: "array.array[int]") -> "array.array[int]":
        """The keys of some raw ones."""
        raise NotImplementedError

    def _raw(self, key: int) -> int:
        """The raw key of a key, OverflowError where it can be none."""
        raw = operator.index(key) + self._shift
        if not 0 <= raw < LIMIT:
            raise OverflowError(f"{raw - self._shift} is not in {self._span}")
        return raw

    def _closed(self, lo: Optional[int], hi: Optional[int]) -> Optional[Tuple[int, int]]:
        """The least and the greatest raw key of those from lo up to hi; None where no key is in between."""
        least = 0 if lo is None else max(operator.index(lo) + self._shift, 0)
        greatest = LAST if hi is None else min(operator.index(hi) + self._shift, LIMIT) - 1
        return (least, greatest) if least <= greatest else None

    def _alike(self, other: object) -> bool:
        """Whether the other is a map of the same keys."""
        return isinstance(other, NumberMap) and other._shift == self._shift

    def __init__(self, source: Union[Mapping, Iterable[Tuple[int, int]]] = (), /) -> None:
        """The map of a mapping or of pairs, of which a later one of a key wins. O(n log n).

        >>> Map([(1, 10), (2, 20), (1, 11)])
        Map({1: 11, 2: 20})
        """
        if self._alike(source):
            check(lib.pam_map_share(source._ref, self._ref))  # type: ignore[union-attr]
        else:
            self._build(*self._columns(source))

    @classmethod
    def _columns(cls, source: Any):
        keys, vals = array.array(cls._code), array.array("Q")
        for key, val in source.items() if isinstance(source, Mapping) else source:
            keys.append(key)
            vals.append(val)
        return keys, vals

    def _build(self, keys: Numbers, vals: Numbers) -> None:
        status = lib.pam_map_build(self._ref, *self._two_arrays(keys, vals))
        if status == BAD_CALL:
            raise ValueError("pam: it was built before")
        check(status)

    # Arrays

    def _two_arrays(self, keys: Numbers, vals: Numbers):
        """Two arrays as four arguments."""
        raw, vals = self._lent_keys(keys), lent(vals)
        if raw.length != vals.length:
            raise ValueError(f"{raw.length} keys and {vals.length} values")
        return (*raw, *vals)

    @classmethod
    def from_arrays(cls: Type[Self], keys: Numbers, vals: Numbers) -> Self:
        """The map of two arrays of one length: array.array('Q'), NumPy's uint64, memoryviews of these, or any ints. O(n log n),
        and O(n) where the keys rise.

        >>> from array import array
        >>> Map.from_arrays(array("Q", [2, 1]), array("Q", [20, 10]))
        Map({1: 10, 2: 20})
        """
        out = cls._empty()
        out._build(keys, vals)
        return out

    def put_many(self, keys: Numbers, vals: Numbers) -> None:
        """Puts arrays as from_arrays takes them; a later pair of a key wins. O(m log(n + m)) for m pairs.

        >>> m = Map({1: 10})
        >>> m.put_many([2, 1], [20, 11])
        >>> m
        Map({1: 11, 2: 20})
        """
        check(lib.pam_map_put_many(self._ref, *self._two_arrays(keys, vals)))

    def get_many(self, keys: Numbers) -> "Tuple[array.array[int], bytearray]":
        """The values at keys, 0 where one is absent, and a byte for each that is 1 where it is there. O(m log n) for m keys.

        >>> Map({1: 10, 2: 20}).get_many([2, 5])
        (array('Q', [20, 0]), bytearray(b'\\x01\\x00'))
        """
        raw = self._lent_keys(keys)
        vals, present = zeros(raw.length), bytearray(raw.length)
        check(lib.pam_map_get_many(self._ref, *raw, *lent(vals), *lent_bytes(present)))
        return vals, present

    def del_many(self, keys: Numbers) -> None:
        """Removes keys, which need not be there. O(m log(n + m)) for m keys.

        >>> m = Map({1: 10, 2: 20})
        >>> m.del_many([1, 7])
        >>> m
        Map({2: 20})
        """
        check(lib.pam_map_del_many(self._ref, *self._lent_keys(keys)))

    def items_arrays(self, lo: Optional[int] = None, hi: Optional[int] = None) -> "Tuple[array.array[int], array.array[int]]":
        """The keys from lo up to hi and their values, as two arrays in the order of keys. O(log n + m) for m entries.

        >>> Map({1: 10, 2: 20, 3: 30}).items_arrays(2)
        (array('Q', [2, 3]), array('Q', [20, 30]))
        """
        ends = self._closed(lo, hi)
        return self._filled(ends[0], self.count(lo, hi)) if ends else self._filled(0, 0)

    def keys_array(self, lo: Optional[int] = None, hi: Optional[int] = None) -> "array.array[int]":
        """The keys from lo up to hi, in order. O(log n + m) for m of them.

        >>> Map({2: 20, 1: 10}).keys_array()
        array('Q', [1, 2])
        """
        return self.items_arrays(lo, hi)[0]

    def _filled(self, first: int, count: int):
        """The first entries from a raw key on, of which there have to be so many."""
        raw, vals, found = zeros(count), zeros(count), Number()
        check(lib.pam_map_fill(self._ref, first, *lent(raw), *lent(vals), found))
        return self._told_keys(raw), vals

    # Single entries

    def _find(self, key: int) -> Optional[int]:
        raw = operator.index(key) + self._shift
        val = Number()
        status = lib.pam_map_get(self._ref, raw, val) if 0 <= raw < LIMIT else NOT_THERE
        if status == OK:
            return val.value
        if status != NOT_THERE:
            check(status)
        return None

    def __getitem__(self, key):
        """m[key] is the value at a key, or KeyError; m[lo:hi] the map of the entries with keys from lo up to hi. O(log n).

        >>> m = Map({1: 10, 2: 20, 3: 30})
        >>> m[2], m[2:].sum(), m[:3].max()
        (20, 50, 20)
        """
        if isinstance(key, slice):
            return self._part(key)
        val = self._find(key)
        if val is None:
            raise KeyError(key)
        return val

    def get(self, key: int, default: Any = None) -> Any:
        """The value at a key, or the default. O(log n)."""
        val = self._find(key)
        return default if val is None else val

    def __contains__(self, key: object) -> bool:
        return self._find(key) is not None  # type: ignore[arg-type]

    def __setitem__(self, key: int, val: int) -> None:
        """Sets a key to a value. O(log n)."""
        status = lib.pam_map_put(self._ref, self._raw(key), number(val))
        if status:
            check(status)

    def __delitem__(self, key) -> None:
        """del m[key] removes a key, or raises KeyError; del m[lo:hi] removes those from lo up to hi. O(log n).

        >>> m = Map({1: 10, 2: 20, 3: 30, 4: 40})
        >>> del m[1], m[3:]
        >>> m
        Map({2: 20})
        """
        if isinstance(key, slice):
            self._cut(key)
            return
        raw = operator.index(key) + self._shift
        status = lib.pam_map_del(self._ref, raw) if 0 <= raw < LIMIT else NOT_THERE
        if status == NOT_THERE:
            raise KeyError(key)
        check(status)

    def update(self, other: Union[Mapping, Iterable[Tuple[int, int]]] = (), /) -> None:  # type: ignore[override]
        """Puts all entries of a map, a mapping or pairs. O(m log(n / m + 1)) for a Map of m entries, m at most n.

        >>> m = Map({1: 10})
        >>> m.update({1: 11, 2: 20})
        >>> m
        Map({1: 11, 2: 20})
        """
        if self._alike(other):
            self._take_over(self.union(other))  # type: ignore[arg-type]
        else:
            self.put_many(*self._columns(other))

    def clear(self) -> None:
        """Removes all. O(n), or O(1) where copies have all of it."""
        del self[:]

    # Order

    def peekitem(self, index: int = -1) -> Tuple[int, int]:
        """The key and the value at a place in the order of keys, from the end where it is negative. O(log n).

        >>> m = Map({1: 10, 2: 20, 3: 30})
        >>> m.peekitem(), m.peekitem(0)
        ((3, 30), (1, 10))
        """
        place = operator.index(index)
        size = len(self)
        if place < 0:
            place += size
        if not 0 <= place < size:
            raise IndexError("map index out of range")
        return self._select(place)

    def _select(self, place: int) -> Tuple[int, int]:
        key, val = Number(), Number()
        check(lib.pam_map_select(self._ref, place, key, val))
        return key.value - self._shift, val.value

    def popitem(self, index: int = -1) -> Tuple[int, int]:
        """Removes and answers the entry at a place, the last one if none is named; KeyError where the map is empty. O(log n).

        >>> m = Map({1: 10, 2: 20})
        >>> m.popitem(), m
        ((2, 20), Map({1: 10}))
        """
        if not len(self):
            raise KeyError("popitem(): map is empty")
        entry = self.peekitem(index)
        del self[entry[0]]
        return entry

    def bisect_left(self, key: int) -> int:
        """How many keys are less than a key. O(log n).

        >>> m = Map({1: 10, 3: 30})
        >>> m.bisect_left(3), m.bisect_right(3), m.bisect(2)
        (1, 2, 1)
        """
        raw = operator.index(key) + self._shift
        return len(self) if raw >= LIMIT else self._rank(max(raw, 0))

    def bisect_right(self, key: int) -> int:
        """How many keys are at most a key. O(log n)."""
        return self.bisect_left(operator.index(key) + 1)

    bisect = bisect_right

    def _rank(self, raw: int) -> int:
        """How many raw keys are less than this one."""
        place = Number()
        check(lib.pam_map_rank(self._ref, raw, place))
        return place.value

    def _rank_past(self, raw: int) -> int:
        """How many raw keys are at most this one."""
        return len(self) if raw == LAST else self._rank(raw + 1)

    def count(self, lo: Optional[int] = None, hi: Optional[int] = None) -> int:
        """How many keys are from lo up to hi. O(log n).

        >>> Map({1: 10, 2: 20, 3: 30}).count(2)
        2
        """
        found = Number()
        # A range with no keys is asked as one that none is in, so that a closed map is found.
        check(lib.pam_map_count(self._ref, *(self._closed(lo, hi) or (1, 0)), found))
        return found.value

    def next_item(self, key: int) -> Optional[Tuple[int, int]]:
        """The entry with the least key that is greater, if there is one. O(log n).

        >>> m = Map({1: 10, 3: 30})
        >>> m.next_item(1), m.next_item(3), m.prev_item(3)
        ((3, 30), None, (1, 10))
        """
        place = self.bisect_right(key)
        return self._select(place) if place < len(self) else None

    def prev_item(self, key: int) -> Optional[Tuple[int, int]]:
        """The entry with the greatest key that is less, if there is one. O(log n)."""
        place = self.bisect_left(key)
        return self._select(place - 1) if place else None

    # Sums

    def _fold(self, lo: Optional[int], hi: Optional[int]) -> Tuple[int, int]:
        total, greatest = Number(), Number()
        if lo is None and hi is None:
            check(lib.pam_map_fold(self._ref, total, greatest))
            return total.value, greatest.value
        ends = self._closed(lo, hi)
        # A range with no keys is asked as one that none is in, so that a closed map is found.
        check(lib.pam_map_fold_range(self._ref, *(ends or (1, 0)), total, greatest))
        return total.value, greatest.value

    def sum(self, lo: Optional[int] = None, hi: Optional[int] = None) -> int:
        """The sum of the values at keys from lo up to hi; it stays at 2**64 - 1 where it would be more. O(log n), O(1) for all.

        >>> Map({1: 10, 2: 20, 3: 30}).sum(2, 4)
        50
        """
        return self._fold(lo, hi)[0]

    def max(self, lo: Optional[int] = None, hi: Optional[int] = None, *, default: Any = _MISSING) -> Any:
        """The greatest of the values at keys from lo up to hi; where there are none the default, or ValueError. O(log n).

        >>> m = Map({1: 10, 2: 20, 3: 5})
        >>> m.max(), m.max(3), m.max(7, default=0)
        (20, 5, 0)
        """
        greatest = self._fold(lo, hi)[1]
        return greatest if greatest or self.count(lo, hi) else _of_none("max", default)

    def min(self, lo: Optional[int] = None, hi: Optional[int] = None, *, default: Any = _MISSING) -> Any:
        """The least of the values at keys from lo up to hi; where there are none the default, or ValueError. O(log n), O(1) for all.

        >>> m = Map({1: 10, 2: 20, 3: 5})
        >>> m.min(), m[:3].min(), m.min(7, default=0)
        (5, 10, 0)
        """
        least = Number()
        if lo is None and hi is None:
            status = lib.pam_map_least(self._ref, least)
        else:
            status = lib.pam_map_least_range(self._ref, *(self._closed(lo, hi) or (1, 0)), least)
        if status == NOT_THERE:
            return _of_none("min", default)
        check(status)
        return least.value

    def mean(self, lo: Optional[int] = None, hi: Optional[int] = None, *, default: Any = _MISSING) -> Any:
        """The mean of the values at keys from lo up to hi, their sum by their number; where there are none the default, or
        ValueError. Where the sum stays at 2**64 - 1, the mean is too small. O(log n).

        >>> m = Map({1: 10, 2: 20, 3: 5})
        >>> m[:3].mean(), m.mean(2), m.mean(7, default=None)
        (15.0, 12.5, None)
        """
        count = self.count(lo, hi)
        return self.sum(lo, hi) / count if count else _of_none("mean", default)

    # Parts and set operations

    def _ends(self, part: slice) -> Optional[Tuple[int, int]]:
        if part.step is not None:
            raise ValueError("a slice of a map has no step")
        return self._closed(part.start, part.stop)

    def _part(self: Self, part: slice) -> Self:
        return self._between(*(self._ends(part) or (1, 0)))

    def _between(self: Self, least: int, greatest: int) -> Self:
        """The map of the entries from one raw key to another, both included."""
        out = self._empty()
        check(lib.pam_map_range(self._ref, *((least, greatest) if least <= greatest else (1, 0)), out._ref))
        return out

    def _cut(self, part: slice) -> None:
        ends = self._ends(part)
        if ends is not None:
            self._take_over(self._between(0, ends[0] - 1).union(self._between(ends[1] + 1, LAST)))

    def split(self: Self, key: int) -> Tuple[Self, Self]:
        """The map of the entries with lesser keys, and that of the others. O(log n).

        >>> Map({1: 10, 2: 20, 3: 30}).split(2)
        (Map({1: 10}), Map({2: 20, 3: 30}))
        """
        return self[:key], self[key:]

    def union(self: Self, other: Self, how: str = "second") -> Self:
        """The entries of either map. At a key of both `how` says which value: that of the `first`, of the `second` (as dict's
        `|`), their `sum` (at most 2**64 - 1) or the greater, `max`. O(m log(n / m + 1)) for m and n entries, m at most n.

        >>> a, b = Map({1: 10, 2: 20}), Map({2: 5})
        >>> a.union(b, how="sum"), a | b
        (Map({1: 10, 2: 25}), Map({1: 10, 2: 5}))
        """
        return self._joined(lib.pam_map_union, other, _resolution(how))

    def intersection(self: Self, other: Self, how: str = "first") -> Self:
        """The entries whose keys both maps have, with the value that `how` says, in the time of union. `a & b` has a's values.

        >>> Map({1: 10, 2: 20}).intersection(Map({2: 5, 3: 30}))
        Map({2: 20})
        """
        return self._joined(lib.pam_map_intersection, other, _resolution(how))

    def difference(self: Self, other: Self) -> Self:
        """The entries whose keys the other map hasn't, in the time of union. `a - b` is the same.

        >>> Map({1: 10, 2: 20}) - Map({2: 5})
        Map({1: 10})
        """
        return self._joined(lib.pam_map_difference, other)

    def _joined(self: Self, call: Any, other: Self, *how: int) -> Self:
        if not self._alike(other):
            raise TypeError(f"wanted a {self._kind}, not {type(other).__name__}")
        out = self._empty()
        check(call(self._ref, other._ref, *how, out._ref))
        return out

    def __or__(self: Self, other: Self) -> Self:
        return self.union(other) if self._alike(other) else NotImplemented

    def __and__(self: Self, other: Self) -> Self:
        return self.intersection(other) if self._alike(other) else NotImplemented

    def __sub__(self: Self, other: Self) -> Self:
        return self.difference(other) if self._alike(other) else NotImplemented

    def __ior__(self: Self, other: Any) -> Self:  # type: ignore[misc]
        self.update(other)
        return self

    # Walks, each over a snapshot: the map may be changed meanwhile, and the walk does not see it

    def _blocks(self, least: int, greatest: int, backwards: bool = False):
        """Arrays of keys and values, from the least to the greatest raw key, in blocks that grow."""
        start, stop, most = self._rank(least), self._rank_past(greatest), FIRST_BLOCK
        while start < stop:
            count = min(most, stop - start)
            if backwards:
                stop -= count
            keys, vals = self._filled(self._select(stop if backwards else start)[0] + self._shift, count)
            if backwards:
                keys.reverse()
                vals.reverse()
            else:
                start += count
            yield keys, vals
            most = min(2 * most, LARGEST_BLOCK)

    def _walk(self, part: int, lo: int = 0, hi: int = LAST, backwards: bool = False) -> Iterator[int]:
        blocks = self.copy()._blocks(lo, hi, backwards)
        return (found for block in blocks for found in block[part])

    def __iter__(self) -> Iterator[int]:
        return self._walk(0)

    def __reversed__(self) -> Iterator[int]:
        return self._walk(0, backwards=True)

    def keys(self) -> KeysView:
        return _Keys(self)

    def values(self) -> ValuesView:
        return _Values(self)

    def items(self) -> ItemsView:
        return _Items(self)

    def irange(
        self,
        minimum: Optional[int] = None,
        maximum: Optional[int] = None,
        inclusive: Tuple[bool, bool] = (True, True),
        reverse: bool = False,
    ) -> Iterator[int]:
        """The keys from a least to a greatest one, as sortedcontainers' irange: both included unless `inclusive` says otherwise.
        O(log n + m) for m keys.

        >>> m = Map((k, 0) for k in range(10))
        >>> list(m.irange(2, 5)), list(m.irange(7, reverse=True))
        ([2, 3, 4, 5], [9, 8, 7])
        """
        lo = None if minimum is None else operator.index(minimum) + (not inclusive[0])
        hi = None if maximum is None else operator.index(maximum) + bool(inclusive[1])
        ends = self._closed(lo, hi)
        return self._walk(0, *ends, backwards=reverse) if ends else iter(())

    # Bytes, and what is compared and shown

    def to_bytes(self) -> bytes:
        """The map as bytes; equal maps give equal bytes. O(n).

        >>> m = Map({1: 10})
        >>> Map.from_bytes(m.to_bytes()) == m
        True
        """
        room, needed = 64 + 20 * len(self), Number()
        while True:
            out = bytearray(room)
            status = lib.pam_map_bytes(self._ref, *lent_bytes(out), needed)
            if status != NO_ROOM:
                check(status)
                return bytes(memoryview(out)[: needed.value])
            room = needed.value

    @classmethod
    def from_bytes(cls: Type[Self], data: Any) -> Self:
        """The map of bytes that to_bytes wrote; ValueError for any others. O(n)."""
        out = cls._empty()
        status = lib.pam_map_from_bytes(out._ref, *lent_bytes(data))
        if status == NOT_A_MAP:
            raise ValueError("not the bytes of a map")
        check(status)
        return out

    def __reduce__(self):
        return type(self).from_bytes, (self.to_bytes(),)

    def __eq__(self, other: Any) -> Any:
        if not self._alike(other):
            return dict(self.items()) == dict(other.items()) if isinstance(other, Mapping) else NotImplemented
        if len(self) != len(other):
            return False
        pairs = zip(self._blocks(0, LAST), other._blocks(0, LAST))
        return all(mine == theirs for mine, theirs in pairs)

    __hash__ = None  # type: ignore[assignment]

    def __repr__(self) -> str:
        keys, vals = self._filled(0, min(len(self), 10))
        shown = [f"{key}: {val}" for key, val in zip(keys, vals)]
        more = ", ..." if len(self) > len(shown) else ""
        return f"{type(self).__name__}({{{', '.join(shown)}{more}}})"


class _Keys(KeysView):  # type: ignore[type-arg]
    _mapping: NumberMap

    def __reversed__(self) -> Iterator[int]:
        return reversed(self._mapping)


class _Values(ValuesView):  # type: ignore[type-arg]
    _mapping: NumberMap

    def __iter__(self) -> Iterator[int]:
        return self._mapping._walk(1)

    def __reversed__(self) -> Iterator[int]:
        return self._mapping._walk(1, backwards=True)

    def __contains__(self, val: object) -> bool:
        return any(val == found for found in self)


class _Items(ItemsView):  # type: ignore[type-arg]
    _mapping: NumberMap

    def __iter__(self) -> Iterator[Tuple[int, int]]:
        blocks = self._mapping.copy()._blocks(0, LAST)
        return (entry for keys, vals in blocks for entry in zip(keys, vals))

    def __reversed__(self) -> Iterator[Tuple[int, int]]:
        blocks = self._mapping.copy()._blocks(0, LAST, backwards=True)
        return (entry for keys, vals in blocks for entry in zip(keys, vals))


class Map(NumberMap):
    """A sorted map of ints from 0 to 2**64 - 1, with the sum, the greatest, the least and the mean of the values of any range of keys
    in O(log n).

    It has the methods of dict and of sortedcontainers' SortedDict. Copies, parts and set operations share memory, and no change
    of one map is seen in another. Costs are in the number n of entries.

    >>> m = Map({3: 30, 1: 10, 2: 20})
    >>> list(m), m[2], m.sum(1, 3)
    ([1, 2, 3], 20, 30)

    Keys of another kind than int are a TypeError. An int beyond 64 bits is no key of any map, and an OverflowError where it is to
    be put. Parts are half-open, as ranges and slices are.
    """

    _kind, _shift, _code, _span = "Map", 0, "Q", "0 to 2**64 - 1"
    _lent_keys = staticmethod(lent)

    @staticmethod
    def _told_keys(raw: "array.array[int]") -> "array.array[int]":
        return raw


class SignedMap(NumberMap):
    """A sorted map of ints from -2**63 to 2**63 - 1 to ints from 0 to 2**64 - 1: a Map in which the keys are moved up by 2**63, with
    its methods and costs.

    >>> m = SignedMap({-3: 30, 1: 10, -2**63: 20})
    >>> list(m), m[-3], m.sum(-3, 2), m[:0]
    ([-9223372036854775808, -3, 1], 30, 40, SignedMap({-9223372036854775808: 20, -3: 30}))

    Arrays of keys are of signed numbers, as array.array('q') and NumPy's int64, and are copied. The bytes are those of the Map with the
    moved keys, and say nothing of signs.

    >>> m.keys_array(-5)
    array('q', [-3, 1])
    """

    _kind, _shift, _code, _span = "SignedMap", LIMIT // 2, "q", "-2**63 to 2**63 - 1"
    _told_keys = staticmethod(moved_down)

    @staticmethod
    def _lent_keys(keys: Numbers) -> Lent:
        return lent(moved_up(keys))
