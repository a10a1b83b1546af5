"""Maps from byte strings to 64-bit numbers."""
import array
import operator
from collections.abc import ItemsView, Iterable, Iterator, Mapping, MutableMapping, ValuesView
from typing import Any, List, Optional, Tuple, Union

from ._arrays import lent, lent_bytes, number, zeros
from ._library import NO_ROOM, NOT_THERE, OK, RESOLUTIONS, Held, Number, TextMapHandle, check, lib

KEY_ROOM, BLOCK, BLOCK_ROOM = 64, 1024, 16384
_MISSING: Any = object()

Key = Union[bytes, str]
Entry = Tuple[bytes, int]


def _bytes(key: Any) -> bytes:
    """The bytes of a key: a str's are its UTF-8."""
    if isinstance(key, bytes):
        return key
    if isinstance(key, str):
        return key.encode()
    if isinstance(key, (bytearray, memoryview)):
        return bytes(key)
    raise TypeError(f"a key is bytes or str, not {type(key).__name__}")


def _after(key: bytes) -> bytes:
    """The least key that is greater."""
    return key + b"\0"


def _resolution(how: str) -> int:
    try:
        return RESOLUTIONS[how]
    except KeyError:
        raise ValueError(f"how is one of {', '.join(RESOLUTIONS)}, not {how!r}") from None


class TextMap(Held, MutableMapping):  # type: ignore[type-arg]
    """A sorted map of byte strings to ints from 0 to 2**64 - 1, with the sum and the greatest of the values of any range of keys in
    O(log n).

    A key is handed in as bytes or as a str, which stands for its UTF-8, and answered as bytes. Keys are in the order of their bytes,
    which is that of str too. Copies, parts and set operations share memory, and no change of one map is seen in another. Costs are in
    the number n of entries, and count comparisons of keys.

    >>> m = TextMap({"fig": 3, "apple": 7, "pear": 1})
    >>> list(m), m["fig"], m.sum("b")
    ([b'apple', b'fig', b'pear'], 3, 4)

    Keys of another kind are a TypeError. Parts are half-open, as slices are.
    """

    _Handle, _prefix = TextMapHandle, "pam_text_map_"

    def __init__(self, source: Union[Mapping, Iterable[Tuple[Key, int]]] = (), /) -> None:
        """The map of a mapping or of pairs, of which a later one of a key wins. O(n log n).

        >>> TextMap([("a", 10), (b"b", 20), ("a", 11)])
        TextMap({b'a': 11, b'b': 20})
        """
        if isinstance(source, TextMap):
            check(lib.pam_text_map_share(source._ref, self._ref))
        else:
            check(lib.pam_text_map_new(self._ref))
            self.put_many(source)

    def put_many(self, source: Union[Mapping, Iterable[Tuple[Key, int]]], /) -> None:
        """Puts the entries of a mapping, or pairs; a later pair of a key wins. O(m log(n + m)) for m of them.

        >>> m = TextMap({"a": 10})
        >>> m.put_many([("b", 20), ("a", 11)])
        >>> m
        TextMap({b'a': 11, b'b': 20})
        """
        keys, ends, vals = bytearray(), array.array("Q"), array.array("Q")
        for key, val in source.items() if isinstance(source, Mapping) else source:
            keys += _bytes(key)
            ends.append(len(keys))
            vals.append(val)
        check(lib.pam_text_map_put_many(self._ref, *lent_bytes(keys), *lent(ends), *lent(vals)))

    def update(self, source: Union[Mapping, Iterable[Tuple[Key, int]]] = (), /, **entries: int) -> None:  # type: ignore[override]
        """As dict's, and as put_many."""
        self.put_many(source)
        self.put_many(entries)

    # Single entries

    def _find(self, key: Any) -> Optional[int]:
        key = _bytes(key)
        val = Number()
        status = lib.pam_text_map_get(self._ref, key, len(key), val)
        if status == OK:
            return val.value
        if status != NOT_THERE:
            check(status)
        return None

    def __getitem__(self, key):
        """m[key] is the value at a key, or KeyError; m[lo:hi] the map of the entries with keys from lo up to hi. O(log n).

        >>> m = TextMap({"a": 10, "b": 20, "c": 30})
        >>> m["b"], m["b":].sum(), m[:"c"].max()
        (20, 50, 20)
        """
        if isinstance(key, slice):
            return self._part(key)
        val = self._find(key)
        if val is None:
            raise KeyError(key)
        return val

    def get(self, key: Key, default: Any = None) -> Any:
        """The value at a key, or the default. O(log n)."""
        val = self._find(key)
        return default if val is None else val

    def __contains__(self, key: object) -> bool:
        word = _bytes(key)
        status = lib.pam_text_map_contains(self._ref, word, len(word))
        if status == NOT_THERE:
            return False
        check(status)
        return True

    def __setitem__(self, key: Key, val: int) -> None:
        """Sets a key to a value. O(log n)."""
        word = _bytes(key)
        check(lib.pam_text_map_put(self._ref, word, len(word), number(val)))

    def __delitem__(self, key) -> None:
        """del m[key] removes a key, or raises KeyError; del m[lo:hi] removes those from lo up to hi. O(log n).

        >>> m = TextMap({"a": 10, "b": 20, "c": 30, "d": 40})
        >>> del m["a"], m["c":]
        >>> m
        TextMap({b'b': 20})
        """
        if isinstance(key, slice):
            self._cut(key)
            return
        word = _bytes(key)
        status = lib.pam_text_map_del(self._ref, word, len(word))
        if status == NOT_THERE:
            raise KeyError(key)
        check(status)

    def clear(self) -> None:
        """Removes all entries."""
        self._take_over(type(self)())

    # Order

    def _entry(self, call: Any, *words: Any) -> Optional[Entry]:
        """The entry that a call writes, if there is one."""
        room, count, val = KEY_ROOM, Number(), Number()
        while True:
            key = bytearray(room)
            status = call(self._ref, *words, *lent_bytes(key), count, val)
            if status == NOT_THERE:
                return None
            if status != NO_ROOM:
                check(status)
                return bytes(memoryview(key)[: count.value]), val.value
            room = count.value

    def _at(self, place: int) -> Entry:
        entry = self._entry(lib.pam_text_map_select, place)
        if entry is None:
            raise IndexError("map index out of range")
        return entry

    def peekitem(self, index: int = -1) -> Entry:
        """The key and the value at a place in the order of keys, from the end where it is negative. O(log n).

        >>> m = TextMap({"a": 10, "b": 20, "c": 30})
        >>> m.peekitem(), m.peekitem(0)
        ((b'c', 30), (b'a', 10))
        """
        place = operator.index(index)
        size = len(self)
        if place < 0:
            place += size
        if not 0 <= place < size:
            raise IndexError("map index out of range")
        return self._at(place)

    def popitem(self, index: int = -1) -> Entry:
        """Removes and answers the entry at a place, the last one if none is named; KeyError where the map is empty. O(log n)."""
        if not len(self):
            raise KeyError("popitem(): map is empty")
        entry = self.peekitem(index)
        del self[entry[0]]
        return entry

    def bisect_left(self, key: Key) -> int:
        """How many keys are less than a key. O(log n).

        >>> m = TextMap({"a": 10, "c": 30})
        >>> m.bisect_left("c"), m.bisect_right("c"), m.bisect("b")
        (1, 2, 1)
        """
        return self._rank(_bytes(key))

    def bisect_right(self, key: Key) -> int:
        """How many keys are at most a key. O(log n)."""
        return self._rank(_after(_bytes(key)))

    bisect = bisect_right

    def _rank(self, key: bytes) -> int:
        place = Number()
        check(lib.pam_text_map_rank(self._ref, key, len(key), place))
        return place.value

    def next_item(self, key: Key) -> Optional[Entry]:
        """The entry with the least key that is greater, if there is one. O(log n).

        >>> m = TextMap({"a": 10, "c": 30})
        >>> m.next_item("a"), m.next_item("c"), m.prev_item("c")
        ((b'c', 30), None, (b'a', 10))
        """
        word = _bytes(key)
        return self._entry(lib.pam_text_map_next, word, len(word))

    def prev_item(self, key: Key) -> Optional[Entry]:
        """The entry with the greatest key that is less, if there is one. O(log n)."""
        word = _bytes(key)
        return self._entry(lib.pam_text_map_prev, word, len(word))

    def _places(self, lo: Optional[Key], hi: Optional[Key]) -> Tuple[int, int]:
        """The places of the entries with keys from lo up to hi: the first, and that behind the last."""
        start = 0 if lo is None else self.bisect_left(lo)
        stop = len(self) if hi is None else self.bisect_left(hi)
        return start, max(start, stop)

    # Sums

    def _fold(self, lo: Optional[Key], hi: Optional[Key]) -> Optional[Tuple[int, int]]:
        """The sum and the greatest of the values at keys from lo up to hi; None where there are none."""
        start, stop = self._places(lo, hi)
        if start == stop:
            return None
        total, greatest = Number(), Number()
        first, last = self._at(start)[0], self._at(stop - 1)[0]
        check(lib.pam_text_map_fold_range(self._ref, first, len(first), last, len(last), total, greatest))
        return total.value, greatest.value

    def sum(self, lo: Optional[Key] = None, hi: Optional[Key] = None) -> int:
        """The sum of the values at keys from lo up to hi; it stays at 2**64 - 1 where it would be more. O(log n).

        >>> TextMap({"a": 10, "b": 20, "c": 30}).sum("b", "d")
        50
        """
        found = self._fold(lo, hi)
        return found[0] if found else 0

    def max(self, lo: Optional[Key] = None, hi: Optional[Key] = None, *, default: Any = _MISSING) -> Any:
        """The greatest of the values at keys from lo up to hi; where there are none the default, or ValueError. O(log n).

        >>> m = TextMap({"a": 10, "b": 20, "c": 5})
        >>> m.max(), m.max("c"), m.max("x", default=0)
        (20, 5, 0)
        """
        found = self._fold(lo, hi)
        if found:
            return found[1]
        if default is _MISSING:
            raise ValueError("max() of a part with no entries")
        return default

    # Parts and set operations

    def split(self, key: Key) -> Tuple["TextMap", "TextMap"]:
        """The map of the entries with lesser keys, and that of the others. O(log n).

        >>> TextMap({"a": 10, "b": 20, "c": 30}).split("b")
        (TextMap({b'a': 10}), TextMap({b'b': 20, b'c': 30}))
        """
        word, below, others = _bytes(key), self._empty(), self._empty()
        check(lib.pam_text_map_split(self._ref, word, len(word), below._ref, others._ref))
        return below, others

    def _part(self, part: slice) -> "TextMap":
        if part.step is not None:
            raise ValueError("a slice of a map has no step")
        found = self.copy() if part.start is None else self.split(part.start)[1]
        return found if part.stop is None else found.split(part.stop)[0]

    def _cut(self, part: slice) -> None:
        if part.step is not None:
            raise ValueError("a slice of a map has no step")
        start, stop = self._places(part.start, part.stop)
        if start < stop:
            self._take_over(self.difference(self._part(part)))

    def union(self, other: "TextMap", how: str = "second") -> "TextMap":
        """The entries of either map. At a key of both `how` says which value: that of the `first`, of the `second` (as dict's
        `|`), their `sum` (at most 2**64 - 1) or the greater, `max`. O(m log(n / m + 1)) for m and n entries, m at most n.

        >>> a, b = TextMap({"a": 10, "b": 20}), TextMap({"b": 5})
        >>> a.union(b, how="sum"), a | b
        (TextMap({b'a': 10, b'b': 25}), TextMap({b'a': 10, b'b': 5}))
        """
        return self._joined(lib.pam_text_map_union, other, _resolution(how))

    def intersection(self, other: "TextMap", how: str = "first") -> "TextMap":
        """The entries whose keys both maps have, with the value that `how` says, in the time of union. `a & b` has a's values.

        >>> TextMap({"a": 10, "b": 20}).intersection(TextMap({"b": 5, "c": 30}))
        TextMap({b'b': 20})
        """
        return self._joined(lib.pam_text_map_intersection, other, _resolution(how))

    def difference(self, other: "TextMap") -> "TextMap":
        """The entries whose keys the other map hasn't, in the time of union. `a - b` is the same.

        >>> TextMap({"a": 10, "b": 20}) - TextMap({"b": 5})
        TextMap({b'a': 10})
        """
        return self._joined(lib.pam_text_map_difference, other)

    def _joined(self, call: Any, other: "TextMap", *how: int) -> "TextMap":
        if not isinstance(other, TextMap):
            raise TypeError(f"wanted a TextMap, not {type(other).__name__}")
        out = self._empty()
        check(call(self._ref, other._ref, *how, out._ref))
        return out

    def __or__(self, other: "TextMap") -> "TextMap":
        return self.union(other) if isinstance(other, TextMap) else NotImplemented

    def __and__(self, other: "TextMap") -> "TextMap":
        return self.intersection(other) if isinstance(other, TextMap) else NotImplemented

    def __sub__(self, other: "TextMap") -> "TextMap":
        return self.difference(other) if isinstance(other, TextMap) else NotImplemented

    def __ior__(self, other: Any) -> "TextMap":  # type: ignore[misc]
        self.put_many(other)
        return self

    # Walks, each over a snapshot: the map may be changed meanwhile, and the walk does not see it

    def _filled(self, first: bytes, count: int) -> List[Entry]:
        """The first entries with keys at least first, at most so many; none only where there are none."""
        room, found = BLOCK_ROOM, Number()
        while True:
            keys, ends, vals = bytearray(room), zeros(count), zeros(count)
            words = (*lent_bytes(keys), *lent(ends), *lent(vals))
            status = lib.pam_text_map_fill(self._ref, first, len(first), *words, found)
            if status != NO_ROOM:
                check(status)
                break
            room = found.value
        row, starts = bytes(keys), [0, *ends[: found.value]]
        return [(row[start:end], val) for start, end, val in zip(starts, ends[: found.value], vals)]

    def _walk(self, lo: bytes = b"", hi: Optional[bytes] = None) -> Iterator[Entry]:
        first = lo
        while True:
            block = self._filled(first, BLOCK)
            if not block:
                return
            for key, val in block:
                if hi is not None and key >= hi:
                    return
                yield key, val
            first = _after(block[-1][0])

    def _back(self) -> Iterator[Entry]:
        return (self._at(place) for place in range(len(self) - 1, -1, -1))

    def __iter__(self) -> Iterator[bytes]:
        return (key for key, _ in self.copy()._walk())

    def __reversed__(self) -> Iterator[bytes]:
        """From the greatest key down, in O(log n) for each."""
        return (key for key, _ in self.copy()._back())

    def values(self) -> ValuesView:
        return _Values(self)

    def items(self) -> ItemsView:
        return _Items(self)

    def irange(self, minimum: Optional[Key] = None, maximum: Optional[Key] = None) -> Iterator[bytes]:
        """The keys from a least to a greatest one, both included. O(log n + m) for m keys.

        >>> list(TextMap({"a": 1, "b": 2, "c": 3}).irange("a", "b"))
        [b'a', b'b']
        """
        lo = b"" if minimum is None else _bytes(minimum)
        hi = None if maximum is None else _after(_bytes(maximum))
        return (key for key, _ in self.copy()._walk(lo, hi))

    # What is compared, kept and shown

    def __reduce__(self):
        return type(self), (list(self.items()),)

    def __eq__(self, other: Any) -> Any:
        if isinstance(other, TextMap):
            return len(self) == len(other) and all(mine == theirs for mine, theirs in zip(self._walk(), other._walk()))
        if not isinstance(other, Mapping):
            return NotImplemented
        try:
            theirs = {_bytes(key): val for key, val in other.items()}
        except (TypeError, UnicodeEncodeError):
            return False
        return len(theirs) == len(other) and dict(self.items()) == theirs

    __hash__ = None  # type: ignore[assignment]

    def __repr__(self) -> str:
        shown = [f"{key!r}: {val}" for key, val in self._filled(b"", 10)]
        more = ", ..." if len(self) > len(shown) else ""
        return f"{type(self).__name__}({{{', '.join(shown)}{more}}})"


class _Values(ValuesView):  # type: ignore[type-arg]
    _mapping: TextMap

    def __iter__(self) -> Iterator[int]:
        return (val for _, val in self._mapping.copy()._walk())

    def __contains__(self, val: object) -> bool:
        return any(val == found for found in self)


class _Items(ItemsView):  # type: ignore[type-arg]
    _mapping: TextMap

    def __iter__(self) -> Iterator[Entry]:
        return self._mapping.copy()._walk()

    def __reversed__(self) -> Iterator[Entry]:
        return self._mapping.copy()._back()
