"""Arrays of 64-bit numbers: what callers hand in, and what the library fills."""
import array
import ctypes
import operator
import sys
from typing import Any, Iterable, NamedTuple, SupportsIndex, Union

LIMIT = 1 << 64
TOP_BIT = (1 << 63).to_bytes(8, sys.byteorder)
_UNSIGNED = {"Q", "=Q", "@Q", "<Q" if sys.byteorder == "little" else ">Q"}
if ctypes.sizeof(ctypes.c_ulong) == 8:
    _UNSIGNED |= {"L", "@L"}
# By the type code of an array: the formats of a buffer of the same numbers.
NATIVE = {"Q": _UNSIGNED, "q": {form.lower() for form in _UNSIGNED}}

# array.array("Q"), a NumPy array of uint64, a memoryview of these; or any iterable of ints, which is copied.
Numbers = Union[Iterable[int], Any]


class Lent(NamedTuple):
    """An array for the time of a call: its address and length, and what keeps it alive."""

    address: Any
    length: int


def number(value: SupportsIndex) -> int:
    """An int from 0 to 2**64 - 1; TypeError for what is no int, OverflowError for others."""
    found = operator.index(value)
    if not 0 <= found < LIMIT:
        raise OverflowError(f"{found} is not in 0 to 2**64 - 1")
    return found


def signed_number(value: SupportsIndex) -> int:
    """An int from -2**63 to 2**63 - 1; TypeError for what is no int, OverflowError for others."""
    found = operator.index(value)
    if not -LIMIT // 2 <= found < LIMIT // 2:
        raise OverflowError(f"{found} is not in -2**63 to 2**63 - 1")
    return found


def zeros(count: int) -> "array.array[int]":
    return array.array("Q", [0]) * count


def _row(values: Any, code: str) -> Any:
    """Some numbers as a writable row of those of a type: a buffer where it lies, and a copy of others."""
    if isinstance(values, array.array) and values.typecode == code:
        return values
    try:
        view = memoryview(values)
    except TypeError:
        return array.array(code, map(number if code == "Q" else signed_number, values))
    if view.format not in NATIVE[code] or view.ndim != 1:
        kind = "unsigned" if code == "Q" else "signed"
        raise TypeError(f"wanted one row of {kind} 64-bit numbers, not format {view.format!r} in {view.ndim} dimensions")
    if view.readonly or not view.c_contiguous:
        found = array.array(code)
        found.frombytes(view.tobytes())
        return found
    return view


def lent(values: Any) -> Lent:
    """The array of some numbers. A writable buffer of 64-bit numbers is used where it lies; others are copied."""
    row = _row(values, "Q")
    return _lent_buffer(row, len(row))


def moved_up(values: Any) -> "array.array[int]":
    """Signed numbers, each 2**63 more. O(m), in one step for all."""
    return _top_bits_turned(_row(values, "q"), "Q")


def moved_down(values: "array.array[int]") -> "array.array[int]":
    """Unsigned numbers, each 2**63 less. O(m), in one step for all."""
    return _top_bits_turned(values, "q")


def _top_bits_turned(row: Any, code: str) -> "array.array[int]":
    turned = int.from_bytes(row.tobytes(), sys.byteorder) ^ int.from_bytes(TOP_BIT * len(row), sys.byteorder)
    found = array.array(code)
    found.frombytes(turned.to_bytes(8 * len(row), sys.byteorder))
    return found


def _lent_buffer(buffer: Any, count: int) -> Lent:
    if count == 0:
        return Lent((ctypes.c_uint64 * 1)(), 0)
    return Lent((ctypes.c_uint64 * count).from_buffer(buffer), count)


def lent_bytes(data: Any) -> Lent:
    """The bytes of a bytes-like object, copied where they can't be written to."""
    view = memoryview(data)
    count = view.nbytes
    if count == 0:
        return Lent((ctypes.c_uint8 * 1)(), 0)
    if view.readonly or not view.c_contiguous:
        return Lent((ctypes.c_uint8 * count).from_buffer_copy(view.tobytes()), count)
    return Lent((ctypes.c_uint8 * count).from_buffer(view.cast("B")), count)
