"""The shared library: where it is found, its calls by their C types, and its statuses as exceptions.

It is loaded by ctypes.PyDLL, which holds the interpreter's lock during a call. A handle may be in use by one thread at a time,
and so it is, without a lock of its own: a call is one step for all Python code. The price is that other threads wait for it,
some 100 ms for the largest calls (a million entries built).
"""
import ctypes
import ctypes.util
import os
import pathlib
import sys
from typing import Any, Callable, Dict, Iterator, List, Type, TypeVar

OK, NOT_THERE, NO_ROOM, NOT_A_MAP, BAD_CALL, NO_MEMORY = 0, 1, 2, 3, 4, 7
RESOLUTIONS = {"first": 0, "second": 1, "sum": 2, "max": 3}


# The parameters of each call after its first handle: a number, where one is written to, a byte, a handle, an array with its length,
# which bytes are too where the call only reads it.
# A size_t is a number, as the library is of 64-bit machines.
_SIGNATURES = {
    "pam_map_": {
        "new": "", "free": "", "share": "h", "len": "w", "get": "nw", "put": "nn", "del": "n", "fold": "ww", "fold_range": "nnww",
        "least": "w", "least_range": "nnw", "count": "nnw", "rank": "nw", "select": "nww", "next": "nww", "prev": "nww", "first": "ww", "last": "ww", "union": "hbh",
        "intersection": "hbh", "difference": "hh", "split": "nhh", "range": "nnh", "fill": "naaw", "build": "aa",
        "put_many": "aa", "get_many": "aaa", "del_many": "a", "bytes": "aw", "from_bytes": "a",
    },
    "pam_text_map_": {
        "new": "", "free": "", "share": "h", "len": "w", "get": "aw", "contains": "a", "put": "an", "del": "a", "fold": "ww",
        "fold_range": "aaww", "rank": "aw", "select": "naww", "next": "aaww", "prev": "aaww", "first": "aww", "last": "aww",
        "union": "hbh", "intersection": "hbh", "difference": "hh", "split": "ahh", "range": "aah", "fill": "aaaaw",
        "put_many": "aaa",
    },
    "pam_seq_": {
        "new": "", "free": "", "share": "h", "len": "w", "get": "nw", "set": "nn", "push": "n", "push_many": "a", "build": "a",
        "append": "hh", "take": "nh", "skip": "nh", "reverse": "h", "fold": "ww", "fold_range": "nnww", "fill": "naw",
    },
    "pam_intervals_": {
        "new": "", "free": "", "share": "h", "len": "w", "add": "nn", "del": "nn", "any": "n", "build": "aa", "stab": "naaw",
        "overlapping": "nnaaw", "fill": "nnaaw",
    },
}  # fmt: skip


def _candidates() -> Iterator[str]:
    """$PAM_LIB; else beside this module, in a checkout's bindings/c/out, and what the system's loader knows."""
    if "PAM_LIB" in os.environ:
        yield os.environ["PAM_LIB"]
        return
    here = pathlib.Path(__file__).resolve().parent
    for folder in (here, here.parents[1] / "c" / "out"):
        if (folder / "libpam_c.so").is_file():
            yield str(folder / "libpam_c.so")
    known = ctypes.util.find_library("pam_c")
    if known:
        yield known


def _load() -> ctypes.PyDLL:
    if not getattr(sys, "_is_gil_enabled", lambda: True)():
        raise ImportError("pam counts on the interpreter's lock, which this Python runs without")
    for path in _candidates():
        try:
            return ctypes.PyDLL(path)
        except OSError as fault:
            raise ImportError(f"{path}: {fault}") from fault
    raise ImportError("no libpam_c.so: make it by `make` in bindings/c, or name it in PAM_LIB")


def _declare(library: ctypes.PyDLL) -> None:
    # A handle is handed on by a reference made once, which ctypes need not convert.
    handle, number, where, byte = ctypes.c_void_p, ctypes.c_uint64, ctypes.POINTER(ctypes.c_uint64), ctypes.c_uint8
    types: Dict[str, List[Any]] = {
        "n": [number],
        "w": [where],
        "b": [byte],
        "h": [handle],
        "a": [ctypes.c_void_p, ctypes.c_size_t],
    }
    for prefix, calls in _SIGNATURES.items():
        for name, letters in calls.items():
            call = getattr(library, prefix + name)
            call.restype = ctypes.c_uint8
            call.argtypes = [handle] + [kind for letter in letters for kind in types[letter]]


lib = _load()
_declare(lib)

Number = ctypes.c_uint64


class Handle(ctypes.Structure):
    """A handle, which is freed with its memory; zeros are closed."""

    _fields_ = [("at", ctypes.c_void_p), ("state", ctypes.c_uint64)]
    free: Callable[[Any], int]

    # `byref` by name, since the module may be gone before the last handle.
    def __del__(self, byref: Any = ctypes.byref) -> None:
        self.free(byref(self))


class MapHandle(Handle):
    free = lib.pam_map_free


class TextMapHandle(Handle):
    free = lib.pam_text_map_free


class SeqHandle(Handle):
    free = lib.pam_seq_free


class IntervalsHandle(Handle):
    free = lib.pam_intervals_free


def check(status: int) -> None:
    """Raises the exception of a status other than OK."""
    if status == NO_MEMORY:
        raise MemoryError("pam: no memory; nothing changed")
    if status == BAD_CALL:
        raise ValueError("pam: it was closed")
    if status:
        raise RuntimeError(f"pam: status {status}")


Self = TypeVar("Self", bound="Held")


class Held:
    """An object with a handle of the library."""

    _prefix: str
    _Handle: Type[Handle]
    # The handle by reference, which keeps it: a thread that is about to call with it does so, though another puts a new one here.
    _ref: Any

    def __new__(cls: Type[Self], *_words: object, **_named: object) -> Self:
        self = super().__new__(cls)
        self._ref = ctypes.byref(cls._Handle())
        return self

    @classmethod
    def _empty(cls: Type[Self]) -> Self:
        """One that is closed, for a call that opens it."""
        return cls.__new__(cls)

    def close(self) -> None:
        """Frees it now. Any later call on it raises ValueError, and closing it again does nothing."""
        check(self._Handle.free(self._ref))

    def __len__(self) -> int:
        count = Number()
        check(getattr(lib, self._prefix + "len")(self._ref, count))
        return count.value

    def copy(self: Self) -> Self:
        """A snapshot in O(1): it shares all memory, and no change of one is seen in the other."""
        out = self._empty()
        check(getattr(lib, self._prefix + "share")(self._ref, out._ref))
        return out

    __copy__ = copy

    def __deepcopy__(self: Self, _memo: object) -> Self:
        return self.copy()

    def _take_over(self, other: "Held") -> None:
        """Becomes what the other is, which becomes what this was."""
        self._ref, other._ref = other._ref, self._ref

