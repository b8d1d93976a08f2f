"""Sessions of the C interface, as bibkeep.h declares them. What commands need is in _running."""

from __future__ import annotations

import ctypes
import os
from ctypes import POINTER, byref, c_char_p, c_int, c_size_t, c_void_p

from ._errors import kind_of

TYPE_CHECKING = False  # typing itself is not loaded, which takes as long as hundreds of edits
if TYPE_CHECKING:
    from typing import Any, Sequence, Union

    Word = Union[str, bytes]

MEMORY = 10
MISUSE = 1000

# What is beside this file in a wheel, or else what the system finds.
SHARED = "libbibkeep.so.0"


class Lent(ctypes.Structure):
    """Bytes that are lent to the library."""

    _fields_ = [("data", c_char_p), ("size", c_size_t)]


class Given(ctypes.Structure):
    """Bytes that the library gives out."""

    _fields_ = [("data", c_void_p), ("size", c_size_t)]


class Fault(ctypes.Structure):
    """What came of a call."""

    _fields_ = [("number", c_int), ("has_offset", c_int), ("offset", c_size_t), ("line", c_size_t), ("done", c_size_t)]


LENT, GIVEN, FAULT = POINTER(Lent), POINTER(Given), POINTER(Fault)


def _load() -> ctypes.CDLL:
    """The library that the variable BIBKEEP_LIBRARY names, or the one beside this file, or the system's."""
    beside = os.path.join(os.path.dirname(os.path.abspath(__file__)), SHARED)
    return ctypes.CDLL(os.environ.get("BIBKEEP_LIBRARY") or (beside if os.path.exists(beside) else SHARED))


_lib = _load()


def bound(name: str, result: Any, *arguments: Any) -> Any:
    """The function of the library with this name, what it returns, and what it takes."""
    function = _lib["bibkeep_" + name]
    function.restype = result
    function.argtypes = arguments
    return function


_version = bound("version", c_char_p)
_error_name = bound("error_name", c_char_p, c_int)
_new = bound("new", c_int, POINTER(c_void_p))
_free = bound("free", None, c_void_p)
_open = bound("open", c_int, c_void_p, Lent, LENT, FAULT)
_close = bound("close", None, c_void_p)
_edit = bound("edit", c_int, c_void_p, LENT, c_size_t, FAULT)
_script = bound("script", c_int, c_void_p, Lent, FAULT)
_begin = bound("begin", c_int, c_void_p, Lent, FAULT)
_end = bound("end", c_int, c_void_p, FAULT)
_undo = bound("undo", c_int, c_void_p, c_size_t, FAULT)
_redo = bound("redo", c_int, c_void_p, c_size_t, FAULT)
_undo_count = bound("undo_count", c_size_t, c_void_p)
_redo_count = bound("redo_count", c_size_t, c_void_p)
_file = bound("file", c_int, c_void_p, GIVEN, FAULT)
_save = bound("save", c_int, c_void_p, GIVEN, GIVEN, FAULT)
_keys = bound("keys", c_int, c_void_p, GIVEN, FAULT)
_entry = bound("entry", c_int, c_void_p, Lent, c_int, GIVEN, FAULT)
# It takes what it is given as pointers, bytes and ints of C. With types named as above, a call would take twice the time.
_edit_joined = _lib["bibkeep_edit_joined"]


def to_bytes(word: Word) -> bytes:
    """The bytes of a word. A str is UTF-8, and a surrogate escape stands for a byte that is not."""
    return word if isinstance(word, bytes) else word.encode("utf-8", "surrogateescape")


def to_str(data: bytes) -> str:
    """The text of bytes, the other way round."""
    return data.decode("utf-8", "surrogateescape")


def library_version() -> str:
    """The version of the shared library."""
    version: bytes = _version()
    return version.decode("ascii")


def lent(data: bytes) -> Lent:
    return Lent(data, len(data))


def all_lent(words: Sequence[bytes]) -> ctypes.Array[Lent]:
    return (Lent * len(words))(*map(Lent, words, map(len, words)))


def taken(given: Given) -> bytes:
    return ctypes.string_at(given.data, given.size) if given.size else b""


def _view(given: Given) -> memoryview:
    """The bytes where the library has them: they are there until the next call with the handle."""
    return memoryview((ctypes.c_ubyte * given.size).from_address(given.data) if given.size else b"")


def exception_of(fault: Fault, read: bytes | None = None) -> Exception:
    """The exception of a fault that was reported. If it has an offset in the bytes that were read, it gets their line and column."""
    number: int = fault.number
    if number == MEMORY:
        return MemoryError()
    if number == MISUSE:
        return ValueError("no file is open, or an argument is out of its range")
    name: bytes = _error_name(number)
    offset = int(fault.offset) if fault.has_offset else None
    line, column = fault.line or None, None
    if offset is not None and read is not None:
        line = read.count(b"\n", 0, offset) + 1
        column = offset - read.rfind(b"\n", 0, offset)
    return kind_of(number)(number, name.decode("ascii"), offset, line, column, fault.done)


class Handle:
    """A handle of the library. One call at a time may use it."""

    def __init__(self) -> None:
        self.at = c_void_p()
        if _new(byref(self.at)):
            raise MemoryError
        self._self = c_void_p.from_param(self.at.value)
        self._fault = Fault()
        self._told = byref(self._fault)  # where each call tells what came of it

    def __del__(self) -> None:
        at, self.at = getattr(self, "at", None), c_void_p()
        if at:
            _free(at)

    def open(self, file: bytes, journal: bytes | None) -> None:
        number = _open(self.at, lent(file), None if journal is None else lent(journal), self._told)
        if number:
            raise exception_of(self._fault, journal if number == 53 else file)

    def close(self) -> None:
        _close(self.at)

    def edit(self, words: Sequence[Word]) -> None:
        try:
            joined = "\0".join(words).encode("utf-8", "surrogateescape")  # type: ignore[arg-type]
        except TypeError:  # not every word is a str
            joined = b"\0".join(map(to_bytes, words))
        size = len(joined)
        # too large for an int of C, or a word has a NUL, or no file is open
        if size >> 31 or (number := _edit_joined(self._self, joined, size, len(words), self._told)) == MISUSE:
            lent_words = all_lent([to_bytes(word) for word in words])
            number = _edit(self.at, lent_words, len(lent_words), self._told)
        if number:
            raise exception_of(self._fault)

    def script(self, script: bytes) -> int:
        if _script(self.at, lent(script), self._told):
            raise exception_of(self._fault)
        return int(self._fault.done)

    def begin(self, label: bytes) -> None:
        if _begin(self.at, lent(label), self._told):
            raise exception_of(self._fault)

    def end(self) -> None:
        if _end(self.at, self._told):
            raise exception_of(self._fault)

    def undo(self, count: int) -> int:
        if _undo(self.at, count, self._told):
            raise exception_of(self._fault)
        return int(self._fault.done)

    def redo(self, count: int) -> int:
        if _redo(self.at, count, self._told):
            raise exception_of(self._fault)
        return int(self._fault.done)

    def undo_count(self) -> int:
        return int(_undo_count(self.at))

    def redo_count(self) -> int:
        return int(_redo_count(self.at))

    def file(self) -> bytes:
        return taken(self.given())

    def file_view(self) -> memoryview:
        """What file gives, without a copy: until the next call with this handle."""
        return _view(self.given())

    def given(self) -> Given:
        given = Given()
        if _file(self.at, byref(given), self._told):
            raise exception_of(self._fault)
        return given

    def save(self) -> tuple[bytes, bytes]:
        file, journal = self._saved()
        return taken(file), taken(journal)

    def save_views(self) -> tuple[memoryview, memoryview]:
        """What save gives, without a copy: until the next call with this handle."""
        file, journal = self._saved()
        return _view(file), _view(journal)

    def _saved(self) -> tuple[Given, Given]:
        file, journal = Given(), Given()
        if _save(self.at, byref(file), byref(journal), self._told):
            raise exception_of(self._fault)
        return file, journal

    def keys(self) -> bytes:
        given = Given()
        if _keys(self.at, byref(given), self._told):
            raise exception_of(self._fault)
        return taken(given)

    def entry(self, key: bytes, depth: int) -> bytes:
        given = Given()
        if _entry(self.at, lent(key), depth, byref(given), self._told):
            raise exception_of(self._fault)
        return taken(given)
