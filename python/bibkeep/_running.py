"""Commands of the C interface, as bibkeep.h declares them."""

from __future__ import annotations

import ctypes
from ctypes import POINTER, byref, c_int, c_size_t, c_uint, c_void_p
from typing import NamedTuple, Optional, Sequence, Tuple, Union

from ._core import FAULT, LENT, Fault, Given, Handle, Lent, all_lent, bound, exception_of, lent, taken


class Named(ctypes.Structure):
    """A file with its name."""

    _fields_ = [("name", Lent), ("text", Lent)]


class RawAnswer(ctypes.Structure):
    """What a command gives."""

    _fields_ = [
        ("status", c_int),
        ("output", Given),
        ("message", Given),
        ("has_file", c_int),
        ("file", Given),
        ("has_journal", c_int),
        ("journal", Given),
    ]


class RawOptions(ctypes.Structure):
    """The options of a command."""

    _fields_ = [
        ("number", c_uint),
        ("depth", c_uint),
        ("print", c_int),
        ("new_journal", c_int),
        ("no_journal", c_int),
        ("all_or_nothing", c_int),
        ("dropped", c_int),
        ("at", c_int),
        ("strict", c_int),
        ("latex", c_int),
        ("raw", c_int),
        ("skipped", c_int),
        ("plain", c_int),
        ("bibtex", c_int),
        ("aux", POINTER(Lent)),
        ("aux_count", c_size_t),
    ]


class Options(NamedTuple):
    """The options of a command: 0 or False is an option that is not given."""

    number: int = 0
    depth: int = 0
    print: bool = False
    new_journal: bool = False
    no_journal: bool = False
    all_or_nothing: bool = False
    dropped: bool = False
    at: bool = False
    strict: bool = False
    latex: bool = False
    raw: bool = False
    skipped: bool = False
    plain: bool = False
    bibtex: bool = False


class Ran(NamedTuple):
    """What a command gave, and the fault that its message names, or None."""

    status: int
    output: bytes
    message: bytes
    file: Optional[bytes]
    journal: Optional[bytes]
    fault: Optional[Exception]


_run = bound(
    "run",
    c_int,
    c_void_p,
    Lent,
    LENT,
    c_size_t,
    POINTER(RawOptions),
    Lent,
    LENT,
    Lent,
    POINTER(RawAnswer),
    FAULT,
)


_run_files = bound(
    "run_files",
    c_int,
    c_void_p,
    Lent,
    LENT,
    c_size_t,
    POINTER(RawOptions),
    POINTER(Named),
    c_size_t,
    POINTER(RawAnswer),
    FAULT,
)


def run(
    command: bytes,
    args: Sequence[bytes],
    options: Options,
    aux: Sequence[bytes],
    file: Union[bytes, Given],
    journal: Optional[bytes],
    read: bytes,
) -> Ran:
    """Runs a command over the bytes of a file, of its journal if it has one, and of its input. What another handle gives is a file too."""
    handle, fault, answer = Handle(), Fault(), RawAnswer()
    number = _run(
        handle.at,
        lent(command),
        all_lent(args),
        len(args),
        RawOptions(*options, all_lent(aux), len(aux)),
        lent(file) if isinstance(file, bytes) else Lent.from_buffer(file),
        None if journal is None else lent(journal),
        lent(read),
        byref(answer),
        byref(fault),
    )
    message = taken(answer.message)
    of_new = command == b"diff" and len(args) == 1 and args[0] != b"-" and message.endswith(b" in " + args[0] + b"\n")
    is_of_input = of_new or 61 <= number <= 65 or message.endswith(b" in standard input\n")
    source = journal if number == 53 else read if is_of_input else file if isinstance(file, bytes) else taken(file)
    return _ran(answer, exception_of(fault, source) if number else None)


def run_files(
    command: bytes,
    args: Sequence[bytes],
    options: Options,
    aux: Sequence[bytes],
    files: Sequence[Tuple[bytes, bytes]],
) -> Ran:
    """Runs a command over the names and bytes of several files, which are read as one."""
    handle, fault, answer = Handle(), Fault(), RawAnswer()
    number = _run_files(
        handle.at,
        lent(command),
        all_lent(args),
        len(args),
        RawOptions(*options, all_lent(aux), len(aux)),
        (Named * len(files))(*[Named(lent(name), lent(text)) for name, text in files]),
        len(files),
        byref(answer),
        byref(fault),
    )
    message = taken(answer.message)
    at_fault = [file for file in files if message.endswith(b" in %b\n" % file[0])]
    source = max(at_fault, key=lambda file: len(file[0]))[1] if at_fault else None
    return _ran(answer, exception_of(fault, source) if number else None)


def _ran(answer: RawAnswer, fault: Optional[Exception]) -> Ran:
    return Ran(
        answer.status,
        taken(answer.output),
        taken(answer.message),
        taken(answer.file) if answer.has_file else None,
        taken(answer.journal) if answer.has_journal else None,
        fault,
    )
