"""Why a call was refused."""

from __future__ import annotations

TYPE_CHECKING = False
if TYPE_CHECKING:
    from typing import Optional, Type


class Error(Exception):
    """A call was refused. The file and the steps that can be undone or redone are as they were, but for what ``done`` counts.

    number: the number of the fault, as docs/FAULTS.md lists them.
    name: its name there, such as ``Referred``.
    offset: the byte at which reading failed, counted from 0, or None.
    line: the line of that byte, or the line of a script that was refused, counted from 1, or None.
    column: the column of that byte, in bytes, counted from 1, or None.
    done: how many steps, or requests of a script, were done before the refusal, and are kept.
    """

    def __init__(
        self,
        number: int,
        name: str,
        offset: Optional[int] = None,
        line: Optional[int] = None,
        column: Optional[int] = None,
        done: int = 0,
    ) -> None:
        self.number = number
        self.name = name
        self.offset = offset
        self.line = line
        self.column = column
        self.done = done
        super().__init__(number, name, offset, line, column, done)

    def __str__(self) -> str:
        line = "" if self.line is None or self.column is not None else f"line {self.line}: "
        place = "" if self.offset is None else f" at {self.offset}"
        return f"{line}{self.number} {self.name}{place}"


class ParseError(Error, ValueError):
    """The bytes are no BibTeX file that can be opened (1 to 9), no file that BibTeX is sure to read so (14), or no RIS text that can be
    added (61 to 65)."""


class NoSuchEntry(Error, KeyError):
    """No entry has the key (11)."""

    __str__ = Error.__str__


class TextError(Error, ValueError):
    """A name, a template, a text or the number of a fault is not what was asked for (12, 13, 21 to 24)."""


class EditError(Error, ValueError):
    """The edit is refused (31 to 41)."""


class UndoError(Error, ValueError):
    """There is nothing to undo or redo (51, 52), or a step is open, or none is (55, 56)."""


class JournalError(Error, ValueError):
    """The journal is no journal (53), or does not belong to the file (54)."""


class ScriptError(Error, ValueError):
    """The words, or the line of a script, say no edit (71)."""


class FileChanged(Exception):
    """The file or its journal on disk is not what was opened or saved last. Nothing was written."""


def kind_of(number: int) -> Type[Error]:
    """The exception of the faults with this number."""
    if number <= 9 or number == 14 or 61 <= number <= 65:
        return ParseError
    if number == 11:
        return NoSuchEntry
    if number in (12, 13) or 21 <= number <= 24:
        return TextError
    if 31 <= number <= 41:
        return EditError
    if number in (51, 52, 55, 56):
        return UndoError
    if number in (53, 54):
        return JournalError
    if number == 71:
        return ScriptError
    return Error
