"""Edits BibTeX files without changing a byte that nobody asked to change, with undo.

>>> import bibkeep
>>> library = bibkeep.loads(b"@misc{a, t = 1,}")
>>> library["a"]["t"]
'1'
>>> library.set("a", "y", "{2}")
>>> library.dumps()
b'@misc{a, t = 1,\\n  y = {2},}'
>>> library.undo()
1
>>> library.dumps()
b'@misc{a, t = 1,}'
"""

from ._core import library_version
from ._errors import (
    EditError,
    Error,
    FileChanged,
    JournalError,
    NoSuchEntry,
    ParseError,
    ScriptError,
    TextError,
    UndoError,
)
from ._library import Entry, Library, loads

TYPE_CHECKING = False
if TYPE_CHECKING:
    from ._commands import Answer, Finding, Word, check, cite, extract, labels, lint, names, run, run_files, to_ris
else:

    def __getattr__(name):
        """The commands are loaded when one is first used: a program that only edits does without."""
        if name not in __all__:
            raise AttributeError(f"module {__name__!r} has no attribute {name!r}")
        from . import _commands

        return globals().setdefault(name, getattr(_commands, name))

    def __dir__():
        return sorted({*globals(), *__all__})


open = Library.open

__all__ = [
    "Answer",
    "EditError",
    "Entry",
    "Error",
    "FileChanged",
    "Finding",
    "JournalError",
    "Library",
    "NoSuchEntry",
    "ParseError",
    "ScriptError",
    "TextError",
    "UndoError",
    "Word",
    "check",
    "cite",
    "extract",
    "labels",
    "library_version",
    "lint",
    "loads",
    "names",
    "open",
    "run",
    "run_files",
    "to_ris",
]
