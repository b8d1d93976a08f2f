"""A BibTeX file that is open, with its steps."""

from __future__ import annotations

import os
from _collections_abc import Mapping

from . import _files
from ._core import Handle, to_bytes, to_str
from ._errors import Error, FileChanged, NoSuchEntry

TYPE_CHECKING = False
if TYPE_CHECKING:
    from threading import RLock
    from typing import Any, ContextManager, Dict, Iterator, List, Optional, Tuple, Union

    from ._core import Word

    Path = Union[str, "os.PathLike[str]"]
else:
    from _thread import RLock


class Entry(Mapping[str, str]):
    """An entry as a bibliography style sees it: macros are expanded, each run of white space is one space, and fields that it
    lacks come from its parent. It is what the entry was when it was looked up, and does not follow edits.

    Field names ignore ASCII case. ``Library.set`` changes a field.
    """

    __slots__ = ("key", "type", "parent", "_fields")

    def __init__(self, told: Mapping[str, Any]) -> None:
        self.key: str = told["key"]
        self.type: str = told["type"]
        self.parent: Optional[str] = told.get("parent")
        self._fields: Dict[str, str] = told["fields"]

    def __getitem__(self, name: str) -> str:
        return self._fields[name.lower()]

    def __iter__(self) -> Iterator[str]:
        return iter(self._fields)

    def __len__(self) -> int:
        return len(self._fields)

    def __repr__(self) -> str:
        return f"<Entry @{self.type} {self.key}>"


class Library(Mapping[str, Entry]):
    """An open BibTeX file with its steps: a mapping of keys to entries, in the order of the file.

    A key names the first entry that has it, ignoring ASCII case. A value of an edit is BibTeX: digits, the name of a macro,
    ``"..."``, ``{...}``, or several joined by ``#``. Several threads may use one Library: each call waits for the one before.
    """

    def __init__(self, data: bytes = b"", journal: Optional[bytes] = None) -> None:
        self._lock = RLock()
        self._handle = Handle()
        self._handle.open(data, journal)
        self._path: Optional[str] = None
        self._has_journal = True
        self._stored: _files.Stored = b"", None
        self._keys: Optional[List[str]] = None
        self._items: Optional[int] = None

    @classmethod
    def open(cls, path: Path, *, new_journal: bool = False, no_journal: bool = False) -> "Library":
        """Opens a file with its journal, which is beside it under the name with ``.bibkeep`` after it.

        With new_journal the changes of earlier runs can no longer be undone, if they cannot be read or do not match the file.
        With no_journal no journal is read or stored. It waits while another program that stores the file holds its lock.
        """
        path = os.path.realpath(os.fspath(path))
        with _files.Locked(path) as descriptor:
            file, journal = _files.read(descriptor, path, not no_journal)
        try:
            library = cls(file, journal)
        except Error as refused:
            if not (new_journal and refused.number in (53, 54)):
                raise
            library = cls(file)
        library._path = path
        library._has_journal = not no_journal
        library._stored = file, journal
        return library

    def close(self) -> None:
        """Frees the file and its steps. What was not saved is lost. Later calls raise ValueError."""
        with self._lock:
            self._changed()
            self._stored = b"", None
            self._handle.close()

    # ---- looking things up

    def __getitem__(self, key: str) -> Entry:
        return self.entry(key)

    def entry(self, key: Word, depth: int = 1) -> Entry:
        """The entry with this key, which inherits from up to ``depth`` parents (1 to 8)."""
        import json

        with self._lock:
            told = self._handle.entry(to_bytes(key), depth)
        return Entry(json.loads(told))

    def entries(self, depth: int = 1) -> List[Entry]:
        """All entries in the order of the file, also those whose key an earlier entry has. It is faster than one by one."""
        import json

        from ._commands import run_over

        with self._lock:
            told = run_over(self._handle.given(), "json", "*", depth=depth)
        # Read as one text, names of fields are kept once.
        return [Entry(it) for it in json.loads(b"[%b]" % told[:-1].replace(b"\n", b","))]

    def __iter__(self) -> Iterator[str]:
        return iter(self._all_keys())

    def __len__(self) -> int:
        return len(self._all_keys())

    def __contains__(self, key: object) -> bool:
        if not isinstance(key, (str, bytes)):
            return False
        try:
            self.entry(key)
        except NoSuchEntry:
            return False
        except Error:  # the entry is there, and has a text that is not UTF-8
            return True
        return True

    def _all_keys(self) -> List[str]:
        """The keys, each once: of entries with one key the first counts."""
        with self._lock:
            if self._keys is None:
                first: Dict[str, str] = {}
                for key in to_str(self._handle.keys()).split("\n")[:-1]:
                    first.setdefault(_folded(key), key)
                self._keys = list(first.values())
            return self._keys

    # ---- editing

    def edit(self, *words: Word) -> None:
        """Makes one edit, given as the words of a line of a script, such as ``"set", "l94", "year", "1995"``."""
        with self._lock:
            self._changed()
            self._handle.edit(words)

    def _changed(self) -> None:
        self._keys = self._items = None

    def set(self, key: Word, field: Word, value: Word) -> None:
        """Sets a field of an entry to a BibTeX value, or adds the field."""
        with self._lock:
            self._handle.edit(("set", key, field, value))

    def set_text(self, key: Word, field: Word, text: Word) -> None:
        """Sets a field of an entry to a text, in braces."""
        self.set(key, field, b"{" + to_bytes(text) + b"}")

    def drop(self, key: Word, field: Word) -> None:
        """Removes a field of an entry."""
        with self._lock:
            self._handle.edit(("drop", key, field))

    def add(self, kind: Word, key: Word, fields: Optional[Mapping[str, Word]] = None) -> None:
        """Adds an entry after the last item. The values of the fields are BibTeX values."""
        with self._lock:
            count = self._item_count()
            self.insert(count, kind, key, fields)
            self._items = count + 1

    def insert(self, position: int, kind: Word, key: Word, fields: Optional[Mapping[str, Word]] = None) -> None:
        """Adds an entry before the item at this position, from 0. Entries, macro definitions, preambles and comments are items."""
        words: List[Word] = ["add", str(position), kind, key]
        for name, value in (fields or {}).items():
            words += [name, value]
        self.edit(*words)

    def _item_count(self) -> int:
        if self._items is None:
            from ._commands import run_over

            counted = run_over(self._handle.given(), "check")
            self._items = int(counted.split(b"\n", 1)[0].split(b" ")[1])
        return self._items

    def remove(self, key: Word) -> None:
        """Removes an entry. It is refused if another entry inherits from it."""
        self.edit("remove", key)

    def move(self, key: Word, position: int) -> None:
        """Moves an entry before the item at this position, from 0, among the other items."""
        self.edit("move", key, str(position))

    def set_type(self, key: Word, kind: Word) -> None:
        """Gives an entry another type."""
        self.edit("set-type", key, kind)

    def rename_key(self, old: Word, new: Word) -> None:
        """Gives an entry another key, and changes the crossrefs to it."""
        self.edit("rename-key", old, new)

    def rename_field(self, old: Word, new: Word, key: Optional[Word] = None) -> None:
        """Gives a field another name, in every entry or in the entry that has this key."""
        if key is None:
            self.edit("rename-field", old, new)
        else:
            self.edit("rename-field", old, new, key)

    def rename_macro(self, old: Word, new: Word) -> None:
        """Gives a macro another name, in its definition and in its uses."""
        self.edit("rename-macro", old, new)

    def inline(self, macro: Word) -> None:
        """Replaces the uses of a macro by its text, and removes its definition."""
        self.edit("inline", macro)

    def introduce(self, macro: Word, text: Word) -> None:
        """Defines a macro as a text, and replaces the text by it."""
        self.edit("introduce", macro, text)

    def undefine(self, macro: Word) -> None:
        """Removes the definition of a macro that nothing after it uses."""
        self.edit("undefine", macro)

    def define(self, macro: Word, value: Word) -> None:
        """Defines a macro as a value, as the file writes it, after the definitions before the first entry."""
        self.edit("define", macro, value)

    def set_macro(self, macro: Word, value: Word) -> None:
        """Gives a macro another value, as the file writes it."""
        self.edit("set-macro", macro, value)

    def regenerate(self, depth: int = 1) -> None:
        """Gives every entry the key that is made of its names, year and title, with what it inherits at this depth (1 to 8)."""
        self.edit("regenerate", str(depth))

    def script(self, script: Word) -> int:
        """Does the lines of a script, and returns how many requests were done. The edits before a refused line are kept."""
        with self._lock:
            self._changed()
            return self._handle.script(to_bytes(script))

    def group(self, label: Word = "") -> ContextManager[Library]:
        """The edits inside are one step of undo. If an exception ends the block, the edits before it are kept."""
        return _Group(self, label)

    def undo(self, count: int = 1) -> int:
        """Undoes the last steps, and returns how many."""
        with self._lock:
            self._changed()
            return self._handle.undo(_count(count))

    def redo(self, count: int = 1) -> int:
        """Redoes the steps that were undone last, and returns how many."""
        with self._lock:
            self._changed()
            return self._handle.redo(_count(count))

    @property
    def undo_count(self) -> int:
        """How many steps can be undone."""
        with self._lock:
            return self._handle.undo_count()

    @property
    def redo_count(self) -> int:
        """How many steps can be redone."""
        with self._lock:
            return self._handle.redo_count()

    # ---- bytes and files

    def dumps(self) -> bytes:
        """The bytes of the file as it is now."""
        with self._lock:
            return self._handle.file()

    def dumps_with_journal(self) -> Tuple[bytes, bytes]:
        """The file and its journal: ``Library(file, journal)`` takes them up again."""
        with self._lock:
            return self._handle.save()

    def save(self) -> None:
        """Stores the file and its journal where they were opened, as the program does: the file is locked meanwhile; both are
        written beside the old ones and then renamed; permissions are kept, and symbolic links are followed.

        Raises FileChanged, and writes nothing, if the file or the journal on disk is no longer what was opened or saved last.
        """
        with self._lock:
            if self._path is None:
                raise ValueError("the library was opened from bytes, so there is no file to store")
            file, journal = self._to_store()
            with _files.Locked(self._path) as descriptor:
                if not _files.is_as(self._stored, descriptor, self._path, self._has_journal):
                    raise FileChanged(self._path)
                _files.store(descriptor, self._path, file, journal)
            self._stored = bytes(file), None if journal is None else bytes(journal)

    def _to_store(self) -> Tuple[memoryview, Optional[memoryview]]:
        """The file as it is now and its journal, if it has one. They are there until the next call with the handle."""
        if self._has_journal:
            return self._handle.save_views()
        return self._handle.file_view(), None


class _Group:
    """A block whose edits are one step of undo. Other threads wait until it ends."""

    def __init__(self, library: Library, label: Word) -> None:
        self._library = library
        self._label = to_bytes(label)

    def __enter__(self) -> Library:
        self._library._lock.acquire()
        try:
            self._library._handle.begin(self._label)
        except BaseException:
            self._library._lock.release()
            raise
        return self._library

    def __exit__(self, *why: object) -> None:
        try:
            self._library._handle.end()
        finally:
            self._library._lock.release()


def loads(data: bytes, journal: Optional[bytes] = None) -> Library:
    """Opens the bytes of a BibTeX file, with its journal if it has one."""
    return Library(data, journal)


def _count(count: int) -> int:
    if count < 0:
        raise ValueError("a count of steps is negative")
    return count


def _folded(key: str) -> str:
    """The key without regard to the case of ASCII letters."""
    return "".join(chr(ord(c) + 32) if "A" <= c <= "Z" else c for c in key)
