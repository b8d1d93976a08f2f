"""The commands of the program over bytes. Only run_files reads files, and none writes one."""

from __future__ import annotations

import os
from typing import Dict, Iterable, List, NamedTuple, Optional, Tuple, Union

from . import _running
from ._core import Given, to_bytes, to_str

__all__ = ["Answer", "Finding", "Word", "check", "cite", "extract", "labels", "lint", "names", "run", "run_files", "to_ris"]

Word = Union[str, bytes]

# What the program takes where an option is left out.
_NUMBERS = {"cite": 2, "undo": 1, "redo": 1}
_DEPTHS = {"show": 1, "labels": 1, "json": 1, "names": 1, "newkeys": 1, "ris": 1}


class Answer(NamedTuple):
    """What the program answers: its exit status, what it writes, and what it would store, or None."""

    status: int
    output: bytes
    message: bytes
    file: Optional[bytes]
    journal: Optional[bytes]


def run(
    command: str,
    data: bytes,
    *args: Word,
    journal: Optional[bytes] = None,
    input: bytes = b"",
    number: Optional[int] = None,
    depth: Optional[int] = None,
    print: bool = False,
    new_journal: bool = False,
    no_journal: bool = False,
    all_or_nothing: bool = False,
    dropped: bool = False,
    at: bool = False,
    strict: bool = False,
    latex: bool = False,
    raw: bool = False,
    skipped: bool = False,
    plain: bool = False,
    bibtex: bool = False,
    aux: Iterable[Word] = (),
    raises: bool = True,
) -> Answer:
    """Runs a command over the bytes of a file, and answers as the program does.

    ``number`` is that of ``--steps`` or ``--min-crossrefs``. ``bibtex`` makes ``show``, ``cite``, ``labels``, ``json``, ``names`` and
    ``ris`` answer as BibTeX does, and ``depth`` then has no effect. ``aux`` names the aux files whose keys are among the arguments: no
    file is read, so ``lint`` finds no key that a document cites and no entry has. A refusal raises an Error, unless ``raises`` is
    False. Status 1 of ``lint``, of ``diff`` and of ``cite`` with ``strict`` is no refusal. ``diff`` takes the name of the new file,
    by which messages call it, and the new file as ``input``.
    """
    options = _running.Options(
        _NUMBERS.get(command, 0) if number is None else number,
        _DEPTHS.get(command, 0) if depth is None else depth,
        print,
        new_journal,
        no_journal,
        all_or_nothing,
        dropped,
        at,
        strict,
        latex,
        raw,
        skipped,
        plain,
        bibtex,
    )
    words, names = [to_bytes(arg) for arg in args], [to_bytes(name) for name in aux]
    return _answer(_running.run(to_bytes(command), words, _within(options), names, data, journal, input), raises)


def run_files(
    command: str,
    paths: Iterable[Union[Word, "os.PathLike[str]"]],
    *args: Word,
    number: Optional[int] = None,
    depth: Optional[int] = None,
    dropped: bool = False,
    strict: bool = False,
    raw: bool = False,
    plain: bool = False,
    aux: Iterable[Word] = (),
    raises: bool = True,
) -> Answer:
    """Runs a command that only reads over the files at these paths, in this order, which are read as one.

    It answers as the program does if the options ``--before`` and ``--after`` name the files before and after its own: macros of one
    file are seen in those after it, keys and parents are found in all. Messages, ``lint`` and ``json`` call each file by its path.
    The command is ``check``, ``lint``, ``show``, ``cite``, ``labels``, ``json``, ``names``, ``newkeys``, ``ris`` or ``extract``. The
    rest is as for ``run``; line and column of an Error are those of the file that its message names.
    """
    options = _running.Options(
        number=_NUMBERS.get(command, 0) if number is None else number,
        depth=_DEPTHS.get(command, 0) if depth is None else depth,
        dropped=dropped,
        strict=strict,
        raw=raw,
        plain=plain,
    )
    words, names = [to_bytes(arg) for arg in args], [to_bytes(name) for name in aux]
    files = [(os.fsencode(path), _read(path)) for path in paths]
    return _answer(_running.run_files(to_bytes(command), words, _within(options), names, files), raises)


def _read(path: Union[Word, "os.PathLike[str]"]) -> bytes:
    with open(path, "rb") as file:
        return file.read()


def _within(options: _running.Options) -> _running.Options:
    if not (0 <= options.number < 1 << 32 and 0 <= options.depth < 1 << 32):
        raise ValueError("an argument is out of its range")
    return options


def _answer(ran: _running.Ran, raises: bool) -> Answer:
    if raises and ran.fault is not None:
        raise ran.fault
    return Answer(*ran[:5])


def run_over(file: Given, command: str, *args: str, depth: int = 0) -> bytes:
    """What a command that only reads answers over what a handle gave, which is there until the next call with that handle."""
    ran = _running.run(to_bytes(command), [to_bytes(arg) for arg in args], _running.Options(depth=depth), (), file, None, b"")
    if ran.fault is not None:
        raise ran.fault
    return ran.output


def _lines(output: bytes) -> List[str]:
    return to_str(output).split("\n")[:-1]


def check(data: bytes) -> Dict[str, List[str]]:
    """The counts and findings of ``check``: each first word, or two for findings, with what follows it."""
    found: Dict[str, List[str]] = {}
    for line in _lines(run("check", data).output):
        words = line.split(" ")
        is_count = words[0] in ("items", "entries", "macros", "preambles", "comments")
        name = words[0] if is_count else " ".join(words[:2])
        found.setdefault(name, []).append(line[len(name) + 1 :])
    return found


class Finding(NamedTuple):
    """What ``lint`` found: where, how bad it is, what, and the code that ``ignore`` takes. Line and column count from 1, in bytes."""

    line: int
    column: int
    kind: str
    text: str
    code: Optional[str]


def lint(data: bytes, ignore: Iterable[Word] = ()) -> List[Finding]:
    """The findings of ``lint``, in its order, without those with a code that is to be ignored."""
    found = []
    for line in _lines(run("lint", data, *ignore).output):
        _file, row, column, kind, text = line.split(":", 4)
        text, code = text.strip(), None
        if text.endswith("]") and " [" in text:
            text, code = text[:-1].rsplit(" [", 1)
        found.append(Finding(int(row), int(column), kind.strip(), text, code))
    return found


def cite(data: bytes, keys: Iterable[Word], min_crossrefs: int = 2) -> Tuple[List[str], List[str]]:
    """The keys of the entries that a bibliography contains, in order, and the keys that no entry has."""
    listed, unknown = [], []
    for line in _lines(run("cite", data, *keys, number=min_crossrefs).output):
        if line.startswith("? "):
            unknown.append(line[2:])
        else:
            listed.append(line.split("\t")[0])
    return listed, unknown


def labels(data: bytes, keys: Iterable[Word] = ("*",), depth: int = 1) -> Dict[str, str]:
    """The label of each entry by its key, as the style alpha makes them."""
    pairs = (line.split("\t") for line in _lines(run("labels", data, *keys, depth=depth).output))
    return {key: label for label, key in pairs}


def names(data: bytes, key: Word, template: Word, depth: int = 1) -> List[str]:
    """The names of an entry's authors, or else its editors, by a template such as ``{ll}{, f.}``."""
    return _lines(run("names", data, key, template, depth=depth).output)


def extract(data: bytes, keys: Iterable[Word]) -> bytes:
    """The part of the file that these keys need, byte for byte."""
    return run("extract", data, *keys).output


def to_ris(data: bytes, keys: Iterable[Word] = ("*",), depth: int = 1) -> bytes:
    """The entries as RIS."""
    return run("ris", data, *keys, depth=depth).output
