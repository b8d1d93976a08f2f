"""BibTeX and bibkeep, as they answer about a file."""

import json
import os
import re
import subprocess
from typing import NamedTuple, Optional

MISSING = re.compile(rb'Warning--I didn\'t find a database entry for "(.*)"')
# What BibTeX reports that `check` reports too.
REPORTS = {
    re.compile(rb'Warning--string name "(.*)" is undefined'): b"undefined macro %s",
    re.compile(rb'Warning--string name "(.*)" is used in its own definition'): b"own macro %s",
    re.compile(rb'Warning--I\'m ignoring (.*)\'s extra "(.*)" field'): b"extra field %s %s",
}
# A fault of an item, with its line; but at-signs that begin no item, and entries whose key was met before, are none.
FAULT = re.compile(rb"(?!.*entry type---|I was expecting a `{' or a `\('---|Repeated entry---).*---line (\d+) of file file.bib")
FAULT_LINE = re.compile(rb"^.*:(\d+):\d+: error: ", re.M)
PLACE = re.compile(rb"bibkeep: [1-7] \w+ at (\d+)\n")
# What `--bibtex` refuses though a list could be answered: a file that BibTeX may read otherwise, a chain that is too long, and, in
# JSON, bytes that are not UTF-8.
REFUSED = re.compile(rb"bibkeep: (14 NotPlain at \d+|15 TooDeep|24 NotUtf8 in .*)\n", re.S)


class Record(NamedTuple):
    """An entry as a style is given it. BibTeX tells no type (None) where the style doesn't know it."""

    kind: Optional[bytes]
    key: bytes
    parent: Optional[bytes]
    fields: dict


class Answer(NamedTuple):
    """The listed entries, and the cited keys without an entry."""

    records: list
    unknown: list
    # the prints of names, a list for each template
    names: dict
    # what it reports, in the words of `check`
    reports: list
    # the lines of faults
    faults: list


class Bibtex:
    def __init__(self, command, folder):
        self.command = command
        self.folder = folder
        self.names = b""
        # nothing outside of the folder is looked for
        self.environment = dict(os.environ, BIBINPUTS=".", BSTINPUTS=".", LC_ALL="C")

    def takes(self, file, style):
        """The file, or the files, and the style that the next answers are about."""
        self.names = self.lay(file)
        write(self.folder, "style.bst", style.text)

    def lay(self, file):
        """Puts a file, or several, into the folder, and returns the names by which an aux file tells them."""
        names = [b"file%d" % n if n else b"file" for n, _ in enumerate(texts_of(file))]
        for name, text in zip(names, texts_of(file)):
            write(self.folder, name.decode() + ".bib", text)
        return b",".join(names)

    def answer(self, keys, minimum=2):
        """What the style prints for these keys, where so many children add their parent."""
        citations = [b"\\citation{%s}\n" % key for key in keys]
        write(self.folder, "list.aux", b"".join([*citations, b"\\bibstyle{style}\n\\bibdata{%s}\n" % self.names]))
        words = [self.command, f"-min-crossrefs={minimum}", "list"]
        ran = subprocess.run(words, cwd=self.folder, env=self.environment, stdin=subprocess.DEVNULL, stdout=subprocess.PIPE)
        return answer_in(ran.stdout)


def texts_of(file):
    """The texts of a file: one, or those of several files that are read as one."""
    return file if isinstance(file, tuple) else (file,)


def write(folder, name, content):
    with open(os.path.join(folder, name), "wb") as file:
        file.write(content)


def answer_in(output):
    """The answer in what BibTeX wrote: each line of the style begins with a bar."""
    answer = Answer([], [], {}, [], [])
    for line in output.split(b"\n"):
        if line.startswith(b"|entry "):
            _, kind, key = line.split(b" ", 2)
            answer.records.append(Record(kind or None, key, None, {}))
        elif line.startswith(b"|field "):
            _, name, text = line.split(b" ", 2)
            last = answer.records[-1]
            if name == b"crossref":
                answer.records[-1] = last._replace(parent=text)
            else:
                last.fields[name] = text
        elif line.startswith(b"|name "):
            _, template, text = line.split(b" ", 2)
            answer.names.setdefault(int(template), []).append(text)
        else:
            take_message(answer, line)
    return answer


def take_message(answer, line):
    missing, fault = MISSING.fullmatch(line), FAULT.fullmatch(line)
    if missing:
        answer.unknown.append(missing.group(1))
    if fault:
        answer.faults.append(int(fault.group(1)))
    for pattern, words in REPORTS.items():
        found = pattern.fullmatch(line)
        if found:
            answer.reports.append(words % found.groups())


class Bibkeep:
    def __init__(self, program, folder):
        self.program = program
        self.folder = folder
        self.path = None
        # the options that name the files before and after this one
        self.others = []

    def takes(self, file):
        """The file, or the files, that the next answers are about. Returns whether they can be opened. Of several files one in the
        midst is that of the command, and the others come before and after it."""
        paths = [os.path.join(self.folder, f"bibkeep{n}.bib") for n, _ in enumerate(texts_of(file))]
        for path, text in zip(paths, texts_of(file)):
            write(self.folder, path, text)
        midst = len(paths) // 2
        self.path = paths[midst]
        self.others = [f"--before={path}" for path in paths[:midst]] + [f"--after={path}" for path in paths[midst + 1 :]]
        return self.run("check").returncode == 0

    def place_of_fault(self):
        """Where the file is refused."""
        found = PLACE.fullmatch(self.run("cat").stderr)
        return int(found.group(1)) if found else None

    def lines_of_faults(self):
        """The line of each fault that `lint` names."""
        return [int(found.group(1)) for found in FAULT_LINE.finditer(self.run("lint").stdout)]

    def reports(self):
        """What `check` says of the file after its five counts."""
        return self.lines("check")[5:]

    def run(self, command, *words, options=()):
        others = [] if command == "cat" else self.others
        words = [self.program, command, *others, *options, "--", self.path, *words]
        return subprocess.run(words, stdin=subprocess.DEVNULL, stdout=subprocess.PIPE, stderr=subprocess.PIPE)

    def lines(self, command, *words, options=()):
        """The lines of an answer, or nothing where the program refuses."""
        ran = self.run(command, *words, options=options)
        return ran.stdout.split(b"\n")[:-1] if ran.returncode == 0 else None

    def show(self, key, depth=1):
        lines = self.lines("show", key, options=["--depth", str(depth)])
        if lines is None:
            return None
        kind, key = lines[0][1:].split(b" ", 1)
        fields = dict(line.split(b" = ", 1) for line in lines[1:])
        return Record(kind, key, fields.pop(b"crossref", None), fields)

    def cite(self, keys, minimum=2):
        """The listed keys, each with that of its parent where that is listed too; and the unknown keys."""
        lines = self.lines("cite", *keys, options=["--min-crossrefs", str(minimum)])
        if lines is None:
            return None
        listed = [line for line in lines if not line.startswith(b"? ")]
        unknown = [line[2:] for line in lines if line.startswith(b"? ")]
        return [tuple((line.split(b"\t") + [None])[:2]) for line in listed], unknown

    def names(self, key, template):
        return self.lines("names", key, template)

    # ---- as BibTeX lists them: nothing where that is refused

    def show_as_bibtex(self, key):
        lines = self.lines_as_bibtex("show", key)
        if lines is None:
            return None
        kind, spelled = lines[0][1:].split(b" ", 1)
        fields = dict(line.split(b" = ", 1) for line in lines[1:])
        return Record(kind, spelled, fields.pop(b"crossref", None), fields)

    def cite_as_bibtex(self, keys, minimum=2):
        lines = self.lines_as_bibtex("cite", *keys, options=["--min-crossrefs", str(minimum)])
        if lines is None:
            return None
        listed = [line for line in lines if not line.startswith(b"? ")]
        unknown = [line[2:] for line in lines if line.startswith(b"? ")]
        return [tuple((line.split(b"\t") + [None])[:2]) for line in listed], unknown

    def json_as_bibtex(self, keys):
        lines = self.lines_as_bibtex("json", *keys)
        return None if lines is None else [record_in(line) for line in lines]

    def names_as_bibtex(self, key, template):
        return self.lines_as_bibtex("names", key, template)

    def labels_as_bibtex(self, keys):
        lines = self.lines_as_bibtex("labels", *keys)
        return None if lines is None else [tuple(line.split(b"\t", 1)) for line in lines]

    def lines_as_bibtex(self, command, *words, options=()):
        ran = self.run(command, *words, options=["--bibtex", *options])
        if ran.returncode == 1 and REFUSED.fullmatch(ran.stderr) and not ran.stdout:
            return None
        return ran.stdout.split(b"\n")[:-1] if ran.returncode == 0 else [b"@refused " + ran.stderr]


def record_in(line):
    """The record in an object of `json`, or what was said instead."""
    if not line.startswith(b"{"):
        return Record(None, line, None, {})
    told = json.loads(line)
    fields = {name.encode(): text.encode() for name, text in told["fields"].items()}
    parent = told["parent"]
    return Record(told["type"].encode(), told["key"].encode(), None if parent is None else parent.encode(), fields)
