#!/usr/bin/env python3
"""Merges small files that were made at random, and judges the merges by laws.

Usage: tests/program/merges.py PROGRAM [COUNT [SEED]]

Makes COUNT common files (300 if not given), and of each two sides by a few changes: fields, types, keys, macros, layout, order, entries
and texts. The program merges them in both ways. Each merged file is valid. A side that changed nothing leaves the file of the other side,
byte for byte. Both ways have the same conflicts, except for those over crossrefs and uses of macros, whose meaning depends on the order
of the file. Without conflicts both ways have the same entries, with the same expanded fields. The last line is `N passed, M failed`.
"""

import json
import os
import random
import subprocess
import sys
import tempfile

KEYS = ("a", "b", "c", "d", "e")
NEW_KEYS = ("k", "l", "m", "n")
FIELDS = ("t", "u", "v")
VALUES = ("1", "2", "{x}", '"x"', "{y z}", "p", "q # {w}")
TYPES = ("misc", "book", "Misc")
TEXTS = ("% one", "note", "@comment words", "% two\nlines")


class Entry:
    """An entry: its type, key and rows, and how these are laid out."""

    def __init__(self, kind, key, rows, is_wide=False):
        self.kind, self.key, self.rows, self.is_wide = kind, key, rows, is_wide

    def copy(self):
        return Entry(self.kind, self.key, list(self.rows), self.is_wide)

    def text(self):
        if self.is_wide:
            return "@%s{%s,%s\n}" % (self.kind, self.key, "".join("\n  %s = %s," % row for row in self.rows))
        return "@%s{%s%s}" % (self.kind, self.key, "".join(", %s = %s" % row for row in self.rows))


class Macro:
    """A definition."""

    def __init__(self, name, value):
        self.name, self.value = name, value

    def copy(self):
        return Macro(self.name, self.value)

    def text(self):
        return "@string{%s = %s}" % (self.name, self.value)


class Words:
    """A text between items."""

    def __init__(self, words):
        self.words = words

    def copy(self):
        return Words(self.words)

    def text(self):
        return self.words


def written(items):
    return "".join(item.text() + "\n" for item in items)


def entries_in(items):
    return [item for item in items if isinstance(item, Entry)]


def some_entry(chance, key):
    rows = [(name, chance.choice(VALUES)) for name in FIELDS if chance.random() < 0.6]
    if chance.random() < 0.2:
        rows.append(("crossref", "{%s}" % chance.choice(KEYS)))
    return Entry(chance.choice(TYPES), key, rows, chance.random() < 0.3)


def common_file(chance):
    items = [Macro("p", "{P}"), Macro("q", "{Q}")]
    for key in chance.sample(KEYS, chance.randint(1, 4)):
        if chance.random() < 0.2:
            items.append(Words(chance.choice(TEXTS)))
        items.append(some_entry(chance, key))
    return items


def with_field(chance, entry):
    name, value = chance.choice(FIELDS), chance.choice(VALUES)
    places = [n for n, row in enumerate(entry.rows) if row[0] == name]
    if places:
        entry.rows[places[0]] = (name, value)
    else:
        entry.rows.insert(chance.randint(0, len(entry.rows)), (name, value))


def with_key(items, entry, new):
    old = entry.key
    entry.key = new
    for other in entries_in(items):
        other.rows = [(name, "{%s}" % new if name == "crossref" and value.lower() == "{%s}" % old.lower() else value) for name, value in other.rows]


def with_macro(items, old, new):
    for item in items:
        if isinstance(item, Macro) and item.name == old:
            item.name = new
        if isinstance(item, Entry):
            item.rows = [(name, " # ".join(new if part == old else part for part in value.split(" # "))) for name, value in item.rows]


def change(chance, items, side):
    entries = entries_in(items)
    what = chance.choice(("field", "field", "drop", "type", "key", "case", "layout", "move", "remove", "add", "add", "text", "macro", "same"))
    if what == "add":
        key = chance.choice(("new" + side, "both"))
        if all(entry.key != key for entry in entries):
            items.insert(chance.randint(2, len(items)), some_entry(chance, key))
    elif what == "text":
        items.insert(chance.randint(0, len(items)), Words(chance.choice(TEXTS)))
    elif what == "macro":
        names = [item.name for item in items if isinstance(item, Macro)]
        if "q" in names:
            with_macro(items, "q", chance.choice(("r", "s")))
    elif entries:
        entry = chance.choice(entries)
        if what == "field":
            with_field(chance, entry)
        elif what == "drop" and entry.rows:
            entry.rows.pop(chance.randrange(len(entry.rows)))
        elif what == "type":
            entry.kind = chance.choice(TYPES)
        elif what == "key":
            new = chance.choice(NEW_KEYS)
            if all(other.key.lower() != new for other in entries):
                with_key(items, entry, new)
        elif what == "case":
            entry.key = entry.key.upper()
        elif what == "layout":
            entry.is_wide = not entry.is_wide
        elif what == "move":
            items.remove(entry)
            items.insert(chance.randint(2, len(items)), entry)
        elif what == "remove":
            items.remove(entry)


def side_of(chance, items, side):
    copies = [item.copy() for item in items]
    for _ in range(chance.randint(0, 3)):
        change(chance, copies, side)
    return copies


def exchanged(line):
    """The line of a conflict as the other way tells it."""
    words = line.split(" ")
    if words[1] == "key":
        return " ".join((*words[:3], words[4], words[3]))
    return {"removed by ours": line.replace("by ours", "by theirs"), "removed by theirs": line.replace("by theirs", "by ours")}.get(" ".join(words[1:4]), line)


def is_of_meaning(line):
    return line.startswith("conflict crossref ") or " in " in line


class Merges:
    """Runs the program over three files of a folder."""

    def __init__(self, program, folder):
        self.program, self.folder = os.path.abspath(program), folder
        self.passed = self.failed = 0

    def run(self, *words):
        done = subprocess.run([self.program, *words], cwd=self.folder, stdin=subprocess.DEVNULL, capture_output=True, check=False)
        return done.returncode, done.stdout.decode("latin-1"), done.stderr.decode("latin-1")

    def merged(self, base, ours, theirs):
        """The status, the merged file, and the lines of the conflicts or the message."""
        for name, text in (("base", base), ("ours", ours), ("theirs", theirs)):
            with open(os.path.join(self.folder, name), "w", encoding="latin-1", newline="") as file:
                file.write(text)
        return self.run("merge", "--print", "base", "ours", "theirs")

    def records(self, text):
        """The entries of a file by key, with their expanded fields, or nothing if it is not valid."""
        with open(os.path.join(self.folder, "merged"), "w", encoding="latin-1", newline="") as file:
            file.write(text)
        status, out, _ = self.run("json", "merged", "*")
        if status:
            return None
        return sorted(((entry["key"].lower(), entry["type"].lower(), sorted(entry["fields"].items())) for entry in map(json.loads, out.splitlines())), key=repr)

    def expect(self, said, holds, files):
        if holds:
            self.passed += 1
        else:
            self.failed += 1
            print("failed: %s\n--- base\n%s--- ours\n%s--- theirs\n%s" % (said, *files), file=sys.stderr)

    def judge(self, base, ours, theirs):
        files = (base, ours, theirs)
        for side in (ours, theirs):
            self.expect("a side that changed nothing leaves ours", self.merged(base, side, base)[:2] == (0, side), files)
            self.expect("a side that changed nothing leaves theirs", self.merged(base, base, side)[:2] == (0, side), files)
            self.expect("the same on both sides stays", self.merged(base, side, side)[:2] == (0, side), files)
        status, text, told = self.merged(base, ours, theirs)
        status_back, text_back, told_back = self.merged(base, theirs, ours)
        is_merged, is_merged_back = (not lines.startswith("bibkeep: ") for lines in (told, told_back))
        self.expect("both ways merge, or neither", is_merged == is_merged_back, files)
        if not (is_merged and is_merged_back):
            return
        records, records_back = self.records(text), self.records(text_back)
        self.expect("the merged file is valid", records is not None and records_back is not None, files)
        self.expect("the status says whether there is a conflict", (status, status_back) == (int(told != ""), int(told_back != "")), files)
        lines = sorted(line for line in told.splitlines() if not is_of_meaning(line))
        lines_back = sorted(exchanged(line) for line in told_back.splitlines() if not is_of_meaning(line))
        self.expect("both ways have the same conflicts: %r, %r" % (lines, lines_back), lines == lines_back, files)
        if not told and not told_back:
            self.expect("both ways have the same entries", records == records_back, files)


def main():
    if len(sys.argv) < 2 or sys.argv[1] == "--help":
        print(__doc__.strip())
        return
    count = int(sys.argv[2]) if len(sys.argv) > 2 else 300
    chance = random.Random(int(sys.argv[3]) if len(sys.argv) > 3 else 1)
    with tempfile.TemporaryDirectory() as folder:
        merges = Merges(sys.argv[1], folder)
        for _ in range(count):
            items = common_file(chance)
            merges.judge(written(items), written(side_of(chance, items, "o")), written(side_of(chance, items, "t")))
    print("%d passed, %d failed" % (merges.passed, merges.failed))
    sys.exit(1 if merges.failed else 0)


if __name__ == "__main__":
    main()
