#!/usr/bin/env python3
"""Whether hints change anything: random commands over random files, each run with `--hints` and without.

Usage: hints_change_nothing.py PROGRAM

Output, status, file and journal are the same. What is said begins with what is said without hints; then come at most eight
lines that begin with two spaces and have no control byte. It prints what differs, and its status is 1 if anything does.
"""

import os
import random
import subprocess
import sys
import tempfile

NAMES = [b"a", b"B", b"k\x1b[31m", b"$(id)", b"it's", b"\xe9", b"\xc2\x9b", b"x" * 255, b"m", b"jan", b"crossref", b"a:b", b"", b"\x7f", b"%", b"-k"]
VALUES = [b"{x}", b'"y"', b"12", b"m", b"jan", b"none", b"{a}", b"{b} # m", b"{", b"x y", b"", b" {x}", b"a,b", b"{k\x1b[31m}"]
VERBS = [b"set", b"drop", b"add", b"remove", b"move", b"rename-key", b"rename-field", b"rename-macro", b"inline", b"introduce", b"undefine", b"define", b"set-macro", b"regenerate", b"group", b"end", b"set-type", b"retype"]
RIS = [b"TY  - BOOK", b"TI  - a", b"TI  - }", b"AU  - x, y, z, w", b"ID  - a", b"ID  - \x1b", b"ER  - ", b"XX  - q", b"", b"@misc{a}", b"TY  -"]


def main():
    chance = random.Random(20)
    differences = 0
    with tempfile.TemporaryDirectory() as folder:
        os.chdir(folder)
        for _ in range(400):
            words, file, text = case(chance)
            plain, hinted = answer(sys.argv[1], words, file, text), answer(sys.argv[1], [*words[:2], b"--hints", *words[2:]], file, text)
            complaint = difference(plain, hinted)
            if complaint:
                differences += 1
                print(f"{complaint}: {words} over {file} with {text}\n{plain}\n{hinted}")
    return 1 if differences else 0


def case(chance):
    """A command, its file and its input."""
    name = lambda: chance.choice(NAMES)  # noqa: E731
    value = lambda: chance.choice(VALUES)  # noqa: E731
    items = [
        lambda: b"@misc{" + name() + b", " + name() + b" = " + value() + b"}\n",
        lambda: b"@misc{" + name() + b", crossref = {" + name() + b"}, t = 1,\n T = 2}\n",
        lambda: b"@string{" + name() + b" = " + value() + b"}\n",
        lambda: b"text " + name() + b"\n",
    ]
    good = [b"@misc{a, t = 1}\n", b"@misc{b, crossref = {a}}\n", b"@string{m = {x}}\n", b"@misc{A, t = m}\n", b"@misc{k\x1b[31m, t = 1, T = 2}\n", b"@misc{$(id)}\n"]
    file = b"".join(chance.choice(good) if chance.random() < 0.9 else chance.choice(items)() for _ in range(chance.randrange(8)))
    edit = lambda: [chance.choice(VERBS)] + [chance.choice([name, value, lambda: b"2"])() for _ in range(chance.randrange(5))]  # noqa: E731
    kind = chance.randrange(8)
    if kind == 0:
        words = [word for word in edit() if b"\0" not in word]
        return [b"edit", b"f.bib", b"--", *words], file, b""
    if kind == 1:
        return [b"edit", b"f.bib"], file, b"\n".join(b"\t".join(edit()) for _ in range(chance.randrange(4)))
    if kind == 2:
        return [b"import", b"f.bib"], file, b"\n".join(chance.choice(RIS) for _ in range(chance.randrange(8)))
    if kind == 3:
        return [chance.choice([b"show", b"json", b"labels", b"ris", b"cite"]), b"f.bib", b"--", name()], file, b""
    if kind == 4:
        return [chance.choice([b"check", b"lint", b"cat", b"undo", b"log", b"forget"]), b"f.bib"], file, b""
    if kind == 5:
        return [chance.choice([b"show", b"json", b"cite", b"extract"]), b"f.bib", chance.choice([b"--before=f.bib", b"--after=no.bib"]), b"--", name()], file, b""
    if kind == 6:
        return [chance.choice([b"show", b"json", b"ris", b"cite"]), b"f.bib", b"--bibtex", b"--", name()], file, b""
    return [b"names", b"f.bib", b"--", name(), value()], file, b""


def answer(program, words, file, text):
    for left in os.listdir():
        os.remove(left)
    with open("f.bib", "wb") as made:
        made.write(file)
    run = subprocess.run([program.encode(), *words], input=text, stdout=subprocess.PIPE, stderr=subprocess.PIPE)
    left = {}
    for path in sorted(os.listdir()):
        with open(path, "rb") as made:
            left[path] = made.read()
    return run.returncode, run.stdout, left, run.stderr


def difference(plain, hinted):
    if plain[:3] != hinted[:3]:
        return "status, output or files differ"
    if not hinted[3].startswith(plain[3]):
        return "the message differs"
    hints = hinted[3][len(plain[3]) :]
    lines = hints.split(b"\n")
    if lines.pop() or len(lines) > 8:
        return "the hints are no few lines"
    for line in lines:
        if not line.startswith(b"  ") or any(byte < 32 or byte == 127 for byte in line) or b"\xc2\x9b" in line:
            return "a line of hints is none"
    return None


if __name__ == "__main__":
    sys.exit(main())
