"""The files of this repository: those that lie in it, those that the tests of the program are given, and those that the
`console` blocks of the documents make."""

import glob
import itertools
import os
import re
import sys
import tempfile

from made import PLAIN_CROSSREF, File

# Longer files, which tests of limits make, are left out.
LIMIT = 100_000
ROOT = os.path.dirname(os.path.dirname(os.path.dirname(os.path.abspath(__file__))))
# A text between quotes in a test of the program, and bytes as its printf reads them.
QUOTED = re.compile(r"'([^'\n]*@[^'\n]*)'")
ESCAPED = re.compile(rb"\\([0-7]{1,3}|.)", re.DOTALL)
ESCAPES = {b"n": b"\n", b"t": b"\t", b"r": b"\r", b"f": b"\f", b"v": b"\v", b"\\": b"\\"}
# The head of an entry, up to its key, and the key.
HEAD = re.compile(
    rb"(@[ \t\r\n]*([^\x00-\x20\x7f\"#%'(),={}0-9@][^\x00-\x20\x7f\"#%'(),={}@]*)[ \t\r\n]*)"
    rb"(?:(\{[ \t\r\n]*)[^ \t\r\n,}]*|(\([ \t\r\n]*)[^ \t\r\n,]*)"
)
NO_ENTRY = (b"comment", b"string", b"preamble")
# The name of a field, and not that of a macro where it is defined.
CROSSREF = re.compile(rb"(?i)(?<!@string[{(])\bcrossref(?=[ \t\r\n]*=)")

sys.path.append(os.path.join(ROOT, "tests/docs"))
from console import commands_of, run  # noqa: E402
from pages import pages_of  # noqa: E402


def found_files(program):
    """Each file once, but for those of which BibTeX reads a repeated entry as text. It takes one command from the last line of a file,
    so two line ends are put after it."""
    texts = {}
    for name, text in [*files_in_tree(), *texts_of_tests(), *files_of_pages(program)]:
        if len(text) <= LIMIT and not has_at_sign_in_repeated_entry(text):
            texts.setdefault(text + b"\n\n", name)
    return [File(name, text, plain(text)) for text, name in texts.items()]


def has_at_sign_in_repeated_entry(text):
    """Whether an entry whose key stands before it has an at-sign behind its key."""
    seen = set()
    for head in HEAD.finditer(text):
        if head.group(2).lower() not in NO_ENTRY:
            key = head.group()[len(head.group(1) + (head.group(3) or head.group(4))) :].lower()
            if key in seen and b"@" in body_of(text, head):
                return True
            seen.add(key)
    return False


def body_of(text, head):
    """What an entry has behind its key, up to its own closing brace or parenthesis, or all that is left."""
    depth, is_braced = 0, head.group(3) is not None
    for place in range(head.end(), len(text)):
        byte = text[place : place + 1]
        if depth == 0 and byte == (b"}" if is_braced else b")"):
            return text[head.end() : place]
        depth += (byte == b"{") - (byte == b"}")
    return text[head.end() :]


def plain(text):
    """The file with numbers for keys, and without crossrefs."""
    numbers = itertools.count()

    def numbered(head):
        if head.group(2).lower() in NO_ENTRY:
            return head.group()
        return head.group(1) + (head.group(3) or head.group(4)) + b"e%d" % next(numbers)

    return CROSSREF.sub(PLAIN_CROSSREF, HEAD.sub(numbered, text))


def files_in_tree():
    for path in sorted(glob.glob(os.path.join(ROOT, "**/*.bib"), recursive=True)):
        with open(path, "rb") as file:
            yield os.path.relpath(path, ROOT), file.read()


def texts_of_tests():
    for path in sorted(glob.glob(os.path.join(ROOT, "tests/program/*.sh"))):
        with open(path, encoding="utf-8") as lines:
            for number, line in enumerate(lines, 1):
                for text in QUOTED.findall(line):
                    yield f"{os.path.relpath(path, ROOT)}:{number}", unescaped(text.encode())


def unescaped(text):
    """The bytes that printf writes."""
    return ESCAPED.sub(lambda found: byte_of(found.group(1)), text).replace(b"%%", b"%")


def byte_of(escaped):
    return bytes([int(escaped, 8) % 256]) if escaped.isdigit() else ESCAPES.get(escaped, b"\\" + escaped)


def files_of_pages(program):
    """The files that stand in the folder of a page after each of its commands."""
    for page in pages_of(ROOT):
        with tempfile.TemporaryDirectory() as folder:
            for block in page.blocks:
                if block.language == "console":
                    yield from files_of_block(program, folder, page, block)


def files_of_block(program, folder, page, block):
    for command, number, shown in commands_of(block):
        shown_file = re.fullmatch(r"cat ([\w.-]+)", command)
        if shown_file and not os.path.exists(os.path.join(folder, shown_file.group(1))):
            with open(os.path.join(folder, shown_file.group(1)), "w", encoding="utf-8") as made:
                made.write("".join(line + "\n" for line in shown))
        else:
            run(command, program, folder)
        for path in glob.glob(os.path.join(folder, "*.bib")):
            with open(path, "rb") as file:
                yield page.where(number), file.read()
