"""The pages of the repository: their lines, code blocks, code spans, tables and sections."""

import collections
import glob
import os
import re

Line = collections.namedtuple("Line", "number text")
Block = collections.namedtuple("Block", "number language lines")
Span = collections.namedtuple("Span", "number text clauses")
Row = collections.namedtuple("Row", "number section header cells")

# A code span, and the words in parentheses that may follow it.
SPAN = re.compile(r"`([^`]+)`(?:\s+\(([a-z_0-9]+(?:,\s+[a-z_0-9]+)*)\))?")


class Page:
    def __init__(self, root, path):
        self.path = os.path.relpath(path, root)
        self.prose = []
        self.blocks = []
        with open(path, encoding="utf-8") as file:
            self.take_apart(file.read().split("\n"))

    def take_apart(self, lines):
        block = None
        for number, text in enumerate(lines, 1):
            if block is None and text.startswith("```"):
                block = Block(number, text[3:].strip(), [])
            elif block is not None and text.startswith("```"):
                self.blocks.append(block)
                block = None
            elif block is not None:
                block.lines.append(Line(number, text))
            elif not text.startswith("    "):
                self.prose.append(Line(number, text))

    def where(self, number):
        return f"{self.path}:{number}"

    def sections(self):
        """Each heading of the second order, with the lines that follow it."""
        heading, lines = "", []
        for line in self.prose:
            if line.text.startswith("## "):
                yield heading, lines
                heading, lines = line.text[3:], []
            else:
                lines.append(line)
        yield heading, lines

    def rows(self):
        """The rows of all tables, each under the header of its table."""
        for section, lines in self.sections():
            header = None
            for line in lines:
                if not line.text.startswith("|"):
                    header = None
                    continue
                cells = [cell.strip() for cell in re.split(r"(?<!\\)\|", line.text.strip()[1:-1])]
                if header is None:
                    header = cells
                elif not set(line.text) <= set("|-: "):
                    yield Row(line.number, section, header, cells)


def spans_of(number, text):
    """The code spans of a line, each with the clauses that are named after it."""
    for match in SPAN.finditer(text):
        yield Span(number, match.group(1), re.split(r",\s+", match.group(2)) if match.group(2) else [])


# Where pages are: the top, these folders, and those of the tests.
FOLDERS = ("", "docs", "bench", "release", "tests/*")


def pages_of(root):
    paths = [path for folder in FOLDERS for path in glob.glob(os.path.join(root, folder, "*.md"))]
    return [Page(root, path) for path in sorted(paths)]
