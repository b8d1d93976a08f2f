"""Whether what the pages name is in the sources: functions with clauses, statements, other names of code, and files."""

import glob
import os
import re

from pages import spans_of

# Pages that tell of other times.
HISTORIES = ("CHANGELOG.md",)
NAME = re.compile(r"^[a-z][a-z0-9]*(?:_[a-z0-9]+)+$|^(?:[A-Z][a-z0-9]+){2,}$")
PATH = re.compile(r"^[\w.*/-]+$")
ENDINGS = (".md", ".rt", ".antt", ".sh", ".py", ".c", ".txt", ".edit")
PLACEHOLDER = re.compile(r"\b[A-Z]{2,}\b(?!\.md)")


def compare(report, root, pages, sources):
    files = files_of(root)
    for page in pages:
        if page.path == "docs/PROMISES.md":
            compare_summary(report, page, sources)
            compare_promises(report, page, sources)
        if page.path in HISTORIES:
            continue
        for line in page.prose:
            for span in spans_of(line.number, line.text):
                compare_span(report, root, page, sources, files, span)


def compare_summary(report, page, sources):
    """The functions of the section that says the promises in short."""
    text = dict(page.sections())["In short"]
    joined = "\n".join(line.text for line in text)
    for span in spans_of(text[0].number, joined):
        if span.clauses or "::" in span.text or NAME.match(span.text):
            compare_function(report, page, sources, [], span)


def compare_promises(report, page, sources):
    """The functions and statements of the tables; the heading above a table names the crates that have them."""
    for row in page.rows():
        crates = [span.text for span in spans_of(row.number, row.section) if span.text in sources.crates]
        for column, cell in zip(row.header, row.cells):
            for span in spans_of(row.number, cell):
                if column.startswith("Function"):
                    compare_function(report, page, sources, crates, span)
                if column == "Statement":
                    report.expect(span.text in sources.definitions, page.where(row.number), f"no definition is called {span.text}")


def compare_function(report, page, sources, crates, span):
    where = page.where(span.number)
    for owner, name in members(span.text):
        functions = sources.find(crates, owner, name)
        is_type = owner is None and sources.has_type(crates, name)
        report.expect(functions or is_type, where, f"{span.text}: no public function is called {name}{in_crates(crates)}")
        for clause in span.clauses if functions else []:
            has_clause = any(clause in function.clauses for function in functions)
            report.expect(has_clause, where, f"{span.text}: {name} has no clause {clause}")


def in_crates(crates):
    return f" in {', '.join(crates)}" if crates else ""


def members(text):
    """`name`, `Type::name` or `Type::{a, b}` as types with names."""
    owner, separator, rest = text.rpartition("::")
    owner = owner if separator else None
    return [(owner, name.strip()) for name in rest.strip("{}").split(",")]


def compare_span(report, root, page, sources, files, span):
    """Any other name of code, and any file."""
    where = page.where(span.number)
    text = span.text.split("(")[0]
    if is_path(text):
        report.expect(is_there(root, files, page, text), where, f"there is no file {text}")
    elif "::" in text and re.match(r"^[\w:{}, ]+$", text):
        for _, name in members(text):
            report.expect(name in sources.words, where, f"{text}: the sources have no {name}")
    elif NAME.match(text):
        report.expect(text in sources.words or text in sources.crates, where, f"the sources have no {text}")


def is_path(text):
    if not PATH.match(text) or text.startswith("/"):
        return False
    return text.endswith(ENDINGS) or text.startswith(("crates/", "docs/", "tests/", "bench/", "tools/", ".ci/", "man/", "completions/", "release/", "specs/", "proofs/", "src/"))


def is_there(root, files, page, text):
    """A path from the top, from the page's folder or from a crate's; or the name of a file anywhere. Words in capitals stand for any."""
    text = PLACEHOLDER.sub("*", text)
    crates = os.path.join(root, "crates")
    folders = (root, os.path.join(root, os.path.dirname(page.path)), crates, os.path.join(crates, "*"))
    return text in files or any(glob.glob(os.path.join(folder, text)) for folder in folders)


def files_of(root):
    """The names of all files."""
    names = set()
    for folder, folders, files in os.walk(root):
        folders[:] = [name for name in folders if name not in ("out", ".git")]
        names.update(files)
    return names
