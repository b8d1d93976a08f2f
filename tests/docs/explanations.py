#!/usr/bin/env python3
"""The pages of `bibkeep explain`, which are the sections of docs/FAULTS.md.

Usage: tests/docs/explanations.py

Writes crates/fault_pages/src/pages.rt from docs/FAULTS.md. Its groups are those of crates/fault_pages/specs/Heads.antt.
"""

import os
import re
import subprocess

ROOT = os.path.dirname(os.path.dirname(os.path.dirname(os.path.abspath(__file__))))
HEADING = re.compile(r"^## (\d+) (\w+)\n\n(.*?)(?=^## |\Z)", re.M | re.S)
GROUP = re.compile(r"^-- (.*)\nabbrev pub (\w+) : List Head\n\w+ =\n?((?:.*\n)*?)(?:\n|\Z)", re.M)
HEAD = re.compile(r'\(codes "(\d+)", codes "(\w+)"\)')


def sections(text):
    """The faults of the page, each with its number, its name, and its text as a terminal shows it."""
    return [(number, name, shown(body)) for number, name, body in HEADING.findall(text)]


def shown(body):
    """Blocks stand two columns in, and have no fences."""
    lines, inside = [], False
    for line in body.strip("\n").split("\n"):
        if line.startswith("```"):
            inside = not inside
        else:
            lines.append("  " + line if inside and line else line)
    return "\n".join(lines) + "\n"


def compare(report, root, program):
    """Whether the program explains each fault in the words of the page, by its number and by its name."""
    with open(f"{root}/docs/FAULTS.md", encoding="utf-8") as page:
        told = sections(page.read())
    report.expect(told, "docs/FAULTS.md", "it has no section on a fault")
    for number, name, text in told:
        wanted = f"{number} {name}\n\n{text}"
        for word in (number, name, name.lower()):
            answer = subprocess.run([program, "explain", word], stdout=subprocess.PIPE, stderr=subprocess.STDOUT)
            report.expect(answer.returncode == 0 and answer.stdout.decode() == wanted, f"explain {word}", "it is not the section of docs/FAULTS.md: run tests/docs/explanations.py")


# ---- the crate's file


def quoted(text):
    """A literal of bytes."""
    return "b\"" + text.replace("\\", "\\\\").replace('"', '\\"').replace("\n", "\\n") + "\""


def page_file(told, groups):
    texts = {(number, name): text for number, name, text in told}
    parts = [HEADER % ", ".join(name for _, name, _ in groups)]
    for about, group, heads in groups:
        lines = [f"/// The page on one of these faults, if the word names one: {about}."]
        lines += [f"pub(crate) fn {group}(word: &[u8]) -> Option<Page>", f"    ensures {{ option_map head_of result ≡ find (is_asked word.now) {group} }}", "{"]
        for number, name in heads:
            lines += [f'    if is_asked(word, b"{number}", b"{name}") {{', "        return Some(Page {", f'            number: b"{number}",', f'            name: b"{name}",', f"            text: {quoted(texts[number, name])},", "        });", "    }"]
        lines += ["    None", "}"]
        parts.append("\n".join(lines) + "\n")
    return "\n".join(parts)


HEADER = """//! The pages on faults, by their numbers. tests/docs/explanations.py writes this file from docs/FAULTS.md.

ghost use Rattle.std.specs.Prelude.{◌≡◌, find};
ghost use Rattle.std.specs.Option.{option_map};
ghost use Rattle.fault_pages.specs.Heads.{head_of, is_asked, %s};

use crate::asking::{Page, is_asked};
"""


def main():
    with open(f"{ROOT}/docs/FAULTS.md", encoding="utf-8") as page:
        told = sections(page.read())
    with open(f"{ROOT}/crates/fault_pages/specs/Heads.antt", encoding="utf-8") as heads:
        groups = [(about, group, HEAD.findall(body)) for about, group, body in GROUP.findall(heads.read()) if HEAD.search(body)]
    listed = [head for _, _, heads in groups for head in heads]
    assert listed == [(number, name) for number, name, _ in told], "the faults of docs/FAULTS.md are not those of Heads.antt"
    with open(f"{ROOT}/crates/fault_pages/src/pages.rt", "w", encoding="utf-8") as pages:
        pages.write(page_file(told, groups))


if __name__ == "__main__":
    main()
