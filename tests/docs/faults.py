"""Whether docs/FAULTS.md has a section with a link to it, and the manual page and the completions a line, for each fault of the sources."""

import os
import re

# In an enum, in a message, and in a definition of one.
FORMS = (
    re.compile(r'#\[error\("(\d+) (\w+)'),
    re.compile(r"bibkeep: (\d+) (\w+)"),
    re.compile(r'\b(\d+) \(codes "([A-Z][a-z]\w+)"\)'),
)
NUMBERED = re.compile(r'^\s+(\d+) => "(\w+)",', re.M)
ARM = re.compile(r"^\s+\w*Fault::(\w+)(?:\(_\))? => (\d+),", re.M)
# The heading of a section, and a link to one.
HEADING = re.compile(r"^## (\d+) (\w+)$")
LINK = re.compile(r"\]\(#([\w-]+)\)")
# A line of the manual page.
ITEM = re.compile(r"^\.It (\d+) (\w+)$", re.M)
# A word of a completion.
OFFERED = re.compile(r"\b(\d+):([A-Z][a-z]\w+)")
COMPLETIONS = ("completions/bibkeep.bash", "completions/_bibkeep", "completions/bibkeep.fish")


def compare(report, root, pages, sources):
    page = next(page for page in pages if page.path == "docs/FAULTS.md")
    told = {heading.groups(): line.number for line in page.prose if (heading := HEADING.match(line.text))}
    known = set()
    for text in sources.texts.values():
        known.update(faults_of(text))
    for number, name in sorted(known, key=lambda fault: int(fault[0])):
        report.expect((number, name) in told, page.path, f"the fault {number} {name} is missing")
    for (number, name), line in told.items():
        report.expect((number, name) in known, page.where(line), f"no fault is {number} {name}")
    numbers = [int(number) for number, _ in told]
    report.expect(numbers == sorted(numbers), page.path, "the faults are not in the order of their numbers")
    compare_links(report, page, told)
    compare_list(report, root, "man/bibkeep.1", ITEM, known)
    for completion in COMPLETIONS:
        compare_list(report, root, completion, OFFERED, told)


def compare_list(report, root, path, form, known):
    with open(os.path.join(root, path), encoding="utf-8") as file:
        found = form.findall(file.read())
    report.expect_same([" ".join(fault) for fault in known], [" ".join(fault) for fault in found], path, "faults")


def compare_links(report, page, told):
    """Each fault is linked at the head of the page."""
    links = {link for line in page.prose for link in LINK.findall(line.text)}
    for number, name in told:
        report.expect(f"{number}-{name}".lower() in links, page.path, f"nothing links to {number} {name}")


def faults_of(text):
    for form in FORMS:
        yield from form.findall(text)
    yield from NUMBERED.findall(text)
    for name, number in ARM.findall(text):
        yield number, name
