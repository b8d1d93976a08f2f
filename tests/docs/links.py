"""Whether each link inside a page leads to one of its headings."""

import re

HEADING = re.compile(r"^#+ (.*)$")
LINK = re.compile(r"\]\(#([\w-]+)\)")


def compare(report, pages):
    for page in pages:
        anchors = {anchor_of(heading.group(1)) for line in page.prose if (heading := HEADING.match(line.text))}
        for line in page.prose:
            for link in LINK.findall(line.text):
                report.expect(link in anchors, page.where(line.number), f"no heading is called {link}")


def anchor_of(heading):
    """What a heading is called in links: lower case, without marks, with hyphens in the place of spaces."""
    return re.sub(r"[^\w -]", "", heading.lower()).replace(" ", "-")
