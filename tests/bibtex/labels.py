"""Labels of the style alpha, as BibTeX makes them and as `labels --bibtex` prints them."""

import subprocess
from random import Random

from entries import lists_of
from names import Names
from programs import write
from report import LEFT_OUT
from style import Style

TYPES = [b"book", b"inbook", b"proceedings", b"manual", b"misc", b"article", b"Book", b"unknown"]
YEARS = [b"1984", b"1984", b"1985", b"{19}84a", b"84", b"", b"c.~1990--91", b"{\\AE}3"]
WORDS = [b"The Guild", b"The The Guild", b"the Guild", b"An A Zebra", b"A The Ant", b"{\\AE}on", b"{\\relax A b}", b"{{\\'E}x}", b"~-x", b"B.", b"{AB}CD"]
WORDS += [b"\xc3\x89tude", b"{\\ss}", b"", b"others", b"Z" * 600]
LISTS_OF_LABELS = 6
# From here on the style prints the bibliography.
BIBLIOGRAPHY = b"FUNCTION {begin.bib}"
PRINTED = b'FUNCTION {print.label} { "|label " label * " " * cite$ * top$ }\nITERATE {print.label}\n'


def compare_labels(report, bibtex, bibkeep, seed, count):
    """Compares the labels of all entries of a file that is made by rule from the seed, and of some lists of its keys."""
    file = labelled_file(seed, count)
    if not bibkeep.takes(file):
        return
    bibtex.takes(file, Style(alpha_style(), frozenset()))
    keys = [key for key, _ in bibkeep.cite([b"*"])[0]]
    for cited, _ in lists_of(keys, seed, LISTS_OF_LABELS):
        where = f"labels {seed}, {b' '.join(cited).decode()}"
        known = [key for key in cited if key == b"*" or key.lower() in keys]
        found = bibkeep.labels_as_bibtex(known) if known else None
        report.expect("`labels --bibtex`", where, found, LEFT_OUT if found is None else printed_labels(bibtex, known))


def alpha_style():
    """The installed style, which prints labels and keys in the place of the bibliography."""
    path = subprocess.run(["kpsewhich", "alpha.bst"], stdin=subprocess.DEVNULL, stdout=subprocess.PIPE).stdout.strip()
    with open(path, "rb") as style:
        text = style.read()
    return text[: text.index(BIBLIOGRAPHY)] + PRINTED


def printed_labels(bibtex, keys):
    """The labels that the style prints for these keys, each with its key."""
    citations = b"".join(b"\\citation{%s}\n" % key for key in keys)
    write(bibtex.folder, "labels.aux", citations + b"\\bibstyle{style}\n\\bibdata{%s}\n" % bibtex.names)
    words = [bibtex.command, "labels"]
    ran = subprocess.run(words, cwd=bibtex.folder, env=bibtex.environment, stdin=subprocess.DEVNULL, stdout=subprocess.PIPE)
    lines = [line[7:] for line in ran.stdout.split(b"\n") if line.startswith(b"|label ")]
    return [tuple(line.rsplit(b" ", 1)) for line in lines]


# ---- files with much that goes into labels


def labelled_file(seed, count):
    random, names = Random(seed), Names(seed)
    entries = [labelled_entry(random, names, n) for n in range(count)]
    return b"".join(entries) + b"\n\n"


def labelled_entry(random, names, n):
    fields = {b"year": random.choice(YEARS), b"title": random.choice(WORDS), b"key": random.choice(WORDS), b"organization": random.choice(WORDS)}
    for persons in (b"author", b"editor"):
        fields[persons] = persons_of(random, names)
    rows = b"".join(b", %s = {%s}" % (name, text) for name, text in fields.items() if random.random() < 0.7)
    return b"@%s{k%d%s}\n" % (random.choice(TYPES), n, rows)


def persons_of(random, names):
    """Few authors in many entries, so that labels are equal; or names of every kind."""
    if random.random() < 0.5:
        return b" and ".join(random.choice([b"A. Lee", b"Ann Lee", b"Lee, A.", b"{LEE}", b"others"]) for _ in range(random.choice([1, 1, 2, 5])))
    return names.list(random.choice([1, 1, 2, 3, 4, 5]))
