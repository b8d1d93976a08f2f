"""Whether BibTeX makes of the extract of a file, or of several, what it makes of the whole, for the keys of an aux file.

In files that are made for this, each entry has a key of its own. Where two entries have one key, BibTeX may take the later one for
a parent, which an extract leaves out; and an empty crossref names an entry without a key for BibTeX, and nothing for the program.
Other files in which `lint` finds such a crossref are left out.
"""

import os
import subprocess
from random import Random

from entries import is_citable, lists_of
from programs import write

# Styles that every installation has. They know what `style.py` does not: names, sorting, and fields that a type has to have.
STYLES = ("plain", "alpha")
LISTS_OF_EXTRACT = 4


def compare_extracts(report, bibtex, bibkeep, file, seed, count=LISTS_OF_EXTRACT):
    """Compares the bibliographies of a file, or of several, and of the extract for so many lists of keys, where bibkeep opens them."""
    if not bibkeep.takes(file.text) or has_empty_parent(bibkeep):
        return
    keys = [key for key, _ in bibkeep.cite([b"*"])[0]]
    for keys, _ in lists_of(keys, seed, count):
        compare_extract(report, bibtex, bibkeep, file, known(bibkeep, keys), Random(seed))


def has_empty_parent(bibkeep):
    """Whether BibTeX takes an entry without a key for the parent that an empty crossref names."""
    return b" [empty-crossref]\n" in bibkeep.run("lint").stdout


def known(bibkeep, keys):
    """The keys that find an entry: `extract` refuses any other."""
    _, unknown = bibkeep.cite(keys)
    return [key for key in keys if key not in unknown]


def compare_extract(report, bibtex, bibkeep, file, keys, random):
    if not keys or not all(key == b"*" or is_named_in_aux(key) for key in keys):
        return
    where = f"{file.name}, {b' '.join(keys).decode()}"
    minimum, style = random.choice((1, 2, 3)), random.choice(STYLES)
    whole = bibliography(bibtex, file.text, keys, style, minimum)
    part = bibkeep.run("extract", options=["--aux", os.path.join(bibtex.folder, "paper.aux")]).stdout
    again = bibkeep.run("extract", *keys).stdout
    report.expect("`extract` with an aux file", where, part, again)
    of_part = bibliography(bibtex, part, keys, style, minimum)
    report.expect("the bibliography of an extract", f"{where}, at least {minimum}", of_part, whole)
    labels = bibkeep.lines("labels", *keys)
    bibkeep.takes(part)
    report.expect("`labels` of an extract", where, bibkeep.lines("labels", *keys), labels)
    bibkeep.takes(file.text)


def is_named_in_aux(key):
    """Whether a line of an aux file can cite this key: one with a brace is passed over."""
    return is_citable(key) and b"{" not in key and b"}" not in key


def aux_text(keys, style, names):
    citations = b"".join(b"\\citation{%s}\n" % key for key in keys)
    return b"\\relax \n" + citations + b"\\bibstyle{%s}\n\\bibdata{%s}\n" % (style.encode(), names)


def bibliography(bibtex, file, keys, style, minimum):
    """The .bbl file that BibTeX writes for paper.aux, which cites these keys of this file, or of several."""
    write(bibtex.folder, "paper.aux", aux_text(keys, style, bibtex.lay(file)))
    # plain and alpha lie outside of the folder
    environment = {name: value for name, value in bibtex.environment.items() if name != "BSTINPUTS"}
    words = [bibtex.command, f"-min-crossrefs={minimum}", "paper"]
    made = os.path.join(bibtex.folder, "paper.bbl")
    if os.path.exists(made):
        os.remove(made)
    subprocess.run(words, cwd=bibtex.folder, env=environment, stdin=subprocess.DEVNULL, stdout=subprocess.PIPE)
    with open(made, "rb") as file:
        return file.read()
