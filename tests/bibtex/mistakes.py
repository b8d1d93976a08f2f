"""Files with a mistake: BibTeX complains in the lines in which `lint` names faults, and else both read the same."""

import re
from random import Random

from cited import folded
from made import made_file
from report import LEFT_OUT
from style import style_for, told

MISTAKES = [bytes([byte]) for byte in b"{}\"(),#=@ %a1\n\\'"]
# The rule by which files are left out.
LEAVING_OUT = ["at-sign-in-types"]
AT_SIGN_IN_TYPE = re.compile(rb"@[ \t\r\n]*[^\x00-\x20\x7f\"#%'(),={}0-9@]*@")


def with_mistake(seed):
    """A file of three entries in which a byte is left out, put in, or another. The digit at its end is text: without it BibTeX
    complains that the file ends where an at-sign before it begins no item."""
    random = Random(seed)
    file = made_file(seed, 3).plain.replace(b"\r", b"") + b"1\n\n"
    place = random.randrange(len(file) - 5)
    mistake, is_put_in = random.choice([b"", *MISTAKES]), random.random() < 0.4
    return file[:place] + mistake + file[place + (not is_put_in) :]


def compare_mistake(report, bibtex, bibkeep, seed):
    """BibTeX complains in the lines of all faults, of which the first is where bibkeep refuses; without one both read the same."""
    file = with_mistake(seed)
    style, opens = style_for(file), bibkeep.takes(file)
    bibtex.takes(file, style)
    answer, place = bibtex.answer([b"*"]), bibkeep.place_of_fault()
    first = [] if place is None else [line_of(file, place)]
    report.compare("lines of first faults", f"mistake {seed}", answer.faults[:1], lambda rules: allowed(rules, file, first), LEAVING_OUT)
    # the end of the file is in its last line
    lines = [min(line, file.count(b"\n")) for line in bibkeep.lines_of_faults()]
    report.compare("lines of all faults", f"mistake {seed}", answer.faults, lambda rules: allowed(rules, file, lines), LEAVING_OUT)
    if opens and not answer.faults:
        found = {folded(key): key for key, _ in reversed(bibkeep.cite([b"*"])[0])}
        ours = by_key(told(bibkeep.show(key), style) for key in found.values() if key)
        theirs = by_key(it for it in answer.records if it.key)
        report.compare("files with a mistake", f"mistake {seed}", theirs, lambda rules: allowed(rules, file, ours), LEAVING_OUT)


def line_of(file, place):
    """The line of a place. The end of the file is in its last line."""
    return file[: min(place, len(file) - 1)].count(b"\n") + 1


def by_key(records):
    return sorted(records, key=lambda it: it.key)


def allowed(rules, file, wanted):
    return LEFT_OUT if rules and has_at_sign_in_type(file) else wanted


def has_at_sign_in_type(file):
    return bool(AT_SIGN_IN_TYPE.search(file))
