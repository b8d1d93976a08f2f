"""For each rule the smallest files, lists of keys or names on which BibTeX differs, with what either program answers."""

from typing import NamedTuple, Optional

from programs import Record
from report import LEFT_OUT
from style import JOURNALS as MACROS, style_for

ALL = [b"*"]
LONG = b"n" * 256


class Cited(NamedTuple):
    rule: str
    file: bytes
    keys: list
    minimum: int
    # the listed records, or nothing where the file is refused
    ours: Optional[list]
    theirs: list


class Printed(NamedTuple):
    rule: str
    name: bytes
    template: bytes
    # nothing where the template or the name is refused
    ours: Optional[bytes]
    theirs: bytes


def misc(key, parent=None, **fields):
    return of_type(b"misc", key, parent, **fields)


def of_type(kind, key, parent=None, **fields):
    return Record(kind, key, parent, {name.encode(): text for name, text in fields.items()})


CHAIN = b"@misc{c, crossref = {b}}@misc{b, crossref = {a}}@misc{a, t = 1}\n\n"
CITED = [
    Cited("parent-before-child", b"@misc{p, t = 1}@misc{c, crossref = {p}}\n\n", [b"c"], 2, [misc(b"c", t=b"1")], [misc(b"c")]),
    Cited(
        "parent-before-child",
        b"@misc{p, t = 1}@misc{c, crossref = {p}}@misc{p, t = 2}\n\n",
        [b"c"],
        2,
        [misc(b"c", t=b"1")],
        [misc(b"c", t=b"2")],
    ),
    Cited(
        "parent-of-a-parent",
        CHAIN,
        [b"b", b"c"],
        2,
        [misc(b"b", t=b"1"), misc(b"c", b"b")],
        [misc(b"b", t=b"1"), misc(b"c", b"b", t=b"1")],
    ),
    Cited(
        "count-of-added",
        CHAIN,
        [b"c"],
        1,
        [misc(b"c", b"b"), misc(b"b", t=b"1")],
        [misc(b"c", b"b"), misc(b"b", b"a", t=b"1"), misc(b"a", t=b"1")],
    ),
    Cited(
        "order-of-added",
        b"@misc{c, crossref = {q}}@misc{d, crossref = {p}}@misc{p}@misc{q}\n\n",
        [b"c", b"d"],
        1,
        [misc(b"c", b"q"), misc(b"d", b"p"), misc(b"p"), misc(b"q")],
        [misc(b"c", b"q"), misc(b"d", b"p"), misc(b"q"), misc(b"p")],
    ),
    Cited("names-itself", b"@misc{a, crossref = {a}}\n\n", [b"a"], 2, [misc(b"a")], [misc(b"a", b"a")]),
    Cited("empty-key", b"@misc{a, crossref = {}}@misc{, t = 1}\n\n", [b"a"], 2, [misc(b"a")], [misc(b"a", t=b"1")]),
    Cited("repeated-in-all", b"@misc{a}@misc{A}\n\n", ALL, 2, [misc(b"a"), misc(b"a")], [misc(b"a")]),
    Cited("star-beside-keys", b"@misc{a}@misc{b}\n\n", [b"b", b"*"], 2, [misc(b"b")], [misc(b"b"), misc(b"a")]),
    Cited(
        "missing-key-beside-star",
        b"@misc{b, t = 2}@misc{c, crossref = {zz}}\n\n",
        [b"*", b"zz"],
        2,
        [],
        [misc(b"b", t=b"2"), misc(b"c", b"zz", t=b"2")],
    ),
    Cited("spelling-of-keys", b"@misc{a}\n\n", [b"A"], 2, [misc(b"a")], [misc(b"A")]),
    Cited("at-sign-in-types", b"@m@isc{b}\n\n", ALL, 2, [of_type(b"isc", b"b")], [of_type(b"m@isc", b"b")]),
    Cited("delete-in-names", b"@misc{b, a\x7fb = 1}\n\n", ALL, 2, None, [Record(b"misc", b"b", None, {b"a\x7fb": b"1"})]),
    Cited("delete-in-names", b"@mi\x7fsc{b}\n\n", ALL, 2, [], [of_type(b"mi\x7fsc", b"b")]),
    Cited("long-names", b"@misc{b, %s = 1}\n\n" % LONG, ALL, 2, None, [Record(b"misc", b"b", None, {LONG: b"1"})]),
    Cited("long-names", b"@misc{%s}\n\n" % LONG, ALL, 2, None, [misc(LONG)]),
    Cited("long-names", b"@%s{b}\n\n" % LONG, ALL, 2, [], [of_type(LONG, b"b")]),
    Cited(
        "one-thing-in-last-line",
        b"@misc{a}\n@misc{b}@misc{c}\n",
        ALL,
        2,
        [misc(b"a"), misc(b"b"), misc(b"c")],
        [misc(b"a"), misc(b"b")],
    ),
    Cited("one-thing-in-last-line", b"@misc{a,\n t = 1}@misc{b}\n", ALL, 2, [misc(b"a", t=b"1"), misc(b"b")], [misc(b"a", t=b"1")]),
    Cited("one-thing-in-last-line", b"joe@x.org @misc{b}\n", ALL, 2, [misc(b"b")], []),
    Cited(
        "body-of-a-repeated-entry",
        b"@misc{a}@misc{a, t = {@misc{b}}}\n\n",
        ALL,
        2,
        [misc(b"a"), misc(b"a")],
        [misc(b"a"), misc(b"b")],
    ),
    Cited("goes-on-after-faults", b"@misc{a, t = 1 u = 2}\n@misc{b}\n\n", ALL, 2, None, [misc(b"a", t=b"1"), misc(b"b")]),
    Cited("goes-on-after-faults", b"@misc{a, t = {x}, u = }\n@misc{b}\n\n", ALL, 2, None, [misc(b"a", t=b"x"), misc(b"b")]),
    Cited("goes-on-after-faults", b"@string{m = {x}, n}\n@misc{b, t = m}\n\n", ALL, 2, None, [misc(b"b", t=b"x")]),
]
# What is not plain.
REFUSED = [
    b"@misc{a,\n t = 1}@misc{b}\n",
    b"joe@x.org @misc{b}\n",
    b"@misc{a}@misc{a, t = {@misc{b}}}\n\n",
    b"@m@isc{b}\n\n",
    b"@mi\x7fsc{b}\n\n",
    b"@%s{b}\n\n" % LONG,
]
# An entry that has each of the macros, in a field of its own.
JOURNALS = b"@misc{a, %s}\n\n" % b", ".join(b"x%d = %s" % it for it in enumerate(MACROS))
PRINTED = [
    Printed("more-templates", b"Jean Knuth", b"{FF} {ll{{x}}}", None, b"Jean Knuth"),
    Printed("more-commas", b"a, b, c, d", b"{ff}|{vv}|{ll}|{jj}", None, b"c~d||a|b"),
    Printed("period-without-initial", b"1 Jean Knuth", b"{f. }{ll}", b"~J. Knuth", b".~J. Knuth"),
    Printed("braces-count", b"{B} Jean Paul Knuth", b"{ff}", b"{B}~Jean~Paul", b"{B} Jean~Paul"),
    Printed("special-below", b"{{\\'E}mile} Knuth", b"{f.}", b"E.", b"{\\'E}."),
    Printed("braces-stay-open", b"{\\'E}a B C {Knuth}", b"{ll~}{f.}", b"{Knuth} {\\'E}.~B.~C.", b"{Knuth} {\\'E}. B.~C."),
    Printed("ties-before-group", b"1", b"~~{l}", b"~~", b"~"),
    Printed("bytes-are-letters", b"\xc3\x89MILE Knuth", b"{f.}", b"\xc3\x89.", b"\xc3."),
    Printed("bytes-are-letters", b"Knuth", b"{\xc3\xa9ll}", b"\xc3\xa9Knuth", b""),
    Printed("bytes-are-letters", b"Jean {\\o\xc3\xa9} Knuth", b"{ff}|{vv}", b"Jean|{\\o\xc3\xa9}", b"Jean~{\\o\xc3\xa9}|"),
]
# What has no print by BibTeX, or none without a complaint.
REFUSED_NAMES = [
    (b"Ann Lee and , Jean", b"{ll}", b"bibkeep: 21 TooManyCommas\n"),
    (b"Jean", b"{fv}", b"bibkeep: 23 BadTemplate\n"),
    (b"Jean", b"{f{}f}", b"bibkeep: 23 BadTemplate\n"),
    (b"Jean", b"{f}}", b"bibkeep: 23 BadTemplate\n"),
]


def compare_examples(report, bibtex, bibkeep):
    for it in CITED:
        where = f"{' '.join(map(bytes.decode, it.keys))} of {it.file[:70].decode()!r}"
        opens = bibkeep.takes(it.file)
        report.expect("examples by bibkeep", where, records_by_bibkeep(bibkeep, it) if opens else None, it.ours)
        bibtex.takes(it.file, style_for(it.file))
        found = bibtex.answer(it.keys, it.minimum).records
        report.compare("examples by BibTeX", where, found, lambda rules: it.theirs if rules else it.ours, [it.rule])
        if opens:
            by_option = bibkeep.cite_as_bibtex(it.keys, it.minimum)
            listed = [(record.key, record.parent) for record in it.theirs]
            report.expect("examples by `--bibtex`", where, by_option and by_option[0], LEFT_OUT if by_option is None else listed)
    for it in REFUSED:
        bibkeep.takes(it)
        report.expect("files that `--bibtex` refuses", repr(it), bibkeep.cite_as_bibtex(ALL), None)
    bibkeep.takes(JOURNALS)
    bibtex.takes(JOURNALS, style_for(JOURNALS, journals=True))
    report.expect("macros of journals", "all twenty", bibkeep.show_as_bibtex(b"a"), bibtex.answer([b"a"], 1).records[0])
    for it in PRINTED:
        where = f"{it.name.decode()} by {it.template.decode()}"
        file = b"@misc{a, author = {" + it.name + b"}}\n\n"
        bibkeep.takes(file)
        ours = None if it.ours is None else [it.ours]
        report.expect("examples by bibkeep", where, bibkeep.names(b"a", it.template), ours)
        bibtex.takes(file, style_for(file, [it.template]))
        found = bibtex.answer([b"a"]).names[0]
        report.compare("examples by BibTeX", where, found, lambda rules: [it.theirs] if rules else ours, [it.rule])
        # BibTeX complains where it prints nothing
        by_option = [it.theirs] if it.theirs else [b"@refused bibkeep: 23 BadTemplate\n"]
        report.expect("examples by `--bibtex`", where, bibkeep.names_as_bibtex(b"a", it.template), by_option)
    for name, template, line in REFUSED_NAMES:
        bibkeep.takes(b"@misc{a, author = {" + name + b"}}\n\n")
        where = f"{name.decode()} by {template.decode()}"
        report.expect("names that `--bibtex` refuses", where, bibkeep.names_as_bibtex(b"a", template), [b"@refused " + line])


def records_by_bibkeep(bibkeep, it):
    return [bibkeep.show(key)._replace(parent=parent) for key, parent in bibkeep.cite(it.keys, it.minimum)[0]]
