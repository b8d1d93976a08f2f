"""The style that prints what BibTeX gives to styles: of each listed entry the type, the key, the crossref and all fields, and
the names of its authors, or else of its editors, by templates."""

import re
from typing import NamedTuple

from programs import texts_of

# The macros of the style plain, beside the months.
JOURNALS = {
    b"acmcs": b"ACM Computing Surveys",
    b"acta": b"Acta Informatica",
    b"cacm": b"Communications of the ACM",
    b"ibmjrd": b"IBM Journal of Research and Development",
    b"ibmsj": b"IBM Systems Journal",
    b"ieeese": b"IEEE Transactions on Software Engineering",
    b"ieeetc": b"IEEE Transactions on Computers",
    b"ieeetcad": b"IEEE Transactions on Computer-Aided Design of Integrated Circuits",
    b"ipl": b"Information Processing Letters",
    b"jacm": b"Journal of the ACM",
    b"jcss": b"Journal of Computer and System Sciences",
    b"scp": b"Science of Computer Programming",
    b"sicomp": b"SIAM Journal on Computing",
    b"tocs": b"ACM Transactions on Computer Systems",
    b"tods": b"ACM Transactions on Database Systems",
    b"tog": b"ACM Transactions on Graphics",
    b"toms": b"ACM Transactions on Mathematical Software",
    b"toois": b"ACM Transactions on Office Information Systems",
    b"toplas": b"ACM Transactions on Programming Languages and Systems",
    b"tcs": b"Theoretical Computer Science",
}
MONTHS = b"January February March April May June July August September October November December".split()
# Words that mean something in every style, so that no style can have a field or a type of that name.
TAKEN = set(
    b"""= > < + - * := add.period$ call.type$ change.case$ chr.to.int$ cite$ duplicate$ empty$ format.name$ if$ int.to.chr$
    int.to.str$ missing$ newline$ num.names$ pop$ preamble$ purify$ quote$ skip$ stack$ substring$ swap$ text.length$
    text.prefix$ top$ type$ warning$ while$ width$ write$ crossref sort.key$ entry.max$ global.max$""".split()
)
# Names as BibTeX reads them.
NAME = rb"""[^\x00-\x20"#%'(),={}0-9][^\x00-\x20"#%'(),={}]*"""
FIELD = re.compile(rb"(%s)[ \t\r\n]*=" % NAME)
TYPE = re.compile(rb"@[ \t\r\n]*(%s)[ \t\r\n]*[{(]" % NAME)

WORDS = b"""INTEGERS { the.position the.count }
STRINGS { the.list }
FUNCTION { default.type } { skip$ }
"""

NAMES = b"""FUNCTION { print.all.names }
{ 'the.list :=
  the.list num.names$ 'the.count :=
  #1 'the.position :=
  { the.position the.count > { #0 } { #1 } if$ } { print.a.name the.position #1 + 'the.position := } while$
}
FUNCTION { has.names } { duplicate$ missing$ { pop$ #0 } { num.names$ #0 > } if$ }
FUNCTION { print.names.of.entry }
{ author has.names { author print.all.names } { editor has.names { editor print.all.names } 'skip$ if$ } if$ }
"""


class Style(NamedTuple):
    text: bytes
    # the types that it knows, so that BibTeX tells them
    types: frozenset


def uses_journals(file):
    """Whether a file has a word that is such a macro."""
    return re.search(rb"(?i)\b(%s)\b" % b"|".join(JOURNALS), b"\n".join(texts_of(file))) is not None


def style_for(file, templates=(), journals=False):
    """A style that knows every field and every type of a file, or of several, but no type that has the name of a field; and the
    macros of journals, if they are wanted."""
    file = b"\n".join(texts_of(file))
    fields = sorted({b"author", b"editor", *words_of(file, FIELD)})
    types = [word for word in words_of(file, TYPE) if word not in fields]
    lines = [b"ENTRY { " + b"\n".join(fields) + b" } { } { }", WORDS]
    lines += [b"FUNCTION { %s } { skip$ }" % word for word in types]
    lines += [b'MACRO { %s } { "%s" }' % (month[:3].lower(), month) for month in MONTHS]
    lines += [b'MACRO { %s } { "%s" }' % macro for macro in (JOURNALS.items() if journals else ())]
    lines += [b"READ", b"FUNCTION { print.a.name }", b"{"]
    lines += [b'  "|name %d " the.list the.position "%s" format.name$ * top$' % it for it in enumerate(templates)]
    lines += [b"}", NAMES, b"FUNCTION { print.the.entry }", b'{ "|entry " type$ * " " * cite$ * top$']
    lines += [b"  " + printed(word) for word in [b"crossref", *fields]]
    lines += [b"  print.names.of.entry" if templates else b"", b"}", b"ITERATE { print.the.entry }", b""]
    return Style(b"\n".join(lines), frozenset(types))


def words_of(file, pattern):
    """The words, in lower case, that the pattern finds in a file, and that a style may define."""
    return sorted({word.lower() for word in pattern.findall(file)} - TAKEN)


def printed(field):
    """Prints a field, unless it is missing."""
    return b'%s missing$ \'skip$ { "|field %s " %s * top$ } if$' % (field, field, field)


def told(record, style):
    """A record as BibTeX can tell it."""
    return record._replace(kind=record.kind if record.kind in style.types else None)
