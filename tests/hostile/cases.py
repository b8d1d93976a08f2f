"""Every command over worked files: what it is given, and what it answers and leaves.

A new command gets a case here, and then all trials take it on.
"""

import hashlib
from dataclasses import dataclass
from typing import Optional

FILE = "f.bib"
# A file that is read before the first one, or after it, or that `diff` or `merge` takes beside it.
OTHER = "strings.bib"
JOURNAL = f"{FILE}.bibkeep"
NEW_FILE = f"{FILE}.bibkeep-new"
NEW_JOURNAL = f"{JOURNAL}.bibkeep-new"
# The descriptors of standard input and output.
INPUT = "0"
OUTPUT = "1"


@dataclass(frozen=True)
class Case:
    """A run of the program: its words, its sources (None: there is no such file), and what it has to answer."""

    words: tuple
    file: Optional[bytes] = None
    journal: Optional[bytes] = None
    input: bytes = b""
    other: Optional[bytes] = None
    reads: tuple = (FILE,)
    status: int = 0
    output: bytes = b""
    message: bytes = b""
    # What the program puts in the place of the file and of the journal; None: they stay.
    new_file: Optional[bytes] = None
    new_journal: Optional[bytes] = None

    @property
    def name(self):
        return " ".join(self.words)

    @property
    def command(self):
        return self.words[0]

    def source(self, name):
        """The bytes of a source."""
        return {FILE: self.file, OTHER: self.other, JOURNAL: self.journal, INPUT: self.input}[name]

    def stores(self):
        return self.new_file is not None or self.new_journal is not None

    def may_store(self):
        """Whether a run of the command stores something, unless it is refused."""
        return self.command in ("edit", "import", "insert", "merge", "undo", "redo", "forget") and "--print" not in self.words

    def file_after(self):
        return self.file if self.new_file is None else self.new_file

    def journal_after(self):
        return self.journal if self.new_journal is None else self.new_journal


def journal(file, past=(), future=(), version=2, label=b""):
    """The journal of a file with these steps, each of which is a list of pieces: a place, old bytes and new bytes. The last
    step of the past has a label."""
    digest = hashlib.sha256(file).hexdigest().encode()
    text = b"bibkeep %d\n%s\n%d %d\n" % (version, digest, len(past), len(future))
    for number, step in enumerate((*past, *future), 1):
        if version == 2:
            text += (label if number == len(past) else b"") + b"\n"
        text += b"%d\n" % len(step)
        for place, old, new in step:
            text += b"%d %d %d\n%s%s\n" % (place, len(old), len(new), old, new)
    return text


def doubled(count):
    """Macros, each of which says twice what the one before it says."""
    macros = [b"@string{m0 = {x}}", *(b"@string{m%d = m%d # m%d}" % (n, n - 1, n - 1) for n in range(1, count + 1))]
    return b"".join(macros)


def stored(command, output, file, given, pieces, new_file, journal_before=None, past=()):
    """A change of the file by one step, in a journal after these steps."""
    return Case(
        words=(command, FILE),
        file=file,
        journal=journal_before,
        input=given,
        reads=(FILE, INPUT) if journal_before is None else (FILE, JOURNAL, INPUT),
        output=output,
        new_file=new_file,
        new_journal=journal(new_file, [*past, pieces]),
    )


def edited(file, script, pieces, new_file, journal_before=None, past=()):
    """An edit of one line."""
    return stored("edit", b"applied 1\n", file, script, pieces, new_file, journal_before, past)


def worded(file, words, pieces, new_file, journal_before=None, past=(), options=()):
    """An edit by its words, which are the label of its step. Standard input is not read."""
    return Case(
        words=("edit", FILE, *options, *words),
        file=file,
        journal=journal_before,
        input=b"remove\tk\n",
        reads=(FILE,) if journal_before is None else (FILE, JOURNAL),
        output=b"applied 1\n",
        new_file=new_file,
        new_journal=journal(new_file, [*past, pieces], label=" ".join(words).encode()),
    )


def printed(words, file, given, output, journal_before=None):
    """A run with `--print`: the new file is the output, and nothing is stored."""
    reads = [FILE, *([] if journal_before is None else [JOURNAL]), *([] if given is None else [INPUT])]
    return Case(words=(*words, "--print"), file=file, journal=journal_before, input=given or b"", reads=tuple(reads), output=output)


def imported(file, text, counts, entries, journal_before=None, past=()):
    """Entries added to the end of a file by a RIS text."""
    pieces = [(len(file), b"", entries)] if entries else []
    output = b"added %d skipped %d\n" % counts
    return stored("import", output, file, text, pieces, file + entries, journal_before, past)


def listed(file, text, counts, lines, entries):
    """The same with the lines that are skipped."""
    return Case(
        words=("import", FILE, "--skipped"),
        file=file,
        input=text,
        reads=(FILE, INPUT),
        output=b"added %d skipped %d\n" % counts + b"".join(b"skipped %d: %s\n" % line for line in lines),
        new_file=file + entries,
        new_journal=journal(file + entries, [[(len(file), b"", entries)]]),
    )


def unimported(file, text, refusal, journal_before=None, options=()):
    """A RIS text that adds nothing to a file."""
    return Case(
        words=("import", FILE, *options),
        file=file,
        journal=journal_before,
        input=text,
        reads=(FILE, INPUT) if journal_before is None else (FILE, JOURNAL, INPUT),
        status=1,
        message=b"bibkeep: %s\n" % refusal,
    )


def inserted(file, text, position, count, pieces, new_file, journal_before=None, past=(), options=()):
    """A text that is put into a file, at a position or at the end, and has so many entries."""
    return Case(
        words=("insert", FILE, *options, *position),
        file=file,
        journal=journal_before,
        input=text,
        reads=(FILE, INPUT) if journal_before is None else (FILE, JOURNAL, INPUT),
        output=b"added %d\n" % count,
        new_file=new_file,
        new_journal=journal(new_file, [*past, pieces]),
    )


def uninserted(file, text, position, refusal, journal_before=None):
    """A text that is not put into a file."""
    return Case(
        words=("insert", FILE, *position),
        file=file,
        journal=journal_before,
        input=text,
        reads=(FILE, INPUT) if journal_before is None else (FILE, JOURNAL, INPUT),
        status=1,
        message=b"bibkeep: %s\n" % refusal,
    )


ROW = b"mail joe@x.org\n@Misc{a,}\n"
REPORTS = b"@misc{a, t = u, T = 1}@misc{A}"
PARENTS = (
    b"@inproceedings{c1, title = {One}, crossref = {p}}\n@inproceedings{c2, title = {Two}, crossref = {P}}\n"
    b"@inproceedings{c3, title = {Three}, crossref = {p}}\n"
    b"@proceedings{p, title = {Proc}, booktitle = {Proc}, year = 2001}\n"
)
RING = b"@misc{c,crossref={b}}@misc{b,x=1,crossref={a}}@misc{a,x=2,y=3,crossref={c}}"
CHAIN = b"@misc{p,crossref={q}}@misc{q,crossref={r}}@misc{r,year=1999}"
EARLY = b"@misc{p, year = 2001}@misc{c, t = cacm, crossref = {p}}\n\n"
DEEP = b"@misc{k0}" + b"".join(b"@misc{k%d, crossref = {k%d}}" % (n, n - 1) for n in range(1, 66)) + b"\n\n"
BOOKS = (
    b"@misc{Lam86, author = {Donald E. Knuth}, year = 1984}\n"
    b"@misc{Knu84, author = {Leslie Lamport}, year = 1986, crossref = {lam86}}\n"
)
REGENERATED = (
    b"@misc{Knu84, author = {Donald E. Knuth}, year = 1984}\n"
    b"@misc{Lam86, author = {Leslie Lamport}, year = 1986, crossref = {Knu84}}\n"
)
FIELD = b"@misc{a, t = 1,}"
TWO = b"@misc{a}\n@misc{b}\n"
CONFERENCE = b"@string{conf={conf}}@misc{conf95}@misc{b, crossref = conf # {95}}"
REMOVAL = [(3, b"@misc{k}", b"")]
WITH_ENTRY = b"abc@misc{k}"
REMOVED = journal(b"abc", past=[REMOVAL])
TAKEN_BACK = journal(WITH_ENTRY, future=[REMOVAL])
KING = (
    b"@article{k1, author = {King, Jr, Martin Luther and de la Fontaine, Jean}, title = {On Things}, journal = {J}, "
    b"year = 1984, month = may, pages = {10--20}}"
)
KING_RIS = (
    b"TY  - JOUR\nAU  - King, Martin Luther, Jr\nAU  - de la Fontaine, Jean\nTI  - On Things\nJF  - J\n"
    b"PY  - 1984/05//\nSP  - 10\nEP  - 20\nID  - k1\nER  - \n"
)
KING_ADDED = (
    b"@article{k1,\n  author = {King, Jr, Martin Luther and de la Fontaine, Jean},\n  title = {On Things},\n"
    b"  journal = {J},\n  year = {1984},\n  month = {May},\n  pages = {10--20}\n}\n"
)
# lines of another program: a mark, CR LF, a tag that is not known, a value in two lines
LONG_ONE = b"\xef\xbb\xbfTY  - JOUR\r\nXX  - q\r\nTI  - A\r\n  long one\r\n\r\nER  -\r\n"
FIRST = b"@article{anon,\n  title = {A long one}\n}\n"
SECOND = b"@article{anona,\n  title = {A long one}\n}\n"
FIRST_ADDED = [(0, b"", FIRST)]

PART = b"\\citation{a}\n@string{m = {x}}@string{n = {y}}\n@misc{a, crossref = {b}, t = m}@misc{b}\n@misc{c, t = n}\n"

READING = [
    Case(("cat", FILE), ROW, output=ROW),
    Case(("cat",), input=ROW, reads=(INPUT,), output=ROW),
    Case(
        ("check", FILE),
        REPORTS,
        output=b"items 2\nentries 2\nmacros 0\npreambles 0\ncomments 0\n"
        b"undefined macro u\nextra field a T\nrepeated entry A\n",
    ),
    Case(
        ("show", FILE, "c1"),
        PARENTS,
        output=b"@inproceedings c1\ntitle = One\nbooktitle = Proc\nyear = 2001\ncrossref = p\n",
    ),
    Case(("show", FILE, "c", "--depth", "8"), RING, output=b"@misc c\nx = 1\ny = 3\ncrossref = b\n"),
    Case(("show", FILE, "zz"), PARENTS, status=1, message=b"bibkeep: 11 NoSuchEntry\n"),
    Case(("entry", FILE, "b", "A"), b"x @misc{a}y@book{B,}\n", output=b"@book{B,}\n@misc{a}\n"),
    Case(("entry", FILE, "--at", "*"), b"x @misc{a}\n y@book{B,}\n", output=b"0\t1\t3\n@misc{a}\n1\t2\t3\n@book{B,}\n"),
    Case(("entry", FILE, "zz"), PARENTS, status=1, message=b"bibkeep: 11 NoSuchEntry\n"),
    Case(("cite", FILE, "c1", "zz", "c2", "C1"), PARENTS, output=b"c1\tp\nc2\tp\np\n? zz\n"),
    Case(("cite", FILE, "--min-crossrefs", "3", "c1", "zz", "c2", "C1"), PARENTS, output=b"c1\nc2\n? zz\n"),
    Case(("labels", FILE, "Lam86", "knu84"), BOOKS, output=b"Knu84\tLam86\nLam86\tKnu84\n"),
    Case(("names", FILE, "Lam86", "{f. }{vv~}{ll}"), BOOKS, output=b"D.~E. Knuth\n"),
    Case(("lint", FILE), b"@misc{a, t = u}\n@misc{A}", status=1, output=b"f.bib:1:14: warning: macro u is not defined [undefined-macro]\nf.bib:2:7: warning: key A is that of an earlier entry [repeated-key]\n"),
    Case(("lint", FILE), b"@misc{a,\n t = \"}\"}", status=1, output=b"f.bib:2:7: error: 6 UnbalancedBrace\n"),
    Case(("json", FILE, "knu84"), BOOKS, output=b'{"type":"misc","key":"Knu84","parent":"Lam86","fields":{"author":"Leslie Lamport","year":"1986"}}\n'),
    Case(
        ("json", FILE, "--raw", "knu84"),
        BOOKS,
        output=b'{"type":"misc","key":"Knu84","parent":"Lam86","fields":{"author":{"name":"author","value":"{Leslie Lamport}","inherited":false},'
        b'"year":{"name":"year","value":"1986","inherited":false}},"item":1,"line":2,"column":1}\n',
    ),
    Case(("newkeys", FILE), BOOKS, output=b"Lam86\tKnu84\nKnu84\tLam86\n"),
    Case(("ris", FILE, "--dropped", "a"), b"@misc{a, t = 1, year = 2000}", output=b"a\tt\n"),
    Case(("ris", FILE, "--plain", "a"), b"@misc{a, title = {{\\'e}}}", output=b"TY  - GEN\nTI  - \xc3\xa9\nID  - a\nER  - \n"),
    Case(("show", FILE, "--bibtex", "c"), EARLY, output=b"@misc c\nt = Communications of the ACM\n"),
    Case(("cite", FILE, "--bibtex", "C", "zz", "p"), EARLY, output=b"C\tp\np\n? zz\n"),
    Case(
        ("json", FILE, "--bibtex", "*"),
        EARLY,
        output=b'{"type":"misc","key":"p","parent":null,"fields":{"year":"2001"}}\n'
        b'{"type":"misc","key":"c","parent":"p","fields":{"t":"Communications of the ACM","year":"2001"}}\n',
    ),
    Case(("ris", FILE, "--bibtex", "c", "p"), EARLY, output=b"TY  - GEN\nPY  - 2001///\nID  - c\nER  - \nTY  - GEN\nPY  - 2001///\nID  - p\nER  - \n"),
    Case(("names", FILE, "--bibtex", "k", "{ll}{, f.}"), b"@book{k, author = {D. E. Knuth}}\n\n", output=b"Knuth, D.~E.\n"),
    Case(("labels", FILE, "--bibtex", "*"), b"@book{k, author = {D. E. Knuth}, year = 1984}\n\n", output=b"Knu84\tk\n"),
    Case(("cite", FILE, "--bibtex", "*"), b"@misc{a,\n t=1}@misc{b}", status=1, message=b"bibkeep: 14 NotPlain at 14\n"),
    Case(("cite", FILE, "--bibtex", "*"), DEEP, status=1, message=b"bibkeep: 15 TooDeep\n"),
    Case(("show", FILE, "--bibtex", "a"), b"@misc{a,,}", status=1, message=b"bibkeep: 2 ExpectedName at 8\n"),
    Case(("labels", FILE, "--depth", "2", "p"), CHAIN, output=b"anon99\tp\n"),
    Case(("ris", FILE, "k1"), KING, output=KING_RIS),
    Case(
        ("ris", FILE, "*"),
        FIRST + SECOND,
        output=b"TY  - JOUR\nTI  - A long one\nID  - anon\nER  - \n"
        b"TY  - JOUR\nTI  - A long one\nID  - anona\nER  - \n",
    ),
    Case(("ris", FILE, "k1", "zz"), KING, status=1, message=b"bibkeep: 11 NoSuchEntry\n"),
    Case(("cite", FILE, "--strict", "c1", "zz"), PARENTS, status=1, output=b"c1\n? zz\n"),
    Case(("extract", FILE, "A"), PART, output=b"@string{m = {x}}\n@misc{a, crossref = {b}, t = m}\n@misc{b}\n"),
    Case(("extract", FILE, "a", "zz", "yy"), PART, status=1, message=b"bibkeep: 11 NoSuchEntry in zz\n"),
]

# A text that is both a BibTeX file and an aux file. (What fails in an aux file is told with its name.)
CITING = [
    Case(("cite", FILE, "--aux", FILE), PART, output=b"a\n"),
    Case(("lint", FILE, "--aux", FILE), b"\\citation{A,zz}\n@misc{a}\n", status=1, output=b"f.bib:1:13: warning: key zz is cited and no entry has it [missing-key]\n"),
    Case(("extract", FILE, "b", "--aux", FILE), PART, output=b"@string{m = {x}}\n@misc{a, crossref = {b}, t = m}\n@misc{b}\n"),
]



def among_several(words, file, other, option="--before", **answer):
    """A run over two files that are read as one."""
    return Case((*words, option, OTHER), file=file, other=other, reads=(FILE, OTHER), **answer)


MACRO = b"@string{p = {Press}}\n"
CHILD = b"@misc{c, t = p, crossref = {v}}\n"
BOTH = MACRO + b"@book{v, year = 2001}\n"
SEVERAL = [
    among_several(("check", FILE), CHILD, BOTH, output=b"items 3\nentries 2\nmacros 1\npreambles 0\ncomments 0\nparent before c\n"),
    among_several(("check", FILE), CHILD, b"@misc{", "--after", status=1, message=b"bibkeep: 1 Unended at 6 in strings.bib\n"),
    among_several(("lint", FILE), b"@misc{c, t = p}\n@misc{C}", MACRO, status=1, output=b"f.bib:2:7: warning: key C is that of an earlier entry [repeated-key]\n"),
    among_several(("lint", FILE), CHILD, b"@misc{a,\n t = \"}\"}", status=1, output=b"strings.bib:2:7: error: 6 UnbalancedBrace\n"),
    among_several(("show", FILE, "c"), CHILD, BOTH, output=b"@misc c\nt = Press\nyear = 2001\ncrossref = v\n"),
    among_several(("cite", FILE, "c", "zz"), CHILD, BOTH, output=b"c\n? zz\n"),
    among_several(("labels", FILE, "*"), CHILD, BOTH, output=b"anon01a\tv\nanon01b\tc\n"),
    among_several(
        ("json", FILE, "c"),
        CHILD,
        BOTH,
        output=b'{"type":"misc","key":"c","parent":"v","fields":{"t":"Press","year":"2001"},"file":"f.bib"}\n',
    ),
    among_several(("names", FILE, "a", "{ll}"), b"@misc{a, author = p}", MACRO, output=b"Press\n"),
    among_several(("newkeys", FILE), CHILD, BOTH, "--after", output=b"c\tanon01\nv\tanon01a\n"),
    among_several(("ris", FILE, "c"), CHILD, BOTH, output=b"TY  - GEN\nPY  - 2001///\nID  - c\nER  - \n"),
    among_several(("extract", FILE, "c"), CHILD, BOTH, output=MACRO + b"@book{v, year = 2001}\n" + CHILD),
    among_several(("extract", FILE, "c", "zz"), CHILD, BOTH, status=1, message=b"bibkeep: 11 NoSuchEntry in zz\n"),
]



def compared(old, new, **answer):
    """The edits that lead from one file to another."""
    return Case(("diff", FILE, OTHER), file=old, other=new, reads=(FILE, OTHER), **answer)


COMPARING = [
    compared(b"@misc{a, t = 1}\n@misc{b}\n", b"@misc{a, t = {2}}\n\n@book{c, u = 1}\n", status=1, output=b"remove\tb\nadd\t1\tbook\tc\tu\t1\nset\ta\tt\t{2}\n"),
    compared(b"@misc{p, t = 1}@misc{c, crossref={p}}", b'@misc{q,T={1}}@misc{c, crossref = "Q"}', status=1, output=b'rename-key\tp\tq\nset\tc\tcrossref\t"Q"\n'),
    compared(b"@misc{a}@misc{b}@misc{c}", b"@misc{c}@misc{a}@misc{b}", status=1, output=b"move\tc\t0\n"),
    compared(b"@misc{a,t={x  y}}", b'% new\n@misc{a,\n  t = "x\ny" ,\n}'),
    compared(b"@misc{a}@misc{a}", b"@misc{a}", status=1, message=b"bibkeep: 46 NoScript in a\n"),
    compared(b"@misc{a}", b"@misc{a}@misc{}", status=1, message=b"bibkeep: 46 NoScript\n"),
    compared(b"@misc{", b"@misc{a,,}", status=1, message=b"bibkeep: 1 Unended at 6 in f.bib\n"),
    compared(b"@misc{a}", b"@misc{a,,}", status=1, message=b"bibkeep: 2 ExpectedName at 8 in strings.bib\n"),
]

EDITING = [
    edited(WITH_ENTRY, b"remove\tk\n", REMOVAL, b"abc"),
    edited(
        b"abc",
        b"add\t0\tmisc\tk\n",
        [(3, b"", b"@misc{k}\n")],
        b"abc@misc{k}\n",
        journal_before=REMOVED,
        past=[REMOVAL],
    ),
    edited(FIELD, b"set\ta\ty\t{2}", [(14, b"", b",\n  y = {2}")], b"@misc{a, t = 1,\n  y = {2},}"),
    edited(FIELD, b"drop\ta\tT\n", [(7, b", t = 1", b"")], b"@misc{a,}"),
    edited(FIELD, b"set-type\ta\tbook\n", [(1, b"misc", b"book")], b"@book{a, t = 1,}"),
    edited(b"@misc{a}@misc{A, t = 1}", b"remove\ta,2\n", [(8, b"@misc{A, t = 1}", b"")], b"@misc{a}"),
    edited(TWO, b"move\ta\t1\n", [(0, b"@misc{a}", b""), (18, b"", b"@misc{a}\n")], b"\n@misc{b}\n@misc{a}\n"),
    edited(
        CONFERENCE,
        b"rename-key\tconf95\ticc\n",
        [(26, b"conf95", b"icc"), (53, b"conf # {95}", b"{icc}")],
        b"@string{conf={conf}}@misc{icc}@misc{b, crossref = {icc}}",
    ),
    edited(
        CONFERENCE,
        b"rename-macro\tconf\tc\n",
        [(8, b"conf", b"c"), (53, b"conf", b"c")],
        b"@string{c={conf}}@misc{conf95}@misc{b, crossref = c # {95}}",
    ),
    edited(
        b"@string{x={1}}@string{m=x}@string{x={2}}@misc{k,t=m}",
        b"inline\tm\n",
        [(14, b"@string{m=x}", b""), (50, b"m", b"{1}")],
        b"@string{x={1}}@string{x={2}}@misc{k,t={1}}",
    ),
    edited(b"@misc{a,T=1}@misc{b,t=2}", b"rename-field\tt\tu\n", [(8, b"T", b"u"), (20, b"t", b"u")], b"@misc{a,u=1}@misc{b,u=2}"),
    edited(b"@misc{a,t=1}@misc{b,t=2}", b"rename-field\tt\tu\tB\n", [(20, b"t", b"u")], b"@misc{a,t=1}@misc{b,u=2}"),
    edited(b"@string{m = 1} @misc{a}", b"undefine\tM\n", [(0, b"@string{m = 1}", b"")], b" @misc{a}"),
    edited(b"@string{m = 1} @misc{a}", b"define\tn\t{x}\n", [(14, b"", b"\n@string{n = {x}}")], b"@string{m = 1}\n@string{n = {x}} @misc{a}"),
    edited(b"x@misc{a}@string{m = 1}", b"define\tn\t2\n", [(1, b"", b"@string{n = 2}\n")], b"x@string{n = 2}\n@misc{a}@string{m = 1}"),
    edited(b"@string(m = 1 # n) @misc{a}", b"set-macro\tM\t{x}\n", [(12, b"1 # n", b"{x}")], b"@string(m = {x}) @misc{a}"),
    edited(
        b'@misc{a, t = {x} # "x"}',
        b"introduce\tm\tx\n",
        [(0, b"", b"@string{m = {x}}\n"), (13, b"{x}", b"m"), (19, b'"x"', b"m")],
        b"@string{m = {x}}\n@misc{a, t = m # m}",
    ),
    edited(
        BOOKS,
        b"regenerate\n",
        [
            (BOOKS.index(b"Lam86"), b"Lam86", b"Knu84"),
            (BOOKS.index(b"Knu84"), b"Knu84", b"Lam86"),
            (BOOKS.index(b"{lam86}"), b"{lam86}", b"{Knu84}"),
        ],
        REGENERATED,
    ),
    edited(
        CHAIN,
        b"regenerate\t2\n",
        [
            (CHAIN.index(b"p,"), b"p", b"anon99"),
            (CHAIN.index(b"{q}"), b"{q}", b"{anon99a}"),
            (CHAIN.index(b"q,"), b"q", b"anon99a"),
            (CHAIN.index(b"{r}"), b"{r}", b"{anon99b}"),
            (CHAIN.index(b"r,"), b"r", b"anon99b"),
        ],
        b"@misc{anon99,crossref={anon99a}}@misc{anon99a,crossref={anon99b}}@misc{anon99b,year=1999}",
    ),
    # the edits before a refused line stand, and where there are none nothing is stored
    Case(
        ("edit", FILE),
        FIELD,
        input=b"set\ta\ty\t{2}\ndrop\ta\tq\nset\ta\tz\t3\n",
        reads=(FILE, INPUT),
        status=1,
        output=b"applied 1\n",
        message=b"bibkeep: line 2: 35 NotFound\n",
        new_file=b"@misc{a, t = 1,\n  y = {2},}",
        new_journal=journal(b"@misc{a, t = 1,\n  y = {2},}", [[(14, b"", b",\n  y = {2}")]]),
    ),
    Case(
        ("edit", FILE),
        b"abc",
        journal=REMOVED,
        input=b"remove\tk\n",
        reads=(FILE, JOURNAL, INPUT),
        status=1,
        output=b"applied 0\n",
        message=b"bibkeep: line 1: 35 NotFound\n",
    ),
]

IMPORTING = [
    imported(b"", LONG_ONE, (1, 1), FIRST),
    imported(FIRST, LONG_ONE, (1, 1), SECOND, journal(FIRST, [FIRST_ADDED]), past=[FIRST_ADDED]),
    imported(b"abc", KING_RIS, (1, 0), KING_ADDED),
    listed(b"abc", b"mail\n" + KING_RIS + b"\nend", (1, 2), [(1, b"mail"), (2 + KING_RIS.count(b"\n") + 1, b"end")], KING_ADDED),
    # a text without records is a step without pieces
    imported(b"abc", b"", (0, 0), b"", journal_before=REMOVED, past=[REMOVAL]),
    unimported(b"", b"AU  - x\n", b"61 NoStart at 0"),
    unimported(b"abc", b"TY  - BOOK\n", b"62 NoEnd at 11"),
    unimported(b"abc", b"TY  -\nER  -\n", b"63 EmptyType at 0"),
    unimported(b"abc", b"TY  - BOOK\nTI  - a}b\nER  - \n", b"64 UnbalancedText"),
    unimported(b"", b"TY  - GEN\nXX  - 1\nID  - x\nER  - \n", b"65 SkippedLine at 10", options=("--strict",)),
    unimported(b"", b"TY  - GEN\nID  - x\nER  - \nTY  - GEN\nID  - x\nER  - \n", b"37 KeyInUse"),
    unimported(b"@misc{X}", b"TY  - GEN\nID  - x\nER  - \n", b"37 KeyInUse", journal(b"@misc{X}", [[(0, b"", b"@misc{X}")]])),
    unimported(b"abd", LONG_ONE, b"54 JournalMismatch", REMOVED),
]

# What a page may give: text around entries, a macro, a preamble, CR LF, a mark, and keys that look like options and commands.
PASTED = (
    b"\xef\xbb\xbf% from a page\r\n@string{m = {M}}\r\n@preamble{m}\r\n"
    b"@article{--print, t = m}\r\n@comment{x}@misc{undo, crossref = {A}}"
)
INSERTING = [
    inserted(b"abc", b"@misc{k}\n", (), 1, [(3, b"", b"\n@misc{k}\n")], b"abc\n@misc{k}\n"),
    inserted(b"abc", b"@misc{k}\n", ("0",), 1, [(3, b"", b"\n@misc{k}\n")], b"abc\n@misc{k}\n", REMOVED, past=[REMOVAL]),
    inserted(TWO, b"@book{c}\n", ("after:A",), 1, [(9, b"", b"@book{c}\n")], b"@misc{a}\n@book{c}\n@misc{b}\n"),
    inserted(TWO, b"@book{c}", ("before:a",), 1, [(0, b"", b"@book{c}")], b"@book{c}@misc{a}\n@misc{b}\n"),
    inserted(TWO, PASTED, ("end",), 2, [(18, b"", PASTED)], TWO + PASTED),
    inserted(b"@misc{--help}\n" + TWO, b"@book{c}\n", ("after:--help",), 1, [(14, b"", b"@book{c}\n")], b"@misc{--help}\n@book{c}\n" + TWO),
    # what could be redone goes
    inserted(WITH_ENTRY, b"@misc{l}", ("end",), 1, [(11, b"", b"\n@misc{l}")], WITH_ENTRY + b"\n@misc{l}", TAKEN_BACK),
    # an empty text is a step without pieces
    inserted(b"abc", b"", (), 0, [], b"abc", REMOVED, past=[REMOVAL]),
    inserted(b"abd", b"@misc{k}\n", (), 1, [(3, b"", b"\n@misc{k}\n")], b"abd\n@misc{k}\n", REMOVED, options=("--new-journal",)),
    printed(("insert", FILE, "before:b"), TWO, b"@book{c}\n", b"@misc{a}\n@book{c}\n@misc{b}\n"),
    Case(("insert", FILE, "--no-journal"), b"abd", input=b"@misc{k}\n", reads=(FILE, INPUT), output=b"added 1\n", new_file=b"abd\n@misc{k}\n"),
    uninserted(b"abc", b"@misc{k", (), b"1 Unended at 7 in standard input"),
    uninserted(b"abc", b'@misc{a,t="}"}', ("0",), b"6 UnbalancedBrace at 11 in standard input"),
    uninserted(b"abc", b"@misc{k}", ("1",), b"34 BadPosition"),
    uninserted(b"abc", b"@misc{k", ("first",), b"34 BadPosition"),
    uninserted(TWO, b"@misc{k}", ("after:k",), b"35 NotFound"),
    uninserted(b"@misc{a}@misc{A}", b"@misc{k}", ("before:a",), b"36 Ambiguous"),
    uninserted(WITH_ENTRY, b"@book{K}", (), b"37 KeyInUse", TAKEN_BACK),
    uninserted(b"abc", b"@misc{k}@book{K}", (), b"37 KeyInUse"),
    uninserted(CONFERENCE, b"@string{CONF = 1}", (), b"38 NameInUse"),
    uninserted(b"@misc{a} x @book", b"{b}", ("after:a",), b"40 WouldMerge"),
    uninserted(b"abd", b"@misc{k}", (), b"54 JournalMismatch", REMOVED),
    edited(TWO, b"add\tafter:a\tbook\tc\n", [(9, b"", b"@book{c}\n")], b"@misc{a}\n@book{c}\n@misc{b}\n"),
    edited(TWO, b"move\ta\tend\n", [(0, b"@misc{a}", b""), (18, b"", b"@misc{a}\n")], b"\n@misc{b}\n@misc{a}\n"),
    worded(TWO, ("move", "b", "before:A"), [(0, b"", b"@misc{b}\n"), (9, b"@misc{b}", b"")], b"@misc{b}\n@misc{a}\n\n"),
]

WORDING = [
    worded(FIELD, ("set", "a", "y", "{2}"), [(14, b"", b",\n  y = {2}")], b"@misc{a, t = 1,\n  y = {2},}"),
    worded(WITH_ENTRY, ("remove", "k"), REMOVAL, b"abc"),
    worded(b"abc", ("add", "0", "misc", "k"), [(3, b"", b"@misc{k}\n")], WITH_ENTRY + b"\n", journal_before=REMOVED, past=[REMOVAL]),
    Case(("edit", FILE, "remove", "k"), b"abc", status=1, output=b"applied 0\n", message=b"bibkeep: 35 NotFound\n"),
    Case(("edit", FILE, "end"), b"abc", status=1, output=b"applied 0\n", message=b"bibkeep: 71 BadScript\n"),
]

PRINTING = [
    printed(("edit", FILE), WITH_ENTRY, b"remove\tk\n", b"abc"),
    printed(("edit", FILE, "remove", "k"), WITH_ENTRY, None, b"abc", journal_before=TAKEN_BACK),
    printed(("import", FILE), b"abc", KING_RIS, b"abc" + KING_ADDED),
    printed(("import", FILE, "--latex"), b"abc", b"TY  - GEN\nTI  - 5% {a & b\nAU  - X_Y\nUR  - z_%\nID  - k\nER  - \n",
            b"abc@misc{k,\n  author = {X\\_Y},\n  title = {5\\% {\\textbraceleft}a \\& b},\n  url = {z_%}\n}\n"),
    printed(("undo", FILE), b"abc", None, WITH_ENTRY, journal_before=REMOVED),
    printed(("redo", FILE), WITH_ENTRY, None, b"abc", journal_before=TAKEN_BACK),
    # the edits before a refused line are in what is printed, and where there are none nothing is
    Case(
        ("edit", FILE, "--print"),
        FIELD,
        input=b"drop\ta\tt\ndrop\ta\tq\n",
        reads=(FILE, INPUT),
        status=1,
        output=b"@misc{a,}",
        message=b"bibkeep: line 2: 35 NotFound\n",
    ),
    Case(("edit", FILE, "--print", "remove", "k"), b"abc", status=1, message=b"bibkeep: 35 NotFound\n"),
]

# Without a journal, and whole or not at all.
JOURNALLESS = [
    Case(("edit", FILE, "--no-journal", "set", "a", "y", "{2}"), FIELD, output=b"applied 1\n", new_file=b"@misc{a, t = 1,\n  y = {2},}"),
    Case(
        ("import", FILE, "--no-journal"),
        b"abd",
        input=KING_RIS,
        reads=(FILE, INPUT),
        output=b"added 1 skipped 0\n",
        new_file=b"abd" + KING_ADDED,
    ),
    Case(
        ("edit", FILE, "--all-or-nothing"),
        FIELD,
        input=b"set\ta\ty\t{2}\ndrop\ta\tq\n",
        reads=(FILE, INPUT),
        status=1,
        output=b"applied 0\n",
        message=b"bibkeep: line 2: 35 NotFound\n",
    ),
]

# A journal that does not fit is replaced by the option alone, and one that fits is kept.
BEGINNING = [
    worded(b"abd", ("add", "0", "misc", "k"), [(3, b"", b"@misc{k}\n")], b"abd@misc{k}\n", REMOVED, options=("--new-journal",)),
    worded(b"abd", ("add", "0", "misc", "k"), [(3, b"", b"@misc{k}\n")], b"abd@misc{k}\n", b"bib", options=("--new-journal",)),
    worded(b"abc", ("add", "0", "misc", "k"), [(3, b"", b"@misc{k}\n")], WITH_ENTRY + b"\n", REMOVED, past=[REMOVAL], options=("--new-journal",)),
    Case(
        ("import", FILE, "--new-journal"),
        b"abd",
        journal=REMOVED,
        input=KING_RIS,
        reads=(FILE, JOURNAL, INPUT),
        output=b"added 1 skipped 0\n",
        new_file=b"abd" + KING_ADDED,
        new_journal=journal(b"abd" + KING_ADDED, [[(3, b"", KING_ADDED)]]),
    ),
    Case(
        ("edit", FILE, "remove", "k"),
        b"abd",
        journal=REMOVED,
        reads=(FILE, JOURNAL),
        status=1,
        message=b"bibkeep: 54 JournalMismatch\n",
    ),
]

TURNING = [
    Case(
        ("undo", FILE),
        b"abc",
        REMOVED,
        reads=(FILE, JOURNAL),
        output=b"undone 1\n",
        new_file=WITH_ENTRY,
        new_journal=TAKEN_BACK,
    ),
    Case(
        ("undo", FILE, "--steps", "3"),
        b"abc",
        REMOVED,
        reads=(FILE, JOURNAL),
        status=1,
        output=b"undone 1\n",
        message=b"bibkeep: 51 NothingToUndo\n",
        new_file=WITH_ENTRY,
        new_journal=TAKEN_BACK,
    ),
    Case(
        ("redo", FILE),
        WITH_ENTRY,
        TAKEN_BACK,
        reads=(FILE, JOURNAL),
        output=b"redone 1\n",
        new_file=b"abc",
        new_journal=REMOVED,
    ),
    Case(
        ("redo", FILE),
        b"abc",
        REMOVED,
        reads=(FILE, JOURNAL),
        status=1,
        output=b"redone 0\n",
        message=b"bibkeep: 52 NothingToRedo\n",
    ),
    Case(("log", FILE), b"abc", REMOVED, reads=(FILE, JOURNAL), output=b"done 1 8 0\n"),
    Case(("log", FILE), WITH_ENTRY, TAKEN_BACK, reads=(FILE, JOURNAL), output=b"undone 1 8 0\n"),
    Case(
        ("log", FILE),
        b"abc",
        journal(b"abc", past=[REMOVAL, []]),
        reads=(FILE, JOURNAL),
        output=b"done 1 8 0\ndone 0 0 0\n",
    ),
    Case(
        ("log", FILE),
        b"abd",
        REMOVED,
        reads=(FILE, JOURNAL),
        status=1,
        message=b"bibkeep: 54 JournalMismatch\n",
    ),
    # `forget` does not read the old journal
    Case(("forget", FILE), b"abc", b"no journal", new_journal=journal(b"abc")),
]

MERGING = [
    Case(("merge", FILE, FILE, OTHER), file=b"@misc{a}\n", other=b"@misc{b}\n", reads=(FILE, OTHER), new_file=b"@misc{b}\n"),
    Case(("merge", FILE, FILE, OTHER, "--print"), file=b"@misc{a}\n", other=b"@misc{b}\n", reads=(FILE, OTHER), output=b"@misc{b}\n"),
    Case(("merge", OTHER, FILE, OTHER), file=b"x@foo\n", other=b"@misc{b}\n", reads=(OTHER, FILE), new_file=b"x@foo\n"),
    # we gave the entry another key, and the others follow
    Case(("merge", OTHER, FILE, OTHER), file=b"@misc{k, t = 1}\n", other=b"@misc{a, t = 1}\n", reads=(OTHER, FILE), new_file=b"@misc{k, t = 1}\n"),
    Case(
        ("merge", FILE, FILE, OTHER), file=b"@misc{a}\n", other=b"@misc{", reads=(FILE, OTHER), status=1,
        message=b"bibkeep: 1 Unended at 6 in strings.bib\n",
    ),
]

CASES = READING + SEVERAL + COMPARING + EDITING + WORDING + PRINTING + JOURNALLESS + BEGINNING + IMPORTING + INSERTING + MERGING + TURNING
