"""Files that are cut at each byte, that nest deeply, and that never end."""

import contextlib
import os
import random
import re
import resource
import subprocess

from cases import BOOKS, CHILD, CONFERENCE, FIELD, FILE, FIRST, INPUT, JOURNAL, KING, KING_ADDED, KING_RIS, LONG_ONE, MACRO, OTHER, PARENTS
from cases import REGENERATED, REPORTS, ROW, SECOND, TWO, Case, doubled, imported, journal, unimported
from program import LINKED, READ_FAULT, Left, answer_of, seen

# Files that are read as one, in this order: the parent of an entry comes after it, and the macro before it.
TOGETHER = {OTHER: MACRO, FILE: CHILD, "parents.bib": b"@book{v, year = 2001}\n"}
TOGETHER_WORDS = ("check", FILE, "--before", OTHER, "--after", "parents.bib")
MANY = 65535

# Texts at random: which bytes, how many texts, and up to how long.
RANDOM_BYTES = b"@@@{{}}()\"\",=#% \n\r\tam1\\\x00\xff"
RANDOM_TEXTS = 1000
RANDOM_LENGTH = 24
RANDOM_SEED = 1

# Files that can be read, from worked examples.
ACCEPTED = [
    ROW,
    b"@comment{ @misc{a}}",
    b"@string{p={A}}@misc{a,t=p}@string{p={B}}@misc{b,t=p}",
    FIELD,
    b"@misc{a, t = 1,\n  y = {2},}",
    b"@misc{a,}",
    b"@misc{a, t = 1,\n  w = {4},}",
    b"@misc{a, t = 1,\n  y = {2},\n  z = {3},}",
    b"@string{jan = jan # { x}}@misc{a, month = jan}",
    b"@string{j = j # { x}}@misc{a, month = j}",
    b"@string{JAN = JAN # { x}}@misc{a, month = JAN}",
    BOOKS,
    REGENERATED,
    b'@string{m = "a" # {"}}@misc{k, t = m # 1}',
    b'@misc{k, t = {a"} # 1}',
    b"@misc{a}@misc{b, crossref = {Z}}",
    b"a@foo \n@misc{k}{b",
    b"@comment@misc{k}s",
    b"@misc(a, t=1)",
    b"@misc(a, t=1 )",
    b"@misc(a )",
    PARENTS,
    b"abc@misc{k}",
    KING,
    b"@misc{,year=1999}@misc{x,year=1999}@misc{c,year=2000,crossref={anon99A}}",
    b"@misc{anon99,year=1999}@misc{anon99b,year=1999}@misc{anon00,year=2000,crossref={anon99A}}",
    TWO,
    b"@misc{a}\n@book{c,\n  title = {T}\n}\n@misc{b}\n",
    b"\n@misc{b}\n@misc{a}\n",
    b"@misc{A}\n@misc{b}\n",
    b"@misc{a}\n@misc{b}\n@misc{c}\n",
    b'@misc{a, t = {x} # "x"}',
    b"@string{m = {x}}\n@misc{a, t = m # m}",
    b'@preamble{"a" # { b}}',
    REPORTS,
    b"@misc{a, crossref={a}}@misc{b}@misc{c, crossref={b}}@misc{d,crossref={q}}",
    b"@string{x={1}}@string{m=x}@string{x={2}}@misc{k,t=m}",
    CONFERENCE,
    b"@misc{a, t = m}@string{m = 1}@misc{b, t = m}",
    b"@string{p={a}}@misc{a}@misc{b}@misc{c,crossref=p}",
    b"@misc{a}x@misc{b}}}",
    b"@misc{a,x={x@misc{b}}}",
    FIRST,
    FIRST + SECOND,
    KING_ADDED,
]


# RIS texts of one record, each with its entry and the lines that are skipped.
RIS_TEXTS = [(KING_RIS, KING_ADDED, 0), (LONG_ONE, FIRST, 1)]
MARK = b"\xef\xbb\xbf"


def nested(depth):
    return b"@misc{a,t=" + b"{" * depth + b"}" * depth + b"}"


DEEP = [
    Case(("cat", FILE), nested(500000), output=nested(500000)),
    Case(("check", FILE), nested(500000), output=b"items 1\nentries 1\nmacros 0\npreambles 0\ncomments 0\n"),
    Case(("cat", FILE), nested(1000000), output=nested(1000000)),
    Case(("check", FILE), nested(1000000), status=1, message=b"bibkeep: 8 TextTooLong at 10\n"),
    Case(("cat", FILE), b"@misc{a,t=" + b"{" * 8000000, status=1, message=b"bibkeep: 1 Unended at 8000010\n"),
    Case(("cat", FILE), doubled(40), output=doubled(40)),
    Case(("check", FILE), doubled(40), status=1, message=b"bibkeep: 8 TextTooLong at 482\n"),
]
# Room for one buffer of 65,536 bytes, and as much again.
STACK = 131072

# A volume, and 255 entries that refer to it from places far apart, which are read one by one when its key is renamed.
VOLUME = b"@book{volume, title = {All of it}}\n"
FAR_APART = VOLUME + b"".join(
    b"@misc{part%d, crossref = {volume}}\n@misc{filler%d, note = {%s}}\n" % (n, n, b"w" * 4200) for n in range(255)
)
# What such a change takes at most, and as much again as it is tried with otherwise.
STACK_FAR_APART = 262144

FILE_TOO_LONG = b"bibkeep: 9 FileTooLong at 16777216\n"
READERS = [
    ("cat", FILE),
    ("check", FILE),
    ("show", FILE, "a"),
    ("cite", FILE, "a"),
    ("labels", FILE, "a"),
    ("names", FILE, "a", "{ll}"),
    ("ris", FILE, "a"),
    ("forget", FILE),
]
WITH_JOURNAL = [("edit", FILE), ("import", FILE), ("insert", FILE), ("undo", FILE), ("redo", FILE), ("log", FILE)]


def tried(report, program):
    for file in [*ACCEPTED, doubled(20)]:
        for command in ("cat", "check"):
            report.tried("a file is cut at each byte", command, cut(program, command, file))
    report.tried("one of several files is cut at each byte", "check", cut_one_of_several(program))
    report.tried(f"{MANY:,} empty files", "check", many_files(program))
    for file in ACCEPTED:
        report.tried("a text to be put in is cut at each byte", "insert", cut_text(program, file))
    report.tried("a text of bytes at random", "insert", at_random(program))
    for text, entry, skipped in RIS_TEXTS:
        report.tried("a RIS text is cut at each byte", "import", cut_ris(program, text, entry, skipped))
    for case in DEEP:
        report.tried("deep braces and long texts, on a small stack", case.command, on_a_small_stack(program, case, STACK))
    report.tried("a change at places far apart, on a small stack", "edit", on_a_small_stack(program, renamed(), STACK_FAR_APART))
    for words in READERS + WITH_JOURNAL:
        report.tried("a file never ends", words[0], endless(program, words, FILE, FILE_TOO_LONG))
    report.tried("a file never ends", "check", endless(program, ("check", FILE, "--before", OTHER), OTHER, FILE_TOO_LONG[:-1] + b" in strings.bib\n"))
    for names in ((FILE, OTHER), (OTHER, FILE)):
        report.tried("a file never ends", "diff", endless(program, ("diff", *names), OTHER, FILE_TOO_LONG[:-1] + b" in strings.bib\n"))
    for words in WITH_JOURNAL:
        report.tried("a journal that is no file", words[0], no_journal(program, words))
    for words in [("cat",), ("edit", FILE), ("import", FILE), ("insert", FILE)]:
        report.tried("an input never ends", words[0], endless(program, words, INPUT, FILE_TOO_LONG))


def cut(program, command, file):
    """Each prefix is a file, or one that ended too early."""
    for size in range(len(file)):
        prefix = file[:size]
        left = program.try_case(Case((command, FILE), prefix))
        unended = Left(1, b"", b"bibkeep: 1 Unended at %d\n" % size, prefix, None)
        read = Left(0, prefix if command == "cat" else left.output, b"", prefix, None)
        yield seen(left, {"read": read, "ended too early": unended}, f"{command} of {prefix!r}")


def cut_text(program, file):
    """Each prefix is put into an empty file, or ended too early."""
    for size in range(len(file)):
        yield put_in(program, file[:size])


def at_random(program):
    """Bytes as they come, most of which have a meaning in a file."""
    bytes_of = random.Random(RANDOM_SEED)
    for _ in range(RANDOM_TEXTS):
        yield put_in(program, bytes(bytes_of.choice(RANDOM_BYTES) for _ in range(bytes_of.randrange(RANDOM_LENGTH))))


def put_in(program, text):
    """A text that `cat` accepts is put into an empty file as it is, or has a key twice; any other is refused as `cat` refuses it."""
    read = program.try_case(Case(("cat",), input=text))
    left = program.try_case(Case(("insert", FILE), b"", input=text))
    if read.status:
        refused = Left(1, b"", read.message[:-1] + b" in standard input\n", b"", None)
        return seen(left, {"refused as by cat": refused}, f"insert of {text!r}")
    stored = Left(0, left.output, b"", text, journal(text, [[(0, b"", text)] if text else []]))
    taken = Left(1, b"", b"bibkeep: 37 KeyInUse\n", b"", None)
    return seen(left, {"put in": stored, "a key twice": taken}, f"insert of {text!r}")


def cut_one_of_several(program):
    """Each prefix of each file goes with the others, or is named as one that ended too early."""
    for name, file in TOGETHER.items():
        for size in range(len(file)):
            program.clear()
            for other, content in {**TOGETHER, name: file[:size]}.items():
                program.lay(other, content)
            left = program.run(TOGETHER_WORDS)
            unended = left._replace(status=1, output=b"", message=b"bibkeep: 1 Unended at %d in %s\n" % (size, name.encode()))
            read = left._replace(status=0, message=b"")
            yield seen(left, {"read": read, "ended too early": unended}, f"{name} is {file[:size]!r}")


def many_files(program):
    """As many empty files as a list of names may be long."""
    program.clear()
    program.lay("e", b"")
    program.lay(FILE, FIELD)
    left = program.run(("check", FILE, *["--after=e"] * MANY))
    answered = left._replace(status=0, output=b"items 1\nentries 1\nmacros 0\npreambles 0\ncomments 0\n", message=b"")
    yield seen(left, {"answered": answered}, f"{MANY:,} files")


def cut_ris(program, text, entry, skipped):
    """Before the record begins there is a line of no tag, or none; and until it ends the text has ended too early."""
    begun, ended = (text.index(tag) + len(tag) for tag in (b"TY  -", b"ER  -"))
    for size in range(len(text)):
        prefix = text[:size]
        if size < begun:
            ending, case = "no record", imported(b"abc", prefix, (0, prefix not in (b"", MARK)), b"")
        elif size < ended:
            ending, case = "ended too early", unimported(b"abc", prefix, b"62 NoEnd at %d" % size)
        else:
            ending, case = "read", imported(b"abc", prefix, (1, skipped), entry)
        yield seen(program.try_case(case), {ending: answer_of(case)}, f"import of {prefix!r}")


def renamed():
    """The volume gets another key."""
    places = [place.start() for place in re.finditer(b"volume", FAR_APART)]
    step = [(place, b"volume", b"collection") for place in places]
    new_file = FAR_APART.replace(b"volume", b"collection")
    # the braces of a reference are replaced with it
    step[1:] = [(place - 1, b"{volume}", b"{collection}") for place in places[1:]]
    return Case(
        ("edit", FILE),
        FAR_APART,
        input=b"rename-key\tvolume\tcollection\n",
        reads=(FILE, INPUT),
        output=b"applied 1\n",
        new_file=new_file,
        new_journal=journal(new_file, [step]),
    )


def on_a_small_stack(program, case, size):
    def limit():
        resource.setrlimit(resource.RLIMIT_STACK, (size, size))

    left = program.try_case(case, preexec_fn=limit)
    yield seen(left, {"answered": answer_of(case)}, case.name)


def endless(program, words, source, message):
    """A run over a device that never ends, and one over a pipe."""
    for give in (zeros, ever_more):
        program.clear()
        program.lay(FILE, FIELD)
        with give(program, source) as given:
            left = program.run(words, given)
        refused = Left(1, b"", message, None if source == FILE else FIELD, None)
        yield seen(left, {"refused": refused}, f"{words}, {source} without end")


def no_journal(program, words):
    """In the place of the journal is a link to a device that never ends, which is not followed; or a pipe, which is not
    opened."""
    for give, refused in ((zeros, (1, LINKED)), (ever_more, (3, READ_FAULT))):
        program.clear()
        program.lay(FILE, FIELD)
        with give(program, JOURNAL) as given:
            left = program.run(words, given)
        status, message = refused
        yield seen(left, {"refused": Left(status, b"", message, FIELD, None)}, f"{words}, {give.__name__}")


@contextlib.contextmanager
def zeros(program, source):
    """The source is a device that gives zeros for ever."""
    if source == INPUT:
        with open("/dev/zero", "rb") as device:
            yield device
    else:
        replace(program, source, lambda path: os.symlink("/dev/zero", path))
        yield b""


@contextlib.contextmanager
def ever_more(program, source):
    """The source is a pipe, into which zeros are written for ever."""
    if source == INPUT:
        with subprocess.Popen(["cat", "/dev/zero"], stdout=subprocess.PIPE) as writer:
            yield writer.stdout
            writer.kill()
    else:
        replace(program, source, os.mkfifo)
        with subprocess.Popen(["sh", "-c", 'exec cat /dev/zero >"$0"', program.path(source)], stderr=subprocess.DEVNULL) as writer:
            yield b""
            writer.kill()


def replace(program, source, make):
    path = program.path(source)
    if os.path.exists(path):
        os.remove(path)
    make(path)
