"""Journals that are cut, forged, or of another file."""

from cases import FILE, REMOVAL, REMOVED, WITH_ENTRY, Case, journal
from program import MISMATCH, Left, answer_of, seen

ABC = b"abc"
COMMANDS = [("edit", FILE), ("import", FILE), ("insert", FILE), ("undo", FILE), ("redo", FILE), ("log", FILE)]
# The lines before the steps.
HEAD = REMOVED[:79]


def bad_at(place):
    return b"bibkeep: 53 BadJournal at %d\n" % place


def headed(file, counts, steps):
    """The journal of a file with these counts and these bytes of steps."""
    head = journal(file).rsplit(b"0 0\n", 1)[0]
    return head + counts + b"\n" + steps


def with_line(number, line):
    """The journal of the removal with another line."""
    lines = REMOVED.split(b"\n")
    lines[number] = line
    return b"\n".join(lines)


def with_step(step):
    """The journal of one step, which these bytes say."""
    return headed(ABC, b"1 0", step)


# What is not the text of a journal, each with the place at which it goes wrong.
MALFORMED = [
    (with_line(0, b"bibkeep 3"), 0),
    (with_line(0, b"bibkeep 1"), 79),
    (with_line(0, b"bibkeep 2\r"), 0),
    (with_line(0, b" bibkeep 2"), 0),
    (b"\n" + REMOVED, 0),
    (REMOVED.replace(b"ba78", b"Ba78"), 10),
    (REMOVED.replace(b"15ad\n", b"15a\n"), 10),
    (REMOVED.replace(b"15ad\n", b"15ad0\n"), 10),
    (REMOVED.replace(b"15ad\n", b"15ag\n"), 10),
    (with_line(2, b"01 0"), 75),
    (with_line(2, b"65536 0"), 75),
    (with_line(2, b"0 65536"), 75),
    (with_line(2, b"65535 1"), 75),
    (with_line(2, b"1"), 75),
    (with_line(2, b"1 0 "), 75),
    (with_line(2, b"1  0"), 75),
    (with_line(2, b"-1 0"), 75),
    (with_line(2, b"+1 0"), 75),
    (with_line(2, b"18446744073709551617 0"), 75),
    (with_line(4, b"01"), 80),
    (with_line(4, b""), 80),
    (with_line(4, b"16777217"), 80),
    (with_line(5, b"16777217 8 0"), 82),
    (with_line(5, b"3 08 0"), 82),
    (with_line(5, b"3 8"), 82),
    (with_line(5, b"3 8 0 0"), 82),
    (with_line(5, b"3 8 16777217"), 82),
    # the bytes of a piece reach beyond the end
    (with_line(5, b"3 16777216 0"), 97 + 7),
    (with_line(5, b"3 8 16777216"), 97 + 7),
    (with_line(4, b"2"), 97),
    (with_line(2, b"2 0"), 97),
    (REMOVED[:-1] + b"x", 96),
    (REMOVED + b"x", 97),
    (REMOVED + b"\n", 97),
    # there are no steps, and bytes for one
    (with_line(2, b"0 0"), 79),
    # pieces that overlap, or do not ascend
    (with_step(b"\n2\n0 2 0\nab\n1 1 0\nb\n"), len(HEAD) + len(b"\n2\n0 2 0\nab\n")),
    (with_step(b"\n2\n2 0 1\nx\n1 0 1\nx\n"), len(HEAD) + len(b"\n2\n2 0 1\nx\n")),
    # labels with control bytes, and one that is too long
    (with_line(3, b"a\tb"), 79),
    (with_line(3, b"\x1f"), 79),
    (with_line(3, b"\x7f"), 79),
    (with_line(3, b"x" * 256), 79),
]

# Journals that do not fit their file.
MISFITS = [
    (b"abd", REMOVED),
    (b"", REMOVED),
    (ABC, with_line(5, b"4 8 0")),
    (ABC, with_line(5, b"16777216 8 0")),
    (ABC, REMOVED.replace(b"@misc{k}", b"@misc{k]")),
    # the same steps, taken back in place of done
    (ABC, with_line(2, b"0 1")),
    (WITH_ENTRY, REMOVED),
    # the old bytes of a step to be redone are not there, and what it leads to is no file
    (ABC, journal(ABC, future=[[(0, b"x", b"")]])),
    (ABC, journal(ABC, future=[[(3, b"", b"@misc{")]])),
    (ABC, journal(ABC, past=[REMOVAL], future=[[(0, b"abc", b"@misc{a,,}")]])),
    # two steps, of which the older one does not fit
    (ABC, journal(ABC, past=[[(0, b"", b"y")], REMOVAL])),
    # a step back leads to a text that is too long once macros are put in
    (ABC, journal(ABC, past=[[(3, b"@misc{a,t={" + b"x" * 1048577 + b"}}", b"")]])),
    # a step back leads to a file that is too long
    (ABC, journal(ABC, past=[[(3, b"x" * 16777214, b"")]])),
]

# Journals that were written by hand and fit: what `undo` makes of the file.
FITTING = [
    (with_line(5, b"0 8 0"), b"@misc{k}abc", [(0, b"@misc{k}", b"")]),
    (journal(ABC, past=[[]]), ABC, []),
    (journal(ABC, past=[[(0, b"", b"")]]), ABC, [(0, b"", b"")]),
    (journal(ABC, past=[[(0, b"x", b"a"), (1, b"yy", b"b")]]), b"xyyc", [(0, b"x", b"a"), (1, b"yy", b"b")]),
    (journal(ABC, past=[[(3, b"x" * 16777213, b"")]]), ABC + b"x" * 16777213, [(3, b"x" * 16777213, b"")]),
]

# A past of two steps and a future of one, so that a cut can come anywhere.
LONGER = journal(ABC, past=[[(3, b"", b"d"), (4, b"e", b"")], [(3, b"d", b"")]], future=[[(0, b"a", b"@misc{a}")]])
TOO_MANY_BYTES = 67174399
# A label may be as long as this, and hold any byte that is no control byte of ASCII.
LABELLED = with_line(3, b" ~\x80\xff" + b"x" * 251)
# The removal in the version that is read, and no longer written.
BEFORE = journal(ABC, past=[REMOVAL], version=1)


def tried(report, program):
    for words in COMMANDS:
        report.tried("a journal is cut at each byte", words[0], cut(program, words))
        report.tried("a journal is forged", words[0], malformed(program, words))
        report.tried("a journal that does not fit", words[0], misfits(program, words))
    report.tried("a journal forged so that it fits", "undo", fitting(program))
    report.tried("a journal with too many bytes of steps", "log", too_long(program))


def refused(program, words, file, text, message):
    left = program.try_case(Case(words, file, text))
    wanted = {message.split(b" at ")[0].decode().strip(): Left(1, b"", message, file, text)}
    return seen(left, wanted, f"{words[0]} with the journal {text[:200]!r} of {file!r}")


def cut(program, words):
    """A journal that is cut goes wrong at its end."""
    for text in (REMOVED, LONGER, LABELLED, BEFORE):
        for size in range(len(text)):
            yield refused(program, words, ABC, text[:size], bad_at(size))


def malformed(program, words):
    for text, place in MALFORMED:
        yield refused(program, words, ABC, text, bad_at(place))


def misfits(program, words):
    for file, text in MISFITS:
        yield refused(program, words, file, text, MISMATCH)


def fitting(program):
    """What was forged is taken back, and then done again."""
    for text, before, step in FITTING:
        undone = Case(("undo", FILE), ABC, text, output=b"undone 1\n", new_file=before, new_journal=journal(before, future=[step]))
        left = program.try_case(undone)
        yield seen(left, {"answered": answer_of(undone)}, f"undo with {text[:200]!r}")
        redone = Case(("redo", FILE), before, undone.new_journal, output=b"redone 1\n", new_file=ABC, new_journal=text)
        left = program.run(redone.words)
        yield seen(left, {"answered": answer_of(redone)}, f"redo after undo with {text[:200]!r}")


def too_long(program):
    """After the three lines come as many bytes as a journal may have at most, and one more."""
    for size, place in ((TOO_MANY_BYTES, len(HEAD) + TOO_MANY_BYTES), (TOO_MANY_BYTES + 1, len(HEAD) + TOO_MANY_BYTES)):
        yield refused(program, ("log", FILE), ABC, HEAD + b"1" * size, bad_at(place))
