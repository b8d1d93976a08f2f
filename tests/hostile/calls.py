"""Calls on the system that fail: each read, each write, and every other call in turn; and runs that are killed."""

import os
from itertools import count
from signal import SIGKILL

from cases import CASES, FILE, INPUT, JOURNAL, NEW_FILE, NEW_JOURNAL, OTHER, OUTPUT
from program import LINKED, MISMATCH, WRITE_FAULT, Left, answer_of, difference, read_fault_of, refusal_of, seen
from report import Seen

LIBRARY = "fail_calls"
ELSEWHERE = "elsewhere"
# So many interruptions of a source or of the output are borne, and one more is a fault.
BORNE = 100


def tried(report, program):
    if not program.has_library(LIBRARY):
        print("there is no C compiler, or the program is static, so the program's calls on the system do not fail")
        return
    for case in CASES:
        for kind, trial in KINDS.items():
            report.tried(kind, case.command, trial(program, case))


def with_trouble(program, case, ending, wanted, **trouble):
    """One run of the case with trouble, which ends in one way."""
    left = program.try_case(case, LIBRARY, **trouble)
    where = ", ".join(f"{name} {value}" for name, value in trouble.items())
    return seen(left, {ending: wanted}, f"{case.name}, {where}")


def write_fault_of(case, written):
    return refusal_of(case, 3, WRITE_FAULT, written)


def small_reads(program, case):
    for source in case.reads:
        yield with_trouble(program, case, "answered", answer_of(case), on=source, piece=1)


def failing_reads(program, case):
    """Each read that a run makes: one call for a byte, and one for the end."""
    for source in case.reads:
        for room in range(len(case.source(source)) + 1):
            yield with_trouble(program, case, "read fault", read_fault_of(case, source), on=source, piece=1, room=room)
    for source in {FILE, JOURNAL, INPUT} - set(case.reads):
        if case.source(source) is not None:
            yield with_trouble(program, case, "not read", answer_of(case), on=source, room=0)


def interrupted_reads(program, case):
    """Interruptions before the first byte, in the middle, and before the end."""
    for source in case.reads:
        size = len(case.source(source))
        for place in sorted({0, size // 2, size}):
            where = {"on": source, "piece": 1, "after": place}
            borne = answer_of(case, met=True)
            yield with_trouble(program, case, "answered", borne, interrupted=BORNE, **where)
            yield with_trouble(program, case, "read fault", read_fault_of(case, source), interrupted=BORNE + 1, **where)


def small_writes(program, case):
    yield with_trouble(program, case, "answered", answer_of(case), on=OUTPUT, piece=3)


def failing_writes(program, case):
    """The output is taken up to each of its bytes."""
    for room in range(len(case.output)):
        fault = write_fault_of(case, case.output[:room])
        yield with_trouble(program, case, "write fault", fault, on=OUTPUT, room=room)
        yield with_trouble(program, case, "write fault", fault, on=OUTPUT, full=room)
        yield with_trouble(program, case, "write fault", fault, on=OUTPUT, piece=3, room=room)


def interrupted_writes(program, case):
    for place in sorted({0, len(case.output) // 2}) if case.output else []:
        where = {"on": OUTPUT, "piece": 1, "after": place}
        borne = answer_of(case, met=True)
        yield with_trouble(program, case, "answered", borne, interrupted=BORNE, **where)
        fault = write_fault_of(case, case.output[:place])
        yield with_trouble(program, case, "write fault", fault, interrupted=BORNE + 1, **where)


def full_disks(program, case):
    """The disk takes each number of bytes of the new file and of the new journal, and then fails, or takes none."""
    unstored = refusal_of(case, 3, case.message + WRITE_FAULT, case.output)
    for name, content in ((NEW_FILE, case.new_file), (NEW_JOURNAL, case.new_journal)):
        for room in range(len(content or b"")):
            yield with_trouble(program, case, "write fault", unstored, on=name, room=room)
            yield with_trouble(program, case, "write fault", unstored, on=name, full=room)


def interrupted_disks(program, case):
    """The writes of the new file and of the new journal are interrupted."""
    unstored = refusal_of(case, 3, case.message + WRITE_FAULT, case.output)
    for name, content in ((NEW_FILE, case.new_file), (NEW_JOURNAL, case.new_journal)):
        for place in sorted({0, len(content) // 2}) if content else []:
            trouble = {"on": name, "piece": 1, "after": place}
            yield with_trouble(program, case, "answered", answer_of(case, met=True), interrupted=BORNE, **trouble)
            yield with_trouble(program, case, "write fault", unstored, interrupted=BORNE + 1, **trouble)


def failing_calls(program, case):
    """Every call of a run fails in turn."""
    wanted = endings_with_a_failing_call(case)
    for number in count(1):
        left = program.try_case(case, LIBRARY, failed=number)
        if not left.met:
            break
        yield seen(left, wanted, f"{case.name}, call {number}")
    yield seen(left, {"answered": answer_of(case)}, case.name)


def failing_calls_beside_a_link(program, case):
    """The same where the journal is a link: what it leads to stays, and the link stays or is replaced itself."""
    if case.journal is None or not case.stores() or "--new-journal" in case.words:
        return
    wanted = endings_beside_a_link(case)
    for number in count(1):
        program.lay_case(case)
        os.rename(program.path(JOURNAL), program.path(ELSEWHERE))
        os.symlink(ELSEWHERE, program.path(JOURNAL))
        left = program.run(case.words, case.input, LIBRARY, failed=number)
        where = f"{case.name}, call {number}"
        with open(program.path(ELSEWHERE), "rb") as file:
            if file.read() != case.journal:
                yield Seen("wrong", f"{where}: the link was followed")
        yield seen(left._replace(others=(), met=True), wanted, where)
        if not left.met:
            break


def endings_beside_a_link(case):
    """A fault, or the answer, if the command does not read the journal; else the journal is damaged."""
    if JOURNAL not in case.reads:
        return endings_with_a_failing_call(case)
    damaged = refusal_of(case, 1, LINKED)
    return {
        "a damaged journal": damaged,
        "a damaged journal, in silence": damaged._replace(message=b""),
        "read fault": read_fault_of(case),
        "write fault": write_fault_of(case, b""),
    }


def endings_with_a_failing_call(case):
    """A read fault, a write fault, or the answer where the call made no difference, as the closing of a source does."""
    wanted = {"answered": answer_of(case, met=True), "read fault": read_fault_of(case)}
    if case.other is not None:
        wanted["read fault of the other file"] = read_fault_of(case, OTHER)
    if case.output or case.may_store():
        # the output could not be written, or what is in the place of the journal could not be looked at
        wanted["write fault"] = write_fault_of(case, b"")
    if case.message:
        # it could not be said
        wanted["answered in silence"] = wanted["answered"]._replace(message=b"")
    if case.stores():
        unstored = refusal_of(case, 3, case.message + WRITE_FAULT, case.output)
        wanted["write fault, nothing stored"] = unstored
        if case.new_file is not None:
            wanted["write fault, the file alone stored"] = unstored._replace(file=case.new_file)
    return wanted


def killed(program, case, **trouble):
    """A run is killed before each of its calls: each file is the old one or the new one, and a later run is not misled."""
    for number in count(1):
        left = program.try_case(case, LIBRARY, killed=number, **trouble)
        if not left.met:
            break
        state = seen(left._replace(others=()), states_of(case, left), f"{case.name}, killed before call {number}")
        later = later_run(program, case, state.ending)
        yield Seen("wrong", f"{case.name}, killed before call {number}: {later}") if later else state
    yield seen(left, {"answered": answer_of(case)}, case.name)


def killed_in_writes(program, case):
    """The same where the new file and the new journal are written a few bytes at a time."""
    for name, content in ((NEW_FILE, case.new_file), (NEW_JOURNAL, case.new_journal)):
        if content:
            yield from killed(program, case, on=name, piece=1 + len(content) // 5)


def states_of(case, left):
    """What may be left: an old or a new file, with its journal; or a new file beside the old journal."""
    output = left.output if left.output in (b"", case.output) else case.output
    states = {
        "old": (output, case.file, case.journal),
        "new": (case.output, case.file_after(), case.journal_after()),
        "new file, old journal": (case.output, case.file_after(), case.journal),
    }
    return {
        name: Left(-SIGKILL, said, left.message, file, kept, met=True) for name, (said, file, kept) in states.items()
    }


def later_run(program, case, state):
    """What is wrong with a later run: it does what is left to be done, and says so where the journal does not fit."""
    if state == "old":
        left = program.run(case.words, case.input)
        return difference(answer_of(case), left)
    if state == "new file, old journal" and case.journal is not None and JOURNAL in case.reads:
        left = program.run(("log", FILE))
        return difference(Left(1, b"", refusal_of_journal(case.journal), case.file_after(), case.journal, left.others), left)
    return None


def refusal_of_journal(text):
    """What is said of a journal that does not fit, or of a text that never was one and ends too early."""
    return MISMATCH if text.startswith(b"bibkeep ") else b"bibkeep: 53 BadJournal at %d\n" % len(text)


KINDS = {
    "reads of one byte": small_reads,
    "one read fails": failing_reads,
    "reads are interrupted": interrupted_reads,
    "writes of three bytes": small_writes,
    "a write fails, or takes none": failing_writes,
    "writes are interrupted": interrupted_writes,
    "the disk takes so many bytes": full_disks,
    "writes to the disk are interrupted": interrupted_disks,
    "one call fails": failing_calls,
    "one call fails, and the journal is a link": failing_calls_beside_a_link,
    "killed before a call": killed,
    "killed in the midst of a write": killed_in_writes,
}
