"""Want of memory: each request of each command is refused in turn, alone and with all that come after it."""

from itertools import count

from cases import CASES, CITING, FILE, Case, doubled
from program import NO_MEMORY, WRITE_FAULT, answer_of, refusal_of, seen

LIBRARY = "refuse_memory"
# The longest text that macros may make.
DOUBLED = Case(
    ("check", FILE), doubled(20), output=b"items 21\nentries 0\nmacros 21\npreambles 0\ncomments 0\n"
)
HELP = [("--help",), ("--version",), ("help", "edit"), ("keep",), ("show", FILE)]


def tried(report, program):
    if not program.has_library(LIBRARY):
        print("there is no C compiler, or the program is static, so the program's requests for memory are not refused")
        return
    for case in [*CASES, *CITING, DOUBLED, *(helped(program, words) for words in HELP)]:
        report.tried("one request for memory refused", case.command, refused_in_turn(program, case, "refused"))
        report.tried("all requests for memory refused from one on", case.command, refused_in_turn(program, case, "from"))


def helped(program, words):
    """What the command line itself answers, which is what it answers with all memory."""
    left = program.try_case(Case(words))
    return Case(words, status=left.status, output=left.output, message=left.message)


def refused_in_turn(program, case, which):
    """Refuses one request after another, until a run makes no more of them."""
    wanted = endings_of(case, which)
    for number in count(1):
        left = program.try_case(case, LIBRARY, **{which: number})
        if not left.met:
            break
        yield seen(left, wanted, f"{case.name}, request {number}")
    yield seen(left, {"answered": answer_of(case)}, case.name)


def endings_of(case, which):
    """How a run may end in which a request was refused."""
    wanted = {"no memory": refusal_of(case, 4, NO_MEMORY)}
    if which == "refused":
        # where less memory does as well, it asks for less
        wanted["answered"] = answer_of(case, met=True)
    if case.stores():
        wanted["write fault"] = refusal_of(case, 3, case.message + WRITE_FAULT, case.output)
    return wanted
