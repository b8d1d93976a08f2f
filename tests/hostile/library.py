"""Want of memory in the libraries: on worked examples each request of each public call is refused in turn.

The examples stand in `library/*.txt`. These are sources of a program in Rattle that is run before any proof, and so no crate
of the repository. `rt try` builds it so that the request of one number is refused in each process. So there is a run for each
request of each row, which spends as many requests first as make that one the row's.
"""

import glob
import os
import re
import shutil
import subprocess
import tempfile
import time

from report import Seen

KIND = "a request of a library call refused"
HERE = os.path.dirname(os.path.abspath(__file__))
ROOT = os.path.dirname(os.path.dirname(HERE))
CRATE = "refusals"
STANDS_ON = (
    "bib_text folded_map bib_scan bib_faults bib_data bib_pieces bib_value bib_numbers bib_order bib_index bib_entries "
    "bib_definitions bib_items bib_store bib_steps bib_names bib_keys bib_tokens bib_edit bib_journal journal_format "
    "bib_script ris_text ris_format plain_text bib_ris bib_taps bib_shelf bib_extract bib_paste aux_text"
)
# The number of the request that is refused, and how many the program makes before it spends any.
REFUSED = 400
STARTING = 7
# How many rows each subject has, and those that are left out, since they are tried over pages.
ROWS = {
    "files": 9,
    "readers": 9,
    "parts": 7,
    "values": 6,
    "indexes": 10,
    "flat_lists": 3,
    "paged_lists": 3,
    "flat_stores": 13,
    "paged_stores": 13,
    "names": 14,
    "flat_edits": 36,
    "paged_edits": 36,
    "plans": 33,
    "journals": 8,
    "references": 15,
    "shelves": 5,
    "extracts": 4,
}
LEFT_OUT = {("flat_edits", row) for row in (1, 2, 3, 5, *range(7, 15))}

# So many rows have calls that take no memory: each is run with them, and up to them.
QUIET = "quiet"
SET_UP = "set_up"
QUIET_ROWS = 17
# The calls with a result that take no memory.
WITHOUT_MEMORY = {"Database::find", "place_of", "Macros::months", "Reader::new", "Session::end"}
# A request that comes after all of a row, and one that comes before the first.
LATE = REFUSED - STARTING - 1
BEFORE_THE_FIRST = ("files", 0, 0)
TOO_EARLY = "wrong: the request that is refused comes too early"
# What a library hands out, and where a type begins and ends its calls, of which each has a result.
HANDED_OUT = re.compile(r"^pub use ([^;]*);", re.M)
DECLARED = re.compile(
    r"^(?:impl(?:<[^>]*>)? |pub trait )(?P<owner>\w+)|^(?P<end>})"
    r"|^ *(?P<pub>pub )?fn (?P<call>\w+)(?:<[^>]*>)?\([^)]*\) -> (?:io::)?Result<",
    re.M,
)
# What `rt try` is to run itself: it takes some time, so that the program can be given a second name before it is taken away.
LONG_RUN = ("values", "4", "0")


def tried(report, _program):
    if not shutil.which(os.environ.get("RT", "rt")):
        print("there is no Rattle toolchain, so the libraries are not tried without memory")
        return
    with tempfile.TemporaryDirectory(prefix="bibkeep-library-") as room:
        program, said = built(room)
        if not program:
            report.tried(KIND, "all rows", [Seen("wrong", "the program was not built:\n" + said[-2000:])])
            return
        endings = dict(endings_of(program))
    runs = {}
    for (subject, row, request), ending in endings.items():
        where = f"{subject}, row {row}, request {request}"
        if ending.startswith("refused "):
            runs.setdefault(ending.split()[1], []).append(Seen("refused, and answered when called again"))
        elif ending == "made do":
            runs.setdefault(subject, []).append(Seen("answered with less memory"))
        elif request and ending != "elsewhere" and not ending.startswith("not reached"):
            runs.setdefault(subject, []).append(Seen("wrong", f"{where}: {ending}"))
    for call, seen in runs.items():
        report.tried(KIND, call, seen)
    report.tried("each row is tried to its end", "all rows", ends_of(endings))
    report.tried("calls that take no memory", "all rows", quiet_ends(endings))
    report.tried("each public call that takes memory is refused some", "all calls", calls_refused(runs))


def rows():
    """The rows that are tried, with their subjects."""
    return [(subject, row) for subject, count in ROWS.items() for row in range(count) if (subject, row) not in LEFT_OUT]


def ends_of(endings):
    """A row is tried from its first request, before which one comes too early, to its end, where none is refused."""
    for subject, row in rows():
        last = max(request for tried, n, request in endings if (tried, n) == (subject, row))
        ending = endings[subject, row, last]
        if ending.startswith("not reached"):
            yield Seen("no refusal")
        else:
            yield Seen("wrong", f"{subject}, row {row}, request {last} and no later one: {ending}")
    before = endings.get(BEFORE_THE_FIRST)
    yield Seen("too early") if before == TOO_EARLY else Seen("wrong", f"the request before the first one: {before}")


def quiet_ends(endings):
    """As many requests are made with such calls as without them."""
    for row in range(QUIET_ROWS):
        ended, set_up = (endings.get((subject, row, LATE)) for subject in (QUIET, SET_UP))
        if ended and ended.startswith("not reached") and ended == set_up:
            yield Seen("no request")
        else:
            yield Seen("wrong", f"{QUIET}, row {row}: {ended}, and set up alone: {set_up}")


def calls_refused(refused):
    """Whether each call that the sources declare was refused a request of its own in some run."""
    for call in sorted(set(calls_that_take_memory())):
        if call in refused:
            yield Seen("refused")
        else:
            yield Seen("wrong", f"{call} was refused no request")


def calls_that_take_memory():
    """The calls with a result that a library hands out, but for those that take no memory."""
    for crate in STANDS_ON.split():
        sources = os.path.join(ROOT, "crates", crate, "src")
        handed_out = set(re.findall(r"\w+", " ".join(HANDED_OUT.findall(source(sources, "lib.rt")))))
        for name in os.listdir(sources):
            for call in declared(source(sources, name)):
                if call.split("::")[0] in handed_out and call not in WITHOUT_MEMORY:
                    yield call


def source(folder, name):
    with open(os.path.join(folder, name), encoding="utf-8") as file:
        return file.read()


def declared(text):
    """The calls with a result that a source declares, each with its type or trait."""
    owner = ""
    for line in DECLARED.finditer(text):
        if line["owner"]:
            owner = f"{line['owner']}::"
        elif line["end"]:
            owner = ""
        elif owner == "ItemList::" or line["pub"]:
            yield owner + line["call"]


def built(room):
    """The path of the program, if it can be built from a copy of the repository's sources, and what `rt try` says."""
    folder, temporary, program = (os.path.join(room, name) for name in (f"crates/{CRATE}", "temporary", "program"))
    lay_sources(room, folder)
    os.mkdir(temporary)
    words = [os.environ.get("RT", "rt"), "try", "--fail-alloc", str(REFUSED), "--", *LONG_RUN]
    with open(os.path.join(room, "said"), "w+", encoding="utf-8") as said:
        environment = {**os.environ, "TMPDIR": temporary}
        trying = subprocess.Popen(words, cwd=folder, env=environment, stdout=said, stderr=subprocess.STDOUT)
        while trying.poll() is None:
            time.sleep(0.02)
            for path in glob.glob(f"{temporary}/*/*/program") + glob.glob(f"{temporary}/*/program"):
                if not os.path.exists(program):
                    os.link(path, program)
        said.seek(0)
        return os.path.exists(program) and program, said.read()


def lay_sources(room, folder):
    skip = shutil.ignore_patterns("out", "must-fail")
    shutil.copytree(os.path.join(ROOT, "crates"), os.path.join(room, "crates"), ignore=skip)
    shutil.copy(os.path.join(ROOT, "HANDLES"), room)
    with open(os.path.join(ROOT, "crates.txt"), encoding="utf-8") as crates:
        listed = crates.read()
    with open(os.path.join(room, "crates.txt"), "w", encoding="utf-8") as crates:
        crates.write(f"{listed}\n{CRATE}: {STANDS_ON}\n")
    os.makedirs(os.path.join(folder, "src"))
    for name in os.listdir(os.path.join(HERE, "library")):
        path = os.path.join(HERE, "library", name)
        shutil.copy(path, os.path.join(folder, "src", name.replace(".txt", ".rt")))


def ending_of(program, subject, row, request):
    """What a run says, or that it ended otherwise."""
    words = [program, subject, str(row), str(REFUSED - STARTING - request)]
    ran = subprocess.run(words, stdin=subprocess.DEVNULL, capture_output=True, text=True, timeout=60)
    return ran.stdout.rstrip() if ran.returncode == 0 else f"{ran.stdout}{ran.stderr}status {ran.returncode}"


def endings_of(program):
    """Subject, row and the number of the row's request that is refused, and how the program ends: for each row up to the
    first request that it does not make."""
    yield BEFORE_THE_FIRST, ending_of(program, *BEFORE_THE_FIRST)
    for subject, row in rows():
        for request in range(1, LATE + 1):
            ending = ending_of(program, subject, row, request)
            yield (subject, row, request), ending
            if ending.startswith("not reached"):
                break
    for row in range(QUIET_ROWS):
        for subject in (QUIET, SET_UP):
            yield (subject, row, LATE), ending_of(program, subject, row, LATE)
