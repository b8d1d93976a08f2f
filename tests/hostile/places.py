"""Where files lie: full and read-only disks, folders in the place of files, links, and standard streams that are closed."""

import os
import resource
import shutil
import signal
import subprocess
from itertools import product

from cases import CASES, FILE, INPUT, JOURNAL, NEW_FILE, NEW_JOURNAL, OTHER
from program import LINKED, READ_FAULT, WRITE_FAULT, answer_of, left_in, read_fault_of, refusal_of, seen

NOBODY = 65534
PAGE = os.sysconf("SC_PAGE_SIZE")


def tried(report, program):
    has_disks = can_mount()
    if not has_disks:
        print("no disk can be mounted, so none is full or read-only")
    for case in CASES:
        for kind, trial in {**KINDS, **(DISKS if has_disks else {})}.items():
            report.tried(kind, case.command, trial(program, case))


def unmet(left):
    """What a run leaves that the library of failing calls did not see."""
    return left._replace(met=False)


def unstored(case):
    """The answer, but nothing could be stored."""
    return unmet(refusal_of(case, 3, case.message + WRITE_FAULT, case.output))


def closed_streams(program, case):
    """Any of the standard streams may be closed: it cannot be read, written or told of, and no file takes its place."""
    for closed in product((False, True), repeat=3):
        left = program.try_case(case, preexec_fn=lambda: close(closed))
        ending, wanted = "answered", answer_of(case)
        if closed[0] and INPUT in case.reads:
            ending, wanted = "read fault", unmet(refusal_of(case, 3, READ_FAULT))
        elif closed[1] and case.output:
            ending, wanted = "write fault", unmet(refusal_of(case, 3, WRITE_FAULT))
        wanted = wanted._replace(message=b"" if closed[2] else wanted.message)
        yield seen(left, {ending: wanted}, f"{case.name}, closed are {closed}")


def close(closed):
    for stream, is_closed in enumerate(closed):
        if is_closed:
            os.close(stream)


def unopened(program, case):
    """A folder in the place of a file or of the journal, a link to itself, or what may not be read; or no file."""
    for name in [name for name in (FILE, OTHER, JOURNAL) if name in case.reads]:
        for make in (os.mkdir, loop, forbid, *([] if name == JOURNAL else [nothing])):
            if make is loop and name == JOURNAL and "--new-journal" in case.words:
                continue
            program.lay_case(case)
            if make is not forbid:
                os.remove(program.path(name))
            make(program.path(name))
            left = program.run(case.words, case.input, preexec_fn=be_nobody)
            ending, wanted = "read fault", unmet(read_fault_of(case, name))
            if make is loop and name == JOURNAL:
                ending, wanted = "a damaged journal", unmet(refusal_of(case, 1, LINKED))
            if make is not forbid and name != OTHER:
                wanted = wanted._replace(**{"file" if name == FILE else "journal": None})
            yield seen(left, {ending: wanted}, f"{case.name}, {make.__name__} of {name}")


def loop(path):
    os.symlink(path, path)


def nothing(_path):
    pass


def forbid(path):
    os.chmod(path, 0)


def unread_input(program, case):
    """Standard input is a folder, or open for writing alone."""
    if INPUT not in case.reads:
        return
    for path, how in ((program.room, os.O_RDONLY), (os.devnull, os.O_WRONLY)):
        program.lay_case(case)
        descriptor = os.open(path, how)
        left = program.run(case.words, descriptor)
        os.close(descriptor)
        yield seen(left, {"read fault": unmet(refusal_of(case, 3, READ_FAULT))}, f"{case.name}, the input is {path}")


def be_nobody():
    """Who may read and write everything is somebody else from here on."""
    if os.getuid() == 0:
        os.setgroups([])
        os.setgid(NOBODY)
        os.setuid(NOBODY)


def folders(program, case):
    """A folder where the new file, the new journal or the journal is to stand."""
    for name, content in ((NEW_FILE, case.new_file), (NEW_JOURNAL, case.new_journal)):
        if content is not None:
            program.lay_case(case)
            os.mkdir(program.path(name))
            left = program.run(case.words, case.input)
            yield seen(left, {"write fault": unstored(case)._replace(others=(name,))}, f"{case.name}, {name} is a folder")


def limited_files(program, case):
    """A limit on the length of files; where the program is not told of it by an error, a signal ends it."""
    longest = max(len(case.new_file or b""), len(case.new_journal or b""))
    for limit in range(0, longest, 7):
        for is_told in (True, False):
            left = program.try_case(case, preexec_fn=lambda: limit_files(limit, is_told))
            if is_told:
                yield seen(left, {"write fault": unstored(case)}, f"{case.name}, at most {limit} bytes")
            else:
                ended = unstored(case)._replace(status=-signal.SIGXFSZ, message=case.message)
                yield seen(left._replace(others=()), {"ended by the signal": ended}, f"{case.name}, at most {limit} bytes")


def limit_files(limit, is_told):
    signal.signal(signal.SIGXFSZ, signal.SIG_IGN if is_told else signal.SIG_DFL)
    resource.setrlimit(resource.RLIMIT_CORE, (0, 0))
    resource.setrlimit(resource.RLIMIT_FSIZE, (limit, limit))


def read_only_folder(program, case):
    """What lies in the folder may be read, and nothing written."""
    if not case.stores():
        return
    program.lay_case(case)
    os.chmod(program.room, 0o555)
    left = program.run(case.words, case.input, preexec_fn=be_nobody)
    os.chmod(program.room, 0o755)
    yield seen(left, {"write fault": unstored(case)}, case.name)


def full_disk(program, case):
    """A disk of so many pages has room for the old files, for the new file too, or for all of them; an empty file has none."""
    if not case.stores():
        return
    old = sum(bool(content) for content in (case.file, case.other, case.journal))
    new = sum(bool(content) for content in (case.new_file, case.new_journal))
    # a disk of no pages would be one without a limit
    for pages in range(max(1, old), old + new):
        left = on_a_disk(program, case, f"size={PAGE * pages}")
        yield seen(left, {"write fault": unstored(case)}, f"{case.name}, on {pages} pages")
    left = on_a_disk(program, case, f"size={PAGE * (old + new)}")
    yield seen(left, {"answered": answer_of(case)}, f"{case.name}, on {old + new} pages")


def read_only_disk(program, case):
    if not case.stores():
        return
    left = on_a_disk(program, case, "size=1m", then="remount,ro")
    yield seen(left, {"write fault": unstored(case)}, case.name)


MOUNTED = """
mount -t tmpfs -o "$1" none room && cp laid/* room/ || exit 125
test -z "$2" || mount -o "$2" none room || exit 125
shift 2
cd room && ../bibkeep "$@"
status=$?
cp -a . ../kept
exit $status
"""


def in_namespace(script, words, **how):
    """A process that may mount disks, which no other sees."""
    return subprocess.run(["unshare", "-rm", "sh", "-c", script, "sh", *words], capture_output=True, **how)


def can_mount():
    if not shutil.which("unshare"):
        return False
    with_disk = "mkdir -p /tmp && mount -t tmpfs -o size=4k none /tmp"
    return in_namespace(with_disk, []).returncode == 0


def on_a_disk(program, case, options, then=""):
    """Runs a case where only the folder lies on a disk of its own, and looks at what is left there."""
    program.clear()
    laid, kept = os.path.join(program.folder, "laid"), os.path.join(program.folder, "kept")
    for folder in (laid, kept):
        shutil.rmtree(folder, ignore_errors=True)
        os.mkdir(folder)
    for name, content in ((FILE, case.file), (OTHER, case.other), (JOURNAL, case.journal)):
        if content is not None:
            with open(os.path.join(laid, name), "wb") as file:
                file.write(content)
    ran = in_namespace(MOUNTED, [options, then, *case.words], cwd=program.folder, input=case.input)
    return left_in(kept, ran)


KINDS = {
    "standard streams are closed": closed_streams,
    "a source cannot be opened": unopened,
    "the input cannot be read": unread_input,
    "a folder in the place of a new file": folders,
    "files may not be so long": limited_files,
    "the folder is read-only": read_only_folder,
}
DISKS = {
    "the disk is full": full_disk,
    "the disk is read-only": read_only_disk,
}
