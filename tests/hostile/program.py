"""Runs of the built program, in a folder of their own and with the trouble that is asked for."""

import os
import shutil
import subprocess
from typing import NamedTuple, Optional

from cases import FILE, JOURNAL, OTHER
from report import Seen

READ_FAULT = b"bibkeep: read fault\n"
WRITE_FAULT = b"bibkeep: write fault\n"
NO_MEMORY = b"bibkeep: 10 Memory\n"
MISMATCH = b"bibkeep: 54 JournalMismatch\n"
# What is said of a link in the place of the journal, which is not followed.
LINKED = b"bibkeep: 53 BadJournal at 0\n"
HERE = os.path.dirname(os.path.abspath(__file__))


class Left(NamedTuple):
    """What a run answered and left: `others` are the names of further files, and `met` tells whether trouble was met."""

    status: int
    output: bytes
    message: bytes
    file: Optional[bytes]
    journal: Optional[bytes]
    others: tuple = ()
    met: bool = False


def answer_of(case, met=False):
    """What a run of the case has to leave."""
    return Left(case.status, case.output, case.message, case.file_after(), case.journal_after(), met=met)


def refusal_of(case, status, message, output=b""):
    """The same, where trouble was met and nothing was stored."""
    return Left(status, output, message, case.file, case.journal, met=True)


def read_fault_of(case, source=FILE):
    """The same, where this source cannot be read: its name is told if several files are read."""
    if case.other is None:
        return refusal_of(case, 3, READ_FAULT)
    return refusal_of(case, 3, b"bibkeep: read fault in %s\n" % source.encode())


def difference(wanted, found):
    """How a run differs from what was wanted."""
    names = [name for name in Left._fields if getattr(wanted, name) != getattr(found, name)]
    return ", ".join(f"{name} is {getattr(found, name)!r}, not {getattr(wanted, name)!r}" for name in names)


def seen(found, wanted, where):
    """In which of the wanted ways, by their words, the run ended."""
    for ending, left in wanted.items():
        if left == found:
            return Seen(ending)
    nearest = min((difference(left, found) for left in wanted.values()), key=len)
    return Seen("wrong", f"{where}: {nearest}")


class Program:
    """A copy of the program in a folder, and a folder beside it in which it is run."""

    def __init__(self, built, folder):
        self.folder = folder
        self.program = os.path.join(folder, "bibkeep")
        self.room = os.path.join(folder, "room")
        shutil.copy(built, self.program)
        os.mkdir(self.room)
        # others may run it too
        os.chmod(folder, 0o755)
        self.marks = os.open(os.path.join(folder, "marks"), os.O_RDWR | os.O_CREAT | os.O_APPEND)

    def has_library(self, name):
        """Makes a library that is to be loaded before the C library. Returns whether the program loads it, and a compiler is there."""
        if not loads_libraries(self.program):
            return False
        source = os.path.join(HERE, f"{name}.c")
        for compiler in (["cc"], [os.path.join(toolchain(), "bin/clang"), "-fuse-ld=lld"]):
            if shutil.which(compiler[0]):
                words = [*compiler, "-shared", "-fPIC", "-nostdlib", "-O1", "-o", self.library(name), source]
                if subprocess.run(words).returncode == 0:
                    return True
        return False

    def library(self, name):
        return os.path.join(self.folder, f"{name}.so")

    def path(self, name):
        return os.path.join(self.room, name)

    def clear(self):
        for name in os.listdir(self.room):
            path = self.path(name)
            if os.path.isdir(path) and not os.path.islink(path):
                shutil.rmtree(path)
            else:
                os.remove(path)

    def lay(self, name, content):
        """Puts a file, if there is one, into the folder."""
        if content is not None:
            with open(self.path(name), "wb") as file:
                file.write(content)

    def lay_case(self, case):
        self.clear()
        self.lay(FILE, case.file)
        self.lay(OTHER, case.other)
        self.lay(JOURNAL, case.journal)

    def run(self, words, given=b"", library=None, preexec_fn=None, **trouble):
        """Runs the program in its folder as that is. Its input is bytes or an open file."""
        environment = {name.upper(): str(value) for name, value in trouble.items()}
        if library:
            environment["LD_PRELOAD"] = self.library(library)
            environment["MARK"] = str(self.marks)
            os.ftruncate(self.marks, 0)
        ran = subprocess.run(
            [self.program, *words],
            cwd=self.room,
            env=environment,
            **{"input" if isinstance(given, bytes) else "stdin": given},
            capture_output=True,
            pass_fds=[self.marks],
            preexec_fn=preexec_fn,
            timeout=60,
        )
        return left_in(self.room, ran, bool(library) and os.fstat(self.marks).st_size > 0)

    def try_case(self, case, library=None, preexec_fn=None, **trouble):
        """Runs a case, with trouble."""
        self.lay_case(case)
        return self.run(case.words, case.input, library, preexec_fn, **trouble)


def loads_libraries(program):
    """Whether a program names what loads its libraries, which a static one does not."""
    with open(program, "rb") as file:
        return b"/ld-linux" in file.read(4096)


def toolchain():
    """The folder of the Rattle toolchain, which has a C compiler of its own."""
    rt = os.environ.get("RT", "rt")
    if not shutil.which(rt):
        return ""
    page = subprocess.run([rt, "doc"], stdout=subprocess.PIPE, text=True).stdout.strip()
    return os.path.join(os.path.dirname(page), "toolchain")


def left_in(folder, ran, met=False):
    """What a run answered, and left in the folder."""
    others = tuple(sorted(name for name in os.listdir(folder) if name not in (FILE, OTHER, JOURNAL)))
    file, journal = (content_of(os.path.join(folder, name)) for name in (FILE, JOURNAL))
    return Left(ran.returncode, ran.stdout, ran.stderr, file, journal, others, met)


def content_of(path):
    """The bytes of a file, or None where there is no plain file."""
    if not os.path.isfile(path):
        return None
    if not os.access(path, os.R_OK):
        # a trial forbade it, and these trials are not run by root
        os.chmod(path, 0o600)
    with open(path, "rb") as file:
        return file.read()
