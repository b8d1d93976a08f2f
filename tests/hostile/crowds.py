"""Runs at once over one file: what each says that it did is in the file, the journal fits, and undoing all gives the first
file."""

import re
import subprocess

from cases import FILE
from program import MISMATCH
from report import Seen

FIRST = b"@misc{a}\n"
# How many runs start together, how often over one file, and over how many files.
CROWDS = [(2, 100, 10), (20, 5, 2)]


def tried(report, program):
    for size, rounds, files in CROWDS:
        for number in range(files):
            report.tried(f"{size} runs at once", "edit", crowd(program, size, rounds, f"{size} at once, file {number}"))
    report.tried("one of two runs at once is killed", "edit", killed_crowd(program))


def crowd(program, size, rounds, where):
    program.clear()
    program.lay(FILE, FIRST)
    for turn in range(rounds):
        fields = [b"f%dx%d" % (turn, one) for one in range(size)]
        for field, run in [(field, start(program, field)) for field in fields]:
            said = run.communicate()
            if (run.returncode, said) != (0, (b"applied 1\n", b"")):
                yield Seen("wrong", f"{where}: {field} ended with {run.returncode} and said {said}")
            else:
                yield Seen("applied")
    yield undone(program, size * rounds, where)


def undone(program, count, where):
    """Each change is in the file and in the journal, and undoing all gives the first file."""
    with open(program.path(FILE), "rb") as file:
        kept = len(re.findall(rb"f\d+x\d+ = 1", file.read()))
    left = program.run(("undo", FILE, "--steps", str(count)))
    if (kept, left.status, left.file) == (count, 0, FIRST) and left.others == ():
        return Seen("all kept and undone")
    return Seen("wrong", f"{where}: {kept} of {count} are kept, and undoing them says {left.output + left.message!r}")


def killed_crowd(program):
    """A run that is killed leaves no lock: the other one goes on."""
    for turn in range(50):
        program.clear()
        program.lay(FILE, FIRST)
        one, other = start(program, b"f0x0"), start(program, b"f0x1")
        one.kill()
        one.communicate()
        said = other.communicate(timeout=60)
        # one that is killed between the two renames leaves a journal that does not fit, if there was one
        endings = {(b"applied 1\n", b""): "applied", (b"", MISMATCH): "the journal does not fit"}
        yield Seen(endings[said]) if said in endings else Seen("wrong", f"{turn}: {said}")


def start(program, field):
    return subprocess.Popen(
        [program.program, "edit", FILE, "set", "a", field.decode(), "1"],
        cwd=program.room,
        env={},
        stdin=subprocess.DEVNULL,
        stdout=subprocess.PIPE,
        stderr=subprocess.PIPE,
    )
