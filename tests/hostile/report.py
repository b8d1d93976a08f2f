"""Counts trials and their runs, says what went wrong, and prints the table of them."""

from typing import NamedTuple, Optional


class Seen(NamedTuple):
    """How a run ended, in a word; or what is wrong with that."""

    ending: str
    complaint: Optional[str] = None


class Report:
    def __init__(self):
        self.passed = 0
        self.failed = 0
        # how many runs each kind of trial made of each call, and how they ended
        self.calls = {}
        self.endings = {}

    def tried(self, kind, call, runs):
        """One trial: what was seen of each of its runs. Where it has none, it is no trial."""
        runs = list(runs)
        calls, endings = self.calls.setdefault(kind, {}), self.endings.setdefault(kind, {})
        for run in runs:
            calls[call] = calls.get(call, 0) + 1
            endings[run.ending] = endings.get(run.ending, 0) + 1
        complaints = [run.complaint for run in runs if run.complaint]
        for complaint in complaints[:3]:
            print(f"FAILED: {kind}: {call}: {complaint}", flush=True)
        self.failed += bool(complaints)
        self.passed += bool(runs) and not complaints

    def add(self, other):
        """Adds the trials of another report, of other kinds."""
        self.passed += other.passed
        self.failed += other.failed
        self.calls.update(other.calls)
        self.endings.update(other.endings)

    def table(self):
        for kind, calls in self.calls.items():
            each = ", ".join(f"{call} {count}" for call, count in calls.items())
            endings = ", ".join(f"{count} {ending}" for ending, count in self.endings[kind].items())
            print(f"{kind}: {sum(calls.values())} runs ({each}): {endings}")

    def end(self):
        self.table()
        print(f"{self.passed} passed, {self.failed} failed")
        return 0 if self.failed == 0 else 1
