"""Counts what was compared, and says what differs."""


class Report:
    def __init__(self):
        self.passed = 0
        self.failed = 0

    def expect(self, is_met, where, complaint):
        """Counts one comparison; `where` is a page with a line, or a file."""
        if is_met:
            self.passed += 1
        else:
            self.failed += 1
            print(f"FAILED: {where}: {complaint}")

    def expect_same(self, wanted, found, where, what):
        """Compares two sets of words."""
        missing = sorted(set(wanted) - set(found))
        extra = sorted(set(found) - set(wanted))
        self.expect(not missing, where, f"{what}: {', '.join(missing)} is missing")
        self.expect(not extra, where, f"{what}: {', '.join(extra)} is not the program's")

    def end(self):
        print(f"{self.passed} passed, {self.failed} failed")
        return 0 if self.failed == 0 else 1
