"""Counts comparisons, says which failed, and which would have failed without a rule."""

# So many failures are told in full.
TOLD = 20
# What a comparison wants where a rule says that nothing is known.
LEFT_OUT = "left out"


class Report:
    def __init__(self, rules):
        # the rules by which BibTeX may differ
        self.rules = rules
        self.passed = 0
        self.failed = 0
        # how many comparisons of each kind there were, and how many of these were left out
        self.kinds = {}
        # for each rule, how many comparisons would fail without it, and the shortest
        self.shown = {}

    def expect(self, kind, where, found, wanted):
        """One comparison, in which no rule has a part."""
        self.compare(kind, where, found, lambda rules: wanted, ())

    def compare(self, kind, where, found, wanted, rules):
        """One comparison with what should be found: `wanted` of those of these rules that hold, or LEFT_OUT."""
        held = self.rules & frozenset(rules)
        due = wanted(held)
        self.count(kind, due == LEFT_OUT)
        if due in (LEFT_OUT, found):
            self.passed += 1
        else:
            self.fail(f"{kind}: {where}\n  found  {found}\n  wanted {due}")
        for rule in held:
            without = wanted(held - {rule})
            if without not in (LEFT_OUT, found):
                self.show(rule, f"{kind}: {where}")

    def count(self, kind, is_left_out):
        all_of_kind, left_out = self.kinds.get(kind, (0, 0))
        self.kinds[kind] = all_of_kind + 1, left_out + is_left_out

    def fail(self, complaint):
        self.failed += 1
        if self.failed <= TOLD:
            print(f"FAILED: {complaint}", flush=True)

    def show(self, rule, where):
        count, least = self.shown.get(rule, (0, where))
        self.shown[rule] = count + 1, min(where, least, key=len)

    def add(self, other):
        """Adds the comparisons of another report."""
        self.passed += other.passed
        self.failed += other.failed
        for kind, (count, left_out) in other.kinds.items():
            before, left_out_before = self.kinds.get(kind, (0, 0))
            self.kinds[kind] = before + count, left_out_before + left_out
        for rule, (count, where) in other.shown.items():
            before, least = self.shown.get(rule, (0, where))
            self.shown[rule] = before + count, min(where, least, key=len)

    def end(self):
        """Each rule that holds has to be seen: without it some comparison fails."""
        for kind, (count, left_out) in self.kinds.items():
            print(f"{kind}: {count} comparisons" + (f", {left_out} of them left out" if left_out else ""))
        for rule in sorted(self.rules):
            count, where = self.shown.get(rule, (0, None))
            if count:
                self.passed += 1
                print(f"without {rule} {count} would fail, such as {where}")
            else:
                self.fail(f"nothing shows that BibTeX follows the rule {rule}")
        print(f"{self.passed} passed, {self.failed} failed")
        return 0 if self.failed == 0 else 1
