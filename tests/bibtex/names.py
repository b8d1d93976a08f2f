"""Lists of names and templates that are made by rule from a seed, and printed by both programs."""

from random import Random

from printing import printed, split_names
from rules import PRINTING
from style import style_for

CAPITAL = [b"Jean", b"Paul", b"A.", b"B", b"X", b"King", b"O'N", b"{\\'E}mile", b"{\\OE}d", b"{\\AA}r", b"{\\L}u", b"{\\TeX}"]
CAPITAL += [b"{\\relax Knuth}", b"{\\'{E}}"]
LOWER = [b"de", b"la", b"von", b"d'A", b"y", b"1er", b"{}al", b"{\\'e}t", b"{\\o}re", b"{\\i}x", b"{\\ss}", b"{\\LaTeX m}", b"{\\relax von}"]
NO_CASE = [b"{Barnes and Noble}", b"{von}", b"{de la} X", b"{Vi}Va", b"{}", b"{, Inc.}", b"(a)", b"{{\\'a}}b", b"{a}{\\'e}"]
NO_CASE += [b"{\\}", b"."]
# Words without a letter print no initial.
EMPTY = [b"1", b"'", b"{1}", b"{}", b"...", b"{{}}"]
# Letters that a text may hold in more than one byte.
BYTES = [b"\xc3\x89a", b"\xe6\x9d\x8e", b"x\xc3\xa9", b"\xff", b"{\xc3\xa9}"]
# A group that begins with a backslash within a group.
BELOW = [b"{{\\'E}x}", b"{x{\\o}}", b"{1{\\'a}}"]
SEPARATORS = [b" ", b" ", b" ", b" ", b"~", b"-", b"  ", b" ~", b"-~", b"~ ", b"--", b"- "]
AND = [b" and ", b" AND ", b"\nAnd\t", b" and  "]
TEMPLATES = [
    b"{ff }{vv~}{ll}{, jj}",
    b"{f. }{vv~}{ll}",
    b"{vv~}{ll}{, jj}{, f.}",
    b"{v{}}{l{}}",
    b"{ff{ x }}|{vv{}}|{ll{-}}|{jj}",
    b"{f}{v}{l}{j}",
    b"{,f}{(v)}{ l }",
    b"{ff~~}{ll~}{~jj~~}",
    b"text",
    b"{ll}",
]
GROUP_TEXTS = [b"", b"", b" ", b"~", b"~~", b", ", b".", b"-", b"1", b"("]
# What BibTeX alone takes: other commas, letters and groups.
LATER_COMMAS = [b" , ", b"~, ", b"-,", b" ,,"]
LETTERS = [b"F", b"FF", b"fF", b"V", b"vV", b"L", b"Ll", b"J", b"JJ"]
INNER_GROUPS = [b"{}", b"{a}", b"{\\x}", b"{{1}~}", b"{~~}"]
NO_RULES = frozenset()


class Names:
    """The authors of an entry."""

    def __init__(self, seed):
        self.random = Random(seed)

    def list(self, count):
        return self.name() + b"".join(self.random.choice(AND) + self.name() for _ in range(count - 1))

    def name(self):
        """A name, which may be empty. None begins with a comma: there BibTeX reads a word that is not there."""
        if self.random.random() < 0.02:
            return b""
        made = self.piece()
        for _ in range(self.random.choices([0, 1, 2], [6, 3, 1])[0]):
            made += self.random.choice([b", ", b", ", b",", b" , "]) + (self.piece() if self.random.random() < 0.95 else b"")
        return made + self.random.choices([b"", b",", b"~", b" -"], [30, 1, 1, 1])[0]

    def piece(self):
        words = [self.word() for _ in range(self.random.choice([1, 1, 2, 2, 3, 3, 4, 6]))]
        made = words[0]
        for word in words[1:]:
            made += self.random.choice(SEPARATORS) + word
        return made

    def word(self):
        kinds = [CAPITAL, LOWER, NO_CASE, EMPTY, BYTES, BELOW]
        return self.random.choice(self.random.choices(kinds, [12, 6, 2, 1, 1, 1])[0])

    def list_of_bibtex(self, count):
        return self.name_of_bibtex() + b"".join(self.random.choice(AND) + self.name_of_bibtex() for _ in range(count - 1))

    def name_of_bibtex(self):
        """A name that may have more than two commas. There is a separator before each of these, since BibTeX notes no comma."""
        made = self.piece() + b", " + self.piece() + b", " + self.piece()
        for _ in range(self.random.choice([0, 1, 1, 2])):
            made += self.random.choice(LATER_COMMAS) + self.piece()
        return made

    def templates_of_bibtex(self, count):
        return [self.template_of_bibtex() for _ in range(count)]

    def template_of_bibtex(self):
        return b"".join(self.text() + self.group_of_bibtex() for _ in range(self.random.choice([1, 2, 3]))) + self.text()

    def group_of_bibtex(self):
        texts = [*GROUP_TEXTS, *INNER_GROUPS]
        letters = self.random.choice([*LETTERS, *LETTERS, b""]) + self.random.choice([b"", *INNER_GROUPS])
        return b"{" + self.random.choice(texts) + letters + self.random.choice(texts) + b"}"

    def templates(self, count):
        return TEMPLATES + [self.template() for _ in range(count)]

    def template(self):
        return b"".join(self.text() + self.group() for _ in range(self.random.choice([1, 2, 3]))) + self.text()

    def group(self):
        text = self.group_text
        between = self.random.choice([b"", b"", b"{%s}" % self.random.choice([*GROUP_TEXTS, b"ab"])])
        letter = self.random.choice([b"f", b"v", b"l", b"j"])
        return b"{" + text() + letter * self.random.choice([1, 2]) + between + text() + b"}"

    def group_text(self):
        return self.random.choice(GROUP_TEXTS)

    def text(self):
        return self.random.choice([b"", b"", b" ", b"ab", b"~", b", "])


# ---- the prints of both


def compare_names(report, bibtex, bibkeep, seed, count):
    """Compares the prints of a list of names by some templates."""
    made = Names(seed)
    file, templates = b"@misc{a, author = {" + made.list(count) + b"}}\n", made.templates(8)
    file += b"@misc{b, author = {" + made.list_of_bibtex(count) + b"}}\n\n"
    of_bibtex = [*templates, *made.templates_of_bibtex(8)]
    bibkeep.takes(file)
    bibtex.takes(file, style_for(file, of_bibtex))
    names, prints = bibkeep.show(b"a").fields[b"author"], bibtex.answer([b"a"]).names
    for key, told in [(b"a", prints), (b"b", bibtex.answer([b"b"]).names)]:
        for n, template in enumerate(of_bibtex):
            where = f"names {seed}, {key.decode()}, {template.decode()}"
            report.expect("`names --bibtex`", where, bibkeep.names_as_bibtex(key, template), told.get(n, []))
    for n, template in enumerate(templates):
        where = f"names {seed}, {template.decode()}"
        ours = bibkeep.names(b"a", template)
        report.expect("`names`", where, ours, printed(names, template, NO_RULES))
        compare_prints(report, where, names, template, prints.get(n, []))


def compare_prints(report, where, names, template, found):
    """Each print is a comparison of its own."""
    by_rules = {}

    def wanted(rules, n):
        by_rules[rules] = by_rules.get(rules) or printed(names, template, rules)
        return by_rules[rules][n]

    report.expect("names of a list", where, len(found), len(split_names(names)))
    for n, (name, text) in enumerate(zip(split_names(names), found)):
        here = f"{name.decode(errors='backslashreplace')} by {template.decode()}"
        report.compare("prints of BibTeX", here, text, lambda rules: wanted(rules, n), PRINTING)
