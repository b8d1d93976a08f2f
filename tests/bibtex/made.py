"""Files that are made by rule, from a seed: entries with all that a file may have between and inside of them."""

from random import Random
from typing import NamedTuple, Union


class File(NamedTuple):
    """A file; or several that are read as one, with a text for each."""

    name: str
    text: Union[bytes, tuple]
    # the same, in which entry n has the key `e` and n, and `crossref` is an ordinary field
    plain: Union[bytes, tuple]


PLAIN_CROSSREF = b"xref"
KINDS = [b"article", b"Book", b"INPROCEEDINGS", b"proceedings", b"misc", b"x-y.z", b"q\xc3\xa9", b"m/1"]
KINDS += [b"commentx", b"strings"]
NAMES = [b"title", b"booktitle", b"year", b"note", b"author", b"editor", b"x-y", b"z@", b"n\xc3\xb6", b"v*1", b"a:b", b"month"]
KEYS = [b"k", b"Conf", b"a:b/c", b"x.y+z", b"3", b"k\xc3\xa9y", b'q"q', b"e@e", b"[1]", b"a{b", b"#", b"%5", b"(", b"=", b"\\x"]
KEYS += [b"r)s", b"r}s"]
# The macro that stands for a key.
KEY_MACRO = b"vol"
MACROS = [b"m", b"Conf", b"a-b", b"jan", b"DEC", b"sep", b"u\xc3\xbc", b"never"]
WORDS = [b"Type", b"of", b"the", b"{B}", b"{\\'e}", b'{\\"o}', b'{"}', b"x", b"=", b"#", b"%", b",", b"(", b")", b"{a{b}c}", b"1986"]
WORDS += [b"\xc3\xa9", b"\xff", b"\x0b", b"\x0c", b"\x7f", b"\x01", b"\\", b"~", b"--", b"\x00", b"{}", b"{ x }", b"'", b"a_b"]
# At-signs in texts, but not of entries whose key stands twice: BibTeX refuses the second, and reads on within it.
AT_SIGNS = [b"joe@x.org", b"@", b"{@misc{x}}", b"@string{"]
SPACES = [b"", b"", b"", b" ", b"\n", b"\t", b" \r", b"  \n\n "]
BETWEEN = [b"text", b"mail joe@x.org for it", b"% no comment {", b'"', b"}}", b"#1 = 2, (", b"@ 1", b"@x y", b"\x0c"]
BETWEEN += [b"a @comment b"]
CROSSREF = b"crossref"


def made_file(seed, count, has_odd_keys=True):
    """A file of so many entries; without odd keys each entry has a key, and no other has the same."""
    return Maker(seed, has_odd_keys).file(count)


def made_files(seed, count, number, has_odd_keys=True):
    """The same file, cut into so many files."""
    return Maker(seed, has_odd_keys).files(count, number)


def ended(parts, line_end):
    """The parts, with two line ends after them: BibTeX takes one command from the last line of a file."""
    return b"".join([*parts, b"\n\n"]).replace(b"\n", line_end)


class Maker:
    def __init__(self, seed, has_odd_keys):
        self.random = Random(seed)
        self.seed = seed
        self.has_odd_keys = has_odd_keys

    def file(self, count):
        whole, plain, line_end = self.parts(count)
        return File(f"made file {self.seed}", ended(whole, line_end), ended(plain, line_end))

    def files(self, count, number):
        whole, plain, line_end = self.parts(count)
        cuts = [0, *sorted(self.random.sample(range(1, len(whole)), number - 1)), len(whole)]
        texts, plains = (
            tuple(ended(parts[start:end], line_end) for start, end in zip(cuts, cuts[1:])) for parts in (whole, plain)
        )
        return File(f"made files {self.seed}", texts, plains)

    def parts(self, count):
        """What a file of so many entries is made of: the items and the texts between them; the same of the plain file; and how lines
        end."""
        self.keys = self.made_keys(count)
        front = self.between()
        whole, plain = [front], [front]
        for n in range(count):
            for text, same in (self.some_item(), self.entry(n)):
                after = self.between()
                whole += [text, after]
                plain += [same, after]
        return whole, plain, self.random.choice([b"\n", b"\n", b"\n", b"\r\n"])

    # ---- keys

    def made_keys(self, count):
        keys = []
        for n in range(count):
            key = self.random.choice(KEYS) + (b"%d" % n)
            if self.has_odd_keys and keys and self.chance(0.06):
                key = self.in_any_case(self.random.choice(keys))
            if self.has_odd_keys and self.chance(0.015):
                key = b""
            keys.append(key)
        return keys

    def is_held_twice(self, n):
        return sum(key.lower() == self.keys[n].lower() for key in self.keys) > 1

    def named_key(self, n):
        """What the crossref of entry n says: mostly a later entry, or an earlier one, itself, none, or nothing."""
        later = self.keys[n + 1 : n + 12]
        kinds = [later[:3] or [b"zz"], later or [b"zz"], later[-2:] or [b"zz"], self.keys[max(0, n - 6) : n] or [b"zz"]]
        kinds += [[self.keys[n]], [b"zz", b"Zz9"], [b""]]
        chosen = self.random.choices(kinds, [40, 20, 8, 16, 6, 4, 3])[0]
        return self.in_any_case(self.random.choice(chosen))

    # ---- items

    def some_item(self):
        """An item that is no entry, or none; the same in the plain file."""
        kinds = [self.definition, self.definition_of_key, self.preamble, self.comment, lambda: b""]
        made = self.random.choices(kinds, [3, 1, 1, 1, 5])[0]()
        return made, made

    def definition(self):
        return self.definition_of(self.random.choice(MACROS[:-1]), self.value())

    def definition_of_key(self):
        return self.definition_of(KEY_MACRO, self.spelled(self.random.choice(self.keys)))

    def definition_of(self, name, value):
        s, (opened, closed) = self.space, self.delimiters()
        word, name = self.in_any_case(b"string"), self.in_any_case(name)
        return b"@" + s() + word + s() + opened + s() + name + s() + b"=" + s() + value + s() + closed

    def preamble(self):
        s, (opened, closed) = self.space, self.delimiters()
        return b"@" + s() + self.in_any_case(b"preamble") + s() + opened + s() + self.value() + s() + closed

    def comment(self):
        return b"@" + self.space() + self.in_any_case(b"comment") + self.random.choice([b" x", b"{x}", b"{ ", b"("])

    def entry(self, n):
        """Entry n, and the same in the plain file."""
        s, key = self.space, self.keys[n]
        opened, closed = (b"(", b")") if b"}" in key else self.delimiters()
        kind, before = self.in_any_case(self.random.choice(KINDS)), s()
        # a key that `(` opened runs on over `)`, so that the white space has to end it
        after = self.random.choice([b" ", b"\n"]) if opened == b"(" else s()
        head = b"@" + s() + kind + s() + opened + before
        whole, plain = [head, key, after], [head, b"e%d" % n, after]
        if key == b"":
            whole[1:], plain[1:] = [b""], [b"e%d" % n]
        rows = self.rows(n)
        for name, value in rows:
            parts = [b",", s(), name, s(), b"=", s(), value, s()]
            whole += parts
            plain += [PLAIN_CROSSREF if part is name and name.lower() == CROSSREF else part for part in parts]
        comma = self.random.choice([b"", b",", b"," + s()])
        if key == b"" and not rows:
            comma = b","
        end = comma + closed
        return b"".join([*whole, end]), b"".join([*plain, end])

    def rows(self, n):
        names = [self.random.choice(NAMES) for _ in range(self.random.randrange(5))]
        rows = [(self.in_any_case(name), self.value(not self.is_held_twice(n))) for name in names]
        if self.chance(0.65):
            value = KEY_MACRO if self.chance(0.1) else self.spelled(self.named_key(n))
            rows.insert(self.random.randrange(len(rows) + 1), (self.in_any_case(CROSSREF), value))
        if self.chance(0.05):
            rows.append((self.in_any_case(CROSSREF), self.spelled(self.named_key(n))))
        return rows

    # ---- values

    def spelled(self, text):
        """A value that says this text."""
        if text.count(b"{") != text.count(b"}"):
            return b"zz"
        ways = [b"{" + text + b"}", b"{" + text + b"}", b"{ " + text + b"\n}"]
        if b'"' not in text:
            ways += [b'"' + text + b'"', b'"' + text + b'" # never']
        if text.isdigit():
            ways += [text]
        if len(text) > 1 and b"{" not in text:
            ways += [b"{" + text[:1] + b"} # " + b"{" + text[1:] + b"}"]
        return self.random.choice(ways)

    def value(self, with_at_signs=True):
        parts = [self.part(with_at_signs)]
        while self.chance(0.3):
            parts += [self.space() + b"#" + self.space(), self.part(with_at_signs)]
        return b"".join(parts)

    def part(self, with_at_signs):
        kind = self.random.randrange(8)
        if kind == 0:
            return b"%d" % self.random.randrange(3000)
        if kind == 1:
            return self.in_any_case(self.random.choice(MACROS))
        text = self.text(with_at_signs)
        if kind < 5 or b'"' in text.replace(b'{\\"o}', b"").replace(b'{"}', b""):
            return b"{" + text + b"}"
        return b'"' + text + b'"'

    def text(self, with_at_signs):
        words = WORDS + AT_SIGNS if with_at_signs else WORDS
        made = []
        for _ in range(self.random.randrange(6)):
            made += [self.random.choice([b"", b" ", b" ", b"\n", b"  ", b"\t\r "]), self.random.choice(words)]
        made.append(self.random.choice([b"", b"", b" ", b"\n "]))
        text = b"".join(made)
        # an at-sign's text may have a brace that is not closed
        return text + b"}" * (text.count(b"{") - text.count(b"}"))

    # ---- bytes

    def between(self):
        text = self.random.choice([b" ", b"\n"]) + self.random.choice(BETWEEN) + b"\n"
        return self.random.choice([b"\n", b"\n", b"", b"\n\n", text])

    def delimiters(self):
        return self.random.choice([(b"{", b"}"), (b"{", b"}"), (b"(", b")")])

    def space(self):
        return self.random.choice(SPACES)

    def in_any_case(self, word):
        return self.random.choice([word, word, word, word.upper(), word.lower(), word.swapcase()])

    def chance(self, share):
        return self.random.random() < share
