"""How a name is split, and printed by a template: as docs/NAMES.md says it, or as BibTeX does it, rule by rule.

Without any of the rules PRINTING, `printed` does what bibkeep does, with all of them what BibTeX does.
"""

import re
from typing import NamedTuple

LETTERS = b"ABCDEFGHIJKLMNOPQRSTUVWXYZabcdefghijklmnopqrstuvwxyz"
LOWER_SEQUENCES = (b"i", b"j", b"oe", b"ae", b"aa", b"o", b"l", b"ss")
UPPER_SEQUENCES = (b"OE", b"AE", b"AA", b"O", b"L")
SPACE = b" \t\r\n"
AND = re.compile(rb"(?i)and(?=[ \t\r\n])")
GROUP = re.compile(rb"([^{}A-Za-z]*)(ff?|vv?|ll?|jj?)(?:\{([^{}]*)\})?([^{}A-Za-z]*)")


class Word(NamedTuple):
    separator: bytes
    text: bytes


def printed(names, template, rules):
    """The print of each name of a list."""
    return [print_of(split_name(name, rules), template, rules) for name in split_names(names)]


# ---- splitting


def depths(text):
    """Each place with the number of braces that are open before it."""
    depth = 0
    for place, byte in enumerate(text):
        yield place, depth
        depth += (byte == ord("{")) - (byte == ord("}"))


def split_names(text):
    """The names of a list: it is cut at each word `and` at depth 0 with white space on both sides."""
    names, start = [], 0
    for place, depth in depths(text):
        if depth == 0 and place > 0 and text[place - 1] in SPACE and place >= start and AND.match(text, place):
            names.append(text[start:place].strip(SPACE))
            start = place + 3
    return names + [text[start:].strip(SPACE)] if text.strip(SPACE) else []


def split_name(name, rules):
    """First, von, Last and Jr."""
    pieces = [words_in(piece) for piece in cut(name.rstrip(SPACE + b"~-,"))]
    is_von = [[is_lower(word.text, rules) for word in piece] for piece in pieces]
    if len(pieces) == 1:
        return without_comma(pieces[0], is_von[0])
    last = pieces[0]
    von_end = max((n + 1 for n, lower in enumerate(is_von[0][:-1]) if lower), default=0)
    jr = pieces[1] if len(pieces) == 3 else []
    return {b"f": pieces[-1], b"v": last[:von_end], b"l": last[von_end:], b"j": jr}


def without_comma(words, is_von):
    von = [n for n, lower in enumerate(is_von[:-1]) if lower]
    if von:
        return {b"f": words[: von[0]], b"v": words[von[0] : von[-1] + 1], b"l": words[von[-1] + 1 :], b"j": []}
    start = max(len(words) - 1, 0)
    while start > 0 and words[start].separator == b"-":
        start -= 1
    return {b"f": words[:start], b"v": [], b"l": words[start:], b"j": []}


def cut(name):
    """The pieces between commas at depth 0."""
    pieces, start = [], 0
    for place, depth in depths(name):
        if depth == 0 and name[place] == ord(","):
            pieces.append(name[start:place])
            start = place + 1
    return [*pieces, name[start:]]


def words_in(piece):
    """The words between runs of white space, ties and hyphens at depth 0, each with the first separator before it."""
    words, text, separator = [], b"", b""
    for place, depth in depths(piece):
        byte = piece[place : place + 1]
        if depth == 0 and byte in b" \t\r\n~-":
            words += [Word(separator, text)] if text else []
            separator = byte if text or not separator else separator
            text = b""
        else:
            text += byte
    words += [Word(separator, text)] if text else []
    return [Word(b" ", word.text) if n == 0 else word for n, word in enumerate(words)]


def is_lower(word, rules):
    """Whether the case of a word is lower."""
    for place, depth in depths(word):
        if depth == 0 and word[place] in LETTERS:
            return word[place : place + 1].islower()
        if depth == 0 and is_special(word, place):
            return is_special_lower(special_at(word, place), rules)
    return False


def is_special(text, place):
    return text[place : place + 2] == b"{\\" and special_at(text, place).endswith(b"}") and len(special_at(text, place)) > 2


def special_at(text, place):
    """The group that begins at this place."""
    end = next((at for at, depth in depths(text[place:]) if at > 0 and depth == 0), len(text) - place)
    return text[place : place + end]


def is_special_lower(special, rules):
    letters = b"A-Za-z\x80-\xff" if "bytes-are-letters" in rules else b"A-Za-z"
    sequence = re.match(rb"\{\\([" + letters + rb"]*)", special).group(1)
    if sequence in LOWER_SEQUENCES + UPPER_SEQUENCES:
        return sequence in LOWER_SEQUENCES
    first = re.search(rb"[A-Za-z]", special[2 + len(sequence) :])
    return bool(first) and first.group().islower()


# ---- printing


def print_of(name, template, rules):
    printing = Print(name, rules)
    depth, start = 0, 0
    for place, byte in enumerate(template):
        if byte == ord("{"):
            start = place + 1 if depth == 0 else start
            depth += 1
        elif byte == ord("}"):
            depth -= 1
            if depth == 0:
                printing.put_group(template[start:place])
        elif depth == 0:
            printing.made += template[place : place + 1]
    return printing.made


class Print:
    """What is printed of a name so far."""

    def __init__(self, name, rules):
        self.name = name
        self.rules = rules
        self.made = b""
        # where the group begins
        self.start = 0
        # the braces that were open where characters were last counted
        self.depth = 0

    def put_group(self, group):
        before, letters, between, after = GROUP.fullmatch(group).groups()
        words = self.name[letters[:1]]
        if not words:
            return
        self.start = len(self.made)
        self.made += before
        for n, word in enumerate(words):
            self.put_word(word, len(letters) == 2, between, words[n + 1 :])
        self.made += after
        self.end_group()

    def put_word(self, word, is_full, between, others):
        text = word.text if is_full else initial(word.text, self.rules)
        self.made += text
        if others and between is not None:
            self.made += between
        elif others:
            self.made += b"." if not is_full and (text or "period-without-initial" in self.rules) else b""
            self.made += self.separator(others)

    def separator(self, others):
        if others[0].separator in (b"~", b"-"):
            return others[0].separator
        return b"~" if len(others) == 1 or not self.has_three(self.made) else b" "

    def end_group(self):
        text = self.made if "ties-before-group" in self.rules else self.made[self.start :]
        if text.endswith(b"~~"):
            self.made = self.made[:-1]
        elif text.endswith(b"~") and self.has_three(self.made[:-1]):
            self.made = self.made[:-1] + b" "

    def has_three(self, made):
        """Whether the group has printed three characters."""
        text, count, skipped = made[self.start :], 0, 0
        at_start = self.depth if "braces-stay-open" in self.rules else 0
        for place, depth in depths(text):
            depth += at_start
            if place < skipped:
                continue
            if count == 3:
                self.depth = depth
                return True
            if depth == 0 and is_special(text, place):
                skipped = place + len(special_at(text, place))
                count += 1
            elif text[place] in b"{}":
                count += "braces-count" in self.rules
            else:
                count += "bytes-are-letters" in self.rules or not continues(text, place)
        self.depth = at_start + text.count(b"{") - text.count(b"}")
        return count == 3


def initial(word, rules):
    for place, depth in depths(word):
        byte = word[place : place + 1]
        if (depth == 0 or "special-below" in rules) and is_special(word, place):
            return special_at(word, place)
        if byte in LETTERS:
            return byte
        if byte >= b"\x80" and "bytes-are-letters" in rules:
            return byte
        if byte >= b"\x80" and not continues(word, place):
            return re.compile(rb".[\x80-\xbf]*", re.DOTALL).match(word, place).group()
    return b""


def continues(text, place):
    """Whether the byte belongs to the character before it."""
    return 0x80 <= text[place] <= 0xBF and place > 0 and text[place - 1 : place] not in (b"{", b"}")
