"""Which entries a list of keys cites, and what these inherit: as docs/RECORDS.md says it, or as BibTeX does it, rule by rule.

Without any of the rules CITING, `listed` does what bibkeep does, with all of them what BibTeX does.
"""

from typing import NamedTuple, Optional

from programs import Record


class Entry(NamedTuple):
    """An entry of a file: its own fields, without `crossref`, and what its `crossref` says."""

    kind: bytes
    key: bytes
    fields: dict
    crossref: Optional[bytes]


class Listed(NamedTuple):
    records: list
    unknown: list


def folded(key):
    """A key in lower case, where it is ASCII."""
    return bytes(byte + 32 if 65 <= byte <= 90 else byte for byte in key)


def listed(entries, keys, minimum, rules):
    """The records of the entries that the keys cite, with the parents that at least `minimum` of them name."""
    return Cited(entries, keys, minimum, rules).answer()


class Cited:
    def __init__(self, entries, keys, minimum, rules):
        self.entries = entries
        self.minimum = minimum
        self.rules = rules
        self.lists_all = keys == [b"*"] or ("star-beside-keys" in rules and b"*" in keys)
        # how each key was first cited, in that order; and how often entries on the list name each key that is not cited
        self.spellings, self.added = {}, {}
        for key in keys:
            if not (self.lists_all and key == b"*"):
                self.spellings.setdefault(folded(key), key)
        # the keys whose entries come first
        first = keys[: keys.index(b"*")] if self.lists_all else self.spellings
        self.cited = list(dict.fromkeys(folded(key) for key in first))
        # the number of the entry that each key finds
        self.found = {}
        self.read_all()

    # ---- reading: which entry a key finds, and how often it is named

    def read_all(self):
        for n, entry in enumerate(self.entries):
            if self.lists_all or self.is_known(folded(entry.key)):
                self.read(n)

    def is_known(self, key):
        return key in self.spellings or key in self.added

    def read(self, n):
        """Reads entry n, unless its key was found before."""
        key = folded(self.entries[n].key)
        if key in self.found:
            return
        self.found[key] = n
        name = self.name_of_parent(n)
        if name is None or self.lists_all:
            return
        if name not in self.spellings:
            counts = key in self.spellings or "count-of-added" in self.rules
            self.added[name] = self.added.get(name, 0) + counts
        if "parent-before-child" not in self.rules:
            for earlier in self.holders(name)[:1]:
                if earlier < n:
                    self.read(earlier)

    def holders(self, key):
        return [n for n, entry in enumerate(self.entries) if folded(entry.key) == key]

    def name_of_parent(self, n):
        """The key that the crossref of entry n names, if it can be that of a parent."""
        entry = self.entries[n]
        if entry.crossref is None or (entry.crossref == b"" and "empty-key" not in self.rules):
            return None
        name = folded(entry.crossref)
        names_itself = self.holders(name)[:1] == [n]
        return None if names_itself and "names-itself" not in self.rules else name

    def parent(self, n):
        """The number of the entry from which entry n inherits."""
        name = self.name_of_parent(n)
        if name in self.found or not self.is_missing(name):
            return self.found.get(name)
        return dict(enumerate(self.places())).get(list(self.spellings).index(name))

    def is_missing(self, name):
        """Whether the key is cited beside `*`: BibTeX takes the place with its number, if no entry has it."""
        return self.lists_all and name in self.spellings and "missing-key-beside-star" in self.rules

    def places(self):
        """The number of the entry at each place, or nothing, if all are listed: the keys before `*`, and then the others."""
        others = [n for key, n in self.found.items() if key not in self.cited]
        return [self.found.get(key) for key in self.cited] + sorted(others)

    # ---- what is listed

    def answer(self):
        fields = self.all_fields()
        numbers = self.numbers()
        return Listed(
            [self.record(n, fields[n], numbers) for n in numbers],
            [key for key in self.spellings if key not in self.found],
        )

    def numbers(self):
        cited = [self.found[key] for key in dict.fromkeys(self.cited) if key in self.found]
        if self.lists_all:
            return cited + [n for n in self.all_numbers() if n not in cited]
        added = [self.found[key] for key, count in self.added.items() if key in self.found and count >= self.minimum]
        return cited + (added if "order-of-added" in self.rules else sorted(added))

    def all_numbers(self):
        all_numbers = range(len(self.entries))
        return [n for n in all_numbers if "repeated-in-all" not in self.rules or n in self.found.values()]

    def record(self, n, fields, numbers):
        entry, parent = self.entries[n], self.parent(n)
        named = self.name_of_parent(n)
        told = self.spellings[named] if named not in self.found and self.is_missing(named) else None
        name = None if parent not in numbers else told or self.spelled(self.entries[parent].key)
        return Record(folded(entry.kind), self.spelled(entry.key), name, fields)

    def spelled(self, key):
        return self.spellings.get(folded(key), key) if "spelling-of-keys" in self.rules else key

    # ---- what is inherited

    def all_fields(self):
        """The fields of each entry, its own ones first."""
        fields = [dict(entry.fields) for entry in self.entries]
        for n in self.inheriting():
            parent = self.parent(n)
            if parent is not None:
                given = fields[parent] if "parent-of-a-parent" in self.rules else self.entries[parent].fields
                for name, text in given.items():
                    fields[n].setdefault(name, text)
        return fields

    def inheriting(self):
        """The entries that are read, in the order in which they inherit."""
        numbers = [self.found[key] for key in [*self.cited, *self.added] if key in self.found]
        return numbers + [n for n in range(len(self.entries)) if self.lists_all and n not in numbers]
