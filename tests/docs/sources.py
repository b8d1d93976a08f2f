"""What the sources have: crates, public functions with their clauses, types, definitions, and all words, also those of C and Python."""

import collections
import glob
import os
import re

Function = collections.namedtuple("Function", "crate owner name clauses is_public")

FUNCTION = re.compile(r"^\s*(pub(?:\([^)]*\))?\s+)?(?:const\s+)?(?:extern\s+\S+\s+)?fn\s+(\w+)")
TYPE = re.compile(r"^pub\s+(?:struct|enum|trait)\s+(\w+)", re.M)
DEFINITION = re.compile(r"^(?:(?:abbrev|record|data)\s+)?(?:pub\s+)?(?:(?:abbrev|record|data)\s+)?([\w-]+)\s*(?:\(.*)?:", re.M)
CLAUSE = re.compile(r"\bensures\s+(\w+)\*?\s*\{")
WORD = re.compile(r"\w+")


class Sources:
    def __init__(self, root):
        self.functions = []
        self.types = set()
        self.definitions = set()
        self.words = set()
        self.texts = {}
        self.crates = {os.path.basename(path) for path in glob.glob(os.path.join(root, "crates", "*")) if os.path.isdir(path)}
        for crate in self.crates:
            for kind in ("src", "specs", "proofs", "must-fail"):
                for path in glob.glob(os.path.join(root, "crates", crate, kind, "**", "*"), recursive=True):
                    if os.path.isfile(path):
                        self.add(crate, kind, path)
        for path in glob.glob(os.path.join(root, "c", "*.[ch]")) + glob.glob(os.path.join(root, "python", "*", "*.py")):
            with open(path, encoding="utf-8") as file:
                self.words.update(WORD.findall(file.read()))

    def add(self, crate, kind, path):
        with open(path, encoding="utf-8") as file:
            text = file.read()
        self.words.update(WORD.findall(text))
        self.words.update(WORD.findall(os.path.basename(path)))
        if kind in ("src", "specs"):
            self.texts[path] = text
        if path.endswith(".rt"):
            self.types.update((crate, name) for name in TYPE.findall(text))
            self.functions.extend(functions_of(crate, text.split("\n")))
        elif kind == "specs":
            self.definitions.update(DEFINITION.findall(text))

    def find(self, crates, owner, name):
        """The public functions of this name, in these crates or, where none are given, in any."""
        return [
            function
            for function in self.functions
            if function.name == name and function.owner == owner and function.is_public and (not crates or function.crate in crates)
        ]

    def has_type(self, crates, name):
        return any(name == known and (not crates or crate in crates) for crate, known in self.types)


def functions_of(crate, lines):
    """The functions of a file, each with the type or trait that it belongs to."""
    owner, is_trait = None, False
    for number, line in enumerate(lines):
        if line.startswith(("impl", "pub trait", "trait")):
            owner, is_trait = owner_of(line)
        elif line.startswith("}"):
            owner, is_trait = None, False
        match = FUNCTION.match(line)
        if match:
            is_public = match.group(1) == "pub " or is_trait
            yield Function(crate, owner, match.group(2), CLAUSE.findall(declaration(lines, number)), is_public)


def owner_of(line):
    """The type of an `impl` or the trait of a `trait`, and whether its functions are those of a trait."""
    if "trait " in line:
        return re.search(r"trait (\w+)", line).group(1), True
    rest = without_generics(line[len("impl"):])
    trait, separator, name = rest.rpartition(" for ")
    return re.search(r"\w+", name if separator else rest).group(0), bool(separator)


def without_generics(text):
    """The text without what stands in its angle brackets."""
    depth, kept = 0, []
    for letter in text:
        depth += letter == "<"
        if depth == 0:
            kept.append(letter)
        depth -= letter == ">"
    return "".join(kept)


def declaration(lines, number):
    """A function's own lines before its body."""
    taken = []
    for line in lines[number:]:
        taken.append(line)
        if line.strip() in ("{", "{}") or line.endswith(";") or (line.endswith("{") and "ensures" not in line):
            break
    return "\n".join(taken)
