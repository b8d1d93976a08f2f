"""Writes the year that an entry inherits into the entry: python3 years.py FILE. All of it is one step of undo."""

import sys

import bibkeep

if len(sys.argv) != 2:
    sys.exit("usage: years.py FILE")
library = bibkeep.open(sys.argv[1])
changed = 0
with library.group("write inherited years"):
    for key, entry in library.items():
        print(key, entry.get("year", "?"), sep="\t")
        own = bibkeep.run("entry", library.dumps(), key).output.lower()
        if "year" in entry and b"year" not in own:
            library.set(key, "year", entry["year"])
            changed += 1
library.save()
print(changed, "entry changed" if changed == 1 else "entries changed")
