"""The rules by which BibTeX 0.99d differs."""

# Which entries a list of keys cites, and what these inherit.
CITING = {
    "parent-before-child": "a parent that stands before all its children is found only where it is cited",
    "parent-of-a-parent": "an entry inherits also what its parent inherited, where the parent comes before it in the list",
    "count-of-added": "an entry that crossrefs bring in counts as a citation of its own parent",
    "order-of-added": "added parents come in the order in which the file's entries named them",
    "names-itself": "an entry that names itself is its own parent",
    "empty-key": "an empty crossref names the entry with an empty key",
    "repeated-in-all": "`*` lists entries with one key once",
    "star-beside-keys": "`*` beside other keys cites all entries too",
    "missing-key-beside-star": "beside `*`, a crossref to a cited key without an entry finds the entry at the place of that number",
    "spelling-of-keys": "a key is spelled as it was cited, and not as it stands in the file",
}
# How a name is printed by a template, and split. The last two are shown by examples alone.
PRINTING = {
    "period-without-initial": "a period follows a word that prints no initial",
    "braces-count": "braces are among the three characters after which a space stands in the place of a tie",
    "special-below": "a group that begins with a backslash is an initial at any depth",
    "braces-stay-open": "braces in which the counting of three characters ended are open where the next one begins",
    "ties-before-group": "ties before a group that prints nothing, though the name has that part, are ties of the group",
    "bytes-are-letters": "each byte from 0x80 on is a letter: an initial, a character, part of a control sequence",
    "more-templates": "a template may have capital letters, and braces after its letters",
    "more-commas": "a name may have more than two commas",
}
# Which bytes are a file. Files with the first of these are left out, and the others are shown by examples alone.
READING = {
    "at-sign-in-types": "an at-sign may stand in the name of a type",
    "delete-in-names": "the byte DEL may stand in the names of types, fields and macros",
    "long-names": "a name or a key may have more than 255 bytes",
    "one-thing-in-last-line": "the first thing read that ends in the last line is the last that is read",
    "body-of-a-repeated-entry": "the body of an entry whose key an earlier entry has is read for at-signs",
    "goes-on-after-faults": "the rows before a fault stand, and reading goes on after it",
}
RULES = {**CITING, **PRINTING, **READING}
