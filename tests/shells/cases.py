"""The files that shells complete, and the lines that are typed: each with the words that a program gets in the end."""

KEYS = r"""
@misc{x$(id>pwned), year = 1}
@misc{y`id>pwned`, year = 1}
@misc{s;id>pwned, year = 1}
@misc{p|id>pwned, year = 1}
@misc{n&id>pwned&, year = 1}
@misc{v$HOME, year = 1}
@misc{q'id', year = 1}
@misc{d"$(id>pwned)", year = 1}
@misc{b\ack\, year = 1}
@misc{g*lob?[a], year = 1}
@misc{~home, year = 1}
@misc{#hash, year = 1}
@misc{-dash, year = 1}
@misc{h!ist, year = 1}
@misc{o(1, year = 1}
@misc{e=f=g, year = 1}
@misc{r<ed>pwned, year = 1}
@misc{a:b:c, year = 1}
@misc{a:d, year = 1}
@misc{c:$(id>pwned):e, year = 1}
@misc{mé, year = 1}
@misc(k}{1, year = 1)
"""
ONE = "@string{lncs = {LNCS}}\n@STRING ( jacs\n = {JACS} )@string{m`id>pwned` = 1}\n@misc{key1, title = {T}, note = lncs, `id>pwned` = 2}\n"

FOLDERS = ["fold er", "$(id>pwned)"]
FILES = {
    "keys.bib": KEYS,
    "one.bib": ONE,
    "s p'a\"ce.bib": ONE,
    "`id>pwned`.bib": ONE,
    "-dash.bib": ONE,
    "~tilde.bib": ONE,
    "co:lon.bib": ONE,
    "gl*b?[a].bib": ONE,
    "li\nne.bib": ONE,
    "fold er/in.bib": ONE,
    "$(id>pwned)/deep.bib": ONE,
    "edits.tsv": "drop\tkey1\tnote\n",
    "paper.aux": "\\citation{key1}\n",
    "q`id>pwned`.aux": "\\citation{key1}\n",
}


# In all shells.
CASES = [
    ("bibkeep sho\t", ["bibkeep", "show"]),
    ("bibkeep edit one.bib --pri\t", ["bibkeep", "edit", "one.bib", "--print"]),
    ("bibkeep edit one.bib --no\t", ["bibkeep", "edit", "one.bib", "--no-journal"]),
    ("bibkeep merge one.bib one.bib --p\t", ["bibkeep", "merge", "one.bib", "one.bib", "--print"]),
    ("bibkeep merge one.bib one.bib key\t", ["bibkeep", "merge", "one.bib", "one.bib", "keys.bib"]),
    ("bibkeep insert one.bib --no\t", ["bibkeep", "insert", "one.bib", "--no-journal"]),
    ("bibkeep insert one.bib aft\t", ["bibkeep", "insert", "one.bib", "after:key1"]),
    ("bibkeep insert one.bib before:k\t", ["bibkeep", "insert", "one.bib", "before:key1"]),
    ("bibkeep diff one.bib ke\t", ["bibkeep", "diff", "one.bib", "keys.bib"]),
    ("bibkeep edit one.bib move key1 bef\t", ["bibkeep", "edit", "one.bib", "move", "key1", "before:key1"]),
    ("bibkeep edit one.bib add en\t", ["bibkeep", "edit", "one.bib", "add", "end"]),
    ("bibkeep entry one.bib key\t", ["bibkeep", "entry", "one.bib", "key1"]),
    ("bibkeep edit one.bib rename-m\t", ["bibkeep", "edit", "one.bib", "rename-macro"]),
    # keys
    *[(f"bibkeep show keys.bib {typed}\t", ["bibkeep", "show", "keys.bib", key]) for typed, key in [
        ("x", "x$(id>pwned)"),
        ("y", "y`id>pwned`"),
        ("s", "s;id>pwned"),
        ("p", "p|id>pwned"),
        ("n", "n&id>pwned&"),
        ("v", "v$HOME"),
        ("q", "q'id'"),
        ("d", 'd"$(id>pwned)"'),
        ("b", "b\\ack\\"),
        ("g", "g*lob?[a]"),
        ("\\~", "~home"),
        ("\\#", "#hash"),
        ("o", "o(1"),
        ("e", "e=f=g"),
        ("e=", "e=f=g"),
        ("r", "r<ed>pwned"),
        ("a:b", "a:b:c"),
        ("a:d", "a:d"),
        ("c", "c:$(id>pwned):e"),
        ("c:", "c:$(id>pwned):e"),
        ("m", "mé"),
        ("k", "k}{1"),
        ("x\\$", "x$(id>pwned)"),
        ("x\\$\\(id", "x$(id>pwned)"),
        ("'x", "x$(id>pwned)"),
        ("'x$(i", "x$(id>pwned)"),
        ("'q", "q'id'"),
        ("'c:", "c:$(id>pwned):e"),
        ('"x', "x$(id>pwned)"),
        ('"y', "y`id>pwned`"),
        ('"d', 'd"$(id>pwned)"'),
        ('"b', "b\\ack\\"),
    ]],
    ("bibkeep show -- keys.bib -d\t", ["bibkeep", "show", "--", "keys.bib", "-dash"]),
    ("bibkeep show keys.bib a:\tb\t", ["bibkeep", "show", "keys.bib", "a:b:c"]),
    ("bibkeep show --depth 2 keys.bib x\t", ["bibkeep", "show", "--depth", "2", "keys.bib", "x$(id>pwned)"]),
    ("bibkeep show --depth=2 keys.bib x\t", ["bibkeep", "show", "--depth=2", "keys.bib", "x$(id>pwned)"]),
    ("bibkeep cite keys.bib a:b:c x\t", ["bibkeep", "cite", "keys.bib", "a:b:c", "x$(id>pwned)"]),
    ("bibkeep extr\t", ["bibkeep", "extract"]),
    ("bibkeep extract keys.bib a:b:c x\t", ["bibkeep", "extract", "keys.bib", "a:b:c", "x$(id>pwned)"]),
    ("bibkeep extract keys.bib c\t", ["bibkeep", "extract", "keys.bib", "c:$(id>pwned):e"]),
    ("bibkeep edit keys.bib set x\t", ["bibkeep", "edit", "keys.bib", "set", "x$(id>pwned)"]),
    ("bibkeep edit keys.bib rename-key c\t", ["bibkeep", "edit", "keys.bib", "rename-key", "c:$(id>pwned):e"]),
    ("bibkeep edit keys.bib set-type c\t", ["bibkeep", "edit", "keys.bib", "set-type", "c:$(id>pwned):e"]),
    # files
    ("bibkeep check on\t", ["bibkeep", "check", "one.bib"]),
    ("bibkeep check s\t", ["bibkeep", "check", "s p'a\"ce.bib"]),
    ("bibkeep check \\`\t", ["bibkeep", "check", "`id>pwned`.bib"]),
    ("bibkeep check \\~t\t", ["bibkeep", "check", "~tilde.bib"]),
    ("bibkeep check co\t", ["bibkeep", "check", "co:lon.bib"]),
    ("bibkeep check gl\t", ["bibkeep", "check", "gl*b?[a].bib"]),
    ("bibkeep check ~/on\t", ["bibkeep", "check", "HOME/one.bib"]),
    ("bibkeep check fold\\ er/i\t", ["bibkeep", "check", "fold er/in.bib"]),
    ("bibkeep check 'fold er/i\t", ["bibkeep", "check", "fold er/in.bib"]),
    ("bibkeep check '$(id>pwned)/d\t", ["bibkeep", "check", "$(id>pwned)/deep.bib"]),
    ("bibkeep check fo\tin\t", ["bibkeep", "check", "fold er/in.bib"]),
    # aux files, and what comes after them
    ("bibkeep cite one.bib --aux pa\t", ["bibkeep", "cite", "one.bib", "--aux", "paper.aux"]),
    ("bibkeep extract one.bib --aux q\t", ["bibkeep", "extract", "one.bib", "--aux", "q`id>pwned`.aux"]),
    ("bibkeep labels --aux paper.aux on\t", ["bibkeep", "labels", "--aux", "paper.aux", "one.bib"]),
    ("bibkeep lint one.bib --aux pa\t", ["bibkeep", "lint", "one.bib", "--aux", "paper.aux"]),
    ("bibkeep json --aux paper.aux keys.bib x\t", ["bibkeep", "json", "--aux", "paper.aux", "keys.bib", "x$(id>pwned)"]),
    # files that are read before and after the first, and what comes after them
    ("bibkeep check one.bib --bef\t", ["bibkeep", "check", "one.bib", "--before"]),
    ("bibkeep names --aft\t", ["bibkeep", "names", "--after"]),
    ("bibkeep check one.bib --before ke\t", ["bibkeep", "check", "one.bib", "--before", "keys.bib"]),
    ("bibkeep lint one.bib --after \\`\t", ["bibkeep", "lint", "one.bib", "--after", "`id>pwned`.bib"]),
    ("bibkeep check one.bib --before fold\\ er/i\t", ["bibkeep", "check", "one.bib", "--before", "fold er/in.bib"]),
    ("bibkeep show --before one.bib --after one.bib keys.bib x\t", ["bibkeep", "show", "--before", "one.bib", "--after", "one.bib", "keys.bib", "x$(id>pwned)"]),
    ("bibkeep cite keys.bib --after one.bib a:b:c x\t", ["bibkeep", "cite", "keys.bib", "--after", "one.bib", "a:b:c", "x$(id>pwned)"]),
    ("bibkeep lint --ignore no-key ke\t", ["bibkeep", "lint", "--ignore", "no-key", "keys.bib"]),
    # keys of files whatever their names are
    ("bibkeep show s\\ p\\'a\\\"ce.bib ke\t", ["bibkeep", "show", "s p'a\"ce.bib", "key1"]),
    ("bibkeep show '`id>pwned`.bib' ke\t", ["bibkeep", "show", "`id>pwned`.bib", "key1"]),
    ("bibkeep show '$(id>pwned)/deep.bib' ke\t", ["bibkeep", "show", "$(id>pwned)/deep.bib", "key1"]),
    ("bibkeep show \"fold er\"/in.bib ke\t", ["bibkeep", "show", "fold er/in.bib", "key1"]),
    ("bibkeep show ~/one.bib ke\t", ["bibkeep", "show", "HOME/one.bib", "key1"]),
    ("bibkeep show co:lon.bib ke\t", ["bibkeep", "show", "co:lon.bib", "key1"]),
    ("bibkeep show -- -dash.bib ke\t", ["bibkeep", "show", "--", "-dash.bib", "key1"]),
    # fields, macros, faults
    ("bibkeep edit one.bib set key1 ti\t", ["bibkeep", "edit", "one.bib", "set", "key1", "title"]),
    ("bibkeep edit one.bib drop key1 no\t", ["bibkeep", "edit", "one.bib", "drop", "key1", "note"]),
    ("bibkeep edit one.bib drop key1 '`\t", ["bibkeep", "edit", "one.bib", "drop", "key1", "`id>pwned`"]),
    ("bibkeep edit keys.bib set a:b:c ye\t", ["bibkeep", "edit", "keys.bib", "set", "a:b:c", "year"]),
    ("bibkeep edit keys.bib set 'x$(id>pwned)' ye\t", ["bibkeep", "edit", "keys.bib", "set", "x$(id>pwned)", "year"]),
    ("bibkeep edit one.bib inline ln\t", ["bibkeep", "edit", "one.bib", "inline", "lncs"]),
    ("bibkeep edit one.bib rename-macro ja\t", ["bibkeep", "edit", "one.bib", "rename-macro", "jacs"]),
    ("bibkeep edit keys.bib rename-field year date c\t", ["bibkeep", "edit", "keys.bib", "rename-field", "year", "date", "c:$(id>pwned):e"]),
    ("bibkeep edit one.bib undefine ja\t", ["bibkeep", "edit", "one.bib", "undefine", "jacs"]),
    ("bibkeep edit one.bib set-macro ja\t", ["bibkeep", "edit", "one.bib", "set-macro", "jacs"]),
    ("bibkeep edit one.bib inline m\t", ["bibkeep", "edit", "one.bib", "inline", "m`id>pwned`"]),
    ("bibkeep explain 38\t", ["bibkeep", "explain", "38"]),
    ("bibkeep explain Refer\t", ["bibkeep", "explain", "Referred"]),
    ("bibkeep help che\t", ["bibkeep", "help", "check"]),
]

# In bash alone: it cuts words at colons, where fish cuts some too; and it can put in all that it offers.
IN_BASH = [
    ("bibkeep check co:l\t", ["bibkeep", "check", "co:lon.bib"]),
    # all that is offered
    ("bibkeep show keys.bib a:\x1b*", ["bibkeep", "show", "keys.bib", "a:b:c", "d"]),
    ("bibkeep check \x1b*", [
        "bibkeep", "check", "./-dash.bib", "$(id>pwned)/", "`id>pwned`.bib", "~tilde.bib", "co:lon.bib", "fold er/", "gl*b?[a].bib", "keys.bib",
        "one.bib", "s p'a\"ce.bib",
    ]),
    ("bibkeep edit one.bib set key1 \x1b*", ["bibkeep", "edit", "one.bib", "set", "key1", "`id>pwned`", "note", "title"]),
    ("bibkeep edit one.bib inline \x1b*", ["bibkeep", "edit", "one.bib", "inline", "jacs", "lncs", "m`id>pwned`"]),
    ("bibkeep explain 5\x1b*", ["bibkeep", "explain", "5", "51", "52", "53", "54", "55", "56"]),
    # a number that an option takes is left alone, and so is what no command has
    ("bibkeep show --depth \t2 keys.bib x\t", ["bibkeep", "show", "--depth", "2", "keys.bib", "x$(id>pwned)"]),
    ("bibkeep nothing one.bib k\t", ["bibkeep", "nothing", "one.bib", "k"]),
    ("bibkeep edit one.bib add \t0", ["bibkeep", "edit", "one.bib", "add", "0"]),
    ('bibkeep show keys.bib "h\t', ["bibkeep", "show", "keys.bib", "h!ist"]),
    ("bibkeep show keys.bib h\t", ["bibkeep", "show", "keys.bib", "h!ist"]),
]
