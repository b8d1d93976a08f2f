"""Large `.bib` and RIS files made by rule: item n is a function of n, so that each run measures the same bytes."""

import itertools

NAMES = ["Knuth, Donald E.", "Leslie Lamport", "de la Fontaine, Jean", "King, Jr, Martin Luther", "{Barnes and Noble}",
         "Charles Louis Xavier Joseph de la Vall{\\'e}e Poussin", "Per Brinch Hansen", "Wirth, Niklaus", "G{\\\"o}del, Kurt"]
WORDS = ["on", "the", "theory", "of", "ordered", "sets", "with", "an", "application", "to", "{B}ib{\\TeX}", "databases",
         "and", "their", "{{\\LaTeX}}", "readers", "in", "linear", "time", "$O(n \\log n)$"]
MACROS = ["cacm", "jacm", "tcs", "lncs", "springer", "mit-press"]
MONTHS = ["jan", "feb", "mar", "apr", "may", "jun", "jul", "aug", "sep", "oct", "nov", "dec"]


def text_of(n, count):
    return " ".join(WORDS[(n * 7 + k * (n % 5 + 1)) % len(WORDS)] for k in range(count))


def people_of(n):
    return " and ".join(NAMES[(n + 4 * k) % len(NAMES)] for k in range(n % 4 + 1))


def macro(n):
    name = MACROS[n % len(MACROS)] + str(n)
    return '@string{%s = "%s" # { %s}}\n' % (name, text_of(n, 4).replace('"', "{\"}"), n)


def article(n):
    return ('@article{key%d,\n  author = {%s},\n  title = {%s},\n  journal = %s%d # ", series %d",\n  year = %d,\n'
            '  month = %s # "~%d",\n  pages = "%d--%d",\n  note = {See \\cite{key%d}, 50\\%% of it}\n}\n\n'
            % (n, people_of(n), text_of(n, 9), MACROS[n % len(MACROS)], n - n % 97, n % 7, 1950 + n % 75,
               MONTHS[n % 12], n % 28 + 1, n, n + 12, n // 2))


def in_proceedings(n):
    return ('@InProceedings{key%d,\n\tauthor\t= "%s",\n\ttitle\t= {%s},\n\tcrossref = {proc%d},\n\tabstract = {%s.},\n}\n'
            % (n, people_of(n), text_of(n, 7), n - n % 50, text_of(n + 3, 40)))


def proceedings(n):
    return '@proceedings(proc%d , title = {%s}, booktitle = "%s", year = %d, editor = {%s} )\n' % (
        n, text_of(n, 5), text_of(n + 1, 5), 1950 + n % 75, people_of(n + 2))


def comment(n):
    return '@comment{ key%d is not used any more: @misc{old%d, title = {%s}}}\n' % (n, n, text_of(n, 3))


def remark(n):
    return 'Checked %d%% of these; ask jane.doe%d@example.org or joe @ work, room %d.\n' % (n % 100, n, n)


def item(n):
    if n % 97 == 0:
        return macro(n)
    if n % 50 == 0:
        return proceedings(n)
    if n % 31 == 0:
        return comment(n)
    if n % 11 == 0:
        return remark(n)
    return in_proceedings(n) if n % 3 == 0 else article(n)


def as_many(size, rule):
    """The texts of the rule for 0, 1, 2 and so on, as many as have at most `size` bytes together."""
    texts, length = [], 0
    for n in itertools.count():
        text = rule(n).encode()
        length += len(text)
        if length > size:
            return b"".join(texts)
        texts.append(text)


def database(size):
    """A database of at most `size` bytes, short of it by less than an item."""
    return as_many(size, item)


def other_database(size):
    """A database of at most `size` bytes that has no key and no macro of the others."""
    return as_many(size, lambda n: item(n + 1000000))


def library(size):
    """A database of at most `size` bytes whose macros are defined at its top, as most are."""
    macros = b"".join(macro(n).encode() for n in range(0, size // 250, 97))
    return macros + as_many(size - len(macros), lambda n: "" if n % 97 == 0 else item(n))


def one_macro(count):
    """One macro, and so many entries that use it."""
    return b"@string{m = {text}}\n" + b"".join(b"@misc{k%d, t = m}\n" % n for n in range(count))


def one_macro_among_words(count):
    """One macro, and so many entries that use it, with some words each: 40 bytes."""
    return b"@string{m = {text}}\n" + b"".join(b"@misc{k%06d, t = m, n = {some words}}\n" % n for n in range(count))


def articles_of_one_journal(count, others=0):
    """So many articles, in each of which one and the same macro stands for the journal, and then others of another journal."""
    return b"@string{m = {Annals of Examples}}\n" + b"".join(
        ("@article{key%d,\n  author = {%s},\n  title = {%s},\n  journal = %s,\n  year = %d\n}\n"
         % (n, NAMES[n % len(NAMES)], text_of(n, 6), "m" if n < count else "{Letters}", 1950 + n % 75)).encode()
        for n in range(count + others))


def articles_of_one_publisher(count):
    """So many articles, in each of which one and the same macro stands nine times, as long as those of a database are."""
    uses = " # ".join(["m"] * 8)
    return b"@string{m = {Examples}}\n" + b"".join(
        ("@article{key%d,\n  author = {%s},\n  title = {%s},\n  publisher = m,\n  note = %s,\n  abstract = {%s},\n  year = %d\n}\n\n"
         % (n, people_of(n), text_of(n, 9), uses, text_of(n + 3, 16), 1950 + n % 75)).encode()
        for n in range(count))


def definitions(count):
    """So many macros of one line each, and nothing else."""
    return b"".join(b"@string{m%d = {Journal of Examples %d}}\n" % (n, n) for n in range(count))


def unused(count, size):
    """So many macros that nothing uses, and then a library, at most `size` bytes together."""
    macros = definitions(count)
    return macros + library(size - len(macros))


def abbreviated(count):
    """So many macros, and then as many articles as long as those of a database are, each with a use of one of them and a publisher of its own."""
    return definitions(count) + b"".join(
        ("@article{key%d,\n  author = {%s},\n  title = {%s},\n  journal = m%d,\n  publisher = {Publisher %d},\n  note = {%s},\n  abstract = {%s},\n  year = %d\n}\n\n"
         % (n, people_of(n), text_of(n, 9), n, n, text_of(n + 1, 16), text_of(n + 3, 48), 1950 + n % 75)).encode()
        for n in range(count))


def articles_of_one_volume(count, every):
    """So many articles as long as those of a database, and after them a volume, to which the first article and each `every`-th after it refer."""
    return b"".join(
        ("@article{key%d,\n  author = {%s},\n  title = {%s},\n  note = {%s},\n%s  year = %d\n}\n\n"
         % (n, people_of(n), text_of(n, 9), text_of(n + 3, 32), "  crossref = {volume},\n" if n % every == 0 else "", 1950 + n % 75)).encode()
        for n in range(count)) + b"@book{volume, title = {All of it}}\n"


def chained_macros(count):
    """So many macros, each defined by the one before, and an entry that uses the last."""
    links = b"".join(b"@string{m%d = m%d}\n" % (n, n - 1) for n in range(1, count))
    return b"@string{m0 = {text}}\n" + links + b"@misc{k, t = m%d}\n" % (count - 1)


def articles(count):
    """The numbers of so many articles of a database, from its beginning on and then again."""
    numbers = [n for n in range(3 * count) if n % 97 and n % 50 and n % 31 and n % 11 and n % 3]
    return numbers[:count] if len(numbers) >= count else articles(2 * count)[:count]


def adds(count):
    """A script of so many edits: each adds an entry, at places all over the file."""
    return b"".join(b"add\t%d\tmisc\tnew%d\ttitle\t{Added %d}\n" % (n * 37 % 5000, n, n) for n in range(count))


def moves(count):
    """A script of so many edits: each moves an article to a place among the first 5,000 items."""
    keys = articles(5000)
    return b"".join(b"move\tkey%d\t%d\n" % (keys[n % len(keys)], n * 53 % 5000) for n in range(count))


def moves_beside(count):
    """A script of so many edits: each moves an article to the place after another one."""
    keys = articles(5000)
    return b"".join(b"move\tkey%d\tafter:key%d\n" % (keys[n % len(keys)], keys[(n * 53 + 1) % len(keys)]) for n in range(count))


def moves_in_turn(count):
    """A script of so many edits: the first entry of a library is moved to place 0, the second to place 1, and so on."""
    numbers = (n for n in itertools.count() if n % 97 and (n % 50 == 0 or n % 31 and n % 11))
    keys = (("key%d" if n % 50 else "proc%d") % n for n in numbers)
    return b"".join(b"move\t%s\t%d\n" % (key.encode(), place) for place, key in enumerate(itertools.islice(keys, count)))


def removes(count):
    """A script of so many edits: each removes an article."""
    return b"".join(b"remove\tkey%d\n" % n for n in articles(count))


def macro_renames(count):
    """A script of so many edits: each gives a macro of a file by rule another name."""
    return b"".join(b"rename-macro\tm%d\tother%d\n" % (n, n) for n in range(count))


def inlinings(count):
    """A script of so many edits: each takes a macro of a file by rule out."""
    return b"".join(b"inline\tm%d\n" % n for n in range(count))


def undefinings(count):
    """A script of so many edits: each takes out a definition of a file by rule that nothing uses."""
    return b"".join(b"undefine\tm%d\n" % n for n in range(count))


def definings(count):
    """A script of so many edits: each defines a macro that nothing uses."""
    return b"".join(b"define\tother%d\t{Annals of Examples %d}\n" % (n, n) for n in range(count))


def macro_settings(count):
    """A script of so many edits: each gives a macro of a file by rule that nothing uses another value."""
    return b"".join(b"set-macro\tm%d\t{Annals of Examples %d}\n" % (n, n) for n in range(count))


def inlinings_from_the_end(count):
    """The same from the last macro to the first."""
    return b"".join(reversed(inlinings(count).splitlines(True)))


def introductions(count):
    """A script of so many edits: each gives a publisher of a file by rule a name."""
    return b"".join(b"introduce\tp%d\tPublisher %d\n" % (n, n) for n in range(count))


def renames_of_one_key(count):
    """A script of so many edits: each gives the volume another key."""
    keys = [b"volume"] + [b"volume%d" % n for n in range(count)]
    return b"".join(b"rename-key\t%s\t%s\n" % pair for pair in zip(keys, keys[1:]))


def renames(count):
    """A script of so many edits: each gives an article another key."""
    return b"".join(b"rename-key\tkey%d\tother%d\n" % (n, n) for n in articles(count))


def field_renames(count):
    """A script of so many edits: each gives a field of an article another name."""
    return b"".join(b"rename-field\tnote\tannote\tkey%d\n" % n for n in articles(count))


def sets(count):
    """A script of so many edits: each sets the year of an article."""
    keys = articles(5000)
    return b"".join(b"set\tkey%d\tyear\t{%d}\n" % (keys[n % len(keys)], 1500 + n % 500) for n in range(count))


RIS_NAMES = ["Knuth, Donald E.", "Lamport, Leslie", "de la Fontaine, Jean", "King, Martin Luther, Jr", "{Barnes and Noble}",
             "de la Vall{\\'e}e Poussin, Charles Louis Xavier Joseph", "Hansen, Per Brinch", "Wirth, Niklaus", "G{\\\"o}del, Kurt"]


def ris_people_of(n):
    return "".join("AU  - %s\n" % RIS_NAMES[(n + 4 * k) % len(RIS_NAMES)] for k in range(n % 4 + 1))


def ris_article(n):
    return ("TY  - JOUR\n%sTI  - %s\nJF  - Communications %d, series %d\nPY  - %d/%02d//\nSP  - %d\nEP  - %d\n"
            "N1  - See \\cite{key%d}, 50\\%% of it\nID  - key%d\nER  - \n"
            % (ris_people_of(n), text_of(n, 9), n % 97, n % 7, 1950 + n % 75, n % 12 + 1, n, n + 12, n // 2, n))


def ris_paper(n):
    return ("TY  - CONF\n%sTI  - %s\nT2  - %s\nPY  - %d///\nAB  - %s.\nKW  - %s\nKW  - %s\nID  - key%d\nER  - \n"
            % (ris_people_of(n), text_of(n, 7), text_of(n + 1, 5), 1950 + n % 75, text_of(n + 3, 40), WORDS[n % 4], WORDS[n % 9 + 3], n))


def ris_records(size):
    """RIS records with an ID each, of at most `size` bytes, short of it by less than a record."""
    return as_many(size, lambda n: ris_paper(n) if n % 3 == 0 else ris_article(n))


def ris_authors(count):
    """One RIS record of so many authors."""
    return b"TY  - JOUR\n" + b"".join(b"AU  - %05d\n" % n for n in range(count)) + b"ID  - k\nER  - \n"


def authors(count):
    """One entry of so many authors."""
    return b"@article{k, author = {%s}}\n" % b" and ".join(b"%05d" % n for n in range(count))


def ris_lines(count):
    """One RIS record with one value, of 16 bytes in each of so many lines."""
    return b"TY  - JOUR\nAB  - begins\n" + b"".join(b"continues %05d\n" % (n % 100000) for n in range(count)) + b"ID  - k\nER  - \n"


def ris_one_key(count):
    """So many RIS records without an ID, which all want one and the same key."""
    return b"".join(b"TY  - JOUR\nAU  - Knuth, Donald\nTI  - %d\nPY  - 1984///\nER  - \n" % n for n in range(count))


def many_sets(count):
    """A script of so many edits, each of which sets the same field."""
    return b"".join(b"set\tk0\tt\t{%d}\n" % n for n in range(count))


def first_sets(count):
    """A script of `count` edits: each sets the year of one of the first articles of a file whose keys are counted."""
    return b"".join(b"set\tkey%d\tyear\t{%d}\n" % (n, 1500 + n % 500) for n in range(count))


def in_order(script, order):
    """The script's lines sorted by the place in the file that they are about, from the end to the front, or mixed."""
    lines = sorted(script.splitlines(keepends=True), key=place_of)
    if order == "back":
        return b"".join(reversed(lines))
    if order == "mixed":
        return b"".join(lines[n * 7919 % len(lines)] for n in range(len(lines)))
    return b"".join(lines)


def place_of(line):
    """A number that grows with the place in the file: of an added entry its position, of any other edit its key's."""
    words = line.split(b"\t")
    return int(words[1]) if words[0] == b"add" else int(words[1].strip()[len("key"):])


def one_step(script):
    """The same edits as one step."""
    return b"group\tall\n" + script + b"end\n"


def first_version(journal):
    """The journal of version 2 as one of version 1, which has no labels."""
    head, place = [], 0
    for _ in range(3):
        end = journal.index(b"\n", place) + 1
        head.append(journal[place:end])
        place = end
    texts = [b"bibkeep 1\n"] + head[1:]
    while place < len(journal):
        start = journal.index(b"\n", place) + 1
        place = journal.index(b"\n", start) + 1
        for _ in range(int(journal[start:place])):
            end = journal.index(b"\n", place) + 1
            _, old, new = map(int, journal[place:end].split())
            place = end + old + new + 1
        texts.append(journal[start:place])
    return b"".join(texts)


def words_of(script):
    """The words of a script of one edit, as they are given at the keyboard."""
    return script.decode().removesuffix("\n").split("\t")


def all_kinds(count):
    """A script of so many edits of all kinds but those that look at the whole file, which are one in a thousand."""
    lines, keys = [], articles(count // 8 + 1)
    for n in range(count):
        key = keys[n // 8]
        if n % 1000 == 999:
            macro_name = "%s%d" % (MACROS[97 * (n // 1000) % len(MACROS)], 97 * (n // 1000))
            lines.append("rename-macro\t%s\tother-%d" % (macro_name, n))
            continue
        lines.append([
            "set\tkey%d\tyear\t{%d}" % (key, 1500 + n % 500),
            "set\tkey%d\turn\t{u%d}" % (key, n),
            "drop\tkey%d\tnote" % key,
            "move\tkey%d\t%d" % (key, n * 53 % 5000),
            "add\t%d\tmisc\tnew%d\ttitle\t{Added %d}" % (n * 37 % 5000, n, n),
            "rename-key\tkey%d\tother%d" % (key, key),
            "add\t%d\tmisc\tgone%d" % (n * 37 % 5000, n),
            "remove\tgone%d" % (n - 1),
        ][n % 8])
    return "".join(line + "\n" for line in lines).encode()


def entries(count, fields=b""):
    """So many entries, each with a key of its own and these fields."""
    return b"".join(b"@a{k%d%s}" % (n, fields) for n in range(count))


def entries_of_one_key(count):
    return b"@a{k}" * count


def comments(count):
    return b"@comment{}" * count


def fields(count):
    """An entry of so many fields."""
    return b"@a{k" + b"".join(b",f%d=1" % n for n in range(count)) + b"}"


def children(count):
    """So many entries of one parent, which comes last."""
    return entries(count, b",crossref={p}") + b"@a{p,t=1}"


def twice(size):
    """A database of about `size` bytes in which each entry of a library of half the size stands twice."""
    half = library(size // 2)
    return half + b"\n" + half


def second_sets(count):
    """A script that sets a field of the second of two entries with the same key, so many times."""
    return b"".join(b"set\tkey%d,2\tnote\t{x}\n" % n for n in articles(count))


def children_in_lines(count):
    """So many entries of one parent, which comes last, each in a line of its own, so that BibTeX reads the same items."""
    return b"".join(b"@misc{k%d,crossref={p}}\n" % n for n in range(count)) + b"@misc{p,t=1}\n\n"


def at_signs(count):
    return b"@" * count


def one_base(count):
    """So many entries whose made keys have one base."""
    return b"".join(b"@misc{k%d, author = {Knuth, Donald}, year = 1984}\n" % n for n in range(count))


def children_of_long(count):
    """So many entries without an author, of two parents in turn, which come last and have 100 bytes each for each entry: half in authors, half in a note."""
    people = b" and ".join(b"Author %06d" % n for n in range(50 * count // 18))
    children = b"".join(b"@a{k%d,crossref={%s}}" % (n, (b"p", b"q")[n % 2]) for n in range(count))
    return children + b"".join(b"@a{%s,year=1984,author={%s},note={%s}}" % (key, people, b"x" * (50 * count)) for key in (b"p", b"q"))


def line_of_ancestors(papers):
    """So many papers without an author, of a volume for each 100 of them, of a series for each 20 volumes, of one publisher's entry. Each ancestor has 20,000 bytes, and
    the publisher's alone an author."""
    note = b"x" * 20000
    volumes = papers // 100
    return b"".join(
        [b"@inproceedings{k%d,title={Paper %d},year=1984,crossref={v%d}}\n" % (n, n, n % volumes) for n in range(papers)]
        + [b"@proceedings{v%d,booktitle={Volume %d},note={%s},crossref={s%d}}\n" % (n, n, note, n // 20) for n in range(volumes)]
        + [b"@book{s%d,series={Series %d},note={%s},crossref={p}}\n" % (n, n, note) for n in range(max(volumes // 20, 1))]
        + [b"@misc{p,author={Ann Publisher},publisher={Publisher},note={%s}}\n" % note])


def chain(count):
    """So many entries, each but the last the child of the next one."""
    return ring(count).replace(b",crossref={k0}", b"")


def ring(count):
    """So many entries, each the child of the next one, and the last the child of the first."""
    return b"".join(b"@misc{k%d,f%d={%d},crossref={k%d}}\n" % (n, n % 16, n, (n + 1) % count) for n in range(count))


def shared_entry(n, year, note):
    return ("@article{key%07d,\n  author = {%s},\n  title = {%s},\n  journal = {Letters %d},\n  year = %d,\n  note = {%s}\n}\n\n"
            % (n, NAMES[n % len(NAMES)], text_of(n, 5), n % 97, year, note)).encode()


def shared(count, changes=0, side="ours"):
    """So many entries of 160 bytes, of which one side has changed so many, all over the file: the year of half of them, and the note of
    the others. The sides change other entries, but for one in ten, of which one changes the year and the other the note."""
    changed = {} if not changes else {
        n * (count // changes) + (1 if side == "theirs" and n % 10 else 0): (n + (side == "theirs")) % 2 for n in range(changes)}
    return b"".join(
        shared_entry(n, 1950 + n % 75 + (100 if changed.get(n) == 0 else 0), side if changed.get(n) == 1 else "kept") for n in range(count))


def reversed_lines(text):
    """The lines of the text from the last to the first."""
    return b"".join(reversed(text.splitlines(True)))


def lines_of_entries(count, name=b"k%d"):
    """So many entries of a line each, of which each has the key by this rule."""
    return b"".join(b"@misc{%s, t = %d}\n" % (name % n if b"%" in name else name, n) for n in range(count))


def faults(size):
    """Entries of 32 bytes, a line each, in each of which a comma is missing."""
    return b"".join(b"@misc{k%07d, t = {x} u = 20}\n" % n for n in range(size // 32))


def cut(text, count):
    """The text as so many files of about the same length, each of which but the first begins with an item."""
    places = [text.index(b"\n\n@", len(text) * n // count) + 2 for n in range(1, count)]
    return [text[start:end] for start, end in zip([0, *places], [*places, len(text)])]


def cited(size):
    """Lines of 24 bytes, each of which cites another key, as an aux file has them: text between items of no file."""
    return b"".join(b"\\citation{article%05x}\n" % n for n in range(size // 24))


def great():
    """A macro whose text is long, and so many uses that all of them would be gigabytes."""
    return b"@string{m = {%s}}\n" % (b"x" * 1000000) + b"".join(b"@misc{k%d, t = m}\n" % n for n in range(20000))


# Kinds of files that are all one kind: a name, the name of the file, the rule, how many.
KINDS = (
    ("a million entries", "entries", entries, 1000000),
    ("a million entries of one key", "one key", entries_of_one_key, 1000000),
    ("1.5 million comments", "comments", comments, 1500000),
    ("an entry of 700,000 fields", "fields", fields, 700000),
    ("300,000 entries of one parent", "children", children, 300000),
    ("a chain of 300,000 definitions", "chain", chained_macros, 300000),
    ("16,000,000 at-signs", "at-signs", at_signs, 16000000),
)
OF_ONE_KIND = [(name, file) for name, file, _, _ in KINDS]
# What stands in each file by rule.
CONTENTS = {
    "4.bib": lambda: database(4000000),
    "16.bib": lambda: database(16000000),
    "8.bib": lambda: database(8000000),
    "8.bib and another": lambda: database(8000000) + other_database(8000000),
    "library 4": lambda: library(4000000),
    "library 8": lambda: library(8000000),
    "library 16": lambda: library(16000000),
    "definitions 3": lambda: definitions(3000),
    "definitions 10": lambda: definitions(10000),
    "unused 10 in 4": lambda: unused(10000, 4000000),
    "abbreviated 4": lambda: abbreviated(5000),
    "abbreviated 8": lambda: abbreviated(10000),
    "use 100": lambda: one_macro(100000),
    "use 100 in 4": lambda: one_macro_among_words(100000),
    "volume 250": lambda: articles_of_one_volume(10000, 40),
    "volume 2": lambda: articles_of_one_volume(10000, 5000),
    "journal 100": lambda: articles_of_one_journal(100000),
    "journal 5 of 23": lambda: articles_of_one_journal(5000, others=18000),
    "publisher 11": lambda: articles_of_one_publisher(11112),
    "base 50": lambda: one_base(50000),
    "base 100": lambda: one_base(100000),
    "long parents 5": lambda: children_of_long(5000),
    "long parents 10": lambda: children_of_long(10000),
    "ancestors": lambda: line_of_ancestors(20000),
    "chain 50": lambda: chain(50000),
    "chain 100": lambda: chain(100000),
    "ring 50": lambda: ring(50000),
    "ring 100": lambda: ring(100000),
    "twice 4": lambda: twice(4000000),
    "children 50": lambda: children_in_lines(50000),
    "children 100": lambda: children_in_lines(100000),
    "faults 8": lambda: faults(8000000),
    "faults 16": lambda: faults(16000000),
    "cited 8": lambda: cited(8000000),
    "cited 16": lambda: cited(16000000),
    "shared 50": lambda: shared(50000),
    "shared 100": lambda: shared(100000),
    **{"%s %d" % (side, count): lambda side=side, count=count: shared(1000 * count, 10 * count, side)
       for side in ("ours", "theirs") for count in (50, 100)},
    "shared 10": lambda: shared(10000),
    "changed 10": lambda: shared(10000, 1000),
    **{"%s %d" % (name, count): lambda make=make, count=count: make(1000 * count)
       for name, make in (("in order", lines_of_entries), ("in opposite order", lambda count: reversed_lines(lines_of_entries(count))),
                          ("of one name", lambda count: lines_of_entries(count, b"k")),
                          ("of one name but the last", lambda count: lines_of_entries(count - 1, b"k") + b"@misc{k, t = {x}}\n"),
                          ("of one name from the end", lambda count: reversed_lines(lines_of_entries(count, b"k"))))
       for count in (50, 100)},
    "great": great,
    "authors 50000": lambda: authors(50000),
    "authors 100000": lambda: authors(100000),
    "small": lambda: entries(100, b",t=1"),
    "empty": lambda: b"",
    **{"%s whole" % file: lambda rule=rule, count=count: rule(count) for _, file, rule, count in KINDS},
    **{"%s half" % file: lambda rule=rule, count=count: rule(count // 2) for _, file, rule, count in KINDS},
}
