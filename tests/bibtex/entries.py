"""What entries say and which of them a list of keys cites, by bibkeep and by BibTeX."""

from random import Random

from cited import Entry, folded, listed
from made import PLAIN_CROSSREF
from report import LEFT_OUT
from rules import CITING
from style import style_for, told, uses_journals

NO_RULES = frozenset()
GREATEST_DEPTH = 8
# Of so many entries of a file it is compared what `show --bibtex` says.
SHOWN = 4


def compare_file(report, bibtex, bibkeep, file, seed, count):
    """Compares all entries of a file, and so many lists of keys, where bibkeep opens it."""
    if not bibkeep.takes(file.plain):
        return
    by_bibkeep, by_bibtex = compare_plain(report, bibtex, bibkeep, file)
    if not bibkeep.takes(file.text):
        return
    keys = [key for key, _ in bibkeep.cite([b"*"])[0]]
    report.expect("keys of a file", file.name, len(keys), len(by_bibkeep))
    ours = [entry_of(record, key) for record, key in zip(by_bibkeep, keys)]
    theirs = [entry_of(record, key) for record, key in zip(by_bibtex, keys)]
    style = style_for(file.text)
    bibtex.takes(file.text, style)
    for key in sorted({key for key in keys if is_citable(key)}):
        compare_show(report, bibkeep, file, ours, key)
        compare_depth(report, bibtex, bibkeep, file, ours, key)
    for cited, minimum in lists_of(keys, seed, count):
        where = f"{file.name}, {b' '.join(cited).decode()}, at least {minimum}"
        compare_cite(report, bibkeep, where, ours, cited, minimum)
        answer = compare_bibtex(report, bibtex, where, style, theirs, cited, minimum)
        if has_option(file):
            compare_option(report, bibkeep, where, style, answer, cited, minimum)
    if has_option(file):
        compare_shown(report, bibtex, bibkeep, file, style, keys, seed)


def entry_of(record, key):
    fields = {name: text for name, text in record.fields.items() if name != PLAIN_CROSSREF}
    return Entry(record.kind, key, fields, record.fields.get(PLAIN_CROSSREF))


def compare_plain(report, bibtex, bibkeep, file):
    """The entries of a plain file, each by itself, as bibkeep and BibTeX tell them."""
    ours = [bibkeep.show(key) for key, _ in bibkeep.cite([b"*"])[0]]
    style = style_for(file.plain)
    bibtex.takes(file.plain, style)
    answer = bibtex.answer([b"*"])
    report.expect("reports of `check`", file.name, sorted_folded(answer.reports), sorted_folded(bibkeep.reports()))
    report.expect("entries of a file", file.name, [it.key for it in answer.records], [it.key for it in ours])
    for mine, other in zip(ours, answer.records):
        report.expect("what an entry says", f"{file.name}, {mine.key.decode()}", other, told(mine, style))
    # a style may not know a type
    return ours, [other._replace(kind=mine.kind) for mine, other in zip(ours, answer.records)]


def sorted_folded(lines):
    return sorted(line.lower() for line in lines)


# ---- lists of keys


def compare_show(report, bibkeep, file, entries, key):
    """What bibkeep shows has the fields in order."""
    wanted = listed(entries, [key], 1, NO_RULES).records[0]
    where = f"{file.name}, {key.decode()}"
    report.expect("`show`", where, in_order(bibkeep.show(key)), in_order(wanted))


def compare_depth(report, bibtex, bibkeep, file, entries, key):
    """Where an entry's parents are cited before it, the farthest first, BibTeX gives it what they all have."""
    chain = chain_of(entries, key)
    if 2 < len(chain) <= GREATEST_DEPTH and all(map(is_citable, chain)):
        found = bibtex.answer(chain[::-1]).records[-1]
        shown = bibkeep.show(key, GREATEST_DEPTH)
        report.expect("`show` at depth 8", f"{file.name}, {key.decode()}", shown.fields, found.fields)


def chain_of(entries, key):
    """A key and those of its parent, its parent's parent and so on. Where the last has an empty crossref, BibTeX may go on."""
    numbers = {folded(entry.key): n for n, entry in reversed(list(enumerate(entries)))}
    chain = []
    while key is not None and folded(key) in numbers and folded(key) not in map(folded, chain):
        entry = entries[numbers[folded(key)]]
        chain.append(entry.key)
        key = entry.crossref
    return [] if key == b"" else chain


def in_order(record):
    return record._replace(fields=list(record.fields.items()))


def compare_cite(report, bibkeep, where, entries, keys, minimum):
    wanted = listed(entries, keys, minimum, NO_RULES)
    found, unknown = bibkeep.cite(keys, minimum)
    pairs = [(it.key, it.parent) for it in wanted.records]
    missing = [key for key in keys if folded(key) in wanted.unknown]
    report.expect("`cite`", where, (found, unknown), (pairs, missing))


def compare_bibtex(report, bibtex, where, style, entries, keys, minimum):
    answer = bibtex.answer(keys, minimum)
    # BibTeX also says of parents that it did not find them
    cited = {folded(key) for key in keys}
    unknown = sorted(cited & {folded(key) for key in answer.unknown})

    def wanted(rules):
        it = listed(entries, keys, minimum, rules)
        return [told(record, style) for record in it.records], sorted(it.unknown)

    report.compare("lists of BibTeX", where, (answer.records, unknown), wanted, CITING)
    return answer


# ---- the option `--bibtex`


def has_option(file):
    """Whether `--bibtex` can be compared by the style of months: several files have no such option."""
    return isinstance(file.text, bytes) and not uses_journals(file.text)


def compare_option(report, bibkeep, where, style, answer, keys, minimum):
    """What the option lists is what BibTeX lists, without any rule."""
    missing = {folded(key) for key in answer.unknown}
    unknown = [key for key in keys if folded(key) in missing]
    found = bibkeep.cite_as_bibtex(keys, minimum)
    wanted = [(it.key, it.parent) for it in answer.records], unknown
    report.expect("`cite --bibtex`", where, found, LEFT_OUT if found is None else wanted)
    if minimum == 2 and not unknown:
        found = bibkeep.json_as_bibtex(keys)
        told_of_all = None if found is None else [told(record, style) for record in found]
        report.expect("`json --bibtex`", where, told_of_all, LEFT_OUT if found is None else answer.records)


def compare_shown(report, bibtex, bibkeep, file, style, keys, seed):
    """What the option shows of an entry is the first record that BibTeX lists for its key alone."""
    citable = sorted({key for key in keys if is_citable(key)})
    for key in Random(seed).sample(citable, min(SHOWN, len(citable))):
        found = bibkeep.show_as_bibtex(key)
        wanted = LEFT_OUT if found is None else bibtex.answer([key], 1).records[0]
        report.expect("`show --bibtex`", f"{file.name}, {key.decode()}", found and told(found, style), wanted)


def lists_of(keys, seed, count):
    """The list of all, and lists of keys, each with a number of children that add their parent."""
    random = Random(seed)
    pool = [key for key in keys if is_citable(key)]
    yield [b"*"], 2
    for _ in range(count if pool else 0):
        length = min(random.choice([1, 1, 2, 3, 4, 6, 9, 12]), 2 * len(pool))
        chosen = [in_any_case(random, key) for key in random.choices(pool, k=length)]
        for extra, chance in ((b"*", 0.08), (b"unknown", 0.2)):
            if random.random() < chance:
                chosen.insert(random.randrange(len(chosen) + 1), extra)
        yield chosen, random.choice([1, 1, 2, 2, 3])


def in_any_case(random, key):
    return random.choice([key, key, key, key.upper(), key.lower()])


def is_citable(key):
    """Whether the key can stand in a list of keys of both programs."""
    try:
        key.decode()
    except UnicodeDecodeError:
        return False
    return key not in (b"", b"*") and not set(key) & set(b"\0 \t\r\n,}")
