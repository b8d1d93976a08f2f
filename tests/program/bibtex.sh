# `--bibtex` of `show`, `cite`, `labels`, `json`, `names` and `ris`.
# shellcheck shell=sh

# A file whose last line is empty.
given_bibtex() { given bibtex.bib "$1\n\n"; }

# For these keys, with this least number of crossrefs, BibTeX lists these lines.
lists() {
    # shellcheck disable=SC2086
    when cite bibtex.bib --bibtex --min-crossrefs "$2" $1; ends_with 0; prints "$3"; says_nothing
}

# A parent is found after its child, or if it is cited; so is the first of several with its key.
given_bibtex '@misc{p, t=1}@misc{c, crossref={p}}'
lists c 1 'c\n'
lists 'c p' 1 'c\tp\np\n'
when show bibtex.bib --bibtex c; ends_with 0; prints '@misc c\n'; says_nothing
when show bibtex.bib c; ends_with 0; prints '@misc c\nt = 1\ncrossref = p\n'; says_nothing
when json bibtex.bib --bibtex c p; ends_with 0; prints '{"type":"misc","key":"c","parent":"p","fields":{"t":"1"}}\n{"type":"misc","key":"p","parent":null,"fields":{"t":"1"}}\n'; says_nothing
given_bibtex '@misc{p, t=1}@misc{c, crossref={p}}@misc{P, t=2}'
lists c 1 'c\tP\nP\n'
lists c 2 'c\n'
when show bibtex.bib --bibtex c; ends_with 0; prints '@misc c\nt = 2\ncrossref = P\n'; says_nothing

# What a parent inherited is inherited if the parent comes first.
given_bibtex '@misc{c, crossref={b}}@misc{b, crossref={a}}@misc{a, t=1}'
when json bibtex.bib --bibtex b c; ends_with 0; prints '{"type":"misc","key":"b","parent":null,"fields":{"t":"1"}}\n{"type":"misc","key":"c","parent":"b","fields":{"t":"1"}}\n'; says_nothing
when json bibtex.bib --bibtex c b; ends_with 0; prints '{"type":"misc","key":"c","parent":"b","fields":{}}\n{"type":"misc","key":"b","parent":null,"fields":{"t":"1"}}\n'; says_nothing
lists c 1 'c\tb\nb\ta\na\n'
lists c 2 'c\n'
given_bibtex '@misc{a, t=1}@misc{b, crossref={a}}@misc{c, crossref={b}}'
when json bibtex.bib --bibtex '*'; ends_with 0; prints '{"type":"misc","key":"a","parent":null,"fields":{"t":"1"}}\n{"type":"misc","key":"b","parent":"a","fields":{"t":"1"}}\n{"type":"misc","key":"c","parent":"b","fields":{"t":"1"}}\n'; says_nothing
given_bibtex '@misc{a, x=1, crossref={b}}@misc{b, y=2, crossref={c}}@misc{c, z=3, crossref={a}}'
when_shell_runs '"$program" json bibtex.bib --bibtex a b c | cut -d, -f 4-'; ends_with 0; prints '"fields":{"x":"1","y":"2"}}\n"fields":{"y":"2","z":"3"}}\n"fields":{"z":"3","x":"1","y":"2"}}\n'; says_nothing

# Added parents come as they are named. An entry that names itself counts; a crossref is told if its entry is listed.
given_bibtex '@misc{c, crossref={q}}@misc{d, crossref={p}}@misc{p}@misc{q}'
lists 'd c' 1 'd\tp\nc\tq\nq\np\n'
given_bibtex '@misc{c, crossref={p}}@misc{p, t=1, crossref={p}}'
lists c 2 'c\tp\np\tp\n'
given_bibtex '@misc{a, crossref={A}}'
when show bibtex.bib --bibtex a; ends_with 0; prints '@misc a\ncrossref = a\n'; says_nothing
given_bibtex '@misc{c, crossref={p}}@misc{d, crossref={P}}@misc{p, t=1}'
lists 'c d' 3 'c\nd\n'
lists 'c d' 2 'c\tp\nd\tp\np\n'

# A field without a text is there, and an empty crossref names the empty key.
given_bibtex '@misc{c, t={}, crossref={p}}@misc{p, t=1}'
when json bibtex.bib --bibtex c; ends_with 0; prints '{"type":"misc","key":"c","parent":null,"fields":{"t":""}}\n'; says_nothing
given_bibtex '@misc{a, crossref={}}@misc{, t=1}'
when show bibtex.bib --bibtex a; ends_with 0; prints '@misc a\nt = 1\ncrossref = \n'; says_nothing

# An asterisk cites all, each key once, whatever stands beside it.
given_bibtex '@misc{a}@misc{b}@misc{c}'
when cite bibtex.bib --bibtex c '*' a; ends_with 0; prints 'c\na\nb\n'; says_nothing
when cite bibtex.bib --bibtex a '*' c; ends_with 0; prints 'a\nb\nc\n'; says_nothing
given_bibtex '@misc{a, t=1}@misc{A, t=2}'
when json bibtex.bib --bibtex '*'; ends_with 0; prints '{"type":"misc","key":"a","parent":null,"fields":{"t":"1"}}\n'; says_nothing
when show bibtex.bib --bibtex '*'; ends_with 1; writes_nothing; says 'bibkeep: 11 NoSuchEntry'
given_bibtex '@misc{b, t=2}@misc{c, crossref={zz}}'
when cite bibtex.bib --bibtex '*' zz; ends_with 0; prints 'b\nc\tzz\n? zz\n'; says_nothing
when cite bibtex.bib --bibtex --strict '*' zz; ends_with 1; prints 'b\nc\tzz\n? zz\n'; says_nothing
when json bibtex.bib --bibtex '*' zz; ends_with 1; writes_nothing; says 'bibkeep: 11 NoSuchEntry'
when ris bibtex.bib --bibtex zz; ends_with 1; writes_nothing; says 'bibkeep: 11 NoSuchEntry'

# Keys are spelled as they are cited, and the style has macros.
given_bibtex '@misc{Knuth, t=1}'
lists 'KNUTH knuth zz KNUTH' 2 'KNUTH\n? zz\n'
when json bibtex.bib --bibtex KNUTH; ends_with 0; prints '{"type":"misc","key":"KNUTH","parent":null,"fields":{"t":"1"}}\n'; says_nothing
given_bibtex '@misc{a, t=cacm}@string{cacm={x}}@misc{b, t=CACM, month=jan}'
when json bibtex.bib --bibtex '*'; ends_with 0; prints '{"type":"misc","key":"a","parent":null,"fields":{"t":"Communications of the ACM"}}\n{"type":"misc","key":"b","parent":null,"fields":{"t":"x","month":"January"}}\n'; says_nothing
when show bibtex.bib a; ends_with 0; prints '@misc a\nt = \n'; says_nothing

# RIS, plain texts and what RIS leaves out.
given_bibtex '@book{v, year=1990}@inbook{c, title={{T}}, lost=1, crossref={v}}'
when ris bibtex.bib --bibtex --plain c v; ends_with 0; mentions 'TI  - T'; mentions 'PY  - 1990'; says_nothing
when ris bibtex.bib --bibtex c; ends_with 0; mentions 'TI  - {T}'; says_nothing
expect 'it inherits a year' sh -c '! grep -q 1990 seen/out'
when ris bibtex.bib --bibtex --dropped c; ends_with 0; prints 'c\tlost\n'; says_nothing

# Keys of an aux file come after the arguments.
given bibtex.aux '\\citation{v}\n'
given_bibtex '@misc{v}@misc{c, crossref={v}}'
when cite bibtex.bib --bibtex --aux bibtex.aux c; ends_with 0; prints 'c\tv\nv\n'; says_nothing

# Names are taken apart and printed as BibTeX does it.
are_printed() {
    given_bibtex "@misc{a, author={$1}}"
    when names bibtex.bib --bibtex a "$2"; ends_with 0; prints "$3\n"; says_nothing
}
are_printed '1 Jean Knuth' '{f. }{ll}' '.~J. Knuth'
are_printed '{B} Jean Paul Knuth' '{ff}' '{B} Jean~Paul'
are_printed "{\\\\'E}a B C {Knuth}" '{ll~}{f.}' "{Knuth} {\\\\'E}. B.~C."
are_printed 1 '~~{l}' '~'
are_printed 'Jean Knuth' '{FF}{, }{lL{x{y}}}' 'Jean, Knuth'
are_printed 'Jean Knuth' '{1{ab}f{c}{d}2}' '1{ab}J{d}2'
are_printed 'a, b, c, d' '{ff}|{ll}|{jj}' 'c~d|a|b'
are_printed 'a, b, c- , d' '{ff}' 'c-d'
are_printed 'Ann \303\211lan' '{f.~}{l.}' 'A.~\303.'
are_printed 'Jean {\\o\303\251} Knuth' '{ff}|{vv}' 'Jean~{\\o\303\251}|'
are_printed 'A. Lee and others' '{ll}{, f.}' 'Lee, A.\nothers'
given_bibtex '@misc{a, author={Ann Lee and , Jean}}'
when names bibtex.bib --bibtex a '{ll}'; ends_with 1; writes_nothing; says 'bibkeep: 21 TooManyCommas'
when names bibtex.bib --bibtex a '{ll'; ends_with 1; writes_nothing; says 'bibkeep: 23 BadTemplate'
when names bibtex.bib --bibtex b '{ll'; ends_with 1; writes_nothing; says 'bibkeep: 11 NoSuchEntry'
when names bibtex.bib --bibtex '*' '{ll}'; ends_with 1; writes_nothing; says 'bibkeep: 11 NoSuchEntry'
given_bibtex '@misc{a, author={Ann Lee}}'
for template in '}' '{fv}' '{f f}' '{x}' '{fff}' '{f{}f}' "$(printf '{\303\251ll}')"; do
    when names bibtex.bib --bibtex a "$template"; ends_with 1; writes_nothing; says 'bibkeep: 23 BadTemplate'
done

# The names are those of the record: of the editors if there is no author, and inherited ones too.
given_bibtex '@misc{c, author={}, crossref={p}}@misc{p, editor={Ed Lee}}@misc{q}'
when names bibtex.bib --bibtex C '{ll}'; ends_with 0; prints 'Lee\n'; says_nothing
when names bibtex.bib --bibtex q '{ll}'; ends_with 0; writes_nothing; says_nothing
given_bibtex '@misc{p, editor={Ed Lee}}@misc{c, crossref={p}}'
when names bibtex.bib --bibtex c '{ll}'; ends_with 0; writes_nothing; says_nothing

# Labels are those of the style alpha, in the order of its bibliography.
are_labelled() {
    given_bibtex "$1"
    when labels bibtex.bib --bibtex '*'; ends_with 0; prints "$2\n"; says_nothing
}
are_labelled '@book{k1, author={Donald E. Knuth}, year=1984, title={B}}@book{k2, author={Donald Knuth}, year=1984, title={A}}@misc{abcd, year=2001}' \
    'abc01\tabcd\nKnu84a\tk2\nKnu84b\tk1'
are_labelled '@misc{a, author={D. Knuth}, year=1984}@misc{b, author={D. {KNUTH}}, year=1984}' 'Knu84a\ta\n{KNU}84b\tb'
are_labelled '@misc{a, author={D. Knuth}, year=1884}@misc{b, author={D. Knuth}, year=1984}' 'Knu84\ta\nKnu84\tb'
are_labelled '@book{a, editor={Ed Lee}}@proceedings{b, author={A. Wee}, organization={The Guild}}@manual{c, key={{Ab}cd}, organization={The X}}' \
    '{Ab}c\tc\nGui\tb\nLee\ta'
are_labelled '@misc{a, author={A. Aa and B. Bb and C. Cc and D. Dd and E. Ee}}@misc{b, author={Jean de la Fontaine and others}}' \
    'ABC{\\etalchar{+}}\ta\ndlF{\\etalchar{+}}\tb'
are_labelled '@misc{a, author={{The Guild}}, year={c. {\\AE}1990--91}, title={The A Zebra}}@misc{b, author={{The Guild}}, year=1991, title={An Ant}}' \
    '{The}91\ta\n{The}91\tb'
given_bibtex '@misc{a, author={Ann Lee and , Jean}}@misc{b}'
when labels bibtex.bib --bibtex '*'; ends_with 1; writes_nothing; says 'bibkeep: 21 TooManyCommas'
when labels bibtex.bib --bibtex a zz; ends_with 1; writes_nothing; says 'bibkeep: 11 NoSuchEntry'
when labels bibtex.bib --bibtex B; ends_with 0; prints 'B\tB\n'; says_nothing

# A file of which BibTeX might read other items is refused, by each of the six.
refuses_bibtex() {
    for words in 'show bibtex.bib --bibtex a' 'cite bibtex.bib --bibtex a' 'json bibtex.bib --bibtex a' 'ris bibtex.bib --bibtex a' \
        'names bibtex.bib --bibtex a {ll}' 'labels bibtex.bib --bibtex a'; do
        given bibtex.bib "$2"
        # shellcheck disable=SC2086
        when $words; ends_with 1; writes_nothing; says "bibkeep: $1"
    done
}
refuses_bibtex '14 NotPlain at 14' '@misc{a,\n t=1}@misc{b}\n'
refuses_bibtex '14 NotPlain at 14' '@misc{a,\r t=1}@misc{b}'
refuses_bibtex '14 NotPlain at 10' 'joe@x.org @misc{a}\n'
refuses_bibtex '14 NotPlain at 20' '@misc{a}@misc{a, t={@misc{b}}}\n\n'
refuses_bibtex '14 NotPlain at 0' '@ @misc{a}\n\n'
refuses_bibtex '14 NotPlain at 0' '@x\177\n@misc{a}\n\n'
refuses_bibtex '2 ExpectedName at 8' '@misc{a,,}\n\n'
given bibtex.bib '@misc{a,\n t=1}@misc{b}\r\n'
when cite bibtex.bib --bibtex '*'; ends_with 0; prints 'a\nb\n'; says_nothing
given bibtex.bib '@misc{a}\n@misc{b}'
when cite bibtex.bib --bibtex '*'; ends_with 0; prints 'a\nb\n'; says_nothing
given bibtex.bib '@misc{a}@misc{A, t={x}}\n\n'
when cite bibtex.bib --bibtex '*'; ends_with 0; prints 'a\n'; says_nothing
when cite empty.bib --bibtex '*'; ends_with 0; writes_nothing; says_nothing

# Fields come from at most 64 entries.
given_chain() { { printf '@misc{k0, t=1}\n'; seq "$1" | awk '{ printf "@misc{k%d, crossref={k%d}}\n", $1, $1 - 1 }'; echo; } >bibtex.bib; }
given_chain 64
when_shell_runs '"$program" json bibtex.bib --bibtex "*" | tail -n 1'; ends_with 0; prints '{"type":"misc","key":"k64","parent":"k63","fields":{"t":"1"}}\n'; says_nothing
given_chain 65
when cite bibtex.bib --bibtex '*'; ends_with 1; writes_nothing; says 'bibkeep: 15 TooDeep'
when json bibtex.bib --bibtex '*'; ends_with 1; writes_nothing; says 'bibkeep: 15 TooDeep'
when cite bibtex.bib --bibtex k65; ends_with 0; prints 'k65\n'; says_nothing

# With the macros of the style the longest file is too long.
when cite longest.bib --bibtex '*'; ends_with 1; writes_nothing; says 'bibkeep: 9 FileTooLong at 16776155'
when cite too_long.bib --bibtex '*'; ends_with 1; writes_nothing; says 'bibkeep: 9 FileTooLong at 16777216'

# Bad usage.
given_bibtex '@misc{a}'
misuses() {
    other=$1
    shift
    when "$@"; ends_with 2; writes_nothing
    complains_of "error: the argument '--bibtex' cannot be used with '$other'"
}
misuses '--depth <D>' show bibtex.bib --bibtex --depth 1 a
misuses '--depth <D>' json bibtex.bib --depth=2 --bibtex a
misuses '--depth <D>' ris --depth 1 bibtex.bib --bibtex a
misuses --raw json bibtex.bib --bibtex --raw a
misuses '--before <FILE>' show bibtex.bib --bibtex --before bibtex.bib a
misuses '--before <FILE>' cite bibtex.bib --bibtex --before bibtex.bib a
misuses '--after <FILE>' json bibtex.bib --bibtex --after bibtex.bib a
misuses '--after <FILE>' ris bibtex.bib --bibtex --after bibtex.bib a
misuses '--depth <D>' labels bibtex.bib --bibtex --depth 2 a
misuses '--after <FILE>' labels bibtex.bib --bibtex --after bibtex.bib a
misuses '--depth <D>' names bibtex.bib --bibtex --depth 1 a '{ll}'
misuses '--before <FILE>' names bibtex.bib --before bibtex.bib --bibtex a '{ll}'
for words in 'check bibtex.bib' 'newkeys bibtex.bib' 'extract bibtex.bib a' 'entry bibtex.bib a'; do
    # shellcheck disable=SC2086
    when $words --bibtex; ends_with 2; writes_nothing; complains_of "unexpected argument '--bibtex' found"
done
when cite bibtex.bib --bibtex; ends_with 2; writes_nothing; complains_of '<KEY>'
