# `bibkeep check`.
# shellcheck shell=sh

given reports.bib '@misc{a, t = u, T = 1}@misc{A}'
given crossrefs.bib '@misc{a, crossref={a}}@misc{b}@misc{c, crossref={b}}@misc{d,crossref={q}}'

# What is in the file is counted.
when check empty.bib; ends_with 0; prints 'items 0\nentries 0\nmacros 0\npreambles 0\ncomments 0\n'; says_nothing
when check comment.bib; ends_with 0; prints 'items 2\nentries 1\nmacros 0\npreambles 0\ncomments 1\n'; says_nothing

counts_and_reports() { given checked.bib "$1"; when check checked.bib; case="check of $1"; ends_with 0; prints "items $2\nentries $3\nmacros $4\npreambles $5\ncomments $6\n$7"; says_nothing; }

counts_and_reports '@string{p = {x}}@string{q = p}@preamble{p}@comment @misc{a, t = q}' 5 1 2 1 1 ''

# Repeated entries, extra fields and macros.
when check reports.bib; ends_with 0; prints 'items 2\nentries 2\nmacros 0\npreambles 0\ncomments 0\nundefined macro u\nextra field a T\nrepeated entry A\n'; says_nothing
counts_and_reports '@misc{}@misc{}@misc{a}@book{a}@misc{A}' 5 5 0 0 0 'repeated entry a\nrepeated entry A\n'
counts_and_reports '@misc{a, t = 1, T = u, t = v}' 1 1 0 0 0 'extra field a T\nundefined macro u\nextra field a t\nundefined macro v\n'
counts_and_reports '@misc{a, t = p}@string{p = {x}}@misc{b, t = P # q # q}' 3 2 1 0 0 'undefined macro p\nundefined macro q\nundefined macro q\n'
counts_and_reports '@string{Jan = jan # { x}}@misc{a, month = jan # feb}' 2 1 1 0 0 'own macro jan\n'
counts_and_reports '@string{m = m}@string{m = M # n}@preamble{m # o}' 3 0 2 1 0 'own macro m\nown macro M\nundefined macro n\nundefined macro o\n'

# Crossrefs.
when check crossrefs.bib; ends_with 0; prints 'items 4\nentries 4\nmacros 0\npreambles 0\ncomments 0\nself crossref a\nparent before c\nmissing crossref d q\n'; says_nothing
counts_and_reports '@misc{a, crossref = {}}@misc{b, crossref = { \n}}' 2 2 0 0 0 ''
counts_and_reports '@misc{a, CrossRef = {B}}@misc{b}' 2 2 0 0 0 ''
counts_and_reports '@string{p = {no  one}}@misc{a, crossref = p, crossref = {a}}' 2 1 1 0 0 'extra field a crossref\nmissing crossref a no one\n'

# A file that cannot be opened is refused, with the place.
when check newline.bib; ends_with 1; writes_nothing; says 'bibkeep: 6 UnbalancedBrace at 15'
when check too_long.bib; ends_with 1; writes_nothing; says 'bibkeep: 9 FileTooLong at 16777216'
when_shell_runs '{ printf "@misc{a, t = {"; head -c 1048577 /dev/zero | tr "\0" x; printf "}}"; } >long_text.bib; "$program" check long_text.bib'; ends_with 1; writes_nothing; says 'bibkeep: 8 TextTooLong at 13'
when check nothing.bib; ends_with 3; writes_nothing; says 'bibkeep: read fault'
when_shell_runs '"$program" check reports.bib >/dev/full'; ends_with 3; says 'bibkeep: write fault'

# A raw text of 1,048,576 bytes is the longest. Each macro here is twice the one before.
doubled() {
    printf '@string{m0 = {x}}'
    n=0
    while [ "$n" -lt "$1" ]; do
        printf '@string{m%d = m%d # m%d}' "$((n + 1))" "$n" "$n"
        n=$((n + 1))
    done
}
doubled 20 >longest_text.bib
doubled 21 >too_long_text.bib
doubled 40 >huge_text.bib
when check longest_text.bib; ends_with 0; prints 'items 21\nentries 0\nmacros 21\npreambles 0\ncomments 0\n'; says_nothing
when check too_long_text.bib; ends_with 1; writes_nothing; says 'bibkeep: 8 TextTooLong at 482'
when check huge_text.bib; ends_with 1; writes_nothing; says 'bibkeep: 8 TextTooLong at 482'
when cat too_long_text.bib; ends_with 0; writes too_long_text.bib; says_nothing
if [ -e /dev/stdin ]; then
    when_shell_runs 'yes | "$program" check /dev/stdin'; ends_with 1; writes_nothing; says 'bibkeep: 9 FileTooLong at 16777216'
fi
