# `bibkeep cite`.
# shellcheck shell=sh

# Each entry once, then the parents that enough of them have, then the keys that find none.
when cite parents.bib c1 zz c2 C1; ends_with 0; prints 'c1\tp\nc2\tp\np\n? zz\n'; says_nothing
when cite parents.bib --min-crossrefs 3 c1 zz c2 C1; ends_with 0; prints 'c1\nc2\n? zz\n'; says_nothing
when cite --min-crossrefs=1 parents.bib c3; ends_with 0; prints 'c3\tp\np\n'; says_nothing
when cite parents.bib p c1; ends_with 0; prints 'p\nc1\tp\n'; says_nothing
when cite parents.bib ZZ yy zz; ends_with 0; prints '? ZZ\n? yy\n? zz\n'; says_nothing

# An asterisk alone cites all.
when cite crossrefs.bib '*'; ends_with 0; prints 'a\nb\nc\tb\nd\n'; says_nothing
when cite crossrefs.bib '*' a; ends_with 0; prints 'a\n? *\n'; says_nothing
when cite empty.bib '*'; ends_with 0; writes_nothing; says_nothing

when cite newline.bib a; ends_with 1; writes_nothing; says 'bibkeep: 6 UnbalancedBrace at 15'
when_shell_runs '"$program" cite parents.bib c1 >/dev/full'; ends_with 3; says 'bibkeep: write fault'
