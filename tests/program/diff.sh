# `bibkeep diff`: the edits that lead from one file to another.
# shellcheck shell=sh

# An entry goes, one comes, and a field is set.
given mine.bib '@misc{a, t = 1}\n@misc{b}\n'
given theirs.bib '@misc{a, t = {2}}\n\n@book{c, u = 1}\n'
when diff mine.bib theirs.bib; ends_with 1; prints 'remove\tb\nadd\t1\tbook\tc\tu\t1\nset\ta\tt\t{2}\n'; says_nothing

# The edits lead from the one file to the other, and then there is no difference. Neither file changes until then.
when_shell_runs '"$program" diff mine.bib theirs.bib | "$program" edit mine.bib'; ends_with 0; prints 'applied 3\n'; says_nothing
when cat theirs.bib; ends_with 0; prints '@misc{a, t = {2}}\n\n@book{c, u = 1}\n'
when diff mine.bib theirs.bib; ends_with 0; writes_nothing; says_nothing
when diff theirs.bib mine.bib; ends_with 0; writes_nothing; says_nothing
when undo mine.bib --steps 3; ends_with 0; prints 'undone 3\n'
when_shell_runs '{ printf "group\ttheirs\n"; "$program" diff mine.bib theirs.bib; echo end; } | "$program" edit mine.bib && "$program" log mine.bib | wc -l | tr -d " "'; ends_with 0; prints 'applied 3\n1\n'; says_nothing
when diff mine.bib theirs.bib; ends_with 0; writes_nothing; says_nothing
rm -f mine.bib.bibkeep

# An entry that says the same has another key.
given mine.bib '@misc{p, t = 1}@misc{c, crossref={p}}'
given theirs.bib '@misc{q,T={1}}@misc{c, crossref = "Q"}'
when diff mine.bib theirs.bib; ends_with 1; prints 'rename-key\tp\tq\nset\tc\tcrossref\t"Q"\n'; says_nothing
when_shell_runs '"$program" diff mine.bib theirs.bib | "$program" edit --print mine.bib >made.bib && "$program" diff made.bib theirs.bib'; ends_with 0; writes_nothing; says_nothing

# A macro that says something else in the old file is not used; a value of two lines is written in one.
given mine.bib '@string{m={A}}@misc{a,t=m}'
given theirs.bib '@string{m={B}}@misc{a,t=m}'
when diff mine.bib theirs.bib; ends_with 1; prints 'set\ta\tt\t{B}\n'; says_nothing
given mine.bib '@misc{a}'
given theirs.bib '@misc{a,t={x\ny}}'
when diff mine.bib theirs.bib; ends_with 1; prints 'set\ta\tt\t{x y}\n'; says_nothing

# The order of entries counts.
given mine.bib '@misc{a}@misc{b}@misc{c}'
given theirs.bib '@misc{c}@misc{a}@misc{b}'
when diff mine.bib theirs.bib; ends_with 1; prints 'move\tc\t0\n'; says_nothing

# An entry with another type goes and comes again, and its children refer to it again.
given mine.bib '@misc{c,crossref={p}}@misc{p,t=1}'
given theirs.bib '@misc{c,crossref={p}}@book{p,t=1}'
when diff mine.bib theirs.bib; ends_with 1; prints 'drop\tc\tcrossref\nremove\tp\nadd\t1\tbook\tp\tt\t1\nset\tc\tcrossref\t{p}\n'; says_nothing
when_shell_runs '"$program" diff mine.bib theirs.bib | "$program" edit --print mine.bib >made.bib && "$program" diff made.bib theirs.bib'; ends_with 0; writes_nothing; says_nothing

# White space, delimiters, comments and the order of fields are no difference.
given mine.bib '@misc{a,t={x  y}}'
given theirs.bib '%% new\n@misc{a,\n  t = "x\ny" ,\n}'
when diff mine.bib theirs.bib; ends_with 0; writes_nothing; says_nothing
given mine.bib '@misc{a,t=1,u=2}'
given theirs.bib '@misc{a,u=2,t=1}'
when diff mine.bib theirs.bib; ends_with 0; writes_nothing; says_nothing
when diff mine.bib mine.bib; ends_with 0; writes_nothing; says_nothing

# No edits are found: the entry at fault is named, if it has a key.
given mine.bib '@misc{a}@misc{a}'
given theirs.bib '@misc{a}'
when diff mine.bib theirs.bib; ends_with 1; writes_nothing; says 'bibkeep: 46 NoScript in a'
given mine.bib '@misc{a}'
given theirs.bib '@misc{a}@misc{}'
when diff mine.bib theirs.bib; ends_with 1; writes_nothing; says 'bibkeep: 46 NoScript'
when explain NoScript; ends_with 0; says_nothing

# A file that is not valid is named, the old one first; then a file that cannot be read.
given open.bib '@misc{'
given commas.bib '@misc{a,,}'
when diff open.bib mine.bib; ends_with 1; writes_nothing; says 'bibkeep: 1 Unended at 6 in open.bib'
when diff mine.bib open.bib; ends_with 1; writes_nothing; says 'bibkeep: 1 Unended at 6 in open.bib'
when diff commas.bib open.bib; ends_with 1; writes_nothing; says 'bibkeep: 2 ExpectedName at 8 in commas.bib'
when diff mine.bib nothing.bib; ends_with 3; writes_nothing; says 'bibkeep: read fault in nothing.bib'
when diff nothing.bib mine.bib; ends_with 3; writes_nothing; says 'bibkeep: read fault in nothing.bib'
when diff mine.bib .; ends_with 3; writes_nothing; says 'bibkeep: read fault in .'

# Each file may be as long as any, but no longer.
when_shell_runs '{ printf "@misc{a}"; head -c 16777208 /dev/zero; } >full.bib && "$program" diff full.bib mine.bib'; ends_with 0; writes_nothing; says_nothing
when_shell_runs 'printf x >>full.bib; "$program" diff full.bib mine.bib'; ends_with 1; writes_nothing; says 'bibkeep: 9 FileTooLong at 16777216 in full.bib'
when_shell_runs '"$program" diff mine.bib full.bib'; ends_with 1; writes_nothing; says 'bibkeep: 9 FileTooLong at 16777216 in full.bib'
rm -f full.bib

# Both files are arguments, and standard input is not read, but it may be one of them.
when diff mine.bib; ends_with 2; writes_nothing
when diff mine.bib mine.bib mine.bib; ends_with 2; writes_nothing
when diff --print mine.bib mine.bib; ends_with 2; writes_nothing
when_shell_runs '"$program" diff mine.bib mine.bib <&-'; ends_with 0; writes_nothing; says_nothing
if [ -e /dev/stdin ]; then
    when_shell_runs 'printf "@misc{a,t=1}" | "$program" diff mine.bib /dev/stdin'; ends_with 1; prints 'set\ta\tt\t1\n'; says_nothing
fi
if [ -e /dev/full ]; then
    when_shell_runs '"$program" diff mine.bib commas.bib >/dev/full'; ends_with 1; says 'bibkeep: 2 ExpectedName at 8 in commas.bib'
    when_shell_runs 'printf "@misc{a,t=1}" >more.bib; "$program" diff mine.bib more.bib >/dev/full'; ends_with 3; says 'bibkeep: write fault'
fi
rm -f open.bib commas.bib more.bib made.bib mine.bib theirs.bib
