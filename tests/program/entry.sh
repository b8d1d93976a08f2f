# `bibkeep entry`.
# shellcheck shell=sh

given standing.bib '%% mine\n@string{j = {J}}\n@misc(a, t = j # {x}\r\n  ) and @book{B,\n}@comment{k}\n\n@Misc{b, u = 1}'

# Entries as they stand, in the order of the keys; what stands between them is left out.
when entry standing.bib a; ends_with 0; prints '@misc(a, t = j # {x}\r\n  )\n'; says_nothing
when entry standing.bib b A; ends_with 0; prints '@book{B,\n}\n@misc(a, t = j # {x}\r\n  )\n'; says_nothing
when entry standing.bib a a; ends_with 0; prints '@misc(a, t = j # {x}\r\n  )\n@misc(a, t = j # {x}\r\n  )\n'; says_nothing
when entry standing.bib '*'; ends_with 0; prints '@misc(a, t = j # {x}\r\n  )\n@book{B,\n}\n@Misc{b, u = 1}\n'; says_nothing

# Item, line and column.
when entry standing.bib --at '*'; ends_with 0; prints '1\t3\t1\n@misc(a, t = j # {x}\r\n  )\n2\t4\t9\n@book{B,\n}\n4\t7\t1\n@Misc{b, u = 1}\n'; says_nothing
when entry --at standing.bib B a; ends_with 0; prints '2\t4\t9\n@book{B,\n}\n1\t3\t1\n@misc(a, t = j # {x}\r\n  )\n'; says_nothing

# The place is a position of `edit`.
given_edit '%% mine\n@string{j = {J}}\n@misc{a}\n' ''
when edit edited.bib add "$("$program" entry edited.bib --at a | head -n 1 | cut -f 1)" misc z; ends_with 0; leaves '%% mine\n@string{j = {J}}\n@misc{z}\n@misc{a}\n'

# A key that names no entry; nothing is printed.
when entry standing.bib a zz; ends_with 1; prints ''; says 'bibkeep: 11 NoSuchEntry'
when entry standing.bib '*' a; ends_with 1; prints ''; says 'bibkeep: 11 NoSuchEntry'
given none.bib 'no entry\n'
when entry none.bib '*'; ends_with 0; prints ''; says_nothing
when entry none.bib --at '*'; ends_with 0; prints ''; says_nothing
given bad.bib '@misc{a'
when entry bad.bib a; ends_with 1; prints ''; says 'bibkeep: 1 Unended at 7'
when entry standing.bib; ends_with 2
when check standing.bib --at; ends_with 2
