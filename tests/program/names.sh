# `bibkeep labels` and `bibkeep names`.
# shellcheck shell=sh

given books.bib '@misc{Lam86, author = {Donald E. Knuth}, year = 1984}\n@misc{Knu84, author = {Leslie Lamport}, year = 1986, crossref = {lam86}}\n'
given twice.bib '@misc{a, author={Ann Bee}, year=1999}@misc{b, author={Ann Bee}, year=1999}@misc{c}'
given commas.bib '@misc{a, author = {Ann B. Cee and a, b, c, d}, editor = {Ann}}'
given editor.bib '@misc{a, author = { }, editor = {Ann B. Cee and Dan Eff}}'

# A label and the key, a line for each entry.
when labels books.bib Lam86 knu84; ends_with 0; prints 'Knu84\tLam86\nLam86\tKnu84\n'; says_nothing
when labels twice.bib b a c; ends_with 0; prints 'Bee99a\tb\nBee99b\ta\nanon\tc\n'; says_nothing
when labels parents.bib c1 c2; ends_with 0; prints 'anon01a\tc1\nanon01b\tc2\nanon01c\tp\n'; says_nothing
when labels books.bib zz; ends_with 1; writes_nothing; says 'bibkeep: 11 NoSuchEntry'
when labels books.bib Lam86 zz; ends_with 1; writes_nothing; says 'bibkeep: 11 NoSuchEntry'
when labels newline.bib a; ends_with 1; writes_nothing; says 'bibkeep: 6 UnbalancedBrace at 15'

# The names of the authors, or else of the editors, a line each.
when names books.bib Lam86 '{f. }{vv~}{ll}'; ends_with 0; prints 'D.~E. Knuth\n'; says_nothing
when names editor.bib a '{ll}{, f.}'; ends_with 0; prints 'Cee, A.~B.\nEff, D.\n'; says_nothing
when names crossrefs.bib b '{ll}'; ends_with 0; writes_nothing; says_nothing

# The key is judged first, then the template, then the names.
when names books.bib zz '{fx}'; ends_with 1; writes_nothing; says 'bibkeep: 11 NoSuchEntry'
when names books.bib Lam86 '{fx}'; ends_with 1; writes_nothing; says 'bibkeep: 23 BadTemplate'
when names commas.bib a '{ll}'; ends_with 1; writes_nothing; says 'bibkeep: 21 TooManyCommas'
