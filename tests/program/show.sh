# `bibkeep show`.
# shellcheck shell=sh

given parents.bib '@inproceedings{c1, title = {One}, crossref = {p}}\n@inproceedings{c2, title = {Two}, crossref = {P}}\n@inproceedings{c3, title = {Three}, crossref = {p}}\n@proceedings{p, title = {Proc}, booktitle = {Proc}, year = 2001}\n'
given macros.bib '@string{p={A}}@misc{a,t=p}@string{p={B}}@misc{b,t=p}'

# An entry, with what it inherits.
when show parents.bib c1; ends_with 0; prints '@inproceedings c1\ntitle = One\nbooktitle = Proc\nyear = 2001\ncrossref = p\n'; says_nothing
when show parents.bib C2; ends_with 0; prints '@inproceedings c2\ntitle = Two\nbooktitle = Proc\nyear = 2001\ncrossref = p\n'; says_nothing
when show parents.bib p; ends_with 0; prints '@proceedings p\ntitle = Proc\nbooktitle = Proc\nyear = 2001\n'; says_nothing
when show crossrefs.bib a; ends_with 0; prints '@misc a\n'; says_nothing
when show crossrefs.bib d; ends_with 0; prints '@misc d\n'; says_nothing
when show macros.bib A; ends_with 0; prints '@misc a\nt = A\n'; says_nothing
when show macros.bib b; ends_with 0; prints '@misc b\nt = B\n'; says_nothing

# A chain of parents, and a ring of three.
given ring.bib '@misc{c,crossref={b}}@misc{b,x=1,crossref={a}}@misc{a,x=2,y=3,crossref={c}}'
when show ring.bib c; ends_with 0; prints '@misc c\nx = 1\ncrossref = b\n'; says_nothing
when show ring.bib c --depth 1; ends_with 0; prints '@misc c\nx = 1\ncrossref = b\n'; says_nothing
when show ring.bib c --depth 2; ends_with 0; prints '@misc c\nx = 1\ny = 3\ncrossref = b\n'; says_nothing
when show ring.bib c --depth 8; ends_with 0; prints '@misc c\nx = 1\ny = 3\ncrossref = b\n'; says_nothing
when show ring.bib a --depth 8; ends_with 0; prints '@misc a\nx = 2\ny = 3\ncrossref = c\n'; says_nothing

shows() { given shown.bib "$1"; when show shown.bib "$2"; case="show $2 of $1"; ends_with 0; prints "$3"; says_nothing; }

shows '@Misc{K, Title = { A \n\tb }, title = {c}}@misc{k}' k '@misc K\ntitle = A b\n'
shows '@string{jan = jan # { x}}@misc{a, month = jan}' a '@misc a\nmonth = x\n'
shows '@misc{*}' '*' '@misc *\n'

# A macro that is defined again and again: an entry sees what stands last before it.
again='@string{p={A}}@misc{a,t=p}@string{P={B}}@misc{b,t=p}@string{p={C}}@misc{c,t=P}@string{p={D}}@misc{d,t=p}'
shows "$again" a '@misc a\nt = A\n'
shows "$again" b '@misc b\nt = B\n'
shows "$again" c '@misc c\nt = C\n'
shows "$again" d '@misc d\nt = D\n'

# No entry has the key.
when show macros.bib zz; ends_with 1; writes_nothing; says 'bibkeep: 11 NoSuchEntry'
when show empty.bib a; ends_with 1; writes_nothing; says 'bibkeep: 11 NoSuchEntry'
when show newline.bib a; ends_with 1; writes_nothing; says 'bibkeep: 6 UnbalancedBrace at 15'
