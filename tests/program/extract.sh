# `bibkeep extract`, and the option `--aux` of the commands over keys.
# shellcheck shell=sh

given whole.bib 'Private notes.\n@string{p = {Press}}@string{q = {Quarto}}\n@preamble{"\\x" # q}\n%% read this\n@inproceedings{c1, title = {One}, crossref = {V}} %% mine\n@inproceedings{c2, title = {Two}, crossref = {v}}\n\n@proceedings{v, publisher = p, crossref = {s}}\n\n@comment{old}\n@misc{s, year = 2001}\n@misc{z}\n'
part='@string{p = {Press}}\n@string{q = {Quarto}}\n@preamble{"\\x" # q}\n@inproceedings{c1, title = {One}, crossref = {V}}\n@proceedings{v, publisher = p, crossref = {s}}\n\n@misc{s, year = 2001}\n'

# The entry with all its parents, the preamble, and the macros that these use, each on lines of its own; again, it is the same.
when extract whole.bib C1; ends_with 0; prints "$part"; says_nothing
when_shell_runs '"$program" extract whole.bib c1 >part.bib && "$program" extract part.bib c1 | cmp - part.bib'; ends_with 0; writes_nothing; says_nothing

# A use sees the last definition before it, and a month that is defined later is a month.
given twice.bib '@string{p={A}}@misc{a,t=p}@string{p={B}}@misc{b,t=p}'
when extract twice.bib a; ends_with 0; prints '@string{p={A}}\n@misc{a,t=p}\n'
when extract twice.bib b; ends_with 0; prints '@string{p={B}}\n@misc{b,t=p}\n'
given month.bib '@misc{a,month=jan}@string{jan=jan#{x}}@misc{b,month=jan}'
when extract month.bib a; ends_with 0; prints '@misc{a,month=jan}\n'
when extract month.bib b; ends_with 0; prints '@string{jan=jan#{x}}\n@misc{b,month=jan}\n'

# A ring of parents is kept once.
given ring.bib '@misc{a,crossref={b}}@misc{b,crossref={a}}@misc{c}'
when extract ring.bib a; ends_with 0; prints '@misc{a,crossref={b}}\n@misc{b,crossref={a}}\n'

# The first key that finds nothing is named, and nothing is printed.
when extract whole.bib c1 zz yy; ends_with 1; writes_nothing; says 'bibkeep: 11 NoSuchEntry in zz'

# An asterisk alone keeps all entries, a repeated one too.
given repeated.bib '@misc{a}@comment{x}@misc{A,t=1}@string{m=1}'
when extract repeated.bib '*'; ends_with 0; prints '@misc{a}\n@misc{A,t=1}\n'; says_nothing
given text.bib 'x@comment y'
when extract text.bib '*'; ends_with 0; writes_nothing; says_nothing

# A file that cannot be read, or opened.
when extract newline.bib a; ends_with 1; writes_nothing; says 'bibkeep: 6 UnbalancedBrace at 15'
when extract nothing.bib a; ends_with 3; writes_nothing; says 'bibkeep: read fault'

# The extract can be longer than a file may be, by a line feed for each item.
when_shell_runs 'yes "@misc{a}" | tr -d "\n" | head -c 16777216 >full.bib && "$program" extract full.bib "*"'; ends_with 1; writes_nothing; says 'bibkeep: 9 FileTooLong'
when_shell_runs '"$program" extract full.bib a'; ends_with 0; prints '@misc{a}\n'; says_nothing
rm -f full.bib

# ---- `--aux`

given paper.aux '\\relax \n\\citation{c1}\n\\citation{c2,v}\r\n\\bibdata{strings,refs}\n\\bibstyle{plain}\n \\citation{no}\n\\citation{a b}\n\\citation{d} x\n'
when cite whole.bib --aux paper.aux; ends_with 0; prints 'c1\tv\nc2\tv\nv\n'; says_nothing
when cite --aux paper.aux whole.bib s; ends_with 0; prints 's\nc1\tv\nc2\tv\nv\ts\n'; says_nothing
when_shell_runs '"$program" extract whole.bib --aux paper.aux >by_aux.bib && "$program" extract whole.bib c1 c2 v | cmp - by_aux.bib'; ends_with 0; writes_nothing; says_nothing
when_shell_runs 'for command in labels json ris; do "$program" $command whole.bib --aux paper.aux >by_aux && "$program" $command whole.bib c1 c2 v | cmp - by_aux; done'; ends_with 0; writes_nothing; says_nothing
when extract whole.bib --aux=paper.aux zz; ends_with 1; writes_nothing; says 'bibkeep: 11 NoSuchEntry in zz'

# A cited asterisk cites all, whatever else is cited.
given all.aux '\\citation{c1}\n\\citation{*}\n'
when cite whole.bib zz --aux all.aux; ends_with 0; prints 'c1\tv\nc2\tv\nv\ts\ns\nz\n'; says_nothing

# Without a citation there is no key.
given empty.aux '\\relax \n'
when extract whole.bib --aux empty.aux; ends_with 0; prints '@string{q = {Quarto}}\n@preamble{"\\x" # q}\n'; says_nothing
when cite whole.bib --aux empty.aux; ends_with 0; writes_nothing; says_nothing
if [ -e /dev/stdin ]; then
    when_shell_runs 'printf "\\\\citation{z}\n" | "$program" cite whole.bib --aux /dev/stdin'; ends_with 0; prints 'z\n'; says_nothing
fi

# Files that aux files name lie in the folder of the first one, and each is read once.
mkdir -p thesis/chapters
given thesis/main.aux '\\relax \n\\@input{chapters/one.aux}\n\\citation{z}\n\\@input{chapters/two.aux}\n\\@input{main.aux}\n'
given thesis/chapters/one.aux '\\citation{c1}\n\\@input{./main.aux}\n\\@input{chapters/one.aux}\n'
given thesis/chapters/two.aux '\\citation{s}\n'
when cite whole.bib --aux thesis/main.aux; ends_with 0; prints 'z\nc1\ns\n'; says_nothing
when_shell_runs 'cd thesis && "$program" cite ../whole.bib --aux main.aux --aux main.aux'; ends_with 0; prints 'z\nc1\ns\n'; says_nothing
given thesis/ring.aux '\\citation{z}\n\\@input{ring.aux}\n'
when cite whole.bib --aux thesis/ring.aux --aux paper.aux; ends_with 0; prints 'z\nc1\tv\nc2\tv\nv\n'; says_nothing

# An aux file that is missing, too long, or no regular file although another names it.
when cite whole.bib --aux none.aux; ends_with 3; writes_nothing; says 'bibkeep: read fault in none.aux'
when cite whole.bib --aux .; ends_with 3; writes_nothing; says 'bibkeep: read fault in .'
when cite whole.bib --hints --aux .; ends_with 3; complains_of '  .: it is a folder'
given thesis/lost.aux '\\@input{none.aux}\n'
when cite whole.bib --aux thesis/lost.aux; ends_with 3; writes_nothing; says 'bibkeep: read fault in thesis/none.aux'
when cite whole.bib --hints --aux thesis/lost.aux; ends_with 3; complains_of '  thesis/none.aux: there is no such file'
given thesis/device.aux '\\@input{/dev/zero}\n'
when cite whole.bib --aux thesis/device.aux; ends_with 3; writes_nothing; says 'bibkeep: read fault in /dev/zero'
if can make_pipes && mkfifo thesis/pipe.aux 2>/dev/null; then
    given thesis/waits.aux '\\@input{pipe.aux}\n'
    when cite whole.bib --aux thesis/waits.aux; ends_with 3; writes_nothing; says 'bibkeep: read fault in thesis/pipe.aux'
fi
when cite whole.bib --aux /dev/zero; ends_with 1; writes_nothing; says 'bibkeep: 9 FileTooLong at 16777216 in /dev/zero'
given thesis/odd.aux '\\citation{\377\033[2J}\n'
when_shell_runs '"$program" extract whole.bib --aux thesis/odd.aux 2>&1 | cat -v'; prints 'bibkeep: 11 NoSuchEntry in M-^?^[[2J\n'

# ---- `--strict`

when cite whole.bib --strict c1 zz; ends_with 1; prints 'c1\n? zz\n'; says_nothing
when cite whole.bib --strict c1; ends_with 0; prints 'c1\n'; says_nothing
when cite --strict whole.bib '*'; ends_with 0; says_nothing
when labels whole.bib --strict c1; ends_with 2; writes_nothing; complains_of "'--strict'"

# ---- words

when extract whole.bib; ends_with 2; writes_nothing; complains_of '<KEY>'
when cite whole.bib; ends_with 2; writes_nothing; says 'error: the following required arguments were not provided:
  <KEY>...

Usage: bibkeep cite <F> <KEY>...

For more information, try '"'--help'."
when extract; ends_with 2; writes_nothing; complains_of '<F>'
when extract whole.bib --aux; ends_with 2; writes_nothing; complains_of '--aux'
when show whole.bib --aux paper.aux c1; ends_with 2; writes_nothing; complains_of "'--aux'"
when extract whole.bib --depth 2 c1; ends_with 2; writes_nothing; complains_of "'--depth'"
