# `bibkeep edit`.
# shellcheck shell=sh

# A file to be edited, to which nothing was done, and the script for it.
given_edit() {
    rm -f edited.bib.bibkeep
    given edited.bib "$1"
    given script "$2"
}

# The edited file is now this one.
leaves() {
    given wanted_file "$1"
    expect 'the file is another one' cmp -s wanted_file edited.bib
}

edit() {
    input=script
    when edit edited.bib
}

given_edit '@misc{a, t = 1,}' 'set\ta\ty\t{2}\ndrop\ta\tq\nset\ta\tz\t3\n'
edit; ends_with 1; prints 'applied 1\n'; says 'bibkeep: line 2: 35 NotFound'; leaves '@misc{a, t = 1,\n  y = {2},}'
given_edit '@misc{a, t = 1,}' 'set\ta\ty\t{2}\nset\tb\tq\t1\nset\ta\tz\t3\n'
edit; ends_with 1; prints 'applied 1\n'; says 'bibkeep: line 2: 35 NotFound'; leaves '@misc{a, t = 1,\n  y = {2},}'
given_edit '@misc{a, t = 1,}' 'set\tb\tq\t1\nset\ta\ty\t{2}\n'
edit; ends_with 1; prints 'applied 0\n'; says 'bibkeep: line 1: 35 NotFound'; leaves '@misc{a, t = 1,}'
given_edit '@misc{a}\n@misc{b}\n' 'add\t1\tbook\tc\ttitle\t{T}\r\n\nremove\ta\nmove\tc\t1'
edit; ends_with 0; prints 'applied 3\n'; says_nothing; leaves '\n\n@misc{b}\n@book{c,\n  title = {T}\n}\n'
given_edit 'x@misc{a}' ''
edit; ends_with 0; prints 'applied 0\n'; says_nothing; leaves 'x@misc{a}'
given_edit '@misc{a}' 'undo\n'
edit; ends_with 1; prints 'applied 0\n'; says 'bibkeep: line 1: 71 BadScript'; leaves '@misc{a}'
given_edit '@misc{a}' 'set\ta\tt\t1\n\nmove\ta\t1234567890\nremove\ta\n'
edit; ends_with 1; prints 'applied 1\n'; says 'bibkeep: line 3: 71 BadScript'; leaves '@misc{a,\n  t = 1}'
given_edit '@misc{a b}' 'remove\ta\n'
edit; ends_with 1; writes_nothing; says 'bibkeep: 4 ExpectedCommaOrClose at 8'; leaves '@misc{a b}'
given_edit '@misc{a}' ''
cp too_long.bib script
edit; ends_with 1; writes_nothing; says 'bibkeep: 9 FileTooLong at 16777216'; leaves '@misc{a}'
given_edit '@inproceedings{c, crossref = {p}}@proceedings{p}' 'remove\tp'
edit; ends_with 1; prints 'applied 0\n'; says 'bibkeep: line 1: 39 Referred'
given_edit '' 'remove\tp\n'
cp parents.bib edited.bib
edit; ends_with 1; prints 'applied 0\n'; says 'bibkeep: line 1: 39 Referred'
expect 'the file is another one' cmp -s parents.bib edited.bib

# An edit sees the crossrefs that the edits before it left.
given_edit '@misc{c}@misc{p}@misc{q}' 'set\tc\tcrossref\t{P}\nremove\tp'
edit; ends_with 1; prints 'applied 1\n'; says 'bibkeep: line 2: 39 Referred'; leaves '@misc{c,\n  crossref = {P}}@misc{p}@misc{q}'
given_edit '@misc{c, crossref = {p}}@misc{p}@misc{q}' 'set\tc\tcrossref\t{q}\nremove\tp\nremove\tq'
edit; ends_with 1; prints 'applied 2\n'; says 'bibkeep: line 3: 39 Referred'; leaves '@misc{c, crossref = {q}}@misc{q}'
given_edit '@misc{c, crossref = {p}}@misc{p}' 'drop\tc\tcrossref\nremove\tp'
edit; ends_with 0; prints 'applied 2\n'; says_nothing; leaves '@misc{c}'

# An entry gets another type, written as in the line; the white space around the old one stays.
given_edit 'x@Misc {a, t = 1}' 'set-type\tA\tArticle'
edit; ends_with 0; prints 'applied 1\n'; says_nothing; leaves 'x@Article {a, t = 1}'
given_edit '@ \n\tmisc(a , t = jan)@misc{b, crossref = {a}}' 'set-type\ta\tbook'
edit; ends_with 0; prints 'applied 1\n'; says_nothing; leaves '@ \n\tbook(a , t = jan)@misc{b, crossref = {a}}'
given_edit '@misc{}@misc{a}' 'set-type\ta\ta.b-c'
edit; ends_with 0; prints 'applied 1\n'; says_nothing; leaves '@misc{}@a.b-c{a}'
given_edit '@misc{a}' 'set-type\ta\tmisc'
edit; ends_with 0; prints 'applied 1\n'; says_nothing; leaves '@misc{a}'
for type in string Preamble COMMENT 1a 'a b' a@b a{ ''; do
    given_edit '@misc{a}' "set-type\\ta\\t$type"
    edit; ends_with 1; prints 'applied 0\n'; says 'bibkeep: line 1: 32 BadName'; leaves '@misc{a}'
done
given_edit '@misc{a}' 'set-type\tb\tstring'
edit; ends_with 1; prints 'applied 0\n'; says 'bibkeep: line 1: 32 BadName'
given_edit '@misc{a}' 'set-type\tb\tbook'
edit; ends_with 1; prints 'applied 0\n'; says 'bibkeep: line 1: 35 NotFound'
given_edit '@misc{a}@misc{A}' 'set-type\ta\tbook'
edit; ends_with 1; prints 'applied 0\n'; says 'bibkeep: line 1: 36 Ambiguous'
given_edit '@misc{a}' 'set-type\ta'
edit; ends_with 1; prints 'applied 0\n'; says 'bibkeep: line 1: 71 BadScript'
given_edit '@misc{a}' 'set-type\ta\tbook\tx'
edit; ends_with 1; prints 'applied 0\n'; says 'bibkeep: line 1: 71 BadScript'

# A number tells which of several entries, fields or definitions is meant.
given_edit '@string{p={A}}@misc{a,t=p}@string{P={B}}@misc{A,t=p}@misc{c,crossref={a}}' 'set\ta,2\tt\t1\nset-macro\tp,1\t{C}\nundefine\tp,2\nrename-key\ta,1\tb\nmove\ta,1\tafter:b\n'
edit; ends_with 0; prints 'applied 5\n'; says_nothing; leaves '@string{p={C}}@misc{b,t=p}@misc{A,t=1}\n@misc{c,crossref={b}}'
given_edit '@misc{a,t=1,t=2}@misc{a}@misc{a}' 'drop\ta,1\tt,2\nremove\ta,3\nremove\ta,2\nremove\ta,2'
edit; ends_with 1; prints 'applied 3\n'; says 'bibkeep: line 4: 35 NotFound'; leaves '@misc{a,t=1}'

# Each edit of the second of a name, and an undo of it.
macros='@string{m = {one}}\n@string{M = {two}}\n'
one='@misc{a, t = 1, T = 2}\n'
child='@misc{c, crossref = {A}}\n'
two='@misc{A, t = 3}\n'
leads_to() {
    led=$1
    shift
    given_edit "$macros$one$child$two" ''
    when edit edited.bib "$@"; ends_with 0; prints 'applied 1\n'; says_nothing; leaves "$led"
    when undo edited.bib; ends_with 0; prints 'undone 1\n'; says_nothing; leaves "$macros$one$child$two"
}
leads_to "$macros$one$child@misc{A, t = 4}\n" set a,2 t 4
leads_to "$macros@misc{a, t = 1, T = 4}\n$child$two" set a,1 t,2 4
leads_to "$macros$one$child@misc{A, t = 3,\n  u = 4}\n" set a,2 u 4
leads_to "$macros$one$child@misc{A}\n" drop a,2 t
leads_to "$macros@misc{a, t = 1}\n$child$two" drop a,1 t,2
leads_to "$macros$one$child\n" remove a,2
leads_to "$two$macros$one$child\n" move a,2 0
leads_to "$macros$one$two$child\n" move A,2 before:c
leads_to "$macros$one\n$two$child" move c after:a,2
leads_to "$macros$one$child@book{A, t = 3}\n" set-type a,2 book
leads_to "$macros@misc{d, t = 1, T = 2}\n@misc{c, crossref = {d}}\n$two" rename-key a,1 d
leads_to "$macros$one$child@misc{A, u = 3}\n" rename-field T u a,2
leads_to "@string{m = {one}}\n@string{M = {x}}\n$one$child$two" set-macro m,2 '{x}'
leads_to "\n@string{M = {two}}\n$one$child$two" undefine M,1
leads_to "@string{m = {one}}\n\n$one$child$two" undefine m,2
leads_to "$macros$one$child@misc{d, t = 3}\n" rename-key a,2 d
when redo edited.bib; ends_with 0; prints 'redone 1\n'; leaves "$macros$one$child@misc{d, t = 3}\n"
when log edited.bib; ends_with 0; prints 'done 1 1 1 rename-key a,2 d\n'

# Not so many, no such number, a name that takes none, and no number where one is needed.
given_edit "$macros$one$child$two" ''
each_says() {
    fault=$1
    shift
    for words; do
        # shellcheck disable=SC2086
        when edit edited.bib $words; ends_with 1; prints 'applied 0\n'; says "bibkeep: $fault"
    done
}
each_says '35 NotFound' 'set a,3 t 4' 'set a,2 t,2 4' 'drop a,3 t' 'drop a,1 t,3' 'drop a,2 u' 'remove a,3' 'move a,3 0' \
    'set-type a,3 book' 'rename-key a,3 d' 'rename-field t u a,3' 'rename-field u v a,2' 'set-macro m,3 {x}' 'undefine m,3'
each_says '35 NotFound' 'set a,0 t 4' 'drop a,0 t' 'remove a,0' 'remove a,02' 'remove a,' 'remove a,2,2' 'remove ,2' 'remove a,1234567890' \
    'move a,0 0' 'set-type a,0 book' 'rename-key a,0 d' 'rename-field t u a,0' 'move c after:a,3' 'add before:a,0 misc d'
each_says '32 BadName' 'set a,1 t,0 4' 'drop a t,0' 'set-macro m,0 {x}' 'undefine m,0' 'inline m,2' 'rename-macro m,2 n' 'rename-macro m n,2' \
    'define m,2 {x}' 'introduce n,2 two' 'rename-field t,2 u a,1' 'rename-field t u,2 a,1' 'add 0 misc d t,2 1'
each_says '31 BadKey' 'rename-key c a,2' 'rename-key a,2 d,2' 'add 0 misc a,2'
each_says '36 Ambiguous' 'set a t 4' 'set a t,2 4' 'set a,1 t 4' 'drop a t,2' 'drop a,1 t' 'remove a' 'move a 0' 'set-type a book' 'rename-key a d' \
    'rename-field t u a' 'rename-field t u a,1' 'set-macro m {x}' 'undefine m' 'inline m' 'rename-macro m n'
each_says '37 KeyInUse' 'rename-key a,2 c' 'rename-key a,2 a' 'rename-key a,1 A'
each_says '39 Referred' 'remove a,1'
leaves "$macros$one$child$two"
given_edit '@string{m=1}@misc{a,t=m}@string{m=2}@misc{b,t=m}' ''
each_says '39 Referred' 'undefine m,1' 'undefine m,2'
given_edit '@misc{a} x @book@misc(a,t=1){b}' ''
each_says '40 WouldMerge' 'drop a,2 t' 'remove a,2' 'move a,2 0'
given_edit '@string{m=1}@string{m=2 # m}@misc{b,t=m}' ''
when edit edited.bib undefine m,1; ends_with 0; prints 'applied 1\n'; says_nothing; leaves '@string{m=2 # m}@misc{b,t=m}'

# After an edit the numbers are those of the new file; a script is stored whole or not at all.
given_edit "$macros$one$child$two" 'remove\ta,2\nremove\ta,2\n'
input=script
when edit edited.bib --all-or-nothing; ends_with 1; prints 'applied 0\n'; says 'bibkeep: line 2: 35 NotFound'; leaves "$macros$one$child$two"
given script 'drop\ta,1\tt,2\nset\ta,2\tt,1\t{x}\nset-macro\tM,2\t{y}\n'
input=script
when edit edited.bib --all-or-nothing; ends_with 0; prints 'applied 3\n'; says_nothing
leaves "@string{m = {one}}\n@string{M = {y}}\n@misc{a, t = 1}\n$child@misc{A, t = {x}}\n"
when undo edited.bib --steps 3; ends_with 0; prints 'undone 3\n'; leaves "$macros$one$child$two"

# Only the line that was asked for differs.
given_edit '@string{m = 1}\n@Article( a ,\n\tT = {x}  # m,\n  y="z" ,\n)\ntail @ end\n' 'set\tA\ty\t{w}\n'
cp edited.bib before.bib
edit; ends_with 0; prints 'applied 1\n'; says_nothing
when_shell_runs 'diff -U 0 before.bib edited.bib | grep -c "^[-+][^-+]"'; prints '2\n'

# The file keeps its permissions, and a symbolic link its place.
given_edit '@misc{a}' 'set\ta\tt\t1\n'
chmod 640 edited.bib
mkdir -p elsewhere
mv edited.bib elsewhere/real.bib
ln -s elsewhere/real.bib edited.bib
edit; ends_with 0; prints 'applied 1\n'; says_nothing; leaves '@misc{a,\n  t = 1}'
when_shell_runs 'test -h edited.bib && stat -c %a elsewhere/real.bib && ls elsewhere'; prints '640\nreal.bib\nreal.bib.bibkeep\n'
rm edited.bib

# What an earlier run left over is no hindrance.
given_edit '@misc{a}' 'set\ta\tt\t1\n'
given edited.bib.bibkeep-new 'left over'
edit; ends_with 0; prints 'applied 1\n'; says_nothing; leaves '@misc{a,\n  t = 1}'
when_shell_runs 'test ! -e edited.bib.bibkeep-new'; ends_with 0
given_edit '@misc{a}' 'set\ta\tt\t1\n'
given other 'another file'
ln -s other edited.bib.bibkeep-new
edit; ends_with 0; prints 'applied 1\n'; says_nothing; leaves '@misc{a,\n  t = 1}'
when_shell_runs 'test ! -h edited.bib && cat other'; prints 'another file'

# As many changes are kept as can be undone.
limit_script() {
    given_edit '@misc{a, t = 1,}' ''
    { yes "$(printf 'set\ta\tt\t1')" | head -n 65535; printf "$1"; } >script
    edit; ends_with 1; prints 'applied 65535\n'; says "bibkeep: line 65536: $2"; leaves '@misc{a, t = 1,}'
}
limit_script 'set\ta\tt\t1\n' '41 JournalFull'
limit_script 'set\ta\tt\t{x\n' '33 BadValue'

# What cannot be opened, read or written is a fault.
when edit nothing.bib; ends_with 3; writes_nothing; says 'bibkeep: read fault'
given_edit '@misc{a}' ''
if can keep_streams_closed; then
    when_shell_runs '"$program" edit edited.bib <&-'; ends_with 3; writes_nothing; says 'bibkeep: read fault'; leaves '@misc{a}'
    expect 'a journal was left' test ! -e edited.bib.bibkeep
fi
when_shell_runs 'mkfifo pipe.bib; printf "@misc{a}" >pipe.bib & printf "set\ta\tt\t1\n" | "$program" edit pipe.bib; status=$?; test -p pipe.bib && exit $status'
ends_with 3; says 'bibkeep: write fault'

# What edits make: the file, the script and the file afterwards.
makes() {
    given_edit "$1" "$2"
    edit
    case="edit $2 of $1"
    ends_with 0
    leaves "$3"
}

makes '@misc{a, t = 1,}' 'set\ta\ty\t{2}' '@misc{a, t = 1,\n  y = {2},}'
makes '@misc{a, t = 1,}' 'set\tA\tT\t"x"' '@misc{a, t = "x",}'
makes '@misc{a}' 'set\ta\tt\t1' '@misc{a,\n  t = 1}'
makes '@misc{a , }' 'set\ta\tt\t1' '@misc{a,\n  t = 1 , }'
makes '@misc{a, t = 1,}' 'drop\ta\tT' '@misc{a,}'
makes '@misc(a, t=1 )' 'drop\ta\tt' '@misc(a )'
makes '@misc{a, t = 1, u = 2 , v = 3}' 'drop\ta\tu' '@misc{a, t = 1 , v = 3}'
makes '@misc{a}\n@misc{b}\n' 'add\t1\tbook\tc\ttitle\t{T}' '@misc{a}\n@book{c,\n  title = {T}\n}\n@misc{b}\n'
makes '@misc{a}\n@misc{b}\n' 'add\t2\tmisc\tc' '@misc{a}\n@misc{b}\n@misc{c}\n'
makes '' 'add\t0\tmisc\tc\tt\t1\tu\tx # y' '@misc{c,\n  t = 1,\n  u = x # y\n}\n'
makes 'front\n' 'add\t0\tmisc\tc' 'front\n@misc{c}\n'
makes '@misc{a}@misc{b, crossref = {Z}}' 'add\t0\tmisc\tz' '@misc{z}\n@misc{a}@misc{b, crossref = {Z}}'
makes 'abc@misc{k}' 'remove\tk' 'abc'
makes 'abc@misc{k}def@misc{l}' 'remove\tK' 'abcdef@misc{l}'
makes '@misc{a}x@misc{b}y' 'remove\tb' '@misc{a}xy'
makes '@comment@misc{k} s' 'remove\tk' '@comment s'
makes '@misc{a}\n@misc{b}\n' 'move\ta\t1' '\n@misc{b}\n@misc{a}\n'
makes '@misc{a}\n@misc{b}\n' 'move\tb\t0' '@misc{b}\n@misc{a}\n\n'
makes '@misc{a}\n@misc{b}\n' 'move\ta\t0' '\n@misc{a}\n@misc{b}\n'

# Why edits are refused: the number, its name, the file and the script. A refused edit changes nothing.
refuses() {
    given_edit "$3" "$4"
    edit
    case="edit $4 of $3"
    ends_with 1
    says "bibkeep: line 1: $1 $2"
    leaves "$3"
}

two='@misc{a}\n@misc{b}\n'
refuses 31 BadKey "$two" 'add\t0\tmisc\tb c'
refuses 31 BadKey "$two" 'add\t0\tmisc\t'
refuses 32 BadName "$two" 'set\ta\t1\t{2}'
refuses 32 BadName "$two" 'drop\ta\t1'
refuses 32 BadName "$two" 'add\t0\tstring\tc'
refuses 32 BadName "$two" 'add\t0\tString\tc'
refuses 33 BadValue "$two" 'set\ta\tt\t{x'
refuses 33 BadValue "$two" 'set\tzz\tt\t{x'
refuses 33 BadValue "$two" 'set\ta\tt\t'
refuses 34 BadPosition "$two" 'add\t3\tmisc\tc'
refuses 34 BadPosition "$two" 'move\ta\t2'
refuses 34 BadPosition "$two" 'move\tzz\t3'
refuses 35 NotFound "$two" 'move\tzz\t2'
refuses 35 NotFound "$two" 'drop\ta\tq'
refuses 35 NotFound "$two" 'set\tzz\tt\t1'
refuses 35 NotFound "$two" 'remove\tzz'
refuses 35 NotFound '@misc{}' 'remove\t'
refuses 35 NotFound '@misc{a}@misc{a,t=1}' 'drop\ta\tt'
refuses 36 Ambiguous '@misc{a,t=1}@misc{a}' 'drop\ta\tt'
refuses 36 Ambiguous '@misc{a, t = u, T = 1}@misc{A}' 'set\ta\tt\t2'
refuses 36 Ambiguous "$two" 'add\t0\tmisc\tc\tt\t1\tT\t2'
refuses 37 KeyInUse "$two" 'add\t0\tmisc\tA'
refuses 39 Referred '@string{s={p}}@misc{c,crossref=s}@misc{p}' 'remove\tp'
refuses 40 WouldMerge '@misc(a, t=1)' 'drop\ta\tt'
refuses 40 WouldMerge 'a@foo \n@misc{k}{b' 'remove\tk'
refuses 40 WouldMerge '@comment@misc{k}s' 'remove\tk'
refuses 40 WouldMerge '@comment@misc{k}s' 'move\tk\t0'
