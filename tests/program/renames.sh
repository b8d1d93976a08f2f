# `bibkeep edit` with lines that rename keys, fields and macros, inline, introduce, define and undefine macros, give them values, and
# make keys.
# shellcheck shell=sh

two='@misc{a}\n@misc{b}\n'
month='@string{jan = jan # { x}}@misc{a, month = jan}'
parts='@string{conf={conf}}@misc{conf95}@misc{b, crossref = conf # {95}}'
uses='@misc{a, t = m}@string{m = 1}@misc{b, t = m}'
crossed='@misc{Lam86, author = {Donald E. Knuth}, year = 1984}\n@misc{Knu84, author = {Leslie Lamport}, year = 1986, crossref = {lam86}}\n'
made='@misc{Knu84, author = {Donald E. Knuth}, year = 1984}\n@misc{Lam86, author = {Leslie Lamport}, year = 1986, crossref = {Knu84}}\n'
chain='@misc{p,crossref={q}}@misc{q,crossref={r}}@misc{r,year=1999}'
family='@misc{a, crossref = {p}, year = 2001}
@misc{b, crossref = {q}}
@misc{c, crossref = {P}}
@misc{d, crossref = {p}, author = {Leslie Lamport}}
@misc{e}
@misc{f, crossref = {q}, author = {}}
@misc{g, crossref = {p}, author = {}}
@misc{p, author = {Donald E. Knuth}, year = 1984}
@misc{q, editor = {Brian Kernighan and Dennis Ritchie}, year = 1978}
'
named='@misc{Knu01, crossref = {Knu84a}, year = 2001}
@misc{KR78, crossref = {KR78b}}
@misc{Knu84, crossref = {Knu84a}}
@misc{Lam84, crossref = {Knu84a}, author = {Leslie Lamport}}
@misc{anon}
@misc{KR78a, crossref = {KR78b}, author = {}}
@misc{anon84, crossref = {Knu84a}, author = {}}
@misc{Knu84a, author = {Donald E. Knuth}, year = 1984}
@misc{KR78b, editor = {Brian Kernighan and Dennis Ritchie}, year = 1978}
'

makes "$two" 'rename-key\ta\tA' '@misc{A}\n@misc{b}\n'
makes "$parts" 'rename-key\tconf95\ticc' '@string{conf={conf}}@misc{icc}@misc{b, crossref = {icc}}'
makes '@misc{b, crossref = {A}}@misc(a )' 'rename-key\ta\tc' '@misc{b, crossref = {c}}@misc(c )'
makes '@misc{a, crossref = {a}}' 'rename-key\ta\tc' '@misc{c, crossref = {c}}'
makes "$month" 'rename-macro\tjan\tj' '@string{j = j # { x}}@misc{a, month = j}'
makes "$month" 'rename-macro\tjan\tJAN' '@string{JAN = JAN # { x}}@misc{a, month = JAN}'
makes "$parts" 'rename-macro\tconf\tc' '@string{c={conf}}@misc{conf95}@misc{b, crossref = c # {95}}'
makes "$uses" 'rename-macro\tm\tn' '@misc{a, t = m}@string{n = 1}@misc{b, t = n}'
makes '@string{m = "a" # {"}}@misc{k, t = m # 1}' 'inline\tm' '@misc{k, t = {a"} # 1}'
makes '@string{x={1}}@string{m=x}@string{x={2}}@misc{k,t=m}' 'inline\tm' '@string{x={1}}@string{x={2}}@misc{k,t={1}}'
makes '@misc{a, t = {x} # "x"}' 'introduce\tm\tx' '@string{m = {x}}\n@misc{a, t = m # m}'
makes '@misc{a}\n@misc{b, t = "x"}\n' 'introduce\tm\tx' '@misc{a}\n@string{m = {x}}\n@misc{b, t = m}\n'
makes '@misc{a, T = 1, u = {t}}@misc{b,t=t}@string{t = 2}' 'rename-field\tt\tTitle' '@misc{a, Title = 1, u = {t}}@misc{b,Title=t}@string{t = 2}'
makes '@misc{a, t = 1}@misc{b,t=2}' 'rename-field\tt\ttitle\tB' '@misc{a, t = 1}@misc{b,title=2}'
makes '@misc{a, u = 1, u = 2}@misc{b,t=2}' 'rename-field\tt\tu' '@misc{a, u = 1, u = 2}@misc{b,u=2}'
makes '@misc{a, t = 1}' 'rename-field\tt\tT' '@misc{a, T = 1}'
makes '@misc{a, t = m}\n@string{M = 1}\n@misc{b, t = {m}}\n' 'undefine\tm' '@misc{a, t = m}\n\n@misc{b, t = {m}}\n'
makes 'x@string{m = m # {y}}z' 'undefine\tm' 'xz'
makes '@string{jan = {J}}@string{n = {m}}@misc{a, t = n}' 'undefine\tJAN' '@string{n = {m}}@misc{a, t = n}'
makes '@string{m = 1}\n\n%% x\n@misc{a}\n@string{n = 2}' 'define\tk\tm # {x}' '@string{m = 1}\n@string{k = m # {x}}\n\n%% x\n@misc{a}\n@string{n = 2}'
makes '@misc{a, t = m}' 'define\tm\t"x"' '@string{m = "x"}\n@misc{a, t = m}'
makes '%% x\n' 'define\tjan\t1' '%% x\n@string{jan = 1}\n'
makes '@string(M = 1 # n)@misc{a}' 'set-macro\tm\t{x} # 2' '@string(M = {x} # 2)@misc{a}'
makes '@string{m = 1}@string{n = m}@misc{a, t = n}' 'set-macro\tm\tjan' '@string{m = jan}@string{n = m}@misc{a, t = n}'
makes "$crossed" 'regenerate' "$made"
makes "$crossed" 'regenerate\nregenerate' "$made"
makes '@misc{,year=1999}@misc{x,year=1999}@misc{c,year=2000,crossref={anon99A}}' 'regenerate' '@misc{anon99,year=1999}@misc{anon99b,year=1999}@misc{anon00,year=2000,crossref={anon99A}}'
makes "$family" 'regenerate' "$named"
makes "$chain" 'regenerate' '@misc{anon,crossref={anon99}}@misc{anon99,crossref={anon99a}}@misc{anon99a,year=1999}'
makes "$chain" 'regenerate\t1' '@misc{anon,crossref={anon99}}@misc{anon99,crossref={anon99a}}@misc{anon99a,year=1999}'
makes "$chain" 'regenerate\t2' '@misc{anon99,crossref={anon99a}}@misc{anon99a,crossref={anon99b}}@misc{anon99b,year=1999}'
makes "$chain" 'regenerate\t2\nregenerate\t2' '@misc{anon99,crossref={anon99a}}@misc{anon99a,crossref={anon99b}}@misc{anon99b,year=1999}'
makes '' 'regenerate' ''
makes '@misc{a, crossref = {b}}@misc{c}' 'rename-key\ta\td\nrename-key\tc\ta\nregenerate' '@misc{anon, crossref = {b}}@misc{anona}'

# `newkeys` lists the keys that `regenerate` gives, each after the old one, and changes nothing.
lists() { given list.bib "$1"; cp list.bib same.bib; when newkeys list.bib --depth "$2"; case="newkeys of $1"; ends_with 0; prints "$3"; says_nothing; when_shell_runs 'cmp list.bib same.bib && test ! -e list.bib.bibkeep'; ends_with 0; writes_nothing; says_nothing; }

lists '@misc{,year=1999}@misc{x,year=1999}@misc{c,year=2000,crossref={anon99A}}' 1 '\tanon99\nx\tanon99b\nc\tanon00\n'
lists "$chain" 1 'p\tanon\nq\tanon99\nr\tanon99a\n'
lists "$chain" 2 'p\tanon99\nq\tanon99a\nr\tanon99b\n'
lists '' 1 ''
given chain.bib "$chain"
when_shell_runs '"$program" newkeys chain.bib | cut -f 2 >new && printf "regenerate\n" | "$program" edit chain.bib && "$program" newkeys chain.bib | cut -f 1 | cmp - new'; ends_with 0; prints 'applied 1\n'; says_nothing
when newkeys newline.bib; ends_with 1; writes_nothing; says 'bibkeep: 6 UnbalancedBrace at 15'
when newkeys nothing.bib; ends_with 3; writes_nothing; says 'bibkeep: read fault'

refuses 31 BadKey "$two" 'rename-key\ta\tb c'
refuses 35 NotFound "$two" 'rename-key\tc\td'
refuses 36 Ambiguous '@misc{a}@misc{A}' 'rename-key\ta\tb'
refuses 37 KeyInUse "$two" 'rename-key\ta\tB'
refuses 37 KeyInUse '@misc{a}@misc{b, crossref = {Z}}' 'rename-key\ta\tz'
refuses 32 BadName '@string{m = 1}' 'rename-macro\tm\t1'
refuses 35 NotFound "$month" 'rename-macro\tfeb\tj'
refuses 36 Ambiguous '@string{p={A}}@misc{a,t=p}@string{p={B}}@misc{b,t=p}' 'rename-macro\tp\tq'
refuses 38 NameInUse "$month" 'rename-macro\tjan\tMay'
refuses 36 Ambiguous '@string{m = 1}@string{M = 2}' 'inline\tm'
refuses 40 WouldMerge 'a@foo \n@string{m = 1}{b' 'inline\tm'
refuses 32 BadName "$two" 'rename-field\tcrossref\tx'
refuses 32 BadName "$two" 'rename-field\tx\tCROSSREF\ta'
refuses 32 BadName "$two" 'rename-field\tx\t1'
refuses 35 NotFound "$two" 'rename-field\tx\ty'
refuses 35 NotFound '@misc{a}@misc{b,x=1}' 'rename-field\tx\ty\ta'
refuses 35 NotFound '@misc{a,x=1}' 'rename-field\tx\ty\tb'
refuses 36 Ambiguous '@misc{a,x=1,y=2}' 'rename-field\tx\ty'
refuses 36 Ambiguous '@misc{a,x=1,X=2}' 'rename-field\tx\ty\ta'
refuses 36 Ambiguous '@misc{a,x=1}@misc{A}' 'rename-field\tx\ty\ta'
refuses 32 BadName "$uses" 'undefine\t1'
refuses 35 NotFound "$month" 'undefine\tfeb'
refuses 36 Ambiguous '@string{m = 1}@string{M = 2}' 'undefine\tm'
refuses 39 Referred "$uses" 'undefine\tm'
refuses 39 Referred "$month" 'undefine\tjan'
refuses 39 Referred '@string{m = 1}@string{n = {x} # M}' 'undefine\tm'
refuses 39 Referred '@string{m = 1}@preamble{m}' 'undefine\tm'
refuses 40 WouldMerge 'a@foo \n@string{m = 1}{b' 'undefine\tm'
refuses 32 BadName "$uses" 'define\t1\t{'
refuses 33 BadValue "$uses" 'define\tm\t{'
refuses 38 NameInUse "$uses" 'define\tM\t1'
refuses 38 NameInUse '@misc{a}@string{m = 1}' 'define\tm\t2'
refuses 32 BadName "$uses" 'set-macro\t1\t{'
refuses 33 BadValue "$uses" 'set-macro\tx\t{'
refuses 35 NotFound "$month" 'set-macro\tfeb\t1'
refuses 36 Ambiguous '@string{m = 1}@string{M = 2}' 'set-macro\tm\t3'
refuses 33 BadValue '@misc{a, t = {x}}' 'introduce\tm\t{x'
refuses 35 NotFound '@misc{a, t = m}@string{n = 1}@misc{b, t = n}' 'introduce\tm\t1'
refuses 38 NameInUse '@misc{a, t = {x} # m}' 'introduce\tm\tx'
refuses 38 NameInUse '@misc{a, t = {x} # "x"}' 'introduce\tmay\tx'
refuses 71 BadScript "$two" 'rename-key\ta'
refuses 71 BadScript "$two" 'rename-key\ta\tb\tc'
refuses 71 BadScript "$two" 'rename-macro\ta'
refuses 71 BadScript "$two" 'inline'
refuses 71 BadScript "$two" 'inline\ta\tb'
refuses 71 BadScript "$two" 'introduce\ta'
refuses 71 BadScript "$two" 'rename-field\tx'
refuses 71 BadScript "$two" 'rename-field\tx\ty\ta\tb'
refuses 71 BadScript "$two" 'undefine'
refuses 71 BadScript "$two" 'undefine\ta\tb'
refuses 71 BadScript "$two" 'define\ta'
refuses 71 BadScript "$two" 'define\ta\tb\tc'
refuses 71 BadScript "$two" 'set-macro\ta'
refuses 71 BadScript "$two" 'set-macro\ta\tb\tc'
refuses 71 BadScript "$two" 'regenerate\t'
refuses 71 BadScript "$two" 'regenerate\t0'
refuses 71 BadScript "$two" 'regenerate\t9'
refuses 71 BadScript "$two" 'regenerate\t01'
refuses 71 BadScript "$two" 'regenerate\t1\t1'

# What is shown of an entry, without its type and key: a renaming keeps it.
keeps() {
    given_edit "$1" "$2"
    when_shell_runs '"$program" show edited.bib '"$3"' | tail -n +2 | grep -v "^crossref"'
    cp seen/out wanted
    edit
    when_shell_runs '"$program" show edited.bib '"$4"' | tail -n +2 | grep -v "^crossref"'
    case="what is shown of $3 after $2 of $1"
    writes wanted
}

keeps '@string{conf={conf}}@misc{conf95, title = {T}}@misc{b, note = {N}, crossref = conf # {95}}' 'rename-key\tconf95\ticc' b b
keeps "$crossed" 'regenerate' Lam86 Knu84
keeps "$crossed" 'regenerate' Knu84 Lam86
keeps "$month" 'rename-macro\tjan\tj' a a
keeps '@string{x={1}}@string{m=x}@string{x={2}}@misc{k,t=m # x}' 'inline\tm' k k
keeps '@misc{a, t = m # mar}@string{m = {x}}@string{MAR = {y}}' 'undefine\tm' a a
keeps '@misc{a, t = {x } # "x" # mar}' 'introduce\tm\tx' a a
keeps '@string{n = {y}}@misc{a, t = n # mar}' 'define\tm\t1' a a
keeps '@string{m = 1}@string{n = {y}}@misc{a, t = n # mar}@misc{b, t = m}' 'set-macro\tm\t2' a a

# Making keys is a change like any other, also where there are none: as many are kept as can be undone.
given_edit '' ''
yes regenerate | head -n 65536 >script
edit; ends_with 1; prints 'applied 65535\n'; says 'bibkeep: line 65536: 41 JournalFull'; leaves ''
when undo edited.bib; ends_with 0; prints 'undone 1\n'; says_nothing; leaves ''
given script 'regenerate\n'
edit; ends_with 0; prints 'applied 1\n'; says_nothing; leaves ''

# Many entries of one base.
given_edit '' 'regenerate\n'
{ yes '@misc{x}' | head -n 100000; } >edited.bib
edit; ends_with 0; prints 'applied 1\n'; says_nothing
when_shell_runs 'sed -n "1p;27p;28p;100000p" edited.bib'; prints '@misc{anon}\n@misc{anonz}\n@misc{anonaa}\n@misc{anoneqxc}\n'
when_shell_runs 'sort -u edited.bib | wc -l | tr -d " "'; prints '100000\n'

# Many macros come by turns to two places between definitions, and each is used by two entries that are far apart.
texts() { # KEY LETTER
    printf '@misc{%s' "$1"
    for n in $numbers; do printf ',f%s={%s%s}' "$n" "$2" "$n"; done
    printf '}@misc{%s1}@misc{%s2}' "$1" "$1"
}
numbers=$(i=1; while [ "$i" -le 150 ]; do echo "$i"; i=$((i + 1)); done)
{ printf '@string{a={A}}'; texts k T; texts l T; printf '@string{b={B}}'; texts m U; texts n U; printf '@string{c={C}}'; } >before.bib
for order in 'sort -n' 'sort -rn'; do
    cp before.bib edited.bib
    rm -f edited.bib.bibkeep
    for n in $(echo "$numbers" | $order); do printf 'introduce\tt%s\tT%s\nintroduce\tu%s\tU%s\n' "$n" "$n" "$n" "$n"; done >script
    edit; ends_with 0; prints 'applied 300\n'; says_nothing
    when check edited.bib; ends_with 0; prints 'items 315\nentries 12\nmacros 303\npreambles 0\ncomments 0\n'; says_nothing
    when undo edited.bib --steps 300; ends_with 0; prints 'undone 300\n'; says_nothing
    when_shell_runs 'cmp before.bib edited.bib'; ends_with 0
done

# A result of gigabytes is refused, and not built.
given_edit '' 'inline\tm\n'
{ printf '@string{m={'; head -c 1000000 /dev/zero | tr '\0' x; printf '}}@misc{k'; yes ',t=m' | head -n 100000; printf '}'; } >edited.bib
cp edited.bib before.bib
if can run_in_400_MB; then
    when_shell_runs 'ulimit -v 400000; "$program" edit edited.bib <script'; ends_with 1; prints 'applied 0\n'; says 'bibkeep: line 1: 9 FileTooLong'
fi
when_shell_runs 'cmp before.bib edited.bib'; ends_with 0
