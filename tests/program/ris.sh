# `bibkeep ris` and `bibkeep import`.
# shellcheck shell=sh

# An entry and its RIS record.
given king.bib '@article{k1, author = {King, Jr, Martin Luther and de la Fontaine, Jean}, title = {On Things}, journal = {J}, year = 1984, month = may, pages = {10--20}}'
king='TY  - JOUR\nAU  - King, Martin Luther, Jr\nAU  - de la Fontaine, Jean\nTI  - On Things\nJF  - J\nPY  - 1984/05//\nSP  - 10\nEP  - 20\nID  - k1\nER  - \n'
when ris king.bib k1; ends_with 0; prints "$king"; says_nothing
when ris king.bib '*'; ends_with 0; prints "$king"; says_nothing
when ris king.bib zz; ends_with 1; writes_nothing; says 'bibkeep: 11 NoSuchEntry'
when ris king.bib k1 zz; ends_with 1; writes_nothing; says 'bibkeep: 11 NoSuchEntry'

# A parent is listed where two of its children are cited, and each has what it inherits.
when ris parents.bib c1; ends_with 0; says_nothing
prints 'TY  - CONF\nTI  - One\nT2  - Proc\nPY  - 2001///\nID  - c1\nER  - \n'
when ris parents.bib c1 c2 C1; ends_with 0; says_nothing
prints 'TY  - CONF\nTI  - One\nT2  - Proc\nPY  - 2001///\nID  - c1\nER  - \nTY  - CONF\nTI  - Two\nT2  - Proc\nPY  - 2001///\nID  - c2\nER  - \nTY  - GEN\nTI  - Proc\nT2  - Proc\nPY  - 2001///\nID  - p\nER  - \n'

# A file that is refused, one without entries, and one that is not there.
when ris newline.bib '*'; ends_with 1; writes_nothing; says 'bibkeep: 6 UnbalancedBrace at 15'
when ris empty.bib '*'; ends_with 0; writes_nothing; says_nothing
when ris nothing.bib '*'; ends_with 3; writes_nothing; says 'bibkeep: read fault'
when ris king.bib; ends_with 2; writes_nothing; complains_of '<KEY>'

# What RIS leaves out: the key and the name of each such field, a line each; an empty field is none.
given dropped.bib '@article{a, title = {T}, number = 3, publisher = {P}, crossref = {p}}@misc{b, author = {x, y, z, w}, month = {spring}, url = {}}@proceedings{p, doi = {10}, annote = {n}}'
when ris --dropped dropped.bib a b; ends_with 0; says_nothing
when ris --dropped king.bib k1; ends_with 0; writes_nothing; says_nothing

# A field that has a text, and from which no line comes: a list of names without a word, keywords of commas alone, a year with
# a slash, a month that is none, and a list whose names cannot be taken apart.
given wordless.bib '@misc{a, author = {~}, editor = { , }, keywords = {,, }, year = {1/2}, month = {Mayday}, title = {~}}@misc{b, author = {{}}, editor = {,}, keywords = { , x}}@misc{c, author = {A and {B} and C, D, E, F}, keywords = "", year = 1999, month = "05"}'
when ris --dropped wordless.bib '*'; ends_with 0; says_nothing
prints 'a\tauthor\na\teditor\na\tkeywords\na\tyear\na\tmonth\nb\teditor\nc\tauthor\nc\tmonth\n'
when ris wordless.bib '*'; ends_with 0; says_nothing
prints 'TY  - GEN\nTI  - ~\nID  - a\nER  - \nTY  - GEN\nAU  - {}\nKW  - x\nID  - b\nER  - \nTY  - GEN\nPY  - 1999///\nID  - c\nER  - \n'
when ris --dropped king.bib zz; ends_with 1; writes_nothing; says 'bibkeep: 11 NoSuchEntry'
when ris --dropped newline.bib '*'; ends_with 1; writes_nothing; says 'bibkeep: 6 UnbalancedBrace at 15'
when ris --dropped empty.bib '*'; ends_with 0; writes_nothing; says_nothing

# Plain texts: braces go, letters, signs and accents are characters, and what is not known stays. URL, DOI and ID are copied.
given plain.bib '@misc{a_b, author = {{\\"O}zt{\\"u}rk, {\\c C}a{\\u g}lar and {Simon {\\&} Schuster} and Erd{\\H o}s, P\\'"'"'al and Stra\\ss e, \\'"'"'{\\i} \\v{S}}, title = {{\\TeX} \\& \\emph{a {B} \\~n} \\"{q}~1\\%% --- \\{x\\} \\o{}re \\oe uvre}, url = {http://a.org/~b{c}_\\_}, doi = {10/{\\"o}}, note = {~}}'
when ris --plain plain.bib a_b; ends_with 0; says_nothing
prints 'TY  - GEN\nAU  - Öztürk, Çağlar\nAU  - Simon & Schuster\nAU  - Erdős, Pál\nAU  - Straße, í Š\nTI  - \\TeX & \\emph{a {B} ñ} \\"{q} 1%% --- {x} øre œuvre\nUR  - http://a.org/~b{c}_\\_\nDO  - 10/{\\"o}\nN1  - \nID  - a_b\nER  - \n'
when ris --plain --dropped king.bib k1; ends_with 0; writes_nothing; says_nothing
when import --plain king.bib; ends_with 2; writes_nothing

# A file to which nothing was done, and the RIS text that is added to it.
given_import() {
    rm -f edited.bib.bibkeep
    given edited.bib "$1"
    given script "$2"
}

import() {
    input=script
    when import edited.bib
}

# Lines of another program: a mark, CR LF, a tag that is not known, a value in two lines.
long_one='TY  - JOUR\r\nXX  - q\r\nTI  - A\r\n  long one\r\n\r\nER  -\r\n'
first='@article{anon,\n  title = {A long one}\n}\n'
second='@article{anona,\n  title = {A long one}\n}\n'
given_import '' "\357\273\277$long_one"
import; ends_with 0; prints 'added 1 skipped 1\n'; says_nothing; leaves "$first"
import; ends_with 0; prints 'added 1 skipped 1\n'; says_nothing; leaves "$first$second"

# An import is one change, and one undo takes it back; an import of nothing is a change too.
given script ''
import; ends_with 0; prints 'added 0 skipped 0\n'; says_nothing; leaves "$first$second"
when log edited.bib; ends_with 0; prints 'done 1 0 40\ndone 1 0 41\ndone 0 0 0\n'
when undo edited.bib --steps 2; ends_with 0; prints 'undone 2\n'; leaves "$first"
when redo edited.bib; ends_with 0; prints 'redone 1\n'; leaves "$first$second"
given_import 'mail joe@x.org\n@misc{a}' 'TY  - BOOK\nTI  - One\nER  - \nTY  - GEN\nID  - b\nKW  - x\nKW  - y\nER  - \n'
import; ends_with 0; prints 'added 2 skipped 0\n'; says_nothing
leaves 'mail joe@x.org\n@misc{a}@book{anon,\n  title = {One}\n}\n@misc{b,\n  keywords = {x, y}\n}\n'
when undo edited.bib; ends_with 0; prints 'undone 1\n'; leaves 'mail joe@x.org\n@misc{a}'

# What is written by `ris` is added again as it was.
given_import '' "$king"
import; ends_with 0; prints 'added 1 skipped 0\n'
leaves '@article{k1,\n  author = {King, Jr, Martin Luther and de la Fontaine, Jean},\n  title = {On Things},\n  journal = {J},\n  year = {1984},\n  month = {May},\n  pages = {10--20}\n}\n'
when ris edited.bib '*'; ends_with 0; prints "$king"

# A made key is no key of the file, no text that a crossref waits for, no ID of any record, and no key made before.
given_import '@misc{anon}@misc{c, crossref = {AnonA}}' 'TY  - GEN\nER  - \nTY  - GEN\nID  - anonC\nER  - \nTY  - GEN\nID  - a key\nER  - \nTY  - GEN\nID  - ANONB\nER  - \n'
import; ends_with 0; prints 'added 4 skipped 0\n'; leaves '@misc{anon}@misc{c, crossref = {AnonA}}@misc{anond}\n@misc{anonC}\n@misc{anone}\n@misc{ANONB}\n'

# An ID that a crossref waits for is taken, as by `add`.
given_import '@misc{c, crossref = {P}}' 'TY  - GEN\nID  - p\nPY  - 1999\nER  - \n'
import; ends_with 0; prints 'added 1 skipped 0\n'; leaves '@misc{c, crossref = {P}}@misc{p,\n  year = {1999}\n}\n'
when show edited.bib c; ends_with 0; prints '@misc c\nyear = 1999\ncrossref = p\n'

# With --latex, LaTeX prints texts as they are in RIS: each of the ten bytes that it takes for commands is written otherwise, and no
# other byte. Braces match then, whatever the RIS text has.
import_latex() {
    input=script
    when import --latex edited.bib
}
given_import '' 'TY  - GEN\nTI  - & %% $ # _ { } ~ ^ \\\nID  - t\nER  - \n'
import_latex; ends_with 0; prints 'added 1 skipped 0\n'; says_nothing
leaves '@misc{t,\n  title = {\\& \\%% \\$ \\# \\_ {\\textbraceleft} {\\textbraceright} {\\textasciitilde} {\\textasciicircum} {\\textbackslash}}\n}\n'
when check edited.bib; ends_with 0
when undo edited.bib; ends_with 0; prints 'undone 1\n'; leaves ''
given_import '' 'TY  - GEN\nTI  - \\input{secret} a}b  "c" <d> |e| `f\n  \\g\nID  - t\nER  - \n'
import; ends_with 1; says 'bibkeep: 64 UnbalancedText'
import_latex; ends_with 0; prints 'added 1 skipped 0\n'
leaves '@misc{t,\n  title = {{\\textbackslash}input{\\textbraceleft}secret{\\textbraceright} a{\\textbraceright}b "c" <d> |e| `f {\\textbackslash}g}\n}\n'

# Names are taken apart at each comma, and a name that BibTeX would read as another one is put into braces as ever.
given_import '' 'TY  - GEN\nAU  - Smith & Sons, Ann_B, Jr\nAU  - {Smith & Sons, Inc}\nAU  - a, b, c, d & e\nAU  - Simon and %% Co\nAU  - X~Y, , #\nA2  - } & {\nID  - t\nER  - \n'
import_latex; ends_with 0; prints 'added 1 skipped 0\n'
leaves '@misc{t,\n  author = {Smith \\& Sons, Jr, Ann\\_B and {\\textbraceleft}Smith \\& Sons, Inc{\\textbraceright} and {a, b, c, d \\& e} and {Simon and \\%% Co} and X{\\textasciitilde}Y, \\#, {}},\n  editor = {{\\textbraceright} \\& {\\textbraceleft}}\n}\n'

# Every field but url and doi; an ID that can be a key stays.
given_import '' 'TY  - JOUR\nJO  - A & B\nPY  - 19#4/03//\nVL  - 1#\nIS  - 2%%\nSP  - 1_2\nEP  - 3_4\nPB  - P & Q\nCY  - C~D\nSN  - 12_3\nUR  - http://x.org/a_b?c=%%20&d~e#f\nDO  - 10.1/a_b<c>{d}^\\\nAB  - x^2\nN1  - ${1}\nKW  - a & b\nKW  - c, d%%\nID  - a_b&c\nER  - \n'
import_latex; ends_with 0; prints 'added 1 skipped 0\n'
leaves '@article{a_b&c,\n  journal = {A \\& B},\n  year = {19\\#4},\n  month = {March},\n  volume = {1\\#},\n  number = {2\\%%},\n  pages = {1\\_2--3\\_4},\n  publisher = {P \\& Q},\n  address = {C{\\textasciitilde}D},\n  issn = {12\\_3},\n  url = {http://x.org/a_b?c=%%20&d~e#f},\n  doi = {10.1/a_b<c>{d}^\\},\n  abstract = {x{\\textasciicircum}2},\n  note = {\\${\\textbraceleft}1{\\textbraceright}},\n  keywords = {a \\& b, c, d\\%%}\n}\n'
given_import '' 'TY  - GEN\nUR  - a}b\nER  - \n'
import_latex; ends_with 1; writes_nothing; says 'bibkeep: 64 UnbalancedText'; leaves ''
given_import '' 'AU  - &\n'
import_latex; ends_with 1; writes_nothing; says 'bibkeep: 61 NoStart at 0'; leaves ''
when import --latex --print edited.bib; ends_with 0; writes_nothing; says_nothing
when edit --latex edited.bib; ends_with 2; writes_nothing
when ris --latex king.bib k1; ends_with 2; writes_nothing

# The lines that are skipped: as many as are counted, each with its number and its bytes. What continues one of them, a blank line
# and a line of a known tag are none. Nothing of it is printed if the import is refused.
import_with() {
    input=script
    when import "$@" edited.bib
}
skipping='\357\273\277From a: mail\r\n\n  more\nTY  - GEN\nno tag\nZ9  - \033[1m\n  2\nID  - z\nM3  -\nER  - \nend'
given_import '' "$skipping"
import_with --skipped; ends_with 0; says_nothing
prints 'added 1 skipped 5\nskipped 1: From a: mail\r\nskipped 3:   more\nskipped 6: Z9  - \033[1m\nskipped 9: M3  -\nskipped 11: end\n'
given_import '' "$skipping"
import_with --skipped --print; ends_with 0; says_nothing; prints '@misc{z}\n'; leaves ''
import_with --skipped --strict; ends_with 1; writes_nothing; says 'bibkeep: 65 SkippedLine at 3'; leaves ''
given_import '@misc{Z}' "$skipping"
import_with --skipped; ends_with 1; writes_nothing; says 'bibkeep: 37 KeyInUse'; leaves '@misc{Z}'
given_import '' ''
import_with --skipped; ends_with 0; prints 'added 0 skipped 0\n'; says_nothing

# With --strict no line is skipped: the first that would be is told, after what is wrong with the lines and the texts.
refuses_strictly() {
    given_import "$2" "$3"
    import_with --strict
    case="import --strict $3 into $2"
    ends_with 1; writes_nothing; says "bibkeep: $1"; leaves "$2"
    expect 'a journal was left' test ! -e edited.bib.bibkeep
}
refuses_strictly '65 SkippedLine at 10' '' 'TY  - GEN\nXX  - 1\nER  - \ny\n'
refuses_strictly '65 SkippedLine at 17' '' 'TY  - GEN\nER  - \ny\n'
refuses_strictly '65 SkippedLine at 0' '' 'y'
refuses_strictly '65 SkippedLine at 10' '@misc{a}' 'TY  - GEN\nXX  - 1\nID  - a\nER  - \n'
refuses_strictly '64 UnbalancedText' '' 'TY  - GEN\nXX  - 1\nTI  - {\nER  - \n'
refuses_strictly '62 NoEnd at 17' '' 'TY  - GEN\nXX  - 1'
refuses_strictly '4 ExpectedCommaOrClose at 8' '@misc{a b}' 'y'
given_import '' 'TY  - GEN\nno tag\n\nID  - x\nER  - \n\n'
import_with --strict; ends_with 0; prints 'added 1 skipped 0\n'; says_nothing; leaves '@misc{x}\n'
when edit --skipped edited.bib; ends_with 2; writes_nothing
when ris --strict king.bib k1; ends_with 2; writes_nothing

# Why nothing is added, in the order in which it is judged: the file and the journal, the length of the input, its lines,
# the braces of its texts, and the edit. Neither the file nor its journal is touched.
refuses_import() {
    given_import "$2" "$3"
    import
    case="import $3 into $2"
    ends_with 1; writes_nothing; says "bibkeep: $1"; leaves "$2"
    expect 'a journal was left' test ! -e edited.bib.bibkeep
}
record='TY  - GEN\nID  - x\nER  - \n'
refuses_import '61 NoStart at 0' '' 'AU  - x\n'
refuses_import '61 NoStart at 25' '' "${record}ER  - \n"
refuses_import '62 NoEnd at 11' '' 'TY  - BOOK\n'
refuses_import '62 NoEnd at 6' '' 'TY  -\nTY  - BOOK\nER  - \n'
refuses_import '63 EmptyType at 0' '' 'TY  -\nER  -\n'
refuses_import '61 NoStart at 36' '' 'TY  - BOOK\nTI  - a}b\nID  - x\nER  - \nAU  - x\n'
refuses_import '64 UnbalancedText' '' 'TY  - BOOK\nTI  - a}b\nER  - \n'
refuses_import '64 UnbalancedText' '@misc{x}' "${record}TY  - BOOK\nTI  - a}b\nER  - \n"
refuses_import '37 KeyInUse' '' "$record$record"
refuses_import '37 KeyInUse' '@misc{X}' "$record"
refuses_import '4 ExpectedCommaOrClose at 8' '@misc{a b}' 'AU  - x\n'
given_import '@misc{a}' ''
{ printf 'TY  - BOOK\nTI  - '; head -c 1048577 /dev/zero | tr '\0' x; printf '\nER  - \n'; } >script
import; ends_with 1; writes_nothing; says 'bibkeep: 8 TextTooLong'; leaves '@misc{a}'
cp too_long.bib script
import; ends_with 1; writes_nothing; says 'bibkeep: 9 FileTooLong at 16777216'; leaves '@misc{a}'
cp longest.bib edited.bib
given script "$record"
import; ends_with 1; writes_nothing; says 'bibkeep: 9 FileTooLong'
given_journal abc bib
given script "$record"
import; ends_with 1; writes_nothing; says 'bibkeep: 53 BadJournal at 3'; leaves abc
given_journal abc 'bibkeep 1\nba7816bf8f01cfea414140de5dae2223b00361a396177a9cb410ff61f20015ae\n0 0\n'
import; ends_with 1; writes_nothing; says 'bibkeep: 54 JournalMismatch'; leaves abc
when import nothing.bib; ends_with 3; writes_nothing; says 'bibkeep: read fault'
when import; ends_with 2; writes_nothing; complains_of '<F>'
when_shell_runs 'printf "@misc{a}" >edited.bib; rm -f edited.bib.bibkeep; "$program" import edited.bib <folder'; ends_with 3; writes_nothing; says 'bibkeep: read fault'

# As many changes are kept as can be undone.
given_edit '@misc{a, t = 1,}' ''
yes "$(printf 'set\ta\tt\t1')" | head -n 65535 >script
edit; ends_with 0
given script "$record"
import; ends_with 1; writes_nothing; says 'bibkeep: 41 JournalFull'; leaves '@misc{a, t = 1,}'
