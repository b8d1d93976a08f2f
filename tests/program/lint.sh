# `bibkeep lint`.
# shellcheck shell=sh

finds() { given linted.bib "$1"; when lint linted.bib; case="lint of $1"; ends_with 1; prints "$2"; says_nothing; }
finds_nothing() { given linted.bib "$1"; when lint linted.bib; case="lint of $1"; ends_with 0; writes_nothing; says_nothing; }

# A finding is a line with the file's name, the line, the column in bytes, and what is found.
when lint reports.bib; ends_with 1; prints 'reports.bib:1:14: warning: macro u is not defined [undefined-macro]\nreports.bib:1:17: warning: field T is there already [repeated-field]\nreports.bib:1:29: warning: key A is that of an earlier entry [repeated-key]\n'; says_nothing
when lint ./reports.bib; ends_with 1; prints './reports.bib:1:14: warning: macro u is not defined [undefined-macro]\n./reports.bib:1:17: warning: field T is there already [repeated-field]\n./reports.bib:1:29: warning: key A is that of an earlier entry [repeated-key]\n'; says_nothing
finds_nothing ''
finds_nothing '@string{p = {x}}@string{q = p}@preamble{p}@comment @misc{a, t = q}'

# Lines are counted from the file's first byte, and each begins after a line feed.
finds 'front\n\n@misc{a,\n  t = u,\n  T = 1}\n\n@misc{A}' 'linted.bib:4:7: warning: macro u is not defined [undefined-macro]\nlinted.bib:5:3: warning: field T is there already [repeated-field]\nlinted.bib:7:7: warning: key A is that of an earlier entry [repeated-key]\n'
finds '@misc{a,\r\n  t = u}\r\n' 'linted.bib:2:7: warning: macro u is not defined [undefined-macro]\n'
finds '@misc{\303\251\303\251, t = u}' 'linted.bib:1:17: warning: macro u is not defined [undefined-macro]\n'

# Of a value with several parts each use has its own place.
finds '@misc{a, t = u # {x}\n # v # jan # w}' 'linted.bib:1:14: warning: macro u is not defined [undefined-macro]\nlinted.bib:2:4: warning: macro v is not defined [undefined-macro]\nlinted.bib:2:14: warning: macro w is not defined [undefined-macro]\n'
finds '@string{m = m}@string{m = M # n}@preamble{m # o}' 'linted.bib:1:13: warning: macro m is used in its own definition [own-macro]\nlinted.bib:1:23: warning: macro m is defined already: the uses after this have the new text [repeated-macro]\nlinted.bib:1:27: warning: macro M is used in its own definition [own-macro]\nlinted.bib:1:31: warning: macro n is not defined [undefined-macro]\nlinted.bib:1:47: warning: macro o is not defined [undefined-macro]\n'

# Crossrefs are found at the field that counts.
when lint crossrefs.bib; ends_with 1; prints 'crossrefs.bib:1:19: warning: crossref a names its own entry [own-parent]\ncrossrefs.bib:1:49: warning: parent b stands before its child: BibTeX finds this parent only if it is cited itself or named by an earlier child [early-parent]\ncrossrefs.bib:1:70: warning: crossref q names no entry [missing-parent]\n'; says_nothing
finds_nothing '@misc{a, crossref = {}}@misc{b, crossref = { \n}}'
finds_nothing '@string{crossref = {q}}@misc{a, t = crossref}'
finds '@misc{a, crossref = {q}, CROSSREF = {a}}' 'linted.bib:1:21: warning: crossref q names no entry [missing-parent]\nlinted.bib:1:26: warning: field CROSSREF is there already [repeated-field]\n'

# An empty crossref is none, but BibTeX takes an entry without a key for its parent.
finds '@misc{a, crossref = {}}@misc{b, crossref = { }}@misc{, t = 1}' 'linted.bib:1:21: warning: the crossref of a is empty and an entry has no key [empty-crossref]\nlinted.bib:1:44: warning: the crossref of b is empty and an entry has no key [empty-crossref]\nlinted.bib:1:54: warning: the entry has no key [no-key]\n'
finds '@misc{, t = 1}@misc{a, crossref = {q}}' 'linted.bib:1:7: warning: the entry has no key [no-key]\nlinted.bib:1:35: warning: crossref q names no entry [missing-parent]\n'

# A parent that has a parent itself; in a ring of two nothing is lost.
finds '@misc{a, crossref = {b}}@misc{b, crossref = {c}}@misc{c}' 'linted.bib:1:21: warning: parent b has a parent itself, whose fields are not inherited [nested-parent]\n'
finds '@misc{a, crossref = {b}}@misc{b, crossref = {a}}' 'linted.bib:1:45: warning: parent a stands before its child: BibTeX finds this parent only if it is cited itself or named by an earlier child [early-parent]\n'

# Keys that are read, and that no edit could write.
finds '@misc{}' 'linted.bib:1:7: warning: the entry has no key [no-key]\n'
finds '@misc(a}b, t = 1)@misc{c{d}' 'linted.bib:1:7: warning: key a}b is none that an edit could write [odd-key]\nlinted.bib:1:24: warning: key c{d is none that an edit could write [odd-key]\n'

# A macro that an earlier item defines, in letters of any case; the first definition of a month is none.
finds '@string{m = {x}}\n@STRING(M = {y})\n@misc{a, t = m}\n@string{m = m}' 'linted.bib:2:9: warning: macro M is defined already: the uses after this have the new text [repeated-macro]\nlinted.bib:4:9: warning: macro m is defined already: the uses after this have the new text [repeated-macro]\nlinted.bib:4:13: warning: macro m is used in its own definition [own-macro]\n'
finds '@string{jan = {J}}@string{feb = {F}}@string{Jan = {j}}' 'linted.bib:1:45: warning: macro Jan is defined already: the uses after this have the new text [repeated-macro]\n'
finds_nothing '@string{m = {x}}@misc{m, m = m}@preamble{m}@string{n = m}'

# Names that `names` refuses, in the first author and the first editor of an entry.
finds '@misc{a, author = {A, B, C, D and E, F}}' 'linted.bib:1:19: warning: name A, B, C, D has too many commas: 21 TooManyCommas [refused-name]\n'
finds '@misc{a, author = {A,\n B,C,D}, Editor = {E, F, G, H} # { and } # {E, F, G, H}}' 'linted.bib:1:19: warning: name A, B,C,D has too many commas: 21 TooManyCommas [refused-name]\nlinted.bib:2:19: warning: name E, F, G, H has too many commas: 21 TooManyCommas [refused-name]\nlinted.bib:2:19: warning: name E, F, G, H has too many commas: 21 TooManyCommas [refused-name]\n'
finds_nothing '@string{m = {A, B, C, D}}@misc{a, author = m, editor = m # { and } # {E, F, G, H}}'
finds '@misc{a, author = {A}, AUTHOR = {A, B, C, D}}' 'linted.bib:1:24: warning: field AUTHOR is there already [repeated-field]\n'
finds_nothing '@misc{a, author = {A, B, C and D, E, F and {A, B, C, D} and G, H, I,,}, title = {1, 2, 3, 4, 5}}@string{author = {A, B, C, D}}'

# What json refuses: a type, a key, a field's name or text that is not UTF-8. The texts of macros are not looked through.
finds '@string{m = {\351}}@misc{a, t = m # {\351}, u = {\303\251}, v = {\303} # {\251}}@misc{b, t\351 = 1, crossref = {\351}}' 'linted.bib:1:77: warning: field t\351 is not UTF-8: 24 NotUtf8 [not-utf8]\nlinted.bib:1:91: warning: crossref \351 names no entry [missing-parent]\n'
finds '@m\351sc{a\351, t = 1}' 'linted.bib:1:7: warning: type m\351sc is not UTF-8: 24 NotUtf8 [not-utf8]\nlinted.bib:1:7: warning: key a\351 is not UTF-8: 24 NotUtf8 [not-utf8]\n'

# Markers that a merge left between items: seven times one of four signs, and then white space or nothing.
finds '<<<<<<< HEAD\n@misc{b,\n  year = 2001\n}\n=======\n\n>>>>>>> carl\n' 'linted.bib:1:1: warning: conflict marker <<<<<<< was left by a merge [conflict-marker]\nlinted.bib:5:1: warning: conflict marker ======= was left by a merge [conflict-marker]\nlinted.bib:7:1: warning: conflict marker >>>>>>> was left by a merge [conflict-marker]\n'
finds '@misc{a}\r\n||||||| base\r\n=======\r\n@misc{b}\n<<<<<<<' 'linted.bib:2:1: warning: conflict marker ||||||| was left by a merge [conflict-marker]\nlinted.bib:3:1: warning: conflict marker ======= was left by a merge [conflict-marker]\nlinted.bib:5:1: warning: conflict marker <<<<<<< was left by a merge [conflict-marker]\n'
finds_nothing '========\n<<<<<<\n <<<<<<<\n>>>>>>>a\n@misc{b, t = {\n<<<<<<< a\n}}'

# An entry that lost its at-sign, and a brace that closes nothing. The rest of an item's last line is a line too.
finds 'article{lost, title = {The lost one}}\n@misc{a, title={A}}\n}\n@artcle{b, title = {x}}\n' 'linted.bib:1:1: warning: text article{ has no at-sign before it and begins no entry [lost-entry]\nlinted.bib:3:1: warning: brace } closes no item [lone-brace]\n'
finds '@misc{a, t = {x}}}\n\n \t}\r\n@misc{b}BOOK{c}' 'linted.bib:1:18: warning: brace } closes no item [lone-brace]\nlinted.bib:3:1: warning: brace } closes no item [lone-brace]\nlinted.bib:4:9: warning: text BOOK{ has no at-sign before it and begins no entry [lost-entry]\n'
finds '@misc{a, t = u}}@misc{A}' 'linted.bib:1:14: warning: macro u is not defined [undefined-macro]\nlinted.bib:1:16: warning: brace } closes no item [lone-brace]\nlinted.bib:1:23: warning: key A is that of an earlier entry [repeated-key]\n'
finds_nothing 'article\n article{a}\narticle {b}\n{\n12{c}\n} }\n\\newcommand{d}\na-b{\n@misc{e}'
finds '@comment{\n article{x,\n}\n@misc{a}\n@comment{\nbook{y}\n}\n<<<<<<< a\n' 'linted.bib:8:1: warning: conflict marker <<<<<<< was left by a merge [conflict-marker]\n'

# Findings whose code is ignored are left out, and do not count; a code that no finding has changes nothing.
given linted.bib '@misc{a, t = u, t = v}@misc{A}'
when lint linted.bib --ignore undefined-macro; ends_with 1; prints 'linted.bib:1:17: warning: field t is there already [repeated-field]\nlinted.bib:1:29: warning: key A is that of an earlier entry [repeated-key]\n'; says_nothing
when lint --ignore repeated-field linted.bib --ignore repeated-key --ignore=undefined-macro; ends_with 0; writes_nothing; says_nothing
when lint linted.bib --ignore repeated --ignore '' --ignore undefined-macro; ends_with 1; prints 'linted.bib:1:17: warning: field t is there already [repeated-field]\nlinted.bib:1:29: warning: key A is that of an earlier entry [repeated-key]\n'; says_nothing
when lint newline.bib --ignore 6 --ignore UnbalancedBrace; ends_with 1; prints 'newline.bib:1:16: error: 6 UnbalancedBrace\n'; says_nothing

# With `--aux`, the keys that aux files cite and no entry has, each once, where it is cited first. Letters of any case are the same,
# `*` is no key, and a line that does not end with its brace does not count.
given cited.bib '@misc{Known, t = u}@misc{b}'
given cited.aux '\\relax \n\\citation{known,zz}\n\\citation{B,*,Yy,ZZ}\r\n\\citation{,,yy,x}\n\\citation{w\n \\citation{v}\n'
when lint cited.bib --aux cited.aux; ends_with 1; prints 'cited.bib:1:18: warning: macro u is not defined [undefined-macro]\ncited.aux:2:17: warning: key zz is cited and no entry has it [missing-key]\ncited.aux:3:15: warning: key Yy is cited and no entry has it [missing-key]\ncited.aux:4:16: warning: key x is cited and no entry has it [missing-key]\n'; says_nothing
when lint cited.bib --aux cited.aux --ignore missing-key; ends_with 1; prints 'cited.bib:1:18: warning: macro u is not defined [undefined-macro]\n'; says_nothing
when lint --ignore undefined-macro --aux cited.aux --ignore missing-key cited.bib; ends_with 0; writes_nothing; says_nothing

# Several aux files, and those that they name: each file is read once, with its own lines.
given more.aux '\\citation{x}\n\\citation{w,Known}\n'
when lint --aux more.aux cited.bib --ignore undefined-macro --aux=./cited.aux; ends_with 1; prints 'more.aux:1:11: warning: key x is cited and no entry has it [missing-key]\nmore.aux:2:11: warning: key w is cited and no entry has it [missing-key]\n./cited.aux:2:17: warning: key zz is cited and no entry has it [missing-key]\n./cited.aux:3:15: warning: key Yy is cited and no entry has it [missing-key]\n'; says_nothing

# Keys are looked up in all files that are read as one.
given others.bib '@misc{zz}@misc{YY}'
when lint cited.bib --after others.bib --ignore undefined-macro --aux cited.aux; ends_with 1; prints 'cited.aux:4:16: warning: key x is cited and no entry has it [missing-key]\n'; says_nothing

# What an aux file names lies in the folder of the first one.
mkdir -p cites
given cites/main.aux '\\citation{z1}\n\\@input{one.aux}\n\\citation{z2}\n\\@input{one.aux}\n'
given cites/one.aux '\\citation{z3,Z2}\n\\@input{main.aux}\n'
given none.bib ''
when lint none.bib --aux cites/main.aux; ends_with 1; prints 'cites/main.aux:1:11: warning: key z1 is cited and no entry has it [missing-key]\ncites/main.aux:3:11: warning: key z2 is cited and no entry has it [missing-key]\ncites/one.aux:1:11: warning: key z3 is cited and no entry has it [missing-key]\n'; says_nothing

# A key that is too long for an entry is missing, and is the same in another case.
when_shell_runs 'printf "\\\\citation{%0300d%s,%0300d%s,%0300d%s}\n" 0 k 0 K 0 kk >long.aux && "$program" lint none.bib --aux long.aux | cut -d : -f 1-3'; prints 'long.aux:1:11\nlong.aux:1:615\n'; says_nothing

# A file that is not valid has its faults and nothing else; an aux file that cannot be read is a fault; no key is missing.
when lint newline.bib --aux cited.aux; ends_with 1; prints 'newline.bib:1:16: error: 6 UnbalancedBrace\n'; says_nothing
when lint cited.bib --aux none.aux; ends_with 3; writes_nothing; says 'bibkeep: read fault in none.aux'
given known.aux '\\citation{KNOWN}\n\\citation{*}\n'
when lint cited.bib --ignore undefined-macro --aux known.aux; ends_with 0; writes_nothing; says_nothing
when check cited.bib --aux cited.aux; ends_with 2; writes_nothing; complains_of "'--aux'"

# A file that cannot be opened has one finding, an error.
when lint newline.bib; ends_with 1; prints 'newline.bib:1:16: error: 6 UnbalancedBrace\n'; says_nothing

# Every fault of a file that is not valid: reading goes on with the next at-sign that begins an item, also in the same line; of
# one item the first fault alone is told. A brace that is not closed takes the rest of the file along.
finds '@misc{a, t = 1 u = 2, v = 3}\n@misc{b, w = x y}\n' 'linted.bib:1:16: error: 4 ExpectedCommaOrClose\nlinted.bib:2:16: error: 4 ExpectedCommaOrClose\n'
finds '@misc{a b} @misc{c d}' 'linted.bib:1:9: error: 4 ExpectedCommaOrClose\nlinted.bib:1:20: error: 4 ExpectedCommaOrClose\n'
finds '@string{m = }\n@misc{a, t = m # n}' 'linted.bib:1:13: error: 5 ExpectedValue\n'
finds '@misc{a @misc{b}' 'linted.bib:1:9: error: 4 ExpectedCommaOrClose\n'
finds '@misc{a, t = {x}\n@misc{b, t = {y}' 'linted.bib:2:1: error: 4 ExpectedCommaOrClose\nlinted.bib:2:17: error: 1 Unended\n'
finds '@string{1}@misc{a, 1 = 2}@misc{b, t 2}@misc{c, t = }@misc{d, t = "}"}@misc{e x}@misc{' 'linted.bib:1:9: error: 2 ExpectedName\nlinted.bib:1:20: error: 2 ExpectedName\nlinted.bib:1:37: error: 3 ExpectedEquals\nlinted.bib:1:52: error: 5 ExpectedValue\nlinted.bib:1:67: error: 6 UnbalancedBrace\nlinted.bib:1:78: error: 4 ExpectedCommaOrClose\nlinted.bib:1:86: error: 1 Unended\n'

# A text that is too long, in a file that is valid or not, and a file that is too long.
when lint too_long_text.bib; ends_with 1; prints 'too_long_text.bib:1:483: error: 8 TextTooLong\n'; says_nothing
when lint too_long.bib; ends_with 1; prints 'too_long.bib:1:16777217: error: 9 FileTooLong\n'; says_nothing
when lint nothing.bib; ends_with 3; writes_nothing; says 'bibkeep: read fault'
when_shell_runs '"$program" lint reports.bib >/dev/full'; ends_with 3; says 'bibkeep: write fault'
