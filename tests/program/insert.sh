# `bibkeep insert`, and positions in the lines of scripts.
# shellcheck shell=sh

# A file to which nothing was done, and a text to be put in.
given_insert() {
    rm -f put.bib.bibkeep
    given put.bib "$1"
    given text "$2"
}

# The file is now this one.
puts() {
    given wanted_file "$1"
    expect 'the file is another one' cmp -s wanted_file put.bib
}

# Nothing was stored.
is_as_given() {
    puts "$1"
    expect 'there is a journal' test ! -e put.bib.bibkeep
}

insert() {
    input=text
    when insert put.bib "$@"
}

# The text is put in at this position, and says that so many entries were added; undo gives back the file.
becomes() {
    ends_with 0; prints "added $1\n"; says_nothing; puts "$2"
    when undo put.bib; ends_with 0; prints 'undone 1\n'; says_nothing
    expect 'undo does not give back the file' cmp -s given_file put.bib
}

# A case of one line: file, text, number of entries, new file, and the position if there is one.
case_of() {
    given_insert "$1" "$2"
    cp put.bib given_file
    wanted_count=$3 wanted_bytes=$4
    shift 4
    insert "$@"; becomes "$wanted_count" "$wanted_bytes"
}

# A text that is refused: the message, file, text, and the position if there is one.
refused_case() {
    wanted_message=$1 wanted_bytes=$2
    given_insert "$2" "$3"
    shift 3
    insert "$@"; ends_with 1; writes_nothing; says "bibkeep: $wanted_message"; is_as_given "$wanted_bytes"
}

# ---- where a text comes

# At the end: a line end comes before it only if the last line is not ended.
case_of '@misc{a}\n' '@book{b}\n' 1 '@misc{a}\n@book{b}\n'
case_of '@misc{a}\n' '@book{b}\n' 1 '@misc{a}\n@book{b}\n' end
case_of '@misc{a}\n' '@book{b}\n' 1 '@misc{a}\n@book{b}\n' 1
case_of '@misc{a}' '@book{b}' 1 '@misc{a}\n@book{b}'
case_of '@misc{a}' '@book{b}' 1 '@misc{a}\n@book{b}' 1
case_of '@misc{a}' '@book{b}' 1 '@misc{a}\n@book{b}' after:a
case_of '@misc{a} tail' '\n@book{b}' 1 '@misc{a} tail\n\n@book{b}'
case_of '@misc{a}\r' '@book{b}' 1 '@misc{a}\r\n@book{b}'
case_of '@misc{a}\n\n ' '@book{b}\n' 1 '@misc{a}\n\n \n@book{b}\n'
case_of '' '@book{b}\n' 1 '@book{b}\n'
case_of '' '@book{b}' 1 '@book{b}' 0
case_of 'front' '@book{b}\n' 1 'front\n@book{b}\n'
case_of 'front\n' '@book{b}\n' 1 'front\n@book{b}\n'

# Before all items, or between two of them, it is put in byte for byte, after the text that stands before that item.
case_of '@misc{a}\n' '@book{b}\n' 1 '@book{b}\n@misc{a}\n' 0
case_of '@misc{a}' '@book{b}' 1 '@book{b}@misc{a}' 0
case_of 'front @misc{a}' '@book{b}' 1 'front @book{b}@misc{a}' 0
case_of '@misc{a} x\n@misc{c}' '@book{b}\n' 1 '@misc{a} x\n@book{b}\n@misc{c}' 1
case_of '@misc{a} x\n@misc{c}' '@book{b}\n' 1 '@misc{a} x\n@book{b}\n@misc{c}' before:c
case_of '@misc{a} x\n@misc{c}' '@book{b}\n' 1 '@misc{a} x\n@book{b}\n@misc{c}' after:a
case_of '@misc{a}@misc{c}' '@book{b}' 1 '@misc{a}@book{b}@misc{c}' before:c
case_of '@comment{x}@string{m = 1}@preamble{m}@misc{c}' '@book{b}' 1 '@comment{x}@string{m = 1}@book{b}@preamble{m}@misc{c}' 2
case_of '@comment{x}@string{m = 1}@preamble{m}@misc{c}' '@book{b}' 1 '@comment{x}@string{m = 1}@preamble{m}@book{b}@misc{c}' 0003

# Keys of positions are folded, and have any byte that a key in a file may have.
case_of '@misc{Key}@misc{c}' '@book{b}' 1 '@book{b}@misc{Key}@misc{c}' before:kEY
case_of '@misc{Key}@misc{c}' '@book{b}' 1 '@misc{Key}@book{b}@misc{c}' after:KEY
case_of '@misc{end}@misc{c}' '@book{b}' 1 '@misc{end}@book{b}@misc{c}' after:end
case_of '@misc{a:b}@misc{before:c}' '@book{b}' 1 '@misc{a:b}@book{b}@misc{before:c}' before:before:c
case_of '@misc{a"}@misc{c}' '@book{b}' 1 '@misc{a"}@book{b}@misc{c}' 'after:a"'
case_of '@misc{-x}@misc{c}' '@book{b}' 1 '@misc{-x}@book{b}@misc{c}' after:-x

# ---- what is put in

# Comments, macros, preambles and text around entries come with them; only entries are counted.
case_of '@misc{a}\n' '%% from a page\n@string{m = {M}}\n@preamble{m}\n@comment{no}\n@book{b, t = m}\n@book{c}\ntail' 2 '@misc{a}\n%% from a page\n@string{m = {M}}\n@preamble{m}\n@comment{no}\n@book{b, t = m}\n@book{c}\ntail'
case_of '@misc{a}\n' 'no item at all\n' 0 '@misc{a}\nno item at all\n'
case_of '@misc{a}@misc{b}' ' and ' 0 '@misc{a} and @misc{b}' 1
case_of '@misc{a}' '@string{m = 1}' 0 '@misc{a}\n@string{m = 1}'
case_of '@misc{a}\n' '@book( b ,\r\n  T = "x" # m\r\n)\r\n' 1 '@misc{a}\n@book( b ,\r\n  T = "x" # m\r\n)\r\n'
case_of '@misc{a}\r\n' '@book{b}\r\n' 1 '@misc{a}\r\n@book{b}\r\n'
case_of '@misc{a}\n' '\357\273\277@book{b}\n' 1 '@misc{a}\n\357\273\277@book{b}\n'
case_of '@misc{a}\n' '@book{b\377, t = {\200}}\n' 1 '@misc{a}\n@book{b\377, t = {\200}}\n'
case_of '@misc{a}\n' '@book{b, t = {a\000b}}\n' 1 '@misc{a}\n@book{b, t = {a\000b}}\n'
case_of '@misc{a}\n' '@book{--help}\n@book{-x, t = 1}\n' 2 '@misc{a}\n@book{--help}\n@book{-x, t = 1}\n'
case_of '@misc{a}\n' '@set{undo}\n@end{group}\n' 2 '@misc{a}\n@set{undo}\n@end{group}\n'
# An entry may use macros that only the file defines, and name a parent that only the file has.
case_of '@string{m = {M}}@misc{p}\n' '@book{b, t = m, crossref = {P}}\n' 1 '@string{m = {M}}@misc{p}\n@book{b, t = m, crossref = {P}}\n'
# A month is no macro of the file; a macro may be defined twice in the text; an empty key is no key.
case_of '@misc{a}\n' '@string{jan = 1}@string{m = 1}@string{M = 2}\n' 0 '@misc{a}\n@string{jan = 1}@string{m = 1}@string{M = 2}\n'
case_of '@misc{}\n' '@misc{}@misc{, t = 1}\n' 2 '@misc{}\n@misc{}@misc{, t = 1}\n'
# A key that the file has twice is no hindrance to another one.
case_of '@misc{a}@misc{A}@misc{c}' '@book{b}' 1 '@misc{a}@misc{A}@book{b}@misc{c}' before:c

# The empty text is a change that does nothing: not even a line end is put in.
case_of '@misc{a}' '' 0 '@misc{a}'
case_of '@misc{a}' '' 0 '@misc{a}' 0
case_of '' '' 0 ''
given_insert '@misc{a}' ''
insert; ends_with 0; prints 'added 0\n'
when log put.bib; ends_with 0; prints 'done 0 0 0\n'

# ---- what is refused, with file and journal unchanged

refused_case '1 Unended at 8 in standard input' '@misc{a}' '@book{b\n'
refused_case '2 ExpectedName at 8 in standard input' '@misc{a}' '@book{b,,}'
refused_case '4 ExpectedCommaOrClose at 8 in standard input' '@misc{a}' '@book{b c}'
refused_case '6 UnbalancedBrace at 15 in standard input' '@misc{a}' '@misc{x, t = "x}y"}'
refused_case '1 Unended at 6 in standard input' '@misc{a}' '@misc{' before:zz
refused_case '34 BadPosition' '@misc{a}' '@book{b}' 2
refused_case '34 BadPosition' '@misc{a}' '@book{a}' 2
refused_case '34 BadPosition' '' '@book{b}' 1
for position in '' x -0 +0 1234567890 ' 1' '1 ' 0x1 End END 'end ' before after before=a Before:a first 1,5; do
    given_insert '@misc{a}' '@book{b}'
    input=text
    when insert put.bib -- "$position"; ends_with 1; writes_nothing; says 'bibkeep: 34 BadPosition'; is_as_given '@misc{a}'
done
# What is no position is refused before the text is read; the text before the key of a position and before a number.
refused_case '34 BadPosition' '@misc{a}' '@book{' x
refused_case '1 Unended at 6 in standard input' '@misc{a}' '@book{' 2
refused_case '35 NotFound' '@misc{a}' '@book{b}' before:zz
refused_case '35 NotFound' '@misc{a}' '@book{b}' after:b
refused_case '35 NotFound' '@misc{a}' '@book{b}' before:
refused_case '35 NotFound' '@misc{}@misc{a}' '@book{b}' after:
refused_case '35 NotFound' '@misc{a}' '@book{b}' 'before: a'
refused_case '35 NotFound' '@misc{a}' '@book{a}' before:zz
refused_case '36 Ambiguous' '@misc{a}@misc{A}' '@book{b}' before:a
refused_case '36 Ambiguous' '@misc{a}@misc{A}' '@book{a}' after:A
refused_case '37 KeyInUse' '@misc{a}' '@book{A}'
refused_case '37 KeyInUse' '@misc{a}@misc{A}' '@book{A}'
refused_case '37 KeyInUse' '@misc{a}' '@book{b}@misc{c}@book{B}' 0
refused_case '37 KeyInUse' '@string{m = 1}@misc{a}' '@string{m = 1}@book{a}' 0
refused_case '38 NameInUse' '@string{m = 1}@misc{a}' '@string{M = 2}@book{b}' 0
refused_case '38 NameInUse' '@string{m = {x}}' '@string{m = {y}}'
refused_case '40 WouldMerge' '@misc{a} see @book @misc{c}' '{b}@misc{d}' after:a
refused_case '40 WouldMerge' '@misc{a}\n@book' '{b}'
# Between two items text that is read as an item only together is refused; with the text before it ended by a word it is not.
case_of '@misc{a}\nmail x@book' 'b}\n@misc{d}\n' 1 '@misc{a}\nmail x@book\nb}\n@misc{d}\n'
refused_case '38 NameInUse' '@string{m = 1}@misc{a} @book' '{ @string{m = 2}'

# A definition that says what the file says there is left out, with the white space behind it, and the rest is put in.
case_of '@string{m = {x}}\n' '@string{M = "x"}\n\n@book{b, t = m}\n' 1 '@string{m = {x}}\n@book{b, t = m}\n'
case_of '@string{m = 12}\n@misc{a}\n' '%% of a page\n@book{b}\n@string(M={12})\n' 1 '@string{m = 12}\n@misc{a}\n%% of a page\n@book{b}\n'
case_of '@string{m = {x}}' '@string{m = {x}}' 0 '@string{m = {x}}'
case_of '@string{m = {x}}\n@misc{a}\n' '%% all\n@string{m = {x}}\n@string{n = {y}}\n@string{m = "x"} @book{b, t = m # n}' 1 '@string{m = {x}}\n%% all\n@string{n = {y}}\n@book{b, t = m # n}@misc{a}\n' 1
# What the macro stands for at the position counts: there, before its definition, or after the second.
refused_case '38 NameInUse' '@misc{a}\n@string{m = {x}}' '@string{m = {x}}@book{b}' 0
refused_case '38 NameInUse' '@string{m = {x}}\n@string{m = {y}}' '@string{m = {x}}@book{b}'
case_of '@string{m = {x}}\n@string{m = {y}}' '@string{m = {y}}@book{b}' 1 '@string{m = {x}}\n@string{m = {y}}\n@book{b}'
case_of '@string{m = {x}}\n@string{m = {y}}' '@string{m = {x}}@book{b}' 1 '@string{m = {x}}\n@book{b}@string{m = {y}}' 1
# A value of several parts, or of a macro, is not compared; text behind a definition keeps it; and other reasons come as before.
refused_case '38 NameInUse' '@string{m = {xy}}' '@string{m = "x" # "y"}@book{b}'
refused_case '38 NameInUse' '@string{n = 1}@string{m = n}' '@string{m = n}@book{b}'
refused_case '38 NameInUse' '@string{m = {x}}' '@string{m = {x}} see @book{b}'
refused_case '38 NameInUse' '@string{m = {x}}' '@string{m = {x}}@string{m = {y}}'
refused_case '37 KeyInUse' '@string{m = {x}}@misc{b}' '@string{m = {x}}@book{b}'
refused_case '40 WouldMerge' '@string{m = 1}@misc{a} @book' '{ @string{m = 1}'

# A text of more than 16 MiB is refused whole, and so is a file that would be longer.
given_insert '@misc{a}' ''
cp too_long.bib text
insert; ends_with 1; writes_nothing; says 'bibkeep: 9 FileTooLong at 16777216'; is_as_given '@misc{a}'
given_length text 16777208
insert; ends_with 1; writes_nothing; says 'bibkeep: 9 FileTooLong'; is_as_given '@misc{a}'
given_length text 16777207
insert; ends_with 0; prints 'added 0\n'; says_nothing
when_shell_runs 'wc -c <put.bib'; prints '16777216\n'
# A text that macros would make too long: in the text alone with a place, in the new file without.
given_insert '@string{m = {x}}\n@string{n = m # m}\n' ''
when_shell_runs '(printf "@string{l = {"; head -c 600000 /dev/zero | tr "\\0" x; printf "}}\n") >long; cat long >>put.bib; printf "@misc{a, t = l # l}\n" >text; cp put.bib kept.bib'
ends_with 0
insert; ends_with 1; writes_nothing; says 'bibkeep: 8 TextTooLong'
expect 'the file is another one' cmp -s kept.bib put.bib
when_shell_runs 'cat long text >whole; mv whole text'
ends_with 0
given put.bib '@misc{z}\n'
insert; ends_with 1; writes_nothing; complains_of 'bibkeep: 8 TextTooLong at '; complains_of ' in standard input'; is_as_given '@misc{z}\n'

# A file that is not valid is refused first, with its own place.
given_insert '@misc{' '@book{'
insert x; ends_with 1; writes_nothing; says 'bibkeep: 1 Unended at 6'; is_as_given '@misc{'
given_insert '@misc{a}' '@book{b}'
given put.bib.bibkeep 'x\n'
insert; ends_with 1; writes_nothing; says 'bibkeep: 53 BadJournal at 0'; puts '@misc{a}'
insert --new-journal; ends_with 0; prints 'added 1\n'; puts '@misc{a}\n@book{b}'
when log put.bib; prints 'done 1 0 9\n'
given put.bib '@misc{z}'
insert; ends_with 1; writes_nothing; says 'bibkeep: 54 JournalMismatch'; puts '@misc{z}'
# A full journal refuses the text (41) before it is known whether a text would be too long (8), and after all else.
given edited.bib '@misc{a, t = 1}\n'
rm -f edited.bib.bibkeep
when_shell_runs 'cat long >>edited.bib; yes "$(printf "set\\ta\\tt\\t1")" | head -n 65535 >script; "$program" edit edited.bib <script'
ends_with 0; prints 'applied 65535\n'
given text '@misc{b, t = l # l}\n'
input=text; when insert edited.bib; ends_with 1; writes_nothing; says 'bibkeep: 41 JournalFull'
given text '@misc{A}\n'
input=text; when insert edited.bib; ends_with 1; writes_nothing; says 'bibkeep: 37 KeyInUse'
when undo edited.bib; ends_with 0; prints 'undone 1\n'
given text '@misc{b, t = l # l}\n'
input=text; when insert edited.bib; ends_with 1; writes_nothing; says 'bibkeep: 8 TextTooLong'
given text '@misc{b}\n'
input=text; when insert edited.bib --print; ends_with 0; says_nothing

# ---- options

given_insert '@misc{a}' '@book{b}\n'
insert --print; ends_with 0; prints '@misc{a}\n@book{b}\n'; says_nothing; is_as_given '@misc{a}'
insert --print 0; ends_with 0; prints '@book{b}\n@misc{a}'; says_nothing; is_as_given '@misc{a}'
insert 0 --print; ends_with 0; prints '@book{b}\n@misc{a}'; is_as_given '@misc{a}'
insert --print before:zz; ends_with 1; writes_nothing; says 'bibkeep: 35 NotFound'; is_as_given '@misc{a}'
insert --no-journal; ends_with 0; prints 'added 1\n'; says_nothing; is_as_given '@misc{a}\n@book{b}\n'
insert --no-journal; ends_with 1; writes_nothing; says 'bibkeep: 37 KeyInUse'; is_as_given '@misc{a}\n@book{b}\n'
given_insert '@misc{a}' '@book{b}\n'
given put.bib.bibkeep 'x\n'
insert --no-journal; ends_with 0; prints 'added 1\n'; puts '@misc{a}\n@book{b}\n'
when_shell_runs 'cat put.bib.bibkeep'; prints 'x\n'
insert 0 1; ends_with 2; writes_nothing; complains_of 'unexpected argument'
insert --all-or-nothing; ends_with 2; writes_nothing
insert -1; ends_with 2; writes_nothing
input=text; when insert; ends_with 2; writes_nothing; complains_of '<F>'
if can keep_streams_closed; then
    when_shell_runs '"$program" insert put.bib <&-'; ends_with 3; writes_nothing; says 'bibkeep: read fault'
fi
when_shell_runs '"$program" insert put.bib <.'; ends_with 3; writes_nothing; says 'bibkeep: read fault'
when insert no_such.bib; ends_with 3; writes_nothing; says 'bibkeep: read fault'

# ---- with undo, redo, log and edits

given_insert '@misc{a}' '@book{b}\n@book{c}'
insert; ends_with 0; prints 'added 2\n'
when log put.bib; ends_with 0; prints 'done 1 0 18\n'
when undo put.bib; ends_with 0; prints 'undone 1\n'; puts '@misc{a}'
when log put.bib; ends_with 0; prints 'undone 1 0 18\n'
when redo put.bib; ends_with 0; prints 'redone 1\n'; puts '@misc{a}\n@book{b}\n@book{c}'
when edit put.bib rename-key b d; ends_with 0
given text '@book{b}\n'
insert before:a; ends_with 0; prints 'added 1\n'; puts '@book{b}\n@misc{a}\n@book{d}\n@book{c}'
when undo put.bib --steps 2; ends_with 0; prints 'undone 2\n'; puts '@misc{a}\n@book{b}\n@book{c}'
# A text that is put in after an undo takes the place of what could be redone.
given text '@book{e}\n'
insert 0; ends_with 0; prints 'added 1\n'; puts '@book{e}\n@misc{a}\n@book{b}\n@book{c}'
when redo put.bib; ends_with 1; prints 'redone 0\n'; says 'bibkeep: 52 NothingToRedo'
when undo put.bib --steps 2; ends_with 0; prints 'undone 2\n'; puts '@misc{a}'

# ---- links and pipes

given_insert '@misc{a}' '@book{b}\n'
mkdir -p elsewhere
mv put.bib elsewhere/put_real.bib
ln -s elsewhere/put_real.bib put.bib
insert; ends_with 0; prints 'added 1\n'; puts '@misc{a}\n@book{b}\n'
when_shell_runs 'test -h put.bib && ls elsewhere/put_real.bib*'; prints 'elsewhere/put_real.bib\nelsewhere/put_real.bib.bibkeep\n'
rm put.bib
given_insert '@misc{a}' '@book{b}\n'
given precious 'export GOOD=1\n'
ln -s precious put.bib.bibkeep
insert; ends_with 1; writes_nothing; says 'bibkeep: 53 BadJournal at 0'; puts '@misc{a}'
when_shell_runs 'cat precious'; prints 'export GOOD=1\n'
given_insert '@misc{a}' '@book{b}\n'
chmod 640 put.bib
when_shell_runs '(printf "@book"; sleep 0.1; printf "{b}\n") | "$program" insert put.bib after:a'; ends_with 0; prints 'added 1\n'; puts '@misc{a}\n@book{b}\n'
when_shell_runs 'stat -c "%a" put.bib put.bib.bibkeep'; prints '640\n640\n'
when_shell_runs '"$program" entry put.bib b | "$program" insert --print put.bib'; ends_with 1; writes_nothing; says 'bibkeep: 37 KeyInUse'

# ---- positions in scripts, and as words

given_positions() {
    rm -f edited.bib.bibkeep
    given edited.bib "$1"
    given script "$2"
}

# A script that makes so many edits of a file.
script_of() {
    given_positions "$1" "$2"
    cp edited.bib given_file
    edit; ends_with 0; prints "applied $3\n"; says_nothing; leaves "$4"
    when undo edited.bib --steps "$3"; ends_with 0; expect 'undo does not give back the file' cmp -s given_file edited.bib
}

# A script whose first line is refused.
refused_script() {
    given_positions "$1" "$2"
    edit; ends_with 1; prints 'applied 0\n'; says "bibkeep: line 1: $3"; leaves "$1"
}

script_of '@misc{a}\n@misc{b}\n' 'add\tend\tbook\tc' 1 '@misc{a}\n@misc{b}\n@book{c}\n'
script_of '@misc{a}' 'add\tend\tbook\tc' 1 '@misc{a}@book{c}\n'
script_of '@misc{a}\n@misc{b}\n' 'add\tbefore:B\tbook\tc\tt\t{x}' 1 '@misc{a}\n@book{c,\n  t = {x}\n}\n@misc{b}\n'
script_of '@misc{a}\n@misc{b}\n' 'add\tafter:a\tbook\tc' 1 '@misc{a}\n@book{c}\n@misc{b}\n'
script_of '@misc{a}\n@misc{b}\n' 'add\tafter:b\tbook\tc' 1 '@misc{a}\n@misc{b}\n@book{c}\n'
script_of '@misc{a}\n@misc{b}\n' 'add\tbefore:a\tbook\tc' 1 '@book{c}\n@misc{a}\n@misc{b}\n'
script_of '' 'add\tend\tbook\tc' 1 '@book{c}\n'
# The entry that moves is not counted.
script_of '@misc{a}@misc{b}@misc{c}' 'move\ta\tend' 1 '@misc{b}@misc{c}@misc{a}\n'
script_of '@misc{a}@misc{b}@misc{c}' 'move\ta\tafter:b' 1 '@misc{b}@misc{a}\n@misc{c}'
script_of '@misc{a}@misc{b}@misc{c}' 'move\tc\tafter:A' 1 '@misc{a}@misc{c}\n@misc{b}'
script_of '@misc{a}@misc{b}@misc{c}' 'move\tc\tbefore:a' 1 '@misc{c}\n@misc{a}@misc{b}'
script_of '@misc{a}@misc{b}@misc{c}' 'move\ta\tbefore:c' 1 '@misc{b}@misc{a}\n@misc{c}'
script_of '@misc{a}@misc{b}@misc{c}' 'move\tc\tbefore:b' 1 '@misc{a}@misc{c}\n@misc{b}'
script_of '@comment{x}@misc{a}@string{m=1}@misc{b}@preamble{m}' 'move\ta\tafter:b' 1 '@comment{x}@string{m=1}@misc{b}@misc{a}\n@preamble{m}'
# To its own place: after itself, before itself, after the one before it, before the one after it, at the end.
script_of '@misc{a}@misc{b}@misc{c}' 'move\tb\tafter:b' 1 '@misc{a}@misc{b}\n@misc{c}'
script_of '@misc{a}@misc{b}@misc{c}' 'move\tb\tbefore:B' 1 '@misc{a}@misc{b}\n@misc{c}'
script_of '@misc{a}@misc{b}@misc{c}' 'move\tb\tafter:a' 1 '@misc{a}@misc{b}\n@misc{c}'
script_of '@misc{a}@misc{b}@misc{c}' 'move\tb\tbefore:c' 1 '@misc{a}@misc{b}\n@misc{c}'
script_of '@misc{a}@misc{b}@misc{c}' 'move\tb\t1' 1 '@misc{a}@misc{b}\n@misc{c}'
script_of '@misc{a}@misc{b}@misc{c}' 'move\tc\tend' 1 '@misc{a}@misc{b}@misc{c}\n'
# A position is one of the file that the lines before it left.
script_of '@misc{a}\n@misc{b}\n' 'add\tend\tbook\tc\nadd\tafter:c\tbook\td\nmove\tc\tbefore:a' 3 '@book{c}\n@misc{a}\n@misc{b}\n\n@book{d}\n'
script_of '@misc{a}\n@misc{b}\n' 'rename-key\ta\tz\nadd\tafter:z\tbook\tc' 2 '@misc{z}\n@book{c}\n@misc{b}\n'
script_of '@misc{a}\n@misc{b}\n' 'remove\tb\nadd\tend\tbook\tb' 2 '@misc{a}\n\n@book{b}\n'
given_positions '@misc{a}\n@misc{b}\n' 'remove\tb\nadd\tafter:b\tbook\tc'
edit; ends_with 1; prints 'applied 1\n'; says 'bibkeep: line 2: 35 NotFound'; leaves '@misc{a}\n\n'
script_of '@misc{before:a}@misc{a}' 'move\ta\tbefore:before:a' 1 '@misc{a}\n@misc{before:a}'
# The key of the position is looked up before the edit is judged.
refused_script '@misc{a}' 'add\tbefore:zz\tbook\tc' '35 NotFound'
refused_script '@misc{a}' 'add\tbefore:zz\tbook\ta' '35 NotFound'
refused_script '@misc{a}' 'add\tbefore:zz\tstring\tc' '35 NotFound'
refused_script '@misc{a}@misc{A}' 'add\tafter:a\tbook\ta' '36 Ambiguous'
refused_script '@misc{a}' 'add\tafter:a\tbook\ta' '37 KeyInUse'
refused_script '@misc{a}' 'add\tend\tstring\tc' '32 BadName'
refused_script '@misc{a}' 'move\tzz\tafter:a' '35 NotFound'
refused_script '@misc{a}' 'move\ta\tafter:zz' '35 NotFound'
refused_script '@misc{a}@misc{b}@misc{B}' 'move\ta\tafter:b' '36 Ambiguous'
refused_script '@misc{a}@misc{b}@misc{B}' 'move\tb\tafter:a' '36 Ambiguous'
refused_script '@misc{a}' 'add\tbefore:\tbook\tc' '35 NotFound'
for position in End before after first -1 '' 'end ' before.a; do
    refused_script '@misc{a}' "add\\t$position\\tbook\\tc" '71 BadScript'
    refused_script '@misc{a}' "move\\ta\\t$position" '71 BadScript'
done
# As words; the label in the log is the words.
given_positions '@misc{a}\n@misc{b}\n' ''
when edit edited.bib add after:a book c; ends_with 0; prints 'applied 1\n'; leaves '@misc{a}\n@book{c}\n@misc{b}\n'
when edit edited.bib move b before:a; ends_with 0; prints 'applied 1\n'; leaves '@misc{b}\n@misc{a}\n@book{c}\n\n'
when edit edited.bib move b end; ends_with 0; leaves '\n@misc{a}\n@book{c}\n\n@misc{b}\n'
when log edited.bib; ends_with 0; prints 'done 1 0 9 add after:a book c\ndone 2 8 9 move b before:a\ndone 2 8 9 move b end\n'
when edit edited.bib add before:zz book d; ends_with 1; prints 'applied 0\n'; says 'bibkeep: 35 NotFound'
when edit edited.bib add First book d; ends_with 1; prints 'applied 0\n'; says 'bibkeep: 71 BadScript'
when undo edited.bib --steps 3; ends_with 0; leaves '@misc{a}\n@misc{b}\n'
