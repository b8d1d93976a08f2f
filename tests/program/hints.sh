# Hints: which, where, and what now.
# shellcheck shell=sh

given hinted.bib '@string{cup = "CUP"}\n@string{twice = "a"}\n@string{twice = "b"}\n@book{knuth, author = {Donald E. Knuth},\n  title = {One},\n  title = {Two}}\n@inproceedings{ld86, title = {One}, crossref = {podc}}\n@inproceedings{ld87, title = {Two}, crossref = "PODC"}\n@proceedings{podc, title = {Proc}, year = 1986, publisher = Cup}\n@misc{dup, t = 1}\n@misc{DUP, t = 2}\n@misc{orphan, crossref = {nobody}}\n'

# One edit with hints, which stores nothing: it says the message and these lines.
when_edited() {
    when edit hinted.bib --hints --print "$@"
    ends_with 1
}

hinted() {
    says "bibkeep: $1
$2
  bibkeep explain ${1%% *} says more"
}

# Which key, field or macro, and which line.
when json hinted.bib --hints knuth k1 k2 k3 k4; ends_with 1; hinted '11 NoSuchEntry' "  no entry of hinted.bib has the key k1
  no entry of hinted.bib has the key k2
  no entry of hinted.bib has the key k3
  and 1 more
  bibkeep cite hinted.bib '*' lists the keys"
when_edited rename-key knuth 'a b'; hinted '31 BadKey' '  a b can be no key: a key has 1 to 255 bytes, and no space, control byte, comma or brace'
when_edited set knuth 'a=b' 1; hinted '32 BadName' '  a=b can be no name of a field'
when_edited add 0 string new; hinted '32 BadName' '  string is no type of an entry, such as book or article'
when_edited set knuth author 'Knuth, Donald'; hinted '33 BadValue' "  Knuth, Donald is not written as a value in a file
  a text is written in braces: '{Knuth, Donald}'"
when_edited set knuth author '{x} '; hinted '33 BadValue' '  the value begins or ends with white space: {x} '
when_edited set knuth author '{x'; hinted '33 BadValue' '  {x is not written as a value in a file
  its braces do not match'
when_edited add 0 misc new t ''; hinted '33 BadValue' '  the value is empty: an empty text is written {}'
when_edited introduce new 'a}'; hinted '33 BadValue' '  the braces of the text a} do not match'
when_edited add 11 misc new; hinted '34 BadPosition' '  hinted.bib has 10 items, counted from 0; that number is the end of the file'
when_edited move knuth 10; hinted '34 BadPosition' '  hinted.bib has 9 other items, counted from 0; that number moves the entry to the end'
when_edited set nobody t 1; hinted '35 NotFound' "  no entry of hinted.bib has the key nobody
  bibkeep cite hinted.bib '*' lists the keys"
when_edited drop knuth note; hinted '35 NotFound' '  the entry knuth has no field note of its own
  bibkeep show hinted.bib knuth prints its fields; change an inherited one in the parent'
when_edited inline no; hinted '35 NotFound' '  hinted.bib does not define the macro no
  grep -in @string hinted.bib lists the definitions'
when_edited inline jan; hinted '35 NotFound' '  hinted.bib does not define the month jan, and need not'
when_edited introduce new none; hinted '35 NotFound' '  no value has the whole part {none}, nor the same in quotes'
when_edited set dup t 3; hinted '36 Ambiguous' '  the key dup is that of 2 entries: lines 10 and 11
  dup,2 is the second; to remove it, type: bibkeep edit hinted.bib remove dup,2'
when_edited set knuth title 3; hinted '36 Ambiguous' '  the entry knuth has the field title twice: lines 5 and 6
  title,2 is the second; to remove it, type: bibkeep edit hinted.bib drop knuth title,2'
when_edited inline twice; hinted '36 Ambiguous' '  the macro twice is defined 2 times: lines 2 and 3
  twice,2 is the second; to remove it, type: bibkeep edit hinted.bib undefine twice,2'
when_edited rename-key knuth PODC; hinted '37 KeyInUse' '  the entry in line 9 has the key podc already'
when_edited rename-key knuth nobody; hinted '37 KeyInUse' '  the crossref of orphan in line 12 names nobody, which no entry has
  the renamed entry would become its parent'
when_edited rename-macro cup twice; hinted '38 NameInUse' '  the macro twice is defined in line 2 already'
when_edited rename-macro cup jan; hinted '38 NameInUse' '  jan is the name of a month'
when_edited remove podc; hinted '39 Referred' '  the crossref of ld86 in line 7 names podc
  the crossref of ld87 in line 8 names podc
  first type, for each of them: bibkeep edit hinted.bib drop ld87 crossref'
when_edited undefine cup; hinted '39 Referred' "  a value in line 9 uses the macro cup
  bibkeep edit hinted.bib inline cup writes the macro's text for its uses, and removes the definition"
when_edited define CUP '{C}'; hinted '38 NameInUse' "  the macro CUP is defined in line 1 already
  bibkeep edit hinted.bib set-macro CUP '{C}' gives it another value"
when_edited define 1x '{C}'; hinted '32 BadName' '  1x can be no name of a macro'
when_edited set-macro cup C U; hinted '71 BadScript' '  its words are: set-macro NAME VALUE
  bibkeep help edit says more'
when_edited set-macro twice '{c}'; hinted '36 Ambiguous' '  the macro twice is defined 2 times: lines 2 and 3
  twice,2 is the second; to remove it, type: bibkeep edit hinted.bib undefine twice,2'
when_edited rename-field Crossref x; hinted '32 BadName' '  a crossref names a parent: no field loses this name, and none gets it'
when_edited rename-field title 1x; hinted '32 BadName' '  1x can be no name of a field'
when_edited rename-field x y; hinted '35 NotFound' '  no entry of hinted.bib has a field x'
when_edited rename-field title x; hinted '36 Ambiguous' '  the entry knuth in line 4 would have the field x twice'
when_edited rename-field x y ld86; hinted '35 NotFound' '  the entry ld86 has no field x of its own
  bibkeep show hinted.bib ld86 prints its fields; change an inherited one in the parent'
when_edited rename-field title year podc; hinted '36 Ambiguous' '  the entry podc in line 9 would have the field year twice'
when_edited remove dup,3; hinted '35 NotFound' '  entries of hinted.bib with the key dup: 2'
when_edited set nobody,2 t 1; hinted '35 NotFound' "  no entry of hinted.bib has the key nobody
  bibkeep cite hinted.bib '*' lists the keys"
when_edited drop dup,2 note; hinted '35 NotFound' '  the entry dup,2 has no field note of its own'
when_edited drop knuth title,3; hinted '35 NotFound' '  the entry knuth has no field title,3 of its own
  bibkeep show hinted.bib knuth prints its fields; change an inherited one in the parent'
when_edited set-macro twice,3 1; hinted '35 NotFound' '  definitions in hinted.bib of the macro twice: 2'
when_edited rename-field x y dup,2; hinted '35 NotFound' '  the entry dup,2 has no field x of its own'
when_edited rename-field t u dup,3; hinted '35 NotFound' '  entries of hinted.bib with the key dup: 2'
when_edited drop knuth,1 title; hinted '36 Ambiguous' '  the entry knuth,1 has the field title twice: lines 5 and 6
  title,2 is the second; to remove it, type: bibkeep edit hinted.bib drop knuth,1 title,2'
when_edited rename-field title year podc,1; hinted '36 Ambiguous' '  the entry podc in line 9 would have the field year twice'
when_edited remove podc,1; hinted '39 Referred' '  the crossref of ld86 in line 7 names podc
  the crossref of ld87 in line 8 names podc
  first type, for each of them: bibkeep edit hinted.bib drop ld87 crossref'
when_edited undefine cup,1; hinted '39 Referred' '  a value in line 9 uses the macro cup'
when_edited undefine twice; hinted '36 Ambiguous' '  the macro twice is defined 2 times: lines 2 and 3
  twice,2 is the second; to remove it, type: bibkeep edit hinted.bib undefine twice,2'
when_edited rename-field t u dup; hinted '36 Ambiguous' '  the key dup is that of 2 entries: lines 10 and 11
  dup,2 is the second; to remove it, type: bibkeep edit hinted.bib remove dup,2'
when_edited remove dup,0; hinted '35 NotFound' "  no entry of hinted.bib has the key dup,0
  bibkeep cite hinted.bib '*' lists the keys"
when_edited move knuth after:dup,3; hinted '35 NotFound' '  entries of hinted.bib with the key dup: 2'
when_edited set knuth title,0 1; hinted '32 BadName' '  title,0 can be no name of a field'
when_edited drop knuth title,0; hinted '32 BadName' '  title,0 can be no name of a field'
when_edited undefine twice,0; hinted '32 BadName' '  twice,0 can be no name of a macro'
when_edited rename-macro twice,2 new; hinted '32 BadName' '  twice,2 can be no name of a macro'
when_edited rename-macro cup new,2; hinted '32 BadName' '  new,2 can be no name of a macro'
when_edited rename-key dup,2 podc; hinted '37 KeyInUse' '  the entry in line 9 has the key podc already'
when_edited rename-key dup,2 DUP; hinted '37 KeyInUse' '  the entry in line 10 has the key dup already'
when_edited set-type knuth string; hinted '32 BadName' '  string is no type of an entry, such as book or article'
when_edited retype knuth book; hinted '71 BadScript' '  retype is no edit
  the edits: set drop add remove move set-type rename-key rename-field rename-macro inline introduce undefine define set-macro regenerate; in a script also group end'
when_edited drop knuth; hinted '71 BadScript' '  its words are: drop KEY FIELD
  bibkeep help edit says more'
when explain --hints foo; ends_with 1; hinted '13 NoSuchFault' '  foo is neither the number nor the name of a fault'
given last.bib '@misc{a,\n  t = 1}@misc{b}\n'
when cite last.bib --hints --bibtex '*'; ends_with 1; hinted '14 NotPlain at 17' '  last.bib, line 2, column 9
  the line: t = 1}@misc{b}
  in the last line of the file: echo >> last.bib ends the file with an empty line
  in an entry whose key an earlier entry has: take this entry out'
when json hinted.bib --hints --bibtex '*' nobody; ends_with 1; hinted '11 NoSuchEntry' "  no entry of hinted.bib has the key nobody
  bibkeep cite hinted.bib '*' lists the keys"
when labels hinted.bib --hints --bibtex '*' nobody; ends_with 1; hinted '11 NoSuchEntry' "  no entry of hinted.bib has the key nobody
  bibkeep cite hinted.bib '*' lists the keys"
when show hinted.bib --hints --bibtex '*'; ends_with 1; hinted '11 NoSuchEntry' "  no entry of hinted.bib has the key *
  bibkeep cite hinted.bib '*' lists the keys"
when names hinted.bib --hints --bibtex '*' '{ll}'; ends_with 1; hinted '11 NoSuchEntry' "  no entry of hinted.bib has the key *
  bibkeep cite hinted.bib '*' lists the keys"
when undo hinted.bib --hints; ends_with 1; hinted '51 NothingToUndo' '  bibkeep log hinted.bib lists the changes'

# A position: what it may be, and which key it names.
when_edited add after:nobody misc new; hinted '35 NotFound' "  no entry of hinted.bib has the key nobody
  bibkeep cite hinted.bib '*' lists the keys"
when_edited move nobody before:podc; hinted '35 NotFound' "  no entry of hinted.bib has the key nobody
  bibkeep cite hinted.bib '*' lists the keys"
when_edited move nobody before:none; hinted '35 NotFound' "  no entry of hinted.bib has the key none
  bibkeep cite hinted.bib '*' lists the keys"
when_edited add before:dup,3 misc new; hinted '35 NotFound' '  entries of hinted.bib with the key dup: 2'
when_edited add before:DUP misc new; hinted '36 Ambiguous' '  the key DUP is that of 2 entries: lines 10 and 11
  DUP,2 is the second; to remove it, type: bibkeep edit hinted.bib remove DUP,2'
when_edited move knuth after:dup; hinted '36 Ambiguous' '  the key dup is that of 2 entries: lines 10 and 11
  dup,2 is the second; to remove it, type: bibkeep edit hinted.bib remove dup,2'
when_edited move dup after:knuth; hinted '36 Ambiguous' '  the key dup is that of 2 entries: lines 10 and 11
  dup,2 is the second; to remove it, type: bibkeep edit hinted.bib remove dup,2'
when_edited add end misc new t 1 T 2; hinted '36 Ambiguous' '  the new entry has a field twice'
when_edited add first misc new; hinted '71 BadScript' '  its words are: add POSITION TYPE KEY FIELD VALUE ..
  a position is a number of items from 0, end, before:KEY or after:KEY
  bibkeep help edit says more'
when_edited move knuth -- -1; hinted '71 BadScript' '  its words are: move KEY POSITION
  a position is a number of items from 0, end, before:KEY or after:KEY
  bibkeep help edit says more'

# A text that is put in: its line and column, which key or macro, and where.
when_inserted() {
    given hinted.text "$1"
    shift
    input=hinted.text
    when insert hinted.bib --hints --print "$@"
    ends_with 1
}
when_inserted 'one\n@misc{a,\n  t = "x}y"}\n'; says 'bibkeep: 6 UnbalancedBrace at 21 in standard input
  standard input, line 3, column 9
  the line: t = "x}y"}
  bibkeep explain 6 says more'
when_inserted '@misc{a,\n  t = 1\n'; says 'bibkeep: 1 Unended at 17 in standard input
  standard input, line 3, column 1
  bibkeep explain 1 says more'
when_inserted '@misc{new}\n\n@misc{Knuth}\n@misc{podc}\n'; hinted '37 KeyInUse' '  line 3 of the input has the key Knuth, which is that of the entry in line 4 of hinted.bib
  give the entry of the input another key, or leave it out'
when_inserted '@misc{}@misc{}\n@misc{new}\n@misc{other}@misc{NEW}\n'; hinted '37 KeyInUse' '  lines 2 and 3 of the input have the same key: NEW
  give the entry of the input another key, or leave it out'
when_inserted '@misc{new}\n@string{other = 1}@string{TWICE = "c"}\n'; hinted '38 NameInUse' '  line 2 of the input defines the macro TWICE, as line 2 of hinted.bib does
  leave the definition out of the input, if both give the same text'
when_inserted '@misc{new}\n@string{cup = "CUP"}@misc{b}\n@string{twice = "c"}\n'; hinted '38 NameInUse' '  line 3 of the input defines the macro twice, as line 2 of hinted.bib does
  leave the definition out of the input, if both give the same text'
when_inserted '@string{cup = "CUP"} see\n@misc{b}\n'; hinted '38 NameInUse' '  line 1 of the input defines the macro cup, as line 1 of hinted.bib does
  leave the definition out of the input, if both give the same text'
when_inserted '@misc{new}' 11; hinted '34 BadPosition' '  hinted.bib has 10 items, counted from 0; that number is the end of the file'
when_inserted '@misc{new}' new.bib; hinted '34 BadPosition' '  new.bib is no position
  a position is a number of items from 0, end, before:KEY or after:KEY
  the text comes from standard input: bibkeep insert hinted.bib < FILE'
when_inserted '@misc{new}' after:nobody; hinted '35 NotFound' "  no entry of hinted.bib has the key nobody
  bibkeep cite hinted.bib '*' lists the keys"
when_inserted '@misc{new}' before:dup; hinted '36 Ambiguous' '  the key dup is that of 2 entries: lines 10 and 11
  dup,2 is the second; to remove it, type: bibkeep edit hinted.bib remove dup,2'
given hinted_joined.bib '@misc{a}\n@book'
given hinted.text '{b}'
input=hinted.text; when insert hinted_joined.bib --hints; ends_with 1; hinted '40 WouldMerge' '  the text before that position and the beginning of the input would be read as an item'
given hinted_bad.bib '@misc{'
input=hinted.text; when insert hinted_bad.bib --hints; ends_with 1; says 'bibkeep: 1 Unended at 6
  hinted_bad.bib, line 1, column 7
  the line: @misc{
  bibkeep explain 1 says more'

# A line of a script: the words are those of the line, and the file has the edits before it.
cp hinted.bib scripted.bib
given hinted.script 'add\t0\tmisc\tnew\nremove\tnew\r\nremove\tnew\n'
input=hinted.script; when edit scripted.bib --hints; ends_with 1; says "bibkeep: line 3: 35 NotFound
  no entry of scripted.bib has the key new
  bibkeep cite scripted.bib '*' lists the keys
  bibkeep explain 35 says more"
given hinted.script '@article{x, title={y}}\n'
input=hinted.script; when edit hinted.bib --hints; ends_with 1; says 'bibkeep: line 1: 71 BadScript
  the line: @article{x, title={y}}
  this looks like BibTeX
  a script has one edit on each line, its words separated by tabs
  bibkeep explain 71 says more'
given hinted.script 'set knuth t 3\n'
input=hinted.script; when edit hinted.bib --hints; ends_with 1; says 'bibkeep: line 1: 71 BadScript
  the line: set knuth t 3
  its words are separated by spaces; a script wants a tab between two words
  bibkeep explain 71 says more'

# Where a file, a journal or a RIS text goes wrong.
given hinted_bad.bib '@misc{a,\n  t = "x}y"}\n'
when check hinted_bad.bib --hints; ends_with 1; says 'bibkeep: 6 UnbalancedBrace at 17
  hinted_bad.bib, line 2, column 9
  the line: t = "x}y"}
  bibkeep explain 6 says more'
input=hinted_bad.bib; when cat --hints; ends_with 1; says 'bibkeep: 6 UnbalancedBrace at 17
  standard input, line 2, column 9
  the line: t = "x}y"}
  bibkeep explain 6 says more'
given hinted_new.bib '@misc{a, t = 1}\n'
when edit hinted_new.bib set a t 2; ends_with 0
given hinted_new.bib '@misc{b, t = 1}\n'
when log hinted_new.bib --hints; ends_with 1; hinted '54 JournalMismatch' '  hinted_new.bib was changed by an editor or another program since bibkeep stored it
  bibkeep forget hinted_new.bib goes on; what was done before can then no longer be undone'
given hinted_new.bib.bibkeep 'x\n'
when log hinted_new.bib --hints; ends_with 1; says 'bibkeep: 53 BadJournal at 0
  hinted_new.bib.bibkeep is not a journal of bibkeep
  bibkeep forget hinted_new.bib goes on; what was done before can then no longer be undone
  bibkeep explain 53 says more'
given hinted.ris 'TY  - BOOK\nTI  - One\nER  - \nTY  - BOOK\nTI  - a}b\nER  - \n'
input=hinted.ris; when import hinted.bib --hints; ends_with 1; hinted '64 UnbalancedText' '  record 2 of the input, line 5: TI  - a}b'
given hinted.ris 'TY  - BOOK\nTI  - a}b\nUR  - c}d\nER  - \n'
input=hinted.ris; when import hinted.bib --latex --hints; ends_with 1; hinted '64 UnbalancedText' '  record 1 of the input, line 3: UR  - c}d'
given hinted.ris 'TY  - BOOK\nXX  - q\nER  - \n'
input=hinted.ris; when import hinted.bib --strict --hints; ends_with 1; hinted '65 SkippedLine at 11' '  line 2 of the input: XX  - q
  all such lines are listed by: bibkeep import hinted.bib --skipped < FILE'
given hinted.ris 'TY  - BOOK\nTI  - One\nTY  - BOOK\nER  - \n'
input=hinted.ris; when import hinted.bib --hints; ends_with 1; says 'bibkeep: 62 NoEnd at 21
  the record that begins in line 1 of the input has no line ER before line 3  TI  - One
  write before that line: ER  - 
  bibkeep explain 62 says more'
given hinted.ris 'TY  - BOOK\nID  - PODC\nER  - \n'
input=hinted.ris; when import hinted.bib --hints; ends_with 1; hinted '37 KeyInUse' '  line 2 of the input has the ID PODC, which is the key in line 9 of hinted.bib
  give the record another ID, or remove that line'

# The system's reason.
when show hinted_none.bib --hints a; ends_with 3; says 'bibkeep: read fault
  hinted_none.bib: there is no such file'
when check --hints .; ends_with 3; says 'bibkeep: read fault
  .: it is a folder'
when edit --hints set hinted.bib knuth t 1; ends_with 3; says 'bibkeep: read fault
  set: there is no such file
  the file comes before the edit: bibkeep edit F set ..'
when lint --hints -- -; ends_with 3; says 'bibkeep: read fault
  -: there is no such file
  here - is the name of a file; /dev/stdin names standard input'
when_shell_runs '"$program" check hinted.bib --hints >/dev/full'; ends_with 3; says 'bibkeep: write fault
  standard output: no space is left'

# What was not refused, and does something else than it seems to do.
when edit hinted.bib --hints --print set knuth author Knuth; ends_with 0; says "  Knuth is a macro that is not defined: the field author is empty now
  a text is written in braces: bibkeep edit hinted.bib set knuth author '{Knuth}'"
when edit hinted.bib --hints --print set dup,2 note Knuth; ends_with 0; says "  Knuth is a macro that is not defined: the field note is empty now
  a text is written in braces: bibkeep edit hinted.bib set dup,2 note '{Knuth}'"
when edit hinted.bib --hints --print set knuth publisher CUP; ends_with 0; says_nothing
when edit hinted.bib --hints --print set knuth month MAY; ends_with 0; says_nothing
when edit hinted.bib --hints --print set knuth note '{Knuth}'; ends_with 0; says_nothing
input=hinted_bad.bib; when import hinted.bib --hints --print; ends_with 0; says '  no record in the input
  this looks like BibTeX; import reads RIS'

given hinted.text ' \n'
input=hinted.text; when insert hinted.bib --hints --no-journal; ends_with 0; prints 'added 0\n'; says '  the input is empty'
given hinted.text '<html>\n'
input=hinted.text; when insert hinted.bib --hints --no-journal; ends_with 0; prints 'added 0\n'; says '  no entry in the input'
given hinted.text '\357\273\277TY  - JOUR\nER  - \n'
input=hinted.text; when insert hinted.bib --hints --no-journal; ends_with 0; prints 'added 0\n'; says '  no entry in the input
  this looks like RIS; type: bibkeep import hinted.bib < FILE'
given hinted.text '@misc{new}\n'
input=hinted.text; when insert hinted.bib 0 --hints --no-journal; ends_with 0; prints 'added 1\n'; says_nothing
given hinted.text '@misc{newer}'
input=hinted.text; when insert hinted.bib --hints --no-journal; ends_with 0; prints 'added 1\n'; says_nothing
given hinted.text '@misc{newest}'
input=hinted.text; when insert hinted.bib --hints --no-journal after:new; ends_with 0; prints 'added 1\n'; says '  the last line of the input is not ended: what comes next in the file begins in it
  bibkeep undo hinted.bib takes the text out again'

# The words of the command line.
when undo hinted.bib 2 --hints; ends_with 2; complains_of '  type the number of changes so: bibkeep undo F --steps 2'
when undo hinted.bib --all --hints; ends_with 2; complains_of '  type the number of changes so: bibkeep undo F --steps 2'
when edit hinted.bib --hints --dry-run set a t 1; ends_with 2; complains_of '  --print shows the new file, and stores nothing'
when edit hinted.bib --hints add -1 misc a; ends_with 2; complains_of '  positions count from 0, and the number of items is the end of the file'
when edit hinted.bib --hints drop -k t; ends_with 2; complains_of '  put -- before words of an edit that begin with a hyphen'
when insert hinted.bib --hints -1; ends_with 2; complains_of '  a position is a number of items from 0, end, before:KEY or after:KEY'
when help regenerate --hints; ends_with 2; complains_of '  regenerate is an edit; type: bibkeep help edit'
when set hinted.bib --hints; ends_with 2; complains_of '  set is an edit; type: bibkeep edit F set ..'
when cite --hints hinted.bib; ends_with 2; complains_of "  a KEY is one of the file, or '*' for every entry"

# No file puts a control byte into hints, nor words that a shell runs, nor long lines.
given hostile_hints.bib '@misc{a\033[31m, t = 1}\n@misc{$(id), t = 1}\n@misc{A\033[31m, t = 2}\n'
when edit hostile_hints.bib --hints drop "$(printf 'a\033[31m')" t; ends_with 1; hinted '36 Ambiguous' '  the key a^[[31m is that of 2 entries: lines 1 and 3
  a^[[31m,2 is the second; to remove it, type: bibkeep edit hostile_hints.bib remove KEY,2'
when edit hostile_hints.bib --hints drop '$(id)' no; ends_with 1; hinted '35 NotFound' "  the entry \$(id) has no field no of its own
  bibkeep show hostile_hints.bib '\$(id)' prints its fields; change an inherited one in the parent"
when edit hostile_hints.bib --hints drop "$(printf 'x\ny')" no; ends_with 1; hinted '35 NotFound' "  no entry of hostile_hints.bib has the key x^Jy
  bibkeep cite hostile_hints.bib '*' lists the keys"
given "it's.bib" '@misc{a}\n'
when edit "it's.bib" --hints drop b t; ends_with 1; hinted '35 NotFound' "  no entry of it's.bib has the key b
  bibkeep cite F '*' lists the keys"
long=$(head -c 100 /dev/zero | tr '\0' k)
when edit hinted.bib --hints drop "$long" t; ends_with 1; hinted '35 NotFound' "  no entry of hinted.bib has the key $(head -c 60 /dev/zero | tr '\0' k)..
  bibkeep cite hinted.bib '*' lists the keys"

# Without the option, and without a terminal, nothing is said beside the message.
when edit hinted.bib remove podc; ends_with 1; says 'bibkeep: 39 Referred'
when edit hinted.bib --print set knuth author Knuth; ends_with 0; says_nothing

# Hints change nothing else, whatever the file.
if [ -z "${1-}" ] && command -v python3 >/dev/null; then
    when_shell_runs 'python3 "$root/tests/program/hints_change_nothing.py" "$program"'; ends_with 0; writes_nothing
fi
