# What is said at a terminal.
# shellcheck shell=sh

# Runs the program with these streams at a terminal.
when_at() {
    streams=$1
    shift
    begin "at a terminal: $*"
    python3 "$root/tests/program/at_terminal.py" "$streams" "$program" "$@" <"$input" >seen/out 2>seen/errors
    status=$?
    input=/dev/null
}

given screen.bib '@misc{a\033b, t = {x\tx\177\302\233y\302\240z\303\251\233},\r\n u = 1}\n'

# Control bytes are shown; tabs, line feeds and all other bytes pass.
when_at output cat screen.bib; ends_with 0; prints '@misc{a^[b, t = {x\tx^?M-^[y\302\240z\303\251\233},^M\n u = 1}\n'
when_at output edit screen.bib --print set "$(printf 'a\033b')" u 2; ends_with 0; mentions '@misc{a^[b'
when_at output cite screen.bib '*'; ends_with 0; prints 'a^[b\n'
when cat screen.bib; ends_with 0; writes screen.bib
when cite screen.bib '*'; ends_with 0; prints 'a\033b\n'
when lint screen.bib; ends_with 1; prints 'screen.bib:1:7: warning: key a^[b is none that an edit could write [odd-key]\nscreen.bib:1:16: warning: field t is not UTF-8: 24 NotUtf8 [not-utf8]\n'
given latin.bib '@misc{a\033b, t = {\351}}\n'
when json latin.bib '*'; ends_with 1; says 'bibkeep: 24 NotUtf8 in a^[b'

# A long text is shown whole.
given_length long.txt 70000
when_at output cat long.txt; ends_with 0; writes long.txt

# At a terminal hints follow the message.
given screen.bib '@misc{a, t = 1}\n'
when_at errors show screen.bib b; ends_with 1; prints "bibkeep: 11 NoSuchEntry\n  no entry of screen.bib has the key b\n  bibkeep cite screen.bib '*' lists the keys\n  bibkeep explain 11 says more\n"
when_at output show screen.bib b; ends_with 1; writes_nothing; says 'bibkeep: 11 NoSuchEntry'
when_at errors undo screen.bib 2; ends_with 2; mentions '  type the number of changes so: bibkeep undo F --steps 2'

# A command that waits for input says so.
given typed.txt 'set\ta\tt\t2\n'
input=typed.txt; when_at input,errors edit screen.bib; ends_with 0; mentions '  type the lines of a script, their words separated by tabs, and end with Ctrl-D'; mentions 'applied 1'
given typed.txt 'TY  - BOOK\nER  - \n'
input=typed.txt; when_at input,errors import screen.bib --print; ends_with 0; mentions '  type or paste RIS records, and end with Ctrl-D'
given typed.txt '@misc{a}\n'
given typed.txt '@misc{typed}\n'
input=typed.txt; when_at input,errors insert screen.bib --print; ends_with 0; mentions '  type or paste BibTeX entries, and end with Ctrl-D'
input=typed.txt; when_at input,errors cat; ends_with 0; mentions '  type or paste a BibTeX file, and end with Ctrl-D'

# The reader of the output is gone: no message.
given_length many.txt 200000
when_shell_runs '{ "$program" cat many.txt; echo $? >seen/status; } | head -c 1 >/dev/null; read -r it <seen/status; exit "$it"'; ends_with 3; says_nothing
when_shell_runs '{ "$program" cat many.txt --hints; echo $? >seen/status; } | head -c 1 >/dev/null; read -r it <seen/status; exit "$it"'; ends_with 3; says_nothing

# Without a word it prints its help.
when; ends_with 2; writes_nothing; complains_of 'Edits BibTeX files'; complains_of 'bibkeep check refs.bib'
