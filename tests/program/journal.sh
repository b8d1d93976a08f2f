# `bibkeep undo`, `redo`, `log` and `forget`, over the journals that runs leave.
# shellcheck shell=sh

abc=ba7816bf8f01cfea414140de5dae2223b00361a396177a9cb410ff61f20015ad
removed="bibkeep 2\n$abc\n1 0\n\n1\n3 8 0\n@misc{k}\n"
# The same in version 1, which is read, and no longer written.
removed_before="bibkeep 1\n$abc\n1 0\n1\n3 8 0\n@misc{k}\n"

# A file with this journal.
given_journal() {
    given edited.bib "$1"
    given edited.bib.bibkeep "$2"
}

# The journal is now this one.
keeps() {
    given wanted_journal "$1"
    expect 'the journal is another one' cmp -s wanted_journal edited.bib.bibkeep
}

# One run removes an entry, the next takes it back, and a third does it again.
given_edit 'abc@misc{k}' 'remove\tk\n'
edit; ends_with 0; prints 'applied 1\n'; says_nothing; leaves abc; keeps "$removed"
when log edited.bib; ends_with 0; prints 'done 1 8 0\n'; says_nothing
when undo edited.bib; ends_with 0; prints 'undone 1\n'; says_nothing; leaves 'abc@misc{k}'
when log edited.bib; ends_with 0; prints 'undone 1 8 0\n'; says_nothing
when redo edited.bib; ends_with 0; prints 'redone 1\n'; says_nothing; leaves abc; keeps "$removed"
when undo edited.bib --steps 3; ends_with 1; prints 'undone 1\n'; says 'bibkeep: 51 NothingToUndo'; leaves 'abc@misc{k}'
when redo edited.bib --steps 2; ends_with 1; prints 'redone 1\n'; says 'bibkeep: 52 NothingToRedo'; leaves abc; keeps "$removed"

# A journal of version 1 is read, and written again in version 2.
given_journal abc "$removed_before"
when log edited.bib; ends_with 0; prints 'done 1 8 0\n'; says_nothing; keeps "$removed_before"
when undo edited.bib; ends_with 0; prints 'undone 1\n'; says_nothing; leaves 'abc@misc{k}'
when redo edited.bib; ends_with 0; prints 'redone 1\n'; says_nothing; leaves abc; keeps "$removed"

# A step may have a label.
given_journal abc "bibkeep 2\n$abc\n1 0\nclear all\n1\n3 8 0\n@misc{k}\n"
when log edited.bib; ends_with 0; prints 'done 1 8 0 clear all\n'; says_nothing
when undo edited.bib; ends_with 0; prints 'undone 1\n'; says_nothing; leaves 'abc@misc{k}'
when log edited.bib; ends_with 0; prints 'undone 1 8 0 clear all\n'; says_nothing

# Several lines of a script may be one step, which is taken back at once; it is ended where the script is.
given_edit '@misc{a, t = 1,}' 'group\ttwo\nset\ta\ty\t{2}\nset\ta\tz\t{3}\nend\n'
edit; ends_with 0; prints 'applied 2\n'; says_nothing
when log edited.bib; ends_with 0; prints 'done 1 0 22 two\n'; says_nothing
when undo edited.bib; ends_with 0; prints 'undone 1\n'; says_nothing; leaves '@misc{a, t = 1,}'
given_edit '@misc{a, t = 1,}' 'group\tg\nset\ta\ty\t{2}\ndrop\ta\tq\n'
edit; ends_with 1; prints 'applied 1\n'; says 'bibkeep: line 3: 35 NotFound'
when log edited.bib; ends_with 0; prints 'done 1 0 11 g\n'; says_nothing
given script 'set\ta\tz\t{3}\n'
edit; ends_with 0; prints 'applied 1\n'; says_nothing
when log edited.bib; ends_with 0; prints 'done 1 0 11 g\ndone 1 0 11\n'; says_nothing
given_edit '@misc{a}' 'group\tg\nset\ta\ty\t{2}\ngroup\th\n'
edit; ends_with 1; prints 'applied 1\n'; says 'bibkeep: line 3: 55 StepOpen'
given_edit '@misc{a}' 'set\ta\ty\t{2}\nend\n'
edit; ends_with 1; prints 'applied 1\n'; says 'bibkeep: line 2: 56 NoOpenStep'
given_edit '@misc{a}' 'group\tg\nend\n'
edit; ends_with 0; prints 'applied 0\n'; says_nothing
when log edited.bib; ends_with 0; writes_nothing; says_nothing
for line in 'group' 'group\ta\tb' 'group\ta\001b' 'end\tg'; do
    given_edit '@misc{a}' "$line\n"
    edit; ends_with 1; prints 'applied 0\n'; says 'bibkeep: line 1: 71 BadScript'; leaves '@misc{a}'
done

# Where nothing is done, nothing is written.
given_edit '' ''
when undo edited.bib; ends_with 1; prints 'undone 0\n'; says 'bibkeep: 51 NothingToUndo'; leaves ''
expect 'a journal was left' test ! -e edited.bib.bibkeep
when log edited.bib; ends_with 0; writes_nothing; says_nothing
edit; ends_with 0; prints 'applied 0\n'; says_nothing
when_shell_runs 'wc -c <edited.bib.bibkeep'; prints '79\n'

# A journal may be begun anew.
given_journal abc 'no journal'
when forget edited.bib; ends_with 0; writes_nothing; says_nothing; leaves abc; keeps "bibkeep 2\n$abc\n0 0\n"
when forget too_long.bib; ends_with 1; writes_nothing; says 'bibkeep: 9 FileTooLong at 16777216'

# What could be redone goes with the next edit, be it in another run.
given_edit '@misc{a, t = 1,}' 'set\ta\ty\t{2}\nset\ta\tz\t{3}\n'
edit; ends_with 0
when undo edited.bib --steps 2; ends_with 0; prints 'undone 2\n'; leaves '@misc{a, t = 1,}'
given script 'set\ta\tw\t{4}\n'
edit; ends_with 0; leaves '@misc{a, t = 1,\n  w = {4},}'
when redo edited.bib; ends_with 1; prints 'redone 0\n'; says 'bibkeep: 52 NothingToRedo'; leaves '@misc{a, t = 1,\n  w = {4},}'
when log edited.bib; ends_with 0; prints 'done 1 0 11\n'

# The edits before a refused line are kept in the journal.
given_edit '@misc{a, t = 1,}' 'set\ta\ty\t{2}\ndrop\ta\tq\nset\ta\tz\t3\n'
edit; ends_with 1; prints 'applied 1\n'; says 'bibkeep: line 2: 35 NotFound'
when undo edited.bib; ends_with 0; prints 'undone 1\n'; leaves '@misc{a, t = 1,}'

# A journal that is none, or that is not the file's, is refused, and nothing is written.
refuses_journal() {
    for command in undo redo log edit; do
        given_journal "$2" "$3"
        when "$command" edited.bib
        ends_with 1; writes_nothing; says "bibkeep: $1"; leaves "$2"; keeps "$3"
    done
}
refuses_journal '53 BadJournal at 75' abc "bibkeep 1\n$abc\n01 0\n1\n3 8 0\n@misc{k}\n"
refuses_journal '53 BadJournal at 0' abc "bibkeep 3\n$abc\n1 0\n1\n3 8 0\n@misc{k}\n"
refuses_journal '53 BadJournal at 79' abc "bibkeep 2\n$abc\n1 0\n\001\n1\n3 8 0\n@misc{k}\n"
refuses_journal '53 BadJournal at 3' abc bib
refuses_journal '54 JournalMismatch' abd "$removed"
refuses_journal '54 JournalMismatch' abc "bibkeep 1\n$abc\n1 0\n1\n4 8 0\n@misc{k}\n"
refuses_journal '54 JournalMismatch' abc "bibkeep 1\n$abc\n1 0\n1\n3 8 0\n@misc{k]\n"
refuses_journal '1 Unended at 6' '@misc{' "$removed"

# Other commands do not look at it.
given_journal '@misc{k}' bib
when check edited.bib; ends_with 0; says_nothing
when show edited.bib k; ends_with 0; says_nothing

# The journal has the permissions of the file, and a symbolic link has that of the file that it points to.
given_edit '@misc{a}' 'set\ta\tt\t1\n'
chmod 640 edited.bib
edit; ends_with 0
when_shell_runs 'stat -c %a edited.bib.bibkeep'; prints '640\n'
mkdir -p elsewhere
rm -f elsewhere/*
mv edited.bib edited.bib.bibkeep elsewhere
ln -s elsewhere/edited.bib edited.bib
when undo edited.bib; ends_with 0; prints 'undone 1\n'; leaves '@misc{a}'
when_shell_runs 'ls elsewhere'; prints 'edited.bib\nedited.bib.bibkeep\n'
rm edited.bib

# What cannot be read or written is a fault, and nothing is changed.
given_edit '@misc{a}' 'set\ta\tt\t1\n'
mkdir edited.bib.bibkeep
when undo edited.bib; ends_with 3; writes_nothing; says 'bibkeep: read fault'
rmdir edited.bib.bibkeep
mkdir edited.bib.bibkeep.bibkeep-new
edit; ends_with 3; prints 'applied 1\n'; says 'bibkeep: write fault'; leaves '@misc{a}'
expect 'a new file was left' test ! -e edited.bib.bibkeep-new
rmdir edited.bib.bibkeep.bibkeep-new
