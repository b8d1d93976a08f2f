# One edit by its words, `--print`, `--new-journal`, `--no-journal` and `--all-or-nothing`.
# shellcheck shell=sh

has_no_journal() { expect 'a journal was left' test ! -e edited.bib.bibkeep; }

# ---- `edit F WORD..`

given_edit '@Book(l94, year=1994 , month = mai)\n' 'remove\tl94\n'
input=script
when edit edited.bib set L94 year 1995; ends_with 0; prints 'applied 1\n'; says_nothing; leaves '@Book(l94, year=1995 , month = mai)\n'
when log edited.bib; ends_with 0; prints 'done 1 4 4 set L94 year 1995\n'; says_nothing
when undo edited.bib; ends_with 0; prints 'undone 1\n'; leaves '@Book(l94, year=1994 , month = mai)\n'
when_shell_runs '"$program" edit edited.bib drop l94 month <&-'; ends_with 0; prints 'applied 1\n'; says_nothing; leaves '@Book(l94, year=1994 )\n'

# Each edit can be said so.
given_edit '@misc{a, t = 1,}\n@misc{b, u = 2,}\n' ''
when edit edited.bib add 1 book c title '{T}' year 1984; ends_with 0; prints 'applied 1\n'; leaves '@misc{a, t = 1,}\n@book{c,\n  title = {T},\n  year = 1984\n}\n@misc{b, u = 2,}\n'
when edit edited.bib remove c; ends_with 0; prints 'applied 1\n'
when edit edited.bib move b 0; ends_with 0; prints 'applied 1\n'
given_edit '@misc{a, t = {x}, u = {x}}\n@misc{b, crossref = {a}}\n@misc{c, author = {Leslie Lamport}, year = 1994}\n' ''
when edit edited.bib rename-key a d; ends_with 0; prints 'applied 1\n'; leaves '@misc{d, t = {x}, u = {x}}\n@misc{b, crossref = {d}}\n@misc{c, author = {Leslie Lamport}, year = 1994}\n'
when edit edited.bib introduce m x; ends_with 0; prints 'applied 1\n'
when edit edited.bib rename-macro m n; ends_with 0; prints 'applied 1\n'
when edit edited.bib inline n; ends_with 0; prints 'applied 1\n'; leaves '\n@misc{d, t = {x}, u = {x}}\n@misc{b, crossref = {d}}\n@misc{c, author = {Leslie Lamport}, year = 1994}\n'
when edit edited.bib regenerate; ends_with 0; prints 'applied 1\n'
when edit edited.bib regenerate 2; ends_with 0; prints 'applied 1\n'; leaves '\n@misc{anon, t = {x}, u = {x}}\n@misc{anona, crossref = {anon}}\n@misc{Lam94, author = {Leslie Lamport}, year = 1994}\n'

# A word may hold what no line of a script can, and percent signs and backslashes are only themselves.
given_edit '@misc{a}' ''
given wanted_file '@misc{a,\n  note = {50%% of \\vec x\tand\nmore}}'
when edit edited.bib set a note "$(printf '{50%% of \\vec x\tand\nmore}')"; ends_with 0; prints 'applied 1\n'; says_nothing
expect 'the file is another one' cmp -s wanted_file edited.bib
when log edited.bib; prints 'done 1 0 35 set a note {50%% of \\vec x and more}\n'

# A label has at most 255 bytes, and ends with a whole character.
given_edit '@misc{a}' ''
when edit edited.bib set a t "{$(printf '%300s' '' | tr ' ' x)}"; ends_with 0; prints 'applied 1\n'
when_shell_runs '"$program" log edited.bib | cut -d " " -f 5- | tr -d "\n" | wc -c'; prints '255\n'
given_edit '@misc{a}' ''
accent=$(printf '\303\251')
when edit edited.bib set a t "{$(printf '%300s' '' | sed "s/ /$accent/g")}"; ends_with 0; prints 'applied 1\n'
when_shell_runs '"$program" log edited.bib | cut -d " " -f 5- | tr -d "\n" | wc -c'; prints '255\n'
if command -v iconv >/dev/null; then
    when_shell_runs '"$program" log edited.bib | iconv -f UTF-8 -t UTF-8 | wc -l'; prints '1\n'; says_nothing
fi
given_edit '@misc{a}' ''
when edit edited.bib set a tt "{$(printf '%300s' '' | sed "s/ /$accent/g")}"; ends_with 0; prints 'applied 1\n'
when_shell_runs '"$program" log edited.bib | cut -d " " -f 5- | tr -d "\n" | wc -c'; prints '254\n'

# Words that say no edit, and an edit that is refused; no line is told.
given_edit '@inproceedings{c, crossref = {p}}@proceedings{p}' ''
when edit edited.bib remove p; ends_with 1; prints 'applied 0\n'; says 'bibkeep: 39 Referred'; leaves '@inproceedings{c, crossref = {p}}@proceedings{p}'; has_no_journal
when edit edited.bib remove q; ends_with 1; prints 'applied 0\n'; says 'bibkeep: 35 NotFound'; has_no_journal
for words in remove 'set c t' 'remove p q' 'group g' end 'undo' 'move c x' 'regenerate 9'; do
    # shellcheck disable=SC2086
    when edit edited.bib $words; ends_with 1; prints 'applied 0\n'; says 'bibkeep: 71 BadScript'; has_no_journal
done
when edit edited.bib ''; ends_with 1; prints 'applied 0\n'; says 'bibkeep: 71 BadScript'; has_no_journal
when edit edited.bib "$(printf 'remove\tc')"; ends_with 1; prints 'applied 0\n'; says 'bibkeep: 71 BadScript'; has_no_journal
given_edit '@misc{a b}' ''
when edit edited.bib no such edit; ends_with 1; writes_nothing; says 'bibkeep: 4 ExpectedCommaOrClose at 8'; leaves '@misc{a b}'

# A word that begins with a hyphen stands after `--`.
given_edit '@misc{a}' ''
when edit edited.bib rename-key a -b; ends_with 2; writes_nothing; complains_of "'-b'"
when edit edited.bib -- rename-key a -b; ends_with 0; prints 'applied 1\n'; leaves '@misc{-b}'
when edit edited.bib rename-key -- -b --print; ends_with 0; prints 'applied 1\n'; leaves '@misc{--print}'

# ---- `--print`

given_edit '@misc{a, t = 1,}\n' 'set\ta\tt\t2\ndrop\ta\tq\nset\ta\tt\t3\n'
when edit edited.bib --print set a t 2; ends_with 0; prints '@misc{a, t = 2,}\n'; says_nothing; leaves '@misc{a, t = 1,}\n'; has_no_journal
when edit edited.bib set a t 2 --print; ends_with 0; prints '@misc{a, t = 2,}\n'; says_nothing; leaves '@misc{a, t = 1,}\n'; has_no_journal
input=script
when edit edited.bib --print; ends_with 1; prints '@misc{a, t = 2,}\n'; says 'bibkeep: line 2: 35 NotFound'; leaves '@misc{a, t = 1,}\n'; has_no_journal
when edit edited.bib --print; ends_with 0; prints '@misc{a, t = 1,}\n'; says_nothing; has_no_journal
when edit edited.bib --print drop a q; ends_with 1; writes_nothing; says 'bibkeep: 35 NotFound'; leaves '@misc{a, t = 1,}\n'; has_no_journal
when edit edited.bib --print drop; ends_with 1; writes_nothing; says 'bibkeep: 71 BadScript'; leaves '@misc{a, t = 1,}\n'; has_no_journal
when_shell_runs '"$program" edit edited.bib --print set a t 2 | diff -U 0 edited.bib - | grep "^[-+]@" | cut -c 2-'; ends_with 0; prints '@misc{a, t = 1,}\n@misc{a, t = 2,}\n'; says_nothing
when_shell_runs '"$program" edit edited.bib --print set a t 2 >/dev/full'; ends_with 3; says 'bibkeep: write fault'; leaves '@misc{a, t = 1,}\n'
when edit edited.bib set a t 2; ends_with 0
cp edited.bib.bibkeep wanted
when undo edited.bib --print; ends_with 0; prints '@misc{a, t = 1,}\n'; says_nothing; leaves '@misc{a, t = 2,}\n'
when undo edited.bib --print --steps 2; ends_with 1; prints '@misc{a, t = 1,}\n'; says 'bibkeep: 51 NothingToUndo'; leaves '@misc{a, t = 2,}\n'
when redo edited.bib --print; ends_with 1; writes_nothing; says 'bibkeep: 52 NothingToRedo'
expect 'the journal is another one' cmp -s wanted edited.bib.bibkeep
when undo edited.bib; ends_with 0
cp edited.bib.bibkeep wanted
when redo edited.bib --print; ends_with 0; prints '@misc{a, t = 2,}\n'; says_nothing; leaves '@misc{a, t = 1,}\n'
expect 'the journal is another one' cmp -s wanted edited.bib.bibkeep
given_edit '@misc{a}\n' 'TY  - BOOK\nID  - k\nTI  - Type\nER  - \n'
input=script
when import edited.bib --print; ends_with 0; prints '@misc{a}\n@book{k,\n  title = {Type}\n}\n'; says_nothing; leaves '@misc{a}\n'; has_no_journal
when check edited.bib --print; ends_with 2; writes_nothing; complains_of "'--print'"
when log edited.bib --print; ends_with 2; writes_nothing; complains_of "'--print'"

# ---- `--new-journal`

# A journal that does not fit, or is none, is refused, and begun anew by the option alone.
for journal in "$removed" "$removed_before" bib; do
    given_journal abd "$journal"
    when edit edited.bib add 0 misc k; ends_with 1; writes_nothing; leaves abd; keeps "$journal"
    when edit edited.bib --new-journal --print add 0 misc k; ends_with 0; prints 'abd@misc{k}\n'; says_nothing; leaves abd; keeps "$journal"
    when edit edited.bib --new-journal add 0 misc k; ends_with 0; prints 'applied 1\n'; says_nothing; leaves 'abd@misc{k}\n'
    when log edited.bib; ends_with 0; prints 'done 1 0 9 add 0 misc k\n'; says_nothing
    when undo edited.bib --steps 2; ends_with 1; prints 'undone 1\n'; says 'bibkeep: 51 NothingToUndo'; leaves abd
done
given_journal abd bib
given script 'add\t0\tmisc\tk\n'
input=script
when edit edited.bib --new-journal; ends_with 0; prints 'applied 1\n'; says_nothing; leaves 'abd@misc{k}\n'
given_journal abd bib
given script 'TY  - BOOK\nID  - k\nER  - \n'
input=script
when import edited.bib; ends_with 1; writes_nothing; says 'bibkeep: 53 BadJournal at 3'
input=script
when import edited.bib --new-journal; ends_with 0; prints 'added 1 skipped 0\n'; says_nothing
when log edited.bib; ends_with 0; prints 'done 1 0 9\n'; says_nothing

# One that fits is kept, and where there is none, it changes nothing.
given_journal abc "$removed"
when edit edited.bib --new-journal add 0 misc m; ends_with 0; prints 'applied 1\n'; says_nothing; leaves 'abc@misc{m}\n'
when undo edited.bib --steps 2; ends_with 0; prints 'undone 2\n'; leaves 'abc@misc{k}'
given_edit abc ''
when edit edited.bib --new-journal add 0 misc m; ends_with 0; prints 'applied 1\n'; says_nothing; leaves 'abc@misc{m}\n'

# A refused edit leaves the journal that does not fit, and a file that cannot be read is refused first.
given_journal abd "$removed"
when edit edited.bib --new-journal remove m; ends_with 1; prints 'applied 0\n'; says 'bibkeep: 35 NotFound'; leaves abd; keeps "$removed"
given_journal '@misc{' bib
when edit edited.bib --new-journal remove m; ends_with 1; writes_nothing; says 'bibkeep: 1 Unended at 6'; keeps bib
when undo edited.bib --new-journal; ends_with 2; writes_nothing; complains_of "'--new-journal'"
rm -f edited.bib.bibkeep

# ---- `--no-journal`

# No journal is written, and undo finds none.
given_edit '@misc{a, t = 1}\n' ''
when edit edited.bib --no-journal set a t 2; ends_with 0; prints 'applied 1\n'; says_nothing; leaves '@misc{a, t = 2}\n'; has_no_journal
when undo edited.bib; ends_with 1; prints 'undone 0\n'; says 'bibkeep: 51 NothingToUndo'; leaves '@misc{a, t = 2}\n'
given_edit '@misc{a, t = 1}\n' 'set\ta\tt\t2\ndrop\ta\tq\n'
input=script
when edit edited.bib --no-journal; ends_with 1; prints 'applied 1\n'; says 'bibkeep: line 2: 35 NotFound'; leaves '@misc{a, t = 2}\n'; has_no_journal
given_edit '@misc{a}\n' 'TY  - BOOK\nID  - k\nER  - \n'
input=script
when import edited.bib --no-journal; ends_with 0; prints 'added 1 skipped 0\n'; says_nothing; leaves '@misc{a}\n@book{k}\n'; has_no_journal

# None is read, whatever is there, and it stays; the next command that reads it finds that it does not fit.
for journal in "$removed" "$removed_before" bib; do
    given_journal abd "$journal"
    when edit edited.bib --no-journal add 0 misc k; ends_with 0; prints 'applied 1\n'; says_nothing; leaves 'abd@misc{k}\n'; keeps "$journal"
    when edit edited.bib --no-journal --new-journal remove k; ends_with 0; prints 'applied 1\n'; says_nothing; leaves 'abd\n'; keeps "$journal"
done
given_journal abc "$removed"
when edit edited.bib --no-journal add 0 misc m; ends_with 0; leaves 'abc@misc{m}\n'; keeps "$removed"
when undo edited.bib; ends_with 1; writes_nothing; says 'bibkeep: 54 JournalMismatch'
when edit edited.bib --no-journal --print remove m; ends_with 0; prints 'abc\n'; says_nothing; leaves 'abc@misc{m}\n'; keeps "$removed"
rm -f edited.bib.bibkeep
mkdir edited.bib.bibkeep
when edit edited.bib --no-journal remove m; ends_with 0; prints 'applied 1\n'; says_nothing; leaves 'abc\n'
rmdir edited.bib.bibkeep
when undo edited.bib --no-journal; ends_with 2; writes_nothing; complains_of "'--no-journal'"
when check edited.bib --no-journal; ends_with 2; writes_nothing; complains_of "'--no-journal'"

# ---- `--all-or-nothing`

# A script is stored whole or not at all.
given_edit '@misc{a, t = 1}\n' 'set\ta\tt\t2\ndrop\ta\tq\nset\ta\tt\t3\n'
input=script
when edit edited.bib --all-or-nothing; ends_with 1; prints 'applied 0\n'; says 'bibkeep: line 2: 35 NotFound'; leaves '@misc{a, t = 1}\n'; has_no_journal
input=script
when edit edited.bib --all-or-nothing --print; ends_with 1; writes_nothing; says 'bibkeep: line 2: 35 NotFound'; leaves '@misc{a, t = 1}\n'; has_no_journal
given_edit '@misc{a, t = 1}\n' 'set\ta\tt\t2\ngroup\tg\nset\ta\tu\t2\nno\n'
input=script
when edit edited.bib --all-or-nothing; ends_with 1; prints 'applied 0\n'; says 'bibkeep: line 4: 71 BadScript'; leaves '@misc{a, t = 1}\n'; has_no_journal
given_edit '@misc{a, t = 1}\n' 'set\ta\tt\t2\nset\ta\tt\t3\n'
input=script
when edit edited.bib --all-or-nothing; ends_with 0; prints 'applied 2\n'; says_nothing; leaves '@misc{a, t = 3}\n'
when undo edited.bib --steps 2; ends_with 0; prints 'undone 2\n'; leaves '@misc{a, t = 1}\n'
# what was to be redone still can be
given script 'set\ta\tt\t2\ndrop\ta\tq\n'
input=script
when edit edited.bib --all-or-nothing; ends_with 1; prints 'applied 0\n'; says 'bibkeep: line 2: 35 NotFound'
when redo edited.bib --steps 2; ends_with 0; prints 'redone 2\n'; leaves '@misc{a, t = 3}\n'
when edit edited.bib --all-or-nothing drop a q; ends_with 1; prints 'applied 0\n'; says 'bibkeep: 35 NotFound'; leaves '@misc{a, t = 3}\n'
given_edit '@misc{' ''
when edit edited.bib --all-or-nothing remove m; ends_with 1; writes_nothing; says 'bibkeep: 1 Unended at 6'
when import edited.bib --all-or-nothing; ends_with 2; writes_nothing; complains_of "'--all-or-nothing'"
