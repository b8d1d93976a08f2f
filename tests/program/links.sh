# What may stand in the place of the file or of its journal: links, folders, devices, pipes, a second name of the file; and
# which permissions new files get.
# shellcheck shell=sh

# A file, nothing in the place of its journal, and another file, to which a link may lead.
given_alone() {
    rm -rf edited.bib edited.bib.bibkeep
    given edited.bib '@misc{a, t = 1}'
    given precious 'export GOOD=1\n'
    given one.ris 'TY  - JOUR\nER  - \n'
}

is_unchanged() {
    leaves '@misc{a, t = 1}'
    expect 'a new file was left' test ! -e edited.bib.bibkeep-new -a ! -e edited.bib.bibkeep.bibkeep-new
    leaves_the_other
}

leaves_the_other() {
    given wanted_other 'export GOOD=1\n'
    expect 'another file was changed' cmp -s wanted_other precious
}

has_a_journal() {
    expect 'the journal is no file' test -f edited.bib.bibkeep
    expect 'the journal is a link' test ! -h edited.bib.bibkeep
    expect 'a new file was left' test ! -e edited.bib.bibkeep-new -a ! -e edited.bib.bibkeep.bibkeep-new
    leaves_the_other
}

# ---- a link in the place of the journal is not followed

for target in precious edited.bib nowhere edited.bib.bibkeep /dev/null; do
    given_alone
    ln -s "$target" edited.bib.bibkeep
    for command in log undo redo; do
        when "$command" edited.bib; ends_with 1; writes_nothing; says 'bibkeep: 53 BadJournal at 0'; is_unchanged
    done
    when edit edited.bib --print set a t 2; ends_with 1; writes_nothing; says 'bibkeep: 53 BadJournal at 0'; is_unchanged
    when edit edited.bib set a t 2; ends_with 1; writes_nothing; says 'bibkeep: 53 BadJournal at 0'; is_unchanged
    input=one.ris
    when import edited.bib; ends_with 1; writes_nothing; says 'bibkeep: 53 BadJournal at 0'; is_unchanged
    expect 'the link is gone' test -h edited.bib.bibkeep
    when show edited.bib a; ends_with 0; says_nothing

    # What starts a new journal replaces the link.
    when forget edited.bib; ends_with 0; writes_nothing; says_nothing; is_unchanged; has_a_journal
    rm edited.bib.bibkeep
    ln -s "$target" edited.bib.bibkeep
    when edit edited.bib --new-journal set a t 2; ends_with 0; prints 'applied 1\n'; says_nothing; leaves '@misc{a, t = 2}'; has_a_journal
    when undo edited.bib; ends_with 0; prints 'undone 1\n'; is_unchanged
done

# ---- what is no file is not replaced

is_refused() {
    when log edited.bib; ends_with 3; writes_nothing; says 'bibkeep: read fault'; is_unchanged
    when edit edited.bib --new-journal set a t 2; ends_with 3; writes_nothing; says 'bibkeep: read fault'; is_unchanged
    when forget edited.bib; ends_with 3; writes_nothing; says 'bibkeep: write fault'; is_unchanged
    when show edited.bib a; ends_with 0; says_nothing
}
given_alone
mkdir edited.bib.bibkeep
is_refused
expect 'the folder is gone' test -d edited.bib.bibkeep
given_alone
mkfifo edited.bib.bibkeep
is_refused
expect 'the pipe is gone' test -p edited.bib.bibkeep
given_alone
if mknod edited.bib.bibkeep c 1 3 2>seen/errors; then
    is_refused
    expect 'the device is gone' test -c edited.bib.bibkeep
fi

# The journal may be the file itself, under a second name.
given_alone
ln edited.bib edited.bib.bibkeep
when log edited.bib; ends_with 1; complains_of '53 BadJournal'; is_unchanged
when edit edited.bib --new-journal set a t 2; ends_with 3; writes_nothing; says 'bibkeep: write fault'; is_unchanged
when forget edited.bib; ends_with 3; writes_nothing; says 'bibkeep: write fault'; is_unchanged
expect 'the second name is gone' test edited.bib -ef edited.bib.bibkeep

# ---- a link in the place of the file is followed

given_alone
mkdir -p elsewhere
rm -rf elsewhere/*
mv edited.bib elsewhere
ln -s elsewhere/edited.bib edited.bib
ln -s ../precious elsewhere/edited.bib.bibkeep
when edit edited.bib set a t 2; ends_with 1; says 'bibkeep: 53 BadJournal at 0'; is_unchanged
when forget edited.bib; ends_with 0; says_nothing; is_unchanged
when edit edited.bib set a t 2; ends_with 0; prints 'applied 1\n'; leaves '@misc{a, t = 2}'; leaves_the_other
expect 'the link of the file is gone' test -h edited.bib
expect 'the journal beside the file is a link' test -f elsewhere/edited.bib.bibkeep -a ! -h elsewhere/edited.bib.bibkeep
rm -rf edited.bib elsewhere

# ---- who may read, write and run a new file

given_alone
chmod 4751 edited.bib
when edit edited.bib set a t 2; ends_with 0; prints 'applied 1\n'
when_shell_runs 'stat -c %a edited.bib edited.bib.bibkeep'; prints '751\n751\n'
given_alone
chmod 400 edited.bib
when_shell_runs 'umask 777; "$program" edit edited.bib set a t 2'; ends_with 0; prints 'applied 1\n'; says_nothing
when_shell_runs 'stat -c %a edited.bib edited.bib.bibkeep'; prints '400\n400\n'

# ---- names

# A name is refused before anything is printed, if a name beside it would be longer than 255 bytes.
for len in 235 236; do
    name=$(head -c "$len" /dev/zero | tr '\0' x)
    given "$name" '@misc{a, t = 1}'
    when show "$name" a; ends_with 0; says_nothing
    when edit "$name" set a t 2
    case $len in
    235) ends_with 0; prints 'applied 1\n'; says_nothing ;;
    *) ends_with 3; writes_nothing; says 'bibkeep: write fault' ;;
    esac
    rm -f "$name" "$name.bibkeep"
done

# A pipe has no journal, and no place for one.
if [ -e /dev/stdin ]; then
    when_shell_runs 'printf "@misc{a}" | "$program" edit --print /dev/stdin set a t 1'; ends_with 0; prints '@misc{a,\n  t = 1}'; says_nothing
    when_shell_runs 'printf "@misc{a}" | "$program" log /dev/stdin'; ends_with 0; writes_nothing; says_nothing
    when_shell_runs 'printf "@misc{a}" | "$program" edit /dev/stdin set a t 1'; ends_with 3; prints 'applied 1\n'; says 'bibkeep: write fault'
fi
