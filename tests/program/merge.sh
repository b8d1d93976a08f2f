# `bibkeep merge`: the changes of two sides that come from one file.
# shellcheck shell=sh

# The common file, ours and theirs.
three() {
    given base.bib "$1"
    given ours.bib "$2"
    given theirs.bib "$3"
    cp base.bib base_before
    cp theirs.bib theirs_before
}

# Ours is now this file, and base and theirs are as they were. There is no journal.
ours_is() {
    given wanted_file "$1"
    expect 'ours is another file' cmp -s wanted_file ours.bib
    expect 'base changed' cmp -s base_before base.bib
    expect 'theirs changed' cmp -s theirs_before theirs.bib
    expect 'there is a journal' test ! -e ours.bib.bibkeep
}

# A merge without a conflict: common file, ours, theirs, merged file. With `--print` it is printed, and ours stays.
merges() {
    three "$1" "$2" "$3"
    when merge base.bib ours.bib theirs.bib --print; ends_with 0; prints "$4"; says_nothing; ours_is "$2"
    when merge base.bib ours.bib theirs.bib; ends_with 0; writes_nothing; says_nothing; ours_is "$4"
}

# A merge with one conflict: the line of the conflict, common file, ours, theirs, merged file. With `--print` the line is the message.
conflicts() {
    three "$2" "$3" "$4"
    when merge --print base.bib ours.bib theirs.bib; ends_with 1; prints "$5"; says "conflict $1"; ours_is "$3"
    when merge base.bib ours.bib theirs.bib; ends_with 1; prints "conflict $1\n"; says_nothing; ours_is "$5"
}

# No merge: the message, common file, ours, theirs. Nothing is stored.
unmerged() {
    three "$2" "$3" "$4"
    when merge base.bib ours.bib theirs.bib; ends_with 1; writes_nothing; says "bibkeep: $1"; ours_is "$3"
    when merge base.bib ours.bib theirs.bib --print; ends_with 1; writes_nothing; says "bibkeep: $1"; ours_is "$3"
}

# The entry `a` with these values of `t` and `u`.
a() { printf '@misc{a,\\n  t = %s,\\n  u = %s\\n}\\n' "$1" "$2"; }
one=$(a 1 2)

# ---- changes that agree

# Entries that both sides add are there once each.
merges "$one" "$one\\n@misc{o}\\n" "$one\\n@misc{p}\\n" "$one\\n@misc{o}\\n\\n@misc{p}\\n"
merges '' '@misc{a}\n' '@misc{b}\n' '@misc{a}\n@misc{b}\n'
merges '@misc{a}\n\n%% books\n\n@misc{z}\n' '@misc{a}\n\n@misc{o}\n\n%% books\n\n@misc{z}\n' \
    '@misc{a}\n\n@misc{p}\n\n%% books\n\n@misc{z}\n' '@misc{a}\n\n@misc{o}\n\n@misc{p}\n\n%% books\n\n@misc{z}\n'

# A field set here, another entry set there; an entry moved here, a field of it set there.
merges "$one@misc{z, t = 1}\\n" "$(a '{x}' 2)@misc{z, t = 1}\\n" "$one@misc{z, t = {y}}\\n" "$(a '{x}' 2)@misc{z, t = {y}}\\n"
merges "$one@misc{z}\\n" "@misc{z}\\n$one" "$(a 1 '{y}')@misc{z}\\n" "@misc{z}\\n$(a 1 '{y}')"
merges "$one@misc{z}\\n" "$(a 1 '{y}')@misc{z}\\n" "@misc{z}\\n$one" "@misc{z}\\n$(a 1 '{y}')"

# A field set here; another set, added or dropped there. What one side dropped does not come back.
merges "$one" "$(a '{x}' 2)" "$(a 1 '{y}')" "$(a '{x}' '{y}')"
merges "$one" "$(a '{x}' 2)" '@misc{a,\n  t = 1,\n  u = 2,\n  v = 3\n}\n' '@misc{a,\n  t = {x},\n  u = 2,\n  v = 3\n}\n'
merges "$one" "$(a '{x}' 2)" '@misc{a,\n  t = 1\n}\n' '@misc{a,\n  t = {x}\n}\n'
merges "$one" '@misc{a,\n  t = 1\n}\n' "$(a '{x}' 2)" '@misc{a,\n  t = {x}\n}\n'
# Type and key of an entry are merged too.
merges '@misc{a, t = 1}\n' '@misc{a, t = 2}\n' '@Book{A, t = 1}\n' '@Book{A, t = 2}\n'
# An entry that cannot be merged so, since a field is there twice, stays as it is if they changed only the case of its key.
merges '@misc{a, t = 1}\n' '@misc{a, t = 1, t = 2}\n' '@misc{A, t = 1}\n' '@misc{a, t = 1, t = 2}\n'
merges '@misc{a, t = 1, t = 1}\n' '@misc{a, t = 2}\n' '@misc{A, t = 2}\n' '@misc{a, t = 2}\n'

# Units that all have one name meet in their order, however many there are.
many=$(awk 'BEGIN { while (n++ < 2000) printf "@misc{a}\\n" }')
merges "$many" "$many@misc{o}\\n" "@misc{p}\\n$many" "@misc{p}\\n$many@misc{o}\\n"

# What says the same in other bytes is no change; nor is an entry that both add, each in its own layout.
merges "$one" "$(a '{x}' 2)" "$(a '{1}' 2)" "$(a '{x}' 2)"
merges "$one" '@misc{a,\n    t = {1},\n  u = 2\n}\n' "$(a '{x}' 2)" '@misc{a,\n    t = {x},\n  u = 2\n}\n'
merges "$one" '' '@misc{a,\n  T={1},\n  u = 2\n}\n' ''
merges "$one" "$one@misc{n, t = 1}\\n" "@misc{N, t = 1}\\n$one" "$one@misc{n, t = 1}\\n"
merges "$one" "$one@misc{n, t = {x  y}}\\n" "@Misc{N,\\n  T = \"x y\"\\n}\\n$one" "$one@misc{n, t = {x  y}}\\n"

# A side that changed nothing ours_is the other, byte for byte.
merges "$one" "$one" '%% new\n@string{m = 1}\n@misc{b, t = m}\n\n@comment x\n\n@misc{}  ' '%% new\n@string{m = 1}\n@misc{b, t = m}\n\n@comment x\n\n@misc{}  '
merges "$one" '%% new\n@misc{b}' "$one" '%% new\n@misc{b}'
merges "$one" '@misc{b}  ' '@misc{b}  ' '@misc{b}  '
merges '' '' '' ''

# ---- conflicts

# Both changed a field, a type or a macro; both added one; one took an entry away, and the other changed it.
conflicts 'field a t' "$one" "$(a '{x}' 2)" "$(a '{y}' 2)" "<<<<<<< ours\\n$(a '{x}' 2)=======\\n$(a '{y}' 2)>>>>>>> theirs\\n"
conflicts 'field a u' "$one" '@misc{A,\n  t = 1\n}\n' "$(a 1 '{y}')" "<<<<<<< ours\\n@misc{A,\\n  t = 1\\n}\\n=======\\n$(a 1 '{y}')>>>>>>> theirs\\n"
conflicts 'type a' '@misc{A}\n' '@book{A}\n' '@online{A}\n' '<<<<<<< ours\n@book{A}\n=======\n@online{A}\n>>>>>>> theirs\n'
conflicts 'entry a' '@misc{a, t = 1}\n' '@misc{a, t = 1, T = 1}\n' '@misc{a, t = 2}\n' \
    '<<<<<<< ours\n@misc{a, t = 1, T = 1}\n=======\n@misc{a, t = 2}\n>>>>>>> theirs\n'
conflicts 'macro m' '@string{M = 1}\n' '@string{M = 2}\n' '@string{m = 3}\n' '<<<<<<< ours\n@string{M = 2}\n=======\n@string{m = 3}\n>>>>>>> theirs\n'
conflicts 'both added entry n' "$one" "$one@misc{n, t = 1}\\n" "@misc{N, t = 2}\\n$one" \
    "$one<<<<<<< ours\\n@misc{n, t = 1}\\n=======\\n@misc{N, t = 2}\\n>>>>>>> theirs\\n"
conflicts 'removed by ours entry a' "$one" '' "$(a '{y}' 2)" "<<<<<<< ours\\n=======\\n$(a '{y}' 2)>>>>>>> theirs\\n"
conflicts 'removed by theirs entry a' "$one" "$(a '{y}' 2)" '' "<<<<<<< ours\\n$(a '{y}' 2)=======\\n>>>>>>> theirs\\n"

# The merged file opens even so: it has both versions, and lint finds the markers.
three "$one" "$(a '{x}' 2)" "$(a '{y}' 2)"
when merge base.bib ours.bib theirs.bib; ends_with 1
when check ours.bib; ends_with 0; mentions 'repeated entry a'
when lint ours.bib; ends_with 1; mentions '[conflict-marker]'

# A child that one side adds has lost its parent if the other side removed that, or gave it another key: there is no marker.
conflicts 'crossref c' "$one" '' "$one@misc{C, crossref = {a}}\\n" '@misc{C, crossref = {a}}\n'
conflicts 'crossref c' "$one" "$one@misc{c, crossref = {A}}\\n" '@misc{k}\n' '@misc{c, crossref = {A}}\n@misc{k}\n'
# It has lost nothing if it has no parent on its own side, or if the other side has added one.
merges "$one" '' "$one@misc{c, crossref = {z}}\\n" '@misc{c, crossref = {z}}\n'
merges '' '@misc{c, crossref = {a}}\n' '@misc{a}\n' '@misc{c, crossref = {a}}\n@misc{a}\n'

# A use of a macro has lost its meaning if it finds another definition than on its side, or none: there is no marker.
x='@string{x = 1}\n'
conflicts 'macro x in k' "$x@misc{K, t = 1}\\n" "$x@string{X = 2}\\n@misc{K, t = 1}\\n" "$x@misc{K, t = x}\\n" "$x@string{X = 2}\\n@misc{K, t = x}\\n"
conflicts 'macro x in k' "$x@misc{k, t = 1}\\n" '@misc{k, t = 1}\n' "$x@misc{k, t = X}\\n" '@misc{k, t = X}\n'
# It has lost nothing if it finds none on its own side, as a month that the other side defines.
merges '@misc{k, t = 1}\n' '@string{jan = 1}\n@misc{k, t = 1}\n' '@misc{k, t = jan}\n' '@string{jan = 1}\n@misc{k, t = jan}\n'

# ---- names that one side gave

# A key is followed by the crossrefs that the other side added, and a macro by its uses; in whatever order the sides come.
merges "$one" '@misc{k,\n  t = 1,\n  u = 2\n}\n' "$one@misc{c, crossref = {A}}\\n" '@misc{k,\n  t = 1,\n  u = 2\n}\n@misc{c, crossref = {k}}\n'
merges "$one" "$one@misc{c, crossref = {A}}\\n" '@misc{k,\n  t = 1,\n  u = 2\n}\n' '@misc{k,\n  t = 1,\n  u = 2\n}\n@misc{c, crossref = {k}}\n'
merges '@string{m={A}}\n@misc{a,t=m}\n' '@string{n={A}}\n@misc{a,t=n}\n' '@string{m={A}}\n@misc{a,t=m}\n@misc{b,t=m}\n' \
    '@string{n={A}}\n@misc{a,t=n}\n@misc{b,t=n}\n'
merges '@string{m={A}}\n@misc{a,t=m}\n' '@string{m={A}}\n@misc{a,t=m}\n@misc{b,t=m}\n' '@string{n={A}}\n@misc{a,t=n}\n' \
    '@string{n={A}}\n@misc{a,t=n}\n@misc{b,t=n}\n'

# A field is set here; there the entry got another key, as did all entries.
merges '@misc{a, t = 1}\n@misc{b, t = 2}\n@misc{c, t = 3, crossref = {a}}\n' '@misc{x, t = 1}\n@misc{y, t = 2}\n@misc{z, t = 3, crossref = {x}}\n' \
    '@misc{a, t = {A}}\n@misc{b, t = 2}\n@misc{c, t = 4, crossref = {a}}\n' '@misc{x, t = {A}}\n@misc{y, t = 2}\n@misc{z, t = 4, crossref = {x}}\n'
three "$(awk 'BEGIN { while (n++ < 300) printf "@misc{a%d, author = {Lee, A}, title = {%d}, year = 2001}\\n", n, n }')" '' ''
cp base.bib ours.bib
cp base.bib theirs.bib
when edit --no-journal ours.bib regenerate; ends_with 0
when edit --no-journal theirs.bib set a77 note '{seen}'; ends_with 0
cp ours.bib theirs_keys.bib
when edit --no-journal theirs_keys.bib set "$(sed -n '77s/@misc{\(.*\), author.*/\1/p' ours.bib)" note '{seen}'; ends_with 0
when merge base.bib ours.bib theirs.bib; ends_with 0; writes_nothing; says_nothing
expect 'a field or a key is lost' cmp -s ours.bib theirs_keys.bib

# Both gave one entry another key: it gets ours. The line comes before all others. The same key, in whatever case, is no conflict.
conflicts 'key a o p' '@misc{A, t = 1}\n' '@misc{O, t = 1}\n' '@misc{p, t = 1}\n@misc{c, crossref = {p}}\n' '@misc{O, t = 1}\n@misc{c, crossref = {O}}\n'
merges '@misc{a, t = 1}\n' '@misc{o, t = 1}\n' '@misc{O, t = 1}\n' '@misc{o, t = 1}\n'
three '@misc{z}\n@misc{a, t = 1}\n@misc{b, t = 2}\n' '@book{z}\n@misc{o, t = 1}\n@misc{q, t = 2}\n' '@online{z}\n@misc{p, t = 1}\n@misc{r, t = 2}\n'
when merge base.bib ours.bib theirs.bib; ends_with 1; prints 'conflict key a o p\nconflict key b q r\nconflict type z\n'; says_nothing

# Both gave one macro another name: it gets ours, and no line.
merges '@string{m={A}}\n@misc{a,t=m}\n' '@string{n={A}}\n@misc{a,t=n}\n' '@string{o={A}}\n@misc{a,t=o}\n@misc{b,t=o}\n' \
    '@string{n={A}}\n@misc{a,t=n}\n@misc{b,t=n}\n'

# What one side gave a name, and the other took away, stays, as a conflict.
conflicts 'removed by theirs entry k' '@misc{a, t = 1}\n' '@misc{k, t = 1}\n' '' '<<<<<<< ours\n@misc{k, t = 1}\n=======\n>>>>>>> theirs\n'
conflicts 'removed by ours entry k' '@misc{a, t = 1}\n' '' '@misc{K, t = 1}\n' '<<<<<<< ours\n=======\n@misc{K, t = 1}\n>>>>>>> theirs\n'
conflicts 'removed by theirs macro n' '@string{m={A}}\n@misc{a,t=m}\n' '@string{n={A}}\n@misc{a,t=n}\n' '@misc{a,t={A}}\n' \
    '<<<<<<< ours\n@string{n={A}}\n=======\n>>>>>>> theirs\n@misc{a,t={A}}\n'

# A name is followed in no file if the other side gave it to another entry; nor is one that two entries may have got, or one of an entry
# that says nothing.
conflicts 'both added entry k' '@misc{a, t = 1}\n' '@misc{k, t = 1}\n' '@misc{k, t = 2}\n' \
    '<<<<<<< ours\n@misc{k, t = 1}\n=======\n@misc{k, t = 2}\n>>>>>>> theirs\n'
conflicts 'both added entry k' '@misc{a, t = 1}\n' '@misc{k, t = 1}\n' '@misc{a, t = 1}\n@misc{k, t = 2}\n' \
    '<<<<<<< ours\n@misc{k, t = 1}\n=======\n@misc{k, t = 2}\n>>>>>>> theirs\n'
conflicts 'crossref c' '@misc{a, t = 1}\n@misc{b, t = 1}\n' '@misc{k, t = 1}\n@misc{l, t = 1}\n' \
    '@misc{a, t = 1}\n@misc{b, t = 1}\n@misc{c, crossref = {a}}\n' '@misc{k, t = 1}\n@misc{l, t = 1}\n@misc{c, crossref = {a}}\n'
conflicts 'crossref c' '@misc{a}\n' '@misc{k}\n' '@misc{a}\n@misc{c, crossref = {a}}\n' '@misc{k}\n@misc{c, crossref = {a}}\n'

# ---- several lines

# Each conflict has a line, in the order of the file.
three "$one@misc{b, t = 1}\\n" "$(a '{x}' 2)" "$(a '{y}' 2)@misc{B, t = 2}\\n"
when merge base.bib ours.bib theirs.bib; ends_with 1; prints 'conflict field a t\nconflict removed by ours entry b\n'; says_nothing

# So has each part of one entry: the type, our fields in our order, and then those that only they have in theirs.
three '@misc{a, t = 1, u = 1, v = 1}\n' '@book{a, V = 2, t = 2}\n' '@online{a, t = 3, u = 3, v = 3}\n'
when merge base.bib ours.bib theirs.bib; ends_with 1; prints 'conflict type a\nconflict field a v\nconflict field a t\nconflict field a u\n'; says_nothing

# ---- no merge

unmerged '1 Unended at 6 in ours.bib' "$one" '@misc{' "$one"
unmerged '1 Unended at 6 in base.bib' '@misc{' '@misc{' "$one"
unmerged '5 ExpectedValue at 10 in theirs.bib' "$one" "$one" '@misc{a,t=}'
unmerged '40 WouldMerge' '@misc{a}\n@misc{z}\n' '@misc{a}\nx@foo\n@misc{z}\n' '@misc{a}\n{y}\n@misc{z}\n'

# Two files of a lawful length can be too long together; so can two macros.
three '' '@misc{a}\n' '@misc{b}\n'
given_length long_text 9000000
cat long_text >>ours.bib
given_length long_text 8000000
cat long_text >>theirs.bib
cp theirs.bib theirs_before
cp ours.bib ours_before
when merge base.bib ours.bib theirs.bib; ends_with 1; writes_nothing; says 'bibkeep: 9 FileTooLong'
expect 'ours changed' cmp -s ours_before ours.bib

# A file that cannot be read is named.
three "$one" "$one" "$one"
when merge missing.bib ours.bib theirs.bib; ends_with 3; writes_nothing; says 'bibkeep: read fault in missing.bib'
when merge base.bib missing.bib theirs.bib; ends_with 3; writes_nothing; says 'bibkeep: read fault in missing.bib'
when merge base.bib ours.bib .; ends_with 3; writes_nothing; says 'bibkeep: read fault in .'
ours_is "$one"

# It takes three files, and no options but `--print`.
when merge base.bib ours.bib; ends_with 2; writes_nothing; complains_of '<THEIRS>'
when merge base.bib ours.bib theirs.bib more.bib; ends_with 2; writes_nothing
when merge base.bib ours.bib theirs.bib --no-journal; ends_with 2; writes_nothing
when merge base.bib ours.bib theirs.bib --before base.bib; ends_with 2; writes_nothing

# The journal of ours is neither read nor written: it does not fit the merged file.
three "$one" "$one" "$(a 1 '{y}')"
when edit ours.bib add end misc o; ends_with 0; prints 'applied 1\n'
cp ours.bib.bibkeep journal_before
when merge base.bib ours.bib theirs.bib; ends_with 0; writes_nothing; says_nothing
expect 'the journal changed' cmp -s journal_before ours.bib.bibkeep
when undo ours.bib; ends_with 1; writes_nothing; says 'bibkeep: 54 JournalMismatch'
rm ours.bib.bibkeep

# A link to ours stays a link, and the new file has the permissions of the old one.
three "$one" "$one" "$(a 1 '{y}')"
chmod 640 ours.bib
ln -s ours.bib link.bib
when merge base.bib link.bib theirs.bib; ends_with 0; writes_nothing; says_nothing; ours_is "$(a 1 '{y}')"
expect 'the link is gone' test -L link.bib
expect 'the permissions changed' test "$(stat -c %a ours.bib)" = 640
rm link.bib

# If the lines cannot be written, ours stays.
if test -w /dev/full; then
    three "$one" "$(a '{x}' 2)" "$(a '{y}' 2)"
    when_shell_runs '"$program" merge base.bib ours.bib theirs.bib >/dev/full'; ends_with 3; writes_nothing; says 'bibkeep: write fault'
    ours_is "$(a '{x}' 2)"
fi

# ---- laws over files that are made at random

if command -v python3 >/dev/null; then
    # a program that is given may be slow, under an emulator
    case ${1-} in
    '') count=100 ;;
    *) count=20 ;;
    esac
    export count
    when_shell_runs 'python3 "$root/tests/program/merges.py" "$program" "$count" | sed "s/^[0-9]* passed, 0 failed$//"'; ends_with 0; prints '\n'; says_nothing
fi
