# Runs at once: what each says that it did is in the file, and can be undone.
# shellcheck shell=sh

# So many runs of `edit` start together, each of which sets another field, and so many times over.
a_crowd() {
    for round in $(seq "$2"); do
        for one in $(seq "$1"); do
            "$program" edit edited.bib set a "f${round}x$one" "{v}" >>seen/crowd 2>&1 &
        done
        wait
    done
}

# Each of them is in the file, and undoing all gives the first file.
are_all_kept() {
    count_case
    case="$1 runs at once"
    is_met=yes
    expect 'not each run said: applied 1' test "$(grep -c '^applied 1$' seen/crowd)" -eq "$1"
    expect 'not each change is in the file' test "$(grep -c 'f[0-9]*x[0-9]* = {v}' edited.bib)" -eq "$1"
    when log edited.bib; ends_with 0; says_nothing
    expect 'not each change is in the journal' test "$(wc -l <seen/out)" -eq "$1"
    when undo edited.bib --steps "$1"; ends_with 0; prints "undone $1\n"; leaves '@misc{a}\n'
    when_shell_runs 'ls | grep -c "^edited.bib"'; prints '2\n'
}

for crowd in 2x15 20x2; do
    given_edit '@misc{a}\n' ''
    rm -f seen/crowd
    a_crowd "${crowd%x*}" "${crowd#*x}"
    are_all_kept $((${crowd%x*} * ${crowd#*x}))
done

# A run that is killed leaves no lock. While one waits for its script, another waits; a run that only reads does not.
given_edit '@misc{a}\n' 'set\ta\tt\t1\n'
mkfifo slow
"$program" edit edited.bib <slow >/dev/null 2>&1 &
slow=$!
exec 3>slow
when check edited.bib; ends_with 0; says_nothing
when edit edited.bib --print set a t 2; ends_with 0; prints '@misc{a,\n  t = 2}\n'; says_nothing
"$program" edit edited.bib set a t 2 >seen/waited 2>&1 &
waiting=$!
sleep 0.2
expect 'the second did not wait' test ! -s seen/waited
kill -9 "$slow"
wait "$slow" 2>seen/errors
exec 3>&-
wait "$waiting"
when_shell_runs 'cat seen/waited edited.bib'; prints 'applied 1\n@misc{a,\n  t = 2}\n'
rm -f slow
