# The words of which the cases are made.
# shellcheck shell=sh

passed=0
failed=0
case=
is_met=

# A file of these bytes, with backslashes as printf reads them.
given() { printf "$2" >"$1"; }

# A file of so many bytes x.
given_length() { head -c "$2" /dev/zero | tr '\0' x >"$1"; }

# Begins a case: the program is run with these words, and standard input from the file that $input names.
when() {
    begin "$*"
    "$program" "$@" <"$input" >seen/out 2>seen/errors
    status=$?
    input=/dev/null
}

# Begins a case: a shell runs the line, in which $program is the program.
when_shell_runs() {
    begin "$1"
    program=$program root=$root sh -c "$1" >seen/out 2>seen/errors
    status=$?
}

ends_with() { expect "it ended with $status, not $1" test "$status" -eq "$1"; }
writes() { expect "its output is not that of $1" cmp -s "$1" seen/out; }
writes_nothing() { expect 'it wrote something' test ! -s seen/out; }
mentions() { expect "its output does not mention: $1" grep -qF -e "$1" seen/out; }
says_nothing() { expect 'it said something' test ! -s seen/errors; }
complains_of() { expect "it does not complain of: $1" grep -qF -e "$1" seen/errors; }

# Its output is these bytes, with backslashes as printf reads them.
prints() {
    printf "$1" >seen/wanted
    expect "it does not print: $1" cmp -s seen/wanted seen/out
}

says() {
    printf '%s\n' "$1" >seen/wanted
    expect "it does not say: $1" cmp -s seen/wanted seen/errors
}

# Whether what runs the program, as an emulator or Node, can do this; $lacks names what it cannot.
can() {
    case " ${lacks-} " in
    *" $1 "*) return 1 ;;
    esac
}

# ---- how cases are counted

input=/dev/null

begin() {
    count_case
    case=$1
    is_met=yes
}

expect() {
    complaint=$1
    shift
    if ! "$@"; then
        is_met=no
        printf 'FAILED: %s: %s\n' "$case" "$complaint"
        head -c 300 seen/errors
    fi
}

count_case() {
    case $is_met in
    yes) passed=$((passed + 1)) ;;
    no) failed=$((failed + 1)) ;;
    esac
    is_met=
}

tally() {
    count_case
    echo "$passed passed, $failed failed"
    test "$failed" -eq 0
}
