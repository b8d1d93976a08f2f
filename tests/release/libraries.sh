# The libraries that tools/libraries makes. A trial for which this machine lacks something is left out, and a line says so.
# shellcheck shell=sh

left_out() { echo "release: left out: $1"; }

# Runs a command that ends as tests/program does, and adds its counts.
add_cases_of() {
    count_case
    "$@" | tee seen/program
    counts=$(tail -n 1 seen/program | sed -n 's/^\([0-9]*\) passed, \([0-9]*\) failed$/\1 \2/p')
    counts=${counts:-0 1}
    passed=$((passed + ${counts% *}))
    failed=$((failed + ${counts#* }))
}

# Sets `emulator` to what runs programs for a target on this machine, if anything does.
is_runnable() {
    emulator=
    if [ "$1" != "$(uname -m)-linux" ]; then
        emulator=$(command -v "qemu-${1%-linux}-static")
    fi
}

# Whether tools/libraries made a library for a target, as it says.
has_library() { grep -q "^library $1 " made_libraries; }

# The calls of tests/c, linked with musl: with the archive, and with the shared library, which musl loads too.
answers_with_musl() {
    export processor="${1%-linux}" library="$root/crates/bib_c/out/release/library-$1" machine="$2" emulator kit
    export libc="${MUSL-}/usr/lib/$processor-linux-musl" lld="$kit/toolchain/bin/ld.lld"
    when_shell_runs '"$kit/toolchain/bin/clang" --target="$processor-linux-musl" --sysroot="$kit/toolchain" --no-default-config -nostdinc -isystem "${MUSL-}/usr/include/$processor-linux-musl" -I"$library" -std=c11 -O1 -fPIE -Wall -Wextra -Werror -c "$root/tests/c/test.c" -o test.o'; ends_with 0; says_nothing
    # on 64-bit ARM what musl's archive prints numbers with needs the compiler's own library
    export runtime=
    if [ "$1" = aarch64-linux ]; then
        runtime=$(find /usr/lib/gcc-cross/aarch64-linux-gnu -name libgcc.a 2>/dev/null | head -n 1)
    fi
    if [ "$1" = aarch64-linux ] && [ -z "$runtime" ]; then
        left_out "calls of the archive for $1: there is no libgcc.a, of the package libgcc-12-dev-arm64-cross"
    else
        when_shell_runs '"$lld" -m $machine -static -pie --no-dynamic-linker -o archived "$libc/rcrt1.o" "$libc/crti.o" test.o "$library/libbibkeep.a" "$libc/libc.a" $runtime "$libc/crtn.o"'; ends_with 0; says_nothing
        add_cases_of $emulator ./archived
    fi
    when_shell_runs '"$lld" -m $machine -pie --dynamic-linker="$libc/libc.so" -rpath="$library" -o shared "$libc/Scrt1.o" "$libc/crti.o" test.o "$library/libbibkeep.so.0" "$libc/libc.so" "$libc/crtn.o"'; ends_with 0; says_nothing
    add_cases_of $emulator ./shared
}

kit=$(dirname -- "$("$toolchain" doc)")
when_shell_runs 'RT=$toolchain "$root/tools/libraries" x86_64-linux aarch64-linux || test $? -eq 4'; ends_with 0
cp seen/out made_libraries
while read -r line; do left_out "${line#tools/libraries: }"; done <seen/errors

for target in x86_64-linux aarch64-linux; do
    has_library "$target" || continue
    if [ "$target" = "$(uname -m)-linux" ]; then
        add_cases_of "$root/tests/c/run" "$root/crates/bib_c/out/release/library-$target"
    fi
    case $target in
    x86_64-linux) machine=elf_x86_64 ;;
    aarch64-linux) machine=aarch64linux ;;
    esac
    if is_runnable "$target"; then
        answers_with_musl "$target" "$machine"
    else
        left_out "calls of the library for $target: there is no qemu-${target%-linux}-static"
    fi
done
