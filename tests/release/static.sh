# The programs that tools/static links, on machines of other kinds. A trial for which this machine lacks something is left out, and a
# line says so.
# shellcheck shell=sh

# ---- both programs

# Whether tools/static made a program for a target, as it says.
is_linked() { grep -q "^program $1 " linked; }

# A root folder with the program and a file, and what runs it here, and nothing else.
given_empty_root() {
    mkdir empty
    cp "bibkeep-$1" empty/bibkeep
    if [ -n "$emulator" ]; then cp "$emulator" empty/emulator; fi
    given empty/a.bib '@misc{a, t = 1,}\n'
}

runs_in_an_empty_root() {
    given_empty_root "$1"
    export inside="${emulator:+/emulator} /bibkeep"
    when_shell_runs '$chroot empty $inside edit a.bib set a t 2'; ends_with 0; prints 'applied 1\n'; says_nothing
    when_shell_runs 'cat empty/a.bib'; prints '@misc{a, t = 2,}\n'
    when_shell_runs '$chroot empty $inside undo a.bib && cat empty/a.bib'; ends_with 0; prints 'undone 1\n@misc{a, t = 1,}\n'; says_nothing
    rm -r empty
}

# What tools/heap.c and tools/static.c do for the program they do as they should.
has_sound_c_code() {
    export processor="${1%-linux}" code="$root/crates/bibkeep/out/static/${1%-linux}-linux-musl" emulator kit
    when_shell_runs '"$kit/toolchain/bin/clang" --target="$processor-linux-musl" --sysroot="$kit/toolchain" --no-default-config -nostdinc -isystem "${MUSL-}/usr/include/$processor-linux-musl" -O2 -fPIE -fno-builtin -Wall -Wextra -Werror -c "$root/tests/release/static.c" -o tried.o'; ends_with 0; says_nothing
    when_shell_runs 'cd "${MUSL-}/usr/lib/$processor-linux-musl" && "$kit/toolchain/bin/ld.lld" -static -pie --no-dynamic-linker --wrap=main -o "$OLDPWD/tried" rcrt1.o crti.o "$OLDPWD/tried.o" "$code.static.o" "$code.heap.o" libc.a crtn.o'; ends_with 0; says_nothing
    when_shell_runs '$emulator ./tried'; ends_with 0; writes_nothing; says_nothing
}

# ---- the program for another processor

answers_under_the_emulator() {
    given there "#!/bin/sh\nexec $emulator $PWD/bibkeep-$1 \"\$@\"\n"
    chmod 755 there
    lacks=run_in_16_MB add_cases_of "$root/tests/program/run" there
    when_shell_runs '$emulator -strace "bibkeep-$processor-linux" check row.bib 2>&1 | grep -c "statx("'; prints '0\n'
}

# ---- the program for this processor, where the kernel is old and BusyBox is all that is there

# A root folder with BusyBox and with this tree as a clone has it, and a release of the programs that were linked.
given_bare_root() {
    mkdir -p bare/bin bare/dev bare/tmp bare/tree/release
    cp "$busybox" bare/bin/busybox
    for name in $("$busybox" --list); do if [ ! -e "bare/bin/$name" ]; then ln -s busybox "bare/bin/$name"; fi; done
    for name in null zero full; do cp -a "/dev/$name" bare/dev; done
    (cd "$root" && find bibkeep install tools man completions docs README.md HANDLES crates crates.txt tests/program -name out -prune -o -type f -print | tar -cf - -T -) | tar -xf - -C bare/tree
    cp "bibkeep-$1" bare/tree/release
    if has_library "$1"; then cp -R "$root/crates/bib_c/out/release/library-$1" bare/tree/release; fi
    { cat linked made_libraries && echo 'toolchain any' && "$root/tools/sources"; } >bare/tree/release/SUMS
    chmod -R go+rX bare/tree
    cp row.bib bare
}

runs_beside_busybox() {
    given_bare_root "$1"
    export bare="$chroot bare /bin/env -i PATH=/bin /bin/sh -c" bare_as_nobody="$chroot --userspec=65534:65534 bare /bin/env -i PATH=/bin /bin/sh -c"
    when_shell_runs '$bare_as_nobody "cd /tree && ./bibkeep cat </row.bib"'; ends_with 0; writes row.bib; says_nothing
    when_shell_runs 'find bare/tree/release -name out'; writes_nothing
    when_shell_runs '$bare "cd /tree && ./bibkeep cat </row.bib"'; ends_with 0; writes row.bib; says_nothing
    when_shell_runs '$bare "cd /tree && ./bibkeep cat </row.bib"'; ends_with 0; writes row.bib; says_nothing
    when_shell_runs 'find bare/tree -newer bare/row.bib -type f'; prints 'bare/tree/release/out/sources\n'
    when_shell_runs '$bare "cd /tree && ./install /prefix"'; ends_with 0; mentions '/prefix/bin/bibkeep'; says_nothing
    add_cases_of $old_kernel $bare '/tree/tests/program/run /prefix/bin/bibkeep'
}

# ---- all of it

busybox=$(command -v busybox) || left_out 'a root with BusyBox alone: there is no BusyBox'
chroot=
if [ "$(id -u)" -eq 0 ] && chroot / true 2>/dev/null; then chroot=chroot; else left_out 'roots with nothing or BusyBox alone: only root can change its root'; fi
export chroot
old_kernel=$root/tests/release/old_kernel.py
if ! "$old_kernel" true 2>/dev/null; then
    left_out 'an old kernel: this one refuses no calls'
    old_kernel=
fi

when_shell_runs 'RT=$toolchain "$root/tools/static" x86_64-linux aarch64-linux wasm || test $? -eq 4'; ends_with 0
cp seen/out linked
while read -r line; do left_out "${line#tools/static: }"; done <seen/errors

for target in x86_64-linux aarch64-linux; do
    is_linked "$target" || continue
    cp "$root/crates/bibkeep/out/static/bibkeep-$target" .
    if ! is_runnable "$target"; then
        left_out "runs of the program for $target: there is no qemu-${target%-linux}-static"
        continue
    fi
    has_sound_c_code "$target"
    if [ -n "$chroot" ]; then runs_in_an_empty_root "$target"; fi
    if [ -n "$emulator" ]; then
        answers_under_the_emulator "$target"
    elif [ -n "$chroot" ] && [ -n "$busybox" ]; then
        runs_beside_busybox "$target"
    else
        add_cases_of $old_kernel "$root/tests/program/run" "bibkeep-$target"
    fi
done
