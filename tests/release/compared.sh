# ./test compares the release with what was built.
# shellcheck shell=sh

when_compared() { when_shell_runs 'tree/tests/release/compare'; case="$1"; }

given_built_tree "$program"
when_compared 'a release that fits'; ends_with 0; mentions 'is the released program, byte by byte'; says_nothing

given_built_tree "$program"
{ head -c 5000 "$program"; printf '\377'; tail -c +5002 "$program"; } >one_byte
release one_byte
when_compared 'a changed byte, with its sum mended'; ends_with 1; mentions 'from the same sources by the same toolchain is another program'

given_built_tree one_byte
when_compared 'another program was built from its sources'; ends_with 1; mentions 'from the same sources by the same toolchain is another program'

# the release is of the old program, and states the new sources
given_built_tree one_byte
echo more >>tree/crates/low/src/lib.rt
{ sed '/^sources /,$d' fits/release/SUMS; tree/tools/sources; } >tree/release/SUMS
when_compared 'a release that states other sources than its own'; ends_with 1; mentions 'from the same sources by the same toolchain is another program'

given_built_tree "$program"
restate sources "$(sha256sum <row.bib | cut -d ' ' -f 1)"
when_compared 'a sum that is not that of the lines below it'; ends_with 1; mentions 'is not that of the lines below it'

given_built_tree "$program"
cp one_byte tree/release/bibkeep-x86_64-linux
when_compared 'a program that is not the stated one'; ends_with 1; mentions 'is not the one that release/SUMS states'

given_built_tree "$program"
rm -r tree/release
when_compared 'no release'; ends_with 1; mentions 'there is no release/SUMS'

# The same of a library and of a wheel.
given_built_tree "$program"
when_compared 'a library that fits'; ends_with 0; mentions 'the library-aarch64-linux that was proved and built here is the released one, byte by byte'; says_nothing
echo more >>tree/release/library-x86_64-linux/libbibkeep.so.0
when_compared 'a library that is not the stated one'; ends_with 1; mentions 'release/library-x86_64-linux/libbibkeep.so.0 is not the one that release/SUMS states'
restate 'library x86_64-linux library-x86_64-linux/libbibkeep.so.0' "$(sha256sum <tree/release/library-x86_64-linux/libbibkeep.so.0 | cut -d ' ' -f 1)"
when_compared 'a changed library, with its sum mended'; ends_with 1; mentions 'the library-x86_64-linux that was proved and built here from the same sources by the same toolchain is another one'
given_built_tree "$program"
rm tree/release/bibkeep-aarch64-linux.whl
when_compared 'a wheel that is not there'; ends_with 1; mentions 'release/bibkeep-aarch64-linux.whl is not the one that release/SUMS states'
given_built_tree "$program"
restate 'object library-aarch64-linux' "$(sha256sum <row.bib | cut -d ' ' -f 1)"
when_compared 'a library of another compiled crate'; ends_with 1; mentions 'the library-aarch64-linux that was proved and built here from the same sources by the same toolchain is another one'
given_built_tree "$program"
restate 'beside library-x86_64-linux' 'another objcopy'
when_compared 'a library that another tool made'; ends_with 0; mentions 'what was compiled for the library-x86_64-linux is that of the release, byte by byte'; says_nothing
given_built_tree "$program"
echo more >>tree/c/heap.c
when_compared 'the C layer changed'; ends_with 0; mentions 'the library is not compared with what was built here, since its sources have changed since it was made'; says_nothing

# If the sources are newer, it is not compared, and that is no failure.
given_built_tree one_byte
echo more >>tree/crates/low/src/lib.rt
when_compared 'one crate changed'; ends_with 0; mentions 'the sources have changed since it was made, in 1 of 2 crates: low'; says_nothing
echo 'beside: ' >>tree/crates.txt
echo 'bibkeep: beside' >>tree/crates.txt
when_compared 'three changed'; ends_with 0; mentions 'in 2 of 2 crates: beside low crates.txt'; says_nothing
given_built_tree one_byte
restate toolchain 'an older one'
when_compared 'another toolchain'; ends_with 0; mentions 'since another toolchain made it: an older one'; says_nothing

# ---- this tree itself

# two builds give the same bytes: this one and the release's, and where that is of other sources, two links
if command -v "$toolchain" >/dev/null; then
    cat linked made_libraries >lines
    when_shell_runs 'RT=$toolchain "$root/tests/release/compare" lines'; ends_with 0; says_nothing
    cat seen/out
    if is_linked x86_64-linux; then
        when_shell_runs 'RT=$toolchain "$root/tools/static" x86_64-linux | grep -vxFf linked'; writes_nothing; says_nothing
    fi
fi

# A copy of it, as a clone has it.
copy_scripts whole
(cd "$root" && find crates crates.txt release -name out -prune -o -type f -print | tar -cf - -T -) | tar -xf - -C whole
when_shell_runs '$alone whole/bibkeep cat <row.bib'; ends_with 0; writes row.bib
when_shell_runs '$alone whole/install prefix && prefix/bin/bibkeep cat row.bib | cmp - row.bib'; ends_with 0
when_shell_runs 'python3 -c "
import runpy
print(*sorted(runpy.run_path(\"$root/tools/build\")[\"crates\"]()), sep=\"\n\")" >below && "$root/tools/sources" | sed -n "s/^crate \([^ ]*\) .*/\1/p" | diff below -'; ends_with 0; writes_nothing; says_nothing
