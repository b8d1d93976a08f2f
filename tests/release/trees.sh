# The trees in which the cases run.
# shellcheck shell=sh

given row.bib 'mail joe@x.org\n@Misc{a,}\n'
mkdir folder

# Runs a command with an empty environment, on a path with these commands of the system alone: neither rt nor python3.
mkdir alone
for name in awk basename cat chmod cp dirname find ln mkdir mv rm sed sh sha256sum sort touch uname; do
    ln -s "$(command -v "$name")" "alone/$name"
done
alone="env -i PATH=$work/alone"

# A toolchain that proves nothing: the program that it builds prints the sources of the crate below it.
given rt '#!/bin/sh
case $1 in
version) echo "a toolchain" ;;
lib) grep -qv wrong src/lib.rt && mkdir -p out/rlib && : >out/rlib/stamp ;;
run) mkdir -p out && { echo "#!/bin/sh"; echo cat "$PWD/../low/src/lib.rt"; } >out/bibkeep && chmod 755 out/bibkeep ;;
must-fail) cat "crates/$2"/must-fail/*.edit && ! grep -q right "crates/$2"/must-fail/*.edit ;;
ci) mkdir crates/low/out && touch crates/low/out/made && find crates -name "*.edit" | sort && echo "1 passed, 0 failed" ;;
esac
'
chmod 755 rt

# In the place of tools/static: the program that was built is that of each target.
given static '#!/bin/sh
cd -- "$(dirname -- "$0")/.."
mkdir -p crates/bibkeep/out/static
sum=$(sha256sum <crates/bibkeep/out/bibkeep | cut -d " " -f 1)
for target in "$@"; do
    case $target in wasm) name=bibkeep.wasm ;; *) name=bibkeep-$target ;; esac
    cp crates/bibkeep/out/bibkeep "crates/bibkeep/out/static/$name"
    for word in object beside program; do echo "$word $target $sum"; done
done
'
chmod 755 static

# In the place of tools/library and tools/libraries: the library is a text, which names the target and the program.
given library '#!/bin/sh
cd -- "$(dirname -- "$0")/.."
out=${1:-crates/bib_c/out/library} target=${2:-here}
mkdir -p "$out"
{ echo "a library for $target" && sha256sum <crates/bibkeep/out/bibkeep; } >"$out/libbibkeep.so.0"
ln -sf libbibkeep.so.0 "$out/libbibkeep.so"
echo "an archive for $target" >"$out/libbibkeep.a"
echo "a header" >"$out/bibkeep.h"
printf "prefix=/usr/local\nlibdir=\${prefix}/lib\n" >"$out/bibkeep.pc"
echo "$PWD/$out"
'
given libraries '#!/bin/sh
cd -- "$(dirname -- "$0")/.."
sum() { sha256sum <"$1" | cut -d " " -f 1; }
out=crates/bib_c/out/release
for target in "$@"; do
    tools/library "$out/library-$target" "$target" >/dev/null
    echo "a wheel for $target" >"$out/bibkeep-$target.whl"
    for word in object package beside; do echo "$word library-$target $(sum crates/bibkeep/out/bibkeep)"; done
    for name in bibkeep.h libbibkeep.a libbibkeep.so.0 bibkeep.pc; do
        echo "library $target library-$target/$name $(sum "$out/library-$target/$name")"
    done
    echo "library $target bibkeep-$target.whl $(sum "$out/bibkeep-$target.whl")"
done
'
chmod 755 library libraries

# Copies what a clone of this tree has, but for its crates.
copy_scripts() {
    mkdir -p "$1/tests"
    cp -R "$root/bibkeep" "$root/install" "$root/tools" "$root/man" "$root/completions" "$root/docs" "$root/README.md" "$root/HANDLES" "$root/c" "$root/python" "$1"
    cp -R "$root/tests/release" "$1/tests"
    mkdir "$1/.ci"
    cp "$root/.ci/prove" "$1/.ci"
    cp static library libraries "$1/tools"
}

# A small tree with a release that was made from its sources, of the program that was built in this one.
copy_scripts fits
given fits/crates.txt '# the program last\nbeside: low\nlow:\nbib_c: low\nbibkeep: low indexmap # and no other\n'
mkdir -p fits/crates/low/src fits/crates/low/specs fits/crates/low/proofs fits/crates/low/must-fail fits/crates/beside/src fits/crates/bib_c/src fits/crates/bibkeep/src fits/crates/bibkeep/out
given fits/crates/low/src/lib.rt 'low\n'
given fits/crates/low/specs/Lib.antt 'specs\n'
given fits/crates/low/proofs/Lib.antt 'proofs\n'
given fits/crates/low/must-fail/a.edit 'edit\n'
given fits/crates/beside/src/lib.rt 'beside\n'
given fits/crates/bib_c/src/lib.rt 'exports\n'
given fits/crates/bibkeep/src/main.rt 'main\n'
cp "$program" fits/crates/bibkeep/out/bibkeep
RT=$work/rt fits/tools/mutants >/dev/null
RT=$work/rt fits/tools/release
rm -r fits/crates/bibkeep/out fits/crates/bib_c/out

given_tree() { rm -rf tree && cp -R -p fits tree; }

# The same with this program built in it.
given_built_tree() {
    given_tree
    mkdir -p tree/crates/bibkeep/out tree/crates/low/out/rlib
    : >tree/crates/low/out/rlib/stamp
    cp "$1" tree/crates/bibkeep/out/bibkeep
    chmod 755 tree/crates/bibkeep/out/bibkeep
}

# Has the release state another value under a name.
restate() { sed -i "s|^$1 .*|$1 $2|" tree/release/SUMS; }

# Puts another program into the release, whose sum it states.
release() {
    cp "$1" tree/release/bibkeep-x86_64-linux
    chmod 755 tree/release/bibkeep-x86_64-linux
    restate 'program x86_64-linux' "$(sha256sum <"$1" | cut -d ' ' -f 1)"
}
