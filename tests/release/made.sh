# tools/release makes the release of what was built, and the same one again.
# shellcheck shell=sh

given_built_tree "$program"
when_shell_runs 'tree/tools/release && diff -r fits/release tree/release'; ends_with 0; writes_nothing; says_nothing
when_shell_runs 'rm -r tree/release && cp -R tree elsewhere && touch elsewhere/crates/bibkeep/out/bibkeep && elsewhere/tools/mutants >/dev/null && elsewhere/tools/release && diff -r fits/release elsewhere/release'; ends_with 0; writes_nothing; says_nothing
when_shell_runs 'cat elsewhere/release/SUMS | sed "s/ [0-9a-f]\{64\}$/ SUM/"'; prints 'object x86_64-linux SUM\nbeside x86_64-linux SUM\nprogram x86_64-linux SUM\nobject aarch64-linux SUM\nbeside aarch64-linux SUM\nprogram aarch64-linux SUM\nobject wasm SUM\nbeside wasm SUM\nprogram wasm SUM\nobject library-x86_64-linux SUM\npackage library-x86_64-linux SUM\nbeside library-x86_64-linux SUM\nlibrary x86_64-linux library-x86_64-linux/bibkeep.h SUM\nlibrary x86_64-linux library-x86_64-linux/libbibkeep.a SUM\nlibrary x86_64-linux library-x86_64-linux/libbibkeep.so.0 SUM\nlibrary x86_64-linux library-x86_64-linux/bibkeep.pc SUM\nlibrary x86_64-linux bibkeep-x86_64-linux.whl SUM\nobject library-aarch64-linux SUM\npackage library-aarch64-linux SUM\nbeside library-aarch64-linux SUM\nlibrary aarch64-linux library-aarch64-linux/bibkeep.h SUM\nlibrary aarch64-linux library-aarch64-linux/libbibkeep.a SUM\nlibrary aarch64-linux library-aarch64-linux/libbibkeep.so.0 SUM\nlibrary aarch64-linux library-aarch64-linux/bibkeep.pc SUM\nlibrary aarch64-linux bibkeep-aarch64-linux.whl SUM\ntoolchain a toolchain\nlibrary-sources SUM\nsources SUM\nfile HANDLES SUM\nfile crates.txt SUM\nfile tools/heap.c SUM\nfile tools/static SUM\nfile tools/static.c SUM\nfile tools/wasm.c SUM\nfile tools/wasm.ll SUM\ncrate bibkeep SUM\ncrate low SUM\n'; says_nothing
when_shell_runs 'cmp elsewhere/release/bibkeep-x86_64-linux "$program" && cmp elsewhere/release/bibkeep-aarch64-linux "$program" && cmp elsewhere/release/bibkeep.wasm "$program"'; ends_with 0; writes_nothing; says_nothing

given_built_tree built
when_shell_runs 'tree/tools/release && rm -r tree/crates/bibkeep/out && $alone tree/bibkeep new'; ends_with 0; prints 'built new\n'; says_nothing

# It makes none of what is not there or is out of date, and leaves the old one.
given_tree
when_shell_runs 'tree/tools/release'; ends_with 1; writes_nothing; says 'tools/release: no program was built in this tree: tools/build proves and builds it'
given_built_tree built
when_shell_runs 'sleep 0.1 && touch tree/crates/low/proofs/Lib.antt && tree/tools/release'; ends_with 1; writes_nothing; says 'tools/release: a source is newer than the program: tools/build proves and builds it anew'
given_built_tree built
printf '#!/bin/sh\necho "object $1 x"; exit 1\n' >tree/tools/static
when_shell_runs 'tree/tools/release'; ends_with 1; writes_nothing; says_nothing
when_shell_runs 'diff -r fits/release tree/release'; ends_with 0; writes_nothing; says_nothing
given_built_tree built
printf '#!/bin/sh\necho "object library-$1 x"; exit 4\n' >tree/tools/libraries
when_shell_runs 'tree/tools/release'; ends_with 1; writes_nothing; says_nothing
when_shell_runs 'diff -r fits/release tree/release'; ends_with 0; writes_nothing; says_nothing
given_built_tree built
when_shell_runs 'RT=nowhere tree/tools/release'; ends_with 127; writes_nothing; complains_of 'nowhere'
when_shell_runs 'diff -r fits/release tree/release'; ends_with 0; writes_nothing; says_nothing

# It makes none before the mutants of each crate below the program or the library are recorded as rejected over the present sources.
untried() { says "tools/release: mutants of these sources were not tried, or were not all rejected: tools/mutants $1 tries them, and records it in release/MUTANTS"; }
given_built_tree built
rm tree/release/MUTANTS
when_shell_runs 'tree/tools/release'; ends_with 1; writes_nothing; untried low
when_shell_runs 'diff -r fits/release tree/release'; ends_with 1; prints 'Only in fits/release: MUTANTS\n'
given_built_tree built
mkdir tree/crates/bib_c/must-fail tree/crates/bibkeep/must-fail tree/crates/beside/must-fail
for name in bib_c bibkeep beside; do echo edit >"tree/crates/$name/must-fail/a.edit"; done
when_shell_runs 'tree/tools/release'; ends_with 1; writes_nothing; untried 'bib_c bibkeep'
when_shell_runs 'tree/tools/mutants bib_c bibkeep >/dev/null && tree/tools/release'; ends_with 0; writes_nothing; says_nothing
when_shell_runs 'echo more >>tree/crates/low/src/lib.rt && touch tree/crates/bibkeep/out/bibkeep && tree/tools/release'; ends_with 1; writes_nothing; untried 'bib_c bibkeep low'
when_shell_runs 'echo right >tree/crates/bib_c/must-fail/a.edit && tree/tools/mutants | tail -n 1; tree/tools/release'; ends_with 1; prints '3 passed, 1 failed\n'; untried bib_c

# A release for one target has no file of another one.
given_built_tree built
when_shell_runs 'tree/tools/release x86_64-linux && cd tree/release && find . ! -type d | sort'; ends_with 0; prints './MUTANTS\n./SUMS\n./bibkeep-x86_64-linux\n./bibkeep-x86_64-linux.whl\n./library-x86_64-linux/bibkeep.h\n./library-x86_64-linux/bibkeep.pc\n./library-x86_64-linux/libbibkeep.a\n./library-x86_64-linux/libbibkeep.so\n./library-x86_64-linux/libbibkeep.so.0\n'; says_nothing
when_shell_runs 'tree/tools/release wasm && cd tree/release && find . ! -type d | sort'; ends_with 0; prints './MUTANTS\n./SUMS\n./bibkeep.wasm\n'; says_nothing
