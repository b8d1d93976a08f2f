# tools/mutants records over which sources the mutants of a crate were refused, and the gate tries those of the others.
# shellcheck shell=sh

given_tree
rm -f tree/release/MUTANTS
when_shell_runs 'tree/tools/mutants --due'; ends_with 0; prints 'low\n'; says_nothing
when_shell_runs 'tree/tools/mutants --count'; ends_with 0; prints '0 of 1\n'; says_nothing
when_shell_runs 'tree/.ci/prove'; ends_with 0; prints '0 of 1 mutants were refused over these very sources before (release/MUTANTS); the others are tried\ncrates/low/must-fail/a.edit\n1 passed, 0 failed\n'; says_nothing
when_shell_runs 'tree/tools/mutants'; ends_with 0; prints 'edit\n1 passed, 0 failed\n'; says_nothing
when_shell_runs 'sed "s/[0-9a-f]\{64\}/SUM/" tree/release/MUTANTS'; prints 'crate low 1 SUM\n'; says_nothing
when_shell_runs 'tree/tools/mutants --due'; ends_with 0; writes_nothing; says_nothing
when_shell_runs 'tree/tools/mutants'; ends_with 0; prints '0 passed, 0 failed\n'; says_nothing
when_shell_runs 'tree/tools/mutants --all'; ends_with 0; prints 'edit\n1 passed, 0 failed\n'; says_nothing
when_shell_runs 'tree/tools/mutants beside low'; ends_with 0; prints 'edit\n1 passed, 0 failed\n'; says_nothing
when_shell_runs 'rm -r tree/crates/low/out; tree/.ci/prove && ls tree/crates/low/out tree/crates/low/must-fail'; ends_with 0; prints '1 of 1 mutants were refused over these very sources before (release/MUTANTS); the others are tried\n1 passed, 0 failed\ntree/crates/low/must-fail:\na.edit\n\ntree/crates/low/out:\nmade\n'; says_nothing

# What a mutant shows depends on its text, on its crate and those below it, and on the toolchain.
mkdir tree/crates/bibkeep/must-fail
given tree/crates/bibkeep/must-fail/b.edit 'edit of the program\n'
when_shell_runs 'tree/tools/mutants >/dev/null && tree/tools/mutants --count'; ends_with 0; prints '2 of 2\n'; says_nothing
cp -R -p tree recorded
for change in 'low/must-fail/a.edit:low' 'bibkeep/src/main.rt:bibkeep' 'low/proofs/Lib.antt:bibkeep low' 'low/specs/Lib.antt:bibkeep low' 'beside/src/lib.rt:'; do
    rm -rf tree && cp -R -p recorded tree
    echo more >>"tree/crates/${change%:*}"
    when_shell_runs 'tree/tools/mutants --due | tr "\n" " "'; prints "$(for name in ${change#*:}; do printf '%s ' "$name"; done)"; says_nothing
done
rm -rf tree && cp -R -p recorded tree
when_shell_runs 'sed "s/^low:/low: indexmap/" recorded/crates.txt >tree/crates.txt && tree/tools/mutants --due'; prints 'bibkeep\nlow\n'; says_nothing
when_shell_runs 'sed "s/a toolchain/another toolchain/" rt >another_rt && chmod 755 another_rt && RT=$PWD/another_rt recorded/tools/mutants --due'; prints 'bibkeep\nlow\n'; says_nothing

# A mutant that is accepted is not recorded, and takes a record away.
given_tree
given tree/crates/low/must-fail/a.edit 'right\n'
when_shell_runs 'tree/tools/mutants'; ends_with 1; prints 'right\nFAILED: the mutants of low are not all refused\n0 passed, 1 failed\n'; says_nothing
when_shell_runs 'cat tree/release/MUTANTS && tree/tools/mutants --due'; ends_with 0; prints 'low\n'; says_nothing
