# A tree in which nothing was built answers with the released program.
# shellcheck shell=sh

export alone

given_tree
when_shell_runs '$alone tree/bibkeep cat <row.bib'; ends_with 0; writes row.bib; says_nothing
when_shell_runs '$alone tree/bibkeep cat <row.bib'; ends_with 0; writes row.bib; says_nothing
when_shell_runs 'chmod -R a-w tree && $alone tree/bibkeep cat <row.bib; status=$?; chmod -R u+w tree; exit $status'; ends_with 0; writes row.bib; says_nothing
given_tree
when_shell_runs '(cd tree && find . -type f | sort) >before && $alone tree/bibkeep cat <row.bib >answer && (cd tree && find . -type f | sort) | comm -13 before -'; prints './release/out/sources\n'; says_nothing
when_shell_runs 'cd tree && $alone ./bibkeep cat ../row.bib'; ends_with 0; writes row.bib; says_nothing
when_shell_runs '$alone tree/bibkeep cat folder'; ends_with 3; writes_nothing; says 'bibkeep: read fault'
when_shell_runs '$alone tree/bibkeep cat <&-'; ends_with 3; writes_nothing; says 'bibkeep: read fault'
when_shell_runs '$alone tree/bibkeep cat row.bib >&-'; ends_with 3; says 'bibkeep: write fault'

given_tree
when_shell_runs '$alone tree/install prefix'; ends_with 0; mentions 'prefix/bin/bibkeep'; says_nothing
when_shell_runs 'cmp "$program" prefix/bin/bibkeep && cmp tree/man/bibkeep.1 prefix/share/man/man1/bibkeep.1'; ends_with 0; writes_nothing; says_nothing
when_shell_runs '$alone prefix/bin/bibkeep cat row.bib'; ends_with 0; writes row.bib; says_nothing
when_shell_runs '$alone HOME="$PWD/home" tree/install && home/.local/bin/bibkeep cat row.bib | cmp - row.bib'; ends_with 0; says_nothing

# The library goes where compilers look for it, and away again; a release without one is installed too.
when_shell_runs 'cd prefix && find lib include ! -type d | sort'; prints 'include/bibkeep.h\nlib/libbibkeep.a\nlib/libbibkeep.so\nlib/libbibkeep.so.0\nlib/pkgconfig/bibkeep.pc\n'
when_shell_runs 'cmp tree/release/library-x86_64-linux/libbibkeep.so.0 prefix/lib/libbibkeep.so && cat prefix/lib/pkgconfig/bibkeep.pc'; ends_with 0; prints "prefix=$work/prefix\nlibdir=\${prefix}/lib\n"
when_shell_runs 'tree/install --uninstall prefix >/dev/null && ls prefix'; writes_nothing; complains_of prefix
when_shell_runs 'sed -i "/^library /d" tree/release/SUMS && $alone tree/install prefix'; ends_with 0; mentions 'The library for C was not put there: none was built or released for this machine.'; says_nothing
when_shell_runs 'ls -d prefix/lib prefix/include'; writes_nothing

# It says so if the sources have changed, and not if something else has.
changed='tools/program: the sources have changed since this program was released; tools/build proves and builds it from them'
still_answers_after() {
    given_tree
    $alone tree/bibkeep cat row.bib >seen/out
    when_shell_runs "$1 && \$alone tree/bibkeep cat row.bib"; ends_with 0; writes row.bib; says "$changed"
    when_shell_runs '$alone tree/bibkeep cat row.bib'; case="$1, and again"; ends_with 0; writes row.bib; says "$changed"
}
says_nothing_after() {
    given_tree
    $alone tree/bibkeep cat row.bib >seen/out
    when_shell_runs "$1 && \$alone tree/bibkeep cat row.bib"; ends_with 0; writes row.bib; says_nothing
}

still_answers_after 'echo more >>tree/crates/bibkeep/src/main.rt'
still_answers_after 'echo more >>tree/crates/low/proofs/Lib.antt'
still_answers_after 'echo more >tree/crates/low/specs/More.antt'
still_answers_after 'mkdir tree/crates/bibkeep/specs && echo more >tree/crates/bibkeep/specs/Lib.antt'
still_answers_after 'rm tree/crates/low/proofs/Lib.antt'
still_answers_after 'rm -r tree/crates/low/specs'
still_answers_after 'mv tree/crates/low/specs/Lib.antt tree/crates/low/specs/Other.antt'
still_answers_after 'echo more >>tree/crates/low/src/lib.rt && touch -d "1 year ago" tree/crates/low/src/lib.rt'
still_answers_after 'echo "bibkeep: low beside" >>tree/crates.txt'
still_answers_after 'echo Threads >tree/HANDLES'
still_answers_after 'echo "/* more */" >>tree/tools/static.c'
says_nothing_after 'touch tree/crates/low/src/lib.rt'
says_nothing_after 'echo more >>tree/crates/beside/src/lib.rt'
says_nothing_after 'echo "# more" >>tree/tools/release'
says_nothing_after 'echo more >>tree/crates/low/must-fail/a.edit'
says_nothing_after 'mkdir tree/crates/low/out && echo more >tree/crates/low/out/more'
says_nothing_after 'echo more >>tree/crates/low/src/lib.rt && $alone tree/bibkeep cat row.bib 2>&1 >/dev/null | grep -q changed && cp -p fits/crates/low/src/lib.rt tree/crates/low/src/lib.rt'
when_shell_runs 'echo more >>tree/crates/low/src/lib.rt && $alone tree/install prefix'; ends_with 0; mentions 'prefix/bin/bibkeep'; says "$changed"

# The whole tree is asked for by name and by no other: its crates are those that tools/build proves.
when_shell_runs 'tree/tools/sources --paths'; prints 'HANDLES\ncrates.txt\ncrates/bibkeep/src\ncrates/low/src\ncrates/low/specs\ncrates/low/proofs\n'; says_nothing
