# A program that is not the stated one is never run, and one that cannot run here says why.
# shellcheck shell=sh

given forged '#!/bin/sh\necho forged\n'
chmod 755 forged
not_stated='tools/program: the SHA-256 of the released program is not the one that release/SUMS states; tools/build proves and builds the program'

given_tree
restate 'program x86_64-linux' "$(sha256sum <forged | cut -d ' ' -f 1)"
when_shell_runs '$alone tree/bibkeep cat row.bib'; ends_with 126; writes_nothing; says "$not_stated"
when_shell_runs '$alone tree/install refused'; ends_with 126; writes_nothing; says "$not_stated"
when_shell_runs 'test ! -e refused'; ends_with 0; writes_nothing
given_tree
cp forged tree/release/bibkeep-x86_64-linux
when_shell_runs '$alone tree/bibkeep cat row.bib'; ends_with 126; writes_nothing; says "$not_stated"
given_tree
head -c 1000 fits/release/bibkeep-x86_64-linux >tree/release/bibkeep-x86_64-linux
when_shell_runs '$alone tree/bibkeep cat row.bib'; ends_with 126; writes_nothing; says "$not_stated"
given_tree
rm tree/release/bibkeep-x86_64-linux
when_shell_runs '$alone tree/bibkeep cat row.bib'; ends_with 126; writes_nothing; says "$not_stated"
given_tree
rm -r tree/release
when_shell_runs '$alone tree/bibkeep cat row.bib'; ends_with 126; writes_nothing; says 'tools/program: there is no release in this tree; tools/build proves and builds the program'

# A library with a file that is not the stated one is not installed.
given_tree
echo more >>tree/release/library-x86_64-linux/libbibkeep.a
when_shell_runs '$alone tree/install refused'; ends_with 126; writes_nothing; says 'tools/find_library: the SHA-256 of release/library-x86_64-linux/libbibkeep.a is not the one that release/SUMS states; tools/library proves and builds the library'
when_shell_runs 'rm tree/release/library-x86_64-linux/bibkeep.h && $alone tree/install refused'; ends_with 126; writes_nothing; complains_of library-x86_64-linux/bibkeep.h
when_shell_runs 'test ! -e refused'; ends_with 0; writes_nothing

# The program is looked at each time.
given_tree
when_shell_runs '$alone tree/bibkeep cat row.bib'; ends_with 0; writes row.bib; says_nothing
when_shell_runs 'echo more >>tree/release/bibkeep-x86_64-linux && $alone tree/bibkeep cat row.bib'; ends_with 126; writes_nothing; says "$not_stated"
release forged
when_shell_runs '$alone tree/bibkeep cat row.bib'; ends_with 0; prints 'forged\n'; says_nothing

# Each machine has its own program, and one without says so.
on() { printf '#!/bin/sh\necho %s\n' "$1" >other/uname; }
given_tree
mkdir other
on 'Linux aarch64'
chmod 755 other/uname
export elsewhere="env -i PATH=$PWD/other:$PWD/alone"
cp forged tree/release/bibkeep-aarch64-linux
when_shell_runs '$elsewhere tree/bibkeep cat row.bib'; ends_with 126; writes_nothing; says "$not_stated"
restate 'program aarch64-linux' "$(sha256sum <forged | cut -d ' ' -f 1)"
when_shell_runs '$elsewhere tree/bibkeep cat row.bib'; ends_with 0; prints 'forged\n'; says_nothing
when_shell_runs '$elsewhere tree/install prefix >/dev/null && cmp forged prefix/bin/bibkeep'; ends_with 0; says_nothing
when_shell_runs 'cmp tree/release/library-aarch64-linux/libbibkeep.so.0 prefix/lib/libbibkeep.so'; ends_with 0; says_nothing
for machine in 'Linux riscv64' 'Linux armv7l' 'Darwin arm64'; do
    on "$machine"
    when_shell_runs '$elsewhere tree/bibkeep cat row.bib'; ends_with 126; writes_nothing; says "tools/program: the released programs are for Linux on x86_64 and aarch64, and this machine is $machine"
done

# The system cannot start the program.
given strange '#!/nothing/there\n'
given_tree
release strange
when_shell_runs '$alone tree/bibkeep cat row.bib'; ends_with 126; writes_nothing; says 'tools/program: the released program does not run here: it needs an x86-64-v2 processor'
