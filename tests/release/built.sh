# A tree in which the program was built keeps that up to date and answers with it.
# shellcheck shell=sh

given built '#!/bin/sh\necho built "$@"\n'
export RT="$work/rt"

given_built_tree built
when_shell_runs 'tree/bibkeep cat row.bib'; ends_with 0; prints 'built cat row.bib\n'; says_nothing
when_shell_runs 'tree/install prefix >/dev/null && prefix/bin/bibkeep here'; ends_with 0; prints 'built here\n'; says_nothing
when_shell_runs 'sleep 0.1 && echo more >>tree/crates/low/src/lib.rt && tree/bibkeep'; ends_with 0; prints 'low\nmore\n'; complains_of 'tools/build: proving low'
when_shell_runs 'tree/bibkeep'; ends_with 0; prints 'low\nmore\n'; says_nothing
when_shell_runs 'sleep 0.1 && echo wrong >tree/crates/low/src/lib.rt && tree/bibkeep'; ends_with 126; writes_nothing; complains_of 'tools/build: low is not proved'
when_shell_runs 'tree/install refused'; ends_with 126; writes_nothing; complains_of 'tools/build: low is not proved'
when_shell_runs 'RT=nowhere tree/bibkeep'; ends_with 127; writes_nothing; complains_of 'there is no command nowhere'

# It is proved and built in any case if that is asked for.
given_tree
when_shell_runs 'RT=nowhere tree/install --prove refused'; ends_with 127; writes_nothing; complains_of 'there is no command nowhere'
when_shell_runs 'CC=sh tree/install --prove prefix >/dev/null && prefix/bin/bibkeep'; ends_with 0; prints 'low\n'; complains_of 'tools/build: proving low'
when_shell_runs 'head -n 1 prefix/lib/libbibkeep.so'; prints 'a library for here\n'; says_nothing
when_shell_runs 'CC=nowhere tree/install prefix >/dev/null && head -n 1 prefix/lib/libbibkeep.so'; ends_with 0; prints 'a library for here\n'
given_tree
when_shell_runs 'CC=nowhere tree/install --prove prefix >/dev/null && head -n 1 prefix/lib/libbibkeep.so'; ends_with 0; prints 'a library for x86_64-linux\n'
given_tree
when_shell_runs 'tree/tools/build && tree/bibkeep'; ends_with 0; prints 'low\n'; complains_of 'tools/build: proving low'
when_shell_runs 'tree/install --help'; ends_with 0; mentions 'Usage: ./install [--prove] [PREFIX]'; says_nothing
when_shell_runs 'tree/install --prove one two'; ends_with 2; writes_nothing; complains_of 'Usage: ./install'
when_shell_runs 'tree/install prefix --prove'; ends_with 2; writes_nothing; complains_of 'Usage: ./install'
