# The scripts at the top of the repository.
# shellcheck shell=sh

# It says nothing, but for news of changed sources, which only a tree without the toolchain tells.
says_no_more() { expect 'it said something' test -z "$(grep -v '^tools/program: the sources have changed since' seen/errors)"; }

when_shell_runs '"$root/bibkeep" cat row.bib'; ends_with 0; writes row.bib; says_no_more
when_shell_runs '"$root/bibkeep" cat <row.bib'; ends_with 0; writes row.bib; says_no_more
when_shell_runs '"$root/bibkeep" cat folder 2>&1 | tail -n 1'; prints 'bibkeep: read fault\n'

# It may be called by links, from any folder and by the path.
when_shell_runs 'mkdir -p links/bin && ln -s "$root/bibkeep" links/one && ln -s ../one links/bin/two && links/bin/two cat row.bib'; ends_with 0; writes row.bib; says_no_more
when_shell_runs 'cd links/bin && ./two cat ../../row.bib'; ends_with 0; writes row.bib; says_no_more
when_shell_runs 'PATH=$PWD/links/bin:$PATH; two cat row.bib'; ends_with 0; writes row.bib; says_no_more

# ---- install

when_shell_runs '"$root/install" prefix >/dev/null && prefix/bin/bibkeep cat row.bib'; ends_with 0; writes row.bib; says_no_more
when_shell_runs 'cd prefix/share && find . -type f ! -path "./doc/*" | sort'; prints './bash-completion/completions/bibkeep\n./fish/vendor_completions.d/bibkeep.fish\n./man/man1/bibkeep.1\n./zsh/site-functions/_bibkeep\n'; says_nothing
when_shell_runs 'cmp "$root/man/bibkeep.1" prefix/share/man/man1/bibkeep.1 && cmp "$root/docs/FAULTS.md" prefix/share/doc/bibkeep/FAULTS.md'; ends_with 0; writes_nothing; says_nothing
when_shell_runs 'diff -r -x page "$root/examples" prefix/share/doc/bibkeep/examples'; ends_with 0; writes_nothing; says_nothing
when_shell_runs '"$root/install" prefix'; ends_with 0; mentions 'prefix/bin/bibkeep'; says_no_more
when_shell_runs 'HOME=$PWD/home "$root/install" && home/.local/bin/bibkeep --version'; ends_with 0; mentions 'bibkeep 0.1.0'; says_no_more
when_shell_runs '"$root/install" --help'; ends_with 0; mentions 'Usage: ./install [--prove] [PREFIX]'; says_nothing
when_shell_runs '"$root/install" --nowhere'; ends_with 2; writes_nothing; complains_of 'Usage: ./install [--prove] [PREFIX]'
when_shell_runs '"$root/install" --uninstall one two'; ends_with 2; writes_nothing; complains_of 'Usage: ./install'
when_shell_runs 'unset HOME; "$root/install"'; ends_with 2; writes_nothing; says 'install: the variable HOME is not set; say where bibkeep is to be: ./install PREFIX'
when_shell_runs 'HOME= "$root/install" --uninstall'; ends_with 2; writes_nothing; complains_of 'the variable HOME is not set'

# A C compiler finds the library by pkg-config, whatever the folder is called.
if [ -e prefix/lib/libbibkeep.so.0 ] && command -v cc >/dev/null && command -v pkg-config >/dev/null; then
    when_shell_runs '"$root/install" "with a  space" >/dev/null && PKG_CONFIG_PATH="with a  space/lib/pkgconfig" pkg-config --cflags --libs bibkeep >flags && eval "cc \"\$root/examples/year.c\" $(cat flags) -o year"'; ends_with 0; writes_nothing; says_no_more
    when_shell_runs 'cp "$root/examples/refs.bib" year.bib && LD_LIBRARY_PATH="with a  space/lib" ./year year.bib l94 1995 && sed "s/year=1994 /year=1995 /" "$root/examples/refs.bib" | cmp - year.bib'; ends_with 0; writes_nothing; says_nothing
fi

# Whoever reads the system's files reads these.
when_shell_runs 'umask 077; "$root/install" shared >/dev/null; find shared -type d ! -perm 755 -o -type f ! -perm 644 ! -name bibkeep'; ends_with 0; writes_nothing
when_shell_runs 'find shared -name bibkeep -type f -perm 755; find shared -name bibkeep -type f -perm 644'; prints 'shared/bin/bibkeep\nshared/share/bash-completion/completions/bibkeep\n'; says_nothing

# What was put there can be taken away, and nothing else.
when_shell_runs '"$root/install" --uninstall shared >/dev/null; ls shared'; writes_nothing; complains_of shared
when_shell_runs 'mkdir -p own/bin && : >own/bin/mine && "$root/install" own >/dev/null && "$root/install" own >/dev/null && : >own/share/mine && "$root/install" --uninstall own >/dev/null; find own | sort'; prints 'own\nown/bin\nown/bin/mine\nown/share\nown/share/mine\n'; says_no_more
when_shell_runs '"$root/install" "with a  space" >/dev/null && "$root/install" --uninstall "with a  space"'; ends_with 0; mentions "removed $work/with a  space/bin/bibkeep"; says_no_more
when_shell_runs 'ls | grep -c "with a"'; prints '0\n'
when_shell_runs '"$root/install" --uninstall own'; ends_with 1; writes_nothing; says "install: there is no $work/own/share/doc/bibkeep/installed: bibkeep was not installed there"
when_shell_runs 'HOME=$PWD/home "$root/install" --uninstall >/dev/null; ls -A home'; ends_with 0; writes_nothing; says_nothing

# The last lines say what is left to type, and no more than that.
when_shell_runs '"$root/install" prefix | grep -A 1 PATH='; ends_with 0; mentions "    export PATH=\"$work/prefix/bin:\$PATH\""
when_shell_runs 'PATH=$PWD/prefix/bin:$PATH; "$root/install" prefix | grep -c "export PATH="'; prints '0\n'
when_shell_runs 'mkdir -p first; cp "$root/bibkeep" first; PATH=$PWD/first:$PWD/prefix/bin:$PATH; "$root/install" prefix'; ends_with 0; mentions "    $work/first/bibkeep"
if command -v bash >/dev/null; then
    when_shell_runs '"$root/install" prefix'; mentions "    . \"$work/prefix/share/bash-completion/completions/bibkeep\""
    when_shell_runs 'HOME=$PWD/home "$root/install" | grep -c "^bash"'; case='bash-completion finds it under HOME'
    if [ -e /usr/share/bash-completion/bash_completion ]; then prints '0\n'; else prints '1\n'; fi
    when_shell_runs 'bash -c ". prefix/share/bash-completion/completions/bibkeep; complete -p bibkeep"'; prints 'complete -F _bibkeep bibkeep\n'; says_nothing
fi
if command -v zsh >/dev/null; then
    when_shell_runs '"$root/install" prefix'; mentions "    fpath=(\"$work/prefix/share/zsh/site-functions\" \$fpath)"
    when_shell_runs 'zsh -fc "fpath=(\"$PWD/prefix/share/zsh/site-functions\" \$fpath); autoload -Uz compinit; compinit -u -D; echo \$_comps[bibkeep]"'; prints '_bibkeep\n'; says_nothing
fi
if command -v fish >/dev/null; then
    when_shell_runs '"$root/install" prefix'; mentions "    source \"$work/prefix/share/fish/vendor_completions.d/bibkeep.fish\""
    when_shell_runs 'HOME=$PWD/home "$root/install" | grep -c "^fish"'; prints '0\n'
    when_shell_runs 'HOME=$PWD/home PATH=$PWD/home/.local/bin:$PATH fish -c "complete -C \"bibkeep chec\""'; mentions check
fi

# ---- the whole check

when_shell_runs '"$root/test" --help'; ends_with 0; mentions 'Usage: ./test'; says_nothing
when_shell_runs '"$root/test" now'; ends_with 2; writes_nothing; complains_of 'Usage: ./test'
