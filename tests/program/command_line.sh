# The words of the command line.
# shellcheck shell=sh

when --help; ends_with 0; mentions 'Usage: bibkeep'; says_nothing
when -h; ends_with 0; mentions 'Edits BibTeX files'; says_nothing
when help; ends_with 0; mentions 'Prints a file that is valid BibTeX'; says_nothing
when cat --help; ends_with 0; mentions 'standard input if it is left out'; says_nothing
when cat -h; ends_with 0; mentions 'Usage: bibkeep cat [OPTIONS] [F]'; says_nothing
when help cat; ends_with 0; mentions 'Usage: bibkeep cat [OPTIONS] [F]'; says_nothing
when check --help; ends_with 0; mentions 'Usage: bibkeep check [OPTIONS] <F>'; says_nothing
when help show; ends_with 0; mentions 'Usage: bibkeep show [OPTIONS] <F> <KEY>'; says_nothing
when cite --help; ends_with 0; mentions '--min-crossrefs <N>'; says_nothing
when edit --help; ends_with 0; mentions 'Usage: bibkeep edit [OPTIONS] <F> [WORD]...'; says_nothing
when --version; ends_with 0; mentions 'bibkeep 0.1.0'; says_nothing
when -V; ends_with 0; mentions 'bibkeep 0.1.0'; says_nothing

when; ends_with 2; writes_nothing; complains_of 'Usage: bibkeep'
when keep; ends_with 2; writes_nothing; complains_of "'keep'"
when Cat; ends_with 2; writes_nothing; complains_of "'Cat'"
when CAT; ends_with 2; writes_nothing; complains_of "'CAT'"
when cat row.bib row.bib; ends_with 2; writes_nothing; complains_of "'row.bib'"
when cat --all; ends_with 2; writes_nothing; complains_of "'--all'"
when cat --steps; ends_with 2; writes_nothing; complains_of "'--steps'"
when check; ends_with 2; writes_nothing; complains_of '<F>'
when check row.bib row.bib; ends_with 2; writes_nothing; complains_of "'row.bib'"
when show row.bib; ends_with 2; writes_nothing; complains_of '<KEY>'
when show row.bib a b; ends_with 2; writes_nothing; complains_of "'b'"
when cite row.bib; ends_with 2; writes_nothing; complains_of '<KEY>'
when cite row.bib --min-crossrefs 0 a; ends_with 2; writes_nothing; complains_of "'0'"
when cite row.bib --min-crossrefs 65536 a; ends_with 2; writes_nothing; complains_of "'65536'"
when show row.bib --depth 0 a; ends_with 2; writes_nothing; complains_of "'0'"
when show row.bib --depth 9 a; ends_with 2; writes_nothing; complains_of "'9'"
when labels row.bib --depth two a; ends_with 2; writes_nothing; complains_of "'two'"
when cite row.bib --depth 2 a; ends_with 2; writes_nothing; complains_of "'--depth'"
when cite row.bib --min-crossrefs two a; ends_with 2; writes_nothing; complains_of "'two'"
when --hel; ends_with 2; writes_nothing; complains_of "'--help'"
if can take_any_bytes; then
    when cat "$(printf 'caf\351.bib')"; ends_with 2; writes_nothing; complains_of 'not UTF-8'
fi

# Whatever file it is started as, the program is bibkeep.
when_shell_runs 'cp "$program" keep-1.0 && ./keep-1.0 --help'; ends_with 0; mentions 'Usage: bibkeep <COMMAND>'; says_nothing
when_shell_runs './keep-1.0 help cite'; ends_with 0; mentions 'Usage: bibkeep cite'; says_nothing
when_shell_runs './keep-1.0 --version'; ends_with 0; mentions 'bibkeep 0.1.0'; says_nothing
when_shell_runs './keep-1.0 show f.bib'; ends_with 2; writes_nothing; complains_of 'Usage: bibkeep show <F> <KEY>'

# It may be started without any word, not even its own name.
given no_words.py 'import ctypes, sys\nctypes.CDLL(None).execv(sys.argv[1].encode(), (ctypes.c_char_p * 1)())\n'
if command -v python3 >/dev/null; then
    when_shell_runs 'python3 no_words.py "$program"'; ends_with 2; writes_nothing; complains_of 'Usage: bibkeep'
fi

when_shell_runs '"$program" --help >/dev/full'; ends_with 3; says 'bibkeep: write fault'
if can keep_streams_closed; then
    when_shell_runs '"$program" --version >&-'; ends_with 3; says 'bibkeep: write fault'
fi
