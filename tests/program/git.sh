# `bibkeep merge` as the merge driver of git, in a repository of its own.
# shellcheck shell=sh

# git, without the settings of whoever runs this.
quiet_git() {
    GIT_CONFIG_GLOBAL=/dev/null GIT_CONFIG_SYSTEM=/dev/null git -c user.name=a -c user.email=a@example.org -c init.defaultBranch=main \
        -c advice.mergeConflict=false "$@" >seen/git_out 2>seen/git_errors
}

# A repository with this file, in which bibkeep merges BibTeX files.
repository() {
    rm -rf repository
    mkdir repository
    quiet_git -C repository init
    quiet_git -C repository config merge.bibkeep.driver "'$program' merge %O %A %B"
    printf '*.bib merge=bibkeep\n' >repository/.gitattributes
    printf '*.bib.bibkeep\n' >repository/.gitignore
    given repository/refs.bib "$1"
    quiet_git -C repository add .
    quiet_git -C repository commit -m base
}

# On a branch of this name, which begins at the first commit, the file is this one.
branch_has() {
    quiet_git -C repository checkout -b "$1" "${3-main}"
    given repository/refs.bib "$2"
    quiet_git -C repository commit -am "$1"
}

# A scene: common file, ours and theirs; then git makes one of both with these words.
scene() {
    repository "$1"
    branch_has theirs "$3"
    branch_has ours "$2"
    shift 3
    begin "git $*"
    quiet_git -C repository "$@"
    status=$?
}

# The file in the repository is this one.
refs_are() {
    given wanted_file "$1"
    expect 'the file is another one' cmp -s wanted_file repository/refs.bib
}

two='@misc{a, t = 1}\n@misc{b, t = 1}\n'

# Both add an entry at the end.
scene "$two" "$two@misc{o}\\n" "$two@misc{p}\\n" merge -m merged theirs
ends_with 0; refs_are "$two@misc{o}\\n@misc{p}\\n"

# A field is set here, and another entry there, in the line below.
scene "$two" '@misc{a, t = 2}\n@misc{b, t = 1}\n' '@misc{a, t = 1}\n@misc{b, t = 3}\n' merge -m merged theirs
ends_with 0; refs_are '@misc{a, t = 2}\n@misc{b, t = 3}\n'

# An entry is moved here, and a field of it is set there.
scene "$two" '@misc{b, t = 1}\n@misc{a, t = 1}\n' '@misc{a, t = 2}\n@misc{b, t = 1}\n' merge -m merged theirs
ends_with 0; refs_are '@misc{b, t = 1}\n@misc{a, t = 2}\n'

# Both set one field: git reports the conflict, shows its line, and the file opens.
scene "$two" '@misc{a, t = 2}\n@misc{b, t = 1}\n' '@misc{a, t = 3}\n@misc{b, t = 1}\n' merge -m merged theirs
ends_with 1; refs_are '<<<<<<< ours\n@misc{a, t = 2}\n=======\n@misc{a, t = 3}\n>>>>>>> theirs\n@misc{b, t = 1}\n'
expect 'git does not show the conflict' grep -qF 'conflict field a t' seen/git_out seen/git_errors
expect 'git does not report the conflict' grep -qF 'CONFLICT' seen/git_out
when check repository/refs.bib; ends_with 0; mentions 'entries 3'

# One gives a parent another key, and the other adds a child; one regenerates all keys, and the other sets a field.
scene '@book{p, t = 1}\n@misc{b, t = 1}\n' '@book{k, t = 1}\n@misc{b, t = 1}\n' '@book{p, t = 1}\n@inbook{c, crossref = {p}}\n@misc{b, t = 1}\n' merge -m merged theirs
ends_with 0; refs_are '@book{k, t = 1}\n@inbook{c, crossref = {k}}\n@misc{b, t = 1}\n'
scene '@book{p, t = 1}\n@inbook{c, t = 2, crossref = {p}}\n' '@book{k, t = 1}\n@inbook{l, t = 2, crossref = {k}}\n' \
    '@book{p, t = {A}}\n@inbook{c, t = 2, crossref = {p}}\n' rebase theirs
ends_with 0; refs_are '@book{k, t = {A}}\n@inbook{l, t = 2, crossref = {k}}\n'

# Both give one entry another key: git reports the conflict.
scene "$two" '@misc{o, t = 1}\n@misc{b, t = 2}\n' '@misc{p, t = 1}\n@misc{b, t = 1}\n' merge -m merged theirs
ends_with 1; refs_are '@misc{o, t = 1}\n@misc{b, t = 2}\n'
expect 'git does not show the conflict' grep -qF 'conflict key a o p' seen/git_out seen/git_errors

# A file that cannot be opened is a conflict too, and ours stays.
scene "$two" "$two@misc{o}\\n" '@misc{' merge -m merged theirs
ends_with 1; refs_are "$two@misc{o}\\n"

# So do rebase, cherry-pick, stash pop and revert.
scene "$two" "$two@misc{o}\\n" "$two@misc{p}\\n" rebase theirs
ends_with 0; refs_are "$two@misc{p}\\n@misc{o}\\n"
scene "$two" "$two@misc{o}\\n" "$two@misc{p}\\n" cherry-pick theirs
ends_with 0; refs_are "$two@misc{o}\\n@misc{p}\\n"
repository "$two"
given repository/refs.bib "$two@misc{p}\\n"
quiet_git -C repository stash
given repository/refs.bib "$two@misc{o}\\n"
quiet_git -C repository commit -am ours
begin 'git stash pop'
quiet_git -C repository stash pop
status=$?
ends_with 0; refs_are "$two@misc{o}\\n@misc{p}\\n"
repository "$two"
branch_has ours "$two@misc{o}\\n"
branch_has later "$two@misc{o}\\n@misc{p}\\n" ours
begin 'git revert'
quiet_git -C repository revert --no-edit HEAD~1
status=$?
ends_with 0; refs_are "$two@misc{p}\\n"
