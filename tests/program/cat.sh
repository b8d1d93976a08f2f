# `bibkeep cat`.
# shellcheck shell=sh

given row.bib 'mail joe@x.org\n@Misc{a,}\n'
given empty.bib ''
given bytes.bib 'caf\351 \000\r\n@misc(a)b, t = {x \377} # "y" # 12 # jan)\t'
given comment.bib '@comment{ @misc{a}}'
given text.bib 'no item'
given 'a name.bib' '@misc{a}'
given newline.bib '@misc{a, t = "x}y"}'
given_length longest.bib 16777216
given_length too_long.bib 16777217
mkdir folder
ln -s nothing.bib dangling.bib

# The file comes back.
when cat row.bib; ends_with 0; writes row.bib; says_nothing
when cat empty.bib; ends_with 0; writes_nothing; says_nothing
when cat bytes.bib; ends_with 0; writes bytes.bib; says_nothing
when cat comment.bib; ends_with 0; writes comment.bib; says_nothing
when cat text.bib; ends_with 0; writes text.bib; says_nothing
when cat 'a name.bib'; ends_with 0; writes 'a name.bib'; says_nothing
when cat "$work/row.bib"; ends_with 0; writes row.bib; says_nothing
when cat -- row.bib; ends_with 0; writes row.bib; says_nothing
when cat longest.bib; ends_with 0; writes longest.bib; says_nothing
input=row.bib; when cat; ends_with 0; writes row.bib; says_nothing
input=empty.bib; when cat; ends_with 0; writes_nothing; says_nothing
input=longest.bib; when cat; ends_with 0; writes longest.bib; says_nothing
input=row.bib; when cat comment.bib; ends_with 0; writes comment.bib; says_nothing
when_shell_runs '{ printf "mail joe@"; sleep 0.2; printf "x.org\n@Misc{a,}\n"; } | "$program" cat'; ends_with 0; writes row.bib; says_nothing
when_shell_runs '"$program" cat row.bib | "$program" cat | "$program" cat'; ends_with 0; writes row.bib; says_nothing
when_shell_runs 'cp row.bib same.bib && "$program" cat same.bib >/dev/null && cat same.bib'; ends_with 0; writes row.bib; says_nothing

# A file that cannot be read as a database is refused, with the place.
refuses() { given refused.bib "$1"; when cat refused.bib; case="cat of $1"; ends_with 1; writes_nothing; says "$2"; }

refuses '@misc{a, t = {x}' 'bibkeep: 1 Unended at 16'
refuses '@misc(a)' 'bibkeep: 1 Unended at 8'
refuses '@misc{a,,}' 'bibkeep: 2 ExpectedName at 8'
refuses '@misc{a, t {x}}' 'bibkeep: 3 ExpectedEquals at 11'
refuses '@misc{a b}' 'bibkeep: 4 ExpectedCommaOrClose at 8'
refuses '@misc{a, t = }' 'bibkeep: 5 ExpectedValue at 13'
refuses '@misc{a, t = "x}y"}' 'bibkeep: 6 UnbalancedBrace at 15'
refuses 'mail joe@x.org\n@Misc{a,}}@misc{b' 'bibkeep: 1 Unended at 32'
refuses "@misc{$(printf '%0256d' 0)}" 'bibkeep: 7 KeyTooLong at 261'
when cat too_long.bib; ends_with 1; writes_nothing; says 'bibkeep: 9 FileTooLong at 16777216'
input=too_long.bib; when cat; ends_with 1; writes_nothing; says 'bibkeep: 9 FileTooLong at 16777216'
input=/dev/zero; when cat; ends_with 1; writes_nothing; says 'bibkeep: 9 FileTooLong at 16777216'

# Memory may be limited.
if can run_in_16_MB; then
    when_shell_runs 'ulimit -v 16000; "$program" cat longest.bib'; ends_with 4; writes_nothing; says 'bibkeep: 10 Memory'
fi

# A file that cannot be opened or read is a read fault.
when cat nothing.bib; ends_with 3; writes_nothing; says 'bibkeep: read fault'
when cat ''; ends_with 3; writes_nothing; says 'bibkeep: read fault'
when cat folder; ends_with 3; writes_nothing; says 'bibkeep: read fault'
when cat row.bib/below; ends_with 3; writes_nothing; says 'bibkeep: read fault'
when cat dangling.bib; ends_with 3; writes_nothing; says 'bibkeep: read fault'
input=folder; when cat; ends_with 3; writes_nothing; says 'bibkeep: read fault'
if can keep_streams_closed; then
    when_shell_runs '"$program" cat <&-'; ends_with 3; writes_nothing; says 'bibkeep: read fault'
fi

# An output that takes no more is a write fault.
when_shell_runs '"$program" cat row.bib >/dev/full'; ends_with 3; says 'bibkeep: write fault'
if can keep_streams_closed; then
    when_shell_runs '"$program" cat row.bib >&-'; ends_with 3; says 'bibkeep: write fault'
fi
when_shell_runs '{ "$program" cat longest.bib; echo $? >seen/status; } | head -c 1; exit "$(cat seen/status)"'; ends_with 3; says_nothing
when_shell_runs '"$program" cat empty.bib >/dev/full'; ends_with 0; says_nothing

# Nobody need listen to what it says.
when_shell_runs '"$program" cat newline.bib 2>&-'; ends_with 1; writes_nothing
when_shell_runs '"$program" cat nothing.bib 2>/dev/full'; ends_with 3; writes_nothing
