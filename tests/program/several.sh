# `--before` and `--after`: several files that are read as one.
# shellcheck shell=sh

given s.bib '@string{p={A}}\n'
given f.bib '@misc{a,t=p}\n'
given c.bib '@misc{c,crossref={v}}\n'
given v.bib '@book{v,year=2001}\n'
given other_s.bib '@string{P={B}}\n'
given open.bib '@misc{'

# A use sees the macros of the files before it, and no others; of two definitions the later one counts.
when show f.bib --before s.bib a; ends_with 0; prints '@misc a\nt = A\n'; says_nothing
when show f.bib a; ends_with 0; prints '@misc a\nt = \n'; says_nothing
when show f.bib --after s.bib a; ends_with 0; prints '@misc a\nt = \n'; says_nothing
when show --before s.bib --before other_s.bib f.bib a; ends_with 0; prints '@misc a\nt = B\n'; says_nothing
when show --before=other_s.bib f.bib --before=s.bib a; ends_with 0; prints '@misc a\nt = A\n'; says_nothing
when check s.bib --after f.bib; ends_with 0; prints 'items 2\nentries 1\nmacros 1\npreambles 0\ncomments 0\n'; says_nothing

# A parent may be in any file.
when show c.bib --after v.bib c; ends_with 0; prints '@misc c\nyear = 2001\ncrossref = v\n'; says_nothing
when show c.bib --before v.bib c; ends_with 0; prints '@misc c\nyear = 2001\ncrossref = v\n'; says_nothing
when cite c.bib --after v.bib --min-crossrefs 1 c; ends_with 0; prints 'c\tv\nv\n'; says_nothing
when check c.bib --before v.bib; ends_with 0; prints 'items 2\nentries 2\nmacros 0\npreambles 0\ncomments 0\nparent before c\n'; says_nothing
when check c.bib --after f.bib --after v.bib; ends_with 0; prints 'items 3\nentries 3\nmacros 0\npreambles 0\ncomments 0\nundefined macro p\n'; says_nothing
given chain_1.bib '@misc{x, crossref = {y}}'
given chain_2.bib '@misc{y, crossref = {z}}'
given chain_3.bib '@misc{z, note = {far}}'
when show chain_2.bib --before chain_1.bib --after chain_3.bib --depth 2 x; ends_with 0; prints '@misc x\nnote = far\ncrossref = y\n'; says_nothing

# Of two entries with one key the first in the order of the files is found.
given again.bib '@book{A,t=1}\n@misc{b}\n'
when show f.bib --after again.bib a; ends_with 0; prints '@misc a\nt = \n'; says_nothing
when show f.bib --before again.bib a; ends_with 0; prints '@book A\nt = 1\n'; says_nothing
when cite f.bib --after again.bib '*'; ends_with 0; prints 'a\nA\nb\n'; says_nothing
when check f.bib --after again.bib; ends_with 0; prints 'items 3\nentries 3\nmacros 0\npreambles 0\ncomments 0\nundefined macro p\nrepeated entry A\n'; says_nothing
when check f.bib --after f.bib; ends_with 0; prints 'items 2\nentries 2\nmacros 0\npreambles 0\ncomments 0\nundefined macro p\nrepeated entry a\nundefined macro p\n'; says_nothing

# Nothing of a file goes on in the next one, whether its last line ends or not.
given word.bib 'x@foo '
given body.bib '{y}@misc{a}'
when check word.bib --after body.bib; ends_with 0; prints 'items 1\nentries 1\nmacros 0\npreambles 0\ncomments 0\n'; says_nothing
when cite body.bib --before word.bib a y; ends_with 0; prints 'a\n? y\n'; says_nothing
given only_comment.bib '@comment'
given letters.bib 's{'
when check only_comment.bib --after letters.bib; ends_with 0; prints 'items 1\nentries 0\nmacros 0\npreambles 0\ncomments 1\n'; says_nothing
given sign.bib 'mail @'
given key.bib 'misc{m}@misc{n}'
when cite key.bib --before sign.bib '*'; ends_with 0; prints 'n\n'; says_nothing
given half_1.bib '@misc{h,t={'
given half_2.bib '}}'
when check half_1.bib --after half_2.bib; ends_with 1; writes_nothing; says 'bibkeep: 1 Unended at 11 in half_1.bib'
given half_3.bib 'y}}@misc{i j}'
when check half_1.bib --after empty.bib --after half_3.bib; ends_with 1; writes_nothing; says 'bibkeep: 1 Unended at 11 in half_1.bib'
when cite half_1.bib --before v.bib --after half_2.bib '*'; ends_with 1; writes_nothing; says 'bibkeep: 1 Unended at 11 in half_1.bib'
when lint half_1.bib --before v.bib --after half_2.bib; ends_with 1; prints 'half_1.bib:1:12: error: 1 Unended\n'; says_nothing

# A comment between two files is none of theirs, and an empty file says nothing.
when check empty.bib --after empty.bib --before empty.bib; ends_with 0; prints 'items 0\nentries 0\nmacros 0\npreambles 0\ncomments 0\n'; says_nothing
when check empty.bib --after only_comment.bib; ends_with 0; prints 'items 1\nentries 0\nmacros 0\npreambles 0\ncomments 1\n'; says_nothing
when lint empty.bib --before s.bib --after f.bib; ends_with 0; writes_nothing; says_nothing
when json f.bib --before empty.bib --after empty.bib a; ends_with 0; prints '{"type":"misc","key":"a","parent":null,"fields":{"t":""},"file":"f.bib"}\n'; says_nothing

# ---- which file is at fault

# A refusal names the first file that is not valid, and its place is one of that file.
when check f.bib --after open.bib; ends_with 1; writes_nothing; says 'bibkeep: 1 Unended at 6 in open.bib'
when check open.bib --before s.bib; ends_with 1; writes_nothing; says 'bibkeep: 1 Unended at 6 in open.bib'
when show f.bib --before open.bib --after newline.bib a; ends_with 1; writes_nothing; says 'bibkeep: 1 Unended at 6 in open.bib'
when cite f.bib --before newline.bib --after ./open.bib a; ends_with 1; writes_nothing; says 'bibkeep: 6 UnbalancedBrace at 15 in newline.bib'
for command in labels json ris extract; do
    when $command f.bib --before s.bib --after ./open.bib a; ends_with 1; writes_nothing; says 'bibkeep: 1 Unended at 6 in ./open.bib'
done
when names f.bib --before s.bib --after open.bib a '{ll}'; ends_with 1; writes_nothing; says 'bibkeep: 1 Unended at 6 in open.bib'
when newkeys f.bib --before s.bib --after open.bib; ends_with 1; writes_nothing; says 'bibkeep: 1 Unended at 6 in open.bib'

# A refusal without a place names no file.
when show f.bib --before s.bib zz; ends_with 1; writes_nothing; says 'bibkeep: 11 NoSuchEntry'
when labels f.bib --before s.bib a zz; ends_with 1; writes_nothing; says 'bibkeep: 11 NoSuchEntry'
when names f.bib --before s.bib a '{ll'; ends_with 1; writes_nothing; says 'bibkeep: 23 BadTemplate'
when extract f.bib --before s.bib zz; ends_with 1; writes_nothing; says 'bibkeep: 11 NoSuchEntry in zz'

# A text may be too long behind the definitions of another file, and short without them.
doubled 10 >doubles.bib
tail -c "+$(($(wc -c <doubles.bib) + 1))" too_long_text.bib >more_doubles.bib
when check more_doubles.bib --before doubles.bib; ends_with 1; writes_nothing; says 'bibkeep: 8 TextTooLong at 254 in more_doubles.bib'
when lint more_doubles.bib --before doubles.bib; ends_with 1; prints 'more_doubles.bib:1:255: error: 8 TextTooLong\n'; says_nothing
when check more_doubles.bib --after doubles.bib; ends_with 0; prints 'items 22\nentries 0\nmacros 22\npreambles 0\ncomments 0\nundefined macro m10\nundefined macro m10\n'; says_nothing
when check more_doubles.bib; ends_with 0; prints 'items 11\nentries 0\nmacros 11\npreambles 0\ncomments 0\nundefined macro m10\nundefined macro m10\n'; says_nothing

# All files with what stands between them are at most as long as one file may be: eleven bytes come before each further file. The
# first that ends past the limit is at fault, where the limit is in it, even if it is empty.
given_length long.bib 16777204
given_length longer.bib 16777205
given y.bib 'y'
when check long.bib --after y.bib; ends_with 0; prints 'items 0\nentries 0\nmacros 0\npreambles 0\ncomments 0\n'; says_nothing
when check longer.bib --after empty.bib; ends_with 0; says_nothing
when check longer.bib --after y.bib; ends_with 1; writes_nothing; says 'bibkeep: 9 FileTooLong at 0 in y.bib'
when lint longer.bib --after y.bib; ends_with 1; prints 'y.bib:1:1: error: 9 FileTooLong\n'; says_nothing
when check longer.bib --before y.bib; ends_with 1; writes_nothing; says 'bibkeep: 9 FileTooLong at 16777204 in longer.bib'
when check longer.bib --after empty.bib --after empty.bib; ends_with 1; writes_nothing; says 'bibkeep: 9 FileTooLong at 0 in empty.bib'
when check too_long.bib --after open.bib; ends_with 1; writes_nothing; says 'bibkeep: 9 FileTooLong at 16777216 in too_long.bib'
when check too_long.bib --before open.bib; ends_with 1; writes_nothing; says 'bibkeep: 1 Unended at 6 in open.bib'
when check f.bib --before /dev/zero; ends_with 1; writes_nothing; says 'bibkeep: 9 FileTooLong at 16777216 in /dev/zero'
rm -f long.bib longer.bib

# A file that cannot be read is named, in the order of the files, and before any file is looked at.
when check f.bib --before nothing.bib; ends_with 3; writes_nothing; says 'bibkeep: read fault in nothing.bib'
when lint f.bib --after nothing.bib; ends_with 3; writes_nothing; says 'bibkeep: read fault in nothing.bib'
when check nothing.bib --after s.bib; ends_with 3; writes_nothing; says 'bibkeep: read fault in nothing.bib'
when check open.bib --after nothing.bib --after nowhere.bib; ends_with 3; writes_nothing; says 'bibkeep: read fault in nothing.bib'
when cite f.bib --before . a; ends_with 3; writes_nothing; says 'bibkeep: read fault in .'
when check f.bib --hints --before nothing.bib; ends_with 3; writes_nothing; complains_of '  nothing.bib: there is no such file'
when_shell_runs '"$program" check f.bib --before s.bib >/dev/full'; ends_with 3; says 'bibkeep: write fault'
if [ -e /dev/stdin ]; then
    when_shell_runs 'printf "@string{p={from a pipe}}" | "$program" show f.bib --before /dev/stdin a'; ends_with 0; prints '@misc a\nt = from a pipe\n'; says_nothing
fi

# Other files are only read: no journal is, and none is made.
given s.bib.bibkeep 'no journal'
given f.bib.bibkeep 'no journal'
when show f.bib --before s.bib a; ends_with 0; prints '@misc a\nt = A\n'; says_nothing
expect 'a journal was left' test ! -e v.bib.bibkeep
rm s.bib.bibkeep f.bib.bibkeep

# ---- `lint`

# Each line has the name of a file, as it was given, and the line and column there; the lines come in the order of the files.
given lines.bib 'front\n\n@misc{b,\n  t = u,\n  T = p}\n\n@misc{A}'
when lint lines.bib --before ./f.bib --after s.bib; ends_with 1; prints './f.bib:1:11: warning: macro p is not defined [undefined-macro]\nlines.bib:4:7: warning: macro u is not defined [undefined-macro]\nlines.bib:5:3: warning: field T is there already [repeated-field]\nlines.bib:5:7: warning: macro p is not defined [undefined-macro]\nlines.bib:7:7: warning: key A is that of an earlier entry [repeated-key]\n'; says_nothing
when lint f.bib --before s.bib; ends_with 0; writes_nothing; says_nothing
when lint f.bib --after f.bib; ends_with 1; prints 'f.bib:1:11: warning: macro p is not defined [undefined-macro]\nf.bib:1:7: warning: key a is that of an earlier entry [repeated-key]\nf.bib:1:11: warning: macro p is not defined [undefined-macro]\n'; says_nothing
when lint other_s.bib --before s.bib; ends_with 1; prints 'other_s.bib:1:9: warning: macro P is defined already: the uses after this have the new text [repeated-macro]\n'; says_nothing
when lint c.bib --after v.bib; ends_with 0; writes_nothing; says_nothing
when lint c.bib --before v.bib; ends_with 1; prints 'c.bib:1:18: warning: parent v stands before its child: BibTeX finds this parent only if it is cited itself or named by an earlier child [early-parent]\n'; says_nothing
when lint c.bib --before v.bib --ignore early-parent; ends_with 0; writes_nothing; says_nothing
given marked.bib '<<<<<<< ours\n@misc{d}\n=======\n@misc{e}\n>>>>>>> theirs'
when lint marked.bib --before s.bib --after marked.bib --ignore repeated-key; ends_with 1; prints 'marked.bib:1:1: warning: conflict marker <<<<<<< was left by a merge [conflict-marker]\nmarked.bib:3:1: warning: conflict marker ======= was left by a merge [conflict-marker]\nmarked.bib:5:1: warning: conflict marker >>>>>>> was left by a merge [conflict-marker]\nmarked.bib:1:1: warning: conflict marker <<<<<<< was left by a merge [conflict-marker]\nmarked.bib:3:1: warning: conflict marker ======= was left by a merge [conflict-marker]\nmarked.bib:5:1: warning: conflict marker >>>>>>> was left by a merge [conflict-marker]\n'; says_nothing

# If a file is not valid, the faults of the first such file are all that is printed.
given faulty.bib '@misc{a, t = 1 u = 2, v = 3}\n@misc{b, w = x y}\n'
when lint f.bib --before faulty.bib --after open.bib; ends_with 1; prints 'faulty.bib:1:16: error: 4 ExpectedCommaOrClose\nfaulty.bib:2:16: error: 4 ExpectedCommaOrClose\n'; says_nothing
when lint f.bib --after open.bib --after faulty.bib; ends_with 1; prints 'open.bib:1:7: error: 1 Unended\n'; says_nothing

# ---- answers made of several files

# In `json` the last member is the name of the file in which an entry stands.
given 'q"\t.bib' '@misc{q, note = p}'
when json c.bib --after v.bib v c; ends_with 0; prints '{"type":"book","key":"v","parent":null,"fields":{"year":"2001"},"file":"v.bib"}\n{"type":"misc","key":"c","parent":"v","fields":{"year":"2001"},"file":"c.bib"}\n'; says_nothing
when json f.bib --before ./s.bib --after 'q"\t.bib' '*'; ends_with 0; prints '{"type":"misc","key":"a","parent":null,"fields":{"t":"A"},"file":"f.bib"}\n{"type":"misc","key":"q","parent":null,"fields":{"note":"A"},"file":"q\\"\\\\t.bib"}\n'; says_nothing
when json f.bib --after again.bib a b; ends_with 0; prints '{"type":"misc","key":"a","parent":null,"fields":{"t":""},"file":"f.bib"}\n{"type":"misc","key":"b","parent":null,"fields":{},"file":"again.bib"}\n'; says_nothing
when json f.bib --before latin.bib good worse bad; ends_with 1; writes_nothing; says 'bibkeep: 24 NotUtf8 in worse'

# The part that keys need has no comment between files, and is one file.
when extract f.bib --before s.bib a; ends_with 0; prints '@string{p={A}}\n@misc{a,t=p}\n'; says_nothing
when extract chain_2.bib --before s.bib --before chain_1.bib --after chain_3.bib --after f.bib x; ends_with 0; prints '@misc{x, crossref = {y}}\n@misc{y, crossref = {z}}\n@misc{z, note = {far}}\n'; says_nothing
given strings.bib 'Our macros.\n@string{q = {Quarto}}@string{p = {Press}}\n@comment{old}\n'
given volumes.bib '@preamble{"\\x" # q}\n@book{v, publisher = p}'
when extract c.bib --before strings.bib --after volumes.bib C; ends_with 0; prints '@string{q = {Quarto}}\n@string{p = {Press}}\n@misc{c,crossref={v}}\n@preamble{"\\x" # q}\n@book{v, publisher = p}\n'; says_nothing
when extract c.bib --before strings.bib --after volumes.bib '*'; ends_with 0; prints '@string{q = {Quarto}}\n@string{p = {Press}}\n@misc{c,crossref={v}}\n@preamble{"\\x" # q}\n@book{v, publisher = p}\n'; says_nothing
when_shell_runs '"$program" extract c.bib --before strings.bib --after volumes.bib c >part.bib && "$program" extract part.bib c | cmp - part.bib'; ends_with 0; writes_nothing; says_nothing

# Keys are cited, labelled, printed and made over all files.
given lee.bib '@misc{x,author={Ann Lee},year=2001}\n'
given people.bib '@string{lee = {A. Lee}}\n@misc{y,author=lee,year=2001}\n'
when labels lee.bib --after people.bib '*'; ends_with 0; prints 'Lee01a\tx\nLee01b\ty\n'; says_nothing
when newkeys lee.bib --after people.bib; ends_with 0; prints 'x\tLee01\ny\tLee01a\n'; says_nothing
when newkeys lee.bib --before people.bib; ends_with 0; prints 'y\tLee01\nx\tLee01a\n'; says_nothing
when names people.bib --before lee.bib y '{ll}{, f.}'; ends_with 0; prints 'Lee, A.\n'; says_nothing
when ris lee.bib --before people.bib x y; ends_with 0; prints 'TY  - GEN\nAU  - Lee, Ann\nPY  - 2001///\nID  - x\nER  - \nTY  - GEN\nAU  - Lee, A.\nPY  - 2001///\nID  - y\nER  - \n'; says_nothing
when ris f.bib --dropped --before s.bib a; ends_with 0; prints 'a\tt\n'; says_nothing

# The keys of an aux file may be in any file.
given several.aux '\\relax \n\\citation{c,zz}\n\\citation{a}\n\\bibdata{s,f,c,v}\n'
when cite f.bib --aux several.aux --before s.bib --after c.bib --after v.bib; ends_with 0; prints 'c\na\n? zz\n'; says_nothing
when cite f.bib --strict --min-crossrefs 1 --aux several.aux --before s.bib --after c.bib --after v.bib; ends_with 1; prints 'c\tv\na\nv\n? zz\n'; says_nothing
when extract f.bib --aux several.aux --before s.bib --after c.bib --after v.bib; ends_with 1; writes_nothing; says 'bibkeep: 11 NoSuchEntry in zz'
given several.aux '\\citation{c}\n\\citation{a}\n'
when extract f.bib --aux several.aux --before s.bib --after c.bib --after v.bib; ends_with 0; prints '@string{p={A}}\n@misc{a,t=p}\n@misc{c,crossref={v}}\n@book{v,year=2001}\n'; says_nothing
when json f.bib --aux=several.aux --before=s.bib --after=c.bib --after=v.bib; ends_with 0; prints '{"type":"misc","key":"c","parent":"v","fields":{"year":"2001"},"file":"c.bib"}\n{"type":"misc","key":"a","parent":null,"fields":{"t":"A"},"file":"f.bib"}\n'; says_nothing

# ---- words

# With no option the answer is that to the one file.
when json f.bib a; ends_with 0; prints '{"type":"misc","key":"a","parent":null,"fields":{"t":""}}\n'; says_nothing
when check open.bib; ends_with 1; writes_nothing; says 'bibkeep: 1 Unended at 6'

# A file still has to be named by itself, and other commands read one file.
when check --before s.bib; ends_with 2; writes_nothing; complains_of '<F>'
when check f.bib --before; ends_with 2; writes_nothing; complains_of '--before'
when check f.bib s.bib; ends_with 2; writes_nothing; complains_of "'s.bib'"
when extract f.bib --before s.bib; ends_with 2; writes_nothing; complains_of '<KEY>'
for words in 'cat f.bib' 'entry f.bib a' 'edit f.bib remove a' 'undo f.bib' 'redo f.bib' 'log f.bib' 'forget f.bib' 'import f.bib' 'explain 1'; do
    for option in --before --after; do
        # shellcheck disable=SC2086
        when $words $option s.bib; ends_with 2; writes_nothing; complains_of "'$option'"
    done
done
expect 'a journal was left' test ! -e f.bib.bibkeep
