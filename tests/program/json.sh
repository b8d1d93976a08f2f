# `bibkeep json`.
# shellcheck shell=sh

given quoted.bib '@Misc{a, t = {say "x" \\ {\\"o}}, u = "a	b" # { \n c}, T = 2}'
given control.bib '@misc{a, t = {\001\037\177}}'
given utf8.bib '@misc{\303\251, t = {\303\251\360\237\231\202}}'
given latin.bib '@misc{good, t = 1}@misc{bad, t = {caf\351}}@misc{worse, \351 = 1}'
given nested.bib '@misc{c, crossref = {p}, t = 1}@book{p, crossref = {g}, y = 2}@misc{g, z = 3}'

# An entry is an object, a line each: its type, its key, the key of its parent or null, and its fields in the order of `show`.
when json books.bib Lam86; ends_with 0; prints '{"type":"misc","key":"Lam86","parent":null,"fields":{"author":"Donald E. Knuth","year":"1984"}}\n'; says_nothing
when json nested.bib C; ends_with 0; prints '{"type":"misc","key":"c","parent":"p","fields":{"t":"1","y":"2"}}\n'; says_nothing
when json nested.bib --depth 2 c; ends_with 0; prints '{"type":"misc","key":"c","parent":"p","fields":{"t":"1","y":"2","z":"3"}}\n'; says_nothing
when json nested.bib '*'; ends_with 0; prints '{"type":"misc","key":"c","parent":"p","fields":{"t":"1","y":"2"}}\n{"type":"book","key":"p","parent":"g","fields":{"y":"2","z":"3"}}\n{"type":"misc","key":"g","parent":null,"fields":{"z":"3"}}\n'; says_nothing
when json empty.bib '*'; ends_with 0; writes_nothing; says_nothing
when json nested.bib g c g; ends_with 0; prints '{"type":"misc","key":"g","parent":null,"fields":{"z":"3"}}\n{"type":"misc","key":"c","parent":"p","fields":{"t":"1","y":"2"}}\n'; says_nothing

# Quotation marks, backslashes and control bytes are escaped, and other characters stand as they are.
when json quoted.bib a; ends_with 0; prints '{"type":"misc","key":"a","parent":null,"fields":{"t":"say \\"x\\" \\\\ {\\\\\\"o}","u":"a b c"}}\n'; says_nothing
when json control.bib a; ends_with 0; prints '{"type":"misc","key":"a","parent":null,"fields":{"t":"\\u0001\\u001f\177"}}\n'; says_nothing
when json utf8.bib '*'; ends_with 0; prints '{"type":"misc","key":"\303\251","parent":null,"fields":{"t":"\303\251\360\237\231\202"}}\n'; says_nothing

# A text that is not UTF-8 is refused, with the key of the first such entry.
when json latin.bib good; ends_with 0; prints '{"type":"misc","key":"good","parent":null,"fields":{"t":"1"}}\n'; says_nothing
when json latin.bib good worse bad; ends_with 1; writes_nothing; says 'bibkeep: 24 NotUtf8 in worse'
when json latin.bib '*'; ends_with 1; writes_nothing; says 'bibkeep: 24 NotUtf8 in bad'

# With --raw: the fields as they are written, and where each entry stands. Only the first field of a name counts, and macros stay.
given raw.bib '%% mine\n@string{j = {J}}\n@Misc(a, Journal = j # " x" # {y},\r\n  year=2001, YEAR = {2002}) @book{B, title = {\\TeX}\r\n, note = "two\r\n lines"}\n'
when json raw.bib --raw '*'; ends_with 0; prints '{"type":"misc","key":"a","parent":null,"fields":{"journal":{"name":"Journal","value":"j # \\" x\\" # {y}","inherited":false},"year":{"name":"year","value":"2001","inherited":false}},"item":1,"line":3,"column":1}\n{"type":"book","key":"B","parent":null,"fields":{"title":{"name":"title","value":"{\\\\TeX}","inherited":false},"note":{"name":"note","value":"\\"two\\r\\n lines\\"","inherited":false}},"item":2,"line":4,"column":29}\n'; says_nothing
when json --raw raw.bib b; ends_with 0; prints '{"type":"book","key":"B","parent":null,"fields":{"title":{"name":"title","value":"{\\\\TeX}","inherited":false},"note":{"name":"note","value":"\\"two\\r\\n lines\\"","inherited":false}},"item":2,"line":4,"column":29}\n'; says_nothing
when json empty.bib --raw '*'; ends_with 0; writes_nothing; says_nothing

# An inherited field has the key of the entry from which it comes; crossref is no field here either.
when json nested.bib --raw C; ends_with 0; prints '{"type":"misc","key":"c","parent":"p","fields":{"t":{"name":"t","value":"1","inherited":false},"y":{"name":"y","value":"2","inherited":"p"}},"item":0,"line":1,"column":1}\n'; says_nothing
when json nested.bib --raw --depth 2 g c; ends_with 0; prints '{"type":"misc","key":"g","parent":null,"fields":{"z":{"name":"z","value":"3","inherited":false}},"item":2,"line":1,"column":63}\n{"type":"misc","key":"c","parent":"p","fields":{"t":{"name":"t","value":"1","inherited":false},"y":{"name":"y","value":"2","inherited":"p"},"z":{"name":"z","value":"3","inherited":"g"}},"item":0,"line":1,"column":1}\n'; says_nothing
given ring.bib '@misc{a, crossref = {b}, x = 1}@misc{b, X = 2, crossref = {a}, Y = 3}'
when json ring.bib --raw --depth 8 a; ends_with 0; prints '{"type":"misc","key":"a","parent":"b","fields":{"x":{"name":"x","value":"1","inherited":false},"y":{"name":"Y","value":"3","inherited":"b"}},"item":0,"line":1,"column":1}\n'; says_nothing

# What is not UTF-8 is refused in the same way, but the texts of macros are not looked at.
when json latin.bib --raw good; ends_with 0; prints '{"type":"misc","key":"good","parent":null,"fields":{"t":{"name":"t","value":"1","inherited":false}},"item":0,"line":1,"column":1}\n'; says_nothing
when json latin.bib --raw good worse bad; ends_with 1; writes_nothing; says 'bibkeep: 24 NotUtf8 in worse'
when json latin.bib --raw '*'; ends_with 1; writes_nothing; says 'bibkeep: 24 NotUtf8 in bad'
given latin_macro.bib '@string{m = {\351}}@misc{a, t = m}'
when json latin_macro.bib a; ends_with 1; writes_nothing; says 'bibkeep: 24 NotUtf8 in a'
when json latin_macro.bib --raw a; ends_with 0; prints '{"type":"misc","key":"a","parent":null,"fields":{"t":{"name":"t","value":"m","inherited":false}},"item":1,"line":1,"column":17}\n'; says_nothing
when json books.bib --raw Lam86 zz; ends_with 1; writes_nothing; says 'bibkeep: 11 NoSuchEntry'
when json books.bib --raw; ends_with 2
when cite books.bib --raw Lam86; ends_with 2

# Of several files, item, line and column are those of the entry in its file.
given first.bib 'x\n@misc{a, t = 1}\n'
given second.bib '@string{m = {M}}\n @misc{b, crossref = {a}, u = m}@misc{c}'
when json second.bib --before first.bib --raw '*'; ends_with 0; prints '{"type":"misc","key":"a","parent":null,"fields":{"t":{"name":"t","value":"1","inherited":false}},"item":0,"line":2,"column":1,"file":"first.bib"}\n{"type":"misc","key":"b","parent":"a","fields":{"u":{"name":"u","value":"m","inherited":false},"t":{"name":"t","value":"1","inherited":"a"}},"item":1,"line":2,"column":2,"file":"second.bib"}\n{"type":"misc","key":"c","parent":null,"fields":{},"item":2,"line":2,"column":33,"file":"second.bib"}\n'; says_nothing

# A key that no entry has is refused.
when json books.bib Lam86 zz; ends_with 1; writes_nothing; says 'bibkeep: 11 NoSuchEntry'
when json newline.bib a; ends_with 1; writes_nothing; says 'bibkeep: 6 UnbalancedBrace at 15'
when json nothing.bib a; ends_with 3; writes_nothing; says 'bibkeep: read fault'
when_shell_runs '"$program" json books.bib Lam86 >/dev/full'; ends_with 3; says 'bibkeep: write fault'
