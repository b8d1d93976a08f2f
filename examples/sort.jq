# jq -rn --arg by FIELD -f sort.jq ENTRIES: prints the script of edits that sorts a file by a field.
# ENTRIES is what `bibkeep json F '*'` prints. FIELD is the name of a field, or key.

# The keys of an entry's parent, of the parent's parent, and so on.
def above($parents): [limit(99; .parent // empty | recurse($parents[.] // empty))];

# What an entry is sorted by.
def text: if $by == "key" then .key else .fields[$by] // "" end | ascii_downcase;

# The sorted entries without those at the beginning that stand in this order already: the others move to the end, one by one.
def moved: (first(range(1; length) as $n | select(.[$n].place < .[$n - 1].place) | $n) // length) as $kept | .[$kept:][];

[inputs] | to_entries | map(.value + {place: .key})
| (reduce .[] as $entry ({}; .[$entry.key] = $entry.parent)) as $parents
# The generations of children that a parent has: more than each of its children, so it comes after them.
| (reduce (.[] | above($parents) | to_entries[]) as $one ({}; .[$one.value] |= ([., $one.key] | max))) as $generations
| "group\tsort by \($by)", (sort_by($generations[.key], text, .key) | moved | "move\t\(.key)\tend"), "end"
