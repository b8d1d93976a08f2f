# Completion of bibkeep for fish. Put it into ~/.config/fish/completions or PREFIX/share/fish/vendor_completions.d.

# The words before the cursor that are no options, as they are without their quotation marks: the command, the file, others.
function __bibkeep_words
    set -l words (commandline -opc)
    set -l has_ended no
    set -l is_value no
    for word in $words[2..]
        if test $is_value = yes
            set is_value no
        else if test $has_ended = yes
            printf '%s\n' $word
        else if contains -- $word --depth --steps --min-crossrefs --aux --ignore --before --after
            set is_value yes
        else if test "$word" = --
            set has_ended yes
        else if not string match -q -- '-*' $word
            # only the shell knows what a tilde means
            if string match -q -- '~/*' $word
                set word $HOME(string sub -s 2 -- $word)
            end
            printf '%s\n' $word
        end
    end
end

# Whether so many of these words are there, and the first is one of these commands.
function __bibkeep_has
    set -l words (__bibkeep_words)
    test (count $words) -eq $argv[1]; and contains -- "$words[1]" $argv[2..]
end

# The same, of at least so many words.
function __bibkeep_has_at_least
    set -l words (__bibkeep_words)
    test (count $words) -ge $argv[1]; and contains -- "$words[1]" $argv[2..]
end

# Whether these are the words of an edit whose verb is one of those given.
function __bibkeep_edits
    set -l words (__bibkeep_words)
    test (count $words) -eq $argv[1]; and test "$words[1]" = edit; and contains -- "$words[3]" $argv[2..]
end

# What a command prints of the file in the line, whatever the name of that is.
function __bibkeep_run
    set -l words (__bibkeep_words)
    command bibkeep $argv[1] -- $words[2] $argv[2..] 2>/dev/null </dev/null
end

function __bibkeep_keys
    __bibkeep_run cite '*' | cut -f 1
end

# The positions beside entries, and the end.
function __bibkeep_positions
    echo end
    __bibkeep_keys | sed 'h; s/^/before:/p; g; s/^/after:/'
end

# The fields of the entry, with those that it inherits.
function __bibkeep_fields
    set -l words (__bibkeep_words)
    __bibkeep_run show $words[4] | sed -n '2,$s/ = .*//p' | grep -vx crossref
end

# What looks like the definition of a macro.
function __bibkeep_macros
    __bibkeep_run cat | tr '[:space:]' ' ' | LC_ALL=C grep -aioE "@string *[{(] *[^][ \"#%'(),={}]+ *=" | LC_ALL=C sed 's/ *=$//; s/.*[ {(]//'
end

function __bibkeep_faults
    set -l faults 1:Unended 2:ExpectedName 3:ExpectedEquals 4:ExpectedCommaOrClose 5:ExpectedValue 6:UnbalancedBrace 7:KeyTooLong \
        8:TextTooLong 9:FileTooLong 10:Memory 11:NoSuchEntry 12:BadSplice 13:NoSuchFault 14:NotPlain 15:TooDeep 21:TooManyCommas 22:UnbalancedName \
        23:BadTemplate 24:NotUtf8 31:BadKey 32:BadName 33:BadValue 34:BadPosition 35:NotFound 36:Ambiguous 37:KeyInUse \
        38:NameInUse 39:Referred 40:WouldMerge 41:JournalFull 46:NoScript 51:NothingToUndo 52:NothingToRedo \
        53:BadJournal 54:JournalMismatch 55:StepOpen 56:NoOpenStep 61:NoStart 62:NoEnd 63:EmptyType 64:UnbalancedText 65:SkippedLine 71:BadScript
    string replace : \t $faults
    if test -n (commandline -ct)
        string replace -r '.*:' '' $faults
    end
end

complete -c bibkeep -f
complete -c bibkeep -n __fish_use_subcommand -s h -l help -d 'Print help'
complete -c bibkeep -n __fish_use_subcommand -s V -l version -d 'Print version'

complete -c bibkeep -n __fish_use_subcommand -a cat -d 'Prints a file that is valid BibTeX, byte for byte'
complete -c bibkeep -n __fish_use_subcommand -a check -d 'Counts what is in a file and reports what looks wrong'
complete -c bibkeep -n __fish_use_subcommand -a lint -d 'Reports what looks wrong, one finding per line with line and column, for editors and hooks'
complete -c bibkeep -n __fish_use_subcommand -a show -d 'Prints an entry as a bibliography style sees it'
complete -c bibkeep -n __fish_use_subcommand -a entry -d 'Prints entries as they stand in the file, byte for byte'
complete -c bibkeep -n __fish_use_subcommand -a cite -d 'Lists the entries that a bibliography for these keys contains'
complete -c bibkeep -n __fish_use_subcommand -a labels -d 'Prints a short label, such as Knu84, for each entry that these keys cite'
complete -c bibkeep -n __fish_use_subcommand -a json -d 'Prints the entries that these keys cite as JSON, one line each'
complete -c bibkeep -n __fish_use_subcommand -a names -d 'Prints an entry\'s authors, or its editors if it has none, by a template'
complete -c bibkeep -n __fish_use_subcommand -a newkeys -d 'Lists the keys that `edit F regenerate` would make, and changes nothing'
complete -c bibkeep -n __fish_use_subcommand -a edit -d 'Makes one edit, or those listed on standard input, and changes no other byte'
complete -c bibkeep -n __fish_use_subcommand -a undo -d 'Undoes the last changes, of earlier runs too'
complete -c bibkeep -n __fish_use_subcommand -a redo -d 'Redoes what was undone last'
complete -c bibkeep -n __fish_use_subcommand -a log -d 'Lists the changes that can be undone and redone'
complete -c bibkeep -n __fish_use_subcommand -a forget -d 'Starts a new journal, and gives up undo of what was done before'
complete -c bibkeep -n __fish_use_subcommand -a ris -d 'Prints the entries that these keys cite as RIS, for reference managers'
complete -c bibkeep -n __fish_use_subcommand -a extract -d 'Prints the part of the file that these keys need, byte for byte'
complete -c bibkeep -n __fish_use_subcommand -a import -d 'Appends the RIS records on standard input as entries'
complete -c bibkeep -n __fish_use_subcommand -a insert -d 'Puts the BibTeX text on standard input into the file, byte for byte'
complete -c bibkeep -n __fish_use_subcommand -a merge -d 'Merges the changes that two sides made to one file, entry by entry'
complete -c bibkeep -n __fish_use_subcommand -a diff -d 'Prints the edits that make the entries of one file those of another'
complete -c bibkeep -n __fish_use_subcommand -a explain -d 'Explains a refusal: what it means, an example, what to do'
complete -c bibkeep -n __fish_use_subcommand -a help -d 'Print this message or the help of the given subcommand(s)'

complete -c bibkeep -n '__fish_seen_subcommand_from cat check lint show entry cite labels json names newkeys edit undo redo log forget ris extract import insert merge diff explain' -s h -l help -d 'Print help'
complete -c bibkeep -n '__fish_seen_subcommand_from cat check lint show entry cite labels json names newkeys edit undo redo log forget ris extract import insert diff merge explain' -l hints -d 'Prints hints below a message, as on a terminal'
complete -c bibkeep -n '__fish_seen_subcommand_from edit import insert merge undo redo' -l print -d 'Writes the new file to standard output, and stores nothing'
complete -c bibkeep -n '__fish_seen_subcommand_from edit import insert' -l new-journal -d 'Begins a new journal if the old one is not a journal or does not fit the file'
complete -c bibkeep -n '__fish_seen_subcommand_from edit import insert' -l no-journal -d 'Reads and writes no journal: this change cannot be undone, nor any before it'
complete -c bibkeep -n '__fish_seen_subcommand_from edit' -l all-or-nothing -d 'Stores nothing if a line of the script is refused'
complete -c bibkeep -n '__fish_seen_subcommand_from import' -l latex -d 'Writes texts so that LaTeX prints them as they are, except url and doi'
complete -c bibkeep -n '__fish_seen_subcommand_from import' -l skipped -d 'Lists the lines that are skipped, each with its number in the input'
complete -c bibkeep -n '__fish_seen_subcommand_from import' -l strict -d 'Refuses the input if a line of it would be skipped'
complete -c bibkeep -n '__fish_seen_subcommand_from entry' -l at -d 'Prints a line before each entry: the number of its item, counted from 0, its line and its column'
complete -c bibkeep -n '__fish_seen_subcommand_from undo redo' -l steps -x -d 'How many changes, from 1 to 65535'
complete -c bibkeep -n '__fish_seen_subcommand_from show labels json names newkeys ris' -l depth -x -d 'From how many parents in a chain an entry inherits, from 1 to 8'
complete -c bibkeep -n '__fish_seen_subcommand_from ris' -l dropped -d 'Lists the fields that RIS leaves out, as key, tab and field, instead of the RIS text'
complete -c bibkeep -n '__fish_seen_subcommand_from ris' -l plain -d 'Writes texts without braces, and accents of LaTeX as Unicode, except url and doi'
complete -c bibkeep -n '__fish_seen_subcommand_from cite labels json ris extract' -l aux -r -k -a '(__fish_complete_suffix .aux)' -d 'An aux file of LaTeX; the keys that it cites come after the KEYs'
complete -c bibkeep -n '__fish_seen_subcommand_from lint' -l aux -r -k -a '(__fish_complete_suffix .aux)' -d 'An aux file of LaTeX; the keys that it cites are looked up'
complete -c bibkeep -n '__fish_seen_subcommand_from check lint show cite labels json names newkeys ris extract' -l before -r -k -a '(__fish_complete_suffix .bib)' -d 'A BibTeX file that is read before F; may be given several times'
complete -c bibkeep -n '__fish_seen_subcommand_from check lint show cite labels json names newkeys ris extract' -l after -r -k -a '(__fish_complete_suffix .bib)' -d 'A BibTeX file that is read after F; may be given several times'
complete -c bibkeep -n '__fish_seen_subcommand_from json' -l raw -d 'Prints the fields as they are written, and where each entry stands'
complete -c bibkeep -n '__fish_seen_subcommand_from show json ris' -l bibtex -d 'Prints the entries as BibTeX 0.99d reads them'
complete -c bibkeep -n '__fish_seen_subcommand_from cite' -l bibtex -d 'Lists what BibTeX 0.99d would list'
complete -c bibkeep -n '__fish_seen_subcommand_from names' -l bibtex -d 'Prints the names as BibTeX 0.99d prints them'
complete -c bibkeep -n '__fish_seen_subcommand_from labels' -l bibtex -d 'Prints the labels of the style alpha of BibTeX 0.99d'
complete -c bibkeep -n '__fish_seen_subcommand_from cite' -l strict -d 'Ends with status 1 if a key is unknown'
complete -c bibkeep -n '__fish_seen_subcommand_from lint' -l ignore -x -a 'undefined-macro own-macro repeated-field repeated-key missing-parent own-parent early-parent nested-parent no-key odd-key conflict-marker lost-entry lone-brace repeated-macro refused-name empty-crossref not-utf8 missing-key' -d 'Leaves out findings with this code; may be given several times'
complete -c bibkeep -n '__fish_seen_subcommand_from cite' -l min-crossrefs -x -d 'How many cited entries must refer to a parent so that it is listed too, from 1 to 65535'
complete -c bibkeep -n '__bibkeep_has 1 cat check lint show entry cite labels json names newkeys edit undo redo log forget ris extract import insert diff' -k -a '(__fish_complete_suffix .bib)'
complete -c bibkeep -n '__bibkeep_has 1 merge; or __bibkeep_has 2 merge; or __bibkeep_has 3 merge' -k -a '(__fish_complete_suffix .bib)'
complete -c bibkeep -n '__bibkeep_has 2 diff' -k -a '(__fish_complete_suffix .bib)'
complete -c bibkeep -n '__bibkeep_has 2 show names' -a '(__bibkeep_keys)'
complete -c bibkeep -n '__bibkeep_has_at_least 2 entry cite labels json ris extract' -a '(__bibkeep_keys)'
complete -c bibkeep -n '__bibkeep_has 2 edit' -a 'set drop add remove move set-type rename-key rename-field rename-macro inline introduce undefine define set-macro regenerate'
complete -c bibkeep -n '__bibkeep_edits 3 set drop remove move set-type rename-key' -a '(__bibkeep_keys)'
complete -c bibkeep -n '__bibkeep_edits 3 inline rename-macro undefine set-macro' -a '(__bibkeep_macros)'
complete -c bibkeep -n '__bibkeep_has 2 insert' -a '(__bibkeep_positions)'
complete -c bibkeep -n '__bibkeep_edits 3 add' -a '(__bibkeep_positions)'
complete -c bibkeep -n '__bibkeep_edits 4 move' -a '(__bibkeep_positions)'
complete -c bibkeep -n '__bibkeep_edits 4 set drop' -a '(__bibkeep_fields)'
complete -c bibkeep -n '__bibkeep_edits 5 rename-field' -a '(__bibkeep_keys)'
complete -c bibkeep -n '__bibkeep_has 1 explain' -a '(__bibkeep_faults)'
complete -c bibkeep -n '__bibkeep_has 1 help' -a 'cat check lint show entry cite labels json names newkeys edit undo redo log forget ris extract import insert merge diff explain'
