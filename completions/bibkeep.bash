# Completion of bibkeep for bash 4 or newer. Source it, or put it where bash-completion looks for it.
#
# A key, a field, a macro or the name of a file is only text: nothing here gives one to `eval` or to `compgen -W`, which would
# run a command that stands in it, and what is offered is quoted for the shell.

_bibkeep() {
    local commands='cat check lint show entry cite labels json names newkeys edit undo redo log forget ris extract import insert merge diff explain help'
    local verbs='set drop add remove move set-type rename-key rename-field rename-macro inline introduce undefine define set-macro regenerate'
    local IFS=$' \t\n' words=() current='' begun='' quote='' tilde='' is_target='' own=() has_ended='' options='' i

    COMPREPLY=()
    _bibkeep_split "${COMP_LINE:0:COMP_POINT}"
    if [[ -n $is_target ]]; then
        # after < or >
        compopt -o default 2>/dev/null
        return
    fi

    # The words that are no options: the command, the file, and those after it.
    for ((i = 1; i < ${#words[@]}; i++)); do
        case $has_ended${words[i]} in
            --) has_ended=yes ;;
            --min-crossrefs | --steps | --depth | --aux | --ignore | --before | --after) ((i += 1)) ;;
            -*) ;;
            *) own+=("${words[i]}") ;;
        esac
    done
    # the word is the value of an option
    if ((i > ${#words[@]})); then
        case ${words[${#words[@]} - 1]} in
            --aux) _bibkeep_offer_files .aux ;;
            --before | --after) _bibkeep_offer_files ;;
        esac
        return
    fi

    local command=${own[0]-} file=${own[1]-} verb=${own[2]-}
    if [[ ${#own[@]} -eq 0 ]]; then
        _bibkeep_offer <<<"${commands// /$'\n'}"$'\n--help\n--version'
        return
    fi
    if [[ $current == -* && -z $has_ended ]]; then
        case $command in
            entry) options='--at --hints --help' ;;
            check) options='--before --after --hints --help' ;;
            lint) options='--ignore --aux --before --after --hints --help' ;;
            cite) options='--min-crossrefs --strict --bibtex --aux --before --after --hints --help' ;;
            labels) options='--depth --bibtex --aux --before --after --hints --help' ;;
            json) options='--depth --raw --bibtex --aux --before --after --hints --help' ;;
            show | names) options='--depth --bibtex --before --after --hints --help' ;;
            newkeys) options='--depth --before --after --hints --help' ;;
            ris) options='--depth --dropped --plain --bibtex --aux --before --after --hints --help' ;;
            extract) options='--aux --before --after --hints --help' ;;
            edit) options='--print --new-journal --no-journal --all-or-nothing --hints --help' ;;
            insert) options='--print --new-journal --no-journal --hints --help' ;;
            merge) options='--print --hints --help' ;;
            import) options='--print --new-journal --no-journal --latex --skipped --strict --hints --help' ;;
            undo | redo) options='--steps --print --hints --help' ;;
            *) options='--hints --help' ;;
        esac
        _bibkeep_offer <<<"${options// /$'\n'}"
        return
    fi
    case $command:${#own[@]} in
        help:1) _bibkeep_offer <<<"${commands// /$'\n'}" ;;
        help:*) ;;
        explain:1) _bibkeep_offer < <(_bibkeep_faults) ;;
        explain:*) ;;
        *:1 | merge:2 | merge:3 | diff:2) _bibkeep_offer_files ;;
        show:2 | names:2 | entry:* | cite:* | labels:* | json:* | ris:* | extract:*) _bibkeep_offer < <(_bibkeep_keys "$file") ;;
        insert:2) _bibkeep_offer < <(_bibkeep_positions "$file") ;;
        edit:2) _bibkeep_offer <<<"${verbs// /$'\n'}" ;;
        edit:3)
            case $verb in
                set | drop | remove | move | set-type | rename-key) _bibkeep_offer < <(_bibkeep_keys "$file") ;;
                inline | rename-macro | undefine | set-macro) _bibkeep_offer < <(_bibkeep_macros "$file") ;;
                add) _bibkeep_offer < <(_bibkeep_positions "$file") ;;
            esac
            ;;
        edit:4)
            case $verb in
                set | drop) _bibkeep_offer < <(_bibkeep_fields "$file" "${own[3]}") ;;
                move) _bibkeep_offer < <(_bibkeep_positions "$file") ;;
            esac
            ;;
        edit:5)
            case $verb in
                rename-field) _bibkeep_offer < <(_bibkeep_keys "$file") ;;
            esac
            ;;
    esac
}

# Takes the line $1 apart as the shell does, and runs nothing in it. Sets, for the caller: `words`, those before the last one;
# `current`, the last one; `begun`, its part before the place where readline cuts it, which stays as it is; `quote`, the quotation
# mark that is open in it; `tilde`, if it begins with one that means a home; and `is_target`, if it is the file of a redirection.
_bibkeep_split() {
    local line=$1 breaks=${COMP_WORDBREAKS//[[:space:]\'\"]/} char outside='' has_word='' i
    for ((i = 0; i < ${#line}; i++)); do
        char=${line:i:1}
        case $quote:$char in
            \':\' | \":\")
                quote='' begun=$outside
                ;;
            \":\\)
                ((i += 1))
                case ${line:i:1} in
                    [\$\`\"\\]) current+=${line:i:1} ;;
                    *) current+=$char${line:i:1} ;;
                esac
                ;;
            \':* | \":*) current+=$char ;;
            :[\'\"])
                quote=$char outside=$begun begun=$current has_word=yes
                ;;
            :\\)
                ((i += 1))
                current+=${line:i:1} has_word=yes
                ;;
            :[[:space:]] | :[\<\>])
                _bibkeep_end_word
                ;;
            *)
                if [[ $char == \~ && -z $has_word ]]; then tilde=yes; fi
                current+=$char has_word=yes
                if [[ $breaks == *"$char"* ]]; then begun=$current; fi
                ;;
        esac
    done
}

# Ends the word of `_bibkeep_split`, at white space or before the sign of a redirection.
_bibkeep_end_word() {
    if [[ -n $has_word ]]; then
        if [[ -n $tilde && $current == \~/* ]]; then current=$HOME${current:1}; fi
        # the target of a redirection, or its number, is no word of the command
        if [[ -z $is_target && ($char == [[:space:]] || -n ${current//[0-9]/}) ]]; then words+=("$current"); fi
        is_target=''
    fi
    if [[ $char != [[:space:]] ]]; then is_target=yes; fi
    current='' begun='' tilde='' has_word=''
}

# Offers those of the lines on standard input that begin with `current`.
_bibkeep_offer() {
    local word
    while IFS= read -r word; do
        if [[ -n $word && $word == "$current"* ]]; then _bibkeep_reply "$word"; fi
    done
}

# Offers the word $1 without the part that has `begun` it, quoted for where it comes to stand. A word with a control byte, or
# with bytes that are no text in this locale, is left out.
_bibkeep_reply() {
    local rest=${1#"$begun"} quoted=''
    case $quote in
        \')
            quoted=${rest//\'/\'\\\'\'}
            # readline adds no second mark after one
            if [[ $rest == *\' ]]; then quoted=${quoted%\'}; fi
            ;;
        \")
            quoted=${rest//\\/\\\\} quoted=${quoted//\"/\\\"} quoted=${quoted//\$/\\\$} quoted=${quoted//\`/\\\`}
            # no sign in these quotation marks keeps ! from the history
            quoted=${quoted//\!/\"\\\!\"}
            if [[ $rest == *\" ]]; then quoted+=\"; fi
            ;;
        *) if [[ -n $rest ]]; then printf -v quoted %q "$rest"; fi ;;
    esac
    if [[ -n $tilde && -z $begun ]]; then quoted=${quoted#\\}; fi
    if [[ $rest != *[[:cntrl:]]* && $quoted != \$\'* ]]; then COMPREPLY+=("$quoted"); fi
}

# Offers the files whose names end with $1, or with .bib, and the folders that begin with `current`. What a variable or the name of a user stands for is left to
# readline.
_bibkeep_offer_files() {
    local start=$current suffix=${1:-.bib} name
    if [[ -n $tilde && $current == \~/* ]]; then
        start=$HOME${current:1}
    elif [[ -n $tilde || $current == *\$* ]]; then
        compopt -o default 2>/dev/null
    fi
    while IFS= read -r -d '' name; do
        name=$current${name#"$start"}
        # a name that begins with a hyphen would be taken for an option
        if [[ $name == -* && -z $has_ended ]]; then name=./$name; fi
        _bibkeep_reply "$name"
    done < <(_bibkeep_names "$start" "$suffix")
    # a folder is no whole word yet
    if [[ ${#COMPREPLY[@]} -eq 1 && ${COMPREPLY[0]} == */ ]]; then compopt -o nospace 2>/dev/null; fi
}

# The files whose names end with $2, and the folders with a slash, whose names begin with $1, each with a null byte after it.
_bibkeep_names() {
    local name
    shopt -u failglob
    set +f
    for name in "$1"*; do
        if [[ -d $name ]]; then
            printf '%s/\0' "$name"
        elif [[ -e $name && $name == *"$2" ]]; then
            printf '%s\0' "$name"
        fi
    done
}

# What a command prints of a file, whatever the name of that is. (`command` passes by what the user made an alias of.)
_bibkeep_run() { command bibkeep "$1" -- "${@:2}" 2>/dev/null </dev/null; }

_bibkeep_keys() { _bibkeep_run cite "$1" '*' | command cut -f 1; }

# The positions beside entries, and the end.
_bibkeep_positions() {
    echo end
    _bibkeep_keys "$1" | command sed 'h; s/^/before:/p; g; s/^/after:/'
}

# The fields of an entry, with those that it inherits.
_bibkeep_fields() { _bibkeep_run show "$1" "$2" | command sed -n '2,$s/ = .*//p' | command grep -vx crossref; }

# What looks like the definition of a macro.
_bibkeep_macros() {
    _bibkeep_run cat "$1" | command tr '[:space:]' ' ' |
        LC_ALL=C command grep -aioE "@string *[{(] *[^][ \"#%'(),={}]+ *=" | LC_ALL=C command sed 's/ *=$//; s/.*[ {(]//'
}

# The faults that `bibkeep explain` knows: their numbers, and their names once one is begun.
_bibkeep_faults() {
    local faults='1:Unended 2:ExpectedName 3:ExpectedEquals 4:ExpectedCommaOrClose 5:ExpectedValue 6:UnbalancedBrace 7:KeyTooLong
        8:TextTooLong 9:FileTooLong 10:Memory 11:NoSuchEntry 12:BadSplice 13:NoSuchFault 14:NotPlain 15:TooDeep 21:TooManyCommas 22:UnbalancedName
        23:BadTemplate 24:NotUtf8 31:BadKey 32:BadName 33:BadValue 34:BadPosition 35:NotFound 36:Ambiguous 37:KeyInUse
        38:NameInUse 39:Referred 40:WouldMerge 41:JournalFull 46:NoScript 51:NothingToUndo 52:NothingToRedo
        53:BadJournal 54:JournalMismatch 55:StepOpen 56:NoOpenStep 61:NoStart 62:NoEnd 63:EmptyType 64:UnbalancedText 65:SkippedLine 71:BadScript'
    local list=() fault
    read -r -d '' -a list <<<"$faults"
    for fault in "${list[@]}"; do
        if [[ -z $current ]]; then echo "${fault%:*}"; else printf '%s\n' "${fault%:*}" "${fault#*:}"; fi
    done
}

complete -F _bibkeep bibkeep
