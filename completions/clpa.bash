# Completions of clpa for bash: the archive, the command, its options with their values, and the names of files.

# The words up to the cursor, as `words`: bash cuts them at each = and :, and what no space parts is one.
_clpa_words() {
    local line=${COMP_LINE:0:COMP_POINT} number part
    words=()
    for ((number = 0; number <= COMP_CWORD; number++)); do
        part=${COMP_WORDS[number]}
        # the last one ends at the cursor
        [ "$number" != "$COMP_CWORD" ] || part=${line#"${line%%[![:space:]]*}"}
        if [[ $number -gt 0 && $line != [[:space:]]* && -n $line ]]; then
            words[${#words[@]} - 1]+=$part
        else
            words+=("$part")
        fi
        line=${line#*"$part"}
    done
}

# The values of an option, where it takes one; fails else
_clpa_values() {
    [[ " $options " == *" $1= "* ]] || return
    case $1 in
        --by) values='minute type' ;;
        --format) values='1 2 3' ;;
        *) values= ;;
    esac
}

_clpa() {
    local words options='' values number plain=0 only_words=
    COMPREPLY=()
    _clpa_words
    local last=$((${#words[@]} - 1))
    local word=${words[last]} before=${words[last - 1]} command=${words[2]:-}
    case $last in
        1) compopt -o default; return ;;
        2)
            mapfile -t COMPREPLY < <(compgen -W 'bench check count create decode files ingest merge scan search show upgrade' -- "$word")
            return
            ;;
    esac
    case $command in
        count) options='--by= --from= --stats --to= --workers=' ;;
        create) options='--bytes= --format= --types= --words=' ;;
        ingest) options='--segment= --watch= --workers=' ;;
        search) options='--from= --stats --to= --workers=' ;;
    esac
    # behind the word -- no word is an option
    for ((number = 3; number < last; number++)); do
        if [ "${words[number]}" = -- ]; then only_words=yes; else plain=$((plain + 1)); fi
    done
    if [ -z "$only_words" ]; then
        if [[ $word == --*=* ]] && _clpa_values "${word%%=*}"; then
            # where bash cuts at =, what stands before it is no part of the word
            [[ $COMP_WORDBREAKS == *=* ]] && before='' || before=${word%%=*}=
            mapfile -t COMPREPLY < <(compgen -P "$before" -W "$values" -- "${word#*=}")
            return
        fi
        if _clpa_values "$before"; then
            mapfile -t COMPREPLY < <(compgen -W "$values" -- "$word")
            return
        fi
        # a command that takes no other word is asked for its options
        [[ $word != -* && $command != create ]] || mapfile -t COMPREPLY < <(compgen -W "$options" -- "$word")
        # a value follows at once
        [[ ${COMPREPLY[*]} != *= ]] || compopt -o nospace
    fi
    case $command:$plain in
        ingest:* | show:0 | scan:1) compopt -o default ;;
    esac
}

complete -F _clpa clpa
