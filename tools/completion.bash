# Completion of @NAME@ for bash.
# Made by tools/completion.py from @SOURCE@.
# shellcheck shell=bash disable=SC2034,SC2207

# What a command takes: its names in order, how many at most, and its options. An option is
# WORD:VALUES, with the number of values after it, and after another colon each that it excludes.
# With a plus after the number it may be given again.
_@NAME@_call() {
    case $1 in
@CALLS@
    esac
}

# Offers files with this ending, or all where none has it or no ending is given. Folders are always
# offered.
_@NAME@_files() {
    compopt -o filenames 2>/dev/null
    [[ $1 ]] && mapfile -t COMPREPLY < <(compgen -f -X "!*.$1" -- "$current")
    if ((${#COMPREPLY[@]})); then
        mapfile -t -O "${#COMPREPLY[@]}" COMPREPLY < <(compgen -d -- "$current")
    else
        mapfile -t COMPREPLY < <(compgen -f -- "$current")
    fi
}

# Offers what a name of this kind can be.
_@NAME@_name() {
    case $1 in
    MANIFEST) _@NAME@_files toml ;;
    STIM) _@NAME@_files stim ;;
    RECORD) _@NAME@_files rec ;;
    LOG.csv) _@NAME@_files csv ;;
    FILE) _@NAME@_files '' ;;
    COPIES) COMPREPLY=($(compgen -W '@COPIES@' -- "$current")) ;;
    PROGRAM)
        compopt -o filenames 2>/dev/null
        mapfile -t COMPREPLY < <(compgen -c -- "$current" | sort -u)
        ;;
    esac
}

# Offers what the value of an option can be.
_@NAME@_value() {
    case $1 in
@VALUES@
    esac
}

# Offers the options that weren't given and that no given one excludes.
_@NAME@_options() {
    local option words=()
    for option in "${options[@]}"; do
        [[ $excluded == *":${option%%:*}:"* ]] || words+=("${option%%:*}")
    done
    COMPREPLY+=($(compgen -W "${words[*]}" -- "$current"))
}

# Puts the words up to the cursor into `typed`. Bash also splits a word at `=` and `:`: a piece that
# follows such a one without a space belongs to the same word. `kept` is what is before the last
# piece of the last word, which an offer doesn't repeat.
_@NAME@_words() {
    local at piece='' before rest=$COMP_LINE
    for ((at = 0; at <= COMP_CWORD; at++)); do
        before=$piece piece=${COMP_WORDS[at]}
        if [[ $rest != [[:space:]]* && ($piece == [=:]* || $before == *[=:]) ]]; then
            kept=${typed[-1]}
            typed[-1]+=$piece
        else
            kept=''
            typed+=("$piece")
        fi
        rest=${rest#*"$piece"}
    done
    [[ ${piece//[=:]/} ]] || kept+=$piece
}

# Reads the words between the command and the last one: `count` names were given, no option of
# `excluded` may follow, and `due` values of the option `last` are missing. An option may have its
# value after `=`.
_@NAME@_read() {
    local given option word values others
    for given in "${typed[@]:$1:${#typed[@]}-$1-1}"; do
        if ((due)); then
            ((due--))
            continue
        fi
        for option in "${options[@]}"; do
            IFS=: read -r word values others <<<"$option"
            if [[ $given == "$word" || $given == "$word="* ]]; then
                [[ $given == "$word" ]] && due=${values%+} last=$word
                [[ $values == *+ ]] || excluded+=":$word:"
                excluded+=":$others:"
                continue 2
            fi
        done
        ((++count))
    done
}

# Offers what the last word can be.
_@NAME@_offer() {
    local commands='@COMMANDS@'
    local own='@OWN_WORDS@' dashed='@DASHED@'
    local names=() most=0 options=() count=0 due=0 last='' excluded=''
    local current=${typed[-1]} place=$((${#typed[@]} - 1)) first=1 command='' name
    if [[ $commands ]]; then
        first=2 command=${typed[1]}
        if ((place == 2)) && [[ $command == --help || $command == help ]]; then
            COMPREPLY=($(compgen -W "$commands" -- "$current"))
            return
        fi
    fi
    if ((place == 1)) && [[ $commands || ($own && $current == -*) ]]; then
        # Without a beginning, only words that say what to do.
        [[ $current ]] && own+=" $dashed"
        COMPREPLY=($(compgen -W "$commands $own" -- "$current"))
        return
    fi
    _@NAME@_call "$command" || return 0
    _@NAME@_read "$first"
    if ((due)); then
        _@NAME@_value "$last"
        return 0
    fi
    if [[ $current == -*=* && $kept ]]; then
        last=${current%%=*} current=${current#*=}
        _@NAME@_value "$last"
        return 0
    fi
    if [[ $current == -* ]]; then
        _@NAME@_options
        if [[ $commands ]] && ((place == 2)); then
            COMPREPLY+=($(compgen -W --help -- "$current"))
        fi
        return
    fi
    if ((count < most)); then
        name=${names[count < ${#names[@]} ? count : ${#names[@]} - 1]}
        _@NAME@_name "$name"
    fi
    if ((count >= ${#names[@]})) && [[ ! $current ]]; then _@NAME@_options; fi
}

_@NAME@() {
    local typed=() kept=''
    COMPREPLY=()
    _@NAME@_words
    _@NAME@_offer
    COMPREPLY=("${COMPREPLY[@]#"$kept"}")
}

complete -F _@NAME@ @NAME@
