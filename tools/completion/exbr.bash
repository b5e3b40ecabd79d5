# Completion of exbr's words for bash. ./install puts it where bash looks; to try it: . tools/completion/exbr.bash

# Whether one of the words before the cursor is one of those that are given.
_exbr_has() {
    local wanted word at
    for ((at = 1; at < COMP_CWORD; at++)); do
        word=${COMP_WORDS[at]}
        for wanted in "$@"; do
            [ "$word" = "$wanted" ] && return 0
        done
    done
    return 1
}

# Topologies and folders.
_exbr_topologies() {
    local word=$1 it
    COMPREPLY=()
    while IFS= read -r it; do
        if [ -d "$it" ] || [[ $it == *.toml ]]; then
            COMPREPLY+=("$it")
        fi
    done < <(compgen -f -- "$word")
    compopt -o filenames 2>/dev/null
    return 0
}

# Those of these options that fit a word which begins as one, and else topologies and files of nets.
_exbr_options_or_topologies() {
    case $1 in
    -*) COMPREPLY=($(compgen -W "$2" -- "$1")) ;;
    *) _exbr_topologies "$1" ;;
    esac
}

_exbr() {
    local word=${COMP_WORDS[COMP_CWORD]} before=${COMP_WORDS[COMP_CWORD - 1]} options=
    COMPREPLY=()
    if [ "$COMP_CWORD" -eq 1 ]; then
        case $word in
        -*) COMPREPLY=($(compgen -W "--version" -- "$word")) ;;
        *) COMPREPLY=($(compgen -W "run check make audit net" -- "$word")) ;;
        esac
        return 0
    fi
    case ${COMP_WORDS[1]} in
    run)
        [ "$before" = --seed ] && return 0
        _exbr_has --trace || options="--trace"
        _exbr_has --counters || options="$options --counters"
        _exbr_has --seed || options="$options --seed"
        _exbr_options_or_topologies "$word" "$options"
        ;;
    net)
        _exbr_has --counters || options="--counters"
        _exbr_options_or_topologies "$word" "$options"
        ;;
    check | audit) _exbr_topologies "$word" ;;
    esac
    return 0
}

complete -F _exbr exbr
