# Completion of exbr-preflight and exbr-reach for bash. ./install puts it where bash looks; to try it: . tools/completion/exbr-desk.bash

# Files with these endings, and folders.
_exbr_desk_files() {
    local word=$1 it
    COMPREPLY=()
    while IFS= read -r it; do
        if [ -d "$it" ] || [[ $it == *.$2 ]]; then
            COMPREPLY+=("$it")
        fi
    done < <(compgen -f -- "$word")
    compopt -o filenames 2>/dev/null
    return 0
}

_exbr_desk() {
    local word=${COMP_WORDS[COMP_CWORD]} before=${COMP_WORDS[COMP_CWORD - 1]} options
    COMPREPLY=()
    case $before in
    --expect) _exbr_desk_files "$word" toml; return 0 ;;
    --html) _exbr_desk_files "$word" html; return 0 ;;
    --program | --keep) COMPREPLY=($(compgen -f -- "$word")); return 0 ;;
    --fail) COMPREPLY=($(compgen -W "each-extender each-port" -- "$word")); return 0 ;;
    --off)
        COMPREPLY=($(compgen -W "all two-untagged pvid-member asymmetric kept-out one-member static-members isolated-alone no-change \
after-end foreign-tags snap both-directions fcs same-file" -- "$word"))
        return 0
        ;;
    --from | --to | --vlan | --orders | --jobs | --dask | --limit | --fates | --disturbed | --beat | --frames) return 0 ;;
    esac
    case ${COMP_WORDS[0]##*/} in
    exbr-preflight) options="--least --ports --commands --fates --disturbed --beat --off --frames --strict --json --program --version --help" ;;
    *)
        options="--leaks --vlan --from --to --expect --fail --jobs --dask --orders --html --json --brief --unfolded --limit --keep --program \
--version --help"
        ;;
    esac
    case $word in
    -*) COMPREPLY=($(compgen -W "$options" -- "$word")) ;;
    *) _exbr_desk_files "$word" toml ;;
    esac
    return 0
}

complete -F _exbr_desk exbr-preflight exbr-reach
