# shellcheck shell=bash
# Completions of ix-collect for bash: kinds, options, and files for sources.
_ix_collect() {
    local word=${COMP_WORDS[COMP_CWORD]} kinds="folder mbox maildir mh csv jsonl sqlite" each
    COMPREPLY=()
    case ${COMP_WORDS[COMP_CWORD-1]} in
        --match | --name | --query | --path) return ;;
    esac
    if [[ $word = -* ]]; then
        mapfile -t COMPREPLY < <(compgen -W "-o --output -v --verbose --match --name --text --query --path --help" -- "$word")
        return
    fi
    compopt -o default 2> /dev/null
    [[ ${COMP_WORDS[COMP_CWORD-1]} = -o || ${COMP_WORDS[COMP_CWORD-1]} = --output ]] && return
    for each in "${COMP_WORDS[@]:1:COMP_CWORD-1}"; do
        [[ " $kinds " = *" $each "* ]] && return
    done
    mapfile -t COMPREPLY < <(compgen -W "$kinds" -- "$word")
}
complete -F _ix_collect ix-collect
