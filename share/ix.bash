# shellcheck shell=bash
# Completions of ix for bash: commands, their options, and files for operands.
_ix() {
    local word=${COMP_WORDS[COMP_CWORD]} before=${COMP_WORDS[COMP_CWORD-1]} options
    COMPREPLY=()
    if [ "$COMP_CWORD" = 1 ]; then
        mapfile -t COMPREPLY < <(compgen -W "ask build search terms add remove check run merge upgrade live help --help" -- "$word")
        return
    fi
    case ${COMP_WORDS[1]} in
        ask) options="--stop --block --bytes --workers --help" ;;
        build) options="--stop --block --bytes --workers --runs --help" ;;
        add) options="--stop --block --bytes --workers --help" ;;
        search | terms) options="--trust --help" ;;
        remove) options="--names --help" ;;
        run) options="--stop --first --help" ;;
        live) options="--stop --block --bytes --workers --searchers --help" ;;
        help)
            mapfile -t COMPREPLY < <(compgen -W "ask build search terms add remove check run merge upgrade live" -- "$word")
            return
            ;;
        *) options="--help" ;;
    esac
    case $before in
        --block | --bytes | --workers | --searchers | --first) return ;;
        --runs)
            mapfile -t COMPREPLY < <(compgen -d -- "$word")
            return
            ;;
    esac
    case $word in
        -*) mapfile -t COMPREPLY < <(compgen -W "$options" -- "$word") ;;
        *) compopt -o default 2> /dev/null ;;
    esac
}
complete -F _ix ix
