# Completes the words of fdref in bash. tests/install.py holds it against what the program's --help tells.

_fdref_words()
{
    mapfile -t COMPREPLY < <(compgen -W "$1" -- "${COMP_WORDS[COMP_CWORD]}")
}

_fdref()
{
    local all="-h --help -V --version" before=${COMP_WORDS[COMP_CWORD - 1]} options
    COMPREPLY=()
    if ((COMP_CWORD == 1)); then
        _fdref_words "replay serve audit show migrate outcomes $all"
        return
    fi
    case $before in
        --socket | --trace)
            compopt -o default
            return
            ;;
        --witness)
            _fdref_words all
            return
            ;;
        --records | --sessions | --pipe-capacity | --states) return ;;
    esac
    case ${COMP_WORDS[1]} in
        replay) options="--records --pipe-capacity --text" ;;
        serve) options="--socket --sessions --records --trace --pipe-capacity" ;;
        show) options="--acts --text --json" ;;
        outcomes) options="--states --pipe-capacity --witness --acts" ;;
        audit) options="--complete" ;;
        migrate) options="" ;;
        *) return ;;
    esac
    case ${COMP_WORDS[1]} in
        audit | show | migrate) compopt -o default ;;
    esac
    [[ ${COMP_WORDS[COMP_CWORD]} != -* && ${COMP_WORDS[1]} =~ ^(audit|show|migrate)$ ]] || _fdref_words "$options $all"
}

complete -F _fdref fdref
