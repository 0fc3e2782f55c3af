# bash completion for pgsess
_pgsess() {
    local word=${COMP_WORDS[COMP_CWORD]} before=${COMP_WORDS[COMP_CWORD - 1]}
    COMPREPLY=()
    if [ "$COMP_CWORD" -eq 1 ]; then
        mapfile -t COMPREPLY < <(compgen -W "serve check stub replay --help --version" -- "$word")
        return
    fi
    case $before in
        --ini | --users | --key-seed | --catalogue) compopt -o default; return ;;
        --port) return ;;
    esac
    case ${COMP_WORDS[1]} in
        serve) mapfile -t COMPREPLY < <(compgen -W "--ini --users --key-seed --help" -- "$word") ;;
        check) mapfile -t COMPREPLY < <(compgen -W "--ini --users --help" -- "$word") ;;
        stub) mapfile -t COMPREPLY < <(compgen -W "--port --catalogue --help" -- "$word") ;;
        replay) mapfile -t COMPREPLY < <(compgen -W "--help" -- "$word") ;;
    esac
}
complete -F _pgsess pgsess
