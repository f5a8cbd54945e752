# Completion in bash for cephmon and cephmon-*. The commands and options are those of each command's --help, so a new one needs no line here.

# _cephmon_help COMMAND..: the help of a command. That of a command of the client is the client's, which needs no quorum.
_cephmon_help() { "$@" --help 2>/dev/null || cephmon-client --help 2>/dev/null; }

# _cephmon_words COMMAND..: the commands and options in the help of a command
_cephmon_words() {
    local help
    help=$(_cephmon_help "$@")
    sed -nE 's/^ {2,4}(cephmon )?([a-z][a-z-]*)(  .*| [[A-Z0-9<>].*|, .*)?$/\2/p' <<<"$help"
    grep -oE -- '--[a-z][a-z-]+' <<<"$help"
}

_cephmon() {
    local word=${COMP_WORDS[COMP_CWORD]} before=${COMP_WORDS[COMP_CWORD - 1]} command
    COMPREPLY=()
    # what begins with a hyphen is an option, also where a file or a service may stand
    [[ $word != -* ]] || before=
    case $before in
    --config | --program | --file | --folder | dump | load | backup | map | quorum) compopt -o default 2>/dev/null; mapfile -t COMPREPLY < <(compgen -f -- "$word") ;;
    show | since | watch | follow) mapfile -t COMPREPLY < <(compgen -W 'kv log' -- "$word") ;;
    --monitor | --rank | --timeout | --patience | --port) ;;
    *)
        command=("${COMP_WORDS[0]}")
        # an option of a command of the installed cephmon is one of its tool
        if [[ ${COMP_WORDS[0]##*/} = cephmon && $COMP_CWORD -gt 1 ]]; then
            command+=("${COMP_WORDS[1]}")
            [[ $word = -* ]] || return
        fi
        mapfile -t COMPREPLY < <(compgen -W "$(_cephmon_words "${command[@]}" | sort -u)" -- "$word")
        ;;
    esac
}

complete -F _cephmon cephmon cephmon-client cephmon-lab cephmon-monitor cephmon-restart cephmon-restore cephmon-status
