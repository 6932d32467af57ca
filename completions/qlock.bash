# Completion of qlock for bash: source this file.

_qlock() {
    local word=${COMP_WORDS[COMP_CWORD]}
    [ "${COMP_WORDS[COMP_CWORD - 1]}" = -f ] && return
    case $COMP_CWORD in
        1) COMPREPLY=($(compgen -W "make plan check deal world run replay" -- "$word")) ;;
        2) [ "${COMP_WORDS[1]}" = make ] && COMPREPLY=($(compgen -W "grid majority tree wheel cyclic" -- "$word")) ;;
    esac
}

complete -o default -F _qlock qlock ./qlock
