# Completion of qlock-show for bash: source this file.

_qlock_show() {
    local word=${COMP_WORDS[COMP_CWORD]}
    local codes="I1 I2 I3 I4 I5 I6 O1 F1 F2 F3 F4 F5 F6 F7 F8 E1 E2 E3 E4 E5 E6 E7 E8 G1 G2 J1 P1 P2 P3 P4 P5 P6 P7 P8 P9 P10 N1 S1 S2 S3
        A1 A2 A3 A4 A5 A6 A7 U1 U2 U3 U4 C1 C2 C3 C4 V1 K2 B2 B3"
    [ "${COMP_WORDS[COMP_CWORD - 1]}" = -f ] && return
    [ "${COMP_WORDS[1]} ${COMP_WORDS[COMP_CWORD - 1]}" = "near --down" ] && COMPREPLY=($(compgen -W "1 2" -- "$word")) && return
    [ "${COMP_WORDS[1]}" = compare ] && [ "$COMP_CWORD" -gt 2 ] && return
    case $COMP_CWORD in
        1) COMPREPLY=($(compgen -W "plan check deal near compare coterie report without resilience bridge world waiting explain fault picture" -- "$word")) ;;
        2)
            case ${COMP_WORDS[1]} in
                deal) COMPREPLY=($(compgen -W "--even --names --json" -- "$word")) ;;
                plan | resilience) COMPREPLY=($(compgen -W "--json" -- "$word")) ;;
                near) COMPREPLY=($(compgen -W "--cycle --deal --down --above --text --json" -- "$word")) ;;
                compare) COMPREPLY=($(compgen -f -W "--json" -- "$word")) ;;
                coterie) COMPREPLY=($(compgen -W "racks centres votes any" -- "$word")) ;;
                waiting) COMPREPLY=($(compgen -W "--round --down --dead" -- "$word")) ;;
                explain) COMPREPLY=($(compgen -W "all $codes" -- "$word")) ;;
                picture) COMPREPLY=($(compgen -W "load world" -- "$word")) ;;
                fault) COMPREPLY=($(compgen -W "make plan check deal world run replay" -- "$word")) ;;
            esac
            ;;
    esac
}

complete -o default -F _qlock_show qlock-show ./qlock-show
