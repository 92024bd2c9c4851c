# Made by tools/manual from the help of cvr. Change that.
_cvr() {
    COMPREPLY=()
    if [ "$COMP_CWORD" -eq 1 ]; then
        compopt +o default
        COMPREPLY=($(compgen -W 'currents conflicts tally check merge drill explain help -h --help -V --version' -- "$2"))
        return
    fi
    case $2 in
    -*)
        COMPREPLY=($(compgen -W '-h --help' -- "$2"))
        case ${COMP_WORDS[1]} in
        currents|conflicts|tally|check|merge) COMPREPLY+=($(compgen -W '--files-from --null' -- "$2")) ;;
        esac
        ;;
    esac
    case ${COMP_WORDS[1]}:$COMP_CWORD in
    explain:*)
        compopt +o default
        [ "$COMP_CWORD" -gt 2 ] || COMPREPLY=($(compgen -W 'E1 E2 E3 rule E4 E5 E6 J2 N1 K1 K2 X1 H1 H2 V1 L1 L2 L3 L4 memory L5 words' -- "$2"))
        ;;
    help:*)
        compopt +o default
        [ "$COMP_CWORD" -gt 2 ] || COMPREPLY=($(compgen -W 'currents conflicts tally check merge drill' -- "$2"))
        ;;
    merge:3) compopt +o default ;;
    merge:4) compopt +o default ;;
    merge:5) compopt +o default ;;
    drill:3) compopt +o default ;;
    esac
}
complete -o default -F _cvr cvr
