#compdef netlabel
# Completion of netlabel(1) for zsh.

_netlabel() {
    local -a commands
    commands=(
        'run:carry out a script and carry the packets of its flows'
        'judge:judge one raw packet for a receiver'
        'check:carry out the commands of a script'
        'show:print what each packet of a capture carries'
        'agree:compare the neighbouring hops of a flow'
        'make:make a capture from a number and judge its packets'
    )
    case $CURRENT,$words[2] in
    2,*) _describe -t commands command commands ;;
    3,(run|check|show|agree)) _files ;;
    3,judge) _message 'DOI, 1 to 4294967295' ;;
    4,judge) _message 'level of the receiver, as s2:c0.c5' ;;
    5,judge) _files ;;
    3,make) _message 'number, below 2^64' ;;
    4,make) _message 'number of packets, at most 1048576' ;;
    5,make) _files ;;
    4,agree) _message 'number of a flow, from 1' ;;
    5,agree) _message 'a version for each hop, as 7,7,9' ;;
    4,run) compadd -- -w ;;
    5,run) [[ $words[4] == -w ]] && compadd -- {1..16} ;;
    esac
}

_netlabel "$@"
