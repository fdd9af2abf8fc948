#compdef ripso_border
# Completion of ripso_border(1) for zsh.

_ripso_border() {
    case $CURRENT in
    2) compadd in out ;;
    3 | 5 | 6) _files ;;
    4) _message 'domain of interpretation, from 1' ;;
    esac
}

_ripso_border "$@"
