#compdef netlabel_audit
# Completion of netlabel_audit(1) for zsh.

_netlabel_audit() {
    case $CURRENT in
    2 | 3) _files ;;
    4) _message 'the number of workers of the run, 1 to 16' ;;
    esac
}

_netlabel_audit "$@"
