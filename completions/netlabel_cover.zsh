#compdef netlabel_cover
# Completion of netlabel_cover(1) for zsh.

_netlabel_cover() {
    case $CURRENT in
    2) _files ;;
    3) _message 'number of a flow, from 1' ;;
    4) _message 'a version for each hop, as 7,7,9' ;;
    esac
}

_netlabel_cover "$@"
