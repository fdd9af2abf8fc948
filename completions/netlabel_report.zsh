#compdef netlabel_report
# Completion of netlabel_report(1) for zsh.

_netlabel_report() {
    local way=2
    local -a options=(-e -s)
    if [[ $CURRENT -gt 2 && ${words[2]} == -e ]]; then way=3 options=(-s); fi
    if [[ $CURRENT -gt $way && ${words[way]} == -s ]]; then way=$((way + 2)) options=(); fi
    case $CURRENT in
    $way) compadd -- $options summary denied json csv ;;
    *) _files ;;
    esac
}

_netlabel_report "$@"
