# Completion of netlabel_report(1) for bash.

# File names as the program takes them: printable ASCII without blanks, neither '-' nor '#' in front. Folders lead on to files.
_netlabel_report_files() {
    local name
    compopt -o filenames 2>/dev/null
    while IFS= read -r name; do
        [[ $name == *[!\!-~]* || $name == [-#]* ]] || COMPREPLY+=("$name")
    done < <(LC_ALL=C compgen -f -- "$1")
}

_netlabel_report() {
    # the line is split at blanks alone: bash itself splits names at their colons
    local line=${COMP_LINE:0:COMP_POINT} current=
    local -a words
    read -ra words <<<"$line"
    [[ $line == *[[:blank:]] ]] || current=${words[-1]}
    [[ $line == *[[:blank:]] ]] && words+=("")
    local at=$((${#words[@]} - 1)) way=1 options='-e -s'
    COMPREPLY=()
    if [[ $at -gt 1 && ${words[1]} == -e ]]; then way=2 options=-s; fi
    if [[ $at -gt $way && ${words[way]} == -s ]]; then way=$((way + 2)) options=; fi
    case $at in
    "$way") mapfile -t COMPREPLY < <(compgen -W "$options summary denied json csv" -- "$current") ;;
    *) _netlabel_report_files "$current" ;;
    esac
    # bash replaces what stands behind the last colon alone
    local behind=${current##*:}
    [[ $current == *:* ]] || return 0
    for at in "${!COMPREPLY[@]}"; do
        COMPREPLY[at]=${COMPREPLY[at]#"${current%"$behind"}"}
    done
}

complete -F _netlabel_report netlabel_report
