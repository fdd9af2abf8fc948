# Completion of ripso_border(1) for bash.

# File names as the program takes them: printable ASCII without blanks, neither '-' nor '#' in front. Folders lead on to files.
_ripso_border_files() {
    local name
    compopt -o filenames 2>/dev/null
    while IFS= read -r name; do
        [[ $name == *[!\!-~]* || $name == [-#]* ]] || COMPREPLY+=("$name")
    done < <(LC_ALL=C compgen -f -- "$1")
}

_ripso_border() {
    # the line is split at blanks alone: bash itself splits names at their colons
    local line=${COMP_LINE:0:COMP_POINT} current=
    local -a words
    read -ra words <<<"$line"
    [[ $line == *[[:blank:]] ]] || current=${words[-1]}
    [[ $line == *[[:blank:]] ]] && words+=("")
    COMPREPLY=()
    case $((${#words[@]} - 1)) in
    1) mapfile -t COMPREPLY < <(compgen -W 'in out' -- "$current") ;;
    2 | 4 | 5) _ripso_border_files "$current" ;;
    esac
    # bash replaces what stands behind the last colon alone
    local behind=${current##*:} at
    [[ $current == *:* ]] || return 0
    for at in "${!COMPREPLY[@]}"; do
        COMPREPLY[at]=${COMPREPLY[at]#"${current%"$behind"}"}
    done
}

complete -F _ripso_border ripso_border
