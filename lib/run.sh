# shellcheck shell=sh
# Runs a program and, where its status is a failure's, says why in one line on standard error, where the program itself prints nothing. For `netlabel`, which sets
# `name`, what the program is called; `program`, its file; `proof`, whether that is proved; and `texts`, the folder that has VERSION.

say() {
    printf '%s: %s\n' "$name" "$*" >&2
}

# The program that a script is called for: that of its name or, where it has another, of the next one that it is a link to.
named_by() {
    at=$1
    until is_program "${at##*/}"; do
        next=$(readlink -- "$at") || return 1
        case $next in
        /*) at=$next ;;
        *) at=$(dirname -- "$at")/$next ;;
        esac
    done
    printf '%s\n' "${at##*/}"
}

# Words before a command, by which it is ended where the shell that runs it is, by whatever signal.
bound=
! command -v setpriv >/dev/null || bound="setpriv --pdeathsig TERM --"

# --- the files of a call ----------------------------------------------------------------------------------------------------------------------

# Each is a line: `read` or `make`, and its name, which has no blank. They come in the order in which the program comes to them.
to_read() {
    printf 'read %s\n' "$@"
}

# The inputs and outputs of a script's flows.
flow_files() {
    awk '$1 == "flow" { print "read", $2; if ($3 != "-") print "make", $3 }' "$1" 2>/dev/null
}

# The script and the reports that words of `netlabel_report` name.
report_files() {
    [ "$1" != -e ] || shift
    [ "$1" != -s ] || {
        to_read "$2"
        shift 2
    }
    shift
    to_read "${@:-/dev/stdin}"
}

# Those of words that are in a form.
call_files() {
    case $name:$1 in
    netlabel:run) to_read "$2" && flow_files "$2" ;;
    netlabel:make) printf 'make %s\n' "$4" ;;
    netlabel:judge) to_read "$4" ;;
    netlabel:*) to_read "$2" ;;
    netlabel_cover:*) to_read "$1" ;;
    netlabel_audit:*) to_read "$1" "$2" && flow_files "$1" | grep '^read ' ;;
    netlabel_report:*) report_files "$@" ;;
    ripso_border:*) to_read "$2" "$4" && printf 'make %s\n' "$5" ;;
    esac
}

# --- why one can't be read or made ------------------------------------------------------------------------------------------------------------

# Sets `why` to the system's text, which ends what a command has printed.
take_text() {
    why=${1##*: }
}

# Sets `why` a file can't be read, if so. What may wait isn't read.
find_unread() {
    why=
    if [ -e "$1" ] && [ ! -f "$1" ] && [ ! -d "$1" ]; then
        return
    fi
    said=$(LC_ALL=C head -c 1 -- "$1" 2>&1 >/dev/null) || take_text "$said"
}

# Whether the first of these files is one of the others, under whatever name.
is_among() {
    file=$1
    shift
    for other; do
        [ ! "$file" -ef "$other" ] || return 0
    done
    return 1
}

# Sets `why` a file that isn't there can't be made, if so.
find_unmade_new() {
    folder=$(dirname -- "$1")
    if [ -L "$1" ]; then
        why="it is a link that leads nowhere"
    elif ! said=$(LC_ALL=C stat -- "$folder/." 2>&1 >/dev/null); then
        take_text "$said"
    elif [ ! -w "$folder" ]; then
        why="its folder can't be written"
    fi
}

# Sets `why` an output can't be made, if so. `inputs` are the files that the call reads, `outputs` those that it has made.
# shellcheck disable=SC2086
find_unmade() {
    why=
    if [ ! -e "$1" ]; then
        find_unmade_new "$1"
    elif [ -d "$1" ]; then
        why="Is a directory"
    elif [ ! -f "$1" ]; then
        why="it is no regular file"
    elif [ "$1" -ef /dev/stdout ]; then
        why="it is the file that standard output goes to"
    elif is_among "$1" $inputs; then
        why="this call reads it"
    elif is_among "$1" $outputs; then
        why="this call makes it already"
    elif ! said=$(LC_ALL=C dd if=/dev/null of="$1" conv=notrunc,nocreat status=none 2>&1); then
        take_text "$said"
    elif command -v flock >/dev/null && ! flock -n -- "$1" true 2>/dev/null; then
        why="another call makes it"
    fi
}

# Sets `file` to the first of these that can't be read or made now, and `why`; fails where there is none.
find_failed() {
    while read -r way file; do
        case $way in
        read) find_unread "$file" ;;
        *) find_unmade "$file" && outputs="$outputs $file" ;;
        esac
        [ -z "$why" ] || return 0
    done <<FILES
$files
FILES
    for file in $inputs; do
        [ ! -p "$file" ] || {
            why="it is a pipe, which is read once, from its beginning to its end"
            return 0
        }
    done
    return 1
}

# --- running ----------------------------------------------------------------------------------------------------------------------------------

# Says which file couldn't be read or made. Names may have any sign that is no blank.
say_failed() {
    set -f
    files=$(call_files "$@")
    inputs=$(printf '%s\n' "$files" | sed -n 's/^read //p')
    outputs=
    if find_failed; then
        say "$file: $why"
    else
        say "a file couldn't be read or made"
    fi
}

# Says what couldn't be written.
say_unwritten() {
    case $(call_files "$@") in
    *"make "*) say "standard output or an output couldn't be written" ;;
    *) say "standard output couldn't be written" ;;
    esac
}

# Runs the program on these words, and ends with its status, or by the signal that has ended it.
run_program() {
    # A write past the limit on a file's size is to fail, and not to end the program.
    trap '' XFSZ
    $bound "$program" "$@"
    status=$?
    case $status in
    1) say "these words are in no form: see man $name ($name $(cat -- "$texts/VERSION"), $proof)" ;;
    3) say_failed "$@" ;;
    4) say_unwritten "$@" ;;
    6) say "memory ran out" ;;
    esac
    [ "$status" -le 128 ] || kill -s "$(kill -l "$((status - 128))")" $$
    exit "$status"
}
