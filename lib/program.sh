# shellcheck shell=sh
# Which programs and libraries for C this repository has, where they are, and whether one is current. For `netlabel`, `prove` and `install.sh`, which set
# `here`, the repository's folder, before they read this file.

# The programs, by the names that they are called by: the crates of crates.txt that have a `main`. The ending `_run` of a crate is no part of the name.
programs() {
    sed -n 's/^\([a-z][a-z0-9_]*\)[^:]*:.*/\1/p' "${here:?}/crates.txt" | while read -r crate_name; do
        [ -f "$here/crates/$crate_name/src/main.rt" ] || continue
        echo "${crate_name%_run}"
    done
}

# The libraries for C, by their crates' names: the crates of crates.txt that are static libraries.
libraries() {
    sed -n 's/^\([a-z][a-z0-9_]*\) staticlib:.*/\1/p' "${here:?}/crates.txt"
}

# Whether this is the name of a program.
is_program() {
    [ -f "$here/crates/$1_run/src/main.rt" ] || [ -f "$here/crates/$1/src/main.rt" ]
}

# Turns to a program: its crate, the crate's folder, and where it is built.
use_program() {
    for room in "$1_run" "$1"; do
        [ ! -f "$here/crates/$room/src/main.rt" ] || break
    done
    crate=$here/crates/$room
    program=$crate/out/$room
}

# Turns to a library in the same way, which stands in the place of a program below.
use_library() {
    room=$1
    crate=$here/crates/$room
    program=$crate/out/lib$room.a
}

# All that is built, a line for each: `program` or `library`, and its name.
products() {
    programs | sed 's/^/program /'
    libraries | sed 's/^/library /'
}

# The program's crate and all crates below it.
rooms() {
    awk -F: -v first="$room" '
        /^[a-z]/ { sub(/ .*/, "", $1); uses[$1] = $2 }
        END {
            row[count = 1] = first
            for (at = 1; at <= count; at++) {
                if (!(row[at] in uses) || row[at] in seen) continue
                seen[row[at]] = 1
                print row[at]
                size = split(uses[row[at]], below, " ")
                for (i = 1; i <= size; i++) row[++count] = below[i]
            }
        }' "$here/crates.txt"
}

# The proved program is built, and no source of it is newer: its code, definitions and proofs, and the list of crates. Tests and pages don't count.
is_current() {
    [ -f "$program" ] || return 1
    newer=$(newer_sources) || return 1
    [ -z "$newer" ]
}

# Names that are relative to the repository: its own folder may lie in one named `tests`.
newer_sources() (
    cd "$here" || exit
    set -- crates.txt
    for below in $(rooms); do
        for part in src specs proofs; do
            [ ! -d "crates/$below/$part" ] || set -- "$@" "crates/$below/$part"
        done
    done
    find "$@" -type f ! -name tests.rt ! -path '*/tests/*' -newer "$program" -print
)

# Whether a command is on the path; where it isn't, says so for the script that is named first.
has_command() {
    command -v "$2" >/dev/null && return
    echo "$1: $2 isn't on the path$3" >&2
    return 1
}
