#!/bin/sh
# Prints the file of an unproved program, by the program's name. Where none of these sources is kept, it is built first: rt compiles it with checks, so that it
# stops at a wrong index and at an overflow, and while it runs there, the file is copied from rt's own folder.

here=$(readlink -f -- "$0") && here=${here%/lib/*}
. "$here/lib/program.sh"

say() {
    echo "$name: $*" >&2
}

# What the program is built from, as a checksum: the code of its crate and of those below it.
source_sum() (
    cd "$here" || exit
    set -- crates.txt
    for below in $(rooms); do
        set -- "$@" "crates/$below/src"
    done
    find "$@" -type f ! -name tests.rt ! -path '*/tests/*' -exec sha256sum {} + | LC_ALL=C sort | sha256sum | cut -c 1-16
)

# Where programs are kept: beside the proved one or, where that can't be written, in the caller's cache.
use_folder() {
    for folder in "$crate/out" "${XDG_CACHE_HOME:-${HOME:-/nonexistent}/.cache}/netlabel"; do
        mkdir -p -- "$folder" 2>/dev/null
        if [ -d "$folder" ] && [ -w "$folder" ]; then return; fi
    done
    say "$crate/out can't be written, and an unproved program is kept there"
    return 1
}

# Words of the program by which it opens this file before any other.
waiting_words() {
    case $name in
    netlabel) echo "show $1" ;;
    netlabel_audit) echo "$1 report 1" ;;
    netlabel_report) echo "json $1" ;;
    ripso_border) echo "in $1 16 read made" ;;
    *) echo "$1 1" ;;
    esac
}

# Copies the program while it waits for what comes through a pipe, and ends the try.
copy_waiting() {
    exec 3>"$work/pipe"
    (cd "$work" && find . -type f -name program -exec cp -- {} copy \;) && kill "$tried"
}

# Builds the program, as $work/copy. rt runs it in a folder of its own, from which the pipe is ../../pipe.
build() {
    mkfifo -- "$work/pipe" || return
    # shellcheck disable=SC2046
    (cd "$crate" && TMPDIR=$work exec rt try --steps 1 --seconds 300 -- $(waiting_words ../../pipe)) >"$work/log" 2>&1 </dev/null &
    tried=$!
    copy_waiting &
    copying=$!
    # The shell would say of each that it was ended.
    {
        wait "$tried"
        kill "$copying"
        wait "$copying"
    } 2>/dev/null
    [ -f "$work/copy" ]
}

# Ends what runs, and removes what it has left.
clear_away() {
    for job in $tried $copying; do
        kill "$job" 2>/dev/null
    done
    rm -rf -- "$work"
}

# Keeps the program in the place of those of other sources: it gets its name when it is whole.
keep() {
    chmod 755 "$work/copy" && mv -- "$work/copy" "$kept.$$" && mv -- "$kept.$$" "$kept" || return
    for other in "$folder/unproved-$room"-????????????????; do
        [ "$other" = "$kept" ] || rm -f -- "$other"
    done
}

name=$1
use_program "$name"
use_folder || exit
kept=$folder/unproved-$room-$(source_sum)
[ -x "$kept" ] || {
    has_command "$name" rt " (the command of the Rattle kit, which compiles the unproved program)" || exit
    say "building the unproved program, once for these sources; that takes about a minute"
    work=$(mktemp -d) || exit
    tried='' copying=''
    trap clear_away EXIT
    trap 'exit 130' INT
    trap 'exit 143' TERM HUP
    build || {
        tail -n 12 "$work/log" >&2
        say "the unproved program wasn't built"
        exit 1
    }
    keep || exit
}
echo "$kept"
