#!/bin/sh
# Installs the proved programs and the library for C with their man pages, completions and pages below PREFIX, or takes them away again. It builds nothing. A
# program stands in libexec, and in bin the script that runs it.

# Whoever installs, everybody may read what is installed.
umask 022

usage() {
    echo "usage: install.sh [--uninstall] [PREFIX]"
    echo "PREFIX is an absolute folder, /usr/local if left out. With DESTDIR set, the files go below \$DESTDIR\$PREFIX."
}

refuse() {
    echo "install.sh: $1" >&2
    shift
    for line; do
        echo "$line" >&2
    done
    echo "Nothing was changed." >&2
    exit 1
}

# Whether an example makes this file, where it is run in place: then it has the name of one in `wanted`, or `wanted-run` and the like, or is the program in C.
is_made() {
    [ "$1" != examples/c/labels ] || return 0
    for wanted in "${1%/*}"/wanted*/"${1##*/}"; do
        [ ! -e "$wanted" ] || return 0
    done
    return 1
}

# The examples' files, without what they make.
examples() {
    find examples -type f | while read -r file; do
        is_made "$file" || echo "$file"
    done
}

# A file of the repository as such a line, where it is there.
one() {
    [ ! -e "$here/$2" ] || echo "$1 $2 $3"
}

# Each file as a line: its mode, where it lies in the repository, and its name below PREFIX. A program may have a man page and completions of its own.
files() {
    echo "644 lib/run.sh libexec/netlabel/run.sh"
    for name in $(programs); do
        use_program "$name"
        echo "755 ${program#"$here/"} libexec/netlabel/$name"
        echo "755 $name bin/$name"
        one 644 "docs/$name.1" "share/man/man1/$name.1"
        one 644 "completions/$name.bash" "share/bash-completion/completions/$name"
        one 644 "completions/$name.zsh" "share/zsh/site-functions/_$name"
    done
    for name in $(libraries); do
        use_library "$name"
        echo "644 ${program#"$here/"} lib/lib$name.a"
        one 644 include/netlabel.h include/netlabel.h
        one 644 include/netlabel.pc lib/pkgconfig/netlabel.pc
        one 644 docs/netlabel.3 share/man/man3/netlabel.3
    done
    (cd "$here" && printf "%s\n" LICENSE* VERSION README.md CHANGELOG.md CONTRIBUTING.md docs/*.md && examples) | LC_ALL=C sort | while read -r page; do
        echo "644 $page share/doc/netlabel/$page"
    done
}

# The first folder of a path that is there.
standing() {
    folder=$1
    while [ ! -e "$folder" ]; do
        folder=$(dirname -- "$folder")
    done
    echo "$folder"
}

# Every file can be written, before any is: its folder, or the first one above it that is there.
can_write() {
    files | while read -r _mode _source target; do
        folder=$(standing "$(dirname -- "$root/$target")")
        if [ ! -d "$folder" ] || [ ! -w "$folder" ] || [ -d "$root/$target" ]; then
            echo "$folder"
            break
        fi
    done
}

# A file's text, with the version and the prefix in it.
fill() {
    case $1 in
    *.[13] | *.pc) sed "s|@VERSION@|$version|; s|@PREFIX@|$quoted|" "$1" ;;
    *) cat -- "$1" ;;
    esac
}

# A file is put in place whole, from one with a fresh name, so that no link which stands there is followed: whoever runs the old program meanwhile goes on with it.
put() {
    mkdir -p -- "$(dirname -- "$3")" && fresh=$(mktemp -- "$3.XXXXXXXX") || return 1
    trap 'rm -f -- "$fresh"' EXIT
    trap 'exit 1' HUP INT TERM
    fill "$2" >"$fresh" && chmod "$1" "$fresh" && mv -fT -- "$fresh" "$3" || return 1
    trap - EXIT HUP INT TERM
}

# The first program or library that isn't current.
unbuilt() {
    products | while read -r kind name; do
        "use_$kind" "$name"
        is_current || {
            echo "$kind $name"
            break
        }
    done
}

install_all() {
    unready=$(unbuilt)
    [ -z "$unready" ] || refuse "the proved $unready isn't built yet, or a source is newer than it." \
        "Run $here/prove first: it proves and builds all programs and the library, which takes about an hour on four processors from nothing."
    closed=$(can_write)
    [ -z "$closed" ] || refuse "$closed can't be written: run this as somebody who may, or give another PREFIX."
    version=$(cat "$here/VERSION")
    quoted=$(printf '%s' "${prefix%/}" | sed 's/[\\&|]/\\&/g')
    files | while read -r mode source target; do
        put "$mode" "$here/$source" "$root/$target" || exit 1
        case $target in
        share/doc/*) ;;
        *) echo "$root/$target" ;;
        esac
    done || {
        echo "install.sh: the file that is named above couldn't be written; those before it are in place" >&2
        exit 1
    }
    echo "$root/share/doc/netlabel: the pages, licences and examples"
    echo "netlabel $version is installed."
}

# Takes away what is there, and says where nothing is.
uninstall_all() {
    files | while read -r _mode _source target; do
        [ ! -e "$root/$target" ] || exit 1
    done && refuse "$root has no file of netlabel."
    files | while read -r _mode _source target; do
        [ ! -e "$root/$target" ] || rm -- "$root/$target" || exit 1
    done || exit 1
    for folder in "$root/share/doc/netlabel" "$root/libexec/netlabel"; do
        [ ! -d "$folder" ] || find "$folder" -depth -type d -exec rmdir -- {} + 2>/dev/null
        [ ! -d "$folder" ] || echo "install.sh: left what it didn't install in $folder" >&2
    done
    echo "netlabel is taken away from $root."
}

self=$(readlink -f -- "$0") && here=${self%/*}
[ -r "$here/lib/program.sh" ] || refuse "$here isn't the netlabel repository: call the script there by its name."
# shellcheck source=lib/program.sh
. "$here/lib/program.sh"

work=install_all
case ${1-} in
--uninstall) work=uninstall_all && shift ;;
esac
case $#,${1-/usr/local} in
0,* | 1,/*) prefix=${1-/usr/local} ;;
1,--help | 1,-h) usage && exit ;;
*) usage >&2 && exit 2 ;;
esac
root=${DESTDIR-}${prefix%/}
case $root in
*[[:cntrl:]]*) refuse "a line end or another control character stands in PREFIX or DESTDIR." ;;
/* | "") $work ;;
*) refuse "DESTDIR is no absolute folder: $DESTDIR" ;;
esac
