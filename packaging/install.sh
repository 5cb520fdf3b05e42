#!/bin/sh
# Installs collbench below a prefix, or removes what this put there.
#
# usage: install.sh [install | uninstall] [PREFIX=/usr/local] [DESTDIR=] [TREE=FOLDER]
#
# TREE has what is installed, as it stands below PREFIX; it is the folder of this script if left out. DESTDIR goes before PREFIX, for who
# makes a package. PREFIX/share/doc/collbench/installed_files.txt lists the files that were put there, and the folders that weren't there
# before. `uninstall` removes these files, and those of these folders in which nothing of others stands. An install over another removes
# what only that one had.
set -eu
umask 022
export LC_ALL=C

task=install
prefix=/usr/local
destdir=
tree=$(dirname "$0")
for word in "$@"; do
    case $word in
    install | uninstall) task=$word ;;
    PREFIX=/*) prefix=${word#PREFIX=} ;;
    DESTDIR=*) destdir=${word#DESTDIR=} ;;
    TREE=*) tree=${word#TREE=} ;;
    *)
        echo "usage: $0 [install | uninstall] [PREFIX=/usr/local] [DESTDIR=] [TREE=FOLDER], where PREFIX begins with /" >&2
        exit 2
        ;;
    esac
done
prefix=${prefix%/}
list=$prefix/share/doc/collbench/installed_files.txt

# What is of a type in the tree, d or f, each with its path below DESTDIR.
in_tree() {
    (cd "$tree" && find bin share -type "$1") | while IFS= read -r path; do
        printf '%s\n' "$prefix/$path"
    done
}

# The prefix, and the folders above it, up to DESTDIR.
above_tree() {
    above=$prefix
    while [ -n "$above" ]; do
        printf '%s\n' "$above"
        above=${above%/*}
    done
    echo
}

# What an install puts: its files, and the folders that aren't there, which end with a slash.
wanted() {
    in_tree f
    printf '%s\n' "$list"
    { above_tree && in_tree d; } | while IFS= read -r folder; do
        [ -d "$destdir$folder/" ] || printf '%s/\n' "$folder"
    done
}

# Reads such lines. Removes their files, and those of their folders that are empty then.
remove() {
    sort -r | while IFS= read -r path; do
        case $path in
        */) rmdir "$destdir$path" 2> /dev/null || : ;;
        /*) rm -f "$destdir$path" ;;
        esac
    done
}

install_files() {
    before=$(cat "$destdir$list" 2> /dev/null || :)
    now=$(wanted)
    # What is listed first can be removed where the install is broken off.
    mkdir -p "$destdir${list%/*}"
    printf '%s\n' "$before" "$now" | sed '/^$/d' | sort -u > "$destdir$list"
    in_tree d | while IFS= read -r folder; do
        mkdir -p "$destdir$folder"
    done
    in_tree f | while IFS= read -r file; do
        case $file in
        "$prefix"/bin/*) mode=755 ;;
        *) mode=644 ;;
        esac
        install -m "$mode" "$tree${file#"$prefix"}" "$destdir$file"
    done
    printf '%s\n' "$before" | grep -Fxv -e "$now" | remove
    { printf '%s\n' "$before" | grep '/$' || :; printf '%s\n' "$now"; } | sort -u > "$destdir$list"
    echo "collbench is installed: $destdir$prefix/bin/collbench"
}

uninstall_files() {
    if [ ! -f "$destdir$list" ]; then
        echo "Nothing is removed: there is no $destdir$list, where an install lists what it put there." >&2
        exit 1
    fi
    lines=$(cat "$destdir$list")
    printf '%s\n' "$lines" | grep -Fxv -e "$list" | remove
    rm -f "$destdir$list"
    printf '%s\n' "$lines" | grep '/$' | remove
    echo "collbench is removed: $destdir$prefix/bin/collbench"
}

"${task}_files"
