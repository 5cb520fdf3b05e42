#!/bin/sh
# Lays out in an empty folder what is installed, as it stands below a prefix.
#
# usage: packaging/lay_out.sh PROGRAM FOLDER
#
# PROGRAM, the proved one, goes to bin/collbench, and share/ goes where it stands. The examples, the licences and the pages go to
# share/doc/collbench, where the links among them lead to one another. Where git tells which files it knows, only these are taken, so what
# was tried out beside the examples stays behind.
set -eu

top=$(dirname "$0")/..
program=$1
folder=$2

if [ ! -x "$program" ]; then
    cat >&2 << END
There is no proved program, $program, so nothing is done.
'make' proves and builds it: at first in one to two hours, and once broken off it goes on with what was proved.
END
    exit 1
fi

# The files below these, one a line.
files() {
    cd "$top"
    { [ -e .git ] && git ls-files -- "$@" 2> /dev/null; } || find "$@" -type f ! -name '.*' ! -name '*~' 2> /dev/null
}

# Copies a file to a place below the folder.
put() {
    mkdir -p "$(dirname "$folder/$2")"
    cp "$1" "$folder/$2"
}

put "$program" bin/collbench
files share README.md CHANGELOG.md CONTRIBUTING.md LICENSE-MIT LICENSE-APACHE docs bench/README.md examples | while IFS= read -r file; do
    case $file in
    share/*) put "$top/$file" "$file" ;;
    *) put "$top/$file" "share/doc/collbench/$file" ;;
    esac
done
