#!/bin/sh
# Makes a tarball from which the program is installed without the repository, and a file SHA256SUMS beside it. Prints its path, and what
# INSTALL.txt tells in it: how to install the program, and which libraries it needs.
#
# usage: packaging/dist.sh PROGRAM FOLDER
#
# PROGRAM is the proved one. Both files go to FOLDER. The same commit and the same program give the same bytes. SOURCE_DATE_EPOCH is the
# time of the last commit where it isn't set.
set -eu
umask 022
export LC_ALL=C

top=$(dirname "$0")/..
program=$1
folder=$2
room=$(mktemp -d)
trap 'rm -rf "$room"' EXIT
trap 'exit 1' HUP INT TERM

how_to_install() {
    cat << END
collbench $version for Linux on $(uname -m)

    ./install.sh PREFIX=/usr/local              installs it
    ./install.sh uninstall PREFIX=/usr/local    removes what that put there

It needs these libraries of the system, of glibc $(glibc) or later:

$(libraries | sed 's/^/    /')
END
}

"$top/packaging/lay_out.sh" "$program" "$room/tree"
. "$top/packaging/facts.sh"
command -v readelf > /dev/null || { echo "readelf, of the binutils, tells which libraries are needed, and isn't here." >&2 && exit 1; }
name=collbench-$version-$(uname -m)-linux
mv "$room/tree" "$room/$name"
cp "$top/packaging/install.sh" "$room/$name"
how_to_install > "$room/$name/INSTALL.txt"
mkdir -p "$folder"
tar -I 'gzip -9n' -C "$room" --sort=name --format=gnu --owner=root:0 --group=root:0 --mode=u=rwX,go=rX --mtime="@$SOURCE_DATE_EPOCH" \
    -cf "$folder/$name.tar.gz" "$name"
(cd "$folder" && sha256sum "$name.tar.gz" > SHA256SUMS)
echo "$folder/$name.tar.gz"
cat "$room/$name/INSTALL.txt"
