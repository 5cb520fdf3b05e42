#!/bin/sh
# Builds a Debian package of what is installed, and prints its path.
#
# usage: packaging/deb.sh PROGRAM FOLDER
#
# PROGRAM, the proved one, goes into the package byte for byte, with its symbols. The package goes to FOLDER. The same commit and the same
# program give the same bytes. MAINTAINER and SOURCE_DATE_EPOCH are those of the last commit where they aren't set.
set -eu
umask 022
export LC_ALL=C

top=$(dirname "$0")/..
program=$1
folder=$2
room=$(mktemp -d)
trap 'rm -rf "$room"' EXIT
trap 'exit 1' HUP INT TERM
tree=$room/debian/collbench
pages=$tree/usr/share/doc/collbench

"$top/packaging/lay_out.sh" "$program" "$tree/usr"
. "$top/packaging/facts.sh"
MAINTAINER=${MAINTAINER:-$(git -C "$top" log -1 --format='%an <%ae>')}
version=$version-1
case $heading in
*unreleased) suite=UNRELEASED ;;
*) suite=unstable ;;
esac

# What the program depends on. Without dpkg-dev only glibc is known.
depends() {
    if command -v dpkg-shlibdeps > /dev/null; then
        printf 'Source: collbench\n\nPackage: collbench\nArchitecture: any\n' > "$room/debian/control"
        (cd "$room" && dpkg-shlibdeps -O debian/collbench/usr/bin/collbench) | sed -n 's/^shlibs:Depends=//p'
    elif [ "$(libraries)" = libc.so.6 ]; then
        echo "libc6 (>= $(glibc))"
    else
        echo "The package dpkg-dev is needed to tell which packages have these libraries:" "$(libraries)" >&2
        return 1
    fi
}

# The size as dpkg counts it: files by kilobytes, rounded up, and one for all else.
installed_size() {
    find "$tree" -type f -printf '%s\n' -o -printf '1\n' | awk '{ size += int(($1 + 1023) / 1024) } END { print size }'
}

control() {
    cat << END
Package: collbench
Version: $version
Architecture: $(dpkg --print-architecture)
Maintainer: $MAINTAINER
Installed-Size: $size
Depends: $needed
Suggests: locales
Section: text
Priority: optional
Description: workbench for collation tables
 collbench reads a collation table in LC_COLLATE source form (POSIX.1-2017),
 changes it by statements such as reorder-after (ISO/IEC 14651), answers what
 the order is then, and takes each statement back again, also from the middle.
 It imports published locale sources, finds what is wrong with a tailoring,
 prints, compiles and compares tables, sorts words, and explains their order.
 .
 It is written in Rattle, Rust with contracts: what a function promises is
 proved before it is built.
END
}

copyright() {
    cat << END
Format: https://www.debian.org/doc/packaging-manuals/copyright-format/1.0/
Upstream-Name: collbench

Files: *
Copyright: $(sed -n 's/^Copyright (c) //p' "$top/LICENSE-MIT")
License: Expat or Apache-2.0

License: Expat
$(sed '1,/^Copyright/d; s/^/ /; s/^ $/ ./' "$top/LICENSE-MIT" | sed 1d)

License: Apache-2.0
 On Debian systems the text of this licence stands in
 /usr/share/common-licenses/Apache-2.0.
END
}

changelog() {
    cat << END
collbench ($version) $suite; urgency=medium

  * What is new stands in changelog.gz.

 -- $MAINTAINER  $(date -u -R -d "@$SOURCE_DATE_EPOCH")
END
}

# Puts what only Debian has, and what it has elsewhere, in place.
as_debian_has_it() {
    copyright > "$pages/copyright"
    changelog | gzip -9n > "$pages/changelog.Debian.gz"
    gzip -9n < "$pages/CHANGELOG.md" > "$pages/changelog.gz"
    rm "$pages/CHANGELOG.md" "$pages"/LICENSE-*
    sed -i 's/](CHANGELOG\.md)/](changelog.gz)/; s/](LICENSE-[A-Z]*)/](copyright)/g' "$pages/README.md" "$pages/CONTRIBUTING.md"
    [ ! -d "$tree/usr/share/man" ] || find "$tree/usr/share/man" -type f -exec gzip -9n {} +
    [ ! -d "$tree/usr/share/zsh/site-functions" ] || mv "$tree/usr/share/zsh/site-functions" "$tree/usr/share/zsh/vendor-completions"
    mkdir -p "$tree/usr/share/lintian/overrides"
    cat > "$tree/usr/share/lintian/overrides/collbench" << END
# The program is, byte for byte, the one that was proved and built.
collbench: unstripped-binary-or-object *usr/bin/collbench*
END
}

as_debian_has_it
find "$tree" -type d -exec chmod 755 {} +
find "$tree" -type f -exec chmod 644 {} +
chmod 755 "$tree/usr/bin/collbench"
size=$(installed_size)
mkdir "$tree/DEBIAN"
needed=$(depends)
control > "$tree/DEBIAN/control"
(cd "$tree" && find usr -type f -print0 | sort -z | xargs -0 md5sum > DEBIAN/md5sums)
mkdir -p "$folder"
package=$folder/collbench_${version}_$(dpkg --print-architecture).deb
dpkg-deb -Zxz --root-owner-group --build "$tree" "$package" > /dev/null
echo "$package"
