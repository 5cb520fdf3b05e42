# What deb.sh and dist.sh tell of the program: they set `top` and `program`, and read this.
# shellcheck shell=sh disable=SC2034,SC2154

# The version of the changelog, which the program has to have as well, and whether it is released.
heading=$(grep -m 1 '^## ' "$top/CHANGELOG.md")
version=${heading#'## '}
version=${version%%,*}
if [ -x "$program" ] && [ "$("$program" version | head -n 1)" != "collbench $version" ]; then
    echo "$program is not of version $version, which CHANGELOG.md begins with: 'make' proves and builds it again." >&2
    exit 1
fi

# All times in a package are that of the last commit, so that it can be built again byte for byte; dpkg-deb reads this, too.
SOURCE_DATE_EPOCH=${SOURCE_DATE_EPOCH:-$(git -C "$top" log -1 --format=%ct)}
export SOURCE_DATE_EPOCH

# The libraries that the program needs, one a line.
libraries() {
    readelf -d "$program" | sed -n 's/.*(NEEDED).*\[\(.*\)\].*/\1/p'
}

# The oldest glibc that has all that the program takes of it.
glibc() {
    readelf -V "$program" | grep -o 'GLIBC_[0-9.]*' | sort -uV | tail -n 1 | sed 's/GLIBC_//'
}
