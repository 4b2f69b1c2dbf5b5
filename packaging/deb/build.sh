#!/bin/sh
# Makes the Debian package slapkit_VERSION_amd64.deb of a built program, in the working directory.
# usage: build.sh PROGRAM
#
# It wants dpkg-dev, binutils and make, and git or SOURCE_DATE_EPOCH: each file in the package has the time of the last commit, so that
# the same program and the same commit give the same bytes.
set -eu

fail() {
    echo "build.sh: $*" >&2
    exit 1
}

[ $# -eq 1 ] && [ -x "$1" ] || fail "usage: build.sh PROGRAM"
program=$(realpath "$1")
target=$PWD
here=$(cd "$(dirname "$0")" && pwd)
top=$(realpath "$here/../..")

umask 022
export LC_ALL=C
: "${SOURCE_DATE_EPOCH:=$(git -C "$top" log -1 --format=%ct)}"
export SOURCE_DATE_EPOCH

# The version that the sources tell is the one that the program and CHANGELOG.md tell.
version=$(sed -n 's/^const VERSION: &str = "\(.*\)";$/\1/p' "$top/crates/slapkit/src/command.rt")
[ "$("$program" --version)" = "slapkit $version" ] || fail "$program is not slapkit $version"
[ "$(sed -n '/^## Unreleased/d; s/^## \([^ ]*\) - .*/\1/p' "$top/CHANGELOG.md" | head -n 1)" = "$version" ] ||
    fail "the first version of CHANGELOG.md is not $version"

work=$(mktemp -d)
trap 'rm -rf "$work"' EXIT
root=$work/debian/slapkit
docs=$root/usr/share/doc/slapkit
mkdir -p "$root/DEBIAN" "$docs/docs"

make --no-print-directory -C "$top" install DESTDIR="$root" PREFIX=/usr ZSH_COMPLETIONS=/usr/share/zsh/vendor-completions \
    PROGRAM="$program" > "$work/installed"
strip "$root/usr/bin/slapkit"
gzip -9n "$root"/usr/share/man/man1/*.1

# The pages for whoever runs the program (DEFINITIONS.md has the built-in types); the others are for whoever builds on the code.
install -m 644 -t "$docs" "$top/README.md" "$here/copyright"
for page in "$top"/docs/*.md; do
    case ${page##*/} in
        ARCHITECTURE.md | CONTRIBUTING.md | DECISIONS.md | PERF.md) ;;
        *) install -m 644 -t "$docs/docs" "$page" ;;
    esac
done

# All of the examples but the one that wants the toolchain.
cp -r "$top/examples" "$docs"
rm "$docs/examples/try.sh"

maintainer=$(sed -n 's/^Maintainer: //p' "$here/control")
awk -v maintainer="$maintainer" -v epoch="$SOURCE_DATE_EPOCH" -f "$here/changelog.awk" "$top/CHANGELOG.md" > "$work/debian/changelog"
gzip -9nc "$work/debian/changelog" > "$docs/changelog.gz"
# Debian's policy: pages are compressed unless they are small.
find "$docs" -name '*.md' -size +4k ! -path '*/examples/*' -exec gzip -9n {} +

cp "$here/control" "$work/debian"
cd "$work"
dpkg-shlibdeps -Tdebian/substvars "$root/usr/bin/slapkit"
dpkg-gencontrol -Tdebian/substvars -P"$root"
(cd "$root" && find usr -type f | sort | xargs md5sum > DEBIAN/md5sums)

chmod -R u=rwX,go=rX "$root"
find "$root" -exec touch --no-dereference --date="@$SOURCE_DATE_EPOCH" {} +
dpkg-deb --root-owner-group -Zxz --threads-max=1 --build "$root" "$target/slapkit_${version}_amd64.deb"
