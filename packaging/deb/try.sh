#!/bin/sh
# Tries a package in a clean root of Debian, which has no toolchain: lintian, apt install, the sessions of its README, its manual
# pages, its completions, and apt purge, after which all files must be as before.
# usage: try.sh PACKAGE [ROOT]
#
# It wants to be run as root, lintian, and a mirror of Debian: debootstrap makes the root of bookworm (minbase) there, and man-db is
# added. ROOT, a folder, is kept and taken again as it is; without it the root is a temporary one. Nothing is skipped: the first step
# that fails, or lacks what it wants, ends the trial with its status.
set -eu

fail() {
    echo "try.sh: $*" >&2
    exit 1
}

step() {
    echo "== $*"
}

within() {
    chroot "$root" env -i PATH=/usr/sbin:/usr/bin:/sbin:/bin LC_ALL=C.UTF-8 DEBIAN_FRONTEND=noninteractive "$@"
}

# As somebody who may write into /tmp alone.
as_nobody() {
    chroot --userspec=nobody:nogroup "$root" env -i PATH=/usr/bin:/bin LC_ALL=C.UTF-8 HOME=/tmp "$@"
}

# All files and folders, but for the databases and logs of dpkg, apt and man-db: find's last words say what to do with them.
found() {
    (cd "$root" && find . -xdev \( -path ./proc -o -path ./sys -o -path ./dev -o -path ./tmp -o -path ./var/lib/dpkg -o -path ./var/lib/apt \
        -o -path ./var/log -o -path ./var/cache/apt -o -path ./var/cache/man \) -prune -o "$@")
}

# Their modes, owners, links and contents.
listing() {
    found -printf '%p %y %m %u:%g %l\n' | sort
    found -type f -exec sha256sum {} + | sort -k 2
}

# The sessions of the README that is installed: of each a file of its commands, each on one line, and one of what they print.
sessions() {
    zcat -f "$root"/usr/share/doc/slapkit/README.md* | awk -v to="$work/session" '
        /^```console$/ { inside = 1; number++; printf "" > (to number ".commands"); printf "" > (to number ".expected"); next }
        /^```$/ { inside = 0 }
        !inside { next }
        { $0 = begun $0; begun = "" }
        /\\$/ { begun = substr($0, 1, length($0) - 1); next }
        /^\$ / { print substr($0, 3) > (to number ".commands"); next }
        { print > (to number ".expected") }'
}

# Runs the commands of a session as nobody, in a folder that has the examples, and compares what they print with what is expected.
run_session() {
    cat "$1.commands"
    [ -s "$1.commands" ] || fail "a session of README.md has no commands"
    mkdir -m 777 "$root/tmp/session"
    cp -r "$root/usr/share/doc/slapkit/examples" "$root/tmp/session"
    as_nobody sh -c 'cd /tmp/session && exec sh -e' < "$1.commands" > "$1.printed" 2>&1 || { cat "$1.printed" >&2; exit 1; }
    diff "$1.expected" "$1.printed"
    rm -r "$root/tmp/session"
}

[ $# -eq 1 ] || [ $# -eq 2 ] || fail "usage: try.sh PACKAGE [ROOT]"
[ "$(id -u)" -eq 0 ] || fail "only root can make a root and enter it"
package=$(realpath "$1")
work=$(mktemp -d)
trap 'rm -rf --one-file-system "$work"' EXIT
trap 'exit 1' HUP INT TERM
root=$(realpath --canonicalize-missing "${2:-$work/root}")

step "lintian"
lintian --allow-root --fail-on error,warning "$package"

if [ ! -e "$root/etc/debian_version" ]; then
    step "debootstrap: a root of bookworm in $root"
    debootstrap --variant=minbase --include=man-db bookworm "$root" > "$work/debootstrap" || { tail "$work/debootstrap" >&2; exit 1; }
fi
within dpkg --status man-db > /dev/null || fail "$root lacks man-db"
! within sh -c 'command -v rt || command -v slapkit' || fail "$root has a toolchain, or the program"

step "apt install"
listing > "$work/before"
cp "$package" "$root/tmp"
within apt-get install --option Dpkg::Use-Pty=0 --yes "/tmp/${package##*/}"
rm "$root/tmp/${package##*/}"

step "the sessions of README.md"
sessions
[ -e "$work/session1.commands" ] || fail "README.md has no session"
for commands in "$work"/session*.commands; do
    run_session "${commands%.commands}"
done

step "the manual pages"
for page in slapkit slapkit-slapacl slapkit-slapconf slapkit-slapmodify; do
    as_nobody man --warnings "$page" > "$work/page" 2> "$work/warnings"
    [ ! -s "$work/warnings" ] || { cat "$work/warnings" >&2; exit 1; }
    grep -q '^NAME' "$work/page" && grep -q '^SEE ALSO' "$work/page" || fail "man $page has no name or no end"
    echo "$page: $(wc -l < "$work/page") lines"
done

step "the completions"
within bash -c '. /usr/share/bash-completion/completions/slapkit && complete -p slapkit'
head -n 1 "$root/usr/share/zsh/vendor-completions/_slapkit" | grep '^#compdef slapkit'
grep -c '^complete -c slapkit' "$root/usr/share/fish/vendor_completions.d/slapkit.fish"

step "apt purge"
within apt-get purge --option Dpkg::Use-Pty=0 --yes slapkit
listing > "$work/after"
diff "$work/before" "$work/after" || fail "the package left the lines above (< before, > after)"
echo "All is as it was: $(found -printf '.\n' | wc -l) files and folders."
