# Makes Debian's changelog of CHANGELOG.md: awk -v maintainer="NAME <MAIL>" -v epoch=SECONDS -f changelog.awk CHANGELOG.md
# A version's heading is '## VERSION - DATE', or '## VERSION - unreleased', which gets the time epoch. What stands under another heading
# is left out. Lines have at most 78 columns, so that those of the result have 80.

function end_version() {
    if (version != "")
        printf "\n -- %s  %s\n\n", maintainer, stamp
    version = ""
}

/^## / { end_version() }

/^## .* - / {
    version = $2
    released = $4 != "unreleased"
    command = "date --utc --rfc-email --date=" (released ? $4 : "@" epoch)
    command | getline stamp
    close(command)
    printf "slapkit (%s) %s; urgency=medium\n", version, released ? "unstable" : "UNRELEASED"
}

version == "" { next }
/^### / { printf "\n  [ %s ]\n", substr($0, 5) }
/^- / { print "  * " substr($0, 3) }
/^  [^ ]/ { print "  " $0 }

END { end_version() }
