#!/bin/sh
# Applies examples/changes.ldif to examples/company.ldif by a build of the program that is not proved, and shows the report, the
# undo file and the new copy. It wants the toolchain, and no run of it before: two minutes where two processors are free.
# usage: try.sh
set -eu
examples=$(cd "$(dirname "$0")" && pwd)
work=$(mktemp -d)
trap 'rm -rf "$work"' EXIT

echo "Nothing that you see here is proved yet: make demo proves it. The build takes about two minutes."
"$examples/../packaging/building.py" try slapmodify -b dc=example,dc=com --data "$examples/company.ldif" -l "$examples/changes.ldif" \
    --out "$work/new.ldif" --undo "$work/undo.ldif" -v > "$work/report" || { cat "$work/report" >&2; exit 1; }

echo
echo "slapkit slapmodify -b dc=example,dc=com --data company.ldif -l changes.ldif --out new.ldif --undo undo.ldif -v"
cat "$work/report"
echo
echo "The undo file:"
cat "$work/undo.ldif"
echo
echo "The new copy:"
cat "$work/new.ldif"
echo "Nothing of this was proved: make demo proves the program, and then shows that the undo file makes the first copy again."
