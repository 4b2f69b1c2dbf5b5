#!/bin/sh
# Applies examples/changes.ldif to examples/company.ldif, takes the run back, and compares. Before the run, after it, and once
# it is taken back, it asks examples/slapd.conf what some people may do; before the run and after it, all of examples/questions.ldif too.
# usage: demo.sh PROGRAM
set -eu
program=$(realpath "$1")
cd "$(dirname "$0")"
work=$(mktemp -d)
trap 'rm -rf "$work"' EXIT

zoe='uid=zoe,ou=people,dc=example,dc=com'
juergen='cn=J\C3\BCrgen M\C3\BCller,ou=people,dc=example,dc=com'
mei='uid=mei,ou=trainees,dc=example,dc=com'

# Three questions about Zoe's entry: of Juergen, of Mei, and of somebody who has not logged in. The notes on slapd.conf, which are the same
# for each, go to a file.
ask() {
    "$program" slapacl -b "$zoe" -f slapd.conf --data "$1" -v -D "$juergen" mail/write 2> "$work/notes" || told
    "$program" slapacl -b "$zoe" -f slapd.conf --data "$1" -v -D "$mei" title mail 2> "$work/notes" || told
    "$program" slapacl -b "$zoe" -f slapd.conf --data "$1" -v mail userPassword 2> "$work/notes" || told
}

# All questions of examples/questions.ldif. The exit status is 1 where an answer is not the expected one, too: then there is a report.
suite() {
    "$program" slapacl -f slapd.conf --data "$1" --questions questions.ldif > "$work/report" 2> "$work/notes" || [ -s "$work/report" ] || told
    cat "$work/report"
}

# A question that was not answered ends the demo, with what was told.
told() {
    cat "$work/notes" >&2
    exit 1
}

echo "slapkit slapacl -b $zoe -f slapd.conf --data company.ldif -v -D NAME WORD.. 2> notes"
ask company.ldif > "$work/before"
cat "$work/before"

echo
echo "The notes on slapd.conf:"
cat "$work/notes"

echo
echo "slapkit slapacl -f slapd.conf --data company.ldif --questions questions.ldif 2> notes"
suite company.ldif

echo
echo "slapkit slapmodify -b dc=example,dc=com --data company.ldif -l changes.ldif --out new.ldif --undo undo.ldif -v"
"$program" slapmodify -b dc=example,dc=com --data company.ldif -l changes.ldif \
    --out "$work/new.ldif" --undo "$work/undo.ldif" -v

echo
echo "The entries of the new copy, the interns and Juergen under their new names:"
grep '^dn:' "$work/new.ldif"

echo
echo "The same questions: Mei administers now, in place of Juergen."
ask "$work/new.ldif"

echo
echo "slapkit slapacl -f slapd.conf --data new.ldif --questions questions.ldif 2> notes: what the changes make of the expected answers"
suite "$work/new.ldif"

echo
echo "The undo file:"
cat "$work/undo.ldif"

echo "slapkit slapmodify -b dc=example,dc=com --data new.ldif -l undo.ldif --out back.ldif --undo redo.ldif -v"
"$program" slapmodify -b dc=example,dc=com --data "$work/new.ldif" -l "$work/undo.ldif" \
    --out "$work/back.ldif" --undo "$work/redo.ldif" -v

cmp company.ldif "$work/back.ldif" && echo "back.ldif is company.ldif again, byte for byte."
ask "$work/back.ldif" > "$work/after"
cmp "$work/before" "$work/after" && echo "The questions are answered as at first."
