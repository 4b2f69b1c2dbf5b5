#!/usr/bin/env python3
"""Runs slapkit on large inputs, each to its whole result: no contract can say that memory is there, so these runs do.

usage: size.py PROGRAM

Each run is followed by its undo file on the new copy, which must give the first copy's canonical text again. The
expected texts are made here, by the rules of LDIF (RFC 2849) and of the canonical text (docs/DEFINITIONS.md).
"""
import dataclasses
import os
import pathlib
import random
import subprocess
import sys
import tempfile

sys.path.insert(0, str(pathlib.Path(__file__).resolve().parents[1]))

from harness import checks
from harness.checks import expect, same
from harness.runs import without_hints
from model.texts import NOTHING, added, block, deleted, line, renamed, undone

ROOT = "dn: dc=com\ndc: com\n\n"


# ---- the runs


@dataclasses.dataclass
class Wanted:
    """What a run of changes must give. The copy's canonical text is what its undo file must lead back to."""

    status: int
    report: str
    new: str
    undo: str
    canonical: str


def run(program, folder, copy, changes, new, undo, *options):
    words = [program, "slapmodify", "-b", "dc=com", "--data", copy, "-l", changes, "--out", new, "--undo", undo]
    ended = subprocess.run([*words, *options], cwd=folder, stdin=subprocess.DEVNULL, capture_output=True, timeout=120)
    expect(without_hints(ended.stderr, "slapmodify").decode(), "", "standard error")
    return ended.returncode, ended.stdout.decode()


def try_run(program, copy, changes, wanted, *options):
    """Makes the changes on the copy, and takes them back."""
    with tempfile.TemporaryDirectory() as name:
        folder = pathlib.Path(name)
        folder.joinpath("copy").write_text(copy)
        folder.joinpath("changes").write_text(changes)
        status, report = run(program, folder, "copy", "changes", "new", "undo", *options)
        same(report, wanted.report, "the report")
        expect(status, wanted.status, "exit status")
        same(folder.joinpath("new").read_text(), wanted.new, "the new copy")
        same(folder.joinpath("undo").read_text(), wanted.undo, "the undo file")
        status, report = run(program, folder, "new", "undo", "back", "redo")
        count = wanted.undo.count("\nchangetype: ")
        expect((status, report), (0, f"accepted {count}, refused 0\n"), "the undo run")
        same(folder.joinpath("back").read_text(), wanted.canonical, "the copy that the undo run gives")


# ---- what is tried


def an_entry_of_2000_lines(program):
    name = "cn=Large,dc=com"
    values = [f"Value {i:04}" for i in range(1998)]
    in_order = [("cn", "Large"), *(("description", value) for value in values), ("sn", "S")]
    mixed = list(in_order)
    random.Random(1).shuffle(mixed)
    expect(len(mixed), 2000, "lines")
    large = block(("dn", name), *in_order)
    wanted = Wanted(0, "accepted 1, refused 0\n", ROOT + large, undone(deleted(name)), ROOT)
    try_run(program, ROOT, added(name, *mixed), wanted)
    wanted = Wanted(0, "accepted 1, refused 0\n", ROOT, undone(added(name, *in_order)), ROOT + large)
    try_run(program, block(("dn", name), *mixed) + ROOT, deleted(name), wanted)


def modified(name, *modifications):
    """A modify of modifications, each an operation, a description and values."""
    lines = [("dn", name), ("changetype", "modify")]
    parts = "".join(line(op, of) + "".join(line(of, value) for value in values) + "-\n" for op, of, values in modifications)
    return "".join(line(*pair) for pair in lines) + parts + "\n"


def a_group_of_5500_members(program):
    """One modify adds 2,500 members to 3,000, in no order; another takes 2,000 of these away."""
    name, chance = "cn=All,dc=com", random.Random(3)

    def group(members):
        return block(("dn", name), ("cn", "All"), *(("member", member) for member in sorted(members)))

    def mixed(members):
        return chance.sample(members, len(members))

    first, come = ([f"cn=p{i:05},dc=com" for i in numbers] for numbers in (range(0, 6000, 2), range(1, 5000, 2)))
    gone = chance.sample(first, 2000)
    left = set(first) - set(gone) | set(come)
    copy = ROOT + block(("dn", name), ("cn", "All"), *(("member", member) for member in mixed(first)))
    changes = modified(name, ("add", "member", mixed(come))) + modified(name, ("delete", "member", mixed(gone)))
    undo = undone(modified(name, ("add", "member", sorted(gone))), modified(name, ("delete", "member", sorted(come))))
    wanted = Wanted(0, "accepted 2, refused 0\n", ROOT + group(left), undo, ROOT + group(first))
    try_run(program, copy, changes, wanted)


def a_modify_of_many_descriptions(program):
    """Each description of an entry is deleted by a modification of its own, in no order: 1,024 of them, and more."""
    name, head = "cn=a,dc=com", [("cn", "a")]
    for count in (1024, 1025, 3000):
        names = [f"description;lang-a{i:05}" for i in range(count)]
        pairs = [(of, f"Value {i}") for i, of in enumerate(names)]
        copy = ROOT + block(("dn", name), *head, *pairs)
        changes = modified(name, *(("delete", of, []) for of in random.Random(count).sample(names, count)))
        undo = undone(modified(name, *(("add", of, [value]) for of, value in pairs)))
        try_run(program, copy, changes, Wanted(0, "accepted 1, refused 0\n", ROOT + block(("dn", name), *head), undo, copy))


def a_name_of_64_rdns(program):
    def name(depth):
        return ",".join([*(f"ou=Unit number {i}" for i in range(depth, 1, -1)), "dc=com"])

    def entry(depth):
        return block(("dn", name(depth)), ("ou", f"Unit number {depth}"))

    parents = ROOT + "".join(entry(depth) for depth in range(2, 64))
    leaf = ("ou", "Unit number 64")
    # added, deleted, and added again
    changes = added(name(64), leaf) + deleted(name(64)) + added(name(64))
    report = "line {}: accepted\nline {}: accepted\nline {}: accepted\naccepted 3, refused 0\n"
    first = added(name(64), leaf).count("\n") + 1
    second = first + deleted(name(64)).count("\n")
    undo = undone(deleted(name(64)), added(name(64), leaf), deleted(name(64)))
    try_run(program, parents, changes, Wanted(0, report.format(1, first, second), parents + entry(64), undo, parents), "-v")
    # one RDN more is past the limit
    report = "line 1: refused, L9 N5 NameLimit\naccepted 0, refused 1\n"
    try_run(program, parents, added(name(65)), Wanted(1, report, parents, NOTHING, parents))
    # all 63 are added, and taken back from the leaf on
    changes = "".join(added(name(depth)) for depth in range(2, 65))
    undo = undone(*(deleted(name(depth)) for depth in range(64, 1, -1)))
    try_run(program, ROOT, changes, Wanted(0, "accepted 63, refused 0\n", parents + entry(64), undo, ROOT))


def refused_records_10000(program):
    name = "cn=a{:05},ou=none,dc=com"
    changes = "".join(deleted(name.format(i)) for i in range(10000))
    refused = "".join(f"line {3 * i + 1}: refused, 32 noSuchObject\n" for i in range(10000))
    report = f"{refused}accepted 0, refused 10000\n"
    try_run(program, ROOT, changes, Wanted(1, report, ROOT, NOTHING, ROOT), "-c")
    report = "line 1: refused, 32 noSuchObject\naccepted 0, refused 1\n"
    try_run(program, ROOT, changes, Wanted(1, report, ROOT, NOTHING, ROOT))


def person(number):
    """A person of the copy of 20 MB: the name, and the values in canonical order."""
    chance = random.Random(number)
    words = " ".join(f"word{chance.randrange(1000)}" for _ in range(70))
    mails = sorted(f"Person.{number:05}.{i}@example.com" for i in range(4))
    pairs = [
        ("cn", f"J\u00fcrgen {number:05}"),
        ("description", words),
        *(("mail", mail) for mail in mails),
        *(("objectClass", name) for name in ("inetOrgPerson", "top")),
        ("sn", f"Surname {number}"),
        ("telephoneNumber", f"+49 555 {number:05}"),
        ("uid", f"u{number:05}"),
    ]
    return f"uid=u{number:05},ou=people,dc=com", pairs


def a_copy_of_20_mb(program):
    people = [person(number) for number in range(26000)]
    in_order = {name: block(("dn", name), *pairs) for name, pairs in people}
    above = ROOT + block(("dn", "ou=people,dc=com"), ("ou", "people"))
    canonical = above + "".join(in_order.values())
    expect(20_000_000 <= len(canonical) <= 25_000_000, True, f"{len(canonical)} bytes of the copy")
    # the copy: entries and values out of order, children before their parents
    chance = random.Random(2)
    mixed = []
    for name, pairs in people:
        chance.shuffle(pairs)
        mixed.append(block(("dn", name), *pairs))
    chance.shuffle(mixed)
    # 500 people go, and 500 others come
    gone = chance.sample(list(in_order), 500)
    come = [f"uid=new{i:03},ou=people,dc=com" for i in range(500)]
    changes = "".join(deleted(old) + added(new, ("sn", "New")) for old, new in zip(gone, come))
    left = above + "".join(sorted([text for name, text in in_order.items() if name not in set(gone)] + [
        block(("dn", new), ("sn", "New"), ("uid", f"new{i:03}")) for i, new in enumerate(come)
    ]))
    pairs = reversed(list(zip(gone, come)))
    undo = undone(*(group for old, new in pairs for group in (deleted(new), in_order[old].replace("\n", "\nchangetype: add\n", 1))))
    report = "accepted 1000, refused 0\n"
    try_run(program, "".join(mixed) + above, changes, Wanted(0, report, left, undo, canonical))


def a_subtree_at_64_rdns(program):
    def name(top, depth):
        return ",".join([*(f"ou=Unit number {i}" for i in range(depth, 1, -1)), f"{top},dc=com"])

    def entries(top, depths):
        kind, value = top.split("=")
        above = block(("dn", f"{top},dc=com"), (kind, value))
        return above + "".join(block(("dn", name(top, depth)), ("ou", f"Unit number {depth}")) for depth in depths)

    # 64 RDNs, of which 61 may move to another place of this depth, but not one down
    copy = ROOT + entries("ou=a", range(2, 64)) + entries("ou=b", range(2, 4))
    first = renamed(name("ou=a", 3), "ou=Unit number 4", name("ou=b", 3))
    second = renamed(name("ou=a", 3), "ou=Unit number 3", name("ou=b", 3))
    third = renamed(name("ou=a", 4), "ou=Unit number 4", name("ou=b", 3))
    report = "line {}: refused, 11 adminLimitExceeded\nline {}: refused, 11 adminLimitExceeded\naccepted 1, refused 2\n"
    undo = undone(renamed(name("ou=b", 4), "ou=Unit number 4", name("ou=a", 3)))
    new = ROOT + entries("ou=a", range(2, 4)) + entries("ou=b", range(2, 64))
    wanted = Wanted(1, report.format(1, first.count("\n") + 1), new, undo, copy)
    try_run(program, copy, first + second + third, wanted, "-c")


def a_move_of_10000_entries(program):
    def unit(number, above):
        name = f"ou={number:02},{above}"
        return block(("dn", name), ("ou", f"{number:02}")), name

    def team(above):
        """A team of 100 units of 99 people."""
        text = block(("dn", f"ou=team,{above}"), ("ou", "team"))
        for number in range(100):
            head, name = unit(number, f"ou=team,{above}")
            people = (block(("dn", f"cn=p{i:02},{name}"), ("cn", f"p{i:02}"), ("sn", f"S {number}")) for i in range(99))
            text += head + "".join(people)
        return text

    west, east = (block(("dn", f"ou={side},dc=com"), ("ou", side)) for side in ("west", "east"))
    away, back = "ou=team,ou=west,dc=com", "ou=team,ou=east,dc=com"
    copy = ROOT + east + west + team("ou=west,dc=com")
    moved = ROOT + east + team("ou=east,dc=com") + west
    there, home = renamed(away, "ou=team", "ou=east,dc=com"), renamed(back, "ou=team", "ou=west,dc=com")
    try_run(program, copy, there, Wanted(0, "accepted 1, refused 0\n", moved, undone(home), copy))
    # away and back a hundred times, and once more away
    wanted = Wanted(0, "accepted 201, refused 0\n", moved, undone(*[home, there] * 100, home), copy)
    try_run(program, copy, (there + home) * 100 + there, wanted)


def a_value_of_1048576_bytes(program):
    name = "cn=a,dc=com"
    for length in (1_048_575, 1_048_576):
        entry = [("cn", "a"), ("description", "x" * length)]
        new = ROOT + block(("dn", name), *entry)
        wanted = Wanted(0, "accepted 1, refused 0\n", new, undone(deleted(name)), ROOT)
        try_run(program, ROOT, added(name, *entry), wanted)
    report = "line 1: refused, L8 ValueTooLong\naccepted 0, refused 1\n"
    try_run(program, ROOT, added(name, ("description", "x" * 1_048_577)), Wanted(1, report, ROOT, NOTHING, ROOT))


def a_line_of_2097152_bytes(program):
    """A comment, or a line whose value is past its limit: as it is, with CR LF, and folded."""
    limit = 2_097_152
    forms = (lambda line: f"{line}\n", lambda line: f"{line}\r\n", lambda line: line[:70] + "\n " + line[70:] + "\n")
    begin = "dn: cn=a,dc=com\nchangetype: add\nsn: "
    for form in forms:
        comment, value = form("#" + "x" * (limit - 1)), form("sn: " + "x" * (limit - 4))
        wanted = Wanted(0, "accepted 1, refused 0\n", ROOT + block(("dn", "cn=a,dc=com"), ("cn", "a"), ("sn", "b")), undone(deleted("cn=a,dc=com")), ROOT)
        try_run(program, ROOT, f"{comment}{begin}b\n", wanted)
        report = "line 1: refused, L8 ValueTooLong\naccepted 0, refused 1\n"
        try_run(program, ROOT, begin.replace("sn: ", "") + value, Wanted(1, report, ROOT, NOTHING, ROOT))
        for text in (comment, value):
            expect_too_long(program, text.replace("xx", "xxx", 1))


def expect_too_long(program, changes):
    with tempfile.TemporaryDirectory() as name:
        folder = pathlib.Path(name)
        folder.joinpath("copy").write_text(ROOT)
        folder.joinpath("changes").write_text(changes)
        words = [program, "slapmodify", "-b", "dc=com", "--data", "copy", "-l", "changes", "--out", "new", "--undo", "undo", "-c"]
        ended = subprocess.run(words, cwd=folder, stdin=subprocess.DEVNULL, capture_output=True, text=True, timeout=120)
        expect((ended.returncode, ended.stdout, ended.stderr), (1, "", "slapkit: changes: L10 LineTooLong\n"))
        expect(sorted(path.name for path in folder.iterdir()), ["changes", "copy"], "files")


TRIALS = [
    an_entry_of_2000_lines,
    a_group_of_5500_members,
    a_modify_of_many_descriptions,
    a_name_of_64_rdns,
    a_subtree_at_64_rdns,
    a_move_of_10000_entries,
    refused_records_10000,
    a_value_of_1048576_bytes,
    a_line_of_2097152_bytes,
    a_copy_of_20_mb,
]


def main():
    program = os.path.abspath(sys.argv[1])
    named = [(trial.__name__.replace("_", " "), lambda trial=trial: trial(program)) for trial in TRIALS]
    sys.exit(checks.run("size", named))


main()
