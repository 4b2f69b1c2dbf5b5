#!/usr/bin/env python3
"""Measures what one change of each kind takes.

First a group of N members for each N, and M modifies that each add or delete one member. Then a directory as slapcat writes one
(directory.py), and M records of each kind: adds, deletes and renames of people, modifies of people, modifies of groups. What one
record takes is what a run of all records takes more than a run of each tenth of them, by their number: so what a run costs
whatever its changes is not counted. It is CPU time, the least of all rounds, in which the runs take turns; or, with
--instructions, what `valgrind --tool=callgrind` counts in one run, which is the same in each (use few entries then).

    bench/modifies.py [--program PATH] [--members N]... [--size N] [--changes M] [--rounds R] [--instructions]
"""

import argparse
import os
import tempfile

from bench import PROGRAM, instructions, modify
from directory import GROUPS, SUFFIX, Directory, group, member, operational, record
from directory import modify as modify_text


def instructions_of(program, folder, copy, changes):
    """How many instructions a run takes, in thousands."""
    return instructions(program, folder, copy, changes) / 1000


def milliseconds_of(program, folder, copy, changes):
    paths = [os.path.join(folder, name) for name in ("new.ldif", "undo.ldif")]
    return modify(program, copy, *paths, changes)[0] * 1000


def each_of(how, program, folder, copy, kinds):
    """What one record takes, of each of these kinds of records, each a list of their texts."""
    runs = []
    for number, records in enumerate(kinds):
        for name, some in (("few", records[::10]), ("all", records)):
            runs.append((write(folder, f"{name}{number}.ldif", b"".join(some)), len(some)))
    rounds = [[how.measure(program, folder, copy, path) for path, _ in runs] for _ in range(how.rounds)]
    costs = [min(costs) for costs in zip(*rounds)]
    pairs = [(costs[i + 1] - costs[i], runs[i + 1][1] - runs[i][1]) for i in range(0, len(runs), 2)]
    return [cost / max(1, count) for cost, count in pairs]


def write(folder, name, data):
    path = os.path.join(folder, name)
    with open(path, "wb") as f:
        f.write(data)
    return path


def measure_group(how, program, folder, members, changes):
    """Half of the modifies add a member, half delete one, spread over the group."""
    heads = [
        (SUFFIX, [("objectClass", "domain"), ("dc", "example")], "domain"),
        (GROUPS, [("objectClass", "organizationalUnit"), ("ou", "groups")], "organizationalUnit"),
        (f"cn=all,{GROUPS}", group("all", map(member, range(members))), "groupOfNames"),
    ]
    copy = write(folder, "group.ldif", b"".join(record(dn, lines + operational(n, of_class)) for n, (dn, lines, of_class) in enumerate(heads)))
    step = max(1, members // max(1, changes // 2))
    pairs = range(changes // 2)
    records = [change_of_member("add", members + k) + change_of_member("delete", k * step) for k in pairs]
    [each] = each_of(how, program, folder, copy, [records])
    print(f"a group of {members} members, {2 * len(pairs)} modifies of one member: {each / 2:.3f} {how.unit} each", flush=True)


def change_of_member(op, i):
    return modify_text(f"cn=all,{GROUPS}", (op, "member", member(i)))


def measure_mixed(how, program, folder, entries, changes):
    directory = Directory(entries)
    copy = os.path.join(folder, "people.ldif")
    directory.write(copy)
    step = max(1, directory.people // max(1, changes))
    records = range(0, min(directory.people, changes * step), step)
    kinds = {
        "adds": [directory.add(k) for k in records],
        "deletes": [record(directory.dn(k), [], "delete") for k in records],
        "modifies of people": [directory.modify_person(k, k // step % 4) for k in records],
        "modifies of groups": [directory.modify_group(k % directory.groups, k) for k in records],
        "renames": [directory.rename_person(k, k // step % 2 == 0) for k in records],
    }
    for what, each in zip(kinds, each_of(how, program, folder, copy, kinds.values())):
        print(f"{entries} entries, {len(records)} {what}: {each:.3f} {how.unit} each", flush=True)


def how_of(args):
    """How runs are measured: by CPU time in rounds, or by instructions."""
    if args.instructions:
        return argparse.Namespace(measure=instructions_of, unit="thousand instructions", rounds=1)
    return argparse.Namespace(measure=milliseconds_of, unit="ms CPU", rounds=args.rounds)


def main():
    parser = argparse.ArgumentParser(description=__doc__, formatter_class=argparse.RawDescriptionHelpFormatter)
    parser.add_argument("--program", default=PROGRAM)
    parser.add_argument("--members", type=int, action="append")
    parser.add_argument("--size", type=int, default=100000)
    parser.add_argument("--changes", type=int, default=10000)
    parser.add_argument("--rounds", type=int, default=3)
    parser.add_argument("--instructions", action="store_true")
    args = parser.parse_args()
    how = how_of(args)
    with tempfile.TemporaryDirectory() as folder:
        for members in args.members or [10000, 100000]:
            measure_group(how, args.program, folder, members, args.changes)
        measure_mixed(how, args.program, folder, args.size, args.changes)


if __name__ == "__main__":
    main()
