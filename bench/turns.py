#!/usr/bin/env python3
"""Compares two builds of slapkit by turns, on the same adds and deletes: what the program before a change can do, too.

The copy is a directory as slapcat writes one (directory.py), the changes are half adds and half deletes, in turn. It prints
for each program the least CPU time and peak memory of all rounds, and the ratio of the times, the second program's to the first's:
its median, with the least and the greatest. With --instructions it prints what `valgrind --tool=callgrind` counts (use
few entries then).

    bench/turns.py [--size N] [--changes M] [--rounds R] [--instructions] BEFORE AFTER
"""

import argparse
import os
import tempfile

from bench import instructions, modify, ratio
from directory import Directory, record


def write_files(folder, entries, count):
    """The paths of the copy and of the changes."""
    directory = Directory(entries)
    copy, changes = (os.path.join(folder, name) for name in ("copy.ldif", "changes.ldif"))
    directory.write(copy)
    with open(changes, "wb") as f:
        for i in range(count // 2):
            f.write(directory.add(i) + record(directory.dn(i * (directory.people // count)), [], "delete"))
    return copy, changes


def count_instructions(programs, folder, copy, changes):
    counts = [instructions(program, folder, copy, changes) for program in programs]
    print(f"instructions, in millions: {counts[0] / 1e6:.1f} and {counts[1] / 1e6:.1f}; ratio {counts[1] / counts[0]:.3f}")


def measure(programs, folder, copy, changes, rounds):
    outputs = [os.path.join(folder, name) for name in ("new.ldif", "undo.ldif")]
    runs = [[modify(program, copy, *outputs, changes) for program in programs] for _ in range(rounds)]
    for name, of_one in zip(("before", "after"), zip(*runs)):
        memory = min(memory for _, memory, _ in of_one)
        print(f"{name}: {min(cpu for cpu, _, _ in of_one):.2f} s CPU, {memory / 1e6:.0f} MB; {of_one[0][2].strip()}")
    print(f"ratio of CPU: {ratio([after[0] / before[0] for before, after in runs])}")


def main():
    parser = argparse.ArgumentParser(description=__doc__, formatter_class=argparse.RawDescriptionHelpFormatter)
    parser.add_argument("before", metavar="BEFORE")
    parser.add_argument("after", metavar="AFTER")
    parser.add_argument("--size", type=int, default=100000)
    parser.add_argument("--changes", type=int, default=10000)
    parser.add_argument("--rounds", type=int, default=5)
    parser.add_argument("--instructions", action="store_true")
    args = parser.parse_args()
    programs = [os.path.abspath(path) for path in (args.before, args.after)]
    with tempfile.TemporaryDirectory() as folder:
        copy, changes = write_files(folder, args.size, args.changes)
        if args.instructions:
            count_instructions(programs, folder, copy, changes)
        else:
            measure(programs, folder, copy, changes, args.rounds)


if __name__ == "__main__":
    main()
