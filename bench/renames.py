#!/usr/bin/env python3
"""Measures moves of a subtree.

M moves of a subtree of N entries, to another superior and back, beside M moves of one entry in the same copy: what one move
takes, by `each_of` of modifies.py, and what the whole runs take. A move of one entry takes so little that its CPU time is lost in
that of the run: --instructions tells it.

    bench/renames.py [--program PATH] [--below N] [--moves M] [--rounds R] [--instructions]
"""

import argparse
import os
import tempfile

from bench import PROGRAM
from directory import SUFFIX as TOP
from directory import line, rename
from modifies import each_of, how_of, write

SIDES = ("west", "east")


def entry(rdn, above, lines):
    kind, value = rdn.split("=")
    return f"dn: {rdn},{above}\n{kind}: {value}\n".encode() + b"".join(line(k, v) for k, v in lines) + b"\n"


def write_sides(path, below):
    """Two places, and in the first a team with so many entries in units of 500, and one entry alone."""
    units = max(1, below // 500)
    with open(path, "wb") as f:
        f.write(b"dn: dc=example,dc=com\nobjectClass: domain\ndc: example\n\n")
        for side in SIDES:
            f.write(entry(f"ou={side}", TOP, []))
        above = f"ou={SIDES[0]},{TOP}"
        f.write(entry("cn=alone", above, [("sn", "Alone")]) + entry("ou=team", above, []))
        for unit in range(units):
            f.write(entry(f"ou=unit{unit}", f"ou=team,{above}", []))
        for i in range(below - units):
            f.write(entry(f"uid=user{i:07d}", f"ou=unit{i % units},ou=team,{above}", [("cn", f"User {i}"), ("sn", "User"), ("employeeNumber", str(i))]))


def moves_of(rdn, count):
    """Moves of an entry from one side to the other and back, two in each text."""
    west, east = (f"ou={side},{TOP}" for side in SIDES)
    return [rename(f"{rdn},{west}", rdn, east) + rename(f"{rdn},{east}", rdn, west)] * (count // 2)


def measure_moves(how, program, folder, below, moves):
    copy = os.path.join(folder, "sides.ldif")
    write_sides(copy, below)
    kinds = [moves_of("ou=team", moves), moves_of("cn=alone", moves)]
    subtree, alone = (each / 2 for each in each_of(how, program, folder, copy, kinds))
    texts = [write(folder, f"moves{number}.ldif", b"".join(records)) for number, records in enumerate(kinds)]
    rounds = [[how.measure(program, folder, copy, text) for text in texts] for _ in range(how.rounds)]
    whole = [min(costs) for costs in zip(*rounds)]
    print(
        f"{moves} moves of a subtree of {below} entries: {subtree:.4f} {how.unit} each, of one entry: {alone:.4f}; "
        f"the whole runs: {whole[0]:.0f} and {whole[1]:.0f} {how.unit}, ratio {whole[0] / whole[1]:.2f}",
        flush=True,
    )


def main():
    parser = argparse.ArgumentParser(description=__doc__, formatter_class=argparse.RawDescriptionHelpFormatter)
    parser.add_argument("--program", default=PROGRAM)
    parser.add_argument("--below", type=int, default=50000)
    parser.add_argument("--moves", type=int, default=1000)
    parser.add_argument("--rounds", type=int, default=3)
    parser.add_argument("--instructions", action="store_true")
    args = parser.parse_args()
    with tempfile.TemporaryDirectory() as folder:
        measure_moves(how_of(args), args.program, folder, args.below, args.moves)


if __name__ == "__main__":
    main()
