#!/usr/bin/env python3
"""Tells where the time of a crate's proof went.

usage: proof_times.py CRATE [COUNT]

Run it after a first `rt check --jobs 1` of the crate in this checkout, with no other work on the machine. The prover writes a file for each module
as soon as that is checked, so the time between two files is what the second one took. First come the sums by the kinds of modules: `Lts`, a function's
steps, which grow with the values that are alive at each way out of it; `Proof`, the search for answers that no proof file has; `start`, which is
what a new group of functions took to begin; and all other ones. Then the modules that took longest, each with its size.
"""
import collections
import pathlib
import sys

sys.path.insert(0, str(pathlib.Path(__file__).resolve().parents[1]))

from harness.repository import ROOT

KINDS = ("Lts", "Proof")
# A module without a proof of its own has a small file: where it took long, a new group of functions began before it.
SMALL, LONG = 60_000, 1.5


def modules(crate):
    """The modules of a crate in the order in which they were checked: what each took in seconds, the size of its file, and its name."""
    files = [(file.stat().st_mtime_ns, file) for file in (ROOT / "crates" / crate / "out/incremental").glob("antt-checked-*/*.oantt")]
    if not files:
        sys.exit(f"no check of {crate} is kept here: run `rt check --jobs 1` in its folder")
    files.sort()
    for (before, _), (after, file) in zip(files, files[1:]):
        yield (after - before) / 1e9, file.stat().st_size, file.stem


def kind_of(took, size, name):
    kind = name.rpartition(".")[2]
    return kind if kind in KINDS else "start" if took > LONG and size < SMALL else "other"


def main():
    crate, count = sys.argv[1], int(sys.argv[2]) if len(sys.argv) > 2 else 30
    found, sums = list(modules(crate)), collections.Counter()
    for took, size, name in found:
        sums[kind_of(took, size, name)] += took
    print(f"{crate}: {sum(sums.values()):.0f} seconds: " + ", ".join(f"{kind} {took:.0f}" for kind, took in sums.most_common()))
    for took, size, name in sorted(found, reverse=True)[:count]:
        print(f"{took:7.2f} s {size / 1e6:7.2f} MB  {name}")


if len(sys.argv) < 2:
    sys.exit(__doc__)
main()
