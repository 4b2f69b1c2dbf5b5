#!/usr/bin/env python3
"""Runs slapkit on random adds, deletes, modifies and renames, and compares each run with a model of them (model/directory.py).

Half of the runs are under the attribute types of a random configuration, as model/definitions.py reads it.

usage: operations.py PROGRAM [SEED]

The model gives the report, the new copy and the undo file, which must come out byte for byte. The undo file, run on the
new copy, must give the copy again and the model's undo file of that run, and this one the new copy again.

After shorter runs, with refused records between the others, the first groups of the undo file, of each number of groups, must give the copy before as
many accepted records, and the model's undo file of that run. This one must give the new copy again, its own undo file the copy before, and the first
groups of each what the model says.
"""
import pathlib
import random
import subprocess
import sys
import tempfile

sys.path.insert(0, str(pathlib.Path(__file__).resolve().parents[1]))

from harness import checks
from harness.checks import expect, same
from harness.runs import run_changes
from inputs.random_changes import Planned, freely_printed, random_change, random_config, random_directory, under_types

RUNS = 12
CHANGES = 200
# of runs that go back to each point
RUNS_BACK = 6
CHANGES_BACK = 40


def taken_back(program, place, files, planned, directory, last, *options):
    """The run that takes the last accepted records of a run back, so many, from files to others: as the program makes it, and the model on a directory."""
    copy, changes, new, undo = files
    back = planned.back(directory, last)
    place.joinpath(new).unlink(missing_ok=True)
    place.joinpath(undo).unlink(missing_ok=True)
    what = f"the run of {changes} on {copy}, {' '.join(options)}"
    expect(run_changes(program, place, copy, changes, new, undo, *options), back.answer(), what)
    same(place.joinpath(new).read_text(), directory.text(), f"the new copy, {what}")
    same(place.joinpath(undo).read_text(), back.undo(), f"the undo file, {what}")
    return back


def back_and_forth(program, place, directory, planned):
    """The undo run, and the run that takes it back again."""
    back = taken_back(program, place, ("new", "undo", "back", "redo"), planned, directory, len(planned.groups), "-c")
    taken_back(program, place, ("back", "redo", "forth", "undo2"), back, directory, len(back.groups))
    same(place.joinpath("forth").read_text(), place.joinpath("new").read_text(), "the new copy again")


def back_to_each_point(program, rng, place, directory, planned):
    """The runs back to each point before an accepted record, in both modes; from there forth again, and once more back. Of the undo file of each of these
    some groups are run, too."""
    new = directory.text()
    for last in range(len(planned.groups) + 1):
        there = directory.copy()
        for options in ([], ["-c"]):
            point = directory.copy()
            back = taken_back(program, place, ("new", "undo", "back", "redo"), planned, point, last, "--last", str(last), *options)
        some = rng.randrange(len(back.groups) + 1)
        taken_back(program, place, ("back", "redo", "some", "other"), back, point.copy(), some, "--last", str(some))
        before = point.text()
        forth = taken_back(program, place, ("back", "redo", "forth", "undo2"), back, point, len(back.groups))
        same(point.text(), new, "the model's new copy again")
        some = rng.randrange(len(forth.groups) + 1)
        taken_back(program, place, ("forth", "undo2", "some", "other"), forth, point.copy(), some, "--last", str(some))
        taken_back(program, place, ("forth", "undo2", "back2", "redo2"), forth, point, len(forth.groups))
        same(point.text(), before, "the model's copy before again")
        same(there.text(), new, "the model's new copy, which is not changed")
    fault = f"slapkit: cannot go back {last + 1}, only {last} groups\n"
    words = [program, "slapmodify", "-b", "dc=com", "--data", "new", "-l", "undo", "-u", "--last", str(last + 1)]
    words += ["-f", "conf"] if place.joinpath("conf").exists() else []
    ended = subprocess.run(words, cwd=place, stdin=subprocess.DEVNULL, capture_output=True, timeout=60)
    expect((ended.returncode, ended.stdout.decode(), ended.stderr.decode()), (1, "", fault), "one record more")


def a_run(program, seed, count=CHANGES, goes_to_each_point=False):
    """A run of so many changes, in half of the cases under a random configuration."""
    rng = random.Random(f"{seed} back" if goes_to_each_point else seed)
    if seed % 2:
        return run_beside_model(program, rng, seed, None, count, goes_to_each_point)
    config, spellings = random_config(random.Random(f"{seed} types"))
    with under_types(config, spellings):
        return run_beside_model(program, rng, seed, config, count, goes_to_each_point)


def run_beside_model(program, rng, seed, config, count, goes_to_each_point):
    # in each third run names are so long that a rename can make them too long, but not where many runs follow
    directory = random_directory(rng, 55 if seed % 3 == 0 and not goes_to_each_point else 0)
    copy = directory.text()
    planned = Planned()
    printed = freely_printed(rng)
    for _ in range(count):
        planned.make(directory, random_change(rng, directory), printed)
    with tempfile.TemporaryDirectory() as folder:
        place = pathlib.Path(folder)
        place.joinpath("copy").write_text(copy)
        if config:
            place.joinpath("conf").write_text(config)
        place.joinpath("changes").write_text(planned.text)
        expect(run_changes(program, folder, "copy", "changes", "new", "undo", "-c"), planned.answer(), "the run")
        same(place.joinpath("new").read_text(), directory.text(), "the new copy")
        same(place.joinpath("undo").read_text(), planned.undo(), "the undo file")
        if goes_to_each_point:
            back_to_each_point(program, rng, place, directory, planned)
        else:
            back_and_forth(program, place, directory, planned)
    return f"{len(planned.groups)} accepted, refused with {' '.join(map(str, sorted(set(planned.refused))))}{', with a configuration' if config else ''}"


def main():
    program = str(pathlib.Path(sys.argv[1]).resolve())
    first = int(sys.argv[2]) if len(sys.argv) > 2 else 1
    runs = [(f"random operations {seed}", lambda seed=seed: a_run(program, seed)) for seed in range(first, first + RUNS)]
    runs += [(f"back to each point {seed}", lambda seed=seed: a_run(program, seed, CHANGES_BACK, True)) for seed in range(first, first + RUNS_BACK)]
    sys.exit(checks.run("operations", runs))


main()
