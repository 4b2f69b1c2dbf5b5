#!/usr/bin/env python3
"""Measures the peak memory of runs on a directory as slapcat writes one, and on deep filters: no contract can say that entries are packed and
share memory, nor that filters are packed.

usage: peak.py PROGRAM
"""
import os
import pathlib
import subprocess
import sys
import tempfile

sys.path.insert(0, str(pathlib.Path(__file__).resolve().parents[1]))

from harness import checks
from harness.repository import ROOT

sys.path.append(str(ROOT / "bench"))

from directory import SUFFIX, Directory
from hostile import deep_filters

ENTRIES = 20_000
CHANGES = 2_000

# The most that a run may take, as a multiple of the copy. Entries that share nothing take 3.5 and 3.6; with
# changes, entries that are not packed again take 3.0.
MOST = {"none": 2.85, "changes": 2.9}

# Bytes of rules whose filters have 64 levels, and the most that they may take, as a multiple. With a box for each level they take 37.
FILTERS = 16_000_000
MOST_OF_FILTERS = 8


def peak_of(folder, words):
    """The peak memory of a run, in bytes."""
    child = subprocess.Popen(words, cwd=folder, stdout=subprocess.DEVNULL)
    _, status, usage = os.wait4(child.pid, 0)
    child.returncode = os.waitstatus_to_exitcode(status)
    checks.expect(child.returncode, 0, "exit status")
    return usage.ru_maxrss * 1024


def peak_of_changes(program, folder, changes):
    """The peak memory of a run of these changes, in bytes."""
    words = [program, "slapmodify", "-b", SUFFIX, "--data", "copy", "-l", changes, "--out", f"{changes}.new", "--undo", f"{changes}.undo"]
    return peak_of(folder, words)


def try_peak(program, folder, changes):
    ratio = peak_of_changes(program, folder, changes) / folder.joinpath("copy").stat().st_size
    if ratio > MOST[changes]:
        raise checks.Wrong(f"{ratio:.2f} times the copy, more than {MOST[changes]}")
    return f"{ratio:.2f} times the copy"


def try_filters(program, folder):
    for name, parts in deep_filters(FILTERS).items():
        folder.joinpath(f"filters.{name}").write_bytes(b"".join(parts))
    words = [program, "slapacl", "-b", "cn=a,dc=com", "-f", "filters.conf", "--data", "filters.copy", "sn/read"]
    ratio = peak_of(folder, words) / folder.joinpath("filters.conf").stat().st_size
    if ratio > MOST_OF_FILTERS:
        raise checks.Wrong(f"{ratio:.2f} times the rules, more than {MOST_OF_FILTERS}")
    return f"{ratio:.2f} times the rules"


def main():
    program = os.path.abspath(sys.argv[1])
    with tempfile.TemporaryDirectory() as name:
        folder = pathlib.Path(name)
        directory = Directory(ENTRIES)
        directory.write(folder / "copy")
        directory.write_changes(folder / "changes", CHANGES, True)
        folder.joinpath("none").touch()
        named = [
            (f"{ENTRIES} entries, no change", lambda: try_peak(program, folder, "none")),
            (f"{ENTRIES} entries, {CHANGES} changes", lambda: try_peak(program, folder, "changes")),
        ]
        named.append((f"filters of 64 levels, {FILTERS} bytes", lambda: try_filters(program, folder)))
        sys.exit(checks.run("peak memory", named))


main()
