#!/usr/bin/env python3
"""Runs every script that tries the program from outside, and those that read the sources.

usage: trial.py PROGRAM

What a script leaves out, since this machine can't run it, it tells in a line `NAME: not run: WHAT`. The last line has all of these.
"""
import pathlib
import re
import subprocess
import sys

TESTS = pathlib.Path(__file__).resolve().parents[1]
SCRIPTS = (
    "trial/program.py",
    "trial/hints.py",
    "trial/records.py",
    "trial/rows.py",
    "trial/refusals.py",
    "trial/syncs.py",
    "trial/crashes.py",
    "trial/power.py",
    "trial/size.py",
    "trial/peak.py",
    "trial/operations.py",
    "trial/cut.py",
    "trial/forms.py",
    "trial/questions.py",
    "trial/suites.py",
    "trial/conf.py",
    "trial/terminal.py",
    "prover/memory_answers.py",
    "prover/contracts.py",
    "prover/frequent_types.py",
    "prover/refusals.py",
    "trial/workloads.py",
    "trial/manual.py",
    "trial/completions.py",
    "trial/readme.py",
)


def ran(script):
    """Runs a script, and returns its exit status and what it told that it left out."""
    left_out = []
    with subprocess.Popen([sys.executable, TESTS / script, *sys.argv[1:]], stdout=subprocess.PIPE, text=True, errors="replace") as running:
        for line in running.stdout:
            print(line, end="", flush=True)
            left_out += re.findall(r"^(\w+): not run: (.*)$", line)
    return running.returncode, [f"{name}: {what}" for name, what in left_out]


def main():
    failed, not_run = [], []
    for script in SCRIPTS:
        print(f"== tests/{script}", flush=True)
        status, left_out = ran(script)
        not_run += left_out
        if status:
            failed.append(f"tests/{script}")
    ended = f"FAILED: {' '.join(failed)}" if failed else f"{len(SCRIPTS)} scripts passed"
    print(f"trial: {ended}; not run: {'; '.join(not_run) or 'nothing'}")
    sys.exit(1 if failed else 0)


main()
