#!/usr/bin/env python3
"""Runs the wrong bodies that the prover accepts: the script that each names must find it.

usage: let_through.py [CRATE[/PATTERN] ..]

It is outside the gate. Each edit of let-through/, or each of those that are named, is planted in a copy of the crates, and the program is built of
it without any proof. Its line `found by:` names a script of the trial, which must pass with the program as it stands, and fail with this one. Those that
memory_answers.py finds are left to it: it plants them itself.

A program takes a minute or two of a processor.
"""
import pathlib
import re
import subprocess
import sys
import tempfile

sys.path.insert(0, str(pathlib.Path(__file__).resolve().parents[1]))

from harness import checks
from harness.checks import Wrong
from harness.repository import ROOT
from prover.copies import copy_of_crates
from prover.edits import changes_of, let_through, plant, unplant
from prover.unproved import build

READS_SOURCES = "tests/prover/memory_answers.py"


def is_wanted(crate, edit, wanted):
    return not wanted or any(re.fullmatch(name.replace("*", ".*"), text) for name in wanted for text in (crate, f"{crate}/{edit.stem}"))


def ends_of(command, program):
    """What a script comes to with a program: its exit status, and the checks that failed."""
    script, *words = command.split()
    ran = subprocess.run([sys.executable, ROOT / script, program, *words], stdin=subprocess.DEVNULL, capture_output=True, text=True, errors="replace")
    return ran.returncode, re.findall(r"^(.*?): FAILED, ", ran.stdout, re.M)


class Trial:
    """Programs of a copy of the crates."""

    def __init__(self, folder):
        self.copy, self.program = copy_of_crates(folder), pathlib.Path(folder, "slapkit")

    def build(self):
        build(self.copy / "crates/slapkit", self.program)

    def check_as_it_stands(self, commands):
        self.build()
        for command in commands:
            status, failed = ends_of(command, self.program)
            if status:
                raise Wrong(f"{command} ends with {status} as it stands: {'; '.join(failed)}")

    def check_found(self, crate, edit, command):
        changes, fault = changes_of(edit, crate)
        if fault:
            raise Wrong(fault)
        plant(self.copy, changes)
        try:
            self.build()
        finally:
            unplant(self.copy, changes)
        status, failed = ends_of(command, self.program)
        if status != 1 or not failed:
            raise Wrong(f"{command} ends with {status}, and no check of it failed")
        return f"{command}: {len(failed)} failed, the first is {failed[0]!r}"


def main():
    edits = [it for it in let_through() if is_wanted(*it[:2], sys.argv[1:]) and it[2] != READS_SOURCES]
    if not edits:
        sys.exit("no such edit")
    with tempfile.TemporaryDirectory() as folder:
        trial = Trial(folder)
        commands = sorted({command for _, _, command in edits})
        named = [("as it stands", lambda: trial.check_as_it_stands(commands))]
        named += [(f"{it[0]}/{it[1].stem}", lambda it=it: trial.check_found(*it)) for it in edits]
        return checks.run("let through", named)


sys.exit(main())
