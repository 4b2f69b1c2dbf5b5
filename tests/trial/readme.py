#!/usr/bin/env python3
"""Runs the commands of the README's sessions, and compares what they print with what stands there.

usage: readme.py PROGRAM
"""
import os
import pathlib
import re
import shutil
import subprocess
import sys
import tempfile

sys.path.insert(0, str(pathlib.Path(__file__).resolve().parents[1]))

from harness import checks
from harness.checks import Wrong, expect
from harness.repository import ROOT


def sessions():
    """The sessions of the README: of each the commands, with what each prints."""
    blocks = re.findall(r"^```console\n(.*?)^```$", (ROOT / "README.md").read_text(), re.M | re.S)
    return [re.findall(r"^\$ ((?:.*\\\n)*.*)\n((?:(?!\$ ).*\n)*)", block, re.M) for block in blocks]


def session_prints_what_it_says(program, commands):
    """The number of its commands. They run in a folder that has the examples, with the program on the path."""
    with tempfile.TemporaryDirectory() as folder:
        work = pathlib.Path(folder)
        shutil.copytree(ROOT / "examples", work / "examples")
        (work / "bin").mkdir()
        (work / "bin/slapkit").symlink_to(pathlib.Path(program).resolve())
        path = f"{work / 'bin'}:{os.environ['PATH']}"
        for command, wanted in commands:
            ran = subprocess.run(["sh", "-c", command], cwd=work, env={**os.environ, "PATH": path}, capture_output=True, text=True, timeout=60)
            expect((ran.stdout.rstrip("\n"), ran.stderr, ran.returncode), (wanted.rstrip("\n"), "", 0), command)
    return f"{len(commands)} commands"


def main():
    found = sessions()
    if not found or not all(found):
        raise Wrong("the README has no session, or one without commands")
    pairs = [(f"session {n}", lambda commands=commands: session_prints_what_it_says(sys.argv[1], commands)) for n, commands in enumerate(found, 1)]
    sys.exit(checks.run("readme", pairs))


main()
