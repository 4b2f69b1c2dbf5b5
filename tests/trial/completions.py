#!/usr/bin/env python3
"""Presses TAB: the completions of share/completions in the shells that are here, bash always.

usage: completions.py PROGRAM

Each shell runs on a terminal, in a folder with two files, one of which has a space in its name. In place of the program there is a function that
prints its arguments, each in brackets. PROGRAM is not run.
"""
import os
import pathlib
import pty
import re
import select
import shutil
import signal
import sys
import tempfile
import time

sys.path.insert(0, str(pathlib.Path(__file__).resolve().parents[1]))

from harness import checks
from harness.checks import Wrong, expect
from harness.repository import ROOT

COMPLETIONS = ROOT / "share/completions"
FILES = ["company copy.ldif", "slapd.conf"]
# What each shell reads first: the completions, and the function in the program's place.
SHELLS = {
    "bash": (["bash", "--norc", "--noprofile", "-i"], f". '{COMPLETIONS}/slapkit.bash'; slapkit() {{ printf '[%s]' \"$@\"; echo .; }}"),
    "zsh": (
        ["zsh", "-f", "-i"],
        f"fpath=('{COMPLETIONS}' $fpath); autoload -U compinit; compinit -u -D; slapkit() {{ printf '[%s]' \"$@\"; echo .; }}",
    ),
    "fish": (["fish", "--no-config", "-i"], f"source '{COMPLETIONS}/slapkit.fish'; function slapkit; printf '[%s]' $argv; echo .; end"),
}
# What is typed, up to TAB, and the arguments that it comes to.
LINES = [
    ("slapkit slapmo", ["slapmodify"]),
    ("slapkit help slapmo", ["help", "slapmodify"]),
    ("slapkit help slapc", ["help", "slapconf"]),
    ("slapkit slapmodify --und", ["slapmodify", "--undo"]),
    ("slapkit slapacl --quest", ["slapacl", "--questions"]),
    ("slapkit slapconf --conf", ["slapconf", "--config"]),
    ("slapkit slapmodify --data comp", ["slapmodify", "--data", "company copy.ldif"]),
    ("slapkit slapacl -f sla", ["slapacl", "-f", "slapd.conf"]),
]
SECONDS = 60


class Terminal:
    """A shell on a terminal of its own."""

    def __init__(self, words, folder):
        environment = {"PATH": os.environ["PATH"], "HOME": folder, "TERM": "dumb", "LC_ALL": "C.UTF-8"}
        self.shell, self.ours = pty.fork()
        if self.shell == 0:
            os.chdir(folder)
            os.execvpe(words[0], words, environment)
        self.told = ""

    def type(self, text):
        os.write(self.ours, text.encode())

    def wait_for(self, pattern):
        """What the shell has printed up to this pattern, which is taken away."""
        until = time.monotonic() + SECONDS
        while not (found := re.search(pattern, self.told)):
            if not select.select([self.ours], [], [], max(0, until - time.monotonic()))[0]:
                raise Wrong(f"the shell did not print {pattern}, but {self.told!r}")
            self.told += os.read(self.ours, 4096).decode(errors="replace")
        self.told = self.told[found.end() :]
        return found

    def close(self):
        os.kill(self.shell, signal.SIGKILL)
        os.waitpid(self.shell, 0)
        os.close(self.ours)


def completes(shell):
    words, begin = SHELLS[shell]
    with tempfile.TemporaryDirectory() as folder:
        for name in FILES:
            (pathlib.Path(folder) / name).write_text("")
        terminal = Terminal(words, folder)
        try:
            terminal.type(f"{begin}; echo ready''.\n")
            terminal.wait_for(r"ready\.")
            for typed, arguments in LINES:
                terminal.type(f"{typed}\t\n")
                found = terminal.wait_for(r"((?:\[[^\[\]\r\n]*\])+)\.")
                expect(re.findall(r"\[([^\]]*)\]", found[1]), arguments, f"{shell}: {typed}<TAB>")
        finally:
            terminal.close()


SHELLS_HERE = [shell for shell in SHELLS if shell == "bash" or shutil.which(shell)]

for missing in [shell for shell in SHELLS if shell not in SHELLS_HERE]:
    print(f"completions: not run: {missing}, which isn't installed here", flush=True)
sys.exit(checks.run("completions", [(f"{shell} completes", lambda shell=shell: completes(shell)) for shell in SHELLS_HERE]))
