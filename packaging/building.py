#!/usr/bin/env python3
"""Builds the program by the toolchain's rt, and tells on standard error what is being done and for how long all has taken.

usage: building.py prove           proves each crate, and builds crates/slapkit/out/slapkit
       building.py try WORD..      runs the program on the words by a build that is not proved; paths among them must be absolute

What rt says is told where it fails. The exit status is that of rt.
"""
import pathlib
import re
import shutil
import subprocess
import sys
import threading
import time

ROOT = pathlib.Path(__file__).resolve().parent.parent
PROGRAM = ROOT / "crates/slapkit"


class Progress:
    """What is being done, told with the time so far: once it begins, and then again and again."""

    def __init__(self, seconds_between):
        self.start = time.monotonic()
        self.seconds_between = seconds_between
        self.what = ""
        threading.Thread(target=self.repeat, daemon=True).start()

    def tell(self, what):
        self.what = what
        seconds = int(time.monotonic() - self.start)
        print(f"[{seconds // 3600}:{seconds // 60 % 60:02}:{seconds % 60:02}] {what}", file=sys.stderr, flush=True)

    def repeat(self):
        while True:
            time.sleep(self.seconds_between)
            self.tell(self.what)


def crates_in_order(name):
    """The crates of the repository that the crate stands on, and itself, each after those that it stands on: so rt proves them."""
    lines = re.findall(r"^(\w+)[^#:\n]*:(.*)", (ROOT / "crates.txt").read_text(), re.M)
    below = {crate: libraries.split() for crate, libraries in lines}
    found = []

    def visit(crate):
        for library in below[crate]:
            if library in below:
                visit(library)
        if crate not in found:
            found.append(crate)

    visit(name)
    return found


def prove():
    crates = crates_in_order("slapkit")
    progress = Progress(seconds_between=300)
    progress.tell(f"reading the sources of {len(crates)} crates, before any proof")
    said = []
    outputs = {"stdout": subprocess.DEVNULL, "stderr": subprocess.PIPE, "text": True, "errors": "replace"}
    with subprocess.Popen(["rt", "run", "--", "--help"], cwd=PROGRAM, **outputs) as rt:
        for line in rt.stderr:
            said.append(line)
            begins = re.match(r"rt: chose --jobs \d+ for (\w+)$", line)
            if begins:
                progress.tell(f"proving {begins[1]}, crate {crates.index(begins[1]) + 1} of {len(crates)}")
            elif line.startswith("rt: waiting"):
                progress.tell(line.strip())
    if rt.returncode:
        sys.stderr.writelines(said)
    else:
        progress.tell(f"all {len(crates)} crates are proved, and the program is built")
    return rt.returncode


def try_unproved(words):
    progress = Progress(seconds_between=15)
    progress.tell("building the program without any proof, and running it")
    ran = subprocess.run(["rt", "try", "--", *words], cwd=PROGRAM, capture_output=True, text=True, errors="replace")
    sys.stdout.write(ran.stdout)
    if ran.returncode:
        sys.stderr.write(ran.stderr)
    else:
        progress.tell("built and run")
    return ran.returncode


def main():
    verb, words = sys.argv[1:2], sys.argv[2:]
    if not shutil.which("rt"):
        print("building.py: the toolchain's command rt is not on the path", file=sys.stderr)
        return 127
    if verb == ["prove"] and not words:
        return prove()
    if verb == ["try"]:
        return try_unproved(words)
    print(__doc__, file=sys.stderr)
    return 2


if __name__ == "__main__":
    try:
        sys.exit(main())
    except KeyboardInterrupt:
        sys.exit(130)
