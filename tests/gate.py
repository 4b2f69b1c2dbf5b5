#!/usr/bin/env python3
"""The gate: `rt ci`, and then the wrong bodies of must-fail/, beside the trial of the program that it has built.

usage: gate.py [--anew]

With --anew `rt ci` proves all, also what this machine keeps of earlier runs: only such a run proves from nothing. The line `gate: record` has the commit, the
toolchain, and how many of the proofs were made in this run.

The last line is that of `rt ci`, with the wrong bodies that were refused by a clause counted among what passed. It is held back until all has passed; where
something fails, the last line tells so. All wrong bodies of must-fail/ must have been tried, and all controls: WRONG_BODIES and CONTROLS say how many.

The line before the last has the time that all took, and what was left of memory and disk; the one before that what this costs, in a unit that doesn't hang on
the machine: how often the toolchain's own example could have been proved, built and run in that time (`rt selftest`, at the start, once all is proved, and at
the end). Then, going back, come how fast the machine was meanwhile, what the proof of each crate took, and that of its tests, by looks at the processes every
two seconds, and the last lines of the trial and of the wrong bodies. Where something failed, the ends of what was said of it come once more before these, since
of a long log often only the end is kept.

Each proof has one processor. Where some are idle, `rt ci` would give one proof several, which ends sooner and takes half as much
processor time again. RT_JOBS says otherwise. `rt ci` tries wrong bodies too, those of crates/*/must-fail/, each by a check of the whole crate, after it
has proved that crate a second time: a third of the gate's time. So there are none there: tests/prover/bugs.py has each tried by a check of the function
that must be refused, over the libraries that `rt ci` has just built. The trial has work for one processor at most times, so it runs meanwhile; what it says is
printed after it.
"""
import collections
import contextlib
import os
import pathlib
import re
import resource
import shutil
import subprocess
import sys
import tempfile
import threading
import time

from harness.repository import ROOT
from prover.machine import proofs_at_once

# How many lines of what failed are printed again.
LINES = 12

# How many wrong bodies must-fail/ has, and how many controls stand beside them: a folder or a file that is missing is a failure.
WRONG_BODIES, CONTROLS = 44, 18


def is_failure(line):
    """Whether `rt` tells with this line that something failed."""
    return line.startswith("rt: ") and re.search(r"NOT PROVED|NOT REFUSED|BAD EDIT|FAILED|stopped by signal|no verdict", line)


def forget_libraries():
    """Removes the libraries that earlier runs left here. `rt ci` would put them back in the place of those that it builds, and wrong bodies are tried over these."""
    for kept in ("crates/*/out/rlib", ".git/rt-aside/*/rlib"):
        for library in ROOT.glob(kept):
            shutil.rmtree(library)


class ProofTimes(threading.Thread):
    """Watches the provers that work on the crates of this checkout, and adds up what each crate takes of the processors."""

    SECONDS = 2
    TICKS = os.sysconf("SC_CLK_TCK")

    def __init__(self):
        super().__init__(daemon=True)
        self.taken, self.is_over = {}, threading.Event()

    def run(self):
        while not self.is_over.wait(self.SECONDS):
            for process in pathlib.Path("/proc").glob("[0-9]*"):
                # most are other programs, and some have ended meanwhile
                with contextlib.suppress(OSError, ValueError, IndexError):
                    words = (process / "cmdline").read_text().split("\0")
                    crate = words[words.index("--crate-name") + 1]
                    if (process / "cwd").resolve() == ROOT / "crates" / crate:
                        stat = (process / "stat").read_text().rpartition(")")[2].split()
                        self.taken[process.name, stat[19], crate, "--test" in words] = (int(stat[11]) + int(stat[12])) / self.TICKS

    def __str__(self):
        sums = collections.Counter()
        for (_, _, crate, is_of_tests), seconds in self.taken.items():
            sums[f"the tests of {crate}" if is_of_tests else crate] += seconds
        return ", ".join(f"{name} {seconds / 60:.1f}" for name, seconds in sums.items()) or "none was made"


class Speed(threading.Thread):
    """Watches how fast the machine is: what a fixed loop takes of a processor, tried every half minute.

    Other work on the machine, on its host, or on the other half of a core makes the loop longer, and the proofs too, though not by the same factor. So two
    runs of the gate are compared where it took about the same.
    """

    SECONDS = 30
    TURNS = 600_000

    def __init__(self):
        super().__init__(daemon=True)
        self.taken, self.is_over = [], threading.Event()

    def run(self):
        while True:
            before, number = time.thread_time(), 0
            for turn in range(self.TURNS):
                number = (number * 31 + turn) & 0xFFFFFFFF
            self.taken.append(time.thread_time() - before)
            if self.is_over.wait(self.SECONDS):
                return

    def __str__(self):
        mean = sum(self.taken) / len(self.taken)
        return f"a fixed loop took {min(self.taken):.2f} to {max(self.taken):.2f} seconds of a processor, {mean:.2f} on the mean"


def processor_time():
    """The seconds of all processors that the children took which have ended."""
    used = resource.getrusage(resource.RUSAGE_CHILDREN)
    return used.ru_utime + used.ru_stime


class Unit:
    """What the toolchain's own example takes of the processors: the same proof, build and run each time."""

    def __init__(self):
        self.taken = []

    def measure(self):
        """Has it proved once more, while nothing else of the gate runs. A try that fails is not counted."""
        before = processor_time()
        ran = subprocess.run(["rt", "selftest"], stdin=subprocess.DEVNULL, stdout=subprocess.DEVNULL, stderr=subprocess.DEVNULL)
        if ran.returncode == 0:
            self.taken.append(processor_time() - before)

    def cost(self, seconds):
        """How often it goes into these seconds."""
        if not self.taken:
            return "is not known, as rt selftest failed"
        tries = ", ".join(f"{taken:.1f}" for taken in self.taken)
        return f"{seconds * len(self.taken) / sum(self.taken):.1f} times rt selftest, which took {tries} seconds"


class Record:
    """What the record of a release has of a run: the commit, the toolchain, and which proofs were made in it."""

    OK = "rt: ok; "

    def __init__(self):
        self.proofs = "rt ci did not end well"

    def look_at(self, line):
        """Keeps the line in which `rt ci` tells this."""
        if line.startswith(self.OK):
            self.proofs = line.removeprefix(self.OK).strip()

    def __str__(self):
        changed = ", and what is not committed" if said_by("git", "status", "--porcelain") else ""
        return f"{said_by('git', 'rev-parse', 'HEAD')}{changed}; {said_by('rt', 'version')}; {self.proofs}"


def said_by(*words):
    """What a command prints here: nothing where it isn't installed, or fails."""
    with contextlib.suppress(OSError):
        return subprocess.run(words, cwd=ROOT, capture_output=True, text=True).stdout.strip()
    return ""


def prove(words, record):
    """Runs `rt ci`, and returns its exit status, its last line, which is not printed yet, and the ends of what failed."""
    last, ends, failures = "", collections.deque(maxlen=LINES), []
    forget_libraries()
    jobs = {**os.environ, "RT_JOBS": str(proofs_at_once())}
    with subprocess.Popen(["rt", "ci", *words], cwd=ROOT, env=jobs, stdout=subprocess.PIPE, text=True, errors="replace") as running:
        for line in running.stdout:
            print(last, end="", flush=True)
            last = line
            record.look_at(line)
            if line.startswith("== "):
                ends.clear()
            ends.append(line if len(line) <= 400 else line[:400] + " ..\n")
            if is_failure(line):
                failures.append("".join(ends))
                ends.clear()
    return running.returncode, last, failures


def try_wrong_bodies():
    """Has the prover try the wrong bodies of must-fail/ and their controls. Returns whether all is as wanted, how many were refused, and the last line."""
    last = ""
    print("== wrong bodies (must-fail/, controls/)", flush=True)
    with subprocess.Popen([sys.executable, ROOT / "tests/prover/bugs.py", "--listed", "--after-ci"], stdout=subprocess.PIPE, text=True, errors="replace") as running:
        for line in running.stdout:
            print(line, end="", flush=True)
            last = line.rstrip("\n")
    counted = re.match(r"bugs: (\d+) wrong bodies: (\d+) refused by a clause .*; (\d+) controls: ", last)
    tried, refused, controls = map(int, counted.groups()) if counted else (0, 0, 0)
    are_all = (tried, refused, controls) == (WRONG_BODIES, WRONG_BODIES, CONTROLS)
    wanted = "" if are_all else f" (wanted: {WRONG_BODIES} wrong bodies, each refused by a clause, and {CONTROLS} controls)"
    return running.returncode == 0 and are_all, refused, last + wanted


def start_trial(said):
    """Starts the trial of the program that `rt ci` has built. What it says goes into this file."""
    program = ROOT / "crates/slapkit/out/slapkit"
    return subprocess.Popen([sys.executable, ROOT / "tests/trial/trial.py", program], stdin=subprocess.DEVNULL, stdout=said, stderr=subprocess.STDOUT)


def try_all():
    """Tries the wrong bodies and the program at the same time. Returns how many wrong bodies were refused, what failed, and how both ended."""
    with tempfile.TemporaryFile("w+", errors="replace") as said:
        with start_trial(said) as trial:
            is_as_wanted, refused, told = try_wrong_bodies()
        said.seek(0)
        lines = said.read().splitlines()
    print("\n".join(lines), flush=True)
    failed = ["must-fail/"] * (not is_as_wanted) + ["tests/trial/trial.py"] * (trial.returncode != 0)
    return refused, failed, [told, lines[-1] if lines else "trial: no word"]


def passed_in(line):
    """How many crates passed, by the last line of `rt ci`."""
    count = re.match(r"\d+(?= passed)", line)
    return int(count[0]) if count else 0


def minutes(seconds):
    return f"{seconds / 60:.1f} minutes"


def tell_time(begin, seconds):
    """Prints how long the gate took, on the wall and of all processors together, and what is left of memory and disk."""
    memory = os.sysconf("SC_AVPHYS_PAGES") * os.sysconf("SC_PAGE_SIZE")
    took = f"{minutes(time.monotonic() - begin)}, {minutes(seconds)} of processor time"
    print(f"gate: {took}; free: {memory >> 20} MiB of memory, {shutil.disk_usage(ROOT).free >> 20} MiB of disk", flush=True)


def main():
    begin, times, speed = time.monotonic(), ProofTimes(), Speed()
    unit = Unit()
    unit.measure()
    times.start()
    speed.start()
    record = Record()
    status, last, failures = prove(sys.argv[1:], record)
    times.is_over.set()
    times.join()
    failed, ends = [], ["bugs: not begun", "trial: not begun"]
    if status == 0:
        unit.measure()
        refused, failed, ends = try_all()
        of_what = f" ({' '.join(failed)})" if failed else ""
        last = f"{passed_in(last) + refused} passed, {len(failed)} failed{of_what}\n"
    for failure in failures:
        print(f"gate: what failed:\n{failure}", end="", flush=True)
    for end in ends:
        print(f"gate: {end}", flush=True)
    print(f"gate: record: {record}", flush=True)
    print(f"gate: minutes of processor time of the proofs: {times}", flush=True)
    speed.is_over.set()
    speed.join()
    print(f"gate: the machine's speed: {speed}", flush=True)
    unit.measure()
    seconds = processor_time() - sum(unit.taken)
    print(f"gate: cost: {unit.cost(seconds)}", flush=True)
    tell_time(begin, seconds)
    print(last, end="", flush=True)
    sys.exit(1 if status or failed else 0)


if sys.argv[1:] not in ([], ["--anew"]):
    sys.exit(__doc__)
main()
