#!/usr/bin/env python3
"""Cuts the power of runs of slapkit, and looks at what a file system has then (harness/killing.py).

usage: power.py PROGRAM

The run is stopped before and after each of its calls that touch a file, on an ext4 file system in a file. At each stop a copy of that
file is what a loss of power would leave: at once; after another program has synced a file of its own, which writes the names of
all files but not what is in them; and after all has been synced. Each copy is mounted, and looked at. Then the same is done to a program
whose syncs do nothing, of which it must find a fault.

Where a file can't be mounted (without root, say) it tells so, and checks nothing.
"""
import os
import pathlib
import shutil
import signal
import subprocess
import sys
import tempfile

sys.path.insert(0, str(pathlib.Path(__file__).resolve().parents[1]))

from harness import checks
from harness.checks import Wrong, expect
from harness.killing import Trial, made_shim

SIZE = 16 << 20
ENTRIES = 200


def mount(image, at):
    subprocess.run(["mount", "-o", "loop", image, at], check=True, capture_output=True)


def unmount(at):
    subprocess.run(["umount", at], check=True, capture_output=True)


def mounts_files(folder):
    """Whether this machine lets a file be mounted."""
    image, at = new_image(folder, "tried"), new_folder(folder, "tried.at")
    try:
        mount(image, at)
        unmount(at)
        return True
    except (OSError, subprocess.SubprocessError):
        return False


def new_folder(folder, name):
    path = pathlib.Path(folder, name)
    path.mkdir()
    return path


def new_image(folder, name):
    """An empty file system."""
    image = pathlib.Path(folder, name)
    with image.open("wb") as file:
        file.truncate(SIZE)
    try:
        subprocess.run(["mkfs.ext4", "-q", image], check=True, capture_output=True)
    except OSError:
        pass
    return image


class Machine:
    """A file system with the files of a trial, whose power can be cut."""

    def __init__(self, program, folder, shim):
        self.shim, self.folder = shim, pathlib.Path(folder)
        self.start, self.disk, self.left = new_image(folder, "start"), self.folder / "disk", self.folder / "left"
        self.at = new_folder(folder, "at")
        mount(self.start, self.at)
        self.trial = Trial(program, new_folder(self.at, "run"), ENTRIES)
        unmount(self.at)

    def cut(self):
        """What the disk has now. The run is stopped, but the system may be writing."""
        before, now = None, self.disk.read_bytes()
        while now != before:
            before, now = now, self.disk.read_bytes()
        return now

    def cuts(self):
        at_once = self.cut()
        with open(self.at / "other", "wb") as other:
            other.write(b"of another program")
            other.flush()
            os.fsync(other.fileno())
        after_another = self.cut()
        os.sync()
        return at_once, after_another, self.cut()

    def run_until(self, step, more):
        """The run up to this step: what the disk has then, and what was told; nothing where the run ends before."""
        shutil.copy(self.start, self.disk)
        mount(self.disk, self.at)
        stop = {"LD_PRELOAD": self.shim, "KILL_AT": str(step), "KILL_BY": str(int(signal.SIGSTOP)), **more}
        run = self.trial.start(env=stop)
        try:
            _, status = os.waitpid(run.pid, os.WUNTRACED)
            if os.WIFSTOPPED(status):
                found = self.cuts()
                run.kill()
                return found, run.communicate(timeout=60)[0]
            run.returncode = os.waitstatus_to_exitcode(status)
            expect((run.returncode, *run.communicate()), (0, self.trial.report, ""), "the whole run")
            return None
        finally:
            run.stdout.close()
            run.stderr.close()
            unmount(self.at)

    def look(self, disk, told):
        """How many files have their names once there is power again."""
        self.left.write_bytes(disk)
        mount(self.left, self.at)
        try:
            return len(self.trial.look(told))
        finally:
            unmount(self.at)


def cut_at_each_call(machine, more):
    found, step = [], 1
    while stopped := machine.run_until(step, more):
        disks, told = stopped
        try:
            found += [machine.look(disk, told) for disk in disks]
        except Wrong as wrong:
            raise Wrong(f"cut at step {step}: {wrong}") from None
        step += 1
    expect(set(found), {0, 1, 2}, "files with their names")
    return f"{step - 1} steps, {found.count(0)} disks without a file, {found.count(1)} with the undo file, {found.count(2)} with both"


def finds_a_program_that_does_not_sync(machine):
    try:
        cut_at_each_call(machine, {"NO_SYNC": "1"})
    except Wrong as wrong:
        return f"{wrong}"
    raise Wrong("it passed")


def main():
    program = os.path.abspath(sys.argv[1])
    with tempfile.TemporaryDirectory() as folder:
        if not mounts_files(folder):
            print("power: not run: this machine doesn't let a file be mounted")
            return 0
        machine = Machine(program, folder, made_shim(folder))
        named = [
            ("the power cut at each call", lambda: cut_at_each_call(machine, {})),
            ("of a program that does not sync, a fault is found", lambda: finds_a_program_that_does_not_sync(machine)),
        ]
        return checks.run("power", named)


sys.exit(main())
