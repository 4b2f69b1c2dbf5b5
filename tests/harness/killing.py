"""Runs of slapkit that end before their time, and what they may leave.

A run may leave drafts, which have names of their own. But a file under the name that it was to have is whole, there is no new
copy without its undo file, and no report without both. No file is open to more than the copy is, and the next run with the
same command goes as if nothing had been. The same goes for the file of answers of a file of questions, which has the mode of that, and for a flat configuration,
which has the mode of the configuration.
"""
import os
import pathlib
import re
import subprocess

from harness.checks import Wrong, expect, same
from model import flat
from model.texts import added, block, deleted, undone

# Sends the program the signal KILL_BY (else SIGKILL) at its step KILL_AT: each call that touches a file has a step before it and one
# after it. With NO_SYNC a sync does nothing.
SHIM = r"""
#define _GNU_SOURCE
#include <fcntl.h>
#include <signal.h>
#include <stdarg.h>
#include <stdlib.h>
#include <sys/syscall.h>
#include <unistd.h>

static void step(void) {
    static long steps;
    steps += 1;
    const char *by = getenv("KILL_BY");
    if (steps == atol(getenv("KILL_AT"))) kill(getpid(), by ? atoi(by) : SIGKILL);
}

static long stepped(long answer) { step(); return answer; }

int open(const char *path, int flags, ...) {
    va_list rest;
    va_start(rest, flags);
    int mode = va_arg(rest, int);
    va_end(rest);
    step();
    return stepped(syscall(SYS_openat, AT_FDCWD, path, flags, mode));
}

ssize_t write(int file, const void *from, size_t size) { step(); return stepped(syscall(SYS_write, file, from, size)); }
ssize_t __write(int file, const void *from, size_t size) { return write(file, from, size); }
int fsync(int file) { step(); return stepped(getenv("NO_SYNC") ? 0 : syscall(SYS_fsync, file)); }
int link(const char *from, const char *to) { step(); return stepped(syscall(SYS_linkat, AT_FDCWD, from, AT_FDCWD, to, 0)); }
int unlink(const char *path) { step(); return stepped(syscall(SYS_unlinkat, AT_FDCWD, path, 0)); }
"""


def made_shim(folder):
    """A shared object, made by cc, that is preloaded."""
    source, shim = f"{folder}/shim.c", f"{folder}/shim.so"
    pathlib.Path(source).write_text(SHIM)
    subprocess.run([os.environ.get("CC", "cc"), "-shared", "-fPIC", "-o", shim, source], check=True)
    return shim


MODE = 0o640
COMMAND = ["slapmodify", "-b", "dc=com", "--data", "copy", "-l", "changes", "--out", "new", "--undo", "undo"]


SITE = ["slapconf", "-b", "dc=com", "-f", "conf", "--out", "flat"]
SUITE = ["slapacl", "-f", "conf", "--data", "copy", "--questions", "questions", "--answers", "answers"]


class Trial:
    """Runs of one command in a folder, and what each must come to."""

    command, inputs = COMMAND, ("copy", "changes")
    # the files that a run makes, in the order in which they get their names
    outputs = ("undo", "new")

    def __init__(self, program, folder, entries):
        self.program, self.folder = program, pathlib.Path(folder)
        root, people = block(("dn", "dc=com"), ("dc", "com")), [f"cn=Person {n:06},dc=com" for n in range(entries)]
        person = lambda name: block(("dn", name), ("cn", name[3:16]), ("description", "x" * 60))
        copy, changes = root + "".join(map(person, people)), [added(f"ou=Unit {n},dc=com") for n in range(entries // 2)]
        self.write("copy", copy)
        self.write("changes", "".join(changes))
        (self.folder / "copy").chmod(MODE)
        units = sorted((f"Unit {n}" for n in range(entries // 2)), key=str.lower)
        self.whole = {
            "new": copy + "".join(block(("dn", f"ou={unit},dc=com"), ("ou", unit)) for unit in units),
            "undo": undone(*(deleted(f"ou=Unit {n},dc=com") for n in reversed(range(entries // 2)))),
        }
        self.report = f"accepted {entries // 2}, refused 0\n"

    def write(self, name, text):
        (self.folder / name).write_text(text)

    def start(self, words=None, **how):
        return subprocess.Popen([self.program, *(words or self.command)], cwd=self.folder, stdout=subprocess.PIPE, stderr=subprocess.PIPE, text=True, **how)

    def run(self, words=None, **how):
        with self.start(words, **how) as run:
            told, said = run.communicate(timeout=120)
        return run.returncode, told, said

    def left(self):
        return {path.name: path for path in self.folder.iterdir() if path.name not in self.inputs}

    def clear(self):
        for path in self.left().values():
            path.unlink()

    def look(self, told):
        """Whether what is left is as it may be, after a run that told this."""
        left = self.left()
        for name, path in left.items():
            mode = path.stat().st_mode & 0o7777
            expect(mode & ~MODE, 0, f"{name}: more than the mode of what was read")
            if name in self.whole:
                same(path.read_text(), self.whole[name], name)
            elif not re.fullmatch(rf"({'|'.join(self.outputs)})\.slapkit-\d+", name):
                raise Wrong(f"left: {name}")
        named = sorted(name for name in left if name in self.whole)
        in_order = [sorted(self.outputs[:count]) for count in range(len(self.outputs) + 1)]
        if named not in in_order or (told and named != in_order[-1]):
            raise Wrong(f"left: {named}, told: {told!r}")
        return named

    def run_again(self, named):
        """The next run, past the files that have their names and past the drafts."""
        if named:
            expect(self.run(), (1, "", f"slapkit: exists already: {self.outputs[0]}\n"), "the next run, over files that are whole")
            for name in named:
                (self.folder / name).unlink()
        expect(self.run(), (0, self.report, ""), "the next run")
        expect(self.look(self.report), sorted(self.outputs))
        self.clear()


class SuiteTrial(Trial):
    """Runs of a file of questions, one on each entry but the root, which writes its answers."""

    command, inputs, outputs = SUITE, ("copy", "changes", "conf", "questions"), ("answers",)

    def __init__(self, program, folder, entries):
        super().__init__(program, folder, entries)
        asked = "".join(block(("dn", f"cn=Person {n:06},dc=com"), ("cn", "=rscxd"), ("description/write", "DENIED")) for n in range(entries))
        self.write("conf", "database mdb\nsuffix dc=com\naccess to * by * read\n")
        self.write("questions", asked)
        # the copy's mode is no matter
        (self.folder / "copy").chmod(0o666)
        (self.folder / "questions").chmod(MODE)
        self.whole = {"answers": asked}
        self.report = f"as expected {2 * entries}, otherwise 0, asked 0\n"


class SiteTrial(Trial):
    """Runs of slapconf on a slapd.conf that includes a file of so many rules."""

    command, inputs, outputs = SITE, ("copy", "changes", "conf", "rules"), ("flat",)

    def __init__(self, program, folder, rules):
        super().__init__(program, folder, 0)
        files = {
            "conf": "database mdb\nsuffix dc=com\nrootpw secret\ninclude rules\n",
            "rules": "".join(f"access to attrs=a{n} by * read\n" for n in range(rules)),
        }
        for name, text in files.items():
            self.write(name, text)
        (self.folder / "conf").chmod(MODE)
        # the mode of a file that is included is no matter
        (self.folder / "rules").chmod(0o666)
        self.whole = {"flat": flat.flat_text([], [(b"suffix", [b"dc=com"])]).decode() + files["rules"]}
        self.report = f"types 0, rules {rules}, frontend 0\n"
