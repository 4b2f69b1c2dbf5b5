#!/usr/bin/env python3
"""Looks at the calls by which slapkit makes its files: which drafts are created, with which modes, and what is synced before and after it gets its name.

usage: syncs.py PROGRAM

A shared object, made by cc and preloaded, writes each such call down. Each of the three tools makes its files in folders of their own, so the calls
tell which folder is synced. The calls must be those of docs/SECURITY.md ("Names", "Modes", "Crashes"), in that order: each draft is synced before
the first file gets its name, each name is synced with its folder before the next file gets its own, and the report comes last. And where /proc
tells no limit on the size of a file, a run is as any other. A name that a link has which leads nowhere is taken, and then no draft is created.
"""
import os
import pathlib
import subprocess
import sys
import tempfile

sys.path.insert(0, str(pathlib.Path(__file__).resolve().parents[1]))

from harness import checks
from harness.checks import expect
from harness.runs import IN_MEMORY

# Writes calls into the file that CALLS names, a line each. With NO_PROC nothing below /proc can be opened.
SHIM = r"""
#define _GNU_SOURCE
#include <errno.h>
#include <fcntl.h>
#include <stdarg.h>
#include <stdio.h>
#include <stdlib.h>
#include <string.h>
#include <sys/syscall.h>
#include <unistd.h>

static char path_of[64][512];

static void tell(const char *what, const char *one, const char *other) {
    static char line[2048];
    int size = snprintf(line, sizeof line, "%s %s%s%s\n", what, one, *other ? " " : "", other);
    int file = syscall(SYS_openat, AT_FDCWD, getenv("CALLS"), O_CREAT | O_WRONLY | O_APPEND, 0600);
    syscall(SYS_write, file, line, size);
    syscall(SYS_close, file);
}

int open(const char *path, int flags, ...) {
    va_list rest;
    va_start(rest, flags);
    int mode = va_arg(rest, int);
    va_end(rest);
    if (getenv("NO_PROC") != NULL && strncmp(path, "/proc/", 6) == 0) { errno = ENOENT; return -1; }
    int file = syscall(SYS_openat, AT_FDCWD, path, flags, mode);
    if (file >= 0 && file < 64) snprintf(path_of[file], sizeof path_of[file], "%s", path);
    if (flags & O_CREAT) {
        char of_mode[16];
        snprintf(of_mode, sizeof of_mode, "%o", mode);
        tell(flags & O_EXCL ? "create" : "open for writing", path, of_mode);
    }
    return file;
}

int fsync(int file) {
    tell("sync", file >= 0 && file < 64 ? path_of[file] : "?", "");
    return syscall(SYS_fsync, file);
}

int link(const char *from, const char *to) {
    tell("link", from, to);
    return syscall(SYS_linkat, AT_FDCWD, from, AT_FDCWD, to, 0);
}

int rename(const char *from, const char *to) {
    tell("rename", from, to);
    return syscall(SYS_renameat, AT_FDCWD, from, AT_FDCWD, to);
}

int unlink(const char *path) {
    tell("remove", path, "");
    return syscall(SYS_unlinkat, AT_FDCWD, path, 0);
}

ssize_t write(int file, const void *from, size_t size) {
    static int last = -1;
    if (file != last) tell("write to", file == 1 ? "report" : file == 2 ? "standard error" : file >= 0 && file < 64 ? path_of[file] : "?", "");
    last = file;
    return syscall(SYS_write, file, from, size);
}

ssize_t __write(int file, const void *from, size_t size) { return write(file, from, size); }
"""

MODE = 0o640
FILES = {
    "copy": "dn: dc=com\ndc: com\n\n",
    "changes": "dn: ou=a,dc=com\nchangetype: add\n",
    "conf": "database mdb\nsuffix dc=com\naccess to * by * read\n",
    "questions": "dn: dc=com\nentry: =rscxd\n",
}


def named(draft, path):
    """A file gets its name, which is synced with its folder."""
    return [f"link {draft} {path}", f"remove {draft}", f"sync {os.path.dirname(path)}"]


UNDO, NEW, ANSWERS, FLAT = "a/undo", "b/new", "c/answers", "d/flat"
RUN = ["slapmodify", "-b", "dc=com", "--data", "copy", "-l", "changes", "--undo", UNDO, "--out", NEW]
SUITE = ["slapacl", "-f", "conf", "--data", "copy", "--questions", "questions", "--answers", ANSWERS]
SITE = ["slapconf", "-b", "dc=com", "-f", "conf", "--out", FLAT]
# The calls of each run, and its report.
RUNS = {
    "a run of slapmodify": (
        RUN,
        [
            *(f"create {path}.slapkit-0 640" for path in (UNDO, NEW)),
            *(f"write to {path}.slapkit-0" for path in (UNDO, NEW)),
            *(f"sync {path}.slapkit-0" for path in (UNDO, NEW)),
            *named(f"{UNDO}.slapkit-0", UNDO),
            *named(f"{NEW}.slapkit-0", NEW),
            "write to report",
        ],
        "accepted 1, refused 0\n",
    ),
    "a file of questions": (
        SUITE,
        [
            f"create {ANSWERS}.slapkit-0 640",
            f"write to {ANSWERS}.slapkit-0",
            f"sync {ANSWERS}.slapkit-0",
            *named(f"{ANSWERS}.slapkit-0", ANSWERS),
            "write to report",
        ],
        "as expected 1, otherwise 0, asked 0\n",
    ),
    "a flat configuration": (
        SITE,
        [
            f"create {FLAT}.slapkit-0 640",
            f"write to {FLAT}.slapkit-0",
            f"sync {FLAT}.slapkit-0",
            *named(f"{FLAT}.slapkit-0", FLAT),
            "write to report",
        ],
        "types 0, rules 1, frontend 0\n",
    ),
}

# A path whose name is taken, of each file that is created first.
TAKEN = [(RUN, UNDO), (SUITE, ANSWERS), (SITE, FLAT)]


class Trial:
    """Runs in a folder of their own, whose calls are written down."""

    def __init__(self, program, folder):
        self.program, self.folder = program, pathlib.Path(folder)
        self.shim = self.folder / "shim.so"
        (self.folder / "shim.c").write_text(SHIM)
        subprocess.run([os.environ.get("CC", "cc"), "-shared", "-fPIC", "-o", self.shim, self.folder / "shim.c"], check=True)

    def run(self, words, taken=None, **environment):
        """The exit status, the report, what went to standard error, and the calls. At the path that is taken there is a link that leads nowhere."""
        with tempfile.TemporaryDirectory(dir=IN_MEMORY) as name:
            folder = pathlib.Path(name)
            for file, text in FILES.items():
                (folder / file).write_text(text)
                (folder / file).chmod(MODE)
            for path in (UNDO, NEW, ANSWERS, FLAT):
                (folder / path).parent.mkdir()
            if taken:
                (folder / taken).symlink_to("nothing")
            environment |= {"LD_PRELOAD": str(self.shim), "CALLS": f"{folder}/calls"}
            ended = subprocess.run([self.program, *words], cwd=folder, env=environment, capture_output=True, text=True, timeout=60)
            calls = (folder / "calls").read_text().splitlines() if (folder / "calls").exists() else []
        return ended.returncode, ended.stdout, ended.stderr, calls


def check_taken(trial, words, path):
    expect(trial.run(words, path), (1, "", f"slapkit: exists already: {path}\n", ["write to standard error"]), f"a run where {path} is taken")


def check_calls(trial, words, calls, report):
    expect(trial.run(words), (0, report, "", calls), "a run, and its calls")


def check_without_proc(trial, words, calls, report):
    expect(trial.run(words, NO_PROC="1"), (0, report, "", calls), "a run, and its calls, where /proc tells nothing")


def main():
    with tempfile.TemporaryDirectory() as folder:
        trial = Trial(os.path.abspath(sys.argv[1]), folder)
        named_checks = [(what, lambda row=row: check_calls(trial, *row)) for what, row in RUNS.items()]
        named_checks += [(f"{what}, without a limit that is told", lambda row=row: check_without_proc(trial, *row)) for what, row in RUNS.items()]
        named_checks += [(f"{path} is taken by a link", lambda row=(words, path): check_taken(trial, *row)) for words, path in TAKEN]
        return checks.run("syncs", named_checks)


sys.exit(main())
