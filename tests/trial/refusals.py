#!/usr/bin/env python3
"""Refuses each call of slapkit for memory, each opening, read, write, sync, link and removal in turn.

usage: refusals.py PROGRAM

The program makes the changes of examples/ on the copy there, and answers a question about it, once for each call that is
refused: that call alone, or it and all after it. A shared object, made by cc and preloaded, refuses the call. Each run must
end with the fault that docs/CODES.md names, and leave no file; where files can't be removed, none that is cut under the name
that it was to have, and no new copy without its undo file. There are notes on the configuration: a fault of what comes after them
is told after all of them, and where one can't be written there is no report.

Both tools are also run under the attribute types of a configuration: its opening and reads are refused, and each call for memory from the first read of
it up to the first of the copy. And the first group of an undo file is run, where each opening, read and call for memory is refused.

A file of questions is answered, which is examples/questions.ldif: its answers are written, and each kind of call is refused. So it is of runs of slapconf, on a
slapd.conf that includes a file, and on cn=config.
"""
import dataclasses
import os
import pathlib
import subprocess
import sys
import tempfile

sys.path.insert(0, str(pathlib.Path(__file__).resolve().parents[1]))

from harness import checks
from harness.checks import Wrong
from harness.repository import ROOT
from harness.runs import IN_MEMORY, without_hints
from model.access import Question, access_answer, notes_of

EXAMPLES = ROOT / "examples"
COPY, CHANGES, CONF, QUESTIONS = (EXAMPLES / name for name in ("company.ldif", "changes.ldif", "slapd.conf", "questions.ldif"))
NOTES = notes_of(CONF.read_bytes())

# A configuration that defines an attribute type, and a copy with changes that are accepted only where values are compared by it. Its rule names
# the type, on which there is a note where it is not known, and where another type is derived from it.
TYPED = {
    "conf": "include x\ndatabase mdb\nsuffix dc=com\naccess to attrs=roomName by * read\n"
    "attributetype ( 1.3.6.1.4.1.32473.1 NAME ( 'room' 'roomName' )\n  EQUALITY caseIgnoreMatch SINGLE-VALUE )\n"
    "attributetype ( 1.3.6.1.4.1.32473.2 NAME 'floor' SUP room )\n",
    "copy": "dn: dc=com\ndc: com\nroom: A 1\n\n",
    "changes": "dn: dc=com\nchangetype: modify\ndelete: roomName\nroomName: a  1\n-\n",
}
# an undo file, of which one group is run, on that copy; its description has options, which are no type that is kept ready
MARKED = {"marked": "version: 1\n\n# undo 1\ndn: dc=com\nchangetype: modify\nadd: l;x-b;lang-a\nl;x-b;lang-a: x\n-\n\n# un\n do 2\nx\n"}
# a configuration of a site, in both forms
SITE = {
    "site.conf": "include site.more\nobjectidentifier my 1.3\nattributetype ( my:1 NAME 'a' )\ndatabase mdb\nsuffix dc=com\nrootdn cn=r,dc=com\naccess to * by * read\n",
    "site.more": "access to dn.base=\"\" by * read\nattributetype ( 1.2 NAME 'b' )\n",
    "site.ldif": "dn: a\nolcObjectIdentifier: my 1.3\nolcAttributeTypes: {0}( my:1 NAME 'a' )\nolcSuffix: dc=com\nolcRootDN: cn=r,dc=com\n"
    "olcAccess: {0}to * by * read\n\ndn: b\nolcDatabase: {-1}frontend\nolcAccess: {0}to dn.base=\"\" by * read\n",
}
ASKED = Question("dc=com", None, ("room/read",), is_verbose=True)
TYPED_NOTES = access_answer(TYPED["conf"].encode(), TYPED["copy"].encode(), ASKED)[2]

# Counts the calls of the kind that REFUSE_KIND names, and refuses number REFUSE_AT, with REFUSE_ON all after
# it too. With REFUSE_AFTER only calls after the first read of this file are counted, up to when another file is
# opened or read. A call that is refused leaves the file REFUSE_TOLD. With NO_LINKS the file system has no hard links.
SHIM = r"""
#define _GNU_SOURCE
#include <dlfcn.h>
#include <errno.h>
#include <fcntl.h>
#include <stdarg.h>
#include <stdlib.h>
#include <string.h>
#include <sys/syscall.h>
#include <unistd.h>

static int last_read = -1;
static int counted = -1;

static int is_refused(const char *kind) {
    static long calls;
    const char *asked = getenv("REFUSE_KIND");
    if (asked == NULL || strcmp(asked, kind) != 0) return 0;
    long at = atol(getenv("REFUSE_AT"));
    if (calls < at && getenv("REFUSE_AFTER") != NULL && (counted < 0 || last_read != counted)) return 0;
    calls += 1;
    if (calls < at || (calls > at && getenv("REFUSE_ON") == NULL)) return 0;
    syscall(SYS_close, syscall(SYS_openat, AT_FDCWD, getenv("REFUSE_TOLD"), O_CREAT | O_WRONLY, 0600));
    return 1;
}

void *malloc(size_t size) {
    static void *(*real)(size_t);
    if (real == NULL) real = dlsym(RTLD_NEXT, "malloc");
    if (is_refused("memory")) { errno = ENOMEM; return NULL; }
    return real(size);
}

void *realloc(void *old, size_t size) {
    static void *(*real)(void *, size_t);
    if (real == NULL) real = dlsym(RTLD_NEXT, "realloc");
    if (is_refused("memory")) { errno = ENOMEM; return NULL; }
    return real(old, size);
}

static int of_proc = -1;

int open(const char *path, int flags, ...) {
    va_list rest;
    va_start(rest, flags);
    int mode = va_arg(rest, int);
    va_end(rest);
    int is_of_proc = strncmp(path, "/proc/", 6) == 0;
    if (is_refused(is_of_proc ? "opening in /proc" : "opening")) { errno = EMFILE; return -1; }
    if (is_refused("opening, by a signal")) { errno = EINTR; return -1; }
    int file = syscall(SYS_openat, AT_FDCWD, path, flags, mode);
    if (getenv("REFUSE_AFTER") != NULL && strcmp(path, getenv("REFUSE_AFTER")) == 0) counted = file;
    else last_read = -1;
    if (is_of_proc) of_proc = file;
    else if (file == of_proc) of_proc = -1;
    return file;
}

int fsync(int file) {
    if (is_refused("sync")) { errno = EIO; return -1; }
    if (is_refused("sync that is never done")) { errno = EINVAL; return -1; }
    if (is_refused("sync, by a signal")) { errno = EINTR; return -1; }
    return syscall(SYS_fsync, file);
}

int link(const char *from, const char *to) {
    if (getenv("NO_LINKS") != NULL) { errno = EPERM; return -1; }
    if (is_refused("link")) { errno = EIO; return -1; }
    return syscall(SYS_linkat, AT_FDCWD, from, AT_FDCWD, to, 0);
}

int rename(const char *from, const char *to) {
    if (is_refused("renaming")) { errno = EIO; return -1; }
    return syscall(SYS_renameat, AT_FDCWD, from, AT_FDCWD, to);
}

int unlink(const char *path) {
    if (is_refused("removal")) { errno = EIO; return -1; }
    return syscall(SYS_unlinkat, AT_FDCWD, path, 0);
}

ssize_t read(int file, void *to, size_t size) {
    last_read = file;
    if (is_refused(file == of_proc ? "read in /proc" : "read")) { errno = EIO; return -1; }
    if (is_refused("read, by a signal")) { errno = EINTR; return -1; }
    if (size > 1 && is_refused("all but a byte of a read")) size = 1;
    return syscall(SYS_read, file, to, size);
}

ssize_t write(int file, const void *from, size_t size) {
    if (file == 2) {
        if (is_refused("write to standard error")) { errno = ENOSPC; return -1; }
        if (is_refused("write to standard error, by a signal")) { errno = EINTR; return -1; }
        if (size > 1 && is_refused("all but a byte of a write to standard error")) size = 1;
        return syscall(SYS_write, file, from, size);
    }
    if (is_refused("write")) { errno = ENOSPC; return -1; }
    if (is_refused("write, by a signal")) { errno = EINTR; return -1; }
    if (size > 1 && is_refused("all but a byte of a write")) size = 1;
    return syscall(SYS_write, file, from, size);
}

ssize_t __write(int file, const void *from, size_t size) { return write(file, from, size); }
"""


@dataclasses.dataclass
class Left:
    """What a run left: the texts of the files, by their names, and what went to the standard streams."""

    status: int
    message: str
    files: dict[str, bytes]
    report: bytes


def changes_in(folder):
    """The words of a run of slapmodify that makes its files in a folder."""
    words = ["slapmodify", "-b", "dc=example,dc=com", "--data", COPY, "-l", CHANGES]
    return [*words, "--out", folder / "new", "--undo", folder / "undo", "-v"]


def question_in(folder):
    """The words of a question, which makes no files."""
    zoe, juergen = "uid=zoe,ou=people,dc=example,dc=com", "cn=J\\C3\\BCrgen M\\C3\\BCller,ou=people,dc=example,dc=com"
    return ["slapacl", "-b", zoe, "-f", CONF, "--data", COPY, "-D", juergen, "-v", "mail/write", "title", "userPassword"]


def suite_in(folder):
    """A file of questions, whose answers are written."""
    return ["slapacl", "-f", CONF, "--data", COPY, "--questions", QUESTIONS, "--answers", folder / "answers", "-v"]


def typed_changes_in(folder):
    """A run under the types of a configuration."""
    words = ["slapmodify", "-b", "dc=com", "--data", "copy", "-l", "changes", "-f", "conf"]
    return [*words, "--out", folder / "new", "--undo", folder / "undo", "-v"]


def typed_question_in(folder):
    return ["slapacl", "-f", "conf", "--data", "copy", *ASKED.options()]


def way_back_in(folder):
    """A run of the first group of an undo file."""
    words = ["slapmodify", "-b", "dc=com", "--data", "copy", "-l", "marked", "--last", "1"]
    return [*words, "--out", folder / "new", "--undo", folder / "undo", "-v"]


def site_in(folder):
    return ["slapconf", "-b", "dc=com", "-f", "site.conf", "--out", folder / "flat"]


def cn_config_in(folder):
    return ["slapconf", "-b", "dc=com", "--config", "site.ldif", "--out", folder / "flat"]


def run(program, shim, words_in, refusal):
    """What a run leaves, and whether a call of it was refused. It is run where the shared object is, and the texts of TYPED, MARKED and SITE."""
    with tempfile.TemporaryDirectory(dir=IN_MEMORY) as name:
        folder = pathlib.Path(name)
        words = [program, *words_in(folder)]
        environment = {"LD_PRELOAD": shim, "REFUSE_TOLD": str(folder / "told")} | refusal
        ended = subprocess.run(words, cwd=os.path.dirname(shim), env=environment, capture_output=True, timeout=60)
        files = {path.name: path.read_bytes() for path in folder.iterdir()}
        # The paths of the run's own folder are not the same twice.
        message = without_hints(ended.stderr, words[1]).decode().replace(f"{folder}/", "").replace(str(folder), ".")
        was_refused = files.pop("told", None) is not None
        return Left(ended.returncode, message, files, ended.stdout), was_refused


# ---- what a run may leave


def ends(left, *told):
    """Whether the run ends with one of these messages, and leaves nothing."""
    return left.status == 1 and left.message in told and not left.files and not left.report


def memory_is_told(left, whole):
    # The program asks for more room than it needs in some places, and goes on without it. The notes are told before the copy is read.
    told = ("slapkit: out of memory\n", "error: out of memory\n", "slapkit: cannot read the command line: out of memory\n")
    return left == whole or ends(left, *told, f"{whole.message}slapkit: out of memory\n")


def opening_is_told(left, whole):
    paths = ("/", str(CONF), str(COPY), str(CHANGES), str(QUESTIONS), *TYPED, *MARKED, "site.conf", "site.ldif", "undo", "new", "answers", "flat")
    # A file that another includes is told by the line that includes it.
    included = "slapkit: site.conf, line 1: K1 BadInclude\n"
    # The folder is opened to be synced.
    return ends(left, *(f"slapkit: cannot open {path}\n" for path in paths), included, *not_written(whole))


def read_is_told(left, whole):
    # The notes are told once the configuration and the questions were read.
    before = [f"slapkit: cannot read {text}\n" for text in ("config", "questions")]
    return ends(left, *before, *(f"{whole.message}slapkit: cannot read {text}\n" for text in ("copy", "changes")))


def write_is_told(left, whole):
    if left.message == f"{whole.message}slapkit: cannot write report\n":
        return left.status == 1 and not left.files and whole.report.startswith(left.report) and left.report != whole.report
    return ends(left, *not_written(whole))


def notes_are_told_in_part(left, whole, told=""):
    """Whether the run ends for the notes that can't be told: some of what is told of them was, and then, where it can be, the fault."""
    begun = left.message.removesuffix(told)
    return ends(left, begun + told) and whole.message.startswith(begun) and begun != whole.message


def unwritten_notes_are_told(left, whole):
    return notes_are_told_in_part(left, whole, "slapkit: cannot write notes\n")


def not_written(whole):
    """What is told of a file that can't be written: after the notes, if there are some."""
    return [f"{whole.message}slapkit: cannot write {name}\n" for name in ("undo", "out", "answers", "flat configuration")]


def a_file_is_not_written(left, whole):
    return ends(left, *not_written(whole))


def files_are_whole_where_they_cannot_be_removed(left, whole):
    named = {name: text for name, text in left.files.items() if ".slapkit-" not in name}
    in_order = "new" not in named or "undo" in named
    return left.status == 1 and left.message in not_written(whole) and not left.report and in_order and named.items() <= whole.files.items()


def run_is_whole(left, whole):
    return left == whole


def folders_need_not_be_synced(left, whole):
    return left == whole or ends(left, *not_written(whole))


NO_LINKS = {"NO_LINKS": "1"}

# Each kind of call, what its refusal may leave, and, of the refusal of all calls after it too, the same.
KINDS = {
    "memory": (memory_is_told, memory_is_told),
    "opening": (opening_is_told, opening_is_told),
    "read": (read_is_told, read_is_told),
    "opening in /proc": (run_is_whole, run_is_whole),
    "read in /proc": (run_is_whole, run_is_whole),
    "write": (write_is_told, write_is_told),
    "sync": (a_file_is_not_written, a_file_is_not_written),
    "sync that is never done": (folders_need_not_be_synced, folders_need_not_be_synced),
    "link": (a_file_is_not_written, a_file_is_not_written),
    "removal": (a_file_is_not_written, files_are_whole_where_they_cannot_be_removed),
    "all but a byte of a read": (run_is_whole, run_is_whole),
    "all but a byte of a write": (run_is_whole, run_is_whole),
    "opening, by a signal": (run_is_whole, None),
    "read, by a signal": (run_is_whole, None),
    "write, by a signal": (run_is_whole, None),
    "sync, by a signal": (run_is_whole, None),
}

# The same on a file system without hard links.
KINDS_WITHOUT_LINKS = {
    "opening": (opening_is_told, opening_is_told),
    "write": (write_is_told, write_is_told),
    "sync": (a_file_is_not_written, a_file_is_not_written),
    "renaming": (a_file_is_not_written, a_file_is_not_written),
}


# A question makes no files.
KINDS_OF_QUESTIONS = {
    "memory": (memory_is_told, memory_is_told),
    "opening": (opening_is_told, opening_is_told),
    "read": (read_is_told, read_is_told),
    "write": (write_is_told, write_is_told),
    "write to standard error": (unwritten_notes_are_told, notes_are_told_in_part),
    "all but a byte of a read": (run_is_whole, run_is_whole),
    "all but a byte of a write": (run_is_whole, run_is_whole),
    "all but a byte of a write to standard error": (run_is_whole, run_is_whole),
    "opening, by a signal": (run_is_whole, None),
    "read, by a signal": (run_is_whole, None),
    "write, by a signal": (run_is_whole, None),
    "write to standard error, by a signal": (run_is_whole, None),
}

# A file of questions whose answers are written: as for the files of a run, and for the notes of a question.
KINDS_OF_SUITES = KINDS | {kind: left for kind, left in KINDS_OF_QUESTIONS.items() if "standard error" in kind}

# Under the types of a configuration: its opening and reading, and each call for memory while the types are read.
KINDS_UNDER_TYPES = {
    "opening": (opening_is_told, opening_is_told),
    "read": (read_is_told, read_is_told),
    "all but a byte of a read": (run_is_whole, run_is_whole),
    "opening, by a signal": (run_is_whole, None),
    "read, by a signal": (run_is_whole, None),
}
MEMORY = {"memory": (memory_is_told, memory_is_told)}
KINDS_OF_GROUPS = KINDS_UNDER_TYPES | MEMORY
WHILE_TYPES_ARE_READ = {"REFUSE_AFTER": "conf"}

# The runs that are tried: what a run is called, its words, the files that it makes, what goes to standard error, the kinds of calls, and what
# else is set.
RUNS = [
    ("", changes_in, ["new", "undo"], "", KINDS, {}),
    (", without hard links", changes_in, ["new", "undo"], "", KINDS_WITHOUT_LINKS, NO_LINKS),
    (" of a question", question_in, [], NOTES, KINDS_OF_QUESTIONS, {}),
    (" of a file of questions", suite_in, ["answers"], NOTES, KINDS_OF_SUITES, {}),
    (" of a file of questions, without hard links", suite_in, ["answers"], NOTES, KINDS_WITHOUT_LINKS, NO_LINKS),
    (" under types", typed_changes_in, ["new", "undo"], "", KINDS_UNDER_TYPES, {}),
    (" while the types of a run are read", typed_changes_in, ["new", "undo"], "", MEMORY, WHILE_TYPES_ARE_READ),
    (" of the first group of an undo file", way_back_in, ["new", "undo"], "", KINDS_OF_GROUPS, {}),
    (" of slapconf", site_in, ["flat"], "", KINDS, {}),
    (" of slapconf, without hard links", site_in, ["flat"], "", KINDS_WITHOUT_LINKS, NO_LINKS),
    (" of slapconf on cn=config", cn_config_in, ["flat"], "", KINDS_UNDER_TYPES | MEMORY, {}),
    (" of a question under types", typed_question_in, [], TYPED_NOTES, KINDS_UNDER_TYPES, {}),
    (" while the types of a question are read", typed_question_in, [], TYPED_NOTES, MEMORY, WHILE_TYPES_ARE_READ),
]


def refuse_in_turn(program, shim, words_in, whole, kind, check, more):
    """Refuses each call of a kind, in a run of its own, and returns how many runs that were."""
    at = 1
    while True:
        left, was_refused = run(program, shim, words_in, {"REFUSE_KIND": kind, "REFUSE_AT": str(at)} | more)
        if not was_refused:
            if left != whole:
                raise Wrong(f"no {kind} was refused, and the run is not whole: {left}")
            if at == 1:
                raise Wrong(f"no {kind} was refused")
            return f"{at - 1} runs"
        if not check(left, whole):
            raise Wrong(f"{kind} refused at {at}, {more}: {left}")
        at += 1


def main():
    program = os.path.abspath(sys.argv[1])
    with tempfile.TemporaryDirectory() as folder:
        source, shim = f"{folder}/shim.c", f"{folder}/shim.so"
        pathlib.Path(source).write_text(SHIM)
        for name, text in (TYPED | MARKED | SITE).items():
            pathlib.Path(folder, name).write_text(text)
        subprocess.run([os.environ.get("CC", "cc"), "-shared", "-fPIC", "-o", shim, source, "-ldl"], check=True)
        if not NOTES or not TYPED_NOTES:
            sys.exit("refusals: there is no note on the configuration of a question")
        trials = []
        for called, words_in, files, message, kinds, more in RUNS:
            whole, _ = run(program, shim, words_in, {})
            if whole.status != 0 or sorted(whole.files) != files or not whole.report or whole.message != message:
                sys.exit(f"refusals: the run{called} is not whole where nothing is refused: {whole}")
            for kind, (alone, on) in kinds.items():
                trials.append((f"{kind} refused{called}", (words_in, whole, kind, alone, more)))
                if on:
                    trials.append((f"{kind} refused, and all after it{called}", (words_in, whole, kind, on, more | {"REFUSE_ON": "1"})))
        sys.exit(checks.run("refusals", [(name, lambda way=way: refuse_in_turn(program, shim, *way)) for name, way in trials]))


main()
