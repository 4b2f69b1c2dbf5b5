"""Runs the program: many times on short texts, in a folder in memory, or on the changes of a folder."""
import os
import pathlib
import signal
import subprocess
import tempfile

from harness.checks import Wrong, expect

SECONDS = 10
SECONDS_OF_CHANGES = 60
MEMORY = "/dev/shm"
# where folders are made, for many short runs
IN_MEMORY = MEMORY if os.path.isdir(MEMORY) else None
REPORT, MESSAGE = ".report", ".message"


class Place:
    """A folder of texts, in which the program runs, each time for so many seconds at most. The process works in that folder while it is open."""

    def __init__(self, program, seconds=SECONDS):
        self.program, self.seconds = str(pathlib.Path(program).resolve()), seconds

    def __enter__(self):
        self.folder = tempfile.TemporaryDirectory(dir=IN_MEMORY)
        self.came_from = os.getcwd()
        os.chdir(self.folder.name)
        signal.signal(signal.SIGALRM, too_long)
        return self

    def __exit__(self, *_):
        os.chdir(self.came_from)
        self.folder.cleanup()

    def write(self, name, data):
        with open(name, "wb") as file:
            file.write(data)

    def read(self, name):
        """What a file has, if it is there."""
        try:
            with open(name, "rb") as file:
                return file.read()
        except FileNotFoundError:
            return None

    def names(self):
        """The files of the folder, but for those of the streams."""
        return {name for name in os.listdir() if name not in (REPORT, MESSAGE)}

    def remove(self, *names):
        for name in names:
            pathlib.Path(name).unlink(missing_ok=True)

    def run(self, *words):
        """The exit status, and what went to standard output and to standard error.

        The program ends by itself, soon, and with one line at most after the notes of slapacl.
        """
        flags = os.O_WRONLY | os.O_CREAT | os.O_TRUNC
        streams = [(os.POSIX_SPAWN_OPEN, 0, "/dev/null", os.O_RDONLY, 0)]
        streams += [(os.POSIX_SPAWN_OPEN, stream, name, flags, 0o600) for stream, name in ((1, REPORT), (2, MESSAGE))]
        child = os.posix_spawn(self.program, [self.program, *words], os.environ, file_actions=streams)
        signal.setitimer(signal.ITIMER_REAL, self.seconds)
        try:
            _, status = os.waitpid(child, 0)
        except TimeoutError:
            os.kill(child, signal.SIGKILL)
            os.waitpid(child, 0)
            raise Wrong(f"no end within {self.seconds} s: {words}") from None
        finally:
            signal.setitimer(signal.ITIMER_REAL, 0)
        status, report, message = os.waitstatus_to_exitcode(status), self.read(REPORT), without_hints(self.read(MESSAGE), words[0])
        if status not in (0, 1) or not is_message(message, words[0]):
            raise Wrong(f"status {status}, standard error: {message!r}")
        return status, report.decode(), message.decode()


NOTE = b"slapkit: note: "


def without_hints(message, tool):
    """What went to standard error, without the notes that are told beside a fault or a refused record, at which trial/hints.py looks.

    All notes of a tool but slapacl are such ones, and of slapacl those after the fault, but for the one on its argument.
    """
    lines = message.splitlines(keepends=True)
    faults = [number for number, line in enumerate(lines) if not line.startswith(NOTE)]
    kept = 0 if tool != "slapacl" else faults[0] if faults else len(lines)
    return b"".join(line for number, line in enumerate(lines) if number < kept or not line.startswith(NOTE) or line.startswith(NOTE + b"line "))


def is_message(message, tool):
    """Whether it has whole lines, of which one at most is no note: the last, but for a note on its argument. slapacl alone has notes."""
    *lines, rest = message.split(b"\n")
    if tool != "slapacl":
        return not rest and len(lines) <= 1
    if lines and lines[-1].startswith(b"slapkit: note: line "):
        lines.pop()
    others = [line for line in lines if not line.startswith(b"slapkit: note: ")]
    return not rest and others in ([], lines[-1:])


def too_long(*_):
    raise TimeoutError


def run_changes(program, folder, copy, changes, new, undo, *options):
    """The exit status and the report of a run in a folder, under its configuration `conf`, if it has one."""
    words = [program, "slapmodify", "-b", "dc=com", "--data", copy, "-l", changes, "--out", new, "--undo", undo, *options]
    if pathlib.Path(folder, "conf").exists():
        words += ["-f", "conf"]
    ended = subprocess.run(words, cwd=folder, stdin=subprocess.DEVNULL, capture_output=True, timeout=SECONDS_OF_CHANGES)
    expect(without_hints(ended.stderr, "slapmodify").decode(), "", "standard error")
    return ended.returncode, ended.stdout.decode()
