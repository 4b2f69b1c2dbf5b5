#!/usr/bin/env python3
"""Runs slapkit on a terminal: what is to be seen while a run goes on, and that nothing of it is left.

usage: terminal.py PROGRAM

What the program sends to the terminal is shown on a screen in memory, which knows the control sequences of docs/ARCHITECTURE.md
and no others.
"""
import fcntl
import os
import pathlib
import re
import select
import struct
import subprocess
import sys
import tempfile
import termios
import time
import unicodedata

sys.path.insert(0, str(pathlib.Path(__file__).resolve().parents[1]))

from harness import checks
from harness.checks import Wrong, expect, same
from model.texts import added, block, deleted, undone

STEP = 8 * 1024 * 1024
ROOT = block(("dn", "dc=com"), ("dc", "com"))
UNIT = "ou=unit,dc=com"
CHANGES = added(UNIT)
UNIT_TEXT = block(("dn", UNIT), ("ou", "unit"))
UNDO = undone(deleted(UNIT))
CONF = "database mdb\nsuffix dc=com\naccess to * by * read\n"
CONF_WITH_NOTES = f"include core.schema\n{CONF}access to attrs=gn by * read\n"
NOTES = 'slapkit: note: config, line 1: include "core.schema" is not read\nslapkit: note: config, line 5: unknown attribute "gn"\n'
QUESTION = ["slapacl", "-b", "dc=com", "-f", "conf", "--data", "copy", "dc"]
NOT_FOUND = "slapkit: note: No such file or directory (os error 2)\n"
REQUEST = "slapkit: reading changes from the terminal; end with Ctrl-D"
ONTO = ["--out", "new", "--undo", "undo"]


# ---- a screen


class Screen:
    """The rows of a terminal, and each text that was erased from it."""

    SEQUENCE = re.compile(r"\x1b\[(K|\?7l|\?7h)")

    def __init__(self, columns=80):
        self.columns, self.rows, self.row, self.column = columns, [""], 0, 0
        self.wraps, self.erased, self.sent = True, [], ""

    def take(self, text):
        self.sent += text
        at = 0
        while at < len(text):
            sequence = self.SEQUENCE.match(text, at)
            if sequence:
                self.obey(sequence[1])
                at = sequence.end()
            else:
                self.put(text[at])
                at += 1

    def obey(self, sequence):
        if sequence == "K":
            line = self.rows[self.row]
            if line[self.column :]:
                self.erased.append(line)
            self.rows[self.row] = line[: self.column]
        else:
            self.wraps = sequence == "?7h"

    def put(self, letter):
        if letter == "\r":
            self.column = 0
        elif letter == "\n":
            self.row += 1
            self.rows.append("")
        elif unicodedata.category(letter) == "Cc":
            raise Wrong(f"a control character on the terminal: {letter!r}, of {self.sent[-200:]!r}")
        else:
            self.show(letter)

    def show(self, letter):
        if self.column == self.columns and self.wraps:
            self.put("\n")
            self.column = 0
        at = min(self.column, self.columns - 1)
        line = self.rows[self.row].ljust(at)
        self.rows[self.row] = line[:at] + letter + line[at + 1 :]
        self.column = at + 1

    def text(self):
        return "\n".join(self.rows)


# ---- runs on a terminal


class Terminal:
    """A terminal of which the program has one end."""

    def __init__(self, columns=80):
        self.mine, self.its = os.openpty()
        fcntl.ioctl(self.its, termios.TIOCSWINSZ, struct.pack("HHHH", 24, columns, 0, 0))
        self.screen = Screen(columns)
        self.waiting = b""

    def start(self, words, folder, of_its_own=False, **streams):
        """Starts the program, and lets it alone have its end, where it is to as the terminal that controls its session."""
        streams = {name: self.its if stream == "terminal" else stream for name, stream in streams.items()}
        environment = {"TERM": streams.pop("term", "xterm")}
        if of_its_own:
            environment["PATH"] = os.environ["PATH"]
            streams |= {"start_new_session": True, "preexec_fn": lambda: fcntl.ioctl(self.its, termios.TIOCSCTTY, 0)}
        run = subprocess.Popen(words, cwd=folder, env=environment, **streams)
        os.close(self.its)
        return run

    def look(self, timeout):
        """Shows what comes within some seconds, and whether more may come."""
        if not select.select([self.mine], [], [], timeout)[0]:
            return True
        try:
            sent = os.read(self.mine, 65536)
        except OSError:
            # the program has let go of its end
            return False
        self.waiting += sent
        whole = self.waiting.decode(errors="ignore")
        self.waiting = self.waiting[len(whole.encode()) :]
        self.screen.take(whole)
        return bool(sent)

    def look_until(self, holds):
        """Shows what comes until it holds, for two minutes at most."""
        end = time.monotonic() + 120
        while not holds(self.screen):
            if not self.look(0.1) or time.monotonic() > end:
                raise Wrong(f"on the screen: {self.screen.text()!r}")

    def look_to_the_end(self):
        """Shows what comes until the program has let go of its end, for five minutes at most."""
        end = time.monotonic() + 300
        while self.look(1):
            if time.monotonic() > end:
                raise Wrong(f"the run goes on; on the screen: {self.screen.text()!r}")
        os.close(self.mine)


class Trial:
    """Runs of the program in a folder of their own."""

    def __init__(self, program, folder):
        self.program, self.folder = program, pathlib.Path(folder)
        self.write("changes", CHANGES)
        self.write("conf", CONF)

    def write(self, name, text):
        (self.folder / name).write_text(text)

    def text(self, name):
        return (self.folder / name).read_text()

    def on(self, terminal, words, stdin=subprocess.DEVNULL, stdout=subprocess.PIPE, stderr="terminal", **more):
        """A run to its end: its exit status, and what went to standard output where that is a pipe."""
        run = terminal.start([self.program, *words], self.folder, stdin=stdin, stdout=stdout, stderr=stderr, **more)
        terminal.look_to_the_end()
        told = run.communicate(timeout=120)[0]
        return run.returncode, None if told is None else told.decode()

    def modify(self, *words, copy="copy"):
        return ["slapmodify", "-b", "dc=com", "--data", copy, *words]

    def expect_files(self, copy):
        same(self.text("new"), copy + UNIT_TEXT, "the new copy")
        same(self.text("undo"), UNDO, "the undo file")


def comments(size):
    """Lines of LDIF that say nothing, of so many bytes."""
    line = "# " + "-" * 997 + "\n"
    whole, rest = divmod(size, len(line))
    text = line * whole + ("#" * (rest - 1) + "\n" if rest else "")
    assert len(text) == size
    return text


def large(size):
    """A copy of about so many bytes in canonical order, of values of a megabyte."""
    return ROOT + "".join(block(("dn", f"cn=a{n:03},dc=com"), ("cn", f"a{n:03}"), ("description", f"{n:03}" + "x" * 999_000)) for n in range(size // 1_012_800))


def megabytes(size):
    return size // 1_000_000


def read_by_steps(name, size):
    """What is told of a text of this size while it is read, up to its end."""
    steps = [f"slapkit: reading {name}, {megabytes(at)} of {megabytes(size)} MB" for at in range(STEP, size + 1, STEP)]
    return [*steps, f"slapkit: read {name}, {megabytes(size)} of {megabytes(size)} MB"]


def written_by_steps(name, size):
    steps = [f"slapkit: writing {name}, {megabytes(at)} MB" for at in range(STEP, size + 1, STEP)]
    return [f"slapkit: writing {name}", *steps, f"slapkit: writing {name}, {megabytes(size)} MB"]


# ---- what is tried


def a_long_run_tells_how_far_it_is(trial):
    copy = large(40_000_000)
    trial.write("copy", copy)
    terminal = Terminal()
    found = trial.on(terminal, trial.modify("-l", "changes", *ONTO), stdout="terminal")
    expect(found, (0, None))
    expect(terminal.screen.text(), "accepted 1, refused 0\n", "what is left on the screen")
    changes = ["slapkit: reading changes", "slapkit: read changes"]
    undo, syncing = ["slapkit: writing undo"] * 2, ["slapkit: syncing undo", "slapkit: syncing new"]
    wanted = [*read_by_steps("copy", len(copy)), *changes, *undo, *written_by_steps("new", len(copy + UNIT_TEXT)), *syncing]
    expect(terminal.screen.erased, wanted, "what was told")
    trial.expect_files(copy)
    return f"{len(wanted)} texts of the line for a copy of {megabytes(len(copy))} MB"


def a_question_tells_how_far_it_is(trial):
    copy = ROOT + comments(17_000_000)
    trial.write("copy", copy)
    terminal = Terminal()
    expect(trial.on(terminal, QUESTION, stdout="terminal"), (0, None))
    expect(terminal.screen.text(), "dc: =rscxd\n", "what is left on the screen")
    expect(terminal.screen.erased, read_by_steps("copy", len(copy)), "what was told")


def notes_stay_on_the_screen_without_the_line_of_progress(trial):
    # what is told of reading the configuration is gone before the first note, and what is told of reading the copy before the report
    conf, copy = CONF_WITH_NOTES + comments(9_000_000), ROOT + comments(17_000_000)
    trial.write("conf", conf)
    told = read_by_steps("conf", len(conf)), read_by_steps("copy", len(copy))
    for text, options, ended, left, erased in (
        (copy, [], 0, f"{NOTES}dc: =rscxd\n", [*told[0], *told[1]]),
        (copy, ["--strict"], 1, f"{NOTES}slapkit: not answered, because there are notes\n", told[0]),
        (ROOT, [], 0, f"{NOTES}dc: =rscxd\n", told[0]),
        (copy.replace("dc=com", "dc=org"), [], 1, f"{NOTES}slapkit: copy, line 1: 32 noSuchObject\nslapkit: note: no record of copy is the suffix's; the first is dc=org\n", None),
    ):
        trial.write("copy", text)
        terminal = Terminal()
        expect(trial.on(terminal, [*QUESTION, *options], stdout="terminal"), (ended, None), options)
        expect(terminal.screen.text(), left, "what is left on the screen")
        if erased is not None:
            expect(terminal.screen.erased, erased, "what was told")


def notes_are_told_on_a_narrow_terminal(trial):
    # a note is no line of progress: it is told whole, also where it takes several rows, as is what comes after it
    trial.write("conf", CONF_WITH_NOTES + comments(9_000_000))
    trial.write("copy", ROOT + comments(17_000_000))
    terminal = Terminal(30)
    expect(trial.on(terminal, QUESTION, stdout="terminal"), (0, None))
    rows = [line[at : at + 30] for line in f"{NOTES}dc: =rscxd".splitlines() for at in range(0, len(line), 30)]
    expect(terminal.screen.text(), "".join(f"{row}\n" for row in rows), "what is left on the screen")


def nothing_is_told_where_standard_error_is_no_terminal(trial):
    trial.write("copy", ROOT + comments(17_000_000))
    terminal = Terminal()
    with open(trial.folder / "said", "wb") as said:
        expect(trial.on(terminal, trial.modify("-l", "changes", "-u"), stdout="terminal", stderr=said), (0, None))
    expect(trial.text("said"), "", "standard error, a file")
    expect(terminal.screen.sent, "accepted 1, refused 0\r\n", "standard output, a terminal")
    piped = subprocess.run([trial.program, *trial.modify("-l", "changes", "-u")], cwd=trial.folder, stdin=subprocess.DEVNULL, capture_output=True, timeout=120)
    expect((piped.returncode, piped.stdout, piped.stderr), (0, b"accepted 1, refused 0\n", b""), "pipes")


def nothing_is_told_of_a_short_run(trial):
    for size, is_told in ((2_000, False), (STEP - 1, False), (STEP, True)):
        trial.write("copy", ROOT + comments(size - len(ROOT)))
        terminal = Terminal()
        found = trial.on(terminal, trial.modify("-l", "changes", "-u"))
        expect((found, terminal.screen.sent != ""), ((0, "accepted 1, refused 0\n"), is_told), f"a copy of {size} bytes")
        expect(terminal.screen.text(), "", "what is left on the screen")


def nothing_is_told_on_a_terminal_without_control_sequences(trial):
    trial.write("copy", ROOT + comments(17_000_000))
    terminal = Terminal()
    expect(trial.on(terminal, trial.modify("-l", "changes", "-u"), term="dumb"), (0, "accepted 1, refused 0\n"))
    expect(terminal.screen.sent, "")


def a_fault_is_alone_on_its_line(trial):
    copy = ROOT + comments(17_000_000)
    at = copy.count("\n") + 2
    trial.write("copy", f"{copy}\ndn: cn=a,ou=none,dc=com\ncn: a\n\n")
    terminal = Terminal()
    expect(trial.on(terminal, trial.modify("-l", "changes", *ONTO)), (1, ""))
    expect(len(terminal.screen.erased) > 0, True, "told before the fault")
    expect(terminal.screen.text(), f"slapkit: copy, line {at}: 32 noSuchObject\n", "what is left on the screen")
    expect(sorted(path.name for path in trial.folder.iterdir()), ["changes", "conf", "copy"], "files")


def a_size_is_told_only_where_it_is_known(trial):
    # a pipe has none, be it the standard input or under a name
    trial.write("copy", ROOT)
    os.mkfifo(trial.folder / "pipe")
    changes = CHANGES + "\n" + comments(17_000_000)
    steps = [megabytes(at) for at in range(STEP, len(changes) + 1, STEP)] + [megabytes(len(changes))]
    for words, name in ((["-u"], "changes"), (["-u", "-l", "pipe"], "pipe")):
        terminal = Terminal()
        run = terminal.start([trial.program, *trial.modify(*words)], trial.folder, stdin=subprocess.PIPE, stdout=subprocess.PIPE, stderr="terminal")
        with run, open(trial.folder / "pipe", "w") if name == "pipe" else open(os.dup(run.stdin.fileno()), "w") as pipe:
            run.stdin.close()
            pipe.write(changes)
            pipe.close()
            terminal.look_to_the_end()
            expect((run.stdout.read(), run.wait(120)), (b"accepted 1, refused 0\n", 0), name)
        told = [f"slapkit: {'reading' if i < len(steps) - 1 else 'read'} {name}, {n} MB" for i, n in enumerate(steps)]
        expect(terminal.screen.erased, told, "what was told")


def a_long_path_is_cut_and_escaped(trial):
    # on a narrow terminal too, where a line that was wrapped could not be erased
    copy, name = ROOT + comments(17_000_000), "a" * 50 + "/M\u00fcller\x1b[2J\n\u009b" + "b" * 30
    path = trial.folder / name
    path.parent.mkdir()
    path.write_text(copy)
    shown = "..." + name[-40:].replace("\x1b", "\\x1b").replace("\n", "\\x0a").replace("\u009b", "\\x9b")
    wanted = read_by_steps(shown, len(copy))
    for columns in (200, 30):
        terminal = Terminal(columns)
        expect(trial.on(terminal, trial.modify("-l", "/dev/null", "-u", copy=name), stdout="terminal"), (0, None))
        expect(terminal.screen.text(), "accepted 0, refused 0\n", "what is left on the screen")
        told = terminal.screen.erased[: len(wanted)]
        expect([line[: columns - 1] for line in told], [line[: columns - 1] for line in wanted], f"what was told in {columns} columns")


def changes_are_typed(trial):
    for copy in (ROOT, ROOT + comments(17_000_000)):
        trial.write("copy", copy)
        terminal = Terminal()
        words = [trial.program, *trial.modify(*ONTO)]
        run = terminal.start(words, trial.folder, stdin="terminal", stdout="terminal", stderr="terminal")
        terminal.look_until(lambda screen: screen.text() == f"{REQUEST}\n")
        os.write(terminal.mine, CHANGES.encode() + b"\x04")
        terminal.look_to_the_end()
        expect(run.wait(120), 0, "exit status")
        # the terminal itself shows what is typed
        typed = CHANGES.removesuffix("\n") + "\n"
        expect(terminal.screen.text().replace("^D", ""), f"{REQUEST}\n{typed}accepted 1, refused 0\n", "what is left on the screen")
        trial.expect_files(ROOT)
        for name in ("new", "undo"):
            (trial.folder / name).unlink()


def changes_are_asked_for_only_where_they_are_typed(trial):
    # not before a fault of the copy, nor where they come from a file, nor of a question
    trial.write("copy", ROOT + "dn: cn=a,ou=none,dc=com\ncn: a\n\n")
    for words, left in (
        (trial.modify("-u"), "slapkit: copy, line 4: 32 noSuchObject\n"),
        (trial.modify("-u", copy="none"), "slapkit: cannot open none\n" + NOT_FOUND),
        (trial.modify("-u", "-l", "/dev/null", copy="changes"), "slapkit: copy, line 1: L5 BadChangetype\n"),
        (trial.modify("-u", "-l", "none"), "slapkit: cannot open none\n" + NOT_FOUND),
        (["slapacl", "-b", "dc=com", "-f", "none", "--data", "copy"], "slapkit: cannot open none\n" + NOT_FOUND),
    ):
        terminal = Terminal()
        expect(trial.on(terminal, words, stdin="terminal"), (1, ""), words)
        expect(terminal.screen.text(), left, words)


def a_terminal_that_goes_away_changes_nothing(trial):
    copy = large(17_000_000)
    trial.write("copy", copy)
    terminal = Terminal()
    words = [trial.program, *trial.modify("-l", "changes", *ONTO)]
    run = terminal.start(words, trial.folder, stdin=subprocess.DEVNULL, stdout=subprocess.PIPE, stderr="terminal")
    with run:
        terminal.look_until(lambda screen: "reading" in screen.text())
        expect(run.poll(), None, "the run, which goes on")
        os.close(terminal.mine)
        told = run.communicate(timeout=120)[0]
    expect((run.returncode, told), (0, b"accepted 1, refused 0\n"))
    trial.expect_files(copy)


def nothing_is_told_from_the_background(trial):
    # a shell with job control starts the run in the background, and brings it to the foreground when a line is typed; Ctrl-Z stops it
    # there, the shell lets it go on in the background, and brings it back at the next line; the changes come through a pipe
    trial.write("copy", ROOT)
    os.mkfifo(trial.folder / "pipe")
    script = '"$@" & read line; fg; bg; read line; fg; echo status $?'
    words = ["sh", "-m", "-c", script, "sh", trial.program, *trial.modify("-l", "pipe", "-u")]
    terminal = Terminal()
    shell = terminal.start(words, trial.folder, stdin="terminal", stdout="terminal", stderr="terminal", of_its_own=True)

    def give(text):
        # (it has more than a pipe and a reader hold, so that most of it is read when all is given)
        pipe.write(text)
        pipe.flush()

    def type_and_wait(keys, is_in_front):
        os.write(terminal.mine, keys)
        terminal.look_until(lambda _: (os.tcgetpgrp(terminal.mine) != shell.pid) == is_in_front)

    more = comments(2 * STEP + 1_000_000)
    try:
        with open(trial.folder / "pipe", "w") as pipe:
            give(CHANGES + "\n" + more)
            terminal.look(1)
            expect("slapkit: reading" in terminal.screen.sent, False, "told in the background")
            type_and_wait(b"\n", True)
            give(more)
            terminal.look_until(lambda screen: f"slapkit: reading pipe, {megabytes(4 * STEP)} MB" in screen.sent)
            type_and_wait(b"\x1a", False)
            before = terminal.screen.sent.count("slapkit: reading"), terminal.screen.sent.count("\x1b[K")
            give(more)
            terminal.look(1)
            type_and_wait(b"\n", True)
            found = terminal.screen.sent.count("slapkit: reading"), terminal.screen.sent.count("\x1b[K")
            expect(found, before, "told in the background, the second time")
        terminal.look_to_the_end()
    except BaseException:
        shell.kill()
        raise
    finally:
        shell.wait(120)
    expect(terminal.screen.text().endswith("accepted 1, refused 0\nstatus 0\n"), True, f"at the end of {terminal.screen.text()!r}")


TRIALS = [
    a_long_run_tells_how_far_it_is,
    a_question_tells_how_far_it_is,
    notes_stay_on_the_screen_without_the_line_of_progress,
    notes_are_told_on_a_narrow_terminal,
    nothing_is_told_where_standard_error_is_no_terminal,
    nothing_is_told_of_a_short_run,
    nothing_is_told_on_a_terminal_without_control_sequences,
    a_fault_is_alone_on_its_line,
    a_size_is_told_only_where_it_is_known,
    a_long_path_is_cut_and_escaped,
    changes_are_typed,
    changes_are_asked_for_only_where_they_are_typed,
    a_terminal_that_goes_away_changes_nothing,
    nothing_is_told_from_the_background,
]


def tried(program, trial):
    with tempfile.TemporaryDirectory() as folder:
        return trial(Trial(program, folder))


def main():
    program = os.path.abspath(sys.argv[1])
    named = [(trial.__name__.replace("_", " "), lambda trial=trial: tried(program, trial)) for trial in TRIALS]
    sys.exit(checks.run("terminal", named))


main()
