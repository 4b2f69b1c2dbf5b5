#!/usr/bin/env python3
"""Runs slapkit on files: what it writes where, its exit statuses, and how it opens and makes files.

usage: program.py PROGRAM

What is tried of slapmodify is also tried under the types of a configuration (-f) that says nothing of the types of its texts: nothing may be otherwise.
"""
import os
import pathlib
import re
import subprocess
import sys
import tempfile
import time

sys.path.insert(0, str(pathlib.Path(__file__).resolve().parents[1]))

from harness import checks
from harness.checks import expect
from harness.repository import ROOT
from inputs.cases import OTHER_TYPES
from model.texts import NOTHING, block, deleted, renamed, undone

COPY = "dn: dc=com\ndc: com\n\n"
ADD = "dn: ou=people,DC=COM\nchangetype: add\ndescription: staff\n"
NEW = COPY + "dn: ou=people,dc=com\ndescription: staff\nou: people\n\n"
UNDO = "version: 1\n\n# undo 1\ndn: ou=people,dc=com\nchangetype: delete\n\n"
REDO = "version: 1\n\n# undo 1\ndn: ou=people,dc=com\nchangetype: add\ndescription: staff\nou: people\n\n"
MISSING = "dn: ou=none,dc=com\nchangetype: delete\n"
REFUSED = "line 1: refused, 32 noSuchObject\n"
NOT_FOUND = "slapkit: note: No such file or directory (os error 2)\n"
ONTO = ["--out", "new", "--undo", "undo"]
VERSION = re.search(r'^const VERSION: &str = "(.*)";$', (ROOT / "crates/slapkit/src/command.rt").read_text(), re.M)[1]


class Trial:
    """Runs of the program in a folder of their own. Those of slapmodify have these options before others."""

    def __init__(self, program, folder, files, options=()):
        self.program, self.folder, self.options = program, pathlib.Path(folder), options
        for name, text in files.items():
            (self.folder / name).write_text(text)

    def run(self, words, typed="", out=subprocess.PIPE, err=subprocess.PIPE, closed=()):
        """The exit status, and what went to standard output and to standard error. Some of these may be closed from the start."""

        def close():
            for stream in closed:
                os.close(stream)

        ended = subprocess.run(
            self.command(words), cwd=self.folder, input=typed.encode(), stdout=out, stderr=err, preexec_fn=close, timeout=60
        )
        return ended.returncode, (ended.stdout or b"").decode(), (ended.stderr or b"").decode()

    def command(self, words):
        options = self.options if words[:1] == ["slapmodify"] else ()
        return [self.program, *words[:1], *options, *words[1:]]

    def modify(self, *words, **how):
        return self.run(["slapmodify", "-b", "dc=com", "--data", "copy", *words], **how)

    def text(self, name):
        path = self.folder / name
        return path.read_bytes().decode() if path.exists() else None

    def write(self, name, text):
        (self.folder / name).write_text(text)

    def names(self):
        """The files in the folder, but for those that it began with."""
        return sorted(path.name for path in self.folder.iterdir() if path.name not in ("copy", "changes"))

    def expect_files(self, new, undo):
        expect(self.text("new"), new, "the new copy")
        expect(self.text("undo"), undo, "the undo file")

    def expect_no_files(self):
        expect(self.names(), [], "files made")


def with_reason(fault):
    """The lines of a fault, of which one that a file can't be opened has what the system said."""
    return f"slapkit: {fault}\n" + NOT_FOUND * fault.startswith("cannot open")


def an_add_is_taken_back(trial):
    expect(trial.modify("-l", "changes", *ONTO), (0, "accepted 1, refused 0\n", ""))
    trial.expect_files(NEW, UNDO)
    words = ["slapmodify", "-b", "DC=Com", "--data", "new", "-l", "undo", "--out", "back", "--undo", "redo", "-v"]
    expect(trial.run(words), (0, "line 4: accepted\naccepted 1, refused 0\n", ""))
    expect((trial.text("back"), trial.text("redo")), (COPY, REDO))


def a_rename_moves_what_is_below_and_is_taken_back(trial):
    def entries(above):
        unit, person = ("dn", f"ou=A,{above}"), ("dn", f"cn=Kim,ou=A,{above}")
        return block(unit, ("ou", "A")) + block(person, ("cn", "Kim"), ("sn", "Lee"))

    west, east = (block(("dn", f"ou={side},dc=com"), ("ou", side)) for side in ("west", "east"))
    copy = COPY + east + west + entries("ou=west,dc=com")
    # the unit moves with the person, who then is named by another value that is there
    changes = renamed("ou=a,ou=West,dc=com", "ou=A", "ou=EAST,dc=com") + renamed("cn=kim,ou=a,ou=east,dc=com", "sn=lee", delete_old=False)
    new = COPY + east + entries("ou=east,dc=com").replace("dn: cn=Kim", "dn: sn=lee") + west
    undo = undone(
        renamed("sn=lee,ou=A,ou=east,dc=com", "cn=Kim") + "dn: cn=Kim,ou=A,ou=east,dc=com\nchangetype: modify\nadd: sn\nsn: Lee\n-\n\n",
        renamed("ou=A,ou=east,dc=com", "ou=A", "ou=west,dc=com"),
    )
    trial.write("copy", copy)
    report = "line 1: accepted\nline 7: accepted\naccepted 2, refused 0\n"
    expect(trial.modify("-v", *ONTO, typed=changes), (0, report, ""))
    trial.expect_files(new, undo)
    words = ["slapmodify", "-b", "dc=com", "--data", "new", "-l", "undo", "--out", "back", "--undo", "redo"]
    expect(trial.run(words), (0, "accepted 3, refused 0\n", ""))
    expect(trial.text("back"), copy, "the copy again")


def a_rename_is_refused(trial):
    missing, below = "cn=none,dc=com", "ou=people,ou=people,dc=com"
    for changes, told in (
        (renamed(missing, "cn=other"), "32 noSuchObject"),
        (renamed("dc=com", "dc=org"), "53 unwillingToPerform"),
        (renamed("ou=people,dc=com", "ou=staff", below), "53 unwillingToPerform"),
        (renamed("ou=people,dc=com", "ou=staff", missing), "32 noSuchObject"),
        (renamed("ou=people,dc=com", "ou=Groups"), "68 entryAlreadyExists"),
        (renamed("dc=a,dc=com", "dc=b", delete_old=False), "19 constraintViolation"),
    ):
        copy = f"{NEW}dn: ou=groups,dc=com\nou: groups\n\ndn: dc=a,dc=com\ndc: a\n\n"
        trial.write("copy", copy)
        expect(trial.modify("-u", typed=changes), (1, f"line 1: refused, {told}\naccepted 0, refused 1\n", ""))


def changes_come_from_standard_input(trial):
    trial.write("changes", MISSING)
    expect(trial.modify(*ONTO, typed=ADD), (0, "accepted 1, refused 0\n", ""))
    trial.expect_files(NEW, UNDO)


def changes_come_from_their_file_alone(trial):
    expect(trial.modify("-l", "changes", *ONTO, typed=MISSING), (0, "accepted 1, refused 0\n", ""))
    trial.expect_files(NEW, UNDO)


def the_copy_and_the_changes_are_not_exchanged(trial):
    # content records are changes of no kind (L5), and change records are no copy
    expect(trial.modify("-l", "other", *ONTO)[2], "slapkit: cannot open other\n" + NOT_FOUND)
    trial.write("other", COPY)
    report = "line 1: refused, L5 BadChangetype\naccepted 0, refused 1\n"
    expect(trial.modify("-l", "other", *ONTO), (1, report, ""))
    trial.expect_files(COPY, NOTHING)
    words = ["slapmodify", "-b", "dc=com", "--data", "changes", "-l", "copy", "-u"]
    expect(trial.run(words), (1, "", "slapkit: copy, line 1: L5 BadChangetype\n"))


def no_changes_make_the_copy_again(trial):
    expect(trial.modify("-l", "/dev/null", *ONTO), (0, "accepted 0, refused 0\n", ""))
    trial.expect_files(COPY, NOTHING)


# two more changes after that of the typed one: of an entry below, by a modify of nothing, and by a delete
MORE = f"\n{block(('dn', 'ou=a,ou=people,dc=com'), ('changetype', 'add'))}dn: dc=com\nchangetype: modify\n\n{deleted('ou=a,ou=people,dc=com')}"
FOUR_BACK = ["dn: ou=a,ou=people,dc=com\nchangetype: add\nou: a\n\n", "", deleted("ou=a,ou=people,dc=com"), deleted("ou=people,dc=com")]
# the copies before these, the last one first
STEPS = [NEW, NEW + "dn: ou=a,ou=people,dc=com\nou: a\n\n", NEW + "dn: ou=a,ou=people,dc=com\nou: a\n\n", NEW, COPY]


def the_last_changes_are_taken_back(trial):
    expect(trial.modify(*ONTO, typed=f"{ADD}{MORE}"), (0, "accepted 4, refused 0\n", ""))
    trial.expect_files(NEW, undone(*FOUR_BACK))
    for last, (copy, count) in enumerate(zip(STEPS, (0, 1, 1, 2, 3))):
        out, redo = f"back{last}", f"redo{last}"
        words = ["slapmodify", "-b", "dc=com", "--data", "new", "-l", "undo", "--out", out, "--undo", redo, "--last", str(last)]
        expect(trial.run(words), (0, f"accepted {count}, refused 0\n", ""), last)
        expect(trial.text(out), copy, f"the copy before the last {last}")
        # the whole way forth again, also where the redo file's own marks are counted
        for forth in ([], ["--last", str(count)]):
            words = ["slapmodify", "-b", "dc=com", "--data", out, "-l", redo, "--out", "forth", "--undo", "undo2", *forth]
            expect(trial.run(words), (0, f"accepted {count}, refused 0\n", ""), last)
            expect(trial.text("forth"), NEW, f"the new copy again, after the last {last}")
            for name in ("forth", "undo2"):
                (trial.folder / name).unlink()


def no_more_changes_are_taken_back_than_were_made(trial):
    trial.write("many", undone(*FOUR_BACK))
    for copy, changes, last, told in (
        (NEW, "many", "5", "cannot go back 5, only 4 groups"),
        (NEW, "many", "18446744073709551615", "cannot go back 18446744073709551615, only 4 groups"),
        (COPY, "/dev/null", "1", "cannot go back 1, only 0 groups"),
        # change records of another origin
        (COPY, "changes", "1", "changes: L16 BadMark"),
    ):
        trial.write("copy", copy)
        for words in (ONTO, ["-u"], ["-c", *ONTO]):
            expect(trial.modify("-l", changes, "--last", last, *words), (1, "", f"slapkit: {told}\n"), last)
            expect(trial.names(), ["many"], "files made")


def a_number_of_changes_to_take_back_is_a_number(trial):
    for last in ("x", "-1", "", " 1", "1.0", "18446744073709551616"):
        status, told, said = trial.modify("-l", "/dev/null", *ONTO, f"--last={last}")
        expect((status, told, said != ""), (1, "", True), last)
        trial.expect_no_files()
    for words in (["--last", "-1"], ["--last"], ["--last", "1", "--last", "1"]):
        status, told, said = trial.modify("-l", "/dev/null", *ONTO, *words)
        expect((status, told, said != ""), (1, "", True), words)
        trial.expect_no_files()


def a_dry_run_touches_no_file(trial):
    report = "line 1: accepted\naccepted 1, refused 0\n"
    expect(trial.modify("-u", "-v", *ONTO, typed=ADD), (0, report, ""))
    trial.expect_no_files()


def a_dry_run_keeps_the_files_that_are_there(trial):
    trial.write("new", "kept")
    trial.write("undo", "kept too")
    expect(trial.modify("-u", *ONTO, typed=ADD), (0, "accepted 1, refused 0\n", ""))
    trial.expect_files("kept", "kept too")


def a_dry_run_with_a_refused_record_ends_with_status_1(trial):
    for words in ([], ONTO):
        report = f"{REFUSED}accepted 0, refused 1\n"
        expect(trial.modify("-u", *words, typed=f"{MISSING}\n{ADD}"), (1, report, ""))
        trial.expect_no_files()


def a_dry_run_goes_on_after_a_refused_record(trial):
    for words in ([], ONTO):
        report = f"{REFUSED}accepted 1, refused 1\n"
        expect(trial.modify("-u", "-c", *words, typed=f"{MISSING}\n{ADD}"), (1, report, ""))
        report = f"{REFUSED}line 4: accepted\naccepted 1, refused 1\n"
        expect(trial.modify("-u", "-c", "-v", *words, typed=f"{MISSING}\n{ADD}"), (1, report, ""))
        trial.expect_no_files()


def a_refused_record_ends_with_status_1(trial):
    report = f"{REFUSED}accepted 0, refused 1\n"
    expect(trial.modify(*ONTO, typed=f"{MISSING}\n{ADD}"), (1, report, ""))
    trial.expect_files(COPY, NOTHING)


def what_was_accepted_before_a_refused_record_is_written(trial):
    report = "line 5: refused, 32 noSuchObject\naccepted 1, refused 1\n"
    expect(trial.modify(*ONTO, typed=f"{ADD}\n{MISSING}"), (1, report, ""))
    trial.expect_files(NEW, UNDO)


def a_run_goes_on_after_a_refused_record(trial):
    report = f"{REFUSED}accepted 1, refused 1\n"
    expect(trial.modify("-c", *ONTO, typed=f"{MISSING}\n{ADD}"), (1, report, ""))
    trial.expect_files(NEW, UNDO)


def a_verbose_run_alone_does_not_go_on(trial):
    report = f"{REFUSED}accepted 0, refused 1\n"
    expect(trial.modify("-v", *ONTO, typed=f"{MISSING}\n{ADD}"), (1, report, ""))
    trial.expect_files(COPY, NOTHING)


def a_verbose_run_reports_each_record(trial):
    report = "line 1: accepted\nline 5: refused, 32 noSuchObject\naccepted 1, refused 1\n"
    expect(trial.modify("-v", *ONTO, typed=f"{ADD}\n{MISSING}"), (1, report, ""))
    trial.expect_files(NEW, UNDO)


def one_option_alone_is_refused(trial):
    options = (["-b", "dc=com"], ["--data", "copy"], ["--out", "new"], ["--undo", "undo"], ["-l", "changes"], ["-f", "changes"], ["--last", "1"])
    for words in (*options, ["-c"], ["-u"], ["-v"]):
        status, told, said = trial.run(["slapmodify", *words], typed=ADD)
        expect((status, told, said != ""), (1, "", True), words)
        trial.expect_no_files()


def each_of_four_options_is_needed(trial):
    options = {"-b": "dc=com", "--data": "copy", "--out": "new", "--undo": "undo"}
    for left_out in options:
        words = [word for option in options.items() if option[0] != left_out for word in option]
        status, told, said = trial.run(["slapmodify", *words], typed=ADD)
        expect((status, told, said != ""), (1, "", True), f"without {left_out}")
        trial.expect_no_files()
    words = [word for option in options.items() for word in option]
    expect(trial.run(["slapmodify", *words], typed=ADD), (0, "accepted 1, refused 0\n", ""))
    trial.expect_files(NEW, UNDO)


def a_fault_leaves_no_file(trial):
    expect(trial.modify(*ONTO, typed="version: 2\n"), (1, "", "slapkit: changes: L15 BadVersion\n"))
    trial.expect_no_files()
    # the same command runs again
    expect(trial.modify(*ONTO, typed=ADD), (0, "accepted 1, refused 0\n", ""))
    trial.expect_files(NEW, UNDO)


def a_faulty_copy_is_named_by_its_line(trial):
    trial.write("copy", f"{COPY}dn: cn=a,ou=none,dc=com\ncn: a\n\n")
    expect(trial.modify("-u"), (1, "", "slapkit: copy, line 4: 32 noSuchObject\n"))


def a_bad_suffix_is_refused(trial):
    # no name, none at all, and a backslash with nothing after it
    for suffix in ("com", "", "dc=com\\", "\\"):
        for words in (["-u"], ONTO):
            found = trial.run(["slapmodify", "-b", suffix, "--data", "copy", *words])
            expect(found, (1, "", "slapkit: bad question: suffix\n"), suffix)
        trial.expect_no_files()


def a_suffix_may_end_in_an_escaped_backslash(trial):
    trial.write("copy", "")
    words = ["slapmodify", "-b", "dc=com\\\\", "--data", "copy", *ONTO]
    expect(trial.run(words, typed="dn: dc=com\\\\\nchangetype: add\n"), (0, "accepted 1, refused 0\n", ""))
    trial.expect_files("dn: dc=com\\5C\ndc: com\\\n\n", "version: 1\n\n# undo 1\ndn: dc=com\\5C\nchangetype: delete\n\n")


def a_file_that_is_there_is_not_written_over(trial):
    trial.write("new", "kept")
    expect(trial.modify(*ONTO, typed=ADD), (1, "", "slapkit: exists already: new\n"))
    trial.expect_files("kept", None)


def a_file_that_comes_while_the_run_goes_on_is_not_written_over(trial):
    for name in ("undo", "new"):
        with running(trial, *ONTO) as run:
            # both drafts are there, and the run waits for the changes
            wait_for(lambda: len(trial.names()) == 2)
            trial.write(name, "kept")
            told, said = run.communicate(ADD.encode(), timeout=60)
        expect((run.returncode, told, said.decode()), (1, b"", f"slapkit: exists already: {name}\n"))
        expect(trial.names(), [name])
        expect(trial.text(name), "kept")
        (trial.folder / name).unlink()


def no_file_has_its_name_before_it_is_whole(trial):
    with running(trial, *ONTO) as run:
        wait_for(lambda: len(trial.names()) == 2)
        expect(trial.names(), ["new.slapkit-0", "undo.slapkit-0"])
        expect(run.communicate(ADD.encode(), timeout=60)[1], b"")
    trial.expect_files(NEW, UNDO)
    expect(trial.names(), ["new", "undo"])


def a_draft_that_was_left_behind_is_in_no_way(trial):
    left = [f"{name}.slapkit-{n}" for name in ("new", "undo") for n in range(3)]
    for name in left:
        trial.write(name, "left behind")
    expect(trial.modify(*ONTO, typed=ADD), (0, "accepted 1, refused 0\n", ""))
    trial.expect_files(NEW, UNDO)
    expect(trial.names(), sorted(["new", "undo", *left]))
    expect({trial.text(name) for name in left}, {"left behind"})


def files_are_read_and_written_by_those_who_read_and_write_the_copy(trial):
    umask = os.umask(0o027)
    try:
        for mode, made in ((0o600, 0o600), (0o640, 0o640), (0o664, 0o640), (0o644, 0o640), (0o400, 0o400), (0o755, 0o640)):
            (trial.folder / "copy").chmod(mode)
            expect(trial.modify(*ONTO, typed=ADD), (0, "accepted 1, refused 0\n", ""))
            for name in ("new", "undo"):
                path = trial.folder / name
                expect(oct(path.stat().st_mode & 0o7777), oct(made), f"mode of {name}, of a copy of mode {mode:o}")
                path.unlink()
    finally:
        os.umask(umask)


def a_draft_is_never_open_to_more(trial):
    (trial.folder / "copy").chmod(0o600)
    with running(trial, *ONTO) as run:
        wait_for(lambda: len(trial.names()) == 2)
        expect({oct(path.stat().st_mode & 0o7777) for path in trial.folder.glob("*.slapkit-*")}, {"0o600"})
        run.communicate(ADD.encode(), timeout=60)


def an_undo_file_that_is_there_comes_first(trial):
    trial.write("undo", "kept")
    expect(trial.modify(*ONTO, typed=ADD), (1, "", "slapkit: exists already: undo\n"))
    trial.expect_files(None, "kept")


def a_link_is_not_followed_to_a_file_that_is_made(trial):
    for name in ("undo", "new"):
        (trial.folder / name).symlink_to("elsewhere")
        expect(trial.modify(*ONTO, typed=ADD), (1, "", f"slapkit: exists already: {name}\n"))
        expect(trial.text("elsewhere"), None, "the file that the link names")
        (trial.folder / name).unlink()


def paths_must_differ(trial):
    # in a dry run too; of those that repeat an earlier one the first is named: the new copy, the undo file, the changes
    for dry in ([], ["-u"]):
        for words, named in (
            (["-l", "copy", *ONTO], "copy"),
            (["--out", "x", "--undo", "x"], "x"),
            (["--out", "copy", "--undo", "x", "-l", "x"], "copy"),
            (["--out", "x", "--undo", "copy", "-l", "x"], "copy"),
            (["--out", "x", "--undo", "x", "-l", "copy"], "x"),
            (["--out", "x", "--undo", "y", "-l", "y"], "y"),
        ):
            expect(trial.modify(*dry, *words, typed=ADD), (1, "", f"slapkit: same path twice: {named}\n"), words)
            trial.expect_no_files()
    for words, named in ((["--out", "copy"], "copy"), (["--undo", "x", "-l", "x"], "x")):
        expect(trial.modify("-u", *words), (1, "", f"slapkit: same path twice: {named}\n"), words)


def the_configuration_has_a_path_of_its_own(trial):
    # its path is the first of all
    for dry in ([], ["-u"]):
        for words, named in (
            (["-f", "copy", *ONTO, "-l", "copy"], "copy"),
            (["-f", "new", *ONTO], "new"),
            (["-f", "undo", *ONTO], "undo"),
            (["-f", "changes", "-l", "changes", *ONTO], "changes"),
            (["-f", "x", "--out", "y", "--undo", "y", "-l", "x"], "y"),
        ):
            expect(trial.modify(*dry, *words, typed=ADD), (1, "", f"slapkit: same path twice: {named}\n"), words)
            trial.expect_no_files()


# the paths of the configuration, the copy, the new copy, the undo file and the changes, a letter each, and the first that is the same as one before it
PATHS = [
    ("faabc", "a"),
    ("fabac", "a"),
    ("fabbc", "b"),
    ("fabca", "a"),
    ("fabcb", "b"),
    ("fabcc", "c"),
    ("fabcd", None),
    ("ffbcd", "f"),
    ("fafcd", "f"),
    ("fabfd", "f"),
    ("fabcf", "f"),
    ("faaff", "a"),
    ("fafaa", "f"),
]


def the_first_path_that_is_repeated_is_told(trial):
    for paths, named in PATHS:
        config, data, out, undo, changes = paths
        words = ["slapmodify", "-b", "dc=com", "-f", config, "--data", data, "--out", out, "--undo", undo, "-l", changes]
        told = f"same path twice: {named}" if named else f"cannot open {config}"
        for dry in ([], ["-u"]):
            expect(trial.run([*words, *dry]), (1, "", with_reason(told)), paths)
            trial.expect_no_files()


ROOM = "attributetype ( 1.3.6.1.4.1.32473.1 NAME ( 'room' 'roomName' )\n  EQUALITY caseIgnoreMatch SINGLE-VALUE )\n"
LEVEL = "attributetype ( 1.3.6.1.4.1.32473.2 NAME 'level' SUP uidNumber )\n"
IN_A_ROOM = COPY + "dn: cn=e,dc=com\ncn: e\nroom: A 1\n\n"


def adds(kind, *values):
    """A modify that adds these values."""
    return "dn: cn=e,dc=com\nchangetype: modify\n" + f"add: {kind}\n" + "".join(f"{kind}: {value}\n" for value in values) + "-\n\n"


def values_are_compared_by_the_types_of_the_configuration(trial):
    trial.write("copy", IN_A_ROOM)
    rooms = adds("roomName", "a  1") + adds("room", "b")
    refused = "line 1: refused, 20 attributeOrValueExists\nline 7: refused, 19 constraintViolation\naccepted 0, refused 2\n"
    for conf, changes, answer in (
        (ROOM, rooms, (1, refused)),
        # wherever it stands, whatever else is there, in any case, and with what continues the line
        (f'database config\nopen "quote\nATTRIBUTETYPE\t\n {ROOM[14:]}access to * by * read\\\n', rooms, (1, refused)),
        ("", rooms, (0, "accepted 2, refused 0\n")),
        # what is a comment, or of another directive, defines nothing
        (f"# a comment\n {ROOM}#{ROOM}include {ROOM}", rooms, (0, "accepted 2, refused 0\n")),
        (LEVEL, adds("level", "007"), (1, "line 1: refused, 21 invalidAttributeSyntax\naccepted 0, refused 1\n")),
        (LEVEL, adds("level", "7", "8"), (0, "accepted 1, refused 0\n")),
        ("attributetype ( 2.5.4.3 NAME 'fullName' )\n", adds("fullName", "E"), (1, "line 1: refused, 20 attributeOrValueExists\naccepted 0, refused 1\n")),
    ):
        trial.write("conf", conf)
        expect(trial.modify("-u", "-c", "-f", "conf", typed=changes), (*answer, ""), conf)
    expect(trial.modify("-u", "-c", typed=rooms), (0, "accepted 2, refused 0\n", ""), "without -f")
    expect(trial.names(), ["conf"], "files")


def a_run_under_the_types_of_a_configuration_is_taken_back(trial):
    trial.write("conf", ROOM)
    trial.write("copy", IN_A_ROOM)
    replaced = "dn: cn=e,dc=com\nchangetype: modify\nreplace: roomName\nroomName: b\n-\n"
    expect(trial.modify("-f", "conf", *ONTO, typed=replaced), (0, "accepted 1, refused 0\n", ""))
    trial.expect_files(IN_A_ROOM.replace("room: A 1", "roomName: b"), undone(replaced.replace("roomName: b", "room: A 1").replace("replace: roomName", "replace: room") + "\n"))
    words = ["slapmodify", "-b", "dc=com", "--data", "new", "-l", "undo", "--out", "back", "--undo", "redo", "-f", "conf"]
    expect(trial.run(words), (0, "accepted 1, refused 0\n", ""))
    expect(trial.text("back"), IN_A_ROOM, "the copy again")


def the_types_are_read_before_the_copy_is_opened(trial):
    bad = LEVEL.replace("uidNumber", "nothing")
    too_long = LEVEL + "#" * (16_777_216 - len(LEVEL))
    for conf, told in (
        (bad, "config, line 1: C12 BadType"),
        (f"{ROOM}\n# a comment\n\n{bad}{bad}", "config, line 6: C12 BadType"),
        (f"{LEVEL}{LEVEL}", "cannot open none"),
        (ROOM.replace("roomName", "sn"), "config, line 1: C12 BadType"),
        ("attributetype\n", "config, line 1: C12 BadType"),
        ("attributetype ( OLcfgAt:1 NAME 'a' )\n", "config, line 1: C12 BadType"),
        (too_long, "cannot open none"),
        (f"{too_long}#", "config, line 0: C11 ConfigTooLong"),
    ):
        trial.write("conf", conf)
        for words in (ONTO, ["-u"]):
            found = trial.run(["slapmodify", "-b", "dc=com", "--data", "none", "-f", "conf", *words], typed=ADD)
            expect(found, (1, "", with_reason(told)), conf[:200])
            expect(trial.names(), ["conf"], "files")
    for words in (ONTO, ["-u"]):
        found = trial.run(["slapmodify", "-b", "cn", "--data", "none", "-l", "nothing", "-f", "no", *words])
        expect(found, (1, "", "slapkit: cannot open no\n" + NOT_FOUND))
        expect(trial.modify("-f", ".", *words), (1, "", "slapkit: cannot read config\n"))


def the_types_of_a_question_are_those_of_its_configuration(trial):
    trial.write("copy", IN_A_ROOM)
    rules = f'{RULED}access to filter="(roomName=a  1)" by * none\n{READ_BY_ALL}'
    words = ["slapacl", "-b", "cn=e,dc=com", "-f", "conf", "--data", "copy", "room"]
    unknown = noted((3, 'unknown attribute "roomName"')) + 'slapkit: note: word "room": unknown attribute "room"\n'
    for conf, answer in (
        (f"{rules}{ROOM}", (0, "room: =0\n", "")),
        (rules, (0, "room: =rscxd\n", unknown)),
        (f"{rules}{ROOM}suffix\n{LEVEL.replace('uidNumber', 'x')}", (1, "", "slapkit: config, line 8: C12 BadType\n")),
    ):
        trial.write("conf", conf)
        expect(trial.run(words), answer, conf)


def the_copy_is_not_written_over(trial):
    for words in (["--out", "copy", "--undo", "undo"], ["--out", "new", "--undo", "copy"]):
        expect(trial.modify(*words, typed=ADD), (1, "", "slapkit: same path twice: copy\n"))
    expect(trial.modify("--out", "./copy", "--undo", "undo", typed=ADD), (1, "", "slapkit: exists already: ./copy\n"))
    expect(trial.text("copy"), COPY, "the copy")


def the_copy_is_opened_before_the_changes(trial):
    words = ["slapmodify", "-b", "dc=com", "--data", "none", "-l", "nothing", *ONTO]
    expect(trial.run(words), (1, "", "slapkit: cannot open none\n" + NOT_FOUND))
    expect(trial.modify("-l", "nothing", *ONTO), (1, "", "slapkit: cannot open nothing\n" + NOT_FOUND))
    trial.expect_no_files()


def a_folder_cannot_be_read(trial):
    words = ["slapmodify", "-b", "dc=com", "--data", ".", "-u"]
    expect(trial.run(words), (1, "", "slapkit: cannot read copy\n"))
    expect(trial.modify("-l", ".", "-u"), (1, "", "slapkit: cannot read changes\n"))


def a_full_device_is_told(trial):
    with open("/dev/full", "wb") as full:
        expect(trial.modify(*ONTO, typed=ADD, out=full), (1, "", "slapkit: cannot write report\n"))
    trial.expect_no_files()


def a_fault_that_cannot_be_told_ends_with_status_1(trial):
    with open("/dev/full", "wb") as full:
        expect(trial.modify(*ONTO, typed="version: 2\n", err=full), (1, "", ""))
        trial.expect_no_files()
        expect(trial.modify("-u", typed="version: 2\n", out=full, err=full), (1, "", ""))
        expect(trial.modify("-u", typed=ADD, out=full, err=full), (1, "", ""))
        expect(trial.run(["slapmodify", "-x"], err=full), (1, "", ""))


def a_report_needs_no_standard_error(trial):
    with open("/dev/full", "wb") as full:
        expect(trial.modify(*ONTO, typed=ADD, err=full), (0, "accepted 1, refused 0\n", ""))
        trial.expect_files(NEW, UNDO)
        expect(trial.modify("-u", typed=MISSING, err=full), (1, f"{REFUSED}accepted 0, refused 1\n", ""))


def a_reader_that_is_gone_is_told(trial):
    left, right = os.pipe()
    os.close(left)
    with open(right, "wb") as gone:
        expect(trial.modify(*ONTO, typed=ADD, out=gone), (1, "", "slapkit: cannot write report\n"))
    trial.expect_no_files()


def a_closed_standard_input_is_no_text(trial):
    expect(trial.modify(*ONTO, closed=[0]), (1, "", "slapkit: cannot read changes\n"))
    trial.expect_no_files()
    expect(trial.modify("-l", "changes", *ONTO, closed=[0]), (0, "accepted 1, refused 0\n", ""))
    trial.expect_files(NEW, UNDO)


def a_closed_standard_output_is_no_file_of_the_run(trial):
    expect(trial.modify("-l", "changes", *ONTO, closed=[1]), (1, "", "slapkit: cannot write report\n"))
    expect(trial.modify("-l", "changes", "-u", closed=[1]), (1, "", "slapkit: cannot write report\n"))
    trial.expect_no_files()


def a_closed_standard_error_is_no_file_of_the_run(trial):
    expect(trial.modify("-l", "changes", *ONTO, closed=[2]), (0, "accepted 1, refused 0\n", ""))
    trial.expect_files(NEW, UNDO)
    expect(trial.modify("-l", "changes", *ONTO, closed=[2]), (1, "", ""))
    trial.expect_files(NEW, UNDO)


def without_standard_streams_no_text_is_written_into_a_file_of_the_run(trial):
    expect(trial.modify("-l", "changes", *ONTO, closed=[0, 1, 2]), (1, "", ""))
    trial.expect_no_files()
    expect(trial.modify(*ONTO, closed=[0, 2]), (1, "", ""))
    trial.expect_no_files()


def control_characters_of_a_path_are_escaped(trial):
    for path, told in (
        ("no\nfile", "no\\x0afile"),
        ("\x1b[31mred", "\\x1b[31mred"),
        ("\t\x7f", "\\x09\\x7f"),
        ("\x80\x9bm", "\\x80\\x9bm"),
        ("M\u00fcller \\ \u65e5\u672c \xa0", "M\u00fcller \\ \u65e5\u672c \xa0"),
    ):
        expect(trial.modify("-l", path, "-u"), (1, "", f"slapkit: cannot open {told}\n" + NOT_FOUND))
        expect(trial.modify("--out", path, "--undo", path), (1, "", f"slapkit: same path twice: {told}\n"))
        trial.write(path, "kept")
        expect(trial.modify("--out", path, "--undo", "undo"), (1, "", f"slapkit: exists already: {told}\n"))


def a_folder_that_is_missing_is_told(trial):
    expect(trial.modify("--out", "none/new", "--undo", "undo"), (1, "", "slapkit: cannot open none/new\n" + NOT_FOUND))
    expect(trial.modify("--out", "new", "--undo", "none/undo"), (1, "", "slapkit: cannot open none/undo\n" + NOT_FOUND))
    trial.expect_no_files()


def a_folder_may_be_another_one(trial):
    for name in ("a", "b"):
        (trial.folder / name).mkdir()
    undo = f"{trial.folder}/a/undo"
    expect(trial.modify("--out", "b//new", "--undo", undo, typed=ADD), (0, "accepted 1, refused 0\n", ""))
    expect((trial.text("b/new"), trial.text("a/undo")), (NEW, UNDO))
    expect([sorted(path.name for path in (trial.folder / name).iterdir()) for name in ("a", "b")], [["undo"], ["new"]])


CONF = "database mdb\nsuffix dc=com\naccess to attrs=dc by * =cs break\naccess to * by users +r\n"


def ask(trial, *words, **how):
    trial.write("conf", CONF)
    return trial.run(["slapacl", "-b", "dc=com", "-f", "conf", "--data", "copy", *words], **how)


def a_question_is_answered(trial):
    expect(ask(trial), (0, "entry: =0\n", ""))
    expect(ask(trial, "-D", "cn=u,dc=com", "-v", "dc", "ENTRY", "dc/read:x", "dc/write"), (
        0,
        "authcDN: cn=u,dc=com\ndc: =rsc\nENTRY: =r\ndc/read: ALLOWED\ndc/write: DENIED\n",
        "",
    ))
    expect(ask(trial, "-D", "", "-v", "dc"), (0, "authcDN: anonymous\ndc: =0\n", ""))
    expect(trial.names(), ["conf"], "files")


def a_question_of_a_missing_entry_needs_its_option(trial):
    words = ["slapacl", "-f", "conf", "--data", "copy", "-D", "cn=u,dc=com"]
    trial.write("conf", CONF)
    expect(trial.run([*words, "-b", "cn=no,dc=com"]), (1, "", "slapkit: no such entry\n"))
    expect(trial.run([*words, "-b", "cn=no,dc=com", "-u"]), (0, "entry: =r\n", ""))
    expect(trial.run([*words, "-b", "dc=org", "-u"]), (1, "", "slapkit: no such entry\n"))


def faults_of_questions_are_told(trial):
    rows = [
        (CONF + "access to * by peername.ip=127.0.0.1 read\n", [], "config, line 5: C2 Unsupported"),
        ("access to * by * read\n", [], "config, line 1: C7 GlobalAccess"),
        ("database mdb\n", [], "config, line 0: C10 NoSuffix"),
        (CONF, ["-D", "cn"], "bad question: authcDN"),
        (CONF, ["cn", "cn/peek"], "bad question: word 2"),
        (CONF.replace("dc=com", "dc=org"), [], "copy, line 1: 32 noSuchObject\nslapkit: note: no record of copy is the suffix's; the first is dc=com"),
    ]
    for conf, words, told in rows:
        trial.write("conf", conf)
        expect(trial.run(["slapacl", "-b", "dc=com", "-f", "conf", "--data", "copy", *words]), (1, "", f"slapkit: {told}\n"))
    trial.write("conf", CONF)
    expect(trial.run(["slapacl", "-b", "cn", "-f", "conf", "--data", "copy"]), (1, "", "slapkit: bad question: base\n"))
    for conf, data, told in (("copy", "copy", "same path twice: copy"), ("none", "no", "cannot open none"), ("copy", "no", "cannot open no")):
        expect(trial.run(["slapacl", "-b", "dc=com", "-f", conf, "--data", data]), (1, "", with_reason(told)))


RULED = "database mdb\nsuffix dc=com\n"
READ_BY_ALL = "access to * by * read\n"
NOT_ANSWERED = "slapkit: not answered, because there are notes\n"


def noted(*notes):
    """The lines on standard error, of the number of a line of the configuration and a note."""
    return "".join(f"slapkit: note: config, line {line}: {note}\n" for line, note in notes)


def question_under(trial, conf, *words, **how):
    trial.write("conf", conf)
    return trial.run(["slapacl", "-b", "dc=com", "-f", "conf", "--data", "copy", *words, "dc"], **how)


CLASSES = "objectClass: only the classes that an entry lists are looked at"
PASSED_OVER = "access rule of database config or monitor is passed over"
NO_RULE = "slapkit: note: config: no access rule, so everybody may read\n"
# Rules that slapd reads otherwise, or reads more of, with what the kit answers by them and what it tells of them.
READ_OTHERWISE = [
    ("include acl.conf\n", "=rscxd", ['include "acl.conf" is not read']),
    ("access to attrs=posixAccount by * none\n", "=rscxd", ['unknown attribute "posixAccount"']),
    ("access to attrs=gn filter=(rfc822Mailbox=*) by * none\n", "=rscxd", ['unknown attribute "gn"', 'unknown attribute "rfc822Mailbox"']),
    ("access to attrs=userPasswrd by * none\n", "=rscxd", ['unknown attribute "userPasswrd"']),
    ("access to filter=(objectClass=person) by * none\n", "=rscxd", [CLASSES]),
    ("access to filter=(employeeType=Internal) by * none\n", "=rscxd", ['unknown attribute "employeeType"']),
    ("access to filter=(!(foo=bar)) by * none\n", "=0", ['unknown attribute "foo"']),
]


def each_note_is_told(trial):
    for line, answer, notes in READ_OTHERWISE:
        wanted = (0, f"dc: {answer}\n", noted(*((3, note) for note in notes)))
        expect(question_under(trial, RULED + line + READ_BY_ALL), wanted, line)
        # all on one line that is folded after its first word
        folded = "# a comment\n" + RULED + READ_BY_ALL.replace(" to", "\n  to") + line.replace(" ", "\n\t ", 1)
        wanted = (0, "dc: =rscxd\n", noted(*((6, note) for note in notes)))
        expect(question_under(trial, folded), wanted, folded)
    for part in ("config", "Monitor"):
        passed_over = f"{RULED}{READ_BY_ALL}database {part}\ninclude x\naccess to attrs=gn by * none\naccess\n"
        expect(question_under(trial, passed_over), (0, "dc: =rscxd\n", noted((6, PASSED_OVER), (7, PASSED_OVER))), part)
    expect(question_under(trial, RULED), (0, "dc: =rscxd\n", NO_RULE), "no rule")


def a_word_of_an_unknown_type_has_a_note(trial):
    named = f"{RULED}access to attrs=givenName,entry by * none\n{READ_BY_ALL}"
    asked = ("gn/read", "ENTRY", "givenName", "entryUUID;x-a/write:gn", "Children", "2.5.4.42", "gn")
    notes = [f'slapkit: note: word "{word}": unknown attribute "{kind}"\n' for word, kind in ((asked[0], "gn"), (asked[3], "entryUUID;x-a"), (asked[6], "gn"))]
    report = "gn/read: ALLOWED\nENTRY: =0\ngivenName: =0\nentryUUID;x-a/write: DENIED\nChildren: =rscxd\n2.5.4.42: =0\ngn: =rscxd\ndc: =rscxd\n"
    expect(question_under(trial, named, *asked), (0, report, "".join(notes)))
    expect(question_under(trial, named, "--strict", *asked), (1, "", "".join(notes) + NOT_ANSWERED), "strict")
    # words of known types, and what is no word, have none
    expect(question_under(trial, named, "--strict", "cn/read", "entry", "children/none"), (0, "cn/read: ALLOWED\nentry: =0\nchildren/none: ALLOWED\ndc: =rscxd\n", ""))
    expect(question_under(trial, named, "--strict", "gn/peek", "a b", "/read"), (1, "", "slapkit: bad question: word 1\n"))
    # after the notes on the configuration, before the faults of the question and of the copy
    told = noted((1, 'include "x" is not read')) + notes[0] + 'slapkit: note: word "foo:\\x1b[2J\u00fc": unknown attribute "foo"\n'
    expect(question_under(trial, f"include x\n{named}", "gn/read", "foo:\x1b[2J\u00fc", "cn/peek"), (1, "", f"{told}slapkit: bad question: word 3\n"))
    expect(question_under(trial, f"{RULED}access to x by * read\n", "gn"), (1, "", "slapkit: config, line 3: C2 Unsupported\n"))
    with open("/dev/full", "wb") as full:
        expect(question_under(trial, named, "gn", err=full), (1, "", ""))
        expect(question_under(trial, named, "cn", err=full), (0, "cn: =rscxd\ndc: =rscxd\n", ""))


def the_notes_on_classes_are_told(trial):
    # of any test but that of presence, by the name or the number of objectClass
    for test, is_noted in (
        ("(objectClass=domain)", True),
        ("(OBJECTCLASS=dom*)", True),
        ("(2.5.4.0~=domain)", True),
        ("(!(objectClass>=domain))", True),
        ("objectClass=domain", True),
        ("(objectClass=*)", False),
        ("(2.5.4.0=*)", False),
        ("objectClass=*", False),
        ("(dc=objectClass)", False),
    ):
        conf = f"{RULED}access to filter={test} by * none\n{READ_BY_ALL}"
        expect(question_under(trial, conf)[2], noted((3, CLASSES)) if is_noted else "", test)


def a_configuration_without_notes_has_nothing_on_standard_error(trial):
    rules = "access to attrs=dc,domainComponent;x,entry,CHILDREN,2.5.4.3 filter=(&(cn=*)(!(2.5.4.4>=a))(objectClass=*)) by dnattr=manager write\n"
    other = "modulepath /usr/lib/ldap\n# include x\nattrs=gn filter=(gn=a)\n"
    passed_over = "database monitor\ninclude x\nrootdn x\n# access to *\n"
    for words in ([], ["--strict"]):
        expect(question_under(trial, other + RULED + rules + READ_BY_ALL + passed_over, *words), (0, "dc: =rscxd\n", ""))


def notes_are_told_in_the_order_of_the_lines(trial):
    rule = "access to attrs=gn\n  filter=(&(foo=a)(|(objectClass=b)(gn=c)))\n  by users read\n"
    conf = f"include a b\n{RULED}\n{rule}database config\naccess to *\n"
    unknown = [(5, f'unknown attribute "{name}"') for name in ("gn", "foo", "gn")]
    told = noted((1, 'include "a" is not read'), *unknown[:2], (5, CLASSES), unknown[2], (9, PASSED_OVER))
    expect(question_under(trial, conf), (0, "dc: =0\n", told))
    conf = f"{RULED}include\ndatabase config\naccess to *\ninclude x\n"
    told = noted((3, 'include "" is not read'), (5, PASSED_OVER)) + NO_RULE
    expect(question_under(trial, conf), (0, "dc: =rscxd\n", told), "no rule comes last")


def notes_come_before_the_faults_of_what_is_read_later(trial):
    conf = f"include x\n{RULED}"
    told = noted((1, 'include "x" is not read')) + NO_RULE
    for words, copy, fault in (
        ([], f"{COPY}dn: cn=a,ou=none,dc=com\ncn: a\n\n", "copy, line 4: 32 noSuchObject"),
        ([], "", "no such entry\nslapkit: note: copy has no record"),
        (["-D", "x"], COPY, "bad question: authcDN"),
        (["cn/peek"], COPY, "bad question: word 1"),
    ):
        trial.write("copy", copy)
        expect(question_under(trial, conf, *words), (1, "", f"{told}slapkit: {fault}\n"), fault)
    trial.write("copy", COPY)
    with open("/dev/full", "w") as full:
        expect(question_under(trial, conf, out=full), (1, "", f"{told}slapkit: cannot write report\n"))


def a_faulty_configuration_has_its_fault_and_no_note(trial):
    with_notes = f"include x\n{RULED}access to attrs=gn by * read\n"
    for more, fault in (
        ("access to * by peername=x read\n", "line 5: C2 Unsupported"),
        ("database config\naccess to *\ndatabase mdb\n", "line 7: C5 SecondDatabase"),
    ):
        for words in ([], ["--strict"]):
            expect(question_under(trial, with_notes + more, *words), (1, "", f"slapkit: config, {fault}\n"), fault)
    # nor has one that was not read, since a file can't be opened
    words = ["slapacl", "-b", "dc=com", "-f", "conf", "--data", "none"]
    expect(trial.run(words), (1, "", "slapkit: cannot open none\n" + NOT_FOUND))


def the_argument_of_a_fault_is_told_with_its_option(trial):
    open_quote = "line 3: an open quote or a final backslash"
    for conf, fault, told in (
        (f"{RULED}access to *\n  by self\r\n\tselfwrite\n  by * read\n", "line 3: C2 Unsupported", 'line 5: "selfwrite"'),
        (f'{RULED}access to *\n by "\x1b[2J\u00fc \\" read\n', "line 3: C1 BadDirective", "line 4: an open quote or a final backslash"),
        (f'{RULED}access to *\n by "\x1b[2J\u00fc" read\n', "line 3: C2 Unsupported", 'line 4: "\\x1b[2J\u00fc"'),
        (f'{RULED}access to * by * "read\n', "line 3: C1 BadDirective", open_quote),
        (f"{RULED}access to * by * read\\", "line 3: C1 BadDirective", open_quote),
        (f"include x\n{RULED}suffix\n dc=org\n", "line 4: C6 SecondSuffix", 'line 5: "dc=org"'),
        ("# a comment\n\naccess to * by * read\n", "line 3: C7 GlobalAccess", 'line 3: "access"'),
        ("database mdb\n", "line 0: C10 NoSuffix", ""),
    ):
        fault = f"slapkit: config, {fault}\n"
        expect(question_under(trial, conf), (1, "", fault), conf)
        expect(question_under(trial, conf, "-v"), (1, "", fault + (f"slapkit: note: {told}\n" if told else "")), conf)
    # an answer is about none, nor is a fault of the question
    expect(question_under(trial, RULED + READ_BY_ALL, "-v"), (0, "authcDN: anonymous\ndc: =rscxd\n", ""))
    expect(question_under(trial, RULED + READ_BY_ALL, "-v", "dc/peek"), (1, "", "slapkit: bad question: word 1\n"))


def a_strict_question_is_answered_only_where_there_is_no_note(trial):
    told = noted((1, 'include "x" is not read'), (4, 'unknown attribute "gn"'))
    with_notes = f"include x\n{RULED}access to attrs=gn by * none\n{READ_BY_ALL}"
    expect(question_under(trial, with_notes, "--strict"), (1, "", told + NOT_ANSWERED))
    expect(question_under(trial, with_notes, "--strict", "-v", "-D", "x"), (1, "", told + NOT_ANSWERED), "before other faults")
    expect(question_under(trial, with_notes), (0, "dc: =rscxd\n", told))
    expect(question_under(trial, RULED, "--strict"), (1, "", NO_RULE + NOT_ANSWERED))
    expect(question_under(trial, RULED + READ_BY_ALL, "--strict"), (0, "dc: =rscxd\n", ""))


def control_characters_of_a_note_are_escaped(trial):
    for name, told in (
        ("a\tb", "a\\x09b"),
        ("\x1b[31mred", "\\x1b[31mred"),
        ("\x7f\x80\x9bm", "\\x7f\\x80\\x9bm"),
        ("M\u00fcller \u65e5\u672c \xa0", "M\u00fcller \u65e5\u672c \xa0"),
    ):
        expect(question_under(trial, f'include "{name}"\n{RULED}{READ_BY_ALL}')[2], noted((1, f'include "{told}" is not read')))
    for data in (b"\xff", b"a\xc3", b"\xc0\x80", b"\xed\xa0\x80\n\t"):
        (trial.folder / "conf").write_bytes(b"include " + data + b"\n" + (RULED + READ_BY_ALL).encode())
        words = ["slapacl", "-b", "dc=com", "-f", "conf", "--data", "copy", "dc"]
        expect(trial.run(words), (0, "dc: =rscxd\n", noted((1, 'include "(not UTF-8)" is not read'))), data)


def notes_that_cannot_be_told_end_the_run(trial):
    with open("/dev/full", "wb") as full:
        for words in ([], ["--strict"]):
            expect(question_under(trial, RULED, *words, err=full), (1, "", ""))
            expect(question_under(trial, RULED, *words, closed=[2]), (1, "", ""))
            # where there is no note, nothing is to be written there
            expect(question_under(trial, RULED + READ_BY_ALL, *words, err=full), (0, "dc: =rscxd\n", ""))
            expect(question_under(trial, RULED + READ_BY_ALL, *words, closed=[2]), (0, "dc: =rscxd\n", ""))


def a_question_is_not_answered_on_a_full_device(trial):
    with open("/dev/full", "w") as full:
        expect(ask(trial, out=full), (1, "", "slapkit: cannot write report\n"))


def access_is_as_before_once_a_run_is_taken_back(trial):
    trial.write("change", "dn: dc=com\nchangetype: modify\nadd: manager\nmanager: cn=m,dc=com\n-\n")
    conf = "database mdb\nsuffix dc=com\naccess to * by dnattr=manager write by * read\n"
    trial.write("conf", conf)

    def answers(copy):
        words = ["slapacl", "-b", "dc=com", "-f", "conf", "--data", copy, "-D", "cn=m,dc=com", "dc"]
        return trial.run(words)

    before = answers("copy")
    expect(trial.modify("-l", "change", *ONTO)[0], 0)
    expect(answers("new"), (0, "dc: =wrscxd\n", ""))
    back = ["slapmodify", "-b", "dc=com", "--data", "new", "-l", "undo", "--out", "back", "--undo", "redo"]
    expect(trial.run(back)[0], 0)
    expect((before, answers("back")), ((0, "dc: =rscxd\n", ""),) * 2)


def letters_are_folded_and_not_only_made_small(trial):
    """RFC 4518: ß is ss, and a final sigma is a sigma. slapd holds these apart."""
    sharp, sigma = block(("dn", "cn=Stra\u00dfe,dc=com"), ("cn", "Stra\u00dfe")), ("\u03a0\u03ad\u03c4\u03c1\u03bf\u03c2", "\u03a0\u03ad\u03c4\u03c1\u03bf\u03c3")
    trial.write("copy", COPY + sharp)
    found = "dn: cn=Strasse,dc=com\nchangetype: delete\n"
    expect(trial.modify("-u", typed=found), (0, "accepted 1, refused 0\n", ""))
    for values in (("Wei\u00df", "Weiss"), sigma):
        added = block(("dn", "cn=b,dc=com"), ("changetype", "add"), *(("sn", value) for value in values))
        expect(trial.modify("-u", typed=added), (1, "line 1: refused, 20 attributeOrValueExists\naccepted 0, refused 1\n", ""))
    sibling = block(("dn", "cn=Strasse,dc=com"), ("cn", "Strasse"))
    trial.write("copy", COPY + sharp + sibling)
    expect(trial.modify("-u", "-l", "/dev/null"), (1, "", "slapkit: copy, line 7: 68 entryAlreadyExists\n"))
    conf = "database mdb\nsuffix dc=com\naccess to dn.base=cn=Strasse,dc=com by * =r\naccess to * by * =x\n"
    trial.write("copy", COPY + sharp)
    trial.write("conf", conf)
    expect(trial.run(["slapacl", "-b", "cn=STRASSE,dc=com", "-f", "conf", "--data", "copy", "cn"]), (0, "cn: =r\n", ""))


def a_faulty_command_line_ends_with_status_1(trial):
    for words in ([], ["slapadd"], ["slapmodify"], ["slapconf"], ["slapmodify", "-b", "dc=com", "--data", "copy"]):
        status, told, said = trial.run(words)
        expect((status, told, said != ""), (1, "", True), words)


def words_that_are_not_utf_8_are_refused(trial):
    status, told, said = trial.modify("-l", b"\xff", "-u")
    expect((status, told), (1, ""))
    expect(said.startswith("slapkit: cannot read the command line: "), True, said)


def help_ends_with_status_0(trial):
    for words in (["--help"], ["slapmodify", "--help"], ["slapacl", "--help"], ["slapconf", "--help"], ["help", "slapmodify"]):
        status, told, said = trial.run(words)
        expect((status, told != "", said), (0, True, ""), words)


def the_version_is_told(trial):
    for words in (["--version"], ["-V"]):
        expect(trial.run(words), (0, f"slapkit {VERSION}\n", ""), words)


# ---- runs that are looked at while they go on


def running(trial, *words):
    """A run that waits for the changes on its standard input."""
    words = ["slapmodify", "-b", "dc=com", "--data", "copy", *words]
    return subprocess.Popen(trial.command(words), cwd=trial.folder, stdin=subprocess.PIPE, stdout=subprocess.PIPE, stderr=subprocess.PIPE)


def wait_for(holds):
    """Waits until it holds, for a minute at most."""
    for _ in range(6000):
        if holds():
            return
        time.sleep(0.01)
    raise checks.Wrong("waited for a minute")


# what is tried of slapmodify, also under other types
RUNS = [
    an_add_is_taken_back,
    a_rename_moves_what_is_below_and_is_taken_back,
    a_rename_is_refused,
    changes_come_from_standard_input,
    changes_come_from_their_file_alone,
    the_copy_and_the_changes_are_not_exchanged,
    no_changes_make_the_copy_again,
    the_last_changes_are_taken_back,
    no_more_changes_are_taken_back_than_were_made,
    a_number_of_changes_to_take_back_is_a_number,
    a_dry_run_touches_no_file,
    a_dry_run_keeps_the_files_that_are_there,
    a_dry_run_with_a_refused_record_ends_with_status_1,
    a_dry_run_goes_on_after_a_refused_record,
    a_refused_record_ends_with_status_1,
    what_was_accepted_before_a_refused_record_is_written,
    a_run_goes_on_after_a_refused_record,
    a_verbose_run_alone_does_not_go_on,
    a_verbose_run_reports_each_record,
    each_of_four_options_is_needed,
    a_fault_leaves_no_file,
    a_faulty_copy_is_named_by_its_line,
    a_bad_suffix_is_refused,
    a_suffix_may_end_in_an_escaped_backslash,
    a_file_that_is_there_is_not_written_over,
    a_file_that_comes_while_the_run_goes_on_is_not_written_over,
    no_file_has_its_name_before_it_is_whole,
    a_draft_that_was_left_behind_is_in_no_way,
    files_are_read_and_written_by_those_who_read_and_write_the_copy,
    a_draft_is_never_open_to_more,
    an_undo_file_that_is_there_comes_first,
    a_link_is_not_followed_to_a_file_that_is_made,
    paths_must_differ,
    the_copy_is_not_written_over,
    the_copy_is_opened_before_the_changes,
    a_folder_cannot_be_read,
    a_full_device_is_told,
    a_fault_that_cannot_be_told_ends_with_status_1,
    a_report_needs_no_standard_error,
    a_reader_that_is_gone_is_told,
    a_closed_standard_input_is_no_text,
    a_closed_standard_output_is_no_file_of_the_run,
    a_closed_standard_error_is_no_file_of_the_run,
    without_standard_streams_no_text_is_written_into_a_file_of_the_run,
    control_characters_of_a_path_are_escaped,
    a_folder_that_is_missing_is_told,
    a_folder_may_be_another_one,
    access_is_as_before_once_a_run_is_taken_back,
    letters_are_folded_and_not_only_made_small,
]
OTHERS = [
    one_option_alone_is_refused,
    the_configuration_has_a_path_of_its_own,
    the_first_path_that_is_repeated_is_told,
    values_are_compared_by_the_types_of_the_configuration,
    a_run_under_the_types_of_a_configuration_is_taken_back,
    the_types_are_read_before_the_copy_is_opened,
    the_types_of_a_question_are_those_of_its_configuration,
    a_question_is_answered,
    a_question_of_a_missing_entry_needs_its_option,
    faults_of_questions_are_told,
    each_note_is_told,
    a_word_of_an_unknown_type_has_a_note,
    the_notes_on_classes_are_told,
    a_configuration_without_notes_has_nothing_on_standard_error,
    notes_are_told_in_the_order_of_the_lines,
    notes_come_before_the_faults_of_what_is_read_later,
    a_faulty_configuration_has_its_fault_and_no_note,
    the_argument_of_a_fault_is_told_with_its_option,
    a_strict_question_is_answered_only_where_there_is_no_note,
    control_characters_of_a_note_are_escaped,
    notes_that_cannot_be_told_end_the_run,
    a_question_is_not_answered_on_a_full_device,
    a_faulty_command_line_ends_with_status_1,
    words_that_are_not_utf_8_are_refused,
    help_ends_with_status_0,
    the_version_is_told,
]


def tried(program, trial):
    with tempfile.TemporaryDirectory() as folder:
        trial(Trial(program, folder, {"copy": COPY, "changes": ADD}))


def tried_under_other_types(program, trial):
    with tempfile.TemporaryDirectory() as folder, tempfile.NamedTemporaryFile() as types:
        types.write(OTHER_TYPES)
        types.flush()
        trial(Trial(program, folder, {"copy": COPY, "changes": ADD}, ["-f", types.name]))


def shown(trial):
    return trial.__name__.replace("_", " ")


def main():
    program = os.path.abspath(sys.argv[1])
    named = [(shown(trial), lambda trial=trial: tried(program, trial)) for trial in RUNS + OTHERS]
    named += [(f"{shown(trial)}, under other types", lambda trial=trial: tried_under_other_types(program, trial)) for trial in RUNS]
    sys.exit(checks.run("program", named))


main()
