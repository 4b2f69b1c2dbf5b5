#!/usr/bin/env python3
"""Runs slapkit on texts that are cut after each of their bytes (one that is long, after some), as by a transfer that broke off.

usage: cut.py PROGRAM [WORD]

With a word, only the texts whose names have it.

Each run must end by itself, with status 0 or 1 and, after notes on a configuration, at most one line on standard error. And it must answer what
the definitions say of the texts as they are then: a run of slapmodify by model/answers.py, which reads LDIF and makes the changes in another language
(the report, both files, or the fault with its line), a question by model/access.py, which reads rules in another language (the notes, and the report or
the fault with its line). The attribute types of a configuration are those of model/definitions.py. A run of slapconf, on files of a slapd.conf or on cn=config, must
make what model/flat.py says of them, or end in that fault.

Last, a line without end comes through a pipe, and a configuration without end: slapkit may take no more than 8,192 bytes after the limit of each,
nor after the wanted groups of an undo file.
"""
import dataclasses
import fcntl
import os
import pathlib
import subprocess
import sys
import termios
import time

sys.path.insert(0, str(pathlib.Path(__file__).resolve().parents[1]))

from harness import checks
from harness.checks import Wrong, expect
from harness.runs import SECONDS, Place
from inputs.cases import ROOT, RULES, SITES, TEXTS, lines
from model import flat
from model.access import MOST_BYTES_OF_A_CONFIGURATION, access_answer
from model.answers import Answer, answer
from model.ldif import MOST_BYTES_OF_A_LINE

PIECE = 8192


def cuts(text, step=1):
    return range(0, len(text) + 1, step)


# ---- changes of a copy


def left_by(place, texts, *options):
    """What a run leaves, with all files."""
    words = ["slapmodify", "-b", texts.suffix, "--data", "copy", "-l", "changes", "--out", "new", "--undo", "undo", *texts.options(), *options]
    if texts.config is not None:
        words += ["-f", "conf"]
    ended = place.run(*words)
    files = [place.read(name) for name in ("new", "undo")]
    place.remove("new", "undo")
    return Answer(*ended, *(None if data is None else data.decode(errors="surrogateescape") for data in files))


def check_run(place, texts, what):
    """Runs changes on a copy, and where one refused record makes a difference also without going on after it."""
    place.write("copy", texts.copy)
    place.write("changes", texts.changes)
    place.write("conf", texts.config or b"")
    text = {"suffix": texts.suffix.encode(), "copy": texts.copy, "changes": texts.changes, "config": texts.config or b"", "is_verbose": True}
    text["last"] = texts.last
    wanted = answer(goes_on=True, **text)
    expect(left_by(place, texts, "-v", "-c"), wanted, f"{what}, -c")
    if wanted.status and (other := answer(goes_on=False, **text)) != wanted:
        expect(left_by(place, texts, "-v"), other, what)


def cut_after_each_byte(program, texts):
    with Place(program) as place:
        for at in cuts(texts.changes, texts.steps[0]):
            check_run(place, dataclasses.replace(texts, changes=texts.changes[:at]), f"the changes cut after byte {at}")
        for at in cuts(texts.copy, texts.steps[1]):
            check_run(place, dataclasses.replace(texts, copy=texts.copy[:at]), f"the copy cut after byte {at}")
        if texts.config is None:
            return f"{len(texts.changes)} and {len(texts.copy)} bytes"
        for at in cuts(texts.config):
            check_run(place, dataclasses.replace(texts, config=texts.config[:at]), f"the configuration cut after byte {at}")
    return f"{len(texts.changes)} and {len(texts.copy)} bytes, {len(texts.config)} of the configuration"


# ---- configurations


def check_question(place, config, copy, question, what):
    place.write("conf", config)
    place.write("copy", copy)
    words = ["slapacl", "-f", "conf", "--data", "copy", *question.options()]
    expect(place.run(*words), access_answer(config, copy, question), f"{what}, {question}")


def question_cut_after_each_byte(program, rules):
    with Place(program) as place:
        for at in cuts(rules.config):
            for question in rules.questions:
                check_question(place, rules.config[:at], rules.copy, question, f"the configuration cut after byte {at}")
        for at in cuts(rules.copy):
            check_question(place, rules.config, rules.copy[:at], rules.questions[-1], f"the copy cut after byte {at}")
    return f"{len(rules.config)} and {len(rules.copy)} bytes"


# ---- configurations of a site


def check_site(place, files, what):
    """Makes a flat configuration of these files, which alone are there."""
    for name, data in files.items():
        place.write(name, data)
    if "config" in files:
        source, wanted = "--config", flat.flat_of_config(b"dc=com", files["config"])
    else:
        source, wanted = "-f", flat.flat_of_files(b"dc=com", b"conf", lambda path: files.get(path.decode()))
    ended = place.run("slapconf", "-b", "dc=com", source, next(iter(files)), "--out", "flat")
    expect(place.names() - files.keys(), set() if wanted.flat is None else {"flat"}, f"{what}, files made")
    expect(flat.Flat(*ended, place.read("flat")), wanted, what)
    place.remove("flat")


def site_cut_after_each_byte(program, files):
    with Place(program) as place:
        for name, data in files.items():
            for at in cuts(data):
                check_site(place, files | {name: data[:at]}, f"{name} cut after byte {at}")
        place.remove(*files)
    return f"{sum(map(len, files.values()))} bytes"


# ---- texts without end


def taken_of(program, words, begin, more=("-b", "dc=com", "--data", "copy")):
    """How much the program takes of a text on its standard input, whose last line never ends, and what it says."""
    with Place(program) as place:
        place.write("copy", lines(ROOT))
        reading, writing = os.pipe()
        os.set_blocking(writing, False)
        words = [place.program, *words, *more]
        with subprocess.Popen(words, stdin=reading, stdout=subprocess.PIPE, stderr=subprocess.PIPE) as run:
            given, left = 0, begin
            ends_by = time.monotonic() + SECONDS
            while run.poll() is None:
                if time.monotonic() > ends_by:
                    run.kill()
                    raise Wrong(f"no end within {SECONDS} s")
                try:
                    sent = os.write(writing, left or b"a" * PIECE)
                    given, left = given + sent, left[sent:]
                except BlockingIOError:
                    time.sleep(0.001)
            not_taken = int.from_bytes(fcntl.ioctl(reading, termios.FIONREAD, bytes(4)), sys.byteorder)
            os.close(reading)
            os.close(writing)
            return given - not_taken, (run.returncode, run.stdout.read(), run.stderr.read())


def a_line_without_end(program):
    told = []
    for before in (b"", b"dn: dc=a,dc=com\nchangetype: add\n\n"):
        for begin in (b"description: ", b"#"):
            taken, ended = taken_of(program, ["slapmodify", "-u"], before + begin)
            expect(ended, (1, b"", b"slapkit: changes: L10 LineTooLong\n"))
            after = taken - len(before) - MOST_BYTES_OF_A_LINE
            if not 0 < after <= PIECE:
                raise Wrong(f"{after} bytes taken after the limit of a line")
            told.append(after)
    return f"{max(told)} bytes taken after the limit"


def groups_without_end(program):
    begin = b"# undo 1\ndn: dc=a,dc=com\nchangetype: add\n\n# undo 2\n"
    for last, count in ((0, 0), (1, 1)):
        taken, ended = taken_of(program, ["slapmodify", "-u", "--last", str(last)], begin + b"#")
        expect(ended, (0, b"accepted %d, refused 0\n" % count, b""), f"the first {last} groups")
        if taken > len(begin) + PIECE:
            raise Wrong(f"{taken} bytes taken for the first {last} groups")
    taken, ended = taken_of(program, ["slapmodify", "-u", "--last", "2"], begin + b"#")
    expect(ended, (1, b"", b"slapkit: changes: L10 LineTooLong\n"))


def a_configuration_of_a_site_without_end(program):
    told = []
    for source in ("-f", "--config"):
        taken, ended = taken_of(program, ["slapconf", source, "/dev/stdin", "--out", "flat"], b"#", ["-b", "dc=com"])
        expect(ended, (1, b"", b"slapkit: config: K7 TooLong\n"), source)
        after = taken - MOST_BYTES_OF_A_CONFIGURATION
        if not 0 < after <= PIECE:
            raise Wrong(f"{after} bytes taken after the limit of a configuration")
        told.append(after)
    return f"{max(told)} bytes taken after the limit"


def a_configuration_without_end(program):
    taken, ended = taken_of(program, ["slapacl", "-f", "/dev/stdin"], b"#")
    expect(ended, (1, b"", b"slapkit: config, line 0: C11 ConfigTooLong\n"))
    after = taken - MOST_BYTES_OF_A_CONFIGURATION
    if not 0 < after <= PIECE:
        raise Wrong(f"{after} bytes taken after the limit of a configuration")
    return f"{after} bytes taken after the limit"


def main():
    program = str(pathlib.Path(sys.argv[1]).resolve())
    pairs = [(name, lambda texts=texts: cut_after_each_byte(program, texts)) for name, texts in TEXTS.items()]
    pairs += [(name, lambda rules=rules: question_cut_after_each_byte(program, rules)) for name, rules in RULES.items()]
    pairs += [(name, lambda files=files: site_cut_after_each_byte(program, files)) for name, files in SITES.items()]
    pairs.append(("a line without end", lambda: a_line_without_end(program)))
    pairs.append(("groups without end", lambda: groups_without_end(program)))
    pairs.append(("a configuration without end", lambda: a_configuration_without_end(program)))
    pairs.append(("a configuration of a site without end", lambda: a_configuration_of_a_site_without_end(program)))
    wanted = sys.argv[2] if len(sys.argv) > 2 else ""
    sys.exit(checks.run("cut", [pair for pair in pairs if wanted in pair[0]]))


main()
