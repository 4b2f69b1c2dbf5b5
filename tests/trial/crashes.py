#!/usr/bin/env python3
"""Ends runs of slapkit before their time, by SIGKILL and in other ways, and looks at what is left (harness/killing.py).

usage: crashes.py PROGRAM [KILLS [ENTRIES]]

The program is killed before and after each of its calls that touch a file, and then at KILLS moments (200, if no number is
given) of a run on a copy of ENTRIES entries (1000). Runs of a file of questions that writes its answers, and of slapconf, are killed at each call, too.
"""
import os
import pathlib
import resource
import signal
import subprocess
import sys
import tempfile
import time

sys.path.insert(0, str(pathlib.Path(__file__).resolve().parents[1]))

from harness import checks
from harness.checks import Wrong, expect
from harness.killing import COMMAND, MODE, SiteTrial, SuiteTrial, Trial, made_shim


def a_run_is_whole(trial):
    expect(trial.run(), (0, trial.report, ""))
    expect(trial.look(trial.report), sorted(trial.outputs))
    expect(sorted(trial.left()), sorted(trial.outputs), "left")
    expect({path.stat().st_mode & 0o7777 for path in trial.left().values()}, {MODE})
    trial.clear()


def killed_at_each_call(trial, shim):
    found, at = [], 1
    while True:
        status, told, _ = trial.run(env={"LD_PRELOAD": shim, "KILL_AT": str(at)})
        if status == 0:
            break
        expect(status, -signal.SIGKILL, "the killed run")
        named = trial.look(told)
        found.append(len(named))
        trial.run_again(named)
        at += 1
    trial.clear()
    # the kills came before the undo file had its name, between the two, and after both had theirs; or before and after the answers had theirs
    expect((found == sorted(found), set(found)), (True, set(range(len(trial.outputs) + 1))), "files with their names")
    return f"{len(found)} kills"


def killed_at_moments(trial, kills):
    start = time.monotonic()
    expect(trial.run()[0], 0)
    whole = time.monotonic() - start
    trial.clear()
    found = {0: 0, 1: 0, 2: 0}
    for n in range(kills):
        with trial.start() as run:
            time.sleep(whole * (n + 1) / kills)
            run.kill()
            told, _ = run.communicate(timeout=120)
        named = trial.look(told)
        found[len(named)] += 1
        trial.run_again(named)
    return f"{found[0]} without a file, {found[1]} with the undo file, {found[2]} with both, in {whole:.2f} s"


# ---- other ends


def ended_by_signals(trial):
    words = [word for word in COMMAND if word not in ("-l", "changes")]
    for number in (signal.SIGINT, signal.SIGTERM, signal.SIGHUP):
        # (a run in the background may have it ignored)
        meant = lambda: signal.signal(number, signal.SIG_DFL)
        with trial.start(words, stdin=subprocess.PIPE, preexec_fn=meant) as run:
            wait_for(lambda: len(trial.left()) == 2)
            run.send_signal(number)
            told, said = run.communicate(timeout=120)
        expect((run.returncode, told, said), (-number, "", ""))
        trial.run_again(trial.look(told))


def stopped_and_continued(trial):
    words = [word for word in COMMAND if word not in ("-l", "changes")]
    with trial.start(words, stdin=subprocess.PIPE) as run:
        wait_for(lambda: len(trial.left()) == 2)
        for _ in range(3):
            run.send_signal(signal.SIGSTOP)
            time.sleep(0.02)
            run.send_signal(signal.SIGCONT)
            time.sleep(0.02)
        told, said = run.communicate((trial.folder / "changes").read_text(), timeout=120)
    expect((run.returncode, told, said), (0, trial.report, ""))
    expect(trial.look(told), ["new", "undo"])
    trial.clear()


def past_a_limit_of_size(trial):
    sizes = {name: len(text) for name, text in trial.whole.items()}

    def limit(size):
        return lambda: resource.setrlimit(resource.RLIMIT_FSIZE, (size, size))

    for size, output in ((0, "undo"), (sizes["undo"] - 1, "undo"), (sizes["undo"], "out"), (sizes["new"] - 1, "out")):
        # the limit's signal, which would end the run, does not come, be it ignored or not
        for ignored in (True, False):
            told = trial.run(preexec_fn=limit(size), restore_signals=not ignored)
            expect(told, (1, "", f"slapkit: cannot write {output}\n"), f"a limit of {size} bytes")
            expect(trial.left(), {})
    expect(trial.run(preexec_fn=limit(sizes["new"]))[:2], (0, trial.report), "a limit that is just met")
    trial.clear()


def one_output_past_a_limit_of_size(trial, called):
    output = trial.outputs[0]
    size = len(trial.whole[output])

    def limit(size):
        return lambda: resource.setrlimit(resource.RLIMIT_FSIZE, (size, size))

    for least in (0, size - 1):
        expect(trial.run(preexec_fn=limit(least)), (1, "", f"slapkit: cannot write {called}\n"), f"a limit of {least} bytes")
        expect(trial.left(), {})
    expect(trial.run(preexec_fn=limit(size)), (0, trial.report, ""), "a limit that is just met")
    expect(trial.look(trial.report), [output])
    trial.clear()


def with_a_report_past_a_limit_of_size(trial):
    # where the report is a file, the limit counts from the place where it is written, which is the file's end where it is appended to
    report, limit = trial.report.encode(), 64 * 1024
    before = limit - len(report)

    def run(before, size, flags=0, at=0, ignored=False):
        path = trial.folder / "report"
        path.write_bytes(b"-" * before)
        with os.fdopen(os.open(path, os.O_WRONLY | flags), "wb") as output:
            os.lseek(output.fileno(), at, os.SEEK_SET)
            ending = {"restore_signals": not ignored, "preexec_fn": lambda: resource.setrlimit(resource.RLIMIT_FSIZE, (size, size))}
            with subprocess.Popen([trial.program, *COMMAND], cwd=trial.folder, stdout=output, stderr=subprocess.PIPE, text=True, **ending) as run:
                said = run.communicate(timeout=120)[1]
        written = path.read_bytes()
        path.unlink()
        return (run.returncode, said), written

    ends = (0, ""), (1, "slapkit: cannot write report\n")
    append = os.O_APPEND
    for size, flags, at, ignored, end, written in (
        (limit, append, 0, False, 0, b"-" * before + report),
        (limit - 1, append, 0, False, 1, b"-" * before + report[:-1]),
        (limit - 1, append, 0, True, 1, b"-" * before + report[:-1]),
        (before, append, 0, False, 1, b"-" * before),
        (limit, 0, before, False, 0, b"-" * before + report),
        (limit - 1, 0, before, False, 1, b"-" * before + report[:-1]),
        # the file's size doesn't count where its bytes are written over
        (limit - 1, 0, 9, False, 0, b"-" * 9 + report + b"-" * (before - 9 - len(report))),
        (limit - 1, 0, before + 9, False, 1, b"-" * before + bytes(9) + report[:-10]),
    ):
        case = f"a limit of {size} bytes, flags {flags}, from {at}"
        found, text = run(before, size, flags, at, ignored)
        expect(found, ends[end], case)
        expect(text, written, case)
        expect(sorted(trial.left()), [] if end else ["new", "undo"], case)
        trial.clear()
    # a pipe has no limit, nor has a device
    with open("/dev/null", "wb") as null:
        for output in (subprocess.PIPE, null):
            how = {"preexec_fn": lambda: resource.setrlimit(resource.RLIMIT_FSIZE, (limit, limit))}
            with subprocess.Popen([trial.program, *COMMAND], cwd=trial.folder, stdout=output, stderr=subprocess.PIPE, text=True, **how) as run:
                expect((run.communicate(timeout=120)[1], run.returncode), ("", 0), "a limit, and no file")
            trial.clear()


def into_folders_that_take_no_file(trial):
    for out, undo, named in (("new", "/proc/undo", "/proc/undo"), ("/proc/new", "undo", "/proc/new"), ("none/new", "undo", "none/new")):
        words = [*COMMAND[:-3], out, "--undo", undo]
        expect(trial.run(words), (1, "", f"slapkit: cannot open {named}\nslapkit: note: No such file or directory (os error 2)\n"))
        expect(trial.left(), {})


def onto_full_devices(trial):
    with open("/dev/full", "wb") as full:
        with subprocess.Popen([trial.program, *COMMAND], cwd=trial.folder, stdout=full, stderr=subprocess.PIPE, text=True) as run:
            _, said = run.communicate(timeout=120)
    expect((run.returncode, said, trial.left()), (1, "slapkit: cannot write report\n", {}))
    expect(trial.run([*COMMAND[:-3], "/dev/full", "--undo", "undo"]), (1, "", "slapkit: exists already: /dev/full\n"))
    expect(trial.left(), {})


def wait_for(holds):
    """Waits until it holds, for a minute at most."""
    for _ in range(6000):
        if holds():
            return
        time.sleep(0.01)
    raise Wrong("waited for a minute")


def main():
    program = os.path.abspath(sys.argv[1])
    kills = int(sys.argv[2]) if len(sys.argv) > 2 else 200
    entries = int(sys.argv[3]) if len(sys.argv) > 3 else 1000
    with tempfile.TemporaryDirectory() as folder, tempfile.TemporaryDirectory() as small, tempfile.TemporaryDirectory() as large:
        shim, asked, conf = made_shim(folder), pathlib.Path(folder, "asked"), pathlib.Path(folder, "conf")
        asked.mkdir()
        conf.mkdir()
        few, many, suite, site = Trial(program, small, 6), Trial(program, large, entries), SuiteTrial(program, asked, 6), SiteTrial(program, conf, 400)
        named = [
            ("a run is whole", lambda: a_run_is_whole(many)),
            ("killed at each call", lambda: killed_at_each_call(few, shim)),
            (f"killed at {kills} moments", lambda: killed_at_moments(many, kills)),
            ("ended by signals", lambda: ended_by_signals(many)),
            ("stopped and continued", lambda: stopped_and_continued(many)),
            ("past a limit of size", lambda: past_a_limit_of_size(many)),
            ("with a report past a limit of size", lambda: with_a_report_past_a_limit_of_size(few)),
            ("into folders that take no file", lambda: into_folders_that_take_no_file(few)),
            ("onto full devices", lambda: onto_full_devices(few)),
            ("a run of questions is whole", lambda: a_run_is_whole(suite)),
            ("killed at each call of a run of questions", lambda: killed_at_each_call(suite, shim)),
            ("answers past a limit of size", lambda: one_output_past_a_limit_of_size(suite, "answers")),
            ("a run of slapconf is whole", lambda: a_run_is_whole(site)),
            ("killed at each call of a run of slapconf", lambda: killed_at_each_call(site, shim)),
            ("a flat configuration past a limit of size", lambda: one_output_past_a_limit_of_size(site, "flat configuration")),
        ]
        sys.exit(checks.run("crashes", named))


main()
