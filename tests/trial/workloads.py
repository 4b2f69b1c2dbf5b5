#!/usr/bin/env python3
"""Runs the workloads of bench/workloads.py at a hundredth of their size, and compares the numbers of changes, and the length and the digest of
each text that is written, with workloads.txt.

usage: workloads.py PROGRAM

What stands there was printed by a proved program, which made the same inputs in memory and called the tools on them: `undo` has the numbers of both
runs, and the copy after the second; an undo text is without its marks (`# undo N`). A digest is SipHash-1-3 with keys of zeros. So this finds that what is
written has changed, and never that it was wrong from the first.
"""
import pathlib
import struct
import subprocess
import sys
import tempfile

sys.path.insert(0, str(pathlib.Path(__file__).resolve().parents[1]))

from harness import checks
from harness.checks import expect
from harness.repository import ROOT

# In front, since the module has the name of this script.
sys.path.insert(0, str(ROOT / "bench"))

from workloads import WORKLOADS, without_marks

SECONDS = 60
SCALE = SEED = 1
MASK = 2**64 - 1


def sip_round(a, b, c, d):
    a, c = a + b & MASK, c + d & MASK
    b, d = (b << 13 & MASK | b >> 51) ^ a, (d << 16 & MASK | d >> 48) ^ c
    a, c = (a << 32 & MASK | a >> 32) + d & MASK, c + b & MASK
    b, d = (b << 17 & MASK | b >> 47) ^ c, (d << 21 & MASK | d >> 43) ^ a
    return a, b, c << 32 & MASK | c >> 32, d


def digest(data):
    """SipHash-1-3 with keys of zeros: words of eight bytes, the last of which ends with the length."""
    a, b, c, d = struct.unpack(">4Q", b"somepseudorandomlygeneratedbytes")
    padded = data + bytes(7 - len(data) % 8) + bytes([len(data) % 256])
    for (word,) in struct.iter_unpack("<Q", padded):
        a, b, c, d = sip_round(a, b, c, d ^ word)
        a ^= word
    c ^= 0xFF
    for _ in range(3):
        a, b, c, d = sip_round(a, b, c, d)
    return a ^ b ^ c ^ d


def line_of(what, text):
    return f"{what}: {len(text)} bytes, {digest(text)}"


def numbers(report):
    """The last line of a report."""
    return report.decode().splitlines()[-1]


def lines_of_run(folder, reports):
    (report,) = reports
    new, undo = (folder.joinpath(name).read_bytes() for name in ("new.ldif", "undo.ldif"))
    return [numbers(report), line_of("copy", new), line_of("undo", without_marks(undo)), line_of("report", report)]


def lines_of_trip(folder, reports):
    return [*map(numbers, reports), line_of("copy", folder.joinpath("back.ldif").read_bytes())]


def lines_of_questions(_, reports):
    return [line_of("reports", b"".join(reports))]


LINES = {"people": lines_of_run, "groups": lines_of_run, "names": lines_of_run, "undo": lines_of_trip, "access": lines_of_questions}


def stored():
    """The lines of each workload."""
    lines = {}
    for line in pathlib.Path(__file__).with_name("workloads.txt").read_text().splitlines():
        if line in WORKLOADS:
            of_workload = lines[line] = []
        else:
            of_workload.append(line)
    return lines


def report_of(program, words, folder):
    ended = subprocess.run([program, *words], cwd=folder, capture_output=True, timeout=SECONDS)
    expect(ended.returncode, 0, f"exit status, {ended.stderr[:200]}")
    return ended.stdout


def try_workload(program, name, wanted):
    workload = WORKLOADS[name](SCALE, SEED)
    with tempfile.TemporaryDirectory() as path:
        workload.write(path)
        reports = [report_of(program, run.words, path) for run in workload.runs()]
        expect(LINES[name](pathlib.Path(path), reports), wanted, "lines")


def main():
    program = str(pathlib.Path(sys.argv[1]).resolve())
    of_workloads = stored()
    rows = [("the workloads are those of workloads.txt", lambda: expect(list(WORKLOADS), list(of_workloads)))]
    rows += [(name, lambda name=name: try_workload(program, name, of_workloads[name])) for name in of_workloads]
    sys.exit(checks.run("workloads", rows))


main()
