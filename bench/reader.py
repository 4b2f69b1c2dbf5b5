#!/usr/bin/env python3
"""Measures the LDIF reader alone: every record of a text is read and let go.

It builds a program of a few lines over `dir_ldif` in a temporary repository beside the gate (with what earlier checks
of this repository kept, else the crates are proved first, in some minutes), and prints for each text the CPU time, also
as a ratio to that of `sha256sum` over the same text, and the peak memory.

    bench/reader.py [--size MB]...
"""

import argparse
import base64
import os
import resource
import shutil
import subprocess
import sys
import tempfile
import time

from bench import ROOT
from directory import Directory, line

CRATES = ["dir_names", "dir_ldif"]

PROGRAM = """//! Reads LDIF from standard input, and prints how many records and faults there are.
#![tactic(auto)]

use dir_ldif::{Reader, RecordReader};
use dir_names::Schema;

fn main(rt: HostRuntime) {
    let alloc = rt.alloc();
    let Ok(schema) = Schema::builtin(alloc) else {
        return;
    };
    let Ok(mut records) = RecordReader::new(alloc, &schema, Reader::new(rt.reader())) else {
        return;
    };
    let mut good = 0u64;
    let mut bad = 0u64;
    for _ in 0..1_000_000_000u64 {
        match records.next() {
            Ok(Some((_, Ok(_)))) => good = good.saturating_add(1),
            Ok(Some((_, Err(_)))) => bad = bad.saturating_add(1),
            Ok(None) => break,
            Err(fault) => {
                let _ = println!(rt; "{fault}");
                break;
            }
        }
    }
    let _ = println!(rt; "{good} records, {bad} faults");
}
"""


def build(folder):
    """The program, built in a repository of its own."""
    for name in CRATES:
        shutil.copytree(os.path.join(ROOT, "crates", name), os.path.join(folder, "crates", name), symlinks=True)
    with open(os.path.join(ROOT, "crates.txt")) as f:
        lines = [l for l in f if l.split(":")[0] in CRATES]
    with open(os.path.join(folder, "crates.txt"), "w") as f:
        f.write("".join(lines) + "reader: dir_ldif dir_names\n")
    crate = os.path.join(folder, "crates", "reader")
    os.makedirs(os.path.join(crate, "src"))
    with open(os.path.join(crate, "src", "main.rt"), "w") as f:
        f.write(PROGRAM)
    done = subprocess.run(["rt", "run"], cwd=crate, stdin=subprocess.DEVNULL, capture_output=True, text=True)
    if done.returncode != 0:
        sys.exit(f"rt run ended with {done.returncode}: {(done.stdout + done.stderr)[-2000:]}")
    return os.path.join(crate, "out", "reader")


def write_pictures(path, size):
    """Entries with a picture of 3,000 bytes each, in folded base64."""
    directory, i = Directory(1000), 0
    with open(path, "wb") as f:
        while f.tell() < size:
            picture = bytes((i + k * k) % 256 for k in range(3000))
            f.write(line("dn", directory.dn(i)) + b"".join(line(k, v) for k, v in directory.person(i)) + line("jpegPhoto", picture) + b"\n")
            i += 1


def cpu_of(command, path):
    """CPU seconds, and what was printed."""
    before = resource.getrusage(resource.RUSAGE_CHILDREN)
    with open(path, "rb") as f:
        done = subprocess.run(command, stdin=f, capture_output=True, text=True, check=True)
    after = resource.getrusage(resource.RUSAGE_CHILDREN)
    return after.ru_utime + after.ru_stime - before.ru_utime - before.ru_stime, done.stdout


def peak_of(command, path):
    """Peak memory in bytes, as the system told it last before the end."""
    peak = 0
    with open(path, "rb") as f, subprocess.Popen(command, stdin=f, stdout=subprocess.DEVNULL) as process:
        while process.poll() is None:
            with open(f"/proc/{process.pid}/status") as status:
                peak = max([peak] + [int(l.split()[1]) * 1024 for l in status if l.startswith("VmHWM")])
            time.sleep(0.002)
    return peak


def measure(program, name, path):
    """The least CPU time of five runs of each program, since other work disturbs them."""
    size = os.path.getsize(path)
    hashed = min(cpu_of(["sha256sum"], path)[0] for _ in range(5))
    cpu, report = min(cpu_of([program], path) for _ in range(5))
    print(
        f"{name}, {size / 1e6:.1f} MB: {cpu:.2f} s CPU = {cpu / hashed:.2f} x sha256sum ({hashed:.2f} s), "
        f"{peak_of([program], path) / 1e6:.1f} MB peak; {report.strip()}",
        flush=True,
    )


def main():
    parser = argparse.ArgumentParser(description=__doc__, formatter_class=argparse.RawDescriptionHelpFormatter)
    parser.add_argument("--size", type=int, action="append", help="of a text, in MB")
    args = parser.parse_args()
    with tempfile.TemporaryDirectory() as folder:
        program = build(folder)
        path = os.path.join(folder, "text.ldif")
        for size in args.size or [10, 100]:
            Directory(size * 1000000 // 960).write(path)
            measure(program, "entries", path)
            write_pictures(path, size * 1000000)
            measure(program, "entries with pictures", path)


if __name__ == "__main__":
    main()
