#!/usr/bin/env python3
"""Measures `slapkit slapmodify` on a directory as slapcat writes one (directory.py), all four operations among the changes.

For each size it prints CPU time and peak memory, also as ratios: to the CPU time of `sha256sum` over the same copy, to the
copy's size, and, where Debian's slapd is installed, to the CPU time of slapd's own pipeline on the same files (`slapadd -q`,
`slapmodify`, `slapcat`, its database without a sync of each write), for which both leave out the renames. The runs take
turns, since the speed of a virtual machine changes from minute to minute: times and memory are the least of all rounds, a
ratio is the median, with the least and the greatest after it.

With --instructions it prints instead what `valgrind --tool=callgrind` counts, for each byte of the copy, which doesn't depend
on the machine: for the whole run, and for one of no changes. Use some thousand entries then. --groups measures a copy of six
large groups in place of people.

    bench/bench.py [--program PATH] [--size N]... [--changes M] [--rounds R] [--groups] [--instructions]
"""

import argparse
import os
import re
import resource
import shutil
import statistics
import subprocess
import sys
import tempfile

from directory import GROUPS, SUFFIX, Directory, group, member, operational, record

ROOT = os.path.dirname(os.path.dirname(os.path.abspath(__file__)))
PROGRAM = os.path.join(ROOT, "crates/slapkit/out/slapkit")
LARGE_GROUPS = 6
SLAPD_CONF = """include /etc/ldap/schema/core.schema
include /etc/ldap/schema/cosine.schema
include /etc/ldap/schema/inetorgperson.schema
modulepath /usr/lib/ldap
moduleload back_mdb
database mdb
suffix "{suffix}"
rootdn "cn=root,{suffix}"
directory {folder}/database
maxsize 17179869184
dbnosync
envflags nosync nometasync writemap
"""


def run(command, allowed=(0,)):
    """CPU seconds, peak memory in bytes, and what was printed. The exit status is one that is allowed."""
    before = resource.getrusage(resource.RUSAGE_CHILDREN)
    process = subprocess.Popen(command, stdout=subprocess.PIPE)
    text = process.stdout.read()
    _, status, usage = os.wait4(process.pid, 0)
    process.returncode = os.waitstatus_to_exitcode(status)
    if process.returncode not in allowed:
        sys.exit(f"{command[0]} ended with {process.returncode}: {text.decode()[:200]}")
    after = resource.getrusage(resource.RUSAGE_CHILDREN)
    cpu = after.ru_utime + after.ru_stime - before.ru_utime - before.ru_stime
    return cpu, usage.ru_maxrss * 1024, text.decode()


def words_of(program, copy, changes, out, undo):
    """The command of a run, whose outputs are not there yet."""
    for path in (out, undo):
        if os.path.exists(path):
            os.remove(path)
    return [program, "slapmodify", "-b", SUFFIX, "--data", copy, "--out", out, "--undo", undo, "-l", changes]


def modify(program, copy, out, undo, changes):
    return run(words_of(program, copy, changes, out, undo))


def instructions(program, folder, copy, changes):
    """How many instructions a run takes."""
    words = words_of(program, copy, changes, os.path.join(folder, "new.ldif"), os.path.join(folder, "undo.ldif"))
    told = ["valgrind", "--tool=callgrind", f"--callgrind-out-file={os.path.join(folder, 'callgrind')}"]
    ended = subprocess.run(told + words, capture_output=True, text=True)
    found = re.search(r"Collected : (\d+)", ended.stderr)
    if ended.returncode or not found:
        sys.exit(f"callgrind ended with {ended.returncode}: {ended.stderr[-200:]}")
    return int(found[1])


def slapd(folder, copy, changes):
    """CPU seconds of slapd's pipeline, and its peak memory."""
    conf, database = os.path.join(folder, "slapd.conf"), os.path.join(folder, "database")
    shutil.rmtree(database, ignore_errors=True)
    os.mkdir(database)
    with open(conf, "w") as f:
        f.write(SLAPD_CONF.format(suffix=SUFFIX, folder=folder))
    runs = [
        run(["slapadd", "-q", "-f", conf, "-l", copy]),
        run(["slapmodify", "-f", conf, "-l", changes]),
        run(["slapcat", "-f", conf, "-l", os.path.join(folder, "slapcat.ldif")]),
    ]
    return sum(cpu for cpu, _, _ in runs), max(memory for _, memory, _ in runs)


def ratio(ratios):
    return f"{statistics.median(ratios):.2f} ({min(ratios):.2f} to {max(ratios):.2f})"


def write_groups(path, entries):
    """Six groups that have as many members as there would be entries."""
    heads = [
        (SUFFIX, [("objectClass", "domain"), ("dc", "example")], "domain"),
        (GROUPS, [("objectClass", "organizationalUnit"), ("ou", "groups")], "organizationalUnit"),
    ]
    each = entries // LARGE_GROUPS
    for g in range(LARGE_GROUPS):
        lines = group(f"all {g}", map(member, range(g * each, (g + 1) * each)))
        heads.append((f"cn=all {g},{GROUPS}", lines, "groupOfNames"))
    with open(path, "wb") as f:
        for n, (dn, lines, of_class) in enumerate(heads):
            f.write(record(dn, lines + operational(n, of_class)))


def write_files(args, folder, entries):
    """The paths of the copy, of the changes, of those without renames and of no changes, and the number of changes."""
    paths = [os.path.join(folder, name) for name in ("copy.ldif", "changes.ldif", "plain.ldif", "none.ldif")]
    copy, changes, plain, none = paths
    open(none, "wb").close()
    if args.groups:
        write_groups(copy, entries)
        return [copy, none, none, none, 0]
    count = entries // 10 if args.changes is None else args.changes
    directory = Directory(entries)
    directory.write(copy)
    directory.write_changes(changes, count, True)
    directory.write_changes(plain, count, False)
    return paths + [count]


def count_instructions(args, folder, entries):
    copy, changes, _, none, count = write_files(args, folder, entries)
    size = os.path.getsize(copy)
    whole, alone = (instructions(args.program, folder, copy, path) for path in (changes, none))
    print(
        f"{entries} {'members' if args.groups else 'entries'}, {size / 1e6:.1f} MB: {alone / size:.1f} instructions a byte of the copy; "
        f"with {count} changes {whole / size:.1f}, {(whole - alone) / max(1, count) / 1000:.1f} thousand a change",
        flush=True,
    )


def measure(args, folder, entries):
    copy, changes, plain, _, count = write_files(args, folder, entries)
    out, undo = os.path.join(folder, "new.ldif"), os.path.join(folder, "undo.ldif")
    size = os.path.getsize(copy)
    has_slapd = shutil.which("slapadd") is not None
    hashed, all_four, without, pipeline = [], [], [], []
    for _ in range(args.rounds):
        hashed.append(run(["sha256sum", copy])[0])
        all_four.append(modify(args.program, copy, out, undo, changes))
        if has_slapd:
            without.append(modify(args.program, copy, out, undo, plain))
            pipeline.append(slapd(folder, copy, plain))
    cpu, memory, report = min(all_four)
    print(
        f"{entries} {'members' if args.groups else 'entries'}, {size / 1e6:.1f} MB, {count} changes: {cpu:.2f} s CPU, "
        f"{ratio([run[0] / h for run, h in zip(all_four, hashed)])} x sha256sum, "
        f"{memory / 1e6:.0f} MB peak = {memory / size:.2f} x the copy; {report.strip()}",
        flush=True,
    )
    if has_slapd:
        print(
            f"  without renames: {min(without)[0]:.2f} s CPU and {min(without)[1] / 1e6:.0f} MB, slapd's pipeline {min(pipeline)[0]:.2f} s "
            f"and {min(pipeline)[1] / 1e6:.0f} MB; ratio {ratio([ours[0] / theirs[0] for ours, theirs in zip(without, pipeline)])}",
            flush=True,
        )
    return cpu


def main():
    parser = argparse.ArgumentParser(description=__doc__, formatter_class=argparse.RawDescriptionHelpFormatter)
    parser.add_argument("--program", default=PROGRAM)
    parser.add_argument("--size", type=int, action="append")
    parser.add_argument("--changes", type=int)
    parser.add_argument("--rounds", type=int, default=5)
    parser.add_argument("--groups", action="store_true")
    parser.add_argument("--instructions", action="store_true")
    args = parser.parse_args()
    with tempfile.TemporaryDirectory() as folder:
        if args.instructions:
            for n in args.size or [3000]:
                count_instructions(args, folder, n)
            return
        times = [measure(args, folder, n) for n in args.size or [10000, 100000]]
        if len(times) > 1:
            print(f"CPU of the last over the first: {times[-1] / times[0]:.1f}")


if __name__ == "__main__":
    main()
