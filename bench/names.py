#!/usr/bin/env python3
"""Measures how the time to read a name or a value grows with its length.

For each kind of text it makes two texts of changes of the same size: records with a name or a value of a tenth of
1,048,576 bytes, and a tenth as many records with one of 1,048,576 bytes. It runs `slapkit slapmodify -u -c` over
both in turn, and prints the least CPU time of a record in each, and how many times the one takes of the other: the
median of the rounds, with the least and the greatest after it. Linear is 10.

    bench/names.py [--program PATH] [--records N] [--rounds R]
"""

import argparse
import base64
import os
import statistics
import sys
import tempfile

sys.path.insert(0, os.path.dirname(os.path.abspath(__file__)))
import bench

LENGTH = 1_048_576
ROOT = b"dn: dc=com\nchangetype: add\ndc: com\nobjectClass: domain\n\n"


def spaced_name(length):
    """A name of 64 RDNs within the limits: values of at most 4,000 bytes, and spaces around the commas."""
    part = length // 64
    value = min(4000, part - 8)
    rdn = b"cn=" + b"a" * value
    return b",".join(rdn + b" " * (part - len(rdn) - 1) for _ in range(64))


def escaped_name(length):
    """One RDN of escaped bytes, which is past the limit of an RDN."""
    return b"cn=" + b"\\41" * ((length - 3) // 3)


def changed(name):
    return b"dn:: " + base64.b64encode(name) + b"\nchangetype: delete\n\n"


def added(i, line):
    return b"dn: cn=e%d,dc=com\nchangetype: add\nobjectClass: device\n%s\n\n" % (i, line)


KINDS = {
    "name of 64 RDNs": lambda i, n: changed(spaced_name(n)),
    "name of one escaped RDN": lambda i, n: changed(escaped_name(n)),
    "value, ASCII": lambda i, n: added(i, b"description: " + b"aB " * (n // 3)),
    "value, not ASCII": lambda i, n: added(i, b"description:: " + base64.b64encode("é".encode() * (n // 2))),
    "value, bytes": lambda i, n: added(i, b"jpegPhoto:: " + base64.b64encode(bytes(range(256)) * (n // 256))),
    "value, a name": lambda i, n: added(i, b"manager:: " + base64.b64encode(spaced_name(n))),
}


def write_changes(path, record, count, length):
    with open(path, "wb") as f:
        f.write(ROOT)
        for i in range(count):
            f.write(record(i, length))


def seconds(program, copy, changes):
    command = [program, "slapmodify", "-b", "dc=com", "--data", copy, "-u", "-c", "-l", changes]
    return bench.run(command, allowed=(0, 1))[0]


def measure(program, kind, record, records, rounds, folder):
    copy, few, many = (os.path.join(folder, name) for name in ("copy.ldif", "few.ldif", "many.ldif"))
    open(copy, "wb").close()
    write_changes(many, record, 10 * records, LENGTH // 10)
    write_changes(few, record, records, LENGTH)
    short, long = zip(*((seconds(program, copy, many) / (10 * records), seconds(program, copy, few) / records) for _ in range(rounds)))
    times = [b / a for a, b in zip(short, long)]
    print(
        f"{kind}: {min(short) * 1000:.2f} ms for {LENGTH // 10} bytes, {min(long) * 1000:.2f} ms for {LENGTH}, "
        f"{statistics.median(times):.1f} times ({min(times):.1f} to {max(times):.1f})",
        flush=True,
    )


def main():
    parser = argparse.ArgumentParser(description=__doc__, formatter_class=argparse.RawDescriptionHelpFormatter)
    parser.add_argument("--program", default=bench.PROGRAM)
    parser.add_argument("--records", type=int, default=40, help="records of 1,048,576 bytes")
    parser.add_argument("--rounds", type=int, default=5)
    args = parser.parse_args()
    with tempfile.TemporaryDirectory() as folder:
        for kind, record in KINDS.items():
            measure(args.program, kind, record, args.records, args.rounds, folder)


if __name__ == "__main__":
    main()
