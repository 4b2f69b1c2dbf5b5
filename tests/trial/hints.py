#!/usr/bin/env python3
"""Runs slapkit where something is wrong, and compares the notes that it tells beside the fault or the refused record.

usage: hints.py PROGRAM

The notes are about what the system said, what a text is that is no LDIF, whether the copy has the suffix's entry, how many records were not looked at, and
which suffixes a configuration has. What the fault and the report say is other scripts'.
"""
import gzip
import os
import pathlib
import subprocess
import sys
import tempfile

sys.path.insert(0, str(pathlib.Path(__file__).resolve().parents[1]))

from harness import checks
from harness.checks import expect

COPY = "dn: dc=com\ndc: com\n\n"
MISSING = "dn: ou=none,dc=com\nchangetype: delete\n\n"
ADD = "dn: ou=a,dc=com\nchangetype: add\n\n"
CONF = "database mdb\nsuffix dc=com\n"
CONFIG = "dn: olcDatabase={1}mdb,cn=config\nolcSuffix: dc=net\n\ndn: olcDatabase={2}mdb,cn=config\nolcSuffix: {0}dc=org\nolcSuffix: {1}o=a\n"
SEARCH = "# extended LDIF\n#\n# LDAPv3\n# base <dc=com> with scope subtree\n\n# com\ndn: dc=com\ndc: com\n\n# search result\nsearch: 2\nresult: 0 Success\n"
MODIFY = ["slapmodify", "-b", "dc=com", "--data", "copy", "-u"]
ASK = ["slapacl", "-f", "conf", "--data", "copy", "-b", "dc=com"]
NOT_FOUND = "No such file or directory (os error 2)"
NOT_PERMITTED = "Permission denied (os error 13)"

# What is shown, the files beside a copy of one entry, the words, and the notes.
ROWS = [
    ("nothing is noted where all is well", {"changes": ADD}, [*MODIFY, "-l", "changes"], []),
    ("a copy that isn't there", {}, ["slapmodify", "-b", "dc=com", "--data", "none", "-u"], [NOT_FOUND]),
    ("changes that aren't there", {}, [*MODIFY, "-l", "none"], [NOT_FOUND]),
    ("a folder that isn't there", {"changes": ADD}, [*MODIFY[:-1], "-l", "changes", "--out", "no/new", "--undo", "undo"], [NOT_FOUND]),
    ("a configuration that isn't there", {}, [*ASK[:2], "none", *ASK[3:]], [NOT_FOUND]),
    ("questions that aren't there", {"conf": CONF}, [*ASK[:5], "--questions", "none"], [NOT_FOUND]),
    ("a site's configuration that isn't there", {}, ["slapconf", "-b", "dc=com", "-f", "none", "--out", "flat"], [NOT_FOUND]),
    ("a file that is in the way has no reason", {"new": ""}, [*MODIFY[:-1], "-l", "copy", "--out", "new", "--undo", "undo"], []),
    ("a copy with a byte order mark", {"copy": "\ufeff" + COPY}, MODIFY, ["copy begins with a byte order mark (BOM): remove its first three bytes"]),
    ("a copy in UTF-16", {"copy": COPY.encode("utf-16")}, MODIFY, ["copy is UTF-16: make UTF-8 of it"]),
    ("a copy that is compressed", {"copy": gzip.compress(COPY.encode())}, MODIFY, ["copy is compressed by gzip: decompress it"]),
    ("a copy of ldapsearch", {"copy": SEARCH}, MODIFY, ["copy is what ldapsearch writes without -LLL: search again with -LLL"]),
    ("changes that are compressed", {"changes": gzip.compress(ADD.encode())}, [*MODIFY, "-l", "changes"], ["changes is compressed by gzip: decompress it"]),
    (
        "changes with a byte order mark, and two records after that",
        {"changes": "\ufeff" + ADD + ADD + ADD},
        [*MODIFY, "-l", "changes"],
        ["changes begins with a byte order mark (BOM): remove its first three bytes", "records after the refused one that were not looked at: 2; -c goes on"],
    ),
    ("a configuration with a byte order mark", {"conf": "\ufeff" + CONF}, ASK, ["conf begins with a byte order mark (BOM): remove its first three bytes"]),
    (
        "questions that are compressed",
        {"conf": CONF, "questions": gzip.compress(b"dn: dc=com\nentry:\n")},
        [*ASK[:5], "--questions", "questions"],
        ["questions is compressed by gzip: decompress it"],
    ),
    (
        "cn=config that is compressed",
        {"config": gzip.compress(CONFIG.encode())},
        ["slapconf", "-b", "dc=com", "--config", "config", "--out", "flat"],
        ["config is compressed by gzip: decompress it"],
    ),
    ("an empty copy", {"copy": "", "changes": MISSING}, [*MODIFY, "-l", "changes"], ["copy has no record"]),
    ("a copy of comments", {"copy": "version: 1\n\n# nothing\n", "changes": MISSING}, [*MODIFY, "-l", "changes"], ["copy has no record"]),
    ("an empty copy to which the suffix's entry is added", {"copy": "", "changes": "dn: dc=com\nchangetype: add\n"}, [*MODIFY, "-l", "changes"], []),
    (
        "a copy of another suffix",
        {"copy": "dn: dc=Example\\2C Inc,dc=com\n\ndn: dc=net\n"},
        ["slapmodify", "-b", "dc=org", "--data", "copy", "-u"],
        ["no record of copy is the suffix's; the first is dc=Example\\2C Inc,dc=com"],
    ),
    ("a copy without a parent", {"copy": "dn: cn=a,ou=b,dc=com\n\n" + COPY}, MODIFY, []),
    (
        "a suffix that is another's name by a type of the configuration",
        {"copy": "dn: unit=a,dc=org\n\n", "conf": "attributetype ( 2.5.4.11 NAME 'unit' )\n"},
        ["slapmodify", "-f", "conf", "-b", "ou=A,dc=com", "--data", "copy", "-u"],
        ["no record of copy is the suffix's; the first is unit=a,dc=org"],
    ),
    ("a question about an empty copy", {"copy": "", "conf": CONF + "access to * by * read\n"}, ASK, ["copy has no record"]),
    (
        "a question about a copy of another suffix",
        {"copy": "dn: dc=net\n", "conf": CONF + "access to * by * read\n"},
        ASK,
        ["no record of copy is the suffix's; the first is dc=net"],
    ),
    ("a question about an entry that isn't there", {"conf": CONF + "access to * by * read\n"}, [*ASK[:-1], "cn=a,dc=com"], []),
    ("records that were not looked at", {"changes": MISSING + ADD + "x\n\n" + ADD}, [*MODIFY, "-l", "changes"], ["records after the refused one that were not looked at: 3; -c goes on"]),
    ("all were looked at", {"changes": ADD + MISSING}, [*MODIFY, "-l", "changes"], []),
    ("all are looked at", {"changes": MISSING + ADD}, [*MODIFY, "-c", "-l", "changes"], []),
    (
        "a text that ends in a fault after the refused record",
        {"changes": MISSING + ADD + "# " + "a" * 2_097_152 + "\n\n" + ADD},
        [*MODIFY, "-l", "changes"],
        ["records after the refused one that were not looked at: at least 1; -c goes on"],
    ),
    (
        "no database of cn=config has the suffix",
        {"config": CONFIG},
        ["slapconf", "-b", "dc=com", "--config", "config", "--out", "flat"],
        [f"the configuration has the suffix {suffix}" for suffix in ("dc=net", "dc=org", "o=a")],
    ),
    (
        "no database of a slapd.conf and what it includes has the suffix",
        {"conf": 'database mdb\nsuffix "dc=a, dc=net"\ninclude more\n', "more": "database mdb\nSUFFIX o=\x01\n"},
        ["slapconf", "-b", "dc=com", "-f", "conf", "--out", "flat"],
        ["the configuration has the suffix dc=a, dc=net", "the configuration has the suffix o=\\x01"],
    ),
    ("no database at all", {"conf": "# nothing\n"}, ["slapconf", "-b", "dc=com", "-f", "conf", "--out", "flat"], ["the configuration has no suffix"]),
]


def told(program, folder, words, **how):
    """The notes of a run, but for those on rules, which have a line or speak of all."""
    ran = subprocess.run([program, *words], cwd=folder, capture_output=True, text=True, timeout=60, **how)
    lines = ran.stderr.splitlines()
    faults = [line for line in lines if not line.startswith("slapkit: note: ")]
    expect(lines[: len(faults)], faults, "a fault comes before its notes")
    return [line.removeprefix("slapkit: note: ") for line in lines[len(faults) :]]


def row_is_as_told(program, files, words, notes):
    with tempfile.TemporaryDirectory() as name:
        for path, text in {"copy": COPY, **files}.items():
            (pathlib.Path(name) / path).write_bytes(text if isinstance(text, bytes) else text.encode())
        expect(told(program, name, words), notes)


def pipes_are_not_read_again(program):
    """A copy by a pipe has no notes, and the run ends."""
    with tempfile.TemporaryDirectory() as name:
        ran = subprocess.run(
            [program, "slapmodify", "-b", "dc=com", "--data", "/dev/stdin", "-u", "-l", "/dev/null"],
            cwd=name, input="dn: dc=net\n", capture_output=True, text=True, timeout=60,
        )
        expect((ran.returncode, ran.stderr), (1, "slapkit: copy, line 1: 32 noSuchObject\n"))


def a_refused_permission_is_told(program):
    """As somebody who may not read the copy, where this runs as root."""
    with tempfile.TemporaryDirectory() as name:
        os.chmod(name, 0o755)
        path = pathlib.Path(name) / "copy"
        path.write_text(COPY)
        path.chmod(0)
        user = {"user": 65534, "group": 65534} if os.getuid() == 0 else {}
        program_for_all = pathlib.Path(name) / "slapkit"
        program_for_all.write_bytes(pathlib.Path(program).read_bytes())
        program_for_all.chmod(0o755)
        expect(told(program_for_all, name, MODIFY, **user), [NOT_PERMITTED])


def main():
    program = str(pathlib.Path(sys.argv[1]).resolve())
    rows = [(name, lambda row=row: row_is_as_told(program, *row)) for name, *row in ROWS]
    others = [(check.__name__.replace("_", " "), lambda check=check: check(program)) for check in (pipes_are_not_read_again, a_refused_permission_is_told)]
    sys.exit(checks.run("hints", rows + others))


main()
