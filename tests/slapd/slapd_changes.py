#!/usr/bin/env python3
"""Makes the same random changes on a running slapd, by OpenLDAP's ldapmodify, and by `slapkit slapmodify`, and compares what comes of them.

usage: slapd_changes.py PROGRAM [--seed S] [--runs N] [--changes C] [--types]

It is outside the gate, and wants OpenLDAP's slapd with its tools and schema files (Debian's packages slapd and ldap-utils). Each run has a random directory,
whose entries are of one class that allows every type, and as many random adds, deletes, modifies and renames as are asked for. Then

- each change is accepted by both, or refused by both, and after each both have the same entries, attributes and values, as the types' rules compare them. What
  slapkit answers to a change is asked of its model (model/directory.py); the report and the new copy of slapkit's run of all changes must be the model's;
- slapd, running, takes the records of slapkit's undo file one by one, and has the first entries again.

With --types slapkit is under all types of slapd's schema files (`slapkit slapconf`, and `slapmodify -f`), and changes name more of them.

The code of a refusal may be another one: how many are is told. What README.md names under "What differs from slapd's slapmodify" is left out of the draw, but
for a name or a value that is only spelled in another way: how often that leaves other bytes is told too. Where slapd answers 80, its code for what goes wrong
in itself, it is asked once more, over a database that was just loaded. The script fails where the two differ, and tells the change.
"""
import argparse
import collections
import contextlib
import functools
import os
import pathlib
import random
import subprocess
import sys
import tempfile
import time
import urllib.parse

sys.path.insert(0, str(pathlib.Path(__file__).resolve().parents[1]))

from harness.runs import run_changes
from inputs import random_changes
from model import definitions, ldif, names
from model.directory import CODES, Add, Modify, Refused, Rename, lines_of
from model.names import Rule, description_key, name_key, value_key
from model.texts import block
from slapd import openldap
from slapd.openldap import SCHEMA

SUFFIX = "dc=com"
ROOT = "cn=root,dc=com"
CLASS = ("objectClass", "thing")
CONF = "slapd.conf"
# Types beside those of inputs/random_changes.py, with values that are of their syntax: here no syntax is checked beyond what comparing needs.
MORE = {
    "displayname": (["displayName", "DISPLAYNAME"], ["A b", "a  B", "c"]),
    "homedirectory": (["homeDirectory"], ["/home/a", "/home/A", "/home/a "]),
    "mail": (["mail", "Mail"], ["a@b.c", "A@B.C", " a@b.c", "d@e"]),
    "member": (["member", "Member"], ["cn=a,dc=com", "CN=A, dc=com", "cn=b+sn=c,dc=com", "sn=C+cn=B,DC=com", "cn=x\\,y,dc=com", "cn=x\\2cY,dc=com"]),
    "telephonenumber": (["telephoneNumber"], ["+49 30 12", "+49-30-12", "+493012", "12", "1 2"]),
    "userpassword": (["userPassword"], ["x", "X", "x ", "{SSHA}a"]),
}
# The same of types that slapkit knows by its option -f alone.
TAUGHT = {
    "drink": (["drink", "favouriteDrink"], ["Tea", "tea", "T ea"]),
    "homephone": (["homePhone", "homeTelephoneNumber"], ["+49 1", "+49-1", "2"]),
    "initials": (["initials", "INITIALS"], ["A B", "a  b", "C"]),
    "iphostnumber": (["ipHostNumber"], ["1.2.3.4", " 1.2.3.4", "::A", "::a"]),
    "memberuid": (["memberUid"], ["a", "A", "a ", "b"]),
    "mobile": (["mobile", "mobileTelephoneNumber"], ["+49 1", "+491", "3 4"]),
    "preferredlanguage": (["preferredLanguage"], ["de", "DE", "en"]),
    "secretary": (["secretary"], ["cn=a,dc=com", "CN=A, dc=com", "uid=B,dc=com"]),
    "shadowlastchange": (["shadowLastChange"], ["1", "2", "-3"]),
    "st": (["stateOrProvinceName", "st"], ["Hessen", "HESSEN", "B"]),
}
# The one of all types that slapd's schema files lack.
NOTE = "attributetype ( 1.3.6.1.4.1.32473.3 NAME 'note' EQUALITY octetStringMatch SYNTAX 1.3.6.1.4.1.1466.115.121.1.40 )\n"
# What only slapd writes.
OPERATIONAL = frozenset("structuralobjectclass entryuuid creatorsname createtimestamp entrycsn modifiersname modifytimestamp".split())
# The code for what goes wrong in slapd itself.
OTHER = 80
COUNTED = (
    "changes", "accepted by both", "refused by both", "with another code", "accepted, with other bytes",
    "records of undo files", "taken by slapd", "taken, with other bytes", "asked again after 80",
)
FAILURES = ("accepted by one of them", "other entries", "not taken by slapd", "other entries on the way back", "another report or new copy of slapkit")


# ---- what a text and a directory hold


def content(text):
    """The entries of a text of LDIF by their names' keys: the values of each attribute by theirs. The class and what only slapd writes are left out."""
    return {name_key(record.dn): attributes_of(record.lines) for _, record in ldif.records(text.encode())}


def attributes_of(lines):
    attributes = collections.defaultdict(dict)
    for name, value in lines:
        kind = description_key(name)
        if kind != "objectclass" and kind not in OPERATIONAL:
            attributes[kind][value_key(kind, value)] = value
    return dict(attributes)


def content_of(directory):
    return {key: {kind: dict(values) for kind, (_, values) in entry.attributes.items()} for key, entry in directory.entries.items()}


def keys(entries):
    """The same without the bytes of values."""
    return {name: {kind: set(values) for kind, values in attributes.items()} for name, attributes in entries.items()}


def text_of(directory):
    """The directory's text, with the class of each entry."""
    in_order = sorted(directory.entries, key=names.order)
    return "".join(block(("dn", names.printed_name(directory.name(key))), CLASS, *lines_of(directory.entries[key].attributes)) for key in in_order)


# ---- random changes


def is_left_out(change):
    """Whether README.md tells that slapd goes another way here."""
    match change:
        case Modify():
            return any(is_left_out_of_modify(*mod) for mod in change.mods)
        case Rename():
            return any(names.rule_of(description_key(kind)) is Rule.NAME for kind, _ in change.newrdn)
        case _:
            return False


def is_left_out_of_modify(op, spelling, values):
    """An add or an increment without values; or a value that is deleted twice."""
    return op in ("add", "increment") and not values or op == "delete" and has_twice(description_key(spelling), values)


def has_twice(kind, values):
    with contextlib.suppress(names.NoKey):
        return len({value_key(kind, value) for value in values}) < len(values)
    return False


def under_one_name(change):
    """An add under one name of each attribute, and with the class."""
    if not isinstance(change, Add):
        return change
    spellings = {}
    lines = [(spellings.setdefault(description_key(name), name), value) for name, value in change.lines]
    return Add(change.dn, lines)


def drawn(rng, directory):
    while is_left_out(change := random_changes.random_change(rng, directory)):
        pass
    return under_one_name(change)


def without_class(change):
    return Add(change.dn, [pair for pair in change.lines if pair != CLASS]) if isinstance(change, Add) else change


def sent(change, printed):
    """The text of a change, in an add with the class."""
    return (Add(change.dn, [CLASS, *change.lines]) if isinstance(change, Add) else change).text(printed)


def short_lines(rng, make=random_changes.many_lines):
    """Many lines of an entry; no value is longer than slapd's database takes in a name."""
    return [(name, value.lstrip("x")) for name, value in make(rng)]


def any_value(make, types, rng, kind):
    return rng.choice(types[kind][1]) if kind in types else make(rng, kind)


def set_draw(types):
    """Draws the changes of inputs/random_changes.py among more types, without the letter that slapd holds apart from "ss", and without numbers past its 64 bits."""
    random_changes.BUILT_IN_SPELLINGS.update((kind, spellings) for kind, (spellings, _) in types.items())
    random_changes.set_types(random_changes.BUILT_IN_SPELLINGS)
    random_changes.TEXTS[:] = [text for text in random_changes.TEXTS if "\u00df" not in text]
    random_changes.AMOUNTS[:] = [amount for amount in random_changes.AMOUNTS if len(amount) < 19]
    random_changes.many_lines, random_changes.random_value = short_lines, functools.partial(any_value, random_changes.random_value, types)


# ---- slapd


class Server:
    """A slapd that runs in a folder."""

    def __init__(self, folder):
        self.folder, self.running = pathlib.Path(folder), None
        self.url = "ldapi://" + urllib.parse.quote(f"{folder}/socket", safe="")
        loads = "".join(f"include {SCHEMA}/{name}.schema\n" for name in ("core", "cosine", "nis", "inetorgperson"))
        types = " $ ".join({spellings[0].partition(";")[0] for spellings in random_changes.TYPES.values()})
        thing = f"objectclass ( 1.3.6.1.4.1.32473.9 NAME 'thing' SUP top STRUCTURAL MAY ( {types} ) )\n"
        database = f"database mdb\nsuffix {SUFFIX}\nrootdn {ROOT}\nrootpw secret\ndirectory {folder}/db\ndbnosync\n"
        self.folder.joinpath(CONF).write_text(f"{loads}{NOTE}{thing}modulepath /usr/lib/ldap\nmoduleload back_mdb\n{database}")

    def __enter__(self):
        return self

    def __exit__(self, *fault):
        self.stop()

    def stop(self):
        if self.running:
            self.running.terminate()
            self.running.wait()
            self.running = None

    def tool(self, *words):
        return openldap.run([words[0], "-f", CONF, *words[1:]], self.folder)

    def load(self, directory):
        """Begins anew with these entries."""
        self.stop()
        database = self.folder / "db"
        database.mkdir(exist_ok=True)
        for file in database.iterdir():
            file.unlink()
        self.folder.joinpath("copy").write_text(text_of(directory))
        loaded = self.tool("slapadd", "-q", "-l", "copy")
        if loaded.returncode:
            sys.exit(f"slapd_changes.py: slapadd: {loaded.stderr}")
        self.start()

    def start(self):
        how = {"cwd": self.folder, "stdin": subprocess.DEVNULL, "stdout": subprocess.DEVNULL, "stderr": subprocess.DEVNULL}
        self.running = subprocess.Popen(["slapd", "-f", CONF, "-h", self.url, "-d", "0"], env={**os.environ, "PATH": openldap.TOOLS}, **how)
        end = time.monotonic() + openldap.SECONDS
        while openldap.run(["ldapwhoami", "-x", "-H", self.url]).returncode:
            if time.monotonic() > end:
                sys.exit("slapd_changes.py: slapd does not answer")
            time.sleep(0.02)

    def change(self, text):
        """Makes a change, and returns the code of the answer, and what was said."""
        self.folder.joinpath("change").write_text(text)
        ended = openldap.run(["ldapmodify", "-x", "-D", ROOT, "-w", "secret", "-H", self.url, "-f", "change"], self.folder)
        return ended.returncode, ended.stdout + ended.stderr

    def content(self):
        return content(openldap.ended_well(["slapcat", "-f", CONF], self.folder))


# ---- a run


def told(what, text, said):
    print(f"{what}:\n{text}{said}", flush=True)


def code_of(directory, change):
    """Makes a change as slapkit does, and returns 0 or the code by which it is refused."""
    try:
        directory.apply(change)
    except Refused as refused:
        return refused.code
    return 0


def answer(server, directory, text, counts):
    """The code of slapd's answer to a change of these entries, and what was said. After 80 it is asked once more, over a database that was just loaded."""
    code, said = server.change(text)
    if code == OTHER:
        counts["asked again after 80"] += 1
        server.load(directory)
        code, said = server.change(text)
    return code, said


def compare_change(server, directory, change, text, counts):
    """Compares what comes of a change, and returns the code that slapkit's report is to have."""
    theirs, said = answer(server, directory, text, counts)
    mine = code_of(directory, change)
    counts["changes"] += 1
    if bool(mine) != bool(theirs):
        counts["accepted by one of them"] += 1
        told(f"{mine} by slapkit", text, said)
        server.load(directory)
    elif mine:
        counts["refused by both"] += 1
        counts["with another code"] += mine != theirs
    else:
        counts["accepted by both"] += 1
        compare_entries(server, directory, text, counts, "accepted, with other bytes", "other entries")
    return mine


def compare_entries(server, directory, text, counts, with_bytes, different):
    """After a change that both made. Where they differ slapd begins anew."""
    here, there = content_of(directory), server.content()
    if here == there:
        return
    if keys(here) == keys(there):
        counts[with_bytes] += 1
    else:
        counts[different] += 1
        unlike = (name for name in {*here, *there} if here.get(name) != there.get(name))
        told(different, text, "".join(f"  {name}: {here.get(name)} here, {there.get(name)} in slapd\n" for name in unlike))
    server.load(directory)


def compare_way_back(server, directory, undo, counts):
    """Has slapd take the records of an undo file, each of which the model of slapkit takes too."""
    for (_, change), text in zip(ldif.records(undo.encode()), undo.split("\n\n")[1:]):
        theirs, said = answer(server, directory, f"{text}\n", counts)
        code = code_of(directory, without_class(change))
        counts["records of undo files"] += 1
        if theirs or code:
            counts["not taken by slapd"] += 1
            told(f"{code} by slapkit, on the way back", text, said)
            server.load(directory)
        else:
            counts["taken by slapd"] += 1
            compare_entries(server, directory, text, counts, "taken, with other bytes", "other entries on the way back")


@contextlib.contextmanager
def under_types(program):
    """Goes by the types of slapd's schema files, and yields the configuration that slapkit makes of them."""
    with tempfile.TemporaryDirectory() as folder:
        Server(folder)
        made = subprocess.run([program, "slapconf", "-b", SUFFIX, "-f", CONF, "--out", "flat"], cwd=folder, stdin=subprocess.DEVNULL, capture_output=True)
        if made.returncode:
            sys.exit(f"slapd_changes.py: slapconf: {made.stderr.decode()}")
        flat = pathlib.Path(folder, "flat").read_bytes()
    with names.types_of(definitions.table_of(flat)):
        yield flat


def report_of(texts, codes):
    """The exit status and the report of a run of these changes, which are accepted (0) or refused with these codes."""
    report, number = "", 1
    for text, code in zip(texts, codes):
        report += f"line {number}: refused, {CODES[code]}\n" if code else ""
        number += text.count("\n")
    return int(any(codes)), f"{report}accepted {codes.count(0)}, refused {len(codes) - codes.count(0)}\n"


def slapkit_run(program, folder, copy, changes):
    """The exit status and the report, the new copy and the undo file."""
    for name, text in (("copy.ldif", copy), ("changes.ldif", changes)):
        folder.joinpath(name).write_text(text)
    answer = run_changes(program, folder, "copy.ldif", "changes.ldif", "new.ldif", "undo.ldif", "-c")
    return answer, folder.joinpath("new.ldif").read_text(), folder.joinpath("undo.ldif").read_text()


def a_run(program, seed, count, flat, counts):
    rng = random.Random(f"slapd {seed}")
    directory = random_changes.random_directory(rng, 0)
    copy, first, texts, codes = text_of(directory), content_of(directory), [], []
    printed = random_changes.freely_printed(rng)
    with tempfile.TemporaryDirectory() as folder, Server(folder) as server:
        if flat:
            server.folder.joinpath("conf").write_bytes(flat)
        server.load(directory)
        for _ in range(count):
            change = drawn(rng, directory)
            texts.append(sent(change, printed))
            codes.append(compare_change(server, directory, change, texts[-1], counts))
        reported, new, undo = slapkit_run(program, server.folder, copy, "".join(texts))
        if reported != report_of(texts, codes) or content(new) != content_of(directory):
            counts["another report or new copy of slapkit"] += 1
            print(f"by slapkit: {reported}, by the model: {report_of(texts, codes)}", flush=True)
            return
        compare_way_back(server, directory, undo, counts)
        counts["other entries on the way back"] += content_of(directory) != first


def main():
    parser = argparse.ArgumentParser(description=__doc__, formatter_class=argparse.RawDescriptionHelpFormatter)
    parser.add_argument("program")
    parser.add_argument("--seed", type=int, default=1)
    parser.add_argument("--runs", type=int, default=20)
    parser.add_argument("--changes", type=int, default=100)
    parser.add_argument("--types", action="store_true")
    args = parser.parse_args()
    openldap.demand("slapd_changes.py", "slapd", "slapadd", "slapcat", "ldapmodify", "ldapwhoami")
    set_draw({**MORE, **TAUGHT} if args.types else MORE)
    program, counts = os.path.abspath(args.program), collections.Counter()
    with under_types(program) if args.types else contextlib.nullcontext() as flat:
        for number in range(args.runs):
            a_run(program, f"{args.seed} {number}", args.changes, flat, counts)
    for name in (*COUNTED, *FAILURES):
        print(f"{counts[name]:9} {name}")
    sys.exit(1 if any(counts[name] for name in FAILURES) else 0)


main()
