#!/usr/bin/env python3
"""Asks OpenLDAP's slapacl and `slapkit slapacl` the same random questions under the same random rules, and compares the answers.

usage: slapd_access.py PROGRAM [--seed S] [--sets N] [--derived] [--keep FOLDER]

It is outside the gate, and wants OpenLDAP's slapacl and slapadd with their schema files (Debian's package slapd). Each set of rules has
5 questions, each of 20 words, so 200 sets have 20,000 answers. Half of the sets have rules of the forms that the kit reads, over the types
that it knows. Each of the others may have what wants a note: types that the kit doesn't know, other names of known ones, classes
among attributes, tests of objectClass, an include with a rule in it, a rule in the part of another database, or no rule at all.

What else README.md names under "What differs from slapd's slapacl" is left out, but for rules that run out: each word asks for a level, and there
slapacl decides as a running slapd does. A word may ask for a type that the kit doesn't know: another name of a known one, or an operational
attribute that only slapd writes. Such a word has a note.

With --derived both have types that are derived from known ones (SUP), entries have values of them, and words ask for them: what slapd answers by a rule,
a filter or dnattr= on the type above has a note.

An answer may differ from slapd's only where there was a note on the rules or on its word, and slapd may refuse the rules only where there was
one on them. Else it fails, and tells the rules and the question; and so it does where the notes are not those of model/access.py.
"""
import argparse
import base64
import collections
import os
import pathlib
import random
import shutil
import sys
import tempfile

sys.path.insert(0, str(pathlib.Path(__file__).resolve().parents[1]))

from model import definitions, names
from model.access import note_on_word, notes_of, notes_on_words
from slapd import openldap
from slapd.openldap import SCHEMA, answers, run

SCHEMAS = ("core", "cosine", "nis", "inetorgperson")
SUFFIX = "dc=example,dc=com"
QUESTIONS = 5
WORDS = 20
LEVELS = ("disclose", "auth", "compare", "search", "read", "write", "add", "delete", "manage")
TEXTS = ("cn", "sn", "title", "description", "givenName", "displayName", "employeeNumber", "l", "street", "mail", "uid", "ou")
TYPES = (*TEXTS, "commonName", "surname", "telephoneNumber", "userPassword", "uidNumber", "gidNumber", "homeDirectory", "loginShell", "manager", "seeAlso", "member", "owner")
# What wants a note: other names of known types, types that the kit doesn't know, those that slapd doesn't know either, and classes.
ALIASES = ("gn", "rfc822Mailbox", "stateOrProvinceName", "streetAddress", "fax")
OTHERS = ("mobile", "employeeType", "name", "distinguishedName", "uniqueMember", "postalCode", "initials", "memberUid", "createTimestamp")
MISSPELT = ("foo", "userPasswrd")
CLASSES = ("posixAccount", "inetOrgPerson", "organizationalPerson", "person", "top", "groupOfNames", "domain")
# What words ask for: of those that the kit doesn't know, types, other names of known ones, and what nobody but slapd writes.
ASKED = ("entry", "children", "objectClass", *TYPES, "mobile", "employeeType", "gn", "rfc822Mailbox", "streetAddress", "entryUUID", "createTimestamp")
# Types that are derived from known ones, with what defines them and the class of entries that have them.
DERIVED = {"nick": "cn", "deputy": "manager", "aide": "member"}
DEFINED = "".join(f"attributetype ( 1.3.6.1.4.1.32473.{at} NAME '{name}' SUP {above} )\n" for at, (name, above) in enumerate(DERIVED.items(), 1))
EXTRA = f"objectclass ( 1.3.6.1.4.1.32473.9 NAME 'extra' SUP top AUXILIARY MAY ( {' $ '.join(DERIVED)} ) )\n"
GIVEN = ("Anna", "Björn", "Chen", "Dag", "Eve", "Farah", "Gül", "Hugo", "Ines", "Jörg", "Kim", "Lars")


# ---- the directory


def people():
    return [f"uid={name.lower().encode('ascii', 'ignore').decode()}{at},ou={'staff' if at % 3 else 'guests'},{SUFFIX}" for at, name in enumerate(GIVEN)]


def groups():
    return [f"cn={name},ou=groups,{SUFFIX}" for name in ("admins", "readers", "owners")]


def entry(name, lines):
    return "".join(f"{line}\n" for line in (f"dn: {name}", *lines)) + "\n"


def person(at, name):
    uid = name.split(",")[0][4:]
    yield from ("objectClass: inetOrgPerson", "objectClass: posixAccount", f"uid: {uid}", f"cn: {GIVEN[at]} {'ABC'[at % 3]}", f"sn: {'ABC'[at % 3]}", f"givenName: {GIVEN[at]}")
    yield from (f"mail: {uid}@Example.com", f"uidNumber: {1000 + 7 * at}", f"gidNumber: {100 + at % 2}", f"homeDirectory: /home/{uid}", f"userPassword: secret{at}")
    yield from (f"employeeType: {('Internal', 'External')[at % 2]}", f"st: {'ABC'[at % 3]}", f"mobile: +49 170 {at}")
    if at % 2:
        yield from (f"title: {('Senior', 'Deputy', 'Chief')[at % 3]}  Engineer", f"telephoneNumber: +49 30 {1000 + at}", f"manager: {people()[at // 2]}")
    if at % 4 == 0:
        yield from (f"description: Number {at}", "description: a  b*c", f"seeAlso: {people()[(at + 1) % 12]}", "loginShell: /bin/Sh")


def with_derived(at, lines):
    """The lines of an entry, with values of derived types and their class."""
    values = {"nick": GIVEN[(at + 5) % 12], "deputy": people()[(at + 3) % 12], "aide": people()[(at + 7) % 12]}
    return ("objectClass: extra", *lines, *(f"{name}: {value}" for number, (name, value) in enumerate(values.items()) if (at + number) % 3))


def with_texts(lines):
    """The lines, with values in other scripts in base64."""
    for line in lines:
        name, value = line.split(": ", 1)
        yield line if value.isascii() else f"{name}:: {base64.b64encode(value.encode()).decode()}"


def directory(has_derived):
    text = entry(SUFFIX, ("objectClass: domain", "dc: example"))
    for ou in ("staff", "guests", "groups"):
        text += entry(f"ou={ou},{SUFFIX}", ("objectClass: organizationalUnit", f"ou: {ou}"))
    for at, name in enumerate(people()):
        lines = person(at, name)
        text += entry(name, with_texts(with_derived(at, lines) if has_derived else lines))
    for at, name in enumerate(groups()):
        members = [f"member: {who}" for who in people()[at :: 3]]
        lines = ("objectClass: groupOfNames", f"cn: {name.split(',')[0][3:]}", *members, f"owner: {people()[at]}")
        text += entry(name, with_texts(with_derived(at, lines) if has_derived else lines))
    return text


# ---- rules


def any_name(rng):
    return rng.choice([SUFFIX, f"ou=staff,{SUFFIX}", f"ou=guests,{SUFFIX}", f"ou=groups,{SUFFIX}", *people(), *groups(), f"uid=nobody,{SUFFIX}", "dc=com"])


def named(rng):
    style = rng.choice(["", ".base", ".baseobject", ".exact", ".one", ".onelevel", ".sub", ".subtree", ".children"])
    return f'dn{style}="{any_name(rng)}"'


def tested_value(rng, kind):
    if kind in ("uidNumber", "gidNumber"):
        return str(rng.choice([100, 101, 1000, 1007, 1014, 1050]))
    if kind in ("manager", "seeAlso", "member", "owner"):
        return any_name(rng)
    if kind == "employeeType":
        return rng.choice(["Internal", "internal", "EXTERNAL", "int*"])
    if kind in ("distinguishedName", "uniqueMember"):
        return any_name(rng)
    if kind in ("homeDirectory", "loginShell"):
        return rng.choice(["/home/anna0", "/bin/Sh", "/bin/sh"])
    return rng.choice(["Anna", "anna a", "A", "b", "senior engineer", "Number 4", "a b\\2ac", "chen2@EXAMPLE.com", "chen2", "+49301003", "B*", "*ngin*", "s*r", "*", "*e*e*"])


def class_test(rng):
    kind, draw = rng.choice(["objectClass", "objectClass", "objectclass", "2.5.4.0"]), rng.random()
    return f"({kind}={rng.choice(['*', 'inetOrg*', 'noClass']) if draw < 0.2 else rng.choice(CLASSES)})"


def tested_type(rng, odd):
    return rng.choice([*ALIASES, *OTHERS, *MISSPELT]) if "types" in odd and rng.random() < 0.3 else rng.choice(TYPES)


def filter_text(rng, odd, depth=0):
    draw = rng.random()
    if depth < 3 and draw < 0.35:
        inner = "".join(filter_text(rng, odd, depth + 1) for _ in range(rng.randrange(1, 4)))
        return f"({rng.choice('&|')}{inner})"
    if depth < 3 and draw < 0.5:
        return f"(!{filter_text(rng, odd, depth + 1)})"
    if "objectClass" in odd and rng.random() < 0.4:
        return class_test(rng)
    kind = tested_type(rng, odd)
    operator = rng.choice([">=", "<="]) if kind in ("uidNumber", "gidNumber") and rng.random() < 0.5 else "="
    return f"({kind}{operator}{tested_value(rng, kind)})"


def listed(rng, odd):
    names = rng.sample(["entry", "children", "objectClass", *TYPES], rng.randrange(1, 5))
    if "types" in odd and rng.random() < 0.4:
        names.append(rng.choice([*ALIASES, *OTHERS]) if rng.random() < 0.95 else rng.choice(MISSPELT))
    if "classes" in odd and rng.random() < 0.5:
        names.append(rng.choice(CLASSES))
    rng.shuffle(names)
    return "attrs=" + ",".join(names)


def what(rng, odd):
    makes = ((named, 0.5), (lambda r: listed(r, odd), 0.5), (lambda r: f'filter="{filter_text(r, odd)}"', 0.35))
    parts = [make(rng) for make, share in makes if rng.random() < share]
    rng.shuffle(parts)
    return " ".join(parts) or "*"


def who(rng):
    draw = rng.random()
    if draw < 0.4:
        return rng.choice(["*", "anonymous", "users", "self"])
    if draw < 0.65:
        return named(rng)
    if draw < 0.8:
        return f"dnattr={rng.choice(['manager', 'seeAlso', 'member', 'owner'])}"
    group = rng.choice(["group", "group/groupOfNames", "group/groupOfNames/member", "group/groupOfNames/owner", "group.exact"])
    return f'{group}="{rng.choice(groups() + [SUFFIX])}"'


def access(rng):
    if rng.random() < 0.5:
        return rng.choice(["none", *LEVELS])
    letters = "".join(rng.sample("mwazrscxd", rng.randrange(1, 4))) if rng.random() < 0.9 else "0"
    return rng.choice("=+-") + letters


def clause(rng):
    parts = ["by", who(rng)] + ([who(rng)] if rng.random() < 0.1 else [])
    kinds = [part.split("=")[0].split(".")[0].split("/")[0] for part in parts[1:]]
    if len(kinds) == 2 and (kinds[0] == kinds[1] or set(kinds) & {"*", "anonymous", "users", "self", "dn"} == set(kinds)):
        parts.pop()
    if rng.random() < 0.95:
        parts.append(access(rng))
        if rng.random() < 0.3:
            parts.append(rng.choice(["stop", "continue", "break"]))
    return " ".join(parts)


# what a set of rules may have that wants a note
ODD = ("types", "classes", "objectClass", "include", "database", "no rule")


def rule(rng, odd):
    return f"access to {what(rng, odd)} {' '.join(clause(rng) for _ in range(rng.randrange(1, 5)))}"


def rules(rng, folder):
    """The lines of a set of rules. A file that they include has a rule."""
    odd = [] if rng.random() < 0.5 else rng.sample(ODD, rng.choice([1, 1, 1, 2]))
    lines = [] if "no rule" in odd else [rule(rng, odd) for _ in range(rng.randrange(1, 8))]
    if "include" in odd:
        (folder / "acl.conf").write_text(f"{rule(rng, [])}\n")
        lines.insert(rng.randrange(len(lines) + 1), f"include {folder}/acl.conf")
    if rng.random() < 0.5 and "no rule" not in odd:
        lines.append("access to * by * read")
    if "database" in odd:
        lines += [f"database {rng.choice(['config', 'monitor'])}", *(rule(rng, []) for _ in range(rng.randrange(1, 3)))]
    return "".join(f"{line}\n" for line in lines)


def words(rng, has_derived):
    asked_for = (*ASKED, *DERIVED, *DERIVED) if has_derived else ASKED
    return [f"{rng.choice(asked_for)}/{rng.choice(LEVELS)}" for _ in range(WORDS)]


NOTED = ("without a note", "with a note on the word alone", "with a note on the rules")
FAILURES = ("different without a note", "not answered by slapkit, or with other notes")
COUNTED = ("sets of rules", "sets of rules with a note", "questions", "allowed", "refused by slapd", *(f"{kind}{how}" for how in NOTED for kind in ("", "equal ")), *FAILURES)


# ---- the two tools


def head(folder, has_derived):
    """The configuration of slapd but for its rules."""
    loads = "".join(f"include {SCHEMA}/{name}.schema\n" for name in SCHEMAS)
    return f"{loads}{DEFINED + EXTRA if has_derived else ''}modulepath /usr/lib/ldap\nmoduleload back_mdb\nmoduleload back_monitor\ndatabase mdb\nsuffix {SUFFIX}\ndirectory {folder}/db\n"


def asked(tool, conf, copy, base, requester, wanted):
    command = [*tool, "-f", str(conf), "-b", base, *(["--data", str(copy)] if copy else []), *(["-D", requester] if requester else []), *wanted]
    return run(command)


def compare(program, folder, rng, has_derived, counts):
    """Asks under one set of rules. Tells where the two differ without a note."""
    text = rules(rng, folder)
    theirs, ours = folder / "slapd.conf", folder / "slapkit.conf"
    theirs.write_text(head(folder, has_derived) + text)
    ours.write_text(f"{DEFINED if has_derived else ''}database mdb\nsuffix {SUFFIX}\n{text}")
    notes = notes_of(ours.read_bytes())
    counts["sets of rules"] += 1
    counts["sets of rules with a note"] += notes != ""
    for _ in range(QUESTIONS):
        base = rng.choice([SUFFIX, f"ou=staff,{SUFFIX}", *people(), *groups()])
        requester = rng.choice([None, *people(), f"uid=nobody,{SUFFIX}"])
        wanted = words(rng, has_derived)
        told = notes + notes_on_words(wanted)
        original = asked(["slapacl"], theirs, None, base, requester, wanted)
        slapkit = asked([program, "slapacl"], ours, folder / "copy.ldif", base, requester, wanted)
        here, there = answers(slapkit.stdout), answers(original.stdout + original.stderr)
        counts["questions"] += len(wanted)
        if slapkit.stderr != told or slapkit.returncode or len(here) != len(wanted):
            counts["not answered by slapkit, or with other notes"] += len(wanted)
            print(f"{base}, asked by {requester}: {wanted}\n{slapkit.stdout}{slapkit.stderr}under\n{text}with these notes:\n{told}", flush=True)
            continue
        if len(there) != len(wanted):
            there = ["REFUSED"] * len(wanted)
            counts["refused by slapd"] += len(wanted)
            if not notes:
                print(f"slapd: {original.stdout}{original.stderr}", flush=True)
        counts["allowed"] += there.count("ALLOWED")
        for word, mine, other in zip(wanted, here, there):
            how = NOTED[2] if notes else NOTED[1] if note_on_word(word) else NOTED[0]
            counts[how] += 1
            counts[f"equal {how}"] += mine == other
            if mine != other and how == NOTED[0]:
                counts["different without a note"] += 1
                print(f"{base}, asked by {requester}: {word} is {mine} by slapkit and {other} by slapd, under\n{text}", flush=True)


def main():
    parser = argparse.ArgumentParser(description=__doc__, formatter_class=argparse.RawDescriptionHelpFormatter)
    parser.add_argument("program")
    parser.add_argument("--seed", type=int, default=1)
    parser.add_argument("--sets", type=int, default=200)
    parser.add_argument("--derived", action="store_true")
    parser.add_argument("--keep", metavar="FOLDER")
    args = parser.parse_args()
    openldap.demand("slapd_access.py", "slapacl", "slapadd")
    with tempfile.TemporaryDirectory() as made:
        folder = pathlib.Path(args.keep or made).resolve()
        shutil.rmtree(folder / "db", ignore_errors=True)
        (folder / "db").mkdir(parents=True)
        (folder / "copy.ldif").write_text(directory(args.derived))
        (folder / "load.conf").write_text(head(folder, args.derived))
        loaded = run(["slapadd", "-q", "-f", str(folder / "load.conf"), "-l", str(folder / "copy.ldif")])
        if loaded.returncode:
            sys.exit(f"slapd_access.py: slapadd: {loaded.stderr}")
        counts = collections.Counter()
        types = definitions.table_of(DEFINED.encode() if args.derived else b"")
        with names.types_of(types):
            for number in range(args.sets):
                compare(os.path.abspath(args.program), folder, random.Random(f"{args.seed} {number}"), args.derived, counts)
    for name in COUNTED:
        print(f"{counts[name]:9} {name}")
    sys.exit(1 if any(counts[name] for name in FAILURES) else 0)


main()
