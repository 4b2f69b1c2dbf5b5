#!/usr/bin/env python3
"""A directory as slapcat writes one, and changes of it.

The copy has a suffix, regions, departments, people and groups, each with the operational attributes of every real entry, two
of them names. A person in ten has a name in another script, one in fifty a picture; each group has a hundred members. Lines are
folded at 76 bytes. The changes are three fifths modifies, a fifth adds and a fifth deletes; of the modifies a fifth are
renames, half of them to another department, unless they are left out. Real slapd loads the copy and accepts the changes
without the renames. The same arguments give the same bytes.

    bench/directory.py [--no-renames] N M COPY CHANGES
"""

import argparse
import base64
import random
import re
import uuid

SUFFIX = "dc=example,dc=com"
PEOPLE, GROUPS = f"ou=people,{SUFFIX}", f"ou=groups,{SUFFIX}"
FIRST = "Anna Bernd Clara Dieter Elena Frank Greta Hannes Ines Jonas Karin Lukas Maria Nils Olga Peter Rosa Simon Jürgen Zoë".split()
LAST = "Meyer Schulz Weber Koch Bauer Richter Klein Wolf Neumann Schwarz Zimmermann Braun Krüger Hofmann Lange Lehmann".split()
OTHERS = [("Ελένη", "Παπαδοπούλου"), ("Иван", "Петров"), ("花子", "山田"), ("محمد", "حسن"), ("Ｆｕｌｌ", "Ｗｉｄｔｈ")]
TITLES = ["Engineer", "Senior Engineer", "Manager", "Assistant", "Director of Operations", "Consultant"]
TOWNS = ["Berlin", "Hamburg", "München", "Köln", "Dresden", "Leipzig", "Bremen"]
WORDS = "the quick brown fox jumps over a lazy dog while our directory keeps every value in its place".split()
MEMBERS = 100
PICTURE = 3000

# A value that is written as it is: SAFE-STRING of RFC 2849, not empty and without a space at its end
SAFE = re.compile(rb"(?![ :<])[\x01-\x09\x0b\x0c\x0e-\x7f]+(?<! )")


def line(name, value):
    """One line of LDIF, with base64 where the value needs it, folded at 76 bytes."""
    data = value.encode() if isinstance(value, str) else value
    text = name.encode() + (b": " + data if SAFE.fullmatch(data) else b":: " + base64.b64encode(data))
    parts = [text[:76]] + [b" " + text[i : i + 75] for i in range(76, len(text), 75)]
    return b"\n".join(parts) + b"\n"


def record(dn, lines, changetype=None):
    """The text of a record: of an entry, or of an add or a delete."""
    words = [("changetype", changetype)] if changetype else []
    return line("dn", dn) + b"".join(line(k, v) for k, v in words + lines) + b"\n"


def modify(dn, *mods):
    """The text of a modify: each modification has an operation, an attribute and its values."""
    text = line("dn", dn) + b"changetype: modify\n"
    for op, name, *values in mods:
        text += line(op, name) + b"".join(line(name, v) for v in values) + b"-\n"
    return text + b"\n"


def rename(dn, rdn, superior=None):
    lines = [("newrdn", rdn), ("deleteoldrdn", "1")] + ([("newsuperior", superior)] if superior else [])
    return record(dn, lines, "modrdn")


def operational(i, of_class):
    chance = random.Random(i)
    stamp = f"202609{1 + i % 28:02d}{i // 3600 % 24:02d}{i // 60 % 60:02d}{i % 60:02d}"
    return [
        ("structuralObjectClass", of_class), ("entryUUID", str(uuid.UUID(int=chance.getrandbits(128), version=4))),
        ("creatorsName", f"cn=root,{SUFFIX}"), ("createTimestamp", stamp + "Z"),
        ("entryCSN", f"{stamp}.{i % 1000000:06d}Z#000000#000#000000"), ("modifiersName", f"cn=root,{SUFFIX}"), ("modifyTimestamp", stamp + "Z"),
    ]  # fmt: skip


def member(i):
    """A name of a person that is in no directory."""
    return f"uid=user{i:07d},ou=visitors,{SUFFIX}"


def group(name, members, of_class="groupOfNames"):
    return [("objectClass", of_class), ("cn", name)] + [("member", m) for m in members]


class Directory:
    """A directory of `entries` entries, of which the most are people."""

    def __init__(self, entries):
        self.groups = max(1, entries // 1000)
        self.regions = max(1, min(20, entries // 500))
        self.departments = max(1, entries // 100)
        self.people = entries - 3 - self.groups - self.regions - self.departments
        if self.people < 1:
            raise ValueError("too few entries")

    def department(self, d):
        return f"ou=dept {d},ou=region {d % self.regions},{PEOPLE}"

    def dn(self, i):
        return f"uid=u{i:07d},{self.department(i % self.departments)}"

    def person(self, i):
        """The lines of a person, without the operational ones."""
        chance = random.Random(-1 - i)
        first, last = OTHERS[i // 10 % len(OTHERS)] if i % 10 == 7 else (chance.choice(FIRST), chance.choice(LAST))
        uid = f"u{i:07d}"
        lines = [("objectClass", c) for c in ("top", "person", "organizationalPerson", "inetOrgPerson")]
        lines += [
            ("uid", uid), ("cn", f"{first} {last}"), ("cn", uid), ("sn", last), ("givenName", first), ("displayName", f"{first} {last} ({uid})"),
            ("mail", f"{uid}@example.com"), ("mail", f"{uid}@mail.example.com"),
            ("telephoneNumber", f"+49 {chance.randint(30, 9999)} {chance.randint(10000, 9999999)}"), ("employeeNumber", str(i)),
            ("title", chance.choice(TITLES)), ("l", chance.choice(TOWNS)),
            ("description", " ".join(chance.choice(WORDS) for _ in range(chance.randint(3, 16)))),
            ("userPassword", b"{SSHA}" + base64.b64encode(chance.randbytes(24))),
        ]  # fmt: skip
        if i % 10:
            lines.append(("manager", self.dn(i - i % 10)))
        if i % 50 == 1:
            lines.append(("jpegPhoto", b"\xff\xd8\xff\xe0" + chance.randbytes(PICTURE - 6) + b"\xff\xd9"))
        return lines

    def group_dn(self, g):
        return f"cn=group {g},{GROUPS}"

    def members_of(self, g):
        return sorted(random.Random(f"group {g}").sample(range(self.people), min(self.people, MEMBERS)))

    def all_entries(self):
        yield SUFFIX, [("objectClass", "domain"), ("dc", "example")], "domain"
        units = [PEOPLE, GROUPS] + [f"ou=region {r},{PEOPLE}" for r in range(self.regions)] + [self.department(d) for d in range(self.departments)]
        for dn in units:
            yield dn, [("objectClass", "organizationalUnit"), ("ou", dn.split(",")[0][3:])], "organizationalUnit"
        for i in range(self.people):
            yield self.dn(i), self.person(i), "inetOrgPerson"
        for g in range(self.groups):
            yield self.group_dn(g), group(f"group {g}", map(self.dn, self.members_of(g))), "groupOfNames"

    def write(self, path):
        with open(path, "wb") as f:
            for n, (dn, lines, of_class) in enumerate(self.all_entries()):
                f.write(record(dn, lines + operational(n, of_class)))

    def add(self, i):
        """The add of a person who isn't in the copy."""
        return record(self.dn(self.people + i), self.person(self.people + i), "add")

    def modify_person(self, i, form):
        dn, lines = self.dn(i), dict(self.person(i))
        return modify(dn, *[
            [("add", "description", f"note {i} of the changes")],
            [("replace", "title", f"Head of office {i}"), ("replace", "telephoneNumber", f"+49 30 {1000000 + i}")],
            [("replace", "mail", f"other{i}@example.com"), ("add", "seeAlso", f"cn=ref {i},{SUFFIX}")],
            [("delete", "description", lines["description"]), ("add", "description", f"Größer als {i}"), ("replace", "displayName", f"Frau {i}")],
        ][form])  # fmt: skip

    def modify_group(self, g, i):
        """One member less, if the person is one, else one more."""
        return modify(self.group_dn(g), ("delete" if i in self.members_of(g) else "add", "member", self.dn(i)))

    def rename_person(self, i, to_other):
        return rename(self.dn(i), f"uid=r{i:07d}", self.department((i + 3) % self.departments) if to_other else None)

    def changes(self, count, with_renames):
        """The texts of as many changes, each of another person, in random order."""
        chance = random.Random(count)
        chosen = iter(chance.sample(range(self.people), count))
        adds = deletes = count // 5
        modifies = count - adds - deletes
        renames, of_groups = modifies // 5 if with_renames else 0, modifies // 30
        texts = [self.add(i) for i in range(adds)]
        texts += [record(self.dn(next(chosen)), [], "delete") for _ in range(deletes)]
        texts += [self.rename_person(next(chosen), k % 2 == 0) for k in range(renames)]
        texts += [self.modify_group(k % self.groups, next(chosen)) for k in range(of_groups)]
        texts += [self.modify_person(next(chosen), k % 4) for k in range(modifies - renames - of_groups)]
        chance.shuffle(texts)
        return texts

    def write_changes(self, path, count, with_renames):
        with open(path, "wb") as f:
            f.write(b"version: 1\n\n" + b"".join(self.changes(count, with_renames)))


def main():
    parser = argparse.ArgumentParser(description=__doc__, formatter_class=argparse.RawDescriptionHelpFormatter)
    parser.add_argument("entries", type=int, metavar="N")
    parser.add_argument("changes", type=int, metavar="M")
    parser.add_argument("copy")
    parser.add_argument("text")
    parser.add_argument("--no-renames", action="store_true")
    args = parser.parse_args()
    directory = Directory(args.entries)
    directory.write(args.copy)
    directory.write_changes(args.text, args.changes, not args.no_renames)


if __name__ == "__main__":
    main()
