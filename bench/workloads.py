#!/usr/bin/env python3
"""The workloads that bench/run times (docs/PERF.md has the table of them): the files that each reads, and the runs of slapkit on them.

A workload has a scale, 1 to 100, which is the whole of it, and a seed: the same two give the same bytes, and another seed another input of the same
kind and size. Each change of a workload is accepted.

    bench/workloads.py NAME FOLDER [--scale S] [--seed SEED]

writes the files of the workload into the folder, and prints the command lines of its runs, which are to be started there.
"""

import argparse
import itertools
import os
import re
import shlex
import string
from dataclasses import dataclass

from directory import GROUPS, OTHERS, PEOPLE, SUFFIX, TITLES, TOWNS, group, modify, record, rename

WHOLE = 100
MASK = 2**64 - 1

# ---- numbers that look random


def split_mix(state):
    """The numbers of SplitMix64."""
    while True:
        state = state + 0x9E3779B97F4A7C15 & MASK
        z = (state ^ state >> 30) * 0xBF58476D1CE4E5B9 & MASK
        z = (z ^ z >> 27) * 0x94D049BB133111EB & MASK
        yield z ^ z >> 31


def xoshiro(seed):
    """The upper halves of the numbers of xoshiro256++, whose state begins as SplitMix64 gives it."""
    a, b, c, d = itertools.islice(split_mix(seed), 4)
    while True:
        total = a + d & MASK
        yield ((total << 23 | total >> 41) + a & MASK) >> 32
        c, d = c ^ a, d ^ b
        a, b, c, d = a ^ d, b ^ c, (c ^ b << 17) & MASK, (d << 45 | d >> 19) & MASK


class Draws:
    """What is drawn for one thing among those of a seed."""

    def __init__(self, seed, number):
        seed &= MASK
        self.words = xoshiro((seed << 32 & MASK | seed >> 32) ^ number)

    def below(self, bound):
        return next(self.words) % bound

    def between(self, least, most):
        return least + next(self.words) % (most - least + 1)

    def pick(self, texts):
        return texts[next(self.words) % len(texts)]

    def bytes(self, count):
        return bytes(word % 256 for word in itertools.islice(self.words, count))


# ---- a directory as slapcat writes one

DEPARTMENT = 100  # people
REGION = 12  # departments
GROUP = 1000  # the people for whom there is a group
MEMBERS = 100
PICTURE = 3000
FIRST = "Anna Bernd Clara Dieter Elena Frank Greta Hannes Karin Lukas Jürgen Zoë".split()
LAST = "Meyer Schulz Weber Koch Bauer Richter Zimmermann Krüger Hofmann Lange".split()
WORDS = "the quick brown fox jumps over a lazy dog while our directory keeps every value here".split()
CODE = string.ascii_uppercase + string.ascii_lowercase + string.digits + "+/"


def parts(number, size):
    """How many parts of at most a size make up a number."""
    return -(-number // size)


def login(person):
    """The number in the login name of a person."""
    return 1_000_000 + person


def department_dn(department):
    return f"ou=dept {department},ou=region {department // REGION},{PEOPLE}"


def person_dn(person, letter="u"):
    return f"uid={letter}{login(person)},{department_dn(person // DEPARTMENT)}"


def group_dn(number):
    return f"cn=group {number},{GROUPS}"


@dataclass(frozen=True)
class Company:
    """Departments, people and groups, each with the operational attributes of every real entry, two of them names. A person in ten has a name in
    another script, one in fifty a picture."""

    people: int
    seed: int

    @property
    def groups(self):
        return parts(self.people, GROUP)

    def copy(self):
        """The records of all entries, parents first."""
        yield self.entry(0, SUFFIX, [("objectClass", "domain"), ("dc", "example")], "domain")
        for dn in self.units():
            yield self.entry(0, dn, [("objectClass", "organizationalUnit"), ("ou", dn.split(",")[0][3:])], "organizationalUnit")
        for person in range(self.people):
            yield self.entry(person, person_dn(person), self.person(person), "inetOrgPerson")
        for number in range(self.groups):
            yield self.group(number, self.members(number))

    def units(self):
        departments = parts(self.people, DEPARTMENT)
        yield from (PEOPLE, GROUPS)
        yield from (f"ou=region {region},{PEOPLE}" for region in range(parts(departments, REGION)))
        yield from map(department_dn, range(departments))

    def entry(self, number, dn, lines, of_class):
        return record(dn, lines + self.operational(number, of_class))

    def group(self, number, members):
        """The record of a group, whose members are people."""
        return self.entry(number, group_dn(number), group(f"group {number}", map(person_dn, members)), "groupOfNames")

    def members(self, number):
        """As many people as there are members in a group, each as far from the next."""
        count = min(self.people, MEMBERS)
        first = Draws(self.seed + 2, number).below(self.people)
        return ((first + i * (self.people // count)) % self.people for i in range(count))

    def person(self, person):
        """The lines of a person, without the operational ones."""
        draws, uid = Draws(self.seed, person), f"u{login(person)}"
        first, last = OTHERS[person // 10 % 5] if person % 10 == 7 else (draws.pick(FIRST), draws.pick(LAST))
        lines = [("objectClass", of_class) for of_class in ("top", "person", "organizationalPerson", "inetOrgPerson")]
        lines += [
            ("uid", uid), ("cn", f"{first} {last}"), ("cn", uid), ("sn", last), ("givenName", first), ("displayName", f"{first} {last} ({uid})"),
            ("mail", f"{uid}@example.com"), ("mail", f"{uid}@mail.example.com"),
            ("telephoneNumber", f"+49 {draws.between(30, 9030)} {draws.between(100_000, 160_000)}"), ("employeeNumber", str(person)),
            ("title", draws.pick(TITLES)), ("l", draws.pick(TOWNS)), ("description", self.description(person)),
            ("userPassword", "{SSHA}" + "".join(CODE[b % 64] for b in draws.bytes(32))),
        ]  # fmt: skip
        if person % 10:
            lines.append(("manager", person_dn(person - person % 10)))
        if person % 50 == 1:
            lines.append(("jpegPhoto", b"\xff\xd8\xff\xe0" + draws.bytes(PICTURE) + b"\xff\xd9"))
        return lines

    def description(self, person):
        draws = Draws(self.seed, person)
        return " ".join(["About", *(draws.pick(WORDS) for _ in range(draws.between(3, 16)))])

    def operational(self, number, of_class):
        draws = Draws(self.seed + 1, number)
        stamp = "202609" + "".join(f"{draws.between(*limits):02d}" for limits in ((1, 28), (0, 23), (0, 59), (0, 59)))
        uuid = [f"{draws.between(10_000_000, 10_060_000)}", *(f"{draws.between(0, 9999):04d}" for _ in range(3))]
        node = "".join(f"{draws.between(0, 60_000):06d}" for _ in range(2))
        return [
            ("structuralObjectClass", of_class), ("entryUUID", "-".join([*uuid, node])), ("creatorsName", f"cn=root,{SUFFIX}"),
            ("createTimestamp", f"{stamp}Z"), ("entryCSN", f"{stamp}.{number:06d}Z#000000#000#000000"), ("modifiersName", f"cn=root,{SUFFIX}"),
            ("modifyTimestamp", f"{stamp}Z"),
        ]  # fmt: skip


# ---- the workloads


@dataclass(frozen=True)
class Run:
    """The words of a run of slapkit, its tool first, and the files that it writes, if any: the new copy and the undo text."""

    words: list
    new: str | None = None
    undo: str | None = None


def slapmodify(suffix, copy, changes, new, undo):
    """A run that goes on after a refused change."""
    return Run(["slapmodify", "-c", "-b", suffix, "--data", copy, "-l", changes, "--out", new, "--undo", undo], new, undo)


def without_marks(undo):
    """An undo text without the marks of its groups, as a program from before the marks writes it."""
    return re.sub(rb"^# undo .*\n", b"", undo, flags=re.MULTILINE)


@dataclass(frozen=True)
class Workload:
    """Changes of a copy, whose records are those of `copy` and `changes` of each workload."""

    scale: int
    seed: int
    suffix = SUFFIX

    def files(self):
        """The name of each file that the runs read, with the pieces of its text."""
        return {"copy.ldif": self.copy(), "changes.ldif": self.changes()}

    def runs(self):
        return [slapmodify(self.suffix, "copy.ldif", "changes.ldif", "new.ldif", "undo.ldif")]

    def write(self, folder):
        for name, pieces in self.files().items():
            with open(os.path.join(folder, name), "wb") as f:
                f.writelines(pieces)


class OfCompany(Workload):
    """A workload on a company with as many people for each hundredth."""

    PEOPLE_OF_HUNDREDTH = 0

    @property
    def company(self):
        return Company(self.scale * self.PEOPLE_OF_HUNDREDTH, self.seed)

    def copy(self):
        return self.company.copy()


class People(OfCompany):
    """Changes of all four operations, each of another person, a tenth as many as people."""

    PEOPLE_OF_HUNDREDTH = 800

    def changes(self):
        draws = Draws(self.seed + 3, 0)
        yield b"version: 1\n\n"
        for number in range(self.company.people // 10):
            person = number * 10 + draws.below(10)
            yield self.change(number, person, draws.below(15))

    def change(self, number, person, kind):
        if kind < 3:
            added = self.company.people + number
            return record(f"uid=u{login(added)},{department_dn(number // DEPARTMENT)}", self.company.person(added), "add")
        if kind < 6:
            return record(person_dn(person), [], "delete")
        if kind < 8:
            return rename(person_dn(person), f"uid=r{login(person)}", department_dn(number // DEPARTMENT) if kind == 7 else None)
        if kind == 8:
            return modify(group_dn(person % self.company.groups), ("add", "member", f"uid=v{login(person)},ou=visitors,{SUFFIX}"))
        return modify(person_dn(person), *self.modifications(person, kind))

    def modifications(self, person, kind):
        number = login(person)
        if kind in (9, 13):
            return [("replace", "title", f"Head of office {number}"), ("replace", "telephoneNumber", f"+49 30 {person}")]
        if kind in (10, 14):
            return [("replace", "mail", f"other{number}@example.com"), ("add", "seeAlso", f"cn=ref {number},{SUFFIX}")]
        if kind == 11:
            return [("delete", "description", self.company.description(person)), ("add", "description", f"Größer als {number}")]
        return [("add", "description", f"note {number} of the changes")]


class Groups(OfCompany):
    """Groups of 50 to 6,400 members, who are not in the copy. In three rounds through all groups, members come and go; then a group in ten is deleted."""

    GROUPS_OF_HUNDREDTH = 4
    DRAWN = 50_000  # people, of whom members are drawn
    STEP = 7919  # from one member of a group to the next; no divisor of DRAWN

    @property
    def groups(self):
        return range(self.scale * self.GROUPS_OF_HUNDREDTH)

    def members(self, number, start, count):
        first = Draws(self.seed, number).below(self.DRAWN)
        return ((first + i * self.STEP) % self.DRAWN for i in range(start, start + count))

    def copy(self):
        yield from super().copy()
        for number in self.groups:
            yield self.company.group(number, self.members(number, 0, self.size(number)))

    @staticmethod
    def size(number):
        return 50 << number % 8

    def changes(self):
        for turn in range(3):
            for number in self.groups:
                leave, come = self.members(number, turn * 10, 5), self.members(number, self.size(number) + turn * 5, 5)
                yield modify(group_dn(number), ("delete", "member", *map(person_dn, leave)), ("add", "member", *map(person_dn, come)))
        for number in range(0, len(self.groups) // 10 * 10, 10):
            yield record(group_dn(number), [], "delete")


class Names(Workload):
    """An awkward tree, of which an entry has three children: most names with escapes, more than one pair or letters of other scripts; long values, values that
    need more than their bytes to be compared, attributes with options, and entries before their parents. Modifies, and then moves of subtrees."""

    suffix = "o=Example\\, Inc,c=DE"
    ENTRIES_OF_HUNDREDTH = 200
    WORDS = "Straße Ｆｕｌｌ Ｗｉｄｔｈ ﬁne Ångström Москва 東京 İstanbul Ελλάδα Word VALUE text".split()
    LONG = "description;lang-ru;x-long"

    @property
    def entries(self):
        return self.scale * self.ENTRIES_OF_HUNDREDTH

    @staticmethod
    def rdn(entry):
        forms = "ou=Отдел {0}", "CN=Weber\\, Anna {0}+employeeNumber={0}", "cn=Ｆｕｌｌ  Ｗｉｄｔｈ {0}", 'ou=Unit \\#{0} \\"North\\"'
        return forms[entry % 4].format(entry)

    def dn(self, entry):
        return f"{self.rdn(entry)},{self.dn(entry // 3)}" if entry else self.suffix

    def words(self, draws, count):
        """A value of words of many scripts."""
        return "".join(draws.pick(self.WORDS) + "  " for _ in range(count)) + str(draws.between(0, 60_000))

    def copy(self):
        """The records of all entries, one in 64 after all others."""
        yield from (self.entry(entry) for entry in range(self.entries) if entry % 64 != 5)
        yield from (self.entry(entry) for entry in range(5, self.entries, 64))

    def entry(self, entry):
        draws = Draws(self.seed, entry)
        return record(self.dn(entry), [
            ("objectClass", "top"), ("objectClass", "organizationalRole"),
            ("cn", self.words(draws, 3)), ("cn;lang-ja", self.words(draws, 4)), (self.LONG, self.words(draws, 30)),
            ("description", "".join(f"Room {draws.between(1, 1000)} of  House " for _ in range(draws.between(40, 120))) + "."),
            ("telephoneNumber", f"+49-30 {draws.between(0, 60_000):06d} - {draws.between(1, 100)}"),
            ("seeAlso", self.dn(draws.below(self.entries))),
            ("postalAddress", f"Unter den Linden {draws.between(1, 100)}$Berlin  {draws.between(10_000, 19_999)}"),
            ("exampleToken;binary", draws.bytes(64)),
        ])  # fmt: skip

    def changes(self):
        for entry in range(6, self.entries, 10):
            draws = Draws(self.seed, entry)
            long, greek = self.words(draws, 20), self.words(draws, 3)
            yield modify(self.dn(entry), ("replace", self.LONG, long), ("add", "cn;lang-el", greek), ("delete", "seeAlso"))
        for entry in range(self.entries // 9, self.entries // 3):
            if entry % 10 == 7:
                yield self.move(entry)

    def move(self, entry):
        """A move directly below the suffix, under another name."""
        delete_old = "0" if entry % 20 == 7 else "1"
        return record(self.dn(entry), [("newrdn", f"ou=Переезд {entry}"), ("deleteoldrdn", delete_old), ("newsuperior", self.suffix)], "modrdn")


class Undo(OfCompany):
    """Six changes of each person, in rounds through all people, and then the undo file on the new copy."""

    PEOPLE_OF_HUNDREDTH = 60

    def runs(self):
        return [*super().runs(), slapmodify(self.suffix, "new.ldif", "undo.ldif", "back.ldif", "redo.ldif")]

    def changes(self):
        for turn in range(6):
            for person in range(self.company.people):
                yield self.change_of_leaver(turn, person) if person % 10 == 3 else self.change_of_stayer(turn, person)

    @staticmethod
    def change_of_stayer(turn, person):
        """The change of a person who has another name from the third to the fifth round."""
        number = login(person)
        dn = person_dn(person, "r" if turn in (3, 4) else "u")
        if turn in (2, 4):
            return rename(dn, f"uid={'r' if turn == 2 else 'u'}{number}")
        return modify(dn, {
            0: ("replace", "telephoneNumber", f"+49 30 {number}"),
            1: ("add", "description", f"note {number}"),
            3: ("replace", "mail", f"r{number}@example.com"),
            5: ("delete", "description", f"note {number}"),
        }[turn])  # fmt: skip

    def change_of_leaver(self, turn, person):
        """The change of a person who is deleted and comes again."""
        dn = person_dn(person)
        if turn % 3 == 0:
            return modify(dn, ("replace", "title", f"Leaver {turn}"))
        if turn % 3 == 1:
            return record(dn, [], "delete")
        return record(dn, self.company.person(person), "add")


class Access(OfCompany):
    """Questions of 120 words, no two about the same person, under a slapd.conf with 453 rules. In one of ten nobody asks."""

    PEOPLE_OF_HUNDREDTH = 4
    DEPARTMENTS = 150  # that have rules
    ATTRIBUTES = (
        "entry children objectClass uid cn sn givenName displayName mail telephoneNumber employeeNumber title l description userPassword manager jpegPhoto "
        "creatorsName createTimestamp modifiersName modifyTimestamp entryUUID seeAlso member"
    ).split()
    LEVELS = "auth compare search read write".split()

    def files(self):
        return {"copy.ldif": self.copy(), "slapd.conf": self.config()}

    def config(self):
        yield f"""database mdb
suffix "{SUFFIX}"
rootdn "cn=root,{SUFFIX}"
access to attrs=userPassword by self =xw by anonymous auth by * break
""".encode()
        for number in range(self.DEPARTMENTS):
            yield self.rules(number).encode()
        yield f"""access to attrs=entry,children,objectClass,cn,sn,givenName,displayName by users read by * break
access to *
  by dn.children="{PEOPLE}" read
  by anonymous search
""".encode()

    @staticmethod
    def rules(number):
        """The three rules of a department."""
        own, other = department_dn(number), department_dn(number % 10)
        return f"""access to dn.subtree="{own}" attrs=telephoneNumber,mail
  by self write
  by dnattr=manager write
  by * break
access to dn.subtree="{other}" filter=(&(objectClass=inetOrgPerson)(|(title=*engineer*)(employeeNumber=*{number}*)))
  by dn.subtree="{own}" +r continue
  by group="{group_dn(number % 3)}" +w break
  by * +s break
access to filter=(&(uid=u1000*)(!(l=Dresden{number}))) attrs=description,title
  by users read break
  by * break
"""

    def runs(self):
        return [Run(self.question(number)) for number in range(self.scale)]

    def question(self, number):
        draws = Draws(self.seed + 4, number)
        person = number * self.PEOPLE_OF_HUNDREDTH + draws.below(self.PEOPLE_OF_HUNDREDTH)
        requester = [] if number % 10 == 9 else ["-D", person_dn(draws.below(self.company.people))]
        words = [f"{attribute}/{level}" for attribute in self.ATTRIBUTES for level in self.LEVELS]
        return ["slapacl", "-v", "-f", "slapd.conf", "--data", "copy.ldif", "-b", person_dn(person), *requester, *words]


WORKLOADS = {"people": People, "groups": Groups, "names": Names, "undo": Undo, "access": Access}


def scale(word):
    number = int(word)
    if not 1 <= number <= WHOLE:
        raise argparse.ArgumentTypeError(f"{word} is not 1 to {WHOLE}")
    return number


def main():
    parser = argparse.ArgumentParser(description=__doc__, formatter_class=argparse.RawDescriptionHelpFormatter)
    parser.add_argument("name", metavar="NAME", choices=WORKLOADS)
    parser.add_argument("folder", metavar="FOLDER")
    parser.add_argument("--scale", type=scale, metavar="S", default=WHOLE)
    parser.add_argument("--seed", type=int, default=1)
    args = parser.parse_args()
    workload = WORKLOADS[args.name](args.scale, args.seed)
    workload.write(args.folder)
    for run in workload.runs():
        print(shlex.join(["slapkit", *run.words]))


if __name__ == "__main__":
    main()
