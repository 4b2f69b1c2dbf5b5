#!/usr/bin/env python3
"""Measures how cost grows on texts that are made to be slow.

Each family makes texts of a size n. slapkit runs on those of n and of 8 n, where 8 n is the largest size that the family has. The exponent
of growth is log(cost(8 n) / cost(n)) / log(8): 1 where eight times the text costs eight times as much, 2 where cost grows with the square.
It must be at most 1.1. Cost is CPU time, without that of a run of nothing; where the exponent is more, both runs are made again, up to
three times, and the least of each counts, since other work disturbs them. With --instructions it is what `valgrind --tool=callgrind`
counts, which is the same in each run. The peak memory of both runs is told too; texts of which nothing is kept must take the same, within 2 MB.

    bench/hostile.py [--program PATH] [--only WORD] [--divided-by K] [--instructions]

--divided-by makes all sizes K times smaller (100 with --instructions, if no other is given). It prints a table, and ends with status 1 where
one of these bounds is missed.
"""

import argparse
import dataclasses
import math
import os
import random
import re
import subprocess
import sys
import tempfile
import time
import typing

from bench import PROGRAM

ROOT = b"dn: dc=com\ndc: com\n\n"
FACTOR = 8
MOST = 1.1
TRIES = 3
MEGABYTE = 1_000_000
MOST_OF_A_VALUE = 1_048_576
MOST_OF_A_CONFIGURATION = 16 << 20
SAME_MEMORY = 2 * MEGABYTE


def shuffled(lines):
    random.Random(1).shuffle(lines)
    return lines


def block(name, lines=()):
    return b"dn: " + name + b"\n" + b"".join(lines) + b"\n"


# ---- one entry


def values_of_one_entry(n):
    """Values in no order, in the copy; then the entry goes, and comes back by the undo file."""
    values = shuffled([b"description: value %d\n" % i for i in range(n)])
    return {"copy": [ROOT, block(b"cn=a,dc=com", values)], "changes": [b"dn: cn=a,dc=com\nchangetype: delete\n"]}


def descriptions_with_options(n):
    lines = shuffled([b"description;lang-a%d;x-b%d: c\n" % (i, n - i) for i in range(n)])
    return {"copy": [ROOT, block(b"cn=a,dc=com", lines)], "changes": [b"dn: cn=a,dc=com\nchangetype: delete\n"]}


def one_modify(n):
    """Modifications of one value each, all in one record."""
    mods = shuffled([b"add: description\ndescription: value %d\n-\n" % i for i in range(n)])
    return {"copy": [ROOT], "changes": [b"dn: dc=com\nchangetype: modify\n", *mods]}


def one_modify_of_many_values(n):
    """Values are added in one order, and deleted in another."""
    added, deleted = ([b"description: value %d\n" % i for i in order] for order in (range(n), shuffled(list(range(n)))))
    head = b"dn: dc=com\nchangetype: modify\n"
    return {"copy": [ROOT], "changes": [head, b"add: description\n", *added, b"-\n\n", head, b"delete: description\n", *deleted, b"-\n\n"]}


def one_modify_of_many_descriptions(n):
    mods = shuffled([b"add: description;lang-a%d\ndescription;lang-a%d: c\n-\n" % (i, i) for i in range(n)])
    return {"copy": [ROOT], "changes": [b"dn: dc=com\nchangetype: modify\n", *mods]}


def one_modify_of_the_descriptions_there(n):
    """Each description of an entry is deleted, by a modification of its own."""
    names = [b"description;lang-a%d" % i for i in range(n)]
    mods = shuffled([b"delete: %s\n-\n" % name for name in names])
    return {"copy": [b"dn: dc=com\ndc: com\n", *[b"%s: c\n" % name for name in names], b"\n"], "changes": [b"dn: dc=com\nchangetype: modify\n", *mods]}


def one_modify_that_replaces_descriptions(n):
    """Each description of an entry is given another value, by a modification of its own."""
    names = [b"description;lang-a%d" % i for i in range(n)]
    mods = shuffled([b"replace: %s\n%s: d\n-\n" % (name, name) for name in names])
    return {"copy": [b"dn: dc=com\ndc: com\n", *[b"%s: c\n" % name for name in names], b"\n"], "changes": [b"dn: dc=com\nchangetype: modify\n", *mods]}


def one_modify_between_descriptions(n):
    """Of an entry's descriptions every second goes, and others come between those that stay."""
    names = [b"description;lang-a%08d" % i for i in range(n)]
    there = [b"%s: c\n" % name for name in names if name[-1] % 2]
    mods = shuffled([b"delete: %s\n-\n" % name if i % 4 == 1 else b"add: %s\n%s: c\n-\n" % (name, name) for i, name in enumerate(names) if i % 4 < 2])
    return {"copy": [b"dn: dc=com\ndc: com\n", *there, b"\n"], "changes": [b"dn: dc=com\nchangetype: modify\n", *mods]}


def large_values(n):
    """Values of 1,048,575 bytes, folded after 76."""
    value = b"x" * (MOST_OF_A_VALUE - 1 - len("00000000"))
    rest = b"".join(b"\n " + value[at : at + 75] for at in range(0, len(value), 75))
    return {"copy": (block(b"cn=a%08d,dc=com" % i, [b"description: %08d" % i, rest, b"\n"]) if i else ROOT for i in range(n + 1))}


def values_with_a_common_prefix(n):
    values = shuffled([b"description: " + b"a" * 10_000 + b"%d\n" % i for i in range(n)])
    return {"copy": [ROOT, block(b"cn=a,dc=com", values)], "changes": [b"dn: cn=a,dc=com\nchangetype: delete\n"]}


# ---- many entries


def entries_in_reverse(n):
    return {"copy": (block(b"cn=a%08d,dc=com" % i) if i >= 0 else ROOT for i in range(n - 1, -2, -1))}


def name_in_tree(number):
    """The name of an entry of a tree in which each has eight children."""
    rdns = []
    while number:
        rdns.append(b"ou=a%d" % number)
        number = (number - 1) // 8
    return b",".join([*rdns, b"dc=com"])


def children_before_parents(n):
    return {"copy": (block(name_in_tree(i)) for i in range(n, -1, -1))}


def names_with_a_common_prefix(n):
    """Entries under one parent, whose names have the same 4,000 bytes first."""
    order = shuffled(list(range(n)))
    return {"copy": (block(b"cn=" + b"a" * 4_000 + b"%d,dc=com" % i) if i >= 0 else ROOT for i in [-1, *order])}


def deep_names(n):
    """Entries with 64 RDNs, and names of 64 RDNs as values."""
    chain = [b",".join([*(b"ou=unit %02d" % i for i in range(depth, 0, -1)), b"dc=com"]) for depth in range(63)]
    leaves = (block(b"cn=a%08d,%s" % (i, chain[-1]), [b"seeAlso: cn=b%08d,%s\n" % (i, chain[-1])]) for i in range(n))
    return {"copy": (text for texts in (map(block, chain), leaves) for text in texts)}


# ---- many records


def adds_and_deletes(n):
    """Entries come in no order, and go in another."""
    orders = [shuffled(list(range(n))), range(n)]
    record = b"dn: cn=a%08d,dc=com\nchangetype: %s\n\n"
    return {"copy": [ROOT], "changes": (record % (i, kind) for order, kind in zip(orders, (b"add", b"delete")) for i in order)}


def names_of_many_pairs(n):
    """Names of n bytes, each of one RDN, which are past its limit: twenty of them."""
    pairs = b"+".join(b"a%d=b" % i for i in range(n // 9))
    return {"copy": [ROOT], "changes": [b"dn: %s\nchangetype: delete\n\n" % pairs] * 20}


def refused_records(n):
    return {"copy": [ROOT], "changes": (b"dn: cn=a%08d,ou=none,dc=com\nchangetype: delete\n\n" % i for i in range(n))}


def faulty_records(n):
    """Records whose last line is none."""
    return {"copy": [ROOT], "changes": (b"dn: cn=a%08d,dc=com\nchangetype: add\nsn: a\nb\n\n" % i for i in range(n))}


def moves_there_and_back(n):
    """Renames of an entry with a thousand entries below it, which move with it."""
    below = [block(b"cn=a%d,ou=a,dc=com" % i) for i in range(1000)]
    move = b"dn: ou=%s,dc=com\nchangetype: modrdn\nnewrdn: ou=%s\ndeleteoldrdn: 1\n\n"
    return {"copy": [ROOT, block(b"ou=a,dc=com"), *below], "changes": (move % ((b"a", b"b"), (b"b", b"a"))[i % 2] for i in range(n))}


# ---- texts of nothing


def comments(n):
    return {"copy": [ROOT], "changes": [b"# comment\n" * (n // 10)]}


def empty_lines(n):
    return {"copy": [ROOT], "changes": [b"\n" * n]}


def continuation_lines(n):
    """Each continues the line before by nothing."""
    return {"copy": [ROOT], "changes": [b" \n" * (n // 2)]}


def a_folded_comment(n):
    return {"copy": [ROOT], "changes": [b"#\n" + b" \n" * (n // 2)]}


# ---- rules

HEAD = b"database mdb\nsuffix dc=com\n"


def rules(rule, n):
    return {"copy": [ROOT, block(b"cn=a,dc=com", [b"sn: a\n"])], "conf": [HEAD, rule * ((n - len(HEAD)) // len(rule))]}


def deep_filters(n):
    return rules(b"access to filter=" + b"(!" * 63 + b"(cn=a)" + b")" * 63 + b" by * none\n", n)


def wide_filters(n):
    return rules(b"access to filter=(|" + b"(cn=b*a*a*a)" * 50 + b") by * none\n", n)


def plain_rules(n):
    return rules(b'access to dn.subtree="ou=d,dc=com" attrs=cn,sn by group="cn=a,dc=com" write by * read\n', n)


def one_rule(n):
    """One rule with clauses in lines of their own."""
    clause = b'  by dn="cn=b,dc=com" read\n'
    return {"copy": [ROOT, block(b"cn=a,dc=com")], "conf": [HEAD, b"access to *\n", clause * ((n - len(HEAD) - 12) // len(clause))]}


def pieces_of_a_long_value(n):
    """A value of n bytes, and two substring filters, each of a piece of half its length that is nearly everywhere in it."""
    rule = b"access to filter=(description=*" + b"a" * (n // 2) + b"b*) by * none\n"
    return {"copy": [ROOT, block(b"cn=a,dc=com", [b"description: " + b"a" * n + b"\n"])], "conf": [HEAD, rule, rule]}


def definitions(n, definition_of):
    """A configuration of about n bytes that defines types."""
    length = len(definition_of(1_000_000))
    return {"copy": [ROOT, block(b"cn=a,dc=com")], "conf": [HEAD, b"access to * by * read\n", *(definition_of(1_000_000 + i) for i in shuffled(list(range((n - len(HEAD) - 22) // length))))]}


def attribute_types(n):
    return definitions(n, lambda i: b"attributetype ( 1.3.6.1.4.1.32473.%d NAME ( 'type%d' 'alias%d' ) EQUALITY caseIgnoreMatch )\n" % (i, i, i))


def names_of_one_type(n):
    """The names of a known type, each in a definition of its own."""
    return definitions(n, lambda i: b"attributetype ( 2.5.4.3 NAME 'name%d' )\n" % i)


@dataclasses.dataclass
class Family:
    """Texts of a kind: what the size counts, and the largest size."""

    texts: typing.Callable
    counts: str
    largest: int
    # whether nothing of the text is kept
    is_constant: bool = False
    # about how much memory one unit takes, where that bounds the size
    memory: int = 0

    def name(self):
        return self.texts.__name__.replace("_", " ")

    def largest_here(self, divided_by):
        """The largest size, less where the machine has not the memory for it."""
        largest = self.largest // divided_by
        return max(FACTOR, min(largest, free_memory() * 3 // 4 // self.memory) if self.memory else largest)


FAMILIES = [
    Family(values_of_one_entry, "values", 200_000),
    Family(descriptions_with_options, "descriptions", 20_000),
    Family(one_modify, "modifications", 100_000),
    Family(one_modify_of_many_values, "values", 100_000),
    Family(one_modify_of_many_descriptions, "descriptions", 20_000),
    Family(one_modify_of_the_descriptions_there, "descriptions", 20_000),
    Family(one_modify_that_replaces_descriptions, "descriptions", 20_000),
    Family(one_modify_between_descriptions, "descriptions", 20_000),
    Family(large_values, "values", 4_000, memory=5 * MOST_OF_A_VALUE // 2),
    Family(values_with_a_common_prefix, "values", 20_000),
    Family(entries_in_reverse, "entries", 500_000),
    Family(children_before_parents, "entries", 500_000),
    Family(names_with_a_common_prefix, "entries", 20_000),
    Family(deep_names, "entries", 40_000),
    Family(adds_and_deletes, "entries", 200_000),
    Family(names_of_many_pairs, "bytes", MOST_OF_A_VALUE),
    Family(refused_records, "records", 1_000_000),
    Family(faulty_records, "records", 1_000_000),
    Family(moves_there_and_back, "moves", 100_000),
    Family(comments, "bytes", 100_000_000, is_constant=True),
    Family(empty_lines, "bytes", 100_000_000, is_constant=True),
    Family(continuation_lines, "bytes", 100_000_000, is_constant=True),
    Family(a_folded_comment, "bytes", 100_000_000, is_constant=True),
    Family(deep_filters, "bytes", MOST_OF_A_CONFIGURATION),
    Family(wide_filters, "bytes", MOST_OF_A_CONFIGURATION),
    Family(plain_rules, "bytes", MOST_OF_A_CONFIGURATION),
    Family(one_rule, "bytes", MOST_OF_A_CONFIGURATION),
    Family(pieces_of_a_long_value, "bytes", 1_000_000),
    Family(attribute_types, "bytes", MOST_OF_A_CONFIGURATION),
    Family(names_of_one_type, "bytes", MOST_OF_A_CONFIGURATION),
]


def free_memory():
    with open("/proc/meminfo") as f:
        return int(re.search(r"MemAvailable: *(\d+)", f.read())[1]) * 1024


# ---- runs


@dataclasses.dataclass
class Cost:
    """What a run takes: CPU seconds or instructions, and bytes of memory."""

    cost: float
    memory: int


def words_of(program, files):
    if "conf" in files:
        return [program, "slapacl", "-b", "cn=a,dc=com", "-f", files["conf"], "--data", files["copy"], "sn/read"]
    outputs = [os.path.join(os.path.dirname(files["copy"]), name) for name in ("new", "undo")]
    for path in outputs:
        if os.path.exists(path):
            os.remove(path)
    return [program, "slapmodify", "-b", "dc=com", "--data", files["copy"], "-l", files["changes"], "-c", "--out", outputs[0], "--undo", outputs[1]]


def peak_of(child):
    """The peak memory of a child until now; nothing once it has ended. (What wait4 tells of it counts this process's own too.)"""
    try:
        with open(f"/proc/{child}/status") as f:
            found = re.search(r"VmHWM:\s*(\d+)", f.read())
    except ProcessLookupError:
        found = None
    return int(found[1]) * 1024 if found else 0


def seconds(words):
    with tempfile.TemporaryFile() as message:
        process = subprocess.Popen(words, stdin=subprocess.DEVNULL, stdout=subprocess.DEVNULL, stderr=message)
        memory, ended = 0, 0
        while not ended:
            memory = max(memory, peak_of(process.pid))
            ended, status, usage = os.wait4(process.pid, os.WNOHANG)
            time.sleep(0.002)
        process.returncode = os.waitstatus_to_exitcode(status)
        message.seek(0)
        said = message.read()
    if process.returncode not in (0, 1) or said:
        sys.exit(f"{words} ended with {process.returncode}: {said[:200]}")
    return Cost(usage.ru_utime + usage.ru_stime, memory)


def instructions(words):
    """How many instructions a run takes. Its memory is not told."""
    with tempfile.NamedTemporaryFile() as told:
        ended = subprocess.run(["valgrind", "--tool=callgrind", f"--callgrind-out-file={told.name}", *words], capture_output=True, text=True)
    found = re.search(r"Collected : (\d+)", ended.stderr)
    if ended.returncode not in (0, 1) or not found:
        sys.exit(f"callgrind ended with {ended.returncode}: {ended.stderr[-200:]}")
    return Cost(int(found[1]), 0)


def write(folder, texts):
    files = {}
    for name, parts in ({"changes": []} | texts).items():
        files[name] = os.path.join(folder, name)
        with open(files[name], "wb") as f:
            f.writelines(parts)
    return files


class Measure:
    """Measures families."""

    def __init__(self, args, folder):
        self.program, self.how, self.divided_by, self.folder = args.program, instructions if args.instructions else seconds, args.divided_by, folder
        files = write(folder, {"copy": [ROOT]})
        self.of_nothing = min(self.how(words_of(self.program, files)).cost for _ in range(TRIES))

    def cost_of(self, family, size):
        """What a run takes, and how large its texts are."""
        with tempfile.TemporaryDirectory(dir=self.folder) as folder:
            files = write(folder, family.texts(size))
            found = self.how(words_of(self.program, files))
            return Cost(max(found.cost - self.of_nothing, 1e-9), found.memory), sum(map(os.path.getsize, files.values()))

    def family(self, family):
        """Prints a row of the table, and tells whether the bounds are met."""
        large = family.largest_here(self.divided_by)
        small = max(1, large // FACTOR)
        best = [math.inf, math.inf]
        for _ in range(1 if self.how is instructions else TRIES):
            (low, _), (high, size) = self.cost_of(family, small), self.cost_of(family, large)
            best = [min(best[0], low.cost), min(best[1], high.cost)]
            exponent = math.log(best[1] / best[0]) / math.log(large / small)
            if exponent <= MOST:
                break
        is_met = exponent <= MOST and (not family.is_constant or abs(high.memory - low.memory) <= SAME_MEMORY)
        cost = f"{best[1] / MEGABYTE:,.0f} million instructions" if self.how is instructions else f"{best[1]:.2f} s"
        memory = f"{low.memory / MEGABYTE:.1f} and {high.memory / MEGABYTE:.1f} MB" if high.memory else ""
        less = f" of {family.largest:,}" if large < family.largest else ""
        note = "" if is_met else " **missed**"
        print(f"| {family.name()} | {large:,}{less} {family.counts}, {size / MEGABYTE:.1f} MB | {cost} | {exponent:.2f}{note} | {memory} |", flush=True)
        return is_met


def main():
    parser = argparse.ArgumentParser(description=__doc__, formatter_class=argparse.RawDescriptionHelpFormatter)
    parser.add_argument("--program", default=PROGRAM)
    parser.add_argument("--only", default="", metavar="WORD", help="the families whose names have this word")
    parser.add_argument("--divided-by", type=int, metavar="K")
    parser.add_argument("--instructions", action="store_true")
    args = parser.parse_args()
    args.divided_by = args.divided_by or (100 if args.instructions else 1)
    chosen = [family for family in FAMILIES if args.only in family.name()]
    print("| Family | Larger text | Its cost | Exponent | Peak memory of both |\n|---|---|---|---|---|", flush=True)
    with tempfile.TemporaryDirectory() as folder:
        measure = Measure(args, folder)
        answers = [measure.family(family) for family in chosen]
    sys.exit(0 if all(answers) else 1)


if __name__ == "__main__":
    main()
