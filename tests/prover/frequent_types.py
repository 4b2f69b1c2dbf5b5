#!/usr/bin/env python3
"""Checks that each frequent attribute type of `dir_names` has a slot and a rank of its own.

usage: frequent_types.py

`Schema` looks a frequent type up in one slot, by its first, middle and last letter and its length. Two types in one slot
are no fault that a contract could see: one of them is then looked up as slowly as any other type. So it is with a type that
has no rank in `RANKED`.
"""
import pathlib
import re
import sys

sys.path.insert(0, str(pathlib.Path(__file__).resolve().parents[1]))

from harness import checks
from harness.checks import expect
from harness.repository import ROOT

SOURCES = ROOT / "crates/dir_names/src"
TABLE, LOOKUP = ((SOURCES / name).read_text() for name in ("schema/table.rt", "schema.rt"))

# the function that this script repeats
SLOT_OF = """
    let letters = (letter_number(*first) * 23 + letter_number(*last)) * 23 + letter_number(*middle);
    (letters * 23 + text.len() % SLOTS) % SLOTS
"""


def table_of(name):
    table = re.search(name + r": \[&str; (\d+)\] = \[(.*?)\];", TABLE, re.S)
    types = re.findall(r'"([^"]+)"', table[2])
    expect(len(types), int(table[1]), "types in the table")
    return types


def slot_of(name, slots):
    first, middle, last = (ord(name[at]) | 32 for at in (0, len(name) // 2, -1))
    return (((first * 23 + last) * 23 + middle) * 23 + len(name) % slots) % slots


def the_function_is_the_one_repeated_here():
    expect(SLOT_OF in LOOKUP, True, "slot_of")


def each_type_has_its_own_slot():
    slots = int(re.search(r"const SLOTS: usize = (\d+);", LOOKUP)[1])
    taken = {}
    for name in table_of("FREQUENT"):
        other = taken.setdefault(slot_of(name, slots), name)
        expect(other, name, "the type in the slot")
    return f"{len(taken)} types in {slots} slots"


def each_type_has_a_rank():
    ranked = table_of("RANKED")
    expect(ranked, sorted(name.lower() for name in table_of("FREQUENT")), "the types with ranks")
    return f"{len(ranked)} ranks"


CHECKS = [the_function_is_the_one_repeated_here, each_type_has_its_own_slot, each_type_has_a_rank]

sys.exit(checks.run("frequent types", [(check.__name__.replace("_", " "), check) for check in CHECKS]))
