#!/usr/bin/env python3
"""Asks OpenLDAP for its normal form of each character of the Basic Multilingual Plane under caseIgnoreMatch, and compares it with that of RFC 4518.

usage: slapd_folds.py [--list]

It is outside the gate, and wants OpenLDAP's slapdn with its schema files (Debian's package slapd). slapkit isn't run: its keys are those of model/names.py.
Each character stands between two letters in the value of a name, which `slapdn -N` prints in its normal form. What differs is counted by how slapd goes on
instead, and compared with what was counted (slapd 2.5.13, whose tables are those of Unicode 3.2); with --list each character is told.
"""
import argparse
import collections
import pathlib
import re
import sys
import tempfile
import unicodedata

sys.path.insert(0, str(pathlib.Path(__file__).resolve().parents[1]))

from harness.checks import expect
from harness.checks import run as run_checks
from model.names import folded, tidied
from slapd import openldap
from slapd.openldap import SCHEMA, ended_well

# How many names are asked for at once.
AT_ONCE = 800
SURROGATES = range(0xD800, 0xE000)
CHARACTERS = [chr(code) for code in range(0x20, 0x10000) if code not in SURROGATES]

ALIKE = "as RFC 4518 has them"
UNASSIGNED = "unassigned, which slapd takes as they are"
UNFOLDED = "composed as RFC 4518 has it, and not folded: sharp s, final sigma, and letters that got a lower case since"
AS_THEY_ARE = "neither folded nor composed: assigned since, or with a compatibility form that came since"
LOWERED = "title case, whose lower case has one letter: Greek with iota"
OTHERWISE = "otherwise: I with a dot, and what slapd takes for Hangul past the last syllable"
COUNTED = {ALIKE: 61067, UNASSIGNED: 1436, UNFOLDED: 551, AS_THEY_ARE: 282, LOWERED: 27, OTHERWISE: 93}


def escaped(text):
    return "".join(f"\\{byte:02X}" for byte in text.encode())


def unescaped(value):
    return re.sub(rb"\\([0-9A-Fa-f]{2})", lambda found: bytes([int(found[1], 16)]), value).decode()


def normal_forms(folder):
    """slapd's normal form of each character between two letters."""
    conf = folder / "slapd.conf"
    conf.write_text(f"include {SCHEMA}/core.schema\n")
    forms = {}
    for at in range(0, len(CHARACTERS), AT_ONCE):
        part = CHARACTERS[at : at + AT_ONCE]
        said = ended_well(["slapdn", "-f", str(conf), "-N", *(f"cn={escaped(f'a{char}b')}" for char in part)], folder)
        lines = said.removesuffix("\n").split("\n")
        expect(len(lines), len(part), "names")
        forms |= {char: unescaped(line.removeprefix("cn=").encode()) for char, line in zip(part, lines)}
    return forms


def lowered(text):
    """The text with each letter in lower case, where that is one letter."""
    return "".join(char.lower() if len(char.lower()) == 1 else char for char in text)


def kind_of(char, form):
    """How slapd's form of a character goes with that of RFC 4518."""
    text, form = f"a{char}b", tidied(form)
    if unicodedata.category(char) == "Cn":
        return UNASSIGNED if form == text else OTHERWISE
    if form == tidied(folded(text)):
        return ALIKE
    if form == tidied(unicodedata.normalize("NFKC", text)):
        return UNFOLDED
    if form == text:
        return AS_THEY_ARE
    return LOWERED if form == unicodedata.normalize("NFC", lowered(text)) else OTHERWISE


def main():
    parser = argparse.ArgumentParser(usage=__doc__.split("usage: ")[1].split("\n")[0])
    parser.add_argument("--list", action="store_true")
    args = parser.parse_args()
    openldap.demand("slapd_folds.py", "slapdn")
    with tempfile.TemporaryDirectory() as folder:
        forms = normal_forms(pathlib.Path(folder))
    kinds = {char: kind_of(char, form) for char, form in forms.items()}
    if args.list:
        for char, kind in kinds.items():
            if kind != ALIKE:
                print(f"U+{ord(char):04X} {ascii(forms[char][1:-1])} {kind}")
    counts = collections.Counter(kinds.values())
    sys.exit(run_checks("characters", [(kind, lambda kind=kind: expect(counts[kind], COUNTED[kind], "characters")) for kind in COUNTED]))


main()
