#!/usr/bin/env python3
"""Reads the attribute types of OpenLDAP's schema files by `slapkit slapmodify -f`, and compares what it makes of them with model/definitions.py.

usage: openldap_types.py PROGRAM [--schema FOLDER]

It is outside the gate, and wants the schema files of OpenLDAP (Debian's package slapd, in /etc/ldap/schema). Where they are not there, it fetches the
package by `apt-get download`, and unpacks it without installing it. core, cosine, inetorgperson and nis joined must be accepted whole; each other file, after
these, must be accepted or refused as model/definitions.py says: some have macros in place of numbers. The types of the four are tried one by one: whether two
values that differ in case, in spaces or not at all are the same, and whether there may be two.
"""
import argparse
import pathlib
import shutil
import subprocess
import sys
import tempfile

sys.path.insert(0, str(pathlib.Path(__file__).resolve().parents[1]))

from harness import checks
from harness.checks import expect
from model import definitions, names
from model.directory import CODES
from model.names import Rule
from model.texts import added, deleted, line

LF = "\n"
SCHEMA = pathlib.Path("/etc/ldap/schema")
FOUR = ("core", "cosine", "inetorgperson", "nis")
# RFC 4519, 4524, 2798 and 2307: types that are not built in, with the rule and whether they are single-valued, and other names of built-in types
WRITTEN_DOWN = {
    "serialNumber": (Rule.CASE_IGNORE, False),
    "businessCategory": (Rule.CASE_IGNORE, False),
    "postalCode": (Rule.CASE_IGNORE, False),
    "destinationIndicator": (Rule.CASE_IGNORE, False),
    "generationQualifier": (Rule.CASE_IGNORE, False),
    "initials": (Rule.CASE_IGNORE, False),
    "dnQualifier": (Rule.CASE_IGNORE, False),
    "roleOccupant": (Rule.NAME, False),
    "houseIdentifier": (Rule.CASE_IGNORE, False),
    "roomNumber": (Rule.CASE_IGNORE, False),
    "associatedDomain": (Rule.IA5_CASE_IGNORE, False),
    "associatedName": (Rule.NAME, False),
    "mobile": (Rule.TELEPHONE, False),
    "homePhone": (Rule.TELEPHONE, False),
    "secretary": (Rule.NAME, False),
    "carLicense": (Rule.CASE_IGNORE, False),
    "departmentNumber": (Rule.CASE_IGNORE, False),
    "preferredLanguage": (Rule.CASE_IGNORE, True),
    "gecos": (Rule.IA5_CASE_IGNORE, True),
    "shadowMin": (Rule.INTEGER, True),
    "memberUid": (Rule.IA5_CASE_EXACT, False),
    "ipServicePort": (Rule.INTEGER, True),
    "bootFile": (Rule.IA5_CASE_EXACT, False),
    "uniqueMember": (Rule.OCTET, False),
}
OTHER_NAMES = {"gn": "givenname", "rfc822Mailbox": "mail", "stateOrProvinceName": "st", "streetAddress": "street"}
# two values of each rule that are the same, and two that are not
SAME = {
    Rule.CASE_IGNORE: ("A b", "a  B"),
    Rule.IA5_CASE_IGNORE: ("A b", "a  B"),
    Rule.IA5_CASE_EXACT: ("A b", "A  b "),
    Rule.TELEPHONE: ("+1 2-3", "+123"),
    Rule.INTEGER: ("7", "7"),
    Rule.NAME: ("CN=a, DC=b", "commonName=A,dc=b"),
    Rule.OCTET: ("A b", "A b"),
    Rule.OBJECT_ID: ("Top", "top"),
}
OTHER = {
    Rule.CASE_IGNORE: ("A b", "ab"),
    Rule.IA5_CASE_IGNORE: ("A b", "ab"),
    Rule.IA5_CASE_EXACT: ("A b", "a b"),
    Rule.TELEPHONE: ("+1 2-3", "+124"),
    Rule.INTEGER: ("7", "-7"),
    Rule.NAME: ("CN=a, DC=b", "cn=a"),
    Rule.OCTET: ("A b", "a b"),
    Rule.OBJECT_ID: ("Top", "top.1"),
}


def value_added(name, key, one, two):
    """A modify that gives the suffix's entry one value by the type's key, adds another by a name of it, and takes both away."""
    mods = ((("replace", key), (key, one)), (("add", name), (name, two)), (("delete", key),))
    lines = "".join("".join(line(*pair) for pair in mod) + "-\n" for mod in mods)
    return f"dn: dc=com\nchangetype: modify\n{lines}\n"


def fetched_schema(folder):
    """The schema files of Debian's package slapd, unpacked in a folder."""
    if not shutil.which("apt-get"):
        sys.exit("openldap_types: no schema files, and no apt-get to fetch them")
    for words in (["apt-get", "download", "-q", "slapd"], ["sh", "-c", "dpkg-deb -x slapd_*.deb unpacked"]):
        if subprocess.run(words, cwd=folder, stdout=subprocess.DEVNULL).returncode:
            sys.exit("openldap_types: the package slapd can't be fetched")
    return pathlib.Path(folder) / "unpacked/etc/ldap/schema"


class Trial:
    """The program in a folder, with the schema files."""

    def __init__(self, program, folder, schema):
        self.program, self.folder, self.schema = pathlib.Path(program).resolve(), pathlib.Path(folder), schema
        (self.folder / "copy").write_text("dn: dc=com\ndc: com\n\n")

    def joined(self, files):
        return b"\n".join((self.schema / f"{name}.schema").read_bytes() for name in files)

    def run(self, config, changes):
        """The exit status, the report, and what went to standard error, of a dry run."""
        (self.folder / "types.conf").write_bytes(config)
        words = [self.program, "slapmodify", "-u", "-c", "-b", "dc=com", "--data", "copy", "-f", "types.conf"]
        ended = subprocess.run(words, cwd=self.folder, input=changes.encode(), capture_output=True, timeout=60)
        return ended.returncode, ended.stdout.decode(), ended.stderr.decode()

    def the_four_are_accepted(self):
        config = self.joined(FOUR)
        expect(self.run(config, ""), (0, "accepted 0, refused 0\n", ""))
        table = definitions.table_of(config)
        count = sum(definitions.definition_in(line) is not None for _, line in definitions.lines_of(config))
        return f"{count} definitions, {len(table.rule_of) - len(names.BUILT_IN.rule_of)} types beside the {len(names.BUILT_IN.rule_of)} built-in ones"

    def their_types_are_those_of_the_standards(self):
        table = definitions.table_of(self.joined(FOUR))
        for name, (rule, is_single) in WRITTEN_DOWN.items():
            key = table.key_of.get(name.lower())
            expect((table.rule_of.get(key), key in table.single), (rule, is_single), name)
        expect({name: table.key_of.get(name.lower()) for name in OTHER_NAMES}, OTHER_NAMES, "other names")
        return f"{len(WRITTEN_DOWN) + len(OTHER_NAMES)} rows"

    def expect_answers(self, records):
        """Runs change records under the types of the four: each with the code with which it is refused, if it is."""
        changes = report = ""
        for text, code in records:
            if code:
                report += f"line {changes.count(LF) + 1}: refused, {CODES[code]}\n"
            changes += text
        refused = sum(code is not None for _, code in records)
        answer = f"{report}accepted {len(records) - refused}, refused {refused}\n"
        expect(self.run(self.joined(FOUR), changes), (1, answer, ""))

    def values_are_compared_by_their_types(self):
        """Of each name of each type, added where a value is there by the type's key: one that is the same, and one that is not."""
        table, records = definitions.table_of(self.joined(FOUR)), []
        for name, key in table.key_of.items():
            if key != "dc":
                rule = table.rule_of[key]
                records += [(value_added(name, key, *SAME[rule]), 20), (value_added(name, key, *OTHER[rule]), None)]
        self.expect_answers(records)
        return f"{len(table.key_of)} names"

    def single_values_are_kept_single(self):
        """Of each type, two values in an entry that is added and deleted again."""
        table, records = definitions.table_of(self.joined(FOUR)), []
        for key, rule in table.rule_of.items():
            if key not in ("dc", "cn"):
                is_single = key in table.single
                records.append((added("cn=e,dc=com", *((key, value) for value in OTHER[rule])), 19 if is_single else None))
                records.append((deleted("cn=e,dc=com"), 32 if is_single else None))
        self.expect_answers(records)
        return f"{len(table.single)} single-valued types of {len(table.rule_of)}"

    def each_other_file_is_read_as_in_python(self):
        others, refused = sorted({path.stem for path in self.schema.glob("*.schema")} - set(FOUR)), []
        for name in others:
            config = self.joined((*FOUR, name))
            try:
                definitions.table_of(config)
                wanted = (0, "accepted 0, refused 0\n", "")
            except definitions.ConfigFault as fault:
                wanted = (1, "", f"slapkit: {fault}\n")
                refused.append(name)
            expect(self.run(config, ""), wanted, name)
        return f"{len(others) - len(refused)} accepted, {len(refused)} refused ({' '.join(refused)})"


def main():
    parser = argparse.ArgumentParser(description=__doc__, formatter_class=argparse.RawDescriptionHelpFormatter)
    parser.add_argument("program")
    parser.add_argument("--schema", type=pathlib.Path, default=SCHEMA)
    args = parser.parse_args()
    with tempfile.TemporaryDirectory() as folder:
        schema = args.schema if args.schema.is_dir() else fetched_schema(folder)
        trial = Trial(args.program, folder, schema)
        named = [
            trial.the_four_are_accepted,
            trial.their_types_are_those_of_the_standards,
            trial.values_are_compared_by_their_types,
            trial.single_values_are_kept_single,
            trial.each_other_file_is_read_as_in_python,
        ]
        sys.exit(checks.run("openldap_types", [(check.__name__.replace("_", " "), check) for check in named]))


main()
