#!/usr/bin/env python3
"""Runs slapkit on copies, changes and configurations that were changed at random.

usage: fuzz.py PROGRAM [--seed S] [--runs N] [--minutes M] [--jobs J] [--failures FOLDER]

Each case begins with texts that are right, or with the random directories of inputs/random_changes.py, and changes bytes, lines, words, records,
folds, base64, names, options and characters of them, and tokens of definitions of attribute types. Some runs are under the types of the
configuration (slapmodify -f); questions always are. Some are of the first groups of changes that have marks (slapmodify --last). Then

- each run ends by itself with status 0 or 1 and, after notes on a configuration, at most one line on standard error, and a fault leaves no file;
- the report, the new copy and the undo file, or the fault, are those of model/answers.py; what a requester may do, and each note, is what model/access.py says;
- the undo file, run on the new copy, is accepted whole and gives the first copy's canonical text, byte for byte, and its own undo file
  gives the new copy again; of its first groups (slapmodify --last), some of them, what model/answers.py says, and where they are there the undo file of
  that run gives the new copy again;
- questions under the types of the run are answered before it as after it was taken back.

Each number is a case of slapconf, too: files of a slapd.conf that include one another, or the LDIF of cn=config, which were changed in the same way. The flat
configuration, the report, or the fault, are those of model/flat.py; and a question under it is answered as model/access.py says.

The same seed gives the same cases, whatever the number of jobs. A case that fails is told with its number, and its texts are kept.
"""
import argparse
import base64
import collections
import contextlib
import dataclasses
import multiprocessing
import pathlib
import random
import re
import sys
import time
import traceback

sys.path.insert(0, str(pathlib.Path(__file__).resolve().parents[1]))

from harness.checks import Wrong, expect
from harness.repository import ROOT
from harness.runs import Place
from inputs import random_changes, type_forms
from inputs.cases import RULES, SITES, TEXTS
from model import definitions, flat, names
from model.access import Question, access_answer, read_config
from model.answers import answer
from model.names import UnknownCharacter
from model.texts import NOTHING

CASES_AT_A_TIME = 50


# ---- texts to begin with


@dataclasses.dataclass
class Case:
    """The texts of a case, and a question."""

    suffix: str
    copy: bytes
    changes: bytes
    config: bytes
    question: Question
    goes_on: bool = True
    # whether the run is under the types of the configuration, as the question is
    is_typed: bool = False
    # how many groups of the changes are run, if not all of the changes are
    last: int | None = None
    # how many groups of the undo file are run: the rest of this by two more than there are
    back: int = 0

    def options(self):
        """The options of the run, but for its files and its types."""
        return [*(["-c"] if self.goes_on else []), *([] if self.last is None else ["--last", str(self.last)])]

    def has_types_of_its_run(self):
        """Whether the types of the question are those of the run."""
        return self.is_typed or definitions.table_of(self.config) == names.BUILT_IN


def example():
    copy, changes, config = ((ROOT / "examples" / name).read_bytes() for name in ("company.ldif", "changes.ldif", "slapd.conf"))
    return "dc=example,dc=com", copy, changes, config


CONFIG_OF_ALL_PARTS = b"""database mdb
suffix dc=com
rootdn "cn=root,dc=com"
access to dn.one="dc=com" "filter=(|(cn=a*)(&(sn=*)(!(uidNumber>=2)))(description~=f f))" attrs=cn,description;lang-en,entry
  by self =w continue
  by users +rsc break
access to dn.children=cn=a,dc=com attrs=children,note
  by dn.base="cn=a,dc=com" write
  by dn.sub=cn=b,dc=com dnattr=manager add
  by group/groupOfNames/member=cn=g,dc=com manage
  by anonymous auth
access to * by users -d continue by * +xd
"""
CONFIG_OF_ALL_NOTES = b"""include /etc/ldap/schema/core.schema
database mdb
suffix dc=com
include "acl.conf"
access to attrs=gn,cn,posixAccount,entry,mail;lang-en,rfc822Mailbox;x by * read break
access to dn.sub=dc=com
  filter=(&(objectClass=person)(!(foo=bar))(|(objectClass=*)(2.5.4.0=grou*)(employeeType>=Internal)(cn=a)))
  attrs=children,1.2.3 by users write
database config
access to * by * none
"""
CONFIG_OF_TYPES = b"""database mdb
suffix dc=com
access to "filter=(|(roomName=f*)(!(level>=2))(NOTE=f f)(1.3.6.1.4.1.32473.4=a))" attrs=room,1.3.6.1.4.1.32473.2,note;x
  by dnattr=manager write break
access to attrs=lastName,fullName,a,gn,foo by * +rs break
access to "filter=(|(fullName=A)(lastName=b)(a>=1)(b=x*))" by * +w break
access to dn.children="fullName=b,dc=com" by dn.base="a=1,dc=com" read by * +x
"""
WHOLE_CONFIGS = [CONFIG_OF_ALL_PARTS, CONFIG_OF_ALL_NOTES, CONFIG_OF_TYPES]
CONFIGS = WHOLE_CONFIGS + [rules.config for rules in RULES.values()]
FIXED = [example()] + [
    (texts.suffix, texts.copy, texts.changes, texts.config and CONFIG_OF_TYPES + texts.config) for texts in TEXTS.values() if len(texts.copy) < 4096
]
# definitions beside those of inputs/random_changes.py: of types that the rules above and the words below name, and of each right form
DEFINITIONS = [
    "( 2.5.4.42 NAME ( 'givenName' 'gn' ) )",
    "( 0.9.2342.19200300.100.1.3 NAME ( 'mail' 'rfc822Mailbox' ) SUP x )",
    "( 2.16.840.1.113730.3.1.4 NAME 'employeeType' EQUALITY integerMatch )",
    "( 1.2.3 NAME 'foo' SUP distinguishedName )",
    "( 1.2.4 NAME 'com' EQUALITY telephoneNumberMatch SINGLE-VALUE )",
    "( 1.2.5 SUP uidNumber NAME ( 'posixAccount' 'none' ) )",
    "( 2.5.4.0 NAME ( 'class' 'objectClass' ) )",
]
RIGHT_DEFINITIONS = [names.as_text(text) for right, _ in type_forms.DEFINITIONS.values() for text in right if b"\n" not in text]


def more_definitions(rng):
    """Lines that define other types, the most often such that fit together."""
    chosen = rng.sample(DEFINITIONS, rng.choice([0, 1, 2])) + rng.sample(RIGHT_DEFINITIONS, rng.choice([0, 0, 1]))
    return [random_changes.random_line(rng, definition) for definition in chosen]


def with_lines_between(rng, config, lines):
    """A configuration with these lines, each somewhere between the others."""
    parts = re.split(rb"(?<=\n)(?![ \t])", config)
    for line in lines:
        parts.insert(rng.randrange(len(parts)), names.as_bytes(line))
    return b"".join(parts)


def random_texts(rng):
    """A random directory with changes of it."""
    directory = random_changes.random_directory(rng, rng.choice([0, 0, 0, 3]), rng.choice([2, 5, 9]))
    copy, planned, printed = directory.text(), random_changes.Planned(), random_changes.freely_printed(rng)
    for _ in range(rng.choice([1, 3, 6, 12])):
        if not directory.entries:
            break
        planned.make(directory, random_changes.random_change(rng, directory), printed)
    return "dc=com", copy.encode(), planned.text.encode(), None


# ---- what is changed

WORDS = """dn changetype control version add delete modify modrdn moddn replace newrdn deleteoldrdn newsuperior increment cn sn dc ou uid c st
    description note title member manager owner seeAlso objectClass uidNumber gidNumber telephoneNumber userPassword displayName mail
    homeDirectory commonName 2.5.4.3 2.5.4.13 0.9.2342.19200300.100.1.25 1.2.3 groupOfNames com a A b none 0 1 2 007 -1 -
    access to by stop continue break read write auth search compare disclose manage users anonymous self dnattr group filter attrs suffix
    rootdn database monitor config include gn objectClass 2.5.4.0 foo dn.base dn.one dn.children dn.sub dn.regex entry children * =wx +r -s =0 (cn=a) (&) (!(cn=*)) (cn>=1)"""
WORDS = [word.encode() for word in WORDS.split()]
TOKENS = """( ) ' '' 'a' 'b' 'cn' 'room' 'dn' 'Control' NAME DESC SUP EQUALITY ORDERING SYNTAX SINGLE-VALUE OBSOLETE USAGE X-a 1.2.9 1.2.3 2.5.4.3 2.5.4.4
    01.2 1 a cn note room name distinguishedName uidNumber integerMatch caseIgnoreMatch distinguishedNameMatch telephoneNumberMatch caseExactMatch
    attributetype # \\ " """
TOKENS = [token.encode() for token in TOKENS.split()]
PARTS = [b"NAME 'a'", b"NAME ( 'b' 'dn' )", b"DESC ''", b"SUP cn", b"SUP nothing", b"EQUALITY integerMatch", b"SINGLE-VALUE", b"OBSOLETE"]
PARTS += [b"X-a 'b'", b"USAGE a"]
SIGNS = [sign.encode() for sign in list('\0\t\r\n "#+,;<=>\\:-*()&|!/.@') + ["\n ", "\n\n", "\r\n", ": ", ":: ", ":< ", "\n-\n", "\\20", "\\5c", "\\,", "  "]]
CHARACTERS = [
    char.encode()
    for char in "\u00df\u0130\u0131\ufb01\u0345\u03a3\u03c2\u1e9e\u00a0\u3000\u2003\u200b\u00ad\u0308\u212b\u00c5\uff21\u2460\u00bd\ufdfa\uac00\u1100\U0001f600\U00010400\u2010\ufeff"
] + [b"\xff", b"\xc3", b"\xc0\xaf", b"\xed\xa0\x80", b"\xf4\x90\x80\x80", b"\xe2\x82"]
OPTIONS = [b";lang-en", b";lang-de;x-1", b";LANG-EN", b";binary", b";", b";;", b";range=0-1", b";-"]


def place_of(rng, pattern, data):
    """A random place in a text that a pattern fits."""
    found = list(re.finditer(pattern, data, re.S))
    return rng.choice(found).span() if found else (len(data), len(data))


def with_bytes(rng, data):
    at = rng.randrange(len(data) + 1)
    until = min(len(data), at + rng.choice([0, 0, 1, 1, 2, 8]))
    new = rng.choice([b"", rng.choice(SIGNS), rng.randbytes(rng.choice([1, 1, 2])), data[until : until + 4] * 2])
    return data[:at] + new + data[until:]


def with_character(rng, data):
    start, _ = place_of(rng, rb"[\w=: ]", data)
    return data[: start + 1] + rng.choice(CHARACTERS) + data[start + 1 :]


def with_word(rng, data):
    """A word becomes another one, of the text or of the language."""
    start, end = place_of(rng, rb"[\w.*-]+", data)
    others = place_of(rng, rb"[\w.*-]+", data)
    return data[:start] + rng.choice([rng.choice(WORDS), data[slice(*others)]]) + data[end:]


def with_token(rng, data):
    """A token of a definition goes, comes twice, becomes another one, or changes places with one; or another one comes, or another part."""
    start, end = place_of(rng, rb"(?mi)^[ \t]*attributetype\b[^\n]*(?:\n[ \t][^\n]*)*", data)
    tokens = re.findall(rb"\s+|'[^']*'|[()']|[^\s()']+", data[start:end]) or [b""]
    a, b = rng.randrange(len(tokens)), rng.randrange(len(tokens))
    match rng.randrange(5):
        case 0:
            del tokens[a]
        case 1:
            tokens.insert(b, tokens[a])
        case 2:
            tokens[a], tokens[b] = tokens[b], tokens[a]
        case 3:
            tokens[a] = rng.choice(TOKENS)
        case 4:
            tokens.insert(a, b" " + rng.choice(TOKENS + PARTS * 4) + b" ")
    return data[:start] + b"".join(tokens) + data[end:]


def with_lines(rng, data):
    lines = data.splitlines(keepends=True)
    if not lines:
        return rng.choice(WORDS) + b": " + rng.choice(WORDS) + b"\n"
    a, b = rng.randrange(len(lines)), rng.randrange(len(lines))
    match rng.randrange(6):
        case 0:
            del lines[a]
        case 1:
            lines.insert(b, lines[a])
        case 2:
            lines[a], lines[b] = lines[b], lines[a]
        case 3:
            lines.insert(a, rng.choice([b"\n", b"-\n", b"# a comment\n", b" \n", b"\r\n", b"version: 1\n", b"# undo 1\n", b"# undo 2\n"]))
        case 4:
            lines.insert(a, rng.choice(WORDS) + b": " + rng.choice(WORDS) + b"\n")
        case 5:
            return data.replace(b"\n", b"\r\n")
    return b"".join(lines)


def with_records(rng, data, others):
    """Records go, come twice, come from other texts, or come in another order."""
    records = re.split(rb"\n\n+", data)
    at = rng.randrange(len(records))
    match rng.randrange(4):
        case 0:
            del records[at]
        case 1:
            records.insert(rng.randrange(len(records) + 1), records[at])
        case 2:
            records.insert(at, rng.choice(re.split(rb"\n\n+", rng.choice(others))))
        case 3:
            rng.shuffle(records)
    return b"\n\n".join(records)


# most often as slapkit writes them, else in another form, or as comments that are none
MARKS = ["# undo {}\n"] * 30 + ["# un\n do {}\n", "# undo {}\r\n", "# undo {}\n\n", "\n# undo {}"]
MARKS += ["# undo 0{}\n", "#undo {}\n", "# undo {} \n", "# undo  {}\n", "# undo {}0\n"]


def with_marks(rng, data):
    """Marks come before records, most often each in its order and one before the first record."""
    pieces, number = [], 0
    for record in re.split(rb"(?<=\n\n)", data):
        for _ in range(rng.choice([0, 1, 1, 1, 1, 2]) if pieces else rng.choice([1] * 9 + [0, 2])):
            number += rng.choice([1] * 40 + [0, 2])
            pieces.append(rng.choice(MARKS).format(number).encode())
        pieces.append(record)
    return b"".join(pieces)


def spliced(rng, data, others):
    other = rng.choice(others)
    return data[: rng.randrange(len(data) + 1)] + other[rng.randrange(len(other) + 1) :]


def folded(rng, data):
    at = rng.randrange(len(data) + 1)
    return data[:at] + b"\n " + data[at:] if rng.random() < 0.7 else data.replace(b"\n ", b"", 1)


def in_base64(rng, data):
    """A value comes in base64; or what it encodes is changed."""
    start, end = place_of(rng, rb"(?<=[a-z]: )[^\n]+", data)
    value = data[start:end].strip(b"\r")
    if rng.random() < 0.3:
        value = with_bytes(rng, value)
    text = base64.b64encode(value)
    if rng.random() < 0.1:
        text = with_bytes(rng, text)
    return data[: max(0, start - 1)] + b": " + text + data[end:]


def with_long_name(rng, data):
    """Names become long: of many RDNs, of many pairs, or with a long value."""
    start, _ = place_of(rng, rb"[a-z]+=(?=\w)", data)
    long = [b"cn=x," * rng.choice([1, 5, 62, 63, 64]), b"sn=y+", b"cn=" + b"z" * rng.choice([60, 4092, 4093, 4094]) + b",", b"cn=" + b"\\c3\\bc" * 60 + b","]
    return data[:start] + rng.choice(long) + data[start:]


def with_option(rng, data):
    _, end = place_of(rng, rb"(?:^|\n|, ?|=|: )[A-Za-z0-9.]+(?=[:,=\n])", data)
    return data[:end] + rng.choice(OPTIONS) + data[end:]


def with_case(rng, data):
    start, end = place_of(rng, rb"\w+", data)
    return data[:start] + data[start:end].swapcase() + data[end:]


def with_spaces(rng, data):
    start, end = place_of(rng, rb"[=,+: ]", data)
    return data[:start] + rng.choice([b" " + data[start:end], data[start:end] + b" ", b"  " + data[start:end] + b"  "]) + data[end:]


CHANGES_OF_ONE_TEXT = [with_bytes, with_character, with_word, with_word, with_lines, with_lines, folded, in_base64, with_long_name]
CHANGES_OF_ONE_TEXT += [with_option, with_case, with_spaces]
CHANGES_OF_TWO_TEXTS = [with_records, with_records, with_records, spliced]


def changed(rng, data, others):
    """A text after some changes; the most often a few."""
    for _ in range(rng.choice([1, 1, 1, 2, 2, 3, 5, 8])):
        if others and rng.random() < 0.3:
            data = rng.choice(CHANGES_OF_TWO_TEXTS)(rng, data, others)
        else:
            data = rng.choice(CHANGES_OF_ONE_TEXT)(rng, data)
    return data


def random_question(rng, suffix, copy):
    # what begins with a hyphen is no value of an option
    found = re.findall(rb"^dn: (?!-)([ -~]+)$", copy, re.M)
    known = [name.decode() for name in found] + [suffix, f"cn=a,{suffix}", f"cn=none,{suffix}", f"cn=root,{suffix}"]
    words = ["entry", "children", "cn", "sn/read", "description/write", "description;lang-en", "mail/add", "note", "member/disclose", "Entry/none"]
    words += ["room", "ROOMNAME/read", "level", "1.3.6.1.4.1.32473.3/write", "a", "b/search", "gn"]
    requester = rng.choice([None, "", *known]) if rng.random() < 0.8 else rng.choice(known)
    return Question(rng.choice(known), requester, tuple(rng.sample(words, rng.randrange(4))), rng.random() < 0.3, rng.random() < 0.5, rng.random() < 0.1)


def random_case(rng):
    types, spellings = random_changes.random_definitions(rng)
    has_definitions = rng.random() < 0.5
    with random_changes.under_types("".join(types), spellings) if has_definitions else contextlib.nullcontext():
        suffix, copy, changes, config = random_texts(rng) if rng.random() < 0.5 else rng.choice(FIXED)
    if config is None:
        config = rng.choice(CONFIGS).replace(b"dc=com", suffix.encode())
    if has_definitions:
        config = with_lines_between(rng, config, types + more_definitions(rng))
    others = [text for texts in FIXED for text in texts[1:3] if text]
    last = None
    if rng.random() < 0.3:
        changes, last = with_marks(rng, changes), rng.choice([0, 1, 1, 2, 2, 3, 5, 9, 2**64 - 1])
    if rng.random() < (0.8 if last is None else 0.5):
        changes = changed(rng, changes, [*others, changes])
    if rng.random() < 0.3:
        copy = changed(rng, copy, [*others, copy])
    if rng.random() < 0.5:
        config = changed(rng, config, [])
    for _ in range(rng.choice([0, 0, 0, 0, 1, 2])):
        config = with_token(rng, config)
    question, goes_on, is_typed = random_question(rng, suffix, copy), rng.random() < 0.8, rng.random() < (0.9 if has_definitions else 0.1)
    return Case(suffix, copy, changes, config, question, goes_on, is_typed, last, rng.randrange(2**16))


# ---- configurations of a site


@dataclasses.dataclass
class SiteCase:
    """The files of a configuration, `conf` and those that it includes, or `config`; the suffix; a question about a copy."""

    suffix: str
    files: dict
    copy: bytes
    question: Question


SITE_WORDS = """include database suffix rootdn access objectidentifier attributetype attributeoptions frontend config monitor mdb overlay my my:1 at:2 a b conf sub
    olcSuffix olcAccess olcRootDN olcDatabase olcAttributeTypes olcObjectIdentifier {0} {1} {2} {-1}frontend dc=com dc=net dc=a,dc=com" "a b" "\n\" """
SITE_WORDS = [word.encode() for word in SITE_WORDS.split()]
SITE_SIGNS = [b"\\\n", b"\n ", b"\n\t", b'"', b"\\", b"\r\n", b"{", b"}", b"{0}", b":", b"#", b"\x0b", b"\n\n", b"include a\n", b"include b\n  ", b" \\\n"]


def in_cn_config(config):
    """A slapd.conf of one part as the LDIF of cn=config: its types, and its rules."""
    lines = [b"dn: cn=schema", b"olcObjectIdentifier: {0}my 1.3"]
    types = [line for line in re.findall(rb"(?im)^attributetype((?:.*\n)(?:[ \t].*\n)*)", config)]
    lines += [b"olcAttributeTypes: {%d}%s" % (n, b" ".join(line.split())) for n, line in enumerate(types)]
    lines += [b"", b"dn: x", b"olcDatabase: {-1}frontend", b'olcAccess: {0}to dn.base="" by * read', b"", b"dn: y", b"olcSuffix: dc=com"]
    rules = re.findall(rb"(?im)^access((?:.*\n)(?:[ \t].*\n)*)", config)
    return b"\n".join([*lines, *(b"olcAccess: {%d}%s" % (n, b" ".join(rule.split())) for n, rule in enumerate(rules)), b""])


def with_sign(rng, data):
    at = rng.randrange(len(data) + 1)
    return data[:at] + rng.choice(SITE_SIGNS) + data[at:]


def with_site_word(rng, data):
    start, end = place_of(rng, rb"[^\s]+", data)
    return data[:start] + rng.choice(SITE_WORDS) + data[end:]


def random_site(rng):
    """Files that are right, most often after some changes."""
    config = rng.choice(CONFIGS)
    types, _ = random_changes.random_definitions(rng)
    config = with_lines_between(rng, config, types + more_definitions(rng)) if rng.random() < 0.5 else config
    if rng.random() < 0.5:
        files = {"config": rng.choice([SITES["a cn=config"]["config"], in_cn_config(config)])}
    else:
        # a part of the lines stands in files that are included
        lines = re.split(rb"(?<=\n)(?![ \t])", config.replace(b"/etc/ldap/schema/core.schema", b"a"))
        cut, end = sorted(rng.randrange(len(lines) + 1) for _ in range(2))
        files = {"conf": b"".join([*lines[:cut], b"include a\n", *lines[end:]]), "a": b"".join(lines[cut:end]), "b": b"access to attrs=sn by * none\n"}
        files = rng.choice([files, files, SITES["a slapd.conf that includes a file"], SITES["files that include one another"]])
    files = dict(files)
    for name in files:
        for _ in range(rng.choice([0, 0, 1, 1, 2, 3])):
            files[name] = rng.choice([with_sign, with_sign, with_site_word, with_site_word, with_lines, with_bytes, with_token, with_word, spliced_site])(rng, files[name])
    copy = rng.choice(FIXED)[1]
    return SiteCase(rng.choice(["dc=com"] * 40 + ["DC = Com", "dc=net", "com", ""]), files, copy, random_question(rng, "dc=com", copy))


def spliced_site(rng, data):
    return spliced(rng, data, [text for files in SITES.values() for text in files.values()])


# ---- a case


class Trial:
    """Cases, one after the other, in a folder of their own."""

    def __init__(self, place):
        self.place, self.told, self.runs = place, collections.Counter(), 0

    def run(self, *words):
        self.runs += 1
        return self.place.run(*words)

    def modify(self, case, copy, changes, new, undo, *options):
        words = ["slapmodify", "-b", case.suffix, "--data", copy, "-l", changes, "--out", new, "--undo", undo]
        return self.run(*words, *options, *(["-f", "conf"] if case.is_typed else []))

    def text(self, name):
        data = self.place.read(name)
        return None if data is None else names.as_text(data)

    def ask(self, case, copy):
        return self.run("slapacl", "-f", "conf", "--data", copy, *case.question.options())

    def case(self, case):
        self.place.remove(*self.place.names())
        given = {"copy": case.copy, "changes": case.changes, "conf": case.config, "none": b""}
        for name, data in given.items():
            self.place.write(name, data)
        ended = self.modify(case, "copy", "changes", "new", "undo", "-v", *case.options())
        found = (*ended, self.text("new"), self.text("undo"))
        expect(self.place.names() - given.keys(), set() if ended[2] else {"new", "undo"}, "files made")
        self.count(ended)
        self.expect_answer(found, case)
        if not ended[2]:
            self.expect_way_back(case)
            self.expect_way_to_a_point(case)
        self.expect_access(case, "copy" if ended[2] else "back")

    def expect_answer(self, found, case):
        try:
            config = case.config if case.is_typed else b""
            wanted = dataclasses.astuple(answer(case.suffix.encode(), case.copy, case.changes, case.goes_on, True, config, case.last))
        except UnknownCharacter:
            self.told["not compared: a character that Python does not know"] += 1
            return
        for what, one, other in zip(("status", "the report", "standard error", "the new copy", "the undo file"), found, wanted):
            expect(one, other, what)

    def expect_way_back(self, case):
        """The undo run, and the run forth again."""
        empty = self.modify(case, "copy", "none", "canonical", "nothing")
        expect((*empty, self.text("nothing")), (0, "accepted 0, refused 0\n", "", NOTHING), "a run without changes")
        count = len(re.findall(r"^changetype: ", self.text("undo"), re.M))
        expect(self.modify(case, "new", "undo", "back", "redo"), (0, f"accepted {count}, refused 0\n", ""), "the undo run")
        expect(self.text("back"), self.text("canonical"), "the copy again")
        if count:
            status, _, message = self.modify(case, "back", "redo", "forth", "undo2", "-c")
            expect((status, message), (0, ""), "the run forth")
            expect(self.text("forth"), self.text("new"), "the new copy again")

    def expect_way_to_a_point(self, case):
        """The run of some groups of the undo file, and the run forth again."""
        groups = len(re.findall(r"^# undo ", self.text("undo"), re.M))
        last = case.back % (groups + 2)
        part = dataclasses.replace(case, copy=self.place.read("new"), changes=self.place.read("undo"), last=last)
        ended = self.modify(part, "new", "undo", "point", "redo1", "-v", *part.options())
        self.expect_answer((*ended, self.text("point"), self.text("redo1")), part)
        if last > groups:
            expect(ended, (1, "", f"slapkit: cannot go back {last}, only {groups} groups\n"), "the run of one group more")
            return
        expect((ended[0], ended[2]), (0, ""), "the run of some groups")
        status, _, message = self.modify(case, "point", "redo1", "forth1", "undo1")
        expect((status, message), (0, ""), "the run forth from there")
        expect(self.text("forth1"), self.text("new"), "the new copy again, from there")

    def expect_access(self, case, other):
        """A question, by the copy and by what came back."""
        found = self.ask(case, "copy")
        if other != "copy" and found[0] == 0 and case.has_types_of_its_run():
            expect(self.ask(case, other), found, "the question about the copy that came back")
        self.count_question(found)
        try:
            expect(found, access_answer(case.config, case.copy, case.question), "the question")
        except UnknownCharacter:
            self.told["not compared: a character that Python does not know"] += 1

    def site(self, case):
        """The flat configuration of a site, and a question under it."""
        self.place.remove(*self.place.names())
        for name, data in case.files.items():
            self.place.write(name, data)
        is_config = "config" in case.files
        source = ["--config", "config"] if is_config else ["-f", "conf"]
        ended = self.run("slapconf", *source, "-b", case.suffix, "--out", "made")
        expect(self.place.names() - case.files.keys(), set() if ended[0] else {"made"}, "files made")
        self.told[f"site: {'config made' if not ended[0] else re.sub('^.*, line [0-9]+', 'line N', ended[2][9:-1])}"] += 1
        text = self.place.read("made")
        self.place.remove("made")
        suffix = case.suffix.encode()
        try:
            wanted = flat.flat_of_config(suffix, case.files["config"]) if is_config else flat.flat_of_files(suffix, b"conf", flat.text_of_file)
        except UnknownCharacter:
            self.told["not compared: a character that Python does not know"] += 1
            return
        expect(flat.Flat(*ended, text), wanted, "the flat configuration")
        if text is not None:
            self.place.write("made", text)
            self.place.write("copy", case.copy)
            found = self.run("slapacl", "-f", "made", "--data", "copy", *case.question.options())
            self.count_question(found)
            try:
                expect(found, access_answer(text, case.copy, case.question), "the question under the flat configuration")
            except UnknownCharacter:
                self.told["not compared: a character that Python does not know"] += 1

    def count_question(self, ended):
        """Counts the notes on a configuration, and what a question came to."""
        status, _, message = ended
        lines = [re.sub("[0-9]+:", "N:", re.sub('".*"', "..", line[9:])) for line in message.splitlines()]
        self.told[f"question: {lines.pop() if status else 'answered'}"] += 1
        self.told.update(lines)

    def count(self, ended):
        """Counts what a run of changes came to."""
        status, report, message = ended
        if message:
            self.told[f"run: {re.sub('[0-9]+(?=[:,]| groups)', 'N', message[9:-1])}"] += 1
            return
        self.told["run: files written"] += 1
        for line in report.splitlines()[:-1]:
            self.told[f"record: {line.split(': ', 1)[1]}"] += 1


def keep(folder, number, case):
    """Keeps the texts of a case that failed."""
    place = folder / number
    place.mkdir(parents=True, exist_ok=True)
    for name, data in (("copy", case.copy), ("changes", case.changes), ("conf", case.config)):
        (place / name).write_bytes(data)
    typed = "-f conf" if case.is_typed else ""
    (place / "case").write_text(f"-b {case.suffix} {' '.join(case.options())} {typed}\n{case.question.options()}\nback {case.back}\n")


def keep_site(folder, number, case):
    """Keeps the files of a configuration that failed."""
    place = folder / number
    place.mkdir(parents=True, exist_ok=True)
    for name, data in (case.files | {"copy": case.copy}).items():
        (place / name).write_bytes(data)
    (place / "case").write_text(f"slapconf -b {case.suffix!r}\n{case.question.options()}\n")


def try_cases(task):
    """Tries some cases: how many runs there were, what they came to, and which failed."""
    program, seed, numbers, failures = task
    failed = []
    with Place(program) as place:
        trial = Trial(place)
        for number in numbers:
            case, site = random_case(random.Random(f"{seed} {number}")), random_site(random.Random(f"{seed} {number} of a site"))
            for what, one, tried, kept in (("", case, trial.case, keep), (" of a site", site, trial.site, keep_site)):
                try:
                    tried(one)
                except Wrong as wrong:
                    failed.append(f"case {number}{what} of seed {seed}: {wrong}")
                except Exception:
                    failed.append(f"case {number}{what} of seed {seed}: {traceback.format_exc()}")
                else:
                    continue
                kept(failures, f"{seed}-{number}{what.replace(' ', '-')}", one)
        return trial.runs, len(numbers), trial.told, failed


def tasks_of(args):
    """Enough of them, as each case takes two runs at least."""
    for first in range(0, args.runs // 2 + 1, CASES_AT_A_TIME):
        yield args.program, args.seed, range(first, first + CASES_AT_A_TIME), args.failures


def main():
    parser = argparse.ArgumentParser(description=__doc__, formatter_class=argparse.RawDescriptionHelpFormatter)
    parser.add_argument("program")
    parser.add_argument("--seed", type=int, default=1)
    parser.add_argument("--runs", type=int, default=10_000, help="of the program, at least")
    parser.add_argument("--minutes", type=float, default=1e6, help="after which it ends, too")
    parser.add_argument("--jobs", type=int, default=1)
    parser.add_argument("--failures", type=pathlib.Path, default=pathlib.Path("fuzz-failures").absolute())
    args = parser.parse_args()
    # they are right before they are changed
    for config in WHOLE_CONFIGS:
        read_config(config)
    args.program = str(pathlib.Path(args.program).resolve())
    runs = cases = failures = 0
    ends_by = time.monotonic() + 60 * args.minutes
    told = collections.Counter()
    with multiprocessing.Pool(args.jobs) as pool:
        for more_runs, more_cases, more_told, failed in pool.imap(try_cases, tasks_of(args)):
            runs, cases, failures, told = runs + more_runs, cases + more_cases, failures + len(failed), told + more_told
            for text in failed:
                print(f"FAILED, {text}", flush=True)
            if cases % (20 * CASES_AT_A_TIME) == 0:
                print(f"fuzz: {runs} runs in {cases} cases until now", file=sys.stderr, flush=True)
            if runs >= args.runs or time.monotonic() > ends_by:
                break
    for what, count in sorted(told.items()):
        print(f"{count:9} {what}")
    print(f"fuzz: {runs} runs of the program in {cases} cases of seed {args.seed}, {failures} failed", flush=True)
    sys.exit(1 if failures else 0)


main()
