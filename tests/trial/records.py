#!/usr/bin/env python3
"""Runs slapkit on records of LDIF: the examples of RFC 2849, each fault of a record, values at their limits, and how values are written.

usage: records.py PROGRAM

A text is read twice: as changes, of which the report tells each fault with its line, and as a copy, whose entries the new copy has in canonical
order (docs/DEFINITIONS.md). What is wanted of it is said by the standards (RFC 2849, RFC 4648) and by docs/CODES.md. Changes are taken back too.
"""
import base64
import dataclasses
import pathlib
import sys

sys.path.insert(0, str(pathlib.Path(__file__).resolve().parents[1]))

from harness import checks
from harness.checks import expect
from harness.runs import Place
from inputs import standard_examples as examples
from inputs.cases import ROOT, lines
from model.ldif import BAD_BASE64, BAD_CHANGETYPE, BAD_LINE, BAD_MODIFY, BAD_RENAME, BAD_VERSION, CONTROL, LINE_TOO_LONG
from model.ldif import MOST_BYTES_OF_A_LINE, MOST_BYTES_OF_A_VALUE, URL_VALUE, VALUE_TOO_LONG
from model.names import as_text, printed_name
from model.texts import NOTHING, block, deleted, line

BAD_DESCRIPTION, RESERVED_NAME, BAD_DN = "L9 N1 BadDescription", "L9 N2 ReservedName", "L9 N4 BadDn"
# in the place of the fault of a record that has none
ENTRY = None
AIRIUS = "dc=airius,dc=com"


@dataclasses.dataclass
class Text:
    """A text without a change that could be made, and what is read of it."""

    shows: str
    data: bytes
    # the number of the first line of each record, and the record's fault, or that it is an entry
    records: list[tuple[int, str | None]] = dataclasses.field(default_factory=list)
    # what the text is as a copy, canonical, if it is one
    new: bytes | None = None
    # the name at its root
    suffix: str = "cn=a"
    # the entries above its own, which a copy must have
    above: bytes = b""
    # the fault of the text as a whole, if it has one
    fault: str | None = None


@dataclasses.dataclass
class Changes:
    """Changes of a canonical copy, and what they make of it."""

    shows: str
    data: bytes
    copy: bytes
    # what the report tells of the record that begins in each of these lines
    report: list[tuple[int, str]]
    new: bytes
    undo: bytes
    suffix: str = "dc=com"


def entry(*more):
    """The canonical text of the entry `cn=a` with these lines too, which come after `cn`."""
    return lines("|".join(["dn: cn=a", "cn: a", *more, "|"]))


# ---- the examples of RFC 2849


def unit(name):
    return block(("dn", f"ou={name},{AIRIUS}"), ("ou", name))


def jensen(name, place, *pairs):
    """An entry of an example, of which all have these classes, this surname and this telephone number, with pairs of other types."""
    classes = [("objectclass", name) for name in ("organizationalPerson", "person", "top")]
    pairs = [*pairs, *classes, ("sn", "Jensen"), ("telephonenumber", "+1 408 555 1212")]
    return block(("dn", f"cn={name},ou={place},{AIRIUS}"), *sorted(pairs, key=lambda pair: pair[0]))


def cns(*names):
    return [("cn", name) for name in names]


TOP = block(("dn", AIRIUS), ("dc", "airius"))
ACCOUNTING, DEVELOPMENT, TESTING = map(unit, ("Accounting", "Product Development", "Product Testing"))
BARBARA = cns("Babs Jensen", "Barbara J Jensen", "Barbara Jensen")
SAILING = "Babs is a big sailing fan, and travels extensively in search of perfect sailing conditions."
CAREFUL_READER = (
    "What a careful reader you are!  This value is base-64-encoded because it has a control character in it (a CR).\r"
    "  By the way, you should really get out more."
)
OF_SALES = "ou=\\E5\\96\\B6\\E6\\A5\\AD\\E9\\83\\A8,o=Airius"
ABOVE_SALES = block(("dn", "o=Airius"), ("o", "Airius"))
IN_LANGUAGES = (
    block(
        ("dn", OF_SALES),
        ("description", "Japanese office"),
        ("objectclass", "organizationalUnit"),
        ("objectclass", "top"),
        ("ou", "営業部"),
        ("ou;lang-en", "Sales"),
        ("ou;lang-ja", "営業部"),
        ("ou;lang-ja;phonetic", "えいぎょうぶ"),
    )
    + block(
        ("dn", f"uid=rogasawara,{OF_SALES}"),
        ("cn", "小笠原 ロドニー"),
        ("cn;lang-en", "Rodney Ogasawara"),
        ("cn;lang-ja", "小笠原 ロドニー"),
        ("cn;lang-ja;phonetic", "おがさわら ろどにー"),
        ("givenname", "ロドニー"),
        ("givenname;lang-en", "Rodney"),
        ("givenname;lang-ja", "ロドニー"),
        ("givenname;lang-ja;phonetic", "ろどにー"),
        ("mail", "rogasawara@airius.co.jp"),
        ("objectclass", "inetOrgPerson"),
        ("objectclass", "organizationalPerson"),
        ("objectclass", "person"),
        ("objectclass", "top"),
        ("preferredlanguage", "ja"),
        ("sn", "小笠原"),
        ("sn;lang-en", "Ogasawara"),
        ("sn;lang-ja", "小笠原"),
        ("sn;lang-ja;phonetic", "おがさわら"),
        ("title", "営業部 部長"),
        ("title;lang-en", "Sales, Director"),
        ("title;lang-ja", "営業部 部長"),
        ("title;lang-ja;phonetic", "えいぎょうぶ ぶちょう"),
        ("uid", "rogasawara"),
        ("userpassword", "{SHA}O3HSv1MusyL4kTjP+HKI5uxuNoM="),
    )
)
EXAMPLES = [
    Text(
        "two entries",
        examples.SIMPLE.encode(),
        [(2, ENTRY), (14, ENTRY)],
        new=(
            TOP
            + ACCOUNTING
            + jensen("Bjorn Jensen", "Accounting", *cns("Bjorn Jensen"))
            + DEVELOPMENT
            + jensen("Barbara Jensen", "Product Development", *BARBARA, ("description", "A big sailing fan."), ("uid", "bjensen"))
        ).encode(),
        suffix=AIRIUS,
        above=(TOP + ACCOUNTING + DEVELOPMENT).encode(),
    ),
    Text(
        "a folded value",
        examples.FOLDED_VALUE.encode(),
        [(2, ENTRY)],
        new=(
            TOP
            + DEVELOPMENT
            + jensen(
                "Barbara Jensen",
                "Product Development",
                *BARBARA,
                ("description", SAILING),
                ("title", "Product Manager, Rod and Reel Division"),
                ("uid", "bjensen"),
            )
        ).encode(),
        suffix=AIRIUS,
        above=(TOP + DEVELOPMENT).encode(),
    ),
    Text(
        "a value in base64",
        examples.BASE64_VALUE.encode(),
        [(2, ENTRY)],
        new=(
            TOP
            + TESTING
            + jensen("Gern Jensen", "Product Testing", *cns("Gern Jensen", "Gern O Jensen"), ("description", CAREFUL_READER), ("uid", "gernj"))
        ).encode(),
        suffix=AIRIUS,
        above=(TOP + TESTING).encode(),
    ),
    Text(
        "values in UTF-8, and language tags",
        examples.LANGUAGES.encode(),
        [(2, ENTRY), (15, ENTRY)],
        new=(ABOVE_SALES + IN_LANGUAGES).encode(),
        suffix="o=Airius",
        above=ABOVE_SALES.encode(),
    ),
    Text("a value that a URL names", examples.EXTERNAL.encode(), [(2, URL_VALUE)], suffix=AIRIUS),
    Text("a control", examples.CONTROLLED.encode(), [(6, CONTROL)], suffix=AIRIUS),
]
ABOVE_CHANGES = "dn: dc=airius,dc=com|dc: airius||dn: ou=Accounting,dc=airius,dc=com|ou: Accounting||"
MARKETING = "dn: ou=Marketing,dc=airius,dc=com|ou: Marketing||"
OF_DEVELOPMENT = "dn: ou=Product Development,dc=airius,dc=com|ou: Product Development||"
SUPPORT = "dn: ou=Product Support,dc=airius,dc=com|ou: Product Support||"
EXAMPLE_OF_CHANGES = Changes(
    "a series of changes",
    examples.CHANGES.encode(),
    lines(
        f"{ABOVE_CHANGES}{MARKETING}dn: cn=Robert Jensen,ou=Marketing,dc=airius,dc=com|cn: Robert Jensen|sn: Jensen||{OF_DEVELOPMENT}"
        "dn: cn=Paul Jensen,ou=Product Development,dc=airius,dc=com|cn: Paul Jensen|description: Develops|"
        "facsimiletelephonenumber: +1 408 555 9876|telephonenumber: +1 408 555 1212||"
        "dn: ou=PD Accountants,ou=Product Development,dc=airius,dc=com|ou: PD Accountants||"
        "dn: cn=Ann,ou=PD Accountants,ou=Product Development,dc=airius,dc=com|cn: Ann||"
        f"{SUPPORT}dn: cn=Ingrid Jensen,ou=Product Support,dc=airius,dc=com|cn: Ingrid Jensen|description: Supports|"
        "postaladdress: 1 Anystreet||"
    ),
    [(3, f"refused, {URL_VALUE}"), *((number, "accepted") for number in (15, 19, 26, 36, 56))],
    new=lines(
        f"{ABOVE_CHANGES}dn: ou=Product Development Accountants,ou=Accounting,dc=airius,dc=com|"
        "ou: PD Accountants|ou: Product Development Accountants||"
        "dn: cn=Ann,ou=Product Development Accountants,ou=Accounting,dc=airius,dc=com|cn: Ann||"
        f"{MARKETING}{OF_DEVELOPMENT}dn: cn=Paula Jensen,ou=Product Development,dc=airius,dc=com|cn: Paula Jensen|"
        "postaladdress: 123 Anystreet $ Sunnyvale, CA $ 94086|telephonenumber: +1 408 555 1234|telephonenumber: +1 408 555 5678||"
        f"{SUPPORT}dn: cn=Ingrid Jensen,ou=Product Support,dc=airius,dc=com|cn: Ingrid Jensen||"
    ),
    undo=lines(
        "version: 1||# undo 1|dn: cn=Ingrid Jensen,ou=Product Support,dc=airius,dc=com|changetype: modify|"
        "add: description|description: Supports|-|add: postaladdress|postaladdress: 1 Anystreet|-||"
        "# undo 2|dn: cn=Paula Jensen,ou=Product Development,dc=airius,dc=com|changetype: modify|add: description|description: Develops|-|"
        "add: facsimiletelephonenumber|facsimiletelephonenumber: +1 408 555 9876|-|delete: postaladdress|-|"
        "delete: telephonenumber|telephonenumber: +1 408 555 1234|telephonenumber: +1 408 555 5678|-|"
        "add: telephonenumber|telephonenumber: +1 408 555 1212|-||"
        "# undo 3|dn: ou=Product Development Accountants,ou=Accounting,dc=airius,dc=com|changetype: modrdn|newrdn: ou=PD Accountants|"
        "deleteoldrdn: 1|newsuperior: ou=Product Development,dc=airius,dc=com||"
        "# undo 4|dn: cn=Paula Jensen,ou=Product Development,dc=airius,dc=com|changetype: modrdn|newrdn: cn=Paul Jensen|deleteoldrdn: 1||"
        "# undo 5|dn: cn=Robert Jensen,ou=Marketing,dc=airius,dc=com|changetype: add|cn: Robert Jensen|sn: Jensen||"
    ),
    suffix=AIRIUS,
)


# ---- short texts

TEXTS = [
    Text("no text", b"", new=b""),
    Text("empty lines, a comment and its continuation", lines("||# only| |"), new=b""),
    Text(
        "a version, and a comment between two entries",
        lines("version: 1|dn: cn=B,dc=a|objectclass: top|cn: B||# c|dn: cn=C,dc=a|cn: C|"),
        [(2, ENTRY), (7, ENTRY)],
        new=lines("dn: dc=a|dc: a||dn: cn=B,dc=a|cn: B|objectclass: top||dn: cn=C,dc=a|cn: C||"),
        suffix="dc=a",
        above=lines("dn: dc=a|dc: a|"),
    ),
    Text(
        "of two spaces that continue a base64 text one is part of it",
        lines("dn: cn=a|cn:: QQ|  ==||dn: cn=a|cn:: QQ| ==|"),
        [(1, BAD_BASE64), (5, ENTRY)],
    ),
    Text("a folded base64 text", lines("dn: cn=a|cn:: QQ| ==|"), [(1, ENTRY)], new=lines("dn: cn=a|cn: A||")),
    Text("a URL", lines("dn: cn=a|jpegphoto:< file:///x|"), [(1, URL_VALUE)]),
    Text("a control", lines("dn: cn=a|control: 1.2 true|changetype: delete|"), [(1, CONTROL)]),
    Text("another version", lines("version: 2|"), fault=BAD_VERSION),
    Text("a version in capital letters, without a space", lines("VERSION:1||"), new=b""),
    Text("a version in base64", lines("version:: MQ==|"), fault=BAD_VERSION),
    Text("base64 of one sign", lines("dn: cn=a|note:: A|"), [(1, BAD_BASE64)]),
    Text("base64 with padding too short", lines("dn: cn=a|note:: AA=|"), [(1, BAD_BASE64)]),
    Text("base64 with unused bits", lines("dn: cn=a|note:: AAF=|"), [(1, BAD_BASE64)]),
    Text("base64 before a space", lines("dn: cn=a|note:: AA== |"), [(1, BAD_BASE64)]),
    Text("base64 of a NUL", lines("dn: cn=a|note:: AA==|"), [(1, ENTRY)], new=entry("note:: AA==")),
    Text("base64 of nothing", lines("dn: cn=a|note::|"), [(1, ENTRY)], new=entry("note:")),
    Text("a CR in a plain value", lines("dn: cn=a|note: \rx|"), [(1, BAD_LINE)]),
    Text("spaces before a plain value and after it", lines("dn: cn=a|note:   x |"), [(1, ENTRY)], new=entry("note:: eCA=")),
    Text("a line without a name", lines("dn: cn=a|:x|"), [(1, BAD_LINE)]),
    Text("a record without its name", lines("cn: a||dn: cn=b|"), [(1, BAD_LINE), (3, ENTRY)]),
    Text("a line that begins with a space and continues none", lines("# c|  c||| # d|"), [(5, BAD_LINE)]),
    Text("an unknown change type", lines("dn: cn=a|changetype: move|"), [(1, BAD_CHANGETYPE)]),
    Text("a line after a delete", lines("dn: cn=a|changetype: delete|cn: a|"), [(1, BAD_LINE)]),
    Text("an unknown modification", lines("dn: cn=a|changetype: modify|multiply: a|"), [(1, BAD_MODIFY)]),
    Text("the end of a modification before its beginning", lines("dn: cn=a|changetype: modify|-|"), [(1, BAD_LINE)]),
    Text("a value of another type", lines("dn: cn=a|changetype: modify|add: cn|sn: x|"), [(1, BAD_MODIFY)]),
    Text("a rename without its last line", lines("dn: cn=a|changetype:: bW9kcmRu|newrdn: cn=b|"), [(1, BAD_RENAME)]),
    Text("a rename whose deleteoldrdn is 2", lines("dn: cn=a|changetype: modrdn|newrdn: cn=b|deleteoldrdn: 2|"), [(1, BAD_RENAME)]),
    Text("a rename to no RDN", lines("dn: cn=a|changetype: modrdn|newrdn: cn|deleteoldrdn: 2|"), [(1, BAD_DN)]),
    Text("no name", lines("dn: x|"), [(1, BAD_DN)]),
    # The first faulty line decides: its own fault comes before that of its place, and a missing line last.
    Text("base64 before a URL", lines("dn: cn=a|note:: A|other:< x|"), [(1, BAD_BASE64)]),
    Text("base64 after a delete", lines("dn: cn=a|changetype: delete|note:: A|"), [(1, BAD_BASE64)]),
    Text("no RDN, and a missing line", lines("dn: cn=a|changetype: modrdn|newrdn: cn|"), [(1, BAD_DN)]),
    Text("no description", lines("dn: cn=a|1cn: b|"), [(1, BAD_DESCRIPTION)]),
    Text("a reserved name", lines("dn: cn=a|changetype;x: b|"), [(1, RESERVED_NAME)]),
]
CHANGES = [
    EXAMPLE_OF_CHANGES,
    Changes(
        "the last modification has no end",
        lines("dn: cn=P,dc=a|changetype: modify|add: cn|cn: 1|-|delete: l|l: x|"),
        lines("dn: dc=a|dc: a||dn: cn=P,dc=a|cn: P|l: x||"),
        [(1, "accepted")],
        new=lines("dn: dc=a|dc: a||dn: cn=P,dc=a|cn: 1|cn: P||"),
        undo=lines("version: 1||# undo 1|dn: cn=P,dc=a|changetype: modify|delete: cn|cn: 1|-|add: l|l: x|-||"),
        suffix="dc=a",
    ),
    Changes(
        "the second record is cut in its base64 text",
        lines("dn: cn=e,dc=com|changetype: add|note: x||dn: cn=f,dc=com|changetype: add|note:: AAE"),
        lines(ROOT),
        [(1, "accepted"), (5, f"refused, {BAD_BASE64}")],
        new=lines(ROOT + "dn: cn=e,dc=com|cn: e|note: x||"),
        undo=lines("version: 1||# undo 1|dn: cn=e,dc=com|changetype: delete||"),
    ),
]


# ---- values as they are written


# The bytes whose base64 text is the whole alphabet in its order (RFC 4648, section 4).
ALPHABET = "ABCDEFGHIJKLMNOPQRSTUVWXYZabcdefghijklmnopqrstuvwxyz0123456789+/"
ALL_SIGNS = bytes.fromhex("00108310518720928b30d38f41149351559761969b71d79f8218a39259a7a29aabb2dbafc31cb3d35db7e39ebbf3dfbf")
NAMED_BY_ALL_SIGNS = printed_name([[("x", as_text(ALL_SIGNS))]])
WRITTEN = [
    Text(
        "a name has the bytes that the value has in base64",
        f"dn: {NAMED_BY_ALL_SIGNS}\nx:: {ALPHABET}\n".encode(),
        [(1, ENTRY)],
        new=block(("dn", NAMED_BY_ALL_SIGNS), ("x", as_text(ALL_SIGNS))).encode(),
        suffix=NAMED_BY_ALL_SIGNS,
    ),
    Text(
        "all signs of base64, folded after 76 bytes",
        lines(f"dn: cn=a|certificate:: {ALPHABET[:62]}| {ALPHABET[62:]}||"),
        [(1, ENTRY)],
        new=lines(f"dn: cn=a|certificate:: {ALPHABET[:62]}| {ALPHABET[62:]}|cn: a||"),
    ),
    Text("an empty value", lines("dn: cn=a|note:|"), [(1, ENTRY)], new=entry("note:")),
    Text("a space at the beginning", lines("dn: cn=a|note:: IGxlYWQ=|"), [(1, ENTRY)], new=entry("note:: IGxlYWQ=")),
    Text("`<` at the beginning", lines("dn: cn=a|note:: PHg=|"), [(1, ENTRY)], new=entry("note:: PHg=")),
    Text("`:` at the beginning", lines("dn: cn=a|note:: Ong=|"), [(1, ENTRY)], new=entry("note:: Ong=")),
    Text("these signs after the beginning", lines("dn: cn=a|note:: YTw6IGI=|"), [(1, ENTRY)], new=entry("note: a<: b")),
    Text("a line of 83 bytes", lines(f"dn: cn=a|description: {'a' * 70}|"), [(1, ENTRY)], new=entry(f"description: {'a' * 63}| {'a' * 7}")),
]
# Lengths of the value in a line `x: VALUE`, and those of the physical lines that it is written in.
FOLDED = [(73, [76]), (74, [76, 2]), (148, [76, 76]), (149, [76, 76, 2])]
# What comes before the last byte of a value: with no padding, two signs of it, and one. The value is written in base64 for its first byte, where
# there is one before the last.
STARTS = (b"\x80a", b"\x80ab", b"\x80", b"")


# ---- limits


def in_base64(shows, text, fault, new=None):
    """An entry with this value in base64, without the end of its last line."""
    return Text(shows, b"dn: cn=a\nx:: " + text, [(1, fault)], new)


def long_values():
    """Values in base64 at their limit and past it. As plain ones size.py has them."""
    most = MOST_BYTES_OF_A_VALUE
    new = block(("dn", "cn=a"), ("cn", "a"), ("x", "a" * most)).encode()
    return [
        in_base64("a value as long as it can be", base64.b64encode(b"a" * most), ENTRY, new),
        in_base64("a value that is too long", base64.b64encode(b"a" * (most + 1)), VALUE_TOO_LONG),
    ]


# The longest line of `x:: ` and a base64 text: one sign that is another than `A`, where it is, and the record's fault.
LONG_BASE64 = [
    (0, b"A", VALUE_TOO_LONG),
    (0, b"*", BAD_BASE64),
    (1023, b"=", BAD_BASE64),
    (1024, b" ", BAD_BASE64),
    (2_097_146, b"=", BAD_BASE64),
    (2_097_147, b"=", VALUE_TOO_LONG),
    (2_097_147, b"B", VALUE_TOO_LONG),
]


def long_base64_texts():
    texts, signs = [], MOST_BYTES_OF_A_LINE - len("x:: ")
    for at, sign, fault in LONG_BASE64:
        text = b"A" * at + sign + b"A" * (signs - at - 1)
        texts.append(in_base64(f"{sign} after {at} signs", text, fault))
        # Without its last sign it has no whole groups. Where that was the other one, it is the first of these texts.
        if at < signs - 1:
            texts.append(in_base64(f"{sign} after {at} signs, without the last sign", text[:-1], BAD_BASE64))
    return texts


# A comment as long as a line can be, which size.py has, and one byte more.
LONG_COMMENT = Text("a comment that goes on past its limit", b"#" + b"a" * (MOST_BYTES_OF_A_LINE - 1) + b"\r\n a", fault=LINE_TOO_LONG)


# ---- the checks


def ended(place, suffix, copy, changes):
    """The exit status, the report and the message of a run that goes on after refused records, and both files."""
    place.write("copy", copy)
    place.write("changes", changes)
    words = ["slapmodify", "-b", suffix, "--data", "copy", "-l", "changes", "--out", "new", "--undo", "undo", "-c", "-v"]
    found = (*place.run(*words), *map(place.read, ("new", "undo")))
    place.remove("new", "undo")
    return found


def faulty(told):
    """How a run ends that makes nothing, and what it tells."""
    return 1, "", f"slapkit: {told}\n", None, None


def whole(report, new, undo):
    """How a run ends that tells this of the record in each of these lines."""
    refused = sum(told != "accepted" for _, told in report)
    told = "".join(f"line {number}: {text}\n" for number, text in report)
    return 1 if refused else 0, f"{told}accepted {len(report) - refused}, refused {refused}\n", "", new, undo


def of_changes(text):
    """How a run ends that reads the text as changes, of an empty copy. An entry is none."""
    if text.fault:
        return faulty(f"changes: {text.fault}")
    return whole([(number, f"refused, {fault or BAD_CHANGETYPE}") for number, fault in text.records], b"", NOTHING.encode())


def of_copy(text):
    """How a run without changes ends that reads the text as a copy."""
    if text.fault:
        return faulty(f"copy, line 0: {text.fault}")
    for number, fault in text.records:
        if fault:
            return faulty(f"copy, line {number}: {fault}")
    return whole([], text.new, NOTHING.encode())


def check_texts(place, texts):
    for text in texts:
        check_as_changes(place, text)
        copy = text.data + b"\n" + text.above if text.above else text.data
        expect(ended(place, text.suffix, copy, b""), of_copy(text), f"{text.shows}, as a copy")
    return f"{len(texts)} texts"


def check_as_changes(place, text):
    expect(ended(place, text.suffix, b"", text.data), of_changes(text), f"{text.shows}, as changes")


def check_long_base64_texts(place):
    texts = long_base64_texts()
    for text in texts:
        check_as_changes(place, text)
    return f"{len(texts)} texts"


def check_changes(place, rows):
    for row in rows:
        expect(ended(place, row.suffix, row.copy, row.data), whole(row.report, row.new, row.undo), row.shows)
        check_way_back(place, row)
    return f"{len(rows)} texts"


def check_way_back(place, row):
    """The undo file is read as changes that are accepted, and makes the copy again."""
    status, _, message, back, _ = ended(place, row.suffix, row.new, row.undo)
    expect((status, message, back), (0, "", row.copy), f"{row.shows}, taken back")


def check_folding(place):
    for length, wanted in FOLDED:
        status, _, _, new, _ = ended(place, "cn=a", lines(f"dn: cn=a|x: {'a' * length}|"), b"")
        expect(status, 0, f"status of a value of {length} bytes")
        expect(new.replace(b"\n ", b""), lines(f"dn: cn=a|cn: a|x: {'a' * length}||"), f"a value of {length} bytes, unfolded")
        name, cn, *physical = new.removesuffix(b"\n\n").split(b"\n")
        expect(([name, cn], list(map(len, physical))), ([b"dn: cn=a", b"cn: a"], wanted), f"lines of a value of {length} bytes")


def check_last_bytes(place):
    """Values of each last byte, as the new copy and the undo file have them, read back."""
    values = [start + bytes([last]) for start in STARTS for last in range(256)]
    given = b"".join(b"x:: " + base64.b64encode(value) + b"\n" for value in values)
    written = "".join(line("x", as_text(value)) for value in sorted(values)).encode()
    for value in values:
        if len(value) > 1:
            expect(b"x:: " + base64.b64encode(value) + b"\n" in written, True, f"{value} in base64")
    name, root = b"dn: cn=a,dc=com\n", lines(ROOT)
    copy = root + name + b"cn: a\n" + written + b"\n"
    undo = NOTHING.encode() + b"# undo 1\n" + name + b"changetype: add\ncn: a\n" + written + b"\n"
    expect(ended(place, "dc=com", root + name + given, b""), whole([], copy, NOTHING.encode()), "the copy")
    gone = Changes("an entry is deleted", deleted("cn=a,dc=com").encode(), copy, [(1, "accepted")], new=root, undo=undo)
    check_changes(place, [gone])
    return f"{len(values)} values"


def main():
    program = str(pathlib.Path(sys.argv[1]).resolve())
    # the long texts take a build that is not proved some seconds each
    with Place(program, seconds=60) as place:
        pairs = [
            ("examples of RFC 2849", lambda: check_texts(place, EXAMPLES)),
            ("short texts", lambda: check_texts(place, TEXTS)),
            ("changes and the way back", lambda: check_changes(place, CHANGES)),
            ("values as they are written", lambda: check_texts(place, WRITTEN)),
            ("lines of 77 bytes are folded", lambda: check_folding(place)),
            ("values of each last byte", lambda: check_last_bytes(place)),
            ("long values in base64", lambda: check_texts(place, long_values())),
            ("long base64 texts", lambda: check_long_base64_texts(place)),
            ("a long comment", lambda: check_texts(place, [LONG_COMMENT])),
        ]
        status = checks.run("records", pairs)
    sys.exit(status)


main()
