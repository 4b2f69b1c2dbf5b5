"""Attribute types, descriptions, values and names, and the keys by which they are compared (docs/DEFINITIONS.md).

A text is a `str`; bytes that are no UTF-8 stand in it as `surrogateescape` has them, so that each text is a text of bytes.
The key of a description is its type's key and its options in order, each once, with `;` between. A name is a list of RDNs, leaf
first; an RDN is a list of pairs of a type, as spelled, and a value. The key of an RDN is the sorted pairs of a type and a value's key,
that of a name the keys of its RDNs, root first.
"""
import contextlib
import dataclasses
import enum
import re
import unicodedata

MOST_BYTES_OF_A_DESCRIPTION = 512
MOST_BYTES_OF_AN_RDN = 4096
MOST_RDNS = 64
RESERVED = ("dn", "changetype", "control")


class NameFault(Exception):
    """A text is no description or no name, and why."""


class NoKey(Exception):
    """A value is none of its type."""


class UnknownCharacter(Exception):
    """A value has a character that this Python's tables of Unicode lack, while slapkit's may have it."""


BAD_DESCRIPTION, RESERVED_NAME, BAD_DN, NAME_LIMIT = "N1 BadDescription", "N2 ReservedName", "N4 BadDn", "N5 NameLimit"


def as_bytes(text):
    return text.encode(errors="surrogateescape")


def as_text(data):
    return data.decode(errors="surrogateescape")


# ---- types


class Rule(enum.Enum):
    OCTET = enum.auto()
    CASE_IGNORE = enum.auto()
    IA5_CASE_IGNORE = enum.auto()
    IA5_CASE_EXACT = enum.auto()
    TELEPHONE = enum.auto()
    INTEGER = enum.auto()
    NAME = enum.auto()
    OBJECT_ID = enum.auto()


# RFC 4519, 4524, 2798, 2307 and 4512: the rule, and each type's primary name, number and alias
TYPES_BY_RULE = {
    Rule.CASE_IGNORE: """
        cn 2.5.4.3 commonName|sn 2.5.4.4 surname|c 2.5.4.6 countryName|l 2.5.4.7 localityName|st 2.5.4.8|street 2.5.4.9
        o 2.5.4.10 organizationName|ou 2.5.4.11 organizationalUnitName|title 2.5.4.12|description 2.5.4.13|givenName 2.5.4.42
        uid 0.9.2342.19200300.100.1.1 userid|displayName 2.16.840.1.113730.3.1.241|employeeNumber 2.16.840.1.113730.3.1.3""",
    Rule.IA5_CASE_IGNORE: "mail 0.9.2342.19200300.100.1.3|dc 0.9.2342.19200300.100.1.25 domainComponent",
    Rule.TELEPHONE: "telephoneNumber 2.5.4.20",
    Rule.NAME: "member 2.5.4.31|owner 2.5.4.32|seeAlso 2.5.4.34|manager 0.9.2342.19200300.100.1.10",
    Rule.OCTET: "userPassword 2.5.4.35",
    Rule.INTEGER: "uidNumber 1.3.6.1.1.1.1.0|gidNumber 1.3.6.1.1.1.1.1",
    Rule.IA5_CASE_EXACT: "homeDirectory 1.3.6.1.1.1.1.3|loginShell 1.3.6.1.1.1.1.4",
    Rule.OBJECT_ID: "objectClass 2.5.4.0",
}
SINGLE = frozenset("c displayname employeenumber dc uidnumber gidnumber homedirectory loginshell".split())

ROWS = [(rule, row.split()) for rule, rows in TYPES_BY_RULE.items() for row in re.split(r"[|\n]", rows) if row.strip()]


@dataclasses.dataclass
class Table:
    """Attribute types: the key of each name and number, in lower case; the rule of each key; the keys of single-valued types."""

    key_of: dict
    rule_of: dict
    single: set


BUILT_IN = Table(
    {spelling.lower(): names[0].lower() for _, names in ROWS for spelling in names},
    {names[0].lower(): rule for rule, names in ROWS},
    set(SINGLE),
)
_tables = [BUILT_IN]


@contextlib.contextmanager
def types_of(table):
    """Goes by the types of this table, and then by those of before again."""
    _tables.append(table)
    try:
        yield
    finally:
        _tables.pop()


NUMBER = r"(?:0|[1-9][0-9]*)(?:\.(?:0|[1-9][0-9]*))+"
TYPE = rf"(?:[A-Za-z][A-Za-z0-9-]*|{NUMBER})"
IS_TYPE = re.compile(TYPE)
IS_DESCRIPTION = re.compile(rf"({TYPE})((?:;[A-Za-z0-9-]+)*)")


def type_key(spelling):
    return _tables[-1].key_of.get(spelling.lower(), spelling.lower())


def is_known(spelling):
    """Whether a text names a type of the table."""
    return spelling.lower() in _tables[-1].key_of


def is_type(text):
    return len(text) <= MOST_BYTES_OF_A_DESCRIPTION and IS_TYPE.fullmatch(text) is not None


def description_key(text):
    """The key of a description, or why the text is none."""
    found = IS_DESCRIPTION.fullmatch(text)
    if not found or len(text) > MOST_BYTES_OF_A_DESCRIPTION:
        raise NameFault(BAD_DESCRIPTION)
    if found[1].lower() in RESERVED:
        raise NameFault(RESERVED_NAME)
    options = found[2].lower().split(";")[1:]
    return ";".join([type_key(found[1]), *sorted(set(options))])


def rule_of(kind):
    return _tables[-1].rule_of.get(kind.split(";")[0], Rule.OCTET)


def is_single(kind):
    return kind.split(";")[0] in _tables[-1].single


# ---- values


def tidied(text):
    return " ".join(filter(None, text.split(" ")))


def folded(text):
    """Default case folding and NFKC. There is none of a text that is empty or not UTF-8."""
    if not text or any("\udc80" <= char <= "\udcff" for char in text):
        raise NoKey
    if any(unicodedata.category(char) == "Cn" for char in text):
        raise UnknownCharacter
    return unicodedata.normalize("NFKC", text.casefold())


def ia5(text):
    if not text.isascii():
        raise NoKey
    return text


def matching(pattern, text):
    if not re.fullmatch(pattern, text):
        raise NoKey
    return text


def value_key(kind, value):
    """What two equal values of an attribute have in common."""
    match rule_of(kind):
        case Rule.OCTET:
            return value
        case Rule.CASE_IGNORE:
            return tidied(folded(value))
        case Rule.TELEPHONE:
            return folded(value).replace(" ", "").replace("-", "")
        case Rule.IA5_CASE_IGNORE:
            return tidied(ia5(value).lower())
        case Rule.IA5_CASE_EXACT:
            return tidied(ia5(value))
        case Rule.INTEGER:
            return matching("0|-?[1-9][0-9]*", value)
        case Rule.OBJECT_ID:
            return matching("[!-~]+", value).lower()
        case Rule.NAME:
            return key_of_name_value(value)


def key_of_name_value(value):
    try:
        return checked_name_key(read_name(as_bytes(value)))
    except NameFault:
        raise NoKey from None


def order(key):
    """By what keys of values, of RDNs and of names are sorted."""
    return as_bytes(key) if isinstance(key, str) else [order(part) for part in key]


# ---- names (RFC 4514)

SPACES = re.compile(rb" *")
TYPE_BYTES = re.compile(rb"[A-Za-z0-9.-]*")
HEX_PAIR = re.compile(rb"[0-9A-Fa-f]{2}")
ESCAPABLE = b' "#+,;<=>\\'
ENDS_VALUE = b"+,"
REFUSED_IN_VALUE = b'";<>\0'


def bad_dn():
    return NameFault(BAD_DN)


def read_value(text, at):
    """The value that begins there, and where it ends. Spaces at its end are skipped, unless they are escaped."""
    if text[at : at + 1] == b"#":
        raise bad_dn()
    value, kept = bytearray(), 0
    while at < len(text) and text[at] not in ENDS_VALUE:
        byte = text[at]
        if byte in REFUSED_IN_VALUE:
            raise bad_dn()
        at += 1
        if byte == 0x5C:
            pair = HEX_PAIR.match(text, at)
            if not pair and (at == len(text) or text[at] not in ESCAPABLE):
                raise bad_dn()
            byte = int(pair[0], 16) if pair else text[at]
            at += 2 if pair else 1
            kept = len(value) + 1
        elif byte != 0x20:
            kept = len(value) + 1
        value.append(byte)
    return as_text(bytes(value[:kept])), at


def read_pair(text, at):
    at = SPACES.match(text, at).end()
    end = TYPE_BYTES.match(text, at).end()
    kind = text[at:end].decode()
    at = SPACES.match(text, end).end()
    if not is_type(kind) or kind.lower() in RESERVED or text[at : at + 1] != b"=":
        raise bad_dn()
    value, at = read_value(text, SPACES.match(text, at + 1).end())
    return (kind, value), at


def read_rdns(text):
    rdns, at, separator = [], 0, b","
    while separator:
        pair, at = read_pair(text, at)
        if separator == b",":
            rdns.append([])
        rdns[-1].append(pair)
        separator = text[at : at + 1]
        at += 1
    return rdns


def read_name(text):
    """The name that a text spells."""
    rdns = read_rdns(text) if text else []
    if len(rdns) > MOST_RDNS or any(len(printed_rdn(rdn)) > MOST_BYTES_OF_AN_RDN for rdn in rdns):
        raise NameFault(NAME_LIMIT)
    return rdns


def read_rdn(text):
    """The one RDN that a text spells."""
    rdns = read_rdns(text)
    if len(rdns) != 1:
        raise bad_dn()
    return read_name(text)[0]


def rdn_key(rdn):
    return tuple(sorted((type_key(kind), value_key(type_key(kind), value)) for kind, value in rdn))


def name_key(name):
    return tuple(rdn_key(rdn) for rdn in reversed(name))


def checked_name_key(name):
    """The key of a name. It has none where a type is twice in an RDN, or is compared as names are, or where a value has no key."""
    for rdn in name:
        kinds = [type_key(kind) for kind, _ in rdn]
        if len(set(kinds)) < len(kinds) or any(rule_of(kind) is Rule.NAME for kind in kinds):
            raise bad_dn()
    try:
        return name_key(name)
    except NoKey:
        raise bad_dn() from None


def printed_value(value):
    data = as_bytes(value)
    last = len(data) - 1
    text = ""
    for at, byte in enumerate(data):
        is_escaped = not 32 <= byte <= 126 or byte in b'"+,;<>\\' or byte == 32 and at in (0, last) or byte == 35 and at == 0
        text += f"\\{byte:02X}" if is_escaped else chr(byte)
    return text


def printed_rdn(rdn):
    return "+".join(f"{kind}={printed_value(value)}" for kind, value in rdn)


def printed_name(name):
    return ",".join(map(printed_rdn, name))
