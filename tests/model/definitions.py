"""Definitions of attribute types in a slapd.conf (RFC 4512, section 4.1.2; slapd.conf(5), `attributetype`), and the tables to which they are added."""
import copy
import re

from model import names
from model.names import NUMBER, Rule, as_bytes, as_text

MOST_BYTES_OF_A_CONFIGURATION = 16_777_216
CONFIG_TOO_LONG, BAD_TYPE = "C11 ConfigTooLong", "C12 BadType"

RULE_OF_EQUALITY = {
    "caseignorematch": Rule.CASE_IGNORE,
    "caseignoreia5match": Rule.IA5_CASE_IGNORE,
    "caseexactia5match": Rule.IA5_CASE_EXACT,
    "telephonenumbermatch": Rule.TELEPHONE,
    "integermatch": Rule.INTEGER,
    "distinguishednamematch": Rule.NAME,
    "octetstringmatch": Rule.OCTET,
    "objectidentifiermatch": Rule.OBJECT_ID,
}
# RFC 4519, sections 2.7 and 2.18: types that have no values of their own
RULE_OF_BASE = {"name": Rule.CASE_IGNORE, "distinguishedname": Rule.NAME}

TOKEN = re.compile(r"[ \t]*(?:(?P<sign>[()])|'(?P<quoted>[^']*)'|(?P<word>[^ \t()']+))")
FLAGS = ("obsolete", "single-value", "collective", "no-user-modification")
BEFORE_A_WORD = ("sup", "equality", "ordering", "substr", "syntax", "usage")


class BadType(Exception):
    """A definition can't be added."""


class ConfigFault(Exception):
    """The text of a configuration's fault."""


def check(holds):
    if not holds:
        raise BadType


def lowered(text):
    """A text with its ASCII letters in lower case."""
    return as_text(as_bytes(text).lower())


# ---- a definition


def tokens_of(text):
    """The tokens of a definition, each a kind and a text."""
    tokens, at, text = [], 0, text.rstrip(" \t")
    while at < len(text):
        found = TOKEN.match(text, at)
        check(found)
        tokens.append((found.lastgroup, found[found.lastgroup]))
        at = found.end()
    return tokens


class Definition:
    """A number, names, and what the parts say."""

    def __init__(self, text):
        self.tokens = tokens_of(text)
        self.take("sign", "(")
        self.number = self.take("word")
        check(re.fullmatch(NUMBER, self.number))
        self.parts = {}
        while self.tokens[:1] not in ([], [("sign", ")")]):
            self.read_part(lowered(self.take("word")))
        self.take("sign", ")")
        check(not self.tokens)
        self.names, self.is_single = self.parts.get("name", []), "single-value" in self.parts
        self.sup, self.equality = self.parts.get("sup"), self.parts.get("equality")

    def take(self, kind, text=None):
        """The text of the next token, which must be of this kind."""
        check(self.tokens)
        found, value = self.tokens.pop(0)
        check(found == kind and text in (None, value))
        return value

    def read_part(self, keyword):
        is_extension = keyword.startswith("x-")
        check(is_extension or keyword not in self.parts)
        self.parts[keyword] = self.value_of("name" if is_extension else keyword)

    def value_of(self, keyword):
        if keyword in FLAGS:
            return None
        if keyword == "desc":
            return self.take("quoted")
        if keyword in BEFORE_A_WORD:
            check(self.tokens)
            return self.take("word" if self.tokens[0][0] == "word" else "quoted")
        check(keyword == "name")
        if self.tokens[:1] != [("sign", "(")]:
            return [self.take("quoted")]
        self.take("sign", "(")
        texts = []
        while self.tokens[:1] != [("sign", ")")]:
            texts.append(self.take("quoted"))
        self.take("sign", ")")
        return texts


# ---- tables


def rule_of(table, definition):
    if definition.equality is not None:
        return RULE_OF_EQUALITY.get(lowered(definition.equality), Rule.OCTET)
    if definition.sup is None:
        return Rule.OCTET
    above = lowered(definition.sup)
    rule = table.rule_of[table.key_of[above]] if above in table.key_of else RULE_OF_BASE.get(above)
    check(rule)
    return rule


def add_type(table, text):
    """Adds what a definition says to a table, or leaves the table as it was."""
    definition = Definition(text)
    check(len(definition.number) <= names.MOST_BYTES_OF_A_DESCRIPTION)
    key = table.key_of.get(definition.number)
    for name in definition.names:
        check(re.fullmatch("[A-Za-z][A-Za-z0-9-]*", name) and len(name) <= names.MOST_BYTES_OF_A_DESCRIPTION)
        check(name.lower() not in names.RESERVED and table.key_of.get(name.lower(), key) == key)
    if key is None:
        rule = rule_of(table, definition)
        key = (definition.names or [definition.number])[0].lower()
        table.rule_of[key] = rule
        if definition.is_single:
            table.single.add(key)
    for name in (*definition.names, definition.number):
        table.key_of[name.lower()] = key


def lines_of(data):
    """The number and the text of each line, unfolded, but for comments."""
    lines = []
    for number, line in enumerate(data.split(b"\n"), 1):
        line = line.removesuffix(b"\r")
        if line[:1] in (b" ", b"\t") and lines:
            lines[-1][1].append(line)
        else:
            lines.append((number, [line]))
    return [(number, as_text(b"".join(parts))) for number, parts in lines if not parts[0].startswith(b"#")]


def definition_in(line):
    """The definition in a line, if it has one: all that is after its first word."""
    found = re.fullmatch(r"[ \t]*attributetype((?:[ \t].*)?)", line, re.ASCII | re.IGNORECASE | re.DOTALL)
    return found and found[1]


def table_of(data):
    """The built-in types with those that a configuration defines, or the fault of its first definition that can't be added."""
    if len(data) > MOST_BYTES_OF_A_CONFIGURATION:
        raise ConfigFault(f"config, line 0: {CONFIG_TOO_LONG}")
    table = copy.deepcopy(names.BUILT_IN)
    for number, line in lines_of(data):
        text = definition_in(line)
        if text is not None:
            try:
                add_type(table, text)
            except BadType:
                raise ConfigFault(f"config, line {number}: {BAD_TYPE}") from None
    return table
