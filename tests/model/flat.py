"""What `slapkit slapconf` must make of a configuration: of the files of a slapd.conf, or of the LDIF of cn=config.

It is written from slapd.conf(5), slapd-config(5), docs/DEFINITIONS.md, and what slapd 2.5.13 was seen to do with such files. It reads whole texts. own_types.txt has
the types that this slapd has itself, as its `slapcat -n 0` prints them, without name, distinguishedName, entry and children.
"""
import dataclasses
import os
import pathlib
import re

from model import ldif, names
from model.access import placed_arguments, shown_text
from model.answers import Fault, suffix_key
from model.names import NameFault, as_bytes, as_text

MOST_BYTES = 16_777_216
MOST_FILES_DEEP = 16
MOST_FILES = 1000
WHITE = b" \t\n\v\f\r"
WORD = re.compile(rb"[^ \t\n\v\f\r]*")

BAD_INCLUDE, BAD_ORDER, BAD_ARGUMENTS, NO_DATABASE = "K1 BadInclude", "K2 BadOrder", "K3 BadArguments", "K4 NoDatabase"
SECOND_DATABASE, SUBORDINATE, TOO_LONG, BAD_NAME = "K5 SecondDatabase", "K6 Subordinate", "K7 TooLong", "K8 BadName"

OWN_TYPES = [
    re.sub(r" DESC '[^']*'| X-[A-Z]+ '[^']*'", "", line) for line in pathlib.Path(__file__).with_name("own_types.txt").read_text().splitlines()
]


@dataclasses.dataclass
class Flat:
    """An exit status, what goes to standard output and to standard error, and the flat configuration, if it is made."""

    status: int
    report: str
    message: str
    flat: bytes | None


class BadConfig(Exception):
    """What is wrong with a configuration, and where."""

    def __init__(self, cause, place=None):
        super().__init__(cause)
        self.cause, self.place = cause, place


# ---- what both forms have


@dataclasses.dataclass
class Database:
    """The suffixes of a database, each with its place, and its lines."""

    suffixes: list = dataclasses.field(default_factory=list)
    lines: list = dataclasses.field(default_factory=list)


def expanded(macros, word):
    """A word with the number of its macro, where it has one. The first macro of a name counts."""
    name, colon, rest = word.partition(b":")
    number = dict(reversed(macros)).get(name)
    if number is None:
        return word
    return number + b"." + rest if colon else number


def with_macro(macros, place, words):
    if len(words) != 2:
        raise BadConfig(BAD_ARGUMENTS, place)
    return [*macros, (words[0], expanded(macros, words[1]))]


def definition(macros, text):
    """A definition, with its number expanded and its white space written as spaces."""
    if text.lstrip(WHITE).startswith(b"("):
        rest = text.lstrip(WHITE)[1:].lstrip(WHITE)
        word = WORD.match(rest)[0]
        text = b"( " + expanded(macros, word) + rest[len(word) :]
    return text.translate(bytes.maketrans(WHITE, b" " * len(WHITE)))


def suffix_at(place, text):
    try:
        return place, names.checked_name_key(names.read_name(text))
    except NameFault:
        raise BadConfig(BAD_NAME, place) from None


def database_of(wanted, databases):
    """The one that has the suffix."""
    found = None
    for database in databases:
        within = [(place, key) for place, key in database.suffixes if key[: len(wanted)] == wanted]
        at = [place for place, key in within if key == wanted]
        if at and found:
            raise BadConfig(SECOND_DATABASE, at[0])
        if within and not at:
            raise BadConfig(SUBORDINATE, within[0][0])
        found = database if at else found
    if not found:
        raise BadConfig(NO_DATABASE)
    return found


def written(word):
    """An argument as it is written, after a space."""
    if word and not re.search(rb'[\0- "\\]', word):
        return b" " + word
    return b' "' + re.sub(rb'(["\\])', rb"\\\1", word) + b'"'


def flat_text(types, lines):
    all_types = [*map(as_bytes, OWN_TYPES), *types]
    text = b"# slapkit slapconf\n" + b"".join(b"attributetype " + one + b"\n" for one in all_types) + b"database mdb\n"
    return text + b"".join(name + b"".join(map(written, words)) + b"\n" for name, words in lines)


def made(types, own, frontend):
    text = flat_text(types, own + frontend)
    if len(text) > MOST_BYTES:
        raise BadConfig(TOO_LONG)
    rules = sum(name == b"access" for name, _ in own)
    return Flat(0, f"types {len(types)}, rules {rules}, frontend {len(frontend)}\n", "", text)


def told(fault):
    return Flat(1, "", f"slapkit: {fault}\n", None)


# ---- slapd.conf


def is_include(line):
    return line[:7].lower() == b"include"


def lines_of(text):
    """The number and the text of each line, as slapd takes them."""
    found = []
    for number, line in enumerate(text.removesuffix(b"\n").split(b"\n"), 1):
        line = line.removesuffix(b"\r")
        last = found[-1][1] if found else b"include"
        if is_include(last):
            found.append([number, line])
        elif last.endswith(b"\\") and not last.endswith(b"\\\\"):
            found[-1][1] = last[:-1] + line
        elif line and line[0] in WHITE:
            found[-1][1] = last + b" " + line[1:]
        else:
            found.append([number, line])
    return found


def words_of(line):
    """The words of a line, or None where it ends in a quote or a backslash that is open."""
    if line.startswith(b"#") or defined_in(line) is not None:
        return []
    words = [word for _, word in placed_arguments(line)]
    return None if None in words else [as_bytes(word) for word in words]


def defines(word):
    """Whether a line with this first word is a definition for slapd."""
    return word[:9].lower() == b"attribute" and word.lower() != b"attributeoptions"


def defined_in(line):
    """The definition of an attribute type in a line."""
    text = line.lstrip(WHITE)
    word = WORD.match(text)[0]
    return text[len(word) :] if defines(word) else None


def included_by(line):
    words = words_of(line)
    return words[1] if words and len(words) == 2 and words[0].lower() == b"include" else None


def text_at(path, read):
    """The text at a path, or None where it can't be opened."""
    try:
        path.decode()
    except UnicodeDecodeError:
        return None
    return read(path)


def files_of(path, read):
    """The texts of all files, by their paths, in the order in which they are read: those that a file includes, then those that these include."""
    texts = {path: text_at(path, read)}
    if texts[path] is None:
        raise Fault(f"cannot open {shown_text(as_text(path))}")
    level = [path]
    for _ in range(MOST_FILES_DEEP - 1):
        wanted = [included_by(line) for path in level for _, line in lines_of(texts[path] or b"")]
        level = [path for path in dict.fromkeys(wanted) if path is not None and path not in texts]
        level = level[: MOST_FILES - len(texts)]
        for path in level:
            texts[path] = text_at(path, read)
            if sum(map(len, filter(None, texts.values()))) > MOST_BYTES:
                raise BadConfig(TOO_LONG)
    return texts


def all_lines(path, texts):
    """The lines of a file, with those of each file that a line includes in its place; each with its file and its number there."""
    size = 0

    def lines_in(path, below):
        nonlocal size
        size += len(texts[path])
        if size > MOST_BYTES:
            raise BadConfig(TOO_LONG)
        for number, line in lines_of(texts[path]):
            included = included_by(line)
            if below and included is not None and texts.get(included) is not None:
                yield from lines_in(included, below - 1)
            else:
                yield (path, number), line

    return list(lines_in(path, MOST_FILES_DEEP - 1))


def statements_of(lines):
    """What each line says: a definition, or words."""
    found = []
    for place, line in lines:
        text = defined_in(line)
        words = [] if text is not None else words_of(line)
        if words is None:
            raise BadConfig(BAD_ARGUMENTS, place)
        if words and words[0].lower() == b"include":
            raise BadConfig(BAD_INCLUDE, place)
        if words and defines(words[0]):
            raise BadConfig(BAD_ARGUMENTS, place)
        found.append((place, text, words))
    return found


def types_of(statements):
    types, macros = [], []
    for place, text, words in statements:
        if text is not None:
            types.append(definition(macros, text))
        elif words and words[0].lower() == b"objectidentifier":
            macros = with_macro(macros, place, words[1:])
    return types


def parts_of(statements):
    """The databases, and the frontend's rules."""
    frontend, passed_over = Database(), Database()
    databases, part = [], frontend
    for place, _, words in statements:
        if not words:
            continue
        keyword, words = words[0].lower(), words[1:]
        if keyword == b"database":
            if not words:
                raise BadConfig(BAD_ARGUMENTS, place)
            part = {b"frontend": frontend, b"config": passed_over, b"monitor": passed_over}.get(words[0].lower())
            if part is None:
                part = Database()
                databases.append(part)
        elif keyword == b"access":
            part.lines.append((keyword, words))
        elif part is frontend or part is passed_over:
            continue
        elif keyword == b"suffix":
            if len(words) != 1:
                raise BadConfig(BAD_ARGUMENTS, place)
            part.suffixes.append(suffix_at(place, words[0]))
            part.lines.append((keyword, words))
        elif keyword == b"rootdn":
            part.lines.append((keyword, words))
    return databases, frontend.lines


def flat_of_files(suffix, path, read):
    """What slapconf -f comes to. `read` gives the text at a path, or None where it can't be opened."""
    try:
        wanted = suffix_key(suffix)
        texts = files_of(path, read)
        statements = statements_of(all_lines(path, texts))
        types = types_of(statements)
        databases, frontend = parts_of(statements)
        return made(types, database_of(wanted, databases).lines, frontend)
    except Fault as fault:
        return told(fault)
    except BadConfig as bad:
        return told(f"{shown_text(as_text(bad.place[0]))}, line {bad.place[1]}: {bad.cause}" if bad.place else f"config: {bad.cause}")


def text_of_file(path):
    """The text of a file, or None where it can't be opened. A folder can be opened, and has none."""
    try:
        # not by pathlib, which takes a slash from the end of a path
        with open(os.fsdecode(path) or "/none/", "rb") as file:
            return file.read()
    except IsADirectoryError:
        raise Fault("cannot read config") from None
    except (OSError, ValueError):
        return None


# ---- cn=config


def blocks_of(text):
    """The records of a text: each a list of the number, the name and the value of a line."""
    try:
        blocks = list(ldif.blocks(text))
    except ldif.StreamFault as fault:
        raise BadConfig(str(fault)) from None
    return [[(line.number, *pair_at(line)) for line in block] for block in blocks]


def pair_at(line):
    try:
        pair = ldif.pair_of(line)
    except ldif.RecordFault as fault:
        raise BadConfig(str(fault), line.number) from None
    return pair.name.lower(), pair.value


def values_of(record, name):
    """The values of an attribute, each with the number of its line, and without its place."""
    values = [(number, value) for number, other, value in record if other == name.lower()]
    if not values or not values[0][1].startswith(b"{"):
        return values
    found = []
    for place, (number, value) in enumerate(values):
        prefix = b"{%d}" % place
        if not value.startswith(prefix):
            raise BadConfig(BAD_ORDER, number)
        found.append((number, value.removeprefix(prefix)))
    return found


ARGUMENT = re.compile(rb'([^ \t\n\v\f\r"]*)(?:"([^"\n]*)"(?![^ \t\n\v\f\r]))?')


def arguments_of(number, value):
    """The arguments of a rule or a macro: quotes begin anywhere in an argument, and end it; a backslash is a byte."""
    found, value = [], value.strip(WHITE)
    while value:
        argument = ARGUMENT.match(value)
        if not argument[0]:
            raise BadConfig(BAD_ARGUMENTS, number)
        value = value[argument.end() :]
        if value and value[0] not in WHITE:
            raise BadConfig(BAD_ARGUMENTS, number)
        found.append(argument[1] + (argument[2] or b""))
        value = value.lstrip(WHITE)
    return found


def config_types_of(records):
    types, macros = [], []
    for record in records:
        for number, value in values_of(record, "olcObjectIdentifier"):
            macros = with_macro(macros, number, arguments_of(number, value))
        # slapd reads none of these from there
        if any(name == "dn" and value.lower() == b"cn=schema,cn=config" for _, name, value in record):
            continue
        types += [definition(macros, value) for _, value in values_of(record, "olcAttributeTypes")]
    return types


def whole_lines(record, keyword, name):
    found = []
    for number, value in values_of(record, name):
        if b"\n" in value:
            raise BadConfig(BAD_ARGUMENTS, number)
        found.append((keyword, [value]))
    return found


def rules_in(record):
    return [(b"access", arguments_of(number, value)) for number, value in values_of(record, "olcAccess")]


def is_frontend(record):
    return any(re.sub(rb"^\{[^}]*\}", b"", value) == b"frontend" for _, name, value in record if name == "olcdatabase")


def config_database_of(wanted, records):
    """The record that has the suffix."""
    read = (Database([suffix_at(number, value) for number, value in values_of(record, "olcSuffix")], record) for record in records)
    return database_of(wanted, read).lines


def flat_of_config(suffix, text):
    """What slapconf --config comes to."""
    try:
        wanted = suffix_key(suffix)
        if len(text) > MOST_BYTES:
            raise BadConfig(TOO_LONG)
        records = blocks_of(text)
        types = config_types_of(records)
        record = config_database_of(wanted, records)
        own = whole_lines(record, b"suffix", "olcSuffix") + whole_lines(record, b"rootdn", "olcRootDN") + rules_in(record)
        return made(types, own, [line for record in records if is_frontend(record) for line in rules_in(record)])
    except Fault as fault:
        return told(fault)
    except BadConfig as bad:
        return told(f"config, line {bad.place}: {bad.cause}" if bad.place else f"config: {bad.cause}")
