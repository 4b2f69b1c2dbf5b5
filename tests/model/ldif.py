"""Reads LDIF (RFC 2849): the records of a copy or of a text of changes, or the faults of those that are none.

It is written from the standard and docs/DEFINITIONS.md, and reads whole texts; slapkit reads in pieces.
"""
import base64
import binascii
import dataclasses
import re

from model import names
from model.directory import Add, Delete, Modify, Rename
from model.names import NameFault, as_text

MOST_BYTES_OF_A_VALUE = 1_048_576
MOST_BYTES_OF_A_LINE = 2_097_152

BAD_LINE, BAD_BASE64, URL_VALUE, CONTROL = "L1 BadLine", "L2 BadBase64", "L3 UrlValue", "L4 Control"
BAD_CHANGETYPE, BAD_MODIFY, BAD_RENAME, VALUE_TOO_LONG = "L5 BadChangetype", "L6 BadModify", "L7 BadRename", "L8 ValueTooLong"
LINE_TOO_LONG, BAD_VERSION, BAD_MARK = "L10 LineTooLong", "L15 BadVersion", "L16 BadMark"


class RecordFault(Exception):
    """A block is no record, and why."""


class StreamFault(Exception):
    """A text ends in a fault, after the records before it."""


@dataclasses.dataclass
class Content:
    """A record of a copy."""

    dn: list
    lines: list


# ---- lines


@dataclasses.dataclass
class Line:
    """A logical line, with the number of its first physical line."""

    number: int
    data: bytes


def logical_lines(text):
    """The lines of a text, unfolded, comments and empty lines among them."""
    folded = []
    for number, data in enumerate(text.removesuffix(b"\n").split(b"\n") if text else [], 1):
        data = data.removesuffix(b"\r")
        if data.startswith(b" ") and folded and folded[-1][1][0]:
            folded[-1][1].append(data[1:])
        else:
            folded.append((number, [data]))
    return [Line(number, b"".join(parts)) for number, parts in folded]


def is_version(line):
    return re.match(rb"version:", line.data, re.I) is not None


@dataclasses.dataclass
class Groups:
    """The first groups of an undo text, so many of which are wanted, and how many of their marks were met."""

    wanted: int
    met: int = 0

    def end_before(self, line):
        """Whether they end before a comment line that stands between two blocks. Its mark, if it is one, must be the next."""
        mark = re.fullmatch(rb"# undo ([1-9][0-9]*)", line.data)
        if mark and mark[1] != b"%d" % (self.met + 1):
            raise StreamFault(BAD_MARK)
        is_over = bool(mark) and self.met == self.wanted
        self.met += bool(mark) and not is_over
        return is_over


def blocks(text, groups=None):
    """Yields the blocks of lines, one after the other, or only those of some groups; a text may end in a fault after some of them."""
    block, is_first = [], True
    for line in logical_lines(text):
        if len(line.data) > MOST_BYTES_OF_A_LINE:
            raise StreamFault(LINE_TOO_LONG)
        if not line.data:
            if block:
                yield block
            block = []
        elif line.data.startswith(b"#"):
            if groups and not block and groups.end_before(line):
                return
        else:
            if is_first and is_version(line):
                if not re.fullmatch(rb"(?i:version): *1", line.data):
                    raise StreamFault(BAD_VERSION)
            elif groups and not groups.met:
                raise StreamFault(BAD_MARK)
            else:
                block.append(line)
            is_first = False
    if block:
        yield block


@dataclasses.dataclass
class Pair:
    """The name and the value of a line."""

    name: str
    value: bytes

    def is_named(self, *keywords):
        return self.name.lower() in keywords


def pair_of(line):
    name, colon, rest = line.data.partition(b":")
    if not name or not colon:
        raise RecordFault(BAD_LINE)
    if rest.startswith(b"<"):
        raise RecordFault(URL_VALUE)
    if rest.startswith(b":"):
        value = decoded(rest[1:].lstrip(b" "))
    else:
        value = rest.lstrip(b" ")
        if b"\0" in value or b"\r" in value:
            raise RecordFault(BAD_LINE)
    if len(value) > MOST_BYTES_OF_A_VALUE:
        raise RecordFault(VALUE_TOO_LONG)
    return Pair(as_text(name), value)


def decoded(text):
    """The bytes that a base64 text encodes: of RFC 4648, with its padding, and with no unused bits."""
    try:
        value = base64.b64decode(text, validate=True)
    except binascii.Error:
        raise RecordFault(BAD_BASE64) from None
    if base64.b64encode(value) != text:
        raise RecordFault(BAD_BASE64)
    return value


# ---- records


def of_name(read, text):
    """What `read` makes of a text, whose faults are those of a record."""
    try:
        return read(text)
    except NameFault as fault:
        raise RecordFault(f"L9 {fault}") from None


def name_with_key(text):
    name = names.read_name(text)
    names.checked_name_key(name)
    return name


def rdn_with_key(text):
    rdn = names.read_rdn(text)
    names.checked_name_key([rdn])
    return rdn


def description_key(text):
    return of_name(names.description_key, text)


def record_of(block):
    """The record of a block. Its lines are read one after the other, and the first that has a fault decides."""
    pairs = map(pair_of, block)
    first = next(pairs)
    if not first.is_named("dn"):
        raise RecordFault(BAD_LINE)
    dn = of_name(name_with_key, first.value)
    if len(block) == 1:
        return Content(dn, [])
    second = pair_of(block[1])
    if second.is_named("control"):
        raise RecordFault(CONTROL)
    if not second.is_named("changetype"):
        return Content(dn, attribute_lines(block[1:]))
    kind = second.value.lower()
    if kind not in CHANGES:
        raise RecordFault(BAD_CHANGETYPE)
    return CHANGES[kind](dn, block[2:])


def attribute_lines(lines):
    found = []
    for line in lines:
        pair = pair_of(line)
        description_key(pair.name)
        found.append((pair.name, as_text(pair.value)))
    return found


def add_of(dn, lines):
    return Add(dn, attribute_lines(lines))


def delete_of(dn, lines):
    if lines:
        pair_of(lines[0])
        raise RecordFault(BAD_LINE)
    return Delete(dn)


def modify_of(dn, lines):
    mods = []
    is_in_mod = False
    for line in lines:
        if is_in_mod and line.data == b"-":
            is_in_mod = False
            continue
        pair = pair_of(line)
        if is_in_mod:
            _, spelling, values = mods[-1]
            if description_key(pair.name) != description_key(spelling):
                raise RecordFault(BAD_MODIFY)
            values.append(as_text(pair.value))
        else:
            if not pair.is_named("add", "delete", "replace", "increment"):
                raise RecordFault(BAD_MODIFY)
            spelling = as_text(pair.value)
            description_key(spelling)
            mods.append((pair.name.lower(), spelling, []))
            is_in_mod = True
    return Modify(dn, mods)


def rename_of(dn, lines):
    newrdn = delete_old = superior = None
    for number, line in enumerate(lines):
        pair = pair_of(line)
        if number == 0 and pair.is_named("newrdn"):
            newrdn = of_name(rdn_with_key, pair.value)
        elif number == 1 and pair.is_named("deleteoldrdn") and pair.value in (b"0", b"1"):
            delete_old = pair.value == b"1"
        elif number == 2 and pair.is_named("newsuperior"):
            superior = of_name(name_with_key, pair.value)
        else:
            raise RecordFault(BAD_RENAME)
    if delete_old is None:
        raise RecordFault(BAD_RENAME)
    return Rename(dn, newrdn, delete_old, superior)


CHANGES = {b"add": add_of, b"delete": delete_of, b"modify": modify_of, b"modrdn": rename_of, b"moddn": rename_of}


def records(text, groups=None):
    """Yields the records of a text, or of some groups of it, each with the number of its first line, a fault in the place of one that
    has one."""
    for block in blocks(text, groups):
        try:
            record = record_of(block)
        except RecordFault as fault:
            record = fault
        yield block[0].number, record
