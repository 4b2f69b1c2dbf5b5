"""A model of a directory and of the update operations of LDAP (RFC 4511, sections 4.6 to 4.9), each with the changes that
take it back: what slapkit must do, in another language and another form. names.py says what names, values and keys are.
"""
import dataclasses

from model import names
from model.names import description_key, is_single, name_key, printed_name, rdn_key
from model.texts import block, line

CODES = {
    2: "2 protocolError",
    11: "11 adminLimitExceeded",
    16: "16 noSuchAttribute",
    19: "19 constraintViolation",
    20: "20 attributeOrValueExists",
    21: "21 invalidAttributeSyntax",
    32: "32 noSuchObject",
    53: "53 unwillingToPerform",
    66: "66 notAllowedOnNonLeaf",
    67: "67 notAllowedOnRDN",
    68: "68 entryAlreadyExists",
}


class Refused(Exception):
    """A change is refused with this code."""

    @property
    def code(self):
        return self.args[0]


def value_key(kind, value):
    try:
        return names.value_key(kind, value)
    except names.NoKey:
        raise Refused(21) from None


# ---- changes


@dataclasses.dataclass
class Add:
    dn: list
    lines: list

    def text(self, printed):
        return block(("dn", printed(self.dn)), ("changetype", "add"), *self.lines)


@dataclasses.dataclass
class Delete:
    dn: list

    def text(self, printed):
        return block(("dn", printed(self.dn)), ("changetype", "delete"))


@dataclasses.dataclass
class Modify:
    dn: list
    # each an operation, a type as spelled, and values
    mods: list

    def text(self, printed):
        head = line("dn", printed(self.dn)) + line("changetype", "modify")
        mods = (line(op, kind) + "".join(line(kind, value) for value in values) + "-\n" for op, kind, values in self.mods)
        return head + "".join(mods) + "\n"


@dataclasses.dataclass
class Rename:
    dn: list
    newrdn: list
    delete_old: bool
    superior: list | None

    def text(self, printed):
        lines = [("dn", printed(self.dn)), ("changetype", "modrdn"), ("newrdn", printed([self.newrdn]))]
        lines.append(("deleteoldrdn", "1" if self.delete_old else "0"))
        return block(*lines, *([] if self.superior is None else [("newsuperior", printed(self.superior))]))


# ---- attributes: a map from keys of descriptions to a spelling and a map from keys of values to values


def with_missing(attributes, rdn):
    """The attributes with those values of an RDN that are not there."""
    attributes = dict(attributes)
    for spelling, value in rdn:
        kind = description_key(spelling)
        spelled, values = attributes.get(kind, (spelling, {}))
        attributes[kind] = (spelled, {value_key(kind, value): value} | values)
    return attributes


def without(attributes, pairs):
    attributes = dict(attributes)
    for kind, key in pairs:
        if kind in attributes:
            spelled, values = attributes.pop(kind)
            left = {other: value for other, value in values.items() if other != key}
            if left:
                attributes[kind] = (spelled, left)
    return attributes


def renamed_attributes(attributes, old, rdn, delete_old):
    gained = with_missing(attributes, rdn)
    return without(gained, sorted(set(old) - set(rdn_key(rdn)), key=names.order)) if delete_old else gained


def check_single(attributes):
    if any(len(values) > 1 for kind, (_, values) in attributes.items() if is_single(kind)):
        raise Refused(19)


def has_value(attributes, pair):
    return pair[0] in attributes and pair[1] in attributes[pair[0]][1]


def in_order(values):
    return [values[key] for key in sorted(values, key=names.order)]


def in_order_of_keys(kinds):
    """Keys of descriptions: by their types, then by their options."""
    return sorted(kinds, key=lambda kind: kind.split(";"))


def lines_of(attributes):
    """All values as lines, in the order of their keys."""
    return [(attributes[kind][0], value) for kind in in_order_of_keys(attributes) for value in in_order(attributes[kind][1])]


def number_of(text):
    """The number that a text of an integer writes, if it is one of 128 bits."""
    number = int(text) if len(text) <= 40 else None
    if number is None or not -(2**127) <= number < 2**127:
        raise Refused(19)
    return number


def incremented(slot, kind, values):
    """What an entry has under a type when a number was added to each value (RFC 4525)."""
    if len(values) != 1:
        raise Refused(2)
    if names.rule_of(kind) is not names.Rule.INTEGER:
        raise Refused(21)
    value_key(kind, values[0])
    if slot is None:
        raise Refused(16)
    amount = number_of(values[0])
    sums = [str(number_of(value) + amount) for value in slot[1].values()]
    for text in sums:
        number_of(text)
    return slot[0], {text: text for text in sums}


def slot_after(slot, op, spelling, values):
    """What an entry has under a type after one modification; nothing where no value is left."""
    if op == "increment":
        return incremented(slot, description_key(spelling), values)
    if not values:
        if op == "add":
            raise Refused(2)
        if op == "delete" and slot is None:
            raise Refused(16)
        return None
    keyed = [(value_key(description_key(spelling), value), value) for value in values]
    keys = [key for key, _ in keyed]
    twice = len(set(keys)) < len(keys)
    had = slot[1] if slot else {}
    if op == "delete":
        if twice or not all(key in had for key in keys):
            raise Refused(16)
        left = {key: value for key, value in had.items() if key not in keys}
        return (slot[0], left) if left else None
    if twice or op == "add" and any(key in had for key in keys):
        raise Refused(20)
    if op == "replace":
        return spelling, dict(keyed)
    return slot[0] if slot else spelling, {**had, **dict(keyed)}


def difference(old, new):
    """The modifications that lead from attributes to others, type by type, in the order of their keys."""
    mods = []
    for kind in in_order_of_keys({*old, *new}):
        a, b = old.get(kind), new.get(kind)
        if not b:
            mods.append(("delete", a[0], []))
        elif not a:
            mods.append(("add", b[0], in_order(b[1])))
        elif a[0] != b[0]:
            mods.append(("replace", b[0], in_order(b[1])))
        else:
            gone = in_order({key: value for key, value in a[1].items() if b[1].get(key) != value})
            come = in_order({key: value for key, value in b[1].items() if a[1].get(key) != value})
            mods += [("delete", b[0], gone)] if gone else []
            mods += [("add", b[0], come)] if come else []
    return mods


# ---- the directory


@dataclasses.dataclass(frozen=True)
class Entry:
    """An entry: its own RDN, as spelled, and its attributes."""

    own: list
    attributes: dict


class Directory:
    """A directory: a map from keys to entries. The name of the suffix's entry has RDNs above its own."""

    def __init__(self, suffix):
        self.suffix, self.entries, self.above_suffix = suffix, {}, []

    def copy(self):
        other = Directory(self.suffix)
        other.entries, other.above_suffix = dict(self.entries), self.above_suffix
        return other

    def name(self, key):
        """The name of an entry as spelled: its own RDN, its parent's, and so on up to the suffix's, and those above it."""
        return [self.entries[key[:depth]].own for depth in range(len(key), len(self.suffix) - 1, -1)] + self.above_suffix

    def text(self):
        """The canonical text: the entries in the order of their keys."""
        keys = sorted(self.entries, key=names.order)
        return "".join(block(("dn", printed_name(self.name(key))), *lines_of(self.entries[key].attributes)) for key in keys)

    def entry(self, key):
        if key not in self.entries:
            raise Refused(32)
        return self.entries[key]

    def apply(self, change):
        """Makes a change, or refuses it, and returns the changes that take it back."""
        key = name_key(change.dn)
        match change:
            case Add():
                return self.add(key, change)
            case Delete():
                return self.delete(key)
            case Modify():
                return self.modify(key, change.mods)
            case Rename():
                return self.rename(key, change)

    def add(self, key, change):
        self.check_place(key)
        if key != self.suffix:
            self.entry(key[:-1])
        self.put(key, change.dn, change.lines)
        return [Delete(self.name(key))]

    def check_place(self, key):
        """Passes where an entry may come to this place, if its parent is there."""
        if key[: len(self.suffix)] != self.suffix:
            raise Refused(32)
        if key in self.entries:
            raise Refused(68)

    def put(self, key, name, lines):
        """Puts an entry to its place, with the values of its own RDN and those of the lines."""
        keyed = [(description_key(kind), value_key(description_key(kind), value)) for kind, value in lines]
        if len(set(keyed)) < len(keyed):
            raise Refused(20)
        attributes = with_missing(with_missing({}, lines), name[0])
        check_single(attributes)
        self.entries[key] = Entry(name[0], attributes)
        if key == self.suffix:
            self.above_suffix = name[1:]

    def delete(self, key):
        entry = self.entry(key)
        if any(other[:-1] == key for other in self.entries):
            raise Refused(66)
        undo = [Add(self.name(key), lines_of(entry.attributes))]
        del self.entries[key]
        return undo

    def modify(self, key, mods):
        entry = self.entry(key)
        attributes = dict(entry.attributes)
        for op, spelling, values in mods:
            slot = slot_after(attributes.pop(description_key(spelling), None), op, spelling, values)
            if slot:
                attributes[description_key(spelling)] = slot
        if not all(has_value(attributes, pair) for pair in key[-1]):
            raise Refused(67)
        check_single(attributes)
        self.entries[key] = Entry(entry.own, attributes)
        back = difference(attributes, entry.attributes)
        return [Modify(self.name(key), back)] if back else []

    def rename(self, key, change):
        entry = self.entry(key)
        if key == self.suffix:
            raise Refused(53)
        superior = key[:-1] if change.superior is None else name_key(change.superior)
        if superior[: len(key)] == key:
            raise Refused(53)
        self.entry(superior)
        place = (*superior, rdn_key(change.newrdn))
        subtree = [other for other in self.entries if other[: len(key)] == key]
        if place in self.entries and place != key:
            raise Refused(68)
        if len(place) + max(map(len, subtree)) - len(key) > names.MOST_RDNS:
            raise Refused(11)
        attributes = renamed_attributes(entry.attributes, key[-1], change.newrdn, change.delete_old)
        check_single(attributes)
        old_name = self.name(key)
        moved = {place + other[len(key) :]: self.entries.pop(other) for other in subtree}
        self.entries |= moved | {place: Entry(change.newrdn, attributes)}
        old_superior = self.name(key[:-1]) if superior != key[:-1] else None
        undo = [Rename(self.name(place), entry.own, True, old_superior)]
        back = difference(renamed_attributes(attributes, place[-1], entry.own, True), entry.attributes)
        return undo + ([Modify(old_name, back)] if back else [])
