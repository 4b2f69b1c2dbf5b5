"""Random directories, configurations and changes, and what a model of slapkit (model/directory.py) makes of a run of such changes.

slapd/slapd_changes.py draws among more types: it sets TYPES, TEXTS and AMOUNTS, and replaces `many_lines` and `random_value`.
"""
import contextlib

from harness.checks import expect, same
from model import definitions, names
from model.directory import CODES, Add, Delete, Directory, Entry, Modify, Refused, Rename, lines_of
from model.names import MOST_RDNS, Rule
from model.texts import undone

ENTRIES = 14
# how often an entry has many values
MANY = 0.15

SUFFIX = [("dc", "com")]
# each type: its spellings
TYPES = {
    "cn": ["cn", "CN", "commonName"],
    "cn;lang-en": ["cn;lang-en", "CommonName;LANG-EN"],
    "dc": ["dc", "DC", "domainComponent"],
    "description": ["description", "Description", "2.5.4.13"],
    "note": ["note", "NOTE"],
    "sn": ["sn", "surname"],
    "uidnumber": ["uidNumber", "UIDNUMBER"],
}
# types that a configuration may define, with the number of each: the definitions that are drawn from, and the names by which they are spelled. Of the first
# ones the key is `room`, `note`, `level` and a number; the others are names more of built-in types.
DEFINED = {
    "room": ("( 1.3.6.1.4.1.32473.1 NAME ( 'room' 'roomName' ) EQUALITY caseIgnoreMatch SINGLE-VALUE )", ["room", "ROOMNAME", "1.3.6.1.4.1.32473.1"]),
    "note": ("( 1.3.6.1.4.1.32473.3 SUP name NAME 'note' )", ["note", "Note", "1.3.6.1.4.1.32473.3"]),
    "level": ("( 1.3.6.1.4.1.32473.2 NAME 'level' DESC 'a ) level' SUP uidNumber )", ["level", "LEVEL"]),
    "1.3.6.1.4.1.32473.4": ("( 1.3.6.1.4.1.32473.4 EQUALITY octetStringMatch SINGLE-VALUE X-ORIGIN ( 'a' 'b' ) )", ["1.3.6.1.4.1.32473.4"]),
    "exact": ("( 1.3.6.1.4.1.32473.5 NAME 'exact' EQUALITY caseExactMatch ORDERING integerOrderingMatch )", ["exact", "Exact"]),
    "cn": ("( 2.5.4.3 NAME ( 'cn' 'fullName' ) SINGLE-VALUE )", ["fullName", "FULLNAME"]),
    "sn": ("( 2.5.4.4 NAME 'lastName' EQUALITY integerMatch )", ["LastName"]),
}
BUILT_IN_SPELLINGS = dict(TYPES)
# values with signs that a name escapes, spaces at their ends, letters of other scripts, and the same ones spelled otherwise
TEXTS = ["a", "A", "b", "B", "c", "d", "D", " e", "F  f", "f F ", "g,h", "G,H", "i+j", "#k", 'l"l', "m\\m", "<n;n>", "o=o", "\u00fc", "\u00dc", "stra\u00dfe"]
NUMBERS = ["1", "2", "3"]
# what numbers are incremented by, and the ends of 128 bits
AMOUNTS = ["1", "1", "-1", "2", "0", "-5", str(2**127 - 1), str(-(2**127)), str(2**127), "7" * 60]
# types that may have many values
MULTIPLE = ["cn", "cn;lang-en", "description", "note", "sn"]
# types that a name may have: without options
NAMING = ["cn", "cn", "cn", "description", "note", "sn", "uidnumber"]


# ---- a random configuration


def random_definitions(rng):
    """Lines that define some types, and the spellings of all types under them."""
    spellings, lines = {kind: list(known) for kind, known in BUILT_IN_SPELLINGS.items()}, []
    for kind in rng.sample(sorted(DEFINED), rng.randrange(1, len(DEFINED) + 1)):
        definition, more = DEFINED[kind]
        lines.append(random_line(rng, definition))
        spellings[kind] = [*spellings.get(kind, []), *more]
    return lines, spellings


def random_line(rng, definition):
    """The line of a definition, spelled and folded in one of many ways."""
    keyword = rng.choice(["attributetype", "AttributeType"])
    return f"{keyword} {definition}\n".replace(" ", rng.choice([" ", "\t", "\n ", "  "]))


def random_config(rng):
    """A slapd.conf that defines some types, and the spellings of all types under it."""
    definitions_of_types, spellings = random_definitions(rng)
    config = "database mdb\nsuffix dc=com\n"
    for line in definitions_of_types:
        config += rng.choice(["", "# a comment\n", 'open "quote\n', "include other.conf\n", "database monitor\n", "\n"]) + line
    return config, spellings


@contextlib.contextmanager
def under_types(config, spellings):
    """Goes by the types of a configuration, as they are spelled, and then by the built-in ones again."""
    set_types(spellings)
    try:
        with names.types_of(definitions.table_of(config.encode())):
            yield
    finally:
        set_types(BUILT_IN_SPELLINGS)


def set_types(spellings):
    TYPES.clear()
    TYPES.update(spellings)


# ---- random spellings


def other_value(rng, kind, value):
    """A value with the same key."""
    if names.rule_of(kind) in (Rule.OCTET, Rule.INTEGER):
        return value
    return rng.choice([value, value, value.upper(), value.lower(), f" {value}", value.replace(" ", "  ")])


def other_pair(rng, pair):
    kind = names.description_key(pair[0])
    return rng.choice(TYPES[kind]), other_value(rng, kind, pair[1])


def other_rdn(rng, rdn):
    """An RDN with the same key."""
    pairs = [other_pair(rng, pair) for pair in rdn]
    rng.shuffle(pairs)
    return pairs


def other_name(rng, name):
    return [other_rdn(rng, rdn) for rdn in name]


def escaped(rng, value):
    """A value as a name may have it: each sign by itself, by a backslash, or by two digits, where it may be so."""
    text = ""
    for at, char in enumerate(value):
        hexed = "".join(rng.choice([f"\\{byte:02x}", f"\\{byte:02X}"]) for byte in char.encode())
        if char in '"+,;<>\\' or at == 0 and char in " #" or at == len(value) - 1 and char == " ":
            text += rng.choice([f"\\{char}", hexed])
        else:
            text += hexed if rng.random() < 0.1 else char
    return text


def freely_printed(rng):
    """Prints names in the many ways that RFC 4514 knows."""

    def printed(name):
        return rng.choice([",", ", "]).join("+".join(f"{kind}={escaped(rng, value)}" for kind, value in rdn) for rdn in name)

    return printed


# ---- random entries and changes


def random_value(rng, kind):
    return rng.choice(NUMBERS if names.rule_of(kind) is Rule.INTEGER else TEXTS)


def random_rdn(rng):
    naming = [*NAMING, *(kind for kind in TYPES if kind not in BUILT_IN_SPELLINGS)]
    kinds = rng.sample(sorted(set(naming)), 2) if rng.random() < 0.3 else [rng.choice(naming)]
    return [(rng.choice(TYPES[kind]), random_value(rng, kind)) for kind in kinds]


def many_lines(rng):
    """Lines of an entry that is changed by one way or by another: about 64 values, in several attributes or in one, or about 16 in one, of about
    4,096 bytes together or of much less."""
    one = [rng.choice(MULTIPLE)]
    about, kinds = rng.choice([(16, one), (16, one), (61, MULTIPLE), (61, one)])
    count = about + rng.randrange(-3, 4)
    text = "x" * rng.choice([0, 0, rng.randrange(230, 290)])
    return [(rng.choice(TYPES[kinds[at % len(kinds)]]), f"{text}{at}") for at in range(count)]


def random_lines(rng, rdn):
    """The lines of an entry; with some of them an add is refused."""
    lines = []
    for kind in sorted(TYPES):
        if kind != "dc" and rng.random() < 0.4:
            count = 1 if names.is_single(kind) else rng.choice([1, 1, 2, 3])
            lines += [(rng.choice(TYPES[kind]), random_value(rng, kind)) for _ in range(count)]
    if rng.random() < 0.05:
        lines.append(("uidNumber", "007"))
    own = [other_pair(rng, pair) for pair in rdn if rng.random() < 0.4]
    many = many_lines(rng) if rng.random() < MANY else []
    return [pair for pair in lines + own if rng.random() < 0.95] + many


def random_increment(rng, entry):
    """An increment, most often of numbers that are there."""
    there = [kind for kind in (entry.attributes if entry else []) if names.rule_of(kind) is Rule.INTEGER]
    kind = rng.choice([*there * 8, *TYPES])
    given = [rng.choice([*AMOUNTS, "007", "a"]) for _ in range(rng.choice([1] * 12 + [0, 2]))]
    return "increment", rng.choice(TYPES[kind]), given


def random_mods(rng, entry):
    mods = [random_increment(rng, entry)] if rng.random() < 0.15 else []
    large = [kind for kind, (_, values) in (entry.attributes if entry else {}).items() if len(values) > 9]
    for _ in range(rng.choice([0, 1, 1, 1, 2, 2, 3])):
        kind = rng.choice([*TYPES, *(entry.attributes if entry else []), *large * 4])
        there = list(entry.attributes[kind][1].values()) if entry and kind in entry.attributes else []
        values = [other_value(rng, kind, value) for value in there] * 2 + [random_value(rng, kind) for _ in range(3)]
        if names.rule_of(kind) is Rule.INTEGER:
            values.append("007")
        given = [rng.choice(values) for _ in range(rng.choice([0, 1, 1, 1, 2, 3]))]
        mods.append((rng.choice(["add", "add", "delete", "delete", "replace"]), rng.choice(TYPES[kind]), given))
    return mods


def new_rdn(rng, entry):
    """An RDN for a rename: a new one; the own one, spelled otherwise or with one pair more; or one of values that are there."""
    there = [(kind, value) for kind, value in lines_of(entry.attributes) if ";" not in kind] if entry else []
    form = rng.choice(["new", "new", "own", "more", "there"]) if there else "new"
    if form == "own":
        return other_rdn(rng, entry.own)
    if form == "there":
        return [other_pair(rng, rng.choice(there))]
    rdn = random_rdn(rng)
    if form == "more":
        own = {names.description_key(kind): (kind, value) for kind, value in rdn + other_rdn(rng, entry.own)}
        return list(own.values())
    return rdn


def name_below(rdn, name):
    """The name with this RDN below another, if it is not too long; else the other."""
    return [rdn, *name] if len(name) < MOST_RDNS else name


def name_in(rng, directory, keys):
    """The name of one of these entries; now and then one that no entry has."""
    name = other_name(rng, directory.name(rng.choice(keys)))
    return name_below(random_rdn(rng), name) if rng.random() < 0.05 else name


def random_change(rng, directory):
    keys = list(directory.entries)
    name = name_in(rng, directory, keys)
    entry = directory.entries.get(names.name_key(name))
    op = rng.choice(["add", "add", "delete", "modify", "modify", "rename", "rename", "rename"])
    if op == "add":
        rdn = random_rdn(rng)
        below = name_below(rdn, name)
        place = rng.choice([below, below, below, name, [rdn]])
        return Add(place, random_lines(rng, place[0]))
    if op == "delete":
        return Delete(name)
    if op == "modify":
        return Modify(name, random_mods(rng, entry))
    superior = None
    if rng.random() < 0.6:
        superior = name[1:] if len(name) > 1 and rng.random() < 0.1 else name_in(rng, directory, keys)
    return Rename(name, new_rdn(rng, entry), rng.random() < 0.6, superior)


def put(rng, directory, parent):
    """Puts an entry below this one, and returns its key."""
    while True:
        rdn = random_rdn(rng)
        key = (*parent, names.rdn_key(rdn))
        try:
            directory.add(key, Add([rdn, *directory.name(parent)], random_lines(rng, rdn)))
            return key
        except Refused:
            continue


def random_directory(rng, depth, entries=ENTRIES):
    """A directory of entries below each other, some of them in two chains of this depth."""
    suffix = names.name_key([SUFFIX])
    directory = Directory(suffix)
    directory.entries[suffix] = Entry(SUFFIX, {"dc": ("dc", {"com": "com"})})
    for _ in range(2):
        parent = suffix
        for _ in range(depth):
            parent = put(rng, directory, parent)
    for _ in range(entries):
        put(rng, directory, rng.choice([key for key in directory.entries if len(key) < MOST_RDNS]))
    return directory


# ---- a run of changes


class Planned:
    """The changes of a run, as the model makes them: their text, the report on them, the groups that take the accepted ones back, and the directory
    before each of these."""

    def __init__(self):
        self.text, self.report, self.groups, self.before, self.refused = "", "", [], [], []

    def make(self, directory, change, printed):
        number = self.text.count("\n") + 1
        self.text += change.text(printed)
        before = directory.copy()
        try:
            self.groups.append(directory.apply(change))
            self.before.append(before)
        except Refused as refused:
            self.refused.append(refused.code)
            self.report += f"line {number}: refused, {CODES[refused.code]}\n"

    def answer(self):
        status = 1 if self.refused else 0
        return status, f"{self.report}accepted {len(self.groups)}, refused {len(self.refused)}\n"

    def undo(self):
        """The undo file of the run."""
        return undone(*("".join(change.text(names.printed_name) for change in group) for group in reversed(self.groups)))

    def back(self, directory, last):
        """The run that takes the last accepted records back, so many, as the model makes it."""
        wanted = (self.before[-last] if last else directory).text()
        back = Planned()
        for group in list(reversed(self.groups))[:last]:
            for change in group:
                back.make(directory, change, names.printed_name)
        expect(back.refused, [], "refused by the model on the way back")
        same(directory.text(), wanted, "the model's copy before")
        return back
