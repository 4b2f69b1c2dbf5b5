"""Who may do what by a slapd.conf: what `slapkit slapacl` must answer, by slapd.access(5), slapd.conf(5), RFC 4511 and RFC 4515.

The rules are read from whole lines here and asked one after the other.
"""
import dataclasses
import enum
import itertools
import re
import unicodedata

from model import answers, definitions, names
from model.answers import Fault
from model.names import NameFault, NoKey, Rule, as_bytes, as_text, description_key

BAD_DIRECTIVE, UNSUPPORTED, BAD_FILTER, BAD_NAME = "C1 BadDirective", "C2 Unsupported", "C3 BadFilter", "C4 Name"
SECOND_DATABASE, SECOND_SUFFIX, GLOBAL_ACCESS = "C5 SecondDatabase", "C6 SecondSuffix", "C7 GlobalAccess"
FILTER_TOO_DEEP, NO_SUFFIX, CONFIG_TOO_LONG = "C8 FilterTooDeep", "C10 NoSuffix", "C11 ConfigTooLong"
MOST_BYTES_OF_A_CONFIGURATION = 16_777_216
MOST_LEVELS = 64

LEVELS = {"none": "", "disclose": "d", "auth": "xd", "compare": "cxd", "search": "scxd", "read": "rscxd"}
LEVELS |= {"add": "arscxd", "delete": "zrscxd", "write": "azrscxd", "manage": "mazrscxd"}
OWN = {"none": "", "disclose": "d", "auth": "x", "compare": "c", "search": "s", "read": "r", "add": "a", "delete": "z", "write": "az", "manage": "m"}
ALL = "mazrscxd"


class Refused(Exception):
    """A line of a configuration, or a filter, is refused, and why."""


# ---- filters: functions from an entry's attributes to true, false or None, which is Undefined


def covers(kind, other):
    """Whether a description's attribute is meant by another one too: of the same type, with its options at least."""
    (first, *options), (second, *others) = kind.split(";"), other.split(";")
    return first == second and set(options) <= set(others)


def covered(kind, attributes):
    """The sets of values, by their keys, that an entry has under the descriptions that one covers."""
    return [values for other, (_, values) in attributes.items() if covers(kind, other)]


def has_value(kind, attributes, key):
    return any(key in values for values in covered(kind, attributes))


def equality(kind, value):
    try:
        key = names.value_key(kind, value)
    except NoKey:
        return lambda _: None
    return lambda attributes: has_value(kind, attributes, key)


def comparison(kind, value, is_least):
    try:
        wanted = int(names.value_key(kind, value)) if names.rule_of(kind) is Rule.INTEGER else None
    except NoKey:
        wanted = None
    if wanted is None:
        return lambda _: None
    fits = (lambda key: int(key) >= wanted) if is_least else (lambda key: int(key) <= wanted)
    return lambda attributes: any(fits(key) for values in covered(kind, attributes) for key in values)


def folded_piece(rule, piece, is_first, is_last):
    if rule in (Rule.IA5_CASE_IGNORE, Rule.IA5_CASE_EXACT):
        piece = names.ia5(piece)
        piece = piece.lower() if rule is Rule.IA5_CASE_IGNORE else piece
    else:
        piece = names.folded(piece)
    if rule is Rule.TELEPHONE:
        return piece.replace(" ", "").replace("-", "")
    piece = re.sub(" +", " ", piece)
    piece = piece.lstrip(" ") if is_first else piece
    return piece.rstrip(" ") if is_last else piece


def substrings(kind, pieces):
    rule = names.rule_of(kind)
    if rule not in (Rule.CASE_IGNORE, Rule.TELEPHONE, Rule.IA5_CASE_IGNORE, Rule.IA5_CASE_EXACT):
        return lambda _: None
    last = len(pieces) - 1
    try:
        folded = [folded_piece(rule, piece, at == 0, at == last) for at, piece in enumerate(pieces) if piece]
    except NoKey:
        return lambda _: None
    # where the first or the last piece is empty, any text may stand there
    parts = [*([] if pieces[0] else [""]), *map(re.escape, folded), *([] if pieces[-1] else [""])]
    fits = re.compile(".*".join(parts), re.S).fullmatch
    return lambda attributes: any(fits(key) for values in covered(kind, attributes) for key in values)


def conjunction(filters):
    def truth(attributes):
        found = [one(attributes) for one in filters]
        return False if False in found else None if None in found else True

    return truth


def disjunction(filters):
    def truth(attributes):
        found = [one(attributes) for one in filters]
        return True if True in found else None if None in found else False

    return truth


def negation(filters):
    def truth(attributes):
        found = filters[0](attributes)
        return None if found is None else not found

    return truth


TEST = re.compile(rb"([A-Za-z0-9.;-]*)(=|~=|>=|<=)([^()\0]*)")
PIECE = re.compile(rb"(?:[^\\]|\\[0-9A-Fa-f]{2})*")


class FilterReader:
    """Reads a filter from left to right, and keeps of each test its description and whether it asks for more than presence."""

    def __init__(self, text):
        self.text, self.at = text if text.startswith(b"(") else b"(" + text + b")", 0
        self.tests = []

    def whole(self):
        found = self.filter(1)
        if self.at != len(self.text):
            raise Refused(BAD_FILTER)
        return found

    def next_is(self, sign):
        return self.text[self.at : self.at + 1] == sign

    def take(self, sign):
        if not self.next_is(sign):
            raise Refused(BAD_FILTER)
        self.at += 1

    def filter(self, level):
        self.take(b"(")
        if level > MOST_LEVELS:
            raise Refused(FILTER_TOO_DEEP)
        found = self.filters(level) if self.text[self.at : self.at + 1] in (b"&", b"|", b"!") else self.test()
        self.take(b")")
        return found

    def filters(self, level):
        sign = self.text[self.at : self.at + 1]
        self.at += 1
        found = []
        while self.next_is(b"(") and (sign != b"!" or not found):
            found.append(self.filter(level + 1))
        if sign == b"!" and not found:
            raise Refused(BAD_FILTER)
        return {b"&": conjunction, b"|": disjunction, b"!": negation}[sign](found)

    def test(self):
        found = TEST.match(self.text, self.at)
        if not found:
            raise Refused(BAD_FILTER)
        self.at = found.end()
        try:
            kind = description_key(as_text(found[1]))
        except NameFault:
            raise Refused(BAD_FILTER) from None
        self.tests.append((as_text(found[1]), found[3] != b"*"))
        pieces = [unescaped(piece) for piece in found[3].split(b"*")]
        if len(pieces) == 1:
            value = pieces[0]
            return equality(kind, value) if found[2] in (b"=", b"~=") else comparison(kind, value, found[2] == b">=")
        if found[2] != b"=":
            raise Refused(BAD_FILTER)
        if not any(pieces):
            return lambda attributes: bool(covered(kind, attributes))
        return substrings(kind, pieces)


def unescaped(piece):
    if not PIECE.fullmatch(piece):
        raise Refused(BAD_FILTER)
    return as_text(re.sub(rb"\\(..)", lambda pair: bytes([int(pair[1], 16)]), piece))


# ---- the lines of a configuration


class ConfigFault(Fault):
    """A fault of a configuration, and what is told with -v of the argument that it is about."""

    def __init__(self, text, told=""):
        super().__init__(text)
        self.told = told


def folded_lines(data):
    """The number and the physical lines of each line, without comments and lines of white space alone."""
    folded = []
    for number, line in enumerate(data.removesuffix(b"\n").split(b"\n") if data else [], 1):
        line = line.removesuffix(b"\r")
        if line[:1] in (b" ", b"\t") and folded:
            folded[-1][1].append(line)
        else:
            folded.append((number, [line]))
    return [(number, parts) for number, parts in folded if not parts[0].startswith(b"#") and b"".join(parts).strip(b" \t")]


def directives(data):
    """The number and the physical lines of each line that defines no attribute type."""
    return [(number, parts) for number, parts in folded_lines(data) if definitions.definition_in(as_text(b"".join(parts))) is None]


def logical_lines(data):
    """The number and the text of each of these lines, unfolded."""
    return [(number, b"".join(parts)) for number, parts in directives(data)]


def placed_arguments(line):
    """Yields where each argument of a line begins, and the argument, which is None if it is open at the line's end."""
    at = 0
    while True:
        while line[at : at + 1] in (b" ", b"\t"):
            at += 1
        if at == len(line):
            return
        word, is_quoted, begin = bytearray(), False, at
        while at < len(line) and (is_quoted or line[at] not in b" \t"):
            if line[at] == 0x22:
                is_quoted = not is_quoted
            else:
                at += line[at] == 0x5C
                if at == len(line):
                    yield begin, None
                    return
                word.append(line[at])
            at += 1
        yield begin, None if is_quoted else as_text(bytes(word))


class Arguments:
    """The arguments of a line, and how many were asked for. One that is open at the line's end is a fault, once it is asked for."""

    def __init__(self, line):
        self.words, self.read = placed_arguments(line), 0

    def __iter__(self):
        return self

    def __next__(self):
        _, word = next(self.words)
        self.read += 1
        if word is None:
            raise Refused(BAD_DIRECTIVE)
        return word


def place_of_fault(words, cause, read):
    """Which of a line's arguments a fault is about, where so many were read."""
    if cause == BAD_DIRECTIVE and words[-1] is None:
        return len(words) - 1
    if words[0].lower() == "access":
        return 0 if cause == GLOBAL_ACCESS else read - 1
    return {BAD_DIRECTIVE: 0, SECOND_SUFFIX: min(2, len(words) - 1)}.get(cause, 1)


def told_of_argument(number, parts, cause, read):
    """The line that tells the argument which a fault is about, and on which of these physical lines it begins."""
    placed = list(placed_arguments(b"".join(parts)))
    begin, word = placed[place_of_fault([word for _, word in placed], cause, read)]
    before = itertools.accumulate(map(len, parts))
    line = number + sum(end <= begin for end in before)
    argument = "an open quote or a final backslash" if word is None else f'"{shown_text(word)}"'
    return f"slapkit: note: line {line}: {argument}\n"


@dataclasses.dataclass
class Clause:
    who: list
    edit: tuple
    control: str


@dataclasses.dataclass
class Directive:
    what: list
    clauses: list


@dataclasses.dataclass
class Config:
    suffix: tuple | None = None
    rootdn: tuple | None = None
    has_rootdn: bool = False
    has_database: bool = False
    is_passed_over: bool = False
    directives: list = dataclasses.field(default_factory=list)

    def read_line(self, words):
        keyword = next(words).lower()
        if keyword == "database":
            self.read_database(words)
        elif not self.is_passed_over and keyword in ("suffix", "rootdn", "access"):
            {"suffix": self.read_suffix, "rootdn": self.read_rootdn, "access": self.read_access}[keyword](words)
        for _ in words:
            pass

    def read_database(self, words):
        name = argument(words).lower()
        self.is_passed_over = name in ("config", "monitor")
        if not self.is_passed_over and self.has_database:
            raise Refused(SECOND_DATABASE)
        self.has_database |= not self.is_passed_over

    def read_suffix(self, words):
        if not self.has_database:
            raise Refused(BAD_DIRECTIVE)
        if self.suffix is not None:
            raise Refused(SECOND_SUFFIX)
        self.suffix = legal_name(argument(words))
        if not self.suffix:
            raise Refused(BAD_NAME)
        if next(words, None) is not None:
            raise Refused(SECOND_SUFFIX)

    def read_rootdn(self, words):
        if not self.has_database or self.has_rootdn:
            raise Refused(BAD_DIRECTIVE)
        self.rootdn, self.has_rootdn = legal_name(argument(words)) or None, True
        if next(words, None) is not None:
            raise Refused(BAD_DIRECTIVE)

    def read_access(self, words):
        if not self.has_database:
            raise Refused(GLOBAL_ACCESS)
        self.directives.append(directive_of(words))


def argument(words):
    word = next(words, None)
    if word is None:
        raise Refused(BAD_DIRECTIVE)
    return word


def legal_name(text):
    try:
        return names.checked_name_key(names.read_name(as_bytes(text)))
    except NameFault:
        raise Refused(BAD_NAME) from None


def legal_description(text):
    try:
        return description_key(text)
    except NameFault:
        raise Refused(BAD_NAME) from None


def read_config(data):
    """The configuration of a text, or its first fault, which is told with its line."""
    if len(data) > MOST_BYTES_OF_A_CONFIGURATION:
        raise ConfigFault(f"config, line 0: {CONFIG_TOO_LONG}")
    config = Config()
    for number, parts in directives(data):
        words = Arguments(b"".join(parts))
        try:
            config.read_line(words)
        except Refused as refused:
            raise ConfigFault(f"config, line {number}: {refused}", told_of_argument(number, parts, str(refused), words.read)) from None
    if config.suffix is None:
        raise ConfigFault(f"config, line 0: {NO_SUFFIX}")
    return config


# ---- notes: what a configuration that can be read and the words of a question say, and slapkit passes over or may take otherwise than slapd does


CLASSES = "objectClass: only the classes that an entry lists are looked at"
HALF_OF_WRITE = "for -a or -z slapd takes all of w away"
OTHER_DATABASE = "access rule of database config or monitor is passed over"
NO_RULE = "slapkit: note: config: no access rule, so everybody may read\n"
HAS_NOTES = "not answered, because there are notes"


def shown_text(text):
    """A text of the configuration on a terminal: control characters are escaped."""
    if any("\udc80" <= char <= "\udcff" for char in text):
        return "(not UTF-8)"
    return "".join(f"\\x{ord(char):02x}" if unicodedata.category(char) == "Cc" else char for char in text)


def type_of(spelling):
    """The type of a description, which its options follow."""
    return spelling.split(";")[0]


def unknown_type(spelling):
    """The note on a description, unless its type is known."""
    return [] if names.is_known(type_of(spelling)) else [f'unknown attribute "{spelling}"']


def supertypes_of(data):
    """The keys of the types from which definitions of the configuration derive others, and of the two above built-in types."""
    texts = [definitions.definition_in(line) for _, line in definitions.lines_of(data)]
    above = [definitions.Definition(text).sup for text in texts if text is not None]
    return {names.type_key(type_of(spelling)) for spelling in ("name", "distinguishedName", *above) if spelling is not None}


def notes_on_type(spelling, supertypes):
    """The note on a description in a rule, unless its type is a known one from which no other is derived."""
    has_others = names.type_key(type_of(spelling)) in supertypes
    return unknown_type(spelling) or [f'types derived from "{spelling}" are not looked at'] * has_others


def notes_on_test(spelling, is_for_more, supertypes):
    """The notes on a test of a filter, which may ask for more than presence."""
    asks_for_class = is_for_more and spelling.lower() in ("objectclass", "2.5.4.0")
    return [*notes_on_type(spelling, supertypes), *([CLASSES] if asks_for_class else [])]


def notes_on_what(word, supertypes):
    form, _, value = word.partition("=")
    if form.lower() == "attrs":
        return [note for text in value.split(",") if text.lower() not in ("entry", "children") for note in notes_on_type(text, supertypes)]
    if form.lower() == "filter":
        reader = FilterReader(as_bytes(value))
        reader.whole()
        return [note for test in reader.tests for note in notes_on_test(*test, supertypes)]
    return []


def takes_half_of_write(word):
    """Whether an access takes `a` or `z` away, and not both, as `w` does."""
    sign, letters = word[:1], set(word[1:].lower())
    return sign == "-" and "w" not in letters and len(letters & {"a", "z"}) == 1


def notes_on_clause(word, supertypes):
    """The notes on a word of a clause: one that names who asks, or an access."""
    if takes_half_of_write(word):
        return [HALF_OF_WRITE]
    form, _, value = word.partition("=")
    return notes_on_type(value, supertypes) if form.lower() == "dnattr" else []


def notes_on_line(keyword, words, supertypes):
    """The notes on a line that is in no part which is passed over."""
    if keyword == "include":
        return [f'include "{shown_text(words[0] if words else "")}" is not read']
    if keyword == "access":
        whats = list(itertools.takewhile(lambda word: word.lower() != "by", words[1:]))
        clauses = words[1 + len(whats) :]
        return [note for word in whats for note in notes_on_what(word, supertypes)] + [note for word in clauses for note in notes_on_clause(word, supertypes)]
    return []


def notes_of(data):
    """What is told of a configuration that can be read: a line for each note."""
    told, has_rule, is_passed_over = "", False, False
    supertypes = supertypes_of(data)
    for number, line in logical_lines(data):
        keyword, *words = Arguments(line)
        keyword = keyword.lower()
        if is_passed_over:
            notes = [OTHER_DATABASE] if keyword == "access" else []
        else:
            notes = notes_on_line(keyword, words, supertypes)
            has_rule |= keyword == "access"
        if keyword == "database":
            is_passed_over = words[0].lower() in ("config", "monitor")
        told += "".join(f"slapkit: note: config, line {number}: {note}\n" for note in notes)
    return told if has_rule else told + NO_RULE


def note_on_word(word):
    """What is told of a word of a question: a line, if it asks for an attribute of an unknown type. A text that is no word has its fault alone."""
    try:
        asked, text, _ = word_asked(1, word)
    except Fault:
        return ""
    notes = [] if isinstance(asked, Asked) else unknown_type(text)
    return "".join(f'slapkit: note: word "{shown_text(word)}": {note}\n' for note in notes)


def notes_on_words(words):
    """What is told of the words of a question, in their order."""
    return "".join(note_on_word(word) for word in words)


# ---- rules


class Asked(enum.Enum):
    ENTRY = "entry"
    CHILDREN = "children"


@dataclasses.dataclass
class Request:
    """Who asks for what of which entry. The attributes are none where the entry is not looked up."""

    requester: tuple | None
    target: tuple
    attributes: dict
    asked: str | Asked
    directory: answers.Directory


IN_STYLE = {
    "base": lambda key, name: key == name,
    "one": lambda key, name: key[:-1] == name and key != (),
    "subtree": lambda key, name: key[: len(name)] == name,
    "children": lambda key, name: key[: len(name)] == name and key != name,
}
STYLES = {"": "base", ".base": "base", ".baseobject": "base", ".exact": "base", ".one": "one", ".onelevel": "one"}
STYLES |= {".sub": "subtree", ".subtree": "subtree", ".children": "children"}


def style_test(form, value):
    """What a form such as `dn.children` with a name asks of a key."""
    if form[2:] not in STYLES:
        raise Refused(UNSUPPORTED)
    name, fits = legal_name(value), IN_STYLE[STYLES[form[2:]]]
    return lambda key: fits(key, name)


def asked_of(text):
    return Asked(text.lower()) if text.lower() in ("entry", "children") else legal_description(text)


def list_test(value):
    listed = [asked_of(text) for text in value.split(",")]

    def fits(request):
        if isinstance(request.asked, Asked):
            return request.asked in listed
        return any(not isinstance(one, Asked) and covers(one, request.asked) for one in listed)

    return fits


def form_of(name):
    """The form of a what, by its name."""
    if name in ("filter", "attrs"):
        return name
    if name[:2] == "dn" and name[2:] in STYLES:
        return "dn"
    raise Refused(UNSUPPORTED)


def what_of(word, seen):
    """The form of a what, and what it asks of a request. A form that was seen is a fault before its value is read."""
    if word == "*":
        return "*", lambda _: True
    name, equals, value = word.partition("=")
    name = name.lower()
    if not equals:
        raise Refused(UNSUPPORTED)
    form = form_of(name)
    if form in seen:
        raise Refused(BAD_DIRECTIVE)
    if form == "dn":
        test = style_test(name, value)
        return form, lambda request: test(request.target)
    if form == "filter":
        truth = FilterReader(as_bytes(value)).whole()
        return form, lambda request: truth(request.attributes) is True
    return form, list_test(value)


def name_rule(text):
    kind = legal_description(text)
    if names.rule_of(kind) is not Rule.NAME:
        raise Refused(UNSUPPORTED)
    return kind


def group_of(form, value):
    kinds = form.removesuffix(".exact").split("/")
    if len(kinds) > 3:
        raise Refused(UNSUPPORTED)
    of_class = (kinds[1] if len(kinds) > 1 else "groupOfNames").lower()
    if not names.is_type(of_class):
        raise Refused(BAD_NAME)
    kind = name_rule(kinds[2]) if len(kinds) > 2 else "member"
    name = legal_name(value)

    def holds(request):
        group = request.directory.entries.get(name)
        if group is None or request.requester is None:
            return False
        _, classes = group.attributes.get("objectclass", ("", {}))
        return of_class in classes and has_value(kind, group.attributes, request.requester)

    return holds


WHO_WORDS = {
    "*": lambda _: True,
    "anonymous": lambda request: request.requester is None,
    "users": lambda request: request.requester is not None,
    "self": lambda request: request.requester == request.target,
}


def who_of(word):
    """What a who asks of a request; none where the word is no who."""
    if word.lower() in WHO_WORDS:
        return WHO_WORDS[word.lower()]
    form, equals, value = word.partition("=")
    kept, form = form, form.lower()
    if not equals:
        return None
    if form == "dn" or form.startswith("dn."):
        test = style_test(form, value)
        return lambda request: request.requester is not None and test(request.requester)
    if form == "dnattr":
        kind = name_rule(value)
        return lambda request: request.requester is not None and has_value(kind, request.attributes, request.requester)
    if form in ("group", "group.exact") or form.startswith("group/"):
        return group_of(kept if not form.endswith(".exact") else kept[: -len(".exact")], value)
    return None


def edit_of(word):
    """The sign and the privileges of an access; none where the word is no access."""
    word = word.lower()
    if word in LEVELS:
        return "=", LEVELS[word]
    found = re.fullmatch("([=+-])(0|[mwazrscxd]+)", word)
    return (found[1], found[2].replace("w", "az").replace("0", "")) if found else None


CONTROLS = ("stop", "continue", "break")


def directive_of(words):
    if argument(words).lower() != "to":
        raise Refused(BAD_DIRECTIVE)
    what, word = {}, argument(words)
    if word.lower() == "by":
        raise Refused(UNSUPPORTED)
    while word.lower() != "by":
        form, test = what_of(word, what)
        what[form] = test
        word = argument(words)
    clauses = []
    while word is not None:
        clause, word = clause_of(words)
        clauses.append(clause)
    return Directive(list(what.values()), clauses)


def clause_of(words):
    """A clause after its `by`, and the word after it, which is the next `by`, or none."""
    first = who_of(argument(words))
    if first is None:
        raise Refused(UNSUPPORTED)
    clause, word = Clause([first], ("+", ""), "stop"), next(words, None)
    while word is not None and (who := who_of(word)) is not None:
        clause.who.append(who)
        word = next(words, None)
    if word is not None and (edit := edit_of(word)) is not None:
        clause.edit, word = edit, next(words, None)
    if word is not None and word.lower() in CONTROLS:
        clause.control, word = word.lower(), next(words, None)
    if word is not None and word.lower() != "by":
        raise Refused(UNSUPPORTED)
    return clause, word


def edited(privileges, edit):
    sign, letters = edit
    if sign == "=":
        return set(letters)
    return privileges | set(letters) if sign == "+" else privileges - set(letters)


def privileges_of(config, request):
    """The privileges that a requester has, by the rules in their order. Where clauses or rules run out, nothing is granted."""
    if request.requester is not None and request.requester == config.rootdn:
        return set(ALL)
    if not config.directives:
        return set(LEVELS["read"])
    privileges = set()
    for directive in config.directives:
        if not all(test(request) for test in directive.what):
            continue
        control = "continue"
        for clause in directive.clauses:
            if control == "continue" and all(test(request) for test in clause.who):
                privileges, control = edited(privileges, clause.edit), clause.control
        if control == "continue":
            return set()
        if control == "stop":
            return privileges
    return set()


def shown(privileges):
    letters = "w" if {"a", "z"} <= privileges else "".join(letter for letter in "az" if letter in privileges)
    text = ("m" if "m" in privileges else "") + letters + "".join(letter for letter in "rscxd" if letter in privileges)
    return f"={text or 0}"


# ---- a question


@dataclasses.dataclass
class Question:
    base: str
    requester: str | None = None
    words: tuple = ()
    is_fake: bool = False
    is_verbose: bool = False
    is_strict: bool = False

    def options(self):
        flags = [*(["-u"] if self.is_fake else []), *(["-v"] if self.is_verbose else []), *(["--strict"] if self.is_strict else [])]
        return ["-b", self.base, *([] if self.requester is None else ["-D", self.requester]), *flags, "--", *self.words]


def name_asked(text, what):
    try:
        name = names.read_name(as_bytes(text))
        return name, names.checked_name_key(name)
    except NameFault:
        raise Fault(f"bad question: {what}") from None


def word_asked(number, word):
    text, slash, level = word.partition(":")[0].partition("/")
    try:
        asked = asked_of(text)
    except Refused:
        raise Fault(f"bad question: word {number}") from None
    if slash and level.lower() not in LEVELS:
        raise Fault(f"bad question: word {number}")
    return asked, text, level if slash else None


def told(config, request, text, level):
    held = privileges_of(config, request)
    if level is None:
        return f"{text}: {shown(held)}\n"
    return f"{text}/{level}: {'ALLOWED' if set(OWN[level.lower()]) <= held else 'DENIED'}\n"


def report_of(config, copy, question):
    _, target = name_asked(question.base, "base")
    name, requester = name_asked(question.requester or "", "authcDN")
    words = [word_asked(number, word) for number, word in enumerate(question.words or ("entry",), 1)]
    directory = answers.directory_of(config.suffix, copy)
    entry = directory.entries.get(target)
    if target[: len(config.suffix)] != config.suffix or entry is None and not question.is_fake:
        raise Fault("no such entry")
    attributes = {} if question.is_fake else entry.attributes
    report = f"authcDN: {names.printed_name(name) or 'anonymous'}\n" if question.is_verbose else ""
    for asked, text, level in words:
        report += told(config, Request(requester or None, target, attributes, asked, directory), text, level)
    return report


def access_answer(data, copy, question):
    """The exit status, and what goes to standard output and to standard error: under the types that the configuration defines."""
    try:
        table = definitions.table_of(data)
    except definitions.ConfigFault as fault:
        return 1, "", f"slapkit: {fault}\n"
    with names.types_of(table):
        return answer_under_types(data, copy, question)


def answer_under_types(data, copy, question):
    notes = ""
    try:
        config = read_config(data)
        notes = notes_of(data) + notes_on_words(question.words)
        if question.is_strict and notes:
            raise Fault(HAS_NOTES)
        return 0, report_of(config, copy, question), notes
    except ConfigFault as fault:
        return 1, "", f"slapkit: {fault}\n{fault.told if question.is_verbose else ''}"
    except Fault as fault:
        return 1, "", f"{notes}slapkit: {fault}\n"
