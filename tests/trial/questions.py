#!/usr/bin/env python3
"""Asks slapkit what rules grant, and what it tells of a slapd.conf: the notes on it, its faults with their lines and arguments, its attribute types.

usage: questions.py PROGRAM

The rows say what slapd.access(5), slapd.conf(5), RFC 4515 and docs/CODES.md want of each text. The copy has `dc=com`, below it `cn=t`, whose manager
is `cn=m`, the group `cn=g` with the member `cn=k`, and `cn=Foo Bar`, on which filters are tried.
"""
import dataclasses
import pathlib
import sys

sys.path.insert(0, str(pathlib.Path(__file__).resolve().parents[1]))

from harness import checks
from harness.checks import expect
from harness.runs import Place

COPY = (
    "dn: dc=com\ndc: com\n\n"
    "dn: cn=t,dc=com\ncn: t\nmanager: cn=m,dc=com\nsn: s\n\n"
    "dn: cn=g,dc=com\ncn: g\nobjectClass: groupOfNames\nmember: cn=k,dc=com\n\n"
    "dn: cn=Foo Bar,dc=com\ncn: Foo Bar\nuidNumber: 10\nsn;lang-de: Kim\n\n"
)
HEAD = "database mdb\nsuffix dc=com\n"
READ_BY_ALL = "access to * by * read\n"
CLASSES = "objectClass: only the classes that an entry lists are looked at"
HALF_OF_WRITE = "for -a or -z slapd takes all of w away"
PASSED_OVER = "access rule of database config or monitor is passed over"
NO_RULE = "config: no access rule, so everybody may read"
HAS_NOTES = "not answered, because there are notes"
AN_OPEN_ARGUMENT = "an open quote or a final backslash"
USER, NOBODY = "cn=u,dc=com", ""


def unknown(description):
    return f'unknown attribute "{description}"'


def derived(description):
    return f'types derived from "{description}" are not looked at'


def not_read(file):
    return f'include "{file}" is not read'


def on_line(line, note):
    return f"config, line {line}: {note}"


def on_word(word, description):
    return f'word "{word}": {unknown(description)}'


def said(notes=(), *others):
    """What goes to standard error."""
    return "".join(f"slapkit: note: {note}\n" for note in notes) + "".join(f"slapkit: {other}\n" for other in others)


def asked(place, conf, *words, base="dc=com", options=()):
    """The answer to these words under a configuration."""
    place.write("conf", conf.encode())
    return place.run("slapacl", "-b", base, "-f", "conf", "--data", "copy", *options, "--", *words)


# ---- what rules grant

CONTINUE = f"{HEAD}access to *\n  by * =cs continue\n  by users +r\n"
BREAK = f"{HEAD}access to * by * read break\n"
PHONES = f'{HEAD}access to attrs=telephoneNumber\n  by self write\n  by dnattr=manager read\n  by group="cn=g,dc=com" search\n'
ROOT = f"{HEAD}rootdn cn=u,dc=com\naccess to * by * none\n"
NOBODY_IS_ROOT = f'{HEAD}rootdn ""\naccess to * by * none\n'
CHILDREN = f"{HEAD}access to dn.children=dc=com filter=(sn=S) attrs=sn,entry by dn.one=dc=com +r stop by * none\n"
ONE_ENTRY = f"{HEAD}access to dn=dc=com by * read\naccess to * by * search\n"
OTHER_PARTS = "include a\ndatabase config\nrootdn BAD\ndatabase mdb\nsuffix dc=com\ndatabase monitor\naccess to nothing\nsuffix BAD\n"
FOLDED = '# one\n  two "\r\n\r\nDATABASE mdb\r\nsuffix\r\n\t"dc"=c\\om\r\n \n# three\n\n'
# lists of attributes before and after what says of the target whether a rule is for it, which is so or isn't
LISTS = (
    f"{HEAD}access to attrs=sn filter=(sn=S) by * +r break\n"
    "access to attrs=sn filter=(sn=none) by * =m\n"
    "access to filter=(sn=S) attrs=sn by * +s break\n"
    "access to filter=(sn=none) attrs=sn by * =m\n"
    "access to dn.one=dc=com attrs=sn,entry filter=(sn=S) by * +c break\n"
    "access to attrs=sn dn.children=cn=t,dc=com by * =m\n"
    "access to * by * +d\n"
)


@dataclasses.dataclass
class Grant:
    """The privileges that a requester has under a configuration on what is asked of an entry."""

    shows: str
    conf: str
    requester: str
    target: str
    asked: str
    answer: str
    notes: tuple = ()
    # the entry is made up, and has no attributes
    is_fake: bool = False


def example(shows, rule, answer, requester=NOBODY, target="dc=com", asked="entry", **more):
    """A rule of the manual's examples, or one like it."""
    return Grant(f"an example of the manual is read: {shows}", f"{HEAD}access {rule}\n", requester, target, asked, answer, **more)


GRANTS = [
    Grant("`continue` goes on with the later clauses", CONTINUE, USER, "dc=com", "entry", "=rsc"),
    Grant("clauses that run out after `continue` grant nothing", CONTINUE, NOBODY, "dc=com", "entry", "=0"),
    Grant("rules that run out after `break` grant nothing", BREAK, USER, "dc=com", "entry", "=0"),
    Grant("without rules all may read", HEAD, NOBODY, "dc=com", "entry", "=rscxd", (NO_RULE,)),
    Grant("the rootdn has each privilege", ROOT, "CN=U,dc=com", "dc=com", "entry", "=mwrscxd"),
    Grant("and nobody else", ROOT, "cn=v,dc=com", "dc=com", "entry", "=0"),
    Grant("the rootdn without RDNs is nobody's", NOBODY_IS_ROOT, NOBODY, "dc=com", "entry", "=0"),
    Grant("`self`", PHONES, "CN=T,DC=Com", "cn=t,dc=com", "telephoneNumber", "=wrscxd"),
    Grant("`dnattr`", PHONES, "cn=m,dc=com", "cn=t,dc=com", "telephoneNumber", "=rscxd"),
    Grant("a group", PHONES, "cn=k,dc=com", "cn=t,dc=com", "telephoneNumber", "=scxd"),
    Grant("nobody is none of these", PHONES, NOBODY, "cn=t,dc=com", "telephoneNumber", "=0"),
    Grant("a rule is for its attributes alone", PHONES, "cn=t,dc=com", "cn=t,dc=com", "sn", "=0"),
    Grant("styles, a filter and a list of attributes", CHILDREN, USER, "cn=t,dc=com", "sn", "=r"),
    Grant("the entry in a list of attributes", CHILDREN, USER, "cn=t,dc=com", "entry", "=r"),
    Grant("`dn.one` is one level", CHILDREN, "cn=a,cn=u,dc=com", "cn=t,dc=com", "sn", "=0"),
    Grant("`dn.children` leaves the entry out", CHILDREN, USER, "dc=com", "entry", "=0"),
    Grant("an attribute that is not in the list", CHILDREN, USER, "cn=t,dc=com", "manager", "=0"),
    Grant("a name without a style is one entry", ONE_ENTRY, NOBODY, "dc=com", "entry", "=rscxd"),
    Grant("and no other one", ONE_ENTRY, NOBODY, "cn=t,dc=com", "entry", "=scxd"),
    Grant("an attribute that is in each list", LISTS, NOBODY, "cn=t,dc=com", "sn", "=rscd"),
    Grant("the entry, which is in one", LISTS, NOBODY, "cn=t,dc=com", "entry", "=cd"),
    Grant("an attribute that is in none", LISTS, NOBODY, "cn=t,dc=com", "cn", "=d"),
    Grant("lists of rules that are not for the target", LISTS, NOBODY, "dc=com", "sn", "=d"),
    Grant("lists and an entry that is made up", LISTS, NOBODY, "cn=x,dc=com", "sn", "=d", is_fake=True),
    Grant(
        "the parts of other databases are passed over",
        OTHER_PARTS,
        NOBODY,
        "dc=com",
        "entry",
        "=rscxd",
        (on_line(1, not_read("a")), on_line(7, PASSED_OVER), NO_RULE),
    ),
    Grant("folded lines, comments and quotes", FOLDED, NOBODY, "dc=com", "entry", "=rscxd", (NO_RULE,)),
    example("all may read", "to * by * read", "=rscxd"),
    example("clauses in their order", "to *\n\tby self write\n\tby anonymous auth\n\tby * read", "=xd"),
    example("a password", "to attrs=userPassword by self =w by anonymous auth", "=xd", asked="userPassword"),
    example(
        "a subtree",
        'to dn.subtree="dc=example,dc=com" attrs=uid,cn by self write by * search',
        "=scxd",
        target="cn=e,dc=example,dc=com",
        asked="cn",
        is_fake=True,
    ),
    example(
        "a group", 'to dn.children="dc=com" attrs=entry,children by group.exact="cn=g,dc=com" write', "=wrscxd", "cn=k,dc=com", "cn=t,dc=com", "children"
    ),
    example(
        "a group with its class and attribute",
        'to filter="(objectClass=person)" by group/groupOfNames/member.exact="cn=g,dc=com" =m',
        "=0",
        "cn=k,dc=com",
        notes=(on_line(3, CLASSES),),
    ),
    example("the entry above all", 'to dn.exact="" by users', "=0", USER),
    example("any case, and a requester twice", "TO * * DN=dc=com BY * SELF =RSC CONTINUE BY users break", "=0", "dc=com"),
]


def check_grants(place):
    for grant in GRANTS:
        options = (["-D", grant.requester] if grant.requester else []) + ["-u"] * grant.is_fake
        found = asked(place, grant.conf, grant.asked, base=grant.target, options=options)
        expect(found, (0, f"{grant.asked}: {grant.answer}\n", said(grant.notes)), grant.shows)
    return f"{len(GRANTS)} questions"


# ---- many words asked of one entry, in different orders

# rules with lists of attributes, styles and filters, of which some go on with the later ones
MANY = (
    f"{HEAD}rootdn cn=r,dc=com\n"
    "access to attrs=telephoneNumber by self write by * break\n"
    "access to filter=(sn=none) by * =m\n"
    "access to dn.children=dc=com filter=(sn=S) attrs=sn,entry by users +r continue by * +s break\n"
    "access to dn.one=dc=com attrs=sn,manager by anonymous =x by * =rs break\n"
    "access to attrs=children by * none stop\n"
    "access to dn=dc=com by * read\n"
    "access to * by * +c continue by users +d\n"
)
FIRST_ANSWERS = f"{HEAD}access to * by * read\naccess to filter=(sn=S) by * write\naccess to dn.one=dc=com by * none\n"
NONE_ANSWERS = f"{HEAD}access to filter=(sn=none) by * read\naccess to dn.children=cn=t,dc=com by * read\naccess to attrs=uid by * read\n"
KINDS = ("telephoneNumber", "cn", "sn", "entry", "manager", "uid")


@dataclasses.dataclass
class Answers:
    """The answer to each of KINDS under a configuration, in their order; one for all of them where they are alike."""

    shows: str
    conf: str
    requester: str
    target: str
    answers: str
    notes: tuple = ()
    is_fake: bool = False


MANY_WORDS = [
    Answers("some rules go on", MANY, USER, "cn=t,dc=com", "=cd =cd =rscd =rscd =rscd =cd"),
    Answers("a rule for the entry's own requester", MANY, "cn=t,dc=com", "cn=t,dc=com", "=wrscxd =cd =rscd =rscd =rscd =cd"),
    Answers("nobody, for whom clauses run out", MANY, NOBODY, "cn=t,dc=com", "=0 =0 =x =0 =x =0"),
    Answers("an entry that one rule is for", MANY, USER, "dc=com", "=rscxd"),
    Answers("the rootdn", MANY, "cn=r,dc=com", "cn=t,dc=com", "=mwrscxd"),
    Answers("an entry that is made up", MANY, USER, "cn=x,dc=com", "=cd =cd =rscd =cd =rscd =cd", is_fake=True),
    Answers("the first rule answers", FIRST_ANSWERS, USER, "cn=t,dc=com", "=rscxd"),
    Answers("one rule is for one attribute, and no other is for the entry", NONE_ANSWERS, USER, "cn=t,dc=com", "=0 =0 =0 =0 =0 =rscxd"),
    Answers("no rule", HEAD, USER, "cn=t,dc=com", "=rscxd", (NO_RULE,)),
    Answers("the rootdn under a rule that grants nothing", ROOT, USER, "dc=com", "=mwrscxd"),
    Answers("rules that run out", BREAK, USER, "dc=com", "=0"),
    Answers("a rule for one attribute", PHONES, "cn=m,dc=com", "cn=t,dc=com", "=rscxd =0 =0 =0 =0 =0"),
    Answers("lists of rules for the entry", LISTS, USER, "cn=t,dc=com", "=d =d =rscd =cd =d =d"),
    Answers("lists of rules for others", LISTS, USER, "dc=com", "=d"),
    Answers("lists and an entry that is made up", LISTS, USER, "cn=x,dc=com", "=d", is_fake=True),
]
# in LISTS `cn` is in none of the lists, `sn` in each
ORDERS = [
    ("telephoneNumber", "cn", "sn", "entry", "manager", "sn", "uid", "telephoneNumber"),
    ("telephoneNumber", "uid", "sn", "manager", "entry", "sn", "cn", "telephoneNumber"),
    ("cn", "sn", "cn", "entry", "sn"),
    ("sn", "cn", "sn", "entry", "cn"),
    *((kind,) for kind in KINDS),
]


def check_many_words(place):
    for row in MANY_WORDS:
        answers = row.answers.split()
        of_kind = dict(zip(KINDS, answers if len(answers) > 1 else answers * len(KINDS), strict=True))
        options = (["-D", row.requester] if row.requester else []) + ["-u"] * row.is_fake
        for words in ORDERS:
            report = "".join(f"{word}: {of_kind[word]}\n" for word in words)
            found = asked(place, row.conf, *words, base=row.target, options=options)
            expect(found, (0, report, said(row.notes)), f"{row.shows}, {words}")
    return f"{len(MANY_WORDS)} questions, each in {len(ORDERS)} ways"


# ---- levels


@dataclasses.dataclass
class Level:
    """A level, its privileges, and the levels that one who has it is allowed."""

    word: str
    privileges: str
    allowed: str


LEVELS = [
    Level("none", "=0", "none"),
    Level("Disclose", "=d", "none disclose"),
    Level("auth", "=xd", "none disclose auth"),
    Level("compare", "=cxd", "none disclose auth compare"),
    Level("search", "=scxd", "none disclose auth compare search"),
    Level("Read", "=rscxd", "none disclose auth compare search read"),
    Level("write", "=wrscxd", "none disclose auth compare search read add delete write"),
    Level("add", "=arscxd", "none disclose auth compare search read add"),
    Level("delete", "=zrscxd", "none disclose auth compare search read delete"),
    Level("MANAGE", "=mwrscxd", "none disclose auth compare search read add delete write manage"),
]


def check_levels(place):
    words = [level.word for level in LEVELS]
    for level in LEVELS:
        allowed = level.allowed.split()
        report = "".join(f"cn/{word}: {'ALLOWED' if word.lower() in allowed else 'DENIED'}\n" for word in words)
        found = asked(place, f"{HEAD}access to * by * {level.word}\n", "cn", *(f"cn/{word}" for word in words))
        expect(found, (0, f"cn: {level.privileges}\n{report}", ""), level.word)
    return f"{len(LEVELS)} levels"


# ---- filters (RFC 4515), on the entry `cn=Foo Bar`

TRUE, FALSE, UNDEFINED = "=r", "=w", "=x"


@dataclasses.dataclass
class Filter:
    shows: str
    text: str
    truth: str
    notes: tuple = ()


FILTERS = [
    Filter("spaces and an ordering", "(&(cn=foo  bar)(uidNumber>=9))", TRUE),
    Filter("pieces", "(cn=f*b*r)", TRUE),
    Filter("the absolute true filter", "(&)", TRUE),
    Filter("the absolute false filter", "(|)", FALSE),
    Filter("presence of an attribute that is not there", "(title=*)", FALSE),
    Filter("a value that is none of its type", "(uidNumber=x)", UNDEFINED),
    Filter("and its negation", "(!(uidNumber=x))", UNDEFINED),
    Filter("a type without an ordering", "(cn>=a)", UNDEFINED),
    Filter("a number that is greater", "(uidNumber>=11)", FALSE),
    Filter("a number that is the same", "(uidNumber<=10)", TRUE),
    Filter("numbers of any length", "(uidNumber>=-99999999999999999999999)", TRUE),
    Filter("and above", "(uidNumber<=99999999999999999999999)", TRUE),
    Filter("a text without parentheses", "cn=foo bar", TRUE),
    Filter("and a negation", "!(cn=foo bar)", FALSE),
    Filter("an approximate match", "cn~=FOO BAR", TRUE),
    Filter("pieces side by side", "(cn=*o*o*)", TRUE),
    Filter("pieces in another order", "(cn=*r*b*)", FALSE),
    Filter("pieces that share characters", "(cn=foo bar*bar)", FALSE),
    Filter("an empty piece", "(cn=**)", TRUE),
    Filter("pieces of a number", "(uidNumber=1*)", UNDEFINED),
    Filter("a description covers those with more options", "(sn=kim)", TRUE),
    Filter("and not those with other ones", "(sn;lang-fr=kim)", FALSE),
    # RFC 4515, section 4
    Filter("an example of the RFC", "(cn=Babs Jensen)", FALSE),
    Filter("an example of the RFC", "(!(cn=Tim Howes))", TRUE),
    Filter("an example of the RFC", "(&(objectClass=Person)(|(sn=Jensen)(cn=Babs J*)))", FALSE, (CLASSES,)),
    Filter("an example of the RFC", "(o=univ*of*mich*)", FALSE),
    Filter("an example of the RFC", "(seeAlso=)", FALSE),
    Filter("an example of the RFC", r"(o=Parens R Us \28for all your parenthetical needs\29)", FALSE),
    Filter("an example of the RFC", r"(cn=*\2A*)", FALSE),
    Filter("an example of the RFC", r"(filename=C:\5cMyFile)", FALSE, (unknown("filename"),)),
    Filter("an example of the RFC", r"(bin=\00\00\00\04)", FALSE, (unknown("bin"),)),
    Filter("an example of the RFC", r"(sn=Lu\c4\8di\c4\87)", FALSE),
    Filter("an example of the RFC", r"(1.3.6.1.4.1.1466.0=\04\02\48\69)", FALSE, (unknown("1.3.6.1.4.1.1466.0"),)),
]
# the last is an extensible match
NO_FILTERS = ["(cn=a", "(cn:=a)", "(cn=a)(cn=b)", "(!(cn=a)(cn=b))", "(cn>=a*)", "", "(cn:caseExactMatch:=Fred Flintstone)"]


def in_a_rule(text):
    """A filter as a rule has it."""
    escaped = text.replace("\\", "\\\\")
    return f'"filter={escaped}"'


def check_filters(place):
    """Each filter in one rule, and its negation in the next."""
    for row in FILTERS:
        text = row.text if row.text.startswith("(") else f"({row.text})"
        rules = f"access to {in_a_rule(row.text)} by * {TRUE}\naccess to {in_a_rule(f'(!{text})')} by * {FALSE}\naccess to * by * {UNDEFINED}\n"
        notes = [on_line(line, note) for line in (3, 4) for note in row.notes]
        found = asked(place, HEAD + rules, base="cn=Foo Bar,dc=com")
        expect(found, (0, f"entry: {row.truth}\n", said(notes)), f"{row.shows}, {row.text}")
    for text in NO_FILTERS:
        found = asked(place, f"{HEAD}access to {in_a_rule(text)} by * read\n")
        expect(found, (1, "", said((), on_line(3, "C3 BadFilter"))), text)
    return f"{len(FILTERS)} filters, and {len(NO_FILTERS)} texts that are none"


# ---- faults of a configuration: the first one, with the line on which its directive begins


@dataclasses.dataclass
class Fault:
    conf: str
    line: int
    fault: str


FAULTS = [
    Fault("access to * by * read\n", 1, "C7 GlobalAccess"),
    Fault("suffix dc=com", 1, "C1 BadDirective"),
    Fault("\ndatabase mdb\nsuffix BAD EXTRA", 3, "C4 Name"),
    Fault("database mdb\nsuffix dc=a dc=b", 2, "C6 SecondSuffix"),
    Fault('database mdb\nsuffix ""', 2, "C4 Name"),
    Fault("database", 1, "C1 BadDirective"),
    Fault("database mdb\nsuffix", 2, "C1 BadDirective"),
    Fault("database mdb\n", 0, "C10 NoSuffix"),
    Fault("", 0, "C10 NoSuffix"),
    Fault('database monitor\nrootpw "open\n', 2, "C1 BadDirective"),
    Fault("# one\n two\ndatabase mdb\nsuffix\n dc=com\naccess\n to *\n by * peek\n", 6, "C2 Unsupported"),
    Fault('database x\nsuffix "dc=com\n', 2, "C1 BadDirective"),
    Fault("include a\\\n", 1, "C1 BadDirective"),
    Fault('database x\nsuffix BAD "open\n', 2, "C4 Name"),
    Fault("rootdn cn=a,dc=com\ndatabase x\n", 1, "C1 BadDirective"),
    # a fault is told without the notes on the lines before it
    Fault("include acl.conf\ndatabase mdb\nsuffix dc=com\naccess to attrs=foo by * peek", 4, "C2 Unsupported"),
    Fault("include acl.conf\nsuffix dc=com\n", 2, "C1 BadDirective"),
]
# faults of what comes after HEAD, which is two lines
LATER_FAULTS = [
    Fault("access to * by", 3, "C1 BadDirective"),
    Fault("access * by * read", 3, "C1 BadDirective"),
    Fault("access", 3, "C1 BadDirective"),
    Fault("access to", 3, "C1 BadDirective"),
    Fault("access to *", 3, "C1 BadDirective"),
    Fault("access to dn=dc=com dn=dc=com by *", 3, "C1 BadDirective"),
    Fault('access to * by * read "', 3, "C1 BadDirective"),
    Fault("access to * by peername.ip=127.0.0.1 read", 3, "C2 Unsupported"),
    Fault("access to dn.regex=.* by * read", 3, "C2 Unsupported"),
    Fault("access to by * read", 3, "C2 Unsupported"),
    Fault("access to * by by * read", 3, "C2 Unsupported"),
    Fault("access to * by read", 3, "C2 Unsupported"),
    Fault("access to * by self selfwrite", 3, "C2 Unsupported"),
    Fault("access to * by * read read", 3, "C2 Unsupported"),
    Fault("access to * by * stop read", 3, "C2 Unsupported"),
    Fault("access to * by * =r0", 3, "C2 Unsupported"),
    Fault("access to * by * peek", 3, "C2 Unsupported"),
    Fault('access to * by * ""', 3, "C2 Unsupported"),
    Fault("access to * by dnattr=cn read", 3, "C2 Unsupported"),
    Fault("access to * by group/a/b/c=dc=com", 3, "C2 Unsupported"),
    Fault("access to filter=(cn=a by * read", 3, "C3 BadFilter"),
    Fault(f"access to filter={'(!' * 64}(cn=a){')' * 64} by *", 3, "C8 FilterTooDeep"),
    Fault("access to dn=x by * read", 3, "C4 Name"),
    Fault("access to attrs=cn,@person by * read", 3, "C4 Name"),
    Fault("access to * by group/a;b=dc=com", 3, "C4 Name"),
    Fault("access to * by group/=dc=com", 3, "C4 Name"),
    Fault("database mdb", 3, "C5 SecondDatabase"),
    Fault("suffix BAD", 3, "C6 SecondSuffix"),
    Fault("rootdn BAD EXTRA", 3, "C4 Name"),
    Fault("rootdn cn=a cn=b", 3, "C1 BadDirective"),
    Fault("rootdn", 3, "C1 BadDirective"),
    Fault("rootdn cn=a\nrootdn cn=a", 4, "C1 BadDirective"),
]
# definitions of attribute types: these faults are told before all others, by slapmodify too
FAULTS_OF_TYPES = [
    Fault("attributetype", 1, "C12 BadType"),
    Fault("\n\nattributetype \n", 3, "C12 BadType"),
    Fault("attributetype ( 1.2.3 NAME cn )", 1, "C12 BadType"),
    Fault("attributetype ( 1.2.3 NAME 'a1' ) x\n", 1, "C12 BadType"),
    Fault("attributetype ( 1.2.3 NAME 'a1' DESC 'open )\n", 1, "C12 BadType"),
    Fault("attributetype ( OLcfgAt:1 NAME 'a1' )\n", 1, "C12 BadType"),
    Fault("attributetype ( 1.2.3 NAME 'a1' SUP nothing )\n", 1, "C12 BadType"),
    Fault("database x\n# c\nattributetype ( 1.2.3 NAME 'a1'\n  SUP\n  nothing )\n", 3, "C12 BadType"),
    Fault("attributetype ( 1.2.3 NAME 'a1' )\nattributetype ( 1.2.4 NAME 'a1' )\n", 2, "C12 BadType"),
    Fault("attributetype ( 1.2.3 NAME 'cn' )\nattributetype\n", 1, "C12 BadType"),
    Fault("database monitor\nattributetype ( 1.2.3 NAME 'sn' )\n", 2, "C12 BadType"),
]


def check_faults(place, faults, head="", *, are_of_types=False):
    for row in faults:
        wanted = (1, "", said((), on_line(row.line, row.fault)))
        expect(asked(place, head + row.conf), wanted, row.conf)
        if are_of_types:
            expect(place.run("slapmodify", "-b", "dc=com", "--data", "none", "-f", "conf", "-u"), wanted, f"slapmodify, {row.conf}")
    return f"{len(faults)} configurations"


# ---- the argument that a fault is about, of what comes after HEAD, and the physical line on which that begins


@dataclasses.dataclass
class Argument:
    """What is told of the first fault of a text, and then with -v of the argument."""

    conf: str
    fault: str
    told: str


ARGUMENTS = [
    # each in its place: the word that is refused, or the last one
    Argument("access to *\n  by self\r\n  selfwrite\n  by * read", "line 3: C2 Unsupported", 'line 5: "selfwrite"'),
    Argument("access to * by peername=x read", "line 3: C2 Unsupported", 'line 3: "peername=x"'),
    Argument("access to *\n  by * read\n\tstop\n\tby\n  # no comment\n  x", "line 3: C2 Unsupported", 'line 7: "#"'),
    Argument("access to attrs=cn\n ", "line 3: C1 BadDirective", 'line 3: "attrs=cn"'),
    Argument("access to\n *\n by", "line 3: C1 BadDirective", 'line 5: "by"'),
    Argument("access\n  from *", "line 3: C1 BadDirective", 'line 4: "from"'),
    Argument("access", "line 3: C1 BadDirective", 'line 3: "access"'),
    Argument('access to filter="(cn=a b"\n by * read', "line 3: C3 BadFilter", 'line 3: "filter=(cn=a b"'),
    Argument("access to dn.sub=dc=com\n dn=dc=com by * read", "line 3: C1 BadDirective", 'line 4: "dn=dc=com"'),
    # a word that is cut by the end of a physical line begins on the one before
    Argument('access to * by "no\n  who"\n read', "line 3: C2 Unsupported", 'line 3: "no  who"'),
    # an open quote is in the last word
    Argument("access to * by * read\n \\", "line 3: C1 BadDirective", f"line 4: {AN_OPEN_ARGUMENT}"),
    Argument('modulepath "/usr/lib\n  ldap', "line 3: C1 BadDirective", f"line 3: {AN_OPEN_ARGUMENT}"),
    Argument('database monitor\naccess to nothing "x', "line 4: C1 BadDirective", f"line 4: {AN_OPEN_ARGUMENT}"),
    # other directives
    Argument("database\n  hdb more", "line 3: C5 SecondDatabase", 'line 4: "hdb"'),
    Argument("suffix dc=org", "line 3: C6 SecondSuffix", 'line 3: "dc=org"'),
    Argument('suffix dc=org\n dc=net "dc=com', "line 3: C6 SecondSuffix", 'line 4: "dc=net"'),
    Argument("suffix", "line 3: C6 SecondSuffix", 'line 3: "suffix"'),
    Argument("rootdn\n x", "line 3: C4 Name", 'line 4: "x"'),
]


def check_arguments(place):
    for row in ARGUMENTS:
        fault = f"config, {row.fault}"
        expect(asked(place, f"{HEAD}{row.conf}\n"), (1, "", said((), fault)), f"{row.conf!r}, without -v")
        expect(asked(place, f"{HEAD}{row.conf}\n", options=["-v"]), (1, "", said((), fault, f"note: {row.told}")), row.conf)
    return f"{len(ARGUMENTS)} arguments"


# ---- notes on what comes after HEAD


@dataclasses.dataclass
class Noted:
    """The notes on some lines, and what nobody may do with the entry by them."""

    conf: str
    notes: tuple
    answer: str = "=0"


ADDRESSES = "attributetype ( 2.5.4.16 NAME 'postalAddress' )\nattributetype ( 2.5.4.26 NAME 'registeredAddress' SUP postalAddress )\n"
ADDRESS = ("postalAddress", "postalAddress;x-a", "2.5.4.16")
ABOVE = "attributetype ( 1.2.1 NAME 'head' SUP distinguishedName )\nattributetype ( 1.2.2 NAME 'deputy' SUP head )\n"

NOTED = [
    Noted("include acl.conf", (on_line(3, not_read("acl.conf")), NO_RULE), "=rscxd"),
    Noted("", (NO_RULE,), "=rscxd"),
    Noted("# access to * by * read", (NO_RULE,), "=rscxd"),
    Noted("access to attrs=posixAccount by self write", (on_line(3, unknown("posixAccount")),)),
    Noted(
        "access to attrs=sn,gn,mail by self write\naccess to filter=(rfc822Mailbox=*) by * read",
        (on_line(3, unknown("gn")), on_line(4, unknown("rfc822Mailbox"))),
    ),
    Noted(
        "access to attrs=gn by * none\naccess to filter=(rfc822Mailbox=*) by * none\naccess to * by * read",
        (on_line(3, unknown("gn")), on_line(4, unknown("rfc822Mailbox"))),
        "=rscxd",
    ),
    Noted("access to attrs=userPasswrd\n  by self write\n\naccess to attrs=userPassword by * auth", (on_line(3, unknown("userPasswrd")),)),
    Noted("access to filter=(objectClass=person) by * read", (on_line(3, CLASSES),)),
    Noted("access to filter=(employeeType=Internal) by * read", (on_line(3, unknown("employeeType")),)),
    Noted("access to filter=(!(foo=bar)) by * read", (on_line(3, unknown("foo")),), "=rscxd"),
    Noted("access to filter=foo=bar by * read", (on_line(3, unknown("foo")),)),
    Noted(
        'access to filter="(&(a>=1)(|(cn=x)(b<=2)(!(x~=3)))(sn=*d=*))" by * read',
        (on_line(3, unknown("a")), on_line(3, unknown("b")), on_line(3, unknown("x"))),
    ),
    Noted("access to filter=(|(2.5.4.0=person)(OBJECTCLASS=*x)(objectClass=*)) by * read", (on_line(3, CLASSES), on_line(3, CLASSES))),
    Noted(
        "ACCESS TO dn.sub=ou=a,dc=com ATTRS=Foo;lang-en,foo FILTER=(bar=1) by * read",
        (on_line(3, unknown("Foo;lang-en")), on_line(3, unknown("foo")), on_line(3, unknown("bar"))),
    ),
    Noted("access to filter=(bar=1) attrs=1.2.3 by * read", (on_line(3, unknown("bar")), on_line(3, unknown("1.2.3")))),
    Noted("access to attrs=uniqueMember,entry,children by dnattr=member write", (on_line(3, unknown("uniqueMember")),)),
    Noted('access to * by * read\ninclude "my acl.conf" more', (on_line(4, not_read("my acl.conf")),), "=rscxd"),
    Noted("access to * by * read\n  \nInclude\n\ta b", (on_line(5, not_read("a")),), "=rscxd"),
    Noted("access to * by * read\ninclude", (on_line(4, not_read("")),), "=rscxd"),
    Noted(
        "access to * by * read\ndatabase config\nrootpw x\naccess to * by * none\ninclude acl.conf\nattrs=foo",
        (on_line(6, PASSED_OVER),),
        "=rscxd",
    ),
    Noted("database monitor\naccess to attrs=foo by * none\ninclude acl.conf", (on_line(4, PASSED_OVER), NO_RULE), "=rscxd"),
    Noted(
        "access to attrs=foo by * none\r\naccess to attrs=bar by * none\r\n",
        (on_line(3, unknown("foo")), on_line(4, unknown("bar"))),
    ),
    Noted(
        "access to attrs=name,distinguishedName by * none",
        (on_line(3, unknown("name")), on_line(3, unknown("distinguishedName"))),
    ),
    # a type from which another is derived: in slapd a rule, a filter and dnattr= on the first are about the second too
    Noted(f"{ADDRESSES}access to attrs=postalAddress by * none\n{READ_BY_ALL}", (on_line(5, derived("postalAddress")),), "=rscxd"),
    Noted(f"access to attrs=cn,postalAddress,postalAddress;x-a,2.5.4.16 by * read\n{ADDRESSES}", tuple(on_line(3, derived(it)) for it in ADDRESS)),
    Noted(
        f"{ADDRESSES}access to filter=(&(postalAddress=*)(!(POSTALADDRESS;x=a))(cn=a)) by * none\n{READ_BY_ALL}",
        (on_line(5, derived("postalAddress")), on_line(5, derived("POSTALADDRESS;x"))),
        "=rscxd",
    ),
    Noted(f"{ABOVE}access to * by dnattr=head read by dnattr=owner write by dnattr=Head;x read", (on_line(5, derived("head")), on_line(5, derived("Head;x")))),
    Noted(f"{ABOVE}access to attrs=owner by dnattr=owner write by group/groupOfNames/head=cn=a,dc=com read", ()),
    Noted(f"attributetype ( 1.2.1 NAME 'a1' SUP 2.5.4.32 )\naccess to attrs=Owner by * none\n{READ_BY_ALL}", (on_line(4, derived("Owner")),), "=rscxd"),
    Noted(f"attributetype ( 2.5.4.3 NAME 'fullName' SUP sn )\naccess to attrs=surname,cn by * none\n{READ_BY_ALL}", (on_line(4, derived("surname")),), "=rscxd"),
    Noted(
        "attributetype ( 2.5.4.41 NAME 'name' EQUALITY caseIgnoreMatch )\naccess to attrs=name,distinguishedName,cn by * read",
        (on_line(4, derived("name")), on_line(4, unknown("distinguishedName"))),
    ),
    Noted(
        "access to * by dnattr=distinguishedName read\nattributetype ( 2.5.4.49 NAME 'distinguishedName' EQUALITY distinguishedNameMatch )",
        (on_line(3, derived("distinguishedName")),),
    ),
    Noted("access to attrs=cn by * read\ndatabase monitor\nattributetype ( 1.2.1 NAME 'a1' SUP cn )", (on_line(3, derived("cn")),)),
    # `w` is `a` and `z`: where one of them alone is taken away, slapd grants neither, and by slapd.access(5) the other one stays
    Noted("access to * by * write continue by * -z", (on_line(3, HALF_OF_WRITE),), "=arscxd"),
    Noted("access to * by * =wz continue by * -RA stop", (on_line(3, HALF_OF_WRITE),), "=z"),
    Noted("access to * by * add continue by users -z\n\tcontinue by * -dzd", (on_line(3, HALF_OF_WRITE),) * 2, "=arscx"),
    Noted(
        "access to attrs=gn,entry by * +w break\naccess to * by dnattr=member -a by * -z break\naccess to attrs=entry by * -m",
        (on_line(3, unknown("gn")), on_line(4, HALF_OF_WRITE), on_line(4, HALF_OF_WRITE)),
        "=a",
    ),
    Noted("access to * by * write continue by * -w continue by * +a continue by * -az", (), "=rscxd"),
    Noted("access to * by * =az continue by * -ZdA continue by * +z continue by * -r continue by * -wa continue by * -0", ()),
    # nothing to note; the first filter has as many levels as one may have
    Noted(f"access to filter={'(!' * 63}(cn=a){')' * 63} by * read", (), "=rscxd"),
    Noted("access to * by * read", (), "=rscxd"),
    Noted(
        "access to attrs=cn,commonName,2.5.4.3,sn,SURNAME,c,l,st,street,o,ou,title,description,givenName by * read",
        (),
    ),
    Noted("access to attrs=uid,userid,displayName,employeeNumber,mail,dc,telephoneNumber,member,owner,seeAlso by * read", ()),
    Noted("access to attrs=manager,userPassword,uidNumber,gidNumber,homeDirectory,loginShell,objectClass by * read", ()),
    Noted("access to attrs=entry,children,ENTRY,mail;lang-en by * read", (), "=rscxd"),
    Noted("access to filter=(&(objectClass=*)(|(cn=a*b)(!(uidNumber>=1000)))) by * read", ()),
    Noted("access to filter=mail=* by group/organizationalRole/owner=cn=a,dc=com read by dnattr=manager write", ()),
    Noted('access to dn.sub=foo=bar,dc=com by dn.exact="attrs=foo,dc=com" read', ()),
    Noted("access to * by * read\nschemacheck on\n#include acl.conf\nloglevel include", (), "=rscxd"),
]


def check_notes(place):
    for row in NOTED:
        answered = (0, f"entry: {row.answer}\n", said(row.notes))
        expect(asked(place, HEAD + row.conf, "entry"), answered, row.conf)
        wanted = (1, "", said(row.notes, HAS_NOTES)) if row.notes else answered
        expect(asked(place, HEAD + row.conf, "entry", options=["--strict"]), wanted, f"{row.conf}, --strict")
    return f"{len(NOTED)} configurations"


# ---- notes on a configuration and on words, and what comes after them


@dataclasses.dataclass
class Told:
    """What nobody is told of these words: the report, or the notes and a fault after them."""

    shows: str
    conf: str
    words: tuple = ()
    report: str = ""
    notes: tuple = ()
    fault: str | None = None
    is_strict: bool = False
    copy: str = COPY


INCLUDE = f"{HEAD}include acl.conf\n{READ_BY_ALL}"
INCLUDED = (on_line(3, not_read("acl.conf")),)
EACH_NOTE = (
    'include "my\x1b[2Jacl"\ndatabase mdb\nsuffix dc=com\naccess to attrs=userPasswrd\n by * none\n'
    "access to filter=(objectClass=person) by * read\naccess to attrs=owner by * none\ndatabase monitor\naccess to * by * none\n"
    "attributetype ( 1.2.3 NAME 'a1' SUP owner )\n"
)
NAMED = f"{HEAD}access to attrs=givenName,entry,children by * none\n{READ_BY_ALL}"
# in another order than that of the alphabet, a type that only the server writes, and another name of a type, twice
WORDS = ("gn/read", "ENTRY/read", "givenName/read", "entryUUID;x-a/write:gn/read", "children", "gn")
ON_WORDS = (on_word("gn/read", "gn"), on_word("entryUUID;x-a/write:gn/read", "entryUUID;x-a"), on_word("gn", "gn"))
NO_NAME = "dn: cn\n\n"

TOLD = [
    Told(
        "each note on a configuration but that on no rule, and control characters",
        EACH_NOTE,
        report="entry: =0\n",
        notes=(on_line(1, not_read("my\\x1b[2Jacl")), on_line(4, unknown("userPasswrd")), on_line(6, CLASSES), on_line(7, derived("owner")), on_line(9, PASSED_OVER)),
    ),
    Told("notes come before a fault of the copy", INCLUDE, notes=INCLUDED, fault="copy, line 1: L9 N4 BadDn", copy=NO_NAME),
    Told("a strict question ends before the copy is read", INCLUDE, notes=INCLUDED, fault=HAS_NOTES, is_strict=True, copy=NO_NAME),
    Told("a fault of the copy has its line", HEAD + READ_BY_ALL, fault="copy, line 7: L9 N4 BadDn", copy=f"dn: dc=com\ndc: com\n\n# a\n# b\n\n{NO_NAME}"),
    Told(
        "words that ask for attributes of unknown types",
        NAMED,
        WORDS,
        "gn/read: ALLOWED\nENTRY/read: DENIED\ngivenName/read: DENIED\nentryUUID;x-a/write: DENIED\nchildren: =0\ngn: =rscxd\n",
        ON_WORDS,
    ),
    Told("and a strict question", NAMED, WORDS, notes=ON_WORDS, fault=HAS_NOTES, is_strict=True),
    Told(
        "words without a note, and a strict question",
        NAMED,
        ("cn/read", "entry", "Children", "2.5.4.42"),
        "cn/read: ALLOWED\nentry: =0\nChildren: =0\n2.5.4.42: =0\n",
        is_strict=True,
    ),
    Told(
        "the notes on the configuration come first; a text that is no word has no note, and is a fault after them",
        INCLUDE,
        ("foo/peek", "foo:\x1b[2J", "bad type"),
        notes=(*INCLUDED, on_word("foo:\\x1b[2J", "foo")),
        fault="bad question: word 1",
    ),
    Told("a word with an empty level", HEAD + READ_BY_ALL, ("cn/",), fault="bad question: word 1"),
    Told("the number of a word that is faulty", HEAD + READ_BY_ALL, ("cn",) * 11 + ("cn/peek",), fault="bad question: word 12"),
]


def check_told(place):
    for row in TOLD:
        place.write("copy", row.copy.encode())
        found = asked(place, row.conf, *row.words, options=["--strict"] * row.is_strict)
        wanted = (0, row.report, said(row.notes)) if row.fault is None else (1, "", said(row.notes, row.fault))
        expect(found, wanted, row.shows)
    place.write("copy", COPY.encode())
    return f"{len(TOLD)} questions"


# ---- attribute types that a configuration defines: whether values are the same under two names, by which rule, and whether there may be but one


ACCEPTED, TWICE, NO_VALUE, MORE_THAN_ONE = "accepted", "refused, 20 attributeOrValueExists", "refused, 21 invalidAttributeSyntax", "refused, 19 constraintViolation"
# pairs of values, and what becomes of an entry with both by each rule, where there may be more than one
PAIRS = {
    "octets": {("7", "7"): TWICE, ("7", "8"): ACCEPTED, ("x Y", "X  y"): ACCEPTED, ("007", "\u00fc"): ACCEPTED, ("+1 5", "+1-5"): ACCEPTED},
    "any case": {("7", "7"): TWICE, ("7", "8"): ACCEPTED, ("x Y", "X  y"): TWICE, ("007", "\u00fc"): ACCEPTED, ("+1 5", "+1-5"): ACCEPTED},
    "integers": {("7", "7"): TWICE, ("7", "8"): ACCEPTED, ("x Y", "X  y"): NO_VALUE, ("007", "\u00fc"): NO_VALUE, ("+1 5", "+1-5"): NO_VALUE},
}


@dataclasses.dataclass
class Type:
    """Two names of one type under a configuration, the rule by which its values are compared, and whether it takes one value."""

    conf: str
    names: tuple = ("a1", "a1")
    rule: str = "octets"
    is_single: bool = False


A1 = "attributetype ( 1.2.3 NAME 'a1' EQUALITY integerMatch )\n"
TYPES = [
    Type(""),
    Type(
        "attributetype ( 1.3.6.1.4.1.32473.1 NAME ( 'room' 'roomName' )\n  EQUALITY caseIgnoreMatch SINGLE-VALUE )\n",
        ("roomName", "room"),
        "any case",
        is_single=True,
    ),
    # a type by one that was defined before it
    Type("attributetype ( 1.2.3 NAME 'level' SUP uidNumber )\nattributetype ( 1.2.4 NAME 'a1' SUP LEVEL )", rule="integers"),
    # more names of a type that is known
    Type("attributetype ( 2.5.4.3 NAME 'fullName' )\n", ("fullName", "cn"), "any case"),
    # the keyword in any case, and a tab; the first line may begin with white space
    Type("AttributeType\t( 1.2.3 NAME 'a1' EQUALITY integerMatch )", rule="integers"),
    Type(f" \t{A1}", rule="integers"),
    Type("database mdb\r\nattributetype (\r\n 1.2.3 NAME 'a1'\r\n\tEQUALITY integerMatch)\r\n", rule="integers"),
    # wherever the line stands
    Type(f"database config\n{A1}", rule="integers"),
    Type(f"access to * by\nsuffix BAD\n{A1}", rule="integers"),
    Type(f'rootpw "open\ninclude a\\\n{A1}', rule="integers"),
    # quotes and backslashes in a definition are bytes like others
    Type("attributetype ( 1.2.3 NAME 'a1' DESC 'a \" and a \\' EQUALITY integerMatch )\n", rule="integers"),
    # white space that begins a line belongs to the text in quotes
    Type("attributetype ( 1.2.3 NAME 'a1' DESC 'two\n lines' EQUALITY integerMatch )\n", rule="integers"),
    Type(f"{A1}attributetype ( 1.2.3 NAME 'a1' )\n", rule="integers"),
    # other words
    Type(f'"attributetype"{A1[13:]}'),
    Type(f"attributetype{A1[14:]}"),
    Type(f"attributetypes{A1[13:]}"),
    Type(f"objectclass ( 1.2.3 NAME 'a1' )\nnothing {A1}"),
    # comments
    Type(f"#{A1}"),
    Type(f"# one\n {A1}"),
    Type(f"access to *\n {A1}"),
]


def in_an_entry(number, names, values):
    """An add of an entry of these values, the first under the first name, the second under the second."""
    lines = "".join(f"{name}: {value}\n" for name, value in zip(names, values))
    return f"dn: uid={number},dc=com\nchangetype: add\n{lines}\n"


def check_types(place):
    for row in TYPES:
        place.write("conf", row.conf.encode())
        pairs = PAIRS[row.rule]
        place.write("changes", "".join(in_an_entry(number, row.names, values) for number, values in enumerate(pairs)).encode())
        answers = [MORE_THAN_ONE if row.is_single and answer == ACCEPTED else answer for answer in pairs.values()]
        report = "".join(f"line {5 * number + 1}: {answer}\n" for number, answer in enumerate(answers))
        accepted = answers.count(ACCEPTED)
        report += f"accepted {accepted}, refused {len(answers) - accepted}\n"
        found = place.run("slapmodify", "-b", "dc=com", "--data", "copy", "-l", "changes", "-f", "conf", "-u", "-c", "-v")
        expect(found, (int(accepted < len(answers)), report, ""), row.conf)
    return f"{len(TYPES)} configurations"


# ---- definitions that are cut: each is whole or is told with its line

CUT = "attributetype ( 1.2.3 NAME 'a1' DESC 'a \" and a \\' SUP nothing )\ndatabase mdb\nattributetype access to \"\nsuffix dc=com\nattributetype \\\n"


def check_cut_types(place):
    """A definition is there from the end of its first word on, and this one can't be added."""
    whole = len("attributetype")
    for end in range(len(CUT) + 1):
        fault = on_line(1, "C12 BadType") if end >= whole else "cannot open none"
        place.write("conf", CUT[:end].encode())
        found = place.run("slapmodify", "-b", "dc=com", "--data", "none", "-f", "conf", "-u")
        expect(found, (1, "", said((), fault)), CUT[:end])
    return f"{len(CUT)} bytes"


def main():
    program = str(pathlib.Path(sys.argv[1]).resolve())
    with Place(program) as place:
        place.write("copy", COPY.encode())
        pairs = [
            ("what rules grant", lambda: check_grants(place)),
            ("many words of one entry", lambda: check_many_words(place)),
            ("levels", lambda: check_levels(place)),
            ("filters", lambda: check_filters(place)),
            ("faults of a configuration", lambda: check_faults(place, FAULTS)),
            ("faults of its later lines", lambda: check_faults(place, LATER_FAULTS, HEAD)),
            ("faults of attribute types", lambda: check_faults(place, FAULTS_OF_TYPES, are_of_types=True)),
            ("arguments of faults", lambda: check_arguments(place)),
            ("notes", lambda: check_notes(place)),
            ("what comes after notes", lambda: check_told(place)),
            ("attribute types", lambda: check_types(place)),
            ("definitions that are cut", lambda: check_cut_types(place)),
        ]
        status = checks.run("questions", pairs)
    sys.exit(status)


main()
