#!/usr/bin/env python3
"""Runs slapkit on short texts of each form, right and wrong, and at each limit of names, descriptions and definitions of attribute types.

usage: forms.py PROGRAM

What it must answer is what model/answers.py and model/access.py say, which read the same texts in another language.
"""
import dataclasses
import pathlib
import sys

sys.path.insert(0, str(pathlib.Path(__file__).resolve().parents[1]))

from harness import checks
from harness.checks import expect
from harness.runs import Place
from inputs.cases import OTHER_TYPES, TEXTS, lines
from inputs.type_forms import BAD_TYPE, DEFINITIONS, IN_TURN, KINDS, LIMITS, MOST_OF_A_CONFIGURATION, PLACES, RULES_OF_A_TYPE, VALUES_OF_A_TYPE
from inputs.type_forms import around, configurations_of
from model.access import Question, access_answer
from model.answers import answer
from model.names import as_bytes

COPY = lines("dn: dc=com|dc: com||")
HEAD = "database mdb|suffix dc=com|"
ENTRY = "dn: cn=e,dc=com|changetype: add|"
MOST_OF_A_DESCRIPTION, MOST_OF_AN_RDN, MOST_LEVELS = 512, 4096, 64


def added(name, *more):
    return as_bytes("\n".join([f"dn: {name}", "changetype: add", *more, "\n"]))


def entry(*more):
    return added("cn=e,dc=com", *more)


def each(texts, begin="", end=""):
    """The texts of some lines, each with something before and after it. In them `|` ends a line."""
    return [lines(f"{begin}{text}{end}") for text in texts.strip("\n").split("\n")]


def each_rule(rules, begin="", end=""):
    return [lines(HEAD) + rule + b"\n" for rule in each(rules, begin, end)]


DESCRIPTIONS = [
    *(entry(f"{'a' * length}: x") for length in around(MOST_OF_A_DESCRIPTION)),
    *(entry(f"cn;{'o' * (length - 3)}: x") for length in around(MOST_OF_A_DESCRIPTION)),
    *each("1.2|1.02|1|cn;|cn;;a|cn;a_b|-a|a-|dn|dn;x|Control|c\u00f6".replace("|", "\n"), ENTRY, ": x|"),
    entry("x-cn;b: 1", "x;c;a: 2", "X: 3", "x-a: 4", "x;a: 5", "x;A;c: 6"),
    entry("x;c;a: 2", "X;a;c;A: 2"),
]
NAMES = [
    *(added(f"{'t' * length}=v,dc=com") for length in around(MOST_OF_A_DESCRIPTION)),
    *(added(f"cn={'z' * (length - 3)},dc=com") for length in around(MOST_OF_AN_RDN)),
    *(added("cn=" + "\\c3\\bc" * pairs + "zz,dc=com") for pairs in (681, 682)),
    *(added("cn=a," * rdns + "dc=com") for rdns in around(63)),
    added("cn=a," * 65 + "dc="),
    *each(
        r"""
uidNumber=00
dc=\c3
dc=
cn=
x=
userPassword=\00\ff
member=x
cn=a+commonName=b
cn=a+sn=b+uid=c
 cn = a 
cn=a\ 
cn=a\  
cn=\ a
cn=\#a
cn=#a
cn=a#
cn=a=b = c
cn=a;b
cn=a\x
cn=\c
cn="a"
""",
        "dn: ",
        ",dc=com|changetype: add|",
    ),
    *each("delete\nadd|x: y\nmodify\nmodrdn|newrdn: cn=a|deleteoldrdn: 1", "dn:|changetype: ", "|"),
]
VALUES = each(
    """
telephoneNumber: +1 555|telephoneNumber: +1-555
member: cn=z|member: cn=a,cn=b|member:|member: cn=b|member: cn=b+sn=c|member: cn=b\\20
seeAlso: cn=b+sn=a|seeAlso: SN=A + cn=B
owner: x
owner: member=x
owner: cn=a+cn=b
owner: cn=a,
homeDirectory:  a  b |loginShell:: IGEg|mail:|mail: 
mail:|mail:  |mail:: IA==
objectClass: a b
objectClass:
uidNumber: -0
uidNumber: -7
uidNumber: +7
uidNumber:
cn:
mail:: w7w=
c: de|c;x: fr
c: de|c: DE
""",
    ENTRY,
    "|",
)
SAME = ["\u0130 i\u0307", "\ufb01 fi", "\u1e9e ss", "\u03c2 \u03a3", "\u212b \u00e5", "\u0345 \u03b9", "\u2460 1", "\uff21 a", "\u1fb3 \u03b1\u03b9"]
SAME += ["\u0958 \u0915\u093c", "\u2126 \u03c9", "\U00010400 \U00010428", "\u0149 \u02bcn", "a\u0308\u0323 a\u0323\u0308", "\uac00 \u1100\u1161"]
SCRIPTS = [
    *(entry(*(f"sn: {value}" for value in pair.split())) for pair in SAME),
    *(entry(f"sn: {space}a{space}", "sn: a") for space in "\u00a0\u3000\u2003\u200b\u00ad\t"),
    *(entry(f"telephoneNumber: 1{sign}2", "telephoneNumber: 12") for sign in "\u2010\u2011\u2212\ufe63\u00a0"),
    *(entry("sn: a\udc80").replace(b"\x80", data) for data in (b"\xc3", b"\xc0\x80", b"\xed\xa0\x80", b"\xf4\x90\x80\x80", b"\xe2\x82", b"\xff")),
]
VERSIONS = each(
    """
| |version: 1|
 version: 1|
# a| b||VERSION:1|dn: cn=a,dc=com|changetype: add|
version:: MQ==|
version: 1 |
vers| ion: 1||version: 1|
\r|\r|version: 1\r\r|
version
version:|
version:<1|
version: 1|dn: cn=a,dc=com|changetype: add|
dn: cn=a,dc=com|changetype: add||version: 1|
"""
)
# texts before a record, and before another
BEFORE_A_RECORD = """
# undo 1
# undo 0
# undo 01
# undo 2
# undo
# undo |
# undo 1|
# undo 1 |
# undo  1
#undo 1
 # undo 1
# undo 1a
# undo +1
# undo -1
# undo 1.0
# undo \u0661
# UNDO 1
#  undo 1
# undo\t1
# un| do 1
#| | undo 1
# undo |  1
# undo 1| 0
# undo 1|# undo 1
# undo 1|# undo 2
# undo 1||# undo 2
# undo 1|# undo 3
# undo 1\r
# undo 1\r\r
# undo \r| 1\r
# undo 1\0
# undo 11111111111111111111
# undo 18446744073709551616
version: 1|# undo 1
version: 1||# undo 1
version: 2|# undo 1
# undo 1|version: 1
# undo 1|version: 2
x||# undo 1
# undo 1|x|# undo 7|x|
# undo 1|x||# undo 2|x|
""".strip("\n").split("\n")
MARKS = [lines(f"{text}|dn: cn=e,dc=com|changetype: add{end}") for text in BEFORE_A_RECORD for end in ("", "|", "|# undo 2||# undo 2")]
MARKS += each("\n#\n# undo 1\n# undo 1|# undo 2\n# undo 2\n|# undo 1||# undo 2|\n# undo 1|# undo 2|version: 2|", "")
LINES = [
    *each(":\ndn:: !\ndn:: Y249YQ\ndn:: Y249YR==\ndn::Y249YQ== \ndn:<x\ndn: cn=a\0\ncn: a\n||#\n-", end="|"),
    *each("CONTROL: x\ncontrol:< x\nx: y|control: z\nchangetype: add|changetype: add\nchangetype: increment\nchangetype:: QURE", "dn: cn=e,dc=com|", "|"),
    *each("x: a\rb\nx: a\r\r\nx: a\r\nx:: YQ=\r| =\nx::\nx::  \nx\n: y\n x: y\nx:< file:///a", ENTRY, "|"),
    *each("x\nx:< y\nx: y\n-", "dn: cn=e,dc=com|changetype: DELETE|", "|"),
]
MODIFIES = each(
    """
modify
modify|add: x|-|-
modify|-
modify|increment: x|x: 1|-
modify|increment: x
modify|INCREMENT:: dWlkTnVtYmVy|uidnumber: 1|-|increment: uidNumber|uidNumber: 1|uidNumber: 2|-
modify|add: x|x: 1|- 
modify|add:: eA==|X: 1|-|REPLACE: x|x:2
modify|add: cn;x|cn: 1
modify|add: cn|control: 1
modify|add: dn
modify|add: 1
modify|add: cn|commonName: b
modify|add: cn|2.5.4.3: b|-
""",
    "dn: cn=e,dc=com|changetype: ",
    "|",
)
MOST, LEAST = 2**127 - 1, -(2**127)
NUMBERS = [0, 7, -7, MOST, LEAST, MOST + 1, LEAST - 1, int("9" * 60)]
# how many values an increment raises: in an entry of one, in one that is kept in little memory, and in larger ones
COUNTS = (1, 20, 70, 2000)
AMOUNTS = [*map(str, [0, 1, -1, 7, MOST, LEAST, MOST + 1, LEAST - 1]), "9" * 60, "+1", "01", "-0", "-", "", " 1", "1a"]
INCREMENTS = [
    entry(f"gidNumber: {number}") + lines(f"dn: cn=e,dc=com|changetype: modify|increment: gidNumber|gidNumber: {amount}|-||")
    for number in NUMBERS
    for amount in AMOUNTS
]
RENAMES = each(
    f"""
modrdn
modrdn|newrdn: cn=a
modrdn|deleteoldrdn: 1|newrdn: cn=a
moddn|newrdn: cn=a|deleteoldrdn: 2
modrdn|newrdn: cn=a+cn=b|deleteoldrdn: 1
modrdn|newrdn: cn=a,cn=b|deleteoldrdn: 1
modrdn|newrdn:|deleteoldrdn: 1
modrdn|newrdn: uidNumber=x|deleteoldrdn: 1
modrdn|newrdn: cn={'z' * (MOST_OF_AN_RDN - 2)}|deleteoldrdn: 1
modrdn|newrdn:: Y249YQ==|deleteoldrdn:: MA==|newsuperior:
modrdn|newrdn: cn=E|deleteoldrdn: 0|newsuperior: x
modrdn|newrdn: cn=E+sn=x|deleteoldrdn: 0|newsuperior: DC=com
modrdn|newrdn: cn=a|deleteoldrdn: 1|newsuperior: cn=e,dc=com
modrdn|newrdn: cn=a|deleteoldrdn: 1|newsuperior: dc=org
modrdn|newrdn: cn=a|deleteoldrdn: 1|newsuperior: dc=com|x: y
""",
    "dn: cn=e,dc=com|changetype: ",
    "|",
)
CHANGES = {
    "descriptions": DESCRIPTIONS,
    "names": NAMES,
    "values": VALUES,
    "values in other scripts": SCRIPTS,
    "versions": VERSIONS,
    "lines": LINES,
    "modifies": MODIFIES,
    "increments": INCREMENTS,
    "renames": RENAMES,
    "modifies and renames of an entry that is there": [entry() + text for text in MODIFIES + RENAMES],
}

WHATS = r"""
*
* *
by
dn=dc=com
dn=dc=com dn=dc=com
dn.foo=dc=com
dn=x
"dn=dc=com"
dn="dc=com"
attrs=
attrs=cn,
attrs=ENTRY,Children,@x
attrs=!x
attr=cn
attrs=cn;x,1.2 filter=(cn=*)
filter=
filter=dc=c*
filter=(&(dc=c*)(!(dc~=Com)))
filter=(dc=\63om)
filter=(dc=\\63om)
filter=(dc>=com)
filter=(dc=**)
filter=(dc~=c*)
filter=(dc=com))
dn.base=
dn.children=
dn.one=
dn.sub=
dn.exact=dc=com,dc=com attrs=cn filter=(x=*)
dn=dc=com dn.children=en
filter=(dc=*) filter=(
attrs=cn attrs=!x
dn=dc=com dn.regex=en
dn.regex=.*
val=x
dn
"""
WHOS = """
by
read
users users anonymous
*=x
set=x
self=x
group=dc=com
group/x/cn=dc=com
group/x/member.exact=dc=com
group.exact=dc=com
group/1x=dc=com
group/x/y/z=dc=com
dnattr=cn
dnattr=1
dnattr=member;x
dn=
dn.sub=
dn=dc=com
self
"""
ACCESS = """
=RsC
=
=0r
+0 continue stop
read write
none break
level{1}
=w continue
self read
+azd
-0
WRITE Stop
"""
RULES = """
access
access to
access to *
access to * by
access to by * read
access by * read
access to * by * read by
ACCESS TO * BY * READ STOP
access to * by "*" re"ad"
 by * read
| by * read
#x| access to bad
access to *|\tby * read
access to *|# comment| by * read
\t| access to * by * write
\r|access to * by * read\r
"""
DIRECTIVES = r"""
suffix dc=com
suffix dc=org x
rootdn
rootdn x
rootdn ""
rootdn dc=com|rootdn dc=com
rootdn dc=com dc=com
database
database CONFIG|suffix x|suffix y
database mdb
database monitor|access
include "x
include x\
access to * by * read "
x "a b"c\"d
"""
WHOLE = """
suffix dc=com|
rootdn dc=com|
database config|
database mdb|
database "a
database mdb|suffix|
database mdb|suffix x y|
database monitor|database mdb|suffix dc=com|
database mdb|suffix dc=org|
database mdb|suffix ""|
database mdb\r|suffix dc=com\r|
"database" mdb|SUFFIX "DC=com"|
"""
NESTED = [
    lines(f"{HEAD}access to filter={'(!' * (levels - 1)}(cn=a){end * (levels - 1)} by * read|") for levels in around(MOST_LEVELS) for end in (")", "")
]
EITHER = lines(HEAD) + b"access to filter=(|(dc=a)(&(dc=*)(|(dc~=b)(dc=c*m)))) by * read\n"
FILTERS = r"""
(cn=foo  BAR)
(cn= foo bar )
(cn=f*b*r)
(cn=foo *)
(cn=foo*bar)
(cn=* bar)
(cn=*o  b*)
(cn=*o b*r)
(cn=  f*r  )
(cn=*ar*a*)
(cn=b*)
(cn=*\20*)
(cn=*\ff*)
(cn=*\c3\bc*)
(cn;lang-en=x)
(cn;lang-de=*)
(cn;lang-en;lang-de=y)
(2.5.4.3=foo bar)
(sn=STRASSE)
(sn=stra*SSE)
(sn=*\c3\9f*)
(sn=*\1e*)
(telephoneNumber=+1 55-5)
(telephoneNumber=*1*5-5)
(telephoneNumber=-*5)
(mail=A@B*)
(mail=*@b.c )
(mail=*\c3*)
(homeDirectory=/A)
(homeDirectory=/*A)
(homeDirectory=/a*)
(uidNumber>=9)
(uidNumber>=10)
(uidNumber<=9)
(uidNumber>=-99999999999999999999)
(uidNumber<=99999999999999999999)
(uidNumber>=010)
(uidNumber=1*)
(uidNumber=10)
(uidNumber~=10)
(note=A B)
(note=a  b)
(note=*)
(note=a*)
(note>=a)
(member=CN=K , dc=com)
(member=cn=k)
(member=x)
(member=cn=*)
(member=)
(objectClass=PERSON)
(objectClass=p*)
(objectClass=)
(cn=)
(nothing=)
(nothing=*)
(!(nothing=*))
(!(uidNumber=x))
(&(uidNumber=x)(cn=foo bar))
(&(uidNumber=x)(cn=none))
(!(&(uidNumber=x)(cn=none)))
(!(&))
(cn=\2a)
(cn=a\)
(cn=a\4)
(cn=a\zz)
(cn:dn:=a)
( cn=a)
(cn =a)
(cn)
(=a)
()
((cn=a))
(&cn=a)
(!(cn=a)(cn=b))
(!)
(dn=a)
(cn=a)x
cn=foo bar
&(cn=*)(sn=*)
!(cn=*)
"""
PERSON = lines(
    "dn: cn=t,dc=com|cn: Foo   Bar|cn;lang-en: x|cn;lang-de;lang-en: y|sn:: U3RyYcOfZQ==|telephoneNumber: +1 555|mail: a@b.c|homeDirectory: /A|"
    "uidNumber: 10|note: a  b|member: cn=k,dc=com|objectClass: person|"
)
CONFIGS = {
    "what rules are for": each_rule(WHATS, "access to ", " by * read"),
    "what two rules are for": each_rule(WHATS, "access to * by * break|access to ", " by users read"),
    "whom rules are for": each_rule(WHOS, "access to * by ", " read"),
    "what rules give": each_rule(ACCESS, "access to * by * "),
    "rules": each_rule(RULES),
    "directives": each_rule(DIRECTIVES),
    "whole configurations": [b"", b"\n", *each(WHOLE)],
    "filters in filters": [*NESTED, EITHER],
}
QUESTIONS = [Question("dc=com", None, ("entry", "dc", "children")), Question("dc=com", "dc=com", ("dc/read", "x", "children/none"), is_verbose=True)]
ASKED = [("dc=com", ""), ("", ""), ("x", None), ("dc=com", "x", "y"), ("dc=org", None), ("dc=com,dc=com", None), ("dc=com", "cn=\u00fc\\,x+SN=a", "a", "1")]
ASKED += [("dc=com", None, word) for word in ("", "cn/", "/read", "cn/read/x", "cn:/read", "cn/READ", "CN;X/Auth", "ENTRY", "Children/None:x", "dn")]


def check_changes(place, texts, *options):
    for text in texts:
        check_run(place, "dc=com", COPY, text, *options)
    return f"{len(texts)} texts"


def check_run(place, suffix, copy, text, *options, last=None):
    place.write("copy", copy)
    wanted = answer(suffix.encode(), copy, text, goes_on=True, is_verbose=True, last=last)
    more = [] if last is None else ["--last", str(last)]
    check_change(place, suffix, text, dataclasses.astuple(wanted), f"{text}, {last}", *options, *more)


def check_groups(place):
    """The first groups of texts, so many as none has, as each has, and as some have."""
    for text in MARKS:
        for last in (0, 1, 2, 2**64 - 1):
            check_run(place, "dc=com", COPY, text, last=last)
    return f"{len(MARKS)} texts"


def check_under_other_types(place):
    """All changes under types that they don't name. What is wanted of them is as it is without these."""
    place.write("conf", OTHER_TYPES)
    for texts in CHANGES.values():
        check_changes(place, texts, "-f", "conf")
    for texts in TEXTS.values():
        if texts.config is None:
            check_run(place, texts.suffix, texts.copy, texts.changes, "-f", "conf", last=texts.last)


def check_change(place, suffix, text, wanted, what, *options):
    """A run of these changes, of which status, report, message and both files are wanted."""
    place.write("changes", text)
    ended = place.run("slapmodify", "-b", suffix, "--data", "copy", "-l", "changes", "--out", "new", "--undo", "undo", "-c", "-v", *options)
    found = (*ended, *map(place.read, ("new", "undo")))
    place.remove("new", "undo")
    files = [None if wanted is None else wanted.encode() for wanted in wanted[3:]]
    expect(found, (*wanted[:3], *files), what)


def check_increments_of_many(place):
    """Increments of so many integers of one type, by less than the values are apart from each other, and by more, so that they pass each other."""
    config = lines("attributetype ( 1.2.9 NAME 'level' SUP uidNumber )|")
    place.write("conf", config)
    for count in COUNTS:
        copy = COPY + lines("dn: cn=e,dc=com|cn: e|") + b"".join(b"level: %d\n" % (3 * number) for number in range(count)) + b"\n"
        place.write("copy", copy)
        for amount in (1, 3, -3 * count):
            text = lines(f"dn: cn=e,dc=com|changetype: modify|increment: LEVEL|level: {amount}|-||")
            wanted = answer(b"dc=com", copy, text, goes_on=True, is_verbose=True, config=config)
            expect(wanted.status, 0, "the model")
            check_change(place, "dc=com", text, dataclasses.astuple(wanted), f"{count} values incremented by {amount}", "-f", "conf")
    return " and ".join(map(str, COUNTS)) + " values"


def check_question(place, config, question):
    place.write("copy", COPY)
    check_answer(place, config, COPY, question)


def check_answer(place, config, copy, question):
    place.write("conf", config)
    found = place.run("slapacl", "-f", "conf", "--data", "copy", *question.options())
    expect(found, access_answer(config, copy, question), f"{config}, {question}")


def check_configs(place, texts):
    for text in texts:
        for question in QUESTIONS:
            check_question(place, text, question)
    return f"{len(texts)} texts"


def check_filters(place):
    """Each filter in a rule that is passed over where it doesn't fit, and its opposite."""
    filters = FILTERS.strip("\n").split("\n")
    place.write("copy", COPY + PERSON)
    for text in filters:
        rules = "".join(f'access to "filter={one}" by * {level} break|' for one, level in ((text, "+w"), (f"(!{text})", "+r")))
        config = lines(f"{HEAD}{rules}access to * by * +x|")
        check_answer(place, config, COPY + PERSON, Question("cn=t,dc=com"))
    return f"{len(filters)} filters"


def check_questions(place):
    for base, requester, *words in ASKED:
        for is_fake in (False, True):
            check_question(place, lines(HEAD), Question(base, requester, words, is_fake, is_verbose=True))
    return f"{2 * len(ASKED)} questions"


# ---- attribute types


def changes_of_a_type(kinds):
    pairs = [text.format(*kinds).split("|") for text in VALUES_OF_A_TYPE.strip().split("\n")]
    return b"".join(added(f"uid={number},dc=com", *pair) for number, pair in enumerate(pairs))


def check_types(place, config, kinds=KINDS, fault=None):
    """A run and a question under the types of a configuration. Where its fault is given, an empty text for none, the model must have it too."""
    changes, question = changes_of_a_type(kinds), Question("dc=com", None, (*kinds, "cn"))
    copy = COPY.removesuffix(b"\n") + lines(f"{kinds[0]}: 10||")
    wanted = dataclasses.astuple(answer(b"dc=com", COPY, changes, goes_on=True, is_verbose=True, config=config))
    told = access_answer(config, copy, question)
    if fault is not None:
        expect((wanted[2], "C11" in told[2] or "C12" in told[2]), (fault, fault != ""), f"the model of {config[:300]}")
    place.write("conf", config)
    place.write("copy", COPY)
    check_change(place, "dc=com", changes, wanted, config[:300], "-f", "conf")
    place.write("copy", copy)
    expect(place.run("slapacl", "-f", "conf", "--data", "copy", *question.options()), told, config[:300])


def with_rules(text, kinds=KINDS):
    """A configuration that begins with this text."""
    return text + b"\n" + lines(HEAD) + RULES_OF_A_TYPE.format(*kinds).encode()


def defining(text):
    return b"attributetype " + text


def check_definitions(place, right, wrong):
    for texts, fault in ((right, ""), (wrong, BAD_TYPE.format(1))):
        for text in texts:
            check_types(place, with_rules(defining(text)), fault=fault)
    return f"{len(right)} right and {len(wrong)} wrong"


def check_definitions_in_turn(place):
    for text, line in IN_TURN:
        definitions = lines(text).replace(b"\n(", b"\nattributetype (")
        check_types(place, with_rules(defining(definitions)), fault=BAD_TYPE.format(line) if line else "")
    return f"{len(IN_TURN)} configurations"


def check_places(place):
    places = each(PLACES)
    for text in places:
        check_types(place, with_rules(text))
    return f"{len(places)} configurations"


def check_limits(place):
    for text, kinds, is_right in LIMITS:
        check_types(place, with_rules(defining(text.encode()), kinds), kinds, "" if is_right else BAD_TYPE.format(1))
    return f"{len(LIMITS)} definitions"


def check_long_configurations(place):
    rules = with_rules(b"")
    for length in around(MOST_OF_A_CONFIGURATION):
        fault = "" if length <= MOST_OF_A_CONFIGURATION else "slapkit: config, line 0: C11 ConfigTooLong\n"
        for text in configurations_of(length - len(rules)):
            check_types(place, rules + text, fault=fault)


def main():
    program = str(pathlib.Path(sys.argv[1]).resolve())
    with Place(program) as place:
        pairs = [(name, lambda texts=texts: check_changes(place, texts)) for name, texts in CHANGES.items()]
        pairs.append(("first groups", lambda: check_groups(place)))
        pairs.append(("increments of many values", lambda: check_increments_of_many(place)))
        pairs.append(("the same and others under other types", lambda: check_under_other_types(place)))
        pairs += [(name, lambda texts=texts: check_configs(place, texts)) for name, texts in CONFIGS.items()]
        pairs.append(("filters", lambda: check_filters(place)))
        pairs.append(("questions", lambda: check_questions(place)))
        pairs += [(name, lambda texts=texts: check_definitions(place, *texts)) for name, texts in DEFINITIONS.items()]
        pairs.append(("definitions one after the other", lambda: check_definitions_in_turn(place)))
        pairs.append(("where definitions are", lambda: check_places(place)))
        pairs.append(("limits of definitions", lambda: check_limits(place)))
        pairs.append(("long configurations with definitions", lambda: check_long_configurations(place)))
        status = checks.run("forms", pairs)
    sys.exit(status)


main()
