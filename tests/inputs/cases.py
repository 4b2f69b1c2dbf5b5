"""Short texts that are tried in many ways: copies with changes, and configurations with questions."""
import dataclasses

from model.access import Question

ROOT = "dn: dc=com|dc: com||"


def lines(text):
    """A text in which `|` ends a line."""
    return text.replace("|", "\n").encode()


# ---- changes of a copy


@dataclasses.dataclass
class Texts:
    """A copy and changes of it, whole."""

    copy: bytes
    changes: bytes
    suffix: str = "dc=com"
    # after each so many bytes the changes are cut, and the copy
    steps: tuple[int, int] = (1, 1)
    # the configuration whose attribute types hold, if there is one
    config: bytes | None = None
    # how many groups of the changes are run, if they are an undo file and not all of it is
    last: int | None = None

    def options(self):
        return [] if self.last is None else ["--last", str(self.last)]


def entry(name, *more):
    return "|".join([f"dn: {name}", *more, "|"])


def rename(name, rdn, *more):
    return "|".join([f"dn: {name}", "changetype: modrdn", f"newrdn: {rdn}", "deleteoldrdn: 1", *more, "|"])


def deep_name(rdns):
    return ",".join([*["ou=n"] * (rdns - 1), "dc=com"])


PERSON = ROOT + entry("cn=e,dc=com", "cn: e", "description: foo")
UNITS = "ou=Team,ou=A,dc=com"
NESTED = ROOT + entry("cn=p,dc=com", "cn: p") + entry("cn=q,cn=p,dc=com", "cn: q") + entry("cn=r,dc=com", "cn: r")
THREE_MOVES = [
    rename("cn=p,dc=com", "cn=r", "newsuperior: cn=q,cn=p,dc=com"),
    rename("cn=p,dc=com", "cn=r", "newsuperior: cn=none,dc=com"),
    rename("cn=p,dc=com", "cn=r"),
]
STAFF = entry("cn=t,dc=com", "cn: t", "manager: cn=m,dc=com") + entry("cn=g,dc=com", "cn: g", "objectClass: groupOfNames", "member: cn=k,dc=com")
# definitions of attribute types (RFC 4512, section 4.1.2), and an entry and changes for which each of them makes a difference
TYPES = (
    "# types|attributetype ( 1.3.6.1.4.1.32473.1 NAME ( 'room' 'roomName' )|  EQUALITY caseIgnoreMatch SINGLE-VALUE )|"
    "AttributeType|\t(1.2.3 SUP uidNumber NAME'level' DESC 'a )| level\\' OBSOLETE) ||"
    "attributetype ( 1.2.4 X-ORIGIN ( 'a' 'b' ) NAME 'seat' EQUALITY noMatch SINGLE-VALUE x-y 'c' )|"
    "attributetype ( 1.2.5 NAME 'boss' SUP seat EQUALITY 'distinguishedNameMatch' )|"
    "attributetype ( 2.5.4.4 NAME ( 'sn' 'lastName' ) SYNTAX 1.2{64} )"
)
TYPED = ROOT + entry("cn=e,dc=com", "cn: e", "room: A 1", "boss: cn=B", "level: 7")
OF_TYPES = (
    "dn: cn=e,dc=com|changetype: modify|delete: roomName|roomName: a  1|-||"
    "dn: level=07,dc=com|changetype: add||"
    "dn: cn=e,dc=com|changetype: modify|add: seat|1.2.4: a|-||"
    "dn: cn=e,dc=com|changetype: modify|add: seat|seat: A|-||"
    "dn: cn=e,dc=com|changetype: modify|add: boss|boss: CN=b|-||"
    "dn: lastName=x,dc=com|changetype: add|surname: X|"
)
# definitions of types that no other text here names, nor one of trial/program.py or trial/forms.py; and what says otherwise of known types, which stay as they are
OTHER_TYPES = lines(
    "database monitor|attributetype ( 1.3.6.1.4.1.32473.1 NAME ( 'room' 'roomName' )|  EQUALITY caseIgnoreMatch SINGLE-VALUE )|"
    "attributetype ( 1.3.6.1.4.1.32473.2 NAME 'level' SUP uidNumber )|"
    "attributetype ( 1.3.6.1.4.1.32473.3 SUP distinguishedName )|"
    "attributetype ( 2.5.4.3 NAME ( 'fullName' 'cn' ) EQUALITY caseExactMatch SINGLE-VALUE )|"
    "attributetype ( 2.5.4.4 NAME 'lastName' EQUALITY integerMatch )|"
    "attributetype ( 2.5.4.13 NAME 'description' SUP nothing SINGLE-VALUE )|"
    "attributetype ( 2.5.4.11 NAME ( 'unit' 'ou' ) EQUALITY distinguishedNameMatch )|"
    "attributetype ( 0.9.2342.19200300.100.1.25 EQUALITY octetStringMatch )|"
    "attributetype ( 1.3.6.1.1.1.1.0 NAME 'uidNumber' EQUALITY caseIgnoreMatch )|"
    "attributetype ( 2.5.4.31 NAME 'member' EQUALITY uniqueMemberMatch SINGLE-VALUE )|"
    "attributetype ( 2.5.4.0 NAME 'objectClass' EQUALITY caseExactMatch )|"
)
# a copy after a rename, a modify of nothing and an add, and what takes these back
RENAMED_AND_ADDED = ROOT + entry("cn=k,dc=com", "cn: k") + entry("cn=y+sn=z,dc=com", "cn: y", "sn: Z")
TO_TAKE_BACK = (
    "# undo 1|dn: cn=k,dc=com|changetype: delete||# undo 2|# undo 3|"
    + rename("cn=y+sn=z,dc=com", "cn=x")
    + "dn: cn=x,dc=com|changetype: modify|add: sn|sn: Z|-||"
)
FOLDED = "# folded|  comment|dn: cn=e,dc=com|changetype: modify|add: description|description: two|  words |"

TEXTS = {
    "the suffix's entry is added to an empty copy": Texts(
        b"", lines("dn: DC=Example, dc=com|changetype: add|objectClass: domain|"), "dc=Example,dc=com"
    ),
    "a unit is added": Texts(lines(ROOT), lines("dn: ou=people,DC=COM|changetype: add|description: staff|")),
    "an entry with values in base64 is deleted": Texts(
        lines(ROOT + entry("cn=a,dc=com", "cn: a", "description:: IGxlYWQ=", "note:", "userPassword:: AP8=")),
        lines("dn: cn=a,dc=com|changetype: delete|"),
    ),
    "a value is spelled otherwise": Texts(
        lines(PERSON),
        lines("dn: cn=e,dc=com|changetype: modify|delete: description|description: FOO|-|add: description|description: Foo|-|"),
    ),
    "the third modification is refused": Texts(
        lines(PERSON), lines("dn: cn=e,dc=com|changetype: modify|replace: title|title: x|-|delete: description|-|delete: sn|-|")
    ),
    "three records are refused": Texts(
        lines(PERSON),
        lines(
            "dn: cn=e,dc=com|changetype: modify|add: title|-||dn: cn=e,dc=com|changetype: modify|delete: cn|-||dn: dc=com|changetype: delete|"
        ),
    ),
    "a rename of a single value": Texts(
        lines(ROOT + entry("dc=a,dc=com", "dc: a")),
        lines("dn: dc=a,dc=com|changetype: modrdn|newrdn: dc=b|deleteoldrdn: 0||" + rename("dc=a,dc=com", "dc=b")),
    ),
    "a rename to a value that is there": Texts(
        lines(ROOT + entry("cn=x,dc=com", "cn: x", "sn: Z")), lines(rename("cn=x,dc=com", "cn=y+sn=z"))
    ),
    "a subtree is moved": Texts(
        lines(
            ROOT
            + "".join(entry(name, f"{name[:2]}: {name.split(',')[0][3:]}") for name in ("ou=A,dc=com", "ou=B,dc=com", UNITS, f"cn=Kim,{UNITS}"))
            + entry(f"cn=desk,cn=Kim,{UNITS}", "cn: desk")
        ),
        lines(rename("ou=team,ou=a,dc=com", "ou=Team", "newsuperior: ou=b,dc=com")),
    ),
    "two names are exchanged": Texts(
        lines(ROOT + entry("cn=a,dc=com", "cn: a") + entry("cn=b,dc=com", "cn: b")),
        lines("".join(rename(f"cn={old},dc=com", f"cn={new}") for old, new in ("at", "ba", "tb"))),
    ),
    "three moves are refused": Texts(lines(NESTED), lines("".join(THREE_MOVES))),
    "a replace by another spelling": Texts(
        lines(ROOT + entry("cn=a,dc=com", "cn: a")),
        lines("dn: cn=a,dc=com|changetype: modify|replace: commonName|commonName: a|commonName: b|-|"),
    ),
    "names of 64 and 65 RDNs": Texts(
        lines(ROOT + "".join(entry(deep_name(rdns), "ou: n") for rdns in range(2, 64)) + entry("ou=m,dc=com") + entry("cn=a,ou=m,dc=com")),
        lines(
            "".join(rename("ou=m,dc=com", "ou=m", f"newsuperior: {deep_name(rdns)}") for rdns in (63, 62))
            + "".join(f"dn: {deep_name(rdns)}|changetype: add||" for rdns in (64, 65))
        ),
        steps=(17, 211),
    ),
    "a manager is replaced": Texts(
        lines(ROOT + STAFF), lines("dn: cn=t,dc=com|changetype: modify|replace: manager|manager: cn=k,dc=com|-|")
    ),
    "the second value is cut": Texts(
        lines(ROOT), lines("dn: cn=e,dc=com|changetype: add|note: x||dn: cn=f,dc=com|changetype: add|note:: AAE|")
    ),
    "lines end in CR LF, and are folded": Texts(
        lines(ROOT + entry("cn=e,dc=com", "cn: e", "note: x")).replace(b"\n", b"\r\n"), lines(FOLDED).replace(b"\n", b"\r\n")
    ),
    "a version, controls, URLs and values in other scripts": Texts(
        lines("version: 1||" + ROOT + entry("cn=J\u00fcrgen,dc=com", "sn:: TcO8bGxlcg==", "uidNumber: 7")),
        lines(
            "# change|version: 1|dn:: Y249SsO8cmdlbixkYz1jb20=|changetype:: bW9kaWZ5|add:: c24=|sn;lang-en: M\u00fc|-|delete: uidnumber|"
            "uidNumber: 7|-||dn: cn=a,dc=com|control: 1.2.3 true|changetype: delete||dn: cn=a,dc=com|changetype: add|photo:< file:///a|"
        ),
    ),
    "attribute types of a configuration": Texts(lines(TYPED), lines(OF_TYPES), steps=(3, 3), config=lines(TYPES)),
    "all groups of an undo file": Texts(lines(RENAMED_AND_ADDED), lines("version: 1||" + TO_TAKE_BACK), last=3),
    "one of its groups, whose marks are folded and end in CR LF": Texts(
        lines(RENAMED_AND_ADDED),
        lines("# a|" + TO_TAKE_BACK.replace("# undo", "# un| do") + "# undo 4|x|").replace(b"\n", b"\r\n"),
        steps=(1, 7),
        last=1,
    ),
    "an undo file whose marks are not all there": Texts(
        lines(RENAMED_AND_ADDED), lines("#undo 1|# undo 01|" + TO_TAKE_BACK.replace("undo 3", "undo 4")), steps=(1, 7), last=2
    ),
}


# ---- configurations


@dataclasses.dataclass
class Rules:
    """A configuration, and questions by it about a copy."""

    config: bytes
    questions: list
    copy: bytes = lines(ROOT)


HEAD = "database mdb|suffix dc=com|"
USER = "cn=u,dc=com"
OF_ROOT = [Question("dc=com"), Question("dc=com", USER, is_verbose=True)]

RULES = {
    "a clause that goes on": Rules(lines(HEAD + "access to *|  by * =cs continue|  by users +r|"), OF_ROOT),
    "a clause that goes on with the next rule": Rules(lines(HEAD + "access to * by * read break|"), OF_ROOT),
    "no rule, and a rootdn": Rules(lines(HEAD + f"rootdn {USER}|"), OF_ROOT),
    "self, dnattr and a group": Rules(
        lines(HEAD + 'access to attrs=telephoneNumber|  by self write|  by dnattr=manager read|  by group="cn=g,dc=com" search|'),
        [Question("cn=t,dc=com", name, ("telephoneNumber",)) for name in ("cn=t,dc=com", "cn=m,dc=com", "cn=k,dc=com", None)],
        lines(ROOT + STAFF),
    ),
    "words with levels, and an entry that is not there": Rules(
        lines(HEAD + "access to * by users read|"),
        [Question("dc=com", USER, ("cn/write:foo", "cn/read")), Question("cn=no,dc=com"), Question("cn=no,dc=com", USER, is_fake=True)],
    ),
    "styles and filters": Rules(
        lines(
            f'# rules|include /etc/x|{HEAD}access to dn.children="dc=com" filter=(&(objectClass=groupOf*)(!(member=cn=m,dc=com))) attrs=cn,entry|'
            "  by dn.onelevel=dc=com =wrx|\tby group/groupOfNames/member.exact=cn=g,dc=com +cs break|access to dn.sub=dc=com by anonymous auth|"
        ),
        [Question("cn=g,dc=com", USER), Question("cn=g,dc=com", "cn=k,dc=com", ("cn", "member", "entry/read"))],
        lines(ROOT + STAFF),
    ),
    "each note": Rules(
        lines(
            f"include acl|{HEAD}access to attrs=gn,cn,entry,mail;x,foo;x|"
            "  filter=(&(1.2=a)(!(objectClass=a))(2.5.4.0>=1)(objectClass=*))|  by * read|database config|include b|access to *|"
        ),
        [*OF_ROOT, Question("dc=com", is_strict=True), Question("dc=com", None, ("gn/read:x", "cn", "foo;x"))],
    ),
    "a rule before the database": Rules(lines("access to * by * read|"), OF_ROOT[:1]),
    "a form that is not read": Rules(lines(HEAD + "access to * by peername.ip=127.0.0.1 read|"), OF_ROOT[:1]),
    "an open filter": Rules(lines(HEAD + "access to filter=(cn=a by * read|"), OF_ROOT[:1]),
    "a second database, and a part that is passed over": Rules(
        lines(HEAD + "database monitor|access to nothing|database mdb|"), OF_ROOT[:1]
    ),
    "attribute types that rules name": Rules(
        lines(HEAD + "access to attrs=lastName,seat,cn \"filter=(&(roomName=a  1)(level<=10))\" by * read|" + TYPES).replace(b"\n", b"\r\n"),
        [Question("cn=e,dc=com", None, ("surname/read", "boss", "1.2.3"), is_verbose=True), Question("cn=e,dc=com", USER, ("cn",), is_strict=True)],
        lines(TYPED),
    ),
    "an attribute type that a rule must know": Rules(
        lines(HEAD + "access to * by dnattr=boss write|attributetype ( 1.2.5 NAME 'boss' SUP distinguishedName )|"),
        [Question("cn=e,dc=com", "CN=b", ("cn",), is_verbose=True)],
        lines(TYPED),
    ),
    "quotes and backslashes": Rules(lines('database "mdb"|suffix "dc=co\\m"|rootdn "cn=\\\\41,dc=com"|access to * by * read|'), OF_ROOT[:1]),
}


# ---- configurations of a site: of each the files, `conf` with those that it includes, or `config`, the LDIF of cn=config

SITES = {
    "a slapd.conf that includes a file": {
        "conf": b"# a \\\nnote\nobjectidentifier my 1.3\nattributetype ( my:1\n NAME 'a' )\naccess to attrs=c\\\nn by * read\n"
        b"database mdb\nsuffix \"dc=com\"\nrootdn cn=r,dc=com\ninclude more\n  access to * by * read\ndatabase mdb\nsuffix dc=net\naccess to * by * none\n",
        "more": b"access to dn.base=\"cn=a b\"\n\tby self\n  write\r\nattributetypes ( my:2 NAME 'b' DESC 'x \"' )\ndatabase frontend\naccess to *\n",
    },
    "files that include one another": {
        "conf": b"include a\ninclude b\n",
        "a": b"include b\ndatabase mdb\nsuffix dc=com\n",
        "b": b"access to * by * read\ninclude c",
        "c": b"#include a\n",
    },
    "a cn=config": {
        "config": b"version: 1\ndn: cn={0}a\nolcObjectIdentifier: {0}my 1.3\nolcAttributeTypes: {0}( my:1\n  NAME 'a' )\n\n"
        b"dn: x\nolcDatabase: {-1}frontend\nolcAccess: {0}to attrs=cn by * read\n\ndn: y\nolcSuffix: dc=net\n\n"
        b"dn: z\nolcSuffix: dc=com\nolcRootDN:: Y249cixkYz1jb20=\nolcAccess: {0}to dn.base=\"cn=a b\" by self\n  write\nolcAccess: {1}to * by * read\n",
    },
}
