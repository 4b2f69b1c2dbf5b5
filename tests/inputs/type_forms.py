"""Definitions of attribute types, right and wrong, and where a configuration has them (RFC 4512, section 4.1.2; docs/DEFINITIONS.md, docs/DECISIONS.md).

Those that are right give the number 1.2.9 and the names `a` and `b`, or some of these, so that the same entries and rules tell what each of them says.
"""
from inputs.cases import lines

BAD_TYPE = "slapkit: config, line {}: C12 BadType\n"
MOST_OF_A_NAME = 512
MOST_OF_A_CONFIGURATION = 16_777_216


def each(texts):
    """The texts of some lines, or of a list. In them `|` ends a line."""
    return [lines(text) for text in (texts.removeprefix("\n").removesuffix("\n").split("\n") if isinstance(texts, str) else texts)]


# Names of a type, and what tells of them whether they are of one type, by which rule it compares values, and whether it takes one value: lines of entries,
# of which the second is refused by some rules, and rules of a configuration, for values that are equal, in order, and found in part.
KINDS = ("a", "b", "1.2.9")
VALUES_OF_A_TYPE = """
{0}: x Y|{0}: X  y
{0}: 1|{1}: 1
{0}: 1|{2}: 1
{0}: 1|{0}: 2
{0}: 007
{0}: +1 5|{0}: +1-5
{0}: cn=A|{0}: CN = A
{0}: /x|{0}: /X
{0}: \u00fc
{0};x: 1|{1};X: 1
cn: 1|{0}: 1
"""
RULES_OF_A_TYPE = """
access to attrs={1} by * +c break
access to attrs={2} by * +d break
access to "filter=({0}>=9)" by * +w break
access to "filter=({0}=1*)" by * +s break
access to "filter=({1}=10)" by * +r break
access to * by * +x
"""


def named(parts):
    return [f"( 1.2.9 {part} EQUALITY integerMatch )" for part in parts]


# ---- parts: keywords with what they may have, in the order of the RFC

PARTS = [
    ("NAME", "( 'a' 'b' )"),
    ("DESC", "'x'"),
    ("OBSOLETE", ""),
    ("SUP", "uidNumber"),
    ("EQUALITY", "caseIgnoreMatch"),
    ("ORDERING", "caseIgnoreOrderingMatch"),
    ("SUBSTR", "caseIgnoreSubstringsMatch"),
    ("SYNTAX", "1.3.6.1.4.1.1466.115.121.1.15{64}"),
    ("SINGLE-VALUE", ""),
    ("COLLECTIVE", ""),
    ("NO-USER-MODIFICATION", ""),
    ("USAGE", "userApplications"),
    ("X-ORIGIN", "( 'x' 'y' )"),
]
FLAGS = [keyword for keyword, value in PARTS if not value]
BEFORE_QUOTED = ["NAME", "DESC", "X-ORIGIN"]
BEFORE_A_WORD = [keyword for keyword, value in PARTS if value and keyword not in BEFORE_QUOTED]


def definition(*parts):
    return " ".join(["( 1.2.9", *(f"{keyword} {value}" for keyword, value in parts), ")"])


def with_name(keyword, *values):
    """A definition of the name `a`, unless the keyword is that of names, and with this keyword before each of these values."""
    name = [] if keyword == "NAME" else [("NAME", "'a'")]
    return definition(*name, *((keyword, value) for value in values))


ORDERS = [definition(*PARTS), definition(*reversed(PARTS)), definition(*PARTS).lower(), definition(*PARTS).replace(" ", "\t")]
ORDERS += [definition(*(part for part in PARTS if part != left_out)) for left_out in PARTS]
ALONE = [with_name(*part) for part in PARTS] + [definition(part, PARTS[0]) for part in PARTS[1:]] + [with_name("X-ORIGIN", "'x'", "'x'")]
# any word is a rule or a syntax, even one that is a keyword
ALONE += [with_name(keyword, "SINGLE-VALUE") for keyword in BEFORE_A_WORD if keyword != "SUP"]
TWICE = [with_name(keyword, value, value) for keyword, value in PARTS[:-1]]
TWICE += [with_name(keyword, f"{value} X-A 'x' {keyword.lower()} {value}") for keyword, value in PARTS[:-1]]
LACKING = [with_name(keyword, "") for keyword, value in PARTS if value]
LACKING += [with_name(keyword, "OBSOLETE") for keyword in [*BEFORE_QUOTED, "SUP"]]
OF_ANOTHER_FORM = [
    *(with_name(keyword, value) for keyword in FLAGS for value in ("'x'", "x", "( 'x' )")),
    *(with_name(keyword, value) for keyword in BEFORE_A_WORD for value in ("( cn )", "( 'cn' )", "( cn $ sn )", "'cn", "cn sn", "'cn' 'sn'")),
    *(with_name(keyword, value) for keyword in BEFORE_QUOTED for value in ("z", '"z"', "( z )", "( 'z' y )", "( ( 'z' ) )", "( 'z'", "'z", "'z' 'y'")),
    *(with_name("DESC", value) for value in ("( 'x' )", "( )", "''''", r"'x\'y'", "1.2")),
    *(with_name(keyword, "'x'") for keyword in ("NAMES", "X", "X_A", "XX-A", "-", "1.2", "'NAME'", "(", ")", "DESCRIPTION")),
    *(with_name(keyword, "cn") for keyword in ("SUPER", "MUST", "SINGLE_VALUE", "ABSTRACT", "EQUALITY=")),
]

# ---- rules

EQUALITIES = "caseIgnoreMatch caseIgnoreIA5Match caseExactIA5Match telephoneNumberMatch integerMatch distinguishedNameMatch octetStringMatch".split()
EQUALITIES += "objectIdentifierMatch caseExactMatch uniqueMemberMatch generalizedTimeMatch 2.5.13.2 2.5.13.14 '' 'integerMatch' INTEGERMATCH x".split()
SUPS = "cn CN commonName 2.5.4.3 c mail dc telephoneNumber member userPassword uidNumber homeDirectory objectClass name Name distinguishedName".split()
SUPS += ["'uidNumber'", "'DISTINGUISHEDNAME'", "nothing EQUALITY integerMatch", "cn EQUALITY integerMatch", "name EQUALITY x"]
UNKNOWN_SUPS = ["nothing", "a", "b", "1.2.9", "2.5.4.41", "2.5.4.49", "''", "' cn'", "'cn '", "cn;x", "cn,", "top", "caseIgnoreMatch", "SUP", "DESC"]

# ---- names and numbers

NAMES = ["", "NAME 'a'", "NAME ( 'a' )", "NAME ( 'b' 'a' )", "NAME('a''b')", "NAME ( )", "NAME ()", "NAME ( 'a' 'A' 'a' )", "NAME ( 'A-1-' 'a' 'B' )"]
NAMES += [f"NAME ( 'a' '{name}' )" for name in ("version", "entry", "children", "newrdn", "top", "x-dn", "person")]
BAD_NAMES = ["", "1a", "-a", "a_b", "a b", " a", "a ", "a;x", "a.b", "\u00e4", "1.2.8", "1.2.9", "\0", "dn", "DN", "ChangeType", "control"]
BAD_NAMES += ["cn", "CN", "commonName", "surname", "objectClass"]
NUMBERS = ["1.2.9", "1.2", "0.0", "0.0.0", "2.999.1", "1.0.10", "1.99999999999999999999999999999999"]
BAD_NUMBERS = ["", "1", "0", "1.", ".1", "1..2", "01.2", "1.02", "1.2.00", "1.2.9.", "1.2.9{64}", "'1.2.9'", "-1.2", "1.-2", "1,2", "1.2x", "1.x", "a"]
# macros, as of slapd's objectidentifier
BAD_NUMBERS += ["OLcfgAt", "OLcfgAt:1", "OLcfgAt:1.2"]
# a type that is known gains names alone
KNOWN = """
( 2.5.4.3 )
( 2.5.4.3 NAME 'a' )
( 2.5.4.3 NAME ( 'a' 'cn' 'B' 'COMMONNAME' ) )
( 2.5.4.3 NAME 'a' SUP nothing )
( 2.5.4.3 NAME 'a' SUP uidNumber EQUALITY integerMatch SINGLE-VALUE )
( 2.5.4.10 NAME ( 'a' 'o' 'b' ) SYNTAX x )
( 0.9.2342.19200300.100.1.25 NAME ( 'a' 'b' ) )
( 1.3.6.1.1.1.1.0 NAME ( 'a' 'b' ) )
( 2.5.4.31 NAME ( 'a' 'b' ) )
"""
BADLY_KNOWN = """
( 2.5.4.3 NAME 'sn' )
( 2.5.4.3 NAME ( 'a' 'SURNAME' ) )
( 2.5.4.3 NAME ( 'a' 'dn' ) )
( 2.5.4.3 NAME ( 'a' 'a_b' ) )
( 2.5.4.3 NAME a )
( 2.5.4.3 NAME 'a' SUP nothing SUP nothing )
( 02.5.4.3 NAME 'a' )
"""

# ---- signs, white space, and what is between quotes

SIGNS = r"""
(1.2.9)
(1.2.9 NAME'a')
(1.2.9 NAME'a'DESC'x'SINGLE-VALUE)
(1.2.9 NAME('a')SINGLE-VALUE EQUALITY'integerMatch'DESC'')
  ( 1.2.9   NAME   'a'   )  
( 1.2.9|  NAME 'a'|	EQUALITY integerMatch|	)
( 1.2.9 NAME 'a'| EQUALITY| integerMatch )| 
( 1.2.9 NAME 'a' )|	|
( 1.2.9 DESC '' NAME 'a' )
( 1.2.9 DESC '( NAME "x )' NAME 'a' )
( 1.2.9 DESC 'a) # $ { ; \' NAME 'a' )
( 1.2.9 DESC '\27\5C\5c\zz' NAME 'a' )
( 1.2.9 DESC 'one|  # two| three' NAME 'a' )
( 1.2.9 X-ORIGIN 'x' X-ORIGIN ( 'x' ) x-origin ( ) X- '' X-NAME 'b' NAME 'a' )
( 1.2.9 X-'x'NAME 'a' )
( 1.2.9 X-"$ 'x' NAME 'a' )
( 1.2.9 NAME 'a' SYNTAX 'x' USAGE nothing ORDERING '' SUBSTR "x" )
( 1.2.9 NAME 'a' SYNTAX 1.2{x}{y} EQUALITY integerMatch{1} )
"""
BAD_SIGNS = r"""

(
)
( )
()
( 1.2.9
1.2.9
1.2.9 )
( 1.2.9 ) )
( 1.2.9 ) x
( 1.2.9 ) ( 1.2.8 )
( ( 1.2.9 ) )
( 1.2.9 NAME 'a' ) # a comment
"( 1.2.9 NAME 'a' )"
'( 1.2.9 )'
{ 1.2.9 NAME 'a' }
( NAME 'a' 1.2.9 )
( NAME 'a' )
( 1.2.9NAME 'a' )
( 1.2.9 SINGLE-VALUENAME 'a' )
( 1.2.9 NAME 'a'|EQUALITY integerMatch )
( 1.2.9 NAME 'a'|# a comment| )
( 1.2.9 NAME 'a' DESC '|# x' )
( 1.2.9 NAME 'a' DESC 'open )
( 1.2.9 NAME 'a' DESC x' )
( 1.2.9 NAME 'a\' )
( 1.2.9 NAME 'a' $ )
( 1.2.9, NAME 'a' )
"""
# any byte but a quote may be between quotes, but none but space and tab is white space
BYTES = [b"\xff", b"\0", b"\x1b", b"a\rb", b"\xc3\xa4", b"\xc3", b"\xed\xa0\x80", b'"\\', b"\xe2\x80\x99", b"\r\n "]
IN_QUOTES = [b"( 1.2.9 DESC '" + text + b"' NAME 'a' )" for text in BYTES]
NO_SPACES = [b"\f", b"\v", b"\r", b"\0", b"\xa0", b"\xc2\xa0"]
BADLY_SPACED = [b"( 1.2.9" + space + b"NAME 'a' )" for space in NO_SPACES] + [b"( 1.2.9 NAME" + space + b"'a' )" for space in NO_SPACES]

# what is asked of definitions, and those that are right and wrong
DEFINITIONS = {
    "parts of definitions": (each(ORDERS + ALONE), each(TWICE + LACKING + OF_ANOTHER_FORM)),
    "rules of definitions": (
        each([with_name("EQUALITY", rule) for rule in EQUALITIES] + [with_name("SUP", sup) for sup in SUPS]),
        each([with_name("SUP", sup) for sup in UNKNOWN_SUPS]),
    ),
    "names of definitions": (
        each(named(NAMES)),
        each(named([f"NAME '{name}'" for name in BAD_NAMES] + [f"NAME ( 'a' '{name}' 'b' )" for name in BAD_NAMES])),
    ),
    "numbers of definitions": (
        each([f"( {number} NAME ( 'a' 'b' ) )" for number in NUMBERS]),
        each([f"( {number} NAME ( 'a' 'b' ) )" for number in BAD_NUMBERS]),
    ),
    "definitions of known numbers": (each(KNOWN), each(BADLY_KNOWN)),
    "signs of definitions": (each(SIGNS) + IN_QUOTES, each(BAD_SIGNS) + BADLY_SPACED),
}

# ---- definitions one after the other, and the line of the first that is wrong

IN_TURN = [
    ("( 1.2.8 NAME 'b' SUP uidNumber )|( 1.2.9 NAME 'a' SUP B )", None),
    ("( 1.2.8 NAME ( 'z' 'b' ) SUP name SINGLE-VALUE )|( 1.2.7 SUP 1.2.8 )|( 1.2.9 NAME 'a' SUP 1.2.7 )", None),
    ("( 1.2.9 NAME 'a' SUP b )|( 1.2.8 NAME 'b' )", 1),
    ("( 1.2.8 NAME 'b' )|( 1.2.9 NAME ( 'a' 'B' ) )", 2),
    ("( 1.2.9 NAME 'a' )|( 1.2.9 NAME 'a' )", None),
    ("( 1.2.9 NAME 'a' EQUALITY integerMatch )|( 1.2.9 NAME 'b' EQUALITY x SINGLE-VALUE )", None),
    ("( 1.2.9 SINGLE-VALUE )|( 1.2.9 NAME 'a' SUP nothing )|( 1.2.9 NAME ( 'a' 'b' ) )", None),
    ("( 1.2.9 NAME 'b' )|( 1.2.9 NAME ( 'a' 'cn' ) )", 2),
    ("( 2.5.4.3 NAME 'a' )|( 1.2.9 NAME 'a' )", 2),
    ("( 2.5.4.41 NAME 'name' EQUALITY octetStringMatch )|( 1.2.9 NAME 'a' SUP name )", None),
    ("( 1.2.8 NAME 'distinguishedName' SUP uidNumber )|( 1.2.9 NAME 'a' SUP DistinguishedName )", None),
    ("( 1.2.8 )|( 1.2.9 NAME 'a' )|x|( 1.2.9", 4),
    ("( 1.2.8 )|  |( 1.2.9 NAME 'a'| )|( 1.2.7| )|# x|( x| )", 8),
]

# ---- where a configuration has a definition, and what it is no definition for

PLACES = """
TYPE
 TYPE
	TYPE
|TYPE
| TYPE
|| 	TYPE|
TYPE\r
#TYPE
# x| TYPE
 #TYPE
##|TYPE
include x|TYPE
include x| TYPE
database monitor|TYPE
database config|TYPE
database monitor|access to nothing|TYPE|database x
database config|attributetype x
suffix BAD|TYPE
rootdn "cn=a|TYPE
access to *|TYPE
access to *| TYPE
access to * by "|TYPE
x \\|TYPE
x TYPE
"TYPE"
suffix BAD|attributetype
attributetype
attributetype |
#attributetype
attributetype| |
attributetype|	( 1.2.9
attributetype| ( 1.2.9| NAME ( 'a' 'b' )| EQUALITY integerMatch| )
attributetype\r| ( 1.2.9\r| NAME ( 'a' 'b' )\r\r| EQUALITY integerMatch )\r
attributetype\r\r| ( 1.2.9 NAME 'a' )
attributetype\t( 1.2.9 NAME 'a' )
ATTRIBUTETYPE ( 1.2.9 NAME 'a' )
AttributeType ( 1.2.9 NAME 'a' )
attributetype( 1.2.9 NAME 'a' )
attributetypes ( 1.2.9 NAME 'a' )
attributetype: ( 1.2.9 NAME 'a' )
olcAttributeTypes: ( 1.2.9 NAME 'a' )
"attributetype" ( 1.2.9 NAME 'a' )
attribute\\type ( 1.2.9 NAME 'a' )
attribute| type ( 1.2.9 NAME 'a' )
\fattributetype ( 1.2.9 NAME 'a' )
attributetype\f( 1.2.9 NAME 'a' )
objectclass ( 1.2.9 NAME 'a' )
objectidentifier a 1.2
""".replace("TYPE", "attributetype ( 1.2.9 NAME ( 'a' 'b' ) EQUALITY integerMatch )")

# ---- limits: a definition, the names of its type, and whether it is right


def around(limit):
    return limit - 1, limit, limit + 1


def long_definitions():
    for length in around(MOST_OF_A_NAME):
        name, number, is_right = "n" * length, f"1.{'2' * (length - 2)}", length <= MOST_OF_A_NAME
        yield f"( 1.2.9 NAME ( 'a' '{name}' ) EQUALITY integerMatch )", ("a", name, "1.2.9"), is_right
        yield f"( 1.2.9 NAME '{name}' EQUALITY integerMatch )", ("1.2.9", name, name), is_right
        yield f"( 2.5.4.3 NAME ( 'a' '{name}' ) )", ("a", name, "cn"), is_right
        yield f"( {number} NAME 'a' EQUALITY integerMatch )", ("a", number, number), is_right
        yield f"( {number} )", (number, number, number), is_right
        yield f"( 1.2.9 NAME 'a' SUP {name} )", ("a", "b", "1.2.9"), False
        yield f"( 1.2.9 NAME 'a' EQUALITY {name} SYNTAX {name} )", ("a", "b", "1.2.9"), True
        yield f"( 1.2.9 NAME 'a' X-{name} '{name}' )", ("a", "b", "1.2.9"), True
        yield f"( 1.2.9 NAME 'a' {name} '{name}' )", ("a", "b", "1.2.9"), False
    many = [f"a{number}" for number in range(999)]
    yield f"( 1.2.9 NAME ( 'a' '{'$'.join(many)}' ) )".replace("$", "' '"), ("a998", "a500", "1.2.9"), True
    yield f"( 1.2.9 NAME ( 'a' '{'$'.join(many)}' 'cn' ) )".replace("$", "' '"), ("a998", "a500", "1.2.9"), False
    yield f"( 1.2.9 DESC '{'x' * 1_000_000}' NAME 'a' {'( ' * 100})", ("a", "b", "1.2.9"), False
    yield f"( 1.2.9 DESC '{'x )' * 1_000_000}' NAME 'a' SUP uidNumber)", ("a", "b", "1.2.9"), True


LIMITS = list(long_definitions())


def configurations_of(length):
    """Configurations of so many bytes that define the type of integers `a`: with a long text in quotes, and with a long line after it."""
    for begin, end in (("attributetype ( 1.2.9 NAME 'a' DESC '", "' SUP uidNumber )"), ("attributetype ( 1.2.9 NAME 'a' SUP uidNumber )\n#", "")):
        yield (begin + "x" * (length - len(begin) - len(end)) + end).encode()
