#!/usr/bin/env python3
"""Asks slapkit whole files of questions (slapacl --questions), and looks at the report, the file of answers, the exit status and the faults.

usage: suites.py PROGRAM [SUITES [TEXTS]]

The rows say what docs/DEFINITIONS.md, docs/CODES.md and slapd.access(5) want of each text; model/asking.py, which reads such files in another language, must
say the same. Random questions, in SUITES files (12), are answered as slapkit answers each of them alone. TEXTS files (300) are changed at random. The
copy has `dc=com`, below it `cn=t`, whose manager is `cn=m`, and `cn=Foo Bar`.
"""
import base64
import dataclasses
import os
import pathlib
import random
import subprocess
import sys

sys.path.insert(0, str(pathlib.Path(__file__).resolve().parents[1]))

from harness import checks
from harness.checks import Wrong, expect
from harness.runs import Place
from inputs.cases import RULES
from model.asking import MOST_BYTES_OF_QUESTIONS, NO_SUCH_ENTRY, SETS, Suite, blocks_of, suite_answer
from model.ldif import MOST_BYTES_OF_A_LINE, MOST_BYTES_OF_A_VALUE

# the longest texts have 16 MiB
SECONDS = 60
COPY = (
    "dn: dc=com\ndc: com\n\n"
    "dn: cn=t,dc=com\ncn: t\nmanager: cn=m,dc=com\n\n"
    "dn: cn=Foo Bar,dc=com\ncn: Foo Bar\n\n"
)
# Passwords are for their owners to change, and to log in with. Managers change telephone numbers, which others compare once they have logged in.
CONF = (
    "database mdb\nsuffix dc=com\nrootdn cn=r,dc=com\n"
    "access to attrs=userPassword by self =xw by anonymous auth\n"
    "access to attrs=telephoneNumber by dnattr=manager write by users compare\n"
    "access to * by * read\n"
)
BAD_CONF = "database mdb\nsuffix dc=com\naccess to * by peek\n"
NOTED_CONF = f"include more\n{CONF}"
NOTE = 'slapkit: note: config, line 1: include "more" is not read\n'
STRICT = "slapkit: not answered, because there are notes\n"
ONE = "dn: cn=t,dc=com\ncn: =rscxd\n"
ONE_REPORT = "as expected 1, otherwise 0, asked 0\n"
BAD_COPY = "dn: x\n\n"
# a word of a type that isn't known
GN = "dn: cn=t,dc=com\ngn: =rscxd\n"
GN_NOTE = 'slapkit: note: questions, line 2: word "gn": unknown attribute "gn"\n'


def ask(place, questions, *options, conf=CONF, copy=COPY):
    """What a run over these texts ends with, which is to write a file of answers. That file alone may be left."""
    for name, text in (("conf", conf), ("copy", copy), ("questions", questions)):
        place.write(name, text if isinstance(text, bytes) else text.encode())
    before = place.names()
    ended = place.run("slapacl", "-f", "conf", "--data", "copy", "--questions", "questions", "--answers", "out", *options)
    left, answers = place.names() - before, place.read("out")
    place.remove("out")
    expect(left, set() if answers is None else {"out"}, "files that are left")
    return Suite(*ended, None if answers is None else answers.decode())


def by_model(questions, *options, conf=CONF, copy=COPY):
    data = [text if isinstance(text, bytes) else text.encode() for text in (conf, questions, copy)]
    return suite_answer(*data, is_verbose="-v" in options, is_strict="--strict" in options)


# ---- what files of questions say


def encoded(value):
    return base64.b64encode(value.encode()).decode()


@dataclasses.dataclass
class Form:
    """A file of questions, the verbose report without its counts, these counts, the file of answers, and the notes."""

    shows: str
    questions: str
    report: str
    counts: tuple
    answers: str
    notes: str = ""


LONG = "cn=" + "x" * 90
FORMS = [
    Form("an answer as expected", ONE, "line 2: cn: =rscxd, as expected\n", (1, 0, 0), f"{ONE}\n"),
    Form("one that is otherwise", "dn: cn=t,dc=com\ncn: =sc\n", "line 2: cn: =rscxd, expected =sc\n", (0, 1, 0), f"{ONE}\n"),
    Form("one that is only asked for", "dn: cn=t,dc=com\ncn:\n", "line 2: cn: =rscxd\n", (0, 0, 1), f"{ONE}\n"),
    Form(
        "levels, and the spelling of words",
        "dn: cn=t,dc=com\nCN/Read: ALLOWED\n2.5.4.3/write: ALLOWED\ncn/NONE:\nENTRY: =0\nchildren;x: =rscxd\ncn: =rscxd\ncn: =rscxd\n",
        "line 2: CN/Read: ALLOWED, as expected\nline 3: 2.5.4.3/write: DENIED, expected ALLOWED\nline 4: cn/NONE: ALLOWED\n"
        "line 5: ENTRY: =rscxd, expected =0\nline 6: children;x: =rscxd, as expected\nline 7: cn: =rscxd, as expected\nline 8: cn: =rscxd, as expected\n",
        (4, 2, 1),
        "dn: cn=t,dc=com\nCN/Read: ALLOWED\n2.5.4.3/write: DENIED\ncn/NONE: ALLOWED\nENTRY: =rscxd\nchildren;x: =rscxd\ncn: =rscxd\ncn: =rscxd\n\n",
        'slapkit: note: questions, line 6: word "children;x": unknown attribute "children;x"\n',
    ),
    Form(
        "nobody, in each way, and somebody",
        "dn: cn=t,dc=com\nuserPassword: =xd\n\n"
        "authcDN:\ndn: cn=t,dc=com\nuserPassword: =xd\n\n"
        "AUTHCDN: Anonymous\nDn: cn=t,dc=com\nuserPassword: =xd\n\n"
        f"authcdn:: {encoded('anonymous')}\ndn: cn=t,dc=com\nuserPassword: =xd\n\n"
        "authcDN: CN=T,dc=com\ndn: cn=t,dc=com\nuserPassword: =wx\n",
        "line 2: userPassword: =xd, as expected\nline 6: userPassword: =xd, as expected\nline 10: userPassword: =xd, as expected\n"
        "line 14: userPassword: =xd, as expected\nline 18: userPassword: =wx, as expected\n",
        (5, 0, 0),
        "dn: cn=t,dc=com\nuserPassword: =xd\n\n" * 4 + "authcDN: CN=T,dc=com\ndn: cn=t,dc=com\nuserPassword: =wx\n\n",
    ),
    Form(
        "entries that are made up have no attributes, and are at or below the suffix",
        "authcDN: cn=m,dc=com\ndn: cn=t,dc=com\ntelephoneNumber: =wrscxd\n\n"
        "authcDN: cn=m,dc=com\nfake: true\ndn: cn=t,dc=com\ntelephoneNumber: =cxd\n\n"
        "FAKE: TRUE\ndn: cn=new,dc=com\ntelephoneNumber: =0\n\n"
        "fake: true\ndn: cn=new,dc=org\ncn: no such entry\n\n"
        "dn:\nentry:\n",
        "line 3: telephoneNumber: =wrscxd, as expected\nline 8: telephoneNumber: =cxd, as expected\nline 12: telephoneNumber: =0, as expected\n"
        "line 16: cn: no such entry, as expected\nline 19: entry: no such entry\n",
        (4, 0, 1),
        "authcDN: cn=m,dc=com\ndn: cn=t,dc=com\ntelephoneNumber: =wrscxd\n\nauthcDN: cn=m,dc=com\nfake: true\ndn: cn=t,dc=com\ntelephoneNumber: =cxd\n\n"
        "fake: true\ndn: cn=new,dc=com\ntelephoneNumber: =0\n\nfake: true\ndn: cn=new,dc=org\ncn: no such entry\n\ndn:\nentry: no such entry\n\n",
    ),
    Form(
        "an entry that is not there, for each word",
        "dn: cn=gone,dc=com\ncn: =0\ncn/read: DENIED\nentry: no such entry\nentry/read:\n\ndn: cn=t,dc=com\ncn: no such entry\ncn/read: no such entry\n",
        "line 2: cn: no such entry, expected =0\nline 3: cn/read: no such entry, expected DENIED\nline 4: entry: no such entry, as expected\n"
        "line 5: entry/read: no such entry\nline 8: cn: =rscxd, expected no such entry\nline 9: cn/read: ALLOWED, expected no such entry\n",
        (1, 4, 1),
        "dn: cn=gone,dc=com\ncn: no such entry\ncn/read: no such entry\nentry: no such entry\nentry/read: no such entry\n\n"
        "dn: cn=t,dc=com\ncn: =rscxd\ncn/read: ALLOWED\n\n",
    ),
    Form(
        "the rootdn",
        "authcDN: cn=R,dc=com\ndn: cn=t,dc=com\nuserPassword: =mwrscxd\n",
        "line 3: userPassword: =mwrscxd, as expected\n",
        (1, 0, 0),
        "authcDN: cn=R,dc=com\ndn: cn=t,dc=com\nuserPassword: =mwrscxd\n\n",
    ),
    Form(
        "comments, folded lines, base64, CRLF and empty lines, and the numbers of the lines",
        "# one\n goes on\n\n\nversion: 1\r\n# two\r\ndn: cn=Foo\r\n  Bar,dc=com\r\n# three\ncn: =rs\n cxd\n\n\r\n\r\n# four\ndn: cn=t,dc=com\n# five\n"
        f"cn:: {encoded('=rscxd')}\nsn:   =rscxd\n\n# six",
        "line 10: cn: =rscxd, as expected\nline 18: cn: =rscxd, as expected\nline 19: sn: =rscxd, as expected\n",
        (3, 0, 0),
        "dn: cn=Foo Bar,dc=com\ncn: =rscxd\n\ndn: cn=t,dc=com\ncn: =rscxd\nsn: =rscxd\n\n",
    ),
    Form("no text", "", "", (0, 0, 0), ""),
    Form("a version alone", "version: 1\n", "", (0, 0, 0), ""),
    Form("comments alone", "# one\n\n# two", "", (0, 0, 0), ""),
    Form("no end of the last line", "dn: cn=t,dc=com\ncn: =rscxd", "line 2: cn: =rscxd, as expected\n", (1, 0, 0), f"{ONE}\n"),
    Form(
        "names are printed, and long lines folded",
        f"dn: cn=\\74,dc=com\ncn: =rscxd\n\nauthcDN:: {encoded('cn=ü,dc=com')}\nfake: true\ndn: {LONG},dc=com\ncn: =rscxd\n",
        "line 2: cn: =rscxd, as expected\nline 7: cn: =rscxd, as expected\n",
        (2, 0, 0),
        f"{ONE}\nauthcDN: cn=\\C3\\BC,dc=com\nfake: true\ndn: {LONG[:72]}\n {LONG[72:]},dc=com\ncn: =rscxd\n\n",
    ),
]

def check_forms(place):
    for row in FORMS:
        as_expected, otherwise, asked = row.counts
        last, status = f"as expected {as_expected}, otherwise {otherwise}, asked {asked}\n", int(otherwise > 0)
        wanted = Suite(status, row.report + last, row.notes, row.answers)
        expect(ask(place, row.questions, "-v"), wanted, row.shows)
        expect(by_model(row.questions, "-v"), wanted, f"{row.shows}, by the model")
        # without -v, what is otherwise alone has a line; and without a file of answers, nothing else is different
        short = "".join(line for line in row.report.splitlines(keepends=True) if ", expected " in line) + last
        expect(ask(place, row.questions), Suite(status, short, row.notes, row.answers), f"{row.shows}, without -v")
        found = place.run("slapacl", "-f", "conf", "--data", "copy", "--questions", "questions")
        expect(found, (status, short, row.notes), f"{row.shows}, without --answers")
        # what was written is answered as expected, and written again
        answered_again(place, row.answers, as_expected + otherwise + asked, row.shows)
    return f"{len(FORMS)} files"


def answered_again(place, answers, count, what, **texts):
    """A file of answers, run over the texts that gave it."""
    found = ask(place, answers, **texts)
    expect((found.status, found.report, found.answers), (0, f"as expected {count}, otherwise 0, asked 0\n", answers), f"{what}, again")


# ---- faults of a file of questions


@dataclasses.dataclass
class Fault:
    """The first fault of a text: with its line, or of the text as a whole."""

    questions: str | bytes
    line: int | None
    cause: str


FAULTS = [
    # lines
    Fault("dn: cn=t,dc=com\nno colon\n", 2, "L1 BadLine"),
    Fault("# c\n\nno colon\n", 3, "L1 BadLine"),
    Fault(": =0\n", 1, "L1 BadLine"),
    Fault("dn: cn=t,dc=com\ncn: =rs\0cxd\n", 2, "L1 BadLine"),
    Fault("dn: cn=t,dc=com\ncn:: =\n", 2, "L2 BadBase64"),
    Fault("dn:: PQ\ncn:\n", 1, "L2 BadBase64"),
    Fault("dn: cn=t,dc=com\ncn:< file:///etc/passwd\n", 2, "L3 UrlValue"),
    Fault(f"dn: cn=t,dc=com\ncn: {'=' * (MOST_BYTES_OF_A_VALUE + 1)}\n", 2, "L8 ValueTooLong"),
    # blocks
    Fault("dn: cn=t,dc=com\n", 1, "A1 BadBlock"),
    Fault("# c\n\n\nauthcDN: cn=t,dc=com\ndn: cn=t,dc=com\n\n", 4, "A1 BadBlock"),
    Fault("authcDN: cn=t,dc=com\n", 1, "A1 BadBlock"),
    Fault("fake: true\n", 1, "A1 BadBlock"),
    Fault("cn: =0\n", 1, "A1 BadBlock"),
    # an empty line ends a block, also after a comment
    Fault("# c\ndn: cn=t,dc=com\n# d\n\ncn: =0\n", 2, "A1 BadBlock"),
    Fault(f"{ONE}\ncn: =0\n", 4, "A1 BadBlock"),
    Fault("authcDN: cn=t,dc=com\n# c\nfake: true\ncn: =0\n", 4, "A1 BadBlock"),
    Fault("cn: =0\ndn: cn=t,dc=com\n", 1, "A1 BadBlock"),
    Fault("fake: true\nauthcDN: cn=t,dc=com\ndn: cn=t,dc=com\ncn:\n", 2, "A1 BadBlock"),
    Fault("authcDN:\nauthcDN:\ndn: cn=t,dc=com\ncn:\n", 2, "A1 BadBlock"),
    Fault("dn: cn=t,dc=com\nauthcDN: cn=t,dc=com\ncn:\n", 2, "A1 BadBlock"),
    Fault("dn: cn=t,dc=com\ncn:\nFake: true\n", 3, "A1 BadBlock"),
    Fault("dn: cn=t,dc=com\ncn:\ndn: cn=t,dc=com\ncn:\n", 3, "A1 BadBlock"),
    Fault("fake: false\ndn: cn=t,dc=com\ncn:\n", 1, "A1 BadBlock"),
    Fault("authcDN:\nfake:\ndn: cn=t,dc=com\ncn:\n", 2, "A1 BadBlock"),
    Fault("fake: yes\n", 1, "A1 BadBlock"),
    # names
    Fault("dn: x\ncn:\n", 1, "A2 BadName"),
    Fault("authcDN: x\ndn: cn=t,dc=com\ncn:\n", 1, "A2 BadName"),
    Fault("authcDN: nobody\n", 1, "A2 BadName"),
    Fault("dn: cn=t,dc=com,\ncn:\n", 1, "A2 BadName"),
    Fault("dn: uidNumber=007,dc=com\ncn:\n", 1, "A2 BadName"),
    Fault("dn: uid=\ncn:\n", 1, "A2 BadName"),
    Fault(f"dn: {','.join(['cn=a'] * 65)}\ncn:\n", 1, "A2 BadName"),
    Fault(b"dn: cn=\xff,dc=com\n", 1, "A2 BadName"),
    # words
    Fault("dn: cn=t,dc=com\ncn/peek: DENIED\n", 2, "A3 BadWord"),
    Fault("dn: cn=t,dc=com\ncn/: DENIED\n", 2, "A3 BadWord"),
    Fault("dn: cn=t,dc=com\ncn/read/x: DENIED\n", 2, "A3 BadWord"),
    Fault("dn: cn=t,dc=com\ncn : =0\n", 2, "A3 BadWord"),
    Fault("dn: cn=t,dc=com\n1a: =0\n", 2, "A3 BadWord"),
    Fault("dn: cn=t,dc=com\ndn/read: DENIED\n", 2, "A3 BadWord"),
    Fault("dn: cn=t,dc=com\n\x1b[2J: =0\n", 2, "A3 BadWord"),
    Fault("dn: cn=t,dc=com\ncné: =0\n", 2, "A3 BadWord"),
    # answers
    Fault("dn: cn=t,dc=com\ncn: =cs\n", 2, "A4 BadAnswer"),
    Fault("dn: cn=t,dc=com\ncn: =\n", 2, "A4 BadAnswer"),
    Fault("dn: cn=t,dc=com\ncn: =00\n", 2, "A4 BadAnswer"),
    Fault("dn: cn=t,dc=com\ncn: =rr\n", 2, "A4 BadAnswer"),
    Fault("dn: cn=t,dc=com\ncn: =az\n", 2, "A4 BadAnswer"),
    Fault("dn: cn=t,dc=com\ncn: rscxd\n", 2, "A4 BadAnswer"),
    Fault("dn: cn=t,dc=com\ncn: read\n", 2, "A4 BadAnswer"),
    Fault("dn: cn=t,dc=com\ncn: =RSCXD\n", 2, "A4 BadAnswer"),
    Fault("dn: cn=t,dc=com\ncn: =rscxd \n", 2, "A4 BadAnswer"),
    Fault("dn: cn=t,dc=com\ncn: ALLOWED\n", 2, "A4 BadAnswer"),
    Fault("dn: cn=t,dc=com\ncn/read: =rscxd\n", 2, "A4 BadAnswer"),
    Fault("dn: cn=t,dc=com\ncn/read: allowed\n", 2, "A4 BadAnswer"),
    Fault("dn: cn=t,dc=com\ncn: No such entry\n", 2, "A4 BadAnswer"),
    Fault(f"dn: cn=t,dc=com\ncn:: {encoded(chr(27) + '[2J')}\n", 2, "A4 BadAnswer"),
    # a version that is not the first line is a word
    Fault(f"version: 1\n\n{ONE}version: 1\n", 5, "A4 BadAnswer"),
    # the first faulty line decides, in whatever block it is, and in a line its name comes before its answer
    Fault(f"{ONE}\ndn: cn=t,dc=com\ncn: =cs\n\ndn: x\n", 5, "A4 BadAnswer"),
    Fault("dn: cn=t,dc=com\ncn/peek: =cs\nno colon\n", 2, "A3 BadWord"),
    Fault("authcDN: x\nfake: no\ndn: x\n", 1, "A2 BadName"),
    # the text as a whole, before all lines
    Fault(f"version: 2\n\n{ONE}", None, "L15 BadVersion"),
    Fault(f"no colon\n\n# {'x' * MOST_BYTES_OF_A_LINE}\n", None, "L10 LineTooLong"),
    Fault(b"no colon\n" + b"#\n" * (MOST_BYTES_OF_QUESTIONS // 2 - 4), None, "A5 TooLong"),
]


def check_faults(place):
    for row in FAULTS:
        where = "questions" if row.line is None else f"questions, line {row.line}"
        shown = row.questions if len(row.questions) < 200 else row.questions[:200]
        wanted = Suite(1, "", f"slapkit: {where}: {row.cause}\n")
        expect(ask(place, row.questions), wanted, shown)
        expect(by_model(row.questions), wanted, f"{shown}, by the model")
    # as long as it may be
    longest = ONE + "\n" + "# a comment\n" * ((MOST_BYTES_OF_QUESTIONS - len(ONE) - 1) // 12)
    longest += "#" * (MOST_BYTES_OF_QUESTIONS - len(longest))
    expect(ask(place, longest), Suite(0, ONE_REPORT, "", f"{ONE}\n"), "the longest text")
    return f"{len(FAULTS)} files"


# ---- in which order faults are told


@dataclasses.dataclass
class Order:
    """Which fault is told where there are several: with some files missing, or the file of answers there, or texts that are faulty."""

    shows: str
    fault: str
    missing: tuple = ()
    is_there: bool = False
    conf: str = CONF
    questions: str = ONE
    copy: str = COPY
    options: tuple = ()
    notes: str = ""
    # of the configuration, the questions, the copy and the answers
    paths: tuple = ("conf", "questions", "copy", "out")


NO_BLOCK = "cn: =0\n"
ORDER = [
    Order("the same path before one that can't be opened", "same path twice: conf", ("conf",), paths=("conf", "questions", "conf", "out")),
    Order("of the questions", "same path twice: conf", paths=("conf", "conf", "copy", "out")),
    Order("of the copy", "same path twice: questions", paths=("conf", "questions", "questions", "out")),
    Order("the first that is repeated", "same path twice: conf", paths=("conf", "conf", "conf", "conf")),
    Order("the copy before the answers", "same path twice: questions", paths=("conf", "questions", "questions", "conf")),
    Order("of the answers, the configuration", "same path twice: conf", paths=("conf", "questions", "copy", "conf")),
    Order("the questions", "same path twice: questions", paths=("conf", "questions", "copy", "questions")),
    Order("the copy", "same path twice: copy", paths=("conf", "questions", "copy", "copy")),
    Order("the configuration is opened first", "cannot open conf", ("conf", "questions", "copy"), is_there=True),
    Order("then the questions", "cannot open questions", ("questions", "copy"), is_there=True),
    Order("then the copy", "cannot open copy", ("copy",), is_there=True),
    Order("then the answers are created", "exists already: out", is_there=True, conf=BAD_CONF, questions=NO_BLOCK, copy=BAD_COPY),
    Order("or can't be", "cannot open none/out", conf=BAD_CONF, paths=("conf", "questions", "copy", "none/out")),
    Order("then the configuration", "config, line 3: C2 Unsupported", conf=BAD_CONF, questions=NO_BLOCK, copy=BAD_COPY),
    Order("with its argument", "config, line 3: C2 Unsupported\nslapkit: note: line 3: \"peek\"", conf=BAD_CONF, options=("-v",)),
    Order("its types", "config, line 1: C12 BadType", conf="attributetype x\n", questions=NO_BLOCK),
    Order("then the questions, before its notes", "questions, line 1: A1 BadBlock", conf=NOTED_CONF, questions=NO_BLOCK, copy=BAD_COPY, options=("--strict",)),
    Order("then the notes, where they end the run", STRICT[9:-1], conf=NOTED_CONF, questions=GN, copy=BAD_COPY, options=("--strict",), notes=NOTE + GN_NOTE),
    Order("those on words too", STRICT[9:-1], questions=GN, copy=BAD_COPY, options=("--strict",), notes=GN_NOTE),
    Order("then the copy", "copy, line 1: L9 N4 BadDn", conf=NOTED_CONF, copy=BAD_COPY, notes=NOTE),
    Order("a folder as the configuration", "cannot read config", paths=("/", "questions", "copy", "out"), questions=NO_BLOCK),
    Order("a folder as the questions", "cannot read questions", paths=("conf", "/", "copy", "out"), copy=BAD_COPY),
    Order("a folder as the copy", "cannot read copy", paths=("conf", "questions", "/", "out")),
]


def check_order(place):
    for row in ORDER:
        for name, text in (("conf", row.conf), ("questions", row.questions), ("copy", row.copy)):
            place.write(name, text.encode())
        place.remove(*row.missing)
        if row.is_there:
            place.write("out", b"kept")
        before = place.names()
        conf, questions, copy, out = row.paths
        words = ["slapacl", "-f", conf, "--data", copy, "--questions", questions, "--answers", out, *row.options]
        found = place.run(*words)
        expect(found, (1, "", f"{row.notes}slapkit: {row.fault}\n"), row.shows)
        expect((place.names(), place.read("out")), (before, b"kept" if row.is_there else None), f"{row.shows}, files that are left")
        place.remove("out")
    # without a file of answers the order is the same
    place.write("conf", BAD_CONF.encode())
    expect(place.run("slapacl", "-f", "conf", "--data", "none", "--questions", "no"), (1, "", "slapkit: cannot open no\n"), "without --answers")
    return f"{len(ORDER)} runs"


def check_strict(place):
    expect(ask(place, ONE, "--strict"), Suite(0, ONE_REPORT, "", f"{ONE}\n"), "without notes")
    expect(ask(place, ONE, conf=NOTED_CONF), Suite(0, ONE_REPORT, NOTE, f"{ONE}\n"), "with a note")
    expect(ask(place, GN), Suite(0, ONE_REPORT, GN_NOTE, f"{GN}\n"), "with a note on a word")
    expect(ask(place, GN, conf=NOTED_CONF), Suite(0, ONE_REPORT, NOTE + GN_NOTE, f"{GN}\n"), "with both")
    expect(ask(place, GN, "--strict"), Suite(1, "", GN_NOTE + STRICT), "a note on a word that ends the run")
    twice = f"{GN}gn/write: DENIED\nentry: =rscxd\n\n{GN}"
    told = "".join(GN_NOTE.replace("line 2", f"line {line}").replace('"gn"', f'"{word}"', 1) for line, word in ((2, "gn"), (3, "gn/write"), (7, "gn")))
    expect(ask(place, twice), Suite(0, "as expected 4, otherwise 0, asked 0\n", told, f"{twice}\n"), "a word that comes twice")


# ---- the command line


EXCLUDED = [
    ["--questions", "questions", "-b", "cn=t,dc=com"],
    ["--questions", "questions", "-D", "cn=t,dc=com"],
    ["--questions", "questions", "-u"],
    ["--questions", "questions", "cn"],
    ["--questions", "questions", "--answers", "out", "-b", "cn=t,dc=com"],
    ["--questions", "questions", "--questions", "questions"],
    ["--questions", "questions", "--answers", "out", "--answers", "other"],
    ["--answers", "out"],
    ["--answers", "out", "-b", "cn=t,dc=com"],
    ["--answers", "out", "-b", "cn=t,dc=com", "-u", "cn"],
    ["--questions"],
    ["--questions", "questions", "--answers"],
    [],
]


def check_words(place):
    for name, text in (("conf", CONF), ("questions", ONE), ("copy", COPY)):
        place.write(name, text.encode())
    before = place.names()
    for words in EXCLUDED:
        command = [place.program, "slapacl", "-f", "conf", "--data", "copy", *words]
        ended = subprocess.run(command, stdin=subprocess.DEVNULL, capture_output=True, text=True, timeout=60)
        expect((ended.returncode, ended.stdout, ended.stderr[:7], place.names()), (1, "", "error: ", before), words)
    for missing in (["--data", "copy"], ["-f", "conf"]):
        command = [place.program, "slapacl", *missing, "--questions", "questions"]
        ended = subprocess.run(command, stdin=subprocess.DEVNULL, capture_output=True, text=True, timeout=60)
        expect((ended.returncode, ended.stdout, ended.stderr[:7]), (1, "", "error: "), missing)
    return f"{len(EXCLUDED)} command lines"


# ---- the file of answers


def check_file(place):
    for name, text in (("conf", CONF), ("questions", ONE), ("copy", COPY)):
        place.write(name, text.encode())
    words = ["slapacl", "-f", "conf", "--data", "copy", "--questions", "questions", "--answers", "out"]
    # its mode is that of the questions, less what the umask takes
    umask = os.umask(0o027)
    try:
        for mode, made in ((0o600, 0o600), (0o640, 0o640), (0o664, 0o640), (0o644, 0o640), (0o400, 0o400), (0o755, 0o640)):
            os.chmod("questions", mode)
            expect(place.run(*words), (0, ONE_REPORT, ""), f"mode {mode:o}")
            expect(oct(os.stat("out").st_mode & 0o7777), oct(made), f"mode of the answers to questions of mode {mode:o}")
            place.remove("out")
    finally:
        os.umask(umask)
        os.chmod("questions", 0o600)
    # it takes no other file's place, and follows no link
    os.symlink("elsewhere", "out")
    expect(place.run(*words), (1, "", "slapkit: exists already: out\n"), "a link")
    expect(place.read("elsewhere"), None, "the file that the link names")
    place.remove("out")
    # a draft that was left behind is in no way
    place.write("out.slapkit-0", b"left")
    expect(place.run(*words), (0, ONE_REPORT, ""), "a draft that was left behind")
    expect((place.read("out.slapkit-0"), place.read("out")), (b"left", f"{ONE}\n".encode()), "and the answers")
    place.remove("out", "out.slapkit-0")
    # it is written where an answer is otherwise, too
    place.write("questions", b"dn: cn=t,dc=com\ncn: =0\n")
    expect(place.run(*words), (1, "line 2: cn: =rscxd, expected =0\nas expected 0, otherwise 1, asked 0\n", ""), "an answer that is otherwise")
    expect(place.read("out"), f"{ONE}\n".encode(), "the answers")
    place.remove("out")
    # the report comes last: where it can't be written there is no file
    with open("/dev/full", "wb") as full:
        ended = subprocess.run([place.program, *words], stdout=full, stderr=subprocess.PIPE, text=True, timeout=60)
    expect((ended.returncode, ended.stderr, place.read("out")), (1, "slapkit: cannot write report\n", None), "a full device")
    expect(sorted(place.names()), ["conf", "copy", "questions"], "files that are left")
    # the questions may be no file
    expect(place.run("slapacl", "-f", "conf", "--data", "copy", "--questions", "/dev/null"), (0, "as expected 0, otherwise 0, asked 0\n", ""), "/dev/null")


# ---- a suite that is cut after each byte

CUT = (
    "version: 1\n\n# a\n b\nauthcDN: cn=m,dc=com\nfake: true\ndn: cn=a,\n dc=com\ncn/read: ALLOWED\ncn: no such entry\n\n"
    "\r\nauthcDN: anonymous\r\ndn:: Y249dCxkYz1jb20=\r\nuserPassword: =xd\r\ntelephoneNumber:\r\n"
)


def check_cut(place):
    for at in range(len(CUT) + 1):
        found = ask(place, CUT[:at], "-v")
        if found.answers is None and not found.message.startswith("slapkit: questions"):
            raise Wrong(f"cut after byte {at}: {found}")
        expect(found, by_model(CUT[:at], "-v"), f"cut after byte {at}")
    return f"{len(CUT)} bytes"


# ---- another copy, and another configuration

SUITE = (
    "dn: dc=com\nentry: =rscxd\n\ndn: cn=Foo Bar,dc=com\ncn: =rscxd\ncn/write: DENIED\n\n"
    "authcDN: cn=m,dc=com\ndn: cn=t,dc=com\ntelephoneNumber: =wrscxd\nuserPassword: =0\n"
)


def check_others(place):
    whole = "as expected 5, otherwise 0, asked 0\n"
    expect(ask(place, SUITE), Suite(0, whole, "", f"{SUITE}\n"), "the first copy")
    # `cn=Foo Bar` is gone, and the other one has no manager
    copy = "dn: dc=com\ndc: com\n\ndn: cn=t,dc=com\ncn: t\n\n"
    told = (
        "line 5: cn: no such entry, expected =rscxd\nline 6: cn/write: no such entry, expected DENIED\n"
        "line 10: telephoneNumber: =cxd, expected =wrscxd\nas expected 2, otherwise 3, asked 0\n"
    )
    found = ask(place, SUITE, copy=copy)
    expect((found.status, found.report, found.message), (1, told, ""), "another copy")
    answered_again(place, found.answers, 5, "another copy", copy=copy)
    # all is gone, and nothing is made up
    told = "".join(f"line {line}: {word}: no such entry, expected {answer}\n" for line, word, answer in words_of(SUITE))
    expect(ask(place, SUITE, copy="").report, f"{told}as expected 0, otherwise 5, asked 0\n", "a copy without entries")
    # the rule for passwords is lost
    conf = CONF.replace("access to attrs=userPassword by self =xw by anonymous auth\n", "")
    told = "line 11: userPassword: =rscxd, expected =0\nas expected 4, otherwise 1, asked 0\n"
    found = ask(place, SUITE, conf=conf)
    expect((found.status, found.report), (1, told), "another configuration")


def words_of(questions):
    """The number, the word and the expected answer of each word."""
    return [(word.line, word.text, word.expected) for block in blocks_of(questions.encode()) for word in block.words]


# ---- random questions, each beside a run of its own

SUITES, BLOCKS = 12, 25  # so many files where no number is given, of so many questions
NAMES = ["dc=com", "cn=a,dc=com", "cn=b,dc=com", "CN=A, DC=com", "cn=a,cn=b,dc=com", "uid=ü,dc=com", "cn=gone,dc=com", "cn=a,dc=org", "cn=m,dc=com", "dc=COM"]
ATTRIBUTES = ["cn", "sn", "entry", "children", "ENTRY", "mail", "description;lang-de", "2.5.4.3", "userPassword", "telephoneNumber", "member", "note", "foo"]
LEVELS = ["none", "disclose", "auth", "compare", "search", "read", "Write", "add", "delete", "manage"]
RANDOM_COPY = (
    "dn: dc=com\ndc: com\n\ndn: cn=a,dc=com\ncn: a\nmanager: cn=m,dc=com\nsn: s\nobjectClass: person\n\ndn: cn=b,dc=com\ncn: b\nuidNumber: 1\n\n"
    f"dn:: {encoded('uid=ü,dc=com')}\nuid:: {encoded('ü')}\nmail: a@b\n\n"
    "dn: cn=g,dc=com\ncn: g\nobjectClass: groupOfNames\nmember: cn=a,dc=com\nmember: cn=m,dc=com\n\ndn: cn=a,cn=b,dc=com\ncn: a\n\n"
)
RANDOM_RULES = [
    "access to attrs=userPassword by self =xw by anonymous auth by group=cn=g,dc=com manage\n",
    "access to dn.one=dc=com filter=(|(sn=*)(uidNumber>=1)) attrs=cn,sn,entry by dnattr=manager write by users +rs continue by * +d break\n",
    "access to dn.children=cn=b,dc=com by users search by * none\n",
    "access to attrs=description;lang-de,children,mail by dn.sub=dc=com add by anonymous =x break\n",
    "access to filter=(!(mail=*)) by self +w continue by * read\n",
    "access to * by users =cs continue by * +x\n",
    "access to * by * read\n",
    "access to * by * +rsc break\n",
]


def a_name(rng):
    return rng.choice(NAMES)


def a_line(rng, name, value):
    """A line of LDIF with this value, in a form of several."""
    form = rng.randrange(5)
    if form == 0 or not value.isascii():
        return f"{name}:: {encoded(value)}\n"
    text = f"{name}:{' ' * rng.randrange(3)}{value}"
    if form == 1:
        at = rng.randrange(1, len(text) + 1)
        text = f"{text[:at]}\n {text[at:]}"
    return f"{text}\r\n" if form == 2 else f"{text}\n"


def a_comment(rng):
    return "# x\n" if rng.randrange(6) == 0 else ""


def a_block(rng):
    spelled = lambda word: word.upper() if rng.randrange(8) == 0 else word
    text = a_comment(rng)
    if rng.randrange(3):
        text += a_line(rng, spelled("authcDN"), rng.choice([*NAMES, "", "anonymous", "cn=r,dc=com"]))
    if rng.randrange(4) == 0:
        text += a_line(rng, "fake", "true")
    text += a_line(rng, spelled("dn"), a_name(rng)) + a_comment(rng)
    for _ in range(rng.randrange(1, 5)):
        level = rng.choice(LEVELS) if rng.randrange(2) else None
        word = rng.choice(ATTRIBUTES) + ("" if level is None else f"/{level}")
        expected = rng.choice(["", "", NO_SUCH_ENTRY, rng.choice(ANSWERS) if level is None else rng.choice(["ALLOWED", "DENIED"])])
        text += a_line(rng, word, expected) + a_comment(rng)
    return text


ANSWERS = ["=rscxd", "=0", *sorted(SETS)]


def reported_alone(place, block):
    """The answers to a block, by a run of slapacl that asks the same."""
    status, report, message = place.run("slapacl", "-f", "conf", "--data", "copy", *block.question().options())
    if (status, report) == (1, "") and message.endswith("slapkit: no such entry\n"):
        return [(word.text, NO_SUCH_ENTRY) for word in block.words]
    expect(status, 0, f"{block}: {message}")
    return [tuple(line.split(": ", 1)) for line in report.splitlines()]


def check_random(place, suites):
    asked = 0
    for seed in range(suites):
        rng = random.Random(seed)
        rules = "".join(rng.sample(RANDOM_RULES, rng.randrange(1, len(RANDOM_RULES))))
        texts = {"conf": f"database mdb\nsuffix dc=com\nrootdn cn=r,dc=com\n{rules}", "copy": RANDOM_COPY}
        questions = "\n".join(a_block(rng) for _ in range(BLOCKS))
        found = ask(place, questions, "-v", **texts)
        expect(found, by_model(questions, "-v", **texts), f"suite {seed}")
        answered = blocks_of(found.answers.encode())
        for block, alone in zip(blocks_of(questions.encode()), answered, strict=True):
            expect([(word.text, word.expected) for word in alone.words], reported_alone(place, block), f"suite {seed}, {block}")
            asked += len(block.words)
        answered_again(place, found.answers, sum(len(block.words) for block in answered), f"suite {seed}", **texts)
    return f"{suites * BLOCKS} questions of {asked} words"


# ---- texts that were changed at random

TEXTS = 300
SIGNS = [b":", b"::", b" ", b"\n", b"\r\n", b"\n\n", b"\n ", b"#", b"/", b"=", b"=0", b"w", b"\0", b"\xff", b",", b"dn: dc=com\n", b"fake: true\n", b"version: 1\n"]


def changed(rng, text):
    """The text after one to three changes of bytes or lines."""
    for _ in range(rng.randrange(1, 4)):
        begin = rng.randrange(len(text) + 1)
        end = min(len(text), begin + rng.randrange(4))
        lines = text.splitlines(keepends=True)
        at, other = (rng.randrange(len(lines)) for _ in range(2)) if lines else (0, 0)
        text = rng.choice([
            lambda: text[:begin] + text[end:],
            lambda: text[:begin] + rng.choice(SIGNS) + text[begin:],
            lambda: text[:begin] + rng.choice(SIGNS) + text[end:],
            lambda: text[:begin] + text[begin:end].swapcase() + text[end:],
            lambda: b"".join(lines[:at] + lines[at + 1 :]),
            lambda: b"".join(lines[:at] + lines[other : other + 1] + lines[at:]),
        ])()  # fmt: skip
    return text


def check_changed(place, count):
    rng, faults = random.Random("changed"), 0
    for number in range(count):
        questions = changed(rng, rng.choice([CUT, SUITE, "\n".join(a_block(rng) for _ in range(3))]).encode())
        found = ask(place, questions, "-v")
        expect(found, by_model(questions, "-v"), f"text {number}, {questions!r}")
        faults += found.answers is None
    # some are right, and some are not
    if not count // 5 <= faults <= count * 9 // 10:
        raise Wrong(f"{faults} of {count} texts have a fault")
    return f"{count} texts, {faults} of them with a fault"


def as_block(question):
    """A question of a command line as a block."""
    lines = [("authcDN", question.requester or ""), ("dn", question.base)]
    if question.is_fake:
        lines.insert(1, ("fake", "true"))
    words = [word.split(":")[0] for word in question.words or ("entry",)]
    return "".join(f"{name}:: {encoded(value)}\n" for name, value in lines) + "".join(f"{word}:\n" for word in words)


def check_known_questions(place):
    """The questions that the scripts ask of other configurations and copies, in one file for each pair of these."""
    count = 0
    for name, rules in RULES.items():
        questions = "\n".join(map(as_block, rules.questions))
        found = ask(place, questions, "-v", conf=rules.config, copy=rules.copy)
        expect(found, by_model(questions, "-v", conf=rules.config, copy=rules.copy), name)
        count += len(rules.questions)
    return f"{count} questions"


def main():
    program = str(pathlib.Path(sys.argv[1]).resolve())
    suites, texts = (int(sys.argv[at]) if len(sys.argv) > at else most for at, most in ((2, SUITES), (3, TEXTS)))
    with Place(program, SECONDS) as place:
        pairs = [
            ("files of questions", lambda: check_forms(place)),
            ("their faults", lambda: check_faults(place)),
            ("the order of faults", lambda: check_order(place)),
            ("notes", lambda: check_strict(place)),
            ("the command line", lambda: check_words(place)),
            ("the file of answers", lambda: check_file(place)),
            ("a suite that is cut", lambda: check_cut(place)),
            ("another copy and another configuration", lambda: check_others(place)),
            ("random questions", lambda: check_random(place, suites)),
            ("texts that were changed at random", lambda: check_changed(place, texts)),
            ("questions that are asked elsewhere", lambda: check_known_questions(place)),
        ]
        status = checks.run("suites", pairs)
    sys.exit(status)


main()
