#!/usr/bin/env python3
"""Runs slapkit on rows of texts: runs of slapmodify with the new copy, the undo file and the report that each must give, and questions of slapacl with the
report, the notes or the fault of each.

usage: rows.py PROGRAM [WORD]

With a word, only the rows that have it in their names.

What a row wants is written here by RFC 4511, RFC 2849, slapd.access(5), docs/DEFINITIONS.md and docs/CODES.md. Each is compared with what the program
answers, and with what the definitions say of the same texts as they are read in another language (model/answers.py, model/access.py). The undo file of each run is
run on the new copy: nothing may be refused, and it must give the canonical text of the first copy. So must the run of as many of its groups as there are,
and there may not be one more; and what takes that back must give the new copy again.
"""
import dataclasses
import pathlib
import re
import sys

sys.path.insert(0, str(pathlib.Path(__file__).resolve().parents[1]))

from harness import checks
from harness.checks import same
from harness.runs import Place
from model.access import Question, access_answer
from model.answers import Answer, answer
from model.texts import NOTHING, added, block, deleted, renamed, undone

# the copy of a row that has no other: the suffix's entry alone
COM = "dn: dc=com\ndc: com\n\n"


# ---- what a row is


@dataclasses.dataclass
class Run:
    """Changes of a copy, and what must come of them."""

    shows: str
    changes: str = ""
    copy: str = COM
    suffix: str = "dc=com"
    options: tuple = ()
    # how many groups of the changes are run, where they are an undo file and not all of it is
    last: int | None = None
    # the configuration whose attribute types hold, if there is one
    types: str | None = None
    report: str = "accepted 1, refused 0\n"
    undo: str = NOTHING
    # the new copy; where it is not said, the copy as it is
    new: str | None = None
    # what the undo file gives on the new copy, the canonical text of the copy; where it is not said, the copy as it is
    back: str | None = None
    # the fault that ends the run, if there is one; then there is no report and no file
    fault: str = ""

    def answer(self):
        """The exit status, the two streams, and the files, which a dry run does not write."""
        if self.fault:
            return Answer(1, "", f"slapkit: {self.fault}\n", None, None)
        files = (None, None) if "-u" in self.options else (self.copy if self.new is None else self.new, self.undo)
        return Answer(0 if self.report.endswith(", refused 0\n") else 1, self.report, "", *files)

    def words(self):
        """The options of the run, but for its files and its types."""
        return [*self.options, *([] if self.last is None else ["--last", str(self.last)])]


@dataclasses.dataclass
class Ask:
    """A question of access under a configuration, and what must come of it."""

    shows: str
    config: str
    question: Question
    copy: str = COM
    report: str = ""
    # what is told of the configuration and of the words
    notes: tuple = ()
    # the fault that ends the question, if there is one, and the note on the argument that it is about, if it is told
    fault: str = ""
    argument: str = ""

    def answer(self):
        """The exit status, and the two streams."""
        told = "".join(f"slapkit: note: {note}\n" for note in self.notes)
        told += f"slapkit: {self.fault}\n" if self.fault else ""
        told += f"slapkit: note: {self.argument}\n" if self.argument else ""
        return 1 if self.fault else 0, self.report, told


def modify(shows, rdn, before, mods, after, undo=None):
    """A modify of an entry below the suffix: its lines before it and after it, and the modifications that take it back, if there are any."""
    head = f"dn: {rdn},dc=com\n"
    return Run(
        shows,
        f"{head}changetype: modify\n{mods}\n",
        copy=f"{COM}{head}{before}\n",
        undo=undone(f"{head}changetype: modify\n{undo}\n" if undo else ""),
        new=f"{COM}{head}{after}\n",
    )


def refused(shows, record, cause):
    """A record that is refused, on a copy with something to refuse changes for."""
    return Run(shows, record, copy=REFUSING, report=f"line 1: refused, {cause}\naccepted 0, refused 1\n")


def modify_refused(shows, mods, cause):
    """The same of a modify of `cn=e`."""
    return refused(shows, f"dn: cn=e,dc=com\nchangetype: modify\n{mods}\n", cause)


# ---- runs

# a copy with a unit
STAFF = COM + "dn: ou=people,dc=com\ndescription: staff\nou: people\n\n"
ENTRIES = [
    Run(
        "the first entry of a directory",
        suffix="dc=Example,dc=com",
        copy="",
        changes="dn: DC=Example, dc=com\nchangetype: add\nobjectClass: domain\n",
        undo=undone("dn: DC=Example,dc=com\nchangetype: delete\n\n"),
        new="dn: DC=Example,dc=com\nDC: Example\nobjectClass: domain\n\n",
    ),
    Run(
        "and the run that takes it back",
        suffix="dc=Example,dc=com",
        copy="dn: DC=Example,dc=com\nDC: Example\nobjectClass: domain\n\n",
        changes="version: 1\n\ndn: DC=Example,dc=com\nchangetype: delete\n\n",
        undo=undone("dn: DC=Example,dc=com\nchangetype: add\nDC: Example\nobjectClass: domain\n\n"),
        new="",
    ),
    Run(
        "an added entry gains its naming value and the spelling of its parent's name",
        changes="dn: ou=people,DC=COM\nchangetype: add\ndescription: staff\n",
        undo=undone("dn: ou=people,dc=com\nchangetype: delete\n\n"),
        new=STAFF,
    ),
    Run(
        "and is deleted again",
        copy=STAFF,
        changes="version: 1\n\ndn: ou=people,dc=com\nchangetype: delete\n\n",
        undo=undone("dn: ou=people,dc=com\nchangetype: add\ndescription: staff\nou: people\n\n"),
        new=COM,
    ),
    Run(
        "a deleted entry comes back with every byte",
        copy=COM + "dn: cn=a,dc=com\ncn: a\ndescription:: IGxlYWQ=\nnote:\nuserPassword:: AP8=\n\n",
        changes="dn: cn=a,dc=com\nchangetype: delete\n",
        undo=undone("dn: cn=a,dc=com\nchangetype: add\ncn: a\ndescription:: IGxlYWQ=\nnote:\nuserPassword:: AP8=\n\n"),
        new=COM,
    ),
    Run(
        "and with its spellings",
        copy="dn: DC=Com\nDomainComponent: COM\n\ndn: CN=A  b,DC=Com\ncommonName: a B\nsn;lang-EN: X\n\n",
        changes="dn: cn=a b,dc=com\nchangetype: delete\n",
        undo=undone("dn: CN=A  b,DC=Com\nchangetype: add\ncommonName: a B\nsn;lang-EN: X\n\n"),
        new="dn: DC=Com\nDomainComponent: COM\n\n",
    ),
    Run(
        "many changes are taken back, the last one first",
        options=("-c",),
        copy=COM + "dn: ou=a,dc=com\nou: a\n\ndn: cn=x,ou=a,dc=com\ncn: x\n\n",
        changes=(
            "version: 1\n\ndn: cn=x,ou=a,dc=com\nchangetype: delete\n\ndn: ou=a,dc=com\nchangetype: delete\n\n"
            "dn: cn=no,dc=com\nchangetype: delete\n\ndn: ou=A,dc=com\nchangetype: add\n\n"
            "dn: cn=y,ou=a,dc=com\nchangetype: add\ndescription: new\n"
        ),
        report="line 9: refused, 32 noSuchObject\naccepted 4, refused 1\n",
        undo=undone(
            "dn: cn=y,ou=A,dc=com\nchangetype: delete\n\n",
            "dn: ou=A,dc=com\nchangetype: delete\n\n",
            "dn: ou=a,dc=com\nchangetype: add\nou: a\n\n",
            "dn: cn=x,ou=a,dc=com\nchangetype: add\ncn: x\n\n",
        ),
        new=COM + "dn: ou=A,dc=com\nou: A\n\ndn: cn=y,ou=A,dc=com\ncn: y\ndescription: new\n\n",
    ),
    Run(
        "and forward again",
        copy=COM + "dn: ou=A,dc=com\nou: A\n\ndn: cn=y,ou=A,dc=com\ncn: y\ndescription: new\n\n",
        changes=(
            "version: 1\n\n# undo 1\ndn: cn=y,ou=A,dc=com\nchangetype: delete\n\n# undo 2\ndn: ou=A,dc=com\nchangetype: delete\n\n"
            "# undo 3\ndn: ou=a,dc=com\nchangetype: add\nou: a\n\n# undo 4\ndn: cn=x,ou=a,dc=com\nchangetype: add\ncn: x\n\n"
        ),
        report="accepted 4, refused 0\n",
        undo=undone(
            "dn: cn=x,ou=a,dc=com\nchangetype: delete\n\n",
            "dn: ou=a,dc=com\nchangetype: delete\n\n",
            "dn: ou=A,dc=com\nchangetype: add\nou: A\n\n",
            "dn: cn=y,ou=A,dc=com\nchangetype: add\ncn: y\ndescription: new\n\n",
        ),
        new=COM + "dn: ou=a,dc=com\nou: a\n\ndn: cn=x,ou=a,dc=com\ncn: x\n\n",
    ),
    Run(
        "children before their parents",
        copy="dn: cn=a,dc=com\n\ndn: dc=com\n",
        report="accepted 0, refused 0\n",
        new=COM + "dn: cn=a,dc=com\ncn: a\n\n",
        back=COM + "dn: cn=a,dc=com\ncn: a\n\n",
    ),
]

RENAMES = [
    Run(
        "the old value goes",
        copy=COM + "dn: dc=a,dc=com\ndc: a\n\n",
        changes="dn: dc=a,dc=com\nchangetype: modrdn\nnewrdn: dc=b\ndeleteoldrdn: 1\n",
        undo=undone("dn: dc=b,dc=com\nchangetype: modrdn\nnewrdn: dc=a\ndeleteoldrdn: 1\n\n"),
        new=COM + "dn: dc=b,dc=com\ndc: b\n\n",
    ),
    Run(
        "a value of the new RDN is there already, and is lost by the way back",
        copy=COM + "dn: cn=x,dc=com\ncn: x\nsn: Z\n\n",
        changes="dn: cn=x,dc=com\nchangetype: modrdn\nnewrdn: cn=y+sn=z\ndeleteoldrdn: 1\n",
        undo=undone(
            "dn: cn=y+sn=z,dc=com\nchangetype: modrdn\nnewrdn: cn=x\ndeleteoldrdn: 1\n\n"
            "dn: cn=x,dc=com\nchangetype: modify\nadd: sn\nsn: Z\n-\n\n"
        ),
        new=COM + "dn: cn=y+sn=z,dc=com\ncn: y\nsn: Z\n\n",
    ),
    Run(
        "the key stays and the spelling changes",
        copy=COM + "dn: cn=a,dc=com\ncn: a\n\n",
        changes="dn: cn=a,dc=com\nchangetype: modrdn\nnewrdn: CN=A\ndeleteoldrdn: 1\n",
        undo=undone("dn: CN=A,dc=com\nchangetype: modrdn\nnewrdn: cn=a\ndeleteoldrdn: 1\n\n"),
        new=COM + "dn: CN=A,dc=com\ncn: a\n\n",
    ),
    Run(
        "a subtree moves",
        copy=(
            COM
            + "dn: ou=A,dc=com\nou: A\n\ndn: ou=Team,ou=A,dc=com\nou: Team\n\ndn: cn=Kim,ou=Team,ou=A,dc=com\ncn: Kim\n\n"
            "dn: cn=desk,cn=Kim,ou=Team,ou=A,dc=com\ncn: desk\n\ndn: ou=B,dc=com\nou: B\n\n"
        ),
        changes="dn: ou=team,ou=a,dc=com\nchangetype: modrdn\nnewrdn: ou=Team\ndeleteoldrdn: 1\nnewsuperior: ou=b,dc=com\n",
        undo=undone("dn: ou=Team,ou=B,dc=com\nchangetype: modrdn\nnewrdn: ou=Team\ndeleteoldrdn: 1\nnewsuperior: ou=A,dc=com\n\n"),
        new=(
            COM
            + "dn: ou=A,dc=com\nou: A\n\ndn: ou=B,dc=com\nou: B\n\ndn: ou=Team,ou=B,dc=com\nou: Team\n\n"
            "dn: cn=Kim,ou=Team,ou=B,dc=com\ncn: Kim\n\ndn: cn=desk,cn=Kim,ou=Team,ou=B,dc=com\ncn: desk\n\n"
        ),
    ),
    Run(
        "two names are exchanged over a third",
        copy=COM + "dn: cn=a,dc=com\ncn: a\n\ndn: cn=b,dc=com\ncn: b\n\n",
        changes=(
            "dn: cn=a,dc=com\nchangetype: modrdn\nnewrdn: cn=t\ndeleteoldrdn: 1\n\n"
            "dn: cn=b,dc=com\nchangetype: modrdn\nnewrdn: cn=a\ndeleteoldrdn: 1\n\n"
            "dn: cn=t,dc=com\nchangetype: moddn\nnewrdn: cn=b\ndeleteoldrdn: 1\n"
        ),
        report="accepted 3, refused 0\n",
        undo=undone(
            "dn: cn=b,dc=com\nchangetype: modrdn\nnewrdn: cn=t\ndeleteoldrdn: 1\n\n",
            "dn: cn=a,dc=com\nchangetype: modrdn\nnewrdn: cn=b\ndeleteoldrdn: 1\n\n",
            "dn: cn=t,dc=com\nchangetype: modrdn\nnewrdn: cn=a\ndeleteoldrdn: 1\n\n",
        ),
    ),
]

# a record that is refused
NO_ENTRY = "dn: cn=c,dc=com\nchangetype: delete\n\n"
# a refused record, and an accepted one after it
REFUSED_FIRST = "dn: cn=none,dc=com\nchangetype: delete\n\ndn: cn=a,dc=com\nchangetype: add\n"
# an accepted record, and one that is cut within its base64
CUT = "dn: cn=e,dc=com\nchangetype: add\nnote: x\n\ndn: cn=f,dc=com\nchangetype: add\nnote:: AAE"
OPTIONS = [
    Run("a run stops after a refusal", changes=REFUSED_FIRST, report="line 1: refused, 32 noSuchObject\naccepted 0, refused 1\n"),
    Run(
        "and goes on where it is told to",
        options=("-c",),
        changes=REFUSED_FIRST,
        report="line 1: refused, 32 noSuchObject\naccepted 1, refused 1\n",
        undo=undone("dn: cn=a,dc=com\nchangetype: delete\n\n"),
        new=COM + "dn: cn=a,dc=com\ncn: a\n\n",
    ),
    Run(
        "a record that is cut within its base64",
        options=("-c",),
        changes=CUT,
        report="line 5: refused, L2 BadBase64\naccepted 1, refused 1\n",
        undo=undone("dn: cn=e,dc=com\nchangetype: delete\n\n"),
        new=COM + "dn: cn=e,dc=com\ncn: e\nnote: x\n\n",
    ),
    Run(
        "the same where a run stops",
        changes=CUT,
        report="line 5: refused, L2 BadBase64\naccepted 1, refused 1\n",
        undo=undone("dn: cn=e,dc=com\nchangetype: delete\n\n"),
        new=COM + "dn: cn=e,dc=com\ncn: e\nnote: x\n\n",
    ),
    Run(
        "folded lines and comments",
        options=("-v",),
        changes="# folded\r\n  comment\r\ndn: cn=e,dc=com\r\nchangetype: add\r\ndescription: two\r\n  words \r\n",
        report="line 3: accepted\naccepted 1, refused 0\n",
        undo=undone("dn: cn=e,dc=com\nchangetype: delete\n\n"),
        new=COM + "dn: cn=e,dc=com\ncn: e\ndescription:: dHdvIHdvcmRzIA==\n\n",
    ),
    Run(
        "the same of a modify",
        options=("-v",),
        copy=COM + "dn: cn=e,dc=com\ncn: e\nnote: x\n\n",
        changes="# folded\r\n  comment\r\ndn: cn=e,dc=com\r\nchangetype: modify\r\nadd: description\r\ndescription: two\r\n  words \r\n",
        report="line 3: accepted\naccepted 1, refused 0\n",
        undo=undone("dn: cn=e,dc=com\nchangetype: modify\ndelete: description\n-\n\n"),
        new=COM + "dn: cn=e,dc=com\ncn: e\ndescription:: dHdvIHdvcmRzIA==\nnote: x\n\n",
    ),
    Run(
        "a fault after the first refused record is not reached where a run stops",
        changes=NO_ENTRY + "dn: cn=d,dc=com\nchangetype: delete\nx\n\n",
        report="line 1: refused, 32 noSuchObject\naccepted 0, refused 1\n",
    ),
    Run(
        "a dry run reports and writes nothing else",
        options=("-u",),
        changes="dn: ou=people,DC=COM\nchangetype: add\ndescription: staff\n",
    ),
]

MODIFIES = [
    modify(
        "the undo says only what the modify changes",
        "cn=e",
        before="cn: e\ndescription: foo\n",
        mods="delete: description\ndescription: FOO\n-\nadd: description\ndescription: Foo\n-\n",
        after="cn: e\ndescription: Foo\n",
        undo="delete: description\ndescription: Foo\n-\nadd: description\ndescription: foo\n-\n",
    ),
    modify(
        "a type comes back under the name that it had",
        "cn=a",
        before="cn: a\n",
        mods="replace: commonName\ncommonName: a\ncommonName: b\n-\n",
        after="commonName: a\ncommonName: b\n",
        undo="replace: cn\ncn: a\n-\n",
    ),
    modify(
        "values come back by themselves",
        "cn=g",
        before="cn: g\nmember: cn=a\nmember: cn=b\nmember: cn=c\n",
        mods="add: member\nmember: cn=d\n-\ndelete: member\nmember: CN=B\n-\n",
        after="cn: g\nmember: cn=a\nmember: cn=c\nmember: cn=d\n",
        undo="delete: member\nmember: cn=d\n-\nadd: member\nmember: cn=b\n-\n",
    ),
    modify(
        "a type comes back whole",
        "cn=e",
        before="cn: e\nsn: S\nsn: T\n",
        mods="delete: surname\n-\nadd: title\ntitle: Chief\n-\n",
        after="cn: e\ntitle: Chief\n",
        undo="add: sn\nsn: S\nsn: T\n-\ndelete: title\n-\n",
    ),
    modify(
        "a modify of nothing has an empty group",
        "cn=e",
        before="cn: e\n",
        mods="",
        after="cn: e\n",
    ),
    modify(
        "so has one that replaces values by the same",
        "cn=e",
        before="cn: e\n",
        mods="replace: cn\ncn: e\n-\n",
        after="cn: e\n",
    ),
    modify(
        "one that replaces none by none",
        "cn=e",
        before="cn: e\n",
        mods="replace: sn\n-\n",
        after="cn: e\n",
    ),
    modify(
        "one that adds a type and deletes it",
        "cn=e",
        before="cn: e\n",
        mods="add: sn\nsn: x\n-\ndelete: sn\n-\n",
        after="cn: e\n",
    ),
    modify(
        "one that deletes a value and adds it",
        "cn=e",
        before="cn: e\n",
        mods="delete: cn\ncn: E\n-\nadd: cn\ncn: e\n-\n",
        after="cn: e\n",
    ),
    modify(
        "a type has one key under all its names",
        "cn=e",
        before="cn: e\n",
        mods="add: commonName\ncommonName: f\n-\n",
        after="cn: e\ncn: f\n",
        undo="delete: cn\ncn: f\n-\n",
    ),
    modify(
        "and another with options",
        "cn=e",
        before="cn: e\n",
        mods="add: cn;lang-en\ncn;lang-en: e\n-\n",
        after="cn: e\ncn;lang-en: e\n",
        undo="delete: cn;lang-en\n-\n",
    ),
    modify(
        "an option has one key in all spellings",
        "cn=e",
        before="cn: e\nCN;Lang-EN: F\nCN;Lang-EN: g\n",
        mods="replace: cn;lang-en\ncn;lang-en: f\ncn;lang-en: g\n-\n",
        after="cn: e\ncn;lang-en: f\ncn;lang-en: g\n",
        undo="replace: CN;Lang-EN\nCN;Lang-EN: F\nCN;Lang-EN: g\n-\n",
    ),
    modify(
        "the entry is judged after the last modification",
        "cn=e",
        before="cn: e\nuidNumber: 7\n",
        mods="add: uidNumber\nuidNumber: 8\n-\ndelete: uidNumber\nuidNumber: 7\n-\n",
        after="cn: e\nuidNumber: 8\n",
        undo="delete: uidNumber\nuidNumber: 8\n-\nadd: uidNumber\nuidNumber: 7\n-\n",
    ),
    modify(
        "so is its naming value",
        "cn=e",
        before="cn: e\n",
        mods="delete: cn\n-\nadd: CN\nCN: E\n-\n",
        after="CN: E\n",
        undo="replace: cn\ncn: e\n-\n",
    ),
    modify(
        "an increment is taken back by the values",
        "cn=u",
        before="cn: u\nuidNumber: 1000\n",
        mods="increment: uidNumber\nuidNumber: -1\n-\n",
        after="cn: u\nuidNumber: 999\n",
        undo="delete: uidNumber\nuidNumber: 999\n-\nadd: uidNumber\nuidNumber: 1000\n-\n",
    ),
    modify(
        "an increment by 0 has an empty group",
        "cn=u",
        before="cn: u\nuidNumber: 1000\n",
        mods="increment: uidNumber\nuidNumber: 0\n-\n",
        after="cn: u\nuidNumber: 1000\n",
    ),
    modify(
        "a number keeps the spelling of its type",
        "cn=u",
        before="cn: u\nUIDNUMBER: -1\n",
        mods="increment: uidnumber\nuidNumber: 1\n-\nincrement: uidnumber\nuidNumber: 1\n-\n",
        after="cn: u\nUIDNUMBER: 1\n",
        undo="delete: UIDNUMBER\nUIDNUMBER: 1\n-\nadd: UIDNUMBER\nUIDNUMBER: -1\n-\n",
    ),
    modify(
        "from one end of the numbers of 128 bits to the other",
        "cn=u",
        before="cn: u\ngidNumber: -170141183460469231731687303715884105728\n",
        mods=(
            "increment: gidNumber\ngidNumber: 170141183460469231731687303715884105727\n-\nincrement: gidNumber\ngidNumber: 1\n-\n"
            "increment: gidNumber\ngidNumber: 170141183460469231731687303715884105727\n-\n"
        ),
        after="cn: u\ngidNumber: 170141183460469231731687303715884105727\n",
        undo=(
            "delete: gidNumber\ngidNumber: 170141183460469231731687303715884105727\n-\nadd: gidNumber\n"
            "gidNumber: -170141183460469231731687303715884105728\n-\n"
        ),
    ),
    modify(
        "down to the least number",
        "cn=u",
        before="cn: u\ngidNumber: 0\n",
        mods="increment: gidNumber\ngidNumber: -170141183460469231731687303715884105728\n-\n",
        after="cn: u\ngidNumber: -170141183460469231731687303715884105728\n",
        undo="delete: gidNumber\ngidNumber: -170141183460469231731687303715884105728\n-\nadd: gidNumber\ngidNumber: 0\n-\n",
    ),
    Run(
        "modifies between other changes are taken back, the last one first",
        copy=COM + "dn: cn=e,dc=com\ncn: e\nsn: A\n\n",
        changes=(
            "dn: cn=e,dc=com\nchangetype: modify\nadd: sn\nsn: B\n-\n\ndn: cn=e,dc=com\nchangetype: delete\n\n"
            "dn: CN=E,dc=com\nchangetype: add\nsn: C\n\ndn: cn=e,dc=com\nchangetype: modify\nreplace: sn\n-\n"
        ),
        report="accepted 4, refused 0\n",
        undo=undone(
            "dn: CN=E,dc=com\nchangetype: modify\nadd: sn\nsn: C\n-\n\n",
            "dn: CN=E,dc=com\nchangetype: delete\n\n",
            "dn: cn=e,dc=com\nchangetype: add\ncn: e\nsn: A\nsn: B\n\n",
            "dn: cn=e,dc=com\nchangetype: modify\ndelete: sn\nsn: B\n-\n\n",
        ),
        new=COM + "dn: CN=E,dc=com\nCN: E\n\n",
    ),
]

# a copy with something to refuse changes for
REFUSING = (
    COM
    + "dn: cn=e,dc=com\ncn: e\ndescription: foo\n\ndn: cn=p,dc=com\ncn: p\n\ndn: cn=q,cn=p,dc=com\ncn: q\n\n"
    "dn: cn=r,dc=com\ncn: r\n\ndn: dc=a,dc=com\ndc: a\n\n"
)
# a copy with an entry that is named by a number
NUMBERED = COM + "dn: uidNumber=5,dc=com\nuidNumber: 5\n\n"
# moves below the entry itself, below no entry, and to a name that is taken
MOVES = (
    "dn: cn=p,dc=com\nchangetype: modrdn\nnewrdn: cn=r\ndeleteoldrdn: 1\nnewsuperior: cn=q,cn=p,dc=com\n\n"
    "dn: cn=p,dc=com\nchangetype: modrdn\nnewrdn: cn=r\ndeleteoldrdn: 1\nnewsuperior: cn=none,dc=com\n\n"
    "dn: cn=p,dc=com\nchangetype: modrdn\nnewrdn: cn=r\ndeleteoldrdn: 1\n"
)
REFUSALS = [
    refused("a delete of an entry with children", "dn: dc=com\nchangetype: delete\n", "66 notAllowedOnNonLeaf"),
    refused("a delete of no entry", "dn: cn=none,dc=com\nchangetype: delete\n", "32 noSuchObject"),
    refused("an add of a name that is taken", "dn: CN=E,dc=com\nchangetype: add\n", "68 entryAlreadyExists"),
    refused("an add outside the suffix", "dn: cn=f,dc=org\nchangetype: add\n", "32 noSuchObject"),
    refused("an add without its parent", "dn: cn=f,cn=none,dc=com\nchangetype: add\n", "32 noSuchObject"),
    refused(
        "a value of bad syntax comes before one that is twice there",
        "dn: cn=f,dc=com\nchangetype: add\nuidNumber: 007\nuidNumber: 1\nuidNumber: 1\n",
        "21 invalidAttributeSyntax",
    ),
    refused("an add of a value twice", "dn: cn=f,dc=com\nchangetype: add\nsn: A\nsurname: a\n", "20 attributeOrValueExists"),
    refused("a second value where one is allowed", "dn: uidNumber=1,dc=com\nchangetype: add\nuidNumber: 2\n", "19 constraintViolation"),
    refused("a content record", COM, "L5 BadChangetype"),
    refused("a modify of no entry", "dn: cn=f,dc=com\nchangetype: modify\nadd: title\n-\n", "32 noSuchObject"),
    refused(
        "a rename that leaves two values where one is allowed",
        "dn: dc=a,dc=com\nchangetype: modrdn\nnewrdn: dc=b\ndeleteoldrdn: 0\n",
        "19 constraintViolation",
    ),
    refused(
        "a rename of the suffix's entry",
        "dn: dc=com\nchangetype: modrdn\nnewrdn: dc=org\ndeleteoldrdn: 1\n",
        "53 unwillingToPerform",
    ),
    refused("a rename of no entry", "dn: cn=none,dc=com\nchangetype: modrdn\nnewrdn: cn=b\ndeleteoldrdn: 1\n", "32 noSuchObject"),
    modify_refused(
        "the first modification that is at fault",
        "replace: title\ntitle: x\n-\ndelete: description\n-\ndelete: sn\n-\n",
        "16 noSuchAttribute",
    ),
    modify_refused("an add of no value", "add: title\n-\n", "2 protocolError"),
    modify_refused("a delete of the naming type", "delete: cn\n-\n", "67 notAllowedOnRDN"),
    modify_refused("a delete of the naming value", "delete: cn\ncn: E\n-\n", "67 notAllowedOnRDN"),
    modify_refused("a replace of the naming value", "replace: cn\ncn: f\n-\n", "67 notAllowedOnRDN"),
    modify_refused(
        "the naming value comes before two values where one is allowed",
        "delete: cn\n-\nadd: uidNumber\nuidNumber: 1\nuidNumber: 2\n-\n",
        "67 notAllowedOnRDN",
    ),
    modify_refused("two values where one is allowed", "add: uidNumber\nuidNumber: 1\nuidNumber: 2\n-\n", "19 constraintViolation"),
    modify_refused("a delete of a type that is not there", "delete: sn\nsn: x\n-\n", "16 noSuchAttribute"),
    modify_refused("a delete of a value that is not there", "delete: description\ndescription: bar\n-\n", "16 noSuchAttribute"),
    modify_refused("a delete of a value twice", "delete: description\ndescription: foo\ndescription: FOO\n-\n", "16 noSuchAttribute"),
    modify_refused("an add of a value that is there", "add: description\ndescription: FOO\n-\n", "20 attributeOrValueExists"),
    modify_refused("a modify that adds a value twice", "add: sn\nsn: a\nsn: A\n-\n", "20 attributeOrValueExists"),
    modify_refused("a replace by a value twice", "replace: sn\nsn: a\nsn: A\n-\n", "20 attributeOrValueExists"),
    modify_refused("an add of a value of bad syntax", "add: uidNumber\nuidNumber: 007\n-\n", "21 invalidAttributeSyntax"),
    modify_refused("a delete of a value of bad syntax", "delete: uidNumber\nuidNumber: 007\n-\n", "21 invalidAttributeSyntax"),
    Run(
        "refusals of renames come in order",
        options=("-c",),
        copy=REFUSING,
        changes=MOVES,
        report=(
            "line 1: refused, 53 unwillingToPerform\nline 7: refused, 32 noSuchObject\nline 13: refused, 68 entryAlreadyExists\n"
            "accepted 0, refused 3\n"
        ),
    ),
    Run("the first of them", copy=REFUSING, changes=MOVES, report="line 1: refused, 53 unwillingToPerform\naccepted 0, refused 1\n"),
]

INCREMENTS = [
    modify_refused("an increment of no value", "increment: gidNumber\n-\n", "2 protocolError"),
    modify_refused("an increment by two values", "increment: cn\ncn: 1\ncn: 2\n-\n", "2 protocolError"),
    modify_refused("an increment of a type without integers", "increment: sn\nsn: 1\n-\n", "21 invalidAttributeSyntax"),
    modify_refused("an increment by no integer", "increment: gidNumber\ngidNumber: 01\n-\n", "21 invalidAttributeSyntax"),
    modify_refused(
        "an increment of a type that is not there",
        "increment: gidNumber\ngidNumber: 170141183460469231731687303715884105728\n-\n",
        "16 noSuchAttribute",
    ),
    modify_refused(
        "an increment past the greatest number",
        "add: gidNumber\ngidNumber: 170141183460469231731687303715884105727\n-\nincrement: gidNumber\ngidNumber: 1\n-\n",
        "19 constraintViolation",
    ),
    modify_refused(
        "an increment past the least number",
        "add: gidNumber\ngidNumber: -170141183460469231731687303715884105728\n-\nincrement: gidNumber\ngidNumber: -1\n-\n",
        "19 constraintViolation",
    ),
    modify_refused(
        "an increment by a number past 128 bits",
        "add: gidNumber\ngidNumber: -1\n-\nincrement: gidNumber\ngidNumber: 170141183460469231731687303715884105728\n-\n",
        "19 constraintViolation",
    ),
    modify_refused(
        "an increment of a number past 128 bits",
        (
            "add: gidNumber\ngidNumber: 111111111111111111111111111111111111111111111111111111111111\n-\nincrement: gidNumber\n"
            "gidNumber: 0\n-\n"
        ),
        "19 constraintViolation",
    ),
    Run(
        "an increment of the naming value",
        copy=NUMBERED,
        changes="dn: uidNumber=5,dc=com\nchangetype: modify\nincrement: uidNumber\nuidNumber: 1\n-\n",
        report="line 1: refused, 67 notAllowedOnRDN\naccepted 0, refused 1\n",
    ),
]

ENDINGS = [
    Run("the suffix has no RDN", suffix="", fault="bad question: suffix"),
    Run("the suffix has no value", suffix="cn", fault="bad question: suffix"),
    Run("an entry of the copy has no parent", copy="dn: cn=a,dc=com\n", fault="copy, line 1: 32 noSuchObject"),
    Run("an entry after its child has no parent", copy="dn: cn=b,cn=a,dc=com\n\ndn: cn=a,dc=com\n", fault="copy, line 3: 32 noSuchObject"),
    Run(
        "a name that is twice in the copy",
        copy="dn: dc=com\n\ndn: cn=a,dc=com\n\ndn: CN=A,dc=com\n",
        fault="copy, line 5: 68 entryAlreadyExists",
    ),
    Run("a change record in the copy", copy="dn: dc=com\nchangetype: delete\n", fault="copy, line 1: L5 BadChangetype"),
    Run("a copy of another suffix", copy="dn: dc=org\n", fault="copy, line 1: 32 noSuchObject"),
    Run("a value of bad syntax in the copy", copy="\ndn: cn=a,dc=com\nuidNumber: x\n", fault="copy, line 2: 21 invalidAttributeSyntax"),
    Run("a bad line in the copy", copy="dn: dc=com\nsn\n", fault="copy, line 1: L1 BadLine"),
    Run("an unknown version of the copy", copy="version: 2\n\ndn: dc=com\n", fault="copy, line 0: L15 BadVersion"),
    Run("an unknown version of the changes", changes="version: 3\n", fault="changes: L15 BadVersion"),
]

ROOM = "attributetype ( 1.3.6.1.4.1.32473.1 NAME ( 'room' 'roomName' )\n  EQUALITY caseIgnoreMatch SINGLE-VALUE )\n"
LEVEL = "attributetype ( 1.3.6.1.4.1.32473.2 NAME 'level' SUP uidNumber )\n"
IN_A_ROOM = COM + "dn: cn=e,dc=com\ncn: e\nroom: A 1\n\n"
LEVELS = COM + "dn: cn=e,dc=com\ncn: e\nLevel: -5\nLevel: 0\nLevel: 5\n\n"
ROOMS = COM + "dn: room=A 1,dc=com\nroom: A 1\n\n"
UNDER_TYPES = [
    Run(
        "the same room with other spaces, and a second room",
        options=("-c",),
        types=ROOM,
        copy=IN_A_ROOM,
        changes=(
            "dn: cn=e,dc=com\nchangetype: modify\nadd: roomName\nroomName: a  1\n-\n\n"
            "dn: cn=e,dc=com\nchangetype: modify\nadd: room\nroom: b\n-\n"
        ),
        report="line 1: refused, 20 attributeOrValueExists\nline 7: refused, 19 constraintViolation\naccepted 0, refused 2\n",
    ),
    Run(
        "without the types both are accepted",
        options=("-u",),
        copy=IN_A_ROOM,
        changes=(
            "dn: cn=e,dc=com\nchangetype: modify\nadd: roomName\nroomName: a  1\n-\n\n"
            "dn: cn=e,dc=com\nchangetype: modify\nadd: room\nroom: b\n-\n"
        ),
        report="accepted 2, refused 0\n",
    ),
    Run(
        "an integer with zeros before it",
        options=("-c",),
        types=LEVEL,
        copy=IN_A_ROOM,
        changes="dn: cn=f,dc=com\nchangetype: add\ncn: f\nlevel: 007\n",
        report="line 1: refused, 21 invalidAttributeSyntax\naccepted 0, refused 1\n",
    ),
    Run(
        "several integers are incremented, past each other, and in the order of their texts",
        options=("-c",),
        types=LEVEL,
        copy=LEVELS,
        changes="dn: cn=e,dc=com\nchangetype: modify\nincrement: level\nlevel: 10\n-\n",
        undo=undone("dn: cn=e,dc=com\nchangetype: modify\ndelete: Level\nLevel: 10\nLevel: 15\n-\nadd: Level\nLevel: -5\nLevel: 0\n-\n\n"),
        new=COM + "dn: cn=e,dc=com\ncn: e\nLevel: 10\nLevel: 15\nLevel: 5\n\n",
    ),
    Run(
        "another room",
        options=("-c",),
        types=ROOM,
        copy=IN_A_ROOM,
        changes="dn: cn=e,dc=com\nchangetype: modify\nreplace: room\nroom: b\n-\n",
        undo=undone("dn: cn=e,dc=com\nchangetype: modify\ndelete: room\nroom: b\n-\nadd: room\nroom: A 1\n-\n\n"),
        new=COM + "dn: cn=e,dc=com\ncn: e\nroom: b\n\n",
    ),
    Run(
        "an entry is named by a room with other spaces",
        options=("-c",),
        types=ROOM,
        copy=ROOMS,
        changes="dn: roomName=a  1,dc=com\nchangetype: delete\n",
        undo=undone("dn: room=A 1,dc=com\nchangetype: add\nroom: A 1\n\n"),
        new=COM,
    ),
    Run(
        "without the types no entry has that name",
        options=("-c",),
        copy=ROOMS,
        changes="dn: room=a 1,dc=com\nchangetype: delete\n",
        report="line 1: refused, 32 noSuchObject\naccepted 0, refused 1\n",
    ),
]


def thousand():
    """A thousand entries, which are deleted in order."""
    names = [f"e{number:03}" for number in range(1000)]
    entries = [(f"cn={name},dc=com", ("cn", name)) for name in names]
    return Run(
        "a thousand entries are deleted in order",
        "".join(deleted(name) for name, _ in entries),
        copy=COM + "".join(block(("dn", name), value) for name, value in entries),
        report="accepted 1000, refused 0\n",
        undo=undone(*(added(name, value) for name, value in reversed(entries))),
        new=COM,
    )


def name_at(depth):
    """The name at a depth of a chain of entries below the suffix."""
    return ",".join([*["cn=a"] * (depth - 1), "dc=com"])


def chain(first, last, *values):
    return "".join(block(("dn", name_at(depth)), *values) for depth in range(first, last + 1))


def unit_below(name, *values):
    """A unit below this name, and its one child."""
    return block(("dn", f"ou=m,{name}"), *values[:1]) + block(("dn", f"cn=b,ou=m,{name}"), *values[1:])


def move(shows, depth, **more):
    """A move of the unit below the entry at this depth of a chain that goes down to 63 RDNs."""
    named = ("cn", "a"), ("ou", "m"), ("cn", "b")
    canonical = COM + chain(2, 63, named[0]) + unit_below("dc=com", *named[1:])
    return Run(
        shows,
        # without the line that ends the record
        f"dn: ou=m,dc=com\nchangetype: modrdn\nnewrdn: ou=m\ndeleteoldrdn: 1\nnewsuperior: {name_at(depth)}\n",
        # the unit comes first, and the entries have no values
        copy=COM + unit_below("dc=com") + "".join(f"dn: {name_at(depth)}\n\n" for depth in range(2, 64)),
        back=canonical,
        **{"new": canonical} | more,
    )


LARGE = [
    thousand(),
    move(
        "no move leaves a name of more than 64 RDNs",
        63,
        report="line 1: refused, 11 adminLimitExceeded\naccepted 0, refused 1\n",
    ),
    move(
        "one that leaves a name of 64 RDNs",
        62,
        undo=undone(renamed(f"ou=m,{name_at(62)}", "ou=m", "dc=com")),
        new=COM + chain(2, 63, ("cn", "a")) + unit_below(name_at(62), ("ou", "m"), ("cn", "b")),
    ),
    Run(
        "a line that is too long after the first refused record is not reached",
        NO_ENTRY + "a" * 2_097_153,
        report="line 1: refused, 32 noSuchObject\naccepted 0, refused 1\n",
    ),
    Run(
        "a run that goes on comes to the line that is too long",
        NO_ENTRY + "a" * 2_097_153,
        options=("-c",),
        fault="changes: L10 LineTooLong",
    ),
]

# a copy before two changes, between them and after them: an entry is added, and another one renamed
ADDED, NOT_RENAMED, RENAMED = ("dn: cn=k,dc=com\ncn: k\n\n", "dn: cn=x,dc=com\ncn: x\nsn: Z\n\n", "dn: cn=y+sn=z,dc=com\ncn: y\nsn: Z\n\n")
BEFORE_TWO, BETWEEN_TWO, AFTER_TWO = COM + NOT_RENAMED, COM + ADDED + NOT_RENAMED, COM + ADDED + RENAMED
# what takes them back, and what takes back the records of the first group of that
WITH_VALUE = "dn: cn=x,dc=com\nchangetype: modify\nadd: sn\nsn: Z\n-\n\n"
UNDO_TWO = undone(renamed("cn=y+sn=z,dc=com", "cn=x") + WITH_VALUE, deleted("cn=k,dc=com"))
RENAMED_AGAIN = (
    "dn: cn=x,dc=com\nchangetype: modify\ndelete: sn\n-\n\n",
    renamed("cn=x,dc=com", "cn=y+sn=z") + "dn: cn=y+sn=z,dc=com\nchangetype: modify\ndelete: sn\nsn: z\n-\nadd: sn\nsn: Z\n-\n\n",
)
# the undo file of another version, which has no marks
UNMARKED = "version: 1\n\ndn: cn=y,dc=com\nchangetype: delete\n\n"
WITH_Y = COM + "dn: cn=y,dc=com\ncn: y\n\n"
# changes after which a mark stands where it is no longer judged, and the longest line that may be, with one byte more
ADD_A = "dn: cn=a,dc=com\nchangetype: add\n\n"
TOO_LONG = "a" * 2_097_153


def first_group(shows, changes, **more):
    """A run of the first group of changes, which adds an entry."""
    return Run(shows, changes, **{"last": 1, "undo": undone(deleted("cn=a,dc=com")), "new": COM + "dn: cn=a,dc=com\ncn: a\n\n"} | more)


def back_two(shows, last, **more):
    """A run of so many groups of the undo file of the two changes."""
    return Run(shows, UNDO_TWO, copy=AFTER_TWO, last=last, **more)


def bad_mark(shows, changes, last=1):
    return Run(shows, changes, last=last, fault="changes: L16 BadMark")


FIRST_GROUPS = [
    Run(
        "each accepted change has its mark",
        added("cn=k,dc=com") + renamed("cn=x,dc=com", "cn=y+sn=z"),
        copy=BEFORE_TWO,
        report="accepted 2, refused 0\n",
        undo=UNDO_TWO,
        new=AFTER_TWO,
    ),
    back_two("the last change is taken back, of two records", 1, report="accepted 2, refused 0\n", undo=undone(*RENAMED_AGAIN), new=BETWEEN_TWO),
    back_two(
        "its records are reported",
        1,
        options=("-v",),
        report="line 4: accepted\nline 9: accepted\naccepted 2, refused 0\n",
        undo=undone(*RENAMED_AGAIN),
        new=BETWEEN_TWO,
    ),
    back_two(
        "both changes are taken back",
        2,
        report="accepted 3, refused 0\n",
        undo=undone("dn: cn=k,dc=com\nchangetype: add\ncn: k\n\n", *RENAMED_AGAIN),
        new=BEFORE_TWO,
    ),
    back_two("none is taken back", 0, report="accepted 0, refused 0\n"),
    back_two("a dry run takes one back", 1, options=("-u",), report="accepted 2, refused 0\n"),
    back_two("there are too few groups", 3, fault="cannot go back 3, only 2 groups"),
    back_two("in a dry run too", 3, options=("-u",), fault="cannot go back 3, only 2 groups"),
    back_two("the greatest number", 18_446_744_073_709_551_615, fault="cannot go back 18446744073709551615, only 2 groups"),
    Run(
        "a run that stops at a refused record is not at the end of the text",
        UNDO_TWO,
        last=3,
        report="line 4: refused, 32 noSuchObject\naccepted 0, refused 1\n",
    ),
    Run(
        "also where that is the last record of the text",
        "# undo 1\n" + NO_ENTRY,
        last=2,
        report="line 2: refused, 32 noSuchObject\naccepted 0, refused 1\n",
    ),
    Run("one that goes on comes to it", UNDO_TWO, options=("-c",), last=3, fault="cannot go back 3, only 2 groups"),
    Run(
        "one that goes on and has its groups",
        UNDO_TWO,
        options=("-c",),
        last=1,
        report="line 4: refused, 32 noSuchObject\nline 9: refused, 32 noSuchObject\naccepted 0, refused 2\n",
    ),
    Run("an empty group", undone(""), last=1, report="accepted 0, refused 0\n"),
    Run("without its line feed", undone("")[:-1], last=1, report="accepted 0, refused 0\n"),
    Run("empty groups before others", undone("", "", ADD_A), last=2, report="accepted 0, refused 0\n"),
    Run("no group of a text that has none", NOTHING, last=0, report="accepted 0, refused 0\n"),
    Run("one group of a text that has none", NOTHING, last=1, fault="cannot go back 1, only 0 groups"),
    Run("one group of a text that has nothing", "", last=1, fault="cannot go back 1, only 0 groups"),
    Run("an undo file without marks is run whole", UNMARKED, copy=WITH_Y, undo=undone("dn: cn=y,dc=com\nchangetype: add\ncn: y\n\n"), new=COM),
    bad_mark("a group of it is not to be told", UNMARKED),
    bad_mark("nor where none is wanted", UNMARKED, last=0),
    bad_mark("a record before the first mark", ADD_A + "# undo 1\n" + ADD_A),
    bad_mark("right after the version line", "version: 1\nx\n"),
    bad_mark("the first mark is the second", "version: 1\n\n# undo 2\n" + ADD_A),
    bad_mark("the second is left out after the last wanted group", "# undo 1\n" + ADD_A + "# undo 3\n"),
    bad_mark("a mark that comes twice", "# undo 1\n# undo 1\n" + ADD_A),
    bad_mark("of 30 digits", "# undo " + "1" * 30 + "\n" + ADD_A),
    bad_mark("a number that goes on in the next line", "# undo 1\n 0\n" + ADD_A),
    Run(
        "without a number of groups marks are comments",
        UNDO_TWO.replace("undo 2", "undo 1"),
        options=("-u",),
        copy=AFTER_TWO,
        report="accepted 3, refused 0\n",
    ),
    first_group("a mark right after the version line", "version: 1\n# undo 1\n" + ADD_A + "# undo 2\nx\n"),
    first_group("a mark before the version line", "# undo 1\nversion: 1\n" + ADD_A + "# undo 2\nx\n"),
    first_group("folded marks", "# un\n do 1\n" + ADD_A + "#\n  undo\n  2\nx\n"),
    first_group("marks with CR", "# undo 1\r\n" + ADD_A.replace("\n", "\r\n") + "# un\r\n do 2\r\nx\r\n"),
    first_group("the last mark without its line feed", "# undo 1\n" + ADD_A + "# undo 2"),
    first_group("and wanted", "# undo 1\n" + ADD_A + "# undo 2", last=2),
    first_group("with a CR", "# undo 1\n" + ADD_A + "# undo 2\r", last=2),
    first_group("a comment within a record", "# undo 1\ndn: cn=a,dc=com\n# undo 2\nchangetype: add\n# undo 7\n\n# undo 2\nx\n"),
    first_group(
        "comments that are no marks",
        "# undo 0\n# undo 01\n# undo  1\n#undo 1\n# undo 1 \n# undo 1a\n# undo\n# undo \n# undo -1\n# Undo 2\n## undo 2\n# undo 1\n"
        + ADD_A
        + "# undo 0\n# undo 02\n",
    ),
    first_group("comments between two groups", "# a\n\n# undo 1\n# b\n\n# c\n" + ADD_A + "# d\n# undo 2\nx\n"),
    first_group("no mark is judged after the last wanted group", "# undo 1\n" + ADD_A + "# undo 2\n# undo 2\n# undo 9\nversion: 2\n"),
    first_group("nor a line that is too long", "# undo 1\n" + ADD_A + "# undo 2\n" + TOO_LONG),
    Run("unless its group is wanted", "# undo 1\n" + ADD_A + "# undo 2\n" + TOO_LONG, last=2, fault="changes: L10 LineTooLong"),
    Run("or it belongs to what begins as a mark", "# undo 1\n" + ADD_A + "# undo 2\n " + "1" * 2_097_145, last=1, fault="changes: L10 LineTooLong"),
    bad_mark("the same of a number that is not too long", "# undo 1\n" + ADD_A + "# undo 2\n " + "1" * 2_097_144),
    Run(
        "marks in a copy are comments",
        NOTHING,
        copy=f"# undo 2\n{COM}# undo 7\n",
        last=0,
        report="accepted 0, refused 0\n",
        new=COM,
        back=COM,
    ),
    Run(
        "a group under types",
        undone("dn: cn=e,dc=com\nchangetype: modify\ndelete: roomName\nroomName: a  1\n-\nadd: room\nroom: b\n-\n\n", "x\n"),
        types=ROOM,
        copy=IN_A_ROOM,
        last=1,
        undo=undone("dn: cn=e,dc=com\nchangetype: modify\ndelete: room\nroom: b\n-\nadd: room\nroom: A 1\n-\n\n"),
        new=COM + "dn: cn=e,dc=com\ncn: e\nroom: b\n\n",
    ),
    Run("an unknown version in a wanted group", "# undo 1\nversion: 2\n", last=1, fault="changes: L15 BadVersion"),
]


# ---- questions

NO_RULE = "config: no access rule, so everybody may read"
# a configuration without rules: all may read
READ = "database mdb\nsuffix dc=com\n"
PHONES = (
    "database mdb\nsuffix dc=com\naccess to attrs=telephoneNumber\n  by self write\n  by dnattr=manager read\n"
    "  by group=\"cn=g,dc=com\" search\n"
)
# an entry with a manager, and a group with a member
PEOPLE = (
    COM
    + "dn: cn=t,dc=com\ncn: t\nmanager: cn=m,dc=com\n\n"
    "dn: cn=g,dc=com\nobjectClass: groupOfNames\nmember: cn=k,dc=com\ncn: g\n\n"
)
# the manager is exchanged
EXCHANGE = "dn: cn=t,dc=com\nchangetype: modify\nreplace: manager\nmanager: cn=k,dc=com\n-\n"
CONTINUE = "database mdb\nsuffix dc=com\naccess to *\n  by * =cs continue\n  by users +r\n"
BREAK = "database mdb\nsuffix dc=com\naccess to * by * read break\n"
ROOT = "database mdb\nsuffix dc=com\nrootdn cn=u,dc=com\naccess to * by * read break\n"
USERS = "database mdb\nsuffix dc=com\naccess to * by users read\n"
REPORTS = [
    Ask(
        "`continue` goes on with the later clauses, of which none is for nobody",
        CONTINUE,
        Question("dc=com"),
        report="entry: =0\n",
    ),
    Ask("`continue` goes on with the later clauses", CONTINUE, Question("dc=com", "cn=u,dc=com"), report="entry: =rsc\n"),
    Ask("rules that run out after `break` grant nothing", BREAK, Question("dc=com", "cn=u,dc=com"), report="entry: =0\n"),
    Ask("without rules all may read", READ, Question("dc=com"), report="entry: =rscxd\n", notes=(NO_RULE,)),
    Ask("the rootdn has each privilege", ROOT, Question("dc=com", "cn=u,dc=com"), report="entry: =mwrscxd\n"),
    Ask(
        "levels, and the part of a word that is not used",
        USERS,
        Question("dc=com", "cn=u,dc=com", ("cn/write:foo", "cn/read")),
        report="cn/write: DENIED\ncn/read: ALLOWED\n",
    ),
    Ask(
        "the words in their order and as they are written",
        READ,
        Question("dc=com", None, ("CN;lang-en", "ENTRY/Read", "Children:a/write:b", "sn/NONE")),
        report="CN;lang-en: =rscxd\nENTRY/Read: ALLOWED\nChildren: =rscxd\nsn/NONE: ALLOWED\n",
        notes=(NO_RULE,),
    ),
    Ask(
        "the first level and the last",
        READ,
        Question("dc=com", None, ("cn/manage", "2.5.4.3/disclose")),
        report="cn/manage: DENIED\n2.5.4.3/disclose: ALLOWED\n",
        notes=(NO_RULE,),
    ),
    Ask(
        "the requester's name as it is printed",
        USERS,
        Question("dc=com", "CN = U\\,V, dc=com", is_verbose=True),
        report="authcDN: CN=U\\2CV,dc=com\nentry: =rscxd\n",
    ),
    Ask(
        "nobody's name is `anonymous`",
        READ,
        Question("dc=com", is_verbose=True),
        report="authcDN: anonymous\nentry: =rscxd\n",
        notes=(NO_RULE,),
    ),
    Ask("so is the name without RDNs", USERS, Question("dc=com", "", is_verbose=True), report="authcDN: anonymous\nentry: =0\n"),
    Ask(
        "`self`",
        PHONES,
        Question("cn=t,dc=com", "CN=T,DC=Com", ("telephoneNumber",)),
        copy=PEOPLE,
        report="telephoneNumber: =wrscxd\n",
    ),
    Ask(
        "the manager",
        PHONES,
        Question("cn=t,dc=com", "cn=m,dc=com", ("telephoneNumber",)),
        copy=PEOPLE,
        report="telephoneNumber: =rscxd\n",
    ),
    Ask(
        "a group",
        PHONES,
        Question("cn=t,dc=com", "cn=k,dc=com", ("telephoneNumber",)),
        copy=PEOPLE,
        report="telephoneNumber: =scxd\n",
    ),
    Ask(
        "nobody is none of them",
        PHONES,
        Question("cn=t,dc=com", None, ("telephoneNumber",)),
        copy=PEOPLE,
        report="telephoneNumber: =0\n",
    ),
    Ask(
        "an entry that is made up has no attributes",
        PHONES,
        Question("cn=t,dc=com", "cn=m,dc=com", ("telephoneNumber",), is_fake=True),
        copy=PEOPLE,
        report="telephoneNumber: =0\n",
    ),
    Ask(
        "for an entry that is made up the copy's groups are looked up all the same",
        PHONES,
        Question("cn=no,dc=com", "cn=k,dc=com", ("telephoneNumber",), is_fake=True),
        copy=PEOPLE,
        report="telephoneNumber: =scxd\n",
    ),
    Ask(
        "a filter looks at the attributes of the entry",
        "database mdb\nsuffix dc=com\naccess to filter=(description=*) by dnattr=manager write\naccess to * by * compare\n",
        Question("cn=t,dc=com", "cn=m,dc=com", ("sn",)),
        copy="dn: dc=com\n\ndn: cn=t,dc=com\nmanager: cn=m,dc=com\ndescription: d\n",
        report="sn: =wrscxd\n",
    ),
    Ask(
        "a filter finds nothing in an entry that is made up",
        "database mdb\nsuffix dc=com\naccess to filter=(description=*) by dnattr=manager write\naccess to * by * compare\n",
        Question("cn=t,dc=com", "cn=m,dc=com", ("sn",), is_fake=True),
        copy="dn: dc=com\n\ndn: cn=t,dc=com\nmanager: cn=m,dc=com\ndescription: d\n",
        report="sn: =cxd\n",
    ),
    Ask(
        "of several configurations the one with another suffix has another answer",
        "database mdb\nsuffix dc=org\n",
        Question("dc=org"),
        copy="dn: dc=org\n",
        report="entry: =rscxd\n",
        notes=(NO_RULE,),
    ),
    Ask(
        "a suffix in another spelling",
        "database mdb\nsuffix \"DC = Com\"\n",
        Question("dc=com"),
        report="entry: =rscxd\n",
        notes=(NO_RULE,),
    ),
]

FAULTS = [
    Ask("rules before the database", "access to * by * read\n", Question("dc=com"), fault="config, line 1: C7 GlobalAccess"),
    Ask(
        "a form of rule that is not read",
        "database mdb\nsuffix dc=com\naccess to * by peername.ip=127.0.0.1 read\n",
        Question("dc=com"),
        fault="config, line 3: C2 Unsupported",
    ),
    Ask(
        "a bad filter",
        "database mdb\nsuffix dc=com\naccess to filter=(cn=a by * read\n",
        Question("dc=com"),
        fault="config, line 3: C3 BadFilter",
    ),
    Ask(
        "a clause without its end",
        "database mdb\nsuffix dc=com\naccess to * by\n",
        Question("dc=com"),
        fault="config, line 3: C1 BadDirective",
    ),
    Ask(
        "a second database",
        "database mdb\nsuffix dc=com\ndatabase mdb\n",
        Question("dc=com"),
        fault="config, line 3: C5 SecondDatabase",
    ),
    Ask(
        "a quote that is not closed",
        "database x\nsuffix \"dc=com\n",
        Question("dc=com"),
        fault="config, line 2: C1 BadDirective",
    ),
    Ask("a database without a suffix", "database mdb\n", Question("dc=com"), fault="config, line 0: C10 NoSuffix"),
    Ask("an empty configuration", "", Question("dc=com"), fault="config, line 0: C10 NoSuffix"),
    Ask("a base without a value", READ, Question("cn"), fault="bad question: base", notes=(NO_RULE,)),
    Ask("a base that is a space", READ, Question(" "), fault="bad question: base", notes=(NO_RULE,)),
    Ask("a requester with a `;`", READ, Question("dc=com", "cn=a;b=c"), fault="bad question: authcDN", notes=(NO_RULE,)),
    Ask("a requester without a key", READ, Question("dc=com", "uidNumber=x"), fault="bad question: authcDN", notes=(NO_RULE,)),
    Ask("an unknown level", READ, Question("dc=com", None, ("cn/peek",)), fault="bad question: word 1", notes=(NO_RULE,)),
    Ask(
        "the first faulty word",
        READ,
        Question("dc=com", None, ("cn", "entry", "", "1cn")),
        fault="bad question: word 3",
        notes=(NO_RULE,),
    ),
    Ask("two levels", READ, Question("dc=com", None, ("cn/read/read",)), fault="bad question: word 1", notes=(NO_RULE,)),
    Ask("a word that is no attribute", READ, Question("dc=com", None, ("dn",)), fault="bad question: word 1", notes=(NO_RULE,)),
    Ask(
        "the base comes before the requester, and that before the words",
        READ,
        Question("cn", "cn", ("",)),
        fault="bad question: base",
        notes=(NO_RULE,),
    ),
    Ask(
        "the requester comes before the words",
        READ,
        Question("dc=com", "cn", ("",)),
        fault="bad question: authcDN",
        notes=(NO_RULE,),
    ),
    Ask("the configuration comes before the base", "database mdb\n", Question("cn"), fault="config, line 0: C10 NoSuffix"),
    Ask(
        "the configuration comes before the words",
        "suffix dc=com\n",
        Question("dc=com", None, ("cn/peek",)),
        fault="config, line 1: C1 BadDirective",
    ),
    Ask(
        "the question comes before the copy",
        READ,
        Question("dc=com", None, ("",)),
        copy="x\n",
        fault="bad question: word 1",
        notes=(NO_RULE,),
    ),
    Ask(
        "the copy comes before the entry",
        READ,
        Question("cn=no,dc=com"),
        copy="x\n",
        fault="copy, line 1: L1 BadLine",
        notes=(NO_RULE,),
    ),
    Ask(
        "the copy is read where the entry is made up too",
        READ,
        Question("dc=com", is_fake=True),
        copy="dn: dc=org\n",
        fault="copy, line 1: 32 noSuchObject",
        notes=(NO_RULE,),
    ),
    Ask("an entry that the copy lacks", READ, Question("cn=no,dc=com"), fault="no such entry", notes=(NO_RULE,)),
    Ask(
        "a base outside the suffix can't be made up",
        READ,
        Question("dc=org", is_fake=True),
        fault="no such entry",
        notes=(NO_RULE,),
    ),
    Ask("nor can the name without RDNs", READ, Question("", is_fake=True), fault="no such entry", notes=(NO_RULE,)),
]

VERBOSE_QUESTION = Question("dc=com", is_verbose=True)
# each with the argument that it is about
ARGUMENTS = [
    Ask("without a fault nothing is told", READ, VERBOSE_QUESTION, report="authcDN: anonymous\nentry: =rscxd\n", notes=(NO_RULE,)),
    Ask(
        "on the third line of a directive",
        "database mdb\nsuffix dc=com\naccess to *\n  by self\n  selfwrite\n  by * read\n",
        VERBOSE_QUESTION,
        fault="config, line 3: C2 Unsupported",
        argument='line 5: "selfwrite"',
    ),
    Ask(
        "an open quote",
        'database mdb\nsuffix\n "dc=com\n',
        VERBOSE_QUESTION,
        fault="config, line 2: C1 BadDirective",
        argument="line 3: an open quote or a final backslash",
    ),
    Ask(
        "a second suffix on a folded line",
        "database mdb\nsuffix dc=com\n  dc=org\n",
        VERBOSE_QUESTION,
        fault="config, line 2: C6 SecondSuffix",
        argument='line 3: "dc=org"',
    ),
    Ask("a suffix before the database", "suffix dc=com\n", VERBOSE_QUESTION, fault="config, line 1: C1 BadDirective", argument='line 1: "suffix"'),
    Ask("no suffix is about none", "database mdb\n", VERBOSE_QUESTION, fault="config, line 0: C10 NoSuffix"),
]
LONG_CONFIGURATIONS = [
    Ask("16,777,216 bytes", "#" * 16_777_216, Question("dc=com"), fault="config, line 0: C10 NoSuffix"),
    Ask("16,777,217 bytes", "#" * 16_777_217, Question("dc=com"), fault="config, line 0: C11 ConfigTooLong"),
]

QUESTIONS_UNDER_TYPES = [
    Ask(
        "a rule and a word by other names of the type",
        (
            "database mdb\nsuffix dc=com\naccess to attrs=ROOMNAME by * read\n"
            "attributetype ( 1.3.6.1.4.1.32473.1 NAME ( 'room' 'roomName' ) EQUALITY caseIgnoreMatch )\n"
        ),
        Question("cn=e,dc=com", None, ("1.3.6.1.4.1.32473.1", "cn")),
        copy=IN_A_ROOM,
        report="1.3.6.1.4.1.32473.1: =rscxd\ncn: =0\n",
    ),
    Ask(
        "without the types the names are two types",
        "database mdb\nsuffix dc=com\naccess to attrs=roomName by * read\n",
        Question("cn=e,dc=com", None, ("roomName", "room")),
        copy=IN_A_ROOM,
        report="roomName: =rscxd\nroom: =0\n",
        notes=(
            'config, line 3: unknown attribute "roomName"',
            'word "roomName": unknown attribute "roomName"',
            'word "room": unknown attribute "room"',
        ),
    ),
    Ask(
        "an entry that is named by an added type",
        (
            "database mdb\nsuffix dc=com\naccess to attrs=ROOMNAME by * read\n"
            "attributetype ( 1.3.6.1.4.1.32473.1 NAME ( 'room' 'roomName' ) EQUALITY caseIgnoreMatch )\n"
        ),
        Question("roomName=a  1,dc=com", None, ("room",)),
        copy=ROOMS,
        report="room: =rscxd\n",
    ),
    Ask(
        "a definition that can't be added, after a line with another fault",
        "suffix BAD\nattributetype ( 1.3.6.1.4.1.32473.2 NAME 'level'\n  SUP nothing )\n",
        Question("cn=e,dc=com", None, ("1.3.6.1.4.1.32473.1", "cn")),
        copy=IN_A_ROOM,
        fault="config, line 2: C12 BadType",
    ),
    Ask(
        "a definition that can't be added, and a faulty question",
        "attributetype\n",
        Question("BAD", None, ("1.3.6.1.4.1.32473.1", "cn")),
        copy=IN_A_ROOM,
        fault="config, line 1: C12 BadType",
    ),
    Ask(
        "a faulty line after a definition",
        "attributetype ( 1.3.6.1.4.1.32473.2 NAME 'level' )\ndatabase mdb\nsuffix BAD\n",
        Question("cn=e,dc=com", None, ("1.3.6.1.4.1.32473.1", "cn")),
        copy=IN_A_ROOM,
        fault="config, line 3: C4 Name",
    ),
    Ask(
        "a suffix of an added type without a key",
        "attributetype ( 1.3.6.1.4.1.32473.2 NAME 'level' SUP uidNumber )\ndatabase mdb\nsuffix level=007\n",
        Question("cn=e,dc=com", None, ("1.3.6.1.4.1.32473.1", "cn")),
        copy=IN_A_ROOM,
        fault="config, line 3: C4 Name",
    ),
]


# ---- what is tried of each row


def left_by(place, row, *words):
    """What a run leaves with these options, under the types of a row."""
    options = [*words, *(["-f", "conf"] if row.types is not None else [])]
    return place.run("slapmodify", "-b", row.suffix, *options)


def check_run(program, row):
    """Makes the changes of a row, and takes them back where files are written."""
    wanted = row.answer()
    texts = {"copy": row.copy, "changes": row.changes} | ({} if row.types is None else {"conf": row.types})
    with Place(program) as place:
        for name, text in texts.items():
            place.write(name, text.encode())
        streams = left_by(place, row, "--data", "copy", "-l", "changes", "--out", "new", "--undo", "undo", *row.words())
        check_answer(Answer(*streams, text_of(place, "new"), text_of(place, "undo")), wanted)
        check_answer(defined_answer(row), wanted, " by the definitions")
        made = set() if wanted.new is None else {"new", "undo"}
        checks.expect(place.names(), made | set(texts), "files")
        if made:
            check_back(place, row, wanted, set(texts))


def check_back(place, row, wanted, texts):
    """Takes the changes of a row back, and makes them again."""
    count, groups = (len(re.findall(f"^{begin}", wanted.undo, re.M)) for begin in ("changetype: ", "# undo "))
    accepted = 0, f"accepted {count}, refused 0\n", ""
    streams = left_by(place, row, "--data", "new", "-l", "undo", "--out", "back", "--undo", "redo")
    checks.expect(streams, accepted, "the undo run")
    checks.expect(place.names(), {*texts, "new", "undo", "back", "redo"}, "files after the undo run")
    same(text_of(place, "back"), row.copy if row.back is None else row.back, "the copy that the undo run gives")
    checks.expect(left_by(place, row, "--data", "new", "-l", "undo", "--last", str(groups), "-u"), accepted, "the run of all groups")
    fault = f"slapkit: cannot go back {groups + 1}, only {groups} groups\n"
    checks.expect(left_by(place, row, "--data", "new", "-l", "undo", "--last", str(groups + 1), "-u"), (1, "", fault), "the run of one group more")
    streams = left_by(place, row, "--data", "back", "-l", "redo", "--out", "forth", "--undo", "undo2")
    checks.expect((streams[0], streams[2]), (0, ""), "the run forth")
    same(text_of(place, "forth"), wanted.new, "the new copy again")


def text_of(place, name):
    data = place.read(name)
    return None if data is None else data.decode(errors="surrogateescape")


def check_answer(found, wanted, by=""):
    checks.expect((found.status, found.message), (wanted.status, wanted.message), f"exit status and standard error{by}")
    for text, what in (("report", "the report"), ("new", "the new copy"), ("undo", "the undo file")):
        same(getattr(found, text) or "", getattr(wanted, text) or "", f"{what}{by}")
    checks.expect((found.new is None, found.undo is None), (wanted.new is None, wanted.undo is None), f"no new copy, no undo file{by}")


def defined_answer(row):
    """What the definitions say of the texts of a row. A dry run is as any other, but writes no file."""
    texts = (row.suffix.encode(), row.copy.encode(), row.changes.encode())
    defined = answer(*texts, "-c" in row.options, "-v" in row.options, (row.types or "").encode(), row.last)
    return dataclasses.replace(defined, new=None, undo=None) if "-u" in row.options else defined


def check_ask(program, row):
    with Place(program) as place:
        place.write("conf", row.config.encode())
        place.write("copy", row.copy.encode())
        checks.expect(place.run("slapacl", "-f", "conf", "--data", "copy", *row.question.options()), row.answer(), "answered")
        checks.expect(access_answer(row.config.encode(), row.copy.encode(), row.question), row.answer(), "by the definitions")
        checks.expect(place.names(), {"conf", "copy"}, "files")


def check_exchange(program):
    """The manager of an entry is exchanged, and the new one may read: until the run is taken back."""
    with Place(program) as place:
        place.write("conf", PHONES.encode())
        place.write("copy", PEOPLE.encode())
        place.write("changes", EXCHANGE.encode())
        for copy, changes, new, undo, old_one, new_one in (
            ("copy", "changes", "new", "undo", "=0", "=rscxd"),
            ("new", "undo", "back", "redo", "=rscxd", "=scxd"),
        ):
            words = ["slapmodify", "-b", "dc=com", "--data", copy, "-l", changes, "--out", new, "--undo", undo]
            checks.expect(place.run(*words), (0, "accepted 1, refused 0\n", ""))
            for requester, held in (("cn=m,dc=com", old_one), ("cn=k,dc=com", new_one)):
                question = Question("cn=t,dc=com", requester, ("telephoneNumber",))
                found = place.run("slapacl", "-f", "conf", "--data", new, *question.options())
                checks.expect(found, (0, f"telephoneNumber: {held}\n", ""), f"{requester} on {new}")


RUNS = {
    "adds and deletes": ENTRIES,
    "renames": RENAMES,
    "options": OPTIONS,
    "modifies": MODIFIES,
    "refusals": REFUSALS,
    "increments that are refused": INCREMENTS,
    "faults of runs": ENDINGS,
    "runs under types": UNDER_TYPES,
    "large runs": LARGE,
    "first groups of an undo file": FIRST_GROUPS,
}
QUESTIONS = {
    "reports": REPORTS,
    "faults of questions": FAULTS,
    "arguments of faults": ARGUMENTS,
    "questions under types": QUESTIONS_UNDER_TYPES,
    "large configurations": LONG_CONFIGURATIONS,
}


def main():
    program = str(pathlib.Path(sys.argv[1]).resolve())
    wanted = sys.argv[2] if len(sys.argv) > 2 else ""
    pairs = [
        (f"{group}: {row.shows}", lambda check=check, row=row: check(program, row))
        for groups, check in ((RUNS, check_run), (QUESTIONS, check_ask))
        for group, rows in groups.items()
        for row in rows
    ]
    pairs.append(("access is as before once a run is taken back", lambda: check_exchange(program)))
    sys.exit(checks.run("rows", [pair for pair in pairs if wanted in pair[0]]))


main()
