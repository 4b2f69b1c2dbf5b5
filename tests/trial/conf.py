#!/usr/bin/env python3
"""Runs slapkit slapconf on configurations: what it makes of them, its report, its exit statuses and faults, and how it opens and makes files.

usage: conf.py PROGRAM [WORD]

With a word, only the checks whose names have it. The rows say what slapd.conf(5), slapd-config(5), docs/CODES.md, and slapd 2.5.13 want of each
text; model/flat.py, which reads such texts in another language, must say the same. What is made is asked under, too.
"""
import dataclasses
import os
import pathlib
import re
import subprocess
import sys
import tempfile
import threading

sys.path.insert(0, str(pathlib.Path(__file__).resolve().parents[1]))

from harness import checks
from harness.checks import expect
from harness.runs import without_hints
from model import flat
from model.flat import MOST_BYTES

# the longest texts have 16 MiB
SECONDS = 120
HEAD = b"# slapkit slapconf\n" + b"".join(b"attributetype %s\n" % one.encode() for one in flat.OWN_TYPES)
SUFFIX = "dc=com"
CONF = "database mdb\nsuffix dc=com\naccess to * by * read\n"
OF_CONF = "database mdb\nsuffix dc=com\naccess to * by * read\n"
LDIF = "dn: olcDatabase={1}mdb,cn=config\nolcDatabase: {1}mdb\nolcSuffix: dc=com\nolcAccess: {0}to * by * read\n"
ONE_RULE = "types 0, rules 1, frontend 0\n"


@dataclasses.dataclass
class Left:
    """An exit status, what went to standard output and to standard error, and the flat configuration, if there is one."""

    status: int
    report: str
    message: str
    flat: bytes | None


class Trial:
    """Runs in a folder of their own."""

    def __init__(self, program, folder):
        self.program, self.folder, self.given = program, pathlib.Path(folder), set()

    def write(self, files):
        """These files, and no others."""
        for path in self.folder.iterdir():
            path.unlink() if path.is_symlink() or not path.is_dir() else subprocess.run(["rm", "-r", path], check=True)
        for name, text in files.items():
            path = os.path.join(os.fsencode(self.folder), name if isinstance(name, bytes) else name.encode())
            os.makedirs(os.path.dirname(path), exist_ok=True)
            with open(path, "wb") as file:
                file.write(text if isinstance(text, bytes) else text.encode())
        self.given = self.names()

    def names(self):
        """All files in the folder."""
        return {os.path.join(place, name) for place, _, names in os.walk(os.fsencode(self.folder)) for name in names}

    def run(self, words, typed=b"", out=subprocess.PIPE, err=subprocess.PIPE, closed=(), **how):
        """What a run leaves. Some of its streams may be closed from the start."""

        def close():
            for stream in closed:
                os.close(stream)

        command = [self.program, "slapconf", *words]
        ended = subprocess.run(command, cwd=self.folder, input=typed, stdout=out, stderr=err, preexec_fn=close, timeout=SECONDS, **how)
        message = without_hints(ended.stderr or b"", "slapconf")
        return Left(ended.returncode, (ended.stdout or b"").decode(), message.decode(), self.taken())

    def taken(self):
        """The flat configuration, if it was made, which is taken away. Nothing else may be left."""
        left = {name[len(os.fsencode(self.folder)) + 1 :] for name in self.names() - self.given}
        if not left:
            return None
        expect(left, {b"flat"}, "files that are left")
        text = (self.folder / "flat").read_bytes()
        (self.folder / "flat").unlink()
        return text

    def of_conf(self, *words, suffix=SUFFIX, **how):
        return self.run(["-b", suffix, "-f", "conf", "--out", "flat", *words], **how)

    def of_ldif(self, *words, suffix=SUFFIX, **how):
        return self.run(["-b", suffix, "--config", "config", "--out", "flat", *words], **how)


def made(text, report):
    """What a run leaves that makes this text, after slapd's own types."""
    own, database = re.fullmatch(r"(?s)((?:attributetype .*?\n)*)(database mdb\n.*)", text).groups()
    return Left(0, report, "", HEAD + own.encode() + database.encode())


def refused(fault):
    return Left(1, "", f"slapkit: {fault}\n", None)


def by_model(files, suffix=SUFFIX):
    """What model/flat.py says."""
    texts = {(name if isinstance(name, bytes) else name.encode()): text if isinstance(text, bytes) else text.encode() for name, text in files.items()}
    if "config" in files:
        found = flat.flat_of_config(suffix.encode(), texts[b"config"])
    else:
        # a path that ends in a slash is that of a folder
        found = flat.flat_of_files(suffix.encode(), b"conf", lambda path: None if path.endswith(b"/") else texts.get(os.path.normpath(path)))
    return Left(*dataclasses.astuple(found))


def check_row(trial, files, wanted, suffix=SUFFIX, what=None):
    trial.write(files)
    run = trial.of_ldif if "config" in files else trial.of_conf
    expect(run(suffix=suffix), wanted, what or files)
    expect(by_model(files, suffix), wanted, f"model/flat.py, {what or files}")


# ---- what files of a slapd.conf come to

# Each has files, of which `conf` is the one that is given, and what is made of them after slapd's own types, with the report.
FLATS = {
    "a configuration": (
        {
            "conf": "# all of it\ninclude core.schema\nobjectidentifier my 1.3.6.1.4.1.32473\nattributetype ( my:1 NAME 'room' SUP name )\n"
            'pidfile /run/slapd.pid\nmodulepath /usr/lib/ldap\nmoduleload back_mdb\naccess to dn.base="" by * read\n\n'
            'database mdb\nsuffix "dc=com"\nrootdn "cn=root,dc=com"\nrootpw secret\ndirectory /var/lib/ldap\nindex objectClass eq\n'
            'access to attrs=userPassword\n  by self =xw\n  by anonymous auth\naccess to *\n\tby dn.base="cn=a b,dc=com" write\n\tby * read\n',
            "core.schema": "attributetype ( 2.5.4.41 NAME 'name' EQUALITY caseIgnoreMatch )\nobjectclass ( 2.5.6.6 NAME 'person' SUP top MUST ( sn $ cn ) )\n",
        },
        "attributetype ( 2.5.4.41 NAME 'name' EQUALITY caseIgnoreMatch )\nattributetype ( 1.3.6.1.4.1.32473.1 NAME 'room' SUP name )\n"
        "database mdb\nsuffix dc=com\nrootdn cn=root,dc=com\naccess to attrs=userPassword by self =xw by anonymous auth\n"
        'access to * by "dn.base=cn=a b,dc=com" write by * read\naccess to dn.base= by * read\n',
        "types 2, rules 2, frontend 1\n",
    ),
    "one database alone": ({"conf": CONF}, OF_CONF, ONE_RULE),
    "no rule and no end of the line": ({"conf": "database mdb\nsuffix dc=com"}, "database mdb\nsuffix dc=com\n", "types 0, rules 0, frontend 0\n"),
    "lines that end in CR LF": ({"conf": CONF.replace("\n", "\r\n").replace(" by", "\r\n by")}, OF_CONF, ONE_RULE),
    "words in any case": (
        {
            "conf": "INCLUDE a\nObjectIdentifier my 1.2\nACCESS to attrs=cn by * none\nDATABASE MDB\nSUFFIX dc=com\nRootDN cn=r,dc=com\nAccess to * by * read\n",
            "a": "AttributeTYPES ( 1.2.3 NAME 'a' )\n",
        },
        "attributetype ( 1.2.3 NAME 'a' )\ndatabase mdb\nsuffix dc=com\nrootdn cn=r,dc=com\naccess to * by * read\naccess to attrs=cn by * none\n",
        "types 1, rules 1, frontend 1\n",
    ),
    "a suffix that is spelled otherwise": (
        {"conf": 'database mdb\nsuffix "DC = Com"\naccess to * by * read\n'},
        'database mdb\nsuffix "DC = Com"\naccess to * by * read\n',
        ONE_RULE,
    ),
    "each suffix and each rootdn of the database": (
        {"conf": "database null\nsuffix dc=net\nrootdn cn=a\nsuffix dc=com\nrootdn cn=b\n"},
        "database mdb\nsuffix dc=net\nrootdn cn=a\nsuffix dc=com\nrootdn cn=b\n",
        "types 0, rules 0, frontend 0\n",
    ),
    "quotes and backslashes in words": (
        {"conf": 'database mdb\nsuffix dc=com\naccess to dn.base="o=a\\\\2cb,dc=com" by dn.base=cn=\\a,dc="com" read by * "" by "\\"" none\n'},
        'database mdb\nsuffix dc=com\naccess to "dn.base=o=a\\\\2cb,dc=com" by dn.base=cn=a,dc=com read by * "" by "\\"" none\n',
        ONE_RULE,
    ),
    "rules that slapacl refuses": (
        {"conf": "database mdb\nsuffix dc=com\naccess to * by peername.ip=127.0.0.1 read\naccess\naccess by\n"},
        "database mdb\nsuffix dc=com\naccess to * by peername.ip=127.0.0.1 read\naccess\naccess by\n",
        "types 0, rules 3, frontend 0\n",
    ),
    # ---- which database
    "rules of no other database": (
        {
            "conf": "database mdb\nsuffix dc=net\nrootdn cn=x\naccess to * by * none\ndatabase config\nrootpw x\naccess to * by * manage\ndatabase mdb\nsuffix dc=com\n"
            "access to * by * read\noverlay memberof\naccess to attrs=cn by * write\ndatabase monitor\naccess to * by * auth\ndatabase mdb\nsuffix dc=org\naccess to * by * none\n",
        },
        "database mdb\nsuffix dc=com\naccess to * by * read\naccess to attrs=cn by * write\n",
        "types 0, rules 2, frontend 0\n",
    ),
    "the rules of the frontend": (
        {
            "conf": "rootdn cn=none\naccess to attrs=a by * read\nbackend mdb\naccess to attrs=b by * read\noverlay x\naccess to attrs=c by * read\n"
            "database mdb\nsuffix dc=com\naccess to attrs=d by * read\ndatabase Frontend\nrootdn cn=none\naccess to attrs=e by * read\n"
            "database mdb\nsuffix dc=net\naccess to attrs=f by * read\n",
        },
        "database mdb\nsuffix dc=com\naccess to attrs=d by * read\n" + "".join(f"access to attrs={one} by * read\n" for one in "abce"),
        "types 0, rules 1, frontend 4\n",
    ),
    "a database above": (
        {"conf": 'database mdb\nsuffix dc=com\naccess to * by * read\ndatabase mdb\nsuffix com=x\ndatabase null\nsuffix ""\n'},
        OF_CONF,
        ONE_RULE,
    ),
    # ---- attribute types
    "macros in numbers": (
        {
            "conf": "objectidentifier my 1.3\nobjectidentifier at my:1\nobjectidentifier \"MY\" 1.4\nattributetype ( at:7 NAME 'a' )\nattributetype (my NAME 'b' )\n"
            "attributetype ( MY:1.2 NAME 'c' SYNTAX my:15{64} )\nattributetype ( later:1 NAME 'd' )\nobjectidentifier later 1.5\nobjectidentifier my 1.3\n"
            "database mdb\nsuffix dc=com\nobjectidentifier db 1.6\nattributetype ( db:1 NAME 'e' )\nattributetype ( my:2 NAME 'f' )\n",
        },
        "attributetype ( 1.3.1.7 NAME 'a' )\nattributetype ( 1.3 NAME 'b' )\nattributetype ( 1.4.1.2 NAME 'c' SYNTAX my:15{64} )\nattributetype ( later:1 NAME 'd' )\n"
        "attributetype ( 1.6.1 NAME 'e' )\nattributetype ( 1.3.2 NAME 'f' )\ndatabase mdb\nsuffix dc=com\n",
        "types 6, rules 0, frontend 0\n",
    ),
    "words that define a type": (
        {
            "conf": "attribute ( 1.2.1 NAME 'a' )\nattributetype ( 1.2.2 NAME 'b' )\nATTRIBUTETYPES ( 1.2.3 NAME 'c' )\nattributefoo ( 1.2.4 NAME 'd' )\n"
            "attributeoptions x-\nAttributeOptions lang-\nattributeoption ( 1.2.5 NAME 'e' )\nattribut ( 1.2.6 NAME 'f' )\n# attributetype ( 1.2.7 NAME 'g' )\n" + CONF,
        },
        "".join(f"attributetype ( 1.2.{n} NAME '{one}' )\n" for n, one in ((1, "a"), (2, "b"), (3, "c"), (4, "d"), (5, "e"))) + OF_CONF,
        "types 5, rules 1, frontend 0\n",
    ),
    "definitions as they stand": (
        {"conf": "attributetype ( 1.2.1\n\tNAME 'a'\n  DESC 'a \"b' ) # a note\nattributetype\t( 1.2.2 DESC 'x\\' )\nattributetype 1.2.3 NAME x\nattributetype\n" + CONF},
        "attributetype ( 1.2.1 NAME 'a'  DESC 'a \"b' ) # a note\nattributetype ( 1.2.2 DESC 'x\\' )\nattributetype  1.2.3 NAME x\nattributetype \n" + OF_CONF,
        "types 4, rules 1, frontend 0\n",
    ),
    # ---- lines
    "an include ends with its physical line": (
        {"conf": "include none-of-it\n  access to attrs=cn by * read\n" + CONF, "none-of-it": ""},
        OF_CONF + "access to attrs=cn by * read\n",
        "types 0, rules 1, frontend 1\n",
    ),
    "an include in quotes goes on": ({"conf": '"include"\n  a\n' + CONF, "a": "access to attrs=cn by * read"}, OF_CONF + "access to attrs=cn by * read\n", "types 0, rules 1, frontend 1\n"),
    "a backslash at a line's end": (
        {
            "conf": "# a note \\\naccess to attrs=a by * read\naccess to attrs=b by * read\n# two \\\\\naccess to attrs=c by * read\n"
            "database mdb\nsuffix dc=com\naccess to attrs=c\\\nn by * re\\\r\nad\naccess to attrs=sn\\\n  by * read\naccess to \"a\\\nb\" by * none\n",
        },
        "database mdb\nsuffix dc=com\naccess to attrs=cn by * read\naccess to attrs=sn by * read\naccess to ab by * none\n"
        "access to attrs=b by * read\naccess to attrs=c by * read\n",
        "types 0, rules 3, frontend 2\n",
    ),
    "lines that go on": (
        {
            "conf": "# a note\n  access to attrs=a by * read\ndatabase mdb\nsuffix\n\tdc=com\naccess to attrs=b\n \n\t by * read\naccess to attrs=c by * read\n# within\n  by * none\n"
            "access to attrs=d by * read\n\n  by * none\naccess to attrs=e\n\x0bby\n\x0c* read\n",
        },
        "database mdb\nsuffix dc=com\n" + "".join(f"access to attrs={one} by * read\n" for one in "bcde"),
        "types 0, rules 4, frontend 0\n",
    ),
    # ---- files
    "a file in the place of each line that includes it": (
        {
            "conf": "include a\ndatabase mdb\nsuffix dc=com\naccess to attrs=x by * read\ninclude a\naccess to attrs=y by * read\ninclude \"a\"\n",
            "a": "access to attrs=cn by * read",
        },
        "database mdb\nsuffix dc=com\naccess to attrs=x by * read\naccess to attrs=cn by * read\naccess to attrs=y by * read\naccess to attrs=cn by * read\naccess to attrs=cn by * read\n",
        "types 0, rules 4, frontend 1\n",
    ),
    "a database that an included file opens": (
        {
            "conf": "include a\naccess to attrs=b by * read\ninclude c\naccess to attrs=d by * read\n",
            "a": "database mdb\nsuffix dc=com\naccess to attrs=a by * read\n",
            "c": "database frontend\n",
        },
        "database mdb\nsuffix dc=com\naccess to attrs=a by * read\naccess to attrs=b by * read\naccess to attrs=d by * read\n",
        "types 0, rules 2, frontend 1\n",
    ),
    "paths": (
        {
            "conf": 'include sub/a\ninclude "with space"\ninclude with\\ space\ninclude ./sub/../b\ninclude \u00fc\n' + CONF,
            # from the working directory, not from the folder of the file
            "sub/a": "include b\n",
            "b": "access to attrs=b by * read\n",
            "sub/b": "access to attrs=none by * read\n",
            "with space": "access to attrs=s by * read\n",
            "\u00fc": "access to attrs=u by * read\n",
        },
        OF_CONF + "".join(f"access to attrs={one} by * read\n" for one in "bssbu"),
        "types 0, rules 1, frontend 5\n",
    ),
    # without a text a row has its fault
    "nothing is joined across files": (
        {"conf": "access to attrs=a by * read\ninclude a\n  by * none\n" + CONF, "a": " by * none\naccess to attrs=b by * read\\"},
        None,
        'a, line 2: K3 BadArguments',
    ),
}


def a_row(name):
    files, text, told = FLATS[name]
    return lambda trial: check_row(trial, files, made(text, told) if text else refused(told))


# ---- what the LDIF of cn=config comes to

RECORD = "dn: olcDatabase={1}mdb,cn=config\nolcSuffix: dc=com\n"
CONFIGS = {
    "a configuration": (
        "dn: cn=config\nobjectClass: olcGlobal\ncn: config\nolcPidFile: /run/slapd.pid\n\n"
        "dn: cn={0}core,cn=schema,cn=config\nolcObjectIdentifier: {0}my 1.3.6.1.4.1.32473\nolcObjectIdentifier: {1}at my:1\n"
        "olcAttributeTypes: {0}( at:7 NAME 'room'\n  SUP name )\nolcAttributeTypes: {1}(my:8 NAME 'b' )\nolcObjectClasses: {0}( 2.5.6.6 NAME 'person' )\n\n"
        "dn: olcDatabase={-1}frontend,cn=config\nolcDatabase: {-1}frontend\nolcAccess: {0}to dn.base=\"\" by * read\n\n"
        "dn: olcDatabase={0}config,cn=config\nolcDatabase: {0}config\nolcRootDN: cn=admin,cn=config\nolcAccess: {0}to * by * manage\n\n"
        "dn: olcDatabase={1}mdb,cn=config\nolcDatabase: {1}mdb\nolcSuffix: dc=com\nolcRootDN: cn=root,dc=com\nolcRootPW:: c2VjcmV0\n"
        'olcAccess: {0}to attrs=userPassword by self =xw by anonymous auth\nolcAccess: {1}to * by dn.base="cn=a b,dc=com" write by * read\n\n'
        "dn: olcDatabase={2}mdb,cn=config\nolcDatabase: {2}mdb\nolcSuffix: dc=net\nolcAccess: {0}to * by * none\n",
        "attributetype ( 1.3.6.1.4.1.32473.1.7 NAME 'room' SUP name )\nattributetype ( 1.3.6.1.4.1.32473.8 NAME 'b' )\n"
        "database mdb\nsuffix dc=com\nrootdn cn=root,dc=com\naccess to attrs=userPassword by self =xw by anonymous auth\n"
        'access to * by "dn.base=cn=a b,dc=com" write by * read\naccess to dn.base= by * read\n',
        "types 2, rules 2, frontend 1\n",
    ),
    "one database alone": (LDIF, OF_CONF, ONE_RULE),
    "a version, comments, base64 and names in any case": (
        f"version: 1\n# a note\n  more of it\n{RECORD.replace('olcSuffix', 'OLCSUFFIX')}oLcAccess:: dG8gKiBieSAqIHJlYWQ=\n\n# the end\n",
        OF_CONF,
        ONE_RULE,
    ),
    "values without places": (
        f"{RECORD}olcAccess: to attrs=b by * read\nolcAccess: to attrs=a by * read\n",
        "database mdb\nsuffix dc=com\naccess to attrs=b by * read\naccess to attrs=a by * read\n",
        "types 0, rules 2, frontend 0\n",
    ),
    # tabs and line feeds are white space in a rule, and are spaces in a definition; a backslash is a byte
    "white space and backslashes": (
        f"{RECORD}olcAccess:: dG8gKgoJYnkgKglyZWFk\nolcAccess: to dn.base=\"o=a\\2Cb\" by * none\nolcAttributeTypes:: KCAxLjIuMwoJTkFNRSAnYScgKQ==\n",
        "attributetype ( 1.2.3  NAME 'a' )\ndatabase mdb\nsuffix dc=com\naccess to * by * read\naccess to dn.base=o=a\\2Cb by * none\n".replace(
            "dn.base=o=a\\2Cb", '"dn.base=o=a\\\\2Cb"'
        ),
        "types 1, rules 2, frontend 0\n",
    ),
    # slapd writes its own types there, and reads none
    "the record of slapd's own schema": (
        f"dn: CN=schema,cn=config\nolcObjectIdentifier: my 1.2\nolcAttributeTypes: {{1}}( 2.5.4.0 NAME 'objectClass' )\n\n{RECORD}olcAttributeTypes: ( my:3 NAME 'a' )\n",
        "attributetype ( 1.2.3 NAME 'a' )\ndatabase mdb\nsuffix dc=com\n",
        "types 1, rules 0, frontend 0\n",
    ),
    "two suffixes of the database": (f"{RECORD}olcSuffix: dc=net\n", "database mdb\nsuffix dc=com\nsuffix dc=net\n", "types 0, rules 0, frontend 0\n"),
    "ten rules": (
        RECORD + "".join(f"olcAccess: {{{n}}}to attrs=a{n} by * read\n" for n in range(11)),
        "database mdb\nsuffix dc=com\n" + "".join(f"access to attrs=a{n} by * read\n" for n in range(11)),
        "types 0, rules 11, frontend 0\n",
    ),
}


def a_config(name):
    text, wanted, report = CONFIGS[name]
    return lambda trial: check_row(trial, {"config": text}, made(wanted, report))


def both_forms_come_to_the_same(trial):
    """A slapd.conf, and the cn=config that slaptest 2.5.13 makes of it, without slapd's own types and without most of the settings."""
    conf = (
        "include a\ninclude b\naccess to dn.base=\"\" by * read\n"
        "database mdb\nsuffix dc=com\nrootdn cn=root,dc=com\nrootpw secret\nmaxsize 1048576\n"
        'access to attrs=userPassword by self =wx by anonymous auth\naccess to dn.subtree="ou=x y,dc=com" by users read by * none\n'
        "database frontend\naccess to attrs=cn by * =rs\n"
    )
    config = (
        "dn: cn={0}a,cn=schema,cn=config\nobjectClass: olcSchemaConfig\ncn: {0}a\nolcObjectIdentifier: {0}my 1.3.6.1.4.1.32473\n"
        "olcAttributeTypes: {0}( my:4 NAME 'room' EQUALITY caseIgnoreMatch SYNTAX 1.3.6.1.4.1.1466.115.121.1.15 )\n\n"
        "dn: cn={1}b,cn=schema,cn=config\nolcAttributeTypes: {0}( 1.3.6.1.4.1.32473.5 NAME 'floor' SUP room )\n\n"
        "dn: olcDatabase={-1}frontend,cn=config\nobjectClass: olcDatabaseConfig\nobjectClass: olcFrontendConfig\nolcDatabase: {-1}frontend\n"
        'olcAccess: {0}to dn.base=""  by * read\nolcAccess: {1}to attrs=cn  by * =rs\nolcAddContentAcl: FALSE\nolcSizeLimit: 500\n\n'
        "dn: olcDatabase={0}config,cn=config\nobjectClass: olcDatabaseConfig\nolcDatabase: {0}config\nolcAccess: {0}to *  by * none\nolcRootDN: cn=config\n\n"
        "dn: olcDatabase={1}mdb,cn=config\nobjectClass: olcDatabaseConfig\nobjectClass: olcMdbConfig\nolcDatabase: {1}mdb\nolcDbDirectory: /x\nolcSuffix: dc=com\n"
        'olcAccess: {0}to attrs=userPassword  by self =wx  by anonymous auth\nolcAccess: {1}to dn.subtree="ou=x y,dc=com"  by users read  by * none\n'
        "olcRootDN: cn=root,dc=com\nolcRootPW:: c2VjcmV0\nolcDbMaxSize: 1048576\n"
    )
    schema = "objectidentifier my 1.3.6.1.4.1.32473\nattributetype ( my:4 NAME 'room' EQUALITY caseIgnoreMatch SYNTAX 1.3.6.1.4.1.1466.115.121.1.15 )\n"
    trial.write({"conf": conf, "a": schema, "b": "attributetype ( 1.3.6.1.4.1.32473.5 NAME 'floor' SUP room )\n", "config": config})
    found, other = trial.of_conf(), trial.of_ldif()
    expect((found.status, found.report), (0, "types 2, rules 2, frontend 2\n"))
    expect(other, found)
    expect(b"secret" in found.flat or b"c2VjcmV0" in found.flat, False, "a password is written")


def what_is_made_is_read(trial):
    """Rules decide as they do in slapd, and what slapacl doesn't know is refused with its line in the file that was made."""
    copy = "dn: dc=com\ndc: com\nroom: A 1\nlevel: 7\n\ndn: cn=a,dc=com\ncn: a\n\n"
    conf = (
        "objectidentifier my 1.3.6.1.4.1.32473\nattributetype ( my:1 NAME ( 'room' 'roomName' ) EQUALITY caseIgnoreMatch )\naccess to attrs=entryUUID by * none\n"
        "database mdb\nsuffix dc=com\nrootdn cn=r,dc=com\n"
        'access to filter="(roomName=a  1)" attrs=room by users =rs\ninclude more\naccess to attrs=dc by * =c\n'
    )
    asked = [
        (["room"], "room: =0\n"),
        (["-D", "cn=a,dc=com", "room"], "room: =rs\n"),
        (["-D", "cn=r,dc=com", "room"], "room: =mwrscxd\n"),
        (["dc", "entryUUID/read"], "dc: =c\nentryUUID/read: DENIED\n"),
    ]
    trial.write({"conf": conf, "more": "", "copy": copy})
    (trial.folder / "flat.conf").write_bytes(trial.of_conf().flat)
    for words, answer in asked:
        command = [trial.program, "slapacl", "-f", "flat.conf", "--data", "copy", "-b", "dc=com", *words]
        ended = subprocess.run(command, cwd=trial.folder, capture_output=True, text=True, timeout=SECONDS)
        expect((ended.returncode, ended.stdout, ended.stderr), (0, answer, ""), words)
    change = b"dn: dc=com\nchangetype: modify\ndelete: roomName\nroomName: a  1\n-\n"
    command = [trial.program, "slapmodify", "-u", "-f", "flat.conf", "--data", "copy", "-b", "dc=com"]
    ended = subprocess.run(command, cwd=trial.folder, input=change, capture_output=True, timeout=SECONDS)
    expect((ended.returncode, ended.stdout, ended.stderr), (0, b"accepted 1, refused 0\n", b""))
    # after a comment, and slapd's own types, come a type of the site, or `database`, `suffix` and another line
    first = 2 + len(flat.OWN_TYPES)
    for line, number, fault in (
        ("access to * by peername.ip=127.0.0.1 read\n", first + 2, "C2 Unsupported"),
        ("access\n", first + 2, "C1 BadDirective"),
        ("suffix dc=net\n", first + 2, "C6 SecondSuffix"),
        ("attributetype ( later:1 NAME 'x' )\n", first, "C12 BadType"),
    ):
        trial.write({"conf": f"database mdb\nsuffix dc=com\n{line}", "copy": copy})
        (trial.folder / "flat.conf").write_bytes(trial.of_conf().flat)
        command = [trial.program, "slapacl", "-f", "flat.conf", "--data", "copy", "-b", "dc=com"]
        ended = subprocess.run(command, cwd=trial.folder, capture_output=True, text=True, timeout=SECONDS)
        expect((ended.returncode, ended.stdout, ended.stderr), (1, "", f"slapkit: config, line {number}: {fault}\n"), line)


# ---- faults

# of the files of a slapd.conf
FAULTS = [
    # an include that can't be followed
    ({"conf": "include none\n"}, "conf, line 1: K1 BadInclude"),
    ({"conf": "# x\n\ninclude\n"}, "conf, line 3: K1 BadInclude"),
    ({"conf": "include a b\n", "a": "", "b": ""}, "conf, line 1: K1 BadInclude"),
    ({"conf": 'include ""\n'}, "conf, line 1: K1 BadInclude"),
    ({"conf": "include a/\n", "a": ""}, "conf, line 1: K1 BadInclude"),
    ({"conf": "include file:///a\n", "a": ""}, "conf, line 1: K1 BadInclude"),
    ({"conf": "include *.inc\n", "a.inc": ""}, "conf, line 1: K1 BadInclude"),
    ({"conf": b"include \xff\n", b"\xff": ""}, "conf, line 1: K1 BadInclude"),
    ({"conf": "include a\n", "a": "\ninclude sub/b\n", "sub/b": "# x\ninclude c\n"}, "sub/b, line 2: K1 BadInclude"),
    ({"conf": " include a\n  b\n", "a": "", "b": ""}, "conf, line 1: K1 BadInclude"),
    ({"conf": "database config\ninclude none\n"}, "conf, line 2: K1 BadInclude"),
    # a file that includes itself, and files that include one another
    ({"conf": "# x\ninclude conf\n"}, "conf, line 2: K1 BadInclude"),
    ({"conf": "include a\n", "a": "#\n#\ninclude b\n", "b": "include a\n"}, "a, line 3: K1 BadInclude"),
    # an open quote or a final backslash, in any line but a comment or a definition
    ({"conf": 'maxsize "1\n'}, "conf, line 1: K3 BadArguments"),
    ({"conf": CONF + 'database config\nrootpw "\n'}, "conf, line 5: K3 BadArguments"),
    ({"conf": CONF + "access to * by * read\\"}, "conf, line 4: K3 BadArguments"),
    ({"conf": CONF + "access to * by * read\\\\\\\n"}, None),
    ({"conf": "include a\\\n", "a": ""}, "conf, line 1: K3 BadArguments"),
    ({"conf": "include a\n", "a": "access to\n * by\n\t\"x\n"}, "a, line 1: K3 BadArguments"),
    # a definition whose first word stands in quotes
    ({"conf": '"attributetype" ( 1.3.6.1.4.1.32473.5 )\n' + CONF}, "conf, line 1: K3 BadArguments"),
    ({"conf": CONF + "include a\n", "a": '\nattr"ibuteFoo"\\\n x\n'}, "a, line 2: K3 BadArguments"),
    ({"conf": '"attributeoptions" x-\n' + CONF}, None),
    # a macro without exactly two arguments
    ({"conf": "objectidentifier\n" + CONF}, "conf, line 1: K3 BadArguments"),
    ({"conf": "objectidentifier my\n" + CONF}, "conf, line 1: K3 BadArguments"),
    ({"conf": CONF + "objectidentifier my 1.2 3\n"}, "conf, line 4: K3 BadArguments"),
    # a database without a name, a suffix without exactly one argument
    ({"conf": CONF + "database\n"}, "conf, line 4: K3 BadArguments"),
    ({"conf": "include a\n" + CONF, "a": "database null\nsuffix\n"}, "a, line 2: K3 BadArguments"),
    ({"conf": "database mdb\nsuffix dc=com dc=net\n"}, "conf, line 2: K3 BadArguments"),
    # names
    ({"conf": CONF + "database mdb\nsuffix com\n"}, "conf, line 5: K8 BadName"),
    ({"conf": 'database mdb\nsuffix "dc=com\\\\"\n'}, "conf, line 2: K8 BadName"),
    # databases
    ({"conf": CONF + "database mdb\nsuffix DC=COM\n"}, "conf, line 5: K5 SecondDatabase"),
    ({"conf": CONF + "database mdb\nsuffix dc=a,dc=com\n"}, "conf, line 5: K6 Subordinate"),
    ({"conf": "include a\n" + CONF, "a": "database mdb\nsuffix dc=net\nsuffix dc=a,dc=com\n"}, "a, line 3: K6 Subordinate"),
    ({"conf": ""}, "config: K4 NoDatabase"),
    ({"conf": "suffix dc=com\n"}, "config: K4 NoDatabase"),
    ({"conf": "database config\nsuffix dc=com\ndatabase frontend\nsuffix dc=com\ndatabase monitor\nsuffix dc=com\n"}, "config: K4 NoDatabase"),
    ({"conf": "database mdb\nsuffix com=x\ndatabase mdb\nsuffix dc=net\n"}, "config: K4 NoDatabase"),
    ({"conf": 'database mdb\nsuffix ""\n'}, "config: K4 NoDatabase"),
]
# of the LDIF of cn=config
CONFIG_FAULTS = [
    ("", "config: K4 NoDatabase"),
    ("dn: cn=config\nolcSuffix: dc=net\n", "config: K4 NoDatabase"),
    ("version: 2\n", "config: L15 BadVersion"),
    (f"{RECORD}olcAccess\n", "config, line 3: L1 BadLine"),
    (f"{RECORD}olcAccess:: ?\n", "config, line 3: L2 BadBase64"),
    (f"{RECORD}olcAccess:< file:///a\n", "config, line 3: L3 UrlValue"),
    (f"{RECORD}olcAccess: {'x' * 1_048_577}\n", "config, line 3: L8 ValueTooLong"),
    (f"{RECORD}olcAccess: {'x' * 2_097_152}\n", "config: L10 LineTooLong"),
    (f"{RECORD}olcAccess: {{1}}to * by * read\n", "config, line 3: K2 BadOrder"),
    (f"{RECORD}olcAccess: {{0}}to *\n  by * read\nolcAccess: to * by * read\n", "config, line 5: K2 BadOrder"),
    (f"{RECORD}olcAttributeTypes: {{0}}( 1.2 )\nolcAttributeTypes: {{2}}( 1.3 )\n", "config, line 4: K2 BadOrder"),
    (f"dn: cn=a\nolcDatabase: {{-1}}frontend\nolcAccess: {{0}}to *\nolcAccess: {{01}}to *\n\n{RECORD}", "config, line 4: K2 BadOrder"),
    (f'{RECORD}olcAccess: to "* by * read\n', "config, line 3: K3 BadArguments"),
    (f'{RECORD}olcAccess: to "dn.base"=x by * read\n', "config, line 3: K3 BadArguments"),
    (f"{RECORD}olcAccess:: dG8gImEKYiI=\n", "config, line 3: K3 BadArguments"),
    (f"{RECORD}olcObjectIdentifier: my\n", "config, line 3: K3 BadArguments"),
    (f"{RECORD}olcObjectIdentifier: my 1 2\n", "config, line 3: K3 BadArguments"),
    (f"{RECORD}olcRootDN:: Y249YQpiLGRjPWNvbQ==\n", "config, line 3: K3 BadArguments"),
    (f'{RECORD}\ndn: cn=b\nolcDatabase: frontend\nolcAccess: to "\n', "config, line 6: K3 BadArguments"),
    (f"{RECORD}\ndn: cn=b\nolcSuffix: DC=COM\n", "config, line 5: K5 SecondDatabase"),
    (f"{RECORD}\ndn: cn=b\nolcSuffix: dc=a,dc=com\n", "config, line 5: K6 Subordinate"),
    (f"dn: cn=b\nolcSuffix: dc=net\nolcSuffix: dc=a,dc=com\n\n{RECORD}", "config, line 3: K6 Subordinate"),
    (f"{RECORD}\ndn: cn=b\nolcSuffix: com\n", "config, line 5: K8 BadName"),
]


def faults_of_files_are_told(trial):
    for files, fault in FAULTS:
        wanted = refused(fault) if fault else by_model(files)
        check_row(trial, files, wanted)
    return f"{len(FAULTS)} rows"


def faults_of_cn_config_are_told(trial):
    for text, fault in CONFIG_FAULTS:
        check_row(trial, {"config": text}, refused(fault), what=text[:300])
    return f"{len(CONFIG_FAULTS)} rows"


def the_first_fault_decides(trial):
    """What is wrong all at once, and is taken away step by step: of each text the fault that is due."""
    lines = ["suffix x", "include none", "database", "objectidentifier", 'index "', "database mdb", "suffix com", "suffix a b", "suffix dc=a,dc=com", "database mdb"]
    lines += ["suffix dc=com", "database mdb", "suffix dc=com"]
    for line, fault in (
        # K1 and an open quote come with the lines of all files
        ("include none", "line 2: K1 BadInclude"),
        ('index "', "line 5: K3 BadArguments"),
        # then macros, though the line of a database comes before
        ("objectidentifier", "line 4: K3 BadArguments"),
        # then the lines of databases
        ("database", "line 3: K3 BadArguments"),
        ("suffix com", "line 7: K8 BadName"),
        ("suffix a b", "line 8: K3 BadArguments"),
        # then databases
        ("suffix dc=a,dc=com", "line 9: K6 Subordinate"),
        ("suffix dc=com", "line 13: K5 SecondDatabase"),
    ):
        check_row(trial, {"conf": "\n".join(lines)}, refused(f"conf, {fault}"))
        at = len(lines) - 1 - lines[::-1].index(line)
        lines[at] = "#"
    check_row(trial, {"conf": "\n".join(lines)}, made("database mdb\nsuffix dc=com\n", "types 0, rules 0, frontend 0\n"))
    # all lines of all files come before macros, types and databases
    check_row(trial, {"conf": "objectidentifier\ndatabase\ninclude a\n", "a": "\nx \"\n"}, refused("a, line 2: K3 BadArguments"))
    records = [
        "dn: a\nolcSuffix: com\n",
        'dn: a\nolcSuffix: dc=com\nolcAccess: to "\n',
        "dn: a\nolcDatabase: frontend\nolcAccess: {1}\n",
        "dn: a\nolcAttributeTypes: {1}\n",
        "dn: a\nolcObjectIdentifier: x\n",
        "dn: a\nx\n",
        "dn: a\nx\n",
    ]
    texts = ["\n".join(records) + f"\n#{'x' * 2_097_152}\n", *("\n".join(records[:count]) for count in (7, 5, 4, 3))]
    told = ["config: L10 LineTooLong", "config, line 19: L1 BadLine", "config, line 13: K2 BadOrder", "config, line 13: K2 BadOrder", "config, line 2: K8 BadName"]
    texts += ["\n".join(records[1:3]), records[1] + "\n" + records[0].replace("com", "dc=a,dc=com"), records[2]]
    told += ["config, line 3: K3 BadArguments", "config, line 6: K6 Subordinate", "config: K4 NoDatabase"]
    for text, fault in zip(texts, told):
        check_row(trial, {"config": text}, refused(fault), what=text[:300])


def files_are_at_most_16_deep(trial):
    def chain(count):
        names = ["conf", *(f"f{n}" for n in range(2, count + 1))]
        files = {name: f"access to attrs=a{at} by * read\ninclude {more}\n" for at, (name, more) in enumerate(zip(names, names[1:]))}
        return files | {names[-1]: CONF}

    wanted = made(OF_CONF + "".join(f"access to attrs=a{n} by * read\n" for n in range(15)), "types 0, rules 1, frontend 15\n")
    check_row(trial, chain(16), wanted)
    check_row(trial, chain(17), refused("f16, line 2: K1 BadInclude"))
    # one that is near enough by another way is taken there, and not where it is too deep
    files = chain(17)
    files["conf"] += "include f17\n"
    check_row(trial, files, refused("f16, line 2: K1 BadInclude"))
    files["f15"] = "\n"
    check_row(trial, files, made(OF_CONF + "".join(f"access to attrs=a{n} by * read\n" for n in range(14)), "types 0, rules 1, frontend 14\n"))


def files_are_at_most_a_thousand(trial):
    """The first one is among them, and so are those that can't be opened."""
    many = {f"f{n}": "" for n in range(998)} | {"last": CONF, "more": ""}
    lines = "".join(f"include f{n}\n" for n in range(998))
    for conf, wanted in (
        ("include last\ninclude f0\n", made(OF_CONF, ONE_RULE)),
        ("include last\ninclude more\n", refused("conf, line 1000: K1 BadInclude")),
        ("include none\ninclude last\n", refused("conf, line 999: K1 BadInclude")),
    ):
        check_row(trial, many | {"conf": lines + conf}, wanted, what=f"998 lines, and {conf}")
    # those that it names itself are read before those that these name
    check_row(trial, many | {"conf": lines + "include last\n", "f0": "include more\n"}, refused("f0, line 1: K1 BadInclude"), what="one deeper")
    # so many that it would take hours to look for each among all
    check_row(trial, {"conf": "".join(f"include none{n}\n" for n in range(300_000))}, refused("conf, line 1: K1 BadInclude"), what="300,000 that are not there")


def a_text_counts_as_often_as_it_is_included(trial):
    conf = "include a\n" * 15 + CONF
    size, rest = divmod(MOST_BYTES - len(conf), 15)
    for more, wanted in ((0, made(OF_CONF, ONE_RULE)), (1, refused("config: K7 TooLong"))):
        check_row(trial, {"conf": conf + "#" * (rest + more), "a": "#" * size}, wanted, what=f"{more} bytes more")
        lines = "#" + "x" * 1022 + "\n"
        text = LDIF + lines * ((MOST_BYTES - len(LDIF)) // 1024)
        check_row(trial, {"config": text + "#" * (MOST_BYTES - len(text) + more)}, wanted, what=f"cn=config, {more} bytes more")
    # one that is too long is found before another that can't be read
    trial.write({"conf": "include long\ninclude sub\n", "long": "#" * (MOST_BYTES + 1), "sub/x": ""})
    expect(trial.of_conf(), refused("config: K7 TooLong"))
    # and so are two that are too long together: the folder, which can be opened and not read, is not opened then
    half = "#" * (MOST_BYTES // 2)
    trial.write({"conf": "include one\ninclude two\ninclude sub\n", "one": half, "two": half, "sub/x": ""})
    expect(trial.of_conf(), refused("config: K7 TooLong"))
    trial.write({"conf": "include one\ninclude sub\ninclude two\n", "one": half, "two": half, "sub/x": ""})
    expect(trial.of_conf(), refused("cannot read config"))


def the_flat_configuration_has_a_limit(trial):
    """A backslash of cn=config is written as two."""
    rules = 9
    head = len(HEAD) + len("database mdb\nsuffix dc=com\n") + rules * len('access to "x"\n')
    each = (MOST_BYTES - head) // 2 // rules
    for more, wanted in ((0, 0), (1, 1)):
        ends = ["y" * (MOST_BYTES + more - head - 2 * each * rules)] + [""] * (rules - 1)
        text = RECORD + "".join("olcAccess: to x" + "\\" * each + end + "\n" for end in ends)
        trial.write({"config": text})
        found = trial.of_ldif()
        expect((found.status, found.message), (wanted, "slapkit: config: K7 TooLong\n" if wanted else ""), f"{more} bytes more")
        expect(found.flat and len(found.flat), None if wanted else MOST_BYTES, "its size")


def faults_of_the_command_line_come_first(trial):
    trial.write({"conf": 'x "\n', "config": "x\n", "sub/x": ""})
    for source in ("-f", "--config"):
        name = "conf" if source == "-f" else "config"
        for path, suffix, out, fault in (
            (name, "x", name, f"same path twice: {name}"),
            ("none", "x", "none", "same path twice: none"),
            ("none", "x", "flat", "bad question: suffix"),
            ("none", "", "flat", "bad question: suffix"),
            ("none", "dc=com\\", "flat", "bad question: suffix"),
            ("none", "dc=com", "sub/x", "cannot open none"),
            ("no\x1bne", "dc=com", "x", "cannot open no\\x1bne"),
            ("sub", "dc=com", "sub/x", "cannot read config"),
            (name, "dc=com", "sub/x", "conf, line 1: K3 BadArguments" if source == "-f" else "config, line 1: L1 BadLine"),
        ):
            expect(trial.run(["-b", suffix, source, path, "--out", out]), refused(fault), (source, path, suffix, out))
    # an included folder can be opened, and not be read
    trial.write({"conf": "x \"\ninclude sub\n", "sub/x": ""})
    expect(trial.of_conf(), refused("cannot read config"))


def the_file_of_a_fault_is_shown(trial):
    for path, told in (("a\tb\x1b[31m", "a\\x09b\\x1b[31m"), ("\u00fc \x9b", "\u00fc \\x9b"), ("./a", "./a"), ("sub//a", "sub//a")):
        name = {"./a": "a", "sub//a": "sub/a"}.get(path, path)
        trial.write({"conf": f'\ninclude "{path}"\n', name: "\n\n\"\n"})
        expect(trial.of_conf(), refused(f"{told}, line 3: K3 BadArguments"), path)


# ---- how files are opened and made

# Each call of open(2) is told in the file OPENED, but for those in /proc.
SHIM = r"""
#define _GNU_SOURCE
#include <fcntl.h>
#include <stdarg.h>
#include <stdlib.h>
#include <string.h>
#include <sys/syscall.h>
#include <unistd.h>

int open(const char *path, int flags, ...) {
    va_list rest;
    va_start(rest, flags);
    int mode = va_arg(rest, int);
    va_end(rest);
    if (strncmp(path, "/proc/", 6) != 0) {
        int log = syscall(SYS_openat, AT_FDCWD, getenv("OPENED"), O_CREAT | O_WRONLY | O_APPEND, 0600);
        syscall(SYS_write, log, (flags & O_ACCMODE) == O_RDONLY ? "r " : "w ", 2);
        syscall(SYS_write, log, path, strlen(path));
        syscall(SYS_write, log, "\n", 1);
        syscall(SYS_close, log);
    }
    return syscall(SYS_openat, AT_FDCWD, path, flags, mode);
}
"""


def opened_by(trial, *words):
    """What a run leaves, and the paths that it opens, each after how it is opened."""
    with tempfile.TemporaryDirectory() as folder:
        source, shim, told = (f"{folder}/{name}" for name in ("shim.c", "shim.so", "opened"))
        pathlib.Path(source).write_text(SHIM)
        subprocess.run([os.environ.get("CC", "cc"), "-shared", "-fPIC", "-o", shim, source], check=True)
        left = trial.run(words, env={"LD_PRELOAD": shim, "OPENED": told})
        return left, pathlib.Path(told).read_text().splitlines()


def each_path_is_opened_once_and_no_other(trial):
    """Those that a file includes in the order of its lines, then those that these include; all before a draft is created."""
    files = {
        "conf": "include a\ninclude none\ninclude a\n\"include\" b\n# include x\ninclude x y\ninclude\nx include\nattributetype include x\nINCLUDE d\n",
        "a": "include c\ninclude b\ninclude conf\n",
        "b": "include c\ninclude e\n",
        "c": "",
        "d": "include a\ninclude ./a\n",
        "e": "",
        "x": "",
    }
    trial.write(files)
    left, opened = opened_by(trial, "-b", "dc=com", "-f", "conf", "--out", "flat")
    # conf and a include one another: the first line of the sixteenth file is the first that can't be followed
    expect(left.message, "slapkit: a, line 1: K1 BadInclude\n")
    # the first file is looked at once more, for a note
    expect([path for path in opened if path != "r /"], [f"r {name}" for name in ("conf", "a", "none", "b", "d", "c", "e", "./a", "conf")])
    files["conf"] = files["conf"].replace("include none\n", "").replace("include x y\ninclude\n", "") + CONF
    files["a"] = files["a"].replace("include conf\n", "")
    trial.write(files)
    left, opened = opened_by(trial, "-b", "dc=com", "-f", "conf", "--out", "flat")
    expect(left, made("attributetype  include x\n" + OF_CONF, "types 1, rules 1, frontend 0\n"))
    opened = [path for path in opened if path != "r /"]
    expect(opened[:8], [*(f"r {name}" for name in ("conf", "a", "b", "d", "c", "e", "./a")), "w flat.slapkit-0"])
    expect({path for path in opened[8:] if path.startswith("w")}, set(), "written besides")
    trial.write({"config": LDIF + "include: conf\nolcInclude: conf\n", "conf": ""})
    left, opened = opened_by(trial, "-b", "dc=com", "--config", "config", "--out", "flat")
    expect(left, made(OF_CONF, ONE_RULE))
    expect([path for path in opened if path != "r /"][:2], ["r config", "w flat.slapkit-0"])


def a_pipe_is_read_once(trial):
    """An included file that can be read only once stands in the place of each line that includes it."""
    trial.write({"conf": CONF + "include pipe\ninclude a\n", "a": "include pipe\n"})
    os.mkfifo(trial.folder / "pipe")
    trial.given = trial.names()
    writer = threading.Thread(target=lambda: (trial.folder / "pipe").write_text("access to attrs=cn by * none\n"), daemon=True)
    writer.start()
    wanted = made(OF_CONF + "access to attrs=cn by * none\n" * 2, "types 0, rules 3, frontend 0\n")
    expect(trial.of_conf(), wanted)
    writer.join(timeout=SECONDS)


def a_configuration_may_come_through_standard_input(trial):
    trial.write({"a": "access to attrs=cn by * none\n"})
    expect(trial.run(["-b", "dc=com", "--config", "/dev/stdin", "--out", "flat"], typed=LDIF.encode()), made(OF_CONF, ONE_RULE))
    wanted = made(OF_CONF + "access to attrs=cn by * none\n", "types 0, rules 2, frontend 0\n")
    expect(trial.run(["-b", "dc=com", "-f", "/dev/stdin", "--out", "flat"], typed=(CONF + "include a\n").encode()), wanted)
    expect(trial.run(["-b", "dc=com", "-f", "/dev/stdin", "--out", "flat"], typed=b'\n"'), refused("/dev/stdin, line 2: K3 BadArguments"))
    expect(trial.run(["-b", "dc=com", "--config", "/dev/stdin", "--out", "flat"], typed=b"\nx"), refused("config, line 2: L1 BadLine"))
    expect(trial.run(["-b", "dc=com", "--config", "/dev/stdin", "--out", "flat"], closed=[0]), refused("cannot read config"))


def it_has_the_mode_of_the_configuration(trial):
    umask = os.umask(0o027)
    try:
        for option, name in (("-f", "conf"), ("--config", "config")):
            for mode, wanted in ((0o600, 0o600), (0o640, 0o640), (0o664, 0o640), (0o644, 0o640), (0o400, 0o400), (0o755, 0o640)):
                trial.write({"conf": CONF + "include a\n", "a": "", "config": LDIF})
                (trial.folder / "a").chmod(0o666)
                (trial.folder / name).chmod(mode)
                command = [trial.program, "slapconf", "-b", "dc=com", option, name, "--out", "flat"]
                expect(subprocess.run(command, cwd=trial.folder, capture_output=True, timeout=SECONDS).returncode, 0)
                expect(oct((trial.folder / "flat").stat().st_mode & 0o7777), oct(wanted), f"mode of what is made, of one of mode {mode:o}")
                (trial.folder / "flat").unlink()
    finally:
        os.umask(umask)


def a_file_that_is_there_is_not_written_over(trial):
    for fill in (lambda path: path.write_text("kept"), lambda path: path.symlink_to("elsewhere"), lambda path: path.mkdir()):
        trial.write({"conf": CONF, "config": LDIF})
        fill(trial.folder / "flat")
        trial.given = trial.names()
        for run in (trial.of_conf, trial.of_ldif):
            expect(run(), refused("exists already: flat"))
        expect((trial.folder / "elsewhere").exists(), False, "the file that a link names")
    trial.write({"conf": CONF})
    expect(trial.run(["-b", "dc=com", "-f", "conf", "--out", "./conf"]), refused("exists already: ./conf"))
    expect((trial.folder / "conf").read_text(), CONF)
    # an included file, too
    trial.write({"conf": CONF + "include a\n", "a": ""})
    expect(trial.run(["-b", "dc=com", "-f", "conf", "--out", "a"]), refused("exists already: a"))


def a_folder_that_takes_no_file_is_told(trial):
    trial.write({"conf": CONF})
    for out in ("none/flat", "conf/flat", "/proc/flat"):
        expect(trial.run(["-b", "dc=com", "-f", "conf", "--out", out]), refused(f"cannot open {out}"))


def a_draft_that_was_left_behind_is_in_no_way(trial):
    trial.write({"conf": CONF, "flat.slapkit-0": "left", "flat.slapkit-1": "left"})
    expect(trial.of_conf(), made(OF_CONF, ONE_RULE))
    expect((trial.folder / "flat.slapkit-0").read_text(), "left")


def a_report_that_cannot_be_written_leaves_nothing(trial):
    trial.write({"conf": CONF, "config": LDIF})
    for run in (trial.of_conf, trial.of_ldif):
        with open("/dev/full", "wb") as full:
            expect(run(out=full), refused("cannot write report"))
            # where the fault can't be told either, the status tells
            expect(run(out=full, err=full), Left(1, "", "", None))
        expect(run(closed=[1]), refused("cannot write report"))
        expect(run(closed=[0, 1, 2]), Left(1, "", "", None))
        left, right = os.pipe()
        os.close(left)
        with open(right, "wb") as gone:
            expect(run(out=gone), refused("cannot write report"))
        # standard error is needed for a fault alone
        expect(run(closed=[2]), made(OF_CONF, ONE_RULE))


def a_fault_leaves_nothing_and_the_same_command_runs_again(trial):
    trial.write({"conf": "include a\n" + CONF})
    expect(trial.of_conf(), refused("conf, line 1: K1 BadInclude"))
    (trial.folder / "a").write_text("")
    trial.given = trial.names()
    expect(trial.of_conf(), made(OF_CONF, ONE_RULE))


# ---- the command line


def words_that_are_refused(trial):
    trial.write({"conf": CONF, "config": LDIF})
    whole = ["-b", "dc=com", "-f", "conf", "--out", "flat"]
    for words in (
        [],
        ["-b", "dc=com", "--out", "flat"],
        ["-b", "dc=com", "-f", "conf", "--config", "config", "--out", "flat"],
        ["-b", "dc=com", "-f", "conf"],
        ["-b", "dc=com", "--config", "config"],
        ["-f", "conf", "--out", "flat"],
        ["--config", "config", "--out", "flat"],
        [*whole, "-f", "conf"],
        [*whole, "--out", "other"],
        [*whole, "-b", "dc=net"],
        [*whole, "word"],
        [*whole, "-v"],
        [*whole, "-u"],
        [*whole, "--data", "conf"],
        [*whole[:-1]],
    ):
        left = trial.run(words)
        expect((left.status, left.report, left.message != "", left.flat), (1, "", True, None), words)
    expect(trial.run(whole), made(OF_CONF, ONE_RULE))


def help_ends_with_status_0(trial):
    trial.write({})
    for words in (["-h"], ["--help"], ["-b", "x", "--help"]):
        left = trial.run(words)
        expect((left.status, left.report.count("--config <LDIF>"), left.message, left.flat), (0, 1, "", None), words)
    for words in (["--help"], ["help", "slapconf"]):
        ended = subprocess.run([trial.program, *words], capture_output=True, text=True, timeout=SECONDS)
        expect((ended.returncode, "slapconf" in ended.stdout, ended.stderr), (0, True, ""), words)


CHECKS = [
    both_forms_come_to_the_same,
    what_is_made_is_read,
    faults_of_files_are_told,
    faults_of_cn_config_are_told,
    the_first_fault_decides,
    files_are_at_most_16_deep,
    files_are_at_most_a_thousand,
    a_text_counts_as_often_as_it_is_included,
    the_flat_configuration_has_a_limit,
    faults_of_the_command_line_come_first,
    the_file_of_a_fault_is_shown,
    each_path_is_opened_once_and_no_other,
    a_pipe_is_read_once,
    a_configuration_may_come_through_standard_input,
    it_has_the_mode_of_the_configuration,
    a_file_that_is_there_is_not_written_over,
    a_folder_that_takes_no_file_is_told,
    a_draft_that_was_left_behind_is_in_no_way,
    a_report_that_cannot_be_written_leaves_nothing,
    a_fault_leaves_nothing_and_the_same_command_runs_again,
    words_that_are_refused,
    help_ends_with_status_0,
]


def tried(program, check):
    with tempfile.TemporaryDirectory() as folder:
        return check(Trial(program, folder))


def main():
    program = os.path.abspath(sys.argv[1])
    named = [(f"slapd.conf: {name}", a_row(name)) for name in FLATS] + [(f"cn=config: {name}", a_config(name)) for name in CONFIGS]
    named += [(check.__name__.replace("_", " "), check) for check in CHECKS]
    wanted = sys.argv[2] if len(sys.argv) > 2 else ""
    sys.exit(checks.run("conf", [(name, lambda check=check: tried(program, check)) for name, check in named if wanted in name]))


main()
