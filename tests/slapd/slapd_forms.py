#!/usr/bin/env python3
"""Asks OpenLDAP's slapacl what it makes of each form of slapd.access(5) that slapkit refuses, and compares that with what was measured (slapd 2.5.13).

usage: slapd_forms.py [--keep FOLDER]

It is outside the gate, and wants OpenLDAP's slapacl and slapadd with their schema files (Debian's package slapd). slapkit isn't run: this says what an answer
must be, once such a form is read. A form is asked of a connection of which nothing is told, and with what slapacl's `-o` tells of it.
"""
import argparse
import pathlib
import re
import shutil
import sys
import tempfile
from dataclasses import dataclass

sys.path.insert(0, str(pathlib.Path(__file__).resolve().parents[1]))

from harness.checks import expect
from harness.checks import run as run_checks
from slapd import openldap
from slapd.openldap import SCHEMA, ended_well, run

SUFFIX = "dc=example,dc=com"
PEOPLE = f"ou=people,{SUFFIX}"
ANN = f"uid=ann,{PEOPLE}"
BOB = f"uid=bob,{PEOPLE}"
ENTRIES = f"""dn: {SUFFIX}
objectClass: domain
dc: example

dn: {PEOPLE}
objectClass: organizationalUnit
ou: people

dn: {ANN}
objectClass: inetOrgPerson
uid: ann
cn: Ann
sn: Ann
mail: ann@example.com
manager: {BOB}

dn: {BOB}
objectClass: inetOrgPerson
uid: bob
cn: Bob
sn: Bob

dn: cn=names,{SUFFIX}
objectClass: groupOfNames
cn: names
member: {BOB}

dn: cn=unique,{SUFFIX}
objectClass: groupOfUniqueNames
cn: unique
uniqueMember: {BOB}

dn: cn=numbered,{SUFFIX}
objectClass: groupOfUniqueNames
cn: numbered
uniqueMember: {BOB}#'0101'B

"""
# What a clause gives here, and what is answered where it doesn't apply, or where slapd doesn't take the rule.
GIVEN, NONE, REFUSED = "read(=rscxd)", "none(=0)", "refused"


@dataclass
class Who:
    """A <who>, who asks of which entry with which options, and whether the clause applies."""

    form: str
    answer: str
    requester: str | None = BOB
    target: str = ANN
    options: tuple = ()

    def rule(self):
        return f"access to * by {self.form} read by * none"

    def shown(self):
        return " ".join(("by", self.form, "asked by", self.requester or "nobody", "of", self.target, *self.options))


@dataclass
class What:
    """A <what>, and of which words the rule is; asked of Ann's entry by Bob."""

    form: str
    fits: tuple = ()
    is_refused: bool = False

    def rule(self):
        return f"access to {self.form} by * read\naccess to * by * none"


@dataclass
class Access:
    """An <access>, and what it gives Bob: of `member` without a value, with his name as the value, and with Ann's."""

    form: str
    answers: tuple

    def rule(self):
        return f"access to * by users {self.form} by * read"


def told(form, *facts, applies):
    """A form beside a connection of which something is told."""
    return [Who(form, GIVEN if applies else NONE, options=tuple(word for fact in facts for word in ("-o", fact)))]


PEER, PEER6, SOCK = "peername=IP=127.0.0.1:1234", "peername=IP=[::1]:1234", "sockname=IP=0.0.0.0:389"

WHOS = [
    # security strength factors: what is told of one says nothing of another
    Who("ssf=0", REFUSED),
    Who("ssf=1", NONE),
    Who("transport_ssf=1", NONE),
    Who("tls_ssf=1", NONE),
    Who("sasl_ssf=1", NONE),
    *told("ssf=128", "ssf=127", applies=False),
    *told("ssf=128", "ssf=128", applies=True),
    *told("ssf=128", "sasl_ssf=256", "tls_ssf=256", "transport_ssf=256", applies=False),
    *told("tls_ssf=128", "tls_ssf=128", applies=True),
    *told("sasl_ssf=56", "sasl_ssf=56", applies=True),
    *told("transport_ssf=56", "transport_ssf=56", applies=True),
    # the client's address: nothing fits a connection without one, not even `.*`
    Who("peername.regex=.*", NONE),
    Who("peername.ip=127.0.0.1", NONE),
    *told("peername.ip=127.0.0.1", PEER, applies=True),
    *told("peername.ip=127.0.0.1", "peername=IP=127.0.0.1", applies=True),
    *told("peername.ip=127.0.0.2", PEER, applies=False),
    *told("peername.ip=127.0.0.1{1234}", PEER, applies=True),
    *told("peername.ip=127.0.0.1{1235}", PEER, applies=False),
    # a mask is laid over the asked address alone, so a pattern with bits outside of it fits nothing
    *told("peername.ip=127.0.0.0%255.0.0.0", PEER, applies=True),
    *told("peername.ip=127.0.0.1%255.0.0.0", PEER, applies=False),
    *told("peername.ip=127.0.0.0%255.0.0.0{1235}", PEER, applies=False),
    *told("peername.ipv6=::1", PEER6, applies=True),
    *told("peername.ipv6=::1{1234}", PEER6, applies=True),
    *told("peername.ipv6=fe80::%ffc0::", "peername=IP=[fe80::1]:1234", applies=True),
    *told("peername.ipv6=::1", "peername=IP6=[::1]:1234", applies=False),
    *told("peername.path=/tmp/x", "peername=PATH=/tmp/x", applies=True),
    *told("peername.path=/tmp/X", "peername=PATH=/tmp/x", applies=False),
    # without a style the whole text is compared, in any case; only `.regex` is a pattern
    *told("peername=ip=127.0.0.1:1234", PEER, applies=True),
    *told("peername=IP=127", PEER, applies=False),
    *told("peername.regex=^IP=127", PEER, applies=True),
    # the server's address, the client's name, the listener
    Who("sockname.regex=.*", NONE),
    *told("sockname=IP=0.0.0.0:389", SOCK, applies=True),
    *told("sockname.regex=:389$", SOCK, applies=True),
    Who("sockname.path=/x", REFUSED),
    Who("domain.regex=.*", NONE),
    *told("domain=A.example.com", "domain=a.example.com", applies=True),
    *told("domain=example.com", "domain=a.example.com", applies=False),
    *told("domain.subtree=example.com", "domain=a.example.com", applies=True),
    *told("domain.subtree=example.com", "domain=example.com", applies=True),
    *told("domain.subtree=example.com", "domain=anexample.com", applies=False),
    # slapacl's own connection has a listener's text, which a pattern can fit
    Who("sockurl.regex=.*", GIVEN),
    Who("sockurl=ldap://", NONE),
    *told("sockurl=LDAP://X", "sockurl=ldap://x", applies=True),
    # names
    Who("dn.regex=^uid=bob,.*", GIVEN),
    Who("dn.regex=.*", GIVEN, requester=None),
    Who("dn.regex=.+", NONE, requester=None),
    Who("dn.regex=*", NONE),
    Who("dn=*", REFUSED),
    Who("dn.subtree=*", REFUSED),
    Who('dn.subtree=""', REFUSED),
    Who(f"dn.baseobject={BOB}", GIVEN),
    Who(f"dn.level{{1}}={PEOPLE}", GIVEN),
    Who(f"dn.level{{2}}={SUFFIX}", GIVEN),
    # `level{0}` is no base: it fits nobody
    Who(f"dn.level{{0}}={BOB}", NONE),
    Who(f"dn.level{{-1}}={SUFFIX}", REFUSED),
    Who(f"dn.exact,expand={BOB}", REFUSED),
    Who(f"dn.expand={BOB}", GIVEN),
    # the requester so many levels above the target, or below it
    Who("self.level{0}", GIVEN, requester=ANN),
    Who("self.level{1}", NONE, requester=ANN),
    Who("self.level{1}", GIVEN, requester=ANN, target=PEOPLE),
    Who("self.level{-1}", GIVEN, requester=PEOPLE),
    Who("self.level{1}", NONE, requester=PEOPLE),
    # slapacl without -X has one identity
    Who("realanonymous", GIVEN, requester=None),
    Who("realanonymous", NONE),
    Who("realusers", GIVEN),
    Who("realself", GIVEN, requester=ANN),
    Who("realself", NONE),
    Who(f"realdn.exact={BOB}", GIVEN),
    Who("realdnattr=manager", GIVEN),
    # groups: a value with a number is not the name
    Who(f"group/groupOfUniqueNames/uniqueMember=cn=unique,{SUFFIX}", GIVEN),
    Who(f"group/groupOfUniqueNames/uniqueMember=cn=numbered,{SUFFIX}", NONE),
    Who(f"group.exact=cn=names,{SUFFIX}", GIVEN),
    Who(f"group.base=cn=names,{SUFFIX}", GIVEN),
    Who(f"group.expand=cn=names,{SUFFIX}", GIVEN),
    # sets, modules
    Who('set="user"', GIVEN),
    Who('set="user"', NONE, requester=None),
    Who('set="this/manager & user"', GIVEN),
    Who("dynacl/other=x", REFUSED),
]
VALUE, OTHER = "mail:ann@example.com", "mail:z"
NAMED = f"manager:{BOB}"
ALL = ("mail", "cn", "manager", "entry", "children", VALUE, OTHER, NAMED)

WHATS = [
    What("dn=*", ALL),
    What("dn.exact=*", ALL),
    What("dn.subtree=*", ALL),
    What('dn.subtree=""', ALL),
    What("dn.regex=^uid=ann,.*", ALL),
    What("dn.regex=^uid=bob,.*", ()),
    What(f"dn.baseobject={ANN}", ALL),
    # these are forms of a <who> alone
    What(f"dn.level{{1}}={PEOPLE}", is_refused=True),
    What(f"dn.expand={ANN}", is_refused=True),
    # a class is what it requires and allows with those above it, with `@` or without; `!` is all else, the pseudo attributes too
    What("attrs=@person", ("cn",)),
    What("attrs=person", ("cn",)),
    What("attrs=@inetOrgPerson", ("mail", "cn", "manager", VALUE, OTHER, NAMED)),
    What("attrs=!person", ("mail", "manager", "entry", "children", VALUE, OTHER, NAMED)),
    What("attrs=!inetOrgPerson", ("entry", "children")),
    What("attrs=@person,mail", ("mail", "cn", VALUE, OTHER)),
    What("attr=mail", ("mail", VALUE, OTHER)),
    # a value is asked about only by a word that has one; in any case without a style, and so in any case with a matching rule
    What("attrs=mail val=ann@example.com", (VALUE,)),
    What("attrs=mail val.regex=^ann", (VALUE,)),
    What("attrs=mail,cn val=x", is_refused=True),
    What(f"attrs=manager val.base={BOB}", (NAMED,)),
    What(f"attrs=manager val.one={PEOPLE}", (NAMED,)),
    What(f"attrs=manager val.subtree={SUFFIX}", (NAMED,)),
    What(f"attrs=manager val.children={SUFFIX}", (NAMED,)),
    # extensible match, and approximate match by equality
    What("filter=(cn:caseExactMatch:=Ann)", ALL),
    What("filter=(cn:caseExactMatch:=ann)", ()),
    What("filter=(cn:=ann)", ALL),
    What("filter=(:caseExactMatch:=Ann)", ALL),
    What("filter=(cn~=ann)", ALL),
    # undefined: the type has no ordering
    What("filter=(mail>=a)", ()),
]
MEMBERS = ("member", f"member:{BOB}", f"member:{ANN}")

# A clause with `self` before its <access> applies to the value that is the requester's name alone.
ACCESSES = [
    Access("write", ("write(=wrscxd)",) * 3),
    Access("selfwrite", (GIVEN, "write(=wrscxd)", GIVEN)),
    Access("realselfwrite", (GIVEN, "write(=wrscxd)", GIVEN)),
    Access("selfnone", (GIVEN, NONE, GIVEN)),
    Access("self+w", (GIVEN, "=w", GIVEN)),
]


class Server:
    """The tools of slapd over a directory of their own, in a folder."""

    def __init__(self, folder):
        self.folder = folder
        shutil.rmtree(folder / "db", ignore_errors=True)
        (folder / "db").mkdir(parents=True)
        (folder / "copy.ldif").write_text(ENTRIES)
        ended_well(["slapadd", "-q", "-f", self.configured(""), "-l", str(folder / "copy.ldif")], folder)

    def configured(self, rules):
        """The path of a configuration with these rules."""
        schemas = "".join(f"include {SCHEMA}/{name}.schema\n" for name in ("core", "cosine", "inetorgperson"))
        module = "modulepath /usr/lib/ldap\nmoduleload back_mdb\n"
        path = self.folder / "slapd.conf"
        path.write_text(f"{schemas}{module}database mdb\nsuffix {SUFFIX}\ndirectory {self.folder}/db\n{rules}\n")
        return str(path)

    def answered(self, rule, words, target, requester=BOB, options=()):
        """What slapacl answers to each word, or that it refuses the rule."""
        asker = ["-D", requester] if requester else []
        ended = run(["slapacl", "-f", self.configured(rule), "-b", target, *asker, *options, *words], self.folder)
        if ended.returncode:
            return [REFUSED]
        lines = (ended.stdout + ended.stderr).splitlines()
        return [line.rsplit(": ", 1)[1] for line in lines if re.search(r": (\w+\(=\w+\)|=\w+)$", line)]

    def expect_who(self, asked):
        expect(self.answered(asked.rule(), ["objectClass"], asked.target, asked.requester, asked.options), [asked.answer])

    def expect_what(self, asked):
        wanted = [REFUSED] if asked.is_refused else [GIVEN if word in asked.fits else NONE for word in ALL]
        expect(self.answered(asked.rule(), ALL, ANN), wanted)

    def expect_access(self, asked):
        expect(self.answered(asked.rule(), MEMBERS, f"cn=names,{SUFFIX}"), list(asked.answers))


def main():
    parser = argparse.ArgumentParser(usage=__doc__.split("usage: ")[1].split("\n")[0])
    parser.add_argument("--keep")
    args = parser.parse_args()
    openldap.demand("slapd_forms.py", "slapacl", "slapadd")
    with tempfile.TemporaryDirectory() as made:
        server = Server(pathlib.Path(args.keep or made).resolve())
        checks = [(it.shown(), lambda it=it: server.expect_who(it)) for it in WHOS]
        checks += [(f"to {it.form}", lambda it=it: server.expect_what(it)) for it in WHATS]
        checks += [(f"by users {it.form}", lambda it=it: server.expect_access(it)) for it in ACCESSES]
        sys.exit(run_checks("forms of slapd.access(5)", checks))


main()
