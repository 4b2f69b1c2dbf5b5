#!/usr/bin/env python3
"""Makes flat configurations of whole sites by `slapkit slapconf`, and compares what they say with what OpenLDAP's slapd says of the sites.

usage: slapd_conf.py PROGRAM [--seed S] [--questions N] [--site NAME] [--keep FOLDER] [--install]
       slapd_conf.py --update

It is outside the gate, and wants OpenLDAP's tools with their schema files (Debian's packages slapd and ldap-utils). The sites are those of examples/sites,
and the configuration that Debian's package makes, `default`, from the text that it has for this. Of each database of a site that has a copy, a flat text is made of
its slapd.conf, of what `slapcat -n 0` writes of that once slaptest has turned it into cn=config, and of its CONFIG.ldif. Then:

- slapd reads each flat text: without its lines 2 to 45, the types that slapd has itself, which it refuses to be given again (and those that a loaded module has), and with the
  modules, the object classes and the macros of the site, and the folder of the database, which no flat text has. slapd's own text of its rules (`slapcat -n 0` again) must be that of the database's rules in the site, and then of the frontend's, and its suffix and rootdn those of the database.
- So all flat texts of a database say the same, but for definitions of types that a loaded module has itself.
- A running slapd must know the same types with a flat text as with the site (`cn=Subschema`).
- Random questions are asked: of slapd's slapacl under the site, of slapacl under a flat text, and of slapkit slapacl under each. All must give the same
  answers, but where slapkit has a note. Where only slapkit differs, slapkit reads a rule otherwise; where slapd does too, the flat text is wrong.
  Left out are words for writing what only slapd writes (NO-USER-MODIFICATION), which slapd's tool always allows (README.md), and questions about made-up
  entries (-u) for which slapd's tool ends by a signal: so it does where it comes to a rule by group.

`schema`, beside the sites, is a slapd.conf that includes each schema file of Debian's package: all definitions must be in the flat text, and be read,
but for that of a type with a reserved name. `lines` are short texts that try how lines are joined, and what includes and parts mean: slapkit may refuse them,
but where it makes a flat text, that has slapd's rules and types, and where slapkit slapacl reads that, its answers are slapd's.

With --install it installs the packages first, as root by apt-get. With --update it writes the CONFIG.ldif of each site anew.
"""
import argparse
import collections
import contextlib
import dataclasses
import functools
import pathlib
import random
import re
import subprocess
import sys
import tempfile
import time
import urllib.parse

sys.path.insert(0, str(pathlib.Path(__file__).resolve().parents[1]))

from harness import checks
from harness.checks import Wrong, expect
from model import asking, ldif, texts
from model.names import as_text
from slapd import openldap
from slapd.conf_lines import HEAD, LINES
from slapd.openldap import SCHEMA, SECONDS, ended_well, run
from slapd.sites import COPIES, Database, Site, converted, names_of, slapcat, surroundings, updated

LEVELS = ("disclose", "auth", "compare", "search", "read", "write", "add", "delete", "manage")
WRITING = ("write", "add", "delete")
WORDS = 20
# how many of slapd's own types each flat text begins with
OWN_TYPES = 44
# the local root user, as the rules of Debian's package name it
PEER = "gidNumber=0+uidNumber=0,cn=peercred,cn=external,cn=auth"
# a copy of one entry
COM = "dn: dc=com\ndc: com\nobjectClass: domain\n\n"


# ---- flat texts


@dataclasses.dataclass
class Flat:
    """A flat text: its definitions and its other lines, as slapkit wrote them."""

    path: pathlib.Path
    report: str
    types: list
    others: list
    # as slapd takes it, and slapd's own text of the definitions that are left then
    readable: pathlib.Path | None = None
    kept: list | None = None


def made_flat(program, folder, words, suffix, out):
    """Runs slapconf. What it ends with is a flat text, or its message."""
    ended = run([program, "slapconf", *words, "-b", suffix, "--out", out], folder, SECONDS)
    if ended.returncode or ended.stderr:
        return None, ended.stderr
    lines = (folder / out).read_text().splitlines()
    types = [line for line in lines if line.startswith("attributetype ")]
    return Flat(folder / out, ended.stdout, types, [line for line in lines if line not in types]), ""


REFUSED = re.compile(r"line (\d+) attributetype: (?:Duplicate attributeType: \"|\"[^\"]*\" is operational)")


def readable_by_slapd(flat, config, folder, data):
    """Writes a flat text as slapd takes it. Returns the file, and the definitions of types that a module has, which slapd refuses to be given again.

    Its lines 2 to 45 are left out, as the manual page says: they must be types of slapd's own schema.
    """
    before, after = surroundings(config)
    begin = flat.others.index("database mdb") + 1
    rest = [*after, *flat.others[:begin], f"directory {data}", *flat.others[begin:]]
    lines, own = flat.path.read_text().splitlines(), {name for definition in config.own_types() for name in names_of(definition)}
    expect([line for line in lines[1 : 1 + OWN_TYPES] if not own & set(names_of(line))], [], "types of lines 2 to 45 that slapd doesn't have itself")
    refused, types, path = [], flat.types[OWN_TYPES:], folder / f"{flat.path.name}.slapd"
    while True:
        path.write_text("".join(f"{line}\n" for line in (*before, *types, *rest)))
        ended = run(["slaptest", "-u", "-f", path], folder, SECONDS)
        found = REFUSED.search(ended.stderr + ended.stdout)
        if not ended.returncode or not found:
            return path, refused
        refused.append(types.pop(int(found[1]) - len(before) - 1))


def types_of_running(words, folder):
    """The types that a running slapd tells, with their macros expanded."""
    socket = f"ldapi://{urllib.parse.quote(str(folder / 'socket'), safe='')}"
    server = subprocess.Popen(
        ["slapd", "-d", "0", "-h", socket, *words], cwd=folder, env={"PATH": openldap.TOOLS}, stdin=subprocess.DEVNULL, stdout=subprocess.DEVNULL, stderr=subprocess.DEVNULL
    )
    question = ["ldapsearch", "-x", "-LLL", "-o", "ldif-wrap=no", "-H", socket, "-b", "cn=Subschema", "-s", "base", "attributeTypes"]
    try:
        for _ in range(100):
            found = run(question, folder, SECONDS)
            if not found.returncode or server.poll() is not None:
                break
            time.sleep(0.1)
    finally:
        server.terminate()
        server.wait(SECONDS)
    if found.returncode:
        raise Wrong(f"ldapsearch: {found.stderr}")
    return sorted(line for line in found.stdout.splitlines() if line.startswith("attributeTypes: "))


# ---- questions


class Asker:
    """Random questions about a database."""

    def __init__(self, site, database, rng):
        self.rng, self.database = rng, database
        copies = {one.copy: [list(map(ldif.pair_of, block)) for block in ldif.blocks(one.copy.read_bytes())] for one in site.databases}
        self.entries = [as_text(lines[0].value) for lines in copies[database.copy]]
        everybody = [as_text(lines[0].value) for entries in copies.values() for lines in entries]
        named = re.findall(r'dn\.(?:base|one|subtree|children)="([^"]+)"', " ".join(site.config.of("olcAccess")))
        roots = [root for root in site.config.of("olcRootDN") if root]
        self.requesters = [*everybody, *named, *roots, PEER, f"uid=nobody,{database.suffix}"]
        known = {name.lower() for definition in site.config.of("olcAttributeTypes", but_own=False) for name in names_of(definition)}
        fixed = site.config.fixed_types()
        in_copy = sorted({pair.name for entries in copies.values() for lines in entries for pair in lines[1:]})
        # of types that the site defines itself, all names; of all others, what the copies have, and some more
        own = [name for definition in site.config.of("olcAttributeTypes") for name in names_of(definition) if "1.3.6.1.4.1.32473" in definition or ":" in definition.split()[1]]
        more = ("commonName", "surname", "gn", "rfc822Mailbox", "streetAddress", "carLicense", "userPKCS12", "jpegPhoto", "cn;lang-en", "labeledURI", "l", "name", "ref")
        slapds = ("entryUUID", "creatorsName", "createTimestamp", "structuralObjectClass", "hasSubordinates", "entryDN", "memberOf")
        asked = dict.fromkeys((*in_copy, *own, *more, *slapds))
        self.asked = ["entry", "children", *(name for name in asked if name.split(";")[0].lower() in known)]
        self.fixed = {name for name in self.asked if name.lower() in fixed and name not in ("entry", "children")}

    def word(self):
        name = self.rng.choice(self.asked)
        return f"{name}/{self.rng.choice([level for level in LEVELS if name not in self.fixed or level not in WRITING])}"

    def question(self):
        """Who asks, if anybody, whether the entry is not looked up, the entry, and words."""
        who, is_fake = self.rng.choice(self.requesters), self.rng.random() < 0.05
        base = self.rng.choice(self.entries)
        base = f"cn=New,{base}" if is_fake else base
        return None if self.rng.random() < 0.1 else who, is_fake, base, [self.word() for _ in range(WORDS)]


def asked_of_slapd(words, folder, question):
    """The answers of slapd's slapacl; none where it ends by a signal, as with -u where it comes to a rule by group."""
    who, is_fake, base, wanted = question
    command = ["slapacl", *words, "-b", base, *(["-D", who] if who else []), *(["-u"] if is_fake else []), *wanted]
    ended = run(command, folder, SECONDS)
    if is_fake and ended.returncode < 0:
        return None
    found = openldap.answers(ended.stdout + ended.stderr)
    if len(found) != len(wanted):
        raise Wrong(f"{command}: {ended.returncode}, {checks.shown(ended.stdout + ended.stderr)}")
    return found


def block_of(question, found):
    """A question as a file of questions has it, with the answers that are expected."""
    who, is_fake, base, words = question
    lines = [*([("authcDN", who)] if who else []), *([("fake", "true")] if is_fake else []), ("dn", base)]
    return texts.block(*lines, *zip(words, found, strict=True))


NOTE_ON_WORD = re.compile(r"slapkit: note: questions, line (\d+): ")


@dataclasses.dataclass
class Answered:
    """The answers of slapkit, a list for each question, the lines of words with a note, and the notes on the configuration."""

    found: list
    noted: set
    notes: list


def asked_of_slapkit(program, flat, database, text, folder):
    questions, out = folder / "questions.ldif", folder / "answers.ldif"
    questions.write_text(text)
    out.unlink(missing_ok=True)
    ended = run([program, "slapacl", "-f", flat.path, "--data", database.copy, "--questions", questions, "--answers", out], folder, SECONDS)
    lines = ended.stderr.splitlines()
    if ended.returncode not in (0, 1) or not out.exists() or any(not line.startswith("slapkit: note: ") for line in lines):
        raise Wrong(f"slapkit slapacl: {ended.returncode}, {checks.shown(ended.stderr)}")
    noted = {int(found[1]) for line in lines if (found := NOTE_ON_WORD.match(line))}
    found = [[word.expected for word in block.words] for block in asking.blocks_of(out.read_bytes())]
    return Answered(found, noted, [line for line in lines if not NOTE_ON_WORD.match(line)])


# ---- the trial


NOTED = ("without a note", "with a note on the word alone", "with a note on the rules")
DIFFERENT = ("different with a note", "different without a note", "different by slapd under a flat text")
COUNTED = ("questions", "allowed", "not answered by slapd, which ended by a signal", *(f"answers of slapkit {how}" for how in NOTED), *DIFFERENT)


class Trial:
    def __init__(self, program, folder, args):
        self.program, self.folder, self.args = program, folder, args
        self.counts = collections.Counter()
        self.left_out = {}

    @functools.cache
    def site(self, name):
        return Site(name, self.folder)

    def flats(self, name):
        """The flat texts of a site: each with its database."""
        found = [(database, source, flat) for database in self.site(name).databases for source, flat in database.flats.items()]
        if not found:
            raise Wrong("there are no flat texts")
        return found

    def readable_flats(self, name):
        """The same, once slapd has read each."""
        if any(flat.readable is None for _, _, flat in self.flats(name)):
            raise Wrong("slapd has not read each flat text")
        return self.flats(name)

    def flat_texts_are_made(self, name):
        site = self.site(name)
        for database in site.databases:
            _, _, rules = site.config.database(database.suffix)
            for source, words in site.sources.items():
                flat, message = made_flat(self.program, site.folder, words, database.suffix, f"{database.suffix}, {source}.flat".replace(" ", "_"))
                if not flat:
                    raise Wrong(f"{database.suffix} of {source}: {message}")
                told = re.fullmatch(r"types (\d+), rules (\d+), frontend (\d+)\n", flat.report)
                expect(told and (int(told[2]), int(told[3])), (len(rules), len(site.config.frontend())), f"rules of {database.suffix} of {source}")
                words = ["slapmodify", "-u", "-b", database.suffix, "--data", database.copy, "-f", flat.path, "-l", "/dev/null"]
                ended = run([self.program, *words], site.folder, SECONDS)
                expect((ended.returncode, ended.stdout, ended.stderr), (0, "accepted 0, refused 0\n", ""), f"slapmodify -f of {source}")
                database.flats[source] = flat
        return f"{len(self.flats(name))} of {', '.join(site.sources)}"

    def slapd_has_the_same_rules(self, name):
        site, counts = self.site(name), []
        for at, (database, source, flat) in enumerate(self.flats(name)):
            data = f"{site.folder}/flat{at}"
            pathlib.Path(data).mkdir()
            path, refused = readable_by_slapd(flat, site.config, site.folder, data)
            suffix, root, rules = site.config.database(database.suffix)
            found = converted(site.folder, path)
            expect(found.frontend(), [], "rules of the frontend in a flat text")
            expect(found.database(database.suffix), (suffix, root, rules + site.config.frontend()), f"{database.suffix} of {source}")
            flat.readable, flat.kept = path, found.of("olcAttributeTypes")
            counts.append(f"{len(refused)} of {source}")
            self.left_out.update(dict.fromkeys(name for line in refused for name in names_of(line)[:1]))
        return f"slaptest is content with each without its lines 2 to 45; refused, since a module has them: {', '.join(dict.fromkeys(counts))}"

    def all_flat_texts_define_the_same(self, name):
        counts = set()
        self.readable_flats(name)
        for database in self.site(name).databases:
            first, *others = database.flats.items()
            for source, flat in others:
                expect(flat.kept, first[1].kept, f"types of {database.suffix} of {source}, and of {first[0]}")
            counts.add(len(first[1].kept))
        return f"{' '.join(map(str, sorted(counts)))} types in the order of slapd's own text"

    def a_running_slapd_has_the_same_types(self, name):
        site = self.site(name)
        wanted = types_of_running(site.words, site.folder)
        for database, source, flat in self.readable_flats(name):
            expect(types_of_running(["-f", str(flat.readable)], site.folder), wanted, f"types of {database.suffix} of {source}")
        return f"{len(wanted)} types"

    def answers_are_the_same(self, name):
        site, before = self.site(name), self.counts.copy()
        self.readable_flats(name)
        for database in site.databases:
            wanted = max(1, self.args.questions // WORDS // sum(len(COPIES[one]) for one in self.args.sites))
            self.compare(site, database, Asker(site, database, random.Random(f"{self.args.seed} {name} {database.suffix}")), wanted)
        new = self.counts - before
        if any(new[kind] for kind in DIFFERENT[1:]):
            raise Wrong(", ".join(f"{new[kind]} {kind}" for kind in DIFFERENT[1:]))
        return f"{new['questions']} questions of {len(site.databases)} databases"

    def compare(self, site, database, asker, wanted):
        """Asks so many questions, each of some words, and counts the answers. Those that differ are told."""
        pairs = [(question, asked_of_slapd(site.words, site.folder, question)) for question in (asker.question() for _ in range(wanted))]
        self.counts["not answered by slapd, which ended by a signal"] += sum(WORDS for _, found in pairs if found is None)
        asked, there = zip(*((question, found) for question, found in pairs if found is not None), strict=True)
        text = "".join(block_of(*pair) for pair in zip(asked, there, strict=True))
        lines = [[word.line for word in block.words] for block in asking.blocks_of(text.encode())]
        self.counts["questions"] += sum(map(len, there))
        self.counts["allowed"] += sum(found.count("ALLOWED") for found in there)
        # the data of the site, under the rules of the first flat text
        flat = next(iter(database.flats.values()))
        self.tell_slapd(site, database, flat, asked, there)
        for source, flat in database.flats.items():
            here = asked_of_slapkit(self.program, flat, database, text, site.folder)
            expect(list(map(len, here.found)), list(map(len, there)), "answers of slapkit")
            for note in here.notes:
                print(f"{site.name}, {database.suffix} of {source}: {note}", flush=True)
            for question, mine, theirs, numbers in zip(asked, here.found, there, lines, strict=True):
                for word, one, other, number in zip(question[3], mine, theirs, numbers, strict=True):
                    how = NOTED[2] if here.notes else NOTED[1] if number in here.noted else NOTED[0]
                    self.counts[f"answers of slapkit {how}"] += 1
                    if one != other:
                        self.tell(site, database, source, question, word, (one, other), how)

    def tell_slapd(self, site, database, flat, asked, there):
        """Asks slapd under a flat text, with the data of the site."""
        data = next(path for path in re.findall(r"^(?:directory|olcDbDirectory:) \"?([^\"\n]*)", self.text_of(site, database), re.M))
        path = flat.readable.with_suffix(".data")
        path.write_text(re.sub(r"^directory .*$", f'directory "{data}"', flat.readable.read_text(), count=1, flags=re.M))
        for question, theirs in zip(asked, there, strict=True):
            for word, one, other in zip(question[3], asked_of_slapd(["-f", path], site.folder, question), theirs, strict=True):
                if one != other:
                    self.counts[DIFFERENT[2]] += 1
                    print(f"{site.name}: {question[2]}, asked by {question[0]}: {word} is {one} by slapd under {flat.path.name}, and {other} under the site", flush=True)

    @staticmethod
    def text_of(site, database):
        """What slapd says of a database."""
        record = next(record for record in site.config.records if database.suffix in record.all("olcSuffix"))
        return "".join(f"{name}: {value}\n" for name, value in record.lines)

    def tell(self, site, database, source, question, word, pair, how):
        self.counts[DIFFERENT[how == NOTED[0]]] += 1
        if how == NOTED[0]:
            fake = ", not looked up" if question[1] else ""
            print(f"{site.name}: {question[2]}{fake}, asked by {question[0]}: {word} is {pair[0]} by slapkit and {pair[1]} by slapd, under {source} of {database.suffix}", flush=True)

    # -- beside the sites

    def all_schema_files_are_read(self):
        folder = self.folder / "schema"
        (folder / "data").mkdir(parents=True)
        first = ["core", "cosine", "nis", "inetorgperson"]
        files = [*first, *sorted({path.stem for path in pathlib.Path(SCHEMA).glob("*.schema")} - set(first))]
        database = f"database mdb\nsuffix dc=com\ndirectory {folder}/data\naccess to * by * read\n"

        def conf(name, *left_out):
            includes = "".join(f"include {SCHEMA}/{file}.schema\n" for file in files if file not in left_out)
            (folder / name).write_text(f"modulepath /usr/lib/ldap\nmoduleload back_mdb\n{includes}{database}")
            ended_well(["slaptest", "-u", "-f", name], folder)
            return name

        # two of the files give the same macro: slaptest takes that, and slapd ends by a signal, so one of them is left out each time
        there = {line for file in ("dsee", "dyngroup") for line in types_of_running(["-f", conf("part.conf", file)], folder)}
        own = {name for definition in converted(folder, conf("few.conf", *files[2:])).own_types() for name in names_of(definition)}
        (folder / "copy.ldif").write_text(COM)
        flat, message = made_flat(self.program, folder, ["-f", conf("slapd.conf")], "dc=com", "flat.conf")
        if not flat:
            raise Wrong(message)
        wanted = {name for line in there for name in names_of(line)} - own
        expect({name for line in flat.types for name in names_of(line)} - own, wanted, "types of a flat text")
        refused = self.refused_types(folder, flat)
        expect(refused, [name for name in wanted if name.lower() in ("dn", "changetype", "control")], "types that slapkit refuses")
        return f"{len(files)} files, {len(flat.types)} types, {len(wanted)} names beside those of slapd's own; refused: {' '.join(refused)}"

    def refused_types(self, folder, flat):
        """The names of the types of a flat text that slapkit refuses, which are taken out one after the other."""
        refused, lines = [], flat.path.read_text().splitlines()
        while True:
            (folder / "try.conf").write_text("".join(f"{line}\n" for line in lines))
            ended = run([self.program, "slapacl", "-f", "try.conf", "--data", "copy.ldif", "-b", "dc=com", "entry/read"], folder, SECONDS)
            found = re.search(r"^slapkit: config, line (\d+): C12 BadType$", ended.stderr, re.M)
            if not found:
                expect((ended.returncode, ended.stdout), (0, "entry/read: ALLOWED\n"), ended.stderr)
                return refused
            refused += names_of(lines.pop(int(found[1]) - 1))

    def lines_are_joined_as_by_slapd(self):
        counts = collections.Counter()
        for number, (text, files) in enumerate(LINES):
            folder = self.folder / f"lines{number}"
            for name in ("data", "other"):
                (folder / name).mkdir(parents=True)
            for name, content in {"slapd.conf": HEAD + text, "copy.ldif": COM, **files}.items():
                (folder / name).write_text(content.replace("@", str(folder)))
            try:
                counts[self.how_lines_are_read(folder)] += 1
            except Wrong as fault:
                counts["read otherwise"] += 1
                print(f"lines: {text!r}: {fault}", flush=True)
        told = ", ".join(f"{count} {what}" for what, count in counts.items())
        if counts["read otherwise"]:
            raise Wrong(told)
        return told

    def how_lines_are_read(self, folder):
        if run(["slaptest", "-u", "-f", "slapd.conf"], folder, SECONDS).returncode:
            return "refused by slapd"
        config = converted(folder, "slapd.conf")
        for suffix in config.of("olcSuffix"):
            (folder / "data.ldif").write_text(COM.replace("com", suffix.removeprefix("dc=")))
            ended_well(["slapadd", "-q", "-f", "slapd.conf", "-b", suffix, "-l", "data.ldif"], folder)
        (folder / "config.ldif").write_text(slapcat(folder, next(folder.glob("config.*"))))
        flats = [self.flat_with_slapds_rules(folder, config, words) for words in (["-f", "slapd.conf"], ["--config", "config.ldif"])]
        if None in flats:
            return "refused by slapkit alone"
        return self.how_lines_answer(folder, flats[0])

    def flat_with_slapds_rules(self, folder, config, words):
        """The flat text of slapd.conf, or of what slapcat writes of it; none where slapkit refuses it."""
        flat, message = made_flat(self.program, folder, words, "dc=com", f"{words[1]}.flat")
        if not flat:
            print(f"{folder.name}, {words[1]}: refused by slapkit alone: {message.strip()}", flush=True)
            return None
        suffix, root, rules = config.database("dc=com")
        path, _ = readable_by_slapd(flat, config, folder, folder / "data")
        found = converted(folder, path)
        expect(found.database("dc=com"), (suffix, root, rules + config.frontend()), f"suffix, rootdn and rules of {words[1]}")
        names = [{name for definition in one.of("olcAttributeTypes") for name in names_of(definition)} for one in (found, config)]
        expect(*names, f"types of {words[1]}")
        return flat

    def how_lines_answer(self, folder, flat):
        """Asks about the one entry, for some who may be named in rules."""
        words = [f"{name}/{level}" for name in ("entry", "cn", "sn", "l", "st", "dc") for level in ("auth", "search", "read", "write")]
        asked = [(who, False, "dc=com", words) for who in (None, "dc=com", "cn=r,dc=com", "cn=s,dc=com", "cn=g,dc=com", "cn=a,dc=com", "cn=bc,dc=com")]
        there = [asked_of_slapd(["-f", "slapd.conf"], folder, question) for question in asked]
        try:
            here = asked_of_slapkit(self.program, flat, Database("dc=com", folder / "copy.ldif"), "".join(map(block_of, asked, there)), folder)
        except Wrong as fault:
            print(f"{folder.name}: {fault}", flush=True)
            return "made flat, and then refused by slapacl"
        expect(here.found, there, "answers")
        return "with slapd's rules, types and answers"


def main():
    parser = argparse.ArgumentParser(description=__doc__, formatter_class=argparse.RawDescriptionHelpFormatter)
    parser.add_argument("program", nargs="?", type=pathlib.Path)
    parser.add_argument("--seed", type=int, default=1)
    parser.add_argument("--questions", type=int, default=10_000)
    parser.add_argument("--site", choices=[*COPIES, "schema", "lines"])
    parser.add_argument("--keep", metavar="FOLDER")
    parser.add_argument("--update", action="store_true")
    parser.add_argument("--install", action="store_true")
    args = parser.parse_args()
    if not args.program and not args.update:
        parser.error("a program is wanted")
    if args.install:
        openldap.install()
    openldap.demand("slapd_conf.py", "slapd", "slapacl", "slapadd", "slapcat", "slaptest", "ldapsearch")
    args.sites = [name for name in COPIES if args.site in (None, name)]
    with contextlib.ExitStack() as stack:
        folder = pathlib.Path(args.keep or stack.enter_context(tempfile.TemporaryDirectory())).resolve()
        folder.mkdir(exist_ok=True)
        if args.update:
            for name in set(args.sites) - {"default"}:
                updated(name, folder)
            return
        trial = Trial(args.program.resolve(), folder, args)
        of_sites = (
            trial.flat_texts_are_made,
            trial.slapd_has_the_same_rules,
            trial.all_flat_texts_define_the_same,
            trial.a_running_slapd_has_the_same_types,
            trial.answers_are_the_same,
        )
        pairs = [(f"{name}: {check.__name__.replace('_', ' ')}", functools.partial(check, name)) for name in args.sites for check in of_sites]
        pairs += [("schema: all files are read", trial.all_schema_files_are_read)] if args.site in (None, "schema") else []
        pairs += [("lines: are joined as by slapd", trial.lines_are_joined_as_by_slapd)] if args.site in (None, "lines") else []
        status = checks.run("slapd_conf", pairs)
        print(f"left out for slapd, since a module has them: {len(trial.left_out)} types: {' '.join(trial.left_out)}")
        for name in COUNTED:
            print(f"{trial.counts[name]:9} {name}")
        sys.exit(status)


main()
