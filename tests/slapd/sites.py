"""The sites of examples/sites, and what slapd makes of their configurations. `default` is the one that Debian's package slapd makes when it is installed."""
import collections
import dataclasses
import pathlib
import re
import shutil
import tempfile

from harness.checks import expect
from harness.repository import ROOT
from model import ldif, texts
from model.names import as_text
from slapd.openldap import SECONDS, ended_well, run

SITES = ROOT / "examples/sites"
# what Debian's package fills in and loads when it is installed
DEFAULT = pathlib.Path("/usr/share/slapd/slapd.init.ldif")
# the copies of each site, one for each database
COPIES = {"debian": ["copy.ldif"], "university": ["copy.ldif", "alumni.ldif"], "company": ["copy.ldif", "partners.ldif"], "default": ["copy.ldif"]}
# the folders that configurations name: in a trial they are in the trial's folder
SYSTEM = ("/var/lib/ldap", "/var/run/slapd")
# what differs from run to run, and what slapd has in any case
PASSING = ("olcconfigfile", "olcconfigdir", "entryuuid", "entrycsn", "creatorsname", "createtimestamp", "modifiersname", "modifytimestamp", "structuralobjectclass")
OWN = ("olcobjectidentifier", "olcattributetypes", "olcobjectclasses", "olcldapsyntaxes", "olcattributeoptions")
OWN_SCHEMA = "cn=schema,cn=config"


# ---- configurations as slapd writes them


def cut_place(value):
    """A value without the number in braces before it."""
    return re.sub(r"^\{-?\d+\}", "", value)


class Record:
    """A record of cn=config: its name, and its attributes by their names in lower case."""

    def __init__(self, block):
        (_, self.name), *self.lines = [(pair.name, as_text(pair.value)) for pair in map(ldif.pair_of, block)]
        self.values = collections.defaultdict(list)
        for name, value in self.lines:
            self.values[name.lower()].append(value)

    def all(self, name):
        return [cut_place(value) for value in self.values[name.lower()]]


class CnConfig:
    """The records that `slapcat -n 0` writes."""

    def __init__(self, text):
        self.records = [Record(block) for block in ldif.blocks(text)]

    def of(self, name, but_own=True):
        """All values of an attribute, in the order of the records, but for those of slapd's own schema."""
        return [value for record in self.records if not (but_own and record.name == OWN_SCHEMA) for value in record.all(name)]

    def database(self, suffix):
        """The suffix, the rootdn and the rules of a database."""
        found = [record for record in self.records if suffix in record.all("olcSuffix")]
        expect(len(found), 1, f"databases with the suffix {suffix}")
        return found[0].all("olcSuffix"), found[0].all("olcRootDN"), found[0].all("olcAccess")

    def frontend(self):
        return [rule for record in self.records if record.all("olcDatabase") == ["frontend"] for rule in record.all("olcAccess")]

    def own_types(self):
        """The definitions of the types that slapd and its modules have without a schema file."""
        return [value for record in self.records if record.name == OWN_SCHEMA for value in record.all("olcAttributeTypes")]

    def fixed_types(self):
        """The names of the types that only slapd writes, in lower case."""
        fixed = [definition for definition in self.of("olcAttributeTypes", but_own=False) if " NO-USER-MODIFICATION" in definition]
        return {name.lower() for definition in fixed for name in names_of(definition)}


def names_of(definition):
    """The names that a definition gives its type."""
    found = re.search(r"\bNAME (?:\( )?((?:'[^']*' ?)+)", definition)
    return re.findall(r"'([^']*)'", found[1]) if found else []


def slapcat(folder, made):
    """What slapcat writes of a configuration, with folded lines."""
    return ended_well(["slapcat", "-n", "0", "-F", made], folder)


def read_config(folder, made):
    return CnConfig(slapcat(folder, made).encode())


def converted(folder, conf):
    """The configuration that slaptest makes of a slapd.conf, with which it must be content."""
    ended_well(["slaptest", "-u", "-f", conf], folder)
    made = tempfile.mkdtemp(dir=folder, prefix="config.")
    # it writes the configuration, and then opens the databases, which may be empty
    run(["slaptest", "-f", conf, "-F", made], folder, SECONDS)
    return read_config(folder, made)


# ---- a site in a folder of its own


def moved(text, folder):
    """A configuration whose folders of the system are below another one."""
    for path in SYSTEM:
        text = text.replace(path, f"{folder}{path}")
    return text


@dataclasses.dataclass
class Database:
    suffix: str
    copy: pathlib.Path
    flats: dict = dataclasses.field(default_factory=dict)


class Site:
    """A site, with its data loaded. What it says to slapd is `config`, and how slapd's tools are told of it, `words`."""

    def __init__(self, name, folder):
        self.name, self.folder = name, folder / name
        if name == "default":
            self.make_default()
        else:
            self.make_copy()
        self.databases = [Database(suffix_of(self.folder / copy), self.folder / copy) for copy in COPIES[name]]
        for database in self.databases:
            ended_well(["slapadd", "-q", *self.words, "-b", database.suffix, "-l", database.copy], self.folder)

    def make_folders(self, text):
        for path in re.findall(rf"{re.escape(str(self.folder))}(/[^\s\"]*)", text):
            place = pathlib.Path(f"{self.folder}{path}")
            (place.parent if place.suffix else place).mkdir(parents=True, exist_ok=True)

    def make_copy(self):
        shutil.copytree(SITES / self.name, self.folder)
        for path in [path for path in self.folder.iterdir() if path.name not in COPIES[self.name]]:
            text = moved(path.read_text(), self.folder)
            path.write_text(text)
            self.make_folders(text)
        self.words = ["-f", "slapd.conf"]
        self.config = converted(self.folder, "slapd.conf")
        self.sources = {"slapd.conf": ["-f", "slapd.conf"]}
        self.add_source("slapcat -n 0", "slapcat.ldif", "config.*")
        if (self.folder / "CONFIG.ldif").exists():
            self.load("CONFIG.ldif")
            self.sources["CONFIG.ldif"] = ["--config", "CONFIG.ldif"]

    def make_default(self):
        self.folder.mkdir()
        shutil.copy(SITES / "debian/copy.ldif", self.folder)
        suffix = suffix_of(self.folder / "copy.ldif")
        text = moved(DEFAULT.read_text().replace("@SUFFIX@", suffix).replace("@PASSWORD@", "secret"), self.folder)
        (self.folder / "init.ldif").write_text(text)
        self.make_folders(text)
        self.load("init.ldif")
        self.words = ["-F", "init.ldif.d"]
        self.sources = {}
        self.add_source("slapcat -n 0", "slapcat.ldif", "init.ldif.d")
        (self.folder / "again.conf").write_text(as_slapd_conf(read_config(self.folder, "init.ldif.d"), suffix, f"{self.folder}/var/lib/ldap"))
        self.config = converted(self.folder, "again.conf")

    def load(self, text):
        """Loads a text into cn=config, and has slaptest look at what it made."""
        (self.folder / f"{text}.d").mkdir()
        ended_well(["slapadd", "-n", "0", "-F", f"{text}.d", "-l", text], self.folder)
        ended_well(["slaptest", "-u", "-F", f"{text}.d"], self.folder)

    def add_source(self, name, file, pattern):
        """Writes what slapcat says of a configuration."""
        (self.folder / file).write_text(slapcat(self.folder, next(self.folder.glob(pattern))))
        self.sources[name] = ["--config", file]


def suffix_of(copy):
    """The name of the first record of a copy."""
    return as_text(ldif.pair_of(next(ldif.blocks(copy.read_bytes()))[0]).value)


# ---- a configuration as a slapd.conf again


def surroundings(config):
    """What a flat text leaves out and slapd needs: lines before its types, and lines after them."""
    modules = [f"modulepath {path}" for path in config.of("olcModulePath")] + [f"moduleload {name}" for name in config.of("olcModuleLoad")]
    macros = [f"objectidentifier {macro}" for macro in dict.fromkeys(config.of("olcObjectIdentifier"))]
    options = [f"attributeoptions {option}" for option in config.of("olcAttributeOptions")]
    return [*modules, *macros, *options], [f"objectclass {definition}" for definition in config.of("olcObjectClasses")]


def as_slapd_conf(config, suffix, data):
    """A slapd.conf of a database and the frontend, which slaptest turns into cn=config again: then all texts are slapd's own."""
    before, after = surroundings(config)
    suffixes, roots, rules = config.database(suffix)
    types = [f"attributetype {definition}" for definition in config.of("olcAttributeTypes")]
    frontend = ["database frontend", *(f"access {rule}" for rule in config.frontend())]
    database = ["database mdb", *(f'suffix "{one}"' for one in suffixes), *(f'rootdn "{one}"' for one in roots), f"directory {data}", *(f"access {rule}" for rule in rules)]
    return "".join(f"{line}\n" for line in (*before, *types, *after, *frontend, *database))


def updated(name, folder):
    """Writes the CONFIG.ldif of a site: what slapcat says of it, but for what differs from run to run and for slapd's own schema."""
    site = Site(name, folder)
    text = ""
    for record in site.config.records:
        left_out = PASSING + (OWN if record.name == OWN_SCHEMA else ())
        lines = [(key, value.replace(str(site.folder), "")) for key, value in record.lines if key.lower() not in left_out]
        text += texts.block(("dn", record.name), *lines)
    (SITES / name / "CONFIG.ldif").write_text(text)
