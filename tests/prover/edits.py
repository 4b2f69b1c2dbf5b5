"""Wrong bodies, as they stand in bugs/, must-fail/ and let-through/, and controls, in controls/: which lines each changes, and of which function.

Each is a file with a line `file:`, pairs of lines `old:` (once in that file) and `new:`, and where the function that the prover must refuse
isn't the one whose line changes first, a line `fn:` with its path. No line comes or goes. The prover accepts those of let-through/: a line `found by:`
names the script that finds each.
"""
import collections
import dataclasses
import functools
import pathlib
import re
import sys

from harness.repository import ROOT
from prover.rattle_source import module_of, path_of, source_of

# Edits that are planted together are as many lines apart, so that none stands in the code of another.
APART = 4

# As many at most are tried in one check, which then fits into the memory that a proof of the crate takes.
TOGETHER = 16

# The folders of edits: the wrong bodies that the gate tries, those that it leaves out, edits that turn no meaning, and wrong bodies that the prover accepts.
LISTED, OTHERS, CONTROLS, LET_THROUGH = FOLDERS = ("must-fail", "bugs", "controls", "let-through")

Change = collections.namedtuple("Change", "file line old new")


def folder_of(kind, crate):
    return ROOT / kind / crate


def edits_of(wanted, kind):
    """The edits of a crate, or those of them whose names fit a pattern."""
    crate, _, pattern = wanted.partition("/")
    edits = sorted(folder_of(kind, crate).glob(f"{pattern or '*'}.edit"))
    if not edits:
        sys.exit(f"no such edit: {wanted}")
    return crate, edits


def let_through(script=None):
    """The edits that the prover accepts, each with its crate and the command that finds it: all of them, or those that this script finds."""
    for edit in sorted((ROOT / LET_THROUGH).glob("*/*.edit")):
        command = re.search(r"^found by: (.*)$", edit.read_text(), re.M)[1]
        if script is None or command.split()[0] == script:
            yield edit.parent.name, edit, command


@functools.cache
def text_of(path):
    """The text of a source file as it stands."""
    return path.read_text()


def lines_of(path):
    return text_of(path).split("\n")


def changes_of(edit, crate):
    """The lines that an edit changes. Tells why it can't be planted, if so."""
    after, name, old = {}, None, None
    for line in edit.read_text().split("\n"):
        if line.startswith("file:"):
            name = line[5:].strip()
        elif line.startswith("old:"):
            old = line[4:].removeprefix(" ")
        elif line.startswith("new:"):
            path = ROOT / "crates" / crate / name
            text = after.setdefault(path, text_of(path))
            if text.count(old) != 1:
                return None, f"its line stands {text.count(old)} times in {name}: {old.strip()}"
            after[path] = text.replace(old, line[4:].removeprefix(" "))
    changes = [
        Change(path, number, old, new)
        for path, text in after.items()
        for number, (old, new) in enumerate(zip(lines_of(path), text.split("\n")))
        if old != new
    ]
    return changes, None if changes else "it changes nothing"


def words(text):
    return set(re.findall(r"[A-Za-z_]\w*", text))


@dataclasses.dataclass(frozen=True, eq=False)
class WrongBody:
    """An edit that can be planted."""

    crate: str
    edit: pathlib.Path
    changes: list
    # The path of the function that the prover must refuse, and None where it may be any of the crate's.
    function: str | None

    @functools.cached_property
    def paths(self):
        """The paths of the functions that the changes are in, and of those that they bring."""
        home = ROOT / "crates" / self.crate
        paths = {path_of(home, change.file, change.line) for change in self.changes} - {None}
        return paths | {"::".join([*module_of(change.file.relative_to(home)), name]) for change in self.changes for name in re.findall(r"\bfn (\w+)", change.new)}

    @functools.cached_property
    def names(self):
        """The names of these functions."""
        return {path.split("::")[-1] for path in self.paths}

    def has(self, function):
        """Whether a function that the prover names is the one that must be refused or one of these, or stands in one of them, as a closure does."""
        name = "::".join(function.split("::")[1:]).replace("::fn::", "::").removeprefix("fn::")
        return any(name == path or name.startswith(f"{path}::") for path in {*self.paths, self.function} - {None})

    @functools.cached_property
    def words(self):
        """The words of the functions that the changes are in, after these."""
        found = set()
        for change in self.changes:
            source = source_of(change.file)
            function = source.function_at(change.line)
            found |= words(change.new) | words(source.text_of(function) if function else "")
        return found

    def kept(self):
        """The names of the functions whose bodies a proof that it is refused must see."""
        return {*self.names, self.function.split("::")[-1]}

    def goes_with(self, other):
        """Whether both can be tried in one check: neither calls what the other changes, by their names."""
        return (
            are_apart(self.changes, other.changes)
            and all(it.function in it.paths for it in (self, other))
            and self.names.isdisjoint(other.words)
            and other.names.isdisjoint(self.words)
        )

    def __str__(self):
        return str(self.edit.relative_to(ROOT).with_suffix(""))


def read(edit, crate):
    """The wrong body of an edit. Tells why it can't be planted, if so."""
    changes, fault = changes_of(edit, crate)
    if fault:
        return None, fault
    named = re.search(r"^fn: (\S+)$", edit.read_text(), re.M)
    function = named[1] if named else path_of(ROOT / "crates" / crate, changes[0].file, changes[0].line)
    return WrongBody(crate, edit, changes, function), None


def are_apart(some, others):
    """Whether no change of the one stands in the code of the other."""
    return all(a.file != b.file or abs(a.line - b.line) > APART for a in some for b in others)


def in_groups(items, go_together, size):
    """The items in groups of at most this size, each of which goes with all others of its group."""
    groups = []
    for item in items:
        group = next((it for it in groups if len(it) < size and all(go_together(item, other) for other in it)), None)
        if group is None:
            groups.append([item])
        else:
            group.append(item)
    return groups


def plant(copy, changes):
    """Has the copy's files say what these changes make of them."""
    after = {change.file: lines_of(change.file) for change in changes}
    for change in changes:
        after[change.file][change.line] = change.new
    for path, lines in after.items():
        (copy / path.relative_to(ROOT)).write_text("\n".join(lines))


def unplant(copy, changes):
    """Gives the copy's files their texts back."""
    for path in {change.file for change in changes}:
        (copy / path.relative_to(ROOT)).write_text(text_of(path))
