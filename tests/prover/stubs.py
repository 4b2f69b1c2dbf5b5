"""Takes the bodies of functions away, so that the prover tries some functions and takes those that they call at their word.

A proof of a function rests on the contracts of what it calls, and on nothing else of these: the prover gives it no more. But it tries a function
with all that this calls in its crate. So each of these gets a body that control never reaches, and a hole in the place of the proof of that.
The prover says of a function that is proved but for such holes that it depends on a hole, and of one that is not that it has no proof.
"""
import functools
import re
import shutil

from harness.repository import ROOT
from prover.rattle_source import Source, path_of, source_of

# The line of a function whose body can be taken away.
DECLARED = re.compile(r"(?:    )?(?:pub(?:\(\w+\))? )?fn \w+")
# The one goal of a body that control never reaches, left open.
HOLE = """use Rattle.{path}.Goals as goal

pub unreachable-requires : goal.unreachable-requires
unreachable-requires c = ?
"""


def functions_in(source):
    """The functions of a file that stand by themselves or in an impl of no trait."""
    return [it for it in source.functions if it.is_inherent and DECLARED.match(source.lines[it.lines[0]])]


def cycles_in(source):
    """The functions of a file that call one another in a cycle which has a name: for each its line with that name, and the name."""
    found = {}
    for function in functions_in(source):
        before = function.lines[0] - 1
        cycle = re.match(r" *#\[cycle\((\w+)\)\]", source.lines[before])
        if cycle:
            found[function.name] = before, cycle[1]
    return found


@functools.cache
def cycles_of(crate):
    """The functions of a crate in cycles that have a name: pairs of a function's name and the cycle's."""
    return {(name, cycle) for file in (ROOT / "crates" / crate / "src").rglob("*.rt") for name, (_, cycle) in cycles_in(source_of(file)).items()}


def proof_folders(crate, function):
    """The folders below a crate's proofs/ that have the proof files of a function, by its path: its own, and the one of the cycle of calls that it is in."""
    *above, name = function.split("::")
    names = [name, f"+{name}", *(f"+{cycle}" for one, cycle in cycles_of(crate) if one == name)]
    return [folder for folder in ("/".join([*above, it]) for it in names) if (ROOT / "crates" / crate / "proofs" / folder).is_dir()]


def has_lines(function):
    """Whether a function has a body that has lines of its own."""
    return function.braces is not None and function.braces[0] < function.braces[1]


def without_bodies(source, kept):
    """The text with the bodies of its functions taken away, but for those whose names are kept, and the lines where these functions begin in the text as it was.

    Of a cycle with a name all functions keep their bodies, or none does; then there is no cycle, and its name goes.
    """
    cycles = cycles_in(source)
    kept_cycles = {cycle for name, (_, cycle) in cycles.items() if name in kept}
    kept = {*kept, *(name for name, (_, cycle) in cycles.items() if cycle in kept_cycles)}
    gone = [it for it in functions_in(source) if it.name not in kept and has_lines(it)]
    after = list(source.lines)
    for number, cycle in cycles.values():
        if cycle not in kept_cycles:
            after[number] = ""
    for function in reversed(gone):
        indent = re.match(" *", source.lines[function.lines[0]])[0]
        begin, end = function.braces
        after[begin + 1 : end] = [f"{indent}    unreachable!()"]
    return "\n".join(after), [it.lines[0] for it in gone]


def take_away(home, kept):
    """Takes bodies away in a copy of a crate of this checkout, but for those of the functions whose names are kept. In the copy as many lines stand before each function as here."""
    crate = ROOT / "crates" / home.name
    for file in sorted((home / "src").rglob("*.rt")):
        source = Source(file.read_text())
        cycles = cycles_in(source)
        text, gone = without_bodies(source, kept)
        file.write_text(text)
        for number in gone:
            path = path_of(crate, crate / file.relative_to(home), number).split("::")
            folder = home / "proofs" / "/".join(path)
            folder.mkdir(parents=True, exist_ok=True)
            # the proof of a function that called itself, or of its cycle
            shutil.rmtree(folder.parent / f"+{cycles[path[-1]][1] if path[-1] in cycles else path[-1]}", ignore_errors=True)
            for name in ("Invariants.antt", "Proof.antt"):
                (folder / name).unlink(missing_ok=True)
            (folder / "Answers.antt").write_text(HOLE.format(path=".".join([home.name, "proofs", *path])))
