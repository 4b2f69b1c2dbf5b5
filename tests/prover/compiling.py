"""Whether wrong bodies still find their lines, change code and compile. Nothing is proved."""
import re
import subprocess
import tempfile

from harness.repository import ROOT
from prover.copies import check_command, copy_of_crates
from prover.edits import FOLDERS, are_apart, folder_of, in_groups, plant, read, unplant, words
from prover.rattle_source import source_of


def code(text):
    """A line without its comment and its spaces."""
    return re.sub(r"\s", "", text.split("//")[0])


def why_no_code(changes):
    """Why an edit is no wrong body: each of its changes must be of code, and not of a clause, a comment or a definition."""
    for change in changes:
        if change.file.suffix != ".rt":
            return f"it changes {change.file.name}, which is no code"
        if re.match(r"\s*(requires|ensures)\b", change.old) and not change.new.startswith(change.old):
            return "it changes a clause"
    if all(code(change.old) == code(change.new) for change in changes):
        return "it changes no code"
    return None


def names_taken_away(crate, changes):
    """Names that the proofs of a changed function cite, and that the function has no more."""
    gone = set()
    for change in changes:
        source = source_of(change.file)
        function = source.function_at(change.line)
        if function is None:
            continue
        new = {it.line: it.new for it in changes if it.file == change.file}
        after = "\n".join(new.get(number, source.lines[number]) for number in function.lines)
        cited = set()
        for proof in (ROOT / "crates" / crate / "proofs").glob(f"**/{function.name}/*.antt"):
            cited |= words(proof.read_text())
        gone |= (words(source.text_of(function)) - words(after)) & cited
    return gone


def compile_together(copy, crate, bodies):
    """Whether the crate compiles with these wrong bodies, and what was said."""
    changes = [change for body in bodies for change in body.changes]
    plant(copy, changes)
    home = copy / "crates" / crate
    (home / "out").mkdir(exist_ok=True)
    # over the libraries that `rt ci` left, where it did: `rt check` would prove them anew
    ran = subprocess.run([*check_command(home, True), "--only", ""], cwd=home, capture_output=True, text=True)
    unplant(copy, changes)
    said = ran.stdout + ran.stderr
    return not re.search(r"^(\S+: )?error[\[:]", said, re.M) and "only=0" in said, said


def that_do_not_compile(copy, crate, bodies):
    """The edits of those wrong bodies that do not compile, each with what was said."""
    ok, said = compile_together(copy, crate, bodies)
    if ok:
        return {}
    if len(bodies) == 1:
        told = re.search(r"^.*error[\[:].*$", said, re.M)
        return {bodies[0].edit: f"it does not compile: {told[0] if told else said[-200:]}"}
    half = len(bodies) // 2
    return {**that_do_not_compile(copy, crate, bodies[:half]), **that_do_not_compile(copy, crate, bodies[half:])}


def all_compile(crates):
    """Whether all edits of these crates can be planted, and compile."""
    bad = doubtful = count = 0
    with tempfile.TemporaryDirectory() as folder:
        copy = copy_of_crates(folder)
        for crate in crates:
            bodies, faults = [], {}
            edits = [edit for kind in FOLDERS for edit in sorted(folder_of(kind, crate).glob("*.edit"))]
            for edit in edits:
                body, fault = read(edit, crate)
                fault = fault or why_no_code(body.changes)
                if fault:
                    faults[edit] = fault
                else:
                    bodies.append(body)
            for group in in_groups(bodies, lambda one, other: are_apart(one.changes, other.changes), len(bodies)):
                faults.update(that_do_not_compile(copy, crate, group))
            for edit, fault in sorted(faults.items()):
                print(f"BAD {edit.relative_to(ROOT)}: {fault}", flush=True)
            for body in bodies:
                gone = names_taken_away(crate, body.changes)
                if gone:
                    doubtful += 1
                    print(f"doubtful {body.edit.relative_to(ROOT)}: proofs may cite {', '.join(sorted(gone))}", flush=True)
            bad += len(faults)
            count += len(edits)
            print(f"{crate}: {len(edits)} edits, {len(faults)} bad", flush=True)
    print(f"{count} edits, {bad} bad, {doubtful} doubtful")
    return bad == 0
