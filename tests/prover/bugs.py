#!/usr/bin/env python3
"""Plants wrong bodies: the prover must refuse each, and tells by which goals it does.

usage: bugs.py [--listed] [--after-ci] [--quick] [--tenth SEED] [CRATE[/PATTERN] ...]

They are those of bugs/, which the gate leaves out (docs/CONTRIBUTING.md says which), or with --listed those of must-fail/, which the gate
tries. Try those of a crate when it has changed; with a pattern, as in 'dir_change/*rename*', only those whose names it
fits. tests/prover/edits.py says what such a file has.

They are planted in a copy of the crates, several in one check where none calls what another changes, and the prover tries the functions that must be
refused (`rt check --only`). The functions that these call are taken at their word (tests/prover/stubs.py). A wrong body is refused where the edited crate
compiles, and the prover ends and does not accept its function, but all others. That it accepts the functions as they stand, with what they call taken at
its word too, is seen before, and what it then checked is kept for the wrong bodies. The seconds of a processor that a check took are told. The libraries
below are taken as `rt lib` or `rt check` have built them in this checkout, and those that are lacking are built.

A refusal is told with the goals that are open, and counted by its kind (tests/prover/verdicts.py): by a clause, by safety alone, or only since a proof file
names what is no longer there. Beside the wrong bodies of a function its control is tried, that of controls/: an edit that turns no meaning, which the prover
must accept. Where it refuses the control, and where a refusal is of the last kind, the wrong body is tried again without the function's proof files. What is
proved then was let through. What is refused counts by its kind where a goal is open that isn't open of the function as it stands without these files.

Of those of must-fail/ each must be refused by a clause, and each of their functions that has proof files must have a control. Of those of bugs/ none may be let
through. The last line has the number of each kind, and of the controls how many were refused.

--after-ci is for the gate, right after `rt ci` has proved all crates of this checkout, and with them these functions as they stand: so that isn't seen again.
The libraries are taken as `rt ci` left them. `rt check` would build these anew, so the prover is called as `rt` calls it.

--quick proves nothing: it looks whether each of bugs/, must-fail/ and controls/ still finds the line that it changes, changes code, and compiles. It
also names those that take away a name which a proof of the changed function may cite. It plants many at once, in a minute or so a crate whose libraries are
built. --tenth tries a tenth of each crate's, drawn by the seed, and says which.
"""
import argparse
import collections
import concurrent.futures
import os
import pathlib
import random
import re
import shutil
import signal
import subprocess
import sys
import tempfile

sys.path.insert(0, str(pathlib.Path(__file__).resolve().parents[1]))

from harness.repository import ROOT
from prover.compiling import all_compile
from prover.copies import KEPT, check_command, copy_of_crates, link_or_copy
from prover.edits import CONTROLS, LISTED, OTHERS, TOGETHER, WrongBody, edits_of, folder_of, in_groups, plant, read
from prover.machine import proofs_at_once
from prover.stubs import proof_folders, take_away
from prover.verdicts import CLAUSE, KINDS, NAME, SAFETY, Goal, Said

LET_THROUGH, NOT_TRIED = "let through", "not tried"
BY_KIND = {CLAUSE: "a clause", SAFETY: "safety alone", NAME: "a name alone"}
WITHOUT_PROOFS = " without proof files"

# What came of an edit: the kind of its refusal, or one of these two, what is told of it, and the goals that show it.
Outcome = collections.namedtuple("Outcome", "body kind told goals", defaults=[()])


def check(home, functions, after_ci):
    """Has the prover try these functions of a crate, or else all of it, and returns the status, what it said, and the seconds of a processor that it took."""
    words = [] if None in functions else ["--allow-holes", *(word for function in sorted(functions) for word in ("--only", function))]
    (home / "out").mkdir(exist_ok=True)
    with tempfile.TemporaryFile() as said:
        ran = subprocess.Popen([*check_command(home, after_ci), *words], cwd=home, stdin=subprocess.DEVNULL, stdout=said, stderr=subprocess.STDOUT)
        _, status, used = os.wait4(ran.pid, 0)
        ran.returncode = os.waitstatus_to_exitcode(status)
        said.seek(0)
        return ran.returncode, said.read().decode(errors="replace"), used.ru_utime + used.ru_stime


def proof_of(crate, name):
    """Where the proof of a function is that the prover names: functions of a cycle of calls have one."""
    path = name.partition("::")[2]
    return next((folder for folder in proof_folders(crate, path) if folder.rpartition("/")[2].startswith("+")), path)


def outcome_of(body, group, status, text):
    """What came of an edit, of a group that was tried together."""
    said = Said(text)
    own_proofs = {proof_of(body.crate, name) for name in said.refused if any(it.has(name) for it in group)}
    others = [name for name in said.refused if body.function and proof_of(body.crate, name) not in own_proofs]
    if others:
        return Outcome(body, NOT_TRIED, f"{others[0]} is not proved either")
    own = [name for name in said.refused if body.function is None or body.has(name)]
    if said.has_ended and not own and (status == 0 or said.is_accepted(body.function)):
        return Outcome(body, LET_THROUGH, "")
    if status != 1 or not said.has_ended or not own:
        told = re.findall(r"^(?:\S+: )?error[\[:].*$", text, re.M)
        return Outcome(body, NOT_TRIED, f"status {status}: {told[0] if told else text[-300:]}")
    return refusal_of(body, own, said)


def refusal_of(body, refused, said):
    """What came of an edit that was refused, by the goals of the function that must be. Of what an edit brings along no goal is a clause of that function."""
    named = [name for name in refused if body.function in (None, name.partition("::")[2])]
    found = [said.refusal(name, proof_folders(body.crate, name.partition("::")[2])) for name in named or refused]
    kind, shown = min(found, key=lambda it: KINDS.index(it.kind))
    told = ", ".join(map(str, shown[:5])) + (f" and {len(shown) - 5} more" if len(shown) > 5 else "")
    kind = kind if named else max(kind, SAFETY, key=KINDS.index)
    return Outcome(body, kind, f"{' '.join(named or refused)}: {told if len(told) <= 400 else told[:400] + ' ..'}", [it for it in shown if isinstance(it, Goal)])


def in_copy(folder, crate, kept_names):
    """A copy of a crate, in this folder, with the bodies of all functions but these taken away, or of none."""
    home = copy_of_crates(folder) / "crates" / crate
    if None not in kept_names:
        take_away(home, kept_names)
    return home


def are_proved(crate, bodies, folder, after_ci):
    """Whether the prover accepts the functions of these wrong bodies as they stand, in a copy in this folder, where it keeps what it has checked."""
    functions = {body.function for body in bodies}
    is_whole = None in functions
    home = in_copy(folder, crate, {None} if is_whole else {name for body in bodies for name in body.kept()})
    status, text, took = check(home, functions, after_ci)
    said = Said(text)
    is_proved = status == 0 if is_whole else all(said.is_accepted(function) for function in functions)
    if not is_proved:
        print(f"{crate}: what the wrong bodies change is not proved as it stands:\n{text[-2000:]}", flush=True)
    print(f"{crate}: {len(functions)} functions, as they stand ({took:.0f} s)", flush=True)
    return is_proved


def in_folder_tried(folder, crate, bodies, functions, kept, after_ci, is_without_proofs):
    """Has the prover try these functions of a crate in a copy in this folder, with these edits planted, over what was kept of the functions as they stand.
    Without their proof files, if that is asked. Returns the status and what it said."""
    home = copy_of_crates(folder) / "crates" / crate
    if kept.exists():
        shutil.copytree(kept, home / KEPT, copy_function=link_or_copy)
    plant(pathlib.Path(folder), [change for body in bodies for change in body.changes])
    if None not in functions:
        take_away(home, {function.split("::")[-1] for function in functions}.union(*(body.kept() for body in bodies)))
    if is_without_proofs:
        for function in functions:
            for proofs in proof_folders(crate, function):
                shutil.rmtree(home / "proofs" / proofs)
    status, text, took = check(home, functions, after_ci)
    if status == -signal.SIGKILL:
        # most likely for memory
        status, text, took = check(home, functions, after_ci)
    how = f"{WITHOUT_PROOFS if is_without_proofs else ''}{'' if bodies else ', as it stands'}"
    print(f"{crate}: {len(bodies) or len(functions)} in one check{how} ({took:.0f} s)", flush=True)
    return status, text


def tried(group, kept, after_ci, is_without_proofs=False):
    """What came of these edits, tried in one check. Where that tells nothing of some, each is tried alone."""
    with tempfile.TemporaryDirectory() as folder:
        status, text = in_folder_tried(folder, group[0].crate, group, {body.function for body in group}, kept, after_ci, is_without_proofs)
    found = [outcome_of(body, group, status, text) for body in group]
    if len(group) > 1 and any(it.kind == NOT_TRIED for it in found):
        return [outcome for body in group for outcome in tried([body], kept, after_ci, is_without_proofs)]
    return found


def goals_without_proofs(crate, function, kept, after_ci):
    """The goals of a function, as it stands, that are open without its proof files."""
    with tempfile.TemporaryDirectory() as folder:
        said = Said(in_folder_tried(folder, crate, [], {function}, kept, after_ci, True)[1])
    return {goal.name for name in said.refused if name.partition("::")[2] == function for goal in said.open_goals(name, [])}


def shows_nothing(outcome, doubted):
    """Whether a refusal shows nothing by itself: a proof cites a name that is gone, or the proof doesn't hold of another form of its function either."""
    return outcome.kind == NAME or outcome.kind in KINDS and outcome.body.function in doubted


def without_proofs(before, kept, after_ci, pool):
    """What came of a wrong body without the proof files of its function, after what came of it with them. A goal that is then open of the function as it
    stands, too, shows nothing."""
    body = before.body
    tries = pool.submit(tried, [body], kept, after_ci, True), pool.submit(goals_without_proofs, body.crate, body.function, kept, after_ci)
    [outcome], open_before = (it.result() for it in tries)
    is_new = outcome.kind not in KINDS or any(goal.name not in open_before for goal in outcome.goals)
    told = f"{outcome.told}{WITHOUT_PROOFS}{'' if is_new else ', as of the function as it stands'} (with them: {before.told})"
    return outcome._replace(kind=outcome.kind if is_new else NAME, told=told)


def outcomes_of(crate, bodies, controls, folder, after_ci, pool):
    """What came of the wrong bodies of a crate, and of the controls of their functions. But for the gate, the functions are tried as they stand before."""
    if not after_ci and bodies and not pool.submit(are_proved, crate, bodies, folder, after_ci).result():
        return [Outcome(body, NOT_TRIED, "its function is not proved as it stands") for body in [*bodies, *controls]]
    kept = folder / "crates" / crate / KEPT
    groups = [pool.submit(tried, group, kept, after_ci) for group in in_groups([*controls, *bodies], WrongBody.goes_with, TOGETHER)]
    found = {outcome.body: outcome for group in groups for outcome in group.result()}
    doubted = {control.function for control in controls if found[control].kind != LET_THROUGH}
    for body in bodies:
        if shows_nothing(found[body], doubted) and body.function and proof_folders(crate, body.function):
            found[body] = without_proofs(found[body], kept, after_ci, pool)
    return list(found.values())


def told_of(outcome, is_control):
    """What is printed of what came of an edit."""
    body, kind, told, _ = outcome
    if kind == NOT_TRIED:
        return f"{body}: NOT TRIED: {told}"
    if is_control:
        return f"{body}: accepted, as it must be" if kind == LET_THROUGH else f"{body}: REFUSED, though it turns no meaning: {told}"
    if kind == LET_THROUGH:
        return f"{body}: NOT REFUSED{': ' * bool(told)}{told}"
    return f"{body}: refused, as it must be, by {BY_KIND[kind]}: {told}"


def read_all(crate, edits):
    """The wrong bodies of these edits of a crate. How many can't be planted is told, and counted."""
    bodies, bad = [], 0
    for edit in edits:
        body, fault = read(edit, crate)
        if fault:
            bad += 1
            print(f"{edit.relative_to(ROOT)}: BAD EDIT: {fault}", flush=True)
        else:
            bodies.append(body)
    return bodies, bad


def count_of(crate, edits, folder, is_listed, after_ci, pool):
    """What came of these edits of a crate, and of the controls of their functions, counted."""
    bodies, bad = read_all(crate, edits)
    controls, bad_controls = read_all(crate, sorted(folder_of(CONTROLS, crate).glob("*.edit")))
    functions = {body.function for body in bodies}
    controls = [control for control in controls if control.function in functions]
    counts = collections.Counter({NOT_TRIED: bad, "bad controls": bad_controls})
    lacking = {body.function for body in bodies if body.function and proof_folders(crate, body.function)} - {control.function for control in controls}
    if is_listed:
        for function in sorted(lacking):
            print(f"{crate}: {function} has proof files, and lacks a control", flush=True)
        counts["lacking controls"] = len(lacking)
    # where an edit changes no function's code, as that of a constant, any function may be refused
    of_functions = [body for body in bodies if body.function]
    of_others = [body for body in bodies if not body.function]
    for name, some, theirs in (("functions", of_functions, controls), ("others", of_others, [])):
        for outcome in outcomes_of(crate, some, theirs, folder / name, after_ci, pool):
            is_control = outcome.body in theirs
            counts["controls", outcome.kind in KINDS] += is_control
            counts["bad controls"] += is_control and outcome.kind == NOT_TRIED
            counts[outcome.kind] += not is_control
            if outcome.kind == CLAUSE and not is_control:
                counts["without"] += WITHOUT_PROOFS in outcome.told
                counts["at limits"] += all(goal.is_at_a_limit for goal in outcome.goals)
            print(told_of(outcome, is_control), flush=True)
    print(f"{crate}: {summary_of(counts)}", flush=True)
    return counts


def summary_of(counts):
    """The numbers of each kind."""
    refused = f"{counts[CLAUSE]} refused by a clause ({counts['without']} of them{WITHOUT_PROOFS}, {counts['at limits']} at a limit alone)"
    refused += "".join(f", {counts[kind]} by {BY_KIND[kind]}" for kind in (SAFETY, NAME))
    others = f"{counts[LET_THROUGH]} let through, {counts[NOT_TRIED]} not tried"
    tried = sum(counts[kind] for kind in (*KINDS, LET_THROUGH, NOT_TRIED))
    refused_controls = counts["controls", True]
    return f"{tried} wrong bodies: {refused}; {others}; {counts['controls', False] + refused_controls} controls: {refused_controls} refused"


def have_passed(counts, is_listed):
    """Whether all were refused, those of must-fail/ each by a clause, and all controls were tried."""
    unwanted = [LET_THROUGH, NOT_TRIED, "bad controls", *([SAFETY, NAME, "lacking controls"] if is_listed else [])]
    return not any(counts[kind] for kind in unwanted)


def count_all(wanted, is_listed, after_ci):
    """What came of these edits, by their crates, counted. As many checks are made at a time as there are processors, and as memory holds."""
    threads = concurrent.futures.ThreadPoolExecutor
    with tempfile.TemporaryDirectory() as folder, threads(proofs_at_once()) as pool, threads(len(wanted)) as crates:
        counted = [crates.submit(count_of, crate, edits, pathlib.Path(folder) / crate, is_listed, after_ci, pool) for crate, edits in wanted.items()]
        return sum([it.result() for it in counted], collections.Counter())


def main():
    parser = argparse.ArgumentParser(description=__doc__, formatter_class=argparse.RawDescriptionHelpFormatter)
    parser.add_argument("--listed", action="store_true")
    parser.add_argument("--after-ci", action="store_true")
    parser.add_argument("--quick", action="store_true")
    parser.add_argument("--tenth", metavar="SEED")
    parser.add_argument("wanted", metavar="CRATE[/PATTERN]", nargs="*")
    args = parser.parse_args()
    kind = LISTED if args.listed else OTHERS
    crates = sorted(folder.name for folder in (ROOT / "crates").iterdir())
    wanted = args.wanted or [crate for crate in crates if folder_of(kind, crate).is_dir()]
    if args.quick:
        sys.exit(0 if all_compile([each.partition("/")[0] for each in wanted]) else 1)
    edits = collections.defaultdict(set)
    for each in wanted:
        crate, found = edits_of(each, kind)
        edits[crate].update(found)
    if args.tenth is not None:
        for crate, found in edits.items():
            edits[crate] = set(random.Random(f"{args.tenth} {crate}").sample(sorted(found), (len(found) + 9) // 10))
            print(crate, *(edit.stem for edit in sorted(edits[crate])), flush=True)
    counts = count_all({crate: sorted(found) for crate, found in edits.items()}, args.listed, args.after_ci)
    print(f"bugs: {summary_of(counts)}")
    sys.exit(0 if have_passed(counts, args.listed) else 1)


main()
