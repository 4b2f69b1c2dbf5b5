#!/usr/bin/env python3
"""Answers goals by `grind` where no simple search closes them, so that the prover doesn't make that search first.

usage: grind_answers.py CRATE FUNCTION ...

On a goal without an answer the prover tries `search rules`, and `grind (arith, common_steps)` once that has come to its limits: in many functions
two thirds of the time that their answers take. tests/prover/proof_times.py tells which functions these are (their `Proof`). In a copy each of their goals
that has no answer is answered by `search rules`; those that this leaves open are answered by `grind`, and where that closes them and the function
takes less time, the answers are written into this checkout. Run `rt check` of the crate after it, and `rt tidy`.

The libraries below are taken as they are built in this checkout. What the functions call is taken at its word (tests/prover/stubs.py).
"""
import collections
import pathlib
import re
import subprocess
import sys
import tempfile

sys.path.insert(0, str(pathlib.Path(__file__).resolve().parents[1]))

from harness.repository import ROOT
from prover.copies import KEPT, check_command, copy_of_crates
from prover.stubs import take_away

SEARCH, GRIND = "search rules", "grind (arith, common_steps)"
# Where the words of these answers come from.
HOMES = {"rules": "Rattle.std.proofs.Common", "arith": "Rattle.std.proofs.Common", "common_steps": "Rattle.std.proofs.lemmas.Grind"}
# The answers are kept where the searches take no more than this share of the time.
WORTH = 0.75

# A goal as the prover offers it: its name, its type, and the left side of its answer.
Goal = collections.namedtuple("Goal", "name of left")


def folder_of(home, function):
    return home / "proofs" / function.replace("::", "/")


def run(home, functions, *words):
    """What the prover says of these functions of a copy, which keeps the bodies of no others."""
    (home / "out").mkdir(exist_ok=True)
    named = [word for function in functions for word in (words[0], function)]
    ran = subprocess.run([*check_command(home, True), *named, *words[1:]], cwd=home, stdin=subprocess.DEVNULL, stdout=subprocess.PIPE, stderr=subprocess.STDOUT, text=True, errors="replace")
    return ran.stdout


def seconds(home, functions):
    """What the answers of each function took, by when their modules were written."""
    files = sorted((file.stat().st_mtime_ns, file.stem) for file in (home / KEPT).glob("antt-checked-*/*.oantt"))
    took = collections.Counter()
    for (before, _), (after, name) in zip(files, files[1:]):
        module, _, kind = name.partition("-proofs.")[2].rpartition(".")
        if kind in ("Proof", "Answers"):
            took[module.replace(".", "::")] += (after - before) / 1e9
    return {function: took[function] for function in functions}


def offered(home, functions):
    """The goals of each function, and the line that imports them."""
    generated = home / "generated"
    run(home, functions, "--start", "--generated", generated)
    found = {}
    for function in functions:
        file = generated / f"Rattle-{home.name}-proofs" / function.replace("::", "/") / "AnswersOffered.antt"
        if file.exists():
            text = file.read_text()
            goals = [Goal(*it.groups()) for it in re.finditer(r"^pub (\S+) :(\s+goal\.\S+)\n(.+) = \?$", text, re.M)]
            found[function] = re.search(r"^use .* as goal$", text, re.M)[0], goals
    return found


def is_answered(goal, text):
    """Whether an answer stands there, of the goal as a whole or of a clause of it."""
    names = re.findall(r"^(?:pub )?([^\s:]+)\s*:\s+goal\.", text, re.M)
    return any(name == goal.name or name.startswith(f"{goal.name}-clause-") or goal.name.startswith(f"{name}-clause-") for name in names)


def with_answers(text, imported, goals, answer):
    """The answers of a function with one more for each of these goals."""
    head = re.split(r"^(?:pub )?\S+ :", text, maxsplit=1, flags=re.M)[0]
    for word in re.findall(r"rules|arith|common_steps", answer):
        line = re.search(rf"^use {re.escape(HOMES[word])}\.\{{(.*)\}}$", text, re.M)
        if re.search(rf"[{{ ]{word}[,}}]", head):
            continue
        if line:
            text = text.replace(line[0], line[0][:-1] + f", {word}}}", 1)
        else:
            text = f"use {HOMES[word]}.{{{word}}}\n{text}"
    if imported not in text:
        text = re.sub(r"\A((?:use .*\n)*)", rf"\g<1>{imported}\n", text)
    return text.rstrip("\n") + "\n" + "".join(f"\npub {goal.name} :{goal.of}\n{goal.left} = {answer}\n" for goal in goals)


def left_open(home, function, said):
    """The names of the answers that the prover refuses."""
    file = folder_of(home, function) / "Answers.antt"
    lines = file.read_text().split("\n") if file.exists() else []
    found = set()
    for number in re.findall(rf"^(?:\./)?{re.escape(str(file.relative_to(home)))}:(\d+):\d+: error", said, re.M):
        begins = [it for line in lines[: int(number)] if (it := re.match(r"(?:pub )?(\S+) :", line))]
        found.add(begins[-1][1])
    return found


def tried(crate, functions, goals_of, answer):
    """Has the prover try the functions in a copy, with an answer to these goals of each, and returns which it leaves open, and the seconds that each took."""
    with tempfile.TemporaryDirectory() as folder:
        home = copy_of_crates(folder) / "crates" / crate
        take_away(home, {function.split("::")[-1] for function in functions})
        offers = goals_of(home)
        for function, (imported, goals) in offers.items():
            file = folder_of(home, function) / "Answers.antt"
            text = file.read_text() if file.exists() else ""
            file.parent.mkdir(parents=True, exist_ok=True)
            if goals:
                file.write_text(with_answers(text, imported, goals, answer))
        said = run(home, functions, "--only", "--allow-holes")
        return offers, {function: left_open(home, function, said) for function in functions}, seconds(home, functions)


def main():
    crate, functions = sys.argv[1], sys.argv[2:]
    answers = {function: folder_of(ROOT / "crates" / crate, function) / "Answers.antt" for function in functions}
    texts = {function: file.read_text() if file.exists() else "" for function, file in answers.items()}

    def not_answered(home):
        return {function: (imported, [goal for goal in goals if not is_answered(goal, texts[function])]) for function, (imported, goals) in offered(home, functions).items()}

    _, _, before = tried(crate, functions, lambda home: {}, SEARCH)
    offers, unsearched, _ = tried(crate, functions, not_answered, SEARCH)
    wanted = {function: (imported, [goal for goal in goals if goal.name in unsearched[function]]) for function, (imported, goals) in offers.items()}
    _, still_open, after = tried(crate, functions, lambda home: wanted, GRIND)
    for function, (imported, goals) in wanted.items():
        goals = [goal for goal in goals if goal.name not in still_open[function]]
        is_worth = bool(goals) and after[function] <= WORTH * before[function]
        if is_worth:
            answers[function].parent.mkdir(parents=True, exist_ok=True)
            answers[function].write_text(with_answers(texts[function], imported, goals, GRIND))
        print(f"{function}: {before[function]:.1f} s before, {after[function]:.1f} with {len(goals)} answers by grind, {'written' if is_worth else 'left'}", flush=True)


if len(sys.argv) < 3:
    sys.exit(__doc__)
main()
