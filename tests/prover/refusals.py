#!/usr/bin/env python3
"""Looks whether refusals are told apart by what the prover said.

usage: refusals.py

recorded/ has what the prover said of some edits: its own words, of which lines were left out, and the ends of long ones.
"""
import pathlib
import sys

sys.path.insert(0, str(pathlib.Path(__file__).resolve().parents[1]))

from harness import checks
from harness.checks import Wrong, expect
from prover.verdicts import CLAUSE, NAME, SAFETY, Said, kind_of_goal

RECORDED = pathlib.Path(__file__).resolve().parent / "recorded"

# Of each record the function that was to be refused, the kind of the refusal, and what is told.
REFUSED = {
    "loop_invariant": ("dir_names::name::scope_of_rdns", CLAUSE, ["loop-rdn-preserved"]),
    "type_invariant": ("dir_names::schema::Schema::add_type", CLAUSE, ["invariant_of-self-2"]),
    "answer_by_search": ("dir_names::attribute::options::OptionSetOrd::cmp", CLAUSE, ["returns-in-Some-Some (false at some values)"]),
    "answers_and_names": (
        "dir_names::schema::types::TypeTable::add_names",
        CLAUSE,
        ["returns-clause-ok", "invariant_of-self-3 (at a limit)"],
    ),
    "false_clause": (
        "dir_ldif::device::script::Script::pieces",
        CLAUSE,
        ["invariant_of-self (false at some values)", "returns-clause-pieces (false at some values)"],
    ),
    "at_a_limit": ("dir_ldif::writer::push_change", CLAUSE, ["returns-clause-text (at a limit)"]),
    "name_alone": (
        "dir_tools::copy::loading::Loading::take_records",
        NAME,
        [
            "`returns-in-TakeFault-clause-blamed`: record `Rattle.dir_tools.proofs.copy.loading.Loading.take_records.Lts.Arm-After-known_told` "
            "has no field `fault` the fields that can be named here are `it`, `in-TakeFault-own`, `is`, `it-1-ensures`, `ensures`, `known_told-1-own`"
        ],
    ),
}

# Names of goals as the prover makes them, and their kinds. Others are names of lemmas, and of no goal.
GOALS = {
    "returns": CLAUSE,
    "returns-in_err-judge-clause-refused": CLAUSE,
    "after_line-returns-in-Some": CLAUSE,
    "invariant_of-self-in-Err": CLAUSE,
    "loop-rest-init": CLAUSE,
    "loop-name-preserved-in_ok-push_entry": CLAUSE,
    "loop-rest-smaller": SAFETY,
    "insert-requires-clause-free": SAFETY,
    "count-before-requires": SAFETY,
    "unwrap-requires-2": SAFETY,
    "unreachable-requires": SAFETY,
    "overflow_add-result": SAFETY,
    "slice_bounds-part-items-start": SAFETY,
    "returned": None,
    "some_is": None,
    "invariant-loop-rdn": None,
}


def said_in(name):
    return Said((RECORDED / f"{name}.txt").read_text())


def folders_of(function):
    return ["/".join(function.split("::")[1:])]


def check_refusal(name):
    function, kind, told = REFUSED[name]
    said = said_in(name)
    expect(said.has_ended, True, "the check ended")
    expect(said.refused, [function], "refused")
    refusal = said.refusal(function, folders_of(function))
    expect((refusal.kind, [str(it) for it in refusal.shown]), (kind, told), "why")


def check_accepted():
    said = said_in("accepted")
    expect(said.refused, [], "refused")
    expect(said.is_accepted("name::scope_of_rdns"), True, "the function is accepted")
    expect(said.is_accepted("scope_of_rdns"), False, "a function of another path is accepted")


def check_other_functions():
    """What is open of one function is told of no other."""
    said = said_in("loop_invariant")
    expect(said.goals["dir_names::name::has_builtin_types"], [], "goals of a function that is accepted")


def check_goals():
    for name, kind in GOALS.items():
        expect(kind_of_goal(name), kind, name)


def check_names():
    """A refusal that only tells of names is of that kind, and is not taken for one that a clause tells."""
    function, _, _ = REFUSED["answers_and_names"]
    text = (RECORDED / "answers_and_names.txt").read_text()
    lines = text.split("\n")
    if not any("has no field" in line for line in lines):
        raise Wrong("the record has no error of a name")
    only_names = [line for number, line in enumerate(lines) if "it is not proved" not in line and "two types" not in line]
    expect(Said("\n".join(only_names)).refusal(function, folders_of(function)).kind, NAME, "the kind")


def main():
    trials = [(name, lambda name=name: check_refusal(name)) for name in REFUSED]
    trials += [(check.__name__, check) for check in (check_accepted, check_other_functions, check_goals, check_names)]
    sys.exit(checks.run("refusals", trials))


main()
