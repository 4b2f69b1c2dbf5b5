#!/usr/bin/env python3
"""Finds each public function without a contract that its crate's README doesn't name.

usage: contracts.py

A function is public by its own line (`pub fn`), or as a method that a public trait declares; a method of an impl of a trait has the contract that the trait
declares. One has a contract where `ensures` is in its signature. All others of a crate are named in its README, below the heading "What has no
contract", each in bold type (**`Type::method`**) before the reason. No function is named so there that has one, or that the crate doesn't have.

Crates of tests are left out.
"""
import pathlib
import re
import sys

sys.path.insert(0, str(pathlib.Path(__file__).resolve().parents[1]))

from harness import checks
from harness.checks import Wrong
from harness.repository import ROOT
from prover.rattle_source import owner_of, source_of

PUBLIC = re.compile(r"\s*pub (?:const )?fn ")
PUBLIC_TRAIT = re.compile(r"pub trait (\w+)")
# The part of a README that names the functions, up to the next heading.
SECTION = re.compile(r"^#+ What has no contract\n(.*?)(?=^#|\Z)", re.M | re.S)
BOLD = re.compile(r"\*\*(.*?)\*\*", re.S)
NAME = re.compile(r"`((?:\w+::)?\w+)`")


def public_name(source, function):
    """How a README names a function, with its type or trait; None where it isn't public."""
    header = function.header or ""
    trait = PUBLIC_TRAIT.match(header)
    if trait:
        return f"{trait[1]}::{function.name}"
    if function.is_of_tests or not PUBLIC.match(source.lines[function.lines[0]]):
        return None
    return f"{owner_of(header)}::{function.name}" if header.startswith("impl") else function.name


def public_functions(crate):
    """The public functions of a crate by their names, and whether each has a contract."""
    found = {}
    for path in sorted((crate / "src").rglob("*.rt")):
        source = source_of(path)
        for function in source.functions:
            name = public_name(source, function)
            if name:
                found[name] = found.get(name, True) and bool(re.search(r"\bensures\b", function.signature))
    return found


def named_in(readme):
    """The functions that a README names as those without a contract."""
    section = SECTION.search(readme.read_text())
    return {name for bold in BOLD.findall(section[1]) for name in NAME.findall(bold)} if section else set()


def check(crate):
    functions = public_functions(crate)
    without, named = {name for name, has_contract in functions.items() if not has_contract}, named_in(crate / "README.md")
    if missing := sorted(without - named):
        raise Wrong(f"no contract, and not in README.md below \"What has no contract\": {', '.join(missing)}")
    if more := sorted(named - without):
        raise Wrong(f"named in README.md as without a contract: {', '.join(more)}")
    return f"{len(functions)} public functions, {len(without)} without a contract"


def main():
    crates = [path.parent for path in sorted(ROOT.glob("crates/*/src")) if not path.parent.name.endswith("_tests")]
    return checks.run("contracts", [(crate.name, lambda crate=crate: check(crate)) for crate in crates])


sys.exit(main())
