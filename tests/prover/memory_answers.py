#!/usr/bin/env python3
"""Finds each place in the sources that answers out of memory where no allocation was refused.

usage: memory_answers.py

No contract can say that memory was there, so a body that answers out of memory is proved wherever it does. Such an
answer must come from a refused allocation. These forms hand one on, and pass:

    call(..)?                        the fault of a call, turned by `From`
    Err(..::Memory) => ..::Memory    an arm of a match whose pattern names the fault, in a `From` too
    Err(_) => ..::Memory             where out of memory is the only fault of the call that is matched, by the type or the
                                     contract of every function of its name, in the crate itself if it has one, else in those
                                     below it; so `map_err(|_| ..::Memory)` and `let .. else`

There must be no other place but those in BUFFERED and COUNTS. Tests are left out. Then each wrong body of let-through/ that names
this script is planted in its text, and must be found.
"""
import pathlib
import re
import sys

sys.path.insert(0, str(pathlib.Path(__file__).resolve().parents[1]))

from harness import checks
from harness.checks import Wrong
from harness.repository import ROOT
from prover.edits import changes_of, let_through, lines_of
from prover.rattle_source import Source, closed, source_of

# Calls that hand back what could not be put where it was to go, or opened: their only fault is out of memory.
HANDS_BACK = {"from_vec", "grow_at", "insert", "into_vec", "move_subtree", "open", "push"}

# Functions that answer out of memory for a fault of a sink in memory, which takes all that it is given unless an allocation is refused.
BUFFERED = {"run_fault"}

# A count of values that has no next number: no memory holds so many. An index past 16 bits: then attributes are kept unpacked, or changed
# another way, and nobody is told of a fault (`KeptAttributes::packed_up_to` and `with_part`).
COUNTS = {"index", "one_more"}

# A function that makes the fault of out of memory: each call of it is such an answer.
MAKES = "out_of_memory"

# What a wrong body names that this script must find.
SCRIPT = "tests/prover/memory_answers.py"

ANSWER = re.compile(rf"\b(?:\w+::)*(?:(?:Memory|AllocError|OutOfMemory)\b|{MAKES}\(\))")


def functions_of(source):
    """The functions of a file that have bodies, but for tests."""
    return [it for it in source.functions if it.body and not it.is_of_tests]


def may_only_lack_memory(signature):
    """Whether out of memory is a function's only fault, by its type or by its contract."""
    gives = re.search(r"\bGives(?:Part)? \((?:[^()]|\([^()]*\))*\) result \(Ok ", signature)
    only = re.search(r"IfErr result \(λ (\w+)\. \1 ≡ [\w.]*Memory\)", signature)
    return bool(re.search(r"-> Result<.*, (?:Memory|AllocError)>", signature, re.S) or gives or only)


def calls_of(expression):
    """The last calls of an expression, or of each part of a tuple."""
    expression = expression.strip()
    if expression.startswith("(") and closed(expression, 0) == len(expression):
        parts, depth = [""], 0
        for letter in expression[1:-1]:
            depth += (letter in "({[<") - (letter in ")}]>")
            parts, parts[-1] = (parts + [""], parts[-1]) if letter == "," and depth == 0 else (parts, parts[-1] + letter)
        return [name for part in parts for name in calls_of(part)]
    calls = [found for found in re.finditer(r"(\w+)\s*\(", expression) if closed(expression, found.end() - 1) == len(expression)]
    return [calls[-1][1] if calls else expression]


def pattern_before(arms):
    """The pattern of the last arm in a text that ends within it."""
    end = arms.rfind("=>")
    depth, i = 0, len(arms[:end].rstrip())
    while i > 0:
        letter = arms[i - 1]
        if depth == 0 and (letter in ",{" or letter == "}" and arms[i:end].strip()):
            break
        depth += (letter in ")]}") - (letter in "([{")
        i -= 1
    return arms[i:end].strip()


def answered(code, body, at):
    """What the answer at this index is for: the pattern that it stands under, and the calls whose faults the pattern is matched with."""
    mapped = re.search(r"\.map_err\(\|_\|\s*$", code[body:at])
    if mapped:
        statement = re.split(r"[;{}]|=(?![=>])|\breturn\b", code[body : body + mapped.start()])[-1]
        opened = 0
        # what is before the bracket that the expression is in is not of it
        for i in range(len(statement) - 1, -1, -1):
            opened += (statement[i] in ")]") - (statement[i] in "([")
            if opened < 0:
                statement = statement[i + 1 :]
                break
        return "_", calls_of(re.sub(r"^\s*(?:if|match)?\s*!?", "", statement.split(",\n")[-1]))
    depth, i = 0, at
    while i > body:
        i -= 1
        depth += (code[i] in ")}]") - (code[i] in "({[")
        if depth < 0 and code[i] == "{":
            before = code[body:i]
            chosen = re.search(r"\blet\s+([^;{}=]*)=\s*([^;{}]*?)\s*else\s*$", before)
            matched = re.search(r"\bmatch\s+([^;{}]*?)\s*$", before)
            if chosen:
                return "_", calls_of(chosen[2])
            if matched:
                return pattern_before(code[i + 1 : at]), calls_of(matched[1])
        if depth < 0:
            depth = 0
    return None, []


def places_of(source, only_memory):
    """The places of a file that answer out of memory where no allocation was refused."""
    code = source.code
    for function in functions_of(source):
        body, end = function.body
        converts = re.search(r"^fn from\(\w+: (?:AllocError|AllocFailed<\w+>|Memory)\)", function.signature)
        for found in ANSWER.finditer(code, body, end):
            if converts or function.name == MAKES or re.match(r"[\s),}]*(?:\|[^=]*)?=>|\(_\)\)* =>", code[found.end() :]):
                continue
            pattern, calls = answered(code, body, found.start())
            if pattern is not None and ANSWER.search(pattern):
                continue
            if function.name in BUFFERED and pattern and pattern.endswith("Write(Output::Report)"):
                continue
            if function.name in COUNTS:
                continue
            if calls and all(call in only_memory or call in HANDS_BACK for call in calls):
                continue
            yield f"line {source.line_of(found.start()) + 1}, {function.name}, of {' and '.join(calls)}"


def all_sources():
    for path in sorted(ROOT.glob("crates/*/src/**/*.rt")):
        name = path.relative_to(ROOT / "crates")
        if not name.parts[0].endswith("_tests") and path.name != "tests.rt" and "tests" not in name.parts:
            yield name.as_posix(), source_of(path)


def crates_below():
    """The crates that each crate stands on, by crates.txt, and those that these stand on."""
    named = {name: libraries.split() for name, libraries in re.findall(r"^(\w+):(.*)", (ROOT / "crates.txt").read_text(), re.M)}

    def below(name):
        return {it for library in named[name] if library in named for it in {library} | below(library)}

    return {name: below(name) for name in named}


def crate_of(name):
    return name.split("/")[0]


def main():
    sources = dict(all_sources())
    signatures = {}
    for name, source in sources.items():
        for function in functions_of(source):
            signatures.setdefault(function.name, {}).setdefault(crate_of(name), []).append(function.signature)

    below = crates_below()

    def only_memory_in(crate):
        """The functions of which out of memory is the only fault, as a crate calls them: its own of that name, else those of the crates below it."""
        seen = {name: given.get(crate) or sum((given.get(it, []) for it in below[crate]), []) for name, given in signatures.items()}
        return {name for name, given in seen.items() if given and all(map(may_only_lack_memory, given))}

    def check(name, source):
        places = list(places_of(source, only_memory_in(crate_of(name))))
        if places:
            raise Wrong(f"out of memory is answered where no allocation was refused: {'; '.join(places)}")

    def check_found(crate, edit):
        """Whether a wrong body is found in the file that it changes."""
        changes, fault = changes_of(edit, crate)
        if fault:
            raise Wrong(fault)
        lines = list(lines_of(changes[0].file))
        for change in changes:
            lines[change.line] = change.new
        if not list(places_of(Source("\n".join(lines)), only_memory_in(crate))):
            raise Wrong("it is not found")

    trials = [(name, lambda name=name, source=source: check(name, source)) for name, source in sources.items()]
    trials += [(f"{crate}/{edit.stem}", lambda crate=crate, edit=edit: check_found(crate, edit)) for crate, edit, _ in let_through(SCRIPT)]
    sys.exit(checks.run("memory answers", trials))


main()
