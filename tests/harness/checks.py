"""Runs checks, with a line for each and a last line of counts."""
import subprocess


class Wrong(Exception):
    """What a check found is not what it wanted."""


def shown(value):
    text = repr(value)
    return text if len(text) <= 600 else f"{text[:300]} .. {text[-300:]}"


def expect(found, wanted, what="found"):
    """Passes where the two are equal."""
    if found != wanted:
        raise Wrong(f"{what}: {shown(found)}, wanted: {shown(wanted)}")


def same(found, wanted, what):
    """Passes where two texts are equal; else tells where they differ first."""
    if found == wanted:
        return
    at = next((i for i, (a, b) in enumerate(zip(found, wanted)) if a != b), min(len(found), len(wanted)))
    near = slice(max(at - 40, 0), at + 40)
    raise Wrong(f"{what}, of {len(found)} bytes for {len(wanted)}, differs first at byte {at}: {found[near]!r}, wanted: {wanted[near]!r}")


def passed(name, check):
    """Whether the check passes. What it returns, if anything, is told in its line."""
    try:
        told = check()
    except (Wrong, OSError, UnicodeError, subprocess.SubprocessError) as fault:
        print(f"{name}: FAILED, {fault}", flush=True)
        return False
    print(f"{name}: ok{f', {told}' if told else ''}", flush=True)
    return True


def run(what, checks):
    """Runs pairs of a name and a check, and returns the exit status."""
    answers = [passed(name, check) for name, check in checks]
    failed = answers.count(False)
    print(f"{what}: {len(answers) - failed} checks passed, {failed} failed", flush=True)
    return 1 if failed or not answers else 0
