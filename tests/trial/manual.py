#!/usr/bin/env python3
"""Compares the manual pages and the completions of the tools with the program's own options, and their codes with those of docs/CODES.md.

The notes that docs/CODES.md and the manual page of slapacl explain are compared with those that the program tells.

usage: manual.py PROGRAM
"""
import pathlib
import re
import subprocess
import sys
import tempfile

sys.path.insert(0, str(pathlib.Path(__file__).resolve().parents[1]))

from harness import checks
from harness.checks import expect
from harness.repository import ROOT

TOOLS = ["slapacl", "slapconf", "slapmodify"]


def page_of(tool):
    return (ROOT / f"share/man/man1/slapkit-{tool}.1").read_text()


def options_of(program, tool):
    """The options that the tool's help lists."""
    told = subprocess.run([program, tool, "--help"], capture_output=True, text=True, check=True, timeout=60).stdout
    return set(re.findall(r"(?:^|(?<=, )) *(--?[a-zA-Z]+)\b", told, re.M)) - {"-h", "--help"}


def the_manual_pages_have_the_options(program):
    for tool in TOOLS:
        items = re.findall(r"^\.It Fl (-?)([a-zA-Z]+)", page_of(tool), re.M)
        expect({f"-{dash}{name}" for dash, name in items} - {"-h", "--help"}, options_of(program, tool), f"options of {tool}")


def the_completions_have_the_options(program):
    for tool in TOOLS:
        for shell, options in completed(tool).items():
            expect(set(options) - {"-h", "--help"}, options_of(program, tool), f"{shell}, {tool}")


def completed(tool):
    """The options of a tool that each shell completes."""
    bash = re.findall(r'compgen -W "(-b[^"]*)"', text_of("slapkit.bash"))
    zsh = text_of("_slapkit").split(f"_slapkit_{tool}() {{")[1].split("\n}")[0]
    fish = re.findall(rf"from {tool}' -([sl]) ([a-zA-Z]+)", text_of("slapkit.fish"))
    return {
        "slapkit.bash": bash[TOOLS.index(tool)].split(),
        "_slapkit": re.findall(r"^ +'(?:\([-a-z ]+\))?(-[-a-zA-Z]+)\[", zsh, re.M),
        "slapkit.fish": [f"{'--' if kind == 'l' else '-'}{name}" for kind, name in fish],
    }


def text_of(completion):
    return (ROOT / "share/completions" / completion).read_text()


def the_manual_pages_have_the_codes(_):
    """The codes of docs/CODES.md: those of a slapd.conf and of questions are on slapacl's page, those of a site on slapconf's, all others on slapmodify's, with
    those that its -f may tell."""
    codes = set(re.findall(r"\b((?:\d+ [a-z]+[A-Z]\w*)|(?:[ALNCK]\d+ [A-Z]\w+))", (ROOT / "docs/CODES.md").read_text()))
    of_slapacl, of_slapconf = ({code for code in codes if code[0] in letters} for letters in ("AC", "K"))
    of_questions = {"A1 BadBlock", "A2 BadName", "A3 BadWord", "A4 BadAnswer", "A5 TooLong"}
    expect({code for code in codes if code.startswith("A")}, of_questions, "codes of a file of questions in docs/CODES.md")
    expect(sorted(code.split()[0] for code in of_slapconf), [f"K{n}" for n in range(1, 9)], "codes of a site's configuration in docs/CODES.md")
    of_types = {"C11 ConfigTooLong", "C12 BadType"}
    expect(of_types - codes, set(), "codes of -f that docs/CODES.md lacks")
    for tool, those in [("slapmodify", codes - of_slapacl - of_slapconf | of_types), ("slapacl", of_slapacl), ("slapconf", of_slapconf)]:
        expect(sorted(code for code in those if code not in page_of(tool)), [], f"codes that the page of {tool} lacks")


def notes_told(program):
    """Each kind of note, and the fault where there are some, as the program tells them. What a configuration or a word names stands in capitals."""
    told = []
    below = "attributetype ( 1.2.1 NAME 'below' SUP description )\n"
    rules = f"{below}include FILE\naccess to attrs=X-DESCRIPTION,DESCRIPTION filter=(objectClass=a) by * -z\ndatabase config\naccess to *\n"
    with tempfile.TemporaryDirectory() as name:
        folder = pathlib.Path(name)
        (folder / "copy").write_text("")
        for more in (rules, ""):
            (folder / "conf").write_text(f"database mdb\nsuffix dc=com\n{more}")
            (folder / "questions").write_text("dn: dc=com\nX-WORD:\n")
            for asked in (["-b", "dc=com", "X-WORD"], ["--questions", folder / "questions"]):
                words = [program, "slapacl", "--strict", "-f", folder / "conf", "--data", folder / "copy", *asked]
                told += subprocess.run(words, capture_output=True, text=True, timeout=60).stderr.splitlines()
    return {re.sub(r"^slapkit: (note: )?", "", re.sub(r"line \d+", "line N", line)).replace("X-DESCRIPTION", "DESCRIPTION").replace('"X-WORD": unknown attribute "X-WORD"', '"WORD": unknown attribute "DESCRIPTION"') for line in told}


def the_documents_have_the_notes(program):
    notes = notes_told(program)
    expect(len(notes), 10, f"kinds of notes, and the fault: {notes}")
    explained = set(re.findall(r"^\| `(config(?:, line N)?: [^`]*|(?:questions, line N: )?word \"[^`]*|not answered[^`]*)` \|", (ROOT / "docs/CODES.md").read_text(), re.M))
    expect(explained, notes, "explained by docs/CODES.md")
    items = re.findall(r"^\.It ((?:config(?:, line N)?: (?!C\d)|(?:questions, line N: )?word \"|not answered).*)", page_of("slapacl").replace("\\(dq", '"'), re.M)
    expect(set(items), notes, "explained by the manual page")


def the_documents_have_the_argument_of_a_fault(program):
    """What is told of an argument with -v, in docs/CODES.md and on the manual page of slapacl."""
    told = set()
    with tempfile.TemporaryDirectory() as name:
        folder = pathlib.Path(name)
        (folder / "copy").write_text("")
        for more in ("access to ARGUMENT\n", 'access to "ARGUMENT\n'):
            (folder / "conf").write_text(f"database mdb\nsuffix dc=com\n{more}")
            words = [program, "slapacl", "-v", "-b", "dc=com", "-f", folder / "conf", "--data", folder / "copy"]
            told |= set(subprocess.run(words, capture_output=True, text=True, timeout=60).stderr.splitlines()[1:])
    expect(told, {'slapkit: note: line 3: "ARGUMENT"', "slapkit: note: line 3: an open quote or a final backslash"}, "what is told")
    page = page_of("slapacl").replace("\\(dq", '"')
    for line in told:
        text = line.replace("line 3", "line M") if "ARGUMENT" in line else line.split("line 3: ")[1]
        for where, document in (("docs/CODES.md", (ROOT / "docs/CODES.md").read_text()), ("the manual page", page)):
            expect(text in document, True, f"{where} has {text}")


CHECKS = [
    the_manual_pages_have_the_options,
    the_completions_have_the_options,
    the_manual_pages_have_the_codes,
    the_documents_have_the_notes,
    the_documents_have_the_argument_of_a_fault,
]

sys.exit(checks.run("manual", [(check.__name__.replace("_", " "), lambda check=check: check(sys.argv[1])) for check in CHECKS]))
