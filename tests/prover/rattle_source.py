"""Reads Rattle sources, as `rt fmt` lays them out: which functions a file has, where each begins and ends, and by which path the prover names it.

What is code is told from comments, quoted texts, contracts and ghost items, so that a brace in one of these is none of a body. Lines are counted from 0.
"""
import bisect
import dataclasses
import functools
import pathlib
import re

from harness.checks import Wrong

# Comments, quoted texts, and items that only bring names.
NO_CODE = re.compile(r"//[^\n]*|b?\"(?:[^\"\\]|\\[\s\S])*\"|b?'(?:[^'\\\n]|\\.)'|\bghost use [^;]*;|\buse [^;]*;")
# What comes before the block of a clause, and before that of a ghost item.
GHOSTS = (re.compile(r"\b(?:ensures|requires)\b[^{;]*(?=\{)"), re.compile(r"\bghost \w+[^{;]*(?=\{)"))
TESTS = re.compile(r"#\[cfg\(test\)\]\s*mod \w+\s*(?=\{)")
BRACKET = re.compile(r"[({\[\])}]")
# What a signature ends at, or what is passed over in it.
AFTER_A_SIGNATURE = re.compile(r"[(\[{;]")
# The line at the margin that an item begins with.
ITEM = re.compile(r"(?!where\b)[a-z]")


def blank(text):
    """Spaces in the text's place; its line ends stay."""
    return re.sub(r"[^\n]", " ", text)


def closed(code, at):
    """The index after the bracket that closes the one at this index."""
    depth = 0
    for found in BRACKET.finditer(code, at):
        depth += 1 if found[0] in "({[" else -1
        if depth == 0:
            return found.end()
    raise Wrong(f"nothing closes {code[at : at + 40]!r}")


def without_blocks(code, head):
    """The code without what begins so, and without the block after it."""
    at = 0
    while found := head.search(code, at):
        at = closed(code, found.end())
        code = code[: found.start()] + blank(code[found.start() : at]) + code[at:]
    return code


def code_of(text):
    """The text without comments, quoted texts, contracts and ghost items. What is left is where it was."""
    return functools.reduce(without_blocks, GHOSTS, NO_CODE.sub(lambda found: blank(found[0]), text))


@dataclasses.dataclass(frozen=True)
class Function:
    """A function of a file."""

    name: str
    # the text from `fn` up to the body, with the contract
    signature: str
    # the lines from that of `fn` to that of the last brace
    lines: range
    # where the body is in the text, with its braces, and the lines of these; none where the function is only declared
    body: tuple[int, int] | None
    braces: tuple[int, int] | None
    # where the function isn't at the margin, the line before it that is, up to a brace: the header of its impl or trait
    header: str | None
    # whether it is in a module of tests
    is_of_tests: bool

    @property
    def is_inherent(self):
        """Whether it is in an impl of no trait, or in none."""
        return not self.header or self.header.startswith("impl") and " for " not in self.header


class Source:
    """The text of a file, and its functions in the order in which they begin."""

    def __init__(self, text):
        self.text, self.lines = text, text.split("\n")

    @functools.cached_property
    def code(self):
        return code_of(self.text)

    @functools.cached_property
    def functions(self):
        tests = [range(found.start(), closed(self.code, found.end())) for found in TESTS.finditer(self.code)]
        return [self.function(found, tests) for found in re.finditer(r"\bfn (\w+)", self.code)]

    @functools.cached_property
    def begins(self):
        """Where each line begins."""
        return [0, *(found.end() for found in re.finditer("\n", self.text))]

    @functools.cached_property
    def items(self):
        """The lines at the margin that items begin with."""
        return [number for number, line in enumerate(self.lines) if ITEM.match(line)]

    def line_of(self, at):
        """The line of an index of the text."""
        return bisect.bisect(self.begins, at) - 1

    def function(self, head, tests):
        line, end = self.line_of(head.start()), self.end_of_signature(head.end())
        body = (end, closed(self.code, end)) if self.code[end] == "{" else None
        braces = body and (self.line_of(body[0]), self.line_of(body[1] - 1))
        lines = range(line, (braces[1] if braces else self.line_of(end)) + 1)
        is_of_tests = any(head.start() in those for those in tests)
        return Function(head[1], self.text[head.start() : end], lines, body, braces, self.header_before(line), is_of_tests)

    def end_of_signature(self, at):
        """Where the body begins, or the semicolon is."""
        while found := AFTER_A_SIGNATURE.search(self.code, at):
            if found[0] in "{;":
                return found.start()
            at = closed(self.code, found.start())
        raise Wrong(f"a signature without end: {self.code[at : at + 40]!r}")

    def header_before(self, line):
        """The header of what a line is in; None where it is at the margin."""
        item = bisect.bisect(self.items, line) - 1
        if item < 0 or not self.lines[line].startswith(" "):
            return None
        begin = self.items[item]
        return " ".join(self.lines[begin : begin + 4]).split("{")[0]

    def function_at(self, line):
        """The function in which a line is, or else the one before it, if there is one."""
        return next((it for it in reversed(self.functions) if it.lines[0] <= line), None)

    def text_of(self, function):
        """The lines of a function."""
        return "\n".join(self.lines[number] for number in function.lines)


@functools.cache
def source_of(path):
    """A source file as it stands. Another file, as one of definitions, has no functions."""
    return Source(path.read_text() if path.suffix == ".rt" else "")


# ---- how the prover names functions


def module_of(file):
    """The path of a source file's module below its crate: `history` of src/history.rt, nothing of src/lib.rt."""
    names = list(pathlib.PurePath(file).with_suffix("").parts[1:])
    return names[:-1] if names[-1] in ("lib", "main", "mod") else names


def owner_of(header):
    """How the prover names the methods of an impl: by their type, or by the type, the trait and its types. Of a reference to whatever has the trait it has
    the kind of reference alone."""
    header = re.sub(r"'\w+,? ?|\w+::", "", header).strip()
    name = re.match(r"impl(?:<.*?>)? (.*?)(?: where .*)?$", header)[1]
    trait, _, of = name.rpartition(" for ")
    if reference := re.match(r"&(mut )?\w+$", of):
        of = "RefMut" if reference[1] else "Ref"
    return "".join(re.findall(r"\w+", re.sub(r"<.*", "", of) + trait if trait else re.sub(r"<.*", "", of)))


def module_of_type(home, name):
    """The path of the module below a crate that declares a type, and None where none does."""
    declares = re.compile(rf"^(?:pub(?:\(\w+\))? )?(?:struct|enum) {name}\b", re.M)
    return next((module_of(file.relative_to(home)) for file in sorted((home / "src").rglob("*.rt")) if declares.search(source_of(file).text)), None)


def path_of(home, file, line):
    """The path below its crate of the function that has a line of a source file, and None where none has it. A method of an impl of no trait has that of its type,
    and one with a body in its trait that of the trait."""
    source = source_of(file)
    function = source.function_at(line)
    if function is None or line not in function.lines:
        return None
    module, header, owner = module_of(file.relative_to(home)), function.header or "", []
    if header.startswith("impl"):
        owner = [owner_of(header)]
        if function.is_inherent and not re.search(rf"\b(struct|enum) {owner[0]}\b", source.text):
            module = module_of_type(home, owner[0]) or module
    elif trait := re.search(r"\btrait (\w+)", header):
        owner = [trait[1]]
    return "::".join([*module, *owner, function.name])
