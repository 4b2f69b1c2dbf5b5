"""What `slapkit slapacl --questions` must answer: the blocks of a file of questions by ldif.py, their answers by access.py.

It is written from docs/DEFINITIONS.md and docs/CODES.md.
"""
import dataclasses
import itertools

from model import access, answers, definitions, ldif, names, texts
from model.answers import Fault
from model.names import NameFault, as_bytes, as_text

MOST_BYTES_OF_QUESTIONS = 16_777_216
BAD_BLOCK, BAD_NAME, BAD_WORD, BAD_ANSWER, TOO_LONG = "A1 BadBlock", "A2 BadName", "A3 BadWord", "A4 BadAnswer", "A5 TooLong"
NO_SUCH_ENTRY, VERDICTS = "no such entry", ("ALLOWED", "DENIED")
# each set of privileges has one text
SETS = {access.shown(set(letters)) for size in range(len(access.ALL) + 1) for letters in itertools.combinations(access.ALL, size)}


@dataclasses.dataclass
class Name:
    text: str
    rdns: list
    key: tuple


@dataclasses.dataclass
class Word:
    """A word with the number of its line, and the answer that is expected; that is empty where the word is only asked for."""

    line: int
    text: str
    expected: str


@dataclasses.dataclass
class Block:
    requester: Name | None
    is_fake: bool
    base: Name
    words: list

    def question(self):
        """The same as one question of slapacl."""
        requester = self.requester.text if self.requester else None
        return access.Question(self.base.text, requester, tuple(word.text for word in self.words), self.is_fake)


# ---- what a file asks


def at(number, cause):
    return Fault(f"questions, line {number}: {cause}")


def pair_at(line):
    try:
        pair = ldif.pair_of(line)
    except ldif.RecordFault as fault:
        raise at(line.number, fault) from None
    return as_bytes(pair.name), pair.value


def optional_line(keyword, lines):
    """The number and the value of the first line, if it has this name, and the lines that are left."""
    if lines:
        name, value = pair_at(lines[0])
        if name.lower() == keyword:
            return (lines[0].number, value), lines[1:]
    return None, lines


def name_at(number, value):
    try:
        rdns = names.read_name(value)
        return Name(as_text(value), rdns, names.checked_name_key(rdns))
    except NameFault:
        raise at(number, BAD_NAME) from None


def word_at(line):
    name, value = pair_at(line)
    if name.lower() in (b"authcdn", b"fake", b"dn"):
        raise at(line.number, BAD_BLOCK)
    try:
        _, _, level = access.word_asked(1, as_text(name))
    except Fault:
        raise at(line.number, BAD_WORD) from None
    expected = as_text(value)
    if expected not in ("", NO_SUCH_ENTRY) and expected not in (SETS if level is None else VERDICTS):
        raise at(line.number, BAD_ANSWER)
    return Word(line.number, as_text(name), expected)


def block_of(lines):
    begin, requester = lines[0].number, None
    who, lines = optional_line(b"authcdn", lines)
    if who and who[1].lower() not in (b"", b"anonymous"):
        requester = name_at(*who)
    fake, lines = optional_line(b"fake", lines)
    if fake and fake[1].lower() != b"true":
        raise at(fake[0], BAD_BLOCK)
    target, lines = optional_line(b"dn", lines)
    if not target:
        raise at(lines[0].number if lines else begin, BAD_BLOCK)
    base = name_at(*target)
    if not lines:
        raise at(begin, BAD_BLOCK)
    return Block(requester, bool(fake), base, [word_at(line) for line in lines])


def blocks_of(text):
    """What the blocks of a text ask, or its first fault."""
    if len(text) > MOST_BYTES_OF_QUESTIONS:
        raise Fault(f"questions: {TOO_LONG}")
    try:
        blocks = list(ldif.blocks(text))
    except ldif.StreamFault as fault:
        raise Fault(f"questions: {fault}") from None
    return [block_of(lines) for lines in blocks]


# ---- the answers


@dataclasses.dataclass
class Suite:
    """What a run ends with: its status, its report, what goes to standard error, and the file of answers, if it is written."""

    status: int
    report: str
    message: str
    answers: str | None = None


def answers_to(config, directory, block):
    """The answers to the words of a block, in their order."""
    entry, suffix = directory.entries.get(block.base.key), config.suffix
    if block.base.key[: len(suffix)] != suffix or entry is None and not block.is_fake:
        return [NO_SUCH_ENTRY] * len(block.words)
    attributes, requester = {} if block.is_fake else entry.attributes, block.requester and block.requester.key or None
    found = []
    for number, word in enumerate(block.words, 1):
        asked, text, level = access.word_asked(number, word.text)
        request = access.Request(requester, block.base.key, attributes, asked, directory)
        found.append(access.told(config, request, text, level).split(": ", 1)[1].removesuffix("\n"))
    return found


def line_of(word, answer, is_verbose):
    """The line of a word in the report, which has none in some reports."""
    line = f"line {word.line}: {word.text}: {answer}"
    if word.expected not in ("", answer):
        return f"{line}, expected {word.expected}\n"
    return (f"{line}, as expected\n" if word.expected else f"{line}\n") if is_verbose else ""


def written(block, found):
    """A block with its answers."""
    lines = [("authcDN", names.printed_name(block.requester.rdns))] if block.requester else []
    lines += [("fake", "true")] if block.is_fake else []
    lines.append(("dn", names.printed_name(block.base.rdns)))
    return texts.block(*lines, *((word.text, answer) for word, answer in zip(block.words, found, strict=True)))


def notes_on(blocks):
    """What is told of the words, in their order: each note as one on a word of a command line, but with its line."""
    return "".join(
        access.note_on_word(word.text).replace("note: word", f"note: questions, line {word.line}: word", 1) for block in blocks for word in block.words
    )


def answer_of(config, blocks, copy, is_verbose):
    """The status, the report and the file of answers, or a fault of the copy."""
    directory = answers.directory_of(config.suffix, copy)
    report, file, as_expected, otherwise, asked = "", "", 0, 0, 0
    for block in blocks:
        found = answers_to(config, directory, block)
        for word, answer in zip(block.words, found, strict=True):
            asked += not word.expected
            as_expected += word.expected == answer
            otherwise += word.expected not in ("", answer)
            report += line_of(word, answer, is_verbose)
        file += written(block, found)
    return int(otherwise > 0), f"{report}as expected {as_expected}, otherwise {otherwise}, asked {asked}\n", file


def suite_answer(data, questions, copy, *, is_verbose=False, is_strict=False):
    """What a run over these texts ends with, which writes a file of answers: under the types that the configuration defines."""
    try:
        table = definitions.table_of(data)
    except definitions.ConfigFault as fault:
        return Suite(1, "", f"slapkit: {fault}\n")
    notes = ""
    with names.types_of(table):
        try:
            config = access.read_config(data)
            blocks = blocks_of(questions)
            notes = access.notes_of(data) + notes_on(blocks)
            if is_strict and notes:
                raise Fault(access.HAS_NOTES)
            status, report, file = answer_of(config, blocks, copy, is_verbose)
            return Suite(status, report, notes, file)
        except access.ConfigFault as fault:
            return Suite(1, "", f"slapkit: {fault}\n{fault.told if is_verbose else ''}")
        except Fault as fault:
            return Suite(1, "", f"{notes}slapkit: {fault}\n")
