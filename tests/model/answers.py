"""What a run of `slapkit slapmodify` must answer: of any copy and any changes, by the reader of ldif.py and the operations of directory.py."""
import dataclasses

from model import definitions, ldif, names
from model.directory import CODES, Directory, Refused
from model.texts import undone


@dataclasses.dataclass
class Answer:
    """An exit status, what goes to standard output and to standard error, and the two files, if they are written."""

    status: int
    report: str
    message: str
    new: str | None
    undo: str | None


class Fault(Exception):
    """The text of a fault that ends a run."""


def suffix_key(text):
    """The key of a suffix, which has an RDN."""
    try:
        key = names.checked_name_key(names.read_name(text))
    except names.NameFault:
        key = ()
    if not key:
        raise Fault("bad question: suffix")
    return key


def directory_of(suffix, text):
    """The directory of a copy, whose records may come in any order."""
    directory, places = Directory(suffix), []
    try:
        for number, record in ldif.records(text):
            places.append((number, put_record(directory, number, record)))
    except ldif.StreamFault as fault:
        raise Fault(f"copy, line 0: {fault}") from None
    for number, key in places:
        if key != suffix and key[:-1] not in directory.entries:
            raise Fault(f"copy, line {number}: {CODES[32]}")
    return directory


def put_record(directory, number, record):
    """The place to which an entry of a copy comes."""
    if isinstance(record, ldif.RecordFault):
        raise Fault(f"copy, line {number}: {record}")
    if not isinstance(record, ldif.Content):
        raise Fault(f"copy, line {number}: {ldif.BAD_CHANGETYPE}")
    key = names.name_key(record.dn)
    try:
        directory.check_place(key)
        directory.put(key, record.dn, record.lines)
    except Refused as refused:
        raise Fault(f"copy, line {number}: {CODES[refused.code]}") from None
    return key


@dataclasses.dataclass
class Run:
    """A run of changes as it goes."""

    directory: Directory
    report: str = ""
    groups: list = dataclasses.field(default_factory=list)
    refused: int = 0

    def make(self, number, record, is_verbose):
        """Makes a change, or refuses it."""
        cause = self.cause_of(record)
        if cause:
            self.refused += 1
            self.report += f"line {number}: refused, {cause}\n"
        elif is_verbose:
            self.report += f"line {number}: accepted\n"

    def cause_of(self, record):
        """Why a record is refused, if it is."""
        if isinstance(record, ldif.RecordFault):
            return str(record)
        if isinstance(record, ldif.Content):
            return ldif.BAD_CHANGETYPE
        try:
            self.groups.append(self.directory.apply(record))
        except Refused as refused:
            return CODES[refused.code]
        return None

    def undo_text(self):
        return undone(*("".join(change.text(names.printed_name) for change in group) for group in reversed(self.groups)))


def answer(suffix, copy, changes, goes_on=False, is_verbose=False, config=b"", last=None):
    """What a run on these texts must answer, with the types that a configuration defines. With a number the run is of the first groups
    of the changes, so many."""
    try:
        table = definitions.table_of(config)
    except definitions.ConfigFault as fault:
        return Answer(1, "", f"slapkit: {fault}\n", None, None)
    with names.types_of(table):
        return answer_under_types(suffix, copy, changes, goes_on, is_verbose, last)


def answer_under_types(suffix, copy, changes, goes_on, is_verbose, last):
    groups = None if last is None else ldif.Groups(last)
    try:
        run = Run(directory_of(suffix_key(suffix), copy))
        for number, record in ldif.records(changes, groups):
            run.make(number, record, is_verbose)
            if run.refused and not goes_on:
                break
        else:
            if groups and groups.met < last:
                raise Fault(f"cannot go back {last}, only {groups.met} groups")
    except ldif.StreamFault as fault:
        return Answer(1, "", f"slapkit: changes: {fault}\n", None, None)
    except Fault as fault:
        return Answer(1, "", f"slapkit: {fault}\n", None, None)
    report = f"{run.report}accepted {len(run.groups)}, refused {run.refused}\n"
    return Answer(1 if run.refused else 0, report, "", run.directory.text(), run.undo_text())
