#!/usr/bin/env python3
"""Measures `slapkit slapacl`: what a decision takes, by the rules that it goes through, what reading a configuration takes, and a file of questions.

A decision: R rules, each with a `by` clause that doesn't apply and one that goes on with the next rule, and a question of many words,
all of them for the same attribute. What one rule takes is what the question takes more than one of a tenth of the words, by the number
of rules that these words go through. The clauses are of each kind: a name, `dnattr` and a group of N members, whose entry has the
requester or not, a filter. Reading: a configuration of 1, 2, 4, 8 and 16 MiB, of rules or of one comment, each beside the one of half
its size. A file of questions: Q questions of one word each, about as many people of a directory of N entries (directory.py), in one run. The 100
rules have clauses of the same kinds, and each but the last goes on with the next one. What a question takes is what that run takes more than one of an
empty file of questions, which reads the same configuration and copy; with the file of answers, too. CPU time is the least of all rounds; with
--instructions it is what `valgrind --tool=callgrind` counts, which is the same in each run.

    bench/access.py [--program PATH] [--only KIND]... [--members N]... [--rules R] [--words W] [--entries N] [--questions Q] [--rounds R] [--instructions]

KIND is rules, reading or questions; without it, all three.
"""

import argparse
import os
import re
import subprocess
import sys
import tempfile

from bench import PROGRAM, run
from directory import GROUPS, PEOPLE, SUFFIX, Directory, group, line, member, operational, record

TARGET = f"uid=target,{PEOPLE}"
HEAD = f"database mdb\nsuffix {SUFFIX}\n"
MIB = 1 << 20


def milliseconds(command):
    return run(command)[0] * 1000


def instructions(command):
    """How many instructions a command takes, in thousands."""
    with tempfile.NamedTemporaryFile() as told:
        words = ["valgrind", "--tool=callgrind", f"--callgrind-out-file={told.name}"]
        ended = subprocess.run(words + command, capture_output=True, text=True)
    found = re.search(r"Collected : (\d+)", ended.stderr)
    if ended.returncode or not found:
        sys.exit(f"callgrind ended with {ended.returncode}: {ended.stderr[-200:]}")
    return int(found[1]) / 1000


def write(folder, name, data):
    path = os.path.join(folder, name)
    with open(path, "wb") as f:
        f.write(data)
    return path


def copy_text(members):
    """A directory with one person, managed by the last member of its group."""
    last = member(members - 1)
    entries = [
        (SUFFIX, [("objectClass", "domain"), ("dc", "example")], "domain"),
        (GROUPS, [("objectClass", "organizationalUnit"), ("ou", "groups")], "organizationalUnit"),
        (PEOPLE, [("objectClass", "organizationalUnit"), ("ou", "people")], "organizationalUnit"),
        (TARGET, [("objectClass", "person"), ("uid", "target"), ("cn", "Target"), ("sn", "T"), ("manager", last)], "person"),
        (f"cn=all,{GROUPS}", group("all", map(member, range(members))), "groupOfNames"),
    ]
    return b"".join(record(dn, lines + operational(n, of_class)) for n, (dn, lines, of_class) in enumerate(entries))


def rules(who, count, what="*"):
    return f"access to {what} by {who} =w by * break\n" * count + "access to * by * read\n"


def ask(program, conf, copy, requester, words):
    return [program, "slapacl", "-b", TARGET, "-f", conf, "--data", copy, "-D", requester, *["cn/read"] * words]


def measure_rules(args, measure, unit, folder, members):
    copy = write(folder, "copy.ldif", copy_text(members))
    outside, inside = f"uid=nobody,{PEOPLE}", member(members // 2)
    all_group = f'group="cn=all,{GROUPS}"'
    kinds = [
        ("a name", f'dn="uid=other,{PEOPLE}"', "*", outside),
        ("dnattr", "dnattr=manager", "*", outside),
        (f"a group of {members}, no member", all_group, "*", outside),
        (f"a group of {members}, a member", f'{all_group} dn="uid=other,{PEOPLE}"', "*", inside),
        ("a filter", "anonymous", "filter=(&(objectClass=person)(!(cn=targ*t)))", outside),
    ]
    for name, who, what, requester in kinds:
        conf = write(folder, "slapd.conf", (HEAD + rules(who, args.rules, what)).encode())
        few, many = max(1, args.words // 10), args.words
        costs = [min(measure(ask(args.program, conf, copy, requester, words)) for _ in range(args.rounds)) for words in (few, many)]
        each = (costs[1] - costs[0]) / ((many - few) * (args.rules + 1))
        print(f"{name}: {each * 1000:.3f} {unit} a rule", flush=True)


def measure_reading(args, measure, unit, folder):
    copy = write(folder, "small.ldif", copy_text(10))
    rule = f'access to dn.subtree="ou=d,{SUFFIX}" attrs=cn,sn filter=(cn=a*) by group="cn=all,{GROUPS}" write by * read\n'
    kinds = [("rules", lambda size: rule * ((size - len(HEAD)) // len(rule))), ("one comment", lambda size: "#" * (size - len(HEAD)))]
    for name, text in kinds:
        last = None
        for size in (MIB, 2 * MIB, 4 * MIB, 8 * MIB, 16 * MIB):
            conf = write(folder, "large.conf", (HEAD + text(size)).encode())
            cost = min(measure(ask(args.program, conf, copy, member(1), 1)) for _ in range(args.rounds))
            ratio = f", {cost / last:.2f} times the half of it" if last else ""
            print(f"a configuration of {size // MIB} MiB, {name}: {cost:.0f} {unit}{ratio}", flush=True)
            last = cost


RULES_OF_QUESTIONS = 100


def rules_of_questions(directory):
    """Rules of each kind in turn, none of which decides, and one that does."""
    kinds = [
        rules(f'dn="uid=other,{PEOPLE}"', 1),
        rules("dnattr=manager", 1),
        rules(f'group="{directory.group_dn(0)}"', 1),
        rules("anonymous", 1, "filter=(&(sn=*)(!(cn=targ*t)))"),
    ]
    each = [kind.split("access to * by * read\n")[0] for kind in kinds]
    return "".join(each[n % len(each)] for n in range(RULES_OF_QUESTIONS - 1)) + "access to * by * read\n"


def questions_text(directory, count):
    """So many questions, each of another requester, who is in no group, about another person, as long as there are some."""
    names = ((member(n), directory.dn(n % directory.people)) for n in range(count))
    return b"".join(line("authcDN", requester) + line("dn", target) + b"cn/read:\n\n" for requester, target in names)


def ask_questions(args, conf, copy, questions, answers=None):
    command = [args.program, "slapacl", "-f", conf, "--data", copy, "--questions", questions]
    if answers is None:
        return command
    if os.path.exists(answers):
        os.remove(answers)
    return [*command, "--answers", answers]


def measure_questions(args, measure, unit, small, folder):
    directory, copy, answers = Directory(args.entries), os.path.join(folder, "people.ldif"), os.path.join(folder, "answers.ldif")
    directory.write(copy)
    conf = write(folder, "rules.conf", (HEAD + rules_of_questions(directory)).encode())
    none, all_of_them = write(folder, "none.ldif", b""), write(folder, "questions.ldif", questions_text(directory, args.questions))
    ways = {"reading alone": (none, None), "with questions": (all_of_them, None), "and their answers": (all_of_them, answers)}
    # the runs take turns, since the speed of a virtual machine changes
    costs = [{way: measure(ask_questions(args, conf, copy, *texts)) for way, texts in ways.items()} for _ in range(args.rounds)]
    least = {way: min(cost[way] for cost in costs) for way in ways}
    reading = least["reading alone"]
    print(f"a copy of {args.entries} entries, and {RULES_OF_QUESTIONS} rules: {reading:.0f} {unit}", flush=True)
    for way in ("with questions", "and their answers"):
        each = (least[way] - reading) / args.questions
        print(f"{args.questions} questions, {way}: {least[way]:.0f} {unit}, {least[way] / reading:.2f} times as much; {each * 1000:.3f} {small} a question", flush=True)


def main():
    parser = argparse.ArgumentParser(description="Measures slapkit slapacl.")
    parser.add_argument("--program", default=PROGRAM)
    parser.add_argument("--only", choices=("rules", "reading", "questions"), action="append")
    parser.add_argument("--entries", type=int, default=100_000)
    parser.add_argument("--questions", type=int, default=10_000)
    parser.add_argument("--members", type=int, action="append")
    parser.add_argument("--rules", type=int, default=1000)
    parser.add_argument("--words", type=int, default=1000)
    parser.add_argument("--rounds", type=int, default=3)
    parser.add_argument("--instructions", action="store_true")
    args = parser.parse_args()
    measure, unit, small = (instructions, "thousand instructions", "instructions") if args.instructions else (milliseconds, "ms", "µs")
    if args.instructions:
        args.rounds = 1
    with tempfile.TemporaryDirectory() as folder:
        kinds = args.only or ("rules", "reading", "questions")
        for members in (args.members or [100, 100_000]) if "rules" in kinds else []:
            measure_rules(args, measure, small, folder, members)
        if "reading" in kinds:
            measure_reading(args, measure, unit, folder)
        if "questions" in kinds:
            measure_questions(args, measure, unit, small, folder)


main()
