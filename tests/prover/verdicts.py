"""What the prover said in a check: which functions it accepts, and by which goals it refuses the others.

A function has a goal for each clause of its contract where it returns, for each invariant, for what each call requires, and for each sum, index and division.
A goal's name says which it is. A refusal is of the kind CLAUSE where a goal of a clause is open, or one of an invariant, of a loop or of a type, that stands
for one; of the kind SAFETY where only other goals are; of the kind NAME where none is, but a proof file names what is no longer there. One of the last kind
says nothing of the contract. Of a goal at which the search came to one of its limits less is known: it may hold.
"""
import collections
import re

CLAUSE, SAFETY, NAME = KINDS = ("clause", "safety", "name")

# What a goal's name begins with, or ends in, that stands for a clause or an invariant. In a cycle of calls the name of its function comes before.
OF_A_CLAUSE = re.compile(r"(?:\w+-)?(?:(?:returns|invariant_of)(?:-|$)|loop-(?:.*-)?(?:init|preserved)(?:-|$))")
# What the names of all other goals have.
OF_SAFETY = re.compile(r"(?:^|-)(?:requires|smaller)(?:-|$)|(?:^|-)(?:overflow_\w+|nonzero_\w+|bounds|slice_bounds|offset_bounds|far_end)-")

# A goal that the search leaves open, and how. These lines come before that of their function.
OPEN = re.compile(r"note: \S+:\d+:\d+: .*? \(`([^`\s]+)`\)(.*)")
AT_A_LIMIT = re.compile("gave up at one of its limits|stopped at its own limit")
IS_FALSE = re.compile("allow values at which this goal is false|the goal does not follow")
# The line of a function.
FUNCTION = re.compile(r"fn (\S+): (.*)")
# An answer, an invariant or a lemma of a proof file that is refused. The text goes on in the next lines, which are indented.
ERROR = re.compile(r"(?:\./)?proofs/(\S+)\.antt:\d+:\d+: error: (.*)")
# A text that says that a name is gone.
OF_NAMES = re.compile(r"has no field|is not in scope|has no `|was not admitted|is not admitted")

Goal = collections.namedtuple("Goal", "name is_at_a_limit is_false")
Goal.__str__ = lambda goal: goal.name + " (at a limit)" * goal.is_at_a_limit + " (false at some values)" * goal.is_false
# Why a function is refused: the kind, and the goals that show it, or else the texts of what a proof file names.
Refusal = collections.namedtuple("Refusal", "kind shown")


def kind_of_goal(name):
    """The kind of a goal by its name; None where the name is that of a lemma or of an invariant's text."""
    if OF_SAFETY.search(name) and not name.startswith("returns"):
        return SAFETY
    return CLAUSE if OF_A_CLAUSE.match(name) else None


def goal_of(name, text):
    """A goal that is open, by what is told of it."""
    return Goal(name, AT_A_LIMIT.search(text) is not None, IS_FALSE.search(text) is not None)


class Said:
    """What the prover said in a check of a crate."""

    def __init__(self, text):
        self.text = text
        # of each function what its line says, and its goals that are open; the texts of errors by the file below proofs/ that has them
        self.functions, self.goals, self.errors = {}, {}, collections.defaultdict(list)
        goals, error = [], None
        for line in text.split("\n"):
            if error is not None and line.startswith("  "):
                error.append(line.strip())
                continue
            error = None
            if found := OPEN.match(line):
                goals.append(goal_of(found[1], found[2]))
            elif found := FUNCTION.match(line):
                self.functions[found[1]], self.goals[found[1]], goals = found[2], goals, []
            elif found := ERROR.match(line):
                error = [found[2]]
                self.errors[found[1]].append(error)

    @property
    def refused(self):
        """The functions that the prover refuses."""
        return [name for name, words in self.functions.items() if re.match("not proved|no proof", words)]

    @property
    def has_ended(self):
        return re.search(r"^(only=\d+ (proved|holes)=\d+|logic=(not-)?proved)", self.text, re.M) is not None

    def is_accepted(self, function):
        """Whether the prover accepts the function of this path below the crate, given what is said of those that it calls."""
        words = next((words for name, words in self.functions.items() if name.partition("::")[2] == function), "")
        return re.match("proved|no holes|depends on a hole", words) is not None

    def open_goals(self, name, folders):
        """The goals of a function that are not proved, by its full name and the folders below proofs/ that have its proof: those that the search leaves open,
        and those whose answer is refused for another reason than a name that is gone."""
        found = {goal.name: goal for goal in self.goals.get(name, [])}
        for named, text in self.errors_in(folders):
            if not OF_NAMES.search(text) and kind_of_goal(named):
                found.setdefault(named, goal_of(named, text))
        return list(found.values())

    def errors_in(self, folders):
        """Of each error in these folders what it is about, which is a goal, an invariant or a lemma, and the text."""
        for file, errors in self.errors.items():
            if file.rpartition("/")[0] in folders:
                for error in errors:
                    text = " ".join(error[:3])
                    named = re.match(r"`([^`]+)`", text)
                    yield named[1] if named else "", text

    def refusal(self, name, folders):
        """Why the prover refuses a function."""
        goals = sorted(self.open_goals(name, folders), key=lambda goal: goal.is_at_a_limit)
        for kind in (CLAUSE, SAFETY):
            shown = [goal for goal in goals if (kind_of_goal(goal.name) or SAFETY) == kind]
            if shown:
                return Refusal(kind, shown)
        return Refusal(NAME, [text for _, text in self.errors_in(folders)] or [self.functions[name]])
