"""Computes the points of a student's compiler by rule and phase, and writes the text for the student about the rules that it fails."""

import fnmatch
import os

from graded import column, graded_cases
from rules import Rule, rules

# The number of cases of a rule that are shown with their programs, and of lines of a program.
MOST_CASES, MOST_LINES = 3, 40
NOT_SHOWN = "a case that is not shown"
# The status of `assembled` that says nothing about a program.
NO_VERDICT = "status 126 "
WHY_NOT = "\n  (126: the code could not be loaded, trapped or did not end, or the compiler could not be called)"
# The program of a case, by its column.
WHAT_IT_IS = {
    "accepts": "this program is legal",
    "refuses": "this program has an error",
    "runs": "this program runs to its end",
    "fails": "this program ends by a run-time error",
}


class Points:
    """The points, from the result of each case by its name (why it failed, and the lines that show it) and the points of each phase."""

    def __init__(self, came, cases, phases, hidden):
        self.came, self.cases, self.hidden = came, cases, hidden
        self.phases = {phase: most for phase, most in phases.items() if most}
        # A table of one phase has only some of the graded cases.
        found = [rule._replace(cases=[name for name in rule.cases if name in cases]) for rule in rules([case.name for case in graded_cases()])]
        self.rules = [rule for rule in found if rule.cases and rule.phase in self.phases]

    def failed(self, rule):
        return [name for name in rule.cases if self.came[name][0]]

    def _part(self, phase):
        """How many rules a phase has that are passed, and how many it has."""
        of_phase = [rule for rule in self.rules if rule.phase == phase]
        return sum(not self.failed(rule) for rule in of_phase), len(of_phase)

    def of_rule(self, rule):
        return round(self.phases[rule.phase] / self._part(rule.phase)[1], 4)

    def of_phase(self, phase):
        passed, count = self._part(phase)
        return round(self.phases[phase] * passed / count, 2)

    def score(self):
        return round(sum(self.phases[phase] * passed / count for phase in self.phases for passed, count in [self._part(phase)]), 2)

    def is_hidden(self, name):
        return fnmatch.fnmatchcase(name, self.hidden)

    def has_hidden(self, rule):
        return any(map(self.is_hidden, rule.cases))

    def named(self, names):
        """Which cases failed and why, on one line. Hidden cases are only counted."""
        shown = [f"{name} ({self.came[name][0]})" for name in names if not self.is_hidden(name)]
        count = len(names) - len(shown)
        return ", ".join(shown + [NOT_SHOWN if count == 1 else f"{count} cases that are not shown"] * bool(count))

    def told(self, names):
        """The same in lines, with the first cases: what they show, where the result differs, and their programs."""
        shown = [name for name in names if not self.is_hidden(name)]
        pieces = [self._shown(name) for name in shown[:MOST_CASES]]
        others = [name for name in names if name not in shown[:MOST_CASES]]
        return "\n\n".join(pieces + [f"also failed: {self.named(others)}"] * bool(others))

    def _shown(self, name):
        why, lines = self.came[name]
        case = self.cases[name]
        texts = [self._program(case, os.fsdecode(word)) for word in case.words[1:]]
        more = WHY_NOT if why.startswith(NO_VERDICT) else ""
        return "\n".join([f"{name}: {WHAT_IT_IS[column(case)]}: {why}{more}", case.about, *lines, *texts])

    def _program(self, case, file):
        """The first lines of a file of a case, if it can be read, below its name. Invisible bytes are written as `\\x00`."""
        path = os.path.join(case.folder, file)
        if not os.path.isfile(path):
            return f"{file}: there is no such file"
        with open(path, encoding="latin-1", newline="\n") as text:
            lines = text.read(1 << 16).split("\n")
        rest = [f"({len(lines) - MOST_LINES} lines more)"] if len(lines) > MOST_LINES else []
        seen = ("".join(c if " " <= c <= "~" or c == "\t" else f"\\x{ord(c):02x}" for c in line[:160]) for line in lines[:MOST_LINES])
        return "\n".join([f"--- {file}", *seen, *rest])


class PointsOfTests(Points):
    """The points for tests that a student wrote, from rows of `mutation-score`: each wrong compiler is a rule, which is passed if a test finds it."""

    def __init__(self, rows, phase_of, phases, hidden):
        self.hidden, self.phases = hidden, {phase: most for phase, most in phases.items() if most}
        self.came = {name: ("" if count else "no test finds it", []) for name, _, count, _ in rows}
        self.wrong = {name: f"a compiler that {wrong} (manual {section})" for name, section, _, wrong in rows}
        self.rules = [Rule(phase_of[name], name, [name]) for name, *_ in rows if phase_of[name] in self.phases]

    def told(self, names):
        return "\n".join(f"no test finds {'one that is not shown' if self.is_hidden(name) else self.wrong[name]}" for name in names)
