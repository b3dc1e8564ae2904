"""Reads rules.txt, the list of rules for which points are given, with the test cases of each rule and its phase of the compiler."""

import collections
import fnmatch
import os

from call import HERE, Refusal

PHASES = ("lexis", "syntax", "classes", "typing", "code")
Rule = collections.namedtuple("Rule", "phase name cases")


def rules(names):
    """The rules, in order, with the cases of these names. Each case belongs to at least one rule, and each rule has a case."""
    path, found, told = os.path.join(HERE, "rules.txt"), [], set()
    with open(path, encoding="utf-8") as file:
        lines = [line for line in file.read().splitlines() if line and line[0] != "#"]
    for line in lines:
        phase, name, patterns = (line.split(": ") + ["", ""])[:3]
        cases = [case for case in names if any(fnmatch.fnmatchcase(case, pattern) for pattern in patterns.split())]
        if phase not in PHASES or not cases:
            raise Refusal(f"{path}: this line is not `PHASE: NAME: CASES`, or there are no such cases: {line}")
        found.append(Rule(phase, name, cases))
        told.update(cases)
    for name in names:
        if name not in told:
            raise Refusal(f"the case {name} has no rule: name it in a line of {path}")
    return found
