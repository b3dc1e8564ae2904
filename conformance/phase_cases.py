"""Makes the cases with which `grade` tests one phase of a compiler: the input of the phase, and the text that it must write, both by the filters of bin/."""

import contextlib
import os
import re
import sys
import tempfile

from call import HERE, Refusal
from case import EXPECTED, verdict
from limited import copy

sys.path.insert(1, os.path.join(HERE, "..", "bin"))
from phase_calls import Files, cool  # noqa: E402
from phase_difference import first_difference  # noqa: E402
from phase_reading import read_tree  # noqa: E402
from phase_source import source_of  # noqa: E402
from phase_tokens import token_lines, tokens_of  # noqa: E402
from phase_trees import Trees, tree_lines  # noqa: E402

PHASES = ("lexer", "parser", "semant", "cgen")
LONGEST_STRING = 65535
# The file of the typed tree that a `cgen` is given.
TREE = b"program.tree"
# A given text may be so many times as long as the wanted one, and so many bytes more. A longer one is not read.
MOST_TIMES, MOST_MORE = 4, 1 << 20
# A line that `cool` reports for a file that has no tree.
NO_TREE = re.compile(rb"^[^\n]*:[0-9]+: (L[0-9]|S1): ", re.M)


def is_asked(phase, case):
    """Whether a phase is tested with a case: semant needs a tree, cgen a legal program."""
    if phase == "semant":
        return not NO_TREE.search(case.notes)
    if phase == "cgen":
        return case.status == 0 or (case.kind == "run" and case.status == 3)
    return True


class PhaseCase:
    """A case for one phase, in a folder of its own: the files of the program, and as `input` the text of the phase before. `wanted` is None if the phase must
    refuse that text."""

    def __init__(self, case, folder, wanted, lines):
        self.name, self.kind, self.about, self.status = case.name, case.kind, case.about, case.status
        self.folder, self.words, self.wanted, self.lines = folder, case.words[1:], wanted, lines

    def differences(self, came, _):
        """As those of a Case."""
        why = self._why(came)
        if why:
            yield why, [f"FAIL {self.name}: {why}"]

    def _why(self, came):
        found = verdict(came.status)
        if found.startswith("no verdict"):
            return f"status {came.status}"
        if self.wanted is None:
            return "accepts a program with an error" if found == "0" else None
        if found != "0":
            return f"status {came.status} instead of 0"
        size = os.fstat(came.output.fileno()).st_size
        if size > MOST_TIMES * len(self.wanted) + MOST_MORE:
            return f"a text of {size} bytes instead of {len(self.wanted)}"
        came.output.seek(0)
        return first_difference(self.wanted, came.output.read(), self.lines)


class CodeCase:
    """A case for cgen. `assembled` calls it on a file with the typed tree, and runs what it wrote; so it is judged as a whole compiler is."""

    def __init__(self, case, folder):
        self.name, self.kind, self.about, self.status = case.name, case.kind, case.about, case.status
        self.folder, self.words = folder, [case.words[0], TREE]
        self.differences = case.differences


@contextlib.contextmanager
def phase_cases(phase, cases, lines):
    """The cases of a phase, while their folders stand."""
    with tempfile.TemporaryDirectory(prefix="phases-") as top:
        try:
            found = [made(phase, case, os.path.join(top, case.name), lines) for case in cases if is_asked(phase, case)]
        except SystemExit as ended:
            raise Refusal(f"the program of this repository wrote no text for a case: status {ended.code}") from None
        yield found


def made(phase, case, folder, lines):
    """The case of a phase, whose folder is made here."""
    copy(case.folder, folder, set(EXPECTED) - ({"input"} if phase == "cgen" else set()))
    names = case.words[1:]
    with working_in(folder):
        if phase == "lexer":
            return PhaseCase(case, folder, tokens(names), lines)
        tree = tree_of(names, False)
        if phase == "parser":
            write("input", tokens(names))
            return PhaseCase(case, folder, tree, lines)
        typed = typed_tree(tree)
        write("input" if phase == "semant" else os.fsdecode(TREE), tree if phase == "semant" else typed)
        return PhaseCase(case, folder, typed, lines) if phase == "semant" else CodeCase(case, folder)


def tokens(names):
    return joined(line for name in names for line in token_lines(name, tokens_of(os.fsdecode(name), LONGEST_STRING)))


def tree_of(names, typed):
    """The tree of files, or None if one of them has none."""
    trees = Trees([os.fsdecode(name) for name in names], names, "first", typed)
    return None if trees.faults else joined(tree_lines(trees.program()))


def typed_tree(tree):
    """The typed tree of a tree, or None if the program has an error."""
    with Files(source_of(read_tree(tree), "first")) as files:
        if cool("check", files)[0]:
            return None
        return joined(tree_lines(Trees(files.paths, files.names, "first", True).program()))


def joined(lines):
    return b"".join(line + b"\n" for line in lines)


def write(path, data):
    with open(path, "wb") as file:
        file.write(data)


@contextlib.contextmanager
def working_in(folder):
    before = os.getcwd()
    os.chdir(folder)
    try:
        yield
    finally:
        os.chdir(before)
