"""Tests whether the expected texts of the phases detect the mistake in each wrong compiler of mutants/, as `grade` would detect it in that of a student."""

import multiprocessing
import os

from edits import EDITS
from graded import graded_cases
from mutating import load
from phase_cases import LONGEST_STRING, joined
from phase_difference import first_difference
from phase_tokens import token_lines, tokens_of
from phase_trees import NO_TYPE, Trees, tree_lines
from scoring import begin

MODULES = {"lexer": ["lexing"], "parser": ["parsing"], "semant": ["typing_rules", "classes"]}
UNKNOWN = b": ?"
OF_PROCESS = {}


class Wanted:
    """A graded case with what each phase of the reference writes for it, without the numbers of lines; None if it refuses the program."""

    def __init__(self, case):
        self.name, names = case.name, [os.fsdecode(word) for word in case.words[1:]]
        paths = [os.path.join(case.folder, name) for name in names]
        self.files = [(name, open(path, "rb").read().decode("latin-1")) for name, path in zip(names, paths)]
        lexed = [line for name, path in zip(names, paths) for line in token_lines(os.fsencode(name), tokens_of(path, LONGEST_STRING), False)]
        trees = Trees(paths, list(map(os.fsencode, names)), "first", True)
        typed = None if trees.faults else tree_lines(trees.program(), False)
        untyped = typed and [line if line.lstrip()[:2] != b": " else line[: line.index(b":")] + b": " + NO_TYPE for line in typed]
        # A legal program has an expression, the body of main.
        types = {line.strip() for line in typed or [] if line.lstrip()[:2] == b": "} - {b": " + NO_TYPE}
        is_typed = types and UNKNOWN not in types
        self.texts = {"lexer": joined(lexed), "parser": untyped and joined(untyped), "semant": joined(typed) if is_typed else None}


def wrong_phases(count):
    """For each phase of a mutant, and of the small compiler: the phase, the name, whether the result is right, a case that finds it, the first difference."""
    OF_PROCESS["cases"] = list(map(Wanted, graded_cases()))
    asked = [(phase, name) for phase, modules in MODULES.items() for name in ["none", *names(modules, count)]]
    with multiprocessing.get_context("fork").Pool(2, begin, maxtasksperchild=1) as pool:
        for (phase, name), found in zip(asked, pool.imap(finder, asked, 1)):
            yield phase, name, (found is None) == (name == "none"), *(found or ("-", "no difference"))


def names(modules, count):
    found = [edit.name for module in modules for edit in EDITS if edit.file == module]
    return found[:count]


def finder(asked):
    """The first case that finds a phase, and the first difference, or None."""
    found = []
    load(asked[1]).deep(lambda: found.append(first_finder(asked[0])))
    return found[0]


def first_finder(phase):
    from phase_texts import text_of

    for case in OF_PROCESS["cases"]:
        why = difference(text_of, phase, case)
        if why:
            return case.name, why
    return None


def difference(text_of, phase, case):
    wanted = case.texts[phase]
    try:
        given = text_of(phase, case.files, False)
    except Exception:
        # A phase that breaks refuses the program.
        return None if wanted is None else "refuses a program without an error"
    if wanted is None:
        return "accepts a program with an error"
    return None if given == wanted else first_difference(wanted, given, False)
