"""Makes mutants (wrong compilers) of the small compiler: loads its modules with one edit."""

import importlib
import os
import sys
import types

from edits import EDITS

HERE = os.path.dirname(os.path.realpath(__file__))


def text_of(module):
    with open(os.path.join(HERE, module + ".py"), encoding="utf-8") as file:
        return file.read()


def edited(edit):
    """The text of the edited module. The old text stands there exactly once."""
    text = text_of(edit.file)
    if text.count(edit.old) != 1:
        raise ValueError(f"{edit.name}: the old text stands {text.count(edit.old)} times in {edit.file}.py")
    return text.replace(edit.old, edit.new)


def load(name):
    """The module `small` of the mutant of a name, in this process, which has loaded no other."""
    sys.path.insert(0, HERE)
    for edit in EDITS:
        if edit.name == name:
            module = types.ModuleType(edit.file)
            sys.modules[edit.file] = module
            exec(compile(edited(edit), edit.file + ".py", "exec"), module.__dict__)
    return importlib.import_module("small")
