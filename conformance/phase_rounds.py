"""Tests that a Cool program stays the same when it is converted to a syntax tree in the text format of courses and back."""

import os
import sys

from call import HERE

sys.path.insert(1, os.path.join(HERE, "..", "bin"))
from phase_calls import Files, cool  # noqa: E402
from phase_difference import first_difference  # noqa: E402
from phase_reading import read_tree  # noqa: E402
from phase_source import source_of  # noqa: E402
from phase_trees import Trees, tree_lines  # noqa: E402

# Lines at which `cool` reports errors: with these, the assembly has the same lines, too.
LINES = "mark"


def rounds(programs):
    """For each program that has a tree its name, and what differs in the end, or None."""
    for name, files in programs:
        with Files(files) as written:
            tree = tree_of(written)
            status, code, _ = cool("asm", written) if tree else (1, b"", b"")
        if tree and read_tree(tree).items:
            yield name, difference(tree, status, code)


def difference(tree, status, code):
    back = source_of(read_tree(tree), LINES)
    with Files(back) as written:
        again = tree_of(written)
        if again != tree:
            return first_difference(tree, again or b"", True) or "another layout of the tree"
        status_again, code_again, _ = cool("asm", written)
    if status_again != status:
        return f"status {status_again} instead of {status} of cool asm"
    return "another assembly" if status == 0 and code_again != code else None


def tree_of(files):
    """The text of the tree of Files, or None if one of them has none."""
    trees = Trees(files.paths, files.names, LINES, False)
    return None if trees.faults else b"".join(line + b"\n" for line in tree_lines(trees.program()))
