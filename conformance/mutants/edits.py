"""Reads edits.txt: each edit of the small compiler makes one mutant, with one mistake that authors of compilers for Cool make.

A block of lines in edits.txt is a mutant: its name, the section of the Cool manual whose rule it breaks, what is wrong with it, a file; and text that
stands there once, by lines with `-`, in whose place comes that of the lines with `+`.
"""

import os
from typing import NamedTuple

PATH = os.path.join(os.path.dirname(os.path.realpath(__file__)), "edits.txt")


class Edit(NamedTuple):
    """A mutant."""

    name: str
    section: str
    wrong: str
    file: str
    old: str
    new: str


def edit_of(block):
    """The edit of a block of lines."""
    lines = block.split("\n")
    fields = dict(line.split(" ", 1) for line in lines[:4])
    old, new = ("\n".join(line[1:] for line in lines[4:] if line[:1] == sign) for sign in "-+")
    return Edit(fields["mutant"], fields["manual"], fields["wrong"], fields["file"].removesuffix(".py"), old, new)


def edits():
    with open(PATH, encoding="utf-8") as file:
        return [edit_of(block) for block in file.read().rstrip("\n").split("\n\n")]


EDITS = edits()
