"""Applies the fixes that `cool_explain` suggests to a program, one after the other, for `mends` and `answers`."""
import os
import re
import resource
import subprocess
import sys

from mutations import ROOT, lexemes

sys.path.insert(0, os.path.join(ROOT, "compare"))
from comparison import own_program  # noqa: E402

MOST_MENDS = 8
EDIT = re.compile(rb"edit 0:(\d+):(\d+) (.*)")
# The possible results for a program, as docs/explain.md names them.
ENDS = BACK, SAME, OTHER, LEFT, NONE = "same tokens", "same code", "another program", "error left", "no fix"


def add_programs(parser):
    """The options that name other programs than those of this repository."""
    parser.add_argument("--explain", metavar="PROGRAM", type=os.path.realpath)
    parser.add_argument("--check", metavar="PROGRAM", type=os.path.realpath)


def processor_time():
    """The seconds that a processor has worked for the programs that ended so far."""
    used = resource.getrusage(resource.RUSAGE_CHILDREN)
    return used.ru_utime + used.ru_stime


def edited(text, told):
    """The text with the first edit of these lines applied, or None if there is no edit."""
    for found in filter(None, map(EDIT.fullmatch, told)):
        new = re.sub(rb"\\([\\n])", lambda it: b"\n" if it[1] == b"n" else b"\\", found[3])
        return text[: int(found[1])] + new + text[int(found[2]) :]
    return None


class Tools:
    """`cool check` and `cool_explain`, over one file in a folder: the programs that the arguments name, or those of this repository."""

    def __init__(self, given, folder):
        self.check, self.explain = given.check or own_program(), given.explain or own_program("cool_explain")
        self.path = os.path.join(folder, "program.cl")

    def run(self, words, text):
        with open(self.path, "wb") as file:
            file.write(text)
        return subprocess.run(words + [self.path], stdout=subprocess.PIPE, stderr=subprocess.PIPE)

    def is_program(self, text):
        return self.run([self.check, "check"], text).returncode == 0

    def code(self, text):
        return self.run([self.check, "asm"], text).stdout

    def told(self, text):
        """The explanation of the first error of a program, as lines."""
        run = self.run([self.explain, "--lines"], text)
        if run.returncode not in (0, 1):
            sys.exit("%s: %s ended with %d over this, and wrote %r:\n%s"
                     % (sys.argv[0], self.explain, run.returncode, run.stderr, text.decode(errors="replace")))
        lines = run.stdout.split(b"\n")[:-1]
        # An `apply` line begins the errors after fixes.
        ends = [at for at, line in enumerate(lines) if at > 0 and line.startswith((b"fault ", b"apply "))]
        return lines[: ends[0] if ends else None]

    def end(self, text, meant, told):
        """The result for a program with this explanation: applies the fix of the first error, then that of the first error of the result, and so on."""
        for mends in range(MOST_MENDS):
            after = edited(text, told)
            if after is None:
                return LEFT if mends else NONE
            text = after
            if self.is_program(text):
                return BACK if lexemes(text) == lexemes(meant) else SAME if self.code(text) == self.code(meant) else OTHER
            told = self.told(text)
        return LEFT

    def measured(self, program):
        """The result for a program, the processor time of its explanation in seconds, and the explanation of its first error."""
        start = processor_time()
        told = self.told(program.text)
        seconds = processor_time() - start
        return self.end(program.text, program.meant, told), seconds, told
