"""Runs a program with this repository's compiler (the reference) and with another one, and classifies the difference between their results."""

import os
import re
import subprocess
import tempfile
from typing import NamedTuple

from case import read
from limited import Runner

# The files of a program by chance, which has one or two.
FILE = "program.cl"
NAMES = (FILE, "second.cl")
# Within these a run of the reference has to end: so a program of more is none to compare by.
LIMITS = ("--heap", "8192", "--stack", "1024", "--steps", "10000000")
# The last line of a run that ends by an error, and the error's name; `overflow` is a choice of the reference, which is left out unless it is asked for.
ERRORS = (
    (rb"Abort called from class ", "abort"),
    (rb":\d+: Dispatch to void\.", "dispatch to void"),
    (rb":\d+: Case on void\.", "case on void"),
    (rb":\d+: No matching branch ", "no matching branch"),
    (rb":\d+: Division by zero\.", "division by zero"),
    (rb":\d+: Substring out of range\.", "substring out of range"),
    (rb":\d+: Arithmetic overflow\.", "overflow"),
)
MOST_OUTPUT = 1 << 20
KINDS = re.compile(rb"(?m)^[^:\n]*:\d+: ([A-Z]\d+): ")


class Answer(NamedTuple):
    """What the reference says: the kinds of faults, which are none where a program is legal, and then the status, the output, and the error that ends it."""

    kinds: tuple
    status: int
    output: bytes
    notes: bytes
    error: str


class Given:
    """A program as a case in a folder, which `limited` runs: some words, its files, and an input."""

    def __init__(self, folder, word, names):
        self.folder, self.words = folder, [word, *names]


class Reference:
    """The program of this repository."""

    def __init__(self, program, choices):
        self.program, self.choices = program, choices

    def answer(self, folder, files=(FILE,)):
        """What it says of the program of a folder, or None where that is none to compare by."""
        with open(os.path.join(folder, "input"), "rb") as file:
            given = file.read()
        came = self._run(folder, files, given)
        if came.returncode not in (0, 1, 3) or len(came.stdout) > MOST_OUTPUT:
            return None
        if not self.choices and came.returncode != 1 and self._reads_to_the_end(folder, files, given, came):
            return None
        kinds = tuple(sorted({kind.decode() for kind in KINDS.findall(came.stderr)})) if came.returncode == 1 else ()
        error = error_of(came.stdout) if came.returncode == 3 else ""
        if error == "overflow" and not self.choices:
            return None
        return Answer(kinds, came.returncode, came.stdout, came.stderr, error)

    def _run(self, folder, files, given):
        words = [self.program, "run", *LIMITS, "--", *files]
        return subprocess.run(words, cwd=folder, input=given, stdout=subprocess.PIPE, stderr=subprocess.PIPE, check=False)

    def _reads_to_the_end(self, folder, files, given, came):
        """Whether a run asks for more than its input has, which the manual leaves open: then more lines make another run of it."""
        if not any(b"in_" in read_whole(os.path.join(folder, file)) for file in files):
            return False
        other = self._run(folder, files, given + b"77\n88\n")
        return (other.returncode, other.stdout) != (came.returncode, came.stdout)


def error_of(output):
    last = output.removesuffix(b"\n").rpartition(b"\n")[2]
    for pattern, word in ERRORS:
        if re.search(pattern, last):
            return word
    return "another error"


class Comparison:
    """The reference beside a compiler, which is called within limits."""

    def __init__(self, reference, command, mode, limits, owner=None):
        self.reference, self.mode = reference, mode
        self.runner = Runner(command, limits["--seconds"], limits["--memory"], owner)

    def difference(self, sample):
        """In what sort of way the compiler differs over a sample, and what the reference says of it: '' where it does not, None where it is not compared."""
        with tempfile.TemporaryDirectory(prefix="stress-") as folder:
            names = write_sample(folder, sample)
            answer = self.reference.answer(folder, names)
            if answer is None:
                return None, None
            return self._sort(folder, names, answer), answer

    def _status(self, folder, names, word):
        with self.runner.run(Given(folder, word, names)) as came:
            output = read(came.output, MOST_OUTPUT + 1) if word == "run" else b""
        return came.status, output

    def _sort(self, folder, names, answer):
        if answer.kinds:
            return self._verdict(folder, names, answer)
        if self.mode == "--verdicts":
            return self._verdict(folder, names, answer)
        status, output = self._status(folder, names, "run")
        if answer.status == 0 and status == 0:
            return "" if output == answer.output else "prints otherwise"
        if answer.status and status == 0:
            return "does not fail: " + answer.error
        return odd_end(status, "run") or self._verdict(folder, names, answer) or ("" if answer.status else "fails")

    def _verdict(self, folder, names, answer):
        status, _ = self._status(folder, names, "check")
        if answer.kinds and status == 0:
            return "accepts " + "+".join(answer.kinds)
        return odd_end(status, "check") or ("refuses" if status and not answer.kinds else "")


def odd_end(status, word):
    """Of a compiler that did not end, or was ended by a signal."""
    if status is None:
        return "does not end: " + word
    return f"ends by {status}: {word}" if status >= 126 else ""


def write_sample(folder, sample):
    """Writes the files and the input of a sample, and gives the names of the files."""
    names = NAMES[: len(sample.texts)]
    for name, text in zip(names, sample.texts):
        write(os.path.join(folder, name), text)
    write(os.path.join(folder, "input"), sample.input)
    return names


def read_whole(path):
    with open(path, "rb") as file:
        return file.read()


def write(path, data):
    with open(path, "wb") as file:
        file.write(data)
