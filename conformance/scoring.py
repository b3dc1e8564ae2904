"""Finds which mutants of mutants/ a set of tests detects: each mutant is loaded into a process of its own, which runs all tests."""

import multiprocessing
import os
import resource
import signal
import sys
import tempfile

from call import Refusal
from differences import FILE, NAMES, read_whole, write
from edits import EDITS
from mutating import load
from sample import sample

# The limits of a mutant: steps for a test, and bytes of memory for all tests.
MOST_STEPS, MOST_BYTES = 50000, 2 << 30
EXPECTED = ("about", "words", "status", "input", "stdout", "stderr")


class Test:
    """A program of some files with its input, and the answer of the reference."""

    def __init__(self, name, texts, given, answer):
        self.name, self.texts, self.given, self.answer = name, texts, given, answer

    def finds(self, status, output):
        """Whether the answer of a mutant is wrong. The status is 1 if it refuses the program."""
        answer = self.answer
        if answer.kinds or status == 1:
            return bool(answer.kinds) != (status == 1)
        if answer.status == 0:
            return status != 0 or output != answer.output
        return status == 0


def files_of(path):
    """The files of a test by name, and its input."""
    if os.path.isdir(path):
        words = read_whole(os.path.join(path, "words")).decode("utf-8", "surrogateescape").split("\n")[:-1]
        names = words[1:]
        if words[:1] not in (["check"], ["run"]) or any(name.startswith("-") for name in names):
            return None, b""
        given = os.path.join(path, "input")
        texts = [(name, os.path.join(path, name)) for name in names]
    else:
        given = os.path.splitext(path)[0] + ".in"
        texts = [(FILE, path)]
    if not all(os.path.isfile(place) for _, place in texts):
        return None, b""
    return [(name, read_whole(place)) for name, place in texts], read_whole(given) if os.path.isfile(given) else b""


def asked(name, texts, given, reference):
    """The test of some files, or None if the reference gives no answer."""
    texts = list(texts)
    with tempfile.TemporaryDirectory(prefix="score-") as folder:
        for file, data in texts:
            os.makedirs(os.path.dirname(os.path.join(folder, file)), exist_ok=True)
            write(os.path.join(folder, file), data)
        write(os.path.join(folder, "input"), given)
        answer = reference.answer(folder, [file for file, _ in texts])
    return answer and Test(name, [(file, data.decode("latin-1")) for file, data in texts], given.decode("latin-1"), answer)


def tests_of(paths, reference):
    tests = []
    for path in paths:
        if not os.path.exists(path):
            raise Refusal(f"there is no file or folder {path}: name a test")
        name = os.path.basename(os.path.abspath(path))
        texts, given = files_of(path)
        test = texts and asked(name, texts, given, reference)
        if test:
            tests.append(test)
        else:
            print(f"conformance/mutation-score: {path} is left out: a file is missing, or it does not end within the limits", file=sys.stderr)
    return tests


def by_chance(seed, count, reference):
    made = (sample(seed, number) for number in range(count))
    tests = (asked(f"program {number}", zip(NAMES, it.texts), it.input, reference) for number, it in enumerate(made))
    return [test for test in tests if test]


OF_PROCESS = {}


def finders(name):
    """The numbers of the tests that find the mutant of a name."""
    resource.setrlimit(resource.RLIMIT_AS, (MOST_BYTES, MOST_BYTES))
    small, found = load(name), []
    sys.modules["running"].MOST_STEPS = MOST_STEPS
    small.deep(lambda: found.extend(at for at, test in enumerate(OF_PROCESS["tests"]) if test.finds(*result(small, test))))
    return found


def result(small, test):
    """The status and the output of a mutant. If it crashes, its answer is wrong."""
    try:
        output, _, status = small.perform("run", test.texts, test.given)
    except Exception:
        return 70, b""
    return status, output.encode("latin-1")


def begin():
    """The first step of each process: only the parent handles an interrupt."""
    signal.signal(signal.SIGINT, signal.SIG_IGN)
    signal.signal(signal.SIGTERM, signal.SIG_DFL)


def score(tests, jobs):
    """Each mutant, with the numbers of the tests that find it."""
    OF_PROCESS["tests"] = tests
    pool = multiprocessing.get_context("fork").Pool(jobs, begin, maxtasksperchild=1)
    try:
        yield from zip(EDITS, pool.imap(finders, [edit.name for edit in EDITS], 1))
        pool.close()
    finally:
        pool.terminate() if sys.exc_info()[0] else pool.join()
