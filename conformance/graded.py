"""Lists the test cases that `grade` uses and the columns in which it counts them, and writes files completely or not at all."""

import contextlib
import os

from call import CASES
from case import Case

COLUMNS = {("check", True): "accepts", ("check", False): "refuses", ("run", True): "runs", ("run", False): "fails"}


def graded_cases():
    """In the order of their names, the cases without an option that the Cool manual decides."""
    names = sorted(name for name in os.listdir(CASES) if name.startswith(("check-", "run-")))
    cases = map(Case, names)
    return [case for case in cases if case.about.startswith("manual:") and not any(word.startswith(b"-") for word in case.words)]


def column(case):
    """The column that counts a case."""
    return COLUMNS[case.kind, case.status == 0]


@contextlib.contextmanager
def written_whole(path):
    """A text to write, which gets the name of a file when it is whole; until then an older one stays."""
    beside = f"{path}.{os.getpid()}"
    try:
        with open(beside, "w", encoding="utf-8", errors="surrogateescape") as file:
            yield file
        os.replace(beside, path)
    finally:
        with contextlib.suppress(OSError):
            os.remove(beside)
