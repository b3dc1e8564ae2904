"""Writes the table of `grade`, which an interrupted call leaves unfinished and a later call continues, and the line that shows the progress."""

import contextlib
import fcntl
import os
import sys
import time

from call import Refusal
from graded import written_whole


class Grades:
    """The line of each compiler, by its name. With a path they go to PATH.part as they come, and to PATH once all are there."""

    def __init__(self, path, head, resume):
        self.path, self.head, self.lines = path, head, {}
        if resume:
            self._take_up(next((old for old in (path + ".part", path) if os.path.exists(old)), None))
        if path:
            self.part = open(path + ".part", "a", encoding="utf-8", errors="surrogateescape")
            try:
                fcntl.flock(self.part, fcntl.LOCK_EX | fcntl.LOCK_NB)
            except BlockingIOError:
                raise Refusal(f"another call is writing {path}.part: wait for its end, or give --table another name") from None
            self.part.truncate(0)
            self._keep(head, *self.lines.values())

    def _take_up(self, old):
        """Takes the lines of an older table, whose last one may be cut."""
        if not old:
            return
        with open(old, encoding="utf-8", errors="surrogateescape") as file:
            first, *lines = file.read().split("\n")[:-1] or [""]
        if first and first != self.head:
            raise Refusal(f"{old} is about other cases, so --resume cannot continue it: give --table another name")
        self.lines = {line.partition("\t")[0]: line for line in lines}

    def _keep(self, *lines):
        if self.path:
            self.part.writelines(line + "\n" for line in lines)
            self.part.flush()

    def add(self, name, line):
        self.lines[name] = line
        self._keep(line)

    def end(self, names):
        """Writes the table of these compilers, in this order."""
        if self.path:
            with written_whole(self.path) as file:
                file.writelines(line + "\n" for line in [self.head, *(self.lines[name] for name in names)])
            os.remove(self.path + ".part")
            self.part.close()


class Progress:
    """A line on standard error that says how far it is, where that is a terminal."""

    def __init__(self, compilers, cases):
        self.compilers, self.cases, self.begun = compilers, cases, time.monotonic()
        self.is_shown = sys.stderr.isatty()

    def show(self, compiler, case):
        """Tells that so many cases of a compiler are done, which is the first where it is 1."""
        if self.is_shown:
            done, all_cases = (compiler - 1) * self.cases + case, self.compilers * self.cases
            left = round((time.monotonic() - self.begun) * (all_cases - done) / done)
            line = f"compiler {compiler} of {self.compilers}, case {case} of {self.cases}, {left // 60} min {left % 60} s left"
            print(f"\r{line}\033[K", end="", file=sys.stderr, flush=True)

    def clear(self):
        if self.is_shown:
            with contextlib.suppress(OSError):
                print("\r\033[K", end="", file=sys.stderr, flush=True)
