"""Compares a compiler with the reference on random programs in several processes, which also shrink the programs that differ, and shows the progress."""

import concurrent.futures
import contextlib
import multiprocessing
import os
import re
import shutil
import signal
import sys
import tempfile
import time
from typing import NamedTuple

from call import Refusal, own_program
from coverage import Programs, touched
from differences import Comparison, Reference, write_sample
from groups import Small
from layout import shape
from sample import KINDS, sample
from shrinking import Shrinker
from walls import Wall

# So many programs a process tries at once; it makes one small within some seconds. Where the compiler does not end each trial is given a second alone, and
# all of them longer.
AT_ONCE, MOST_SECONDS, MOST_SECONDS_WITHOUT_END = 10, 60, 240
# The comparison and the options of a process.
OF_PROCESS = {}


class Tried(NamedTuple):
    """What came of some programs: how many were compared and how many were none to compare by, and the numbers and sorts of those that differ."""

    compared: int
    left_out: int
    found: list


def no_wall():
    """What ends what a program left running that is called without a wall: nothing."""


def command_of(names, words, options):
    """How the compiler is called: that of a folder, within the walls of `grade`, or a program as `run` calls it. Then who gets the files, and what ends it."""
    if words:
        path = shutil.which(words[0])
        if not path:
            raise Refusal(f"there is no program {words[0]}")
        return [os.path.abspath(path), *words[1:]], None, no_wall
    if not names:
        raise Refusal("name a program after --")
    wall = Wall(options["--as"], options["--trusted"], options["--processes"] * (options["--jobs"] if options["--as"] else 1))
    command = wall.command(os.path.abspath(names[0]), own_program())
    if not command:
        raise Refusal(f"{wall.why_not(os.path.abspath(names[0]))}: {names[0]}")
    return command, wall.owner, wall.end


def begin(command, owner, options, limits, programs, stopped):
    """What each process does first. A signal is for the one that began them, which says when all is to stop."""
    signal.signal(signal.SIGINT, signal.SIG_IGN)
    signal.signal(signal.SIGTERM, signal.SIG_DFL)
    mode = "--verdicts" if options["--verdicts"] else "--outputs"
    reference = Reference(programs[0], options["--choices"])
    comparison, short = (Comparison(reference, command, mode, {**limits, "--seconds": seconds}, owner) for seconds in (limits["--seconds"], 1))
    OF_PROCESS.update(comparison=comparison, short=short, options=options, programs=Programs(*programs), stopped=stopped)


def try_some(numbers):
    """Tries the programs of some numbers."""
    options, compared, left_out, found = OF_PROCESS["options"], 0, 0, []
    for number in numbers:
        if OF_PROCESS["stopped"].is_set():
            break
        sort, _ = OF_PROCESS["comparison"].difference(sample(options["--seed"], number, options["--choices"]))
        compared += sort is not None
        left_out += sort is None
        if sort:
            found.append((number, sort))
    return Tried(compared, left_out, found)


def make_small(number, sort):
    """The smallest program that is found of one that differs."""
    options, comparison, stopped = (OF_PROCESS[name] for name in ("options", "comparison", "stopped"))
    ends = not sort.startswith("does not end")
    trial, seconds = (comparison, MOST_SECONDS) if ends else (OF_PROCESS["short"], MOST_SECONDS_WITHOUT_END)
    whole = sample(options["--seed"], number, options["--choices"])
    small = Shrinker(lambda it: not stopped.is_set() and trial.difference(it)[0] == sort, seconds).shrunk(whole)
    found, answer = comparison.difference(small)
    if found != sort:  # it ended after that second
        small, (_, answer) = whole, comparison.difference(whole)
    with tempfile.TemporaryDirectory(prefix="stress-") as folder:
        names = write_sample(folder, small)
        rules = tuple(sorted(touched(OF_PROCESS["programs"], folder, list(names), os.path.join(folder, "input"))))
    # A tab or newline would break the table.
    alike = re.sub(r"\s", " ", shape(small.tokens))
    return Small(number, sort, small.texts, small.input, len(small.tokens), alike, rules), answer


class Stress:
    """One call of `stress`."""

    def __init__(self, command, options, limits):
        *self.command, self.end_all = command
        self.options, self.limits = options, limits
        self.programs = own_program(), own_program("cool_editor")
        self.start = time.monotonic()
        minutes = options["--minutes"]
        self.end = self.start + 60 * minutes if minutes else None
        self.count = options["--count"] or (None if minutes else 1000)
        self.compared = self.left_out = self.differing = 0
        self.shrinking = {}
        self.is_seen = sys.stderr.isatty()

    def numbers(self, first):
        """The numbers of programs from this one on, some at once: all, or those of a kind."""
        kind = self.options["--kind"]
        if kind not in ("", "legal", *KINDS):
            raise Refusal(f"there is no kind of change {kind}")
        start, step = {"": (0, 1), "legal": (0, 2)}.get(kind) or (2 * KINDS.index(kind) + 1, 2 * len(KINDS))
        first = max(0, -(-(first - start) // step))
        done = 0
        while self.count is None or done < self.count:
            some = AT_ONCE if self.count is None else min(AT_ONCE, self.count - done)
            yield [start + step * (first + done + at) for at in range(some)]
            done += some

    def run(self, groups):
        """Tries programs until there are enough, and tells of the groups. The status is that of the command."""
        self.groups = groups
        context = multiprocessing.get_context("fork")
        first = groups.next if self.options["--from"] is None else self.options["--from"]
        stopped = context.Event()
        arguments = (*self.command, self.options, self.limits, self.programs, stopped)
        pool = concurrent.futures.ProcessPoolExecutor(self.limits["--jobs"], context, begin, arguments)
        try:
            self._try_all(pool, self.numbers(first))
        finally:
            stopped.set()
            pool.shutdown(cancel_futures=True)
            self.end_all()
            self.clear()
            groups.end()
        print(self.summary())
        return 1 if self.differing or groups.groups else 0

    def _try_all(self, pool, numbers):
        pending, tried = {}, []
        while True:
            more = not self.is_enough()
            while more and len(pending) < 2 * self.limits["--jobs"]:
                some = next(numbers, None)
                if some is None:
                    break
                pending[pool.submit(try_some, some)] = some
            if not pending and not self.shrinking:
                return
            done, _ = concurrent.futures.wait([*pending, *self.shrinking], 1, concurrent.futures.FIRST_COMPLETED)
            for future in done:
                if future in pending:
                    tried.append(pending.pop(future))
                    self._take_tried(pool, future.result())
                else:
                    self.shrinking.pop(future)
                    self.groups.add(*future.result())
            self.groups.note_next(self._next(tried, pending))
            self.show()

    def _next(self, tried, pending):
        """The number from which on a later call goes on: behind it nothing is due."""
        due = [some[0] for some in pending.values()] + list(self.shrinking.values())
        return min(due) if due else max((some[-1] + 1 for some in tried), default=0)

    def is_enough(self):
        return self.differing >= self.options["--most"] or self.end is not None and time.monotonic() > self.end

    def _take_tried(self, pool, tried):
        self.compared += tried.compared
        self.left_out += tried.left_out
        for number, sort in tried.found:
            if number in self.groups.rows:  # told by an earlier call that was interrupted
                continue
            self.differing += 1
            if self.groups.takes(sort, self.options["--shrinks"]):
                self.shrinking[pool.submit(make_small, number, sort)] = number
            else:
                self.groups.count(number, sort)

    def summary(self):
        rate = 60 * self.compared / max(1e-9, time.monotonic() - self.start)
        return f"{self.compared} compared, {self.left_out} left out, {self.differing} differ, {len(self.groups.groups)} groups, {rate:.0f} a minute"

    def show(self):
        if self.is_seen:
            print(f"\r\033[K{self.summary()}, {len(self.shrinking)} made small", end="", file=sys.stderr, flush=True)

    def clear(self):
        if self.is_seen:
            with contextlib.suppress(OSError):
                print("\r\033[K", end="", file=sys.stderr, flush=True)
