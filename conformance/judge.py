"""Runs test cases with a compiler, given as a command, and says why each failed."""

import concurrent.futures

from limited import Runner


class Judge:
    """A command, and the limits for a case: `mode` is that of `run`, `limits` are its options that have a number, `owner` that of a Runner."""

    def __init__(self, command, mode, limits, owner=None):
        self.mode, self.limits, self.late = mode, limits, 0
        self.runner = Runner(command, limits["--seconds"], limits["--memory"], owner)

    def results(self, cases):
        """For each case, in order: the case, in short why it failed, and the lines that show it; both empty if it passed.

        A caller that closes this before its end stops the cases that still run.
        """
        with concurrent.futures.ThreadPoolExecutor(self.limits["--jobs"]) as pool:
            try:
                yield from pool.map(self._result, cases)
            finally:
                self.runner.stop()
                pool.shutdown(cancel_futures=True)

    def _result(self, case):
        most_late, seconds = self.limits["--timeouts"], self.limits["--seconds"]
        if most_late and self.late >= most_late:
            return self._unjudged(case, f"not run, because {most_late} cases did not end")
        with self.runner.run(case) as came:
            if came.status is None:
                self.late += 1
                return self._unjudged(case, f"did not end within {seconds} seconds")
            differences = list(case.differences(came, self.mode))
        told = [line for _, lines in differences for line in lines]
        return case, ", ".join(why for why, _ in differences), told + [f"  {case.about}"] * bool(told)

    def _unjudged(self, case, why):
        return case, why, [f"FAIL {case.name}: status", f"  {why}", f"  {case.about}"]


def row(case, why, lines):
    """The line of a table for a case: after the reason of a failure come the lines that show it."""
    shown = [line.strip() for line in lines if line.startswith("  ") and line[2:] != case.about]
    return "\t".join([case.name, "failed" if why else "passed", why, *shown]) + "\n"
