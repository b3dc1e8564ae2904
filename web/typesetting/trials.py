"""Selects cases of conformance/ to test the rules of the page, and computes the result of each by the rules."""
import pathlib
import re

import cool_text
import executed
import typed

CASES = pathlib.Path(__file__).resolve().parent.parent.parent / "conformance" / "cases"
CHOSEN = pathlib.Path(__file__).resolve().parent / "tried.txt"
MOST_BYTES, MOST_FEATURES, MOST_SMALL = 12000, 60, 1600  # limits of a program that is tried; MOST_SMALL is the most bytes of a small case


def chosen():
    """The names of the cases that are tried in addition to small ones."""
    lines = CHOSEN.read_text("utf-8").split("\n")
    return [it for it in lines if it and not it.startswith("#")]


class Case:
    """A case of conformance/ whose arguments are files, given by its folder."""

    def __init__(self, folder):
        words = (folder / "words").read_text("utf-8", "surrogateescape").split("\n")[:-1]
        self.folder, self.name, self.command, self.files = folder, folder.name, words[:1], words[1:]
        self.status = int((folder / "status").read_text())
        self.is_plain = all(it.endswith(".cl") for it in self.files)

    def bytes_of(self, name):
        path = self.folder / name
        return path.read_bytes() if path.exists() else b""

    def texts(self):
        return [(self.folder / it).read_bytes() for it in self.files]

    def is_run(self):
        """Whether it is a plain run that ends by itself."""
        return self.is_plain and self.name.startswith(("run-", "eval-")) and self.command in (["run"], ["eval"]) and self.status in (0, 3)

    def faults(self):
        """The number of type errors, or None if the case has other errors."""
        if not self.is_plain or self.command not in (["run"], ["eval"], ["check"]):
            return None
        kinds = re.findall(r"(?m)^[^:]+:\d+: ([A-Z])\d+: ", self.bytes_of("stderr").decode("utf-8", "replace"))
        return len(kinds) if set(kinds) == {"E"} or self.status in (0, 3) else None


def cases(names=(), small=False):
    """These cases, or all, the smallest ones first; or only small ones and the chosen ones. It raises LookupError if a name does not exist."""
    folders = [CASES / it for it in names] or sorted(CASES.iterdir())
    missing = [it for it in [*names, *chosen()] if not (CASES / it / "words").is_file()]
    if missing:
        raise LookupError("conformance/cases has no case %s" % ", ".join(missing))
    found = [Case(it) for it in folders]
    sizes = [(sum(map(len, it.texts())), it.name, it) for it in found if it.files and (it.is_run() or it.faults() is not None)]
    return [it for size, name, it in sorted(sizes, key=lambda it: it[:2]) if not small or size <= MOST_SMALL or name in chosen()]


def by_types(typer, case):
    """A message about features that the type rules do not type: "" if there is no problem, None if the case is too large."""
    texts = case.texts()
    table = cool_text.table(texts) if sum(map(len, texts)) <= MOST_BYTES else ()
    if not table or sum(len(it["features"]) for it in table) > MOST_FEATURES:
        return None
    untyped = typer.untyped(table)
    return "" if len(untyped) == case.faults() else "not typed are %s, and %d are due" % (untyped, case.faults())


def by_run(machine, case):
    """A message about a run by the rules of evaluation: "" if there is no problem, None if the case is too large or takes too many judgements."""
    texts = case.texts()
    if sum(map(len, texts)) > MOST_BYTES:
        return None
    wanted = case.bytes_of("stdout"), case.status
    try:
        came = machine.run(cool_text.table(texts), case.files, case.bytes_of("input"))
    except (executed.TooLong, RecursionError):
        return None
    except (LookupError, SyntaxError, TypeError, AttributeError, IndexError) as fault:
        return "%s: %s" % (type(fault).__name__, fault)
    return "" if came == wanted else "%r for %r" % (came, wanted)


class Trial:
    """Runs machine and typer over some cases, and records the rules that each case applied."""

    def __init__(self, most):
        self.machine, self.typer = executed.Machine(most), typed.Typer()
        self.ran, self.checked = {}, {}  # rules by number, each with the cases in which they were applied

    def over(self, case):
        """Yields the results for a case: pairs of `types` or `run`, and the message about it."""
        if case.faults() is not None:
            self.typer.used = set()
            wrong = by_types(self.typer, case)
            yield "types", wrong
            for rule in self.typer.used if wrong == "" else ():
                self.checked.setdefault(rule, []).append(case)
        if case.is_run():
            self.machine.used = set()
            wrong = by_run(self.machine, case)
            yield "run", wrong
            for rule in self.machine.used if wrong == "" else ():
                self.ran.setdefault(rule, []).append(case)

    def unused(self):
        """The rules that no case applied."""
        return [it for them, used in ((self.typer, self.checked), (self.machine, self.ran)) for rules in them.rules.values() for it in rules
            if id(it) not in used]
