"""Finds where the runs of two assembly texts of one program diverge: the last method call in common, and the next step of each run."""

import collections
import itertools
from typing import NamedTuple

from tracing import STEP_LIMIT, Call, End, visible

MOST_SHOWN = 60
LIMITS = {4: "the limit of the heap", 5: "the limit of the stack", STEP_LIMIT: "the limit of instructions"}


class Step(NamedTuple):
    """A step of a run as a message tells it, the return address of the call that it is or that writes it, or None, and what follows at once."""

    does: str
    back: int
    after: str = ""


class Parting(NamedTuple):
    """The number of calls in common, the last of them or None, and the next step of each run."""

    count: int
    last: Call
    steps: tuple


def are_alike(ours, other):
    """Whether two runs without records agree. A run-time error may have another text, but not another output before its line."""
    if ours.status == 0 or other.status != ours.status:
        return (ours.status, ours.output) == (other.status, other.output)
    return other.output.startswith(ours.output[: ours.output.rstrip(b"\n").rfind(b"\n") + 1])


class Values:
    """Compares the values of calls by the names of formals and attributes. `notes` are the reasons why some are not compared."""

    def __init__(self, table, ours, other):
        self.table, self.ours, self.other = table, ours, other
        self.offsets, self.notes, self.unlike = [0, 1], [], None

    def differences(self, ours, other):
        """The values of two calls of one method that differ, as a message tells both, behind the word that it begins with."""
        self._compare_prototypes()
        if ours.receiver != other.receiver:
            return [("on", ours.receiver, other.receiver)]
        return self._arguments(ours, other) + self._attributes(ours, other)

    def _compare_prototypes(self):
        """Attributes of a class are compared only if its prototypes are alike, since another layout is no mistake."""
        if self.unlike is None:
            prototypes = self.ours.prototypes, self.other.prototypes
            self.unlike = {name for name, names in self.table.attributes.items() if names and prototypes[0][name] != prototypes[1][name]}
            self.notes += [f"attributes of {name} are not compared, because {name}_protObj differs" for name in sorted(self.unlike)]

    def _arguments(self, ours, other):
        """Arguments are pushed in order. `$sp` is the address of the last one, or of the word below it: the calls so far show which."""
        names = self.table.formals[ours.name]
        wanted = ours.words[: len(names)][::-1]
        names = names[len(names) - len(wanted) :] if len(wanted) < len(names) else names
        if not names or not self.offsets:
            return []
        found = {offset: other.words[offset : offset + len(wanted)][::-1] for offset in self.offsets}
        fitting = [offset for offset in self.offsets if found[offset] == wanted]
        if fitting:
            self.offsets = fitting
            return []
        likely = max(self.offsets, key=lambda offset: likeness(found[offset], wanted))
        if len(self.offsets) > 1 and not any(likeness(found[likely], wanted)):
            self.offsets = []
            self.notes.append("arguments are not compared, because the other code does not push them in their order")
            return []
        return [("with", *(f"{name} = {value}" for value in both)) for name, *both in zip(names, wanted, found[likely]) if both[0] != both[1]]

    def _attributes(self, ours, other):
        name = ours.receiver.removeprefix("an object of ")
        if name in self.unlike:
            return []
        named = zip(self.table.attributes.get(name, ()), ours.attributes, other.attributes)
        return [("while", *(f"attribute {attribute} is {value}" for value in both)) for attribute, *both in named if both[0] != both[1]]


def likeness(words, wanted):
    """How far words are the arguments that are wanted: the number of those that occur, in any order, and of those that have their kind."""
    return sum((collections.Counter(words) & collections.Counter(wanted)).values()), sum(kind(one) == kind(two) for one, two in zip(words, wanted))


def kind(word):
    return "Int" if word.lstrip("-").isdigit() else "String" if word[:1] == '"' else "Bool" if word in ("false", "true") else word


def part(ours, other, plain, values, most):
    """Where two runs part, whose results without records are `plain`, or None if `most` calls are in common."""
    count, last, written = 0, None, 0
    for one, two in zip(ours.events, other.events):
        texts = [b"".join(data for data, _ in event.pieces) for event in (one, two)]
        if texts[0] != texts[1] or isinstance(one, End) or isinstance(two, End) or one.name != two.name:
            return Parting(count, last, steps(one, two, texts, written, plain))
        found = values.differences(one, two) if values else []
        if found:
            return Parting(count, last, tuple(Step(called(event, found, at), event.back) for at, event in enumerate((one, two), 1)))
        written += len(texts[0])
        count, last = count + 1, one
        if count == most:
            return None
    return None


def called(event, found, at):
    """A call with its values that differ, three at most."""
    groups = itertools.groupby(found[:3], lambda difference: difference[0])
    return " ".join([f"calls {event.name}", *(f"{word} " + " and ".join(difference[at] for difference in group) for word, group in groups)])


def steps(one, two, texts, written, plain):
    """The next steps of two runs: what they write, if that differs, and else the next call or the end."""
    same = common(*texts)
    found = []
    for event, text, run in zip((one, two), texts, plain):
        if same < len(text):
            is_last = isinstance(event, End) and b"\n" not in text[same:-1]
            found.append(Step(writes(run.output, written + same), writer(event.pieces, same), f", and {ends(run)}" * is_last))
        elif isinstance(event, Call):
            found.append(Step(f"calls {event.name}", event.back))
        else:
            found.append(Step(ends(run), event.pieces[-1][1]))
    return tuple(found)


def common(one, two):
    """The number of bytes with which both begin."""
    same, most = 0, min(len(one), len(two))
    while same < most:
        half = (same + most + 1) // 2
        same, most = (half, most) if one[same:half] == two[same:half] else (same, half - 1)
    return same


def writes(output, at):
    """How a message says that a run writes a byte of its output: with the line of that byte."""
    start = output.rfind(b"\n", 0, at) + 1
    line = visible(output[start : output.find(b"\n", at) + 1 or len(output)])
    return f"writes `{line if len(line) <= MOST_SHOWN else line[:MOST_SHOWN] + '..'}`"


def writer(pieces, at):
    """Which call wrote a byte of the pieces, or None."""
    for data, back in pieces:
        if at < len(data):
            return back
        at -= len(data)
    return None


def ends(run):
    """How a message says that a run ends."""
    if run.status in LIMITS:
        return f"reaches {LIMITS[run.status]}"
    if run.status < 0:
        return f"writes {run.notes}"
    return f"ends with status {run.status}" + (f" ({run.notes.splitlines()[-1]})" if run.notes else "")
