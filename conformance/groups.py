"""Groups similar differences between compilers, by kind and by the rules that their smallest programs use; prints the groups and writes them as test cases."""

import collections
import os
import re
import shutil
import time
from typing import NamedTuple

from call import Refusal
from coverage import section
from differences import NAMES, read_whole, write
from graded import written_whole

TABLE = "stress.tsv"
# So many lines of a smallest program are shown.
MOST_LINES = 30


class Small(NamedTuple):
    """A difference: the number of its program, its sort, the smallest program that shows it with its input, the number of its tokens, its shape, and
    the rules that it uses."""

    number: int
    sort: str
    texts: tuple
    input: bytes
    size: int
    shape: str
    rules: tuple


class Group:
    """Differences that are alike: the smallest program, and the numbers of all."""

    def __init__(self, name, found):
        self.name, self.best, self.numbers = name, found, [found.number]

    def add(self, found):
        self.numbers.append(found.number)
        if weight(found) < weight(self.best):
            self.best = found
            return True
        return False


def weight(found):
    return found.size, sum(map(len, found.texts))


# What nearly each program has that shows something: so it tells little.
COMMON = frozenset((
    ("classes", "class without a parent"), ("classes", "method without formals"), ("classes", "inherits from IO"), ("forms", "call"), ("forms", "call of self"),
    ("forms", "new"), ("forms", "name"), ("forms", "integer"), ("forms", "string"), ("forms", "bool"), ("forms", "block"), ("types", "self as a value"),
    ("methods", "out_int"), ("methods", "out_string")))


def telling(found):
    """The rules that say most of a difference: those of lexemes, ends and runs, and those that nearly each program uses, are not among them."""
    return {rule for rule in found.rules if rule[0] not in ("run", "tokens", "ends")} - COMMON


def rules_of(found):
    """The rules that a difference names: those that say most of it, or the others where there is none."""
    rules = {rule for rule in found.rules if rule[0] != "run" and rule != ("ends", "end of main")}
    return frozenset(telling(found) or rules - COMMON or rules)


def are_alike(found, other):
    """Whether two differences are of one sort, and one of their programs uses all rules of the other. Programs of common rules alone are alike, too."""
    if found.sort != other.sort:
        return False
    if not telling(found) and not telling(other) and not (is_of_lexemes(found) and is_of_lexemes(other)):
        return True
    mine, others = rules_of(found), rules_of(other)
    return mine <= others or others <= mine


def is_of_lexemes(found):
    """Whether a difference names lexemes that few programs have, or an end of a run."""
    return bool(rules_of(found) - COMMON)


class Groups:
    """The groups of a call, and of those before it where one goes on: then the folder has their table and their cases."""

    def __init__(self, folder, seed, resumes, rests_on):
        self.folder, self.seed, self.rests_on, self.groups = folder, seed, rests_on, []
        self.taken, self.counted, self.next = collections.Counter(), collections.defaultdict(list), 0
        self.rows, self.names, self.written = {}, collections.Counter(), 0
        if folder:
            self._begin(resumes)

    def _begin(self, resumes):
        table = os.path.join(self.folder, TABLE)
        os.makedirs(self.folder, exist_ok=True)
        if not os.path.exists(table):
            return
        if not resumes:
            raise Refusal(f"{self.folder} has the table of an earlier call: continue that with --resume, or name another folder")
        with open(table, encoding="utf-8") as file:
            head, *rows = file.read().splitlines()
        found = re.fullmatch(r"seed (\d+)\tnext (\d+)", head)
        if not found or int(found[1]) != self.seed:
            raise Refusal(f"the table of {self.folder} has another seed, or is damaged, so --resume cannot continue it: {head}")
        self.next = int(found[2])
        for row in rows:
            self._take_row(row)

    def _take_row(self, row):
        """One difference of an earlier call, in its group."""
        number, sort, name, count, shape, rules = row.split("\t")
        self.rows[int(number)] = row
        self.taken[sort] += 1
        if name == "-":
            self.counted[sort].append(int(number))
            return
        rules = tuple(tuple(rule.split(": ", 1)) for rule in rules.split("; "))
        paths = [os.path.join(self.folder, name, file) for file in NAMES]
        texts = tuple(read_whole(path) for path in paths if os.path.exists(path))
        earlier = Small(int(number), sort, texts, b"", int(count), shape, rules)
        group = next((it for it in self.groups if it.name == name), None)
        if group:
            group.add(earlier)
        else:
            self.groups.append(Group(name, earlier))
            word, _, last = name.rpartition("-")
            self.names[word] = max(self.names[word], int(last))

    def takes(self, sort, most):
        """Whether one more of a sort is to be made small."""
        self.taken[sort] += 1
        return self.taken[sort] <= most

    def count(self, number, sort):
        """A difference that is not made small."""
        self.counted[sort].append(number)
        self.rows[number] = f"{number}\t{sort}\t-\t\t\t"

    def note_next(self, number):
        self.next = max(self.next, number)
        if time.monotonic() > self.written + 5:
            self._write_table()

    def add(self, found, answer):
        """One more difference, in its group, with what the reference says of its smallest program."""
        group = next((it for it in self.groups if are_alike(found, it.best)), None)
        is_best = group is None or group.add(found)
        if group is None:
            group = Group(self._name(found.sort), found)
            self.groups.append(group)
            print(f"{group.name}: {found.sort}, program {found.number}, {found.size} tokens", flush=True)
        rules = "; ".join(": ".join(rule) for rule in found.rules)
        self.rows[found.number] = "\t".join([str(found.number), found.sort, group.name, str(found.size), found.shape, rules])
        if self.folder and is_best:
            self._write_case(group, answer)
        if is_best:
            self._join_with(group)

    def _join_with(self, group):
        """Takes into a group those that its new smallest program shows to be alike."""
        for other in [it for it in self.groups if it is not group and are_alike(group.best, it.best)]:
            if weight(other.best) < weight(group.best):
                continue  # it stays, and takes this one when it gets smaller
            self.groups.remove(other)
            group.numbers += other.numbers
            for number in other.numbers:
                self.rows[number] = self.rows[number].replace(f"\t{other.name}\t", f"\t{group.name}\t", 1)
            if self.folder:
                shutil.rmtree(os.path.join(self.folder, other.name), ignore_errors=True)

    def _name(self, sort):
        word = re.sub(r"\W+", "-", sort).strip("-")
        self.names[word] += 1
        return f"{word}-{self.names[word]}"

    def _write_case(self, group, answer):
        """The smallest program of a group as a case, which `conformance/run --cases` runs."""
        folder, found = os.path.join(self.folder, group.name), group.best
        shutil.rmtree(folder, ignore_errors=True)
        os.makedirs(folder)
        is_run = not answer.kinds and not found.sort.endswith(("refuses", ": check"))
        files = {
            "about": f"{self.rests_on}: {found.sort}: {', '.join(names_of(found))} (seed {self.seed}, program {found.number})\n",
            "words": "\n".join(["run" if is_run else "check", *NAMES[: len(found.texts)], ""]),
            "status": f"{answer.status if is_run or answer.kinds else 0}\n",
            **{name: text.decode("latin-1") for name, text in zip(NAMES, found.texts)},
        }
        files.update({"stdout": answer.output.decode("latin-1")} if is_run and answer.output else {})
        files.update({"stderr": answer.notes.decode("latin-1")} if answer.notes else {})
        files.update({"input": found.input.decode("latin-1")} if found.input and is_run else {})
        for name, text in files.items():
            write(os.path.join(folder, name), text.encode("latin-1"))

    def end(self):
        """Tells of all groups, and writes the table."""
        for group in sorted(self.groups, key=lambda it: (-len(it.numbers), it.name)):
            print(*self.told(group), sep="\n")
        for sort, numbers in sorted(self.counted.items()):
            print(f"{sort}: {len(numbers)} more, which were not made small, program {numbers[0]} the first")
        self._write_table()

    def _write_table(self):
        self.written = time.monotonic()
        if self.folder:
            rows = [f"seed {self.seed}\tnext {self.next}", *(row for _, row in sorted(self.rows.items()))]
            with written_whole(os.path.join(self.folder, TABLE)) as table:
                table.writelines(f"{row}\n" for row in rows)

    def told(self, group):
        """The lines that tell of a group: its smallest program, and the rules of Cool that this uses."""
        found = group.best
        yield f"\n{group.name}: {found.sort}: {len(group.numbers)} programs, {found.size} tokens"
        for name, text in zip(NAMES, found.texts):
            if found.texts[1:]:
                yield f"  {name}:"
            lines = text.decode("latin-1").rstrip("\n").split("\n")[:MOST_LINES]
            yield from ("    " + re.sub(r"[^ -~]", lambda it: "\\x%02x" % ord(it[0]), line) for line in lines)
        if found.input:
            yield f"  input: {found.input[:60]!r}"
        yield "  rules: " + ", ".join(f"{name} (manual {section(group, name)})" for group, name in sorted(rules_of(found)))


def names_of(found):
    return [name for _, name in sorted(rules_of(found))]
