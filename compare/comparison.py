"""Runs test cases on this project's machine and on another one, and compares output and status, for `spim-compare` and `qemu-compare`."""
import argparse
import collections
import concurrent.futures
import importlib.machinery
import importlib.util
import os
import resource
import shutil
import subprocess
import sys
import tempfile

from spim_cases import ROOT, chosen, read

STATUSES = (0, 3, 4, 5)


class Other:
    """Another machine: its name, the commands that it needs with their packages, and the file of compare/ with the cases that differ, and why. It has
    `text(text, heap, stack)`, which converts the output of `compiles` to its text or raises `Unlike`, and `run(path, stdin, most)`, which returns the status,
    the output and the messages of that text; `most` are the limits in seconds and in blocks of 512 bytes."""

    # The limits of a run, in seconds and blocks: after an exception or the end of the input it may continue for ever.
    most, most_of_listed = (300, 65536), (5, 256)
    # The command of `cool` that compiles a program for it.
    compiles = "asm"

    def __init__(self, name, commands, listed, unlike):
        self.name, self.commands, self.unlike = name, commands, unlike
        self.list = listed
        self.listed = dict(line.split(" ", 1) for line in read(ROOT, "compare", listed).decode().splitlines())

    def leaves_out(self, case):
        """The kind of cases to which this one belongs, if none of them is run; else nothing."""
        if case.words[0] == "exec" and read(case.folder, case.files[0])[:1] == b"\x7f":
            return "images"
        return ""

    def missing(self):
        return {package for command, package in self.commands.items() if not shutil.which(command)}


def filter_of(name):
    """A filter of bin/ as a module."""
    loader = importlib.machinery.SourceFileLoader(name.replace("-", "_"), os.path.join(ROOT, "bin", name))
    module = importlib.util.module_from_spec(importlib.util.spec_from_loader(loader.name, loader))
    loader.exec_module(module)
    return module


def bounded(command, stdin, most):
    """The status, output and notes of a command within so many seconds and blocks."""
    def bound():
        resource.setrlimit(resource.RLIMIT_CPU, (most[0], most[0]))
        resource.setrlimit(resource.RLIMIT_FSIZE, (512 * most[1], 512 * most[1]))
        resource.setrlimit(resource.RLIMIT_CORE, (0, 0))
    with tempfile.TemporaryFile() as out, tempfile.TemporaryFile() as err:
        status = subprocess.run(command, input=stdin, stdout=out, stderr=err, preexec_fn=bound).returncode
        out.seek(0)
        err.seek(0)
        return status, out.read(), err.read()


def difference(other, case, wanted, came):
    """The difference, or nothing. `exec` ends with 3 for every code except 0, 4 and 5."""
    status, output, notes = came
    if case.words[0] == "exec" and status > 0 and status not in STATUSES:
        status = 3
    parts = []
    if status != wanted[0]:
        parts.append("status %d, %s %s" % (wanted[0], other.name, status if status >= 0 else "did not end"))
    if output != wanted[1]:
        at = len(os.path.commonprefix([wanted[1], output]))
        parts.append("output from byte %d on: %r, %s %r" % (at, wanted[1][at : at + 60], other.name, output[at : at + 60]))
    if parts and notes:
        parts.append("notes of %s: %r" % (other.name, notes[:160]))
    return "; ".join(parts)


def compared(other, program, case, wanted, folder, most):
    """The difference on the other machine, or nothing. It is a difference, too, if the text cannot be converted."""
    try:
        text = other.text(case.text(program, other.compiles), case.limits["heap"], case.limits["stack"])
    except other.unlike as why:
        return "the text cannot be converted for %s: %s" % (other.name, why)
    path = os.path.join(folder, case.name.replace("/", "_") + ".s")
    with open(path, "wb") as file:
        file.write(text)
    return difference(other, case, wanted, other.run(path, case.stdin, most))


def judge(other, program, case, folder):
    """Whether a case passes, or None if it is left out, and the reason."""
    if other.leaves_out(case):
        return None, other.leaves_out(case)
    wanted = case.expected or case.run(program)
    if wanted[0] not in STATUSES:
        return None, "cases that end with another status"
    listed = other.listed.get(case.name)
    why = compared(other, program, case, wanted, folder, other.most_of_listed if listed else other.most)
    if not listed:
        return not why, why
    return bool(why), "no difference, but compare/%s lists it, so remove its line there: %s" % (other.list, listed)


def own_program(*name):
    """The path of the program of this repository, or of the one of a name, which is built first if necessary."""
    done = subprocess.run([os.path.join(ROOT, "release", "program"), *name], stdout=subprocess.PIPE, text=True)
    if done.returncode:
        sys.exit(done.returncode)
    return done.stdout.strip()


def parser_of(description):
    parser = argparse.ArgumentParser(description=description, formatter_class=argparse.RawDescriptionHelpFormatter)
    parser.add_argument("--programs", type=int, metavar="N", default=0)
    parser.add_argument("--texts", type=int, metavar="N", default=0)
    parser.add_argument("--seed", type=int, metavar="S", default=1)
    parser.add_argument("--program", type=os.path.realpath)
    parser.add_argument("--jobs", type=int, metavar="N", default=os.cpu_count())
    parser.add_argument("--keep", metavar="FOLDER")
    parser.add_argument("names", nargs="*", metavar="NAME")
    return parser


def all_compared(command, other, given):
    """Compares the cases that the arguments name, prints each that fails, and counts. Returns the status of the command of this name."""
    if other.missing():
        print("%s: no case was run, because %s is not installed: apt-get install %s" % (command, other.name, " ".join(sorted(other.missing()))))
        return 0
    program = given.program or own_program()
    counts, left_out = collections.Counter(), collections.Counter()
    with tempfile.TemporaryDirectory() as work, concurrent.futures.ThreadPoolExecutor(max(1, given.jobs)) as pool:
        cases, folder = list(chosen(given, work)), given.keep or work
        if not cases:
            sys.exit("%s: there are no cases of `run` or `exec` to compare: name others" % command)
        os.makedirs(folder, exist_ok=True)
        for case, (passes, why) in zip(cases, pool.map(lambda case: judge(other, program, case, folder), cases)):
            if passes is None:
                left_out[why] += 1
            else:
                counts[passes] += 1
            if passes is False:
                print("FAIL %s: %s" % (case.name, why), flush=True)
    if not (given.names or given.programs or given.texts):
        for name in sorted(set(other.listed) - {case.name for case in cases}):
            counts[False] += 1
            print("FAIL %s: there is no such case, so remove its line from compare/%s" % (name, other.list))
    for why, count in sorted(left_out.items()):
        print("left out: %d %s" % (count, why))
    print("%d passed, %d failed" % (counts[True], counts[False]))
    return 1 if counts[False] else 0
