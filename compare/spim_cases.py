"""Lists the cases that `spim-compare` and `qemu-compare` run: those of folders, the calls of examples/README.md, and those that `random-cases` generates."""
import os
import re
import subprocess

ROOT = os.path.dirname(os.path.dirname(os.path.realpath(__file__)))
CASES = os.path.join(ROOT, "conformance", "cases")
LIMITS = {"heap": 32768, "stack": 8192, "steps": 1000000000}


def read(*path):
    """The bytes of a file, or no bytes if there is no such file."""
    path = os.path.join(*path)
    if not os.path.isfile(path):
        return b""
    with open(path, "rb") as file:
        return file.read()


class Case:
    """A call in a folder, its input, and the expected status and output, or None if a run must compute them."""

    def __init__(self, name, folder, words, stdin, expected=None):
        self.name, self.folder, self.words, self.stdin, self.expected = name, folder, words, stdin, expected
        self.limits, self.files = dict(LIMITS), []
        rest = words[1:]
        while rest:
            word = rest.pop(0)
            key, equals, value = word.partition("=")
            if word == "--":
                self.files, rest = self.files + rest, []
            elif key[:2] == "--" and key[2:] in LIMITS:
                self.limits[key[2:]] = int(value if equals else rest.pop(0))
            elif word != "--fold":
                self.files.append(word)

    def run(self, program):
        done = subprocess.run([program] + self.words, cwd=self.folder, input=self.stdin, capture_output=True)
        return done.returncode, done.stdout

    def text(self, program, word):
        """The assembly text that is run, or its image: the output of this command of the program."""
        if self.words[0] == "exec":
            return read(self.folder, self.files[0])
        done = subprocess.run([program, word, "--"] + self.files, cwd=self.folder, stdout=subprocess.PIPE)
        return done.stdout


def cases_of(folder, names):
    """The cases of a folder that run a program."""
    for name in names:
        place = os.path.join(folder, name)
        words = os.fsdecode(read(place, "words")).split("\n")[:-1]
        if words[:1] in (["run"], ["exec"]):
            status = read(place, "status")
            expected = (int(status), read(place, "stdout")) if status else None
            yield Case(name, place, words, read(place, "input"), expected)


def examples():
    """The calls of examples/README.md."""
    for row in re.findall(r"^\| `\./cool (.*?)` \|", read(ROOT, "examples", "README.md").decode(), re.MULTILINE):
        call, _, source = row.partition(" <")
        stdin = source[2:].strip().encode() + b"\n" if source.startswith("<<") else read(ROOT, source.strip())
        yield Case(call.split()[-1], ROOT, call.split(), stdin)


def made(kind, count, seed, work):
    """Randomly generated cases."""
    folder = os.path.join(work, kind)
    subprocess.run([os.path.join(ROOT, "compare", "random-cases"), "--seed", str(seed), kind, str(count), folder], check=True)
    return cases_of(folder, sorted(os.listdir(folder)))


def chosen(given, work):
    """The cases that the arguments name."""
    for name in given.names:
        if name in os.listdir(CASES):
            yield from cases_of(CASES, [name])
        else:
            yield from cases_of(name, sorted(os.listdir(name)))
    if given.programs:
        yield from made("programs", given.programs, given.seed, work)
    if given.texts:
        yield from made("texts", given.texts, given.seed, work)
    if not (given.names or given.programs or given.texts):
        yield from examples()
        yield from cases_of(CASES, sorted(name for name in os.listdir(CASES) if name.startswith(("run-", "exec-"))))
