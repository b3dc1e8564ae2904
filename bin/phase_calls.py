"""Shared by the filters that run one phase of the compiler: reads their arguments, ends them with a status, and calls `cool` on files made from texts."""
import os
import re
import subprocess
import sys
import tempfile

from phase_tokens import HERE

BAD_ARGUMENTS, REFUSED = 2, 1


class Asked:
    """The options and file names of a call. A filter takes only the options that it names."""

    def __init__(self, usage, *options):
        self.lines, self.told, self.longest, self.names, self.usage = "first", True, 65535, [], usage
        words = sys.argv[1:]
        while words:
            word = words.pop(0)
            if word == "--":
                self.names += words
                break
            if word in options:
                self._take(word, words)
            elif word.startswith("-") and word != "-":
                self.refuse()
            else:
                self.names.append(word)

    def _take(self, option, words):
        if option == "--no-lines":
            self.told = False
        elif option == "--lines" and words and words[0] in ("first", "mark"):
            self.lines = words.pop(0)
        elif option == "--longest-string" and words and re.fullmatch("[0-9]{1,9}", words[0]):
            self.longest = int(words.pop(0))
        else:
            self.refuse()

    def refuse(self):
        refuse("usage: " + self.usage, BAD_ARGUMENTS)


def refuse(why, status=REFUSED):
    sys.stderr.write("%s: %s\n" % (os.path.basename(sys.argv[0]), why))
    sys.exit(status)


def halt(lines, kind):
    """Ends as the phases of courses do if a program has errors."""
    for line in lines:
        sys.stderr.buffer.write(line + b"\n")
    sys.stderr.write("Compilation halted due to %s errors\n" % kind)
    sys.exit(REFUSED)


def write(lines):
    write_bytes(b"".join(line + b"\n" for line in lines))


def write_bytes(data):
    try:
        sys.stdout.buffer.write(data)
        sys.stdout.buffer.flush()
    except OSError:
        os.dup2(os.open(os.devnull, os.O_WRONLY), 1)
        sys.exit(8)


class Files:
    """Texts of a program as files of a temporary folder, which is the current folder within a `with`. A name that leads out of it is replaced."""

    def __init__(self, named):
        self.names, self.paths = [name for name, _ in named], []
        self.folder = tempfile.TemporaryDirectory()
        for number, (name, text) in enumerate(named):
            path = os.fsdecode(name)
            if path.startswith("/") or ".." in path.split("/") or not path or path in self.paths:
                path = "%d/%s" % (number, os.path.basename(path) or "text.cl")
            full = os.path.join(self.folder.name, path)
            os.makedirs(os.path.dirname(full), exist_ok=True)
            with open(full, "wb") as file:
                file.write(text)
            self.paths.append(path)

    def __enter__(self):
        self.before = os.getcwd()
        os.chdir(self.folder.name)
        return self

    def __exit__(self, *_):
        os.chdir(self.before)
        self.folder.cleanup()


def cool(command, files):
    """The result of a command of `cool` for Files: its status, its output, and its messages, in which the files have their own names."""
    done = subprocess.run([os.environ.get("COOL") or HERE + "/../cool", command, "--", *files.paths], stdout=subprocess.PIPE, stderr=subprocess.PIPE)
    notes = done.stderr
    for name, path in zip(files.names, files.paths):
        notes = re.sub(rb"(?m)^" + re.escape(os.fsencode(path)) + rb":", lambda _, name=name: name + b":", notes)
    return done.returncode, done.stdout, notes
