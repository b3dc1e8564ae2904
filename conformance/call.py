"""Shared by the scripts of this folder: it reads their options, finds the program of this repository, and ends a script with its status or an error message."""

import os
import re
import signal
import subprocess
import sys

HERE = os.path.dirname(os.path.realpath(__file__))
CASES = os.path.join(HERE, "cases")


class Refusal(Exception):
    """A call that cannot be done, with the reason."""


class BadWords(Exception):
    """The arguments of a call are not valid."""


def take_options(words, options):
    """Removes options from the front of the arguments, and sets them: flags, texts or numbers, by the type of the default."""
    while words and words[0].startswith("-"):
        name = words.pop(0)
        if isinstance(options.get(name), bool):
            options[name] = True
        elif words and isinstance(options.get(name), str):
            options[name] = words.pop(0)
        elif name in options and words and re.fullmatch("[1-9][0-9]{0,8}", words[0]):
            options[name] = int(words.pop(0))
        else:
            raise BadWords


def shown(name):
    """A name that is safe to print on a terminal: with `?` for control characters and invisible ones."""
    return "".join(letter if letter.isprintable() else "?" for letter in name)


def own_program(name="cool"):
    """The path of a program of the repository, which is proved and built first if necessary."""
    found = subprocess.run([os.path.join(HERE, "..", "release", "program"), name], stdout=subprocess.PIPE, check=False)
    if found.returncode:
        sys.exit(125)
    return os.fsdecode(found.stdout.removesuffix(b"\n"))


def end_with(name, usage, work):
    """Ends with the status that `work` returns, or, if the work cannot be done, with 2 and a line that says why."""
    os.environ["LC_ALL"] = "C"
    for stream in (sys.stdout, sys.stderr):
        stream.reconfigure(encoding="utf-8", errors="surrogateescape")
    for number in (signal.SIGTERM, signal.SIGHUP):
        signal.signal(number, signal.default_int_handler)
    try:
        sys.exit(work(sys.argv[1:]))
    except KeyboardInterrupt:
        sys.exit(130)
    except BadWords:
        print(f"usage: {name} {usage}", file=sys.stderr)
    except Refusal as refusal:
        print(name, refusal, sep=": ", file=sys.stderr)
    except OSError as error:
        print(name, *filter(None, [shown(os.fsdecode(error.filename or "")), error.strerror]), sep=": ", file=sys.stderr)
        # A later write to standard output would fail again.
        os.dup2(os.open(os.devnull, os.O_WRONLY), sys.stdout.fileno())
    sys.exit(2)
