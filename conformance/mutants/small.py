"""The small compiler checks and runs Cool programs; single edits of it make mutants (wrong compilers). It is simple, and written apart from the reference."""

import os
import sys
import threading

from classes import Classes
from lexing import Fault, Lexer
from parsing import Parser
from running import Machine, OutOfSteps
from typing_rules import Checker


def program(texts):
    """The classes of a legal program, of the texts of its files by name."""
    definitions = []
    for name, text in texts:
        definitions += Parser(Lexer(text).tokens(), name).file_classes()
    classes = Classes(definitions)
    for definition in definitions:
        Checker(classes, definition.name).check()
    return classes


def perform(word, texts, given):
    """What `check` or `run` writes and notes, and its status."""
    try:
        classes = program(texts)
    except Fault as fault:
        return "", f"{fault}\n", 1
    if word == "check":
        return "", "", 0
    try:
        output, status = Machine(classes, given).run()
    except OutOfSteps:
        return "", "step limit\n", 6
    return output, "", status


def deep(work):
    """Does some work on a stack that holds deep programs."""
    sys.setrecursionlimit(1000000)
    threading.stack_size(1 << 29)
    thread = threading.Thread(target=work)
    thread.start()
    thread.join()


def main(words):
    word, names = words[0], words[1:]
    texts, came = [], []
    for name in names:
        with open(name, "rb") as file:
            texts.append((name, file.read().decode("latin-1")))
    given = sys.stdin.buffer.read().decode("latin-1") if word == "run" else ""
    deep(lambda: came.extend(perform(word, texts, given)))
    output, notes, status = came or ("", "", 70)
    sys.stdout.buffer.write(output.encode("latin-1"))
    sys.stdout.flush()
    sys.stderr.write(notes)
    os._exit(status)
