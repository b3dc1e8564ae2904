"""Tests the output of `cool_editor --code` against the debugger's list of the same program, and against rows that were computed by hand."""
import re
import subprocess

from .client import EXAMPLES, expect
from .names import editor

# Offsets by docs/runtime.md: attributes behind a head of three words, the parent's first; the last formal 12 bytes above the frame; what `let` pushes below it.
TEXT = """class Shape { side : Int <- 3; grow(by : Int, times : Int) : Int { by * times }; };
class Square inherits Shape { name : String; };
class Main { main() : Object { let square : Square <- new Square in square@Shape.grow(1, ~2) }; };
"""
ROWS = """class Shape
attribute side 12($s0) Int
class Square
attribute name 16($s0) String
attribute side 12($s0) Int
class Main
initial side
code integer 0:1:28 0 1 side 12($s0) Int
method grow
formal times 12($fp) Int
formal by 16($fp) Int
code * 0:1:70 0 3 times 12($fp) Int
code name 0:1:67 0 3 times 12($fp) Int
code name 0:1:72 1 3 times 12($fp) Int
method main
code let 0:3:167 0 0
code new 0:3:186 0 0
code static 0:3:213 1 1 square -4($fp) Square
code integer 0:3:218 1 1 square -4($fp) Square
code ~ 0:3:221 2 1 square -4($fp) Square
code integer 0:3:222 2 1 square -4($fp) Square
code name 0:3:200 3 1 square -4($fp) Square
"""

BASIC = "Object", "IO", "Int", "Bool", "String"


def asked(program, *words):
    return subprocess.run([program, "--code", *map(str, words)], stdout=subprocess.PIPE, stderr=subprocess.PIPE, text=True)


def rows_without_addresses(text):
    return re.sub(r"^(initial|method|code) \d+ \d+ ", r"\1 ", text, flags=re.M)


def code_is_told(room, words):
    """The rows of a program, but for their addresses, which the next test compares."""
    (room / "one.cl").write_text(TEXT)
    told = asked(editor(), room / "one.cl")
    basic = "".join("class %s\n" % name for name in BASIC)
    expect("rows", rows_without_addresses(told.stdout).split("\n"), (basic + ROWS).split("\n"))
    expect("status and notes", (told.returncode, told.stderr), (0, ""))


def code_stands_at_its_addresses(room, words):
    """A method begins at the address of its label, as the debugger lists it; an expression lies within the one around it."""
    compared = 0
    for name in ("hello", "list", "queens", "shapes"):
        source = EXAMPLES / (name + ".cl")
        rows = [row.split() for row in asked(editor(), source).stdout.splitlines()]
        methods = [row for row in rows if row[0] == "method"]
        assembly = subprocess.run([words.cool, "asm", source], stdout=subprocess.PIPE, text=True, check=True).stdout
        labels = [label for label in re.findall(r"^(\w+\.\w+):$", assembly, re.M) if label.split(".")[0] not in BASIC]
        (room / "script").write_text("".join("list %s 1\n" % label for label in labels))
        noted = subprocess.run([words.cool, "debug", room / "script", source], stdin=subprocess.DEVNULL, capture_output=True, text=True).stderr
        listed = [int(line.split(":")[0], 16) for line in noted.splitlines() if re.match(r"0x[0-9a-f]{8}: ", line)]
        expect("methods of " + name, [(int(row[1]), row[3]) for row in methods], [(at, label.split(".")[1]) for at, label in zip(listed, labels)])
        around = []
        for row in rows:
            if row[0] in ("initial", "method", "code"):
                begin, end = int(row[1]), int(row[2])
                while around and (row[0] != "code" or begin >= around[-1][1]):
                    around.pop()
                inside = not around or around[-1][0] <= begin and end <= around[-1][1]
                expect("%s: %s within what is around it" % (name, " ".join(row)), begin < end and inside, True)
                around.append((begin, end))
        compared += len(rows)
    return "%d rows" % compared


def code_of_no_program(room, words):
    (room / "one.cl").write_text("class Main { main() : Int { true }; };\n")
    for said, names, status, note in (
        ("not typed", [room / "one.cl"], 1, "not a program"),
        ("no names", [], 2, "bad command line"),
        ("an option", ["-x"], 2, "bad command line"),
        ("a long name", ["a" * 4097], 2, "bad command line"),
        ("a name that is no option", ["--", "-x"], 10, "-x: missing"),
        ("a folder", [room], 10, "%s: read failed" % room),
    ):
        told = asked(editor(), *names)
        expect(said, (told.returncode, told.stdout, told.stderr), (status, "", "cool_editor: %s\n" % note))


TESTS = [code_is_told, code_stands_at_its_addresses, code_of_no_program]
