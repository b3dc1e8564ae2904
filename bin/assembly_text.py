"""Reads assembly as `cool asm` writes it and `cool exec` accepts it, for the filters `asm-for-spim` and `asm-for-linux`. docs/assembly.md defines the text."""
import argparse
import functools
import re
import sys

KIB = 1024
WORD = re.compile(
    rb'[ \t\r,]*(?:(?P<comment>#.*)|(?P<string>"(?:[^"\\]|\\[nt"\\])*")|(?P<name>[A-Za-z_.][A-Za-z0-9_.]*)'
    rb"|(?P<number>-?0x[0-9A-Fa-f]+|-?[0-9]+)|(?P<register>\$[A-Za-z0-9]+)|(?P<sign>[:()])|$)",
    re.DOTALL,
)
ESCAPES = {b"n": b"\n", b"t": b"\t", b'"': b'"', b"\\": b"\\"}
BRANCHES = (b"beq", b"bne", b"blez", b"bgtz", b"bltz", b"bgez")
JUMPS = (b"j", b"jal")
TWO_WORDS = (b"la", b"li", b"bgt", b"bge", b"blt", b"ble", b"mul")
STRINGS = (b".ascii", b".asciiz")


def value(word):
    """A number, as `exec` reads it: leading zeros mean nothing."""
    return int(word, 16 if b"x" in word else 10)


class Unlike(Exception):
    """A text that cannot be converted, with the reason."""


class Line:
    """The labels of a line, and the words of its statement, each with its kind."""

    def __init__(self, text):
        self.labels, self.words, at = [], [], 0
        while at < len(text):
            found = WORD.match(text, at)
            if not found:
                raise Unlike("unknown token in %s: see docs/assembly.md for what a line may have" % ascii(text.decode("utf-8", "replace")))
            at = found.end()
            if found.lastgroup not in (None, "comment"):
                self.words.append((found.lastgroup, found.group(found.lastgroup)))
        while len(self.words) > 1 and self.words[0][0] == "name" and self.words[1][1] == b":":
            self.labels.append(self.words[0][1])
            self.words = self.words[2:]
        self.head = self.words[0][1] if self.words else b""
        # The words of text that the statement is.
        self.size = 0 if self.head[:1] in (b"", b".") else 2 if self.head in TWO_WORDS else 1

    def aligns_to_bytes(self):
        """Does nothing here. In SPIM words would stand at any address from there on."""
        return self.head == b".align" and value(self.words[1][1]) == 0

    def most_data(self):
        """At least the bytes of data that the statement is, with zeros before them."""
        if self.head in (b".word", b".byte"):
            return 4 * len(self.words)
        if self.head in STRINGS:
            return len(self.words[1][1]) + 4
        if self.head == b".space":
            return value(self.words[1][1]) + 4
        return 1 << value(self.words[1][1]) if self.head == b".align" else 0


def lines_of(text):
    """The lines of a text. Most of a compiled program stand there many times."""
    if text[:1] == b"\x7f":
        raise Unlike("this is an image: give the assembly text, as `cool asm` writes it")
    line_of = functools.lru_cache(maxsize=None)(Line)
    lines = [line_of(line) for line in text.split(b"\n")]
    if not any(line.size for line in lines):
        raise Unlike("the text has no instructions: give that of a whole program, as `cool asm` writes it")
    return lines


def lines_of_string(head, string):
    """A string as it is, or as bytes where others read it otherwise: with a backslash, or a byte that cannot be printed as ASCII."""
    data = re.sub(rb"\\(.)", lambda found: ESCAPES[found.group(1)], string[1:-1])
    if re.fullmatch(rb"[\t\n -\[\]-~]*", data):
        return [head + b" " + string]
    data += b"\0" * (head == b".asciiz")
    return [b".byte " + b", ".join(b"%d" % byte for byte in data[at : at + 16]) for at in range(0, len(data), 16)]


def written(words):
    """A statement with commas between its operands, and none in `imm(rs)`."""
    shown = [word for _, word in words]
    if shown[-1] == b")":
        offset = shown[-4] if words[-4][0] == "number" else b"0"
        shown[2:] = [offset + b"(" + shown[-2] + b")"]
    return b" ".join([shown[0], b", ".join(shown[1:])]).rstrip()


def targets(lines):
    """Where the branches by a number go: the place of each in the list, and that of its target. Others take labels alone."""
    starts, goals, at, in_text = {}, {}, 0, True
    for place, line in enumerate(lines):
        if line.head in (b".text", b".data"):
            in_text = line.head == b".text"
        elif in_text and line.size:
            starts[at] = place
            at += line.size
            if line.head in BRANCHES and line.words[-1][0] == "number":
                goals[place] = at + value(line.words[-1][1])
            if line.head in JUMPS and line.words[-1][0] == "number":
                raise Unlike("line %d jumps to an address: use a label" % (place + 1))
    for place, goal in goals.items():
        if goal not in starts:
            raise Unlike("line %d branches to a place without an instruction: use a label" % (place + 1))
    return {place: starts[goal] for place, goal in goals.items()}


def labels_of_targets(goes_to):
    """A label for each place to which a branch by a number goes."""
    return {place: b"skip_%d" % number for number, place in enumerate(sorted(set(goes_to.values())))}


def kib(most):
    """What takes a size in KiB from 4, as `cool` does, up to this."""
    def size(word):
        if not 4 <= int(word) <= most:
            raise ValueError
        return int(word)
    return size


def filtered(name, description, made, heap, stack):
    """Reads the arguments of the filter of this name, and writes the result of `made` for a text and the sizes of heap and stack. Returns the status."""
    parser = argparse.ArgumentParser(prog=name, description=description, formatter_class=argparse.RawDescriptionHelpFormatter)
    parser.add_argument("--heap", type=kib(262144), metavar="KIB", default=heap)
    parser.add_argument("--stack", type=kib(65536), metavar="KIB", default=stack)
    parser.add_argument("file", metavar="FILE", nargs="?", default="/dev/stdin")
    given = parser.parse_args()
    try:
        with open(given.file, "rb") as file:
            text = file.read()
        with open(1, "wb", closefd=False) as out:
            out.write(made(text, given.heap, given.stack))
        return 0
    except BrokenPipeError:
        pass
    except OSError as why:
        print("%s: %s: %s" % (name, why.filename or "standard output", why.strerror), file=sys.stderr)
    except Unlike as why:
        print("%s: %s" % (name, why), file=sys.stderr)
    except (IndexError, ValueError):
        print("%s: the text is not correct: `cool exec` reports the line and the error" % name, file=sys.stderr)
    return 1
