"""Runs an assembly text on the machine of this repository, if asked with a trace: tracing.s writes a record of each method call into its output."""

import itertools
import os
import re
import subprocess
from typing import NamedTuple

from call import HERE
from differences import read_whole

# The sizes of `run`, and where the machine then allows loads: data, heap and stack.
SIZES = ("--heap", "32768", "--stack", "8192")
SEGMENTS = ("tracing.saved", "tracing.data_end", "0x20000000", "0x22000000", "0x7f800000", "0x80000000", 0, 0)
# A record takes fewer instructions, except with many long strings. It has this number of words of the stack at most, besides one.
RECORD_STEPS, MOST_WORDS = 2000, 20
# The bytes of the code with which a traced method begins.
HEAD_BYTES = 16
MOST_OUTPUT = 1 << 24
# The status of `exec` at the limit of instructions, and that of a run whose records cannot be read, which no run has.
STEP_LIMIT, NO_RECORDS = 6, -1
NAME = rb"[A-Za-z_.][A-Za-z0-9_.]*"
HEAD = re.compile(rb"(?:[ \t\r,]*" + NAME + rb"[ \t\r,]*:)+")
METHOD = re.compile(rb"[A-Z][A-Za-z0-9_]*\.[a-z][A-Za-z0-9_]*")
BASIC = ("Int", "Bool", "String")


class Call(NamedTuple):
    """A call of a method. `pieces` is what was written since the call before: bytes, with the return address of the call that wrote them, or None.
    `words` are those on top of the stack; the first was pushed last. A value is as a message shows it."""

    pieces: list
    name: str
    back: int
    receiver: str
    words: list
    attributes: list


class End(NamedTuple):
    """The end of a run."""

    pieces: list


class Plain(NamedTuple):
    """The result of a run without records."""

    status: int
    output: bytes
    notes: str


class Text:
    """A text of assembly: its labels, and which of them are those of methods."""

    def __init__(self, data):
        self.lines = data.split(b"\n")
        self.labels = [label for line in self.lines for label in labels_of(line)]
        self.methods = [label.decode() for label in self.labels if METHOD.fullmatch(label)]

    def traced(self, names, formals, classes):
        """The text with a record at each method of `names`, which have these numbers of formals."""
        numbers = {name.encode(): 4 * at for at, name in enumerate(names)}
        known = set(self.labels)
        prototypes = {name: f"{name}_protObj" if b"%s_protObj" % name.encode() in known else "tracing.none" for name in (*BASIC, *classes)}
        tables = {
            "segments": SEGMENTS, "words_of": [looked_at(count) for count in formals] or [0], "methods": [*names, 0],
            "basic": [prototypes[name] for name in BASIC], "prototypes": [*(prototypes[name] for name in classes), 0],
        }
        data = "".join(f"tracing.{name}: .word {', '.join(map(str, words))}\n" for name, words in tables.items())
        lines = b"\n".join(with_records(line, numbers) for line in self.lines)
        return read_whole(os.path.join(HERE, "tracing.s")) + b"\t.data\n" + data.encode() + b"\t.text\n" + lines + b"\n\t.data\ntracing.data_end:\n"


def labels_of(line):
    head = HEAD.match(line)
    return re.findall(NAME, head.group()) if head else []


def with_records(line, numbers):
    """A line, with the code that writes a record behind its labels if these are methods with a number."""
    heads = b"".join(b"\n\tmove $k0, $ra\n\tli $k1, %d\n\tjal tracing.enter" % numbers[label] for label in labels_of(line) if label in numbers)
    if not heads:
        return line
    end = HEAD.match(line).end()
    return line[:end] + heads + b"\n" + line[end:]


def looked_at(count):
    """The number of words that a record has of the stack, by the number of formals: one more, since `$sp` may point to the next free word."""
    return min(count, MOST_WORDS) + 1


def begun(cool, folder, name, steps):
    """A run of a text of a folder, whose input is the file `input` there."""
    with open(os.path.join(folder, "input"), "rb") as given:
        command = [cool, "exec", *SIZES, "--steps", str(steps), name]
        return subprocess.Popen(command, cwd=folder, stdin=given, stdout=subprocess.PIPE, stderr=subprocess.PIPE)


def run_plain(cool, folder, name, steps):
    """The result of a text of a folder. An output that is too long ends the run."""
    with begun(cool, folder, name, steps) as process:
        output = process.stdout.read(MOST_OUTPUT)
        if len(output) == MOST_OUTPUT:
            process.kill()
            return Plain(process.wait(), output, f"more than {MOST_OUTPUT} bytes of output")
        notes = process.stderr.read().decode("utf-8", "replace").strip()
        return Plain(process.wait(), output, notes)


class Fields:
    """The parts of a stream that each end with a byte 0."""

    def __init__(self, stream):
        self.stream, self.parts, self.rest = stream, [], b""

    def next(self):
        """The next part, or None if the stream ends before its end; `rest` is what is left."""
        while not self.parts:
            data = self.stream.read1(1 << 16)
            if not data or len(self.rest) > MOST_OUTPUT:
                return None
            *self.parts, self.rest = (self.rest + data).split(b"\0")
            self.parts.reverse()
        return self.parts.pop()

    def record(self):
        """The parts up to an empty one, or None if the stream ends before it."""
        found = []
        while True:
            part = self.next()
            if not part:
                return None if part is None else found
            found.append(part)


class Run:
    """A traced run: its calls, and at the end its status. Calls of other methods than `compared` only mark what is written after them."""

    def __init__(self, process, names, formals, classes, compared):
        self.process, self.names, self.formals, self.classes, self.compared = process, names, formals, classes, compared
        self.prototypes, self.addresses, self.tags = {}, {}, {}
        self.written, self.status = bytearray(), None
        self.events = self._events()

    def _events(self):
        """Each call that is compared, and the end."""
        fields, pieces, by = Fields(self.process.stdout), [], None
        while True:
            written = fields.next()
            record = None if written is None else fields.record()
            pieces.append((fields.rest if written is None else written, by))
            self.written += pieces[-1][0]
            if record is None:
                break
            try:
                call = self._call(pieces, record) if self.addresses else self._begin(record)
            except (ValueError, IndexError):  # the program wrote a byte 0
                self.status = NO_RECORDS
                break
            if call:
                by = call.back
            if call and call.name in self.compared:
                yield call
                pieces = []
        self.status = self.status or self.process.wait()
        yield End(pieces)

    def is_faithful(self, plain, size, most):
        """Ends the run when this size of output or this number of calls more is reached. Whether its output up to that size is that without records."""
        if plain.status != STEP_LIMIT:
            next((event for event in itertools.islice(self.events, most) if len(self.written) >= size), None)
        self.process.kill()
        self.process.communicate()
        return plain.output[:size].startswith(self.written[:size]) and (len(self.written) >= size or self.status in (None, plain.status))

    def _begin(self, record):
        """Takes the record before the first call."""
        words_of = {}
        for name in self.classes:
            end = record.index(b";")
            tag, *words_of[name] = record[:end]
            self.tags[tag] = name
            record = record[end + 1 :]
        self.prototypes = {name: [self._value(word) for word in words] for name, words in words_of.items()}
        self.addresses = dict(zip(self.names, map(int, record)))

    def _call(self, pieces, record):
        number, back, receiver, *words = record
        at = int(number) // 4
        values = [self._value(word) for word in words]
        count = looked_at(self.formals[at])
        return Call(pieces, self.names[at], int(back), self._value(receiver), values[:count], values[count:])

    def _value(self, word):
        """A word of a record as a message shows it."""
        tag, _, value = word.partition(b"=")
        name = self.tags.get(tag)
        if name in BASIC:
            return {"Int": value.decode(), "Bool": {b"0": "false", b"1": "true"}.get(value, "no Bool"), "String": f'"{visible(value)}"'}[name]
        return {b"-": "void", b"?": "no object"}.get(tag) or f"an object of {name or 'an unknown class'}"


class Untraced:
    """A run of which only the output is known."""

    def __init__(self, plain):
        self.events, self.addresses = iter([End([(plain.output, None)])]), {}

    def is_faithful(self, plain, size, most):
        return True


def visible(data):
    """Bytes as a message may show them."""
    return re.sub(rb"[^ -~]", lambda byte: {b"\n": rb"\n"}.get(byte.group(), b"\\x%02x" % byte.group()[0]), data).decode("ascii")
