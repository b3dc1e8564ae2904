"""Reads a test case of the folder cases/, which has a command and its expected results, and finds differences between these and the actual results."""

import os
import re

from call import CASES, Refusal

# The files of a case that do not belong to its program.
EXPECTED = ("about", "words", "status", "input", "stdout", "stderr")
# So many bytes are looked at for the first line that differs.
MOST_SHOWN = 65536


class Case:
    """The case of a name, of this folder of cases or of another. All that is expected is read here, so no program that is run later changes it."""

    def __init__(self, name, cases=CASES):
        self.name = name
        self.kind = name.partition("-")[0]
        self.folder = os.path.join(cases, name)
        if name in ("", ".", "..") or "/" in name or not os.path.isdir(self.folder):
            raise Refusal(f"there is no case {name} in {cases}")
        self.about = self._read("about", b"").decode("utf-8", "surrogateescape").removesuffix("\n")
        if not re.fullmatch(r"(manual|choice): .+", self.about):
            raise Refusal(f"{name}/about must have one line, `manual: ..` or `choice: ..`")
        words = self._read("words")
        self.words = words.removesuffix(b"\n").split(b"\n") if words else []
        self.output = self._read("stdout", b"")
        self.notes = self._read("stderr", b"")
        status = self._read("status").removesuffix(b"\n")
        if not status.isdigit():
            raise Refusal(f"{name}/status must have one number")
        self.status = int(status)

    def _read(self, part, missing=None):
        """The bytes of a file of the case, or `missing` if the case does not have it."""
        path = os.path.join(self.folder, part)
        if missing is not None and not os.path.lexists(path):
            return missing
        with open(path, "rb") as file:
            return file.read()

    def differences(self, came, mode):
        """For each part that differs: in short what is wrong, and the lines that show it. The mode says which parts count; all if it is ''."""
        if mode:
            wanted, found = verdict(self.status), verdict(came.status)
            if found != wanted:
                yield self._of_status("verdict", came, wanted, found)
        if not mode or (mode == "--outputs" and self.status == 0 and self.kind != "check"):
            yield from self._difference("output", self.output, came.output)
        if not mode:
            yield from self._difference("notes", self.notes, came.notes)
            if came.status != self.status:
                yield self._of_status("status", came, str(self.status), str(came.status))

    def _of_status(self, part, came, wanted, found):
        return f"status {came.status} for {self.status}", [f"FAIL {self.name}: {part}", f"  - {wanted}", f"  + {found}"]

    def _difference(self, part, wanted, file):
        if os.fstat(file.fileno()).st_size != len(wanted) or read(file, len(wanted)) != wanted:
            yield part, [f"FAIL {self.name}: {part}", *show_difference(wanted, file)]


def verdict(status):
    """What a status says about a program. That of a command that was not found or was killed by a signal says nothing."""
    if status >= 126:
        return f"no verdict, status {status}"
    return "not 0" if status else "0"


def read(file, most):
    file.seek(0)
    return file.read(most)


def show_difference(wanted, file):
    """The first line in which the expected bytes and those of the file differ."""
    size = os.fstat(file.fileno()).st_size
    wanted_lines, found_lines = lines(wanted[:MOST_SHOWN]), lines(read(file, MOST_SHOWN))
    at = 0
    while wanted_lines[at : at + 1] == found_lines[at : at + 1] != []:
        at += 1
    return [
        f"  line {at + 1}, of {len(wanted)} and {size} bytes",
        f"  - {visible(wanted_lines[at : at + 1])}",
        f"  + {visible(found_lines[at : at + 1])}",
    ]


def lines(text):
    return re.findall(rb"[^\n]*\n|[^\n]+", text)


def visible(line):
    """A line, or none, with `$` for the newline at its end, and as `\\x00` each byte that would not be seen."""
    text = b"".join(line)
    text = text[:-1] + b"$" if text.endswith(b"\n") else text
    return re.sub(rb"[^ -~]", lambda byte: b"\\x%02x" % ord(byte[0]), text).decode("ascii")[:100]
