"""Reads WebAssembly assembly as clang writes it: its functions, and the lines between them."""
import re

LABEL = re.compile(r"([\w.$]+):")
CALL = re.compile(r"\tcall\t([\w.$]+)")
TYPE = re.compile(r"\(([^()]*)\) -> \(([^()]*)\)$")
KIND = re.compile(r"[ifv]\w+")


def tabbed(instructions):
    return ["\t" + it.replace(" ", "\t", 1) for it in instructions]


class Function:
    """A function: its name, the line of its type, the kinds of its parameters, of what it answers and of its locals, and its code."""

    def __init__(self, name, typed):
        self.name, self.typed = name, typed
        self.parameters, self.answers = map(KIND.findall, TYPE.search(typed).groups())
        self.locals, self.code = [], []

    def read(self, line):
        if line.startswith("\t.local"):
            self.locals = KIND.findall(line.removeprefix("\t.local"))
        else:
            self.code.append(line)

    def new_local(self, kind):
        self.locals.append(kind)
        return len(self.parameters) + len(self.locals) - 1

    def calls(self):
        return {it[1] for it in map(CALL.match, self.code) if it}

    def lines(self):
        kinds = [f"\t.local\t{', '.join(self.locals)}"] if self.locals else []
        return [self.typed, *kinds, *self.code]


def parts(lines):
    """The parts of a file: each function, and each other line as it is."""
    function, label = None, None
    for line in lines:
        if function:
            function.read(line)
            if line == "\tend_function":
                yield function
                function = None
        elif label and line.startswith("\t.functype"):
            function = Function(label[1], line)
        else:
            yield line
        label = LABEL.match(line)
