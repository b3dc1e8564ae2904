"""Tests stepping: it compares each variable at each line with a run by `cool eval` of the program with added lines that print the variable."""
import os
import re
import shutil
import subprocess

from .client import EXAMPLES, HERE, NotTried, expect
from .debug_client import begun, done
from .names import editor
from .tables import asked

MOST_LETTERS, MOST_STATES = 80, 120
TOKEN = re.compile(rb'--[^\n]*|"(?:\\[\s\S]|[^"\\])*"|\(\*[\s\S]*?\*\)|[{;]')
PRINTS = {"Int": ".out_int(%s)", "Bool": '.out_string(if %s then "true" else "false" fi)', "String": '.out_string("\\"").out_string(%s).out_string("\\"")'}
OBJECT = '.out_string(if isvoid %s then "void" else %s.type_name() fi)'


class Expression:
    """A row of the table of code (docs/editor.md), below the expression around it."""

    def __init__(self, words, feature, parent):
        self.start, self.end, self.form, place, _, self.count, *latest = words
        self.start, self.end, self.count = int(self.start), int(self.end), int(self.count)
        self.line, self.byte = map(int, place.split(":")[1:])
        self.parent, self.parts, self.latest = parent, [], (latest[0], latest[2]) if latest else None
        self.scope = (parent.scope if parent else feature) + ([self.latest] if parent and self.count > parent.count else [])

    def above(self):
        it = self.parent
        while it:
            yield it
            it = it.parent

    @property
    def begins(self):
        """(byte, line) of its leftmost part; a block begins with its first one."""
        own = [] if self.form == "block" else [(self.byte, self.line)]
        return min(own + [it.begins for it in (self.parts[:1] if self.form == "block" else self.parts)])


def table(file):
    """The expressions of a file, each with the names in scope."""
    told = asked(editor(), file)
    expect("status of cool_editor --code", told.returncode, 0)
    text, attributes, found, formals, parent = file.read_bytes(), {}, [], [], None
    for kind, *row in (line.split() for line in told.stdout.splitlines()):
        if kind == "class":
            attributes[row[0]] = own = []
        elif kind == "attribute":
            own.insert(0, (row[0], row[2]))
        elif kind in ("method", "initial"):
            formals, parent = [], None
        elif kind == "formal":
            formals.insert(0, (row[0], row[2]))
        else:
            while parent and int(row[0]) >= parent.end:
                parent = parent.parent
            owner = re.findall(rb"(?m)^class\s+(\w+)", text[: int(row[3].split(":")[2])])[-1].decode()
            parent = Expression(row, attributes[owner] + formals, parent)
            if parent.parent:
                parent.parent.parts.append(parent)
            found.append(parent)
    return found


def statements(expressions):
    """Of those in blocks each that is the first one on its line: there a line is stopped at."""
    lines = set()
    for it in expressions:
        line = it.begins[1]
        outer = all((one.begins[1] == line) == (one.start == it.start) for one in it.above())
        if it.parent and it.parent.form == "block" and outer and line not in lines:
            lines.add(line)
            yield it


def printing(it):
    """What prints the address of the code of a statement, and the names in scope with what they stand for."""
    parts = ['.out_string(" %s=")' % name + PRINTS.get(kind, OBJECT).replace("%s", name) for name, kind in dict(it.scope).items()]
    return "(new IO).out_string(\"@@0x%08x\")%s.out_string(\"$$\"); " % (it.start, "".join(parts))


def printed(program, room, file):
    """What the program prints at each statement in a run by `eval`, in order: the address of its code, and the value of each name."""
    text, chosen = file.read_bytes(), list(statements(table(file)))
    ends = [it.end() for it in TOKEN.finditer(text) if it[0] in (b"{", b";")]
    for it in sorted(chosen, key=lambda it: -it.begins[0]):
        at = max(end for end in ends if end <= it.begins[0])
        at += re.match(rb"(?:\s|--[^\n]*|\(\*[\s\S]*?\*\))*", text[at:]).end()
        text = text[:at] + printing(it).encode() + text[at:]
    (room / "printing.cl").write_bytes(text)
    ended = subprocess.run([program, "eval", room / "printing.cl"], stdin=subprocess.DEVNULL, stdout=subprocess.PIPE, check=True)
    return [(it[1].decode(), values(it[2].decode())) for it in re.finditer(rb"@@(\w+)((?:(?!@@)[\s\S])*?)\$\$", ended.stdout)], \
        {"0x%08x" % it.start: list(dict(it.scope)) for it in chosen}


def values(said):
    """The values by name, as a debugger shows them."""
    found = dict(re.findall(r' (\w+)=("[^"]*"|[^ "]+)', said))
    return {name: shown(it) for name, it in found.items()}


def shown(value):
    text = value.replace("\n", "\\n").replace("\t", "\\t")
    return text if len(text) <= MOST_LETTERS + 2 else text[: MOST_LETTERS + 1] + '…"'


def of_class(value):
    """An object's class, of what a debugger shows of it: its number there is the debugger's own."""
    return re.sub(r"^(\w+)#\d+$", r"\1", value)


def examples(room, words):
    """By the client of the protocol, over examples that read nothing: on by `stepIn`, and back by `stepBack` to the first line."""
    count = 0
    for name in "list.cl", "shapes.cl", "polynomials.cl":
        (room / name).mkdir()
        wanted, names = printed(words.cool, room / name, EXAMPLES / name)
        client, stop, _ = begun(room / name, words, (EXAMPLES / name).read_text(), stopOnEntry=True, filters=["end"])
        seen, states = [], {}
        while stop["reason"] != "exception" and len(states) < MOST_STATES:
            address, steps = client.value("$pc"), client.value("$instructions")
            states[steps] = {it: of_class(client.value(it)) for it in names.get(address, ())}
            if address in names:
                seen.append((address, states[steps]))
            stop = client.stop("stepIn")
        expect("%s, onwards" % name, seen, wanted[: len(seen)] if stop["reason"] != "exception" else wanted)
        while stop["reason"] != "entry":
            stop = client.stop("stepBack")
            steps = client.value("$instructions")
            expect("%s, back at %s" % (name, steps), {it: of_class(client.value(it)) for it in states.get(steps, ())}, states.get(steps, {}))
        count += len(seen)
        done(client, room / name)
    return "%d states" % count


def emacs_stepping(room, words):
    """examples/list.cl in Emacs, by the commands of dap-mode: on, and back to the first line."""
    mode = ["emacs", "-q", "--batch", "--eval", "(progn (package-initialize) (require 'dap-mode))"]
    if not shutil.which("emacs") or not shutil.which("node") or subprocess.run(mode, stderr=subprocess.DEVNULL).returncode:
        raise NotTried("emacs, elpa-dap-mode or node is not installed")
    file = room / "list.cl"
    file.write_text((EXAMPLES / "list.cl").read_text())
    wanted, names = printed(words.cool, room, file)
    (room / "names").write_text("".join("%s %s\n" % (address, " ".join(its)) for address, its in names.items()))
    given = {"COOL": words.cool, "COOL_MODE": HERE / "emacs" / "cool-mode.el", "COOL_FILE": file, "COOL_NAMES": room / "names", "COOL_SAID": room / "said"}
    given = {name: str(it) for name, it in {**given, "COOL_STATES": MOST_STATES, "HOME": room}.items()}
    call = ["emacs", "-q", "--batch", "-l", HERE / "tests" / "emacs-step.el"]
    said = subprocess.run(call, env={**os.environ, **given}, stdout=subprocess.PIPE, stderr=subprocess.STDOUT)
    expect("status", (said.returncode, said.stdout.decode() if said.returncode else ""), (0, ""))
    onwards, back = [[line.split("\t") for line in part.splitlines()] for part in (room / "said").read_text().split("--\n")]
    states = {steps: (address, dict(zip(names.get(address, ()), map(of_class, its)))) for steps, address, *its in onwards}
    seen = [it for it in states.values() if it[0] in names]
    expect("onwards", seen, wanted[: len(seen)])
    for steps, address, *its in back:
        if steps in states:
            expect("back at %s" % steps, (address, dict(zip(names.get(address, ()), map(of_class, its)))), states[steps])
    expect("states, and back at the first line", (len(states), back[-1][0]), (MOST_STATES, onwards[0][0]))
    return "%d states onwards, %d back" % (len(onwards), len(back))


TESTS = [examples, emacs_stepping]
