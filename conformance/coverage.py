"""Finds which rules of Cool a program exercises, from the output of the programs of this repository.

`cool check` lists its errors, `cool_editor` its names and the forms of its expressions, `cool debug` the expressions that a run reaches, and `cool run`
its end.
"""

import collections
import os
import re
import subprocess
import sys
import tempfile

from call import HERE
from differences import KINDS, LIMITS, error_of

sys.path.append(os.path.join(HERE, "..", "mistakes"))
from lexemes import bare, hidden  # noqa: E402

OPERATORS = ("+", "-", "*", "/", "~", "<", "<=", "=")
# The rules of each group: a name, and the section of the Cool manual. Those of `run` are forms that a run comes to, the others stand in the text.
FORMS = {
    "name": "7.2", "assign": "7.3", "call": "7.4", "call of self": "7.4", "static": "7.4", "if": "7.5", "while": "7.6", "block": "7.7", "let": "7.8",
    "let of several": "7.8", "let without a value": "7.8", "case": "7.9", "case of several": "7.9", "new": "7.10", "isvoid": "7.11",
    **dict.fromkeys(OPERATORS, "7.12"), "not": "7.12", "integer": "7.1", "string": "7.1", "bool": "7.1",
}
RUN = [form for form in FORMS if " " not in form]
TOKENS = {
    "keyword in capitals": rb"(?i)\b(?:class|else|false|fi|if|in|inherits|isvoid|let|loop|pool|then|while|case|esac|new|of|not|true)\b",
    "number with leading zeros": rb"\b0\d", "name with _ or digits": rb"\b[A-Za-z]\w*[_0-9]",
    "carriage return": rb"\r", "form feed": rb"\f", "vertical tab": rb"\v", "tab": rb"\t",
}
STRINGS = {
    "empty string": rb'\A""\Z', "\\n": rb"\\n", "\\t": rb"\\t", "\\b": rb"\\b", "\\f": rb"\\f", '\\"': rb'\\"', "\\\\": rb"\\\\", "\\ and a newline": rb"\\\n",
    "\\ and another letter": rb'\\[^ntbf"\\\n]', "-- or (* in a string": rb"--|\(\*",
}
COMMENTS = {"line comment": rb"\A--", "block comment": rb"\A\(\*", "nested comment": rb"\A\(\*(?s:.*)\(\*", "line comment at the end": rb"\A--[^\n]*\Z"}
CLASSES = {
    "class without a parent": "3.2", "inherits from a class of the program": "3.2", "inherits from IO": "8", "inherits from Object": "3.2",
    "inherits from a later class": "3.2", "class without features": "3", "attribute": "5", "attribute with a value": "5",
    "attribute that is inherited": "5", "method without formals": "6", "method with formals": "6", "method defined anew": "6",
    "basic method defined anew": "6", "method and attribute of one name": "3.1", "formal hides an attribute": "6", "let hides a name": "7.8",
    "case hides a name": "7.9", "formal that is assigned": "6", "several files": "3",
}
TYPES = {
    "SELF_TYPE as result": "4.1", "SELF_TYPE of an attribute": "4.1", "SELF_TYPE in let": "4.1", "new SELF_TYPE": "4.1",
    "self as a value": "4.1", "type of a later class": "3",
    "attribute of type Int, Bool or String": "5.1", "attribute of another type": "5.1",
}
METHODS = {"abort": "8.1", "type_name": "8.1", "copy": "8.1", **dict.fromkeys(("out_string", "out_int", "in_string", "in_int"), "8.2"),
           **dict.fromkeys(("length", "concat", "substr"), "8.4")}
ENDS = ("end of main", "abort", "dispatch to void", "case on void", "no matching branch", "division by zero", "substring out of range")
FAULTS = ("L1", "L2", "L3", "L5", "L6", "S1", "C1", "C2", "C3", "C4", "C5", "C6", *("F%d" % n for n in range(1, 9)), *("E%d" % n for n in range(1, 19)))
RULES = {
    "tokens": {**dict.fromkeys(TOKENS, "10"), **dict.fromkeys(STRINGS, "10.2"), **dict.fromkeys(COMMENTS, "10.3")},
    "classes": CLASSES,
    "types": TYPES,
    "forms": FORMS,
    "run": {form: FORMS[form] for form in RUN},
    "methods": METHODS,
    "ends": dict.fromkeys(ENDS, "13"),
    "faults": {kind: {"L": "10", "S": "11", "C": "3", "F": "5, 6", "E": "12"}[kind[0]] for kind in FAULTS},
}
# A script of the debugger has so many bytes, and so a run of it so many breaks.
MOST_SCRIPT, MOST_BREAKS = 65000, 1500


class Name:
    """A line of `cool_editor`."""

    def __init__(self, line):
        place, self.role, self.name, self.type, self.definition = line.split(" ")
        self.file, _, self.byte = map(int, place.split(":"))


class Programs:
    """The programs of the repository, over the files of a folder."""

    def __init__(self, cool, editor):
        self.cool, self.editor = cool, editor

    def ask(self, folder, words, input=subprocess.DEVNULL):
        return subprocess.run(words, cwd=folder, stdin=input, stdout=subprocess.PIPE, stderr=subprocess.PIPE, check=False)

    def names(self, folder, files):
        came = self.ask(folder, [self.editor, "--", *files])
        return [Name(line) for line in came.stdout.decode().splitlines()] if came.returncode == 0 else []

    def code(self, folder, files):
        """The first address, the form and the place of each expression."""
        came = self.ask(folder, [self.editor, "--code", "--", *files])
        rows = [line.split(" ") for line in came.stdout.decode().splitlines()]
        return [(int(row[1]), row[3], tuple(map(int, row[4].split(":")))) for row in rows if row[0] == "code"]

    def run(self, folder, files, given):
        with open(given, "rb") as input:
            return self.ask(folder, [self.cool, "run", *LIMITS, "--", *files], input)

    def reached(self, folder, files, given, addresses):
        """Those of the addresses at which a run begins an expression. A run is the same each time: so each one breaks only where none has been."""
        left, found = sorted(addresses), set()
        while left:
            breaks = left[:MOST_BREAKS]
            script = "".join("break 0x%08x\n" % it for it in breaks)
            script += "run\n" * ((MOST_SCRIPT - len(script)) // 4)
            with tempfile.NamedTemporaryFile("w", prefix="script-") as file, open(given, "rb") as input:
                file.write(script)
                file.flush()
                came = self.ask(folder, [self.cool, "debug", *LIMITS, file.name, *files], input)
            new = {int(it, 16) for it in re.findall(rb"(?m)^at 0x(\w+) after", came.stderr)} & set(breaks)
            found |= new
            left = [it for it in left if it not in new] if new else left[len(breaks) :]
        return found


def of_text(data):
    """The rules of lexemes that a file touches."""
    code, _ = bare(data)
    spans = [data[start : len(data) if end is None else end] for start, end in hidden(data)]
    strings, comments = [it for it in spans if it[:1] == b'"'], [it for it in spans if it[:1] != b'"']
    for name, pattern in TOKENS.items():
        found = re.findall(pattern, code)
        if any(word not in (word.lower(), word.capitalize()) for word in found) if name == "keyword in capitals" else found:
            yield name
    for rules, texts in ((STRINGS, strings), (COMMENTS, comments)):
        for name, pattern in rules.items():
            if any(re.search(pattern, text) and (name != "line comment at the end" or data.endswith(text)) for text in texts):
                yield name


def before(data, byte):
    """The sign before a name, blanks aside."""
    return data[:byte].rstrip()[-1:]


class Table:
    """The classes of the names of `cool_editor`: the parent, the attributes and the methods of each."""

    def __init__(self, names):
        self.parents, self.features, self.first = {}, collections.defaultdict(list), {}
        self.owner, of = [], None
        for at, row in enumerate(names):
            if row.role == "class":
                of = row.name
                self.first[of] = at
                self.parents[of] = names[at + 1].name if names[at + 1 : at + 2] and names[at + 1].role == "type" else None
            elif row.role in ("attribute", "method"):
                self.features[of].append(row)
            self.owner.append(of)

    def above(self, name):
        """The classes above one, the nearest first."""
        found = []
        while self.parents.get(name) and self.parents[name] not in found:
            name = self.parents[name]
            found.append(name)
        return found

    def has_above(self, of, role, name):
        return any(row.role == role and row.name == name for above in self.above(of) for row in self.features[above])


def of_classes(names, files, table):
    """The rules of classes that a program touches."""
    for of, parent in table.parents.items():
        yield {None: "class without a parent", "IO": "inherits from IO", "Object": "inherits from Object"}.get(parent, "inherits from a class of the program")
        if table.first.get(parent, -1) > table.first[of]:
            yield "inherits from a later class"
        rows = table.features[of]
        yield from () if rows else ("class without features",)
        words = {role: {row.name for row in rows if row.role == role} for role in ("attribute", "method")}
        if words["attribute"] & words["method"]:
            yield "method and attribute of one name"
    for at, row in enumerate(names):
        of = table.owner[at]
        if row.role == "attribute":
            yield "attribute"
            yield from of_value(files, names[at + 1])
        elif row.role == "method":
            yield "method without formals" if row.type.startswith("()") else "method with formals"
            if table.has_above(of, "method", row.name):
                yield "method defined anew"
            elif row.name in METHODS and (row.name in ("abort", "copy", "type_name") or "IO" in table.above(of)):
                yield "basic method defined anew"
        elif row.role in ("variable", "assigned") and row.definition not in ("-", "?"):
            yield from of_use(row, names, of, table)
    if len(files) > 1:
        yield "several files"
    yield from hiding(names, table)


def of_value(files, type):
    """Whether an attribute has a value: what stands behind its type."""
    if files[type.file][type.byte + len(type.name) :].lstrip().startswith(b"<-"):
        yield "attribute with a value"


def of_use(row, names, of, table):
    defined = {"%d" % it.file + ":" + str(it.byte): (at, it) for at, it in enumerate(names)}
    file, _, byte = row.definition.split(":")
    at, definition = defined.get(file + ":" + byte, (None, None))
    if definition and definition.role == "attribute" and table.owner[at] != of:
        yield "attribute that is inherited"
    if definition and definition.role == "formal" and row.role == "assigned":
        yield "formal that is assigned"


def hiding(names, table):
    """Names that hide others of one feature, or attributes."""
    bound = set()
    for at, row in enumerate(names):
        if row.role in ("method", "attribute"):
            bound = set()
        elif row.role in ("formal", "let", "case"):
            of = table.owner[at]
            attributes = {it.name for above in (of, *table.above(of)) for it in table.features[above] if it.role == "attribute"}
            if row.name in (bound | attributes if row.role != "formal" else attributes):
                yield {"formal": "formal hides an attribute", "let": "let hides a name", "case": "case hides a name"}[row.role]
            bound.add(row.name)


def of_types(names, files, table):
    """The rules of SELF_TYPE, and of types, by what stands before each."""
    formals = 0
    last = None
    for row in names:
        if row.role == "method":
            formals = row.type.partition(")")[0].count(",") + (not row.type.startswith("()"))
            result = formals + 1
        if row.role != "type":
            if row.role == "variable" and row.name == "self":
                yield "self as a value"
            last = row
            continue
        data = files[row.file]
        place = last.role if last and before(data, row.byte) == b":" else ""
        if last and last.role in ("method", "formal") and place:
            result -= 1
            place = "result" if result == 0 else "formal"
        if row.name == "SELF_TYPE":
            yield {"result": "SELF_TYPE as result", "attribute": "SELF_TYPE of an attribute", "let": "SELF_TYPE in let"}.get(place, "new SELF_TYPE")
        elif place == "attribute":
            yield "attribute of type Int, Bool or String" if row.name in ("Int", "Bool", "String") else "attribute of another type"
        if row.definition not in ("-", "?") and int(row.definition.split(":")[2]) > row.byte and row.definition.startswith("%d:" % row.file):
            yield "type of a later class"


def of_forms(names, code, files):
    """The forms of expressions."""
    for _, form, (file, _, byte) in code:
        yield form
        data = files[file]
        if form == "call" and before(data, byte) != b".":
            yield "call of self"
    yield from of_names(names, files)


def of_names(names, files):
    """The forms that names alone show."""
    cases = collections.Counter()
    for at, row in enumerate(names):
        data = files[row.file]
        if row.role == "let":
            yield "let"
            type = names[at + 1]
            if before(data, row.byte) == b",":
                yield "let of several"
            if not data[type.byte + len(type.name) :].lstrip().startswith(b"<-"):
                yield "let without a value"
        elif row.role == "case":
            yield "case"
            cases[before(data, row.byte)] += 1
        elif row.role in ("variable", "assigned", "call"):
            call = "call" if before(data, row.byte) == b"." else "call of self"
            yield {"variable": "name", "assigned": "assign", "call": call}[row.role]
    if cases[b";"]:
        yield "case of several"


def touched(programs, folder, names_of_files, given):
    """The rules that the program of these files touches, as pairs of group and name; `given` is the file of its input."""
    files = []
    for name in names_of_files:
        with open(os.path.join(folder, name), "rb") as file:
            files.append(file.read())
    found = {("tokens", name) for data in files for name in of_text(data)}
    came = programs.run(folder, names_of_files, given)
    kinds = {kind.decode() for kind in KINDS.findall(came.stderr)} if came.returncode == 1 else set()
    found |= {("faults", kind) for kind in kinds if kind in FAULTS}
    names = programs.names(folder, names_of_files)
    if names:
        table = Table(names)
        found |= {("classes", name) for name in of_classes(names, files, table)} | {("types", name) for name in of_types(names, files, table)}
        found |= {("forms", name) for name in of_names(names, files)}
    if came.returncode in (0, 3):
        found |= of_run(programs, folder, names_of_files, given, names, files)
        error = error_of(came.stdout) if came.returncode else "end of main"
        found |= {("ends", error)} if error in ENDS else set()
    return found


def of_run(programs, folder, names_of_files, given, names, files):
    """What the text of a program has, and its run comes to."""
    code = programs.code(folder, names_of_files)
    reached = programs.reached(folder, names_of_files, given, {address for address, *_ in code})
    at_run = [row for row in code if row[0] in reached]
    calls = {(row.file, row.byte): row.name for row in names if row.role == "call" and row.definition == "-"}
    methods = {calls.get((place[0], place[2])) for _, form, place in at_run if form in ("call", "static")} & set(METHODS)
    return ({("forms", name) for name in of_forms(names, code, files)} | {("run", form) for _, form, _ in at_run} | {("methods", name) for name in methods})


def section(group, name):
    """The section of the manual that has a rule."""
    return RULES[group][name]


def program_of(path):
    """The folder and the names of the files of a program."""
    path = os.path.abspath(path)
    if os.path.isdir(path):
        return path, sorted(name for name in os.listdir(path) if name.endswith(".cl"))
    return os.path.dirname(path), [os.path.basename(path)]


def cover(cool, editor, paths, given):
    """Tells which rules some programs touch, each a file or the files of a folder: a line a rule, and how many of each group are touched."""
    programs, counts, first = Programs(cool, editor), collections.Counter(), {}
    for path in paths:
        folder, names = program_of(path)
        for rule in touched(programs, folder, names, given):
            counts[rule] += 1
            first.setdefault(rule, path)
    print("group\trule\tmanual\tprograms\tfirst")
    for group, rules in RULES.items():
        for name, manual in rules.items():
            print(group, visible(name), manual, counts[group, name], first.get((group, name), "-"), sep="\t")
    for group, rules in RULES.items():
        reached = sum(bool(counts[group, name]) for name in rules)
        print(f"{group}: {reached} of {len(rules)} rules")
    return 0


def visible(name):
    return name.replace("\n", "\\n")
