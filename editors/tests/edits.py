"""Tests random edits: after each of them, the errors that cool-lsp reports must be those of `cool check`."""
import random
import re

from .client import EXAMPLES, HERE, Client, due, expect

TOKEN = re.compile(r'[A-Za-z_][A-Za-z_0-9]*|[0-9]+|"[^"\n]*"|[^\sA-Za-z0-9]')
SCRAPS = ["\n", "  ", "-- é 𝒙\n", "(* 𝒙 *)", "(*", "*)", '"', "\\", "\0", "?", "é", "x", "X", "1", "99999999999", "true ", "{", "}", "(", ";", "<-", "<--",
          "\r\n", "\t", '"a\\\nb"', '"a\\\n\0"', ' class Main { main() : Object { 0 }; }; ', " z : Int; ", "isvoid ", "self", "SELF_TYPE", "not "]


def edit(rnd, text):
    """The text after a small edit, as by typing."""
    found = list(TOKEN.finditer(text))
    at = rnd.randrange(len(text) + 1)
    kind = rnd.randrange(8)
    if not found or kind == 0:
        return text[:at] + rnd.choice(SCRAPS) + text[at:]
    if kind == 1:
        return text[:at] + text[at + rnd.randrange(1, 4) :]
    one, other = rnd.choice(found), rnd.choice(found)
    if kind == 2:
        return text[: one.start()] + text[one.end() :]
    if kind == 3:
        return text[: one.start()] + other.group() + text[one.end() :]
    if kind == 4:
        return text[: one.start()] + rnd.choice(SCRAPS) + text[one.start() :]
    if kind == 5:
        return text[: one.end()] + " " + one.group() + text[one.end() :]
    alike = [token for token in found if token.group()[0].isupper() == one.group()[0].isupper() and token.group()[0].isalpha() == one.group()[0].isalpha()]
    return text[: one.start()] + rnd.choice(alike).group() + text[one.end() :]


def three_files(room):
    """A program of three files, in a folder with a blank and a letter above ASCII."""
    folder = room / "a b é"
    folder.mkdir()
    shapes = re.sub(r"(?s)class Main.*?\n};", "", (EXAMPLES / "shapes.cl").read_text())
    whole = {folder / "main.cl": (EXAMPLES / "brackets.cl").read_text() + "class Late inherits Shape { };\n",
             folder / "stack.cl": (EXAMPLES / "stack.cl").read_text(), folder / "shape.cl": shapes}
    for path, text in whole.items():
        path.write_text(text)
    (folder / "cool.files").write_text("main.cl shape.cl stack.cl  # one program\n")
    return whole


def random_edits_agree_with_check(room, words):
    rnd, whole = random.Random(words.seed), three_files(room)
    now, compared = dict(whole), 0
    client = Client(next(iter(whole)).parent, words.cool)
    for path in whole:
        client.open(path, whole[path])
    for number in range(words.edits):
        path = rnd.choice(list(whole))
        now[path] = whole[path] if rnd.random() < 0.35 else edit(rnd, now[path])
        client.change(path, now[path])
        for other, text in now.items():
            other.write_bytes(text.encode())
        expected = due(words.cool, sorted(now), room)
        client.until("edit %d of seed %d: %s" % (number, words.seed, expected), lambda: all(client.faults(other) == expected[other] for other in now))
        compared += sum(map(len, expected.values()))
    client.end()
    return "%d edits, %d faults" % (words.edits, compared)


SMALL_PIECES = "const { main } = require(%r), { Pieces } = require(%r); main(process.argv.slice(1), '', new Pieces(200, 60));" % tuple(
    str(path) for path in (HERE / "cool_lsp" / "words.js", HERE.parent / "web" / "logic" / "pieces.js"))


def pieces_have_the_faults_of_the_file(room, words):
    """Random edits of a file that the server parts into pieces of a few hundred bytes."""
    examples = [(EXAMPLES / (name + ".cl")).read_text() for name in ("bank", "interpreter", "shapes", "tree", "stack", "mistakes")]
    whole = "\n".join([re.sub(r"(?ms)^class Main.*?^};", "", text) for text in examples] + ["class Main {\n  main() : Object { 0 };\n};\n"])
    rnd, path, compared = random.Random(words.seed), room / "one.cl", 0
    client = Client(room, words.cool, command=("node", "-e", SMALL_PIECES, "--"))
    client.open(path, whole)
    text = whole
    for number in range(words.edits):
        text = whole if rnd.random() < 0.2 else edit(rnd, text)
        if rnd.random() < 0.2:  # a class goes, or comes twice
            classes = re.split(r"(?m)^(?=class)", text)
            classes.insert(rnd.randrange(len(classes)), classes.pop(rnd.randrange(len(classes))) * rnd.randrange(3))
            text = "".join(classes)
        client.change(path, text)
        path.write_bytes(text.encode())
        expected = due(words.cool, [path], room)[path]
        expect("edit %d of seed %d" % (number, words.seed), client.faults(path), expected)
        compared += len(expected)
    client.end()
    return "%d edits, %d faults" % (words.edits, compared)


def place(text, position):
    """The index in a text of a position of the protocol."""
    lines = text.split("\n")
    line = lines[position["line"]]
    column = len(line.encode("utf-16-le")[: 2 * position["character"]].decode("utf-16-le"))
    return sum(len(before) + 1 for before in lines[: position["line"]]) + column


TESTS = [random_edits_agree_with_check, pieces_have_the_faults_of_the_file]
