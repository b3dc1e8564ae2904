"""Parses definitions of files of specs/ into trees, which `web/rules` typesets.

A tree is a tuple of its kind and its parts. The parser knows the syntax of antt that definitions use. If it does not understand a text, it stops with the
file and the line, so that no text is left out silently.

    ("var", name)  ("num", text)  ("str", text)  ("app", head, [arguments])  ("op", sign, left, right)  ("get", tree, field)
    ("all", [(name, type)], body)  ("some", [(name, type)], body)  ("fun", [names], body)  ("if", test, first, second)
    ("do", [(name or None, tree)])  ("let", name, value, body)  ("record", base or None, [(field, tree)])  ("pair", [trees])
"""
import pathlib
import re
import sys

ROOT = pathlib.Path(__file__).resolve().parent.parent.parent
WORD = r"[^\W\d][\w']*(?:\.(?:\d+|[^\W\d][\w']*))*"
TOKEN = re.compile(
    r'[ \t]+|--[^\n]*|\n|(?P<str>"(?:[^"\\\n]|\\.)*")|(?P<num>\d+)|(?P<word>' + WORD + r"|_|⊥|\[\])"
    r"|(?P<sign>>>=|>>|\+\+|\+ℤ|-ℤ|\*ℤ|\|\||&&|==|[(){};:=,.λ→×⊎≡≢≤<∷←+*/^%-])"
)
# Operators with their precedence and associativity.
SIGNS = {
    "→": (1, "r"), "×": (2, "r"), "⊎": (2, "r"), "≡": (4, "n"), "≢": (4, "n"), "≤": (4, "n"), "<": (4, "n"), "||": (5, "r"), "&&": (6, "r"), "==": (7, "n"),
    ">>=": (3, "l"), ">>": (3, "l"), "∷": (8, "r"), "++": (8, "r"), "+": (9, "l"), "-": (9, "l"), "+ℤ": (9, "l"), "-ℤ": (9, "l"), "*": (10, "l"),
        "/": (10, "l"),
    "%": (10, "l"), "*ℤ": (10, "l"), "^": (11, "r"),
}  # fmt: skip
KEYWORDS = {"if", "then", "else", "do", "let", "in", "record"}
HEAD = re.compile(r"^(?:abbrev |unfoldable |pattern |pub )*(data|record|mutual)?(?:pub )?")


class Unread(Exception):
    pass


class Tokens:
    """The tokens of a text, each with its kind, line and column. A do-block ends at a line that begins left of it."""

    def __init__(self, text, line, column=0):
        self.all, at, begin, fresh = [], 0, -column, True
        while at < len(text):
            found = TOKEN.match(text, at)
            if not found:
                raise Unread("line %d: %r" % (line, text[at : at + 20]))
            if found[0] == "\n":
                line, begin, fresh = line + 1, found.end(), True
            elif found.lastgroup:
                self.all.append((found.lastgroup, found[0], line, at - begin, fresh))
                fresh = False
            at = found.end()
        self.at, self.margins = 0, [-1]

    def peek(self):
        """The kind and the text of the next token, or (None, None) at the end of the block that is read."""
        if self.at >= len(self.all):
            return None, None
        kind, text, _, column, fresh = self.all[self.at]
        return (None, None) if fresh and column <= self.margins[-1] else (kind, text)

    def take(self, text=None):
        kind, found = self.peek()
        if kind is None or (text is not None and found != text):
            line = self.all[min(self.at, len(self.all) - 1)][2]
            raise Unread("line %d: %r where %r is due" % (line, found, text))
        self.at += 1
        return kind, found

    def accept(self, text):
        if self.peek()[1] == text:
            self.at += 1
            return True
        return False


class Reader:
    """Reads trees. `modules` has the names under which files are imported, as `trees`."""

    def __init__(self, tokens, modules):
        self.tokens, self.modules = tokens, modules

    def tree(self, least=0):
        left = self.binder() or self.applied()
        while True:
            sign = self.tokens.peek()[1]
            strength, side = SIGNS.get(sign, (0, "n"))
            if not strength or strength <= least:
                return left
            self.tokens.take()
            left = ("op", sign, left, self.tree(strength - (side == "r")))

    def binder(self):
        """Reads a binder: `(x y : T) × ..`, `(x : T) → ..` or `{X : T} → ..`."""
        here = self.tokens.at
        close = {"(": ")", "{": "}"}.get(self.tokens.peek()[1])
        if not close:
            return None
        self.tokens.take()
        names = []
        while self.tokens.peek()[0] == "word":
            names.append(self.tokens.take()[1])
        if not names or not self.tokens.accept(":"):
            self.tokens.at = here
            return None
        kind = self.tree()
        self.tokens.take(close)
        binders = [(name, kind) for name in names]
        while self.tokens.peek()[1] == "(":
            more = self.binder()
            if not more:
                break
            if more[0] in ("all", "some"):
                return (more[0], binders + more[1], more[2])
            binders += more[1]
        sign = self.tokens.peek()[1]
        if sign not in ("→", "×"):
            return ("binders", binders)
        self.tokens.take()
        return ("all" if sign == "→" else "some", binders, self.tree(0 if sign == "→" else 1))

    def applied(self):
        head, given = self.atom(), []
        while True:
            kind, text = self.tokens.peek()
            if kind in ("word", "num", "str") and text not in KEYWORDS or text in ("(", "λ", "{") or text in ("do", "record", "if"):
                if text == "{":
                    self.braces()
                    continue
                given.append(self.atom())
            else:
                return ("app", head, given) if given else head

    def braces(self):
        self.tokens.take("{")
        while not self.tokens.accept("}"):
            self.tokens.take()

    def atom(self):
        kind, text = self.tokens.take()
        if text in ("λ", "if", "let", "do", "record"):
            return getattr(self, {"λ": "function", "if": "choice", "let": "local", "do": "steps", "record": "record"}[text])()
        if text == "(":
            return self.fields(self.inner())
        if kind == "word":
            return self.word(text)
        if kind in ("num", "str"):
            return (kind, text if kind == "num" else text[1:-1])
        raise Unread("line %d: %r" % (self.tokens.all[self.tokens.at - 1][2], text))

    def inner(self):
        self.tokens.margins.append(-1)
        parts = [self.tree()]
        while self.tokens.accept(","):
            parts.append(self.tree())
        self.tokens.take(")")
        self.tokens.margins.pop()
        return parts[0] if len(parts) == 1 else ("pair", parts)

    def fields(self, tree):
        while self.tokens.peek()[1] == ".":
            self.tokens.take()
            tree = ("get", tree, self.tokens.take()[1])
        return tree

    def word(self, text):
        head, *rest = text.split(".")
        if head in self.modules and rest:
            head, rest = head + "." + rest[0], rest[1:]
        tree = ("var", head)
        for field in rest:
            tree = ("get", tree, field)
        return tree

    def function(self):
        names = []
        while not self.tokens.accept("."):
            if self.tokens.accept("("):
                names.append(self.tokens.take()[1])
                self.tokens.take(":")
                self.tree()
                self.tokens.take(")")
            else:
                word = self.tokens.take()[1]
                if "." in word:
                    raise Unread("a function without a blank after its point: %r" % word)
                names.append(word)
        return ("fun", names, self.tree())

    def choice(self):
        test = self.tree()
        self.tokens.take("then")
        first = self.tree()
        self.tokens.take("else")
        return ("if", test, first, self.tree())

    def local(self):
        name = self.tokens.take()[1]
        self.tokens.take("=")
        value = self.tree()
        self.tokens.take("in")
        return ("let", name, value, self.tree())

    def steps(self):
        kind, text, line, column, fresh = self.tokens.all[self.tokens.at]
        found = []
        while self.tokens.at < len(self.tokens.all):
            _, text, _, here, fresh = self.tokens.all[self.tokens.at]
            if here != column or not fresh:
                break
            self.tokens.margins.append(column)
            self.tokens.all[self.tokens.at] = (*self.tokens.all[self.tokens.at][:4], False)
            name = None
            if self.tokens.at + 1 < len(self.tokens.all) and self.tokens.all[self.tokens.at + 1][1] == "←":
                name = self.tokens.take()[1]
                self.tokens.take("←")
            found.append((name, self.tree()))
            self.tokens.margins.pop()
        return ("do", found)

    def record(self):
        base = None if self.tokens.peek()[1] == "{" else self.atom()
        self.tokens.take("{")
        self.tokens.margins.append(-1)
        parts = []
        while not self.tokens.accept("}"):
            field = self.tokens.take()[1]
            self.tokens.take("=")
            parts.append((field, self.tree()))
            self.tokens.accept(";")
        self.tokens.margins.pop()
        return ("record", base, parts)


class Item:
    """A definition: its name, kind (`abbrev`, `data` or `record`), comment, text, line, and its rows or parts.

    The rows of an abbrev are (patterns, tree, line, source), with several patterns or none. The parts are the constructors of a data type or the fields of a
    record, each (name, type, comment, line)."""

    def __init__(self, file, name, kind, comment, line, type_, params):
        self.file, self.name, self.kind, self.comment, self.line, self.type, self.params = file, name, kind, comment, line, type_, params
        self.rows, self.parts, self.lines = [], [], []


class File:
    """The definitions of a file by name, without its worked examples."""

    def __init__(self, path):
        self.path = path
        self.text = (ROOT / path).read_text("utf-8")
        self.modules = set(re.findall(r"(?m)^use Rattle\..* as (\w+)$", self.text))
        self.about = " ".join(line[3:] for line in self.text.split("\n")[: self.text.split("\n").index(next(it for it in self.text.split("\n")
            if not it.startswith("--")))])
        self.items = {}
        try:
            self.take(self.text.split("\n"))
        except Unread as fault:
            sys.exit("web/rules: %s: %s" % (path, fault))

    def take(self, lines):
        """Takes the logical lines. A logical line is a line with the lines below it that are indented more."""
        comment, item, block, shift = [], None, None, 0
        for number, line in logical(lines):
            stripped = line.strip()
            indent = len(line) - len(line.lstrip())
            if stripped.startswith("--"):
                comment.append(stripped[2:].strip())
                continue
            if not stripped or stripped.startswith(("use ", "infix", "unfolding ")):
                comment = comment if stripped else []
                continue
            if re.match(r"(?:abbrev |pub )*mutual$", stripped):
                continue
            head = re.match(r"(?:abbrev |unfoldable |pattern |pub )+(?:data |record )?(?=\S)|(?:data|record) ", stripped)
            if head and item is not None and item.kind in ("record",) and indent > item.indent and stripped.startswith("pub "):
                self.part(item, stripped[4:], comment, number)
            elif head:
                item = self.begun(stripped, head, comment, number, indent)
            elif item and item.kind == "data" and indent > item.indent:
                self.part(item, stripped, comment, number)
            elif item and item.kind == "abbrev" and self.is_row(item, stripped):
                self.row(item, line, number)
            else:
                item = None
            comment = []

    def is_row(self, item, line):
        first = re.match(r"\(?(\S+)", line)[1]
        return first == item.name or (item.name.startswith("◌") and item.name.strip("◌") in line.split())

    def begun(self, line, head, comment, number, indent):
        rest = line[head.end() :]
        kind = "data" if "data " in head[0] else "record" if "record " in head[0] else "abbrev"
        name = re.match(r"[^\s(){}:]+", rest)[0]
        rest = rest[len(name) :].strip()
        rest = re.sub(r"^\{ℓ\}\s*", "", rest)
        params = []
        if not rest.startswith(":"):
            cut = top_colon(rest)
            params, rest = rest[:cut].strip(), rest[cut:]
            params = [(n, None) for group in re.findall(r"[({]([^:(){}]*) :", params) for n in group.split()]
        type_ = rest[1:].strip()
        type_ = re.sub(r"\s+where$", "", type_)
        item = Item(self.path, name, kind, " ".join(comment), number, type_, params)
        item.indent = indent
        self.items[name] = item
        return item

    def part(self, item, line, comment, number):
        name, _, rest = line.partition(":")
        item.parts.append((name.strip(), self.read(rest.strip(), number), " ".join(comment), number))

    def row(self, item, line, number):
        left, right = split_row(line)
        patterns = self.patterns(left, number, item)
        item.rows.append((patterns, self.read(right, number, column=len(line) - len(right)), number, line))

    def patterns(self, left, number, item):
        tree = self.read(left.strip(), number)
        if item.name.startswith("◌"):
            return []
        return tree[2] if tree[0] == "app" else []

    def read(self, text, number, column=0):
        tokens = Tokens(text, number, column)
        reader = Reader(tokens, self.modules)
        tree = reader.tree()
        if tokens.at != len(tokens.all):
            raise Unread("line %d: %r is left" % (tokens.all[tokens.at][2], tokens.all[tokens.at][1]))
        return tree


def logical(lines):
    """Joins each line with the lines below that continue it. It yields them with their numbers."""
    at = 0
    while at < len(lines):
        begin, number = lines[at], at + 1
        at += 1
        indent = len(begin) - len(begin.lstrip())
        head = re.match(r"\s*(?:(?:abbrev|unfoldable|pattern|pub) )*(?:data|record|mutual)\b", begin)
        while begin.strip() and not begin.strip().startswith("--") and not head and at < len(lines):
            more = lines[at]
            if not more.strip() or len(more) - len(more.lstrip()) <= indent:
                break
            begin += "\n" + more
            at += 1
        yield number, begin


def top_colon(text):
    depth = 0
    for at, letter in enumerate(text):
        depth += (letter in "({") - (letter in ")}")
        if letter == ":" and not depth:
            return at
    return len(text)


def split_row(line):
    """The two sides of the first `=` outside of parentheses."""
    depth = 0
    for at, letter in enumerate(line):
        depth += (letter in "({[") - (letter in ")}]")
        if letter == "=" and not depth and line[at - 1] == " " and line[at + 1 : at + 2] in (" ", "\n"):
            return line[:at], line[at + 1 :].lstrip(" ")
    raise Unread("no row: %r" % line)
