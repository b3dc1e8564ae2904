"""Parses Cool programs into values of the definitions, for `web/rules-try`: trees as `Tree.antt` has them, and the classes of a table. It reads only legal
programs."""
import re

TOKEN = re.compile(rb'\s+|--[^\n]*|(?P<comment>\(\*)|(?P<int>\d+)|(?P<word>[A-Za-z]\w*)|"(?P<str>(?:[^"\\]|\\[\s\S])*)"|(?P<sign><-|<=|=>|[-+*/<=(){}:;,.@~])')
KEYWORDS = {b"class", b"else", b"fi", b"if", b"in", b"inherits", b"isvoid", b"let", b"loop", b"pool", b"then", b"while", b"case", b"esac", b"new", b"of",
    b"not"}
ESCAPES = {98: 8, 116: 9, 110: 10, 102: 12}
LEVELS = {b"<": (3, "Compare", "Less"), b"<=": (3, "Compare", "LessEqual"), b"=": (3, "Compare", "Equal"), b"+": (4, "Arith", "Add"),
    b"-": (4, "Arith", "Sub"), b"*": (5, "Arith", "Mul"), b"/": (5, "Arith", "Div")}
BASIC = ((b"Object", None), (b"IO", 0), (b"Int", 0), (b"Bool", 0), (b"String", 0))


def tokens_of(text):
    found, at, line = [], 0, 1
    while at < len(text):
        it = TOKEN.match(text, at)
        if not it:
            raise SyntaxError("line %d: %r" % (line, text[at : at + 10]))
        end = it.end()
        if it.lastgroup == "comment":
            depth = 1
            while depth:
                edge = re.compile(rb"\(\*|\*\)").search(text, end)
                depth += 1 if edge[0] == b"(*" else -1
                end = edge.end()
        elif it.lastgroup == "str":
            found.append(("str", tuple(string(it["str"])), line))
        elif it.lastgroup == "word":
            low = it["word"].lower()
            truth = low in (b"true", b"false") and it["word"][:1].islower()
            kind = "key" if low in KEYWORDS else "truth" if truth else "type" if it["word"][:1].isupper() else "name"
            found.append((kind, low if kind in ("key", "truth") else it["word"], line))
        elif it.lastgroup:
            found.append((it.lastgroup, it[it.lastgroup], line))
        line += text.count(b"\n", at, end)
        at = end
    return found


def string(text):
    at = 0
    while at < len(text):
        byte = text[at]
        if byte == 92:
            at += 1
            byte = ESCAPES.get(text[at], text[at])
        yield byte
        at += 1


class Reader:
    def __init__(self, text, file):
        self.tokens, self.at, self.file = tokens_of(text), 0, file

    def peek(self, *texts):
        return self.at < len(self.tokens) and self.tokens[self.at][0] in ("key", "sign") and self.tokens[self.at][1] in texts

    def take(self, *texts):
        kind, text, line = self.tokens[self.at]
        if texts and text not in texts:
            raise SyntaxError("line %d: %r for %r" % (line, text, texts))
        self.at += 1
        return text

    def here(self):
        return {"file": self.file, "line": self.tokens[self.at][2], "byte": self.at}

    def accept(self, text):
        if self.peek(text):
            self.at += 1
            return True
        return False

    def classes(self):
        found = []
        while self.at < len(self.tokens):
            self.take(b"class")
            name, parent = self.take(), b"Object"
            if self.accept(b"inherits"):
                parent = self.take()
            self.take(b"{")
            features = []
            while not self.accept(b"}"):
                features.append(self.feature())
                self.take(b";")
            self.take(b";")
            found.append((name, parent, tuple(features)))
        return found

    def declared(self):
        at = self.here()
        return {"name": tuple(self.take()), "at": at}

    def feature(self):
        at, name = self.here(), tuple(self.take())
        if self.accept(b"("):
            formals = []
            while not self.accept(b")"):
                place, formal = self.here(), tuple(self.take())
                self.take(b":")
                formals.append({"name": formal, "at": place, "declared": self.declared()})
                self.accept(b",")
            self.take(b":")
            result = self.declared()
            self.take(b"{")
            body = self.expr()
            self.take(b"}")
            return ("Method", {"name": name, "at": at, "formals": tuple(formals), "result": result, "body": body})
        self.take(b":")
        declared = self.declared()
        return ("Attribute", {"name": name, "at": at, "declared": declared, "init": ("Some", self.expr()) if self.accept(b"<-") else ("None",)})

    def expr(self, least=0):
        at = self.here()
        kind, text, _ = self.tokens[self.at]
        if kind == "name" and self.tokens[self.at + 1][1] == b"<-" and self.tokens[self.at + 1][0] == "sign":
            self.at += 2
            left = ("Assign", at, tuple(text), self.expr())
        elif self.accept(b"not"):
            left = ("Not", at, self.expr(2))
        elif self.accept(b"isvoid"):
            left = ("IsVoid", at, self.expr(6))
        elif self.accept(b"~"):
            left = ("Neg", at, self.expr(7))
        elif self.accept(b"let"):
            return self.let()
        else:
            left = self.dispatches(self.atom())
        while self.at < len(self.tokens) and self.tokens[self.at][0] == "sign" and self.tokens[self.at][1] in LEVELS:
            level, form, op = LEVELS[self.tokens[self.at][1]]
            if level < least:
                break
            at = self.here()
            self.at += 1
            left = (form, at, (op,), left, self.expr(level + 1))
        return left

    def let(self):
        at, name = self.here(), tuple(self.take())
        self.take(b":")
        declared = self.declared()
        init = ("With", self.expr()) if self.accept(b"<-") else ("Without",)
        body = self.let() if self.accept(b",") else (self.take(b"in"), self.expr())[1]
        return ("Let", at, name, declared, init, body)

    def dispatches(self, tree):
        while self.peek(b".", b"@"):
            class_ = self.declared() if self.take() == b"@" else None
            if class_:
                self.take(b".")
            at, name = self.here(), tuple(self.take())
            given = self.arguments()
            tree = ("StaticDispatch", at, tree, class_, name, given) if class_ else ("Dispatch", at, tree, name, given)
        return tree

    def arguments(self):
        self.take(b"(")
        found = []
        while not self.accept(b")"):
            found.append(self.expr())
            self.accept(b",")
        return trees(found)

    def atom(self):
        at = self.here()
        kind, text, line = self.tokens[self.at]
        self.at += 1
        if kind == "int":
            return ("Int", at, int(text))
        if kind == "str":
            return ("Str", at, text)
        if kind == "truth":
            return ("Bool", at, text == b"true")
        if kind == "name":
            return ("Dispatch", at, ("Id", at, tuple(b"self")), tuple(text), self.arguments()) if self.peek(b"(") else ("Id", at, tuple(text))
        if text == b"(":
            return (self.expr(), self.take(b")"))[0]
        if text == b"new":
            return ("New", at, self.declared())
        if text == b"if":
            return ("If", at, self.expr(), (self.take(b"then"), self.expr())[1], (self.take(b"else"), self.expr(), self.take(b"fi"))[1])
        if text == b"while":
            return ("While", at, self.expr(), (self.take(b"loop"), self.expr(), self.take(b"pool"))[1])
        if text == b"{":
            items = []
            while not self.accept(b"}"):
                items.append(self.expr())
                self.take(b";")
            return ("Block", at, trees(items))
        if text == b"case":
            return self.case(at)
        raise SyntaxError("line %d: %r" % (line, text))

    def case(self, at):
        tree, branches = self.expr(), []
        self.take(b"of")
        while not self.accept(b"esac"):
            place, name = self.here(), tuple(self.take())
            self.take(b":")
            declared = self.declared()
            self.take(b"=>")
            branches.append((place, name, declared, self.expr()))
            self.take(b";")
        found = ("NoCase",)
        for it in reversed(branches):
            found = ("CaseOf", *it, found)
        return ("Case", at, tree, found)


def trees(all_):
    found = ("Last",)
    for it in reversed(all_):
        found = ("More", it, found)
    return found


def table(texts):
    """The class table of the program of these files, in the form of `Chains.antt`."""
    own = [it for file, text in enumerate(texts) for it in Reader(text, file).classes()]
    numbers = {name: at for at, name in enumerate([*(name for name, _ in BASIC), *(name for name, *_ in own)])}
    number = {tuple(name): at for name, at in numbers.items()}
    basic = [{"name": tuple(name), "parent": ("None",) if parent is None else ("Some", {"0": parent}), "features": ()} for name, parent in BASIC]
    return tuple(basic + [{"name": tuple(name), "parent": ("Some", {"0": number[tuple(parent)]}), "features": features} for name, parent, features in own])
