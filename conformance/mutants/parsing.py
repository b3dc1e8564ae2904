"""The parser of the small compiler (the one that mutants change) converts tokens to classes, features and expressions."""

from lexing import Fault

COMPARISONS = {"<": 3, "<=": 3, "=": 3}
SUMS = {"+": 4, "-": 4}
PRODUCTS = {"*": 5, "/": 5}
LEVELS = {**COMPARISONS, **SUMS, **PRODUCTS}


class Node:
    """A form with what it has, by names."""

    def __init__(self, form, line, **fields):
        self.form, self.line = form, line
        self.__dict__.update(fields)


class Parser:
    """Reads the tokens of a file from left to right."""

    def __init__(self, tokens, file):
        self.tokens, self.at, self.file = tokens, 0, file

    @property
    def token(self):
        return self.tokens[self.at]

    def sees(self, text, ahead=0):
        token = self.tokens[min(self.at + ahead, len(self.tokens) - 1)]
        return token.kind in ("sign", "word") and token.text == text

    def take(self):
        token = self.token
        self.at += 1
        return token

    def takes(self, text):
        if self.sees(text):
            return self.take()
        return None

    def want(self, text):
        if not self.sees(text):
            raise Fault("unexpected token")
        return self.take()

    def want_kind(self, kind):
        if self.token.kind != kind:
            raise Fault("unexpected token")
        return self.take()

    def file_classes(self):
        found = []
        while self.token.kind != "end":
            found.append(self.class_())
            self.want(";")
        return found

    def class_(self):
        self.want("class")
        name = self.want_kind("type")
        parent = self.want_kind("type").text if self.takes("inherits") else "Object"
        self.want("{")
        features = []
        while not self.sees("}"):
            features.append(self.feature())
            self.want(";")
        self.want("}")
        return Node("class", name.line, name=name.text, parent=parent, features=features, file=self.file)

    def feature(self):
        name = self.want_kind("name")
        if self.takes("("):
            return self.method(name)
        self.want(":")
        type = self.want_kind("type").text
        value = self.expression() if self.takes("<-") else None
        return Node("attribute", name.line, name=name.text, type=type, value=value)

    def method(self, name):
        formals = []
        if not self.sees(")"):
            formals.append(self.formal())
            while self.takes(","):
                formals.append(self.formal())
        self.want(")")
        self.want(":")
        type = self.want_kind("type").text
        self.want("{")
        body = self.expression()
        self.want("}")
        return Node("method", name.line, name=name.text, formals=formals, type=type, body=body)

    def formal(self):
        name = self.want_kind("name").text
        self.want(":")
        return name, self.want_kind("type").text

    def expression(self, least=0):
        """An expression of this level or a higher one. A prefix form stands wherever an operand does."""
        left = self.operand()
        last = None
        while self.token.kind == "sign" and LEVELS.get(self.token.text, -1) >= least:
            sign = self.take()
            level = LEVELS[sign.text]
            if level == 3 and last == 3:
                raise Fault("unexpected token")
            right = self.expression(level + 1)
            left, last = Node("operator", sign.line, sign=sign.text, left=left, right=right), level
        return left

    def operand(self):
        if self.sees("let"):
            return self.let()
        if self.token.kind == "name" and self.sees("<-", 1):
            name = self.take()
            self.take()
            return Node("assign", name.line, name=name.text, value=self.expression())
        if self.sees("not"):
            line = self.take().line
            return Node("not", line, value=self.expression(2))
        if self.sees("isvoid"):
            line = self.take().line
            return Node("isvoid", line, value=self.expression(6))
        if self.sees("~"):
            line = self.take().line
            return Node("minus", line, value=self.expression(7))
        return self.dispatches(self.primary())

    def let(self):
        self.want("let")
        bindings = [self.binding()]
        while self.takes(","):
            bindings.append(self.binding())
        self.want("in")
        body = self.expression()
        for line, name, type, value in reversed(bindings):
            body = Node("let", line, name=name, type=type, value=value, body=body)
        return body

    def binding(self):
        name = self.want_kind("name")
        self.want(":")
        type = self.want_kind("type").text
        value = self.expression() if self.takes("<-") else None
        return name.line, name.text, type, value

    def dispatches(self, receiver):
        while self.sees(".") or self.sees("@"):
            at = self.want_kind("type").text if self.takes("@") else None
            self.want(".")
            name = self.want_kind("name")
            receiver = self.call(receiver, at, name)
        return receiver

    def call(self, receiver, at, name):
        self.want("(")
        arguments = []
        if not self.sees(")"):
            arguments.append(self.expression())
            while self.takes(","):
                arguments.append(self.expression())
        self.want(")")
        return Node("call", name.line, receiver=receiver, at=at, name=name.text, arguments=arguments)

    def primary(self):
        token = self.token
        if token.kind in ("int", "string"):
            self.take()
            return Node(token.kind, token.line, value=int(token.text) if token.kind == "int" else token.text)
        if token.kind == "name":
            self.take()
            if self.sees("("):
                return self.call(Node("name", token.line, name="self"), None, token)
            return Node("name", token.line, name=token.text)
        known = {"true": self.truth, "false": self.truth, "(": self.parentheses, "if": self.if_, "while": self.while_, "{": self.block,
                 "case": self.case, "new": self.new}
        if token.kind in ("sign", "word") and token.text in known:
            return known[token.text]()
        raise Fault("unexpected token")

    def truth(self):
        token = self.take()
        return Node("bool", token.line, value=token.text == "true")

    def parentheses(self):
        self.take()
        inner = self.expression()
        self.want(")")
        return inner

    def if_(self):
        line = self.take().line
        test = self.expression()
        self.want("then")
        yes = self.expression()
        self.want("else")
        no = self.expression()
        self.want("fi")
        return Node("if", line, test=test, yes=yes, no=no)

    def while_(self):
        line = self.take().line
        test = self.expression()
        self.want("loop")
        body = self.expression()
        self.want("pool")
        return Node("while", line, test=test, body=body)

    def block(self):
        line = self.take().line
        items = []
        while not items or not self.sees("}"):
            items.append(self.expression())
            self.want(";")
        self.want("}")
        return Node("block", line, items=items)

    def case(self):
        line = self.take().line
        value = self.expression()
        self.want("of")
        branches = []
        while not branches or not self.sees("esac"):
            name = self.want_kind("name").text
            self.want(":")
            type = self.want_kind("type").text
            self.want("=>")
            branches.append((name, type, self.expression()))
            self.want(";")
        self.want("esac")
        return Node("case", line, value=value, branches=branches)

    def new(self):
        line = self.take().line
        return Node("new", line, type=self.want_kind("type").text)
