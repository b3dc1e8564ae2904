"""Reads a syntax tree in the text format of Cool courses (docs/phases.md). A tree may be deep, so no function here calls itself."""
import re

from phase_tokens import Unlike
from phase_trees import NO_TYPE, Node, Quoted

# The items of a node by its label, in order: n is a name, s a string, e an expression; F, B, E and C are any number of formals, branches, expressions or
# classes; ( is a list of expressions, of features in a class.
SHAPES = {
    b"_program": "C", b"_class": "nns(", b"_method": "nFne", b"_attr": "nne", b"_formal": "nn", b"_branch": "nne", b"_assign": "ne",
    b"_static_dispatch": "enn(", b"_dispatch": "en(", b"_cond": "eee", b"_loop": "ee", b"_typcase": "eB", b"_block": "E", b"_let": "nnee",
    b"_plus": "ee", b"_sub": "ee", b"_mul": "ee", b"_divide": "ee", b"_neg": "e", b"_lt": "ee", b"_eq": "ee", b"_leq": "ee", b"_comp": "e", b"_int": "n",
    b"_bool": "n", b"_string": "s", b"_new": "n", b"_isvoid": "e", b"_no_expr": "", b"_object": "n",
}
UNTYPED = {b"_program", b"_class", b"_method", b"_attr", b"_formal", b"_branch"}
FEATURES, EXPRESSIONS = {b"_method", b"_attr"}, set(SHAPES) - UNTYPED
REPEATED = {"F": {b"_formal"}, "B": {b"_branch"}, "E": EXPRESSIONS, "C": {b"_class"}}
LINE = re.compile(rb"#[0-9]{1,9}")


class Text:
    """The lines of a text, without the blanks at their ends, and the number of those that were read."""

    def __init__(self, data):
        self.lines = [(number, line.strip()) for number, line in enumerate(data.split(b"\n"), 1) if line.strip()]
        self.at = 0

    def now(self, ahead=0):
        """The next line, or the one after it, or b"" at the end."""
        return self.lines[self.at + ahead][1] if self.at + ahead < len(self.lines) else b""

    def take(self):
        self.at += 1
        return self.lines[self.at - 1][1]

    def want(self, is_right, what):
        """Takes the next line, if it is right."""
        if self.at >= len(self.lines) or not is_right:
            self.fail(what)
        return self.take()

    def fail(self, what):
        if self.at >= len(self.lines):
            raise Unlike("the text ends, but %s is expected" % what)
        number, line = self.lines[self.at]
        raise Unlike("line %d: %s is expected, not %s" % (number, what, line[:60].decode("utf8", "replace")))

    def label(self):
        """The label of the node that begins here, or b""."""
        found = self.now(1 if LINE.fullmatch(self.now()) else 0)
        return found if found in SHAPES else b""


class OpenNode:
    """A node whose first items were read. The next line belongs to it."""

    def __init__(self, text):
        self.line = int(text.take()[1:]) if LINE.fullmatch(text.now()) else 0
        self.label = text.take()
        self.left, self.items, self.group = list(SHAPES[self.label]), [], None

    def add(self, node):
        (self.items if self.group is None else self.group).append(node)

    def next(self, text):
        """Reads the names and strings that follow, and returns whether a node follows that is an item of this one."""
        while self.left or self.group is not None:
            if self.group is not None:
                if text.label() in (FEATURES if self.label == b"_class" else EXPRESSIONS):
                    return True
                text.want(text.now() == b")", "a feature or )" if self.label == b"_class" else "an expression or )")
                self.items.append(self.group)
                self.group = None
            elif self.left[0] in REPEATED:
                if text.label() in REPEATED[self.left[0]]:
                    return True
                self.left.pop(0)
            elif self.left[0] == "e":
                if text.label() not in EXPRESSIONS:
                    text.fail("an expression")
                self.left.pop(0)
                return True
            else:
                self._simple(text, self.left.pop(0))
        return False

    def _simple(self, text, item):
        """Reads an item that is no node."""
        line = text.now()
        if item == "(":
            text.want(line == b"(", "(")
            self.group = []
        elif item == "s":
            self.items.append(Quoted(text.want(len(line) > 1 and line[:1] == line[-1:] == b'"', "a string")[1:-1]))
        else:
            self.items.append(text.want(re.fullmatch(rb"[A-Za-z0-9_]+", line) and not text.label(), "a name"))

    def close(self, text):
        type_ = None
        if self.label not in UNTYPED:
            what = "a type after %s, as `: %s`," % (self.label.decode(), NO_TYPE.decode())
            type_ = text.want(text.now().startswith(b":"), what)[1:].strip()
        return Node(self.line, self.label, self.items, type_)


def read_tree(data):
    """The tree of a text. Blanks and empty lines do not matter."""
    text = Text(data)
    if text.label() != b"_program":
        text.fail("_program")
    stack, made = [OpenNode(text)], None
    while stack:
        node = stack[-1]
        if made is not None:
            node.add(made)
            made = None
        if node.next(text):
            stack.append(OpenNode(text))
        else:
            made = stack.pop().close(text)
    if text.at < len(text.lines):
        text.fail("the end of the text")
    return made
