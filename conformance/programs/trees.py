"""Programs of Cool as trees, and the tokens of a tree, with only the parentheses that the precedence of operators requires (docs/language.md)."""

LEVELS = {"let": 0, "assign": 1, "not": 2, "<": 3, "<=": 3, "=": 3, "+": 4, "-": 4, "*": 5, "/": 5, "isvoid": 6, "~": 7, "call": 8, "static": 8}
HIGHEST = 9
PREFIXES = ("let", "assign", "not", "isvoid", "~")
OPERATORS = ("+", "-", "*", "/", "<", "<=", "=")
BASIC = ("Object", "IO", "Int", "Bool", "String")
# Forms that stand for no expression, with what their words are: the others are expressions.
ROWS = {"program": (), "class": ("name", "parent"), "method": ("name", "type"), "attribute": ("name", "type"), "formal": ("name", "type"),
        "binding": ("name", "type"), "branch": ("name", "type")}


class Tree:
    """A form with its words (names, types, a constant) and its parts. It is never changed. `type` is what its maker knows of the type of an expression."""

    __slots__ = ("form", "words", "parts", "type")

    def __init__(self, form, words=(), parts=(), type=None):
        self.form, self.words, self.parts, self.type = form, tuple(words), tuple(parts), type

    def having(self, words=None, parts=None):
        return Tree(self.form, self.words if words is None else words, self.parts if parts is None else parts, self.type)

    @property
    def is_expression(self):
        return self.form not in ROWS

    def size(self):
        return 1 + sum(part.size() for part in self.parts)


def constant(text, type):
    return Tree("constant", [text], (), type)


def name(text, type=None):
    return Tree("name", [text], (), type)


def walk(tree, path=()):
    """Each tree of a tree with its path, the whole before its parts."""
    yield path, tree
    for at, part in enumerate(tree.parts):
        yield from walk(part, path + (at,))


def at_path(tree, path):
    for at in path:
        tree = tree.parts[at]
    return tree


def replaced(tree, path, *news):
    """The tree with these trees in the place of that of a path."""
    if not path:
        return news[0]
    at, parts = path[0], tree.parts
    middle = news if len(path) == 1 else (replaced(parts[at], path[1:], *news),)
    return tree.having(parts=(*parts[:at], *middle, *parts[at + 1 :]))


def mapped(tree, change):
    """The tree with `change` of each tree in its place, parts first."""
    return change(tree.having(parts=[mapped(part, change) for part in tree.parts]))


def tokens(tree):
    """The tokens of a tree."""
    return _written(tree)[0]


def _between(items, sign):
    """The tokens of trees with a sign between two of them."""
    lists = [tokens(item) for item in items]
    return [token for at, item in enumerate(lists) for token in ([sign] if at else []) + item]


def _typed(tree):
    """The tokens of a name with its type, and what is assigned."""
    start = [tree.words[0], ":", tree.words[1]]
    return start + (["<-", *tokens(tree.parts[0])] if tree.parts else [])


def _ended(items):
    return [token for item in items for token in (*tokens(item), ";")]


def _class(tree):
    parent = ["inherits", tree.words[1]] if tree.words[1] else []
    return ["class", tree.words[0], *parent, "{", *_ended(tree.parts), "}"]


def _method(tree):
    return [tree.words[0], "(", *_between(tree.parts[:-1], ","), ")", ":", tree.words[1], "{", *tokens(tree.parts[-1]), "}"]


def _case(tree):
    branches = [token for it in tree.parts[1:] for token in (it.words[0], ":", it.words[1], "=>", *tokens(it.parts[0]), ";")]
    return ["case", *tokens(tree.parts[0]), "of", *branches, "esac"]


def _if(tree):
    test, yes, no = map(tokens, tree.parts)
    return ["if", *test, "then", *yes, "else", *no, "fi"]


# How forms are written that need no level.
WRITTEN = {
    "program": lambda tree: _ended(tree.parts),
    "class": _class,
    "method": _method,
    "attribute": _typed,
    "formal": _typed,
    "binding": _typed,
    "constant": lambda tree: list(tree.words),
    "name": lambda tree: list(tree.words),
    "raw": lambda tree: list(tree.words),
    "paren": lambda tree: ["(", *tokens(tree.parts[0]), ")"],
    "own": lambda tree: [tree.words[0], "(", *_between(tree.parts, ","), ")"],
    "if": _if,
    "while": lambda tree: ["while", *tokens(tree.parts[0]), "loop", *tokens(tree.parts[1]), "pool"],
    "block": lambda tree: ["{", *_ended(tree.parts), "}"],
    "case": _case,
    "new": lambda tree: ["new", tree.words[0]],
}


def _written(tree):
    """The tokens of a tree, its level, and the least level of the forms that would take what follows for theirs."""
    form = tree.form
    if form == "bare":
        return _written(tree.parts[0])
    if form in WRITTEN:
        return WRITTEN[form](tree), HIGHEST, HIGHEST
    if form in OPERATORS:
        left, right = tree.parts
        level = LEVELS[form]
        return _operators(left, form, right, level)
    if form in ("call", "static"):
        at = ["@", tree.words[1]] if form == "static" else []
        receiver = _within(tree.parts[0], LEVELS[form], LEVELS[form])
        return [*receiver, *at, ".", tree.words[0], "(", *_between(tree.parts[1:], ","), ")"], LEVELS[form], HIGHEST
    return _prefixed(tree)


def _within(tree, least, tail_least):
    """The tokens of a tree, in parentheses where its level or its end is below these."""
    found, level, tail = _written(tree)
    return found if level >= least and tail >= tail_least else ["(", *found, ")"]


def _operand(tree, least):
    """The tokens of a last operand, and the least level of what would take what follows. A `let` needs no parentheses there, and neither does a prefix form
    of a low level (docs/language.md); but that is a choice, so one has them where it is not `bare`.
    """
    found, level, tail = _written(tree)
    if level >= least or tree.form == "let" or tree.form == "bare" and tree.parts[0].form in PREFIXES:
        return found, tail
    return ["(", *found, ")"], HIGHEST


def _operators(left, sign, right, level):
    start = _within(left, level + (level == 3), level)
    end, tail = _operand(right, level + 1)
    return [*start, sign, *end], level, tail


def _prefixed(tree):
    """A form whose last operand ends it."""
    level = LEVELS[tree.form]
    if tree.form == "let":
        start, least = ["let", *_between(tree.parts[:-1], ","), "in"], 0
    elif tree.form == "assign":
        start, least = [tree.words[0], "<-"], 0
    else:
        start, least = [tree.form], level
    end, tail = _operand(tree.parts[-1], least)
    return start + end, level, min(level, tail)
