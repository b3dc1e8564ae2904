"""Computes values of functions of definitions by their rows. From these values come tables, as for `form`, by a call for each possible byte."""
from terms import head_of, is_constructor

BINARY = {
    "+": lambda a, b: a + b, "-": lambda a, b: max(0, a - b), "*": lambda a, b: a * b, "^": lambda a, b: a**b, "%": lambda a, b: a % b, "/": lambda a,
        b: a // b,
    "==": lambda a, b: a == b, "&&": lambda a, b: a and b, "||": lambda a, b: a or b, "++": lambda a, b: a + b, "∷": lambda a, b: (a, *b),
}  # fmt: skip
# Functions of the kit's library, which no file of the repository defines.
LIBRARY = {
    "nat_le": lambda a, b: a <= b,
    "nat_lt": lambda a, b: a < b,
    "nat_eq": lambda a, b: a == b,
    "bytes_eq": lambda a, b: a == b,
    "not": lambda a: not a,
    "length": len,
    "map": lambda f, xs: tuple(_done(f, x) for x in xs),
    "list_all": lambda f, xs: all(f(x) for x in xs),
    "option_map": lambda f, o: o if o == ("None",) else ("Some", _done(f, o[1])),
    "is_none": lambda o: o == ("None",),
    "take_while": lambda f, xs: tuple(xs[: next((i for i, x in enumerate(xs) if not f(x)), len(xs))]),
    "fold": lambda f, start, xs: _fold(f, start, xs),
}
ESCAPES = {"n": 10, "\\": 92, '"': 34, "t": 9}


def _done(f, x):
    """Applies a function, or a constructor, to one more argument."""
    return f(x) if callable(f) else (*f, x)


def _fold(f, start, xs):
    for x in xs:
        start = f(start, x)
    return start


def codes(text):
    """The bytes of a string of a definition."""
    found, at = [], 0
    while at < len(text):
        if text[at] == "\\":
            at += 1
            found.append(ESCAPES[text[at]])
        else:
            found += text[at].encode()
        at += 1
    return tuple(found)


class Values:
    """Computes values by the definitions of some files. A constructed value is a tuple of its name and its parts, a list a tuple, and a record a dict."""

    def __init__(self, items):
        self.items = items

    def call(self, name, *given):
        if name in self.items and self.items[name].rows:
            return self.rows(name, given)
        function = LIBRARY[name]
        least = 1 if function is len else function.__code__.co_argcount
        return function(*given) if len(given) >= least else lambda *more: self.call(name, *given, *more)

    def rows(self, name, given):
        if len(given) < len(self.items[name].rows[0][0]):
            return lambda *more: self.rows(name, (*given, *more))
        for patterns, body, *_ in self.items[name].rows:
            known = {}
            if len(given) >= len(patterns) and all(self.takes(a, b, known) for a, b in zip(patterns, given)):
                value = self.of(body, known)
                for it in given[len(patterns) :]:
                    value = value(it)
                return value
        raise LookupError("no row of %s takes %r" % (name, given))

    def takes(self, pattern, value, known):
        if pattern[0] == "var" and not is_constructor(pattern[1]):
            known[pattern[1]] = value
            return True
        if pattern == ("var", "_"):
            return True
        if pattern[0] == "op":
            return len(value) > 0 and self.takes(pattern[2], value[0], known) and self.takes(pattern[3], value[1:], known)
        name, given = head_of(pattern)
        if name == "[]":
            return value == ()
        if name in ("true", "false"):
            return value is (name == "true")
        if name in ("zero", "suc"):
            return value == 0 if name == "zero" else value > 0 and self.takes(given[0], value - 1, known)
        own = name.split(".")[-1]
        return isinstance(value, tuple) and value[:1] == (own,) and len(value) == len(given) + 1 and all(self.takes(a, b, known) for a,
            b in zip(given, value[1:]))

    def of(self, tree, known):
        kind = tree[0]
        if kind == "num":
            return int(tree[1])
        if kind == "op":
            if tree[1] in ("&&", "||"):
                left = self.of(tree[2], known)
                return (left and self.of(tree[3], known)) if tree[1] == "&&" else (left or self.of(tree[3], known))
            return BINARY[tree[1]](self.of(tree[2], known), self.of(tree[3], known))
        if kind == "if":
            return self.of(tree[2] if self.of(tree[1], known) else tree[3], known)
        if kind == "fun":
            return lambda *given: self.of(tree[2], {**known, **dict(zip(tree[1], given))})
        if kind == "get":
            whole = self.of(tree[1], known)
            return whole[tree[2]]
        if kind == "record":
            return {**(self.of(tree[1], known) if tree[1] else {}), **{name: self.of(it, known) for name, it in tree[2]}}
        return self.application(tree, known)

    def application(self, tree, known):
        name, given = head_of(tree)
        if name == "codes":
            return codes(given[0][1])
        if name in known and (not given or callable(known[name])):
            value = known[name]
            return value(*(self.of(it, known) for it in given)) if given else value
        if name in ("true", "false"):
            return name == "true"
        if name == "[]":
            return ()
        if name == "zero":
            return 0
        if is_constructor(name):
            return (name.split(".")[-1], *(self.of(it, known) for it in given))
        if not given and (name not in self.items or self.items[name].rows and self.items[name].rows[0][0]):
            return lambda *more: self.call(name, *more)
        if name in self.items and self.items[name].rows and not self.items[name].rows[0][0]:
            value = self.rows(name, ())
            return value(*(self.of(it, known) for it in given)) if given else value
        return self.call(name, *(self.of(it, known) for it in given))
