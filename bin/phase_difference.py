"""Finds the first difference between two lists of tokens, or two syntax trees, and describes it in words, for `phase-diff` and `conformance/grade`.

A given text may come from a program that is not trusted, and trees may be deep, so no function here calls itself.
"""
import re

from phase_reading import read_tree
from phase_tokens import Unlike, read_tokens, token_line
from phase_trees import BINARY, Node, Quoted

# The names of the items of a node by its label, in order; None for a name.
PARTS = {
    b"_assign": [None, "value"], b"_static_dispatch": ["receiver", None, None, "argument"], b"_dispatch": ["receiver", None, "argument"],
    b"_cond": ["predicate", "then", "else"], b"_loop": ["predicate", "body"], b"_typcase": ["value"], b"_let": [None, None, "initial value", "body"],
    b"_attr": [None, None, "initial value"], **{label: ["left", "right"] for label in BINARY.values()},
}
NAMED = {b"_class": "class", b"_method": "method", b"_attr": "attribute"}
MOST_SHOWN = 200


class NotWanted(Exception):
    """The wanted text has neither tokens nor a tree."""


def is_tree(data):
    return re.match(rb"\s*(#[0-9]+\s+)?_program\b", data) is not None


def first_difference(wanted, given, lines):
    """The first difference in words, or None. A given text that cannot be read differs, too."""
    reads, differ = (read_tree, first_tree_difference) if is_tree(wanted) else (read_tokens, first_token_difference)
    try:
        wanted = reads(wanted)
    except Unlike as unlike:
        raise NotWanted(str(unlike)) from unlike
    try:
        return differ(wanted, reads(given), lines)
    except Unlike as unlike:
        return shown(str(unlike))


def first_token_difference(wanted, given, lines):
    for (name, tokens), other in zip(wanted, given + [None] * len(wanted)):
        if other is None:
            return "the file %s is missing" % text(name)
        for number, token in enumerate(tokens, 1):
            found = other[1][number - 1] if number <= len(other[1]) else None
            if found is None:
                return "%s: token %d of %d is missing: %s" % (text(name), number, len(tokens), text(token_line(token)))
            if token[::2] != found[::2] or lines and token.line != found.line:
                return "%s: token %d: %s instead of %s" % (text(name), number, text(token_line(found)), text(token_line(token)))
        if len(other[1]) > len(tokens):
            return "%s: token %d is one too many: %s" % (text(name), len(tokens) + 1, text(token_line(other[1][len(tokens)])))
    return "%d files instead of %d" % (len(given), len(wanted)) if len(given) > len(wanted) else None


def first_tree_difference(wanted, given, lines):
    """Compares the items of nodes in the order of the text."""
    left = [([], wanted, given)]
    while left:
        path, a, b = left.pop()
        where = " > ".join(path) or "the program"
        if isinstance(a, Node) and isinstance(b, Node):
            if a.label != b.label:
                return "%s: %s instead of %s (line %d)" % (where, text(b.label), text(a.label), a.line)
            if lines and a.line != b.line:
                return "%s: %s has line %d instead of %d" % (where, text(b.label), b.line, a.line)
            left += reversed(list(compared(path, a, b)))
        elif isinstance(a, list) and isinstance(b, list):
            if len(a) != len(b):
                left.append((path, b"%d of them" % len(a), b"%d of them" % len(b)))
            left += [(numbered(path, place, a[place]), a[place], b[place]) for place in reversed(range(min(len(a), len(b))))]
        elif isinstance(a, (Node, list)) or isinstance(b, (Node, list)):
            return "%s: %s instead of %s" % (where, kind(b), kind(a))
        elif a != b:
            return "%s: %s instead of %s" % (where, text(b), text(a))
    return None


def compared(path, a, b):
    """What to compare in two nodes with the same label: their items, and then their number and their types."""
    for place, (item, other) in enumerate(zip(a.items, b.items)):
        yield path + step(a, place), item, other
    if len(a.items) != len(b.items):
        yield path, b"%d parts" % len(a.items), b"%d parts" % len(b.items)
    yield path, b"the type " + (a.type or b""), b"the type " + (b.type or b"")


def step(node, place):
    """The words for an item of a node, in a path."""
    item, label = node.items[place], node.label
    if isinstance(item, (bytes, Quoted)):
        return []
    if label == b"_program":
        return named(item)
    if label == b"_class":
        return ["feature"]
    if label == b"_method":
        return ["formal %d" % place] if item.label == b"_formal" else ["body"]
    if label == b"_typcase" and place:
        return ["_typcase's branch %d" % place]
    known = PARTS.get(label, [])
    return ["%s's %s" % (text(label), known[place] if place < len(known) else "part %d" % (place + 1))]


def numbered(path, place, item):
    return path[:-1] + ["%s %d" % (path[-1], place + 1)] + named(item)


def named(node):
    return ["%s %s" % (NAMED[node.label], text(node.items[0]))] if node.label in NAMED else []


def kind(item):
    return text(item.label) if isinstance(item, Node) else "a list" if isinstance(item, list) else text(item)


def text(data):
    return shown('"%s"' % data.text.decode("utf8", "replace") if isinstance(data, Quoted) else data.decode("utf8", "replace"))


def shown(words):
    """Words that fit into a line of a table."""
    return "".join(letter if letter.isprintable() else "?" for letter in words[:MOST_SHOWN])
