"""Writes a syntax tree, which was read in the text format of Cool courses, as Cool source text. A tree may be deep, so no function here calls itself.

A node is written as a list: (LINE, TOKEN) for a token, where LINE 0 means any, and (NODE, LEVEL) for a part, which needs parentheses if it binds less
tightly than LEVEL.
"""
from phase_tokens import Unlike, in_source, laid_out, unquoted
from phase_trees import BINARY

OPERATORS = {label: sign for sign, label in BINARY.items()}
PREFIXES = {b"_comp": b"not", b"_isvoid": b"isvoid", b"_neg": b"~"}
# How tightly a node binds; 9 for the other labels.
LEVELS = {
    b"_let": 0, b"_assign": 1, b"_comp": 2, b"_lt": 3, b"_leq": 3, b"_eq": 3, b"_plus": 4, b"_sub": 4, b"_mul": 5, b"_divide": 5, b"_isvoid": 6, b"_neg": 7,
    b"_new": 8,
}
# The levels of the parts of an operator.
NEEDS = {
    b"_plus": (4, 5), b"_sub": (4, 5), b"_mul": (5, 6), b"_divide": (5, 6), b"_lt": (4, 4), b"_leq": (4, 4), b"_eq": (4, 4), b"_comp": (2,),
    b"_isvoid": (6,), b"_neg": (7,),
}


def source_of(program, lines):
    """The files of a tree as a list of (name, bytes). `lines` says which token of a node stands on its line, if possible: the first one (`first`), or its own
    (`mark`)."""
    files = []
    for class_ in program.items:
        name, parent, file, features = class_.items
        if not files or files[-1][0] != file.text:
            files.append((file.text, []))
        words = files[-1][1]
        words += [(class_.line if lines == "first" else 0, b"class"), (class_.line, name), (0, b"inherits"), (0, parent), (0, b"{")]
        for feature in features:
            words += of_feature(feature, lines)
        words += [(0, b"}"), (0, b";")]
    return [(unquoted(name), laid_out(words)) for name, words in files]


def of_feature(feature, lines):
    """The tokens of a feature."""
    name, *formals, type_, body = feature.items
    out = [(feature.line, name)]
    if feature.label == b"_method":
        out.append((0, b"("))
        for i, formal in enumerate(formals):
            out += [(0, b",")] * (i > 0) + [(formal.line, formal.items[0]), (0, b":"), (0, formal.items[1])]
        return out + [(0, b")"), (0, b":"), (0, type_), (0, b"{")] + of_expression(body, lines) + [(0, b"}"), (0, b";")]
    out += [(0, b":"), (0, type_)]
    if body.label != b"_no_expr":
        out += [(0, b"<-")] + of_expression(body, lines)
    return out + [(0, b";")]


def of_expression(root, lines):
    """The tokens of an expression."""
    out, left = [], [(root, 0)]
    while left:
        item = left.pop()
        if isinstance(item[0], int):
            out.append(item)
            continue
        node, level = item
        written = of_node(node, lines)
        if LEVELS.get(node.label, 9) < level:
            written = [(node.line if lines == "first" else 0, b"(")] + written + [(0, b")")]
        left += reversed(written)
    return out


def of_node(node, lines):
    """How a node is written."""
    label, items, line = node.label, node.items, node.line
    if label in OPERATORS:
        left, right = NEEDS[label]
        return leftmost(node, left, lines) + [(line if lines == "mark" else 0, OPERATORS[label]), (items[1], right)]
    if label in PREFIXES:
        return [(line, PREFIXES[label]), (items[0], NEEDS[label][0])]
    if label in FORMS:
        return FORMS[label](node, lines)
    if label in (b"_int", b"_object"):
        return [(line, items[0])]
    raise Unlike("%s is no expression of Cool" % label.decode())


def leftmost(node, level, lines):
    """The first part of a node, in parentheses if it stands on a later line than the node itself."""
    part = node.items[0]
    if lines == "first" and 0 < node.line < part.line:
        return [(node.line, b"("), (part, 0), (0, b")")]
    return [(part, level)]


def of_dispatch(node, lines):
    receiver, name, arguments = node.items[0], node.items[-2], node.items[-1]
    if node.label == b"_dispatch" and receiver.label == b"_object" and receiver.items == [b"self"] and receiver.line == node.line:
        out = [(node.line, name)]
    else:
        at = [(0, b"@"), (0, node.items[1])] if node.label == b"_static_dispatch" else []
        out = leftmost(node, 9, lines) + at + [(0, b"."), (node.line if lines == "mark" else 0, name)]
    out.append((0, b"("))
    for i, argument in enumerate(arguments):
        out += [(0, b",")] * (i > 0) + [(argument, 0)]
    return out + [(0, b")")]


def of_let(node, lines):
    """A `let`. One directly within it is another variable of it: otherwise long chains would exceed the largest number of tokens of a feature."""
    out, behind = [(node.line if lines == "first" else 0, b"let")], None
    while behind != b"in":
        name, type_, initial, body = node.items
        out += [(node.line, name), (0, b":"), (0, type_)]
        if initial.label != b"_no_expr":
            out += [(0, b"<-"), (initial, 1)]
        behind = b"," if body.label == b"_let" else b"in"
        out.append((0, behind))
        node = body
    return out + [(body, 0)]


def of_case(node, _):
    out = [(node.line, b"case"), (node.items[0], 0), (0, b"of")]
    for branch in node.items[1:]:
        name, type_, body = branch.items
        out += [(branch.line, name), (0, b":"), (0, type_), (0, b"=>"), (body, 0), (0, b";")]
    return out + [(0, b"esac")]


def of_words(*words):
    """A form whose keywords stand around its parts."""
    def written(node, _):
        out = [(node.line, words[0])]
        for part, word in zip(node.items, words[1:]):
            out += [(part, 0), (0, word)]
        return out
    return written


FORMS = {
    b"_dispatch": of_dispatch, b"_static_dispatch": of_dispatch, b"_let": of_let, b"_typcase": of_case,
    b"_cond": of_words(b"if", b"then", b"else", b"fi"), b"_loop": of_words(b"while", b"loop", b"pool"),
    b"_assign": lambda node, _: [(node.line, node.items[0]), (0, b"<-"), (node.items[1], 0)],
    b"_block": lambda node, _: [(node.line, b"{")] + [it for part in node.items for it in ((part, 0), (0, b";"))] + [(0, b"}")],
    b"_new": lambda node, _: [(node.line, b"new"), (0, node.items[0])],
    b"_string": lambda node, _: [(node.line, b'"' + in_source(unquoted(node.items[0].text)) + b'"')],
    b"_bool": lambda node, _: [(node.line, b"true" if node.items[0] == b"1" else b"false")],
}
