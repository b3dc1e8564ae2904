"""Converts the syntax trees that `cool_editor --trees` prints to the text format of Cool courses.

docs/phases.md describes both formats. Trees may be deep, so no function here calls itself.
"""
from collections import namedtuple

from phase_tokens import FileTokens, Token, ask, course_token, digits, error_token, place, quoted

# A node of a tree: its line, its label, its items in order, and its type, or None if nodes with this label have none. An item is a name (bytes), a string
# (Quoted), a node, or a list of nodes that stands between parentheses.
Node = namedtuple("Node", "line label items type")
Quoted = namedtuple("Quoted", "text")
# A node as the program prints it: its place and that of its first token (file, line, byte), its type, its form, and what follows on its line.
Printed = namedtuple("Printed", "at first type form rest")

BINARY = {b"+": b"_plus", b"-": b"_sub", b"*": b"_mul", b"/": b"_divide", b"<": b"_lt", b"<=": b"_leq", b"=": b"_eq"}
UNARY = {b"isvoid": b"_isvoid", b"~": b"_neg", b"not": b"_comp"}
LABELS = {**BINARY, **UNARY, b"if": b"_cond", b"while": b"_loop", b"block": b"_block"}
NO_TYPE = b"_no_type"


class Trees:
    """The trees of files in the format of the courses, and the syntax or lexical errors of files that have no tree.

    The line of a node is that of its first token, as bison's default gives it (`first`), or that at which `cool` reports an error of the node (`mark`).
    """

    def __init__(self, paths, names, lines, typed):
        self.tokens, self.names, self.lines, self.typed = FileTokens(paths), names, lines, typed
        self.faults, self.classes = [], [[] for _ in paths]
        self.index = [{token.byte: i for i, token in enumerate(tokens)} for tokens in self.tokens.tokens]
        self._read(ask("--trees", paths))

    def _read(self, lines):
        """Sorts the printed lines: a class has features, and a feature has a word, a head, formals and nodes."""
        features = feature = None
        for line in lines:
            word, at, rest = line.split(b" ", 2)
            at = place(at)
            if word == b"node":
                first, _, _, type_, form, *parts = rest.split(b" ", 5)
                feature[-1].append(Printed(at, place(first), type_, form, parts[0] if parts else b""))
            elif word == b"fault":
                self.faults.append((at, rest))
            elif word == b"formal":
                feature[2].append((at, *rest.split(b" ")))
            elif word == b"class":
                features = []
                self.classes[at[0]].append((at, *rest.split(b" "), features))
            else:
                feature = [word, (at, *rest.split(b" ")), [], []]
                features.append(feature)

    def program(self):
        """The tree of all files as one program."""
        classes = [self._class(found) for file in self.classes for found in file]
        return Node(classes[0].line if classes else 0, b"_program", classes, None)

    def _class(self, found):
        at, name, parent, features = found
        keyword = self.tokens.tokens[at[0]][self.index[at[0]][at[2]] - 1]
        parent = b"Object" if parent == b"-" else parent
        line = keyword.line if self.lines == "first" else at[1]
        return Node(line, b"_class", [name, parent, Quoted(quoted(self.names[at[0]])), [self._feature(it) for it in features]], None)

    def _feature(self, found):
        word, (at, name, type_), formals, nodes = found
        value = self._expression(nodes) if nodes else Node(at[1], b"_no_expr", [], NO_TYPE)
        if word == b"attribute":
            return Node(at[1], b"_attr", [name, type_, value], None)
        return Node(at[1], b"_method", [name, *(Node(place[1], b"_formal", [n, t], None) for place, n, t in formals), type_, value], None)

    def _expression(self, nodes):
        """The tree of printed nodes, where the parts of each stand before it."""
        self.made = []
        for node in nodes:
            line = self._first_line(node.first) if self.lines == "first" else node.at[1]
            label, items = self._content(node, line)
            self.made.append(Node(line, label, items, node.type if self.typed else NO_TYPE))
        return self.made[-1]

    def _first_line(self, at):
        """The line of the first token of a node, as the courses have it: that on which the token ends."""
        file, _, byte = at
        return course_token(self.tokens.texts[file], self.tokens.tokens[file][self.index[file][byte]]).line

    def _content(self, node, line):
        """The label of a node, and its items."""
        form, rest = node.form, node.rest
        if form == b"string":
            return b"_string", [Quoted(rest[1:-1])]
        if form == b"integer":
            return b"_int", [digits(self.tokens.texts[node.at[0]], node.at[2])]
        if form == b"bool":
            return b"_bool", [b"1" if rest == b"true" else b"0"]
        if form in (b"name", b"new"):
            return b"_object" if form == b"name" else b"_new", [rest]
        return self._of_parts(form, rest.split(b" "), line)

    def _of_parts(self, form, words, line):
        """The same for a form that has parts, from the words of its line."""
        def part(word):
            return self.made[int(word)]

        def parts(words):
            return [part(word) for word in words]

        if form == b"assign":
            return b"_assign", [words[0], part(words[1])]
        if form == b"call":
            return b"_dispatch", [part(words[1]), words[0], parts(words[2:])]
        if form == b"static":
            return b"_static_dispatch", [part(words[2]), words[0], words[1], parts(words[3:])]
        if form == b"let":
            initial = Node(line, b"_no_expr", [], NO_TYPE) if words[2] == b"-" else part(words[2])
            return b"_let", [words[0], words[1], initial, part(words[3])]
        if form == b"case":
            branches = [words[i:i + 4] for i in range(1, len(words), 4)]
            return b"_typcase", [part(words[0])] + [Node(place(at)[1], b"_branch", [n, t, part(body)], None) for at, n, t, body in branches]
        return LABELS[form], parts(words)

    def syntax_errors(self):
        """The first syntax error of each file, by the number of the file, as the parsers of courses report it."""
        return {at[0]: self._syntax_error(at, kind) for at, kind in self.faults}

    def _syntax_error(self, at, kind):
        file, line, byte = at
        text, index = self.tokens.texts[file], self.index[file].get(byte)
        if kind != b"S1":
            token = error_token(text, line, byte, kind)[0] or Token(b"ERROR", line, kind)
        else:
            token = course_token(text, self.tokens.tokens[file][index]) if index is not None else Token(b"EOF", line, b"")
        return syntax_error(self.names[file], line, token)


def syntax_error(name, line, token):
    value = b' = "%s"' % token.value if token.word in (b"STR_CONST", b"ERROR") else b" = " + token.value if token.value else b""
    return b'"%s", line %d: syntax error at or near %s%s' % (name, line, token.word, value)


def tree_lines(node, lines=True):
    """The lines of a tree."""
    out, left = [], [(0, node)]
    while left:
        depth, item = left.pop()
        pad = b" " * depth
        if isinstance(item, bytes):
            out.append(pad + item)
        elif isinstance(item, Quoted):
            out.append(pad + b'"' + item.text + b'"')
        elif isinstance(item, list):
            out.append(pad + b"(")
            left.append((depth, b")"))
            left += [(depth, part) for part in reversed(item)]
        else:
            if lines:
                out.append(pad + b"#%d" % item.line)
            out.append(pad + item.label)
            if item.type is not None:
                left.append((depth, b": " + item.type))
            left += [(depth + 2, part) for part in reversed(item.items)]
    return out
