"""Writes the tokens, trees and typed trees of the small compiler in the format of courses (docs/phases.md), as the phases of a student do."""

import os
import sys

sys.path.insert(1, os.path.join(os.path.dirname(os.path.realpath(__file__)), "..", "..", "bin"))
from classes import Classes
from lexing import Fault, Lexer
from parsing import Parser
from phase_tokens import KEYWORDS, SIGNS, Token, quoted, token_lines
from phase_trees import NO_TYPE, Node, Quoted, tree_lines
from typing_rules import Checker

ERRORS = {
    "null byte in string": b"String contains null character", "string too long": b"String constant too long", "comment not closed": b"EOF in comment",
    "comment not opened": b"Unmatched *)",
}
CONSTANTS = {"type": b"TYPEID", "name": b"OBJECTID", "int": b"INT_CONST"}
SIGNS_OF_TREES = {"+": b"_plus", "-": b"_sub", "*": b"_mul", "/": b"_divide", "<": b"_lt", "<=": b"_leq", "=": b"_eq"}


def data(text):
    return text.encode("latin-1")


class CourseLexer(Lexer):
    """The lexer, which continues after an error."""

    def course_tokens(self):
        found = []
        while self.at < len(self.text):
            start = self.at
            try:
                token = self.lexeme()
            except Fault as fault:
                found.append(self.error(str(fault), start))
            else:
                found += [course_token(token)] if token else []
        return found

    def error(self, why, start):
        if why == "integer too large":
            return Token(b"INT_CONST", self.line, data(self.text[start : self.at]))
        message = ERRORS.get(why)
        if why == "unknown character":
            message = data(self.take())
        elif why == "comment not opened":
            self.at += 2
        elif why == "null byte in string":
            self.skip_string()
        elif why == "string not closed":
            message = b"Unterminated string constant" if self.text[self.at - 1] == "\n" else b"EOF in string constant"
        return Token(b"ERROR", self.line, quoted(message))

    def skip_string(self):
        """Goes behind the closing quote, the newline that cuts a string off, or the end."""
        while self.at < len(self.text):
            c = self.take()
            if c in '"\n':
                return
            if c == "\\" and self.at < len(self.text):
                self.take()


def course_token(token):
    text = data(token.text)
    if token.kind == "word":
        return Token(b"BOOL_CONST", token.line, text) if text in (b"true", b"false") else Token(KEYWORDS[text], token.line, b"")
    if token.kind == "sign":
        return Token(SIGNS.get(text, b"'" + text + b"'"), token.line, b"")
    if token.kind == "string":
        return Token(b"STR_CONST", token.line, quoted(text))
    return Token(CONSTANTS[token.kind], token.line, text)


class CourseParser(Parser):
    """The parser, which keeps how an integer is written."""

    def primary(self):
        token = self.token
        node = super().primary()
        if token.kind == "int":
            node.text = token.text
        return node


class CourseChecker(Checker):
    """The checker, which keeps the type of each node."""

    def type(self, node, scope):
        node.static = super().type(node, scope)
        return node.static


class Tree:
    """Trees of the small compiler as those of courses. A node has its type, or none."""

    def program(self, definitions):
        return Node(0, b"_program", [self.class_(it) for it in definitions], None)

    def class_(self, it):
        return Node(it.line, b"_class", [data(it.name), data(it.parent), Quoted(quoted(data(it.file))), [self.feature(f) for f in it.features]], None)

    def feature(self, it):
        if it.form == "attribute":
            return Node(it.line, b"_attr", [data(it.name), data(it.type), self.value(it.value, it.line)], None)
        formals = [Node(it.line, b"_formal", [data(name), data(type)], None) for name, type in it.formals]
        return Node(it.line, b"_method", [data(it.name), *formals, data(it.type), self.node(it.body)], None)

    def value(self, it, line):
        return Node(line, b"_no_expr", [], NO_TYPE) if it is None else self.node(it)

    def node(self, it):
        label, items = getattr(self, "of_" + it.form)(it)
        return Node(it.line, label, items, data(getattr(it, "static", "_no_type")))

    def nodes(self, *parts):
        return [self.node(part) for part in parts]

    def of_int(self, it):
        return b"_int", [data(it.text)]

    def of_string(self, it):
        return b"_string", [Quoted(quoted(data(it.value)))]

    def of_bool(self, it):
        return b"_bool", [b"1" if it.value else b"0"]

    def of_name(self, it):
        return b"_object", [data(it.name)]

    def of_assign(self, it):
        return b"_assign", [data(it.name), self.node(it.value)]

    def of_call(self, it):
        receiver, arguments = self.node(it.receiver), self.nodes(*it.arguments)
        if it.at is None:
            return b"_dispatch", [receiver, data(it.name), arguments]
        return b"_static_dispatch", [receiver, data(it.at), data(it.name), arguments]

    def of_if(self, it):
        return b"_cond", self.nodes(it.test, it.yes, it.no)

    def of_while(self, it):
        return b"_loop", self.nodes(it.test, it.body)

    def of_block(self, it):
        return b"_block", self.nodes(*it.items)

    def of_let(self, it):
        return b"_let", [data(it.name), data(it.type), self.value(it.value, it.line), self.node(it.body)]

    def of_case(self, it):
        branches = [Node(it.line, b"_branch", [data(name), data(type), self.node(body)], None) for name, type, body in it.branches]
        return b"_typcase", [self.node(it.value), *branches]

    def of_new(self, it):
        return b"_new", [data(it.type)]

    def of_isvoid(self, it):
        return b"_isvoid", self.nodes(it.value)

    def of_not(self, it):
        return b"_comp", self.nodes(it.value)

    def of_minus(self, it):
        return b"_neg", self.nodes(it.value)

    def of_operator(self, it):
        return SIGNS_OF_TREES[it.sign], self.nodes(it.left, it.right)


def text_of(phase, files, with_lines=True):
    """The text that a phase writes for files, given as (name, text), with the numbers of lines or not. It raises a Fault for an error that it reports."""
    if phase == "lexer":
        lines = [line for name, text in files for line in token_lines(data(name), CourseLexer(text).course_tokens(), with_lines)]
    else:
        definitions = [it for name, text in files for it in CourseParser(Lexer(text).tokens(), name).file_classes()]
        if phase == "semant":
            classes = Classes(definitions)
            for definition in definitions:
                CourseChecker(classes, definition.name).check()
        lines = tree_lines(Tree().program(definitions), with_lines)
    return b"".join(line + b"\n" for line in lines)
