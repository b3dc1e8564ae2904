"""The small compiler (the one that mutants change) runs a program by evaluating its expressions."""

import re

from classes import SELF_TYPE, VALUES

LEAST, MOST = -(1 << 31), (1 << 31) - 1
MOST_STEPS = 2000000


class Halt(Exception):
    """The end of a run by an error, with its text."""


class OutOfSteps(Exception):
    """A run that has not ended after the steps that it may take."""


class Thing:
    """An object: its class, and a cell for each attribute."""

    def __init__(self, of, cells):
        self.of, self.cells = of, cells


def class_of(value):
    if isinstance(value, bool):
        return "Bool"
    if isinstance(value, int):
        return "Int"
    return "String" if isinstance(value, str) else value.of


def default_of(type):
    return {"Int": 0, "Bool": False, "String": ""}.get(type)


def is_same(left, right):
    if isinstance(left, Thing) or isinstance(right, Thing):
        return left is right
    if left is None or right is None:
        return left is right
    return class_of(left) == class_of(right) and left == right


def quotient(left, right):
    size = abs(left) // abs(right)
    return size if (left < 0) == (right < 0) else -size


class Machine:
    """Runs the program of some classes over an input, which is a text as its output is: bytes stand for letters."""

    def __init__(self, classes, given):
        self.classes, self.given, self.at = classes, given, 0
        self.out, self.steps, self.file = [], 0, ""

    def run(self):
        """The output and the status of the program."""
        try:
            main = self.make("Main", None)
            self.invoke(main, "Main", "main", [])
            return "".join(self.out) + "COOL program successfully executed\n", 0
        except Halt as halt:
            return "".join(self.out) + f"{halt}\n", 3

    def halt(self, line, text):
        raise Halt(f"{self.file}:{line}: {text}")

    def step(self):
        self.steps += 1
        if self.steps > MOST_STEPS:
            raise OutOfSteps

    def eval(self, node, me, scope):
        """The value of an expression, for an object and the cells of names."""
        return getattr(self, "eval_" + node.form)(node, me, scope)

    def eval_int(self, node, me, scope):
        return node.value

    def eval_string(self, node, me, scope):
        return node.value

    def eval_bool(self, node, me, scope):
        return node.value

    def eval_name(self, node, me, scope):
        if node.name == "self":
            return me
        return scope[node.name][0]

    def eval_assign(self, node, me, scope):
        value = self.eval(node.value, me, scope)
        scope[node.name][0] = value
        return value

    def eval_call(self, node, me, scope):
        values = [self.eval(argument, me, scope) for argument in node.arguments]
        receiver = self.eval(node.receiver, me, scope)
        if receiver is None:
            self.halt(node.line, "Dispatch to void.")
        of = node.at if node.at is not None else class_of(receiver)
        return self.invoke(receiver, of, node.name, values, node.line)

    def invoke(self, receiver, of, name, values, line=0):
        """What the method of a name gives that a class has, for a receiver and the values of the formals."""
        self.step()
        _, method = self.classes.method(of, name)
        if method.body is None:
            return getattr(self, "basic_" + name)(receiver, line, *values)
        scope = dict(receiver.cells) if isinstance(receiver, Thing) else {}
        for (formal, _), value in zip(method.formals, values):
            scope[formal] = [value]
        kept, self.file = self.file, self.classes.of[_].file
        try:
            return self.eval(method.body, receiver, scope)
        finally:
            self.file = kept

    def eval_if(self, node, me, scope):
        if self.eval(node.test, me, scope):
            return self.eval(node.yes, me, scope)
        return self.eval(node.no, me, scope)

    def eval_while(self, node, me, scope):
        while self.eval(node.test, me, scope):
            self.step()
            self.eval(node.body, me, scope)
        return None

    def eval_block(self, node, me, scope):
        for item in node.items:
            value = self.eval(item, me, scope)
        return value

    def eval_let(self, node, me, scope):
        value = default_of(node.type) if node.value is None else self.eval(node.value, me, scope)
        return self.eval(node.body, me, {**scope, node.name: [value]})

    def eval_case(self, node, me, scope):
        value = self.eval(node.value, me, scope)
        if value is None:
            self.halt(node.line, "Case on void.")
        for above in self.classes.chain(class_of(value)):
            for name, type, body in node.branches:
                if type == above:
                    return self.eval(body, me, {**scope, name: [value]})
        return self.halt(node.line, f"No matching branch for class {class_of(value)}.")

    def eval_new(self, node, me, scope):
        return self.make(node.type, me)

    def make(self, type, me):
        """A new object of a type; SELF_TYPE is the class of the object itself."""
        self.step()
        of = me.of if type == SELF_TYPE and isinstance(me, Thing) else type
        if of in VALUES:
            return default_of(of)
        attributes = self.classes.attributes(of)
        thing = Thing(of, {attribute.name: [default_of(attribute.type)] for attribute in attributes})
        for above in reversed(self.classes.chain(of)):
            kept, self.file = self.file, self.classes.of[above].file
            for attribute in self.classes.features(above, "attribute"):
                if attribute.value is not None:
                    value = self.eval(attribute.value, thing, dict(thing.cells))
                    thing.cells[attribute.name][0] = value
            self.file = kept
        return thing

    def eval_isvoid(self, node, me, scope):
        return self.eval(node.value, me, scope) is None

    def eval_not(self, node, me, scope):
        return not self.eval(node.value, me, scope)

    def eval_minus(self, node, me, scope):
        return self.number(-self.eval(node.value, me, scope), node.line)

    def eval_operator(self, node, me, scope):
        left = self.eval(node.left, me, scope)
        right = self.eval(node.right, me, scope)
        if node.sign == "+":
            return self.number(left + right, node.line)
        if node.sign == "-":
            return self.number(left - right, node.line)
        if node.sign == "*":
            return self.number(left * right, node.line)
        if node.sign == "/":
            if right == 0:
                self.halt(node.line, "Division by zero.")
            return self.number(quotient(left, right), node.line)
        if node.sign == "<":
            return left < right
        if node.sign == "<=":
            return left <= right
        return is_same(left, right)

    def number(self, value, line):
        if not LEAST <= value <= MOST:
            self.halt(line, "Arithmetic overflow.")
        return value

    def basic_abort(self, me, line):
        raise Halt(f"Abort called from class {class_of(me)}")

    def basic_type_name(self, me, line):
        return class_of(me)

    def basic_copy(self, me, line):
        if not isinstance(me, Thing):
            return me
        return Thing(me.of, {name: list(cell) for name, cell in me.cells.items()})

    def basic_out_string(self, me, line, text):
        self.out.append(text)
        return me

    def basic_out_int(self, me, line, number):
        self.out.append(str(number))
        return me

    def line_of_input(self):
        end = self.given.find("\n", self.at)
        end = len(self.given) if end < 0 else end
        line = self.given[self.at : end]
        self.at = end + 1
        return line.replace("\0", "")

    def basic_in_string(self, me, line):
        return self.line_of_input()

    def basic_in_int(self, me, line):
        found = re.match(r"[ \t]*(-?)([0-9]+)", self.line_of_input())
        if not found:
            return 0
        number = int(found[1] + found[2]) & 0xFFFFFFFF
        return number - (1 << 32) if number > MOST else number

    def basic_length(self, me, line):
        return len(me)

    def basic_concat(self, me, line, other):
        return me + other

    def basic_substr(self, me, line, start, length):
        if start < 0 or length < 0 or start + length > len(me):
            self.halt(line, "Substring out of range.")
        return me[start : start + length]
