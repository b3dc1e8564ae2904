"""The type checker of the small compiler (the one that mutants change) finds the type of each expression, and the first type error."""

from classes import SELF_TYPE, VALUES
from lexing import Fault


class Checker:
    """Checks the features of one class. A scope has the types of names."""

    def __init__(self, classes, name):
        self.classes, self.name = classes, name

    def conforms(self, type, other):
        if type == SELF_TYPE and other == SELF_TYPE:
            return True
        if other == SELF_TYPE:
            return False
        if type == SELF_TYPE:
            type = self.name
        return other in self.classes.chain(type)

    def join(self, type, other):
        if type == other:
            return type
        chain = self.classes.chain(self.class_of(other))
        for above in self.classes.chain(self.class_of(type)):
            if above in chain:
                return above
        return "Object"

    def class_of(self, type):
        return self.name if type == SELF_TYPE else type

    def check(self):
        scope = {feature.name: feature.type for feature in self.classes.attributes(self.name)}
        scope["self"] = SELF_TYPE
        for feature in self.classes.of[self.name].features:
            if feature.form == "attribute":
                self.check_value(feature.value, feature.type, scope)
            else:
                inner = {**scope, **dict(feature.formals)}
                type = self.type(feature.body, inner)
                if not self.conforms(type, feature.type):
                    raise Fault("body does not conform")

    def check_value(self, value, type, scope):
        if value is None:
            return
        if not self.conforms(self.type(value, scope), type):
            raise Fault("initial value does not conform")

    def type(self, node, scope):
        return getattr(self, "type_" + node.form)(node, scope)

    def type_int(self, node, scope):
        return "Int"

    def type_string(self, node, scope):
        return "String"

    def type_bool(self, node, scope):
        return "Bool"

    def type_name(self, node, scope):
        if node.name not in scope:
            raise Fault("unknown name")
        return scope[node.name]

    def type_assign(self, node, scope):
        type = self.type(node.value, scope)
        if node.name == "self":
            raise Fault("self cannot be assigned")
        if node.name not in scope:
            raise Fault("unknown name")
        if not self.conforms(type, scope[node.name]):
            raise Fault("assigned value does not conform")
        return type

    def type_call(self, node, scope):
        receiver = self.type(node.receiver, scope)
        types = [self.type(argument, scope) for argument in node.arguments]
        of = self.class_of(receiver)
        if node.at is not None:
            if node.at not in self.classes.of:
                raise Fault("unknown type after @")
            if not self.conforms(receiver, node.at):
                raise Fault("receiver does not conform")
            of = node.at
        found = self.classes.method(of, node.name)
        if found is None:
            raise Fault("unknown method")
        method = found[1]
        if len(method.formals) != len(types):
            raise Fault("wrong number of arguments")
        for type, (_, formal) in zip(types, method.formals):
            if not self.conforms(type, formal):
                raise Fault("argument does not conform")
        return receiver if method.type == SELF_TYPE else method.type

    def type_if(self, node, scope):
        if self.type(node.test, scope) != "Bool":
            raise Fault("predicate of if is not Bool")
        yes, no = self.type(node.yes, scope), self.type(node.no, scope)
        return self.join(yes, no)

    def type_while(self, node, scope):
        if self.type(node.test, scope) != "Bool":
            raise Fault("predicate of while is not Bool")
        self.type(node.body, scope)
        return "Object"

    def type_block(self, node, scope):
        types = [self.type(item, scope) for item in node.items]
        return types[-1]

    def type_let(self, node, scope):
        self.check_value_of_let(node, scope)
        inner = {**scope, node.name: node.type}
        return self.type(node.body, inner)

    def check_value_of_let(self, node, scope):
        if node.name == "self":
            raise Fault("self cannot be bound by let")
        if not self.classes.is_type(node.type):
            raise Fault("unknown type of let")
        self.check_value(node.value, node.type, scope)

    def type_case(self, node, scope):
        self.type(node.value, scope)
        seen, joined = set(), None
        for name, type, body in node.branches:
            if name == "self":
                raise Fault("self cannot be bound by case")
            if type == SELF_TYPE:
                raise Fault("SELF_TYPE in a branch")
            if type not in self.classes.of:
                raise Fault("unknown type of a branch")
            if type in seen:
                raise Fault("branch type twice")
            seen.add(type)
            inner = {**scope, name: type}
            found = self.type(body, inner)
            joined = found if joined is None else self.join(joined, found)
        return joined

    def type_new(self, node, scope):
        if not self.classes.is_type(node.type):
            raise Fault("unknown type after new")
        return node.type

    def type_isvoid(self, node, scope):
        self.type(node.value, scope)
        return "Bool"

    def type_not(self, node, scope):
        if self.type(node.value, scope) != "Bool":
            raise Fault("operand of not is not Bool")
        return "Bool"

    def type_minus(self, node, scope):
        if self.type(node.value, scope) != "Int":
            raise Fault("operand of ~ is not Int")
        return "Int"

    def type_operator(self, node, scope):
        left, right = self.type(node.left, scope), self.type(node.right, scope)
        if node.sign == "=":
            if left != right and (left in VALUES or right in VALUES):
                raise Fault("unequal types")
            return "Bool"
        if left != "Int":
            raise Fault("left operand is not Int")
        if right != "Int":
            raise Fault("right operand is not Int")
        return "Bool" if node.sign in ("<", "<=") else "Int"
