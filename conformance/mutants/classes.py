"""Builds the class table of a program for the small compiler (the one that mutants change): parents, attributes and methods, and the errors in them."""

from lexing import Fault
from parsing import Node

BASIC = ("Object", "IO", "Int", "Bool", "String")
VALUES = ("Int", "Bool", "String")
SELF_TYPE = "SELF_TYPE"


def basic_method(name, result, *types):
    formals = [("x%d" % at, type) for at, type in enumerate(types)]
    return Node("method", 0, name=name, formals=formals, type=result, body=None)


BASIC_METHODS = {
    "Object": [basic_method("abort", "Object"), basic_method("type_name", "String"), basic_method("copy", SELF_TYPE)],
    "IO": [
        basic_method("out_string", SELF_TYPE, "String"),
        basic_method("out_int", SELF_TYPE, "Int"),
        basic_method("in_string", "String"),
        basic_method("in_int", "Int"),
    ],
    "Int": [],
    "Bool": [],
    "String": [basic_method("length", "Int"), basic_method("concat", "String", "String"), basic_method("substr", "String", "Int", "Int")],
}


class Classes:
    """All classes of a program, by name."""

    def __init__(self, definitions):
        self.of = {}
        for name in BASIC:
            parent = None if name == "Object" else "Object"
            self.of[name] = Node("class", 0, name=name, parent=parent, features=BASIC_METHODS[name], file="")
        for definition in definitions:
            self.add(definition)
        self.check_parents()
        self.check_cycles()
        if "Main" not in self.of:
            raise Fault("no class Main")
        for definition in definitions:
            self.check_features(definition)
        self.check_main()

    def add(self, definition):
        if definition.name in self.of:
            raise Fault("class defined twice")
        if definition.name == SELF_TYPE:
            raise Fault("SELF_TYPE names no class")
        self.of[definition.name] = definition

    def check_parents(self):
        for definition in self.of.values():
            if definition.parent in VALUES:
                raise Fault("parent cannot be inherited")
            if definition.parent == SELF_TYPE:
                raise Fault("SELF_TYPE names no class")
            if definition.parent is not None and definition.parent not in self.of:
                raise Fault("unknown parent")

    def check_cycles(self):
        for name in self.of:
            seen = []
            while name is not None:
                if name in seen:
                    raise Fault("inheritance cycle")
                seen.append(name)
                name = self.of[name].parent

    def chain(self, name):
        """The class, its parent, and so on up to Object."""
        found = []
        while name is not None:
            found.append(name)
            name = self.of[name].parent
        return found

    def features(self, name, form):
        return [feature for feature in self.of[name].features if feature.form == form]

    def attributes(self, name):
        """The attributes of a class, those of the greatest ancestor first."""
        found = []
        for above in reversed(self.chain(name)):
            found += self.features(above, "attribute")
        return found

    def method(self, name, word):
        """The method of a name that a class has, with the class that defines it, or None."""
        for above in self.chain(name):
            for feature in self.features(above, "method"):
                if feature.name == word:
                    return above, feature
        return None

    def is_type(self, type):
        return type in self.of or type == SELF_TYPE

    def check_features(self, definition):
        methods, attributes = set(), set()
        inherited = {feature.name for feature in self.attributes(definition.parent)}
        for feature in definition.features:
            if feature.form == "method":
                if feature.name in methods:
                    raise Fault("method defined twice")
                methods.add(feature.name)
                self.check_method(definition, feature)
            else:
                if feature.name in attributes:
                    raise Fault("attribute defined twice")
                if feature.name in inherited:
                    raise Fault("attribute is inherited")
                attributes.add(feature.name)
                self.check_attribute(feature)

    def check_attribute(self, feature):
        if feature.name == "self":
            raise Fault("self cannot be declared")
        if not self.is_type(feature.type):
            raise Fault("unknown type")

    def check_method(self, definition, feature):
        names = set()
        for name, type in feature.formals:
            if name == "self":
                raise Fault("self cannot be declared")
            if name in names:
                raise Fault("formal defined twice")
            names.add(name)
            if type == SELF_TYPE:
                raise Fault("formal of type SELF_TYPE")
            if type not in self.of:
                raise Fault("unknown type")
        if not self.is_type(feature.type):
            raise Fault("unknown type")
        self.check_signature(definition, feature)

    def check_signature(self, definition, feature):
        above = self.method(definition.parent, feature.name)
        if above is None:
            return
        inherited = above[1]
        if len(inherited.formals) != len(feature.formals):
            raise Fault("another number of formals")
        if [type for _, type in inherited.formals] != [type for _, type in feature.formals]:
            raise Fault("another type of a formal")
        if inherited.type != feature.type:
            raise Fault("another result")

    def check_main(self):
        found = [feature for feature in self.features("Main", "method") if feature.name == "main"]
        if not found:
            raise Fault("no method main")
        if found[0].formals:
            raise Fault("main has formals")
