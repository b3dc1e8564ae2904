"""Random legal programs of Cool, each of which ends: a loop has few iterations, and a body uses only methods and classes that were declared before it.

The forms of a program, and how often each occurs, are chosen for each program, so that rare forms occur together.
"""
from chance import Chance
from trees import BASIC, Tree, constant, name

VALUES = ("Int", "Bool", "String")
SELF = "SELF_TYPE"
METHODS = {
    "Object": {"abort": ([], "Object"), "type_name": ([], "String"), "copy": ([], SELF)},
    "IO": {"out_string": (["String"], SELF), "out_int": (["Int"], SELF), "in_string": ([], "String"), "in_int": ([], "Int")},
    "String": {"length": ([], "Int"), "concat": (["String"], "String"), "substr": (["Int", "Int"], "String")},
}
NUMBERS = ("0", "1", "2", "3", "5", "7", "10", "64", "007", "1000", "255", "32768")
# Items of strings, as they are written: each escape, each byte that is one only in strings, and none.
ITEMS = ("a", "b", "Cool", " ", "two words", "\\n", "\\t", "\\b", "\\f", '\\"', "\\\\", "\\c", "\\0",
         "\\\n", "\t", "--", "(*", "*)", "'", "#", "if",
         "0123456789abcdef")
# What the manual leaves open: numbers that lead past 32 bits, and bytes that are no ASCII.
CHOSEN_NUMBERS, CHOSEN_ITEMS = ("65535", "2147483647"), ("\xc3\xa9", "\x7f", "\x80\xff", "\\\xe9")
NAMES = ("x", "y", "z", "count", "n2", "a_b", "isvoid_", "in_", "letx", "aB")
COSTS = (20, 60, 200, 600)
START_COST = 6000
FORMS = ("variable", "constant", "if", "block", "let", "case", "call", "own", "static", "assign", "loop", "arithmetic", "levels", "minus", "divide",
         "compare", "equal", "not", "isvoid", "text", "input", "paren", "self", "new", "void", "copy", "count", "error")
USUAL = dict.fromkeys(FORMS, 4)
USUAL.update(levels=3, variable=14, constant=6, arithmetic=8, call=10, own=6, void=0.3, error=0.08, paren=1, input=1, divide=1, minus=2)
ODD_LINES = ("\n", "none\n", "- 5\n", "--5\n", "+7\n", "99999999999\n", "-2147483648\n", "2147483648\n", "\t 8\n", "12", "x\r\n", "\x00\n", "\xc3\xa9\n")
CLASS_NAMES = ("A", "B", "C", "Shape", "Cons", "Tree2", "D_", "Intx", "Main2", "True")


class Method:
    """A method's signature: what its callers know. `rank` is below that of what may call it, and 0 of basic classes, so that what defines one anew calls none.
    The first argument of a `counted` one counts turns down. One that `makes_self` may have `new SELF_TYPE`, and `is_maker` does nothing else."""

    def __init__(self, formals, result, rank=0, cost=1, counted=False, makes_self=False, is_maker=False):
        self.formals, self.result, self.rank, self.cost = formals, result, rank, cost
        self.counted, self.makes_self, self.is_maker = counted, makes_self, is_maker


class Class:
    """A class, with what it has and inherits: the types of attributes and the signatures of methods. `rank` is that of its initial values."""

    def __init__(self, name, parent, rank=0):
        self.name, self.parent, self.rank = name, parent, rank
        self.attributes = dict(parent.attributes) if parent else {}
        self.methods = dict(parent.methods) if parent else {}
        self.rows = []

    def conforms(self, other):
        return self.name == other or bool(self.parent) and self.parent.conforms(other)


class Scope:
    """Where an expression stands: its class, the names there, the least rank that it may not use, how deep it may go, and how often it is evaluated."""

    def __init__(self, **fields):
        self.__dict__.update(fields)

    def inner(self, **changed):
        return Scope(**{**self.__dict__, "depth": self.depth - 1, **changed})

    def with_names(self, **types):
        return self.inner(types={**self.types, **types})


class Maker:
    """The program of a seed, as a tree, and its input; with what the manual leaves open, or without."""

    def __init__(self, seed, choices=False):
        self.chance, self.choices = Chance(seed), choices
        self.ending = Chance("%s ending" % seed)
        self.weights = {form: USUAL[form] * self.chance.one_of((0, 0.5, 1, 1, 1, 3)) for form in FORMS}
        self.weights["constant"] += 1
        self.rank, self.left, self.turns = 0, 0, 0
        self.classes = {}
        for of in BASIC:
            self.classes[of] = Class(of, None if of == "Object" else self.classes["Object"])
            self.classes[of].methods.update({method: Method(*row) for method, row in METHODS.get(of, {}).items()})
        self.own = []

    # Types

    def conforms(self, type, other, of):
        """Whether a type conforms to another one in a class."""
        if SELF in (type, other):
            return type == other or other != SELF and of.conforms(other)
        return self.classes[type].conforms(other)

    def some_type(self, of_attribute=False):
        chance = self.chance
        if chance.happens(0.6):
            return chance.one_of(VALUES)
        if of_attribute and chance.happens(0.2):
            return SELF
        return chance.one_of(["Object", "IO", *(it.name for it in self.own)])

    def class_of(self, type, scope):
        return scope.of if type == SELF else self.classes[type]

    # Expressions

    def pays(self, cost, scope):
        """Whether this much of what the body may cost is left, and takes it."""
        cost *= scope.times
        if cost > self.left:
            return False
        self.left -= cost
        return True

    def expression(self, type, scope):
        """An expression whose type conforms to this one."""
        if scope.depth > 0 and self.pays(1, scope):
            for _ in range(4):
                made = getattr(self, "make_" + self.chance.by_weight(self.weights))(type, scope)
                if made:
                    return made
        return self.leaf(type, scope)

    def leaf(self, type, scope):
        return (self.chance.happens(0.7) and self.make_variable(type, scope)) or self.make_constant(type, scope) or self.fallback(type, scope)

    def fallback(self, type, scope):
        """What has this type and no parts that chance makes."""
        if type == SELF or (scope.of.conforms(type) and self.chance.happens(0.3)):
            return name("self", SELF)
        return self.make_new(type, scope) or self.void(type)

    def void(self, type):
        """A value of this type that is void, where it is no Int, Bool or String."""
        word = "nothing"
        return Tree("let", (), [Tree("binding", [word, type]), name(word, type)], type)

    def make_variable(self, type, scope):
        known = [word for word, of in scope.types.items() if self.conforms(of, type, scope.of)]
        if not known:
            return None
        word = self.chance.one_of(known)
        return name(word, scope.types[word])

    def make_constant(self, type, scope):
        chance = self.chance
        if type == "Object":
            type = chance.one_of(VALUES)
        if type == "Int":
            return constant(chance.one_of(CHOSEN_NUMBERS if self.choices and chance.happens(0.1) else NUMBERS), type)
        if type == "Bool":
            return constant(chance.one_of(("true", "false")), type)
        if type == "String":
            items = ITEMS + CHOSEN_ITEMS if self.choices else ITEMS
            return constant('"%s"' % "".join(chance.one_of(items) for _ in range(chance.below(4))), type)
        return None

    def make_self(self, type, scope):
        return name("self", SELF) if self.conforms(SELF, type, scope.of) else None

    def make_new(self, type, scope):
        if type == SELF:
            return Tree("new", [SELF], (), SELF) if scope.makes_self and self.pays(COSTS[-1], scope) else None
        kinds = [of for of in self.classes.values() if of.conforms(type) and of.rank < scope.rank and (of.name not in VALUES or type in VALUES)]
        if not kinds:
            return None
        of = self.chance.one_of(kinds)
        return Tree("new", [of.name], (), of.name) if self.pays(COSTS[1] if of in self.own else 1, scope) else None

    def make_void(self, type, scope):
        return None if type in VALUES or scope.of_start else self.void(type)

    def make_paren(self, type, scope):
        inner = self.expression(type, scope.inner())
        return Tree("paren", (), [inner], inner.type)

    def make_copy(self, type, scope):
        if type not in VALUES and type != SELF:
            return None
        inner = name("self", SELF) if type == SELF else self.expression(type, scope.inner())
        return Tree("call", ["copy"], [inner], type)

    def make_if(self, type, scope):
        parts = [self.expression(kind, scope.inner()) for kind in ("Bool", type, type)]
        return Tree("if", (), parts, type)

    def make_block(self, type, scope):
        items = [self.statement(scope.inner()) for _ in range(self.chance.below(3))]
        last = self.expression(type, scope.inner())
        return Tree("block", (), [*items, last], last.type)

    def make_let(self, type, scope):
        bindings = []
        for _ in range(1 + self.chance.below(2)):
            binding, scope = self.binding(scope)
            bindings.append(binding)
        body = self.expression(type, scope.inner())
        return Tree("let", (), [*bindings, body], body.type)

    def new_name(self, scope):
        """A name to bind: one that hides another now and then, and never the one that a loop counts by."""
        return self.chance.one_of([word for word in NAMES if word not in scope.fixed])

    def binding(self, scope):
        """A binding of a let, and the scope behind it."""
        word, type = self.new_name(scope), self.some_type(of_attribute=True)
        has_value = type not in VALUES or self.chance.happens(0.7)
        value = [self.expression(type, scope.inner())] if has_value else []
        return Tree("binding", [word, type], value), scope.with_names(**{word: type})

    def make_case(self, type, scope):
        chance = self.chance
        wanted = chance.one_of(["Object", "Object", *VALUES, *(of.name for of in self.own)])
        value = self.expression(wanted, scope.inner())
        kinds = {chance.one_of(list(self.classes)) for _ in range(1 + chance.below(3))}
        if not (self.weights["error"] and chance.happens(0.03)):
            kinds.add("Object")
        branches = []
        for kind in chance.shuffled(sorted(kinds)):
            word = self.new_name(scope)
            branches.append(Tree("branch", [word, kind], [self.expression(type, scope.with_names(**{word: kind}))]))
        return Tree("case", (), [value, *branches], type)

    def callable(self, type, of, scope, of_self=False):
        """The methods of a class that may be called here and give what conforms to a type, where the receiver has the class for its type."""
        for word, method in sorted(of.methods.items()):
            result = (SELF if of_self else of.name) if method.result == SELF else method.result
            if word != "abort" and method.rank < scope.rank and (scope.makes_self or not method.makes_self) and self.conforms(result, type, scope.of):
                yield word, method, result

    def arguments(self, method, scope):
        """The arguments of a call, or None where the call is too dear."""
        cost = method.cost * (7 if method.counted else 1)
        if not self.pays(cost, scope):
            return None
        words = [self.expression(formal, scope.inner()) for formal in method.formals]
        if method.counted:
            words[0] = constant(str(self.chance.below(6)), "Int")
        return words

    def receiver(self, of, scope):
        """An object of a class that is hardly ever void, sometimes a copy of one."""
        found = self.simple_receiver(of, scope)
        return Tree("call", ["copy"], [found], found.type) if found and self.chance.happens(0.15) else found

    def simple_receiver(self, of, scope):
        chance = self.chance
        if of.name == "String" or of.name == "Object":
            return self.expression("String" if of.name == "String" or chance.happens(0.5) else self.some_type(), scope.inner())
        if chance.happens(0.2 if scope.of_start else 0.5):
            found = self.make_variable(of.name, scope)
            if found and (found.words[0] not in scope.of.attributes or chance.happens(0.2)):
                return found
        return self.make_new(of.name, scope) or (scope.of.conforms(of.name) and name("self", SELF)) or None

    def noted(self, tree, scope):
        """An expression that writes a letter when it is evaluated, so that one sees in which order things are."""
        letter = constant('"%s"' % self.chance.one_of("<>[]!?"), "String")
        return Tree("block", (), [self.shown(scope, letter, "out_string"), tree], tree.type)

    def make_call(self, type, scope):
        of = self.chance.one_of([self.classes["Object"], self.classes["String"], self.classes["IO"], *self.own, *self.own])
        known = list(self.callable(type, of, scope))
        return self.call(of, known, scope, ()) if known else None

    def call(self, of, known, scope, at):
        receiver = self.receiver(of, scope)
        if not receiver:
            return None
        if receiver.type == SELF and not at:
            found = [row for row in known if row[0] in scope.of.methods]
        else:
            found = known
        if not found:
            return None
        word, method, result = self.chance.one_of(found)
        parts = self.arguments(method, scope)
        if parts and self.chance.happens(0.1):
            receiver, parts[-1] = self.noted(receiver, scope), self.noted(parts[-1], scope)
        if parts is None or (word == "substr" and not self.chance.happens(0.05 * bool(self.weights["error"]))):
            return self.substring(receiver, scope) if word == "substr" else None
        return Tree("static" if at else "call", [word, *at], [receiver, *parts], receiver.type if method.result == SELF else result)

    def substring(self, receiver, scope):
        """A part of a string that has it: of one of ten letters and more."""
        chance, longer = self.chance, Tree("call", ["concat"], [constant('"0123456789"', "String"), receiver], "String")
        start = chance.below(8)
        return Tree("call", ["substr"], [longer, constant(str(start), "Int"), constant(str(chance.below(11 - start)), "Int")], "String")

    def make_static(self, type, scope):
        """A dispatch to the method of a class above that of the receiver."""
        of = self.chance.one_of(self.own) if self.own else None
        above = of
        while above and above.parent and self.chance.happens(0.5):
            above = above.parent
        known = list(self.callable(type, above, scope)) if above else []
        known = [row for row in known if row[1].result != SELF or self.conforms(of.name, type, scope.of)]
        return self.call(of, known, scope, (above.name,)) if known else None

    def make_own(self, type, scope):
        """A dispatch to self, with or without the word."""
        known = list(self.callable(type, scope.of, scope, of_self=True))
        if not known:
            return None
        word, method, result = self.chance.one_of(known)
        parts = self.arguments(method, scope)
        if parts is None:
            return None
        return Tree("own", [word], parts, result) if self.chance.happens(0.7) else Tree("call", [word], [name("self", SELF), *parts], result)

    def make_assign(self, type, scope):
        names = [(word, of) for word, of in scope.types.items() if word != "self" and word not in scope.fixed]
        known = [word for word, of in names if self.conforms(of, type, scope.of)]
        # The type of an assignment is that of its value, which may be of a class below that of the variable.
        wider = [word for word, of in names if of not in VALUES and self.conforms(type, of, scope.of)]
        if wider and self.chance.happens(0.3):
            value = self.expression(type, scope.inner())
            return Tree("assign", [self.chance.one_of(wider)], [value], value.type)
        if not known:
            return None
        word = self.chance.one_of(known)
        calm = {"text": 0} if scope.types[word] == "String" and scope.times > 1 else {}
        kept, self.weights = self.weights, {**self.weights, **calm}
        value = self.leaf(scope.types[word], scope) if calm else self.expression(scope.types[word], scope.inner())
        self.weights = kept
        return Tree("assign", [word], [value], value.type)

    def make_loop(self, type, scope):
        """A loop that counts up to a few turns by a variable which nothing else in it can change. It gives void."""
        if type != "Object" or not scope.is_statement:
            return None
        chance, turns = self.chance, 1 + self.chance.below(5)
        self.turns += 1
        word = "i%d" % self.turns
        inside = scope.inner(types={**scope.types, word: "Int"}, fixed=scope.fixed | {word}, times=scope.times * turns, is_statement=False)
        items = [self.statement(inside) for _ in range(1 + chance.below(2))]
        step = Tree("assign", [word], [Tree("+", (), [name(word, "Int"), constant("1", "Int")], "Int")], "Int")
        test = Tree("<", (), [name(word, "Int"), constant(str(turns), "Int")], "Bool")
        loop = Tree("while", (), [test, Tree("block", (), [*items, step], "Int")], "Object")
        return Tree("let", (), [Tree("binding", [word, "Int"]), loop], "Object")

    def make_arithmetic(self, type, scope):
        if type != "Int":
            return None
        left, right = (self.expression("Int", scope.inner()) for _ in range(2))
        if self.choices and self.chance.happens(0.5):
            right = Tree("bare", (), [right], "Int")
        elif self.chance.happens(0.06):
            left, right = self.noted(left, scope), self.noted(right, scope)
        return Tree(self.chance.one_of("++--*"), (), [left, right], "Int")

    def make_levels(self, type, scope):
        """Operators within one another, where what is whose operand hangs on their levels."""
        if type not in ("Int", "Bool"):
            return None
        if type == "Int":
            return self.mixed(2 + self.chance.below(3), scope)
        sign, kind = self.chance.one_of((("<", "Int"), ("<=", "Int"), ("=", "Int"), ("=", "Bool"), ("not", "Bool")))
        if kind == "Int":
            return Tree(sign, (), [self.mixed(1 + self.chance.below(3), scope) for _ in range(2)], "Bool")
        test = Tree("isvoid", (), [self.leaf(self.some_type(), scope)], "Bool") if self.chance.happens(0.5) else self.leaf("Bool", scope)
        same = Tree("=", (), [test, self.leaf("Bool", scope)], "Bool")
        return Tree("not", (), [same], "Bool") if sign == "not" else same

    def mixed(self, count, scope):
        """So many numbers joined by operators."""
        chance = self.chance
        if count == 1:
            leaf = self.leaf("Int", scope)
            return Tree("~", (), [leaf], "Int") if chance.happens(0.3) else leaf
        left = 1 + chance.below(count - 1)
        sign = chance.one_of("+-*/")
        right = self.mixed(count - left, scope) if sign != "/" else constant(chance.one_of("23"), "Int")
        whole = Tree(sign, (), [self.mixed(left, scope), right], "Int")
        return Tree("~", (), [whole], "Int") if chance.happens(0.1) else whole

    def make_divide(self, type, scope):
        if type != "Int":
            return None
        divisor = constant(self.chance.one_of(("1", "2", "3", "7", "10")), "Int")
        if self.chance.happens(0.3):
            divisor = Tree("~", (), [divisor], "Int")
        return Tree("/", (), [self.expression("Int", scope.inner()), divisor], "Int")

    def make_minus(self, type, scope):
        return Tree("~", (), [self.expression("Int", scope.inner())], "Int") if type == "Int" else None

    def make_compare(self, type, scope):
        if type != "Bool":
            return None
        return Tree(self.chance.one_of(("<", "<=")), (), [self.expression("Int", scope.inner()) for _ in range(2)], "Bool")

    def make_equal(self, type, scope):
        if type != "Bool":
            return None
        kind = self.chance.one_of(VALUES + ("Object",))
        if kind == "String" and self.chance.happens(0.5):
            return self.same_text(scope)
        if kind in VALUES:
            return Tree("=", (), [self.expression(kind, scope.inner()) for _ in range(2)], "Bool")
        if self.chance.happens(0.2):
            return Tree("=", (), [Tree("call", ["copy"], [name("self", SELF)], SELF), name("self", SELF)], "Bool")
        kinds = ["IO", *(of.name for of in self.own)]
        return Tree("=", (), [self.expression(self.chance.one_of(kinds), scope.inner()) for _ in range(2)], "Bool")

    def same_text(self, scope):
        """A comparison of two strings of the same letters, one of them joined of two."""
        text = self.leaf("String", scope)
        return Tree("=", (), [Tree("call", ["concat"], [text, constant('""', "String")], "String"), text], "Bool")

    def make_not(self, type, scope):
        if type != "Bool":
            return None
        operand = self.expression("Bool", scope.inner())
        return Tree("not", (), [Tree("bare", (), [operand], "Bool") if self.choices else operand], "Bool")

    def make_isvoid(self, type, scope):
        return Tree("isvoid", (), [self.expression(self.some_type(), scope.inner())], "Bool") if type == "Bool" else None

    def make_text(self, type, scope):
        """What the methods of String give."""
        if type == "Int":
            return Tree("call", ["length"], [self.expression("String", scope.inner())], "Int")
        if type != "String":
            return None
        receiver = self.expression("String", scope.inner())
        if self.chance.happens(0.5):
            return self.substring(receiver, scope)
        return Tree("call", ["concat"], [receiver, self.expression("String", scope.inner())], "String")

    def make_input(self, type, scope):
        word = {"Int": "in_int", "String": "in_string"}.get(type)
        return Tree("call", [word], [Tree("new", ["IO"], (), "IO")], type) if word else None

    def make_count(self, type, scope):
        """A call of a method that counts down."""
        known = [(of, row) for of in self.own for row in self.callable(type, of, scope) if row[1].counted]
        return self.call(known[0][0], [known[0][1]], scope, ()) if known else None

    def make_error(self, type, scope):
        """What ends the run by an error, sometimes."""
        chance = self.chance
        if chance.happens(0.7) or not scope.is_statement:
            return None
        if type == "Int":
            return Tree("/", (), [constant("1", "Int"), self.expression("Int", scope.inner())], "Int")
        if type == "String":
            return Tree("call", ["substr"], [self.expression("String", scope.inner()), constant("1", "Int"), constant("1", "Int")], "String")
        return Tree("call", ["abort"], [self.expression("Object", scope.inner())], "Object") if type == "Object" else None

    # Statements, features, classes

    def shown(self, scope, text, word):
        """A call of a method of IO that writes: of self where it has that, or of a new object."""
        if scope.rank and scope.of.conforms("IO") and self.chance.happens(0.7):
            return Tree("own", [word], [text], SELF)
        return Tree("call", [word], [Tree("new", ["IO"], (), "IO"), text], "IO")

    def statement(self, scope):
        """An expression that is evaluated for what it does: it writes, mostly."""
        chance, inner = self.chance, scope.inner(is_statement=True)
        sort = chance.by_weight({"Int": 4, "String": 4, "Bool": 3, "type": 2, "hidden": 1, "loop": 2, "show": 2, "other": 3})
        if sort == "Int":
            shown = self.shown(scope, self.expression("Int", inner), "out_int")
            return Tree("call", ["out_string"], [shown, constant('"\\n"', "String")], shown.type)
        if sort == "Bool":
            text = Tree("if", (), [self.expression("Bool", inner), constant('"true\\n"', "String"), constant('"false\\n"', "String")], "String")
            return self.shown(scope, text, "out_string")
        if sort == "String":
            return self.shown(scope, Tree("call", ["concat"], [self.expression("String", inner), constant('"|\\n"', "String")], "String"), "out_string")
        if sort == "type":
            of = chance.one_of([self.classes["Object"], *self.own])
            receiver = self.made_by(of, inner) or self.receiver(of, inner) or self.expression("Object", inner)
            text = Tree("call", ["type_name"], [receiver], "String")
            return self.shown(scope, text, "out_string")
        made = {"loop": self.make_loop, "hidden": self.hidden, "show": self.show}.get(sort)
        return (made and made("Object", inner)) or self.expression(self.some_type(), inner)

    def hidden(self, _, scope):
        """A let that hides a number, which is written behind it."""
        known = [word for word, of in scope.types.items() if of == "Int" and word not in scope.fixed]
        if not known or not self.pays(2, scope):
            return None
        word = self.chance.one_of(known)
        inside = scope.with_names(**{word: "Int"})
        body = self.shown(inside, Tree("assign", [word], [self.leaf("Int", inside)], "Int"), "out_int")
        let = Tree("let", (), [Tree("binding", [word, "Int"], [self.leaf("Int", scope)]), body], body.type)
        return Tree("block", (), [let, self.shown(scope, name(word, "Int"), "out_int")], "Object")

    def show(self, _, scope):
        """A call of a method that writes the attributes of an object, of a new one or of what a method of its class gives."""
        known = [(of, word) for of in self.own for word in sorted(of.methods) if word.startswith("show") and of.methods[word].rank < scope.rank]
        if not known:
            return None
        of, word = self.chance.one_of(known)
        receiver = self.make_new(of.name, scope)
        receiver = receiver and self.made_by(of, scope) or receiver
        return receiver and self.pays(COSTS[1], scope) and Tree("call", [word], [receiver], "Object")

    def made_by(self, of, scope):
        """What a method of a class gives whose result is SELF_TYPE, often, or None: its class shows which one the method made."""
        rows = [row for row in self.callable(of.name, of, scope) if row[1].result == SELF and row[0] not in METHODS["IO"]]
        makers = [row for row in rows if row[1].is_maker]
        known = makers if makers and self.chance.happens(0.5) else rows
        return self.call(of, known, scope, ()) if known and self.chance.happens(0.6) else None

    def scope(self, of, rank, **changed):
        types = {**of.attributes, "self": SELF}
        fields = {"of": of, "types": types, "rank": rank, "depth": 4, "times": 1, "fixed": frozenset(), "makes_self": False,
                  "is_statement": False, "of_start": False}
        return Scope(**{**fields, **changed})

    def next_rank(self):
        self.rank += 1
        return self.rank

    def attribute(self, of):
        """An attribute, whose initial value may use those of the class, and what stands before it in rank."""
        word = "%s%d" % (self.chance.one_of(("a", "b", "val_")), len(of.attributes))
        type = self.some_type(of_attribute=True)
        of.attributes[word] = type
        return word, type

    def initial(self, of, word, type):
        self.left = COSTS[1] // 4
        has_value = self.chance.happens(0.7)
        value = [self.expression(type, self.scope(of, of.rank, depth=2))] if has_value else []
        return Tree("attribute", [word, type], value)

    def signature(self, of):
        """A new method of a class."""
        chance, word = self.chance, "%s%d" % (self.chance.one_of(("f", "get", "m_")), self.next_rank())
        if of.attributes and chance.happens(0.1):
            word = chance.one_of([name for name in of.attributes if name not in of.methods] or [word])
        counted = chance.happens(0.15)
        formals = ["Int"] * counted + [self.some_type() for _ in range(chance.below(3))]
        result = SELF if chance.happens(0.2) else self.some_type()
        is_maker = result == SELF and not counted and chance.happens(0.4)
        cost, makes_self = chance.one_of(COSTS), chance.happens(0.3)
        of.methods[word] = Method(formals, result, self.rank, COSTS[-1] if is_maker else cost, counted, makes_self or is_maker, is_maker)
        return word

    def method(self, of, word):
        """A method of a class, with its body."""
        chance, method = self.chance, of.methods[word]
        words = chance.some_of(NAMES, len(method.formals))
        if method.counted:
            words[0] = "turns"
        self.left = method.cost
        scope = self.scope(of, method.rank, makes_self=method.makes_self, fixed=frozenset(["turns"]))
        scope.types = {**scope.types, **dict(zip(words, method.formals))}
        body = Tree("new", [SELF], (), SELF) if method.is_maker else self.expression(method.result, scope)
        if word in METHODS["IO"] and chance.happens(0.7):
            body = Tree("static", [word, "IO"], [name("self", SELF), *(name(it, type) for it, type in zip(words, method.formals))], method.result)
        if method.counted:
            body = self.counting(body, of, word, words, scope)
        formals = [Tree("formal", row) for row in zip(words, method.formals)]
        return Tree("method", [word, method.result], [*formals, body])

    def counting(self, body, of, word, words, scope):
        """A body that calls its own method again, with one turn less."""
        method = of.methods[word]
        less = Tree("-", (), [name("turns", "Int"), constant("1", "Int")], "Int")
        again = Tree("own", [word], [less, *(name(it, type) for it, type in zip(words[1:], method.formals[1:]))], method.result)
        if method.result == "Int" and self.chance.happens(0.7):
            again = Tree("+", (), [again, name("turns", "Int")], "Int")
        test = Tree(self.chance.one_of(("<", "<=")), (), [name("turns", "Int"), constant("1", "Int")], "Bool")
        return Tree("if", (), [test, body, again], method.result)

    def showing(self, of):
        """A method that writes the class and the attributes of an object."""
        word = "show%d" % self.next_rank()
        of.methods[word] = Method([], "Object", self.rank, COSTS[1])
        shown = Tree("new", ["IO"], (), "IO")
        items = [Tree("call", ["out_string"], [shown, Tree("own", ["type_name"], (), "String")], "IO")]
        for attribute, type in of.attributes.items():
            if type in ("Int", "String"):
                items.append(Tree("call", ["out_int" if type == "Int" else "out_string"], [shown, name(attribute, type)], "IO"))
            else:
                test = name(attribute, type) if type == "Bool" else Tree("isvoid", (), [name(attribute, type)], "Bool")
                text = Tree("if", (), [test, constant('"+"', "String"), constant('"-"', "String")], "String")
                items.append(Tree("call", ["out_string"], [shown, text], "IO"))
        return Tree("method", [word, "Object"], [Tree("block", (), items, "IO")])

    def showing_copy(self, of, shown):
        """A method that gives an attribute another value, and then writes the attributes of a copy that was made before."""
        word = "show%d" % self.next_rank()
        of.methods[word] = Method([], "Object", self.rank, COSTS[1])
        number = next(attribute for attribute, type in of.attributes.items() if type == "Int")
        change = Tree("assign", [number], [Tree("+", (), [name(number, "Int"), constant("1", "Int")], "Int")], "Int")
        show = Tree("call", [shown], [name("other", SELF)], "Object")
        copied = Tree("binding", ["other", SELF], [Tree("own", ["copy"], (), SELF)])
        return Tree("method", [word, "Object"], [Tree("let", (), [copied, Tree("block", (), [change, show], "Object")], "Object")])

    def defined_anew(self, of):
        """Some of the methods that a class inherits, which it defines anew."""
        inherited = sorted(word for word, method in of.methods.items() if method.rank or self.chance.happens(0.04))
        return [word for word in self.chance.some_of(inherited, self.chance.below(3)) if word not in ("abort", "copy")]

    def class_tree(self, word, parent):
        of = Class(word, parent, self.next_rank())
        attributes = [self.attribute(of) for _ in range(self.chance.below(4))]
        again = self.defined_anew(of)
        rows = [self.initial(of, *row) for row in attributes]
        rows += [self.method(of, method) for method in again]
        self.classes[word] = of
        self.own.append(of)
        for _ in range(self.chance.below(4) + (word == "Main")):
            rows.append(self.method(of, self.signature(of)))
        if of.attributes and self.chance.happens(0.6):
            rows.append(self.showing(of))
            if "Int" in of.attributes.values() and self.chance.happens(0.4):
                rows.append(self.showing_copy(of, rows[-1].words[0]))
        return of, rows

    def main(self):
        parent = self.chance.one_of([self.classes["Object"], self.classes["IO"], self.classes["IO"], *self.own])
        of, rows = self.class_tree("Main", parent)
        self.left = START_COST
        scope = self.scope(of, self.rank + 1, depth=5, makes_self=True, of_start=True)
        items = [self.statement(scope) for _ in range(2 + self.chance.below(6))]
        if self.ending.happens(0.2):
            items.insert(self.ending.below(len(items) + 1), self.error(scope))
        result = self.chance.one_of(("Object", "Object", "Int", SELF))
        body = Tree("block", (), [*items, self.leaf(result, scope)], result)
        return of, [*rows, Tree("method", ["main", result], [body])]

    def error(self, scope):
        """A statement that ends the run: by each of the errors as often as by another."""
        chance, void = self.ending, self.void(self.ending.one_of(["Object", "IO", *(of.name for of in self.own)]))
        zero = chance.one_of((constant("0", "Int"), Tree("new", ["Int"], (), "Int"), Tree("-", (), [constant("2", "Int")] * 2, "Int")))
        sort = chance.one_of(("division", "substr", "abort", "case", "case on void", "dispatch"))
        if sort == "division":
            return Tree("/", (), [constant("7", "Int"), zero], "Int")
        if sort == "substr":
            bounds = chance.one_of((("1", "3"), ("4", "0"), ("0", "4")))
            return Tree("call", ["substr"], [constant('"abc"', "String"), *(constant(it, "Int") for it in bounds)], "String")
        if sort == "abort":
            return chance.one_of((Tree("own", ["abort"], (), "Object"), Tree("call", ["abort"], [constant("1", "Int")], "Object")))
        if sort == "dispatch":
            at = chance.one_of(((), ("Object",)))
            return Tree("static" if at else "call", ["type_name", *at], [void], "String")
        value, type = (void, "Object") if sort == "case on void" else (zero, "Bool")
        return Tree("case", (), [value, Tree("branch", ["x", type], [constant("1", "Int")])], "Int")

    def program(self):
        """The program: classes and their features in the order of chance."""
        chance, found = self.chance, []
        for word in chance.some_of(CLASS_NAMES, chance.below(5)):
            bases = [self.classes["Object"], self.classes["IO"], *self.own, *self.own]
            found.append(self.class_tree(word, chance.one_of(bases)))
        found.append(self.main())
        trees = []
        for of, rows in found:
            is_plain = of.parent.name == "Object" and chance.happens(0.7)
            attributes = [row for row in rows if row.form == "attribute"]
            methods = chance.shuffled([row for row in rows if row.form == "method"])
            front = methods[: chance.below(len(methods) + 1)]
            trees.append(Tree("class", [of.name, "" if is_plain else of.parent.name], [*front, *attributes, *methods[len(front) :]]))
        return Tree("program", (), chance.shuffled(trees))

    def input(self):
        """Lines of input, each of which has a number for `in_int`; or some of any kind, and not many."""
        chance = self.chance
        if self.choices and chance.happens(0.5):
            return "".join(chance.one_of(ODD_LINES) for _ in range(chance.below(8)))
        befores, behinds = ("", "", " ", "   "), ("", "", " ", " bottles", "x")
        lines = ["%s%d%s\n" % (chance.one_of(befores), chance.below(2000) - 500, chance.one_of(behinds)) for _ in range(12)]
        return "".join(chance.one_of(lines) for _ in range(300))
