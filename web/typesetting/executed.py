"""Runs programs by the rules of evaluation that the page shows, without other knowledge of the forms of expressions."""
import evaluate
import sections
from computations import Computations
from evaluate import Values
from terms import head_of, is_constructor

evaluate.BINARY.update({"+ℤ": lambda a, b: a + b, "-ℤ": lambda a, b: a - b, "*ℤ": lambda a, b: a * b})
evaluate.LIBRARY.update({
    "neg_ℤ": lambda a: -a, "int_div": lambda a, b: abs(a) // abs(b) * (1 if (a < 0) == (b < 0) else -1), "int_lt": lambda a, b: a < b, "int_le": lambda a,
        b: a <= b,
    "get_or": lambda xs, k, d: xs[k] if k < len(xs) else d, "slice_get": lambda xs, k: ("Some", xs[k]) if k < len(xs) else ("None",), "unwrap_or": lambda o,
        d: o[1] if o != ("None",) else d,
    "drop": lambda n, xs: xs[n:], "take": lambda n, xs: xs[:n], "signed_decimal": lambda n: tuple(str(n).encode()),
        "decimal": lambda n: tuple(str(n).encode()),
    "is_some": lambda o: o != ("None",),
})  # fmt: skip
FILES = (
    "cool_classes/Names", "cool_classes/FirstNames", "cool_classes/Chains", "cool_classes/ClimbedChains", "cool_classes/Features", "cool_rules/Rules",
        "cool_meaning/Lookups",
    "cool_meaning/Values", "cool_meaning/Numbers", "cool_meaning/BasicMethods", "cool_meaning/Evaluation", "cool_meaning/SourceRun",
)  # fmt: skip


# The arguments, besides the class table, that determine the result of a function of the class table.
KEYS = {
    "chain": lambda p, c: c["0"],
    "attributes": lambda p, c: c["0"],
    "implementation": lambda p, cs, f: (tuple(c["0"] for c in cs), f),
    "class_named": lambda p, name: name,
    "attribute_names": lambda p, rs: tuple((a["owner"]["0"], a["index"]) for a in rs),
    "default_values": lambda p, rs: tuple((a["owner"]["0"], a["index"]) for a in rs),
    "type_of_name": lambda p, name: name,
    "method_of": lambda p, c, name: (c["0"], name),
    "line_of": lambda line: line,
}


class TooLong(Exception):
    """The run takes more judgements than are allowed."""


class Stopped(Exception):
    """The computation ends with an error."""

    def __init__(self, error, state):
        self.error, self.state = error, state


class Numbers(Values):
    """Values in which integers of both signs are numbers of Python."""

    def takes(self, pattern, value, known):
        name, given = head_of(pattern)
        if name == "codes":
            return self.of(pattern, known) == value
        if name == "pos":
            return value >= 0 and self.takes(given[0], value, known)
        if name == "negsuc":
            return value < 0 and self.takes(given[0], -value - 1, known)
        if pattern[0] == "var" and not is_constructor(name) and name in known:
            return known[name] == value
        return super().takes(pattern, value, known)

    kept = {}

    def rows(self, name, given):
        """The result of a function by its rows. It keeps the results of functions of the class table, because they are needed again and again."""
        key = KEYS[name](*given) if name in KEYS and len(given) == KEYS[name].__code__.co_argcount else None
        if key is None:
            return super().rows(name, given)
        if (name, key) not in self.kept:
            self.kept[name, key] = super().rows(name, given)
        return self.kept[name, key]

    def application(self, tree, known):
        name, given = head_of(tree)
        if name in ("pos", "negsuc"):
            number = self.of(given[0], known)
            return number if name == "pos" else -number - 1
        return super().application(tree, known)


class Machine:
    def __init__(self, most):
        self.items = sections.loaded(*FILES)
        self.values = Numbers(self.items)
        meaning = sections.loaded(*("cool_meaning/" + it for it in ("Lookups", "Meters", "Values", "Numbers", "BasicMethods", "Evaluation")))
        made = Computations({**sections.loaded("cool_classes/Names"), **meaning})
        self.rules = {name: made.rules(name) for name in ("eval", "eval_all", "eval_items", "run_initials", "basic")}
        self.of_form = {}
        for rule in self.rules["eval"]:
            self.of_form.setdefault(head_of(rule.conclusion[2][4])[0].split(".")[-1], []).append(rule)
        self.used, self.left = set(), most
        self.most = most

    def run(self, table, names, given):
        """Runs a program. Returns its output and its status: 0, or 3 if it ended with an error."""
        self.table, self.left, self.values.kept = table, self.most, {}
        nowhere = {"file": 0, "line": 0, "byte": 0}
        main = self.values.of(("var", "main_call"), {"nowhere": nowhere})
        state = {"store": (), "input": tuple(given), "output": (), "drawn": 0}
        try:
            _, state = self.judge("eval", [table, None, ("Void",), (), main, state])
            text, status = self.values.of(("var", "done_text"), {}), 0
        except Stopped as end:
            state, text, status = end.state, self.values.call("error_text", table, tuple(tuple(it.encode()) for it in names), end.error), 3
        return bytes(state["output"] + text), status

    def judge(self, name, inputs):
        """The value and the state of a judgement, by the first rule that applies. The method checks that at most one rule applies."""
        self.left -= 1
        if self.left < 0:
            raise TooLong
        if name == "initials":
            c, it, state = inputs
            return self.judge("run_initials", [self.table, None, it, self.values.call("attributes", self.table, c), self.values.call("locations_of", it),
                state])
        if name == "take_line":
            line = self.values.call("line_of", inputs[0]["input"])
            return line["bytes"], {**inputs[0], "input": line["rest"]}
        rules = self.of_form[inputs[4][0]] if name == "eval" else self.rules[name]
        seen, found = {}, []
        for rule in rules:
            came = self.applied(rule, inputs, seen)
            if came is not None:
                found.append((rule, came))
        if len(found) != 1:
            raise LookupError("%d rules apply to %s" % (len(found), inputs[4][0] if name == "eval" else name))
        rule, (value, state, error) = found[0]
        self.used.add(id(rule))
        if error is not None:
            raise Stopped(error, state)
        return value, state

    def applied(self, rule, inputs, seen):
        """The conclusion of a rule for these inputs, or None if the rule does not apply. The results of its premises stay in `seen`."""
        head, given = head_of(rule.conclusion)
        known = {}
        if not all(self.values.takes(a, b, known) for a, b in zip(given[: len(inputs)], inputs)):
            return None
        for premise in rule.premises:
            if not self.holds(premise, known, seen):
                return None
        name, args = head_of(given[len(inputs)])
        if name == "⊢error":
            return None, self.of(args[1], known), self.of(args[0], known)
        return self.of(given[len(inputs)], known), self.of(given[len(inputs) + 1], known), None

    def of(self, tree, known):
        return self.values.of(tree, known)

    def holds(self, premise, known, seen):
        head, given = head_of(premise)
        if premise[0] == "op":
            return self.equal(premise, known)
        if head in ("is", "is_not"):
            return self.of(given[0], known) is (head == "is")
        own = getattr(self, "on_" + head[1:], None)
        if own:
            return own(given, known)
        inputs = [None if it == ("var", "calls") else self.table if it == ("var", "p") else self.of(it, known) for it in given[:-2]]
        key = (head, *map(id, inputs))
        if key not in seen:
            seen[key] = inputs, self.judge(head[1:], inputs)
        value, state = seen[key][1]
        return self.values.takes(given[-2], value, known) and self.values.takes(given[-1], state, known)

    def equal(self, premise, known):
        _, sign, left, right = premise
        name, given = head_of(left)
        if sign == "≢":
            return self.of(left, known) != self.of(right, known)
        value = self.nearest(given, known) if name == "nearest" else self.of(left, {**known, "p": self.table})
        return self.values.takes(right, value, known)

    def nearest(self, given, known):
        """The branch for the first class of a chain that has one."""
        branches, chain = self.of(given[0], known), self.of(given[1], {**known, "p": self.table})
        for c in chain:
            it = branches
            while it[0] == "CaseOf":
                if it[3]["name"] == self.table[c["0"]]["name"]:
                    return ("Some", ("branch", it[2], it[3], it[4]))
                it = it[5]
        return ("None",)

    def on_locate(self, given, known):
        state, value = (self.of(it, {**known, "p": self.table}) for it in given[:2])
        known[given[2][1]], known[given[3][1]] = len(state["store"]), {**state, "store": (*state["store"], value)}
        return True

    def on_locate_all(self, given, known):
        state, values = (self.of(it, {**known, "p": self.table}) for it in given[:2])
        first = len(state["store"])
        known[given[2][1]], known[given[3][1]] = tuple(range(first, first + len(values))), {**state, "store": state["store"] + tuple(values)}
        return True

    def on_load(self, given, known):
        state, at = self.of(given[0], known), self.of(given[1], known)
        known[given[2][1]] = tuple(state["store"][it] for it in at) if isinstance(at, tuple) else state["store"][at]
        return True

    def on_store(self, given, known):
        state, at, value = (self.of(it, known) for it in given[:3])
        store = state["store"]
        known[given[3][1]] = {**state, "store": (*store[:at], value, *store[at + 1 :])}
        return True

    def on_draw(self, given, known):
        state = self.of(given[0], known)
        known[given[1][1]], known[given[2][1]] = state["drawn"], {**state, "drawn": state["drawn"] + 1}
        return True

    def on_print(self, given, known):
        state = self.of(given[0], known)
        known[given[2][1]] = {**state, "output": state["output"] + self.of(given[1], known)}
        return True
