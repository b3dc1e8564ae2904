"""Computes types by the type rules that the page shows. The functions of `Rules.antt` compute conformance, joins, and the methods that names refer to."""
import evaluate
import sections
from executed import Numbers
from terms import head_of, is_variable

evaluate.LIBRARY.update({"length": len})
FILES = (
    "cool_classes/Names", "cool_classes/FirstNames", "cool_classes/Chains", "cool_classes/ClimbedChains", "cool_classes/Features", "cool_rules/Scopes",
    "cool_rules/Rules", "cool_rules/Conformance", "cool_rules/Typing",
)  # fmt: skip
OBJECT = ("IsClass", {"0": 0})


def count(parts):
    """The number of expressions or branches in a list of them."""
    found = 0
    while len(parts) > 1:
        parts, found = parts[-1], found + 1
    return found


class Typer:
    def __init__(self):
        self.items = sections.loaded(*FILES)
        self.values = Numbers(self.items)
        made = sections.Typing().relations
        self.rules = {name: made.rules(name) for name in ("HasType", "HaveTypes", "HaveItems", "HaveBranches")}
        self.used, self.matched = set(), set()
        self.change = None  # a rule, the number of the premise that is ignored, and whether the premise always finds Object

    def untyped(self, table, kept=None):
        """The features of a table that are not typed, as pairs of names."""
        self.table, self.values.kept = table, {} if kept is None else kept
        found = []
        for number, owner in enumerate(table):
            for feature in owner["features"]:
                if not self.is_typed({"0": number}, feature):
                    found.append((bytes(owner["name"]).decode(), bytes(feature[1]["name"]).decode()))
        return found

    def is_typed(self, c, feature):
        call = self.values.call
        scope = call("attributes_in_scope", self.table, call("attributes_of", self.table, call("chain", self.table, c)))
        it = feature[1]
        if feature[0] == "Method":
            scope, body, declared = call("formals_in_scope", self.table, it["formals"]) + scope, it["body"], it["result"]
        elif it["init"] == ("None",):
            return True
        else:
            body, declared = it["init"][1], it["declared"]
        type_ = self.judge("HasType", [self.table, c, scope, body])
        due = call("type_of_name", self.table, declared["name"])
        return type_ is not None and due != ("None",) and call("do_conform", self.table, c, type_, due[1])

    def judge(self, name, inputs):
        """The type, or types, by the first rule that applies, or None if no rule applies."""
        for rule in self.rules[name]:
            given, known = head_of(rule.conclusion)[1], {}
            if not all(self.values.takes(a, b, known) for a, b in zip(given[:-1], inputs)):
                continue
            self.matched.add(id(rule))
            if all(self.is_met(rule, at, it, known) for at, it in enumerate(rule.premises)):
                self.used.add(id(rule))
                return self.values.of(given[-1], known)
        return None

    def is_met(self, rule, at, premise, known):
        """Whether a premise holds or is ignored."""
        if self.change is None or self.change[:2] != (rule, at):
            return self.holds(premise, known)
        if self.change[2] or not self.holds(premise, known):
            known.update(self.assumed(premise, known))
        return True

    def assumed(self, premise, known):
        """The values of variables of an ignored premise: Object, and the method abort."""
        head, given = head_of(premise)
        last = premise[3] if premise[0] == "op" else given[-1]
        name, args = head_of(last)
        if last[0] != "var" and name != "IsClass" or not is_variable(args[0] if args else last, self.items):
            return {}
        if name == "IsClass":
            return {args[0][1]: OBJECT[1]}
        if head in ("HaveTypes", "HaveBranches"):
            return {last[1]: (OBJECT,) * count(self.values.of(given[-2], known))}
        if head == "IsImplementation":
            return {last[1]: ("Basic", ("Abort",))}
        return {last[1]: OBJECT} if premise[0] == "op" or head in ("HasType", "HaveItems", "Denotes", "IsJoinOfTypes", "IsJoinOfBranches") else {}

    def holds(self, premise, known):
        head, given = head_of(premise)
        if premise[0] == "op":
            left, right = self.values.of(premise[2], known), premise[3]
            if premise[1] == "≢":
                return left != self.values.of(right, known)
            return self.fits(right, left, known)
        of = [None] * len(given)
        for i, it in enumerate(given[:-1] if head in self.rules or head in ("Denotes", "IsImplementation", "IsJoinOfTypes", "IsJoinOfBranches") else given):
            of[i] = self.values.of(it, known)
        if head in self.rules:
            type_ = self.judge(head, of[:-1])
            return type_ is not None and self.fits(given[-1], type_, known)
        return getattr(self, "on_" + head)(of, given, known)

    def fits(self, pattern, value, known):
        """Whether a value fits a pattern or equals the value of a name of the definitions."""
        name, given = head_of(pattern)
        if pattern[0] == "var" and name in self.items:
            return self.values.of(pattern, {}) == value
        return self.values.takes(pattern, value, known)

    def on_IsNotSelf(self, of, given, known):
        return of[0] != tuple(b"self")

    def on_Denotes(self, of, given, known):
        found = self.values.call("type_of_name", self.table, of[1])
        return found != ("None",) and self.fits(given[2], found[1], known)

    def on_Conforms(self, of, given, known):
        return self.values.call("do_conform", *of)

    def on_IsImplementation(self, of, given, known):
        found = self.values.call("method_of", *of[:3])
        return found != ("None",) and self.fits(given[3], found[1], known)

    def on_AreArguments(self, of, given, known):
        p, c, types, formals = of
        return len(types) == len(formals) and all(self.values.call("do_conform", p, c, a, self.values.call("type_meant", p, b)) for a,
            b in zip(types, formals))

    def on_AreDifferent(self, of, given, known):
        return len(set(of[0])) == len(of[0])

    def on_IsJoinOfTypes(self, of, given, known):
        return self.fits(given[4], self.values.call("join_in", *of[:4]), known)

    def on_IsJoinOfBranches(self, of, given, known):
        p, c, types, _ = of
        join = types[0] if types else OBJECT
        for it in types[1:]:
            join = self.values.call("join_in", p, c, join, it)
        return self.fits(given[3], join, known)
