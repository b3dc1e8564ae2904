"""The sorts of the variables of a rule: the types that the definitions declare at their positions."""
import antt
from terms import head_of, is_constructor


def told(tree):
    """A type as text, as `List Ty`."""
    if tree[0] == "var":
        return tree[1]
    if tree[0] == "app":
        return " ".join([told(tree[1]), *(it[1] if it[0] == "var" else "(%s)" % told(it) for it in tree[2])])
    if tree[0] == "op":
        return "%s %s %s" % (told(tree[2]), tree[1], told(tree[3]))
    return "?"


def split(tree):
    """The types of the arguments of a type, and the type of the result."""
    found = []
    while True:
        if tree[0] == "all":
            found += [told(kind) for _, kind in tree[1]]
            tree = tree[2]
        elif tree[0] == "op" and tree[1] == "→":
            found.append(told(tree[2]))
            tree = tree[3]
        else:
            return found, told(tree)


def of_type(text):
    text = text[1:].partition("}")[2].lstrip(" →") if text.startswith("{") else text
    return split(antt.Reader(antt.Tokens(text, 1), set()).tree())


class Sorts:
    def __init__(self, *groups):
        self.known = {}
        for items in groups:
            for item in items.values():
                self.take(item)
        for name in ("eval", "eval_all", "eval_items", "basic", "run_initials"):
            if name in self.known:
                given, result = self.known[name]
                self.known["⊢" + name] = [*given, "State", inside(result), "State"], "Type 0"
        self.known["⊢locate"] = ["State", "Value", "ℕ", "State"], ""
        self.known["⊢locate_all"] = ["State", "List Value", "List ℕ", "State"], ""
        self.known["⊢load"] = ["State"], ""
        self.known["⊢store"] = ["State", "ℕ", "Value", "State"], ""
        self.known["⊢draw"] = ["State", "ℕ", "State"], ""
        self.known["⊢print"] = ["State", "List ℕ", "State"], ""
        self.known["⊢take_line"] = ["State", "List ℕ", "State"], ""
        self.known["⊢initials"] = ["ClassId", "Value", "State", "Value", "State"], ""
        self.known["⊢error"] = ["Error", "State"], ""
        self.known["branch"] = ["List ℕ", "TypeRef", "Tree"], "Branch"
        self.known["nearest"] = ["Cases", "List ClassId"], "Option Branch"

    def take(self, item):
        if item.kind == "data":
            for name, tree, *_ in item.parts:
                self.known[name] = split(tree)
                self.known["trees." + name] = split(tree)
        elif item.kind == "record" and item.params:
            pass
        elif item.type and item.kind == "abbrev":
            self.known[item.name] = of_type(item.type)
            self.known["trees." + item.name] = of_type(item.type)

    def of(self, rule):
        found = {name: told(tree) for name, tree in rule.binders.items()}
        for _ in range(2):
            for it in [rule.conclusion, *rule.premises]:
                self.walk(it, None, found)
        return found

    def walk(self, tree, wanted, found):
        if tree[0] == "var":
            if wanted and not is_constructor(tree[1]):
                found.setdefault(tree[1], wanted)
            return
        if tree[0] == "op" and tree[1] == "∷" and (wanted or "").startswith("List "):
            self.walk(tree[2], inside(wanted), found)
            self.walk(tree[3], wanted, found)
            return
        if tree[0] == "op" and tree[1] in ("≡", "≢"):
            sort = self.result(tree[2], found)
            self.walk(tree[2], None, found)
            self.walk(tree[3], sort, found)
            return
        name, given = head_of(tree)
        if name == "Some" and (wanted or "").startswith("Option "):
            return self.walk(given[0], inside(wanted), found)
        sorts = self.known.get(name, ([], ""))[0] if name else []
        for at, it in enumerate(given):
            self.walk(it, sorts[at] if at < len(sorts) else None, found)
        if tree[0] == "op":
            self.walk(tree[2], None, found)
            self.walk(tree[3], None, found)
        if tree[0] == "get":
            self.walk(tree[1], None, found)
        if tree[0] == "record":
            for _, it in tree[2]:
                self.walk(it, None, found)

    def result(self, tree, found):
        name, given = head_of(tree)
        if tree[0] == "var" and name in found:
            return found[name]
        return self.known[name][1] if name in self.known else None


def inside(sort):
    """The type inside another: Value in `Computation Value`, List Value in `Computation (List Value)`."""
    rest = sort.partition(" ")[2]
    return rest[1:-1] if rest.startswith("(") else rest
