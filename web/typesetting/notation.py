"""The notation of definitions on the page: a table of their names, and the conversion of a tree to pieces.

In a text of the table {0} is the first argument, {1_} the second one as an index, and text between grave accents is program text. A piece is [kind, text]. The
kind is "v" for a variable, "p" for program text, "s" for an index, "n" for a name of the definitions, and "" for the rest."""
import re

from terms import head_of, is_constructor

# Forms of expressions, as the grammar writes them. `compared.py` compares them with `Readings.antt`.
FORMS = {
    "trees.Id": "{1}",
    "trees.Int": "{1}",
    "trees.Str": "{1}",
    "trees.Bool": "{1}",
    "trees.Assign": "{1} `<-` {2}",
    "trees.Dispatch": "{1}`.`{2}`(`{3}`)`",
    "trees.StaticDispatch": "{1}`@`{2}`.`{3}`(`{4}`)`",
    "trees.If": "`if` {1} `then` {2} `else` {3} `fi`",
    "trees.While": "`while` {1} `loop` {2} `pool`",
    "trees.Block": "`{` {1;} `}`",
    "trees.Let": "`let` {1} `:` {2}{3} `in` {4}",
    "trees.Case": "`case` {1} `of` {2} `esac`",
    "trees.New": "`new` {1}",
    "trees.IsVoid": "`isvoid` {1}",
    "trees.Not": "`not` {1}",
    "trees.Neg": "`~`{1}",
    "trees.Arith": "{2} {1} {3}",
    "trees.Compare": "{2} {1} {3}",
    "Without": "",
    "With": " `<-` {0}",
    "[]": "nothing",
    "Last": "nothing",
    "More": "{0}`;` {1}",
    "NoCase": "nothing",
    "CaseOf": "{1} `:` {2} `=>` {3}`;` {4}",
    "Less": "`<`",
    "LessEqual": "`<=`",
    "Equal": "`=`",
    "Add": "`+`",
    "Sub": "`-`",
    "Mul": "`*`",
    "Div": "`/`",
}
TYPING = {
    "object_type": "`Object`",
    "int_type": "`Int`",
    "bool_type": "`Bool`",
    "string_type": "`String`",
    "self_type": "`SELF_TYPE`",
    "SelfType": "`SELF_TYPE`",
    "IsClass": "{0}",
    "HasType": "{2}, M, {1} ⊢ {3} : {4}",
    "HaveTypes": "{2}, M, {1} ⊢ {3} : {4}",
    "HaveItems": "{2}, M, {1} ⊢ {4} : {5} after {3}",
    "HaveBranches": "{2}, M, {1} ⊢ {3} : {4}",
    "Conforms": "{2} ≤{1_} {3}",
    "Below": "{1} ≤ {2}",
    "IsChain": "{2} is the chain of {1}",
    "IsJoinOfTypes": "{4} = {2} ⊔{1_} {3}",
    "IsJoinOfBranches": "{3} = ⊔{1_} {2}",
    "found": "{0}({1})",
    "with_name": "{2}[{1}/{0}]",
    "IsNotSelf": "{0} ≠ `self`",
    "Denotes": "type({1}) = {2}",
    "IsImplementation": "M({1}, {2}) = {3}",
    "AreArguments": "{2} ≤{1_} {3}",
    "formals_of": "formals({1})",
    "result_of": "result({1})",
    "result_on": "{1}[{0}/`SELF_TYPE`]",
    "AreDifferent": "no class twice in {0}",
    "branch_types": "types({0})",
    "class_of": "class{0_}({1})",
    "has_values": "{0} ∈ {`Int`, `Bool`, `String`}",
    "attributes_in_scope": "types of {1}",
    "formals_in_scope": "types of {1}",
    "IsTypedFeature": "M, {1} ⊢ {2}",
    "Method": "method {0}",
    "Attribute": "attribute {0}",
    "parent_of": "parent({1})",
    "name_of": "name({1})",
    "attributes_of": "attributes({1})",
    "Contains": "{1} ∈ {0}",
    "Some": "{0}",
    "None": "nothing",
    "codes": "{0}",
}
RUNNING = {
    "⊢eval": "{2}, {5}, {3} ⊢ {4} : {6}, {7}",
    "⊢eval_all": "{2}, {5}, {3} ⊢ {4} : {6}, {7}",
    "⊢eval_items": "{2}, {6}, {3} ⊢ {5} : {7}, {8} after {4}",
    "⊢basic": "{5} ⊢ {3}.{1}({4}) : {6}, {7}",
    "⊢initials": "{1}, {2} ⊢ initial values of {0} : {3}, {4}",
    "⊢run_initials": "{2}, {5} ⊢ initial values of {3} at {4} : {6}, {7}",
    "⊢error": "error “{0}”, {1}",
    "⊢locate": "{2} = newloc({0}), {3} = {0}[{1}/{2}]",
    "⊢locate_all": "{2} = newloc({0}), {3} = {0}[{1}/{2}]",
    "⊢load": "{0}({1}) = {2}",
    "⊢store": "{3} = {0}[{2}/{1}]",
    "⊢draw": "{1} is new, {2} = {0} with {1} drawn",
    "⊢print": "{2} = {0} with output {1}",
    "⊢take_line": "{1} is the next line of {0}, {2} = {0} without it",
    "location_of": "{0}({1})",
    "class_of": "class({0})",
    "class_named": "class({1})",
    "class_made": "class({2}, {1})",
    "implementation": "M({1}, {2})",
    "chain": "chain({1})",
    "Basic": "basic {0}",
    "User": "{0}.{1}",
    "method_at": "method({1}.{2})",
    "formal_names": "names({0})",
    "environment_of": "attributes({1})",
    "attributes": "attributes({1})",
    "default_values": "defaults({1})",
    "default_of": "default({0})",
    "init_of": "init({1})",
    "nearest": "nearest({0}, {1})",
    "branch": "{0} `:` {1} `=>` {2}",
    "Int": "Int({0})",
    "Bool": "Bool({0})",
    "Str": "String({0})",
    "Obj": "{0}#{1}({2})",
    "Void": "void",
    "signed": "signed({0})",
    "pos": "{0}",
    "neg_ℤ": "−{0}",
    "int_div": "{0} ÷ {1}",
    "int_lt": "{0} < {1}",
    "int_le": "{0} ≤ {1}",
    "not": "not {0}",
    "is_void": "{0} is void",
    "same": "{0} equals {1}",
    "codes": "{0}",
    "length": "length({0})",
    "name_of": "name({1})",
    "signed_decimal": "decimal({0})",
    "number_of": "number({0})",
    "part": "{0} from {1}, {2} long",
    "line_of": "the next line of {0}",
}
HOLDS = {"fits": ("−2³¹ ≤ {0} < 2³¹", "not −2³¹ ≤ {0} < 2³¹"), "is_zero": ("{0} = 0", "{0} ≠ 0")}
CLASSES = {
    "self_type": "`SELF_TYPE`",
    "codes": "{0}",
    "IsClassAt": "class {2} stands at {1}",
    "HasParent": "the class at {1} `inherits` {2}",
    "IsNamedBefore": "a basic class, or a class before {1}, is named {2n}",
    "IsUnnamed": "no class is named {1n}",
    "IsBarredName": "{0i} ∈ {`Int`, `Bool`, `String`}",
    "IsOnCycle": "the parents of {1} come back to it",
    "IsMethodAt": "{3} is the method at {2} of {1}",
    "IsAttributeAt": "{3} is the attribute at {2} of {1}",
    "IsFormalAt": "{2} is the formal at {1} of {0}",
    "IsNoType": "no class is named {1n}, nor is that `SELF_TYPE`",
    "HasOtherSignature": "{1} has another signature than {2}",
    "implementation": "M({1}, {2})",
    "attributes_of": "attributes({1})",
    "methods_of": "methods({1})",
    "name_of": "name({1})",
    "length": "number({0})",
    "Contains": "{1} ∈ {0}",
    "Some": "{0}",
    "IsClassFault": "{1} at {2}",
    "IsFeatureFault": "{4} at {5}",
    "parents_meant": "the parents",
    "here": "the name of C",
    "ds": "the classes above",
}
# Names of variables that are the same in all rules. LEFT_OUT has the arguments that are the same everywhere: the class table and the calls.
SAME = {"typing": {"scope": "O", "c": "C"}, "running": {"self": "so", "env": "E"}, "classes": {}}
LEFT_OUT = {"p", "calls"}
SIGNS = {"≡": "=", "≢": "≠", "+ℤ": "+", "-ℤ": "−", "*ℤ": "·", "≤": "≤", "<": "<", "+": "+", "-": "−", "*": "·"}
BASIC = ("Object", "IO", "Int", "Bool", "String")
SUBSCRIPTS = str.maketrans("0123456789", "₀₁₂₃₄₅₆₇₈₉")


LETTERS = {"Tree": "e", "Ty": "T", "State": "S", "Trees": "e", "List Ty": "T", "Cases": "b", "List Value": "v"}


class Unknown(Exception):
    pass


def is_several(sort, name=""):
    """Whether a variable of this type stands for several values. Names and strings are lists of bytes, but are written as one value."""
    return sort in ("Trees", "Cases", "List Ty", "List Value", "List Located", "List AttributeRef",
        "List ClassId") or (sort == "List ℕ" and name.startswith("ls"))


class Writer:
    """Writes trees of one kind of rules as pieces, with names for the variables of one rule."""

    def __init__(self, kind, table, errors=None):
        self.kind, self.table, self.errors, self.names, self.used, self.plain = kind, {**table, **FORMS}, errors or {}, {}, set(), set()

    def name_variables(self, sorts, order, form=None):
        """Chooses names by sorts: expressions are e, types T, states S, numbered in order of occurrence. `form` is the form that the rule is about."""
        self.names, groups = {}, {}
        for name in order:
            if name in SAME[self.kind] and name not in ("c",) or name == "c" and sorts.get("c") == "ClassId" and self.kind == "typing":
                self.names[name] = SAME[self.kind][name]
            else:
                groups.setdefault(self.stem(name, sorts.get(name), form), []).append(name)
        for stem, members in groups.items():
            several = [name for name in members if is_several(sorts.get(name), name)]
            single = [name for name in members if name not in several and name not in ("type", "join")] + [name for name in members
                if name in ("type", "join")]
            for at, name in enumerate(single):
                self.names[name] = stem + self.mark(stem, at, name, len(single), bool(several))
            for at, name in enumerate(several):
                self.names[name] = "{0}₁{1}, …, {0}ₙ{1}".format(stem, "′" * at)
        elements = {it.split(",")[0] for it in self.names.values() if ", …, " in it}
        if len(set(self.names.values())) < len(self.names) or elements & set(self.names.values()):
            raise Unknown("two variables of a rule have one name: %s" % self.names)

    def stem(self, name, sort, form):
        bare = name.strip("'")
        if bare == "name" and self.kind != "classes":
            return "f" if form in ("trees.Dispatch", "trees.StaticDispatch") else "x"
        if sort == "ClassId" or sort == "TypeRef":
            return {"declared": "D", "class": "D", "owner": "A"}.get(bare, bare.upper()[:1])
        if bare in ("bytes", "more"):
            return "s"
        if bare == "chain":
            return "D"
        if sort == "MethodRef" and bare == "method":
            return "m"
        found = LETTERS.get(sort)
        if found:
            return found
        return bare[:-1] if is_several(sort, name) and len(bare) > 1 and bare.endswith("s") else bare

    def mark(self, stem, at, name, count, several):
        if stem == "S":
            at = int(name[5:]) if name.startswith("state") else at
            return str(at).translate(SUBSCRIPTS) if at else ""
        if stem == "T":
            if name in ("type", "join"):
                return ""
            if several:
                return "₀" if at == 0 else "′" * at
            return "" if count == 1 else str(at + 1).translate(SUBSCRIPTS)
        if several:
            return "₀" if at == 0 else "′" * at
        return "" if count == 1 else str(at + 1).translate(SUBSCRIPTS) if stem in ("e", "v") else "′" * at

    def pieces(self, tree):
        return joined(self.written(tree))

    def written(self, tree):
        kind = tree[0]
        if kind == "num":
            return [["", tree[1]]]
        if kind == "str":
            return [["p", tree[1]]]
        if kind == "get":
            return self.field(tree)
        if kind == "op":
            return self.operation(tree)
        if kind in ("all", "some"):
            names = ", ".join(self.names.get(name, name) for name, _ in tree[1])
            return [["", "for each " if kind == "all" else "for some "], ["v", names], ["", ": "], *self.written(tree[2])]
        if kind == "record":
            return self.record(tree)
        if kind == "pair":
            raise Unknown("a pair")
        if kind in ("fun", "do", "if", "let"):
            raise Unknown("a tree of kind %s" % kind)
        return self.call(tree)

    def call(self, tree):
        head, given = head_of(tree)
        if head is None:
            raise Unknown("a call of no name")
        if given and given[-1] == ("var", "_"):
            return self.text(self.table[head].rpartition(",")[0], given)
        if head in ("is", "is_not"):
            return self.condition(given[0], head == "is_not")
        if head == "Str" and given == [("var", "[]")]:
            return [["", "String(“”)"]]
        if head == "⊢error":
            name = head_of(given[0])[0]
            return self.text("error “" + self.errors.get(name, name) + "”, {1}", given)
        if head == "⊢…":
            return [["", "…"]]
        if head in self.table and (given or is_constructor(head) or head not in self.names or head in ("here", "ds")):
            self.used.add(head)
            return self.text(self.table[head], given)
        if tree[0] == "var" and not is_constructor(head):
            return [["v", self.names.get(head, head)]] if head not in self.plain else [["n", head]]
        return self.plain_call(head, given)

    def plain_call(self, head, given):
        """A call of a name that is not in the table: the name with its arguments."""
        args = [it for it in given if not (it[0] == "var" and it[1] in LEFT_OUT)]
        if not args:
            return [["n", head]]
        found = [["n", head.split(".")[-1].replace("_", " ")], ["", "("]]
        for at, it in enumerate(args):
            found += ([["", ", "]] if at else []) + self.written(it)
        return found + [["", ")"]]

    def text(self, template, given):
        found = []
        for part in re.split(r"(`[^`]*`|\{\d+[_;ni]?\})", template):
            hole = re.fullmatch(r"\{(\d+)([_;ni]?)\}", part)
            if hole and int(hole[1]) >= len(given):
                raise Unknown("%r needs more than %d arguments" % (template, len(given)))
            if hole:
                found += self.hole(given[int(hole[1])], hole[2])
            elif part.startswith("`") and len(part) > 1:
                found.append(["p", part[1:-1]])
            elif part:
                found += [["v" if it == "M" else "", it] for it in re.split(r"\b(M)\b", part) if it]
        return found

    def hole(self, tree, how):
        """An argument in a text, in the way that `how` says: as an index, as items of a block, or as a name."""
        if how in ("n", "i") and tree[0] == "get" and tree[2] == "name":
            return [["", "as " if how == "n" else "the name of "], *self.written(tree[1])]
        pieces = self.written(tree)
        if how == "_":
            return [["s", "".join(text for _, text in pieces)]]
        return [[kind, text.replace(", …, ", "; …; ") + ";"] for kind, text in pieces] if how == ";" else pieces

    def condition(self, tree, denied):
        head, given = head_of(tree)
        if head in HOLDS:
            self.used.add(head)
            return self.text(HOLDS[head][denied], given)
        if tree[0] == "op" and tree[1] == "==" and tree[2][0] == "get":
            return [*self.written(tree[2][1]), ["", " ≠ " if denied else " = "], ["p", BASIC[int(tree[3][1])]]]
        return [*([["", "not "]] if denied else []), *self.written(tree)]

    def operation(self, tree):
        _, sign, left, right = tree
        for own in (self.update, self.listing, self.logical, self.equation):
            found = own(sign, left, right)
            if found is not None:
                return found
        return [*self.written(left), ["", " %s " % SIGNS.get(sign, sign)], *self.written(right)]

    def update(self, sign, left, right):
        """A scope or an environment with one more name, as O[T/x]."""
        if sign == "∷" and left[0] == "record":
            fields = dict(left[2])
            return self.text("{2}[{1}/{0}]", [fields["name"], fields.get("location", fields.get("value")), right])
        head, given = head_of(left)
        return self.text("{2}[{1}/{0}]", [*given, right]) if sign == "++" and head == "located" else None

    def listing(self, sign, left, right):
        """A list with elements added at its beginning, or two lists together."""
        if sign == "∷" and right == ("var", "[]"):
            return self.written(left)
        if sign == "∷":
            return [*self.written(left), ["", ", "], *self.written(right)]
        if sign == "++" and left == ("var", "[]"):
            return self.written(right)
        return [*self.written(left), ["", " then "], *self.written(right)] if sign == "++" else None

    def logical(self, sign, left, right):
        """Implications, negations, conjunctions and disjunctions."""
        if sign == "→" and right == ("var", "⊥"):
            return [["", "not: "], *self.written(left)]
        words = {"→": " implies ", "×": " and ", "⊎": " or "}.get(sign)
        return [*self.written(left), ["", words], *self.written(right)] if words else None

    def equation(self, sign, left, right):
        """Equations that the manual writes in another way."""
        (head, given), (other, args) = head_of(left), head_of(right)
        if sign == "≡" and head == "has_values" and right == ("var", "false"):
            return self.text("{0} ∉ {`Int`, `Bool`, `String`}", given)
        if sign == "<" and left[0] == "get" and head_of(right)[0] == "length" and head_of(right)[1] == [("var", "p")]:
            return [*self.written(left), ["", " is a class of the program"]]
        if self.kind == "classes" and sign in ("≡", "≢") and (left[0] == "get" and left[2] == "name" or head == "name_of"):
            whole = left[1] if left[0] == "get" else given[1]
            return [*self.written(whole), ["", " is named " if sign == "≡" else " is not named "], *self.hole(right, "n")]
        if sign == "≡" and other == "None":
            return [["", "there is no "], *self.written(left)]
        if sign == "≡" and other == "Some":
            return [*self.written(left), ["", " = "], *self.written(args[0])]
        return None

    def field(self, tree):
        _, whole, name = tree
        if name == "name" and (whole[0] == "var" or self.kind != "classes"):
            return self.written(whole) if self.kind != "classes" else [["", "the name of "], *self.written(whole)]
        if name == "0":
            return self.written(whole)
        if self.kind == "classes":
            said = {"at": "the place of ", "declared": "the type of ", "result": "the result of ", "formals": "the formals of ",
                "kind": "the kind of "}.get(name)
            return [["", said or name + " of "], *self.written(whole)]
        return [["n", name], ["", "("], *self.written(whole), ["", ")"]]

    def record(self, tree):
        fields = dict(tree[2])
        if set(fields) == {"file", "line", "byte"}:
            return [["", "line 1 of the first file"]]
        raise Unknown("a record")


def joined(pieces):
    """The pieces, with adjacent ones of the same kind joined."""
    found = []
    for kind, text in pieces:
        if found and found[-1][0] == kind:
            found[-1] = [kind, found[-1][1] + text]
        else:
            found.append([kind, text])
    return found
