"""The sections of the page, in the order of the manual: which definitions are shown in each, and how."""
import re

import antt
import blocks
import notation
import teaching
from computations import Computations
from evaluate import Values
from inference import Relations
from sorts import Sorts, of_type
from terms import changed, head_of, is_constructor, names_in

SPECS = "crates/%s/specs/%s.antt"
CASES = antt.ROOT / "conformance" / "cases"
DOCUMENT = (antt.ROOT / "docs" / "faults.md").read_text("utf-8")


def loaded(*names):
    """The definitions of these files, each given as CRATE/FILE."""
    found = {}
    for name in names:
        found.update(antt.File(SPECS % tuple(name.split("/"))).items)
    return found


def order_of(trees, items):
    """The variables of trees, in order of occurrence."""
    found = []

    def walk(tree):
        if tree[0] == "var" and not is_constructor(tree[1]) and tree[1] not in items and tree[1] not in found:
            found.append(tree[1])
        if tree[0] in ("all", "some"):
            found.extend(name for name, _ in tree[1] if name not in found)
        changed(tree, lambda it: walk(it) or it)

    for tree in trees:
        walk(tree)
    return found


def form_of(rule):
    """The form of expression that the conclusion of a rule is about."""
    for it in rule.conclusion[2] if rule.conclusion[0] == "app" else []:
        name, _ = head_of(it)
        if name and (name.startswith("trees.") or name in ("CaseOf", "NoCase", "More", "Last")):
            return name
    return None


# The definitions that the page shows, each a file and a name. `compared.not_reached` checks whether the headline depends on each.
SHOWN_FROM = set()


def placed(item):
    """The place of a definition that the page shows."""
    SHOWN_FROM.add((item.file, item.name))
    return {"file": item.file, "line": item.line}


def source_of(item, line, text):
    """The place of a rule, and its text in the definition."""
    placed(item)
    whole = (antt.ROOT / item.file).read_text("utf-8").split("\n")
    if text is None:
        end = line
        while end < len(whole) and whole[end].strip() and (item.kind == "record" or whole[end].startswith("      ")):
            end += 1
        text = "\n".join(whole[line - 1 : end])
    lines = text.split("\n")
    indent = min(len(it) - len(it.lstrip()) for it in lines if it.strip())
    return {"file": item.file, "line": line, "source": "\n".join(it[indent:] for it in lines)}


class Rules:
    """Makes entries of the page from rules of one kind."""

    def __init__(self, kind, table, items, sorts, errors=None):
        self.kind, self.table, self.items, self.sorts, self.errors, self.used, self.spoken = kind, table, items, sorts, errors, set(), set()

    def entry(self, rule, name):
        writer = notation.Writer(self.kind, self.table, self.errors)
        sorts = self.sorts.of(rule)
        first, second = (order_of(trees, self.items) for trees in ([rule.conclusion, *rule.premises], [*rule.premises, rule.conclusion]))
        early = ("Tree", "Trees", "Cases")
        names = [it for it in first if sorts.get(it) in early] + [it for it in second if sorts.get(it) not in early]
        writer.name_variables(sorts, names, form_of(rule))
        writer.names.update(getattr(rule, "written", {}))
        premises = [{"pieces": writer.pieces(it), **asked(it, rule)} for it in rule.premises]
        made = {"kind": "rule", "name": name, "premises": premises, "conclusion": writer.pieces(rule.conclusion)}
        self.used |= writer.used
        return {**made, **source_of(rule.item, rule.line, rule.source), "error": "error" in getattr(rule, "ends", "")}


def asked(premise, rule):
    """Which parts of the expression a premise computes: one, or several."""
    head, given = head_of(premise)
    if premise == blocks.BETWEEN and rule.conclusion[1] == ("var", "⊢eval"):
        return {"asks": "several"}
    if head in ("⊢eval_all", "⊢eval_items"):
        return {"asks": "several"}
    if head == "⊢eval" and given[4][0] == "var" and "body" not in given[4][1:2] or head == "⊢eval" and given[4] == ("var",
        "body") and form_of(rule) is not None:
        return {"asks": "one"}
    return {}


def title(name):
    """A name such as `other_signature` or `StaticDispatch` as words."""
    words = re.sub(r"(?<=[a-z])(?=[A-Z])", " ", name.split(".")[-1]).replace("_", " ").lower()
    return words[:1].upper() + words[1:]


def upper(words):
    return words[:1].upper() + words[1:]


def constants():
    """The limits on classes, by their names in the code."""
    text = (antt.ROOT / "crates/cool_classes/src/lib.rt").read_text("utf-8")
    return {name: value.replace("_", ",") for name, value in re.findall(r"(?m)^pub const (MOST_\w+): \w+ = ([\d_]+);", text)}


def fault_words(kind):
    """The words of a kind of error, and the advice for it, from docs/faults.md."""
    row = re.search(r"(?m)^\| `%s: ([^`]*)` \| .* \| (.*) \|$" % kind, DOCUMENT)
    return {"kind": kind, "words": row[1], "mend": row[2]}


def broken(kind, form=None):
    """The smallest program with an error of this kind, for this form if it has a separate one, and its message."""
    own = teaching.BROKEN.get((form, kind))
    if own:
        told = fault_words(kind)
        return {**told, "case": None, "files": [{"name": "p.cl", "text": teaching.broken(own)}], "says": "p.cl:1: %s: %s" % (kind, told["words"])}
    folder = CASES / ("check-%s-smallest" % kind)
    names = [it for it in (folder / "words").read_text("utf-8").split("\n")[1:] if it]
    files = [{"name": it, "text": (folder / it).read_bytes().decode("utf-8", "replace")} for it in names]
    if sum(len(it["text"]) for it in files) > 2000:
        files = None
    return {**fault_words(kind), "case": folder.name, "files": files, "says": (folder / "stderr").read_text("utf-8").rstrip("\n")}


SHOWN = {"HasType", "HaveTypes", "HaveItems", "HaveBranches", "Conforms", "Below", "IsChain", "IsJoinOfTypes", "Denotes", "IsTypedFeature"}
STANDS = {"List Class": "p", "ClassId": "c", "List Binding": "scope", "Tree": "e", "Ty": "t", "List ℕ": "name", "Environment": "env", "Value": "v", "ℤ": "n",
    "Cases": "cs", "ℕ": "k", "MethodRef": "method", "List (List ℕ)": "formals", "List (Bound T)": "scope", "List ClassId": "ds",
    "List AttributeRef": "attributes", "List Ty": "ts"}
# The types of arguments of functions, if rules give other arguments than the definition has.
GIVEN = {"nearest": ("Cases", "List ClassId"), "line_of": ("State",)}
# The function that a judgement of the table represents.
BEHIND = {"⊢take_line": "line_of"}


def is_meant(name, item, rules):
    """Whether the page explains a name of rules: a function that is written with arguments, or a condition."""
    if not item or name in SHOWN or name not in rules.table or item.kind not in ("abbrev", "record", "data"):
        return False
    return ("{" in rules.table[name] or name in notation.HOLDS) and rules.table[name] != "{0}" and bool(item.comment or item.rows)


def arguments(name, item):
    """Variables for the arguments of a definition, and their types."""
    sorts = list(GIVEN.get(name) or (of_type(item.type)[0] if item.kind == "abbrev" else []))
    given = []
    for it in sorts:
        stem = "state0" if it == "State" else STANDS.get(it, it.split(" ")[0].lower())
        given.append(("var", stem + "'" * sum(x[1].strip("'") == stem for x in given)))
    return given or [("var", param) for param, _ in item.params], sorts


def meant(rules, more):
    """The meanings of the words of rules: the notation of each, the comment of the definition, and its rows."""
    items = {**more, **rules.items}
    found = []
    for name in sorted({BEHIND.get(it, it) for it in rules.used}):
        item = items.get(name)
        if not is_meant(name, item, rules):
            continue
        writer = notation.Writer(rules.kind, rules.table, rules.errors)
        given, sorts = arguments(name, item)
        writer.name_variables({tree[1]: sort for tree, sort in zip(given, sorts)}, [tree[1] for tree in given])
        pieces = notation.joined(writer.condition(("app", ("var", name), given), False) if name in notation.HOLDS
            else writer.call(("app", ("var", name), given)))
        text = "\n".join(row[3].strip("\n") for row in item.rows) or None
        found.append({"kind": "word", "pieces": pieces, "words": upper(item.comment), "name": name, **source_of(item, item.line, text)})
    return found


class Typing:
    """The type rules, form by form, with the errors that occur if a premise does not hold."""

    UNFOLDED = ("HasInit", "AreComparable", "type_in_scope", "IsCall", "FitsDeclared", "IsTypedInit")

    def __init__(self):
        self.items = loaded("cool_classes/Names", "cool_classes/Chains", "cool_classes/Features", "cool_rules/Scopes", "cool_rules/Conformance",
            "cool_rules/Typing")
        tree = loaded("cool_syntax/Tree")
        self.relations = Relations(self.items, self.UNFOLDED)
        self.rules = Rules("typing", notation.TYPING, self.items, Sorts(tree, self.items))
        self.first = loaded("cool_check/FirstFaults")

    def of(self, name):
        return self.relations.rules(name)

    def entries(self, name, heading=None):
        found = []
        for rule in self.of(name):
            form = form_of(rule)
            marks = [it for it in rule.marks if it and it not in ("Some", "None")] if hasattr(rule, "marks") else []
            shown = blocks.of_types(self.relations, rule) if form == "trees.Block" else rule
            entry = self.rules.entry(shown, heading or teaching.named(form or name, marks, rule))
            self.mark(entry, rule, form or name)
            found.append((form, entry))
        return found

    def mark(self, entry, rule, form):
        """Adds the kinds of errors to the premises that cause them."""
        for kind, places in teaching.BREAKS.items():
            for where, head, which in places:
                if where == form:
                    self.put_kind(entry, rule, kind, head, which)

    def put_kind(self, entry, rule, kind, head, which):
        at = [i for i, it in enumerate(rule.premises) if self.begins(it, head, rule)]
        if kind == "E17" and form_of(rule) is None and "Attribute" not in str(rule.conclusion) or kind == "E18" and "Attribute" in str(rule.conclusion):
            return
        for i in at if which is None else at[which : which + 1]:
            entry["premises"][i].setdefault("faults", []).append(kind)

    def begins(self, premise, head, rule):
        name, given = head_of(premise)
        if head in ("bool_type", "int_type"):
            return name == "HasType" and given[-1] == ("var", head)
        if head == "same":
            return name == "HasType" and [it for it in rule.premises if it != premise and head_of(it)[0] == "HasType" and head_of(it)[1][-1] == given[-1]
                and given[-1][1] not in self.items] != []
        if premise[0] == "op":
            return head_of(premise[2])[0] == head
        return name == head

    def kinds_of(self, form):
        """The kinds of errors that the row of a form leads to, by `FirstFaults.antt`."""
        found, due, seen = set(), set(), set()
        for patterns, body, *_ in self.first["checked"].rows:
            if head_of(patterns[-1])[0] == form:
                due |= names_in(body)
        while due:
            name = due.pop()
            if name in seen or name == "checked":
                continue
            seen.add(name)
            if re.fullmatch(r"E\d+", name):
                found.add(name)
            elif name in self.first:
                for patterns, body, *_ in self.first[name].rows:
                    due |= names_in(body)
        return sorted(found, key=lambda it: int(it[1:]))


class Running:
    """The rules of evaluation, form by form."""

    def __init__(self):
        files = ("Lookups", "Meters", "Values", "Numbers", "BasicMethods", "Evaluation")
        self.items = loaded("cool_classes/Names", *("cool_meaning/" + it for it in files))
        self.computations = Computations({name: it for name, it in self.items.items() if name != "signed"} | {"signed": self.items["signed"]})
        run = loaded("cool_meaning/SourceRun")
        errors = {head_of(row[0][-1])[0]: self.text_of(row[1]) for row in run["error_text"].rows}
        tree = loaded("cool_syntax/Tree")
        values = Values(loaded("cool_classes/Names", "cool_classes/Chains", "cool_classes/Features"))
        methods = {it["method"][0]: "`%s`" % bytes(it["name"]).decode() for number in range(5) for it in values.call("basic_methods", number)}
        self.rules = Rules("running", {**notation.RUNNING, **methods}, self.items, Sorts(tree, self.items), errors)
        self.run = run

    def text_of(self, tree):
        texts = re.findall(r"\('str', '([^']*)'\)", str(tree))
        return "".join(it if it != ": " else "" for it in texts).strip(".").replace("class .", "class …").replace("from class ", "from class …") or "?"

    def entries(self, name):
        found = []
        for rule in self.computations.rules(name):
            form = form_of(rule)
            rule.ends = "error" if "⊢error" in str(rule.conclusion) else ""
            marks = [it for it in rule.marks if it and it not in ("Int", "Bool", "Some", "None", "Str", "Obj")]
            marks += [it for p in rule.premises for it in re.findall(r"'(Basic|User)'", str(p))][:1]
            marks += [notation.BASIC[int(head[1])] for p in rule.premises for head in [self.number(p)] if head]
            shown = blocks.of_values(self.computations, rule) if form == "trees.Block" else rule
            found.append((form, self.rules.entry(shown, teaching.named(form or name, list(dict.fromkeys(marks)), rule))))
        return found

    def number(self, premise):
        """The class in a premise about the number of a class."""
        name, given = head_of(premise)
        return given[0][3] if name == "is" and given[0][0] == "op" and given[0][1] == "==" else None


def lexical(values):
    """Signs, white space and escapes. The function tries all texts of one byte and of two."""
    signs = []
    texts = [(a,) for a in range(128)] + [(a, b) for a in range(33, 127) for b in range(33, 127)]
    for text in texts:
        found = values.call("form", text)
        if found[0] == "Some" and found[1][0] == "Lexeme" and found[1][1][0] == "Sign":
            signs.append((bytes(text).decode(), found[1][1][1][0]))
    white = [it for it in range(256) if values.call("is_white", it)]
    escapes = [(chr(it), values.call("escape", it)) for it in range(256) if values.call("escape", it) != it]
    keywords = [bytes(it["spelling"]).decode() for it in values.of(("var", "keywords"), {})]
    return signs, white, escapes, keywords


def reader_of(spelled, keyword):
    """Returns a function from the tree of a row of `Readings.antt` to pieces."""
    def name_of(function):
        return {"reading": "expr"}.get(function, function.replace("_reading", "").replace("file", "program"))

    def pieces(tree):
        if tree[0] == "op" and tree[1] in ("++", "∷"):
            return pieces(tree[2]) + pieces(tree[3])
        head, given = head_of(tree)
        own = {"[]": [], "object": [["v", "name"]], "type": [["v", "TYPE"]], "constant_token": [["v", "constant"]], "unary_token": [["v", "unary"]]}
        if head in own:
            return own[head]
        if head == "word":
            return [["p", keyword[given[0][1].split(".")[1]]]]
        if head == "symbol":
            name = head_of(given[0])[0]
            return [["p", spelled[name.split(".")[1]]]] if "." in name else [["v", "separator" if name == "s" else "operator"]]
        if head and head.endswith("reading"):
            sign = [["", " with "], ["p", spelled[given[0][1].split(".")[1]]]] if len(given) > 1 and "." in str(given[0][1]) else []
            return [["n", name_of(head)], *sign]
        raise LookupError("no token is known of %r" % (tree,))

    return name_of, pieces


def productions(items, name_of, pieces):
    """The productions of the grammar, each with its alternatives, from the rows of `Readings.antt`."""
    read = [it for name, it in items.items() if name.endswith("reading") and it.rows]
    return [{"kind": "production", "name": name_of(it.name), "alternatives": [pieces(row[1]) for row in it.rows], **placed(it)}
        for it in read]


def levels(values):
    """The levels of operators, the lowest first, with their signs and how they group."""
    rows = {}
    written = {"Add": "+", "Sub": "-", "Mul": "*", "Div": "/", "Less": "<", "LessEqual": "<=", "Equal": "=", "Not": "not", "IsVoid": "isvoid", "Neg": "~"}
    for kind, names in (("Arith", ("Add", "Sub", "Mul", "Div")), ("Compare", ("Less", "LessEqual", "Equal"))):
        for name in names:
            level, left = values.call("level", (kind, (name,))), values.call("left_level", (kind, (name,)))
            rows.setdefault(level, ([], "to the left" if left == level else "not at all"))[0].append(written[name])
    for name in ("Not", "IsVoid", "Neg"):
        rows.setdefault(values.call("prefix_level", ("Mark", (name,), 0)), ([], "it stands in front"))[0].append(written[name])
    rows.setdefault(values.call("prefix_level", ("Let", 0, 0, 0, 0)), ([], "as far to the right as it can"))[0].append("let … in")
    rows.setdefault(values.call("prefix_level", ("Assign", (), 0, 0)), ([], "to the right"))[0].append("<-")
    return [[[["", str(level)]], [["p", "  ".join(signs)]], [["", how]]] for level, (signs, how) in sorted(rows.items())]
