"""Makes rules from a relation that a definition gives by rows, by constructors, or as a record: their premises, and the conclusion."""
from terms import fresh_names, head_of, is_constructor, is_variable, matched, names_in, put, renamed, var

# The types of the variables of a rule. All other fields of a record are premises.
SORTS = {"MethodRef", "Ty", "ClassId", "List", "ℕ", "Class", "Tree", "Token", "Item"}


class Rule:
    def __init__(self, name, premises, conclusion, item, line, source, said="", binders=()):
        self.name, self.premises, self.conclusion = name, premises, conclusion
        self.item, self.line, self.source, self.said, self.binders = item, line, source, said, dict(binders)


def parts_of(tree, binders):
    """The premises of a product. Existential variables are added to the binders."""
    if tree[0] == "some":
        binders.update(tree[1])
        return parts_of(tree[2], binders)
    if tree[0] == "op" and tree[1] == "×":
        return parts_of(tree[2], binders) + parts_of(tree[3], binders)
    return [tree]


class Relations:
    """The definitions of some files. The definitions in `unfolded` are replaced by their parts."""

    def __init__(self, items, unfolded):
        self.items, self.unfolded = items, set(unfolded)

    def rules(self, name, split=()):
        """The rules of the definition of this name. The sides of each condition in `split` become separate rules."""
        item = self.items[name]
        if item.kind == "data":
            return [self.of_constructor(item, part) for part in item.parts]
        if item.kind == "record":
            return [self.of_record(item)]
        found = []
        for patterns, body, line, source in item.rows:
            made = [it for begun in self.begun(item, patterns, body) for it in self.closed(*begun, item, line, source)]
            if not made and body != var("⊥"):
                raise LookupError("%s:%d: no rule comes of this row" % (item.file, line))
            found += made
        return found

    def begun(self, item, patterns, body):
        binders = {}
        conclusion = ("app", var(item.name), patterns) if patterns else var(item.name)
        yield conclusion, parts_of(body, binders), binders, []

    def of_constructor(self, item, part):
        name, tree, said, line = part
        binders, premises = {}, []
        while tree[0] in ("all", "op") and (tree[0] == "all" or tree[1] == "→"):
            if tree[0] == "all":
                binders.update(tree[1])
                tree = tree[2]
            else:
                premises += parts_of(tree[2], binders)
                tree = tree[3]
        return Rule(name, premises, tree, item, line, None, said, binders)

    def of_record(self, item):
        binders, premises = {}, []
        for name, tree, said, line in item.parts:
            if self.is_sort(tree):
                binders[name] = tree
            else:
                premises += parts_of(tree, binders)
        return Rule(item.name, premises, ("app", var(item.name), [var(name) for name, _ in item.params]), item, item.line, None, item.comment, binders)

    def is_sort(self, tree):
        return head_of(tree)[0] in SORTS

    def closed(self, conclusion, premises, binders, marks, item, line, source):
        """The rules that result after all definitions of `unfolded` are replaced."""
        due, found = [(conclusion, premises, binders, marks)], []
        while due:
            conclusion, premises, binders, marks = due.pop(0)
            step = next(((at, more) for at, it in enumerate(premises) for more in [self.step(it, premises, conclusion)] if more is not None), None)
            if step is None:
                found.append(Rule("", premises, conclusion, item, line, source, "", binders))
                found[-1].marks = marks
                continue
            at, alternatives = step
            news = []
            for parts, put_in, more, mark in alternatives:
                rest = premises[:at] + parts + premises[at + 1 :]
                news.append((put(conclusion, put_in), [put(it, put_in) for it in rest], {**binders, **more}, marks + mark))
            due = news + due
        return found

    def step(self, premise, premises, conclusion):
        """The replacements of a premise, each (premises, values of variables, binders, marks). It is None if the premise stays."""
        head, given = head_of(premise)
        if head == "Unit" or premise == var("Unit"):
            return [([], {}, {}, [])]
        if head == "⊥":
            return []
        if premise[0] == "op" and premise[1] == "⊎":
            return [(parts_of(premise[2], {}), {}, {}, []), (parts_of(premise[3], {}), {}, {}, [])]
        if premise[0] == "op" and premise[1] == "≡":
            return self.equation(premise, premises, conclusion)
        if head in self.unfolded and head in self.items:
            return self.unfold(head, given, premises, conclusion)
        return None

    def equation(self, premise, premises, conclusion):
        left, right = premise[2], premise[3]
        (a, given), (b, args) = head_of(left), head_of(right)
        if a == b == "Some":
            return [([("op", "≡", given[0], args[0])], {}, {}, [])]
        if {a, b} == {"Some", "None"}:
            return []
        if left == right:
            return [([], {}, {}, [])]
        if left[0] == "get":
            return None
        if self.is_own(left) and left[1] not in names_in(right) and self.may_stand(right):
            return [([], {left[1]: right}, {}, [])]
        if self.is_own(right) and right[1] not in names_in(left) and self.may_stand(left):
            return [([], {right[1]: left}, {}, [])]
        if a in self.unfolded and a in self.items:
            return self.unfold(a, given, premises, conclusion, right)
        return None

    def is_own(self, tree):
        return is_variable(tree, self.items)

    def may_stand(self, tree):
        """Whether a tree may replace the variable that it is equal to: a form, a name, or a call of `result_on`."""
        head, given = head_of(tree)
        return tree[0] in ("var", "get") or (head is not None and (is_constructor(head) or head in ("result_on",)))

    def unfold(self, head, given, premises, conclusion, equal_to=None):
        item, found = self.items[head], []
        if item.kind == "record":
            binders, parts = {}, []
            names = fresh_names({name for name, tree, *_ in item.parts if self.is_sort(tree)}, self.taken(premises, conclusion))
            params = dict(zip((name for name, _ in item.params), given))
            for name, tree, *_ in item.parts:
                if self.is_sort(tree):
                    binders[names.get(name, name)] = tree
                else:
                    parts += [put(renamed(it, names), params) for it in parts_of(tree, binders)]
            return [(parts, {}, binders, [])]
        for patterns, body, line, source in item.rows:
            names = fresh_names(set().union(set(), *(names_in(it) for it in [*patterns, body])) & self.own_names(patterns, body),
                self.taken(premises, conclusion))
            patterns, body = [renamed(it, names) for it in patterns], renamed(body, names)
            bound, put_in = {}, {}
            equal = [("op", "≡", b, a) for a, b in zip(patterns, given) if b[0] == "get" and not (a[0] == "var" and not is_constructor(a[1]))]
            fields = [it[2] for it in equal]
            if not all(b in fields or matched(a, b, self.items, bound, put_in) for a, b in zip(patterns, given)):
                continue
            body = put(put(body, bound), put_in)
            marks = [head_of(it)[0] for it in put_in.values()]
            for parts, more_in, more_marks in self.sides(body, equal_to):
                binders = {}
                whole = [it for part in parts for it in parts_of(part, binders)]
                found.append((equal + whole, {**put_in, **more_in}, binders, marks + more_marks))
        return found

    def sides(self, body, equal_to):
        """The sides of conditions: (premises, values of variables, marks)."""
        if body[0] == "if":
            (head, given) = head_of(body[1])
            if head == "bytes_eq" and self.is_own(given[0]):
                yes = [([put(it, {given[0][1]: given[1]}) for it in parts], {**more, given[0][1]: given[1]}, marks) for parts, more,
                    marks in self.sides(body[2], equal_to)]
                no = [([("op", "≢", given[0], given[1]), *parts], more, marks) for parts, more, marks in self.sides(body[3], equal_to)]
                return yes + no
        return [([body if equal_to is None else ("op", "≡", body, equal_to)], {}, [])]

    def own_names(self, patterns, body):
        names = set().union(set(), *(names_in(it) for it in patterns))
        names |= bound_in(body)
        return {it for it in names if not is_constructor(it) and it not in self.items}

    def taken(self, premises, conclusion):
        return set().union(*(names_in(it) for it in [*premises, conclusion]))


def bound_in(tree):
    """The names that the root of a tree binds."""
    found = set()
    if tree[0] in ("all", "some"):
        found |= {name for name, _ in tree[1]}
    if tree[0] == "fun":
        found |= set(tree[1])
    if tree[0] == "do":
        found |= {name for name, _ in tree[1] if name}
    parts = {"all": tree[2:], "some": tree[2:], "fun": tree[2:], "op": tree[2:], "app": [tree[1], *tree[2]] if tree[0] == "app" else ()}.get(tree[0], ())
    if tree[0] == "do":
        parts = [it for _, it in tree[1]]
    if tree[0] in ("if", "pair", "let"):
        parts = tree[1:] if tree[0] == "if" else tree[1] if tree[0] == "pair" else tree[2:]
    if tree[0] == "record":
        parts = [it for _, it in tree[2]]
    return found.union(*(bound_in(it) for it in parts)) if parts else found
