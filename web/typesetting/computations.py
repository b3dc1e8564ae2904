"""Makes rules from a computation of `cool_meaning`: each path through it is a rule, whose premises are the computations on the path.

Each step passes a state to the next, as S, S1 and so on. The meters (cost counters) are left out, because they change no value. Paths that end in `stuck`
are left out too."""
from inference import Rule, bound_in
from terms import app, fresh_names, head_of, is_constructor, is_variable, matched, names_in, put, renamed, var

# Functions that only pass a computation on, with the position of that argument.
METERS = {"rule": 0, "spend": 0, "working": 1, "holding": 1, "giving": 1}
# Computations that have separate judgements.
JUDGED = {"eval", "eval_all", "eval_items", "basic", "run_initials", "take_line"}


class Way:
    """A path through a computation, up to some step."""

    def __init__(self, premises=(), put_in=None, marks=(), state=0, taken=()):
        self.premises, self.put_in, self.marks, self.state, self.taken = list(premises), dict(put_in or {}), list(marks), state, set(taken)
        self.news = set()
        self.value = self.error = None

    def more(self, *premises, put_in=None, marks=(), steps=0):
        way = Way([*self.premises, *premises], {**self.put_in, **(put_in or {})}, [*self.marks, *marks], self.state + steps, self.taken)
        way.news = set(self.news)
        return way

    def gives(self, value):
        self.value = value
        return self

    def stops(self, error):
        self.error = error
        self.marks.append(head_of(error)[0])
        return self

    def fresh(self, name):
        while name in self.taken:
            name += "'"
        self.taken.add(name)
        self.news.add(name)
        return var(name)


def state(number):
    return var("state%d" % number)


class Computations:
    def __init__(self, items):
        self.items = items

    def rules(self, name, *only):
        """The rules of the rows of a computation."""
        item, found = self.items[name], []
        for patterns, body, line, source in item.rows:
            taken, before = names_in(body).union(*(names_in(it) for it in patterns)), len(found)
            for way in self.ways(body, Way(taken=taken)):
                end = app("⊢error", way.error, state(way.state)) if way.error else way.value
                conclusion = app("⊢" + name, *patterns, state(0), end, state(way.state))
                if way.error:
                    conclusion = app("⊢" + name, *patterns, state(0), end, var("_"))
                rule = Rule("", [self.settled(it, way) for it in way.premises], self.settled(conclusion, way), item, line, source)
                rule.marks = way.marks
                found.append(rule)
            if len(found) == before and body != var("stuck"):
                raise LookupError("%s:%d: no rule comes of this row" % (item.file, line))
        return found

    def settled(self, tree, way):
        for _ in range(4):
            tree = put(tree, way.put_in)
        return tree

    def ways(self, tree, way, wanted="v"):
        """The paths through a computation. A new value gets the name `wanted`."""
        tree = put(tree, way.put_in)
        if tree[0] == "do":
            return self.steps(tree[1], way)
        if tree[0] == "op" and tree[1] in (">>=", ">>"):
            return self.joined(tree, way)
        if tree[0] == "if":
            return self.sides(tree, way, wanted)
        if tree[0] == "app" and tree[1][0] == "fun":
            return self.ways(put(tree[1][2], dict(zip(tree[1][1], tree[2]))), way, wanted)
        head, given = head_of(tree)
        if head in METERS:
            return self.ways(given[METERS[head]], way, wanted)
        own = getattr(self, "on_" + head, None)
        if own:
            return own(given, way, wanted)
        if head in JUDGED:
            return self.judged(head, given, way, wanted)
        return self.unfolded(head, given, way, wanted)

    def steps(self, parts, way):
        name, tree = parts[0]
        if len(parts) == 1:
            return self.ways(tree, way)
        return self.then(self.ways(tree, way, name or "_"), name, lambda it: self.steps([(n, put(t, it.put_in)) for n, t in parts[1:]], it))

    def then(self, ways, name, more):
        found = []
        for way in ways:
            if way.error is not None:
                found.append(way)
                continue
            value, way.value = way.value, None
            if name and value[0] == "var" and not is_constructor(value[1]) and value[1] in way.news:
                way.put_in[value[1]] = var(name)
                way.news.discard(value[1])
            elif name:
                way.put_in[name] = value
            found += more(way)
        return found

    def joined(self, tree, way):
        _, sign, first, second = tree
        if sign == ">>":
            return self.then(self.ways(first, way, "_"), None, lambda it: self.ways(second, it))
        found = []
        for it in self.ways(first, way, "l"):
            value, it.value = it.value, None
            found += [it] if it.error is not None else self.ways(("app", second, [value]), it)
        return found

    def sides(self, tree, way, wanted):
        test = put(tree[1], way.put_in)
        head, given = head_of(test)
        if test[0] == "var" and not is_constructor(test[1]):
            return [it for side, then in (("true", tree[2]), ("false", tree[3])) for it in self.ways(then,
                way.more(put_in={test[1]: var(side)}, marks=[side.capitalize()]), wanted)]
        if head == "bytes_eq" and is_variable(given[0], self.items):
            yes = self.ways(tree[2], way.more(put_in={given[0][1]: given[1]}), wanted)
            return yes + self.ways(tree[3], way.more(("op", "≢", given[0], given[1])), wanted)
        return self.ways(tree[2], way.more(app("is", test)), wanted) + self.ways(tree[3], way.more(app("is_not", test)), wanted)

    # Paths through each function from which computations are built.

    def on_give(self, given, way, wanted):
        return [way.gives(given[0])]

    def on_stop(self, given, way, wanted):
        return [way.stops(given[0])]

    def on_stuck(self, given, way, wanted):
        return []

    def on_given(self, given, way, wanted):
        it = put(given[0], way.put_in)
        head, args = head_of(it)
        if head == "Some":
            return [way.gives(args[0])]
        if head == "None":
            return []
        value = self.named(way, wanted)
        return [way.more(("op", "≡", it, app("Some", value))).gives(value)]

    def named(self, way, wanted):
        return way.fresh("v" if wanted in (None, "_") else wanted)

    def on_locate(self, given, way, wanted):
        place = self.named(way, wanted)
        return [way.more(app("⊢locate", state(way.state), given[0], place, state(way.state + 1)), steps=1).gives(place)]

    def on_locate_all(self, given, way, wanted):
        places = self.named(way, wanted)
        return [way.more(app("⊢locate_all", state(way.state), given[0], places, state(way.state + 1)), steps=1).gives(places)]

    def on_load(self, given, way, wanted):
        value = self.named(way, wanted)
        return [way.more(app("⊢load", state(way.state), given[0], value)).gives(value)]

    def on_load_all(self, given, way, wanted):
        value = self.named(way, wanted)
        return [way.more(app("⊢load", state(way.state), given[0], value)).gives(value)]

    def on_store(self, given, way, wanted):
        return [way.more(app("⊢store", state(way.state), *given, state(way.state + 1)), steps=1).gives(var("tt"))]

    def on_draw(self, given, way, wanted):
        value = self.named(way, wanted)
        return [way.more(app("⊢draw", state(way.state), value, state(way.state + 1)), steps=1).gives(value)]

    def on_print(self, given, way, wanted):
        return [way.more(app("⊢print", state(way.state), given[0], state(way.state + 1)), steps=1).gives(var("tt"))]

    def judged(self, head, given, way, wanted):
        value = self.named(way, "v" if wanted == "_" else wanted)
        return [way.more(app("⊢" + head, *given, state(way.state), value, state(way.state + 1)), steps=1).gives(value)]

    def on_class_or(self, given, way, wanted):
        """The rows of `class_or`. The method checks that all but the first have the form `given (class_of ..)`."""
        error, value = given
        rows = self.items["class_or"].rows
        assert rows[0][0][1] == var("Void") and head_of(rows[0][1])[0] == "stop", "class_or is not what on_class_or says"
        of = {str(patterns[0]): body for patterns, body, *_ in self.items["class_of"].rows}
        for patterns, body, *_ in rows[1:]:
            name, args = head_of(body)
            right = args[0] == app("class_of", patterns[1]) if name == "given" else app("Some", args[0]) == of[str(patterns[1])]
            assert right, "class_or is not what on_class_or says"
        void = way.more(put_in={value[1]: var("Void")}).stops(error)
        name = self.named(way, wanted)
        return [void, way.more(("op", "≡", app("class_of", value), app("Some", name))).gives(name)]

    def on_loop(self, given, way, wanted):
        """The paths of `turns` with enough steps: a turn, and then the loop again."""
        test, body = given
        self.loop = given
        return self.unfolded("turns", [app("suc", var("k")), test, body], way, wanted)

    def on_turns(self, given, way, wanted):
        test, body = self.loop
        value = self.named(way, "w")
        loop = app("trees.While", var("at"), head_of(test)[1][-1], head_of(body)[1][-1])
        return [way.more(app("⊢eval", *head_of(test)[1][:-1], loop, state(way.state), value, state(way.state + 1)), steps=1).gives(value)]

    def on_calls(self, given, way, wanted):
        """The paths of `calls_within` with a step left: those of `run_call`."""
        head, args = head_of(given[0])
        if head == "Initials":
            return self.judged("initials", args, way, wanted)
        return self.unfolded("run_call", [var("p"), var("calls"), given[0]], way, wanted)

    def on_take_branch(self, given, way, wanted):
        """The paths of a branch: no branch is for a class of the chain, or the nearest one is taken, as `branch_of` says."""
        at, c, value, nearest = given
        _, args = head_of(nearest)
        branches = head_of(args[1])[1][-1]
        none = way.more(("op", "≡", app("nearest", branches, args[2]), var("None"))).stops(app("NoBranch", at, c))
        row = self.items["branch_of"].rows[1]
        names = fresh_names({"name", "declared", "t", "l", "v"} , way.taken)
        pattern, body = renamed(row[0][4], names), renamed(row[1], names)
        function = head_of(body[2])[1][0]
        branch = app("branch", *head_of(pattern)[1][1:4])
        some = way.more(("op", "≡", app("nearest", branches, args[2]), app("Some", branch)))
        return [none] + self.ways(put(function[2], {function[1][0]: value}), some, wanted)

    def unfolded(self, head, given, way, wanted):
        if head not in self.items or not self.items[head].rows:
            raise LookupError("web/rules: no rows of %s" % head)
        found = []
        for patterns, body, *_ in self.items[head].rows:
            own = set().union(set(), *(names_in(it) for it in patterns)) | bound_in(body)
            own = {it for it in own if not is_constructor(it) and it not in self.items}
            here = way.more()
            names = fresh_names(own, here.taken)
            here.news |= set(names.values())
            patterns, body = [renamed(it, names) for it in patterns], renamed(body, names)
            bound, put_in, equal = {}, {}, []
            if not all(matched(a, put(b, way.put_in), self.items, bound, put_in, equal) for a, b in zip(patterns, given)):
                continue
            body = put(body, bound)
            marks = [head_of(it)[0] for it in put_in.values()]
            more = [("op", "≡", tree, pattern) for tree, pattern in equal]
            extra = given[len(patterns) :]
            body = ("app", body, extra) if extra else body
            found += self.ways(body, here.more(*more, put_in=put_in, marks=marks), wanted)
        return found
