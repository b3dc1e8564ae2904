"""Changes one thing in a rule of the page, to see whether a case finds the change: the script leaves out a premise of a type rule, or changes the value or
the state of a rule of evaluation."""
import cool_text
import notation
import sections
import trials
from terms import app, head_of, var


# Changes that have no effect, because the omitted premise follows from the rest. The key is the form, and the premise or the change.
FOLLOWS = {
    ("trees.Id", "name ≢ codes ?"): "no variable is named self",
    ("trees.Assign", "IsNotSelf name"): "no variable is named self",
    ("trees.Dispatch", "Denotes (result_of method) result"): "a legal class table has no unknown type",
    ("trees.StaticDispatch", "Denotes (result_of method) result"): "a legal class table has no unknown type",
    ("trees.If", "IsJoinOfTypes c t u type"): "two types always have a join",
    ("trees.Case", "IsJoinOfBranches c ts type"): "types always have a join",
    ("trees.While", "void for the value"): "the value of a loop is void",
    ("run_initials", "void for the value"): "`new` gives the object itself",
    ("trees.Compare", "HasType c scope a u"): "with Object at the left this rule does not apply, and the rule of other objects has the same premise",
}


def told(rule):
    return "%s:%d %s" % (rule.item.file.rpartition("/")[2], rule.line, " ".join(map(str, rule.marks)))


def premise_words(premise):
    """A premise as text, with the names of the definitions, for a list of changes."""
    head, given = head_of(premise)
    if premise[0] == "op":
        return "%s %s %s" % (premise_words(premise[2]), premise[1], premise_words(premise[3]))
    if premise[0] == "get":
        return "%s.%s" % (premise_words(premise[1]), premise[2])
    names = [premise_words(it) for it in given if it[0] != "var" or it[1] not in notation.LEFT_OUT]
    return " ".join([head, *("(%s)" % it if " " in it else it for it in names)]) if head else "?"


def follows(rule, what):
    """The reason why no case can find a change, or None."""
    why = FOLLOWS.get((sections.form_of(rule) or rule.item.name, what))
    return why and "no case can find it: " + why


class Types:
    """Changes of type rules: a premise is ignored, or it finds the type Object."""

    def __init__(self, typer, cases):
        self.typer, self.cases = typer, []
        for case in cases:
            texts = case.texts()
            table = cool_text.table(texts) if case.faults() is not None and sum(map(len, texts)) <= trials.MOST_BYTES // 6 else ()
            if table and sum(len(it["features"]) for it in table) <= trials.MOST_FEATURES:
                self.typer.matched, kept = set(), {}
                self.typer.untyped(table, kept)
                self.cases.append((case, table, kept, self.typer.matched))

    def changes(self):
        """Yields each rule, the premise and its change, with the first case that finds the change, or None."""
        for rules in self.typer.rules.values():
            for rule in rules:
                for at, premise in enumerate(rule.premises):
                    yield told(rule), "left out: " + premise_words(premise), self.found(rule, at, False) or follows(rule, premise_words(premise))
                    if self.finds_type(premise):
                        yield told(rule), "finds Object: " + premise_words(premise), self.found(rule, at, True)

    def finds_type(self, premise):
        known = {}
        try:
            return bool(self.typer.assumed(premise, known))
        except (LookupError, TypeError):  # a list of types, whose length is the number of parts
            return False

    def found(self, rule, at, always):
        self.typer.change = rule, at, always
        try:
            for case, table, kept, matched in self.cases:
                if id(rule) in matched and (always or case.faults()) and self.differs(case, table, kept):
                    return case.name
        finally:
            self.typer.change = None
        return None

    def differs(self, case, table, kept):
        try:
            return len(self.typer.untyped(table, kept)) != case.faults()
        except (LookupError, TypeError, AttributeError):
            return True


class Runs:
    """Changes of rules of evaluation: void replaces the value or the error, or the state before the last one replaces the last one."""

    def __init__(self, trial):
        self.machine, self.used = trial.machine, trial.ran

    def changes(self):
        for rules in self.machine.rules.values():
            for rule in rules:
                for what, conclusion in self.changed(rule):
                    yield told(rule), what, self.found(rule, conclusion) or follows(rule, what)

    def changed(self, rule):
        name, given = head_of(rule.conclusion)
        *inputs, value, state = given
        nothing = var("[]") if name == "⊢eval_all" else var("Void")
        last = inputs[-1] if state == var("_") else state
        head, args = head_of(value)
        if head == "⊢error":
            yield "void for the error", app(name, *inputs, nothing, args[1])
            last = args[1]
        elif value != nothing:
            yield "void for the value", app(name, *inputs, nothing, state)
        number = int(last[1][5:]) if last[0] == "var" and last[1].startswith("state") else 0
        before = var("state%d" % (number - 1))
        if number and head == "⊢error":
            yield "the state before", app(name, *inputs, app("⊢error", args[0], before), state)
        elif number:
            yield "the state before", app(name, *inputs, value, before)

    def found(self, rule, conclusion):
        whole, rule.conclusion = rule.conclusion, conclusion
        try:
            return next((it.name for it in self.used.get(id(rule), ()) if trials.by_run(self.machine, it) != ""), None)
        finally:
            rule.conclusion = whole
