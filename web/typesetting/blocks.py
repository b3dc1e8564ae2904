"""The rule of a block, as in the manual: e₁ to eₙ in order. The definition has rows for no item and for an item before others. This module checks that both
forms say the same."""
from inference import Rule
from terms import app, head_of, var

BETWEEN = var("⊢…")  # stands for the premises between the first and the last
WRITTEN = {"e1": "e₁", "en": "eₙ", "t1": "T₁", "tn": "Tₙ", "v1": "v₁", "vn": "vₙ", "state0": "S", "state1": "S₁", "state98": "Sₙ₋₁", "state99": "Sₙ"}


def told(rule, premises, conclusion):
    found = Rule(rule.name, premises, conclusion, rule.item, rule.line, rule.source, rule.said)
    found.marks, found.written, found.ends = rule.marks, WRITTEN, getattr(rule, "ends", "")
    return found


def with_items(rule, at):
    """The block of the conclusion of a rule, which is its argument `at`."""
    block = head_of(rule.conclusion)[1][at]
    return app("trees.Block", head_of(block)[1][0], var("es"))


def of_types(relations, rule):
    """The type rule of a block. The type is that of its last item."""
    none, more = relations.rules("HaveItems")
    p, c, scope, before, _, type_ = head_of(none.conclusion)[1]
    assert before == type_ and not none.premises, "HaveItems is not what blocks.py says"
    p, c, scope, _, items, type_ = head_of(more.conclusion)[1]
    first, rest = head_of(items)[1]
    item, others = more.premises
    found = head_of(item)[1][-1]
    assert item == app("HasType", p, c, scope, first, found) and others == app("HaveItems", p, c, scope, found, rest, type_), \
        "HaveItems is not what blocks.py says"
    p, c, scope, *_ = head_of(rule.conclusion)[1]
    premises = [app("HasType", p, c, scope, var("e1"), var("t1")), BETWEEN, app("HasType", p, c, scope, var("en"), var("tn"))]
    return told(rule, premises, app("HasType", p, c, scope, with_items(rule, 3), var("tn")))


def of_values(computations, rule):
    """The rule of evaluation of a block: each item leaves the state for the next one, and the value is that of the last item."""
    none, more = computations.rules("eval_items")
    *_, before, _, state, value, left = head_of(none.conclusion)[1]
    assert before == value and state == left and not none.premises, "eval_items is not what blocks.py says"
    p, calls, self, env, _, items, state, value, left = head_of(more.conclusion)[1]
    first, rest = head_of(items)[1]
    item, others = more.premises
    found, then = head_of(item)[1][-2:]
    assert item == app("⊢eval", p, calls, self, env, first, state, found, then), "eval_items is not what blocks.py says"
    assert others == app("⊢eval_items", p, calls, self, env, found, rest, then, value, left), "eval_items is not what blocks.py says"
    p, calls, self, env, *_ = head_of(rule.conclusion)[1]
    first = app("⊢eval", p, calls, self, env, var("e1"), var("state0"), var("v1"), var("state1"))
    last = app("⊢eval", p, calls, self, env, var("en"), var("state98"), var("vn"), var("state99"))
    return told(rule, [first, BETWEEN, last], app("⊢eval", p, calls, self, env, with_items(rule, 4), var("state0"), var("vn"), var("state99")))
