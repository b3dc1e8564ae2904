"""Compares the tables written by hand, of the notation and of the errors, with the definitions."""
import pathlib
import re
import sys

import notation
import teaching
from terms import head_of


def texts_of(pieces):
    return tuple(text for kind, text in pieces if kind == "p")


def forms_read(items, pieces_of):
    """The signs and words of each form of an expression, as `Readings.antt` reads it, with each repeated part once."""
    inner = {"unary_token", "callee_reading", "prefix_reading", "binding_reading", "variable_reading"}
    found = set()

    def ways(tree):
        """The ways to read a row, each a tuple of signs and words."""
        head, given = head_of(tree)
        if tree[0] == "op":
            return [a + b for a in ways(tree[2]) for b in ways(tree[3])]
        if head in inner:
            return [it for row in items[head].rows for it in ways(row[1])]
        if head in ("parts_reading", "bindings_reading", "branches_reading", "reading", "args_reading", "branch_reading"):
            return [()]
        return [texts_of(pieces_of(tree))]

    for row in items["reading"].rows:
        found.update(ways(row[1]))
    return found


def forms_differ(items, pieces_of):
    """The forms of the notation that no row of the readings has."""
    read = forms_read(items, pieces_of)
    told = []
    for form, text in notation.FORMS.items():
        if not form.startswith("trees.") or form in ("trees.Arith", "trees.Compare", "trees.Neg"):
            continue
        written = tuple(re.findall(r"`([^`]*)`", text.replace(" `<-` {0}", "")))
        if form == "trees.Block":
            written = ("{", ";", "}")
        if written not in read:
            told.append("%s is written %s" % (form, " ".join(written)))
    return told


def kinds_differ(made, typing):
    """The forms whose premises have other kinds of errors than the checker's definition gives the form."""
    told = []
    branches = {kind for section in made for it in section["entries"] if it["kind"] == "rule" and it["name"] == "Types of branches" for x in it["premises"]
        for kind in x.get("faults", ())}
    for section in made:
        for it in section["entries"]:
            if it["kind"] == "form":
                marked = {kind for rule in it["typing"] for x in rule["premises"] for kind in x.get("faults", ())}
                wanted = {x["kind"] for x in it["faults"]}
                marked |= branches if it["heading"] == "Case" else set()
                if marked != wanted:
                    told.append("%s: at its premises %s, by FirstFaults.antt %s" % (it["heading"], sorted(marked), sorted(wanted)))
    everywhere = {kind for section in made for it in section["entries"] for rule in (it.get("typing", ()) or ([it] if it["kind"] == "rule" else ()))
        for x in rule["premises"] for kind in x.get("faults", ())}
    told += ["%s stands at no premise" % kind for kind in teaching.BREAKS if kind not in everywhere]
    return told


# Names of the notation that the writer finds without a call of this name.
WRITTEN_APART = {"has_values", "line_of", "⊢error"}


def unused(*rules):
    """The names of the notation that no rule uses. Each table is compared with the names used by the rules of its kind."""
    tables = {"typing": notation.TYPING, "running": notation.RUNNING}
    return sorted(name for it in rules for name in tables[it.kind] if name not in it.used | WRITTEN_APART)


def not_reached(shown):
    """The definitions on which the headline of `run` does not depend. Each of those given is a file and a name."""
    sys.path.insert(0, str(pathlib.Path(__file__).resolve().parent.parent.parent / "tools"))
    from sources import HEADLINE, Definitions, listed

    definitions = Definitions(listed("crates/*/specs/*.antt"))
    reached = definitions.reached(*HEADLINE)
    return ["%s of %s" % (name, file) for file, name in sorted(shown) if (file, definitions.known.get(file, {}).get(name)) not in reached]
