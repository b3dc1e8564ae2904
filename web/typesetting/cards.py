"""The cards of the page: for each form of expression, kind of error, basic method, table and form of the grammar, the rules and the words beside them."""
import sys

import compared
import notation
import sections
import teaching
from evaluate import Values
from inference import Relations
from sorts import Sorts


def rows_of_faults(name, file, more):
    """The rules of a kind of errors. The conclusion of each rule is the error and its place."""
    items = sections.loaded("cool_classes/Names", "cool_classes/Chains", "cool_classes/Features", *more, file)
    rules = sections.Rules("classes", {**notation.CLASSES, **sections.constants()}, items, Sorts(items))
    found, said = {}, ""
    for rule in Relations(items, ()).rules(name):
        entry = rules.entry(rule, sections.title(rule.name))
        kind = next(it[1] for it in rule.conclusion[2] if it[0] == "var" and it[1][:1] in "CF" and it[1][1:].isdigit())
        said = rule.said or said
        found.setdefault(kind, {"kind": "fault", "words": [], "rules": [], **{"fault": sections.broken(kind)}})
        found[kind]["words"] += [rule.said] if rule.said else []
        found[kind]["rules"].append(entry)
    return [{**it, "words": sections.upper("; ".join(dict.fromkeys(it["words"]))) + "."} for it in found.values()]


def expressions(typing, running):
    """A card for each form of expression: its type rules and its rules of evaluation, a program, and the errors."""
    typed, run = typing.entries("HasType"), running.entries("eval")
    found = []
    for form, (heading, section, types, does, text, prints) in teaching.FORMS.items():
        forms = [form, *(it for it, whole in teaching.WITH.items() if whole == form)]
        kinds = [it for one in forms for it in typing.kinds_of(one)]
        found.append({
            "kind": "form", "forms": teaching.TABLE[form].split(), "heading": heading, "section": section, "types": types, "does": does,
            "typing": [entry for it, entry in typed if it in forms], "running": [entry for it, entry in run if it in forms],
            "program": teaching.program(text), "prints": prints, "faults": [sections.broken(it, form) for it in dict.fromkeys(kinds)],
        })  # fmt: skip
    left = {it for it, _ in typed + run} - set(teaching.FORMS) - set(teaching.WITH)
    if left:
        sys.exit("web/rules: there is no text for %s: write it in web/typesetting/teaching.py" % ", ".join(sorted(map(str, left))))
    return found


def methods(running):
    """The methods of the basic classes, with their types and rules."""
    values = Values(sections.loaded("cool_classes/Names", "cool_classes/Chains", "cool_classes/Features"))
    entries = {}
    for rule, (_, entry) in zip(running.computations.rules("basic"), running.entries("basic")):
        entries.setdefault(rule.conclusion[2][1][1], []).append(entry)
    found = []
    for number, owner in enumerate(notation.BASIC):
        for it in values.call("basic_methods", number):
            method = it["method"][0]
            formals = [bytes(x).decode() for x in values.call("basic_formals", it["method"])]
            result = bytes(values.call("basic_result", it["method"])).decode()
            says, text, prints = teaching.METHODS[method]
            found.append({
                "kind": "method", "owner": owner, "name": bytes(it["name"]).decode(), "formals": formals, "result": result, "words": says,
                "running": entries[method], "program": teaching.program(text), "prints": prints,
            })  # fmt: skip
    return found


def row(*cells):
    return [it if isinstance(it, list) else [["", it]] for it in cells]


def code(*texts):
    """Program texts as pieces, with a blank between them."""
    found = []
    for text in texts:
        found += ([["", " "]] if found else []) + [["p", text]]
    return found


def lexical_section():
    items = sections.loaded("cool_syntax/Lexemes")
    values = Values(items)
    signs, white, escapes, keywords = sections.lexical(values)
    names = {9: "tab", 10: "newline", 11: "vertical tab", 12: "form feed", 13: "carriage return", 32: "blank", 8: "backspace"}
    at = {name: sections.placed(items[name]) for name in ("keywords", "class_of", "is_white", "escape", "form_of", "comment_size")}
    tables = [
        {"kind": "table", "heading": "Keywords, in any case", "rows": [row(code(*keywords))], **at["keywords"]},
        {"kind": "table", "heading": "Signs", "rows": [row(code(*(text for text, _ in signs)))], **at["class_of"]},
        {"kind": "table", "heading": "White space", "rows": [row(", ".join(names[it] for it in white))], **at["is_white"]},
        {"kind": "table", "heading": "Behind a \\ in a string", "rows": [row(code("\\" + it), names[byte]) for it,
            byte in escapes] + [row("any other byte but a null", "itself")], **at["escape"]},
        {"kind": "table", "heading": "Words and numbers", "rows": [
            row("TYPE", "a capital letter, then letters, digits and _; no keyword"), row("name", "a small letter, then letters, digits and _; no keyword"),
            row(code("true", "false"), "begin with a small letter; the others may be capitals"), row("integer", "digits"),
        ], **at["form_of"]},
        {"kind": "table", "heading": "Comments", "rows": [row(code("--"), "to the end of the line"), row(code("(*", "*)"), "over lines; they nest")],
            **at["comment_size"]},
    ]  # fmt: skip
    faults = [sections.broken("L%d" % n) for n in range(1, 9)]
    return {"id": "lexemes", "number": "10", "heading": "Lexical structure",
        "words": "A file is read as lexemes, white space and comments, one behind the other; the longest form counts.", "entries": tables,
            "faults": faults}, signs


def syntax_section(signs):
    spelled = {name: text for text, name in signs}
    words = Values(sections.loaded("cool_syntax/Lexemes")).of(("var", "keywords"), {})
    keyword = {it["key"][0]: bytes(it["spelling"]).decode() for it in words}
    readings = sections.loaded("cool_syntax/Readings")
    name_of, pieces = sections.reader_of(spelled, keyword)
    forms = sections.productions(readings, name_of, pieces)
    told = compared.forms_differ(readings, pieces)
    if told:
        raise LookupError("no row of Readings.antt has this form: %s: correct FORMS in web/typesetting/notation.py" % "; ".join(told))
    shapes = sections.loaded("cool_syntax/Shapes")
    table = {"kind": "table", "heading": "Levels of operators, the loosest first", "head": ["", "", "groups"], "rows": sections.levels(Values(shapes)),
        **sections.placed(shapes["level"])}
    return {"id": "syntax", "number": "11", "heading": "Syntax",
        "words": "The forms in which tokens follow one another. A call without a receiver is one of self, and a let of several variables is one let inside "
        "the other.", "entries": [*forms[::-1], table], "faults": [sections.broken("S1")]}


def judgements(entries):
    """The entries of rules, without their names."""
    return [entry for _, entry in entries]


def classes():
    return {"id": "classes", "number": "3", "heading": "Classes",
        "words": "Classes are refused where one of these rules applies: above the line what is so, below it the fault and its place.",
        "entries": rows_of_faults("IsClassFault", "cool_classes/ClassRows", ())}


def types(typing):
    entries = typing.entries("Conforms", "Conforms") + typing.entries("Below", "Below") + typing.entries("IsChain", "Chain")
    entries += typing.entries("IsJoinOfTypes", "Join") + typing.entries("Denotes", "Type of a name")
    return {"id": "types", "number": "4", "heading": "Types",
        "words": "Which type may stand where another is due. C is the class in which the expression stands, and SELF_TYPE the type of its object.",
        "entries": judgements(entries)}


def features(typing):
    faults = rows_of_faults("IsFeatureFault", "cool_classes/FeatureRows", ("cool_classes/MethodNames", "cool_classes/FeatureFaults"))
    return {"id": "features", "number": "5, 6", "heading": "Attributes and methods",
        "words": "The expression of a feature fits the type that the feature declares; and features are refused where one of the rules below applies.",
        "entries": judgements(typing.entries("IsTypedFeature", "Feature")) + faults, "faults": [sections.broken(it) for it in ("E17", "E18")]}


def forms(typing, running):
    return {"id": "expressions", "number": "7, 12, 13", "heading": "Expressions",
        "words": "Each form with its type and with what it does. O has the types of names, M the methods of classes, C is the class around; so is "
        "self, S the store, E the places of names.", "entries": expressions(typing, running)}


def parts(typing, running):
    entries = typing.entries("HaveTypes", "Types of arguments") + typing.entries("HaveItems", "Type of items")
    entries += typing.entries("HaveBranches", "Types of branches")
    entries += running.entries("eval_all") + running.entries("eval_items") + running.entries("run_initials")
    return {"id": "parts", "number": "12, 13", "heading": "Several expressions",
        "words": "Arguments, items of blocks, branches, and initial values of attributes, one after the other.", "entries": judgements(entries)}


def basic(running):
    return {"id": "basic", "number": "8", "heading": "Basic classes", "words": "The methods that each program has from the first.",
        "entries": methods(running)}


def words(typing, running):
    more = sections.loaded("cool_classes/Features", "cool_classes/ClimbedChains", "cool_rules/Rules")
    return {"id": "words", "number": "", "heading": "What the words mean",
        "words": "The words that stand in the rules, as the definitions tell of them.",
        "entries": sections.meant(typing.rules, more) + sections.meant(running.rules, more)}


def page():
    """The sections of the page in the order of the manual. It compares the tables written by hand with the definitions."""
    typing, running = sections.Typing(), sections.Running()
    lexemes, signs = lexical_section()
    made = [classes(), types(typing), features(typing), forms(typing, running), parts(typing, running), basic(running), lexemes, syntax_section(signs)]
    made.append(words(typing, running))
    told = compared.kinds_differ(made, typing)
    if told:
        raise LookupError("%s: correct BREAKS in web/typesetting/teaching.py" % "; ".join(told))
    told = compared.unused(typing.rules, running.rules)
    if told:
        raise LookupError("no rule has %s: remove it from web/typesetting/notation.py" % ", ".join(told))
    told = compared.not_reached(sections.SHOWN_FROM)
    if told:
        raise LookupError("the main theorem about `run` does not depend on %s: typeset definitions on which it depends" % ", ".join(told))
    return made
