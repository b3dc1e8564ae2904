"""Tests the answers about a name by renaming: a program means the same if the name is replaced in all its places, and not if one is left out."""
import random
import re
import subprocess

from .client import EXAMPLES, HERE, Client, NotTried, check, expect, fill
from .edits import place

TEXT = """class Shape { side : Int; area() : Int { side * side }; grow(by : Int) : SELF_TYPE { { side <- side + by; self; } }; };
class Square inherits Shape { area() : Int { side }; };
class Main inherits IO {
  main() : Object { let one : Square <- new Square, side : Int <- 2 in { out_int(one.grow(side).area()); one@Shape.area(); } };
};
"""


def editor():
    """The program that tells marks, or that it is not there."""
    words = ["node", "-e", "new (require('./cool_lsp/marks.js').Marks)(undefined, 60).find().then((it) => console.log(it ?? ''))"]
    found = subprocess.run(words, cwd=HERE, stdout=subprocess.PIPE).stdout.decode().strip()
    if not found:
        raise NotTried("no program cool_editor is built")
    return found


def where(path, text, at):
    line = text.count("\n", 0, at)
    return {"textDocument": {"uri": path.as_uri()}, "position": {"line": line, "character": at - text.rfind("\n", 0, at) - 1}}


def spans(text, places):
    return sorted(tuple(place(text, one["range"][side]) for side in ("start", "end")) for one in places or ())


def names_are_told(room, words):
    """Hover, definition and references of the names of one text."""
    editor()
    at, client = fill(room / "program", shapes=TEXT) / "shapes.cl", Client(room / "program", words.cool)
    client.open(at, TEXT)

    def ask(method, word, number=0, **more):
        found = [match.start() for match in re.finditer(r"\b%s\b" % word, TEXT)][number]
        return client.request("textDocument/" + method, {**where(at, TEXT, found), **more})["result"]

    def said(word, number=0):
        found = ask("hover", word, number)
        return found and found["contents"]["value"].split("\n")[1]

    expect("types", [said("side"), said("side", 6), said("one", 1), said("self")], ["side : Int", "side : Int", "one : Square", "self : SELF_TYPE"])
    expect("signatures", [said("grow", 1), said("out_int"), said("Square", 1)], ["grow(by : Int) : SELF_TYPE", "out_int(x : Int) : SELF_TYPE", "class Square"])
    expect("of a let and of an attribute", [TEXT[: spans(TEXT, ask("definition", "side", number))[0][0]].count("\n") for number in (5, 7)], [0, 3])
    expect("area of Square", spans(TEXT, ask("definition", "area", 2))[0][0], TEXT.index("area", TEXT.index("Square")))
    expect("area of Shape", spans(TEXT, ask("definition", "area", 3))[0][0], TEXT.index("area"))
    expect("of a basic class", ask("definition", "out_int"), [])
    expect("uses of one", len(ask("references", "one")), 3)
    client.end()


def calls_are_told(room, words):
    """The signature of the call that is being written, and which argument is due, in what is no program yet."""
    editor()
    at, client = fill(room / "program", shapes=TEXT) / "shapes.cl", Client(room / "program", words.cool)

    def told(new, behind, old="one@Shape.area();"):
        text = TEXT.replace(old, new)
        client.open(at, text)
        found = client.request("textDocument/signatureHelp", where(at, text, text.index(behind) + len(behind)))["result"]
        client.close(at)
        return found and (found["signatures"][0]["label"], [it["label"] for it in found["signatures"][0]["parameters"]], found["activeParameter"])

    grow = "grow(by : Int) : SELF_TYPE", ["by : Int"]
    substr = "substr(i : Int, l : Int) : String", ["i : Int", "l : Int"]
    expect("whole", told("one.grow(3).area();", "grow(3"), (*grow, 0))
    expect("begun", told("one.grow(", " one.grow("), (*grow, 0))
    expect("closed by the editor", told("one.grow();", " one.grow("), (*grow, 0))
    expect("the second argument", told('"a,(".substr(1, );', "substr(1, "), (*substr, 1))
    expect("of a basic class", told('"a".substr(1, (2', "(1, (2"), (*substr, 1))
    expect("the inner one", told('"a".substr(one.grow(1', "grow(1"), (*grow, 0))
    expect("behind an inner one", told('"a".substr(one.grow(1), 2', "), 2"), (*substr, 1))
    expect("none", [told("(1 + 2);", "(1 + "), told("one.grow({ 1; 2; });", "{ 1; "), told("one.none(1);", "none("), told("", "area() ")], [None] * 4)
    client.end()


def names_are_told_beside_a_fault(room, words):
    """Where a file has no marks, by those that it had, at the places of now; and where it never had some, not at all."""
    editor()
    at, client = fill(room / "program", shapes=TEXT) / "shapes.cl", Client(room / "program", words.cool)
    client.open(at, TEXT)
    broken = "(* a line more *)\n" + TEXT.replace("out_int(one", "out_int(; (one")
    client.change(at, broken)

    def ask(method, behind, within=""):
        start = broken.index(behind) + len(behind) + broken[broken.index(behind) + len(behind) :].index(within)
        return client.request("textDocument/" + method, where(at, broken, start))["result"]

    def said(behind, within):
        found = ask("hover", behind, within)
        return found and found["contents"]["value"].split("\n")[1]

    expect("before the fault", said("grow(by", ""), "by : Int")
    expect("in its line", [said("new Square, ", "side"), said("(one).".replace(")", ""), "grow")], ["side : Int", "grow(by : Int) : SELF_TYPE"])
    expect("defined", spans(broken, ask("definition", "(one.", "grow"))[0][0], broken.index("grow"))
    expect("highlighted", len(ask("documentHighlight", "let ", "one")), 3)
    expect("not renamed", "error" in client.request("textDocument/rename", {**where(at, broken, broken.index("one :")), "newName": "two"}), True)
    client.change(at, "class")
    expect("no name", client.request("textDocument/hover", where(at, "class", 2))["result"], None)
    client.end()
    client = Client(room / "program", words.cool)
    client.open(at, broken)
    expect("never whole", said("grow(by", ""), None)
    client.end()


def places_are_highlighted(room, words):
    editor()
    at, client = fill(room / "program", shapes=TEXT) / "shapes.cl", Client(room / "program", words.cool)
    client.open(at, TEXT)

    def kinds(word):
        found = client.request("textDocument/documentHighlight", where(at, TEXT, TEXT.index(word)))["result"]
        return [(TEXT[slice(*spans(TEXT, [one])[0])], one.get("kind")) for one in found]

    expect("an attribute", kinds("side :"), [("side", 3), ("side", 2), ("side", 2), ("side", 3), ("side", 2), ("side", 2)])
    expect("a method", kinds("grow"), [("grow", 3), ("grow", 2)])
    expect("a class", len(kinds("Square")), 3)
    expect("nothing", kinds("let"), [])
    client.end()


def forms_are_completed(room, words):
    """The forms whose keywords begin so, in a client that takes them; each is a whole expression once it is put in."""
    at = fill(room / "program", shapes=TEXT) / "shapes.cl"

    def offered(client, new, behind, old="one@Shape.area();"):
        text = TEXT.replace(old, new)
        client.open(at, text)
        found = client.request("textDocument/completion", where(at, text, text.index(behind) + len(behind)))["result"]
        client.close(at)
        return {item["label"]: item["insertText"] for item in found if item["kind"] == 15}

    plain, client = Client(room / "program", words.cool), Client(room / "program", words.cool, completes={"snippetSupport": True})
    expect("not taken", offered(plain, "wh", "; wh"), {})
    plain.end()
    for form in "case", "if", "let", "while":
        made = offered(client, form[:2], "; " + form[:2])
        expect(form, list(made), [form])
        body = re.sub(r"\$\{\d:(.*?)\}|\$0", lambda it: it[1] or "0", made[form]).replace("value", "one").replace("test", "true")
        (room / "form.cl").write_text(TEXT.replace("one@Shape.area();", body + ";"))
        expect("%s is whole" % form, check(words.cool, [room / "form.cl"]), {room / "form.cl": []})
    expect("a class", list(offered(client, "class Main", "cl", "class Main")), ["class"])
    expect("none", [offered(client, new, behind) for new, behind in (("one.wh", ".wh"), ('"wh', '"wh'), ("-- wh", "-- wh"), ("Wh", " Wh"))], [{}] * 4)
    client.end()


def words_are_completed(room, words):
    editor()
    at, client = fill(room / "program", shapes=TEXT) / "shapes.cl", Client(room / "program", words.cool)

    def offered(old, new, behind):
        text = TEXT.replace(old, new)
        client.open(at, text)
        found = client.request("textDocument/completion", where(at, text, text.index(behind) + len(behind)))["result"]
        client.close(at)
        return sorted(item["label"] for item in found)

    expect("after a dot", offered("one@Shape.area();", "one.", " one."), ["abort", "area", "copy", "grow", "type_name"])
    expect("begun", offered("one@Shape.area();", "one.gr", " one.gr"), ["grow"])
    expect("of a call", offered("one@Shape.area();", "one.grow(3).", "grow(3)."), ["abort", "area", "copy", "grow", "type_name"])
    expect("of a new object", offered("one@Shape.area();", "(new IO).in", "(new IO).in"), ["in_int", "in_string"])
    expect("of the class after @", offered("one@Shape.area();", "one@Shape.gr", "@Shape.gr"), ["grow"])
    expect("of a constant", offered("one@Shape.area();", '"a".con', '"a".con'), ["concat"])
    expect("of this class", offered("one@Shape.area();", "out_s;", "out_s"), ["out_string"])
    expect("before the end of a statement", offered("one@Shape.area();", "out_int(on", "; out_int(on"), ["one"])
    expect("in scope", offered("one@Shape.area();", "on;", "; on"), ["one"])
    expect("attributes and formals", offered("side <- side + by;", "s;", "{ { s"), ["side"])
    client.end()


def names_are_renamed(room, words):
    """In the examples and the text above: each time all places of a name are what is accepted, and all but one are not."""
    editor()
    rnd, compared = random.Random(words.seed), 0
    client = Client(room, words.cool)
    for source in [TEXT] + [(EXAMPLES / (name + ".cl")).read_text() for name in ("list", "bank", "queens")]:
        at = room / "one.cl"
        client.open(at, source)
        declared = [match.start() for match in re.finditer(r"\b[a-z]\w*(?= *:)", source)]
        for start in rnd.sample(declared, min(5, len(declared))):
            answer = client.request("textDocument/rename", {**where(at, source, start), "newName": "zz_new"})
            if "error" in answer or answer["result"] is None:
                continue
            edits = spans(source, answer["result"]["changes"][at.as_uri()])

            def accepted(edits):
                text = source
                for begin, end in sorted(edits, reverse=True):
                    text = text[:begin] + "zz_new" + text[end:]
                (room / "renamed.cl").write_text(text)
                return not any(check(words.cool, [room / "renamed.cl"]).values())

            expect("all of %s renamed" % source[slice(*edits[0])], accepted(edits), True)
            if len(edits) > 1:
                expect("all but one of %s" % source[slice(*edits[0])], accepted(rnd.sample(edits, len(edits) - 1)), False)
            compared += len(edits)
        client.close(at)
    client.end()
    return "%d places" % compared


def names_that_cannot_be_given(room, words):
    editor()
    at, client = fill(room / "program", shapes=TEXT) / "shapes.cl", Client(room / "program", words.cool)
    client.open(at, TEXT)

    def refused(word, new):
        return client.request("textDocument/rename", {**where(at, TEXT, TEXT.index(word)), "newName": new})["error"]["message"]

    expect("captured", refused("by :", "side"), "with this name something would mean something else")
    expect("no name", refused("by :", "By")[:6], "a name")
    expect("of a basic class", refused("out_int", "out"), "only what the program defines can be renamed")
    client.end()


TESTS = [names_are_told, names_are_told_beside_a_fault, places_are_highlighted, calls_are_told, forms_are_completed, words_are_completed]
TESTS += [names_are_renamed, names_that_cannot_be_given]
