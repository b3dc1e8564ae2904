"""Tests the answers about a place or a file: it compares them with the output of `cool` after the place is changed, or compiled."""
import random
import re
import subprocess

from .client import EXAMPLES, HERE, Client, check, expect, fill
from .edits import place

CASES = HERE.parent / "conformance" / "cases"
BASIC = ("Object", "IO", "Int", "Bool", "String")


def compiled(program, paths):
    """The classes and methods of the assembly, and each class's number of attributes, those that it inherits included; None where there are faults."""
    done = subprocess.run([program, "asm", *paths], stdout=subprocess.PIPE, stderr=subprocess.DEVNULL)
    if done.returncode:
        return None
    text = done.stdout.decode("latin-1")
    classes = {name: [] for name in re.findall(r"(?m)^(\w+)_init:", text) if name not in BASIC}
    for name, method in re.findall(r"(?m)^(\w+)\.(\w+):", text):
        if name in classes:
            classes[name].append(method)
    sizes = {name: int(size) - 3 for name, size in re.findall(r"(?m)^(\w+)_protObj: *\n\s*\.word \d+, (\d+),", text)}
    return classes, sizes


def outlined(client, path, text):
    """The same by the outline of an open file; the parents are read from the text of the classes' heads."""
    classes, own = {}, {}
    for found in client.request("textDocument/documentSymbol", {"textDocument": {"uri": path.as_uri()}})["result"]:
        name, parts = found["name"], found["children"]
        for part in [found, *parts]:
            at, end = (place(text, part["selectionRange"][side]) for side in ("start", "end"))
            expect("the place of a name", text[at:end], part["name"])
        classes[name] = [part["name"] for part in parts if part["kind"] == 6]
        head = text[place(text, found["range"]["start"]) :].split("{")[0]
        own[name] = sum(part["kind"] == 8 for part in parts), (re.sub(r"--.*|(?s:\(\*.*?\*\))", " ", head).split() + ["Object"])[3:4]
    return classes, own


def outlines_are_what_is_compiled(room, words):
    """Compares outlines of the examples, and of some accepted cases, with the compiled code."""
    cases = [path for path in sorted(CASES.glob("*/*.cl")) if len(list(path.parent.glob("*.cl"))) == 1]
    chosen = sorted(EXAMPLES.glob("*.cl")) + (cases if words.edits > 999 else random.Random(words.seed).sample(cases, 40))
    client, compared = Client(room, words.cool), 0
    for path in chosen:
        wanted = compiled(words.cool, [path])
        try:
            text = path.read_bytes().decode()
        except UnicodeDecodeError:
            continue
        if wanted:
            at = room / "one.cl"
            client.open(at, text)
            classes, own = outlined(client, at, text)
            client.close(at)
            expect("classes and methods of %s" % path, classes, wanted[0])
            for name in classes:
                count, parent = own[name]
                inherited = wanted[1][parent[0]] if parent and parent[0] not in BASIC else 0
                expect("attributes of %s of %s" % (name, path), wanted[1][name], count + inherited)
            compared += len(classes)
    client.end()
    return "%d classes" % compared


def outline_of_a_file_with_a_fault(room, words):
    client = Client(room, words.cool)
    client.open(room / "a.cl", "class A { x : Int; };\nclass B { x : ; y : Int; };\nclass C { };\n")
    found = client.request("textDocument/documentSymbol", {"textDocument": {"uri": (room / "a.cl").as_uri()}})["result"]
    expect("before the fault", [symbol["name"] for symbol in found], ["A"])
    client.open(room / "b.cl", "class D { x : Int <- ?; };\n")
    found = client.request("textDocument/documentSymbol", {"textDocument": {"uri": (room / "a.cl").as_uri()}})["result"]
    expect("where a lexical error in another file hides the error", found, [])
    client.end()


def classes_are_found(room, words):
    """All places of a class, renamed, leave an accepted program, and all but one do not; the definition is one of them, and what stands behind `class`."""
    rnd, compared = random.Random(words.seed), 0
    main, stack, bank = ((EXAMPLES / (name + ".cl")).read_text() for name in ("brackets", "stack", "bank"))
    at = fill(room / "program", main=main, stack=stack, bank=re.sub(r"(?ms)^class Main.*?^};", "", bank))
    texts = {path: path.read_text() for path in at.glob("*.cl")}
    client = Client(at, words.cool)
    for path, text in texts.items():
        client.open(path, text)

    def status(places):
        for path, text in texts.items():
            for start, end in sorted((where for other, where in places if other == path), reverse=True):
                text = text[:start] + "Renamed" + text[end:]
            path.write_text(text)
        return any(check(words.cool, sorted(texts)).values())

    def places(method, path, where):
        line = texts[path].count("\n", 0, where)
        position = {"line": line, "character": where - texts[path].rfind("\n", 0, where) - 1}
        found = client.request(method, {"textDocument": {"uri": path.as_uri()}, "position": position})["result"]
        by_uri = {path.as_uri(): path for path in texts}
        return [(by_uri[one["uri"]], tuple(place(texts[by_uri[one["uri"]]], one["range"][side]) for side in ("start", "end"))) for one in found]

    for path, text in texts.items():
        for name, where in [(match[1], match.start(1)) for match in re.finditer(r"(?m)^class (\w+)", text) if match[1] != "Main"]:
            found = places("textDocument/references", path, where)
            other, span = rnd.choice(found)
            expect("definition of " + name, places("textDocument/definition", other, span[0]), [(path, (where, where + len(name)))])
            expect("all of %s renamed" % name, status(found), False)
            found.remove(rnd.choice(found))
            expect("all but one of %s renamed" % name, status(found), bool(found))
            compared += len(found) + 1
    client.end()
    return "%d places" % compared


def a_class_is_renamed(room, words):
    """In all programs that share a file with it, closed ones too; or refused."""
    main = "class Main { s : Stack; main() : Object { new Stack }; };\n"
    at = fill(room / "shared", one=main, two=main, stack="class Stack { n : Node; };\n", node="class Node { s : Stack; (* Stack *) };\n")
    client = Client(at, words.cool)
    client.open(at / "one.cl", main)

    def rename(character, new):
        where = {"textDocument": {"uri": (at / "one.cl").as_uri()}, "position": {"line": 0, "character": character}}
        return client.request("textDocument/rename", {**where, "newName": new})

    changes = rename(19, "Pile")["result"]["changes"]
    wanted = {"one": [(17, 22), (46, 51)], "two": [(17, 22), (46, 51)], "stack": [(6, 11)], "node": [(17, 22)]}
    spans = {uri: [(edit["range"]["start"]["character"], edit["range"]["end"]["character"]) for edit in edits] for uri, edits in changes.items()}
    expect("edits", spans, {(at / (name + ".cl")).as_uri(): places for name, places in wanted.items()})
    refused = ((19, "pile", "the name of a class"), (19, "Node", "Node is named in"), (19, "IO", "the name of a class"),
               (13, "X", ("only classes", "a name is")), (32, "X", "only classes"), (6, "CLass", "the name of a class"))
    for character, new, why in refused:
        expect(new, rename(character, new)["error"]["message"].startswith(why), True)
    (at / "two.cl").write_text(main + '"')
    expect("a lexical fault", "lexical error" in rename(19, "Pile")["error"]["message"], True)
    client.end()


def classes_complete_a_word(room, words):
    at = fill(room / "begun", part="class Stack { };\nclass Store { };\n")
    client = Client(at, words.cool)
    client.open(at / "main.cl", "class Main { s : St; main() : S { s }; (* St *) };\n")

    def offered(character):
        where = {"textDocument": {"uri": (at / "main.cl").as_uri()}, "position": {"line": 0, "character": character}}
        return [item["label"] for item in client.request("textDocument/completion", where)["result"]]

    expect("St", offered(19), ["Stack", "Store", "String"])
    expect("S", offered(31), ["SELF_TYPE", "Stack", "Store", "String"])
    expect("s, a blank, a comment", [offered(14), offered(16), offered(44)], [[], [], []])
    client.end()


TESTS = [outlines_are_what_is_compiled, outline_of_a_file_with_a_fault, classes_are_found, a_class_is_renamed, classes_complete_a_word]
