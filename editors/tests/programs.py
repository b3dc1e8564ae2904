"""Tests which files form one program, by the rule in README.md, and the answers when files are added, removed, or too many."""
import os
import subprocess

from .client import HERE, Client, expect, fill
from .explanations import stand_in

HELLO = 'class Main inherits IO { main() : Object { out_string("a") }; };\n'
USE = "class Main { s : Stack; main() : Object { s.push(true) }; };\n"
STACK = "class Stack { n : Node; push(x : Int) : Object { n }; };\n"
NODE = "class Node { x : Int <- true; };\n"
WRONG, NO_MAIN = (1, "E17", "initial value does not conform"), (1, "C6", "no class Main")
ARGUMENT = (1, "E6", "argument does not conform")


def each_main_is_a_program(room, words):
    """A class Main in each of two files: files without one belong to those that need them."""
    at = fill(room / "each", hello=HELLO, list=USE, stack=STACK, node=NODE, old="class Other { x ! };\n")
    client = Client(at, words.cool)
    expect("hello", client.open(at / "hello.cl", HELLO), [])
    client.open(at / "list.cl", USE)
    client.until("list, and node, which is closed", lambda: (client.faults(at / "list.cl"), client.faults(at / "node.cl")) == ([ARGUMENT], [WRONG]))
    expect("list", client.notes(at / "list.cl"), ["checked with node.cl, which has errors: line 1, E17: initial value does not conform"])
    client.open(at / "node.cl", "class Node { };\n")
    client.until("node, as it is open", lambda: (client.faults(at / "node.cl"), client.notes(at / "list.cl")) == ([], []))
    client.close(at / "node.cl")
    client.until("node, as it is stored", lambda: client.faults(at / "node.cl") == [WRONG])
    client.close(at / "list.cl")
    client.until("no open file needs it", lambda: client.faults(at / "node.cl") == [])
    client.open(at / "old.cl", "class Other { x ! };\n")
    expect("nobody's", client.faults(at / "old.cl"), [(1, "L1", "unknown character")])
    client.change(at / "old.cl", "class Other { x : Int <- true; };\n")
    expect("nobody's", client.faults(at / "old.cl"), [NO_MAIN, WRONG])
    client.end()


def one_main_is_the_folder(room, words):
    at = fill(room / "one", main=HELLO, part="class Part { x : Int <- true; };\n")
    client = Client(at, words.cool)
    expect("part", (client.open(at / "part.cl", (at / "part.cl").read_text()), client.faults(at / "part.cl"))[1], [WRONG])
    client.open(at / "main.cl", HELLO)
    client.change(at / "main.cl", HELLO + "class Part { };")
    client.until("twice", lambda: (client.faults(at / "main.cl"), client.faults(at / "part.cl")) == ([], [(1, "C1", "class defined twice")]))
    text = HELLO + "class Late { x : Part <- 1; };\n"
    for end in range(len(HELLO), len(text)):  # as fast as it goes
        client.change(at / "main.cl", text[:end], wait=False)
    client.change(at / "main.cl", text)
    expect("typed", client.faults(at / "main.cl"), [(2, "E17", "initial value does not conform")])
    client.end()


def a_list_decides(room, words):
    at = fill(room / "listed", main=HELLO, part=NODE, f="")
    (at / "cool.files").write_text("# two programs\nmain.cl 'part.cl' gone.cl\n\nsub/x.cl part.cl 'not closed\n")
    (at / "sub").mkdir()
    client = Client(at, words.cool)
    client.open(at / "main.cl", HELLO)
    expect("main", client.notes(at / "main.cl"), ["gone.cl is missing: the program is checked without it",
                                                  "checked with part.cl, which has errors: line 1, E17: initial value does not conform"])
    client.open(at / "sub" / "x.cl", "class Main { p : Node <- 1; main() : Object { 0 }; };\n")
    expect("x, by a list above", client.faults(at / "sub" / "x.cl"), [WRONG])
    client.open(at / "f.cl", "")
    expect("alone", client.faults(at / "f.cl"), [NO_MAIN])
    (at / "cool.files").write_text("\n")
    client.change(at / "main.cl", HELLO)
    expect("listed nowhere", client.notes(at / "main.cl"), [])
    client.end()


def the_examples_of_the_readme(room, words):
    """Each block of README.md that begins with `$ cool-lsp --files`, in a folder with the files that the block's first lines name."""
    blocks = (HERE / "README.md").read_text().split("\n\n")
    tried = 0
    for block in blocks:
        lines = [line[4:] for line in block.splitlines() if line.startswith("    ")]
        calls = [number for number, line in enumerate(lines) if line.startswith("$ cool-lsp --files ")]
        if calls:
            folder = room / str(tried)
            folder.mkdir()
            for line in lines[: calls[0]]:
                name, _, text = line.partition("  ")
                with open(folder / name, "a") as file:
                    file.write(text.strip() + "\n")
            for number, after in zip(calls, calls[1:] + [len(lines)]):
                call = [HERE / "cool-lsp", *lines[number].split()[2:]]
                said = subprocess.run(call, cwd=folder, stdout=subprocess.PIPE, check=True).stdout.decode().splitlines()
                expect(lines[number], said, lines[number + 1 : after])
                tried += 1
    expect("examples were found", tried > 4, True)
    return "%d examples" % tried


def files_come_and_go(room, words):
    """Without a word of the editor, which may or may not watch files."""
    at = fill(room / "moving", main="class Main { p : Part; main() : Object { 0 }; };\n")
    unknown = (1, "F6", "unknown type")
    for watches in (False, True):
        client = Client(at, words.cool, watches=watches)

        def now(what, wanted):
            if watches:
                client.notify("workspace/didChangeWatchedFiles", {"changes": []})
            client.until(what, lambda: client.faults(at / "main.cl") == wanted)

        client.open(at / "main.cl", (at / "main.cl").read_text())
        expect("alone", client.faults(at / "main.cl"), [unknown])
        (at / "part.cl").write_text("class Part { };\n")
        now("a file appears", [])
        (at / "part.cl").rename(at / "other.cl")
        now("renamed", [])
        (at / "other.cl").rename(at / "other.txt")
        now("gone", [unknown])
        (at / "other.txt").unlink()
        client.end()


def odd_files_beside(room, words):
    """A file that can't be read is missing, and whatever bytes another has are checked."""
    latin = 'class A { s : String <- "caf\xe9"; b : Int <- true; };\n'.encode("latin-1")
    at = fill(room / "odd", main=HELLO, latin=latin, crlf="class B {\r\n  x : Int <- true;\r\n};\r\n")
    (at / "folder.cl").mkdir()
    (at / "dangling.cl").symlink_to("nowhere")
    os.mkfifo(at / "pipe.cl")
    (at / ".hidden.cl").write_text("!")
    places = (0, 2, 13, 14), (1, 1, latin.index(b"b :"), latin.index(b"b :") + 1)
    faults = "".join("fault %d:%d:%d:%d %s: %s\n" % (*place, *WRONG[1:]) for place in places)
    client = Client(at, words.cool, explain=stand_in(room, faults))
    client.open(at / "main.cl", HELLO)
    expect("main", client.notes(at / "main.cl"), [*("%s.cl is missing: the program is checked without it" % name for name in ("dangling", "folder", "pipe")),
                                                  "checked with crlf.cl, which has errors: line 2, E17: initial value does not conform"])
    client.until("crlf", lambda: client.faults(at / "crlf.cl") == [(2, "E17", "initial value does not conform")])
    client.until("latin", lambda: client.faults(at / "latin.cl") == [WRONG])


    def columns():
        found = client.told[(at / "latin.cl").as_uri()][1][0]["range"]
        return found["start"]["character"], found["end"]["character"]

    client.until("a byte that is no UTF-8 has a column", lambda: columns() == (32, 33))
    client.end()


def too_many_and_too_large(room, words):
    at = fill(room / "large", main=HELLO, part=NODE)
    client = Client(at, words.cool)
    client.open(at / "main.cl", HELLO + " " * (2 << 20))
    expect("open", (client.faults(at / "main.cl"), client.notes(at / "main.cl")), ([], ["not checked: the program has more than 1048576 bytes"]))
    client.change(at / "main.cl", HELLO)
    client.until("no more", lambda: client.faults(at / "part.cl") == [WRONG])
    (at / "stored.cl").write_bytes(b" " * (2 << 20))
    client.change(at / "main.cl", HELLO)
    expect("stored", client.notes(at / "main.cl"), ["not checked: the program has more than 1048576 bytes"])
    (at / "stored.cl").write_bytes(b"")
    for number in range(62):
        (at / ("f%d.cl" % number)).write_text("")
    client.change(at / "main.cl", HELLO)
    expect("65", client.notes(at / "main.cl"), ["not checked: the program has 65 files, and 64 are the most (cool.files says which files are one)"])
    (at / "f0.cl").unlink()
    client.change(at / "main.cl", HELLO)
    client.until("64", lambda: client.faults(at / "part.cl") == [WRONG])
    client.change(at / "main.cl", HELLO + " " * (1048576 - len(HELLO) - len(NODE)))
    client.until("as many bytes as there may be", lambda: client.faults(at / "part.cl") == [WRONG])
    client.end()


def a_byte_order_mark(room, words):
    """Editors take it away when they open a file, and put it back when they save it."""
    at = fill(room / "marked", main=b"\xef\xbb\xbf" + HELLO.encode())
    client = Client(at, words.cool)
    client.open(at / "main.cl", HELLO)
    expect("main", client.notes(at / "main.cl"), ["the file is stored with a byte order mark, which the program does not take (L1): save it without"])
    (at / "main.cl").write_text(HELLO)
    client.until("saved without", lambda: client.notes(at / "main.cl") == [])
    client.end()


def columns_are_those_of_utf_16(room, words):
    at = fill(room / "columns")
    text = 'class Main {\r\n  s : String <- "ä𝒙"; t : Int <- true;\r\n  main() : Object { 0 };\r\n};\r\n'
    start = text.encode().index(b"t :")
    client = Client(at, words.cool, explain=stand_in(room, "fault 0:2:%d:%d %s: %s\n" % (start, start + 1, *WRONG[1:])))
    client.open(at / "main.cl", text)
    column = text.split("\r\n")[1].index("t :") + 1  # and one more, since 𝒙 has two
    wanted = {"start": {"line": 1, "character": column}, "end": {"line": 1, "character": column + 1}}
    client.until("range", lambda: client.told[(at / "main.cl").as_uri()][1][0]["range"] == wanted)
    client.end()


TESTS = [each_main_is_a_program, one_main_is_the_folder, a_list_decides, the_examples_of_the_readme, files_come_and_go, odd_files_beside,
         too_many_and_too_large, a_byte_order_mark, columns_are_those_of_utf_16]
