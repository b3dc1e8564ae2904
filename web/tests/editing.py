"""Faults while typing, files, links, what is kept, and the disk."""
import base64
import json
import pathlib
import tempfile
import zlib

from page import ADDRESS, example, same, test

HELLO = 'class Main inherits IO {\n  main() : Object { out_string("Hello\\n") };\n};\n'


@test("opens as a file, with an example")
def opens(page):
    page.open()
    same(page.state(), "no faults")
    same(page.run("return document.querySelectorAll('#paint .keyword').length > 0;"), True)


@test("tells faults as one types, marks their lines, and goes to them")
def types(page):
    page.start(("p.cl", ""))
    page.run("text.focus();")
    page.type("class Main {\nmain() : Int { x };\nn : Int <- true;\n")
    page.run("at('text').setSelectionRange(text.value.length, text.value.length);")
    page.type("};")
    page.checked()
    same(page.faults(), ["line 2: E1: unknown name", "line 3: E17: initial value does not conform"])
    same(page.state(), "2 faults")
    same(page.run("return [...document.querySelectorAll('#gutter .bad')].map((it) => it.textContent);"), ["2", "3"])
    same(page.run("at('faults').querySelectorAll('.fault')[1].click(); return [cursorLine(), document.activeElement.id];"), [3, "text"])
    page.type("n : Int <- 7;")
    page.checked()
    same(page.faults(), ["line 2: E1: unknown name"])
    page.run("at('faults').querySelector('button').click();")
    page.type("  main() : Int { n };")
    page.checked()
    same([page.faults(), page.state()], [[], "no faults"])


@test("keeps the indent, indents by Tab, and lets Tab leave after Escape")
def indents(page):
    page.start(("p.cl", ""))
    page.run("text.focus();")
    page.type("class A {\n")
    same(page.run("return text.value;"), "class A {\n  ")
    page.press("Tab", 9)
    same(page.run("return text.value;"), "class A {\n    ")
    page.press("Tab", 9, modifiers=8)
    same(page.run("return text.value;"), "class A {\n  ")
    page.press("Escape", 27)
    page.press("Tab", 9)
    same(page.run("return document.activeElement === text;"), False)


@test("has several files as one program: added, renamed, removed")
def three_files(page):
    page.start(("main.cl", "class Main inherits IO { main() : Object { out_int((new A).a() + (new B).b()) }; };"))
    for name, text in ("a.cl", "class A { a() : Int { 1 }; };"), ("b é.cl", "class B {\n b() : Int { c }; };"):
        page.click("add-file")
        page.run("document.activeElement.select();")
        page.type(name + "\n")
        page.type(text)
    page.checked()
    same(page.faults(), ["b é.cl:2: E1: unknown name"])
    page.run("showFile(files[0]); at('faults').querySelector('button').click();")
    same(page.run("return [shownFile.name, cursorLine()];"), ["b é.cl", 2])
    page.type(" b() : Int { 41 }; };")
    page.checked()
    same(page.state(), "no faults")
    page.click("run")
    same(page.ended(), "42COOL program successfully executed\n")
    page.run("window.confirm = () => true; showFile(files[1]);")
    page.click("remove-file")
    page.checked()
    same(page.faults(), ["main.cl:1: E11: unknown type"])
    page.click("rename-file")
    page.run("document.activeElement.select();")
    page.type("b é.cl\n")
    same([page.state(), page.run("return fileNames();")], ["There is a file b é.cl already.", ["main.cl", "b é.cl"]])


@test("makes a link that carries the program, and opens it")
def link(page):
    page.start(("a.cl", HELLO), ("é.cl", "-- ü\nclass B { };\n"), input="one\n")
    page.click("link")
    fragment = page.wait("location.hash")
    page.wait("location.protocol !== 'file:' || at('state').textContent.includes('it opens only on this machine')")
    page.run("localStorage.clear();")
    page.open(fragment=fragment)
    same(page.run("return [files.map((it) => [it.name, it.text]), at('input').value];"),
         [[["a.cl", HELLO], ["é.cl", "-- ü\nclass B { };\n"]], "one\n"])


@test("makes a link with the address of a hosted page, if one is given")
def hosted_link(page):
    page.start(("a.cl", HELLO))
    page.run("Object.defineProperty(navigator, 'clipboard', { configurable: true, value: { writeText: async (all) => { window.copied = all; } } });")
    for given, begins in ("https://example.org/cool/#old", "https://example.org/cool/#"), ("javascript:alert(1)", "file:///"), ("", "file:///"):
        page.run(f"window.copied = ''; at('hosted').value = {given!r}; at('hosted').onchange();")
        page.click("link")
        page.wait("copied !== ''")
        same([given, page.run(f"return copied.startsWith({begins!r}) && copied.endsWith(location.hash) && copied === at('made-link').value;")], [given, True])
        same(page.run("return [location.protocol, at('state').textContent.includes('only on this machine')];"), ["file:", begins.startswith("file")])
    page.run("Object.defineProperty(navigator, 'clipboard', { configurable: true, value: undefined }); at('made-link').value = '';")
    page.click("link")
    page.wait("at('options').open && at('made-link').value.startsWith('file:')")
    page.run("at('options').open = false;")


@test("opens no link that is broken, or that would grow without bound")
def bad_links(page):
    def packed(data):
        made = zlib.compressobj(9, zlib.DEFLATED, -15)
        return "#" + base64.urlsafe_b64encode(made.compress(data) + made.flush()).decode().rstrip("=")
    page.start(("p.cl", HELLO))
    for fragment in "#nothing", packed(b"[]"), packed(json.dumps({"files": [{"name": "a", "text": 1}]}).encode()), packed(b" " * (16 << 20)):
        page.run(f"tell(''); location.hash = '{fragment}';")
        page.wait("at('state').textContent === 'this link holds no program'")
        same(page.run("return fileNames();"), ["p.cl"])
    page.open(fragment="#nothing")
    same(page.run("return at('end').textContent;"), "The link of this address holds no program: it may have been cut.")


@test("keeps the program, and the one before it")
def keeps(page):
    page.start(("mine.cl", HELLO))
    page.run("text.focus(); text.setSelectionRange(0, 0);")
    page.type("-- mine\n")
    page.open()
    same(page.run("return files.map((it) => [it.name, it.text]);"), [["mine.cl", "-- mine\n" + HELLO]])
    page.run("openExample('life');")
    page.run("openExample('before');")
    same(page.run("return fileNames();"), ["mine.cl"])


@test("goes on where storage is refused")
def refused(page):
    page.start(("p.cl", HELLO), first="Object.defineProperty(window, 'localStorage', { get() { throw new DOMException('refused', 'SecurityError'); } });")
    page.click("run")
    same(page.ended(), "Hello\nCOOL program successfully executed\n")


@test("says in a line that a browser cannot load the program")
def old(page):
    page.browser.open(ADDRESS, "delete window.DecompressionStream;")
    page.fresh = False
    page.wait("at('state').textContent.startsWith('This browser cannot load the program')")
    same(page.run("return at('run').disabled;"), True)


@test("opens files from the disk and saves them to it")
def disk(page):
    with tempfile.TemporaryDirectory() as name:
        folder = pathlib.Path(name)
        (folder / "a é.cl").write_text(example("stack.cl"))
        (folder / "b.cl").write_bytes("-- ü\r\n".encode("latin-1") + example("brackets.cl").encode())
        page.start(("p.cl", HELLO))
        page.browser.choose("#opened", [str(folder / "a é.cl"), str(folder / "b.cl")])
        page.wait("fileNames().length === 2")
        page.checked()
        same(page.run("return fileNames();"), ["a é.cl", "b.cl"])
        same(page.state(), "no faults")
        page.browser.downloads(str(folder / "saved"))
        page.click("save")
        wanted = {"a é.cl": example("stack.cl"), "b.cl": "-- ü\r\n" + example("brackets.cl")}
        page.until(lambda: {it.name: it.read_bytes().decode() for it in (folder / "saved").glob("*")} == wanted)
