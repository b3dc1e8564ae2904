"""The explanations that the page shows: from a stand-in that says what the test gives it, and from the program itself."""
import json
import re

from browser import Missing
from page import ROOT, same, test

PROGRAM = 'class Main {\n  e : String <- "é"; n : Int <- true;\n  main() : Int { m };\n};\n'
BYTES = PROGRAM.encode()
CURE = "give a value of the declared class, or of a class below it"
LINES = """fault 0:2:%d:%d E17: initial value does not conform
fact expected `Int`, found Bool
value 0:2:%d
other 0:3:%d
cure %s
mend `1` in the place of `true`
edit 0:%d:%d 1 +\\n2
fault 0:3:%d:%d E1: unknown name
mend `n` is near
edit 0:%d:%d n
""" % (BYTES.index(b"n : Int"), BYTES.index(b"n : Int") + 1, BYTES.index(b"true"), BYTES.index(b"main"), CURE, BYTES.index(b"true"), BYTES.index(b"true") + 4,
       *(BYTES.index(b"m }") + more for more in (0, 1, 0, 1)))


def stand_in(page, lines, *files, status=1, delay=0):
    """The page with these files, and with what says these lines of them after so many milliseconds."""
    page.open()
    page.run(f"""
        window.asked = 0;
        window.lines = {json.dumps(lines)};
        explainModule = "none";
        explainer.run = async (words, all, more) => {{
            asked += 1;
            const said = lines;
            await new Promise((over) => setTimeout(over, {delay}));
            more.pieces([{{ to: 1, bytes: encode(said) }}]);
            return {{ status: {status} }};
        }};
        explainer.stop = () => 0;
    """)
    page.start(*files)
    page.fresh = False


def details(page, number):
    """The items below an error in the list."""
    return page.run(f"return [...at('faults').children[{number}].children].slice(1).map((it) => [it.className, it.textContent]);")


def underlined(page):
    """The texts that are marked in each line as wrong, and as odd."""
    found = """
        const marked = (line, kind) => [...line.querySelectorAll(`.${kind}`)].map((it) => it.textContent).join("");
        return ["wrong", "odd"].map((kind) => [...document.querySelectorAll("#paint .line")].map((it) => marked(it, kind)).filter((it) => it !== ""));
    """
    return page.run(found)


OLD = PROGRAM.split("\n")[1]
CHANGES = "2 - %s\n2 + %s\n3 + %s\n" % (OLD, *OLD.replace("true", "1 +\n2").split("\n"))


@test("shows what explains a fault, marks its range, and puts in the edit that mends it; Ctrl+Z takes it back")
def explained(page):
    stand_in(page, LINES, ("p.cl", PROGRAM))
    same(page.faults(), ["line 2: E17: initial value does not conform", "line 3: E1: unknown name"])
    same(underlined(page), [[it.strip() for it in PROGRAM.split("\n")[1:3]], []])
    page.wait("explanation !== undefined")
    same(details(page, 0), [["fact", "expected Int, found Bool"], ["other", "the value comes from line 2"], ["other", "defined at line 3, too"],
                            ["cure", f"To fix it: {CURE}"], ["fix", "Fix: 1 in the place of true"], ["changes", CHANGES]])
    same(page.run("return at('faults').querySelector('.fix').title.split('\\n\\n');"),
         [PROGRAM.split("\n")[1].replace("true", "1 +\n2"), "Ctrl+Z takes it back"])
    same(underlined(page), [["n", "m"], []])
    same(page.run("at('faults').querySelectorAll('.other')[1].click(); return cursorLine();"), 3)
    page.run("window.lines = ''; at('faults').querySelector('.fix').click();")
    same(page.run("return [text.value, document.activeElement.id];"), [PROGRAM.replace("true", "1 +\n2"), "text"])
    page.checked()
    same(page.faults(), ["line 4: E1: unknown name"])
    same(page.run("return explanation === undefined && [...document.querySelectorAll('.fix')].every((it) => it.disabled);"), True)
    page.press("z", 90, modifiers=2)
    same(page.run("return text.value;"), PROGRAM)
    page.checked()
    same(page.faults(), ["line 2: E17: initial value does not conform", "line 3: E1: unknown name m"])


TWO = '''class Main inherits IO {
  main() : Object { {
    out_string("é")
    out_string("b");
    out_int(1)
    out_int(2);
  } };
};
'''


def lines_of_two():
    """Two statements lack their semicolon. The second error is found once the first one is fixed."""
    first, second, one, two = (TWO.encode().index(part.encode()) for part in ('out_string("b")', "out_int(2)", "\n    out_string(\"b", "\n    out_int(2"))
    lines = ["fault 0:4:%d:%d S1: unexpected token" % (first, first + 10), "fact found `out_string`, after `)`", "mend add `;`"]
    lines += ["edit 0:%d:%d ;" % (one, one), "apply 0:%d:%d ;" % (one, one), "origin 0:%d" % second]
    lines += ["fault 0:6:%d:%d S1: unexpected token" % (second + 1, second + 8), "fact found `out_int`, after `)`"]
    return "\n".join([*lines, "mend add `;`", "edit 0:%d:%d ;" % (two + 1, two + 1), ""])


@test("shows the errors that come after fixes below a heading, with the lines that they come from, and makes all fixes at once")
def after_fixes(page):
    stand_in(page, lines_of_two(), ("p.cl", TWO))
    page.wait("explanation !== undefined")
    same(page.faults(), ["line 4: S1: unexpected token"])
    rows = page.run("return [...at('faults').children].map((it) => [it.className, ...[...it.children].map((part) => part.textContent)]);")
    same([rows[0][3], *rows[1:]], ["Fix: add ;", ["head"], ["", "line 6: S1: unexpected token", "found out_int, after )"],
                                   ["", "Fix all errors that have a fix (2)"]])
    same(page.run("return at('faults').querySelector('.head').textContent;"), "After these fixes")
    same(page.run("at('faults').querySelector('.later').click(); return cursorLine();"), 6)
    page.run("window.lines = ''; [...at('faults').querySelectorAll('.fix')].at(-1).click();")
    fixed = TWO.replace('("é")', '("é");').replace("(1)", "(1);")
    same(page.run("return text.value;"), fixed)
    page.checked()
    same([page.state(), page.faults()], ["no faults", []])
    page.press("z", 90, modifiers=2)
    same(page.run("return text.value;"), TWO)


@test("makes all fixes in several files, and offers two fixes of an error")
def all_of_files(page):
    main, part = "class Main {\n  p : Part;\n  main() : Int { p.ab() };\n};\n", "class Part {\n  a() : Int { xy };\n  b() : Int { 1 };\n};\n"
    call, name = main.index("ab()"), part.index("xy")
    lines = [f"fault 0:3:{call}:{call + 2} E4: unknown method", "mend write `a`", f"edit 0:{call}:{call + 2} a"]
    lines += ["mend write `b`", f"edit 0:{call}:{call + 2} b"]
    lines += [f"fault 1:2:{name}:{name + 2} E1: unknown name", "mend write a number", f"edit 1:{name}:{name + 2} 1", ""]
    stand_in(page, "\n".join(lines), ("main.cl", main), ("part.cl", part))
    page.wait("explanation !== undefined")
    fixes = page.run("return [...at('faults').querySelectorAll('.fix')].map((it) => it.textContent);")
    same(fixes, ["Fix: write a", "Fix: write b", "Fix: write a number", "Fix all errors that have a fix (2)"])
    page.run("window.lines = ''; [...at('faults').querySelectorAll('.fix')].at(-1).click();")
    page.checked()
    same(page.run("return files.map((it) => it.text);"), [main.replace("ab", "a"), part.replace("xy", "1")])
    same(page.state(), "no faults")


@test("keeps what was said of a fault while other lines are edited, and offers its mend when it is said anew")
def kept(page):
    stand_in(page, LINES, ("p.cl", PROGRAM))
    page.wait("explanation !== undefined")
    page.run("window.lines = ''; text.focus(); text.setSelectionRange(text.value.length, text.value.length);")
    page.type("-- more")
    page.checked()
    same([details(page, 0)[0], underlined(page)[0]], [["fact", "expected Int, found Bool"], ["n", "m"]])
    same(page.run("return [...document.querySelectorAll('.fix')].map((it) => it.disabled);"), [True, True, True])
    page.run(f"window.lines = {json.dumps(LINES)};")
    page.type(" ")
    page.wait("explanation !== undefined")
    same(page.run("return [...document.querySelectorAll('.fix')].map((it) => it.disabled);"), [False, False, False])


@test("shows what is legal but likely a mistake quietly, and goes to it")
def notices(page):
    text = "class Main {\n  n : Int;\n  main() : Object { { n = 7; n; } };\n};\n"
    at = text.index("n = 7")
    stand_in(page, f"notice 0:3:{at}:{at + 5} `n` is never used\n", ("p.cl", text), status=0)
    page.wait("explanation !== undefined")
    same([page.faults(), page.state()], [[], "no faults"])
    shown = page.run("return [...at('faults').children].map((it) => [it.className, it.textContent]);")
    same(shown, [["notice", "line 3: n is never used"]])
    same(underlined(page), [[], ["n = 7"]])
    same(page.run("at('faults').querySelector('button').click(); return cursorLine();"), 3)
    page.run("window.lines = '';")
    page.type("  main() : Object { 7 };")
    page.checked()
    page.wait("at('faults').children.length === 0")


@test("offers the edit that a notice suggests only if the program takes it, and shows the line that it changes")
def notice_mends(page):
    page.open()
    if page.run("return typeof COOL_EXPLAIN_MODULE === 'undefined';"):
        raise Missing("there is no explain-module.js")
    text = "class Main {\n  n : Int;\n  main() : Object { { n = LEFT; n; } };\n};\n"
    page.start(("p.cl", text.replace("LEFT", "7")))
    page.wait("explanation?.notices[0]?.mends.length === 1")
    changes = "3 -   main() : Object { { n = 7; n; } };\n3 +   main() : Object { { n <- 7; n; } };\n"
    same(details(page, 0), [["fix", "Fix: write <- to assign"], ["changes", changes]])
    page.run("at('faults').querySelector('.fix').click();")
    page.checked()
    same(page.run("return text.value;"), text.replace("= LEFT", "<- 7"))
    page.start(("p.cl", "class A { };\nclass B { };\nclass Main {\n  a : A;\n  main() : Object { { a = new B; 1; } };\n};\n"))
    page.wait("explanation?.notices.length === 1")
    page.wait("!explainer.runs")
    page.run("await new Promise((over) => setTimeout(over, 50));")
    same(details(page, 0), [])


@test("mends what stands in another file, and what has Windows line ends")
def other_file(page):
    main, part = "class Main {\r\n  p : Part;\r\n  main() : Int { p.x() };\r\n};\r\n", "-- é\r\nclass Part {\r\n};\r\n"
    at, edit = main.index("x()"), len(part.encode()) - len("};\r\n")
    lines = f"fault 1:3:{at}:{at + 1} E4: unknown method\nmend a method\nedit 0:{edit}:{edit}   x() : Int {{ 1 }};\\n\n"
    stand_in(page, lines, ("a.cl", part), ("main.cl", main))
    page.wait("explanation !== undefined")
    page.run("showFile(files[1]); at('faults').querySelector('.fix').click();")
    page.checked()
    same(page.run("return [shownFile.name, text.value];"), ["a.cl", "-- é\nclass Part {\n  x() : Int { 1 };\n};\n"])
    same(page.state(), "no faults")


@test("drops what is said of a text that has changed, and what it cannot read")
def old_answers(page):
    stand_in(page, LINES, ("p.cl", PROGRAM), delay=300)
    page.wait("asked === 1")
    page.run("text.focus(); text.setSelectionRange(0, 0);")
    page.type("\n")
    page.checked()
    page.run("await new Promise((over) => setTimeout(over, 900));")
    same(page.run("return [asked, explanation === undefined];"), [2, True])
    for lines in "nonsense\n", "fault 0:2\n", "fact alone\n", LINES.replace("0:2:", "7:2:"), LINES + LINES:
        stand_in(page, lines, ("p.cl", PROGRAM))
        page.wait("asked === 1")
        page.run("await new Promise((over) => setTimeout(over, 50));")
        same([page.run("return explanation === undefined;"), len(page.faults()), details(page, 0)], [True, 2, []])


@test("has the program itself explain faults, with the cures of docs/faults.md")
def by_the_program(page):
    page.open()
    if page.run("return typeof COOL_EXPLAIN_MODULE === 'undefined';"):
        raise Missing("there is no explain-module.js")
    page.start(("p.cl", PROGRAM))
    page.wait("explanation !== undefined")
    same(underlined(page)[0], ["n", "m"])
    rows = dict(re.findall(r"^\| `(\w\d+): [^`]*` \| .* \| (.*) \|$", (ROOT / "docs/faults.md").read_text(), re.M))
    # An error that has a fix or hints has no general advice.
    same([it["cure"] for it in page.run("return explanation.faults;") if "cure" in it and it["cure"] not in (rows["E17"], rows["E1"])], [])
    page.start(("p.cl", "class Main {\n  main() : Int { let x : Int <- { 1; if true then 1 else \"a\" fi; } in x };\n};\n"))
    page.wait("explanation !== undefined")
    same(page.run("return explanation.faults.map((it) => [it.facts[0], it.values.map(({ line }) => line), it.cure]);"),
         [["expected Int, found Object", [2, 2], rows["E17"]]])
    page.start(("p.cl", "class Main inherits IO {\n  main() : Object { {\n    out_int(3) out_int(4);\n  } };\n};\n"))
    page.wait("explanation !== undefined")
    page.run("at('faults').querySelector('.fix').click();")
    page.checked()
    same(page.state(), "no faults")
