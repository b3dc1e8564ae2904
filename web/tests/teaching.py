"""The page of the rules, the lessons, the view "Why", and the rule under way."""
import json
import pathlib
import re
import urllib.parse

from browser import Missing
from chromium import Chromium
from page import ROOT, same, test

LAST = "COOL program successfully executed\n"
KINDS = re.findall(r"(?m)^\| `([A-Z]\d+): ", (ROOT / "docs" / "faults.md").read_text("utf-8"))
CARDS = sorted(set(re.findall(r"web/rules\.html#([\w-]+)", (ROOT / "docs" / "reading.md").read_text("utf-8"))))
WHY = "[...at('why-room').querySelectorAll(':scope > details > summary')].map((it) => it.textContent)"
BELOW = "[...at('why-room').querySelectorAll(':scope > details > ul > li')].map((it) => (it.querySelector('summary') ?? it).textContent.trim())"
PROGRAM = """class A { f(x : Object, y : A) : SELF_TYPE { self }; };
class B inherits A { };
class C inherits A { };
class Main inherits IO {
  a : A;
  main() : Object {
    let b : A <- new B, s : String <- "é" in {
      a.f(1 + (2), (* two *) new C); -- a comment
      new C@A.f(true, b).f(s, me());
      (if isvoid a then self else new IO fi).out_string("x");
      case a of x : B => x; y : C => y; esac;
      1 = 2;
      a = self;
      a <- b;
    }
  };
  me() : A { a };
};
"""
# By what is at the cursor: the rule with the expression and its type, and below it the parts and what else the rule asks for, by the manual's section 12.
DERIVED = {
    "f(1": ("[Dispatch] a.f(1 + (2), new C) : A", "[Id] a : A", "[Arith] 1 + (2) : Int", "[New] new C : C",
            "M(A, f) = (Object, A) : SELF_TYPE, of class A, line 1", "Int ≤ Object", "C ≤ A", "SELF_TYPE[A/SELF_TYPE] = A"),
    "+": ("[Arith] 1 + (2) : Int", "[Int] 1 : Int", "[Int] 2 : Int"),
    "A.f(true": ("[StaticDispatch] new C@A.f(true, b) : C", "[New] new C : C", "[Bool] true : Bool", "[Id] b : A", "C ≤ A",
                 "M(A, f) = (Object, A) : SELF_TYPE, of class A, line 1", "Bool ≤ Object", "A ≤ A", "SELF_TYPE[C/SELF_TYPE] = C"),
    "me())": ("[Dispatch] me() : A", "[Self] self : SELF_TYPE", "M(Main, me) = () : A, of class Main, line 17"),
    "if": ("[If] if isvoid a then self else new IO fi : IO", "[IsVoid] isvoid a : Bool", "[Self] self : SELF_TYPE", "[New] new IO : IO",
           "SELF_TYPE ⊔ IO = IO  SELF_TYPE ≤ Main ≤ IO"),
    "case": ("[Case] case a of x : B => x; y : C => y; esac : A", "[Id] a : A", "[Id] x : B", "[Id] y : C", "B ⊔ C = A  B ≤ A, C ≤ A"),
    "= 2": ("[Equal] 1 = 2 : Bool", "[Int] 1 : Int", "[Int] 2 : Int"),
    "= self": ("[Equal-Objects] a = self : Bool", "[Id] a : A", "[Self] self : SELF_TYPE"),
    "<- b": ("[Assign] a <- b : A", "[Id] b : A", "O(a) = A, declared in line 5", "A ≤ A"),
    '"é"': ('[String] "é" : String',),
}
# By an expression with an error: the rule that it breaks, and the premise that does not hold.
BROKEN = {
    "if 1 then 2 else 3 fi": "[If] O, M, C ⊢ e₁ : BoolE9", "while 1 loop 2 pool": "[While] O, M, C ⊢ e₁ : BoolE9",
    "self@IO.out_int(out_int(1))": "[StaticDispatch] T₁, …, Tₙ ≤C formals(m)E5 E6",
    "out_int(self@IO.out_int(1))": "[Dispatch] T₁, …, Tₙ ≤C formals(m)E5 E6",
    "let x : Int <- true in x": "[Let-Init] T₂ ≤C T₁E17", "case 1 of x : Z => 1; esac": "[Types of branches] type(D) = D′E11 E12",
    "new Z": "[New] type(D) = TE11", "zz <- 1": "[Assign] O(x) = T₁E1", "zz": "[Id] O(x) = TE1",
    "1 < true": "[Less] O, M, C ⊢ e₁ : IntE14", "let self : Int in 1": "[Let-No-Init] x ≠ selfE10",
}


def show(page, name, fragment=""):
    """Opens another page of this folder."""
    page.fresh = False
    page.browser.open("file://" + urllib.parse.quote(str(ROOT / "web" / name)) + fragment)


def fits(page, within=(390, 740)):
    """Whether the page is no wider than a phone, and whether it is dark as the system is."""
    back = "return getComputedStyle(document.body).backgroundColor;"
    page.browser.size(1280, 800)
    light = page.run(back)
    page.browser.size(*within, dark=True, phone=True)
    found = page.run("return document.documentElement.scrollWidth <= innerWidth;"), page.run(back) != light
    page.browser.size(1280, 800)
    return found


@test("has a card for each error of docs/faults.md, and for each row of docs/reading.md")
def cards(page):
    show(page, "rules.html")
    same(page.run("return [...document.querySelectorAll('.faults li[id]')].map((it) => it.id).sort();"), sorted(KINDS))
    same([it for it in CARDS if not page.run(f"return document.getElementById('{it}') !== null;")], [])


@test("leads from each premise to its error, and from an address to a card")
def links_of_errors(page):
    show(page, "rules.html", "#E9")
    same(page.run("return document.querySelector('.aimed').id;"), "E9")
    same(page.run("return [...document.querySelectorAll('a.fault')].filter((it) => !document.getElementById(it.hash.slice(1))).length;"), 0)
    linked = page.run("return [...new Set([...document.querySelectorAll('a.fault')].map((it) => it.textContent))].sort();")
    same(linked, sorted(it for it in KINDS if it.startswith("E")))


@test("runs the examples of the rules, and checks their errors, as the page tells")
def trials(page):
    show(page, "rules.html")
    said = """
        const all = [...document.querySelectorAll('details.trial')], wrong = [];
        for (const it of all.filter((_, i) => i % 6 === 0)) {
            it.open = true;
            while (!it.querySelector('.said')) await new Promise((go) => setTimeout(go, 5));
            const output = it.querySelector('.said'), told = output.textContent;
            it.querySelector('button').click();
            while (output.textContent === '…' || output.textContent === told && !output.dataset.seen && (output.dataset.seen = '1'))
                await new Promise((go) => setTimeout(go, 20));
            const came = output.textContent;
            if (!came.startsWith(told)) wrong.push([told, came]);
        }
        return [all.length > 60, wrong];"""
    same(page.run(said), [True, []])


@test("finds rules by a word, by keyboard alone")
def finds(page):
    show(page, "rules.html")
    page.run("at('find').focus();")
    page.type("isvoid")
    shown = "[...document.querySelectorAll('main .card')].filter((it) => !it.hidden)"
    same(page.run(f"return {shown}.every((it) => it.textContent.toLowerCase().includes('isvoid')) && {shown}.length > 0;"), True)
    same(page.run("return at('state').textContent.endsWith(' found');"), True)
    page.run("at('find').value = ''; at('find').oninput(); document.querySelector('main .card summary').focus();")
    if not page.run("return document.hasFocus();"):
        raise Missing("a window without focus opens nothing at a key")
    page.press(" ", 32, text=" ")
    page.wait("document.querySelector('main .card summary').parentElement.open")


@test("shows the rules and the lessons on a phone, and in the dark")
def narrow(page):
    for name in "rules.html", "lessons.html":
        show(page, name)
        same((name, *fits(page)), (name, True, True))


@test("prints the rules alone in two columns")
def printed(page):
    if not isinstance(page.browser, Chromium):
        raise Missing("no print style without a printer")
    show(page, "rules.html")
    page.click("bare")
    page.browser.call("Emulation.setEmulatedMedia", media="print")
    same(page.run("return getComputedStyle(at('expressions')).columnCount;"), "2")
    same(page.run("return [...document.querySelectorAll('.card .trial, .card .faults, nav')].every((it) => it.offsetHeight === 0);"), True)
    page.browser.call("Emulation.setEmulatedMedia", media="")


@test("checks the answer to a task, keeps it, and is linked lesson by lesson")
def lessons(page):
    show(page, "lessons.html", "#names-2")
    same(page.run("return document.querySelector('.aimed').id;"), "names-2")
    press = "const card = document.getElementById('%s'); card.querySelector('textarea').value = %s; card.querySelector('button').click();"
    said = "document.getElementById('%s').querySelector('.said').textContent"
    page.run(press % ("names-2", "'611'"))
    page.wait((said % "names-2") + " === 'The program writes something else.'")
    page.run(press % ("names-2", "'612'"))
    page.wait((said % "names-2") + " === 'Correct.'")
    page.run(press % ("first-1", "ALL_LESSONS[0].tasks[0].answer"))
    page.wait((said % "first-1") + " === 'Correct.'")
    show(page, "lessons.html")
    done = "return [...document.querySelectorAll('.done-mark')].filter((it) => it.textContent === 'done').map((it) => it.closest('article').id);"
    same(page.run(done), ["first-1", "names-2"])
    same(page.run("return at('contents').querySelector('li .quiet').textContent;"), "1/2")
    page.run("localStorage.clear();")


def put_cursor(page, before):
    """Puts the cursor before a text that the program has once, as a click does."""
    page.run(f"text.focus(); const at = text.value.indexOf({json.dumps(before)}); text.setSelectionRange(at, at); text.click();")


@test("tells why an expression has its type, without the assembly")
def why(page):
    page.start(("p.cl", PROGRAM))
    page.click("tab-why")
    for before, (head, *below) in DERIVED.items():
        put_cursor(page, before)
        page.wait(f"{WHY}[0] === {json.dumps(head)}")
        same((before, page.run(f"return {BELOW};")), (before, below))
    same(page.run("return [assembled, coded].every((it) => it === undefined);"), True)
    put_cursor(page, "out_string")
    same(page.wait(f"{BELOW}[2]"), "M(IO, out_string)  of a basic class")
    page.run("[...at('why-room').querySelectorAll('p .go')].at(-1).click();")
    same(page.run(f"return {WHY}[0].startsWith('[Block] {{ a.f(1 + (2), new C); new C@A.f');"), True)


@test("tells of an error which premise of which rule fails")
def why_not(page):
    page.start(("p.cl", "class Main { };"))
    page.click("tab-why")
    page.wait("at('why-room').textContent === 'The program has faults.'")
    figures = "[...at('why-room').querySelectorAll('figure')]"
    marked = figures + ".map((it) => ['summary', '.broken'].map((part) => it.querySelector(part).textContent).join(' '))"
    for text, wanted in BROKEN.items():
        page.start(("p.cl", "class Main inherits IO { main() : Object { %s }; };" % text))
        page.click("tab-why")
        page.wait(f"{marked}.join('; ') === {json.dumps(wanted)}")
    page.start(("p.cl", "class Main { n : Int <- true; main() : Object { 0 }; };"))
    page.click("tab-why")
    page.wait(f"{marked}.join('; ') === '[Feature] T ≤C T₁E17'")
    same(page.run("return [...at('why-room').querySelectorAll('.side')].map((it) => it.textContent);"), ["Here: Bool ≤ Int does not hold."])


@test("shows the rule under way with the values of its parts, and steps premise by premise")
def under_way(page):
    text = "class Main inherits IO { f(n : Int) : Int { n * 2 }; main() : Object { let x : Int <- 5 in out_int(f(x) + f(7)) }; };"
    page.start(("p.cl", text))
    page.click("tab-machine")
    page.moved()
    page.wait("at('rule-here').querySelector('h2') !== null")
    here = "[...at('rule-here').querySelectorAll('p .premise.done')].map((it) => it.textContent)"
    seen, rules = [], set()
    for _ in range(60):
        seen += page.run(f"return {here};") or []
        rules.add(page.run("return ['summary', 'p code'].map((it) => at('rule-here').querySelector(it)?.textContent).join(' ');"))
        if not page.run("return at('rule-here').querySelector('h2') !== null;"):
            break
        page.run("[...at('rule-here').querySelectorAll('h2 button')].forEach((it) => it.click());")
        page.moved()
        page.run("await new Promise((shown) => setTimeout(shown, 50));")
    same([it for it in ("5 = Int 5", "x = Int 5", "f(x) = Int 10", "7 = Int 7", "f(7) = Int 14", "f(x) + f(7) = Int 24") if it not in seen], [])
    same([it for it in ("[Self] self", "[Id] x", "[Add] f(x) + f(7)", "[Int] 7") if it not in rules], [])
    same(page.text("so-far"), "24")


def pictures(page, folder):
    """The page of the rules and the lessons, at three widths, light and dark."""
    folder = pathlib.Path(folder)
    for name in "rules.html#form-conditional", "lessons.html#loops":
        show(page, *[it if i == 0 else "#" + it for i, it in enumerate(name.split("#"))])
        for width, height in (1280, 800), (768, 1000), (390, 800):
            for dark in False, True:
                page.browser.size(width, height, dark=dark, phone=width < 500)
                page.run("await new Promise((shown) => setTimeout(shown, 200)); document.querySelector('.aimed')?.scrollIntoView();")
                page.browser.picture(folder / ("%s-%d%s.png" % (name.split(".")[0], width, "-dark" if dark else "")))
    page.browser.size(1280, 800)
