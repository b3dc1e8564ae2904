"""Tests the hover that says why an expression has its type, and which premise fails at an error: the expected texts were worked out by hand."""
import re

from .client import Client, expect, fill
from .explanations import hover, real
from .names import editor

TEXT = """class A { f(x : Object, y : A) : SELF_TYPE { self }; };
class B inherits A { };
class Main inherits IO {
  a : A;
  main() : Object { {
    -- é
    a.f(1 + (2), (* two *) new B);
    new B@A.f(true, a).f("`", me());
    if isvoid a then new B else new IO fi;
    a <- new B;
  } };
  me() : A { a };
};
"""
# By what is at the cursor: the expression with its type and the rule, and a line for each part, and for what else the rule asks for.
DERIVED = {
    "f(1": ["`a.f(1 + (2), new B) : A` by the rule **Dispatch**", "- `a : A`", "- `1 + (2) : Int`", "- `new B : B`",
            "- `M(A, f) = (Object, A) : SELF_TYPE`, of class A, line 1", "- `Int ≤ Object`", "- `B ≤ A`", "- `SELF_TYPE[A/SELF_TYPE] = A`"],
    "1 +": ["`1 : Int` by the rule **Int**"],
    "+": ["`1 + (2) : Int` by the rule **Arith**", "- `1 : Int`", "- `2 : Int`"],
    "A.f": ["`new B@A.f(true, a) : B` by the rule **StaticDispatch**", "- `new B : B`", "- `true : Bool`", "- `a : A`", "- `B ≤ A`",
            "- `M(A, f) = (Object, A) : SELF_TYPE`, of class A, line 1", "- `Bool ≤ Object`", "- `A ≤ A`", "- `SELF_TYPE[B/SELF_TYPE] = B`"],
    '"`"': ['`` "`" : String `` by the rule **String**'],
    "me()": ["`me() : A` by the rule **Dispatch**", "- `self : SELF_TYPE`", "- `M(Main, me) = () : A`, of class Main, line 12"],
    "if": ["`if isvoid a then new B else new IO fi : Object` by the rule **If**", "- `isvoid a : Bool`", "- `new B : B`", "- `new IO : IO`",
           "- `B ⊔ IO = Object`, B ≤ A ≤ Object, IO ≤ Object"],
    "<- new": ["`a <- new B : B` by the rule **Assign**", "- `new B : B`", "- `O(a) = A`, declared in line 4", "- `B ≤ A`"],
    "a };": ["`a : A` by the rule **Id**", "- `O(a) = A`, declared in line 4"],
}
# By an expression with an error: where it is in it, the rule, and the premise that does not hold.
BROKEN = {
    "if 1 then 2 else 3 fi": ("1", "If", "O, M, C ⊢ e₁ : Bool"), "while 1 loop 2 pool": ("1", "While", "O, M, C ⊢ e₁ : Bool"),
    "self@IO.out_int(true)": ("true", "StaticDispatch", "T₁, …, Tₙ ≤ formals(m)"),
    "out_int(self@IO.out_int(1))": ("out_int(1", "Dispatch", "T₁, …, Tₙ ≤ formals(m)"),
    "let x : Int <- true in x": ("x", "Let-Init", "T₂ ≤ T₁"), "case 1 of x : Z => 1; esac": ("Z", "Types of branches", "type(D) = D′"),
    "zz <- 1": ("zz", "Assign", "O(x) = T₁"), "new Z": ("Z", "New", "type(D) = T"), "not 1": ("not", "Not", "O, M, C ⊢ e : Bool"),
}


def at(text, where):
    """The position of a place in a text."""
    return {"line": text.count("\n", 0, where), "character": where - text.rfind("\n", 0, where) - 1}


def types_are_derived(room, words):
    editor()
    path, client = fill(room / "program", main=TEXT) / "main.cl", Client(room / "program", words.cool)
    client.open(path, TEXT)
    for before, wanted in DERIVED.items():
        said = hover(client, path, at(TEXT, TEXT.index(before)))
        expect(before, re.sub(r"^```.*?```\n\n", "", said, flags=re.S).replace("\n\n", "\n").split("\n"), wanted)
    expect("beside a name", "```cool\nme() : A\n```\n\n`me() : A` by the rule" in hover(client, path, at(TEXT, TEXT.index("me()"))), True)
    expect("outside of expressions", hover(client, path, at(TEXT, TEXT.index("inherits"))), None)
    client.end()


def types_are_derived_without_main(room, words):
    """Also of classes of which no program is there yet, and of two files."""
    editor()
    at_ = fill(room / "program", one="class One { two : Two; f() : Int { two.g() }; };\n", two="class Two {\n  g() : Int { 2 };\n};\n")
    client, text = Client(at_, words.cool), (at_ / "one.cl").read_text()
    client.open(at_ / "one.cl", text)
    expect("lines", hover(client, at_ / "one.cl", at(text, text.index(".g"))).split("\n")[-2:],
           ["- `two : Two`", "- `M(Two, g) = () : Int`, of class Two, line 2 of two.cl"])
    client.end()


def broken_rules_are_told(room, words):
    editor()
    path, client = room / "main.cl", Client(room, words.cool, explain=real())
    for expression, (before, rule, premise) in BROKEN.items():
        text = "class Main inherits IO { main() : Object { %s }; };\n" % expression
        client.open(path, text)
        said = hover(client, path, at(text, text.index(expression) + expression.index(before)))
        expect(expression, re.findall(r"The rule \*\*(.*?)\*\*|^- `(.*)` does not hold$", said, re.M), [(rule, ""), ("", premise)])
        client.close(path)
    text = "class Main { n : Int <- true; main() : Object { 0 }; };\n"
    client.open(path, text)
    said = hover(client, path, at(text, text.index("n :"))).split("\n\n")
    expect("of an attribute", [it for it in said if it.startswith(("The rule", "Here"))][0].startswith("The rule **Feature**"), True)
    expect("here", said[-1], "Here `Bool ≤ Int` does not hold.")
    client.end()


TESTS = [types_are_derived, types_are_derived_without_main, broken_rules_are_told]
