"""The machine. Expected values stand in docs/debugger.md and docs/runtime.md, or come from `debug` itself."""
from browser import Missing
from page import example, same, test

TWO = ("p.cl", "class Main {\n  f(a : Int, b : Int) : Int {\n    a + b\n  };\n  main() : Object {\n    f(1, 2)\n  };\n};\n")


def debugs(page, *files, input=""):
    page.start(*files, input=input)
    page.run("machine.labels.clear(); machine.open = new Set(['0.self']);")
    page.click("tab-machine")
    page.moved()


def register(page, name):
    return page.run(f"return hex(machine.state.registers.{name});")


def frames(page):
    """Each frame as its method, its line, and its entries as the page shows them."""
    return page.run("""
        const words = (one) => `${one.querySelector('.name').textContent} = ${one.querySelector('.name + span').textContent}`;
        const line = (it) => Number(it.lastChild.textContent.split(':')[1]);
        const entries = (it) => [...it.nextSibling.querySelectorAll('li')].map(words);
        return [...at('frames').querySelectorAll('h3')].map((it) => [it.firstChild.textContent, line(it), entries(it)]);
    """)


def sample(page):
    debugs(page, ("average.cl", example("average.cl")))


@test("folds the machine until it is asked for, and says by the field's words how to move")
def folded(page):
    sample(page)
    same(page.run("return [at('inside').open, at('registers').checkVisibility(), at('frames').checkVisibility()];"), [False, False, True])
    same(page.run("return [...at('go-on').parentNode.children].map((it) => it.textContent);"),
         ["Continue", "Step over", "Step into", "Step out", "Step back", "Undo", "Restart"])
    page.run("at('inside').firstElementChild.click();")
    same(page.run("return [at('inside').open, at('registers').checkVisibility()];"), [True, True])
    page.run("at('inside').open = false;")


@test("stops at a label, with the registers and objects that docs/debugger.md tells")
def label(page):
    sample(page)
    page.run("at('label').value = 'Numbers.average';")
    page.click("add-break")
    same(page.moved("go-on"), "At line 14 of average.cl, in Numbers.average, after 346 instructions.")
    same([register(page, it) for it in ("pc", "zero", "at", "v0", "v1", "a0")], ["0x004008c4"] + ["0x00000000"] * 4 + ["0x20000014"])
    lines = page.run("return [...at('registers').children].map((it) => it.textContent);")
    same([it for it in lines if it.startswith("$a0")], ["$a0   20000014  Numbers#1"])
    same(frames(page)[0], ["Numbers.average", 14, ["self = Numbers#1", "sum = Int 12", "count = Int 0"]])


@test("shows memory at an address, a label and a register, and the code around pc")
def memory(page):
    sample(page)
    page.moved("into")
    page.run("at('count').value = 346 - machine.state.steps;")
    page.moved("step")
    for address, line in ("0x20000020", "0x20000020  20000054"), ("0x20000060", "0x20000060  0000000c"), ("$a0 + 16", "0x20000024  1000016c"):
        page.run(f"at('address').value = '{address}'; at('address').onchange();")
        page.moved()
        same(page.text("memory")[:20], line)
    same(page.run("return at('code').querySelector('.here').firstChild.textContent;"), "  004008c4  addiu $sp, $sp, -12")


@test("steps on and back, and marks what changed")
def back(page):
    sample(page)
    same(page.text("where"), "At line 19 of average.cl, in Main.main, after 62 instructions.")
    page.run("at('count').value = 62;")
    page.moved("back")
    same(register(page, "pc"), "0x00400000")
    page.run("at('count').value = 1;")
    page.moved("step")
    same(register(page, "pc"), "0x00400004")
    page.run("at('count').value = 99;")
    page.moved("step")
    there = page.run("return machine.state.registers;")
    page.run("at('count').value = 1;")
    page.moved("step")
    changed = page.run("return [...at('registers').querySelectorAll('.changed')].map((it) => it.firstChild.textContent.trim());")
    now = page.run("return machine.state.registers;")
    same(changed, [it if it == "pc" else "$" + it for it in now if now[it] != there[it]])
    page.moved("back")
    same(page.run("return machine.state.registers;"), there)
    page.moved("previous")
    same(page.run("return machine.state.steps;"), 101)


@test("shows the frame of the example of docs/runtime.md")
def frame(page):
    debugs(page, TWO)
    page.run("at('label').value = 'Main.f';")
    page.click("add-break")
    page.moved("go-on")
    entering = [["Main.f", 3, ["self = Main#1", "a = Int 1", "b = Int 2"]], ["Main.main", 6, ["self = Main#1"]]]
    same(frames(page), entering)
    page.moved("step")
    same(frames(page), entering)
    page.run("at('count').value = 8;")
    page.moved("step")
    same([register(page, "fp"), register(page, "sp")], ["0x7fffffe0", "0x7fffffe0"])
    page.run("at('address').value = '$fp'; at('address').onchange();")
    page.moved()
    words = page.run("return Array.from({ length: 5 }, (_, i) => hex(machine.state.peek(0x7fffffe0 + 4 * i)));")
    same(words, ["0x20000004", "0x7ffffff4", "0x00400888", "0x1000037c", "0x10000368"])
    same(frames(page), entering)


@test("names what a method keeps on the stack: variables, left operands, arguments")
def variables(page):
    debugs(page, ("p.cl", """class Main {
  g(x : Int) : Int { x };
  f(o : Object, p : Int) : Int {
    let s : String <- "é", k : Int in
      case o of
        all : Object => 0;
        i : Int => k + (1 + g(p * 2) * 3);
      esac
  };
  main() : Object { f(7, 5) };
};
"""))
    page.run("at('label').value = 'Main.g';")
    page.click("add-break")
    page.moved("go-on")
    same(frames(page)[1][:2], ["Main.f", 7])
    named = ["self = Main#1", "o = Int 7", "p = Int 5", 's = "é"', "k = Int 0", "i = Int 7"]
    same(frames(page)[1][2], named + ["left of + = Int 0", "left of + = Int 1"])


@test("goes by lines: over calls, into them, out of them, and to breaks at lines")
def lines(page):
    sample(page)

    def line(button):
        words = page.moved(button)
        return words.split(",")[0]
    error = "Ends by an error: division by zero"
    same([line("over") for _ in range(4)], [f"At line {it} of average.cl" for it in (20, 21, 22)] + [error])
    same([line("line-back") for _ in range(5)], [f"At line {it} of average.cl" for it in (14, 22, 21, 20, 19)])
    same([line("line-back"), line("go-on"), line("over")], ["At line 19 of average.cl", error, "The run has ended after 387 instructions."])
    page.moved("restart")
    same([line(it) for it in ("into", "into", "into", "out")], [f"At line {it} of average.cl" for it in (20, 9, 10, 21)])
    page.run("toggleBreak(8); toggleBreak(14);")
    page.moved("restart")
    same([line("go-on") for _ in range(4)], [f"At line {it} of average.cl" for it in (9, 9, 14)] + [error])
    same(page.run("return [...document.querySelectorAll('#gutter .here')].map((it) => it.textContent);"), ["14"])


@test("stops at each of many calls that a line makes, and passes over those of others")
def recursion(page):
    debugs(page, ("p.cl", """class Main {
  fib(n : Int) : Int {
    if n < 2 then n else
      fib(n - 1)
      + fib(n - 2)
    fi
  };
  main() : Object {{
    fib(12);
    fib(1);
    1 + 1;
  }};
};
"""))
    same([page.moved("over").split(",")[0] for _ in range(2)], ["At line 10 of p.cl", "At line 11 of p.cl"])
    page.moved("restart")
    page.run("toggleBreak(4);")
    same([page.moved("go-on").split(",")[0] for _ in range(3)], ["At line 4 of p.cl"] * 3)
    same([it[0] for it in frames(page)], ["Main.fib", "Main.fib", "Main.fib", "Main.main"])
    page.run("toggleBreak(4); toggleBreak(10);")
    same(page.moved("go-on").split(",")[0], "At line 10 of p.cl")


@test("breaks at methods without a call or an operation, goes from initial values to main, and stops before abort")
def edges(page):
    debugs(page, ("p.cl", """class Main {
  count : Int <- 1 + 2;
  get() : Int {
    count
  };
  main() : Object {{
    get();
    abort();
  }};
};
"""))
    same(page.moved("over").split(",")[0], "At line 8 of p.cl")
    same(page.moved("over").split(",")[:2], ["Ends by an error: abort called", " line 8 of p.cl"])
    page.moved("restart")
    page.run("toggleBreak(4);")
    same(page.moved("go-on").split(",")[1], " in Main.get")
    page.run("at('slider').value = 0; at('slider').oninput();")
    page.moved()
    same([page.moved(it).split(",")[0] for it in ("into", "over")], ["At line 2 of p.cl", "At line 7 of p.cl"])


@test("goes back in a run of a million instructions")
def far(page):
    debugs(page, ("life.cl", "class Main { main() : Object { let i : Int in while i < 60000 loop i <- i + 1 pool }; };"))
    begun = page.run("return machine.state.steps;")
    page.run("at('count').value = 1000000;")
    page.moved("step")
    page.run("at('count').value = 1;")
    page.moved("back")
    same(page.run("return machine.state.steps;") - begun, 999999)


@test("uses the addresses that the machine has: of all labels of the examples")
def addresses(page):
    for name in "life.cl", "interpreter.cl":
        debugs(page, (name, example(name)))
        wrong = page.run("""
            const { listing } = machine;
            const labels = [...listing.labels].filter(([, address]) => address < DATA_START && listing.rowAt.has(address));
            const { notes } = await debug(labels.map(([label]) => `list ${label} 1`), labels.length);
            const data = [...listing.labels].filter(([label]) => /_protObj$|^(int|str|bool)_const|^__(name|length|default)/.test(label));
            const { notes: words } = await debug(data.flatMap(([, at]) => [`show ${hex(at - 4)}`, `show ${hex(at + 8)}`]), 2 * data.length);
            const tables = new Set([...listing.labels].filter(([label]) => label.endsWith('_dispTab')).map(([, at]) => at));
            const isObject = (i) => words[2 * i].endsWith('0xffffffff') && tables.has(parseInt(words[2 * i + 1].slice(14), 16));
            const elsewhere = labels.filter(([, at], i) => parseInt(notes[i].slice(2), 16) !== at);
            return [labels.length > 90, data.length > 40, elsewhere, data.filter((_, i) => !isObject(i))];
        """)
        same(wrong, [True, True, [], []])


@test("gives a debugged program its input, and shows its output so far")
def talks(page):
    text = 'class Main inherits IO { main() : Object {{\n out_string(in_string());\n out_string("!");\n out_int(in_int());\n}}; };'
    debugs(page, ("p.cl", text), input="Ada\n7\n")
    page.run("toggleBreak(4);")
    page.moved("go-on")
    same(page.text("so-far"), "Ada!")
    page.run("toggleBreak(4);")
    same(page.moved("go-on").split(" after")[0], "The run has ended")
    same(page.text("so-far"), "Ada!7COOL program successfully executed\n")


@test("stops a move that does not end, and begins anew when the program changes")
def stopped(page):
    debugs(page, ("p.cl", "class Main { main() : Object { while true loop 1 pool }; };"))
    page.run("at('steps').value = 1e15;")
    page.click("go-on")
    page.wait("debugged.runs")
    page.press("Escape", 27)
    same(page.moved(), "stopped")
    page.run("at('steps').value = 1000;")
    same(page.moved("go-on"), "The step limit is reached after 1,000 instructions.")
    page.run("text.focus(); text.select();")
    page.type("class Main { main() : Int { 1 }; };")
    page.checked()
    same(page.moved("go-on").split(" after")[0], "The run has ended")


EVERY = """class Main inherits IO {
  total : Int;
  main() : Object {
    let i : Int <- 2,
        last : Int in {
      while 0 < i loop {
        total <-
          total + i;
        if i = 1 then
          last <- i
        else
          out_string(
            "more\\n")
        fi;
        i <- i - 1;
      } pool;
      case self of
        o : Object => abort();
        m : Main =>
          m;
      esac;
    }
  };
};
"""


@test("stops at each line on which an expression begins, onwards and backwards")
def every_line(page):
    debugs(page, ("p.cl", EVERY))
    passed = [4, 5, 6, 7, 8, 9, 12, 15, 6, 7, 8, 9, 10, 15, 6, 17, 20]
    seen = [page.run("return [placeShown().line, machine.state.steps];")]
    while "has ended" not in page.moved("over"):
        seen.append(page.run("return [placeShown().line, machine.state.steps];"))
    same([line for line, _ in seen], passed)
    page.moved("previous")
    back = [seen[-1]]
    for _ in passed[1:]:
        page.moved("line-back")
        back.append(page.run("return [placeShown().line, machine.state.steps];"))
    same(back, seen[::-1])


@test("leads from an error of a run to the machine, where all that led to it is in place, and stays at its line when it ends")
def from_error(page):
    page.start(("average.cl", example("average.cl")))
    page.click("run")
    page.ended()
    page.run("[...at('end').querySelectorAll('button')].find((it) => it.textContent === 'Look in the debugger').click();")
    page.wait("!machine.moves && machine.state?.steps === 370")
    same(page.text("where"), "Ends by an error: division by zero, line 14 of average.cl, after 370 instructions.")
    same(page.run("return at('said').hidden;"), True)
    code = page.text("code")
    same([page.moved("go-on"), page.text("so-far")], ["The run has ended after 387 instructions.", "average.cl:14: Division by zero.\n"])
    same([page.text("code") == code, page.run("return marks.here;")], [True, 14])


@test("marks where a break stops, within its method")
def where_breaks_stop(page):
    debugs(page, ("p.cl", EVERY + "class Other {\n  x : Int;\n\n  f() : Int {\n    -- before\n    x\n  };\n};\n"))
    page.run("[2, 3, 13, 14, 21, 23, 28, 32].forEach(toggleBreak);")
    words = page.run("return [...at('breaks').children].map((it) => it.textContent);")
    same(words, ["p.cl:2 → 4 ×", "p.cl:3 → 4 ×", "p.cl:13 → 12 ×", "p.cl:14 → 15 ×", "p.cl:21 → 20 ×", "p.cl:23 → 20 ×", "p.cl:28 → 30 ×", "p.cl:32 ×"])
    page.run("text.scrollTop = 0; paint();")
    shown = page.run("return [...document.querySelectorAll('#gutter .stop')].map((it) => [it.textContent, it.title]);")
    same(shown, [["4", "The break at line 2 stops here"], ["12", "The break at line 13 stops here"], ["15", "The break at line 14 stops here"],
                 ["20", "The break at line 21 stops here"], ["30", "The break at line 28 stops here"]])
    same(page.run("return [...document.querySelectorAll('#gutter .break')].find((it) => it.textContent === '32').title;"), "The break here never stops")


COUNTS = """class Node {
  next : Node;
  value : Int;
  with(n : Node, v : Int) : Node {{ next <- n; value <- v; self; }};
};
class Main {
  count : Int;
  main() : Object {
    let list : Node in
      while count < 6 loop {
        count <- count + 1;
        list <- (new Node).with(list, count);
        self;
      } pool
  };
};
"""
LAST = 13


def condition(page, words):
    """Writes the condition of the break that the page shows first, and answers whether it is marked as wrong."""
    page.run(f"const field = at('breaks').querySelector('input'); field.value = {words!r}; field.oninput();")
    return page.run("return at('breaks').querySelector('input').getAttribute('aria-invalid') === 'true';")


@test("stops at a break only where its condition holds, and says why one cannot be told")
def conditions(page):
    debugs(page, ("p.cl", COUNTS))
    page.run(f"toggleBreak({LAST}); machine.watched = ['count'];")
    page.wait("at('breaks').querySelector('input') !== null")
    stops = {"count = 3": [3], "4 < count": [5, 6], "not count <= 5": [6], "list.value = 2 * 2": [4], "isvoid list.next": [1],
             "count / 2 = 1": [2, 3]}
    for words, values in {**stops, "": list(range(1, 7))}.items():
        same(condition(page, words), False)
        page.moved("restart")
        seen = []
        while not page.moved("go-on").startswith("The run has ended"):
            same(page.text("where").split(",")[0], f"At line {LAST} of p.cl")
            seen.append(int(watched(page)[0].split("Int ")[1]))
        same([words, seen], [words, values])
    wrong = ("m = 1", False, "m is no variable here."), ("count", False, "1 is no Bool."), ("f(1)", True, "no calls."), ("count =", True, "no calls.")
    for words, is_wrong, why in wrong:
        same(condition(page, words), is_wrong)
        page.moved("restart")
        said = page.moved("go-on")
        same([said.split(" instructions. ")[1].split(" has no value")[0], said.endswith(why)], [f'It stops since the condition "{words}"', True])
    page.run("shownFile.breaks.clear(); machine.watched = []; showBreaks();")


def watched(page):
    page.wait("!machine.moves")
    return page.run("return [...at('watches').children].map((it) => it.textContent.replace(/ ×$/, ''));")


@test("watches expressions over names in scope, without calls, at each stop")
def watches(page):
    debugs(page, ("p.cl", COUNTS))
    page.run(f"toggleBreak({LAST});")
    for words in "count + 1", "isvoid list", "list", "list.value * 10 < 25", "with(1)":
        page.run(f"at('watch').value = {words!r}; at('add-watch').requestSubmit();")
        page.moved()
    first = ["count + 1 = Int 1", "isvoid list = list is no variable here", "list = list is no variable here"]
    same(watched(page)[:3], first)
    page.moved("go-on")
    page.moved("go-on")
    unread = "it cannot be read: write names, constants and operators, as count + 1 or isvoid self.next; no calls"
    same(watched(page), ["count + 1 = Int 3", "isvoid list = false", "▸list = Node#2", "list.value * 10 < 25 = true", f"with(1) = {unread}"])
    page.run("at('watches').querySelector('[aria-expanded]').click();")
    same(watched(page)[2], "▾list = Node#2 ×▸next = Node#1value = Int 2")
    page.run("[...at('watches').querySelectorAll('.remove')].slice(1).forEach((it) => removeWatch({ target: it }));")
    same(watched(page), ["count + 1 = Int 3"])
    page.moved("go-on")
    same([watched(page), page.run("return at('watches').querySelector('.changed').textContent;")], [["count + 1 = Int 4"], "Int 4"])


@test("asks in place for each line that the program reads, and goes on with the move")
def reads(page):
    text = "class Main inherits IO {\n  main() : Object {\n    let n : Int <- in_int() in\n      out_string(in_string())\n        .out_int(n)\n  };\n};\n"
    debugs(page, ("p.cl", text), input="7")
    same(page.text("where"), "At line 3 of p.cl, in Main.main, after 62 instructions.")
    same([page.moved("over").split(",")[0], page.run("return at('read').hidden;")], ["At line 4 of p.cl", True])
    same(page.moved("go-on").split(",")[0], "The program reads a line at line 4 of p.cl")
    same(page.run("return [at('read').hidden, document.activeElement.id];"), [False, "read-line"])
    same(page.moved("over").split(",")[0], "The program reads a line at line 4 of p.cl")
    page.type("Ada\n")
    same([page.moved().split(",")[0], page.run("return at('read').hidden;")], ["At line 5 of p.cl", True])
    same([page.moved("go-on").split(" after")[0], page.text("so-far")], ["The run has ended", "Ada7COOL program successfully executed\n"])
    page.moved("restart")
    page.moved("go-on")
    page.click("read-end")
    same([page.moved().split(" after")[0], page.text("so-far")], ["The run has ended", "7COOL program successfully executed\n"])


@test("shows any state of the run by the slider, and names an object the same in all of them")
def slider(page):
    debugs(page, ("p.cl", "class A {\n  other : A;\n  with(a : A) : A {{\n    other <- a;\n    self;\n  }};\n};\nclass Main {\n  main() : Object {\n"
                          "    let one : A <- new A,\n        two : A <- (new A).with(one) in\n      one.with(two)\n  };\n};\n"))
    last = page.run("return Number(at('slider').max);")
    same(page.text("of-steps"), f"{page.run('return machine.state.steps;')} of {last}")
    page.run(f"at('slider').value = {last}; at('slider').oninput();")
    same(page.moved(), f"The run has ended after {last} instructions.")
    page.run("at('slider').value = 0; at('slider').oninput();")
    page.moved()
    same(register(page, "pc"), "0x00400000")
    page.run("toggleBreak(5);")
    page.moved("go-on")
    page.moved("go-on")
    one, two = (it.split(" = ")[1] for it in frames(page)[1][2][-2:])
    same({one, two}, {"A#1", "A#2"})
    same(frames(page)[0][2], [f"self = {one}", f"other = {two}", f"a = {two}"])
    page.moved("line-back")
    page.moved("line-back")
    same(frames(page)[0][2][1:], [f"one = {one}", f"two = {two}"])


@test("tells objects apart where another line was typed, and others stand in their places")
def other_objects(page):
    debugs(page, ("p.cl", "class A { };\nclass B { };\nclass Main inherits IO {\n  main() : Object {\n"
                          "    let one : Object <- if in_int() = 1 then new A else new B fi,\n        two : B <- new B in\n"
                          "      out_int(1)\n  };\n};\n"))
    page.run("toggleBreak(7);")
    for line, objects in ("1", ["one = A#1", "two = B#1"]), ("2", ["one = B#2", "two = B#1"]):
        page.moved("restart")
        page.moved("go-on")
        page.type(f"{line}\n")
        same([page.moved().split(",")[0], frames(page)[0][2][1:]], ["At line 7 of p.cl", objects])


@test("leads from a line to its code, and from code to its line")
def code_and_lines(page):
    sample(page)
    rows = page.run("return [...at('code').querySelectorAll('.row')].map((it) => [it.dataset.line, it.className]);")
    same(sorted({line for line, _ in rows}), ["18", "19", "20", "21", "22"])
    same(len({kind.replace("here ", "") for _, kind in rows}), 5)
    page.run("const row = at('code').querySelector('[data-line=\"21\"]'); row.dispatchEvent(new PointerEvent('pointerover', { bubbles: true }));")
    same(page.run("return [...document.querySelectorAll('#paint .lit')].map((it) => it.textContent.trim());"), ["numbers.add(8);"])
    page.run("at('code').querySelector('[data-line=\"22\"]').click();")
    same(page.run("return cursorLine();"), 22)
    click = "text.dispatchEvent(new MouseEvent('click', { clientY: text.getBoundingClientRect().top + 8 + 20 * (LINE - 1) + 10 - text.scrollTop }));"
    page.run(click.replace("LINE", "10"))
    same(page.run("return [...new Set([...at('code').querySelectorAll('.lit')].map((it) => it.dataset.line))];"), ["10"])
    same(page.run("return at('code').querySelector('.label').textContent;"), "Numbers.add:")


@test("colours the assembly by lines, and leads from a line to its code and back")
def assembly_and_lines(page):
    page.start(("average.cl", example("average.cl")))
    page.click("tab-assembly")
    if page.run("return !canColour;"):
        raise Missing("this browser colours no ranges of a text")
    page.wait("shownCode !== undefined")
    page.run("text.scrollTop = 0; lightUp({ file: 'average.cl', line: 14 }); showAssemblyOfLine(light);")
    lit = page.run("return [...litCode].map((it) => at('lines').textContent.slice(it.startOffset, it.endOffset).trim());")
    same([it for it in lit if it.startswith(("lw $a0", "div"))], ["lw $a0, 12($s0)", "lw $a0, 16($s0)", "div $t3, $t4"])
    place = "const it = at('lines').getBoundingClientRect(); const place = lineAtAssembly({ clientX: it.left + 90, clientY: it.top + 4.5 * 20 });"
    same(page.run(place + " return place.line;"), 14)
    page.run("text.focus();")
    page.click("tab-console")
