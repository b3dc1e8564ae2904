"""Runs: output, input, stop, limits, the rules beside compiled code, and programs that are deep or never end."""
import time

from page import example, same, test

GREETS = '''class Main inherits IO {
  main() : Object {
    let name : String in {
      out_string("name? ");
      name <- in_string();
      while not name = "" loop {
        out_string("Hello, ").out_string(name).out_string("\\n");
        name <- in_string();
      } pool;
      out_string("bye\\n");
    }
  };
};
'''
ENDS = "COOL program successfully executed\n"
ENDLESS = "class Main { main() : Object { while true loop 1 pool }; };"

# Takes from each worker what lets a module wait.
WAITS_NOT = """window.Blob = class extends Blob {
    constructor(parts, options) { super(options?.type === 'text/javascript' ? ['delete WebAssembly.Suspending;', ...parts] : parts, options); }
};"""


def main(body):
    return "p.cl", "class Main inherits IO { main() : Object { " + body + " }; };"


@test("runs by Ctrl+Enter")
def runs(page):
    page.start(("hello.cl", example("hello.cl")))
    page.press("Enter", 13, modifiers=2)
    page.wait("at('state').textContent.startsWith('ended')")
    same(page.ended(), "Hello\n" + ENDS)


def greets(page):
    page.click("run")
    for name in "Ada", "Zoë":
        page.wait("!at('line').disabled && document.activeElement === at('line')")
        same(page.run("return at('line').placeholder;"), "a line for the program")
        page.type(name + "\n")
        page.wait(f"at('output').textContent.includes('Hello, {name}')")
    page.wait("!at('close').disabled")
    page.click("close")
    same(page.ended(), "name? Ada\nHello, Ada\nZoë\nHello, Zoë\nbye\n" + ENDS)


@test("asks for input, line by line")
def asks(page):
    page.start(("p.cl", GREETS))
    greets(page)
    page.click("keep-typed")
    same(page.run("return at('input').value;"), "Ada\nZoë\n")


@test("asks for input where a module cannot wait for it")
def asks_again(page):
    page.start(("p.cl", GREETS), first=WAITS_NOT)
    greets(page)


@test("takes input given beforehand")
def given(page):
    page.start(("p.cl", GREETS), input="Ada\n\n")
    page.click("run")
    same(page.ended(), "name? Hello, Ada\nbye\n" + ENDS)


@test("stops an endless program by Escape, and runs again")
def stops(page):
    page.start(("p.cl", ENDLESS))
    page.run("at('steps').value = 1e15;")
    page.click("run")
    page.wait("!at('stop').disabled")
    page.press("Escape", 27)
    page.wait("at('state').textContent === 'stopped'")
    page.run("at('steps').value = 1000;")
    page.click("run")
    same(page.ended(), "cool: step limit\n")


@test("stops an endless output at once, be its lines short or without end, and lays few lines out")
def stops_output(page):
    for body in 'out_string("x\\n")', 'out_string("ab")':
        page.start(main(f"while true loop {body} pool"))
        page.run("at('steps').value = 1e15;")
        page.click("run")
        page.wait("at('output').textContent.length > 9000 || !program.runs")
        pressed = time.monotonic()
        page.press("Escape", 27)
        page.wait("at('state').textContent === 'stopped'")
        # Some tenths of a second, where the machine has nothing else to do.
        same(time.monotonic() - pressed < 5, True)
        same(page.run("return at('output').textContent.split('\\n').length < 15_000;"), True)
        page.run("at('steps').value = at('steps').defaultValue;")


@test("bounds the output of an endless program")
def bounded(page):
    page.start(main('while true loop out_string("0123456789012345678901234567890123456789\\n") pool'))
    page.click("run")
    page.ended()
    same(page.state().split(",")[0], "output too long")
    same(page.run("return at('output').textContent.length < 500_000;"), True)


@test("stops at its limits of heap, stack and steps, and says which")
def limits(page):
    page.start(("p.cl", "class Main { main() : Int { 1 + main() }; };"))
    page.click("run")
    same(page.ended(), "cool: stack limit\n")
    same(page.text("end"), "It may have more stack: see Options.")
    page.start(main("let s : String <- \"abcdefgh\" in while true loop s <- s.concat(s) pool"))
    page.run("at('heap').value = 64;")
    page.click("run")
    same(page.ended(), "cool: heap limit\n")


@test("has an option within its bounds for each command that takes it, and the program takes it there")
def options(page):
    page.start(main("1"))
    statuses = page.run("""
        const found = [];
        for (const { id, most } of OPTIONS) {
            at(id).checked = true;
            for (const value of most === undefined ? [at(id).value] : ["", -1, 1e99]) {
                at(id).value = value;
                for (const command of ["run", "eval"]) {
                    const words = optionWords(command);
                    found.push([id, command, words, (await program.run([command, ...words, "--", ...fileNames()], sources())).status]);
                }
            }
            at(id).value = at(id).defaultValue;
        }
        return found;
    """)
    same([it for it in statuses if it[3] not in (0, 4, 5, 6)], [])
    same([words for id, command, words, _ in statuses if command == "run" and id == "fold"],
         [["--steps", "1000000000", "--heap", "32768", "--stack", "8192", "--fold"]])


@test("runs by the rules of Cool as by compiled code")
def rules(page):
    for how in "run", "eval":
        page.start(("life.cl", example("life.cl")), input="")
        page.run(f"at('how').value = '{how}';")
        page.click("run")
        page.wait("!program.runs || !at('close').disabled")
        if how == "run":
            first = page.ended()
    same(page.ended(), first)


@test("leads from an error of the program to its line")
def error(page):
    page.start(("average.cl", example("average.cl")))
    page.click("run")
    same(page.ended(), "average.cl:14: Division by zero.\n")
    same(page.run("at('end').querySelector('button').click(); return cursorLine();"), 14)


@test("runs an expression nested as deep as the limits allow")
def deep(page):
    depth = 3900
    page.start(main("out_int(" + "(1+" * (depth // 2) + "1" + ")" * (depth // 2) + ")"))
    same(page.state(), "no faults")
    page.click("run")
    same(page.ended(), f"{depth // 2 + 1}{ENDS}")
