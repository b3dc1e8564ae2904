"""Tests where cool-dap stops, what it shows there, and that stepping back leads to the same states."""
import argparse
import base64
import random
import re
import shutil
import subprocess
import time

from .client import EXAMPLES, HERE, NotTried, expect
from .debug_client import DebugClient, begun, done, kept, soon

RECURSION = """class Main inherits IO {
  bottom() : Int {
    0
  };
  sum(n : Int) : Int {
    if n = 0 then bottom() else
      n + sum(n - 1)
    fi
  };
  main() : Object {
    out_int(sum(10000))
  };
};
"""
READING = """class Main inherits IO {
  main() : Object {
    let name : String, age : Int in {
      out_string("Name? ");
      name <- in_string();
      out_string("Age? ");
      age <- in_int();
      out_string(name.concat("!"));
      out_int(age + 1);
    }
  };
};
"""
VOID = """class Main {
  other : Main;
  value() : Int { 1 };
  main() : Object {
    if isvoid other then
      other.value()
    else 0 fi
  };
};
"""
RANGE = """class Main inherits IO {
  main() : Object {
    let word : String <- "Cool" in
      out_string(word.substr(3, 2))
  };
};
"""
# It takes no heap, which would end it.
ENDLESS = """class Main inherits IO {
  me() : Object { self };
  main() : Object {{
    out_string("begun\\n");
    while true loop me() pool;
  }};
};
"""
NAMES = """class A {
  x : Int <- 3;
  me() : SELF_TYPE { self };
  twice(n : Int) : Int {
    n + n
  };
};
class B inherits A {
  next : A;
  all(n : Int) : Int {
    let n : Int <- n * 2, s : String <- "é\\n" in
      case me() of
        b : B => twice(n + 1);
        a : A => 0;
      esac
  };
};
class Main {
  b : B <- new B;
  main() : Object {
    b.all(7)
  };
};
"""


def average(room, words):
    """The example of docs/debug-adapter.md, and then the frames, and the end."""
    client, stop, _ = begun(room, words, (EXAMPLES / "average.cl").read_text(), stopOnEntry=True)
    expect("entry", stop["reason"], "entry")
    example = re.findall(r"(?m)^    (\w+) +(\S.*)$", (HERE.parent / "docs" / "debug-adapter.md").read_text())
    expect("the example", [(it, shown_after(client, it)) for it, _ in example], example)
    expect("to the error", client.at("continue"), ("Numbers.average", 14, "exception"))
    expect("why", client.ask("exceptionInfo", threadId=1)["description"], "division by zero")
    expect("attributes", client.variables(scope="Attributes of self"), {"sum": "12", "count": "0"})
    expect("operands", client.variables(scope="Rule"), {"1: sum": "done", "2: count": "done"})
    expect("of the caller", client.variables(frame=2)["numbers"], "Numbers#1")
    expect("back", [client.at("stepBack")[:2] for _ in range(3)], [("Numbers.average", 14), ("Main.main", 22), ("Main.main", 21)])
    expect("to the error again", client.at("continue"), ("Numbers.average", 14, "exception"))
    expect("to the end", client.stop("continue"), {"event": "terminated"})
    expect("output", client.output, "p.cl:14: Division by zero.\n")
    done(client, room)


def shown_after(client, name):
    """The result of a move or a name in the example."""
    if name not in ("launch", "next", "stepIn", "stepOut", "stepBack"):
        return client.value(name)
    stop = {} if name == "launch" else client.stop(name)
    return "%s %d" % client.where() + (": " + stop["text"] if "text" in stop else "")


def breaks_at_lines(room, words):
    """examples/list.cl: a break in a method that is called again and again, forwards and backwards."""
    text = (EXAMPLES / "list.cl").read_text()
    line = next(i for i, it in enumerate(text.split("\n"), 1) if "+" in it or "out_int" in it)
    client, stop, file = begun(room, words, text, lines=[line])
    told = client.set[0]["breakpoints"][0]
    expect("verified", told["verified"], True)
    seen = []
    while stop["event"] == "stopped":
        expect("reason", (stop["reason"], stop["hitBreakpointIds"]), ("breakpoint", [told["id"]]))
        expect("line", client.where()[1], told["line"])
        seen.append(client.value("$instructions"))
        if len(seen) == 6:
            break
        stop = client.stop("continue")
    back = []
    while client.stop("reverseContinue")["reason"] == "breakpoint":
        back.append(client.value("$instructions"))
    expect("the same states backwards", back, seen[-2::-1])
    done(client, room)
    return "%d stops" % len(seen)


def walks(room, words):
    """Random moves over examples: each state that is reached again is the same one, and a step over is undone by one back."""
    moves = 0
    for name in "queens.cl", "tree.cl", "bank.cl":
        client, _, _ = begun(room, words, (EXAMPLES / name).read_text(), name=name, input="5\n3\n8\n0\n", stopOnEntry=True)
        chance, known = random.Random(words.seed), {}
        for _ in range(25):
            here = shown(client)
            expect("the state after %s instructions" % here[0], here[1:], known.setdefault(here[0], here[1:]))
            move = chance.choice(["next", "next", "stepIn", "stepIn", "stepBack", *(["stepOut"] if len(here[1]) > 1 else [])])
            if client.stop(move)["event"] == "terminated":
                break
            moves += 1
            if move == "next" and client.stack()[1:] == here[1][1:] and client.where()[1] != here[1][0][1]:
                expect("over", int(client.value("$instructions")) > int(here[0]), True)
                client.stop("stepBack")
                expect("back by a line", client.where(), here[1][0])
        done(client, room)
    return "%d moves" % moves


def shown(client):
    return client.value("$instructions"), client.stack(), client.variables()


def errors(room, words):
    for text, place, why in ((VOID, ("Main.main", 6), "dispatch to void"), (RANGE, ("String.substr", 4), "substring out of range")):
        client, stop, _ = begun(room, words, text)
        expect("stop", (stop["reason"], stop["text"]), ("exception", why))
        expect("at", [it for it in client.stack() if it[1] > 0][0][1], place[1])
        done(client, room)
        client, stop, _ = begun(room, words, text, filters=[])
        expect("without the filter", stop["event"], "terminated")
        done(client, room)


def deep_recursion(room, words):
    client, stop, _ = begun(room, words, RECURSION, functions=["bottom"])
    expect("stop", (stop["reason"], client.where()), ("function breakpoint", ("Main.bottom", 2)))
    page = client.ask("stackTrace", threadId=1, startFrame=0, levels=20)
    expect("a page", (len(page["stackFrames"]), page["totalFrames"] > 20), (20, True))
    begin = time.monotonic()
    stack = client.stack()
    took = time.monotonic() - begin
    expect("depth", (len(stack), stack[1:3], stack[-1]), (10003, [("Main.sum", 6), ("Main.sum", 7)], ("Main.main", 11)))
    expect("an argument far out", client.value("n", frame=10002), "10000")
    expect("out", [client.at("stepOut") for _ in range(2)], [("Main.sum", 7, "step")] * 2)
    expect("its argument", client.value("n"), "2")
    expect("back into it", client.at("stepBack")[:2], ("Main.sum", 7))
    done(client, room)
    return "%d frames in %.1f s" % (len(stack), took)


def stacks(room, words):
    """The stack is whole wherever its frames stand in memory, and whatever was read of it before."""
    client, _, _ = begun(room, words, (EXAMPLES / "shapes.cl").read_text(), functions=["move"])
    for i in range(16):
        expect("the outermost method after %d moves" % i, client.stack()[-1][0], "Main.main")
        client.stop(("stepIn", "next", "stepBack", "continue")[i % 4])
    done(client, room)


def reading(room, words):
    client, _, _ = begun(room, words, READING, lines=[8], stopOnEntry=True)
    client.ask("continue", threadId=1)
    for prompt, line in (("Name? ", "Ada"), ("Name? Age? ", "41")):
        while "reads" not in client.said:
            client.take()
        expect("output before a read", client.output, prompt)
        client.said = ""
        client.ask("evaluate", expression=line, context="repl")
    client.event("stopped")
    expect("read", (client.variables()["name"], client.value("age")), ('"Ada"', "41"))
    expect("back before both", [client.at("stepBack")[1] for _ in range(4)], [7, 6, 5, 4])
    expect("and on, without asking", (client.at("continue")[1], client.said), (8, ""))
    client.stop("continue")
    expect("output, once", client.output, "Name? Age? Ada!42COOL program successfully executed\n")
    done(client, room)
    client, stop, _ = begun(room, words, READING, input="Bob\n7\n")
    expect("input given at launch", (stop["event"], client.output), ("terminated", "Name? Age? Bob!8COOL program successfully executed\n"))
    done(client, room)


def two_files(room, words):
    folder = room / "two"
    (folder / "lib").mkdir(parents=True)
    main, other = folder / "main.cl", folder / "lib" / "twice.cl"
    main.write_text("class Main inherits Twice {\n  main() : Object {\n    twice(4)\n  };\n};\n")
    other.write_text("class Twice {\n  twice(n : Int) : Int {\n    n + n\n  };\n};\n")
    client = DebugClient(words.cool, TMPDIR=str(kept(room)))
    stop = client.launch(main, lines=[(other, 3)], files=[str(main), str(other)])
    expect("stop", (stop["reason"], client.where()), ("breakpoint", ("Twice.twice", 3)))
    frames = client.ask("stackTrace", threadId=1)["stackFrames"]
    expect("files", [it["source"]["path"] for it in frames], [str(other), str(main)])
    expect("sources", [it["path"] for it in client.ask("loadedSources")["sources"]], [str(main), str(other)])
    done(client, room)
    (folder / "cool.files").write_text("main.cl lib/twice.cl  # one program\n")
    client = DebugClient(words.cool, TMPDIR=str(kept(room)))
    stop = client.launch(main, functions=["Main.twice"])
    expect("by a list", (stop["reason"], client.where()), ("function breakpoint", ("Twice.twice", 2)))
    done(client, room)


def variables(room, words):
    client, _, _ = begun(room, words, NAMES, functions=["B.twice"])
    expect("inherited", client.where(), ("A.twice", 4))
    frame = client.variables(frame=2)
    expect("names", frame, {"self": "B#1", "n": "14", "s": '"é\\n"', "b": "B#1"})
    expect("the innermost", client.value("n", frame=2), "14")
    expect("paths", [client.value(it, frame=2) for it in ("self.x", "b.next", "x")], ["3", "void", "3"])
    expect("unknown", client.answer("evaluate", expression="nothing", frameId=2, context="hover")["success"], False)
    computed = {"isvoid b.next": "true", "isvoid b": "false", "n + 1": "15", "~n / 4": "-3", "2 * (self.x - 1)": "4", "not (n < 3)": "true",
                's = "\u00e9\\n"': "true", "b.next = self": "false", "n <= 14 = true": None, "twice(n)": None, "if true then 1 else 2 fi": None, "": None}
    answers = [client.answer("evaluate", expression=it, frameId=2, context="watch") for it in computed]
    expect("computed", [it["body"]["result"] if it["success"] else None for it in answers], list(computed.values()))
    expect("why", answers[-3]["message"][:54], '"twice(n)" cannot be evaluated: write names, constants')
    self = client.ask("evaluate", expression="self", frameId=2, context="watch")
    parts = client.ask("variables", variablesReference=self["variablesReference"])["variables"]
    expect("an object's parts", [(it["name"], it["value"]) for it in parts], [("x", "3"), ("next", "void")])
    client.at("stepIn")
    expect("while it adds", client.variables()["n"], "15")
    done(client, room)


def code(room, words):
    client, _, _ = begun(room, words, (EXAMPLES / "average.cl").read_text(), functions=["average"])
    frame = client.ask("stackTrace", threadId=1)["stackFrames"][0]
    expect("docs/debugger.md", (frame["instructionPointerReference"], client.value("$instructions")), ("0x004008c4", "346"))
    rows = client.ask("disassemble", memoryReference="0x004008c4", instructionOffset=-1, instructionCount=3)["instructions"]
    expect("code", [(it["address"], it["instruction"]) for it in rows[1:]], [("0x004008c4", "addiu $sp, $sp, -12"), ("0x004008c8", "sltu $t0, $sp, $s6")])
    data = client.ask("readMemory", memoryReference="0x20000020", offset=0, count=8)
    expect("memory", base64.b64decode(data["data"]).hex(), "54000020" + "6c010010")
    client.stop("next", granularity="instruction")
    expect("one on", client.value("$instructions"), "347")
    client.stop("stepBack", granularity="instruction")
    expect("one back", client.value("$instructions"), "346")
    done(client, room)


def pausing(room, words):
    client, _, file = begun(room, words, ENDLESS, stopOnEntry=True, steps=10**15)
    client.ask("continue", threadId=1)
    while client.output != "begun\n":
        client.take()
    time.sleep(1)
    expect("while it runs", client.answer("stackTrace", threadId=1)["message"], "the program runs")
    client.ask("pause", threadId=1)
    expect("paused", (client.event("stopped")["reason"], client.where() in (("Main.main", 5), ("Main.me", 2))), ("pause", True))
    client.ask("continue", threadId=1)
    client.ask("setBreakpoints", source={"path": str(file)}, breakpoints=[{"line": 5}])
    expect("a break that is set while it runs", (client.event("stopped")["reason"], client.where()), ("breakpoint", ("Main.main", 5)))
    client.ask("setBreakpoints", source={"path": str(file)}, breakpoints=[])
    client.ask("continue", threadId=1)
    client.send("terminate")
    client.event("terminated")
    done(client, room)
    client, stop, _ = begun(room, words, ENDLESS, steps=5000)
    expect("at a limit", (stop["reason"], stop["text"], client.value("$instructions")), ("exception", "step limit", "5000"))
    expect("the end", client.stop("continue")["event"], "terminated")
    expect("said", client.said, "cool: step limit\n")
    done(client, room)


def other_launches(room, words):
    client = DebugClient(words.cool, TMPDIR=str(kept(room)))
    faulty = room / "faulty.cl"
    faulty.write_text("class Main {\n  main() : Int { true };\n};\n")
    expect("faults", client.answer("launch", program=str(faulty))["message"], "The program has faults: faulty.cl:2: E18: body does not conform")
    place = [it["body"] for it in client.events if it["event"] == "output"][0]
    expect("their place", (place["source"]["path"], place["line"]), (str(faulty), 2))
    expect("no file", client.answer("launch", program=str(room / "none.cl"))["message"], str(room / "none.cl") + ": no such file")
    expect("nothing named", client.answer("launch")["success"], False)
    expect("no input", client.answer("launch", program=str(faulty), inputFile="none")["success"], False)
    done(client, room)
    client = DebugClient("/nowhere/cool", TMPDIR=str(kept(room)))
    expect("no program", client.answer("launch", program=str(faulty))["message"], "/nowhere/cool does not start: spawn /nowhere/cool ENOENT")
    done(client, room)
    client = DebugClient(words.cool, TMPDIR=str(kept(room)), COOL_EDITOR="/nowhere/cool_editor")
    told = client.answer("launch", program=str(EXAMPLES / "average.cl"))["message"]
    expect("no table", told, "/nowhere/cool_editor does not start: spawn /nowhere/cool_editor ENOENT")
    done(client, room)
    older = room / "older"
    older.write_text("#!/bin/sh\n[ $1 = debug ] || exec '%s' \"$@\"\necho 'script:1: B1: bad script line' >&2\nexit 12\n" % words.cool)
    older.chmod(0o755)
    client = DebugClient(str(older), TMPDIR=str(kept(room)))
    expect("an older program", client.launch(EXAMPLES / "average.cl")["event"], "terminated")
    expect("why", client.said, "cool-dap: %s is older than cool-dap: its debug has no line regs\n" % older)
    done(client, room)
    client, stop, _ = begun(room, words, READING, noDebug=True, input="Eve\n1\n")
    expect("without debugging", (stop["event"], client.output[-37:]), ("terminated", "!2COOL program successfully executed\n"))
    done(client, room)


def output_exactly(room, words):
    """Output is told as it comes, once, and never before the state that is shown."""
    text = "class Main inherits IO {\n  main() : Object {{\n%s  }};\n};\n" % "".join('    out_string("%d\\n");\n' % i for i in range(4))
    client, _, _ = begun(room, words, text, stopOnEntry=True)
    for move in ("next", "next", "stepBack", "stepBack", "next", "next", "next"):
        before = client.output
        client.stop(move)
        shown = "".join("%d\n" % i for i in range(client.where()[1] - 3))
        expect("output after " + move, client.output, max(shown, before, key=len))
    client.stop("continue")
    expect("at the end", client.output, "0\n1\n2\n3\nCOOL program successfully executed\n")
    done(client, room)
    endless = 'class Main inherits IO {\n  main() : Object {\n    while true loop out_string("0123456789") pool\n  };\n};\n'
    client, _, _ = begun(room, words, endless, stopOnEntry=True, steps=10**15)
    client.ask("continue", threadId=1)
    while len(client.output) < 200_000:
        client.take()
    client.ask("pause", threadId=1)
    client.event("stopped")
    expect("endless output", client.output[:10], "0123456789")
    done(client, room)


def restarting(room, words):
    client, stop, file = begun(room, words, "class Main {\n  main() : Object {\n    1 + 2\n  };\n};\n", lines=[3])
    expect("stop", client.where(), ("Main.main", 3))
    file.write_text("class Main {\n  main() : Object {{\n    3 * 4;\n    5 * 6;\n  }};\n};\n")
    client.ask("restart", arguments={})
    client.event("stopped")
    expect("the text as it is now", (client.where(), client.at("next")), (("Main.main", 3), ("Main.main", 4, "step")))
    done(client, room)


def end_of_program(room, words):
    client, stop, _ = begun(room, words, "class Main {\n  main() : Object {\n    1 + 2\n  };\n};\n", filters=["end"])
    expect("stop", (stop["reason"], stop["text"]), ("exception", "end of the program"))
    expect("back from there", client.at("reverseContinue"), ("Main.main", 3, "entry"))
    done(client, room)


def called_by_hand(room, words):
    """A call that does not come from an editor is refused in a line."""
    if not shutil.which("node"):
        raise NotTried("node is not installed")
    old = "Object.defineProperty(process, 'versions', { value: { node: '16.1.0' } })"
    (room / "old.js").write_text(old)
    for call, status, said in ((["--help"], 2, "takes no arguments"), ([], 125, "this is node 16.1.0")):
        node = ["node", *(["-r", room / "old.js"] if status == 125 else []), HERE / "cool-dap", *call]
        ended = subprocess.run(node, stdin=subprocess.DEVNULL, stderr=subprocess.PIPE)
        expect(said, (ended.returncode, said in ended.stderr.decode(), ended.stderr.count(b"\n")), (status, True, 1))


def nonsense_requests(room, words):
    client = DebugClient(words.cool, TMPDIR=str(kept(room)))
    client.adapter.stdin.write(b"Content-Length: 3\r\n\r\nabcContent-Length: 2\r\n\r\n[]")
    for name in ("continue", "next", "stackTrace", "variables", "evaluate", "nothing", "toString", "pause", "setBreakpoints"):
        client.answer(name, **({"source": {}, "breakpoints": []} if name == "setBreakpoints" else {}))
    soon(lambda: client.log)
    client.log.clear()
    done(client, room)


def by_the_module(room, words):
    """The same by the page's module, where there is no program."""
    its = argparse.Namespace(**{**vars(words), "cool": "module"})
    for test in average, reading:
        (room / test.__name__).mkdir()
        test(room / test.__name__, its)


def random_requests(room, words):
    """Whatever a client sends in whatever order, each request has its answer, and nothing is left."""
    names = ("initialize setBreakpoints setFunctionBreakpoints setExceptionBreakpoints threads stackTrace scopes variables evaluate exceptionInfo continue "
             "next stepIn stepOut stepBack reverseContinue pause disassemble readMemory breakpointLocations loadedSources configurationDone").split()
    keys = ("source breakpoints filters startFrame levels frameId variablesReference expression context granularity memoryReference offset instructionOffset "
            "instructionCount count line endLine lines").split()
    values = [None, 0, 1, -1, 10**9, "", "0x20000000", "0x00400000", [], {}, [1], [{"line": 5}], [{"name": "add"}], True, "instruction", "repl", "$a0", "count"]
    chance, count = random.Random(words.seed), 0
    for _ in range(3):
        client, _, _ = begun(room, words, (EXAMPLES / "average.cl").read_text(), stopOnEntry=True)
        for _ in range(50):
            client.answer(chance.choice(names), **{key: chance.choice(values) for key in chance.sample(keys, chance.randrange(6))})
            count += 1
        done(client, room)
    return "%d requests" % count


LINES = """class Main inherits IO {
  total : Int;
  choose(n : Int) : Int {
    if n = 0 then
      1 else if n = 1 then 2 else 3 fi
    fi
  };
  main() : Object {{
    total <-
      choose(0) +
      choose(1);
    out_int(choose(2) + choose(0) + choose(1)); out_int(
      4);

    case self of m : Main =>
      while total < 5 loop total <- total + 1 pool;
    esac;
  }};
};
"""


def lines(room, words):
    """Each line on which an expression begins is stopped at, and each other one at one of its method; in each branch, and in each of several calls."""
    client, _, file = begun(room, words, LINES, stopOnEntry=True)
    count = LINES.count("\n")
    told = client.ask("setBreakpoints", source={"path": str(file)}, breakpoints=[{"line": i + 1} for i in range(count)])["breakpoints"]
    expect("where breaks stop", [it.get("line") for it in told],
           [4, 4, 4, 4, 5, 5, 5, 9, 9, 10, 11, 12, 12, 15, 15, 16, 16, 16, 19])
    expect("whether one does", [it["verified"] for it in told], [True] * (count - 1) + [False])
    asked = client.ask("breakpointLocations", source={"path": str(file)}, line=1, endLine=count)["breakpoints"]
    expect("lines", [it["line"] for it in asked], [4, 5, 9, 10, 11, 12, 15, 16])
    client.ask("setBreakpoints", source={"path": str(file)}, breakpoints=[])
    passed = [client.where()[1], *(client.at("next")[1] for _ in range(5))]
    expect("over", (passed, client.at("next")), ([9, 10, 11, 12, 15, 16], "ended"))
    done(client, room)
    client, stop, file = begun(room / "again", words, LINES, lines=[5])
    seen = []
    while stop["event"] == "stopped":
        seen.append((client.value("n"), client.stack()[1][1], client.stop("stepOut") and client.stack()[0]))
        stop = client.stop("continue")
    expect("each call, and where it returns to", seen, [("0", 10, ("Main.main", 10)), ("1", 11, ("Main.main", 10)), ("2", 12, ("Main.main", 12)),
                                                        ("0", 12, ("Main.main", 12)), ("1", 12, ("Main.main", 12))])
    done(client, room / "again")
    client, stop, file = begun(room / "back", words, LINES, lines=[4])
    for _ in range(4):
        client.stop("continue")
    back = [client.at("stepBack")[:2] for _ in range(3)]
    expect("back from the last of three calls, to the line that makes it", back, [("Main.main", it) for it in (12, 11, 10)])
    done(client, room / "back")


TESTS = [lines, stacks, random_requests, by_the_module, average, breaks_at_lines, walks, errors, deep_recursion, reading, two_files, variables, code, pausing,
         output_exactly, other_launches, restarting, end_of_program, nonsense_requests, called_by_hand]
