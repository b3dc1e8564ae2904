"""Tests breakpoints of cool-dap with more than a place: conditions, hit counts, and messages to log."""
from .client import expect
from .debug_client import begun, done

LOOP = """class Main inherits IO {
  odd : Bool;
  add(n : Int, word : String) : Int {
    n + 1
  };
  main() : Object {
    let i : Int in
      while i < 6 loop {
        odd <- not odd;
        i <- add(i, if i = 3 then "three" else "é" fi);
        out_int(i);
      } pool
  };
};
"""
ADDS = 4
END = "COOL program successfully executed\n"


def loop(room, words):
    """A client that stands at the first line of the loop, and stops at its end, too."""
    client, _, file = begun(room, words, LOOP, stopOnEntry=True, filters=["end"])
    return client, file


def stops(client, file, *asked, command="setBreakpoints", **more):
    """(n, reason) of the stops from the first line to the end at breaks of the loop; then the client stands at the first line again."""
    where = {"source": {"path": str(file)}} if command == "setBreakpoints" else {}
    place = {"line": ADDS} if where else {"name": "add"}
    client.ask(command, breakpoints=[{**place, **it} for it in asked], **where)
    seen = []
    while (stop := client.stop("continue"))["reason"] != "exception":
        seen.append((int(client.value("n")), stop["reason"]))
    client.ask(command, breakpoints=[], **where)
    client.stop("reverseContinue")
    return seen


def conditions(room, words):
    """A break with a condition stops where it holds, and nowhere else."""
    wanted = (("n = 3", [3]), ("n <= 1", [0, 1]), ("4 < n", [5]), ("n = ~1", []), ('word = "three"', [3]), ('word = "é"', [0, 1, 2, 4, 5]),
              ("odd", [0, 2, 4]), ("self.odd = false", [1, 3, 5]), ("n = n", [0, 1, 2, 3, 4, 5]), ("n + 1 = 2 * 2", [3]), ("not n < 4", [4, 5]),
              ("isvoid self", []), ("not isvoid self", [0, 1, 2, 3, 4, 5]), ("(n - 1) / 2 = 1", [3, 4]), ("odd = (n <= 2)", [0, 2, 3, 5]))
    client, file = loop(room, words)
    for condition, values in wanted:
        expect(condition, stops(client, file, {"condition": condition}), [(it, "breakpoint") for it in values])
    expect("at a method", stops(client, file, {"condition": "n = 3"}, command="setFunctionBreakpoints"), [(3, "function breakpoint")])
    expect("output", client.output, "123456" + END)
    done(client, room)


def conditions_of_many(room, words):
    """A thousand passes are asked in some seconds, since many are looked at by one run."""
    client, stop, _ = begun(room, words, LOOP.replace("i < 6", "i < 1000"), lines=[{"line": ADDS, "condition": "n = 999"}])
    expect("the last", (stop["reason"], client.value("n"), client.output[-6:]), ("breakpoint", "999", "998999"))
    done(client, room)


def conditions_by_steps(room, words):
    """A step into a line stops there though its condition does not hold; over it, it does not; and back leads to where it holds."""
    client, stop, _ = begun(room, words, LOOP, lines=[{"line": ADDS, "condition": "n = 2"}, {"line": 11, "condition": "i = 5"}])
    expect("where it holds", (client.where(), client.value("n"), client.output), (("Main.add", ADDS), "2", "12"))
    expect("over and over", [client.at("next")[1:] for _ in range(5)], [(it, "step") for it in (10, 11, 8, 9, 10)])
    expect("into", (client.at("stepIn")[1:], client.value("n")), ((ADDS, "step"), "3"))
    expect("on", (client.at("continue")[1:], client.output), ((11, "breakpoint"), "1234"))
    expect("back", (client.at("reverseContinue")[1:], client.value("n")), ((ADDS, "breakpoint"), "2"))
    expect("back to the first line", client.stop("reverseContinue")["reason"], "entry")
    done(client, room)


def counts(room, words):
    """A count is one of hits, of those at which a condition holds where there is one, and a hit that is met again keeps its number."""
    wanted = (("3", None, [2]), (">= 5", None, [4, 5]), ("2", "odd", [2]), (">= 2", 'word = "é"', [1, 2, 4, 5]), ("9", None, []))
    client, file = loop(room, words)
    for count, condition, values in wanted:
        seen = stops(client, file, {"hitCondition": count, "condition": condition})
        expect("%s of %s" % (count, condition), [it[0] for it in seen], values)
    third = {"line": ADDS, "hitCondition": ">= 3"}
    client.ask("setBreakpoints", source={"path": str(file)}, breakpoints=[third])
    moves = ("continue", "breakpoint", "2"), ("continue", "breakpoint", "3"), ("reverseContinue", "breakpoint", "2"), ("reverseContinue", "entry", None)
    for move, reason, value in (*moves, moves[0]):
        expect(move, client.stop(move)["reason"], reason)
        expect("n", value and client.value("n"), value)
    client.ask("setBreakpoints", source={"path": str(file)}, breakpoints=[{"line": 100}, third])
    expect("with another break", (client.stop("continue")["reason"], client.value("n")), ("breakpoint", "3"))
    done(client, room)


def messages(room, words):
    """A message is written where the run comes by, once, between the output before and behind it; and the run does not stop."""
    log = {"line": 11, "logMessage": "{i}: {odd}, {j}; {i * 10}", "condition": "i <= 2"}
    client, stop, _ = begun(room, words, LOOP, lines=[log])
    expect("the end", stop["event"], "terminated")
    told = "".join(it["body"]["output"] for it in client.all if it["event"] == "output")
    expect("in order", told, "".join("%d: %s, {j is no variable here}; %d\n%d" % it for it in ((1, "true", 10, 1), (2, "false", 20, 2))) + "3456" + END)
    done(client, room)
    client, stop, _ = begun(room, words, LOOP, lines=[{"line": ADDS, "logMessage": "n is {n}"}, {"line": ADDS, "condition": "n = 1"}], stopOnEntry=True)
    client.stop("continue")
    client.stop("reverseContinue")
    client.stop("continue")
    expect("once", (client.value("n"), client.said), ("1", "n is 0\nn is 1\n"))
    done(client, room)


def wrong_conditions(room, words):
    """A condition that cannot be parsed is refused in a line. A condition without a value at a stop stops there."""
    wrong = ({"condition": "n = "}, {"condition": "add(n) = 2"}, {"hitCondition": "often"}, {"logMessage": "{n}: {add(1)}"})
    client, stop, _ = begun(room, words, LOOP, lines=[{"line": ADDS, **it} for it in wrong])
    expect("none stops", stop["event"], "terminated")
    told = client.set[0]["breakpoints"]
    expect("verified", [it["verified"] for it in told], [False] * 4)
    expect("why", [it["message"][:44] for it in told], ['the condition "n = " cannot be read: write o', 'the condition "add(n) = 2" cannot be read: w',
                                                        'the count "often" cannot be read: write 3 fo', "the message has {add(1)}: write names, const"])
    done(client, room)
    client, file = loop(room, words)
    for condition, why in (("m = 1", "m is no variable here"), ('n = "1"', '0 and "1" are of two types'), ("self = n", "Main#1 and 0 are of two types"),
                           ("odd < true", "< compares numbers"), ("n + 1", "1 is no Bool"), ("1 / (n - n) = 1", "division by zero"),
                           ("2147483647 + 1 = n", "arithmetic overflow")):
        client.said = ""
        seen = stops(client, file, {"condition": condition})
        told = client.said.splitlines()
        expect(condition, (len(seen), len(told), told[0]), (6, 6, 'cool-dap: the condition "%s" cannot be evaluated here: %s' % (condition, why)))
    done(client, room)


def pausing_at_conditions(room, words):
    """A run that asks a condition again and again is paused, goes on, and takes other breaks meanwhile."""
    endless = LOOP.replace("i < 6", "true").replace("        out_int(i);\n", "")
    client, _, file = begun(room, words, endless, lines=[{"line": ADDS, "condition": "n < 0"}], stopOnEntry=True, steps=10**15)
    for _ in range(2):
        client.ask("continue", threadId=1)
        client.ask("threads")
        client.ask("pause", threadId=1)
        expect("paused", client.event("stopped")["reason"], "pause")
    client.ask("continue", threadId=1)
    client.ask("setBreakpoints", source={"path": str(file)}, breakpoints=[{"line": ADDS, "hitCondition": ">= 50"}])
    expect("other breaks", (client.event("stopped")["reason"], int(client.value("n")) > 40), ("breakpoint", True))
    done(client, room)


TESTS = [conditions, conditions_of_many, conditions_by_steps, counts, messages, wrong_conditions, pausing_at_conditions]
