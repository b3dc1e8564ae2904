"""Tests explanations of errors: from a stand-in that writes what the test gives it, and from the program itself."""
import json
import os
import random
import subprocess
import time

from .client import EXAMPLES, HERE, LATER, Client, NotTried, check, due, expect, fill
from .edits import TOKEN, edit, place

FAULTY = 'class Main {\n  s : String <- "ä𝒙"; t : Int <- true;\n  main() : Object { 0 };\n};\nclass Late { m : Main; };\n'
CURE = "give a value of the declared class, or of a class below it"
TYPED = FAULTY.encode().index(b"t : Int")
EDITED = FAULTY.encode().index(b"true;")
FAULT = "initial value does not conform"
PREMISE = "the type of the initial value conforms to the declared type"
# The output of a stand-in about the file. LINES has all kinds of lines.
EXPLAINED = "fault 0:2:%d:%d E17: %s\nrule Attribute: %s\nfact expected Int, found Bool\ncure %s\nmend `1` for `true`\nedit 0:%d:%d 1\n" % (
    TYPED, TYPED + 1, FAULT, PREMISE, CURE, EDITED, EDITED + 4)
LINES = """fault 0:2:%d:%d E17: initial value does not conform
fact expected Int, found Bool
fact `t` is declared Int
value 0:2:%d
other 0:5:%d
cure %s
mend `1` in the place of `true`: a line\\nand a \\\\
edit 0:%d:%d 1\\n\\\\
""" % (TYPED, TYPED + 1, EDITED, FAULTY.encode().index(b"Late"), CURE, EDITED, EDITED + 4)


def stand_in(room, lines, before=""):
    """A program that writes these lines, whatever it is asked, with status 1, after other commands of a shell."""
    (room / "lines").write_text(lines)
    path = room / "explain"
    path.write_text("#!/bin/sh\n%s\ncat '%s'\nexit 1\n" % (before, room / "lines"))
    path.chmod(0o755)
    return str(path)


def explained_by(room):
    """A stand-in that explains the fault of FAULTY."""
    return stand_in(room, EXPLAINED)


def real():
    """The program that explains: the one that COOL_EXPLAIN names, or that of the sources. Or that it is not there."""
    if os.environ.get("COOL_EXPLAIN"):
        return os.environ["COOL_EXPLAIN"]
    words, environment = [HERE.parent / "release" / "program", "cool_explain"], {**os.environ, "COOL_BUILD": "no"}
    found = subprocess.run(words, env=environment, stdout=subprocess.PIPE, stderr=subprocess.DEVNULL).stdout.decode().strip()
    if not found:
        raise NotTried("no program cool_explain is built")
    return found


def at(text, byte):
    """The position of a byte."""
    before = text.encode()[:byte].decode()
    column = len(before.rpartition("\n")[2].encode("utf-16-le")) // 2
    return {"line": before.count("\n"), "character": column}


def offered(client, path, range_, **context):
    """The code actions for a range of a file."""
    where = {"textDocument": {"uri": path.as_uri()}, "range": range_, "context": {"diagnostics": [], **context}}
    return client.request("textDocument/codeAction", where)["result"]


def hover(client, path, position):
    found = client.request("textDocument/hover", {"textDocument": {"uri": path.as_uri()}, "position": position})["result"]
    return found and found["contents"]["value"]


def whole(note):
    return {"start": note["range"]["start"], "end": note["range"]["end"]}


def faults_are_explained(room, words):
    """At first with their line, and then, as explained, with range, facts, the other place, cure and mend."""
    at_ = fill(room / "one", main=FAULTY) / "main.cl"
    client = Client(at_.parent, words.cool, explain=stand_in(room, LINES, "sleep 1"))
    first = client.open(at_, FAULTY)
    expect("at once", [(n["code"], n["range"]["start"]["character"], "relatedInformation" in n) for n in first], [("E17", 2, False)])
    said = hover(client, at_, at(FAULTY, TYPED)).split("\n\nThe rule ")[0].split("\n\n")
    expect("hover", said, ["**E17: %s**" % FAULT, "- expected Int, found Bool\n- `t` is declared Int", "To fix it: %s." % CURE,
                           "Tried, as an edit (code action): `1` in the place of `true`: a line\nand a \\."])
    note = client.told[at_.as_uri()][1][0]
    expect("range", whole(note), {"start": at(FAULTY, TYPED), "end": at(FAULTY, TYPED + 1)})
    value, other = (it["location"] for it in note["relatedInformation"])
    expect("the value", (value["uri"], value["range"]["start"]), (at_.as_uri(), at(FAULTY, EDITED)))
    expect("the other place", (other["uri"], other["range"]["start"]), (at_.as_uri(), {"line": 4, "character": 6}))
    action = offered(client, at_, note["range"])[0]
    expect("action", (action["kind"], action["diagnostics"], action["title"]), ("quickfix", [note], "`1` in the place of `true`: a line\nand a \\"))
    edit = action["edit"]["changes"][at_.as_uri()][0]
    expect("edit", ([place(FAULTY, edit["range"][side]) for side in ("start", "end")], edit["newText"]),
           ([FAULTY.index("true"), FAULTY.index("true") + 4], "1\n\\"))
    expect("elsewhere", offered(client, at_, {"start": at(FAULTY, 0), "end": at(FAULTY, 3)}), [])
    kinds = [bool(offered(client, at_, note["range"], only=only)) for only in (["refactor"], ["quickfix"], [""], [])]
    expect("of other kinds", kinds, [False, True, True, True])
    expect("named by the editor", offered(client, at_, {"start": at(FAULTY, 0), "end": at(FAULTY, 3)}, diagnostics=[note]), [action])
    client.change(at_, FAULTY + " ")
    expect("as it was in this line", whole(client.told[at_.as_uri()][1][0]), whole(note))
    client.end()


def an_edit_of_another_file(room, words):
    """Also of one that is not open; and notices, of open files alone."""
    files = fill(room / "two", main="class Main { p : Part; main() : Object { q }; };\n", part="class Part { };\n")
    said = "fault 0:1:41:42 E1: unknown name\ncure declare it\nmend an attribute\nedit 1:13:13 q : Int;\n"
    client = Client(files, words.cool, explain=stand_in(room, said))
    note = client.open(files / "main.cl", (files / "main.cl").read_text())[0]
    action = offered(client, files / "main.cl", note["range"])[0]
    place_ = {"line": 0, "character": 13}
    expect("edit", action["edit"]["changes"], {(files / "part.cl").as_uri(): [{"range": {"start": place_, "end": place_}, "newText": "q : Int;"}]})
    (room / "lines").write_text("notice 0:1:13:14 `p` is void\nnotice 1:1:6:10 likely\n")
    client.change(files / "main.cl", "class Main { p : Part; main() : Object { p }; };\n")
    client.until("notice", lambda: client.notes(files / "main.cl") == ["`p` is void"])
    shown = client.told[(files / "main.cl").as_uri()][1][0]
    expect("quietly", (shown["severity"], shown["range"]["start"]["character"], shown["range"]["end"]["character"]), (4, 13, 14))
    expect("of a file that is not open", client.notes(files / "part.cl"), [])
    client.end()


def where_only_main_is_wanting(room, words):
    """An error of a file without Main is explained, too, if a Main is added."""
    path = room / "part.cl"
    text = "class Part { x : Int <- true; };\n"
    script = 'if [ $# = 2 ]; then echo "fault 0:1:0:5 C6: no class Main"; exit 1; fi; echo "fault 0:1:13:14 E17: %s"; echo "fact found Bool"; exit 1' % FAULT
    client = Client(room, words.cool, explain=stand_in(room, "", script))
    client.open(path, text)
    expect("explained", "found Bool" in (hover(client, path, {"line": 0, "character": 13}) or ""), True)
    expect("ranges", [n["range"]["end"]["character"] for n in client.told[path.as_uri()][1]], [5, 14])
    client.end()


def an_answer_that_is_old(room, words):
    """It is dropped, and its process ends, when the text changes; what waits for it is answered by the new one."""
    path = room / "main.cl"
    client = Client(room, words.cool, explain=stand_in(room, LINES, "echo >>'%s'; [ -e '%s' ] || exec sleep 1000" % (room / "begun", room / "fast")))
    client.open(path, FAULTY)
    client.numbers += 1
    asked = {"textDocument": {"uri": path.as_uri()}, "position": at(FAULTY, TYPED)}
    client.send({"jsonrpc": "2.0", "id": client.numbers, "method": "textDocument/hover", "params": asked})
    for _ in range(200):
        time.sleep(0.02)
        if (room / "begun").exists():
            break
    (room / "fast").touch()
    client.change(path, FAULTY + "-- more\n")
    began = time.monotonic()
    while client.take().get("id") != client.numbers:
        pass
    expect("soon", time.monotonic() - began < 4.5, True)
    expect("how often it was asked", (room / "begun").read_text(), "\n\n")
    client.end()


def an_explanation_that_is_none(room, words):
    """The faults are told with their lines all the same, and what is asked about them has its answer."""
    path = room / "main.cl"
    wrong = ["fault 0:2:1:2 E17\n", "fault 7:2:1:2 E17: %s\n" % FAULT, "fault 0:3:1:2 E17: %s\n" % FAULT, "fault 0:2:-1:2 E17: %s\n" % FAULT]
    wrong += ["fact alone\n", "nonsense\n", "", LINES + LINES]
    # Steps without an edit, without errors, and with more or fewer places than errors.
    later = "fault 0:2:1:2 E17: %s\n" % FAULT
    steps = ["origin 0:1\n", "apply 0:1:1 ;\n", "apply 0:1:1 ;\norigin 0:1\n", "apply 0:1:1 ;\n" + later]
    wrong += [LINES + step for step in [*steps, "apply 0:1:1 ;\norigin 0:1\norigin 0:2\n" + later, "apply 0:1:1 ;\norigin 0:1\n" + later + later]]
    programs = [(lines, "") for lines in wrong] + [("", "exec sleep 1000"), (LINES, "exit 9"), ("", "exec cat /dev/zero"), (LINES, "exit 2")]
    for number, (lines, before) in enumerate(programs):
        client = Client(room, words.cool, "--seconds", "4", explain=stand_in(room, lines, before))
        client.open(path, FAULTY)
        expect("hover, %r %r" % (lines, before), hover(client, path, {"line": 1, "character": 4}), None)
        expect("the line, %r" % lines, [(n["code"], n["range"]["start"]["character"]) for n in client.told[path.as_uri()][1]], [("E17", 2)])
        client.end()
    client = Client(room, words.cool, explain="/nowhere/explain")
    client.open(path, FAULTY)
    expect("there is none", hover(client, path, {"line": 1, "character": 4}), None)
    client.end()
    return "%d kinds" % (len(programs) + 1)


# Two statements lack their semicolon. The second error is found once the first one is fixed.
TWO = '''class Main inherits IO {
  main() : Object { {
    out_string("é")
    out_string("b");
    out_int(1)
    out_int(2);
  } };
};
'''
TWO_FIXED = TWO.replace('("é")', '("é");').replace("(1)", "(1);")


def byte(text, part, more=0):
    """The offset of a part of a text in bytes."""
    return text.encode().index(part.encode()) + more


def lines_of_two():
    """The lines about TWO by the rules of docs/explain.md: places of the second error are those after the first fix, and its origin is that before it."""
    first, second = byte(TWO, 'out_string("b")'), byte(TWO, "out_int(2)")
    one, two = byte(TWO, '("é")', 6), byte(TWO, "(1)", 3)
    lines = ["fault 0:4:%d:%d S1: unexpected token" % (first, first + 10), "fact found `out_string`, after `)`", "mend add `;`", "edit 0:%d:%d ;" % (one, one)]
    lines += ["apply 0:%d:%d ;" % (one, one), "origin 0:%d" % second]
    lines += ["fault 0:6:%d:%d S1: unexpected token" % (second + 1, second + 8), "fact found `out_int`, after `)`", "mend add `;`"]
    return "\n".join([*lines, "edit 0:%d:%d ;" % (two + 1, two + 1), ""])


def applied(text, edits):
    """A text after the edits of an action, none of which changes a part that another one changes."""
    places = sorted(([place(text, it["range"][side]) for side in ("start", "end")], it["newText"]) for it in edits)
    expect("apart", all(one[0][1] < other[0][0] for one, other in zip(places, places[1:])), True)
    for (start, end), new in reversed(places):
        text = text[:start] + new + text[end:]
    return text


def explained_later(room, words, path, text, lines, more=()):
    """A client with an open file that these lines explain, when it has so many later diagnostics."""
    client = Client(path.parent, words.cool, explain=stand_in(room, lines))
    client.open(path, text)
    client.until("explained", lambda: all(client.later(it) for it in more or [path]))
    return client


def errors_behind_fixes(room, words):
    """They stand where they come from, after the errors of `check`, without a fix of their own; one action makes all fixes."""
    path = fill(room / "one", main=TWO) / "main.cl"
    client = explained_later(room, words, path, TWO, lines_of_two())
    faults, (note,) = client.shown(path), client.later(path)
    expect("as check", client.faults(path), check(words.cool, [path])[path])
    second = byte(TWO, "out_int(2)")
    expect("range", whole(note), {"start": at(TWO, second), "end": at(TWO, second + 7)})
    expect("message", (note["message"], note["code"], note["severity"]), ("unexpected token: found `out_int`, after `)`" + LATER, "S1", 1))
    expect("hover", hover(client, path, at(TWO, second)), "**S1: unexpected token**%s\n\n- found `out_int`, after `)`" % LATER)
    both = "Fix all errors that have a fix (2)"
    actions, later = offered(client, path, faults[0]["range"]), offered(client, path, note["range"])
    expect("at the first", [(it["title"], it["isPreferred"], it["diagnostics"]) for it in actions], [("add `;`", True, faults), (both, False, faults)])
    expect("at the second", [(it["title"], it["isPreferred"], it["diagnostics"]) for it in later], [(both, False, [note])])
    expect("elsewhere", offered(client, path, {"start": at(TWO, 0), "end": at(TWO, 3)}), [])
    expect("first alone", applied(TWO, actions[0]["edit"]["changes"][path.as_uri()]), TWO.replace('("é")', '("é");'))
    for action in actions[1], later[0]:
        expect("all", (list(action["edit"]["changes"]), applied(TWO, action["edit"]["changes"][path.as_uri()])), ([path.as_uri()], TWO_FIXED))
    (room / "lines").write_text("")
    client.change(path, TWO_FIXED)
    client.until("no error is left", lambda: client.told[path.as_uri()][1] == [])
    client.end()


def errors_behind_fixes_of_files(room, words):
    """In several files, in several steps, up to the end of a line. The names are those after the fixes; a fix of two may overlap."""
    main, part = "class Main {\n  p : Part <- 1\n  main() : Int { p.x(ab) };\n};\n", "class Part {\r\n  a : Int\r\n  x() : Int { a };\r\n};\r\n"
    files = fill(room / "two", main=main, part=part)
    ends = [byte(main, "<- 1", 4), byte(part, "a : Int", 7)]
    lines = ["fault 0:3:%d:%d S1: unexpected token" % (byte(main, "main()"), byte(main, "main()") + 4), "mend add `;`", "edit 0:%d:%d ;" % (ends[0], ends[0])]
    lines += ["fault 1:3:%d:%d S1: unexpected token" % (byte(part, "x()"), byte(part, "x()") + 1), "mend add `;`", "edit 1:%d:%d ;" % (ends[1], ends[1])]
    # Then a fault of the name, of which there are two fixes, and one whose range is longer than the line.
    lines += ["apply 1:%d:%d ;" % (ends[1], ends[1]), "apply 0:%d:%d ;" % (ends[0], ends[0])]
    name, sign, end = byte(main, "ab"), byte(main, "<- 1"), ends[1]
    lines += ["origin 0:%d" % name, "origin 1:%d" % (end - 3), "fault 0:3:%d:%d E1: unknown name" % (name + 1, name + 3)]
    lines += ["mend write `a`", "edit 0:%d:%d a" % (name + 1, name + 3), "mend write `b`", "edit 0:%d:%d b" % (name + 1, name + 3)]
    lines += ["fault 1:2:%d:%d E17: initial value does not conform" % (end - 3, end + 9)]
    lines += ["mend another", "edit 0:%d:%d + 1;\\n  q : Int;" % (ends[0], ends[0] + 1)]
    # And one behind them, which comes from the place of an edit.
    lines += ["apply 0:%d:%d + 1;\\n  q : Int;" % (ends[0], ends[0] + 1), "origin 0:%d" % ends[0]]
    lines += ["fault 0:3:%d:%d E1: unknown name" % (ends[0] + 7, ends[0] + 8), "mend write `r`", "edit 0:%d:%d r" % (ends[0] + 7, ends[0] + 8)]
    client = explained_later(room, words, files / "main.cl", main, "\n".join([*lines, ""]), [files / "main.cl", files / "part.cl"])
    unknown, behind = client.later(files / "main.cl")
    expect("name", (unknown["message"], whole(unknown)), ("unknown name `ab`" + LATER, {"start": at(main, name), "end": at(main, name + 2)}))
    expect("added", (behind["message"], whole(behind)), ("unknown name `q`" + LATER, {"start": at(main, sign + 4), "end": at(main, sign + 4)}))
    short = client.later(files / "part.cl")[0]
    expect("up to the end of the line", whole(short), {"start": at(part, end - 3), "end": at(part, end)})
    action = offered(client, files / "main.cl", unknown["range"])[-1]
    expect("title", action["title"], "Fix all errors that have a fix (4)")
    changes = action["edit"]["changes"]
    expect("main", applied(main, changes[(files / "main.cl").as_uri()]), main.replace("<- 1", "<- 1+ 1;\n  r : Int;"))
    expect("part", applied(part, changes[(files / "part.cl").as_uri()]), part.replace("a : Int", "a : Int;"))
    expect("where it comes from", [it["title"] for it in offered(client, files / "main.cl", behind["range"])], [action["title"]])
    client.end()


def two_fixes_of_an_error(room, words):
    """Both are offered, the first as the likelier one, and the first counts where all errors are fixed."""
    path, text = room / "main.cl", "class Main {\n  cat : Int; car : Int;\n  main() : Int { caz };\n  more() : Int { 1 + caz };\n};\n"
    one, two = byte(text, "caz }"), byte(text, "+ caz", 2)
    lines = "".join("fault 0:%d:%d:%d E1: unknown name\nmend write `cat`\nedit 0:%d:%d cat\nmend write `car`\nedit 0:%d:%d car\n" % (line, *[it, it + 3] * 3)
                    for line, it in ((3, one), (4, two)))
    client = Client(room, words.cool, explain=stand_in(room, lines))
    note = client.open(path, text)[0]
    found = offered(client, path, {"start": at(text, one), "end": at(text, one + 3)})
    wanted = [("write `cat`", True), ("write `car`", False), ("Fix all errors that have a fix (2)", False)]
    expect("both", [(it["title"], it["isPreferred"]) for it in found], wanted)
    expect("second", applied(text, found[1]["edit"]["changes"][path.as_uri()]), text.replace("caz };", "car };", 1))
    expect("all", applied(text, found[2]["edit"]["changes"][path.as_uri()]), text.replace("caz", "cat"))
    expect("hover", "Tried, as edits (code actions): write `cat`; or write `car`." in hover(client, path, at(text, one)), True)
    expect("line", note["range"]["start"]["line"], 2)
    client.end()


def edits_in_turn_are_combined(room, words):
    """Random edits, one after the other, and their combination, which `combinedEdits` computes without the text."""
    rnd, tried = random.Random(words.seed), []
    for _ in range(10 * words.edits):
        texts = ["".join(rnd.choice("aé\n") for _ in range(rnd.randrange(8))) for _ in range(2)]
        now, steps = [text.encode() for text in texts], []
        for _ in range(rnd.randrange(1, 7)):
            file = rnd.randrange(2)
            start, end = sorted(len(now[file].decode()[: rnd.randrange(len(texts[file]) + 9)].encode()) for _ in range(2))
            text = "".join(rnd.choice("xyü") for _ in range(rnd.randrange(4)))
            now[file] = now[file][:start] + text.encode() + now[file][end:]
            steps.append("apply %d:%d:%d %s" % (file, start, end, text))
        tried.append((texts, now, "\n".join([*steps, "origin 0:0", "fault 0:1:0:0 E1: unknown name", ""])))
    script = """
        const { explanationLines } = require(%s), { allFixes, editedFiles, fixesInTurn } = require(%s), { byteLetters, textOfLetters } = require(%s);
        const answers = JSON.parse(require("fs").readFileSync(0, "utf8")).map(([texts, lines]) => {
            const found = explanationLines(lines), { count, edits } = allFixes(found), data = texts.map(byteLetters);
            return [editedFiles(data, fixesInTurn(found)), editedFiles(data, [...edits].reverse())].map((it) => it.map(textOfLetters)).concat([edits, count]);
        });
        console.log(JSON.stringify(answers));
    """ % tuple(json.dumps(str(HERE.parent / "web" / "logic" / name)) for name in ("explain-lines.js", "fixes.js", "bytes.js"))
    asked = json.dumps([(texts, lines) for texts, _, lines in tried]).encode()
    answers = json.loads(subprocess.run(["node", "-e", script], input=asked, stdout=subprocess.PIPE, check=True).stdout)
    for (texts, now, lines), (in_turn, combined, edits, count) in zip(tried, answers):
        expect("in turn: %r %s" % (texts, lines), in_turn, [it.decode() for it in now])
        expect("combined: %r %s" % (texts, lines), combined, in_turn)
        expect("count", count, lines.count("apply"))
        expect("apart: %r %s" % (texts, lines), all((a["file"], a["end"]) < (b["file"], b["start"]) for a, b in zip(edits, edits[1:])), True)
    return "%d lists of edits" % len(tried)


# With the program itself.

# Lines with a mistake, and what a reader of it would write.
MISTAKES = [
    ("out_int(3) out_int(4);", "out_int(3); out_int(4);"),
    ("if n == 3 then 1 else 2 fi;", "if n = 3 then 1 else 2 fi;"),
    ("if n < 3 then 1 fi;", "if n < 3 then 1 else 0 fi;"),
    ("if n < 3 then 1 else if n < 5 then 2 else 3 fi;", "if n < 3 then 1 else if n < 5 then 2 else 3 fi fi;"),
    ("let x : Int <- 3; out_int(x);", "let x : Int <- 3 in out_int(x);"),
    ("let x : int <- 3 in x;", "let x : Int <- 3 in x;"),
    ("case self of m : Main -> 1; esac;", "case self of m : Main => 1; esac;"),
    ("out_int(m);", "out_int(n);"),
    ('out_sring("a");', 'out_string("a");'),
    ("while n < 3 { n <- n + 1; };", "while n < 3 loop { n <- n + 1; } pool;"),
    ("n <- -1;", "n <- ~1;"),
]
TAKEN = "; fi pool in then else loop of esac } ) : <- => ,".split()
LEAST_WRITTEN, LEAST_PUT_BACK = 0.6, 0.8  # of the lines, and of the texts that are as they were
MOST_FIXES = 6


def faults_have_their_cures(room, words):
    """The advice is that of docs/faults.md."""
    path, client = room / "a.cl", Client(room, words.cool, explain=real())
    client.open(path, 'class Main { main() : Int { let x : Int <- if true then 1 else "a" fi in x }; };\n')
    row = next(line for line in (HERE.parent / "docs" / "faults.md").read_text().splitlines() if line.startswith("| `E17:"))
    expect("cure", "To fix it: %s." % row.split("|")[3].strip() in hover(client, path, {"line": 0, "character": 32}), True)
    expect("beside it", hover(client, path, {"line": 0, "character": 41}), None)
    client.end()


def ranges_are_those_of_the_tokens(room, words):
    """A new line before the range of a fault moves the fault by a line, and one behind the range does not."""
    rnd, compared, path = random.Random(words.seed), 0, room / "one.cl"
    whole_text = (EXAMPLES / "shapes.cl").read_text().replace('"', '"é𝒙', 9)
    client, text = Client(room, words.cool, explain=real()), whole_text
    client.open(path, whole_text)

    def lines(changed):
        path.write_bytes(changed.encode())
        return [fault[0] for fault in due(words.cool, [path], room)[path]]

    for _ in range(words.edits // 3):
        text = whole_text if rnd.random() < 0.2 else edit(rnd, text)
        for note in client.change(path, text):
            offered(client, path, note["range"])  # so that it is explained
        for number, note in enumerate(it for it in client.told[path.as_uri()][1] if not it["message"].endswith(LATER)):
            expect("explained %s of %r" % (note, text), (hover(client, path, note["range"]["start"]) or "")[2:6].startswith(note["code"]), True)
            start, end = (place(text, note["range"][side]) for side in ("start", "end"))
            if note["severity"] == 1 and note["code"] not in ("C6", "L3") and start < end:  # of L3, a new line would end the string
                line = note["range"]["start"]["line"] + 1
                expect("new line before %s of %r" % (note, text), lines(text[:start] + "\n" + text[start:])[number], line + 1)
                expect("new line behind %s of %r" % (note, text), lines(text[:end] + "\n" + text[end:])[number], line)
                compared += 1
    client.end()
    return "%d ranges" % compared


def the_program_tells_errors_behind_fixes(room, words):
    """Its lines are those of the rules, and with all of its fixes the program is legal."""
    path = room / "two.cl"
    path.write_text(TWO)
    came = subprocess.run([real(), "--lines", path.name], cwd=room, stdout=subprocess.PIPE)
    expect("status", came.returncode, 1)
    expect("lines", came.stdout.decode(), lines_of_two())
    client = explained_later(room, words, path, TWO, came.stdout.decode())
    action = offered(client, path, client.shown(path)[0]["range"])[-1]
    path.write_text(applied(TWO, action["edit"]["changes"][path.as_uri()]))
    expect("with all fixes", (path.read_text(), check(words.cool, [path])[path]), (TWO_FIXED, []))
    client.end()


def program_of(body):
    return "class Main inherits IO {\n  n : Int;\n  main() : Object { {\n    %s\n  } };\n};\n" % body


def mended(client, path, text, room, words):
    """A text with the first fix that is offered, and with those of the errors of the same kind that come next, or None. With them the program has fewer
    errors, or later ones."""
    first = None
    for _ in range(MOST_FIXES):
        faults = [note for note in client.change(path, text) if note["severity"] == 1 and not note["message"].endswith(LATER)]
        first = first or faults
        actions = offered(client, path, faults[0]["range"])
        if not actions:
            return None
        for edit in actions[0]["edit"]["changes"][path.as_uri()]:
            start, end = (place(text, edit["range"][side]) for side in ("start", "end"))
            text = text[:start] + edit["newText"] + text[end:]
        (room / "mended.cl").write_text(text)
        left = check(words.cool, [room / "mended.cl"])[room / "mended.cl"]
        if not left or len(left) < len(first) or left[0][1][0] != first[0]["code"][0]:
            return text
    raise AssertionError("no fewer and no later errors in %r" % text)


def typical_mistakes_are_mended(room, words):
    path, client = room / "p.cl", Client(room, words.cool, explain=real())
    client.open(path, "")
    good = [mended(client, path, program_of(wrong), room, words) == program_of(right) for wrong, right in MISTAKES]
    client.end()
    expect("whether %d of %d are enough" % (sum(good), len(good)), sum(good) >= LEAST_WRITTEN * len(good), True)
    return "%d of %d as a reader would" % (sum(good), len(good))


def taken_tokens_are_put_back(room, words):
    chosen, path, client = random.Random(words.seed), room / "p.cl", Client(room, words.cool, explain=real())
    client.open(path, "")
    texts = [file.read_text() for file in sorted(EXAMPLES.glob("*.cl")) if not any(check(words.cool, [file]).values())]
    whole_again = tried = 0
    for number in range(min(words.edits, 60)):
        text = chosen.choice(texts)
        found = [token for token in TOKEN.finditer(text) if token.group() == TAKEN[number % len(TAKEN)]]
        if found:
            one = chosen.choice(found)
            taken = text[: one.start()] + text[one.end() :]
            (room / "taken.cl").write_text(taken)
            if any(check(words.cool, [room / "taken.cl"]).values()):
                new = mended(client, path, taken, room, words)
                tried += 1
                whole_again += new is not None and TOKEN.findall(new) == TOKEN.findall(text)
    client.end()
    expect("whether %d of %d are enough" % (whole_again, tried), whole_again >= LEAST_PUT_BACK * tried, True)
    return "of %d texts %d are as they were" % (tried, whole_again)


TESTS = [faults_are_explained, an_edit_of_another_file, where_only_main_is_wanting, an_answer_that_is_old, an_explanation_that_is_none,
         errors_behind_fixes, errors_behind_fixes_of_files, two_fixes_of_an_error, edits_in_turn_are_combined, the_program_tells_errors_behind_fixes,
         faults_have_their_cures, ranges_are_those_of_the_tokens, typical_mistakes_are_mended, taken_tokens_are_put_back]
