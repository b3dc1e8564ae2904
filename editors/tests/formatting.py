"""Tests formatting: it follows the rules, changes nothing when done twice, and makes no other change, as the programs confirm."""
import base64
import os
import random
import re
import subprocess
from concurrent.futures import ThreadPoolExecutor

from .client import EXAMPLES, HERE, Client, expect, fill

CASES = HERE.parent / "conformance" / "cases"
FORMAT = HERE / "cool-format"
ROUGH = """(* first *)

class   Main inherits IO{main():Object{{
out_string("a  b") ;   -- said
      (* a note
           on two lines *)
if isvoid(self)then 1
   else 2 fi;
let x:Int<-~1,y:Int in


x+(  y*2 );
while x<3 loop
x<-x+1
pool;
case x of
a:Int=>
a;
esac; }};
};
"""
SMOOTH = """(* first *)

class Main inherits IO { main() : Object { {
  out_string("a  b");   -- said
  (* a note
       on two lines *)
  if isvoid (self) then 1
  else 2 fi;
  let x : Int <- ~1, y : Int in

    x + (y * 2);
  while x < 3 loop
    x <- x + 1
  pool;
  case x of
    a : Int =>
      a;
  esac; } };
};
"""


BETWEEN = [b" ", b" ", b" ", b"\n", b"\n", b"\n\n\n", b"\t ", b"\f", b" -- c\n", b"\t-- c  \r\n", b" (* c *) ", b"\n(* c\n      d *)\n"]
BETWEEN += [b"\n (* e\r\n *) (**) "]


def call(program, *words, namer="", **more):
    """The status, the output and the notes of cool-format."""
    environment = {**os.environ, "COOL": program, "COOL_EDITOR": namer}
    came = subprocess.run([FORMAT, *words], env=environment, stdout=subprocess.PIPE, stderr=subprocess.PIPE, **more)
    return came.returncode, came.stdout.decode(), came.stderr.decode()


def programs(program):
    """The programs of one file of examples/ and of the cases that are accepted, each text once."""
    found = {}
    for path in [*EXAMPLES.glob("*.cl"), *CASES.glob("*/*.cl")]:
        found.setdefault(path.read_bytes(), path)
    with ThreadPoolExecutor(2) as pool:
        ends = pool.map(lambda path: subprocess.run([program, "check", "--", path.name], cwd=path.parent, stderr=subprocess.PIPE).returncode, found.values())
        return [path for path, status in zip(found.values(), ends) if status == 0]


def assembled(program, folder, data):
    """The assembly of a program without the numbers of its lines, which are what `$t9` is given."""
    (folder / "p.cl").write_bytes(data)
    came = subprocess.run([program, "asm", "p.cl"], cwd=folder, stdout=subprocess.PIPE, check=True)
    return re.sub(rb"\tli \$t9, \d+\n", b"", came.stdout)


class Layout:
    """Calls the server's scripts on texts, in a separate process."""

    def __init__(self, program):
        call = ["node", HERE / "tests" / "layout.cjs"]
        self.process = subprocess.Popen(call, env={**os.environ, "COOL": program, "COOL_EDITOR": ""}, stdin=subprocess.PIPE, stdout=subprocess.PIPE)

    def asked(self, what, data):
        self.process.stdin.write(b"%s %s\n" % (what, base64.b64encode(data)))
        self.process.stdin.flush()
        line = self.process.stdout.readline()
        expect("an answer", line[-1:], b"\n")
        return [base64.b64decode(word) for word in line[:-1].split(b" ")]

    def laid_out(self, data):
        return self.asked(b"laid", data)[0]

    def roughly(self, data, rnd):
        """A program with other blanks, line ends and comments between its tokens."""
        return b"".join(part for token in self.asked(b"tokens", data) for part in (rnd.choice(BETWEEN), token))

    def end(self):
        self.process.communicate()


def programs_are_laid_out(room, words):
    """Each is one of the same code, and is laid out already then; so are the examples and some others with other blanks and comments."""
    rnd, count, found, layout = random.Random(words.seed), 0, programs(words.cool), Layout(words.cool)
    some = rnd.sample([path for path in found if path.parent != EXAMPLES and path.stat().st_size < 20000], 20)
    for path in found:
        data = path.read_bytes()
        for text in [data, layout.roughly(data, rnd)] if path.parent == EXAMPLES or path in some else [data]:
            new = layout.laid_out(text)
            expect("%s again" % path, layout.laid_out(new) == new, True)
            expect("the code of %s" % path, assembled(words.cool, room, new) == assembled(words.cool, room, data), True)
            count += 1
    layout.end()
    return "%d texts" % count


def rules_of_layout(room, words):
    layout = Layout(words.cool)
    laid_out = layout.laid_out
    expect("laid out", laid_out(ROUGH.encode()).decode(), SMOOTH)
    expect("with Windows line ends", laid_out(ROUGH.encode().replace(b"\n", b"\r\n")), SMOOTH.encode().replace(b"\n", b"\r\n"))
    expect("a class that others need", laid_out(b"class A inherits B{a:C;};\n"), b"class A inherits B { a : C; };\n")
    expect("nothing", laid_out(b" \n\n"), b"")
    for path in EXAMPLES.glob("*.cl"):
        expect("an example", (path.name, laid_out(path.read_bytes()) == path.read_bytes()), (path.name, True))
    layout.end()


def what_is_not_laid_out(room, words):
    at = fill(room / "bad", syntax="class A {\n a : Int\n};", binary=b"\x7fELF\0\0", wide="class A { };".encode("utf-16"), good="class A{};")
    for name, note in (("syntax", "3: S1: unexpected token"), ("binary", "1: L1: unknown character"), ("wide", "1: L1: unknown character")):
        said = "cool-format: %s.cl:%s: not formatted\n" % (name, note)
        expect(name, call(words.cool, "--write", name + ".cl", cwd=at), (1, "", said))
    (at / "large.cl").write_bytes(b" " * 1048577)
    expect("too large", call(words.cool, "large.cl", cwd=at), (1, "", "cool-format: large.cl: not formatted: cool: files too large\n"))
    expect("no program", call("/none", "good.cl", cwd=at)[::2], (1, "cool-format: good.cl: not formatted: the program did not answer\n"))
    expect("a program that says what is not so", call("/bin/true", at / "syntax.cl")[0], 0)
    client = Client(room / "bad", words.cool)
    client.open(at / "syntax.cl", "class A {\n a : Int\n};")
    answer = client.request("textDocument/formatting", {"textDocument": {"uri": (at / "syntax.cl").as_uri()}, "options": {}})
    expect("refused in an editor", answer["error"]["message"], "syntax.cl:3: S1: unexpected token: not formatted")
    client.end()


def what_the_programs_find_changed(room, words):
    """Stand-ins that tell of a text laid out what they do not tell of it before."""
    at, new = fill(room / "some", rough="class A{};"), "class A { };"

    def stand_in(name, before, after):
        (room / name).write_text("#!/bin/sh\nif grep -q '%s' 0.cl; then %s; else %s; fi\n" % (new, after, before))
        (room / name).chmod(0o755)
        return str(room / name)

    cool = stand_in("cool", "true", "echo '0.cl:1: E1: unknown name' >&2; exit 1")
    expect("a fault", call(cool, "rough.cl", cwd=at), (1, "", "cool-format: rough.cl: not formatted: its errors would change\n"))
    said = "cool-format: rough.cl: not formatted: a name would mean something else\n"
    for number, mark in enumerate(("0:1:6 class A B 0:1:6", "0:1:7 class A A 0:1:7", "0:1:6 class A A -")):
        namer = stand_in("namer", "echo 0:1:6 class A A 0:1:6", "echo " + mark)
        expect("mark %d" % number, call(words.cool, "rough.cl", namer=namer, cwd=at), (1, "", said))
    namer = stand_in("namer", "echo 0:1:6 class A A 0:1:6", "echo 0:1:6 class A A 0:1:6")
    expect("the same", call(words.cool, "rough.cl", namer=namer, cwd=at), (0, new + "\n", ""))


def words_of_cool_format(room, words):
    at = fill(room / "some", rough="class A{};", smooth="class A { };\n")
    expect("to the output", call(words.cool, at / "rough.cl"), (0, "class A { };\n", ""))
    expect("of the input", call(words.cool, input=b"class A{};"), (0, "class A { };\n", ""))
    expect("checked", call(words.cool, "--check", "rough.cl", "smooth.cl", cwd=at), (1, "rough.cl\n", ""))
    (at / "rough.cl").chmod(0o640)
    (at / "link.cl").symlink_to("rough.cl")
    expect("written", call(words.cool, "--write", "link.cl", "smooth.cl", cwd=at), (0, "", ""))
    there = (at / "rough.cl").read_text(), (at / "rough.cl").stat().st_mode & 0o777, (at / "link.cl").is_symlink()
    expect("in its place", there, ("class A { };\n", 0o640, True))
    expect("and nothing else", sorted(path.name for path in at.iterdir()), ["link.cl", "rough.cl", "smooth.cl"])
    expect("other words", [call(words.cool, *it)[0] for it in (["--write"], ["-x"], ["a", "b"])], [2, 2, 2])
    expect("a missing file", call(words.cool, "--check", "none.cl", cwd=at), (1, "", "cool-format: none.cl: no such file or directory\n"))


def edits_of_an_editor(room, words):
    """The edits that an editor gets are right, also behind characters of two units."""
    text = 'class Main{main():Object{"\U0001f600é"};--  \U0001f600\n};'
    at, client = fill(room / "program", p=text) / "p.cl", Client(room / "program", words.cool)
    client.open(at, text)
    edits = client.request("textDocument/formatting", {"textDocument": {"uri": at.as_uri()}, "options": {}})["result"]
    units = text.encode("utf-16-le")
    starts = [0, *(match.end() for match in re.finditer("\n", text))]
    for edit in reversed(edits):
        start, end = (2 * (len(text[: starts[it["line"]]].encode("utf-16-le")) // 2 + it["character"]) for it in (edit["range"]["start"], edit["range"]["end"]))
        units = units[:start] + edit["newText"].encode("utf-16-le") + units[end:]
    expect("edited", units.decode("utf-16-le"), 'class Main { main() : Object { "\U0001f600é" }; --  \U0001f600\n};\n')
    client.end()


TESTS = [rules_of_layout, programs_are_laid_out, what_is_not_laid_out, what_the_programs_find_changed, words_of_cool_format, edits_of_an_editor]
