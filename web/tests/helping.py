"""The view of help, beside the documents that it is made of."""
import re

from page import ROOT, example, same, test

FAULTS = "faults", "Compile-time errors"
SECTIONS = ("quickstart", "The language on a page"), FAULTS, ("faults", "Run-time errors"), ("quickstart", "Common surprises")
REGISTERS = "runtime", "Registers"
ROWS = "[...at('%s').querySelectorAll('tr')].map((it) => [...it.cells].map((cell) => cell.textContent).join('|'))"


def rows(name, heading):
    """The rows of the tables of a section, as they are read."""
    lines = (ROOT / "docs" / f"{name}.md").read_text().partition(f"\n## {heading}\n")[2].partition("\n## ")[0].split("\n")
    cells = [[re.sub(r"\[(.*?)\]\(.*?\)", r"\1", cell.strip().replace("`", "")) for cell in line.split("|")[1:-1]] for line in lines if line.startswith("|")]
    return ["|".join(row) for row in cells if not set("".join(row)) <= {"-"}]


@test("has the language, the faults and what surprises as the documents do, and goes to each")
def helps(page):
    page.start(("hello.cl", example("hello.cl")))
    page.click("tab-help")
    same(page.run(f"return {ROWS % 'help-sections'};"), sum((rows(*it) for it in SECTIONS), []))
    same(page.run("return [...at('help-contents').children].map((it) => it.textContent);"), [heading for _, heading in SECTIONS])
    page.run("at('help-contents').lastChild.click();")
    page.wait("at('help').scrollTop > 1000")


@test("tells of a register what the documents do")
def registers(page):
    page.open()
    told = dict(row.split("|") for row in rows(*REGISTERS))
    same(page.run("return ['a0', 's7', 't9', 't0'].map((it) => ROLES[it] ?? '');"), [told["$a0"], told["$s7"], told["$t9"], ""])


@test("has the rows of the program's faults above, each once, as they come and go")
def of_faults(page):
    page.start(("mistakes.cl", example("mistakes.cl")))
    page.click("tab-help")
    shown = page.run(f"return {ROWS % 'help-faults'};")
    same([it.split("|")[0] for it in shown], ["E1: unknown name", "E18: body does not conform", "E6: argument does not conform"])
    same([it for it in shown if it not in rows(*FAULTS)], [])
    page.start(("p.cl", "class Main { a : Int <- b; c : Int <- b; main() : Object { 0 }; };"))
    same(len(page.run(f"return {ROWS % 'help-faults'};")), 1)
    page.start(("hello.cl", example("hello.cl")))
    same(page.text("help-faults"), "")
