"""Used by `stress-try`: wrong assembly for a program, and the place where its run diverges from that of the right one, both written by hand."""

import re
from typing import NamedTuple

PROGRAM = b"""class Item {
  price : Int <- 3;
  name : String <- "pen";
  set(p : Int, n : String) : SELF_TYPE { { price <- p; name <- n; self; } };
  price() : Int { price };
  cheap(limit : Int) : Bool { price <= limit };
  label() : String { name.concat("!") };
};
class Gift inherits Item {
  price() : Int { price + 1 };
};
class Main inherits IO {
  a : Item <- new Item;
  b : Item <- (new Gift).set(7, "cup");
  count : Int <- 10;
  show(x : Item, times : Int) : Object {
    let i : Int <- 0 in
      while i < times loop {
        out_string(x.label());
        out_int(x.price());
        out_string("\\n");
        i <- i + 1;
      } pool
  };
  main() : Object { {
    show(a, 1);
    show(b, 2);
    if b.cheap(7) then out_string("cheap\\n") else out_string("dear\\n") fi;
    out_int(count / a.price());
  } };
};
"""
# The same program with an error at its end.
FAILING = PROGRAM.replace(b"count / a.price()", b"count / (a.price() - 3)")
WITH_SIX = ["p.cl:14: The reference calls Item.set with p = 7 in the initial value of b.", "The other code calls Item.set with p = 6."]


class Wrong(NamedTuple):
    """Wrong code: what is wrong with it, the pattern and text of each replacement, and the lines that tell of it, the last perhaps by its beginning."""

    what: str
    edits: list
    lines: list


def within(label, pattern):
    """A pattern within the lines of a label, up to those of the next method or initializer."""
    return rf"(?ms)(^{re.escape(label)}:\n(?:(?!^\w+[._]\w+:)[^\n]*\n)*?[^\n]*){pattern}"


LESS = (within("Item.cheap", r"slt \$t0, \$t4, \$t3\n\tsltiu \$t0, \$t0, 1"), r"\1slt $t0, $t3, $t4")
SIX = (r"(, Int_dispTab, )7\n", r"\g<1>6\n")
# `$sp` is the address of the next free word, as in the code of courses.
FREE_WORD = [(r"(-?\d+)\(\$(sp|fp)\)", lambda found: f"{int(found[1]) + 4}(${found[2]})"), (r"__start:\n", "__start:\n\taddiu $sp, $sp, -4\n")]
WRONG = (
    Wrong("two methods of a dispatch table", [("Gift.price, Item.cheap", "Item.cheap, Gift.price")], [
        "p.cl:19: The last call in common is call 7, of Item.label in Main.show.", "p.cl:20: Then the reference calls Gift.price in Main.show.",
        "The other code calls Item.cheap."]),
    Wrong("arguments in another order", [(within("Main_init", r"int_const2\b"), r"\1$7"), (within("Main_init", r"str_const3\b"), r"\1int_const2"),
                                         (r"\$7\n", "str_const3\n")], [
        'p.cl:14: The reference calls Item.set with p = 7 and n = "cup" in the initial value of b.',
        'The other code calls Item.set with p = "cup" and n = 7.']),
    Wrong("< for <=", [LESS], [
        "p.cl:28: The last call in common is call 11, of Item.cheap in Main.main.", "p.cl:28: Then the reference writes `cheap\\n` in Main.main.",
        "The other code writes `dear\\n`."]),
    Wrong("an attribute without its initial value", [(within("Main_init", r"sw \$a0, 20\(\$s0\)"), r"\1nop")], [
        "p.cl:14: The last call in common is call 1, of Item.set in the initial value of b.",
        "Then the reference calls Main.main while attribute count is 10.", "The other code calls Main.main while attribute count is 0."]),
    Wrong("an object of another class", [(within("Main_init", r"la \$a0, Gift_protObj"), r"\1la $a0, Item_protObj")], [
        "p.cl:14: The reference calls Item.set on an object of Gift in the initial value of b.", "The other code calls Item.set on an object of Item."]),
    Wrong("a wrong constant", [SIX], WITH_SIX),
    Wrong("a wrong constant, where $sp is the address of a free word", [SIX, *FREE_WORD], WITH_SIX),
    Wrong("a trap", [(r"(?m)^Item\.label:\n", "Item.label:\n\tlw $t0, 1($zero)\n")], [
        "p.cl:19: The last call in common is call 4, of Item.label in Main.show.", "p.cl:19: Then the reference writes `pen!3\\n` in Main.show.",
        "The other code ends with status 11 (trap: unaligned address at 0x00000001, pc 0x"]),
    Wrong("no end", [(r"(?m)^Item\.label:\n", "Item.label:\n\tb Item.label\n")], [
        "p.cl:19: The last call in common is call 4, of Item.label in Main.show.", "p.cl:19: Then the reference writes `pen!3\\n` in Main.show.",
        "The other code calls Item.label."]),
    Wrong("another last line", [("COOL program", "Cool program")], [
        "p.cl:29: The last call in common is call 12, of Item.price in Main.main.",
        "p.cl:29: Then the reference writes `3COOL program successfully executed\\n` in Main.main, and ends with status 0.",
        "The other code writes `3Cool program successfully executed\\n`, and ends with status 0."]),
    Wrong("a wrong constant, without labels of methods", [SIX, (r"\b(Item|Gift|Main)\.(?=[a-z])", r"\1_")], [
        "p.cl:20: The reference writes `cup!8\\n` in Main.show.", "The other code writes `cup!7\\n`.",
        "Note: only output and end are compared, because the other code has no label of a method"]),
    Wrong("< for <=, with $k0 in use", [LESS, (r"(?m)^Item\.set:\n", "Item.set:\n\tbeq $k0, $zero, 1\n\tjr $k0\n")], [
        "p.cl:28: The reference writes `cheap\\n` in Main.main.", "The other code writes `dear\\n`.",
        "Note: only output and end are compared, because records change the run"]),
)


def with_nop(text, chance):
    """The text with a `nop` for an instruction of a method, which does not belong to its frame, and the label of that method."""
    lines = text.split("\n")
    start, end = lines.index("String_init:") + 2, lines.index("\t.data")
    while True:
        at = chance.randrange(start, end)
        label = next(line[:-1] for line in reversed(lines[: at + 1]) if re.fullmatch(r"\w+(\.\w+|_init):", line))
        if lines[at][0] == "\t" and not re.search(r"\$(sp|fp|ra)", lines[at]) and "." in label:
            return "\n".join([*lines[:at], "\tnop", *lines[at + 1 :]]), label


def edited(text, edits):
    """The text with each replacement made, in each place of its pattern."""
    for pattern, new in edits:
        text, count = re.subn(pattern, new, text)
        if not count:
            raise ValueError(f"nothing to edit: {pattern}")
    return text
