"""Converts the assembly of a function for wasm64 (64-bit WebAssembly) to assembly for wasm32.

The program keeps its addresses as numbers of 64 bits, which its sizes and offsets are made for; each is cut to 32 where memory is read or written.
That changes no address below 4 GiB. One above is refused by a 64-bit memory, and not by this: the program makes none but where its stack runs
over, just below 2 to the 64, which is cut to just below 4 GiB and refused, since the linker keeps the memory smaller.
"""
import re

CUT, WIDEN, WIDEN_SIGNED = "\ti32.wrap_i64", "\ti64.extend_i32_u", "\ti64.extend_i32_s"
STORE = re.compile(r"([if](?:32|64))\.store")
# Matches the instructions that end with an address, a size or the number of a function of the table.
TAKES = re.compile(r"[if](32|64)\.load|memory\.grow|call_indirect|global\.set\s+__stack_pointer")
# Matches the instructions that push a value above an address without using the address, so that the address can be cut before.
PUTS = re.compile(r"\t(local\.get|global\.get|[if](32|64)\.const)\b")


class Narrowing:
    """The code of a function as it is made, and the locals that hold values while the address below them is cut."""

    def __init__(self, function):
        self.function, self.code, self.held = function, [], {}

    def hold(self, name, kind):
        if name not in self.held:
            self.held[name] = self.function.new_local(kind)
        return self.held[name]

    def cut_below(self, *kinds):
        """Cuts the address that stands below values of these kinds, and of the values those that are sizes or addresses as well."""
        held = [(self.hold(f"{kind} {i}", kind.split()[0]), kind) for i, kind in enumerate(kinds)]
        self.code += [f"\tlocal.set\t{it}" for it, _ in reversed(held)] + [CUT]
        for it, kind in held:
            self.code += [f"\tlocal.get\t{it}", *[CUT] * kind.endswith("cut")]

    def add(self, line):
        code = line.strip()
        store = STORE.match(code)
        if store and PUTS.match(self.code[-1]):
            self.code.insert(-1, CUT)
        elif store:
            self.cut_below(store[1])
        elif code.startswith("memory.copy"):
            self.cut_below("i64 cut", "i64 cut")
        elif code.startswith("memory.fill"):
            self.cut_below("i32", "i64 cut")
        elif TAKES.match(code):
            self.code.append(CUT)
        self.code.append(line)
        if code.startswith("memory.size") or re.match(r"global\.get\s+__stack_pointer", code):
            self.code.append(WIDEN)
        elif code.startswith("memory.grow"):
            # It answers -1 where it cannot.
            self.code.append(WIDEN_SIGNED)


def narrow(function):
    made = Narrowing(function)
    for line in function.code:
        made.add(line)
    function.code = made.code


def narrow_lines(lines):
    """The lines between functions, without the section of target features, because it names memory of 64-bit addresses."""
    told = True
    for line in lines:
        if not isinstance(line, str):
            yield line
            continue
        if line.startswith("\t.section"):
            told = "target_features" not in line
        if told:
            yield line.replace("__stack_pointer, i64", "__stack_pointer, i32")
