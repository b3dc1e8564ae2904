"""Changes recursive functions so that deep recursion continues on a new stack before the present one overflows.

An engine's stack has a megabyte or less, where the program has eight on Linux. So each function that can come to call itself adds about what its
frame takes to the global `depth`. Where that passes MOST_BYTES, it leaves its arguments in memory and asks the host, by `deeper`, to call
`cool_enter` on another stack; that calls it there, with the depth begun anew.
"""
from assembly import tabbed

MOST_BYTES, FRAME_BYTES, LOCAL_BYTES = 100_000, 80, 8
OPENS, CLOSES = {"block", "loop", "if"}, {"end_block", "end_loop", "end_if"}
# The global, and the host's function.
DECLARED = ["\t.globaltype\tdepth, i32", "depth:", "\t.functype\thost_deeper (i32, i32) -> ()", "\t.import_module\thost_deeper, host",
    "\t.import_name\thost_deeper, deeper"]


def recursive(functions):
    """The functions that can come to call themselves: those of which a cycle of calls leads through each other (Tarjan's algorithm)."""
    calls = {name: sorted(it.calls() & functions.keys()) for name, it in functions.items()}
    order, low, open_, found = {}, {}, [], []

    def visit(name):
        order[name] = low[name] = len(order)
        open_.append(name)
        for other in calls[name]:
            if other not in order:
                visit(other)
            if other in open_:
                low[name] = min(low[name], low[other])
        if low[name] == order[name]:
            at = open_.index(name)
            cycle = open_[at:]
            del open_[at:]
            if len(cycle) > 1 or name in calls[name]:
                found.extend(cycle)

    for name in functions:
        if name not in order:
            visit(name)
    return sorted(found)


def ending_by_branches(code):
    """The code without its end, with a branch to the end of a block around it in the place of each return."""
    nested = 0
    for line in code[:-1]:
        word = line.split()[0] if line.strip() else ""
        nested += (word in OPENS) - (word in CLOSES)
        yield f"\tbr\t{nested}" if word == "return" else line


def deepen(function, number):
    """Has the function tell its depth, and go on elsewhere; `cool_enter` knows it by this number."""
    cost = FRAME_BYTES + LOCAL_BYTES * len(function.parameters + function.locals)
    before, at = function.new_local("i32"), function.new_local("i32")
    room = 16 * max(1, (len(function.parameters) + 1) // 2)
    begin = ["global.get depth", f"local.tee {before}", f"i32.const {cost}", "i32.add", "global.set depth",
        "global.get depth", f"i32.const {MOST_BYTES}", "i32.gt_u", "if"]
    leave = ["global.get __stack_pointer", f"i32.const {room}", "i32.sub", f"local.tee {at}", "global.set __stack_pointer"]
    for i, kind in enumerate(function.parameters):
        leave += [f"local.get {at}", f"local.get {i}", f"{kind}.store {8 * i}"]
    ask = [f"i32.const {number}", f"local.get {at}", "call host_deeper", f"local.get {at}", f"i32.const {room}", "i32.add",
        "global.set __stack_pointer", f"local.get {before}", "global.set depth"]
    take = [it for kind in function.answers for it in (f"local.get {at}", f"{kind}.load 0")]
    stay = ["return", "end_if", " ".join(["block", *function.answers])]
    end = ["end_block", f"local.get {before}", "global.set depth", "end_function"]
    function.code = [*tabbed(begin + leave + ask + take + stay), *ending_by_branches(function.code), *tabbed(end)]


def entered(function):
    """The code of `cool_enter` for a function. Its local 1 is the address of the arguments, and of the results after the call."""
    take = [it for i, kind in enumerate(function.parameters) for it in ("local.get 1", f"{kind}.load {8 * i}")]
    keep = [f"{kind}.store 0" for kind in function.answers]
    return [*["local.get 1"] * len(keep), *take, f"call {function.name}", *keep]


def enter(functions):
    """The lines of `cool_enter`, whose local 0 is the number of the function."""
    cases = [it for one in functions for it in ["end_block", *entered(one), "local.get 2", "global.set depth", "return"]]
    code = ["global.get depth", "local.set 2", "i32.const 0", "global.set depth", *["block"] * len(functions), "local.get 0",
        f"br_table {{{', '.join(map(str, range(len(functions))))}}}", *cases, "end_function"]
    head = ['\t.section\t.text.cool_enter,"",@', "\t.globl\tcool_enter", "\t.type\tcool_enter,@function", "cool_enter:"]
    return [*head, "\t.functype\tcool_enter (i32, i32) -> ()", "\t.local\ti32", *tabbed(code)]
