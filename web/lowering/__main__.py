"""Lowers assembly that clang wrote for wasm64, on standard input, to assembly for wasm32: python3 web/lowering <WIDE.s >PROGRAM.s

Addresses get 32 bits (narrow.py), and deep recursion continues on further stacks (deepen.py)."""
import sys

from assembly import Function, parts
from deepen import DECLARED, deepen, enter, recursive
from narrow import narrow, narrow_lines

# The cycles of calls are looked for by recursion.
sys.setrecursionlimit(100_000)
read = list(narrow_lines(parts(sys.stdin.read().split("\n"))))
functions = {it.name: it for it in read if isinstance(it, Function)}
for it in functions.values():
    narrow(it)
again = [functions[it] for it in recursive(functions)]
for number, it in enumerate(again):
    deepen(it, number)
for it in [*(DECLARED if again else []), *read, *(enter(again) if again else [])]:
    print(*(it.lines() if isinstance(it, Function) else [it]), sep="\n")
