"""Converts the text of an LLVM module for x86-64 to one for wasm64 (64-bit WebAssembly): python3 retarget.py <NATIVE.ll >WIDE.ll

Sizes and offsets stand in it as numbers, and are those of wasm64 as well. Names in quotes get ones of letters and digits, which assembly wants."""
import re
import sys

LAYOUT = "e-m:e-p:64:64-p10:8:8-p20:8:8-i64:64-i128:128-n32:64-S128-ni:1:10:20"
NAME = re.compile(r'@"[^"]*"')
# The replacements, (pattern, text), in the lines that begin with each key.
CHANGES = {
    "target datalayout": [(r'".*"', f'"{LAYOUT}"')],
    "target triple": [(r'".*"', '"wasm64-unknown-unknown"')],
    # clang gives `main` another type there.
    "define i32 @main(": [("@main", "@cool_main")],
    # No probes of a stack's guard page, no frame pointer, and no test of memory, which `rt try` asks for.
    "attributes": [
        (r' "probe-stack"="inline-asm"| "stack-probe-size"="\d+"| "frame-pointer"="all"| sanitize_address', ""),
        (r'"target-cpu"="x86-64[^"]*"', '"no-builtin-bcmp" "no-builtin-memcmp" "no-builtin-strlen" "target-cpu"="lime1"'),
        (r"\{ \}$", "{ nounwind }"),
    ],
}
BEGINS = re.compile("|".join(map(re.escape, CHANGES)))
numbers = {}

for line in sys.stdin:
    begin = BEGINS.match(line)
    for old, new in CHANGES[begin[0]] if begin else ():
        line = re.sub(old, new, line)
    if begin and re.search("x86|probe", line):
        sys.exit(f"retarget.py: this is for another processor in a way that is not known here: {line}")
    sys.stdout.write(NAME.sub(lambda name: f"@n{numbers.setdefault(name[0], len(numbers))}", line))
