"""Converts an image (the executable file that `cool build` writes) to assembly of its machine words for GNU as and ld, for `qemu-compare --images`.
docs/mips-linux.md says how an image without delay slots runs on a processor that has them.
"""
import struct

# Where text and data of an image begin. The word at address a is the first of a block of eight words at 8 * a + BLOCKS.
TEXT, DATA, BLOCKS, WORDS = 0x00400000, 0x10000000, 0x02000000, 8
# The sections of the text and where ld puts them: the heap begins two pages behind `.bss`, at 0x20000000.
PLACES = {".image_text": WORDS * TEXT + BLOCKS, ".image_data": DATA, ".bss": 0x1FFFE000}
NOP, K0, K1, RA = 0, 26, 27, 31
SPECIAL, REGIMM, J, JAL, BEQ, BGTZ = 0, 1, 2, 3, 4, 7
JR, JALR, SYSCALL = 8, 9, 12


def load(register, value):
    """`lui` and `ori`."""
    return [0x3C000000 | register << 16 | value >> 16, 0x34000000 | register << 21 | register << 16 | value & 0xFFFF]


def jump(address):
    return [J << 26 | (WORDS * address + BLOCKS) >> 2 & 0x03FFFFFF, NOP]


def through(register):
    """Goes to the block of the address that a register holds: `sll`, `lui`, `addu`, `jr`."""
    return [register << 16 | K0 << 11 | 3 << 6, load(K1, BLOCKS)[0], K0 << 21 | K1 << 16 | K0 << 11 | 33, K0 << 21 | JR, NOP]


def block(word, address):
    """The words that have the effect of a word at an address: the word itself, and if it jumps or branches, a delay slot and the block of its target."""
    op, function, behind = word >> 26, word & 63, address + 4
    if op in (J, JAL):
        return load(RA, behind) * (op == JAL) + jump((word & 0x03FFFFFF) << 2)
    if op == REGIMM or BEQ <= op <= BGTZ:
        goal = behind + 4 * ((word & 0xFFFF ^ 0x8000) - 0x8000)
        return [word & 0xFFFF0000 | 3, NOP] + jump(behind) + jump(goal)
    if op == SPECIAL and function in (JR, JALR):
        way = through(word >> 21 & 31)
        return way[:3] + load(word >> 11 & 31, behind) * (function == JALR) + way[3:]
    return [word] + jump(behind)


def image_text(image):
    """The text after that of bin/calls-of-linux.s: a `syscall` becomes a call of the routine there, and all other words are numbers."""
    words, data, entry = struct.unpack_from("<3I", image, 8)
    out = ["start_of_program: j 0x%x" % (WORDS * entry + BLOCKS), '.section .image_text, "ax"', ".set noreorder"]
    for place, (word,) in enumerate(struct.iter_unpack("<I", image[20 : 20 + 4 * words])):
        address = TEXT + 4 * place
        if word == SYSCALL:
            out += ["machine_call", "nop"] + [".word 0x%x" % other for other in jump(address + 4)]
        else:
            out += [".word 0x%x" % other for other in block(word, address)]
        out.append(".balign %d" % (4 * WORDS))
    out += ['.section .image_data, "aw"'] + [".byte %d" % byte for byte in image[20 + 4 * words :]]
    return "\n".join(out).encode() + b"\n"
