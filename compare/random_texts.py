"""Generates random assembly texts for `random-cases`. A text uses all instructions, directives and system calls, and prints its registers, HI, LO, its data
and some of its stack at the end. It avoids the points in which SPIM differs (docs/spim.md): no instruction traps, and a register with an address is
changed to the difference of two addresses.
"""
import random

# $gp has the address of `area`, $sp points at 64 bytes of the stack, $fp counts turns, and $at is the assembler's.
REGISTERS = "v0 v1 a0 a1 a2 a3 t0 t1 t2 t3 t4 t5 t6 t7 s0 s1 s2 s3 s4 s5 s6 s7 t8 t9 k0 k1 ra".split()
SIGNED, UNSIGNED = (-32768, 32767), (0, 65535)
WORDS = [0, 1, -1, 2147483647, -2147483648, 65535, 65536, 32768, -32768, 4294967295]
TWO_WORDS = "la li bgt bge blt ble mul".split()
AREA = 128
LINES = ["12\n", "-7 x\n", "text\n", "\n", "2147483648\n", "99999999999\n", "a line\n"]
# A line is a few instructions: {d} {s} {t} {r} are registers, {h} a shift, {i} and {u} immediates, {w} a word, {f} and {b} and {c} places of a word, of
# two bytes and of one in `area`. What may overflow is halved first; 0x80000000 is not divided by 0xffffffff.
FORMS = """
addu|subu|and|or|xor|nor|slt|sltu {d}, {s}, {t}
sra {s}, {s}, 1; sra {t}, {t}, 1; add|sub {d}, {s}, {t}
sra {s}, {s}, 1; addi {d}, {s}, {i}
sra {s}, {s}, 1; neg {d}, {s}
addiu|slti|sltiu {d}, {s}, {i}
andi|ori|xori {d}, {s}, {u}
sll|srl|sra {d}, {s}, {h}
sllv|srlv|srav {d}, {s}, {t}
lui {d}, {u}
move {d}, {s}
nop
mult|multu {s}, {t}; mfhi {d}; mflo {r}
ori {s}, {s}, 1; divu {s}, {t}; mfhi {d}; mflo {r}
srl {t}, {t}, 1; div {s}, {t}; mflo {d}; mfhi {r}
sra {s}, {s}, 1; div {s}, {t}; mfhi {d}; mflo {r}
mul {d}, {s}, {t}
mthi|mtlo {s}
mfhi|mflo {d}
sw {s}, {f}($gp); lw {d}, {f}($gp); lh|lhu {r}, {b}($gp); lb|lbu {t}, {c}($gp)
sh {s}, {b}($gp); lw {d}, {f}($gp)
sb {s}, {c}($gp); lw {d}, {f}($gp)
sw {s}, {f}($sp); lb|lbu|lw {d}, {f}($sp)
li {s}, {far}; addu {s}, {s}, $gp; sw {d}, {back}({s}); lb|lbu|lh|lhu|lw {s}, {back}({s})
la {d}, area; subu {d}, {d}, $gp
move $a0, {s}; li $v0, 1; syscall; li $a0, {byte}; li $v0, 11; syscall
la $a0, string; li $v0, 4; syscall; la $a0, string; subu $a0, $a0, $gp
li $v0, 5; syscall; li $v0, 12; syscall
addiu $a0, $gp, {f}; li $a1, {size}; li $v0, 8; syscall; subu $a0, $a0, $gp
li $a0, 8; li $v0, 9; syscall; sw $a0, 4($v0); lw $v0, 4($v0)
""".strip().split("\n")
# New words come often, so that not all registers become 0 or -1.
FORMS += ["li {d}, {w}"] * 8
BRANCHES = ["beq|bne {s}, {t}, ", "blez|bgtz|bltz|bgez {s}, "]
BRANCHES_TO_LABELS = BRANCHES + ["beqz|bnez {s}, ", "bgt|ble|blt|bge {s}, {t}, ", "b "]


class Maker:
    """The text of a seed."""

    def __init__(self, seed):
        self.random, self.count, self.registers = random.Random(seed), 0, REGISTERS

    def label(self):
        self.count += 1
        return "L%d" % self.count

    def near_ends(self, least, most):
        return self.random.choice([least, most, 0, 1, self.random.randint(least, most)])

    def word(self):
        return self.random.choice(WORDS + [self.random.randint(-2147483648, 4294967295)] * 10)

    def filled(self, form):
        """The instructions of a form. A register may also be $zero where it is read or written, but not where an address is made in it."""
        chance = self.random
        names = {name: "$" + register for name, register in zip("dstr", chance.sample(self.registers, 4))}
        if chance.random() < 0.1 and "far" not in form:
            names[chance.choice("dt")] = "$zero"
        place, back = 4 * chance.randrange(16), 4 * chance.randint(-8192, 8191)
        names.update(
            i=self.near_ends(*SIGNED), u=self.near_ends(*UNSIGNED), h=chance.randrange(32), w=self.word(), f=place, b=place + chance.choice([0, 2]),
            c=place + chance.randrange(4), far=place - back, back=back, byte=chance.choice([10, 32, 65, 126, 200]), size=chance.randint(1, 8),
        )
        chosen = [" ".join(chance.choice(word.split("|")) for word in part.split(" ")) for part in form.split("; ")]
        return [part.format(**names) for part in chosen]

    def size(self, lines):
        return sum(2 if line.split()[0] in TWO_WORDS else 1 for line in lines if not line.endswith(":"))

    def some(self, most):
        out = []
        for _ in range(self.random.randint(1, most)):
            out += self.filled(self.random.choice(FORMS))
        return out

    def over(self):
        """A branch over some instructions, to a label or by a number."""
        inner, label = self.some(3), self.label()
        if self.random.random() < 0.5:
            return self.filled(self.random.choice(BRANCHES) + str(self.size(inner))) + inner
        return self.filled(self.random.choice(BRANCHES_TO_LABELS) + label) + inner + [label + ":"]

    def loop(self):
        """A few turns, and a branch back by a label or by a number."""
        inner, label = self.some(3) + ["addiu $fp, $fp, -1"], self.label()
        goal = label if self.random.random() < 0.5 else str(-self.size(inner) - 1)
        return ["li $fp, %d" % self.random.randint(1, 4), label + ":"] + inner + ["%s $fp, %s" % (self.random.choice(["bgtz", "bne $zero,"]), goal)]

    def call(self):
        """A call by jal or jalr of what stands behind; the address to return to becomes 0 there."""
        routine, behind, end = self.label(), self.label(), self.label()
        back, free = self.random.sample(REGISTERS[:-1], 2)
        how, back = self.random.choice([(["jal " + routine], "ra"), (["la $%s, %s" % (free, routine), "jalr $%s, $%s" % (back, free)], back)])
        self.registers = [register for register in REGISTERS if register not in (back, free)]
        forms, inner = [form for form in FORMS if "syscall" not in form], []
        for _ in range(self.random.randint(1, 3)):
            inner += self.filled(self.random.choice(forms))
        self.registers = REGISTERS
        after = ["la $%s, %s" % (free, behind), "subu $%s, $%s, $%s" % (back, back, free), "li $%s, %d" % (free, self.word())]
        return how + [behind + ":"] + after + ["j " + end, routine + ":"] + inner + ["jr $" + back, end + ":"]

    def data(self):
        rows = [".data", ".align 2", "low:"]
        for _ in range(self.random.randint(2, 8)):
            numbers = ", ".join(str(self.word()) for _ in range(self.random.randint(1, 4)))
            small = ", ".join(str(self.random.randint(-128, 255)) for _ in range(self.random.randint(1, 5)))
            text = "".join(self.random.choice(["a", "Z", " ", "\\n", "\\t", '\\"', "\\\\", "é", "~"]) for _ in range(self.random.randrange(9)))
            rows.append(self.random.choice([".word " + numbers, ".byte " + small, '.ascii "%s"' % text, '.asciiz "%s"' % text,
                                            ".space %d" % self.random.randrange(9), ".align %d" % self.random.randrange(4)]))
            if self.random.random() < 0.3:
                rows.append("%s: %s:" % (self.label(), self.label()))
        rows += ['string: .asciiz "a string\\n"', ".align 2", "area: .space %d" % AREA]
        return rows + ["saved: .space %d" % (4 * len(REGISTERS) + 8), "high: .word 0"]

    def end(self):
        """Saves and prints everything, and exits."""
        rows = ["sw $%s, %d($gp)" % (register, AREA + 4 * at) for at, register in enumerate(REGISTERS)]
        rows += ["mfhi $t0", "mflo $t1", "sw $t0, %d($gp)" % (AREA + 4 * len(REGISTERS)), "sw $t1, %d($gp)" % (AREA + 4 * len(REGISTERS) + 4)]
        for begin, end in (("la $s0, low", "la $s1, high"), ("move $s0, $sp", "addiu $s1, $sp, 64")):
            again = self.label()
            rows += [begin, end, again + ":", "lw $a0, 0($s0)", "li $v0, 1", "syscall", "li $a0, 32", "li $v0, 11", "syscall", "addiu $s0, $s0, 4"]
            rows.append("bne $s0, $s1, " + again)
        return rows + ["li $a0, %d" % self.random.choice([0, 3, 4, 5, 7, 255]), "li $v0, %d" % self.random.choice([10, 17]), "syscall"]

    def text(self):
        rows = self.data() + [".text", ".globl main", "main:", "addiu $sp, $sp, -64", "la $gp, area", "mthi $zero", "mtlo $zero"]
        rows += ["li $%s, %d" % (register, self.word()) for register in REGISTERS]
        for _ in range(self.random.randint(5, 40)):
            rows += self.random.choice([lambda: self.some(4), lambda: self.some(4), self.over, self.loop, self.call])()
        return "\n".join(rows + self.end()) + "\n"

    def files(self):
        """The files of a case."""
        lines = "".join(self.random.choices(LINES, k=3000))
        return {"text.s": self.text(), "input": lines, "words": "exec\n--heap\n64\n--stack\n64\ntext.s\n"}
