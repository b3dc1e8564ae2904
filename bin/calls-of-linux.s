# The system calls of docs/machine.md, made of those of Linux on the MIPS (o32), for processors of both byte orders from the MIPS I on. A program follows,
# with `machine_call` in place of `syscall`, and `start_of_program` in place of `__start`; before it stand `linux.heap_bytes` and `linux.stack_bytes`.
        .module arch=mips1
        .module softfloat
        .set noat

# $ra is kept, and $at is lost.
        .macro machine_call
        lui $at, %hi(linux.registers + 4 * 31)
        sw $ra, %lo(linux.registers + 4 * 31)($at)
        jal linux.call
        .endm

# Linux may change these in a call, and what follows uses $s0 to $s2.
        .macro each instruction
        .irp number, 2, 3, 4, 5, 6, 7, 8, 9, 10, 11, 12, 13, 14, 15, 16, 17, 18, 24, 25
        \instruction $\number, 4 * \number($at)
        .endr
        .endm

# Where things stand behind `linux.registers`, whose address is in $s0.
linux.hi = 128
linux.lo = 132
linux.place = 136
linux.end = 140
linux.ended = 144
linux.break = 148
linux.return = 152
linux.digits = 156
linux.digits_end = 168

        .bss
        .align 12
linux.registers: .space 172
linux.buffer: .space 4096
        .align 12
linux.heap: .space linux.heap_bytes
linux.heap_end:
linux.stack: .space linux.stack_bytes
linux.stack_end:

        .text
# The start: where a pipe is read no more, a write fails (SIGPIPE is ignored), and registers are as docs/machine.md has them.
        .globl __start
__start:
        li $a0, 13
        la $a1, linux.ignored
        move $a2, $zero
        li $a3, 16
        li $v0, 4194
        syscall
        la $t0, linux.registers
        la $t1, linux.heap
        sw $t1, linux.break($t0)
        .irp number, 1, 2, 3, 4, 5, 6, 7, 8, 9, 10, 11, 12, 13, 14, 15, 16, 17, 18, 19, 20, 21, 24, 25, 26, 27, 30, 31
        addu $\number, $zero, $zero
        .endr
        mthi $zero
        mtlo $zero
        la $gp, linux.heap
        la $s7, linux.heap_end
        la $s6, linux.stack
        la $sp, linux.stack_end
        j start_of_program

linux.call:
        la $at, linux.registers
        sw $ra, linux.return($at)
        each sw
        mfhi $t0
        mflo $t1
        sw $t0, linux.hi($at)
        sw $t1, linux.lo($at)
        move $s0, $at
        sltiu $t0, $v0, 18
        beqz $t0, linux.bad_call
        la $t0, linux.calls
        sll $t1, $v0, 2
        addu $t0, $t0, $t1
        lw $t0, 0($t0)
        jr $t0
# The answer of a call is in $v0.
linux.answer:
        sw $v0, 4 * 2($s0)
linux.back:
        move $at, $s0
        lw $t0, linux.hi($at)
        lw $t1, linux.lo($at)
        mthi $t0
        mtlo $t1
        each lw
        lw $ra, 4 * 31($at)
        lw $at, linux.return($at)
        jr $at

# BadCall: ends by SIGTRAP.
linux.bad_call:
        break 0

linux.print_int:
        addiu $a1, $s0, linux.digits_end
        move $t0, $a0
        bgez $t0, linux.next_digit
        negu $t0, $t0
linux.next_digit:
        li $t1, 10
        divu $zero, $t0, $t1
        mfhi $t2
        mflo $t0
        addiu $t2, $t2, 48
        addiu $a1, $a1, -1
        sb $t2, 0($a1)
        bnez $t0, linux.next_digit
        bgez $a0, linux.no_sign
        li $t2, 45
        addiu $a1, $a1, -1
        sb $t2, 0($a1)
linux.no_sign:
        addiu $a2, $s0, linux.digits_end
        subu $a2, $a2, $a1
        b linux.write

linux.print_char:
        addiu $a1, $s0, linux.digits
        sb $a0, 0($a1)
        li $a2, 1
        b linux.write

linux.print_string:
        move $a1, $a0
        move $a2, $a0
linux.next_of_string:
        lbu $t0, 0($a2)
        addiu $a2, $a2, 1
        bnez $t0, linux.next_of_string
        subu $a2, $a2, $a1
        addiu $a2, $a2, -1

# Writes $a2 bytes from $a1 on; a write that fails ends the program with 8.
linux.write:
        move $s1, $a1
        move $s2, $a2
linux.write_rest:
        beqz $s2, linux.back
        li $a0, 1
        move $a1, $s1
        move $a2, $s2
        li $v0, 4004
        syscall
        bnez $a3, linux.not_written
        addu $s1, $s1, $v0
        subu $s2, $s2, $v0
        b linux.write_rest
# EINTR is 4.
linux.not_written:
        li $t0, 4
        beq $v0, $t0, linux.write_rest
        li $a0, 8
        b linux.exit2

# The next byte of the input but 0 to $v0, or -1 at its end, which is not asked for again. A read that fails ends the program with 7.
linux.next:
        lw $t0, linux.place($s0)
        lw $t1, linux.end($s0)
        beq $t0, $t1, linux.read
        addiu $t1, $t0, 1
        sw $t1, linux.place($s0)
        lbu $v0, 0($t0)
        beqz $v0, linux.next
        jr $ra
linux.read:
        lw $v0, linux.ended($s0)
        bnez $v0, linux.no_more
        move $a0, $zero
        la $a1, linux.buffer
        li $a2, 4096
        li $v0, 4003
        syscall
        bnez $a3, linux.not_read
        la $t0, linux.buffer
        sw $t0, linux.place($s0)
        addu $t0, $t0, $v0
        sw $t0, linux.end($s0)
        bnez $v0, linux.next
        li $v0, -1
        sw $v0, linux.ended($s0)
linux.no_more:
        jr $ra
linux.not_read:
        li $t0, 4
        beq $v0, $t0, linux.read
        li $s1, 7
        la $a1, linux.read_fault
        li $a2, 17
        b linux.note

linux.read_char:
        jal linux.next
        b linux.answer

# The number is in $s1; in $s2 is whether `-` stands before it.
linux.read_int:
        move $s1, $zero
        move $s2, $zero
linux.blanks:
        jal linux.next
        li $t0, 32
        beq $v0, $t0, linux.blanks
        li $t0, 9
        beq $v0, $t0, linux.blanks
        li $t0, 45
        bne $v0, $t0, linux.digit
        li $s2, 1
linux.after_digit:
        jal linux.next
linux.digit:
        addiu $t0, $v0, -48
        sltiu $t1, $t0, 10
        beqz $t1, linux.rest_of_line
        sll $t1, $s1, 3
        sll $t2, $s1, 1
        addu $s1, $t1, $t2
        addu $s1, $s1, $t0
        b linux.after_digit
linux.rest_of_line:
        li $t0, 10
        beq $v0, $t0, linux.number
        bltz $v0, linux.number
        jal linux.next
        b linux.rest_of_line
linux.number:
        move $v0, $s1
        beqz $s2, linux.answer
        negu $v0, $s1
        b linux.answer

linux.read_string:
        blez $a1, linux.back
        move $s1, $a0
        addiu $s2, $a1, -1
linux.rest_of_buffer:
        beqz $s2, linux.close
        jal linux.next
        bltz $v0, linux.close
        sb $v0, 0($s1)
        addiu $s1, $s1, 1
        addiu $s2, $s2, -1
        li $t0, 10
        bne $v0, $t0, linux.rest_of_buffer
linux.close:
        sb $zero, 0($s1)
        b linux.back

linux.sbrk:
        lw $v0, linux.break($s0)
        la $t0, linux.heap_end
        subu $t0, $t0, $v0
        sltu $t0, $t0, $a0
        bnez $t0, linux.no_room
        addu $t0, $v0, $a0
        sw $t0, linux.break($s0)
        b linux.answer
linux.no_room:
        li $v0, -1
        b linux.answer

linux.exit:
        move $a0, $zero
# Ends with the low byte of $a0, behind the note that 4 and 5 have.
linux.exit2:
        move $s1, $a0
        li $t0, 4
        la $a1, linux.heap_limit
        li $a2, 17
        beq $a0, $t0, linux.note
        li $t0, 5
        la $a1, linux.stack_limit
        li $a2, 18
        bne $a0, $t0, linux.exit_now
# Writes the note of $a2 bytes at $a1, and ends with $s1.
linux.note:
        li $a0, 2
        li $v0, 4004
        syscall
linux.exit_now:
        move $a0, $s1
        li $v0, 4001
        syscall

        .section .rodata
linux.calls:
        .word linux.bad_call, linux.print_int, linux.bad_call, linux.bad_call, linux.print_string, linux.read_int
        .word linux.bad_call, linux.bad_call, linux.read_string, linux.sbrk, linux.exit, linux.print_char
        .word linux.read_char, linux.bad_call, linux.bad_call, linux.bad_call, linux.bad_call, linux.exit2
# How a signal is ignored: flags, SIG_IGN, no mask.
linux.ignored: .word 0, 1, 0, 0, 0, 0
linux.heap_limit: .ascii "cool: heap limit\n"
linux.stack_limit: .ascii "cool: stack limit\n"
linux.read_fault: .ascii "cool: read fault\n"

        .text
