# The registers as a run begins: all but four are 0, and HI and LO.
        .text
__start:
        or $s0, $s0, $1
        or $s0, $s0, $2
        or $s0, $s0, $3
        or $s0, $s0, $4
        or $s0, $s0, $5
        or $s0, $s0, $6
        or $s0, $s0, $7
        or $s0, $s0, $8
        or $s0, $s0, $9
        or $s0, $s0, $10
        or $s0, $s0, $11
        or $s0, $s0, $12
        or $s0, $s0, $13
        or $s0, $s0, $14
        or $s0, $s0, $15
        or $s0, $s0, $17
        or $s0, $s0, $18
        or $s0, $s0, $19
        or $s0, $s0, $20
        or $s0, $s0, $21
        or $s0, $s0, $24
        or $s0, $s0, $25
        or $s0, $s0, $26
        or $s0, $s0, $27
        or $s0, $s0, $30
        or $s0, $s0, $31
        mfhi $t0
        or $s0, $s0, $t0
        mflo $t0
        or $s0, $s0, $t0
        move $a0, $s0
        li $v0, 1               # print_int
        syscall
        li $a0, 10
        li $v0, 11              # print_char
        syscall
        move $a0, $gp
        li $v0, 1
        syscall
        li $a0, 10
        li $v0, 11              # print_char
        syscall
        move $a0, $s7
        li $v0, 1
        syscall
        li $a0, 10
        li $v0, 11              # print_char
        syscall
        move $a0, $s6
        li $v0, 1
        syscall
        li $a0, 10
        li $v0, 11              # print_char
        syscall
        move $a0, $sp
        li $v0, 1
        syscall
        li $a0, 10
        li $v0, 11              # print_char
        syscall
        li $v0, 10              # exit
        syscall
