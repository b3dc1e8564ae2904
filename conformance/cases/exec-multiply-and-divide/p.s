# HI and LO after multiplications, divisions and moves; a divisor 0 leaves both.
        .text
main:
        li $4, 7
        li $5, 9
        mthi $4
        mtlo $5
        mfhi $2
        mflo $3
        jal show_two

        li $4, 0xffffffff
        li $5, 2
        mult $4, $5
        mfhi $2
        mflo $3
        jal show_two

        li $4, 0x80000000
        li $5, 0x80000000
        mult $4, $5
        mfhi $2
        mflo $3
        jal show_two

        li $4, 0xffffffff
        li $5, 0xffffffff
        multu $4, $5
        mfhi $2
        mflo $3
        jal show_two

        li $4, 0xfffffff9
        li $5, 2
        div $4, $5
        mfhi $2
        mflo $3
        jal show_two

        li $4, 7
        li $5, 0xfffffffe
        div $4, $5
        mfhi $2
        mflo $3
        jal show_two

        li $4, 0xfffffff9
        li $5, 2
        divu $4, $5
        mfhi $2
        mflo $3
        jal show_two

        li $4, 7
        li $5, 0
        mthi $4
        mtlo $4
        div $4, $5
        mfhi $2
        mflo $3
        jal show_two

        li $4, 7
        li $5, 0
        mthi $4
        mtlo $4
        divu $4, $5
        mfhi $2
        mflo $3
        jal show_two

        li $4, 0xffffffff
        li $5, 0xffffffff
        mult $4, $5
        mfhi $2
        mflo $3
        jal show_two

        li $4, 0x80000000
        li $5, 2
        mult $4, $5
        mfhi $2
        mflo $3
        jal show_two

        li $4, 0xffffffff
        li $5, 0xffffffff
        multu $4, $5
        mfhi $2
        mflo $3
        jal show_two

        li $4, 0x80000000
        li $5, 0xffffffff
        div $4, $5
        mfhi $2
        mflo $3
        jal show_two

        li $4, 0xffffffff
        li $5, 2
        divu $4, $5
        mfhi $2
        mflo $3
        jal show_two
        li $v0, 10              # exit
        syscall

# Writes $2, a blank, $3 and a newline.
show_two:
        move $a0, $2
        li $v0, 1               # print_int
        syscall
        li $a0, 32
        li $v0, 11              # print_char
        syscall
        b show

# Writes $3 and a newline.
show:   move $a0, $3
        li $v0, 1               # print_int
        syscall
        li $a0, 10
        li $v0, 11              # print_char
        syscall
        jr $ra
