# For each branch 1 where it is taken, and 0 where it is not.
        .text
main:
        li $4, 5
        li $5, 5
        li $3, 1
        beq $4, $5, to0
        li $3, 0
to0:    jal show

        li $4, 5
        li $5, 6
        li $3, 1
        beq $4, $5, to1
        li $3, 0
to1:    jal show

        li $4, 5
        li $5, 6
        li $3, 1
        bne $4, $5, to2
        li $3, 0
to2:    jal show

        li $4, 5
        li $5, 5
        li $3, 1
        bne $4, $5, to3
        li $3, 0
to3:    jal show

        li $4, 0
        li $3, 1
        blez $4, to4
        li $3, 0
to4:    jal show

        li $4, 1
        li $3, 1
        blez $4, to5
        li $3, 0
to5:    jal show

        li $4, 0xffffffff
        li $3, 1
        blez $4, to6
        li $3, 0
to6:    jal show

        li $4, 1
        li $3, 1
        bgtz $4, to7
        li $3, 0
to7:    jal show

        li $4, 0
        li $3, 1
        bgtz $4, to8
        li $3, 0
to8:    jal show

        li $4, 0xffffffff
        li $3, 1
        bgtz $4, to9
        li $3, 0
to9:    jal show

        li $4, 0xffffffff
        li $3, 1
        bltz $4, to10
        li $3, 0
to10:   jal show

        li $4, 0
        li $3, 1
        bltz $4, to11
        li $3, 0
to11:   jal show

        li $4, 0
        li $3, 1
        bgez $4, to12
        li $3, 0
to12:   jal show

        li $4, 0xffffffff
        li $3, 1
        bgez $4, to13
        li $3, 0
to13:   jal show
        li $v0, 10              # exit
        syscall

# Writes $3 and a newline.
show:   move $a0, $3
        li $v0, 1               # print_int
        syscall
        li $a0, 10
        li $v0, 11              # print_char
        syscall
        jr $ra
