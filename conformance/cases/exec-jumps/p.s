# Jumps forward and backward, and the addresses that calls leave.
        .text
        .globl main
main:   jal after               # $ra is the address of the next instruction
next:   move $3, $ra
        la $4, next
        sub $3, $3, $4
        jal show
        la $4, two
        jalr $6, $4             # as jal, with $6
here:   la $4, here
        sub $3, $6, $4
        jal show
        la $4, three
        jalr $4, $4             # the address of before stands in $4
back:   la $5, back
        sub $3, $4, $5
        jal show
        li $3, 3
again:  jal show                # 3, 2, 1
        addiu $3, $3, -1
        bne $3, $zero, again
        j far
middle: li $3, 8
        jal show
        la $4, last
        jr $4
        li $3, 9
        jal show
far:    li $3, 7
        jal show
        j middle
last:   li $3, 10
        jal show
        li $4, 0x00400000       # 4 index: the jump below is to main's second instruction
        jal show_index
        li $v0, 10              # exit
        syscall

after:  jr $ra
two:    jr $6
three:  jr $4
show_index:
        move $s0, $ra
        lw $3, 0($4)            # the word of jal after: 3 and the index
        la $5, after
        srl $5, $5, 2
        sub $3, $3, $5
        srl $3, $3, 26
        jal show
        jr $s0

# Writes $3 and a newline.
show:   move $a0, $3
        li $v0, 1               # print_int
        syscall
        li $a0, 10
        li $v0, 11              # print_char
        syscall
        jr $ra
