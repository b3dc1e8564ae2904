# Reads a number, and writes its factorial: ./cool exec examples/factorial.s <<< 10
        .text
main:   addiu $sp, $sp, -4
        sw $ra, 0($sp)
        li $v0, 5               # read_int
        syscall
        move $a0, $v0
        jal factorial
        move $a0, $v0
        li $v0, 1               # print_int
        syscall
        li $a0, 10
        li $v0, 11              # print_char: a newline
        syscall
        lw $ra, 0($sp)
        addiu $sp, $sp, 4
        jr $ra

# $v0 becomes the factorial of $a0, modulo 2^32; below 1 it is 1.
factorial:
        bgtz $a0, more
        li $v0, 1
        jr $ra
more:   addiu $sp, $sp, -8
        sw $ra, 4($sp)
        sw $a0, 0($sp)
        addiu $a0, $a0, -1
        jal factorial
        lw $a0, 0($sp)
        lw $ra, 4($sp)
        addiu $sp, $sp, 8
        mul $v0, $a0, $v0
        jr $ra
