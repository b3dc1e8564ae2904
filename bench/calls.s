# Ten instructions a turn: a call, a frame of two words, and the return.
        .text
        .globl main
main:   li $s0, 10000000
loop:   jal next
        addiu $s0, $s0, -1
        bne $s0, $zero, loop
        li $v0, 10
        syscall
next:   addiu $sp, $sp, -8
        sw $ra, 4($sp)
        sw $s0, 0($sp)
        lw $v0, 0($sp)
        lw $ra, 4($sp)
        addiu $sp, $sp, 8
        jr $ra
