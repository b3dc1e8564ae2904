# Ten instructions a turn: sums, compares, branches, a load and two stores.
        .data
cell:   .word 0, 0
        .text
        .globl main
main:   la $t3, cell
        li $t1, 10000000
        li $t0, 1
loop:   lw $t2, 0($t3)
        addu $t2, $t2, $t0
        sw $t2, 0($t3)
        slt $t4, $t0, $t1
        beq $t4, $zero, done
        addiu $t0, $t0, 1
        add $t5, $t4, $t4
        sltu $t6, $t5, $t2
        sb $t6, 4($t3)
        bne $t4, $zero, loop
done:   li $v0, 10
        syscall
