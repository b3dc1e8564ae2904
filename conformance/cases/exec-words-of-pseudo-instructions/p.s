# The words that stand for each instruction that is written as another one or two.
        .text
x:      la $8 x
        li $8 -2
        li $8 4294967295
        move $8 $9
        neg $8 $9
        nop
        b x
        beqz $8 x
        bnez $8 x
        bgt $8 $9 x
        bge $8 $9 x
        blt $8 $9 x
        ble $8 $9 x
        mul $8 $9 $10
end:
main:   la $s0, x
        la $s1, end
# Writes the words from $s0 up to $s1, a line of eight hexadecimal digits for each, and ends.
dump:   beq $s0, $s1, done
        lw $t0, 0($s0)
        addiu $s0, $s0, 4
        li $t1, 8
digit:  srl $a0, $t0, 28
        slti $t2, $a0, 10
        bnez $t2, small
        addiu $a0, $a0, 39      # from 10 on a letter
small:  addiu $a0, $a0, 48
        li $v0, 11              # print_char
        syscall
        sll $t0, $t0, 4
        addiu $t1, $t1, -1
        bnez $t1, digit
        li $a0, 10
        li $v0, 11
        syscall
        b dump
done:   li $v0, 10              # exit
        syscall
