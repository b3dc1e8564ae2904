# The words of instructions that may be written in several ways.
        .text
first:  lw$a0,4($sp)
        lw$t0-4($sp)
        lw $1,($2)
        lbu $1,0 ( $2 )
        jalr $5
        jalr $6,$7
        jalr $ra $a1
        move $zero $25
        move $k1 $fp
        move $9 $30
        li $1,00000000000000000000000000000000000000007
        addi $1,$2,-0x8000
        xori $1,$2,0xFFFF
        bltz $1,first
        beq $1,$2,-32768
        bgtz $1,32767
        jal 67108863
        b: b b
        .align 2
end:
main:   la $s0, first
        la $s1, end
# Writes the words from $s0 up to $s1, a line of eight hexadecimal digits for each, and ends.
dump:   beq $s0, $s1, done
        lw $t0, 0($s0)
        addiu $s0, $s0, 4
        li $t1, 8
digit:  srl $a0, $t0, 28
        slti $t2, $a0, 10
        bnez $t2, small
        addiu $a0, $a0, 39      # from 10 on a letter
small:  addiu $a0, $a0, 48
        li $v0, 11              # print_char
        syscall
        sll $t0, $t0, 4
        addiu $t1, $t1, -1
        bnez $t1, digit
        li $a0, 10
        li $v0, 11
        syscall
        b dump
done:   li $v0, 10              # exit
        syscall
