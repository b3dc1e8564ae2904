# The word of each instruction.
        .text
first:
        add $3, $4, $5
        addu $3, $4, $5
        sub $3, $4, $5
        subu $3, $4, $5
        and $3, $4, $5
        or $3, $4, $5
        xor $3, $4, $5
        nor $3, $4, $5
        slt $3, $4, $5
        sltu $3, $4, $5
        sll $3, $4, 31
        srl $3, $4, 5
        sra $3, $4, 1
        sllv $3, $4, $5
        srlv $3, $4, $5
        srav $3, $4, $5
        jr $31
        jalr $30, $29
        syscall
        mfhi $17
        mflo $18
        mthi $19
        mtlo $20
        mult $4, $5
        multu $4, $5
        div $4, $5
        divu $4, $5
        addi $3, $4, -32768
        addiu $3, $4, 32767
        slti $3, $4, -1
        sltiu $3, $4, -2
        andi $3, $4, 65535
        ori $3, $4, 32768
        xori $3, $4, 1
        lui $3, 65535
        beq $4, $5, -2
        bne $4, $5, 3
        blez $4, 1
        bgtz $4, -9
        bltz $4, 0
        bgez $4, 3
        j 4194303
        jal 1048582
        lb $3, -1($4)
        lh $3, 2($4)
        lw $3, -32768($4)
        lbu $3, 32767($4)
        lhu $3, 0($4)
        sb $3, 1($4)
        sh $3, -2($4)
        sw $3, 4($4)
        addi $t0, $zero, -1
        sll $t0, $t0, 2
        lw $a0, -4($fp)
        bgez $t0, 3
end:
main:   la $s0, first
        la $s1, end
# Writes the words from $s0 up to $s1, a line of eight hexadecimal digits for each, and ends.
dump:   beq $s0, $s1, done
        lw $t0, 0($s0)
        addiu $s0, $s0, 4
        li $t1, 8
digit:  srl $a0, $t0, 28
        slti $t2, $a0, 10
        bnez $t2, small
        addiu $a0, $a0, 39      # from 10 on a letter
small:  addiu $a0, $a0, 48
        li $v0, 11              # print_char
        syscall
        sll $t0, $t0, 4
        addiu $t1, $t1, -1
        bnez $t1, digit
        li $a0, 10
        li $v0, 11
        syscall
        b dump
done:   li $v0, 10              # exit
        syscall
