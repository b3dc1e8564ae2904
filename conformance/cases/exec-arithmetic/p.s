# Results of the instructions that compute with registers and numbers.
        .text
main:
        li $4, 0xffffffff
        li $5, 2
        add $3, $4, $5
        jal show

        li $4, 0x80000000
        li $5, 0x7fffffff
        add $3, $4, $5
        jal show

        li $4, 0xffffffff
        li $5, 2
        addu $3, $4, $5
        jal show

        li $4, 0x7fffffff
        li $5, 1
        addu $3, $4, $5
        jal show

        li $4, 5
        li $5, 7
        sub $3, $4, $5
        jal show

        li $4, 0x80000000
        li $5, 0xffffffff
        sub $3, $4, $5
        jal show

        li $4, 0x80000000
        li $5, 1
        subu $3, $4, $5
        jal show

        li $4, 0xff00ff00
        li $5, 0x0ff00ff0
        and $3, $4, $5
        jal show

        li $4, 0xff00ff00
        li $5, 0x0ff00ff0
        or $3, $4, $5
        jal show

        li $4, 0xff00ff00
        li $5, 0x0ff00ff0
        xor $3, $4, $5
        jal show

        li $4, 0xff00ff00
        li $5, 0x0ff00ff0
        nor $3, $4, $5
        jal show

        li $4, 0xffffffff
        li $5, 1
        slt $3, $4, $5
        jal show

        li $4, 0xffffffff
        li $5, 1
        sltu $3, $4, $5
        jal show

        li $4, 0
        li $5, 0x8000000f
        sll $3, $5, 4
        jal show

        li $4, 0
        li $5, 0x8000000f
        sll $3, $5, 0
        jal show

        li $4, 0
        li $5, 0x8000000f
        srl $3, $5, 4
        jal show

        li $4, 0
        li $5, 0x8000000f
        sra $3, $5, 4
        jal show

        li $4, 0
        li $5, 0x80000000
        sra $3, $5, 31
        jal show

        li $4, 0x00000024
        li $5, 0x8000000f
        sllv $3, $5, $4
        jal show

        li $4, 0x0000001f
        li $5, 0x8000000f
        srlv $3, $5, $4
        jal show

        li $4, 0xffffffe4
        li $5, 0x8000000f
        srav $3, $5, $4
        jal show

        li $4, 0x80000001
        li $5, 0
        addi $3, $4, -1
        jal show

        li $4, 0
        li $5, 0
        addiu $3, $4, -1
        jal show

        li $4, 0xfffffffe
        li $5, 0
        slti $3, $4, -1
        jal show

        li $4, 0xfffffffe
        li $5, 0
        sltiu $3, $4, -1
        jal show

        li $4, 0xffffffff
        li $5, 0
        andi $3, $4, 0xff00
        jal show

        li $4, 0x000f00ff
        li $5, 0
        ori $3, $4, 0xff00
        jal show

        li $4, 0x0f0f0f0f
        li $5, 0
        xori $3, $4, 0xffff
        jal show

        li $4, 0
        li $5, 0
        lui $3, 0x8001
        jal show

        li $4, 1
        li $5, 2
        addu $0, $4, $5
        addu $3, $0, $0
        jal show

        li $4, 0xffffffff
        li $5, 1
        addu $3, $4, $5
        jal show

        li $4, 0x80000000
        li $5, 1
        slt $3, $4, $5
        jal show

        li $4, 0x80000000
        li $5, 1
        sltu $3, $4, $5
        jal show

        li $4, 0xffff0000
        li $5, 0x000000ff
        nor $3, $4, $5
        jal show
        li $v0, 10              # exit
        syscall

# Writes $3 and a newline.
show:   move $a0, $3
        li $v0, 1               # print_int
        syscall
        li $a0, 10
        li $v0, 11              # print_char
        syscall
        jr $ra
