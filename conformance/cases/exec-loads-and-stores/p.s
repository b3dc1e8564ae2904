# Numbers are little endian; bytes and halves are extended by their sign or by zeros.
        .data
        .word 0, 0, 5
        .text
first:  lw $3, 0($4)            # the word 0x8c830000, at 0x00400000
        jr $ra
main:
        jal fill
        li $4, 0x10000000
        li $5, 0
        lb $3, 1($4)
        jal show

        jal fill
        li $4, 0x10000000
        li $5, 0
        lbu $3, 1($4)
        jal show

        jal fill
        li $4, 0x10000004
        li $5, 0
        lh $3, -2($4)
        jal show

        jal fill
        li $4, 0x10000004
        li $5, 0
        lhu $3, -2($4)
        jal show

        jal fill
        li $4, 0x10000000
        li $5, 0
        lw $3, 4($4)
        jal show

        jal fill
        li $4, 0x10000000
        li $5, 0x12345678
        sb $5, 1($4)
        lw $3, 0($4)
        jal show

        jal fill
        li $4, 0x10000000
        li $5, 0x12345678
        sh $5, 2($4)
        lw $3, 0($4)
        jal show

        jal fill
        li $4, 0x10000000
        li $5, 0x12345678
        sw $5, 4($4)
        lw $3, 4($4)
        lw $2, 0($4)
        jal show_two

        jal fill
        li $4, 0x80000000
        li $5, 0x92345678
        sw $5, -4($4)
        lb $3, -1($4)
        jal show

        jal fill
        li $4, 0x20000ffe
        li $5, 0x000000fe
        sb $5, 0($4)
        lhu $3, 0($4)
        jal show

        li $4, 0x00400000       # the text may be loaded, too
        jal first
        jal show
        li $4, 0x00400000
        lb $3, 3($4)
        jal show
        li $4, 0x00400000
        lhu $3, 2($4)
        jal show
        li $v0, 10              # exit
        syscall

# Writes to the first two words of the data again.
fill:   li $4, 0x10000000
        li $5, 0x9f01ff80
        sw $5, 0($4)
        li $5, 0xf2345678
        sw $5, 4($4)
        jr $ra

# Writes $2, a blank, $3 and a newline.
show_two:
        move $a0, $2
        li $v0, 1               # print_int
        syscall
        li $a0, 32
        li $v0, 11              # print_char
        syscall
        b show

# Writes $3 and a newline.
show:   move $a0, $3
        li $v0, 1               # print_int
        syscall
        li $a0, 10
        li $v0, 11              # print_char
        syscall
        jr $ra
