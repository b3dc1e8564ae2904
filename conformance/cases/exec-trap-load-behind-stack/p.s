        .text
__start:
        li $4, 0x80000000
        li $5, 0
        lw $3, 0($4)
