        .text
__start:
        li $4, 0x00400000
        li $5, 0
        sw $5, 0($4)
