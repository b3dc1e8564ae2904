        .text
__start:
        li $4, 0x22000000
        li $5, 0
        lbu $3, 0($4)
