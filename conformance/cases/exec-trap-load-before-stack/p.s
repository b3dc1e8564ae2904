        .text
__start:
        li $4, 0x7f800000
        li $5, 0
        lw $0, -4($4)
