        .data
        .word 0x9f01ff80, 0xf2345678
        .byte 5
        .text
__start:
        li $4, 0
        li $5, 0
        lw $3, -3($4)
