        .data
        .word 0x9f01ff80, 0xf2345678
        .byte 5
        .text
__start:
        li $4, 0x0fffffff
        li $5, 0
        sb $5, 0($4)
