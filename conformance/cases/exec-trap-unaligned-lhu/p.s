        .data
        .word 0x9f01ff80, 0xf2345678
        .byte 5
        .text
__start:
        li $4, 0x10000000
        li $5, 0
        lhu $3, 1($4)
