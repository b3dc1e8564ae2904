        .text
__start:
        li $4, 0x80000000
        li $5, 1
        sub $3, $4, $5
