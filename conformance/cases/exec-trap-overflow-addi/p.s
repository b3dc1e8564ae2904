        .text
__start:
        li $4, 0x7fffffff
        li $5, 0
        addi $3, $4, 1
