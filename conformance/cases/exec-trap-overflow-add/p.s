        .text
__start:
        li $4, 0x7fffffff
        li $5, 1
        add $3, $4, $5
