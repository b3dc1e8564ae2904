        .text
__start:
        li $4, 0x003fffff
        li $5, 0
        lb $3, 0($4)
