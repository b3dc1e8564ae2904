        .text
__start:
        li $4, 0x00400014
        li $5, 0
        lb $3, 0($4)
