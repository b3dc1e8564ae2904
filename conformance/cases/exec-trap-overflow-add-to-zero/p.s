        .text
__start:
        li $4, 0x80000000
        li $5, 0xffffffff
        add $0, $4, $5
