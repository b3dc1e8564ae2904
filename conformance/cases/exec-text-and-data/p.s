        .data
m:      .asciiz "hi\n"
        .text
main:   la $a0, m
        li $v0, 4
        syscall
        jr $ra
