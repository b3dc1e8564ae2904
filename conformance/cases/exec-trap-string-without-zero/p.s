        .data
open:   .ascii "abcd"
        .text
__start:
        la $a0, open
        li $v0, 4               # print_string
        syscall
