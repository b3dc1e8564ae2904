# The first and the last word of each segment.
        .data
        .word 0x64636261
        .byte 255
        .text
__start:
        li $t0, 0x00400000
        lw $a0, 0($t0)
        li $v0, 1               # print_int
        syscall
        li $a0, 10
        li $v0, 11              # print_char
        syscall
        li $t0, 0x10000000
        lw $a0, 0($t0)
        li $v0, 1               # print_int
        syscall
        li $a0, 10
        li $v0, 11              # print_char
        syscall
        li $t0, 0x10000004
        lw $a0, 0($t0)
        li $v0, 1               # print_int
        syscall
        li $a0, 10
        li $v0, 11              # print_char
        syscall
        li $t0, 0x20000000
        lw $a0, 0($t0)
        li $v0, 1               # print_int
        syscall
        li $a0, 10
        li $v0, 11              # print_char
        syscall
        li $t0, 0x21fffffc
        lw $a0, 0($t0)
        li $v0, 1               # print_int
        syscall
        li $a0, 10
        li $v0, 11              # print_char
        syscall
        li $t0, 0x7f800000
        lw $a0, 0($t0)
        li $v0, 1               # print_int
        syscall
        li $a0, 10
        li $v0, 11              # print_char
        syscall
        li $t0, 0x7ffffffc
        lw $a0, 0($t0)
        li $v0, 1               # print_int
        syscall
        li $a0, 10
        li $v0, 11              # print_char
        syscall
        li $v0, 10              # exit
        syscall
