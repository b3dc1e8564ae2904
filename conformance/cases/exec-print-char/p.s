# The lowest byte of $a0 is written, 0 and those from 128 up, too.
        .text
main:   li $a0, 0x141
        li $v0, 11              # print_char
        syscall
        li $a0, 0
        syscall
        li $a0, -1
        syscall
        li $v0, 10              # exit
        syscall
