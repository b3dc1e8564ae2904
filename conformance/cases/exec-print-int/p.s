# The greatest and the least numbers, and those around 0.
        .text
main:
        li $a0, 0
        li $v0, 1               # print_int
        syscall
        li $a0, 10
        li $v0, 11              # print_char
        syscall
        li $a0, 7
        li $v0, 1               # print_int
        syscall
        li $a0, 10
        li $v0, 11              # print_char
        syscall
        li $a0, -1
        li $v0, 1               # print_int
        syscall
        li $a0, 10
        li $v0, 11              # print_char
        syscall
        li $a0, 10
        li $v0, 1               # print_int
        syscall
        li $a0, 10
        li $v0, 11              # print_char
        syscall
        li $a0, -10
        li $v0, 1               # print_int
        syscall
        li $a0, 10
        li $v0, 11              # print_char
        syscall
        li $a0, 2147483647
        li $v0, 1               # print_int
        syscall
        li $a0, 10
        li $v0, 11              # print_char
        syscall
        li $a0, -2147483648
        li $v0, 1               # print_int
        syscall
        li $a0, 10
        li $v0, 11              # print_char
        syscall
        li $v0, 10              # exit
        syscall
