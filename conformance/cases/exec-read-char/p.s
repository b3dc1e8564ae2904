# Zeros are passed over, other bytes are numbers from 1 to 255, and the end is -1, however often.
        .text
main:   li $s0, 5
bytes:  li $v0, 12              # read_char
        syscall
        move $a0, $v0
        li $v0, 1               # print_int
        syscall
        li $a0, 10
        li $v0, 11              # print_char
        syscall
        addiu $s0, $s0, -1
        bnez $s0, bytes
        li $v0, 10              # exit
        syscall
