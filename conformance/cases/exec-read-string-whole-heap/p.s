        .text
__start:
        move $a0, $gp
        li $a1, 0x02000000
        li $v0, 8               # read_string
        syscall
        li $v0, 4               # print_string
        syscall
# Writes what is left of the input.
rest:   li $v0, 12              # read_char
        syscall
        move $a0, $v0
        li $v0, 11              # print_char
        bltz $a0, end
        syscall
        b rest
end:    li $v0, 10              # exit
        syscall
