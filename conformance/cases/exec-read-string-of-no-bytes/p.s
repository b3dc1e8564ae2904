# No room is looked at where the size is below 1.
        .text
__start:
        li $a0, 3
        li $a1, -1
        li $v0, 8               # read_string
        syscall
# Writes what is left of the input.
rest:   li $v0, 12              # read_char
        syscall
        move $a0, $v0
        li $v0, 11              # print_char
        bltz $a0, end
        syscall
        b rest
end:    li $v0, 10              # exit
        syscall
