# Writes the numbers of so many lines, and then what is left.
        .text
main:   li $s0, 3
lines:  li $v0, 5               # read_int
        syscall
        move $a0, $v0
        li $v0, 1               # print_int
        syscall
        li $a0, 10
        li $v0, 11              # print_char
        syscall
        addiu $s0, $s0, -1
        bnez $s0, lines
# Writes what is left of the input.
rest:   li $v0, 12              # read_char
        syscall
        move $a0, $v0
        li $v0, 11              # print_char
        bltz $a0, end
        syscall
        b rest
end:    li $v0, 10              # exit
        syscall
