# Reads strings into rooms of several sizes, each filled with ? before, and writes them between brackets; then what is left.
        .data
room:   .asciiz "????????"
sizes:  .word 8, 4, 1, 0, -1, 8
last:
        .text
main:   la $s0, sizes
        la $s1, last
next:   la $a0, room
        li $t0, 0x3f3f3f3f
        sw $t0, 0($a0)
        sw $t0, 4($a0)
        lw $a1, 0($s0)
        li $v0, 8               # read_string
        syscall
        li $a0, 91
        li $v0, 11              # print_char
        syscall
        la $a0, room
        li $v0, 4               # print_string
        syscall
        li $a0, 93
        li $v0, 11
        syscall
        addiu $s0, $s0, 4
        bne $s0, $s1, next
# Writes what is left of the input.
rest:   li $v0, 12              # read_char
        syscall
        move $a0, $v0
        li $v0, 11              # print_char
        bltz $a0, end
        syscall
        b rest
end:    li $v0, 10              # exit
        syscall
