# Reads a line, and writes it backwards: ./cool exec examples/reverse.s <<< stressed
        .data
buffer: .space 256
        .text
main:   la $a0, buffer
        li $a1, 256
        li $v0, 8               # read_string
        syscall
        la $t0, buffer          # the first byte
        move $t1, $t0
find:   lbu $t2, 0($t1)         # $t1 goes to the newline, or to the 0
        beqz $t2, found
        li $t3, 10
        beq $t2, $t3, found
        addiu $t1, $t1, 1
        b find
found:  ble $t1, $t0, done
        addiu $t1, $t1, -1
        lbu $a0, 0($t1)
        li $v0, 11              # print_char
        syscall
        b found
done:   li $a0, 10
        li $v0, 11
        syscall
        jr $ra
