# Labels in front of padding, of items without bytes, and at the end of the data.
        .data
        .byte 1
before:
at:     .word before at
        .byte 1
a:      .align 3
        .byte 2
c:      .ascii ""
d:      .space 0
        .word a c d end
        .byte -128 255
        .ascii "x\n\t\"\\"
        .asciiz "#"             # no comment within a string
        .space 3
        .align 2
        .word -2147483648 4294967295 0xFFFFffff -0x80000000
end:    .align 4
        .text
main:   li $s0, 0x10000000
        la $s1, end
# Writes the words from $s0 up to $s1, a line of eight hexadecimal digits for each, and ends.
dump:   beq $s0, $s1, done
        lw $t0, 0($s0)
        addiu $s0, $s0, 4
        li $t1, 8
digit:  srl $a0, $t0, 28
        slti $t2, $a0, 10
        bnez $t2, small
        addiu $a0, $a0, 39      # from 10 on a letter
small:  addiu $a0, $a0, 48
        li $v0, 11              # print_char
        syscall
        sll $t0, $t0, 4
        addiu $t1, $t1, -1
        bnez $t1, digit
        li $a0, 10
        li $v0, 11
        syscall
        b dump
done:   li $v0, 10              # exit
        syscall
