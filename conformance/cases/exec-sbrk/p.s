# The end of the heap moves up to its 33,554,432 bytes and no further, and never down.
        .data
moves:  .word 4096, 0, -4, 8, 1, 0x7fffffff, -2147483648, 33550327, 1, 0
last:
        .text
main:   la $s0, moves
        la $s1, last
next:   lw $a0, 0($s0)
        li $v0, 9               # sbrk
        syscall
        move $a0, $v0
        li $v0, 1               # print_int
        syscall
        li $a0, 10
        li $v0, 11              # print_char
        syscall
        addiu $s0, $s0, 4
        bne $s0, $s1, next
        li $v0, 10              # exit
        syscall
