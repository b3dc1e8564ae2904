# The last byte of the stack is 0, and is a string; then it is none.
__start:
        addiu $a0, $sp, -1
        li $v0, 4               # print_string
        syscall
        li $t0, 65
        sb $t0, 0($a0)
        syscall
