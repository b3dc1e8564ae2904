main:   li $a0, 0x41
        li $v0, 11              # print_char
        syscall
        li $t0, 0x7fffffff
        add $t0, $t0, $t0
