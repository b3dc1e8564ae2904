__start: li $a0, 3
        li $v0, 4               # print_string
        syscall
