main:   li $a0, 0
        li $v0, 17              # exit2
        syscall
