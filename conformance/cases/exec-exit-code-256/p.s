main:   li $a0, 256
        li $v0, 17              # exit2
        syscall
