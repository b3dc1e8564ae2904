__start: li $a0, 65
li $v0, 11
syscall
li $v0, 10
syscall
