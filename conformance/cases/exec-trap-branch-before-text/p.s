__start: bne $sp, $zero, -3
