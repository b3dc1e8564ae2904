main: li $t0, 0x10000001
lw $t1, 0($t0)
