main: addi $t0, $t0, 0x8000
