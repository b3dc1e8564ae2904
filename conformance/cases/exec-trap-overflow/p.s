main: li $t0, 2147483647
add $t0, $t0, $t0
