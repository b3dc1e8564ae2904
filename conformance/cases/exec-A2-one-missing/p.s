nop
add $t0
