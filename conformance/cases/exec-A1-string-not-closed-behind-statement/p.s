nop "x
