a: a: nop
