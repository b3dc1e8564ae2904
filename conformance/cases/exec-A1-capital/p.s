Nop
