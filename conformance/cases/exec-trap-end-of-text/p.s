__start: nop
