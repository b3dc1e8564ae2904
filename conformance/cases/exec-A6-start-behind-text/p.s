nop
__start:
