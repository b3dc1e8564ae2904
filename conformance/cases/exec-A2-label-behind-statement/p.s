nop a:
