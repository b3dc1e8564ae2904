.data
__start: .word 1
