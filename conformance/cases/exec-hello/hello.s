# Writes a greeting, and returns from main, which ends the run with code 0.
        .data
text:   .asciiz "Hello\n"
        .text
main:   la $a0, text
        li $v0, 4               # print_string
        syscall
        jr $ra
