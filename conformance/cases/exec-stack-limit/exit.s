# Writes a line, and exits with code 5.
        .data
text:   .asciiz "before\n"
        .text
main:   la $a0, text
        li $v0, 4               # print_string
        syscall
        li $a0, 5
        li $v0, 17              # exit2
        syscall
