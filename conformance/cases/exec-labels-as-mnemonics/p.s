# Several labels on a line, blanks in front of a colon, and names that are mnemonics.
        .text
main:   b add
        li $a0, 66
        li $v0, 11
        syscall
one: b : add: li $a0, 65
        li $v0, 11              # print_char
        syscall
        li $v0, 10              # exit
        syscall
