# Strings end at their first zero: one without bytes, a long one, one in the text, and one that ends where the data is padded.
        .data
empty:  .asciiz ""
long:   .asciiz "xxxxxxxxxxxxxxxxxxxxxxxxxxxxxxxxxxxxxxxxxxxxxxxxxxxxxxxxxxxxxxxxxxxxxx"
        .text
        b main
text:   addi $t1, $t3, 0x6261   # the bytes "abi!"
        nop
main:   la $a0, empty
        li $v0, 4               # print_string
        syscall
        la $a0, long
        syscall
        la $a0, text
        syscall
        la $a0, last
        syscall
        li $v0, 10              # exit
        syscall
        .data
        .align 2
last:   .ascii "end"
