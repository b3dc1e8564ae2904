# The sum leaves 32 bits. Each `li` is two instructions, so `add` is the third word of the text.
main:   li $t0, 2147483647
        add $t0, $t0, $t0
