# The first fault in the order of the lines is told: line 3 lacks an operand.
main:   li $v0, 10
        add $t0, $t1
        fly $t0
