

        .data
	a 	: xg:.5: x1 : X10:x:
.word 5a 0xg 12.5 00x1 0X10 -0x # 5, a, 0, xg, 12, .5, 0, x1, 0, X10, 0, x
.word-1-2-3
.word: .word .word
,,,.word,010,-0,0000000000000000000000000000000000000000000000000000007
end:
        .globl end
        .text
add : .text : b: j: nop
   	,,,
main:la$s0 a
la$s1,end
b dump
.: _: lw$a0,4($sp)
lw$t0-4($sp)
lw $1,($2)
lbu $1,0 ( $2 )
jalr $5
jalr $6,$7
move $zero $25
move $k1 $fp
move $9 $30
# Writes the words from $s0 up to $s1, a line of eight hexadecimal digits for each, and ends.
dump:   beq $s0, $s1, done
        lw$t0($s0)
        addiu $s0, $s0, 4
        li $t1, 8
digit:  srl $a0, $t0, 28
        slti $t2, $a0, 10
        bnez $t2, small
        addiu $a0, $a0, 39      # from 10 on a letter
small:  addiu $a0, $a0, 48
        li $v0, 11              # print_char
        syscall
        sll $t0, $t0, 4
        addiu $t1, $t1, -1
        bnez $t1, digit
        li $a0, 10
        li $v0, 11
        syscall
        b dump
done:   li $v0, 10              # exit
        syscall