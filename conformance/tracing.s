# Writes a record at each call of a method, into the output of a program: tracing.py puts this text, and the tables that it uses, before the program's.
#
# A traced method begins with `move $k0, $ra`, `li $k1, 4 * NUMBER` and `jal tracing.enter`. A record is a byte 0, fields that each end with a byte 0, and
# another byte 0. Its fields are 4 * NUMBER, the return address, the object in $a0, the words on the stack that may be arguments, and the attributes.
# Before the first record there is one with the tag and the attributes of each prototype, each list of them ended by `;`, and the addresses of the methods.
# A word is written as `-` for void, `?` for no object, or its tag, with `=` and the number or the bytes of an Int, Bool or String. No register is changed
# except $at, $k0 and $k1, and no word is loaded that might not exist.
        .data
tracing.saved: .space 80
tracing.begun: .word 0
tracing.none: .word -2, 3, 0

        .text
tracing.enter:
        la $at, tracing.saved
        sw $v0, 0($at)
        sw $a0, 4($at)
        sw $t0, 8($at)
        sw $t1, 12($at)
        sw $t2, 16($at)
        sw $t3, 20($at)
        sw $t4, 24($at)
        sw $s0, 28($at)
        sw $s1, 32($at)
        sw $s2, 36($at)
        sw $ra, 40($at)
        la $t0, tracing.begun
        lw $t1, 0($t0)
        bnez $t1, tracing.call
        addiu $t1, $zero, 1
        sw $t1, 0($t0)
        jal tracing.begin
tracing.call:
        jal tracing.field_ends
        move $a0, $k1
        jal tracing.number
        move $a0, $k0
        jal tracing.number
        lw $a0, 4($at)
        jal tracing.object
        la $t0, tracing.words_of
        addu $t0, $t0, $k1
        lw $s1, 0($t0)
        move $s0, $sp
        jal tracing.words
        lw $a0, 4($at)
        jal tracing.attributes
        jal tracing.field_ends
        lw $v0, 0($at)
        lw $a0, 4($at)
        lw $t0, 8($at)
        lw $t1, 12($at)
        lw $t2, 16($at)
        lw $t3, 20($at)
        lw $t4, 24($at)
        lw $s0, 28($at)
        lw $s1, 32($at)
        lw $s2, 36($at)
        lw $k1, 40($at)
        move $ra, $k0
        jr $k1

# Writes the first record.
tracing.begin:
        sw $ra, 44($at)
        jal tracing.field_ends
        la $s2, tracing.prototypes
tracing.next_prototype:
        lw $a0, 0($s2)
        beqz $a0, tracing.begin_methods
        lw $a0, 0($a0)
        jal tracing.number
        lw $a0, 0($s2)
        jal tracing.attributes
        addiu $a0, $zero, 59
        jal tracing.letter
        addiu $s2, $s2, 4
        j tracing.next_prototype
tracing.begin_methods:
        la $s2, tracing.methods
tracing.next_method:
        lw $a0, 0($s2)
        beqz $a0, tracing.begun_now
        jal tracing.number
        addiu $s2, $s2, 4
        j tracing.next_method
tracing.begun_now:
        lw $ra, 44($at)
        j tracing.field_ends

# Writes the attributes of the object at $a0, 20 at most.
tracing.attributes:
        sw $ra, 48($at)
        addiu $a0, $a0, 4
        jal tracing.is_word
        lw $ra, 48($at)
        beqz $t0, tracing.return
        lw $s1, 0($a0)
        addiu $s1, $s1, -3
        addiu $s0, $a0, 8
        slti $t0, $s1, 21
        bnez $t0, tracing.words
        addiu $s1, $zero, 20

# Writes $s1 words from $s0 on.
tracing.words:
        sw $ra, 52($at)
tracing.next_word:
        blez $s1, tracing.words_written
        move $a0, $s0
        jal tracing.is_word
        addiu $a0, $zero, 1
        beqz $t0, tracing.write_word
        lw $a0, 0($s0)
tracing.write_word:
        jal tracing.object
        addiu $s0, $s0, 4
        addiu $s1, $s1, -1
        j tracing.next_word
tracing.words_written:
        lw $ra, 52($at)
        jr $ra

# Writes the word $a0, which may be the address of an object.
tracing.object:
        sw $ra, 56($at)
        addiu $t0, $zero, 45
        beqz $a0, tracing.other_word
        jal tracing.is_word
        beqz $t0, tracing.no_object
        sw $a0, 60($at)
        lw $t4, 0($a0)
        move $a0, $t4
        addiu $v0, $zero, 1
        syscall
        la $t1, tracing.basic
        lw $t0, 0($t1)
        lw $t0, 0($t0)
        beq $t0, $t4, tracing.value
        lw $t0, 4($t1)
        lw $t0, 0($t0)
        beq $t0, $t4, tracing.value
        lw $t0, 8($t1)
        lw $t0, 0($t0)
        beq $t0, $t4, tracing.bytes
        j tracing.object_written
tracing.no_object:
        addiu $t0, $zero, 63
tracing.other_word:
        lw $ra, 56($at)
        move $a0, $t0
        j tracing.letter
tracing.object_written:
        lw $ra, 56($at)
        j tracing.field_ends

# The number of an Int or Bool.
tracing.value:
        addiu $a0, $zero, 61
        addiu $v0, $zero, 11
        syscall
        lw $a0, 60($at)
        addiu $a0, $a0, 12
        jal tracing.is_word
        beqz $t0, tracing.object_written
        lw $a0, 0($a0)
        lw $ra, 56($at)
        j tracing.number

# The bytes of a String up to a 0, 64 at most.
tracing.bytes:
        addiu $a0, $zero, 61
        addiu $v0, $zero, 11
        syscall
        lw $t4, 60($at)
        addiu $t4, $t4, 16
        addiu $t2, $t4, 64
        sw $t2, 60($at)
tracing.next_byte:
        move $a0, $t4
        jal tracing.is_byte
        beqz $t0, tracing.object_written
        lbu $a0, 0($t4)
        beqz $a0, tracing.object_written
        addiu $v0, $zero, 11
        syscall
        addiu $t4, $t4, 1
        lw $t2, 60($at)
        bne $t4, $t2, tracing.next_byte
        j tracing.object_written

# Sets $t0 to whether $a0 is the address of a word that can be loaded, or of a byte; they change $t1 to $t3.
tracing.is_word:
        andi $t0, $a0, 3
        beqz $t0, tracing.is_byte
        move $t0, $zero
        jr $ra
tracing.is_byte:
        la $t1, tracing.segments
tracing.next_segment:
        lw $t2, 0($t1)
        lw $t3, 4($t1)
        sltu $t0, $a0, $t2
        sltu $t3, $a0, $t3
        sltu $t0, $t0, $t3
        bnez $t0, tracing.return
        addiu $t1, $t1, 8
        bnez $t2, tracing.next_segment
tracing.return:
        jr $ra

# A field: the number in $a0, or the letter in it; then its end.
tracing.number:
        addiu $v0, $zero, 1
        syscall
        j tracing.field_ends
tracing.letter:
        addiu $v0, $zero, 11
        syscall
tracing.field_ends:
        move $a0, $zero
        addiu $v0, $zero, 11
        syscall
        jr $ra
