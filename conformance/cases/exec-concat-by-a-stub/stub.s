__start:
	la $a0, Main_protObj
	jal Object.copy
	jal Main_init
	jal Main.main
	la $a0, __end
	addiu $v0, $zero, 4
	syscall
	addiu $v0, $zero, 10
	syscall
Object.copy:
	lw $t1, 4($a0)
	sll $t1, $t1, 2
	addu $t2, $gp, $t1
	addiu $t2, $t2, 4
	sltu $t0, $s7, $t2
	beq $t0, $zero, 1
	j heap_limit
	addiu $t0, $zero, -1
	sw $t0, 0($gp)
	addiu $t3, $gp, 4
	addu $t1, $a0, $t1
copy_words:
	bne $a0, $t1, 1
	j copy_end
	lw $t0, 0($a0)
	sw $t0, 0($t3)
	addiu $a0, $a0, 4
	addiu $t3, $t3, 4
	j copy_words
copy_end:
	addiu $a0, $gp, 4
	move $gp, $t2
	jr $ra
Object.abort:
	lw $t0, 0($a0)
	sll $t0, $t0, 2
	la $t1, class_nameTab
	addu $t0, $t1, $t0
	lw $t0, 0($t0)
	la $a0, __abort
	addiu $v0, $zero, 4
	syscall
	addiu $a0, $t0, 16
	syscall
	la $a0, __newline
	syscall
	addiu $a0, $zero, 3
	addiu $v0, $zero, 17
	syscall
Object.type_name:
	lw $t0, 0($a0)
	sll $t0, $t0, 2
	la $t1, class_nameTab
	addu $t0, $t1, $t0
	lw $t0, 0($t0)
	move $a0, $t0
	jr $ra
IO.out_string:
	move $t0, $a0
	lw $a0, 0($sp)
	addiu $a0, $a0, 16
	addiu $v0, $zero, 4
	syscall
	move $a0, $t0
	addiu $sp, $sp, 4
	jr $ra
IO.out_int:
	move $t0, $a0
	lw $a0, 0($sp)
	lw $a0, 12($a0)
	addiu $v0, $zero, 1
	syscall
	move $a0, $t0
	addiu $sp, $sp, 4
	jr $ra
IO.in_string:
	addiu $t1, $gp, 44
	sltu $t0, $s7, $t1
	beq $t0, $zero, 1
	j heap_limit
	sw $zero, 40($gp)
	addiu $t4, $gp, 40
	addiu $t3, $zero, 10
in_string_bytes:
	addiu $v0, $zero, 12
	syscall
	bgez $v0, 1
	j in_string_end
	bne $v0, $t3, 1
	j in_string_end
	sb $v0, 0($t4)
	addiu $t4, $t4, 1
	beq $t4, $t1, 1
	j in_string_bytes
	bne $t1, $s7, 1
	j heap_limit
	sw $zero, 0($t1)
	addiu $t1, $t1, 4
	j in_string_bytes
in_string_end:
	subu $t5, $t4, $gp
	addiu $t5, $t5, -40
	la $a1, Int_protObj
	lw $v0, 0($a1)
	lw $v1, 8($a1)
	addiu $t0, $zero, -1
	sw $t0, 0($gp)
	sw $v0, 4($gp)
	addiu $v0, $zero, 4
	sw $v0, 8($gp)
	sw $v1, 12($gp)
	sw $t5, 16($gp)
	la $a1, String_protObj
	lw $v0, 0($a1)
	lw $v1, 8($a1)
	addiu $t0, $zero, -1
	sw $t0, 20($gp)
	sw $v0, 24($gp)
	srl $v0, $t5, 2
	addiu $v0, $v0, 5
	sw $v0, 28($gp)
	sw $v1, 32($gp)
	addiu $v0, $gp, 4
	sw $v0, 36($gp)
	addiu $a0, $gp, 24
	move $gp, $t1
	jr $ra
IO.in_int:
	addiu $v0, $zero, 5
	syscall
	move $t2, $v0
	addiu $t1, $gp, 20
	sltu $t0, $s7, $t1
	beq $t0, $zero, 1
	j heap_limit
	la $t3, Int_protObj
	lw $t4, 0($t3)
	lw $t5, 4($t3)
	lw $t6, 8($t3)
	addiu $t0, $zero, -1
	sw $t0, 0($gp)
	sw $t4, 4($gp)
	sw $t5, 8($gp)
	sw $t6, 12($gp)
	sw $t2, 16($gp)
	addiu $a0, $gp, 4
	move $gp, $t1
	jr $ra
String.length:
	lw $a0, 12($a0)
	jr $ra
String.concat:
	lw $t6, 0($sp)
	lw $t3, 12($a0)
	lw $t3, 12($t3)
	lw $t7, 12($t6)
	lw $t7, 12($t7)
	addu $t5, $t3, $t7
	srl $t0, $t5, 2
	sll $t0, $t0, 2
	addu $t1, $gp, $t0
	addiu $t1, $t1, 44
	sltu $t0, $s7, $t1
	beq $t0, $zero, 1
	j heap_limit
	addiu $t2, $a0, 16
	la $a1, Int_protObj
	lw $v0, 0($a1)
	lw $v1, 8($a1)
	addiu $t0, $zero, -1
	sw $t0, 0($gp)
	sw $v0, 4($gp)
	addiu $v0, $zero, 4
	sw $v0, 8($gp)
	sw $v1, 12($gp)
	sw $t5, 16($gp)
	la $a1, String_protObj
	lw $v0, 0($a1)
	lw $v1, 8($a1)
	addiu $t0, $zero, -1
	sw $t0, 20($gp)
	sw $v0, 24($gp)
	srl $v0, $t5, 2
	addiu $v0, $v0, 5
	sw $v0, 28($gp)
	sw $v1, 32($gp)
	addiu $v0, $gp, 4
	sw $v0, 36($gp)
	sw $zero, -4($t1)
	addiu $t4, $gp, 40
concat_first:
	bne $t3, $zero, 1
	j concat_second
	lbu $t0, 0($t2)
	sb $t0, 0($t4)
	addiu $t2, $t2, 1
	addiu $t4, $t4, 1
	addiu $t3, $t3, -1
	j concat_first
concat_second:
	addiu $t2, $t6, 16
	move $t3, $t7
concat_third:
	bne $t3, $zero, 1
	j concat_end
	lbu $t0, 0($t2)
	sb $t0, 0($t4)
	addiu $t2, $t2, 1
	addiu $t4, $t4, 1
	addiu $t3, $t3, -1
	j concat_third
concat_end:
	addiu $a0, $gp, 24
	move $gp, $t1
	addiu $sp, $sp, 4
	jr $ra
String.substr:
	lw $t5, 0($sp)
	lw $t5, 12($t5)
	lw $t2, 4($sp)
	lw $t2, 12($t2)
	lw $t3, 12($a0)
	lw $t3, 12($t3)
	sltu $t0, $t3, $t2
	beq $t0, $zero, 1
	j substr_abort
	subu $t3, $t3, $t2
	sltu $t0, $t3, $t5
	beq $t0, $zero, 1
	j substr_abort
	addiu $t2, $t2, 16
	addu $t2, $a0, $t2
	move $t3, $t5
	srl $t0, $t5, 2
	sll $t0, $t0, 2
	addu $t1, $gp, $t0
	addiu $t1, $t1, 44
	sltu $t0, $s7, $t1
	beq $t0, $zero, 1
	j heap_limit
	la $a1, Int_protObj
	lw $v0, 0($a1)
	lw $v1, 8($a1)
	addiu $t0, $zero, -1
	sw $t0, 0($gp)
	sw $v0, 4($gp)
	addiu $v0, $zero, 4
	sw $v0, 8($gp)
	sw $v1, 12($gp)
	sw $t5, 16($gp)
	la $a1, String_protObj
	lw $v0, 0($a1)
	lw $v1, 8($a1)
	addiu $t0, $zero, -1
	sw $t0, 20($gp)
	sw $v0, 24($gp)
	srl $v0, $t5, 2
	addiu $v0, $v0, 5
	sw $v0, 28($gp)
	sw $v1, 32($gp)
	addiu $v0, $gp, 4
	sw $v0, 36($gp)
	sw $zero, -4($t1)
	addiu $t4, $gp, 40
substr_bytes:
	bne $t3, $zero, 1
	j substr_end
	lbu $t0, 0($t2)
	sb $t0, 0($t4)
	addiu $t2, $t2, 1
	addiu $t4, $t4, 1
	addiu $t3, $t3, -1
	j substr_bytes
substr_end:
	addiu $a0, $gp, 24
	move $gp, $t1
	addiu $sp, $sp, 8
	jr $ra
equality_test:
	bne $t1, $t2, 1
	j equal_true
	bne $t1, $zero, 1
	j equal_false
	bne $t2, $zero, 1
	j equal_false
	lw $t3, 0($t1)
	lw $t4, 0($t2)
	beq $t3, $t4, 1
	j equal_false
	la $t5, Int_protObj
	lw $t5, 0($t5)
	bne $t3, $t5, 1
	j equal_values
	la $t5, Bool_protObj
	lw $t5, 0($t5)
	bne $t3, $t5, 1
	j equal_values
	la $t5, String_protObj
	lw $t5, 0($t5)
	bne $t3, $t5, 1
	j equal_strings
	j equal_false
equal_values:
	lw $t3, 12($t1)
	lw $t4, 12($t2)
	beq $t3, $t4, 1
	j equal_false
	j equal_true
equal_strings:
	lw $t3, 12($t1)
	lw $t3, 12($t3)
	lw $t4, 12($t2)
	lw $t4, 12($t4)
	beq $t3, $t4, 1
	j equal_false
	addiu $t1, $t1, 16
	addiu $t2, $t2, 16
equal_bytes:
	bne $t3, $zero, 1
	j equal_true
	lbu $t4, 0($t1)
	lbu $t5, 0($t2)
	beq $t4, $t5, 1
	j equal_false
	addiu $t1, $t1, 1
	addiu $t2, $t2, 1
	addiu $t3, $t3, -1
	j equal_bytes
equal_true:
	la $a0, bool_const1
	jr $ra
equal_false:
	la $a0, bool_const0
	jr $ra
dispatch_abort:
	addiu $a0, $t8, 16
	addiu $v0, $zero, 4
	syscall
	la $a0, __colon
	syscall
	move $a0, $t9
	addiu $v0, $zero, 1
	syscall
	la $a0, __dispatch_text
	addiu $v0, $zero, 4
	syscall
	addiu $a0, $zero, 3
	addiu $v0, $zero, 17
	syscall
case_abort2:
	addiu $a0, $t8, 16
	addiu $v0, $zero, 4
	syscall
	la $a0, __colon
	syscall
	move $a0, $t9
	addiu $v0, $zero, 1
	syscall
	la $a0, __case_text
	addiu $v0, $zero, 4
	syscall
	addiu $a0, $zero, 3
	addiu $v0, $zero, 17
	syscall
case_abort:
	lw $t0, 0($a0)
	sll $t0, $t0, 2
	la $t1, class_nameTab
	addu $t0, $t1, $t0
	lw $t0, 0($t0)
	addiu $a0, $t8, 16
	addiu $v0, $zero, 4
	syscall
	la $a0, __colon
	syscall
	move $a0, $t9
	addiu $v0, $zero, 1
	syscall
	la $a0, __no_branch
	addiu $v0, $zero, 4
	syscall
	addiu $a0, $t0, 16
	syscall
	la $a0, __stop
	syscall
	addiu $a0, $zero, 3
	addiu $v0, $zero, 17
	syscall
div_abort:
	addiu $a0, $t8, 16
	addiu $v0, $zero, 4
	syscall
	la $a0, __colon
	syscall
	move $a0, $t9
	addiu $v0, $zero, 1
	syscall
	la $a0, __division_text
	addiu $v0, $zero, 4
	syscall
	addiu $a0, $zero, 3
	addiu $v0, $zero, 17
	syscall
substr_abort:
	addiu $a0, $t8, 16
	addiu $v0, $zero, 4
	syscall
	la $a0, __colon
	syscall
	move $a0, $t9
	addiu $v0, $zero, 1
	syscall
	la $a0, __substring_text
	addiu $v0, $zero, 4
	syscall
	addiu $a0, $zero, 3
	addiu $v0, $zero, 17
	syscall
overflow_abort:
	addiu $a0, $t8, 16
	addiu $v0, $zero, 4
	syscall
	la $a0, __colon
	syscall
	move $a0, $t9
	addiu $v0, $zero, 1
	syscall
	la $a0, __overflow_text
	addiu $v0, $zero, 4
	syscall
	addiu $a0, $zero, 3
	addiu $v0, $zero, 17
	syscall
heap_limit:
	addiu $a0, $zero, 4
	addiu $v0, $zero, 17
	syscall
stack_limit:
	addiu $a0, $zero, 5
	addiu $v0, $zero, 17
	syscall
Object_init:
	jr $ra
IO_init:
	jr $ra
Int_init:
	jr $ra
Bool_init:
	jr $ra
String_init:
	jr $ra
Main_init:
	addiu $sp, $sp, -12
	sltu $t0, $sp, $s6
	beq $t0, $zero, 1
	j stack_limit
	sw $ra, 8($sp)
	sw $fp, 4($sp)
	sw $s0, 0($sp)
	move $s0, $a0
	move $fp, $sp
	jal IO_init
	move $a0, $s0
	addiu $sp, $fp, 12
	lw $ra, 8($fp)
	lw $s0, 0($fp)
	lw $fp, 4($fp)
	jr $ra
Main.main:			# "cd" is pushed, "ab" is the receiver
	addiu $sp, $sp, -4
	sw $ra, 0($sp)
	la $a0, str_const0
	addiu $sp, $sp, -4
	sw $a0, 0($sp)
	la $a0, str_const1
	jal String.concat
	addiu $sp, $sp, -4
	sw $a0, 0($sp)
	la $a0, Main_protObj
	jal IO.out_string
	lw $ra, 0($sp)
	addiu $sp, $sp, 4
	jr $ra
	.data
class_nameTab:
	.word __name0, __name1, __name5, __name2, __name3, __name4
class_objTab:
	.word Object_protObj, Object_init
	.word IO_protObj, IO_init
	.word Main_protObj, Main_init
	.word Int_protObj, Int_init
	.word Bool_protObj, Bool_init
	.word String_protObj, String_init
Object_dispTab:
	.word Object.abort, Object.type_name, Object.copy
IO_dispTab:
	.word Object.abort, Object.type_name, Object.copy, IO.out_string, IO.out_int, IO.in_string, IO.in_int
Main_dispTab:
	.word Object.abort, Object.type_name, Object.copy, IO.out_string, IO.out_int, IO.in_string, IO.in_int, Main.main
Int_dispTab:
	.word Object.abort, Object.type_name, Object.copy
Bool_dispTab:
	.word Object.abort, Object.type_name, Object.copy
String_dispTab:
	.word Object.abort, Object.type_name, Object.copy, String.length, String.concat, String.substr
	.word -1
Object_protObj:
	.word 0, 3, Object_dispTab
	.word -1
IO_protObj:
	.word 1, 3, IO_dispTab
	.word -1
Main_protObj:
	.word 2, 3, Main_dispTab
	.word -1
Int_protObj:
	.word 3, 4, Int_dispTab, 0
	.word -1
Bool_protObj:
	.word 4, 4, Bool_dispTab, 0
	.word -1
String_protObj:
	.word 5, 5, String_dispTab, __default_int, 0
	.word -1
__default_int:
	.word 3, 4, Int_dispTab, 0
	.word -1
__default_string:
	.word 5, 5, String_dispTab, __default_int, 0
	.word -1
__name_length0:
	.word 3, 4, Int_dispTab, 6
	.word -1
__name0:
	.word 5, 6, String_dispTab, __name_length0
	.asciiz "Object"
	.align 2
	.word -1
__name_length1:
	.word 3, 4, Int_dispTab, 2
	.word -1
__name1:
	.word 5, 5, String_dispTab, __name_length1
	.asciiz "IO"
	.align 2
	.word -1
__name_length5:
	.word 3, 4, Int_dispTab, 4
	.word -1
__name5:
	.word 5, 6, String_dispTab, __name_length5
	.asciiz "Main"
	.align 2
	.word -1
__name_length2:
	.word 3, 4, Int_dispTab, 3
	.word -1
__name2:
	.word 5, 5, String_dispTab, __name_length2
	.asciiz "Int"
	.align 2
	.word -1
__name_length3:
	.word 3, 4, Int_dispTab, 4
	.word -1
__name3:
	.word 5, 6, String_dispTab, __name_length3
	.asciiz "Bool"
	.align 2
	.word -1
__name_length4:
	.word 3, 4, Int_dispTab, 6
	.word -1
__name4:
	.word 5, 6, String_dispTab, __name_length4
	.asciiz "String"
	.align 2
__end:
	.asciiz "COOL program successfully executed\n"
__abort:
	.asciiz "Abort called from class "
__newline:
	.asciiz "\n"
__colon:
	.asciiz ":"
__no_branch:
	.asciiz ": No matching branch for class "
__stop:
	.asciiz ".\n"
__dispatch_text:
	.asciiz ": Dispatch to void.\n"
__case_text:
	.asciiz ": Case on void.\n"
__division_text:
	.asciiz ": Division by zero.\n"
__substring_text:
	.asciiz ": Substring out of range.\n"
__overflow_text:
	.asciiz ": Arithmetic overflow.\n"
	.word -1
bool_const0:
	.word 4, 4, Bool_dispTab, 0
	.word -1
bool_const1:
	.word 4, 4, Bool_dispTab, 1
	.word -1
__length0:
	.word 3, 4, Int_dispTab, 2
	.word -1
str_const0:
	.word 5, 5, String_dispTab, __length0
	.asciiz "cd"
	.align 2
	.word -1
__length1:
	.word 3, 4, Int_dispTab, 2
	.word -1
str_const1:
	.word 5, 5, String_dispTab, __length1
	.asciiz "ab"
	.align 2
	.word -1
__length2:
	.word 3, 4, Int_dispTab, 9
	.word -1
str_const2:
	.word 5, 7, String_dispTab, __length2
	.asciiz "concat.cl"
	.align 2
heap_start:
	.word 0
