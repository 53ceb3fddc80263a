# A table between two functions, which no symbol of a function and no .eh_frame has: its numbers could be instructions.
	.set noat
	.set noreorder
	.text
	.align 4
	.globl tried
	.ent tried
tried:
	.frame $30,0,$26,0
	.cfi_startproc
	.prologue 0
	br $1,$here
$here:
	lda $1,table-$here($1)
	s4addq $16,$1,$1
	ldl $0,0($1)
	ret $31,($26),1
	.cfi_endproc
	.end tried
table:
	addq $17,$18,$0
	addq $0,1,$0
	addq $0,2,$0
	addq $0,3,$0
	ret $31,($26),1
	.section .note.GNU-stack,"",@progbits
