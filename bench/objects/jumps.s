# Jumps inside of a function that a compiler would write otherwise: one writes its address to $1, the other is written
# as a return, by another register than $26. Labels that only a number in a table says are in the midst of blocks.
	.set noat
	.set noreorder
	.text
	.align 4
	.globl tried
	.ent tried
tried:
	.frame $30,0,$26,0
	.cfi_startproc
	ldah $29,0($27)		!gpdisp!1
	lda $29,0($29)		!gpdisp!1
$tried..ng:
	.prologue 1
	ldah $2,$base($29)	!gprelhigh
	lda $2,$base($2)	!gprellow
	ldah $4,distances($29)	!gprelhigh
	lda $4,distances($4)	!gprellow
	s4addq $16,$4,$4
	ldl $4,0($4)
	addq $2,$4,$4
	blbs $16,$second
	jmp $1,($4),0
$second:
	ret $31,($4),1
$base:
	addq $17,$18,$0
$one:
	addq $0,1,$0
$two:
	addq $0,2,$0
$three:
	addq $0,3,$0
	addq $0,4,$0
	ret $31,($26),1
	.cfi_endproc
	.end tried
	.section .rodata
	.align 2
distances:
	.long $base-$base
	.long $one-$base
	.long $two-$base
	.long $three-$base
	.section .note.GNU-stack,"",@progbits
