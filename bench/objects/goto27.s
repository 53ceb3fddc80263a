# A jump by $27 that stays inside of the function: a computed goto, and no call in the last place. What its labels need
# isn't what a called function needs.
	.set noat
	.set noreorder
	.text
	.align 4
	.globl tried
	.ent tried
tried:
	.frame $30,0,$26,0
	.cfi_startproc
	ldah $29,0($27)		!gpdisp!1
	lda $29,0($29)		!gpdisp!1
$tried..ng:
	.prologue 1
	and $16,1,$1
	ldah $2,labels($29)	!gprelhigh
	lda $2,labels($2)	!gprellow
	s8addq $1,$2,$1
	ldq $27,0($1)
	br $31,$sums
$sums:
	addq $17,$18,$3
	addq $16,1,$16
	addq $16,2,$16
	addq $16,3,$16
	jmp $31,($27),0
$even:
	addq $3,$16,$0
	ret $31,($26),1
$odd:
	subq $3,$16,$0
	ret $31,($26),1
	.cfi_endproc
	.end tried
	.section .data.rel.ro,"aw"
	.align 3
labels:
	.quad $even
	.quad $odd
	.section .note.GNU-stack,"",@progbits
