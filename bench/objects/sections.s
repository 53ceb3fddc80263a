# Two sections of one name. In the first the words stay as they are, in the second a linker changes two of them, so that
# the same bytes are other words.
	.set noat
	.set noreorder
	.section .text.same,"axG",@progbits,one,comdat
	.align 4
	.weak one
	.ent one
one:
	.frame $30,0,$26,0
	.cfi_startproc
	.prologue 0
	ldah $3,0($29)
	.long 0x20630000	# lda $3,0($3), which the assembler would leave out
	subq $3,$29,$3
	addq $3,$17,$0
	addq $0,$18,$0
	addq $0,1,$0
	addq $0,2,$0
	addq $0,3,$0
	ret $31,($26),1
	.cfi_endproc
	.end one
	.section .text.same,"axG",@progbits,two,comdat
	.align 4
	.weak two
	.ent two
two:
	.frame $30,0,$26,0
	.cfi_startproc
	.prologue 0
	ldah $3,low($29)	!gprelhigh
	lda $3,low($3)		!gprellow
	subq $3,$29,$3
	addq $3,$17,$0
	addq $0,$18,$0
	addq $0,1,$0
	addq $0,2,$0
	addq $0,3,$0
	ret $31,($26),1
	.cfi_endproc
	.end two
	.text
	.align 4
	.globl tried
	.ent tried
tried:
	.frame $30,0,$26,0
	.cfi_startproc
	ldah $29,0($27)		!gpdisp!1
	lda $29,0($29)		!gpdisp!1
$tried..ng:
	.prologue 1
	blbs $16,$odd
	ldq $27,one($29)	!literal!2
	jmp $31,($27),one	!lituse_jsr!2
$odd:
	ldq $27,two($29)	!literal!3
	jmp $31,($27),two	!lituse_jsr!3
	.cfi_endproc
	.end tried
	.section .sdata,"aw"
	.space 24
low:
	.quad 1
	.section .note.GNU-stack,"",@progbits
