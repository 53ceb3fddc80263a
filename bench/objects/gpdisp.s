# The two words that load gp behind a call stand in different blocks. The relocation stands at the first; the second, a
# word that seems to do nothing, is changed by the linker too.
	.set noat
	.set noreorder
	.text
	.align 4
	.globl tried
	.ent tried
tried:
	.frame $30,16,$26,0
	.mask 0x4000200,-16
	.cfi_startproc
	ldah $29,0($27)		!gpdisp!1
	lda $29,0($29)		!gpdisp!1
$tried..ng:
	.prologue 1
	lda $30,-16($30)
	.cfi_def_cfa_offset 16
	stq $26,0($30)
	stq $9,8($30)
	.cfi_offset 26, -16
	.cfi_offset 9, -8
	mov $16,$9
	ldq $27,seven($29)	!literal!2
	jsr $26,($27),seven	!lituse_jsr!2
	ldah $29,0($26)		!gpdisp!3
	br $31,$next
$next:
	lda $29,0($29)		!gpdisp!3
	addq $0,$9,$9
	addq $9,1,$9
	addq $9,2,$9
	addq $9,3,$9
	br $31,$call
$call:
	mov $9,$16
	ldq $27,seven($29)	!literal!4
	jsr $26,($27),seven	!lituse_jsr!4
	ldah $29,0($26)		!gpdisp!5
	lda $29,0($29)		!gpdisp!5
	ldq $26,0($30)
	ldq $9,8($30)
	lda $30,16($30)
	.cfi_restore 26
	.cfi_restore 9
	.cfi_def_cfa_offset 0
	ret $31,($26),1
	.cfi_endproc
	.end tried
	.section .note.GNU-stack,"",@progbits
