# A landing pad in the midst of words that control also comes to from above. Only .gcc_except_table says where it is.
	.set noat
	.set noreorder
	.text
	.align 4
	.globl tried
	.ent tried
tried:
	.frame $30,16,$26,0
	.mask 0x4000200,-16
$begin:
	.cfi_startproc
	.cfi_personality 0x9b,DW.ref.__gxx_personality_v0
	.cfi_lsda 0x1b,$table
	ldah $29,0($27)		!gpdisp!1
	lda $29,0($29)		!gpdisp!1
$tried..ng:
	.prologue 1
	lda $30,-16($30)
	.cfi_def_cfa_offset 16
	stq $26,0($30)
	stq $9,8($30)
	.cfi_offset 26, -16
	.cfi_offset 9, -8
	mov $17,$9
	ldq $27,throws($29)	!literal!2
$called:
	jsr $26,($27),throws	!lituse_jsr!2
$returned:
	mov $31,$16
	br $31,$joined
$joined:
	addq $9,1,$9
	addq $9,2,$9
$pad:
	addq $9,3,$9
	addq $9,4,$9
	br $31,$behind
$behind:
	beq $16,$done
	br $29,$here
$here:
	ldah $29,0($29)		!gpdisp!3
	lda $29,0($29)		!gpdisp!3
	ldq $27,__cxa_begin_catch($29)	!literal!4
	jsr $26,($27),__cxa_begin_catch	!lituse_jsr!4
	ldah $29,0($26)		!gpdisp!5
	lda $29,0($29)		!gpdisp!5
	ldq $27,__cxa_end_catch($29)	!literal!6
	jsr $26,($27),__cxa_end_catch	!lituse_jsr!6
	ldah $29,0($26)		!gpdisp!7
	lda $29,0($29)		!gpdisp!7
$done:
	mov $9,$0
	ldq $26,0($30)
	ldq $9,8($30)
	lda $30,16($30)
	ret $31,($26),1
	.cfi_endproc
$end:
	.end tried
	.section .gcc_except_table,"a",@progbits
	.align 2
$table:
	.byte 0xff
	.byte 0x9b
	.uleb128 $types-$typed
$typed:
	.byte 0x1
	.uleb128 $sites_end-$sites
$sites:
	.uleb128 $called-$begin
	.uleb128 $returned-$called
	.uleb128 $pad-$begin
	.uleb128 0x1
	.uleb128 $returned-$begin
	.uleb128 $end-$returned
	.uleb128 0
	.uleb128 0
$sites_end:
	.byte 0x1
	.byte 0
	.align 2
	.long 0
$types:
	.section .data.rel.local.DW.ref.__gxx_personality_v0,"awG",@progbits,DW.ref.__gxx_personality_v0,comdat
	.hidden DW.ref.__gxx_personality_v0
	.weak DW.ref.__gxx_personality_v0
	.align 3
	.type DW.ref.__gxx_personality_v0,@object
	.size DW.ref.__gxx_personality_v0,8
DW.ref.__gxx_personality_v0:
	.quad __gxx_personality_v0
	.section .note.GNU-stack,"",@progbits
