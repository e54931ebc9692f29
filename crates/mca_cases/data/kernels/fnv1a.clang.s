	.text
	.attribute	4, 16
	.attribute	5, "rv64i2p0_m2p0"
	.file	"fnv1a.c"
	.section	.sdata,"aw",@progbits
	.p2align	3
.LCPI0_0:
	.quad	-3750763034362895579
	.text
	.globl	fnv1a
	.p2align	2
	.type	fnv1a,@function
fnv1a:
	mv	a2, a0
	lui	a0, %hi(.LCPI0_0)
	ld	a0, %lo(.LCPI0_0)(a0)
	blez	a1, .LBB0_4
	li	a3, 1
	slli	a3, a3, 40
	addi	a3, a3, 435
.LBB0_2:
	#APP
	# LLVM-MCA-BEGIN fnv1a
	#NO_APP
	lbu	a4, 0(a2)
	xor	a0, a0, a4
	mul	a0, a0, a3
	addi	a1, a1, -1
	addi	a2, a2, 1
	bnez	a1, .LBB0_2
	#APP
	# LLVM-MCA-END fnv1a
	#NO_APP
.LBB0_4:
	ret
.Lfunc_end0:
	.size	fnv1a, .Lfunc_end0-fnv1a

	.ident	"Debian clang version 14.0.6"
	.section	".note.GNU-stack","",@progbits
	.addrsig
