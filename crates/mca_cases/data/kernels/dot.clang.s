	.text
	.attribute	4, 16
	.attribute	5, "rv64i2p0_m2p0"
	.file	"dot.c"
	.globl	dot
	.p2align	2
	.type	dot,@function
dot:
	li	a3, 0
	blez	a2, .LBB0_3
.LBB0_1:
	#APP
	# LLVM-MCA-BEGIN dot
	#NO_APP
	ld	a4, 0(a0)
	ld	a5, 0(a1)
	mul	a4, a5, a4
	add	a3, a4, a3
	addi	a2, a2, -1
	addi	a1, a1, 8
	addi	a0, a0, 8
	bnez	a2, .LBB0_1
	#APP
	# LLVM-MCA-END dot
	#NO_APP
.LBB0_3:
	mv	a0, a3
	ret
.Lfunc_end0:
	.size	dot, .Lfunc_end0-dot

	.ident	"Debian clang version 14.0.6"
	.section	".note.GNU-stack","",@progbits
	.addrsig
