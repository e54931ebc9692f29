	.text
	.attribute	4, 16
	.attribute	5, "rv64i2p0_m2p0"
	.file	"prefix.c"
	.globl	prefix
	.p2align	2
	.type	prefix,@function
prefix:
	blez	a2, .LBB0_3
	li	a3, 0
.LBB0_2:
	#APP
	# LLVM-MCA-BEGIN prefix
	#NO_APP
	ld	a4, 0(a1)
	add	a3, a4, a3
	sd	a3, 0(a0)
	addi	a2, a2, -1
	addi	a0, a0, 8
	addi	a1, a1, 8
	bnez	a2, .LBB0_2
.LBB0_3:
	#APP
	# LLVM-MCA-END prefix
	#NO_APP
	ret
.Lfunc_end0:
	.size	prefix, .Lfunc_end0-prefix

	.ident	"Debian clang version 14.0.6"
	.section	".note.GNU-stack","",@progbits
	.addrsig
