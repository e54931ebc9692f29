	.text
	.attribute	4, 16
	.attribute	5, "rv64i2p0_m2p0"
	.file	"length.c"
	.globl	length
	.p2align	2
	.type	length,@function
length:
	li	a1, 0
.LBB0_1:
	#APP
	# LLVM-MCA-BEGIN length
	#NO_APP
	add	a2, a0, a1
	lbu	a2, 0(a2)
	addi	a1, a1, 1
	bnez	a2, .LBB0_1
	#APP
	# LLVM-MCA-END length
	#NO_APP
	addi	a0, a1, -1
	ret
.Lfunc_end0:
	.size	length, .Lfunc_end0-length

	.ident	"Debian clang version 14.0.6"
	.section	".note.GNU-stack","",@progbits
	.addrsig
