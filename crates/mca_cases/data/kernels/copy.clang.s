	.text
	.attribute	4, 16
	.attribute	5, "rv64i2p0_m2p0"
	.file	"copy.c"
	.globl	copy
	.p2align	2
	.type	copy,@function
copy:
	blez	a2, .LBB0_2
.LBB0_1:
	#APP
	# LLVM-MCA-BEGIN copy
	#NO_APP
	ld	a3, 0(a1)
	sd	a3, 0(a0)
	addi	a2, a2, -1
	addi	a0, a0, 8
	addi	a1, a1, 8
	bnez	a2, .LBB0_1
.LBB0_2:
	#APP
	# LLVM-MCA-END copy
	#NO_APP
	ret
.Lfunc_end0:
	.size	copy, .Lfunc_end0-copy

	.ident	"Debian clang version 14.0.6"
	.section	".note.GNU-stack","",@progbits
	.addrsig
