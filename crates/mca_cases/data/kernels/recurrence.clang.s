	.text
	.attribute	4, 16
	.attribute	5, "rv64i2p0_m2p0"
	.file	"recurrence.c"
	.globl	recurrence
	.p2align	2
	.type	recurrence,@function
recurrence:
	blez	a3, .LBB0_3
	li	a5, 0
	li	a4, 1
.LBB0_2:
	#APP
	# LLVM-MCA-BEGIN recurrence
	#NO_APP
	mul	a6, a4, a1
	mul	a7, a5, a2
	mv	a5, a4
	add	a4, a7, a6
	sd	a4, 0(a0)
	addi	a3, a3, -1
	addi	a0, a0, 8
	bnez	a3, .LBB0_2
.LBB0_3:
	#APP
	# LLVM-MCA-END recurrence
	#NO_APP
	ret
.Lfunc_end0:
	.size	recurrence, .Lfunc_end0-recurrence

	.ident	"Debian clang version 14.0.6"
	.section	".note.GNU-stack","",@progbits
	.addrsig
