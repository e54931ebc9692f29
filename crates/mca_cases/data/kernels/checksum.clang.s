	.text
	.attribute	4, 16
	.attribute	5, "rv64i2p0_m2p0"
	.file	"checksum.c"
	.globl	checksum
	.p2align	2
	.type	checksum,@function
checksum:
	li	a3, 0
	blez	a1, .LBB0_3
.LBB0_1:
	#APP
	# LLVM-MCA-BEGIN checksum
	#NO_APP
	lbu	a4, 0(a0)
	slli	a3, a3, 8
	or	a3, a3, a4
	remu	a3, a3, a2
	addi	a1, a1, -1
	addi	a0, a0, 1
	bnez	a1, .LBB0_1
	#APP
	# LLVM-MCA-END checksum
	#NO_APP
.LBB0_3:
	mv	a0, a3
	ret
.Lfunc_end0:
	.size	checksum, .Lfunc_end0-checksum

	.ident	"Debian clang version 14.0.6"
	.section	".note.GNU-stack","",@progbits
	.addrsig
