	.text
	.attribute	4, 16
	.attribute	5, "rv64i2p0_m2p0"
	.file	"insert.c"
	.globl	insert
	.p2align	2
	.type	insert,@function
insert:
	ld	a2, -8(a0)
	bge	a1, a2, .LBB0_2
.LBB0_1:
	#APP
	# LLVM-MCA-BEGIN insert
	#NO_APP
	sd	a2, 0(a0)
	ld	a2, -16(a0)
	addi	a0, a0, -8
	blt	a1, a2, .LBB0_1
.LBB0_2:
	#APP
	# LLVM-MCA-END insert
	#NO_APP
	sd	a1, 0(a0)
	ret
.Lfunc_end0:
	.size	insert, .Lfunc_end0-insert

	.ident	"Debian clang version 14.0.6"
	.section	".note.GNU-stack","",@progbits
	.addrsig
