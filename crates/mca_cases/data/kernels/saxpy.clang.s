	.text
	.attribute	4, 16
	.attribute	5, "rv64i2p0_m2p0"
	.file	"saxpy.c"
	.globl	saxpy
	.p2align	2
	.type	saxpy,@function
saxpy:
	blez	a0, .LBB0_2
.LBB0_1:
	#APP
	# LLVM-MCA-BEGIN saxpy
	#NO_APP
	lw	a4, 0(a2)
	lw	a5, 0(a3)
	mulw	a4, a4, a1
	addw	a4, a5, a4
	sw	a4, 0(a3)
	addi	a0, a0, -1
	addi	a3, a3, 4
	addi	a2, a2, 4
	bnez	a0, .LBB0_1
.LBB0_2:
	#APP
	# LLVM-MCA-END saxpy
	#NO_APP
	ret
.Lfunc_end0:
	.size	saxpy, .Lfunc_end0-saxpy

	.ident	"Debian clang version 14.0.6"
	.section	".note.GNU-stack","",@progbits
	.addrsig
