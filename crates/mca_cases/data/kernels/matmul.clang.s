	.text
	.attribute	4, 16
	.attribute	5, "rv64i2p0_m2p0"
	.file	"matmul.c"
	.globl	matmul
	.p2align	2
	.type	matmul,@function
matmul:
	blez	a3, .LBB0_7
	li	a4, 0
	slli	a5, a3, 3
.LBB0_2:
	li	a6, 0
	mul	a7, a4, a3
	mv	t0, a2
.LBB0_3:
	li	t1, 0
	mv	t2, a1
	mv	t3, t0
	mv	t4, a3
.LBB0_4:
	#APP
	# LLVM-MCA-BEGIN matmul
	#NO_APP
	ld	t5, 0(t2)
	ld	t6, 0(t3)
	mul	t5, t6, t5
	add	t1, t5, t1
	addi	t4, t4, -1
	add	t3, t3, a5
	addi	t2, t2, 8
	bnez	t4, .LBB0_4
	#APP
	# LLVM-MCA-END matmul
	#NO_APP
	add	t2, a6, a7
	slli	t2, t2, 3
	add	t2, a0, t2
	sd	t1, 0(t2)
	addi	a6, a6, 1
	addi	t0, t0, 8
	bne	a6, a3, .LBB0_3
	addi	a4, a4, 1
	add	a1, a1, a5
	bne	a4, a3, .LBB0_2
.LBB0_7:
	ret
.Lfunc_end0:
	.size	matmul, .Lfunc_end0-matmul

	.ident	"Debian clang version 14.0.6"
	.section	".note.GNU-stack","",@progbits
	.addrsig
