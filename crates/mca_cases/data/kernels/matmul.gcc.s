	.file	"matmul.c"
	.option nopic
	.attribute arch, "rv64i2p1_m2p0"
	.attribute unaligned_access, 0
	.attribute stack_align, 16
	.text
	.align	2
	.globl	matmul
	.type	matmul, @function
matmul:
	ble	a3,zero,.L9
	addi	sp,sp,-16
	sd	s0,8(sp)
	mv	t1,a3
	mv	s0,a2
	slli	a7,a3,3
	mv	t6,a1
	mv	t0,a0
	li	t2,0
.L3:
	mv	t4,s0
	mv	t3,t0
	li	t5,0
.L6:
	mv	a2,t4
	mv	a3,t6
	li	a5,0
	li	a1,0
.L4:
 #APP
# 10 "matmul.c" 1
	# LLVM-MCA-BEGIN matmul
# 0 "" 2
 #NO_APP
	ld	a4,0(a3)
	ld	a0,0(a2)
	mv	a6,a5
	addi	a5,a5,1
	mul	a4,a4,a0
	addi	a3,a3,8
	add	a2,a2,a7
	add	a1,a1,a4
	bne	t1,a5,.L4
 #APP
# 13 "matmul.c" 1
	# LLVM-MCA-END matmul
# 0 "" 2
 #NO_APP
	sd	a1,0(t3)
	addi	a5,t5,1
	addi	t3,t3,8
	addi	t4,t4,8
	beq	t5,a6,.L5
	mv	t5,a5
	j	.L6
.L5:
	addi	a5,t2,1
	add	t6,t6,a7
	add	t0,t0,a7
	beq	t2,t5,.L1
	mv	t2,a5
	j	.L3
.L1:
	ld	s0,8(sp)
	addi	sp,sp,16
	jr	ra
.L9:
	ret
	.size	matmul, .-matmul
	.ident	"GCC: (12.2.0-14+deb12u1+11+b2) 12.2.0"
