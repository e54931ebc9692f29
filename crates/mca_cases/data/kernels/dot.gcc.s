	.file	"dot.c"
	.option nopic
	.attribute arch, "rv64i2p1_m2p0"
	.attribute unaligned_access, 0
	.attribute stack_align, 16
	.text
	.align	2
	.globl	dot
	.type	dot, @function
dot:
	ble	a2,zero,.L4
	mv	a4,a0
	li	a3,0
	li	a0,0
.L3:
 #APP
# 11 "dot.c" 1
	# LLVM-MCA-BEGIN dot
# 0 "" 2
 #NO_APP
	ld	a5,0(a4)
	ld	a6,0(a1)
	addi	a3,a3,1
	addi	a4,a4,8
	mul	a5,a5,a6
	addi	a1,a1,8
	add	a0,a0,a5
	bne	a2,a3,.L3
 #APP
# 15 "dot.c" 1
	# LLVM-MCA-END dot
# 0 "" 2
 #NO_APP
	ret
.L4:
	li	a0,0
	ret
	.size	dot, .-dot
	.ident	"GCC: (12.2.0-14+deb12u1+11+b2) 12.2.0"
