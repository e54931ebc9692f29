	.file	"recurrence.c"
	.option nopic
	.attribute arch, "rv64i2p1_m2p0"
	.attribute unaligned_access, 0
	.attribute stack_align, 16
	.text
	.align	2
	.globl	recurrence
	.type	recurrence, @function
recurrence:
	ble	a3,zero,.L2
	li	a6,0
	li	a5,1
	li	a4,0
.L3:
 #APP
# 9 "recurrence.c" 1
	# LLVM-MCA-BEGIN recurrence
# 0 "" 2
 #NO_APP
	mul	a7,a2,a4
	mv	a4,a5
	addi	a0,a0,8
	addi	a6,a6,1
	mul	a5,a1,a5
	add	a5,a5,a7
	sd	a5,-8(a0)
	bne	a3,a6,.L3
.L2:
 #APP
# 15 "recurrence.c" 1
	# LLVM-MCA-END recurrence
# 0 "" 2
 #NO_APP
	ret
	.size	recurrence, .-recurrence
	.ident	"GCC: (12.2.0-14+deb12u1+11+b2) 12.2.0"
