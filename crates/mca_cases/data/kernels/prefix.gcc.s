	.file	"prefix.c"
	.option nopic
	.attribute arch, "rv64i2p1_m2p0"
	.attribute unaligned_access, 0
	.attribute stack_align, 16
	.text
	.align	2
	.globl	prefix
	.type	prefix, @function
prefix:
	ble	a2,zero,.L2
	li	a4,0
	li	a5,0
.L3:
 #APP
# 8 "prefix.c" 1
	# LLVM-MCA-BEGIN prefix
# 0 "" 2
 #NO_APP
	ld	a3,0(a1)
	addi	a4,a4,1
	addi	a1,a1,8
	add	a5,a5,a3
	sd	a5,0(a0)
	addi	a0,a0,8
	bne	a2,a4,.L3
.L2:
 #APP
# 12 "prefix.c" 1
	# LLVM-MCA-END prefix
# 0 "" 2
 #NO_APP
	ret
	.size	prefix, .-prefix
	.ident	"GCC: (12.2.0-14+deb12u1+11+b2) 12.2.0"
