	.file	"length.c"
	.option nopic
	.attribute arch, "rv64i2p1_m2p0"
	.attribute unaligned_access, 0
	.attribute stack_align, 16
	.text
	.align	2
	.globl	length
	.type	length, @function
length:
	mv	a4,a0
	li	a0,-1
.L2:
 #APP
# 8 "length.c" 1
	# LLVM-MCA-BEGIN length
# 0 "" 2
 #NO_APP
	addi	a0,a0,1
	add	a5,a4,a0
	lbu	a5,0(a5)
	bne	a5,zero,.L2
 #APP
# 11 "length.c" 1
	# LLVM-MCA-END length
# 0 "" 2
 #NO_APP
	ret
	.size	length, .-length
	.ident	"GCC: (12.2.0-14+deb12u1+11+b2) 12.2.0"
