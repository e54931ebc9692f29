	.file	"copy.c"
	.option nopic
	.attribute arch, "rv64i2p1_m2p0"
	.attribute unaligned_access, 0
	.attribute stack_align, 16
	.text
	.align	2
	.globl	copy
	.type	copy, @function
copy:
	ble	a2,zero,.L2
	li	a5,0
.L3:
 #APP
# 6 "copy.c" 1
	# LLVM-MCA-BEGIN copy
# 0 "" 2
 #NO_APP
	ld	a4,0(a1)
	addi	a5,a5,1
	addi	a1,a1,8
	sd	a4,0(a0)
	addi	a0,a0,8
	bne	a2,a5,.L3
.L2:
 #APP
# 9 "copy.c" 1
	# LLVM-MCA-END copy
# 0 "" 2
 #NO_APP
	ret
	.size	copy, .-copy
	.ident	"GCC: (12.2.0-14+deb12u1+11+b2) 12.2.0"
