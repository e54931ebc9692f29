	.file	"saxpy.c"
	.option nopic
	.attribute arch, "rv64i2p1_m2p0"
	.attribute unaligned_access, 0
	.attribute stack_align, 16
	.text
	.align	2
	.globl	saxpy
	.type	saxpy, @function
saxpy:
	ble	a0,zero,.L2
	li	a4,0
.L3:
 #APP
# 6 "saxpy.c" 1
	# LLVM-MCA-BEGIN saxpy
# 0 "" 2
 #NO_APP
	lw	a5,0(a2)
	lw	a6,0(a3)
	addi	a3,a3,4
	mulw	a5,a5,a1
	addi	a4,a4,1
	addi	a2,a2,4
	addw	a5,a5,a6
	sw	a5,-4(a3)
	bne	a0,a4,.L3
.L2:
 #APP
# 9 "saxpy.c" 1
	# LLVM-MCA-END saxpy
# 0 "" 2
 #NO_APP
	ret
	.size	saxpy, .-saxpy
	.ident	"GCC: (12.2.0-14+deb12u1+11+b2) 12.2.0"
