	.file	"fnv1a.c"
	.option nopic
	.attribute arch, "rv64i2p1_m2p0"
	.attribute unaligned_access, 0
	.attribute stack_align, 16
	.text
	.align	2
	.globl	fnv1a
	.type	fnv1a, @function
fnv1a:
	mv	a5,a0
	ble	a1,zero,.L4
	lui	a4,%hi(.LC0)
	li	a3,1
	ld	a0,%lo(.LC0)(a4)
	slli	a3,a3,40
	add	a1,a5,a1
	addi	a3,a3,435
.L3:
 #APP
# 11 "fnv1a.c" 1
	# LLVM-MCA-BEGIN fnv1a
# 0 "" 2
 #NO_APP
	lbu	a4,0(a5)
	addi	a5,a5,1
	xor	a0,a4,a0
	mul	a0,a0,a3
	bne	a5,a1,.L3
 #APP
# 15 "fnv1a.c" 1
	# LLVM-MCA-END fnv1a
# 0 "" 2
 #NO_APP
	ret
.L4:
	lui	a5,%hi(.LC0)
	ld	a0,%lo(.LC0)(a5)
	ret
	.size	fnv1a, .-fnv1a
	.section	.srodata.cst8,"aM",@progbits,8
	.align	3
.LC0:
	.dword	-3750763034362895579
	.ident	"GCC: (12.2.0-14+deb12u1+11+b2) 12.2.0"
