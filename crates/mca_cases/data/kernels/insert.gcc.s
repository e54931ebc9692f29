	.file	"insert.c"
	.option nopic
	.attribute arch, "rv64i2p1_m2p0"
	.attribute unaligned_access, 0
	.attribute stack_align, 16
	.text
	.align	2
	.globl	insert
	.type	insert, @function
insert:
	ld	a5,-8(a0)
	ble	a5,a1,.L2
.L3:
 #APP
# 9 "insert.c" 1
	# LLVM-MCA-BEGIN insert
# 0 "" 2
 #NO_APP
	sd	a5,0(a0)
	ld	a5,-16(a0)
	addi	a0,a0,-8
	blt	a1,a5,.L3
.L2:
 #APP
# 14 "insert.c" 1
	# LLVM-MCA-END insert
# 0 "" 2
 #NO_APP
	sd	a1,0(a0)
	ret
	.size	insert, .-insert
	.ident	"GCC: (12.2.0-14+deb12u1+11+b2) 12.2.0"
