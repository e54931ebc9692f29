	.file	"checksum.c"
	.option nopic
	.attribute arch, "rv64i2p1_m2p0"
	.attribute unaligned_access, 0
	.attribute stack_align, 16
	.text
	.align	2
	.globl	checksum
	.type	checksum, @function
checksum:
	ble	a1,zero,.L4
	mv	a5,a0
	add	a1,a0,a1
	li	a0,0
.L3:
 #APP
# 12 "checksum.c" 1
	# LLVM-MCA-BEGIN checksum
# 0 "" 2
 #NO_APP
	lbu	a4,0(a5)
	slli	a0,a0,8
	addi	a5,a5,1
	add	a0,a0,a4
	remu	a0,a0,a2
	bne	a5,a1,.L3
 #APP
# 16 "checksum.c" 1
	# LLVM-MCA-END checksum
# 0 "" 2
 #NO_APP
	ret
.L4:
	li	a0,0
	ret
	.size	checksum, .-checksum
	.ident	"GCC: (12.2.0-14+deb12u1+11+b2) 12.2.0"
