# The loop of kernels/fnv1a.c (the hash FNV-1a), as GCC writes it, without the marks around it.
.L3:
	lbu	a4,0(a5)
	addi	a5,a5,1
	xor	a0,a4,a0
	mul	a0,a0,a3
	bne	a5,a1,.L3
