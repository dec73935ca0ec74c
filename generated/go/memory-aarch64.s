/* What gcc makes of memory.c, by: generated/go/make --memory */
	.arch armv8-a
	.text
	.section	.text.memmove,"ax",@progbits
	.align	2
	.p2align 4,,11
	.global	memmove
	.type	memmove, %function
memmove:
.LFB0:
	.cfi_startproc
	cmp	x2, 16
	bls	.L20
	sub	x6, x2, #16
	ldr	q3, [x1]
	ldr	q2, [x1, x6]
	cmp	x2, 32
	bls	.L7
	sub	x5, x2, #32
	sub	x3, x0, x1
	ldr	q5, [x1, 16]
	ldr	q4, [x1, x5]
	cmp	x3, x2
	bcc	.L21
	cmp	x5, 32
	bls	.L10
	add	x4, x1, 16
	add	x3, x0, 16
	mov	x2, 32
	.p2align 3,,7
.L11:
	ldr	q1, [x1, x2]
	ldr	q0, [x4, x2]
	str	q1, [x0, x2]
	str	q0, [x3, x2]
	add	x2, x2, 32
	cmp	x5, x2
	bhi	.L11
.L10:
	str	q5, [x0, 16]
	str	q4, [x0, x5]
.L7:
	str	q3, [x0]
	str	q2, [x0, x6]
.L4:
	ret
	.p2align 2,,3
.L20:
	cmp	x2, 7
	bhi	.L22
	cmp	x2, 3
	bls	.L5
	sub	x2, x2, #4
	ldr	w3, [x1]
	ldr	w1, [x1, x2]
	str	w3, [x0]
	str	w1, [x0, x2]
	ret
	.p2align 2,,3
.L22:
	sub	x2, x2, #8
	ldr	x3, [x1]
	ldr	x1, [x1, x2]
	str	x3, [x0]
	str	x1, [x0, x2]
	ret
	.p2align 2,,3
.L21:
	mov	x2, x5
	add	x4, x1, 16
	add	x3, x0, 16
	cmp	x5, 32
	bls	.L10
	.p2align 3,,7
.L9:
	sub	x2, x2, #32
	ldr	q1, [x1, x2]
	ldr	q0, [x4, x2]
	str	q1, [x0, x2]
	str	q0, [x3, x2]
	cmp	x2, 32
	bhi	.L9
	str	q5, [x0, 16]
	str	q4, [x0, x5]
	b	.L7
	.p2align 2,,3
.L5:
	cmp	x2, 1
	bls	.L6
	sub	x2, x2, #2
	ldrh	w3, [x1]
	ldrh	w1, [x1, x2]
	strh	w3, [x0]
	strh	w1, [x0, x2]
	ret
	.p2align 2,,3
.L6:
	cbz	x2, .L4
	ldrb	w1, [x1]
	strb	w1, [x0]
	ret
	.cfi_endproc
.LFE0:
	.size	memmove, .-memmove
	.section	.text.memcpy,"ax",@progbits
	.align	2
	.p2align 4,,11
	.global	memcpy
	.type	memcpy, %function
memcpy:
.LFB1:
	.cfi_startproc
	b	memmove
	.cfi_endproc
.LFE1:
	.size	memcpy, .-memcpy
	.section	.text.memset,"ax",@progbits
	.align	2
	.p2align 4,,11
	.global	memset
	.type	memset, %function
memset:
.LFB2:
	.cfi_startproc
	and	x1, x1, 255
	mov	x3, 72340172838076673
	mul	x1, x1, x3
	cmp	x2, 15
	bls	.L37
	dup	v0.2d, x1
	add	x1, x0, x2
	str	q0, [x0]
	str	q0, [x1, -16]
	cmp	x2, 32
	bls	.L27
	sub	x4, x2, #32
	str	q0, [x0, 16]
	str	q0, [x0, x4]
	cmp	x4, 32
	bls	.L27
	sub	x2, x2, #65
	mov	x5, 32
	and	x2, x2, -64
	sub	x5, x5, x0
	add	x2, x2, x0
	add	x1, x0, 32
	add	x2, x2, 96
	.p2align 3,,7
.L32:
	add	x3, x5, x1
	stp	q0, q0, [x1]
	cmp	x4, x3
	bls	.L31
	stp	q0, q0, [x1, 32]
.L31:
	add	x1, x1, 64
	cmp	x1, x2
	bne	.L32
.L27:
	ret
	.p2align 2,,3
.L37:
	cmp	x2, 7
	bhi	.L38
	cmp	x2, 3
	bls	.L28
	add	x2, x0, x2
	str	w1, [x0]
	str	w1, [x2, -4]
	ret
	.p2align 2,,3
.L38:
	add	x2, x0, x2
	str	x1, [x0]
	str	x1, [x2, -8]
	ret
	.p2align 2,,3
.L28:
	cmp	x2, 1
	bls	.L29
	add	x2, x0, x2
	and	w1, w1, 65535
	strh	w1, [x0]
	strh	w1, [x2, -2]
	ret
	.p2align 2,,3
.L29:
	cbz	x2, .L27
	strb	w1, [x0]
	ret
	.cfi_endproc
.LFE2:
	.size	memset, .-memset
	.section	.note.GNU-stack,"",@progbits
