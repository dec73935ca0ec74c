/* What gcc makes of memory.c, by: generated/go/make --memory */
	.text
	.section	.text.memmove,"ax",@progbits
	.p2align 4
	.globl	memmove
	.type	memmove, @function
memmove:
.LFB0:
	.cfi_startproc
	movq	%rdi, %rax
	cmpq	$16, %rdx
	jbe	.L21
	movdqu	(%rsi), %xmm2
	movdqu	-16(%rsi,%rdx), %xmm1
	cmpq	$32, %rdx
	jbe	.L7
	subq	%rsi, %rdi
	movdqu	16(%rsi), %xmm4
	movdqu	-32(%rsi,%rdx), %xmm3
	leaq	-32(%rdx), %rcx
	cmpq	%rdx, %rdi
	jb	.L19
	cmpq	$32, %rcx
	jbe	.L10
	movl	$32, %edi
	.p2align 4,,10
	.p2align 3
.L11:
	movdqu	16(%rsi,%rdi), %xmm0
	movdqu	(%rsi,%rdi), %xmm5
	movups	%xmm0, 16(%rax,%rdi)
	movups	%xmm5, (%rax,%rdi)
	addq	$32, %rdi
	cmpq	%rcx, %rdi
	jb	.L11
.L10:
	movups	%xmm4, 16(%rax)
	movups	%xmm3, -32(%rax,%rdx)
.L7:
	movups	%xmm2, (%rax)
	movups	%xmm1, -16(%rax,%rdx)
.L4:
	ret
	.p2align 4,,10
	.p2align 3
.L9:
	subq	$32, %rcx
	movdqu	16(%rsi,%rcx), %xmm0
	movdqu	(%rsi,%rcx), %xmm6
	movups	%xmm0, 16(%rax,%rcx)
	movups	%xmm6, (%rax,%rcx)
.L19:
	cmpq	$32, %rcx
	ja	.L9
	movups	%xmm4, 16(%rax)
	movups	%xmm3, -32(%rax,%rdx)
	jmp	.L7
	.p2align 4,,10
	.p2align 3
.L21:
	cmpq	$7, %rdx
	ja	.L22
	cmpq	$3, %rdx
	jbe	.L5
	movl	(%rsi), %edi
	movl	-4(%rsi,%rdx), %ecx
	movl	%edi, (%rax)
	movl	%ecx, -4(%rax,%rdx)
	ret
	.p2align 4,,10
	.p2align 3
.L22:
	movq	(%rsi), %rdi
	movq	-8(%rsi,%rdx), %rcx
	movq	%rdi, (%rax)
	movq	%rcx, -8(%rax,%rdx)
	ret
	.p2align 4,,10
	.p2align 3
.L5:
	cmpq	$1, %rdx
	jbe	.L6
	movzwl	(%rsi), %edi
	movzwl	-2(%rsi,%rdx), %ecx
	movw	%di, (%rax)
	movw	%cx, -2(%rax,%rdx)
	ret
	.p2align 4,,10
	.p2align 3
.L6:
	testq	%rdx, %rdx
	je	.L4
	movzbl	(%rsi), %edx
	movb	%dl, (%rdi)
	ret
	.cfi_endproc
.LFE0:
	.size	memmove, .-memmove
	.section	.text.memcpy,"ax",@progbits
	.p2align 4
	.globl	memcpy
	.type	memcpy, @function
memcpy:
.LFB1:
	.cfi_startproc
	jmp	memmove@PLT
	.cfi_endproc
.LFE1:
	.size	memcpy, .-memcpy
	.section	.text.memset,"ax",@progbits
	.p2align 4
	.globl	memset
	.type	memset, @function
memset:
.LFB2:
	.cfi_startproc
	movzbl	%sil, %esi
	movq	%rdi, %rax
	movabsq	$72340172838076673, %rcx
	imulq	%rcx, %rsi
	cmpq	$15, %rdx
	jbe	.L37
	movq	%rsi, %xmm0
	punpcklqdq	%xmm0, %xmm0
	movups	%xmm0, (%rdi)
	movups	%xmm0, -16(%rdi,%rdx)
	cmpq	$32, %rdx
	jbe	.L27
	leaq	-32(%rdx), %rcx
	movups	%xmm0, 16(%rdi)
	movups	%xmm0, -32(%rdi,%rdx)
	cmpq	$32, %rcx
	jbe	.L27
	subq	$65, %rdx
	andq	$-64, %rdx
	leaq	128(%rdx), %rsi
	movl	$64, %edx
	.p2align 4,,10
	.p2align 3
.L32:
	movups	%xmm0, -32(%rax,%rdx)
	movups	%xmm0, -16(%rax,%rdx)
	cmpq	%rcx, %rdx
	jnb	.L31
	movups	%xmm0, (%rax,%rdx)
	movups	%xmm0, 16(%rax,%rdx)
.L31:
	addq	$64, %rdx
	cmpq	%rsi, %rdx
	jne	.L32
.L27:
	ret
	.p2align 4,,10
	.p2align 3
.L37:
	cmpq	$7, %rdx
	ja	.L38
	cmpq	$3, %rdx
	jbe	.L28
	movl	%esi, (%rdi)
	movl	%esi, -4(%rdi,%rdx)
	ret
	.p2align 4,,10
	.p2align 3
.L38:
	movq	%rsi, (%rdi)
	movq	%rsi, -8(%rdi,%rdx)
	ret
	.p2align 4,,10
	.p2align 3
.L28:
	cmpq	$1, %rdx
	jbe	.L29
	movw	%si, (%rdi)
	movw	%si, -2(%rdi,%rdx)
	ret
	.p2align 4,,10
	.p2align 3
.L29:
	testq	%rdx, %rdx
	je	.L27
	movb	%sil, (%rdi)
	ret
	.cfi_endproc
.LFE2:
	.size	memset, .-memset
	.section	.note.GNU-stack,"",@progbits
