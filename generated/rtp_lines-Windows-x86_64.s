/*
 * rtp_lines for Windows on x86_64: the assembly text that Rattle's compiler makes of the program, each function of which is proved.
 * Made anew by: generated/make
 * kit: rattle-kit-13b logic dac8208d650f15bf
 * proved for: x86_64-unknown-linux-gnu
 * compiled for: x86_64-pc-windows-gnu
 * sources: 8e7625231d209049cd5fcb5776cef307d6e5a83e7af618e772be10bc49c5adbc
 * text: 7f02686ecff280384ebea15c2d3f50913894c5cb5651765b4b7fcbb2e71402fb
 * SPDX-License-Identifier: MIT OR Apache-2.0
 * Copyright (c) 2026 The rtp-wire developers (NOTICE)
 */
	.ifdef	.gasversion.
	.ifdef	.text
	.error	"this text is for Windows on x86_64: the folder generated has those for other systems"
	.end
	.endif
	.endif
	.def	rtp_std_alloc.vec.Vec.grow_amortized.9d744d77114e6601; # this text is for Windows on x86_64
	.scl	3;
	.type	32;
	.endef
	.section	.text$unlikely$rtp_std_alloc.vec.Vec.grow_amortized.9d744d77114e6601,"xr"
	.p2align	4
rtp_std_alloc.vec.Vec.grow_amortized.9d744d77114e6601:
.seh_proc rtp_std_alloc.vec.Vec.grow_amortized.9d744d77114e6601
	pushq	%r14
	.seh_pushreg %r14
	pushq	%rsi
	.seh_pushreg %rsi
	pushq	%rdi
	.seh_pushreg %rdi
	pushq	%rbx
	.seh_pushreg %rbx
	subq	$168,%rsp
	.seh_stackalloc 168
	movaps	%xmm15,144(%rsp)
	.seh_savexmm %xmm15,144
	movaps	%xmm14,128(%rsp)
	.seh_savexmm %xmm14,128
	movaps	%xmm13,112(%rsp)
	.seh_savexmm %xmm13,112
	movaps	%xmm12,96(%rsp)
	.seh_savexmm %xmm12,96
	movaps	%xmm11,80(%rsp)
	.seh_savexmm %xmm11,80
	movaps	%xmm10,64(%rsp)
	.seh_savexmm %xmm10,64
	movaps	%xmm9,48(%rsp)
	.seh_savexmm %xmm9,48
	movaps	%xmm8,32(%rsp)
	.seh_savexmm %xmm8,32
	movaps	%xmm7,16(%rsp)
	.seh_savexmm %xmm7,16
	movaps	%xmm6,(%rsp)
	.seh_savexmm %xmm6,0
	.seh_endprologue
	movq	8(%rcx),%rsi
	addq	%rsi,%rdx
	jb	1f
	cmpq	$9,%rdx
	movl	$8,%ebx
	cmovaeq	%rdx,%rbx
	movq	16(%rcx),%rax
	movq	%rax,%rdx
	shrq	$62,%rdx
	leaq	(%rax,%rax),%rdi
	cmpq	%rdi,%rbx
	cmovaq	%rbx,%rdi
	testq	%rdx,%rdx
	cmoveq	%rdi,%rbx
	testq	%rbx,%rbx
	js	1f
	testq	%rax,%rax
	je	2f
	movq	%rcx,%r14
	movq	(%rcx),%rdi
	movl	$1,%ecx
	movq	%rbx,%rdx
	callq	rattle_realloc
	testb	$1,%al
	je	1f
3:
	movq	%rdx,(%r14)
	movq	%rbx,16(%r14)
	movb	$1,%al
	jmp	4f
2:
	movq	%rcx,%r14
	movl	$1,%esi
	callq	rattle_alloc
	testb	$1,%al
	jne	3b
1:
	xorl	%eax,%eax
4:
	movaps	(%rsp),%xmm6
	movaps	16(%rsp),%xmm7
	movaps	32(%rsp),%xmm8
	movaps	48(%rsp),%xmm9
	movaps	64(%rsp),%xmm10
	movaps	80(%rsp),%xmm11
	movaps	96(%rsp),%xmm12
	movaps	112(%rsp),%xmm13
	movaps	128(%rsp),%xmm14
	movaps	144(%rsp),%xmm15
	addq	$168,%rsp
	popq	%rbx
	popq	%rdi
	popq	%rsi
	popq	%r14
	retq
	.seh_endproc

	.def	rtp_std_io.io.error.last_error;
	.scl	3;
	.type	32;
	.endef
	.section	.text$rtp_std_io.io.error.last_error,"xr"
	.p2align	4
rtp_std_io.io.error.last_error:
.seh_proc rtp_std_io.io.error.last_error
	pushq	%rsi
	.seh_pushreg %rsi
	subq	$32,%rsp
	.seh_stackalloc 32
	.seh_endprologue
	movq	%rcx,%rsi
	callq	rattle_errno
	movl	%eax,%ecx
	movb	$41,%dl
	testl	%eax,%eax
	js	1f
	decl	%eax
	cmpl	$121,%eax
	ja	1f
	leaq	2f(%rip),%r8
	movslq	(%r8,%rax,4),%rax
	addq	%r8,%rax
	jmpq	*%rax
3:
	movb	$1,%dl
	jmp	1f
4:
	movb	$36,%dl
	jmp	1f
5:
	movb	$4,%dl
	jmp	1f
6:
	movb	$7,%dl
	jmp	1f
7:
	movb	$26,%dl
	jmp	1f
8:
	movb	$39,%dl
	jmp	1f
9:
	movb	$9,%dl
	jmp	1f
10:
	movb	$8,%dl
	jmp	1f
11:
	movb	$30,%dl
	jmp	1f
12:
	movb	$25,%dl
	jmp	1f
13:
	movb	$32,%dl
	jmp	1f
14:
	movb	$33,%dl
	jmp	1f
15:
	movb	$22,%dl
	jmp	1f
16:
	movb	$31,%dl
	jmp	1f
17:
	movb	$29,%dl
	jmp	1f
18:
	movb	$18,%dl
	jmp	1f
19:
	movb	$10,%dl
	jmp	1f
20:
	movb	$28,%dl
	jmp	1f
21:
	movb	$14,%dl
	jmp	1f
22:
	movb	$12,%dl
	jmp	1f
23:
	movb	$5,%dl
	jmp	1f
24:
	movb	$3,%dl
	jmp	1f
25:
	xorl	%edx,%edx
	jmp	1f
26:
	movb	$13,%dl
	jmp	1f
27:
	movb	$38,%dl
	jmp	1f
28:
	movb	$11,%dl
	jmp	1f
29:
	movb	$35,%dl
	jmp	1f
30:
	movb	$34,%dl
	jmp	1f
31:
	movb	$20,%dl
	jmp	1f
32:
	movb	$15,%dl
	jmp	1f
33:
	movb	$19,%dl
	jmp	1f
34:
	movb	$16,%dl
	jmp	1f
35:
	movb	$6,%dl
	jmp	1f
36:
	movb	$27,%dl
	jmp	1f
37:
	movb	$24,%dl
	jmp	1f
38:
	movb	$2,%dl
	jmp	1f
39:
	movb	$17,%dl
1:
	movb	$0,(%rsi)
	movb	%dl,1(%rsi)
	movw	$0,2(%rsi)
	movl	%ecx,4(%rsi)
	xorps	%xmm0,%xmm0
	movups	%xmm0,8(%rsi)
	movups	%xmm0,24(%rsi)
	movups	%xmm0,40(%rsi)
	movups	%xmm0,56(%rsi)
	movups	%xmm0,72(%rsi)
	addq	$32,%rsp
	popq	%rsi
	retq
	.section	.rdata,"dr"
	.p2align	2,0x0
2:
	.long	3b-2b
	.long	25b-2b
	.long	1b-2b
	.long	29b-2b
	.long	1b-2b
	.long	1b-2b
	.long	30b-2b
	.long	1b-2b
	.long	1b-2b
	.long	1b-2b
	.long	26b-2b
	.long	27b-2b
	.long	3b-2b
	.long	1b-2b
	.long	1b-2b
	.long	20b-2b
	.long	22b-2b
	.long	16b-2b
	.long	1b-2b
	.long	21b-2b
	.long	32b-2b
	.long	31b-2b
	.long	1b-2b
	.long	1b-2b
	.long	1b-2b
	.long	17b-2b
	.long	36b-2b
	.long	37b-2b
	.long	12b-2b
	.long	39b-2b
	.long	13b-2b
	.long	28b-2b
	.long	1b-2b
	.long	1b-2b
	.long	11b-2b
	.long	14b-2b
	.long	1b-2b
	.long	4b-2b
	.long	34b-2b
	.long	18b-2b
	.long	1b-2b
	.long	1b-2b
	.long	1b-2b
	.long	1b-2b
	.long	1b-2b
	.long	1b-2b
	.long	1b-2b
	.long	1b-2b
	.long	1b-2b
	.long	1b-2b
	.long	1b-2b
	.long	1b-2b
	.long	1b-2b
	.long	1b-2b
	.long	1b-2b
	.long	1b-2b
	.long	1b-2b
	.long	1b-2b
	.long	1b-2b
	.long	1b-2b
	.long	1b-2b
	.long	1b-2b
	.long	1b-2b
	.long	1b-2b
	.long	1b-2b
	.long	1b-2b
	.long	1b-2b
	.long	1b-2b
	.long	1b-2b
	.long	1b-2b
	.long	1b-2b
	.long	1b-2b
	.long	1b-2b
	.long	1b-2b
	.long	1b-2b
	.long	1b-2b
	.long	1b-2b
	.long	1b-2b
	.long	1b-2b
	.long	1b-2b
	.long	1b-2b
	.long	1b-2b
	.long	1b-2b
	.long	1b-2b
	.long	1b-2b
	.long	1b-2b
	.long	1b-2b
	.long	1b-2b
	.long	1b-2b
	.long	1b-2b
	.long	1b-2b
	.long	1b-2b
	.long	1b-2b
	.long	1b-2b
	.long	4b-2b
	.long	1b-2b
	.long	1b-2b
	.long	10b-2b
	.long	9b-2b
	.long	19b-2b
	.long	23b-2b
	.long	1b-2b
	.long	35b-2b
	.long	24b-2b
	.long	1b-2b
	.long	1b-2b
	.long	6b-2b
	.long	1b-2b
	.long	1b-2b
	.long	15b-2b
	.long	38b-2b
	.long	1b-2b
	.long	5b-2b
	.long	1b-2b
	.long	8b-2b
	.long	33b-2b
	.long	1b-2b
	.long	1b-2b
	.long	1b-2b
	.long	1b-2b
	.long	1b-2b
	.long	7b-2b
	.section	.text$rtp_std_io.io.error.last_error,"xr"
	.seh_endproc

	.def	rtp_core.str.utf8.from_utf8;
	.scl	3;
	.type	32;
	.endef
	.section	.text$rtp_core.str.utf8.from_utf8,"xr"
	.p2align	4
rtp_core.str.utf8.from_utf8:
.seh_proc rtp_core.str.utf8.from_utf8
	pushq	%r15
	.seh_pushreg %r15
	pushq	%r14
	.seh_pushreg %r14
	pushq	%rsi
	.seh_pushreg %rsi
	pushq	%rdi
	.seh_pushreg %rdi
	pushq	%rbp
	.seh_pushreg %rbp
	pushq	%rbx
	.seh_pushreg %rbx
	subq	$56,%rsp
	.seh_stackalloc 56
	.seh_endprologue
	movq	%r8,%rbx
	movq	%rdx,%rdi
	movq	%rcx,%rsi
	testq	%r8,%r8
	je	1f
	movabsq	$-9187201950435737472,%r14
	leaq	-8(%rbx),%r15
	xorl	%ecx,%ecx
	jmp	2f
3:
	movl	$1,%r9d
4:
	addq	%rcx,%r9
5:
	movq	%r9,%rcx
	cmpq	%rbx,%r9
	jae	1f
2:
	movzbl	(%rdi,%rcx),%r8d
	testb	%r8b,%r8b
	sets	%dl
	movq	%rbx,%rax
	subq	%rcx,%rax
	cmpq	$2,%rax
	setb	%r9b
	orb	%dl,%r9b
	jne	2f
	cmpb	$0,1(%rdi,%rcx)
	js	3b
	movq	%rdi,40(%rsp)
	movq	%rbx,48(%rsp)
	cmpq	$7,%rax
	ja	3f
	cmpb	$0,(%rdi,%rcx)
	js	6f
	leaq	1(%rcx),%r9
	cmpq	%rbx,%r9
	je	1f
	cmpb	$0,(%rdi,%r9)
	js	5b
	leaq	2(%rcx),%r9
	cmpq	%rbx,%r9
	je	1f
	cmpb	$0,(%rdi,%r9)
	js	5b
	leaq	3(%rcx),%r9
	cmpq	%rbx,%r9
	je	1f
	cmpb	$0,(%rdi,%r9)
	js	5b
	leaq	4(%rcx),%r9
	cmpq	%rbx,%r9
	je	1f
	cmpb	$0,(%rdi,%r9)
	js	5b
	leaq	5(%rcx),%r9
	cmpq	%rbx,%r9
	je	1f
	cmpb	$0,(%rdi,%r9)
	js	5b
	addq	$6,%rcx
	cmpq	%rbx,%rcx
	je	1f
	cmpb	$0,(%rdi,%rcx)
	movq	%rcx,%r9
	js	5b
	jmp	1f
	.p2align	4
2:
	movl	$1,%r9d
	testb	%r8b,%r8b
	jns	4b
	movl	$257,%edx
	cmpb	$-62,%r8b
	jb	2f
	cmpb	$-33,%r8b
	ja	7f
	cmpq	$2,%rax
	jb	8f
	movzbl	1(%rdi,%rcx),%r10d
	movl	$2,%r9d
	cmpb	$-65,%r10b
	jle	4b
	jmp	9f
3:
	movq	(%rdi,%rcx),%rax
	andq	%r14,%rax
	je	3f
	rep		bsfq	%rax,%rax
	shrl	$3,%eax
	addq	%rcx,%rax
	addq	$8,%rcx
	movq	%rax,%r9
	cmpq	%rcx,%rax
	jb	5b
	movq	%rbx,%rcx
	subq	%rax,%rcx
	cmpq	$32,%rcx
	jae	10f
	jmp	11f
7:
	cmpb	$-17,%r8b
	ja	7f
	cmpq	$3,%rax
	jb	12f
	movzbl	1(%rdi,%rcx),%r10d
	cmpb	$-65,%r10b
	jg	9f
	cmpb	$-65,2(%rdi,%rcx)
	jg	9f
	movzbl	%r10b,%r9d
	movl	%r8d,%r11d
	shll	$6,%r11d
	addl	%r9d,%r11d
	addl	$-14464,%r11d
	cmpl	$32,%r11d
	jb	9f
	xorl	%r10d,%r10d
	cmpl	$896,%r11d
	setae	%bpl
	movl	$3,%r9d
	cmpl	$864,%r11d
	jb	4b
	movb	%bpl,%r10b
	leaq	(%r10,%r10,2),%r9
	testq	%r9,%r9
	jne	4b
	jmp	13f
6:
	movq	%rcx,%r9
	jmp	5b
3:
	addq	$8,%rcx
	movq	%rcx,%rax
	movq	%rbx,%rcx
	subq	%rax,%rcx
	cmpq	$32,%rcx
	jb	11f
	.p2align	4
10:
	movdqu	(%rdi,%rax),%xmm0
	movdqu	16(%rdi,%rax),%xmm1
	por	%xmm0,%xmm1
	pshufd	$238,%xmm1,%xmm0
	por	%xmm1,%xmm0
	movq	%xmm0,%rcx
	testq	%r14,%rcx
	jne	11f
	addq	$32,%rax
	leaq	40(%rsp),%rcx
	movq	%rax,%rdx
	movq	%rbx,%r8
	callq	rtp_core.slice.words.skip_far.52f9edcae2f82f51
	movq	%rbx,%rcx
	subq	%rax,%rcx
	cmpq	$31,%rcx
	ja	10b
11:
	movq	%rbx,%rcx
	subq	%rax,%rcx
	jmp	3f
	.p2align	4
6:
	rep		bsfq	%rdx,%r9
	shrl	$3,%r9d
	addq	%rax,%r9
	addq	$8,%rax
	addq	$-8,%rcx
	cmpq	%rax,%r9
	jb	5b
3:
	cmpq	$9,%rcx
	jb	10f
	movq	(%rdi,%rax),%rdx
	andq	%r14,%rdx
	jne	6b
	leaq	8(%rax),%r9
	addq	$8,%rax
	addq	$-8,%rcx
	cmpq	%rax,%r9
	jae	3b
	jmp	5b
10:
	movq	(%rdi,%r15),%rax
	andq	%r14,%rax
	je	1f
	rep		bsfq	%rax,%r9
	shrl	$3,%r9d
	addq	%r15,%r9
	jmp	5b
7:
	cmpq	$4,%rax
	jb	13f
	movzbl	1(%rdi,%rcx),%r9d
	cmpb	$-65,%r9b
	jg	13f
	cmpb	$-65,2(%rdi,%rcx)
	jg	13f
	cmpb	$-65,3(%rdi,%rcx)
	jg	13f
	movl	%r8d,%r10d
	shll	$6,%r10d
	leal	(%r10,%r9),%r11d
	addl	$-15488,%r11d
	xorl	%r9d,%r9d
	cmpl	$272,%r11d
	setb	%r10b
	cmpl	$16,%r11d
	jb	13f
	movb	%r10b,%r9b
	shll	$2,%r9d
	testq	%r9,%r9
	jne	4b
13:
	cmpb	$-12,%r8b
	ja	2f
12:
	cmpq	$2,%rax
	jb	8f
	movzbl	1(%rdi,%rcx),%r10d
9:
	cmpl	$240,%r8d
	sete	%r9b
	shlb	$4,%r9b
	orb	$-128,%r9b
	cmpl	$224,%r8d
	movzbl	%r9b,%r9d
	movl	$160,%r11d
	cmovnel	%r9d,%r11d
	cmpl	$244,%r8d
	movl	$143,%r9d
	movl	$191,%ebx
	cmovel	%r9d,%ebx
	cmpl	$237,%r8d
	movl	$159,%r8d
	cmovnel	%ebx,%r8d
	cmpb	%r10b,%r11b
	ja	2f
	cmpb	%r8b,%r10b
	ja	2f
	cmpq	$2,%rax
	jne	3f
8:
	xorl	%edx,%edx
2:
	movq	$1,(%rsi)
	movq	%rcx,8(%rsi)
	movq	%rdx,16(%rsi)
	jmp	4f
1:
	movq	$0,(%rsi)
	movq	%rdi,8(%rsi)
	movq	%rbx,16(%rsi)
4:
	addq	$56,%rsp
	popq	%rbx
	popq	%rbp
	popq	%rdi
	popq	%rsi
	popq	%r14
	popq	%r15
	retq
3:
	movl	$513,%edx
	cmpb	$-65,2(%rdi,%rcx)
	jg	2b
	xorl	%r8d,%r8d
	cmpq	$4,%rax
	movl	$769,%edx
	cmovbq	%r8,%rdx
	jmp	2b
	.seh_endproc

	.def	rtp_core.slice.words.skip_far.52f9edcae2f82f51;
	.scl	3;
	.type	32;
	.endef
	.section	.text$rtp_core.slice.words.skip_far.52f9edcae2f82f51,"xr"
	.p2align	4
rtp_core.slice.words.skip_far.52f9edcae2f82f51:
	movq	%rdx,%rax
	subq	%rdx,%r8
	cmpq	$64,%r8
	jb	1f
	movq	(%rcx),%rcx
	.p2align	4
2:
	movdqu	(%rcx,%rax),%xmm0
	movdqu	16(%rcx,%rax),%xmm1
	movdqu	32(%rcx,%rax),%xmm2
	por	%xmm0,%xmm2
	movdqu	48(%rcx,%rax),%xmm0
	por	%xmm1,%xmm0
	por	%xmm2,%xmm0
	pshufd	$238,%xmm0,%xmm1
	por	%xmm0,%xmm1
	movq	%xmm1,%rdx
	movabsq	$-9187201950435737472,%r9
	testq	%r9,%rdx
	jne	1f
	addq	$64,%rax
	addq	$-64,%r8
	cmpq	$63,%r8
	ja	2b
1:
	retq

	.def	rtp_ext.map.ExtensionMap.set;
	.scl	3;
	.type	32;
	.endef
	.section	.text$rtp_ext.map.ExtensionMap.set,"xr"
	.p2align	4
rtp_ext.map.ExtensionMap.set:
.seh_proc rtp_ext.map.ExtensionMap.set
	pushq	%rsi
	.seh_pushreg %rsi
	pushq	%rdi
	.seh_pushreg %rdi
	pushq	%rbp
	.seh_pushreg %rbp
	pushq	%rbx
	.seh_pushreg %rbx
	subq	$40,%rsp
	.seh_stackalloc 40
	.seh_endprologue
	movzbl	(%r8),%r9d
	movq	8(%r8),%rax
	testb	%dl,%dl
	je	1f
	movups	16(%r8),%xmm0
	xorl	%r11d,%r11d
	xorl	%r8d,%r8d
	cmpq	$15,%r9
	setne	%r8b
	movl	%r9d,%edi
	movzbl	%dl,%esi
	movzbl	10202(%rcx,%rsi,2),%r10d
	movzbl	10203(%rcx,%rsi,2),%ebx
	setne	10202(%rcx,%rsi,2)
	cmovel	%r11d,%edi
	movb	%dil,10203(%rcx,%rsi,2)
	xorl	%r11d,%r11d
	cmpb	$14,%dil
	sete	%r11b
	addw	10972(%rcx),%r11w
	movl	%r10d,%edi
	xorb	$1,%dil
	xorb	$14,%bl
	xorl	%ebp,%ebp
	orb	%dil,%bl
	sete	%bpl
	subl	%ebp,%r11d
	movw	%r11w,10972(%rcx)
	movl	%r10d,%r11d
	andl	$1,%r11d
	movl	%r8d,%edi
	subl	%r11d,%edi
	addw	%di,10970(%rcx)
	andb	$1,%r10b
	cmpb	%r10b,%r8b
	je	2f
	movl	%edx,%r8d
	cmpb	$15,%r9b
	jne	3f
	movzbl	10714(%rcx,%rsi),%r8d
3:
	movq	%rsi,%r11
	movq	%rsi,%r10
	.p2align	4
3:
	subq	$1,%r10
	jb	2f
	movb	%r8b,10713(%rcx,%r11)
	cmpb	$1,10202(%rcx,%r10,2)
	movq	%r10,%r11
	jne	3b
2:
	leaq	(%rsi,%rsi,4),%rbx
	movzbl	-40(%rcx,%rbx,8),%edi
	movzbl	-32(%rcx,%rbx,8),%r11d
	movq	-24(%rcx,%rbx,8),%r8
	movq	-8(%rcx,%rbx,8),%r10
	movq	$1,-40(%rcx,%rbx,8)
	movq	%r9,-32(%rcx,%rbx,8)
	movq	%rax,-24(%rcx,%rbx,8)
	movups	%xmm0,-16(%rcx,%rbx,8)
	testl	%edi,%edi
	je	2f
	cmpl	$2,%edi
	cmpb	$15,%r11b
	setne	%al
	testq	%r10,%r10
	sete	%r9b
	orb	%al,%r9b
	jne	2f
	movq	%rcx,%rdi
	movq	%r8,%rcx
	movl	%edx,%ebx
	callq	rattle_dealloc
	movl	%ebx,%edx
	movq	%rdi,%rcx
2:
	movzbl	10200(%rcx),%eax
	cmpb	%al,%dl
	cmovbel	%eax,%esi
	movb	%sil,10200(%rcx)
2:
	addq	$40,%rsp
	popq	%rbx
	popq	%rbp
	popq	%rdi
	popq	%rsi
	retq
1:
	cmpl	$15,%r9d
	jne	2b
	cmpq	$0,24(%r8)
	je	2b
	movq	%rax,%rcx
	addq	$40,%rsp
	popq	%rbx
	popq	%rbp
	popq	%rdi
	popq	%rsi
	jmp	rattle_dealloc
	.seh_endproc

	.def	rtp_listing.printing.print_all.df9e9f1468b30f79;
	.scl	3;
	.type	32;
	.endef
	.section	.rdata,"dr"
	.p2align	4,0x0
1:
	.zero	16,10
2:
	.zero	16,15
3:
	.zero	16,1
4:
	.short	3855
	.short	3855
	.short	3855
	.short	3855
	.zero	2
	.zero	2
	.zero	2
	.zero	2
5:
	.short	257
	.short	257
	.short	257
	.short	257
	.zero	2
	.zero	2
	.zero	2
	.zero	2
6:
	.short	9
	.short	9
	.short	9
	.short	9
	.zero	2
	.zero	2
	.zero	2
	.zero	2
7:
	.short	4097
	.short	4097
	.short	4097
	.short	4097
	.zero	2
	.zero	2
	.zero	2
	.zero	2
8:
	.zero	16,32
	.section	.text$rtp_listing.printing.print_all.df9e9f1468b30f79,"xr"
	.p2align	4
rtp_listing.printing.print_all.df9e9f1468b30f79:
.seh_proc rtp_listing.printing.print_all.df9e9f1468b30f79
	pushq	%r15
	.seh_pushreg %r15
	pushq	%r14
	.seh_pushreg %r14
	pushq	%r13
	.seh_pushreg %r13
	pushq	%r12
	.seh_pushreg %r12
	pushq	%rsi
	.seh_pushreg %rsi
	pushq	%rdi
	.seh_pushreg %rdi
	pushq	%rbp
	.seh_pushreg %rbp
	pushq	%rbx
	.seh_pushreg %rbx
	subq	$888,%rsp
	.seh_stackalloc 888
	movaps	%xmm15,864(%rsp)
	.seh_savexmm %xmm15,864
	movaps	%xmm14,848(%rsp)
	.seh_savexmm %xmm14,848
	movaps	%xmm13,832(%rsp)
	.seh_savexmm %xmm13,832
	movaps	%xmm12,816(%rsp)
	.seh_savexmm %xmm12,816
	movaps	%xmm11,800(%rsp)
	.seh_savexmm %xmm11,800
	movaps	%xmm10,784(%rsp)
	.seh_savexmm %xmm10,784
	movaps	%xmm9,768(%rsp)
	.seh_savexmm %xmm9,768
	movaps	%xmm8,752(%rsp)
	.seh_savexmm %xmm8,752
	movaps	%xmm7,736(%rsp)
	.seh_savexmm %xmm7,736
	movaps	%xmm6,720(%rsp)
	.seh_savexmm %xmm6,720
	.seh_endprologue
	movq	%rcx,%rbx
	pxor	%xmm0,%xmm0
	movdqa	%xmm0,672(%rsp)
	movq	$0,688(%rsp)
	movq	$0,144(%rsp)
	leaq	48(%rsp),%rax
	movq	%rax,152(%rsp)
	movdqu	%xmm0,160(%rsp)
	movdqu	%xmm0,176(%rsp)
	movdqu	%xmm0,192(%rsp)
	movq	%rax,208(%rsp)
	movdqu	%xmm0,216(%rsp)
	movdqu	%xmm0,232(%rsp)
	movq	%rax,72(%rsp)
	movdqu	%xmm0,80(%rsp)
	movw	$2,360(%rsp)
	movb	$1,362(%rsp)
	movq	$0,363(%rsp)
	movq	$0,369(%rsp)
	movb	$1,377(%rsp)
	leaq	378(%rsp),%rcx
	movl	$286,%r8d
	xorl	%edx,%edx
	callq	memset
	movq	$16,664(%rsp)
	movl	$16384,%edi
	movl	$1,%esi
	callq	rattle_alloc
	testb	$1,%al
	je	9f
	movq	%rdx,%rbp
	movl	$16384,%r8d
	movq	%rdx,%rcx
	xorl	%edx,%edx
	callq	memset
	movq	10984(%rbx),%rsi
	testq	%rsi,%rsi
	je	10f
	movabsq	$10000000000000000,%rax
	movq	%rbx,352(%rsp)
	movq	10976(%rbx),%rdi
	movq	%rax,%rbx
	xorl	%edx,%edx
	xorl	%r14d,%r14d
	movq	%rbp,288(%rsp)
	jmp	11f
	.p2align	4
12:
	xorl	%edx,%edx
13:
	testq	%rsi,%rsi
	je	14f
11:
	movq	%rdx,40(%rsp)
	movq	%r14,120(%rsp)
	movq	%rdi,%r14
	xorl	%ecx,%ecx
	.p2align	4
11:
	movq	%rcx,%rax
	addq	$32,%rcx
	cmpq	%rsi,%rcx
	ja	15f
	movdqu	(%r14,%rax),%xmm0
	movdqu	16(%r14,%rax),%xmm1
	movdqa	1b(%rip),%xmm2
	pcmpeqb	%xmm2,%xmm0
	pmovmskb	%xmm0,%r8d
	pcmpeqb	%xmm2,%xmm1
	pmovmskb	%xmm1,%edx
	shll	$16,%edx
	orl	%r8d,%edx
	je	11b
	rep		bsfl	%edx,%ecx
1:
	movq	%rsi,%rdx
	subq	%rcx,%rdx
	cmpq	%rax,%rdx
	jne	11f
	leaq	rtp_static.5(%rip),%r10
	jmp	16f
	.p2align	4
15:
	leaq	rtp_static.5(%rip),%r10
	cmpq	%rax,%rsi
	je	16f
	leaq	(%r14,%rax),%rdx
	movq	%rax,%r8
	subq	%rsi,%r8
	xorl	%ecx,%ecx
	.p2align	4
15:
	cmpb	$10,(%rdx,%rcx)
	je	1b
	incq	%rcx
	movq	%r8,%r9
	addq	%rcx,%r9
	jne	15b
	.p2align	4
16:
	xorl	%eax,%eax
	jmp	1f
	.p2align	4
11:
	movq	%rcx,%rsi
	addq	%rax,%rsi
	je	11f
	leaq	(%rcx,%rax),%r8
	cmpb	$13,-1(%r14,%r8)
	jne	11f
	leaq	(%rcx,%rax),%rsi
	decq	%rsi
11:
	addq	%r14,%rcx
	leaq	(%rax,%rcx),%r10
	incq	%r10
	notq	%rax
	addq	%rdx,%rax
1:
	movq	%rsi,%r15
	shrq	%r15
	movq	80(%rsp),%rcx
	cmpq	$161,%rsi
	movq	%rax,272(%rsp)
	movq	%r10,264(%rsp)
	ja	1f
	movq	%r15,%r8
	subq	%rcx,%r8
	jbe	11f
	movq	88(%rsp),%r12
	movq	%r12,%rax
	subq	%rcx,%rax
	cmpq	%rax,%r8
	ja	15f
	leaq	(%rcx,%r8),%rbx
	movq	72(%rsp),%rdi
	cmpq	%rbx,%rcx
	jae	16f
17:
	addq	%rdi,%rcx
	xorl	%edx,%edx
	callq	memset
16:
	movq	%rbx,80(%rsp)
	movq	%r12,88(%rsp)
	movabsq	$10000000000000000,%rbx
	cmpq	$8,%rsi
	jae	18f
19:
	xorl	%eax,%eax
	jmp	20f
	.p2align	4
1:
	cmpq	$80,%rcx
	jae	1f
	movl	$80,%r8d
	subq	%rcx,%r8
	movq	88(%rsp),%r12
	movq	%r12,%rax
	subq	%rcx,%rax
	cmpq	%rax,%r8
	ja	21f
	leaq	(%rcx,%r8),%rsi
	movq	72(%rsp),%rdi
	cmpq	%rsi,%rcx
	jae	22f
23:
	addq	%rdi,%rcx
	xorl	%edx,%edx
	callq	memset
22:
	movq	%rsi,80(%rsp)
	movq	%r12,88(%rsp)
	jmp	24f
	.p2align	4
11:
	testq	%r15,%r15
	je	11f
	movq	72(%rsp),%rdi
	cmpq	$8,%rsi
	jb	19b
18:
	movl	%esi,%eax
	andl	$254,%eax
	addq	%r14,%rax
	cmpq	%rax,%rdi
	jae	18f
	leaq	(%rdi,%r15),%rax
	cmpq	%rax,%r14
	jae	18f
	xorl	%eax,%eax
	jmp	20f
	.p2align	4
1:
	movq	72(%rsp),%rdi
	movq	%rcx,%rsi
24:
	leaq	80(%rdi),%rax
	leaq	160(%r14),%r13
	cmpq	%r13,%rdi
	setb	%cl
	cmpq	%rax,%r14
	setb	%al
	testb	%al,%cl
	je	1f
	xorl	%eax,%eax
	.p2align	4
19:
	movzwl	(%r14,%rax,2),%ecx
	movl	%ecx,%edx
	andl	$3855,%edx
	shrl	$6,%ecx
	andl	$257,%ecx
	leal	(%rcx,%rcx,8),%ecx
	addl	%edx,%ecx
	movl	%ecx,%edx
	shll	$12,%edx
	addl	%ecx,%edx
	movb	%dh,(%rdi,%rax)
	incq	%rax
	cmpq	$80,%rax
	jne	19b
	jmp	19f
	.p2align	4
1:
	xorl	%eax,%eax
	.p2align	4
1:
	movzbl	(%r14,%rax,2),%ecx
	movzbl	8(%r14,%rax,2),%edx
	movzbl	10(%r14,%rax,2),%r8d
	shll	$8,%r8d
	orl	%edx,%r8d
	movzbl	2(%r14,%rax,2),%edx
	shll	$8,%edx
	orl	%ecx,%edx
	movzbl	4(%r14,%rax,2),%ecx
	shll	$16,%ecx
	orl	%edx,%ecx
	movzbl	6(%r14,%rax,2),%edx
	shll	$24,%edx
	orl	%ecx,%edx
	movzbl	12(%r14,%rax,2),%ecx
	movd	%edx,%xmm0
	pinsrw	$2,%r8d,%xmm0
	movzbl	14(%r14,%rax,2),%edx
	shll	$8,%edx
	orl	%ecx,%edx
	pinsrw	$3,%edx,%xmm0
	movzbl	1(%r14,%rax,2),%ecx
	movzbl	9(%r14,%rax,2),%edx
	movzbl	11(%r14,%rax,2),%r8d
	shll	$8,%r8d
	orl	%edx,%r8d
	movzbl	3(%r14,%rax,2),%edx
	shll	$8,%edx
	orl	%ecx,%edx
	movzbl	5(%r14,%rax,2),%ecx
	shll	$16,%ecx
	orl	%edx,%ecx
	movzbl	7(%r14,%rax,2),%edx
	shll	$24,%edx
	orl	%ecx,%edx
	movzbl	16(%r14,%rax,2),%ecx
	movd	%edx,%xmm1
	movzbl	13(%r14,%rax,2),%edx
	pinsrw	$2,%r8d,%xmm1
	movzbl	15(%r14,%rax,2),%r8d
	shll	$8,%r8d
	orl	%edx,%r8d
	movzbl	24(%r14,%rax,2),%edx
	pinsrw	$3,%r8d,%xmm1
	movzbl	26(%r14,%rax,2),%r8d
	shll	$8,%r8d
	orl	%edx,%r8d
	movzbl	18(%r14,%rax,2),%edx
	shll	$8,%edx
	orl	%ecx,%edx
	movzbl	20(%r14,%rax,2),%ecx
	shll	$16,%ecx
	orl	%edx,%ecx
	movzbl	22(%r14,%rax,2),%edx
	shll	$24,%edx
	orl	%ecx,%edx
	movzbl	28(%r14,%rax,2),%ecx
	movd	%edx,%xmm2
	pinsrw	$2,%r8d,%xmm2
	movzbl	17(%r14,%rax,2),%edx
	movzbl	30(%r14,%rax,2),%r8d
	shll	$8,%r8d
	orl	%ecx,%r8d
	movzbl	25(%r14,%rax,2),%ecx
	pinsrw	$3,%r8d,%xmm2
	movzbl	27(%r14,%rax,2),%r8d
	shll	$8,%r8d
	orl	%ecx,%r8d
	movzbl	19(%r14,%rax,2),%ecx
	shll	$8,%ecx
	orl	%edx,%ecx
	movzbl	21(%r14,%rax,2),%edx
	shll	$16,%edx
	orl	%ecx,%edx
	movzbl	23(%r14,%rax,2),%ecx
	shll	$24,%ecx
	orl	%edx,%ecx
	movd	%ecx,%xmm3
	movzbl	29(%r14,%rax,2),%ecx
	pinsrw	$2,%r8d,%xmm3
	movzbl	31(%r14,%rax,2),%edx
	shll	$8,%edx
	orl	%ecx,%edx
	pinsrw	$3,%edx,%xmm3
	punpcklbw	%xmm1,%xmm0
	punpcklbw	%xmm3,%xmm2
	movdqa	2b(%rip),%xmm1
	movdqa	%xmm0,%xmm3
	pand	%xmm1,%xmm3
	pand	%xmm2,%xmm1
	psrlw	$6,%xmm0
	psrlw	$6,%xmm2
	movdqa	3b(%rip),%xmm4
	pand	%xmm4,%xmm2
	pand	%xmm4,%xmm0
	movdqa	%xmm0,%xmm4
	psllw	$3,%xmm4
	por	%xmm0,%xmm4
	paddw	%xmm3,%xmm4
	movdqa	%xmm2,%xmm0
	psllw	$3,%xmm0
	por	%xmm2,%xmm0
	paddw	%xmm1,%xmm0
	movdqa	%xmm4,%xmm1
	psllw	$12,%xmm1
	paddw	%xmm4,%xmm1
	movdqa	%xmm0,%xmm2
	psllw	$12,%xmm2
	paddw	%xmm0,%xmm2
	psrlw	$8,%xmm2
	psrlw	$8,%xmm1
	packuswb	%xmm2,%xmm1
	movdqu	%xmm1,(%rdi,%rax)
	addq	$16,%rax
	cmpq	$80,%rax
	jne	1b
19:
	movzbl	(%rdi),%r12d
	movl	%r12d,%eax
	shll	$2,%r12d
	andl	$60,%r12d
	testb	$16,%al
	jne	1f
	addq	$12,%r12
	cmpq	%r12,%r15
	cmovbq	%r15,%r12
	cmpq	$81,%r12
	jae	19f
	.p2align	4
24:
	movq	40(%rsp),%r15
	cmpq	$12,%r12
	movq	120(%rsp),%r14
	jb	25f
	jmp	26f
	.p2align	4
1:
	movzwl	14(%rdi,%r12),%eax
	rolw	$8,%ax
	movzwl	%ax,%eax
	leaq	(%r12,%rax,4),%r12
	addq	$16,%r12
	cmpq	%r12,%r15
	cmovbq	%r15,%r12
	cmpq	$81,%r12
	jb	24b
19:
	movq	%r12,%r8
	subq	%rsi,%r8
	jbe	1f
	movq	88(%rsp),%r15
	movq	%r15,%rax
	subq	%rsi,%rax
	cmpq	%rax,%r8
	ja	19f
	leaq	(%rsi,%r8),%rbx
	cmpq	%rbx,%rsi
	jae	24f
27:
	addq	%rdi,%rsi
	movq	%rsi,%rcx
	xorl	%edx,%edx
	callq	memset
24:
	movq	%rdi,72(%rsp)
	movq	%rbx,80(%rsp)
	movq	%r15,88(%rsp)
	movabsq	$10000000000000000,%rbx
1:
	movq	40(%rsp),%r15
	leaq	-80(%r12),%rax
	movl	$80,%edx
	cmpq	$4,%rax
	jb	1f
	leaq	80(%rdi),%rcx
	leaq	(%r14,%r12,2),%r8
	cmpq	%r8,%rcx
	jae	28f
	leaq	(%rdi,%r12),%rcx
	cmpq	%rcx,%r13
	jb	1f
28:
	cmpq	$16,%rax
	jae	28f
	xorl	%ecx,%ecx
	jmp	29f
18:
	cmpq	$32,%rsi
	jae	18f
	xorl	%eax,%eax
	jmp	30f
11:
	xorl	%r8d,%r8d
	xorl	%edi,%edi
	xorl	%r12d,%r12d
	movq	120(%rsp),%r14
	movq	40(%rsp),%r15
	jmp	11f
18:
	movl	%r15d,%eax
	andl	$112,%eax
	xorl	%ecx,%ecx
	.p2align	4
18:
	movzbl	(%r14,%rcx,2),%edx
	movzbl	8(%r14,%rcx,2),%r8d
	movzbl	10(%r14,%rcx,2),%r9d
	shll	$8,%r9d
	orl	%r8d,%r9d
	movzbl	2(%r14,%rcx,2),%r8d
	shll	$8,%r8d
	orl	%edx,%r8d
	movzbl	4(%r14,%rcx,2),%edx
	shll	$16,%edx
	orl	%r8d,%edx
	movzbl	6(%r14,%rcx,2),%r8d
	shll	$24,%r8d
	orl	%edx,%r8d
	movzbl	12(%r14,%rcx,2),%edx
	movd	%r8d,%xmm0
	pinsrw	$2,%r9d,%xmm0
	movzbl	14(%r14,%rcx,2),%r8d
	shll	$8,%r8d
	orl	%edx,%r8d
	pinsrw	$3,%r8d,%xmm0
	movzbl	1(%r14,%rcx,2),%edx
	movzbl	9(%r14,%rcx,2),%r8d
	movzbl	11(%r14,%rcx,2),%r9d
	shll	$8,%r9d
	orl	%r8d,%r9d
	movzbl	3(%r14,%rcx,2),%r8d
	shll	$8,%r8d
	orl	%edx,%r8d
	movzbl	5(%r14,%rcx,2),%edx
	shll	$16,%edx
	orl	%r8d,%edx
	movzbl	7(%r14,%rcx,2),%r8d
	shll	$24,%r8d
	orl	%edx,%r8d
	movzbl	16(%r14,%rcx,2),%edx
	movd	%r8d,%xmm1
	movzbl	13(%r14,%rcx,2),%r8d
	pinsrw	$2,%r9d,%xmm1
	movzbl	15(%r14,%rcx,2),%r9d
	shll	$8,%r9d
	orl	%r8d,%r9d
	movzbl	24(%r14,%rcx,2),%r8d
	pinsrw	$3,%r9d,%xmm1
	movzbl	26(%r14,%rcx,2),%r9d
	shll	$8,%r9d
	orl	%r8d,%r9d
	movzbl	18(%r14,%rcx,2),%r8d
	shll	$8,%r8d
	orl	%edx,%r8d
	movzbl	20(%r14,%rcx,2),%edx
	shll	$16,%edx
	orl	%r8d,%edx
	movzbl	22(%r14,%rcx,2),%r8d
	shll	$24,%r8d
	orl	%edx,%r8d
	movzbl	28(%r14,%rcx,2),%edx
	movd	%r8d,%xmm2
	pinsrw	$2,%r9d,%xmm2
	movzbl	17(%r14,%rcx,2),%r8d
	movzbl	30(%r14,%rcx,2),%r9d
	shll	$8,%r9d
	orl	%edx,%r9d
	movzbl	25(%r14,%rcx,2),%edx
	pinsrw	$3,%r9d,%xmm2
	movzbl	27(%r14,%rcx,2),%r9d
	shll	$8,%r9d
	orl	%edx,%r9d
	movzbl	19(%r14,%rcx,2),%edx
	shll	$8,%edx
	orl	%r8d,%edx
	movzbl	21(%r14,%rcx,2),%r8d
	shll	$16,%r8d
	orl	%edx,%r8d
	movzbl	23(%r14,%rcx,2),%edx
	shll	$24,%edx
	orl	%r8d,%edx
	movd	%edx,%xmm3
	movzbl	29(%r14,%rcx,2),%edx
	pinsrw	$2,%r9d,%xmm3
	movzbl	31(%r14,%rcx,2),%r8d
	shll	$8,%r8d
	orl	%edx,%r8d
	pinsrw	$3,%r8d,%xmm3
	punpcklbw	%xmm1,%xmm0
	punpcklbw	%xmm3,%xmm2
	movdqa	2b(%rip),%xmm1
	movdqa	%xmm0,%xmm3
	pand	%xmm1,%xmm3
	pand	%xmm2,%xmm1
	psrlw	$6,%xmm0
	psrlw	$6,%xmm2
	movdqa	3b(%rip),%xmm4
	pand	%xmm4,%xmm2
	pand	%xmm4,%xmm0
	movdqa	%xmm0,%xmm4
	psllw	$3,%xmm4
	por	%xmm0,%xmm4
	paddw	%xmm3,%xmm4
	movdqa	%xmm2,%xmm0
	psllw	$3,%xmm0
	por	%xmm2,%xmm0
	paddw	%xmm1,%xmm0
	movdqa	%xmm4,%xmm1
	psllw	$12,%xmm1
	paddw	%xmm4,%xmm1
	movdqa	%xmm0,%xmm2
	psllw	$12,%xmm2
	paddw	%xmm0,%xmm2
	psrlw	$8,%xmm2
	psrlw	$8,%xmm1
	packuswb	%xmm2,%xmm1
	movdqu	%xmm1,(%rdi,%rcx)
	addq	$16,%rcx
	cmpq	%rcx,%rax
	jne	18b
	cmpq	%rax,%r15
	je	18f
	testb	$24,%sil
	je	20f
30:
	movq	%rax,%rcx
	movl	%r15d,%eax
	andl	$124,%eax
	.p2align	4
30:
	movzbl	(%r14,%rcx,2),%edx
	movzbl	2(%r14,%rcx,2),%r8d
	movzbl	4(%r14,%rcx,2),%r9d
	movzbl	6(%r14,%rcx,2),%r10d
	movzbl	1(%r14,%rcx,2),%r11d
	movzbl	3(%r14,%rcx,2),%esi
	movzbl	5(%r14,%rcx,2),%ebx
	shll	$8,%esi
	orl	%r11d,%esi
	shll	$16,%ebx
	orl	%esi,%ebx
	movzbl	7(%r14,%rcx,2),%r11d
	shll	$24,%r11d
	orl	%ebx,%r11d
	movd	%r11d,%xmm0
	shll	$16,%r8d
	orl	%edx,%r8d
	movd	%r8d,%xmm1
	pinsrw	$2,%r9d,%xmm1
	pinsrw	$3,%r10d,%xmm1
	pxor	%xmm2,%xmm2
	punpcklbw	%xmm0,%xmm2
	por	%xmm1,%xmm2
	movdqa	4b(%rip),%xmm0
	pand	%xmm2,%xmm0
	psrlw	$6,%xmm2
	pand	5b(%rip),%xmm2
	pmullw	6b(%rip),%xmm2
	paddw	%xmm0,%xmm2
	pmullw	7b(%rip),%xmm2
	psrlw	$8,%xmm2
	packuswb	%xmm2,%xmm2
	movd	%xmm2,(%rdi,%rcx)
	addq	$4,%rcx
	cmpq	%rcx,%rax
	jne	30b
	cmpq	%rax,%r15
	movabsq	$10000000000000000,%rbx
	je	18f
	.p2align	4
20:
	movzwl	(%r14,%rax,2),%ecx
	movl	%ecx,%edx
	andl	$3855,%edx
	shrl	$6,%ecx
	andl	$257,%ecx
	leal	(%rcx,%rcx,8),%ecx
	addl	%edx,%ecx
	movl	%ecx,%edx
	shll	$12,%edx
	addl	%ecx,%edx
	movb	%dh,(%rdi,%rax)
	incq	%rax
	cmpq	%rax,%r15
	jne	20b
18:
	movq	%r15,%r12
	movq	40(%rsp),%r15
	cmpq	$12,%r12
	movq	120(%rsp),%r14
	jb	25f
26:
	movzbl	(%rdi),%ecx
	cmpb	$-65,%cl
	jle	18f
	jmp	25f
28:
	movq	%rax,%rcx
	andq	$-16,%rcx
	xorl	%edx,%edx
	.p2align	4
20:
	movzbl	160(%r14,%rdx,2),%r8d
	movzbl	168(%r14,%rdx,2),%r9d
	movzbl	170(%r14,%rdx,2),%r10d
	shll	$8,%r10d
	orl	%r9d,%r10d
	movzbl	162(%r14,%rdx,2),%r9d
	shll	$8,%r9d
	orl	%r8d,%r9d
	movzbl	164(%r14,%rdx,2),%r8d
	shll	$16,%r8d
	orl	%r9d,%r8d
	movzbl	166(%r14,%rdx,2),%r9d
	shll	$24,%r9d
	orl	%r8d,%r9d
	movzbl	172(%r14,%rdx,2),%r8d
	movd	%r9d,%xmm0
	pinsrw	$2,%r10d,%xmm0
	movzbl	174(%r14,%rdx,2),%r9d
	shll	$8,%r9d
	orl	%r8d,%r9d
	pinsrw	$3,%r9d,%xmm0
	movzbl	161(%r14,%rdx,2),%r8d
	movzbl	169(%r14,%rdx,2),%r9d
	movzbl	171(%r14,%rdx,2),%r10d
	shll	$8,%r10d
	orl	%r9d,%r10d
	movzbl	163(%r14,%rdx,2),%r9d
	shll	$8,%r9d
	orl	%r8d,%r9d
	movzbl	165(%r14,%rdx,2),%r8d
	shll	$16,%r8d
	orl	%r9d,%r8d
	movzbl	167(%r14,%rdx,2),%r9d
	shll	$24,%r9d
	orl	%r8d,%r9d
	movzbl	176(%r14,%rdx,2),%r8d
	movd	%r9d,%xmm1
	movzbl	173(%r14,%rdx,2),%r9d
	pinsrw	$2,%r10d,%xmm1
	movzbl	175(%r14,%rdx,2),%r10d
	shll	$8,%r10d
	orl	%r9d,%r10d
	movzbl	184(%r14,%rdx,2),%r9d
	pinsrw	$3,%r10d,%xmm1
	movzbl	186(%r14,%rdx,2),%r10d
	shll	$8,%r10d
	orl	%r9d,%r10d
	movzbl	178(%r14,%rdx,2),%r9d
	shll	$8,%r9d
	orl	%r8d,%r9d
	movzbl	180(%r14,%rdx,2),%r8d
	shll	$16,%r8d
	orl	%r9d,%r8d
	movzbl	182(%r14,%rdx,2),%r9d
	shll	$24,%r9d
	orl	%r8d,%r9d
	movzbl	188(%r14,%rdx,2),%r8d
	movd	%r9d,%xmm2
	pinsrw	$2,%r10d,%xmm2
	movzbl	177(%r14,%rdx,2),%r9d
	movzbl	190(%r14,%rdx,2),%r10d
	shll	$8,%r10d
	orl	%r8d,%r10d
	movzbl	185(%r14,%rdx,2),%r8d
	pinsrw	$3,%r10d,%xmm2
	movzbl	187(%r14,%rdx,2),%r10d
	shll	$8,%r10d
	orl	%r8d,%r10d
	movzbl	179(%r14,%rdx,2),%r8d
	shll	$8,%r8d
	orl	%r9d,%r8d
	movzbl	181(%r14,%rdx,2),%r9d
	shll	$16,%r9d
	orl	%r8d,%r9d
	movzbl	183(%r14,%rdx,2),%r8d
	shll	$24,%r8d
	orl	%r9d,%r8d
	movd	%r8d,%xmm3
	movzbl	189(%r14,%rdx,2),%r8d
	pinsrw	$2,%r10d,%xmm3
	movzbl	191(%r14,%rdx,2),%r9d
	shll	$8,%r9d
	orl	%r8d,%r9d
	pinsrw	$3,%r9d,%xmm3
	punpcklbw	%xmm1,%xmm0
	punpcklbw	%xmm3,%xmm2
	movdqa	2b(%rip),%xmm1
	movdqa	%xmm0,%xmm3
	pand	%xmm1,%xmm3
	pand	%xmm2,%xmm1
	psrlw	$6,%xmm0
	psrlw	$6,%xmm2
	movdqa	3b(%rip),%xmm4
	pand	%xmm4,%xmm2
	pand	%xmm4,%xmm0
	movdqa	%xmm0,%xmm4
	psllw	$3,%xmm4
	por	%xmm0,%xmm4
	paddw	%xmm3,%xmm4
	movdqa	%xmm2,%xmm0
	psllw	$3,%xmm0
	por	%xmm2,%xmm0
	paddw	%xmm1,%xmm0
	movdqa	%xmm4,%xmm1
	psllw	$12,%xmm1
	paddw	%xmm4,%xmm1
	movdqa	%xmm0,%xmm2
	psllw	$12,%xmm2
	paddw	%xmm0,%xmm2
	psrlw	$8,%xmm2
	psrlw	$8,%xmm1
	packuswb	%xmm2,%xmm1
	movdqu	%xmm1,80(%rdi,%rdx)
	addq	$16,%rdx
	cmpq	%rdx,%rcx
	jne	20b
	cmpq	%rcx,%rax
	je	2f
	testb	$12,%r12b
	je	3f
29:
	movq	%rax,%r8
	andq	$-4,%r8
	leaq	80(%r8),%rdx
	.p2align	4
20:
	movzbl	160(%r14,%rcx,2),%r9d
	movzbl	162(%r14,%rcx,2),%r10d
	movzbl	164(%r14,%rcx,2),%r11d
	movzbl	166(%r14,%rcx,2),%esi
	movzbl	161(%r14,%rcx,2),%ebx
	movzbl	163(%r14,%rcx,2),%ebp
	movzbl	165(%r14,%rcx,2),%r15d
	shll	$8,%ebp
	orl	%ebx,%ebp
	shll	$16,%r15d
	orl	%ebp,%r15d
	movzbl	167(%r14,%rcx,2),%ebx
	shll	$24,%ebx
	orl	%r15d,%ebx
	movd	%ebx,%xmm0
	shll	$16,%r10d
	orl	%r9d,%r10d
	movd	%r10d,%xmm1
	pinsrw	$2,%r11d,%xmm1
	pinsrw	$3,%esi,%xmm1
	pxor	%xmm2,%xmm2
	punpcklbw	%xmm0,%xmm2
	por	%xmm1,%xmm2
	movdqa	4b(%rip),%xmm0
	pand	%xmm2,%xmm0
	psrlw	$6,%xmm2
	pand	5b(%rip),%xmm2
	pmullw	6b(%rip),%xmm2
	paddw	%xmm0,%xmm2
	pmullw	7b(%rip),%xmm2
	psrlw	$8,%xmm2
	packuswb	%xmm2,%xmm2
	movd	%xmm2,80(%rdi,%rcx)
	addq	$4,%rcx
	cmpq	%rcx,%r8
	jne	20b
	cmpq	%r8,%rax
	movq	288(%rsp),%rbp
	movabsq	$10000000000000000,%rbx
	movq	40(%rsp),%r15
	je	2f
	.p2align	4
1:
	movzwl	(%r14,%rdx,2),%eax
	movl	%eax,%ecx
	andl	$3855,%ecx
	shrl	$6,%eax
	andl	$257,%eax
	leal	(%rax,%rax,8),%eax
	addl	%ecx,%eax
	movl	%eax,%ecx
	shll	$12,%ecx
	addl	%eax,%ecx
	movb	%ch,(%rdi,%rdx)
	incq	%rdx
	cmpq	%rdx,%r12
	jne	1b
2:
	movq	72(%rsp),%rdi
	movq	120(%rsp),%r14
	movzbl	(%rdi),%ecx
	cmpb	$-65,%cl
	jg	25f
18:
	movl	%ecx,%eax
	andl	$15,%eax
	leaq	12(,%rax,4),%rsi
	subq	%rsi,%r12
	jae	2f
	.p2align	4
25:
	xorl	%r8d,%r8d
	xorl	%edi,%edi
4:
	xorl	%r12d,%r12d
11:
	incq	%r14
	movl	$544499051,3(%rbp,%r15)
	movl	$1801675120,(%rbp,%r15)
	cmpq	$99999999,%r14
	ja	5f
	cmpq	$9999,%r14
	ja	6f
	cmpq	$99,%r14
	ja	7f
	cmpq	$9,%r14
	ja	18f
	movl	%r14d,%eax
	orb	$48,%al
	movb	%al,7(%rbp,%r15)
	addq	$8,%r15
	leaq	(%r15,%rbp),%rcx
	testb	%r8b,%r8b
	je	20f
	jmp	26f
	.p2align	4
5:
	cmpq	%rbx,%r14
	jae	5f
	movabsq	$-6067343680855748867,%rcx
	movq	%r14,%rax
	mulq	%rcx
	shrq	$26,%rdx
	movabsq	$1000000000000,%rax
	cmpq	%rax,%r14
	jae	28f
	movabsq	$10000000000,%rax
	cmpq	%rax,%r14
	jae	29f
	cmpq	$999999999,%r14
	ja	30f
	orb	$48,%dl
	movb	%dl,7(%rbp,%r15)
	addq	$8,%r15
	jmp	31f
	.p2align	4
6:
	movl	%r14d,%ecx
	movl	$3518437209,%eax
	imulq	%rcx,%rax
	shrq	$45,%rax
	cmpq	$999999,%r14
	ja	6f
	cmpq	$99999,%r14
	ja	32f
	movl	%eax,%ecx
	orb	$48,%cl
	movb	%cl,7(%rbp,%r15)
	addq	$8,%r15
	jmp	33f
	.p2align	4
5:
	movabsq	$4153837486827862103,%rcx
	movq	%r14,%rax
	mulq	%rcx
	shrq	$51,%rdx
	movabsq	$1000000000000000000,%rax
	cmpq	%rax,%r14
	jae	5f
	movabsq	$100000000000000000,%rax
	cmpq	%rax,%r14
	jae	34f
	orb	$48,%dl
	movb	%dl,7(%rbp,%r15)
	addq	$8,%r15
	jmp	35f
2:
	testb	$16,%cl
	jne	2f
	xorl	%r13d,%r13d
36:
	movq	%rcx,296(%rsp)
	cmpb	$1,624(%rsp)
	jne	37f
	movl	%r13d,104(%rsp)
	movq	%rsi,64(%rsp)
	movq	640(%rsp),%r14
	movq	648(%rsp),%r12
	movq	656(%rsp),%rax
	movq	%rax,96(%rsp)
	pxor	%xmm0,%xmm0
	leaq	448(%rsp),%rax
	movdqu	%xmm0,192(%rax)
	movdqu	%xmm0,176(%rax)
	movq	$0,208(%rax)
	testq	%r12,%r12
	je	38f
	xorl	%r13d,%r13d
	jmp	39f
	.p2align	4
40:
	incq	%r13
	cmpq	%r12,%r13
	je	38f
39:
	leaq	(,%r13,2),%rax
	addq	%r13,%rax
	movq	(%r14,%rax,8),%r15
	movq	8(%r14,%rax,8),%rbx
	movq	16(%r14,%rax,8),%rsi
	testq	%rbx,%rbx
	je	39f
	leaq	16(%r15),%rbp
	jmp	41f
	.p2align	4
42:
	addq	$32,%rbp
	decq	%rbx
	je	39f
41:
	cmpq	$0,(%rbp)
	je	42b
	movq	-16(%rbp),%rcx
	callq	rattle_dealloc
	jmp	42b
	.p2align	4
39:
	testq	%rsi,%rsi
	je	40b
	movq	%r15,%rcx
	callq	rattle_dealloc
	jmp	40b
7:
	movl	%r14d,%eax
	shrl	$2,%eax
	movzwl	%ax,%eax
	imull	$5243,%eax,%eax
	shrl	$17,%eax
	cmpq	$999,%r14
	ja	7f
	movl	%eax,%ecx
	orb	$48,%cl
	movb	%cl,7(%rbp,%r15)
	addq	$8,%r15
	jmp	39f
28:
	movl	%edx,%r9d
	movl	$3518437209,%eax
	imulq	%r9,%rax
	shrq	$45,%rax
	movabsq	$100000000000000,%r9
	cmpq	%r9,%r14
	jae	28f
	movabsq	$10000000000000,%r9
	cmpq	%r9,%r14
	jae	40f
	movl	%eax,%r9d
	orb	$48,%r9b
	movb	%r9b,7(%rbp,%r15)
	addq	$8,%r15
	jmp	41f
6:
	movzwl	%ax,%ecx
	shrl	$2,%ecx
	imull	$5243,%ecx,%ecx
	shrl	$17,%ecx
	cmpq	$9999999,%r14
	ja	6f
	movl	%ecx,%edx
	orb	$48,%dl
	movb	%dl,7(%rbp,%r15)
	addq	$8,%r15
	jmp	42f
5:
	imull	$1311,%edx,%eax
	shrl	$17,%eax
	movabsq	$-8446744073709551616,%rcx
	cmpq	%rcx,%r14
	jae	5f
	movl	%eax,%ecx
	orb	$48,%cl
	movb	%cl,7(%rbp,%r15)
	addq	$8,%r15
	jmp	43f
2:
	cmpq	$4,%r12
	jb	25b
	movzwl	2(%rdi,%rsi),%eax
	rolw	$8,%ax
	addq	$-4,%r12
	movzwl	%ax,%eax
	shll	$2,%eax
	cmpq	%rax,%r12
	jb	25b
	movq	%rcx,%r8
	movzwl	(%rdi,%rsi),%edx
	movl	%edx,%ecx
	andl	$61695,%ecx
	cmpw	$16,%cx
	sete	%r13b
	addq	%rax,%rsi
	addq	$4,%rsi
	cmpl	$57022,%edx
	je	2f
	cmpw	$16,%cx
	movq	%r8,%rcx
	jne	25b
	jmp	36b
18:
	leaq	rtp_static.42(%rip),%rax
	movzwl	(%rax,%r14,2),%eax
	movw	%ax,7(%rbp,%r15)
	addq	$9,%r15
	leaq	(%r15,%rbp),%rcx
	testb	%r8b,%r8b
	je	20f
	jmp	26f
29:
	movl	%edx,%eax
	shrl	$2,%eax
	movzwl	%ax,%eax
	imull	$5243,%eax,%eax
	shrl	$17,%eax
	movabsq	$100000000000,%r9
	cmpq	%r9,%r14
	jae	18f
	orb	$48,%al
	movb	%al,7(%rbp,%r15)
	addq	$8,%r15
	jmp	25f
32:
	movl	%eax,%ecx
	leaq	rtp_static.42(%rip),%rdx
	movzwl	(%rdx,%rcx,2),%ecx
	movw	%cx,7(%rbp,%r15)
	addq	$9,%r15
	jmp	33f
34:
	leaq	rtp_static.42(%rip),%rax
	movzwl	(%rax,%rdx,2),%eax
	movw	%ax,7(%rbp,%r15)
	addq	$9,%r15
	jmp	35f
7:
	movzwl	%ax,%ecx
	leaq	rtp_static.42(%rip),%rdx
	movzwl	(%rdx,%rcx,2),%ecx
	movw	%cx,7(%rbp,%r15)
	addq	$9,%r15
39:
	imull	$100,%eax,%eax
	movl	%r14d,%ecx
	subl	%eax,%ecx
	movzwl	%cx,%eax
	leaq	rtp_static.42(%rip),%rcx
	movzwl	(%rcx,%rax,2),%eax
	movw	%ax,(%rbp,%r15)
	addq	$2,%r15
	leaq	(%r15,%rbp),%rcx
	testb	%r8b,%r8b
	je	20f
	jmp	26f
28:
	movzwl	%ax,%r9d
	shrl	$2,%r9d
	imull	$5243,%r9d,%r9d
	shrl	$17,%r9d
	movabsq	$1000000000000000,%r10
	cmpq	%r10,%r14
	jae	7f
	movl	%r9d,%r10d
	orb	$48,%r10b
	movb	%r10b,7(%rbp,%r15)
	addq	$8,%r15
	jmp	28f
6:
	movzwl	%cx,%edx
	leaq	rtp_static.42(%rip),%r9
	movzwl	(%r9,%rdx,2),%edx
	movw	%dx,7(%rbp,%r15)
	addq	$9,%r15
42:
	imull	$100,%ecx,%ecx
	movl	%eax,%edx
	subl	%ecx,%edx
	movzwl	%dx,%ecx
	leaq	rtp_static.42(%rip),%rdx
	movzwl	(%rdx,%rcx,2),%ecx
	movw	%cx,(%rbp,%r15)
	addq	$2,%r15
33:
	imull	$10000,%eax,%eax
	movl	%r14d,%ecx
	subl	%eax,%ecx
	movzwl	%cx,%eax
	shrl	$2,%eax
	imull	$5243,%eax,%eax
	shrl	$17,%eax
	leaq	rtp_static.42(%rip),%rdx
	movzwl	(%rdx,%rax,2),%r9d
	movw	%r9w,(%rbp,%r15)
	imull	$100,%eax,%eax
	subl	%eax,%ecx
	movzwl	%cx,%eax
	movzwl	(%rdx,%rax,2),%eax
	movw	%ax,2(%rbp,%r15)
	addq	$4,%r15
	leaq	(%r15,%rbp),%rcx
	testb	%r8b,%r8b
	jne	26f
20:
	movabsq	$7233174018687574074,%rax
	movq	%rax,(%rcx)
	movl	$1701601889,8(%rcx)
	addq	$12,%r15
	jmp	6f
5:
	movzwl	%ax,%ecx
	leaq	rtp_static.42(%rip),%r9
	movzwl	(%r9,%rcx,2),%ecx
	movw	%cx,7(%rbp,%r15)
	addq	$9,%r15
43:
	imull	$100,%eax,%eax
	subl	%eax,%edx
	movzwl	%dx,%eax
	leaq	rtp_static.42(%rip),%rcx
	movzwl	(%rcx,%rax,2),%eax
	movw	%ax,(%rbp,%r15)
	addq	$2,%r15
35:
	movabsq	$-6067343680855748867,%rcx
	movq	%r14,%rax
	mulq	%rcx
	movq	%rdx,%rcx
	shrq	$26,%rcx
	movabsq	$368934881475,%rdx
	movq	%rcx,%rax
	mulq	%rdx
	shrl	%edx
	imulq	$100000000,%rdx,%rax
	imulq	$100000000,%rcx,%rdx
	subq	%rax,%rcx
	imulq	$109951163,%rcx,%r9
	shrq	$40,%r9
	imull	$5243,%r9d,%r10d
	shrl	$19,%r10d
	leaq	rtp_static.42(%rip),%rax
	movzwl	(%rax,%r10,2),%r11d
	movw	%r11w,(%rbp,%r15)
	imull	$100,%r10d,%r10d
	imull	$10000,%r9d,%r11d
	subl	%r10d,%r9d
	movzwl	%r9w,%r9d
	movzwl	(%rax,%r9,2),%r9d
	movw	%r9w,2(%rbp,%r15)
	subl	%r11d,%ecx
	imull	$5243,%ecx,%r9d
	shrl	$19,%r9d
	movzwl	(%rax,%r9,2),%r10d
	movw	%r10w,4(%rbp,%r15)
	imull	$100,%r9d,%r9d
	subl	%r9d,%ecx
	movzwl	%cx,%ecx
	movzwl	(%rax,%rcx,2),%ecx
	movw	%cx,6(%rbp,%r15)
	movq	%r14,%rcx
	subq	%rdx,%rcx
	imulq	$109951163,%rcx,%rdx
	shrq	$40,%rdx
	imull	$5243,%edx,%r9d
	shrl	$19,%r9d
	movzwl	(%rax,%r9,2),%r10d
	movw	%r10w,8(%rbp,%r15)
	imull	$100,%r9d,%r9d
	imull	$10000,%edx,%r10d
	subl	%r9d,%edx
	movzwl	%dx,%edx
	movzwl	(%rax,%rdx,2),%edx
	movw	%dx,10(%rbp,%r15)
	subl	%r10d,%ecx
	imull	$5243,%ecx,%edx
	shrl	$19,%edx
	movzwl	(%rax,%rdx,2),%r9d
	movw	%r9w,12(%rbp,%r15)
	imull	$100,%edx,%edx
	subl	%edx,%ecx
	movzwl	%cx,%ecx
	movzwl	(%rax,%rcx,2),%eax
	movw	%ax,14(%rbp,%r15)
	addq	$16,%r15
	leaq	(%r15,%rbp),%rcx
	testb	%r8b,%r8b
	jne	26f
	jmp	20b
37:
	pxor	%xmm0,%xmm0
	leaq	448(%rsp),%rax
	movdqu	%xmm0,192(%rax)
	movdqu	%xmm0,176(%rax)
	movdqu	%xmm0,160(%rax)
	movdqu	%xmm0,144(%rax)
	movdqu	%xmm0,128(%rax)
	movdqu	%xmm0,112(%rax)
	movdqu	%xmm0,96(%rax)
	movdqu	%xmm0,80(%rax)
	movdqu	%xmm0,64(%rax)
	movdqu	%xmm0,48(%rax)
	movdqu	%xmm0,32(%rax)
	movdqu	%xmm0,16(%rax)
	movdqu	%xmm0,(%rax)
	movq	$0,208(%rax)
	jmp	5f
38:
	cmpq	$0,96(%rsp)
	je	29f
	movq	%r14,%rcx
	callq	rattle_dealloc
29:
	cmpb	$1,624(%rsp)
	movq	640(%rsp),%r14
	movq	648(%rsp),%r12
	movq	656(%rsp),%rcx
	pxor	%xmm0,%xmm0
	leaq	448(%rsp),%rax
	movdqu	%xmm0,192(%rax)
	movdqu	%xmm0,176(%rax)
	movdqu	%xmm0,160(%rax)
	movdqu	%xmm0,144(%rax)
	movdqu	%xmm0,128(%rax)
	movdqu	%xmm0,112(%rax)
	movdqu	%xmm0,96(%rax)
	movdqu	%xmm0,80(%rax)
	movdqu	%xmm0,64(%rax)
	movdqu	%xmm0,48(%rax)
	movdqu	%xmm0,32(%rax)
	movdqu	%xmm0,16(%rax)
	movdqu	%xmm0,(%rax)
	movq	$0,208(%rax)
	movq	288(%rsp),%rbp
	movabsq	$10000000000000000,%rbx
	movq	64(%rsp),%rsi
	movl	104(%rsp),%r13d
	jne	5f
	movq	%rcx,96(%rsp)
	testq	%r12,%r12
	je	29f
	xorl	%r13d,%r13d
	jmp	32f
	.p2align	4
33:
	incq	%r13
	cmpq	%r12,%r13
	je	29f
32:
	leaq	(,%r13,2),%rax
	addq	%r13,%rax
	movq	(%r14,%rax,8),%r15
	movq	8(%r14,%rax,8),%rbx
	movq	16(%r14,%rax,8),%rsi
	testq	%rbx,%rbx
	je	32f
	leaq	16(%r15),%rbp
	jmp	34f
	.p2align	4
35:
	addq	$32,%rbp
	decq	%rbx
	je	32f
34:
	cmpq	$0,(%rbp)
	je	35b
	movq	-16(%rbp),%rcx
	callq	rattle_dealloc
	jmp	35b
	.p2align	4
32:
	testq	%rsi,%rsi
	je	33b
	movq	%r15,%rcx
	callq	rattle_dealloc
	jmp	33b
30:
	leaq	rtp_static.42(%rip),%rax
	movzwl	(%rax,%rdx,2),%eax
	movw	%ax,7(%rbp,%r15)
	addq	$9,%r15
	jmp	31f
40:
	movl	%eax,%r9d
	leaq	rtp_static.42(%rip),%r10
	movzwl	(%r10,%r9,2),%r9d
	movw	%r9w,7(%rbp,%r15)
	addq	$9,%r15
	jmp	41f
18:
	movzwl	%ax,%eax
	leaq	rtp_static.42(%rip),%r9
	movzwl	(%r9,%rax,2),%eax
	movw	%ax,7(%rbp,%r15)
	addq	$9,%r15
25:
	movl	%edx,%eax
	imulq	$1374389535,%rax,%rax
	shrq	$37,%rax
	imull	$100,%eax,%eax
	subl	%eax,%edx
	leaq	rtp_static.42(%rip),%rax
	movzwl	(%rax,%rdx,2),%eax
	movw	%ax,(%rbp,%r15)
	addq	$2,%r15
	jmp	31f
7:
	movzwl	%r9w,%r10d
	leaq	rtp_static.42(%rip),%r11
	movzwl	(%r11,%r10,2),%r10d
	movw	%r10w,7(%rbp,%r15)
	addq	$9,%r15
28:
	imull	$100,%r9d,%r9d
	movl	%eax,%r10d
	subl	%r9d,%r10d
	movzwl	%r10w,%r9d
	leaq	rtp_static.42(%rip),%r10
	movzwl	(%r10,%r9,2),%r9d
	movw	%r9w,(%rbp,%r15)
	addq	$2,%r15
41:
	imull	$10000,%eax,%eax
	subl	%eax,%edx
	movzwl	%dx,%eax
	shrl	$2,%eax
	imull	$5243,%eax,%eax
	shrl	$17,%eax
	leaq	rtp_static.42(%rip),%r9
	movzwl	(%r9,%rax,2),%r10d
	movw	%r10w,(%rbp,%r15)
	imull	$100,%eax,%eax
	subl	%eax,%edx
	movzwl	%dx,%eax
	movzwl	(%r9,%rax,2),%eax
	movw	%ax,2(%rbp,%r15)
	addq	$4,%r15
31:
	movq	%r14,%rax
	mulq	%rcx
	shrq	$26,%rdx
	imulq	$100000000,%rdx,%rcx
	movq	%r14,%rax
	subq	%rcx,%rax
	imulq	$109951163,%rax,%rcx
	shrq	$40,%rcx
	imull	$5243,%ecx,%edx
	shrl	$19,%edx
	leaq	rtp_static.42(%rip),%r9
	movzwl	(%r9,%rdx,2),%r10d
	movw	%r10w,(%rbp,%r15)
	imull	$100,%edx,%edx
	imull	$10000,%ecx,%r10d
	subl	%edx,%ecx
	movzwl	%cx,%ecx
	movzwl	(%r9,%rcx,2),%ecx
	movw	%cx,2(%rbp,%r15)
	subl	%r10d,%eax
	imull	$5243,%eax,%ecx
	shrl	$19,%ecx
	movzwl	(%r9,%rcx,2),%edx
	movw	%dx,4(%rbp,%r15)
	imull	$100,%ecx,%ecx
	subl	%ecx,%eax
	movzwl	%ax,%eax
	movzwl	(%r9,%rax,2),%eax
	movw	%ax,6(%rbp,%r15)
	addq	$8,%r15
	leaq	(%r15,%rbp),%rcx
	testb	%r8b,%r8b
	je	20b
26:
	movw	$8250,(%rcx)
	movzbl	377(%rsp),%eax
	movb	$32,4(%rcx)
	movw	$29808,2(%rcx)
	cmpq	$99,%rax
	ja	7f
	cmpb	$9,%al
	ja	18f
	orb	$48,%al
	movb	%al,5(%rbp,%r15)
	addq	$6,%r15
	jmp	20f
	.p2align	4
7:
	leal	(%rax,%rax,4),%ecx
	leal	(%rax,%rcx,8),%ecx
	shrl	$12,%ecx
	imull	$100,%ecx,%edx
	orb	$48,%cl
	movb	%cl,5(%rbp,%r15)
	subb	%dl,%al
	movzbl	%al,%eax
	leaq	rtp_static.42(%rip),%rcx
	movzwl	(%rcx,%rax,2),%eax
	movw	%ax,6(%rbp,%r15)
	addq	$8,%r15
	jmp	20f
18:
	leaq	rtp_static.42(%rip),%rcx
	movzwl	(%rcx,%rax,2),%eax
	movw	%ax,5(%rbp,%r15)
	addq	$7,%r15
20:
	movzwl	378(%rsp),%eax
	movb	$32,4(%rbp,%r15)
	movl	$1902474016,(%rbp,%r15)
	cmpq	$9999,%rax
	ja	7f
	cmpw	$99,%ax
	ja	18f
	cmpw	$9,%ax
	ja	20f
	orb	$48,%al
	movb	%al,5(%rbp,%r15)
	addq	$6,%r15
	movl	380(%rsp),%eax
	movl	$544437280,(%rbp,%r15)
	cmpq	$99999999,%rax
	ja	25f
	jmp	26f
	.p2align	4
7:
	movl	%eax,%ecx
	shrl	$4,%ecx
	imull	$839,%ecx,%ecx
	shrl	$19,%ecx
	leal	48(%rcx),%edx
	movb	%dl,5(%rbp,%r15)
	imull	$10000,%ecx,%ecx
	subl	%ecx,%eax
	movzwl	%ax,%ecx
	imull	$5243,%ecx,%ecx
	shrl	$19,%ecx
	leaq	rtp_static.42(%rip),%rdx
	movzwl	(%rdx,%rcx,2),%r8d
	movw	%r8w,6(%rbp,%r15)
	imull	$100,%ecx,%ecx
	subl	%ecx,%eax
	movzwl	%ax,%eax
	movzwl	(%rdx,%rax,2),%eax
	movw	%ax,8(%rbp,%r15)
	addq	$10,%r15
	movl	380(%rsp),%eax
	movl	$544437280,(%rbp,%r15)
	cmpq	$99999999,%rax
	ja	25f
26:
	cmpl	$9999,%eax
	ja	7f
	cmpl	$99,%eax
	ja	28f
	cmpl	$9,%eax
	ja	30f
	orb	$48,%al
	movb	%al,4(%rbp,%r15)
	addq	$5,%r15
	jmp	31f
18:
	movl	%eax,%ecx
	shrl	$2,%ecx
	imull	$5243,%ecx,%ecx
	shrl	$17,%ecx
	cmpl	$999,%eax
	ja	18f
	movl	%ecx,%edx
	orb	$48,%dl
	movb	%dl,5(%rbp,%r15)
	addq	$6,%r15
	jmp	32f
7:
	movl	$3518437209,%ecx
	imulq	%rax,%rcx
	shrq	$45,%rcx
	cmpl	$999999,%eax
	ja	7f
	cmpl	$99999,%eax
	ja	33f
	movl	%ecx,%edx
	orb	$48,%dl
	movb	%dl,4(%rbp,%r15)
	addq	$5,%r15
	jmp	34f
20:
	leaq	rtp_static.42(%rip),%rcx
	movzwl	(%rcx,%rax,2),%eax
	movw	%ax,5(%rbp,%r15)
	addq	$7,%r15
	movl	380(%rsp),%eax
	movl	$544437280,(%rbp,%r15)
	cmpq	$99999999,%rax
	jbe	26b
	jmp	25f
28:
	movzwl	%ax,%ecx
	shrl	$2,%ecx
	imull	$5243,%ecx,%ecx
	shrl	$17,%ecx
	cmpl	$999,%eax
	ja	20f
	movl	%ecx,%edx
	orb	$48,%dl
	movb	%dl,4(%rbp,%r15)
	addq	$5,%r15
	jmp	28f
18:
	movzwl	%cx,%edx
	leaq	rtp_static.42(%rip),%r8
	movzwl	(%r8,%rdx,2),%edx
	movw	%dx,5(%rbp,%r15)
	addq	$7,%r15
32:
	imull	$100,%ecx,%ecx
	subl	%ecx,%eax
	movzwl	%ax,%eax
	leaq	rtp_static.42(%rip),%rcx
	movzwl	(%rcx,%rax,2),%eax
	movw	%ax,(%rbp,%r15)
	addq	$2,%r15
	movl	380(%rsp),%eax
	movl	$544437280,(%rbp,%r15)
	cmpq	$99999999,%rax
	jbe	26b
25:
	imulq	$1441151881,%rax,%rcx
	shrq	$57,%rcx
	cmpl	$999999999,%eax
	ja	18f
	movl	%ecx,%edx
	orb	$48,%dl
	movb	%dl,4(%rbp,%r15)
	addq	$5,%r15
	jmp	25f
18:
	movl	%ecx,%edx
	leaq	rtp_static.42(%rip),%r8
	movzwl	(%r8,%rdx,2),%edx
	movw	%dx,4(%rbp,%r15)
	addq	$6,%r15
25:
	imull	$100000000,%ecx,%ecx
	subl	%ecx,%eax
	movl	%eax,%ecx
	movl	$3518437209,%edx
	imulq	%rcx,%rdx
	shrq	$45,%rdx
	movzwl	%dx,%ecx
	shrl	$2,%ecx
	imull	$5243,%ecx,%ecx
	shrl	$17,%ecx
	leaq	rtp_static.42(%rip),%r8
	movzwl	(%r8,%rcx,2),%r9d
	movw	%r9w,(%rbp,%r15)
	imull	$100,%ecx,%ecx
	imull	$10000,%edx,%r9d
	subl	%ecx,%edx
	movzwl	%dx,%ecx
	movzwl	(%r8,%rcx,2),%ecx
	movw	%cx,2(%rbp,%r15)
	subl	%r9d,%eax
	imull	$5243,%eax,%ecx
	shrl	$19,%ecx
	movzwl	(%r8,%rcx,2),%edx
	movw	%dx,4(%rbp,%r15)
	imull	$100,%ecx,%ecx
	subl	%ecx,%eax
	movzwl	%ax,%eax
	movzwl	(%r8,%rax,2),%eax
	movw	%ax,6(%rbp,%r15)
	addq	$8,%r15
	jmp	31f
7:
	imulq	$1125899907,%rax,%rdx
	shrq	$50,%rdx
	cmpl	$9999999,%eax
	ja	7f
	orb	$48,%dl
	movb	%dl,4(%rbp,%r15)
	addq	$5,%r15
	jmp	18f
30:
	leaq	rtp_static.42(%rip),%rcx
	movzwl	(%rcx,%rax,2),%eax
	movw	%ax,4(%rbp,%r15)
	addq	$6,%r15
	jmp	31f
33:
	movl	%ecx,%edx
	leaq	rtp_static.42(%rip),%r8
	movzwl	(%r8,%rdx,2),%edx
	movw	%dx,4(%rbp,%r15)
	addq	$6,%r15
	jmp	34f
20:
	movzwl	%cx,%edx
	leaq	rtp_static.42(%rip),%r8
	movzwl	(%r8,%rdx,2),%edx
	movw	%dx,4(%rbp,%r15)
	addq	$6,%r15
28:
	imull	$100,%ecx,%ecx
	subl	%ecx,%eax
	movzwl	%ax,%eax
	leaq	rtp_static.42(%rip),%rcx
	movzwl	(%rcx,%rax,2),%eax
	movw	%ax,(%rbp,%r15)
	addq	$2,%r15
	jmp	31f
7:
	movl	%edx,%edx
	leaq	rtp_static.42(%rip),%r8
	movzwl	(%r8,%rdx,2),%edx
	movw	%dx,4(%rbp,%r15)
	addq	$6,%r15
18:
	movzwl	%cx,%edx
	shrl	$2,%edx
	imull	$5243,%edx,%edx
	shrl	$17,%edx
	imull	$100,%edx,%edx
	movl	%ecx,%r8d
	subl	%edx,%r8d
	movzwl	%r8w,%edx
	leaq	rtp_static.42(%rip),%r8
	movzwl	(%r8,%rdx,2),%edx
	movw	%dx,(%rbp,%r15)
	addq	$2,%r15
34:
	imull	$10000,%ecx,%ecx
	subl	%ecx,%eax
	movzwl	%ax,%ecx
	shrl	$2,%ecx
	imull	$5243,%ecx,%ecx
	shrl	$17,%ecx
	leaq	rtp_static.42(%rip),%rdx
	movzwl	(%rdx,%rcx,2),%r8d
	movw	%r8w,(%rbp,%r15)
	imull	$100,%ecx,%ecx
	subl	%ecx,%eax
	movzwl	%ax,%eax
	movzwl	(%rdx,%rax,2),%eax
	movw	%ax,2(%rbp,%r15)
	addq	$4,%r15
31:
	movl	384(%rsp),%eax
	movw	$8291,4(%rbp,%r15)
	movl	$1920168736,(%rbp,%r15)
	cmpq	$99999999,%rax
	ja	7f
	cmpl	$9999,%eax
	ja	18f
	cmpl	$99,%eax
	ja	20f
	cmpl	$9,%eax
	ja	25f
	orb	$48,%al
	movb	%al,6(%rbp,%r15)
	addq	$7,%r15
	jmp	26f
	.p2align	4
7:
	imulq	$1441151881,%rax,%rcx
	shrq	$57,%rcx
	cmpl	$999999999,%eax
	ja	7f
	movl	%ecx,%edx
	orb	$48,%dl
	movb	%dl,6(%rbp,%r15)
	addq	$7,%r15
	jmp	28f
18:
	movl	$3518437209,%ecx
	imulq	%rax,%rcx
	shrq	$45,%rcx
	cmpl	$999999,%eax
	ja	18f
	cmpl	$99999,%eax
	ja	30f
	movl	%ecx,%edx
	orb	$48,%dl
	movb	%dl,6(%rbp,%r15)
	addq	$7,%r15
	jmp	31f
7:
	movl	%ecx,%edx
	leaq	rtp_static.42(%rip),%r8
	movzwl	(%r8,%rdx,2),%edx
	movw	%dx,6(%rbp,%r15)
	addq	$8,%r15
28:
	imull	$100000000,%ecx,%ecx
	subl	%ecx,%eax
	movl	%eax,%ecx
	movl	$3518437209,%edx
	imulq	%rcx,%rdx
	shrq	$45,%rdx
	movzwl	%dx,%ecx
	shrl	$2,%ecx
	imull	$5243,%ecx,%ecx
	shrl	$17,%ecx
	leaq	rtp_static.42(%rip),%r8
	movzwl	(%r8,%rcx,2),%r9d
	movw	%r9w,(%rbp,%r15)
	imull	$100,%ecx,%ecx
	imull	$10000,%edx,%r9d
	subl	%ecx,%edx
	movzwl	%dx,%ecx
	movzwl	(%r8,%rcx,2),%ecx
	movw	%cx,2(%rbp,%r15)
	subl	%r9d,%eax
	imull	$5243,%eax,%ecx
	shrl	$19,%ecx
	movzwl	(%r8,%rcx,2),%edx
	movw	%dx,4(%rbp,%r15)
	imull	$100,%ecx,%ecx
	subl	%ecx,%eax
	movzwl	%ax,%eax
	movzwl	(%r8,%rax,2),%eax
7:
	movw	%ax,6(%rbp,%r15)
	addq	$8,%r15
	jmp	26f
20:
	movzwl	%ax,%ecx
	shrl	$2,%ecx
	imull	$5243,%ecx,%ecx
	shrl	$17,%ecx
	cmpl	$999,%eax
	ja	20f
	movl	%ecx,%edx
	orb	$48,%dl
	movb	%dl,6(%rbp,%r15)
	addq	$7,%r15
	jmp	28f
18:
	imulq	$1125899907,%rax,%rdx
	shrq	$50,%rdx
	cmpl	$9999999,%eax
	ja	18f
	orb	$48,%dl
	movb	%dl,6(%rbp,%r15)
	addq	$7,%r15
	jmp	32f
25:
	leaq	rtp_static.42(%rip),%rcx
	movzwl	(%rcx,%rax,2),%eax
	jmp	7b
30:
	movl	%ecx,%edx
	leaq	rtp_static.42(%rip),%r8
	movzwl	(%r8,%rdx,2),%edx
	movw	%dx,6(%rbp,%r15)
	addq	$8,%r15
	jmp	31f
20:
	movzwl	%cx,%edx
	leaq	rtp_static.42(%rip),%r8
	movzwl	(%r8,%rdx,2),%edx
	movw	%dx,6(%rbp,%r15)
	addq	$8,%r15
28:
	imull	$100,%ecx,%ecx
	subl	%ecx,%eax
	movzwl	%ax,%eax
	leaq	rtp_static.42(%rip),%rcx
	movzwl	(%rcx,%rax,2),%eax
	movw	%ax,(%rbp,%r15)
	addq	$2,%r15
	jmp	26f
18:
	movl	%edx,%edx
	leaq	rtp_static.42(%rip),%r8
	movzwl	(%r8,%rdx,2),%edx
	movw	%dx,6(%rbp,%r15)
	addq	$8,%r15
32:
	movzwl	%cx,%edx
	shrl	$2,%edx
	imull	$5243,%edx,%edx
	shrl	$17,%edx
	imull	$100,%edx,%edx
	movl	%ecx,%r8d
	subl	%edx,%r8d
	movzwl	%r8w,%edx
	leaq	rtp_static.42(%rip),%r8
	movzwl	(%r8,%rdx,2),%edx
	movw	%dx,(%rbp,%r15)
	addq	$2,%r15
31:
	imull	$10000,%ecx,%ecx
	subl	%ecx,%eax
	movzwl	%ax,%ecx
	shrl	$2,%ecx
	imull	$5243,%ecx,%ecx
	shrl	$17,%ecx
	leaq	rtp_static.42(%rip),%rdx
	movzwl	(%rdx,%rcx,2),%r8d
	movw	%r8w,(%rbp,%r15)
	imull	$100,%ecx,%ecx
	subl	%ecx,%eax
	movzwl	%ax,%eax
	movzwl	(%rdx,%rax,2),%eax
	movw	%ax,2(%rbp,%r15)
	addq	$4,%r15
26:
	cmpb	$0,376(%rsp)
	movabsq	$2338042668713602336,%rax
	movq	%rax,(%rbp,%r15)
	leaq	8(%rbp,%r15),%rax
	je	7f
	movb	$115,2(%rax)
	movw	$25977,(%rax)
	addq	$11,%r15
	jmp	18f
	.p2align	4
7:
	movw	$28526,(%rax)
	addq	$10,%r15
18:
	cmpb	$0,361(%rsp)
	movabsq	$7453010313246502944,%rax
	movq	%rax,(%rbp,%r15)
	movb	$32,8(%rbp,%r15)
	leaq	9(%rbp,%r15),%rax
	je	7f
	movb	$115,2(%rax)
	movw	$25977,(%rax)
	addq	$12,%r15
	jmp	18f
	.p2align	4
7:
	movw	$28526,(%rax)
	addq	$11,%r15
18:
	cmpb	$0,362(%rsp)
	movabsq	$7598538378328958240,%rax
	movq	%rax,(%rbp,%r15)
	movl	$544108393,7(%rbp,%r15)
	leaq	11(%rbp,%r15),%rax
	je	7f
	movb	$115,2(%rax)
	movw	$25977,(%rax)
	addq	$14,%r15
	jmp	18f
	.p2align	4
7:
	movw	$28526,(%rax)
	addq	$13,%r15
18:
	movq	368(%rsp),%rcx
	movw	$8291,4(%rbp,%r15)
	movl	$1920164640,(%rbp,%r15)
	cmpq	$99999999,%rcx
	ja	7f
	cmpq	$9999,%rcx
	ja	18f
	cmpq	$99,%rcx
	ja	20f
	cmpq	$9,%rcx
	ja	25f
	orb	$48,%cl
	movb	%cl,6(%rbp,%r15)
	addq	$7,%r15
	jmp	26f
	.p2align	4
7:
	cmpq	%rbx,%rcx
	jae	7f
	movabsq	$-6067343680855748867,%r8
	movq	%rcx,%rax
	mulq	%r8
	shrq	$26,%rdx
	movabsq	$1000000000000,%rax
	cmpq	%rax,%rcx
	jae	28f
	movabsq	$10000000000,%rax
	cmpq	%rax,%rcx
	jae	30f
	cmpq	$999999999,%rcx
	ja	31f
	orb	$48,%dl
	movb	%dl,6(%rbp,%r15)
	addq	$7,%r15
	jmp	32f
18:
	movl	%ecx,%edx
	movl	$3518437209,%eax
	imulq	%rdx,%rax
	shrq	$45,%rax
	cmpq	$999999,%rcx
	ja	18f
	cmpq	$99999,%rcx
	ja	33f
	movl	%eax,%edx
	orb	$48,%dl
	movb	%dl,6(%rbp,%r15)
	addq	$7,%r15
	jmp	34f
7:
	movabsq	$4153837486827862103,%rdx
	movq	%rcx,%rax
	mulq	%rdx
	shrq	$51,%rdx
	movabsq	$1000000000000000000,%rax
	cmpq	%rax,%rcx
	jae	7f
	movabsq	$100000000000000000,%rax
	cmpq	%rax,%rcx
	jae	35f
	orb	$48,%dl
	movb	%dl,6(%rbp,%r15)
	addq	$7,%r15
	jmp	37f
20:
	movl	%ecx,%eax
	shrl	$2,%eax
	movzwl	%ax,%eax
	imull	$5243,%eax,%eax
	shrl	$17,%eax
	cmpq	$999,%rcx
	ja	20f
	movl	%eax,%edx
	orb	$48,%dl
	movb	%dl,6(%rbp,%r15)
	addq	$7,%r15
	jmp	38f
28:
	movl	%edx,%r9d
	movl	$3518437209,%eax
	imulq	%r9,%rax
	shrq	$45,%rax
	movabsq	$100000000000000,%r9
	cmpq	%r9,%rcx
	jae	28f
	movabsq	$10000000000000,%r9
	cmpq	%r9,%rcx
	jae	39f
	movl	%eax,%r9d
	orb	$48,%r9b
	movb	%r9b,6(%rbp,%r15)
	addq	$7,%r15
	jmp	40f
18:
	movzwl	%ax,%edx
	shrl	$2,%edx
	imull	$5243,%edx,%edx
	shrl	$17,%edx
	cmpq	$9999999,%rcx
	ja	18f
	movl	%edx,%r8d
	orb	$48,%r8b
	movb	%r8b,6(%rbp,%r15)
	addq	$7,%r15
	jmp	41f
7:
	imull	$1311,%edx,%eax
	shrl	$17,%eax
	movabsq	$-8446744073709551616,%r8
	cmpq	%r8,%rcx
	jae	7f
	movl	%eax,%r8d
	orb	$48,%r8b
	movb	%r8b,6(%rbp,%r15)
	addq	$7,%r15
	jmp	42f
25:
	leaq	rtp_static.42(%rip),%rax
	movzwl	(%rax,%rcx,2),%eax
	jmp	25f
30:
	movl	%edx,%eax
	shrl	$2,%eax
	movzwl	%ax,%eax
	imull	$5243,%eax,%eax
	shrl	$17,%eax
	movabsq	$100000000000,%r9
	cmpq	%r9,%rcx
	jae	30f
	orb	$48,%al
	movb	%al,6(%rbp,%r15)
	addq	$7,%r15
	jmp	43f
33:
	movl	%eax,%edx
	leaq	rtp_static.42(%rip),%r8
	movzwl	(%r8,%rdx,2),%edx
	movw	%dx,6(%rbp,%r15)
	addq	$8,%r15
	jmp	34f
35:
	leaq	rtp_static.42(%rip),%rax
	movzwl	(%rax,%rdx,2),%eax
	movw	%ax,6(%rbp,%r15)
	addq	$8,%r15
	jmp	37f
20:
	movzwl	%ax,%edx
	leaq	rtp_static.42(%rip),%r8
	movzwl	(%r8,%rdx,2),%edx
	movw	%dx,6(%rbp,%r15)
	addq	$8,%r15
38:
	imull	$100,%eax,%eax
	subl	%eax,%ecx
	movzwl	%cx,%eax
	leaq	rtp_static.42(%rip),%rcx
	movzwl	(%rcx,%rax,2),%eax
	movw	%ax,(%rbp,%r15)
	addq	$2,%r15
	jmp	26f
28:
	movzwl	%ax,%r9d
	shrl	$2,%r9d
	imull	$5243,%r9d,%r9d
	shrl	$17,%r9d
	movabsq	$1000000000000000,%r10
	cmpq	%r10,%rcx
	jae	20f
	movl	%r9d,%r10d
	orb	$48,%r10b
	movb	%r10b,6(%rbp,%r15)
	addq	$7,%r15
	jmp	28f
18:
	movzwl	%dx,%r8d
	leaq	rtp_static.42(%rip),%r9
	movzwl	(%r9,%r8,2),%r8d
	movw	%r8w,6(%rbp,%r15)
	addq	$8,%r15
41:
	imull	$100,%edx,%edx
	movl	%eax,%r8d
	subl	%edx,%r8d
	movzwl	%r8w,%edx
	leaq	rtp_static.42(%rip),%r8
	movzwl	(%r8,%rdx,2),%edx
	movw	%dx,(%rbp,%r15)
	addq	$2,%r15
34:
	imull	$10000,%eax,%eax
	subl	%eax,%ecx
	movzwl	%cx,%eax
	shrl	$2,%eax
	imull	$5243,%eax,%eax
	shrl	$17,%eax
	leaq	rtp_static.42(%rip),%rdx
	movzwl	(%rdx,%rax,2),%r8d
	movw	%r8w,(%rbp,%r15)
	imull	$100,%eax,%eax
	subl	%eax,%ecx
	movzwl	%cx,%eax
	movzwl	(%rdx,%rax,2),%eax
	movw	%ax,2(%rbp,%r15)
	addq	$4,%r15
	jmp	26f
7:
	movzwl	%ax,%r8d
	leaq	rtp_static.42(%rip),%r9
	movzwl	(%r9,%r8,2),%r8d
	movw	%r8w,6(%rbp,%r15)
	addq	$8,%r15
42:
	imull	$100,%eax,%eax
	subl	%eax,%edx
	movzwl	%dx,%eax
	leaq	rtp_static.42(%rip),%rdx
	movzwl	(%rdx,%rax,2),%eax
	movw	%ax,(%rbp,%r15)
	addq	$2,%r15
37:
	movabsq	$-6067343680855748867,%rdx
	movq	%rcx,%rax
	mulq	%rdx
	movq	%rdx,%r8
	shrq	$26,%r8
	movabsq	$368934881475,%rdx
	movq	%r8,%rax
	mulq	%rdx
	shrl	%edx
	imulq	$100000000,%rdx,%rax
	imulq	$100000000,%r8,%rdx
	subq	%rax,%r8
	imulq	$109951163,%r8,%r9
	shrq	$40,%r9
	imull	$5243,%r9d,%r10d
	shrl	$19,%r10d
	leaq	rtp_static.42(%rip),%rax
	movzwl	(%rax,%r10,2),%r11d
	movw	%r11w,(%rbp,%r15)
	imull	$100,%r10d,%r10d
	imull	$10000,%r9d,%r11d
	subl	%r10d,%r9d
	movzwl	%r9w,%r9d
	movzwl	(%rax,%r9,2),%r9d
	movw	%r9w,2(%rbp,%r15)
	subl	%r11d,%r8d
	imull	$5243,%r8d,%r9d
	shrl	$19,%r9d
	movzwl	(%rax,%r9,2),%r10d
	movw	%r10w,4(%rbp,%r15)
	imull	$100,%r9d,%r9d
	subl	%r9d,%r8d
	movzwl	%r8w,%r8d
	movzwl	(%rax,%r8,2),%r8d
	movw	%r8w,6(%rbp,%r15)
	subq	%rdx,%rcx
	imulq	$109951163,%rcx,%rdx
	shrq	$40,%rdx
	imull	$5243,%edx,%r8d
	shrl	$19,%r8d
	movzwl	(%rax,%r8,2),%r9d
	movw	%r9w,8(%rbp,%r15)
	imull	$100,%r8d,%r8d
	imull	$10000,%edx,%r9d
	subl	%r8d,%edx
	movzwl	%dx,%edx
	movzwl	(%rax,%rdx,2),%edx
	movw	%dx,10(%rbp,%r15)
	subl	%r9d,%ecx
	imull	$5243,%ecx,%edx
	shrl	$19,%edx
	movzwl	(%rax,%rdx,2),%r8d
	movw	%r8w,12(%rbp,%r15)
	imull	$100,%edx,%edx
	subl	%edx,%ecx
	movzwl	%cx,%ecx
	movzwl	(%rax,%rcx,2),%eax
	movw	%ax,14(%rbp,%r15)
	addq	$16,%r15
	jmp	26f
29:
	cmpq	$0,96(%rsp)
	movq	288(%rsp),%rbp
	movabsq	$10000000000000000,%rbx
	movq	64(%rsp),%rsi
	movl	104(%rsp),%r13d
	je	5f
	movq	%r14,%rcx
	callq	rattle_dealloc
5:
	movb	$2,360(%rsp)
	movzbl	(%rdi),%eax
	shrb	$5,%al
	andb	$1,%al
	movb	%al,361(%rsp)
	movzbl	(%rdi),%eax
	shrb	$4,%al
	andb	$1,%al
	movb	%al,362(%rsp)
	movzbl	(%rdi),%eax
	pxor	%xmm0,%xmm0
	leaq	388(%rsp),%rcx
	movdqu	%xmm0,44(%rcx)
	movdqu	%xmm0,32(%rcx)
	movdqu	%xmm0,16(%rcx)
	movdqu	%xmm0,(%rcx)
	andl	$15,%eax
	je	5f
	movl	%eax,%ecx
	andl	$3,%ecx
	cmpb	$4,%al
	jae	7f
	xorl	%edx,%edx
	jmp	18f
7:
	movl	%eax,%r8d
	andl	$-4,%r8d
	xorl	%edx,%edx
	.p2align	4
7:
	movl	12(%rdi,%rdx,4),%r9d
	bswapl	%r9d
	movl	%r9d,388(%rsp,%rdx,4)
	movl	16(%rdi,%rdx,4),%r9d
	bswapl	%r9d
	movl	%r9d,392(%rsp,%rdx,4)
	movl	20(%rdi,%rdx,4),%r9d
	bswapl	%r9d
	movl	%r9d,396(%rsp,%rdx,4)
	movl	24(%rdi,%rdx,4),%r9d
	bswapl	%r9d
	movl	%r9d,400(%rsp,%rdx,4)
	addq	$4,%rdx
	cmpq	%rdx,%r8
	jne	7b
	testq	%rcx,%rcx
	je	5f
18:
	leaq	388(%rsp),%r8
	leaq	(%r8,%rdx,4),%r8
	leaq	(%rdi,%rdx,4),%rdx
	addq	$12,%rdx
	xorl	%r9d,%r9d
	.p2align	4
7:
	movl	(%rdx,%r9,4),%r10d
	bswapl	%r10d
	movl	%r10d,(%r8,%r9,4)
	incq	%r9
	cmpq	%r9,%rcx
	jne	7b
5:
	movq	%rax,368(%rsp)
	movzbl	1(%rdi),%eax
	shrb	$7,%al
	movb	%al,376(%rsp)
	movzbl	1(%rdi),%eax
	andb	$127,%al
	movb	%al,377(%rsp)
	movzwl	2(%rdi),%r14d
	rolw	$8,%r14w
	movw	%r14w,378(%rsp)
	movl	4(%rdi),%eax
	bswapl	%eax
	movl	%eax,380(%rsp)
	movl	8(%rdi),%r12d
	bswapl	%r12d
	movl	%r12d,384(%rsp)
	movq	%rsi,664(%rsp)
	testb	$16,296(%rsp)
	je	5f
	movzbl	(%rdi),%eax
	andl	$15,%eax
	leaq	16(,%rax,4),%rcx
	leaq	(%rdi,%rax,4),%rdx
	addq	$16,%rdx
	subq	%rcx,%rsi
	leaq	448(%rsp),%rax
	movq	%rax,32(%rsp)
	movq	352(%rsp),%rcx
	movq	%rsi,%r8
	movl	%r13d,%r9d
	callq	rtp_ext.block_values.read_values.77e50c5f4ddfc773
	testb	%al,%al
	jne	7f
	movl	384(%rsp),%r12d
	movzwl	378(%rsp),%r14d
	movabsq	$10000000000000000,%rbx
5:
	movq	152(%rsp),%rax
	movq	160(%rsp),%r11
	movq	200(%rsp),%rsi
	cmpq	%r11,%rsi
	jae	5f
	movq	%rsi,%rcx
	shlq	$6,%rcx
	cmpl	%r12d,(%rax,%rcx)
	jne	5f
	movq	40(%rsp),%r15
	jmp	18f
5:
	movq	216(%rsp),%rdx
	testq	%rdx,%rdx
	je	5f
	imull	$-1640531535,%r12d,%ecx
	imulq	%rdx,%rcx
	shrq	$32,%rcx
	cmpq	%rdx,%rcx
	movq	40(%rsp),%r15
	jae	29f
	shlq	$5,%rcx
	addq	208(%rsp),%rcx
	movdqu	(%rcx),%xmm0
	movd	%r12d,%xmm1
	pshufd	$0,%xmm1,%xmm1
	pcmpeqd	%xmm0,%xmm1
	movmskps	%xmm1,%edx
	testl	%edx,%edx
	je	29f
	movzbl	%dl,%edx
	rep		bsfl	%edx,%edx
	movl	16(%rcx,%rdx,4),%esi
	cmpq	%rsi,%r11
	jbe	29f
	movq	%rsi,%rcx
	shlq	$6,%rcx
	cmpl	%r12d,(%rax,%rcx)
	jne	29f
33:
	movq	%rsi,200(%rsp)
	jmp	18f
5:
	cmpq	$16,%r11
	movq	40(%rsp),%r15
	ja	29f
	testq	%r11,%r11
	je	5f
	xorl	%esi,%esi
	movq	%rax,%rcx
	.p2align	4
34:
	cmpl	%r12d,(%rcx)
	je	33b
	addq	$64,%rcx
	incq	%rsi
	cmpq	%rsi,%r11
	jne	34b
	jmp	5f
29:
	cmpb	$1,176(%rsp)
	jne	5f
	leaq	184(%rsp),%rcx
29:
	movq	(%rcx),%rcx
	movzwl	(%rcx),%r8d
	xorl	%edx,%edx
	testq	%r8,%r8
	je	33f
	.p2align	4
34:
	movl	4(%rcx,%rdx,4),%r9d
	cmpl	%r9d,%r12d
	setae	%r10b
	addb	%r10b,%r10b
	cmpl	%r9d,%r12d
	movzbl	%r10b,%r10d
	movl	$1,%r9d
	cmovnel	%r10d,%r9d
	cmpb	$2,%r9b
	jne	35f
	incq	%rdx
	cmpq	%rdx,%r8
	jne	34b
	movq	%r8,%rdx
	jmp	34f
	.p2align	4
35:
	movzbl	%r9b,%r8d
	testl	%r8d,%r8d
	jne	35f
34:
	shlq	$3,%rdx
33:
	cmpw	$0,2(%rcx)
	je	5f
	addq	%rdx,%rcx
	addq	$184,%rcx
	jmp	29b
5:
	movq	144(%rsp),%r15
	cmpq	%r11,168(%rsp)
	je	5f
	cmpb	$1,176(%rsp)
	jne	29f
33:
	movq	184(%rsp),%rdx
	jmp	34f
35:
	movq	64(%rcx,%rdx,8),%rsi
	movq	%rsi,200(%rsp)
	subq	$1,232(%rsp)
	jae	18f
	leaq	200(%rsp),%rcx
	leaq	152(%rsp),%rdx
	movl	%r12d,%r8d
	movq	%rsi,%r9
	callq	rtp_receive.hints.Hints.learn_now
	movq	152(%rsp),%rax
18:
	shlq	$6,%rsi
	cmpb	$0,16(%rax,%rsi)
	je	18f
	movq	32(%rax,%rsi),%r9
	subl	%r9d,%r14d
	movzwl	%r14w,%ecx
	leaq	(%rcx,%r9),%rdx
	testw	%cx,%cx
	js	35f
	movq	120(%rsp),%r14
	movq	%r9,%rcx
	subq	%rdx,%rcx
	jae	37f
38:
	movq	48(%rax,%rsi),%r10
	movq	56(%rax,%rsi),%r8
	movq	%rdx,%rcx
	subq	%r9,%rcx
	cmpq	$1,%rcx
	jne	41f
	shldq	$1,%r10,%r8
	leaq	1(,%r10,2),%r9
	jmp	42f
18:
	movq	24(%rax,%rsi),%rcx
	shlq	$16,%rcx
	movzwl	%r14w,%r12d
	orq	%rcx,%r12
	movq	$1,16(%rax,%rsi)
	movq	$0,24(%rax,%rsi)
	movq	%r12,32(%rax,%rsi)
	movq	$0,40(%rax,%rsi)
	movq	$0,56(%rax,%rsi)
	movq	$1,48(%rax,%rsi)
	movb	$1,%r8b
	movb	$1,%dil
	movq	120(%rsp),%r14
	jmp	11b
31:
	leaq	rtp_static.42(%rip),%rax
	movzwl	(%rax,%rdx,2),%eax
	movw	%ax,6(%rbp,%r15)
	addq	$8,%r15
	jmp	32f
39:
	movl	%eax,%r9d
	leaq	rtp_static.42(%rip),%r10
	movzwl	(%r10,%r9,2),%r9d
	movw	%r9w,6(%rbp,%r15)
	addq	$8,%r15
	jmp	40f
30:
	movzwl	%ax,%eax
	leaq	rtp_static.42(%rip),%r9
	movzwl	(%r9,%rax,2),%eax
	movw	%ax,6(%rbp,%r15)
	addq	$8,%r15
43:
	movl	%edx,%eax
	imulq	$1374389535,%rax,%rax
	shrq	$37,%rax
	imull	$100,%eax,%eax
	subl	%eax,%edx
	leaq	rtp_static.42(%rip),%rax
	movzwl	(%rax,%rdx,2),%eax
	movw	%ax,(%rbp,%r15)
	addq	$2,%r15
	jmp	32f
20:
	movzwl	%r9w,%r10d
	leaq	rtp_static.42(%rip),%r11
	movzwl	(%r11,%r10,2),%r10d
	movw	%r10w,6(%rbp,%r15)
	addq	$8,%r15
28:
	imull	$100,%r9d,%r9d
	movl	%eax,%r10d
	subl	%r9d,%r10d
	movzwl	%r10w,%r9d
	leaq	rtp_static.42(%rip),%r10
	movzwl	(%r10,%r9,2),%r9d
	movw	%r9w,(%rbp,%r15)
	addq	$2,%r15
40:
	imull	$10000,%eax,%eax
	subl	%eax,%edx
	movzwl	%dx,%eax
	shrl	$2,%eax
	imull	$5243,%eax,%eax
	shrl	$17,%eax
	leaq	rtp_static.42(%rip),%r9
	movzwl	(%r9,%rax,2),%r10d
	movw	%r10w,(%rbp,%r15)
	imull	$100,%eax,%eax
	subl	%eax,%edx
	movzwl	%dx,%eax
	movzwl	(%r9,%rax,2),%eax
	movw	%ax,2(%rbp,%r15)
	addq	$4,%r15
32:
	movq	%rcx,%rax
	mulq	%r8
	shrq	$26,%rdx
	imulq	$100000000,%rdx,%rax
	subq	%rax,%rcx
	imulq	$109951163,%rcx,%rax
	shrq	$40,%rax
	imull	$5243,%eax,%edx
	shrl	$19,%edx
	leaq	rtp_static.42(%rip),%r8
	movzwl	(%r8,%rdx,2),%r9d
	movw	%r9w,(%rbp,%r15)
	imull	$100,%edx,%edx
	imull	$10000,%eax,%r9d
	subl	%edx,%eax
	movzwl	%ax,%eax
	movzwl	(%r8,%rax,2),%eax
	movw	%ax,2(%rbp,%r15)
	subl	%r9d,%ecx
	imull	$5243,%ecx,%eax
	shrl	$19,%eax
	movzwl	(%r8,%rax,2),%edx
	movw	%dx,4(%rbp,%r15)
	imull	$100,%eax,%eax
	subl	%eax,%ecx
	movzwl	%cx,%eax
	movzwl	(%r8,%rax,2),%eax
25:
	movw	%ax,6(%rbp,%r15)
	addq	$8,%r15
26:
	movq	664(%rsp),%rcx
	movabsq	$2338042638363879456,%rax
	movq	%rax,(%rbp,%r15)
	cmpq	$99999999,%rcx
	ja	18f
	cmpq	$9999,%rcx
	ja	20f
	cmpq	$99,%rcx
	ja	25f
	cmpq	$9,%rcx
	ja	26f
	orb	$48,%cl
	movb	%cl,8(%rbp,%r15)
	addq	$9,%r15
	cmpb	$1,598(%rsp)
	je	28f
	.p2align	4
30:
	cmpb	$1,580(%rsp)
	jne	31f
32:
	movq	581(%rsp),%rax
	movb	$32,4(%rbp,%r15)
	movl	$1684632096,(%rbp,%r15)
	addq	$5,%r15
	movq	%rax,128(%rsp)
	cmpb	$32,%al
	jne	39f
	xorl	%esi,%esi
	addq	%rsi,%r15
	cmpb	$1,589(%rsp)
	jne	40f
	jmp	43f
	.p2align	4
18:
	cmpq	%rbx,%rcx
	jae	18f
	movabsq	$-6067343680855748867,%r8
	movq	%rcx,%rax
	mulq	%r8
	shrq	$26,%rdx
	movabsq	$1000000000000,%rax
	cmpq	%rax,%rcx
	jae	44f
	movabsq	$10000000000,%rax
	cmpq	%rax,%rcx
	jae	45f
	cmpq	$999999999,%rcx
	ja	46f
	orb	$48,%dl
	movb	%dl,8(%rbp,%r15)
	addq	$9,%r15
	jmp	47f
20:
	movl	%ecx,%edx
	movl	$3518437209,%eax
	imulq	%rdx,%rax
	shrq	$45,%rax
	cmpq	$999999,%rcx
	ja	20f
	cmpq	$99999,%rcx
	ja	48f
	movl	%eax,%edx
	orb	$48,%dl
	movb	%dl,8(%rbp,%r15)
	addq	$9,%r15
	jmp	49f
39:
	movl	%eax,%ecx
	andl	$65280,%ecx
	movl	$1,%esi
	cmpl	$8192,%ecx
	je	39f
	movl	%eax,%ecx
	andl	$16711680,%ecx
	movl	$2,%esi
	cmpl	$2097152,%ecx
	je	39f
	movl	%eax,%ecx
	andl	$-16777216,%ecx
	movl	$3,%esi
	cmpl	$536870912,%ecx
	je	39f
	movabsq	$1095216660480,%rcx
	andq	%rax,%rcx
	movl	$4,%esi
	movabsq	$137438953472,%rdx
	cmpq	%rdx,%rcx
	je	39f
	movabsq	$280375465082880,%rcx
	andq	%rax,%rcx
	movl	$5,%esi
	movabsq	$35184372088832,%rdx
	cmpq	%rdx,%rcx
	je	39f
	movabsq	$71776119061217280,%rcx
	andq	%rax,%rcx
	movl	$6,%esi
	movabsq	$9007199254740992,%rdx
	cmpq	%rdx,%rcx
	je	39f
	shrq	$56,%rax
	xorl	%esi,%esi
	cmpl	$32,%eax
	setne	%sil
	addq	$7,%rsi
39:
	leaq	(%r15,%rbp),%rcx
	leaq	128(%rsp),%rdx
	movq	%rsi,%r8
	callq	memcpy
	addq	%rsi,%r15
	cmpb	$1,589(%rsp)
	je	43f
	.p2align	4
40:
	cmpb	$1,448(%rsp)
	jne	39f
50:
	movzbl	449(%rsp),%eax
	movl	$543974774,3(%rbp,%r15)
	movl	$1986358304,(%rbp,%r15)
	testb	%al,%al
	js	51f
	addq	$7,%r15
	jmp	52f
18:
	movabsq	$4153837486827862103,%rdx
	movq	%rcx,%rax
	mulq	%rdx
	shrq	$51,%rdx
	movabsq	$1000000000000000000,%rax
	cmpq	%rax,%rcx
	jae	18f
	movabsq	$100000000000000000,%rax
	cmpq	%rax,%rcx
	jae	53f
	orb	$48,%dl
	movb	%dl,8(%rbp,%r15)
	addq	$9,%r15
	jmp	54f
51:
	movb	$45,7(%rbp,%r15)
	addq	$8,%r15
52:
	movl	%eax,%ecx
	sarb	$7,%cl
	xorb	%cl,%al
	subb	%cl,%al
	movzbl	%al,%ecx
	cmpb	$99,%cl
	ja	51f
	cmpb	$9,%al
	ja	52f
	orb	$48,%al
	movb	%al,(%rbp,%r15)
	incq	%r15
	cmpb	$1,450(%rsp)
	jne	55f
	jmp	56f
51:
	movb	$49,(%rbp,%r15)
	movl	%ecx,%eax
	leaq	rtp_static.42(%rip),%rcx
	movzwl	-200(%rcx,%rax,2),%eax
	movw	%ax,1(%rbp,%r15)
	addq	$3,%r15
	cmpb	$1,450(%rsp)
	je	56f
	.p2align	4
55:
	cmpb	$1,464(%rsp)
	jne	51f
57:
	movq	472(%rsp),%rcx
	movl	$1852142368,(%rbp,%r15)
	movw	$8292,4(%rbp,%r15)
	cmpq	$99999999,%rcx
	ja	58f
	cmpq	$9999,%rcx
	ja	59f
	cmpq	$99,%rcx
	ja	60f
	cmpq	$9,%rcx
	ja	61f
	orb	$48,%cl
	movb	%cl,6(%rbp,%r15)
	addq	$7,%r15
	cmpb	$1,512(%rsp)
	je	62f
	jmp	6f
58:
	cmpq	%rbx,%rcx
	jae	58f
	movabsq	$-6067343680855748867,%r8
	movq	%rcx,%rax
	mulq	%r8
	shrq	$26,%rdx
	movabsq	$1000000000000,%rax
	cmpq	%rax,%rcx
	jae	63f
	movabsq	$10000000000,%rax
	cmpq	%rax,%rcx
	jae	64f
	cmpq	$999999999,%rcx
	ja	65f
	orb	$48,%dl
	movb	%dl,6(%rbp,%r15)
	addq	$7,%r15
	jmp	66f
25:
	movl	%ecx,%eax
	shrl	$2,%eax
	movzwl	%ax,%eax
	imull	$5243,%eax,%eax
	shrl	$17,%eax
	cmpq	$999,%rcx
	ja	25f
	movl	%eax,%edx
	orb	$48,%dl
	movb	%dl,8(%rbp,%r15)
	addq	$9,%r15
	jmp	67f
44:
	movl	%edx,%r9d
	movl	$3518437209,%eax
	imulq	%r9,%rax
	shrq	$45,%rax
	movabsq	$100000000000000,%r9
	cmpq	%r9,%rcx
	jae	44f
	movabsq	$10000000000000,%r9
	cmpq	%r9,%rcx
	jae	68f
	movl	%eax,%r9d
	orb	$48,%r9b
	movb	%r9b,8(%rbp,%r15)
	addq	$9,%r15
	jmp	69f
20:
	movzwl	%ax,%edx
	shrl	$2,%edx
	imull	$5243,%edx,%edx
	shrl	$17,%edx
	cmpq	$9999999,%rcx
	ja	20f
	movl	%edx,%r8d
	orb	$48,%r8b
	movb	%r8b,8(%rbp,%r15)
	addq	$9,%r15
	jmp	70f
18:
	imull	$1311,%edx,%eax
	shrl	$17,%eax
	movabsq	$-8446744073709551616,%r8
	cmpq	%r8,%rcx
	jae	18f
	movl	%eax,%r8d
	orb	$48,%r8b
	movb	%r8b,8(%rbp,%r15)
	addq	$9,%r15
	jmp	71f
52:
	movl	%ecx,%eax
	leaq	rtp_static.42(%rip),%rcx
	movzwl	(%rcx,%rax,2),%eax
	movw	%ax,(%rbp,%r15)
	addq	$2,%r15
	cmpb	$1,450(%rsp)
	jne	55b
	jmp	56f
59:
	movl	%ecx,%edx
	movl	$3518437209,%eax
	imulq	%rdx,%rax
	shrq	$45,%rax
	cmpq	$999999,%rcx
	ja	52f
	cmpq	$99999,%rcx
	ja	59f
	movl	%eax,%edx
	orb	$48,%dl
	movb	%dl,6(%rbp,%r15)
	addq	$7,%r15
	jmp	72f
58:
	movabsq	$4153837486827862103,%rdx
	movq	%rcx,%rax
	mulq	%rdx
	shrq	$51,%rdx
	movabsq	$1000000000000000000,%rax
	cmpq	%rax,%rcx
	jae	58f
	movabsq	$100000000000000000,%rax
	cmpq	%rax,%rcx
	jae	73f
	orb	$48,%dl
	movb	%dl,6(%rbp,%r15)
	addq	$7,%r15
	jmp	74f
26:
	leaq	rtp_static.42(%rip),%rax
	movzwl	(%rax,%rcx,2),%eax
	movw	%ax,8(%rbp,%r15)
	addq	$10,%r15
	cmpb	$1,598(%rsp)
	je	28f
	jmp	30b
45:
	movl	%edx,%eax
	shrl	$2,%eax
	movzwl	%ax,%eax
	imull	$5243,%eax,%eax
	shrl	$17,%eax
	movabsq	$100000000000,%r9
	cmpq	%r9,%rcx
	jae	26f
	orb	$48,%al
	movb	%al,8(%rbp,%r15)
	addq	$9,%r15
	jmp	45f
48:
	movl	%eax,%edx
	leaq	rtp_static.42(%rip),%r8
	movzwl	(%r8,%rdx,2),%edx
	movw	%dx,8(%rbp,%r15)
	addq	$10,%r15
	jmp	49f
53:
	leaq	rtp_static.42(%rip),%rax
	movzwl	(%rax,%rdx,2),%eax
	movw	%ax,8(%rbp,%r15)
	addq	$10,%r15
	jmp	54f
60:
	movl	%ecx,%eax
	shrl	$2,%eax
	movzwl	%ax,%eax
	imull	$5243,%eax,%eax
	shrl	$17,%eax
	cmpq	$999,%rcx
	ja	48f
	movl	%eax,%edx
	orb	$48,%dl
	movb	%dl,6(%rbp,%r15)
	addq	$7,%r15
	jmp	53f
63:
	movl	%edx,%r9d
	movl	$3518437209,%eax
	imulq	%r9,%rax
	shrq	$45,%rax
	movabsq	$100000000000000,%r9
	cmpq	%r9,%rcx
	jae	60f
	movabsq	$10000000000000,%r9
	cmpq	%r9,%rcx
	jae	63f
	movl	%eax,%r9d
	orb	$48,%r9b
	movb	%r9b,6(%rbp,%r15)
	addq	$7,%r15
	jmp	75f
25:
	movzwl	%ax,%edx
	leaq	rtp_static.42(%rip),%r8
	movzwl	(%r8,%rdx,2),%edx
	movw	%dx,8(%rbp,%r15)
	addq	$10,%r15
67:
	imull	$100,%eax,%eax
	subl	%eax,%ecx
	movzwl	%cx,%eax
	leaq	rtp_static.42(%rip),%rcx
	movzwl	(%rcx,%rax,2),%eax
	movw	%ax,(%rbp,%r15)
	addq	$2,%r15
	cmpb	$1,598(%rsp)
	je	28f
	jmp	30b
44:
	movzwl	%ax,%r9d
	shrl	$2,%r9d
	imull	$5243,%r9d,%r9d
	shrl	$17,%r9d
	movabsq	$1000000000000000,%r10
	cmpq	%r10,%rcx
	jae	25f
	movl	%r9d,%r10d
	orb	$48,%r10b
	movb	%r10b,8(%rbp,%r15)
	addq	$9,%r15
	jmp	44f
20:
	movzwl	%dx,%r8d
	leaq	rtp_static.42(%rip),%r9
	movzwl	(%r9,%r8,2),%r8d
	movw	%r8w,8(%rbp,%r15)
	addq	$10,%r15
70:
	imull	$100,%edx,%edx
	movl	%eax,%r8d
	subl	%edx,%r8d
	movzwl	%r8w,%edx
	leaq	rtp_static.42(%rip),%r8
	movzwl	(%r8,%rdx,2),%edx
	movw	%dx,(%rbp,%r15)
	addq	$2,%r15
49:
	imull	$10000,%eax,%eax
	subl	%eax,%ecx
	movzwl	%cx,%eax
	shrl	$2,%eax
	imull	$5243,%eax,%eax
	shrl	$17,%eax
	leaq	rtp_static.42(%rip),%rdx
	movzwl	(%rdx,%rax,2),%r8d
	movw	%r8w,(%rbp,%r15)
	imull	$100,%eax,%eax
	subl	%eax,%ecx
	movzwl	%cx,%eax
	movzwl	(%rdx,%rax,2),%eax
	movw	%ax,2(%rbp,%r15)
	addq	$4,%r15
	cmpb	$1,598(%rsp)
	je	28f
	jmp	30b
18:
	movzwl	%ax,%r8d
	leaq	rtp_static.42(%rip),%r9
	movzwl	(%r9,%r8,2),%r8d
	movw	%r8w,8(%rbp,%r15)
	addq	$10,%r15
71:
	imull	$100,%eax,%eax
	subl	%eax,%edx
	movzwl	%dx,%eax
	leaq	rtp_static.42(%rip),%rdx
	movzwl	(%rdx,%rax,2),%eax
	movw	%ax,(%rbp,%r15)
	addq	$2,%r15
54:
	movabsq	$-6067343680855748867,%rdx
	movq	%rcx,%rax
	mulq	%rdx
	movq	%rdx,%r8
	shrq	$26,%r8
	movabsq	$368934881475,%rdx
	movq	%r8,%rax
	mulq	%rdx
	shrl	%edx
	imulq	$100000000,%rdx,%rax
	imulq	$100000000,%r8,%rdx
	subq	%rax,%r8
	imulq	$109951163,%r8,%r9
	shrq	$40,%r9
	imull	$5243,%r9d,%r10d
	shrl	$19,%r10d
	leaq	rtp_static.42(%rip),%rax
	movzwl	(%rax,%r10,2),%r11d
	movw	%r11w,(%rbp,%r15)
	imull	$100,%r10d,%r10d
	imull	$10000,%r9d,%r11d
	subl	%r10d,%r9d
	movzwl	%r9w,%r9d
	movzwl	(%rax,%r9,2),%r9d
	movw	%r9w,2(%rbp,%r15)
	subl	%r11d,%r8d
	imull	$5243,%r8d,%r9d
	shrl	$19,%r9d
	movzwl	(%rax,%r9,2),%r10d
	movw	%r10w,4(%rbp,%r15)
	imull	$100,%r9d,%r9d
	subl	%r9d,%r8d
	movzwl	%r8w,%r8d
	movzwl	(%rax,%r8,2),%r8d
	movw	%r8w,6(%rbp,%r15)
	subq	%rdx,%rcx
	imulq	$109951163,%rcx,%rdx
	shrq	$40,%rdx
	imull	$5243,%edx,%r8d
	shrl	$19,%r8d
	movzwl	(%rax,%r8,2),%r9d
	movw	%r9w,8(%rbp,%r15)
	imull	$100,%r8d,%r8d
	imull	$10000,%edx,%r9d
	subl	%r8d,%edx
	movzwl	%dx,%edx
	movzwl	(%rax,%rdx,2),%edx
	movw	%dx,10(%rbp,%r15)
	subl	%r9d,%ecx
	imull	$5243,%ecx,%edx
	shrl	$19,%edx
	movzwl	(%rax,%rdx,2),%r8d
	movw	%r8w,12(%rbp,%r15)
	imull	$100,%edx,%edx
	subl	%edx,%ecx
	movzwl	%cx,%ecx
	movzwl	(%rax,%rcx,2),%eax
	movw	%ax,14(%rbp,%r15)
	addq	$16,%r15
	cmpb	$1,598(%rsp)
	je	28f
	jmp	30b
52:
	movzwl	%ax,%edx
	shrl	$2,%edx
	imull	$5243,%edx,%edx
	shrl	$17,%edx
	cmpq	$9999999,%rcx
	ja	18f
	movl	%edx,%r8d
	orb	$48,%r8b
	movb	%r8b,6(%rbp,%r15)
	addq	$7,%r15
	jmp	20f
58:
	imull	$1311,%edx,%eax
	shrl	$17,%eax
	movabsq	$-8446744073709551616,%r8
	cmpq	%r8,%rcx
	jae	49f
	movl	%eax,%r8d
	orb	$48,%r8b
	movb	%r8b,6(%rbp,%r15)
	addq	$7,%r15
	jmp	52f
46:
	leaq	rtp_static.42(%rip),%rax
	movzwl	(%rax,%rdx,2),%eax
	movw	%ax,8(%rbp,%r15)
	addq	$10,%r15
	jmp	47f
61:
	leaq	rtp_static.42(%rip),%rax
	movzwl	(%rax,%rcx,2),%eax
	movw	%ax,6(%rbp,%r15)
	addq	$8,%r15
	cmpb	$1,512(%rsp)
	je	62f
	jmp	6f
64:
	movl	%edx,%eax
	shrl	$2,%eax
	movzwl	%ax,%eax
	imull	$5243,%eax,%eax
	shrl	$17,%eax
	movabsq	$100000000000,%r9
	cmpq	%r9,%rcx
	jae	46f
	orb	$48,%al
	movb	%al,6(%rbp,%r15)
	addq	$7,%r15
	jmp	54f
68:
	movl	%eax,%r9d
	leaq	rtp_static.42(%rip),%r10
	movzwl	(%r10,%r9,2),%r9d
	movw	%r9w,8(%rbp,%r15)
	addq	$10,%r15
	jmp	69f
59:
	movl	%eax,%edx
	leaq	rtp_static.42(%rip),%r8
	movzwl	(%r8,%rdx,2),%edx
	movw	%dx,6(%rbp,%r15)
	addq	$8,%r15
	jmp	72f
73:
	leaq	rtp_static.42(%rip),%rax
	movzwl	(%rax,%rdx,2),%eax
	movw	%ax,6(%rbp,%r15)
	addq	$8,%r15
	jmp	74f
26:
	movzwl	%ax,%eax
	leaq	rtp_static.42(%rip),%r9
	movzwl	(%r9,%rax,2),%eax
	movw	%ax,8(%rbp,%r15)
	addq	$10,%r15
45:
	movl	%edx,%eax
	imulq	$1374389535,%rax,%rax
	shrq	$37,%rax
	imull	$100,%eax,%eax
	subl	%eax,%edx
	leaq	rtp_static.42(%rip),%rax
	movzwl	(%rax,%rdx,2),%eax
	movw	%ax,(%rbp,%r15)
	addq	$2,%r15
	jmp	47f
48:
	movzwl	%ax,%edx
	leaq	rtp_static.42(%rip),%r8
	movzwl	(%r8,%rdx,2),%edx
	movw	%dx,6(%rbp,%r15)
	addq	$8,%r15
53:
	imull	$100,%eax,%eax
	subl	%eax,%ecx
	movzwl	%cx,%eax
	leaq	rtp_static.42(%rip),%rcx
	movzwl	(%rcx,%rax,2),%eax
	movw	%ax,(%rbp,%r15)
	addq	$2,%r15
	cmpb	$1,512(%rsp)
	je	62f
	jmp	6f
60:
	movzwl	%ax,%r9d
	shrl	$2,%r9d
	imull	$5243,%r9d,%r9d
	shrl	$17,%r9d
	movabsq	$1000000000000000,%r10
	cmpq	%r10,%rcx
	jae	26f
	movl	%r9d,%r10d
	orb	$48,%r10b
	movb	%r10b,6(%rbp,%r15)
	addq	$7,%r15
	jmp	45f
25:
	movzwl	%r9w,%r10d
	leaq	rtp_static.42(%rip),%r11
	movzwl	(%r11,%r10,2),%r10d
	movw	%r10w,8(%rbp,%r15)
	addq	$10,%r15
44:
	imull	$100,%r9d,%r9d
	movl	%eax,%r10d
	subl	%r9d,%r10d
	movzwl	%r10w,%r9d
	leaq	rtp_static.42(%rip),%r10
	movzwl	(%r10,%r9,2),%r9d
	movw	%r9w,(%rbp,%r15)
	addq	$2,%r15
69:
	imull	$10000,%eax,%eax
	subl	%eax,%edx
	movzwl	%dx,%eax
	shrl	$2,%eax
	imull	$5243,%eax,%eax
	shrl	$17,%eax
	leaq	rtp_static.42(%rip),%r9
	movzwl	(%r9,%rax,2),%r10d
	movw	%r10w,(%rbp,%r15)
	imull	$100,%eax,%eax
	subl	%eax,%edx
	movzwl	%dx,%eax
	movzwl	(%r9,%rax,2),%eax
	movw	%ax,2(%rbp,%r15)
	addq	$4,%r15
47:
	movq	%rcx,%rax
	mulq	%r8
	shrq	$26,%rdx
	imulq	$100000000,%rdx,%rax
	subq	%rax,%rcx
	imulq	$109951163,%rcx,%rax
	shrq	$40,%rax
	imull	$5243,%eax,%edx
	shrl	$19,%edx
	leaq	rtp_static.42(%rip),%r8
	movzwl	(%r8,%rdx,2),%r9d
	movw	%r9w,(%rbp,%r15)
	imull	$100,%edx,%edx
	imull	$10000,%eax,%r9d
	subl	%edx,%eax
	movzwl	%ax,%eax
	movzwl	(%r8,%rax,2),%eax
	movw	%ax,2(%rbp,%r15)
	subl	%r9d,%ecx
	imull	$5243,%ecx,%eax
	shrl	$19,%eax
	movzwl	(%r8,%rax,2),%edx
	movw	%dx,4(%rbp,%r15)
	imull	$100,%eax,%eax
	subl	%eax,%ecx
	movzwl	%cx,%eax
	movzwl	(%r8,%rax,2),%eax
	movw	%ax,6(%rbp,%r15)
	addq	$8,%r15
	cmpb	$1,598(%rsp)
	jne	30b
28:
	movdqu	599(%rsp),%xmm0
	movb	$32,4(%rbp,%r15)
	movl	$1684630816,(%rbp,%r15)
	addq	$5,%r15
	movdqa	%xmm0,128(%rsp)
	pcmpeqb	8b(%rip),%xmm0
	pmovmskb	%xmm0,%eax
	xorl	$65535,%eax
	movl	%eax,%ecx
	shrl	%ecx
	andl	$21845,%ecx
	movl	%eax,%edx
	subl	%ecx,%edx
	movl	%edx,%ecx
	andl	$13107,%ecx
	shrl	$2,%edx
	andl	$13107,%edx
	addl	%ecx,%edx
	movl	%edx,%ecx
	shrl	$4,%ecx
	addl	%edx,%ecx
	andl	$3855,%ecx
	movl	%ecx,%edx
	shrl	$8,%edx
	addl	%ecx,%edx
	movzbl	%dl,%esi
	testl	%eax,%eax
	je	8f
	leaq	(%r15,%rbp),%rcx
	leaq	128(%rsp),%rdx
	movq	%rsi,%r8
	callq	memcpy
8:
	addq	%rsi,%r15
	cmpb	$1,580(%rsp)
	je	32b
31:
	cmpb	$1,589(%rsp)
	jne	40b
43:
	movq	590(%rsp),%rax
	movabsq	$7310021012394177056,%rcx
	movq	%rcx,(%rbp,%r15)
	movw	$8292,8(%rbp,%r15)
	addq	$10,%r15
	movq	%rax,128(%rsp)
	cmpb	$32,%al
	jne	8f
	xorl	%esi,%esi
	addq	%rsi,%r15
	cmpb	$1,448(%rsp)
	jne	39f
	jmp	50b
8:
	movl	%eax,%ecx
	andl	$65280,%ecx
	movl	$1,%esi
	cmpl	$8192,%ecx
	je	8f
	movl	%eax,%ecx
	andl	$16711680,%ecx
	movl	$2,%esi
	cmpl	$2097152,%ecx
	je	8f
	movl	%eax,%ecx
	andl	$-16777216,%ecx
	movl	$3,%esi
	cmpl	$536870912,%ecx
	je	8f
	movabsq	$1095216660480,%rcx
	andq	%rax,%rcx
	movl	$4,%esi
	movabsq	$137438953472,%rdx
	cmpq	%rdx,%rcx
	je	8f
	movabsq	$280375465082880,%rcx
	andq	%rax,%rcx
	movl	$5,%esi
	movabsq	$35184372088832,%rdx
	cmpq	%rdx,%rcx
	je	8f
	movabsq	$71776119061217280,%rcx
	andq	%rax,%rcx
	movl	$6,%esi
	movabsq	$9007199254740992,%rdx
	cmpq	%rdx,%rcx
	je	8f
	shrq	$56,%rax
	xorl	%esi,%esi
	cmpl	$32,%eax
	setne	%sil
	addq	$7,%rsi
8:
	leaq	(%r15,%rbp),%rcx
	leaq	128(%rsp),%rdx
	movq	%rsi,%r8
	callq	memcpy
	addq	%rsi,%r15
	cmpb	$1,448(%rsp)
	je	50b
	.p2align	4
39:
	cmpb	$1,450(%rsp)
	jne	55b
56:
	testb	$1,451(%rsp)
	movl	$543515497,3(%rbp,%r15)
	movl	$1768912416,(%rbp,%r15)
	leaq	7(%rbp,%r15),%rax
	je	8f
	movb	$115,2(%rax)
	movw	$25977,(%rax)
	addq	$10,%r15
	cmpb	$1,464(%rsp)
	jne	51f
	jmp	57b
8:
	movw	$28526,(%rax)
	addq	$9,%r15
	cmpb	$1,464(%rsp)
	je	57b
	.p2align	4
51:
	cmpb	$1,512(%rsp)
	jne	6f
62:
	movzwl	514(%rsp),%eax
	movabsq	$8030045053520081952,%rcx
	movq	%rcx,(%rbp,%r15)
	movl	$544502383,7(%rbp,%r15)
	cmpl	$9999,%eax
	ja	8f
	cmpw	$99,%ax
	ja	25f
	cmpw	$9,%ax
	ja	28f
	orb	$48,%al
	movb	%al,11(%rbp,%r15)
	addq	$12,%r15
	jmp	6f
8:
	movl	%eax,%ecx
	shrl	$4,%ecx
	imull	$839,%ecx,%ecx
	shrl	$19,%ecx
	leal	48(%rcx),%edx
	movb	%dl,11(%rbp,%r15)
	imull	$10000,%ecx,%ecx
	subl	%ecx,%eax
	movzwl	%ax,%ecx
	imull	$5243,%ecx,%ecx
	shrl	$19,%ecx
	leaq	rtp_static.42(%rip),%rdx
	movzwl	(%rdx,%rcx,2),%r8d
	movw	%r8w,12(%rbp,%r15)
	imull	$100,%ecx,%ecx
	subl	%ecx,%eax
	movzwl	%ax,%eax
	movzwl	(%rdx,%rax,2),%eax
	movw	%ax,14(%rbp,%r15)
	addq	$16,%r15
	jmp	6f
25:
	movl	%eax,%ecx
	shrl	$2,%ecx
	imull	$5243,%ecx,%ecx
	shrl	$17,%ecx
	cmpl	$999,%eax
	ja	8f
	movl	%ecx,%edx
	orb	$48,%dl
	movb	%dl,11(%rbp,%r15)
	addq	$12,%r15
	jmp	25f
28:
	leaq	rtp_static.42(%rip),%rcx
	movzwl	(%rcx,%rax,2),%eax
	movw	%ax,11(%rbp,%r15)
	addq	$13,%r15
	jmp	6f
8:
	movzwl	%cx,%edx
	leaq	rtp_static.42(%rip),%r8
	movzwl	(%r8,%rdx,2),%edx
	movw	%dx,11(%rbp,%r15)
	addq	$13,%r15
25:
	imull	$100,%ecx,%ecx
	subl	%ecx,%eax
	movzwl	%ax,%eax
	leaq	rtp_static.42(%rip),%rcx
	movzwl	(%rcx,%rax,2),%eax
	movw	%ax,(%rbp,%r15)
	addq	$2,%r15
	jmp	6f
18:
	movzwl	%dx,%r8d
	leaq	rtp_static.42(%rip),%r9
	movzwl	(%r9,%r8,2),%r8d
	movw	%r8w,6(%rbp,%r15)
	addq	$8,%r15
20:
	imull	$100,%edx,%edx
	movl	%eax,%r8d
	subl	%edx,%r8d
	movzwl	%r8w,%edx
	leaq	rtp_static.42(%rip),%r8
	movzwl	(%r8,%rdx,2),%edx
	movw	%dx,(%rbp,%r15)
	addq	$2,%r15
72:
	imull	$10000,%eax,%eax
	subl	%eax,%ecx
	movzwl	%cx,%eax
	shrl	$2,%eax
	imull	$5243,%eax,%eax
	shrl	$17,%eax
	leaq	rtp_static.42(%rip),%rdx
	movzwl	(%rdx,%rax,2),%r8d
	movw	%r8w,(%rbp,%r15)
	imull	$100,%eax,%eax
	subl	%eax,%ecx
	movzwl	%cx,%eax
	movzwl	(%rdx,%rax,2),%eax
	movw	%ax,2(%rbp,%r15)
	addq	$4,%r15
	cmpb	$1,512(%rsp)
	je	62b
	jmp	6f
49:
	movzwl	%ax,%r8d
	leaq	rtp_static.42(%rip),%r9
	movzwl	(%r9,%r8,2),%r8d
	movw	%r8w,6(%rbp,%r15)
	addq	$8,%r15
52:
	imull	$100,%eax,%eax
	subl	%eax,%edx
	movzwl	%dx,%eax
	leaq	rtp_static.42(%rip),%rdx
	movzwl	(%rdx,%rax,2),%eax
	movw	%ax,(%rbp,%r15)
	addq	$2,%r15
74:
	movabsq	$-6067343680855748867,%rdx
	movq	%rcx,%rax
	mulq	%rdx
	movq	%rdx,%r8
	shrq	$26,%r8
	movabsq	$368934881475,%rdx
	movq	%r8,%rax
	mulq	%rdx
	shrl	%edx
	imulq	$100000000,%rdx,%rax
	imulq	$100000000,%r8,%rdx
	subq	%rax,%r8
	imulq	$109951163,%r8,%r9
	shrq	$40,%r9
	imull	$5243,%r9d,%r10d
	shrl	$19,%r10d
	leaq	rtp_static.42(%rip),%rax
	movzwl	(%rax,%r10,2),%r11d
	movw	%r11w,(%rbp,%r15)
	imull	$100,%r10d,%r10d
	imull	$10000,%r9d,%r11d
	subl	%r10d,%r9d
	movzwl	%r9w,%r9d
	movzwl	(%rax,%r9,2),%r9d
	movw	%r9w,2(%rbp,%r15)
	subl	%r11d,%r8d
	imull	$5243,%r8d,%r9d
	shrl	$19,%r9d
	movzwl	(%rax,%r9,2),%r10d
	movw	%r10w,4(%rbp,%r15)
	imull	$100,%r9d,%r9d
	subl	%r9d,%r8d
	movzwl	%r8w,%r8d
	movzwl	(%rax,%r8,2),%r8d
	movw	%r8w,6(%rbp,%r15)
	subq	%rdx,%rcx
	imulq	$109951163,%rcx,%rdx
	shrq	$40,%rdx
	imull	$5243,%edx,%r8d
	shrl	$19,%r8d
	movzwl	(%rax,%r8,2),%r9d
	movw	%r9w,8(%rbp,%r15)
	imull	$100,%r8d,%r8d
	imull	$10000,%edx,%r9d
	subl	%r8d,%edx
	movzwl	%dx,%edx
	movzwl	(%rax,%rdx,2),%edx
	movw	%dx,10(%rbp,%r15)
	subl	%r9d,%ecx
	imull	$5243,%ecx,%edx
	shrl	$19,%edx
	movzwl	(%rax,%rdx,2),%r8d
	movw	%r8w,12(%rbp,%r15)
	imull	$100,%edx,%edx
	subl	%edx,%ecx
	movzwl	%cx,%ecx
	movzwl	(%rax,%rcx,2),%eax
	movw	%ax,14(%rbp,%r15)
	addq	$16,%r15
	cmpb	$1,512(%rsp)
	je	62b
	jmp	6f
15:
	leaq	72(%rsp),%rcx
	movq	%r8,%rdi
	movq	%r8,%rdx
	callq	rtp_std_alloc.vec.Vec.grow_amortized.9d744d77114e6601
	testb	%al,%al
	je	7f
	movq	80(%rsp),%rcx
	movq	88(%rsp),%r12
	movq	%rdi,%r8
	leaq	(%rcx,%r8),%rbx
	movq	72(%rsp),%rdi
	cmpq	%rbx,%rcx
	jb	17b
	jmp	16b
21:
	leaq	72(%rsp),%rcx
	movq	%r8,%rsi
	movq	%r8,%rdx
	callq	rtp_std_alloc.vec.Vec.grow_amortized.9d744d77114e6601
	testb	%al,%al
	je	7f
	movq	80(%rsp),%rcx
	movq	88(%rsp),%r12
	movq	%rsi,%r8
	movabsq	$10000000000000000,%rbx
	leaq	(%rcx,%r8),%rsi
	movq	72(%rsp),%rdi
	cmpq	%rsi,%rcx
	jb	23b
	jmp	22b
35:
	leaq	-65536(%rdx),%rcx
	negw	%r14w
	cmovnoq	%rcx,%rdx
	testw	%r9w,%r9w
	cmovsq	%rcx,%rdx
	movq	120(%rsp),%r14
	movq	%r9,%rcx
	subq	%rdx,%rcx
	jb	38b
37:
	movb	$2,%dil
	movb	$1,%r8b
	cmpq	$127,%rcx
	ja	4b
	movl	$1,%r9d
	xorl	%r10d,%r10d
	shldq	%cl,%r9,%r10
	xorl	%r12d,%r12d
	shlq	%cl,%r9
	testb	$64,%cl
	cmovneq	%r9,%r10
	cmovneq	%r12,%r9
	movq	48(%rax,%rsi),%r11
	movq	56(%rax,%rsi),%rcx
	movq	%rcx,%rbx
	andq	%r10,%rbx
	movq	%r11,%r14
	andq	%r9,%r14
	orq	%rbx,%r14
	movq	120(%rsp),%r14
	movabsq	$10000000000000000,%rbx
	jne	11b
	orq	%r10,%rcx
	orq	%r9,%r11
	movq	%r11,48(%rax,%rsi)
	movq	%rcx,56(%rax,%rsi)
	jmp	4f
65:
	leaq	rtp_static.42(%rip),%rax
	movzwl	(%rax,%rdx,2),%eax
	movw	%ax,6(%rbp,%r15)
	addq	$8,%r15
	jmp	66f
63:
	movl	%eax,%r9d
	leaq	rtp_static.42(%rip),%r10
	movzwl	(%r10,%r9,2),%r9d
	movw	%r9w,6(%rbp,%r15)
	addq	$8,%r15
	jmp	75f
46:
	movzwl	%ax,%eax
	leaq	rtp_static.42(%rip),%r9
	movzwl	(%r9,%rax,2),%eax
	movw	%ax,6(%rbp,%r15)
	addq	$8,%r15
54:
	movl	%edx,%eax
	imulq	$1374389535,%rax,%rax
	shrq	$37,%rax
	imull	$100,%eax,%eax
	subl	%eax,%edx
	leaq	rtp_static.42(%rip),%rax
	movzwl	(%rax,%rdx,2),%eax
	movw	%ax,(%rbp,%r15)
	addq	$2,%r15
	jmp	66f
26:
	movzwl	%r9w,%r10d
	leaq	rtp_static.42(%rip),%r11
	movzwl	(%r11,%r10,2),%r10d
	movw	%r10w,6(%rbp,%r15)
	addq	$8,%r15
45:
	imull	$100,%r9d,%r9d
	movl	%eax,%r10d
	subl	%r9d,%r10d
	movzwl	%r10w,%r9d
	leaq	rtp_static.42(%rip),%r10
	movzwl	(%r10,%r9,2),%r9d
	movw	%r9w,(%rbp,%r15)
	addq	$2,%r15
75:
	imull	$10000,%eax,%eax
	subl	%eax,%edx
	movzwl	%dx,%eax
	shrl	$2,%eax
	imull	$5243,%eax,%eax
	shrl	$17,%eax
	leaq	rtp_static.42(%rip),%r9
	movzwl	(%r9,%rax,2),%r10d
	movw	%r10w,(%rbp,%r15)
	imull	$100,%eax,%eax
	subl	%eax,%edx
	movzwl	%dx,%eax
	movzwl	(%r9,%rax,2),%eax
	movw	%ax,2(%rbp,%r15)
	addq	$4,%r15
66:
	movq	%rcx,%rax
	mulq	%r8
	shrq	$26,%rdx
	imulq	$100000000,%rdx,%rax
	subq	%rax,%rcx
	imulq	$109951163,%rcx,%rax
	shrq	$40,%rax
	imull	$5243,%eax,%edx
	shrl	$19,%edx
	leaq	rtp_static.42(%rip),%r8
	movzwl	(%r8,%rdx,2),%r9d
	movw	%r9w,(%rbp,%r15)
	imull	$100,%edx,%edx
	imull	$10000,%eax,%r9d
	subl	%edx,%eax
	movzwl	%ax,%eax
	movzwl	(%r8,%rax,2),%eax
	movw	%ax,2(%rbp,%r15)
	subl	%r9d,%ecx
	imull	$5243,%ecx,%eax
	shrl	$19,%eax
	movzwl	(%r8,%rax,2),%edx
	movw	%dx,4(%rbp,%r15)
	imull	$100,%eax,%eax
	subl	%eax,%ecx
	movzwl	%cx,%eax
	movzwl	(%r8,%rax,2),%eax
	movw	%ax,6(%rbp,%r15)
	addq	$8,%r15
	cmpb	$1,512(%rsp)
	je	62b
	.p2align	4
6:
	movb	$10,(%rbp,%r15)
	movabsq	$2338603410820064630,%rax
	movq	%rax,1(%rbp,%r15)
	cmpq	$99999999,%r14
	ja	6f
	cmpq	$9999,%r14
	ja	8f
	cmpq	$99,%r14
	ja	15f
	cmpq	$9,%r14
	ja	16f
	movl	%r14d,%eax
	orb	$48,%al
	movb	%al,9(%rbp,%r15)
	addq	$10,%r15
	movw	$8250,(%rbp,%r15)
	leaq	(%r15,%rbp),%rax
	addq	$2,%rax
	cmpb	$2,%dil
	jne	17f
	jmp	18f
	.p2align	4
6:
	cmpq	%rbx,%r14
	jae	6f
	movabsq	$-6067343680855748867,%rcx
	movq	%r14,%rax
	mulq	%rcx
	shrq	$26,%rdx
	movabsq	$1000000000000,%rax
	cmpq	%rax,%r14
	jae	20f
	movabsq	$10000000000,%rax
	cmpq	%rax,%r14
	jae	21f
	cmpq	$999999999,%r14
	ja	22f
	orb	$48,%dl
	movb	%dl,9(%rbp,%r15)
	addq	$10,%r15
	jmp	23f
	.p2align	4
8:
	movl	%r14d,%ecx
	movl	$3518437209,%eax
	imulq	%rcx,%rax
	shrq	$45,%rax
	cmpq	$999999,%r14
	ja	8f
	cmpq	$99999,%r14
	ja	25f
	movl	%eax,%ecx
	orb	$48,%cl
	movb	%cl,9(%rbp,%r15)
	addq	$10,%r15
	jmp	26f
	.p2align	4
6:
	movabsq	$4153837486827862103,%rcx
	movq	%r14,%rax
	mulq	%rcx
	shrq	$51,%rdx
	movabsq	$1000000000000000000,%rax
	cmpq	%rax,%r14
	jae	6f
	movabsq	$100000000000000000,%rax
	cmpq	%rax,%r14
	jae	28f
	orb	$48,%dl
	movb	%dl,9(%rbp,%r15)
	addq	$10,%r15
	jmp	30f
15:
	movl	%r14d,%eax
	shrl	$2,%eax
	movzwl	%ax,%eax
	imull	$5243,%eax,%eax
	shrl	$17,%eax
	cmpq	$999,%r14
	ja	15f
	movl	%eax,%ecx
	orb	$48,%cl
	movb	%cl,9(%rbp,%r15)
	addq	$10,%r15
	jmp	31f
20:
	movl	%edx,%r8d
	movl	$3518437209,%eax
	imulq	%r8,%rax
	shrq	$45,%rax
	movabsq	$100000000000000,%r8
	cmpq	%r8,%r14
	jae	20f
	movabsq	$10000000000000,%r8
	cmpq	%r8,%r14
	jae	32f
	movl	%eax,%r8d
	orb	$48,%r8b
	movb	%r8b,9(%rbp,%r15)
	addq	$10,%r15
	jmp	35f
8:
	movzwl	%ax,%ecx
	shrl	$2,%ecx
	imull	$5243,%ecx,%ecx
	shrl	$17,%ecx
	cmpq	$9999999,%r14
	ja	8f
	movl	%ecx,%edx
	orb	$48,%dl
	movb	%dl,9(%rbp,%r15)
	addq	$10,%r15
	jmp	37f
6:
	imull	$1311,%edx,%eax
	shrl	$17,%eax
	movabsq	$-8446744073709551616,%rcx
	cmpq	%rcx,%r14
	jae	6f
	movl	%eax,%ecx
	orb	$48,%cl
	movb	%cl,9(%rbp,%r15)
	addq	$10,%r15
	jmp	38f
16:
	leaq	rtp_static.42(%rip),%rax
	movzwl	(%rax,%r14,2),%eax
	movw	%ax,9(%rbp,%r15)
	addq	$11,%r15
	movw	$8250,(%rbp,%r15)
	leaq	(%r15,%rbp),%rax
	addq	$2,%rax
	cmpb	$2,%dil
	jne	17f
	jmp	18f
21:
	movl	%edx,%eax
	shrl	$2,%eax
	movzwl	%ax,%eax
	imull	$5243,%eax,%eax
	shrl	$17,%eax
	movabsq	$100000000000,%r8
	cmpq	%r8,%r14
	jae	16f
	orb	$48,%al
	movb	%al,9(%rbp,%r15)
	addq	$10,%r15
	jmp	21f
25:
	movl	%eax,%ecx
	leaq	rtp_static.42(%rip),%rdx
	movzwl	(%rdx,%rcx,2),%ecx
	movw	%cx,9(%rbp,%r15)
	addq	$11,%r15
	jmp	26f
28:
	leaq	rtp_static.42(%rip),%rax
	movzwl	(%rax,%rdx,2),%eax
	movw	%ax,9(%rbp,%r15)
	addq	$11,%r15
	jmp	30f
15:
	movzwl	%ax,%ecx
	leaq	rtp_static.42(%rip),%rdx
	movzwl	(%rdx,%rcx,2),%ecx
	movw	%cx,9(%rbp,%r15)
	addq	$11,%r15
31:
	imull	$100,%eax,%eax
	movl	%r14d,%ecx
	subl	%eax,%ecx
	movzwl	%cx,%eax
	leaq	rtp_static.42(%rip),%rcx
	movzwl	(%rcx,%rax,2),%eax
	movw	%ax,(%rbp,%r15)
	addq	$2,%r15
	movw	$8250,(%rbp,%r15)
	leaq	(%r15,%rbp),%rax
	addq	$2,%rax
	cmpb	$2,%dil
	jne	17f
	jmp	18f
20:
	movzwl	%ax,%r8d
	shrl	$2,%r8d
	imull	$5243,%r8d,%r8d
	shrl	$17,%r8d
	movabsq	$1000000000000000,%r9
	cmpq	%r9,%r14
	jae	15f
	movl	%r8d,%r9d
	orb	$48,%r9b
	movb	%r9b,9(%rbp,%r15)
	addq	$10,%r15
	jmp	20f
8:
	movzwl	%cx,%edx
	leaq	rtp_static.42(%rip),%r8
	movzwl	(%r8,%rdx,2),%edx
	movw	%dx,9(%rbp,%r15)
	addq	$11,%r15
37:
	imull	$100,%ecx,%ecx
	movl	%eax,%edx
	subl	%ecx,%edx
	movzwl	%dx,%ecx
	leaq	rtp_static.42(%rip),%rdx
	movzwl	(%rdx,%rcx,2),%ecx
	movw	%cx,(%rbp,%r15)
	addq	$2,%r15
26:
	imull	$10000,%eax,%eax
	movl	%r14d,%ecx
	subl	%eax,%ecx
	movzwl	%cx,%eax
	shrl	$2,%eax
	imull	$5243,%eax,%eax
	shrl	$17,%eax
	leaq	rtp_static.42(%rip),%rdx
	movzwl	(%rdx,%rax,2),%r8d
	movw	%r8w,(%rbp,%r15)
	imull	$100,%eax,%eax
	subl	%eax,%ecx
	movzwl	%cx,%eax
	movzwl	(%rdx,%rax,2),%eax
	movw	%ax,2(%rbp,%r15)
	addq	$4,%r15
	movw	$8250,(%rbp,%r15)
	leaq	(%r15,%rbp),%rax
	addq	$2,%rax
	cmpb	$2,%dil
	je	18f
17:
	movzbl	%dil,%ecx
	cmpl	$1,%ecx
	jne	8f
	movw	$8302,4(%rax)
	movl	$1701536116,(%rax)
	cmpq	$99999999,%r12
	ja	25f
	cmpq	$9999,%r12
	movq	272(%rsp),%rsi
	movq	264(%rsp),%rdi
	ja	26f
	cmpq	$99,%r12
	ja	28f
	cmpq	$9,%r12
	ja	31f
	orb	$48,%r12b
	movb	%r12b,8(%rbp,%r15)
	addq	$9,%r15
	movq	%r15,%r8
	jmp	37f
	.p2align	4
8:
	movq	272(%rsp),%rsi
	movq	264(%rsp),%rdi
	movabsq	$7089057657934474869,%rcx
	movq	%rcx,(%rax)
	movw	$25964,8(%rax)
	addq	$12,%r15
	movq	%r15,%r8
	jmp	37f
25:
	cmpq	%rbx,%r12
	movq	272(%rsp),%rsi
	movq	264(%rsp),%rdi
	jae	8f
	movabsq	$-6067343680855748867,%rcx
	movq	%r12,%rax
	mulq	%rcx
	shrq	$26,%rdx
	movabsq	$1000000000000,%rax
	cmpq	%rax,%r12
	jae	25f
	movabsq	$10000000000,%rax
	cmpq	%rax,%r12
	jae	39f
	cmpq	$999999999,%r12
	ja	40f
	orb	$48,%dl
	movb	%dl,8(%rbp,%r15)
	addq	$9,%r15
	movq	%r15,%r8
	jmp	43f
26:
	movl	%r12d,%ecx
	movl	$3518437209,%eax
	imulq	%rcx,%rax
	shrq	$45,%rax
	cmpq	$999999,%r12
	ja	26f
	cmpq	$99999,%r12
	ja	44f
	movl	%eax,%ecx
	orb	$48,%cl
	movb	%cl,8(%rbp,%r15)
	addq	$9,%r15
	movq	%r15,%r8
	jmp	45f
8:
	movabsq	$4153837486827862103,%rcx
	movq	%r12,%rax
	mulq	%rcx
	shrq	$51,%rdx
	movabsq	$1000000000000000000,%rax
	cmpq	%rax,%r12
	jae	8f
	movabsq	$100000000000000000,%rax
	cmpq	%rax,%r12
	jae	46f
	orb	$48,%dl
	movb	%dl,8(%rbp,%r15)
	addq	$9,%r15
	movq	%r15,%r8
	jmp	47f
6:
	movzwl	%ax,%ecx
	leaq	rtp_static.42(%rip),%r8
	movzwl	(%r8,%rcx,2),%ecx
	movw	%cx,9(%rbp,%r15)
	addq	$11,%r15
38:
	imull	$100,%eax,%eax
	subl	%eax,%edx
	movzwl	%dx,%eax
	leaq	rtp_static.42(%rip),%rcx
	movzwl	(%rcx,%rax,2),%eax
	movw	%ax,(%rbp,%r15)
	addq	$2,%r15
30:
	movabsq	$-6067343680855748867,%rcx
	movq	%r14,%rax
	mulq	%rcx
	movq	%rdx,%rcx
	shrq	$26,%rcx
	movabsq	$368934881475,%rdx
	movq	%rcx,%rax
	mulq	%rdx
	shrl	%edx
	imulq	$100000000,%rdx,%rax
	imulq	$100000000,%rcx,%rdx
	subq	%rax,%rcx
	imulq	$109951163,%rcx,%r8
	shrq	$40,%r8
	imull	$5243,%r8d,%r9d
	shrl	$19,%r9d
	leaq	rtp_static.42(%rip),%rax
	movzwl	(%rax,%r9,2),%r10d
	movw	%r10w,(%rbp,%r15)
	imull	$100,%r9d,%r9d
	imull	$10000,%r8d,%r10d
	subl	%r9d,%r8d
	movzwl	%r8w,%r8d
	movzwl	(%rax,%r8,2),%r8d
	movw	%r8w,2(%rbp,%r15)
	subl	%r10d,%ecx
	imull	$5243,%ecx,%r8d
	shrl	$19,%r8d
	movzwl	(%rax,%r8,2),%r9d
	movw	%r9w,4(%rbp,%r15)
	imull	$100,%r8d,%r8d
	subl	%r8d,%ecx
	movzwl	%cx,%ecx
	movzwl	(%rax,%rcx,2),%ecx
	movw	%cx,6(%rbp,%r15)
	movq	%r14,%rcx
	subq	%rdx,%rcx
	imulq	$109951163,%rcx,%rdx
	shrq	$40,%rdx
	imull	$5243,%edx,%r8d
	shrl	$19,%r8d
	movzwl	(%rax,%r8,2),%r9d
	movw	%r9w,8(%rbp,%r15)
	imull	$100,%r8d,%r8d
	imull	$10000,%edx,%r9d
	subl	%r8d,%edx
	movzwl	%dx,%edx
	movzwl	(%rax,%rdx,2),%edx
	movw	%dx,10(%rbp,%r15)
	subl	%r9d,%ecx
	imull	$5243,%ecx,%edx
	shrl	$19,%edx
	movzwl	(%rax,%rdx,2),%r8d
	movw	%r8w,12(%rbp,%r15)
	imull	$100,%edx,%edx
	subl	%edx,%ecx
	movzwl	%cx,%ecx
	movzwl	(%rax,%rcx,2),%eax
	movw	%ax,14(%rbp,%r15)
	addq	$16,%r15
	movw	$8250,(%rbp,%r15)
	leaq	(%r15,%rbp),%rax
	addq	$2,%rax
	cmpb	$2,%dil
	jne	17b
	jmp	18f
28:
	movl	%r12d,%eax
	shrl	$2,%eax
	movzwl	%ax,%eax
	imull	$5243,%eax,%eax
	shrl	$17,%eax
	cmpq	$999,%r12
	ja	6f
	movl	%eax,%ecx
	orb	$48,%cl
	movb	%cl,8(%rbp,%r15)
	addq	$9,%r15
	jmp	28f
25:
	movl	%edx,%r8d
	movl	$3518437209,%eax
	imulq	%r8,%rax
	shrq	$45,%rax
	movabsq	$100000000000000,%r8
	cmpq	%r8,%r12
	jae	25f
	movabsq	$10000000000000,%r8
	cmpq	%r8,%r12
	jae	30f
	movl	%eax,%r8d
	orb	$48,%r8b
	movb	%r8b,8(%rbp,%r15)
	addq	$9,%r15
	movq	%r15,%r8
	jmp	38f
26:
	movzwl	%ax,%ecx
	shrl	$2,%ecx
	imull	$5243,%ecx,%ecx
	shrl	$17,%ecx
	cmpq	$9999999,%r12
	ja	26f
	movl	%ecx,%edx
	orb	$48,%dl
	movb	%dl,8(%rbp,%r15)
	addq	$9,%r15
	jmp	48f
8:
	imull	$1311,%edx,%eax
	shrl	$17,%eax
	movabsq	$-8446744073709551616,%rcx
	cmpq	%rcx,%r12
	jae	8f
	movl	%eax,%ecx
	orb	$48,%cl
	movb	%cl,8(%rbp,%r15)
	addq	$9,%r15
	jmp	49f
22:
	leaq	rtp_static.42(%rip),%rax
	movzwl	(%rax,%rdx,2),%eax
	movw	%ax,9(%rbp,%r15)
	addq	$11,%r15
	jmp	23f
32:
	movl	%eax,%r8d
	leaq	rtp_static.42(%rip),%r9
	movzwl	(%r9,%r8,2),%r8d
	movw	%r8w,9(%rbp,%r15)
	addq	$11,%r15
	jmp	35f
16:
	movzwl	%ax,%eax
	leaq	rtp_static.42(%rip),%r8
	movzwl	(%r8,%rax,2),%eax
	movw	%ax,9(%rbp,%r15)
	addq	$11,%r15
21:
	movl	%edx,%eax
	imulq	$1374389535,%rax,%rax
	shrq	$37,%rax
	imull	$100,%eax,%eax
	subl	%eax,%edx
	leaq	rtp_static.42(%rip),%rax
	movzwl	(%rax,%rdx,2),%eax
	movw	%ax,(%rbp,%r15)
	addq	$2,%r15
	jmp	23f
15:
	movzwl	%r8w,%r9d
	leaq	rtp_static.42(%rip),%r10
	movzwl	(%r10,%r9,2),%r9d
	movw	%r9w,9(%rbp,%r15)
	addq	$11,%r15
20:
	imull	$100,%r8d,%r8d
	movl	%eax,%r9d
	subl	%r8d,%r9d
	movzwl	%r9w,%r8d
	leaq	rtp_static.42(%rip),%r9
	movzwl	(%r9,%r8,2),%r8d
	movw	%r8w,(%rbp,%r15)
	addq	$2,%r15
35:
	imull	$10000,%eax,%eax
	subl	%eax,%edx
	movzwl	%dx,%eax
	shrl	$2,%eax
	imull	$5243,%eax,%eax
	shrl	$17,%eax
	leaq	rtp_static.42(%rip),%r8
	movzwl	(%r8,%rax,2),%r9d
	movw	%r9w,(%rbp,%r15)
	imull	$100,%eax,%eax
	subl	%eax,%edx
	movzwl	%dx,%eax
	movzwl	(%r8,%rax,2),%eax
	movw	%ax,2(%rbp,%r15)
	addq	$4,%r15
23:
	movq	%r14,%rax
	mulq	%rcx
	shrq	$26,%rdx
	imulq	$100000000,%rdx,%rcx
	movq	%r14,%rax
	subq	%rcx,%rax
	imulq	$109951163,%rax,%rcx
	shrq	$40,%rcx
	imull	$5243,%ecx,%edx
	shrl	$19,%edx
	leaq	rtp_static.42(%rip),%r8
	movzwl	(%r8,%rdx,2),%r9d
	movw	%r9w,(%rbp,%r15)
	imull	$100,%edx,%edx
	imull	$10000,%ecx,%r9d
	subl	%edx,%ecx
	movzwl	%cx,%ecx
	movzwl	(%r8,%rcx,2),%ecx
	movw	%cx,2(%rbp,%r15)
	subl	%r9d,%eax
	imull	$5243,%eax,%ecx
	shrl	$19,%ecx
	movzwl	(%r8,%rcx,2),%edx
	movw	%dx,4(%rbp,%r15)
	imull	$100,%ecx,%ecx
	subl	%ecx,%eax
	movzwl	%ax,%eax
	movzwl	(%r8,%rax,2),%eax
	movw	%ax,6(%rbp,%r15)
	addq	$8,%r15
	movw	$8250,(%rbp,%r15)
	leaq	(%r15,%rbp),%rax
	addq	$2,%rax
	cmpb	$2,%dil
	jne	17b
18:
	movl	$1684370293,3(%rax)
	movl	$1969644914,(%rax)
	addq	$9,%r15
	movq	%r15,%r8
	movq	272(%rsp),%rsi
	movq	264(%rsp),%rdi
37:
	movb	$10,(%rbp,%r8)
	leaq	1(%r8),%rdx
	cmpq	$8190,%r8
	jbe	13b
	movq	%rbp,%rcx
	callq	rtp_listing.printing.write_text.df9e9f1468b30f79
	testb	%al,%al
	je	12b
	jmp	12f
31:
	leaq	rtp_static.42(%rip),%rax
	movzwl	(%rax,%r12,2),%eax
	movw	%ax,8(%rbp,%r15)
	addq	$10,%r15
	movq	%r15,%r8
	jmp	37b
39:
	movl	%edx,%eax
	shrl	$2,%eax
	movzwl	%ax,%eax
	imull	$5243,%eax,%eax
	shrl	$17,%eax
	movabsq	$100000000000,%r8
	cmpq	%r8,%r12
	jae	13f
	orb	$48,%al
	movb	%al,8(%rbp,%r15)
	addq	$9,%r15
	jmp	15f
44:
	movl	%eax,%ecx
	leaq	rtp_static.42(%rip),%rdx
	movzwl	(%rdx,%rcx,2),%ecx
	movw	%cx,8(%rbp,%r15)
	addq	$10,%r15
	movq	%r15,%r8
	jmp	45f
46:
	leaq	rtp_static.42(%rip),%rax
	movzwl	(%rax,%rdx,2),%eax
	movw	%ax,8(%rbp,%r15)
	addq	$10,%r15
	movq	%r15,%r8
	jmp	47f
6:
	movzwl	%ax,%ecx
	leaq	rtp_static.42(%rip),%rdx
	movzwl	(%rdx,%rcx,2),%ecx
	movw	%cx,8(%rbp,%r15)
	addq	$10,%r15
28:
	movq	%r15,%r8
	imull	$100,%eax,%eax
	subl	%eax,%r12d
	movzwl	%r12w,%eax
	leaq	rtp_static.42(%rip),%rcx
	movzwl	(%rcx,%rax,2),%eax
	movw	%ax,(%rbp,%r15)
	addq	$2,%r8
	jmp	37b
25:
	movzwl	%ax,%r8d
	shrl	$2,%r8d
	imull	$5243,%r8d,%r9d
	shrl	$17,%r9d
	movabsq	$1000000000000000,%r8
	cmpq	%r8,%r12
	jae	6f
	movl	%r9d,%r8d
	orb	$48,%r8b
	movb	%r8b,8(%rbp,%r15)
	addq	$9,%r15
	jmp	16f
26:
	movzwl	%cx,%edx
	leaq	rtp_static.42(%rip),%r8
	movzwl	(%r8,%rdx,2),%edx
	movw	%dx,8(%rbp,%r15)
	addq	$10,%r15
48:
	movq	%r15,%r8
	imull	$100,%ecx,%ecx
	movl	%eax,%edx
	subl	%ecx,%edx
	movzwl	%dx,%ecx
	leaq	rtp_static.42(%rip),%rdx
	movzwl	(%rdx,%rcx,2),%ecx
	movw	%cx,(%rbp,%r15)
	addq	$2,%r8
45:
	imull	$10000,%eax,%eax
	subl	%eax,%r12d
	movzwl	%r12w,%eax
	shrl	$2,%eax
	imull	$5243,%eax,%eax
	shrl	$17,%eax
	leaq	rtp_static.42(%rip),%rcx
	movzwl	(%rcx,%rax,2),%edx
	movw	%dx,(%rbp,%r8)
	imull	$100,%eax,%eax
	subl	%eax,%r12d
	movzwl	%r12w,%eax
	movzwl	(%rcx,%rax,2),%eax
	movw	%ax,2(%rbp,%r8)
	addq	$4,%r8
	jmp	37b
8:
	movzwl	%ax,%ecx
	leaq	rtp_static.42(%rip),%r8
	movzwl	(%r8,%rcx,2),%ecx
	movw	%cx,8(%rbp,%r15)
	addq	$10,%r15
49:
	movq	%r15,%r8
	imull	$100,%eax,%eax
	subl	%eax,%edx
	movzwl	%dx,%eax
	leaq	rtp_static.42(%rip),%rcx
	movzwl	(%rcx,%rax,2),%eax
	movw	%ax,(%rbp,%r15)
	addq	$2,%r8
47:
	movabsq	$-6067343680855748867,%rcx
	movq	%r12,%rax
	mulq	%rcx
	movq	%rdx,%rcx
	shrq	$26,%rcx
	movabsq	$368934881475,%rdx
	movq	%rcx,%rax
	mulq	%rdx
	shrl	%edx
	imulq	$100000000,%rdx,%rax
	imulq	$100000000,%rcx,%rdx
	subq	%rax,%rcx
	imulq	$109951163,%rcx,%r9
	shrq	$40,%r9
	imull	$5243,%r9d,%r10d
	shrl	$19,%r10d
	leaq	rtp_static.42(%rip),%rax
	movzwl	(%rax,%r10,2),%r11d
	movw	%r11w,(%rbp,%r8)
	imull	$100,%r10d,%r10d
	imull	$10000,%r9d,%r11d
	subl	%r10d,%r9d
	movzwl	%r9w,%r9d
	movzwl	(%rax,%r9,2),%r9d
	movw	%r9w,2(%rbp,%r8)
	subl	%r11d,%ecx
	imull	$5243,%ecx,%r9d
	shrl	$19,%r9d
	movzwl	(%rax,%r9,2),%r10d
	movw	%r10w,4(%rbp,%r8)
	imull	$100,%r9d,%r9d
	subl	%r9d,%ecx
	movzwl	%cx,%ecx
	movzwl	(%rax,%rcx,2),%ecx
	movw	%cx,6(%rbp,%r8)
	subq	%rdx,%r12
	imulq	$109951163,%r12,%rcx
	shrq	$40,%rcx
	imull	$5243,%ecx,%edx
	shrl	$19,%edx
	movzwl	(%rax,%rdx,2),%r9d
	movw	%r9w,8(%rbp,%r8)
	imull	$100,%edx,%edx
	imull	$10000,%ecx,%r9d
	subl	%edx,%ecx
	movzwl	%cx,%ecx
	movzwl	(%rax,%rcx,2),%ecx
	movw	%cx,10(%rbp,%r8)
	subl	%r9d,%r12d
	imull	$5243,%r12d,%ecx
	shrl	$19,%ecx
	movzwl	(%rax,%rcx,2),%edx
	movw	%dx,12(%rbp,%r8)
	imull	$100,%ecx,%ecx
	subl	%ecx,%r12d
	movzwl	%r12w,%ecx
	movzwl	(%rax,%rcx,2),%eax
	movw	%ax,14(%rbp,%r8)
	addq	$16,%r8
	jmp	37b
40:
	leaq	rtp_static.42(%rip),%rax
	movzwl	(%rax,%rdx,2),%eax
	movw	%ax,8(%rbp,%r15)
	addq	$10,%r15
	movq	%r15,%r8
	jmp	43f
30:
	movl	%eax,%r8d
	leaq	rtp_static.42(%rip),%r9
	movzwl	(%r9,%r8,2),%r8d
	movw	%r8w,8(%rbp,%r15)
	addq	$10,%r15
	movq	%r15,%r8
	jmp	38f
13:
	movzwl	%ax,%eax
	leaq	rtp_static.42(%rip),%r8
	movzwl	(%r8,%rax,2),%eax
	movw	%ax,8(%rbp,%r15)
	addq	$10,%r15
15:
	movq	%r15,%r8
	movl	%edx,%eax
	imulq	$1374389535,%rax,%rax
	shrq	$37,%rax
	imull	$100,%eax,%eax
	subl	%eax,%edx
	leaq	rtp_static.42(%rip),%rax
	movzwl	(%rax,%rdx,2),%eax
	movw	%ax,(%rbp,%r15)
	addq	$2,%r8
	jmp	43f
6:
	movzwl	%r9w,%r8d
	leaq	rtp_static.42(%rip),%r10
	movzwl	(%r10,%r8,2),%r8d
	movw	%r8w,8(%rbp,%r15)
	addq	$10,%r15
16:
	movq	%r15,%r8
	imull	$100,%r9d,%r9d
	movl	%eax,%r10d
	subl	%r9d,%r10d
	movzwl	%r10w,%r9d
	leaq	rtp_static.42(%rip),%r10
	movzwl	(%r10,%r9,2),%r9d
	movw	%r9w,(%rbp,%r15)
	addq	$2,%r8
38:
	imull	$10000,%eax,%eax
	subl	%eax,%edx
	movzwl	%dx,%eax
	shrl	$2,%eax
	imull	$5243,%eax,%eax
	shrl	$17,%eax
	leaq	rtp_static.42(%rip),%r9
	movzwl	(%r9,%rax,2),%r10d
	movw	%r10w,(%rbp,%r8)
	imull	$100,%eax,%eax
	subl	%eax,%edx
	movzwl	%dx,%eax
	movzwl	(%r9,%rax,2),%eax
	movw	%ax,2(%rbp,%r8)
	addq	$4,%r8
43:
	movq	%r12,%rax
	mulq	%rcx
	shrq	$26,%rdx
	imulq	$100000000,%rdx,%rax
	subq	%rax,%r12
	imulq	$109951163,%r12,%rax
	shrq	$40,%rax
	imull	$5243,%eax,%ecx
	shrl	$19,%ecx
	leaq	rtp_static.42(%rip),%rdx
	movzwl	(%rdx,%rcx,2),%r9d
	movw	%r9w,(%rbp,%r8)
	imull	$100,%ecx,%ecx
	imull	$10000,%eax,%r9d
	subl	%ecx,%eax
	movzwl	%ax,%eax
	movzwl	(%rdx,%rax,2),%eax
	movw	%ax,2(%rbp,%r8)
	subl	%r9d,%r12d
	imull	$5243,%r12d,%eax
	shrl	$19,%eax
	movzwl	(%rdx,%rax,2),%ecx
	movw	%cx,4(%rbp,%r8)
	imull	$100,%eax,%eax
	subl	%eax,%r12d
	movzwl	%r12w,%eax
	movzwl	(%rdx,%rax,2),%eax
	movw	%ax,6(%rbp,%r8)
	addq	$8,%r8
	jmp	37b
19:
	leaq	72(%rsp),%rcx
	movq	%r8,%rbx
	movq	%r8,%rdx
	callq	rtp_std_alloc.vec.Vec.grow_amortized.9d744d77114e6601
	testb	%al,%al
	je	7f
	movq	72(%rsp),%rdi
	movq	80(%rsp),%rsi
	movq	88(%rsp),%r15
	movq	%rbx,%r8
	leaq	(%rsi,%r8),%rbx
	cmpq	%rbx,%rsi
	jb	27b
	jmp	24b
41:
	cmpq	$127,%rcx
	ja	6f
	shldq	%cl,%r10,%r8
	shlq	%cl,%r10
	xorl	%r9d,%r9d
	testb	$64,%cl
	cmovneq	%r10,%r8
	cmoveq	%r10,%r9
	orq	$1,%r9
	jmp	42f
2:
	movq	%r8,%rcx
	jmp	36b
3:
	addq	$80,%rcx
	movq	%rcx,%rdx
	jmp	1b
6:
	movl	$1,%r9d
	xorl	%r8d,%r8d
42:
	movq	%r9,48(%rax,%rsi)
	movq	%r8,56(%rax,%rsi)
	movq	%rdx,32(%rax,%rsi)
4:
	movb	$1,%r8b
	movb	$1,%dil
	movq	%rdx,%r12
	jmp	11b
5:
	leaq	152(%rsp),%rcx
	callq	rtp_std_alloc.vec.Vec.grow_amortized.fc13275a563fcb41
	testb	%al,%al
	je	7f
	movq	160(%rsp),%r11
	cmpb	$1,176(%rsp)
	je	33b
29:
	movl	$184,%edi
	movl	$8,%esi
	movq	%r11,%rbx
	callq	rattle_alloc
	testb	$1,%al
	je	7f
	movq	%rbx,%r11
	movl	$0,(%rdx)
	movzbl	176(%rsp),%eax
	movq	$1,176(%rsp)
	movq	%rdx,184(%rsp)
	cmpb	$1,%al
	je	1f
34:
	shlq	$16,%r15
	movzwl	%r14w,%eax
	orq	%r15,%rax
	movq	%rax,296(%rsp)
	movzwl	2(%rdx),%eax
	movl	$15,%r15d
	subq	%rax,%r15
	movq	%rax,64(%rsp)
	movl	%eax,%r10d
	negb	%r10b
	xorl	%r9d,%r9d
	movq	%rdx,%r8
	xorl	%esi,%esi
	movq	%rdx,96(%rsp)
	movq	%rdx,%rdi
	movq	%r15,104(%rsp)
	xorl	%r14d,%r14d
	movabsq	$10000000000000000,%r13
	movq	%r8,%rcx
	movzwl	(%r8),%r8d
	testq	%r8,%r8
	je	2f
3:
	movl	%r10d,%edx
	movq	%r9,%rbx
	xorl	%eax,%eax
	.p2align	4
4:
	movl	4(%rcx,%rax,4),%r9d
	cmpl	%r9d,%r12d
	setae	%r10b
	addb	%r10b,%r10b
	cmpl	%r9d,%r12d
	movzbl	%r10b,%r10d
	movl	$1,%r9d
	cmovnel	%r10d,%r9d
	cmpb	$2,%r9b
	jne	5f
	incq	%rax
	cmpq	%rax,%r8
	jne	4b
	movq	%r8,%rax
	movq	%rbx,%r9
	movl	%edx,%r10d
	jmp	4f
	.p2align	4
5:
	movzbl	%r9b,%r8d
	testl	%r8d,%r8d
	jne	5f
	movl	%edx,%r10d
	movq	%rbx,%r9
	jmp	4f
	.p2align	4
2:
	xorl	%eax,%eax
4:
	shlq	$4,%r14
	addq	%rax,%r14
	incq	%r15
	cmpw	$0,2(%rcx)
	je	4f
	movq	184(%rcx,%rax,8),%r8
	incq	%r9
	incb	%r10b
	movq	%rax,%rsi
	movq	%rcx,%rdi
	movq	%r8,%rcx
	movzwl	(%r8),%r8d
	testq	%r8,%r8
	jne	3b
	jmp	2b
5:
	andl	$15,%eax
	movq	64(%rsp),%rcx
	addq	%r15,%rcx
	cmpq	$15,%rcx
	leaq	184(%rdi,%rsi,8),%rcx
	leaq	184(%rsp),%rdx
	cmoveq	%rdx,%rcx
	movq	(%rcx),%rcx
	movzwl	(%rcx),%edx
	cmpq	%rdx,%rax
	jae	1f
	movq	%r13,%rbx
	movq	%r11,64(%rcx,%rax,8)
2:
	movq	120(%rsp),%r14
	movq	40(%rsp),%r15
	movq	152(%rsp),%rax
	movq	160(%rsp),%rcx
	movq	%rcx,%rdx
	shlq	$6,%rdx
	movl	%r12d,(%rax,%rdx)
	movq	$1,16(%rax,%rdx)
	movq	$0,24(%rax,%rdx)
	movq	296(%rsp),%r12
	movq	%r12,32(%rax,%rdx)
	movq	$0,40(%rax,%rdx)
	movq	$0,56(%rax,%rdx)
	movq	$1,48(%rax,%rdx)
	incq	%rcx
	movq	%rcx,160(%rsp)
	movb	$1,%r8b
	movb	$1,%dil
	jmp	11b
4:
	movl	%r10d,%ebx
	movabsq	$9223372036854775806,%rax
	cmpq	%rax,192(%rsp)
	movq	96(%rsp),%r10
	ja	7f
	movq	%r15,%r8
	movq	104(%rsp),%rdx
	subq	%rdx,%r8
	cmpq	$1,%r8
	leaq	184(%rdi,%rsi,8),%rax
	leaq	184(%rsp),%rcx
	cmoveq	%rcx,%rax
	movq	(%rax),%rax
	cmpw	$15,(%rax)
	jae	3f
	movq	%r8,304(%rsp)
	shlq	$3,%rsi
	movabsq	$10000000000000000,%rbx
	jmp	4f
3:
	cmpw	$15,(%r10)
	movq	%rdx,%rax
	jb	3f
	movq	%r9,256(%rsp)
	cmpw	$10,64(%rsp)
	ja	7f
	movq	%rdi,96(%rsp)
	movl	$312,%edi
	movq	%rsi,248(%rsp)
	movl	$8,%esi
	movq	%r11,%r13
	callq	rattle_alloc
	movq	248(%rsp),%rsi
	movq	96(%rsp),%rdi
	testb	$1,%al
	je	7f
	movq	%r13,%r11
	movq	%rdx,%r10
	movq	64(%rsp),%rcx
	leal	1(%rcx),%eax
	movw	%ax,2(%rdx)
	movq	184(%rsp),%rax
	movq	%rax,184(%rdx)
	movw	$0,(%rdx)
	movq	%rdx,184(%rsp)
	movl	$14,%eax
	subq	%rcx,%rax
	movq	104(%rsp),%rdx
	movq	256(%rsp),%r9
3:
	pxor	%xmm0,%xmm0
	movdqa	%xmm0,128(%rsp)
	movq	%r15,%rcx
	subq	%rax,%rcx
	movq	%rcx,304(%rsp)
	jbe	3f
	movl	%r15d,%ecx
	subl	%eax,%ecx
	testb	$3,%cl
	je	5f
	subb	%al,%bl
	movzbl	%bl,%ecx
	andl	$3,%ecx
6:
	movl	%r14d,%r8d
	andb	$15,%r8b
	movb	%r8b,127(%rsp,%r15)
	decq	%r15
	shrq	$4,%r14
	decq	%rcx
	jne	6b
5:
	addq	%rdx,%r9
	subq	%rax,%r9
	cmpq	$3,%r9
	jb	3f
5:
	movl	%r14d,%ecx
	andb	$15,%cl
	movb	%cl,127(%rsp,%r15)
	movl	%r14d,%ecx
	shrb	$4,%cl
	movb	%cl,126(%rsp,%r15)
	movl	%r14d,%ecx
	shrl	$8,%ecx
	andb	$15,%cl
	movb	%cl,125(%rsp,%r15)
	movl	%r14d,%ecx
	shrl	$12,%ecx
	andb	$15,%cl
	movb	%cl,124(%rsp,%r15)
	addq	$-4,%r15
	shrq	$16,%r14
	cmpq	%r15,%rax
	jb	5b
3:
	movdqa	128(%rsp),%xmm0
	movdqa	%xmm0,704(%rsp)
	movl	$16,%r15d
	subq	%rax,%r15
	cmpq	$2,%r15
	jb	3f
	leaq	(%rsp,%rax),%rcx
	addq	$704,%rcx
	leaq	184(%rsp),%r8
	movq	%r11,312(%rsp)
	jmp	5f
6:
	incl	%edx
	movb	%dl,(%rcx)
	addb	$-8,%al
	movb	%al,1(%rcx)
8:
	movzbl	%dl,%esi
	leaq	(%rdi,%rsi,8),%r8
	addq	$184,%r8
	incq	%rcx
	cmpq	$2,%r15
	leaq	-1(%r15),%r15
	jbe	11f
5:
	movzbl	(%rcx),%edx
	movq	(%r8),%rdi
	leal	(,%rdx,8),%r9d
	movq	184(%rdi,%r9),%rax
	cmpw	$15,(%rax)
	jb	8b
	movq	%r9,256(%rsp)
	movq	%r8,104(%rsp)
	movq	%rdx,64(%rsp)
	movq	%rcx,248(%rsp)
	movzwl	2(%rdi),%r14d
	decq	%r14
	je	5f
	movl	$312,%edi
	jmp	13f
5:
	movl	$184,%edi
13:
	movl	$8,%esi
	callq	rattle_alloc
	testb	$1,%al
	je	5f
	movq	%rdx,%rsi
	movw	%r14w,2(%rdx)
	leaq	4(%rdx),%rcx
	movq	104(%rsp),%rax
	movq	(%rax),%rax
	movzwl	(%rax),%edx
	xorl	%r10d,%r10d
	cmpw	$0,2(%rax)
	movq	%rdx,280(%rsp)
	leaq	1(%rdx),%r9
	cmovneq	%r9,%r10
	movq	%rax,96(%rsp)
	movq	256(%rsp),%rdx
	movq	184(%rax,%rdx),%rdi
	movzwl	2(%rdi),%r11d
	movzwl	(%rdi),%r14d
	leaq	-8(%r14),%r13
	leaq	36(%rdi),%rdx
	leaq	-32(,%r14,4),%r8
	movq	%rcx,%rax
	subq	%rdx,%rax
	cmpq	%r8,%rax
	movq	%r9,328(%rsp)
	movq	%r10,320(%rsp)
	movw	%r11w,118(%rsp)
	jae	13f
	testq	%r13,%r13
	je	15f
	cmpl	$8,%r13d
	jb	16f
	movq	%rsi,%rax
	subq	%rdi,%rax
	addq	$-32,%rax
	cmpq	$32,%rax
	jae	17f
16:
	xorl	%eax,%eax
	leaq	64(%rsi),%r11
16:
	movq	%r14,%r9
	movq	%rax,%r8
	andq	$3,%r9
	je	18f
	movq	%rax,%r8
	.p2align	4
19:
	movl	(%rdx,%r8,4),%r10d
	movl	%r10d,(%rcx,%r8,4)
	incq	%r8
	decq	%r9
	jne	19b
18:
	negq	%rax
	addq	%r14,%rax
	addq	$-9,%rax
	cmpl	$3,%eax
	jb	18f
	.p2align	4
19:
	movl	36(%rdi,%r8,4),%eax
	movl	%eax,4(%rsi,%r8,4)
	movl	40(%rdi,%r8,4),%eax
	movl	%eax,8(%rsi,%r8,4)
	movl	44(%rdi,%r8,4),%eax
	movl	%eax,12(%rsi,%r8,4)
	movl	48(%rdi,%r8,4),%eax
	movl	%eax,16(%rsi,%r8,4)
	addq	$4,%r8
	cmpq	%r8,%r13
	jne	19b
	jmp	18f
13:
	callq	memmove
	leaq	64(%rsi),%r11
18:
	leaq	128(%rdi),%rdx
	leaq	(,%r13,8),%r8
	movq	%r11,%rax
	subq	%rdx,%rax
	cmpq	%r8,%rax
	jae	13f
	testq	%r13,%r13
	movzwl	118(%rsp),%r10d
	je	19f
	cmpl	$4,%r13d
	jb	20f
	movq	%rsi,%rax
	subq	%rdi,%rax
	addq	$-64,%rax
	cmpq	$32,%rax
	jae	21f
20:
	xorl	%eax,%eax
20:
	movq	%r14,%r8
	movq	%rax,%rcx
	andq	$3,%r8
	je	22f
	movq	%rax,%rcx
	.p2align	4
23:
	movq	(%rdx,%rcx,8),%r9
	movq	%r9,(%r11,%rcx,8)
	incq	%rcx
	decq	%r8
	jne	23b
22:
	negq	%rax
	addq	%r14,%rax
	addq	$-9,%rax
	cmpl	$3,%eax
	jb	19f
22:
	movq	128(%rdi,%rcx,8),%rax
	movq	%rax,64(%rsi,%rcx,8)
	movq	136(%rdi,%rcx,8),%rax
	movq	%rax,72(%rsi,%rcx,8)
	movq	144(%rdi,%rcx,8),%rax
	movq	%rax,80(%rsi,%rcx,8)
	movq	152(%rdi,%rcx,8),%rax
	movq	%rax,88(%rsi,%rcx,8)
	addq	$4,%rcx
	cmpq	%rcx,%r13
	jne	22b
	jmp	19f
15:
	leaq	128(%rdi),%rdx
	xorl	%r8d,%r8d
	leaq	64(%rsi),%r11
13:
	movq	%r11,%rcx
	callq	memmove
	movzwl	118(%rsp),%r10d
19:
	movq	%r13,336(%rsp)
	movq	%r15,344(%rsp)
	movl	32(%rdi),%r13d
	movq	120(%rdi),%r11
	testw	%r10w,%r10w
	je	13f
	leaq	184(%rsi),%rcx
	leaq	248(%rdi),%rdx
	leaq	-56(,%r14,8),%r8
	movq	%rcx,%rax
	subq	%rdx,%rax
	cmpq	%r8,%rax
	jae	15f
	movq	%r14,%rax
	addq	$-7,%rax
	je	13f
	cmpl	$4,%eax
	jb	22f
	movq	%rsi,%r8
	subq	%rdi,%r8
	addq	$-64,%r8
	cmpq	$32,%r8
	jae	23f
22:
	xorl	%r8d,%r8d
22:
	movq	%r11,%r15
	movl	%r14d,%r10d
	notl	%r10d
	movq	%r8,%r9
	testb	$3,%r10b
	je	24f
	leal	1(%r14),%r10d
	andl	$3,%r10d
	movq	%r8,%r9
25:
	movq	(%rdx,%r9,8),%r11
	movq	%r11,(%rcx,%r9,8)
	incq	%r9
	decq	%r10
	jne	25b
24:
	negq	%r8
	leaq	(%r14,%r8),%rcx
	addq	$-8,%rcx
	cmpl	$3,%ecx
	movq	%r15,%r11
	jb	13f
24:
	movq	248(%rdi,%r9,8),%rcx
	movq	%rcx,184(%rsi,%r9,8)
	movq	256(%rdi,%r9,8),%rcx
	movq	%rcx,192(%rsi,%r9,8)
	movq	264(%rdi,%r9,8),%rcx
	movq	%rcx,200(%rsi,%r9,8)
	movq	272(%rdi,%r9,8),%rcx
	movq	%rcx,208(%rsi,%r9,8)
	addq	$4,%r9
	cmpq	%r9,%rax
	jne	24b
	jmp	13f
15:
	movq	%r11,%rbx
	callq	memmove
	movq	%rbx,%r11
13:
	movq	96(%rsp),%rax
	leaq	184(%rax),%r14
	leaq	64(%rax),%rbx
	addq	$4,%rax
	movw	$7,(%rdi)
	movq	336(%rsp),%rcx
	movw	%cx,(%rsi)
	movq	64(%rsp),%rdx
	movq	%rdi,(%r14,%rdx,8)
	leaq	(%rax,%rdx,4),%rdi
	movq	280(%rsp),%r15
	cmpl	%edx,%r15d
	jne	15f
	movl	%r13d,(%rdi)
	jmp	24f
15:
	leaq	4(%rdi),%rcx
	subq	%rdx,%r15
	leaq	(,%r15,4),%r8
	movq	%rdi,%rdx
	movq	%r11,280(%rsp)
	callq	memmove
	movl	%r13d,(%rdi)
	movq	256(%rsp),%rax
	leaq	(%rbx,%rax),%rdx
	leaq	(%rbx,%rax),%rcx
	addq	$8,%rcx
	shlq	$3,%r15
	movq	%r15,%r8
	callq	memmove
	movq	280(%rsp),%r11
	movq	64(%rsp),%rdx
24:
	movq	320(%rsp),%r8
	movq	%r11,(%rbx,%rdx,8)
	movq	%rdx,%rax
	incq	%rax
	cmpl	%eax,%r8d
	movq	344(%rsp),%r15
	jne	15f
	shll	$3,%r8d
	jmp	24f
15:
	leal	(,%rax,8),%edi
	leaq	(%r14,%rdi),%rcx
	addq	$8,%rcx
	addq	%rdi,%r14
	subq	%rax,%r8
	shlq	$3,%r8
	movq	%r14,%rdx
	callq	memmove
	movq	64(%rsp),%rdx
	movq	%rdi,%r8
24:
	movq	312(%rsp),%r11
	movq	96(%rsp),%rdi
	movq	248(%rsp),%rcx
	movq	104(%rsp),%rax
	movq	328(%rsp),%r9
	movq	%rsi,184(%rdi,%r8)
	movw	%r9w,(%rdi)
	movq	%rdi,(%rax)
	movzbl	1(%rcx),%eax
	cmpb	$7,%al
	ja	6b
	movzbl	(%rcx),%edx
	jmp	8b
17:
	movq	%r13,%rax
	andq	$-8,%rax
	xorl	%r8d,%r8d
6:
	movdqu	36(%rdi,%r8,4),%xmm0
	movdqu	52(%rdi,%r8,4),%xmm1
	movdqu	%xmm0,4(%rsi,%r8,4)
	movdqu	%xmm1,20(%rsi,%r8,4)
	addq	$8,%r8
	cmpq	%r8,%rax
	jne	6b
	cmpl	%eax,%r13d
	leaq	64(%rsi),%r11
	jne	16b
	jmp	18b
21:
	movq	%r13,%rax
	andq	$-4,%rax
	xorl	%ecx,%ecx
6:
	movdqu	128(%rdi,%rcx,8),%xmm0
	movdqu	144(%rdi,%rcx,8),%xmm1
	movdqu	%xmm0,64(%rsi,%rcx,8)
	movdqu	%xmm1,80(%rsi,%rcx,8)
	addq	$4,%rcx
	cmpq	%rcx,%rax
	jne	6b
	cmpl	%eax,%r13d
	je	19b
	jmp	20b
23:
	movq	%rax,%r8
	andq	$-4,%r8
	xorl	%r9d,%r9d
6:
	movdqu	248(%rdi,%r9,8),%xmm0
	movdqu	264(%rdi,%r9,8),%xmm1
	movdqu	%xmm0,184(%rsi,%r9,8)
	movdqu	%xmm1,200(%rsi,%r9,8)
	addq	$4,%r9
	cmpq	%r9,%r8
	jne	6b
	cmpl	%r8d,%eax
	je	13b
	jmp	22b
11:
	movq	184(%rsp),%r10
3:
	movabsq	$10000000000000000,%rbx
	cmpw	$0,(%r10)
	je	3f
	cmpb	$1,176(%rsp)
	jne	1f
	movzbl	719(%rsp),%r14d
	shlq	$3,%rsi
4:
	cmpq	$1,304(%rsp)
	leaq	184(%rdi,%rsi),%rcx
	leaq	184(%rsp),%rax
	cmoveq	%rax,%rcx
	andl	$15,%r14d
	movq	(%rcx),%r15
	movzwl	(%r15),%edx
	movq	%rdx,%rsi
	movl	%r14d,%eax
	leaq	(%r15,%rax,4),%rdi
	addq	$4,%rdi
	subq	%r14,%rsi
	jne	4f
	movl	%r12d,(%rdi)
	shll	$3,%r14d
	jmp	6f
4:
	movq	%rcx,64(%rsp)
	leaq	4(%rdi),%rcx
	leaq	(,%rsi,4),%r8
	movq	%rdx,104(%rsp)
	movq	%rdi,%rdx
	movq	%r11,%r13
	callq	memmove
	movl	%r12d,(%rdi)
	shll	$3,%r14d
	leaq	64(%r15),%rdx
	leaq	(%rdx,%r14),%rcx
	addq	$8,%rcx
	addq	%r14,%rdx
	shlq	$3,%rsi
	movq	%rsi,%r8
	callq	memmove
	movq	104(%rsp),%rdx
	movq	64(%rsp),%rcx
	movq	%r13,%r11
6:
	incl	%edx
	movq	%r11,64(%r15,%r14)
	movw	%dx,(%r15)
	movq	%r15,(%rcx)
	incq	192(%rsp)
	jmp	2b
9:
	cmpb	$1,624(%rsp)
	jne	2f
	movq	640(%rsp),%rsi
	movq	648(%rsp),%r14
	movq	656(%rsp),%rbx
	testq	%r14,%r14
	je	4f
	xorl	%r15d,%r15d
	jmp	6f
	.p2align	4
8:
	incq	%r15
	cmpq	%r14,%r15
	je	4f
6:
	leaq	(%r15,%r15,2),%rax
	movq	(%rsi,%rax,8),%rdi
	movq	8(%rsi,%rax,8),%r13
	movq	16(%rsi,%rax,8),%r12
	testq	%r13,%r13
	je	6f
	leaq	16(%rdi),%rbp
	jmp	9f
	.p2align	4
11:
	addq	$32,%rbp
	decq	%r13
	je	6f
9:
	cmpq	$0,(%rbp)
	je	11b
	movq	-16(%rbp),%rcx
	callq	rattle_dealloc
	jmp	11b
	.p2align	4
6:
	testq	%r12,%r12
	je	8b
	movq	%rdi,%rcx
	callq	rattle_dealloc
	jmp	8b
4:
	testq	%rbx,%rbx
	je	2f
	movq	%rsi,%rcx
	callq	rattle_dealloc
2:
	cmpq	$0,88(%rsp)
	je	2f
	leaq	48(%rsp),%rcx
4:
	callq	rattle_dealloc
2:
	movzbl	176(%rsp),%ebp
	movq	184(%rsp),%rsi
	movq	208(%rsp),%rdi
	movq	224(%rsp),%rbx
	cmpq	$0,168(%rsp)
	je	6f
	movq	152(%rsp),%rcx
	callq	rattle_dealloc
6:
	cmpb	$1,%bpl
	jne	6f
	movq	%rsi,%rcx
	callq	rtp_std_collections.btree.node.Node.destroy.2fe7f96373f75378
6:
	movb	$1,%sil
	movb	$2,%dl
	testq	%rbx,%rbx
	je	6f
	movq	%rdi,%rcx
	callq	rattle_dealloc
	movb	$2,%dl
	jmp	6f
10:
	xorl	%edx,%edx
14:
	movq	%rbp,%rcx
	callq	rtp_listing.printing.write_text.df9e9f1468b30f79
	movl	%eax,%esi
	movzbl	%dl,%eax
	testb	$1,%sil
	movl	$0,%r14d
	cmovnel	%eax,%r14d
	movq	%rbp,%rcx
	callq	rattle_dealloc
	movzbl	624(%rsp),%eax
	testb	%sil,%sil
	je	8f
	cmpb	$1,%al
	jne	9f
	movq	%r14,40(%rsp)
	movq	640(%rsp),%rsi
	movq	648(%rsp),%r14
	movq	656(%rsp),%rbx
	testq	%r14,%r14
	je	10f
	xorl	%r15d,%r15d
	jmp	11f
	.p2align	4
13:
	incq	%r15
	cmpq	%r14,%r15
	je	10f
11:
	leaq	(%r15,%r15,2),%rax
	movq	(%rsi,%rax,8),%rdi
	movq	8(%rsi,%rax,8),%r13
	movq	16(%rsi,%rax,8),%r12
	testq	%r13,%r13
	je	11f
	leaq	16(%rdi),%rbp
	jmp	14f
	.p2align	4
15:
	addq	$32,%rbp
	decq	%r13
	je	11f
14:
	cmpq	$0,(%rbp)
	je	15b
	movq	-16(%rbp),%rcx
	callq	rattle_dealloc
	jmp	15b
	.p2align	4
11:
	testq	%r12,%r12
	je	13b
	movq	%rdi,%rcx
	callq	rattle_dealloc
	jmp	13b
8:
	cmpb	$1,%al
	jne	8f
	movq	640(%rsp),%rax
	movq	%rax,672(%rsp)
	movdqu	648(%rsp),%xmm0
	movdqu	%xmm0,680(%rsp)
	leaq	672(%rsp),%rcx
	callq	rtp_std_alloc.vec.Vec.drop.96fc43e7743eb198
8:
	cmpq	$0,88(%rsp)
	je	8f
	movq	72(%rsp),%rcx
	callq	rattle_dealloc
8:
	movzbl	176(%rsp),%ebp
	movq	184(%rsp),%rdi
	movq	208(%rsp),%rsi
	movq	224(%rsp),%rbx
	cmpq	$0,168(%rsp)
	je	8f
	movq	152(%rsp),%rcx
	callq	rattle_dealloc
8:
	cmpb	$1,%bpl
	jne	8f
	movq	%rdi,%rcx
	callq	rtp_std_collections.btree.node.Node.destroy.2fe7f96373f75378
8:
	testq	%rbx,%rbx
	je	8f
	movq	%rsi,%rcx
	callq	rattle_dealloc
8:
	xorl	%edx,%edx
	xorl	%esi,%esi
	jmp	6f
10:
	testq	%rbx,%rbx
	movq	40(%rsp),%r14
	je	9f
	movq	%rsi,%rcx
	callq	rattle_dealloc
9:
	cmpq	$0,88(%rsp)
	je	8f
	movq	72(%rsp),%rcx
	callq	rattle_dealloc
8:
	movzbl	176(%rsp),%ebp
	movq	184(%rsp),%rsi
	movq	208(%rsp),%rdi
	movq	224(%rsp),%rbx
	cmpq	$0,168(%rsp)
	je	8f
	movq	152(%rsp),%rcx
	callq	rattle_dealloc
8:
	cmpb	$1,%bpl
	jne	8f
	movq	%rsi,%rcx
	callq	rtp_std_collections.btree.node.Node.destroy.2fe7f96373f75378
8:
	movb	$1,%sil
	testq	%rbx,%rbx
	je	8f
	movq	%rdi,%rcx
	callq	rattle_dealloc
	movl	%r14d,%edx
	jmp	6f
12:
	movq	%rbp,%rcx
	movl	%edx,%ebp
	callq	rattle_dealloc
	cmpb	$1,624(%rsp)
	jne	9f
	movq	640(%rsp),%rsi
	movq	648(%rsp),%r14
	movq	656(%rsp),%rax
	movq	%rax,40(%rsp)
	testq	%r14,%r14
	je	10f
	xorl	%r15d,%r15d
	jmp	11f
	.p2align	4
12:
	incq	%r15
	cmpq	%r14,%r15
	je	10f
11:
	leaq	(%r15,%r15,2),%rax
	movq	(%rsi,%rax,8),%rdi
	movq	8(%rsi,%rax,8),%r13
	movq	16(%rsi,%rax,8),%r12
	testq	%r13,%r13
	je	11f
	leaq	16(%rdi),%rbx
	jmp	13f
	.p2align	4
14:
	addq	$32,%rbx
	decq	%r13
	je	11f
13:
	cmpq	$0,(%rbx)
	je	14b
	movq	-16(%rbx),%rcx
	callq	rattle_dealloc
	jmp	14b
	.p2align	4
11:
	testq	%r12,%r12
	je	12b
	movq	%rdi,%rcx
	callq	rattle_dealloc
	jmp	12b
8:
	movl	%r14d,%edx
	jmp	6f
5:
	movq	184(%rsp),%r10
	cmpw	$0,(%r10)
	jne	7f
3:
	cmpw	$0,2(%r10)
	je	7f
	movq	184(%r10),%rsi
	movq	%r10,%rcx
	callq	rattle_dealloc
	movq	%rsi,184(%rsp)
7:
	movq	%rbp,%rcx
	movq	40(%rsp),%rdx
	callq	rtp_listing.printing.write_text.df9e9f1468b30f79
	movl	%eax,%edi
	movzbl	%dl,%eax
	movq	%rbp,%rcx
	xorl	%ebp,%ebp
	testb	$1,%dil
	cmovnel	%eax,%ebp
	callq	rattle_dealloc
	movzbl	624(%rsp),%eax
	movq	640(%rsp),%rsi
	movq	648(%rsp),%r14
	movq	656(%rsp),%rcx
	testb	%dil,%dil
	je	3f
	cmpb	$1,%al
	jne	9f
	movq	%rcx,40(%rsp)
	testq	%r14,%r14
	je	10f
	xorl	%r15d,%r15d
	jmp	5f
7:
	incq	%r15
	cmpq	%r14,%r15
	je	10f
5:
	leaq	(%r15,%r15,2),%rax
	movq	(%rsi,%rax,8),%rdi
	movq	8(%rsi,%rax,8),%r13
	movq	16(%rsi,%rax,8),%r12
	testq	%r13,%r13
	je	5f
	leaq	16(%rdi),%rbx
	jmp	8f
	.p2align	4
11:
	addq	$32,%rbx
	decq	%r13
	je	5f
8:
	cmpq	$0,(%rbx)
	je	11b
	movq	-16(%rbx),%rcx
	callq	rattle_dealloc
	jmp	11b
5:
	testq	%r12,%r12
	je	7b
	movq	%rdi,%rcx
	callq	rattle_dealloc
	jmp	7b
10:
	cmpq	$0,40(%rsp)
	je	9f
	movq	%rsi,%rcx
	callq	rattle_dealloc
9:
	cmpq	$0,88(%rsp)
	je	5f
	movq	72(%rsp),%rcx
	callq	rattle_dealloc
5:
	movzbl	176(%rsp),%r14d
	movq	184(%rsp),%rsi
	movq	208(%rsp),%rdi
	movq	224(%rsp),%rbx
	cmpq	$0,168(%rsp)
	je	5f
	movq	152(%rsp),%rcx
	callq	rattle_dealloc
5:
	cmpb	$1,%r14b
	jne	5f
	movq	%rsi,%rcx
	callq	rtp_std_collections.btree.node.Node.destroy.2fe7f96373f75378
5:
	movb	$1,%sil
	testq	%rbx,%rbx
	je	5f
	movq	%rdi,%rcx
	callq	rattle_dealloc
5:
	movl	%ebp,%edx
6:
	movl	%esi,%eax
	movaps	720(%rsp),%xmm6
	movaps	736(%rsp),%xmm7
	movaps	752(%rsp),%xmm8
	movaps	768(%rsp),%xmm9
	movaps	784(%rsp),%xmm10
	movaps	800(%rsp),%xmm11
	movaps	816(%rsp),%xmm12
	movaps	832(%rsp),%xmm13
	movaps	848(%rsp),%xmm14
	movaps	864(%rsp),%xmm15
	addq	$888,%rsp
	popq	%rbx
	popq	%rbp
	popq	%rdi
	popq	%rsi
	popq	%r12
	popq	%r13
	popq	%r14
	popq	%r15
	retq
3:
	cmpb	$1,%al
	jne	3f
	movq	%rcx,%rbp
	testq	%r14,%r14
	je	5f
	xorl	%r15d,%r15d
	jmp	6f
7:
	incq	%r15
	cmpq	%r14,%r15
	je	5f
6:
	leaq	(%r15,%r15,2),%rax
	movq	(%rsi,%rax,8),%rdi
	movq	8(%rsi,%rax,8),%r13
	movq	16(%rsi,%rax,8),%r12
	testq	%r13,%r13
	je	6f
	leaq	16(%rdi),%rbx
	jmp	8f
	.p2align	4
9:
	addq	$32,%rbx
	decq	%r13
	je	6f
8:
	cmpq	$0,(%rbx)
	je	9b
	movq	-16(%rbx),%rcx
	callq	rattle_dealloc
	jmp	9b
6:
	testq	%r12,%r12
	je	7b
	movq	%rdi,%rcx
	callq	rattle_dealloc
	jmp	7b
5:
	testq	%rbp,%rbp
	je	3f
	movq	%rsi,%rcx
	callq	rattle_dealloc
3:
	cmpq	$0,88(%rsp)
	je	2b
	movq	72(%rsp),%rcx
	jmp	4b
1:
	ud2
	.seh_endproc

	.def	rtp_ext.block_values.read_values.77e50c5f4ddfc773;
	.scl	3;
	.type	32;
	.endef
	.section	.rdata,"dr"
	.p2align	4,0x0
1:
	.zero	16,32
	.section	.text$rtp_ext.block_values.read_values.77e50c5f4ddfc773,"xr"
	.p2align	4
rtp_ext.block_values.read_values.77e50c5f4ddfc773:
.seh_proc rtp_ext.block_values.read_values.77e50c5f4ddfc773
	pushq	%r15
	.seh_pushreg %r15
	pushq	%r14
	.seh_pushreg %r14
	pushq	%r13
	.seh_pushreg %r13
	pushq	%r12
	.seh_pushreg %r12
	pushq	%rsi
	.seh_pushreg %rsi
	pushq	%rdi
	.seh_pushreg %rdi
	pushq	%rbp
	.seh_pushreg %rbp
	pushq	%rbx
	.seh_pushreg %rbx
	subq	$232,%rsp
	.seh_stackalloc 232
	movaps	%xmm6,208(%rsp)
	.seh_savexmm %xmm6,208
	.seh_endprologue
	movq	%r8,%rbx
	movq	%rdx,%rax
	movq	%rcx,%rsi
	movq	336(%rsp),%rdi
	testb	%r9b,%r9b
	je	2f
	testq	%rbx,%rbx
	je	3f
	leaq	151(%rdi),%r12
	jmp	4f
2:
	testq	%rbx,%rbx
	je	3f
	leaq	151(%rdi),%rbp
	jmp	2f
5:
	movzbl	(%r14),%eax
	movl	%eax,%ecx
	andb	$127,%cl
	negb	%cl
	movb	$1,(%rdi)
	movb	%cl,1(%rdi)
	shrb	$7,%al
	movb	$1,2(%rdi)
	movb	%al,3(%rdi)
	.p2align	4
6:
	movq	%r13,%rax
	testq	%rbx,%rbx
	je	3f
2:
	movzbl	(%rax),%edx
	testb	%dl,%dl
	jne	2f
	cmpq	$2,%rbx
	je	7f
	cmpq	$1,%rbx
	je	3f
	cmpq	$3,%rbx
	ja	8f
	cmpb	$0,1(%rax)
	jne	8f
	cmpb	$0,2(%rax)
	jne	8f
	jmp	3f
7:
	cmpb	$0,1(%rax)
	je	3f
8:
	decq	%rbx
	incq	%rax
	movq	%rax,%rcx
	movq	%rbx,%rdx
	callq	rtp_ext.elements.skip_zeros
	testq	%rdx,%rdx
	je	3f
	movq	%rdx,%rbx
	movzbl	(%rax),%edx
2:
	cmpb	$-17,%dl
	ja	3f
	movl	%edx,%ecx
	andb	$15,%cl
	leal	2(%rcx),%r8d
	movzbl	%r8b,%r15d
	subq	%r15,%rbx
	jb	3f
	leaq	(%rax,%r15),%r13
	shrb	$3,%dl
	movzbl	%dl,%edx
	andl	$30,%edx
	cmpb	$1,10202(%rsi,%rdx)
	jne	6b
	leaq	1(%rax),%r14
	decq	%r15
	movzbl	10203(%rsi,%rdx),%edx
	leaq	2f(%rip),%r8
	movslq	(%r8,%rdx,4),%rdx
	addq	%r8,%rdx
	jmpq	*%rdx
7:
	cmpb	$2,%cl
	jb	6b
	movzbl	1(%rax),%ecx
	movzwl	2(%rax),%eax
	shll	$16,%eax
	shll	$8,%ecx
	orl	%eax,%ecx
	bswapl	%ecx
	imulq	$1000000,%rcx,%rax
	shrq	$18,%rax
	movq	$1,16(%rdi)
	movq	%rax,24(%rdi)
	jmp	6b
8:
	testb	%cl,%cl
	je	9f
	leaq	rtp_static.5(%rip),%rax
	testq	%rbx,%rbx
	je	10f
	movq	%rbx,%r12
	movq	%rbp,48(%rsp)
11:
	movzbl	(%r13),%eax
	movq	%r13,56(%rsp)
	testb	%al,%al
	jne	12f
	cmpq	$2,%rbx
	je	13f
	cmpq	$1,%rbx
	movq	56(%rsp),%rax
	je	14f
	cmpq	$3,%rbx
	ja	15f
	cmpb	$0,1(%rax)
	jne	15f
	cmpb	$0,2(%rax)
	jne	15f
	jmp	14f
13:
	movq	56(%rsp),%rax
	cmpb	$0,1(%rax)
	je	14f
15:
	leaq	-1(%rbx),%rdx
	leaq	1(%rax),%rcx
	callq	rtp_ext.elements.skip_zeros
	testq	%rdx,%rdx
	je	14f
	movq	%rax,%r13
	movq	%rdx,%r12
	movzbl	(%rax),%eax
12:
	cmpb	$-17,%al
	ja	14f
	movq	%rdi,%rbp
	movl	%eax,%ecx
	andb	$15,%cl
	addb	$2,%cl
	movzbl	%cl,%edi
	cmpq	%rdi,%r12
	jb	12f
	shrb	$3,%al
	movzbl	%al,%eax
	andl	$30,%eax
	cmpb	$1,10202(%rsi,%rax)
	jne	13f
	cmpb	$14,10203(%rsi,%rax)
	jne	13f
	leaq	(%rdi,%r13),%rbx
	leaq	-1(%rdi),%rdx
	incq	%r13
	movq	%r13,%rcx
	callq	rtp_ext.block_values.is_another_allocation
	testb	%al,%al
	leaq	-1(%rdi),%rax
	cmovneq	%rax,%r15
	cmovneq	%r13,%r14
	movq	%rbx,%r13
	subq	%rdi,%r12
	movq	%r12,%rbx
	movq	%rbp,%rdi
	movq	48(%rsp),%rbp
	jne	11b
14:
	xorl	%ebx,%ebx
	leaq	rtp_static.5(%rip),%r13
	jmp	11f
14:
	pxor	%xmm0,%xmm0
	movdqa	%xmm0,64(%rsp)
	movq	$0,80(%rsp)
	cmpb	$7,%cl
	ja	15f
	movsbq	(%r14),%rcx
	testq	%rcx,%rcx
	js	15f
	movabsq	$2305843009213693952,%r11
	leaq	rtp_static.37(%rip),%r8
	movzbl	(%rcx,%r8),%ecx
	movq	%rcx,56(%rsp)
	movb	$32,%r9b
	cmpl	$1,%r15d
	jne	16f
	movb	$32,%r12b
	movb	$32,%cl
	movb	$32,%dl
	movb	$32,%r10b
	movb	$32,%r14b
	jmp	17f
18:
	cmpb	$3,%cl
	jb	6b
	movl	(%r14),%eax
	bswapl	%eax
	movl	$1,8(%rdi)
	movl	%eax,12(%rdi)
	jmp	6b
19:
	pxor	%xmm0,%xmm0
	movdqa	%xmm0,144(%rsp)
	movdqa	%xmm0,112(%rsp)
	movdqa	%xmm0,176(%rsp)
	movdqa	%xmm0,64(%rsp)
	movq	$0,80(%rsp)
	movdqa	%xmm0,192(%rsp)
	movaps	1b(%rip),%xmm6
	movaps	%xmm6,128(%rsp)
	xorl	%eax,%eax
	.p2align	4
20:
	movsbq	(%r14,%rax),%rcx
	testq	%rcx,%rcx
	js	21f
	leaq	rtp_static.37(%rip),%rdx
	movzbl	(%rcx,%rdx),%ecx
	movb	%cl,128(%rsp,%rax)
	incq	%rax
	cmpq	%rax,%r15
	jne	20b
	movaps	128(%rsp),%xmm0
	jmp	20f
22:
	cmpb	$8,%cl
	jb	6b
	movzbl	1(%rax),%ecx
	movq	2(%rax),%xmm0
	movdqa	%xmm0,%xmm1
	psrlw	$8,%xmm1
	psllw	$8,%xmm0
	por	%xmm1,%xmm0
	movw	$1,120(%rdi)
	movb	%cl,122(%rdi)
	movb	$0,123(%rdi)
	movq	%xmm0,124(%rdi)
	jmp	6b
23:
	cmpb	$7,%cl
	jb	6b
	cmpb	$15,%cl
	jne	24f
	movq	9(%rax),%rax
	bswapq	%rax
	jmp	25f
26:
	cmpb	$2,%cl
	jb	6b
	movzbl	1(%rax),%ecx
	movzwl	2(%rax),%eax
	shll	$16,%eax
	shll	$8,%ecx
	orl	%eax,%ecx
	bswapl	%ecx
	movl	%ecx,%eax
	shrl	$12,%eax
	andl	$4095,%ecx
	movq	$1,72(%rdi)
	movq	%rax,80(%rdi)
	movq	$100,88(%rdi)
	movq	$1,96(%rdi)
	movq	%rcx,104(%rdi)
	movq	$100,112(%rdi)
	jmp	6b
27:
	movzbl	(%r14),%eax
	andb	$3,%al
	movb	$1,4(%rdi)
	movb	%al,5(%rdi)
	jmp	6b
28:
	cmpb	$3,%cl
	jb	6b
	movl	(%r14),%eax
	bswapl	%eax
	movl	$1,168(%rdi)
	movl	%eax,172(%rdi)
	jmp	6b
29:
	testb	%cl,%cl
	je	6b
	movzwl	(%r14),%eax
	rolw	$8,%ax
	movw	$1,64(%rdi)
	movw	%ax,66(%rdi)
	jmp	6b
30:
	pxor	%xmm0,%xmm0
	movdqa	%xmm0,64(%rsp)
	movq	$0,80(%rsp)
	cmpb	$7,%cl
	ja	31f
	movsbq	(%r14),%rcx
	testq	%rcx,%rcx
	js	31f
	movabsq	$2305843009213693952,%r11
	leaq	rtp_static.37(%rip),%r8
	movzbl	(%rcx,%r8),%ecx
	movq	%rcx,56(%rsp)
	movb	$32,%r9b
	cmpl	$1,%r15d
	jne	32f
	movb	$32,%r12b
	movb	$32,%cl
	movb	$32,%dl
	movb	$32,%r10b
	movb	$32,%r14b
	jmp	33f
34:
	movzbl	(%r14),%eax
	movb	$1,6(%rdi)
	movb	%al,7(%rdi)
	jmp	6b
21:
	leaq	64(%rsp),%rcx
	movq	%r14,%rdx
	movq	%r15,%r8
	callq	rtp_core.str.utf8.from_utf8
	cmpb	$0,64(%rsp)
	je	21f
	movdqa	176(%rsp),%xmm0
	movdqa	%xmm0,144(%rsp)
	jmp	6b
9:
	movl	$1,%r15d
	jmp	11f
24:
	xorl	%eax,%eax
25:
	movq	(%r14),%rdx
	bswapq	%rdx
	xorl	%r8d,%r8d
	cmpb	$15,%cl
	sete	%r8b
	movq	$1,32(%rdi)
	movq	%rdx,40(%rdi)
	movq	%r8,48(%rdi)
	movq	%rax,56(%rdi)
	jmp	6b
10:
	xorl	%ebx,%ebx
	movq	%rax,%r13
11:
	movq	%rdi,%rcx
	movq	%r14,%rdx
	movq	%r15,%r8
	callq	rtp_values.value.set_values.ExtensionValuesSetValues.read_layers
	testb	%al,%al
	je	6b
	jmp	9f
21:
	movq	72(%rsp),%rax
	movq	80(%rsp),%rcx
	movaps	%xmm6,96(%rsp)
	testq	%rcx,%rcx
	je	10f
	movl	$1,%edx
	xorl	%r8d,%r8d
21:
	movzbl	-1(%rax,%rdx),%r9d
	cmpb	$-64,%r9b
	jl	24f
	leaq	rtp_static.37(%rip),%r10
	movzbl	(%r9,%r10),%r9d
	movb	%r9b,96(%rsp,%r8)
	incq	%r8
24:
	cmpq	%rcx,%rdx
	jae	10f
	incq	%rdx
	cmpq	$16,%r8
	jne	21b
10:
	movaps	96(%rsp),%xmm0
20:
	movaps	%xmm0,112(%rsp)
	movaps	112(%rsp),%xmm0
	movaps	%xmm0,144(%rsp)
	movb	$1,150(%rdi)
	movdqa	144(%rsp),%xmm0
	movdqu	%xmm0,(%rbp)
	jmp	6b
16:
	movsbq	2(%rax),%rdx
	testq	%rdx,%rdx
	js	15f
	movzbl	(%rdx,%r8),%ecx
	movb	%cl,47(%rsp)
	cmpl	$2,%r15d
	jne	10f
	movb	$32,%r12b
	movb	$32,%cl
	movb	$32,%dl
	movb	$32,%r10b
	jmp	16f
32:
	movsbq	2(%rax),%rdx
	testq	%rdx,%rdx
	js	31f
	movzbl	(%rdx,%r8),%ecx
	movb	%cl,47(%rsp)
	cmpl	$2,%r15d
	jne	20f
	movb	$32,%r12b
	movb	$32,%cl
	movb	$32,%dl
	movb	$32,%r10b
	jmp	21f
10:
	movsbq	3(%rax),%r10
	testq	%r10,%r10
	js	15f
	movzbl	(%r10,%r8),%r10d
	cmpl	$3,%r15d
	jne	10f
	movb	$32,%r12b
	movb	$32,%cl
	movb	$32,%dl
	jmp	16f
20:
	movsbq	3(%rax),%r10
	testq	%r10,%r10
	js	31f
	movzbl	(%r10,%r8),%r10d
	cmpl	$3,%r15d
	jne	20f
	movb	$32,%r12b
	movb	$32,%cl
	movb	$32,%dl
	jmp	21f
12:
	xorl	%ebx,%ebx
	leaq	rtp_static.5(%rip),%r13
	movq	%rbp,%rdi
	movq	48(%rsp),%rbp
	jmp	11b
13:
	movq	%rbp,%rdi
	movq	48(%rsp),%rbp
	movq	56(%rsp),%r13
	jmp	11b
10:
	movsbq	4(%rax),%rcx
	testq	%rcx,%rcx
	js	15f
	movzbl	(%rcx,%r8),%edx
	cmpl	$4,%r15d
	jne	10f
	movb	$32,%r12b
	movb	$32,%cl
	jmp	16f
20:
	movsbq	4(%rax),%rcx
	testq	%rcx,%rcx
	js	31f
	movzbl	(%rcx,%r8),%edx
	cmpl	$4,%r15d
	jne	11f
	movb	$32,%r12b
	movb	$32,%cl
	jmp	21f
10:
	movsbq	5(%rax),%rcx
	testq	%rcx,%rcx
	js	15f
	movzbl	(%rcx,%r8),%ecx
	cmpl	$5,%r15d
	jne	10f
	movb	$32,%r12b
	jmp	16f
11:
	movsbq	5(%rax),%rcx
	testq	%rcx,%rcx
	js	31f
	movzbl	(%rcx,%r8),%ecx
	cmpl	$5,%r15d
	jne	11f
	movb	$32,%r12b
	jmp	21f
10:
	movsbq	6(%rax),%r12
	testq	%r12,%r12
	js	15f
	movq	%rbp,48(%rsp)
	movzbl	(%r12,%r8),%r12d
	cmpl	$6,%r15d
	je	10f
	movsbq	7(%rax),%r9
	testq	%r9,%r9
	movq	48(%rsp),%rbp
	js	15f
	movzbl	(%r9,%r8),%r9d
	cmpl	$7,%r15d
	jne	12f
10:
	movq	48(%rsp),%rbp
16:
	movzbl	47(%rsp),%r14d
17:
	movzbl	%r9b,%eax
	shlq	$48,%rax
	orq	%r11,%rax
	movzbl	%r12b,%r8d
	shlq	$40,%r8
	movzbl	%cl,%r9d
	shlq	$32,%r9
	orq	%r8,%r9
	orq	%rax,%r9
	movzbl	%dl,%eax
	shll	$24,%eax
	movzbl	%r10b,%r8d
	shll	$16,%r8d
	orq	%rax,%r8
	movzbl	%r14b,%edx
	shll	$8,%edx
	orq	%r8,%rdx
	orq	%r9,%rdx
	orq	56(%rsp),%rdx
	jmp	10f
11:
	movsbq	6(%rax),%r12
	testq	%r12,%r12
	js	31f
	movq	%rbp,48(%rsp)
	movzbl	(%r12,%r8),%r12d
	cmpl	$6,%r15d
	je	11f
	movsbq	7(%rax),%r9
	testq	%r9,%r9
	movq	48(%rsp),%rbp
	js	31f
	movzbl	(%r9,%r8),%r9d
	cmpl	$7,%r15d
	jne	13f
11:
	movq	48(%rsp),%rbp
21:
	movzbl	47(%rsp),%r14d
33:
	movzbl	%r9b,%eax
	shlq	$48,%rax
	orq	%r11,%rax
	movzbl	%r12b,%r8d
	shlq	$40,%r8
	movzbl	%cl,%r9d
	shlq	$32,%r9
	orq	%r8,%r9
	orq	%rax,%r9
	movzbl	%dl,%eax
	shll	$24,%eax
	movzbl	%r10b,%r8d
	shll	$16,%r8d
	orq	%rax,%r8
	movzbl	%r14b,%edx
	shll	$8,%edx
	orq	%r8,%rdx
	orq	%r9,%rdx
	orq	56(%rsp),%rdx
	jmp	11f
12:
	movsbq	8(%rax),%rax
	testq	%rax,%rax
	movq	48(%rsp),%rbp
	js	15f
	movzbl	(%rax,%r8),%r11d
	shlq	$56,%r11
	jmp	16b
15:
	leaq	64(%rsp),%rcx
	movq	%r14,%rdx
	movq	%r15,%r8
	callq	rtp_core.str.utf8.from_utf8
	cmpb	$0,64(%rsp)
	jne	6b
	movabsq	$2314885530818453536,%rdx
	movq	72(%rsp),%rax
	movq	80(%rsp),%rcx
	movq	%rdx,96(%rsp)
	testq	%rcx,%rcx
	je	10f
	movl	$1,%edx
	xorl	%r8d,%r8d
12:
	movzbl	-1(%rax,%rdx),%r9d
	cmpb	$-64,%r9b
	jl	15f
	leaq	rtp_static.37(%rip),%r10
	movzbl	(%r9,%r10),%r9d
	movb	%r9b,96(%rsp,%r8)
	incq	%r8
15:
	cmpq	%rcx,%rdx
	jae	15f
	incq	%rdx
	cmpq	$8,%r8
	jne	12b
15:
	movq	96(%rsp),%rdx
10:
	movb	$1,141(%rdi)
	movq	%rdx,142(%rdi)
	jmp	6b
13:
	movsbq	8(%rax),%rax
	testq	%rax,%rax
	movq	48(%rsp),%rbp
	js	31f
	movzbl	(%rax,%r8),%r11d
	shlq	$56,%r11
	jmp	21b
31:
	leaq	64(%rsp),%rcx
	movq	%r14,%rdx
	movq	%r15,%r8
	callq	rtp_core.str.utf8.from_utf8
	cmpb	$0,64(%rsp)
	jne	6b
	movabsq	$2314885530818453536,%rdx
	movq	72(%rsp),%rax
	movq	80(%rsp),%rcx
	movq	%rdx,96(%rsp)
	testq	%rcx,%rcx
	je	11f
	movl	$1,%edx
	xorl	%r8d,%r8d
10:
	movzbl	-1(%rax,%rdx),%r9d
	cmpb	$-64,%r9b
	jl	12f
	leaq	rtp_static.37(%rip),%r10
	movzbl	(%r9,%r10),%r9d
	movb	%r9b,96(%rsp,%r8)
	incq	%r8
12:
	cmpq	%rcx,%rdx
	jae	12f
	incq	%rdx
	cmpq	$8,%r8
	jne	10b
12:
	movq	96(%rsp),%rdx
11:
	movb	$1,132(%rdi)
	movq	%rdx,133(%rdi)
	jmp	6b
10:
	xorl	%ebx,%ebx
11:
	leaq	rtp_static.5(%rip),%r13
12:
	movq	%rdi,%rcx
	movq	%rbp,%rdx
	movq	%r14,%r8
	callq	rtp_values.value.set_values.ExtensionValuesSetValues.read_layers
	testb	%al,%al
	jne	9f
	.p2align	4
13:
	movq	%r13,%rax
	testq	%rbx,%rbx
	je	3f
4:
	cmpb	$0,(%rax)
	je	4f
	cmpq	$2,%rbx
	jae	15f
	jmp	3f
	.p2align	4
4:
	cmpq	$2,%rbx
	je	4f
	cmpq	$1,%rbx
	je	3f
	cmpq	$3,%rbx
	ja	16f
	cmpb	$0,1(%rax)
	jne	16f
	cmpb	$0,2(%rax)
	jne	16f
	jmp	3f
4:
	cmpb	$0,1(%rax)
	je	3f
16:
	decq	%rbx
	incq	%rax
	movq	%rax,%rcx
	movq	%rbx,%rdx
	callq	rtp_ext.elements.skip_zeros
	testq	%rdx,%rdx
	je	3f
	movq	%rdx,%rbx
	cmpq	$2,%rbx
	jb	3f
15:
	movzbl	1(%rax),%r14d
	leaq	2(%r14),%r13
	subq	%r13,%rbx
	jb	3f
	movzbl	(%rax),%ecx
	addq	%rax,%r13
	cmpb	$1,10202(%rsi,%rcx,2)
	jne	13b
	leaq	2(%rax),%rbp
	movzbl	10203(%rsi,%rcx,2),%ecx
	leaq	4f(%rip),%rdx
	movslq	(%rdx,%rcx,4),%rcx
	addq	%rdx,%rcx
	jmpq	*%rcx
15:
	cmpb	$3,%r14b
	jb	13b
	movzbl	2(%rax),%ecx
	movzwl	3(%rax),%eax
	shll	$16,%eax
	shll	$8,%ecx
	orl	%eax,%ecx
	bswapl	%ecx
	imulq	$1000000,%rcx,%rax
	shrq	$18,%rax
	movq	$1,16(%rdi)
	movq	%rax,24(%rdi)
	jmp	13b
16:
	cmpb	$2,%r14b
	jb	12b
	testq	%rbx,%rbx
	je	10b
	movq	%r12,48(%rsp)
	movq	%rbx,%r12
17:
	cmpb	$0,(%r13)
	movq	%r13,%rdi
	jne	20f
	cmpq	$2,%rbx
	je	21f
	cmpq	$1,%rbx
	movq	336(%rsp),%rdi
	movq	48(%rsp),%r12
	je	10b
	cmpq	$3,%rbx
	ja	24f
	cmpb	$0,1(%r13)
	jne	24f
	cmpb	$0,2(%r13)
	jne	24f
	jmp	10b
21:
	cmpb	$0,1(%r13)
	movq	336(%rsp),%rdi
	movq	48(%rsp),%r12
	je	10b
24:
	leaq	-1(%rbx),%rdx
	leaq	1(%r13),%rcx
	callq	rtp_ext.elements.skip_zeros
	testq	%rdx,%rdx
	je	10f
	movq	%rax,%rdi
	movq	%rdx,%r12
20:
	cmpq	$2,%r12
	jb	10f
	movq	%rbp,56(%rsp)
	movq	%rsi,%r15
	movzbl	1(%rdi),%ebp
	leaq	2(%rbp),%rsi
	cmpq	%rsi,%r12
	jb	20f
	movzbl	(%rdi),%eax
	movq	%r15,%rcx
	cmpb	$1,10202(%r15,%rax,2)
	jne	21f
	cmpb	$14,10203(%rcx,%rax,2)
	jne	24f
	leaq	(%rdi,%rsi),%r13
	addq	$2,%rdi
	movq	%rdi,%rcx
	movq	%rbp,%rdx
	callq	rtp_ext.block_values.is_another_allocation
	testb	%al,%al
	cmovneq	%rbp,%r14
	movq	56(%rsp),%rbp
	cmovneq	%rdi,%rbp
	subq	%rsi,%r12
	movq	%r12,%rbx
	movq	%r15,%rsi
	jne	17b
10:
	xorl	%ebx,%ebx
	movq	336(%rsp),%rdi
	movq	48(%rsp),%r12
	jmp	11b
10:
	movq	%rbp,%rdx
	pxor	%xmm0,%xmm0
	movdqa	%xmm0,64(%rsp)
	movq	$0,80(%rsp)
	cmpb	$8,%r14b
	ja	17f
	testq	%r14,%r14
	je	25f
	movsbq	(%rdx),%rcx
	testq	%rcx,%rcx
	js	17f
	movabsq	$2305843009213693952,%r11
	leaq	rtp_static.37(%rip),%r8
	movzbl	(%rcx,%r8),%ecx
	movq	%rcx,56(%rsp)
	movb	$32,%r9b
	cmpl	$1,%r14d
	jne	31f
	movb	$32,%bpl
	movb	$32,%r15b
	movb	$32,%cl
	movb	$32,%r10b
	movb	$32,%dl
	jmp	32f
33:
	cmpb	$4,%r14b
	jb	13b
	movl	(%rbp),%eax
	bswapl	%eax
	movl	$1,8(%rdi)
	movl	%eax,12(%rdi)
	jmp	13b
35:
	pxor	%xmm0,%xmm0
	movdqa	%xmm0,160(%rsp)
	movdqa	%xmm0,112(%rsp)
	movdqa	%xmm0,176(%rsp)
	movdqa	%xmm0,64(%rsp)
	movq	$0,80(%rsp)
	movdqa	%xmm0,192(%rsp)
	movaps	1b(%rip),%xmm6
	movaps	%xmm6,128(%rsp)
	cmpb	$16,%r14b
	ja	1f
	testq	%r14,%r14
	je	36f
	xorl	%eax,%eax
	.p2align	4
37:
	movsbq	(%rbp,%rax),%rcx
	testq	%rcx,%rcx
	js	1f
	leaq	rtp_static.37(%rip),%rdx
	movzbl	(%rcx,%rdx),%ecx
	movb	%cl,128(%rsp,%rax)
	incq	%rax
	cmpq	%rax,%r14
	jne	37b
36:
	movaps	128(%rsp),%xmm0
	jmp	36f
37:
	cmpb	$9,%r14b
	jb	13b
	movzbl	2(%rax),%ecx
	movq	3(%rax),%xmm0
	movdqa	%xmm0,%xmm1
	psrlw	$8,%xmm1
	psllw	$8,%xmm0
	por	%xmm1,%xmm0
	movw	$1,120(%rdi)
	movb	%cl,122(%rdi)
	movb	$0,123(%rdi)
	movq	%xmm0,124(%rdi)
	jmp	13b
38:
	cmpb	$8,%r14b
	jb	13b
	cmpb	$16,%r14b
	jb	39f
	movq	10(%rax),%rax
	bswapq	%rax
	jmp	40f
41:
	testq	%r14,%r14
	je	13b
	movzbl	(%rbp),%eax
	movl	%eax,%ecx
	andb	$127,%cl
	negb	%cl
	movb	$1,(%rdi)
	movb	%cl,1(%rdi)
	shrb	$7,%al
	movb	$1,2(%rdi)
	movb	%al,3(%rdi)
	jmp	13b
42:
	cmpb	$3,%r14b
	jb	13b
	movzbl	2(%rax),%ecx
	movzwl	3(%rax),%eax
	shll	$16,%eax
	shll	$8,%ecx
	orl	%eax,%ecx
	bswapl	%ecx
	movl	%ecx,%eax
	shrl	$12,%eax
	andl	$4095,%ecx
	movq	$1,72(%rdi)
	movq	%rax,80(%rdi)
	movq	$100,88(%rdi)
	movq	$1,96(%rdi)
	movq	%rcx,104(%rdi)
	movq	$100,112(%rdi)
	jmp	13b
43:
	testq	%r14,%r14
	je	13b
	movzbl	(%rbp),%eax
	andb	$3,%al
	movb	$1,4(%rdi)
	movb	%al,5(%rdi)
	jmp	13b
44:
	cmpb	$4,%r14b
	jb	13b
	movl	(%rbp),%eax
	bswapl	%eax
	movl	$1,168(%rdi)
	movl	%eax,172(%rdi)
	jmp	13b
45:
	cmpb	$2,%r14b
	jb	13b
	movzwl	(%rbp),%eax
	rolw	$8,%ax
	movw	$1,64(%rdi)
	movw	%ax,66(%rdi)
	jmp	13b
46:
	movq	%rbp,%rdx
	pxor	%xmm0,%xmm0
	movdqa	%xmm0,64(%rsp)
	movq	$0,80(%rsp)
	cmpb	$8,%r14b
	ja	47f
	testq	%r14,%r14
	je	48f
	movsbq	(%rdx),%rcx
	testq	%rcx,%rcx
	js	47f
	movabsq	$2305843009213693952,%r11
	leaq	rtp_static.37(%rip),%r8
	movzbl	(%rcx,%r8),%ecx
	movq	%rcx,56(%rsp)
	movb	$32,%r9b
	cmpl	$1,%r14d
	jne	49f
	movb	$32,%bpl
	movb	$32,%r15b
	movb	$32,%cl
	movb	$32,%r10b
	movb	$32,%dl
	jmp	50f
51:
	testq	%r14,%r14
	je	13b
	movzbl	(%rbp),%eax
	movb	$1,6(%rdi)
	movb	%al,7(%rdi)
	jmp	13b
1:
	leaq	64(%rsp),%rcx
	movq	%rbp,%rdx
	movq	%r14,%r8
	callq	rtp_core.str.utf8.from_utf8
	cmpb	$0,64(%rsp)
	je	1f
	movdqa	176(%rsp),%xmm0
	movdqa	%xmm0,160(%rsp)
	jmp	13b
39:
	xorl	%eax,%eax
40:
	movq	(%rbp),%rcx
	bswapq	%rcx
	xorl	%edx,%edx
	cmpb	$16,%r14b
	setae	%dl
	movq	$1,32(%rdi)
	movq	%rcx,40(%rdi)
	movq	%rdx,48(%rdi)
	movq	%rax,56(%rdi)
	jmp	13b
1:
	movq	72(%rsp),%rax
	movq	80(%rsp),%rcx
	movaps	%xmm6,96(%rsp)
	testq	%rcx,%rcx
	je	1f
	movl	$1,%edx
	xorl	%r8d,%r8d
	.p2align	4
39:
	movzbl	-1(%rax,%rdx),%r9d
	cmpb	$-64,%r9b
	jl	40f
	leaq	rtp_static.37(%rip),%r10
	movzbl	(%r9,%r10),%r9d
	movb	%r9b,96(%rsp,%r8)
	incq	%r8
40:
	cmpq	%rcx,%rdx
	jae	1f
	incq	%rdx
	cmpq	$16,%r8
	jne	39b
1:
	movaps	96(%rsp),%xmm0
36:
	movaps	%xmm0,112(%rsp)
	movaps	112(%rsp),%xmm0
	movaps	%xmm0,160(%rsp)
	movb	$1,150(%rdi)
	movdqa	160(%rsp),%xmm0
	movdqu	%xmm0,(%r12)
	jmp	13b
25:
	movabsq	$2314885530818453536,%rdx
	jmp	1f
48:
	movabsq	$2314885530818453536,%rdx
	jmp	25f
31:
	movsbq	3(%rax),%rcx
	testq	%rcx,%rcx
	js	17f
	movzbl	(%rcx,%r8),%ecx
	movb	%cl,48(%rsp)
	cmpl	$2,%r14d
	jne	31f
	movb	$32,%bpl
	movb	$32,%r15b
	movb	$32,%cl
	movb	$32,%r10b
	jmp	36f
49:
	movsbq	3(%rax),%rcx
	testq	%rcx,%rcx
	js	47f
	movzbl	(%rcx,%r8),%ecx
	movb	%cl,48(%rsp)
	cmpl	$2,%r14d
	jne	39f
	movb	$32,%bpl
	movb	$32,%r15b
	movb	$32,%cl
	movb	$32,%r10b
	jmp	40f
20:
	xorl	%ebx,%ebx
	movq	%r15,%rsi
	movq	336(%rsp),%rdi
	movq	48(%rsp),%r12
	movq	56(%rsp),%rbp
	jmp	11b
31:
	movsbq	4(%rax),%r10
	testq	%r10,%r10
	js	17f
	movzbl	(%r10,%r8),%r10d
	cmpl	$3,%r14d
	jne	11f
	movb	$32,%bpl
	movb	$32,%r15b
	movb	$32,%cl
	jmp	36f
39:
	movsbq	4(%rax),%r10
	testq	%r10,%r10
	js	47f
	movzbl	(%r10,%r8),%r10d
	cmpl	$3,%r14d
	jne	20f
	movb	$32,%bpl
	movb	$32,%r15b
	movb	$32,%cl
	jmp	40f
24:
	movq	%r15,%rsi
	jmp	24f
21:
	movq	%rcx,%rsi
24:
	movq	336(%rsp),%rdi
	movq	48(%rsp),%r12
	movq	56(%rsp),%rbp
	jmp	12b
11:
	movsbq	5(%rax),%rcx
	testq	%rcx,%rcx
	js	17f
	movzbl	(%rcx,%r8),%ecx
	cmpl	$4,%r14d
	jne	11f
	movb	$32,%bpl
	movb	$32,%r15b
	jmp	36f
20:
	movsbq	5(%rax),%rcx
	testq	%rcx,%rcx
	js	47f
	movzbl	(%rcx,%r8),%ecx
	cmpl	$4,%r14d
	jne	12f
	movb	$32,%bpl
	movb	$32,%r15b
	jmp	40f
11:
	movsbq	6(%rax),%r15
	testq	%r15,%r15
	js	17f
	movzbl	(%r15,%r8),%r15d
	cmpl	$5,%r14d
	jne	11f
	movb	$32,%bpl
	jmp	36f
12:
	movsbq	6(%rax),%r15
	testq	%r15,%r15
	js	47f
	movzbl	(%r15,%r8),%r15d
	cmpl	$5,%r14d
	jne	12f
	movb	$32,%bpl
	jmp	40f
11:
	movsbq	7(%rax),%rbp
	testq	%rbp,%rbp
	js	17f
	movzbl	(%rbp,%r8),%ebp
	cmpl	$6,%r14d
	je	36f
	movsbq	8(%rax),%r9
	testq	%r9,%r9
	js	17f
	movzbl	(%r9,%r8),%r9d
	cmpl	$7,%r14d
	je	36f
	movsbq	9(%rax),%rax
	testq	%rax,%rax
	js	17f
	movzbl	(%rax,%r8),%r11d
	shlq	$56,%r11
36:
	movzbl	48(%rsp),%edx
32:
	movzbl	%r9b,%eax
	shlq	$48,%rax
	orq	%r11,%rax
	movzbl	%bpl,%r8d
	shlq	$40,%r8
	movzbl	%r15b,%r9d
	shlq	$32,%r9
	orq	%r8,%r9
	orq	%rax,%r9
	movzbl	%cl,%eax
	shll	$24,%eax
	movzbl	%r10b,%r8d
	shll	$16,%r8d
	orq	%rax,%r8
	movzbl	%dl,%edx
	shll	$8,%edx
	orq	%r8,%rdx
	orq	%r9,%rdx
	orq	56(%rsp),%rdx
	jmp	1f
17:
	leaq	64(%rsp),%rcx
	movq	%r14,%r8
	callq	rtp_core.str.utf8.from_utf8
	cmpb	$0,64(%rsp)
	jne	13b
	movabsq	$2314885530818453536,%rdx
	movq	72(%rsp),%rax
	movq	80(%rsp),%rcx
	movq	%rdx,96(%rsp)
	testq	%rcx,%rcx
	je	1f
	movl	$1,%edx
	xorl	%r8d,%r8d
	.p2align	4
11:
	movzbl	-1(%rax,%rdx),%r9d
	cmpb	$-64,%r9b
	jl	17f
	leaq	rtp_static.37(%rip),%r10
	movzbl	(%r9,%r10),%r9d
	movb	%r9b,96(%rsp,%r8)
	incq	%r8
17:
	cmpq	%rcx,%rdx
	jae	17f
	incq	%rdx
	cmpq	$8,%r8
	jne	11b
17:
	movq	96(%rsp),%rdx
1:
	movb	$1,141(%rdi)
	movq	%rdx,142(%rdi)
	jmp	13b
12:
	movsbq	7(%rax),%rbp
	testq	%rbp,%rbp
	js	47f
	movzbl	(%rbp,%r8),%ebp
	cmpl	$6,%r14d
	je	40f
	movsbq	8(%rax),%r9
	testq	%r9,%r9
	js	47f
	movzbl	(%r9,%r8),%r9d
	cmpl	$7,%r14d
	je	40f
	movsbq	9(%rax),%rax
	testq	%rax,%rax
	js	47f
	movzbl	(%rax,%r8),%r11d
	shlq	$56,%r11
40:
	movzbl	48(%rsp),%edx
50:
	movzbl	%r9b,%eax
	shlq	$48,%rax
	orq	%r11,%rax
	movzbl	%bpl,%r8d
	shlq	$40,%r8
	movzbl	%r15b,%r9d
	shlq	$32,%r9
	orq	%r8,%r9
	orq	%rax,%r9
	movzbl	%cl,%eax
	shll	$24,%eax
	movzbl	%r10b,%r8d
	shll	$16,%r8d
	orq	%rax,%r8
	movzbl	%dl,%edx
	shll	$8,%edx
	orq	%r8,%rdx
	orq	%r9,%rdx
	orq	56(%rsp),%rdx
	jmp	25f
47:
	leaq	64(%rsp),%rcx
	movq	%r14,%r8
	callq	rtp_core.str.utf8.from_utf8
	cmpb	$0,64(%rsp)
	jne	13b
	movabsq	$2314885530818453536,%rdx
	movq	72(%rsp),%rax
	movq	80(%rsp),%rcx
	movq	%rdx,96(%rsp)
	testq	%rcx,%rcx
	je	25f
	movl	$1,%edx
	xorl	%r8d,%r8d
	.p2align	4
1:
	movzbl	-1(%rax,%rdx),%r9d
	cmpb	$-64,%r9b
	jl	11f
	leaq	rtp_static.37(%rip),%r10
	movzbl	(%r9,%r10),%r9d
	movb	%r9b,96(%rsp,%r8)
	incq	%r8
11:
	cmpq	%rcx,%rdx
	jae	11f
	incq	%rdx
	cmpq	$8,%r8
	jne	1b
11:
	movq	96(%rsp),%rdx
25:
	movb	$1,132(%rdi)
	movq	%rdx,133(%rdi)
	jmp	13b
3:
	xorl	%eax,%eax
1:
	movaps	208(%rsp),%xmm6
	addq	$232,%rsp
	popq	%rbx
	popq	%rbp
	popq	%rdi
	popq	%rsi
	popq	%r12
	popq	%r13
	popq	%r14
	popq	%r15
	retq
9:
	movb	$1,%al
	jmp	1b
	.section	.rdata,"dr"
	.p2align	2,0x0
4:
	.long	15b-4b
	.long	38b-4b
	.long	41b-4b
	.long	33b-4b
	.long	43b-4b
	.long	45b-4b
	.long	42b-4b
	.long	51b-4b
	.long	37b-4b
	.long	46b-4b
	.long	10b-4b
	.long	35b-4b
	.long	44b-4b
	.long	13b-4b
	.long	16b-4b
2:
	.long	7b-2b
	.long	23b-2b
	.long	5b-2b
	.long	18b-2b
	.long	27b-2b
	.long	29b-2b
	.long	26b-2b
	.long	34b-2b
	.long	22b-2b
	.long	30b-2b
	.long	14b-2b
	.long	19b-2b
	.long	28b-2b
	.long	6b-2b
	.long	8b-2b
	.section	.text$rtp_ext.block_values.read_values.77e50c5f4ddfc773,"xr"
	.seh_endproc

	.def	rtp_ext.elements.skip_zeros;
	.scl	3;
	.type	32;
	.endef
	.section	.text$unlikely$rtp_ext.elements.skip_zeros,"xr"
	.p2align	4
rtp_ext.elements.skip_zeros:
	leaq	-1(%rcx),%r10
	movq	%rdx,%rax
	.p2align	4
1:
	movq	%rax,%r8
	movq	%r10,%r9
	subq	$16,%rax
	jb	2f
	movq	9(%r9),%r11
	leaq	16(%r9),%r10
	orq	1(%r9),%r11
	je	1b
2:
	addq	%rdx,%rcx
	.p2align	4
1:
	movq	%r8,%rdx
	subq	$1,%r8
	jb	2f
	leaq	1(%r9),%rax
	cmpb	$0,1(%r9)
	movq	%rax,%r9
	je	1b
	retq
2:
	movq	%rcx,%rax
	retq

	.def	rtp_ext.block_values.is_another_allocation;
	.scl	3;
	.type	32;
	.endef
	.section	.text$rtp_ext.block_values.is_another_allocation,"xr"
	.p2align	4
rtp_ext.block_values.is_another_allocation:
.seh_proc rtp_ext.block_values.is_another_allocation
	pushq	%r14
	.seh_pushreg %r14
	pushq	%rsi
	.seh_pushreg %rsi
	pushq	%rdi
	.seh_pushreg %rdi
	pushq	%rbx
	.seh_pushreg %rbx
	subq	$56,%rsp
	.seh_stackalloc 56
	.seh_endprologue
	testq	%rdx,%rdx
	je	1f
	movq	%rdx,%rsi
	cmpq	$1,%rdx
	jne	2f
	cmpb	$0,(%rcx)
	sete	%al
	jmp	3f
2:
	leaq	1(%rcx),%rdi
	decq	%rsi
	movzbl	(%rcx),%r8d
	movl	%r8d,%r9d
	shrl	$4,%r9d
	andl	$3,%r9d
	leal	1(%r9),%edx
	andb	$15,%r8b
	je	2f
	movzbl	%r8b,%ecx
	shll	$2,%ecx
	movabsq	$4841987667533046032,%rax
	shrq	%cl,%rax
	andl	$7,%eax
	mulb	%dl
4:
	movzbl	%al,%ebx
	leal	3(%rbx),%ecx
	shrl	$2,%ecx
	xorl	%eax,%eax
	subq	%rcx,%rsi
	jb	3f
	testq	%rcx,%rcx
	je	5f
	cmpl	$1,%ecx
	jne	6f
	movzbl	(%rdi),%eax
	shll	$24,%eax
5:
	testq	%rbx,%rbx
	jne	5f
7:
	movb	$1,%al
	jmp	3f
2:
	movl	%r9d,%r10d
	addl	$2,%r10d
	shrl	%r10d
	subq	%r10,%rsi
	jae	2f
1:
	xorl	%eax,%eax
3:
	addq	$56,%rsp
	popq	%rbx
	popq	%rdi
	popq	%rsi
	popq	%r14
	retq
2:
	movzbl	(%rdi),%eax
	shrb	$4,%al
	testb	%r9b,%r9b
	je	2f
	movzbl	(%rdi),%ebx
	andb	$15,%bl
	cmpb	$2,%dl
	jne	8f
	movl	%r8d,%r11d
	jmp	9f
6:
	cmpb	$8,%bl
	ja	6f
	movzwl	(%rdi),%eax
	bswapl	%eax
	testq	%rbx,%rbx
	jne	5f
	jmp	7b
2:
	movl	%r8d,%ebx
	movl	%r8d,%r11d
	jmp	9f
6:
	cmpl	$3,%ecx
	jne	2f
	movzbl	(%rdi),%edx
	movzwl	1(%rdi),%eax
	shll	$8,%eax
	orl	%edx,%eax
	jmp	6f
8:
	movzbl	2(%rcx),%r11d
	shrb	$4,%r11b
	cmpb	$3,%dl
	je	9f
	movzbl	2(%rcx),%ecx
	andb	$15,%cl
	movzbl	%cl,%ecx
	shll	$2,%ecx
	movabsq	$4841987667533046032,%r8
	shrq	%cl,%r8
	andl	$7,%r8d
9:
	movzbl	%al,%ecx
	shll	$2,%ecx
	movabsq	$4841987667533046032,%r14
	movq	%r14,%rax
	shrq	%cl,%rax
	addq	%r10,%rdi
	andl	$7,%eax
	testb	%r9b,%r9b
	je	4b
	movzbl	%bl,%ecx
	shll	$2,%ecx
	movq	%r14,%r9
	shrq	%cl,%r9
	andl	$7,%r9d
	addb	%r9b,%al
	cmpb	$2,%dl
	je	4b
	movzbl	%r11b,%ecx
	shll	$2,%ecx
	shrq	%cl,%r14
	andl	$7,%r14d
	addb	%r14b,%al
	addb	%al,%r8b
	cmpb	$3,%dl
	movzbl	%al,%ecx
	movzbl	%r8b,%eax
	cmovel	%ecx,%eax
	jmp	4b
2:
	movl	(%rdi),%eax
6:
	bswapl	%eax
5:
	addq	%rcx,%rdi
	movl	%eax,%eax
	leal	32(,%rbx,2),%ecx
	negl	%ecx
	shrq	%cl,%rax
	movl	%eax,%ecx
	shrl	%ecx
	andl	$1431655765,%ecx
	movl	%eax,%edx
	subl	%ecx,%edx
	movl	%edx,%ecx
	andl	$858993459,%ecx
	shrl	$2,%edx
	andl	$858993459,%edx
	addl	%ecx,%edx
	movl	%edx,%ecx
	shrl	$4,%ecx
	addl	%edx,%ecx
	andl	$252645135,%ecx
	imull	$16843009,%ecx,%r14d
	shrl	$24,%r14d
	andl	$-1431655766,%eax
	movl	%eax,%ecx
	shrl	%ecx
	subl	%ecx,%eax
	movl	%eax,%ecx
	andl	$858993459,%ecx
	shrl	$2,%eax
	andl	$858993459,%eax
	addl	%ecx,%eax
	movl	%eax,%ecx
	shrl	$4,%ecx
	addl	%eax,%ecx
	andl	$252645135,%ecx
	imull	$16843009,%ecx,%eax
	shrl	$24,%eax
	addq	%rbx,%r14
	addq	%rax,%r14
	jne	2f
4:
	movb	$1,%al
	cmpq	$5,%rsi
	jb	3b
	addq	$-5,%rsi
	movl	$1,%ecx
	.p2align	4
5:
	cmpw	$-1,(%rdi)
	je	1b
	cmpw	$-1,2(%rdi)
	je	1b
	subq	$5,%rsi
	setb	%dl
	cmpq	%rbx,%rcx
	jae	3b
	incq	%rcx
	addq	$5,%rdi
	testb	%dl,%dl
	je	5b
	jmp	3b
	.p2align	4
1:
	xorl	%esi,%esi
3:
	decq	%r14
	je	4b
2:
	testq	%rsi,%rsi
	je	1b
	cmpb	$0,(%rdi)
	js	1f
	decq	%rsi
	incq	%rdi
	jmp	3b
	.p2align	4
1:
	cmpq	$1,%rsi
	je	1f
	cmpb	$0,1(%rdi)
	js	1f
	movl	$2,%eax
	jmp	2f
1:
	leaq	32(%rsp),%rcx
	movq	%rdi,%rdx
	movq	%rsi,%r8
	callq	rtp_vla.leb.long_number_at
	cmpb	$1,32(%rsp)
	jne	3b
	movq	48(%rsp),%rax
2:
	addq	%rax,%rdi
	subq	%rax,%rsi
	jmp	3b
	.seh_endproc

	.def	rtp_vla.leb.long_number_at;
	.scl	3;
	.type	32;
	.endef
	.section	.text$rtp_vla.leb.long_number_at,"xr"
	.p2align	4
rtp_vla.leb.long_number_at:
	testq	%r8,%r8
	je	1f
	movzbl	(%rdx),%eax
	movl	%eax,%r10d
	andl	$127,%eax
	movl	$1,%r9d
	testb	%r10b,%r10b
	js	2f
3:
	movq	$1,(%rcx)
	movq	%rax,8(%rcx)
	movq	%r9,16(%rcx)
	retq
2:
	cmpq	$1,%r8
	jne	2f
1:
	xorps	%xmm0,%xmm0
	movups	%xmm0,(%rcx)
	movq	$0,16(%rcx)
	retq
2:
	movzbl	1(%rdx),%r9d
	movl	%r9d,%r10d
	andl	$127,%r9d
	shll	$7,%r9d
	orq	%r9,%rax
	movl	$2,%r9d
	testb	%r10b,%r10b
	jns	3b
	cmpq	$2,%r8
	je	1b
	movzbl	2(%rdx),%r9d
	movl	%r9d,%r10d
	andl	$127,%r9d
	shll	$14,%r9d
	orq	%r9,%rax
	movl	$3,%r9d
	testb	%r10b,%r10b
	jns	3b
	cmpq	$3,%r8
	je	1b
	movzbl	3(%rdx),%r9d
	movl	%r9d,%r10d
	andl	$127,%r9d
	shll	$21,%r9d
	orq	%r9,%rax
	movl	$4,%r9d
	testb	%r10b,%r10b
	jns	3b
	cmpq	$4,%r8
	je	1b
	movzbl	4(%rdx),%r9d
	movl	%r9d,%r10d
	andl	$127,%r9d
	shlq	$28,%r9
	orq	%r9,%rax
	movl	$5,%r9d
	testb	%r10b,%r10b
	jns	3b
	cmpq	$5,%r8
	je	1b
	movzbl	5(%rdx),%r9d
	movl	%r9d,%r10d
	andl	$127,%r9d
	shlq	$35,%r9
	orq	%r9,%rax
	movl	$6,%r9d
	testb	%r10b,%r10b
	jns	3b
	cmpq	$6,%r8
	je	1b
	movzbl	6(%rdx),%r9d
	movl	%r9d,%r10d
	andl	$127,%r9d
	shlq	$42,%r9
	orq	%r9,%rax
	movl	$7,%r9d
	testb	%r10b,%r10b
	jns	3b
	cmpq	$7,%r8
	je	1b
	movzbl	7(%rdx),%r9d
	movl	%r9d,%r10d
	andl	$127,%r9d
	shlq	$49,%r9
	orq	%r9,%rax
	movl	$8,%r9d
	testb	%r10b,%r10b
	jns	3b
	cmpq	$8,%r8
	je	1b
	movzbl	8(%rdx),%edx
	movl	%edx,%r8d
	andl	$127,%edx
	shlq	$56,%rdx
	orq	%rdx,%rax
	movl	$9,%r9d
	testb	%r8b,%r8b
	jns	3b
	movq	$1,(%rcx)
	movq	%rax,8(%rcx)
	movq	$9,16(%rcx)
	retq

	.def	rtp_values.value.set_values.ExtensionValuesSetValues.read_layers;
	.scl	3;
	.type	32;
	.endef
	.section	.text$rtp_values.value.set_values.ExtensionValuesSetValues.read_layers,"xr"
	.p2align	4
rtp_values.value.set_values.ExtensionValuesSetValues.read_layers:
.seh_proc rtp_values.value.set_values.ExtensionValuesSetValues.read_layers
	pushq	%r15
	.seh_pushreg %r15
	pushq	%r14
	.seh_pushreg %r14
	pushq	%r13
	.seh_pushreg %r13
	pushq	%r12
	.seh_pushreg %r12
	pushq	%rsi
	.seh_pushreg %rsi
	pushq	%rdi
	.seh_pushreg %rdi
	pushq	%rbp
	.seh_pushreg %rbp
	pushq	%rbx
	.seh_pushreg %rbx
	subq	$296,%rsp
	.seh_stackalloc 296
	movaps	%xmm15,272(%rsp)
	.seh_savexmm %xmm15,272
	movaps	%xmm14,256(%rsp)
	.seh_savexmm %xmm14,256
	movaps	%xmm13,240(%rsp)
	.seh_savexmm %xmm13,240
	movaps	%xmm12,224(%rsp)
	.seh_savexmm %xmm12,224
	movaps	%xmm11,208(%rsp)
	.seh_savexmm %xmm11,208
	movaps	%xmm10,192(%rsp)
	.seh_savexmm %xmm10,192
	movaps	%xmm9,176(%rsp)
	.seh_savexmm %xmm9,176
	movaps	%xmm8,160(%rsp)
	.seh_savexmm %xmm8,160
	movaps	%xmm7,144(%rsp)
	.seh_savexmm %xmm7,144
	movaps	%xmm6,128(%rsp)
	.seh_savexmm %xmm6,128
	.seh_endprologue
	testq	%r8,%r8
	je	1f
	movq	%r8,%r14
	movq	%rcx,%r15
	cmpq	$1,%r8
	jne	2f
	movzbl	(%rdx),%ebx
	testb	%bl,%bl
	jne	3f
	leaq	32(%rsp),%r8
	xorl	%eax,%eax
	xorl	%edx,%edx
4:
	movzbl	176(%r15),%ecx
	movq	192(%r15),%rsi
	movq	200(%r15),%r14
	movq	208(%r15),%rbx
	movq	$1,176(%r15)
	movq	%rax,184(%r15)
	movq	%r8,192(%r15)
	movq	%rdx,200(%r15)
	movq	%rdx,208(%r15)
	cmpb	$1,%cl
	jne	1f
	testq	%r14,%r14
	je	5f
	xorl	%r15d,%r15d
	jmp	6f
	.p2align	4
7:
	incq	%r15
	cmpq	%r14,%r15
	je	5f
6:
	leaq	(%r15,%r15,2),%rax
	movq	(%rsi,%rax,8),%rdi
	movq	8(%rsi,%rax,8),%r13
	movq	16(%rsi,%rax,8),%r12
	testq	%r13,%r13
	je	6f
	leaq	16(%rdi),%rbp
	jmp	8f
	.p2align	4
9:
	addq	$32,%rbp
	decq	%r13
	je	6f
8:
	cmpq	$0,(%rbp)
	je	9b
	movq	-16(%rbp),%rcx
	callq	rattle_dealloc
	jmp	9b
	.p2align	4
6:
	testq	%r12,%r12
	je	7b
	movq	%rdi,%rcx
	callq	rattle_dealloc
	jmp	7b
2:
	movzbl	(%rdx),%ebx
3:
	leaq	1(%rdx),%r8
	decq	%r14
	movl	%ebx,%r9d
	shrb	$4,%r9b
	andb	$3,%r9b
	leal	1(%r9),%eax
	movzbl	%al,%edi
	movl	%ebx,%eax
	andb	$15,%al
	movzbl	%al,%ecx
	imull	$16843009,%ecx,%eax
	movl	%eax,36(%rsp)
	testb	%cl,%cl
	je	2f
	shll	$2,%ecx
	movabsq	$4841987667533046032,%rdx
	shrq	%cl,%rdx
	andl	$7,%edx
	movl	%edi,%eax
	mulb	%dl
	jmp	3f
2:
	leal	1(%rdi),%ecx
	shrl	%ecx
	subq	%rcx,%r14
	jb	1f
	movzbl	(%r8),%eax
	shrb	$4,%al
	movb	%al,36(%rsp)
	testb	%r9b,%r9b
	je	2f
	movzbl	(%r8),%eax
	andb	$15,%al
	movb	%al,37(%rsp)
	cmpl	$2,%edi
	je	2f
	movzbl	2(%rdx),%eax
	shrb	$4,%al
	movb	%al,38(%rsp)
	cmpl	$3,%edi
	je	2f
	movzbl	2(%rdx),%eax
	andb	$15,%al
	movb	%al,39(%rsp)
2:
	movzbl	36(%rsp),%eax
	imull	$134480385,%eax,%eax
	shrl	$3,%eax
	andl	$286331153,%eax
	imull	$286331153,%eax,%eax
	shrl	$28,%eax
	testb	%r9b,%r9b
	je	2f
	movzbl	37(%rsp),%edx
	imull	$134480385,%edx,%edx
	shrl	$3,%edx
	andl	$286331153,%edx
	imull	$286331153,%edx,%edx
	shrl	$28,%edx
	addb	%dl,%al
	cmpl	$2,%edi
	je	2f
	movzbl	38(%rsp),%edx
	imull	$134480385,%edx,%edx
	shrl	$3,%edx
	andl	$286331153,%edx
	imull	$286331153,%edx,%edx
	shrl	$28,%edx
	addb	%dl,%al
	cmpl	$3,%edi
	je	2f
	movzbl	39(%rsp),%edx
	imull	$134480385,%edx,%edx
	shrl	$3,%edx
	andl	$286331153,%edx
	imull	$286331153,%edx,%edx
	shrl	$28,%edx
	addb	%dl,%al
2:
	addq	%rcx,%r8
3:
	movzbl	%al,%esi
	leal	3(%rsi),%eax
	shrl	$2,%eax
	subq	%rax,%r14
	jae	2f
1:
	xorl	%eax,%eax
3:
	movaps	128(%rsp),%xmm6
	movaps	144(%rsp),%xmm7
	movaps	160(%rsp),%xmm8
	movaps	176(%rsp),%xmm9
	movaps	192(%rsp),%xmm10
	movaps	208(%rsp),%xmm11
	movaps	224(%rsp),%xmm12
	movaps	240(%rsp),%xmm13
	movaps	256(%rsp),%xmm14
	movaps	272(%rsp),%xmm15
	addq	$296,%rsp
	popq	%rbx
	popq	%rbp
	popq	%rdi
	popq	%rsi
	popq	%r12
	popq	%r13
	popq	%r14
	popq	%r15
	retq
2:
	leaq	(%r8,%rax),%r12
	testq	%rax,%rax
	movq	%rdi,56(%rsp)
	je	2f
	cmpl	$1,%eax
	jne	6f
	movzbl	(%r8),%r9d
	shll	$24,%r9d
	movq	%r14,%r8
	movq	%r12,%rdx
	testq	%rsi,%rsi
	jne	7f
	jmp	8f
2:
	xorl	%r9d,%r9d
	movq	%r14,%r8
	movq	%r12,%rdx
	testq	%rsi,%rsi
	jne	7f
	jmp	8f
6:
	cmpb	$8,%sil
	ja	2f
	movzwl	(%r8),%r9d
	bswapl	%r9d
	movq	%r14,%r8
	movq	%r12,%rdx
	testq	%rsi,%rsi
	jne	7f
	jmp	8f
5:
	testq	%rbx,%rbx
	je	1b
	movq	%rsi,%rcx
	callq	rattle_dealloc
	jmp	1b
2:
	cmpl	$3,%eax
	jne	2f
	movzbl	(%r8),%eax
	movzwl	1(%r8),%r9d
	shll	$8,%r9d
	orl	%eax,%r9d
	jmp	5f
2:
	movl	(%r8),%r9d
5:
	bswapl	%r9d
7:
	movl	%r9d,44(%rsp)
	movl	%r9d,%eax
	leal	32(,%rsi,2),%ecx
	negl	%ecx
	shrq	%cl,%rax
	movl	%eax,%ecx
	shrl	%ecx
	andl	$1431655765,%ecx
	movl	%eax,%edx
	subl	%ecx,%edx
	movl	%edx,%ecx
	andl	$858993459,%ecx
	shrl	$2,%edx
	andl	$858993459,%edx
	addl	%ecx,%edx
	movl	%edx,%ecx
	shrl	$4,%ecx
	addl	%edx,%ecx
	andl	$252645135,%ecx
	imull	$16843009,%ecx,%edi
	shrl	$24,%edi
	andl	$-1431655766,%eax
	movl	%eax,%ecx
	shrl	%ecx
	subl	%ecx,%eax
	movl	%eax,%ecx
	andl	$858993459,%ecx
	shrl	$2,%eax
	andl	$858993459,%eax
	addl	%ecx,%eax
	movl	%eax,%ecx
	shrl	$4,%ecx
	addl	%eax,%ecx
	andl	$252645135,%ecx
	imull	$16843009,%ecx,%eax
	shrl	$24,%eax
	addq	%rsi,%rdi
	movq	%r12,%rdx
	movq	%r14,%r8
	addq	%rax,%rdi
	je	2f
	movq	%r14,%r8
	movq	%r12,%rdx
	jmp	5f
	.p2align	4
6:
	xorl	%r8d,%r8d
7:
	decq	%rdi
	je	2f
5:
	testq	%r8,%r8
	je	6b
	cmpb	$0,(%rdx)
	js	5f
	decq	%r8
	incq	%rdx
	jmp	7b
	.p2align	4
5:
	cmpq	$1,%r8
	je	5f
	cmpb	$0,1(%rdx)
	js	5f
	movl	$2,%eax
	jmp	6f
5:
	leaq	88(%rsp),%rcx
	movq	%rdx,%r13
	movq	%r8,%rbp
	callq	rtp_vla.leb.long_number_at
	cmpb	$1,88(%rsp)
	jne	5f
	movq	104(%rsp),%rax
	movq	%rbp,%r8
	movq	%r13,%rdx
6:
	addq	%rax,%rdx
	subq	%rax,%r8
	jmp	7b
5:
	movq	%rbp,%r8
	movq	%r13,%rdx
	jmp	7b
2:
	cmpq	$5,%r8
	jae	2f
	movl	44(%rsp),%r9d
	movq	56(%rsp),%rdi
8:
	movq	%rdx,72(%rsp)
	movq	%r8,80(%rsp)
	movl	%r9d,%ebp
	movq	%rdi,%r13
	leal	(,%rdi,8),%eax
	leaq	(%rax,%rax,2),%rdi
	movl	$8,%esi
	callq	rattle_alloc
	movq	%rdx,48(%rsp)
	testb	$1,%al
	je	5f
	movq	%r15,112(%rsp)
	shrb	$6,%bl
	movb	%bl,43(%rsp)
	movl	%ebp,%r10d
	movq	%r13,%rdx
	xorl	%r9d,%r9d
	movq	48(%rsp),%r8
	jmp	6f
7:
	movq	56(%rsp),%rdx
	movq	48(%rsp),%r8
	movq	64(%rsp),%r9
	movq	120(%rsp),%rdi
9:
	leaq	(%r9,%r9,2),%rax
	movq	%rbx,(%r8,%rax,8)
	movq	%r15,8(%r8,%rax,8)
	movq	%rdi,16(%r8,%rax,8)
	incq	%r9
	cmpq	%rdx,%r9
	je	10f
6:
	movzbl	36(%rsp,%r9),%ebp
	movl	$15,%eax
	bsrl	%ebp,%eax
	xorl	$7,%eax
	movb	$8,%cl
	subb	%al,%cl
	movzbl	%cl,%edi
	testl	%ebp,%ebp
	je	6f
	movq	%r9,64(%rsp)
	movl	%r10d,%r13d
	movq	%rdi,120(%rsp)
	shll	$5,%edi
	movl	$8,%esi
	callq	rattle_alloc
	testb	$1,%al
	je	11f
	movq	%rdx,%rbx
	xorl	%r15d,%r15d
	movl	%r13d,%r10d
	jmp	12f
	.p2align	4
13:
	movq	72(%rsp),%r9
	movzwl	(%r9),%ecx
	movzwl	2(%r9),%eax
	movzbl	4(%r9),%r8d
	addq	$5,%r9
	addq	$-5,%rdx
	movq	%rdx,80(%rsp)
	rolw	$8,%cx
	rolw	$8,%ax
	incl	%ecx
	incl	%eax
	movw	$1,%dx
	movq	%r9,72(%rsp)
14:
	movq	%r15,%r9
	shlq	$5,%r9
	movq	%rsi,(%rbx,%r9)
	movq	%r13,8(%rbx,%r9)
	movq	%r13,16(%rbx,%r9)
	movw	%dx,24(%rbx,%r9)
	movw	%cx,26(%rbx,%r9)
	movw	%ax,28(%rbx,%r9)
	movb	%r8b,30(%rbx,%r9)
	movb	$0,31(%rbx,%r9)
	incq	%r15
	shrb	%bpl
	je	7b
12:
	testb	$1,%bpl
	jne	7f
	leaq	32(%rsp),%rsi
	xorl	%r13d,%r13d
	jmp	12f
	.p2align	4
7:
	movl	%r10d,44(%rsp)
	movl	%r10d,%r13d
	shrl	$30,%r13d
	leal	8(,%r13,8),%edi
	movl	$8,%esi
	callq	rattle_alloc
	testb	$1,%al
	je	7f
	movq	%rdx,%rsi
	incl	%r13d
	xorl	%edi,%edi
	jmp	15f
	.p2align	4
16:
	xorl	%eax,%eax
	xorl	%r14d,%r14d
17:
	movq	%rax,(%rsi,%rdi,8)
	incq	%rdi
	cmpq	%rdi,%r13
	je	18f
15:
	testq	%r14,%r14
	je	16b
	movsbq	(%r12),%rax
	testq	%rax,%rax
	js	15f
	decq	%r14
	incq	%r12
	jmp	17b
	.p2align	4
15:
	cmpq	$1,%r14
	je	15f
	movsbq	1(%r12),%rcx
	testq	%rcx,%rcx
	js	15f
	andl	$127,%eax
	shlq	$7,%rcx
	orq	%rcx,%rax
	movl	$2,%ecx
	jmp	16f
15:
	leaq	88(%rsp),%rcx
	movq	%r12,%rdx
	movq	%r14,%r8
	callq	rtp_vla.leb.long_number_at
	cmpb	$1,88(%rsp)
	jne	15f
	movq	96(%rsp),%rax
	movq	104(%rsp),%rcx
16:
	addq	%rcx,%r12
	subq	%rcx,%r14
	jmp	17b
15:
	xorl	%eax,%eax
	jmp	17b
	.p2align	4
18:
	movl	44(%rsp),%r10d
	shll	$2,%r10d
	movq	80(%rsp),%rdx
	cmpq	$5,%rdx
	jae	13b
12:
	xorl	%edx,%edx
	xorl	%r8d,%r8d
	xorl	%eax,%eax
	xorl	%ecx,%ecx
	jmp	14b
6:
	xorl	%r15d,%r15d
	leaq	32(%rsp),%rbx
	jmp	9b
2:
	leaq	-5(%r8),%rax
	movl	$1,%ecx
	movq	%rdx,%r11
	movl	44(%rsp),%r9d
	movq	56(%rsp),%rdi
	.p2align	4
2:
	cmpw	$-1,(%r11)
	je	1b
	cmpw	$-1,2(%r11)
	je	1b
	subq	$5,%rax
	setb	%r10b
	cmpq	%rsi,%rcx
	jae	8b
	incq	%rcx
	addq	$5,%r11
	testb	%r10b,%r10b
	je	2b
	jmp	8b
7:
	testq	%r15,%r15
	je	1f
	leaq	16(%rbx),%rsi
	jmp	2f
	.p2align	4
6:
	addq	$32,%rsi
	decq	%r15
	je	1f
2:
	cmpq	$0,(%rsi)
	je	6b
	movq	-16(%rsi),%rcx
	callq	rattle_dealloc
	jmp	6b
1:
	movq	%rbx,%rcx
	callq	rattle_dealloc
11:
	movq	64(%rsp),%r13
	testq	%r13,%r13
	movq	48(%rsp),%r12
	je	1f
	xorl	%edi,%edi
	jmp	2f
	.p2align	4
6:
	incq	%rdi
	cmpq	%r13,%rdi
	je	1f
2:
	leaq	(%rdi,%rdi,2),%rax
	movq	(%r12,%rax,8),%rsi
	movq	8(%r12,%rax,8),%r14
	movq	16(%r12,%rax,8),%rbx
	testq	%r14,%r14
	je	2f
	leaq	16(%rsi),%r15
	jmp	7f
	.p2align	4
8:
	addq	$32,%r15
	decq	%r14
	je	2f
7:
	cmpq	$0,(%r15)
	je	8b
	movq	-16(%r15),%rcx
	callq	rattle_dealloc
	jmp	8b
	.p2align	4
2:
	testq	%rbx,%rbx
	je	6b
	movq	%rsi,%rcx
	callq	rattle_dealloc
	jmp	6b
1:
	movq	%r12,%rcx
	callq	rattle_dealloc
5:
	movb	$1,%al
	jmp	3b
10:
	movzbl	43(%rsp),%eax
	movq	112(%rsp),%r15
	jmp	4b
	.seh_endproc

	.def	rtp_receive.hints.Hints.learn_now;
	.scl	3;
	.type	32;
	.endef
	.section	.text$rtp_receive.hints.Hints.learn_now,"xr"
	.p2align	4
rtp_receive.hints.Hints.learn_now:
.seh_proc rtp_receive.hints.Hints.learn_now
	pushq	%r15
	.seh_pushreg %r15
	pushq	%r14
	.seh_pushreg %r14
	pushq	%r13
	.seh_pushreg %r13
	pushq	%r12
	.seh_pushreg %r12
	pushq	%rsi
	.seh_pushreg %rsi
	pushq	%rdi
	.seh_pushreg %rdi
	pushq	%rbp
	.seh_pushreg %rbp
	pushq	%rbx
	.seh_pushreg %rbx
	subq	$216,%rsp
	.seh_stackalloc 216
	movaps	%xmm15,192(%rsp)
	.seh_savexmm %xmm15,192
	movaps	%xmm14,176(%rsp)
	.seh_savexmm %xmm14,176
	movaps	%xmm13,160(%rsp)
	.seh_savexmm %xmm13,160
	movaps	%xmm12,144(%rsp)
	.seh_savexmm %xmm12,144
	movaps	%xmm11,128(%rsp)
	.seh_savexmm %xmm11,128
	movaps	%xmm10,112(%rsp)
	.seh_savexmm %xmm10,112
	movaps	%xmm9,96(%rsp)
	.seh_savexmm %xmm9,96
	movaps	%xmm8,80(%rsp)
	.seh_savexmm %xmm8,80
	movaps	%xmm7,64(%rsp)
	.seh_savexmm %xmm7,64
	movaps	%xmm6,48(%rsp)
	.seh_savexmm %xmm6,48
	.seh_endprologue
	movq	%rdx,%rbx
	movq	%rcx,%r14
	leaq	32(%rcx),%r12
	movq	$0,32(%rcx)
	leaq	16(%rcx),%r13
	movq	16(%rcx),%rax
	testq	%rax,%rax
	je	1f
	imull	$-1640531535,%r8d,%edx
	imulq	%rax,%rdx
	shrq	$32,%rdx
	cmpq	%rdx,%rax
	jbe	2f
	movq	8(%r14),%r10
	shlq	$5,%rdx
	leaq	(%r10,%rdx),%rcx
	movdqu	(%r10,%rdx),%xmm0
	movd	%r8d,%xmm1
	pshufd	$0,%xmm1,%xmm1
	pcmpeqd	%xmm0,%xmm1
	movmskps	%xmm1,%edx
	testl	%edx,%edx
	je	3f
	movzbl	%dl,%edx
	movl	$64,%r10d
	rep		bsfq	%rdx,%r10
	cmpq	$3,%r10
	ja	2f
4:
	movl	%r8d,(%rcx,%r10,4)
	movl	%r9d,16(%rcx,%r10,4)
	movq	(%r13),%rax
	jmp	5f
1:
	xorl	%eax,%eax
	jmp	5f
3:
	movdqu	16(%rcx),%xmm1
	por	%xmm0,%xmm1
	pxor	%xmm0,%xmm0
	pcmpeqd	%xmm1,%xmm0
	movmskps	%xmm0,%edx
	movl	$64,%r10d
	rep		bsfq	%rdx,%r10
	cmpq	$3,%r10
	jbe	4b
2:
	movq	$16,(%r12)
	cmpq	%rax,8(%rbx)
	jbe	1f
	movq	40(%r14),%rcx
	addq	$16,%rcx
	movq	$-1,%rdx
	cmovaeq	%rcx,%rdx
	movq	%rdx,40(%r14)
5:
	movq	40(%r14),%rcx
	incq	%rcx
	movq	$-1,%r8
	cmovneq	%rcx,%r8
	movq	%r8,40(%r14)
	movq	8(%rbx),%rcx
	shrq	$3,%rcx
	cmpq	%rcx,%rax
	cmovaq	%rax,%rcx
	movq	%rcx,%rdx
	subq	%r8,%rdx
	jbe	2f
	testq	%rax,%rax
	jne	1f
	movq	%rdx,32(%r14)
	movq	%rcx,40(%r14)
	jmp	1f
2:
	xorps	%xmm0,%xmm0
	movups	%xmm0,(%r12)
	movq	8(%r14),%rcx
	leaq	44(%rsp),%rsi
	movq	%rsi,8(%r14)
	cmpq	$0,24(%r14)
	movups	%xmm0,(%r13)
	je	2f
	callq	rattle_dealloc
2:
	movq	8(%rbx),%rbp
	testq	%rbp,%rbp
	je	2f
	movq	%rbp,%rax
	shrq	$58,%rax
	jne	1f
	movq	%rbp,%r15
	shlq	$5,%r15
	movl	$4,%esi
	movq	%r15,%rdi
	callq	rattle_alloc
	testb	$1,%al
	je	1f
	movq	%rdx,%rsi
	cmpq	$1,%rbp
	jne	3f
	xorl	%eax,%eax
	jmp	4f
2:
	xorl	%eax,%eax
	jmp	2f
3:
	addq	$-32,%r15
	movq	%rsi,%rcx
	xorl	%edx,%edx
	movq	%r15,%r8
	callq	memset
	leaq	-1(%rbp),%rax
4:
	movq	%rax,%rcx
	shlq	$5,%rcx
	xorps	%xmm0,%xmm0
	movups	%xmm0,16(%rsi,%rcx)
	movups	%xmm0,(%rsi,%rcx)
	incq	%rax
2:
	movq	8(%r14),%rcx
	movq	%rsi,8(%r14)
	movq	%rax,16(%r14)
	cmpq	$0,24(%r14)
	movq	%rbp,24(%r14)
	je	2f
	callq	rattle_dealloc
2:
	movq	8(%rbx),%rax
	testq	%rax,%rax
	je	1f
	movq	(%rbx),%rcx
	movq	%rax,%rdx
	shrq	$2,%rdx
	xorl	%r8d,%r8d
2:
	movq	%r8,%r9
	shlq	$6,%r9
	addq	%rcx,%r9
	.p2align	4
3:
	movl	(%r9),%r10d
	movq	(%r13),%r11
	imull	$-1640531535,%r10d,%esi
	imulq	%r11,%rsi
	shrq	$32,%rsi
	cmpq	%rsi,%r11
	jbe	4f
	movq	8(%r14),%rdi
	shlq	$5,%rsi
	leaq	(%rdi,%rsi),%r11
	movdqu	(%rdi,%rsi),%xmm0
	movd	%r10d,%xmm1
	pshufd	$0,%xmm1,%xmm1
	pcmpeqd	%xmm0,%xmm1
	movmskps	%xmm1,%esi
	testl	%esi,%esi
	je	5f
	movzbl	%sil,%esi
	movl	$64,%edi
	rep		bsfq	%rsi,%rdi
	cmpq	$3,%rdi
	jbe	6f
	jmp	4f
	.p2align	4
5:
	movdqu	16(%r11),%xmm1
	por	%xmm0,%xmm1
	pxor	%xmm0,%xmm0
	pcmpeqd	%xmm1,%xmm0
	movmskps	%xmm0,%esi
	movl	$64,%edi
	rep		bsfq	%rsi,%rdi
	cmpq	$3,%rdi
	ja	4f
6:
	movl	%r10d,(%r11,%rdi,4)
	movl	%r8d,16(%r11,%rdi,4)
	incq	%r8
	addq	$64,%r9
	cmpq	%rax,%r8
	jb	3b
	jmp	1f
	.p2align	4
4:
	subq	$1,%rdx
	jb	3f
	incq	%r8
	cmpq	%rax,%r8
	jb	2b
	jmp	1f
3:
	movq	8(%r14),%rcx
	leaq	44(%rsp),%rax
	movq	%rax,8(%r14)
	xorps	%xmm0,%xmm0
	cmpq	$0,24(%r14)
	movups	%xmm0,(%r13)
	je	2f
	callq	rattle_dealloc
2:
	movq	8(%rbx),%rax
	movq	%rax,%rcx
	shrq	$60,%rcx
	shlq	$4,%rax
	xorl	%edx,%edx
	negq	%rcx
	sbbq	%rdx,%rdx
	orq	%rax,%rdx
	movq	%rdx,(%r12)
1:
	movaps	48(%rsp),%xmm6
	movaps	64(%rsp),%xmm7
	movaps	80(%rsp),%xmm8
	movaps	96(%rsp),%xmm9
	movaps	112(%rsp),%xmm10
	movaps	128(%rsp),%xmm11
	movaps	144(%rsp),%xmm12
	movaps	160(%rsp),%xmm13
	movaps	176(%rsp),%xmm14
	movaps	192(%rsp),%xmm15
	addq	$216,%rsp
	popq	%rbx
	popq	%rbp
	popq	%rdi
	popq	%rsi
	popq	%r12
	popq	%r13
	popq	%r14
	popq	%r15
	retq
	.seh_endproc

	.def	rtp_std_alloc.vec.Vec.grow_amortized.fc13275a563fcb41;
	.scl	3;
	.type	32;
	.endef
	.section	.text$unlikely$rtp_std_alloc.vec.Vec.grow_amortized.fc13275a563fcb41,"xr"
	.p2align	4
rtp_std_alloc.vec.Vec.grow_amortized.fc13275a563fcb41:
.seh_proc rtp_std_alloc.vec.Vec.grow_amortized.fc13275a563fcb41
	pushq	%r14
	.seh_pushreg %r14
	pushq	%rsi
	.seh_pushreg %rsi
	pushq	%rdi
	.seh_pushreg %rdi
	pushq	%rbx
	.seh_pushreg %rbx
	subq	$168,%rsp
	.seh_stackalloc 168
	movaps	%xmm15,144(%rsp)
	.seh_savexmm %xmm15,144
	movaps	%xmm14,128(%rsp)
	.seh_savexmm %xmm14,128
	movaps	%xmm13,112(%rsp)
	.seh_savexmm %xmm13,112
	movaps	%xmm12,96(%rsp)
	.seh_savexmm %xmm12,96
	movaps	%xmm11,80(%rsp)
	.seh_savexmm %xmm11,80
	movaps	%xmm10,64(%rsp)
	.seh_savexmm %xmm10,64
	movaps	%xmm9,48(%rsp)
	.seh_savexmm %xmm9,48
	movaps	%xmm8,32(%rsp)
	.seh_savexmm %xmm8,32
	movaps	%xmm7,16(%rsp)
	.seh_savexmm %xmm7,16
	movaps	%xmm6,(%rsp)
	.seh_savexmm %xmm6,0
	.seh_endprologue
	movq	8(%rcx),%rsi
	cmpq	$-1,%rsi
	je	1f
	movq	16(%rcx),%rax
	cmpq	$4,%rsi
	movl	$3,%ebx
	cmovaeq	%rsi,%rbx
	incq	%rbx
	movq	%rax,%rdx
	shrq	$62,%rdx
	leaq	(%rax,%rax),%rdi
	cmpq	%rdi,%rbx
	cmovaq	%rbx,%rdi
	testq	%rdx,%rdx
	cmoveq	%rdi,%rbx
	movq	%rbx,%rdx
	shrq	$57,%rdx
	jne	1f
	testq	%rax,%rax
	je	2f
	movq	%rcx,%r14
	movq	(%rcx),%rdi
	shlq	$6,%rsi
	movq	%rbx,%rdx
	shlq	$6,%rdx
	movl	$16,%ecx
	callq	rattle_realloc
	testb	$1,%al
	je	1f
3:
	movq	%rdx,(%r14)
	movq	%rbx,16(%r14)
	movb	$1,%al
	jmp	4f
2:
	movq	%rcx,%r14
	shlq	$6,%rdi
	movl	$16,%esi
	callq	rattle_alloc
	testb	$1,%al
	jne	3b
1:
	xorl	%eax,%eax
4:
	movaps	(%rsp),%xmm6
	movaps	16(%rsp),%xmm7
	movaps	32(%rsp),%xmm8
	movaps	48(%rsp),%xmm9
	movaps	64(%rsp),%xmm10
	movaps	80(%rsp),%xmm11
	movaps	96(%rsp),%xmm12
	movaps	112(%rsp),%xmm13
	movaps	128(%rsp),%xmm14
	movaps	144(%rsp),%xmm15
	addq	$168,%rsp
	popq	%rbx
	popq	%rdi
	popq	%rsi
	popq	%r14
	retq
	.seh_endproc

	.def	rtp_std_alloc.vec.Vec.drop.96fc43e7743eb198;
	.scl	3;
	.type	32;
	.endef
	.section	.text$rtp_std_alloc.vec.Vec.drop.96fc43e7743eb198,"xr"
	.p2align	4
rtp_std_alloc.vec.Vec.drop.96fc43e7743eb198:
.seh_proc rtp_std_alloc.vec.Vec.drop.96fc43e7743eb198
	pushq	%r15
	.seh_pushreg %r15
	pushq	%r14
	.seh_pushreg %r14
	pushq	%r13
	.seh_pushreg %r13
	pushq	%r12
	.seh_pushreg %r12
	pushq	%rsi
	.seh_pushreg %rsi
	pushq	%rdi
	.seh_pushreg %rdi
	pushq	%rbp
	.seh_pushreg %rbp
	pushq	%rbx
	.seh_pushreg %rbx
	subq	$40,%rsp
	.seh_stackalloc 40
	.seh_endprologue
	movq	(%rcx),%rsi
	movq	8(%rcx),%r14
	movq	16(%rcx),%rbx
	testq	%r14,%r14
	je	1f
	xorl	%r15d,%r15d
	jmp	2f
	.p2align	4
3:
	incq	%r15
	cmpq	%r14,%r15
	je	1f
2:
	leaq	(%r15,%r15,2),%rax
	movq	(%rsi,%rax,8),%rdi
	movq	8(%rsi,%rax,8),%r13
	movq	16(%rsi,%rax,8),%r12
	testq	%r13,%r13
	je	2f
	leaq	16(%rdi),%rbp
	jmp	4f
	.p2align	4
5:
	addq	$32,%rbp
	decq	%r13
	je	2f
4:
	cmpq	$0,(%rbp)
	je	5b
	movq	-16(%rbp),%rcx
	callq	rattle_dealloc
	jmp	5b
	.p2align	4
2:
	testq	%r12,%r12
	je	3b
	movq	%rdi,%rcx
	callq	rattle_dealloc
	jmp	3b
1:
	testq	%rbx,%rbx
	je	1f
	movq	%rsi,%rcx
	addq	$40,%rsp
	popq	%rbx
	popq	%rbp
	popq	%rdi
	popq	%rsi
	popq	%r12
	popq	%r13
	popq	%r14
	popq	%r15
	jmp	rattle_dealloc
1:
	addq	$40,%rsp
	popq	%rbx
	popq	%rbp
	popq	%rdi
	popq	%rsi
	popq	%r12
	popq	%r13
	popq	%r14
	popq	%r15
	retq
	.seh_endproc

	.def	rtp_std_collections.btree.node.Node.destroy.2fe7f96373f75378;
	.scl	3;
	.type	32;
	.endef
	.section	.text$rtp_std_collections.btree.node.Node.destroy.2fe7f96373f75378,"xr"
	.p2align	4
rtp_std_collections.btree.node.Node.destroy.2fe7f96373f75378:
.seh_proc rtp_std_collections.btree.node.Node.destroy.2fe7f96373f75378
	pushq	%r15
	.seh_pushreg %r15
	pushq	%r14
	.seh_pushreg %r14
	pushq	%r13
	.seh_pushreg %r13
	pushq	%r12
	.seh_pushreg %r12
	pushq	%rsi
	.seh_pushreg %rsi
	pushq	%rdi
	.seh_pushreg %rdi
	pushq	%rbp
	.seh_pushreg %rbp
	pushq	%rbx
	.seh_pushreg %rbx
	subq	$40,%rsp
	.seh_stackalloc 40
	.seh_endprologue
	movq	%rcx,%rsi
	movzwl	(%rcx),%r15d
	leaq	64(%rcx),%rdi
	leaq	4(%rcx),%rbx
	cmpw	$0,2(%rcx)
	je	1f
	testq	%r15,%r15
	je	2f
	leaq	184(%rsi),%r12
	leaq	1(%r15),%r13
	leaq	56(%rsi),%rbp
	jmp	3f
	.p2align	4
4:
	testq	%r15,%r15
	je	2f
3:
	movq	(%r12),%r14
	decq	%r13
	xorl	%eax,%eax
	cmpq	$257,%r13
	jb	3f
	leaq	240(%rsi),%rcx
	.p2align	4
5:
	xorl	%edx,%edx
	.p2align	4
6:
	movups	-48(%rcx,%rdx,8),%xmm0
	movups	-32(%rcx,%rdx,8),%xmm1
	movups	-16(%rcx,%rdx,8),%xmm2
	movups	(%rcx,%rdx,8),%xmm3
	movups	%xmm0,-56(%rcx,%rdx,8)
	movups	%xmm1,-40(%rcx,%rdx,8)
	movups	%xmm2,-24(%rcx,%rdx,8)
	movups	%xmm3,-8(%rcx,%rdx,8)
	addq	$8,%rdx
	cmpq	$256,%rdx
	jne	6b
	addq	$256,%rax
	movq	%r13,%r8
	subq	%rax,%r8
	addq	$2048,%rcx
	cmpq	$256,%r8
	ja	5b
	cmpq	%rax,%r13
	je	5f
6:
	leaq	(%r12,%rax,8),%rcx
	leaq	(%r12,%rax,8),%rdx
	addq	$8,%rdx
	shlq	$3,%r8
	callq	memmove
5:
	movq	%r14,%rcx
	callq	rtp_std_collections.btree.node.Node.destroy.2fe7f96373f75378
	decq	%r15
	cmpq	$513,%r15
	jb	7f
	xorl	%r8d,%r8d
	movq	%rbp,%rcx
	.p2align	4
8:
	xorl	%eax,%eax
	.p2align	4
9:
	movups	-48(%rcx,%rax,4),%xmm0
	movups	-32(%rcx,%rax,4),%xmm1
	movups	-16(%rcx,%rax,4),%xmm2
	movups	(%rcx,%rax,4),%xmm3
	movups	%xmm0,-52(%rcx,%rax,4)
	movups	%xmm1,-36(%rcx,%rax,4)
	movups	%xmm2,-20(%rcx,%rax,4)
	movups	%xmm3,-4(%rcx,%rax,4)
	addq	$16,%rax
	cmpq	$512,%rax
	jne	9b
	addq	$512,%r8
	movq	%r15,%rax
	subq	%r8,%rax
	addq	$2048,%rcx
	cmpq	$512,%rax
	ja	8b
	leaq	(,%r8,4),%rcx
	leaq	(%rbx,%r8,4),%rdx
	cmpq	%r8,%r15
	jne	8f
	jmp	9f
	.p2align	4
3:
	movq	%r13,%r8
	cmpq	%rax,%r13
	jne	6b
	jmp	5b
	.p2align	4
7:
	xorl	%ecx,%ecx
	movq	%rbx,%rdx
	movq	%r15,%rax
	xorl	%r8d,%r8d
	cmpq	%r8,%r15
	je	9f
8:
	cmpq	$8,%rax
	jb	3f
	leaq	(%rcx,%rsi),%r8
	subq	%rdx,%r8
	cmpq	$32,%r8
	jae	5f
3:
	xorl	%r8d,%r8d
3:
	movq	%rax,%r10
	movq	%r8,%r9
	andq	$3,%r10
	je	6f
	leaq	(%rbx,%rcx),%r11
	movq	%r8,%r9
	.p2align	4
7:
	movl	4(%rdx,%r9,4),%r14d
	movl	%r14d,(%r11,%r9,4)
	incq	%r9
	decq	%r10
	jne	7b
6:
	subq	%rax,%r8
	cmpq	$-4,%r8
	ja	9f
	leaq	16(%rsi),%r8
	addq	%r8,%rcx
	.p2align	4
6:
	movl	4(%rdx,%r9,4),%r8d
	movl	%r8d,-12(%rcx,%r9,4)
	movl	8(%rdx,%r9,4),%r8d
	movl	%r8d,-8(%rcx,%r9,4)
	movl	12(%rdx,%r9,4),%r8d
	movl	%r8d,-4(%rcx,%r9,4)
	movl	16(%rdx,%r9,4),%r8d
	movl	%r8d,(%rcx,%r9,4)
	addq	$4,%r9
	cmpq	%r9,%rax
	jne	6b
	jmp	9f
5:
	movl	%eax,%r8d
	andl	$1016,%r8d
	leaq	20(%rsi),%r9
	addq	%rcx,%r9
	xorl	%r10d,%r10d
	.p2align	4
5:
	movups	4(%rdx,%r10,4),%xmm0
	movups	20(%rdx,%r10,4),%xmm1
	movups	%xmm0,-16(%r9,%r10,4)
	movups	%xmm1,(%r9,%r10,4)
	addq	$8,%r10
	cmpq	%r10,%r8
	jne	5b
	cmpq	%r8,%rax
	jne	3b
	.p2align	4
9:
	cmpq	$257,%r15
	jb	3f
	xorl	%r8d,%r8d
	leaq	120(%rsi),%rcx
	.p2align	4
5:
	xorl	%eax,%eax
	.p2align	4
6:
	movups	-48(%rcx,%rax,8),%xmm0
	movups	-32(%rcx,%rax,8),%xmm1
	movups	-16(%rcx,%rax,8),%xmm2
	movups	(%rcx,%rax,8),%xmm3
	movups	%xmm0,-56(%rcx,%rax,8)
	movups	%xmm1,-40(%rcx,%rax,8)
	movups	%xmm2,-24(%rcx,%rax,8)
	movups	%xmm3,-8(%rcx,%rax,8)
	addq	$8,%rax
	cmpq	$256,%rax
	jne	6b
	addq	$256,%r8
	movq	%r15,%rax
	subq	%r8,%rax
	addq	$2048,%rcx
	cmpq	$256,%rax
	ja	5b
	leaq	(,%r8,8),%rcx
	leaq	(%rdi,%r8,8),%rdx
	cmpq	%r8,%r15
	je	4b
	jmp	5f
	.p2align	4
3:
	xorl	%ecx,%ecx
	movq	%rdi,%rdx
	movq	%r15,%rax
	xorl	%r8d,%r8d
	cmpq	%r8,%r15
	je	4b
5:
	cmpq	$4,%rax
	jb	3f
	leaq	(%rcx,%rbp),%r8
	subq	%rdx,%r8
	cmpq	$32,%r8
	jae	5f
3:
	xorl	%r8d,%r8d
3:
	movq	%rax,%r10
	movq	%r8,%r9
	andq	$3,%r10
	je	6f
	leaq	(%rdi,%rcx),%r11
	movq	%r8,%r9
	.p2align	4
7:
	movq	8(%rdx,%r9,8),%r14
	movq	%r14,(%r11,%r9,8)
	incq	%r9
	decq	%r10
	jne	7b
6:
	subq	%rax,%r8
	cmpq	$-4,%r8
	ja	4b
	leaq	88(%rsi),%r8
	addq	%r8,%rcx
	.p2align	4
6:
	movq	8(%rdx,%r9,8),%r8
	movq	%r8,-24(%rcx,%r9,8)
	movq	16(%rdx,%r9,8),%r8
	movq	%r8,-16(%rcx,%r9,8)
	movq	24(%rdx,%r9,8),%r8
	movq	%r8,-8(%rcx,%r9,8)
	movq	32(%rdx,%r9,8),%r8
	movq	%r8,(%rcx,%r9,8)
	addq	$4,%r9
	cmpq	%r9,%rax
	jne	6b
	jmp	4b
5:
	movl	%eax,%r8d
	andl	$508,%r8d
	leaq	80(%rsi),%r9
	addq	%rcx,%r9
	xorl	%r10d,%r10d
	.p2align	4
5:
	movups	8(%rdx,%r10,8),%xmm0
	movups	24(%rdx,%r10,8),%xmm1
	movups	%xmm0,-16(%r9,%r10,8)
	movups	%xmm1,(%r9,%r10,8)
	addq	$4,%r10
	cmpq	%r10,%r8
	jne	5b
	cmpq	%r8,%rax
	je	4b
	jmp	3b
2:
	movq	184(%rsi),%rcx
	callq	rtp_std_collections.btree.node.Node.destroy.2fe7f96373f75378
	jmp	2f
1:
	cmpw	$15,%r15w
	jbe	1f
	movl	%r15d,%r14d
	shrl	%r14d
	subq	%r14,%r15
	leaq	(%rbx,%r15,4),%rdx
	movq	%rbx,%rcx
	movq	%r14,%r8
	callq	rtp_core.slice.edits.mirror.24.rtp_base.id.ssrc.Ssrc
	leaq	(%rdi,%r15,8),%rdx
	movq	%rdi,%rcx
	movq	%r14,%r8
	callq	rtp_core.slice.edits.mirror.i64
	jmp	2f
1:
	cmpw	$2,%r15w
	jb	2f
	leaq	-2(%r15),%rcx
	movq	%rcx,%rax
	shrq	%rax
	cmpq	$1,%r15
	je	1f
	movl	(%rbx),%edx
	movl	-4(%rbx,%r15,4),%r8d
	movl	%r8d,(%rbx)
	movl	%edx,-4(%rbx,%r15,4)
1:
	testq	%rax,%rax
	je	1f
	cmpq	$1,%rcx
	jbe	3f
	movl	8(%rsi),%ecx
	movl	-4(%rsi,%r15,4),%edx
	movl	%edx,8(%rsi)
	movl	%ecx,-4(%rsi,%r15,4)
	jmp	4f
3:
	testq	%rcx,%rcx
	jne	4f
	rolq	$32,4(%rsi)
4:
	cmpq	$1,%rax
	je	1f
	leaq	-3(%r15),%rcx
	cmpq	$2,%rcx
	jbe	3f
	movl	12(%rsi),%ecx
	movl	-8(%rsi,%r15,4),%edx
	movl	%edx,12(%rsi)
	movl	%ecx,-8(%rsi,%r15,4)
	jmp	4f
3:
	cmpl	$2,%ecx
	je	4f
	movl	-8(%rsi,%r15,4),%ecx
	movl	12(%rsi),%edx
	movl	%edx,-8(%rsi,%r15,4)
	movl	%ecx,12(%rsi)
4:
	cmpq	$2,%rax
	je	1f
	leaq	-4(%r15),%rcx
	cmpq	$3,%rcx
	jbe	3f
	movl	16(%rsi),%ecx
	movl	-12(%rsi,%r15,4),%edx
	movl	%edx,16(%rsi)
	movl	%ecx,-12(%rsi,%r15,4)
	jmp	4f
3:
	cmpl	$3,%ecx
	je	4f
	movl	-12(%rsi,%r15,4),%ecx
	movl	16(%rsi),%edx
	movl	%edx,-12(%rsi,%r15,4)
	movl	%ecx,16(%rsi)
4:
	cmpq	$3,%rax
	je	1f
	leaq	-5(%r15),%rcx
	cmpq	$4,%rcx
	jbe	3f
	movl	20(%rsi),%ecx
	movl	-16(%rsi,%r15,4),%edx
	movl	%edx,20(%rsi)
	movl	%ecx,-16(%rsi,%r15,4)
	jmp	4f
3:
	cmpl	$4,%ecx
	je	4f
	movl	-16(%rsi,%r15,4),%ecx
	movl	20(%rsi),%edx
	movl	%edx,-16(%rsi,%r15,4)
	movl	%ecx,20(%rsi)
4:
	cmpq	$4,%rax
	je	1f
	leaq	-6(%r15),%rcx
	cmpq	$5,%rcx
	jbe	3f
	movl	24(%rsi),%ecx
	movl	-20(%rsi,%r15,4),%edx
	movl	%edx,24(%rsi)
	movl	%ecx,-20(%rsi,%r15,4)
	jmp	4f
3:
	cmpl	$5,%ecx
	je	4f
	movl	-20(%rsi,%r15,4),%ecx
	movl	24(%rsi),%edx
	movl	%edx,-20(%rsi,%r15,4)
	movl	%ecx,24(%rsi)
4:
	cmpq	$5,%rax
	je	1f
	leaq	-7(%r15),%rcx
	cmpq	$6,%rcx
	jbe	3f
	movl	28(%rsi),%ecx
	movl	-24(%rsi,%r15,4),%edx
	movl	%edx,28(%rsi)
	movl	%ecx,-24(%rsi,%r15,4)
	jmp	1f
3:
	cmpl	$6,%ecx
	je	1f
	movl	-24(%rsi,%r15,4),%ecx
	movl	28(%rsi),%edx
	movl	%edx,-24(%rsi,%r15,4)
	movl	%ecx,28(%rsi)
1:
	incq	%rax
	decq	%r15
	xorl	%ecx,%ecx
	jmp	1f
	.p2align	4
3:
	movq	(%rdi,%rcx,8),%rdx
	movq	(%rdi,%r15,8),%r8
	movq	%r8,(%rdi,%rcx,8)
	movq	%rdx,(%rdi,%r15,8)
4:
	incq	%rcx
	decq	%r15
	cmpq	%rcx,%rax
	je	2f
1:
	cmpq	%r15,%rcx
	jb	3b
	jbe	4b
	movq	(%rdi,%r15,8),%rdx
	movq	(%rdi,%rcx,8),%r8
	movq	%r8,(%rdi,%r15,8)
	movq	%rdx,(%rdi,%rcx,8)
	jmp	4b
2:
	movq	%rsi,%rcx
	addq	$40,%rsp
	popq	%rbx
	popq	%rbp
	popq	%rdi
	popq	%rsi
	popq	%r12
	popq	%r13
	popq	%r14
	popq	%r15
	jmp	rattle_dealloc
	.seh_endproc

	.def	rtp_core.slice.edits.mirror.24.rtp_base.id.ssrc.Ssrc;
	.scl	3;
	.type	32;
	.endef
	.section	.text$rtp_core.slice.edits.mirror.24.rtp_base.id.ssrc.Ssrc,"xr"
	.p2align	4
rtp_core.slice.edits.mirror.24.rtp_base.id.ssrc.Ssrc:
.seh_proc rtp_core.slice.edits.mirror.24.rtp_base.id.ssrc.Ssrc
	pushq	%rsi
	.seh_pushreg %rsi
	.seh_endprologue
	leaq	(%rcx,%r8,4),%rax
	leaq	(%rdx,%r8,4),%r9
	cmpq	%r9,%rcx
	setb	%r9b
	cmpq	%rax,%rdx
	setb	%al
	testb	%al,%r9b
	je	1f
	xorl	%eax,%eax
	jmp	2f
1:
	movabsq	$9223372036854775804,%rax
	andq	%r8,%rax
	movq	%r8,%r9
	andq	$-4,%r9
	negq	%r9
	leaq	(%rdx,%r8,4),%r10
	addq	$-16,%r10
	xorl	%r11d,%r11d
	movq	%rcx,%rsi
	.p2align	4
1:
	movdqu	(%rsi),%xmm0
	movdqu	(%r10,%r11,4),%xmm1
	pshufd	$27,%xmm1,%xmm1
	movdqu	%xmm1,(%rsi)
	pshufd	$27,%xmm0,%xmm0
	movdqu	%xmm0,(%r10,%r11,4)
	addq	$-4,%r11
	addq	$16,%rsi
	cmpq	%r11,%r9
	jne	1b
	cmpq	%rax,%r8
	je	1f
2:
	movq	%rax,%r9
	orq	$1,%r9
	testb	$1,%r8b
	je	2f
	movq	%rax,%r10
	notq	%r10
	addq	%r8,%r10
	movl	(%rcx,%rax,4),%r11d
	movl	(%rdx,%r10,4),%esi
	movl	%esi,(%rcx,%rax,4)
	movl	%r11d,(%rdx,%r10,4)
	movq	%r9,%rax
2:
	cmpq	%r9,%r8
	je	1f
	subq	%rax,%r8
	leaq	(%rcx,%rax,4),%rax
	addq	$4,%rax
	.p2align	4
2:
	movl	-4(%rax),%ecx
	movl	-4(%rdx,%r8,4),%r9d
	movl	%r9d,-4(%rax)
	movl	%ecx,-4(%rdx,%r8,4)
	movl	(%rax),%ecx
	movl	-8(%rdx,%r8,4),%r9d
	movl	%r9d,(%rax)
	movl	%ecx,-8(%rdx,%r8,4)
	addq	$8,%rax
	addq	$-2,%r8
	jne	2b
1:
	popq	%rsi
	retq
	.seh_endproc

	.def	rtp_core.slice.edits.mirror.i64;
	.scl	3;
	.type	32;
	.endef
	.section	.text$rtp_core.slice.edits.mirror.i64,"xr"
	.p2align	4
rtp_core.slice.edits.mirror.i64:
.seh_proc rtp_core.slice.edits.mirror.i64
	pushq	%rsi
	.seh_pushreg %rsi
	.seh_endprologue
	leaq	(%rcx,%r8,8),%rax
	leaq	(%rdx,%r8,8),%r9
	cmpq	%r9,%rcx
	setb	%r9b
	cmpq	%rax,%rdx
	setb	%al
	testb	%al,%r9b
	je	1f
	xorl	%eax,%eax
	jmp	2f
1:
	movabsq	$9223372036854775806,%rax
	andq	%r8,%rax
	movq	%r8,%r9
	andq	$-2,%r9
	negq	%r9
	leaq	(%rdx,%r8,8),%r10
	addq	$-16,%r10
	xorl	%r11d,%r11d
	movq	%rcx,%rsi
	.p2align	4
1:
	movdqu	(%rsi),%xmm0
	movdqu	(%r10,%r11,8),%xmm1
	pshufd	$78,%xmm1,%xmm1
	movdqu	%xmm1,(%rsi)
	pshufd	$78,%xmm0,%xmm0
	movdqu	%xmm0,(%r10,%r11,8)
	addq	$-2,%r11
	addq	$16,%rsi
	cmpq	%r11,%r9
	jne	1b
	cmpq	%rax,%r8
	je	1f
2:
	movq	%rax,%r9
	orq	$1,%r9
	testb	$1,%r8b
	je	2f
	movq	%rax,%r10
	notq	%r10
	addq	%r8,%r10
	movq	(%rcx,%rax,8),%r11
	movq	(%rdx,%r10,8),%rsi
	movq	%rsi,(%rcx,%rax,8)
	movq	%r11,(%rdx,%r10,8)
	movq	%r9,%rax
2:
	cmpq	%r9,%r8
	je	1f
	subq	%rax,%r8
	leaq	(%rcx,%rax,8),%rax
	addq	$8,%rax
	.p2align	4
2:
	movq	-8(%rax),%rcx
	movq	-8(%rdx,%r8,8),%r9
	movq	%r9,-8(%rax)
	movq	%rcx,-8(%rdx,%r8,8)
	movq	(%rax),%rcx
	movq	-16(%rdx,%r8,8),%r9
	movq	%r9,(%rax)
	movq	%rcx,-16(%rdx,%r8,8)
	addq	$16,%rax
	addq	$-2,%r8
	jne	2b
1:
	popq	%rsi
	retq
	.seh_endproc

	.def	rtp_core.fmt.formatter.Formatter.write_indented.5e1603e38c63b5f6;
	.scl	3;
	.type	32;
	.endef
	.section	.text$unlikely$rtp_core.fmt.formatter.Formatter.write_indented.5e1603e38c63b5f6,"xr"
	.p2align	4
rtp_core.fmt.formatter.Formatter.write_indented.5e1603e38c63b5f6:
.seh_proc rtp_core.fmt.formatter.Formatter.write_indented.5e1603e38c63b5f6
	pushq	%r15
	.seh_pushreg %r15
	pushq	%r14
	.seh_pushreg %r14
	pushq	%r13
	.seh_pushreg %r13
	pushq	%r12
	.seh_pushreg %r12
	pushq	%rsi
	.seh_pushreg %rsi
	pushq	%rdi
	.seh_pushreg %rdi
	pushq	%rbx
	.seh_pushreg %rbx
	subq	$32,%rsp
	.seh_stackalloc 32
	.seh_endprologue
	testq	%r8,%r8
	je	1f
	movq	%r8,%rsi
	movq	%rdx,%rdi
	movq	%rcx,%rbx
	xorl	%ecx,%ecx
	xorl	%r12d,%r12d
	jmp	2f
	.p2align	4
3:
	addq	%rdi,%r15
	movb	$1,56(%rbx)
	movq	%rbx,%rcx
	movq	%r15,%rdx
	movq	%r14,%r8
	callq	rtp_core.fmt.formatter.Formatter.write_raw.5e1603e38c63b5f6
	movq	%r12,%rcx
	testb	%al,%al
	jne	4f
5:
	cmpq	%rsi,%r12
	je	6f
2:
	movq	%r12,%rax
	incq	%r12
	cmpb	$10,(%rdi,%rax)
	jne	5b
	xorl	%r15d,%r15d
	movq	%r12,%r14
	subq	%rcx,%r14
	cmovaeq	%rcx,%r15
	cmpq	%rax,%rcx
	movq	%r12,%rcx
	ja	5b
	cmpb	$1,56(%rbx)
	jne	3b
	movq	48(%rbx),%r13
	testq	%r13,%r13
	je	3b
	.p2align	4
2:
	leaq	rtp_static.66(%rip),%rdx
	movl	$4,%r8d
	movq	%rbx,%rcx
	callq	rtp_core.fmt.formatter.Formatter.write_raw.5e1603e38c63b5f6
	testb	%al,%al
	jne	4f
	decq	%r13
	jne	2b
	jmp	3b
1:
	xorl	%eax,%eax
	jmp	1f
6:
	xorl	%eax,%eax
	cmpq	%rsi,%rcx
	movq	%rcx,%r14
	cmovaq	%rax,%r14
	subq	%rcx,%rsi
	cmovbq	%rax,%rsi
	jbe	1f
	cmpb	$1,56(%rbx)
	jne	2f
	movq	48(%rbx),%r15
	testq	%r15,%r15
	je	2f
	.p2align	4
3:
	leaq	rtp_static.66(%rip),%rdx
	movl	$4,%r8d
	movq	%rbx,%rcx
	callq	rtp_core.fmt.formatter.Formatter.write_raw.5e1603e38c63b5f6
	testb	%al,%al
	jne	4f
	decq	%r15
	jne	3b
2:
	addq	%r14,%rdi
	movb	$0,56(%rbx)
	movq	%rbx,%rcx
	movq	%rdi,%rdx
	movq	%rsi,%r8
	addq	$32,%rsp
	popq	%rbx
	popq	%rdi
	popq	%rsi
	popq	%r12
	popq	%r13
	popq	%r14
	popq	%r15
	jmp	rtp_core.fmt.formatter.Formatter.write_raw.5e1603e38c63b5f6
4:
	movb	$1,%al
1:
	addq	$32,%rsp
	popq	%rbx
	popq	%rdi
	popq	%rsi
	popq	%r12
	popq	%r13
	popq	%r14
	popq	%r15
	retq
	.seh_endproc

	.def	rtp_core.fmt.formatter.Formatter.write_raw.5e1603e38c63b5f6;
	.scl	3;
	.type	32;
	.endef
	.section	.text$rtp_core.fmt.formatter.Formatter.write_raw.5e1603e38c63b5f6,"xr"
	.p2align	4
rtp_core.fmt.formatter.Formatter.write_raw.5e1603e38c63b5f6:
.seh_proc rtp_core.fmt.formatter.Formatter.write_raw.5e1603e38c63b5f6
	pushq	%r14
	.seh_pushreg %r14
	pushq	%rsi
	.seh_pushreg %rsi
	pushq	%rdi
	.seh_pushreg %rdi
	pushq	%rbp
	.seh_pushreg %rbp
	pushq	%rbx
	.seh_pushreg %rbx
	subq	$32,%rsp
	.seh_stackalloc 32
	.seh_endprologue
	testq	%r8,%r8
	je	1f
	xorl	%r9d,%r9d
	jmp	2f
	.p2align	4
3:
	addq	%rsi,%r9
	cmpq	%r8,%r9
	jae	1f
2:
	movzbl	(%rdx,%r9),%r10d
	movl	$1,%esi
	testb	%r10b,%r10b
	jns	3b
	leaq	1(%r9),%r11
	movb	$1,%al
	cmpq	%r11,%r8
	jbe	2f
	movzbl	(%rdx,%r11),%r11d
	testb	%r11b,%r11b
	jns	2f
	movzbl	%r11b,%esi
	cmpb	$-64,%r11b
	movl	$192,%r11d
	cmovbl	%esi,%r11d
	cmpb	$-62,%r10b
	jb	2f
	movl	%r11d,%ebx
	andb	$127,%bl
	cmpb	$63,%bl
	ja	2f
	movl	$2,%esi
	cmpb	$-32,%r10b
	jb	3b
	leaq	2(%r9),%rsi
	cmpq	%rsi,%r8
	jbe	2f
	cmpb	$-65,(%rdx,%rsi)
	jg	2f
	andl	$127,%r11d
	cmpb	$-17,%r10b
	ja	4f
	movl	%r10d,%esi
	shll	$12,%esi
	shll	$6,%r11d
	addl	%esi,%r11d
	addl	$-917504,%r11d
	cmpl	$2048,%r11d
	jb	2f
	movl	$3,%esi
	cmpl	$55296,%r11d
	jb	3b
	cmpb	$-18,%r10b
	jae	3b
	jmp	2f
4:
	leaq	3(%r9),%rsi
	cmpq	%rsi,%r8
	jbe	2f
	cmpb	$-65,(%rdx,%rsi)
	jg	2f
	shll	$18,%r10d
	shll	$12,%r11d
	addl	%r11d,%r10d
	addl	$-62980096,%r10d
	movl	$4,%esi
	cmpl	$1048575,%r10d
	jbe	3b
	jmp	2f
1:
	movq	8(%rcx),%r9
	movq	16(%rcx),%rsi
	movq	%rsi,%rax
	subq	%r9,%rax
	cmpq	%rax,%r8
	ja	1f
3:
	leaq	8(%rcx),%rax
	leaq	(%r9,%r8),%rdi
	movq	(%rcx),%rbx
	xorps	%xmm0,%xmm0
	movups	%xmm0,(%rax)
	leaq	(%rbx,%r9),%rax
	movq	%rax,%r10
	subq	%rdx,%r10
	cmpq	%r8,%r10
	jae	4f
	cmpq	$4,%r8
	jb	5f
	cmpq	$32,%r10
	jae	6f
5:
	xorl	%r10d,%r10d
5:
	movq	%r8,%r14
	movq	%r10,%r11
	andq	$3,%r14
	je	7f
	movq	%r10,%r11
	.p2align	4
8:
	movzbl	(%rdx,%r11),%ebp
	movb	%bpl,(%rax,%r11)
	incq	%r11
	decq	%r14
	jne	8b
7:
	subq	%r8,%r10
	cmpq	$-4,%r10
	ja	7f
	leaq	(%r9,%rbx),%rax
	addq	$3,%rax
	.p2align	4
8:
	movzbl	(%rdx,%r11),%r9d
	movb	%r9b,-3(%rax,%r11)
	movzbl	1(%rdx,%r11),%r9d
	movb	%r9b,-2(%rax,%r11)
	movzbl	2(%rdx,%r11),%r9d
	movb	%r9b,-1(%rax,%r11)
	movzbl	3(%rdx,%r11),%r9d
	movb	%r9b,(%rax,%r11)
	addq	$4,%r11
	cmpq	%r11,%r8
	jne	8b
	jmp	7f
4:
	movq	%rcx,%r14
	movq	%rax,%rcx
	callq	memmove
	movq	%r14,%rcx
7:
	movq	%rbx,(%rcx)
	movq	%rdi,8(%rcx)
	movq	%rsi,16(%rcx)
	xorl	%eax,%eax
2:
	addq	$32,%rsp
	popq	%rbx
	popq	%rbp
	popq	%rdi
	popq	%rsi
	popq	%r14
	retq
6:
	cmpq	$32,%r8
	jae	4f
	xorl	%r10d,%r10d
	jmp	6f
4:
	movq	%r8,%r10
	andq	$-32,%r10
	leaq	(%r9,%rbx),%r11
	addq	$16,%r11
	xorl	%r14d,%r14d
	.p2align	4
4:
	movups	(%rdx,%r14),%xmm0
	movups	16(%rdx,%r14),%xmm1
	movups	%xmm0,-16(%r11,%r14)
	movups	%xmm1,(%r11,%r14)
	addq	$32,%r14
	cmpq	%r14,%r10
	jne	4b
	cmpq	%r10,%r8
	je	7b
	testb	$28,%r8b
	je	5b
6:
	movq	%r10,%r11
	movq	%r8,%r10
	andq	$-4,%r10
	.p2align	4
4:
	movl	(%rdx,%r11),%ebp
	movl	%ebp,(%rax,%r11)
	addq	$4,%r11
	cmpq	%r11,%r10
	jne	4b
	cmpq	%r10,%r8
	je	7b
	jmp	5b
1:
	movq	%rcx,%rsi
	movq	%rdx,%rdi
	movq	%r8,%rdx
	movq	%r8,%rbx
	callq	rtp_std_alloc.vec.Vec.grow_amortized.9d744d77114e6601
	movl	%eax,%r9d
	movb	$1,%al
	testb	%r9b,%r9b
	je	2b
	movq	%rdi,%rdx
	movq	%rbx,%r8
	movq	%rsi,%rcx
	movq	8(%rsi),%r9
	movq	16(%rsi),%rsi
	jmp	3b
	.seh_endproc

	.def	rtp_listing.printing.write_text.df9e9f1468b30f79;
	.scl	3;
	.type	32;
	.endef
	.section	.rdata,"dr"
	.p2align	4,0x0
1:
	.byte	0
	.byte	1
	.byte	2
	.byte	3
	.byte	4
	.byte	5
	.byte	6
	.byte	7
	.byte	8
	.byte	9
	.byte	10
	.byte	11
	.byte	12
	.byte	13
	.byte	14
	.byte	15
2:
	.byte	16
	.byte	17
	.byte	18
	.byte	19
	.byte	20
	.byte	21
	.byte	22
	.byte	23
	.byte	24
	.byte	25
	.byte	26
	.byte	27
	.byte	28
	.byte	29
	.byte	30
	.byte	31
	.section	.text$rtp_listing.printing.write_text.df9e9f1468b30f79,"xr"
	.p2align	4
rtp_listing.printing.write_text.df9e9f1468b30f79:
.seh_proc rtp_listing.printing.write_text.df9e9f1468b30f79
	pushq	%rsi
	.seh_pushreg %rsi
	pushq	%rdi
	.seh_pushreg %rdi
	pushq	%rbx
	.seh_pushreg %rbx
	subq	$128,%rsp
	.seh_stackalloc 128
	.seh_endprologue
	movq	%rdx,%rsi
	movq	%rcx,%rdi
	movq	$-1,%rbx
	jmp	3f
	.p2align	4
4:
	decq	%rbx
	je	5f
3:
	testq	%rsi,%rsi
	je	3f
	movl	$1,%ecx
	movq	%rdi,%rdx
	movq	%rsi,%r8
	callq	rtp_lines_write
	testq	%rax,%rax
	js	6f
	je	5f
	cmpq	%rsi,%rax
	cmovaeq	%rsi,%rax
	addq	%rax,%rdi
	subq	%rax,%rsi
	jmp	4b
	.p2align	4
6:
	leaq	32(%rsp),%rcx
	callq	rtp_std_io.io.error.last_error
	movq	32(%rsp),%rax
	shrq	$8,%rax
	movaps	1b(%rip),%xmm0
	movaps	%xmm0,32(%rsp)
	movaps	2b(%rip),%xmm0
	movaps	%xmm0,48(%rsp)
	movabsq	$2820983053732684064,%rcx
	movq	%rcx,64(%rsp)
	movb	$40,72(%rsp)
	cmpb	$41,%al
	jae	5f
	andl	$63,%eax
	cmpb	$35,32(%rsp,%rax)
	je	4b
5:
	movb	$1,%al
	movb	$3,%dl
	jmp	1f
3:
	xorl	%edx,%edx
	xorl	%eax,%eax
1:
	addq	$128,%rsp
	popq	%rbx
	popq	%rdi
	popq	%rsi
	retq
	.seh_endproc

	.def	main;
	.scl	2;
	.type	32;
	.endef
	.section	.rdata,"dr"
	.p2align	4,0x0
1:
	.byte	116
	.byte	104
	.byte	105
	.byte	115
	.byte	32
	.byte	109
	.byte	97
	.byte	99
	.byte	104
	.byte	105
	.byte	110
	.byte	101
	.byte	32
	.byte	108
	.byte	97
	.byte	99
2:
	.byte	107
	.byte	115
	.byte	32
	.byte	97
	.byte	32
	.byte	102
	.byte	101
	.byte	97
	.byte	116
	.byte	117
	.byte	114
	.byte	101
	.byte	32
	.byte	111
	.byte	102
	.byte	32
3:
	.byte	120
	.byte	56
	.byte	54
	.byte	45
	.byte	54
	.byte	52
	.byte	45
	.byte	118
	.byte	50
	.byte	44
	.byte	32
	.byte	119
	.byte	104
	.byte	105
	.byte	99
	.byte	104
4:
	.byte	32
	.byte	116
	.byte	104
	.byte	105
	.byte	115
	.byte	32
	.byte	112
	.byte	114
	.byte	111
	.byte	103
	.byte	114
	.byte	97
	.byte	109
	.byte	32
	.byte	119
	.byte	97
5:
	.byte	115
	.byte	32
	.byte	98
	.byte	117
	.byte	105
	.byte	108
	.byte	116
	.byte	32
	.byte	102
	.byte	111
	.byte	114
	.byte	58
	.byte	32
	.byte	114
	.byte	117
	.byte	110
6:
	.byte	32
	.byte	105
	.byte	116
	.byte	32
	.byte	111
	.byte	110
	.byte	32
	.byte	97
	.byte	110
	.byte	111
	.byte	116
	.byte	104
	.byte	101
	.byte	114
	.byte	32
	.byte	109
7:
	.byte	97
	.byte	99
	.byte	104
	.byte	105
	.byte	110
	.byte	101
	.byte	44
	.byte	32
	.byte	111
	.byte	114
	.byte	32
	.byte	98
	.byte	117
	.byte	105
	.byte	108
	.byte	100
8:
	.byte	32
	.byte	105
	.byte	116
	.byte	32
	.byte	119
	.byte	105
	.byte	116
	.byte	104
	.byte	32
	.byte	45
	.byte	45
	.byte	99
	.byte	112
	.byte	117
	.byte	32
	.byte	120
9:
	.zero	16,10
10:
	.byte	104
	.byte	116
	.byte	116
	.byte	112
	.byte	58
	.byte	47
	.byte	47
	.byte	119
	.byte	119
	.byte	119
	.byte	46
	.byte	119
	.byte	101
	.byte	98
	.byte	114
	.byte	116
11:
	.byte	99
	.byte	46
	.byte	111
	.byte	114
	.byte	103
	.byte	47
	.byte	101
	.byte	120
	.byte	112
	.byte	101
	.byte	114
	.byte	105
	.byte	109
	.byte	101
	.byte	110
	.byte	116
12:
	.byte	115
	.byte	47
	.byte	114
	.byte	116
	.byte	112
	.byte	45
	.byte	104
	.byte	100
	.byte	114
	.byte	101
	.byte	120
	.byte	116
	.byte	47
	.byte	112
	.byte	108
	.byte	97
13:
	.byte	120
	.byte	116
	.byte	47
	.byte	112
	.byte	108
	.byte	97
	.byte	121
	.byte	111
	.byte	117
	.byte	116
	.byte	45
	.byte	100
	.byte	101
	.byte	108
	.byte	97
	.byte	121
14:
	.zero	16,208
15:
	.zero	16,9
16:
	.zero	16,223
17:
	.zero	16,191
18:
	.zero	16,5
19:
	.byte	208
	.byte	208
	.byte	208
	.byte	208
	.zero	1
	.zero	1
	.zero	1
	.zero	1
	.zero	1
	.zero	1
	.zero	1
	.zero	1
	.zero	1
	.zero	1
	.zero	1
	.zero	1
20:
	.byte	9
	.byte	9
	.byte	9
	.byte	9
	.zero	1
	.zero	1
	.zero	1
	.zero	1
	.zero	1
	.zero	1
	.zero	1
	.zero	1
	.zero	1
	.zero	1
	.zero	1
	.zero	1
21:
	.byte	223
	.byte	223
	.byte	223
	.byte	223
	.zero	1
	.zero	1
	.zero	1
	.zero	1
	.zero	1
	.zero	1
	.zero	1
	.zero	1
	.zero	1
	.zero	1
	.zero	1
	.zero	1
22:
	.byte	191
	.byte	191
	.byte	191
	.byte	191
	.zero	1
	.zero	1
	.zero	1
	.zero	1
	.zero	1
	.zero	1
	.zero	1
	.zero	1
	.zero	1
	.zero	1
	.zero	1
	.zero	1
23:
	.byte	5
	.byte	5
	.byte	5
	.byte	5
	.zero	1
	.zero	1
	.zero	1
	.zero	1
	.zero	1
	.zero	1
	.zero	1
	.zero	1
	.zero	1
	.zero	1
	.zero	1
	.zero	1
24:
	.byte	58
	.byte	32
	.byte	110
	.byte	101
	.byte	105
	.byte	116
	.byte	104
	.byte	101
	.byte	114
	.byte	32
	.byte	97
	.byte	32
	.byte	109
	.byte	97
	.byte	112
	.byte	32
25:
	.byte	0
	.byte	1
	.byte	2
	.byte	3
	.byte	4
	.byte	5
	.byte	6
	.byte	7
	.byte	8
	.byte	9
	.byte	10
	.byte	11
	.byte	12
	.byte	13
	.byte	14
	.byte	15
26:
	.byte	16
	.byte	17
	.byte	18
	.byte	19
	.byte	20
	.byte	21
	.byte	22
	.byte	23
	.byte	24
	.byte	25
	.byte	26
	.byte	27
	.byte	28
	.byte	29
	.byte	30
	.byte	31
	.section	.text$main,"xr"
	.globl	main
	.p2align	4
main:
.seh_proc main
	pushq	%rbp
	.seh_pushreg %rbp
	pushq	%r15
	.seh_pushreg %r15
	pushq	%r14
	.seh_pushreg %r14
	pushq	%r13
	.seh_pushreg %r13
	pushq	%r12
	.seh_pushreg %r12
	pushq	%rsi
	.seh_pushreg %rsi
	pushq	%rdi
	.seh_pushreg %rdi
	pushq	%rbx
	.seh_pushreg %rbx
	movl	$65480,%eax
	callq	___chkstk_ms
	subq	%rax,%rsp
	.seh_stackalloc 65480
	leaq	128(%rsp),%rbp
	.seh_setframe %rbp,128
	movaps	%xmm15,65328(%rbp)
	.seh_savexmm %xmm15,65456
	movaps	%xmm14,65312(%rbp)
	.seh_savexmm %xmm14,65440
	movaps	%xmm13,65296(%rbp)
	.seh_savexmm %xmm13,65424
	movaps	%xmm12,65280(%rbp)
	.seh_savexmm %xmm12,65408
	movaps	%xmm11,65264(%rbp)
	.seh_savexmm %xmm11,65392
	movdqa	%xmm10,65248(%rbp)
	.seh_savexmm %xmm10,65376
	movdqa	%xmm9,65232(%rbp)
	.seh_savexmm %xmm9,65360
	movdqa	%xmm8,65216(%rbp)
	.seh_savexmm %xmm8,65344
	movdqa	%xmm7,65200(%rbp)
	.seh_savexmm %xmm7,65328
	movdqa	%xmm6,65184(%rbp)
	.seh_savexmm %xmm6,65312
	.seh_endprologue
	subq	$32,%rsp
	callq	__main
	movl	$1,%edx
	movl	$13,%ecx
	callq	rtp_lines_sysv_signal
	xorl	%ecx,%ecx
	callq	rtp_lines_x86_get_cpuid_feature_leaf
	addq	$32,%rsp
	movl	24(%rax),%esi
	subq	$32,%rsp
	movl	$2,%ecx
	callq	rtp_lines_x86_get_cpuid_feature_leaf
	addq	$32,%rsp
	notl	%esi
	testl	$9970177,%esi
	jne	27f
	movl	24(%rax),%eax
	andl	$1,%eax
	je	27f
	pxor	%xmm0,%xmm0
	movdqu	%xmm0,65144(%rbp)
	leaq	65183(%rbp),%rax
	movq	%rax,65136(%rbp)
	movq	$-1,65168(%rbp)
	movl	$8192,%r13d
	xorl	%ebx,%ebx
	xorl	%r12d,%r12d
	movq	$0,65160(%rbp)
28:
	cmpq	$1,%r13
	movq	%r13,%rsi
	adcq	$0,%rsi
	movq	65160(%rbp),%r14
	cmpq	%r12,%r14
	jne	29f
	testq	%r12,%r12
	je	30f
	movq	%r12,%rax
	subq	%rbx,%rax
	cmpq	$511,%rax
	ja	29f
	subq	$32,%rsp
	leaq	65136(%rbp),%rcx
	movl	$512,%edx
	callq	rtp_std_alloc.vec.Vec.grow_amortized.9d744d77114e6601
	addq	$32,%rsp
	testb	%al,%al
	je	31f
	movq	65144(%rbp),%rcx
	movq	65152(%rbp),%r12
	jmp	32f
30:
	leaq	511(%rbx),%rax
	cmpq	$511,%rax
	ja	30f
	movb	$38,%r15b
	cmpq	$-513,%rbx
	ja	33f
	addq	$512,%rbx
	movl	$1,%esi
	movq	%rbx,%rdi
	callq	rattle_alloc
	testb	$1,%al
	je	33f
	movq	%rdx,65136(%rbp)
	movq	%rbx,65152(%rbp)
	movl	$512,%r12d
	xorl	%ecx,%ecx
	movl	$512,%esi
	movq	65160(%rbp),%r14
	jmp	32f
30:
	movl	$512,%esi
	xorl	%r12d,%r12d
	.p2align	4
29:
	movq	%rbx,%rcx
32:
	movq	%r12,%r8
	subq	%r14,%r8
	cmpq	%r8,%rsi
	cmovbq	%rsi,%r8
	addq	%r14,%r8
	subq	%rcx,%r8
	jbe	29f
	movq	%r12,%rax
	subq	%rcx,%rax
	cmpq	%rax,%r8
	ja	30f
	leaq	(%rcx,%r8),%rbx
	movq	65136(%rbp),%rsi
	cmpq	%rbx,%rcx
	jae	32f
34:
	addq	%rsi,%rcx
	subq	$32,%rsp
	xorl	%edx,%edx
	callq	memset
	addq	$32,%rsp
32:
	movq	%rbx,65144(%rbp)
	movq	%r12,65152(%rbp)
	jmp	35f
	.p2align	4
29:
	movq	65136(%rbp),%rsi
	movq	%rcx,%rbx
35:
	decq	65168(%rbp)
	addq	%r14,%rsi
	movq	%rbx,%rdi
	subq	%r14,%rdi
	xorl	%r14d,%r14d
	.p2align	4
29:
	movb	$22,%r15b
	incq	%r14
	je	33f
	subq	$32,%rsp
	xorl	%ecx,%ecx
	movq	%rsi,%rdx
	movq	%rdi,%r8
	callq	rtp_lines_read
	addq	$32,%rsp
	testq	%rax,%rax
	jns	35f
	subq	$32,%rsp
	leaq	42960(%rbp),%rcx
	callq	rtp_std_io.io.error.last_error
	addq	$32,%rsp
	movq	42960(%rbp),%r15
	shrq	$8,%r15
	movaps	25b(%rip),%xmm0
	movaps	%xmm0,42960(%rbp)
	movdqa	26b(%rip),%xmm0
	movdqa	%xmm0,42976(%rbp)
	movabsq	$2820983053732684064,%rax
	movq	%rax,42992(%rbp)
	movb	$40,43000(%rbp)
	cmpb	$41,%r15b
	jae	33f
	movl	%r15d,%eax
	andl	$63,%eax
	cmpb	$35,42960(%rbp,%rax)
	je	29b
	jmp	33f
35:
	cmpq	%rdi,%rax
	cmovbq	%rax,%rdi
	testq	%rdi,%rdi
	je	29f
	addq	%rdi,65160(%rbp)
	leaq	(,%r13,2),%rax
	cmpq	$131072,%rax
	movl	$131072,%ecx
	cmovbq	%rax,%rcx
	cmpq	%rdi,%r13
	cmovbeq	%rcx,%r13
	cmpq	$0,65168(%rbp)
	jne	28b
	jmp	33f
30:
	subq	$32,%rsp
	leaq	65136(%rbp),%rcx
	movq	%r8,%rsi
	movq	%r8,%rdx
	callq	rtp_std_alloc.vec.Vec.grow_amortized.9d744d77114e6601
	addq	$32,%rsp
	testb	%al,%al
	je	31f
	movq	65144(%rbp),%rcx
	movq	65152(%rbp),%r12
	movq	%rsi,%r8
	leaq	(%rcx,%r8),%rbx
	movq	65136(%rbp),%rsi
	cmpq	%rbx,%rcx
	jb	34b
	jmp	32b
27:
	movl	$144,%eax
	callq	___chkstk_ms
	subq	%rax,%rsp
	movq	%rsp,%rdx
	movaps	1b(%rip),%xmm0
	movaps	%xmm0,(%rdx)
	movaps	2b(%rip),%xmm0
	movaps	%xmm0,16(%rdx)
	movaps	3b(%rip),%xmm0
	movaps	%xmm0,32(%rdx)
	movaps	4b(%rip),%xmm0
	movaps	%xmm0,48(%rdx)
	movaps	5b(%rip),%xmm0
	movaps	%xmm0,64(%rdx)
	movaps	6b(%rip),%xmm0
	movaps	%xmm0,80(%rdx)
	movaps	7b(%rip),%xmm0
	movaps	%xmm0,96(%rdx)
	movdqa	8b(%rip),%xmm0
	movdqa	%xmm0,112(%rdx)
	movl	$908932664,128(%rdx)
	movw	$2612,132(%rdx)
	subq	$32,%rsp
	movl	$134,%r8d
	movl	$2,%ecx
	callq	rtp_lines_write
	addq	$32,%rsp
	movl	$127,%eax
	jmp	1f
29:
	movq	65160(%rbp),%r15
	cmpq	%r15,%rbx
	cmovbq	%rbx,%r15
	movq	%r15,65144(%rbp)
	movq	65136(%rbp),%rdi
	subq	$32,%rsp
	xorl	%ebx,%ebx
	leaq	42960(%rbp),%rcx
	movl	$10992,%r8d
	xorl	%edx,%edx
	callq	memset
	leaq	-128(%rbp),%rcx
	movl	$10960,%r8d
	xorl	%edx,%edx
	callq	memset
	leaq	21792(%rbp),%rcx
	movl	$10960,%r8d
	xorl	%edx,%edx
	callq	memset
	leaq	10832(%rbp),%rcx
	movl	$10960,%r8d
	xorl	%edx,%edx
	callq	memset
	addq	$32,%rsp
	pxor	%xmm0,%xmm0
	movdqa	%xmm0,65072(%rbp)
	movdqa	%xmm0,65056(%rbp)
	subq	$32,%rsp
	leaq	53952(%rbp),%rcx
	movl	$10976,%r8d
	xorl	%edx,%edx
	callq	memset
	addq	$32,%rsp
	testq	%r15,%r15
	je	2f
	xorl	%r13d,%r13d
3:
	xorl	%eax,%eax
4:
	movq	%rax,%r9
	addq	$32,%rax
	cmpq	%r15,%rax
	ja	5f
	movdqu	(%rdi,%r9),%xmm0
	movdqu	16(%rdi,%r9),%xmm1
	movdqa	9b(%rip),%xmm2
	pcmpeqb	%xmm2,%xmm0
	pmovmskb	%xmm0,%edx
	pcmpeqb	%xmm2,%xmm1
	pmovmskb	%xmm1,%ecx
	shll	$16,%ecx
	orl	%edx,%ecx
	je	4b
	rep		bsfl	%ecx,%ecx
4:
	movq	%r15,%rdx
	subq	%rcx,%rdx
	cmpq	%r9,%rdx
	jne	6f
	leaq	rtp_static.5(%rip),%rax
	movq	%rax,65168(%rbp)
	jmp	7f
5:
	leaq	rtp_static.5(%rip),%r10
	cmpq	%r9,%r15
	je	5f
	leaq	(%rdi,%r9),%rax
	movq	%r9,%rdx
	subq	%r15,%rdx
	xorl	%ecx,%ecx
8:
	cmpb	$10,(%rax,%rcx)
	je	4b
	incq	%rcx
	movq	%rdx,%r8
	addq	%rcx,%r8
	jne	8b
5:
	movq	%r10,65168(%rbp)
7:
	movq	$0,65160(%rbp)
	movq	%r15,%rax
	jmp	4f
6:
	movq	%rcx,%rax
	addq	%r9,%rax
	je	5f
	leaq	(%rcx,%r9),%r8
	cmpb	$13,-1(%rdi,%r8)
	jne	5f
	leaq	(%rcx,%r9),%rax
	decq	%rax
5:
	addq	%rdi,%rcx
	addq	%r9,%rcx
	incq	%rcx
	movq	%rcx,65168(%rbp)
	notq	%r9
	addq	%rdx,%r9
	movq	%r9,65160(%rbp)
4:
	pxor	%xmm0,%xmm0
	movdqa	%xmm0,65088(%rbp)
	movq	$0,65104(%rbp)
	cmpq	$4,%rax
	jb	4f
	movl	(%rdi),%r8d
	leaq	4(%rdi),%rcx
	addq	$-4,%rax
	xorl	%r12d,%r12d
	cmpl	$544235885,%r8d
	movq	%rcx,%rdx
	cmovneq	%r12,%rdx
	cmoveq	%rax,%r12
	testq	%rax,%rax
	je	4f
	cmpl	$544235885,%r8d
	jne	4f
	xorl	%esi,%esi
5:
	cmpb	$32,(%rcx,%rsi)
	je	6f
	incq	%rsi
	cmpq	%rsi,%rax
	jne	5b
	jmp	4f
6:
	pxor	%xmm0,%xmm0
	movdqa	%xmm0,32752(%rbp)
	movq	$0,32768(%rbp)
	cmpq	$3,%rsi
	ja	4f
	decq	%r12
	leaq	(%rdx,%rsi),%r9
	incq	%r9
	movq	%r12,%r14
	subq	%rsi,%r14
	xorl	%eax,%eax
5:
	cmpq	%rax,%rsi
	je	6f
	movzbl	(%rdx,%rax),%ecx
	addb	$-48,%cl
	incq	%rax
	cmpb	$10,%cl
	jb	5b
	jmp	4f
6:
	subq	$32,%rsp
	leaq	32752(%rbp),%rcx
	movq	%rsi,%r8
	movq	%r9,%rbx
	callq	rtp_core.str.utf8.from_utf8
	addq	$32,%rsp
	cmpb	$0,32752(%rbp)
	jne	4f
	movq	32768(%rbp),%rax
	testq	%rax,%rax
	je	4f
	movq	%rbx,%rdx
	movq	32760(%rbp),%rcx
	cmpb	$43,(%rcx)
	jne	5f
	cmpq	$1,%rax
	je	4f
	movl	$1,%r10d
	xorl	%ebx,%ebx
6:
	movzbl	(%rcx,%r10),%r8d
	leal	-48(%r8),%r9d
	cmpb	$9,%r9b
	ja	4f
	leaq	(%rbx,%rbx,4),%r9
	andl	$15,%r8d
	leaq	(%r8,%r9,2),%rbx
	cmpq	$255,%rbx
	ja	4f
	incq	%r10
	cmpq	%r10,%rax
	jne	6b
	jmp	6f
5:
	xorl	%ebx,%ebx
	xorl	%r10d,%r10d
5:
	movzbl	(%rcx,%r10),%r8d
	leal	-48(%r8),%r9d
	cmpb	$9,%r9b
	ja	4f
	leaq	(%rbx,%rbx,4),%r9
	andl	$15,%r8d
	leaq	(%r8,%r9,2),%rbx
	cmpq	$256,%rbx
	jae	4f
	incq	%r10
	cmpq	%r10,%rax
	jne	5b
6:
	testq	%rbx,%rbx
	je	4f
	cmpq	%rsi,%r12
	je	4f
	subq	$32,%rsp
	leaq	65088(%rbp),%rcx
	movq	%r14,%r8
	callq	rtp_core.str.utf8.from_utf8
	addq	$32,%rsp
	cmpb	$0,65088(%rbp)
	jne	4f
	movzwl	65104(%rbp),%ecx
	movq	65096(%rbp),%r15
	movzwl	65110(%rbp),%r12d
	movl	65106(%rbp),%eax
	shlq	$16,%rax
	shlq	$48,%r12
	orq	%rax,%r12
	movq	%rcx,65128(%rbp)
	leaq	(%r12,%rcx),%r14
	cmpq	$73,%r14
	ja	5f
	leaq	6f(%rip),%rax
	movslq	(%rax,%r14,4),%rcx
	addq	%rax,%rcx
	leaq	65183(%rbp),%rsi
	jmpq	*%rcx
7:
	movabsq	$8102089199360832117,%rax
	cmpq	%rax,(%r15)
	jne	8f
	movabsq	$8011181793428993594,%rax
	cmpq	%rax,8(%r15)
	jne	8f
	movabsq	$7598805623977109874,%rax
	cmpq	%rax,16(%r15)
	jne	8f
	movabsq	$7957695015159098981,%rax
	cmpq	%rax,18(%r15)
	jne	8f
	xorl	%esi,%esi
	movl	$4,%eax
	xorl	%r14d,%r14d
	jmp	27f
28:
	leaq	rtp_static.35(%rip),%rcx
	movl	$14,%eax
	jmp	29f
30:
	leaq	rtp_static.31(%rip),%rcx
	movl	$12,%eax
	jmp	32f
34:
	leaq	rtp_static.21(%rip),%rcx
	movl	$7,%eax
	jmp	32f
35:
	leaq	rtp_static.13(%rip),%rcx
	movl	$3,%eax
	jmp	32f
36:
	leaq	rtp_static.25(%rip),%rcx
	movl	$9,%eax
	jmp	32f
37:
	leaq	rtp_static.9(%rip),%rcx
	movl	$1,%eax
	jmp	32f
38:
	leaq	rtp_static.27(%rip),%rcx
	movl	$10,%eax
	jmp	32f
39:
	leaq	rtp_static.33(%rip),%rcx
	movl	$13,%eax
	jmp	32f
40:
	leaq	rtp_static.17(%rip),%rcx
	movl	$5,%eax
29:
	xorl	%edx,%edx
	movq	%r14,%r8
29:
	movdqu	(%rcx,%rdx),%xmm0
	movdqu	16(%rcx,%rdx),%xmm1
	movdqu	32(%rcx,%rdx),%xmm2
	movdqu	48(%rcx,%rdx),%xmm3
	movdqu	(%r15,%rdx),%xmm4
	pcmpeqb	%xmm0,%xmm4
	movdqu	16(%r15,%rdx),%xmm0
	pcmpeqb	%xmm1,%xmm0
	pand	%xmm4,%xmm0
	movdqu	32(%r15,%rdx),%xmm1
	pcmpeqb	%xmm2,%xmm1
	movdqu	48(%r15,%rdx),%xmm2
	pcmpeqb	%xmm3,%xmm2
	pand	%xmm1,%xmm2
	pand	%xmm0,%xmm2
	pmovmskb	%xmm2,%r9d
	cmpl	$65535,%r9d
	jne	41f
	addq	$64,%rdx
	addq	$-64,%r8
	cmpq	$65,%r8
	jae	29b
	movdqu	-64(%rcx,%r14),%xmm0
	movdqu	-48(%rcx,%r14),%xmm1
	movdqu	-32(%rcx,%r14),%xmm2
	movdqu	-16(%rcx,%r14),%xmm3
	movdqu	-64(%r15,%r14),%xmm4
	pcmpeqb	%xmm0,%xmm4
	movdqu	-48(%r15,%r14),%xmm5
	pcmpeqb	%xmm1,%xmm5
	movdqu	-32(%r15,%r14),%xmm0
	pcmpeqb	%xmm2,%xmm0
	movdqu	-16(%r15,%r14),%xmm1
	pcmpeqb	%xmm3,%xmm1
	pcmpeqd	%xmm2,%xmm2
	pxor	%xmm2,%xmm1
	pxor	%xmm2,%xmm0
	por	%xmm1,%xmm0
	pxor	%xmm2,%xmm4
	pxor	%xmm2,%xmm5
	por	%xmm4,%xmm5
	por	%xmm0,%xmm5
	pxor	%xmm0,%xmm0
	pcmpgtb	%xmm5,%xmm0
	jmp	29f
42:
	leaq	rtp_static.29(%rip),%rcx
	movl	$11,%eax
	jmp	32f
43:
	leaq	rtp_static.11(%rip),%rcx
	movl	$2,%eax
	jmp	32f
44:
	leaq	rtp_static.7(%rip),%rcx
	xorl	%eax,%eax
	jmp	32f
45:
	leaq	rtp_static.23(%rip),%rcx
	movl	$8,%eax
32:
	leaq	-16(%r14),%rdx
	movdqu	(%rcx),%xmm0
	movdqu	16(%rcx),%xmm1
	movdqu	(%r15),%xmm2
	pcmpeqb	%xmm0,%xmm2
	movdqu	16(%r15),%xmm3
	pcmpeqb	%xmm1,%xmm3
	pcmpeqd	%xmm1,%xmm1
	pxor	%xmm1,%xmm2
	pxor	%xmm1,%xmm3
	por	%xmm2,%xmm3
	cmpq	$32,%rdx
	movl	$32,%r8d
	cmovbq	%rdx,%r8
	movdqu	(%rcx,%r8),%xmm0
	movdqu	(%r15,%r8),%xmm2
	pcmpeqb	%xmm0,%xmm2
	pxor	%xmm1,%xmm2
	movdqu	-16(%rcx,%r14),%xmm4
	movdqu	-16(%r15,%r14),%xmm0
	pcmpeqb	%xmm4,%xmm0
	pxor	%xmm1,%xmm0
	por	%xmm3,%xmm0
	por	%xmm2,%xmm0
29:
	psllw	$7,%xmm0
	pmovmskb	%xmm0,%ecx
	testl	%ecx,%ecx
	je	29f
41:
	leaq	65183(%rbp),%rsi
	testq	%r14,%r14
	je	32f
	cmpq	$58,%r14
	jne	5f
	movdqu	(%r15),%xmm0
	movdqu	16(%r15),%xmm1
	movdqu	32(%r15),%xmm2
	pcmpeqb	10b(%rip),%xmm0
	movdqu	42(%r15),%xmm3
	pcmpeqb	11b(%rip),%xmm1
	pand	%xmm0,%xmm1
	pcmpeqb	12b(%rip),%xmm2
	pcmpeqb	13b(%rip),%xmm3
	pand	%xmm2,%xmm3
	pand	%xmm1,%xmm3
	pmovmskb	%xmm3,%eax
	cmpl	$65535,%eax
	jne	8f
	movl	$6,%eax
29:
	xorl	%esi,%esi
	xorl	%r14d,%r14d
	jmp	27f
5:
	testq	%r12,%r12
	js	10f
8:
	movl	$1,%esi
	movq	%r14,%rdi
	callq	rattle_alloc
	testb	$1,%al
	je	10f
	movq	%rdx,%rsi
32:
	movq	%rsi,%rax
	subq	%r15,%rax
	cmpq	%r14,%rax
	jae	8f
	xorl	%ecx,%ecx
	cmpq	$4,%r14
	jb	11f
	cmpq	$32,%rax
	jb	11f
	cmpq	$32,%r14
	jae	12f
	xorl	%ecx,%ecx
	jmp	13f
8:
	subq	$32,%rsp
	movq	%rsi,%rcx
	movq	%r15,%rdx
	movq	%r14,%r8
	callq	memmove
	addq	$32,%rsp
8:
	movl	$15,%eax
	jmp	27f
12:
	movq	65128(%rbp),%rax
	andl	$31,%eax
	movq	%r14,%rcx
	subq	%rax,%rcx
	xorl	%edx,%edx
12:
	movdqu	(%r15,%rdx),%xmm0
	movdqu	16(%r15,%rdx),%xmm1
	movdqu	%xmm0,(%rsi,%rdx)
	movdqu	%xmm1,16(%rsi,%rdx)
	addq	$32,%rdx
	cmpq	%rdx,%rcx
	jne	12b
	testq	%rax,%rax
	je	8b
	cmpl	$4,%eax
	jb	11f
13:
	movq	%rcx,%rax
	movq	65128(%rbp),%rdx
	andl	$3,%edx
	movq	%r14,%rcx
	subq	%rdx,%rcx
12:
	movl	(%r15,%rax),%r8d
	movl	%r8d,(%rsi,%rax)
	addq	$4,%rax
	cmpq	%rax,%rcx
	jne	12b
	testq	%rdx,%rdx
	je	8b
11:
	movq	65128(%rbp),%rax
	subl	%ecx,%eax
	movq	%rcx,%rdx
	andl	$3,%eax
	je	8f
	movq	%rcx,%rdx
11:
	movzbl	(%r15,%rdx),%r8d
	movb	%r8b,(%rsi,%rdx)
	incq	%rdx
	decq	%rax
	jne	11b
8:
	addq	65128(%rbp),%r12
	notq	%rcx
	addq	%r12,%rcx
	movl	$15,%eax
	cmpq	$3,%rcx
	jb	27f
8:
	movzbl	(%r15,%rdx),%ecx
	movb	%cl,(%rsi,%rdx)
	movzbl	1(%r15,%rdx),%ecx
	movb	%cl,1(%rsi,%rdx)
	movzbl	2(%r15,%rdx),%ecx
	movb	%cl,2(%rsi,%rdx)
	movzbl	3(%r15,%rdx),%ecx
	movb	%cl,3(%rsi,%rdx)
	addq	$4,%rdx
	cmpq	%rdx,%r14
	jne	8b
27:
	movq	65168(%rbp),%rdi
	movq	%rax,65056(%rbp)
	movq	%rsi,65064(%rbp)
	movq	%r14,65072(%rbp)
	movq	%r14,65080(%rbp)
	subq	$32,%rsp
	leaq	53952(%rbp),%rcx
	leaq	65056(%rbp),%r8
	movl	%ebx,%edx
	callq	rtp_ext.map.ExtensionMap.set
	addq	$32,%rsp
	incq	%r13
	movq	65160(%rbp),%r15
	testq	%r15,%r15
	jne	3b
	movq	53952(%rbp),%r14
	movq	53960(%rbp),%rbx
	jmp	3f
4:
	movq	53952(%rbp),%r14
	movq	53960(%rbp),%rbx
	leaq	53968(%rbp),%rdx
	subq	$32,%rsp
	leaq	21792(%rbp),%rcx
	movl	$10960,%r8d
	callq	memcpy
	addq	$32,%rsp
	movq	%r15,%rdx
	movq	%rdi,%rcx
	cmpq	$64,%r15
	jae	4f
8:
	testq	%rdx,%rdx
	jne	11f
	jmp	12f
2:
	xorl	%r14d,%r14d
	xorl	%r13d,%r13d
3:
	leaq	53968(%rbp),%rdx
	subq	$32,%rsp
	leaq	21792(%rbp),%rcx
	movl	$10960,%r8d
	callq	memcpy
	addq	$32,%rsp
	xorl	%r15d,%r15d
	jmp	12f
4:
	movdqu	(%rdi),%xmm0
	movdqu	16(%rdi),%xmm1
	movdqa	9b(%rip),%xmm2
	pcmpeqb	%xmm2,%xmm0
	pcmpeqb	%xmm2,%xmm1
	por	%xmm0,%xmm1
	pmovmskb	%xmm1,%eax
	movq	%r15,%rdx
	movq	%rdi,%rcx
	testl	%eax,%eax
	je	2f
11:
	movq	%r13,65160(%rbp)
	movq	%r13,%rsi
	jmp	3f
4:
	movq	%rax,%rdx
	movq	%r8,%rcx
	testq	%rax,%rax
	je	13f
3:
	xorl	%r8d,%r8d
	.p2align	4
3:
	movq	%r8,%rax
	addq	$32,%r8
	cmpq	%rdx,%r8
	ja	27f
	movdqu	(%rcx,%rax),%xmm0
	movdqu	16(%rcx,%rax),%xmm1
	movdqa	9b(%rip),%xmm2
	pcmpeqb	%xmm2,%xmm0
	pmovmskb	%xmm0,%r10d
	pcmpeqb	%xmm2,%xmm1
	pmovmskb	%xmm1,%r9d
	shll	$16,%r9d
	orl	%r10d,%r9d
	je	3b
	rep		bsfl	%r9d,%r9d
3:
	movq	%rdx,%r10
	subq	%r9,%r10
	cmpq	%rax,%r10
	jne	29f
	leaq	rtp_static.5(%rip),%r8
	jmp	41f
27:
	leaq	rtp_static.5(%rip),%r8
	cmpq	%rax,%rdx
	je	41f
	leaq	(%rcx,%rax),%r10
	movq	%rax,%r11
	subq	%rdx,%r11
	xorl	%r9d,%r9d
	.p2align	4
27:
	cmpb	$10,(%r10,%r9)
	je	3b
	incq	%r9
	movq	%r11,%r12
	addq	%r9,%r12
	jne	27b
41:
	xorl	%eax,%eax
	incq	%rsi
	testb	$1,%dl
	je	3f
	jmp	27f
29:
	movq	%r9,%rdx
	addq	%rax,%rdx
	je	29f
	leaq	(%r9,%rax),%r8
	cmpb	$13,-1(%rcx,%r8)
	jne	29f
	leaq	(%r9,%rax),%rdx
	decq	%rdx
29:
	addq	%rcx,%r9
	leaq	(%rax,%r9),%r8
	incq	%r8
	notq	%rax
	addq	%r10,%rax
	incq	%rsi
	testb	$1,%dl
	jne	27f
3:
	testq	%rdx,%rdx
	je	3f
	cmpq	$4,%rdx
	jae	29f
	xorl	%r10d,%r10d
	xorl	%r9d,%r9d
	jmp	41f
29:
	cmpq	$32,%rdx
	jae	29f
	xorl	%r9d,%r9d
	xorl	%r10d,%r10d
	jmp	46f
29:
	movq	%rdx,%r9
	andq	$-32,%r9
	pxor	%xmm0,%xmm0
	xorl	%r10d,%r10d
	pxor	%xmm1,%xmm1
	.p2align	4
29:
	movdqu	(%rcx,%r10),%xmm3
	movdqu	16(%rcx,%r10),%xmm2
	movdqa	14b(%rip),%xmm4
	movdqa	%xmm3,%xmm5
	paddb	%xmm4,%xmm5
	paddb	%xmm2,%xmm4
	movdqa	15b(%rip),%xmm6
	psubusb	%xmm6,%xmm5
	psubusb	%xmm6,%xmm4
	movdqa	16b(%rip),%xmm6
	pand	%xmm6,%xmm3
	pand	%xmm6,%xmm2
	movdqa	17b(%rip),%xmm6
	paddb	%xmm6,%xmm3
	paddb	%xmm6,%xmm2
	movdqa	18b(%rip),%xmm6
	psubusb	%xmm6,%xmm3
	pminub	%xmm5,%xmm3
	por	%xmm3,%xmm1
	psubusb	%xmm6,%xmm2
	pminub	%xmm4,%xmm2
	por	%xmm2,%xmm0
	addq	$32,%r10
	cmpq	%r10,%r9
	jne	29b
	por	%xmm1,%xmm0
	pshufd	$238,%xmm0,%xmm1
	por	%xmm0,%xmm1
	pshufd	$85,%xmm1,%xmm0
	por	%xmm1,%xmm0
	movdqa	%xmm0,%xmm1
	psrld	$16,%xmm1
	por	%xmm0,%xmm1
	movdqa	%xmm1,%xmm0
	psrlw	$8,%xmm0
	por	%xmm1,%xmm0
	movd	%xmm0,%r10d
	cmpq	%r9,%rdx
	je	29f
	testb	$28,%dl
	je	41f
46:
	movq	%r9,%r11
	movq	%rdx,%r9
	andq	$-4,%r9
	movzbl	%r10b,%r10d
	movd	%r10d,%xmm0
	.p2align	4
46:
	movd	(%rcx,%r11),%xmm1
	movdqa	19b(%rip),%xmm2
	paddb	%xmm1,%xmm2
	psubusb	20b(%rip),%xmm2
	pand	21b(%rip),%xmm1
	paddb	22b(%rip),%xmm1
	psubusb	23b(%rip),%xmm1
	pminub	%xmm2,%xmm1
	por	%xmm1,%xmm0
	addq	$4,%r11
	cmpq	%r11,%r9
	jne	46b
	movdqa	%xmm0,%xmm1
	psrld	$16,%xmm1
	por	%xmm0,%xmm1
	movdqa	%xmm1,%xmm0
	psrlw	$8,%xmm0
	por	%xmm1,%xmm0
	movd	%xmm0,%r10d
	jmp	19f
	.p2align	4
41:
	movzbl	(%rcx,%r9),%r11d
	leal	-48(%r11),%r12d
	xorl	%r13d,%r13d
	subb	$9,%r12b
	movzbl	%r12b,%r12d
	cmovbl	%r13d,%r12d
	andb	$-33,%r11b
	addb	$-65,%r11b
	subb	$5,%r11b
	movzbl	%r11b,%r11d
	cmovbl	%r13d,%r11d
	cmpb	%r12b,%r11b
	cmovael	%r12d,%r11d
	orb	%r11b,%r10b
	incq	%r9
19:
	cmpq	%r9,%rdx
	jne	41b
29:
	testb	%r10b,%r10b
	jne	27f
3:
	cmpq	$64,%rax
	jb	4b
	movdqu	(%r8),%xmm0
	movdqu	16(%r8),%xmm1
	movdqa	9b(%rip),%xmm2
	pcmpeqb	%xmm2,%xmm0
	pcmpeqb	%xmm2,%xmm1
	por	%xmm0,%xmm1
	pmovmskb	%xmm1,%ecx
	testl	%ecx,%ecx
	jne	4b
	.p2align	4
3:
	movdqa	14b(%rip),%xmm3
	movdqu	(%r8),%xmm4
	movdqu	16(%r8),%xmm2
	movdqu	32(%r8),%xmm1
	movdqu	48(%r8),%xmm0
	movdqa	%xmm4,%xmm5
	paddb	%xmm3,%xmm5
	movdqa	%xmm2,%xmm6
	paddb	%xmm3,%xmm6
	movdqa	15b(%rip),%xmm7
	psubusb	%xmm7,%xmm5
	psubusb	%xmm7,%xmm6
	movdqa	16b(%rip),%xmm8
	pand	%xmm8,%xmm4
	pand	%xmm8,%xmm2
	movdqa	17b(%rip),%xmm9
	paddb	%xmm9,%xmm4
	paddb	%xmm9,%xmm2
	movdqa	18b(%rip),%xmm10
	psubusb	%xmm10,%xmm4
	pminub	%xmm5,%xmm4
	psubusb	%xmm10,%xmm2
	pminub	%xmm6,%xmm2
	movdqa	%xmm1,%xmm5
	paddb	%xmm3,%xmm5
	paddb	%xmm0,%xmm3
	psubusb	%xmm7,%xmm5
	psubusb	%xmm7,%xmm3
	pand	%xmm8,%xmm1
	pand	%xmm8,%xmm0
	paddb	%xmm9,%xmm1
	paddb	%xmm9,%xmm0
	psubusb	%xmm10,%xmm1
	pminub	%xmm5,%xmm1
	por	%xmm4,%xmm1
	psubusb	%xmm10,%xmm0
	pminub	%xmm3,%xmm0
	por	%xmm2,%xmm0
	por	%xmm1,%xmm0
	pxor	%xmm1,%xmm1
	pcmpeqb	%xmm0,%xmm1
	pmovmskb	%xmm1,%ecx
	xorl	$65535,%ecx
	jne	4b
	addq	$64,%r8
	addq	$-64,%rax
	cmpq	$63,%rax
	ja	3b
	jmp	4b
13:
	movq	65160(%rbp),%r13
12:
	testq	%r13,%r13
	je	3f
	subq	$32,%rsp
	leaq	10832(%rbp),%rcx
	leaq	21792(%rbp),%rdx
	movl	$10960,%r8d
	callq	memcpy
	addq	$32,%rsp
	movq	%r14,%r12
	movq	%rbx,%r13
4:
	subq	$32,%rsp
	leaq	-128(%rbp),%rsi
	leaq	10832(%rbp),%rdx
	movl	$10960,%r8d
	movq	%rsi,%rcx
	callq	memcpy
	addq	$32,%rsp
	movq	%r12,42960(%rbp)
	movq	%r13,42968(%rbp)
	leaq	42976(%rbp),%rcx
	subq	$32,%rsp
	movl	$10960,%r8d
	movq	%rsi,%rdx
	callq	memcpy
	addq	$32,%rsp
	movq	%rdi,53936(%rbp)
	movq	%r15,53944(%rbp)
	subq	$32,%rsp
	leaq	42960(%rbp),%rdi
	movq	%rdi,%rcx
	callq	rtp_listing.printing.print_all.df9e9f1468b30f79
	addq	$32,%rsp
	movl	%eax,%esi
	movl	%edx,%ebx
	subq	$32,%rsp
	leaq	53952(%rbp),%rcx
	movl	$10200,%r8d
	movq	%rdi,%rdx
	callq	memcpy
	addq	$32,%rsp
	movl	$32,%edi
	jmp	9f
12:
	addq	$40,%rdi
	cmpq	$10232,%rdi
	je	13f
9:
	movzbl	53920(%rbp,%rdi),%r8d
	testl	%r8d,%r8d
	je	12b
	movzbl	53928(%rbp,%rdi),%edx
	movq	53936(%rbp,%rdi),%rcx
	movq	53952(%rbp,%rdi),%rax
	cmpl	$2,%r8d
	cmpb	$15,%dl
	setne	%dl
	testq	%rax,%rax
	sete	%al
	orb	%dl,%al
	jne	12b
	subq	$32,%rsp
	callq	rattle_dealloc
	addq	$32,%rsp
	jmp	12b
13:
	cmpb	$1,%sil
	sete	%r14b
9:
	cmpq	$0,65152(%rbp)
	je	12f
	movq	65136(%rbp),%rcx
	subq	$32,%rsp
	callq	rattle_dealloc
	addq	$32,%rsp
12:
	xorl	%eax,%eax
	testb	%r14b,%r14b
	jne	12f
	jmp	1f
3:
	pxor	%xmm0,%xmm0
	movdqu	%xmm0,32760(%rbp)
	movq	$0,32776(%rbp)
	movdqu	%xmm0,65064(%rbp)
	movq	$0,65080(%rbp)
	movdqu	%xmm0,65096(%rbp)
	movq	$0,65112(%rbp)
	movdqu	%xmm0,64936(%rbp)
	movq	$0,64952(%rbp)
	movdqu	%xmm0,64968(%rbp)
	movq	$0,64984(%rbp)
	movdqu	%xmm0,65000(%rbp)
	movq	$0,65016(%rbp)
	movdqu	%xmm0,65032(%rbp)
	movq	$0,65048(%rbp)
	subq	$32,%rsp
	leaq	53952(%rbp),%rsi
	movl	$10976,%r8d
	movq	%rsi,%rcx
	xorl	%edx,%edx
	callq	memset
	addq	$32,%rsp
	movq	$2,32752(%rbp)
	subq	$32,%rsp
	leaq	32752(%rbp),%r8
	movq	%rsi,%rcx
	movb	$1,%dl
	callq	rtp_ext.map.ExtensionMap.set
	addq	$32,%rsp
	movq	$0,65056(%rbp)
	subq	$32,%rsp
	leaq	65056(%rbp),%r8
	movq	%rsi,%rcx
	movb	$2,%dl
	callq	rtp_ext.map.ExtensionMap.set
	addq	$32,%rsp
	movq	$5,65088(%rbp)
	subq	$32,%rsp
	leaq	65088(%rbp),%r8
	movq	%rsi,%rcx
	movb	$3,%dl
	callq	rtp_ext.map.ExtensionMap.set
	addq	$32,%rsp
	movq	$11,64928(%rbp)
	subq	$32,%rsp
	leaq	64928(%rbp),%r8
	movq	%rsi,%rcx
	movb	$4,%dl
	callq	rtp_ext.map.ExtensionMap.set
	addq	$32,%rsp
	movq	$9,64960(%rbp)
	subq	$32,%rsp
	leaq	64960(%rbp),%r8
	movq	%rsi,%rcx
	movb	$10,%dl
	callq	rtp_ext.map.ExtensionMap.set
	addq	$32,%rsp
	movq	$10,64992(%rbp)
	subq	$32,%rsp
	leaq	64992(%rbp),%r8
	movq	%rsi,%rcx
	movb	$11,%dl
	callq	rtp_ext.map.ExtensionMap.set
	addq	$32,%rsp
	movq	$4,65024(%rbp)
	subq	$32,%rsp
	leaq	65024(%rbp),%r8
	movq	%rsi,%rcx
	movb	$13,%dl
	callq	rtp_ext.map.ExtensionMap.set
	addq	$32,%rsp
	movq	53952(%rbp),%r12
	movq	53960(%rbp),%r13
	leaq	53968(%rbp),%rdx
	subq	$32,%rsp
	leaq	10832(%rbp),%rcx
	movl	$10960,%r8d
	callq	memcpy
	addq	$32,%rsp
	movq	%r14,53952(%rbp)
	movq	%rbx,53960(%rbp)
	leaq	53968(%rbp),%rcx
	subq	$32,%rsp
	leaq	21792(%rbp),%rdx
	movl	$10184,%r8d
	callq	memcpy
	addq	$32,%rsp
	movl	$32,%esi
	jmp	3f
13:
	addq	$40,%rsi
	cmpq	$10232,%rsi
	je	4b
3:
	movzbl	53920(%rbp,%rsi),%r8d
	testl	%r8d,%r8d
	je	13b
	movzbl	53928(%rbp,%rsi),%edx
	movq	53936(%rbp,%rsi),%rcx
	movq	53952(%rbp,%rsi),%rax
	cmpl	$2,%r8d
	cmpb	$15,%dl
	setne	%dl
	testq	%rax,%rax
	sete	%al
	orb	%dl,%al
	jne	13b
	subq	$32,%rsp
	callq	rattle_dealloc
	addq	$32,%rsp
	jmp	13b
31:
	movb	$38,%r15b
33:
	movaps	25b(%rip),%xmm0
	movaps	%xmm0,42960(%rbp)
	movdqa	26b(%rip),%xmm0
	movdqa	%xmm0,42976(%rbp)
	movabsq	$2820983053732684064,%rax
	movq	%rax,42992(%rbp)
	movb	$40,43000(%rbp)
	cmpb	$41,%r15b
	jae	3f
	movzbl	%r15b,%eax
	cmpb	$38,42960(%rbp,%rax)
	sete	%bl
	xorb	$3,%bl
	cmpq	$0,65152(%rbp)
	jne	4f
	jmp	12f
3:
	movb	$3,%bl
	cmpq	$0,65152(%rbp)
	je	12f
4:
	movq	65136(%rbp),%rcx
	subq	$32,%rsp
	callq	rattle_dealloc
	addq	$32,%rsp
12:
	cmpb	$2,%bl
	jne	3f
	subq	$32,%rsp
	leaq	rtp_static.0(%rip),%rcx
	movl	$15,%edx
	callq	rtp_listing.printing.write_text.df9e9f1468b30f79
	addq	$32,%rsp
	testb	%al,%al
	je	4f
	movl	%edx,%ebx
3:
	movzbl	%bl,%eax
	leaq	rtp_switch.table.main(%rip),%rcx
	movl	(%rcx,%rax,4),%eax
1:
	movaps	65184(%rbp),%xmm6
	movaps	65200(%rbp),%xmm7
	movaps	65216(%rbp),%xmm8
	movaps	65232(%rbp),%xmm9
	movaps	65248(%rbp),%xmm10
	movaps	65264(%rbp),%xmm11
	movaps	65280(%rbp),%xmm12
	movaps	65296(%rbp),%xmm13
	movaps	65312(%rbp),%xmm14
	movaps	65328(%rbp),%xmm15
	leaq	65352(%rbp),%rsp
	popq	%rbx
	popq	%rdi
	popq	%rsi
	popq	%r12
	popq	%r13
	popq	%r14
	popq	%r15
	popq	%rbp
	retq
4:
	movl	$3,%eax
	jmp	1b
2:
	movq	%rdi,%rcx
	movq	%r15,%rdx
1:
	movdqa	14b(%rip),%xmm3
	movdqu	(%rcx),%xmm4
	movdqu	16(%rcx),%xmm2
	movdqu	32(%rcx),%xmm1
	movdqu	48(%rcx),%xmm0
	movdqa	%xmm4,%xmm5
	paddb	%xmm3,%xmm5
	movdqa	%xmm2,%xmm6
	paddb	%xmm3,%xmm6
	movdqa	15b(%rip),%xmm7
	psubusb	%xmm7,%xmm5
	psubusb	%xmm7,%xmm6
	movdqa	16b(%rip),%xmm8
	pand	%xmm8,%xmm4
	pand	%xmm8,%xmm2
	movdqa	17b(%rip),%xmm9
	paddb	%xmm9,%xmm4
	paddb	%xmm9,%xmm2
	movdqa	18b(%rip),%xmm10
	psubusb	%xmm10,%xmm4
	pminub	%xmm5,%xmm4
	psubusb	%xmm10,%xmm2
	pminub	%xmm6,%xmm2
	movdqa	%xmm1,%xmm5
	paddb	%xmm3,%xmm5
	paddb	%xmm0,%xmm3
	psubusb	%xmm7,%xmm5
	psubusb	%xmm7,%xmm3
	pand	%xmm8,%xmm1
	pand	%xmm8,%xmm0
	paddb	%xmm9,%xmm1
	paddb	%xmm9,%xmm0
	psubusb	%xmm10,%xmm1
	pminub	%xmm5,%xmm1
	por	%xmm4,%xmm1
	psubusb	%xmm10,%xmm0
	pminub	%xmm3,%xmm0
	por	%xmm2,%xmm0
	por	%xmm1,%xmm0
	pxor	%xmm1,%xmm1
	pcmpeqb	%xmm0,%xmm1
	pmovmskb	%xmm1,%eax
	xorl	$65535,%eax
	jne	11b
	addq	$64,%rcx
	addq	$-64,%rdx
	cmpq	$63,%rdx
	ja	1b
	jmp	8b
27:
	movq	%r14,53952(%rbp)
	movq	%rbx,53960(%rbp)
	leaq	53968(%rbp),%rcx
	subq	$32,%rsp
	leaq	21792(%rbp),%rdx
	movl	$10184,%r8d
	callq	memcpy
	addq	$32,%rsp
	movl	$32,%edi
	jmp	1f
2:
	addq	$40,%rdi
	cmpq	$10232,%rdi
	je	3f
1:
	movzbl	53920(%rbp,%rdi),%r8d
	testl	%r8d,%r8d
	je	2b
	movzbl	53928(%rbp,%rdi),%edx
	movq	53936(%rbp,%rdi),%rcx
	movq	53952(%rbp,%rdi),%rax
	cmpl	$2,%r8d
	cmpb	$15,%dl
	setne	%dl
	testq	%rax,%rax
	sete	%al
	orb	%dl,%al
	jne	2b
	subq	$32,%rsp
	callq	rattle_dealloc
	addq	$32,%rsp
	jmp	2b
3:
	pxor	%xmm0,%xmm0
	movdqu	%xmm0,53960(%rbp)
	movl	$0,54009(%rbp)
	movl	$0,54012(%rbp)
	leaq	65183(%rbp),%rax
	movq	%rax,53952(%rbp)
	movq	$0,54000(%rbp)
	movb	$0,54008(%rbp)
	movl	$32,53976(%rbp)
	movq	$0,53980(%rbp)
	movl	$0,53988(%rbp)
	movq	$-1,53992(%rbp)
	subq	$32,%rsp
	leaq	53952(%rbp),%rcx
	movl	$5,%edx
	callq	rtp_std_alloc.vec.Vec.grow_amortized.9d744d77114e6601
	addq	$32,%rsp
	testb	%al,%al
	je	1f
	leaq	53980(%rbp),%rdi
	movq	53968(%rbp),%rbx
	movq	53952(%rbp),%rcx
	movq	53960(%rbp),%r14
	leaq	(%rcx,%r14),%rax
	addq	$5,%r14
	leaq	rtp_static.3(%rip),%rdx
	movq	%rax,%r8
	subq	%rdx,%r8
	cmpq	$4,%r8
	ja	2f
	movl	$1701734764,(%rax)
	movb	$32,4(%rax)
	jmp	3f
2:
	movb	$32,4(%rax)
	movl	$1701734764,(%rax)
3:
	movq	%r14,53960(%rbp)
	movl	$32,53976(%rbp)
	movl	$0,8(%rdi)
	movq	$0,(%rdi)
	movq	$-1,53992(%rbp)
	pxor	%xmm0,%xmm0
	movdqa	%xmm0,21792(%rbp)
	movq	$0,21808(%rbp)
	movl	$24,%r9d
	cmpq	$100,%rsi
	jb	2f
3:
	movq	%rsi,%rax
	shrq	$2,%rax
	movabsq	$2951479051793528259,%rdx
	mulq	%rdx
	shrq	$2,%rdx
	imull	$100,%edx,%eax
	movl	%esi,%r8d
	subl	%eax,%r8d
	movzbl	%r8b,%eax
	imull	$205,%eax,%r8d
	shrl	$11,%r8d
	leal	(%r8,%r8),%r10d
	leal	(%r10,%r10,4),%r10d
	subb	%r10b,%al
	orb	$48,%al
	movb	%al,21791(%rbp,%r9)
	orb	$48,%r8b
	movb	%r8b,21790(%rbp,%r9)
	addq	$-2,%r9
	cmpq	$9999,%rsi
	movq	%rdx,%rsi
	ja	3b
	jmp	3f
2:
	movq	%rsi,%rdx
3:
	cmpq	$10,%rdx
	jb	2f
	movzbl	%dl,%eax
	imull	$205,%eax,%eax
	shrl	$11,%eax
	leal	(%rax,%rax),%r8d
	leal	(%r8,%r8,4),%r8d
	subb	%r8b,%dl
	orb	$48,%dl
	movb	%dl,21791(%rbp,%r9)
	orb	$48,%al
	movb	%al,21790(%rbp,%r9)
	addq	$-2,%r9
	jmp	3f
2:
	orb	$48,%dl
	movb	%dl,21791(%rbp,%r9)
	decq	%r9
3:
	leaq	(%r9,%rbp),%rdx
	addq	$21792,%rdx
	movb	$45,21791(%rbp,%r9)
	movl	$24,%r8d
	subq	%r9,%r8
	cmpq	$0,54000(%rbp)
	jne	2f
	movq	%rbx,%rax
	subq	%r14,%rax
	cmpq	%rax,%r8
	ja	3f
4:
	addq	%r14,%rcx
	addq	%r8,%r14
	subq	$32,%rsp
	callq	memcpy
	addq	$32,%rsp
	movq	%r14,53960(%rbp)
	movq	%rbx,53968(%rbp)
8:
	movl	$32,53976(%rbp)
	movl	$0,8(%rdi)
	movq	$0,(%rdi)
	movq	$-1,53992(%rbp)
	cmpq	$0,54000(%rbp)
	jne	11f
	movq	53960(%rbp),%rdx
	movq	53968(%rbp),%rdi
	movq	%rdi,%rax
	subq	%rdx,%rax
	cmpq	$28,%rax
	jbe	12f
13:
	movq	53952(%rbp),%rsi
	leaq	(%rsi,%rdx),%rax
	addq	$29,%rdx
	leaq	rtp_static.4(%rip),%rcx
	movq	%rax,%r8
	subq	%rcx,%r8
	cmpq	$28,%r8
	ja	14f
	movdqa	24b(%rip),%xmm0
	movdqu	%xmm0,(%rax)
	movabsq	$8245930528158411116,%rcx
	movq	%rcx,16(%rax)
	movl	$2019911712,24(%rax)
	movb	$10,28(%rax)
	jmp	15f
14:
	movups	rtp_static.4+13(%rip),%xmm0
	movups	%xmm0,13(%rax)
	movdqu	rtp_static.4(%rip),%xmm0
	movdqu	%xmm0,(%rax)
15:
	subq	$32,%rsp
	movq	%rsi,%rcx
	callq	rtp_listing.printing.write_text.df9e9f1468b30f79
	addq	$32,%rsp
	testb	%al,%al
	je	14f
	movl	%edx,%ebx
	movb	$1,%r14b
	testq	%rdi,%rdi
	je	9b
	subq	$32,%rsp
	movq	%rsi,%rcx
	callq	rattle_dealloc
	addq	$32,%rsp
	jmp	9b
14:
	testq	%rdi,%rdi
	je	14f
	subq	$32,%rsp
	movq	%rsi,%rcx
	callq	rattle_dealloc
	addq	$32,%rsp
14:
	movb	$1,%bl
	movb	$1,%r14b
	jmp	9b
2:
	subq	$32,%rsp
	leaq	53952(%rbp),%rcx
	callq	rtp_core.fmt.formatter.Formatter.write_indented.5e1603e38c63b5f6
	addq	$32,%rsp
	testb	%al,%al
	jne	1f
	jmp	8b
3:
	movq	%rdx,%rsi
	subq	$32,%rsp
	leaq	53952(%rbp),%rcx
	movq	%r8,%r15
	movq	%r8,%rdx
	callq	rtp_std_alloc.vec.Vec.grow_amortized.9d744d77114e6601
	addq	$32,%rsp
	testb	%al,%al
	je	1f
	movq	53952(%rbp),%rcx
	movq	53960(%rbp),%r14
	movq	53968(%rbp),%rbx
	movq	%rsi,%rdx
	movq	%r15,%r8
	jmp	4b
11:
	subq	$32,%rsp
	leaq	rtp_static.4(%rip),%rdx
	leaq	53952(%rbp),%rcx
	movl	$29,%r8d
	callq	rtp_core.fmt.formatter.Formatter.write_indented.5e1603e38c63b5f6
	addq	$32,%rsp
	testb	%al,%al
	jne	1f
	movq	53968(%rbp),%rdi
	movq	53952(%rbp),%rsi
	movq	53960(%rbp),%rdx
	jmp	15b
12:
	subq	$32,%rsp
	leaq	53952(%rbp),%rcx
	movl	$29,%edx
	callq	rtp_std_alloc.vec.Vec.grow_amortized.9d744d77114e6601
	addq	$32,%rsp
	testb	%al,%al
	je	1f
	movq	53960(%rbp),%rdx
	movq	53968(%rbp),%rdi
	jmp	13b
1:
	cmpq	$0,53968(%rbp)
	je	1f
	movq	53952(%rbp),%rcx
	subq	$32,%rsp
	callq	rattle_dealloc
	addq	$32,%rsp
1:
	movb	$1,%r14b
	movb	$2,%bl
	jmp	9b
10:
	subq	$32,%rsp
	leaq	32752(%rbp),%rcx
	leaq	53952(%rbp),%rdx
	movl	$10200,%r8d
	callq	memcpy
	addq	$32,%rsp
	movl	$32,%esi
	jmp	2f
3:
	addq	$40,%rsi
	cmpq	$10232,%rsi
	je	1b
2:
	movzbl	32720(%rbp,%rsi),%r8d
	testl	%r8d,%r8d
	je	3b
	movzbl	32728(%rbp,%rsi),%edx
	movq	32736(%rbp,%rsi),%rcx
	movq	32752(%rbp,%rsi),%rax
	cmpl	$2,%r8d
	cmpb	$15,%dl
	setne	%dl
	testq	%rax,%rax
	sete	%al
	orb	%dl,%al
	jne	3b
	subq	$32,%rsp
	callq	rattle_dealloc
	addq	$32,%rsp
	jmp	3b
	.section	.rdata,"dr"
	.p2align	2,0x0
6:
	.long	32b-6b
	.long	5b-6b
	.long	5b-6b
	.long	5b-6b
	.long	5b-6b
	.long	5b-6b
	.long	5b-6b
	.long	5b-6b
	.long	5b-6b
	.long	5b-6b
	.long	5b-6b
	.long	5b-6b
	.long	5b-6b
	.long	5b-6b
	.long	5b-6b
	.long	5b-6b
	.long	5b-6b
	.long	5b-6b
	.long	5b-6b
	.long	5b-6b
	.long	5b-6b
	.long	5b-6b
	.long	5b-6b
	.long	5b-6b
	.long	5b-6b
	.long	5b-6b
	.long	7b-6b
	.long	5b-6b
	.long	5b-6b
	.long	5b-6b
	.long	5b-6b
	.long	5b-6b
	.long	5b-6b
	.long	5b-6b
	.long	35b-6b
	.long	42b-6b
	.long	5b-6b
	.long	5b-6b
	.long	5b-6b
	.long	5b-6b
	.long	5b-6b
	.long	5b-6b
	.long	5b-6b
	.long	43b-6b
	.long	5b-6b
	.long	36b-6b
	.long	5b-6b
	.long	5b-6b
	.long	5b-6b
	.long	5b-6b
	.long	5b-6b
	.long	5b-6b
	.long	5b-6b
	.long	5b-6b
	.long	38b-6b
	.long	5b-6b
	.long	39b-6b
	.long	45b-6b
	.long	44b-6b
	.long	5b-6b
	.long	30b-6b
	.long	37b-6b
	.long	5b-6b
	.long	34b-6b
	.long	5b-6b
	.long	5b-6b
	.long	5b-6b
	.long	5b-6b
	.long	5b-6b
	.long	5b-6b
	.long	28b-6b
	.long	5b-6b
	.long	5b-6b
	.long	40b-6b
	.section	.text$main,"xr"
	.seh_endproc

	.section	.rdata,"dr"
rtp_static.0:
	.ascii	"want of memory\n"

	.section	.rdata,"dr"
rtp_static.3:
	.ascii	"line "

	.section	.rdata,"dr"
rtp_static.4:
	.ascii	": neither a map line nor hex\n"

	.section	.rdata,"dr"
rtp_static.5:

	.section	.rdata,"dr"
rtp_static.7:
	.ascii	"http://www.webrtc.org/experiments/rtp-hdrext/abs-send-time"

	.section	.rdata,"dr"
rtp_static.9:
	.ascii	"http://www.webrtc.org/experiments/rtp-hdrext/abs-capture-time"

	.section	.rdata,"dr"
rtp_static.11:
	.ascii	"urn:ietf:params:rtp-hdrext:ssrc-audio-level"

	.section	.rdata,"dr"
rtp_static.13:
	.ascii	"urn:ietf:params:rtp-hdrext:toffset"

	.section	.rdata,"dr"
rtp_static.17:
	.ascii	"http://www.ietf.org/id/draft-holmer-rmcat-transport-wide-cc-extensions-01"

	.section	.rdata,"dr"
rtp_static.21:
	.ascii	"http://www.webrtc.org/experiments/rtp-hdrext/video-content-type"

	.section	.rdata,"dr"
rtp_static.23:
	.ascii	"http://www.webrtc.org/experiments/rtp-hdrext/video-timing"

	.section	.rdata,"dr"
rtp_static.25:
	.ascii	"urn:ietf:params:rtp-hdrext:sdes:rtp-stream-id"

	.section	.rdata,"dr"
rtp_static.27:
	.ascii	"urn:ietf:params:rtp-hdrext:sdes:repaired-rtp-stream-id"

	.section	.rdata,"dr"
rtp_static.29:
	.ascii	"urn:ietf:params:rtp-hdrext:sdes:mid"

	.section	.rdata,"dr"
rtp_static.31:
	.ascii	"http://tools.ietf.org/html/draft-ietf-avtext-framemarking-07"

	.section	.rdata,"dr"
rtp_static.33:
	.ascii	"http://www.webrtc.org/experiments/rtp-hdrext/color-space"

	.section	.rdata,"dr"
rtp_static.35:
	.ascii	"http://www.webrtc.org/experiments/rtp-hdrext/video-layers-allocation00"

	.section	.rdata,"dr"
rtp_static.37:
	.ascii	"________________________________________________0123456789_______ABCDEFGHIJKLMNOPQRSTUVWXYZ______abcdefghijklmnopqrstuvwxyz_____________________________________________________________________________________________________________________________________"

	.section	.rdata,"dr"
rtp_static.39:
	.ascii	"packet "

	.section	.rdata,"dr"
rtp_static.40:
	.ascii	": unreadable"

	.section	.rdata,"dr"
rtp_static.42:
	.ascii	"00010203040506070809101112131415161718192021222324252627282930313233343536373839404142434445464748495051525354555657585960616263646566676869707172737475767778798081828384858687888990919293949596979899"

	.section	.rdata,"dr"
rtp_static.43:
	.ascii	"pt "

	.section	.rdata,"dr"
rtp_static.44:
	.ascii	" seq "

	.section	.rdata,"dr"
rtp_static.46:
	.ascii	" ssrc "

	.section	.rdata,"dr"
rtp_static.48:
	.ascii	" padding "

	.section	.rdata,"dr"
rtp_static.49:
	.ascii	" extension "

	.section	.rdata,"dr"
rtp_static.50:
	.ascii	" csrc "

	.section	.rdata,"dr"
rtp_static.52:
	.ascii	"yes"

	.section	.rdata,"dr"
rtp_static.54:
	.ascii	" mid "

	.section	.rdata,"dr"
rtp_static.55:
	.ascii	" rid "

	.section	.rdata,"dr"
rtp_static.56:
	.ascii	" repaired "

	.section	.rdata,"dr"
rtp_static.57:
	.ascii	" level "

	.section	.rdata,"dr"
rtp_static.58:
	.ascii	" voice "

	.section	.rdata,"dr"
rtp_static.60:
	.ascii	" transport "

	.section	.rdata,"dr"
rtp_static.63:
	.ascii	"taken "

	.section	.rdata,"dr"
rtp_static.64:
	.ascii	"refused"

	.section	.rdata,"dr"
rtp_static.65:
	.ascii	"unreadable"

	.section	.rdata,"dr"
rtp_static.66:
	.zero	4,32

	.section	.rdata,"dr"
	.p2align	2,0x0
rtp_switch.table.main:
	.long	0
	.long	2
	.long	3
	.long	1

