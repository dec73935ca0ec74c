/*
 * rtp_lines for Darwin on x86_64: the assembly text that Rattle's compiler makes of the program, each function of which is proved.
 * Made anew by: generated/make
 * kit: rattle-kit-13b logic dac8208d650f15bf
 * proved for: x86_64-unknown-linux-gnu
 * compiled for: x86_64-apple-macosx11.0.0
 * sources: 8e7625231d209049cd5fcb5776cef307d6e5a83e7af618e772be10bc49c5adbc
 * text: 91f5b0c096f474634540cefddcc3eee45cff7c39516bd3bd16bf45cdb3ed8091
 * SPDX-License-Identifier: MIT OR Apache-2.0
 * Copyright (c) 2026 The rtp-wire developers (NOTICE)
 */
	.ifdef	.gasversion.
	.error	"this text is for Darwin on x86_64: the folder generated has those for other systems"
	.end
	.endif
	.ifdef	.text
	.error	"this text is for Darwin on x86_64: the folder generated has those for other systems"
	.end
	.endif
	.set	Lrtp_comment, 1 ; .set Lrtp_comment, 0
	.if	Lrtp_comment == 1
	.error	"this text is for Darwin on x86_64: the folder generated has those for other systems"
	.end
	.endif
	.build_version macos, 11, 0 // this text is for Darwin on x86_64
	.section	__TEXT,__text,regular,pure_instructions
	.p2align	4
_rtp_std_alloc.vec.Vec.grow_amortized.9d744d77114e6601:
	.cfi_startproc
	movq	%rsi,%rax
	movq	8(%rdi),%rsi
	addq	%rsi,%rax
	jae	1f
	xorl	%eax,%eax
	retq
1:
	pushq	%r14
	.cfi_def_cfa_offset 16
	pushq	%rbx
	.cfi_def_cfa_offset 24
	pushq	%rax
	.cfi_def_cfa_offset 32
	.cfi_offset %rbx,-24
	.cfi_offset %r14,-16
	cmpq	$9,%rax
	movl	$8,%ebx
	cmovaeq	%rax,%rbx
	movq	16(%rdi),%rcx
	movq	%rcx,%rdx
	shrq	$62,%rdx
	leaq	(%rcx,%rcx),%rax
	cmpq	%rax,%rbx
	cmovaq	%rbx,%rax
	testq	%rdx,%rdx
	cmoveq	%rax,%rbx
	testq	%rbx,%rbx
	js	1f
	testq	%rcx,%rcx
	je	2f
	movq	%rdi,%r14
	movq	(%rdi),%rdi
	movl	$1,%ecx
	movq	%rbx,%rdx
	callq	_rattle_realloc
	testb	$1,%al
	je	1f
3:
	movq	%rdx,(%r14)
	movq	%rbx,16(%r14)
	movb	$1,%al
	addq	$8,%rsp
	popq	%rbx
	popq	%r14
	retq
2:
	movq	%rdi,%r14
	movl	$1,%esi
	movq	%rax,%rdi
	callq	_rattle_alloc
	testb	$1,%al
	jne	3b
1:
	xorl	%eax,%eax
	addq	$8,%rsp
	popq	%rbx
	popq	%r14
	retq
	.cfi_endproc

	.p2align	4
_rtp_std_io.io.error.last_error:
	.cfi_startproc
	pushq	%rbx
	.cfi_def_cfa_offset 16
	.cfi_offset %rbx,-16
	movq	%rdi,%rbx
	callq	_rattle_errno
	movl	%eax,%ecx
	movb	$41,%dl
	testl	%eax,%eax
	js	1f
	decl	%eax
	cmpl	$121,%eax
	ja	1f
	leaq	2f(%rip),%rsi
	movslq	(%rsi,%rax,4),%rax
	addq	%rsi,%rax
	jmpq	*%rax
3:
	movb	$1,%dl
	jmp	1f
4:
	movb	$36,%dl
	jmp	1f
5:
	movb	$4,%dl
	jmp	1f
6:
	movb	$7,%dl
	jmp	1f
7:
	movb	$26,%dl
	jmp	1f
8:
	movb	$39,%dl
	jmp	1f
9:
	movb	$9,%dl
	jmp	1f
10:
	movb	$8,%dl
	jmp	1f
11:
	movb	$30,%dl
	jmp	1f
12:
	movb	$25,%dl
	jmp	1f
13:
	movb	$32,%dl
	jmp	1f
14:
	movb	$33,%dl
	jmp	1f
15:
	movb	$22,%dl
	jmp	1f
16:
	movb	$31,%dl
	jmp	1f
17:
	movb	$29,%dl
	jmp	1f
18:
	movb	$18,%dl
	jmp	1f
19:
	movb	$10,%dl
	jmp	1f
20:
	movb	$28,%dl
	jmp	1f
21:
	movb	$14,%dl
	jmp	1f
22:
	movb	$12,%dl
	jmp	1f
23:
	movb	$5,%dl
	jmp	1f
24:
	movb	$3,%dl
	jmp	1f
25:
	xorl	%edx,%edx
	jmp	1f
26:
	movb	$13,%dl
	jmp	1f
27:
	movb	$38,%dl
	jmp	1f
28:
	movb	$11,%dl
	jmp	1f
29:
	movb	$35,%dl
	jmp	1f
30:
	movb	$34,%dl
	jmp	1f
31:
	movb	$20,%dl
	jmp	1f
32:
	movb	$15,%dl
	jmp	1f
33:
	movb	$19,%dl
	jmp	1f
34:
	movb	$16,%dl
	jmp	1f
35:
	movb	$6,%dl
	jmp	1f
36:
	movb	$27,%dl
	jmp	1f
37:
	movb	$24,%dl
	jmp	1f
38:
	movb	$2,%dl
	jmp	1f
39:
	movb	$17,%dl
1:
	movb	$0,(%rbx)
	movb	%dl,1(%rbx)
	movw	$0,2(%rbx)
	movl	%ecx,4(%rbx)
	xorps	%xmm0,%xmm0
	movups	%xmm0,8(%rbx)
	movups	%xmm0,24(%rbx)
	movups	%xmm0,40(%rbx)
	movups	%xmm0,56(%rbx)
	movups	%xmm0,72(%rbx)
	popq	%rbx
	retq
	.cfi_endproc
	.p2align	2
	.data_region jt32
L1_0_set_3 = 3b-2f
L1_0_set_4 = 25b-2f
L1_0_set_40 = 1b-2f
L1_0_set_5 = 29b-2f
L1_0_set_6 = 30b-2f
L1_0_set_7 = 26b-2f
L1_0_set_8 = 27b-2f
L1_0_set_9 = 20b-2f
L1_0_set_10 = 22b-2f
L1_0_set_11 = 16b-2f
L1_0_set_12 = 21b-2f
L1_0_set_13 = 32b-2f
L1_0_set_14 = 31b-2f
L1_0_set_15 = 17b-2f
L1_0_set_16 = 36b-2f
L1_0_set_17 = 37b-2f
L1_0_set_18 = 12b-2f
L1_0_set_19 = 39b-2f
L1_0_set_20 = 13b-2f
L1_0_set_21 = 28b-2f
L1_0_set_22 = 11b-2f
L1_0_set_23 = 14b-2f
L1_0_set_24 = 4b-2f
L1_0_set_25 = 34b-2f
L1_0_set_26 = 18b-2f
L1_0_set_27 = 10b-2f
L1_0_set_28 = 9b-2f
L1_0_set_29 = 19b-2f
L1_0_set_30 = 23b-2f
L1_0_set_31 = 35b-2f
L1_0_set_32 = 24b-2f
L1_0_set_33 = 6b-2f
L1_0_set_34 = 15b-2f
L1_0_set_35 = 38b-2f
L1_0_set_36 = 5b-2f
L1_0_set_37 = 8b-2f
L1_0_set_38 = 33b-2f
L1_0_set_39 = 7b-2f
2:
	.long	L1_0_set_3
	.long	L1_0_set_4
	.long	L1_0_set_40
	.long	L1_0_set_5
	.long	L1_0_set_40
	.long	L1_0_set_40
	.long	L1_0_set_6
	.long	L1_0_set_40
	.long	L1_0_set_40
	.long	L1_0_set_40
	.long	L1_0_set_7
	.long	L1_0_set_8
	.long	L1_0_set_3
	.long	L1_0_set_40
	.long	L1_0_set_40
	.long	L1_0_set_9
	.long	L1_0_set_10
	.long	L1_0_set_11
	.long	L1_0_set_40
	.long	L1_0_set_12
	.long	L1_0_set_13
	.long	L1_0_set_14
	.long	L1_0_set_40
	.long	L1_0_set_40
	.long	L1_0_set_40
	.long	L1_0_set_15
	.long	L1_0_set_16
	.long	L1_0_set_17
	.long	L1_0_set_18
	.long	L1_0_set_19
	.long	L1_0_set_20
	.long	L1_0_set_21
	.long	L1_0_set_40
	.long	L1_0_set_40
	.long	L1_0_set_22
	.long	L1_0_set_23
	.long	L1_0_set_40
	.long	L1_0_set_24
	.long	L1_0_set_25
	.long	L1_0_set_26
	.long	L1_0_set_40
	.long	L1_0_set_40
	.long	L1_0_set_40
	.long	L1_0_set_40
	.long	L1_0_set_40
	.long	L1_0_set_40
	.long	L1_0_set_40
	.long	L1_0_set_40
	.long	L1_0_set_40
	.long	L1_0_set_40
	.long	L1_0_set_40
	.long	L1_0_set_40
	.long	L1_0_set_40
	.long	L1_0_set_40
	.long	L1_0_set_40
	.long	L1_0_set_40
	.long	L1_0_set_40
	.long	L1_0_set_40
	.long	L1_0_set_40
	.long	L1_0_set_40
	.long	L1_0_set_40
	.long	L1_0_set_40
	.long	L1_0_set_40
	.long	L1_0_set_40
	.long	L1_0_set_40
	.long	L1_0_set_40
	.long	L1_0_set_40
	.long	L1_0_set_40
	.long	L1_0_set_40
	.long	L1_0_set_40
	.long	L1_0_set_40
	.long	L1_0_set_40
	.long	L1_0_set_40
	.long	L1_0_set_40
	.long	L1_0_set_40
	.long	L1_0_set_40
	.long	L1_0_set_40
	.long	L1_0_set_40
	.long	L1_0_set_40
	.long	L1_0_set_40
	.long	L1_0_set_40
	.long	L1_0_set_40
	.long	L1_0_set_40
	.long	L1_0_set_40
	.long	L1_0_set_40
	.long	L1_0_set_40
	.long	L1_0_set_40
	.long	L1_0_set_40
	.long	L1_0_set_40
	.long	L1_0_set_40
	.long	L1_0_set_40
	.long	L1_0_set_40
	.long	L1_0_set_40
	.long	L1_0_set_40
	.long	L1_0_set_24
	.long	L1_0_set_40
	.long	L1_0_set_40
	.long	L1_0_set_27
	.long	L1_0_set_28
	.long	L1_0_set_29
	.long	L1_0_set_30
	.long	L1_0_set_40
	.long	L1_0_set_31
	.long	L1_0_set_32
	.long	L1_0_set_40
	.long	L1_0_set_40
	.long	L1_0_set_33
	.long	L1_0_set_40
	.long	L1_0_set_40
	.long	L1_0_set_34
	.long	L1_0_set_35
	.long	L1_0_set_40
	.long	L1_0_set_36
	.long	L1_0_set_40
	.long	L1_0_set_37
	.long	L1_0_set_38
	.long	L1_0_set_40
	.long	L1_0_set_40
	.long	L1_0_set_40
	.long	L1_0_set_40
	.long	L1_0_set_40
	.long	L1_0_set_39
	.end_data_region

	.p2align	4
_rtp_core.str.utf8.from_utf8:
	.cfi_startproc
	pushq	%r15
	.cfi_def_cfa_offset 16
	pushq	%r14
	.cfi_def_cfa_offset 24
	pushq	%r13
	.cfi_def_cfa_offset 32
	pushq	%r12
	.cfi_def_cfa_offset 40
	pushq	%rbx
	.cfi_def_cfa_offset 48
	subq	$16,%rsp
	.cfi_def_cfa_offset 64
	.cfi_offset %rbx,-48
	.cfi_offset %r12,-40
	.cfi_offset %r13,-32
	.cfi_offset %r14,-24
	.cfi_offset %r15,-16
	movq	%rdx,%r15
	movq	%rsi,%r14
	movq	%rdi,%rbx
	testq	%rdx,%rdx
	je	1f
	movabsq	$-9187201950435737472,%r12
	leaq	-8(%r15),%r13
	xorl	%ecx,%ecx
	jmp	2f
3:
	movl	$1,%edi
4:
	addq	%rcx,%rdi
5:
	movq	%rdi,%rcx
	cmpq	%r15,%rdi
	jae	1f
2:
	movzbl	(%r14,%rcx),%esi
	testb	%sil,%sil
	sets	%dl
	movq	%r15,%rax
	subq	%rcx,%rax
	cmpq	$2,%rax
	setb	%dil
	orb	%dl,%dil
	jne	2f
	cmpb	$0,1(%r14,%rcx)
	js	3b
	movq	%r14,(%rsp)
	movq	%r15,8(%rsp)
	cmpq	$7,%rax
	ja	3f
	cmpb	$0,(%r14,%rcx)
	js	6f
	leaq	1(%rcx),%rdi
	cmpq	%r15,%rdi
	je	1f
	cmpb	$0,(%r14,%rdi)
	js	5b
	leaq	2(%rcx),%rdi
	cmpq	%r15,%rdi
	je	1f
	cmpb	$0,(%r14,%rdi)
	js	5b
	leaq	3(%rcx),%rdi
	cmpq	%r15,%rdi
	je	1f
	cmpb	$0,(%r14,%rdi)
	js	5b
	leaq	4(%rcx),%rdi
	cmpq	%r15,%rdi
	je	1f
	cmpb	$0,(%r14,%rdi)
	js	5b
	leaq	5(%rcx),%rdi
	cmpq	%r15,%rdi
	je	1f
	cmpb	$0,(%r14,%rdi)
	js	5b
	addq	$6,%rcx
	cmpq	%r15,%rcx
	je	1f
	cmpb	$0,(%r14,%rcx)
	movq	%rcx,%rdi
	js	5b
	jmp	1f
	.p2align	4
2:
	movl	$1,%edi
	testb	%sil,%sil
	jns	4b
	movl	$257,%edx
	cmpb	$-62,%sil
	jb	2f
	cmpb	$-33,%sil
	ja	7f
	cmpq	$2,%rax
	jb	8f
	movzbl	1(%r14,%rcx),%r8d
	movl	$2,%edi
	cmpb	$-65,%r8b
	jle	4b
	jmp	9f
3:
	movq	(%r14,%rcx),%rax
	andq	%r12,%rax
	je	3f
	rep		bsfq	%rax,%rax
	shrl	$3,%eax
	addq	%rcx,%rax
	addq	$8,%rcx
	movq	%rax,%rdi
	cmpq	%rcx,%rax
	jb	5b
	movq	%r15,%rcx
	subq	%rax,%rcx
	cmpq	$32,%rcx
	jae	10f
	jmp	11f
7:
	cmpb	$-17,%sil
	ja	7f
	cmpq	$3,%rax
	jb	12f
	movzbl	1(%r14,%rcx),%r8d
	cmpb	$-65,%r8b
	jg	9f
	cmpb	$-65,2(%r14,%rcx)
	jg	9f
	movzbl	%r8b,%edi
	movl	%esi,%r9d
	shll	$6,%r9d
	addl	%edi,%r9d
	addl	$-14464,%r9d
	cmpl	$32,%r9d
	jb	9f
	xorl	%r8d,%r8d
	cmpl	$896,%r9d
	setae	%r10b
	movl	$3,%edi
	cmpl	$864,%r9d
	jb	4b
	movb	%r10b,%r8b
	leaq	(%r8,%r8,2),%rdi
	testq	%rdi,%rdi
	jne	4b
	jmp	13f
6:
	movq	%rcx,%rdi
	jmp	5b
3:
	addq	$8,%rcx
	movq	%rcx,%rax
	movq	%r15,%rcx
	subq	%rax,%rcx
	cmpq	$32,%rcx
	jb	11f
	.p2align	4
10:
	movdqu	(%r14,%rax),%xmm0
	movdqu	16(%r14,%rax),%xmm1
	por	%xmm0,%xmm1
	pshufd	$238,%xmm1,%xmm0
	por	%xmm1,%xmm0
	movq	%xmm0,%rcx
	testq	%r12,%rcx
	jne	11f
	addq	$32,%rax
	movq	%rsp,%rdi
	movq	%rax,%rsi
	movq	%r15,%rdx
	callq	_rtp_core.slice.words.skip_far.52f9edcae2f82f51
	movq	%r15,%rcx
	subq	%rax,%rcx
	cmpq	$31,%rcx
	ja	10b
11:
	movq	%r15,%rcx
	subq	%rax,%rcx
	jmp	3f
	.p2align	4
6:
	rep		bsfq	%rdx,%rdi
	shrl	$3,%edi
	addq	%rax,%rdi
	addq	$8,%rax
	addq	$-8,%rcx
	cmpq	%rax,%rdi
	jb	5b
3:
	cmpq	$9,%rcx
	jb	10f
	movq	(%r14,%rax),%rdx
	andq	%r12,%rdx
	jne	6b
	leaq	8(%rax),%rdi
	addq	$8,%rax
	addq	$-8,%rcx
	cmpq	%rax,%rdi
	jae	3b
	jmp	5b
10:
	movq	(%r14,%r13),%rax
	andq	%r12,%rax
	je	1f
	rep		bsfq	%rax,%rdi
	shrl	$3,%edi
	addq	%r13,%rdi
	jmp	5b
7:
	cmpq	$4,%rax
	jb	13f
	movzbl	1(%r14,%rcx),%edi
	cmpb	$-65,%dil
	jg	13f
	cmpb	$-65,2(%r14,%rcx)
	jg	13f
	cmpb	$-65,3(%r14,%rcx)
	jg	13f
	movl	%esi,%r8d
	shll	$6,%r8d
	leal	(%r8,%rdi),%r9d
	addl	$-15488,%r9d
	xorl	%edi,%edi
	cmpl	$272,%r9d
	setb	%r8b
	cmpl	$16,%r9d
	jb	13f
	movb	%r8b,%dil
	shll	$2,%edi
	testq	%rdi,%rdi
	jne	4b
13:
	cmpb	$-12,%sil
	ja	2f
12:
	cmpq	$2,%rax
	jb	8f
	movzbl	1(%r14,%rcx),%r8d
9:
	cmpl	$240,%esi
	sete	%dil
	shlb	$4,%dil
	orb	$-128,%dil
	cmpl	$224,%esi
	movzbl	%dil,%edi
	movl	$160,%r9d
	cmovnel	%edi,%r9d
	cmpl	$244,%esi
	movl	$143,%edi
	movl	$191,%r10d
	cmovel	%edi,%r10d
	cmpl	$237,%esi
	movl	$159,%esi
	cmovnel	%r10d,%esi
	cmpb	%r8b,%r9b
	ja	2f
	cmpb	%sil,%r8b
	ja	2f
	cmpq	$2,%rax
	jne	3f
8:
	xorl	%edx,%edx
2:
	movq	$1,(%rbx)
	movq	%rcx,8(%rbx)
	movq	%rdx,16(%rbx)
	jmp	4f
1:
	movq	$0,(%rbx)
	movq	%r14,8(%rbx)
	movq	%r15,16(%rbx)
4:
	addq	$16,%rsp
	popq	%rbx
	popq	%r12
	popq	%r13
	popq	%r14
	popq	%r15
	retq
3:
	movl	$513,%edx
	cmpb	$-65,2(%r14,%rcx)
	jg	2b
	xorl	%esi,%esi
	cmpq	$4,%rax
	movl	$769,%edx
	cmovbq	%rsi,%rdx
	jmp	2b
	.cfi_endproc

	.p2align	4
_rtp_core.slice.words.skip_far.52f9edcae2f82f51:
	.cfi_startproc
	movq	%rsi,%rax
	subq	%rsi,%rdx
	cmpq	$64,%rdx
	jb	1f
	movq	(%rdi),%rcx
	.p2align	4
2:
	movdqu	(%rcx,%rax),%xmm0
	movdqu	16(%rcx,%rax),%xmm1
	movdqu	32(%rcx,%rax),%xmm2
	por	%xmm0,%xmm2
	movdqu	48(%rcx,%rax),%xmm0
	por	%xmm1,%xmm0
	por	%xmm2,%xmm0
	pshufd	$238,%xmm0,%xmm1
	por	%xmm0,%xmm1
	movq	%xmm1,%rsi
	movabsq	$-9187201950435737472,%rdi
	testq	%rdi,%rsi
	jne	1f
	addq	$64,%rax
	addq	$-64,%rdx
	cmpq	$63,%rdx
	ja	2b
1:
	retq
	.cfi_endproc

	.p2align	4
_rtp_ext.map.ExtensionMap.set:
	.cfi_startproc
	movzbl	(%rdx),%r8d
	movq	8(%rdx),%rax
	testb	%sil,%sil
	je	1f
	pushq	%rbp
	.cfi_def_cfa_offset 16
	pushq	%r14
	.cfi_def_cfa_offset 24
	pushq	%rbx
	.cfi_def_cfa_offset 32
	.cfi_offset %rbx,-32
	.cfi_offset %r14,-24
	.cfi_offset %rbp,-16
	movups	16(%rdx),%xmm0
	xorl	%r9d,%r9d
	xorl	%ecx,%ecx
	cmpq	$15,%r8
	setne	%cl
	movl	%r8d,%r10d
	movzbl	%sil,%ebx
	movzbl	10202(%rdi,%rbx,2),%edx
	movzbl	10203(%rdi,%rbx,2),%r11d
	setne	10202(%rdi,%rbx,2)
	cmovel	%r9d,%r10d
	movb	%r10b,10203(%rdi,%rbx,2)
	xorl	%r9d,%r9d
	cmpb	$14,%r10b
	sete	%r9b
	addw	10972(%rdi),%r9w
	movl	%edx,%r10d
	xorb	$1,%r10b
	xorb	$14,%r11b
	xorl	%ebp,%ebp
	orb	%r10b,%r11b
	sete	%bpl
	subl	%ebp,%r9d
	movw	%r9w,10972(%rdi)
	movl	%edx,%r9d
	andl	$1,%r9d
	movl	%ecx,%r10d
	subl	%r9d,%r10d
	addw	%r10w,10970(%rdi)
	andb	$1,%dl
	cmpb	%dl,%cl
	je	2f
	movl	%esi,%ecx
	cmpb	$15,%r8b
	jne	3f
	movzbl	10714(%rdi,%rbx),%ecx
3:
	movq	%rbx,%r9
	movq	%rbx,%rdx
	.p2align	4
3:
	subq	$1,%rdx
	jb	2f
	movb	%cl,10713(%rdi,%r9)
	cmpb	$1,10202(%rdi,%rdx,2)
	movq	%rdx,%r9
	jne	3b
2:
	leaq	(%rbx,%rbx,4),%r11
	movzbl	-40(%rdi,%r11,8),%r10d
	movzbl	-32(%rdi,%r11,8),%r9d
	movq	-24(%rdi,%r11,8),%rcx
	movq	-8(%rdi,%r11,8),%rdx
	movq	$1,-40(%rdi,%r11,8)
	movq	%r8,-32(%rdi,%r11,8)
	movq	%rax,-24(%rdi,%r11,8)
	movups	%xmm0,-16(%rdi,%r11,8)
	testl	%r10d,%r10d
	je	2f
	cmpl	$2,%r10d
	cmpb	$15,%r9b
	setne	%al
	testq	%rdx,%rdx
	sete	%dl
	orb	%al,%dl
	jne	2f
	movq	%rdi,%r14
	movq	%rcx,%rdi
	movl	%esi,%ebp
	callq	_rattle_dealloc
	movl	%ebp,%esi
	movq	%r14,%rdi
2:
	movzbl	10200(%rdi),%eax
	cmpb	%al,%sil
	cmovbel	%eax,%ebx
	movb	%bl,10200(%rdi)
	popq	%rbx
	popq	%r14
	popq	%rbp
	retq
1:
	cmpl	$15,%r8d
	jne	1f
	cmpq	$0,24(%rdx)
	je	1f
	movq	%rax,%rdi
	jmp	_rattle_dealloc
1:
	retq
	.cfi_endproc

	.section	__TEXT,__literal16,16byte_literals
	.p2align	4,0x0
1:
	.space	16,10
2:
	.space	16,15
3:
	.space	16,1
4:
	.short	3855
	.short	3855
	.short	3855
	.short	3855
	.space	2
	.space	2
	.space	2
	.space	2
5:
	.short	257
	.short	257
	.short	257
	.short	257
	.space	2
	.space	2
	.space	2
	.space	2
6:
	.short	9
	.short	9
	.short	9
	.short	9
	.space	2
	.space	2
	.space	2
	.space	2
7:
	.short	4097
	.short	4097
	.short	4097
	.short	4097
	.space	2
	.space	2
	.space	2
	.space	2
8:
	.space	16,32
	.section	__TEXT,__text,regular,pure_instructions
	.p2align	4
_rtp_listing.printing.print_all.df9e9f1468b30f79:
	.cfi_startproc
	pushq	%rbp
	.cfi_def_cfa_offset 16
	pushq	%r15
	.cfi_def_cfa_offset 24
	pushq	%r14
	.cfi_def_cfa_offset 32
	pushq	%r13
	.cfi_def_cfa_offset 40
	pushq	%r12
	.cfi_def_cfa_offset 48
	pushq	%rbx
	.cfi_def_cfa_offset 56
	subq	$696,%rsp
	.cfi_def_cfa_offset 752
	.cfi_offset %rbx,-56
	.cfi_offset %r12,-48
	.cfi_offset %r13,-40
	.cfi_offset %r14,-32
	.cfi_offset %r15,-24
	.cfi_offset %rbp,-16
	movq	%rdi,%rbx
	pxor	%xmm0,%xmm0
	movdqa	%xmm0,640(%rsp)
	movq	$0,656(%rsp)
	movq	$0,152(%rsp)
	leaq	16(%rsp),%rax
	movq	%rax,160(%rsp)
	movdqu	%xmm0,168(%rsp)
	movdqu	%xmm0,184(%rsp)
	movdqu	%xmm0,200(%rsp)
	movq	%rax,216(%rsp)
	movdqu	%xmm0,224(%rsp)
	movdqu	%xmm0,240(%rsp)
	movq	%rax,48(%rsp)
	movdqu	%xmm0,56(%rsp)
	movw	$2,328(%rsp)
	movb	$1,330(%rsp)
	movq	$0,331(%rsp)
	movq	$0,337(%rsp)
	movb	$1,345(%rsp)
	leaq	346(%rsp),%rdi
	movl	$286,%esi
	callq	___bzero
	movq	$16,632(%rsp)
	movl	$16384,%edi
	movl	$1,%esi
	callq	_rattle_alloc
	testb	$1,%al
	je	9f
	movq	%rdx,%r15
	movl	$16384,%esi
	movq	%rdx,%rdi
	callq	___bzero
	movq	10984(%rbx),%r13
	testq	%r13,%r13
	je	10f
	movq	$0,256(%rsp)
	movabsq	$10000000000000000,%rax
	movq	%rbx,320(%rsp)
	movq	10976(%rbx),%r12
	movq	%rax,%rbx
	xorl	%esi,%esi
	xorl	%ebp,%ebp
	movq	%r15,72(%rsp)
	jmp	11f
	.p2align	4
12:
	xorl	%esi,%esi
13:
	testq	%r13,%r13
	je	14f
11:
	movq	%rsi,80(%rsp)
	xorl	%ecx,%ecx
	.p2align	4
11:
	movq	%rcx,%rax
	addq	$32,%rcx
	cmpq	%r13,%rcx
	ja	15f
	movdqu	(%r12,%rax),%xmm0
	movdqu	16(%r12,%rax),%xmm1
	movdqa	1b(%rip),%xmm2
	pcmpeqb	%xmm2,%xmm0
	pmovmskb	%xmm0,%esi
	pcmpeqb	%xmm2,%xmm1
	pmovmskb	%xmm1,%edx
	shll	$16,%edx
	orl	%esi,%edx
	je	11b
	rep		bsfl	%edx,%ecx
1:
	movq	%r13,%rdx
	subq	%rcx,%rdx
	cmpq	%rax,%rdx
	jne	11f
	leaq	lrtp__static.5(%rip),%rax
	movq	%rax,96(%rsp)
	jmp	16f
	.p2align	4
15:
	leaq	lrtp__static.5(%rip),%rcx
	movq	%rcx,96(%rsp)
	cmpq	%rax,%r13
	je	16f
	leaq	(%r12,%rax),%rdx
	movq	%rax,%rsi
	subq	%r13,%rsi
	xorl	%ecx,%ecx
	.p2align	4
15:
	cmpb	$10,(%rdx,%rcx)
	je	1b
	incq	%rcx
	movq	%rsi,%rdi
	addq	%rcx,%rdi
	jne	15b
	.p2align	4
16:
	movq	$0,(%rsp)
	jmp	1f
	.p2align	4
11:
	movq	%rcx,%r13
	addq	%rax,%r13
	je	11f
	leaq	(%rcx,%rax),%rsi
	cmpb	$13,-1(%r12,%rsi)
	jne	11f
	leaq	(%rcx,%rax),%r13
	decq	%r13
11:
	addq	%r12,%rcx
	addq	%rax,%rcx
	incq	%rcx
	movq	%rcx,96(%rsp)
	notq	%rax
	addq	%rdx,%rax
	movq	%rax,(%rsp)
1:
	movq	%r13,%r14
	shrq	%r14
	movq	56(%rsp),%rdi
	cmpq	$161,%r13
	movq	%rbp,8(%rsp)
	ja	1f
	movq	%r14,%rsi
	subq	%rdi,%rsi
	jbe	11f
	movq	64(%rsp),%rbx
	movq	%rbx,%rax
	subq	%rdi,%rax
	cmpq	%rax,%rsi
	ja	15f
	leaq	(%rdi,%rsi),%r15
	movq	48(%rsp),%rbp
	cmpq	%r15,%rdi
	jae	16f
17:
	addq	%rbp,%rdi
	callq	___bzero
16:
	movq	%r15,56(%rsp)
	movq	%rbx,64(%rsp)
	movq	72(%rsp),%r15
	movabsq	$10000000000000000,%rbx
	cmpq	$8,%r13
	jae	18f
	jmp	19f
	.p2align	4
1:
	cmpq	$80,%rdi
	jae	1f
	movl	$80,%esi
	subq	%rdi,%rsi
	movq	64(%rsp),%rbx
	movq	%rbx,%rax
	subq	%rdi,%rax
	cmpq	%rax,%rsi
	ja	20f
	leaq	(%rdi,%rsi),%r8
	movq	48(%rsp),%rbp
	cmpq	%r8,%rdi
	jae	21f
22:
	addq	%rbp,%rdi
	movq	%r8,%r13
	callq	___bzero
	movq	%r13,%r8
21:
	movq	%r8,56(%rsp)
	movq	%rbx,64(%rsp)
	movabsq	$10000000000000000,%rbx
	jmp	23f
	.p2align	4
11:
	testq	%r14,%r14
	je	11f
	movq	48(%rsp),%rbp
	cmpq	$8,%r13
	jb	19f
18:
	movl	%r13d,%eax
	andl	$254,%eax
	addq	%r12,%rax
	cmpq	%rax,%rbp
	jae	18f
	leaq	(%r14,%rbp),%rax
	cmpq	%rax,%r12
	jae	18f
19:
	xorl	%eax,%eax
	jmp	19f
	.p2align	4
1:
	movq	48(%rsp),%rbp
	movq	%rdi,%r8
23:
	leaq	80(%rbp),%rax
	leaq	160(%r12),%rdi
	cmpq	%rdi,%rbp
	setb	%cl
	cmpq	%rax,%r12
	setb	%al
	testb	%al,%cl
	je	1f
	xorl	%eax,%eax
	.p2align	4
23:
	movzwl	(%r12,%rax,2),%ecx
	movl	%ecx,%edx
	andl	$3855,%edx
	shrl	$6,%ecx
	andl	$257,%ecx
	leal	(%rcx,%rcx,8),%ecx
	addl	%edx,%ecx
	movl	%ecx,%edx
	shll	$12,%edx
	addl	%ecx,%edx
	movb	%dh,(%rbp,%rax)
	incq	%rax
	cmpq	$80,%rax
	jne	23b
	jmp	23f
	.p2align	4
1:
	xorl	%eax,%eax
	.p2align	4
1:
	movzbl	(%r12,%rax,2),%ecx
	movzbl	8(%r12,%rax,2),%edx
	movzbl	10(%r12,%rax,2),%esi
	shll	$8,%esi
	orl	%edx,%esi
	movzbl	2(%r12,%rax,2),%edx
	shll	$8,%edx
	orl	%ecx,%edx
	movzbl	4(%r12,%rax,2),%ecx
	shll	$16,%ecx
	orl	%edx,%ecx
	movzbl	6(%r12,%rax,2),%edx
	shll	$24,%edx
	orl	%ecx,%edx
	movzbl	12(%r12,%rax,2),%ecx
	movd	%edx,%xmm0
	pinsrw	$2,%esi,%xmm0
	movzbl	14(%r12,%rax,2),%edx
	shll	$8,%edx
	orl	%ecx,%edx
	pinsrw	$3,%edx,%xmm0
	movzbl	1(%r12,%rax,2),%ecx
	movzbl	9(%r12,%rax,2),%edx
	movzbl	11(%r12,%rax,2),%esi
	shll	$8,%esi
	orl	%edx,%esi
	movzbl	3(%r12,%rax,2),%edx
	shll	$8,%edx
	orl	%ecx,%edx
	movzbl	5(%r12,%rax,2),%ecx
	shll	$16,%ecx
	orl	%edx,%ecx
	movzbl	7(%r12,%rax,2),%edx
	shll	$24,%edx
	orl	%ecx,%edx
	movzbl	16(%r12,%rax,2),%ecx
	movd	%edx,%xmm1
	movzbl	13(%r12,%rax,2),%edx
	pinsrw	$2,%esi,%xmm1
	movzbl	15(%r12,%rax,2),%esi
	shll	$8,%esi
	orl	%edx,%esi
	movzbl	24(%r12,%rax,2),%edx
	pinsrw	$3,%esi,%xmm1
	movzbl	26(%r12,%rax,2),%esi
	shll	$8,%esi
	orl	%edx,%esi
	movzbl	18(%r12,%rax,2),%edx
	shll	$8,%edx
	orl	%ecx,%edx
	movzbl	20(%r12,%rax,2),%ecx
	shll	$16,%ecx
	orl	%edx,%ecx
	movzbl	22(%r12,%rax,2),%edx
	shll	$24,%edx
	orl	%ecx,%edx
	movzbl	28(%r12,%rax,2),%ecx
	movd	%edx,%xmm2
	pinsrw	$2,%esi,%xmm2
	movzbl	17(%r12,%rax,2),%edx
	movzbl	30(%r12,%rax,2),%esi
	shll	$8,%esi
	orl	%ecx,%esi
	movzbl	25(%r12,%rax,2),%ecx
	pinsrw	$3,%esi,%xmm2
	movzbl	27(%r12,%rax,2),%esi
	shll	$8,%esi
	orl	%ecx,%esi
	movzbl	19(%r12,%rax,2),%ecx
	shll	$8,%ecx
	orl	%edx,%ecx
	movzbl	21(%r12,%rax,2),%edx
	shll	$16,%edx
	orl	%ecx,%edx
	movzbl	23(%r12,%rax,2),%ecx
	shll	$24,%ecx
	orl	%edx,%ecx
	movd	%ecx,%xmm3
	movzbl	29(%r12,%rax,2),%ecx
	pinsrw	$2,%esi,%xmm3
	movzbl	31(%r12,%rax,2),%edx
	shll	$8,%edx
	orl	%ecx,%edx
	pinsrw	$3,%edx,%xmm3
	punpcklbw	%xmm1,%xmm0
	punpcklbw	%xmm3,%xmm2
	movdqa	2b(%rip),%xmm1
	movdqa	%xmm0,%xmm3
	pand	%xmm1,%xmm3
	pand	%xmm2,%xmm1
	psrlw	$6,%xmm0
	psrlw	$6,%xmm2
	movdqa	3b(%rip),%xmm4
	pand	%xmm4,%xmm2
	pand	%xmm4,%xmm0
	movdqa	%xmm0,%xmm4
	psllw	$3,%xmm4
	por	%xmm0,%xmm4
	paddw	%xmm3,%xmm4
	movdqa	%xmm2,%xmm0
	psllw	$3,%xmm0
	por	%xmm2,%xmm0
	paddw	%xmm1,%xmm0
	movdqa	%xmm4,%xmm1
	psllw	$12,%xmm1
	paddw	%xmm4,%xmm1
	movdqa	%xmm0,%xmm2
	psllw	$12,%xmm2
	paddw	%xmm0,%xmm2
	psrlw	$8,%xmm2
	psrlw	$8,%xmm1
	packuswb	%xmm2,%xmm1
	movdqu	%xmm1,(%rbp,%rax)
	addq	$16,%rax
	cmpq	$80,%rax
	jne	1b
23:
	movzbl	(%rbp),%r13d
	movl	%r13d,%eax
	shll	$2,%r13d
	andl	$60,%r13d
	testb	$16,%al
	jne	1f
	addq	$12,%r13
	cmpq	%r13,%r14
	cmovbq	%r14,%r13
	cmpq	$81,%r13
	jae	23f
	.p2align	4
24:
	movq	80(%rsp),%r14
	cmpq	$12,%r13
	jb	25f
	jmp	26f
	.p2align	4
1:
	movzwl	14(%rbp,%r13),%eax
	rolw	$8,%ax
	movzwl	%ax,%eax
	leaq	16(%r13,%rax,4),%r13
	cmpq	%r13,%r14
	cmovbq	%r14,%r13
	cmpq	$81,%r13
	jb	24b
23:
	movq	%r13,%rsi
	subq	%r8,%rsi
	jbe	1f
	movq	64(%rsp),%rbx
	movq	%rbx,%rax
	subq	%r8,%rax
	cmpq	%rax,%rsi
	ja	23f
	leaq	(%r8,%rsi),%r14
	cmpq	%r14,%r8
	jae	24f
27:
	addq	%rbp,%r8
	movq	%rdi,%r15
	movq	%r8,%rdi
	callq	___bzero
	movq	%r15,%rdi
24:
	movq	%rbp,48(%rsp)
	movq	%r14,56(%rsp)
	movq	%rbx,64(%rsp)
	movq	72(%rsp),%r15
	movabsq	$10000000000000000,%rbx
1:
	movq	80(%rsp),%r14
	leaq	-80(%r13),%rax
	movl	$80,%edx
	cmpq	$4,%rax
	jb	1f
	leaq	80(%rbp),%rcx
	leaq	(%r12,%r13,2),%rsi
	cmpq	%rsi,%rcx
	jae	28f
	movq	%rbp,%rcx
	addq	%r13,%rcx
	cmpq	%rcx,%rdi
	jb	1f
28:
	cmpq	$16,%rax
	jae	28f
	xorl	%ecx,%ecx
	jmp	29f
18:
	cmpq	$32,%r13
	jae	18f
	xorl	%eax,%eax
	jmp	30f
11:
	xorl	%esi,%esi
	xorl	%r10d,%r10d
	xorl	%r11d,%r11d
	movq	(%rsp),%r13
	jmp	11f
18:
	movl	%r14d,%eax
	andl	$112,%eax
	xorl	%ecx,%ecx
	.p2align	4
18:
	movzbl	(%r12,%rcx,2),%edx
	movzbl	8(%r12,%rcx,2),%esi
	movzbl	10(%r12,%rcx,2),%edi
	shll	$8,%edi
	orl	%esi,%edi
	movzbl	2(%r12,%rcx,2),%esi
	shll	$8,%esi
	orl	%edx,%esi
	movzbl	4(%r12,%rcx,2),%edx
	shll	$16,%edx
	orl	%esi,%edx
	movzbl	6(%r12,%rcx,2),%esi
	shll	$24,%esi
	orl	%edx,%esi
	movzbl	12(%r12,%rcx,2),%edx
	movd	%esi,%xmm0
	pinsrw	$2,%edi,%xmm0
	movzbl	14(%r12,%rcx,2),%esi
	shll	$8,%esi
	orl	%edx,%esi
	pinsrw	$3,%esi,%xmm0
	movzbl	1(%r12,%rcx,2),%edx
	movzbl	9(%r12,%rcx,2),%esi
	movzbl	11(%r12,%rcx,2),%edi
	shll	$8,%edi
	orl	%esi,%edi
	movzbl	3(%r12,%rcx,2),%esi
	shll	$8,%esi
	orl	%edx,%esi
	movzbl	5(%r12,%rcx,2),%edx
	shll	$16,%edx
	orl	%esi,%edx
	movzbl	7(%r12,%rcx,2),%esi
	shll	$24,%esi
	orl	%edx,%esi
	movzbl	16(%r12,%rcx,2),%edx
	movd	%esi,%xmm1
	movzbl	13(%r12,%rcx,2),%esi
	pinsrw	$2,%edi,%xmm1
	movzbl	15(%r12,%rcx,2),%edi
	shll	$8,%edi
	orl	%esi,%edi
	movzbl	24(%r12,%rcx,2),%esi
	pinsrw	$3,%edi,%xmm1
	movzbl	26(%r12,%rcx,2),%edi
	shll	$8,%edi
	orl	%esi,%edi
	movzbl	18(%r12,%rcx,2),%esi
	shll	$8,%esi
	orl	%edx,%esi
	movzbl	20(%r12,%rcx,2),%edx
	shll	$16,%edx
	orl	%esi,%edx
	movzbl	22(%r12,%rcx,2),%esi
	shll	$24,%esi
	orl	%edx,%esi
	movzbl	28(%r12,%rcx,2),%edx
	movd	%esi,%xmm2
	pinsrw	$2,%edi,%xmm2
	movzbl	17(%r12,%rcx,2),%esi
	movzbl	30(%r12,%rcx,2),%edi
	shll	$8,%edi
	orl	%edx,%edi
	movzbl	25(%r12,%rcx,2),%edx
	pinsrw	$3,%edi,%xmm2
	movzbl	27(%r12,%rcx,2),%edi
	shll	$8,%edi
	orl	%edx,%edi
	movzbl	19(%r12,%rcx,2),%edx
	shll	$8,%edx
	orl	%esi,%edx
	movzbl	21(%r12,%rcx,2),%esi
	shll	$16,%esi
	orl	%edx,%esi
	movzbl	23(%r12,%rcx,2),%edx
	shll	$24,%edx
	orl	%esi,%edx
	movd	%edx,%xmm3
	movzbl	29(%r12,%rcx,2),%edx
	pinsrw	$2,%edi,%xmm3
	movzbl	31(%r12,%rcx,2),%esi
	shll	$8,%esi
	orl	%edx,%esi
	pinsrw	$3,%esi,%xmm3
	punpcklbw	%xmm1,%xmm0
	punpcklbw	%xmm3,%xmm2
	movdqa	2b(%rip),%xmm1
	movdqa	%xmm0,%xmm3
	pand	%xmm1,%xmm3
	pand	%xmm2,%xmm1
	psrlw	$6,%xmm0
	psrlw	$6,%xmm2
	movdqa	3b(%rip),%xmm4
	pand	%xmm4,%xmm2
	pand	%xmm4,%xmm0
	movdqa	%xmm0,%xmm4
	psllw	$3,%xmm4
	por	%xmm0,%xmm4
	paddw	%xmm3,%xmm4
	movdqa	%xmm2,%xmm0
	psllw	$3,%xmm0
	por	%xmm2,%xmm0
	paddw	%xmm1,%xmm0
	movdqa	%xmm4,%xmm1
	psllw	$12,%xmm1
	paddw	%xmm4,%xmm1
	movdqa	%xmm0,%xmm2
	psllw	$12,%xmm2
	paddw	%xmm0,%xmm2
	psrlw	$8,%xmm2
	psrlw	$8,%xmm1
	packuswb	%xmm2,%xmm1
	movdqu	%xmm1,(%rbp,%rcx)
	addq	$16,%rcx
	cmpq	%rcx,%rax
	jne	18b
	cmpq	%rax,%r14
	je	18f
	testb	$24,%r13b
	je	19f
30:
	movq	%rax,%rcx
	movl	%r14d,%eax
	andl	$124,%eax
	.p2align	4
30:
	movzbl	(%r12,%rcx,2),%edx
	movzbl	2(%r12,%rcx,2),%esi
	movzbl	4(%r12,%rcx,2),%edi
	movzbl	6(%r12,%rcx,2),%r8d
	movzbl	1(%r12,%rcx,2),%r9d
	movzbl	3(%r12,%rcx,2),%r10d
	movzbl	5(%r12,%rcx,2),%r11d
	shll	$8,%r10d
	orl	%r9d,%r10d
	shll	$16,%r11d
	orl	%r10d,%r11d
	movzbl	7(%r12,%rcx,2),%r9d
	shll	$24,%r9d
	orl	%r11d,%r9d
	movd	%r9d,%xmm0
	shll	$16,%esi
	orl	%edx,%esi
	movd	%esi,%xmm1
	pinsrw	$2,%edi,%xmm1
	pinsrw	$3,%r8d,%xmm1
	pxor	%xmm2,%xmm2
	punpcklbw	%xmm0,%xmm2
	por	%xmm1,%xmm2
	movdqa	4b(%rip),%xmm0
	pand	%xmm2,%xmm0
	psrlw	$6,%xmm2
	pand	5b(%rip),%xmm2
	pmullw	6b(%rip),%xmm2
	paddw	%xmm0,%xmm2
	pmullw	7b(%rip),%xmm2
	psrlw	$8,%xmm2
	packuswb	%xmm2,%xmm2
	movd	%xmm2,(%rbp,%rcx)
	addq	$4,%rcx
	cmpq	%rcx,%rax
	jne	30b
	jmp	30f
28:
	movq	%rax,%rcx
	andq	$-16,%rcx
	xorl	%edx,%edx
	.p2align	4
28:
	movzbl	160(%r12,%rdx,2),%esi
	movzbl	168(%r12,%rdx,2),%edi
	movzbl	170(%r12,%rdx,2),%r8d
	shll	$8,%r8d
	orl	%edi,%r8d
	movzbl	162(%r12,%rdx,2),%edi
	shll	$8,%edi
	orl	%esi,%edi
	movzbl	164(%r12,%rdx,2),%esi
	shll	$16,%esi
	orl	%edi,%esi
	movzbl	166(%r12,%rdx,2),%edi
	shll	$24,%edi
	orl	%esi,%edi
	movzbl	172(%r12,%rdx,2),%esi
	movd	%edi,%xmm0
	pinsrw	$2,%r8d,%xmm0
	movzbl	174(%r12,%rdx,2),%edi
	shll	$8,%edi
	orl	%esi,%edi
	pinsrw	$3,%edi,%xmm0
	movzbl	161(%r12,%rdx,2),%esi
	movzbl	169(%r12,%rdx,2),%edi
	movzbl	171(%r12,%rdx,2),%r8d
	shll	$8,%r8d
	orl	%edi,%r8d
	movzbl	163(%r12,%rdx,2),%edi
	shll	$8,%edi
	orl	%esi,%edi
	movzbl	165(%r12,%rdx,2),%esi
	shll	$16,%esi
	orl	%edi,%esi
	movzbl	167(%r12,%rdx,2),%edi
	shll	$24,%edi
	orl	%esi,%edi
	movzbl	176(%r12,%rdx,2),%esi
	movd	%edi,%xmm1
	movzbl	173(%r12,%rdx,2),%edi
	pinsrw	$2,%r8d,%xmm1
	movzbl	175(%r12,%rdx,2),%r8d
	shll	$8,%r8d
	orl	%edi,%r8d
	movzbl	184(%r12,%rdx,2),%edi
	pinsrw	$3,%r8d,%xmm1
	movzbl	186(%r12,%rdx,2),%r8d
	shll	$8,%r8d
	orl	%edi,%r8d
	movzbl	178(%r12,%rdx,2),%edi
	shll	$8,%edi
	orl	%esi,%edi
	movzbl	180(%r12,%rdx,2),%esi
	shll	$16,%esi
	orl	%edi,%esi
	movzbl	182(%r12,%rdx,2),%edi
	shll	$24,%edi
	orl	%esi,%edi
	movzbl	188(%r12,%rdx,2),%esi
	movd	%edi,%xmm2
	pinsrw	$2,%r8d,%xmm2
	movzbl	177(%r12,%rdx,2),%edi
	movzbl	190(%r12,%rdx,2),%r8d
	shll	$8,%r8d
	orl	%esi,%r8d
	movzbl	185(%r12,%rdx,2),%esi
	pinsrw	$3,%r8d,%xmm2
	movzbl	187(%r12,%rdx,2),%r8d
	shll	$8,%r8d
	orl	%esi,%r8d
	movzbl	179(%r12,%rdx,2),%esi
	shll	$8,%esi
	orl	%edi,%esi
	movzbl	181(%r12,%rdx,2),%edi
	shll	$16,%edi
	orl	%esi,%edi
	movzbl	183(%r12,%rdx,2),%esi
	shll	$24,%esi
	orl	%edi,%esi
	movd	%esi,%xmm3
	movzbl	189(%r12,%rdx,2),%esi
	pinsrw	$2,%r8d,%xmm3
	movzbl	191(%r12,%rdx,2),%edi
	shll	$8,%edi
	orl	%esi,%edi
	pinsrw	$3,%edi,%xmm3
	punpcklbw	%xmm1,%xmm0
	punpcklbw	%xmm3,%xmm2
	movdqa	2b(%rip),%xmm1
	movdqa	%xmm0,%xmm3
	pand	%xmm1,%xmm3
	pand	%xmm2,%xmm1
	psrlw	$6,%xmm0
	psrlw	$6,%xmm2
	movdqa	3b(%rip),%xmm4
	pand	%xmm4,%xmm2
	pand	%xmm4,%xmm0
	movdqa	%xmm0,%xmm4
	psllw	$3,%xmm4
	por	%xmm0,%xmm4
	paddw	%xmm3,%xmm4
	movdqa	%xmm2,%xmm0
	psllw	$3,%xmm0
	por	%xmm2,%xmm0
	paddw	%xmm1,%xmm0
	movdqa	%xmm4,%xmm1
	psllw	$12,%xmm1
	paddw	%xmm4,%xmm1
	movdqa	%xmm0,%xmm2
	psllw	$12,%xmm2
	paddw	%xmm0,%xmm2
	psrlw	$8,%xmm2
	psrlw	$8,%xmm1
	packuswb	%xmm2,%xmm1
	movdqu	%xmm1,80(%rbp,%rdx)
	addq	$16,%rdx
	cmpq	%rdx,%rcx
	jne	28b
	cmpq	%rcx,%rax
	je	2f
	testb	$12,%r13b
	je	3f
29:
	movq	%rax,%rsi
	andq	$-4,%rsi
	leaq	80(%rsi),%rdx
	.p2align	4
28:
	movzbl	160(%r12,%rcx,2),%edi
	movzbl	162(%r12,%rcx,2),%r8d
	movzbl	164(%r12,%rcx,2),%r9d
	movzbl	166(%r12,%rcx,2),%r10d
	movzbl	161(%r12,%rcx,2),%r11d
	movzbl	163(%r12,%rcx,2),%ebx
	movzbl	165(%r12,%rcx,2),%r14d
	shll	$8,%ebx
	orl	%r11d,%ebx
	shll	$16,%r14d
	orl	%ebx,%r14d
	movzbl	167(%r12,%rcx,2),%r11d
	shll	$24,%r11d
	orl	%r14d,%r11d
	movd	%r11d,%xmm0
	shll	$16,%r8d
	orl	%edi,%r8d
	movd	%r8d,%xmm1
	pinsrw	$2,%r9d,%xmm1
	pinsrw	$3,%r10d,%xmm1
	pxor	%xmm2,%xmm2
	punpcklbw	%xmm0,%xmm2
	por	%xmm1,%xmm2
	movdqa	4b(%rip),%xmm0
	pand	%xmm2,%xmm0
	psrlw	$6,%xmm2
	pand	5b(%rip),%xmm2
	pmullw	6b(%rip),%xmm2
	paddw	%xmm0,%xmm2
	pmullw	7b(%rip),%xmm2
	psrlw	$8,%xmm2
	packuswb	%xmm2,%xmm2
	movd	%xmm2,80(%rbp,%rcx)
	addq	$4,%rcx
	cmpq	%rcx,%rsi
	jne	28b
	cmpq	%rsi,%rax
	movabsq	$10000000000000000,%rbx
	movq	80(%rsp),%r14
	je	2f
	.p2align	4
1:
	movzwl	(%r12,%rdx,2),%eax
	movl	%eax,%ecx
	andl	$3855,%ecx
	shrl	$6,%eax
	andl	$257,%eax
	leal	(%rax,%rax,8),%eax
	addl	%ecx,%eax
	movl	%eax,%ecx
	shll	$12,%ecx
	addl	%eax,%ecx
	movb	%ch,(%rbp,%rdx)
	incq	%rdx
	cmpq	%rdx,%r13
	jne	1b
2:
	movq	48(%rsp),%rbp
	movzbl	(%rbp),%ecx
	cmpb	$-65,%cl
	jg	25f
	jmp	2f
15:
	leaq	48(%rsp),%rdi
	movq	%rsi,%r15
	callq	_rtp_std_alloc.vec.Vec.grow_amortized.9d744d77114e6601
	testb	%al,%al
	je	4f
	movq	56(%rsp),%rdi
	movq	64(%rsp),%rbx
	movq	%r15,%rsi
	leaq	(%rdi,%rsi),%r15
	movq	48(%rsp),%rbp
	cmpq	%r15,%rdi
	jb	17b
	jmp	16b
20:
	leaq	48(%rsp),%rdi
	movq	%rsi,%r15
	callq	_rtp_std_alloc.vec.Vec.grow_amortized.9d744d77114e6601
	testb	%al,%al
	je	4f
	movq	56(%rsp),%rdi
	movq	64(%rsp),%rbx
	movq	%r15,%rsi
	movq	72(%rsp),%r15
	leaq	(%rdi,%rsi),%r8
	movq	48(%rsp),%rbp
	cmpq	%r8,%rdi
	jb	22b
	jmp	21b
23:
	movq	%rdi,%r15
	leaq	48(%rsp),%rdi
	movq	%rsi,%r14
	callq	_rtp_std_alloc.vec.Vec.grow_amortized.9d744d77114e6601
	testb	%al,%al
	je	4f
	movq	48(%rsp),%rbp
	movq	56(%rsp),%r8
	movq	64(%rsp),%rbx
	movq	%r14,%rsi
	movq	%r15,%rdi
	leaq	(%r8,%rsi),%r14
	cmpq	%r14,%r8
	jb	27b
	jmp	24b
3:
	addq	$80,%rcx
	movq	%rcx,%rdx
	jmp	1b
	.p2align	4
19:
	movzwl	(%r12,%rax,2),%ecx
	movl	%ecx,%edx
	andl	$3855,%edx
	shrl	$6,%ecx
	andl	$257,%ecx
	leal	(%rcx,%rcx,8),%ecx
	addl	%edx,%ecx
	movl	%ecx,%edx
	shll	$12,%edx
	addl	%ecx,%edx
	movb	%dh,(%rbp,%rax)
	incq	%rax
30:
	cmpq	%rax,%r14
	jne	19b
18:
	movq	%r14,%r13
	movq	80(%rsp),%r14
	cmpq	$12,%r13
	jb	25f
26:
	movzbl	(%rbp),%ecx
	cmpb	$-65,%cl
	jg	25f
2:
	movl	%ecx,%eax
	andl	$15,%eax
	leaq	12(,%rax,4),%r12
	subq	%r12,%r13
	jae	1f
	.p2align	4
25:
	xorl	%esi,%esi
	xorl	%r10d,%r10d
	xorl	%r11d,%r11d
	movq	8(%rsp),%rbp
2:
	movq	(%rsp),%r13
3:
	incq	%rbp
	movl	$544499051,3(%r15,%r14)
	movl	$1801675120,(%r15,%r14)
	cmpq	$99999999,%rbp
	ja	5f
	cmpq	$9999,%rbp
	movq	96(%rsp),%r12
	ja	6f
	cmpq	$99,%rbp
	ja	7f
	cmpq	$9,%rbp
	ja	15f
	movl	%ebp,%eax
	orb	$48,%al
	movb	%al,7(%r15,%r14)
	addq	$8,%r14
	leaq	(%r15,%r14),%rcx
	testb	%sil,%sil
	je	16f
	jmp	17f
	.p2align	4
5:
	cmpq	%rbx,%rbp
	movq	96(%rsp),%r12
	jae	5f
	movabsq	$-6067343680855748867,%rcx
	movq	%rbp,%rax
	mulq	%rcx
	shrq	$26,%rdx
	movabsq	$1000000000000,%rax
	cmpq	%rax,%rbp
	jae	18f
	movabsq	$10000000000,%rax
	cmpq	%rax,%rbp
	jae	19f
	cmpq	$999999999,%rbp
	ja	20f
	orb	$48,%dl
	movb	%dl,7(%r15,%r14)
	addq	$8,%r14
	jmp	21f
	.p2align	4
6:
	movl	%ebp,%ecx
	movl	$3518437209,%eax
	imulq	%rcx,%rax
	shrq	$45,%rax
	cmpq	$999999,%rbp
	ja	6f
	cmpq	$99999,%rbp
	ja	22f
	movl	%eax,%ecx
	orb	$48,%cl
	movb	%cl,7(%r15,%r14)
	addq	$8,%r14
	jmp	23f
	.p2align	4
5:
	movabsq	$4153837486827862103,%rcx
	movq	%rbp,%rax
	mulq	%rcx
	shrq	$51,%rdx
	movabsq	$1000000000000000000,%rax
	cmpq	%rax,%rbp
	jae	5f
	movabsq	$100000000000000000,%rax
	cmpq	%rax,%rbp
	jae	24f
	orb	$48,%dl
	movb	%dl,7(%r15,%r14)
	addq	$8,%r14
	jmp	26f
1:
	testb	$16,%cl
	jne	1f
	movl	$0,88(%rsp)
27:
	movq	%rcx,104(%rsp)
	cmpb	$1,592(%rsp)
	jne	28f
	movq	%r12,112(%rsp)
	movq	608(%rsp),%rax
	movq	%rax,32(%rsp)
	movq	616(%rsp),%rcx
	movq	624(%rsp),%rax
	movq	%rax,120(%rsp)
	pxor	%xmm0,%xmm0
	leaq	416(%rsp),%rax
	movdqu	%xmm0,192(%rax)
	movdqu	%xmm0,176(%rax)
	movq	$0,208(%rax)
	movq	%rcx,40(%rsp)
	testq	%rcx,%rcx
	je	29f
	xorl	%ebx,%ebx
	jmp	30f
	.p2align	4
31:
	incq	%rbx
	cmpq	40(%rsp),%rbx
	je	29f
30:
	leaq	(%rbx,%rbx,2),%rax
	movq	32(%rsp),%rcx
	movq	(%rcx,%rax,8),%r13
	movq	8(%rcx,%rax,8),%r12
	movq	16(%rcx,%rax,8),%r15
	testq	%r12,%r12
	je	30f
	leaq	16(%r13),%r14
	jmp	32f
	.p2align	4
33:
	addq	$32,%r14
	decq	%r12
	je	30f
32:
	cmpq	$0,(%r14)
	je	33b
	movq	-16(%r14),%rdi
	callq	_rattle_dealloc
	jmp	33b
	.p2align	4
30:
	testq	%r15,%r15
	je	31b
	movq	%r13,%rdi
	callq	_rattle_dealloc
	jmp	31b
7:
	movl	%ebp,%eax
	shrl	$2,%eax
	movzwl	%ax,%eax
	imull	$5243,%eax,%eax
	shrl	$17,%eax
	cmpq	$999,%rbp
	ja	7f
	movl	%eax,%ecx
	orb	$48,%cl
	movb	%cl,7(%r15,%r14)
	addq	$8,%r14
	jmp	30f
18:
	movl	%edx,%edi
	movl	$3518437209,%eax
	imulq	%rdi,%rax
	shrq	$45,%rax
	movabsq	$100000000000000,%rdi
	cmpq	%rdi,%rbp
	jae	18f
	movabsq	$10000000000000,%rdi
	cmpq	%rdi,%rbp
	jae	31f
	movl	%eax,%edi
	orb	$48,%dil
	movb	%dil,7(%r15,%r14)
	addq	$8,%r14
	jmp	32f
6:
	movzwl	%ax,%ecx
	shrl	$2,%ecx
	imull	$5243,%ecx,%ecx
	shrl	$17,%ecx
	cmpq	$9999999,%rbp
	ja	6f
	movl	%ecx,%edx
	orb	$48,%dl
	movb	%dl,7(%r15,%r14)
	addq	$8,%r14
	jmp	33f
5:
	imull	$1311,%edx,%eax
	shrl	$17,%eax
	movabsq	$-8446744073709551616,%rcx
	cmpq	%rcx,%rbp
	jae	5f
	movl	%eax,%ecx
	orb	$48,%cl
	movb	%cl,7(%r15,%r14)
	addq	$8,%r14
	jmp	34f
1:
	cmpq	$4,%r13
	jb	25b
	movzwl	2(%rbp,%r12),%eax
	rolw	$8,%ax
	addq	$-4,%r13
	movzwl	%ax,%eax
	shll	$2,%eax
	cmpq	%rax,%r13
	jb	25b
	movq	%rcx,%rsi
	movzwl	(%rbp,%r12),%edx
	movl	%edx,%ecx
	andl	$61695,%ecx
	cmpw	$16,%cx
	sete	%dil
	movl	%edi,88(%rsp)
	addq	%rax,%r12
	addq	$4,%r12
	cmpl	$57022,%edx
	movq	(%rsp),%r13
	je	1f
	cmpw	$16,%cx
	movq	%rsi,%rcx
	je	27b
	xorl	%esi,%esi
	xorl	%r10d,%r10d
	xorl	%r11d,%r11d
	movq	8(%rsp),%rbp
	jmp	3b
15:
	leaq	lrtp__static.42(%rip),%rax
	movzwl	(%rax,%rbp,2),%eax
	movw	%ax,7(%r15,%r14)
	addq	$9,%r14
	leaq	(%r15,%r14),%rcx
	testb	%sil,%sil
	je	16f
	jmp	17f
19:
	movl	%edx,%eax
	shrl	$2,%eax
	movzwl	%ax,%eax
	imull	$5243,%eax,%eax
	shrl	$17,%eax
	movabsq	$100000000000,%rdi
	cmpq	%rdi,%rbp
	jae	15f
	orb	$48,%al
	movb	%al,7(%r15,%r14)
	addq	$8,%r14
	jmp	19f
22:
	movl	%eax,%ecx
	leaq	lrtp__static.42(%rip),%rdx
	movzwl	(%rdx,%rcx,2),%ecx
	movw	%cx,7(%r15,%r14)
	addq	$9,%r14
	jmp	23f
24:
	leaq	lrtp__static.42(%rip),%rax
	movzwl	(%rax,%rdx,2),%eax
	movw	%ax,7(%r15,%r14)
	addq	$9,%r14
	jmp	26f
7:
	movzwl	%ax,%ecx
	leaq	lrtp__static.42(%rip),%rdx
	movzwl	(%rdx,%rcx,2),%ecx
	movw	%cx,7(%r15,%r14)
	addq	$9,%r14
30:
	imull	$100,%eax,%eax
	movl	%ebp,%ecx
	subl	%eax,%ecx
	movzwl	%cx,%eax
	leaq	lrtp__static.42(%rip),%rcx
	movzwl	(%rcx,%rax,2),%eax
	movw	%ax,(%r15,%r14)
	addq	$2,%r14
	leaq	(%r15,%r14),%rcx
	testb	%sil,%sil
	je	16f
	jmp	17f
18:
	movzwl	%ax,%edi
	shrl	$2,%edi
	imull	$5243,%edi,%edi
	shrl	$17,%edi
	movabsq	$1000000000000000,%r8
	cmpq	%r8,%rbp
	jae	7f
	movl	%edi,%r8d
	orb	$48,%r8b
	movb	%r8b,7(%r15,%r14)
	addq	$8,%r14
	jmp	18f
6:
	movzwl	%cx,%edx
	leaq	lrtp__static.42(%rip),%rdi
	movzwl	(%rdi,%rdx,2),%edx
	movw	%dx,7(%r15,%r14)
	addq	$9,%r14
33:
	imull	$100,%ecx,%ecx
	movl	%eax,%edx
	subl	%ecx,%edx
	movzwl	%dx,%ecx
	leaq	lrtp__static.42(%rip),%rdx
	movzwl	(%rdx,%rcx,2),%ecx
	movw	%cx,(%r15,%r14)
	addq	$2,%r14
23:
	imull	$10000,%eax,%eax
	movl	%ebp,%ecx
	subl	%eax,%ecx
	movzwl	%cx,%eax
	shrl	$2,%eax
	imull	$5243,%eax,%eax
	shrl	$17,%eax
	leaq	lrtp__static.42(%rip),%rdx
	movzwl	(%rdx,%rax,2),%edi
	movw	%di,(%r15,%r14)
	imull	$100,%eax,%eax
	subl	%eax,%ecx
	movzwl	%cx,%eax
	movzwl	(%rdx,%rax,2),%eax
	movw	%ax,2(%r15,%r14)
	addq	$4,%r14
	leaq	(%r15,%r14),%rcx
	testb	%sil,%sil
	jne	17f
16:
	movabsq	$7233174018687574074,%rax
	movq	%rax,(%rcx)
	movl	$1701601889,8(%rcx)
	addq	$12,%r14
	jmp	6f
5:
	movzwl	%ax,%ecx
	leaq	lrtp__static.42(%rip),%rdi
	movzwl	(%rdi,%rcx,2),%ecx
	movw	%cx,7(%r15,%r14)
	addq	$9,%r14
34:
	imull	$100,%eax,%eax
	subl	%eax,%edx
	movzwl	%dx,%eax
	leaq	lrtp__static.42(%rip),%rcx
	movzwl	(%rcx,%rax,2),%eax
	movw	%ax,(%r15,%r14)
	addq	$2,%r14
26:
	movabsq	$-6067343680855748867,%rcx
	movq	%rbp,%rax
	mulq	%rcx
	movq	%rdx,%rcx
	shrq	$26,%rcx
	movabsq	$368934881475,%rdx
	movq	%rcx,%rax
	mulq	%rdx
	shrl	%edx
	imulq	$100000000,%rdx,%rax
	imulq	$100000000,%rcx,%rdx
	subq	%rax,%rcx
	imulq	$109951163,%rcx,%rdi
	shrq	$40,%rdi
	imull	$5243,%edi,%r8d
	shrl	$19,%r8d
	leaq	lrtp__static.42(%rip),%rax
	movzwl	(%rax,%r8,2),%r9d
	movw	%r9w,(%r15,%r14)
	imull	$100,%r8d,%r8d
	imull	$10000,%edi,%r9d
	subl	%r8d,%edi
	movzwl	%di,%edi
	movzwl	(%rax,%rdi,2),%edi
	movw	%di,2(%r15,%r14)
	subl	%r9d,%ecx
	imull	$5243,%ecx,%edi
	shrl	$19,%edi
	movzwl	(%rax,%rdi,2),%r8d
	movw	%r8w,4(%r15,%r14)
	imull	$100,%edi,%edi
	subl	%edi,%ecx
	movzwl	%cx,%ecx
	movzwl	(%rax,%rcx,2),%ecx
	movw	%cx,6(%r15,%r14)
	movq	%rbp,%rcx
	subq	%rdx,%rcx
	imulq	$109951163,%rcx,%rdx
	shrq	$40,%rdx
	imull	$5243,%edx,%edi
	shrl	$19,%edi
	movzwl	(%rax,%rdi,2),%r8d
	movw	%r8w,8(%r15,%r14)
	imull	$100,%edi,%edi
	imull	$10000,%edx,%r8d
	subl	%edi,%edx
	movzwl	%dx,%edx
	movzwl	(%rax,%rdx,2),%edx
	movw	%dx,10(%r15,%r14)
	subl	%r8d,%ecx
	imull	$5243,%ecx,%edx
	shrl	$19,%edx
	movzwl	(%rax,%rdx,2),%edi
	movw	%di,12(%r15,%r14)
	imull	$100,%edx,%edx
	subl	%edx,%ecx
	movzwl	%cx,%ecx
	movzwl	(%rax,%rcx,2),%eax
	movw	%ax,14(%r15,%r14)
	addq	$16,%r14
	leaq	(%r15,%r14),%rcx
	testb	%sil,%sil
	jne	17f
	jmp	16b
28:
	pxor	%xmm0,%xmm0
	leaq	416(%rsp),%rax
	movdqu	%xmm0,192(%rax)
	movdqu	%xmm0,176(%rax)
	movdqu	%xmm0,160(%rax)
	movdqu	%xmm0,144(%rax)
	movdqu	%xmm0,128(%rax)
	movdqu	%xmm0,112(%rax)
	movdqu	%xmm0,96(%rax)
	movdqu	%xmm0,80(%rax)
	movdqu	%xmm0,64(%rax)
	movdqu	%xmm0,48(%rax)
	movdqu	%xmm0,32(%rax)
	movdqu	%xmm0,16(%rax)
	movdqu	%xmm0,(%rax)
	movq	$0,208(%rax)
	jmp	5f
29:
	cmpq	$0,120(%rsp)
	je	22f
	movq	32(%rsp),%rdi
	callq	_rattle_dealloc
22:
	cmpb	$1,592(%rsp)
	movq	608(%rsp),%rax
	movq	%rax,32(%rsp)
	movq	616(%rsp),%rdx
	movq	624(%rsp),%rcx
	pxor	%xmm0,%xmm0
	leaq	416(%rsp),%rax
	movdqu	%xmm0,192(%rax)
	movdqu	%xmm0,176(%rax)
	movdqu	%xmm0,160(%rax)
	movdqu	%xmm0,144(%rax)
	movdqu	%xmm0,128(%rax)
	movdqu	%xmm0,112(%rax)
	movdqu	%xmm0,96(%rax)
	movdqu	%xmm0,80(%rax)
	movdqu	%xmm0,64(%rax)
	movdqu	%xmm0,48(%rax)
	movdqu	%xmm0,32(%rax)
	movdqu	%xmm0,16(%rax)
	movdqu	%xmm0,(%rax)
	movq	$0,208(%rax)
	movabsq	$10000000000000000,%rbx
	movq	112(%rsp),%r12
	jne	5f
	movq	%rcx,120(%rsp)
	testq	%rdx,%rdx
	je	22f
	xorl	%ebx,%ebx
	movq	%rdx,40(%rsp)
	jmp	23f
	.p2align	4
24:
	incq	%rbx
	movq	40(%rsp),%rdx
	cmpq	%rdx,%rbx
	je	22f
23:
	leaq	(%rbx,%rbx,2),%rax
	movq	32(%rsp),%rcx
	movq	(%rcx,%rax,8),%r13
	movq	8(%rcx,%rax,8),%r12
	movq	16(%rcx,%rax,8),%r15
	testq	%r12,%r12
	je	23f
	leaq	16(%r13),%r14
	jmp	25f
	.p2align	4
26:
	addq	$32,%r14
	decq	%r12
	je	23f
25:
	cmpq	$0,(%r14)
	je	26b
	movq	-16(%r14),%rdi
	callq	_rattle_dealloc
	jmp	26b
	.p2align	4
23:
	testq	%r15,%r15
	je	24b
	movq	%r13,%rdi
	callq	_rattle_dealloc
	jmp	24b
20:
	leaq	lrtp__static.42(%rip),%rax
	movzwl	(%rax,%rdx,2),%eax
	movw	%ax,7(%r15,%r14)
	addq	$9,%r14
	jmp	21f
31:
	movl	%eax,%edi
	leaq	lrtp__static.42(%rip),%r8
	movzwl	(%r8,%rdi,2),%edi
	movw	%di,7(%r15,%r14)
	addq	$9,%r14
	jmp	32f
15:
	movzwl	%ax,%eax
	leaq	lrtp__static.42(%rip),%rdi
	movzwl	(%rdi,%rax,2),%eax
	movw	%ax,7(%r15,%r14)
	addq	$9,%r14
19:
	movl	%edx,%eax
	imulq	$1374389535,%rax,%rax
	shrq	$37,%rax
	imull	$100,%eax,%eax
	subl	%eax,%edx
	leaq	lrtp__static.42(%rip),%rax
	movzwl	(%rax,%rdx,2),%eax
	movw	%ax,(%r15,%r14)
	addq	$2,%r14
	jmp	21f
7:
	movzwl	%di,%r8d
	leaq	lrtp__static.42(%rip),%r9
	movzwl	(%r9,%r8,2),%r8d
	movw	%r8w,7(%r15,%r14)
	addq	$9,%r14
18:
	imull	$100,%edi,%edi
	movl	%eax,%r8d
	subl	%edi,%r8d
	movzwl	%r8w,%edi
	leaq	lrtp__static.42(%rip),%r8
	movzwl	(%r8,%rdi,2),%edi
	movw	%di,(%r15,%r14)
	addq	$2,%r14
32:
	imull	$10000,%eax,%eax
	subl	%eax,%edx
	movzwl	%dx,%eax
	shrl	$2,%eax
	imull	$5243,%eax,%eax
	shrl	$17,%eax
	leaq	lrtp__static.42(%rip),%rdi
	movzwl	(%rdi,%rax,2),%r8d
	movw	%r8w,(%r15,%r14)
	imull	$100,%eax,%eax
	subl	%eax,%edx
	movzwl	%dx,%eax
	movzwl	(%rdi,%rax,2),%eax
	movw	%ax,2(%r15,%r14)
	addq	$4,%r14
21:
	movq	%rbp,%rax
	mulq	%rcx
	shrq	$26,%rdx
	imulq	$100000000,%rdx,%rcx
	movq	%rbp,%rax
	subq	%rcx,%rax
	imulq	$109951163,%rax,%rcx
	shrq	$40,%rcx
	imull	$5243,%ecx,%edx
	shrl	$19,%edx
	leaq	lrtp__static.42(%rip),%rdi
	movzwl	(%rdi,%rdx,2),%r8d
	movw	%r8w,(%r15,%r14)
	imull	$100,%edx,%edx
	imull	$10000,%ecx,%r8d
	subl	%edx,%ecx
	movzwl	%cx,%ecx
	movzwl	(%rdi,%rcx,2),%ecx
	movw	%cx,2(%r15,%r14)
	subl	%r8d,%eax
	imull	$5243,%eax,%ecx
	shrl	$19,%ecx
	movzwl	(%rdi,%rcx,2),%edx
	movw	%dx,4(%r15,%r14)
	imull	$100,%ecx,%ecx
	subl	%ecx,%eax
	movzwl	%ax,%eax
	movzwl	(%rdi,%rax,2),%eax
	movw	%ax,6(%r15,%r14)
	addq	$8,%r14
	leaq	(%r15,%r14),%rcx
	testb	%sil,%sil
	je	16b
17:
	movw	$8250,(%rcx)
	movzbl	345(%rsp),%eax
	movb	$32,4(%rcx)
	movw	$29808,2(%rcx)
	cmpq	$99,%rax
	ja	7f
	cmpb	$9,%al
	ja	15f
	orb	$48,%al
	movb	%al,5(%r15,%r14)
	addq	$6,%r14
	jmp	16f
	.p2align	4
7:
	leal	(%rax,%rax,4),%ecx
	leal	(%rax,%rcx,8),%ecx
	shrl	$12,%ecx
	imull	$100,%ecx,%edx
	orb	$48,%cl
	movb	%cl,5(%r15,%r14)
	subb	%dl,%al
	movzbl	%al,%eax
	leaq	lrtp__static.42(%rip),%rcx
	movzwl	(%rcx,%rax,2),%eax
	movw	%ax,6(%r15,%r14)
	addq	$8,%r14
	jmp	16f
15:
	leaq	lrtp__static.42(%rip),%rcx
	movzwl	(%rcx,%rax,2),%eax
	movw	%ax,5(%r15,%r14)
	addq	$7,%r14
16:
	movzwl	346(%rsp),%eax
	movb	$32,4(%r15,%r14)
	movl	$1902474016,(%r15,%r14)
	cmpq	$9999,%rax
	ja	7f
	cmpw	$99,%ax
	ja	15f
	cmpw	$9,%ax
	ja	16f
	orb	$48,%al
	movb	%al,5(%r15,%r14)
	addq	$6,%r14
	movl	348(%rsp),%eax
	movl	$544437280,(%r15,%r14)
	cmpq	$99999999,%rax
	ja	17f
	jmp	18f
	.p2align	4
7:
	movl	%eax,%ecx
	shrl	$4,%ecx
	imull	$839,%ecx,%ecx
	shrl	$19,%ecx
	leal	48(%rcx),%edx
	movb	%dl,5(%r15,%r14)
	imull	$10000,%ecx,%ecx
	subl	%ecx,%eax
	movzwl	%ax,%ecx
	imull	$5243,%ecx,%ecx
	shrl	$19,%ecx
	leaq	lrtp__static.42(%rip),%rdx
	movzwl	(%rdx,%rcx,2),%esi
	movw	%si,6(%r15,%r14)
	imull	$100,%ecx,%ecx
	subl	%ecx,%eax
	movzwl	%ax,%eax
	movzwl	(%rdx,%rax,2),%eax
	movw	%ax,8(%r15,%r14)
	addq	$10,%r14
	movl	348(%rsp),%eax
	movl	$544437280,(%r15,%r14)
	cmpq	$99999999,%rax
	ja	17f
18:
	cmpl	$9999,%eax
	ja	7f
	cmpl	$99,%eax
	ja	19f
	cmpl	$9,%eax
	ja	20f
	orb	$48,%al
	movb	%al,4(%r15,%r14)
	addq	$5,%r14
	jmp	21f
15:
	movl	%eax,%ecx
	shrl	$2,%ecx
	imull	$5243,%ecx,%ecx
	shrl	$17,%ecx
	cmpl	$999,%eax
	ja	15f
	movl	%ecx,%edx
	orb	$48,%dl
	movb	%dl,5(%r15,%r14)
	addq	$6,%r14
	jmp	23f
7:
	movl	$3518437209,%ecx
	imulq	%rax,%rcx
	shrq	$45,%rcx
	cmpl	$999999,%eax
	ja	7f
	cmpl	$99999,%eax
	ja	24f
	movl	%ecx,%edx
	orb	$48,%dl
	movb	%dl,4(%r15,%r14)
	addq	$5,%r14
	jmp	25f
16:
	leaq	lrtp__static.42(%rip),%rcx
	movzwl	(%rcx,%rax,2),%eax
	movw	%ax,5(%r15,%r14)
	addq	$7,%r14
	movl	348(%rsp),%eax
	movl	$544437280,(%r15,%r14)
	cmpq	$99999999,%rax
	jbe	18b
	jmp	17f
19:
	movzwl	%ax,%ecx
	shrl	$2,%ecx
	imull	$5243,%ecx,%ecx
	shrl	$17,%ecx
	cmpl	$999,%eax
	ja	16f
	movl	%ecx,%edx
	orb	$48,%dl
	movb	%dl,4(%r15,%r14)
	addq	$5,%r14
	jmp	19f
15:
	movzwl	%cx,%edx
	leaq	lrtp__static.42(%rip),%rsi
	movzwl	(%rsi,%rdx,2),%edx
	movw	%dx,5(%r15,%r14)
	addq	$7,%r14
23:
	imull	$100,%ecx,%ecx
	subl	%ecx,%eax
	movzwl	%ax,%eax
	leaq	lrtp__static.42(%rip),%rcx
	movzwl	(%rcx,%rax,2),%eax
	movw	%ax,(%r15,%r14)
	addq	$2,%r14
	movl	348(%rsp),%eax
	movl	$544437280,(%r15,%r14)
	cmpq	$99999999,%rax
	jbe	18b
17:
	imulq	$1441151881,%rax,%rcx
	shrq	$57,%rcx
	cmpl	$999999999,%eax
	ja	15f
	movl	%ecx,%edx
	orb	$48,%dl
	movb	%dl,4(%r15,%r14)
	addq	$5,%r14
	jmp	17f
15:
	movl	%ecx,%edx
	leaq	lrtp__static.42(%rip),%rsi
	movzwl	(%rsi,%rdx,2),%edx
	movw	%dx,4(%r15,%r14)
	addq	$6,%r14
17:
	imull	$100000000,%ecx,%ecx
	subl	%ecx,%eax
	movl	%eax,%ecx
	movl	$3518437209,%edx
	imulq	%rcx,%rdx
	shrq	$45,%rdx
	movzwl	%dx,%ecx
	shrl	$2,%ecx
	imull	$5243,%ecx,%ecx
	shrl	$17,%ecx
	leaq	lrtp__static.42(%rip),%rsi
	movzwl	(%rsi,%rcx,2),%edi
	movw	%di,(%r15,%r14)
	imull	$100,%ecx,%ecx
	imull	$10000,%edx,%edi
	subl	%ecx,%edx
	movzwl	%dx,%ecx
	movzwl	(%rsi,%rcx,2),%ecx
	movw	%cx,2(%r15,%r14)
	subl	%edi,%eax
	imull	$5243,%eax,%ecx
	shrl	$19,%ecx
	movzwl	(%rsi,%rcx,2),%edx
	movw	%dx,4(%r15,%r14)
	imull	$100,%ecx,%ecx
	subl	%ecx,%eax
	movzwl	%ax,%eax
	movzwl	(%rsi,%rax,2),%eax
	movw	%ax,6(%r15,%r14)
	addq	$8,%r14
	jmp	21f
7:
	imulq	$1125899907,%rax,%rdx
	shrq	$50,%rdx
	cmpl	$9999999,%eax
	ja	7f
	orb	$48,%dl
	movb	%dl,4(%r15,%r14)
	addq	$5,%r14
	jmp	15f
20:
	leaq	lrtp__static.42(%rip),%rcx
	movzwl	(%rcx,%rax,2),%eax
	movw	%ax,4(%r15,%r14)
	addq	$6,%r14
	jmp	21f
24:
	movl	%ecx,%edx
	leaq	lrtp__static.42(%rip),%rsi
	movzwl	(%rsi,%rdx,2),%edx
	movw	%dx,4(%r15,%r14)
	addq	$6,%r14
	jmp	25f
16:
	movzwl	%cx,%edx
	leaq	lrtp__static.42(%rip),%rsi
	movzwl	(%rsi,%rdx,2),%edx
	movw	%dx,4(%r15,%r14)
	addq	$6,%r14
19:
	imull	$100,%ecx,%ecx
	subl	%ecx,%eax
	movzwl	%ax,%eax
	leaq	lrtp__static.42(%rip),%rcx
	movzwl	(%rcx,%rax,2),%eax
	movw	%ax,(%r15,%r14)
	addq	$2,%r14
	jmp	21f
7:
	movl	%edx,%edx
	leaq	lrtp__static.42(%rip),%rsi
	movzwl	(%rsi,%rdx,2),%edx
	movw	%dx,4(%r15,%r14)
	addq	$6,%r14
15:
	movzwl	%cx,%edx
	shrl	$2,%edx
	imull	$5243,%edx,%edx
	shrl	$17,%edx
	imull	$100,%edx,%edx
	movl	%ecx,%esi
	subl	%edx,%esi
	movzwl	%si,%edx
	leaq	lrtp__static.42(%rip),%rsi
	movzwl	(%rsi,%rdx,2),%edx
	movw	%dx,(%r15,%r14)
	addq	$2,%r14
25:
	imull	$10000,%ecx,%ecx
	subl	%ecx,%eax
	movzwl	%ax,%ecx
	shrl	$2,%ecx
	imull	$5243,%ecx,%ecx
	shrl	$17,%ecx
	leaq	lrtp__static.42(%rip),%rdx
	movzwl	(%rdx,%rcx,2),%esi
	movw	%si,(%r15,%r14)
	imull	$100,%ecx,%ecx
	subl	%ecx,%eax
	movzwl	%ax,%eax
	movzwl	(%rdx,%rax,2),%eax
	movw	%ax,2(%r15,%r14)
	addq	$4,%r14
21:
	movl	352(%rsp),%eax
	movw	$8291,4(%r15,%r14)
	movl	$1920168736,(%r15,%r14)
	cmpq	$99999999,%rax
	ja	7f
	cmpl	$9999,%eax
	ja	15f
	cmpl	$99,%eax
	ja	16f
	cmpl	$9,%eax
	ja	17f
	orb	$48,%al
	movb	%al,6(%r15,%r14)
	addq	$7,%r14
	jmp	18f
	.p2align	4
7:
	imulq	$1441151881,%rax,%rcx
	shrq	$57,%rcx
	cmpl	$999999999,%eax
	ja	7f
	movl	%ecx,%edx
	orb	$48,%dl
	movb	%dl,6(%r15,%r14)
	addq	$7,%r14
	jmp	19f
15:
	movl	$3518437209,%ecx
	imulq	%rax,%rcx
	shrq	$45,%rcx
	cmpl	$999999,%eax
	ja	15f
	cmpl	$99999,%eax
	ja	20f
	movl	%ecx,%edx
	orb	$48,%dl
	movb	%dl,6(%r15,%r14)
	addq	$7,%r14
	jmp	21f
7:
	movl	%ecx,%edx
	leaq	lrtp__static.42(%rip),%rsi
	movzwl	(%rsi,%rdx,2),%edx
	movw	%dx,6(%r15,%r14)
	addq	$8,%r14
19:
	imull	$100000000,%ecx,%ecx
	subl	%ecx,%eax
	movl	%eax,%ecx
	movl	$3518437209,%edx
	imulq	%rcx,%rdx
	shrq	$45,%rdx
	movzwl	%dx,%ecx
	shrl	$2,%ecx
	imull	$5243,%ecx,%ecx
	shrl	$17,%ecx
	leaq	lrtp__static.42(%rip),%rsi
	movzwl	(%rsi,%rcx,2),%edi
	movw	%di,(%r15,%r14)
	imull	$100,%ecx,%ecx
	imull	$10000,%edx,%edi
	subl	%ecx,%edx
	movzwl	%dx,%ecx
	movzwl	(%rsi,%rcx,2),%ecx
	movw	%cx,2(%r15,%r14)
	subl	%edi,%eax
	imull	$5243,%eax,%ecx
	shrl	$19,%ecx
	movzwl	(%rsi,%rcx,2),%edx
	movw	%dx,4(%r15,%r14)
	imull	$100,%ecx,%ecx
	subl	%ecx,%eax
	movzwl	%ax,%eax
	movzwl	(%rsi,%rax,2),%eax
7:
	movw	%ax,6(%r15,%r14)
	addq	$8,%r14
	jmp	18f
16:
	movzwl	%ax,%ecx
	shrl	$2,%ecx
	imull	$5243,%ecx,%ecx
	shrl	$17,%ecx
	cmpl	$999,%eax
	ja	16f
	movl	%ecx,%edx
	orb	$48,%dl
	movb	%dl,6(%r15,%r14)
	addq	$7,%r14
	jmp	19f
15:
	imulq	$1125899907,%rax,%rdx
	shrq	$50,%rdx
	cmpl	$9999999,%eax
	ja	15f
	orb	$48,%dl
	movb	%dl,6(%r15,%r14)
	addq	$7,%r14
	jmp	23f
17:
	leaq	lrtp__static.42(%rip),%rcx
	movzwl	(%rcx,%rax,2),%eax
	jmp	7b
20:
	movl	%ecx,%edx
	leaq	lrtp__static.42(%rip),%rsi
	movzwl	(%rsi,%rdx,2),%edx
	movw	%dx,6(%r15,%r14)
	addq	$8,%r14
	jmp	21f
16:
	movzwl	%cx,%edx
	leaq	lrtp__static.42(%rip),%rsi
	movzwl	(%rsi,%rdx,2),%edx
	movw	%dx,6(%r15,%r14)
	addq	$8,%r14
19:
	imull	$100,%ecx,%ecx
	subl	%ecx,%eax
	movzwl	%ax,%eax
	leaq	lrtp__static.42(%rip),%rcx
	movzwl	(%rcx,%rax,2),%eax
	movw	%ax,(%r15,%r14)
	addq	$2,%r14
	jmp	18f
15:
	movl	%edx,%edx
	leaq	lrtp__static.42(%rip),%rsi
	movzwl	(%rsi,%rdx,2),%edx
	movw	%dx,6(%r15,%r14)
	addq	$8,%r14
23:
	movzwl	%cx,%edx
	shrl	$2,%edx
	imull	$5243,%edx,%edx
	shrl	$17,%edx
	imull	$100,%edx,%edx
	movl	%ecx,%esi
	subl	%edx,%esi
	movzwl	%si,%edx
	leaq	lrtp__static.42(%rip),%rsi
	movzwl	(%rsi,%rdx,2),%edx
	movw	%dx,(%r15,%r14)
	addq	$2,%r14
21:
	imull	$10000,%ecx,%ecx
	subl	%ecx,%eax
	movzwl	%ax,%ecx
	shrl	$2,%ecx
	imull	$5243,%ecx,%ecx
	shrl	$17,%ecx
	leaq	lrtp__static.42(%rip),%rdx
	movzwl	(%rdx,%rcx,2),%esi
	movw	%si,(%r15,%r14)
	imull	$100,%ecx,%ecx
	subl	%ecx,%eax
	movzwl	%ax,%eax
	movzwl	(%rdx,%rax,2),%eax
	movw	%ax,2(%r15,%r14)
	addq	$4,%r14
18:
	cmpb	$0,344(%rsp)
	movabsq	$2338042668713602336,%rax
	movq	%rax,(%r15,%r14)
	leaq	8(%r15,%r14),%rax
	je	7f
	movb	$115,2(%rax)
	movw	$25977,(%rax)
	addq	$11,%r14
	jmp	15f
	.p2align	4
7:
	movw	$28526,(%rax)
	addq	$10,%r14
15:
	cmpb	$0,329(%rsp)
	movabsq	$7453010313246502944,%rax
	movq	%rax,(%r15,%r14)
	movb	$32,8(%r15,%r14)
	leaq	9(%r15,%r14),%rax
	je	7f
	movb	$115,2(%rax)
	movw	$25977,(%rax)
	addq	$12,%r14
	jmp	15f
	.p2align	4
7:
	movw	$28526,(%rax)
	addq	$11,%r14
15:
	cmpb	$0,330(%rsp)
	movabsq	$7598538378328958240,%rax
	movq	%rax,(%r15,%r14)
	movl	$544108393,7(%r15,%r14)
	leaq	11(%r15,%r14),%rax
	je	7f
	movb	$115,2(%rax)
	movw	$25977,(%rax)
	addq	$14,%r14
	jmp	15f
	.p2align	4
7:
	movw	$28526,(%rax)
	addq	$13,%r14
15:
	movq	336(%rsp),%rcx
	movw	$8291,4(%r15,%r14)
	movl	$1920164640,(%r15,%r14)
	cmpq	$99999999,%rcx
	ja	7f
	cmpq	$9999,%rcx
	ja	15f
	cmpq	$99,%rcx
	ja	16f
	cmpq	$9,%rcx
	ja	17f
	orb	$48,%cl
	movb	%cl,6(%r15,%r14)
	addq	$7,%r14
	jmp	18f
	.p2align	4
7:
	cmpq	%rbx,%rcx
	jae	7f
	movabsq	$-6067343680855748867,%rsi
	movq	%rcx,%rax
	mulq	%rsi
	shrq	$26,%rdx
	movabsq	$1000000000000,%rax
	cmpq	%rax,%rcx
	jae	19f
	movabsq	$10000000000,%rax
	cmpq	%rax,%rcx
	jae	20f
	cmpq	$999999999,%rcx
	ja	21f
	orb	$48,%dl
	movb	%dl,6(%r15,%r14)
	addq	$7,%r14
	jmp	23f
15:
	movl	%ecx,%edx
	movl	$3518437209,%eax
	imulq	%rdx,%rax
	shrq	$45,%rax
	cmpq	$999999,%rcx
	ja	15f
	cmpq	$99999,%rcx
	ja	24f
	movl	%eax,%edx
	orb	$48,%dl
	movb	%dl,6(%r15,%r14)
	addq	$7,%r14
	jmp	25f
7:
	movabsq	$4153837486827862103,%rdx
	movq	%rcx,%rax
	mulq	%rdx
	shrq	$51,%rdx
	movabsq	$1000000000000000000,%rax
	cmpq	%rax,%rcx
	jae	7f
	movabsq	$100000000000000000,%rax
	cmpq	%rax,%rcx
	jae	26f
	orb	$48,%dl
	movb	%dl,6(%r15,%r14)
	addq	$7,%r14
	jmp	28f
16:
	movl	%ecx,%eax
	shrl	$2,%eax
	movzwl	%ax,%eax
	imull	$5243,%eax,%eax
	shrl	$17,%eax
	cmpq	$999,%rcx
	ja	16f
	movl	%eax,%edx
	orb	$48,%dl
	movb	%dl,6(%r15,%r14)
	addq	$7,%r14
	jmp	29f
19:
	movl	%edx,%edi
	movl	$3518437209,%eax
	imulq	%rdi,%rax
	shrq	$45,%rax
	movabsq	$100000000000000,%rdi
	cmpq	%rdi,%rcx
	jae	19f
	movabsq	$10000000000000,%rdi
	cmpq	%rdi,%rcx
	jae	30f
	movl	%eax,%edi
	orb	$48,%dil
	movb	%dil,6(%r15,%r14)
	addq	$7,%r14
	jmp	31f
15:
	movzwl	%ax,%edx
	shrl	$2,%edx
	imull	$5243,%edx,%edx
	shrl	$17,%edx
	cmpq	$9999999,%rcx
	ja	15f
	movl	%edx,%esi
	orb	$48,%sil
	movb	%sil,6(%r15,%r14)
	addq	$7,%r14
	jmp	32f
7:
	imull	$1311,%edx,%eax
	shrl	$17,%eax
	movabsq	$-8446744073709551616,%rsi
	cmpq	%rsi,%rcx
	jae	7f
	movl	%eax,%esi
	orb	$48,%sil
	movb	%sil,6(%r15,%r14)
	addq	$7,%r14
	jmp	33f
17:
	leaq	lrtp__static.42(%rip),%rax
	movzwl	(%rax,%rcx,2),%eax
	jmp	17f
20:
	movl	%edx,%eax
	shrl	$2,%eax
	movzwl	%ax,%eax
	imull	$5243,%eax,%eax
	shrl	$17,%eax
	movabsq	$100000000000,%rdi
	cmpq	%rdi,%rcx
	jae	20f
	orb	$48,%al
	movb	%al,6(%r15,%r14)
	addq	$7,%r14
	jmp	34f
24:
	movl	%eax,%edx
	leaq	lrtp__static.42(%rip),%rsi
	movzwl	(%rsi,%rdx,2),%edx
	movw	%dx,6(%r15,%r14)
	addq	$8,%r14
	jmp	25f
26:
	leaq	lrtp__static.42(%rip),%rax
	movzwl	(%rax,%rdx,2),%eax
	movw	%ax,6(%r15,%r14)
	addq	$8,%r14
	jmp	28f
16:
	movzwl	%ax,%edx
	leaq	lrtp__static.42(%rip),%rsi
	movzwl	(%rsi,%rdx,2),%edx
	movw	%dx,6(%r15,%r14)
	addq	$8,%r14
29:
	imull	$100,%eax,%eax
	subl	%eax,%ecx
	movzwl	%cx,%eax
	leaq	lrtp__static.42(%rip),%rcx
	movzwl	(%rcx,%rax,2),%eax
	movw	%ax,(%r15,%r14)
	addq	$2,%r14
	jmp	18f
19:
	movzwl	%ax,%edi
	shrl	$2,%edi
	imull	$5243,%edi,%edi
	shrl	$17,%edi
	movabsq	$1000000000000000,%r8
	cmpq	%r8,%rcx
	jae	16f
	movl	%edi,%r8d
	orb	$48,%r8b
	movb	%r8b,6(%r15,%r14)
	addq	$7,%r14
	jmp	19f
15:
	movzwl	%dx,%esi
	leaq	lrtp__static.42(%rip),%rdi
	movzwl	(%rdi,%rsi,2),%esi
	movw	%si,6(%r15,%r14)
	addq	$8,%r14
32:
	imull	$100,%edx,%edx
	movl	%eax,%esi
	subl	%edx,%esi
	movzwl	%si,%edx
	leaq	lrtp__static.42(%rip),%rsi
	movzwl	(%rsi,%rdx,2),%edx
	movw	%dx,(%r15,%r14)
	addq	$2,%r14
25:
	imull	$10000,%eax,%eax
	subl	%eax,%ecx
	movzwl	%cx,%eax
	shrl	$2,%eax
	imull	$5243,%eax,%eax
	shrl	$17,%eax
	leaq	lrtp__static.42(%rip),%rdx
	movzwl	(%rdx,%rax,2),%esi
	movw	%si,(%r15,%r14)
	imull	$100,%eax,%eax
	subl	%eax,%ecx
	movzwl	%cx,%eax
	movzwl	(%rdx,%rax,2),%eax
	movw	%ax,2(%r15,%r14)
	addq	$4,%r14
	jmp	18f
7:
	movzwl	%ax,%esi
	leaq	lrtp__static.42(%rip),%rdi
	movzwl	(%rdi,%rsi,2),%esi
	movw	%si,6(%r15,%r14)
	addq	$8,%r14
33:
	imull	$100,%eax,%eax
	subl	%eax,%edx
	movzwl	%dx,%eax
	leaq	lrtp__static.42(%rip),%rdx
	movzwl	(%rdx,%rax,2),%eax
	movw	%ax,(%r15,%r14)
	addq	$2,%r14
28:
	movabsq	$-6067343680855748867,%rdx
	movq	%rcx,%rax
	mulq	%rdx
	movq	%rdx,%rsi
	shrq	$26,%rsi
	movabsq	$368934881475,%rdx
	movq	%rsi,%rax
	mulq	%rdx
	shrl	%edx
	imulq	$100000000,%rdx,%rax
	imulq	$100000000,%rsi,%rdx
	subq	%rax,%rsi
	imulq	$109951163,%rsi,%rdi
	shrq	$40,%rdi
	imull	$5243,%edi,%r8d
	shrl	$19,%r8d
	leaq	lrtp__static.42(%rip),%rax
	movzwl	(%rax,%r8,2),%r9d
	movw	%r9w,(%r15,%r14)
	imull	$100,%r8d,%r8d
	imull	$10000,%edi,%r9d
	subl	%r8d,%edi
	movzwl	%di,%edi
	movzwl	(%rax,%rdi,2),%edi
	movw	%di,2(%r15,%r14)
	subl	%r9d,%esi
	imull	$5243,%esi,%edi
	shrl	$19,%edi
	movzwl	(%rax,%rdi,2),%r8d
	movw	%r8w,4(%r15,%r14)
	imull	$100,%edi,%edi
	subl	%edi,%esi
	movzwl	%si,%esi
	movzwl	(%rax,%rsi,2),%esi
	movw	%si,6(%r15,%r14)
	subq	%rdx,%rcx
	imulq	$109951163,%rcx,%rdx
	shrq	$40,%rdx
	imull	$5243,%edx,%esi
	shrl	$19,%esi
	movzwl	(%rax,%rsi,2),%edi
	movw	%di,8(%r15,%r14)
	imull	$100,%esi,%esi
	imull	$10000,%edx,%edi
	subl	%esi,%edx
	movzwl	%dx,%edx
	movzwl	(%rax,%rdx,2),%edx
	movw	%dx,10(%r15,%r14)
	subl	%edi,%ecx
	imull	$5243,%ecx,%edx
	shrl	$19,%edx
	movzwl	(%rax,%rdx,2),%esi
	movw	%si,12(%r15,%r14)
	imull	$100,%edx,%edx
	subl	%edx,%ecx
	movzwl	%cx,%ecx
	movzwl	(%rax,%rcx,2),%eax
	movw	%ax,14(%r15,%r14)
	addq	$16,%r14
	jmp	18f
22:
	cmpq	$0,120(%rsp)
	movabsq	$10000000000000000,%rbx
	movq	112(%rsp),%r12
	je	5f
	movq	32(%rsp),%rdi
	callq	_rattle_dealloc
5:
	movb	$2,328(%rsp)
	movzbl	(%rbp),%eax
	shrb	$5,%al
	andb	$1,%al
	movb	%al,329(%rsp)
	movzbl	(%rbp),%eax
	shrb	$4,%al
	andb	$1,%al
	movb	%al,330(%rsp)
	movzbl	(%rbp),%eax
	pxor	%xmm0,%xmm0
	leaq	356(%rsp),%rcx
	movdqu	%xmm0,44(%rcx)
	movdqu	%xmm0,32(%rcx)
	movdqu	%xmm0,16(%rcx)
	movdqu	%xmm0,(%rcx)
	andl	$15,%eax
	je	5f
	movl	%eax,%ecx
	andl	$3,%ecx
	cmpb	$4,%al
	jae	7f
	xorl	%edx,%edx
	jmp	15f
7:
	movl	%eax,%esi
	andl	$-4,%esi
	xorl	%edx,%edx
	.p2align	4
7:
	movl	12(%rbp,%rdx,4),%edi
	bswapl	%edi
	movl	%edi,356(%rsp,%rdx,4)
	movl	16(%rbp,%rdx,4),%edi
	bswapl	%edi
	movl	%edi,360(%rsp,%rdx,4)
	movl	20(%rbp,%rdx,4),%edi
	bswapl	%edi
	movl	%edi,364(%rsp,%rdx,4)
	movl	24(%rbp,%rdx,4),%edi
	bswapl	%edi
	movl	%edi,368(%rsp,%rdx,4)
	addq	$4,%rdx
	cmpq	%rdx,%rsi
	jne	7b
	testq	%rcx,%rcx
	je	5f
15:
	leaq	356(%rsp),%rsi
	leaq	(%rsi,%rdx,4),%rsi
	leaq	12(,%rdx,4),%rdx
	addq	%rbp,%rdx
	xorl	%edi,%edi
	.p2align	4
7:
	movl	(%rdx,%rdi,4),%r8d
	bswapl	%r8d
	movl	%r8d,(%rsi,%rdi,4)
	incq	%rdi
	cmpq	%rdi,%rcx
	jne	7b
5:
	movq	%rax,336(%rsp)
	movzbl	1(%rbp),%eax
	shrb	$7,%al
	movb	%al,344(%rsp)
	movzbl	1(%rbp),%eax
	andb	$127,%al
	movb	%al,345(%rsp)
	movzwl	2(%rbp),%r13d
	rolw	$8,%r13w
	movw	%r13w,346(%rsp)
	movl	4(%rbp),%eax
	bswapl	%eax
	movl	%eax,348(%rsp)
	movl	8(%rbp),%r14d
	bswapl	%r14d
	movl	%r14d,352(%rsp)
	movq	%r12,632(%rsp)
	testb	$16,104(%rsp)
	je	5f
	movzbl	(%rbp),%eax
	andl	$15,%eax
	leaq	16(,%rax,4),%rcx
	leaq	16(,%rax,4),%rsi
	addq	%rbp,%rsi
	subq	%rcx,%r12
	movzbl	88(%rsp),%ecx
	movq	320(%rsp),%rdi
	movq	%r12,%rdx
	leaq	416(%rsp),%r8
	callq	_rtp_ext.block_values.read_values.77e50c5f4ddfc773
	testb	%al,%al
	jne	4f
	movl	352(%rsp),%r14d
	movzwl	346(%rsp),%r13d
5:
	movq	160(%rsp),%rax
	movq	168(%rsp),%r9
	movq	208(%rsp),%r12
	cmpq	%r9,%r12
	jae	5f
	movq	%r12,%rcx
	shlq	$6,%rcx
	cmpl	%r14d,(%rax,%rcx)
	jne	5f
	movq	72(%rsp),%r15
	movq	8(%rsp),%rbp
	jmp	7f
5:
	movq	224(%rsp),%rdx
	testq	%rdx,%rdx
	movq	8(%rsp),%rbp
	je	5f
	imull	$-1640531535,%r14d,%ecx
	imulq	%rdx,%rcx
	shrq	$32,%rcx
	cmpq	%rdx,%rcx
	jae	15f
	shlq	$5,%rcx
	addq	216(%rsp),%rcx
	movdqu	(%rcx),%xmm0
	movd	%r14d,%xmm1
	pshufd	$0,%xmm1,%xmm1
	pcmpeqd	%xmm0,%xmm1
	movmskps	%xmm1,%edx
	testl	%edx,%edx
	je	15f
	movzbl	%dl,%edx
	rep		bsfl	%edx,%edx
	movl	16(%rcx,%rdx,4),%r12d
	cmpq	%r12,%r9
	jbe	15f
	movq	%r12,%rcx
	shlq	$6,%rcx
	cmpl	%r14d,(%rax,%rcx)
	jne	15f
22:
	movq	%r12,208(%rsp)
	movq	72(%rsp),%r15
	jmp	7f
5:
	cmpq	$16,%r9
	ja	15f
	testq	%r9,%r9
	je	5f
	xorl	%r12d,%r12d
	movq	%rax,%rcx
	.p2align	4
24:
	cmpl	%r14d,(%rcx)
	je	22b
	addq	$64,%rcx
	incq	%r12
	cmpq	%r12,%r9
	jne	24b
	jmp	5f
15:
	cmpb	$1,184(%rsp)
	jne	5f
	leaq	192(%rsp),%rcx
	jmp	15f
	.p2align	4
22:
	xorl	%edx,%edx
	cmpw	$0,2(%rcx)
	je	5f
24:
	addq	%rdx,%rcx
	addq	$184,%rcx
15:
	movq	(%rcx),%rcx
	movzwl	(%rcx),%esi
	testq	%rsi,%rsi
	movq	72(%rsp),%r15
	je	22b
	xorl	%edx,%edx
	.p2align	4
15:
	movl	4(%rcx,%rdx,4),%edi
	cmpl	%edi,%r14d
	setae	%r8b
	addb	%r8b,%r8b
	cmpl	%edi,%r14d
	movzbl	%r8b,%r8d
	movl	$1,%edi
	cmovnel	%r8d,%edi
	cmpb	$2,%dil
	jne	22f
	incq	%rdx
	cmpq	%rdx,%rsi
	jne	15b
	movq	%rsi,%rdx
	shlq	$3,%rdx
	cmpw	$0,2(%rcx)
	jne	24b
	jmp	5f
	.p2align	4
22:
	movzbl	%dil,%esi
	testl	%esi,%esi
	jne	15f
	shlq	$3,%rdx
	cmpw	$0,2(%rcx)
	jne	24b
5:
	movq	152(%rsp),%r12
	cmpq	%r9,176(%rsp)
	je	5f
	cmpb	$1,184(%rsp)
	jne	22f
24:
	movq	192(%rsp),%rdx
	jmp	25f
15:
	movq	64(%rcx,%rdx,8),%r12
	movq	%r12,208(%rsp)
	subq	$1,240(%rsp)
	jae	7f
	leaq	208(%rsp),%rdi
	leaq	160(%rsp),%rsi
	movl	%r14d,%edx
	movq	%r12,%rcx
	callq	_rtp_receive.hints.Hints.learn_now
	movq	160(%rsp),%rax
7:
	shlq	$6,%r12
	cmpb	$0,16(%rax,%r12)
	movq	80(%rsp),%r14
	je	7f
	movq	32(%rax,%r12),%rdi
	subl	%edi,%r13d
	movzwl	%r13w,%ecx
	leaq	(%rcx,%rdi),%rdx
	testw	%cx,%cx
	js	15f
	movq	(%rsp),%r13
	movq	%rdi,%rcx
	subq	%rdx,%rcx
	jae	26f
28:
	movq	48(%rax,%r12),%r8
	movq	56(%rax,%r12),%rsi
	movq	%rdx,%rcx
	subq	%rdi,%rcx
	cmpq	$1,%rcx
	jne	29f
	shldq	$1,%r8,%rsi
	leaq	1(,%r8,2),%rdi
	jmp	32f
7:
	movq	24(%rax,%r12),%rcx
	shlq	$16,%rcx
	movzwl	%r13w,%r11d
	orq	%rcx,%r11
	movq	$1,16(%rax,%r12)
	movq	$0,24(%rax,%r12)
	movq	%r11,32(%rax,%r12)
	movq	$0,40(%rax,%r12)
	movq	$0,56(%rax,%r12)
	movq	$1,48(%rax,%r12)
	movb	$1,%sil
	movb	$1,%r10b
	jmp	2b
21:
	leaq	lrtp__static.42(%rip),%rax
	movzwl	(%rax,%rdx,2),%eax
	movw	%ax,6(%r15,%r14)
	addq	$8,%r14
	jmp	23f
30:
	movl	%eax,%edi
	leaq	lrtp__static.42(%rip),%r8
	movzwl	(%r8,%rdi,2),%edi
	movw	%di,6(%r15,%r14)
	addq	$8,%r14
	jmp	31f
20:
	movzwl	%ax,%eax
	leaq	lrtp__static.42(%rip),%rdi
	movzwl	(%rdi,%rax,2),%eax
	movw	%ax,6(%r15,%r14)
	addq	$8,%r14
34:
	movl	%edx,%eax
	imulq	$1374389535,%rax,%rax
	shrq	$37,%rax
	imull	$100,%eax,%eax
	subl	%eax,%edx
	leaq	lrtp__static.42(%rip),%rax
	movzwl	(%rax,%rdx,2),%eax
	movw	%ax,(%r15,%r14)
	addq	$2,%r14
	jmp	23f
16:
	movzwl	%di,%r8d
	leaq	lrtp__static.42(%rip),%r9
	movzwl	(%r9,%r8,2),%r8d
	movw	%r8w,6(%r15,%r14)
	addq	$8,%r14
19:
	imull	$100,%edi,%edi
	movl	%eax,%r8d
	subl	%edi,%r8d
	movzwl	%r8w,%edi
	leaq	lrtp__static.42(%rip),%r8
	movzwl	(%r8,%rdi,2),%edi
	movw	%di,(%r15,%r14)
	addq	$2,%r14
31:
	imull	$10000,%eax,%eax
	subl	%eax,%edx
	movzwl	%dx,%eax
	shrl	$2,%eax
	imull	$5243,%eax,%eax
	shrl	$17,%eax
	leaq	lrtp__static.42(%rip),%rdi
	movzwl	(%rdi,%rax,2),%r8d
	movw	%r8w,(%r15,%r14)
	imull	$100,%eax,%eax
	subl	%eax,%edx
	movzwl	%dx,%eax
	movzwl	(%rdi,%rax,2),%eax
	movw	%ax,2(%r15,%r14)
	addq	$4,%r14
23:
	movq	%rcx,%rax
	mulq	%rsi
	shrq	$26,%rdx
	imulq	$100000000,%rdx,%rax
	subq	%rax,%rcx
	imulq	$109951163,%rcx,%rax
	shrq	$40,%rax
	imull	$5243,%eax,%edx
	shrl	$19,%edx
	leaq	lrtp__static.42(%rip),%rsi
	movzwl	(%rsi,%rdx,2),%edi
	movw	%di,(%r15,%r14)
	imull	$100,%edx,%edx
	imull	$10000,%eax,%edi
	subl	%edx,%eax
	movzwl	%ax,%eax
	movzwl	(%rsi,%rax,2),%eax
	movw	%ax,2(%r15,%r14)
	subl	%edi,%ecx
	imull	$5243,%ecx,%eax
	shrl	$19,%eax
	movzwl	(%rsi,%rax,2),%edx
	movw	%dx,4(%r15,%r14)
	imull	$100,%eax,%eax
	subl	%eax,%ecx
	movzwl	%cx,%eax
	movzwl	(%rsi,%rax,2),%eax
17:
	movw	%ax,6(%r15,%r14)
	addq	$8,%r14
18:
	movq	632(%rsp),%rcx
	movabsq	$2338042638363879456,%rax
	movq	%rax,(%r15,%r14)
	cmpq	$99999999,%rcx
	ja	2f
	cmpq	$9999,%rcx
	ja	7f
	cmpq	$99,%rcx
	ja	16f
	cmpq	$9,%rcx
	ja	17f
	orb	$48,%cl
	movb	%cl,8(%r15,%r14)
	addq	$9,%r14
	cmpb	$1,566(%rsp)
	movq	%r13,(%rsp)
	je	18f
	.p2align	4
19:
	cmpb	$1,548(%rsp)
	jne	20f
21:
	movq	%r12,%r13
	movq	%rbp,%r12
	movq	549(%rsp),%rax
	movb	$32,4(%r15,%r14)
	movl	$1684632096,(%r15,%r14)
	addq	$5,%r14
	movq	%r14,%rsi
	movq	%rax,128(%rsp)
	cmpb	$32,%al
	jne	23f
	movq	%rbx,%rbp
	xorl	%r14d,%r14d
	movq	%rsi,%rbx
	jmp	30f
	.p2align	4
2:
	cmpq	%rbx,%rcx
	jae	2f
	movabsq	$-6067343680855748867,%rsi
	movq	%rcx,%rax
	mulq	%rsi
	shrq	$26,%rdx
	movabsq	$1000000000000,%rax
	cmpq	%rax,%rcx
	jae	31f
	movabsq	$10000000000,%rax
	cmpq	%rax,%rcx
	jae	33f
	cmpq	$999999999,%rcx
	ja	34f
	orb	$48,%dl
	movb	%dl,8(%r15,%r14)
	addq	$9,%r14
	jmp	35f
7:
	movl	%ecx,%edx
	movl	$3518437209,%eax
	imulq	%rdx,%rax
	shrq	$45,%rax
	cmpq	$999999,%rcx
	ja	7f
	cmpq	$99999,%rcx
	ja	36f
	movl	%eax,%edx
	orb	$48,%dl
	movb	%dl,8(%r15,%r14)
	addq	$9,%r14
	jmp	37f
23:
	movq	%r10,8(%rsp)
	movq	%r11,32(%rsp)
	movq	%rbx,%rbp
	movl	%eax,%ecx
	andl	$65280,%ecx
	movl	$1,%r14d
	cmpl	$8192,%ecx
	je	23f
	movl	%eax,%ecx
	andl	$16711680,%ecx
	movl	$2,%r14d
	cmpl	$2097152,%ecx
	je	23f
	movl	%eax,%ecx
	andl	$-16777216,%ecx
	movl	$3,%r14d
	cmpl	$536870912,%ecx
	je	23f
	movabsq	$1095216660480,%rcx
	andq	%rax,%rcx
	movl	$4,%r14d
	movabsq	$137438953472,%rdx
	cmpq	%rdx,%rcx
	je	23f
	movabsq	$280375465082880,%rcx
	andq	%rax,%rcx
	movl	$5,%r14d
	movabsq	$35184372088832,%rdx
	cmpq	%rdx,%rcx
	je	23f
	movabsq	$71776119061217280,%rcx
	andq	%rax,%rcx
	movl	$6,%r14d
	movabsq	$9007199254740992,%rdx
	cmpq	%rdx,%rcx
	je	23f
	shrq	$56,%rax
	xorl	%r14d,%r14d
	cmpl	$32,%eax
	setne	%r14b
	addq	$7,%r14
23:
	movq	%rsi,%rbx
	leaq	(%r15,%rsi),%rdi
	leaq	128(%rsp),%rsi
	movq	%r14,%rdx
	callq	_memcpy
	movq	32(%rsp),%r11
	movq	8(%rsp),%r10
30:
	addq	%r14,%rbx
	movq	%rbx,%r14
	movq	%rbp,%rbx
	movq	%r12,%rbp
	movq	%r13,%r12
	movq	(%rsp),%r13
	cmpb	$1,557(%rsp)
	je	23f
30:
	cmpb	$1,416(%rsp)
	jne	38f
39:
	movzbl	417(%rsp),%eax
	movl	$543974774,3(%r15,%r14)
	movl	$1986358304,(%r15,%r14)
	testb	%al,%al
	js	40f
	addq	$7,%r14
	jmp	41f
2:
	movabsq	$4153837486827862103,%rdx
	movq	%rcx,%rax
	mulq	%rdx
	shrq	$51,%rdx
	movabsq	$1000000000000000000,%rax
	cmpq	%rax,%rcx
	jae	2f
	movabsq	$100000000000000000,%rax
	cmpq	%rax,%rcx
	jae	42f
	orb	$48,%dl
	movb	%dl,8(%r15,%r14)
	addq	$9,%r14
	jmp	43f
40:
	movb	$45,7(%r15,%r14)
	addq	$8,%r14
41:
	movl	%eax,%ecx
	sarb	$7,%cl
	xorb	%cl,%al
	subb	%cl,%al
	movzbl	%al,%ecx
	cmpb	$99,%cl
	ja	40f
	cmpb	$9,%al
	ja	41f
	orb	$48,%al
	movb	%al,(%r15,%r14)
	incq	%r14
	cmpb	$1,418(%rsp)
	jne	44f
	jmp	45f
40:
	movb	$49,(%r15,%r14)
	movl	%ecx,%eax
	leaq	lrtp__static.42(%rip),%rcx
	movzwl	-200(%rcx,%rax,2),%eax
	movw	%ax,1(%r15,%r14)
	addq	$3,%r14
	cmpb	$1,418(%rsp)
	je	45f
	.p2align	4
44:
	cmpb	$1,432(%rsp)
	jne	40f
46:
	movq	440(%rsp),%rcx
	movl	$1852142368,(%r15,%r14)
	movw	$8292,4(%r15,%r14)
	cmpq	$99999999,%rcx
	ja	47f
	cmpq	$9999,%rcx
	ja	48f
	cmpq	$99,%rcx
	ja	49f
	cmpq	$9,%rcx
	ja	50f
	orb	$48,%cl
	movb	%cl,6(%r15,%r14)
	addq	$7,%r14
	cmpb	$1,480(%rsp)
	je	51f
	jmp	6f
47:
	cmpq	%rbx,%rcx
	jae	47f
	movabsq	$-6067343680855748867,%rsi
	movq	%rcx,%rax
	mulq	%rsi
	shrq	$26,%rdx
	movabsq	$1000000000000,%rax
	cmpq	%rax,%rcx
	jae	52f
	movabsq	$10000000000,%rax
	cmpq	%rax,%rcx
	jae	53f
	cmpq	$999999999,%rcx
	ja	54f
	orb	$48,%dl
	movb	%dl,6(%r15,%r14)
	addq	$7,%r14
	jmp	55f
16:
	movl	%ecx,%eax
	shrl	$2,%eax
	movzwl	%ax,%eax
	imull	$5243,%eax,%eax
	shrl	$17,%eax
	cmpq	$999,%rcx
	ja	16f
	movl	%eax,%edx
	orb	$48,%dl
	movb	%dl,8(%r15,%r14)
	addq	$9,%r14
	jmp	56f
31:
	movl	%edx,%edi
	movl	$3518437209,%eax
	imulq	%rdi,%rax
	shrq	$45,%rax
	movabsq	$100000000000000,%rdi
	cmpq	%rdi,%rcx
	jae	31f
	movabsq	$10000000000000,%rdi
	cmpq	%rdi,%rcx
	jae	57f
	movl	%eax,%edi
	orb	$48,%dil
	movb	%dil,8(%r15,%r14)
	addq	$9,%r14
	jmp	58f
7:
	movzwl	%ax,%edx
	shrl	$2,%edx
	imull	$5243,%edx,%edx
	shrl	$17,%edx
	cmpq	$9999999,%rcx
	ja	7f
	movl	%edx,%esi
	orb	$48,%sil
	movb	%sil,8(%r15,%r14)
	addq	$9,%r14
	jmp	59f
2:
	imull	$1311,%edx,%eax
	shrl	$17,%eax
	movabsq	$-8446744073709551616,%rsi
	cmpq	%rsi,%rcx
	jae	2f
	movl	%eax,%esi
	orb	$48,%sil
	movb	%sil,8(%r15,%r14)
	addq	$9,%r14
	jmp	60f
41:
	movl	%ecx,%eax
	leaq	lrtp__static.42(%rip),%rcx
	movzwl	(%rcx,%rax,2),%eax
	movw	%ax,(%r15,%r14)
	addq	$2,%r14
	cmpb	$1,418(%rsp)
	jne	44b
	jmp	45f
48:
	movl	%ecx,%edx
	movl	$3518437209,%eax
	imulq	%rdx,%rax
	shrq	$45,%rax
	cmpq	$999999,%rcx
	ja	41f
	cmpq	$99999,%rcx
	ja	48f
	movl	%eax,%edx
	orb	$48,%dl
	movb	%dl,6(%r15,%r14)
	addq	$7,%r14
	jmp	61f
47:
	movabsq	$4153837486827862103,%rdx
	movq	%rcx,%rax
	mulq	%rdx
	shrq	$51,%rdx
	movabsq	$1000000000000000000,%rax
	cmpq	%rax,%rcx
	jae	47f
	movabsq	$100000000000000000,%rax
	cmpq	%rax,%rcx
	jae	62f
	orb	$48,%dl
	movb	%dl,6(%r15,%r14)
	addq	$7,%r14
	jmp	63f
17:
	leaq	lrtp__static.42(%rip),%rax
	movzwl	(%rax,%rcx,2),%eax
	movw	%ax,8(%r15,%r14)
	addq	$10,%r14
	cmpb	$1,566(%rsp)
	movq	%r13,(%rsp)
	je	18f
	jmp	19b
33:
	movl	%edx,%eax
	shrl	$2,%eax
	movzwl	%ax,%eax
	imull	$5243,%eax,%eax
	shrl	$17,%eax
	movabsq	$100000000000,%rdi
	cmpq	%rdi,%rcx
	jae	17f
	orb	$48,%al
	movb	%al,8(%r15,%r14)
	addq	$9,%r14
	jmp	33f
36:
	movl	%eax,%edx
	leaq	lrtp__static.42(%rip),%rsi
	movzwl	(%rsi,%rdx,2),%edx
	movw	%dx,8(%r15,%r14)
	addq	$10,%r14
	jmp	37f
42:
	leaq	lrtp__static.42(%rip),%rax
	movzwl	(%rax,%rdx,2),%eax
	movw	%ax,8(%r15,%r14)
	addq	$10,%r14
	jmp	43f
49:
	movl	%ecx,%eax
	shrl	$2,%eax
	movzwl	%ax,%eax
	imull	$5243,%eax,%eax
	shrl	$17,%eax
	cmpq	$999,%rcx
	ja	36f
	movl	%eax,%edx
	orb	$48,%dl
	movb	%dl,6(%r15,%r14)
	addq	$7,%r14
	jmp	42f
52:
	movl	%edx,%edi
	movl	$3518437209,%eax
	imulq	%rdi,%rax
	shrq	$45,%rax
	movabsq	$100000000000000,%rdi
	cmpq	%rdi,%rcx
	jae	49f
	movabsq	$10000000000000,%rdi
	cmpq	%rdi,%rcx
	jae	52f
	movl	%eax,%edi
	orb	$48,%dil
	movb	%dil,6(%r15,%r14)
	addq	$7,%r14
	jmp	64f
16:
	movzwl	%ax,%edx
	leaq	lrtp__static.42(%rip),%rsi
	movzwl	(%rsi,%rdx,2),%edx
	movw	%dx,8(%r15,%r14)
	addq	$10,%r14
56:
	imull	$100,%eax,%eax
	subl	%eax,%ecx
	movzwl	%cx,%eax
	leaq	lrtp__static.42(%rip),%rcx
	movzwl	(%rcx,%rax,2),%eax
	movw	%ax,(%r15,%r14)
	addq	$2,%r14
	cmpb	$1,566(%rsp)
	movq	%r13,(%rsp)
	je	18f
	jmp	19b
31:
	movzwl	%ax,%edi
	shrl	$2,%edi
	imull	$5243,%edi,%edi
	shrl	$17,%edi
	movabsq	$1000000000000000,%r8
	cmpq	%r8,%rcx
	jae	16f
	movl	%edi,%r8d
	orb	$48,%r8b
	movb	%r8b,8(%r15,%r14)
	addq	$9,%r14
	jmp	31f
7:
	movzwl	%dx,%esi
	leaq	lrtp__static.42(%rip),%rdi
	movzwl	(%rdi,%rsi,2),%esi
	movw	%si,8(%r15,%r14)
	addq	$10,%r14
59:
	imull	$100,%edx,%edx
	movl	%eax,%esi
	subl	%edx,%esi
	movzwl	%si,%edx
	leaq	lrtp__static.42(%rip),%rsi
	movzwl	(%rsi,%rdx,2),%edx
	movw	%dx,(%r15,%r14)
	addq	$2,%r14
37:
	imull	$10000,%eax,%eax
	subl	%eax,%ecx
	movzwl	%cx,%eax
	shrl	$2,%eax
	imull	$5243,%eax,%eax
	shrl	$17,%eax
	leaq	lrtp__static.42(%rip),%rdx
	movzwl	(%rdx,%rax,2),%esi
	movw	%si,(%r15,%r14)
	imull	$100,%eax,%eax
	subl	%eax,%ecx
	movzwl	%cx,%eax
	movzwl	(%rdx,%rax,2),%eax
	movw	%ax,2(%r15,%r14)
	addq	$4,%r14
	cmpb	$1,566(%rsp)
	movq	%r13,(%rsp)
	je	18f
	jmp	19b
2:
	movzwl	%ax,%esi
	leaq	lrtp__static.42(%rip),%rdi
	movzwl	(%rdi,%rsi,2),%esi
	movw	%si,8(%r15,%r14)
	addq	$10,%r14
60:
	imull	$100,%eax,%eax
	subl	%eax,%edx
	movzwl	%dx,%eax
	leaq	lrtp__static.42(%rip),%rdx
	movzwl	(%rdx,%rax,2),%eax
	movw	%ax,(%r15,%r14)
	addq	$2,%r14
43:
	movabsq	$-6067343680855748867,%rdx
	movq	%rcx,%rax
	mulq	%rdx
	movq	%rdx,%rsi
	shrq	$26,%rsi
	movabsq	$368934881475,%rdx
	movq	%rsi,%rax
	mulq	%rdx
	shrl	%edx
	imulq	$100000000,%rdx,%rax
	imulq	$100000000,%rsi,%rdx
	subq	%rax,%rsi
	imulq	$109951163,%rsi,%rdi
	shrq	$40,%rdi
	imull	$5243,%edi,%r8d
	shrl	$19,%r8d
	leaq	lrtp__static.42(%rip),%rax
	movzwl	(%rax,%r8,2),%r9d
	movw	%r9w,(%r15,%r14)
	imull	$100,%r8d,%r8d
	imull	$10000,%edi,%r9d
	subl	%r8d,%edi
	movzwl	%di,%edi
	movzwl	(%rax,%rdi,2),%edi
	movw	%di,2(%r15,%r14)
	subl	%r9d,%esi
	imull	$5243,%esi,%edi
	shrl	$19,%edi
	movzwl	(%rax,%rdi,2),%r8d
	movw	%r8w,4(%r15,%r14)
	imull	$100,%edi,%edi
	subl	%edi,%esi
	movzwl	%si,%esi
	movzwl	(%rax,%rsi,2),%esi
	movw	%si,6(%r15,%r14)
	subq	%rdx,%rcx
	imulq	$109951163,%rcx,%rdx
	shrq	$40,%rdx
	imull	$5243,%edx,%esi
	shrl	$19,%esi
	movzwl	(%rax,%rsi,2),%edi
	movw	%di,8(%r15,%r14)
	imull	$100,%esi,%esi
	imull	$10000,%edx,%edi
	subl	%esi,%edx
	movzwl	%dx,%edx
	movzwl	(%rax,%rdx,2),%edx
	movw	%dx,10(%r15,%r14)
	subl	%edi,%ecx
	imull	$5243,%ecx,%edx
	shrl	$19,%edx
	movzwl	(%rax,%rdx,2),%esi
	movw	%si,12(%r15,%r14)
	imull	$100,%edx,%edx
	subl	%edx,%ecx
	movzwl	%cx,%ecx
	movzwl	(%rax,%rcx,2),%eax
	movw	%ax,14(%r15,%r14)
	addq	$16,%r14
	cmpb	$1,566(%rsp)
	movq	%r13,(%rsp)
	je	18f
	jmp	19b
41:
	movzwl	%ax,%edx
	shrl	$2,%edx
	imull	$5243,%edx,%edx
	shrl	$17,%edx
	cmpq	$9999999,%rcx
	ja	2f
	movl	%edx,%esi
	orb	$48,%sil
	movb	%sil,6(%r15,%r14)
	addq	$7,%r14
	jmp	7f
47:
	imull	$1311,%edx,%eax
	shrl	$17,%eax
	movabsq	$-8446744073709551616,%rsi
	cmpq	%rsi,%rcx
	jae	37f
	movl	%eax,%esi
	orb	$48,%sil
	movb	%sil,6(%r15,%r14)
	addq	$7,%r14
	jmp	41f
34:
	leaq	lrtp__static.42(%rip),%rax
	movzwl	(%rax,%rdx,2),%eax
	movw	%ax,8(%r15,%r14)
	addq	$10,%r14
	jmp	35f
50:
	leaq	lrtp__static.42(%rip),%rax
	movzwl	(%rax,%rcx,2),%eax
	movw	%ax,6(%r15,%r14)
	addq	$8,%r14
	cmpb	$1,480(%rsp)
	je	51f
	jmp	6f
53:
	movl	%edx,%eax
	shrl	$2,%eax
	movzwl	%ax,%eax
	imull	$5243,%eax,%eax
	shrl	$17,%eax
	movabsq	$100000000000,%rdi
	cmpq	%rdi,%rcx
	jae	34f
	orb	$48,%al
	movb	%al,6(%r15,%r14)
	addq	$7,%r14
	jmp	43f
57:
	movl	%eax,%edi
	leaq	lrtp__static.42(%rip),%r8
	movzwl	(%r8,%rdi,2),%edi
	movw	%di,8(%r15,%r14)
	addq	$10,%r14
	jmp	58f
48:
	movl	%eax,%edx
	leaq	lrtp__static.42(%rip),%rsi
	movzwl	(%rsi,%rdx,2),%edx
	movw	%dx,6(%r15,%r14)
	addq	$8,%r14
	jmp	61f
62:
	leaq	lrtp__static.42(%rip),%rax
	movzwl	(%rax,%rdx,2),%eax
	movw	%ax,6(%r15,%r14)
	addq	$8,%r14
	jmp	63f
17:
	movzwl	%ax,%eax
	leaq	lrtp__static.42(%rip),%rdi
	movzwl	(%rdi,%rax,2),%eax
	movw	%ax,8(%r15,%r14)
	addq	$10,%r14
33:
	movl	%edx,%eax
	imulq	$1374389535,%rax,%rax
	shrq	$37,%rax
	imull	$100,%eax,%eax
	subl	%eax,%edx
	leaq	lrtp__static.42(%rip),%rax
	movzwl	(%rax,%rdx,2),%eax
	movw	%ax,(%r15,%r14)
	addq	$2,%r14
	jmp	35f
36:
	movzwl	%ax,%edx
	leaq	lrtp__static.42(%rip),%rsi
	movzwl	(%rsi,%rdx,2),%edx
	movw	%dx,6(%r15,%r14)
	addq	$8,%r14
42:
	imull	$100,%eax,%eax
	subl	%eax,%ecx
	movzwl	%cx,%eax
	leaq	lrtp__static.42(%rip),%rcx
	movzwl	(%rcx,%rax,2),%eax
	movw	%ax,(%r15,%r14)
	addq	$2,%r14
	cmpb	$1,480(%rsp)
	je	51f
	jmp	6f
49:
	movzwl	%ax,%edi
	shrl	$2,%edi
	imull	$5243,%edi,%edi
	shrl	$17,%edi
	movabsq	$1000000000000000,%r8
	cmpq	%r8,%rcx
	jae	17f
	movl	%edi,%r8d
	orb	$48,%r8b
	movb	%r8b,6(%r15,%r14)
	addq	$7,%r14
	jmp	33f
16:
	movzwl	%di,%r8d
	leaq	lrtp__static.42(%rip),%r9
	movzwl	(%r9,%r8,2),%r8d
	movw	%r8w,8(%r15,%r14)
	addq	$10,%r14
31:
	imull	$100,%edi,%edi
	movl	%eax,%r8d
	subl	%edi,%r8d
	movzwl	%r8w,%edi
	leaq	lrtp__static.42(%rip),%r8
	movzwl	(%r8,%rdi,2),%edi
	movw	%di,(%r15,%r14)
	addq	$2,%r14
58:
	imull	$10000,%eax,%eax
	subl	%eax,%edx
	movzwl	%dx,%eax
	shrl	$2,%eax
	imull	$5243,%eax,%eax
	shrl	$17,%eax
	leaq	lrtp__static.42(%rip),%rdi
	movzwl	(%rdi,%rax,2),%r8d
	movw	%r8w,(%r15,%r14)
	imull	$100,%eax,%eax
	subl	%eax,%edx
	movzwl	%dx,%eax
	movzwl	(%rdi,%rax,2),%eax
	movw	%ax,2(%r15,%r14)
	addq	$4,%r14
35:
	movq	%rcx,%rax
	mulq	%rsi
	shrq	$26,%rdx
	imulq	$100000000,%rdx,%rax
	subq	%rax,%rcx
	imulq	$109951163,%rcx,%rax
	shrq	$40,%rax
	imull	$5243,%eax,%edx
	shrl	$19,%edx
	leaq	lrtp__static.42(%rip),%rsi
	movzwl	(%rsi,%rdx,2),%edi
	movw	%di,(%r15,%r14)
	imull	$100,%edx,%edx
	imull	$10000,%eax,%edi
	subl	%edx,%eax
	movzwl	%ax,%eax
	movzwl	(%rsi,%rax,2),%eax
	movw	%ax,2(%r15,%r14)
	subl	%edi,%ecx
	imull	$5243,%ecx,%eax
	shrl	$19,%eax
	movzwl	(%rsi,%rax,2),%edx
	movw	%dx,4(%r15,%r14)
	imull	$100,%eax,%eax
	subl	%eax,%ecx
	movzwl	%cx,%eax
	movzwl	(%rsi,%rax,2),%eax
	movw	%ax,6(%r15,%r14)
	addq	$8,%r14
	cmpb	$1,566(%rsp)
	movq	%r13,(%rsp)
	jne	19b
18:
	movq	%rbp,8(%rsp)
	movdqu	567(%rsp),%xmm0
	movb	$32,4(%r15,%r14)
	movl	$1684630816,(%r15,%r14)
	addq	$5,%r14
	movdqa	%xmm0,128(%rsp)
	pcmpeqb	8b(%rip),%xmm0
	pmovmskb	%xmm0,%eax
	xorl	$65535,%eax
	movl	%eax,%ecx
	shrl	%ecx
	andl	$21845,%ecx
	movl	%eax,%edx
	subl	%ecx,%edx
	movl	%edx,%ecx
	andl	$13107,%ecx
	shrl	$2,%edx
	andl	$13107,%edx
	addl	%ecx,%edx
	movl	%edx,%ecx
	shrl	$4,%ecx
	addl	%edx,%ecx
	andl	$3855,%ecx
	movl	%ecx,%edx
	shrl	$8,%edx
	addl	%ecx,%edx
	movzbl	%dl,%ebx
	testl	%eax,%eax
	je	8f
	leaq	(%r15,%r14),%rdi
	leaq	128(%rsp),%rsi
	movq	%rbx,%rdx
	movq	%r12,%r13
	movq	%r11,%r12
	movq	%r10,%rbp
	callq	_memcpy
	movq	%rbp,%r10
	movq	%r12,%r11
	movq	%r13,%r12
8:
	addq	%rbx,%r14
	movabsq	$10000000000000000,%rbx
	movq	8(%rsp),%rbp
	movq	(%rsp),%r13
	cmpb	$1,548(%rsp)
	je	21b
20:
	cmpb	$1,557(%rsp)
	jne	30b
23:
	movq	%r12,%r13
	movq	%rbp,%r12
	movq	558(%rsp),%rax
	movabsq	$7310021012394177056,%rcx
	movq	%rcx,(%r15,%r14)
	movw	$8292,8(%r15,%r14)
	addq	$10,%r14
	movq	%r14,%rsi
	movq	%rax,128(%rsp)
	cmpb	$32,%al
	jne	8f
	movq	%rbx,%rbp
	xorl	%r14d,%r14d
	movq	%rsi,%rbx
	jmp	16f
8:
	movq	%r10,8(%rsp)
	movq	%r11,32(%rsp)
	movq	%rbx,%rbp
	movl	%eax,%ecx
	andl	$65280,%ecx
	movl	$1,%r14d
	cmpl	$8192,%ecx
	je	8f
	movl	%eax,%ecx
	andl	$16711680,%ecx
	movl	$2,%r14d
	cmpl	$2097152,%ecx
	je	8f
	movl	%eax,%ecx
	andl	$-16777216,%ecx
	movl	$3,%r14d
	cmpl	$536870912,%ecx
	je	8f
	movabsq	$1095216660480,%rcx
	andq	%rax,%rcx
	movl	$4,%r14d
	movabsq	$137438953472,%rdx
	cmpq	%rdx,%rcx
	je	8f
	movabsq	$280375465082880,%rcx
	andq	%rax,%rcx
	movl	$5,%r14d
	movabsq	$35184372088832,%rdx
	cmpq	%rdx,%rcx
	je	8f
	movabsq	$71776119061217280,%rcx
	andq	%rax,%rcx
	movl	$6,%r14d
	movabsq	$9007199254740992,%rdx
	cmpq	%rdx,%rcx
	je	8f
	shrq	$56,%rax
	xorl	%r14d,%r14d
	cmpl	$32,%eax
	setne	%r14b
	addq	$7,%r14
8:
	movq	%rsi,%rbx
	leaq	(%r15,%rsi),%rdi
	leaq	128(%rsp),%rsi
	movq	%r14,%rdx
	callq	_memcpy
	movq	32(%rsp),%r11
	movq	8(%rsp),%r10
16:
	addq	%r14,%rbx
	movq	%rbx,%r14
	movq	%rbp,%rbx
	movq	%r12,%rbp
	movq	%r13,%r12
	movq	(%rsp),%r13
	cmpb	$1,416(%rsp)
	je	39b
38:
	cmpb	$1,418(%rsp)
	jne	44b
45:
	testb	$1,419(%rsp)
	movl	$543515497,3(%r15,%r14)
	movl	$1768912416,(%r15,%r14)
	leaq	7(%r15,%r14),%rax
	je	8f
	movb	$115,2(%rax)
	movw	$25977,(%rax)
	addq	$10,%r14
	cmpb	$1,432(%rsp)
	jne	40f
	jmp	46b
8:
	movw	$28526,(%rax)
	addq	$9,%r14
	cmpb	$1,432(%rsp)
	je	46b
	.p2align	4
40:
	cmpb	$1,480(%rsp)
	jne	6f
51:
	movzwl	482(%rsp),%eax
	movabsq	$8030045053520081952,%rcx
	movq	%rcx,(%r15,%r14)
	movl	$544502383,7(%r15,%r14)
	cmpl	$9999,%eax
	ja	8f
	cmpw	$99,%ax
	ja	16f
	cmpw	$9,%ax
	ja	18f
	orb	$48,%al
	movb	%al,11(%r15,%r14)
	addq	$12,%r14
	jmp	6f
8:
	movl	%eax,%ecx
	shrl	$4,%ecx
	imull	$839,%ecx,%ecx
	shrl	$19,%ecx
	leal	48(%rcx),%edx
	movb	%dl,11(%r15,%r14)
	imull	$10000,%ecx,%ecx
	subl	%ecx,%eax
	movzwl	%ax,%ecx
	imull	$5243,%ecx,%ecx
	shrl	$19,%ecx
	leaq	lrtp__static.42(%rip),%rdx
	movzwl	(%rdx,%rcx,2),%esi
	movw	%si,12(%r15,%r14)
	imull	$100,%ecx,%ecx
	subl	%ecx,%eax
	movzwl	%ax,%eax
	movzwl	(%rdx,%rax,2),%eax
	movw	%ax,14(%r15,%r14)
	addq	$16,%r14
	jmp	6f
16:
	movl	%eax,%ecx
	shrl	$2,%ecx
	imull	$5243,%ecx,%ecx
	shrl	$17,%ecx
	cmpl	$999,%eax
	ja	8f
	movl	%ecx,%edx
	orb	$48,%dl
	movb	%dl,11(%r15,%r14)
	addq	$12,%r14
	jmp	16f
18:
	leaq	lrtp__static.42(%rip),%rcx
	movzwl	(%rcx,%rax,2),%eax
	movw	%ax,11(%r15,%r14)
	addq	$13,%r14
	jmp	6f
8:
	movzwl	%cx,%edx
	leaq	lrtp__static.42(%rip),%rsi
	movzwl	(%rsi,%rdx,2),%edx
	movw	%dx,11(%r15,%r14)
	addq	$13,%r14
16:
	imull	$100,%ecx,%ecx
	subl	%ecx,%eax
	movzwl	%ax,%eax
	leaq	lrtp__static.42(%rip),%rcx
	movzwl	(%rcx,%rax,2),%eax
	movw	%ax,(%r15,%r14)
	addq	$2,%r14
	jmp	6f
2:
	movzwl	%dx,%esi
	leaq	lrtp__static.42(%rip),%rdi
	movzwl	(%rdi,%rsi,2),%esi
	movw	%si,6(%r15,%r14)
	addq	$8,%r14
7:
	imull	$100,%edx,%edx
	movl	%eax,%esi
	subl	%edx,%esi
	movzwl	%si,%edx
	leaq	lrtp__static.42(%rip),%rsi
	movzwl	(%rsi,%rdx,2),%edx
	movw	%dx,(%r15,%r14)
	addq	$2,%r14
61:
	imull	$10000,%eax,%eax
	subl	%eax,%ecx
	movzwl	%cx,%eax
	shrl	$2,%eax
	imull	$5243,%eax,%eax
	shrl	$17,%eax
	leaq	lrtp__static.42(%rip),%rdx
	movzwl	(%rdx,%rax,2),%esi
	movw	%si,(%r15,%r14)
	imull	$100,%eax,%eax
	subl	%eax,%ecx
	movzwl	%cx,%eax
	movzwl	(%rdx,%rax,2),%eax
	movw	%ax,2(%r15,%r14)
	addq	$4,%r14
	cmpb	$1,480(%rsp)
	je	51b
	jmp	6f
37:
	movzwl	%ax,%esi
	leaq	lrtp__static.42(%rip),%rdi
	movzwl	(%rdi,%rsi,2),%esi
	movw	%si,6(%r15,%r14)
	addq	$8,%r14
41:
	imull	$100,%eax,%eax
	subl	%eax,%edx
	movzwl	%dx,%eax
	leaq	lrtp__static.42(%rip),%rdx
	movzwl	(%rdx,%rax,2),%eax
	movw	%ax,(%r15,%r14)
	addq	$2,%r14
63:
	movabsq	$-6067343680855748867,%rdx
	movq	%rcx,%rax
	mulq	%rdx
	movq	%rdx,%rsi
	shrq	$26,%rsi
	movabsq	$368934881475,%rdx
	movq	%rsi,%rax
	mulq	%rdx
	shrl	%edx
	imulq	$100000000,%rdx,%rax
	imulq	$100000000,%rsi,%rdx
	subq	%rax,%rsi
	imulq	$109951163,%rsi,%rdi
	shrq	$40,%rdi
	imull	$5243,%edi,%r8d
	shrl	$19,%r8d
	leaq	lrtp__static.42(%rip),%rax
	movzwl	(%rax,%r8,2),%r9d
	movw	%r9w,(%r15,%r14)
	imull	$100,%r8d,%r8d
	imull	$10000,%edi,%r9d
	subl	%r8d,%edi
	movzwl	%di,%edi
	movzwl	(%rax,%rdi,2),%edi
	movw	%di,2(%r15,%r14)
	subl	%r9d,%esi
	imull	$5243,%esi,%edi
	shrl	$19,%edi
	movzwl	(%rax,%rdi,2),%r8d
	movw	%r8w,4(%r15,%r14)
	imull	$100,%edi,%edi
	subl	%edi,%esi
	movzwl	%si,%esi
	movzwl	(%rax,%rsi,2),%esi
	movw	%si,6(%r15,%r14)
	subq	%rdx,%rcx
	imulq	$109951163,%rcx,%rdx
	shrq	$40,%rdx
	imull	$5243,%edx,%esi
	shrl	$19,%esi
	movzwl	(%rax,%rsi,2),%edi
	movw	%di,8(%r15,%r14)
	imull	$100,%esi,%esi
	imull	$10000,%edx,%edi
	subl	%esi,%edx
	movzwl	%dx,%edx
	movzwl	(%rax,%rdx,2),%edx
	movw	%dx,10(%r15,%r14)
	subl	%edi,%ecx
	imull	$5243,%ecx,%edx
	shrl	$19,%edx
	movzwl	(%rax,%rdx,2),%esi
	movw	%si,12(%r15,%r14)
	imull	$100,%edx,%edx
	subl	%edx,%ecx
	movzwl	%cx,%ecx
	movzwl	(%rax,%rcx,2),%eax
	movw	%ax,14(%r15,%r14)
	addq	$16,%r14
	cmpb	$1,480(%rsp)
	je	51b
	jmp	6f
15:
	leaq	-65536(%rdx),%rcx
	negw	%r13w
	cmovnoq	%rcx,%rdx
	testw	%di,%di
	cmovsq	%rcx,%rdx
	movq	(%rsp),%r13
	movq	%rdi,%rcx
	subq	%rdx,%rcx
	jb	28b
26:
	movb	$2,%r10b
	movb	$1,%sil
	cmpq	$127,%rcx
	jbe	2f
	xorl	%r11d,%r11d
	jmp	3b
54:
	leaq	lrtp__static.42(%rip),%rax
	movzwl	(%rax,%rdx,2),%eax
	movw	%ax,6(%r15,%r14)
	addq	$8,%r14
	jmp	55f
52:
	movl	%eax,%edi
	leaq	lrtp__static.42(%rip),%r8
	movzwl	(%r8,%rdi,2),%edi
	movw	%di,6(%r15,%r14)
	addq	$8,%r14
	jmp	64f
34:
	movzwl	%ax,%eax
	leaq	lrtp__static.42(%rip),%rdi
	movzwl	(%rdi,%rax,2),%eax
	movw	%ax,6(%r15,%r14)
	addq	$8,%r14
43:
	movl	%edx,%eax
	imulq	$1374389535,%rax,%rax
	shrq	$37,%rax
	imull	$100,%eax,%eax
	subl	%eax,%edx
	leaq	lrtp__static.42(%rip),%rax
	movzwl	(%rax,%rdx,2),%eax
	movw	%ax,(%r15,%r14)
	addq	$2,%r14
	jmp	55f
17:
	movzwl	%di,%r8d
	leaq	lrtp__static.42(%rip),%r9
	movzwl	(%r9,%r8,2),%r8d
	movw	%r8w,6(%r15,%r14)
	addq	$8,%r14
33:
	imull	$100,%edi,%edi
	movl	%eax,%r8d
	subl	%edi,%r8d
	movzwl	%r8w,%edi
	leaq	lrtp__static.42(%rip),%r8
	movzwl	(%r8,%rdi,2),%edi
	movw	%di,(%r15,%r14)
	addq	$2,%r14
64:
	imull	$10000,%eax,%eax
	subl	%eax,%edx
	movzwl	%dx,%eax
	shrl	$2,%eax
	imull	$5243,%eax,%eax
	shrl	$17,%eax
	leaq	lrtp__static.42(%rip),%rdi
	movzwl	(%rdi,%rax,2),%r8d
	movw	%r8w,(%r15,%r14)
	imull	$100,%eax,%eax
	subl	%eax,%edx
	movzwl	%dx,%eax
	movzwl	(%rdi,%rax,2),%eax
	movw	%ax,2(%r15,%r14)
	addq	$4,%r14
55:
	movq	%rcx,%rax
	mulq	%rsi
	shrq	$26,%rdx
	imulq	$100000000,%rdx,%rax
	subq	%rax,%rcx
	imulq	$109951163,%rcx,%rax
	shrq	$40,%rax
	imull	$5243,%eax,%edx
	shrl	$19,%edx
	leaq	lrtp__static.42(%rip),%rsi
	movzwl	(%rsi,%rdx,2),%edi
	movw	%di,(%r15,%r14)
	imull	$100,%edx,%edx
	imull	$10000,%eax,%edi
	subl	%edx,%eax
	movzwl	%ax,%eax
	movzwl	(%rsi,%rax,2),%eax
	movw	%ax,2(%r15,%r14)
	subl	%edi,%ecx
	imull	$5243,%ecx,%eax
	shrl	$19,%eax
	movzwl	(%rsi,%rax,2),%edx
	movw	%dx,4(%r15,%r14)
	imull	$100,%eax,%eax
	subl	%eax,%ecx
	movzwl	%cx,%eax
	movzwl	(%rsi,%rax,2),%eax
	movw	%ax,6(%r15,%r14)
	addq	$8,%r14
	cmpb	$1,480(%rsp)
	je	51b
	.p2align	4
6:
	movb	$10,(%r15,%r14)
	movabsq	$2338603410820064630,%rax
	movq	%rax,1(%r15,%r14)
	cmpq	$99999999,%rbp
	ja	6f
	cmpq	$9999,%rbp
	ja	7f
	cmpq	$99,%rbp
	ja	8f
	cmpq	$9,%rbp
	ja	15f
	movl	%ebp,%eax
	orb	$48,%al
	movb	%al,9(%r15,%r14)
	addq	$10,%r14
	movw	$8250,(%r15,%r14)
	leaq	(%r15,%r14),%rax
	addq	$2,%rax
	cmpb	$2,%r10b
	jne	16f
	jmp	17f
	.p2align	4
6:
	cmpq	%rbx,%rbp
	jae	6f
	movabsq	$-6067343680855748867,%rcx
	movq	%rbp,%rax
	mulq	%rcx
	shrq	$26,%rdx
	movabsq	$1000000000000,%rax
	cmpq	%rax,%rbp
	jae	18f
	movabsq	$10000000000,%rax
	cmpq	%rax,%rbp
	jae	19f
	cmpq	$999999999,%rbp
	ja	20f
	orb	$48,%dl
	movb	%dl,9(%r15,%r14)
	addq	$10,%r14
	jmp	21f
	.p2align	4
7:
	movl	%ebp,%ecx
	movl	$3518437209,%eax
	imulq	%rcx,%rax
	shrq	$45,%rax
	cmpq	$999999,%rbp
	ja	7f
	cmpq	$99999,%rbp
	ja	23f
	movl	%eax,%ecx
	orb	$48,%cl
	movb	%cl,9(%r15,%r14)
	addq	$10,%r14
	jmp	26f
	.p2align	4
6:
	movabsq	$4153837486827862103,%rcx
	movq	%rbp,%rax
	mulq	%rcx
	shrq	$51,%rdx
	movabsq	$1000000000000000000,%rax
	cmpq	%rax,%rbp
	jae	6f
	movabsq	$100000000000000000,%rax
	cmpq	%rax,%rbp
	jae	28f
	orb	$48,%dl
	movb	%dl,9(%r15,%r14)
	addq	$10,%r14
	jmp	30f
8:
	movl	%ebp,%eax
	shrl	$2,%eax
	movzwl	%ax,%eax
	imull	$5243,%eax,%eax
	shrl	$17,%eax
	cmpq	$999,%rbp
	ja	8f
	movl	%eax,%ecx
	orb	$48,%cl
	movb	%cl,9(%r15,%r14)
	addq	$10,%r14
	jmp	31f
18:
	movl	%edx,%esi
	movl	$3518437209,%eax
	imulq	%rsi,%rax
	shrq	$45,%rax
	movabsq	$100000000000000,%rsi
	cmpq	%rsi,%rbp
	jae	18f
	movabsq	$10000000000000,%rsi
	cmpq	%rsi,%rbp
	jae	33f
	movl	%eax,%esi
	orb	$48,%sil
	movb	%sil,9(%r15,%r14)
	addq	$10,%r14
	jmp	34f
7:
	movzwl	%ax,%ecx
	shrl	$2,%ecx
	imull	$5243,%ecx,%ecx
	shrl	$17,%ecx
	cmpq	$9999999,%rbp
	ja	7f
	movl	%ecx,%edx
	orb	$48,%dl
	movb	%dl,9(%r15,%r14)
	addq	$10,%r14
	jmp	35f
6:
	imull	$1311,%edx,%eax
	shrl	$17,%eax
	movabsq	$-8446744073709551616,%rcx
	cmpq	%rcx,%rbp
	jae	6f
	movl	%eax,%ecx
	orb	$48,%cl
	movb	%cl,9(%r15,%r14)
	addq	$10,%r14
	jmp	36f
15:
	leaq	lrtp__static.42(%rip),%rax
	movzwl	(%rax,%rbp,2),%eax
	movw	%ax,9(%r15,%r14)
	addq	$11,%r14
	movw	$8250,(%r15,%r14)
	leaq	(%r15,%r14),%rax
	addq	$2,%rax
	cmpb	$2,%r10b
	jne	16f
	jmp	17f
19:
	movl	%edx,%eax
	shrl	$2,%eax
	movzwl	%ax,%eax
	imull	$5243,%eax,%eax
	shrl	$17,%eax
	movabsq	$100000000000,%rsi
	cmpq	%rsi,%rbp
	jae	15f
	orb	$48,%al
	movb	%al,9(%r15,%r14)
	addq	$10,%r14
	jmp	19f
23:
	movl	%eax,%ecx
	leaq	lrtp__static.42(%rip),%rdx
	movzwl	(%rdx,%rcx,2),%ecx
	movw	%cx,9(%r15,%r14)
	addq	$11,%r14
	jmp	26f
28:
	leaq	lrtp__static.42(%rip),%rax
	movzwl	(%rax,%rdx,2),%eax
	movw	%ax,9(%r15,%r14)
	addq	$11,%r14
	jmp	30f
8:
	movzwl	%ax,%ecx
	leaq	lrtp__static.42(%rip),%rdx
	movzwl	(%rdx,%rcx,2),%ecx
	movw	%cx,9(%r15,%r14)
	addq	$11,%r14
31:
	imull	$100,%eax,%eax
	movl	%ebp,%ecx
	subl	%eax,%ecx
	movzwl	%cx,%eax
	leaq	lrtp__static.42(%rip),%rcx
	movzwl	(%rcx,%rax,2),%eax
	movw	%ax,(%r15,%r14)
	addq	$2,%r14
	movw	$8250,(%r15,%r14)
	leaq	(%r15,%r14),%rax
	addq	$2,%rax
	cmpb	$2,%r10b
	jne	16f
	jmp	17f
18:
	movzwl	%ax,%esi
	shrl	$2,%esi
	imull	$5243,%esi,%esi
	shrl	$17,%esi
	movabsq	$1000000000000000,%rdi
	cmpq	%rdi,%rbp
	jae	8f
	movl	%esi,%edi
	orb	$48,%dil
	movb	%dil,9(%r15,%r14)
	addq	$10,%r14
	jmp	18f
7:
	movzwl	%cx,%edx
	leaq	lrtp__static.42(%rip),%rsi
	movzwl	(%rsi,%rdx,2),%edx
	movw	%dx,9(%r15,%r14)
	addq	$11,%r14
35:
	imull	$100,%ecx,%ecx
	movl	%eax,%edx
	subl	%ecx,%edx
	movzwl	%dx,%ecx
	leaq	lrtp__static.42(%rip),%rdx
	movzwl	(%rdx,%rcx,2),%ecx
	movw	%cx,(%r15,%r14)
	addq	$2,%r14
26:
	imull	$10000,%eax,%eax
	movl	%ebp,%ecx
	subl	%eax,%ecx
	movzwl	%cx,%eax
	shrl	$2,%eax
	imull	$5243,%eax,%eax
	shrl	$17,%eax
	leaq	lrtp__static.42(%rip),%rdx
	movzwl	(%rdx,%rax,2),%esi
	movw	%si,(%r15,%r14)
	imull	$100,%eax,%eax
	subl	%eax,%ecx
	movzwl	%cx,%eax
	movzwl	(%rdx,%rax,2),%eax
	movw	%ax,2(%r15,%r14)
	addq	$4,%r14
	movw	$8250,(%r15,%r14)
	leaq	(%r15,%r14),%rax
	addq	$2,%rax
	cmpb	$2,%r10b
	je	17f
16:
	movzbl	%r10b,%ecx
	cmpl	$1,%ecx
	jne	7f
	movw	$8302,4(%rax)
	movl	$1701536116,(%rax)
	cmpq	$99999999,%r11
	ja	23f
	cmpq	$9999,%r11
	ja	26f
	cmpq	$99,%r11
	ja	28f
	cmpq	$9,%r11
	ja	31f
	orb	$48,%r11b
	movb	%r11b,8(%r15,%r14)
	jmp	35f
	.p2align	4
7:
	movabsq	$7089057657934474869,%rcx
	movq	%rcx,(%rax)
	movw	$25964,8(%rax)
	addq	$12,%r14
	jmp	7f
23:
	cmpq	%rbx,%r11
	jae	23f
	movabsq	$-6067343680855748867,%rcx
	movq	%r11,%rax
	mulq	%rcx
	shrq	$26,%rdx
	movabsq	$1000000000000,%rax
	cmpq	%rax,%r11
	jae	37f
	movabsq	$10000000000,%rax
	cmpq	%rax,%r11
	jae	38f
	cmpq	$999999999,%r11
	ja	39f
	orb	$48,%dl
	movb	%dl,8(%r15,%r14)
	addq	$9,%r14
	jmp	40f
26:
	movl	%r11d,%ecx
	movl	$3518437209,%eax
	imulq	%rcx,%rax
	shrq	$45,%rax
	cmpq	$999999,%r11
	ja	26f
	cmpq	$99999,%r11
	ja	41f
	movl	%eax,%ecx
	orb	$48,%cl
	movb	%cl,8(%r15,%r14)
	addq	$9,%r14
	jmp	42f
23:
	movabsq	$4153837486827862103,%rcx
	movq	%r11,%rax
	mulq	%rcx
	shrq	$51,%rdx
	movabsq	$1000000000000000000,%rax
	cmpq	%rax,%r11
	jae	23f
	movabsq	$100000000000000000,%rax
	cmpq	%rax,%r11
	jae	43f
	orb	$48,%dl
	movb	%dl,8(%r15,%r14)
	addq	$9,%r14
	jmp	44f
6:
	movzwl	%ax,%ecx
	leaq	lrtp__static.42(%rip),%rsi
	movzwl	(%rsi,%rcx,2),%ecx
	movw	%cx,9(%r15,%r14)
	addq	$11,%r14
36:
	imull	$100,%eax,%eax
	subl	%eax,%edx
	movzwl	%dx,%eax
	leaq	lrtp__static.42(%rip),%rcx
	movzwl	(%rcx,%rax,2),%eax
	movw	%ax,(%r15,%r14)
	addq	$2,%r14
30:
	movabsq	$-6067343680855748867,%rcx
	movq	%rbp,%rax
	mulq	%rcx
	movq	%rdx,%rcx
	shrq	$26,%rcx
	movabsq	$368934881475,%rdx
	movq	%rcx,%rax
	mulq	%rdx
	shrl	%edx
	imulq	$100000000,%rdx,%rax
	imulq	$100000000,%rcx,%rdx
	subq	%rax,%rcx
	imulq	$109951163,%rcx,%rsi
	shrq	$40,%rsi
	imull	$5243,%esi,%edi
	shrl	$19,%edi
	leaq	lrtp__static.42(%rip),%rax
	movzwl	(%rax,%rdi,2),%r8d
	movw	%r8w,(%r15,%r14)
	imull	$100,%edi,%edi
	imull	$10000,%esi,%r8d
	subl	%edi,%esi
	movzwl	%si,%esi
	movzwl	(%rax,%rsi,2),%esi
	movw	%si,2(%r15,%r14)
	subl	%r8d,%ecx
	imull	$5243,%ecx,%esi
	shrl	$19,%esi
	movzwl	(%rax,%rsi,2),%edi
	movw	%di,4(%r15,%r14)
	imull	$100,%esi,%esi
	subl	%esi,%ecx
	movzwl	%cx,%ecx
	movzwl	(%rax,%rcx,2),%ecx
	movw	%cx,6(%r15,%r14)
	movq	%rbp,%rcx
	subq	%rdx,%rcx
	imulq	$109951163,%rcx,%rdx
	shrq	$40,%rdx
	imull	$5243,%edx,%esi
	shrl	$19,%esi
	movzwl	(%rax,%rsi,2),%edi
	movw	%di,8(%r15,%r14)
	imull	$100,%esi,%esi
	imull	$10000,%edx,%edi
	subl	%esi,%edx
	movzwl	%dx,%edx
	movzwl	(%rax,%rdx,2),%edx
	movw	%dx,10(%r15,%r14)
	subl	%edi,%ecx
	imull	$5243,%ecx,%edx
	shrl	$19,%edx
	movzwl	(%rax,%rdx,2),%esi
	movw	%si,12(%r15,%r14)
	imull	$100,%edx,%edx
	subl	%edx,%ecx
	movzwl	%cx,%ecx
	movzwl	(%rax,%rcx,2),%eax
	movw	%ax,14(%r15,%r14)
	addq	$16,%r14
	movw	$8250,(%r15,%r14)
	leaq	(%r15,%r14),%rax
	addq	$2,%rax
	cmpb	$2,%r10b
	jne	16b
	jmp	17f
28:
	movl	%r11d,%eax
	shrl	$2,%eax
	movzwl	%ax,%eax
	imull	$5243,%eax,%eax
	shrl	$17,%eax
	cmpq	$999,%r11
	ja	6f
	movl	%eax,%ecx
	orb	$48,%cl
	movb	%cl,8(%r15,%r14)
	addq	$9,%r14
	jmp	28f
37:
	movl	%edx,%esi
	movl	$3518437209,%eax
	imulq	%rsi,%rax
	shrq	$45,%rax
	movabsq	$100000000000000,%rsi
	cmpq	%rsi,%r11
	jae	30f
	movabsq	$10000000000000,%rsi
	cmpq	%rsi,%r11
	jae	36f
	movl	%eax,%esi
	orb	$48,%sil
	movb	%sil,8(%r15,%r14)
	addq	$9,%r14
	jmp	37f
26:
	movzwl	%ax,%ecx
	shrl	$2,%ecx
	imull	$5243,%ecx,%ecx
	shrl	$17,%ecx
	cmpq	$9999999,%r11
	ja	26f
	movl	%ecx,%edx
	orb	$48,%dl
	movb	%dl,8(%r15,%r14)
	addq	$9,%r14
	jmp	45f
23:
	imull	$1311,%edx,%eax
	shrl	$17,%eax
	movabsq	$-8446744073709551616,%rcx
	cmpq	%rcx,%r11
	jae	23f
	movl	%eax,%ecx
	orb	$48,%cl
	movb	%cl,8(%r15,%r14)
	addq	$9,%r14
	jmp	46f
20:
	leaq	lrtp__static.42(%rip),%rax
	movzwl	(%rax,%rdx,2),%eax
	movw	%ax,9(%r15,%r14)
	addq	$11,%r14
	jmp	21f
33:
	movl	%eax,%esi
	leaq	lrtp__static.42(%rip),%rdi
	movzwl	(%rdi,%rsi,2),%esi
	movw	%si,9(%r15,%r14)
	addq	$11,%r14
	jmp	34f
15:
	movzwl	%ax,%eax
	leaq	lrtp__static.42(%rip),%rsi
	movzwl	(%rsi,%rax,2),%eax
	movw	%ax,9(%r15,%r14)
	addq	$11,%r14
19:
	movl	%edx,%eax
	imulq	$1374389535,%rax,%rax
	shrq	$37,%rax
	imull	$100,%eax,%eax
	subl	%eax,%edx
	leaq	lrtp__static.42(%rip),%rax
	movzwl	(%rax,%rdx,2),%eax
	movw	%ax,(%r15,%r14)
	addq	$2,%r14
	jmp	21f
8:
	movzwl	%si,%edi
	leaq	lrtp__static.42(%rip),%r8
	movzwl	(%r8,%rdi,2),%edi
	movw	%di,9(%r15,%r14)
	addq	$11,%r14
18:
	imull	$100,%esi,%esi
	movl	%eax,%edi
	subl	%esi,%edi
	movzwl	%di,%esi
	leaq	lrtp__static.42(%rip),%rdi
	movzwl	(%rdi,%rsi,2),%esi
	movw	%si,(%r15,%r14)
	addq	$2,%r14
34:
	imull	$10000,%eax,%eax
	subl	%eax,%edx
	movzwl	%dx,%eax
	shrl	$2,%eax
	imull	$5243,%eax,%eax
	shrl	$17,%eax
	leaq	lrtp__static.42(%rip),%rsi
	movzwl	(%rsi,%rax,2),%edi
	movw	%di,(%r15,%r14)
	imull	$100,%eax,%eax
	subl	%eax,%edx
	movzwl	%dx,%eax
	movzwl	(%rsi,%rax,2),%eax
	movw	%ax,2(%r15,%r14)
	addq	$4,%r14
21:
	movq	%rbp,%rax
	mulq	%rcx
	shrq	$26,%rdx
	imulq	$100000000,%rdx,%rcx
	movq	%rbp,%rax
	subq	%rcx,%rax
	imulq	$109951163,%rax,%rcx
	shrq	$40,%rcx
	imull	$5243,%ecx,%edx
	shrl	$19,%edx
	leaq	lrtp__static.42(%rip),%rsi
	movzwl	(%rsi,%rdx,2),%edi
	movw	%di,(%r15,%r14)
	imull	$100,%edx,%edx
	imull	$10000,%ecx,%edi
	subl	%edx,%ecx
	movzwl	%cx,%ecx
	movzwl	(%rsi,%rcx,2),%ecx
	movw	%cx,2(%r15,%r14)
	subl	%edi,%eax
	imull	$5243,%eax,%ecx
	shrl	$19,%ecx
	movzwl	(%rsi,%rcx,2),%edx
	movw	%dx,4(%r15,%r14)
	imull	$100,%ecx,%ecx
	subl	%ecx,%eax
	movzwl	%ax,%eax
	movzwl	(%rsi,%rax,2),%eax
	movw	%ax,6(%r15,%r14)
	addq	$8,%r14
	movw	$8250,(%r15,%r14)
	leaq	(%r15,%r14),%rax
	addq	$2,%rax
	cmpb	$2,%r10b
	jne	16b
17:
	movl	$1684370293,3(%rax)
	movl	$1969644914,(%rax)
35:
	addq	$9,%r14
7:
	movb	$10,(%r15,%r14)
	leaq	1(%r14),%rsi
	cmpq	$8190,%r14
	jbe	13b
	movq	%r15,%rdi
	callq	_rtp_listing.printing.write_text.df9e9f1468b30f79
	testb	%al,%al
	je	12b
	jmp	8f
31:
	leaq	lrtp__static.42(%rip),%rax
	movzwl	(%rax,%r11,2),%eax
	movw	%ax,8(%r15,%r14)
	addq	$10,%r14
	jmp	7b
38:
	movl	%edx,%eax
	shrl	$2,%eax
	movzwl	%ax,%eax
	imull	$5243,%eax,%eax
	shrl	$17,%eax
	movabsq	$100000000000,%rsi
	cmpq	%rsi,%r11
	jae	12f
	orb	$48,%al
	movb	%al,8(%r15,%r14)
	addq	$9,%r14
	jmp	13f
41:
	movl	%eax,%ecx
	leaq	lrtp__static.42(%rip),%rdx
	movzwl	(%rdx,%rcx,2),%ecx
	movw	%cx,8(%r15,%r14)
	addq	$10,%r14
	jmp	42f
43:
	leaq	lrtp__static.42(%rip),%rax
	movzwl	(%rax,%rdx,2),%eax
	movw	%ax,8(%r15,%r14)
	addq	$10,%r14
	jmp	44f
6:
	movzwl	%ax,%ecx
	leaq	lrtp__static.42(%rip),%rdx
	movzwl	(%rdx,%rcx,2),%ecx
	movw	%cx,8(%r15,%r14)
	addq	$10,%r14
28:
	imull	$100,%eax,%eax
	subl	%eax,%r11d
	movzwl	%r11w,%eax
	leaq	lrtp__static.42(%rip),%rcx
	movzwl	(%rcx,%rax,2),%eax
	movw	%ax,(%r15,%r14)
	addq	$2,%r14
	jmp	7b
30:
	movzwl	%ax,%esi
	shrl	$2,%esi
	imull	$5243,%esi,%edi
	shrl	$17,%edi
	movabsq	$1000000000000000,%rsi
	cmpq	%rsi,%r11
	jae	6f
	movl	%edi,%esi
	orb	$48,%sil
	movb	%sil,8(%r15,%r14)
	addq	$9,%r14
	jmp	15f
26:
	movzwl	%cx,%edx
	leaq	lrtp__static.42(%rip),%rsi
	movzwl	(%rsi,%rdx,2),%edx
	movw	%dx,8(%r15,%r14)
	addq	$10,%r14
45:
	imull	$100,%ecx,%ecx
	movl	%eax,%edx
	subl	%ecx,%edx
	movzwl	%dx,%ecx
	leaq	lrtp__static.42(%rip),%rdx
	movzwl	(%rdx,%rcx,2),%ecx
	movw	%cx,(%r15,%r14)
	addq	$2,%r14
42:
	imull	$10000,%eax,%eax
	subl	%eax,%r11d
	movzwl	%r11w,%eax
	shrl	$2,%eax
	imull	$5243,%eax,%eax
	shrl	$17,%eax
	leaq	lrtp__static.42(%rip),%rcx
	movzwl	(%rcx,%rax,2),%edx
	movw	%dx,(%r15,%r14)
	imull	$100,%eax,%eax
	subl	%eax,%r11d
	movzwl	%r11w,%eax
	movzwl	(%rcx,%rax,2),%eax
	movw	%ax,2(%r15,%r14)
	addq	$4,%r14
	jmp	7b
23:
	movzwl	%ax,%ecx
	leaq	lrtp__static.42(%rip),%rsi
	movzwl	(%rsi,%rcx,2),%ecx
	movw	%cx,8(%r15,%r14)
	addq	$10,%r14
46:
	imull	$100,%eax,%eax
	subl	%eax,%edx
	movzwl	%dx,%eax
	leaq	lrtp__static.42(%rip),%rcx
	movzwl	(%rcx,%rax,2),%eax
	movw	%ax,(%r15,%r14)
	addq	$2,%r14
44:
	movabsq	$-6067343680855748867,%rcx
	movq	%r11,%rax
	mulq	%rcx
	movq	%rdx,%rcx
	shrq	$26,%rcx
	movabsq	$368934881475,%rdx
	movq	%rcx,%rax
	mulq	%rdx
	shrl	%edx
	imulq	$100000000,%rdx,%rax
	imulq	$100000000,%rcx,%rdx
	subq	%rax,%rcx
	imulq	$109951163,%rcx,%rdi
	shrq	$40,%rdi
	imull	$5243,%edi,%r8d
	shrl	$19,%r8d
	leaq	lrtp__static.42(%rip),%rax
	movzwl	(%rax,%r8,2),%r9d
	movw	%r9w,(%r15,%r14)
	imull	$100,%r8d,%r8d
	imull	$10000,%edi,%r9d
	subl	%r8d,%edi
	movzwl	%di,%edi
	movzwl	(%rax,%rdi,2),%edi
	movw	%di,2(%r15,%r14)
	subl	%r9d,%ecx
	imull	$5243,%ecx,%edi
	shrl	$19,%edi
	movzwl	(%rax,%rdi,2),%r8d
	movw	%r8w,4(%r15,%r14)
	imull	$100,%edi,%edi
	subl	%edi,%ecx
	movzwl	%cx,%ecx
	movzwl	(%rax,%rcx,2),%ecx
	movw	%cx,6(%r15,%r14)
	subq	%rdx,%r11
	imulq	$109951163,%r11,%rcx
	shrq	$40,%rcx
	imull	$5243,%ecx,%edx
	shrl	$19,%edx
	movzwl	(%rax,%rdx,2),%edi
	movw	%di,8(%r15,%r14)
	imull	$100,%edx,%edx
	imull	$10000,%ecx,%edi
	subl	%edx,%ecx
	movzwl	%cx,%ecx
	movzwl	(%rax,%rcx,2),%ecx
	movw	%cx,10(%r15,%r14)
	subl	%edi,%r11d
	imull	$5243,%r11d,%ecx
	shrl	$19,%ecx
	movzwl	(%rax,%rcx,2),%edx
	movw	%dx,12(%r15,%r14)
	imull	$100,%ecx,%ecx
	subl	%ecx,%r11d
	movzwl	%r11w,%ecx
	movzwl	(%rax,%rcx,2),%eax
	movw	%ax,14(%r15,%r14)
	addq	$16,%r14
	jmp	7b
39:
	leaq	lrtp__static.42(%rip),%rax
	movzwl	(%rax,%rdx,2),%eax
	movw	%ax,8(%r15,%r14)
	addq	$10,%r14
	jmp	40f
36:
	movl	%eax,%esi
	leaq	lrtp__static.42(%rip),%rdi
	movzwl	(%rdi,%rsi,2),%esi
	movw	%si,8(%r15,%r14)
	addq	$10,%r14
	jmp	37f
12:
	movzwl	%ax,%eax
	leaq	lrtp__static.42(%rip),%rsi
	movzwl	(%rsi,%rax,2),%eax
	movw	%ax,8(%r15,%r14)
	addq	$10,%r14
13:
	movl	%edx,%eax
	imulq	$1374389535,%rax,%rax
	shrq	$37,%rax
	imull	$100,%eax,%eax
	subl	%eax,%edx
	leaq	lrtp__static.42(%rip),%rax
	movzwl	(%rax,%rdx,2),%eax
	movw	%ax,(%r15,%r14)
	addq	$2,%r14
	jmp	40f
6:
	movzwl	%di,%esi
	leaq	lrtp__static.42(%rip),%r8
	movzwl	(%r8,%rsi,2),%esi
	movw	%si,8(%r15,%r14)
	addq	$10,%r14
15:
	imull	$100,%edi,%edi
	movl	%eax,%r8d
	subl	%edi,%r8d
	movzwl	%r8w,%edi
	leaq	lrtp__static.42(%rip),%r8
	movzwl	(%r8,%rdi,2),%edi
	movw	%di,(%r15,%r14)
	addq	$2,%r14
37:
	imull	$10000,%eax,%eax
	subl	%eax,%edx
	movzwl	%dx,%eax
	shrl	$2,%eax
	imull	$5243,%eax,%eax
	shrl	$17,%eax
	leaq	lrtp__static.42(%rip),%rdi
	movzwl	(%rdi,%rax,2),%r8d
	movw	%r8w,(%r15,%r14)
	imull	$100,%eax,%eax
	subl	%eax,%edx
	movzwl	%dx,%eax
	movzwl	(%rdi,%rax,2),%eax
	movw	%ax,2(%r15,%r14)
	addq	$4,%r14
40:
	movq	%r11,%rax
	mulq	%rcx
	shrq	$26,%rdx
	imulq	$100000000,%rdx,%rax
	subq	%rax,%r11
	imulq	$109951163,%r11,%rax
	shrq	$40,%rax
	imull	$5243,%eax,%ecx
	shrl	$19,%ecx
	leaq	lrtp__static.42(%rip),%rdx
	movzwl	(%rdx,%rcx,2),%edi
	movw	%di,(%r15,%r14)
	imull	$100,%ecx,%ecx
	imull	$10000,%eax,%edi
	subl	%ecx,%eax
	movzwl	%ax,%eax
	movzwl	(%rdx,%rax,2),%eax
	movw	%ax,2(%r15,%r14)
	subl	%edi,%r11d
	imull	$5243,%r11d,%eax
	shrl	$19,%eax
	movzwl	(%rdx,%rax,2),%ecx
	movw	%cx,4(%r15,%r14)
	imull	$100,%eax,%eax
	subl	%eax,%r11d
	movzwl	%r11w,%eax
	movzwl	(%rdx,%rax,2),%eax
	movw	%ax,6(%r15,%r14)
	addq	$8,%r14
	jmp	7b
29:
	cmpq	$127,%rcx
	ja	6f
	shldq	%cl,%r8,%rsi
	shlq	%cl,%r8
	xorl	%edi,%edi
	testb	$64,%cl
	cmovneq	%r8,%rsi
	cmoveq	%r8,%rdi
	orq	$1,%rdi
	jmp	32f
2:
	movl	$1,%edi
	xorl	%r8d,%r8d
	shldq	%cl,%rdi,%r8
	xorl	%r9d,%r9d
	shlq	%cl,%rdi
	testb	$64,%cl
	cmovneq	%rdi,%r8
	cmovneq	%r9,%rdi
	movq	48(%rax,%r12),%r9
	movq	56(%rax,%r12),%rcx
	movq	%rcx,%r10
	andq	%r8,%r10
	movq	%r9,%r11
	andq	%rdi,%r11
	orq	%r10,%r11
	movb	$2,%r10b
	movl	$0,%r11d
	jne	3b
	orq	%r8,%rcx
	orq	%rdi,%r9
	movq	%r9,48(%rax,%r12)
	movq	%rcx,56(%rax,%r12)
	jmp	2f
1:
	movq	%rsi,%rcx
	jmp	27b
6:
	movl	$1,%edi
	xorl	%esi,%esi
32:
	movq	%rdi,48(%rax,%r12)
	movq	%rsi,56(%rax,%r12)
	movq	%rdx,32(%rax,%r12)
2:
	movb	$1,%sil
	movb	$1,%r10b
	movq	%rdx,%r11
	jmp	3b
5:
	leaq	160(%rsp),%rdi
	callq	_rtp_std_alloc.vec.Vec.grow_amortized.fc13275a563fcb41
	testb	%al,%al
	je	4f
	movq	168(%rsp),%r9
	cmpb	$1,184(%rsp)
	je	24b
22:
	movl	$184,%edi
	movl	$8,%esi
	movq	%r9,%r15
	callq	_rattle_alloc
	testb	$1,%al
	je	4f
	movq	%r15,%r9
	movl	$0,(%rdx)
	movzbl	184(%rsp),%eax
	movq	$1,184(%rsp)
	movq	%rdx,192(%rsp)
	cmpb	$1,%al
	je	1f
25:
	shlq	$16,%r12
	movzwl	%r13w,%r11d
	orq	%r12,%r11
	movzwl	2(%rdx),%eax
	movl	$15,%r12d
	subq	%rax,%r12
	movq	%rax,40(%rsp)
	movl	%eax,%r13d
	negb	%r13b
	xorl	%edi,%edi
	movq	%rdx,%rsi
	xorl	%r15d,%r15d
	movq	%rdx,%r10
	movq	%r12,104(%rsp)
	xorl	%ebp,%ebp
	movq	%rsi,%rcx
	movzwl	(%rsi),%esi
	testq	%rsi,%rsi
	je	2f
5:
	movq	%rdi,%rbx
	xorl	%eax,%eax
	.p2align	4
6:
	movl	4(%rcx,%rax,4),%edi
	cmpl	%edi,%r14d
	setae	%r8b
	addb	%r8b,%r8b
	cmpl	%edi,%r14d
	movzbl	%r8b,%r8d
	movl	$1,%edi
	cmovnel	%r8d,%edi
	cmpb	$2,%dil
	jne	7f
	incq	%rax
	cmpq	%rax,%rsi
	jne	6b
	movq	%rsi,%rax
	jmp	6f
	.p2align	4
7:
	movzbl	%dil,%esi
	testl	%esi,%esi
	jne	7f
6:
	movq	%rbx,%rdi
	movabsq	$10000000000000000,%rbx
	jmp	6f
	.p2align	4
2:
	xorl	%eax,%eax
6:
	shlq	$4,%rbp
	addq	%rax,%rbp
	incq	%r12
	cmpw	$0,2(%rcx)
	je	6f
	movq	184(%rcx,%rax,8),%rsi
	incq	%rdi
	incb	%r13b
	movq	%rax,%r15
	movq	%rcx,%r10
	movq	%rsi,%rcx
	movzwl	(%rsi),%esi
	testq	%rsi,%rsi
	jne	5b
	jmp	2b
7:
	andl	$15,%eax
	movq	40(%rsp),%rcx
	addq	%r12,%rcx
	cmpq	$15,%rcx
	leaq	184(%r10,%r15,8),%rcx
	leaq	192(%rsp),%rdx
	cmoveq	%rdx,%rcx
	movq	(%rcx),%rcx
	movzwl	(%rcx),%edx
	cmpq	%rdx,%rax
	movq	72(%rsp),%r15
	jae	1f
	movq	%r9,64(%rcx,%rax,8)
	movq	8(%rsp),%rbp
	movq	(%rsp),%r13
	movabsq	$10000000000000000,%rbx
2:
	movq	160(%rsp),%rax
	movq	168(%rsp),%rcx
	movq	%rcx,%rdx
	shlq	$6,%rdx
	movl	%r14d,(%rax,%rdx)
	movq	$1,16(%rax,%rdx)
	movq	$0,24(%rax,%rdx)
	movq	%r11,32(%rax,%rdx)
	movq	$0,40(%rax,%rdx)
	movq	$0,56(%rax,%rdx)
	movq	$1,48(%rax,%rdx)
	incq	%rcx
	movq	%rcx,168(%rsp)
	movb	$1,%sil
	movb	$1,%r10b
11:
	movq	80(%rsp),%r14
	jmp	3b
6:
	movabsq	$9223372036854775806,%rax
	cmpq	%rax,200(%rsp)
	ja	4f
	movq	%r12,%rax
	movq	104(%rsp),%rsi
	subq	%rsi,%rax
	movq	%rax,288(%rsp)
	cmpq	$1,%rax
	leaq	184(%r10,%r15,8),%rax
	leaq	192(%rsp),%rcx
	cmoveq	%rcx,%rax
	movq	(%rax),%rax
	cmpw	$15,(%rax)
	movq	%r11,32(%rsp)
	jb	3f
	cmpw	$15,(%rdx)
	movq	%rsi,%rax
	jb	5f
	cmpw	$10,40(%rsp)
	ja	4f
	movq	%rdi,%rbx
	movl	$312,%edi
	movl	$8,%esi
	movq	%r15,112(%rsp)
	movq	%r9,%r15
	movq	%r10,88(%rsp)
	callq	_rattle_alloc
	movq	88(%rsp),%r10
	movq	%r15,%r9
	movq	112(%rsp),%r15
	movq	32(%rsp),%r11
	testb	$1,%al
	je	4f
	movq	40(%rsp),%rcx
	leal	1(%rcx),%eax
	movw	%ax,2(%rdx)
	movq	192(%rsp),%rax
	movq	%rax,184(%rdx)
	movw	$0,(%rdx)
	movq	%rdx,192(%rsp)
	movl	$14,%eax
	subq	%rcx,%rax
	movq	%rbx,%rdi
	movabsq	$10000000000000000,%rbx
5:
	pxor	%xmm0,%xmm0
	movdqa	%xmm0,128(%rsp)
	movq	%r12,%rcx
	subq	%rax,%rcx
	movq	%rcx,288(%rsp)
	jbe	5f
	movl	%r12d,%ecx
	subl	%eax,%ecx
	testb	$3,%cl
	je	6f
	subb	%al,%r13b
	movzbl	%r13b,%ecx
	andl	$3,%ecx
7:
	movl	%ebp,%esi
	andb	$15,%sil
	movb	%sil,127(%rsp,%r12)
	decq	%r12
	shrq	$4,%rbp
	decq	%rcx
	jne	7b
6:
	addq	104(%rsp),%rdi
	subq	%rax,%rdi
	cmpq	$3,%rdi
	jb	5f
6:
	movl	%ebp,%ecx
	andb	$15,%cl
	movb	%cl,127(%rsp,%r12)
	movl	%ebp,%ecx
	shrb	$4,%cl
	movb	%cl,126(%rsp,%r12)
	movl	%ebp,%ecx
	shrl	$8,%ecx
	andb	$15,%cl
	movb	%cl,125(%rsp,%r12)
	movl	%ebp,%ecx
	shrl	$12,%ecx
	andb	$15,%cl
	movb	%cl,124(%rsp,%r12)
	addq	$-4,%r12
	shrq	$16,%rbp
	cmpq	%r12,%rax
	jb	6b
5:
	movdqa	128(%rsp),%xmm0
	movdqa	%xmm0,672(%rsp)
	movl	$16,%r13d
	subq	%rax,%r13
	cmpq	$2,%r13
	jb	5f
	leaq	(%rsp,%rax),%rbp
	addq	$672,%rbp
	leaq	192(%rsp),%r15
	movq	%r9,264(%rsp)
	jmp	6f
7:
	incl	%ecx
	movb	%cl,(%rbp)
	addb	$-8,%al
	movb	%al,1(%rbp)
11:
	movzbl	%cl,%ecx
	leaq	(%r10,%rcx,8),%r15
	addq	$184,%r15
	incq	%rbp
	cmpq	$2,%r13
	leaq	-1(%r13),%r13
	jbe	12f
6:
	movzbl	(%rbp),%ecx
	movq	(%r15),%r10
	leal	(,%rcx,8),%edx
	movq	184(%r10,%rdx),%rax
	cmpw	$15,(%rax)
	jb	11b
	movq	%rdx,104(%rsp)
	movq	%rcx,40(%rsp)
	movzwl	2(%r10),%ebx
	decq	%rbx
	movq	%r13,112(%rsp)
	movq	%rbp,120(%rsp)
	je	6f
	movl	$312,%edi
	jmp	13f
6:
	movl	$184,%edi
13:
	movl	$8,%esi
	callq	_rattle_alloc
	testb	$1,%al
	je	6f
	movq	%rdx,%r12
	movw	%bx,2(%rdx)
	leaq	4(%rdx),%rdi
	leaq	64(%rdx),%r9
	movq	%r15,312(%rsp)
	movq	(%r15),%rdx
	movq	%rdx,88(%rsp)
	movzwl	(%rdx),%eax
	xorl	%r8d,%r8d
	cmpw	$0,2(%rdx)
	movq	%rax,280(%rsp)
	leaq	1(%rax),%rcx
	cmovneq	%rcx,%r8
	movq	104(%rsp),%rax
	movq	184(%rdx,%rax),%rbp
	movzwl	2(%rbp),%r13d
	movzwl	(%rbp),%r11d
	leaq	-8(%r11),%rbx
	leaq	36(%rbp),%rsi
	leaq	-32(,%r11,4),%rdx
	movq	%rdi,%rax
	subq	%rsi,%rax
	cmpq	%rdx,%rax
	movq	%rcx,304(%rsp)
	movq	%r8,296(%rsp)
	movw	%r13w,272(%rsp)
	jae	13f
	testq	%rbx,%rbx
	je	15f
	cmpl	$8,%ebx
	jb	16f
	movq	%r12,%rax
	subq	%rbp,%rax
	addq	$-32,%rax
	cmpq	$32,%rax
	jae	17f
16:
	xorl	%eax,%eax
16:
	movq	%r11,%rdx
	movq	%rax,%rcx
	andq	$3,%rdx
	je	18f
	movq	%rax,%rcx
	.p2align	4
19:
	movl	(%rsi,%rcx,4),%r8d
	movl	%r8d,(%rdi,%rcx,4)
	incq	%rcx
	decq	%rdx
	jne	19b
18:
	negq	%rax
	addq	%r11,%rax
	addq	$-9,%rax
	cmpl	$3,%eax
	jb	18f
	.p2align	4
19:
	movl	36(%rbp,%rcx,4),%eax
	movl	%eax,4(%r12,%rcx,4)
	movl	40(%rbp,%rcx,4),%eax
	movl	%eax,8(%r12,%rcx,4)
	movl	44(%rbp,%rcx,4),%eax
	movl	%eax,12(%r12,%rcx,4)
	movl	48(%rbp,%rcx,4),%eax
	movl	%eax,16(%r12,%rcx,4)
	addq	$4,%rcx
	cmpq	%rcx,%rbx
	jne	19b
	jmp	18f
13:
	movq	%r11,%r15
	movq	%r9,%r13
	callq	_memmove
	movq	%r13,%r9
	movq	%r15,%r11
18:
	leaq	128(%rbp),%rsi
	leaq	(,%rbx,8),%rdx
	movq	%r9,%rax
	subq	%rsi,%rax
	cmpq	%rdx,%rax
	jae	13f
	testq	%rbx,%rbx
	movq	88(%rsp),%r10
	movzwl	272(%rsp),%r8d
	je	19f
	cmpl	$4,%ebx
	jb	20f
	movq	%r12,%rax
	subq	%rbp,%rax
	addq	$-64,%rax
	cmpq	$32,%rax
	jae	21f
20:
	xorl	%eax,%eax
20:
	movq	%r11,%rdx
	movq	%rax,%rcx
	andq	$3,%rdx
	je	22f
	movq	%rax,%rcx
	.p2align	4
23:
	movq	(%rsi,%rcx,8),%rdi
	movq	%rdi,(%r9,%rcx,8)
	incq	%rcx
	decq	%rdx
	jne	23b
22:
	negq	%rax
	addq	%r11,%rax
	addq	$-9,%rax
	cmpl	$3,%eax
	jb	19f
22:
	movq	128(%rbp,%rcx,8),%rax
	movq	%rax,64(%r12,%rcx,8)
	movq	136(%rbp,%rcx,8),%rax
	movq	%rax,72(%r12,%rcx,8)
	movq	144(%rbp,%rcx,8),%rax
	movq	%rax,80(%r12,%rcx,8)
	movq	152(%rbp,%rcx,8),%rax
	movq	%rax,88(%r12,%rcx,8)
	addq	$4,%rcx
	cmpq	%rcx,%rbx
	jne	22b
	jmp	19f
13:
	movq	%r11,%r15
	jmp	13f
15:
	movq	%r11,%r15
	leaq	128(%rbp),%rsi
	xorl	%edx,%edx
13:
	movq	%r9,%rdi
	callq	_memmove
	movq	88(%rsp),%r10
	movq	%r15,%r11
	movzwl	272(%rsp),%r8d
19:
	movq	%rbx,%r15
	movl	32(%rbp),%r13d
	movq	120(%rbp),%r9
	testw	%r8w,%r8w
	je	13f
	leaq	184(%r12),%rdi
	leaq	248(%rbp),%rsi
	leaq	-56(,%r11,8),%rdx
	movq	%rdi,%rax
	subq	%rsi,%rax
	cmpq	%rdx,%rax
	jae	15f
	movq	%r11,%rax
	addq	$-7,%rax
	je	13f
	cmpl	$4,%eax
	jb	22f
	movq	%r12,%rcx
	subq	%rbp,%rcx
	addq	$-64,%rcx
	cmpq	$32,%rcx
	jae	23f
22:
	xorl	%ecx,%ecx
22:
	movq	%r9,%rbx
	movl	%r11d,%r8d
	notl	%r8d
	movq	%rcx,%rdx
	testb	$3,%r8b
	je	24f
	leal	1(%r11),%r8d
	andl	$3,%r8d
	movq	%rcx,%rdx
25:
	movq	(%rsi,%rdx,8),%r9
	movq	%r9,(%rdi,%rdx,8)
	incq	%rdx
	decq	%r8
	jne	25b
24:
	negq	%rcx
	addq	%r11,%rcx
	addq	$-8,%rcx
	cmpl	$3,%ecx
	movq	%rbx,%r9
	jb	13f
24:
	movq	248(%rbp,%rdx,8),%rcx
	movq	%rcx,184(%r12,%rdx,8)
	movq	256(%rbp,%rdx,8),%rcx
	movq	%rcx,192(%r12,%rdx,8)
	movq	264(%rbp,%rdx,8),%rcx
	movq	%rcx,200(%r12,%rdx,8)
	movq	272(%rbp,%rdx,8),%rcx
	movq	%rcx,208(%r12,%rdx,8)
	addq	$4,%rdx
	cmpq	%rdx,%rax
	jne	24b
	jmp	13f
15:
	movq	%r9,%rbx
	callq	_memmove
	movq	%rbx,%r9
	movq	88(%rsp),%r10
13:
	leaq	184(%r10),%rsi
	leaq	64(%r10),%rbx
	leaq	4(%r10),%rax
	movw	$7,(%rbp)
	movw	%r15w,(%r12)
	movq	40(%rsp),%rcx
	movq	%rbp,(%rsi,%rcx,8)
	leaq	(%rax,%rcx,4),%r15
	movq	280(%rsp),%rbp
	cmpl	%ecx,%ebp
	jne	15f
	movl	%r13d,(%r15)
	jmp	24f
15:
	leaq	4(%r15),%rdi
	subq	%rcx,%rbp
	leaq	(,%rbp,4),%rdx
	movq	%rsi,280(%rsp)
	movq	%r15,%rsi
	movq	%r9,272(%rsp)
	callq	_memmove
	movl	%r13d,(%r15)
	movq	104(%rsp),%rax
	leaq	(%rbx,%rax),%rsi
	leaq	(%rbx,%rax),%rdi
	addq	$8,%rdi
	shlq	$3,%rbp
	movq	%rbp,%rdx
	callq	_memmove
	movq	280(%rsp),%rsi
	movq	272(%rsp),%r9
	movq	40(%rsp),%rcx
24:
	movq	112(%rsp),%r13
	movq	120(%rsp),%rbp
	movq	296(%rsp),%rdx
	movq	%r9,(%rbx,%rcx,8)
	movq	%rcx,%rax
	incq	%rax
	cmpl	%eax,%edx
	jne	15f
	shll	$3,%edx
	jmp	24f
15:
	leal	(,%rax,8),%ebx
	leaq	(%rsi,%rbx),%rdi
	addq	$8,%rdi
	addq	%rbx,%rsi
	subq	%rax,%rdx
	shlq	$3,%rdx
	callq	_memmove
	movq	40(%rsp),%rcx
	movq	%rbx,%rdx
24:
	movabsq	$10000000000000000,%rbx
	movq	32(%rsp),%r11
	movq	264(%rsp),%r9
	movq	88(%rsp),%r10
	movq	304(%rsp),%rax
	movq	%r12,184(%r10,%rdx)
	movw	%ax,(%r10)
	movq	312(%rsp),%rax
	movq	%r10,(%rax)
	movzbl	1(%rbp),%eax
	cmpb	$7,%al
	ja	7b
	movzbl	(%rbp),%ecx
	jmp	11b
17:
	movq	%rbx,%rax
	andq	$-8,%rax
	xorl	%ecx,%ecx
7:
	movdqu	36(%rbp,%rcx,4),%xmm0
	movdqu	52(%rbp,%rcx,4),%xmm1
	movdqu	%xmm0,4(%r12,%rcx,4)
	movdqu	%xmm1,20(%r12,%rcx,4)
	addq	$8,%rcx
	cmpq	%rcx,%rax
	jne	7b
	cmpl	%eax,%ebx
	je	18b
	jmp	16b
21:
	movq	%rbx,%rax
	andq	$-4,%rax
	xorl	%ecx,%ecx
7:
	movdqu	128(%rbp,%rcx,8),%xmm0
	movdqu	144(%rbp,%rcx,8),%xmm1
	movdqu	%xmm0,64(%r12,%rcx,8)
	movdqu	%xmm1,80(%r12,%rcx,8)
	addq	$4,%rcx
	cmpq	%rcx,%rax
	jne	7b
	cmpl	%eax,%ebx
	je	19b
	jmp	20b
23:
	movq	%rax,%rcx
	andq	$-4,%rcx
	xorl	%edx,%edx
7:
	movdqu	248(%rbp,%rdx,8),%xmm0
	movdqu	264(%rbp,%rdx,8),%xmm1
	movdqu	%xmm0,184(%r12,%rdx,8)
	movdqu	%xmm1,200(%r12,%rdx,8)
	addq	$4,%rdx
	cmpq	%rdx,%rcx
	jne	7b
	cmpl	%ecx,%eax
	je	13b
	jmp	22b
12:
	movq	192(%rsp),%rdx
	movq	%rcx,%r15
5:
	cmpw	$0,(%rdx)
	je	5f
	cmpb	$1,184(%rsp)
	jne	1f
	movzbl	687(%rsp),%ebp
3:
	shlq	$3,%r15
	cmpq	$1,288(%rsp)
	leaq	184(%r10,%r15),%rcx
	leaq	192(%rsp),%rax
	cmoveq	%rax,%rcx
	andl	$15,%ebp
	movq	(%rcx),%r13
	movzwl	(%r13),%edx
	movq	%rdx,%r12
	movl	%ebp,%eax
	leaq	4(,%rax,4),%r15
	addq	%r13,%r15
	subq	%rbp,%r12
	jne	3f
	movl	%r14d,(%r15)
	shll	$3,%ebp
	jmp	7f
3:
	leaq	4(%r15),%rdi
	movq	%rdx,40(%rsp)
	leaq	(,%r12,4),%rdx
	movq	%r15,%rsi
	movq	%r9,264(%rsp)
	movq	%rcx,104(%rsp)
	callq	_memmove
	movl	%r14d,(%r15)
	shll	$3,%ebp
	leaq	64(%r13),%rsi
	leaq	(%rsi,%rbp),%rdi
	addq	$8,%rdi
	addq	%rbp,%rsi
	shlq	$3,%r12
	movq	%r12,%rdx
	callq	_memmove
	movq	40(%rsp),%rdx
	movq	104(%rsp),%rcx
	movq	264(%rsp),%r9
	movq	32(%rsp),%r11
7:
	movq	72(%rsp),%r15
	incl	%edx
	movq	%r9,64(%r13,%rbp)
	movw	%dx,(%r13)
	movq	%r13,(%rcx)
	incq	200(%rsp)
	movq	8(%rsp),%rbp
	movq	(%rsp),%r13
	jmp	2b
9:
	cmpb	$1,592(%rsp)
	jne	2f
	movq	608(%rsp),%rbx
	movq	616(%rsp),%rcx
	movq	624(%rsp),%rax
	movq	%rax,8(%rsp)
	movq	%rcx,(%rsp)
	testq	%rcx,%rcx
	je	3f
	xorl	%r13d,%r13d
	jmp	7f
	.p2align	4
9:
	incq	%r13
	cmpq	(%rsp),%r13
	je	3f
7:
	leaq	(,%r13,2),%rax
	addq	%r13,%rax
	movq	(%rbx,%rax,8),%r14
	movq	8(%rbx,%rax,8),%r15
	movq	16(%rbx,%rax,8),%rbp
	testq	%r15,%r15
	je	7f
	leaq	16(%r14),%r12
	jmp	11f
	.p2align	4
12:
	addq	$32,%r12
	decq	%r15
	je	7f
11:
	cmpq	$0,(%r12)
	je	12b
	movq	-16(%r12),%rdi
	callq	_rattle_dealloc
	jmp	12b
	.p2align	4
7:
	testq	%rbp,%rbp
	je	9b
	movq	%r14,%rdi
	callq	_rattle_dealloc
	jmp	9b
3:
	cmpq	$0,8(%rsp)
	je	2f
	movq	%rbx,%rdi
	callq	_rattle_dealloc
2:
	cmpq	$0,64(%rsp)
	je	2f
	leaq	16(%rsp),%rdi
3:
	callq	_rattle_dealloc
2:
	movzbl	184(%rsp),%ebp
	movq	192(%rsp),%rbx
	movq	216(%rsp),%r14
	movq	232(%rsp),%r15
	cmpq	$0,176(%rsp)
	je	7f
	movq	160(%rsp),%rdi
	callq	_rattle_dealloc
7:
	cmpb	$1,%bpl
	jne	7f
	movq	%rbx,%rdi
	callq	_rtp_std_collections.btree.node.Node.destroy.2fe7f96373f75378
7:
	movb	$1,%bl
	movb	$2,%dl
	testq	%r15,%r15
	je	7f
	movq	%r14,%rdi
	callq	_rattle_dealloc
	movb	$2,%dl
	jmp	7f
10:
	movq	$0,256(%rsp)
	xorl	%esi,%esi
14:
	movq	%r15,%rdi
	callq	_rtp_listing.printing.write_text.df9e9f1468b30f79
	movl	%eax,%ebp
	movzbl	%dl,%eax
	testb	$1,%bpl
	movq	256(%rsp),%rcx
	cmovnel	%eax,%ecx
	movq	%rcx,256(%rsp)
	movq	%r15,%rdi
	callq	_rattle_dealloc
	movzbl	592(%rsp),%eax
	testb	%bpl,%bpl
	je	9f
	cmpb	$1,%al
	jne	10f
	movq	608(%rsp),%rbx
	movq	616(%rsp),%rcx
	movq	624(%rsp),%rax
	movq	%rax,8(%rsp)
	movq	%rcx,(%rsp)
	testq	%rcx,%rcx
	je	11f
	xorl	%r13d,%r13d
	jmp	12f
	.p2align	4
13:
	incq	%r13
	cmpq	(%rsp),%r13
	je	11f
12:
	leaq	(,%r13,2),%rax
	addq	%r13,%rax
	movq	(%rbx,%rax,8),%r14
	movq	8(%rbx,%rax,8),%r15
	movq	16(%rbx,%rax,8),%rbp
	testq	%r15,%r15
	je	12f
	leaq	16(%r14),%r12
	jmp	14f
	.p2align	4
15:
	addq	$32,%r12
	decq	%r15
	je	12f
14:
	cmpq	$0,(%r12)
	je	15b
	movq	-16(%r12),%rdi
	callq	_rattle_dealloc
	jmp	15b
	.p2align	4
12:
	testq	%rbp,%rbp
	je	13b
	movq	%r14,%rdi
	callq	_rattle_dealloc
	jmp	13b
9:
	cmpb	$1,%al
	jne	9f
	movq	608(%rsp),%rax
	movq	%rax,640(%rsp)
	movdqu	616(%rsp),%xmm0
	movdqu	%xmm0,648(%rsp)
	leaq	640(%rsp),%rdi
	callq	_rtp_std_alloc.vec.Vec.drop.96fc43e7743eb198
9:
	cmpq	$0,64(%rsp)
	je	9f
	movq	48(%rsp),%rdi
	callq	_rattle_dealloc
9:
	movzbl	184(%rsp),%ebp
	movq	192(%rsp),%r14
	movq	216(%rsp),%rbx
	movq	232(%rsp),%r15
	cmpq	$0,176(%rsp)
	je	9f
	movq	160(%rsp),%rdi
	callq	_rattle_dealloc
9:
	cmpb	$1,%bpl
	jne	9f
	movq	%r14,%rdi
	callq	_rtp_std_collections.btree.node.Node.destroy.2fe7f96373f75378
9:
	testq	%r15,%r15
	je	9f
	movq	%rbx,%rdi
	callq	_rattle_dealloc
9:
	xorl	%edx,%edx
	xorl	%ebx,%ebx
	jmp	7f
11:
	cmpq	$0,8(%rsp)
	je	10f
	movq	%rbx,%rdi
	callq	_rattle_dealloc
10:
	cmpq	$0,64(%rsp)
	je	9f
	movq	48(%rsp),%rdi
	callq	_rattle_dealloc
9:
	movzbl	184(%rsp),%ebp
	movq	192(%rsp),%rbx
	movq	216(%rsp),%r14
	movq	232(%rsp),%r15
	cmpq	$0,176(%rsp)
	je	9f
	movq	160(%rsp),%rdi
	callq	_rattle_dealloc
9:
	cmpb	$1,%bpl
	jne	9f
	movq	%rbx,%rdi
	callq	_rtp_std_collections.btree.node.Node.destroy.2fe7f96373f75378
9:
	movb	$1,%bl
	testq	%r15,%r15
	je	9f
	movq	%r14,%rdi
	callq	_rattle_dealloc
9:
	movq	256(%rsp),%rax
	movl	%eax,%edx
	jmp	7f
8:
	movl	%edx,8(%rsp)
	movq	%r15,%rdi
	callq	_rattle_dealloc
	cmpb	$1,592(%rsp)
	jne	8f
	movq	608(%rsp),%rbx
	movq	616(%rsp),%rcx
	movq	624(%rsp),%rax
	movq	%rax,96(%rsp)
	movq	%rcx,(%rsp)
	testq	%rcx,%rcx
	je	9f
	xorl	%r13d,%r13d
	jmp	10f
	.p2align	4
11:
	incq	%r13
	cmpq	(%rsp),%r13
	je	9f
10:
	leaq	(,%r13,2),%rax
	addq	%r13,%rax
	movq	(%rbx,%rax,8),%r14
	movq	8(%rbx,%rax,8),%rbp
	movq	16(%rbx,%rax,8),%r15
	testq	%rbp,%rbp
	je	10f
	leaq	16(%r14),%r12
	jmp	12f
	.p2align	4
13:
	addq	$32,%r12
	decq	%rbp
	je	10f
12:
	cmpq	$0,(%r12)
	je	13b
	movq	-16(%r12),%rdi
	callq	_rattle_dealloc
	jmp	13b
	.p2align	4
10:
	testq	%r15,%r15
	je	11b
	movq	%r14,%rdi
	callq	_rattle_dealloc
	jmp	11b
6:
	movq	192(%rsp),%rdx
	cmpw	$0,(%rdx)
	jne	4f
5:
	cmpw	$0,2(%rdx)
	je	4f
	movq	184(%rdx),%rbx
	movq	%rdx,%rdi
	callq	_rattle_dealloc
	movq	%rbx,192(%rsp)
4:
	movq	72(%rsp),%rbx
	movq	%rbx,%rdi
	movq	80(%rsp),%rsi
	callq	_rtp_listing.printing.write_text.df9e9f1468b30f79
	movl	%eax,%ebp
	movzbl	%dl,%eax
	xorl	%ecx,%ecx
	testb	$1,%bpl
	cmovnel	%eax,%ecx
	movl	%ecx,8(%rsp)
	movq	%rbx,%rdi
	callq	_rattle_dealloc
	movzbl	592(%rsp),%eax
	movq	608(%rsp),%rbx
	movq	616(%rsp),%rcx
	movq	%rcx,(%rsp)
	movq	624(%rsp),%rcx
	testb	%bpl,%bpl
	je	4f
	cmpb	$1,%al
	jne	8f
	movq	%rcx,96(%rsp)
	cmpq	$0,(%rsp)
	je	9f
	xorl	%ebp,%ebp
	jmp	5f
6:
	incq	%rbp
	cmpq	(%rsp),%rbp
	je	9f
5:
	leaq	(,%rbp,2),%rax
	addq	%rbp,%rax
	movq	(%rbx,%rax,8),%r14
	movq	8(%rbx,%rax,8),%r15
	movq	16(%rbx,%rax,8),%r12
	testq	%r15,%r15
	je	5f
	leaq	16(%r14),%r13
	jmp	10f
	.p2align	4
11:
	addq	$32,%r13
	decq	%r15
	je	5f
10:
	cmpq	$0,(%r13)
	je	11b
	movq	-16(%r13),%rdi
	callq	_rattle_dealloc
	jmp	11b
5:
	testq	%r12,%r12
	je	6b
	movq	%r14,%rdi
	callq	_rattle_dealloc
	jmp	6b
9:
	cmpq	$0,96(%rsp)
	je	8f
	movq	%rbx,%rdi
	callq	_rattle_dealloc
8:
	cmpq	$0,64(%rsp)
	je	5f
	movq	48(%rsp),%rdi
	callq	_rattle_dealloc
5:
	movzbl	184(%rsp),%ebp
	movq	192(%rsp),%rbx
	movq	216(%rsp),%r14
	movq	232(%rsp),%r15
	cmpq	$0,176(%rsp)
	je	5f
	movq	160(%rsp),%rdi
	callq	_rattle_dealloc
5:
	cmpb	$1,%bpl
	jne	5f
	movq	%rbx,%rdi
	callq	_rtp_std_collections.btree.node.Node.destroy.2fe7f96373f75378
5:
	movb	$1,%bl
	testq	%r15,%r15
	je	5f
	movq	%r14,%rdi
	callq	_rattle_dealloc
5:
	movl	8(%rsp),%edx
7:
	movl	%ebx,%eax
	addq	$696,%rsp
	popq	%rbx
	popq	%r12
	popq	%r13
	popq	%r14
	popq	%r15
	popq	%rbp
	retq
4:
	cmpb	$1,%al
	jne	4f
	movq	%rcx,96(%rsp)
	cmpq	$0,(%rsp)
	je	5f
	xorl	%r15d,%r15d
	jmp	6f
7:
	incq	%r15
	cmpq	(%rsp),%r15
	je	5f
6:
	leaq	(%r15,%r15,2),%rax
	movq	(%rbx,%rax,8),%r14
	movq	8(%rbx,%rax,8),%rbp
	movq	16(%rbx,%rax,8),%r12
	testq	%rbp,%rbp
	je	6f
	leaq	16(%r14),%r13
	jmp	8f
	.p2align	4
9:
	addq	$32,%r13
	decq	%rbp
	je	6f
8:
	cmpq	$0,(%r13)
	je	9b
	movq	-16(%r13),%rdi
	callq	_rattle_dealloc
	jmp	9b
6:
	testq	%r12,%r12
	je	7b
	movq	%r14,%rdi
	callq	_rattle_dealloc
	jmp	7b
5:
	cmpq	$0,96(%rsp)
	je	4f
	movq	%rbx,%rdi
	callq	_rattle_dealloc
4:
	cmpq	$0,64(%rsp)
	je	2b
	movq	48(%rsp),%rdi
	jmp	3b
1:
	ud2
	.cfi_endproc

	.section	__TEXT,__literal16,16byte_literals
	.p2align	4,0x0
1:
	.space	16,32
	.section	__TEXT,__text,regular,pure_instructions
	.p2align	4
_rtp_ext.block_values.read_values.77e50c5f4ddfc773:
	.cfi_startproc
	pushq	%rbp
	.cfi_def_cfa_offset 16
	pushq	%r15
	.cfi_def_cfa_offset 24
	pushq	%r14
	.cfi_def_cfa_offset 32
	pushq	%r13
	.cfi_def_cfa_offset 40
	pushq	%r12
	.cfi_def_cfa_offset 48
	pushq	%rbx
	.cfi_def_cfa_offset 56
	subq	$184,%rsp
	.cfi_def_cfa_offset 240
	.cfi_offset %rbx,-56
	.cfi_offset %r12,-48
	.cfi_offset %r13,-40
	.cfi_offset %r14,-32
	.cfi_offset %r15,-24
	.cfi_offset %rbp,-16
	movq	%r8,%r13
	movq	%rsi,%rax
	movq	%rdi,%r14
	testb	%cl,%cl
	je	2f
	testq	%rdx,%rdx
	je	3f
	leaq	151(%r13),%r12
	jmp	4f
2:
	testq	%rdx,%rdx
	je	3f
	leaq	151(%r13),%rbp
	jmp	2f
5:
	movq	%rdx,%rbx
	leaq	16(%rsp),%rdi
	movq	%r15,%rdx
	callq	_rtp_core.str.utf8.from_utf8
	cmpb	$0,16(%rsp)
	je	6f
7:
	movq	%rbx,%rdx
	movq	%r12,%r13
	movq	(%rsp),%r12
	.p2align	4
8:
	movq	%rbp,%rax
	testq	%rdx,%rdx
	je	3f
4:
	cmpb	$0,(%rax)
	jne	4f
	cmpq	$2,%rdx
	je	9f
	cmpq	$1,%rdx
	je	3f
	cmpq	$3,%rdx
	ja	10f
	cmpb	$0,1(%rax)
	jne	10f
	cmpb	$0,2(%rax)
	jne	10f
	jmp	3f
9:
	cmpb	$0,1(%rax)
	je	3f
10:
	decq	%rdx
	incq	%rax
	movq	%rax,%rdi
	movq	%rdx,%rsi
	callq	_rtp_ext.elements.skip_zeros
	testq	%rdx,%rdx
	je	3f
4:
	cmpq	$2,%rdx
	jb	3f
	movzbl	1(%rax),%r15d
	leaq	2(%r15),%rbp
	subq	%rbp,%rdx
	jb	3f
	movzbl	(%rax),%ecx
	addq	%rax,%rbp
	cmpb	$1,10202(%r14,%rcx,2)
	jne	8b
	leaq	2(%rax),%r8
	movzbl	10203(%r14,%rcx,2),%ecx
	leaq	4f(%rip),%rsi
	movslq	(%rsi,%rcx,4),%rcx
	addq	%rsi,%rcx
	jmpq	*%rcx
9:
	cmpb	$3,%r15b
	jb	8b
	movzbl	2(%rax),%ecx
	movzwl	3(%rax),%eax
	shll	$16,%eax
	shll	$8,%ecx
	orl	%eax,%ecx
	bswapl	%ecx
	imulq	$1000000,%rcx,%rax
	shrq	$18,%rax
	movq	$1,16(%r13)
	movq	%rax,24(%r13)
	jmp	8b
10:
	cmpb	$2,%r15b
	jae	11f
	movq	%rdx,%rbx
	jmp	12f
13:
	movq	%r8,%rsi
	movq	%r12,(%rsp)
	movq	%r13,%r12
	pxor	%xmm0,%xmm0
	movdqa	%xmm0,16(%rsp)
	movq	$0,32(%rsp)
	cmpb	$8,%r15b
	ja	5b
	testq	%r15,%r15
	je	14f
	movsbq	(%rsi),%rcx
	testq	%rcx,%rcx
	js	5b
	movabsq	$2305843009213693952,%rdi
	leaq	lrtp__static.37(%rip),%r13
	movzbl	(%rcx,%r13),%ecx
	movq	%rcx,56(%rsp)
	movb	$32,%r8b
	cmpl	$1,%r15d
	jne	15f
	movb	$32,%bl
	movb	$32,%r11b
	movb	$32,%r10b
	movb	$32,%r9b
	movb	$32,%cl
	jmp	16f
17:
	cmpb	$4,%r15b
	jb	8b
	movl	(%r8),%eax
	bswapl	%eax
	movl	$1,8(%r13)
	movl	%eax,12(%r13)
	jmp	8b
18:
	xorps	%xmm0,%xmm0
	movaps	%xmm0,128(%rsp)
	movaps	%xmm0,80(%rsp)
	movaps	%xmm0,144(%rsp)
	movaps	%xmm0,16(%rsp)
	movq	$0,32(%rsp)
	movaps	%xmm0,160(%rsp)
	movdqa	1b(%rip),%xmm0
	movdqa	%xmm0,96(%rsp)
	cmpb	$16,%r15b
	ja	19f
	testq	%r15,%r15
	je	20f
	xorl	%eax,%eax
	.p2align	4
21:
	movsbq	(%r8,%rax),%rcx
	testq	%rcx,%rcx
	js	19f
	leaq	lrtp__static.37(%rip),%rsi
	movzbl	(%rcx,%rsi),%ecx
	movb	%cl,96(%rsp,%rax)
	incq	%rax
	cmpq	%rax,%r15
	jne	21b
20:
	movaps	96(%rsp),%xmm0
	jmp	20f
21:
	cmpb	$9,%r15b
	jb	8b
	movzbl	2(%rax),%ecx
	movq	3(%rax),%xmm0
	movdqa	%xmm0,%xmm1
	psrlw	$8,%xmm1
	psllw	$8,%xmm0
	por	%xmm1,%xmm0
	movw	$1,120(%r13)
	movb	%cl,122(%r13)
	movb	$0,123(%r13)
	movq	%xmm0,124(%r13)
	jmp	8b
22:
	cmpb	$8,%r15b
	jb	8b
	cmpb	$16,%r15b
	jb	23f
	movq	10(%rax),%rax
	bswapq	%rax
	jmp	24f
25:
	testq	%r15,%r15
	je	8b
	movzbl	(%r8),%eax
	movl	%eax,%ecx
	andb	$127,%cl
	negb	%cl
	movb	$1,(%r13)
	movb	%cl,1(%r13)
	shrb	$7,%al
	movb	$1,2(%r13)
	movb	%al,3(%r13)
	jmp	8b
26:
	cmpb	$3,%r15b
	jb	8b
	movzbl	2(%rax),%ecx
	movzwl	3(%rax),%eax
	shll	$16,%eax
	shll	$8,%ecx
	orl	%eax,%ecx
	bswapl	%ecx
	movl	%ecx,%eax
	shrl	$12,%eax
	andl	$4095,%ecx
	movq	$1,72(%r13)
	movq	%rax,80(%r13)
	movq	$100,88(%r13)
	movq	$1,96(%r13)
	movq	%rcx,104(%r13)
	movq	$100,112(%r13)
	jmp	8b
27:
	testq	%r15,%r15
	je	8b
	movzbl	(%r8),%eax
	andb	$3,%al
	movb	$1,4(%r13)
	movb	%al,5(%r13)
	jmp	8b
28:
	cmpb	$4,%r15b
	jb	8b
	movl	(%r8),%eax
	bswapl	%eax
	movl	$1,168(%r13)
	movl	%eax,172(%r13)
	jmp	8b
29:
	cmpb	$2,%r15b
	jb	8b
	movzwl	(%r8),%eax
	rolw	$8,%ax
	movw	$1,64(%r13)
	movw	%ax,66(%r13)
	jmp	8b
30:
	movq	%r8,%rsi
	movq	%r12,(%rsp)
	movq	%r13,%r12
	pxor	%xmm0,%xmm0
	movdqa	%xmm0,16(%rsp)
	movq	$0,32(%rsp)
	cmpb	$8,%r15b
	ja	31f
	testq	%r15,%r15
	je	32f
	movsbq	(%rsi),%rcx
	testq	%rcx,%rcx
	js	31f
	movabsq	$2305843009213693952,%rdi
	leaq	lrtp__static.37(%rip),%r13
	movzbl	(%rcx,%r13),%ecx
	movq	%rcx,56(%rsp)
	movb	$32,%r8b
	cmpl	$1,%r15d
	jne	33f
	movb	$32,%bl
	movb	$32,%r11b
	movb	$32,%r10b
	movb	$32,%r9b
	movb	$32,%cl
	jmp	34f
35:
	testq	%r15,%r15
	je	8b
	movzbl	(%r8),%eax
	movb	$1,6(%r13)
	movb	%al,7(%r13)
	jmp	8b
19:
	movq	%rdx,%rbx
	leaq	16(%rsp),%rdi
	movq	%r8,%rsi
	movq	%r15,%rdx
	callq	_rtp_core.str.utf8.from_utf8
	cmpb	$0,16(%rsp)
	je	19f
	movdqa	144(%rsp),%xmm0
	movdqa	%xmm0,128(%rsp)
	movq	%rbx,%rdx
	jmp	8b
11:
	testq	%rdx,%rdx
	je	11f
	movq	%r14,40(%rsp)
	movq	%r13,48(%rsp)
	movq	%rdx,%r13
	movq	%r12,(%rsp)
36:
	cmpb	$0,(%rbp)
	movq	%rbp,%r14
	jne	37f
	cmpq	$2,%rdx
	je	38f
	cmpq	$1,%rdx
	movq	48(%rsp),%r13
	movq	40(%rsp),%r14
	je	11f
	cmpq	$3,%rdx
	ja	39f
	cmpb	$0,1(%rbp)
	jne	39f
	cmpb	$0,2(%rbp)
	jne	39f
	jmp	11f
38:
	cmpb	$0,1(%rbp)
	movq	48(%rsp),%r13
	movq	40(%rsp),%r14
	je	11f
39:
	movq	%r8,%r12
	movq	%rdx,%rbx
	leaq	-1(%rdx),%rsi
	leaq	1(%rbp),%rdi
	callq	_rtp_ext.elements.skip_zeros
	testq	%rdx,%rdx
	je	38f
	movq	%rax,%r14
	movq	%rdx,%r13
	movq	%rbx,%rdx
	movq	%r12,%r8
	movq	(%rsp),%r12
37:
	cmpq	$2,%r13
	jb	37f
	movzbl	1(%r14),%ebx
	leaq	2(%rbx),%r12
	cmpq	%r12,%r13
	jb	39f
	movzbl	(%r14),%eax
	movq	40(%rsp),%rcx
	cmpb	$1,10202(%rcx,%rax,2)
	jne	40f
	cmpb	$14,10203(%rcx,%rax,2)
	jne	41f
	leaq	(%r14,%r12),%rbp
	addq	$2,%r14
	movq	%r14,%rdi
	movq	%rbx,%rsi
	movq	%r8,56(%rsp)
	callq	_rtp_ext.block_values.is_another_allocation
	movq	56(%rsp),%r8
	testb	%al,%al
	cmovneq	%rbx,%r15
	cmovneq	%r14,%r8
	subq	%r12,%r13
	movq	%r13,%rdx
	movq	(%rsp),%r12
	jne	36b
37:
	xorl	%ebx,%ebx
	movq	48(%rsp),%r13
	movq	40(%rsp),%r14
	jmp	36f
11:
	xorl	%ebx,%ebx
36:
	leaq	lrtp__static.5(%rip),%rbp
12:
	movq	%r13,%rdi
	movq	%r8,%rsi
	movq	%r15,%rdx
	callq	_rtp_values.value.set_values.ExtensionValuesSetValues.read_layers
	testb	%al,%al
	movq	%rbx,%rdx
	je	8b
	jmp	11f
6:
	movabsq	$2314885530818453536,%rsi
	movq	24(%rsp),%rax
	movq	32(%rsp),%rcx
	movq	%rsi,64(%rsp)
	testq	%rcx,%rcx
	movq	%rbx,%rdx
	movq	%r12,%r13
	movq	(%rsp),%r12
	je	6f
	movl	$1,%esi
	xorl	%edi,%edi
	.p2align	4
37:
	movzbl	-1(%rax,%rsi),%r8d
	cmpb	$-64,%r8b
	jl	42f
	leaq	lrtp__static.37(%rip),%r9
	movzbl	(%r8,%r9),%r8d
	movb	%r8b,64(%rsp,%rdi)
	incq	%rdi
42:
	cmpq	%rcx,%rsi
	jae	42f
	incq	%rsi
	cmpq	$8,%rdi
	jne	37b
42:
	movq	64(%rsp),%rsi
	jmp	6f
23:
	xorl	%eax,%eax
24:
	movq	(%r8),%rcx
	bswapq	%rcx
	xorl	%esi,%esi
	cmpb	$16,%r15b
	setae	%sil
	movq	$1,32(%r13)
	movq	%rcx,40(%r13)
	movq	%rsi,48(%r13)
	movq	%rax,56(%r13)
	jmp	8b
19:
	movq	24(%rsp),%rax
	movq	32(%rsp),%rcx
	movdqa	1b(%rip),%xmm0
	movdqa	%xmm0,64(%rsp)
	testq	%rcx,%rcx
	movq	%rbx,%rdx
	je	19f
	movl	$1,%esi
	xorl	%edi,%edi
	.p2align	4
23:
	movzbl	-1(%rax,%rsi),%r8d
	cmpb	$-64,%r8b
	jl	24f
	leaq	lrtp__static.37(%rip),%r9
	movzbl	(%r8,%r9),%r8d
	movb	%r8b,64(%rsp,%rdi)
	incq	%rdi
24:
	cmpq	%rcx,%rsi
	jae	19f
	incq	%rsi
	cmpq	$16,%rdi
	jne	23b
19:
	movaps	64(%rsp),%xmm0
20:
	movaps	%xmm0,80(%rsp)
	movaps	80(%rsp),%xmm0
	movaps	%xmm0,128(%rsp)
	movb	$1,150(%r13)
	movdqa	128(%rsp),%xmm0
	movdqu	%xmm0,(%r12)
	jmp	8b
14:
	movabsq	$2314885530818453536,%rsi
	jmp	14f
32:
	movabsq	$2314885530818453536,%rsi
	jmp	19f
15:
	movsbq	3(%rax),%rcx
	testq	%rcx,%rcx
	js	5b
	movzbl	(%rcx,%r13),%ecx
	cmpl	$2,%r15d
	jne	15f
	movb	$32,%bl
	movb	$32,%r11b
	movb	$32,%r10b
	movb	$32,%r9b
	jmp	16f
33:
	movsbq	3(%rax),%rcx
	testq	%rcx,%rcx
	js	31f
	movzbl	(%rcx,%r13),%ecx
	cmpl	$2,%r15d
	jne	20f
	movb	$32,%bl
	movb	$32,%r11b
	movb	$32,%r10b
	movb	$32,%r9b
	jmp	34f
39:
	xorl	%ebx,%ebx
	movq	48(%rsp),%r13
	movq	40(%rsp),%r14
	movq	(%rsp),%r12
	jmp	36b
15:
	movsbq	4(%rax),%r9
	testq	%r9,%r9
	js	5b
	movzbl	(%r9,%r13),%r9d
	cmpl	$3,%r15d
	jne	15f
	movb	$32,%bl
	movb	$32,%r11b
	movb	$32,%r10b
	jmp	16f
20:
	movsbq	4(%rax),%r9
	testq	%r9,%r9
	js	31f
	movzbl	(%r9,%r13),%r9d
	cmpl	$3,%r15d
	jne	20f
	movb	$32,%bl
	movb	$32,%r11b
	movb	$32,%r10b
	jmp	34f
41:
	movq	%rdx,%rbx
	movq	48(%rsp),%r13
	movq	40(%rsp),%r14
	movq	(%rsp),%r12
	jmp	12b
40:
	movq	%rdx,%rbx
	movq	48(%rsp),%r13
	movq	%rcx,%r14
	movq	(%rsp),%r12
	jmp	12b
38:
	xorl	%ebx,%ebx
	movq	48(%rsp),%r13
	movq	40(%rsp),%r14
	movq	%r12,%r8
	movq	(%rsp),%r12
	jmp	36b
15:
	movsbq	5(%rax),%r10
	testq	%r10,%r10
	js	5b
	movzbl	(%r10,%r13),%r10d
	cmpl	$4,%r15d
	jne	12f
	movb	$32,%bl
	movb	$32,%r11b
	jmp	16f
20:
	movsbq	5(%rax),%r10
	testq	%r10,%r10
	js	31f
	movzbl	(%r10,%r13),%r10d
	cmpl	$4,%r15d
	jne	15f
	movb	$32,%bl
	movb	$32,%r11b
	jmp	34f
12:
	movsbq	6(%rax),%r11
	testq	%r11,%r11
	js	5b
	movzbl	(%r11,%r13),%r11d
	cmpl	$5,%r15d
	jne	12f
	movb	$32,%bl
	jmp	16f
15:
	movsbq	6(%rax),%r11
	testq	%r11,%r11
	js	31f
	movzbl	(%r11,%r13),%r11d
	cmpl	$5,%r15d
	jne	15f
	movb	$32,%bl
	jmp	34f
12:
	movsbq	7(%rax),%rbx
	testq	%rbx,%rbx
	js	5b
	movq	%rdx,8(%rsp)
	movzbl	(%rbx,%r13),%ebx
	cmpl	$6,%r15d
	je	12f
	movsbq	8(%rax),%r8
	testq	%r8,%r8
	movq	8(%rsp),%rdx
	js	5b
	movzbl	(%r8,%r13),%r8d
	cmpl	$7,%r15d
	jne	20f
12:
	movq	8(%rsp),%rdx
16:
	movzbl	%r8b,%eax
	shlq	$48,%rax
	orq	%rdi,%rax
	movzbl	%bl,%edi
	shlq	$40,%rdi
	movzbl	%r11b,%r8d
	shlq	$32,%r8
	orq	%rdi,%r8
	orq	%rax,%r8
	movzbl	%r10b,%eax
	shll	$24,%eax
	movzbl	%r9b,%edi
	shll	$16,%edi
	orq	%rax,%rdi
	movzbl	%cl,%esi
	shll	$8,%esi
	orq	%rdi,%rsi
	orq	%r8,%rsi
	orq	56(%rsp),%rsi
14:
	movq	%r12,%r13
	movq	(%rsp),%r12
6:
	movb	$1,141(%r13)
	movq	%rsi,142(%r13)
	jmp	8b
15:
	movsbq	7(%rax),%rbx
	testq	%rbx,%rbx
	js	31f
	movq	%rdx,8(%rsp)
	movzbl	(%rbx,%r13),%ebx
	cmpl	$6,%r15d
	je	6f
	movsbq	8(%rax),%r8
	testq	%r8,%r8
	movq	8(%rsp),%rdx
	js	31f
	movzbl	(%r8,%r13),%r8d
	cmpl	$7,%r15d
	jne	12f
6:
	movq	8(%rsp),%rdx
34:
	movzbl	%r8b,%eax
	shlq	$48,%rax
	orq	%rdi,%rax
	movzbl	%bl,%edi
	shlq	$40,%rdi
	movzbl	%r11b,%r8d
	shlq	$32,%r8
	orq	%rdi,%r8
	orq	%rax,%r8
	movzbl	%r10b,%eax
	shll	$24,%eax
	movzbl	%r9b,%edi
	shll	$16,%edi
	orq	%rax,%rdi
	movzbl	%cl,%esi
	shll	$8,%esi
	orq	%rdi,%rsi
	orq	%r8,%rsi
	orq	56(%rsp),%rsi
19:
	movq	%r12,%r13
	movq	(%rsp),%r12
	jmp	6f
20:
	movsbq	9(%rax),%rax
	testq	%rax,%rax
	movq	8(%rsp),%rdx
	js	5b
	movzbl	(%rax,%r13),%edi
	shlq	$56,%rdi
	jmp	16b
12:
	movsbq	9(%rax),%rax
	testq	%rax,%rax
	movq	8(%rsp),%rdx
	js	31f
	movzbl	(%rax,%r13),%edi
	shlq	$56,%rdi
	jmp	34b
31:
	movq	%rdx,%rbx
	leaq	16(%rsp),%rdi
	movq	%r15,%rdx
	callq	_rtp_core.str.utf8.from_utf8
	cmpb	$0,16(%rsp)
	jne	7b
	movabsq	$2314885530818453536,%rsi
	movq	24(%rsp),%rax
	movq	32(%rsp),%rcx
	movq	%rsi,64(%rsp)
	testq	%rcx,%rcx
	movq	%rbx,%rdx
	movq	%r12,%r13
	movq	(%rsp),%r12
	je	6f
	movl	$1,%esi
	xorl	%edi,%edi
	.p2align	4
5:
	movzbl	-1(%rax,%rsi),%r8d
	cmpb	$-64,%r8b
	jl	7f
	leaq	lrtp__static.37(%rip),%r9
	movzbl	(%r8,%r9),%r8d
	movb	%r8b,64(%rsp,%rdi)
	incq	%rdi
7:
	cmpq	%rcx,%rsi
	jae	7f
	incq	%rsi
	cmpq	$8,%rdi
	jne	5b
7:
	movq	64(%rsp),%rsi
6:
	movb	$1,132(%r13)
	movq	%rsi,133(%r13)
	jmp	8b
5:
	movq	%rdx,%r14
	leaq	16(%rsp),%rdi
	movq	%r15,%rsi
	movq	%r12,%rdx
	callq	_rtp_core.str.utf8.from_utf8
	cmpb	$0,16(%rsp)
	je	6f
7:
	movq	%r14,%rdx
	movq	%rbp,%r14
	movq	(%rsp),%rbp
	.p2align	4
12:
	movq	%rbx,%rax
	testq	%rdx,%rdx
	je	3f
2:
	movzbl	(%rax),%esi
	testb	%sil,%sil
	jne	2f
	cmpq	$2,%rdx
	je	14f
	cmpq	$1,%rdx
	je	3f
	cmpq	$3,%rdx
	ja	15f
	cmpb	$0,1(%rax)
	jne	15f
	cmpb	$0,2(%rax)
	jne	15f
	jmp	3f
14:
	cmpb	$0,1(%rax)
	je	3f
15:
	decq	%rdx
	incq	%rax
	movq	%rax,%rdi
	movq	%rdx,%rsi
	callq	_rtp_ext.elements.skip_zeros
	testq	%rdx,%rdx
	je	3f
	movzbl	(%rax),%esi
2:
	cmpb	$-17,%sil
	ja	3f
	movl	%esi,%ecx
	andb	$15,%cl
	leal	2(%rcx),%edi
	movzbl	%dil,%r12d
	subq	%r12,%rdx
	jb	3f
	leaq	(%rax,%r12),%rbx
	shrb	$3,%sil
	movzbl	%sil,%esi
	andl	$30,%esi
	cmpb	$1,10202(%r14,%rsi)
	jne	12b
	leaq	1(%rax),%r15
	decq	%r12
	movzbl	10203(%r14,%rsi),%esi
	leaq	2f(%rip),%rdi
	movslq	(%rdi,%rsi,4),%rsi
	addq	%rdi,%rsi
	jmpq	*%rsi
14:
	cmpb	$2,%cl
	jb	12b
	movzbl	1(%rax),%ecx
	movzwl	2(%rax),%eax
	shll	$16,%eax
	shll	$8,%ecx
	orl	%eax,%ecx
	bswapl	%ecx
	imulq	$1000000,%rcx,%rax
	shrq	$18,%rax
	movq	$1,16(%r13)
	movq	%rax,24(%r13)
	jmp	12b
15:
	testb	%cl,%cl
	movq	%r13,48(%rsp)
	movq	%r14,40(%rsp)
	je	16f
	leaq	lrtp__static.5(%rip),%rax
	testq	%rdx,%rdx
	je	19f
	movq	%rbp,(%rsp)
	movq	%rdx,%r13
20:
	movzbl	(%rbx),%eax
	movq	%rbx,%rbp
	testb	%al,%al
	jne	23f
	cmpq	$2,%rdx
	je	24f
	cmpq	$1,%rdx
	movq	(%rsp),%rbp
	leaq	lrtp__static.5(%rip),%rax
	je	19f
	cmpq	$3,%rdx
	ja	31f
	cmpb	$0,1(%rbx)
	jne	31f
	cmpb	$0,2(%rbx)
	jne	31f
	jmp	19f
24:
	cmpb	$0,1(%rbx)
	movq	(%rsp),%rbp
	leaq	lrtp__static.5(%rip),%rax
	je	19f
31:
	movq	%rdx,%r14
	leaq	-1(%rdx),%rsi
	leaq	1(%rbx),%rdi
	callq	_rtp_ext.elements.skip_zeros
	testq	%rdx,%rdx
	je	24f
	movq	%rax,%rbp
	movq	%rdx,%r13
	movzbl	(%rax),%eax
	movq	%r14,%rdx
23:
	cmpb	$-17,%al
	ja	24f
	movl	%eax,%ecx
	andb	$15,%cl
	addb	$2,%cl
	movzbl	%cl,%r14d
	cmpq	%r14,%r13
	jb	24f
	shrb	$3,%al
	movzbl	%al,%eax
	andl	$30,%eax
	movq	40(%rsp),%rcx
	cmpb	$1,10202(%rcx,%rax)
	jne	23f
	cmpb	$14,10203(%rcx,%rax)
	jne	23f
	leaq	(%r14,%rbp),%rbx
	leaq	-1(%r14),%rsi
	incq	%rbp
	movq	%rbp,%rdi
	callq	_rtp_ext.block_values.is_another_allocation
	testb	%al,%al
	leaq	-1(%r14),%rax
	cmovneq	%rax,%r12
	cmovneq	%rbp,%r15
	subq	%r14,%r13
	movq	%r13,%rdx
	jne	20b
24:
	xorl	%r13d,%r13d
	leaq	lrtp__static.5(%rip),%rbx
	jmp	20f
24:
	movq	%rbp,(%rsp)
	movq	%r14,%rbp
	pxor	%xmm0,%xmm0
	movdqa	%xmm0,16(%rsp)
	movq	$0,32(%rsp)
	cmpb	$7,%cl
	ja	5b
	movsbq	(%r15),%rcx
	testq	%rcx,%rcx
	js	5b
	movabsq	$2305843009213693952,%rdi
	leaq	lrtp__static.37(%rip),%r14
	movzbl	(%rcx,%r14),%ecx
	movq	%rcx,56(%rsp)
	movb	$32,%r8b
	cmpl	$1,%r12d
	jne	31f
	movb	$32,%cl
	movb	$32,%r11b
	movb	$32,%r10b
	movb	$32,%r9b
	movb	$32,%sil
	jmp	32f
33:
	cmpb	$3,%cl
	jb	12b
	movl	(%r15),%eax
	bswapl	%eax
	movl	$1,8(%r13)
	movl	%eax,12(%r13)
	jmp	12b
34:
	xorps	%xmm0,%xmm0
	movaps	%xmm0,112(%rsp)
	movaps	%xmm0,80(%rsp)
	movaps	%xmm0,144(%rsp)
	movaps	%xmm0,16(%rsp)
	movq	$0,32(%rsp)
	movaps	%xmm0,160(%rsp)
	movdqa	1b(%rip),%xmm0
	movdqa	%xmm0,96(%rsp)
	xorl	%eax,%eax
	.p2align	4
36:
	movsbq	(%r15,%rax),%rcx
	testq	%rcx,%rcx
	js	37f
	leaq	lrtp__static.37(%rip),%rsi
	movzbl	(%rcx,%rsi),%ecx
	movb	%cl,96(%rsp,%rax)
	incq	%rax
	cmpq	%rax,%r12
	jne	36b
	movaps	96(%rsp),%xmm0
	jmp	36f
38:
	cmpb	$8,%cl
	jb	12b
	movzbl	1(%rax),%ecx
	movq	2(%rax),%xmm0
	movdqa	%xmm0,%xmm1
	psrlw	$8,%xmm1
	psllw	$8,%xmm0
	por	%xmm1,%xmm0
	movw	$1,120(%r13)
	movb	%cl,122(%r13)
	movb	$0,123(%r13)
	movq	%xmm0,124(%r13)
	jmp	12b
39:
	cmpb	$7,%cl
	jb	12b
	cmpb	$15,%cl
	jne	40f
	movq	9(%rax),%rax
	bswapq	%rax
	jmp	41f
42:
	movzbl	(%r15),%eax
	movl	%eax,%ecx
	andb	$127,%cl
	negb	%cl
	movb	$1,(%r13)
	movb	%cl,1(%r13)
	shrb	$7,%al
	movb	$1,2(%r13)
	movb	%al,3(%r13)
	jmp	12b
43:
	cmpb	$2,%cl
	jb	12b
	movzbl	1(%rax),%ecx
	movzwl	2(%rax),%eax
	shll	$16,%eax
	shll	$8,%ecx
	orl	%eax,%ecx
	bswapl	%ecx
	movl	%ecx,%eax
	shrl	$12,%eax
	andl	$4095,%ecx
	movq	$1,72(%r13)
	movq	%rax,80(%r13)
	movq	$100,88(%r13)
	movq	$1,96(%r13)
	movq	%rcx,104(%r13)
	movq	$100,112(%r13)
	jmp	12b
44:
	movzbl	(%r15),%eax
	andb	$3,%al
	movb	$1,4(%r13)
	movb	%al,5(%r13)
	jmp	12b
45:
	cmpb	$3,%cl
	jb	12b
	movl	(%r15),%eax
	bswapl	%eax
	movl	$1,168(%r13)
	movl	%eax,172(%r13)
	jmp	12b
46:
	testb	%cl,%cl
	je	12b
	movzwl	(%r15),%eax
	rolw	$8,%ax
	movw	$1,64(%r13)
	movw	%ax,66(%r13)
	jmp	12b
47:
	movq	%rbp,(%rsp)
	movq	%r14,%rbp
	pxor	%xmm0,%xmm0
	movdqa	%xmm0,16(%rsp)
	movq	$0,32(%rsp)
	cmpb	$7,%cl
	ja	48f
	movsbq	(%r15),%rcx
	testq	%rcx,%rcx
	js	48f
	movabsq	$2305843009213693952,%rdi
	leaq	lrtp__static.37(%rip),%r14
	movzbl	(%rcx,%r14),%ecx
	movq	%rcx,56(%rsp)
	movb	$32,%r8b
	cmpl	$1,%r12d
	jne	49f
	movb	$32,%cl
	movb	$32,%r11b
	movb	$32,%r10b
	movb	$32,%r9b
	movb	$32,%sil
	jmp	50f
51:
	movzbl	(%r15),%eax
	movb	$1,6(%r13)
	movb	%al,7(%r13)
	jmp	12b
37:
	movq	%rbp,(%rsp)
	movq	%r14,%rbp
	movq	%rdx,%r14
	leaq	16(%rsp),%rdi
	movq	%r15,%rsi
	movq	%r12,%rdx
	callq	_rtp_core.str.utf8.from_utf8
	cmpb	$0,16(%rsp)
	je	37f
	movdqa	144(%rsp),%xmm0
	movdqa	%xmm0,112(%rsp)
	jmp	7b
19:
	xorl	%r13d,%r13d
	movq	%rax,%rbx
	jmp	19f
16:
	movq	%rdx,%r13
	movl	$1,%r12d
	jmp	19f
6:
	movabsq	$2314885530818453536,%rsi
	movq	24(%rsp),%rax
	movq	32(%rsp),%rcx
	movq	%rsi,64(%rsp)
	testq	%rcx,%rcx
	movq	%r14,%rdx
	movq	%rbp,%r14
	movq	(%rsp),%rbp
	je	6f
	movl	$1,%esi
	xorl	%edi,%edi
16:
	movzbl	-1(%rax,%rsi),%r8d
	cmpb	$-64,%r8b
	jl	52f
	leaq	lrtp__static.37(%rip),%r9
	movzbl	(%r8,%r9),%r8d
	movb	%r8b,64(%rsp,%rdi)
	incq	%rdi
52:
	cmpq	%rcx,%rsi
	jae	52f
	incq	%rsi
	cmpq	$8,%rdi
	jne	16b
52:
	movq	64(%rsp),%rsi
	jmp	6f
40:
	xorl	%eax,%eax
41:
	movq	(%r15),%rsi
	bswapq	%rsi
	xorl	%edi,%edi
	cmpb	$15,%cl
	sete	%dil
	movq	$1,32(%r13)
	movq	%rsi,40(%r13)
	movq	%rdi,48(%r13)
	movq	%rax,56(%r13)
	jmp	12b
37:
	movq	24(%rsp),%rax
	movq	32(%rsp),%rcx
	movdqa	1b(%rip),%xmm0
	movdqa	%xmm0,64(%rsp)
	testq	%rcx,%rcx
	movq	%r14,%rdx
	movq	%rbp,%r14
	movq	(%rsp),%rbp
	je	1f
	movl	$1,%esi
	xorl	%edi,%edi
16:
	movzbl	-1(%rax,%rsi),%r8d
	cmpb	$-64,%r8b
	jl	37f
	leaq	lrtp__static.37(%rip),%r9
	movzbl	(%r8,%r9),%r8d
	movb	%r8b,64(%rsp,%rdi)
	incq	%rdi
37:
	cmpq	%rcx,%rsi
	jae	1f
	incq	%rsi
	cmpq	$16,%rdi
	jne	16b
1:
	movaps	64(%rsp),%xmm0
36:
	movaps	%xmm0,80(%rsp)
	movaps	80(%rsp),%xmm0
	movaps	%xmm0,112(%rsp)
	movb	$1,150(%r13)
	movdqa	112(%rsp),%xmm0
	movdqu	%xmm0,(%rbp)
	jmp	12b
31:
	movsbq	2(%rax),%rsi
	testq	%rsi,%rsi
	js	5b
	movzbl	(%rsi,%r14),%esi
	cmpl	$2,%r12d
	jne	1f
	movb	$32,%cl
	movb	$32,%r11b
	movb	$32,%r10b
	movb	$32,%r9b
	jmp	32f
49:
	movsbq	2(%rax),%rsi
	testq	%rsi,%rsi
	js	48f
	movzbl	(%rsi,%r14),%esi
	cmpl	$2,%r12d
	jne	16f
	movb	$32,%cl
	movb	$32,%r11b
	movb	$32,%r10b
	movb	$32,%r9b
	jmp	50f
1:
	movsbq	3(%rax),%r9
	testq	%r9,%r9
	js	5b
	movzbl	(%r9,%r14),%r9d
	cmpl	$3,%r12d
	jne	1f
	movb	$32,%cl
	movb	$32,%r11b
	movb	$32,%r10b
	jmp	32f
16:
	movsbq	3(%rax),%r9
	testq	%r9,%r9
	js	48f
	movzbl	(%r9,%r14),%r9d
	cmpl	$3,%r12d
	jne	16f
	movb	$32,%cl
	movb	$32,%r11b
	movb	$32,%r10b
	jmp	50f
23:
	movq	%rdx,%r13
20:
	movq	(%rsp),%rbp
19:
	movq	48(%rsp),%r14
	movq	%r14,%rdi
	movq	%r15,%rsi
	movq	%r12,%rdx
	callq	_rtp_values.value.set_values.ExtensionValuesSetValues.read_layers
	testb	%al,%al
	movq	%r13,%rdx
	movq	%r14,%r13
	movq	40(%rsp),%r14
	je	12b
	jmp	11f
1:
	movsbq	4(%rax),%r10
	testq	%r10,%r10
	js	5b
	movzbl	(%r10,%r14),%r10d
	cmpl	$4,%r12d
	jne	1f
	movb	$32,%cl
	movb	$32,%r11b
	jmp	32f
16:
	movsbq	4(%rax),%r10
	testq	%r10,%r10
	js	48f
	movzbl	(%r10,%r14),%r10d
	cmpl	$4,%r12d
	jne	16f
	movb	$32,%cl
	movb	$32,%r11b
	jmp	50f
1:
	movsbq	5(%rax),%r11
	testq	%r11,%r11
	js	5b
	movzbl	(%r11,%r14),%r11d
	cmpl	$5,%r12d
	jne	1f
	movb	$32,%cl
	jmp	32f
16:
	movsbq	5(%rax),%r11
	testq	%r11,%r11
	js	48f
	movzbl	(%r11,%r14),%r11d
	cmpl	$5,%r12d
	jne	16f
	movb	$32,%cl
	jmp	50f
1:
	movsbq	6(%rax),%rcx
	testq	%rcx,%rcx
	js	5b
	movq	%rdx,8(%rsp)
	movzbl	(%rcx,%r14),%ecx
	cmpl	$6,%r12d
	je	1f
	movsbq	7(%rax),%r8
	testq	%r8,%r8
	movq	8(%rsp),%rdx
	js	5b
	movzbl	(%r8,%r14),%r8d
	cmpl	$7,%r12d
	jne	19f
1:
	movq	8(%rsp),%rdx
32:
	movzbl	%r8b,%eax
	shlq	$48,%rax
	orq	%rdi,%rax
	movzbl	%cl,%edi
	shlq	$40,%rdi
	movzbl	%r11b,%r8d
	shlq	$32,%r8
	orq	%rdi,%r8
	orq	%rax,%r8
	movzbl	%r10b,%eax
	shll	$24,%eax
	movzbl	%r9b,%edi
	shll	$16,%edi
	orq	%rax,%rdi
	movzbl	%sil,%esi
	shll	$8,%esi
	orq	%rdi,%rsi
	orq	%r8,%rsi
	orq	56(%rsp),%rsi
	movq	%rbp,%r14
	movq	(%rsp),%rbp
6:
	movb	$1,141(%r13)
	movq	%rsi,142(%r13)
	jmp	12b
16:
	movsbq	6(%rax),%rcx
	testq	%rcx,%rcx
	js	48f
	movq	%rdx,8(%rsp)
	movzbl	(%rcx,%r14),%ecx
	cmpl	$6,%r12d
	je	1f
	movsbq	7(%rax),%r8
	testq	%r8,%r8
	movq	8(%rsp),%rdx
	js	48f
	movzbl	(%r8,%r14),%r8d
	cmpl	$7,%r12d
	jne	6f
1:
	movq	8(%rsp),%rdx
50:
	movzbl	%r8b,%eax
	shlq	$48,%rax
	orq	%rdi,%rax
	movzbl	%cl,%edi
	shlq	$40,%rdi
	movzbl	%r11b,%r8d
	shlq	$32,%r8
	orq	%rdi,%r8
	orq	%rax,%r8
	movzbl	%r10b,%eax
	shll	$24,%eax
	movzbl	%r9b,%edi
	shll	$16,%edi
	orq	%rax,%rdi
	movzbl	%sil,%esi
	shll	$8,%esi
	orq	%rdi,%rsi
	orq	%r8,%rsi
	orq	56(%rsp),%rsi
	movq	%rbp,%r14
	movq	(%rsp),%rbp
	jmp	1f
19:
	movsbq	8(%rax),%rax
	testq	%rax,%rax
	movq	8(%rsp),%rdx
	js	5b
	movzbl	(%rax,%r14),%edi
	shlq	$56,%rdi
	jmp	32b
6:
	movsbq	8(%rax),%rax
	testq	%rax,%rax
	movq	8(%rsp),%rdx
	js	48f
	movzbl	(%rax,%r14),%edi
	shlq	$56,%rdi
	jmp	50b
48:
	movq	%rdx,%r14
	leaq	16(%rsp),%rdi
	movq	%r15,%rsi
	movq	%r12,%rdx
	callq	_rtp_core.str.utf8.from_utf8
	cmpb	$0,16(%rsp)
	jne	7b
	movabsq	$2314885530818453536,%rsi
	movq	24(%rsp),%rax
	movq	32(%rsp),%rcx
	movq	%rsi,64(%rsp)
	testq	%rcx,%rcx
	movq	%r14,%rdx
	movq	%rbp,%r14
	movq	(%rsp),%rbp
	je	1f
	movl	$1,%esi
	xorl	%edi,%edi
5:
	movzbl	-1(%rax,%rsi),%r8d
	cmpb	$-64,%r8b
	jl	6f
	leaq	lrtp__static.37(%rip),%r9
	movzbl	(%r8,%r9),%r8d
	movb	%r8b,64(%rsp,%rdi)
	incq	%rdi
6:
	cmpq	%rcx,%rsi
	jae	6f
	incq	%rsi
	cmpq	$8,%rdi
	jne	5b
6:
	movq	64(%rsp),%rsi
1:
	movb	$1,132(%r13)
	movq	%rsi,133(%r13)
	jmp	12b
3:
	xorl	%eax,%eax
1:
	addq	$184,%rsp
	popq	%rbx
	popq	%r12
	popq	%r13
	popq	%r14
	popq	%r15
	popq	%rbp
	retq
11:
	movb	$1,%al
	jmp	1b
	.cfi_endproc
	.p2align	2
	.data_region jt32
L6_0_set_20 = 9b-4f
L6_0_set_39 = 22b-4f
L6_0_set_42 = 25b-4f
L6_0_set_29 = 17b-4f
L6_0_set_46 = 27b-4f
L6_0_set_50 = 29b-4f
L6_0_set_44 = 26b-4f
L6_0_set_57 = 35b-4f
L6_0_set_37 = 21b-4f
L6_0_set_52 = 30b-4f
L6_0_set_24 = 13b-4f
L6_0_set_31 = 18b-4f
L6_0_set_48 = 28b-4f
L6_0_set_7 = 8b-4f
L6_0_set_22 = 10b-4f
4:
	.long	L6_0_set_20
	.long	L6_0_set_39
	.long	L6_0_set_42
	.long	L6_0_set_29
	.long	L6_0_set_46
	.long	L6_0_set_50
	.long	L6_0_set_44
	.long	L6_0_set_57
	.long	L6_0_set_37
	.long	L6_0_set_52
	.long	L6_0_set_24
	.long	L6_0_set_31
	.long	L6_0_set_48
	.long	L6_0_set_7
	.long	L6_0_set_22
L6_1_set_174 = 14b-2f
L6_1_set_206 = 39b-2f
L6_1_set_209 = 42b-2f
L6_1_set_198 = 33b-2f
L6_1_set_212 = 44b-2f
L6_1_set_215 = 46b-2f
L6_1_set_210 = 43b-2f
L6_1_set_221 = 51b-2f
L6_1_set_204 = 38b-2f
L6_1_set_217 = 47b-2f
L6_1_set_194 = 24b-2f
L6_1_set_200 = 34b-2f
L6_1_set_213 = 45b-2f
L6_1_set_160 = 12b-2f
L6_1_set_176 = 15b-2f
2:
	.long	L6_1_set_174
	.long	L6_1_set_206
	.long	L6_1_set_209
	.long	L6_1_set_198
	.long	L6_1_set_212
	.long	L6_1_set_215
	.long	L6_1_set_210
	.long	L6_1_set_221
	.long	L6_1_set_204
	.long	L6_1_set_217
	.long	L6_1_set_194
	.long	L6_1_set_200
	.long	L6_1_set_213
	.long	L6_1_set_160
	.long	L6_1_set_176
	.end_data_region

	.p2align	4
_rtp_ext.elements.skip_zeros:
	.cfi_startproc
	leaq	-1(%rdi),%rdx
	movq	%rsi,%rax
	.p2align	4
1:
	movq	%rax,%rcx
	movq	%rdx,%r8
	subq	$16,%rax
	jb	2f
	movq	9(%r8),%r9
	leaq	16(%r8),%rdx
	orq	1(%r8),%r9
	je	1b
2:
	addq	%rsi,%rdi
	.p2align	4
1:
	movq	%rcx,%rdx
	subq	$1,%rcx
	jb	2f
	leaq	1(%r8),%rax
	cmpb	$0,1(%r8)
	movq	%rax,%r8
	je	1b
	retq
2:
	movq	%rdi,%rax
	retq
	.cfi_endproc

	.p2align	4
_rtp_ext.block_values.is_another_allocation:
	.cfi_startproc
	testq	%rsi,%rsi
	je	1f
	pushq	%r15
	.cfi_def_cfa_offset 16
	pushq	%r14
	.cfi_def_cfa_offset 24
	pushq	%r12
	.cfi_def_cfa_offset 32
	pushq	%rbx
	.cfi_def_cfa_offset 40
	subq	$24,%rsp
	.cfi_def_cfa_offset 64
	.cfi_offset %rbx,-40
	.cfi_offset %r12,-32
	.cfi_offset %r14,-24
	.cfi_offset %r15,-16
	movq	%rsi,%rbx
	cmpq	$1,%rsi
	jne	2f
	cmpb	$0,(%rdi)
	sete	%al
	jmp	3f
1:
	xorl	%eax,%eax
	retq
2:
	leaq	1(%rdi),%r14
	decq	%rbx
	movzbl	(%rdi),%esi
	movl	%esi,%r8d
	shrl	$4,%r8d
	andl	$3,%r8d
	leal	1(%r8),%edx
	andb	$15,%sil
	je	1f
	movzbl	%sil,%ecx
	shll	$2,%ecx
	movabsq	$4841987667533046032,%rax
	shrq	%cl,%rax
	andl	$7,%eax
	mulb	%dl
2:
	movzbl	%al,%r15d
	leal	3(%r15),%ecx
	shrl	$2,%ecx
	xorl	%eax,%eax
	subq	%rcx,%rbx
	jb	3f
	testq	%rcx,%rcx
	je	4f
	cmpl	$1,%ecx
	jne	5f
	movzbl	(%r14),%eax
	shll	$24,%eax
4:
	testq	%r15,%r15
	jne	4f
6:
	movb	$1,%al
	jmp	3f
1:
	movl	%r8d,%r9d
	addl	$2,%r9d
	shrl	%r9d
	subq	%r9,%rbx
	jae	1f
7:
	xorl	%eax,%eax
	jmp	3f
1:
	movzbl	(%r14),%eax
	shrb	$4,%al
	testb	%r8b,%r8b
	je	1f
	movzbl	(%r14),%r11d
	andb	$15,%r11b
	cmpb	$2,%dl
	jne	8f
	movl	%esi,%r10d
	jmp	9f
5:
	cmpb	$8,%r15b
	ja	5f
	movzwl	(%r14),%eax
	bswapl	%eax
	testq	%r15,%r15
	jne	4f
	jmp	6b
1:
	movl	%esi,%r11d
	movl	%esi,%r10d
	jmp	9f
5:
	cmpl	$3,%ecx
	jne	1f
	movzbl	(%r14),%edx
	movzwl	1(%r14),%eax
	shll	$8,%eax
	orl	%edx,%eax
	jmp	5f
8:
	movzbl	2(%rdi),%r10d
	shrb	$4,%r10b
	cmpb	$3,%dl
	je	9f
	movzbl	2(%rdi),%ecx
	andb	$15,%cl
	movzbl	%cl,%ecx
	shll	$2,%ecx
	movabsq	$4841987667533046032,%rsi
	shrq	%cl,%rsi
	andl	$7,%esi
9:
	movzbl	%al,%ecx
	shll	$2,%ecx
	movabsq	$4841987667533046032,%rdi
	movq	%rdi,%rax
	shrq	%cl,%rax
	addq	%r9,%r14
	andl	$7,%eax
	testb	%r8b,%r8b
	je	2b
	movzbl	%r11b,%ecx
	shll	$2,%ecx
	movq	%rdi,%r8
	shrq	%cl,%r8
	andl	$7,%r8d
	addb	%r8b,%al
	cmpb	$2,%dl
	je	2b
	movzbl	%r10b,%ecx
	shll	$2,%ecx
	shrq	%cl,%rdi
	andl	$7,%edi
	addb	%dil,%al
	addb	%al,%sil
	cmpb	$3,%dl
	movzbl	%al,%ecx
	movzbl	%sil,%eax
	cmovel	%ecx,%eax
	jmp	2b
1:
	movl	(%r14),%eax
5:
	bswapl	%eax
4:
	addq	%rcx,%r14
	movl	%eax,%eax
	leal	32(,%r15,2),%ecx
	negl	%ecx
	shrq	%cl,%rax
	movl	%eax,%ecx
	shrl	%ecx
	andl	$1431655765,%ecx
	movl	%eax,%edx
	subl	%ecx,%edx
	movl	%edx,%ecx
	andl	$858993459,%ecx
	shrl	$2,%edx
	andl	$858993459,%edx
	addl	%ecx,%edx
	movl	%edx,%ecx
	shrl	$4,%ecx
	addl	%edx,%ecx
	andl	$252645135,%ecx
	imull	$16843009,%ecx,%r12d
	shrl	$24,%r12d
	andl	$-1431655766,%eax
	movl	%eax,%ecx
	shrl	%ecx
	subl	%ecx,%eax
	movl	%eax,%ecx
	andl	$858993459,%ecx
	shrl	$2,%eax
	andl	$858993459,%eax
	addl	%ecx,%eax
	movl	%eax,%ecx
	shrl	$4,%ecx
	addl	%eax,%ecx
	andl	$252645135,%ecx
	imull	$16843009,%ecx,%eax
	shrl	$24,%eax
	addq	%r15,%r12
	addq	%rax,%r12
	jne	1f
2:
	movb	$1,%al
	cmpq	$5,%rbx
	jae	4f
3:
	addq	$24,%rsp
	popq	%rbx
	popq	%r12
	popq	%r14
	popq	%r15
	retq
	.p2align	4
5:
	xorl	%ebx,%ebx
6:
	decq	%r12
	je	2b
1:
	testq	%rbx,%rbx
	je	5b
	cmpb	$0,(%r14)
	js	1f
	decq	%rbx
	incq	%r14
	jmp	6b
	.p2align	4
1:
	cmpq	$1,%rbx
	je	1f
	cmpb	$0,1(%r14)
	js	1f
	movl	$2,%eax
	jmp	2f
1:
	movq	%rsp,%rdi
	movq	%r14,%rsi
	movq	%rbx,%rdx
	callq	_rtp_vla.leb.long_number_at
	cmpb	$1,(%rsp)
	jne	6b
	movq	16(%rsp),%rax
2:
	addq	%rax,%r14
	subq	%rax,%rbx
	jmp	6b
4:
	addq	$-5,%rbx
	movl	$1,%ecx
	.p2align	4
1:
	cmpw	$-1,(%r14)
	je	7b
	cmpw	$-1,2(%r14)
	je	7b
	subq	$5,%rbx
	setb	%dl
	cmpq	%r15,%rcx
	jae	3b
	incq	%rcx
	addq	$5,%r14
	testb	%dl,%dl
	je	1b
	jmp	3b
	.cfi_endproc

	.p2align	4
_rtp_vla.leb.long_number_at:
	.cfi_startproc
	testq	%rdx,%rdx
	je	1f
	movzbl	(%rsi),%eax
	movl	%eax,%r8d
	andl	$127,%eax
	movl	$1,%ecx
	testb	%r8b,%r8b
	js	2f
3:
	movq	$1,(%rdi)
	movq	%rax,8(%rdi)
	movq	%rcx,16(%rdi)
	retq
2:
	cmpq	$1,%rdx
	jne	2f
1:
	xorps	%xmm0,%xmm0
	movups	%xmm0,(%rdi)
	movq	$0,16(%rdi)
	retq
2:
	movzbl	1(%rsi),%ecx
	movl	%ecx,%r8d
	andl	$127,%ecx
	shll	$7,%ecx
	orq	%rcx,%rax
	movl	$2,%ecx
	testb	%r8b,%r8b
	jns	3b
	cmpq	$2,%rdx
	je	1b
	movzbl	2(%rsi),%ecx
	movl	%ecx,%r8d
	andl	$127,%ecx
	shll	$14,%ecx
	orq	%rcx,%rax
	movl	$3,%ecx
	testb	%r8b,%r8b
	jns	3b
	cmpq	$3,%rdx
	je	1b
	movzbl	3(%rsi),%ecx
	movl	%ecx,%r8d
	andl	$127,%ecx
	shll	$21,%ecx
	orq	%rcx,%rax
	movl	$4,%ecx
	testb	%r8b,%r8b
	jns	3b
	cmpq	$4,%rdx
	je	1b
	movzbl	4(%rsi),%ecx
	movl	%ecx,%r8d
	andl	$127,%ecx
	shlq	$28,%rcx
	orq	%rcx,%rax
	movl	$5,%ecx
	testb	%r8b,%r8b
	jns	3b
	cmpq	$5,%rdx
	je	1b
	movzbl	5(%rsi),%ecx
	movl	%ecx,%r8d
	andl	$127,%ecx
	shlq	$35,%rcx
	orq	%rcx,%rax
	movl	$6,%ecx
	testb	%r8b,%r8b
	jns	3b
	cmpq	$6,%rdx
	je	1b
	movzbl	6(%rsi),%ecx
	movl	%ecx,%r8d
	andl	$127,%ecx
	shlq	$42,%rcx
	orq	%rcx,%rax
	movl	$7,%ecx
	testb	%r8b,%r8b
	jns	3b
	cmpq	$7,%rdx
	je	1b
	movzbl	7(%rsi),%ecx
	movl	%ecx,%r8d
	andl	$127,%ecx
	shlq	$49,%rcx
	orq	%rcx,%rax
	movl	$8,%ecx
	testb	%r8b,%r8b
	jns	3b
	cmpq	$8,%rdx
	je	1b
	movzbl	8(%rsi),%ecx
	movl	%ecx,%edx
	andl	$127,%ecx
	shlq	$56,%rcx
	orq	%rcx,%rax
	movl	$9,%ecx
	testb	%dl,%dl
	jns	3b
	movq	$1,(%rdi)
	movq	%rax,8(%rdi)
	movq	$9,16(%rdi)
	retq
	.cfi_endproc

	.p2align	4
_rtp_values.value.set_values.ExtensionValuesSetValues.read_layers:
	.cfi_startproc
	pushq	%rbp
	.cfi_def_cfa_offset 16
	pushq	%r15
	.cfi_def_cfa_offset 24
	pushq	%r14
	.cfi_def_cfa_offset 32
	pushq	%r13
	.cfi_def_cfa_offset 40
	pushq	%r12
	.cfi_def_cfa_offset 48
	pushq	%rbx
	.cfi_def_cfa_offset 56
	subq	$120,%rsp
	.cfi_def_cfa_offset 176
	.cfi_offset %rbx,-56
	.cfi_offset %r12,-48
	.cfi_offset %r13,-40
	.cfi_offset %r14,-32
	.cfi_offset %r15,-24
	.cfi_offset %rbp,-16
	testq	%rdx,%rdx
	je	1f
	movq	%rdx,%r14
	movq	%rdi,%r13
	cmpq	$1,%rdx
	jne	2f
	movzbl	(%rsi),%r8d
	testb	%r8b,%r8b
	jne	3f
	leaq	8(%rsp),%rdx
	xorl	%eax,%eax
	xorl	%r8d,%r8d
4:
	movzbl	176(%r13),%ecx
	movq	192(%r13),%rbx
	movq	200(%r13),%rdi
	movq	208(%r13),%rsi
	movq	$1,176(%r13)
	movq	%rax,184(%r13)
	movq	%rdx,192(%r13)
	movq	%r8,200(%r13)
	movq	%r8,208(%r13)
	cmpb	$1,%cl
	jne	1f
	movq	%rsi,24(%rsp)
	testq	%rdi,%rdi
	je	5f
	xorl	%r13d,%r13d
	movq	%rdi,32(%rsp)
	jmp	6f
	.p2align	4
7:
	incq	%r13
	movq	32(%rsp),%rdi
	cmpq	%rdi,%r13
	je	5f
6:
	leaq	(,%r13,2),%rax
	addq	%r13,%rax
	movq	(%rbx,%rax,8),%r14
	movq	8(%rbx,%rax,8),%r15
	movq	16(%rbx,%rax,8),%rbp
	testq	%r15,%r15
	je	6f
	leaq	16(%r14),%r12
	jmp	8f
	.p2align	4
9:
	addq	$32,%r12
	decq	%r15
	je	6f
8:
	cmpq	$0,(%r12)
	je	9b
	movq	-16(%r12),%rdi
	callq	_rattle_dealloc
	jmp	9b
	.p2align	4
6:
	testq	%rbp,%rbp
	je	7b
	movq	%r14,%rdi
	callq	_rattle_dealloc
	jmp	7b
2:
	movzbl	(%rsi),%r8d
3:
	leaq	1(%rsi),%rdx
	decq	%r14
	movl	%r8d,%edi
	shrb	$4,%dil
	andb	$3,%dil
	leal	1(%rdi),%eax
	movzbl	%al,%r9d
	movl	%r8d,%eax
	andb	$15,%al
	movzbl	%al,%ecx
	imull	$16843009,%ecx,%eax
	movl	%eax,16(%rsp)
	testb	%cl,%cl
	movb	%r8b,15(%rsp)
	je	2f
	shll	$2,%ecx
	movabsq	$4841987667533046032,%rsi
	shrq	%cl,%rsi
	andl	$7,%esi
	movl	%r9d,%eax
	mulb	%sil
	jmp	3f
2:
	leal	1(%r9),%ecx
	shrl	%ecx
	subq	%rcx,%r14
	jb	1f
	movzbl	(%rdx),%eax
	shrb	$4,%al
	movb	%al,16(%rsp)
	testb	%dil,%dil
	je	2f
	movzbl	(%rdx),%eax
	andb	$15,%al
	movb	%al,17(%rsp)
	cmpl	$2,%r9d
	je	2f
	movzbl	2(%rsi),%eax
	shrb	$4,%al
	movb	%al,18(%rsp)
	cmpl	$3,%r9d
	je	2f
	movzbl	2(%rsi),%eax
	andb	$15,%al
	movb	%al,19(%rsp)
2:
	movzbl	16(%rsp),%eax
	imull	$134480385,%eax,%eax
	shrl	$3,%eax
	andl	$286331153,%eax
	imull	$286331153,%eax,%eax
	shrl	$28,%eax
	testb	%dil,%dil
	je	2f
	movzbl	17(%rsp),%esi
	imull	$134480385,%esi,%esi
	shrl	$3,%esi
	andl	$286331153,%esi
	imull	$286331153,%esi,%esi
	shrl	$28,%esi
	addb	%sil,%al
	cmpl	$2,%r9d
	je	2f
	movzbl	18(%rsp),%esi
	imull	$134480385,%esi,%esi
	shrl	$3,%esi
	andl	$286331153,%esi
	imull	$286331153,%esi,%esi
	shrl	$28,%esi
	addb	%sil,%al
	cmpl	$3,%r9d
	je	2f
	movzbl	19(%rsp),%esi
	imull	$134480385,%esi,%esi
	shrl	$3,%esi
	andl	$286331153,%esi
	imull	$286331153,%esi,%esi
	shrl	$28,%esi
	addb	%sil,%al
2:
	addq	%rcx,%rdx
3:
	movzbl	%al,%esi
	leal	3(%rsi),%eax
	shrl	$2,%eax
	subq	%rax,%r14
	jae	2f
1:
	xorl	%eax,%eax
3:
	addq	$120,%rsp
	popq	%rbx
	popq	%r12
	popq	%r13
	popq	%r14
	popq	%r15
	popq	%rbp
	retq
2:
	leaq	(%rdx,%rax),%r12
	testq	%rax,%rax
	movq	%r9,40(%rsp)
	je	2f
	cmpl	$1,%eax
	jne	6f
	movzbl	(%rdx),%eax
	shll	$24,%eax
	jmp	7f
2:
	movl	$0,20(%rsp)
	movq	%r14,%rdx
	movq	%r12,%rbp
	testq	%rsi,%rsi
	jne	2f
	jmp	8f
6:
	cmpb	$8,%sil
	ja	6f
	movzwl	(%rdx),%eax
	bswapl	%eax
7:
	movl	%eax,20(%rsp)
	movq	%r14,%rdx
	movq	%r12,%rbp
	testq	%rsi,%rsi
	jne	2f
	jmp	8f
5:
	cmpq	$0,24(%rsp)
	je	1b
	movq	%rbx,%rdi
	callq	_rattle_dealloc
	jmp	1b
6:
	cmpl	$3,%eax
	jne	5f
	movzbl	(%rdx),%eax
	movzwl	1(%rdx),%ecx
	shll	$8,%ecx
	orl	%eax,%ecx
	bswapl	%ecx
	movl	%ecx,20(%rsp)
	jmp	2f
5:
	movl	(%rdx),%eax
	bswapl	%eax
	movl	%eax,20(%rsp)
2:
	movl	20(%rsp),%eax
	leal	32(,%rsi,2),%ecx
	negl	%ecx
	shrq	%cl,%rax
	movl	%eax,%ecx
	shrl	%ecx
	andl	$1431655765,%ecx
	movl	%eax,%edx
	subl	%ecx,%edx
	movl	%edx,%ecx
	andl	$858993459,%ecx
	shrl	$2,%edx
	andl	$858993459,%edx
	addl	%ecx,%edx
	movl	%edx,%ecx
	shrl	$4,%ecx
	addl	%edx,%ecx
	andl	$252645135,%ecx
	imull	$16843009,%ecx,%r15d
	shrl	$24,%r15d
	andl	$-1431655766,%eax
	movl	%eax,%ecx
	shrl	%ecx
	subl	%ecx,%eax
	movl	%eax,%ecx
	andl	$858993459,%ecx
	shrl	$2,%eax
	andl	$858993459,%eax
	addl	%ecx,%eax
	movl	%eax,%ecx
	shrl	$4,%ecx
	addl	%eax,%ecx
	andl	$252645135,%ecx
	imull	$16843009,%ecx,%eax
	shrl	$24,%eax
	movq	%rsi,32(%rsp)
	addq	%rsi,%r15
	movq	%r12,%rbp
	movq	%r14,%rdx
	addq	%rax,%r15
	je	2f
	movq	%r14,%rdx
	movq	%r12,%rbp
	jmp	5f
	.p2align	4
6:
	xorl	%edx,%edx
7:
	decq	%r15
	je	2f
5:
	testq	%rdx,%rdx
	je	6b
	cmpb	$0,(%rbp)
	js	5f
	decq	%rdx
	incq	%rbp
	jmp	7b
	.p2align	4
5:
	movq	%rbp,%rbx
	movq	%r13,%rbp
	cmpq	$1,%rdx
	je	5f
	cmpb	$0,1(%rbx)
	js	5f
	movq	%rdx,%r13
	movl	$2,%eax
	jmp	6f
5:
	leaq	80(%rsp),%rdi
	movq	%rbx,%rsi
	movq	%rdx,%r13
	callq	_rtp_vla.leb.long_number_at
	cmpb	$1,80(%rsp)
	jne	5f
	movq	96(%rsp),%rax
6:
	addq	%rax,%rbx
	subq	%rax,%r13
5:
	movq	%r13,%rdx
	movq	%rbp,%r13
	movq	%rbx,%rbp
	jmp	7b
2:
	cmpq	$5,%rdx
	jae	2f
	movq	40(%rsp),%r9
	jmp	8f
2:
	movq	%rdx,%rdi
	leaq	-5(%rdx),%rax
	movl	$1,%ecx
	movq	%rbp,%rdx
	movq	40(%rsp),%r9
	movq	32(%rsp),%r8
	.p2align	4
2:
	cmpw	$-1,(%rdx)
	je	1b
	cmpw	$-1,2(%rdx)
	je	1b
	subq	$5,%rax
	setb	%sil
	cmpq	%r8,%rcx
	jae	1f
	incq	%rcx
	addq	$5,%rdx
	testb	%sil,%sil
	je	2b
1:
	movq	%rdi,%rdx
8:
	movq	%rdx,72(%rsp)
	movq	%r9,%r15
	leal	(,%r9,8),%eax
	leaq	(%rax,%rax,2),%rdi
	movl	$8,%esi
	callq	_rattle_alloc
	movq	%rdx,48(%rsp)
	testb	$1,%al
	je	1f
	shrb	$6,15(%rsp)
	xorl	%edx,%edx
	movl	20(%rsp),%ebx
	movq	%r15,%r8
	movq	%r13,104(%rsp)
	jmp	2f
5:
	movq	104(%rsp),%r13
	movq	40(%rsp),%r8
	movq	24(%rsp),%rsi
	movq	112(%rsp),%rdi
6:
	movq	56(%rsp),%rdx
	leaq	(%rdx,%rdx,2),%rax
	movq	48(%rsp),%rcx
	movq	%rsi,(%rcx,%rax,8)
	movq	%rbp,8(%rcx,%rax,8)
	movq	%rdi,16(%rcx,%rax,8)
	incq	%rdx
	cmpq	%r8,%rdx
	movzbl	15(%rsp),%eax
	movq	64(%rsp),%rbp
	je	7f
2:
	movq	%rdx,56(%rsp)
	movzbl	16(%rsp,%rdx),%r15d
	movl	$15,%eax
	bsrl	%r15d,%eax
	xorl	$7,%eax
	movb	$8,%cl
	subb	%al,%cl
	movzbl	%cl,%edi
	testl	%r15d,%r15d
	movq	%rbp,64(%rsp)
	je	2f
	movq	%rdi,112(%rsp)
	shll	$5,%edi
	movl	$8,%esi
	callq	_rattle_alloc
	movq	%rdx,24(%rsp)
	testb	$1,%al
	je	8f
	xorl	%ebp,%ebp
	jmp	9f
	.p2align	4
10:
	movq	64(%rsp),%rdi
	movzwl	(%rdi),%ecx
	movzwl	2(%rdi),%eax
	movzbl	4(%rdi),%esi
	addq	$5,%rdi
	addq	$-5,%rdx
	movq	%rdx,72(%rsp)
	rolw	$8,%cx
	rolw	$8,%ax
	incl	%ecx
	incl	%eax
	movw	$1,%dx
	movq	%rdi,64(%rsp)
11:
	movq	%rbp,%rdi
	shlq	$5,%rdi
	movq	24(%rsp),%r8
	movq	%r15,(%r8,%rdi)
	movq	%r13,8(%r8,%rdi)
	movq	%r13,16(%r8,%rdi)
	movw	%dx,24(%r8,%rdi)
	movw	%cx,26(%r8,%rdi)
	movw	%ax,28(%r8,%rdi)
	movb	%sil,30(%r8,%rdi)
	movb	$0,31(%r8,%rdi)
	incq	%rbp
	movl	32(%rsp),%r15d
	shrb	%r15b
	je	5b
9:
	movl	%r15d,32(%rsp)
	testb	$1,%r15b
	jne	5f
	leaq	8(%rsp),%r15
	xorl	%r13d,%r13d
	jmp	9f
	.p2align	4
5:
	movl	%ebx,%r13d
	shrl	$30,%r13d
	leal	8(,%r13,8),%edi
	movl	$8,%esi
	callq	_rattle_alloc
	testb	$1,%al
	je	5f
	movq	%rdx,%r15
	movl	%ebx,20(%rsp)
	incl	%r13d
	xorl	%ebx,%ebx
	jmp	12f
	.p2align	4
13:
	xorl	%eax,%eax
	xorl	%r14d,%r14d
14:
	movq	%rax,(%r15,%rbx,8)
	incq	%rbx
	cmpq	%rbx,%r13
	je	15f
12:
	testq	%r14,%r14
	je	13b
	movsbq	(%r12),%rax
	testq	%rax,%rax
	js	12f
	decq	%r14
	incq	%r12
	jmp	14b
	.p2align	4
12:
	cmpq	$1,%r14
	je	12f
	movsbq	1(%r12),%rcx
	testq	%rcx,%rcx
	js	12f
	andl	$127,%eax
	shlq	$7,%rcx
	orq	%rcx,%rax
	movl	$2,%ecx
	jmp	13f
12:
	leaq	80(%rsp),%rdi
	movq	%r12,%rsi
	movq	%r14,%rdx
	callq	_rtp_vla.leb.long_number_at
	cmpb	$1,80(%rsp)
	jne	12f
	movq	88(%rsp),%rax
	movq	96(%rsp),%rcx
13:
	addq	%rcx,%r12
	subq	%rcx,%r14
	jmp	14b
12:
	xorl	%eax,%eax
	jmp	14b
	.p2align	4
15:
	movl	20(%rsp),%ebx
	shll	$2,%ebx
	movq	72(%rsp),%rdx
	cmpq	$5,%rdx
	jae	10b
9:
	xorl	%edx,%edx
	xorl	%esi,%esi
	xorl	%eax,%eax
	xorl	%ecx,%ecx
	jmp	11b
2:
	xorl	%ebp,%ebp
	leaq	8(%rsp),%rsi
	jmp	6b
5:
	testq	%rbp,%rbp
	movq	24(%rsp),%r14
	je	2f
	leaq	16(%r14),%rbx
	jmp	5f
	.p2align	4
6:
	addq	$32,%rbx
	decq	%rbp
	je	2f
5:
	cmpq	$0,(%rbx)
	je	6b
	movq	-16(%rbx),%rdi
	callq	_rattle_dealloc
	jmp	6b
2:
	movq	%r14,%rdi
	callq	_rattle_dealloc
8:
	cmpq	$0,56(%rsp)
	movq	48(%rsp),%rbp
	je	2f
	xorl	%r14d,%r14d
	jmp	5f
	.p2align	4
6:
	incq	%r14
	cmpq	56(%rsp),%r14
	je	2f
5:
	leaq	(%r14,%r14,2),%rax
	movq	(%rbp,%rax,8),%rbx
	movq	8(%rbp,%rax,8),%r12
	movq	16(%rbp,%rax,8),%r15
	testq	%r12,%r12
	je	5f
	leaq	16(%rbx),%r13
	jmp	8f
	.p2align	4
9:
	addq	$32,%r13
	decq	%r12
	je	5f
8:
	cmpq	$0,(%r13)
	je	9b
	movq	-16(%r13),%rdi
	callq	_rattle_dealloc
	jmp	9b
	.p2align	4
5:
	testq	%r15,%r15
	je	6b
	movq	%rbx,%rdi
	callq	_rattle_dealloc
	jmp	6b
2:
	movq	%rbp,%rdi
	callq	_rattle_dealloc
1:
	movb	$1,%al
	jmp	3b
7:
	movzbl	%al,%eax
	movq	48(%rsp),%rdx
	jmp	4b
	.cfi_endproc

	.p2align	4
_rtp_receive.hints.Hints.learn_now:
	.cfi_startproc
	pushq	%rbp
	.cfi_def_cfa_offset 16
	pushq	%r15
	.cfi_def_cfa_offset 24
	pushq	%r14
	.cfi_def_cfa_offset 32
	pushq	%r13
	.cfi_def_cfa_offset 40
	pushq	%r12
	.cfi_def_cfa_offset 48
	pushq	%rbx
	.cfi_def_cfa_offset 56
	subq	$24,%rsp
	.cfi_def_cfa_offset 80
	.cfi_offset %rbx,-56
	.cfi_offset %r12,-48
	.cfi_offset %r13,-40
	.cfi_offset %r14,-32
	.cfi_offset %r15,-24
	.cfi_offset %rbp,-16
	movq	%rsi,%rbx
	movq	%rdi,%r14
	leaq	32(%rdi),%r9
	movq	$0,32(%rdi)
	leaq	16(%rdi),%rbp
	movq	16(%rdi),%rax
	testq	%rax,%rax
	je	1f
	imull	$-1640531535,%edx,%edi
	imulq	%rax,%rdi
	shrq	$32,%rdi
	cmpq	%rdi,%rax
	jbe	2f
	movq	8(%r14),%r8
	shlq	$5,%rdi
	leaq	(%r8,%rdi),%rsi
	movdqu	(%r8,%rdi),%xmm0
	movd	%edx,%xmm1
	pshufd	$0,%xmm1,%xmm1
	pcmpeqd	%xmm0,%xmm1
	movmskps	%xmm1,%edi
	testl	%edi,%edi
	je	3f
	movzbl	%dil,%edi
	movl	$64,%r8d
	rep		bsfq	%rdi,%r8
	cmpq	$3,%r8
	ja	2f
4:
	movl	%edx,(%rsi,%r8,4)
	movl	%ecx,16(%rsi,%r8,4)
	movq	(%rbp),%rax
	jmp	5f
1:
	xorl	%eax,%eax
	jmp	5f
3:
	movdqu	16(%rsi),%xmm1
	por	%xmm0,%xmm1
	pxor	%xmm0,%xmm0
	pcmpeqd	%xmm1,%xmm0
	movmskps	%xmm0,%edi
	movl	$64,%r8d
	rep		bsfq	%rdi,%r8
	cmpq	$3,%r8
	jbe	4b
2:
	movq	$16,(%r9)
	cmpq	%rax,8(%rbx)
	jbe	1f
	movq	40(%r14),%rcx
	addq	$16,%rcx
	movq	$-1,%rdx
	cmovaeq	%rcx,%rdx
	movq	%rdx,40(%r14)
5:
	movq	40(%r14),%rcx
	incq	%rcx
	movq	$-1,%rsi
	cmovneq	%rcx,%rsi
	movq	%rsi,40(%r14)
	movq	8(%rbx),%rcx
	shrq	$3,%rcx
	cmpq	%rcx,%rax
	cmovaq	%rax,%rcx
	movq	%rcx,%rdx
	subq	%rsi,%rdx
	jbe	2f
	testq	%rax,%rax
	jne	1f
	movq	%rdx,32(%r14)
	movq	%rcx,40(%r14)
	jmp	1f
2:
	xorps	%xmm0,%xmm0
	movq	%r9,16(%rsp)
	movups	%xmm0,(%r9)
	movq	8(%r14),%rdi
	leaq	12(%rsp),%r15
	movq	%r15,8(%r14)
	cmpq	$0,24(%r14)
	movups	%xmm0,(%rbp)
	je	2f
	callq	_rattle_dealloc
2:
	movq	8(%rbx),%r12
	testq	%r12,%r12
	je	2f
	movq	%r12,%rax
	shrq	$58,%rax
	jne	1f
	movq	%r12,%r13
	shlq	$5,%r13
	movl	$4,%esi
	movq	%r13,%rdi
	callq	_rattle_alloc
	testb	$1,%al
	je	1f
	movq	%rdx,%r15
	cmpq	$1,%r12
	jne	3f
	xorl	%eax,%eax
	jmp	4f
2:
	xorl	%eax,%eax
	jmp	2f
3:
	addq	$-32,%r13
	movq	%r15,%rdi
	movq	%r13,%rsi
	callq	___bzero
	leaq	-1(%r12),%rax
4:
	movq	%rax,%rcx
	shlq	$5,%rcx
	xorps	%xmm0,%xmm0
	movups	%xmm0,16(%r15,%rcx)
	movups	%xmm0,(%r15,%rcx)
	incq	%rax
2:
	movq	8(%r14),%rdi
	movq	%r15,8(%r14)
	movq	%rax,16(%r14)
	cmpq	$0,24(%r14)
	movq	%r12,24(%r14)
	je	2f
	callq	_rattle_dealloc
2:
	movq	8(%rbx),%rax
	testq	%rax,%rax
	je	1f
	movq	(%rbx),%rcx
	movq	%rax,%rdx
	shrq	$2,%rdx
	xorl	%esi,%esi
2:
	movq	%rsi,%rdi
	shlq	$6,%rdi
	addq	%rcx,%rdi
	.p2align	4
3:
	movl	(%rdi),%r8d
	movq	(%rbp),%r9
	imull	$-1640531535,%r8d,%r10d
	imulq	%r9,%r10
	shrq	$32,%r10
	cmpq	%r10,%r9
	jbe	4f
	movq	8(%r14),%r11
	shlq	$5,%r10
	leaq	(%r11,%r10),%r9
	movdqu	(%r11,%r10),%xmm0
	movd	%r8d,%xmm1
	pshufd	$0,%xmm1,%xmm1
	pcmpeqd	%xmm0,%xmm1
	movmskps	%xmm1,%r10d
	testl	%r10d,%r10d
	je	5f
	movzbl	%r10b,%r10d
	movl	$64,%r11d
	rep		bsfq	%r10,%r11
	cmpq	$3,%r11
	jbe	6f
	jmp	4f
	.p2align	4
5:
	movdqu	16(%r9),%xmm1
	por	%xmm0,%xmm1
	pxor	%xmm0,%xmm0
	pcmpeqd	%xmm1,%xmm0
	movmskps	%xmm0,%r10d
	movl	$64,%r11d
	rep		bsfq	%r10,%r11
	cmpq	$3,%r11
	ja	4f
6:
	movl	%r8d,(%r9,%r11,4)
	movl	%esi,16(%r9,%r11,4)
	incq	%rsi
	addq	$64,%rdi
	cmpq	%rax,%rsi
	jb	3b
	jmp	1f
	.p2align	4
4:
	subq	$1,%rdx
	jb	3f
	incq	%rsi
	cmpq	%rax,%rsi
	jb	2b
	jmp	1f
3:
	movq	8(%r14),%rdi
	leaq	12(%rsp),%rax
	movq	%rax,8(%r14)
	xorps	%xmm0,%xmm0
	cmpq	$0,24(%r14)
	movups	%xmm0,(%rbp)
	je	2f
	callq	_rattle_dealloc
2:
	movq	8(%rbx),%rax
	movq	%rax,%rcx
	shrq	$60,%rcx
	shlq	$4,%rax
	xorl	%edx,%edx
	negq	%rcx
	sbbq	%rdx,%rdx
	orq	%rax,%rdx
	movq	16(%rsp),%rax
	movq	%rdx,(%rax)
1:
	addq	$24,%rsp
	popq	%rbx
	popq	%r12
	popq	%r13
	popq	%r14
	popq	%r15
	popq	%rbp
	retq
	.cfi_endproc

	.p2align	4
_rtp_std_alloc.vec.Vec.grow_amortized.fc13275a563fcb41:
	.cfi_startproc
	movq	8(%rdi),%rsi
	cmpq	$-1,%rsi
	je	1f
	pushq	%r14
	.cfi_def_cfa_offset 16
	pushq	%rbx
	.cfi_def_cfa_offset 24
	pushq	%rax
	.cfi_def_cfa_offset 32
	.cfi_offset %rbx,-24
	.cfi_offset %r14,-16
	movq	16(%rdi),%rcx
	cmpq	$4,%rsi
	movl	$3,%ebx
	cmovaeq	%rsi,%rbx
	incq	%rbx
	movq	%rcx,%rdx
	shrq	$62,%rdx
	leaq	(%rcx,%rcx),%rax
	cmpq	%rax,%rbx
	cmovaq	%rbx,%rax
	testq	%rdx,%rdx
	cmoveq	%rax,%rbx
	movq	%rbx,%rdx
	shrq	$57,%rdx
	jne	2f
	testq	%rcx,%rcx
	je	3f
	movq	%rdi,%r14
	movq	(%rdi),%rdi
	shlq	$6,%rsi
	movq	%rbx,%rdx
	shlq	$6,%rdx
	movl	$16,%ecx
	callq	_rattle_realloc
	testb	$1,%al
	je	2f
4:
	movq	%rdx,(%r14)
	movq	%rbx,16(%r14)
	movb	$1,%al
	addq	$8,%rsp
	popq	%rbx
	popq	%r14
	retq
1:
	xorl	%eax,%eax
	retq
3:
	movq	%rdi,%r14
	shlq	$6,%rax
	movl	$16,%esi
	movq	%rax,%rdi
	callq	_rattle_alloc
	testb	$1,%al
	jne	4b
2:
	xorl	%eax,%eax
	addq	$8,%rsp
	popq	%rbx
	popq	%r14
	retq
	.cfi_endproc

	.p2align	4
_rtp_std_alloc.vec.Vec.drop.96fc43e7743eb198:
	.cfi_startproc
	pushq	%rbp
	.cfi_def_cfa_offset 16
	pushq	%r15
	.cfi_def_cfa_offset 24
	pushq	%r14
	.cfi_def_cfa_offset 32
	pushq	%r13
	.cfi_def_cfa_offset 40
	pushq	%r12
	.cfi_def_cfa_offset 48
	pushq	%rbx
	.cfi_def_cfa_offset 56
	subq	$24,%rsp
	.cfi_def_cfa_offset 80
	.cfi_offset %rbx,-56
	.cfi_offset %r12,-48
	.cfi_offset %r13,-40
	.cfi_offset %r14,-32
	.cfi_offset %r15,-24
	.cfi_offset %rbp,-16
	movq	(%rdi),%rbx
	movq	8(%rdi),%rcx
	movq	16(%rdi),%rax
	movq	%rax,8(%rsp)
	movq	%rcx,16(%rsp)
	testq	%rcx,%rcx
	je	1f
	xorl	%r13d,%r13d
	jmp	2f
	.p2align	4
3:
	incq	%r13
	cmpq	16(%rsp),%r13
	je	1f
2:
	leaq	(,%r13,2),%rax
	addq	%r13,%rax
	movq	(%rbx,%rax,8),%r14
	movq	8(%rbx,%rax,8),%r15
	movq	16(%rbx,%rax,8),%rbp
	testq	%r15,%r15
	je	2f
	leaq	16(%r14),%r12
	jmp	4f
	.p2align	4
5:
	addq	$32,%r12
	decq	%r15
	je	2f
4:
	cmpq	$0,(%r12)
	je	5b
	movq	-16(%r12),%rdi
	callq	_rattle_dealloc
	jmp	5b
	.p2align	4
2:
	testq	%rbp,%rbp
	je	3b
	movq	%r14,%rdi
	callq	_rattle_dealloc
	jmp	3b
1:
	cmpq	$0,8(%rsp)
	je	1f
	movq	%rbx,%rdi
	addq	$24,%rsp
	popq	%rbx
	popq	%r12
	popq	%r13
	popq	%r14
	popq	%r15
	popq	%rbp
	jmp	_rattle_dealloc
1:
	addq	$24,%rsp
	popq	%rbx
	popq	%r12
	popq	%r13
	popq	%r14
	popq	%r15
	popq	%rbp
	retq
	.cfi_endproc

	.p2align	4
_rtp_std_collections.btree.node.Node.destroy.2fe7f96373f75378:
	.cfi_startproc
	pushq	%rbp
	.cfi_def_cfa_offset 16
	pushq	%r15
	.cfi_def_cfa_offset 24
	pushq	%r14
	.cfi_def_cfa_offset 32
	pushq	%r13
	.cfi_def_cfa_offset 40
	pushq	%r12
	.cfi_def_cfa_offset 48
	pushq	%rbx
	.cfi_def_cfa_offset 56
	pushq	%rax
	.cfi_def_cfa_offset 64
	.cfi_offset %rbx,-56
	.cfi_offset %r12,-48
	.cfi_offset %r13,-40
	.cfi_offset %r14,-32
	.cfi_offset %r15,-24
	.cfi_offset %rbp,-16
	movq	%rdi,%rbx
	movzwl	(%rdi),%r13d
	leaq	64(%rdi),%r14
	cmpw	$0,2(%rdi)
	je	1f
	testq	%r13,%r13
	je	2f
	leaq	184(%rbx),%rbp
	leaq	1(%r13),%r15
	jmp	3f
	.p2align	4
4:
	testq	%r13,%r13
	je	2f
3:
	movq	(%rbp),%r12
	decq	%r15
	xorl	%eax,%eax
	cmpq	$257,%r15
	jb	3f
	leaq	240(%rbx),%rcx
	.p2align	4
5:
	xorl	%edx,%edx
	.p2align	4
6:
	movups	-48(%rcx,%rdx,8),%xmm0
	movups	-32(%rcx,%rdx,8),%xmm1
	movups	-16(%rcx,%rdx,8),%xmm2
	movups	(%rcx,%rdx,8),%xmm3
	movups	%xmm0,-56(%rcx,%rdx,8)
	movups	%xmm1,-40(%rcx,%rdx,8)
	movups	%xmm2,-24(%rcx,%rdx,8)
	movups	%xmm3,-8(%rcx,%rdx,8)
	addq	$8,%rdx
	cmpq	$256,%rdx
	jne	6b
	addq	$256,%rax
	movq	%r15,%rdx
	subq	%rax,%rdx
	addq	$2048,%rcx
	cmpq	$256,%rdx
	ja	5b
	cmpq	%rax,%r15
	je	5f
6:
	leaq	(,%rax,8),%rdi
	addq	%rbp,%rdi
	leaq	8(,%rax,8),%rsi
	addq	%rbp,%rsi
	shlq	$3,%rdx
	callq	_memmove
5:
	movq	%r12,%rdi
	callq	_rtp_std_collections.btree.node.Node.destroy.2fe7f96373f75378
	decq	%r13
	cmpq	$513,%r13
	jb	7f
	xorl	%esi,%esi
	leaq	56(%rbx),%rcx
	.p2align	4
8:
	xorl	%eax,%eax
	.p2align	4
9:
	movups	-48(%rcx,%rax,4),%xmm0
	movups	-32(%rcx,%rax,4),%xmm1
	movups	-16(%rcx,%rax,4),%xmm2
	movups	(%rcx,%rax,4),%xmm3
	movups	%xmm0,-52(%rcx,%rax,4)
	movups	%xmm1,-36(%rcx,%rax,4)
	movups	%xmm2,-20(%rcx,%rax,4)
	movups	%xmm3,-4(%rcx,%rax,4)
	addq	$16,%rax
	cmpq	$512,%rax
	jne	9b
	addq	$512,%rsi
	movq	%r13,%rax
	subq	%rsi,%rax
	addq	$2048,%rcx
	cmpq	$512,%rax
	ja	8b
	leaq	(,%rsi,4),%rcx
	leaq	4(%rbx),%rdx
	leaq	(%rdx,%rsi,4),%rdx
	cmpq	%rsi,%r13
	jne	8f
	jmp	9f
	.p2align	4
3:
	movq	%r15,%rdx
	cmpq	%rax,%r15
	jne	6b
	jmp	5b
	.p2align	4
7:
	xorl	%ecx,%ecx
	leaq	4(%rbx),%rdx
	movq	%r13,%rax
	xorl	%esi,%esi
	cmpq	%rsi,%r13
	je	9f
8:
	cmpq	$8,%rax
	jb	3f
	leaq	(%rcx,%rbx),%rsi
	subq	%rdx,%rsi
	cmpq	$32,%rsi
	jae	5f
3:
	xorl	%esi,%esi
3:
	movq	%rax,%r8
	movq	%rsi,%rdi
	andq	$3,%r8
	je	6f
	leaq	4(%rbx),%rdi
	leaq	(%rdi,%rcx),%r9
	movq	%rsi,%rdi
	.p2align	4
7:
	movl	4(%rdx,%rdi,4),%r10d
	movl	%r10d,(%r9,%rdi,4)
	incq	%rdi
	decq	%r8
	jne	7b
6:
	subq	%rax,%rsi
	cmpq	$-4,%rsi
	ja	9f
	leaq	16(%rbx),%rsi
	addq	%rsi,%rcx
	.p2align	4
6:
	movl	4(%rdx,%rdi,4),%esi
	movl	%esi,-12(%rcx,%rdi,4)
	movl	8(%rdx,%rdi,4),%esi
	movl	%esi,-8(%rcx,%rdi,4)
	movl	12(%rdx,%rdi,4),%esi
	movl	%esi,-4(%rcx,%rdi,4)
	movl	16(%rdx,%rdi,4),%esi
	movl	%esi,(%rcx,%rdi,4)
	addq	$4,%rdi
	cmpq	%rdi,%rax
	jne	6b
	jmp	9f
5:
	movl	%eax,%esi
	andl	$1016,%esi
	leaq	20(%rbx),%rdi
	addq	%rcx,%rdi
	xorl	%r8d,%r8d
	.p2align	4
5:
	movups	4(%rdx,%r8,4),%xmm0
	movups	20(%rdx,%r8,4),%xmm1
	movups	%xmm0,-16(%rdi,%r8,4)
	movups	%xmm1,(%rdi,%r8,4)
	addq	$8,%r8
	cmpq	%r8,%rsi
	jne	5b
	cmpq	%rsi,%rax
	jne	3b
	.p2align	4
9:
	cmpq	$257,%r13
	jb	3f
	xorl	%esi,%esi
	leaq	120(%rbx),%rcx
	.p2align	4
5:
	xorl	%eax,%eax
	.p2align	4
6:
	movups	-48(%rcx,%rax,8),%xmm0
	movups	-32(%rcx,%rax,8),%xmm1
	movups	-16(%rcx,%rax,8),%xmm2
	movups	(%rcx,%rax,8),%xmm3
	movups	%xmm0,-56(%rcx,%rax,8)
	movups	%xmm1,-40(%rcx,%rax,8)
	movups	%xmm2,-24(%rcx,%rax,8)
	movups	%xmm3,-8(%rcx,%rax,8)
	addq	$8,%rax
	cmpq	$256,%rax
	jne	6b
	addq	$256,%rsi
	movq	%r13,%rax
	subq	%rsi,%rax
	addq	$2048,%rcx
	cmpq	$256,%rax
	ja	5b
	leaq	(,%rsi,8),%rcx
	leaq	(%r14,%rsi,8),%rdx
	cmpq	%rsi,%r13
	je	4b
	jmp	5f
	.p2align	4
3:
	xorl	%ecx,%ecx
	movq	%r14,%rdx
	movq	%r13,%rax
	xorl	%esi,%esi
	cmpq	%rsi,%r13
	je	4b
5:
	cmpq	$4,%rax
	jb	3f
	leaq	56(%rbx),%rsi
	addq	%rcx,%rsi
	subq	%rdx,%rsi
	cmpq	$32,%rsi
	jae	5f
3:
	xorl	%esi,%esi
3:
	movq	%rax,%r8
	movq	%rsi,%rdi
	andq	$3,%r8
	je	6f
	leaq	(%r14,%rcx),%r9
	movq	%rsi,%rdi
	.p2align	4
7:
	movq	8(%rdx,%rdi,8),%r10
	movq	%r10,(%r9,%rdi,8)
	incq	%rdi
	decq	%r8
	jne	7b
6:
	subq	%rax,%rsi
	cmpq	$-4,%rsi
	ja	4b
	leaq	88(%rbx),%rsi
	addq	%rsi,%rcx
	.p2align	4
6:
	movq	8(%rdx,%rdi,8),%rsi
	movq	%rsi,-24(%rcx,%rdi,8)
	movq	16(%rdx,%rdi,8),%rsi
	movq	%rsi,-16(%rcx,%rdi,8)
	movq	24(%rdx,%rdi,8),%rsi
	movq	%rsi,-8(%rcx,%rdi,8)
	movq	32(%rdx,%rdi,8),%rsi
	movq	%rsi,(%rcx,%rdi,8)
	addq	$4,%rdi
	cmpq	%rdi,%rax
	jne	6b
	jmp	4b
5:
	movl	%eax,%esi
	andl	$508,%esi
	leaq	80(%rbx),%rdi
	addq	%rcx,%rdi
	xorl	%r8d,%r8d
	.p2align	4
5:
	movups	8(%rdx,%r8,8),%xmm0
	movups	24(%rdx,%r8,8),%xmm1
	movups	%xmm0,-16(%rdi,%r8,8)
	movups	%xmm1,(%rdi,%r8,8)
	addq	$4,%r8
	cmpq	%r8,%rsi
	jne	5b
	cmpq	%rsi,%rax
	je	4b
	jmp	3b
2:
	movq	184(%rbx),%rdi
	callq	_rtp_std_collections.btree.node.Node.destroy.2fe7f96373f75378
	jmp	2f
1:
	cmpw	$15,%r13w
	jbe	1f
	movl	%r13d,%r12d
	shrl	%r12d
	subq	%r12,%r13
	leaq	4(%rbx),%rdi
	leaq	(%rdi,%r13,4),%rsi
	movq	%r12,%rdx
	callq	_rtp_core.slice.edits.mirror.24.rtp_base.id.ssrc.Ssrc
	leaq	(%r14,%r13,8),%rsi
	movq	%r14,%rdi
	movq	%r12,%rdx
	callq	_rtp_core.slice.edits.mirror.i64
	jmp	2f
1:
	cmpw	$2,%r13w
	jb	2f
	leaq	-2(%r13),%rcx
	movq	%rcx,%rax
	shrq	%rax
	cmpq	$1,%r13
	je	1f
	leaq	4(%rbx),%rdi
	movl	(%rdi),%edx
	movl	-4(%rdi,%r13,4),%esi
	movl	%esi,(%rdi)
	movl	%edx,-4(%rdi,%r13,4)
1:
	testq	%rax,%rax
	je	1f
	cmpq	$1,%rcx
	jbe	3f
	movl	8(%rbx),%ecx
	movl	-4(%rbx,%r13,4),%edx
	movl	%edx,8(%rbx)
	movl	%ecx,-4(%rbx,%r13,4)
	jmp	4f
3:
	testq	%rcx,%rcx
	jne	4f
	rolq	$32,4(%rbx)
4:
	cmpq	$1,%rax
	je	1f
	leaq	-3(%r13),%rcx
	cmpq	$2,%rcx
	jbe	3f
	movl	12(%rbx),%ecx
	movl	-8(%rbx,%r13,4),%edx
	movl	%edx,12(%rbx)
	movl	%ecx,-8(%rbx,%r13,4)
	jmp	4f
3:
	cmpl	$2,%ecx
	je	4f
	movl	-8(%rbx,%r13,4),%ecx
	movl	12(%rbx),%edx
	movl	%edx,-8(%rbx,%r13,4)
	movl	%ecx,12(%rbx)
4:
	cmpq	$2,%rax
	je	1f
	leaq	-4(%r13),%rcx
	cmpq	$3,%rcx
	jbe	3f
	movl	16(%rbx),%ecx
	movl	-12(%rbx,%r13,4),%edx
	movl	%edx,16(%rbx)
	movl	%ecx,-12(%rbx,%r13,4)
	jmp	4f
3:
	cmpl	$3,%ecx
	je	4f
	movl	-12(%rbx,%r13,4),%ecx
	movl	16(%rbx),%edx
	movl	%edx,-12(%rbx,%r13,4)
	movl	%ecx,16(%rbx)
4:
	cmpq	$3,%rax
	je	1f
	leaq	-5(%r13),%rcx
	cmpq	$4,%rcx
	jbe	3f
	movl	20(%rbx),%ecx
	movl	-16(%rbx,%r13,4),%edx
	movl	%edx,20(%rbx)
	movl	%ecx,-16(%rbx,%r13,4)
	jmp	4f
3:
	cmpl	$4,%ecx
	je	4f
	movl	-16(%rbx,%r13,4),%ecx
	movl	20(%rbx),%edx
	movl	%edx,-16(%rbx,%r13,4)
	movl	%ecx,20(%rbx)
4:
	cmpq	$4,%rax
	je	1f
	leaq	-6(%r13),%rcx
	cmpq	$5,%rcx
	jbe	3f
	movl	24(%rbx),%ecx
	movl	-20(%rbx,%r13,4),%edx
	movl	%edx,24(%rbx)
	movl	%ecx,-20(%rbx,%r13,4)
	jmp	4f
3:
	cmpl	$5,%ecx
	je	4f
	movl	-20(%rbx,%r13,4),%ecx
	movl	24(%rbx),%edx
	movl	%edx,-20(%rbx,%r13,4)
	movl	%ecx,24(%rbx)
4:
	cmpq	$5,%rax
	je	1f
	leaq	-7(%r13),%rcx
	cmpq	$6,%rcx
	jbe	3f
	movl	28(%rbx),%ecx
	movl	-24(%rbx,%r13,4),%edx
	movl	%edx,28(%rbx)
	movl	%ecx,-24(%rbx,%r13,4)
	jmp	1f
3:
	cmpl	$6,%ecx
	je	1f
	movl	-24(%rbx,%r13,4),%ecx
	movl	28(%rbx),%edx
	movl	%edx,-24(%rbx,%r13,4)
	movl	%ecx,28(%rbx)
1:
	incq	%rax
	decq	%r13
	xorl	%ecx,%ecx
	jmp	1f
	.p2align	4
3:
	movq	(%r14,%rcx,8),%rdx
	movq	(%r14,%r13,8),%rsi
	movq	%rsi,(%r14,%rcx,8)
	movq	%rdx,(%r14,%r13,8)
4:
	incq	%rcx
	decq	%r13
	cmpq	%rcx,%rax
	je	2f
1:
	cmpq	%r13,%rcx
	jb	3b
	jbe	4b
	movq	(%r14,%r13,8),%rdx
	movq	(%r14,%rcx,8),%rsi
	movq	%rsi,(%r14,%r13,8)
	movq	%rdx,(%r14,%rcx,8)
	jmp	4b
2:
	movq	%rbx,%rdi
	addq	$8,%rsp
	popq	%rbx
	popq	%r12
	popq	%r13
	popq	%r14
	popq	%r15
	popq	%rbp
	jmp	_rattle_dealloc
	.cfi_endproc

	.p2align	4
_rtp_core.slice.edits.mirror.24.rtp_base.id.ssrc.Ssrc:
	.cfi_startproc
	leaq	(%rdi,%rdx,4),%rax
	leaq	(%rsi,%rdx,4),%rcx
	cmpq	%rcx,%rdi
	setb	%cl
	cmpq	%rax,%rsi
	setb	%al
	testb	%al,%cl
	je	1f
	xorl	%eax,%eax
	jmp	2f
1:
	movabsq	$9223372036854775804,%rax
	andq	%rdx,%rax
	movq	%rdx,%rcx
	andq	$-4,%rcx
	negq	%rcx
	leaq	(%rsi,%rdx,4),%r8
	addq	$-16,%r8
	xorl	%r9d,%r9d
	movq	%rdi,%r10
	.p2align	4
1:
	movdqu	(%r10),%xmm0
	movdqu	(%r8,%r9,4),%xmm1
	pshufd	$27,%xmm1,%xmm1
	movdqu	%xmm1,(%r10)
	pshufd	$27,%xmm0,%xmm0
	movdqu	%xmm0,(%r8,%r9,4)
	addq	$-4,%r9
	addq	$16,%r10
	cmpq	%r9,%rcx
	jne	1b
	cmpq	%rax,%rdx
	je	1f
2:
	movq	%rax,%rcx
	orq	$1,%rcx
	testb	$1,%dl
	je	2f
	movq	%rax,%r8
	notq	%r8
	addq	%rdx,%r8
	movl	(%rdi,%rax,4),%r9d
	movl	(%rsi,%r8,4),%r10d
	movl	%r10d,(%rdi,%rax,4)
	movl	%r9d,(%rsi,%r8,4)
	movq	%rcx,%rax
2:
	cmpq	%rcx,%rdx
	je	1f
	subq	%rax,%rdx
	leaq	(%rdi,%rax,4),%rax
	addq	$4,%rax
	.p2align	4
2:
	movl	-4(%rax),%ecx
	movl	-4(%rsi,%rdx,4),%edi
	movl	%edi,-4(%rax)
	movl	%ecx,-4(%rsi,%rdx,4)
	movl	(%rax),%ecx
	movl	-8(%rsi,%rdx,4),%edi
	movl	%edi,(%rax)
	movl	%ecx,-8(%rsi,%rdx,4)
	addq	$8,%rax
	addq	$-2,%rdx
	jne	2b
1:
	retq
	.cfi_endproc

	.p2align	4
_rtp_core.slice.edits.mirror.i64:
	.cfi_startproc
	leaq	(%rdi,%rdx,8),%rax
	leaq	(%rsi,%rdx,8),%rcx
	cmpq	%rcx,%rdi
	setb	%cl
	cmpq	%rax,%rsi
	setb	%al
	testb	%al,%cl
	je	1f
	xorl	%eax,%eax
	jmp	2f
1:
	movabsq	$9223372036854775806,%rax
	andq	%rdx,%rax
	movq	%rdx,%rcx
	andq	$-2,%rcx
	negq	%rcx
	leaq	(%rsi,%rdx,8),%r8
	addq	$-16,%r8
	xorl	%r9d,%r9d
	movq	%rdi,%r10
	.p2align	4
1:
	movdqu	(%r10),%xmm0
	movdqu	(%r8,%r9,8),%xmm1
	pshufd	$78,%xmm1,%xmm1
	movdqu	%xmm1,(%r10)
	pshufd	$78,%xmm0,%xmm0
	movdqu	%xmm0,(%r8,%r9,8)
	addq	$-2,%r9
	addq	$16,%r10
	cmpq	%r9,%rcx
	jne	1b
	cmpq	%rax,%rdx
	je	1f
2:
	movq	%rax,%rcx
	orq	$1,%rcx
	testb	$1,%dl
	je	2f
	movq	%rax,%r8
	notq	%r8
	addq	%rdx,%r8
	movq	(%rdi,%rax,8),%r9
	movq	(%rsi,%r8,8),%r10
	movq	%r10,(%rdi,%rax,8)
	movq	%r9,(%rsi,%r8,8)
	movq	%rcx,%rax
2:
	cmpq	%rcx,%rdx
	je	1f
	subq	%rax,%rdx
	leaq	(%rdi,%rax,8),%rax
	addq	$8,%rax
	.p2align	4
2:
	movq	-8(%rax),%rcx
	movq	-8(%rsi,%rdx,8),%rdi
	movq	%rdi,-8(%rax)
	movq	%rcx,-8(%rsi,%rdx,8)
	movq	(%rax),%rcx
	movq	-16(%rsi,%rdx,8),%rdi
	movq	%rdi,(%rax)
	movq	%rcx,-16(%rsi,%rdx,8)
	addq	$16,%rax
	addq	$-2,%rdx
	jne	2b
1:
	retq
	.cfi_endproc

	.p2align	4
_rtp_core.fmt.formatter.Formatter.write_indented.5e1603e38c63b5f6:
	.cfi_startproc
	pushq	%rbp
	.cfi_def_cfa_offset 16
	pushq	%r15
	.cfi_def_cfa_offset 24
	pushq	%r14
	.cfi_def_cfa_offset 32
	pushq	%r13
	.cfi_def_cfa_offset 40
	pushq	%r12
	.cfi_def_cfa_offset 48
	pushq	%rbx
	.cfi_def_cfa_offset 56
	pushq	%rax
	.cfi_def_cfa_offset 64
	.cfi_offset %rbx,-56
	.cfi_offset %r12,-48
	.cfi_offset %r13,-40
	.cfi_offset %r14,-32
	.cfi_offset %r15,-24
	.cfi_offset %rbp,-16
	testq	%rdx,%rdx
	je	1f
	movq	%rsi,%r14
	movq	%rdi,%r15
	xorl	%ecx,%ecx
	xorl	%ebp,%ebp
	movq	%rdx,(%rsp)
	jmp	2f
	.p2align	4
3:
	addq	%r14,%r13
	movb	$1,56(%r15)
	movq	%r15,%rdi
	movq	%r13,%rsi
	movq	%r12,%rdx
	callq	_rtp_core.fmt.formatter.Formatter.write_raw.5e1603e38c63b5f6
	movq	%rbp,%rcx
	testb	%al,%al
	movq	(%rsp),%rdx
	jne	4f
5:
	cmpq	%rdx,%rbp
	je	6f
2:
	movq	%rbp,%rax
	incq	%rbp
	cmpb	$10,(%r14,%rax)
	jne	5b
	xorl	%r13d,%r13d
	movq	%rbp,%r12
	subq	%rcx,%r12
	cmovaeq	%rcx,%r13
	cmpq	%rax,%rcx
	movq	%rbp,%rcx
	ja	5b
	cmpb	$1,56(%r15)
	jne	3b
	movq	48(%r15),%rbx
	testq	%rbx,%rbx
	je	3b
	.p2align	4
2:
	leaq	Lrtp__static.66(%rip),%rsi
	movl	$4,%edx
	movq	%r15,%rdi
	callq	_rtp_core.fmt.formatter.Formatter.write_raw.5e1603e38c63b5f6
	testb	%al,%al
	jne	4f
	decq	%rbx
	jne	2b
	jmp	3b
1:
	xorl	%eax,%eax
	jmp	1f
6:
	xorl	%eax,%eax
	cmpq	%rdx,%rcx
	movq	%rcx,%r12
	cmovaq	%rax,%r12
	subq	%rcx,%rdx
	cmovbq	%rax,%rdx
	jbe	1f
	movq	%rdx,%r13
	cmpb	$1,56(%r15)
	jne	2f
	movq	48(%r15),%rbx
	testq	%rbx,%rbx
	je	2f
	.p2align	4
3:
	leaq	Lrtp__static.66(%rip),%rsi
	movl	$4,%edx
	movq	%r15,%rdi
	callq	_rtp_core.fmt.formatter.Formatter.write_raw.5e1603e38c63b5f6
	testb	%al,%al
	jne	4f
	decq	%rbx
	jne	3b
2:
	addq	%r12,%r14
	movb	$0,56(%r15)
	movq	%r15,%rdi
	movq	%r14,%rsi
	movq	%r13,%rdx
	addq	$8,%rsp
	popq	%rbx
	popq	%r12
	popq	%r13
	popq	%r14
	popq	%r15
	popq	%rbp
	jmp	_rtp_core.fmt.formatter.Formatter.write_raw.5e1603e38c63b5f6
4:
	movb	$1,%al
1:
	addq	$8,%rsp
	popq	%rbx
	popq	%r12
	popq	%r13
	popq	%r14
	popq	%r15
	popq	%rbp
	retq
	.cfi_endproc

	.p2align	4
_rtp_core.fmt.formatter.Formatter.write_raw.5e1603e38c63b5f6:
	.cfi_startproc
	testq	%rdx,%rdx
	je	1f
	xorl	%ecx,%ecx
	jmp	2f
	.p2align	4
3:
	addq	%r10,%rcx
	cmpq	%rdx,%rcx
	jae	1f
2:
	movzbl	(%rsi,%rcx),%r8d
	movl	$1,%r10d
	testb	%r8b,%r8b
	jns	3b
	leaq	1(%rcx),%r9
	movb	$1,%al
	cmpq	%r9,%rdx
	jbe	2f
	movzbl	(%rsi,%r9),%r9d
	testb	%r9b,%r9b
	jns	2f
	movzbl	%r9b,%r10d
	cmpb	$-64,%r9b
	movl	$192,%r9d
	cmovbl	%r10d,%r9d
	cmpb	$-62,%r8b
	jb	2f
	movl	%r9d,%r10d
	andb	$127,%r10b
	cmpb	$63,%r10b
	ja	2f
	movl	$2,%r10d
	cmpb	$-32,%r8b
	jb	3b
	leaq	2(%rcx),%r10
	cmpq	%r10,%rdx
	jbe	2f
	cmpb	$-65,(%rsi,%r10)
	jg	2f
	andl	$127,%r9d
	cmpb	$-17,%r8b
	ja	4f
	movl	%r8d,%r10d
	shll	$12,%r10d
	shll	$6,%r9d
	addl	%r10d,%r9d
	addl	$-917504,%r9d
	cmpl	$2048,%r9d
	jb	2f
	movl	$3,%r10d
	cmpl	$55296,%r9d
	jb	3b
	cmpb	$-18,%r8b
	jae	3b
	jmp	2f
4:
	leaq	3(%rcx),%r10
	cmpq	%r10,%rdx
	jbe	2f
	cmpb	$-65,(%rsi,%r10)
	jg	2f
	shll	$18,%r8d
	shll	$12,%r9d
	addl	%r9d,%r8d
	addl	$-62980096,%r8d
	movl	$4,%r10d
	cmpl	$1048575,%r8d
	jbe	3b
2:
	retq
1:
	pushq	%r15
	.cfi_def_cfa_offset 16
	pushq	%r14
	.cfi_def_cfa_offset 24
	pushq	%r12
	.cfi_def_cfa_offset 32
	pushq	%rbx
	.cfi_def_cfa_offset 40
	pushq	%rax
	.cfi_def_cfa_offset 48
	.cfi_offset %rbx,-40
	.cfi_offset %r12,-32
	.cfi_offset %r14,-24
	.cfi_offset %r15,-16
	movq	8(%rdi),%rcx
	movq	16(%rdi),%rbx
	movq	%rbx,%rax
	subq	%rcx,%rax
	cmpq	%rax,%rdx
	ja	1f
2:
	leaq	8(%rdi),%rax
	leaq	(%rcx,%rdx),%r14
	movq	(%rdi),%r15
	xorps	%xmm0,%xmm0
	movups	%xmm0,(%rax)
	leaq	(%r15,%rcx),%rax
	movq	%rax,%r8
	subq	%rsi,%r8
	cmpq	%rdx,%r8
	jae	3f
	cmpq	$4,%rdx
	jb	4f
	cmpq	$32,%r8
	jae	5f
4:
	xorl	%r8d,%r8d
4:
	movq	%rdx,%r10
	movq	%r8,%r9
	andq	$3,%r10
	je	6f
	movq	%r8,%r9
	.p2align	4
7:
	movzbl	(%rsi,%r9),%r11d
	movb	%r11b,(%rax,%r9)
	incq	%r9
	decq	%r10
	jne	7b
6:
	subq	%rdx,%r8
	cmpq	$-4,%r8
	ja	6f
	leaq	(%rcx,%r15),%rax
	addq	$3,%rax
	.p2align	4
7:
	movzbl	(%rsi,%r9),%ecx
	movb	%cl,-3(%rax,%r9)
	movzbl	1(%rsi,%r9),%ecx
	movb	%cl,-2(%rax,%r9)
	movzbl	2(%rsi,%r9),%ecx
	movb	%cl,-1(%rax,%r9)
	movzbl	3(%rsi,%r9),%ecx
	movb	%cl,(%rax,%r9)
	addq	$4,%r9
	cmpq	%r9,%rdx
	jne	7b
	jmp	6f
3:
	movq	%rdi,%r12
	movq	%rax,%rdi
	callq	_memmove
	movq	%r12,%rdi
6:
	movq	%r15,(%rdi)
	movq	%r14,8(%rdi)
	movq	%rbx,16(%rdi)
	xorl	%eax,%eax
3:
	addq	$8,%rsp
	popq	%rbx
	popq	%r12
	popq	%r14
	popq	%r15
	retq
5:
	cmpq	$32,%rdx
	jae	5f
	xorl	%r8d,%r8d
	jmp	7f
5:
	movq	%rdx,%r8
	andq	$-32,%r8
	leaq	(%rcx,%r15),%r9
	addq	$16,%r9
	xorl	%r10d,%r10d
	.p2align	4
5:
	movups	(%rsi,%r10),%xmm0
	movups	16(%rsi,%r10),%xmm1
	movups	%xmm0,-16(%r9,%r10)
	movups	%xmm1,(%r9,%r10)
	addq	$32,%r10
	cmpq	%r10,%r8
	jne	5b
	cmpq	%r8,%rdx
	je	6b
	testb	$28,%dl
	je	4b
7:
	movq	%r8,%r9
	movq	%rdx,%r8
	andq	$-4,%r8
	.p2align	4
5:
	movl	(%rsi,%r9),%r10d
	movl	%r10d,(%rax,%r9)
	addq	$4,%r9
	cmpq	%r9,%r8
	jne	5b
	cmpq	%r8,%rdx
	je	6b
	jmp	4b
1:
	movq	%rdi,%rbx
	movq	%rsi,%r14
	movq	%rdx,%rsi
	movq	%rdx,%r15
	callq	_rtp_std_alloc.vec.Vec.grow_amortized.9d744d77114e6601
	movl	%eax,%ecx
	movb	$1,%al
	testb	%cl,%cl
	je	3b
	movq	%r14,%rsi
	movq	%r15,%rdx
	movq	%rbx,%rdi
	movq	8(%rbx),%rcx
	movq	16(%rbx),%rbx
	jmp	2b
	.cfi_endproc

	.section	__TEXT,__literal16,16byte_literals
	.p2align	4,0x0
1:
	.byte	0
	.byte	1
	.byte	2
	.byte	3
	.byte	4
	.byte	5
	.byte	6
	.byte	7
	.byte	8
	.byte	9
	.byte	10
	.byte	11
	.byte	12
	.byte	13
	.byte	14
	.byte	15
2:
	.byte	16
	.byte	17
	.byte	18
	.byte	19
	.byte	20
	.byte	21
	.byte	22
	.byte	23
	.byte	24
	.byte	25
	.byte	26
	.byte	27
	.byte	28
	.byte	29
	.byte	30
	.byte	31
	.section	__TEXT,__text,regular,pure_instructions
	.p2align	4
_rtp_listing.printing.write_text.df9e9f1468b30f79:
	.cfi_startproc
	pushq	%r15
	.cfi_def_cfa_offset 16
	pushq	%r14
	.cfi_def_cfa_offset 24
	pushq	%rbx
	.cfi_def_cfa_offset 32
	subq	$96,%rsp
	.cfi_def_cfa_offset 128
	.cfi_offset %rbx,-32
	.cfi_offset %r14,-24
	.cfi_offset %r15,-16
	movq	%rsi,%rbx
	movq	%rdi,%r14
	movq	$-1,%r15
	jmp	3f
	.p2align	4
4:
	decq	%r15
	je	5f
3:
	testq	%rbx,%rbx
	je	3f
	movl	$1,%edi
	movq	%r14,%rsi
	movq	%rbx,%rdx
	callq	_rtp_lines_write
	testq	%rax,%rax
	js	6f
	je	5f
	cmpq	%rbx,%rax
	cmovaeq	%rbx,%rax
	addq	%rax,%r14
	subq	%rax,%rbx
	jmp	4b
	.p2align	4
6:
	movq	%rsp,%rdi
	callq	_rtp_std_io.io.error.last_error
	movq	(%rsp),%rax
	shrq	$8,%rax
	movaps	1b(%rip),%xmm0
	movaps	%xmm0,(%rsp)
	movaps	2b(%rip),%xmm0
	movaps	%xmm0,16(%rsp)
	movabsq	$2820983053732684064,%rcx
	movq	%rcx,32(%rsp)
	movb	$40,40(%rsp)
	cmpb	$41,%al
	jae	5f
	andl	$63,%eax
	cmpb	$35,(%rsp,%rax)
	je	4b
5:
	movb	$1,%al
	movb	$3,%dl
	jmp	1f
3:
	xorl	%edx,%edx
	xorl	%eax,%eax
1:
	addq	$96,%rsp
	popq	%rbx
	popq	%r14
	popq	%r15
	retq
	.cfi_endproc

	.section	__TEXT,__literal16,16byte_literals
	.p2align	4,0x0
1:
	.byte	116
	.byte	104
	.byte	105
	.byte	115
	.byte	32
	.byte	109
	.byte	97
	.byte	99
	.byte	104
	.byte	105
	.byte	110
	.byte	101
	.byte	32
	.byte	108
	.byte	97
	.byte	99
2:
	.byte	107
	.byte	115
	.byte	32
	.byte	97
	.byte	32
	.byte	102
	.byte	101
	.byte	97
	.byte	116
	.byte	117
	.byte	114
	.byte	101
	.byte	32
	.byte	111
	.byte	102
	.byte	32
3:
	.byte	120
	.byte	56
	.byte	54
	.byte	45
	.byte	54
	.byte	52
	.byte	45
	.byte	118
	.byte	50
	.byte	44
	.byte	32
	.byte	119
	.byte	104
	.byte	105
	.byte	99
	.byte	104
4:
	.byte	32
	.byte	116
	.byte	104
	.byte	105
	.byte	115
	.byte	32
	.byte	112
	.byte	114
	.byte	111
	.byte	103
	.byte	114
	.byte	97
	.byte	109
	.byte	32
	.byte	119
	.byte	97
5:
	.byte	115
	.byte	32
	.byte	98
	.byte	117
	.byte	105
	.byte	108
	.byte	116
	.byte	32
	.byte	102
	.byte	111
	.byte	114
	.byte	58
	.byte	32
	.byte	114
	.byte	117
	.byte	110
6:
	.byte	32
	.byte	105
	.byte	116
	.byte	32
	.byte	111
	.byte	110
	.byte	32
	.byte	97
	.byte	110
	.byte	111
	.byte	116
	.byte	104
	.byte	101
	.byte	114
	.byte	32
	.byte	109
7:
	.byte	97
	.byte	99
	.byte	104
	.byte	105
	.byte	110
	.byte	101
	.byte	44
	.byte	32
	.byte	111
	.byte	114
	.byte	32
	.byte	98
	.byte	117
	.byte	105
	.byte	108
	.byte	100
8:
	.byte	32
	.byte	105
	.byte	116
	.byte	32
	.byte	119
	.byte	105
	.byte	116
	.byte	104
	.byte	32
	.byte	45
	.byte	45
	.byte	99
	.byte	112
	.byte	117
	.byte	32
	.byte	120
9:
	.space	16,10
10:
	.byte	104
	.byte	116
	.byte	116
	.byte	112
	.byte	58
	.byte	47
	.byte	47
	.byte	119
	.byte	119
	.byte	119
	.byte	46
	.byte	119
	.byte	101
	.byte	98
	.byte	114
	.byte	116
11:
	.byte	99
	.byte	46
	.byte	111
	.byte	114
	.byte	103
	.byte	47
	.byte	101
	.byte	120
	.byte	112
	.byte	101
	.byte	114
	.byte	105
	.byte	109
	.byte	101
	.byte	110
	.byte	116
12:
	.byte	115
	.byte	47
	.byte	114
	.byte	116
	.byte	112
	.byte	45
	.byte	104
	.byte	100
	.byte	114
	.byte	101
	.byte	120
	.byte	116
	.byte	47
	.byte	112
	.byte	108
	.byte	97
13:
	.byte	120
	.byte	116
	.byte	47
	.byte	112
	.byte	108
	.byte	97
	.byte	121
	.byte	111
	.byte	117
	.byte	116
	.byte	45
	.byte	100
	.byte	101
	.byte	108
	.byte	97
	.byte	121
14:
	.space	16,208
15:
	.space	16,9
16:
	.space	16,223
17:
	.space	16,191
18:
	.space	16,5
19:
	.byte	208
	.byte	208
	.byte	208
	.byte	208
	.space	1
	.space	1
	.space	1
	.space	1
	.space	1
	.space	1
	.space	1
	.space	1
	.space	1
	.space	1
	.space	1
	.space	1
20:
	.byte	9
	.byte	9
	.byte	9
	.byte	9
	.space	1
	.space	1
	.space	1
	.space	1
	.space	1
	.space	1
	.space	1
	.space	1
	.space	1
	.space	1
	.space	1
	.space	1
21:
	.byte	223
	.byte	223
	.byte	223
	.byte	223
	.space	1
	.space	1
	.space	1
	.space	1
	.space	1
	.space	1
	.space	1
	.space	1
	.space	1
	.space	1
	.space	1
	.space	1
22:
	.byte	191
	.byte	191
	.byte	191
	.byte	191
	.space	1
	.space	1
	.space	1
	.space	1
	.space	1
	.space	1
	.space	1
	.space	1
	.space	1
	.space	1
	.space	1
	.space	1
23:
	.byte	5
	.byte	5
	.byte	5
	.byte	5
	.space	1
	.space	1
	.space	1
	.space	1
	.space	1
	.space	1
	.space	1
	.space	1
	.space	1
	.space	1
	.space	1
	.space	1
24:
	.byte	58
	.byte	32
	.byte	110
	.byte	101
	.byte	105
	.byte	116
	.byte	104
	.byte	101
	.byte	114
	.byte	32
	.byte	97
	.byte	32
	.byte	109
	.byte	97
	.byte	112
	.byte	32
25:
	.byte	0
	.byte	1
	.byte	2
	.byte	3
	.byte	4
	.byte	5
	.byte	6
	.byte	7
	.byte	8
	.byte	9
	.byte	10
	.byte	11
	.byte	12
	.byte	13
	.byte	14
	.byte	15
26:
	.byte	16
	.byte	17
	.byte	18
	.byte	19
	.byte	20
	.byte	21
	.byte	22
	.byte	23
	.byte	24
	.byte	25
	.byte	26
	.byte	27
	.byte	28
	.byte	29
	.byte	30
	.byte	31
	.section	__TEXT,__text,regular,pure_instructions
	.globl	_main
	.p2align	4
_main:
	.cfi_startproc
	pushq	%rbp
	.cfi_def_cfa_offset 16
	.cfi_offset %rbp,-16
	movq	%rsp,%rbp
	.cfi_def_cfa_register %rbp
	pushq	%r15
	pushq	%r14
	pushq	%r13
	pushq	%r12
	pushq	%rbx
	movq	%rsp,%r11
	subq	$64512,%r11
27:
	subq	$3072,%rsp
	movq	$0,(%rsp)
	cmpq	%r11,%rsp
	jne	27b
	subq	$808,%rsp
	.cfi_offset %rbx,-56
	.cfi_offset %r12,-48
	.cfi_offset %r13,-40
	.cfi_offset %r14,-32
	.cfi_offset %r15,-24
	movl	$1,%esi
	movl	$13,%edi
	callq	_rtp_lines_sysv_signal
	xorl	%edi,%edi
	callq	_rtp_lines_x86_get_cpuid_feature_leaf
	movl	24(%rax),%ebx
	movl	$2,%edi
	callq	_rtp_lines_x86_get_cpuid_feature_leaf
	notl	%ebx
	testl	$9970177,%ebx
	jne	27f
	movl	24(%rax),%eax
	andl	$1,%eax
	je	27f
	pxor	%xmm0,%xmm0
	movdqu	%xmm0,-96(%rbp)
	leaq	-41(%rbp),%rax
	movq	%rax,-104(%rbp)
	movq	$-1,-64(%rbp)
	movl	$8192,%eax
	movq	%rax,-80(%rbp)
	xorl	%ebx,%ebx
	movq	$0,-72(%rbp)
	movq	$0,-56(%rbp)
28:
	movq	-80(%rbp),%r14
	cmpq	$1,%r14
	adcq	$0,%r14
	movq	-56(%rbp),%r12
	movq	-72(%rbp),%r15
	cmpq	%r15,%r12
	jne	29f
	testq	%r15,%r15
	je	30f
	movq	%r15,%rax
	subq	%rbx,%rax
	cmpq	$511,%rax
	ja	29f
	leaq	-104(%rbp),%rdi
	movl	$512,%esi
	callq	_rtp_std_alloc.vec.Vec.grow_amortized.9d744d77114e6601
	testb	%al,%al
	je	31f
	movq	-96(%rbp),%rdi
	movq	-88(%rbp),%r15
	jmp	32f
30:
	leaq	511(%rbx),%rax
	cmpq	$511,%rax
	ja	30f
	movb	$38,%r12b
	cmpq	$-513,%rbx
	ja	33f
	addq	$512,%rbx
	movl	$1,%esi
	movq	%rbx,%rdi
	callq	_rattle_alloc
	testb	$1,%al
	je	33f
	movq	%rdx,-104(%rbp)
	movq	%rbx,-88(%rbp)
	movl	$512,%r15d
	xorl	%edi,%edi
	movl	$512,%r14d
	movq	-56(%rbp),%r12
	jmp	32f
30:
	movl	$512,%r14d
	xorl	%r15d,%r15d
	.p2align	4
29:
	movq	%rbx,%rdi
32:
	movq	%r15,%rsi
	subq	%r12,%rsi
	cmpq	%rsi,%r14
	cmovbq	%r14,%rsi
	addq	%r12,%rsi
	subq	%rdi,%rsi
	jbe	29f
	movq	%r15,%rax
	subq	%rdi,%rax
	cmpq	%rax,%rsi
	ja	30f
	leaq	(%rdi,%rsi),%rbx
	movq	-104(%rbp),%r14
	cmpq	%rbx,%rdi
	jae	32f
34:
	addq	%r14,%rdi
	callq	___bzero
32:
	movq	%rbx,-96(%rbp)
	movq	%r15,-72(%rbp)
	movq	%r15,-88(%rbp)
	jmp	35f
	.p2align	4
29:
	movq	%r15,-72(%rbp)
	movq	-104(%rbp),%r14
	movq	%rdi,%rbx
35:
	decq	-64(%rbp)
	addq	%r12,%r14
	movq	%rbx,%r15
	subq	%r12,%r15
	xorl	%r13d,%r13d
	.p2align	4
29:
	movb	$22,%r12b
	incq	%r13
	je	33f
	xorl	%edi,%edi
	movq	%r14,%rsi
	movq	%r15,%rdx
	callq	_rtp_lines_read
	testq	%rax,%rax
	jns	35f
	leaq	-22272(%rbp),%rdi
	callq	_rtp_std_io.io.error.last_error
	movq	-22272(%rbp),%r12
	shrq	$8,%r12
	movaps	25b(%rip),%xmm0
	movaps	%xmm0,-22272(%rbp)
	movdqa	26b(%rip),%xmm0
	movdqa	%xmm0,-22256(%rbp)
	movabsq	$2820983053732684064,%rax
	movq	%rax,-22240(%rbp)
	movb	$40,-22232(%rbp)
	cmpb	$41,%r12b
	jae	33f
	movl	%r12d,%eax
	andl	$63,%eax
	cmpb	$35,-22272(%rbp,%rax)
	je	29b
	jmp	33f
35:
	cmpq	%r15,%rax
	cmovbq	%rax,%r15
	testq	%r15,%r15
	je	29f
	addq	%r15,-56(%rbp)
	movq	-80(%rbp),%rdx
	leaq	(%rdx,%rdx),%rax
	cmpq	$131072,%rax
	movl	$131072,%ecx
	cmovbq	%rax,%rcx
	cmpq	%r15,%rdx
	cmovbeq	%rcx,%rdx
	movq	%rdx,-80(%rbp)
	cmpq	$0,-64(%rbp)
	jne	28b
	jmp	33f
30:
	leaq	-104(%rbp),%rdi
	movq	%rsi,%rbx
	callq	_rtp_std_alloc.vec.Vec.grow_amortized.9d744d77114e6601
	testb	%al,%al
	je	31f
	movq	-96(%rbp),%rdi
	movq	-88(%rbp),%r15
	movq	%rbx,%rsi
	leaq	(%rdi,%rsi),%rbx
	movq	-104(%rbp),%r14
	cmpq	%rbx,%rdi
	jb	34b
	jmp	32b
27:
	movq	%rsp,%rsi
	subq	$144,%rsi
	cmpq	%rsp,%rsi
	jge	27f
28:
	xorq	$0,(%rsp)
	subq	$3072,%rsp
	cmpq	%rsp,%rsi
	jl	28b
27:
	movq	%rsi,%rsp
	movaps	1b(%rip),%xmm0
	movaps	%xmm0,(%rsi)
	movaps	2b(%rip),%xmm0
	movaps	%xmm0,16(%rsi)
	movaps	3b(%rip),%xmm0
	movaps	%xmm0,32(%rsi)
	movaps	4b(%rip),%xmm0
	movaps	%xmm0,48(%rsi)
	movaps	5b(%rip),%xmm0
	movaps	%xmm0,64(%rsi)
	movaps	6b(%rip),%xmm0
	movaps	%xmm0,80(%rsi)
	movaps	7b(%rip),%xmm0
	movaps	%xmm0,96(%rsi)
	movdqa	8b(%rip),%xmm0
	movdqa	%xmm0,112(%rsi)
	movl	$908932664,128(%rsi)
	movw	$2612,132(%rsi)
	movl	$134,%edx
	movl	$2,%edi
	callq	_rtp_lines_write
	movl	$127,%eax
	jmp	1f
29:
	movq	-56(%rbp),%r12
	cmpq	%r12,%rbx
	cmovbq	%rbx,%r12
	movq	%r12,-96(%rbp)
	movq	-104(%rbp),%r14
	leaq	-22272(%rbp),%rdi
	movl	$10992,%esi
	callq	___bzero
	leaq	-65360(%rbp),%rdi
	movl	$10960,%esi
	callq	___bzero
	leaq	-43440(%rbp),%rdi
	movl	$10960,%esi
	callq	___bzero
	leaq	-54400(%rbp),%rdi
	movl	$10960,%esi
	callq	___bzero
	pxor	%xmm0,%xmm0
	movdqa	%xmm0,-160(%rbp)
	movdqa	%xmm0,-176(%rbp)
	leaq	-11280(%rbp),%rdi
	movl	$10976,%esi
	callq	___bzero
	testq	%r12,%r12
	je	2f
	xorl	%ebx,%ebx
3:
	movq	%r12,%r15
	xorl	%eax,%eax
	movq	%rbx,-72(%rbp)
4:
	movq	%rax,%rdi
	addq	$32,%rax
	cmpq	%r15,%rax
	ja	5f
	movdqu	(%r14,%rdi),%xmm0
	movdqu	16(%r14,%rdi),%xmm1
	movdqa	9b(%rip),%xmm2
	pcmpeqb	%xmm2,%xmm0
	pmovmskb	%xmm0,%edx
	pcmpeqb	%xmm2,%xmm1
	pmovmskb	%xmm1,%ecx
	shll	$16,%ecx
	orl	%edx,%ecx
	je	4b
	rep		bsfl	%ecx,%ecx
4:
	movq	%r15,%rdx
	subq	%rcx,%rdx
	cmpq	%rdi,%rdx
	jne	6f
	leaq	lrtp__static.5(%rip),%rax
	movq	%rax,-80(%rbp)
	jmp	7f
5:
	leaq	lrtp__static.5(%rip),%r8
	cmpq	%rdi,%r15
	je	5f
	leaq	(%r14,%rdi),%rax
	movq	%rdi,%rdx
	subq	%r15,%rdx
	xorl	%ecx,%ecx
8:
	cmpb	$10,(%rax,%rcx)
	je	4b
	incq	%rcx
	movq	%rdx,%rsi
	addq	%rcx,%rsi
	jne	8b
5:
	movq	%r8,-80(%rbp)
7:
	movq	$0,-56(%rbp)
	movq	%r15,%rax
	jmp	4f
6:
	movq	%rcx,%rax
	addq	%rdi,%rax
	je	5f
	leaq	(%rcx,%rdi),%rsi
	cmpb	$13,-1(%r14,%rsi)
	jne	5f
	leaq	(%rcx,%rdi),%rax
	decq	%rax
5:
	addq	%r14,%rcx
	addq	%rdi,%rcx
	incq	%rcx
	movq	%rcx,-80(%rbp)
	notq	%rdi
	addq	%rdx,%rdi
	movq	%rdi,-56(%rbp)
4:
	pxor	%xmm0,%xmm0
	movdqa	%xmm0,-144(%rbp)
	movq	$0,-128(%rbp)
	cmpq	$4,%rax
	jb	4f
	movl	(%r14),%edx
	leaq	4(%r14),%rcx
	addq	$-4,%rax
	xorl	%r12d,%r12d
	cmpl	$544235885,%edx
	movq	%rcx,%rsi
	cmovneq	%r12,%rsi
	cmoveq	%rax,%r12
	testq	%rax,%rax
	je	4f
	cmpl	$544235885,%edx
	jne	4f
	xorl	%ebx,%ebx
5:
	cmpb	$32,(%rcx,%rbx)
	je	6f
	incq	%rbx
	cmpq	%rbx,%rax
	jne	5b
	jmp	4f
6:
	pxor	%xmm0,%xmm0
	movdqa	%xmm0,-32480(%rbp)
	movq	$0,-32464(%rbp)
	cmpq	$3,%rbx
	ja	4f
	decq	%r12
	leaq	(%rsi,%rbx),%r8
	incq	%r8
	movq	%r12,%r13
	subq	%rbx,%r13
	xorl	%eax,%eax
5:
	cmpq	%rax,%rbx
	je	6f
	movzbl	(%rsi,%rax),%ecx
	addb	$-48,%cl
	incq	%rax
	cmpb	$10,%cl
	jb	5b
	jmp	4f
6:
	leaq	-32480(%rbp),%rdi
	movq	%rbx,%rdx
	movq	%r8,-64(%rbp)
	callq	_rtp_core.str.utf8.from_utf8
	movq	-64(%rbp),%rsi
	cmpb	$0,-32480(%rbp)
	jne	4f
	movq	-32464(%rbp),%rax
	testq	%rax,%rax
	je	4f
	movq	%r13,%rdx
	movq	-32472(%rbp),%rcx
	cmpb	$43,(%rcx)
	jne	5f
	cmpq	$1,%rax
	je	4f
	movl	$1,%r9d
	xorl	%r13d,%r13d
6:
	movzbl	(%rcx,%r9),%r8d
	leal	-48(%r8),%edi
	cmpb	$9,%dil
	ja	4f
	leaq	(,%r13,4),%rdi
	addq	%r13,%rdi
	andl	$15,%r8d
	leaq	(%r8,%rdi,2),%r13
	cmpq	$255,%r13
	ja	4f
	incq	%r9
	cmpq	%r9,%rax
	jne	6b
	jmp	6f
5:
	xorl	%r13d,%r13d
	xorl	%r9d,%r9d
5:
	movzbl	(%rcx,%r9),%r8d
	leal	-48(%r8),%edi
	cmpb	$9,%dil
	ja	4f
	leaq	(,%r13,4),%rdi
	addq	%r13,%rdi
	andl	$15,%r8d
	leaq	(%r8,%rdi,2),%r13
	cmpq	$256,%r13
	jae	4f
	incq	%r9
	cmpq	%r9,%rax
	jne	5b
6:
	testq	%r13,%r13
	je	4f
	cmpq	%rbx,%r12
	je	4f
	leaq	-144(%rbp),%rdi
	callq	_rtp_core.str.utf8.from_utf8
	cmpb	$0,-144(%rbp)
	jne	4f
	movzwl	-128(%rbp),%ecx
	movq	-136(%rbp),%r14
	movzwl	-122(%rbp),%r12d
	movl	-126(%rbp),%eax
	shlq	$16,%rax
	shlq	$48,%r12
	orq	%rax,%r12
	movq	%rcx,-64(%rbp)
	leaq	(%r12,%rcx),%rbx
	cmpq	$73,%rbx
	ja	5f
	leaq	6f(%rip),%rax
	movslq	(%rax,%rbx,4),%rcx
	addq	%rax,%rcx
	leaq	-41(%rbp),%r15
	jmpq	*%rcx
7:
	movabsq	$8102089199360832117,%rax
	cmpq	%rax,(%r14)
	jne	8f
	movabsq	$8011181793428993594,%rax
	cmpq	%rax,8(%r14)
	jne	8f
	movabsq	$7598805623977109874,%rax
	cmpq	%rax,16(%r14)
	jne	8f
	movabsq	$7957695015159098981,%rax
	cmpq	%rax,18(%r14)
	jne	8f
	xorl	%r15d,%r15d
	movl	$4,%eax
	xorl	%ebx,%ebx
	jmp	27f
28:
	leaq	lrtp__static.35(%rip),%rcx
	movl	$14,%eax
	jmp	29f
30:
	leaq	lrtp__static.31(%rip),%rcx
	movl	$12,%eax
	jmp	32f
34:
	leaq	lrtp__static.21(%rip),%rcx
	movl	$7,%eax
	jmp	32f
35:
	leaq	lrtp__static.13(%rip),%rcx
	movl	$3,%eax
	jmp	32f
36:
	leaq	lrtp__static.25(%rip),%rcx
	movl	$9,%eax
	jmp	32f
37:
	leaq	lrtp__static.9(%rip),%rcx
	movl	$1,%eax
	jmp	32f
38:
	leaq	lrtp__static.27(%rip),%rcx
	movl	$10,%eax
	jmp	32f
39:
	leaq	lrtp__static.33(%rip),%rcx
	movl	$13,%eax
	jmp	32f
40:
	leaq	lrtp__static.17(%rip),%rcx
	movl	$5,%eax
29:
	xorl	%edx,%edx
	movq	%rbx,%rsi
29:
	movdqu	(%rcx,%rdx),%xmm0
	movdqu	16(%rcx,%rdx),%xmm1
	movdqu	32(%rcx,%rdx),%xmm2
	movdqu	48(%rcx,%rdx),%xmm3
	movdqu	(%r14,%rdx),%xmm4
	pcmpeqb	%xmm0,%xmm4
	movdqu	16(%r14,%rdx),%xmm0
	pcmpeqb	%xmm1,%xmm0
	pand	%xmm4,%xmm0
	movdqu	32(%r14,%rdx),%xmm1
	pcmpeqb	%xmm2,%xmm1
	movdqu	48(%r14,%rdx),%xmm2
	pcmpeqb	%xmm3,%xmm2
	pand	%xmm1,%xmm2
	pand	%xmm0,%xmm2
	pmovmskb	%xmm2,%edi
	cmpl	$65535,%edi
	jne	41f
	addq	$64,%rdx
	addq	$-64,%rsi
	cmpq	$65,%rsi
	jae	29b
	movdqu	-64(%rcx,%rbx),%xmm0
	movdqu	-48(%rcx,%rbx),%xmm1
	movdqu	-32(%rcx,%rbx),%xmm2
	movdqu	-16(%rcx,%rbx),%xmm3
	movdqu	-64(%r14,%rbx),%xmm4
	pcmpeqb	%xmm0,%xmm4
	movdqu	-48(%r14,%rbx),%xmm5
	pcmpeqb	%xmm1,%xmm5
	movdqu	-32(%r14,%rbx),%xmm0
	pcmpeqb	%xmm2,%xmm0
	movdqu	-16(%r14,%rbx),%xmm1
	pcmpeqb	%xmm3,%xmm1
	pcmpeqd	%xmm2,%xmm2
	pxor	%xmm2,%xmm1
	pxor	%xmm2,%xmm0
	por	%xmm1,%xmm0
	pxor	%xmm2,%xmm4
	pxor	%xmm2,%xmm5
	por	%xmm4,%xmm5
	por	%xmm0,%xmm5
	pxor	%xmm0,%xmm0
	pcmpgtb	%xmm5,%xmm0
	jmp	29f
42:
	leaq	lrtp__static.29(%rip),%rcx
	movl	$11,%eax
	jmp	32f
43:
	leaq	lrtp__static.11(%rip),%rcx
	movl	$2,%eax
	jmp	32f
44:
	leaq	lrtp__static.7(%rip),%rcx
	xorl	%eax,%eax
	jmp	32f
45:
	leaq	lrtp__static.23(%rip),%rcx
	movl	$8,%eax
32:
	leaq	-16(%rbx),%rdx
	movdqu	(%rcx),%xmm0
	movdqu	16(%rcx),%xmm1
	movdqu	(%r14),%xmm2
	pcmpeqb	%xmm0,%xmm2
	movdqu	16(%r14),%xmm3
	pcmpeqb	%xmm1,%xmm3
	pcmpeqd	%xmm1,%xmm1
	pxor	%xmm1,%xmm2
	pxor	%xmm1,%xmm3
	por	%xmm2,%xmm3
	cmpq	$32,%rdx
	movl	$32,%esi
	cmovbq	%rdx,%rsi
	movdqu	(%rcx,%rsi),%xmm0
	movdqu	(%r14,%rsi),%xmm2
	pcmpeqb	%xmm0,%xmm2
	pxor	%xmm1,%xmm2
	movdqu	-16(%rcx,%rbx),%xmm4
	movdqu	-16(%r14,%rbx),%xmm0
	pcmpeqb	%xmm4,%xmm0
	pxor	%xmm1,%xmm0
	por	%xmm3,%xmm0
	por	%xmm2,%xmm0
29:
	psllw	$7,%xmm0
	pmovmskb	%xmm0,%ecx
	testl	%ecx,%ecx
	je	29f
41:
	leaq	-41(%rbp),%r15
	testq	%rbx,%rbx
	je	32f
	cmpq	$58,%rbx
	jne	5f
	movdqu	(%r14),%xmm0
	movdqu	16(%r14),%xmm1
	movdqu	32(%r14),%xmm2
	pcmpeqb	10b(%rip),%xmm0
	movdqu	42(%r14),%xmm3
	pcmpeqb	11b(%rip),%xmm1
	pand	%xmm0,%xmm1
	pcmpeqb	12b(%rip),%xmm2
	pcmpeqb	13b(%rip),%xmm3
	pand	%xmm2,%xmm3
	pand	%xmm1,%xmm3
	pmovmskb	%xmm3,%eax
	cmpl	$65535,%eax
	jne	8f
	movl	$6,%eax
29:
	xorl	%r15d,%r15d
	xorl	%ebx,%ebx
	jmp	27f
5:
	testq	%r12,%r12
	js	10f
8:
	movl	$1,%esi
	movq	%rbx,%rdi
	callq	_rattle_alloc
	testb	$1,%al
	je	10f
	movq	%rdx,%r15
32:
	movq	%r15,%rax
	subq	%r14,%rax
	cmpq	%rbx,%rax
	jae	8f
	xorl	%ecx,%ecx
	cmpq	$4,%rbx
	jb	11f
	cmpq	$32,%rax
	jb	11f
	cmpq	$32,%rbx
	jae	12f
	xorl	%ecx,%ecx
	jmp	13f
8:
	movq	%r15,%rdi
	movq	%r14,%rsi
	movq	%rbx,%rdx
	callq	_memmove
8:
	movl	$15,%eax
	jmp	27f
12:
	movq	-64(%rbp),%rax
	andl	$31,%eax
	movq	%rbx,%rcx
	subq	%rax,%rcx
	xorl	%edx,%edx
12:
	movdqu	(%r14,%rdx),%xmm0
	movdqu	16(%r14,%rdx),%xmm1
	movdqu	%xmm0,(%r15,%rdx)
	movdqu	%xmm1,16(%r15,%rdx)
	addq	$32,%rdx
	cmpq	%rdx,%rcx
	jne	12b
	testq	%rax,%rax
	je	8b
	cmpl	$4,%eax
	jb	11f
13:
	movq	%rcx,%rax
	movq	-64(%rbp),%rdx
	andl	$3,%edx
	movq	%rbx,%rcx
	subq	%rdx,%rcx
12:
	movl	(%r14,%rax),%esi
	movl	%esi,(%r15,%rax)
	addq	$4,%rax
	cmpq	%rax,%rcx
	jne	12b
	testq	%rdx,%rdx
	je	8b
11:
	movq	-64(%rbp),%rax
	subl	%ecx,%eax
	movq	%rcx,%rdx
	andl	$3,%eax
	je	8f
	movq	%rcx,%rdx
11:
	movzbl	(%r14,%rdx),%esi
	movb	%sil,(%r15,%rdx)
	incq	%rdx
	decq	%rax
	jne	11b
8:
	addq	-64(%rbp),%r12
	notq	%rcx
	addq	%r12,%rcx
	movl	$15,%eax
	cmpq	$3,%rcx
	jb	27f
8:
	movzbl	(%r14,%rdx),%ecx
	movb	%cl,(%r15,%rdx)
	movzbl	1(%r14,%rdx),%ecx
	movb	%cl,1(%r15,%rdx)
	movzbl	2(%r14,%rdx),%ecx
	movb	%cl,2(%r15,%rdx)
	movzbl	3(%r14,%rdx),%ecx
	movb	%cl,3(%r15,%rdx)
	addq	$4,%rdx
	cmpq	%rdx,%rbx
	jne	8b
27:
	movq	-56(%rbp),%r12
	movq	%rax,-176(%rbp)
	movq	%r15,-168(%rbp)
	movq	%rbx,-160(%rbp)
	movq	%rbx,-152(%rbp)
	movzbl	%r13b,%esi
	leaq	-11280(%rbp),%rdi
	leaq	-176(%rbp),%rdx
	callq	_rtp_ext.map.ExtensionMap.set
	movq	-72(%rbp),%rbx
	incq	%rbx
	testq	%r12,%r12
	movq	-80(%rbp),%r14
	jne	3b
	movq	-11280(%rbp),%r13
	movq	-11272(%rbp),%r12
	jmp	3f
4:
	movq	-11280(%rbp),%r13
	movq	-11272(%rbp),%r12
	leaq	-11264(%rbp),%rsi
	leaq	-43440(%rbp),%rdi
	movl	$10960,%edx
	callq	_memcpy
	movq	%r15,%rdx
	movq	%r14,%rcx
	cmpq	$64,%r15
	movq	-72(%rbp),%rbx
	jae	4f
8:
	testq	%rdx,%rdx
	jne	11f
	jmp	12f
2:
	xorl	%r12d,%r12d
	xorl	%r13d,%r13d
	xorl	%ebx,%ebx
3:
	leaq	-11264(%rbp),%rsi
	leaq	-43440(%rbp),%rdi
	movl	$10960,%edx
	callq	_memcpy
	xorl	%r15d,%r15d
	jmp	12f
4:
	movdqu	(%r14),%xmm0
	movdqu	16(%r14),%xmm1
	movdqa	9b(%rip),%xmm2
	pcmpeqb	%xmm2,%xmm0
	pcmpeqb	%xmm2,%xmm1
	por	%xmm0,%xmm1
	pmovmskb	%xmm1,%eax
	movq	%r15,%rdx
	movq	%r14,%rcx
	testl	%eax,%eax
	jne	11f
	movq	%r14,%rcx
	movq	%r15,%rdx
2:
	movdqa	14b(%rip),%xmm3
	movdqu	(%rcx),%xmm4
	movdqu	16(%rcx),%xmm2
	movdqu	32(%rcx),%xmm1
	movdqu	48(%rcx),%xmm0
	movdqa	%xmm4,%xmm5
	paddb	%xmm3,%xmm5
	movdqa	%xmm2,%xmm6
	paddb	%xmm3,%xmm6
	movdqa	15b(%rip),%xmm7
	psubusb	%xmm7,%xmm5
	psubusb	%xmm7,%xmm6
	movdqa	16b(%rip),%xmm8
	pand	%xmm8,%xmm4
	pand	%xmm8,%xmm2
	movdqa	17b(%rip),%xmm9
	paddb	%xmm9,%xmm4
	paddb	%xmm9,%xmm2
	movdqa	18b(%rip),%xmm10
	psubusb	%xmm10,%xmm4
	pminub	%xmm5,%xmm4
	psubusb	%xmm10,%xmm2
	pminub	%xmm6,%xmm2
	movdqa	%xmm1,%xmm5
	paddb	%xmm3,%xmm5
	paddb	%xmm0,%xmm3
	psubusb	%xmm7,%xmm5
	psubusb	%xmm7,%xmm3
	pand	%xmm8,%xmm1
	pand	%xmm8,%xmm0
	paddb	%xmm9,%xmm1
	paddb	%xmm9,%xmm0
	psubusb	%xmm10,%xmm1
	pminub	%xmm5,%xmm1
	por	%xmm4,%xmm1
	psubusb	%xmm10,%xmm0
	pminub	%xmm3,%xmm0
	por	%xmm2,%xmm0
	por	%xmm1,%xmm0
	pxor	%xmm1,%xmm1
	pcmpeqb	%xmm0,%xmm1
	pmovmskb	%xmm1,%eax
	xorl	$65535,%eax
	jne	11f
	addq	$64,%rcx
	addq	$-64,%rdx
	cmpq	$63,%rdx
	ja	2b
	jmp	8b
2:
	movq	%rax,%rdx
	movq	%rsi,%rcx
	testq	%rax,%rax
	je	3f
11:
	xorl	%esi,%esi
	.p2align	4
4:
	movq	%rsi,%rax
	addq	$32,%rsi
	cmpq	%rdx,%rsi
	ja	8f
	movdqu	(%rcx,%rax),%xmm0
	movdqu	16(%rcx,%rax),%xmm1
	movdqa	9b(%rip),%xmm2
	pcmpeqb	%xmm2,%xmm0
	pmovmskb	%xmm0,%r8d
	pcmpeqb	%xmm2,%xmm1
	pmovmskb	%xmm1,%edi
	shll	$16,%edi
	orl	%r8d,%edi
	je	4b
	rep		bsfl	%edi,%edi
4:
	movq	%rdx,%r8
	subq	%rdi,%r8
	cmpq	%rax,%r8
	jne	11f
	leaq	lrtp__static.5(%rip),%rsi
	jmp	13f
8:
	leaq	lrtp__static.5(%rip),%rsi
	cmpq	%rax,%rdx
	je	13f
	leaq	(%rcx,%rax),%r8
	movq	%rax,%r9
	subq	%rdx,%r9
	xorl	%edi,%edi
	.p2align	4
8:
	cmpb	$10,(%r8,%rdi)
	je	4b
	incq	%rdi
	movq	%r9,%r10
	addq	%rdi,%r10
	jne	8b
13:
	xorl	%eax,%eax
	incq	%rbx
	testb	$1,%dl
	je	4f
	jmp	8f
11:
	movq	%rdi,%rdx
	addq	%rax,%rdx
	je	11f
	leaq	(%rdi,%rax),%rsi
	cmpb	$13,-1(%rcx,%rsi)
	jne	11f
	leaq	(%rdi,%rax),%rdx
	decq	%rdx
11:
	addq	%rcx,%rdi
	leaq	(%rax,%rdi),%rsi
	incq	%rsi
	notq	%rax
	addq	%r8,%rax
	incq	%rbx
	testb	$1,%dl
	jne	8f
4:
	testq	%rdx,%rdx
	je	4f
	cmpq	$4,%rdx
	jae	11f
	xorl	%r8d,%r8d
	xorl	%edi,%edi
	jmp	13f
11:
	cmpq	$32,%rdx
	jae	11f
	xorl	%edi,%edi
	xorl	%r8d,%r8d
	jmp	27f
11:
	movq	%rdx,%rdi
	andq	$-32,%rdi
	pxor	%xmm0,%xmm0
	xorl	%r8d,%r8d
	pxor	%xmm1,%xmm1
	.p2align	4
11:
	movdqu	(%rcx,%r8),%xmm3
	movdqu	16(%rcx,%r8),%xmm2
	movdqa	14b(%rip),%xmm4
	movdqa	%xmm3,%xmm5
	paddb	%xmm4,%xmm5
	paddb	%xmm2,%xmm4
	movdqa	15b(%rip),%xmm6
	psubusb	%xmm6,%xmm5
	psubusb	%xmm6,%xmm4
	movdqa	16b(%rip),%xmm6
	pand	%xmm6,%xmm3
	pand	%xmm6,%xmm2
	movdqa	17b(%rip),%xmm6
	paddb	%xmm6,%xmm3
	paddb	%xmm6,%xmm2
	movdqa	18b(%rip),%xmm6
	psubusb	%xmm6,%xmm3
	pminub	%xmm5,%xmm3
	por	%xmm3,%xmm1
	psubusb	%xmm6,%xmm2
	pminub	%xmm4,%xmm2
	por	%xmm2,%xmm0
	addq	$32,%r8
	cmpq	%r8,%rdi
	jne	11b
	por	%xmm1,%xmm0
	pshufd	$238,%xmm0,%xmm1
	por	%xmm0,%xmm1
	pshufd	$85,%xmm1,%xmm0
	por	%xmm1,%xmm0
	movdqa	%xmm0,%xmm1
	psrld	$16,%xmm1
	por	%xmm0,%xmm1
	movdqa	%xmm1,%xmm0
	psrlw	$8,%xmm0
	por	%xmm1,%xmm0
	movd	%xmm0,%r8d
	cmpq	%rdi,%rdx
	je	11f
	testb	$28,%dl
	je	13f
27:
	movq	%rdi,%r9
	movq	%rdx,%rdi
	andq	$-4,%rdi
	movzbl	%r8b,%r8d
	movd	%r8d,%xmm0
	.p2align	4
27:
	movd	(%rcx,%r9),%xmm1
	movdqa	19b(%rip),%xmm2
	paddb	%xmm1,%xmm2
	psubusb	20b(%rip),%xmm2
	pand	21b(%rip),%xmm1
	paddb	22b(%rip),%xmm1
	psubusb	23b(%rip),%xmm1
	pminub	%xmm2,%xmm1
	por	%xmm1,%xmm0
	addq	$4,%r9
	cmpq	%r9,%rdi
	jne	27b
	movdqa	%xmm0,%xmm1
	psrld	$16,%xmm1
	por	%xmm0,%xmm1
	movdqa	%xmm1,%xmm0
	psrlw	$8,%xmm0
	por	%xmm1,%xmm0
	movd	%xmm0,%r8d
	jmp	19f
	.p2align	4
13:
	movzbl	(%rcx,%rdi),%r9d
	leal	-48(%r9),%r10d
	xorl	%r11d,%r11d
	subb	$9,%r10b
	movzbl	%r10b,%r10d
	cmovbl	%r11d,%r10d
	andb	$-33,%r9b
	addb	$-65,%r9b
	subb	$5,%r9b
	movzbl	%r9b,%r9d
	cmovbl	%r11d,%r9d
	cmpb	%r10b,%r9b
	cmovael	%r10d,%r9d
	orb	%r9b,%r8b
	incq	%rdi
19:
	cmpq	%rdi,%rdx
	jne	13b
11:
	testb	%r8b,%r8b
	jne	8f
4:
	cmpq	$64,%rax
	jb	2b
	movdqu	(%rsi),%xmm0
	movdqu	16(%rsi),%xmm1
	movdqa	9b(%rip),%xmm2
	pcmpeqb	%xmm2,%xmm0
	pcmpeqb	%xmm2,%xmm1
	por	%xmm0,%xmm1
	pmovmskb	%xmm1,%ecx
	testl	%ecx,%ecx
	jne	2b
	.p2align	4
4:
	movdqa	14b(%rip),%xmm3
	movdqu	(%rsi),%xmm4
	movdqu	16(%rsi),%xmm2
	movdqu	32(%rsi),%xmm1
	movdqu	48(%rsi),%xmm0
	movdqa	%xmm4,%xmm5
	paddb	%xmm3,%xmm5
	movdqa	%xmm2,%xmm6
	paddb	%xmm3,%xmm6
	movdqa	15b(%rip),%xmm7
	psubusb	%xmm7,%xmm5
	psubusb	%xmm7,%xmm6
	movdqa	16b(%rip),%xmm8
	pand	%xmm8,%xmm4
	pand	%xmm8,%xmm2
	movdqa	17b(%rip),%xmm9
	paddb	%xmm9,%xmm4
	paddb	%xmm9,%xmm2
	movdqa	18b(%rip),%xmm10
	psubusb	%xmm10,%xmm4
	pminub	%xmm5,%xmm4
	psubusb	%xmm10,%xmm2
	pminub	%xmm6,%xmm2
	movdqa	%xmm1,%xmm5
	paddb	%xmm3,%xmm5
	paddb	%xmm0,%xmm3
	psubusb	%xmm7,%xmm5
	psubusb	%xmm7,%xmm3
	pand	%xmm8,%xmm1
	pand	%xmm8,%xmm0
	paddb	%xmm9,%xmm1
	paddb	%xmm9,%xmm0
	psubusb	%xmm10,%xmm1
	pminub	%xmm5,%xmm1
	por	%xmm4,%xmm1
	psubusb	%xmm10,%xmm0
	pminub	%xmm3,%xmm0
	por	%xmm2,%xmm0
	por	%xmm1,%xmm0
	pxor	%xmm1,%xmm1
	pcmpeqb	%xmm0,%xmm1
	pmovmskb	%xmm1,%ecx
	xorl	$65535,%ecx
	jne	2b
	addq	$64,%rsi
	addq	$-64,%rax
	cmpq	$63,%rax
	ja	4b
	jmp	2b
3:
	movq	-72(%rbp),%rbx
12:
	testq	%rbx,%rbx
	je	2f
	leaq	-54400(%rbp),%rdi
	leaq	-43440(%rbp),%rsi
	movl	$10960,%edx
	callq	_memcpy
3:
	leaq	-65360(%rbp),%rbx
	leaq	-54400(%rbp),%rsi
	movl	$10960,%edx
	movq	%rbx,%rdi
	callq	_memcpy
	movq	%r13,-22272(%rbp)
	movq	%r12,-22264(%rbp)
	leaq	-22256(%rbp),%rdi
	movl	$10960,%edx
	movq	%rbx,%rsi
	callq	_memcpy
	movq	%r14,-11296(%rbp)
	movq	%r15,-11288(%rbp)
	leaq	-22272(%rbp),%r15
	movq	%r15,%rdi
	callq	_rtp_listing.printing.print_all.df9e9f1468b30f79
	movl	%eax,%r14d
	movl	%edx,%ebx
	leaq	-11280(%rbp),%rdi
	movl	$10200,%edx
	movq	%r15,%rsi
	callq	_memcpy
	movl	$32,%r15d
	jmp	4f
9:
	addq	$40,%r15
	cmpq	$10232,%r15
	je	11f
4:
	movzbl	-11312(%rbp,%r15),%edx
	testl	%edx,%edx
	je	9b
	movzbl	-11304(%rbp,%r15),%ecx
	movq	-11296(%rbp,%r15),%rdi
	movq	-11280(%rbp,%r15),%rax
	cmpl	$2,%edx
	cmpb	$15,%cl
	setne	%cl
	testq	%rax,%rax
	sete	%al
	orb	%cl,%al
	jne	9b
	callq	_rattle_dealloc
	jmp	9b
11:
	cmpb	$1,%r14b
	sete	%r12b
4:
	cmpq	$0,-88(%rbp)
	je	9f
	movq	-104(%rbp),%rdi
	callq	_rattle_dealloc
9:
	xorl	%eax,%eax
	testb	%r12b,%r12b
	jne	9f
	jmp	1f
2:
	pxor	%xmm0,%xmm0
	movdqu	%xmm0,-32472(%rbp)
	movq	$0,-32456(%rbp)
	movdqu	%xmm0,-168(%rbp)
	movq	$0,-152(%rbp)
	movdqu	%xmm0,-136(%rbp)
	movq	$0,-120(%rbp)
	movdqu	%xmm0,-296(%rbp)
	movq	$0,-280(%rbp)
	movdqu	%xmm0,-264(%rbp)
	movq	$0,-248(%rbp)
	movdqu	%xmm0,-232(%rbp)
	movq	$0,-216(%rbp)
	movdqu	%xmm0,-200(%rbp)
	movq	$0,-184(%rbp)
	movq	%r13,-72(%rbp)
	leaq	-11280(%rbp),%rbx
	movl	$10976,%esi
	movq	%rbx,%rdi
	callq	___bzero
	movq	$2,-32480(%rbp)
	leaq	-32480(%rbp),%rdx
	movq	%rbx,%rdi
	movl	$1,%esi
	callq	_rtp_ext.map.ExtensionMap.set
	movq	$0,-176(%rbp)
	leaq	-176(%rbp),%rdx
	movq	%rbx,%rdi
	movl	$2,%esi
	callq	_rtp_ext.map.ExtensionMap.set
	movq	$5,-144(%rbp)
	leaq	-144(%rbp),%rdx
	movq	%rbx,%rdi
	movl	$3,%esi
	callq	_rtp_ext.map.ExtensionMap.set
	movq	$11,-304(%rbp)
	leaq	-304(%rbp),%rdx
	movq	%rbx,%rdi
	movl	$4,%esi
	callq	_rtp_ext.map.ExtensionMap.set
	movq	$9,-272(%rbp)
	leaq	-272(%rbp),%rdx
	movq	%rbx,%rdi
	movl	$10,%esi
	callq	_rtp_ext.map.ExtensionMap.set
	movq	$10,-240(%rbp)
	leaq	-240(%rbp),%rdx
	movq	%rbx,%rdi
	movl	$11,%esi
	callq	_rtp_ext.map.ExtensionMap.set
	movq	$4,-208(%rbp)
	leaq	-208(%rbp),%rdx
	movq	%rbx,%rdi
	movl	$13,%esi
	callq	_rtp_ext.map.ExtensionMap.set
	movq	-11280(%rbp),%r13
	movq	%r12,%rbx
	movq	-11272(%rbp),%r12
	leaq	-11264(%rbp),%rsi
	leaq	-54400(%rbp),%rdi
	movl	$10960,%edx
	callq	_memcpy
	movq	-72(%rbp),%rax
	movq	%rax,-11280(%rbp)
	movq	%rbx,-11272(%rbp)
	leaq	-11264(%rbp),%rdi
	leaq	-43440(%rbp),%rsi
	movl	$10184,%edx
	callq	_memcpy
	movl	$32,%ebx
	jmp	2f
11:
	addq	$40,%rbx
	cmpq	$10232,%rbx
	je	3b
2:
	movzbl	-11312(%rbp,%rbx),%edx
	testl	%edx,%edx
	je	11b
	movzbl	-11304(%rbp,%rbx),%ecx
	movq	-11296(%rbp,%rbx),%rdi
	movq	-11280(%rbp,%rbx),%rax
	cmpl	$2,%edx
	cmpb	$15,%cl
	setne	%cl
	testq	%rax,%rax
	sete	%al
	orb	%cl,%al
	jne	11b
	callq	_rattle_dealloc
	jmp	11b
31:
	movb	$38,%r12b
33:
	movaps	25b(%rip),%xmm0
	movaps	%xmm0,-22272(%rbp)
	movdqa	26b(%rip),%xmm0
	movdqa	%xmm0,-22256(%rbp)
	movabsq	$2820983053732684064,%rax
	movq	%rax,-22240(%rbp)
	movb	$40,-22232(%rbp)
	cmpb	$41,%r12b
	jae	2f
	movzbl	%r12b,%eax
	cmpb	$38,-22272(%rbp,%rax)
	sete	%bl
	xorb	$3,%bl
	cmpq	$0,-88(%rbp)
	jne	3f
	jmp	9f
2:
	movb	$3,%bl
	cmpq	$0,-88(%rbp)
	je	9f
3:
	movq	-104(%rbp),%rdi
	callq	_rattle_dealloc
9:
	cmpb	$2,%bl
	jne	2f
	leaq	lrtp__static.0(%rip),%rdi
	movl	$15,%esi
	callq	_rtp_listing.printing.write_text.df9e9f1468b30f79
	testb	%al,%al
	je	3f
	movl	%edx,%ebx
2:
	movzbl	%bl,%eax
	leaq	Lrtp__switch.table.main(%rip),%rcx
	movl	(%rcx,%rax,4),%eax
1:
	leaq	-40(%rbp),%rsp
	popq	%rbx
	popq	%r12
	popq	%r13
	popq	%r14
	popq	%r15
	popq	%rbp
	retq
3:
	movl	$3,%eax
	jmp	1b
8:
	movq	%r13,-11280(%rbp)
	movq	%r12,-11272(%rbp)
	leaq	-11264(%rbp),%rdi
	leaq	-43440(%rbp),%rsi
	movl	$10184,%edx
	callq	_memcpy
	movl	$32,%r14d
	jmp	1f
2:
	addq	$40,%r14
	cmpq	$10232,%r14
	je	3f
1:
	movzbl	-11312(%rbp,%r14),%edx
	testl	%edx,%edx
	je	2b
	movzbl	-11304(%rbp,%r14),%ecx
	movq	-11296(%rbp,%r14),%rdi
	movq	-11280(%rbp,%r14),%rax
	cmpl	$2,%edx
	cmpb	$15,%cl
	setne	%cl
	testq	%rax,%rax
	sete	%al
	orb	%cl,%al
	jne	2b
	callq	_rattle_dealloc
	jmp	2b
3:
	pxor	%xmm0,%xmm0
	movdqu	%xmm0,-11272(%rbp)
	movl	$0,-11223(%rbp)
	movl	$0,-11220(%rbp)
	leaq	-41(%rbp),%rax
	movq	%rax,-11280(%rbp)
	movq	$0,-11232(%rbp)
	movb	$0,-11224(%rbp)
	movl	$32,-11256(%rbp)
	movq	$0,-11252(%rbp)
	movl	$0,-11244(%rbp)
	movq	$-1,-11240(%rbp)
	leaq	-11280(%rbp),%rdi
	movl	$5,%esi
	callq	_rtp_std_alloc.vec.Vec.grow_amortized.9d744d77114e6601
	testb	%al,%al
	je	1f
	leaq	-11252(%rbp),%r14
	movq	-11264(%rbp),%r15
	movq	-11280(%rbp),%rdi
	movq	-11272(%rbp),%r12
	leaq	(%rdi,%r12),%rax
	addq	$5,%r12
	leaq	lrtp__static.3(%rip),%rcx
	movq	%rax,%rdx
	subq	%rcx,%rdx
	cmpq	$4,%rdx
	ja	2f
	movl	$1701734764,(%rax)
	movb	$32,4(%rax)
	jmp	3f
2:
	movb	$32,4(%rax)
	movl	$1701734764,(%rax)
3:
	movq	%r12,-11272(%rbp)
	movl	$32,-11256(%rbp)
	movl	$0,8(%r14)
	movq	$0,(%r14)
	movq	$-1,-11240(%rbp)
	pxor	%xmm0,%xmm0
	movdqa	%xmm0,-43440(%rbp)
	movq	$0,-43424(%rbp)
	movl	$24,%ecx
	cmpq	$100,%rbx
	jb	2f
3:
	movq	%rbx,%rax
	shrq	$2,%rax
	movabsq	$2951479051793528259,%rdx
	mulq	%rdx
	shrq	$2,%rdx
	imull	$100,%edx,%eax
	movl	%ebx,%esi
	subl	%eax,%esi
	movzbl	%sil,%eax
	imull	$205,%eax,%esi
	shrl	$11,%esi
	leal	(%rsi,%rsi),%r8d
	leal	(%r8,%r8,4),%r8d
	subb	%r8b,%al
	orb	$48,%al
	movb	%al,-43441(%rbp,%rcx)
	orb	$48,%sil
	movb	%sil,-43442(%rbp,%rcx)
	addq	$-2,%rcx
	cmpq	$9999,%rbx
	movq	%rdx,%rbx
	ja	3b
	jmp	3f
2:
	movq	%rbx,%rdx
3:
	cmpq	$10,%rdx
	jb	2f
	movzbl	%dl,%eax
	imull	$205,%eax,%eax
	shrl	$11,%eax
	leal	(%rax,%rax),%esi
	leal	(%rsi,%rsi,4),%esi
	subb	%sil,%dl
	orb	$48,%dl
	movb	%dl,-43441(%rbp,%rcx)
	orb	$48,%al
	movb	%al,-43442(%rbp,%rcx)
	addq	$-2,%rcx
	jmp	3f
2:
	orb	$48,%dl
	movb	%dl,-43441(%rbp,%rcx)
	decq	%rcx
3:
	leaq	(%rcx,%rbp),%rsi
	addq	$-43440,%rsi
	movb	$45,-43441(%rbp,%rcx)
	movl	$24,%edx
	subq	%rcx,%rdx
	cmpq	$0,-11232(%rbp)
	jne	2f
	movq	%r15,%rax
	subq	%r12,%rax
	cmpq	%rax,%rdx
	ja	3f
8:
	addq	%r12,%rdi
	addq	%rdx,%r12
	callq	_memcpy
	movq	%r12,-11272(%rbp)
	movq	%r15,-11264(%rbp)
9:
	movl	$32,-11256(%rbp)
	movl	$0,8(%r14)
	movq	$0,(%r14)
	movq	$-1,-11240(%rbp)
	cmpq	$0,-11232(%rbp)
	jne	11f
	movq	-11272(%rbp),%rsi
	movq	-11264(%rbp),%r15
	movq	%r15,%rax
	subq	%rsi,%rax
	cmpq	$28,%rax
	jbe	12f
13:
	movq	-11280(%rbp),%r14
	leaq	(%r14,%rsi),%rax
	addq	$29,%rsi
	leaq	lrtp__static.4(%rip),%rcx
	movq	%rax,%rdx
	subq	%rcx,%rdx
	cmpq	$28,%rdx
	ja	14f
	movdqa	24b(%rip),%xmm0
	movdqu	%xmm0,(%rax)
	movabsq	$8245930528158411116,%rcx
	movq	%rcx,16(%rax)
	movl	$2019911712,24(%rax)
	movb	$10,28(%rax)
	movq	%r14,%rdi
	callq	_rtp_listing.printing.write_text.df9e9f1468b30f79
	testb	%al,%al
	jne	15f
16:
	testq	%r15,%r15
	je	17f
	movq	%r14,%rdi
	callq	_rattle_dealloc
17:
	movb	$1,%bl
	movb	$1,%r12b
	jmp	4b
14:
	movups	lrtp__static.4+13(%rip),%xmm0
	movups	%xmm0,13(%rax)
	movdqu	lrtp__static.4(%rip),%xmm0
	movdqu	%xmm0,(%rax)
	movq	%r14,%rdi
	callq	_rtp_listing.printing.write_text.df9e9f1468b30f79
	testb	%al,%al
	je	16b
15:
	movl	%edx,%ebx
	movb	$1,%r12b
	testq	%r15,%r15
	je	4b
	movq	%r14,%rdi
	callq	_rattle_dealloc
	jmp	4b
2:
	leaq	-11280(%rbp),%rdi
	callq	_rtp_core.fmt.formatter.Formatter.write_indented.5e1603e38c63b5f6
	testb	%al,%al
	jne	1f
	jmp	9b
3:
	movq	%rsi,%rbx
	leaq	-11280(%rbp),%rdi
	movq	%rdx,%r13
	movq	%rdx,%rsi
	callq	_rtp_std_alloc.vec.Vec.grow_amortized.9d744d77114e6601
	testb	%al,%al
	je	1f
	movq	-11280(%rbp),%rdi
	movq	-11272(%rbp),%r12
	movq	-11264(%rbp),%r15
	movq	%rbx,%rsi
	movq	%r13,%rdx
	jmp	8b
11:
	leaq	lrtp__static.4(%rip),%rsi
	leaq	-11280(%rbp),%rdi
	movl	$29,%edx
	callq	_rtp_core.fmt.formatter.Formatter.write_indented.5e1603e38c63b5f6
	testb	%al,%al
	jne	1f
	movq	-11264(%rbp),%r15
	movq	-11280(%rbp),%r14
	movq	-11272(%rbp),%rsi
	movq	%r14,%rdi
	callq	_rtp_listing.printing.write_text.df9e9f1468b30f79
	testb	%al,%al
	jne	15b
	jmp	16b
12:
	leaq	-11280(%rbp),%rdi
	movl	$29,%esi
	callq	_rtp_std_alloc.vec.Vec.grow_amortized.9d744d77114e6601
	testb	%al,%al
	je	1f
	movq	-11272(%rbp),%rsi
	movq	-11264(%rbp),%r15
	jmp	13b
1:
	cmpq	$0,-11264(%rbp)
	je	1f
	movq	-11280(%rbp),%rdi
	callq	_rattle_dealloc
1:
	movb	$1,%r12b
	movb	$2,%bl
	jmp	4b
10:
	leaq	-32480(%rbp),%rdi
	leaq	-11280(%rbp),%rsi
	movl	$10200,%edx
	callq	_memcpy
	movl	$32,%ebx
	jmp	2f
3:
	addq	$40,%rbx
	cmpq	$10232,%rbx
	je	1b
2:
	movzbl	-32512(%rbp,%rbx),%edx
	testl	%edx,%edx
	je	3b
	movzbl	-32504(%rbp,%rbx),%ecx
	movq	-32496(%rbp,%rbx),%rdi
	movq	-32480(%rbp,%rbx),%rax
	cmpl	$2,%edx
	cmpb	$15,%cl
	setne	%cl
	testq	%rax,%rax
	sete	%al
	orb	%cl,%al
	jne	3b
	callq	_rattle_dealloc
	jmp	3b
	.cfi_endproc
	.p2align	2
	.data_region jt32
L20_0_set_112 = 32b-6f
L20_0_set_109 = 5b-6f
L20_0_set_80 = 7b-6f
L20_0_set_88 = 35b-6f
L20_0_set_98 = 42b-6f
L20_0_set_99 = 43b-6f
L20_0_set_89 = 36b-6f
L20_0_set_91 = 38b-6f
L20_0_set_92 = 39b-6f
L20_0_set_101 = 45b-6f
L20_0_set_100 = 44b-6f
L20_0_set_86 = 30b-6f
L20_0_set_90 = 37b-6f
L20_0_set_87 = 34b-6f
L20_0_set_85 = 28b-6f
L20_0_set_93 = 40b-6f
6:
	.long	L20_0_set_112
	.long	L20_0_set_109
	.long	L20_0_set_109
	.long	L20_0_set_109
	.long	L20_0_set_109
	.long	L20_0_set_109
	.long	L20_0_set_109
	.long	L20_0_set_109
	.long	L20_0_set_109
	.long	L20_0_set_109
	.long	L20_0_set_109
	.long	L20_0_set_109
	.long	L20_0_set_109
	.long	L20_0_set_109
	.long	L20_0_set_109
	.long	L20_0_set_109
	.long	L20_0_set_109
	.long	L20_0_set_109
	.long	L20_0_set_109
	.long	L20_0_set_109
	.long	L20_0_set_109
	.long	L20_0_set_109
	.long	L20_0_set_109
	.long	L20_0_set_109
	.long	L20_0_set_109
	.long	L20_0_set_109
	.long	L20_0_set_80
	.long	L20_0_set_109
	.long	L20_0_set_109
	.long	L20_0_set_109
	.long	L20_0_set_109
	.long	L20_0_set_109
	.long	L20_0_set_109
	.long	L20_0_set_109
	.long	L20_0_set_88
	.long	L20_0_set_98
	.long	L20_0_set_109
	.long	L20_0_set_109
	.long	L20_0_set_109
	.long	L20_0_set_109
	.long	L20_0_set_109
	.long	L20_0_set_109
	.long	L20_0_set_109
	.long	L20_0_set_99
	.long	L20_0_set_109
	.long	L20_0_set_89
	.long	L20_0_set_109
	.long	L20_0_set_109
	.long	L20_0_set_109
	.long	L20_0_set_109
	.long	L20_0_set_109
	.long	L20_0_set_109
	.long	L20_0_set_109
	.long	L20_0_set_109
	.long	L20_0_set_91
	.long	L20_0_set_109
	.long	L20_0_set_92
	.long	L20_0_set_101
	.long	L20_0_set_100
	.long	L20_0_set_109
	.long	L20_0_set_86
	.long	L20_0_set_90
	.long	L20_0_set_109
	.long	L20_0_set_87
	.long	L20_0_set_109
	.long	L20_0_set_109
	.long	L20_0_set_109
	.long	L20_0_set_109
	.long	L20_0_set_109
	.long	L20_0_set_109
	.long	L20_0_set_85
	.long	L20_0_set_109
	.long	L20_0_set_109
	.long	L20_0_set_93
	.end_data_region

	.section	__TEXT,__const
lrtp__static.0:
	.ascii	"want of memory\n"

lrtp__static.3:
	.ascii	"line "

lrtp__static.4:
	.ascii	": neither a map line nor hex\n"

lrtp__static.5:
	.byte	0

lrtp__static.7:
	.ascii	"http://www.webrtc.org/experiments/rtp-hdrext/abs-send-time"

lrtp__static.9:
	.ascii	"http://www.webrtc.org/experiments/rtp-hdrext/abs-capture-time"

lrtp__static.11:
	.ascii	"urn:ietf:params:rtp-hdrext:ssrc-audio-level"

lrtp__static.13:
	.ascii	"urn:ietf:params:rtp-hdrext:toffset"

lrtp__static.17:
	.ascii	"http://www.ietf.org/id/draft-holmer-rmcat-transport-wide-cc-extensions-01"

lrtp__static.21:
	.ascii	"http://www.webrtc.org/experiments/rtp-hdrext/video-content-type"

lrtp__static.23:
	.ascii	"http://www.webrtc.org/experiments/rtp-hdrext/video-timing"

lrtp__static.25:
	.ascii	"urn:ietf:params:rtp-hdrext:sdes:rtp-stream-id"

lrtp__static.27:
	.ascii	"urn:ietf:params:rtp-hdrext:sdes:repaired-rtp-stream-id"

lrtp__static.29:
	.ascii	"urn:ietf:params:rtp-hdrext:sdes:mid"

lrtp__static.31:
	.ascii	"http://tools.ietf.org/html/draft-ietf-avtext-framemarking-07"

lrtp__static.33:
	.ascii	"http://www.webrtc.org/experiments/rtp-hdrext/color-space"

lrtp__static.35:
	.ascii	"http://www.webrtc.org/experiments/rtp-hdrext/video-layers-allocation00"

lrtp__static.37:
	.ascii	"________________________________________________0123456789_______ABCDEFGHIJKLMNOPQRSTUVWXYZ______abcdefghijklmnopqrstuvwxyz_____________________________________________________________________________________________________________________________________"

lrtp__static.39:
	.ascii	"packet "

lrtp__static.40:
	.ascii	": unreadable"

lrtp__static.42:
	.ascii	"00010203040506070809101112131415161718192021222324252627282930313233343536373839404142434445464748495051525354555657585960616263646566676869707172737475767778798081828384858687888990919293949596979899"

lrtp__static.43:
	.ascii	"pt "

lrtp__static.44:
	.ascii	" seq "

lrtp__static.46:
	.ascii	" ssrc "

lrtp__static.48:
	.ascii	" padding "

lrtp__static.49:
	.ascii	" extension "

lrtp__static.50:
	.ascii	" csrc "

lrtp__static.52:
	.ascii	"yes"

lrtp__static.54:
	.ascii	" mid "

lrtp__static.55:
	.ascii	" rid "

lrtp__static.56:
	.ascii	" repaired "

lrtp__static.57:
	.ascii	" level "

lrtp__static.58:
	.ascii	" voice "

lrtp__static.60:
	.ascii	" transport "

lrtp__static.63:
	.ascii	"taken "

lrtp__static.64:
	.ascii	"refused"

lrtp__static.65:
	.ascii	"unreadable"

	.section	__TEXT,__literal4,4byte_literals
Lrtp__static.66:
	.space	4,32

	.section	__TEXT,__literal16,16byte_literals
	.p2align	2,0x0
Lrtp__switch.table.main:
	.long	0
	.long	2
	.long	3
	.long	1

