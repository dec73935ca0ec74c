/*
 * rtp_lines for Linux on x86_64: the assembly text that Rattle's compiler makes of the program, each function of which is proved.
 * Made anew by: generated/make
 * kit: rattle-kit-13b logic dac8208d650f15bf
 * proved for: x86_64-unknown-linux-gnu
 * compiled for: x86_64-unknown-linux-gnu
 * sources: 8e7625231d209049cd5fcb5776cef307d6e5a83e7af618e772be10bc49c5adbc
 * text: 460007c3a2f32ef542beab6e7ad271c4e7bc534b3008735b6f79f9f369459aa6
 * SPDX-License-Identifier: MIT OR Apache-2.0
 * Copyright (c) 2026 The rtp-wire developers (NOTICE)
 */
	.ifdef	.gasversion.
	.ifndef	.text
	.error	"this text is for Linux on x86_64: the folder generated has those for other systems"
	.end
	.endif
	.section	.rtp_system,"e",@progbits
.Lrtp_nop:
	nop
.Lrtp_nop_end:
	.if	.Lrtp_nop_end - .Lrtp_nop != 1
	.error	"this text is for Linux on x86_64: the folder generated has those for other systems"
	.end
	.endif
	.endif
	.macro	rtp_given rest:vararg
	.ifnb	\rest
	.error	"this text is for Linux on x86_64: the folder generated has those for other systems"
	.end
	.endif
	.endm
	rtp_given # a comment
	.purgem	rtp_given
	.code64 # this text is for Linux on x86_64
	.section	.this_text_is_for_Linux_on_x86_64,"e",@progbits
	.section	.rodata.cst16,"aM",@progbits,16
	.p2align	4,0x0
.Lrtp_CPI0_0:
	.zero	16,10
.Lrtp_CPI0_1:
	.zero	16,1
.Lrtp_CPI0_2:
	.byte	104
	.byte	116
	.byte	116
	.byte	112
	.byte	58
	.byte	47
	.byte	47
	.byte	119
	.byte	119
	.byte	119
	.byte	46
	.byte	119
	.byte	101
	.byte	98
	.byte	114
	.byte	116
.Lrtp_CPI0_3:
	.byte	99
	.byte	46
	.byte	111
	.byte	114
	.byte	103
	.byte	47
	.byte	101
	.byte	120
	.byte	112
	.byte	101
	.byte	114
	.byte	105
	.byte	109
	.byte	101
	.byte	110
	.byte	116
.Lrtp_CPI0_4:
	.byte	115
	.byte	47
	.byte	114
	.byte	116
	.byte	112
	.byte	45
	.byte	104
	.byte	100
	.byte	114
	.byte	101
	.byte	120
	.byte	116
	.byte	47
	.byte	112
	.byte	108
	.byte	97
.Lrtp_CPI0_5:
	.byte	120
	.byte	116
	.byte	47
	.byte	112
	.byte	108
	.byte	97
	.byte	121
	.byte	111
	.byte	117
	.byte	116
	.byte	45
	.byte	100
	.byte	101
	.byte	108
	.byte	97
	.byte	121
.Lrtp_CPI0_6:
	.quad	7598805623977109874
	.quad	7957695015159098981
.Lrtp_CPI0_7:
	.quad	8102089199360832117
	.quad	8011181793428993594
.Lrtp_CPI0_8:
	.zero	16,208
.Lrtp_CPI0_9:
	.zero	16,9
.Lrtp_CPI0_10:
	.zero	16,223
.Lrtp_CPI0_11:
	.zero	16,191
.Lrtp_CPI0_12:
	.zero	16,5
.Lrtp_CPI0_13:
	.byte	208
	.byte	208
	.byte	208
	.byte	208
	.zero	1
	.zero	1
	.zero	1
	.zero	1
	.zero	1
	.zero	1
	.zero	1
	.zero	1
	.zero	1
	.zero	1
	.zero	1
	.zero	1
.Lrtp_CPI0_14:
	.byte	9
	.byte	9
	.byte	9
	.byte	9
	.zero	1
	.zero	1
	.zero	1
	.zero	1
	.zero	1
	.zero	1
	.zero	1
	.zero	1
	.zero	1
	.zero	1
	.zero	1
	.zero	1
.Lrtp_CPI0_15:
	.byte	223
	.byte	223
	.byte	223
	.byte	223
	.zero	1
	.zero	1
	.zero	1
	.zero	1
	.zero	1
	.zero	1
	.zero	1
	.zero	1
	.zero	1
	.zero	1
	.zero	1
	.zero	1
.Lrtp_CPI0_16:
	.byte	191
	.byte	191
	.byte	191
	.byte	191
	.zero	1
	.zero	1
	.zero	1
	.zero	1
	.zero	1
	.zero	1
	.zero	1
	.zero	1
	.zero	1
	.zero	1
	.zero	1
	.zero	1
.Lrtp_CPI0_17:
	.byte	5
	.byte	5
	.byte	5
	.byte	5
	.zero	1
	.zero	1
	.zero	1
	.zero	1
	.zero	1
	.zero	1
	.zero	1
	.zero	1
	.zero	1
	.zero	1
	.zero	1
	.zero	1
.Lrtp_CPI0_18:
	.byte	58
	.byte	32
	.byte	110
	.byte	101
	.byte	105
	.byte	116
	.byte	104
	.byte	101
	.byte	114
	.byte	32
	.byte	97
	.byte	32
	.byte	109
	.byte	97
	.byte	112
	.byte	32
.Lrtp_CPI0_19:
	.byte	0
	.byte	1
	.byte	2
	.byte	3
	.byte	4
	.byte	5
	.byte	6
	.byte	7
	.byte	8
	.byte	9
	.byte	10
	.byte	11
	.byte	12
	.byte	13
	.byte	14
	.byte	15
.Lrtp_CPI0_20:
	.byte	16
	.byte	17
	.byte	18
	.byte	19
	.byte	20
	.byte	21
	.byte	22
	.byte	23
	.byte	24
	.byte	25
	.byte	26
	.byte	27
	.byte	28
	.byte	29
	.byte	30
	.byte	31
	.section	".text.rtp_lines::main+start","ax",@progbits
	.p2align	4
	.type	"rtp_lines::main+start",@function
"rtp_lines::main+start":
	.cfi_startproc
	pushq	%rbp
	.cfi_def_cfa_offset 16
	pushq	%r15
	.cfi_def_cfa_offset 24
	pushq	%r14
	.cfi_def_cfa_offset 32
	pushq	%r13
	.cfi_def_cfa_offset 40
	pushq	%r12
	.cfi_def_cfa_offset 48
	pushq	%rbx
	.cfi_def_cfa_offset 56
	movq	%rsp,%r11
	subq	$64512,%r11
	.cfi_def_cfa_register %r11
	.cfi_adjust_cfa_offset 64512
1:
	subq	$3072,%rsp
	movq	$0,(%rsp)
	cmpq	%r11,%rsp
	jne	1b
	subq	$824,%rsp
	.cfi_def_cfa_register %rsp
	.cfi_def_cfa_offset 65392
	.cfi_offset %rbx,-56
	.cfi_offset %r12,-48
	.cfi_offset %r13,-40
	.cfi_offset %r14,-32
	.cfi_offset %r15,-24
	.cfi_offset %rbp,-16
	pxor	%xmm0,%xmm0
	movdqu	%xmm0,48(%rsp)
	leaq	15(%rsp),%rax
	movq	%rax,40(%rsp)
	movq	$-1,16(%rsp)
	movl	$8192,%eax
	movq	%rax,32(%rsp)
	xorl	%ebx,%ebx
	xorl	%r13d,%r13d
	movq	$0,24(%rsp)
1:
	movq	32(%rsp),%r14
	cmpq	$1,%r14
	adcq	$0,%r14
	movq	24(%rsp),%r12
	cmpq	%r13,%r12
	jne	2f
	testq	%r13,%r13
	je	3f
	movq	%r13,%rax
	subq	%rbx,%rax
	cmpq	$511,%rax
	ja	2f
	leaq	40(%rsp),%rdi
	movl	$512,%esi
	callq	"std_alloc::vec::Vec::grow_amortized::<#9d744d77114e6601>"
	testb	%al,%al
	je	4f
	movq	48(%rsp),%rdi
	movq	56(%rsp),%r13
	jmp	5f
3:
	leaq	511(%rbx),%rax
	cmpq	$511,%rax
	ja	3f
	movb	$38,%r12b
	cmpq	$-513,%rbx
	ja	6f
	addq	$512,%rbx
	movl	$1,%esi
	movq	%rbx,%rdi
	callq	rattle_alloc@PLT
	testb	$1,%al
	je	6f
	movq	%rdx,40(%rsp)
	movq	%rbx,56(%rsp)
	movl	$512,%r13d
	xorl	%edi,%edi
	movl	$512,%r14d
	movq	24(%rsp),%r12
	jmp	5f
3:
	movl	$512,%r14d
	xorl	%r13d,%r13d
	.p2align	4
2:
	movq	%rbx,%rdi
5:
	movq	%r13,%rdx
	subq	%r12,%rdx
	cmpq	%rdx,%r14
	cmovbq	%r14,%rdx
	addq	%r12,%rdx
	subq	%rdi,%rdx
	jbe	2f
	movq	%r13,%rax
	subq	%rdi,%rax
	cmpq	%rax,%rdx
	ja	3f
	leaq	(%rdi,%rdx),%rbx
	movq	40(%rsp),%r14
	cmpq	%rbx,%rdi
	jae	5f
7:
	addq	%r14,%rdi
	xorl	%esi,%esi
	callq	memset@PLT
5:
	movq	%rbx,48(%rsp)
	movq	%r13,56(%rsp)
	jmp	8f
	.p2align	4
2:
	movq	40(%rsp),%r14
	movq	%rdi,%rbx
8:
	decq	16(%rsp)
	addq	%r12,%r14
	movq	%rbx,%r15
	subq	%r12,%r15
	xorl	%ebp,%ebp
	.p2align	4
2:
	movb	$22,%r12b
	incq	%rbp
	je	6f
	xorl	%edi,%edi
	movq	%r14,%rsi
	movq	%r15,%rdx
	callq	read@PLT
	testq	%rax,%rax
	jns	8f
	leaq	11248(%rsp),%rdi
	callq	"std_io::io::error::last_error"
	movq	11248(%rsp),%r12
	shrq	$8,%r12
	movaps	.Lrtp_CPI0_19(%rip),%xmm0
	movaps	%xmm0,11248(%rsp)
	movdqa	.Lrtp_CPI0_20(%rip),%xmm0
	movdqa	%xmm0,11264(%rsp)
	movabsq	$2820983053732684064,%rax
	movq	%rax,11280(%rsp)
	movb	$40,11288(%rsp)
	cmpb	$41,%r12b
	jae	6f
	movl	%r12d,%eax
	andl	$63,%eax
	cmpb	$35,11248(%rsp,%rax)
	je	2b
	jmp	6f
	.p2align	4
8:
	cmpq	%r15,%rax
	cmovbq	%rax,%r15
	testq	%r15,%r15
	je	2f
	addq	%r15,24(%rsp)
	movq	32(%rsp),%rdx
	leaq	(%rdx,%rdx),%rax
	cmpq	$131072,%rax
	movl	$131072,%ecx
	cmovbq	%rax,%rcx
	cmpq	%r15,%rdx
	cmovbeq	%rcx,%rdx
	movq	%rdx,32(%rsp)
	cmpq	$0,16(%rsp)
	jne	1b
	jmp	6f
3:
	leaq	40(%rsp),%rdi
	movq	%rdx,%rbx
	movq	%rdx,%rsi
	callq	"std_alloc::vec::Vec::grow_amortized::<#9d744d77114e6601>"
	testb	%al,%al
	je	4f
	movq	48(%rsp),%rdi
	movq	56(%rsp),%r13
	movq	%rbx,%rdx
	leaq	(%rdi,%rdx),%rbx
	movq	40(%rsp),%r14
	cmpq	%rbx,%rdi
	jb	7b
	jmp	5b
2:
	movq	24(%rsp),%r12
	cmpq	%r12,%rbx
	cmovbq	%rbx,%r12
	movq	%r12,48(%rsp)
	movq	40(%rsp),%r14
	leaq	11248(%rsp),%rdi
	xorl	%r13d,%r13d
	movl	$10992,%edx
	xorl	%esi,%esi
	callq	memset@PLT
	leaq	54376(%rsp),%rdi
	movl	$10960,%edx
	xorl	%esi,%esi
	callq	memset@PLT
	leaq	32448(%rsp),%rdi
	movl	$10960,%edx
	xorl	%esi,%esi
	callq	memset@PLT
	leaq	43416(%rsp),%rdi
	movl	$10960,%edx
	xorl	%esi,%esi
	callq	memset@PLT
	pxor	%xmm0,%xmm0
	movdqa	%xmm0,128(%rsp)
	movdqa	%xmm0,112(%rsp)
	leaq	272(%rsp),%rdi
	movl	$10976,%edx
	xorl	%esi,%esi
	callq	memset@PLT
	testq	%r12,%r12
	je	1f
	xorl	%ebp,%ebp
2:
	xorl	%eax,%eax
3:
	movq	%rax,%rsi
	addq	$32,%rax
	cmpq	%r12,%rax
	ja	5f
	movdqu	(%r14,%rsi),%xmm0
	movdqu	16(%r14,%rsi),%xmm1
	movdqa	.Lrtp_CPI0_0(%rip),%xmm2
	pcmpeqb	%xmm2,%xmm0
	pmovmskb	%xmm0,%edx
	pcmpeqb	%xmm2,%xmm1
	pmovmskb	%xmm1,%ecx
	shll	$16,%ecx
	orl	%edx,%ecx
	je	3b
	movq	%rsi,%rdi
	rep		bsfl	%ecx,%ecx
3:
	movq	%r12,%rdx
	subq	%rcx,%rdx
	cmpq	%rdi,%rdx
	jne	7f
	leaq	.Lrtp_static.5(%rip),%rax
	movq	%rax,32(%rsp)
	jmp	8f
5:
	leaq	.Lrtp_static.5(%rip),%r8
	cmpq	%rsi,%r12
	je	5f
	leaq	(%r14,%rsi),%rax
	movq	%rsi,%rdi
	movq	%rsi,%rdx
	subq	%r12,%rdx
	xorl	%ecx,%ecx
9:
	cmpb	$10,(%rax,%rcx)
	je	3b
	incq	%rcx
	movq	%rdx,%rsi
	addq	%rcx,%rsi
	jne	9b
5:
	movq	%r8,32(%rsp)
8:
	movq	$0,24(%rsp)
	movq	%r12,%rax
	jmp	3f
7:
	movq	%rcx,%rax
	addq	%rdi,%rax
	je	5f
	leaq	(%rcx,%rdi),%rsi
	cmpb	$13,-1(%r14,%rsi)
	jne	5f
	movq	%rdi,%rsi
	leaq	(%rcx,%rdi),%rax
	decq	%rax
	jmp	7f
5:
	movq	%rdi,%rsi
7:
	addq	%r14,%rcx
	addq	%rsi,%rcx
	incq	%rcx
	movq	%rcx,32(%rsp)
	notq	%rsi
	addq	%rdx,%rsi
	movq	%rsi,24(%rsp)
3:
	pxor	%xmm0,%xmm0
	movdqa	%xmm0,64(%rsp)
	movq	$0,80(%rsp)
	cmpq	$4,%rax
	jb	3f
	movl	(%r14),%edx
	leaq	4(%r14),%rcx
	addq	$-4,%rax
	xorl	%r13d,%r13d
	cmpl	$544235885,%edx
	movq	%rcx,%rsi
	cmovneq	%r13,%rsi
	cmoveq	%rax,%r13
	testq	%rax,%rax
	je	3f
	cmpl	$544235885,%edx
	jne	3f
	xorl	%ebx,%ebx
5:
	cmpb	$32,(%rcx,%rbx)
	je	7f
	incq	%rbx
	cmpq	%rbx,%rax
	jne	5b
	jmp	3f
7:
	pxor	%xmm0,%xmm0
	movdqa	%xmm0,22240(%rsp)
	movq	$0,22256(%rsp)
	cmpq	$3,%rbx
	ja	3f
	decq	%r13
	leaq	(%rsi,%rbx),%r8
	incq	%r8
	movq	%r13,%r9
	subq	%rbx,%r9
	xorl	%eax,%eax
5:
	cmpq	%rax,%rbx
	je	7f
	movzbl	(%rsi,%rax),%ecx
	addb	$-48,%cl
	incq	%rax
	cmpb	$10,%cl
	jb	5b
	jmp	3f
7:
	leaq	22240(%rsp),%rdi
	movq	%rbx,%rdx
	movq	%r8,%r15
	movq	%rbp,16(%rsp)
	movq	%r9,%rbp
	callq	"core::str::utf8::from_utf8"
	movq	%rbp,%rdx
	movq	16(%rsp),%rbp
	cmpb	$0,22240(%rsp)
	jne	3f
	movq	22256(%rsp),%rax
	testq	%rax,%rax
	je	3f
	movq	%r15,%rsi
	movq	22248(%rsp),%rcx
	cmpb	$43,(%rcx)
	jne	5f
	cmpq	$1,%rax
	je	3f
	movl	$1,%r9d
	xorl	%r15d,%r15d
7:
	movzbl	(%rcx,%r9),%r8d
	leal	-48(%r8),%edi
	cmpb	$9,%dil
	ja	3f
	leaq	(%r15,%r15,4),%rdi
	andl	$15,%r8d
	leaq	(%r8,%rdi,2),%r15
	cmpq	$255,%r15
	ja	3f
	incq	%r9
	cmpq	%r9,%rax
	jne	7b
	jmp	7f
5:
	xorl	%r15d,%r15d
	xorl	%r9d,%r9d
5:
	movzbl	(%rcx,%r9),%r8d
	leal	-48(%r8),%edi
	cmpb	$9,%dil
	ja	3f
	leaq	(%r15,%r15,4),%rdi
	andl	$15,%r8d
	leaq	(%r8,%rdi,2),%r15
	cmpq	$256,%r15
	jae	3f
	incq	%r9
	cmpq	%r9,%rax
	jne	5b
7:
	testq	%r15,%r15
	je	3f
	cmpq	%rbx,%r13
	je	3f
	leaq	64(%rsp),%rdi
	callq	"core::str::utf8::from_utf8"
	cmpb	$0,64(%rsp)
	jne	3f
	movzwl	80(%rsp),%r13d
	movq	72(%rsp),%r14
	movzwl	86(%rsp),%ecx
	movl	82(%rsp),%eax
	shlq	$16,%rax
	shlq	$48,%rcx
	orq	%rax,%rcx
	movq	%rcx,104(%rsp)
	leaq	(%rcx,%r13),%rbx
	cmpq	$73,%rbx
	ja	5f
	leaq	7f(%rip),%rax
	movslq	(%rax,%rbx,4),%rcx
	addq	%rax,%rcx
	leaq	15(%rsp),%r12
	jmpq	*%rcx
8:
	movdqu	(%r14),%xmm0
	movq	18(%r14),%xmm1
	movq	16(%r14),%xmm2
	punpcklqdq	%xmm1,%xmm2
	pxor	.Lrtp_CPI0_6(%rip),%xmm2
	pxor	.Lrtp_CPI0_7(%rip),%xmm0
	por	%xmm2,%xmm0
	ptest	%xmm0,%xmm0
	jne	9f
	movl	$4,%eax
	jmp	10f
11:
	leaq	.Lrtp_static.35(%rip),%rcx
	movl	$14,%eax
	jmp	12f
13:
	leaq	.Lrtp_static.31(%rip),%rcx
	movl	$12,%eax
	jmp	14f
15:
	leaq	.Lrtp_static.21(%rip),%rcx
	movl	$7,%eax
	jmp	14f
16:
	leaq	.Lrtp_static.13(%rip),%rcx
	movl	$3,%eax
	jmp	14f
17:
	leaq	.Lrtp_static.25(%rip),%rcx
	movl	$9,%eax
	jmp	14f
18:
	leaq	.Lrtp_static.9(%rip),%rcx
	movl	$1,%eax
	jmp	14f
19:
	leaq	.Lrtp_static.27(%rip),%rcx
	movl	$10,%eax
	jmp	14f
20:
	leaq	.Lrtp_static.33(%rip),%rcx
	movl	$13,%eax
	jmp	14f
21:
	leaq	.Lrtp_static.17(%rip),%rcx
	movl	$5,%eax
12:
	xorl	%edx,%edx
	movq	%rbx,%rsi
	movq	16(%rsp),%rbp
12:
	movdqu	(%rcx,%rdx),%xmm0
	movdqu	16(%rcx,%rdx),%xmm1
	movdqu	32(%rcx,%rdx),%xmm2
	movdqu	48(%rcx,%rdx),%xmm3
	movdqu	(%r14,%rdx),%xmm4
	pcmpeqb	%xmm0,%xmm4
	movdqu	16(%r14,%rdx),%xmm0
	pcmpeqb	%xmm1,%xmm0
	pand	%xmm4,%xmm0
	movdqu	32(%r14,%rdx),%xmm1
	pcmpeqb	%xmm2,%xmm1
	movdqu	48(%r14,%rdx),%xmm2
	pcmpeqb	%xmm3,%xmm2
	pand	%xmm1,%xmm2
	pand	%xmm0,%xmm2
	pmovmskb	%xmm2,%edi
	cmpl	$65535,%edi
	jne	22f
	addq	$64,%rdx
	addq	$-64,%rsi
	cmpq	$65,%rsi
	jae	12b
	movdqu	-64(%rcx,%rbx),%xmm0
	movdqu	-48(%rcx,%rbx),%xmm1
	movdqu	-32(%rcx,%rbx),%xmm2
	movdqu	-16(%rcx,%rbx),%xmm3
	movdqu	-64(%r14,%rbx),%xmm4
	pcmpeqb	%xmm0,%xmm4
	movdqu	-48(%r14,%rbx),%xmm5
	pcmpeqb	%xmm1,%xmm5
	movdqu	-32(%r14,%rbx),%xmm0
	pcmpeqb	%xmm2,%xmm0
	movdqu	-16(%r14,%rbx),%xmm1
	pcmpeqb	%xmm3,%xmm1
	pcmpeqd	%xmm2,%xmm2
	pxor	%xmm2,%xmm1
	pxor	%xmm2,%xmm0
	por	%xmm1,%xmm0
	pxor	%xmm2,%xmm4
	pxor	%xmm2,%xmm5
	por	%xmm4,%xmm5
	por	%xmm0,%xmm5
	pxor	%xmm0,%xmm0
	pcmpgtb	%xmm5,%xmm0
	jmp	12f
23:
	leaq	.Lrtp_static.29(%rip),%rcx
	movl	$11,%eax
	jmp	14f
24:
	leaq	.Lrtp_static.11(%rip),%rcx
	movl	$2,%eax
	jmp	14f
25:
	leaq	.Lrtp_static.7(%rip),%rcx
	xorl	%eax,%eax
	jmp	14f
26:
	leaq	.Lrtp_static.23(%rip),%rcx
	movl	$8,%eax
14:
	leaq	-16(%rbx),%rdx
	movdqu	(%rcx),%xmm0
	movdqu	16(%rcx),%xmm1
	movdqu	(%r14),%xmm2
	pcmpeqb	%xmm0,%xmm2
	movdqu	16(%r14),%xmm3
	pcmpeqb	%xmm1,%xmm3
	pcmpeqd	%xmm1,%xmm1
	pxor	%xmm1,%xmm2
	pxor	%xmm1,%xmm3
	por	%xmm2,%xmm3
	cmpq	$32,%rdx
	movl	$32,%esi
	cmovbq	%rdx,%rsi
	movdqu	(%rcx,%rsi),%xmm0
	movdqu	(%r14,%rsi),%xmm2
	pcmpeqb	%xmm0,%xmm2
	pxor	%xmm1,%xmm2
	movdqu	-16(%rcx,%rbx),%xmm4
	movdqu	-16(%r14,%rbx),%xmm0
	pcmpeqb	%xmm4,%xmm0
	pxor	%xmm1,%xmm0
	por	%xmm3,%xmm0
	por	%xmm2,%xmm0
12:
	ptest	.Lrtp_CPI0_1(%rip),%xmm0
	je	10f
22:
	leaq	15(%rsp),%r12
	testq	%rbx,%rbx
	je	12f
	cmpq	$58,%rbx
	jne	5f
	movdqu	(%r14),%xmm0
	movdqu	16(%r14),%xmm1
	movdqu	32(%r14),%xmm2
	pcmpeqb	.Lrtp_CPI0_2(%rip),%xmm0
	movdqu	42(%r14),%xmm3
	pcmpeqb	.Lrtp_CPI0_3(%rip),%xmm1
	pand	%xmm0,%xmm1
	pcmpeqb	.Lrtp_CPI0_4(%rip),%xmm2
	pcmpeqb	.Lrtp_CPI0_5(%rip),%xmm3
	pand	%xmm2,%xmm3
	pand	%xmm1,%xmm3
	pmovmskb	%xmm3,%eax
	cmpl	$65535,%eax
	jne	9f
	movl	$6,%eax
10:
	xorl	%r12d,%r12d
	xorl	%ebx,%ebx
	jmp	10f
5:
	cmpq	$0,104(%rsp)
	js	14f
9:
	movl	$1,%esi
	movq	%rbx,%rdi
	callq	rattle_alloc@PLT
	testb	$1,%al
	je	14f
	movq	%rdx,%r12
12:
	movq	%r12,%rax
	subq	%r14,%rax
	cmpq	%rbx,%rax
	jae	9f
	xorl	%ecx,%ecx
	cmpq	$4,%rbx
	jb	22f
	cmpq	$32,%rax
	jb	22f
	cmpq	$32,%rbx
	jae	27f
	xorl	%ecx,%ecx
	jmp	28f
9:
	movq	%r12,%rdi
	movq	%r14,%rsi
	movq	%rbx,%rdx
	callq	memmove@PLT
	movl	$15,%eax
	jmp	10f
27:
	movq	%r13,%rsi
	andl	$31,%r13d
	movq	%rbx,%rcx
	subq	%r13,%rcx
	xorl	%edx,%edx
9:
	movdqu	(%r14,%rdx),%xmm0
	movdqu	16(%r14,%rdx),%xmm1
	movdqu	%xmm0,(%r12,%rdx)
	movdqu	%xmm1,16(%r12,%rdx)
	addq	$32,%rdx
	cmpq	%rdx,%rcx
	jne	9b
	testq	%r13,%r13
	je	9f
	cmpl	$4,%r13d
	movq	%rsi,%r13
	jb	22f
28:
	movq	%rcx,%rax
	movq	%r13,%rdi
	andl	$3,%r13d
	movq	%rbx,%rcx
	subq	%r13,%rcx
27:
	movl	(%r14,%rax),%esi
	movl	%esi,(%r12,%rax)
	addq	$4,%rax
	cmpq	%rax,%rcx
	jne	27b
	testq	%r13,%r13
	movq	%rdi,%r13
	movq	16(%rsp),%rbp
	je	27f
22:
	movl	%r13d,%eax
	subl	%ecx,%eax
	movq	%rcx,%rdx
	andl	$3,%eax
	je	22f
	movq	%rcx,%rdx
28:
	movzbl	(%r14,%rdx),%esi
	movb	%sil,(%r12,%rdx)
	incq	%rdx
	decq	%rax
	jne	28b
22:
	movq	104(%rsp),%rax
	addq	%r13,%rax
	notq	%rcx
	addq	%rax,%rcx
	movl	$15,%eax
	cmpq	$3,%rcx
	jb	22f
28:
	movzbl	(%r14,%rdx),%ecx
	movb	%cl,(%r12,%rdx)
	movzbl	1(%r14,%rdx),%ecx
	movb	%cl,1(%r12,%rdx)
	movzbl	2(%r14,%rdx),%ecx
	movb	%cl,2(%r12,%rdx)
	movzbl	3(%r14,%rdx),%ecx
	movb	%cl,3(%r12,%rdx)
	addq	$4,%rdx
	cmpq	%rdx,%rbx
	jne	28b
22:
	movq	16(%rsp),%rbp
10:
	movq	%rax,112(%rsp)
	movq	%r12,120(%rsp)
	movq	%rbx,128(%rsp)
	movq	%rbx,136(%rsp)
	movzbl	%r15b,%esi
	leaq	272(%rsp),%rdi
	leaq	112(%rsp),%rdx
	callq	"rtp_ext::map::ExtensionMap::set"
	incq	%rbp
	movq	24(%rsp),%r12
	testq	%r12,%r12
	movq	32(%rsp),%r14
	jne	2b
	jmp	2f
27:
	movl	$15,%eax
	jmp	10b
9:
	movl	$15,%eax
	jmp	22b
3:
	movq	272(%rsp),%r15
	movq	280(%rsp),%r13
	leaq	288(%rsp),%rsi
	leaq	32448(%rsp),%rdi
	movl	$10960,%edx
	callq	memcpy@PLT
	movq	%r12,%rdx
	movq	%r14,%rcx
	cmpq	$64,%r12
	jae	3f
9:
	testq	%rdx,%rdx
	jne	10f
	jmp	22f
1:
	xorl	%r15d,%r15d
	xorl	%ebp,%ebp
1:
	leaq	288(%rsp),%rsi
	leaq	32448(%rsp),%rdi
	movl	$10960,%edx
	callq	memcpy@PLT
	xorl	%r12d,%r12d
22:
	testq	%rbp,%rbp
	je	27f
	leaq	43416(%rsp),%rdi
	leaq	32448(%rsp),%rsi
	movl	$10960,%edx
	callq	memcpy@PLT
	movq	%r15,%rbp
	movq	%r13,%r15
28:
	leaq	54376(%rsp),%rbx
	leaq	43416(%rsp),%rsi
	movl	$10960,%edx
	movq	%rbx,%rdi
	callq	memcpy@PLT
	movq	%rbp,11248(%rsp)
	movq	%r15,11256(%rsp)
	leaq	11264(%rsp),%rdi
	movl	$10960,%edx
	movq	%rbx,%rsi
	callq	memcpy@PLT
	movq	%r14,22224(%rsp)
	movq	%r12,22232(%rsp)
	leaq	11248(%rsp),%r14
	movq	%r14,%rdi
	callq	"rtp_listing::printing::print_all::<#df9e9f1468b30f79>"
	movl	%eax,%ebp
	movl	%edx,%ebx
	leaq	272(%rsp),%rdi
	movl	$10200,%edx
	movq	%r14,%rsi
	callq	memcpy@PLT
	movl	$32,%r14d
	jmp	29f
	.p2align	4
30:
	addq	$40,%r14
	cmpq	$10232,%r14
	je	31f
29:
	movzbl	240(%rsp,%r14),%edx
	testl	%edx,%edx
	je	30b
	movzbl	248(%rsp,%r14),%ecx
	movq	256(%rsp,%r14),%rdi
	movq	272(%rsp,%r14),%rax
	cmpl	$2,%edx
	cmpb	$15,%cl
	setne	%cl
	testq	%rax,%rax
	sete	%al
	orb	%cl,%al
	jne	30b
	callq	rattle_dealloc@PLT
	jmp	30b
31:
	cmpb	$1,%bpl
	sete	%bpl
29:
	cmpq	$0,56(%rsp)
	je	30f
	movq	40(%rsp),%rdi
	callq	rattle_dealloc@PLT
30:
	xorl	%eax,%eax
	testb	%bpl,%bpl
	jne	30f
	jmp	31f
27:
	pxor	%xmm0,%xmm0
	movdqu	%xmm0,22248(%rsp)
	movq	$0,22264(%rsp)
	movdqu	%xmm0,120(%rsp)
	movq	$0,136(%rsp)
	movdqu	%xmm0,72(%rsp)
	movq	$0,88(%rsp)
	movdqu	%xmm0,248(%rsp)
	movq	$0,264(%rsp)
	movdqu	%xmm0,216(%rsp)
	movq	$0,232(%rsp)
	movdqu	%xmm0,184(%rsp)
	movq	$0,200(%rsp)
	movdqu	%xmm0,152(%rsp)
	movq	$0,168(%rsp)
	leaq	272(%rsp),%rbx
	movl	$10976,%edx
	movq	%rbx,%rdi
	xorl	%esi,%esi
	callq	memset@PLT
	movq	$2,22240(%rsp)
	leaq	22240(%rsp),%rdx
	movq	%rbx,%rdi
	movl	$1,%esi
	callq	"rtp_ext::map::ExtensionMap::set"
	movq	$0,112(%rsp)
	leaq	112(%rsp),%rdx
	movq	%rbx,%rdi
	movl	$2,%esi
	callq	"rtp_ext::map::ExtensionMap::set"
	movq	$5,64(%rsp)
	leaq	64(%rsp),%rdx
	movq	%rbx,%rdi
	movl	$3,%esi
	callq	"rtp_ext::map::ExtensionMap::set"
	movq	$11,240(%rsp)
	leaq	240(%rsp),%rdx
	movq	%rbx,%rdi
	movl	$4,%esi
	callq	"rtp_ext::map::ExtensionMap::set"
	movq	$9,208(%rsp)
	leaq	208(%rsp),%rdx
	movq	%rbx,%rdi
	movl	$10,%esi
	callq	"rtp_ext::map::ExtensionMap::set"
	movq	$10,176(%rsp)
	leaq	176(%rsp),%rdx
	movq	%rbx,%rdi
	movl	$11,%esi
	callq	"rtp_ext::map::ExtensionMap::set"
	movq	$4,144(%rsp)
	leaq	144(%rsp),%rdx
	movq	%rbx,%rdi
	movl	$13,%esi
	callq	"rtp_ext::map::ExtensionMap::set"
	movq	272(%rsp),%rbp
	movq	%r15,%rbx
	movq	280(%rsp),%r15
	leaq	288(%rsp),%rsi
	leaq	43416(%rsp),%rdi
	movl	$10960,%edx
	callq	memcpy@PLT
	movq	%rbx,272(%rsp)
	movq	%r13,280(%rsp)
	leaq	288(%rsp),%rdi
	leaq	32448(%rsp),%rsi
	movl	$10184,%edx
	callq	memcpy@PLT
	movl	$32,%ebx
	jmp	27f
32:
	addq	$40,%rbx
	cmpq	$10232,%rbx
	je	28b
27:
	movzbl	240(%rsp,%rbx),%edx
	testl	%edx,%edx
	je	32b
	movzbl	248(%rsp,%rbx),%ecx
	movq	256(%rsp,%rbx),%rdi
	movq	272(%rsp,%rbx),%rax
	cmpl	$2,%edx
	cmpb	$15,%cl
	setne	%cl
	testq	%rax,%rax
	sete	%al
	orb	%cl,%al
	jne	32b
	callq	rattle_dealloc@PLT
	jmp	32b
3:
	movdqu	(%r14),%xmm0
	movdqu	16(%r14),%xmm1
	movdqa	.Lrtp_CPI0_0(%rip),%xmm2
	pcmpeqb	%xmm2,%xmm0
	pcmpeqb	%xmm2,%xmm1
	por	%xmm0,%xmm1
	pmovmskb	%xmm1,%eax
	movq	%r12,%rdx
	movq	%r14,%rcx
	testl	%eax,%eax
	je	3f
10:
	movq	%rbp,%rbx
	jmp	27f
28:
	movq	%rax,%rdx
	movq	%rsi,%rcx
	testq	%rax,%rax
	je	22b
27:
	xorl	%esi,%esi
	.p2align	4
22:
	movq	%rsi,%rax
	addq	$32,%rsi
	cmpq	%rdx,%rsi
	ja	27f
	movdqu	(%rcx,%rax),%xmm0
	movdqu	16(%rcx,%rax),%xmm1
	movdqa	.Lrtp_CPI0_0(%rip),%xmm2
	pcmpeqb	%xmm2,%xmm0
	pmovmskb	%xmm0,%r8d
	pcmpeqb	%xmm2,%xmm1
	pmovmskb	%xmm1,%edi
	shll	$16,%edi
	orl	%r8d,%edi
	je	22b
	rep		bsfl	%edi,%edi
22:
	movq	%rdx,%r8
	subq	%rdi,%r8
	cmpq	%rax,%r8
	jne	32f
	leaq	.Lrtp_static.5(%rip),%rsi
	xorl	%eax,%eax
	incq	%rbx
	testb	$1,%dl
	je	33f
	jmp	34f
27:
	leaq	.Lrtp_static.5(%rip),%rsi
	cmpq	%rax,%rdx
	je	27f
	leaq	(%rcx,%rax),%r8
	movq	%rax,%r9
	subq	%rdx,%r9
	xorl	%edi,%edi
	.p2align	4
35:
	cmpb	$10,(%r8,%rdi)
	je	22b
	incq	%rdi
	movq	%r9,%r10
	addq	%rdi,%r10
	jne	35b
27:
	xorl	%eax,%eax
	incq	%rbx
	testb	$1,%dl
	je	33f
	jmp	34f
32:
	movq	%rdi,%rdx
	addq	%rax,%rdx
	je	22f
	leaq	(%rdi,%rax),%rsi
	cmpb	$13,-1(%rcx,%rsi)
	jne	22f
	leaq	(%rdi,%rax),%rdx
	decq	%rdx
22:
	addq	%rcx,%rdi
	leaq	(%rax,%rdi),%rsi
	incq	%rsi
	notq	%rax
	addq	%r8,%rax
	incq	%rbx
	testb	$1,%dl
	jne	34f
33:
	testq	%rdx,%rdx
	je	22f
	cmpq	$4,%rdx
	jae	27f
	xorl	%r8d,%r8d
	xorl	%edi,%edi
	jmp	32f
27:
	cmpq	$32,%rdx
	jae	27f
	xorl	%edi,%edi
	xorl	%r8d,%r8d
	jmp	33f
27:
	movq	%rdx,%rdi
	andq	$-32,%rdi
	pxor	%xmm0,%xmm0
	xorl	%r8d,%r8d
	pxor	%xmm1,%xmm1
	.p2align	4
27:
	movdqu	(%rcx,%r8),%xmm3
	movdqu	16(%rcx,%r8),%xmm2
	movdqa	.Lrtp_CPI0_8(%rip),%xmm4
	movdqa	%xmm3,%xmm5
	paddb	%xmm4,%xmm5
	paddb	%xmm2,%xmm4
	movdqa	.Lrtp_CPI0_9(%rip),%xmm6
	psubusb	%xmm6,%xmm5
	psubusb	%xmm6,%xmm4
	movdqa	.Lrtp_CPI0_10(%rip),%xmm6
	pand	%xmm6,%xmm3
	pand	%xmm6,%xmm2
	movdqa	.Lrtp_CPI0_11(%rip),%xmm6
	paddb	%xmm6,%xmm3
	paddb	%xmm6,%xmm2
	movdqa	.Lrtp_CPI0_12(%rip),%xmm6
	psubusb	%xmm6,%xmm3
	pminub	%xmm5,%xmm3
	por	%xmm3,%xmm1
	psubusb	%xmm6,%xmm2
	pminub	%xmm4,%xmm2
	por	%xmm2,%xmm0
	addq	$32,%r8
	cmpq	%r8,%rdi
	jne	27b
	por	%xmm1,%xmm0
	pshufd	$238,%xmm0,%xmm1
	por	%xmm0,%xmm1
	pshufd	$85,%xmm1,%xmm0
	por	%xmm1,%xmm0
	movdqa	%xmm0,%xmm1
	psrld	$16,%xmm1
	por	%xmm0,%xmm1
	movdqa	%xmm1,%xmm0
	psrlw	$8,%xmm0
	por	%xmm1,%xmm0
	movd	%xmm0,%r8d
	cmpq	%rdi,%rdx
	je	27f
	testb	$28,%dl
	je	32f
33:
	movq	%rdi,%r9
	movq	%rdx,%rdi
	andq	$-4,%rdi
	movzbl	%r8b,%r8d
	movd	%r8d,%xmm0
	.p2align	4
33:
	movd	(%rcx,%r9),%xmm1
	movdqa	.Lrtp_CPI0_13(%rip),%xmm2
	paddb	%xmm1,%xmm2
	psubusb	.Lrtp_CPI0_14(%rip),%xmm2
	pand	.Lrtp_CPI0_15(%rip),%xmm1
	paddb	.Lrtp_CPI0_16(%rip),%xmm1
	psubusb	.Lrtp_CPI0_17(%rip),%xmm1
	pminub	%xmm2,%xmm1
	por	%xmm1,%xmm0
	addq	$4,%r9
	cmpq	%r9,%rdi
	jne	33b
	movdqa	%xmm0,%xmm1
	psrld	$16,%xmm1
	por	%xmm0,%xmm1
	movdqa	%xmm1,%xmm0
	psrlw	$8,%xmm0
	por	%xmm1,%xmm0
	movd	%xmm0,%r8d
	jmp	33f
	.p2align	4
32:
	movzbl	(%rcx,%rdi),%r9d
	leal	-48(%r9),%r10d
	xorl	%r11d,%r11d
	subb	$9,%r10b
	movzbl	%r10b,%r10d
	cmovbl	%r11d,%r10d
	andb	$-33,%r9b
	addb	$-65,%r9b
	subb	$5,%r9b
	movzbl	%r9b,%r9d
	cmovbl	%r11d,%r9d
	cmpb	%r10b,%r9b
	cmovael	%r10d,%r9d
	orb	%r9b,%r8b
	incq	%rdi
33:
	cmpq	%rdi,%rdx
	jne	32b
27:
	testb	%r8b,%r8b
	jne	34f
22:
	cmpq	$64,%rax
	jb	28b
	movdqu	(%rsi),%xmm0
	movdqu	16(%rsi),%xmm1
	movdqa	.Lrtp_CPI0_0(%rip),%xmm2
	pcmpeqb	%xmm2,%xmm0
	pcmpeqb	%xmm2,%xmm1
	por	%xmm0,%xmm1
	pmovmskb	%xmm1,%ecx
	testl	%ecx,%ecx
	jne	28b
	.p2align	4
22:
	movdqa	.Lrtp_CPI0_8(%rip),%xmm3
	movdqu	(%rsi),%xmm4
	movdqu	16(%rsi),%xmm2
	movdqu	32(%rsi),%xmm0
	movdqu	48(%rsi),%xmm1
	movdqa	%xmm4,%xmm5
	paddb	%xmm3,%xmm5
	movdqa	%xmm2,%xmm6
	paddb	%xmm3,%xmm6
	movdqa	.Lrtp_CPI0_9(%rip),%xmm7
	psubusb	%xmm7,%xmm5
	psubusb	%xmm7,%xmm6
	movdqa	.Lrtp_CPI0_10(%rip),%xmm8
	pand	%xmm8,%xmm4
	pand	%xmm8,%xmm2
	movdqa	.Lrtp_CPI0_11(%rip),%xmm9
	paddb	%xmm9,%xmm4
	paddb	%xmm9,%xmm2
	movdqa	.Lrtp_CPI0_12(%rip),%xmm10
	psubusb	%xmm10,%xmm4
	pminub	%xmm5,%xmm4
	psubusb	%xmm10,%xmm2
	pminub	%xmm6,%xmm2
	movdqa	%xmm0,%xmm5
	paddb	%xmm3,%xmm5
	paddb	%xmm1,%xmm3
	psubusb	%xmm7,%xmm5
	psubusb	%xmm7,%xmm3
	pand	%xmm8,%xmm0
	pand	%xmm8,%xmm1
	paddb	%xmm9,%xmm0
	paddb	%xmm9,%xmm1
	psubusb	%xmm10,%xmm0
	pminub	%xmm5,%xmm0
	por	%xmm4,%xmm0
	psubusb	%xmm10,%xmm1
	pminub	%xmm3,%xmm1
	por	%xmm2,%xmm1
	por	%xmm0,%xmm1
	ptest	%xmm1,%xmm1
	jne	28b
	addq	$64,%rsi
	addq	$-64,%rax
	cmpq	$63,%rax
	ja	22b
	jmp	28b
4:
	movb	$38,%r12b
6:
	movaps	.Lrtp_CPI0_19(%rip),%xmm0
	movaps	%xmm0,11248(%rsp)
	movdqa	.Lrtp_CPI0_20(%rip),%xmm0
	movdqa	%xmm0,11264(%rsp)
	movabsq	$2820983053732684064,%rax
	movq	%rax,11280(%rsp)
	movb	$40,11288(%rsp)
	cmpb	$41,%r12b
	jae	4f
	movzbl	%r12b,%eax
	cmpb	$38,11248(%rsp,%rax)
	sete	%bl
	xorb	$3,%bl
	cmpq	$0,56(%rsp)
	jne	6f
	jmp	30f
4:
	movb	$3,%bl
	cmpq	$0,56(%rsp)
	je	30f
6:
	movq	40(%rsp),%rdi
	callq	rattle_dealloc@PLT
30:
	cmpb	$2,%bl
	jne	4f
	leaq	.Lrtp_static.0(%rip),%rdi
	movl	$15,%esi
	callq	"rtp_listing::printing::write_text::<#df9e9f1468b30f79>"
	testb	%al,%al
	je	6f
	movl	%edx,%ebx
4:
	movzbl	%bl,%eax
	leaq	".Lrtp_switch.table.rtp_lines::main+start"(%rip), %rcx
	movl	(%rcx,%rax,4),%eax
31:
	addq	$65336,%rsp
	.cfi_def_cfa_offset 56
	popq	%rbx
	.cfi_def_cfa_offset 48
	popq	%r12
	.cfi_def_cfa_offset 40
	popq	%r13
	.cfi_def_cfa_offset 32
	popq	%r14
	.cfi_def_cfa_offset 24
	popq	%r15
	.cfi_def_cfa_offset 16
	popq	%rbp
	.cfi_def_cfa_offset 8
	retq
6:
	.cfi_def_cfa_offset 65392
	movl	$3,%eax
	jmp	31b
3:
	movq	%r14,%rcx
	movq	%r12,%rdx
3:
	movdqa	.Lrtp_CPI0_8(%rip),%xmm3
	movdqu	(%rcx),%xmm4
	movdqu	16(%rcx),%xmm2
	movdqu	32(%rcx),%xmm0
	movdqu	48(%rcx),%xmm1
	movdqa	%xmm4,%xmm5
	paddb	%xmm3,%xmm5
	movdqa	%xmm2,%xmm6
	paddb	%xmm3,%xmm6
	movdqa	.Lrtp_CPI0_9(%rip),%xmm7
	psubusb	%xmm7,%xmm5
	psubusb	%xmm7,%xmm6
	movdqa	.Lrtp_CPI0_10(%rip),%xmm8
	pand	%xmm8,%xmm4
	pand	%xmm8,%xmm2
	movdqa	.Lrtp_CPI0_11(%rip),%xmm9
	paddb	%xmm9,%xmm4
	paddb	%xmm9,%xmm2
	movdqa	.Lrtp_CPI0_12(%rip),%xmm10
	psubusb	%xmm10,%xmm4
	pminub	%xmm5,%xmm4
	psubusb	%xmm10,%xmm2
	pminub	%xmm6,%xmm2
	movdqa	%xmm0,%xmm5
	paddb	%xmm3,%xmm5
	paddb	%xmm1,%xmm3
	psubusb	%xmm7,%xmm5
	psubusb	%xmm7,%xmm3
	pand	%xmm8,%xmm0
	pand	%xmm8,%xmm1
	paddb	%xmm9,%xmm0
	paddb	%xmm9,%xmm1
	psubusb	%xmm10,%xmm0
	pminub	%xmm5,%xmm0
	por	%xmm4,%xmm0
	psubusb	%xmm10,%xmm1
	pminub	%xmm3,%xmm1
	por	%xmm2,%xmm1
	por	%xmm0,%xmm1
	ptest	%xmm1,%xmm1
	jne	10b
	addq	$64,%rcx
	addq	$-64,%rdx
	cmpq	$63,%rdx
	ja	3b
	jmp	9b
34:
	movq	%r15,272(%rsp)
	movq	%r13,280(%rsp)
	leaq	288(%rsp),%rdi
	leaq	32448(%rsp),%rsi
	movl	$10184,%edx
	callq	memcpy@PLT
	movl	$32,%r14d
	jmp	3f
	.p2align	4
4:
	addq	$40,%r14
	cmpq	$10232,%r14
	je	6f
3:
	movzbl	240(%rsp,%r14),%edx
	testl	%edx,%edx
	je	4b
	movzbl	248(%rsp,%r14),%ecx
	movq	256(%rsp,%r14),%rdi
	movq	272(%rsp,%r14),%rax
	cmpl	$2,%edx
	cmpb	$15,%cl
	setne	%cl
	testq	%rax,%rax
	sete	%al
	orb	%cl,%al
	jne	4b
	callq	rattle_dealloc@PLT
	jmp	4b
6:
	pxor	%xmm0,%xmm0
	movdqu	%xmm0,280(%rsp)
	movl	$0,329(%rsp)
	movl	$0,332(%rsp)
	leaq	15(%rsp),%rax
	movq	%rax,272(%rsp)
	movq	$0,320(%rsp)
	movb	$0,328(%rsp)
	movl	$32,296(%rsp)
	movq	$0,300(%rsp)
	movl	$0,308(%rsp)
	movq	$-1,312(%rsp)
	leaq	272(%rsp),%rdi
	movl	$5,%esi
	callq	"std_alloc::vec::Vec::grow_amortized::<#9d744d77114e6601>"
	testb	%al,%al
	je	3f
	leaq	300(%rsp),%r14
	movq	288(%rsp),%r15
	movq	272(%rsp),%rdi
	movq	280(%rsp),%r12
	leaq	(%rdi,%r12),%rax
	addq	$5,%r12
	leaq	.Lrtp_static.3(%rip),%rcx
	movq	%rax,%rdx
	subq	%rcx,%rdx
	cmpq	$4,%rdx
	ja	4f
	movl	$1701734764,(%rax)
	movb	$32,4(%rax)
	jmp	6f
4:
	movb	$32,4(%rax)
	movl	$1701734764,(%rax)
6:
	movq	%r12,280(%rsp)
	movl	$32,296(%rsp)
	movl	$0,8(%r14)
	movq	$0,(%r14)
	movq	$-1,312(%rsp)
	pxor	%xmm0,%xmm0
	movdqa	%xmm0,32448(%rsp)
	movq	$0,32464(%rsp)
	movl	$24,%ecx
	cmpq	$100,%rbx
	jb	4f
6:
	movq	%rbx,%rax
	shrq	$2,%rax
	movabsq	$2951479051793528259,%rdx
	mulq	%rdx
	shrq	$2,%rdx
	imull	$100,%edx,%eax
	movl	%ebx,%esi
	subl	%eax,%esi
	movzbl	%sil,%eax
	imull	$205,%eax,%esi
	shrl	$11,%esi
	leal	(%rsi,%rsi),%r8d
	leal	(%r8,%r8,4),%r8d
	subb	%r8b,%al
	orb	$48,%al
	movb	%al,32447(%rsp,%rcx)
	orb	$48,%sil
	movb	%sil,32446(%rsp,%rcx)
	addq	$-2,%rcx
	cmpq	$9999,%rbx
	movq	%rdx,%rbx
	ja	6b
	jmp	6f
4:
	movq	%rbx,%rdx
6:
	cmpq	$10,%rdx
	jb	4f
	movzbl	%dl,%eax
	imull	$205,%eax,%eax
	shrl	$11,%eax
	leal	(%rax,%rax),%esi
	leal	(%rsi,%rsi,4),%esi
	subb	%sil,%dl
	orb	$48,%dl
	movb	%dl,32447(%rsp,%rcx)
	orb	$48,%al
	movb	%al,32446(%rsp,%rcx)
	addq	$-2,%rcx
	jmp	6f
4:
	orb	$48,%dl
	movb	%dl,32447(%rsp,%rcx)
	decq	%rcx
6:
	leaq	(%rsp,%rcx),%rsi
	addq	$32448,%rsi
	movb	$45,32447(%rsp,%rcx)
	movl	$24,%edx
	subq	%rcx,%rdx
	cmpq	$0,320(%rsp)
	jne	4f
	movq	%r15,%rax
	subq	%r12,%rax
	cmpq	%rax,%rdx
	ja	6f
9:
	addq	%r12,%rdi
	addq	%rdx,%r12
	callq	memcpy@PLT
	movq	%r12,280(%rsp)
	movq	%r15,288(%rsp)
10:
	movl	$32,296(%rsp)
	movl	$0,8(%r14)
	movq	$0,(%r14)
	movq	$-1,312(%rsp)
	cmpq	$0,320(%rsp)
	jne	22f
	movq	280(%rsp),%rsi
	movq	288(%rsp),%r15
	movq	%r15,%rax
	subq	%rsi,%rax
	cmpq	$28,%rax
	jbe	27f
28:
	movq	272(%rsp),%r14
	leaq	(%r14,%rsi),%rax
	addq	$29,%rsi
	leaq	.Lrtp_static.4(%rip),%rcx
	movq	%rax,%rdx
	subq	%rcx,%rdx
	cmpq	$28,%rdx
	ja	30f
	movdqa	.Lrtp_CPI0_18(%rip),%xmm0
	movdqu	%xmm0,(%rax)
	movabsq	$8245930528158411116,%rcx
	movq	%rcx,16(%rax)
	movl	$2019911712,24(%rax)
	movb	$10,28(%rax)
	movq	%r14,%rdi
	callq	"rtp_listing::printing::write_text::<#df9e9f1468b30f79>"
	testb	%al,%al
	jne	31f
32:
	testq	%r15,%r15
	je	33f
	movq	%r14,%rdi
	callq	rattle_dealloc@PLT
33:
	movb	$1,%bl
	movb	$1,%bpl
	jmp	29b
30:
	movups	.Lrtp_static.4+13(%rip),%xmm0
	movups	%xmm0,13(%rax)
	movdqu	.Lrtp_static.4(%rip),%xmm0
	movdqu	%xmm0,(%rax)
	movq	%r14,%rdi
	callq	"rtp_listing::printing::write_text::<#df9e9f1468b30f79>"
	testb	%al,%al
	je	32b
31:
	movl	%edx,%ebx
	movb	$1,%bpl
	testq	%r15,%r15
	je	29b
	movq	%r14,%rdi
	callq	rattle_dealloc@PLT
	jmp	29b
4:
	leaq	272(%rsp),%rdi
	callq	"core::fmt::formatter::Formatter::write_indented::<#5e1603e38c63b5f6>"
	testb	%al,%al
	jne	3f
	jmp	10b
2:
	movq	272(%rsp),%r15
	movq	280(%rsp),%r13
	jmp	1b
6:
	movq	%rsi,%rbx
	leaq	272(%rsp),%rdi
	movq	%rdx,%r13
	movq	%rdx,%rsi
	callq	"std_alloc::vec::Vec::grow_amortized::<#9d744d77114e6601>"
	testb	%al,%al
	je	3f
	movq	272(%rsp),%rdi
	movq	280(%rsp),%r12
	movq	288(%rsp),%r15
	movq	%rbx,%rsi
	movq	%r13,%rdx
	jmp	9b
22:
	leaq	.Lrtp_static.4(%rip),%rsi
	leaq	272(%rsp),%rdi
	movl	$29,%edx
	callq	"core::fmt::formatter::Formatter::write_indented::<#5e1603e38c63b5f6>"
	testb	%al,%al
	jne	3f
	movq	288(%rsp),%r15
	movq	272(%rsp),%r14
	movq	280(%rsp),%rsi
	movq	%r14,%rdi
	callq	"rtp_listing::printing::write_text::<#df9e9f1468b30f79>"
	testb	%al,%al
	jne	31b
	jmp	32b
27:
	leaq	272(%rsp),%rdi
	movl	$29,%esi
	callq	"std_alloc::vec::Vec::grow_amortized::<#9d744d77114e6601>"
	testb	%al,%al
	je	3f
	movq	280(%rsp),%rsi
	movq	288(%rsp),%r15
	jmp	28b
3:
	cmpq	$0,288(%rsp)
	je	1f
	movq	272(%rsp),%rdi
	callq	rattle_dealloc@PLT
1:
	movb	$1,%bpl
	movb	$2,%bl
	jmp	29b
14:
	leaq	22240(%rsp),%rdi
	leaq	272(%rsp),%rsi
	movl	$10200,%edx
	callq	memcpy@PLT
	movl	$32,%ebx
	jmp	2f
3:
	addq	$40,%rbx
	cmpq	$10232,%rbx
	je	1b
2:
	movzbl	22208(%rsp,%rbx),%edx
	testl	%edx,%edx
	je	3b
	movzbl	22216(%rsp,%rbx),%ecx
	movq	22224(%rsp,%rbx),%rdi
	movq	22240(%rsp,%rbx),%rax
	cmpl	$2,%edx
	cmpb	$15,%cl
	setne	%cl
	testq	%rax,%rax
	sete	%al
	orb	%cl,%al
	jne	3b
	callq	rattle_dealloc@PLT
	jmp	3b
	.size	"rtp_lines::main+start", .-"rtp_lines::main+start"
	.cfi_endproc
	.section	".rodata.rtp_lines::main+start","a",@progbits
	.p2align	2,0x0
7:
	.long	12b-7b
	.long	5b-7b
	.long	5b-7b
	.long	5b-7b
	.long	5b-7b
	.long	5b-7b
	.long	5b-7b
	.long	5b-7b
	.long	5b-7b
	.long	5b-7b
	.long	5b-7b
	.long	5b-7b
	.long	5b-7b
	.long	5b-7b
	.long	5b-7b
	.long	5b-7b
	.long	5b-7b
	.long	5b-7b
	.long	5b-7b
	.long	5b-7b
	.long	5b-7b
	.long	5b-7b
	.long	5b-7b
	.long	5b-7b
	.long	5b-7b
	.long	5b-7b
	.long	8b-7b
	.long	5b-7b
	.long	5b-7b
	.long	5b-7b
	.long	5b-7b
	.long	5b-7b
	.long	5b-7b
	.long	5b-7b
	.long	16b-7b
	.long	23b-7b
	.long	5b-7b
	.long	5b-7b
	.long	5b-7b
	.long	5b-7b
	.long	5b-7b
	.long	5b-7b
	.long	5b-7b
	.long	24b-7b
	.long	5b-7b
	.long	17b-7b
	.long	5b-7b
	.long	5b-7b
	.long	5b-7b
	.long	5b-7b
	.long	5b-7b
	.long	5b-7b
	.long	5b-7b
	.long	5b-7b
	.long	19b-7b
	.long	5b-7b
	.long	20b-7b
	.long	26b-7b
	.long	25b-7b
	.long	5b-7b
	.long	13b-7b
	.long	18b-7b
	.long	5b-7b
	.long	15b-7b
	.long	5b-7b
	.long	5b-7b
	.long	5b-7b
	.long	5b-7b
	.long	5b-7b
	.long	5b-7b
	.long	11b-7b
	.long	5b-7b
	.long	5b-7b
	.long	21b-7b

	.section	".text.unlikely.std_alloc::vec::Vec::grow_amortized::<#9d744d77114e6601>","ax",@progbits
	.p2align	4
	.type	"std_alloc::vec::Vec::grow_amortized::<#9d744d77114e6601>",@function
"std_alloc::vec::Vec::grow_amortized::<#9d744d77114e6601>":
	.cfi_startproc
	movq	%rsi,%rax
	movq	8(%rdi),%rsi
	addq	%rsi,%rax
	jae	1f
	xorl	%eax,%eax
	retq
1:
	pushq	%r14
	.cfi_def_cfa_offset 16
	pushq	%rbx
	.cfi_def_cfa_offset 24
	pushq	%rax
	.cfi_def_cfa_offset 32
	.cfi_offset %rbx,-24
	.cfi_offset %r14,-16
	cmpq	$9,%rax
	movl	$8,%ebx
	cmovaeq	%rax,%rbx
	movq	16(%rdi),%rcx
	movq	%rcx,%rdx
	shrq	$62,%rdx
	leaq	(%rcx,%rcx),%rax
	cmpq	%rax,%rbx
	cmovaq	%rbx,%rax
	testq	%rdx,%rdx
	cmoveq	%rax,%rbx
	testq	%rbx,%rbx
	js	1f
	testq	%rcx,%rcx
	je	2f
	movq	%rdi,%r14
	movq	(%rdi),%rdi
	movl	$1,%ecx
	movq	%rbx,%rdx
	callq	rattle_realloc@PLT
	testb	$1,%al
	je	1f
3:
	movq	%rdx,(%r14)
	movq	%rbx,16(%r14)
	movb	$1,%al
	addq	$8,%rsp
	.cfi_def_cfa_offset 24
	popq	%rbx
	.cfi_def_cfa_offset 16
	popq	%r14
	.cfi_def_cfa_offset 8
	.cfi_restore %rbx
	.cfi_restore %r14
	retq
2:
	.cfi_def_cfa_offset 32
	.cfi_offset %rbx,-24
	.cfi_offset %r14,-16
	movq	%rdi,%r14
	movl	$1,%esi
	movq	%rax,%rdi
	callq	rattle_alloc@PLT
	testb	$1,%al
	jne	3b
1:
	xorl	%eax,%eax
	addq	$8,%rsp
	.cfi_def_cfa_offset 24
	popq	%rbx
	.cfi_def_cfa_offset 16
	popq	%r14
	.cfi_def_cfa_offset 8
	.cfi_restore %rbx
	.cfi_restore %r14
	retq
	.size	"std_alloc::vec::Vec::grow_amortized::<#9d744d77114e6601>", .-"std_alloc::vec::Vec::grow_amortized::<#9d744d77114e6601>"
	.cfi_endproc

	.section	".text.std_io::io::error::last_error","ax",@progbits
	.p2align	4
	.type	"std_io::io::error::last_error",@function
"std_io::io::error::last_error":
	.cfi_startproc
	pushq	%rbx
	.cfi_def_cfa_offset 16
	.cfi_offset %rbx,-16
	movq	%rdi,%rbx
	callq	rattle_errno@PLT
	movl	%eax,%ecx
	movb	$41,%dl
	testl	%eax,%eax
	js	1f
	decl	%eax
	cmpl	$121,%eax
	ja	1f
	leaq	2f(%rip),%rsi
	movslq	(%rsi,%rax,4),%rax
	addq	%rsi,%rax
	jmpq	*%rax
3:
	movb	$1,%dl
	jmp	1f
4:
	movb	$36,%dl
	jmp	1f
5:
	movb	$4,%dl
	jmp	1f
6:
	movb	$7,%dl
	jmp	1f
7:
	movb	$26,%dl
	jmp	1f
8:
	movb	$39,%dl
	jmp	1f
9:
	movb	$9,%dl
	jmp	1f
10:
	movb	$8,%dl
	jmp	1f
11:
	movb	$30,%dl
	jmp	1f
12:
	movb	$25,%dl
	jmp	1f
13:
	movb	$32,%dl
	jmp	1f
14:
	movb	$33,%dl
	jmp	1f
15:
	movb	$22,%dl
	jmp	1f
16:
	movb	$31,%dl
	jmp	1f
17:
	movb	$29,%dl
	jmp	1f
18:
	movb	$18,%dl
	jmp	1f
19:
	movb	$10,%dl
	jmp	1f
20:
	movb	$28,%dl
	jmp	1f
21:
	movb	$14,%dl
	jmp	1f
22:
	movb	$12,%dl
	jmp	1f
23:
	movb	$5,%dl
	jmp	1f
24:
	movb	$3,%dl
	jmp	1f
25:
	xorl	%edx,%edx
	jmp	1f
26:
	movb	$13,%dl
	jmp	1f
27:
	movb	$38,%dl
	jmp	1f
28:
	movb	$11,%dl
	jmp	1f
29:
	movb	$35,%dl
	jmp	1f
30:
	movb	$34,%dl
	jmp	1f
31:
	movb	$20,%dl
	jmp	1f
32:
	movb	$15,%dl
	jmp	1f
33:
	movb	$19,%dl
	jmp	1f
34:
	movb	$16,%dl
	jmp	1f
35:
	movb	$6,%dl
	jmp	1f
36:
	movb	$27,%dl
	jmp	1f
37:
	movb	$24,%dl
	jmp	1f
38:
	movb	$2,%dl
	jmp	1f
39:
	movb	$17,%dl
1:
	movb	$0,(%rbx)
	movb	%dl,1(%rbx)
	movw	$0,2(%rbx)
	movl	%ecx,4(%rbx)
	xorps	%xmm0,%xmm0
	movups	%xmm0,8(%rbx)
	movups	%xmm0,24(%rbx)
	movups	%xmm0,40(%rbx)
	movups	%xmm0,56(%rbx)
	movups	%xmm0,72(%rbx)
	popq	%rbx
	.cfi_def_cfa_offset 8
	retq
	.size	"std_io::io::error::last_error", .-"std_io::io::error::last_error"
	.cfi_endproc
	.section	".rodata.std_io::io::error::last_error","a",@progbits
	.p2align	2,0x0
2:
	.long	3b-2b
	.long	25b-2b
	.long	1b-2b
	.long	29b-2b
	.long	1b-2b
	.long	1b-2b
	.long	30b-2b
	.long	1b-2b
	.long	1b-2b
	.long	1b-2b
	.long	26b-2b
	.long	27b-2b
	.long	3b-2b
	.long	1b-2b
	.long	1b-2b
	.long	20b-2b
	.long	22b-2b
	.long	16b-2b
	.long	1b-2b
	.long	21b-2b
	.long	32b-2b
	.long	31b-2b
	.long	1b-2b
	.long	1b-2b
	.long	1b-2b
	.long	17b-2b
	.long	36b-2b
	.long	37b-2b
	.long	12b-2b
	.long	39b-2b
	.long	13b-2b
	.long	28b-2b
	.long	1b-2b
	.long	1b-2b
	.long	11b-2b
	.long	14b-2b
	.long	1b-2b
	.long	4b-2b
	.long	34b-2b
	.long	18b-2b
	.long	1b-2b
	.long	1b-2b
	.long	1b-2b
	.long	1b-2b
	.long	1b-2b
	.long	1b-2b
	.long	1b-2b
	.long	1b-2b
	.long	1b-2b
	.long	1b-2b
	.long	1b-2b
	.long	1b-2b
	.long	1b-2b
	.long	1b-2b
	.long	1b-2b
	.long	1b-2b
	.long	1b-2b
	.long	1b-2b
	.long	1b-2b
	.long	1b-2b
	.long	1b-2b
	.long	1b-2b
	.long	1b-2b
	.long	1b-2b
	.long	1b-2b
	.long	1b-2b
	.long	1b-2b
	.long	1b-2b
	.long	1b-2b
	.long	1b-2b
	.long	1b-2b
	.long	1b-2b
	.long	1b-2b
	.long	1b-2b
	.long	1b-2b
	.long	1b-2b
	.long	1b-2b
	.long	1b-2b
	.long	1b-2b
	.long	1b-2b
	.long	1b-2b
	.long	1b-2b
	.long	1b-2b
	.long	1b-2b
	.long	1b-2b
	.long	1b-2b
	.long	1b-2b
	.long	1b-2b
	.long	1b-2b
	.long	1b-2b
	.long	1b-2b
	.long	1b-2b
	.long	1b-2b
	.long	1b-2b
	.long	4b-2b
	.long	1b-2b
	.long	1b-2b
	.long	10b-2b
	.long	9b-2b
	.long	19b-2b
	.long	23b-2b
	.long	1b-2b
	.long	35b-2b
	.long	24b-2b
	.long	1b-2b
	.long	1b-2b
	.long	6b-2b
	.long	1b-2b
	.long	1b-2b
	.long	15b-2b
	.long	38b-2b
	.long	1b-2b
	.long	5b-2b
	.long	1b-2b
	.long	8b-2b
	.long	33b-2b
	.long	1b-2b
	.long	1b-2b
	.long	1b-2b
	.long	1b-2b
	.long	1b-2b
	.long	7b-2b

	.section	".text.core::str::utf8::from_utf8","ax",@progbits
	.p2align	4
	.type	"core::str::utf8::from_utf8",@function
"core::str::utf8::from_utf8":
	.cfi_startproc
	pushq	%r15
	.cfi_def_cfa_offset 16
	pushq	%r14
	.cfi_def_cfa_offset 24
	pushq	%r13
	.cfi_def_cfa_offset 32
	pushq	%r12
	.cfi_def_cfa_offset 40
	pushq	%rbx
	.cfi_def_cfa_offset 48
	subq	$16,%rsp
	.cfi_def_cfa_offset 64
	.cfi_offset %rbx,-48
	.cfi_offset %r12,-40
	.cfi_offset %r13,-32
	.cfi_offset %r14,-24
	.cfi_offset %r15,-16
	movq	%rdx,%r15
	movq	%rsi,%r14
	movq	%rdi,%rbx
	testq	%rdx,%rdx
	je	1f
	movabsq	$-9187201950435737472,%r12
	leaq	-8(%r15),%r13
	xorl	%ecx,%ecx
	jmp	2f
3:
	movl	$1,%edi
4:
	addq	%rcx,%rdi
5:
	movq	%rdi,%rcx
	cmpq	%r15,%rdi
	jae	1f
2:
	movzbl	(%r14,%rcx),%esi
	testb	%sil,%sil
	sets	%dl
	movq	%r15,%rax
	subq	%rcx,%rax
	cmpq	$2,%rax
	setb	%dil
	orb	%dl,%dil
	jne	2f
	cmpb	$0,1(%r14,%rcx)
	js	3b
	movq	%r14,(%rsp)
	movq	%r15,8(%rsp)
	cmpq	$7,%rax
	ja	3f
	cmpb	$0,(%r14,%rcx)
	js	6f
	leaq	1(%rcx),%rdi
	cmpq	%r15,%rdi
	je	1f
	cmpb	$0,(%r14,%rdi)
	js	5b
	leaq	2(%rcx),%rdi
	cmpq	%r15,%rdi
	je	1f
	cmpb	$0,(%r14,%rdi)
	js	5b
	leaq	3(%rcx),%rdi
	cmpq	%r15,%rdi
	je	1f
	cmpb	$0,(%r14,%rdi)
	js	5b
	leaq	4(%rcx),%rdi
	cmpq	%r15,%rdi
	je	1f
	cmpb	$0,(%r14,%rdi)
	js	5b
	leaq	5(%rcx),%rdi
	cmpq	%r15,%rdi
	je	1f
	cmpb	$0,(%r14,%rdi)
	js	5b
	addq	$6,%rcx
	cmpq	%r15,%rcx
	je	1f
	cmpb	$0,(%r14,%rcx)
	movq	%rcx,%rdi
	js	5b
	jmp	1f
	.p2align	4
2:
	movl	$1,%edi
	testb	%sil,%sil
	jns	4b
	movl	$257,%edx
	cmpb	$-62,%sil
	jb	2f
	cmpb	$-33,%sil
	ja	7f
	cmpq	$2,%rax
	jb	8f
	movzbl	1(%r14,%rcx),%r8d
	movl	$2,%edi
	cmpb	$-65,%r8b
	jle	4b
	jmp	9f
3:
	movq	(%r14,%rcx),%rax
	andq	%r12,%rax
	je	3f
	rep		bsfq	%rax,%rax
	shrl	$3,%eax
	addq	%rcx,%rax
	addq	$8,%rcx
	movq	%rax,%rdi
	cmpq	%rcx,%rax
	jb	5b
	movq	%r15,%rcx
	subq	%rax,%rcx
	cmpq	$32,%rcx
	jae	10f
	jmp	11f
7:
	cmpb	$-17,%sil
	ja	7f
	cmpq	$3,%rax
	jb	12f
	movzbl	1(%r14,%rcx),%r8d
	cmpb	$-65,%r8b
	jg	9f
	cmpb	$-65,2(%r14,%rcx)
	jg	9f
	movzbl	%r8b,%edi
	movl	%esi,%r9d
	shll	$6,%r9d
	addl	%edi,%r9d
	addl	$-14464,%r9d
	cmpl	$32,%r9d
	jb	9f
	xorl	%r8d,%r8d
	cmpl	$896,%r9d
	setae	%r10b
	movl	$3,%edi
	cmpl	$864,%r9d
	jb	4b
	movb	%r10b,%r8b
	leaq	(%r8,%r8,2),%rdi
	testq	%rdi,%rdi
	jne	4b
	jmp	13f
6:
	movq	%rcx,%rdi
	jmp	5b
3:
	addq	$8,%rcx
	movq	%rcx,%rax
	movq	%r15,%rcx
	subq	%rax,%rcx
	cmpq	$32,%rcx
	jb	11f
	.p2align	4
10:
	movdqu	(%r14,%rax),%xmm0
	movdqu	16(%r14,%rax),%xmm1
	por	%xmm0,%xmm1
	pshufd	$238,%xmm1,%xmm0
	por	%xmm1,%xmm0
	movq	%xmm0,%rcx
	testq	%r12,%rcx
	jne	11f
	addq	$32,%rax
	movq	%rsp,%rdi
	movq	%rax,%rsi
	movq	%r15,%rdx
	callq	"core::slice::words::skip_far::<#52f9edcae2f82f51>"
	movq	%r15,%rcx
	subq	%rax,%rcx
	cmpq	$31,%rcx
	ja	10b
11:
	movq	%r15,%rcx
	subq	%rax,%rcx
	jmp	3f
	.p2align	4
6:
	rep		bsfq	%rdx,%rdi
	shrl	$3,%edi
	addq	%rax,%rdi
	addq	$8,%rax
	addq	$-8,%rcx
	cmpq	%rax,%rdi
	jb	5b
3:
	cmpq	$9,%rcx
	jb	10f
	movq	(%r14,%rax),%rdx
	andq	%r12,%rdx
	jne	6b
	leaq	8(%rax),%rdi
	addq	$8,%rax
	addq	$-8,%rcx
	cmpq	%rax,%rdi
	jae	3b
	jmp	5b
10:
	movq	(%r14,%r13),%rax
	andq	%r12,%rax
	je	1f
	rep		bsfq	%rax,%rdi
	shrl	$3,%edi
	addq	%r13,%rdi
	jmp	5b
7:
	cmpq	$4,%rax
	jb	13f
	movzbl	1(%r14,%rcx),%edi
	cmpb	$-65,%dil
	jg	13f
	cmpb	$-65,2(%r14,%rcx)
	jg	13f
	cmpb	$-65,3(%r14,%rcx)
	jg	13f
	movl	%esi,%r8d
	shll	$6,%r8d
	leal	(%r8,%rdi),%r9d
	addl	$-15488,%r9d
	xorl	%edi,%edi
	cmpl	$272,%r9d
	setb	%r8b
	cmpl	$16,%r9d
	jb	13f
	movb	%r8b,%dil
	shll	$2,%edi
	testq	%rdi,%rdi
	jne	4b
13:
	cmpb	$-12,%sil
	ja	2f
12:
	cmpq	$2,%rax
	jb	8f
	movzbl	1(%r14,%rcx),%r8d
9:
	cmpl	$240,%esi
	sete	%dil
	shlb	$4,%dil
	orb	$-128,%dil
	cmpl	$224,%esi
	movzbl	%dil,%edi
	movl	$160,%r9d
	cmovnel	%edi,%r9d
	cmpl	$244,%esi
	movl	$143,%edi
	movl	$191,%r10d
	cmovel	%edi,%r10d
	cmpl	$237,%esi
	movl	$159,%esi
	cmovnel	%r10d,%esi
	cmpb	%r8b,%r9b
	ja	2f
	cmpb	%sil,%r8b
	ja	2f
	cmpq	$2,%rax
	jne	3f
8:
	xorl	%edx,%edx
2:
	movq	$1,(%rbx)
	movq	%rcx,8(%rbx)
	movq	%rdx,16(%rbx)
	jmp	4f
1:
	movq	$0,(%rbx)
	movq	%r14,8(%rbx)
	movq	%r15,16(%rbx)
4:
	addq	$16,%rsp
	.cfi_def_cfa_offset 48
	popq	%rbx
	.cfi_def_cfa_offset 40
	popq	%r12
	.cfi_def_cfa_offset 32
	popq	%r13
	.cfi_def_cfa_offset 24
	popq	%r14
	.cfi_def_cfa_offset 16
	popq	%r15
	.cfi_def_cfa_offset 8
	retq
3:
	.cfi_def_cfa_offset 64
	movl	$513,%edx
	cmpb	$-65,2(%r14,%rcx)
	jg	2b
	xorl	%esi,%esi
	cmpq	$4,%rax
	movl	$769,%edx
	cmovbq	%rsi,%rdx
	jmp	2b
	.size	"core::str::utf8::from_utf8", .-"core::str::utf8::from_utf8"
	.cfi_endproc

	.section	.rodata.cst16,"aM",@progbits,16
	.p2align	4,0x0
.Lrtp_CPI4_0:
	.zero	16,128
	.section	".text.core::slice::words::skip_far::<#52f9edcae2f82f51>","ax",@progbits
	.p2align	4
	.type	"core::slice::words::skip_far::<#52f9edcae2f82f51>",@function
"core::slice::words::skip_far::<#52f9edcae2f82f51>":
	.cfi_startproc
	movq	%rsi,%rax
	subq	%rsi,%rdx
	cmpq	$64,%rdx
	jb	1f
	movq	(%rdi),%rcx
	.p2align	4
2:
	movdqu	(%rcx,%rax),%xmm0
	movdqu	16(%rcx,%rax),%xmm1
	movdqu	32(%rcx,%rax),%xmm2
	por	%xmm0,%xmm2
	movdqu	48(%rcx,%rax),%xmm0
	por	%xmm1,%xmm0
	por	%xmm2,%xmm0
	ptest	.Lrtp_CPI4_0(%rip),%xmm0
	jne	1f
	addq	$64,%rax
	addq	$-64,%rdx
	cmpq	$63,%rdx
	ja	2b
1:
	retq
	.size	"core::slice::words::skip_far::<#52f9edcae2f82f51>", .-"core::slice::words::skip_far::<#52f9edcae2f82f51>"
	.cfi_endproc

	.section	".text.rtp_ext::map::ExtensionMap::set","ax",@progbits
	.p2align	4
	.type	"rtp_ext::map::ExtensionMap::set",@function
"rtp_ext::map::ExtensionMap::set":
	.cfi_startproc
	movzbl	(%rdx),%r8d
	movq	8(%rdx),%rax
	testb	%sil,%sil
	je	1f
	pushq	%rbp
	.cfi_def_cfa_offset 16
	pushq	%r14
	.cfi_def_cfa_offset 24
	pushq	%rbx
	.cfi_def_cfa_offset 32
	.cfi_offset %rbx,-32
	.cfi_offset %r14,-24
	.cfi_offset %rbp,-16
	movups	16(%rdx),%xmm0
	xorl	%r9d,%r9d
	xorl	%ecx,%ecx
	cmpq	$15,%r8
	setne	%cl
	movl	%r8d,%r10d
	movzbl	%sil,%ebx
	movzbl	10202(%rdi,%rbx,2),%edx
	movzbl	10203(%rdi,%rbx,2),%r11d
	setne	10202(%rdi,%rbx,2)
	cmovel	%r9d,%r10d
	movb	%r10b,10203(%rdi,%rbx,2)
	xorl	%r9d,%r9d
	cmpb	$14,%r10b
	sete	%r9b
	addw	10972(%rdi),%r9w
	movl	%edx,%r10d
	xorb	$1,%r10b
	xorb	$14,%r11b
	xorl	%ebp,%ebp
	orb	%r10b,%r11b
	sete	%bpl
	subl	%ebp,%r9d
	movw	%r9w,10972(%rdi)
	movl	%edx,%r9d
	andl	$1,%r9d
	movl	%ecx,%r10d
	subl	%r9d,%r10d
	addw	%r10w,10970(%rdi)
	andb	$1,%dl
	cmpb	%dl,%cl
	je	2f
	movl	%esi,%ecx
	cmpb	$15,%r8b
	jne	3f
	movzbl	10714(%rdi,%rbx),%ecx
3:
	movq	%rbx,%r9
	movq	%rbx,%rdx
	.p2align	4
3:
	subq	$1,%rdx
	jb	2f
	movb	%cl,10713(%rdi,%r9)
	cmpb	$1,10202(%rdi,%rdx,2)
	movq	%rdx,%r9
	jne	3b
2:
	leaq	(%rbx,%rbx,4),%r11
	movzbl	-40(%rdi,%r11,8),%r10d
	movzbl	-32(%rdi,%r11,8),%r9d
	movq	-24(%rdi,%r11,8),%rcx
	movq	-8(%rdi,%r11,8),%rdx
	movq	$1,-40(%rdi,%r11,8)
	movq	%r8,-32(%rdi,%r11,8)
	movq	%rax,-24(%rdi,%r11,8)
	movups	%xmm0,-16(%rdi,%r11,8)
	testl	%r10d,%r10d
	je	2f
	cmpl	$2,%r10d
	cmpb	$15,%r9b
	setne	%al
	testq	%rdx,%rdx
	sete	%dl
	orb	%al,%dl
	jne	2f
	movq	%rdi,%r14
	movq	%rcx,%rdi
	movl	%esi,%ebp
	callq	rattle_dealloc@PLT
	movl	%ebp,%esi
	movq	%r14,%rdi
2:
	movzbl	10200(%rdi),%eax
	cmpb	%al,%sil
	cmovbel	%eax,%ebx
	movb	%bl,10200(%rdi)
	popq	%rbx
	.cfi_def_cfa_offset 24
	popq	%r14
	.cfi_def_cfa_offset 16
	popq	%rbp
	.cfi_def_cfa_offset 8
	.cfi_restore %rbx
	.cfi_restore %r14
	.cfi_restore %rbp
	retq
1:
	cmpl	$15,%r8d
	jne	1f
	cmpq	$0,24(%rdx)
	je	1f
	movq	%rax,%rdi
	jmp	rattle_dealloc@PLT
1:
	retq
	.size	"rtp_ext::map::ExtensionMap::set", .-"rtp_ext::map::ExtensionMap::set"
	.cfi_endproc

	.section	.rodata.cst16,"aM",@progbits,16
	.p2align	4,0x0
.Lrtp_CPI6_0:
	.zero	16,10
.Lrtp_CPI6_1:
	.zero	16,15
.Lrtp_CPI6_2:
	.zero	16,1
.Lrtp_CPI6_3:
	.short	3855
	.short	3855
	.short	3855
	.short	3855
	.zero	2
	.zero	2
	.zero	2
	.zero	2
.Lrtp_CPI6_4:
	.short	257
	.short	257
	.short	257
	.short	257
	.zero	2
	.zero	2
	.zero	2
	.zero	2
.Lrtp_CPI6_5:
	.short	9
	.short	9
	.short	9
	.short	9
	.zero	2
	.zero	2
	.zero	2
	.zero	2
.Lrtp_CPI6_6:
	.short	4097
	.short	4097
	.short	4097
	.short	4097
	.zero	2
	.zero	2
	.zero	2
	.zero	2
.Lrtp_CPI6_7:
	.zero	16,32
	.section	".text.rtp_listing::printing::print_all::<#df9e9f1468b30f79>","ax",@progbits
	.p2align	4
	.type	"rtp_listing::printing::print_all::<#df9e9f1468b30f79>",@function
"rtp_listing::printing::print_all::<#df9e9f1468b30f79>":
	.cfi_startproc
	pushq	%rbp
	.cfi_def_cfa_offset 16
	pushq	%r15
	.cfi_def_cfa_offset 24
	pushq	%r14
	.cfi_def_cfa_offset 32
	pushq	%r13
	.cfi_def_cfa_offset 40
	pushq	%r12
	.cfi_def_cfa_offset 48
	pushq	%rbx
	.cfi_def_cfa_offset 56
	subq	$696,%rsp
	.cfi_def_cfa_offset 752
	.cfi_offset %rbx,-56
	.cfi_offset %r12,-48
	.cfi_offset %r13,-40
	.cfi_offset %r14,-32
	.cfi_offset %r15,-24
	.cfi_offset %rbp,-16
	movq	%rdi,%rbx
	pxor	%xmm0,%xmm0
	movdqa	%xmm0,640(%rsp)
	movq	$0,656(%rsp)
	movq	$0,136(%rsp)
	leaq	32(%rsp),%rax
	movq	%rax,144(%rsp)
	movdqu	%xmm0,152(%rsp)
	movdqu	%xmm0,168(%rsp)
	movdqu	%xmm0,184(%rsp)
	movq	%rax,200(%rsp)
	movdqu	%xmm0,208(%rsp)
	movdqu	%xmm0,224(%rsp)
	movq	%rax,56(%rsp)
	movdqu	%xmm0,64(%rsp)
	movw	$2,328(%rsp)
	movb	$1,330(%rsp)
	movq	$0,331(%rsp)
	movq	$0,337(%rsp)
	movb	$1,345(%rsp)
	leaq	346(%rsp),%rdi
	movl	$286,%edx
	xorl	%esi,%esi
	callq	memset@PLT
	movq	$16,632(%rsp)
	movl	$16384,%edi
	movl	$1,%esi
	callq	rattle_alloc@PLT
	testb	$1,%al
	je	1f
	movq	%rdx,%r15
	movq	$0,280(%rsp)
	movl	$16384,%edx
	movq	%r15,%rdi
	xorl	%esi,%esi
	callq	memset@PLT
	movq	10984(%rbx),%rbp
	testq	%rbp,%rbp
	je	2f
	movq	%rbx,320(%rsp)
	movq	10976(%rbx),%r12
	xorl	%esi,%esi
	xorl	%r13d,%r13d
	movq	%r15,48(%rsp)
	jmp	3f
	.p2align	4
4:
	xorl	%esi,%esi
5:
	testq	%rbp,%rbp
	je	6f
3:
	movq	%rsi,8(%rsp)
	xorl	%ecx,%ecx
	.p2align	4
3:
	movq	%rcx,%rax
	addq	$32,%rcx
	cmpq	%rbp,%rcx
	ja	7f
	movdqu	(%r12,%rax),%xmm0
	movdqu	16(%r12,%rax),%xmm1
	movdqa	.Lrtp_CPI6_0(%rip),%xmm2
	pcmpeqb	%xmm2,%xmm0
	pmovmskb	%xmm0,%esi
	pcmpeqb	%xmm2,%xmm1
	pmovmskb	%xmm1,%edx
	shll	$16,%edx
	orl	%esi,%edx
	je	3b
	rep		bsfl	%edx,%ecx
3:
	movq	%rbp,%rdx
	subq	%rcx,%rdx
	cmpq	%rax,%rdx
	jne	8f
	leaq	.Lrtp_static.5(%rip),%rax
	movq	%rax,24(%rsp)
	jmp	9f
	.p2align	4
7:
	leaq	.Lrtp_static.5(%rip),%rcx
	movq	%rcx,24(%rsp)
	cmpq	%rax,%rbp
	je	9f
	leaq	(%r12,%rax),%rdx
	movq	%rax,%rsi
	subq	%rbp,%rsi
	xorl	%ecx,%ecx
	.p2align	4
7:
	cmpb	$10,(%rdx,%rcx)
	je	3b
	incq	%rcx
	movq	%rsi,%rdi
	addq	%rcx,%rdi
	jne	7b
	.p2align	4
9:
	movq	%rbp,%r14
	xorl	%ebp,%ebp
	jmp	3f
	.p2align	4
8:
	movq	%rcx,%r14
	addq	%rax,%r14
	je	7f
	leaq	(%rcx,%rax),%rsi
	cmpb	$13,-1(%r12,%rsi)
	jne	7f
	leaq	(%rcx,%rax),%r14
	decq	%r14
7:
	addq	%r12,%rcx
	addq	%rax,%rcx
	incq	%rcx
	movq	%rcx,24(%rsp)
	notq	%rax
	addq	%rdx,%rax
	movq	%rax,%rbp
3:
	movq	%r14,%rbx
	shrq	%rbx
	movq	64(%rsp),%rdi
	cmpq	$161,%r14
	movq	%r13,80(%rsp)
	movq	%rbp,16(%rsp)
	ja	3f
	movq	%rbx,%rdx
	subq	%rdi,%rdx
	jbe	7f
	movq	72(%rsp),%r13
	movq	%r13,%rax
	subq	%rdi,%rax
	cmpq	%rax,%rdx
	ja	8f
	leaq	(%rdi,%rdx),%r15
	movq	56(%rsp),%rbp
	cmpq	%r15,%rdi
	jae	9f
10:
	addq	%rbp,%rdi
	xorl	%esi,%esi
	callq	memset@PLT
9:
	movq	%r15,64(%rsp)
	movq	%r13,72(%rsp)
	movq	48(%rsp),%r15
	cmpq	$8,%r14
	jae	11f
	jmp	12f
	.p2align	4
3:
	cmpq	$80,%rdi
	jae	3f
	movl	$80,%edx
	subq	%rdi,%rdx
	movq	72(%rsp),%r13
	movq	%r13,%rax
	subq	%rdi,%rax
	cmpq	%rax,%rdx
	ja	13f
	leaq	(%rdi,%rdx),%r14
	movq	56(%rsp),%rbp
	cmpq	%r14,%rdi
	jae	14f
15:
	addq	%rbp,%rdi
	xorl	%esi,%esi
	callq	memset@PLT
14:
	movq	%r14,64(%rsp)
	movq	%r13,72(%rsp)
	movq	48(%rsp),%r15
	jmp	16f
	.p2align	4
7:
	testq	%rbx,%rbx
	je	7f
	movq	56(%rsp),%rbp
	cmpq	$8,%r14
	jb	12f
11:
	movl	%r14d,%eax
	andl	$254,%eax
	addq	%r12,%rax
	cmpq	%rax,%rbp
	jae	11f
	leaq	(%rbx,%rbp),%rax
	cmpq	%rax,%r12
	jae	11f
12:
	xorl	%eax,%eax
	jmp	12f
	.p2align	4
3:
	movq	56(%rsp),%rbp
	movq	%rdi,%r14
16:
	leaq	80(%rbp),%rax
	leaq	160(%r12),%rdi
	cmpq	%rdi,%rbp
	setb	%cl
	cmpq	%rax,%r12
	setb	%al
	testb	%al,%cl
	je	3f
	xorl	%eax,%eax
	.p2align	4
16:
	movzwl	(%r12,%rax,2),%ecx
	movl	%ecx,%edx
	andl	$3855,%edx
	shrl	$6,%ecx
	andl	$257,%ecx
	leal	(%rcx,%rcx,8),%ecx
	addl	%edx,%ecx
	movl	%ecx,%edx
	shll	$12,%edx
	addl	%ecx,%edx
	movb	%dh,(%rbp,%rax)
	incq	%rax
	cmpq	$80,%rax
	jne	16b
	jmp	16f
	.p2align	4
3:
	xorl	%eax,%eax
	.p2align	4
3:
	movdqu	(%r12,%rax,2),%xmm0
	movdqu	16(%r12,%rax,2),%xmm1
	movdqa	.Lrtp_CPI6_1(%rip),%xmm2
	movdqa	%xmm0,%xmm3
	pand	%xmm2,%xmm3
	pand	%xmm1,%xmm2
	psrlw	$6,%xmm0
	psrlw	$6,%xmm1
	movdqa	.Lrtp_CPI6_2(%rip),%xmm4
	pand	%xmm4,%xmm1
	pand	%xmm4,%xmm0
	movdqa	%xmm0,%xmm4
	psllw	$3,%xmm4
	por	%xmm0,%xmm4
	paddw	%xmm3,%xmm4
	movdqa	%xmm1,%xmm0
	psllw	$3,%xmm0
	por	%xmm1,%xmm0
	paddw	%xmm2,%xmm0
	movdqa	%xmm4,%xmm1
	psllw	$12,%xmm1
	paddw	%xmm4,%xmm1
	movdqa	%xmm0,%xmm2
	psllw	$12,%xmm2
	paddw	%xmm0,%xmm2
	psrlw	$8,%xmm2
	psrlw	$8,%xmm1
	packuswb	%xmm2,%xmm1
	movdqu	%xmm1,(%rbp,%rax)
	addq	$16,%rax
	cmpq	$80,%rax
	jne	3b
16:
	movzbl	(%rbp),%r13d
	movl	%r13d,%eax
	shll	$2,%r13d
	andl	$60,%r13d
	testb	$16,%al
	jne	3f
	addq	$12,%r13
	cmpq	%r13,%rbx
	cmovbq	%rbx,%r13
	cmpq	$81,%r13
	jae	16f
	.p2align	4
17:
	movq	8(%rsp),%rbx
	cmpq	$12,%r13
	jb	18f
	jmp	19f
	.p2align	4
3:
	movzwl	14(%rbp,%r13),%eax
	rolw	$8,%ax
	movzwl	%ax,%eax
	leaq	16(%r13,%rax,4),%r13
	cmpq	%r13,%rbx
	cmovbq	%rbx,%r13
	cmpq	$81,%r13
	jb	17b
16:
	movq	%r13,%rdx
	subq	%r14,%rdx
	jbe	3f
	movq	72(%rsp),%rbx
	movq	%rbx,%rax
	subq	%r14,%rax
	cmpq	%rax,%rdx
	ja	16f
	leaq	(%r14,%rdx),%r15
	cmpq	%r15,%r14
	jae	17f
20:
	addq	%rbp,%r14
	movq	%r14,%rdi
	xorl	%esi,%esi
	callq	memset@PLT
	leaq	160(%r12),%rdi
17:
	movq	%rbp,56(%rsp)
	movq	%r15,64(%rsp)
	movq	%rbx,72(%rsp)
	movq	48(%rsp),%r15
3:
	movq	8(%rsp),%rbx
	leaq	-80(%r13),%rax
	movl	$80,%edx
	cmpq	$4,%rax
	jb	3f
	leaq	80(%rbp),%rcx
	leaq	(%r12,%r13,2),%rsi
	cmpq	%rsi,%rcx
	jae	21f
	movq	%rbp,%rcx
	addq	%r13,%rcx
	cmpq	%rcx,%rdi
	jb	3f
21:
	cmpq	$16,%rax
	jae	21f
	xorl	%ecx,%ecx
	jmp	22f
11:
	cmpq	$32,%r14
	jae	11f
	xorl	%eax,%eax
	jmp	23f
7:
	xorl	%esi,%esi
	xorl	%r10d,%r10d
	xorl	%r11d,%r11d
7:
	movq	8(%rsp),%rbx
	jmp	24f
11:
	movl	%ebx,%eax
	andl	$112,%eax
	xorl	%ecx,%ecx
	.p2align	4
11:
	movdqu	(%r12,%rcx,2),%xmm0
	movdqu	16(%r12,%rcx,2),%xmm1
	movdqa	.Lrtp_CPI6_1(%rip),%xmm2
	movdqa	%xmm0,%xmm3
	pand	%xmm2,%xmm3
	pand	%xmm1,%xmm2
	psrlw	$6,%xmm0
	psrlw	$6,%xmm1
	movdqa	.Lrtp_CPI6_2(%rip),%xmm4
	pand	%xmm4,%xmm1
	pand	%xmm4,%xmm0
	movdqa	%xmm0,%xmm4
	psllw	$3,%xmm4
	por	%xmm0,%xmm4
	paddw	%xmm3,%xmm4
	movdqa	%xmm1,%xmm0
	psllw	$3,%xmm0
	por	%xmm1,%xmm0
	paddw	%xmm2,%xmm0
	movdqa	%xmm4,%xmm1
	psllw	$12,%xmm1
	paddw	%xmm4,%xmm1
	movdqa	%xmm0,%xmm2
	psllw	$12,%xmm2
	paddw	%xmm0,%xmm2
	psrlw	$8,%xmm2
	psrlw	$8,%xmm1
	packuswb	%xmm2,%xmm1
	movdqu	%xmm1,(%rbp,%rcx)
	addq	$16,%rcx
	cmpq	%rcx,%rax
	jne	11b
	cmpq	%rax,%rbx
	je	11f
	testb	$24,%r14b
	je	12f
23:
	movq	%rax,%rcx
	movl	%ebx,%eax
	andl	$124,%eax
	.p2align	4
23:
	movq	(%r12,%rcx,2),%xmm0
	movdqa	.Lrtp_CPI6_3(%rip),%xmm1
	pand	%xmm0,%xmm1
	psrlw	$6,%xmm0
	pand	.Lrtp_CPI6_4(%rip),%xmm0
	pmullw	.Lrtp_CPI6_5(%rip),%xmm0
	paddw	%xmm1,%xmm0
	pmullw	.Lrtp_CPI6_6(%rip),%xmm0
	psrlw	$8,%xmm0
	packuswb	%xmm0,%xmm0
	movd	%xmm0,(%rbp,%rcx)
	addq	$4,%rcx
	cmpq	%rcx,%rax
	jne	23b
	jmp	23f
21:
	movq	%rax,%rcx
	andq	$-16,%rcx
	xorl	%edx,%edx
	.p2align	4
21:
	movdqu	160(%r12,%rdx,2),%xmm0
	movdqu	176(%r12,%rdx,2),%xmm1
	movdqa	.Lrtp_CPI6_1(%rip),%xmm2
	movdqa	%xmm0,%xmm3
	pand	%xmm2,%xmm3
	pand	%xmm1,%xmm2
	psrlw	$6,%xmm0
	psrlw	$6,%xmm1
	movdqa	.Lrtp_CPI6_2(%rip),%xmm4
	pand	%xmm4,%xmm1
	pand	%xmm4,%xmm0
	movdqa	%xmm0,%xmm4
	psllw	$3,%xmm4
	por	%xmm0,%xmm4
	paddw	%xmm3,%xmm4
	movdqa	%xmm1,%xmm0
	psllw	$3,%xmm0
	por	%xmm1,%xmm0
	paddw	%xmm2,%xmm0
	movdqa	%xmm4,%xmm1
	psllw	$12,%xmm1
	paddw	%xmm4,%xmm1
	movdqa	%xmm0,%xmm2
	psllw	$12,%xmm2
	paddw	%xmm0,%xmm2
	psrlw	$8,%xmm2
	psrlw	$8,%xmm1
	packuswb	%xmm2,%xmm1
	movdqu	%xmm1,80(%rbp,%rdx)
	addq	$16,%rdx
	cmpq	%rdx,%rcx
	jne	21b
	cmpq	%rcx,%rax
	je	21f
	testb	$12,%r13b
	je	25f
22:
	movq	%rax,%rsi
	andq	$-4,%rsi
	leaq	80(%rsi),%rdx
	.p2align	4
22:
	movq	160(%r12,%rcx,2),%xmm0
	movdqa	.Lrtp_CPI6_3(%rip),%xmm1
	pand	%xmm0,%xmm1
	psrlw	$6,%xmm0
	pand	.Lrtp_CPI6_4(%rip),%xmm0
	pmullw	.Lrtp_CPI6_5(%rip),%xmm0
	paddw	%xmm1,%xmm0
	pmullw	.Lrtp_CPI6_6(%rip),%xmm0
	psrlw	$8,%xmm0
	packuswb	%xmm0,%xmm0
	movd	%xmm0,80(%rbp,%rcx)
	addq	$4,%rcx
	cmpq	%rcx,%rsi
	jne	22b
	cmpq	%rsi,%rax
	je	21f
	.p2align	4
3:
	movzwl	(%r12,%rdx,2),%eax
	movl	%eax,%ecx
	andl	$3855,%ecx
	shrl	$6,%eax
	andl	$257,%eax
	leal	(%rax,%rax,8),%eax
	addl	%ecx,%eax
	movl	%eax,%ecx
	shll	$12,%ecx
	addl	%eax,%ecx
	movb	%ch,(%rbp,%rdx)
	incq	%rdx
	cmpq	%rdx,%r13
	jne	3b
21:
	movq	56(%rsp),%rbp
	movzbl	(%rbp),%esi
	cmpb	$-65,%sil
	jg	18f
	jmp	21f
8:
	leaq	56(%rsp),%rdi
	movq	%rdx,%r15
	movq	%rdx,%rsi
	callq	"std_alloc::vec::Vec::grow_amortized::<#9d744d77114e6601>"
	testb	%al,%al
	je	8f
	movq	64(%rsp),%rdi
	movq	72(%rsp),%r13
	movq	%r15,%rdx
	leaq	(%rdi,%rdx),%r15
	movq	56(%rsp),%rbp
	cmpq	%r15,%rdi
	jb	10b
	jmp	9b
13:
	leaq	56(%rsp),%rdi
	movq	%rdx,%r14
	movq	%rdx,%rsi
	callq	"std_alloc::vec::Vec::grow_amortized::<#9d744d77114e6601>"
	testb	%al,%al
	je	8f
	movq	64(%rsp),%rdi
	movq	72(%rsp),%r13
	movq	%r14,%rdx
	leaq	(%rdi,%rdx),%r14
	movq	56(%rsp),%rbp
	cmpq	%r14,%rdi
	jb	15b
	jmp	14b
16:
	leaq	56(%rsp),%rdi
	movq	%rdx,%r15
	movq	%rdx,%rsi
	callq	"std_alloc::vec::Vec::grow_amortized::<#9d744d77114e6601>"
	testb	%al,%al
	je	8f
	movq	56(%rsp),%rbp
	movq	64(%rsp),%r14
	movq	72(%rsp),%rbx
	movq	%r15,%rdx
	leaq	160(%r12),%rdi
	leaq	(%r14,%rdx),%r15
	cmpq	%r15,%r14
	jb	20b
	jmp	17b
25:
	addq	$80,%rcx
	movq	%rcx,%rdx
	jmp	3b
	.p2align	4
12:
	movzwl	(%r12,%rax,2),%ecx
	movl	%ecx,%edx
	andl	$3855,%edx
	shrl	$6,%ecx
	andl	$257,%ecx
	leal	(%rcx,%rcx,8),%ecx
	addl	%edx,%ecx
	movl	%ecx,%edx
	shll	$12,%edx
	addl	%ecx,%edx
	movb	%dh,(%rbp,%rax)
	incq	%rax
23:
	cmpq	%rax,%rbx
	jne	12b
11:
	movq	%rbx,%r13
	movq	8(%rsp),%rbx
	cmpq	$12,%r13
	jb	18f
19:
	movzbl	(%rbp),%esi
	cmpb	$-65,%sil
	jg	18f
21:
	movl	%esi,%eax
	andl	$15,%eax
	leaq	12(,%rax,4),%r12
	subq	%r12,%r13
	jae	3f
	.p2align	4
18:
	xorl	%esi,%esi
	xorl	%r10d,%r10d
	xorl	%r11d,%r11d
	movq	80(%rsp),%r13
	movq	16(%rsp),%rbp
24:
	incq	%r13
	movl	$544499051,3(%r15,%rbx)
	movl	$1801675120,(%r15,%rbx)
	cmpq	$99999999,%r13
	ja	9f
	cmpq	$9999,%r13
	movq	24(%rsp),%r12
	ja	10f
	cmpq	$99,%r13
	ja	11f
	cmpq	$9,%r13
	ja	12f
	movl	%r13d,%eax
	orb	$48,%al
	movb	%al,7(%r15,%rbx)
	addq	$8,%rbx
	leaq	(%r15,%rbx),%rcx
	testb	%sil,%sil
	je	13f
	jmp	14f
	.p2align	4
9:
	movabsq	$10000000000000000,%rax
	cmpq	%rax,%r13
	movq	24(%rsp),%r12
	jae	9f
	movabsq	$-6067343680855748867,%rcx
	movq	%r13,%rax
	mulq	%rcx
	shrq	$26,%rdx
	movabsq	$1000000000000,%rax
	cmpq	%rax,%r13
	jae	15f
	movabsq	$10000000000,%rax
	cmpq	%rax,%r13
	jae	16f
	cmpq	$999999999,%r13
	ja	17f
	orb	$48,%dl
	movb	%dl,7(%r15,%rbx)
	addq	$8,%rbx
	jmp	19f
	.p2align	4
10:
	movl	%r13d,%ecx
	movl	$3518437209,%eax
	imulq	%rcx,%rax
	shrq	$45,%rax
	cmpq	$999999,%r13
	ja	10f
	cmpq	$99999,%r13
	ja	20f
	movl	%eax,%ecx
	orb	$48,%cl
	movb	%cl,7(%r15,%rbx)
	addq	$8,%rbx
	jmp	21f
	.p2align	4
9:
	movabsq	$4153837486827862103,%rcx
	movq	%r13,%rax
	mulq	%rcx
	shrq	$51,%rdx
	movabsq	$1000000000000000000,%rax
	cmpq	%rax,%r13
	jae	9f
	movabsq	$100000000000000000,%rax
	cmpq	%rax,%r13
	jae	22f
	orb	$48,%dl
	movb	%dl,7(%r15,%rbx)
	addq	$8,%rbx
	jmp	23f
3:
	testb	$16,%sil
	jne	3f
	xorl	%edi,%edi
25:
	cmpb	$1,592(%rsp)
	movq	%rsi,88(%rsp)
	movl	%edi,104(%rsp)
	jne	26f
	movq	%r12,248(%rsp)
	movq	608(%rsp),%rax
	movq	%rax,40(%rsp)
	movq	616(%rsp),%rcx
	movq	624(%rsp),%rax
	movq	%rax,240(%rsp)
	pxor	%xmm0,%xmm0
	leaq	416(%rsp),%rax
	movdqu	%xmm0,192(%rax)
	movdqu	%xmm0,176(%rax)
	movq	$0,208(%rax)
	movq	%rcx,96(%rsp)
	testq	%rcx,%rcx
	je	27f
	xorl	%r12d,%r12d
	jmp	28f
	.p2align	4
29:
	incq	%r12
	cmpq	96(%rsp),%r12
	je	27f
28:
	leaq	(%r12,%r12,2),%rax
	movq	40(%rsp),%rcx
	movq	(%rcx,%rax,8),%r13
	movq	8(%rcx,%rax,8),%r15
	movq	16(%rcx,%rax,8),%rbx
	testq	%r15,%r15
	je	28f
	leaq	16(%r13),%r14
	jmp	30f
	.p2align	4
31:
	addq	$32,%r14
	decq	%r15
	je	28f
30:
	cmpq	$0,(%r14)
	je	31b
	movq	-16(%r14),%rdi
	callq	rattle_dealloc@PLT
	jmp	31b
	.p2align	4
28:
	testq	%rbx,%rbx
	je	29b
	movq	%r13,%rdi
	callq	rattle_dealloc@PLT
	jmp	29b
11:
	movl	%r13d,%eax
	shrl	$2,%eax
	movzwl	%ax,%eax
	imull	$5243,%eax,%eax
	shrl	$17,%eax
	cmpq	$999,%r13
	ja	11f
	movl	%eax,%ecx
	orb	$48,%cl
	movb	%cl,7(%r15,%rbx)
	addq	$8,%rbx
	jmp	28f
15:
	movl	%edx,%edi
	movl	$3518437209,%eax
	imulq	%rdi,%rax
	shrq	$45,%rax
	movabsq	$100000000000000,%rdi
	cmpq	%rdi,%r13
	jae	15f
	movabsq	$10000000000000,%rdi
	cmpq	%rdi,%r13
	jae	29f
	movl	%eax,%edi
	orb	$48,%dil
	movb	%dil,7(%r15,%rbx)
	addq	$8,%rbx
	jmp	30f
10:
	movzwl	%ax,%ecx
	shrl	$2,%ecx
	imull	$5243,%ecx,%ecx
	shrl	$17,%ecx
	cmpq	$9999999,%r13
	ja	10f
	movl	%ecx,%edx
	orb	$48,%dl
	movb	%dl,7(%r15,%rbx)
	addq	$8,%rbx
	jmp	31f
9:
	imull	$1311,%edx,%eax
	shrl	$17,%eax
	movabsq	$-8446744073709551616,%rcx
	cmpq	%rcx,%r13
	jae	9f
	movl	%eax,%ecx
	orb	$48,%cl
	movb	%cl,7(%r15,%rbx)
	addq	$8,%rbx
	jmp	32f
3:
	cmpq	$4,%r13
	jb	18b
	movzwl	2(%rbp,%r12),%eax
	rolw	$8,%ax
	addq	$-4,%r13
	movzwl	%ax,%eax
	shll	$2,%eax
	cmpq	%rax,%r13
	jb	18b
	movzwl	(%rbp,%r12),%edx
	movl	%edx,%ecx
	andl	$61695,%ecx
	cmpw	$16,%cx
	sete	%dil
	addq	%rax,%r12
	addq	$4,%r12
	cmpl	$57022,%edx
	je	25b
	cmpw	$16,%cx
	jne	18b
	jmp	25b
12:
	leaq	.Lrtp_static.42(%rip),%rax
	movzwl	(%rax,%r13,2),%eax
	movw	%ax,7(%r15,%rbx)
	addq	$9,%rbx
	leaq	(%r15,%rbx),%rcx
	testb	%sil,%sil
	je	13f
	jmp	14f
16:
	movl	%edx,%eax
	shrl	$2,%eax
	movzwl	%ax,%eax
	imull	$5243,%eax,%eax
	shrl	$17,%eax
	movabsq	$100000000000,%rdi
	cmpq	%rdi,%r13
	jae	3f
	orb	$48,%al
	movb	%al,7(%r15,%rbx)
	addq	$8,%rbx
	jmp	12f
20:
	movl	%eax,%ecx
	leaq	.Lrtp_static.42(%rip),%rdx
	movzwl	(%rdx,%rcx,2),%ecx
	movw	%cx,7(%r15,%rbx)
	addq	$9,%rbx
	jmp	21f
22:
	leaq	.Lrtp_static.42(%rip),%rax
	movzwl	(%rax,%rdx,2),%eax
	movw	%ax,7(%r15,%rbx)
	addq	$9,%rbx
	jmp	23f
11:
	movzwl	%ax,%ecx
	leaq	.Lrtp_static.42(%rip),%rdx
	movzwl	(%rdx,%rcx,2),%ecx
	movw	%cx,7(%r15,%rbx)
	addq	$9,%rbx
28:
	imull	$100,%eax,%eax
	movl	%r13d,%ecx
	subl	%eax,%ecx
	movzwl	%cx,%eax
	leaq	.Lrtp_static.42(%rip),%rcx
	movzwl	(%rcx,%rax,2),%eax
	movw	%ax,(%r15,%rbx)
	addq	$2,%rbx
	leaq	(%r15,%rbx),%rcx
	testb	%sil,%sil
	je	13f
	jmp	14f
15:
	movzwl	%ax,%edi
	shrl	$2,%edi
	imull	$5243,%edi,%edi
	shrl	$17,%edi
	movabsq	$1000000000000000,%r8
	cmpq	%r8,%r13
	jae	11f
	movl	%edi,%r8d
	orb	$48,%r8b
	movb	%r8b,7(%r15,%rbx)
	addq	$8,%rbx
	jmp	15f
10:
	movzwl	%cx,%edx
	leaq	.Lrtp_static.42(%rip),%rdi
	movzwl	(%rdi,%rdx,2),%edx
	movw	%dx,7(%r15,%rbx)
	addq	$9,%rbx
31:
	imull	$100,%ecx,%ecx
	movl	%eax,%edx
	subl	%ecx,%edx
	movzwl	%dx,%ecx
	leaq	.Lrtp_static.42(%rip),%rdx
	movzwl	(%rdx,%rcx,2),%ecx
	movw	%cx,(%r15,%rbx)
	addq	$2,%rbx
21:
	imull	$10000,%eax,%eax
	movl	%r13d,%ecx
	subl	%eax,%ecx
	movzwl	%cx,%eax
	shrl	$2,%eax
	imull	$5243,%eax,%eax
	shrl	$17,%eax
	leaq	.Lrtp_static.42(%rip),%rdx
	movzwl	(%rdx,%rax,2),%edi
	movw	%di,(%r15,%rbx)
	imull	$100,%eax,%eax
	subl	%eax,%ecx
	movzwl	%cx,%eax
	movzwl	(%rdx,%rax,2),%eax
	movw	%ax,2(%r15,%rbx)
	addq	$4,%rbx
	leaq	(%r15,%rbx),%rcx
	testb	%sil,%sil
	jne	14f
13:
	movabsq	$7233174018687574074,%rax
	movq	%rax,(%rcx)
	movl	$1701601889,8(%rcx)
	addq	$12,%rbx
	jmp	10f
9:
	movzwl	%ax,%ecx
	leaq	.Lrtp_static.42(%rip),%rdi
	movzwl	(%rdi,%rcx,2),%ecx
	movw	%cx,7(%r15,%rbx)
	addq	$9,%rbx
32:
	imull	$100,%eax,%eax
	subl	%eax,%edx
	movzwl	%dx,%eax
	leaq	.Lrtp_static.42(%rip),%rcx
	movzwl	(%rcx,%rax,2),%eax
	movw	%ax,(%r15,%rbx)
	addq	$2,%rbx
23:
	movabsq	$-6067343680855748867,%rcx
	movq	%r13,%rax
	mulq	%rcx
	movq	%rdx,%rcx
	shrq	$26,%rcx
	movabsq	$368934881475,%rdx
	movq	%rcx,%rax
	mulq	%rdx
	shrl	%edx
	imulq	$100000000,%rdx,%rax
	imulq	$100000000,%rcx,%rdx
	subq	%rax,%rcx
	imulq	$109951163,%rcx,%rdi
	shrq	$40,%rdi
	imull	$5243,%edi,%r8d
	shrl	$19,%r8d
	leaq	.Lrtp_static.42(%rip),%rax
	movzwl	(%rax,%r8,2),%r9d
	movw	%r9w,(%r15,%rbx)
	imull	$100,%r8d,%r8d
	imull	$10000,%edi,%r9d
	subl	%r8d,%edi
	movzwl	%di,%edi
	movzwl	(%rax,%rdi,2),%edi
	movw	%di,2(%r15,%rbx)
	subl	%r9d,%ecx
	imull	$5243,%ecx,%edi
	shrl	$19,%edi
	movzwl	(%rax,%rdi,2),%r8d
	movw	%r8w,4(%r15,%rbx)
	imull	$100,%edi,%edi
	subl	%edi,%ecx
	movzwl	%cx,%ecx
	movzwl	(%rax,%rcx,2),%ecx
	movw	%cx,6(%r15,%rbx)
	movq	%r13,%rcx
	subq	%rdx,%rcx
	imulq	$109951163,%rcx,%rdx
	shrq	$40,%rdx
	imull	$5243,%edx,%edi
	shrl	$19,%edi
	movzwl	(%rax,%rdi,2),%r8d
	movw	%r8w,8(%r15,%rbx)
	imull	$100,%edi,%edi
	imull	$10000,%edx,%r8d
	subl	%edi,%edx
	movzwl	%dx,%edx
	movzwl	(%rax,%rdx,2),%edx
	movw	%dx,10(%r15,%rbx)
	subl	%r8d,%ecx
	imull	$5243,%ecx,%edx
	shrl	$19,%edx
	movzwl	(%rax,%rdx,2),%edi
	movw	%di,12(%r15,%rbx)
	imull	$100,%edx,%edx
	subl	%edx,%ecx
	movzwl	%cx,%ecx
	movzwl	(%rax,%rcx,2),%eax
	movw	%ax,14(%r15,%rbx)
	addq	$16,%rbx
	leaq	(%r15,%rbx),%rcx
	testb	%sil,%sil
	jne	14f
	jmp	13b
26:
	pxor	%xmm0,%xmm0
	leaq	416(%rsp),%rax
	movdqu	%xmm0,192(%rax)
	movdqu	%xmm0,176(%rax)
	movdqu	%xmm0,160(%rax)
	movdqu	%xmm0,144(%rax)
	movdqu	%xmm0,128(%rax)
	movdqu	%xmm0,112(%rax)
	movdqu	%xmm0,96(%rax)
	movdqu	%xmm0,80(%rax)
	movdqu	%xmm0,64(%rax)
	movdqu	%xmm0,48(%rax)
	movdqu	%xmm0,32(%rax)
	movdqu	%xmm0,16(%rax)
	movdqu	%xmm0,(%rax)
	movq	$0,208(%rax)
	jmp	9f
27:
	cmpq	$0,240(%rsp)
	je	16f
	movq	40(%rsp),%rdi
	callq	rattle_dealloc@PLT
16:
	cmpb	$1,592(%rsp)
	movq	608(%rsp),%rax
	movq	%rax,40(%rsp)
	movq	616(%rsp),%rdx
	movq	624(%rsp),%rcx
	pxor	%xmm0,%xmm0
	leaq	416(%rsp),%rax
	movdqu	%xmm0,192(%rax)
	movdqu	%xmm0,176(%rax)
	movdqu	%xmm0,160(%rax)
	movdqu	%xmm0,144(%rax)
	movdqu	%xmm0,128(%rax)
	movdqu	%xmm0,112(%rax)
	movdqu	%xmm0,96(%rax)
	movdqu	%xmm0,80(%rax)
	movdqu	%xmm0,64(%rax)
	movdqu	%xmm0,48(%rax)
	movdqu	%xmm0,32(%rax)
	movdqu	%xmm0,16(%rax)
	movdqu	%xmm0,(%rax)
	movq	$0,208(%rax)
	movq	248(%rsp),%r12
	jne	9f
	movq	%rcx,240(%rsp)
	testq	%rdx,%rdx
	je	16f
	xorl	%r12d,%r12d
	movq	%rdx,96(%rsp)
	jmp	18f
	.p2align	4
20:
	incq	%r12
	movq	96(%rsp),%rdx
	cmpq	%rdx,%r12
	je	16f
18:
	leaq	(%r12,%r12,2),%rax
	movq	40(%rsp),%rcx
	movq	(%rcx,%rax,8),%r13
	movq	8(%rcx,%rax,8),%r15
	movq	16(%rcx,%rax,8),%rbx
	testq	%r15,%r15
	je	18f
	leaq	16(%r13),%r14
	jmp	21f
	.p2align	4
22:
	addq	$32,%r14
	decq	%r15
	je	18f
21:
	cmpq	$0,(%r14)
	je	22b
	movq	-16(%r14),%rdi
	callq	rattle_dealloc@PLT
	jmp	22b
	.p2align	4
18:
	testq	%rbx,%rbx
	je	20b
	movq	%r13,%rdi
	callq	rattle_dealloc@PLT
	jmp	20b
17:
	leaq	.Lrtp_static.42(%rip),%rax
	movzwl	(%rax,%rdx,2),%eax
	movw	%ax,7(%r15,%rbx)
	addq	$9,%rbx
	jmp	19f
29:
	movl	%eax,%edi
	leaq	.Lrtp_static.42(%rip),%r8
	movzwl	(%r8,%rdi,2),%edi
	movw	%di,7(%r15,%rbx)
	addq	$9,%rbx
	jmp	30f
3:
	movzwl	%ax,%eax
	leaq	.Lrtp_static.42(%rip),%rdi
	movzwl	(%rdi,%rax,2),%eax
	movw	%ax,7(%r15,%rbx)
	addq	$9,%rbx
12:
	movl	%edx,%eax
	imulq	$1374389535,%rax,%rax
	shrq	$37,%rax
	imull	$100,%eax,%eax
	subl	%eax,%edx
	leaq	.Lrtp_static.42(%rip),%rax
	movzwl	(%rax,%rdx,2),%eax
	movw	%ax,(%r15,%rbx)
	addq	$2,%rbx
	jmp	19f
11:
	movzwl	%di,%r8d
	leaq	.Lrtp_static.42(%rip),%r9
	movzwl	(%r9,%r8,2),%r8d
	movw	%r8w,7(%r15,%rbx)
	addq	$9,%rbx
15:
	imull	$100,%edi,%edi
	movl	%eax,%r8d
	subl	%edi,%r8d
	movzwl	%r8w,%edi
	leaq	.Lrtp_static.42(%rip),%r8
	movzwl	(%r8,%rdi,2),%edi
	movw	%di,(%r15,%rbx)
	addq	$2,%rbx
30:
	imull	$10000,%eax,%eax
	subl	%eax,%edx
	movzwl	%dx,%eax
	shrl	$2,%eax
	imull	$5243,%eax,%eax
	shrl	$17,%eax
	leaq	.Lrtp_static.42(%rip),%rdi
	movzwl	(%rdi,%rax,2),%r8d
	movw	%r8w,(%r15,%rbx)
	imull	$100,%eax,%eax
	subl	%eax,%edx
	movzwl	%dx,%eax
	movzwl	(%rdi,%rax,2),%eax
	movw	%ax,2(%r15,%rbx)
	addq	$4,%rbx
19:
	movq	%r13,%rax
	mulq	%rcx
	shrq	$26,%rdx
	imulq	$100000000,%rdx,%rcx
	movq	%r13,%rax
	subq	%rcx,%rax
	imulq	$109951163,%rax,%rcx
	shrq	$40,%rcx
	imull	$5243,%ecx,%edx
	shrl	$19,%edx
	leaq	.Lrtp_static.42(%rip),%rdi
	movzwl	(%rdi,%rdx,2),%r8d
	movw	%r8w,(%r15,%rbx)
	imull	$100,%edx,%edx
	imull	$10000,%ecx,%r8d
	subl	%edx,%ecx
	movzwl	%cx,%ecx
	movzwl	(%rdi,%rcx,2),%ecx
	movw	%cx,2(%r15,%rbx)
	subl	%r8d,%eax
	imull	$5243,%eax,%ecx
	shrl	$19,%ecx
	movzwl	(%rdi,%rcx,2),%edx
	movw	%dx,4(%r15,%rbx)
	imull	$100,%ecx,%ecx
	subl	%ecx,%eax
	movzwl	%ax,%eax
	movzwl	(%rdi,%rax,2),%eax
	movw	%ax,6(%r15,%rbx)
	addq	$8,%rbx
	leaq	(%r15,%rbx),%rcx
	testb	%sil,%sil
	je	13b
14:
	movw	$8250,(%rcx)
	movzbl	345(%rsp),%eax
	movb	$32,4(%rcx)
	movw	$29808,2(%rcx)
	cmpq	$99,%rax
	ja	3f
	cmpb	$9,%al
	ja	11f
	orb	$48,%al
	movb	%al,5(%r15,%rbx)
	addq	$6,%rbx
	jmp	12f
	.p2align	4
3:
	leal	(%rax,%rax,4),%ecx
	leal	(%rax,%rcx,8),%ecx
	shrl	$12,%ecx
	imull	$100,%ecx,%edx
	orb	$48,%cl
	movb	%cl,5(%r15,%rbx)
	subb	%dl,%al
	movzbl	%al,%eax
	leaq	.Lrtp_static.42(%rip),%rcx
	movzwl	(%rcx,%rax,2),%eax
	movw	%ax,6(%r15,%rbx)
	addq	$8,%rbx
	jmp	12f
11:
	leaq	.Lrtp_static.42(%rip),%rcx
	movzwl	(%rcx,%rax,2),%eax
	movw	%ax,5(%r15,%rbx)
	addq	$7,%rbx
12:
	movzwl	346(%rsp),%eax
	movb	$32,4(%r15,%rbx)
	movl	$1902474016,(%r15,%rbx)
	cmpq	$9999,%rax
	ja	3f
	cmpw	$99,%ax
	ja	11f
	cmpw	$9,%ax
	ja	12f
	orb	$48,%al
	movb	%al,5(%r15,%rbx)
	addq	$6,%rbx
	movl	348(%rsp),%eax
	movl	$544437280,(%r15,%rbx)
	cmpq	$99999999,%rax
	ja	13f
	jmp	14f
	.p2align	4
3:
	movl	%eax,%ecx
	shrl	$4,%ecx
	imull	$839,%ecx,%ecx
	shrl	$19,%ecx
	leal	48(%rcx),%edx
	movb	%dl,5(%r15,%rbx)
	imull	$10000,%ecx,%ecx
	subl	%ecx,%eax
	movzwl	%ax,%ecx
	imull	$5243,%ecx,%ecx
	shrl	$19,%ecx
	leaq	.Lrtp_static.42(%rip),%rdx
	movzwl	(%rdx,%rcx,2),%esi
	movw	%si,6(%r15,%rbx)
	imull	$100,%ecx,%ecx
	subl	%ecx,%eax
	movzwl	%ax,%eax
	movzwl	(%rdx,%rax,2),%eax
	movw	%ax,8(%r15,%rbx)
	addq	$10,%rbx
	movl	348(%rsp),%eax
	movl	$544437280,(%r15,%rbx)
	cmpq	$99999999,%rax
	ja	13f
14:
	cmpl	$9999,%eax
	ja	3f
	cmpl	$99,%eax
	ja	15f
	cmpl	$9,%eax
	ja	17f
	orb	$48,%al
	movb	%al,4(%r15,%rbx)
	addq	$5,%rbx
	jmp	18f
11:
	movl	%eax,%ecx
	shrl	$2,%ecx
	imull	$5243,%ecx,%ecx
	shrl	$17,%ecx
	cmpl	$999,%eax
	ja	11f
	movl	%ecx,%edx
	orb	$48,%dl
	movb	%dl,5(%r15,%rbx)
	addq	$6,%rbx
	jmp	19f
3:
	movl	$3518437209,%ecx
	imulq	%rax,%rcx
	shrq	$45,%rcx
	cmpl	$999999,%eax
	ja	3f
	cmpl	$99999,%eax
	ja	20f
	movl	%ecx,%edx
	orb	$48,%dl
	movb	%dl,4(%r15,%rbx)
	addq	$5,%rbx
	jmp	21f
12:
	leaq	.Lrtp_static.42(%rip),%rcx
	movzwl	(%rcx,%rax,2),%eax
	movw	%ax,5(%r15,%rbx)
	addq	$7,%rbx
	movl	348(%rsp),%eax
	movl	$544437280,(%r15,%rbx)
	cmpq	$99999999,%rax
	jbe	14b
	jmp	13f
15:
	movzwl	%ax,%ecx
	shrl	$2,%ecx
	imull	$5243,%ecx,%ecx
	shrl	$17,%ecx
	cmpl	$999,%eax
	ja	12f
	movl	%ecx,%edx
	orb	$48,%dl
	movb	%dl,4(%r15,%rbx)
	addq	$5,%rbx
	jmp	15f
11:
	movzwl	%cx,%edx
	leaq	.Lrtp_static.42(%rip),%rsi
	movzwl	(%rsi,%rdx,2),%edx
	movw	%dx,5(%r15,%rbx)
	addq	$7,%rbx
19:
	imull	$100,%ecx,%ecx
	subl	%ecx,%eax
	movzwl	%ax,%eax
	leaq	.Lrtp_static.42(%rip),%rcx
	movzwl	(%rcx,%rax,2),%eax
	movw	%ax,(%r15,%rbx)
	addq	$2,%rbx
	movl	348(%rsp),%eax
	movl	$544437280,(%r15,%rbx)
	cmpq	$99999999,%rax
	jbe	14b
13:
	imulq	$1441151881,%rax,%rcx
	shrq	$57,%rcx
	cmpl	$999999999,%eax
	ja	11f
	movl	%ecx,%edx
	orb	$48,%dl
	movb	%dl,4(%r15,%rbx)
	addq	$5,%rbx
	jmp	13f
11:
	movl	%ecx,%edx
	leaq	.Lrtp_static.42(%rip),%rsi
	movzwl	(%rsi,%rdx,2),%edx
	movw	%dx,4(%r15,%rbx)
	addq	$6,%rbx
13:
	imull	$100000000,%ecx,%ecx
	subl	%ecx,%eax
	movl	%eax,%ecx
	movl	$3518437209,%edx
	imulq	%rcx,%rdx
	shrq	$45,%rdx
	movzwl	%dx,%ecx
	shrl	$2,%ecx
	imull	$5243,%ecx,%ecx
	shrl	$17,%ecx
	leaq	.Lrtp_static.42(%rip),%rsi
	movzwl	(%rsi,%rcx,2),%edi
	movw	%di,(%r15,%rbx)
	imull	$100,%ecx,%ecx
	imull	$10000,%edx,%edi
	subl	%ecx,%edx
	movzwl	%dx,%ecx
	movzwl	(%rsi,%rcx,2),%ecx
	movw	%cx,2(%r15,%rbx)
	subl	%edi,%eax
	imull	$5243,%eax,%ecx
	shrl	$19,%ecx
	movzwl	(%rsi,%rcx,2),%edx
	movw	%dx,4(%r15,%rbx)
	imull	$100,%ecx,%ecx
	subl	%ecx,%eax
	movzwl	%ax,%eax
	movzwl	(%rsi,%rax,2),%eax
	movw	%ax,6(%r15,%rbx)
	addq	$8,%rbx
	jmp	18f
3:
	imulq	$1125899907,%rax,%rdx
	shrq	$50,%rdx
	cmpl	$9999999,%eax
	ja	3f
	orb	$48,%dl
	movb	%dl,4(%r15,%rbx)
	addq	$5,%rbx
	jmp	11f
17:
	leaq	.Lrtp_static.42(%rip),%rcx
	movzwl	(%rcx,%rax,2),%eax
	movw	%ax,4(%r15,%rbx)
	addq	$6,%rbx
	jmp	18f
20:
	movl	%ecx,%edx
	leaq	.Lrtp_static.42(%rip),%rsi
	movzwl	(%rsi,%rdx,2),%edx
	movw	%dx,4(%r15,%rbx)
	addq	$6,%rbx
	jmp	21f
12:
	movzwl	%cx,%edx
	leaq	.Lrtp_static.42(%rip),%rsi
	movzwl	(%rsi,%rdx,2),%edx
	movw	%dx,4(%r15,%rbx)
	addq	$6,%rbx
15:
	imull	$100,%ecx,%ecx
	subl	%ecx,%eax
	movzwl	%ax,%eax
	leaq	.Lrtp_static.42(%rip),%rcx
	movzwl	(%rcx,%rax,2),%eax
	movw	%ax,(%r15,%rbx)
	addq	$2,%rbx
	jmp	18f
3:
	movl	%edx,%edx
	leaq	.Lrtp_static.42(%rip),%rsi
	movzwl	(%rsi,%rdx,2),%edx
	movw	%dx,4(%r15,%rbx)
	addq	$6,%rbx
11:
	movzwl	%cx,%edx
	shrl	$2,%edx
	imull	$5243,%edx,%edx
	shrl	$17,%edx
	imull	$100,%edx,%edx
	movl	%ecx,%esi
	subl	%edx,%esi
	movzwl	%si,%edx
	leaq	.Lrtp_static.42(%rip),%rsi
	movzwl	(%rsi,%rdx,2),%edx
	movw	%dx,(%r15,%rbx)
	addq	$2,%rbx
21:
	imull	$10000,%ecx,%ecx
	subl	%ecx,%eax
	movzwl	%ax,%ecx
	shrl	$2,%ecx
	imull	$5243,%ecx,%ecx
	shrl	$17,%ecx
	leaq	.Lrtp_static.42(%rip),%rdx
	movzwl	(%rdx,%rcx,2),%esi
	movw	%si,(%r15,%rbx)
	imull	$100,%ecx,%ecx
	subl	%ecx,%eax
	movzwl	%ax,%eax
	movzwl	(%rdx,%rax,2),%eax
	movw	%ax,2(%r15,%rbx)
	addq	$4,%rbx
18:
	movl	352(%rsp),%eax
	movw	$8291,4(%r15,%rbx)
	movl	$1920168736,(%r15,%rbx)
	cmpq	$99999999,%rax
	ja	3f
	cmpl	$9999,%eax
	ja	11f
	cmpl	$99,%eax
	ja	12f
	cmpl	$9,%eax
	ja	13f
	orb	$48,%al
	movb	%al,6(%r15,%rbx)
	addq	$7,%rbx
	jmp	14f
	.p2align	4
3:
	imulq	$1441151881,%rax,%rcx
	shrq	$57,%rcx
	cmpl	$999999999,%eax
	ja	3f
	movl	%ecx,%edx
	orb	$48,%dl
	movb	%dl,6(%r15,%rbx)
	addq	$7,%rbx
	jmp	15f
11:
	movl	$3518437209,%ecx
	imulq	%rax,%rcx
	shrq	$45,%rcx
	cmpl	$999999,%eax
	ja	11f
	cmpl	$99999,%eax
	ja	17f
	movl	%ecx,%edx
	orb	$48,%dl
	movb	%dl,6(%r15,%rbx)
	addq	$7,%rbx
	jmp	18f
3:
	movl	%ecx,%edx
	leaq	.Lrtp_static.42(%rip),%rsi
	movzwl	(%rsi,%rdx,2),%edx
	movw	%dx,6(%r15,%rbx)
	addq	$8,%rbx
15:
	imull	$100000000,%ecx,%ecx
	subl	%ecx,%eax
	movl	%eax,%ecx
	movl	$3518437209,%edx
	imulq	%rcx,%rdx
	shrq	$45,%rdx
	movzwl	%dx,%ecx
	shrl	$2,%ecx
	imull	$5243,%ecx,%ecx
	shrl	$17,%ecx
	leaq	.Lrtp_static.42(%rip),%rsi
	movzwl	(%rsi,%rcx,2),%edi
	movw	%di,(%r15,%rbx)
	imull	$100,%ecx,%ecx
	imull	$10000,%edx,%edi
	subl	%ecx,%edx
	movzwl	%dx,%ecx
	movzwl	(%rsi,%rcx,2),%ecx
	movw	%cx,2(%r15,%rbx)
	subl	%edi,%eax
	imull	$5243,%eax,%ecx
	shrl	$19,%ecx
	movzwl	(%rsi,%rcx,2),%edx
	movw	%dx,4(%r15,%rbx)
	imull	$100,%ecx,%ecx
	subl	%ecx,%eax
	movzwl	%ax,%eax
	movzwl	(%rsi,%rax,2),%eax
3:
	movw	%ax,6(%r15,%rbx)
	addq	$8,%rbx
	jmp	14f
12:
	movzwl	%ax,%ecx
	shrl	$2,%ecx
	imull	$5243,%ecx,%ecx
	shrl	$17,%ecx
	cmpl	$999,%eax
	ja	12f
	movl	%ecx,%edx
	orb	$48,%dl
	movb	%dl,6(%r15,%rbx)
	addq	$7,%rbx
	jmp	15f
11:
	imulq	$1125899907,%rax,%rdx
	shrq	$50,%rdx
	cmpl	$9999999,%eax
	ja	11f
	orb	$48,%dl
	movb	%dl,6(%r15,%rbx)
	addq	$7,%rbx
	jmp	19f
13:
	leaq	.Lrtp_static.42(%rip),%rcx
	movzwl	(%rcx,%rax,2),%eax
	jmp	3b
17:
	movl	%ecx,%edx
	leaq	.Lrtp_static.42(%rip),%rsi
	movzwl	(%rsi,%rdx,2),%edx
	movw	%dx,6(%r15,%rbx)
	addq	$8,%rbx
	jmp	18f
12:
	movzwl	%cx,%edx
	leaq	.Lrtp_static.42(%rip),%rsi
	movzwl	(%rsi,%rdx,2),%edx
	movw	%dx,6(%r15,%rbx)
	addq	$8,%rbx
15:
	imull	$100,%ecx,%ecx
	subl	%ecx,%eax
	movzwl	%ax,%eax
	leaq	.Lrtp_static.42(%rip),%rcx
	movzwl	(%rcx,%rax,2),%eax
	movw	%ax,(%r15,%rbx)
	addq	$2,%rbx
	jmp	14f
11:
	movl	%edx,%edx
	leaq	.Lrtp_static.42(%rip),%rsi
	movzwl	(%rsi,%rdx,2),%edx
	movw	%dx,6(%r15,%rbx)
	addq	$8,%rbx
19:
	movzwl	%cx,%edx
	shrl	$2,%edx
	imull	$5243,%edx,%edx
	shrl	$17,%edx
	imull	$100,%edx,%edx
	movl	%ecx,%esi
	subl	%edx,%esi
	movzwl	%si,%edx
	leaq	.Lrtp_static.42(%rip),%rsi
	movzwl	(%rsi,%rdx,2),%edx
	movw	%dx,(%r15,%rbx)
	addq	$2,%rbx
18:
	imull	$10000,%ecx,%ecx
	subl	%ecx,%eax
	movzwl	%ax,%ecx
	shrl	$2,%ecx
	imull	$5243,%ecx,%ecx
	shrl	$17,%ecx
	leaq	.Lrtp_static.42(%rip),%rdx
	movzwl	(%rdx,%rcx,2),%esi
	movw	%si,(%r15,%rbx)
	imull	$100,%ecx,%ecx
	subl	%ecx,%eax
	movzwl	%ax,%eax
	movzwl	(%rdx,%rax,2),%eax
	movw	%ax,2(%r15,%rbx)
	addq	$4,%rbx
14:
	cmpb	$0,344(%rsp)
	movabsq	$2338042668713602336,%rax
	movq	%rax,(%r15,%rbx)
	leaq	8(%r15,%rbx),%rax
	je	3f
	movb	$115,2(%rax)
	movw	$25977,(%rax)
	addq	$11,%rbx
	jmp	11f
	.p2align	4
3:
	movw	$28526,(%rax)
	addq	$10,%rbx
11:
	cmpb	$0,329(%rsp)
	movabsq	$7453010313246502944,%rax
	movq	%rax,(%r15,%rbx)
	movb	$32,8(%r15,%rbx)
	leaq	9(%r15,%rbx),%rax
	je	3f
	movb	$115,2(%rax)
	movw	$25977,(%rax)
	addq	$12,%rbx
	jmp	11f
	.p2align	4
3:
	movw	$28526,(%rax)
	addq	$11,%rbx
11:
	cmpb	$0,330(%rsp)
	movabsq	$7598538378328958240,%rax
	movq	%rax,(%r15,%rbx)
	movl	$544108393,7(%r15,%rbx)
	leaq	11(%r15,%rbx),%rax
	je	3f
	movb	$115,2(%rax)
	movw	$25977,(%rax)
	addq	$14,%rbx
	jmp	11f
	.p2align	4
3:
	movw	$28526,(%rax)
	addq	$13,%rbx
11:
	movq	336(%rsp),%rcx
	movw	$8291,4(%r15,%rbx)
	movl	$1920164640,(%r15,%rbx)
	cmpq	$99999999,%rcx
	ja	3f
	cmpq	$9999,%rcx
	ja	11f
	cmpq	$99,%rcx
	ja	12f
	cmpq	$9,%rcx
	ja	13f
	orb	$48,%cl
	movb	%cl,6(%r15,%rbx)
	addq	$7,%rbx
	jmp	14f
	.p2align	4
3:
	movabsq	$10000000000000000,%rax
	cmpq	%rax,%rcx
	jae	3f
	movabsq	$-6067343680855748867,%rsi
	movq	%rcx,%rax
	mulq	%rsi
	shrq	$26,%rdx
	movabsq	$1000000000000,%rax
	cmpq	%rax,%rcx
	jae	15f
	movabsq	$10000000000,%rax
	cmpq	%rax,%rcx
	jae	17f
	cmpq	$999999999,%rcx
	ja	18f
	orb	$48,%dl
	movb	%dl,6(%r15,%rbx)
	addq	$7,%rbx
	jmp	19f
11:
	movl	%ecx,%edx
	movl	$3518437209,%eax
	imulq	%rdx,%rax
	shrq	$45,%rax
	cmpq	$999999,%rcx
	ja	11f
	cmpq	$99999,%rcx
	ja	20f
	movl	%eax,%edx
	orb	$48,%dl
	movb	%dl,6(%r15,%rbx)
	addq	$7,%rbx
	jmp	21f
3:
	movabsq	$4153837486827862103,%rdx
	movq	%rcx,%rax
	mulq	%rdx
	shrq	$51,%rdx
	movabsq	$1000000000000000000,%rax
	cmpq	%rax,%rcx
	jae	3f
	movabsq	$100000000000000000,%rax
	cmpq	%rax,%rcx
	jae	22f
	orb	$48,%dl
	movb	%dl,6(%r15,%rbx)
	addq	$7,%rbx
	jmp	23f
12:
	movl	%ecx,%eax
	shrl	$2,%eax
	movzwl	%ax,%eax
	imull	$5243,%eax,%eax
	shrl	$17,%eax
	cmpq	$999,%rcx
	ja	12f
	movl	%eax,%edx
	orb	$48,%dl
	movb	%dl,6(%r15,%rbx)
	addq	$7,%rbx
	jmp	25f
15:
	movl	%edx,%edi
	movl	$3518437209,%eax
	imulq	%rdi,%rax
	shrq	$45,%rax
	movabsq	$100000000000000,%rdi
	cmpq	%rdi,%rcx
	jae	15f
	movabsq	$10000000000000,%rdi
	cmpq	%rdi,%rcx
	jae	26f
	movl	%eax,%edi
	orb	$48,%dil
	movb	%dil,6(%r15,%rbx)
	addq	$7,%rbx
	jmp	27f
11:
	movzwl	%ax,%edx
	shrl	$2,%edx
	imull	$5243,%edx,%edx
	shrl	$17,%edx
	cmpq	$9999999,%rcx
	ja	11f
	movl	%edx,%esi
	orb	$48,%sil
	movb	%sil,6(%r15,%rbx)
	addq	$7,%rbx
	jmp	28f
3:
	imull	$1311,%edx,%eax
	shrl	$17,%eax
	movabsq	$-8446744073709551616,%rsi
	cmpq	%rsi,%rcx
	jae	3f
	movl	%eax,%esi
	orb	$48,%sil
	movb	%sil,6(%r15,%rbx)
	addq	$7,%rbx
	jmp	29f
13:
	leaq	.Lrtp_static.42(%rip),%rax
	movzwl	(%rax,%rcx,2),%eax
	jmp	13f
17:
	movl	%edx,%eax
	shrl	$2,%eax
	movzwl	%ax,%eax
	imull	$5243,%eax,%eax
	shrl	$17,%eax
	movabsq	$100000000000,%rdi
	cmpq	%rdi,%rcx
	jae	17f
	orb	$48,%al
	movb	%al,6(%r15,%rbx)
	addq	$7,%rbx
	jmp	30f
20:
	movl	%eax,%edx
	leaq	.Lrtp_static.42(%rip),%rsi
	movzwl	(%rsi,%rdx,2),%edx
	movw	%dx,6(%r15,%rbx)
	addq	$8,%rbx
	jmp	21f
22:
	leaq	.Lrtp_static.42(%rip),%rax
	movzwl	(%rax,%rdx,2),%eax
	movw	%ax,6(%r15,%rbx)
	addq	$8,%rbx
	jmp	23f
12:
	movzwl	%ax,%edx
	leaq	.Lrtp_static.42(%rip),%rsi
	movzwl	(%rsi,%rdx,2),%edx
	movw	%dx,6(%r15,%rbx)
	addq	$8,%rbx
25:
	imull	$100,%eax,%eax
	subl	%eax,%ecx
	movzwl	%cx,%eax
	leaq	.Lrtp_static.42(%rip),%rcx
	movzwl	(%rcx,%rax,2),%eax
	movw	%ax,(%r15,%rbx)
	addq	$2,%rbx
	jmp	14f
15:
	movzwl	%ax,%edi
	shrl	$2,%edi
	imull	$5243,%edi,%edi
	shrl	$17,%edi
	movabsq	$1000000000000000,%r8
	cmpq	%r8,%rcx
	jae	12f
	movl	%edi,%r8d
	orb	$48,%r8b
	movb	%r8b,6(%r15,%rbx)
	addq	$7,%rbx
	jmp	15f
11:
	movzwl	%dx,%esi
	leaq	.Lrtp_static.42(%rip),%rdi
	movzwl	(%rdi,%rsi,2),%esi
	movw	%si,6(%r15,%rbx)
	addq	$8,%rbx
28:
	imull	$100,%edx,%edx
	movl	%eax,%esi
	subl	%edx,%esi
	movzwl	%si,%edx
	leaq	.Lrtp_static.42(%rip),%rsi
	movzwl	(%rsi,%rdx,2),%edx
	movw	%dx,(%r15,%rbx)
	addq	$2,%rbx
21:
	imull	$10000,%eax,%eax
	subl	%eax,%ecx
	movzwl	%cx,%eax
	shrl	$2,%eax
	imull	$5243,%eax,%eax
	shrl	$17,%eax
	leaq	.Lrtp_static.42(%rip),%rdx
	movzwl	(%rdx,%rax,2),%esi
	movw	%si,(%r15,%rbx)
	imull	$100,%eax,%eax
	subl	%eax,%ecx
	movzwl	%cx,%eax
	movzwl	(%rdx,%rax,2),%eax
	movw	%ax,2(%r15,%rbx)
	addq	$4,%rbx
	jmp	14f
3:
	movzwl	%ax,%esi
	leaq	.Lrtp_static.42(%rip),%rdi
	movzwl	(%rdi,%rsi,2),%esi
	movw	%si,6(%r15,%rbx)
	addq	$8,%rbx
29:
	imull	$100,%eax,%eax
	subl	%eax,%edx
	movzwl	%dx,%eax
	leaq	.Lrtp_static.42(%rip),%rdx
	movzwl	(%rdx,%rax,2),%eax
	movw	%ax,(%r15,%rbx)
	addq	$2,%rbx
23:
	movabsq	$-6067343680855748867,%rdx
	movq	%rcx,%rax
	mulq	%rdx
	movq	%rdx,%rsi
	shrq	$26,%rsi
	movabsq	$368934881475,%rdx
	movq	%rsi,%rax
	mulq	%rdx
	shrl	%edx
	imulq	$100000000,%rdx,%rax
	imulq	$100000000,%rsi,%rdx
	subq	%rax,%rsi
	imulq	$109951163,%rsi,%rdi
	shrq	$40,%rdi
	imull	$5243,%edi,%r8d
	shrl	$19,%r8d
	leaq	.Lrtp_static.42(%rip),%rax
	movzwl	(%rax,%r8,2),%r9d
	movw	%r9w,(%r15,%rbx)
	imull	$100,%r8d,%r8d
	imull	$10000,%edi,%r9d
	subl	%r8d,%edi
	movzwl	%di,%edi
	movzwl	(%rax,%rdi,2),%edi
	movw	%di,2(%r15,%rbx)
	subl	%r9d,%esi
	imull	$5243,%esi,%edi
	shrl	$19,%edi
	movzwl	(%rax,%rdi,2),%r8d
	movw	%r8w,4(%r15,%rbx)
	imull	$100,%edi,%edi
	subl	%edi,%esi
	movzwl	%si,%esi
	movzwl	(%rax,%rsi,2),%esi
	movw	%si,6(%r15,%rbx)
	subq	%rdx,%rcx
	imulq	$109951163,%rcx,%rdx
	shrq	$40,%rdx
	imull	$5243,%edx,%esi
	shrl	$19,%esi
	movzwl	(%rax,%rsi,2),%edi
	movw	%di,8(%r15,%rbx)
	imull	$100,%esi,%esi
	imull	$10000,%edx,%edi
	subl	%esi,%edx
	movzwl	%dx,%edx
	movzwl	(%rax,%rdx,2),%edx
	movw	%dx,10(%r15,%rbx)
	subl	%edi,%ecx
	imull	$5243,%ecx,%edx
	shrl	$19,%edx
	movzwl	(%rax,%rdx,2),%esi
	movw	%si,12(%r15,%rbx)
	imull	$100,%edx,%edx
	subl	%edx,%ecx
	movzwl	%cx,%ecx
	movzwl	(%rax,%rcx,2),%eax
	movw	%ax,14(%r15,%rbx)
	addq	$16,%rbx
	jmp	14f
16:
	cmpq	$0,240(%rsp)
	movq	248(%rsp),%r12
	je	9f
	movq	40(%rsp),%rdi
	callq	rattle_dealloc@PLT
9:
	movb	$2,328(%rsp)
	movzbl	(%rbp),%eax
	shrb	$5,%al
	andb	$1,%al
	movb	%al,329(%rsp)
	movzbl	(%rbp),%eax
	shrb	$4,%al
	andb	$1,%al
	movb	%al,330(%rsp)
	movzbl	(%rbp),%eax
	pxor	%xmm0,%xmm0
	leaq	356(%rsp),%rcx
	movdqu	%xmm0,44(%rcx)
	movdqu	%xmm0,32(%rcx)
	movdqu	%xmm0,16(%rcx)
	movdqu	%xmm0,(%rcx)
	andl	$15,%eax
	je	3f
	movl	%eax,%ecx
	andl	$3,%ecx
	cmpb	$4,%al
	jae	9f
	xorl	%edx,%edx
	jmp	11f
9:
	movl	%eax,%esi
	andl	$-4,%esi
	xorl	%edx,%edx
	.p2align	4
9:
	movl	12(%rbp,%rdx,4),%edi
	bswapl	%edi
	movl	%edi,356(%rsp,%rdx,4)
	movl	16(%rbp,%rdx,4),%edi
	bswapl	%edi
	movl	%edi,360(%rsp,%rdx,4)
	movl	20(%rbp,%rdx,4),%edi
	bswapl	%edi
	movl	%edi,364(%rsp,%rdx,4)
	movl	24(%rbp,%rdx,4),%edi
	bswapl	%edi
	movl	%edi,368(%rsp,%rdx,4)
	addq	$4,%rdx
	cmpq	%rdx,%rsi
	jne	9b
	testq	%rcx,%rcx
	je	3f
11:
	leaq	356(%rsp),%rsi
	leaq	(%rsi,%rdx,4),%rsi
	leaq	12(,%rdx,4),%rdx
	addq	%rbp,%rdx
	xorl	%edi,%edi
	.p2align	4
9:
	movl	(%rdx,%rdi,4),%r8d
	bswapl	%r8d
	movl	%r8d,(%rsi,%rdi,4)
	incq	%rdi
	cmpq	%rdi,%rcx
	jne	9b
3:
	movq	%rax,336(%rsp)
	movzbl	1(%rbp),%eax
	shrb	$7,%al
	movb	%al,344(%rsp)
	movzbl	1(%rbp),%eax
	andb	$127,%al
	movb	%al,345(%rsp)
	movzwl	2(%rbp),%ebx
	rolw	$8,%bx
	movw	%bx,346(%rsp)
	movl	4(%rbp),%eax
	bswapl	%eax
	movl	%eax,348(%rsp)
	movl	8(%rbp),%r14d
	bswapl	%r14d
	movl	%r14d,352(%rsp)
	movq	%r12,632(%rsp)
	testb	$16,88(%rsp)
	je	3f
	movzbl	(%rbp),%eax
	andl	$15,%eax
	leaq	16(,%rax,4),%rcx
	leaq	16(,%rax,4),%rsi
	addq	%rbp,%rsi
	subq	%rcx,%r12
	movzbl	104(%rsp),%ecx
	movq	320(%rsp),%rdi
	movq	%r12,%rdx
	leaq	416(%rsp),%r8
	callq	"rtp_ext::block_values::read_values::<#77e50c5f4ddfc773>"
	testb	%al,%al
	jne	8f
	movl	352(%rsp),%r14d
	movzwl	346(%rsp),%ebx
3:
	movq	144(%rsp),%rax
	movq	152(%rsp),%r9
	movq	192(%rsp),%r12
	cmpq	%r9,%r12
	jae	3f
	movq	%r12,%rcx
	shlq	$6,%rcx
	cmpl	%r14d,(%rax,%rcx)
	jne	3f
	movq	48(%rsp),%r15
	movq	80(%rsp),%r13
	jmp	9f
3:
	movq	208(%rsp),%rdx
	testq	%rdx,%rdx
	movq	80(%rsp),%r13
	je	3f
	imull	$-1640531535,%r14d,%ecx
	imulq	%rdx,%rcx
	shrq	$32,%rcx
	cmpq	%rdx,%rcx
	jae	11f
	shlq	$5,%rcx
	addq	200(%rsp),%rcx
	movdqu	(%rcx),%xmm0
	movd	%r14d,%xmm1
	pshufd	$0,%xmm1,%xmm1
	pcmpeqd	%xmm0,%xmm1
	movmskps	%xmm1,%edx
	testl	%edx,%edx
	je	11f
	movzbl	%dl,%edx
	rep		bsfl	%edx,%edx
	movl	16(%rcx,%rdx,4),%r12d
	cmpq	%r12,%r9
	jbe	11f
	movq	%r12,%rcx
	shlq	$6,%rcx
	cmpl	%r14d,(%rax,%rcx)
	jne	11f
16:
	movq	%r12,192(%rsp)
	movq	48(%rsp),%r15
9:
	movq	16(%rsp),%rbp
	jmp	9f
3:
	cmpq	$16,%r9
	ja	11f
	testq	%r9,%r9
	je	3f
	xorl	%r12d,%r12d
	movq	%rax,%rcx
	.p2align	4
20:
	cmpl	%r14d,(%rcx)
	je	16b
	addq	$64,%rcx
	incq	%r12
	cmpq	%r12,%r9
	jne	20b
	jmp	3f
11:
	cmpb	$1,168(%rsp)
	jne	3f
	leaq	176(%rsp),%rcx
	jmp	11f
	.p2align	4
16:
	xorl	%edx,%edx
	cmpw	$0,2(%rcx)
	je	3f
20:
	addq	%rdx,%rcx
	addq	$184,%rcx
11:
	movq	(%rcx),%rcx
	movzwl	(%rcx),%esi
	testq	%rsi,%rsi
	movq	48(%rsp),%r15
	movq	16(%rsp),%rbp
	je	16b
	xorl	%edx,%edx
	.p2align	4
11:
	movl	4(%rcx,%rdx,4),%edi
	cmpl	%edi,%r14d
	setae	%r8b
	addb	%r8b,%r8b
	cmpl	%edi,%r14d
	movzbl	%r8b,%r8d
	movl	$1,%edi
	cmovnel	%r8d,%edi
	cmpb	$2,%dil
	jne	16f
	incq	%rdx
	cmpq	%rdx,%rsi
	jne	11b
	movq	%rsi,%rdx
	shlq	$3,%rdx
	cmpw	$0,2(%rcx)
	jne	20b
	jmp	3f
	.p2align	4
16:
	movzbl	%dil,%esi
	testl	%esi,%esi
	jne	11f
	shlq	$3,%rdx
	cmpw	$0,2(%rcx)
	jne	20b
3:
	movq	136(%rsp),%r12
	cmpq	%r9,160(%rsp)
	je	3f
	cmpb	$1,168(%rsp)
	jne	16f
20:
	movq	176(%rsp),%rdx
	jmp	21f
11:
	movq	64(%rcx,%rdx,8),%r12
	movq	%r12,192(%rsp)
	subq	$1,224(%rsp)
	jae	9f
	leaq	192(%rsp),%rdi
	leaq	144(%rsp),%rsi
	movl	%r14d,%edx
	movq	%r12,%rcx
	callq	"rtp_receive::hints::Hints::learn_now"
	movq	144(%rsp),%rax
9:
	shlq	$6,%r12
	cmpb	$0,16(%rax,%r12)
	je	9f
	movq	32(%rax,%r12),%rdi
	subl	%edi,%ebx
	movzwl	%bx,%ecx
	leaq	(%rcx,%rdi),%rdx
	testw	%cx,%cx
	js	11f
	movq	8(%rsp),%rbx
	movq	%rdi,%rcx
	subq	%rdx,%rcx
	jae	22f
23:
	movq	48(%rax,%r12),%r8
	movq	56(%rax,%r12),%rsi
	movq	%rdx,%rcx
	subq	%rdi,%rcx
	cmpq	$1,%rcx
	jne	25f
	shldq	$1,%r8,%rsi
	leaq	1(,%r8,2),%rdi
	jmp	28f
9:
	movq	24(%rax,%r12),%rcx
	shlq	$16,%rcx
	movzwl	%bx,%r11d
	orq	%rcx,%r11
	movq	$1,16(%rax,%r12)
	movq	$0,24(%rax,%r12)
	movq	%r11,32(%rax,%r12)
	movq	$0,40(%rax,%r12)
	movq	$0,56(%rax,%r12)
	movq	$1,48(%rax,%r12)
	movb	$1,%sil
	movb	$1,%r10b
	jmp	7b
18:
	leaq	.Lrtp_static.42(%rip),%rax
	movzwl	(%rax,%rdx,2),%eax
	movw	%ax,6(%r15,%rbx)
	addq	$8,%rbx
	jmp	19f
26:
	movl	%eax,%edi
	leaq	.Lrtp_static.42(%rip),%r8
	movzwl	(%r8,%rdi,2),%edi
	movw	%di,6(%r15,%rbx)
	addq	$8,%rbx
	jmp	27f
17:
	movzwl	%ax,%eax
	leaq	.Lrtp_static.42(%rip),%rdi
	movzwl	(%rdi,%rax,2),%eax
	movw	%ax,6(%r15,%rbx)
	addq	$8,%rbx
30:
	movl	%edx,%eax
	imulq	$1374389535,%rax,%rax
	shrq	$37,%rax
	imull	$100,%eax,%eax
	subl	%eax,%edx
	leaq	.Lrtp_static.42(%rip),%rax
	movzwl	(%rax,%rdx,2),%eax
	movw	%ax,(%r15,%rbx)
	addq	$2,%rbx
	jmp	19f
12:
	movzwl	%di,%r8d
	leaq	.Lrtp_static.42(%rip),%r9
	movzwl	(%r9,%r8,2),%r8d
	movw	%r8w,6(%r15,%rbx)
	addq	$8,%rbx
15:
	imull	$100,%edi,%edi
	movl	%eax,%r8d
	subl	%edi,%r8d
	movzwl	%r8w,%edi
	leaq	.Lrtp_static.42(%rip),%r8
	movzwl	(%r8,%rdi,2),%edi
	movw	%di,(%r15,%rbx)
	addq	$2,%rbx
27:
	imull	$10000,%eax,%eax
	subl	%eax,%edx
	movzwl	%dx,%eax
	shrl	$2,%eax
	imull	$5243,%eax,%eax
	shrl	$17,%eax
	leaq	.Lrtp_static.42(%rip),%rdi
	movzwl	(%rdi,%rax,2),%r8d
	movw	%r8w,(%r15,%rbx)
	imull	$100,%eax,%eax
	subl	%eax,%edx
	movzwl	%dx,%eax
	movzwl	(%rdi,%rax,2),%eax
	movw	%ax,2(%r15,%rbx)
	addq	$4,%rbx
19:
	movq	%rcx,%rax
	mulq	%rsi
	shrq	$26,%rdx
	imulq	$100000000,%rdx,%rax
	subq	%rax,%rcx
	imulq	$109951163,%rcx,%rax
	shrq	$40,%rax
	imull	$5243,%eax,%edx
	shrl	$19,%edx
	leaq	.Lrtp_static.42(%rip),%rsi
	movzwl	(%rsi,%rdx,2),%edi
	movw	%di,(%r15,%rbx)
	imull	$100,%edx,%edx
	imull	$10000,%eax,%edi
	subl	%edx,%eax
	movzwl	%ax,%eax
	movzwl	(%rsi,%rax,2),%eax
	movw	%ax,2(%r15,%rbx)
	subl	%edi,%ecx
	imull	$5243,%ecx,%eax
	shrl	$19,%eax
	movzwl	(%rsi,%rax,2),%edx
	movw	%dx,4(%r15,%rbx)
	imull	$100,%eax,%eax
	subl	%eax,%ecx
	movzwl	%cx,%eax
	movzwl	(%rsi,%rax,2),%eax
13:
	movw	%ax,6(%r15,%rbx)
	addq	$8,%rbx
14:
	movq	632(%rsp),%rcx
	movabsq	$2338042638363879456,%rax
	movq	%rax,(%r15,%rbx)
	cmpq	$99999999,%rcx
	ja	7f
	cmpq	$9999,%rcx
	ja	9f
	cmpq	$99,%rcx
	ja	12f
	cmpq	$9,%rcx
	ja	13f
	orb	$48,%cl
	movb	%cl,8(%r15,%rbx)
	addq	$9,%rbx
	cmpb	$1,566(%rsp)
	je	14f
	.p2align	4
15:
	cmpb	$1,548(%rsp)
	jne	17f
18:
	movq	549(%rsp),%rax
	movb	$32,4(%r15,%rbx)
	movl	$1684632096,(%r15,%rbx)
	addq	$5,%rbx
	movq	%rax,112(%rsp)
	cmpb	$32,%al
	jne	19f
	xorl	%r14d,%r14d
	addq	%r14,%rbx
	cmpb	$1,557(%rsp)
	jne	26f
	jmp	27f
	.p2align	4
7:
	movabsq	$10000000000000000,%rax
	cmpq	%rax,%rcx
	jae	7f
	movabsq	$-6067343680855748867,%rsi
	movq	%rcx,%rax
	mulq	%rsi
	shrq	$26,%rdx
	movabsq	$1000000000000,%rax
	cmpq	%rax,%rcx
	jae	29f
	movabsq	$10000000000,%rax
	cmpq	%rax,%rcx
	jae	30f
	cmpq	$999999999,%rcx
	ja	31f
	orb	$48,%dl
	movb	%dl,8(%r15,%rbx)
	addq	$9,%rbx
	jmp	32f
9:
	movl	%ecx,%edx
	movl	$3518437209,%eax
	imulq	%rdx,%rax
	shrq	$45,%rax
	cmpq	$999999,%rcx
	ja	9f
	cmpq	$99999,%rcx
	ja	33f
	movl	%eax,%edx
	orb	$48,%dl
	movb	%dl,8(%r15,%rbx)
	addq	$9,%rbx
	jmp	34f
19:
	movq	%r10,8(%rsp)
	movq	%r12,24(%rsp)
	movq	%r11,%r12
	movl	%eax,%ecx
	andl	$65280,%ecx
	movl	$1,%r14d
	cmpl	$8192,%ecx
	je	19f
	movl	%eax,%ecx
	andl	$16711680,%ecx
	movl	$2,%r14d
	cmpl	$2097152,%ecx
	je	19f
	movl	%eax,%ecx
	andl	$-16777216,%ecx
	movl	$3,%r14d
	cmpl	$536870912,%ecx
	je	19f
	movabsq	$1095216660480,%rcx
	andq	%rax,%rcx
	movl	$4,%r14d
	movabsq	$137438953472,%rdx
	cmpq	%rdx,%rcx
	je	19f
	movabsq	$280375465082880,%rcx
	andq	%rax,%rcx
	movl	$5,%r14d
	movabsq	$35184372088832,%rdx
	cmpq	%rdx,%rcx
	je	19f
	movabsq	$71776119061217280,%rcx
	andq	%rax,%rcx
	movl	$6,%r14d
	movabsq	$9007199254740992,%rdx
	cmpq	%rdx,%rcx
	je	19f
	shrq	$56,%rax
	xorl	%r14d,%r14d
	cmpl	$32,%eax
	setne	%r14b
	addq	$7,%r14
19:
	leaq	(%r15,%rbx),%rdi
	leaq	112(%rsp),%rsi
	movq	%r14,%rdx
	callq	memcpy@PLT
	movq	%r12,%r11
	movq	24(%rsp),%r12
	movq	8(%rsp),%r10
	addq	%r14,%rbx
	cmpb	$1,557(%rsp)
	je	27f
	.p2align	4
26:
	cmpb	$1,416(%rsp)
	jne	19f
35:
	movzbl	417(%rsp),%eax
	movl	$543974774,3(%r15,%rbx)
	movl	$1986358304,(%r15,%rbx)
	testb	%al,%al
	js	36f
	addq	$7,%rbx
	jmp	37f
7:
	movabsq	$4153837486827862103,%rdx
	movq	%rcx,%rax
	mulq	%rdx
	shrq	$51,%rdx
	movabsq	$1000000000000000000,%rax
	cmpq	%rax,%rcx
	jae	7f
	movabsq	$100000000000000000,%rax
	cmpq	%rax,%rcx
	jae	38f
	orb	$48,%dl
	movb	%dl,8(%r15,%rbx)
	addq	$9,%rbx
	jmp	39f
36:
	movb	$45,7(%r15,%rbx)
	addq	$8,%rbx
37:
	movl	%eax,%ecx
	sarb	$7,%cl
	xorb	%cl,%al
	subb	%cl,%al
	movzbl	%al,%ecx
	cmpb	$99,%cl
	ja	36f
	cmpb	$9,%al
	ja	37f
	orb	$48,%al
	movb	%al,(%r15,%rbx)
	incq	%rbx
	cmpb	$1,418(%rsp)
	jne	40f
	jmp	41f
36:
	movb	$49,(%r15,%rbx)
	movl	%ecx,%eax
	leaq	.Lrtp_static.42(%rip),%rcx
	movzwl	-200(%rcx,%rax,2),%eax
	movw	%ax,1(%r15,%rbx)
	addq	$3,%rbx
	cmpb	$1,418(%rsp)
	je	41f
	.p2align	4
40:
	cmpb	$1,432(%rsp)
	jne	36f
42:
	movq	440(%rsp),%rcx
	movl	$1852142368,(%r15,%rbx)
	movw	$8292,4(%r15,%rbx)
	cmpq	$99999999,%rcx
	ja	43f
	cmpq	$9999,%rcx
	ja	44f
	cmpq	$99,%rcx
	ja	45f
	cmpq	$9,%rcx
	ja	46f
	orb	$48,%cl
	movb	%cl,6(%r15,%rbx)
	addq	$7,%rbx
	cmpb	$1,480(%rsp)
	je	47f
	jmp	10f
43:
	movabsq	$10000000000000000,%rax
	cmpq	%rax,%rcx
	jae	43f
	movabsq	$-6067343680855748867,%rsi
	movq	%rcx,%rax
	mulq	%rsi
	shrq	$26,%rdx
	movabsq	$1000000000000,%rax
	cmpq	%rax,%rcx
	jae	48f
	movabsq	$10000000000,%rax
	cmpq	%rax,%rcx
	jae	49f
	cmpq	$999999999,%rcx
	ja	50f
	orb	$48,%dl
	movb	%dl,6(%r15,%rbx)
	addq	$7,%rbx
	jmp	51f
12:
	movl	%ecx,%eax
	shrl	$2,%eax
	movzwl	%ax,%eax
	imull	$5243,%eax,%eax
	shrl	$17,%eax
	cmpq	$999,%rcx
	ja	12f
	movl	%eax,%edx
	orb	$48,%dl
	movb	%dl,8(%r15,%rbx)
	addq	$9,%rbx
	jmp	52f
29:
	movl	%edx,%edi
	movl	$3518437209,%eax
	imulq	%rdi,%rax
	shrq	$45,%rax
	movabsq	$100000000000000,%rdi
	cmpq	%rdi,%rcx
	jae	29f
	movabsq	$10000000000000,%rdi
	cmpq	%rdi,%rcx
	jae	53f
	movl	%eax,%edi
	orb	$48,%dil
	movb	%dil,8(%r15,%rbx)
	addq	$9,%rbx
	jmp	54f
9:
	movzwl	%ax,%edx
	shrl	$2,%edx
	imull	$5243,%edx,%edx
	shrl	$17,%edx
	cmpq	$9999999,%rcx
	ja	9f
	movl	%edx,%esi
	orb	$48,%sil
	movb	%sil,8(%r15,%rbx)
	addq	$9,%rbx
	jmp	55f
7:
	imull	$1311,%edx,%eax
	shrl	$17,%eax
	movabsq	$-8446744073709551616,%rsi
	cmpq	%rsi,%rcx
	jae	7f
	movl	%eax,%esi
	orb	$48,%sil
	movb	%sil,8(%r15,%rbx)
	addq	$9,%rbx
	jmp	56f
37:
	movl	%ecx,%eax
	leaq	.Lrtp_static.42(%rip),%rcx
	movzwl	(%rcx,%rax,2),%eax
	movw	%ax,(%r15,%rbx)
	addq	$2,%rbx
	cmpb	$1,418(%rsp)
	jne	40b
	jmp	41f
44:
	movl	%ecx,%edx
	movl	$3518437209,%eax
	imulq	%rdx,%rax
	shrq	$45,%rax
	cmpq	$999999,%rcx
	ja	37f
	cmpq	$99999,%rcx
	ja	44f
	movl	%eax,%edx
	orb	$48,%dl
	movb	%dl,6(%r15,%rbx)
	addq	$7,%rbx
	jmp	57f
43:
	movabsq	$4153837486827862103,%rdx
	movq	%rcx,%rax
	mulq	%rdx
	shrq	$51,%rdx
	movabsq	$1000000000000000000,%rax
	cmpq	%rax,%rcx
	jae	43f
	movabsq	$100000000000000000,%rax
	cmpq	%rax,%rcx
	jae	58f
	orb	$48,%dl
	movb	%dl,6(%r15,%rbx)
	addq	$7,%rbx
	jmp	59f
13:
	leaq	.Lrtp_static.42(%rip),%rax
	movzwl	(%rax,%rcx,2),%eax
	movw	%ax,8(%r15,%rbx)
	addq	$10,%rbx
	cmpb	$1,566(%rsp)
	je	14f
	jmp	15b
30:
	movl	%edx,%eax
	shrl	$2,%eax
	movzwl	%ax,%eax
	imull	$5243,%eax,%eax
	shrl	$17,%eax
	movabsq	$100000000000,%rdi
	cmpq	%rdi,%rcx
	jae	13f
	orb	$48,%al
	movb	%al,8(%r15,%rbx)
	addq	$9,%rbx
	jmp	30f
33:
	movl	%eax,%edx
	leaq	.Lrtp_static.42(%rip),%rsi
	movzwl	(%rsi,%rdx,2),%edx
	movw	%dx,8(%r15,%rbx)
	addq	$10,%rbx
	jmp	34f
38:
	leaq	.Lrtp_static.42(%rip),%rax
	movzwl	(%rax,%rdx,2),%eax
	movw	%ax,8(%r15,%rbx)
	addq	$10,%rbx
	jmp	39f
45:
	movl	%ecx,%eax
	shrl	$2,%eax
	movzwl	%ax,%eax
	imull	$5243,%eax,%eax
	shrl	$17,%eax
	cmpq	$999,%rcx
	ja	33f
	movl	%eax,%edx
	orb	$48,%dl
	movb	%dl,6(%r15,%rbx)
	addq	$7,%rbx
	jmp	38f
48:
	movl	%edx,%edi
	movl	$3518437209,%eax
	imulq	%rdi,%rax
	shrq	$45,%rax
	movabsq	$100000000000000,%rdi
	cmpq	%rdi,%rcx
	jae	45f
	movabsq	$10000000000000,%rdi
	cmpq	%rdi,%rcx
	jae	48f
	movl	%eax,%edi
	orb	$48,%dil
	movb	%dil,6(%r15,%rbx)
	addq	$7,%rbx
	jmp	60f
12:
	movzwl	%ax,%edx
	leaq	.Lrtp_static.42(%rip),%rsi
	movzwl	(%rsi,%rdx,2),%edx
	movw	%dx,8(%r15,%rbx)
	addq	$10,%rbx
52:
	imull	$100,%eax,%eax
	subl	%eax,%ecx
	movzwl	%cx,%eax
	leaq	.Lrtp_static.42(%rip),%rcx
	movzwl	(%rcx,%rax,2),%eax
	movw	%ax,(%r15,%rbx)
	addq	$2,%rbx
	cmpb	$1,566(%rsp)
	je	14f
	jmp	15b
29:
	movzwl	%ax,%edi
	shrl	$2,%edi
	imull	$5243,%edi,%edi
	shrl	$17,%edi
	movabsq	$1000000000000000,%r8
	cmpq	%r8,%rcx
	jae	12f
	movl	%edi,%r8d
	orb	$48,%r8b
	movb	%r8b,8(%r15,%rbx)
	addq	$9,%rbx
	jmp	29f
9:
	movzwl	%dx,%esi
	leaq	.Lrtp_static.42(%rip),%rdi
	movzwl	(%rdi,%rsi,2),%esi
	movw	%si,8(%r15,%rbx)
	addq	$10,%rbx
55:
	imull	$100,%edx,%edx
	movl	%eax,%esi
	subl	%edx,%esi
	movzwl	%si,%edx
	leaq	.Lrtp_static.42(%rip),%rsi
	movzwl	(%rsi,%rdx,2),%edx
	movw	%dx,(%r15,%rbx)
	addq	$2,%rbx
34:
	imull	$10000,%eax,%eax
	subl	%eax,%ecx
	movzwl	%cx,%eax
	shrl	$2,%eax
	imull	$5243,%eax,%eax
	shrl	$17,%eax
	leaq	.Lrtp_static.42(%rip),%rdx
	movzwl	(%rdx,%rax,2),%esi
	movw	%si,(%r15,%rbx)
	imull	$100,%eax,%eax
	subl	%eax,%ecx
	movzwl	%cx,%eax
	movzwl	(%rdx,%rax,2),%eax
	movw	%ax,2(%r15,%rbx)
	addq	$4,%rbx
	cmpb	$1,566(%rsp)
	je	14f
	jmp	15b
7:
	movzwl	%ax,%esi
	leaq	.Lrtp_static.42(%rip),%rdi
	movzwl	(%rdi,%rsi,2),%esi
	movw	%si,8(%r15,%rbx)
	addq	$10,%rbx
56:
	imull	$100,%eax,%eax
	subl	%eax,%edx
	movzwl	%dx,%eax
	leaq	.Lrtp_static.42(%rip),%rdx
	movzwl	(%rdx,%rax,2),%eax
	movw	%ax,(%r15,%rbx)
	addq	$2,%rbx
39:
	movabsq	$-6067343680855748867,%rdx
	movq	%rcx,%rax
	mulq	%rdx
	movq	%rdx,%rsi
	shrq	$26,%rsi
	movabsq	$368934881475,%rdx
	movq	%rsi,%rax
	mulq	%rdx
	shrl	%edx
	imulq	$100000000,%rdx,%rax
	imulq	$100000000,%rsi,%rdx
	subq	%rax,%rsi
	imulq	$109951163,%rsi,%rdi
	shrq	$40,%rdi
	imull	$5243,%edi,%r8d
	shrl	$19,%r8d
	leaq	.Lrtp_static.42(%rip),%rax
	movzwl	(%rax,%r8,2),%r9d
	movw	%r9w,(%r15,%rbx)
	imull	$100,%r8d,%r8d
	imull	$10000,%edi,%r9d
	subl	%r8d,%edi
	movzwl	%di,%edi
	movzwl	(%rax,%rdi,2),%edi
	movw	%di,2(%r15,%rbx)
	subl	%r9d,%esi
	imull	$5243,%esi,%edi
	shrl	$19,%edi
	movzwl	(%rax,%rdi,2),%r8d
	movw	%r8w,4(%r15,%rbx)
	imull	$100,%edi,%edi
	subl	%edi,%esi
	movzwl	%si,%esi
	movzwl	(%rax,%rsi,2),%esi
	movw	%si,6(%r15,%rbx)
	subq	%rdx,%rcx
	imulq	$109951163,%rcx,%rdx
	shrq	$40,%rdx
	imull	$5243,%edx,%esi
	shrl	$19,%esi
	movzwl	(%rax,%rsi,2),%edi
	movw	%di,8(%r15,%rbx)
	imull	$100,%esi,%esi
	imull	$10000,%edx,%edi
	subl	%esi,%edx
	movzwl	%dx,%edx
	movzwl	(%rax,%rdx,2),%edx
	movw	%dx,10(%r15,%rbx)
	subl	%edi,%ecx
	imull	$5243,%ecx,%edx
	shrl	$19,%edx
	movzwl	(%rax,%rdx,2),%esi
	movw	%si,12(%r15,%rbx)
	imull	$100,%edx,%edx
	subl	%edx,%ecx
	movzwl	%cx,%ecx
	movzwl	(%rax,%rcx,2),%eax
	movw	%ax,14(%r15,%rbx)
	addq	$16,%rbx
	cmpb	$1,566(%rsp)
	je	14f
	jmp	15b
37:
	movzwl	%ax,%edx
	shrl	$2,%edx
	imull	$5243,%edx,%edx
	shrl	$17,%edx
	cmpq	$9999999,%rcx
	ja	7f
	movl	%edx,%esi
	orb	$48,%sil
	movb	%sil,6(%r15,%rbx)
	addq	$7,%rbx
	jmp	9f
43:
	imull	$1311,%edx,%eax
	shrl	$17,%eax
	movabsq	$-8446744073709551616,%rsi
	cmpq	%rsi,%rcx
	jae	34f
	movl	%eax,%esi
	orb	$48,%sil
	movb	%sil,6(%r15,%rbx)
	addq	$7,%rbx
	jmp	37f
31:
	leaq	.Lrtp_static.42(%rip),%rax
	movzwl	(%rax,%rdx,2),%eax
	movw	%ax,8(%r15,%rbx)
	addq	$10,%rbx
	jmp	32f
46:
	leaq	.Lrtp_static.42(%rip),%rax
	movzwl	(%rax,%rcx,2),%eax
	movw	%ax,6(%r15,%rbx)
	addq	$8,%rbx
	cmpb	$1,480(%rsp)
	je	47f
	jmp	10f
49:
	movl	%edx,%eax
	shrl	$2,%eax
	movzwl	%ax,%eax
	imull	$5243,%eax,%eax
	shrl	$17,%eax
	movabsq	$100000000000,%rdi
	cmpq	%rdi,%rcx
	jae	31f
	orb	$48,%al
	movb	%al,6(%r15,%rbx)
	addq	$7,%rbx
	jmp	39f
53:
	movl	%eax,%edi
	leaq	.Lrtp_static.42(%rip),%r8
	movzwl	(%r8,%rdi,2),%edi
	movw	%di,8(%r15,%rbx)
	addq	$10,%rbx
	jmp	54f
44:
	movl	%eax,%edx
	leaq	.Lrtp_static.42(%rip),%rsi
	movzwl	(%rsi,%rdx,2),%edx
	movw	%dx,6(%r15,%rbx)
	addq	$8,%rbx
	jmp	57f
58:
	leaq	.Lrtp_static.42(%rip),%rax
	movzwl	(%rax,%rdx,2),%eax
	movw	%ax,6(%r15,%rbx)
	addq	$8,%rbx
	jmp	59f
13:
	movzwl	%ax,%eax
	leaq	.Lrtp_static.42(%rip),%rdi
	movzwl	(%rdi,%rax,2),%eax
	movw	%ax,8(%r15,%rbx)
	addq	$10,%rbx
30:
	movl	%edx,%eax
	imulq	$1374389535,%rax,%rax
	shrq	$37,%rax
	imull	$100,%eax,%eax
	subl	%eax,%edx
	leaq	.Lrtp_static.42(%rip),%rax
	movzwl	(%rax,%rdx,2),%eax
	movw	%ax,(%r15,%rbx)
	addq	$2,%rbx
	jmp	32f
33:
	movzwl	%ax,%edx
	leaq	.Lrtp_static.42(%rip),%rsi
	movzwl	(%rsi,%rdx,2),%edx
	movw	%dx,6(%r15,%rbx)
	addq	$8,%rbx
38:
	imull	$100,%eax,%eax
	subl	%eax,%ecx
	movzwl	%cx,%eax
	leaq	.Lrtp_static.42(%rip),%rcx
	movzwl	(%rcx,%rax,2),%eax
	movw	%ax,(%r15,%rbx)
	addq	$2,%rbx
	cmpb	$1,480(%rsp)
	je	47f
	jmp	10f
45:
	movzwl	%ax,%edi
	shrl	$2,%edi
	imull	$5243,%edi,%edi
	shrl	$17,%edi
	movabsq	$1000000000000000,%r8
	cmpq	%r8,%rcx
	jae	13f
	movl	%edi,%r8d
	orb	$48,%r8b
	movb	%r8b,6(%r15,%rbx)
	addq	$7,%rbx
	jmp	30f
12:
	movzwl	%di,%r8d
	leaq	.Lrtp_static.42(%rip),%r9
	movzwl	(%r9,%r8,2),%r8d
	movw	%r8w,8(%r15,%rbx)
	addq	$10,%rbx
29:
	imull	$100,%edi,%edi
	movl	%eax,%r8d
	subl	%edi,%r8d
	movzwl	%r8w,%edi
	leaq	.Lrtp_static.42(%rip),%r8
	movzwl	(%r8,%rdi,2),%edi
	movw	%di,(%r15,%rbx)
	addq	$2,%rbx
54:
	imull	$10000,%eax,%eax
	subl	%eax,%edx
	movzwl	%dx,%eax
	shrl	$2,%eax
	imull	$5243,%eax,%eax
	shrl	$17,%eax
	leaq	.Lrtp_static.42(%rip),%rdi
	movzwl	(%rdi,%rax,2),%r8d
	movw	%r8w,(%r15,%rbx)
	imull	$100,%eax,%eax
	subl	%eax,%edx
	movzwl	%dx,%eax
	movzwl	(%rdi,%rax,2),%eax
	movw	%ax,2(%r15,%rbx)
	addq	$4,%rbx
32:
	movq	%rcx,%rax
	mulq	%rsi
	shrq	$26,%rdx
	imulq	$100000000,%rdx,%rax
	subq	%rax,%rcx
	imulq	$109951163,%rcx,%rax
	shrq	$40,%rax
	imull	$5243,%eax,%edx
	shrl	$19,%edx
	leaq	.Lrtp_static.42(%rip),%rsi
	movzwl	(%rsi,%rdx,2),%edi
	movw	%di,(%r15,%rbx)
	imull	$100,%edx,%edx
	imull	$10000,%eax,%edi
	subl	%edx,%eax
	movzwl	%ax,%eax
	movzwl	(%rsi,%rax,2),%eax
	movw	%ax,2(%r15,%rbx)
	subl	%edi,%ecx
	imull	$5243,%ecx,%eax
	shrl	$19,%eax
	movzwl	(%rsi,%rax,2),%edx
	movw	%dx,4(%r15,%rbx)
	imull	$100,%eax,%eax
	subl	%eax,%ecx
	movzwl	%cx,%eax
	movzwl	(%rsi,%rax,2),%eax
	movw	%ax,6(%r15,%rbx)
	addq	$8,%rbx
	cmpb	$1,566(%rsp)
	jne	15b
14:
	movdqu	567(%rsp),%xmm0
	movb	$32,4(%r15,%rbx)
	movl	$1684630816,(%r15,%rbx)
	movdqa	%xmm0,112(%rsp)
	pcmpeqb	.Lrtp_CPI6_7(%rip),%xmm0
	addq	$5,%rbx
	pmovmskb	%xmm0,%eax
	xorl	$65535,%eax
	popcntl	%eax,%r14d
	je	12f
	leaq	(%r15,%rbx),%rdi
	leaq	112(%rsp),%rsi
	movq	%r14,%rdx
	movq	%r13,%rbp
	movq	%r12,%r13
	movq	%r11,%r12
	movq	%r10,%r15
	callq	memcpy@PLT
	movq	%r15,%r10
	movq	%r12,%r11
	movq	%r13,%r12
	movq	%rbp,%r13
	movq	16(%rsp),%rbp
	movq	48(%rsp),%r15
12:
	addq	%r14,%rbx
	cmpb	$1,548(%rsp)
	je	18b
17:
	cmpb	$1,557(%rsp)
	jne	26b
27:
	movq	558(%rsp),%rax
	movabsq	$7310021012394177056,%rcx
	movq	%rcx,(%r15,%rbx)
	movw	$8292,8(%r15,%rbx)
	addq	$10,%rbx
	movq	%rax,112(%rsp)
	cmpb	$32,%al
	jne	12f
	xorl	%r14d,%r14d
	addq	%r14,%rbx
	cmpb	$1,416(%rsp)
	jne	19f
	jmp	35b
12:
	movq	%r10,8(%rsp)
	movq	%r12,24(%rsp)
	movq	%r11,%r12
	movl	%eax,%ecx
	andl	$65280,%ecx
	movl	$1,%r14d
	cmpl	$8192,%ecx
	je	12f
	movl	%eax,%ecx
	andl	$16711680,%ecx
	movl	$2,%r14d
	cmpl	$2097152,%ecx
	je	12f
	movl	%eax,%ecx
	andl	$-16777216,%ecx
	movl	$3,%r14d
	cmpl	$536870912,%ecx
	je	12f
	movabsq	$1095216660480,%rcx
	andq	%rax,%rcx
	movl	$4,%r14d
	movabsq	$137438953472,%rdx
	cmpq	%rdx,%rcx
	je	12f
	movabsq	$280375465082880,%rcx
	andq	%rax,%rcx
	movl	$5,%r14d
	movabsq	$35184372088832,%rdx
	cmpq	%rdx,%rcx
	je	12f
	movabsq	$71776119061217280,%rcx
	andq	%rax,%rcx
	movl	$6,%r14d
	movabsq	$9007199254740992,%rdx
	cmpq	%rdx,%rcx
	je	12f
	shrq	$56,%rax
	xorl	%r14d,%r14d
	cmpl	$32,%eax
	setne	%r14b
	addq	$7,%r14
12:
	leaq	(%r15,%rbx),%rdi
	leaq	112(%rsp),%rsi
	movq	%r14,%rdx
	callq	memcpy@PLT
	movq	%r12,%r11
	movq	24(%rsp),%r12
	movq	8(%rsp),%r10
	addq	%r14,%rbx
	cmpb	$1,416(%rsp)
	je	35b
	.p2align	4
19:
	cmpb	$1,418(%rsp)
	jne	40b
41:
	testb	$1,419(%rsp)
	movl	$543515497,3(%r15,%rbx)
	movl	$1768912416,(%r15,%rbx)
	leaq	7(%r15,%rbx),%rax
	je	12f
	movb	$115,2(%rax)
	movw	$25977,(%rax)
	addq	$10,%rbx
	cmpb	$1,432(%rsp)
	jne	36f
	jmp	42b
12:
	movw	$28526,(%rax)
	addq	$9,%rbx
	cmpb	$1,432(%rsp)
	je	42b
	.p2align	4
36:
	cmpb	$1,480(%rsp)
	jne	10f
47:
	movzwl	482(%rsp),%eax
	movabsq	$8030045053520081952,%rcx
	movq	%rcx,(%r15,%rbx)
	movl	$544502383,7(%r15,%rbx)
	cmpl	$9999,%eax
	ja	12f
	cmpw	$99,%ax
	ja	14f
	cmpw	$9,%ax
	ja	15f
	orb	$48,%al
	movb	%al,11(%r15,%rbx)
	addq	$12,%rbx
	jmp	10f
12:
	movl	%eax,%ecx
	shrl	$4,%ecx
	imull	$839,%ecx,%ecx
	shrl	$19,%ecx
	leal	48(%rcx),%edx
	movb	%dl,11(%r15,%rbx)
	imull	$10000,%ecx,%ecx
	subl	%ecx,%eax
	movzwl	%ax,%ecx
	imull	$5243,%ecx,%ecx
	shrl	$19,%ecx
	leaq	.Lrtp_static.42(%rip),%rdx
	movzwl	(%rdx,%rcx,2),%esi
	movw	%si,12(%r15,%rbx)
	imull	$100,%ecx,%ecx
	subl	%ecx,%eax
	movzwl	%ax,%eax
	movzwl	(%rdx,%rax,2),%eax
	movw	%ax,14(%r15,%rbx)
	addq	$16,%rbx
	jmp	10f
14:
	movl	%eax,%ecx
	shrl	$2,%ecx
	imull	$5243,%ecx,%ecx
	shrl	$17,%ecx
	cmpl	$999,%eax
	ja	12f
	movl	%ecx,%edx
	orb	$48,%dl
	movb	%dl,11(%r15,%rbx)
	addq	$12,%rbx
	jmp	14f
15:
	leaq	.Lrtp_static.42(%rip),%rcx
	movzwl	(%rcx,%rax,2),%eax
	movw	%ax,11(%r15,%rbx)
	addq	$13,%rbx
	jmp	10f
12:
	movzwl	%cx,%edx
	leaq	.Lrtp_static.42(%rip),%rsi
	movzwl	(%rsi,%rdx,2),%edx
	movw	%dx,11(%r15,%rbx)
	addq	$13,%rbx
14:
	imull	$100,%ecx,%ecx
	subl	%ecx,%eax
	movzwl	%ax,%eax
	leaq	.Lrtp_static.42(%rip),%rcx
	movzwl	(%rcx,%rax,2),%eax
	movw	%ax,(%r15,%rbx)
	addq	$2,%rbx
	jmp	10f
7:
	movzwl	%dx,%esi
	leaq	.Lrtp_static.42(%rip),%rdi
	movzwl	(%rdi,%rsi,2),%esi
	movw	%si,6(%r15,%rbx)
	addq	$8,%rbx
9:
	imull	$100,%edx,%edx
	movl	%eax,%esi
	subl	%edx,%esi
	movzwl	%si,%edx
	leaq	.Lrtp_static.42(%rip),%rsi
	movzwl	(%rsi,%rdx,2),%edx
	movw	%dx,(%r15,%rbx)
	addq	$2,%rbx
57:
	imull	$10000,%eax,%eax
	subl	%eax,%ecx
	movzwl	%cx,%eax
	shrl	$2,%eax
	imull	$5243,%eax,%eax
	shrl	$17,%eax
	leaq	.Lrtp_static.42(%rip),%rdx
	movzwl	(%rdx,%rax,2),%esi
	movw	%si,(%r15,%rbx)
	imull	$100,%eax,%eax
	subl	%eax,%ecx
	movzwl	%cx,%eax
	movzwl	(%rdx,%rax,2),%eax
	movw	%ax,2(%r15,%rbx)
	addq	$4,%rbx
	cmpb	$1,480(%rsp)
	je	47b
	jmp	10f
34:
	movzwl	%ax,%esi
	leaq	.Lrtp_static.42(%rip),%rdi
	movzwl	(%rdi,%rsi,2),%esi
	movw	%si,6(%r15,%rbx)
	addq	$8,%rbx
37:
	imull	$100,%eax,%eax
	subl	%eax,%edx
	movzwl	%dx,%eax
	leaq	.Lrtp_static.42(%rip),%rdx
	movzwl	(%rdx,%rax,2),%eax
	movw	%ax,(%r15,%rbx)
	addq	$2,%rbx
59:
	movabsq	$-6067343680855748867,%rdx
	movq	%rcx,%rax
	mulq	%rdx
	movq	%rdx,%rsi
	shrq	$26,%rsi
	movabsq	$368934881475,%rdx
	movq	%rsi,%rax
	mulq	%rdx
	shrl	%edx
	imulq	$100000000,%rdx,%rax
	imulq	$100000000,%rsi,%rdx
	subq	%rax,%rsi
	imulq	$109951163,%rsi,%rdi
	shrq	$40,%rdi
	imull	$5243,%edi,%r8d
	shrl	$19,%r8d
	leaq	.Lrtp_static.42(%rip),%rax
	movzwl	(%rax,%r8,2),%r9d
	movw	%r9w,(%r15,%rbx)
	imull	$100,%r8d,%r8d
	imull	$10000,%edi,%r9d
	subl	%r8d,%edi
	movzwl	%di,%edi
	movzwl	(%rax,%rdi,2),%edi
	movw	%di,2(%r15,%rbx)
	subl	%r9d,%esi
	imull	$5243,%esi,%edi
	shrl	$19,%edi
	movzwl	(%rax,%rdi,2),%r8d
	movw	%r8w,4(%r15,%rbx)
	imull	$100,%edi,%edi
	subl	%edi,%esi
	movzwl	%si,%esi
	movzwl	(%rax,%rsi,2),%esi
	movw	%si,6(%r15,%rbx)
	subq	%rdx,%rcx
	imulq	$109951163,%rcx,%rdx
	shrq	$40,%rdx
	imull	$5243,%edx,%esi
	shrl	$19,%esi
	movzwl	(%rax,%rsi,2),%edi
	movw	%di,8(%r15,%rbx)
	imull	$100,%esi,%esi
	imull	$10000,%edx,%edi
	subl	%esi,%edx
	movzwl	%dx,%edx
	movzwl	(%rax,%rdx,2),%edx
	movw	%dx,10(%r15,%rbx)
	subl	%edi,%ecx
	imull	$5243,%ecx,%edx
	shrl	$19,%edx
	movzwl	(%rax,%rdx,2),%esi
	movw	%si,12(%r15,%rbx)
	imull	$100,%edx,%edx
	subl	%edx,%ecx
	movzwl	%cx,%ecx
	movzwl	(%rax,%rcx,2),%eax
	movw	%ax,14(%r15,%rbx)
	addq	$16,%rbx
	cmpb	$1,480(%rsp)
	je	47b
	jmp	10f
11:
	leaq	-65536(%rdx),%rcx
	negw	%bx
	cmovnoq	%rcx,%rdx
	testw	%di,%di
	cmovsq	%rcx,%rdx
	movq	8(%rsp),%rbx
	movq	%rdi,%rcx
	subq	%rdx,%rcx
	jb	23b
22:
	movb	$2,%r10b
	movb	$1,%sil
	cmpq	$127,%rcx
	jbe	7f
	xorl	%r11d,%r11d
	jmp	24b
50:
	leaq	.Lrtp_static.42(%rip),%rax
	movzwl	(%rax,%rdx,2),%eax
	movw	%ax,6(%r15,%rbx)
	addq	$8,%rbx
	jmp	51f
48:
	movl	%eax,%edi
	leaq	.Lrtp_static.42(%rip),%r8
	movzwl	(%r8,%rdi,2),%edi
	movw	%di,6(%r15,%rbx)
	addq	$8,%rbx
	jmp	60f
31:
	movzwl	%ax,%eax
	leaq	.Lrtp_static.42(%rip),%rdi
	movzwl	(%rdi,%rax,2),%eax
	movw	%ax,6(%r15,%rbx)
	addq	$8,%rbx
39:
	movl	%edx,%eax
	imulq	$1374389535,%rax,%rax
	shrq	$37,%rax
	imull	$100,%eax,%eax
	subl	%eax,%edx
	leaq	.Lrtp_static.42(%rip),%rax
	movzwl	(%rax,%rdx,2),%eax
	movw	%ax,(%r15,%rbx)
	addq	$2,%rbx
	jmp	51f
13:
	movzwl	%di,%r8d
	leaq	.Lrtp_static.42(%rip),%r9
	movzwl	(%r9,%r8,2),%r8d
	movw	%r8w,6(%r15,%rbx)
	addq	$8,%rbx
30:
	imull	$100,%edi,%edi
	movl	%eax,%r8d
	subl	%edi,%r8d
	movzwl	%r8w,%edi
	leaq	.Lrtp_static.42(%rip),%r8
	movzwl	(%r8,%rdi,2),%edi
	movw	%di,(%r15,%rbx)
	addq	$2,%rbx
60:
	imull	$10000,%eax,%eax
	subl	%eax,%edx
	movzwl	%dx,%eax
	shrl	$2,%eax
	imull	$5243,%eax,%eax
	shrl	$17,%eax
	leaq	.Lrtp_static.42(%rip),%rdi
	movzwl	(%rdi,%rax,2),%r8d
	movw	%r8w,(%r15,%rbx)
	imull	$100,%eax,%eax
	subl	%eax,%edx
	movzwl	%dx,%eax
	movzwl	(%rdi,%rax,2),%eax
	movw	%ax,2(%r15,%rbx)
	addq	$4,%rbx
51:
	movq	%rcx,%rax
	mulq	%rsi
	shrq	$26,%rdx
	imulq	$100000000,%rdx,%rax
	subq	%rax,%rcx
	imulq	$109951163,%rcx,%rax
	shrq	$40,%rax
	imull	$5243,%eax,%edx
	shrl	$19,%edx
	leaq	.Lrtp_static.42(%rip),%rsi
	movzwl	(%rsi,%rdx,2),%edi
	movw	%di,(%r15,%rbx)
	imull	$100,%edx,%edx
	imull	$10000,%eax,%edi
	subl	%edx,%eax
	movzwl	%ax,%eax
	movzwl	(%rsi,%rax,2),%eax
	movw	%ax,2(%r15,%rbx)
	subl	%edi,%ecx
	imull	$5243,%ecx,%eax
	shrl	$19,%eax
	movzwl	(%rsi,%rax,2),%edx
	movw	%dx,4(%r15,%rbx)
	imull	$100,%eax,%eax
	subl	%eax,%ecx
	movzwl	%cx,%eax
	movzwl	(%rsi,%rax,2),%eax
	movw	%ax,6(%r15,%rbx)
	addq	$8,%rbx
	cmpb	$1,480(%rsp)
	je	47b
	.p2align	4
10:
	movb	$10,(%r15,%rbx)
	movabsq	$2338603410820064630,%rax
	movq	%rax,1(%r15,%rbx)
	cmpq	$99999999,%r13
	ja	9f
	cmpq	$9999,%r13
	ja	10f
	cmpq	$99,%r13
	ja	11f
	cmpq	$9,%r13
	ja	12f
	movl	%r13d,%eax
	orb	$48,%al
	movb	%al,9(%r15,%rbx)
	addq	$10,%rbx
	movw	$8250,(%r15,%rbx)
	leaq	(%r15,%rbx),%rax
	addq	$2,%rax
	cmpb	$2,%r10b
	jne	13f
	jmp	14f
	.p2align	4
9:
	movabsq	$10000000000000000,%rax
	cmpq	%rax,%r13
	jae	9f
	movabsq	$-6067343680855748867,%rcx
	movq	%r13,%rax
	mulq	%rcx
	shrq	$26,%rdx
	movabsq	$1000000000000,%rax
	cmpq	%rax,%r13
	jae	15f
	movabsq	$10000000000,%rax
	cmpq	%rax,%r13
	jae	17f
	cmpq	$999999999,%r13
	ja	18f
	orb	$48,%dl
	movb	%dl,9(%r15,%rbx)
	addq	$10,%rbx
	jmp	19f
	.p2align	4
10:
	movl	%r13d,%ecx
	movl	$3518437209,%eax
	imulq	%rcx,%rax
	shrq	$45,%rax
	cmpq	$999999,%r13
	ja	10f
	cmpq	$99999,%r13
	ja	22f
	movl	%eax,%ecx
	orb	$48,%cl
	movb	%cl,9(%r15,%rbx)
	addq	$10,%rbx
	jmp	23f
	.p2align	4
9:
	movabsq	$4153837486827862103,%rcx
	movq	%r13,%rax
	mulq	%rcx
	shrq	$51,%rdx
	movabsq	$1000000000000000000,%rax
	cmpq	%rax,%r13
	jae	9f
	movabsq	$100000000000000000,%rax
	cmpq	%rax,%r13
	jae	26f
	orb	$48,%dl
	movb	%dl,9(%r15,%rbx)
	addq	$10,%rbx
	jmp	27f
11:
	movl	%r13d,%eax
	shrl	$2,%eax
	movzwl	%ax,%eax
	imull	$5243,%eax,%eax
	shrl	$17,%eax
	cmpq	$999,%r13
	ja	11f
	movl	%eax,%ecx
	orb	$48,%cl
	movb	%cl,9(%r15,%rbx)
	addq	$10,%rbx
	jmp	29f
15:
	movl	%edx,%esi
	movl	$3518437209,%eax
	imulq	%rsi,%rax
	shrq	$45,%rax
	movabsq	$100000000000000,%rsi
	cmpq	%rsi,%r13
	jae	15f
	movabsq	$10000000000000,%rsi
	cmpq	%rsi,%r13
	jae	30f
	movl	%eax,%esi
	orb	$48,%sil
	movb	%sil,9(%r15,%rbx)
	addq	$10,%rbx
	jmp	31f
10:
	movzwl	%ax,%ecx
	shrl	$2,%ecx
	imull	$5243,%ecx,%ecx
	shrl	$17,%ecx
	cmpq	$9999999,%r13
	ja	10f
	movl	%ecx,%edx
	orb	$48,%dl
	movb	%dl,9(%r15,%rbx)
	addq	$10,%rbx
	jmp	32f
9:
	imull	$1311,%edx,%eax
	shrl	$17,%eax
	movabsq	$-8446744073709551616,%rcx
	cmpq	%rcx,%r13
	jae	9f
	movl	%eax,%ecx
	orb	$48,%cl
	movb	%cl,9(%r15,%rbx)
	addq	$10,%rbx
	jmp	33f
12:
	leaq	.Lrtp_static.42(%rip),%rax
	movzwl	(%rax,%r13,2),%eax
	movw	%ax,9(%r15,%rbx)
	addq	$11,%rbx
	movw	$8250,(%r15,%rbx)
	leaq	(%r15,%rbx),%rax
	addq	$2,%rax
	cmpb	$2,%r10b
	jne	13f
	jmp	14f
17:
	movl	%edx,%eax
	shrl	$2,%eax
	movzwl	%ax,%eax
	imull	$5243,%eax,%eax
	shrl	$17,%eax
	movabsq	$100000000000,%rsi
	cmpq	%rsi,%r13
	jae	12f
	orb	$48,%al
	movb	%al,9(%r15,%rbx)
	addq	$10,%rbx
	jmp	17f
22:
	movl	%eax,%ecx
	leaq	.Lrtp_static.42(%rip),%rdx
	movzwl	(%rdx,%rcx,2),%ecx
	movw	%cx,9(%r15,%rbx)
	addq	$11,%rbx
	jmp	23f
26:
	leaq	.Lrtp_static.42(%rip),%rax
	movzwl	(%rax,%rdx,2),%eax
	movw	%ax,9(%r15,%rbx)
	addq	$11,%rbx
	jmp	27f
11:
	movzwl	%ax,%ecx
	leaq	.Lrtp_static.42(%rip),%rdx
	movzwl	(%rdx,%rcx,2),%ecx
	movw	%cx,9(%r15,%rbx)
	addq	$11,%rbx
29:
	imull	$100,%eax,%eax
	movl	%r13d,%ecx
	subl	%eax,%ecx
	movzwl	%cx,%eax
	leaq	.Lrtp_static.42(%rip),%rcx
	movzwl	(%rcx,%rax,2),%eax
	movw	%ax,(%r15,%rbx)
	addq	$2,%rbx
	movw	$8250,(%r15,%rbx)
	leaq	(%r15,%rbx),%rax
	addq	$2,%rax
	cmpb	$2,%r10b
	jne	13f
	jmp	14f
15:
	movzwl	%ax,%esi
	shrl	$2,%esi
	imull	$5243,%esi,%esi
	shrl	$17,%esi
	movabsq	$1000000000000000,%rdi
	cmpq	%rdi,%r13
	jae	11f
	movl	%esi,%edi
	orb	$48,%dil
	movb	%dil,9(%r15,%rbx)
	addq	$10,%rbx
	jmp	15f
10:
	movzwl	%cx,%edx
	leaq	.Lrtp_static.42(%rip),%rsi
	movzwl	(%rsi,%rdx,2),%edx
	movw	%dx,9(%r15,%rbx)
	addq	$11,%rbx
32:
	imull	$100,%ecx,%ecx
	movl	%eax,%edx
	subl	%ecx,%edx
	movzwl	%dx,%ecx
	leaq	.Lrtp_static.42(%rip),%rdx
	movzwl	(%rdx,%rcx,2),%ecx
	movw	%cx,(%r15,%rbx)
	addq	$2,%rbx
23:
	imull	$10000,%eax,%eax
	movl	%r13d,%ecx
	subl	%eax,%ecx
	movzwl	%cx,%eax
	shrl	$2,%eax
	imull	$5243,%eax,%eax
	shrl	$17,%eax
	leaq	.Lrtp_static.42(%rip),%rdx
	movzwl	(%rdx,%rax,2),%esi
	movw	%si,(%r15,%rbx)
	imull	$100,%eax,%eax
	subl	%eax,%ecx
	movzwl	%cx,%eax
	movzwl	(%rdx,%rax,2),%eax
	movw	%ax,2(%r15,%rbx)
	addq	$4,%rbx
	movw	$8250,(%r15,%rbx)
	leaq	(%r15,%rbx),%rax
	addq	$2,%rax
	cmpb	$2,%r10b
	je	14f
13:
	movzbl	%r10b,%ecx
	cmpl	$1,%ecx
	jne	10f
	movw	$8302,4(%rax)
	movl	$1701536116,(%rax)
	cmpq	$99999999,%r11
	ja	22f
	cmpq	$9999,%r11
	ja	23f
	cmpq	$99,%r11
	ja	26f
	cmpq	$9,%r11
	ja	29f
	orb	$48,%r11b
	movb	%r11b,8(%r15,%rbx)
	jmp	32f
	.p2align	4
10:
	movabsq	$7089057657934474869,%rcx
	movq	%rcx,(%rax)
	movw	$25964,8(%rax)
	addq	$12,%rbx
	jmp	10f
22:
	movabsq	$10000000000000000,%rax
	cmpq	%rax,%r11
	jae	22f
	movabsq	$-6067343680855748867,%rcx
	movq	%r11,%rax
	mulq	%rcx
	shrq	$26,%rdx
	movabsq	$1000000000000,%rax
	cmpq	%rax,%r11
	jae	34f
	movabsq	$10000000000,%rax
	cmpq	%rax,%r11
	jae	35f
	cmpq	$999999999,%r11
	ja	36f
	orb	$48,%dl
	movb	%dl,8(%r15,%rbx)
	addq	$9,%rbx
	movq	%rbx,%r10
	jmp	37f
23:
	movl	%r11d,%ecx
	movl	$3518437209,%eax
	imulq	%rcx,%rax
	shrq	$45,%rax
	cmpq	$999999,%r11
	ja	23f
	cmpq	$99999,%r11
	ja	38f
	movl	%eax,%ecx
	orb	$48,%cl
	movb	%cl,8(%r15,%rbx)
	addq	$9,%rbx
	movq	%rbx,%r10
	jmp	39f
22:
	movabsq	$4153837486827862103,%rcx
	movq	%r11,%rax
	mulq	%rcx
	shrq	$51,%rdx
	movabsq	$1000000000000000000,%rax
	cmpq	%rax,%r11
	jae	22f
	movabsq	$100000000000000000,%rax
	cmpq	%rax,%r11
	jae	40f
	orb	$48,%dl
	movb	%dl,8(%r15,%rbx)
	addq	$9,%rbx
	movq	%rbx,%r10
	jmp	41f
9:
	movzwl	%ax,%ecx
	leaq	.Lrtp_static.42(%rip),%rsi
	movzwl	(%rsi,%rcx,2),%ecx
	movw	%cx,9(%r15,%rbx)
	addq	$11,%rbx
33:
	imull	$100,%eax,%eax
	subl	%eax,%edx
	movzwl	%dx,%eax
	leaq	.Lrtp_static.42(%rip),%rcx
	movzwl	(%rcx,%rax,2),%eax
	movw	%ax,(%r15,%rbx)
	addq	$2,%rbx
27:
	movabsq	$-6067343680855748867,%rcx
	movq	%r13,%rax
	mulq	%rcx
	movq	%rdx,%rcx
	shrq	$26,%rcx
	movabsq	$368934881475,%rdx
	movq	%rcx,%rax
	mulq	%rdx
	shrl	%edx
	imulq	$100000000,%rdx,%rax
	imulq	$100000000,%rcx,%rdx
	subq	%rax,%rcx
	imulq	$109951163,%rcx,%rsi
	shrq	$40,%rsi
	imull	$5243,%esi,%edi
	shrl	$19,%edi
	leaq	.Lrtp_static.42(%rip),%rax
	movzwl	(%rax,%rdi,2),%r8d
	movw	%r8w,(%r15,%rbx)
	imull	$100,%edi,%edi
	imull	$10000,%esi,%r8d
	subl	%edi,%esi
	movzwl	%si,%esi
	movzwl	(%rax,%rsi,2),%esi
	movw	%si,2(%r15,%rbx)
	subl	%r8d,%ecx
	imull	$5243,%ecx,%esi
	shrl	$19,%esi
	movzwl	(%rax,%rsi,2),%edi
	movw	%di,4(%r15,%rbx)
	imull	$100,%esi,%esi
	subl	%esi,%ecx
	movzwl	%cx,%ecx
	movzwl	(%rax,%rcx,2),%ecx
	movw	%cx,6(%r15,%rbx)
	movq	%r13,%rcx
	subq	%rdx,%rcx
	imulq	$109951163,%rcx,%rdx
	shrq	$40,%rdx
	imull	$5243,%edx,%esi
	shrl	$19,%esi
	movzwl	(%rax,%rsi,2),%edi
	movw	%di,8(%r15,%rbx)
	imull	$100,%esi,%esi
	imull	$10000,%edx,%edi
	subl	%esi,%edx
	movzwl	%dx,%edx
	movzwl	(%rax,%rdx,2),%edx
	movw	%dx,10(%r15,%rbx)
	subl	%edi,%ecx
	imull	$5243,%ecx,%edx
	shrl	$19,%edx
	movzwl	(%rax,%rdx,2),%esi
	movw	%si,12(%r15,%rbx)
	imull	$100,%edx,%edx
	subl	%edx,%ecx
	movzwl	%cx,%ecx
	movzwl	(%rax,%rcx,2),%eax
	movw	%ax,14(%r15,%rbx)
	addq	$16,%rbx
	movw	$8250,(%r15,%rbx)
	leaq	(%r15,%rbx),%rax
	addq	$2,%rax
	cmpb	$2,%r10b
	jne	13b
	jmp	14f
26:
	movl	%r11d,%eax
	shrl	$2,%eax
	movzwl	%ax,%eax
	imull	$5243,%eax,%eax
	shrl	$17,%eax
	cmpq	$999,%r11
	ja	9f
	movl	%eax,%ecx
	orb	$48,%cl
	movb	%cl,8(%r15,%rbx)
	addq	$9,%rbx
	jmp	26f
34:
	movl	%edx,%esi
	movl	$3518437209,%eax
	imulq	%rsi,%rax
	shrq	$45,%rax
	movabsq	$100000000000000,%rsi
	cmpq	%rsi,%r11
	jae	27f
	movabsq	$10000000000000,%rsi
	cmpq	%rsi,%r11
	jae	33f
	movl	%eax,%esi
	orb	$48,%sil
	movb	%sil,8(%r15,%rbx)
	addq	$9,%rbx
	movq	%rbx,%r10
	jmp	34f
23:
	movzwl	%ax,%ecx
	shrl	$2,%ecx
	imull	$5243,%ecx,%ecx
	shrl	$17,%ecx
	cmpq	$9999999,%r11
	ja	23f
	movl	%ecx,%edx
	orb	$48,%dl
	movb	%dl,8(%r15,%rbx)
	addq	$9,%rbx
	jmp	42f
22:
	imull	$1311,%edx,%eax
	shrl	$17,%eax
	movabsq	$-8446744073709551616,%rcx
	cmpq	%rcx,%r11
	jae	22f
	movl	%eax,%ecx
	orb	$48,%cl
	movb	%cl,8(%r15,%rbx)
	addq	$9,%rbx
	jmp	43f
18:
	leaq	.Lrtp_static.42(%rip),%rax
	movzwl	(%rax,%rdx,2),%eax
	movw	%ax,9(%r15,%rbx)
	addq	$11,%rbx
	jmp	19f
30:
	movl	%eax,%esi
	leaq	.Lrtp_static.42(%rip),%rdi
	movzwl	(%rdi,%rsi,2),%esi
	movw	%si,9(%r15,%rbx)
	addq	$11,%rbx
	jmp	31f
12:
	movzwl	%ax,%eax
	leaq	.Lrtp_static.42(%rip),%rsi
	movzwl	(%rsi,%rax,2),%eax
	movw	%ax,9(%r15,%rbx)
	addq	$11,%rbx
17:
	movl	%edx,%eax
	imulq	$1374389535,%rax,%rax
	shrq	$37,%rax
	imull	$100,%eax,%eax
	subl	%eax,%edx
	leaq	.Lrtp_static.42(%rip),%rax
	movzwl	(%rax,%rdx,2),%eax
	movw	%ax,(%r15,%rbx)
	addq	$2,%rbx
	jmp	19f
11:
	movzwl	%si,%edi
	leaq	.Lrtp_static.42(%rip),%r8
	movzwl	(%r8,%rdi,2),%edi
	movw	%di,9(%r15,%rbx)
	addq	$11,%rbx
15:
	imull	$100,%esi,%esi
	movl	%eax,%edi
	subl	%esi,%edi
	movzwl	%di,%esi
	leaq	.Lrtp_static.42(%rip),%rdi
	movzwl	(%rdi,%rsi,2),%esi
	movw	%si,(%r15,%rbx)
	addq	$2,%rbx
31:
	imull	$10000,%eax,%eax
	subl	%eax,%edx
	movzwl	%dx,%eax
	shrl	$2,%eax
	imull	$5243,%eax,%eax
	shrl	$17,%eax
	leaq	.Lrtp_static.42(%rip),%rsi
	movzwl	(%rsi,%rax,2),%edi
	movw	%di,(%r15,%rbx)
	imull	$100,%eax,%eax
	subl	%eax,%edx
	movzwl	%dx,%eax
	movzwl	(%rsi,%rax,2),%eax
	movw	%ax,2(%r15,%rbx)
	addq	$4,%rbx
19:
	movq	%r13,%rax
	mulq	%rcx
	shrq	$26,%rdx
	imulq	$100000000,%rdx,%rcx
	movq	%r13,%rax
	subq	%rcx,%rax
	imulq	$109951163,%rax,%rcx
	shrq	$40,%rcx
	imull	$5243,%ecx,%edx
	shrl	$19,%edx
	leaq	.Lrtp_static.42(%rip),%rsi
	movzwl	(%rsi,%rdx,2),%edi
	movw	%di,(%r15,%rbx)
	imull	$100,%edx,%edx
	imull	$10000,%ecx,%edi
	subl	%edx,%ecx
	movzwl	%cx,%ecx
	movzwl	(%rsi,%rcx,2),%ecx
	movw	%cx,2(%r15,%rbx)
	subl	%edi,%eax
	imull	$5243,%eax,%ecx
	shrl	$19,%ecx
	movzwl	(%rsi,%rcx,2),%edx
	movw	%dx,4(%r15,%rbx)
	imull	$100,%ecx,%ecx
	subl	%ecx,%eax
	movzwl	%ax,%eax
	movzwl	(%rsi,%rax,2),%eax
	movw	%ax,6(%r15,%rbx)
	addq	$8,%rbx
	movw	$8250,(%r15,%rbx)
	leaq	(%r15,%rbx),%rax
	addq	$2,%rax
	cmpb	$2,%r10b
	jne	13b
14:
	movl	$1684370293,3(%rax)
	movl	$1969644914,(%rax)
32:
	addq	$9,%rbx
10:
	movq	%rbx,%r10
11:
	movb	$10,(%r15,%r10)
	leaq	1(%r10),%rsi
	cmpq	$8190,%r10
	jbe	5b
	movq	%r15,%rdi
	callq	"rtp_listing::printing::write_text::<#df9e9f1468b30f79>"
	testb	%al,%al
	je	4b
	jmp	4f
29:
	leaq	.Lrtp_static.42(%rip),%rax
	movzwl	(%rax,%r11,2),%eax
	movw	%ax,8(%r15,%rbx)
	addq	$10,%rbx
	jmp	10b
35:
	movl	%edx,%eax
	shrl	$2,%eax
	movzwl	%ax,%eax
	imull	$5243,%eax,%eax
	shrl	$17,%eax
	movabsq	$100000000000,%rsi
	cmpq	%rsi,%r11
	jae	5f
	orb	$48,%al
	movb	%al,8(%r15,%rbx)
	addq	$9,%rbx
	jmp	10f
38:
	movl	%eax,%ecx
	leaq	.Lrtp_static.42(%rip),%rdx
	movzwl	(%rdx,%rcx,2),%ecx
	movw	%cx,8(%r15,%rbx)
	addq	$10,%rbx
	movq	%rbx,%r10
	jmp	39f
40:
	leaq	.Lrtp_static.42(%rip),%rax
	movzwl	(%rax,%rdx,2),%eax
	movw	%ax,8(%r15,%rbx)
	addq	$10,%rbx
	movq	%rbx,%r10
	jmp	41f
9:
	movzwl	%ax,%ecx
	leaq	.Lrtp_static.42(%rip),%rdx
	movzwl	(%rdx,%rcx,2),%ecx
	movw	%cx,8(%r15,%rbx)
	addq	$10,%rbx
26:
	movq	%rbx,%r10
	imull	$100,%eax,%eax
	subl	%eax,%r11d
	movzwl	%r11w,%eax
	leaq	.Lrtp_static.42(%rip),%rcx
	movzwl	(%rcx,%rax,2),%eax
	movw	%ax,(%r15,%rbx)
	addq	$2,%r10
	jmp	11b
27:
	movzwl	%ax,%esi
	shrl	$2,%esi
	imull	$5243,%esi,%edi
	shrl	$17,%edi
	movabsq	$1000000000000000,%rsi
	cmpq	%rsi,%r11
	jae	9f
	movl	%edi,%esi
	orb	$48,%sil
	movb	%sil,8(%r15,%rbx)
	addq	$9,%rbx
	jmp	12f
23:
	movzwl	%cx,%edx
	leaq	.Lrtp_static.42(%rip),%rsi
	movzwl	(%rsi,%rdx,2),%edx
	movw	%dx,8(%r15,%rbx)
	addq	$10,%rbx
42:
	movq	%rbx,%r10
	imull	$100,%ecx,%ecx
	movl	%eax,%edx
	subl	%ecx,%edx
	movzwl	%dx,%ecx
	leaq	.Lrtp_static.42(%rip),%rdx
	movzwl	(%rdx,%rcx,2),%ecx
	movw	%cx,(%r15,%rbx)
	addq	$2,%r10
39:
	imull	$10000,%eax,%eax
	subl	%eax,%r11d
	movzwl	%r11w,%eax
	shrl	$2,%eax
	imull	$5243,%eax,%eax
	shrl	$17,%eax
	leaq	.Lrtp_static.42(%rip),%rcx
	movzwl	(%rcx,%rax,2),%edx
	movw	%dx,(%r15,%r10)
	imull	$100,%eax,%eax
	subl	%eax,%r11d
	movzwl	%r11w,%eax
	movzwl	(%rcx,%rax,2),%eax
	movw	%ax,2(%r15,%r10)
	addq	$4,%r10
	jmp	11b
22:
	movzwl	%ax,%ecx
	leaq	.Lrtp_static.42(%rip),%rsi
	movzwl	(%rsi,%rcx,2),%ecx
	movw	%cx,8(%r15,%rbx)
	addq	$10,%rbx
43:
	movq	%rbx,%r10
	imull	$100,%eax,%eax
	subl	%eax,%edx
	movzwl	%dx,%eax
	leaq	.Lrtp_static.42(%rip),%rcx
	movzwl	(%rcx,%rax,2),%eax
	movw	%ax,(%r15,%rbx)
	addq	$2,%r10
41:
	movabsq	$-6067343680855748867,%rcx
	movq	%r11,%rax
	mulq	%rcx
	movq	%rdx,%rcx
	shrq	$26,%rcx
	movabsq	$368934881475,%rdx
	movq	%rcx,%rax
	mulq	%rdx
	shrl	%edx
	imulq	$100000000,%rdx,%rax
	imulq	$100000000,%rcx,%rdx
	subq	%rax,%rcx
	imulq	$109951163,%rcx,%rdi
	shrq	$40,%rdi
	imull	$5243,%edi,%r8d
	shrl	$19,%r8d
	leaq	.Lrtp_static.42(%rip),%rax
	movzwl	(%rax,%r8,2),%r9d
	movw	%r9w,(%r15,%r10)
	imull	$100,%r8d,%r8d
	imull	$10000,%edi,%r9d
	subl	%r8d,%edi
	movzwl	%di,%edi
	movzwl	(%rax,%rdi,2),%edi
	movw	%di,2(%r15,%r10)
	subl	%r9d,%ecx
	imull	$5243,%ecx,%edi
	shrl	$19,%edi
	movzwl	(%rax,%rdi,2),%r8d
	movw	%r8w,4(%r15,%r10)
	imull	$100,%edi,%edi
	subl	%edi,%ecx
	movzwl	%cx,%ecx
	movzwl	(%rax,%rcx,2),%ecx
	movw	%cx,6(%r15,%r10)
	subq	%rdx,%r11
	imulq	$109951163,%r11,%rcx
	shrq	$40,%rcx
	imull	$5243,%ecx,%edx
	shrl	$19,%edx
	movzwl	(%rax,%rdx,2),%edi
	movw	%di,8(%r15,%r10)
	imull	$100,%edx,%edx
	imull	$10000,%ecx,%edi
	subl	%edx,%ecx
	movzwl	%cx,%ecx
	movzwl	(%rax,%rcx,2),%ecx
	movw	%cx,10(%r15,%r10)
	subl	%edi,%r11d
	imull	$5243,%r11d,%ecx
	shrl	$19,%ecx
	movzwl	(%rax,%rcx,2),%edx
	movw	%dx,12(%r15,%r10)
	imull	$100,%ecx,%ecx
	subl	%ecx,%r11d
	movzwl	%r11w,%ecx
	movzwl	(%rax,%rcx,2),%eax
	movw	%ax,14(%r15,%r10)
	addq	$16,%r10
	jmp	11b
36:
	leaq	.Lrtp_static.42(%rip),%rax
	movzwl	(%rax,%rdx,2),%eax
	movw	%ax,8(%r15,%rbx)
	addq	$10,%rbx
	movq	%rbx,%r10
	jmp	37f
33:
	movl	%eax,%esi
	leaq	.Lrtp_static.42(%rip),%rdi
	movzwl	(%rdi,%rsi,2),%esi
	movw	%si,8(%r15,%rbx)
	addq	$10,%rbx
	movq	%rbx,%r10
	jmp	34f
5:
	movzwl	%ax,%eax
	leaq	.Lrtp_static.42(%rip),%rsi
	movzwl	(%rsi,%rax,2),%eax
	movw	%ax,8(%r15,%rbx)
	addq	$10,%rbx
10:
	movq	%rbx,%r10
	movl	%edx,%eax
	imulq	$1374389535,%rax,%rax
	shrq	$37,%rax
	imull	$100,%eax,%eax
	subl	%eax,%edx
	leaq	.Lrtp_static.42(%rip),%rax
	movzwl	(%rax,%rdx,2),%eax
	movw	%ax,(%r15,%rbx)
	addq	$2,%r10
	jmp	37f
9:
	movzwl	%di,%esi
	leaq	.Lrtp_static.42(%rip),%r8
	movzwl	(%r8,%rsi,2),%esi
	movw	%si,8(%r15,%rbx)
	addq	$10,%rbx
12:
	movq	%rbx,%r10
	imull	$100,%edi,%edi
	movl	%eax,%r8d
	subl	%edi,%r8d
	movzwl	%r8w,%edi
	leaq	.Lrtp_static.42(%rip),%r8
	movzwl	(%r8,%rdi,2),%edi
	movw	%di,(%r15,%rbx)
	addq	$2,%r10
34:
	imull	$10000,%eax,%eax
	subl	%eax,%edx
	movzwl	%dx,%eax
	shrl	$2,%eax
	imull	$5243,%eax,%eax
	shrl	$17,%eax
	leaq	.Lrtp_static.42(%rip),%rdi
	movzwl	(%rdi,%rax,2),%r8d
	movw	%r8w,(%r15,%r10)
	imull	$100,%eax,%eax
	subl	%eax,%edx
	movzwl	%dx,%eax
	movzwl	(%rdi,%rax,2),%eax
	movw	%ax,2(%r15,%r10)
	addq	$4,%r10
37:
	movq	%r11,%rax
	mulq	%rcx
	shrq	$26,%rdx
	imulq	$100000000,%rdx,%rax
	subq	%rax,%r11
	imulq	$109951163,%r11,%rax
	shrq	$40,%rax
	imull	$5243,%eax,%ecx
	shrl	$19,%ecx
	leaq	.Lrtp_static.42(%rip),%rdx
	movzwl	(%rdx,%rcx,2),%edi
	movw	%di,(%r15,%r10)
	imull	$100,%ecx,%ecx
	imull	$10000,%eax,%edi
	subl	%ecx,%eax
	movzwl	%ax,%eax
	movzwl	(%rdx,%rax,2),%eax
	movw	%ax,2(%r15,%r10)
	subl	%edi,%r11d
	imull	$5243,%r11d,%eax
	shrl	$19,%eax
	movzwl	(%rdx,%rax,2),%ecx
	movw	%cx,4(%r15,%r10)
	imull	$100,%eax,%eax
	subl	%eax,%r11d
	movzwl	%r11w,%eax
	movzwl	(%rdx,%rax,2),%eax
	movw	%ax,6(%r15,%r10)
	addq	$8,%r10
	jmp	11b
25:
	cmpq	$127,%rcx
	ja	5f
	shldq	%cl,%r8,%rsi
	shlq	%cl,%r8
	xorl	%edi,%edi
	testb	$64,%cl
	cmovneq	%r8,%rsi
	cmoveq	%r8,%rdi
	orq	$1,%rdi
	jmp	28f
7:
	movl	$1,%edi
	xorl	%r8d,%r8d
	shldq	%cl,%rdi,%r8
	xorl	%r9d,%r9d
	shlq	%cl,%rdi
	testb	$64,%cl
	cmovneq	%rdi,%r8
	cmovneq	%r9,%rdi
	movq	48(%rax,%r12),%r9
	movq	56(%rax,%r12),%rcx
	movq	%rcx,%r10
	andq	%r8,%r10
	movq	%r9,%r11
	andq	%rdi,%r11
	orq	%r10,%r11
	movb	$2,%r10b
	movl	$0,%r11d
	jne	24b
	orq	%r8,%rcx
	orq	%rdi,%r9
	movq	%r9,48(%rax,%r12)
	movq	%rcx,56(%rax,%r12)
	jmp	7f
5:
	movl	$1,%edi
	xorl	%esi,%esi
28:
	movq	%rdi,48(%rax,%r12)
	movq	%rsi,56(%rax,%r12)
	movq	%rdx,32(%rax,%r12)
7:
	movb	$1,%sil
	movb	$1,%r10b
	movq	%rdx,%r11
	jmp	24b
3:
	leaq	144(%rsp),%rdi
	callq	"std_alloc::vec::Vec::grow_amortized::<#fc13275a563fcb41>"
	testb	%al,%al
	je	8f
	movq	152(%rsp),%r9
	cmpb	$1,168(%rsp)
	je	20b
16:
	movl	$184,%edi
	movl	$8,%esi
	movq	%r9,%r15
	callq	rattle_alloc@PLT
	testb	$1,%al
	je	8f
	movq	%r15,%r9
	movl	$0,(%rdx)
	movzbl	168(%rsp),%eax
	movq	$1,168(%rsp)
	movq	%rdx,176(%rsp)
	cmpb	$1,%al
	je	3f
21:
	shlq	$16,%r12
	movzwl	%bx,%r11d
	orq	%r12,%r11
	movzwl	2(%rdx),%eax
	movl	$15,%r12d
	subq	%rax,%r12
	movq	%rax,40(%rsp)
	movl	%eax,%r13d
	negb	%r13b
	xorl	%ebx,%ebx
	movq	%rdx,%rsi
	xorl	%r15d,%r15d
	movq	%rdx,%r10
	movq	%r12,96(%rsp)
	xorl	%ebp,%ebp
5:
	movq	%rsi,%rcx
	movzwl	(%rsi),%esi
	xorl	%eax,%eax
	testq	%rsi,%rsi
	je	7f
	.p2align	4
9:
	movl	4(%rcx,%rax,4),%edi
	cmpl	%edi,%r14d
	setae	%r8b
	addb	%r8b,%r8b
	cmpl	%edi,%r14d
	movzbl	%r8b,%r8d
	movl	$1,%edi
	cmovnel	%r8d,%edi
	cmpb	$2,%dil
	jne	10f
	incq	%rax
	cmpq	%rax,%rsi
	jne	9b
	movq	%rsi,%rax
	jmp	7f
	.p2align	4
10:
	movzbl	%dil,%esi
	testl	%esi,%esi
	jne	9f
7:
	shlq	$4,%rbp
	addq	%rax,%rbp
	incq	%r12
	cmpw	$0,2(%rcx)
	je	7f
	movq	184(%rcx,%rax,8),%rsi
	incq	%rbx
	incb	%r13b
	movq	%rax,%r15
	movq	%rcx,%r10
	jmp	5b
9:
	andl	$15,%eax
	movq	40(%rsp),%rcx
	addq	%r12,%rcx
	cmpq	$15,%rcx
	leaq	184(%r10,%r15,8),%rcx
	leaq	176(%rsp),%rdx
	cmoveq	%rdx,%rcx
	movq	(%rcx),%rcx
	movzwl	(%rcx),%edx
	cmpq	%rdx,%rax
	movq	48(%rsp),%r15
	jae	3f
	movq	%r9,64(%rcx,%rax,8)
5:
	movq	80(%rsp),%r13
	movq	16(%rsp),%rbp
	movq	8(%rsp),%rbx
	movq	144(%rsp),%rax
	movq	152(%rsp),%rcx
	movq	%rcx,%rdx
	shlq	$6,%rdx
	movl	%r14d,(%rax,%rdx)
	movq	$1,16(%rax,%rdx)
	movq	$0,24(%rax,%rdx)
	movq	%r11,32(%rax,%rdx)
	movq	$0,40(%rax,%rdx)
	movq	$0,56(%rax,%rdx)
	movq	$1,48(%rax,%rdx)
	incq	%rcx
	movq	%rcx,152(%rsp)
	movb	$1,%sil
	movb	$1,%r10b
	jmp	24b
7:
	movabsq	$9223372036854775806,%rax
	cmpq	%rax,184(%rsp)
	ja	8f
	movq	%r12,%rax
	movq	96(%rsp),%rsi
	subq	%rsi,%rax
	movq	%rax,296(%rsp)
	cmpq	$1,%rax
	leaq	184(%r10,%r15,8),%rax
	leaq	176(%rsp),%rcx
	cmoveq	%rcx,%rax
	movq	(%rax),%rax
	cmpw	$15,(%rax)
	movq	%r11,264(%rsp)
	jb	7f
	cmpw	$15,(%rdx)
	movq	%rsi,%rax
	jb	9f
	cmpw	$10,40(%rsp)
	ja	8f
	movl	$312,%edi
	movl	$8,%esi
	movq	%r15,104(%rsp)
	movq	%r9,%r15
	movq	%r10,88(%rsp)
	callq	rattle_alloc@PLT
	movq	88(%rsp),%r10
	movq	%r15,%r9
	movq	104(%rsp),%r15
	movq	264(%rsp),%r11
	testb	$1,%al
	je	8f
	movq	40(%rsp),%rcx
	leal	1(%rcx),%eax
	movw	%ax,2(%rdx)
	movq	176(%rsp),%rax
	movq	%rax,184(%rdx)
	movw	$0,(%rdx)
	movq	%rdx,176(%rsp)
	movl	$14,%eax
	subq	%rcx,%rax
9:
	pxor	%xmm0,%xmm0
	movdqa	%xmm0,112(%rsp)
	movq	%r12,%rcx
	subq	%rax,%rcx
	movq	%rcx,296(%rsp)
	jbe	9f
	movl	%r12d,%ecx
	subl	%eax,%ecx
	testb	$3,%cl
	je	10f
	subb	%al,%r13b
	movzbl	%r13b,%ecx
	andl	$3,%ecx
11:
	movl	%ebp,%esi
	andb	$15,%sil
	movb	%sil,111(%rsp,%r12)
	decq	%r12
	shrq	$4,%rbp
	decq	%rcx
	jne	11b
10:
	addq	96(%rsp),%rbx
	subq	%rax,%rbx
	cmpq	$3,%rbx
	jb	9f
10:
	movl	%ebp,%ecx
	andb	$15,%cl
	movb	%cl,111(%rsp,%r12)
	movl	%ebp,%ecx
	shrb	$4,%cl
	movb	%cl,110(%rsp,%r12)
	movl	%ebp,%ecx
	shrl	$8,%ecx
	andb	$15,%cl
	movb	%cl,109(%rsp,%r12)
	movl	%ebp,%ecx
	shrl	$12,%ecx
	andb	$15,%cl
	movb	%cl,108(%rsp,%r12)
	addq	$-4,%r12
	shrq	$16,%rbp
	cmpq	%r12,%rax
	jb	10b
9:
	movdqa	112(%rsp),%xmm0
	movdqa	%xmm0,672(%rsp)
	movl	$16,%r13d
	subq	%rax,%r13
	cmpq	$2,%r13
	jb	9f
	leaq	(%rsp,%rax),%rbp
	addq	$672,%rbp
	leaq	176(%rsp),%r15
	movq	%r9,256(%rsp)
	jmp	10f
11:
	incl	%ecx
	movb	%cl,(%rbp)
	addb	$-8,%al
	movb	%al,1(%rbp)
12:
	movzbl	%cl,%ecx
	leaq	(%r10,%rcx,8),%r15
	addq	$184,%r15
	incq	%rbp
	cmpq	$2,%r13
	leaq	-1(%r13),%r13
	jbe	13f
10:
	movzbl	(%rbp),%ecx
	movq	(%r15),%r10
	leal	(,%rcx,8),%edx
	movq	184(%r10,%rdx),%rax
	cmpw	$15,(%rax)
	jb	12b
	movq	%rdx,96(%rsp)
	movq	%rcx,40(%rsp)
	movzwl	2(%r10),%ebx
	decq	%rbx
	movq	%r13,104(%rsp)
	movq	%rbp,248(%rsp)
	je	10f
	movl	$312,%edi
	jmp	14f
10:
	movl	$184,%edi
14:
	movl	$8,%esi
	callq	rattle_alloc@PLT
	testb	$1,%al
	je	10f
	movq	%rdx,%r12
	movw	%bx,2(%rdx)
	leaq	4(%rdx),%rdi
	leaq	64(%rdx),%r9
	movq	%r15,240(%rsp)
	movq	(%r15),%rdx
	movq	%rdx,88(%rsp)
	movzwl	(%rdx),%eax
	xorl	%r8d,%r8d
	cmpw	$0,2(%rdx)
	movq	%rax,288(%rsp)
	leaq	1(%rax),%rcx
	cmovneq	%rcx,%r8
	movq	96(%rsp),%rax
	movq	184(%rdx,%rax),%rbp
	movzwl	2(%rbp),%r13d
	movzwl	(%rbp),%r11d
	leaq	-8(%r11),%rbx
	leaq	36(%rbp),%rsi
	leaq	-32(,%r11,4),%rdx
	movq	%rdi,%rax
	subq	%rsi,%rax
	cmpq	%rdx,%rax
	movq	%rcx,312(%rsp)
	movq	%r8,304(%rsp)
	movw	%r13w,272(%rsp)
	jae	14f
	testq	%rbx,%rbx
	je	15f
	cmpl	$8,%ebx
	jb	16f
	movq	%r12,%rax
	subq	%rbp,%rax
	addq	$-32,%rax
	cmpq	$32,%rax
	jae	17f
16:
	xorl	%eax,%eax
16:
	movq	%r11,%rdx
	movq	%rax,%rcx
	andq	$3,%rdx
	je	18f
	movq	%rax,%rcx
	.p2align	4
19:
	movl	(%rsi,%rcx,4),%r8d
	movl	%r8d,(%rdi,%rcx,4)
	incq	%rcx
	decq	%rdx
	jne	19b
18:
	negq	%rax
	addq	%r11,%rax
	addq	$-9,%rax
	cmpl	$3,%eax
	jb	18f
	.p2align	4
19:
	movl	36(%rbp,%rcx,4),%eax
	movl	%eax,4(%r12,%rcx,4)
	movl	40(%rbp,%rcx,4),%eax
	movl	%eax,8(%r12,%rcx,4)
	movl	44(%rbp,%rcx,4),%eax
	movl	%eax,12(%r12,%rcx,4)
	movl	48(%rbp,%rcx,4),%eax
	movl	%eax,16(%r12,%rcx,4)
	addq	$4,%rcx
	cmpq	%rcx,%rbx
	jne	19b
	jmp	18f
14:
	movq	%r11,%r15
	movq	%r9,%r13
	callq	memmove@PLT
	movq	%r13,%r9
	movq	%r15,%r11
18:
	leaq	128(%rbp),%rsi
	leaq	(,%rbx,8),%rdx
	movq	%r9,%rax
	subq	%rsi,%rax
	cmpq	%rdx,%rax
	jae	14f
	testq	%rbx,%rbx
	movq	88(%rsp),%r10
	movzwl	272(%rsp),%r8d
	je	19f
	cmpl	$4,%ebx
	jb	20f
	movq	%r12,%rax
	subq	%rbp,%rax
	addq	$-64,%rax
	cmpq	$32,%rax
	jae	21f
20:
	xorl	%eax,%eax
20:
	movq	%r11,%rdx
	movq	%rax,%rcx
	andq	$3,%rdx
	je	22f
	movq	%rax,%rcx
	.p2align	4
23:
	movq	(%rsi,%rcx,8),%rdi
	movq	%rdi,(%r9,%rcx,8)
	incq	%rcx
	decq	%rdx
	jne	23b
22:
	negq	%rax
	addq	%r11,%rax
	addq	$-9,%rax
	cmpl	$3,%eax
	jb	19f
22:
	movq	128(%rbp,%rcx,8),%rax
	movq	%rax,64(%r12,%rcx,8)
	movq	136(%rbp,%rcx,8),%rax
	movq	%rax,72(%r12,%rcx,8)
	movq	144(%rbp,%rcx,8),%rax
	movq	%rax,80(%r12,%rcx,8)
	movq	152(%rbp,%rcx,8),%rax
	movq	%rax,88(%r12,%rcx,8)
	addq	$4,%rcx
	cmpq	%rcx,%rbx
	jne	22b
	jmp	19f
14:
	movq	%r11,%r15
	jmp	14f
15:
	movq	%r11,%r15
	leaq	128(%rbp),%rsi
	xorl	%edx,%edx
14:
	movq	%r9,%rdi
	callq	memmove@PLT
	movq	88(%rsp),%r10
	movq	%r15,%r11
	movzwl	272(%rsp),%r8d
19:
	movq	%rbx,%r15
	movl	32(%rbp),%r13d
	movq	120(%rbp),%r9
	testw	%r8w,%r8w
	je	14f
	leaq	184(%r12),%rdi
	leaq	248(%rbp),%rsi
	leaq	-56(,%r11,8),%rdx
	movq	%rdi,%rax
	subq	%rsi,%rax
	cmpq	%rdx,%rax
	jae	15f
	movq	%r11,%rax
	addq	$-7,%rax
	je	14f
	cmpl	$4,%eax
	jb	22f
	movq	%r12,%rcx
	subq	%rbp,%rcx
	addq	$-64,%rcx
	cmpq	$32,%rcx
	jae	23f
22:
	xorl	%ecx,%ecx
22:
	movq	%r9,%rbx
	movl	%r11d,%r8d
	notl	%r8d
	movq	%rcx,%rdx
	testb	$3,%r8b
	je	24f
	leal	1(%r11),%r8d
	andl	$3,%r8d
	movq	%rcx,%rdx
25:
	movq	(%rsi,%rdx,8),%r9
	movq	%r9,(%rdi,%rdx,8)
	incq	%rdx
	decq	%r8
	jne	25b
24:
	negq	%rcx
	addq	%r11,%rcx
	addq	$-8,%rcx
	cmpl	$3,%ecx
	movq	%rbx,%r9
	jb	14f
24:
	movq	248(%rbp,%rdx,8),%rcx
	movq	%rcx,184(%r12,%rdx,8)
	movq	256(%rbp,%rdx,8),%rcx
	movq	%rcx,192(%r12,%rdx,8)
	movq	264(%rbp,%rdx,8),%rcx
	movq	%rcx,200(%r12,%rdx,8)
	movq	272(%rbp,%rdx,8),%rcx
	movq	%rcx,208(%r12,%rdx,8)
	addq	$4,%rdx
	cmpq	%rdx,%rax
	jne	24b
	jmp	14f
15:
	movq	%r9,%rbx
	callq	memmove@PLT
	movq	%rbx,%r9
	movq	88(%rsp),%r10
14:
	leaq	184(%r10),%rsi
	leaq	64(%r10),%rbx
	leaq	4(%r10),%rax
	movw	$7,(%rbp)
	movw	%r15w,(%r12)
	movq	40(%rsp),%rcx
	movq	%rbp,(%rsi,%rcx,8)
	leaq	(%rax,%rcx,4),%r15
	movq	288(%rsp),%rbp
	cmpl	%ecx,%ebp
	jne	15f
	movl	%r13d,(%r15)
	jmp	24f
15:
	leaq	4(%r15),%rdi
	subq	%rcx,%rbp
	leaq	(,%rbp,4),%rdx
	movq	%rsi,288(%rsp)
	movq	%r15,%rsi
	movq	%r9,272(%rsp)
	callq	memmove@PLT
	movl	%r13d,(%r15)
	movq	96(%rsp),%rax
	leaq	(%rbx,%rax),%rsi
	leaq	(%rbx,%rax),%rdi
	addq	$8,%rdi
	shlq	$3,%rbp
	movq	%rbp,%rdx
	callq	memmove@PLT
	movq	288(%rsp),%rsi
	movq	272(%rsp),%r9
	movq	40(%rsp),%rcx
24:
	movq	104(%rsp),%r13
	movq	248(%rsp),%rbp
	movq	304(%rsp),%rdx
	movq	%r9,(%rbx,%rcx,8)
	movq	%rcx,%rax
	incq	%rax
	cmpl	%eax,%edx
	jne	15f
	shll	$3,%edx
	jmp	24f
15:
	leal	(,%rax,8),%ebx
	leaq	(%rsi,%rbx),%rdi
	addq	$8,%rdi
	addq	%rbx,%rsi
	subq	%rax,%rdx
	shlq	$3,%rdx
	callq	memmove@PLT
	movq	40(%rsp),%rcx
	movq	%rbx,%rdx
24:
	movq	264(%rsp),%r11
	movq	256(%rsp),%r9
	movq	88(%rsp),%r10
	movq	312(%rsp),%rax
	movq	%r12,184(%r10,%rdx)
	movw	%ax,(%r10)
	movq	240(%rsp),%rax
	movq	%r10,(%rax)
	movzbl	1(%rbp),%eax
	cmpb	$7,%al
	ja	11b
	movzbl	(%rbp),%ecx
	jmp	12b
17:
	movq	%rbx,%rax
	andq	$-8,%rax
	xorl	%ecx,%ecx
11:
	movdqu	36(%rbp,%rcx,4),%xmm0
	movdqu	52(%rbp,%rcx,4),%xmm1
	movdqu	%xmm0,4(%r12,%rcx,4)
	movdqu	%xmm1,20(%r12,%rcx,4)
	addq	$8,%rcx
	cmpq	%rcx,%rax
	jne	11b
	cmpl	%eax,%ebx
	je	18b
	jmp	16b
21:
	movq	%rbx,%rax
	andq	$-4,%rax
	xorl	%ecx,%ecx
11:
	movdqu	128(%rbp,%rcx,8),%xmm0
	movdqu	144(%rbp,%rcx,8),%xmm1
	movdqu	%xmm0,64(%r12,%rcx,8)
	movdqu	%xmm1,80(%r12,%rcx,8)
	addq	$4,%rcx
	cmpq	%rcx,%rax
	jne	11b
	cmpl	%eax,%ebx
	je	19b
	jmp	20b
23:
	movq	%rax,%rcx
	andq	$-4,%rcx
	xorl	%edx,%edx
11:
	movdqu	248(%rbp,%rdx,8),%xmm0
	movdqu	264(%rbp,%rdx,8),%xmm1
	movdqu	%xmm0,184(%r12,%rdx,8)
	movdqu	%xmm1,200(%r12,%rdx,8)
	addq	$4,%rdx
	cmpq	%rdx,%rcx
	jne	11b
	cmpl	%ecx,%eax
	je	14b
	jmp	22b
13:
	movq	176(%rsp),%rdx
	movq	%rcx,%r15
9:
	cmpw	$0,(%rdx)
	je	9f
	cmpb	$1,168(%rsp)
	jne	3f
	movzbl	687(%rsp),%ebp
7:
	shlq	$3,%r15
	cmpq	$1,296(%rsp)
	leaq	184(%r10,%r15),%rcx
	leaq	176(%rsp),%rax
	cmoveq	%rax,%rcx
	andl	$15,%ebp
	movq	(%rcx),%r13
	movzwl	(%r13),%ebx
	movq	%rbx,%r12
	movl	%ebp,%eax
	leaq	4(,%rax,4),%r15
	addq	%r13,%r15
	subq	%rbp,%r12
	jne	7f
	movl	%r14d,(%r15)
	shll	$3,%ebp
	jmp	11f
7:
	leaq	4(%r15),%rdi
	leaq	(,%r12,4),%rdx
	movq	%r15,%rsi
	movq	%r9,256(%rsp)
	movq	%rcx,40(%rsp)
	callq	memmove@PLT
	movl	%r14d,(%r15)
	shll	$3,%ebp
	leaq	64(%r13),%rsi
	leaq	(%rsi,%rbp),%rdi
	addq	$8,%rdi
	addq	%rbp,%rsi
	shlq	$3,%r12
	movq	%r12,%rdx
	callq	memmove@PLT
	movq	40(%rsp),%rcx
	movq	256(%rsp),%r9
	movq	264(%rsp),%r11
11:
	movq	48(%rsp),%r15
	incl	%ebx
	movq	%r9,64(%r13,%rbp)
	movw	%bx,(%r13)
	movq	%r13,(%rcx)
	incq	184(%rsp)
	jmp	5b
1:
	cmpb	$1,592(%rsp)
	jne	1f
	movq	608(%rsp),%rbx
	movq	616(%rsp),%rcx
	movq	624(%rsp),%rax
	movq	%rax,16(%rsp)
	movq	%rcx,24(%rsp)
	testq	%rcx,%rcx
	je	5f
	xorl	%r13d,%r13d
	jmp	7f
	.p2align	4
11:
	incq	%r13
	cmpq	24(%rsp),%r13
	je	5f
7:
	leaq	(,%r13,2),%rax
	addq	%r13,%rax
	movq	(%rbx,%rax,8),%r14
	movq	8(%rbx,%rax,8),%r15
	movq	16(%rbx,%rax,8),%rbp
	testq	%r15,%r15
	je	7f
	leaq	16(%r14),%r12
	jmp	12f
	.p2align	4
13:
	addq	$32,%r12
	decq	%r15
	je	7f
12:
	cmpq	$0,(%r12)
	je	13b
	movq	-16(%r12),%rdi
	callq	rattle_dealloc@PLT
	jmp	13b
	.p2align	4
7:
	testq	%rbp,%rbp
	je	11b
	movq	%r14,%rdi
	callq	rattle_dealloc@PLT
	jmp	11b
5:
	cmpq	$0,16(%rsp)
	je	1f
	movq	%rbx,%rdi
	callq	rattle_dealloc@PLT
1:
	cmpq	$0,72(%rsp)
	je	1f
	leaq	32(%rsp),%rdi
5:
	callq	rattle_dealloc@PLT
1:
	movzbl	168(%rsp),%ebp
	movq	176(%rsp),%rbx
	movq	200(%rsp),%r14
	movq	216(%rsp),%r15
	cmpq	$0,160(%rsp)
	je	7f
	movq	144(%rsp),%rdi
	callq	rattle_dealloc@PLT
7:
	cmpb	$1,%bpl
	jne	7f
	movq	%rbx,%rdi
	callq	"std_collections::btree::node::Node::destroy::<#2fe7f96373f75378>"
7:
	movb	$1,%bl
	movb	$2,%dl
	testq	%r15,%r15
	je	7f
	movq	%r14,%rdi
	callq	rattle_dealloc@PLT
	movb	$2,%dl
	jmp	7f
2:
	xorl	%esi,%esi
6:
	movq	%r15,%rdi
	callq	"rtp_listing::printing::write_text::<#df9e9f1468b30f79>"
	movl	%eax,%ebp
	movzbl	%dl,%eax
	testb	$1,%bpl
	movq	280(%rsp),%rcx
	cmovnel	%eax,%ecx
	movq	%rcx,280(%rsp)
	movq	%r15,%rdi
	callq	rattle_dealloc@PLT
	movzbl	592(%rsp),%eax
	testb	%bpl,%bpl
	je	2f
	cmpb	$1,%al
	jne	6f
	movq	608(%rsp),%rbx
	movq	616(%rsp),%rcx
	movq	624(%rsp),%rax
	movq	%rax,16(%rsp)
	movq	%rcx,24(%rsp)
	testq	%rcx,%rcx
	je	11f
	xorl	%r13d,%r13d
	jmp	12f
	.p2align	4
13:
	incq	%r13
	cmpq	24(%rsp),%r13
	je	11f
12:
	leaq	(,%r13,2),%rax
	addq	%r13,%rax
	movq	(%rbx,%rax,8),%r14
	movq	8(%rbx,%rax,8),%r15
	movq	16(%rbx,%rax,8),%rbp
	testq	%r15,%r15
	je	12f
	leaq	16(%r14),%r12
	jmp	14f
	.p2align	4
15:
	addq	$32,%r12
	decq	%r15
	je	12f
14:
	cmpq	$0,(%r12)
	je	15b
	movq	-16(%r12),%rdi
	callq	rattle_dealloc@PLT
	jmp	15b
	.p2align	4
12:
	testq	%rbp,%rbp
	je	13b
	movq	%r14,%rdi
	callq	rattle_dealloc@PLT
	jmp	13b
2:
	cmpb	$1,%al
	jne	2f
	movq	608(%rsp),%rax
	movq	%rax,640(%rsp)
	movdqu	616(%rsp),%xmm0
	movdqu	%xmm0,648(%rsp)
	leaq	640(%rsp),%rdi
	callq	"std_alloc::vec::Vec::drop::<#96fc43e7743eb198>"
2:
	cmpq	$0,72(%rsp)
	je	2f
	movq	56(%rsp),%rdi
	callq	rattle_dealloc@PLT
2:
	movzbl	168(%rsp),%ebp
	movq	176(%rsp),%r14
	movq	200(%rsp),%rbx
	movq	216(%rsp),%r15
	cmpq	$0,160(%rsp)
	je	2f
	movq	144(%rsp),%rdi
	callq	rattle_dealloc@PLT
2:
	cmpb	$1,%bpl
	jne	2f
	movq	%r14,%rdi
	callq	"std_collections::btree::node::Node::destroy::<#2fe7f96373f75378>"
2:
	testq	%r15,%r15
	je	2f
	movq	%rbx,%rdi
	callq	rattle_dealloc@PLT
2:
	xorl	%edx,%edx
	xorl	%ebx,%ebx
	jmp	7f
11:
	cmpq	$0,16(%rsp)
	je	6f
	movq	%rbx,%rdi
	callq	rattle_dealloc@PLT
6:
	cmpq	$0,72(%rsp)
	je	2f
	movq	56(%rsp),%rdi
	callq	rattle_dealloc@PLT
2:
	movzbl	168(%rsp),%ebp
	movq	176(%rsp),%rbx
	movq	200(%rsp),%r14
	movq	216(%rsp),%r15
	cmpq	$0,160(%rsp)
	je	2f
	movq	144(%rsp),%rdi
	callq	rattle_dealloc@PLT
2:
	cmpb	$1,%bpl
	jne	2f
	movq	%rbx,%rdi
	callq	"std_collections::btree::node::Node::destroy::<#2fe7f96373f75378>"
2:
	movb	$1,%bl
	testq	%r15,%r15
	je	2f
	movq	%r14,%rdi
	callq	rattle_dealloc@PLT
2:
	movq	280(%rsp),%rax
	movl	%eax,%edx
	jmp	7f
4:
	movl	%edx,16(%rsp)
	movq	%r15,%rdi
	callq	rattle_dealloc@PLT
	cmpb	$1,592(%rsp)
	jne	2f
	movq	608(%rsp),%rbx
	movq	616(%rsp),%rcx
	movq	624(%rsp),%rax
	movq	%rax,8(%rsp)
	movq	%rcx,24(%rsp)
	testq	%rcx,%rcx
	je	4f
	xorl	%r13d,%r13d
	jmp	6f
	.p2align	4
11:
	incq	%r13
	cmpq	24(%rsp),%r13
	je	4f
6:
	leaq	(,%r13,2),%rax
	addq	%r13,%rax
	movq	(%rbx,%rax,8),%r14
	movq	8(%rbx,%rax,8),%rbp
	movq	16(%rbx,%rax,8),%r15
	testq	%rbp,%rbp
	je	6f
	leaq	16(%r14),%r12
	jmp	12f
	.p2align	4
13:
	addq	$32,%r12
	decq	%rbp
	je	6f
12:
	cmpq	$0,(%r12)
	je	13b
	movq	-16(%r12),%rdi
	callq	rattle_dealloc@PLT
	jmp	13b
	.p2align	4
6:
	testq	%r15,%r15
	je	11b
	movq	%r14,%rdi
	callq	rattle_dealloc@PLT
	jmp	11b
10:
	movq	176(%rsp),%rdx
	cmpw	$0,(%rdx)
	jne	8f
9:
	cmpw	$0,2(%rdx)
	je	8f
	movq	184(%rdx),%rbx
	movq	%rdx,%rdi
	callq	rattle_dealloc@PLT
	movq	%rbx,176(%rsp)
8:
	movq	48(%rsp),%rbx
	movq	%rbx,%rdi
	movq	8(%rsp),%rsi
	callq	"rtp_listing::printing::write_text::<#df9e9f1468b30f79>"
	movl	%eax,%ebp
	movzbl	%dl,%eax
	xorl	%ecx,%ecx
	testb	$1,%bpl
	cmovnel	%eax,%ecx
	movl	%ecx,16(%rsp)
	movq	%rbx,%rdi
	callq	rattle_dealloc@PLT
	movzbl	592(%rsp),%eax
	movq	608(%rsp),%rbx
	movq	616(%rsp),%rcx
	movq	%rcx,24(%rsp)
	movq	624(%rsp),%rcx
	testb	%bpl,%bpl
	je	6f
	cmpb	$1,%al
	jne	2f
	movq	%rcx,8(%rsp)
	cmpq	$0,24(%rsp)
	je	4f
	xorl	%ebp,%ebp
	jmp	8f
9:
	incq	%rbp
	cmpq	24(%rsp),%rbp
	je	4f
8:
	leaq	(,%rbp,2),%rax
	addq	%rbp,%rax
	movq	(%rbx,%rax,8),%r14
	movq	8(%rbx,%rax,8),%r15
	movq	16(%rbx,%rax,8),%r12
	testq	%r15,%r15
	je	8f
	leaq	16(%r14),%r13
	jmp	10f
	.p2align	4
11:
	addq	$32,%r13
	decq	%r15
	je	8f
10:
	cmpq	$0,(%r13)
	je	11b
	movq	-16(%r13),%rdi
	callq	rattle_dealloc@PLT
	jmp	11b
8:
	testq	%r12,%r12
	je	9b
	movq	%r14,%rdi
	callq	rattle_dealloc@PLT
	jmp	9b
4:
	cmpq	$0,8(%rsp)
	je	2f
	movq	%rbx,%rdi
	callq	rattle_dealloc@PLT
2:
	cmpq	$0,72(%rsp)
	je	2f
	movq	56(%rsp),%rdi
	callq	rattle_dealloc@PLT
2:
	movzbl	168(%rsp),%ebp
	movq	176(%rsp),%rbx
	movq	200(%rsp),%r14
	movq	216(%rsp),%r15
	cmpq	$0,160(%rsp)
	je	2f
	movq	144(%rsp),%rdi
	callq	rattle_dealloc@PLT
2:
	cmpb	$1,%bpl
	jne	2f
	movq	%rbx,%rdi
	callq	"std_collections::btree::node::Node::destroy::<#2fe7f96373f75378>"
2:
	movb	$1,%bl
	testq	%r15,%r15
	je	2f
	movq	%r14,%rdi
	callq	rattle_dealloc@PLT
2:
	movl	16(%rsp),%edx
7:
	movl	%ebx,%eax
	addq	$696,%rsp
	.cfi_def_cfa_offset 56
	popq	%rbx
	.cfi_def_cfa_offset 48
	popq	%r12
	.cfi_def_cfa_offset 40
	popq	%r13
	.cfi_def_cfa_offset 32
	popq	%r14
	.cfi_def_cfa_offset 24
	popq	%r15
	.cfi_def_cfa_offset 16
	popq	%rbp
	.cfi_def_cfa_offset 8
	retq
6:
	.cfi_def_cfa_offset 752
	cmpb	$1,%al
	jne	2f
	movq	%rcx,8(%rsp)
	cmpq	$0,24(%rsp)
	je	4f
	xorl	%r15d,%r15d
	jmp	6f
7:
	incq	%r15
	cmpq	24(%rsp),%r15
	je	4f
6:
	leaq	(%r15,%r15,2),%rax
	movq	(%rbx,%rax,8),%r14
	movq	8(%rbx,%rax,8),%rbp
	movq	16(%rbx,%rax,8),%r12
	testq	%rbp,%rbp
	je	6f
	leaq	16(%r14),%r13
	jmp	8f
	.p2align	4
9:
	addq	$32,%r13
	decq	%rbp
	je	6f
8:
	cmpq	$0,(%r13)
	je	9b
	movq	-16(%r13),%rdi
	callq	rattle_dealloc@PLT
	jmp	9b
6:
	testq	%r12,%r12
	je	7b
	movq	%r14,%rdi
	callq	rattle_dealloc@PLT
	jmp	7b
4:
	cmpq	$0,8(%rsp)
	je	2f
	movq	%rbx,%rdi
	callq	rattle_dealloc@PLT
2:
	cmpq	$0,72(%rsp)
	je	1b
	movq	56(%rsp),%rdi
	jmp	5b
3:
	ud2
	.size	"rtp_listing::printing::print_all::<#df9e9f1468b30f79>", .-"rtp_listing::printing::print_all::<#df9e9f1468b30f79>"
	.cfi_endproc

	.section	.rodata.cst16,"aM",@progbits,16
	.p2align	4,0x0
.Lrtp_CPI7_0:
	.zero	16,32
.Lrtp_CPI7_1:
	.byte	1
	.byte	0
	.byte	3
	.byte	2
	.byte	5
	.byte	4
	.byte	7
	.byte	6
	.zero	1
	.zero	1
	.zero	1
	.zero	1
	.zero	1
	.zero	1
	.zero	1
	.zero	1
	.section	".text.rtp_ext::block_values::read_values::<#77e50c5f4ddfc773>","ax",@progbits
	.p2align	4
	.type	"rtp_ext::block_values::read_values::<#77e50c5f4ddfc773>",@function
"rtp_ext::block_values::read_values::<#77e50c5f4ddfc773>":
	.cfi_startproc
	pushq	%rbp
	.cfi_def_cfa_offset 16
	pushq	%r15
	.cfi_def_cfa_offset 24
	pushq	%r14
	.cfi_def_cfa_offset 32
	pushq	%r13
	.cfi_def_cfa_offset 40
	pushq	%r12
	.cfi_def_cfa_offset 48
	pushq	%rbx
	.cfi_def_cfa_offset 56
	subq	$184,%rsp
	.cfi_def_cfa_offset 240
	.cfi_offset %rbx,-56
	.cfi_offset %r12,-48
	.cfi_offset %r13,-40
	.cfi_offset %r14,-32
	.cfi_offset %r15,-24
	.cfi_offset %rbp,-16
	movq	%r8,%r13
	movq	%rsi,%rax
	movq	%rdi,%r14
	testb	%cl,%cl
	je	1f
	testq	%rdx,%rdx
	je	2f
	leaq	151(%r13),%r12
	jmp	3f
1:
	testq	%rdx,%rdx
	je	2f
	leaq	151(%r13),%rbp
	jmp	1f
4:
	movq	%rdx,%rbx
	leaq	16(%rsp),%rdi
	movq	%r15,%rdx
	callq	"core::str::utf8::from_utf8"
	cmpb	$0,16(%rsp)
	je	5f
6:
	movq	%rbx,%rdx
	movq	%r12,%r13
	movq	(%rsp),%r12
	.p2align	4
7:
	movq	%rbp,%rax
	testq	%rdx,%rdx
	je	2f
3:
	cmpb	$0,(%rax)
	jne	3f
	cmpq	$2,%rdx
	je	8f
	cmpq	$1,%rdx
	je	2f
	cmpq	$3,%rdx
	ja	9f
	cmpb	$0,1(%rax)
	jne	9f
	cmpb	$0,2(%rax)
	jne	9f
	jmp	2f
8:
	cmpb	$0,1(%rax)
	je	2f
9:
	decq	%rdx
	incq	%rax
	movq	%rax,%rdi
	movq	%rdx,%rsi
	callq	"rtp_ext::elements::skip_zeros"
	testq	%rdx,%rdx
	je	2f
3:
	cmpq	$2,%rdx
	jb	2f
	movzbl	1(%rax),%r15d
	leaq	2(%r15),%rbp
	subq	%rbp,%rdx
	jb	2f
	movzbl	(%rax),%ecx
	addq	%rax,%rbp
	cmpb	$1,10202(%r14,%rcx,2)
	jne	7b
	leaq	2(%rax),%r8
	movzbl	10203(%r14,%rcx,2),%ecx
	leaq	3f(%rip),%rsi
	movslq	(%rsi,%rcx,4),%rcx
	addq	%rsi,%rcx
	jmpq	*%rcx
8:
	cmpb	$3,%r15b
	jb	7b
	movzbl	2(%rax),%ecx
	movzwl	3(%rax),%eax
	shll	$16,%eax
	shll	$8,%ecx
	orl	%eax,%ecx
	bswapl	%ecx
	imulq	$1000000,%rcx,%rax
	shrq	$18,%rax
	movq	$1,16(%r13)
	movq	%rax,24(%r13)
	jmp	7b
9:
	cmpb	$2,%r15b
	jae	10f
	movq	%rdx,%rbx
	jmp	11f
12:
	movq	%r8,%rsi
	movq	%r12,(%rsp)
	movq	%r13,%r12
	pxor	%xmm0,%xmm0
	movdqa	%xmm0,16(%rsp)
	movq	$0,32(%rsp)
	cmpb	$8,%r15b
	ja	4b
	testq	%r15,%r15
	je	13f
	movsbq	(%rsi),%rcx
	testq	%rcx,%rcx
	js	4b
	movabsq	$2305843009213693952,%rdi
	leaq	.Lrtp_static.37(%rip),%r13
	movzbl	(%rcx,%r13),%ecx
	movq	%rcx,56(%rsp)
	movb	$32,%r8b
	cmpl	$1,%r15d
	jne	14f
	movb	$32,%bl
	movb	$32,%r11b
	movb	$32,%r10b
	movb	$32,%r9b
	movb	$32,%cl
	jmp	15f
16:
	cmpb	$4,%r15b
	jb	7b
	movl	(%r8),%eax
	bswapl	%eax
	movl	$1,8(%r13)
	movl	%eax,12(%r13)
	jmp	7b
17:
	xorps	%xmm0,%xmm0
	movaps	%xmm0,112(%rsp)
	movaps	%xmm0,80(%rsp)
	movaps	%xmm0,144(%rsp)
	movaps	%xmm0,16(%rsp)
	movq	$0,32(%rsp)
	movaps	%xmm0,160(%rsp)
	movdqa	.Lrtp_CPI7_0(%rip),%xmm0
	movdqa	%xmm0,96(%rsp)
	cmpb	$16,%r15b
	ja	18f
	testq	%r15,%r15
	je	19f
	xorl	%eax,%eax
	.p2align	4
20:
	movsbq	(%r8,%rax),%rcx
	testq	%rcx,%rcx
	js	18f
	leaq	.Lrtp_static.37(%rip),%rsi
	movzbl	(%rcx,%rsi),%ecx
	movb	%cl,96(%rsp,%rax)
	incq	%rax
	cmpq	%rax,%r15
	jne	20b
19:
	movaps	96(%rsp),%xmm0
	jmp	19f
20:
	cmpb	$9,%r15b
	jb	7b
	movzbl	2(%rax),%ecx
	movq	3(%rax),%xmm0
	pshufb	.Lrtp_CPI7_1(%rip),%xmm0
	movw	$1,120(%r13)
	movb	%cl,122(%r13)
	movb	$0,123(%r13)
	movq	%xmm0,124(%r13)
	jmp	7b
21:
	cmpb	$8,%r15b
	jb	7b
	cmpb	$16,%r15b
	jb	22f
	movq	10(%rax),%rax
	bswapq	%rax
	jmp	23f
24:
	testq	%r15,%r15
	je	7b
	movzbl	(%r8),%eax
	movl	%eax,%ecx
	andb	$127,%cl
	negb	%cl
	movb	$1,(%r13)
	movb	%cl,1(%r13)
	shrb	$7,%al
	movb	$1,2(%r13)
	movb	%al,3(%r13)
	jmp	7b
25:
	cmpb	$3,%r15b
	jb	7b
	movzbl	2(%rax),%ecx
	movzwl	3(%rax),%eax
	shll	$16,%eax
	shll	$8,%ecx
	orl	%eax,%ecx
	bswapl	%ecx
	movl	%ecx,%eax
	shrl	$12,%eax
	andl	$4095,%ecx
	movq	$1,72(%r13)
	movq	%rax,80(%r13)
	movq	$100,88(%r13)
	movq	$1,96(%r13)
	movq	%rcx,104(%r13)
	movq	$100,112(%r13)
	jmp	7b
26:
	testq	%r15,%r15
	je	7b
	movzbl	(%r8),%eax
	andb	$3,%al
	movb	$1,4(%r13)
	movb	%al,5(%r13)
	jmp	7b
27:
	cmpb	$4,%r15b
	jb	7b
	movl	(%r8),%eax
	bswapl	%eax
	movl	$1,168(%r13)
	movl	%eax,172(%r13)
	jmp	7b
28:
	cmpb	$2,%r15b
	jb	7b
	movzwl	(%r8),%eax
	rolw	$8,%ax
	movw	$1,64(%r13)
	movw	%ax,66(%r13)
	jmp	7b
29:
	movq	%r8,%rsi
	movq	%r12,(%rsp)
	movq	%r13,%r12
	pxor	%xmm0,%xmm0
	movdqa	%xmm0,16(%rsp)
	movq	$0,32(%rsp)
	cmpb	$8,%r15b
	ja	30f
	testq	%r15,%r15
	je	31f
	movsbq	(%rsi),%rcx
	testq	%rcx,%rcx
	js	30f
	movabsq	$2305843009213693952,%rdi
	leaq	.Lrtp_static.37(%rip),%r13
	movzbl	(%rcx,%r13),%ecx
	movq	%rcx,56(%rsp)
	movb	$32,%r8b
	cmpl	$1,%r15d
	jne	32f
	movb	$32,%bl
	movb	$32,%r11b
	movb	$32,%r10b
	movb	$32,%r9b
	movb	$32,%cl
	jmp	33f
34:
	testq	%r15,%r15
	je	7b
	movzbl	(%r8),%eax
	movb	$1,6(%r13)
	movb	%al,7(%r13)
	jmp	7b
18:
	movq	%rdx,%rbx
	leaq	16(%rsp),%rdi
	movq	%r8,%rsi
	movq	%r15,%rdx
	callq	"core::str::utf8::from_utf8"
	cmpb	$0,16(%rsp)
	je	18f
	movdqa	144(%rsp),%xmm0
	movdqa	%xmm0,112(%rsp)
	movq	%rbx,%rdx
	jmp	7b
10:
	testq	%rdx,%rdx
	je	10f
	movq	%r14,40(%rsp)
	movq	%r13,48(%rsp)
	movq	%rdx,%r13
	movq	%r12,(%rsp)
35:
	cmpb	$0,(%rbp)
	movq	%rbp,%r14
	jne	36f
	cmpq	$2,%rdx
	je	37f
	cmpq	$1,%rdx
	movq	48(%rsp),%r13
	movq	40(%rsp),%r14
	je	10f
	cmpq	$3,%rdx
	ja	38f
	cmpb	$0,1(%rbp)
	jne	38f
	cmpb	$0,2(%rbp)
	jne	38f
	jmp	10f
37:
	cmpb	$0,1(%rbp)
	movq	48(%rsp),%r13
	movq	40(%rsp),%r14
	je	10f
38:
	movq	%r8,%r12
	movq	%rdx,%rbx
	leaq	-1(%rdx),%rsi
	leaq	1(%rbp),%rdi
	callq	"rtp_ext::elements::skip_zeros"
	testq	%rdx,%rdx
	je	37f
	movq	%rax,%r14
	movq	%rdx,%r13
	movq	%rbx,%rdx
	movq	%r12,%r8
	movq	(%rsp),%r12
36:
	cmpq	$2,%r13
	jb	36f
	movzbl	1(%r14),%ebx
	leaq	2(%rbx),%r12
	cmpq	%r12,%r13
	jb	38f
	movzbl	(%r14),%eax
	movq	40(%rsp),%rcx
	cmpb	$1,10202(%rcx,%rax,2)
	jne	39f
	cmpb	$14,10203(%rcx,%rax,2)
	jne	40f
	leaq	(%r14,%r12),%rbp
	addq	$2,%r14
	movq	%r14,%rdi
	movq	%rbx,%rsi
	movq	%r8,56(%rsp)
	callq	"rtp_ext::block_values::is_another_allocation"
	movq	56(%rsp),%r8
	testb	%al,%al
	cmovneq	%rbx,%r15
	cmovneq	%r14,%r8
	subq	%r12,%r13
	movq	%r13,%rdx
	movq	(%rsp),%r12
	jne	35b
36:
	xorl	%ebx,%ebx
	movq	48(%rsp),%r13
	movq	40(%rsp),%r14
	jmp	35f
10:
	xorl	%ebx,%ebx
35:
	leaq	.Lrtp_static.5(%rip),%rbp
11:
	movq	%r13,%rdi
	movq	%r8,%rsi
	movq	%r15,%rdx
	callq	"rtp_values::value::set_values::ExtensionValuesSetValues::read_layers"
	testb	%al,%al
	movq	%rbx,%rdx
	je	7b
	jmp	10f
5:
	movabsq	$2314885530818453536,%rsi
	movq	24(%rsp),%rax
	movq	32(%rsp),%rcx
	movq	%rsi,64(%rsp)
	testq	%rcx,%rcx
	movq	%rbx,%rdx
	movq	%r12,%r13
	movq	(%rsp),%r12
	je	5f
	movl	$1,%esi
	xorl	%edi,%edi
	.p2align	4
36:
	movzbl	-1(%rax,%rsi),%r8d
	cmpb	$-64,%r8b
	jl	41f
	leaq	.Lrtp_static.37(%rip),%r9
	movzbl	(%r8,%r9),%r8d
	movb	%r8b,64(%rsp,%rdi)
	incq	%rdi
41:
	cmpq	%rcx,%rsi
	jae	41f
	incq	%rsi
	cmpq	$8,%rdi
	jne	36b
41:
	movq	64(%rsp),%rsi
	jmp	5f
22:
	xorl	%eax,%eax
23:
	movq	(%r8),%rcx
	bswapq	%rcx
	xorl	%esi,%esi
	cmpb	$16,%r15b
	setae	%sil
	movq	$1,32(%r13)
	movq	%rcx,40(%r13)
	movq	%rsi,48(%r13)
	movq	%rax,56(%r13)
	jmp	7b
18:
	movq	24(%rsp),%rax
	movq	32(%rsp),%rcx
	movdqa	.Lrtp_CPI7_0(%rip),%xmm0
	movdqa	%xmm0,64(%rsp)
	testq	%rcx,%rcx
	movq	%rbx,%rdx
	je	18f
	movl	$1,%esi
	xorl	%edi,%edi
	.p2align	4
22:
	movzbl	-1(%rax,%rsi),%r8d
	cmpb	$-64,%r8b
	jl	23f
	leaq	.Lrtp_static.37(%rip),%r9
	movzbl	(%r8,%r9),%r8d
	movb	%r8b,64(%rsp,%rdi)
	incq	%rdi
23:
	cmpq	%rcx,%rsi
	jae	18f
	incq	%rsi
	cmpq	$16,%rdi
	jne	22b
18:
	movaps	64(%rsp),%xmm0
19:
	movaps	%xmm0,80(%rsp)
	movaps	80(%rsp),%xmm0
	movaps	%xmm0,112(%rsp)
	movb	$1,150(%r13)
	movdqa	112(%rsp),%xmm0
	movdqu	%xmm0,(%r12)
	jmp	7b
13:
	movabsq	$2314885530818453536,%rsi
	jmp	13f
31:
	movabsq	$2314885530818453536,%rsi
	jmp	18f
14:
	movsbq	3(%rax),%rcx
	testq	%rcx,%rcx
	js	4b
	movzbl	(%rcx,%r13),%ecx
	cmpl	$2,%r15d
	jne	14f
	movb	$32,%bl
	movb	$32,%r11b
	movb	$32,%r10b
	movb	$32,%r9b
	jmp	15f
32:
	movsbq	3(%rax),%rcx
	testq	%rcx,%rcx
	js	30f
	movzbl	(%rcx,%r13),%ecx
	cmpl	$2,%r15d
	jne	19f
	movb	$32,%bl
	movb	$32,%r11b
	movb	$32,%r10b
	movb	$32,%r9b
	jmp	33f
38:
	xorl	%ebx,%ebx
	movq	48(%rsp),%r13
	movq	40(%rsp),%r14
	movq	(%rsp),%r12
	jmp	35b
14:
	movsbq	4(%rax),%r9
	testq	%r9,%r9
	js	4b
	movzbl	(%r9,%r13),%r9d
	cmpl	$3,%r15d
	jne	14f
	movb	$32,%bl
	movb	$32,%r11b
	movb	$32,%r10b
	jmp	15f
19:
	movsbq	4(%rax),%r9
	testq	%r9,%r9
	js	30f
	movzbl	(%r9,%r13),%r9d
	cmpl	$3,%r15d
	jne	19f
	movb	$32,%bl
	movb	$32,%r11b
	movb	$32,%r10b
	jmp	33f
40:
	movq	%rdx,%rbx
	movq	48(%rsp),%r13
	movq	40(%rsp),%r14
	movq	(%rsp),%r12
	jmp	11b
39:
	movq	%rdx,%rbx
	movq	48(%rsp),%r13
	movq	%rcx,%r14
	movq	(%rsp),%r12
	jmp	11b
37:
	xorl	%ebx,%ebx
	movq	48(%rsp),%r13
	movq	40(%rsp),%r14
	movq	%r12,%r8
	movq	(%rsp),%r12
	jmp	35b
14:
	movsbq	5(%rax),%r10
	testq	%r10,%r10
	js	4b
	movzbl	(%r10,%r13),%r10d
	cmpl	$4,%r15d
	jne	11f
	movb	$32,%bl
	movb	$32,%r11b
	jmp	15f
19:
	movsbq	5(%rax),%r10
	testq	%r10,%r10
	js	30f
	movzbl	(%r10,%r13),%r10d
	cmpl	$4,%r15d
	jne	14f
	movb	$32,%bl
	movb	$32,%r11b
	jmp	33f
11:
	movsbq	6(%rax),%r11
	testq	%r11,%r11
	js	4b
	movzbl	(%r11,%r13),%r11d
	cmpl	$5,%r15d
	jne	11f
	movb	$32,%bl
	jmp	15f
14:
	movsbq	6(%rax),%r11
	testq	%r11,%r11
	js	30f
	movzbl	(%r11,%r13),%r11d
	cmpl	$5,%r15d
	jne	14f
	movb	$32,%bl
	jmp	33f
11:
	movsbq	7(%rax),%rbx
	testq	%rbx,%rbx
	js	4b
	movq	%rdx,8(%rsp)
	movzbl	(%rbx,%r13),%ebx
	cmpl	$6,%r15d
	je	11f
	movsbq	8(%rax),%r8
	testq	%r8,%r8
	movq	8(%rsp),%rdx
	js	4b
	movzbl	(%r8,%r13),%r8d
	cmpl	$7,%r15d
	jne	19f
11:
	movq	8(%rsp),%rdx
15:
	movzbl	%r8b,%eax
	shlq	$48,%rax
	orq	%rdi,%rax
	movzbl	%bl,%edi
	shlq	$40,%rdi
	movzbl	%r11b,%r8d
	shlq	$32,%r8
	orq	%rdi,%r8
	orq	%rax,%r8
	movzbl	%r10b,%eax
	shll	$24,%eax
	movzbl	%r9b,%edi
	shll	$16,%edi
	orq	%rax,%rdi
	movzbl	%cl,%esi
	shll	$8,%esi
	orq	%rdi,%rsi
	orq	%r8,%rsi
	orq	56(%rsp),%rsi
13:
	movq	%r12,%r13
	movq	(%rsp),%r12
5:
	movb	$1,141(%r13)
	movq	%rsi,142(%r13)
	jmp	7b
14:
	movsbq	7(%rax),%rbx
	testq	%rbx,%rbx
	js	30f
	movq	%rdx,8(%rsp)
	movzbl	(%rbx,%r13),%ebx
	cmpl	$6,%r15d
	je	5f
	movsbq	8(%rax),%r8
	testq	%r8,%r8
	movq	8(%rsp),%rdx
	js	30f
	movzbl	(%r8,%r13),%r8d
	cmpl	$7,%r15d
	jne	11f
5:
	movq	8(%rsp),%rdx
33:
	movzbl	%r8b,%eax
	shlq	$48,%rax
	orq	%rdi,%rax
	movzbl	%bl,%edi
	shlq	$40,%rdi
	movzbl	%r11b,%r8d
	shlq	$32,%r8
	orq	%rdi,%r8
	orq	%rax,%r8
	movzbl	%r10b,%eax
	shll	$24,%eax
	movzbl	%r9b,%edi
	shll	$16,%edi
	orq	%rax,%rdi
	movzbl	%cl,%esi
	shll	$8,%esi
	orq	%rdi,%rsi
	orq	%r8,%rsi
	orq	56(%rsp),%rsi
18:
	movq	%r12,%r13
	movq	(%rsp),%r12
	jmp	5f
19:
	movsbq	9(%rax),%rax
	testq	%rax,%rax
	movq	8(%rsp),%rdx
	js	4b
	movzbl	(%rax,%r13),%edi
	shlq	$56,%rdi
	jmp	15b
11:
	movsbq	9(%rax),%rax
	testq	%rax,%rax
	movq	8(%rsp),%rdx
	js	30f
	movzbl	(%rax,%r13),%edi
	shlq	$56,%rdi
	jmp	33b
30:
	movq	%rdx,%rbx
	leaq	16(%rsp),%rdi
	movq	%r15,%rdx
	callq	"core::str::utf8::from_utf8"
	cmpb	$0,16(%rsp)
	jne	6b
	movabsq	$2314885530818453536,%rsi
	movq	24(%rsp),%rax
	movq	32(%rsp),%rcx
	movq	%rsi,64(%rsp)
	testq	%rcx,%rcx
	movq	%rbx,%rdx
	movq	%r12,%r13
	movq	(%rsp),%r12
	je	5f
	movl	$1,%esi
	xorl	%edi,%edi
	.p2align	4
4:
	movzbl	-1(%rax,%rsi),%r8d
	cmpb	$-64,%r8b
	jl	6f
	leaq	.Lrtp_static.37(%rip),%r9
	movzbl	(%r8,%r9),%r8d
	movb	%r8b,64(%rsp,%rdi)
	incq	%rdi
6:
	cmpq	%rcx,%rsi
	jae	6f
	incq	%rsi
	cmpq	$8,%rdi
	jne	4b
6:
	movq	64(%rsp),%rsi
5:
	movb	$1,132(%r13)
	movq	%rsi,133(%r13)
	jmp	7b
4:
	movq	%rdx,%r14
	leaq	16(%rsp),%rdi
	movq	%r15,%rsi
	movq	%r12,%rdx
	callq	"core::str::utf8::from_utf8"
	cmpb	$0,16(%rsp)
	je	5f
6:
	movq	%r14,%rdx
	movq	%rbp,%r14
	movq	(%rsp),%rbp
	.p2align	4
11:
	movq	%rbx,%rax
	testq	%rdx,%rdx
	je	2f
1:
	movzbl	(%rax),%esi
	testb	%sil,%sil
	jne	1f
	cmpq	$2,%rdx
	je	13f
	cmpq	$1,%rdx
	je	2f
	cmpq	$3,%rdx
	ja	14f
	cmpb	$0,1(%rax)
	jne	14f
	cmpb	$0,2(%rax)
	jne	14f
	jmp	2f
13:
	cmpb	$0,1(%rax)
	je	2f
14:
	decq	%rdx
	incq	%rax
	movq	%rax,%rdi
	movq	%rdx,%rsi
	callq	"rtp_ext::elements::skip_zeros"
	testq	%rdx,%rdx
	je	2f
	movzbl	(%rax),%esi
1:
	cmpb	$-17,%sil
	ja	2f
	movl	%esi,%ecx
	andb	$15,%cl
	leal	2(%rcx),%edi
	movzbl	%dil,%r12d
	subq	%r12,%rdx
	jb	2f
	leaq	(%rax,%r12),%rbx
	shrb	$3,%sil
	movzbl	%sil,%esi
	andl	$30,%esi
	cmpb	$1,10202(%r14,%rsi)
	jne	11b
	leaq	1(%rax),%r15
	decq	%r12
	movzbl	10203(%r14,%rsi),%esi
	leaq	1f(%rip),%rdi
	movslq	(%rdi,%rsi,4),%rsi
	addq	%rdi,%rsi
	jmpq	*%rsi
13:
	cmpb	$2,%cl
	jb	11b
	movzbl	1(%rax),%ecx
	movzwl	2(%rax),%eax
	shll	$16,%eax
	shll	$8,%ecx
	orl	%eax,%ecx
	bswapl	%ecx
	imulq	$1000000,%rcx,%rax
	shrq	$18,%rax
	movq	$1,16(%r13)
	movq	%rax,24(%r13)
	jmp	11b
14:
	testb	%cl,%cl
	movq	%r13,48(%rsp)
	movq	%r14,40(%rsp)
	je	15f
	leaq	.Lrtp_static.5(%rip),%rax
	testq	%rdx,%rdx
	je	18f
	movq	%rbp,(%rsp)
	movq	%rdx,%r13
19:
	movzbl	(%rbx),%eax
	movq	%rbx,%rbp
	testb	%al,%al
	jne	22f
	cmpq	$2,%rdx
	je	23f
	cmpq	$1,%rdx
	movq	(%rsp),%rbp
	leaq	.Lrtp_static.5(%rip),%rax
	je	18f
	cmpq	$3,%rdx
	ja	30f
	cmpb	$0,1(%rbx)
	jne	30f
	cmpb	$0,2(%rbx)
	jne	30f
	jmp	18f
23:
	cmpb	$0,1(%rbx)
	movq	(%rsp),%rbp
	leaq	.Lrtp_static.5(%rip),%rax
	je	18f
30:
	movq	%rdx,%r14
	leaq	-1(%rdx),%rsi
	leaq	1(%rbx),%rdi
	callq	"rtp_ext::elements::skip_zeros"
	testq	%rdx,%rdx
	je	23f
	movq	%rax,%rbp
	movq	%rdx,%r13
	movzbl	(%rax),%eax
	movq	%r14,%rdx
22:
	cmpb	$-17,%al
	ja	23f
	movl	%eax,%ecx
	andb	$15,%cl
	addb	$2,%cl
	movzbl	%cl,%r14d
	cmpq	%r14,%r13
	jb	23f
	shrb	$3,%al
	movzbl	%al,%eax
	andl	$30,%eax
	movq	40(%rsp),%rcx
	cmpb	$1,10202(%rcx,%rax)
	jne	22f
	cmpb	$14,10203(%rcx,%rax)
	jne	22f
	leaq	(%r14,%rbp),%rbx
	leaq	-1(%r14),%rsi
	incq	%rbp
	movq	%rbp,%rdi
	callq	"rtp_ext::block_values::is_another_allocation"
	testb	%al,%al
	leaq	-1(%r14),%rax
	cmovneq	%rax,%r12
	cmovneq	%rbp,%r15
	subq	%r14,%r13
	movq	%r13,%rdx
	jne	19b
23:
	xorl	%r13d,%r13d
	leaq	.Lrtp_static.5(%rip),%rbx
	jmp	19f
23:
	movq	%rbp,(%rsp)
	movq	%r14,%rbp
	pxor	%xmm0,%xmm0
	movdqa	%xmm0,16(%rsp)
	movq	$0,32(%rsp)
	cmpb	$7,%cl
	ja	4b
	movsbq	(%r15),%rcx
	testq	%rcx,%rcx
	js	4b
	movabsq	$2305843009213693952,%rdi
	leaq	.Lrtp_static.37(%rip),%r14
	movzbl	(%rcx,%r14),%ecx
	movq	%rcx,56(%rsp)
	movb	$32,%r8b
	cmpl	$1,%r12d
	jne	30f
	movb	$32,%cl
	movb	$32,%r11b
	movb	$32,%r10b
	movb	$32,%r9b
	movb	$32,%sil
	jmp	31f
32:
	cmpb	$3,%cl
	jb	11b
	movl	(%r15),%eax
	bswapl	%eax
	movl	$1,8(%r13)
	movl	%eax,12(%r13)
	jmp	11b
33:
	xorps	%xmm0,%xmm0
	movaps	%xmm0,128(%rsp)
	movaps	%xmm0,80(%rsp)
	movaps	%xmm0,144(%rsp)
	movaps	%xmm0,16(%rsp)
	movq	$0,32(%rsp)
	movaps	%xmm0,160(%rsp)
	movdqa	.Lrtp_CPI7_0(%rip),%xmm0
	movdqa	%xmm0,96(%rsp)
	xorl	%eax,%eax
	.p2align	4
35:
	movsbq	(%r15,%rax),%rcx
	testq	%rcx,%rcx
	js	36f
	leaq	.Lrtp_static.37(%rip),%rsi
	movzbl	(%rcx,%rsi),%ecx
	movb	%cl,96(%rsp,%rax)
	incq	%rax
	cmpq	%rax,%r12
	jne	35b
	movaps	96(%rsp),%xmm0
	jmp	35f
37:
	cmpb	$8,%cl
	jb	11b
	movzbl	1(%rax),%ecx
	movq	2(%rax),%xmm0
	pshufb	.Lrtp_CPI7_1(%rip),%xmm0
	movw	$1,120(%r13)
	movb	%cl,122(%r13)
	movb	$0,123(%r13)
	movq	%xmm0,124(%r13)
	jmp	11b
38:
	cmpb	$7,%cl
	jb	11b
	cmpb	$15,%cl
	jne	39f
	movq	9(%rax),%rax
	bswapq	%rax
	jmp	40f
41:
	movzbl	(%r15),%eax
	movl	%eax,%ecx
	andb	$127,%cl
	negb	%cl
	movb	$1,(%r13)
	movb	%cl,1(%r13)
	shrb	$7,%al
	movb	$1,2(%r13)
	movb	%al,3(%r13)
	jmp	11b
42:
	cmpb	$2,%cl
	jb	11b
	movzbl	1(%rax),%ecx
	movzwl	2(%rax),%eax
	shll	$16,%eax
	shll	$8,%ecx
	orl	%eax,%ecx
	bswapl	%ecx
	movl	%ecx,%eax
	shrl	$12,%eax
	andl	$4095,%ecx
	movq	$1,72(%r13)
	movq	%rax,80(%r13)
	movq	$100,88(%r13)
	movq	$1,96(%r13)
	movq	%rcx,104(%r13)
	movq	$100,112(%r13)
	jmp	11b
43:
	movzbl	(%r15),%eax
	andb	$3,%al
	movb	$1,4(%r13)
	movb	%al,5(%r13)
	jmp	11b
44:
	cmpb	$3,%cl
	jb	11b
	movl	(%r15),%eax
	bswapl	%eax
	movl	$1,168(%r13)
	movl	%eax,172(%r13)
	jmp	11b
45:
	testb	%cl,%cl
	je	11b
	movzwl	(%r15),%eax
	rolw	$8,%ax
	movw	$1,64(%r13)
	movw	%ax,66(%r13)
	jmp	11b
46:
	movq	%rbp,(%rsp)
	movq	%r14,%rbp
	pxor	%xmm0,%xmm0
	movdqa	%xmm0,16(%rsp)
	movq	$0,32(%rsp)
	cmpb	$7,%cl
	ja	47f
	movsbq	(%r15),%rcx
	testq	%rcx,%rcx
	js	47f
	movabsq	$2305843009213693952,%rdi
	leaq	.Lrtp_static.37(%rip),%r14
	movzbl	(%rcx,%r14),%ecx
	movq	%rcx,56(%rsp)
	movb	$32,%r8b
	cmpl	$1,%r12d
	jne	48f
	movb	$32,%cl
	movb	$32,%r11b
	movb	$32,%r10b
	movb	$32,%r9b
	movb	$32,%sil
	jmp	49f
50:
	movzbl	(%r15),%eax
	movb	$1,6(%r13)
	movb	%al,7(%r13)
	jmp	11b
36:
	movq	%rbp,(%rsp)
	movq	%r14,%rbp
	movq	%rdx,%r14
	leaq	16(%rsp),%rdi
	movq	%r15,%rsi
	movq	%r12,%rdx
	callq	"core::str::utf8::from_utf8"
	cmpb	$0,16(%rsp)
	je	36f
	movdqa	144(%rsp),%xmm0
	movdqa	%xmm0,128(%rsp)
	jmp	6b
18:
	xorl	%r13d,%r13d
	movq	%rax,%rbx
	jmp	18f
15:
	movq	%rdx,%r13
	movl	$1,%r12d
	jmp	18f
5:
	movabsq	$2314885530818453536,%rsi
	movq	24(%rsp),%rax
	movq	32(%rsp),%rcx
	movq	%rsi,64(%rsp)
	testq	%rcx,%rcx
	movq	%r14,%rdx
	movq	%rbp,%r14
	movq	(%rsp),%rbp
	je	5f
	movl	$1,%esi
	xorl	%edi,%edi
15:
	movzbl	-1(%rax,%rsi),%r8d
	cmpb	$-64,%r8b
	jl	51f
	leaq	.Lrtp_static.37(%rip),%r9
	movzbl	(%r8,%r9),%r8d
	movb	%r8b,64(%rsp,%rdi)
	incq	%rdi
51:
	cmpq	%rcx,%rsi
	jae	51f
	incq	%rsi
	cmpq	$8,%rdi
	jne	15b
51:
	movq	64(%rsp),%rsi
	jmp	5f
39:
	xorl	%eax,%eax
40:
	movq	(%r15),%rsi
	bswapq	%rsi
	xorl	%edi,%edi
	cmpb	$15,%cl
	sete	%dil
	movq	$1,32(%r13)
	movq	%rsi,40(%r13)
	movq	%rdi,48(%r13)
	movq	%rax,56(%r13)
	jmp	11b
36:
	movq	24(%rsp),%rax
	movq	32(%rsp),%rcx
	movdqa	.Lrtp_CPI7_0(%rip),%xmm0
	movdqa	%xmm0,64(%rsp)
	testq	%rcx,%rcx
	movq	%r14,%rdx
	movq	%rbp,%r14
	movq	(%rsp),%rbp
	je	15f
	movl	$1,%esi
	xorl	%edi,%edi
36:
	movzbl	-1(%rax,%rsi),%r8d
	cmpb	$-64,%r8b
	jl	39f
	leaq	.Lrtp_static.37(%rip),%r9
	movzbl	(%r8,%r9),%r8d
	movb	%r8b,64(%rsp,%rdi)
	incq	%rdi
39:
	cmpq	%rcx,%rsi
	jae	15f
	incq	%rsi
	cmpq	$16,%rdi
	jne	36b
15:
	movaps	64(%rsp),%xmm0
35:
	movaps	%xmm0,80(%rsp)
	movaps	80(%rsp),%xmm0
	movaps	%xmm0,128(%rsp)
	movb	$1,150(%r13)
	movdqa	128(%rsp),%xmm0
	movdqu	%xmm0,(%rbp)
	jmp	11b
30:
	movsbq	2(%rax),%rsi
	testq	%rsi,%rsi
	js	4b
	movzbl	(%rsi,%r14),%esi
	cmpl	$2,%r12d
	jne	15f
	movb	$32,%cl
	movb	$32,%r11b
	movb	$32,%r10b
	movb	$32,%r9b
	jmp	31f
48:
	movsbq	2(%rax),%rsi
	testq	%rsi,%rsi
	js	47f
	movzbl	(%rsi,%r14),%esi
	cmpl	$2,%r12d
	jne	30f
	movb	$32,%cl
	movb	$32,%r11b
	movb	$32,%r10b
	movb	$32,%r9b
	jmp	49f
15:
	movsbq	3(%rax),%r9
	testq	%r9,%r9
	js	4b
	movzbl	(%r9,%r14),%r9d
	cmpl	$3,%r12d
	jne	15f
	movb	$32,%cl
	movb	$32,%r11b
	movb	$32,%r10b
	jmp	31f
30:
	movsbq	3(%rax),%r9
	testq	%r9,%r9
	js	47f
	movzbl	(%r9,%r14),%r9d
	cmpl	$3,%r12d
	jne	30f
	movb	$32,%cl
	movb	$32,%r11b
	movb	$32,%r10b
	jmp	49f
22:
	movq	%rdx,%r13
19:
	movq	(%rsp),%rbp
18:
	movq	48(%rsp),%r14
	movq	%r14,%rdi
	movq	%r15,%rsi
	movq	%r12,%rdx
	callq	"rtp_values::value::set_values::ExtensionValuesSetValues::read_layers"
	testb	%al,%al
	movq	%r13,%rdx
	movq	%r14,%r13
	movq	40(%rsp),%r14
	je	11b
	jmp	10f
15:
	movsbq	4(%rax),%r10
	testq	%r10,%r10
	js	4b
	movzbl	(%r10,%r14),%r10d
	cmpl	$4,%r12d
	jne	15f
	movb	$32,%cl
	movb	$32,%r11b
	jmp	31f
30:
	movsbq	4(%rax),%r10
	testq	%r10,%r10
	js	47f
	movzbl	(%r10,%r14),%r10d
	cmpl	$4,%r12d
	jne	18f
	movb	$32,%cl
	movb	$32,%r11b
	jmp	49f
15:
	movsbq	5(%rax),%r11
	testq	%r11,%r11
	js	4b
	movzbl	(%r11,%r14),%r11d
	cmpl	$5,%r12d
	jne	15f
	movb	$32,%cl
	jmp	31f
18:
	movsbq	5(%rax),%r11
	testq	%r11,%r11
	js	47f
	movzbl	(%r11,%r14),%r11d
	cmpl	$5,%r12d
	jne	18f
	movb	$32,%cl
	jmp	49f
15:
	movsbq	6(%rax),%rcx
	testq	%rcx,%rcx
	js	4b
	movq	%rdx,8(%rsp)
	movzbl	(%rcx,%r14),%ecx
	cmpl	$6,%r12d
	je	15f
	movsbq	7(%rax),%r8
	testq	%r8,%r8
	movq	8(%rsp),%rdx
	js	4b
	movzbl	(%r8,%r14),%r8d
	cmpl	$7,%r12d
	jne	19f
15:
	movq	8(%rsp),%rdx
31:
	movzbl	%r8b,%eax
	shlq	$48,%rax
	orq	%rdi,%rax
	movzbl	%cl,%edi
	shlq	$40,%rdi
	movzbl	%r11b,%r8d
	shlq	$32,%r8
	orq	%rdi,%r8
	orq	%rax,%r8
	movzbl	%r10b,%eax
	shll	$24,%eax
	movzbl	%r9b,%edi
	shll	$16,%edi
	orq	%rax,%rdi
	movzbl	%sil,%esi
	shll	$8,%esi
	orq	%rdi,%rsi
	orq	%r8,%rsi
	orq	56(%rsp),%rsi
	movq	%rbp,%r14
	movq	(%rsp),%rbp
5:
	movb	$1,141(%r13)
	movq	%rsi,142(%r13)
	jmp	11b
18:
	movsbq	6(%rax),%rcx
	testq	%rcx,%rcx
	js	47f
	movq	%rdx,8(%rsp)
	movzbl	(%rcx,%r14),%ecx
	cmpl	$6,%r12d
	je	5f
	movsbq	7(%rax),%r8
	testq	%r8,%r8
	movq	8(%rsp),%rdx
	js	47f
	movzbl	(%r8,%r14),%r8d
	cmpl	$7,%r12d
	jne	15f
5:
	movq	8(%rsp),%rdx
49:
	movzbl	%r8b,%eax
	shlq	$48,%rax
	orq	%rdi,%rax
	movzbl	%cl,%edi
	shlq	$40,%rdi
	movzbl	%r11b,%r8d
	shlq	$32,%r8
	orq	%rdi,%r8
	orq	%rax,%r8
	movzbl	%r10b,%eax
	shll	$24,%eax
	movzbl	%r9b,%edi
	shll	$16,%edi
	orq	%rax,%rdi
	movzbl	%sil,%esi
	shll	$8,%esi
	orq	%rdi,%rsi
	orq	%r8,%rsi
	orq	56(%rsp),%rsi
	movq	%rbp,%r14
	movq	(%rsp),%rbp
	jmp	5f
19:
	movsbq	8(%rax),%rax
	testq	%rax,%rax
	movq	8(%rsp),%rdx
	js	4b
	movzbl	(%rax,%r14),%edi
	shlq	$56,%rdi
	jmp	31b
15:
	movsbq	8(%rax),%rax
	testq	%rax,%rax
	movq	8(%rsp),%rdx
	js	47f
	movzbl	(%rax,%r14),%edi
	shlq	$56,%rdi
	jmp	49b
47:
	movq	%rdx,%r14
	leaq	16(%rsp),%rdi
	movq	%r15,%rsi
	movq	%r12,%rdx
	callq	"core::str::utf8::from_utf8"
	cmpb	$0,16(%rsp)
	jne	6b
	movabsq	$2314885530818453536,%rsi
	movq	24(%rsp),%rax
	movq	32(%rsp),%rcx
	movq	%rsi,64(%rsp)
	testq	%rcx,%rcx
	movq	%r14,%rdx
	movq	%rbp,%r14
	movq	(%rsp),%rbp
	je	5f
	movl	$1,%esi
	xorl	%edi,%edi
4:
	movzbl	-1(%rax,%rsi),%r8d
	cmpb	$-64,%r8b
	jl	6f
	leaq	.Lrtp_static.37(%rip),%r9
	movzbl	(%r8,%r9),%r8d
	movb	%r8b,64(%rsp,%rdi)
	incq	%rdi
6:
	cmpq	%rcx,%rsi
	jae	6f
	incq	%rsi
	cmpq	$8,%rdi
	jne	4b
6:
	movq	64(%rsp),%rsi
5:
	movb	$1,132(%r13)
	movq	%rsi,133(%r13)
	jmp	11b
2:
	xorl	%eax,%eax
2:
	addq	$184,%rsp
	.cfi_def_cfa_offset 56
	popq	%rbx
	.cfi_def_cfa_offset 48
	popq	%r12
	.cfi_def_cfa_offset 40
	popq	%r13
	.cfi_def_cfa_offset 32
	popq	%r14
	.cfi_def_cfa_offset 24
	popq	%r15
	.cfi_def_cfa_offset 16
	popq	%rbp
	.cfi_def_cfa_offset 8
	retq
10:
	.cfi_def_cfa_offset 240
	movb	$1,%al
	jmp	2b
	.size	"rtp_ext::block_values::read_values::<#77e50c5f4ddfc773>", .-"rtp_ext::block_values::read_values::<#77e50c5f4ddfc773>"
	.cfi_endproc
	.section	".rodata.rtp_ext::block_values::read_values::<#77e50c5f4ddfc773>","a",@progbits
	.p2align	2,0x0
3:
	.long	8b-3b
	.long	21b-3b
	.long	24b-3b
	.long	16b-3b
	.long	26b-3b
	.long	28b-3b
	.long	25b-3b
	.long	34b-3b
	.long	20b-3b
	.long	29b-3b
	.long	12b-3b
	.long	17b-3b
	.long	27b-3b
	.long	7b-3b
	.long	9b-3b
1:
	.long	13b-1b
	.long	38b-1b
	.long	41b-1b
	.long	32b-1b
	.long	43b-1b
	.long	45b-1b
	.long	42b-1b
	.long	50b-1b
	.long	37b-1b
	.long	46b-1b
	.long	23b-1b
	.long	33b-1b
	.long	44b-1b
	.long	11b-1b
	.long	14b-1b

	.section	".text.unlikely.rtp_ext::elements::skip_zeros","ax",@progbits
	.p2align	4
	.type	"rtp_ext::elements::skip_zeros",@function
"rtp_ext::elements::skip_zeros":
	.cfi_startproc
	leaq	-1(%rdi),%rdx
	movq	%rsi,%rax
	.p2align	4
1:
	movq	%rax,%rcx
	movq	%rdx,%r8
	subq	$16,%rax
	jb	2f
	movq	9(%r8),%r9
	leaq	16(%r8),%rdx
	orq	1(%r8),%r9
	je	1b
2:
	addq	%rsi,%rdi
	.p2align	4
1:
	movq	%rcx,%rdx
	subq	$1,%rcx
	jb	2f
	leaq	1(%r8),%rax
	cmpb	$0,1(%r8)
	movq	%rax,%r8
	je	1b
	retq
2:
	movq	%rdi,%rax
	retq
	.size	"rtp_ext::elements::skip_zeros", .-"rtp_ext::elements::skip_zeros"
	.cfi_endproc

	.section	.rodata.cst16,"aM",@progbits,16
	.p2align	4,0x0
.Lrtp_CPI9_0:
	.zero	8
	.quad	1
.Lrtp_CPI9_1:
	.zero	8
	.quad	2
	.section	".text.rtp_ext::block_values::is_another_allocation","ax",@progbits
	.p2align	4
	.type	"rtp_ext::block_values::is_another_allocation",@function
"rtp_ext::block_values::is_another_allocation":
	.cfi_startproc
	testq	%rsi,%rsi
	je	1f
	pushq	%r15
	.cfi_def_cfa_offset 16
	pushq	%r14
	.cfi_def_cfa_offset 24
	pushq	%r12
	.cfi_def_cfa_offset 32
	pushq	%rbx
	.cfi_def_cfa_offset 40
	subq	$24,%rsp
	.cfi_def_cfa_offset 64
	.cfi_offset %rbx,-40
	.cfi_offset %r12,-32
	.cfi_offset %r14,-24
	.cfi_offset %r15,-16
	movq	%rsi,%rbx
	cmpq	$1,%rsi
	jne	2f
	cmpb	$0,(%rdi)
	sete	%al
	jmp	3f
1:
	.cfi_def_cfa_offset 8
	.cfi_restore %rbx
	.cfi_restore %r12
	.cfi_restore %r14
	.cfi_restore %r15
	xorl	%eax,%eax
	retq
2:
	.cfi_def_cfa_offset 64
	.cfi_offset %rbx,-40
	.cfi_offset %r12,-32
	.cfi_offset %r14,-24
	.cfi_offset %r15,-16
	leaq	1(%rdi),%r14
	decq	%rbx
	movzbl	(%rdi),%eax
	movl	%eax,%edx
	shrl	$4,%edx
	andl	$3,%edx
	leaq	1(%rdx),%rcx
	andb	$15,%al
	je	1f
	movzbl	%al,%eax
	popcntl	%eax,%eax
	mulb	%cl
	movzbl	%al,%r15d
2:
	leaq	3(%r15),%rdx
	movl	%edx,%ecx
	shrl	$2,%ecx
	xorl	%eax,%eax
	subq	%rcx,%rbx
	jb	3f
	testq	%rcx,%rcx
	je	4f
	cmpl	$1,%ecx
	jne	5f
	movzbl	(%r14),%eax
	shll	$24,%eax
4:
	testq	%r15,%r15
	jne	4f
6:
	movb	$1,%al
	jmp	3f
1:
	leal	1(%rcx),%esi
	shrl	%esi
	subq	%rsi,%rbx
	jae	1f
7:
	xorl	%eax,%eax
	jmp	3f
1:
	movl	%ecx,%r10d
	incl	%r10d
	andl	$-2,%r10d
	movzbl	%dl,%r8d
	movd	%r8d,%xmm0
	pshufd	$68,%xmm0,%xmm0
	xorl	%r9d,%r9d
	movl	%eax,%r8d
	testb	%r9b,%r9b
	jne	1f
	movzbl	(%r14),%r8d
	shrb	$4,%r8b
	movzbl	%r8b,%r8d
	popcntl	%r8d,%r8d
1:
	movdqa	.Lrtp_CPI9_0(%rip),%xmm1
	pcmpgtq	%xmm0,%xmm1
	pcmpeqd	%xmm2,%xmm2
	pxor	%xmm1,%xmm2
	pextrb	$8,%xmm2,%r11d
	movl	%eax,%r9d
	testb	$1,%r11b
	je	1f
	movzbl	(%r14),%r9d
	andb	$15,%r9b
	movzbl	%r9b,%r9d
	popcntl	%r9d,%r9d
1:
	cmpl	$2,%r10d
	jne	1f
	movl	%eax,%r10d
	addq	%rsi,%r14
	testb	%dl,%dl
	jne	8f
	jmp	9f
5:
	cmpl	$11,%edx
	ja	5f
	movzwl	(%r14),%eax
	bswapl	%eax
	testq	%r15,%r15
	jne	4f
	jmp	6b
1:
	movl	$1,%r10d
	movq	%r10,%xmm1
	movdqa	%xmm0,%xmm2
	pcmpgtq	%xmm1,%xmm2
	movd	%xmm2,%r11d
	movl	%eax,%r10d
	testb	$1,%r11b
	jne	1f
	pcmpgtq	.Lrtp_CPI9_1(%rip),%xmm0
	pextrb	$8,%xmm0,%r11d
	testb	$1,%r11b
	jne	6f
10:
	addq	%rsi,%r14
	testb	%dl,%dl
	je	9f
8:
	addb	%r9b,%r8b
	movzbl	%r8b,%r15d
	cmpb	$2,%cl
	je	2b
	movzbl	%r10b,%edx
	addq	%rdx,%r15
	cmpb	$3,%cl
	je	2b
	movzbl	%al,%eax
	addq	%rax,%r15
	jmp	2b
5:
	cmpl	$3,%ecx
	jne	5f
	movzbl	(%r14),%edx
	movzwl	1(%r14),%eax
	shll	$8,%eax
	orl	%edx,%eax
	jmp	11f
1:
	movzbl	2(%rdi),%r10d
	shrb	$4,%r10b
	movzbl	%r10b,%r10d
	popcntl	%r10d,%r10d
	pcmpgtq	.Lrtp_CPI9_1(%rip),%xmm0
	pextrb	$8,%xmm0,%r11d
	testb	$1,%r11b
	je	10b
6:
	movzbl	2(%rdi),%eax
	andb	$15,%al
	movzbl	%al,%eax
	popcntl	%eax,%eax
	addq	%rsi,%r14
	testb	%dl,%dl
	jne	8b
9:
	movzbl	%r8b,%r15d
	jmp	2b
5:
	movl	(%r14),%eax
11:
	bswapl	%eax
4:
	addq	%rcx,%r14
	movl	%eax,%eax
	leal	32(,%r15,2),%ecx
	negl	%ecx
	shrq	%cl,%rax
	xorl	%r12d,%r12d
	popcntl	%eax,%r12d
	andl	$-1431655766,%eax
	popcntl	%eax,%eax
	addq	%r15,%r12
	addq	%rax,%r12
	jne	1f
2:
	movb	$1,%al
	cmpq	$5,%rbx
	jae	4f
3:
	addq	$24,%rsp
	.cfi_def_cfa_offset 40
	popq	%rbx
	.cfi_def_cfa_offset 32
	popq	%r12
	.cfi_def_cfa_offset 24
	popq	%r14
	.cfi_def_cfa_offset 16
	popq	%r15
	.cfi_def_cfa_offset 8
	.cfi_restore %rbx
	.cfi_restore %r12
	.cfi_restore %r14
	.cfi_restore %r15
	retq
	.p2align	4
5:
	.cfi_def_cfa_offset 64
	.cfi_offset %rbx,-40
	.cfi_offset %r12,-32
	.cfi_offset %r14,-24
	.cfi_offset %r15,-16
	xorl	%ebx,%ebx
6:
	decq	%r12
	je	2b
1:
	testq	%rbx,%rbx
	je	5b
	cmpb	$0,(%r14)
	js	1f
	decq	%rbx
	incq	%r14
	jmp	6b
	.p2align	4
1:
	cmpq	$1,%rbx
	je	1f
	cmpb	$0,1(%r14)
	js	1f
	movl	$2,%eax
	jmp	2f
1:
	movq	%rsp,%rdi
	movq	%r14,%rsi
	movq	%rbx,%rdx
	callq	"rtp_vla::leb::long_number_at"
	cmpb	$1,(%rsp)
	jne	6b
	movq	16(%rsp),%rax
2:
	addq	%rax,%r14
	subq	%rax,%rbx
	jmp	6b
4:
	addq	$-5,%rbx
	movl	$1,%ecx
	.p2align	4
1:
	cmpw	$-1,(%r14)
	je	7b
	cmpw	$-1,2(%r14)
	je	7b
	subq	$5,%rbx
	setb	%dl
	cmpq	%r15,%rcx
	jae	3b
	incq	%rcx
	addq	$5,%r14
	testb	%dl,%dl
	je	1b
	jmp	3b
	.size	"rtp_ext::block_values::is_another_allocation", .-"rtp_ext::block_values::is_another_allocation"
	.cfi_endproc

	.section	".text.rtp_vla::leb::long_number_at","ax",@progbits
	.p2align	4
	.type	"rtp_vla::leb::long_number_at",@function
"rtp_vla::leb::long_number_at":
	.cfi_startproc
	testq	%rdx,%rdx
	je	1f
	movzbl	(%rsi),%eax
	movl	%eax,%r8d
	andl	$127,%eax
	movl	$1,%ecx
	testb	%r8b,%r8b
	js	2f
3:
	movq	$1,(%rdi)
	movq	%rax,8(%rdi)
	movq	%rcx,16(%rdi)
	retq
2:
	cmpq	$1,%rdx
	jne	2f
1:
	xorps	%xmm0,%xmm0
	movups	%xmm0,(%rdi)
	movq	$0,16(%rdi)
	retq
2:
	movzbl	1(%rsi),%ecx
	movl	%ecx,%r8d
	andl	$127,%ecx
	shll	$7,%ecx
	orq	%rcx,%rax
	movl	$2,%ecx
	testb	%r8b,%r8b
	jns	3b
	cmpq	$2,%rdx
	je	1b
	movzbl	2(%rsi),%ecx
	movl	%ecx,%r8d
	andl	$127,%ecx
	shll	$14,%ecx
	orq	%rcx,%rax
	movl	$3,%ecx
	testb	%r8b,%r8b
	jns	3b
	cmpq	$3,%rdx
	je	1b
	movzbl	3(%rsi),%ecx
	movl	%ecx,%r8d
	andl	$127,%ecx
	shll	$21,%ecx
	orq	%rcx,%rax
	movl	$4,%ecx
	testb	%r8b,%r8b
	jns	3b
	cmpq	$4,%rdx
	je	1b
	movzbl	4(%rsi),%ecx
	movl	%ecx,%r8d
	andl	$127,%ecx
	shlq	$28,%rcx
	orq	%rcx,%rax
	movl	$5,%ecx
	testb	%r8b,%r8b
	jns	3b
	cmpq	$5,%rdx
	je	1b
	movzbl	5(%rsi),%ecx
	movl	%ecx,%r8d
	andl	$127,%ecx
	shlq	$35,%rcx
	orq	%rcx,%rax
	movl	$6,%ecx
	testb	%r8b,%r8b
	jns	3b
	cmpq	$6,%rdx
	je	1b
	movzbl	6(%rsi),%ecx
	movl	%ecx,%r8d
	andl	$127,%ecx
	shlq	$42,%rcx
	orq	%rcx,%rax
	movl	$7,%ecx
	testb	%r8b,%r8b
	jns	3b
	cmpq	$7,%rdx
	je	1b
	movzbl	7(%rsi),%ecx
	movl	%ecx,%r8d
	andl	$127,%ecx
	shlq	$49,%rcx
	orq	%rcx,%rax
	movl	$8,%ecx
	testb	%r8b,%r8b
	jns	3b
	cmpq	$8,%rdx
	je	1b
	movzbl	8(%rsi),%ecx
	movl	%ecx,%edx
	andl	$127,%ecx
	shlq	$56,%rcx
	orq	%rcx,%rax
	movl	$9,%ecx
	testb	%dl,%dl
	jns	3b
	movq	$1,(%rdi)
	movq	%rax,8(%rdi)
	movq	$9,16(%rdi)
	retq
	.size	"rtp_vla::leb::long_number_at", .-"rtp_vla::leb::long_number_at"
	.cfi_endproc

	.section	.rodata.cst16,"aM",@progbits,16
	.p2align	4,0x0
.Lrtp_CPI11_0:
	.zero	8
	.quad	1
.Lrtp_CPI11_1:
	.zero	8
	.quad	2
.Lrtp_CPI11_2:
	.byte	1
	.byte	0
	.byte	3
	.byte	2
	.byte	5
	.byte	4
	.byte	7
	.byte	6
	.byte	9
	.byte	8
	.byte	11
	.byte	10
	.byte	13
	.byte	12
	.byte	15
	.byte	14
	.section	".text.rtp_values::value::set_values::ExtensionValuesSetValues::read_layers","ax",@progbits
	.p2align	4
	.type	"rtp_values::value::set_values::ExtensionValuesSetValues::read_layers",@function
"rtp_values::value::set_values::ExtensionValuesSetValues::read_layers":
	.cfi_startproc
	pushq	%rbp
	.cfi_def_cfa_offset 16
	pushq	%r15
	.cfi_def_cfa_offset 24
	pushq	%r14
	.cfi_def_cfa_offset 32
	pushq	%r13
	.cfi_def_cfa_offset 40
	pushq	%r12
	.cfi_def_cfa_offset 48
	pushq	%rbx
	.cfi_def_cfa_offset 56
	subq	$136,%rsp
	.cfi_def_cfa_offset 192
	.cfi_offset %rbx,-56
	.cfi_offset %r12,-48
	.cfi_offset %r13,-40
	.cfi_offset %r14,-32
	.cfi_offset %r15,-24
	.cfi_offset %rbp,-16
	movq	%rdi,64(%rsp)
	testq	%rdx,%rdx
	je	1f
	movq	%rdx,%r14
	cmpq	$1,%rdx
	jne	2f
	movzbl	(%rsi),%r8d
	testb	%r8b,%r8b
	jne	3f
	movq	%rsp,%rsi
	xorl	%eax,%eax
	xorl	%edi,%edi
	movq	64(%rsp),%rdx
4:
	movzbl	176(%rdx),%ecx
	movq	192(%rdx),%rbx
	movq	200(%rdx),%r9
	movq	208(%rdx),%r8
	movq	$1,176(%rdx)
	movq	%rax,184(%rdx)
	movq	%rsi,192(%rdx)
	movq	%rdi,200(%rdx)
	movq	%rdi,208(%rdx)
	cmpb	$1,%cl
	jne	1f
	movq	%r8,56(%rsp)
	testq	%r9,%r9
	je	5f
	xorl	%r13d,%r13d
	movq	%r9,80(%rsp)
	jmp	6f
	.p2align	4
7:
	incq	%r13
	movq	80(%rsp),%r9
	cmpq	%r9,%r13
	je	5f
6:
	leaq	(,%r13,2),%rax
	addq	%r13,%rax
	movq	(%rbx,%rax,8),%r14
	movq	8(%rbx,%rax,8),%r15
	movq	16(%rbx,%rax,8),%rbp
	testq	%r15,%r15
	je	6f
	leaq	16(%r14),%r12
	jmp	8f
	.p2align	4
9:
	addq	$32,%r12
	decq	%r15
	je	6f
8:
	cmpq	$0,(%r12)
	je	9b
	movq	-16(%r12),%rdi
	callq	rattle_dealloc@PLT
	jmp	9b
	.p2align	4
6:
	testq	%rbp,%rbp
	je	7b
	movq	%r14,%rdi
	callq	rattle_dealloc@PLT
	jmp	7b
2:
	movzbl	(%rsi),%r8d
3:
	leaq	1(%rsi),%rcx
	decq	%r14
	movl	%r8d,%edi
	shrb	$4,%dil
	andb	$3,%dil
	leal	1(%rdi),%eax
	movzbl	%al,%r9d
	movl	%r8d,%eax
	andb	$15,%al
	movzbl	%al,%eax
	imull	$16843009,%eax,%edx
	movl	%edx,12(%rsp)
	testb	%al,%al
	movb	%r8b,7(%rsp)
	je	2f
	xorl	%edx,%edx
	popcntl	%eax,%edx
	movl	%r9d,%eax
	mulb	%dl
	jmp	3f
2:
	leal	1(%r9),%edx
	shrl	%edx
	subq	%rdx,%r14
	jb	1f
	leal	1(%r9),%eax
	andl	$-2,%eax
	movzbl	%dil,%r8d
	movd	%r8d,%xmm0
	pshufd	$68,%xmm0,%xmm0
	xorl	%r8d,%r8d
	testb	%r8b,%r8b
	jne	2f
	movzbl	(%rcx),%r8d
	shrb	$4,%r8b
	movb	%r8b,12(%rsp)
2:
	movdqa	.Lrtp_CPI11_0(%rip),%xmm1
	pcmpgtq	%xmm0,%xmm1
	pcmpeqd	%xmm2,%xmm2
	pxor	%xmm1,%xmm2
	pextrb	$8,%xmm2,%r8d
	testb	$1,%r8b
	je	2f
	movzbl	(%rcx),%r8d
	andb	$15,%r8b
	movb	%r8b,13(%rsp)
2:
	cmpl	$2,%eax
	je	2f
	movl	$1,%eax
	movq	%rax,%xmm1
	movdqa	%xmm0,%xmm2
	pcmpgtq	%xmm1,%xmm2
	movd	%xmm2,%eax
	testb	$1,%al
	je	6f
	movzbl	2(%rsi),%eax
	shrb	$4,%al
	movb	%al,14(%rsp)
6:
	pcmpgtq	.Lrtp_CPI11_1(%rip),%xmm0
	pextrb	$8,%xmm0,%eax
	testb	$1,%al
	je	2f
	movzbl	2(%rsi),%eax
	andb	$15,%al
	movb	%al,15(%rsp)
2:
	movzbl	12(%rsp),%eax
	popcntl	%eax,%eax
	testb	%dil,%dil
	je	2f
	movzbl	13(%rsp),%esi
	popcntl	%esi,%esi
	addb	%sil,%al
	cmpl	$2,%r9d
	je	2f
	movzbl	14(%rsp),%esi
	popcntl	%esi,%esi
	addb	%sil,%al
	cmpl	$3,%r9d
	je	2f
	movzbl	15(%rsp),%esi
	popcntl	%esi,%esi
	addb	%sil,%al
2:
	addq	%rdx,%rcx
3:
	movzbl	%al,%ebx
	leal	3(%rbx),%eax
	shrl	$2,%eax
	subq	%rax,%r14
	jae	2f
1:
	xorl	%eax,%eax
3:
	addq	$136,%rsp
	.cfi_def_cfa_offset 56
	popq	%rbx
	.cfi_def_cfa_offset 48
	popq	%r12
	.cfi_def_cfa_offset 40
	popq	%r13
	.cfi_def_cfa_offset 32
	popq	%r14
	.cfi_def_cfa_offset 24
	popq	%r15
	.cfi_def_cfa_offset 16
	popq	%rbp
	.cfi_def_cfa_offset 8
	retq
2:
	.cfi_def_cfa_offset 192
	leaq	(%rcx,%rax),%r12
	testq	%rax,%rax
	movq	%r9,16(%rsp)
	je	2f
	cmpl	$1,%eax
	jne	6f
	movzbl	(%rcx),%eax
	shll	$24,%eax
	jmp	7f
2:
	movl	$0,8(%rsp)
	movq	%r14,%rdx
	movq	%r12,%rbp
	testq	%rbx,%rbx
	jne	2f
	jmp	8f
6:
	cmpb	$8,%bl
	ja	6f
	movzwl	(%rcx),%eax
	bswapl	%eax
7:
	movl	%eax,8(%rsp)
	movq	%r14,%rdx
	movq	%r12,%rbp
	testq	%rbx,%rbx
	jne	2f
	jmp	8f
5:
	cmpq	$0,56(%rsp)
	je	1b
	movq	%rbx,%rdi
	callq	rattle_dealloc@PLT
	jmp	1b
6:
	cmpl	$3,%eax
	jne	5f
	movzbl	(%rcx),%eax
	movzwl	1(%rcx),%ecx
	shll	$8,%ecx
	orl	%eax,%ecx
	bswapl	%ecx
	movl	%ecx,8(%rsp)
	jmp	2f
5:
	movl	(%rcx),%eax
	bswapl	%eax
	movl	%eax,8(%rsp)
2:
	movl	8(%rsp),%eax
	leal	32(,%rbx,2),%ecx
	negl	%ecx
	shrq	%cl,%rax
	popcntl	%eax,%r15d
	andl	$-1431655766,%eax
	popcntl	%eax,%eax
	addq	%rbx,%r15
	movq	%r12,%rbp
	movq	%r14,%rdx
	addq	%rax,%r15
	je	2f
	movq	%r14,%rdx
	movq	%r12,%rbp
	jmp	5f
	.p2align	4
6:
	xorl	%edx,%edx
7:
	decq	%r15
	je	2f
5:
	testq	%rdx,%rdx
	je	6b
	cmpb	$0,(%rbp)
	js	5f
	decq	%rdx
	incq	%rbp
	jmp	7b
	.p2align	4
5:
	cmpq	$1,%rdx
	je	5f
	cmpb	$0,1(%rbp)
	js	5f
	movq	%rbp,%r13
	movq	%rdx,%rbp
	movl	$2,%eax
	jmp	6f
5:
	leaq	104(%rsp),%rdi
	movq	%rbp,%r13
	movq	%rbp,%rsi
	movq	%rdx,%rbp
	callq	"rtp_vla::leb::long_number_at"
	cmpb	$1,104(%rsp)
	jne	5f
	movq	120(%rsp),%rax
6:
	addq	%rax,%r13
	subq	%rax,%rbp
5:
	movq	%rbp,%rdx
	movq	%r13,%rbp
	jmp	7b
2:
	cmpq	$5,%rdx
	jae	2f
	movq	16(%rsp),%r9
	jmp	8f
2:
	movq	%rdx,%rdi
	leaq	-5(%rdx),%rax
	movl	$1,%ecx
	movq	%rbp,%rdx
	movq	16(%rsp),%r9
	.p2align	4
2:
	cmpw	$-1,(%rdx)
	je	1b
	cmpw	$-1,2(%rdx)
	je	1b
	subq	$5,%rax
	setb	%sil
	cmpq	%rbx,%rcx
	jae	1f
	incq	%rcx
	addq	$5,%rdx
	testb	%sil,%sil
	je	2b
1:
	movq	%rdi,%rdx
8:
	movq	%rdx,72(%rsp)
	movq	%r9,%r15
	leal	(,%r9,8),%eax
	leaq	(%rax,%rax,2),%rdi
	movl	$8,%esi
	callq	rattle_alloc@PLT
	movq	%rdx,24(%rsp)
	testb	$1,%al
	je	1f
	shrb	$6,7(%rsp)
	xorl	%ebx,%ebx
	movq	%r15,%rdi
	jmp	2f
5:
	movl	%r13d,8(%rsp)
	movq	16(%rsp),%rdi
	movq	32(%rsp),%rbx
	movq	48(%rsp),%rdx
	movq	128(%rsp),%r13
6:
	leaq	(%rbx,%rbx,2),%rax
	movq	24(%rsp),%rcx
	movq	%rdx,(%rcx,%rax,8)
	movq	%rbp,8(%rcx,%rax,8)
	movq	%r13,16(%rcx,%rax,8)
	incq	%rbx
	cmpq	%rdi,%rbx
	movq	64(%rsp),%rdx
	movzbl	7(%rsp),%eax
	movq	40(%rsp),%rbp
	je	7f
2:
	movzbl	12(%rsp,%rbx),%r15d
	movl	$15,%eax
	bsrl	%r15d,%eax
	xorl	$7,%eax
	movb	$8,%cl
	subb	%al,%cl
	movzbl	%cl,%r13d
	testl	%r15d,%r15d
	movq	%rbp,40(%rsp)
	je	2f
	movl	%r13d,%edi
	shll	$5,%edi
	movl	$8,%esi
	callq	rattle_alloc@PLT
	testb	$1,%al
	movq	%rbx,32(%rsp)
	je	8f
	movq	%r13,128(%rsp)
	movq	%rdx,48(%rsp)
	xorl	%ebp,%ebp
	movl	8(%rsp),%r13d
	jmp	9f
	.p2align	4
10:
	movq	40(%rsp),%rdx
	movd	(%rdx),%xmm1
	movzbl	4(%rdx),%ecx
	addq	$5,%rdx
	addq	$-5,%rax
	movq	%rax,72(%rsp)
	pshufb	.Lrtp_CPI11_2(%rip),%xmm1
	pcmpeqd	%xmm0,%xmm0
	psubw	%xmm0,%xmm1
	movdqa	%xmm1,80(%rsp)
	movw	$1,%ax
	movq	%rdx,40(%rsp)
11:
	movq	%rbp,%rdx
	shlq	$5,%rdx
	movq	48(%rsp),%rsi
	movq	%rbx,(%rsi,%rdx)
	movq	%r15,8(%rsi,%rdx)
	movq	%r15,16(%rsi,%rdx)
	movw	%ax,24(%rsi,%rdx)
	movdqa	80(%rsp),%xmm0
	movd	%xmm0,26(%rsi,%rdx)
	movb	%cl,30(%rsi,%rdx)
	movb	$0,31(%rsi,%rdx)
	incq	%rbp
	movl	56(%rsp),%r15d
	shrb	%r15b
	je	5b
9:
	pxor	%xmm0,%xmm0
	movdqa	%xmm0,80(%rsp)
	movl	%r15d,56(%rsp)
	testb	$1,%r15b
	jne	5f
	movq	%rsp,%rbx
	xorl	%r15d,%r15d
	jmp	9f
	.p2align	4
5:
	movl	%r13d,%r15d
	shrl	$30,%r15d
	leal	8(,%r15,8),%edi
	movl	$8,%esi
	callq	rattle_alloc@PLT
	testb	$1,%al
	je	5f
	movq	%rdx,%rbx
	movl	%r13d,8(%rsp)
	incl	%r15d
	xorl	%r13d,%r13d
	jmp	12f
	.p2align	4
13:
	xorl	%eax,%eax
	xorl	%r14d,%r14d
14:
	movq	%rax,(%rbx,%r13,8)
	incq	%r13
	cmpq	%r13,%r15
	je	15f
12:
	testq	%r14,%r14
	je	13b
	movsbq	(%r12),%rax
	testq	%rax,%rax
	js	12f
	decq	%r14
	incq	%r12
	jmp	14b
	.p2align	4
12:
	cmpq	$1,%r14
	je	12f
	movsbq	1(%r12),%rcx
	testq	%rcx,%rcx
	js	12f
	andl	$127,%eax
	shlq	$7,%rcx
	orq	%rcx,%rax
	movl	$2,%ecx
	jmp	13f
12:
	leaq	104(%rsp),%rdi
	movq	%r12,%rsi
	movq	%r14,%rdx
	callq	"rtp_vla::leb::long_number_at"
	cmpb	$1,104(%rsp)
	jne	12f
	movq	112(%rsp),%rax
	movq	120(%rsp),%rcx
13:
	addq	%rcx,%r12
	subq	%rcx,%r14
	jmp	14b
12:
	xorl	%eax,%eax
	jmp	14b
	.p2align	4
15:
	movl	8(%rsp),%r13d
	shll	$2,%r13d
	movq	72(%rsp),%rax
	cmpq	$5,%rax
	jae	10b
9:
	xorl	%eax,%eax
	xorl	%ecx,%ecx
	jmp	11b
2:
	xorl	%ebp,%ebp
	movq	%rsp,%rdx
	jmp	6b
5:
	testq	%rbp,%rbp
	movq	48(%rsp),%r14
	je	2f
	leaq	16(%r14),%rbx
	jmp	5f
	.p2align	4
6:
	addq	$32,%rbx
	decq	%rbp
	je	2f
5:
	cmpq	$0,(%rbx)
	je	6b
	movq	-16(%rbx),%rdi
	callq	rattle_dealloc@PLT
	jmp	6b
2:
	movq	%r14,%rdi
	callq	rattle_dealloc@PLT
	movq	32(%rsp),%rbx
8:
	testq	%rbx,%rbx
	movq	24(%rsp),%rbp
	je	2f
	xorl	%r14d,%r14d
	jmp	5f
	.p2align	4
6:
	incq	%r14
	cmpq	32(%rsp),%r14
	je	2f
5:
	leaq	(%r14,%r14,2),%rax
	movq	(%rbp,%rax,8),%rbx
	movq	8(%rbp,%rax,8),%r12
	movq	16(%rbp,%rax,8),%r15
	testq	%r12,%r12
	je	5f
	leaq	16(%rbx),%r13
	jmp	8f
	.p2align	4
9:
	addq	$32,%r13
	decq	%r12
	je	5f
8:
	cmpq	$0,(%r13)
	je	9b
	movq	-16(%r13),%rdi
	callq	rattle_dealloc@PLT
	jmp	9b
	.p2align	4
5:
	testq	%r15,%r15
	je	6b
	movq	%rbx,%rdi
	callq	rattle_dealloc@PLT
	jmp	6b
2:
	movq	%rbp,%rdi
	callq	rattle_dealloc@PLT
1:
	movb	$1,%al
	jmp	3b
7:
	movzbl	%al,%eax
	movq	24(%rsp),%rsi
	jmp	4b
	.size	"rtp_values::value::set_values::ExtensionValuesSetValues::read_layers", .-"rtp_values::value::set_values::ExtensionValuesSetValues::read_layers"
	.cfi_endproc

	.section	".text.rtp_receive::hints::Hints::learn_now","ax",@progbits
	.p2align	4
	.type	"rtp_receive::hints::Hints::learn_now",@function
"rtp_receive::hints::Hints::learn_now":
	.cfi_startproc
	pushq	%rbp
	.cfi_def_cfa_offset 16
	pushq	%r15
	.cfi_def_cfa_offset 24
	pushq	%r14
	.cfi_def_cfa_offset 32
	pushq	%r13
	.cfi_def_cfa_offset 40
	pushq	%r12
	.cfi_def_cfa_offset 48
	pushq	%rbx
	.cfi_def_cfa_offset 56
	subq	$24,%rsp
	.cfi_def_cfa_offset 80
	.cfi_offset %rbx,-56
	.cfi_offset %r12,-48
	.cfi_offset %r13,-40
	.cfi_offset %r14,-32
	.cfi_offset %r15,-24
	.cfi_offset %rbp,-16
	movq	%rsi,%rbx
	movq	%rdi,%r14
	leaq	32(%rdi),%r9
	movq	$0,32(%rdi)
	leaq	16(%rdi),%rbp
	movq	16(%rdi),%rax
	testq	%rax,%rax
	je	1f
	imull	$-1640531535,%edx,%edi
	imulq	%rax,%rdi
	shrq	$32,%rdi
	cmpq	%rdi,%rax
	jbe	2f
	movq	8(%r14),%r8
	shlq	$5,%rdi
	leaq	(%r8,%rdi),%rsi
	movdqu	(%r8,%rdi),%xmm0
	movd	%edx,%xmm1
	pshufd	$0,%xmm1,%xmm1
	pcmpeqd	%xmm0,%xmm1
	movmskps	%xmm1,%edi
	testl	%edi,%edi
	je	3f
	movzbl	%dil,%edi
	movl	$64,%r8d
	rep		bsfq	%rdi,%r8
	cmpq	$3,%r8
	ja	2f
4:
	movl	%edx,(%rsi,%r8,4)
	movl	%ecx,16(%rsi,%r8,4)
	movq	(%rbp),%rax
	jmp	5f
1:
	xorl	%eax,%eax
	jmp	5f
3:
	movdqu	16(%rsi),%xmm1
	por	%xmm0,%xmm1
	pxor	%xmm0,%xmm0
	pcmpeqd	%xmm1,%xmm0
	movmskps	%xmm0,%edi
	movl	$64,%r8d
	rep		bsfq	%rdi,%r8
	cmpq	$3,%r8
	jbe	4b
2:
	movq	$16,(%r9)
	cmpq	%rax,8(%rbx)
	jbe	1f
	movq	40(%r14),%rcx
	addq	$16,%rcx
	movq	$-1,%rdx
	cmovaeq	%rcx,%rdx
	movq	%rdx,40(%r14)
5:
	movq	40(%r14),%rcx
	incq	%rcx
	movq	$-1,%rsi
	cmovneq	%rcx,%rsi
	movq	%rsi,40(%r14)
	movq	8(%rbx),%rcx
	shrq	$3,%rcx
	cmpq	%rcx,%rax
	cmovaq	%rax,%rcx
	movq	%rcx,%rdx
	subq	%rsi,%rdx
	jbe	2f
	testq	%rax,%rax
	jne	1f
	movq	%rdx,32(%r14)
	movq	%rcx,40(%r14)
	jmp	1f
2:
	xorps	%xmm0,%xmm0
	movq	%r9,16(%rsp)
	movups	%xmm0,(%r9)
	movq	8(%r14),%rdi
	leaq	12(%rsp),%r15
	movq	%r15,8(%r14)
	cmpq	$0,24(%r14)
	movups	%xmm0,(%rbp)
	je	2f
	callq	rattle_dealloc@PLT
2:
	movq	8(%rbx),%r12
	testq	%r12,%r12
	je	2f
	movq	%r12,%rax
	shrq	$58,%rax
	jne	1f
	movq	%r12,%r13
	shlq	$5,%r13
	movl	$4,%esi
	movq	%r13,%rdi
	callq	rattle_alloc@PLT
	testb	$1,%al
	je	1f
	movq	%rdx,%r15
	cmpq	$1,%r12
	jne	3f
	xorl	%eax,%eax
	jmp	4f
2:
	xorl	%eax,%eax
	jmp	2f
3:
	addq	$-32,%r13
	movq	%r15,%rdi
	xorl	%esi,%esi
	movq	%r13,%rdx
	callq	memset@PLT
	leaq	-1(%r12),%rax
4:
	movq	%rax,%rcx
	shlq	$5,%rcx
	xorps	%xmm0,%xmm0
	movups	%xmm0,16(%r15,%rcx)
	movups	%xmm0,(%r15,%rcx)
	incq	%rax
2:
	movq	8(%r14),%rdi
	movq	%r15,8(%r14)
	movq	%rax,16(%r14)
	cmpq	$0,24(%r14)
	movq	%r12,24(%r14)
	je	2f
	callq	rattle_dealloc@PLT
2:
	movq	8(%rbx),%rax
	testq	%rax,%rax
	je	1f
	movq	(%rbx),%rcx
	movq	%rax,%rdx
	shrq	$2,%rdx
	xorl	%esi,%esi
2:
	movq	%rsi,%rdi
	shlq	$6,%rdi
	addq	%rcx,%rdi
	.p2align	4
3:
	movl	(%rdi),%r8d
	movq	(%rbp),%r9
	imull	$-1640531535,%r8d,%r10d
	imulq	%r9,%r10
	shrq	$32,%r10
	cmpq	%r10,%r9
	jbe	4f
	movq	8(%r14),%r11
	shlq	$5,%r10
	leaq	(%r11,%r10),%r9
	movdqu	(%r11,%r10),%xmm0
	movd	%r8d,%xmm1
	pshufd	$0,%xmm1,%xmm1
	pcmpeqd	%xmm0,%xmm1
	movmskps	%xmm1,%r10d
	testl	%r10d,%r10d
	je	5f
	movzbl	%r10b,%r10d
	movl	$64,%r11d
	rep		bsfq	%r10,%r11
	cmpq	$3,%r11
	jbe	6f
	jmp	4f
	.p2align	4
5:
	movdqu	16(%r9),%xmm1
	por	%xmm0,%xmm1
	pxor	%xmm0,%xmm0
	pcmpeqd	%xmm1,%xmm0
	movmskps	%xmm0,%r10d
	movl	$64,%r11d
	rep		bsfq	%r10,%r11
	cmpq	$3,%r11
	ja	4f
6:
	movl	%r8d,(%r9,%r11,4)
	movl	%esi,16(%r9,%r11,4)
	incq	%rsi
	addq	$64,%rdi
	cmpq	%rax,%rsi
	jb	3b
	jmp	1f
	.p2align	4
4:
	subq	$1,%rdx
	jb	3f
	incq	%rsi
	cmpq	%rax,%rsi
	jb	2b
	jmp	1f
3:
	movq	8(%r14),%rdi
	leaq	12(%rsp),%rax
	movq	%rax,8(%r14)
	xorps	%xmm0,%xmm0
	cmpq	$0,24(%r14)
	movups	%xmm0,(%rbp)
	je	2f
	callq	rattle_dealloc@PLT
2:
	movq	8(%rbx),%rax
	movq	%rax,%rcx
	shrq	$60,%rcx
	shlq	$4,%rax
	xorl	%edx,%edx
	negq	%rcx
	sbbq	%rdx,%rdx
	orq	%rax,%rdx
	movq	16(%rsp),%rax
	movq	%rdx,(%rax)
1:
	addq	$24,%rsp
	.cfi_def_cfa_offset 56
	popq	%rbx
	.cfi_def_cfa_offset 48
	popq	%r12
	.cfi_def_cfa_offset 40
	popq	%r13
	.cfi_def_cfa_offset 32
	popq	%r14
	.cfi_def_cfa_offset 24
	popq	%r15
	.cfi_def_cfa_offset 16
	popq	%rbp
	.cfi_def_cfa_offset 8
	retq
	.size	"rtp_receive::hints::Hints::learn_now", .-"rtp_receive::hints::Hints::learn_now"
	.cfi_endproc

	.section	".text.unlikely.std_alloc::vec::Vec::grow_amortized::<#fc13275a563fcb41>","ax",@progbits
	.p2align	4
	.type	"std_alloc::vec::Vec::grow_amortized::<#fc13275a563fcb41>",@function
"std_alloc::vec::Vec::grow_amortized::<#fc13275a563fcb41>":
	.cfi_startproc
	movq	8(%rdi),%rsi
	cmpq	$-1,%rsi
	je	1f
	pushq	%r14
	.cfi_def_cfa_offset 16
	pushq	%rbx
	.cfi_def_cfa_offset 24
	pushq	%rax
	.cfi_def_cfa_offset 32
	.cfi_offset %rbx,-24
	.cfi_offset %r14,-16
	movq	16(%rdi),%rcx
	cmpq	$4,%rsi
	movl	$3,%ebx
	cmovaeq	%rsi,%rbx
	incq	%rbx
	movq	%rcx,%rdx
	shrq	$62,%rdx
	leaq	(%rcx,%rcx),%rax
	cmpq	%rax,%rbx
	cmovaq	%rbx,%rax
	testq	%rdx,%rdx
	cmoveq	%rax,%rbx
	movq	%rbx,%rdx
	shrq	$57,%rdx
	jne	2f
	testq	%rcx,%rcx
	je	3f
	movq	%rdi,%r14
	movq	(%rdi),%rdi
	shlq	$6,%rsi
	movq	%rbx,%rdx
	shlq	$6,%rdx
	movl	$16,%ecx
	callq	rattle_realloc@PLT
	testb	$1,%al
	je	2f
4:
	movq	%rdx,(%r14)
	movq	%rbx,16(%r14)
	movb	$1,%al
	addq	$8,%rsp
	.cfi_def_cfa_offset 24
	popq	%rbx
	.cfi_def_cfa_offset 16
	popq	%r14
	.cfi_def_cfa_offset 8
	.cfi_restore %rbx
	.cfi_restore %r14
	retq
1:
	xorl	%eax,%eax
	retq
3:
	.cfi_def_cfa_offset 32
	.cfi_offset %rbx,-24
	.cfi_offset %r14,-16
	movq	%rdi,%r14
	shlq	$6,%rax
	movl	$16,%esi
	movq	%rax,%rdi
	callq	rattle_alloc@PLT
	testb	$1,%al
	jne	4b
2:
	xorl	%eax,%eax
	addq	$8,%rsp
	.cfi_def_cfa_offset 24
	popq	%rbx
	.cfi_def_cfa_offset 16
	popq	%r14
	.cfi_def_cfa_offset 8
	.cfi_restore %rbx
	.cfi_restore %r14
	retq
	.size	"std_alloc::vec::Vec::grow_amortized::<#fc13275a563fcb41>", .-"std_alloc::vec::Vec::grow_amortized::<#fc13275a563fcb41>"
	.cfi_endproc

	.section	".text.std_alloc::vec::Vec::drop::<#96fc43e7743eb198>","ax",@progbits
	.p2align	4
	.type	"std_alloc::vec::Vec::drop::<#96fc43e7743eb198>",@function
"std_alloc::vec::Vec::drop::<#96fc43e7743eb198>":
	.cfi_startproc
	pushq	%rbp
	.cfi_def_cfa_offset 16
	pushq	%r15
	.cfi_def_cfa_offset 24
	pushq	%r14
	.cfi_def_cfa_offset 32
	pushq	%r13
	.cfi_def_cfa_offset 40
	pushq	%r12
	.cfi_def_cfa_offset 48
	pushq	%rbx
	.cfi_def_cfa_offset 56
	subq	$24,%rsp
	.cfi_def_cfa_offset 80
	.cfi_offset %rbx,-56
	.cfi_offset %r12,-48
	.cfi_offset %r13,-40
	.cfi_offset %r14,-32
	.cfi_offset %r15,-24
	.cfi_offset %rbp,-16
	movq	(%rdi),%rbx
	movq	8(%rdi),%rcx
	movq	16(%rdi),%rax
	movq	%rax,8(%rsp)
	movq	%rcx,16(%rsp)
	testq	%rcx,%rcx
	je	1f
	xorl	%r13d,%r13d
	jmp	2f
	.p2align	4
3:
	incq	%r13
	cmpq	16(%rsp),%r13
	je	1f
2:
	leaq	(,%r13,2),%rax
	addq	%r13,%rax
	movq	(%rbx,%rax,8),%r14
	movq	8(%rbx,%rax,8),%r15
	movq	16(%rbx,%rax,8),%rbp
	testq	%r15,%r15
	je	2f
	leaq	16(%r14),%r12
	jmp	4f
	.p2align	4
5:
	addq	$32,%r12
	decq	%r15
	je	2f
4:
	cmpq	$0,(%r12)
	je	5b
	movq	-16(%r12),%rdi
	callq	rattle_dealloc@PLT
	jmp	5b
	.p2align	4
2:
	testq	%rbp,%rbp
	je	3b
	movq	%r14,%rdi
	callq	rattle_dealloc@PLT
	jmp	3b
1:
	cmpq	$0,8(%rsp)
	je	1f
	movq	%rbx,%rdi
	addq	$24,%rsp
	.cfi_def_cfa_offset 56
	popq	%rbx
	.cfi_def_cfa_offset 48
	popq	%r12
	.cfi_def_cfa_offset 40
	popq	%r13
	.cfi_def_cfa_offset 32
	popq	%r14
	.cfi_def_cfa_offset 24
	popq	%r15
	.cfi_def_cfa_offset 16
	popq	%rbp
	.cfi_def_cfa_offset 8
	jmp	rattle_dealloc@PLT
1:
	.cfi_def_cfa_offset 80
	addq	$24,%rsp
	.cfi_def_cfa_offset 56
	popq	%rbx
	.cfi_def_cfa_offset 48
	popq	%r12
	.cfi_def_cfa_offset 40
	popq	%r13
	.cfi_def_cfa_offset 32
	popq	%r14
	.cfi_def_cfa_offset 24
	popq	%r15
	.cfi_def_cfa_offset 16
	popq	%rbp
	.cfi_def_cfa_offset 8
	retq
	.size	"std_alloc::vec::Vec::drop::<#96fc43e7743eb198>", .-"std_alloc::vec::Vec::drop::<#96fc43e7743eb198>"
	.cfi_endproc

	.section	".text.std_collections::btree::node::Node::destroy::<#2fe7f96373f75378>","ax",@progbits
	.p2align	4
	.type	"std_collections::btree::node::Node::destroy::<#2fe7f96373f75378>",@function
"std_collections::btree::node::Node::destroy::<#2fe7f96373f75378>":
	.cfi_startproc
	pushq	%rbp
	.cfi_def_cfa_offset 16
	pushq	%r15
	.cfi_def_cfa_offset 24
	pushq	%r14
	.cfi_def_cfa_offset 32
	pushq	%r13
	.cfi_def_cfa_offset 40
	pushq	%r12
	.cfi_def_cfa_offset 48
	pushq	%rbx
	.cfi_def_cfa_offset 56
	pushq	%rax
	.cfi_def_cfa_offset 64
	.cfi_offset %rbx,-56
	.cfi_offset %r12,-48
	.cfi_offset %r13,-40
	.cfi_offset %r14,-32
	.cfi_offset %r15,-24
	.cfi_offset %rbp,-16
	movq	%rdi,%rbx
	movzwl	(%rdi),%r13d
	leaq	64(%rdi),%r14
	cmpw	$0,2(%rdi)
	je	1f
	testq	%r13,%r13
	je	2f
	leaq	184(%rbx),%rbp
	leaq	1(%r13),%r15
	jmp	3f
	.p2align	4
4:
	testq	%r13,%r13
	je	2f
3:
	movq	(%rbp),%r12
	decq	%r15
	xorl	%eax,%eax
	cmpq	$257,%r15
	jb	3f
	leaq	240(%rbx),%rcx
	.p2align	4
5:
	xorl	%edx,%edx
	.p2align	4
6:
	movups	-48(%rcx,%rdx,8),%xmm0
	movups	-32(%rcx,%rdx,8),%xmm1
	movups	-16(%rcx,%rdx,8),%xmm2
	movups	(%rcx,%rdx,8),%xmm3
	movups	%xmm0,-56(%rcx,%rdx,8)
	movups	%xmm1,-40(%rcx,%rdx,8)
	movups	%xmm2,-24(%rcx,%rdx,8)
	movups	%xmm3,-8(%rcx,%rdx,8)
	addq	$8,%rdx
	cmpq	$256,%rdx
	jne	6b
	addq	$256,%rax
	movq	%r15,%rdx
	subq	%rax,%rdx
	addq	$2048,%rcx
	cmpq	$256,%rdx
	ja	5b
	cmpq	%rax,%r15
	je	5f
6:
	leaq	(,%rax,8),%rdi
	addq	%rbp,%rdi
	leaq	8(,%rax,8),%rsi
	addq	%rbp,%rsi
	shlq	$3,%rdx
	callq	memmove@PLT
5:
	movq	%r12,%rdi
	callq	"std_collections::btree::node::Node::destroy::<#2fe7f96373f75378>"
	decq	%r13
	cmpq	$513,%r13
	jb	7f
	xorl	%esi,%esi
	leaq	56(%rbx),%rcx
	.p2align	4
8:
	xorl	%eax,%eax
	.p2align	4
9:
	movups	-48(%rcx,%rax,4),%xmm0
	movups	-32(%rcx,%rax,4),%xmm1
	movups	-16(%rcx,%rax,4),%xmm2
	movups	(%rcx,%rax,4),%xmm3
	movups	%xmm0,-52(%rcx,%rax,4)
	movups	%xmm1,-36(%rcx,%rax,4)
	movups	%xmm2,-20(%rcx,%rax,4)
	movups	%xmm3,-4(%rcx,%rax,4)
	addq	$16,%rax
	cmpq	$512,%rax
	jne	9b
	addq	$512,%rsi
	movq	%r13,%rax
	subq	%rsi,%rax
	addq	$2048,%rcx
	cmpq	$512,%rax
	ja	8b
	leaq	(,%rsi,4),%rcx
	leaq	4(%rbx),%rdx
	leaq	(%rdx,%rsi,4),%rdx
	cmpq	%rsi,%r13
	jne	8f
	jmp	9f
	.p2align	4
3:
	movq	%r15,%rdx
	cmpq	%rax,%r15
	jne	6b
	jmp	5b
	.p2align	4
7:
	xorl	%ecx,%ecx
	leaq	4(%rbx),%rdx
	movq	%r13,%rax
	xorl	%esi,%esi
	cmpq	%rsi,%r13
	je	9f
8:
	cmpq	$8,%rax
	jb	3f
	leaq	(%rcx,%rbx),%rsi
	subq	%rdx,%rsi
	cmpq	$32,%rsi
	jae	5f
3:
	xorl	%esi,%esi
3:
	movq	%rax,%r8
	movq	%rsi,%rdi
	andq	$3,%r8
	je	6f
	leaq	4(%rbx),%rdi
	leaq	(%rdi,%rcx),%r9
	movq	%rsi,%rdi
	.p2align	4
7:
	movl	4(%rdx,%rdi,4),%r10d
	movl	%r10d,(%r9,%rdi,4)
	incq	%rdi
	decq	%r8
	jne	7b
6:
	subq	%rax,%rsi
	cmpq	$-4,%rsi
	ja	9f
	leaq	16(%rbx),%rsi
	addq	%rsi,%rcx
	.p2align	4
6:
	movl	4(%rdx,%rdi,4),%esi
	movl	%esi,-12(%rcx,%rdi,4)
	movl	8(%rdx,%rdi,4),%esi
	movl	%esi,-8(%rcx,%rdi,4)
	movl	12(%rdx,%rdi,4),%esi
	movl	%esi,-4(%rcx,%rdi,4)
	movl	16(%rdx,%rdi,4),%esi
	movl	%esi,(%rcx,%rdi,4)
	addq	$4,%rdi
	cmpq	%rdi,%rax
	jne	6b
	jmp	9f
5:
	movl	%eax,%esi
	andl	$1016,%esi
	leaq	20(%rbx),%rdi
	addq	%rcx,%rdi
	xorl	%r8d,%r8d
	.p2align	4
5:
	movups	4(%rdx,%r8,4),%xmm0
	movups	20(%rdx,%r8,4),%xmm1
	movups	%xmm0,-16(%rdi,%r8,4)
	movups	%xmm1,(%rdi,%r8,4)
	addq	$8,%r8
	cmpq	%r8,%rsi
	jne	5b
	cmpq	%rsi,%rax
	jne	3b
	.p2align	4
9:
	cmpq	$257,%r13
	jb	3f
	xorl	%esi,%esi
	leaq	120(%rbx),%rcx
	.p2align	4
5:
	xorl	%eax,%eax
	.p2align	4
6:
	movups	-48(%rcx,%rax,8),%xmm0
	movups	-32(%rcx,%rax,8),%xmm1
	movups	-16(%rcx,%rax,8),%xmm2
	movups	(%rcx,%rax,8),%xmm3
	movups	%xmm0,-56(%rcx,%rax,8)
	movups	%xmm1,-40(%rcx,%rax,8)
	movups	%xmm2,-24(%rcx,%rax,8)
	movups	%xmm3,-8(%rcx,%rax,8)
	addq	$8,%rax
	cmpq	$256,%rax
	jne	6b
	addq	$256,%rsi
	movq	%r13,%rax
	subq	%rsi,%rax
	addq	$2048,%rcx
	cmpq	$256,%rax
	ja	5b
	leaq	(,%rsi,8),%rcx
	leaq	(%r14,%rsi,8),%rdx
	cmpq	%rsi,%r13
	je	4b
	jmp	5f
	.p2align	4
3:
	xorl	%ecx,%ecx
	movq	%r14,%rdx
	movq	%r13,%rax
	xorl	%esi,%esi
	cmpq	%rsi,%r13
	je	4b
5:
	cmpq	$4,%rax
	jb	3f
	leaq	56(%rbx),%rsi
	addq	%rcx,%rsi
	subq	%rdx,%rsi
	cmpq	$32,%rsi
	jae	5f
3:
	xorl	%esi,%esi
3:
	movq	%rax,%r8
	movq	%rsi,%rdi
	andq	$3,%r8
	je	6f
	leaq	(%r14,%rcx),%r9
	movq	%rsi,%rdi
	.p2align	4
7:
	movq	8(%rdx,%rdi,8),%r10
	movq	%r10,(%r9,%rdi,8)
	incq	%rdi
	decq	%r8
	jne	7b
6:
	subq	%rax,%rsi
	cmpq	$-4,%rsi
	ja	4b
	leaq	88(%rbx),%rsi
	addq	%rsi,%rcx
	.p2align	4
6:
	movq	8(%rdx,%rdi,8),%rsi
	movq	%rsi,-24(%rcx,%rdi,8)
	movq	16(%rdx,%rdi,8),%rsi
	movq	%rsi,-16(%rcx,%rdi,8)
	movq	24(%rdx,%rdi,8),%rsi
	movq	%rsi,-8(%rcx,%rdi,8)
	movq	32(%rdx,%rdi,8),%rsi
	movq	%rsi,(%rcx,%rdi,8)
	addq	$4,%rdi
	cmpq	%rdi,%rax
	jne	6b
	jmp	4b
5:
	movl	%eax,%esi
	andl	$508,%esi
	leaq	80(%rbx),%rdi
	addq	%rcx,%rdi
	xorl	%r8d,%r8d
	.p2align	4
5:
	movups	8(%rdx,%r8,8),%xmm0
	movups	24(%rdx,%r8,8),%xmm1
	movups	%xmm0,-16(%rdi,%r8,8)
	movups	%xmm1,(%rdi,%r8,8)
	addq	$4,%r8
	cmpq	%r8,%rsi
	jne	5b
	cmpq	%rsi,%rax
	je	4b
	jmp	3b
2:
	movq	184(%rbx),%rdi
	callq	"std_collections::btree::node::Node::destroy::<#2fe7f96373f75378>"
	jmp	2f
1:
	cmpw	$15,%r13w
	jbe	1f
	movl	%r13d,%r12d
	shrl	%r12d
	subq	%r12,%r13
	leaq	4(%rbx),%rdi
	leaq	(%rdi,%r13,4),%rsi
	movq	%r12,%rdx
	callq	"core::slice::edits::mirror::<24'rtp_base::id::ssrc::Ssrc>"
	leaq	(%r14,%r13,8),%rsi
	movq	%r14,%rdi
	movq	%r12,%rdx
	callq	"core::slice::edits::mirror::<i64>"
	jmp	2f
1:
	cmpw	$2,%r13w
	jb	2f
	leaq	-2(%r13),%rcx
	movq	%rcx,%rax
	shrq	%rax
	cmpq	$1,%r13
	je	1f
	leaq	4(%rbx),%rdi
	movl	(%rdi),%edx
	movl	-4(%rdi,%r13,4),%esi
	movl	%esi,(%rdi)
	movl	%edx,-4(%rdi,%r13,4)
1:
	testq	%rax,%rax
	je	1f
	cmpq	$1,%rcx
	jbe	3f
	movl	8(%rbx),%ecx
	movl	-4(%rbx,%r13,4),%edx
	movl	%edx,8(%rbx)
	movl	%ecx,-4(%rbx,%r13,4)
	jmp	4f
3:
	testq	%rcx,%rcx
	jne	4f
	rolq	$32,4(%rbx)
4:
	cmpq	$1,%rax
	je	1f
	leaq	-3(%r13),%rcx
	cmpq	$2,%rcx
	jbe	3f
	movl	12(%rbx),%ecx
	movl	-8(%rbx,%r13,4),%edx
	movl	%edx,12(%rbx)
	movl	%ecx,-8(%rbx,%r13,4)
	jmp	4f
3:
	cmpl	$2,%ecx
	je	4f
	movl	-8(%rbx,%r13,4),%ecx
	movl	12(%rbx),%edx
	movl	%edx,-8(%rbx,%r13,4)
	movl	%ecx,12(%rbx)
4:
	cmpq	$2,%rax
	je	1f
	leaq	-4(%r13),%rcx
	cmpq	$3,%rcx
	jbe	3f
	movl	16(%rbx),%ecx
	movl	-12(%rbx,%r13,4),%edx
	movl	%edx,16(%rbx)
	movl	%ecx,-12(%rbx,%r13,4)
	jmp	4f
3:
	cmpl	$3,%ecx
	je	4f
	movl	-12(%rbx,%r13,4),%ecx
	movl	16(%rbx),%edx
	movl	%edx,-12(%rbx,%r13,4)
	movl	%ecx,16(%rbx)
4:
	cmpq	$3,%rax
	je	1f
	leaq	-5(%r13),%rcx
	cmpq	$4,%rcx
	jbe	3f
	movl	20(%rbx),%ecx
	movl	-16(%rbx,%r13,4),%edx
	movl	%edx,20(%rbx)
	movl	%ecx,-16(%rbx,%r13,4)
	jmp	4f
3:
	cmpl	$4,%ecx
	je	4f
	movl	-16(%rbx,%r13,4),%ecx
	movl	20(%rbx),%edx
	movl	%edx,-16(%rbx,%r13,4)
	movl	%ecx,20(%rbx)
4:
	cmpq	$4,%rax
	je	1f
	leaq	-6(%r13),%rcx
	cmpq	$5,%rcx
	jbe	3f
	movl	24(%rbx),%ecx
	movl	-20(%rbx,%r13,4),%edx
	movl	%edx,24(%rbx)
	movl	%ecx,-20(%rbx,%r13,4)
	jmp	4f
3:
	cmpl	$5,%ecx
	je	4f
	movl	-20(%rbx,%r13,4),%ecx
	movl	24(%rbx),%edx
	movl	%edx,-20(%rbx,%r13,4)
	movl	%ecx,24(%rbx)
4:
	cmpq	$5,%rax
	je	1f
	leaq	-7(%r13),%rcx
	cmpq	$6,%rcx
	jbe	3f
	movl	28(%rbx),%ecx
	movl	-24(%rbx,%r13,4),%edx
	movl	%edx,28(%rbx)
	movl	%ecx,-24(%rbx,%r13,4)
	jmp	1f
3:
	cmpl	$6,%ecx
	je	1f
	movl	-24(%rbx,%r13,4),%ecx
	movl	28(%rbx),%edx
	movl	%edx,-24(%rbx,%r13,4)
	movl	%ecx,28(%rbx)
1:
	incq	%rax
	decq	%r13
	xorl	%ecx,%ecx
	jmp	1f
	.p2align	4
3:
	movq	(%r14,%rcx,8),%rdx
	movq	(%r14,%r13,8),%rsi
	movq	%rsi,(%r14,%rcx,8)
	movq	%rdx,(%r14,%r13,8)
4:
	incq	%rcx
	decq	%r13
	cmpq	%rcx,%rax
	je	2f
1:
	cmpq	%r13,%rcx
	jb	3b
	jbe	4b
	movq	(%r14,%r13,8),%rdx
	movq	(%r14,%rcx,8),%rsi
	movq	%rsi,(%r14,%r13,8)
	movq	%rdx,(%r14,%rcx,8)
	jmp	4b
2:
	movq	%rbx,%rdi
	addq	$8,%rsp
	.cfi_def_cfa_offset 56
	popq	%rbx
	.cfi_def_cfa_offset 48
	popq	%r12
	.cfi_def_cfa_offset 40
	popq	%r13
	.cfi_def_cfa_offset 32
	popq	%r14
	.cfi_def_cfa_offset 24
	popq	%r15
	.cfi_def_cfa_offset 16
	popq	%rbp
	.cfi_def_cfa_offset 8
	jmp	rattle_dealloc@PLT
	.size	"std_collections::btree::node::Node::destroy::<#2fe7f96373f75378>", .-"std_collections::btree::node::Node::destroy::<#2fe7f96373f75378>"
	.cfi_endproc

	.section	".text.core::slice::edits::mirror::<24'rtp_base::id::ssrc::Ssrc>","ax",@progbits
	.p2align	4
	.type	"core::slice::edits::mirror::<24'rtp_base::id::ssrc::Ssrc>",@function
"core::slice::edits::mirror::<24'rtp_base::id::ssrc::Ssrc>":
	.cfi_startproc
	leaq	(%rdi,%rdx,4),%rax
	leaq	(%rsi,%rdx,4),%rcx
	cmpq	%rcx,%rdi
	setb	%cl
	cmpq	%rax,%rsi
	setb	%al
	testb	%al,%cl
	je	1f
	xorl	%eax,%eax
	jmp	2f
1:
	movabsq	$9223372036854775804,%rax
	andq	%rdx,%rax
	movq	%rdx,%rcx
	andq	$-4,%rcx
	negq	%rcx
	leaq	(%rsi,%rdx,4),%r8
	addq	$-16,%r8
	xorl	%r9d,%r9d
	movq	%rdi,%r10
	.p2align	4
1:
	movdqu	(%r10),%xmm0
	movdqu	(%r8,%r9,4),%xmm1
	pshufd	$27,%xmm1,%xmm1
	movdqu	%xmm1,(%r10)
	pshufd	$27,%xmm0,%xmm0
	movdqu	%xmm0,(%r8,%r9,4)
	addq	$-4,%r9
	addq	$16,%r10
	cmpq	%r9,%rcx
	jne	1b
	cmpq	%rax,%rdx
	je	1f
2:
	movq	%rax,%rcx
	orq	$1,%rcx
	testb	$1,%dl
	je	2f
	movq	%rax,%r8
	notq	%r8
	addq	%rdx,%r8
	movl	(%rdi,%rax,4),%r9d
	movl	(%rsi,%r8,4),%r10d
	movl	%r10d,(%rdi,%rax,4)
	movl	%r9d,(%rsi,%r8,4)
	movq	%rcx,%rax
2:
	cmpq	%rcx,%rdx
	je	1f
	subq	%rax,%rdx
	leaq	(%rdi,%rax,4),%rax
	addq	$4,%rax
	.p2align	4
2:
	movl	-4(%rax),%ecx
	movl	-4(%rsi,%rdx,4),%edi
	movl	%edi,-4(%rax)
	movl	%ecx,-4(%rsi,%rdx,4)
	movl	(%rax),%ecx
	movl	-8(%rsi,%rdx,4),%edi
	movl	%edi,(%rax)
	movl	%ecx,-8(%rsi,%rdx,4)
	addq	$8,%rax
	addq	$-2,%rdx
	jne	2b
1:
	retq
	.size	"core::slice::edits::mirror::<24'rtp_base::id::ssrc::Ssrc>", .-"core::slice::edits::mirror::<24'rtp_base::id::ssrc::Ssrc>"
	.cfi_endproc

	.section	".text.core::slice::edits::mirror::<i64>","ax",@progbits
	.p2align	4
	.type	"core::slice::edits::mirror::<i64>",@function
"core::slice::edits::mirror::<i64>":
	.cfi_startproc
	leaq	(%rdi,%rdx,8),%rax
	leaq	(%rsi,%rdx,8),%rcx
	cmpq	%rcx,%rdi
	setb	%cl
	cmpq	%rax,%rsi
	setb	%al
	testb	%al,%cl
	je	1f
	xorl	%eax,%eax
	jmp	2f
1:
	movabsq	$9223372036854775806,%rax
	andq	%rdx,%rax
	movq	%rdx,%rcx
	andq	$-2,%rcx
	negq	%rcx
	leaq	(%rsi,%rdx,8),%r8
	addq	$-16,%r8
	xorl	%r9d,%r9d
	movq	%rdi,%r10
	.p2align	4
1:
	movdqu	(%r10),%xmm0
	movdqu	(%r8,%r9,8),%xmm1
	pshufd	$78,%xmm1,%xmm1
	movdqu	%xmm1,(%r10)
	pshufd	$78,%xmm0,%xmm0
	movdqu	%xmm0,(%r8,%r9,8)
	addq	$-2,%r9
	addq	$16,%r10
	cmpq	%r9,%rcx
	jne	1b
	cmpq	%rax,%rdx
	je	1f
2:
	movq	%rax,%rcx
	orq	$1,%rcx
	testb	$1,%dl
	je	2f
	movq	%rax,%r8
	notq	%r8
	addq	%rdx,%r8
	movq	(%rdi,%rax,8),%r9
	movq	(%rsi,%r8,8),%r10
	movq	%r10,(%rdi,%rax,8)
	movq	%r9,(%rsi,%r8,8)
	movq	%rcx,%rax
2:
	cmpq	%rcx,%rdx
	je	1f
	subq	%rax,%rdx
	leaq	(%rdi,%rax,8),%rax
	addq	$8,%rax
	.p2align	4
2:
	movq	-8(%rax),%rcx
	movq	-8(%rsi,%rdx,8),%rdi
	movq	%rdi,-8(%rax)
	movq	%rcx,-8(%rsi,%rdx,8)
	movq	(%rax),%rcx
	movq	-16(%rsi,%rdx,8),%rdi
	movq	%rdi,(%rax)
	movq	%rcx,-16(%rsi,%rdx,8)
	addq	$16,%rax
	addq	$-2,%rdx
	jne	2b
1:
	retq
	.size	"core::slice::edits::mirror::<i64>", .-"core::slice::edits::mirror::<i64>"
	.cfi_endproc

	.section	".text.unlikely.core::fmt::formatter::Formatter::write_indented::<#5e1603e38c63b5f6>","ax",@progbits
	.p2align	4
	.type	"core::fmt::formatter::Formatter::write_indented::<#5e1603e38c63b5f6>",@function
"core::fmt::formatter::Formatter::write_indented::<#5e1603e38c63b5f6>":
	.cfi_startproc
	pushq	%rbp
	.cfi_def_cfa_offset 16
	pushq	%r15
	.cfi_def_cfa_offset 24
	pushq	%r14
	.cfi_def_cfa_offset 32
	pushq	%r13
	.cfi_def_cfa_offset 40
	pushq	%r12
	.cfi_def_cfa_offset 48
	pushq	%rbx
	.cfi_def_cfa_offset 56
	pushq	%rax
	.cfi_def_cfa_offset 64
	.cfi_offset %rbx,-56
	.cfi_offset %r12,-48
	.cfi_offset %r13,-40
	.cfi_offset %r14,-32
	.cfi_offset %r15,-24
	.cfi_offset %rbp,-16
	testq	%rdx,%rdx
	je	1f
	movq	%rsi,%r14
	movq	%rdi,%r15
	xorl	%ecx,%ecx
	xorl	%ebp,%ebp
	movq	%rdx,(%rsp)
	jmp	2f
	.p2align	4
3:
	addq	%r14,%r13
	movb	$1,56(%r15)
	movq	%r15,%rdi
	movq	%r13,%rsi
	movq	%r12,%rdx
	callq	"core::fmt::formatter::Formatter::write_raw::<#5e1603e38c63b5f6>"
	movq	%rbp,%rcx
	testb	%al,%al
	movq	(%rsp),%rdx
	jne	4f
5:
	cmpq	%rdx,%rbp
	je	6f
2:
	movq	%rbp,%rax
	incq	%rbp
	cmpb	$10,(%r14,%rax)
	jne	5b
	xorl	%r13d,%r13d
	movq	%rbp,%r12
	subq	%rcx,%r12
	cmovaeq	%rcx,%r13
	cmpq	%rax,%rcx
	movq	%rbp,%rcx
	ja	5b
	cmpb	$1,56(%r15)
	jne	3b
	movq	48(%r15),%rbx
	testq	%rbx,%rbx
	je	3b
	.p2align	4
2:
	leaq	.Lrtp_static.66(%rip),%rsi
	movl	$4,%edx
	movq	%r15,%rdi
	callq	"core::fmt::formatter::Formatter::write_raw::<#5e1603e38c63b5f6>"
	testb	%al,%al
	jne	4f
	decq	%rbx
	jne	2b
	jmp	3b
1:
	xorl	%eax,%eax
	jmp	1f
6:
	xorl	%eax,%eax
	cmpq	%rdx,%rcx
	movq	%rcx,%r12
	cmovaq	%rax,%r12
	subq	%rcx,%rdx
	cmovbq	%rax,%rdx
	jbe	1f
	movq	%rdx,%r13
	cmpb	$1,56(%r15)
	jne	2f
	movq	48(%r15),%rbx
	testq	%rbx,%rbx
	je	2f
	.p2align	4
3:
	leaq	.Lrtp_static.66(%rip),%rsi
	movl	$4,%edx
	movq	%r15,%rdi
	callq	"core::fmt::formatter::Formatter::write_raw::<#5e1603e38c63b5f6>"
	testb	%al,%al
	jne	4f
	decq	%rbx
	jne	3b
2:
	addq	%r12,%r14
	movb	$0,56(%r15)
	movq	%r15,%rdi
	movq	%r14,%rsi
	movq	%r13,%rdx
	addq	$8,%rsp
	.cfi_def_cfa_offset 56
	popq	%rbx
	.cfi_def_cfa_offset 48
	popq	%r12
	.cfi_def_cfa_offset 40
	popq	%r13
	.cfi_def_cfa_offset 32
	popq	%r14
	.cfi_def_cfa_offset 24
	popq	%r15
	.cfi_def_cfa_offset 16
	popq	%rbp
	.cfi_def_cfa_offset 8
	jmp	"core::fmt::formatter::Formatter::write_raw::<#5e1603e38c63b5f6>"
4:
	.cfi_def_cfa_offset 64
	movb	$1,%al
1:
	addq	$8,%rsp
	.cfi_def_cfa_offset 56
	popq	%rbx
	.cfi_def_cfa_offset 48
	popq	%r12
	.cfi_def_cfa_offset 40
	popq	%r13
	.cfi_def_cfa_offset 32
	popq	%r14
	.cfi_def_cfa_offset 24
	popq	%r15
	.cfi_def_cfa_offset 16
	popq	%rbp
	.cfi_def_cfa_offset 8
	retq
	.size	"core::fmt::formatter::Formatter::write_indented::<#5e1603e38c63b5f6>", .-"core::fmt::formatter::Formatter::write_indented::<#5e1603e38c63b5f6>"
	.cfi_endproc

	.section	".text.core::fmt::formatter::Formatter::write_raw::<#5e1603e38c63b5f6>","ax",@progbits
	.p2align	4
	.type	"core::fmt::formatter::Formatter::write_raw::<#5e1603e38c63b5f6>",@function
"core::fmt::formatter::Formatter::write_raw::<#5e1603e38c63b5f6>":
	.cfi_startproc
	testq	%rdx,%rdx
	je	1f
	xorl	%ecx,%ecx
	jmp	2f
	.p2align	4
3:
	addq	%r10,%rcx
	cmpq	%rdx,%rcx
	jae	1f
2:
	movzbl	(%rsi,%rcx),%r8d
	movl	$1,%r10d
	testb	%r8b,%r8b
	jns	3b
	leaq	1(%rcx),%r9
	movb	$1,%al
	cmpq	%r9,%rdx
	jbe	2f
	movzbl	(%rsi,%r9),%r9d
	testb	%r9b,%r9b
	jns	2f
	movzbl	%r9b,%r10d
	cmpb	$-64,%r9b
	movl	$192,%r9d
	cmovbl	%r10d,%r9d
	cmpb	$-62,%r8b
	jb	2f
	movl	%r9d,%r10d
	andb	$127,%r10b
	cmpb	$63,%r10b
	ja	2f
	movl	$2,%r10d
	cmpb	$-32,%r8b
	jb	3b
	leaq	2(%rcx),%r10
	cmpq	%r10,%rdx
	jbe	2f
	cmpb	$-65,(%rsi,%r10)
	jg	2f
	andl	$127,%r9d
	cmpb	$-17,%r8b
	ja	4f
	movl	%r8d,%r10d
	shll	$12,%r10d
	shll	$6,%r9d
	addl	%r10d,%r9d
	addl	$-917504,%r9d
	cmpl	$2048,%r9d
	jb	2f
	movl	$3,%r10d
	cmpl	$55296,%r9d
	jb	3b
	cmpb	$-18,%r8b
	jae	3b
	jmp	2f
4:
	leaq	3(%rcx),%r10
	cmpq	%r10,%rdx
	jbe	2f
	cmpb	$-65,(%rsi,%r10)
	jg	2f
	shll	$18,%r8d
	shll	$12,%r9d
	addl	%r9d,%r8d
	addl	$-62980096,%r8d
	movl	$4,%r10d
	cmpl	$1048575,%r8d
	jbe	3b
2:
	retq
1:
	pushq	%r15
	.cfi_def_cfa_offset 16
	pushq	%r14
	.cfi_def_cfa_offset 24
	pushq	%r12
	.cfi_def_cfa_offset 32
	pushq	%rbx
	.cfi_def_cfa_offset 40
	pushq	%rax
	.cfi_def_cfa_offset 48
	.cfi_offset %rbx,-40
	.cfi_offset %r12,-32
	.cfi_offset %r14,-24
	.cfi_offset %r15,-16
	movq	8(%rdi),%rcx
	movq	16(%rdi),%rbx
	movq	%rbx,%rax
	subq	%rcx,%rax
	cmpq	%rax,%rdx
	ja	1f
2:
	leaq	8(%rdi),%rax
	leaq	(%rcx,%rdx),%r14
	movq	(%rdi),%r15
	xorps	%xmm0,%xmm0
	movups	%xmm0,(%rax)
	leaq	(%r15,%rcx),%rax
	movq	%rax,%r8
	subq	%rsi,%r8
	cmpq	%rdx,%r8
	jae	3f
	cmpq	$4,%rdx
	jb	4f
	cmpq	$32,%r8
	jae	5f
4:
	xorl	%r8d,%r8d
4:
	movq	%rdx,%r10
	movq	%r8,%r9
	andq	$3,%r10
	je	6f
	movq	%r8,%r9
	.p2align	4
7:
	movzbl	(%rsi,%r9),%r11d
	movb	%r11b,(%rax,%r9)
	incq	%r9
	decq	%r10
	jne	7b
6:
	subq	%rdx,%r8
	cmpq	$-4,%r8
	ja	6f
	leaq	(%rcx,%r15),%rax
	addq	$3,%rax
	.p2align	4
7:
	movzbl	(%rsi,%r9),%ecx
	movb	%cl,-3(%rax,%r9)
	movzbl	1(%rsi,%r9),%ecx
	movb	%cl,-2(%rax,%r9)
	movzbl	2(%rsi,%r9),%ecx
	movb	%cl,-1(%rax,%r9)
	movzbl	3(%rsi,%r9),%ecx
	movb	%cl,(%rax,%r9)
	addq	$4,%r9
	cmpq	%r9,%rdx
	jne	7b
	jmp	6f
3:
	movq	%rdi,%r12
	movq	%rax,%rdi
	callq	memmove@PLT
	movq	%r12,%rdi
6:
	movq	%r15,(%rdi)
	movq	%r14,8(%rdi)
	movq	%rbx,16(%rdi)
	xorl	%eax,%eax
3:
	addq	$8,%rsp
	.cfi_def_cfa_offset 40
	popq	%rbx
	.cfi_def_cfa_offset 32
	popq	%r12
	.cfi_def_cfa_offset 24
	popq	%r14
	.cfi_def_cfa_offset 16
	popq	%r15
	.cfi_def_cfa_offset 8
	.cfi_restore %rbx
	.cfi_restore %r12
	.cfi_restore %r14
	.cfi_restore %r15
	retq
5:
	.cfi_def_cfa_offset 48
	.cfi_offset %rbx,-40
	.cfi_offset %r12,-32
	.cfi_offset %r14,-24
	.cfi_offset %r15,-16
	cmpq	$32,%rdx
	jae	5f
	xorl	%r8d,%r8d
	jmp	7f
5:
	movq	%rdx,%r8
	andq	$-32,%r8
	leaq	(%rcx,%r15),%r9
	addq	$16,%r9
	xorl	%r10d,%r10d
	.p2align	4
5:
	movups	(%rsi,%r10),%xmm0
	movups	16(%rsi,%r10),%xmm1
	movups	%xmm0,-16(%r9,%r10)
	movups	%xmm1,(%r9,%r10)
	addq	$32,%r10
	cmpq	%r10,%r8
	jne	5b
	cmpq	%r8,%rdx
	je	6b
	testb	$28,%dl
	je	4b
7:
	movq	%r8,%r9
	movq	%rdx,%r8
	andq	$-4,%r8
	.p2align	4
5:
	movl	(%rsi,%r9),%r10d
	movl	%r10d,(%rax,%r9)
	addq	$4,%r9
	cmpq	%r9,%r8
	jne	5b
	cmpq	%r8,%rdx
	je	6b
	jmp	4b
1:
	movq	%rdi,%rbx
	movq	%rsi,%r14
	movq	%rdx,%rsi
	movq	%rdx,%r15
	callq	"std_alloc::vec::Vec::grow_amortized::<#9d744d77114e6601>"
	movl	%eax,%ecx
	movb	$1,%al
	testb	%cl,%cl
	je	3b
	movq	%r14,%rsi
	movq	%r15,%rdx
	movq	%rbx,%rdi
	movq	8(%rbx),%rcx
	movq	16(%rbx),%rbx
	jmp	2b
	.size	"core::fmt::formatter::Formatter::write_raw::<#5e1603e38c63b5f6>", .-"core::fmt::formatter::Formatter::write_raw::<#5e1603e38c63b5f6>"
	.cfi_endproc

	.section	.rodata.cst16,"aM",@progbits,16
	.p2align	4,0x0
.Lrtp_CPI20_0:
	.byte	0
	.byte	1
	.byte	2
	.byte	3
	.byte	4
	.byte	5
	.byte	6
	.byte	7
	.byte	8
	.byte	9
	.byte	10
	.byte	11
	.byte	12
	.byte	13
	.byte	14
	.byte	15
.Lrtp_CPI20_1:
	.byte	16
	.byte	17
	.byte	18
	.byte	19
	.byte	20
	.byte	21
	.byte	22
	.byte	23
	.byte	24
	.byte	25
	.byte	26
	.byte	27
	.byte	28
	.byte	29
	.byte	30
	.byte	31
	.section	".text.rtp_listing::printing::write_text::<#df9e9f1468b30f79>","ax",@progbits
	.p2align	4
	.type	"rtp_listing::printing::write_text::<#df9e9f1468b30f79>",@function
"rtp_listing::printing::write_text::<#df9e9f1468b30f79>":
	.cfi_startproc
	pushq	%r15
	.cfi_def_cfa_offset 16
	pushq	%r14
	.cfi_def_cfa_offset 24
	pushq	%rbx
	.cfi_def_cfa_offset 32
	subq	$96,%rsp
	.cfi_def_cfa_offset 128
	.cfi_offset %rbx,-32
	.cfi_offset %r14,-24
	.cfi_offset %r15,-16
	movq	%rsi,%rbx
	movq	%rdi,%r14
	movq	$-1,%r15
	jmp	1f
	.p2align	4
2:
	decq	%r15
	je	3f
1:
	testq	%rbx,%rbx
	je	1f
	movl	$1,%edi
	movq	%r14,%rsi
	movq	%rbx,%rdx
	callq	write@PLT
	testq	%rax,%rax
	js	4f
	je	3f
	cmpq	%rbx,%rax
	cmovaeq	%rbx,%rax
	addq	%rax,%r14
	subq	%rax,%rbx
	jmp	2b
	.p2align	4
4:
	movq	%rsp,%rdi
	callq	"std_io::io::error::last_error"
	movq	(%rsp),%rax
	shrq	$8,%rax
	movaps	.Lrtp_CPI20_0(%rip),%xmm0
	movaps	%xmm0,(%rsp)
	movaps	.Lrtp_CPI20_1(%rip),%xmm0
	movaps	%xmm0,16(%rsp)
	movabsq	$2820983053732684064,%rcx
	movq	%rcx,32(%rsp)
	movb	$40,40(%rsp)
	cmpb	$41,%al
	jae	3f
	andl	$63,%eax
	cmpb	$35,(%rsp,%rax)
	je	2b
3:
	movb	$1,%al
	movb	$3,%dl
	jmp	2f
1:
	xorl	%edx,%edx
	xorl	%eax,%eax
2:
	addq	$96,%rsp
	.cfi_def_cfa_offset 32
	popq	%rbx
	.cfi_def_cfa_offset 24
	popq	%r14
	.cfi_def_cfa_offset 16
	popq	%r15
	.cfi_def_cfa_offset 8
	retq
	.size	"rtp_listing::printing::write_text::<#df9e9f1468b30f79>", .-"rtp_listing::printing::write_text::<#df9e9f1468b30f79>"
	.cfi_endproc

	.section	.rodata.cst16,"aM",@progbits,16
	.p2align	4,0x0
.Lrtp_CPI21_0:
	.byte	116
	.byte	104
	.byte	105
	.byte	115
	.byte	32
	.byte	109
	.byte	97
	.byte	99
	.byte	104
	.byte	105
	.byte	110
	.byte	101
	.byte	32
	.byte	108
	.byte	97
	.byte	99
.Lrtp_CPI21_1:
	.byte	107
	.byte	115
	.byte	32
	.byte	97
	.byte	32
	.byte	102
	.byte	101
	.byte	97
	.byte	116
	.byte	117
	.byte	114
	.byte	101
	.byte	32
	.byte	111
	.byte	102
	.byte	32
.Lrtp_CPI21_2:
	.byte	120
	.byte	56
	.byte	54
	.byte	45
	.byte	54
	.byte	52
	.byte	45
	.byte	118
	.byte	50
	.byte	44
	.byte	32
	.byte	119
	.byte	104
	.byte	105
	.byte	99
	.byte	104
.Lrtp_CPI21_3:
	.byte	32
	.byte	116
	.byte	104
	.byte	105
	.byte	115
	.byte	32
	.byte	112
	.byte	114
	.byte	111
	.byte	103
	.byte	114
	.byte	97
	.byte	109
	.byte	32
	.byte	119
	.byte	97
.Lrtp_CPI21_4:
	.byte	115
	.byte	32
	.byte	98
	.byte	117
	.byte	105
	.byte	108
	.byte	116
	.byte	32
	.byte	102
	.byte	111
	.byte	114
	.byte	58
	.byte	32
	.byte	114
	.byte	117
	.byte	110
.Lrtp_CPI21_5:
	.byte	32
	.byte	105
	.byte	116
	.byte	32
	.byte	111
	.byte	110
	.byte	32
	.byte	97
	.byte	110
	.byte	111
	.byte	116
	.byte	104
	.byte	101
	.byte	114
	.byte	32
	.byte	109
.Lrtp_CPI21_6:
	.byte	97
	.byte	99
	.byte	104
	.byte	105
	.byte	110
	.byte	101
	.byte	44
	.byte	32
	.byte	111
	.byte	114
	.byte	32
	.byte	98
	.byte	117
	.byte	105
	.byte	108
	.byte	100
.Lrtp_CPI21_7:
	.byte	32
	.byte	105
	.byte	116
	.byte	32
	.byte	119
	.byte	105
	.byte	116
	.byte	104
	.byte	32
	.byte	45
	.byte	45
	.byte	99
	.byte	112
	.byte	117
	.byte	32
	.byte	120
	.section	.text.main,"ax",@progbits
	.globl	main
	.p2align	4
	.type	main,@function
main:
	.cfi_startproc
	pushq	%rbp
	.cfi_def_cfa_offset 16
	.cfi_offset %rbp,-16
	movq	%rsp,%rbp
	.cfi_def_cfa_register %rbp
	pushq	%rbx
	pushq	%rax
	.cfi_offset %rbx,-24
	movl	$1,%esi
	movl	$13,%edi
	callq	__sysv_signal@PLT
	xorl	%edi,%edi
	callq	__x86_get_cpuid_feature_leaf@PLT
	movl	24(%rax),%ebx
	movl	$2,%edi
	callq	__x86_get_cpuid_feature_leaf@PLT
	notl	%ebx
	testl	$9970177,%ebx
	jne	1f
	movl	24(%rax),%eax
	andl	$1,%eax
	je	1f
	leaq	-8(%rbp),%rsp
	popq	%rbx
	popq	%rbp
	.cfi_def_cfa %rsp,8
	jmp	"rtp_lines::main+start"
1:
	.cfi_def_cfa %rbp,16
	movq	%rsp,%rsi
	subq	$144,%rsi
	cmpq	%rsp,%rsi
	jge	1f
2:
	xorq	$0,(%rsp)
	subq	$3072,%rsp
	cmpq	%rsp,%rsi
	jl	2b
1:
	movq	%rsi,%rsp
	movaps	.Lrtp_CPI21_0(%rip),%xmm0
	movaps	%xmm0,(%rsi)
	movaps	.Lrtp_CPI21_1(%rip),%xmm0
	movaps	%xmm0,16(%rsi)
	movaps	.Lrtp_CPI21_2(%rip),%xmm0
	movaps	%xmm0,32(%rsi)
	movaps	.Lrtp_CPI21_3(%rip),%xmm0
	movaps	%xmm0,48(%rsi)
	movaps	.Lrtp_CPI21_4(%rip),%xmm0
	movaps	%xmm0,64(%rsi)
	movaps	.Lrtp_CPI21_5(%rip),%xmm0
	movaps	%xmm0,80(%rsi)
	movaps	.Lrtp_CPI21_6(%rip),%xmm0
	movaps	%xmm0,96(%rsi)
	movaps	.Lrtp_CPI21_7(%rip),%xmm0
	movaps	%xmm0,112(%rsi)
	movl	$908932664,128(%rsi)
	movw	$2612,132(%rsi)
	movl	$134,%edx
	movl	$2,%edi
	callq	__write@PLT
	movl	$127,%eax
	leaq	-8(%rbp),%rsp
	popq	%rbx
	popq	%rbp
	.cfi_def_cfa %rsp,8
	retq
	.size	main,.-main
	.cfi_endproc

	.type	.Lrtp_static.0,@object
	.section	.rodata..Lrtp_static.0,"a",@progbits
.Lrtp_static.0:
	.ascii	"want of memory\n"
	.size	.Lrtp_static.0,15

	.type	.Lrtp_static.3,@object
	.section	.rodata..Lrtp_static.3,"a",@progbits
.Lrtp_static.3:
	.ascii	"line "
	.size	.Lrtp_static.3,5

	.type	.Lrtp_static.4,@object
	.section	.rodata..Lrtp_static.4,"a",@progbits
.Lrtp_static.4:
	.ascii	": neither a map line nor hex\n"
	.size	.Lrtp_static.4,29

	.type	.Lrtp_static.5,@object
	.section	.rodata..Lrtp_static.5,"a",@progbits
.Lrtp_static.5:
	.size	.Lrtp_static.5,0

	.type	.Lrtp_static.7,@object
	.section	.rodata..Lrtp_static.7,"a",@progbits
.Lrtp_static.7:
	.ascii	"http://www.webrtc.org/experiments/rtp-hdrext/abs-send-time"
	.size	.Lrtp_static.7,58

	.type	.Lrtp_static.9,@object
	.section	.rodata..Lrtp_static.9,"a",@progbits
.Lrtp_static.9:
	.ascii	"http://www.webrtc.org/experiments/rtp-hdrext/abs-capture-time"
	.size	.Lrtp_static.9,61

	.type	.Lrtp_static.11,@object
	.section	.rodata..Lrtp_static.11,"a",@progbits
.Lrtp_static.11:
	.ascii	"urn:ietf:params:rtp-hdrext:ssrc-audio-level"
	.size	.Lrtp_static.11,43

	.type	.Lrtp_static.13,@object
	.section	.rodata..Lrtp_static.13,"a",@progbits
.Lrtp_static.13:
	.ascii	"urn:ietf:params:rtp-hdrext:toffset"
	.size	.Lrtp_static.13,34

	.type	.Lrtp_static.17,@object
	.section	.rodata..Lrtp_static.17,"a",@progbits
.Lrtp_static.17:
	.ascii	"http://www.ietf.org/id/draft-holmer-rmcat-transport-wide-cc-extensions-01"
	.size	.Lrtp_static.17,73

	.type	.Lrtp_static.21,@object
	.section	.rodata..Lrtp_static.21,"a",@progbits
.Lrtp_static.21:
	.ascii	"http://www.webrtc.org/experiments/rtp-hdrext/video-content-type"
	.size	.Lrtp_static.21,63

	.type	.Lrtp_static.23,@object
	.section	.rodata..Lrtp_static.23,"a",@progbits
.Lrtp_static.23:
	.ascii	"http://www.webrtc.org/experiments/rtp-hdrext/video-timing"
	.size	.Lrtp_static.23,57

	.type	.Lrtp_static.25,@object
	.section	.rodata..Lrtp_static.25,"a",@progbits
.Lrtp_static.25:
	.ascii	"urn:ietf:params:rtp-hdrext:sdes:rtp-stream-id"
	.size	.Lrtp_static.25,45

	.type	.Lrtp_static.27,@object
	.section	.rodata..Lrtp_static.27,"a",@progbits
.Lrtp_static.27:
	.ascii	"urn:ietf:params:rtp-hdrext:sdes:repaired-rtp-stream-id"
	.size	.Lrtp_static.27,54

	.type	.Lrtp_static.29,@object
	.section	.rodata..Lrtp_static.29,"a",@progbits
.Lrtp_static.29:
	.ascii	"urn:ietf:params:rtp-hdrext:sdes:mid"
	.size	.Lrtp_static.29,35

	.type	.Lrtp_static.31,@object
	.section	.rodata..Lrtp_static.31,"a",@progbits
.Lrtp_static.31:
	.ascii	"http://tools.ietf.org/html/draft-ietf-avtext-framemarking-07"
	.size	.Lrtp_static.31,60

	.type	.Lrtp_static.33,@object
	.section	.rodata..Lrtp_static.33,"a",@progbits
.Lrtp_static.33:
	.ascii	"http://www.webrtc.org/experiments/rtp-hdrext/color-space"
	.size	.Lrtp_static.33,56

	.type	.Lrtp_static.35,@object
	.section	.rodata..Lrtp_static.35,"a",@progbits
.Lrtp_static.35:
	.ascii	"http://www.webrtc.org/experiments/rtp-hdrext/video-layers-allocation00"
	.size	.Lrtp_static.35,70

	.type	.Lrtp_static.37,@object
	.section	.rodata..Lrtp_static.37,"a",@progbits
.Lrtp_static.37:
	.ascii	"________________________________________________0123456789_______ABCDEFGHIJKLMNOPQRSTUVWXYZ______abcdefghijklmnopqrstuvwxyz_____________________________________________________________________________________________________________________________________"
	.size	.Lrtp_static.37,256

	.type	.Lrtp_static.39,@object
	.section	.rodata..Lrtp_static.39,"a",@progbits
.Lrtp_static.39:
	.ascii	"packet "
	.size	.Lrtp_static.39,7

	.type	.Lrtp_static.40,@object
	.section	.rodata..Lrtp_static.40,"a",@progbits
.Lrtp_static.40:
	.ascii	": unreadable"
	.size	.Lrtp_static.40,12

	.type	.Lrtp_static.42,@object
	.section	.rodata..Lrtp_static.42,"a",@progbits
.Lrtp_static.42:
	.ascii	"00010203040506070809101112131415161718192021222324252627282930313233343536373839404142434445464748495051525354555657585960616263646566676869707172737475767778798081828384858687888990919293949596979899"
	.size	.Lrtp_static.42,200

	.type	.Lrtp_static.43,@object
	.section	.rodata..Lrtp_static.43,"a",@progbits
.Lrtp_static.43:
	.ascii	"pt "
	.size	.Lrtp_static.43,3

	.type	.Lrtp_static.44,@object
	.section	.rodata..Lrtp_static.44,"a",@progbits
.Lrtp_static.44:
	.ascii	" seq "
	.size	.Lrtp_static.44,5

	.type	.Lrtp_static.46,@object
	.section	.rodata..Lrtp_static.46,"a",@progbits
.Lrtp_static.46:
	.ascii	" ssrc "
	.size	.Lrtp_static.46,6

	.type	.Lrtp_static.48,@object
	.section	.rodata..Lrtp_static.48,"a",@progbits
.Lrtp_static.48:
	.ascii	" padding "
	.size	.Lrtp_static.48,9

	.type	.Lrtp_static.49,@object
	.section	.rodata..Lrtp_static.49,"a",@progbits
.Lrtp_static.49:
	.ascii	" extension "
	.size	.Lrtp_static.49,11

	.type	.Lrtp_static.50,@object
	.section	.rodata..Lrtp_static.50,"a",@progbits
.Lrtp_static.50:
	.ascii	" csrc "
	.size	.Lrtp_static.50,6

	.type	.Lrtp_static.52,@object
	.section	.rodata..Lrtp_static.52,"a",@progbits
.Lrtp_static.52:
	.ascii	"yes"
	.size	.Lrtp_static.52,3

	.type	.Lrtp_static.54,@object
	.section	.rodata..Lrtp_static.54,"a",@progbits
.Lrtp_static.54:
	.ascii	" mid "
	.size	.Lrtp_static.54,5

	.type	.Lrtp_static.55,@object
	.section	.rodata..Lrtp_static.55,"a",@progbits
.Lrtp_static.55:
	.ascii	" rid "
	.size	.Lrtp_static.55,5

	.type	.Lrtp_static.56,@object
	.section	.rodata..Lrtp_static.56,"a",@progbits
.Lrtp_static.56:
	.ascii	" repaired "
	.size	.Lrtp_static.56,10

	.type	.Lrtp_static.57,@object
	.section	.rodata..Lrtp_static.57,"a",@progbits
.Lrtp_static.57:
	.ascii	" level "
	.size	.Lrtp_static.57,7

	.type	.Lrtp_static.58,@object
	.section	.rodata..Lrtp_static.58,"a",@progbits
.Lrtp_static.58:
	.ascii	" voice "
	.size	.Lrtp_static.58,7

	.type	.Lrtp_static.60,@object
	.section	.rodata..Lrtp_static.60,"a",@progbits
.Lrtp_static.60:
	.ascii	" transport "
	.size	.Lrtp_static.60,11

	.type	.Lrtp_static.63,@object
	.section	.rodata..Lrtp_static.63,"a",@progbits
.Lrtp_static.63:
	.ascii	"taken "
	.size	.Lrtp_static.63,6

	.type	.Lrtp_static.64,@object
	.section	.rodata..Lrtp_static.64,"a",@progbits
.Lrtp_static.64:
	.ascii	"refused"
	.size	.Lrtp_static.64,7

	.type	.Lrtp_static.65,@object
	.section	.rodata..Lrtp_static.65,"a",@progbits
.Lrtp_static.65:
	.ascii	"unreadable"
	.size	.Lrtp_static.65,10

	.type	.Lrtp_static.66,@object
	.section	.rodata.cst4,"aM",@progbits,4
.Lrtp_static.66:
	.zero	4,32
	.size	.Lrtp_static.66,4

	.type	".Lrtp_switch.table.rtp_lines::main+start",@object
	.section	.rodata.cst16,"aM",@progbits,16
	.p2align	2,0x0
".Lrtp_switch.table.rtp_lines::main+start":
	.long	0
	.long	2
	.long	3
	.long	1
	.size	".Lrtp_switch.table.rtp_lines::main+start", 16

	.section	".note.GNU-stack","",@progbits
