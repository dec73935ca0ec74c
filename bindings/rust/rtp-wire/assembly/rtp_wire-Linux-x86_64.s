/*
 * rtp_wire for Linux on x86_64: the assembly text that Rattle's compiler makes of the library for C, each function of which but those at its end is proved.
 * Made anew by: generated/make
 * kit: rattle-kit-13b logic dac8208d650f15bf
 * proved for: x86_64-unknown-linux-gnu
 * compiled for: x86_64-unknown-linux-gnu
 * sources: 9bd27186c7d38e855bb0763b0c5f497dd31cb39700025263f1556f2423a7dcad
 * text: 70d1f42304c35b74be8530105bfd8ffb90ab557963d18234aeffed0d34f4d9cd
 * SPDX-License-Identifier: MIT OR Apache-2.0
 * Copyright (c) 2026 The rtp-wire developers (NOTICE)
 */
	.ifdef	.gasversion.
	.ifndef	.text
	.error	"rtp_b236e5ea_this text is for Linux on x86_64: the folder generated has those for other systems"
	.end
	.endif
	.section	.rtp_system,"e",@progbits
.Lrtp_b236e5ea_nop:
	nop
.Lrtp_b236e5ea_nop_end:
	.if	.Lrtp_b236e5ea_nop_end - .Lrtp_b236e5ea_nop != 1
	.error	"rtp_b236e5ea_this text is for Linux on x86_64: the folder generated has those for other systems"
	.end
	.endif
	.endif
	.macro	rtp_given rest:vararg
	.ifnb	\rest
	.error	"rtp_b236e5ea_this text is for Linux on x86_64: the folder generated has those for other systems"
	.end
	.endif
	.endm
	rtp_given # a comment
	.purgem	rtp_given
	.code64 # this text is for Linux on x86_64
	.section	.this_text_is_for_Linux_on_x86_64,"e",@progbits
	.section	".text.rtp_values::value::lengths::rid_len::<#7ba4d078ccf006bf>","ax",@progbits
	.p2align	4
	.type	"rtp_b236e5ea_rtp_values::value::lengths::rid_len::<#7ba4d078ccf006bf>",@function
"rtp_b236e5ea_rtp_values::value::lengths::rid_len::<#7ba4d078ccf006bf>":
	.cfi_startproc
	cmpb	$0,129(%rdi)
	je	1f
	movb	$1,%al
	cmpb	$0,97(%rdi)
	je	2f
	cmpb	$0,98(%rdi)
	je	3f
	cmpb	$0,99(%rdi)
	je	4f
	cmpb	$0,100(%rdi)
	je	5f
	cmpb	$0,101(%rdi)
	je	6f
	cmpb	$0,102(%rdi)
	je	7f
	cmpb	$0,103(%rdi)
	je	8f
	cmpb	$0,104(%rdi)
	je	9f
	cmpb	$1,105(%rdi)
	movl	$9,%edx
	sbbq	$0,%rdx
	retq
1:
	xorl	%edx,%edx
	xorl	%eax,%eax
	retq
2:
	xorl	%edx,%edx
	retq
3:
	movl	$1,%edx
	retq
4:
	movl	$2,%edx
	retq
5:
	movl	$3,%edx
	retq
6:
	movl	$4,%edx
	retq
7:
	movl	$5,%edx
	retq
8:
	movl	$6,%edx
	retq
9:
	movl	$7,%edx
	retq
	.size	"rtp_b236e5ea_rtp_values::value::lengths::rid_len::<#7ba4d078ccf006bf>", .-"rtp_b236e5ea_rtp_values::value::lengths::rid_len::<#7ba4d078ccf006bf>"
	.cfi_endproc

	.section	".text.rtp_values::value::lengths::repaired_rid_len::<#7ba4d078ccf006bf>","ax",@progbits
	.p2align	4
	.type	"rtp_b236e5ea_rtp_values::value::lengths::repaired_rid_len::<#7ba4d078ccf006bf>",@function
"rtp_b236e5ea_rtp_values::value::lengths::repaired_rid_len::<#7ba4d078ccf006bf>":
	.cfi_startproc
	cmpb	$0,130(%rdi)
	je	1f
	movb	$1,%al
	cmpb	$0,106(%rdi)
	je	2f
	cmpb	$0,107(%rdi)
	je	3f
	cmpb	$0,108(%rdi)
	je	4f
	cmpb	$0,109(%rdi)
	je	5f
	cmpb	$0,110(%rdi)
	je	6f
	cmpb	$0,111(%rdi)
	je	7f
	cmpb	$0,112(%rdi)
	je	8f
	cmpb	$0,113(%rdi)
	je	9f
	cmpb	$1,114(%rdi)
	movl	$9,%edx
	sbbq	$0,%rdx
	retq
1:
	xorl	%edx,%edx
	xorl	%eax,%eax
	retq
2:
	xorl	%edx,%edx
	retq
3:
	movl	$1,%edx
	retq
4:
	movl	$2,%edx
	retq
5:
	movl	$3,%edx
	retq
6:
	movl	$4,%edx
	retq
7:
	movl	$5,%edx
	retq
8:
	movl	$6,%edx
	retq
9:
	movl	$7,%edx
	retq
	.size	"rtp_b236e5ea_rtp_values::value::lengths::repaired_rid_len::<#7ba4d078ccf006bf>", .-"rtp_b236e5ea_rtp_values::value::lengths::repaired_rid_len::<#7ba4d078ccf006bf>"
	.cfi_endproc

	.section	".text.rtp_values::value::lengths::mid_len::<#7ba4d078ccf006bf>","ax",@progbits
	.p2align	4
	.type	"rtp_b236e5ea_rtp_values::value::lengths::mid_len::<#7ba4d078ccf006bf>",@function
"rtp_b236e5ea_rtp_values::value::lengths::mid_len::<#7ba4d078ccf006bf>":
	.cfi_startproc
	cmpb	$0,128(%rdi)
	je	1f
	movb	$1,%al
	cmpb	$0,80(%rdi)
	je	2f
	cmpb	$0,81(%rdi)
	je	3f
	cmpb	$0,82(%rdi)
	je	4f
	cmpb	$0,83(%rdi)
	je	5f
	cmpb	$0,84(%rdi)
	je	6f
	cmpb	$0,85(%rdi)
	je	7f
	cmpb	$0,86(%rdi)
	je	8f
	cmpb	$0,87(%rdi)
	je	9f
	cmpb	$0,88(%rdi)
	je	10f
	cmpb	$0,89(%rdi)
	je	11f
	cmpb	$0,90(%rdi)
	je	12f
	cmpb	$0,91(%rdi)
	je	13f
	cmpb	$0,92(%rdi)
	je	14f
	cmpb	$0,93(%rdi)
	je	15f
	cmpb	$0,94(%rdi)
	je	16f
	cmpb	$0,95(%rdi)
	je	17f
	cmpb	$1,96(%rdi)
	movl	$17,%edx
	sbbq	$0,%rdx
	retq
1:
	xorl	%edx,%edx
	xorl	%eax,%eax
	retq
2:
	xorl	%edx,%edx
	retq
3:
	movl	$1,%edx
	retq
4:
	movl	$2,%edx
	retq
5:
	movl	$3,%edx
	retq
6:
	movl	$4,%edx
	retq
7:
	movl	$5,%edx
	retq
8:
	movl	$6,%edx
	retq
9:
	movl	$7,%edx
	retq
10:
	movl	$8,%edx
	retq
11:
	movl	$9,%edx
	retq
12:
	movl	$10,%edx
	retq
13:
	movl	$11,%edx
	retq
14:
	movl	$12,%edx
	retq
15:
	movl	$13,%edx
	retq
16:
	movl	$14,%edx
	retq
17:
	movl	$15,%edx
	retq
	.size	"rtp_b236e5ea_rtp_values::value::lengths::mid_len::<#7ba4d078ccf006bf>", .-"rtp_b236e5ea_rtp_values::value::lengths::mid_len::<#7ba4d078ccf006bf>"
	.cfi_endproc

	.section	".text.rtp_values::value::abs_capture_time::write::<#7ba4d078ccf006bf>","ax",@progbits
	.p2align	4
	.type	"rtp_b236e5ea_rtp_values::value::abs_capture_time::write::<#7ba4d078ccf006bf>",@function
"rtp_b236e5ea_rtp_values::value::abs_capture_time::write::<#7ba4d078ccf006bf>":
	.cfi_startproc
	cmpb	$0,116(%rsi)
	je	1f
	movq	8(%rsi),%rax
	cmpb	$0,117(%rsi)
	je	2f
	movq	16(%rsi),%rcx
	bswapq	%rax
	bswapq	%rcx
	movq	%rax,(%rdi)
	movq	%rcx,8(%rdi)
	movb	$1,%al
	movl	$16,%edx
	retq
1:
	xorl	%edx,%edx
	xorl	%eax,%eax
	retq
2:
	bswapq	%rax
	movq	%rax,(%rdi)
	movb	$1,%al
	movl	$8,%edx
	retq
	.size	"rtp_b236e5ea_rtp_values::value::abs_capture_time::write::<#7ba4d078ccf006bf>", .-"rtp_b236e5ea_rtp_values::value::abs_capture_time::write::<#7ba4d078ccf006bf>"
	.cfi_endproc

	.section	".text.rtp_values::value::playout_delay::write::<#7ba4d078ccf006bf>","ax",@progbits
	.p2align	4
	.type	"rtp_b236e5ea_rtp_values::value::playout_delay::write::<#7ba4d078ccf006bf>",@function
"rtp_b236e5ea_rtp_values::value::playout_delay::write::<#7ba4d078ccf006bf>":
	.cfi_startproc
	cmpb	$0,125(%rsi)
	je	1f
	movl	32(%rsi),%ecx
	testq	%rcx,%rcx
	je	1f
	cmpb	$0,126(%rsi)
	je	1f
	movl	48(%rsi),%r8d
	testq	%r8,%r8
	je	1f
	movq	24(%rsi),%rax
	movq	40(%rsi),%rsi
	movq	%rax,%rdx
	shrq	$32,%rdx
	je	2f
	xorl	%edx,%edx
	divq	%rcx
	jmp	3f
1:
	xorl	%edx,%edx
	xorl	%eax,%eax
	retq
2:
	xorl	%edx,%edx
	divl	%ecx
3:
	imulq	$100,%rax,%r9
	imulq	$100,%rdx,%rax
	movq	%rax,%rdx
	shrq	$32,%rdx
	je	1f
	xorl	%edx,%edx
	divq	%rcx
	movq	%rax,%rcx
	jmp	2f
1:
	xorl	%edx,%edx
	divl	%ecx
	movl	%eax,%ecx
2:
	addl	%r9d,%ecx
	shll	$12,%ecx
	movq	%rsi,%rax
	shrq	$32,%rax
	je	1f
	movq	%rsi,%rax
	xorl	%edx,%edx
	divq	%r8
	movq	%rax,%rsi
	jmp	2f
1:
	movl	%esi,%eax
	xorl	%edx,%edx
	divl	%r8d
	movl	%eax,%esi
2:
	andl	$16773120,%ecx
	imulq	$100,%rdx,%rax
	movq	%rax,%rdx
	shrq	$32,%rdx
	je	1f
	xorl	%edx,%edx
	divq	%r8
	jmp	2f
1:
	xorl	%edx,%edx
	divl	%r8d
2:
	imull	$100,%esi,%edx
	addl	%edx,%eax
	andl	$4095,%eax
	orl	%ecx,%eax
	bswapl	%eax
	movl	%eax,%ecx
	shrl	$8,%ecx
	shrl	$24,%eax
	movb	%al,2(%rdi)
	movw	%cx,(%rdi)
	movb	$1,%al
	movl	$3,%edx
	retq
	.size	"rtp_b236e5ea_rtp_values::value::playout_delay::write::<#7ba4d078ccf006bf>", .-"rtp_b236e5ea_rtp_values::value::playout_delay::write::<#7ba4d078ccf006bf>"
	.cfi_endproc

	.section	.rodata.cst16,"aM",@progbits,16
	.p2align	4,0x0
.Lrtp_b236e5ea_CPI5_0:
	.byte	1
	.byte	0
	.byte	3
	.byte	2
	.byte	5
	.byte	4
	.byte	7
	.byte	6
	.zero	1
	.zero	1
	.zero	1
	.zero	1
	.zero	1
	.zero	1
	.zero	1
	.zero	1
	.section	".text.rtp_values::value::video_timing::write::<#7ba4d078ccf006bf>","ax",@progbits
	.p2align	4
	.type	"rtp_b236e5ea_rtp_values::value::video_timing::write::<#7ba4d078ccf006bf>",@function
"rtp_b236e5ea_rtp_values::value::video_timing::write::<#7ba4d078ccf006bf>":
	.cfi_startproc
	cmpb	$0,127(%rsi)
	je	1f
	movzbl	76(%rsi),%eax
	movq	68(%rsi),%xmm0
	pshufb	.Lrtp_b236e5ea_CPI5_0(%rip),%xmm0
	movb	%al,(%rdi)
	movq	%xmm0,1(%rdi)
	movl	$0,9(%rdi)
	movb	$1,%al
	movl	$13,%edx
	retq
1:
	xorl	%edx,%edx
	xorl	%eax,%eax
	retq
	.size	"rtp_b236e5ea_rtp_values::value::video_timing::write::<#7ba4d078ccf006bf>", .-"rtp_b236e5ea_rtp_values::value::video_timing::write::<#7ba4d078ccf006bf>"
	.cfi_endproc

	.section	".text.rtp_values::value::stream_id::write::<#7ba4d078ccf006bf>","ax",@progbits
	.p2align	4
	.type	"rtp_b236e5ea_rtp_values::value::stream_id::write::<#7ba4d078ccf006bf>",@function
"rtp_b236e5ea_rtp_values::value::stream_id::write::<#7ba4d078ccf006bf>":
	.cfi_startproc
	cmpb	$0,129(%rsi)
	je	1f
	movq	%rsi,%rax
	addq	$97,%rsi
	movzbl	(%rsi),%ecx
	testb	%cl,%cl
	je	2f
	cmpb	$0,98(%rax)
	je	3f
	cmpb	$0,99(%rax)
	je	4f
	cmpb	$0,100(%rax)
	je	5f
	cmpb	$0,101(%rax)
	je	6f
	cmpb	$0,102(%rax)
	je	7f
	cmpb	$0,103(%rax)
	je	8f
	cmpb	$0,104(%rax)
	je	9f
	cmpb	$1,105(%rax)
	movl	$9,%edx
	sbbq	$0,%rdx
	jmp	10f
1:
	xorl	%edx,%edx
	xorl	%eax,%eax
	retq
2:
	xorl	%edx,%edx
1:
	pushq	%rbx
	.cfi_def_cfa_offset 16
	.cfi_offset %rbx,-16
	movq	%rdx,%rbx
	callq	memmove@PLT
	movq	%rbx,%rdx
	movb	$1,%al
	popq	%rbx
	.cfi_def_cfa_offset 8
	.cfi_restore %rbx
	retq
3:
	movb	%cl,(%rdi)
	movb	$1,%al
	movl	$1,%edx
	retq
4:
	movb	%cl,(%rdi)
	movzbl	98(%rax),%eax
	movb	%al,1(%rdi)
	movb	$1,%al
	movl	$2,%edx
	retq
5:
	movb	%cl,(%rdi)
	movzbl	98(%rax),%ecx
	movb	%cl,1(%rdi)
	movzbl	99(%rax),%eax
	movb	%al,2(%rdi)
	movb	$1,%al
	movl	$3,%edx
	retq
6:
	movl	$4,%edx
	jmp	10f
7:
	movl	$5,%edx
	jmp	10f
8:
	movl	$6,%edx
	jmp	10f
9:
	movl	$7,%edx
10:
	movq	%rdi,%rcx
	subq	%rsi,%rcx
	cmpq	%rdx,%rcx
	jae	1b
	movl	%edx,%ecx
	andl	$3,%ecx
	movl	%edx,%r9d
	andl	$12,%r9d
	xorl	%r8d,%r8d
	.p2align	4
1:
	movzbl	97(%rax,%r8),%r10d
	movb	%r10b,(%rdi,%r8)
	movzbl	98(%rax,%r8),%r10d
	movb	%r10b,1(%rdi,%r8)
	movzbl	99(%rax,%r8),%r10d
	movb	%r10b,2(%rdi,%r8)
	movzbl	100(%rax,%r8),%r10d
	movb	%r10b,3(%rdi,%r8)
	addq	$4,%r8
	cmpq	%r8,%r9
	jne	1b
	movb	$1,%al
	testq	%rcx,%rcx
	je	1f
	.p2align	4
2:
	movzbl	(%rsi,%r8),%r9d
	movb	%r9b,(%rdi,%r8)
	incq	%r8
	decq	%rcx
	jne	2b
1:
	retq
	.size	"rtp_b236e5ea_rtp_values::value::stream_id::write::<#7ba4d078ccf006bf>", .-"rtp_b236e5ea_rtp_values::value::stream_id::write::<#7ba4d078ccf006bf>"
	.cfi_endproc

	.section	".text.rtp_values::value::stream_id::write_repaired::<#7ba4d078ccf006bf>","ax",@progbits
	.p2align	4
	.type	"rtp_b236e5ea_rtp_values::value::stream_id::write_repaired::<#7ba4d078ccf006bf>",@function
"rtp_b236e5ea_rtp_values::value::stream_id::write_repaired::<#7ba4d078ccf006bf>":
	.cfi_startproc
	cmpb	$0,130(%rsi)
	je	1f
	movq	%rsi,%rax
	addq	$106,%rsi
	movzbl	(%rsi),%ecx
	testb	%cl,%cl
	je	2f
	cmpb	$0,107(%rax)
	je	3f
	cmpb	$0,108(%rax)
	je	4f
	cmpb	$0,109(%rax)
	je	5f
	cmpb	$0,110(%rax)
	je	6f
	cmpb	$0,111(%rax)
	je	7f
	cmpb	$0,112(%rax)
	je	8f
	cmpb	$0,113(%rax)
	je	9f
	cmpb	$1,114(%rax)
	movl	$9,%edx
	sbbq	$0,%rdx
	jmp	10f
1:
	xorl	%edx,%edx
	xorl	%eax,%eax
	retq
2:
	xorl	%edx,%edx
1:
	pushq	%rbx
	.cfi_def_cfa_offset 16
	.cfi_offset %rbx,-16
	movq	%rdx,%rbx
	callq	memmove@PLT
	movq	%rbx,%rdx
	movb	$1,%al
	popq	%rbx
	.cfi_def_cfa_offset 8
	.cfi_restore %rbx
	retq
3:
	movb	%cl,(%rdi)
	movb	$1,%al
	movl	$1,%edx
	retq
4:
	movb	%cl,(%rdi)
	movzbl	107(%rax),%eax
	movb	%al,1(%rdi)
	movb	$1,%al
	movl	$2,%edx
	retq
5:
	movb	%cl,(%rdi)
	movzbl	107(%rax),%ecx
	movb	%cl,1(%rdi)
	movzbl	108(%rax),%eax
	movb	%al,2(%rdi)
	movb	$1,%al
	movl	$3,%edx
	retq
6:
	movl	$4,%edx
	jmp	10f
7:
	movl	$5,%edx
	jmp	10f
8:
	movl	$6,%edx
	jmp	10f
9:
	movl	$7,%edx
10:
	movq	%rdi,%rcx
	subq	%rsi,%rcx
	cmpq	%rdx,%rcx
	jae	1b
	movl	%edx,%ecx
	andl	$3,%ecx
	movl	%edx,%r9d
	andl	$12,%r9d
	xorl	%r8d,%r8d
	.p2align	4
1:
	movzbl	106(%rax,%r8),%r10d
	movb	%r10b,(%rdi,%r8)
	movzbl	107(%rax,%r8),%r10d
	movb	%r10b,1(%rdi,%r8)
	movzbl	108(%rax,%r8),%r10d
	movb	%r10b,2(%rdi,%r8)
	movzbl	109(%rax,%r8),%r10d
	movb	%r10b,3(%rdi,%r8)
	addq	$4,%r8
	cmpq	%r8,%r9
	jne	1b
	movb	$1,%al
	testq	%rcx,%rcx
	je	1f
	.p2align	4
2:
	movzbl	(%rsi,%r8),%r9d
	movb	%r9b,(%rdi,%r8)
	incq	%r8
	decq	%rcx
	jne	2b
1:
	retq
	.size	"rtp_b236e5ea_rtp_values::value::stream_id::write_repaired::<#7ba4d078ccf006bf>", .-"rtp_b236e5ea_rtp_values::value::stream_id::write_repaired::<#7ba4d078ccf006bf>"
	.cfi_endproc

	.section	".text.rtp_values::value::mid::write::<#7ba4d078ccf006bf>","ax",@progbits
	.p2align	4
	.type	"rtp_b236e5ea_rtp_values::value::mid::write::<#7ba4d078ccf006bf>",@function
"rtp_b236e5ea_rtp_values::value::mid::write::<#7ba4d078ccf006bf>":
	.cfi_startproc
	cmpb	$0,128(%rsi)
	je	1f
	leaq	80(%rsi),%rcx
	movzbl	(%rcx),%eax
	testb	%al,%al
	je	2f
	cmpb	$0,81(%rsi)
	je	3f
	cmpb	$0,82(%rsi)
	je	4f
	cmpb	$0,83(%rsi)
	je	5f
	cmpb	$0,84(%rsi)
	je	6f
	cmpb	$0,85(%rsi)
	je	7f
	cmpb	$0,86(%rsi)
	je	8f
	cmpb	$0,87(%rsi)
	je	9f
	cmpb	$0,88(%rsi)
	je	10f
	cmpb	$0,89(%rsi)
	je	11f
	cmpb	$0,90(%rsi)
	je	12f
	cmpb	$0,91(%rsi)
	je	13f
	cmpb	$0,92(%rsi)
	je	14f
	cmpb	$0,93(%rsi)
	je	15f
	cmpb	$0,94(%rsi)
	je	16f
	cmpb	$0,95(%rsi)
	je	17f
	cmpb	$1,96(%rsi)
	movl	$17,%edx
	sbbq	$0,%rdx
	jmp	18f
1:
	xorl	%edx,%edx
	xorl	%eax,%eax
	retq
2:
	xorl	%edx,%edx
1:
	pushq	%rbx
	.cfi_def_cfa_offset 16
	.cfi_offset %rbx,-16
	movq	%rcx,%rsi
	movq	%rdx,%rbx
	callq	memmove@PLT
	movq	%rbx,%rdx
	movb	$1,%al
	popq	%rbx
	.cfi_def_cfa_offset 8
	.cfi_restore %rbx
	retq
3:
	movb	%al,(%rdi)
	movb	$1,%al
	movl	$1,%edx
	retq
4:
	movb	%al,(%rdi)
	movzbl	81(%rsi),%eax
	movb	%al,1(%rdi)
	movb	$1,%al
	movl	$2,%edx
	retq
5:
	movb	%al,(%rdi)
	movzbl	81(%rsi),%eax
	movb	%al,1(%rdi)
	movzbl	82(%rsi),%eax
	movb	%al,2(%rdi)
	movb	$1,%al
	movl	$3,%edx
	retq
6:
	movl	$4,%edx
	jmp	18f
7:
	movl	$5,%edx
	jmp	18f
8:
	movl	$6,%edx
	jmp	18f
9:
	movl	$7,%edx
	jmp	18f
10:
	movl	$8,%edx
	jmp	18f
11:
	movl	$9,%edx
	jmp	18f
12:
	movl	$10,%edx
	jmp	18f
13:
	movl	$11,%edx
	jmp	18f
14:
	movl	$12,%edx
	jmp	18f
15:
	movl	$13,%edx
	jmp	18f
16:
	movl	$14,%edx
	jmp	18f
17:
	movl	$15,%edx
18:
	movq	%rdi,%rax
	subq	%rcx,%rax
	cmpq	%rdx,%rax
	jae	1b
	movq	%rdi,%rax
	subq	%rsi,%rax
	addq	$-80,%rax
	cmpq	$16,%rax
	jae	1f
	xorl	%r8d,%r8d
	jmp	2f
1:
	cmpq	$16,%rdx
	jae	1f
	xorl	%r8d,%r8d
	jmp	3f
1:
	movl	%edx,%r8d
	andl	$16,%r8d
	xorl	%eax,%eax
	.p2align	4
1:
	movups	(%rcx,%rax),%xmm0
	movups	%xmm0,(%rdi,%rax)
	addq	$16,%rax
	cmpq	%rax,%r8
	jne	1b
	movb	$1,%al
	cmpq	%r8,%rdx
	je	1f
	testb	$12,%dl
	je	2f
3:
	movq	%r8,%rax
	movl	%edx,%r8d
	andl	$28,%r8d
	.p2align	4
3:
	movl	(%rcx,%rax),%r9d
	movl	%r9d,(%rdi,%rax)
	addq	$4,%rax
	cmpq	%rax,%r8
	jne	3b
	movb	$1,%al
	cmpq	%r8,%rdx
	je	1f
2:
	movq	%rdx,%rax
	movq	%r8,%r9
	andq	$3,%rax
	je	2f
	movq	%r8,%r9
	.p2align	4
3:
	movzbl	(%rcx,%r9),%r10d
	movb	%r10b,(%rdi,%r9)
	incq	%r9
	decq	%rax
	jne	3b
2:
	subq	%rdx,%r8
	movb	$1,%al
	cmpq	$-4,%r8
	ja	1f
	.p2align	4
2:
	movzbl	80(%rsi,%r9),%ecx
	movb	%cl,(%rdi,%r9)
	movzbl	81(%rsi,%r9),%ecx
	movb	%cl,1(%rdi,%r9)
	movzbl	82(%rsi,%r9),%ecx
	movb	%cl,2(%rdi,%r9)
	movzbl	83(%rsi,%r9),%ecx
	movb	%cl,3(%rdi,%r9)
	addq	$4,%r9
	cmpq	%r9,%rdx
	jne	2b
1:
	retq
	.size	"rtp_b236e5ea_rtp_values::value::mid::write::<#7ba4d078ccf006bf>", .-"rtp_b236e5ea_rtp_values::value::mid::write::<#7ba4d078ccf006bf>"
	.cfi_endproc

	.section	".text.unlikely.rtp_ext::elements::skip_zeros","ax",@progbits
	.p2align	4
	.type	"rtp_b236e5ea_rtp_ext::elements::skip_zeros",@function
"rtp_b236e5ea_rtp_ext::elements::skip_zeros":
	.cfi_startproc
	leaq	-1(%rdi),%rdx
	movq	%rsi,%rax
	.p2align	4
1:
	movq	%rax,%rcx
	movq	%rdx,%r8
	subq	$16,%rax
	jb	2f
	movq	9(%r8),%r9
	leaq	16(%r8),%rdx
	orq	1(%r8),%r9
	je	1b
2:
	addq	%rsi,%rdi
	.p2align	4
1:
	movq	%rcx,%rdx
	subq	$1,%rcx
	jb	2f
	leaq	1(%r8),%rax
	cmpb	$0,1(%r8)
	movq	%rax,%r8
	je	1b
	retq
2:
	movq	%rdi,%rax
	retq
	.size	"rtp_b236e5ea_rtp_ext::elements::skip_zeros", .-"rtp_b236e5ea_rtp_ext::elements::skip_zeros"
	.cfi_endproc

	.section	".text.unlikely.rtp_ext::survey::one_more","ax",@progbits
	.p2align	4
	.type	"rtp_b236e5ea_rtp_ext::survey::one_more",@function
"rtp_b236e5ea_rtp_ext::survey::one_more":
	.cfi_startproc
	leaq	1(%rdi),%rax
	retq
	.size	"rtp_b236e5ea_rtp_ext::survey::one_more", .-"rtp_b236e5ea_rtp_ext::survey::one_more"
	.cfi_endproc

	.section	".text.rtp_ext::renamed_ids::lowest_beside::<#d4d397b1ff315637>","ax",@progbits
	.p2align	4
	.type	"rtp_b236e5ea_rtp_ext::renamed_ids::lowest_beside::<#d4d397b1ff315637>",@function
"rtp_b236e5ea_rtp_ext::renamed_ids::lowest_beside::<#d4d397b1ff315637>":
	.cfi_startproc
	pushq	%rbp
	.cfi_def_cfa_offset 16
	pushq	%r15
	.cfi_def_cfa_offset 24
	pushq	%r14
	.cfi_def_cfa_offset 32
	pushq	%rbx
	.cfi_def_cfa_offset 40
	pushq	%rax
	.cfi_def_cfa_offset 48
	.cfi_offset %rbx,-40
	.cfi_offset %r14,-32
	.cfi_offset %r15,-24
	.cfi_offset %rbp,-16
	movl	%ecx,%ebx
	movl	%edx,%ebp
	movq	%rsi,%r15
	movq	%rdi,%r14
	xorl	%eax,%eax
	movq	%rsi,%rcx
	.p2align	4
1:
	cmpq	%rcx,%rax
	jae	2f
	movzbl	1(%r14,%rax),%edx
	incq	%rax
	decb	%dl
	cmpb	%bpl,%dl
	jne	1b
	jmp	3f
2:
	xorl	%edx,%edx
	cmpq	$15,%rcx
	jb	2f
	movl	$0,%ecx
	cmpq	$254,%rax
	ja	4f
	movq	%r14,%rdi
	movq	%rax,%rsi
	callq	"rtp_b236e5ea_rtp_c::kinds::StoredMap::past_unmapped"
	movq	%rax,%rdx
	addq	$16,%rdx
	cmpq	$255,%rdx
	movl	$255,%ecx
	cmovbq	%rdx,%rcx
	jmp	1b
3:
	xorl	%eax,%eax
	.p2align	4
1:
	cmpq	%r15,%rax
	jae	3f
	movzbl	1(%r14,%rax),%ecx
	incq	%rax
	decb	%cl
	cmpb	%bl,%cl
	jne	1b
	jmp	5f
3:
	xorl	%edx,%edx
	cmpq	$15,%r15
	jb	2f
	movl	$0,%ecx
	cmpq	$254,%rax
	ja	4f
	movq	%r14,%rdi
	movq	%rax,%rsi
	callq	"rtp_b236e5ea_rtp_c::kinds::StoredMap::past_unmapped"
	movq	%rax,%rcx
	addq	$16,%rcx
	cmpq	$255,%rcx
	movl	$255,%r15d
	cmovbq	%rcx,%r15
	jmp	1b
5:
	movb	$1,%cl
	movl	%eax,%edx
4:
	movl	%ecx,%eax
	addq	$8,%rsp
	.cfi_def_cfa_offset 40
	popq	%rbx
	.cfi_def_cfa_offset 32
	popq	%r14
	.cfi_def_cfa_offset 24
	popq	%r15
	.cfi_def_cfa_offset 16
	popq	%rbp
	.cfi_def_cfa_offset 8
	retq
2:
	.cfi_def_cfa_offset 48
	xorl	%ecx,%ecx
	jmp	4b
	.size	"rtp_b236e5ea_rtp_ext::renamed_ids::lowest_beside::<#d4d397b1ff315637>", .-"rtp_b236e5ea_rtp_ext::renamed_ids::lowest_beside::<#d4d397b1ff315637>"
	.cfi_endproc

	.section	.rodata.cst16,"aM",@progbits,16
	.p2align	4,0x0
.Lrtp_b236e5ea_CPI12_0:
	.zero	16,14
	.section	".text.rtp_c::kinds::StoredMap::past_unmapped","ax",@progbits
	.p2align	4
	.type	"rtp_b236e5ea_rtp_c::kinds::StoredMap::past_unmapped",@function
"rtp_b236e5ea_rtp_c::kinds::StoredMap::past_unmapped":
	.cfi_startproc
	.p2align	4
1:
	movq	%rsi,%rax
	addq	$16,%rsi
	cmpq	$255,%rsi
	ja	2f
	movdqu	1(%rdi,%rax),%xmm0
	pcmpeqd	%xmm1,%xmm1
	paddb	%xmm0,%xmm1
	movdqa	.Lrtp_b236e5ea_CPI12_0(%rip),%xmm0
	pminub	%xmm1,%xmm0
	pcmpeqb	%xmm1,%xmm0
	pmovmskb	%xmm0,%ecx
	testl	%ecx,%ecx
	je	1b
2:
	retq
	.size	"rtp_b236e5ea_rtp_c::kinds::StoredMap::past_unmapped", .-"rtp_b236e5ea_rtp_c::kinds::StoredMap::past_unmapped"
	.cfi_endproc

	.section	.rodata.cst16,"aM",@progbits,16
	.p2align	4,0x0
.Lrtp_b236e5ea_CPI13_0:
	.zero	16,32
.Lrtp_b236e5ea_CPI13_1:
	.byte	1
	.byte	0
	.byte	3
	.byte	2
	.byte	5
	.byte	4
	.byte	7
	.byte	6
	.zero	1
	.zero	1
	.zero	1
	.zero	1
	.zero	1
	.zero	1
	.zero	1
	.zero	1
	.section	".text.rtp_ext::block_values::read_values::<#9a3a19c0cce455e9>","ax",@progbits
	.p2align	4
	.type	"rtp_b236e5ea_rtp_ext::block_values::read_values::<#9a3a19c0cce455e9>",@function
"rtp_b236e5ea_rtp_ext::block_values::read_values::<#9a3a19c0cce455e9>":
	.cfi_startproc
	pushq	%rbp
	.cfi_def_cfa_offset 16
	pushq	%r15
	.cfi_def_cfa_offset 24
	pushq	%r14
	.cfi_def_cfa_offset 32
	pushq	%r13
	.cfi_def_cfa_offset 40
	pushq	%r12
	.cfi_def_cfa_offset 48
	pushq	%rbx
	.cfi_def_cfa_offset 56
	subq	$104,%rsp
	.cfi_def_cfa_offset 160
	.cfi_offset %rbx,-56
	.cfi_offset %r12,-48
	.cfi_offset %r13,-40
	.cfi_offset %r14,-32
	.cfi_offset %r15,-24
	.cfi_offset %rbp,-16
	movq	%r8,%rbp
	movq	%rsi,%rax
	movq	%rdi,%r13
	testb	%cl,%cl
	jne	1f
	jmp	2f
	.p2align	4
3:
	movq	%rbx,%rax
1:
	testq	%rdx,%rdx
	je	4f
	cmpb	$0,(%rax)
	jne	5f
	cmpq	$2,%rdx
	je	6f
	cmpq	$1,%rdx
	je	4f
	cmpq	$3,%rdx
	ja	7f
	cmpb	$0,1(%rax)
	jne	7f
	cmpb	$0,2(%rax)
	jne	7f
	jmp	4f
6:
	cmpb	$0,1(%rax)
	je	4f
7:
	decq	%rdx
	incq	%rax
	movq	%rax,%rdi
	movq	%rdx,%rsi
	callq	"rtp_b236e5ea_rtp_ext::elements::skip_zeros"
	testq	%rdx,%rdx
	je	4f
5:
	cmpq	$2,%rdx
	jb	4f
	movzbl	1(%rax),%r15d
	leaq	2(%r15),%rbx
	subq	%rbx,%rdx
	jb	4f
	movzbl	(%rax),%ecx
	addq	%rax,%rbx
	testq	%rcx,%rcx
	je	3b
	movzbl	(%r13,%rcx),%ecx
	decl	%ecx
	cmpl	$14,%ecx
	ja	3b
	leaq	2(%rax),%r12
	leaq	5f(%rip),%rsi
	movslq	(%rsi,%rcx,4),%rcx
	addq	%rsi,%rcx
	jmpq	*%rcx
6:
	cmpb	$3,%r15b
	jb	3b
	movzbl	2(%rax),%ecx
	movzwl	3(%rax),%eax
	shll	$16,%eax
	shll	$8,%ecx
	orl	%eax,%ecx
	bswapl	%ecx
	imulq	$1000000,%rcx,%rax
	shrq	$18,%rax
	movb	$1,115(%rbp)
	movq	%rax,(%rbp)
	movq	%rbx,%rax
	jmp	1b
7:
	cmpb	$2,%r15b
	movq	%r13,8(%rsp)
	jb	8f
	leaq	.Lrtp_b236e5ea_static.0(%rip),%rax
	testq	%rdx,%rdx
	je	9f
	movq	%rbp,16(%rsp)
	movq	%rdx,%r13
10:
	cmpb	$0,(%rbx)
	movq	%rbx,%rax
	jne	11f
	cmpq	$2,%rdx
	je	12f
	cmpq	$1,%rdx
	movq	16(%rsp),%rbp
	movq	8(%rsp),%r13
	leaq	.Lrtp_b236e5ea_static.0(%rip),%rax
	je	9f
	cmpq	$3,%rdx
	ja	13f
	cmpb	$0,1(%rbx)
	jne	13f
	cmpb	$0,2(%rbx)
	jne	13f
	jmp	9f
12:
	cmpb	$0,1(%rbx)
	movq	16(%rsp),%rbp
	movq	8(%rsp),%r13
	leaq	.Lrtp_b236e5ea_static.0(%rip),%rax
	je	9f
13:
	movq	%rdx,%r14
	leaq	-1(%rdx),%rsi
	leaq	1(%rbx),%rdi
	callq	"rtp_b236e5ea_rtp_ext::elements::skip_zeros"
	testq	%rdx,%rdx
	je	12f
	movq	%rdx,%r13
	movq	%r14,%rdx
11:
	cmpq	$2,%r13
	jb	11f
	movzbl	1(%rax),%r14d
	leaq	2(%r14),%rbp
	subq	%rbp,%r13
	jb	11f
	movzbl	(%rax),%ecx
	testq	%rcx,%rcx
	je	13f
	movq	8(%rsp),%rsi
	cmpb	$15,(%rsi,%rcx)
	jne	13f
	leaq	2(%rax),%rbx
	addq	%rax,%rbp
	movq	%rbx,%rdi
	movq	%r14,%rsi
	callq	"rtp_b236e5ea_rtp_ext::block_values::is_another_allocation"
	testb	%al,%al
	cmovneq	%r14,%r15
	cmovneq	%rbx,%r12
	movq	%r13,%rdx
	movq	%rbp,%rbx
	testq	%r13,%r13
	jne	10b
11:
	xorl	%edx,%edx
	leaq	.Lrtp_b236e5ea_static.0(%rip),%rbx
13:
	movq	16(%rsp),%rbp
10:
	movq	8(%rsp),%r13
	jmp	8f
11:
	movq	%r12,%rdi
	movq	%r15,%rsi
	movq	%rdx,%r14
	movq	%rbp,%rdx
	callq	"rtp_b236e5ea_rtp_values::value::stream_id::read_repaired::<#a6b2bc1c138ab33f>"
	movq	%r14,%rdx
	movq	%rbx,%rax
	jmp	1b
13:
	testq	%r15,%r15
	je	3b
	movzbl	(%r12),%ecx
	shlb	$4,%cl
	movb	$1,121(%rbp)
	movabsq	$25333521015767040,%rax
	shrq	%cl,%rax
	movw	%ax,66(%rbp)
	movq	%rbx,%rax
	jmp	1b
14:
	cmpb	$4,%r15b
	jb	3b
	movl	(%r12),%eax
	bswapl	%eax
	movb	$1,119(%rbp)
	movl	%eax,60(%rbp)
	jmp	3b
15:
	cmpb	$2,%r15b
	jb	3b
	movzwl	(%r12),%eax
	rolw	$8,%ax
	movb	$1,120(%rbp)
	movw	%ax,64(%rbp)
	movq	%rbx,%rax
	jmp	1b
16:
	movq	%rdx,%r14
	xorps	%xmm0,%xmm0
	movaps	%xmm0,32(%rsp)
	movq	$0,48(%rsp)
	movdqa	.Lrtp_b236e5ea_CPI13_0(%rip),%xmm0
	movdqa	%xmm0,64(%rsp)
	cmpb	$16,%r15b
	ja	17f
	testq	%r15,%r15
	je	18f
	xorl	%eax,%eax
	.p2align	4
19:
	movsbq	(%r12,%rax),%rcx
	testq	%rcx,%rcx
	js	17f
	leaq	.Lrtp_b236e5ea_static.2(%rip),%rdx
	movzbl	(%rcx,%rdx),%ecx
	movb	%cl,64(%rsp,%rax)
	incq	%rax
	cmpq	%rax,%r15
	jne	19b
	movdqa	64(%rsp),%xmm1
	movq	%r14,%rdx
	jmp	19f
20:
	cmpb	$4,%r15b
	jb	3b
	movl	(%r12),%eax
	bswapl	%eax
	movb	$1,118(%rbp)
	movl	%eax,56(%rbp)
	movq	%rbx,%rax
	jmp	1b
21:
	testq	%r15,%r15
	je	3b
	movzbl	(%r12),%eax
	movl	%eax,%ecx
	andb	$127,%cl
	negb	%cl
	movw	$257,123(%rbp)
	movb	%cl,78(%rbp)
	shrb	$7,%al
	movb	%al,79(%rbp)
	movq	%rbx,%rax
	jmp	1b
22:
	cmpb	$8,%r15b
	jb	3b
	cmpb	$16,%r15b
	jb	23f
	movq	10(%rax),%rax
	bswapq	%rax
	jmp	24f
25:
	cmpb	$3,%r15b
	jb	3b
	movzbl	2(%rax),%ecx
	movzwl	3(%rax),%eax
	shll	$16,%eax
	shll	$8,%ecx
	orl	%eax,%ecx
	bswapl	%ecx
	movl	%ecx,%eax
	shrl	$12,%eax
	andl	$4095,%ecx
	movw	$257,125(%rbp)
	movq	%rax,24(%rbp)
	movq	$100,32(%rbp)
	movq	%rcx,40(%rbp)
	movq	$100,48(%rbp)
	movq	%rbx,%rax
	jmp	1b
26:
	testq	%r15,%r15
	je	3b
	movzbl	(%r12),%eax
	movb	$1,122(%rbp)
	movb	%al,77(%rbp)
	movq	%rbx,%rax
	jmp	1b
27:
	movq	%r12,%rdi
	movq	%r15,%rsi
	movq	%rdx,%r14
	movq	%rbp,%rdx
	callq	"rtp_b236e5ea_rtp_values::value::stream_id::read::<#a6b2bc1c138ab33f>"
	movq	%r14,%rdx
	movq	%rbx,%rax
	jmp	1b
28:
	cmpb	$9,%r15b
	jb	3b
	movq	3(%rax),%xmm0
	pshufb	.Lrtp_b236e5ea_CPI13_1(%rip),%xmm0
	movzbl	2(%rax),%eax
	movb	$1,127(%rbp)
	movb	%al,76(%rbp)
	movq	%xmm0,68(%rbp)
	movq	%rbx,%rax
	jmp	1b
17:
	leaq	32(%rsp),%rdi
	movq	%r12,%rsi
	movq	%r15,%rdx
	callq	"rtp_b236e5ea_core::str::utf8::from_utf8"
	cmpb	$0,32(%rsp)
	je	17f
	movq	%r14,%rdx
	movq	%rbx,%rax
	jmp	1b
9:
	xorl	%edx,%edx
	movq	%rax,%rbx
8:
	testq	%r15,%r15
	je	3b
	cmpq	$1,%r15
	jne	8f
	cmpb	$0,(%r12)
	je	9f
	movq	8(%rsp),%r13
	movq	%rbx,%rax
	jmp	1b
8:
	leaq	1(%r12),%r13
	decq	%r15
	movzbl	(%r12),%eax
	movl	%eax,%esi
	shrl	$4,%esi
	andl	$3,%esi
	leal	1(%rsi),%ecx
	andb	$15,%al
	je	8f
	movl	%eax,%edi
	movl	%eax,%r8d
	movl	%eax,%r10d
	jmp	29f
23:
	xorl	%eax,%eax
24:
	movq	(%r12),%rcx
	bswapq	%rcx
	cmpb	$16,%r15b
	movb	$1,116(%rbp)
	movq	%rcx,8(%rbp)
	setae	117(%rbp)
	movq	%rax,16(%rbp)
	movq	%rbx,%rax
	jmp	1b
17:
	movq	40(%rsp),%rax
	movq	48(%rsp),%rcx
	movdqa	.Lrtp_b236e5ea_CPI13_0(%rip),%xmm1
	movdqa	%xmm1,80(%rsp)
	testq	%rcx,%rcx
	movq	%r14,%rdx
	je	19f
	movl	$1,%esi
	xorl	%edi,%edi
	.p2align	4
17:
	movzbl	-1(%rax,%rsi),%r8d
	cmpb	$-64,%r8b
	jl	23f
	leaq	.Lrtp_b236e5ea_static.2(%rip),%r9
	movzbl	(%r8,%r9),%r8d
	movb	%r8b,80(%rsp,%rdi)
	incq	%rdi
23:
	cmpq	%rcx,%rsi
	jae	23f
	incq	%rsi
	cmpq	$16,%rdi
	jne	17b
23:
	movdqa	80(%rsp),%xmm1
19:
	movb	$1,128(%rbp)
	movdqa	.Lrtp_b236e5ea_CPI13_0(%rip),%xmm0
	pcmpeqb	%xmm1,%xmm0
	pandn	%xmm1,%xmm0
	jmp	17f
18:
	movb	$1,128(%rbp)
	pxor	%xmm0,%xmm0
	movq	%r14,%rdx
17:
	movdqu	%xmm0,80(%rbp)
	movb	$0,96(%rbp)
	movq	%rbx,%rax
	jmp	1b
8:
	movl	%esi,%r9d
	addl	$2,%r9d
	shrl	%r9d
	subq	%r9,%r15
	jae	8f
	movq	8(%rsp),%r13
	movq	%rbx,%rax
	jmp	1b
8:
	testb	%sil,%sil
	je	8f
	movzbl	(%r13),%edi
	andb	$15,%dil
	cmpb	$2,%cl
	jne	17f
	movl	%eax,%r8d
	jmp	18f
8:
	movl	%eax,%edi
	movl	%eax,%r8d
	jmp	18f
17:
	movzbl	2(%r12),%r8d
	shrb	$4,%r8b
	cmpb	$3,%cl
	je	18f
	movzbl	2(%r12),%eax
	andb	$15,%al
18:
	movl	%eax,%r10d
	movzbl	(%r13),%eax
	shrb	$4,%al
	addq	%r9,%r13
29:
	movzbl	(%r12),%r9d
	andb	$15,%r9b
	je	8f
	movzbl	%r9b,%eax
	popcntl	%eax,%eax
	mulb	%cl
17:
	movzbl	%al,%edi
	leal	3(%rdi),%eax
	shrl	$2,%eax
	subq	%rax,%r15
	jae	18f
	movq	8(%rsp),%r13
	movq	%rbx,%rax
	jmp	1b
18:
	testq	%rax,%rax
	je	18f
	cmpl	$1,%eax
	jne	19f
	movzbl	(%r13),%ecx
	shll	$24,%ecx
	jmp	23f
8:
	movzbl	%al,%eax
	popcntl	%eax,%eax
	testb	%sil,%sil
	je	17b
	movzbl	%dil,%esi
	popcntl	%esi,%esi
	addb	%sil,%al
	cmpb	$2,%cl
	je	17b
	movzbl	%r8b,%esi
	popcntl	%esi,%esi
	addb	%sil,%al
	cmpb	$3,%cl
	je	17b
	movzbl	%r10b,%ecx
	popcntl	%ecx,%ecx
	addb	%cl,%al
	jmp	17b
18:
	xorl	%ecx,%ecx
	jmp	23f
19:
	cmpb	$8,%dil
	ja	8f
	movzwl	(%r13),%ecx
	bswapl	%ecx
23:
	testq	%rdi,%rdi
	jne	17f
	jmp	9f
8:
	cmpl	$3,%eax
	jne	8f
	movzbl	(%r13),%esi
	movzwl	1(%r13),%ecx
	shll	$8,%ecx
	orl	%esi,%ecx
	jmp	18f
8:
	movl	(%r13),%ecx
18:
	bswapl	%ecx
17:
	addq	%rax,%r13
	movl	%ecx,%eax
	leal	32(,%rdi,2),%ecx
	negl	%ecx
	shrq	%cl,%rax
	xorl	%r12d,%r12d
	popcntl	%eax,%r12d
	andl	$-1431655766,%eax
	popcntl	%eax,%eax
	movq	%rdi,16(%rsp)
	addq	%rdi,%r12
	addq	%rax,%r12
	jne	8f
17:
	cmpq	$5,%r15
	movq	16(%rsp),%rsi
	jae	18f
9:
	movb	$1,131(%rbp)
	movq	8(%rsp),%r13
	movq	%rbx,%rax
	jmp	1b
19:
	xorl	%r15d,%r15d
23:
	decq	%r12
	je	17b
8:
	testq	%r15,%r15
	je	19b
	cmpb	$0,(%r13)
	js	8f
	decq	%r15
	incq	%r13
	jmp	23b
8:
	cmpq	$1,%r15
	je	8f
	cmpb	$0,1(%r13)
	js	8f
	movl	$2,%eax
	jmp	17f
8:
	movq	%rbp,%r14
	movq	%rdx,%rbp
	leaq	32(%rsp),%rdi
	movq	%r13,%rsi
	movq	%r15,%rdx
	callq	"rtp_b236e5ea_rtp_vla::leb::long_number_at"
	cmpb	$1,32(%rsp)
	jne	8f
	movq	48(%rsp),%rax
	movq	%rbp,%rdx
	movq	%r14,%rbp
17:
	addq	%rax,%r13
	subq	%rax,%r15
	jmp	23b
8:
	movq	%rbp,%rdx
	movq	%r14,%rbp
	jmp	23b
18:
	addq	$-5,%r15
	movl	$1,%eax
8:
	cmpw	$-1,(%r13)
	je	17f
	cmpw	$-1,2(%r13)
	je	18f
	subq	$5,%r15
	setb	%cl
	cmpq	%rsi,%rax
	jae	9b
	incq	%rax
	addq	$5,%r13
	testb	%cl,%cl
	je	8b
	jmp	9b
17:
	movq	8(%rsp),%r13
	movq	%rbx,%rax
	jmp	1b
18:
	movq	8(%rsp),%r13
	movq	%rbx,%rax
	jmp	1b
12:
	xorl	%edx,%edx
	leaq	.Lrtp_b236e5ea_static.0(%rip),%rbx
	jmp	10b
	.p2align	4
1:
	movq	%rbx,%rax
2:
	testq	%rdx,%rdx
	je	4f
	movzbl	(%rax),%esi
	testb	%sil,%sil
	jne	8f
	cmpq	$2,%rdx
	je	9f
	cmpq	$1,%rdx
	je	4f
	cmpq	$3,%rdx
	ja	10f
	cmpb	$0,1(%rax)
	jne	10f
	cmpb	$0,2(%rax)
	jne	10f
	jmp	4f
9:
	cmpb	$0,1(%rax)
	je	4f
10:
	decq	%rdx
	incq	%rax
	movq	%rax,%rdi
	movq	%rdx,%rsi
	callq	"rtp_b236e5ea_rtp_ext::elements::skip_zeros"
	testq	%rdx,%rdx
	je	4f
	movzbl	(%rax),%esi
8:
	cmpb	$-17,%sil
	ja	4f
	movl	%esi,%ecx
	andb	$15,%cl
	leal	2(%rcx),%edi
	movzbl	%dil,%r15d
	subq	%r15,%rdx
	jb	4f
	movzbl	%sil,%esi
	shrl	$4,%esi
	leaq	(%rax,%r15),%rbx
	testl	%esi,%esi
	je	1b
	movzbl	(%r13,%rsi),%esi
	decl	%esi
	cmpl	$14,%esi
	ja	1b
	leaq	1(%rax),%r12
	decq	%r15
	leaq	8f(%rip),%rdi
	movslq	(%rdi,%rsi,4),%rsi
	addq	%rdi,%rsi
	jmpq	*%rsi
9:
	cmpb	$2,%cl
	jb	1b
	movzbl	1(%rax),%ecx
	movzwl	2(%rax),%eax
	shll	$16,%eax
	shll	$8,%ecx
	orl	%eax,%ecx
	bswapl	%ecx
	imulq	$1000000,%rcx,%rax
	shrq	$18,%rax
	movb	$1,115(%rbp)
	movq	%rax,(%rbp)
	movq	%rbx,%rax
	jmp	2b
10:
	testb	%cl,%cl
	je	12f
	leaq	.Lrtp_b236e5ea_static.0(%rip),%rax
	movq	%rax,24(%rsp)
	testq	%rdx,%rdx
	movq	%r13,8(%rsp)
	je	17f
	movq	%rbp,16(%rsp)
	movq	%rbx,%r13
	movq	%rdx,%rbp
18:
	movzbl	(%rbx),%eax
	testb	%al,%al
	jne	19f
	cmpq	$2,%rdx
	je	23f
	cmpq	$1,%rdx
	movq	16(%rsp),%rbp
	movq	8(%rsp),%r13
	je	17f
	cmpq	$3,%rdx
	ja	24f
	cmpb	$0,1(%rbx)
	jne	24f
	cmpb	$0,2(%rbx)
	jne	24f
	jmp	17f
23:
	cmpb	$0,1(%rbx)
	movq	16(%rsp),%rbp
	movq	8(%rsp),%r13
	je	17f
24:
	movq	%rdx,%r14
	leaq	-1(%rdx),%rsi
	leaq	1(%rbx),%rdi
	callq	"rtp_b236e5ea_rtp_ext::elements::skip_zeros"
	testq	%rdx,%rdx
	je	23f
	movq	%rax,%r13
	movq	%rdx,%rbp
	movzbl	(%rax),%eax
	movq	%r14,%rdx
19:
	cmpb	$-17,%al
	ja	23f
	movl	%eax,%ecx
	andb	$15,%cl
	addb	$2,%cl
	movzbl	%cl,%r14d
	subq	%r14,%rbp
	jb	23f
	movzbl	%al,%eax
	shrl	$4,%eax
	je	19f
	movq	8(%rsp),%rcx
	cmpb	$15,(%rcx,%rax)
	jne	19f
	leaq	1(%r13),%rbx
	addq	%r14,%r13
	decq	%r14
	movq	%rbx,%rdi
	movq	%r14,%rsi
	callq	"rtp_b236e5ea_rtp_ext::block_values::is_another_allocation"
	testb	%al,%al
	cmovneq	%r14,%r15
	cmovneq	%rbx,%r12
	movq	%rbp,%rdx
	movq	%r13,%rbx
	testq	%rbp,%rbp
	jne	18b
23:
	xorl	%edx,%edx
	jmp	18f
23:
	movq	%r12,%rdi
	movq	%r15,%rsi
	movq	%rdx,%r14
	movq	%rbp,%rdx
	callq	"rtp_b236e5ea_rtp_values::value::stream_id::read_repaired::<#a6b2bc1c138ab33f>"
	movq	%r14,%rdx
	movq	%rbx,%rax
	jmp	2b
24:
	movzbl	(%r12),%ecx
	shlb	$4,%cl
	movb	$1,121(%rbp)
	movabsq	$25333521015767040,%rax
	shrq	%cl,%rax
	movw	%ax,66(%rbp)
	movq	%rbx,%rax
	jmp	2b
29:
	cmpb	$3,%cl
	jb	1b
	movl	(%r12),%eax
	bswapl	%eax
	movb	$1,119(%rbp)
	movl	%eax,60(%rbp)
	jmp	1b
30:
	testb	%cl,%cl
	je	1b
	movzwl	(%r12),%eax
	rolw	$8,%ax
	movb	$1,120(%rbp)
	movw	%ax,64(%rbp)
	movq	%rbx,%rax
	jmp	2b
31:
	xorps	%xmm0,%xmm0
	movaps	%xmm0,32(%rsp)
	movq	$0,48(%rsp)
	movdqa	.Lrtp_b236e5ea_CPI13_0(%rip),%xmm0
	movdqa	%xmm0,64(%rsp)
	xorl	%eax,%eax
	.p2align	4
32:
	movsbq	(%r12,%rax),%rcx
	testq	%rcx,%rcx
	js	33f
	leaq	.Lrtp_b236e5ea_static.2(%rip),%rsi
	movzbl	(%rcx,%rsi),%ecx
	movb	%cl,64(%rsp,%rax)
	incq	%rax
	cmpq	%rax,%r15
	jne	32b
	movdqa	64(%rsp),%xmm1
	jmp	32f
34:
	cmpb	$3,%cl
	jb	1b
	movl	(%r12),%eax
	bswapl	%eax
	movb	$1,118(%rbp)
	movl	%eax,56(%rbp)
	movq	%rbx,%rax
	jmp	2b
35:
	movzbl	(%r12),%eax
	movl	%eax,%ecx
	andb	$127,%cl
	negb	%cl
	movw	$257,123(%rbp)
	movb	%cl,78(%rbp)
	shrb	$7,%al
	movb	%al,79(%rbp)
	movq	%rbx,%rax
	jmp	2b
36:
	cmpb	$7,%cl
	jb	1b
	cmpb	$15,%cl
	jne	37f
	movq	9(%rax),%rax
	bswapq	%rax
	jmp	38f
39:
	cmpb	$2,%cl
	jb	1b
	movzbl	1(%rax),%ecx
	movzwl	2(%rax),%eax
	shll	$16,%eax
	shll	$8,%ecx
	orl	%eax,%ecx
	bswapl	%ecx
	movl	%ecx,%eax
	shrl	$12,%eax
	andl	$4095,%ecx
	movw	$257,125(%rbp)
	movq	%rax,24(%rbp)
	movq	$100,32(%rbp)
	movq	%rcx,40(%rbp)
	movq	$100,48(%rbp)
	movq	%rbx,%rax
	jmp	2b
40:
	movzbl	(%r12),%eax
	movb	$1,122(%rbp)
	movb	%al,77(%rbp)
	movq	%rbx,%rax
	jmp	2b
41:
	movq	%r12,%rdi
	movq	%r15,%rsi
	movq	%rdx,%r14
	movq	%rbp,%rdx
	callq	"rtp_b236e5ea_rtp_values::value::stream_id::read::<#a6b2bc1c138ab33f>"
	movq	%r14,%rdx
	movq	%rbx,%rax
	jmp	2b
42:
	cmpb	$8,%cl
	jb	1b
	movq	2(%rax),%xmm0
	pshufb	.Lrtp_b236e5ea_CPI13_1(%rip),%xmm0
	movzbl	1(%rax),%eax
	movb	$1,127(%rbp)
	movb	%al,76(%rbp)
	movq	%xmm0,68(%rbp)
	movq	%rbx,%rax
	jmp	2b
33:
	movq	%rdx,%r14
	leaq	32(%rsp),%rdi
	movq	%r12,%rsi
	movq	%r15,%rdx
	callq	"rtp_b236e5ea_core::str::utf8::from_utf8"
	cmpb	$0,32(%rsp)
	je	33f
	movq	%r14,%rdx
	movq	%rbx,%rax
	jmp	2b
17:
	xorl	%edx,%edx
	cmpq	$1,%r15
	jne	17f
43:
	movq	24(%rsp),%rax
	movq	%rax,%rbx
	jmp	44f
12:
	movq	%rbx,%rax
44:
	cmpb	$0,(%r12)
	jne	1b
	jmp	12f
37:
	xorl	%eax,%eax
38:
	movq	(%r12),%rsi
	bswapq	%rsi
	cmpb	$15,%cl
	movb	$1,116(%rbp)
	movq	%rsi,8(%rbp)
	sete	117(%rbp)
	movq	%rax,16(%rbp)
	movq	%rbx,%rax
	jmp	2b
33:
	movq	40(%rsp),%rax
	movq	48(%rsp),%rcx
	movdqa	.Lrtp_b236e5ea_CPI13_0(%rip),%xmm1
	movdqa	%xmm1,80(%rsp)
	testq	%rcx,%rcx
	je	33f
	movl	$1,%edx
	xorl	%esi,%esi
37:
	movzbl	-1(%rax,%rdx),%edi
	cmpb	$-64,%dil
	jl	38f
	leaq	.Lrtp_b236e5ea_static.2(%rip),%r8
	movzbl	(%rdi,%r8),%edi
	movb	%dil,80(%rsp,%rsi)
	incq	%rsi
38:
	cmpq	%rcx,%rdx
	jae	38f
	incq	%rdx
	cmpq	$16,%rsi
	jne	37b
38:
	movdqa	80(%rsp),%xmm1
33:
	movq	%r14,%rdx
32:
	movb	$1,128(%rbp)
	movdqa	.Lrtp_b236e5ea_CPI13_0(%rip),%xmm0
	pcmpeqb	%xmm1,%xmm0
	pandn	%xmm1,%xmm0
	movdqu	%xmm0,80(%rbp)
	movb	$0,96(%rbp)
	movq	%rbx,%rax
	jmp	2b
19:
	movq	%rbx,24(%rsp)
18:
	movq	16(%rsp),%rbp
	movq	8(%rsp),%r13
	cmpq	$1,%r15
	je	43b
17:
	leaq	1(%r12),%r13
	decq	%r15
	movzbl	(%r12),%eax
	movl	%eax,%esi
	shrl	$4,%esi
	andl	$3,%esi
	leal	1(%rsi),%ecx
	andb	$15,%al
	je	17f
	movl	%eax,%edi
	movl	%eax,%r8d
	movl	%eax,%r10d
	jmp	18f
17:
	movl	%esi,%r9d
	addl	$2,%r9d
	shrl	%r9d
	subq	%r9,%r15
	jb	17f
	testb	%sil,%sil
	je	19f
	movzbl	(%r13),%edi
	andb	$15,%dil
	cmpb	$2,%cl
	jne	32f
	movl	%eax,%r8d
	jmp	33f
19:
	movl	%eax,%edi
	movl	%eax,%r8d
	jmp	33f
32:
	movzbl	2(%r12),%r8d
	shrb	$4,%r8b
	cmpb	$3,%cl
	je	33f
	movzbl	2(%r12),%eax
	andb	$15,%al
33:
	movl	%eax,%r10d
	movzbl	(%r13),%eax
	shrb	$4,%al
	addq	%r9,%r13
18:
	movzbl	(%r12),%r9d
	andb	$15,%r9b
	je	18f
	movzbl	%r9b,%eax
	popcntl	%eax,%eax
	mulb	%cl
19:
	movzbl	%al,%ebx
	leal	3(%rbx),%eax
	shrl	$2,%eax
	subq	%rax,%r15
	jae	32f
17:
	movq	24(%rsp),%rax
	movq	8(%rsp),%r13
	jmp	2b
32:
	testq	%rax,%rax
	je	32f
	cmpl	$1,%eax
	jne	33f
	movzbl	(%r13),%ecx
	shll	$24,%ecx
	jmp	37f
18:
	movzbl	%al,%eax
	popcntl	%eax,%eax
	testb	%sil,%sil
	je	19b
	movzbl	%dil,%esi
	popcntl	%esi,%esi
	addb	%sil,%al
	cmpb	$2,%cl
	je	19b
	movzbl	%r8b,%esi
	popcntl	%esi,%esi
	addb	%sil,%al
	cmpb	$3,%cl
	je	19b
	movzbl	%r10b,%ecx
	popcntl	%ecx,%ecx
	addb	%cl,%al
	jmp	19b
32:
	xorl	%ecx,%ecx
	jmp	37f
33:
	cmpb	$8,%bl
	ja	18f
	movzwl	(%r13),%ecx
	bswapl	%ecx
37:
	testq	%rbx,%rbx
	jne	19f
	jmp	32f
18:
	cmpl	$3,%eax
	jne	18f
	movzbl	(%r13),%esi
	movzwl	1(%r13),%ecx
	shll	$8,%ecx
	orl	%esi,%ecx
	jmp	33f
18:
	movl	(%r13),%ecx
33:
	bswapl	%ecx
19:
	addq	%rax,%r13
	movl	%ecx,%eax
	leal	32(,%rbx,2),%ecx
	negl	%ecx
	shrq	%cl,%rax
	xorl	%r14d,%r14d
	popcntl	%eax,%r14d
	andl	$-1431655766,%eax
	popcntl	%eax,%eax
	addq	%rbx,%r14
	addq	%rax,%r14
	jne	18f
19:
	cmpq	$5,%r15
	jae	33f
32:
	movq	8(%rsp),%r13
	movq	24(%rsp),%rax
12:
	movb	$1,131(%rbp)
	jmp	2b
2:
	xorl	%r15d,%r15d
12:
	decq	%r14
	je	19b
18:
	testq	%r15,%r15
	je	2b
	cmpb	$0,(%r13)
	js	2f
	decq	%r15
	incq	%r13
	jmp	12b
2:
	cmpq	$1,%r15
	je	2f
	cmpb	$0,1(%r13)
	js	2f
	movl	$2,%eax
	jmp	18f
2:
	movq	%rdx,%r12
	leaq	32(%rsp),%rdi
	movq	%r13,%rsi
	movq	%r15,%rdx
	callq	"rtp_b236e5ea_rtp_vla::leb::long_number_at"
	cmpb	$1,32(%rsp)
	jne	2f
	movq	48(%rsp),%rax
	movq	%r12,%rdx
18:
	addq	%rax,%r13
	subq	%rax,%r15
	jmp	12b
2:
	movq	%r12,%rdx
	jmp	12b
33:
	addq	$-5,%r15
	movl	$1,%eax
2:
	cmpw	$-1,(%r13)
	je	17b
	cmpw	$-1,2(%r13)
	je	17b
	subq	$5,%r15
	setb	%cl
	cmpq	%rbx,%rax
	jae	32b
	incq	%rax
	addq	$5,%r13
	testb	%cl,%cl
	je	2b
	jmp	32b
4:
	addq	$104,%rsp
	.cfi_def_cfa_offset 56
	popq	%rbx
	.cfi_def_cfa_offset 48
	popq	%r12
	.cfi_def_cfa_offset 40
	popq	%r13
	.cfi_def_cfa_offset 32
	popq	%r14
	.cfi_def_cfa_offset 24
	popq	%r15
	.cfi_def_cfa_offset 16
	popq	%rbp
	.cfi_def_cfa_offset 8
	retq
	.size	"rtp_b236e5ea_rtp_ext::block_values::read_values::<#9a3a19c0cce455e9>", .-"rtp_b236e5ea_rtp_ext::block_values::read_values::<#9a3a19c0cce455e9>"
	.cfi_endproc
	.section	".rodata.rtp_ext::block_values::read_values::<#9a3a19c0cce455e9>","a",@progbits
	.p2align	2,0x0
5:
	.long	6b-5b
	.long	22b-5b
	.long	21b-5b
	.long	20b-5b
	.long	13b-5b
	.long	15b-5b
	.long	25b-5b
	.long	26b-5b
	.long	28b-5b
	.long	27b-5b
	.long	11b-5b
	.long	16b-5b
	.long	14b-5b
	.long	3b-5b
	.long	7b-5b
8:
	.long	9b-8b
	.long	36b-8b
	.long	35b-8b
	.long	34b-8b
	.long	24b-8b
	.long	30b-8b
	.long	39b-8b
	.long	40b-8b
	.long	42b-8b
	.long	41b-8b
	.long	23b-8b
	.long	31b-8b
	.long	29b-8b
	.long	1b-8b
	.long	10b-8b

	.section	.rodata.cst16,"aM",@progbits,16
	.p2align	4,0x0
.Lrtp_b236e5ea_CPI14_0:
	.zero	8
	.quad	1
.Lrtp_b236e5ea_CPI14_1:
	.zero	8
	.quad	2
	.section	".text.rtp_ext::block_values::is_another_allocation","ax",@progbits
	.p2align	4
	.type	"rtp_b236e5ea_rtp_ext::block_values::is_another_allocation",@function
"rtp_b236e5ea_rtp_ext::block_values::is_another_allocation":
	.cfi_startproc
	testq	%rsi,%rsi
	je	1f
	pushq	%r15
	.cfi_def_cfa_offset 16
	pushq	%r14
	.cfi_def_cfa_offset 24
	pushq	%r12
	.cfi_def_cfa_offset 32
	pushq	%rbx
	.cfi_def_cfa_offset 40
	subq	$24,%rsp
	.cfi_def_cfa_offset 64
	.cfi_offset %rbx,-40
	.cfi_offset %r12,-32
	.cfi_offset %r14,-24
	.cfi_offset %r15,-16
	movq	%rsi,%rbx
	cmpq	$1,%rsi
	jne	2f
	cmpb	$0,(%rdi)
	sete	%al
	jmp	3f
1:
	.cfi_def_cfa_offset 8
	.cfi_restore %rbx
	.cfi_restore %r12
	.cfi_restore %r14
	.cfi_restore %r15
	xorl	%eax,%eax
	retq
2:
	.cfi_def_cfa_offset 64
	.cfi_offset %rbx,-40
	.cfi_offset %r12,-32
	.cfi_offset %r14,-24
	.cfi_offset %r15,-16
	leaq	1(%rdi),%r14
	decq	%rbx
	movzbl	(%rdi),%eax
	movl	%eax,%edx
	shrl	$4,%edx
	andl	$3,%edx
	leaq	1(%rdx),%rcx
	andb	$15,%al
	je	1f
	movzbl	%al,%eax
	popcntl	%eax,%eax
	mulb	%cl
	movzbl	%al,%r15d
2:
	leaq	3(%r15),%rdx
	movl	%edx,%ecx
	shrl	$2,%ecx
	xorl	%eax,%eax
	subq	%rcx,%rbx
	jb	3f
	testq	%rcx,%rcx
	je	4f
	cmpl	$1,%ecx
	jne	5f
	movzbl	(%r14),%eax
	shll	$24,%eax
4:
	testq	%r15,%r15
	jne	4f
6:
	movb	$1,%al
	jmp	3f
1:
	leal	1(%rcx),%esi
	shrl	%esi
	subq	%rsi,%rbx
	jae	1f
7:
	xorl	%eax,%eax
	jmp	3f
1:
	movl	%ecx,%r10d
	incl	%r10d
	andl	$-2,%r10d
	movzbl	%dl,%r8d
	movd	%r8d,%xmm0
	pshufd	$68,%xmm0,%xmm0
	xorl	%r9d,%r9d
	movl	%eax,%r8d
	testb	%r9b,%r9b
	jne	1f
	movzbl	(%r14),%r8d
	shrb	$4,%r8b
	movzbl	%r8b,%r8d
	popcntl	%r8d,%r8d
1:
	movdqa	.Lrtp_b236e5ea_CPI14_0(%rip),%xmm1
	pcmpgtq	%xmm0,%xmm1
	pcmpeqd	%xmm2,%xmm2
	pxor	%xmm1,%xmm2
	pextrb	$8,%xmm2,%r11d
	movl	%eax,%r9d
	testb	$1,%r11b
	je	1f
	movzbl	(%r14),%r9d
	andb	$15,%r9b
	movzbl	%r9b,%r9d
	popcntl	%r9d,%r9d
1:
	cmpl	$2,%r10d
	jne	1f
	movl	%eax,%r10d
	addq	%rsi,%r14
	testb	%dl,%dl
	jne	8f
	jmp	9f
5:
	cmpl	$11,%edx
	ja	5f
	movzwl	(%r14),%eax
	bswapl	%eax
	testq	%r15,%r15
	jne	4f
	jmp	6b
1:
	movl	$1,%r10d
	movq	%r10,%xmm1
	movdqa	%xmm0,%xmm2
	pcmpgtq	%xmm1,%xmm2
	movd	%xmm2,%r11d
	movl	%eax,%r10d
	testb	$1,%r11b
	jne	1f
	pcmpgtq	.Lrtp_b236e5ea_CPI14_1(%rip),%xmm0
	pextrb	$8,%xmm0,%r11d
	testb	$1,%r11b
	jne	6f
10:
	addq	%rsi,%r14
	testb	%dl,%dl
	je	9f
8:
	addb	%r9b,%r8b
	movzbl	%r8b,%r15d
	cmpb	$2,%cl
	je	2b
	movzbl	%r10b,%edx
	addq	%rdx,%r15
	cmpb	$3,%cl
	je	2b
	movzbl	%al,%eax
	addq	%rax,%r15
	jmp	2b
5:
	cmpl	$3,%ecx
	jne	5f
	movzbl	(%r14),%edx
	movzwl	1(%r14),%eax
	shll	$8,%eax
	orl	%edx,%eax
	jmp	11f
1:
	movzbl	2(%rdi),%r10d
	shrb	$4,%r10b
	movzbl	%r10b,%r10d
	popcntl	%r10d,%r10d
	pcmpgtq	.Lrtp_b236e5ea_CPI14_1(%rip),%xmm0
	pextrb	$8,%xmm0,%r11d
	testb	$1,%r11b
	je	10b
6:
	movzbl	2(%rdi),%eax
	andb	$15,%al
	movzbl	%al,%eax
	popcntl	%eax,%eax
	addq	%rsi,%r14
	testb	%dl,%dl
	jne	8b
9:
	movzbl	%r8b,%r15d
	jmp	2b
5:
	movl	(%r14),%eax
11:
	bswapl	%eax
4:
	addq	%rcx,%r14
	movl	%eax,%eax
	leal	32(,%r15,2),%ecx
	negl	%ecx
	shrq	%cl,%rax
	xorl	%r12d,%r12d
	popcntl	%eax,%r12d
	andl	$-1431655766,%eax
	popcntl	%eax,%eax
	addq	%r15,%r12
	addq	%rax,%r12
	jne	1f
2:
	movb	$1,%al
	cmpq	$5,%rbx
	jae	4f
3:
	addq	$24,%rsp
	.cfi_def_cfa_offset 40
	popq	%rbx
	.cfi_def_cfa_offset 32
	popq	%r12
	.cfi_def_cfa_offset 24
	popq	%r14
	.cfi_def_cfa_offset 16
	popq	%r15
	.cfi_def_cfa_offset 8
	.cfi_restore %rbx
	.cfi_restore %r12
	.cfi_restore %r14
	.cfi_restore %r15
	retq
	.p2align	4
5:
	.cfi_def_cfa_offset 64
	.cfi_offset %rbx,-40
	.cfi_offset %r12,-32
	.cfi_offset %r14,-24
	.cfi_offset %r15,-16
	xorl	%ebx,%ebx
6:
	decq	%r12
	je	2b
1:
	testq	%rbx,%rbx
	je	5b
	cmpb	$0,(%r14)
	js	1f
	decq	%rbx
	incq	%r14
	jmp	6b
	.p2align	4
1:
	cmpq	$1,%rbx
	je	1f
	cmpb	$0,1(%r14)
	js	1f
	movl	$2,%eax
	jmp	2f
1:
	movq	%rsp,%rdi
	movq	%r14,%rsi
	movq	%rbx,%rdx
	callq	"rtp_b236e5ea_rtp_vla::leb::long_number_at"
	cmpb	$1,(%rsp)
	jne	6b
	movq	16(%rsp),%rax
2:
	addq	%rax,%r14
	subq	%rax,%rbx
	jmp	6b
4:
	addq	$-5,%rbx
	movl	$1,%ecx
	.p2align	4
1:
	cmpw	$-1,(%r14)
	je	7b
	cmpw	$-1,2(%r14)
	je	7b
	subq	$5,%rbx
	setb	%dl
	cmpq	%r15,%rcx
	jae	3b
	incq	%rcx
	addq	$5,%r14
	testb	%dl,%dl
	je	1b
	jmp	3b
	.size	"rtp_b236e5ea_rtp_ext::block_values::is_another_allocation", .-"rtp_b236e5ea_rtp_ext::block_values::is_another_allocation"
	.cfi_endproc

	.section	".text.rtp_vla::leb::long_number_at","ax",@progbits
	.p2align	4
	.type	"rtp_b236e5ea_rtp_vla::leb::long_number_at",@function
"rtp_b236e5ea_rtp_vla::leb::long_number_at":
	.cfi_startproc
	testq	%rdx,%rdx
	je	1f
	movzbl	(%rsi),%eax
	movl	%eax,%r8d
	andl	$127,%eax
	movl	$1,%ecx
	testb	%r8b,%r8b
	js	2f
3:
	movq	$1,(%rdi)
	movq	%rax,8(%rdi)
	movq	%rcx,16(%rdi)
	retq
2:
	cmpq	$1,%rdx
	jne	2f
1:
	xorps	%xmm0,%xmm0
	movups	%xmm0,(%rdi)
	movq	$0,16(%rdi)
	retq
2:
	movzbl	1(%rsi),%ecx
	movl	%ecx,%r8d
	andl	$127,%ecx
	shll	$7,%ecx
	orq	%rcx,%rax
	movl	$2,%ecx
	testb	%r8b,%r8b
	jns	3b
	cmpq	$2,%rdx
	je	1b
	movzbl	2(%rsi),%ecx
	movl	%ecx,%r8d
	andl	$127,%ecx
	shll	$14,%ecx
	orq	%rcx,%rax
	movl	$3,%ecx
	testb	%r8b,%r8b
	jns	3b
	cmpq	$3,%rdx
	je	1b
	movzbl	3(%rsi),%ecx
	movl	%ecx,%r8d
	andl	$127,%ecx
	shll	$21,%ecx
	orq	%rcx,%rax
	movl	$4,%ecx
	testb	%r8b,%r8b
	jns	3b
	cmpq	$4,%rdx
	je	1b
	movzbl	4(%rsi),%ecx
	movl	%ecx,%r8d
	andl	$127,%ecx
	shlq	$28,%rcx
	orq	%rcx,%rax
	movl	$5,%ecx
	testb	%r8b,%r8b
	jns	3b
	cmpq	$5,%rdx
	je	1b
	movzbl	5(%rsi),%ecx
	movl	%ecx,%r8d
	andl	$127,%ecx
	shlq	$35,%rcx
	orq	%rcx,%rax
	movl	$6,%ecx
	testb	%r8b,%r8b
	jns	3b
	cmpq	$6,%rdx
	je	1b
	movzbl	6(%rsi),%ecx
	movl	%ecx,%r8d
	andl	$127,%ecx
	shlq	$42,%rcx
	orq	%rcx,%rax
	movl	$7,%ecx
	testb	%r8b,%r8b
	jns	3b
	cmpq	$7,%rdx
	je	1b
	movzbl	7(%rsi),%ecx
	movl	%ecx,%r8d
	andl	$127,%ecx
	shlq	$49,%rcx
	orq	%rcx,%rax
	movl	$8,%ecx
	testb	%r8b,%r8b
	jns	3b
	cmpq	$8,%rdx
	je	1b
	movzbl	8(%rsi),%ecx
	movl	%ecx,%edx
	andl	$127,%ecx
	shlq	$56,%rcx
	orq	%rcx,%rax
	movl	$9,%ecx
	testb	%dl,%dl
	jns	3b
	movq	$1,(%rdi)
	movq	%rax,8(%rdi)
	movq	$9,16(%rdi)
	retq
	.size	"rtp_b236e5ea_rtp_vla::leb::long_number_at", .-"rtp_b236e5ea_rtp_vla::leb::long_number_at"
	.cfi_endproc

	.section	".text.rtp_values::value::stream_id::read::<#a6b2bc1c138ab33f>","ax",@progbits
	.p2align	4
	.type	"rtp_b236e5ea_rtp_values::value::stream_id::read::<#a6b2bc1c138ab33f>",@function
"rtp_b236e5ea_rtp_values::value::stream_id::read::<#a6b2bc1c138ab33f>":
	.cfi_startproc
	pushq	%rbp
	.cfi_def_cfa_offset 16
	pushq	%r15
	.cfi_def_cfa_offset 24
	pushq	%r14
	.cfi_def_cfa_offset 32
	pushq	%rbx
	.cfi_def_cfa_offset 40
	subq	$40,%rsp
	.cfi_def_cfa_offset 80
	.cfi_offset %rbx,-40
	.cfi_offset %r14,-32
	.cfi_offset %r15,-24
	.cfi_offset %rbp,-16
	movq	%rdx,%rbx
	movq	%rsi,%rdx
	movq	%rdi,%rsi
	xorps	%xmm0,%xmm0
	movaps	%xmm0,16(%rsp)
	movq	$0,32(%rsp)
	cmpq	$8,%rdx
	ja	1f
	testq	%rdx,%rdx
	je	2f
	movsbq	(%rsi),%rax
	testq	%rax,%rax
	js	1f
	movabsq	$2305843009213693952,%rdi
	leaq	.Lrtp_b236e5ea_static.2(%rip),%r14
	movzbl	(%rax,%r14),%eax
	movb	$32,%r8b
	cmpq	$1,%rdx
	jne	3f
	movb	$32,%bpl
	movb	$32,%r11b
	movb	$32,%r10b
	movb	$32,%r9b
	movb	$32,%cl
	jmp	4f
2:
	movabsq	$2314885530818453536,%rcx
	jmp	2f
3:
	movsbq	1(%rsi),%rcx
	testq	%rcx,%rcx
	js	1f
	movzbl	(%rcx,%r14),%ecx
	cmpq	$2,%rdx
	jne	3f
	movb	$32,%bpl
	movb	$32,%r11b
	movb	$32,%r10b
	movb	$32,%r9b
	jmp	4f
3:
	movsbq	2(%rsi),%r9
	testq	%r9,%r9
	js	1f
	movzbl	(%r9,%r14),%r9d
	cmpq	$3,%rdx
	jne	3f
	movb	$32,%bpl
	movb	$32,%r11b
	movb	$32,%r10b
	jmp	4f
3:
	movsbq	3(%rsi),%r10
	testq	%r10,%r10
	js	1f
	movzbl	(%r10,%r14),%r10d
	cmpq	$4,%rdx
	jne	3f
	movb	$32,%bpl
	movb	$32,%r11b
	jmp	4f
3:
	movsbq	4(%rsi),%r11
	testq	%r11,%r11
	js	1f
	movzbl	(%r11,%r14),%r11d
	cmpq	$5,%rdx
	jne	3f
	movb	$32,%bpl
	jmp	4f
3:
	movsbq	5(%rsi),%r15
	testq	%r15,%r15
	js	1f
	movzbl	(%r15,%r14),%ebp
	cmpq	$6,%rdx
	je	4f
	movsbq	6(%rsi),%r8
	testq	%r8,%r8
	js	1f
	movzbl	(%r8,%r14),%r8d
	cmpq	$7,%rdx
	je	4f
	movsbq	7(%rsi),%rdi
	testq	%rdi,%rdi
	js	1f
	movzbl	(%rdi,%r14),%edi
	shlq	$56,%rdi
4:
	movzbl	%r8b,%edx
	shlq	$48,%rdx
	orq	%rdi,%rdx
	movzbl	%bpl,%esi
	shlq	$40,%rsi
	movzbl	%r11b,%edi
	shlq	$32,%rdi
	orq	%rsi,%rdi
	orq	%rdx,%rdi
	movzbl	%r10b,%edx
	shll	$24,%edx
	movzbl	%r9b,%esi
	shll	$16,%esi
	orq	%rdx,%rsi
	movzbl	%cl,%ecx
	shll	$8,%ecx
	orq	%rsi,%rcx
	orq	%rdi,%rcx
	orq	%rax,%rcx
	jmp	2f
1:
	leaq	16(%rsp),%rdi
	callq	"rtp_b236e5ea_core::str::utf8::from_utf8"
	cmpb	$0,16(%rsp)
	jne	1f
	movabsq	$2314885530818453536,%rcx
	movq	24(%rsp),%rax
	movq	32(%rsp),%rdx
	movq	%rcx,8(%rsp)
	testq	%rdx,%rdx
	je	2f
	movl	$1,%ecx
	xorl	%esi,%esi
	.p2align	4
3:
	movzbl	-1(%rax,%rcx),%edi
	cmpb	$-64,%dil
	jl	4f
	leaq	.Lrtp_b236e5ea_static.2(%rip),%r8
	movzbl	(%rdi,%r8),%edi
	movb	%dil,8(%rsp,%rsi)
	incq	%rsi
4:
	cmpq	%rdx,%rcx
	jae	4f
	incq	%rcx
	cmpq	$8,%rsi
	jne	3b
4:
	movq	8(%rsp),%rcx
2:
	movb	$1,129(%rbx)
	movl	%ecx,%eax
	andl	$65280,%eax
	movl	%ecx,%esi
	andl	$16711680,%esi
	movl	%ecx,%edx
	andl	$-16777216,%edx
	movabsq	$1095216660480,%rdi
	andq	%rcx,%rdi
	movabsq	$280375465082880,%r9
	andq	%rcx,%r9
	movabsq	$71776119061217280,%r10
	andq	%rcx,%r10
	movabsq	$-72057594037927936,%r11
	andq	%rcx,%r11
	xorl	%r8d,%r8d
	movabsq	$2305843009213693952,%r14
	cmpq	%r14,%r11
	cmoveq	%r8,%r11
	movabsq	$9007199254740992,%r14
	cmpq	%r14,%r10
	cmoveq	%r8,%r10
	orq	%r11,%r10
	movabsq	$35184372088832,%r11
	cmpq	%r11,%r9
	cmoveq	%r8,%r9
	orq	%r10,%r9
	movabsq	$137438953472,%r10
	cmpq	%r10,%rdi
	cmoveq	%r8,%rdi
	orq	%r9,%rdi
	cmpq	$536870912,%rdx
	cmoveq	%r8,%rdx
	movzbl	%cl,%ecx
	cmpq	$2097152,%rsi
	cmoveq	%r8,%rsi
	orq	%rdi,%rdx
	cmpq	$8192,%rax
	cmoveq	%r8,%rax
	cmpq	$32,%rcx
	cmoveq	%r8,%rcx
	orq	%rsi,%rdx
	orq	%rax,%rcx
	orq	%rdx,%rcx
	movq	%rcx,97(%rbx)
	movb	$0,105(%rbx)
1:
	addq	$40,%rsp
	.cfi_def_cfa_offset 40
	popq	%rbx
	.cfi_def_cfa_offset 32
	popq	%r14
	.cfi_def_cfa_offset 24
	popq	%r15
	.cfi_def_cfa_offset 16
	popq	%rbp
	.cfi_def_cfa_offset 8
	retq
	.size	"rtp_b236e5ea_rtp_values::value::stream_id::read::<#a6b2bc1c138ab33f>", .-"rtp_b236e5ea_rtp_values::value::stream_id::read::<#a6b2bc1c138ab33f>"
	.cfi_endproc

	.section	".text.core::str::utf8::from_utf8","ax",@progbits
	.p2align	4
	.type	"rtp_b236e5ea_core::str::utf8::from_utf8",@function
"rtp_b236e5ea_core::str::utf8::from_utf8":
	.cfi_startproc
	pushq	%r15
	.cfi_def_cfa_offset 16
	pushq	%r14
	.cfi_def_cfa_offset 24
	pushq	%r13
	.cfi_def_cfa_offset 32
	pushq	%r12
	.cfi_def_cfa_offset 40
	pushq	%rbx
	.cfi_def_cfa_offset 48
	subq	$16,%rsp
	.cfi_def_cfa_offset 64
	.cfi_offset %rbx,-48
	.cfi_offset %r12,-40
	.cfi_offset %r13,-32
	.cfi_offset %r14,-24
	.cfi_offset %r15,-16
	movq	%rdx,%r15
	movq	%rsi,%r14
	movq	%rdi,%rbx
	testq	%rdx,%rdx
	je	1f
	movabsq	$-9187201950435737472,%r12
	leaq	-8(%r15),%r13
	xorl	%ecx,%ecx
	jmp	2f
3:
	movl	$1,%edi
4:
	addq	%rcx,%rdi
5:
	movq	%rdi,%rcx
	cmpq	%r15,%rdi
	jae	1f
2:
	movzbl	(%r14,%rcx),%esi
	testb	%sil,%sil
	sets	%dl
	movq	%r15,%rax
	subq	%rcx,%rax
	cmpq	$2,%rax
	setb	%dil
	orb	%dl,%dil
	jne	2f
	cmpb	$0,1(%r14,%rcx)
	js	3b
	movq	%r14,(%rsp)
	movq	%r15,8(%rsp)
	cmpq	$7,%rax
	ja	3f
	cmpb	$0,(%r14,%rcx)
	js	6f
	leaq	1(%rcx),%rdi
	cmpq	%r15,%rdi
	je	1f
	cmpb	$0,(%r14,%rdi)
	js	5b
	leaq	2(%rcx),%rdi
	cmpq	%r15,%rdi
	je	1f
	cmpb	$0,(%r14,%rdi)
	js	5b
	leaq	3(%rcx),%rdi
	cmpq	%r15,%rdi
	je	1f
	cmpb	$0,(%r14,%rdi)
	js	5b
	leaq	4(%rcx),%rdi
	cmpq	%r15,%rdi
	je	1f
	cmpb	$0,(%r14,%rdi)
	js	5b
	leaq	5(%rcx),%rdi
	cmpq	%r15,%rdi
	je	1f
	cmpb	$0,(%r14,%rdi)
	js	5b
	addq	$6,%rcx
	cmpq	%r15,%rcx
	je	1f
	cmpb	$0,(%r14,%rcx)
	movq	%rcx,%rdi
	js	5b
	jmp	1f
	.p2align	4
2:
	movl	$1,%edi
	testb	%sil,%sil
	jns	4b
	movl	$257,%edx
	cmpb	$-62,%sil
	jb	2f
	cmpb	$-33,%sil
	ja	7f
	cmpq	$2,%rax
	jb	8f
	movzbl	1(%r14,%rcx),%r8d
	movl	$2,%edi
	cmpb	$-65,%r8b
	jle	4b
	jmp	9f
3:
	movq	(%r14,%rcx),%rax
	andq	%r12,%rax
	je	3f
	rep		bsfq	%rax,%rax
	shrl	$3,%eax
	addq	%rcx,%rax
	addq	$8,%rcx
	movq	%rax,%rdi
	cmpq	%rcx,%rax
	jb	5b
	movq	%r15,%rcx
	subq	%rax,%rcx
	cmpq	$32,%rcx
	jae	10f
	jmp	11f
7:
	cmpb	$-17,%sil
	ja	7f
	cmpq	$3,%rax
	jb	12f
	movzbl	1(%r14,%rcx),%r8d
	cmpb	$-65,%r8b
	jg	9f
	cmpb	$-65,2(%r14,%rcx)
	jg	9f
	movzbl	%r8b,%edi
	movl	%esi,%r9d
	shll	$6,%r9d
	addl	%edi,%r9d
	addl	$-14464,%r9d
	cmpl	$32,%r9d
	jb	9f
	xorl	%r8d,%r8d
	cmpl	$896,%r9d
	setae	%r10b
	movl	$3,%edi
	cmpl	$864,%r9d
	jb	4b
	movb	%r10b,%r8b
	leaq	(%r8,%r8,2),%rdi
	testq	%rdi,%rdi
	jne	4b
	jmp	13f
6:
	movq	%rcx,%rdi
	jmp	5b
3:
	addq	$8,%rcx
	movq	%rcx,%rax
	movq	%r15,%rcx
	subq	%rax,%rcx
	cmpq	$32,%rcx
	jb	11f
	.p2align	4
10:
	movdqu	(%r14,%rax),%xmm0
	movdqu	16(%r14,%rax),%xmm1
	por	%xmm0,%xmm1
	pshufd	$238,%xmm1,%xmm0
	por	%xmm1,%xmm0
	movq	%xmm0,%rcx
	testq	%r12,%rcx
	jne	11f
	addq	$32,%rax
	movq	%rsp,%rdi
	movq	%rax,%rsi
	movq	%r15,%rdx
	callq	"rtp_b236e5ea_core::slice::words::skip_far::<#52f9edcae2f82f51>"
	movq	%r15,%rcx
	subq	%rax,%rcx
	cmpq	$31,%rcx
	ja	10b
11:
	movq	%r15,%rcx
	subq	%rax,%rcx
	jmp	3f
	.p2align	4
6:
	rep		bsfq	%rdx,%rdi
	shrl	$3,%edi
	addq	%rax,%rdi
	addq	$8,%rax
	addq	$-8,%rcx
	cmpq	%rax,%rdi
	jb	5b
3:
	cmpq	$9,%rcx
	jb	10f
	movq	(%r14,%rax),%rdx
	andq	%r12,%rdx
	jne	6b
	leaq	8(%rax),%rdi
	addq	$8,%rax
	addq	$-8,%rcx
	cmpq	%rax,%rdi
	jae	3b
	jmp	5b
10:
	movq	(%r14,%r13),%rax
	andq	%r12,%rax
	je	1f
	rep		bsfq	%rax,%rdi
	shrl	$3,%edi
	addq	%r13,%rdi
	jmp	5b
7:
	cmpq	$4,%rax
	jb	13f
	movzbl	1(%r14,%rcx),%edi
	cmpb	$-65,%dil
	jg	13f
	cmpb	$-65,2(%r14,%rcx)
	jg	13f
	cmpb	$-65,3(%r14,%rcx)
	jg	13f
	movl	%esi,%r8d
	shll	$6,%r8d
	leal	(%r8,%rdi),%r9d
	addl	$-15488,%r9d
	xorl	%edi,%edi
	cmpl	$272,%r9d
	setb	%r8b
	cmpl	$16,%r9d
	jb	13f
	movb	%r8b,%dil
	shll	$2,%edi
	testq	%rdi,%rdi
	jne	4b
13:
	cmpb	$-12,%sil
	ja	2f
12:
	cmpq	$2,%rax
	jb	8f
	movzbl	1(%r14,%rcx),%r8d
9:
	cmpl	$240,%esi
	sete	%dil
	shlb	$4,%dil
	orb	$-128,%dil
	cmpl	$224,%esi
	movzbl	%dil,%edi
	movl	$160,%r9d
	cmovnel	%edi,%r9d
	cmpl	$244,%esi
	movl	$143,%edi
	movl	$191,%r10d
	cmovel	%edi,%r10d
	cmpl	$237,%esi
	movl	$159,%esi
	cmovnel	%r10d,%esi
	cmpb	%r8b,%r9b
	ja	2f
	cmpb	%sil,%r8b
	ja	2f
	cmpq	$2,%rax
	jne	3f
8:
	xorl	%edx,%edx
2:
	movq	$1,(%rbx)
	movq	%rcx,8(%rbx)
	movq	%rdx,16(%rbx)
	jmp	4f
1:
	movq	$0,(%rbx)
	movq	%r14,8(%rbx)
	movq	%r15,16(%rbx)
4:
	addq	$16,%rsp
	.cfi_def_cfa_offset 48
	popq	%rbx
	.cfi_def_cfa_offset 40
	popq	%r12
	.cfi_def_cfa_offset 32
	popq	%r13
	.cfi_def_cfa_offset 24
	popq	%r14
	.cfi_def_cfa_offset 16
	popq	%r15
	.cfi_def_cfa_offset 8
	retq
3:
	.cfi_def_cfa_offset 64
	movl	$513,%edx
	cmpb	$-65,2(%r14,%rcx)
	jg	2b
	xorl	%esi,%esi
	cmpq	$4,%rax
	movl	$769,%edx
	cmovbq	%rsi,%rdx
	jmp	2b
	.size	"rtp_b236e5ea_core::str::utf8::from_utf8", .-"rtp_b236e5ea_core::str::utf8::from_utf8"
	.cfi_endproc

	.section	.rodata.cst16,"aM",@progbits,16
	.p2align	4,0x0
.Lrtp_b236e5ea_CPI18_0:
	.zero	16,128
	.section	".text.core::slice::words::skip_far::<#52f9edcae2f82f51>","ax",@progbits
	.p2align	4
	.type	"rtp_b236e5ea_core::slice::words::skip_far::<#52f9edcae2f82f51>",@function
"rtp_b236e5ea_core::slice::words::skip_far::<#52f9edcae2f82f51>":
	.cfi_startproc
	movq	%rsi,%rax
	subq	%rsi,%rdx
	cmpq	$64,%rdx
	jb	1f
	movq	(%rdi),%rcx
	.p2align	4
2:
	movdqu	(%rcx,%rax),%xmm0
	movdqu	16(%rcx,%rax),%xmm1
	movdqu	32(%rcx,%rax),%xmm2
	por	%xmm0,%xmm2
	movdqu	48(%rcx,%rax),%xmm0
	por	%xmm1,%xmm0
	por	%xmm2,%xmm0
	ptest	.Lrtp_b236e5ea_CPI18_0(%rip),%xmm0
	jne	1f
	addq	$64,%rax
	addq	$-64,%rdx
	cmpq	$63,%rdx
	ja	2b
1:
	retq
	.size	"rtp_b236e5ea_core::slice::words::skip_far::<#52f9edcae2f82f51>", .-"rtp_b236e5ea_core::slice::words::skip_far::<#52f9edcae2f82f51>"
	.cfi_endproc

	.section	".text.rtp_values::value::stream_id::read_repaired::<#a6b2bc1c138ab33f>","ax",@progbits
	.p2align	4
	.type	"rtp_b236e5ea_rtp_values::value::stream_id::read_repaired::<#a6b2bc1c138ab33f>",@function
"rtp_b236e5ea_rtp_values::value::stream_id::read_repaired::<#a6b2bc1c138ab33f>":
	.cfi_startproc
	pushq	%rbp
	.cfi_def_cfa_offset 16
	pushq	%r15
	.cfi_def_cfa_offset 24
	pushq	%r14
	.cfi_def_cfa_offset 32
	pushq	%rbx
	.cfi_def_cfa_offset 40
	subq	$40,%rsp
	.cfi_def_cfa_offset 80
	.cfi_offset %rbx,-40
	.cfi_offset %r14,-32
	.cfi_offset %r15,-24
	.cfi_offset %rbp,-16
	movq	%rdx,%rbx
	movq	%rsi,%rdx
	movq	%rdi,%rsi
	xorps	%xmm0,%xmm0
	movaps	%xmm0,16(%rsp)
	movq	$0,32(%rsp)
	cmpq	$8,%rdx
	ja	1f
	testq	%rdx,%rdx
	je	2f
	movsbq	(%rsi),%rax
	testq	%rax,%rax
	js	1f
	movabsq	$2305843009213693952,%rdi
	leaq	.Lrtp_b236e5ea_static.2(%rip),%r14
	movzbl	(%rax,%r14),%eax
	movb	$32,%r8b
	cmpq	$1,%rdx
	jne	3f
	movb	$32,%bpl
	movb	$32,%r11b
	movb	$32,%r10b
	movb	$32,%r9b
	movb	$32,%cl
	jmp	4f
2:
	movabsq	$2314885530818453536,%rcx
	jmp	2f
3:
	movsbq	1(%rsi),%rcx
	testq	%rcx,%rcx
	js	1f
	movzbl	(%rcx,%r14),%ecx
	cmpq	$2,%rdx
	jne	3f
	movb	$32,%bpl
	movb	$32,%r11b
	movb	$32,%r10b
	movb	$32,%r9b
	jmp	4f
3:
	movsbq	2(%rsi),%r9
	testq	%r9,%r9
	js	1f
	movzbl	(%r9,%r14),%r9d
	cmpq	$3,%rdx
	jne	3f
	movb	$32,%bpl
	movb	$32,%r11b
	movb	$32,%r10b
	jmp	4f
3:
	movsbq	3(%rsi),%r10
	testq	%r10,%r10
	js	1f
	movzbl	(%r10,%r14),%r10d
	cmpq	$4,%rdx
	jne	3f
	movb	$32,%bpl
	movb	$32,%r11b
	jmp	4f
3:
	movsbq	4(%rsi),%r11
	testq	%r11,%r11
	js	1f
	movzbl	(%r11,%r14),%r11d
	cmpq	$5,%rdx
	jne	3f
	movb	$32,%bpl
	jmp	4f
3:
	movsbq	5(%rsi),%r15
	testq	%r15,%r15
	js	1f
	movzbl	(%r15,%r14),%ebp
	cmpq	$6,%rdx
	je	4f
	movsbq	6(%rsi),%r8
	testq	%r8,%r8
	js	1f
	movzbl	(%r8,%r14),%r8d
	cmpq	$7,%rdx
	je	4f
	movsbq	7(%rsi),%rdi
	testq	%rdi,%rdi
	js	1f
	movzbl	(%rdi,%r14),%edi
	shlq	$56,%rdi
4:
	movzbl	%r8b,%edx
	shlq	$48,%rdx
	orq	%rdi,%rdx
	movzbl	%bpl,%esi
	shlq	$40,%rsi
	movzbl	%r11b,%edi
	shlq	$32,%rdi
	orq	%rsi,%rdi
	orq	%rdx,%rdi
	movzbl	%r10b,%edx
	shll	$24,%edx
	movzbl	%r9b,%esi
	shll	$16,%esi
	orq	%rdx,%rsi
	movzbl	%cl,%ecx
	shll	$8,%ecx
	orq	%rsi,%rcx
	orq	%rdi,%rcx
	orq	%rax,%rcx
	jmp	2f
1:
	leaq	16(%rsp),%rdi
	callq	"rtp_b236e5ea_core::str::utf8::from_utf8"
	cmpb	$0,16(%rsp)
	jne	1f
	movabsq	$2314885530818453536,%rcx
	movq	24(%rsp),%rax
	movq	32(%rsp),%rdx
	movq	%rcx,8(%rsp)
	testq	%rdx,%rdx
	je	2f
	movl	$1,%ecx
	xorl	%esi,%esi
	.p2align	4
3:
	movzbl	-1(%rax,%rcx),%edi
	cmpb	$-64,%dil
	jl	4f
	leaq	.Lrtp_b236e5ea_static.2(%rip),%r8
	movzbl	(%rdi,%r8),%edi
	movb	%dil,8(%rsp,%rsi)
	incq	%rsi
4:
	cmpq	%rdx,%rcx
	jae	4f
	incq	%rcx
	cmpq	$8,%rsi
	jne	3b
4:
	movq	8(%rsp),%rcx
2:
	movb	$1,130(%rbx)
	movl	%ecx,%eax
	andl	$65280,%eax
	movl	%ecx,%esi
	andl	$16711680,%esi
	movl	%ecx,%edx
	andl	$-16777216,%edx
	movabsq	$1095216660480,%rdi
	andq	%rcx,%rdi
	movabsq	$280375465082880,%r9
	andq	%rcx,%r9
	movabsq	$71776119061217280,%r10
	andq	%rcx,%r10
	movabsq	$-72057594037927936,%r11
	andq	%rcx,%r11
	xorl	%r8d,%r8d
	movabsq	$2305843009213693952,%r14
	cmpq	%r14,%r11
	cmoveq	%r8,%r11
	movabsq	$9007199254740992,%r14
	cmpq	%r14,%r10
	cmoveq	%r8,%r10
	orq	%r11,%r10
	movabsq	$35184372088832,%r11
	cmpq	%r11,%r9
	cmoveq	%r8,%r9
	orq	%r10,%r9
	movabsq	$137438953472,%r10
	cmpq	%r10,%rdi
	cmoveq	%r8,%rdi
	orq	%r9,%rdi
	cmpq	$536870912,%rdx
	cmoveq	%r8,%rdx
	movzbl	%cl,%ecx
	cmpq	$2097152,%rsi
	cmoveq	%r8,%rsi
	orq	%rdi,%rdx
	cmpq	$8192,%rax
	cmoveq	%r8,%rax
	cmpq	$32,%rcx
	cmoveq	%r8,%rcx
	orq	%rsi,%rdx
	orq	%rax,%rcx
	orq	%rdx,%rcx
	movq	%rcx,106(%rbx)
	movb	$0,114(%rbx)
1:
	addq	$40,%rsp
	.cfi_def_cfa_offset 40
	popq	%rbx
	.cfi_def_cfa_offset 32
	popq	%r14
	.cfi_def_cfa_offset 24
	popq	%r15
	.cfi_def_cfa_offset 16
	popq	%rbp
	.cfi_def_cfa_offset 8
	retq
	.size	"rtp_b236e5ea_rtp_values::value::stream_id::read_repaired::<#a6b2bc1c138ab33f>", .-"rtp_b236e5ea_rtp_values::value::stream_id::read_repaired::<#a6b2bc1c138ab33f>"
	.cfi_endproc

	.section	".text.rtp_wire::header::block::close_block","ax",@progbits
	.p2align	4
	.type	"rtp_b236e5ea_rtp_wire::header::block::close_block",@function
"rtp_b236e5ea_rtp_wire::header::block::close_block":
	.cfi_startproc
	leaq	3(%rdx),%rcx
	movq	%rcx,%r8
	andq	$-4,%r8
	leaq	4(%rdx),%rax
	subq	%rdx,%r8
	je	1f
	cmpq	$2,%r8
	je	2f
	cmpq	$1,%r8
	jne	3f
	movb	$0,4(%rdi,%rdx)
	addq	$5,%rdx
	jmp	4f
2:
	movw	$0,4(%rdi,%rdx)
	addq	$6,%rdx
	jmp	4f
3:
	movb	$0,2(%rdi,%rax)
	movw	$0,(%rdi,%rax)
	addq	$7,%rdx
4:
	movq	%rdx,%rax
1:
	movl	%ecx,%edx
	andl	$-4,%edx
	shll	$22,%edx
	shll	$6,%ecx
	andl	$16711680,%ecx
	testb	%sil,%sil
	movl	$57022,%esi
	movl	$16,%r8d
	cmovel	%esi,%r8d
	orl	%ecx,%r8d
	orl	%edx,%r8d
	movl	%r8d,(%rdi)
	retq
	.size	"rtp_b236e5ea_rtp_wire::header::block::close_block", .-"rtp_b236e5ea_rtp_wire::header::block::close_block"
	.cfi_endproc

	.section	".text.rtp_ext::raw_writing::put_elements::<#d57726891005992a>","ax",@progbits
	.p2align	4
	.type	"rtp_b236e5ea_rtp_ext::raw_writing::put_elements::<#d57726891005992a>",@function
"rtp_b236e5ea_rtp_ext::raw_writing::put_elements::<#d57726891005992a>":
	.cfi_startproc
	pushq	%rbp
	.cfi_def_cfa_offset 16
	pushq	%r15
	.cfi_def_cfa_offset 24
	pushq	%r14
	.cfi_def_cfa_offset 32
	pushq	%r13
	.cfi_def_cfa_offset 40
	pushq	%r12
	.cfi_def_cfa_offset 48
	pushq	%rbx
	.cfi_def_cfa_offset 56
	pushq	%rax
	.cfi_def_cfa_offset 64
	.cfi_offset %rbx,-56
	.cfi_offset %r12,-48
	.cfi_offset %r13,-40
	.cfi_offset %r14,-32
	.cfi_offset %r15,-24
	.cfi_offset %rbp,-16
	movq	24(%rdx),%r11
	testq	%r11,%r11
	je	1f
	movq	%rdi,%rbx
	movq	(%rdx),%r13
	movq	16(%rdx),%rbp
	testb	%sil,%sil
	movq	%r11,(%rsp)
	je	2f
	xorl	%eax,%eax
	xorl	%r12d,%r12d
	jmp	3f
	.p2align	4
4:
	movzbl	(%rsi),%eax
	movb	%al,(%rbx,%r14)
5:
	addq	%r15,%r14
	incq	%r12
	movq	%r14,%rax
	cmpq	%r11,%r12
	je	6f
3:
	movq	%r12,%rdx
	shlq	$5,%rdx
	movq	(%rbp,%rdx),%rcx
	movq	8(%rbp,%rdx),%r15
	movzbl	24(%rbp,%rdx),%edx
	leaq	(%rcx,%r13),%rsi
	movb	%dl,(%rbx,%rax)
	movb	%r15b,1(%rbx,%rax)
	leaq	2(%rax),%r14
	testq	%r15,%r15
	je	3f
	cmpq	$1,%r15
	je	4b
	cmpq	$2,%r15
	ja	4f
	movzbl	(%rsi),%eax
	movb	%al,(%rbx,%r14)
	movzbl	1(%rsi),%eax
	movb	%al,1(%rbx,%r14)
	jmp	5b
4:
	cmpq	$3,%r15
	jne	3f
	movzbl	(%rsi),%eax
	movb	%al,(%rbx,%r14)
	movzbl	1(%rsi),%eax
	movb	%al,1(%rbx,%r14)
	movzbl	2(%rsi),%eax
	movb	%al,2(%rbx,%r14)
	jmp	5b
	.p2align	4
3:
	leaq	(%rbx,%r14),%rdi
	movq	%rdi,%rdx
	subq	%rsi,%rdx
	cmpq	%r15,%rdx
	jae	3f
	cmpq	$4,%r15
	jb	4f
	leaq	2(%rbx),%rdx
	addq	%rax,%rdx
	subq	%rsi,%rdx
	cmpq	$32,%rdx
	jae	7f
4:
	xorl	%edx,%edx
4:
	movq	%r15,%r9
	movq	%rdx,%r8
	andq	$3,%r9
	je	8f
	movq	%rdx,%r8
	.p2align	4
9:
	movzbl	(%rsi,%r8),%r10d
	movb	%r10b,(%rdi,%r8)
	incq	%r8
	decq	%r9
	jne	9b
8:
	subq	%r15,%rdx
	cmpq	$-4,%rdx
	ja	5b
	leaq	3(%r13),%rdx
	addq	%rdx,%rcx
	leaq	5(%rbx),%rdx
	addq	%rdx,%rax
	.p2align	4
8:
	movzbl	-3(%rcx,%r8),%edx
	movb	%dl,-3(%rax,%r8)
	movzbl	-2(%rcx,%r8),%edx
	movb	%dl,-2(%rax,%r8)
	movzbl	-1(%rcx,%r8),%edx
	movb	%dl,-1(%rax,%r8)
	movzbl	(%rcx,%r8),%edx
	movb	%dl,(%rax,%r8)
	addq	$4,%r8
	cmpq	%r8,%r15
	jne	8b
	jmp	5b
	.p2align	4
3:
	movq	%r15,%rdx
	callq	memmove@PLT
	movq	(%rsp),%r11
	jmp	5b
7:
	cmpq	$32,%r15
	jae	3f
	xorl	%edx,%edx
	jmp	7f
3:
	movq	%r15,%rdx
	andq	$-32,%rdx
	leaq	16(%r13),%r8
	addq	%rcx,%r8
	leaq	18(%rbx),%r9
	addq	%rax,%r9
	xorl	%r10d,%r10d
	.p2align	4
3:
	movups	-16(%r8,%r10),%xmm0
	movups	(%r8,%r10),%xmm1
	movups	%xmm0,-16(%r9,%r10)
	movups	%xmm1,(%r9,%r10)
	addq	$32,%r10
	cmpq	%r10,%rdx
	jne	3b
	cmpq	%rdx,%r15
	je	5b
	testb	$28,%r15b
	je	4b
7:
	movq	%rdx,%r8
	movq	%r15,%rdx
	andq	$-4,%rdx
	.p2align	4
3:
	movl	(%rsi,%r8),%r9d
	movl	%r9d,(%rdi,%r8)
	addq	$4,%r8
	cmpq	%r8,%rdx
	jne	3b
	cmpq	%rdx,%r15
	je	5b
	jmp	4b
1:
	xorl	%r14d,%r14d
6:
	movq	%r14,%rax
	addq	$8,%rsp
	.cfi_def_cfa_offset 56
	popq	%rbx
	.cfi_def_cfa_offset 48
	popq	%r12
	.cfi_def_cfa_offset 40
	popq	%r13
	.cfi_def_cfa_offset 32
	popq	%r14
	.cfi_def_cfa_offset 24
	popq	%r15
	.cfi_def_cfa_offset 16
	popq	%rbp
	.cfi_def_cfa_offset 8
	retq
2:
	.cfi_def_cfa_offset 64
	xorl	%eax,%eax
	xorl	%r12d,%r12d
	jmp	1f
	.p2align	4
2:
	movzbl	(%rsi),%eax
	movb	%al,(%rbx,%r14)
3:
	addq	%r15,%r14
	incq	%r12
	movq	%r14,%rax
	cmpq	%r11,%r12
	je	6b
1:
	movq	%r12,%rdx
	shlq	$5,%rdx
	movq	(%rbp,%rdx),%rcx
	movq	8(%rbp,%rdx),%r15
	movzbl	24(%rbp,%rdx),%edx
	leaq	(%rcx,%r13),%rsi
	rolb	$4,%dl
	addb	%r15b,%dl
	decb	%dl
	movb	%dl,(%rbx,%rax)
	leaq	1(%rax),%r14
	testq	%r15,%r15
	je	1f
	cmpq	$1,%r15
	je	2b
	cmpq	$3,%r15
	jae	2f
	movzbl	(%rsi),%eax
	movb	%al,(%rbx,%r14)
	movzbl	1(%rsi),%eax
	movb	%al,1(%rbx,%r14)
	jmp	3b
2:
	jne	1f
	movzbl	(%rsi),%eax
	movb	%al,(%rbx,%r14)
	movzbl	1(%rsi),%eax
	movb	%al,1(%rbx,%r14)
	movzbl	2(%rsi),%eax
	movb	%al,2(%rbx,%r14)
	jmp	3b
	.p2align	4
1:
	leaq	(%rbx,%r14),%rdi
	movq	%rdi,%rdx
	subq	%rsi,%rdx
	cmpq	%r15,%rdx
	jae	1f
	cmpq	$4,%r15
	jb	2f
	leaq	1(%rbx),%rdx
	addq	%rax,%rdx
	subq	%rsi,%rdx
	cmpq	$32,%rdx
	jae	4f
2:
	xorl	%edx,%edx
2:
	movq	%r15,%r9
	movq	%rdx,%r8
	andq	$3,%r9
	je	5f
	movq	%rdx,%r8
	.p2align	4
6:
	movzbl	(%rsi,%r8),%r10d
	movb	%r10b,(%rdi,%r8)
	incq	%r8
	decq	%r9
	jne	6b
5:
	subq	%r15,%rdx
	cmpq	$-4,%rdx
	ja	3b
	leaq	3(%r13),%rdx
	addq	%rdx,%rcx
	leaq	4(%rbx),%rdx
	addq	%rdx,%rax
	.p2align	4
5:
	movzbl	-3(%rcx,%r8),%edx
	movb	%dl,-3(%rax,%r8)
	movzbl	-2(%rcx,%r8),%edx
	movb	%dl,-2(%rax,%r8)
	movzbl	-1(%rcx,%r8),%edx
	movb	%dl,-1(%rax,%r8)
	movzbl	(%rcx,%r8),%edx
	movb	%dl,(%rax,%r8)
	addq	$4,%r8
	cmpq	%r8,%r15
	jne	5b
	jmp	3b
	.p2align	4
1:
	movq	%r15,%rdx
	callq	memmove@PLT
	movq	(%rsp),%r11
	jmp	3b
4:
	cmpq	$32,%r15
	jae	1f
	xorl	%edx,%edx
	jmp	4f
1:
	movq	%r15,%rdx
	andq	$-32,%rdx
	leaq	16(%r13),%r8
	addq	%rcx,%r8
	leaq	17(%rbx),%r9
	addq	%rax,%r9
	xorl	%r10d,%r10d
	.p2align	4
1:
	movups	-16(%r8,%r10),%xmm0
	movups	(%r8,%r10),%xmm1
	movups	%xmm0,-16(%r9,%r10)
	movups	%xmm1,(%r9,%r10)
	addq	$32,%r10
	cmpq	%r10,%rdx
	jne	1b
	cmpq	%rdx,%r15
	je	3b
	testb	$28,%r15b
	je	2b
4:
	movq	%rdx,%r8
	movq	%r15,%rdx
	andq	$-4,%rdx
	.p2align	4
1:
	movl	(%rsi,%r8),%r9d
	movl	%r9d,(%rdi,%r8)
	addq	$4,%r8
	cmpq	%r8,%rdx
	jne	1b
	cmpq	%rdx,%r15
	je	3b
	jmp	2b
	.size	"rtp_b236e5ea_rtp_ext::raw_writing::put_elements::<#d57726891005992a>", .-"rtp_b236e5ea_rtp_ext::raw_writing::put_elements::<#d57726891005992a>"
	.cfi_endproc

	.section	".text.rtp_ext::form_change::row_len","ax",@progbits
	.p2align	4
	.type	"rtp_b236e5ea_rtp_ext::form_change::row_len",@function
"rtp_b236e5ea_rtp_ext::form_change::row_len":
	.cfi_startproc
	pushq	%rbp
	.cfi_def_cfa_offset 16
	pushq	%r15
	.cfi_def_cfa_offset 24
	pushq	%r14
	.cfi_def_cfa_offset 32
	pushq	%r13
	.cfi_def_cfa_offset 40
	pushq	%r12
	.cfi_def_cfa_offset 48
	pushq	%rbx
	.cfi_def_cfa_offset 56
	pushq	%rax
	.cfi_def_cfa_offset 64
	.cfi_offset %rbx,-56
	.cfi_offset %r12,-48
	.cfi_offset %r13,-40
	.cfi_offset %r14,-32
	.cfi_offset %r15,-24
	.cfi_offset %rbp,-16
	movl	%r8d,%ebx
	movq	%rcx,%r14
	movq	%rdx,%r15
	testb	%dil,%dil
	je	1f
	testb	%sil,%sil
	je	2f
	xorl	%r12d,%r12d
	xorl	%edi,%edi
3:
	movq	%r14,%rdx
	movb	$1,%r13b
	subq	%rdi,%rdx
	je	4f
	addq	%r15,%rdi
	cmpb	$0,(%rdi)
	je	5f
	movq	%rdi,%rax
	jmp	6f
	.p2align	4
5:
	cmpq	$2,%rdx
	je	5f
	cmpq	$1,%rdx
	je	4f
	cmpq	$3,%rdx
	ja	7f
	cmpb	$0,1(%rdi)
	jne	7f
	cmpb	$0,2(%rdi)
	jne	7f
	jmp	4f
5:
	cmpb	$0,1(%rdi)
	je	4f
7:
	decq	%rdx
	incq	%rdi
	movq	%rdx,%rsi
	callq	"rtp_b236e5ea_rtp_ext::elements::skip_zeros"
	testq	%rdx,%rdx
	je	4f
6:
	cmpq	$2,%rdx
	jb	4f
	movzbl	1(%rax),%ecx
	leaq	2(%rcx),%rdi
	subq	%rdx,%rdi
	ja	4f
	movzbl	(%rax),%eax
	addq	%r14,%rdi
	cmpb	%bl,%al
	je	3b
	testb	%al,%al
	je	3b
	addq	%rcx,%r12
	addq	$2,%r12
	jmp	3b
1:
	xorl	%r12d,%r12d
	xorl	%eax,%eax
	testb	%sil,%sil
	je	1f
3:
	movq	%r14,%rdx
	movb	$1,%r13b
	subq	%rax,%rdx
	je	4f
	movzbl	(%r15,%rax),%ecx
	testb	%cl,%cl
	jne	5f
	cmpq	$2,%rdx
	je	6f
	cmpq	$1,%rdx
	je	4f
	cmpq	$3,%rdx
	ja	7f
	cmpb	$0,1(%r15,%rax)
	jne	7f
	cmpb	$0,2(%r15,%rax)
	jne	7f
	jmp	4f
6:
	cmpb	$0,1(%r15,%rax)
	je	4f
7:
	decq	%rdx
	leaq	(%r15,%rax),%rdi
	incq	%rdi
	movq	%rdx,%rsi
	callq	"rtp_b236e5ea_rtp_ext::elements::skip_zeros"
	testq	%rdx,%rdx
	je	4f
	movzbl	(%rax),%ecx
5:
	cmpb	$-17,%cl
	ja	4f
	movl	%ecx,%eax
	andb	$15,%al
	addb	$2,%al
	movzbl	%al,%esi
	movq	%rsi,%rax
	subq	%rdx,%rax
	ja	4f
	shrb	$4,%cl
	addq	%r14,%rax
	cmpb	%bl,%cl
	je	3b
	testb	%cl,%cl
	je	3b
	addq	%rsi,%r12
	incq	%r12
	jmp	3b
2:
	xorl	%ebp,%ebp
	xorl	%edi,%edi
2:
	movq	%r14,%rdx
	movb	$1,%r13b
	subq	%rdi,%rdx
	je	3f
	addq	%r15,%rdi
	cmpb	$0,(%rdi)
	je	5f
	movq	%rdi,%rax
	jmp	6f
	.p2align	4
5:
	cmpq	$2,%rdx
	je	5f
	cmpq	$1,%rdx
	je	3f
	cmpq	$3,%rdx
	ja	7f
	cmpb	$0,1(%rdi)
	jne	7f
	cmpb	$0,2(%rdi)
	jne	7f
	jmp	3f
5:
	cmpb	$0,1(%rdi)
	je	3f
7:
	decq	%rdx
	incq	%rdi
	movq	%rdx,%rsi
	callq	"rtp_b236e5ea_rtp_ext::elements::skip_zeros"
	testq	%rdx,%rdx
	je	3f
6:
	cmpq	$2,%rdx
	jb	3f
	movzbl	1(%rax),%ecx
	leaq	2(%rcx),%rdi
	subq	%rdx,%rdi
	ja	3f
	movzbl	(%rax),%eax
	addq	%r14,%rdi
	cmpb	%bl,%al
	je	2b
	testb	%al,%al
	je	2b
	xorl	%r12d,%r12d
	movl	$0,%r13d
	cmpb	$14,%al
	ja	4f
	leal	-1(%rcx),%eax
	cmpb	$15,%al
	ja	4f
	addq	%rcx,%rbp
	incq	%rbp
	jmp	2b
3:
	movq	%rbp,%r12
4:
	movl	%r13d,%eax
	movq	%r12,%rdx
	addq	$8,%rsp
	.cfi_def_cfa_offset 56
	popq	%rbx
	.cfi_def_cfa_offset 48
	popq	%r12
	.cfi_def_cfa_offset 40
	popq	%r13
	.cfi_def_cfa_offset 32
	popq	%r14
	.cfi_def_cfa_offset 24
	popq	%r15
	.cfi_def_cfa_offset 16
	popq	%rbp
	.cfi_def_cfa_offset 8
	retq
2:
	.cfi_def_cfa_offset 64
	decq	%rdx
	leaq	(%r15,%rax),%rdi
	incq	%rdi
	movq	%rdx,%rsi
	callq	"rtp_b236e5ea_rtp_ext::elements::skip_zeros"
	testq	%rdx,%rdx
	je	4b
	movzbl	(%rax),%ecx
3:
	cmpb	$-17,%cl
	ja	4b
	movl	%ecx,%eax
	andb	$15,%al
	addb	$2,%al
	movzbl	%al,%esi
	movq	%rsi,%rax
	subq	%rdx,%rax
	ja	4b
	shrb	$4,%cl
	addq	%r14,%rax
	cmpb	%bl,%cl
	je	1f
	testb	%cl,%cl
	je	1f
	addq	%rsi,%r12
	.p2align	4
1:
	movq	%r14,%rdx
	movb	$1,%r13b
	subq	%rax,%rdx
	je	4b
	movzbl	(%r15,%rax),%ecx
	testb	%cl,%cl
	jne	3b
	cmpq	$2,%rdx
	je	1f
	cmpq	$1,%rdx
	je	4b
	cmpq	$3,%rdx
	ja	2b
	cmpb	$0,1(%r15,%rax)
	jne	2b
	cmpb	$0,2(%r15,%rax)
	jne	2b
	jmp	4b
1:
	cmpb	$0,1(%r15,%rax)
	jne	2b
	jmp	4b
	.size	"rtp_b236e5ea_rtp_ext::form_change::row_len", .-"rtp_b236e5ea_rtp_ext::form_change::row_len"
	.cfi_endproc

	.section	".text.unlikely.rtp_wire::packet::rewriting::has_long_id","ax",@progbits
	.p2align	4
	.type	"rtp_b236e5ea_rtp_wire::packet::rewriting::has_long_id",@function
"rtp_b236e5ea_rtp_wire::packet::rewriting::has_long_id":
	.cfi_startproc
	pushq	%rax
	.cfi_def_cfa_offset 16
	movq	%rsi,%rax
	testb	%dil,%dil
	je	1f
2:
	testq	%rdx,%rdx
	je	3f
	cmpb	$0,(%rax)
	jne	4f
	cmpq	$2,%rdx
	je	5f
	cmpq	$1,%rdx
	je	3f
	cmpq	$3,%rdx
	ja	6f
	cmpb	$0,1(%rax)
	jne	6f
	cmpb	$0,2(%rax)
	jne	6f
	jmp	3f
5:
	cmpb	$0,1(%rax)
	je	3f
6:
	decq	%rdx
	incq	%rax
	movq	%rax,%rdi
	movq	%rdx,%rsi
	callq	"rtp_b236e5ea_rtp_ext::elements::skip_zeros"
	testq	%rdx,%rdx
	je	3f
4:
	cmpq	$2,%rdx
	jb	3f
	movzbl	1(%rax),%ecx
	addq	$2,%rcx
	subq	%rcx,%rdx
	jb	3f
	addq	%rax,%rcx
	cmpb	$15,(%rax)
	movq	%rcx,%rax
	jb	2b
	movb	$1,%cl
	movl	%ecx,%eax
	popq	%rcx
	.cfi_def_cfa_offset 8
	retq
1:
	.cfi_def_cfa_offset 16
	testq	%rdx,%rdx
	je	3f
	.p2align	4
1:
	movzbl	(%rax),%ecx
	testb	%cl,%cl
	jne	2f
	cmpq	$2,%rdx
	je	4f
	cmpq	$1,%rdx
	je	3f
	cmpq	$3,%rdx
	ja	5f
	cmpb	$0,1(%rax)
	jne	5f
	cmpb	$0,2(%rax)
	jne	5f
	jmp	3f
4:
	cmpb	$0,1(%rax)
	je	3f
5:
	decq	%rdx
	incq	%rax
	movq	%rax,%rdi
	movq	%rdx,%rsi
	callq	"rtp_b236e5ea_rtp_ext::elements::skip_zeros"
	testq	%rdx,%rdx
	je	3f
	movzbl	(%rax),%ecx
2:
	cmpb	$-17,%cl
	ja	3f
	andb	$15,%cl
	movzbl	%cl,%esi
	leaq	2(%rsi),%rdi
	xorl	%ecx,%ecx
	subq	%rdi,%rdx
	jb	2f
	leaq	2(%rax,%rsi),%rax
	jne	1b
2:
	movl	%ecx,%eax
	popq	%rcx
	.cfi_def_cfa_offset 8
	retq
3:
	.cfi_def_cfa_offset 16
	xorl	%ecx,%ecx
	movl	%ecx,%eax
	popq	%rcx
	.cfi_def_cfa_offset 8
	retq
	.size	"rtp_b236e5ea_rtp_wire::packet::rewriting::has_long_id", .-"rtp_b236e5ea_rtp_wire::packet::rewriting::has_long_id"
	.cfi_endproc

	.section	".text.rtp_wire::packet::resizing::move_bytes","ax",@progbits
	.p2align	4
	.type	"rtp_b236e5ea_rtp_wire::packet::resizing::move_bytes",@function
"rtp_b236e5ea_rtp_wire::packet::resizing::move_bytes":
	.cfi_startproc
	pushq	%rbx
	.cfi_def_cfa_offset 16
	.cfi_offset %rbx,-16
	movq	%rcx,%rax
	subq	%rsi,%rax
	jne	1f
2:
	popq	%rbx
	.cfi_def_cfa_offset 8
	retq
1:
	.cfi_def_cfa_offset 16
	jbe	1f
	cmpq	$8,%rax
	je	3f
	cmpq	$4,%rax
	jne	4f
	subq	%rsi,%rdx
	je	2b
	leaq	(%rdi,%rsi),%rax
	addq	%rsi,%rdi
	addq	$4,%rdi
	movq	%rax,%rsi
	popq	%rbx
	.cfi_def_cfa_offset 8
	jmp	memmove@PLT
1:
	.cfi_def_cfa_offset 16
	movq	%rsi,%r8
	subq	%rcx,%r8
	cmpq	$8,%r8
	je	1f
	cmpq	$4,%r8
	jne	5f
	subq	%rsi,%rdx
	je	2b
	leaq	(%rdi,%rsi),%rax
	addq	%rsi,%rdi
	addq	$-4,%rdi
	movq	%rax,%rsi
	popq	%rbx
	.cfi_def_cfa_offset 8
	jmp	memmove@PLT
3:
	.cfi_def_cfa_offset 16
	subq	%rsi,%rdx
	je	2b
	leaq	(%rdi,%rsi),%rax
	addq	%rsi,%rdi
	addq	$8,%rdi
	movq	%rax,%rsi
	popq	%rbx
	.cfi_def_cfa_offset 8
	jmp	memmove@PLT
1:
	.cfi_def_cfa_offset 16
	subq	%rsi,%rdx
	je	2b
	leaq	(%rdi,%rsi),%rax
	addq	%rsi,%rdi
	addq	$-8,%rdi
	movq	%rax,%rsi
	popq	%rbx
	.cfi_def_cfa_offset 8
	jmp	memmove@PLT
4:
	.cfi_def_cfa_offset 16
	movq	%rdx,%r8
	subq	%rsi,%r8
	je	2b
	cmpq	$8,%r8
	setb	%r9b
	movq	%rsi,%r10
	subq	%rcx,%r10
	cmpq	$32,%r10
	setb	%r10b
	orb	%r9b,%r10b
	je	1f
3:
	movq	%r8,%r9
	jmp	4f
5:
	subq	%rsi,%rdx
	je	2b
	leaq	(%rdi,%rsi),%r8
	leaq	(%rdi,%rcx),%r9
	cmpq	$4,%rdx
	setb	%r10b
	cmpq	$32,%rax
	setb	%al
	orb	%r10b,%al
	je	5f
	xorl	%eax,%eax
	jmp	6f
1:
	cmpq	$32,%r8
	jae	1f
	xorl	%r10d,%r10d
	jmp	7f
5:
	cmpq	$32,%rdx
	jae	5f
	xorl	%eax,%eax
	jmp	8f
1:
	movq	%r8,%r10
	andq	$-32,%r10
	leaq	(%rdx,%rdi),%r9
	addq	$-16,%r9
	movq	%r10,%r11
	.p2align	4
1:
	movups	-16(%r9),%xmm0
	movups	(%r9),%xmm1
	movups	%xmm1,(%r9,%rax)
	movups	%xmm0,-16(%r9,%rax)
	addq	$-32,%r9
	addq	$-32,%r11
	jne	1b
	cmpq	%r10,%r8
	je	2b
	testb	$24,%r8b
	je	1f
7:
	movq	%r8,%r11
	andq	$-8,%r11
	movl	%r8d,%r9d
	andl	$7,%r9d
	subq	%r10,%rdx
	addq	%rdi,%rdx
	addq	$-8,%rdx
	subq	%r11,%r10
	.p2align	4
7:
	movq	(%rdx),%rbx
	movq	%rbx,(%rdx,%rax)
	addq	$-8,%rdx
	addq	$8,%r10
	jne	7b
	cmpq	%r11,%r8
	je	2b
4:
	leaq	-1(%r9),%rax
	movq	%r9,%rdx
	andq	$3,%rdx
	je	4f
	leaq	(%rcx,%rdi),%r8
	decq	%r8
	leaq	(%rsi,%rdi),%r10
	decq	%r10
	.p2align	4
7:
	movzbl	(%r10,%r9),%r11d
	movb	%r11b,(%r8,%r9)
	decq	%r9
	decq	%rdx
	jne	7b
4:
	cmpq	$3,%rax
	jb	2b
	leaq	(%rcx,%rdi),%rax
	decq	%rax
	leaq	(%rsi,%rdi),%rcx
	decq	%rcx
	movq	%r9,%rdx
	.p2align	4
4:
	movzbl	(%rcx,%r9),%esi
	movb	%sil,(%rax,%r9)
	movzbl	-1(%rcx,%r9),%esi
	movb	%sil,-1(%rax,%r9)
	movzbl	-2(%rcx,%r9),%esi
	movb	%sil,-2(%rax,%r9)
	addq	$-4,%rdx
	movzbl	-3(%rcx,%r9),%esi
	movb	%sil,-3(%rax,%r9)
	movq	%rdx,%r9
	jne	4b
	jmp	2b
5:
	movq	%rdx,%rax
	andq	$-32,%rax
	addq	%rdi,%rcx
	addq	$16,%rcx
	addq	%rdi,%rsi
	addq	$16,%rsi
	xorl	%edi,%edi
	.p2align	4
4:
	movups	-16(%rsi,%rdi),%xmm0
	movups	(%rsi,%rdi),%xmm1
	movups	%xmm0,-16(%rcx,%rdi)
	movups	%xmm1,(%rcx,%rdi)
	addq	$32,%rdi
	cmpq	%rdi,%rax
	jne	4b
	cmpq	%rax,%rdx
	je	2b
	testb	$28,%dl
	je	6f
8:
	movq	%rax,%rcx
	movq	%rdx,%rax
	andq	$-4,%rax
	.p2align	4
4:
	movl	(%r8,%rcx),%esi
	movl	%esi,(%r9,%rcx)
	addq	$4,%rcx
	cmpq	%rcx,%rax
	jne	4b
	jmp	4f
1:
	andl	$31,%r8d
	jmp	3b
6:
	movzbl	(%r8,%rax),%ecx
	movb	%cl,(%r9,%rax)
	incq	%rax
4:
	cmpq	%rax,%rdx
	jne	6b
	jmp	2b
	.size	"rtp_b236e5ea_rtp_wire::packet::resizing::move_bytes", .-"rtp_b236e5ea_rtp_wire::packet::resizing::move_bytes"
	.cfi_endproc

	.section	".text.rtp_ext::gathering::gather_around","ax",@progbits
	.p2align	4
	.type	"rtp_b236e5ea_rtp_ext::gathering::gather_around",@function
"rtp_b236e5ea_rtp_ext::gathering::gather_around":
	.cfi_startproc
	pushq	%rbp
	.cfi_def_cfa_offset 16
	pushq	%r15
	.cfi_def_cfa_offset 24
	pushq	%r14
	.cfi_def_cfa_offset 32
	pushq	%r13
	.cfi_def_cfa_offset 40
	pushq	%r12
	.cfi_def_cfa_offset 48
	pushq	%rbx
	.cfi_def_cfa_offset 56
	pushq	%rax
	.cfi_def_cfa_offset 64
	.cfi_offset %rbx,-56
	.cfi_offset %r12,-48
	.cfi_offset %r13,-40
	.cfi_offset %r14,-32
	.cfi_offset %r15,-24
	.cfi_offset %rbp,-16
	movl	%r9d,%ebx
	movq	%r8,%r14
	movq	%rcx,%r15
	movq	%rsi,%r12
	movl	%edi,%ebp
	movl	%r9d,%ecx
	callq	"rtp_b236e5ea_rtp_ext::gathering::gather"
	movq	%rax,%r13
	addq	%r15,%r12
	subq	%r15,%r14
	movl	%ebp,%edi
	movq	%r12,%rsi
	movq	%r14,%rdx
	movl	%ebx,%ecx
	callq	"rtp_b236e5ea_rtp_ext::gathering::gather"
	movq	%rax,%rdx
	movq	%r13,%rax
	addq	$8,%rsp
	.cfi_def_cfa_offset 56
	popq	%rbx
	.cfi_def_cfa_offset 48
	popq	%r12
	.cfi_def_cfa_offset 40
	popq	%r13
	.cfi_def_cfa_offset 32
	popq	%r14
	.cfi_def_cfa_offset 24
	popq	%r15
	.cfi_def_cfa_offset 16
	popq	%rbp
	.cfi_def_cfa_offset 8
	retq
	.size	"rtp_b236e5ea_rtp_ext::gathering::gather_around", .-"rtp_b236e5ea_rtp_ext::gathering::gather_around"
	.cfi_endproc

	.section	".text.rtp_ext::gathering::gather","ax",@progbits
	.p2align	4
	.type	"rtp_b236e5ea_rtp_ext::gathering::gather",@function
"rtp_b236e5ea_rtp_ext::gathering::gather":
	.cfi_startproc
	pushq	%rbp
	.cfi_def_cfa_offset 16
	pushq	%r15
	.cfi_def_cfa_offset 24
	pushq	%r14
	.cfi_def_cfa_offset 32
	pushq	%r13
	.cfi_def_cfa_offset 40
	pushq	%r12
	.cfi_def_cfa_offset 48
	pushq	%rbx
	.cfi_def_cfa_offset 56
	pushq	%rax
	.cfi_def_cfa_offset 64
	.cfi_offset %rbx,-56
	.cfi_offset %r12,-48
	.cfi_offset %r13,-40
	.cfi_offset %r14,-32
	.cfi_offset %r15,-24
	.cfi_offset %rbp,-16
	movl	%ecx,%ebp
	movq	%rdx,%r14
	movq	%rsi,%r15
	leaq	(%rsi,%rdx),%r12
	addq	$3,%r12
	testb	%dil,%dil
	je	1f
	leaq	16(%r15),%r13
	xorl	%ebx,%ebx
	xorl	%edi,%edi
2:
	movq	%r14,%rdx
	subq	%rdi,%rdx
	je	3f
	addq	%r15,%rdi
	cmpb	$0,(%rdi)
	je	4f
	movq	%rdi,%rax
	jmp	5f
	.p2align	4
4:
	cmpq	$2,%rdx
	je	4f
	cmpq	$1,%rdx
	je	3f
	cmpq	$3,%rdx
	ja	6f
	cmpb	$0,1(%rdi)
	jne	6f
	cmpb	$0,2(%rdi)
	jne	6f
	jmp	3f
4:
	cmpb	$0,1(%rdi)
	je	3f
6:
	decq	%rdx
	incq	%rdi
	movq	%rdx,%rsi
	callq	"rtp_b236e5ea_rtp_ext::elements::skip_zeros"
	testq	%rdx,%rdx
	je	3f
5:
	cmpq	$2,%rdx
	jb	3f
	movzbl	1(%rax),%esi
	leaq	2(%rsi),%rdi
	subq	%rdx,%rdi
	ja	3f
	addq	%r14,%rdi
	cmpb	%bpl,(%rax)
	je	2b
	movq	%rdi,%rax
	subq	%rsi,%rax
	leaq	-2(%rax),%r8
	cmpq	%r8,%rbx
	jae	4f
	movq	%rdi,%rcx
	subq	%r8,%rcx
	je	4f
	addq	%r15,%r8
	leaq	(%r15,%rbx),%r9
	cmpq	$4,%rcx
	movq	%rax,(%rsp)
	jb	5f
	movq	%rbx,%r10
	subq	%r14,%r10
	addq	%rdx,%r10
	cmpq	$32,%r10
	jae	6f
5:
	xorl	%r10d,%r10d
5:
	movl	%esi,%r12d
	andl	$3,%r12d
	movq	%r10,%r11
	cmpq	$2,%r12
	je	7f
	movl	$1,%r13d
	movq	%r10,%r11
	.p2align	4
8:
	movzbl	(%r8,%r11),%eax
	movb	%al,(%r9,%r11)
	incq	%r11
	movq	%r12,%rax
	xorq	%r13,%rax
	incq	%r13
	cmpq	$2,%rax
	jne	8b
7:
	subq	%r10,%rsi
	incq	%rsi
	cmpq	$3,%rsi
	jae	7f
	leaq	(%r15,%r14),%r12
	addq	$3,%r12
	leaq	16(%r15),%r13
	jmp	8f
7:
	leaq	3(%r15),%rax
	leaq	(%rax,%rbx),%rsi
	leaq	(%r15,%r14),%r12
	addq	$3,%r12
	movq	%r12,%r8
	subq	%rdx,%r8
	leaq	16(%r15),%r13
	.p2align	4
7:
	movzbl	-3(%r8,%r11),%eax
	movb	%al,-3(%rsi,%r11)
	movzbl	-2(%r8,%r11),%eax
	movb	%al,-2(%rsi,%r11)
	movzbl	-1(%r8,%r11),%eax
	movb	%al,-1(%rsi,%r11)
	movzbl	(%r8,%r11),%eax
	movb	%al,(%rsi,%r11)
	addq	$4,%r11
	cmpq	%r11,%rcx
	jne	7b
8:
	movq	(%rsp),%rax
4:
	addq	%rdi,%rbx
	subq	%rax,%rbx
	addq	$2,%rbx
	jmp	2b
6:
	movq	%r12,%rax
	cmpq	$32,%rcx
	jae	2f
	xorl	%r10d,%r10d
	jmp	6f
2:
	movq	%rcx,%r10
	andq	$-32,%r10
	leaq	(%rbx,%r13),%r11
	leaq	(%r15,%r14),%r12
	addq	$16,%r12
	subq	%rdx,%r12
	xorl	%r13d,%r13d
2:
	movups	-16(%r12,%r13),%xmm0
	movups	(%r12,%r13),%xmm1
	movups	%xmm0,-16(%r11,%r13)
	movups	%xmm1,(%r11,%r13)
	addq	$32,%r13
	cmpq	%r13,%r10
	jne	2b
	cmpq	%r10,%rcx
	jne	2f
	movq	%rax,%r12
	leaq	16(%r15),%r13
	jmp	8b
2:
	testb	$28,%cl
	leaq	16(%r15),%r13
	je	5b
6:
	movq	%r10,%r11
	movq	%rcx,%r10
	andq	$-4,%r10
2:
	movl	(%r8,%r11),%r12d
	movl	%r12d,(%r9,%r11)
	addq	$4,%r11
	cmpq	%r11,%r10
	jne	2b
	cmpq	%r10,%rcx
	movq	%rax,%r12
	movq	(%rsp),%rax
	je	4b
	jmp	5b
1:
	leaq	(%r15,%r14),%r13
	xorl	%eax,%eax
	xorl	%ebx,%ebx
	.p2align	4
1:
	movq	%r14,%rdx
	subq	%rax,%rdx
	je	3f
	movzbl	(%r15,%rax),%edi
	leal	16(%rdi),%ecx
	cmpb	$32,%cl
	jae	2f
	testb	%dil,%dil
	je	4f
	cmpb	$-17,%dil
	jbe	5f
	jmp	3f
	.p2align	4
2:
	movzbl	%dil,%ecx
	andl	$15,%ecx
	addq	$2,%rcx
	movq	%rcx,%rsi
	subq	%rdx,%rsi
	ja	5f
	jmp	2f
4:
	cmpq	$2,%rdx
	je	4f
	cmpq	$1,%rdx
	je	3f
	cmpq	$3,%rdx
	ja	6f
	cmpb	$0,1(%r15,%rax)
	jne	6f
	cmpb	$0,2(%r15,%rax)
	jne	6f
	jmp	3f
4:
	cmpb	$0,1(%r15,%rax)
	je	3f
6:
	decq	%rdx
	leaq	(%r15,%rax),%rdi
	incq	%rdi
	movq	%rdx,%rsi
	callq	"rtp_b236e5ea_rtp_ext::elements::skip_zeros"
	testq	%rdx,%rdx
	je	3f
	movzbl	(%rax),%edi
	cmpb	$-17,%dil
	ja	3f
	.p2align	4
5:
	movl	%edi,%eax
	andb	$15,%al
	addb	$2,%al
	movzbl	%al,%ecx
	movq	%rcx,%rsi
	subq	%rdx,%rsi
	ja	3f
2:
	shrb	$4,%dil
	leaq	(%rsi,%r14),%rax
	cmpb	%bpl,%dil
	je	1b
	testb	%dil,%dil
	je	1b
	movq	%rax,%r8
	subq	%rcx,%r8
	cmpq	%r8,%rbx
	jae	2f
	leaq	(%r15,%rbx),%rdx
	cmpl	$4,%ecx
	jb	4f
	leaq	(%rbx,%rcx),%rdi
	subq	%rax,%rdi
	cmpq	$16,%rdi
	jae	5f
4:
	xorl	%edi,%edi
4:
	movq	%rcx,%r9
	movq	%rdi,%r8
	andq	$3,%r9
	je	6f
	movq	%rsi,%r10
	subq	%rcx,%r10
	addq	%r13,%r10
	addq	%rdi,%r10
	xorl	%r11d,%r11d
	movq	%rdi,%r8
	.p2align	4
7:
	movzbl	(%r10,%r11),%r12d
	movb	%r12b,(%rdx,%r8)
	incq	%r8
	incq	%r11
	cmpq	%r11,%r9
	jne	7b
6:
	subl	%ecx,%edi
	cmpl	$-4,%edi
	leaq	3(%r15,%r14),%r9
	leaq	3(%r15),%r10
	ja	2f
	movq	%rcx,%rdx
	subq	%r8,%rdx
	leaq	(%r8,%rbx),%rdi
	addq	%r10,%rdi
	addq	%r9,%r8
	subq	%rcx,%rsi
	addq	%r8,%rsi
	xorl	%r8d,%r8d
	.p2align	4
6:
	movzbl	-3(%rsi,%r8),%r9d
	movb	%r9b,-3(%rdi,%r8)
	movzbl	-2(%rsi,%r8),%r9d
	movb	%r9b,-2(%rdi,%r8)
	movzbl	-1(%rsi,%r8),%r9d
	movb	%r9b,-1(%rdi,%r8)
	movzbl	(%rsi,%r8),%r9d
	movb	%r9b,(%rdi,%r8)
	addq	$4,%r8
	cmpq	%r8,%rdx
	jne	6b
2:
	addq	%rcx,%rbx
	jmp	1b
5:
	cmpl	$16,%ecx
	jae	1f
	xorl	%edi,%edi
	jmp	5f
1:
	movl	%ecx,%edi
	andl	$-16,%edi
	movups	(%r15,%r8),%xmm0
	movups	%xmm0,(%rdx)
	cmpq	%rdi,%rcx
	je	2b
	testb	$12,%cl
	je	4b
5:
	movq	%rdi,%r11
	movl	%ecx,%edi
	andl	$-4,%edi
	movq	%rdi,%r8
	subq	%r11,%r8
	leaq	(%rdx,%r11),%r9
	addq	%r13,%r11
	movq	%rsi,%r10
	subq	%rcx,%r10
	addq	%r11,%r10
	xorl	%r11d,%r11d
	.p2align	4
1:
	movl	(%r10,%r11),%r12d
	movl	%r12d,(%r9,%r11)
	addq	$4,%r11
	cmpq	%r11,%r8
	jne	1b
	cmpl	%edi,%ecx
	je	2b
	jmp	4b
3:
	movq	%rbx,%rax
	addq	$8,%rsp
	.cfi_def_cfa_offset 56
	popq	%rbx
	.cfi_def_cfa_offset 48
	popq	%r12
	.cfi_def_cfa_offset 40
	popq	%r13
	.cfi_def_cfa_offset 32
	popq	%r14
	.cfi_def_cfa_offset 24
	popq	%r15
	.cfi_def_cfa_offset 16
	popq	%rbp
	.cfi_def_cfa_offset 8
	retq
	.size	"rtp_b236e5ea_rtp_ext::gathering::gather", .-"rtp_b236e5ea_rtp_ext::gathering::gather"
	.cfi_endproc

	.section	".text.rtp_ext::form_change::change_rows","ax",@progbits
	.p2align	4
	.type	"rtp_b236e5ea_rtp_ext::form_change::change_rows",@function
"rtp_b236e5ea_rtp_ext::form_change::change_rows":
	.cfi_startproc
	pushq	%rbp
	.cfi_def_cfa_offset 16
	pushq	%r15
	.cfi_def_cfa_offset 24
	pushq	%r14
	.cfi_def_cfa_offset 32
	pushq	%r13
	.cfi_def_cfa_offset 40
	pushq	%r12
	.cfi_def_cfa_offset 48
	pushq	%rbx
	.cfi_def_cfa_offset 56
	pushq	%rax
	.cfi_def_cfa_offset 64
	.cfi_offset %rbx,-56
	.cfi_offset %r12,-48
	.cfi_offset %r13,-40
	.cfi_offset %r14,-32
	.cfi_offset %r15,-24
	.cfi_offset %rbp,-16
	movq	%r9,%rbx
	movq	%rdx,%r14
	subq	%r9,%rdx
	cmpq	%r8,%rdx
	jbe	1f
	testq	%rbx,%rbx
	je	2f
	movq	%rbx,%rax
	cmpq	$8,%rbx
	jb	3f
	leaq	(%rbx,%r8),%r10
	movq	%r10,%r9
	subq	%r14,%r9
	movq	%rbx,%rax
	cmpq	$32,%r9
	jb	3f
	cmpq	$32,%rbx
	jae	4f
	xorl	%r9d,%r9d
	jmp	5f
1:
	testq	%rbx,%rbx
	je	2f
	leaq	(%rsi,%r8),%rax
	leaq	(%rsi,%rdx),%r9
	cmpq	$4,%rbx
	jb	1f
	movq	%r14,%r11
	subq	%rbx,%r11
	subq	%r8,%r11
	cmpq	$32,%r11
	jae	6f
1:
	xorl	%r10d,%r10d
1:
	movq	%rbx,%r15
	movq	%r10,%r11
	andq	$3,%r15
	je	7f
	movq	%r10,%r11
	.p2align	4
8:
	movzbl	(%rax,%r11),%ebp
	movb	%bpl,(%r9,%r11)
	incq	%r11
	decq	%r15
	jne	8b
7:
	subq	%rbx,%r10
	cmpq	$-4,%r10
	ja	2f
	leaq	(%rdx,%rsi),%rax
	addq	$3,%rax
	addq	%rsi,%r8
	addq	$3,%r8
	.p2align	4
7:
	movzbl	-3(%r8,%r11),%r9d
	movb	%r9b,-3(%rax,%r11)
	movzbl	-2(%r8,%r11),%r9d
	movb	%r9b,-2(%rax,%r11)
	movzbl	-1(%r8,%r11),%r9d
	movb	%r9b,-1(%rax,%r11)
	movzbl	(%r8,%r11),%r9d
	movb	%r9b,(%rax,%r11)
	addq	$4,%r11
	cmpq	%r11,%rbx
	jne	7b
	jmp	2f
6:
	cmpq	$32,%rbx
	jae	6f
	xorl	%r10d,%r10d
	jmp	7f
4:
	movq	%rbx,%r9
	andq	$-32,%r9
	leaq	(%rsi,%r10),%rax
	addq	$-16,%rax
	leaq	(%r14,%rsi),%r11
	addq	$-16,%r11
	movq	%r9,%r15
	negq	%r15
	xorl	%r12d,%r12d
	.p2align	4
4:
	movups	-16(%rax,%r12),%xmm0
	movups	(%rax,%r12),%xmm1
	movups	%xmm1,(%r11,%r12)
	movups	%xmm0,-16(%r11,%r12)
	addq	$-32,%r12
	cmpq	%r12,%r15
	jne	4b
	cmpq	%r9,%rbx
	je	2f
	testb	$24,%bl
	je	4f
5:
	movq	%rbx,%r11
	andq	$-8,%r11
	movl	%ebx,%eax
	andl	$7,%eax
	addq	%rsi,%r10
	addq	$-8,%r10
	negq	%r9
	leaq	(%r14,%rsi),%r15
	addq	$-8,%r15
	movq	%r11,%r12
	negq	%r12
	.p2align	4
5:
	movq	(%r10,%r9),%r13
	movq	%r13,(%r15,%r9)
	addq	$-8,%r9
	cmpq	%r9,%r12
	jne	5b
	cmpq	%r11,%rbx
	je	2f
3:
	leaq	-1(%rax),%r9
	movq	%rax,%r10
	andq	$3,%r10
	je	3f
5:
	movq	%rbx,%r11
	notq	%r11
	addq	%rsi,%r11
	addq	%r14,%r11
	leaq	(%r8,%rsi),%r15
	decq	%r15
	.p2align	4
8:
	movzbl	(%r15,%rax),%ebp
	movb	%bpl,(%r11,%rax)
	decq	%rax
	decq	%r10
	jne	8b
3:
	cmpq	$3,%r9
	jb	2f
	movq	%rbx,%r9
	notq	%r9
	addq	%rsi,%r9
	addq	%r14,%r9
	addq	%rsi,%r8
	decq	%r8
	movq	%rax,%r10
	.p2align	4
8:
	movzbl	(%r8,%rax),%r11d
	movb	%r11b,(%r9,%rax)
	movzbl	-1(%r8,%rax),%r11d
	movb	%r11b,-1(%r9,%rax)
	movzbl	-2(%r8,%rax),%r11d
	movb	%r11b,-2(%r9,%rax)
	addq	$-4,%r10
	movzbl	-3(%r8,%rax),%r11d
	movb	%r11b,-3(%r9,%rax)
	movq	%r10,%rax
	jne	8b
2:
	cmpq	%rcx,%rdx
	je	8f
	testq	%rcx,%rcx
	je	8f
	movq	%rcx,%rax
	cmpq	$8,%rcx
	jb	9f
	leaq	(%rbx,%rcx),%r8
	subq	%r14,%r8
	movq	%rcx,%rax
	cmpq	$32,%r8
	jb	9f
	cmpq	$32,%rcx
	jae	10f
	xorl	%r8d,%r8d
	jmp	11f
10:
	movq	%rcx,%r8
	andq	$-32,%r8
	leaq	(%rcx,%rsi),%rax
	addq	$-16,%rax
	leaq	(%rdx,%rsi),%r9
	addq	$-16,%r9
	movq	%r8,%r10
	negq	%r10
	xorl	%r11d,%r11d
	.p2align	4
10:
	movups	-16(%rax,%r11),%xmm0
	movups	(%rax,%r11),%xmm1
	movups	%xmm1,(%r9,%r11)
	movups	%xmm0,-16(%r9,%r11)
	addq	$-32,%r11
	cmpq	%r11,%r10
	jne	10b
	cmpq	%r8,%rcx
	je	8f
	testb	$24,%cl
	je	10f
11:
	movq	%rcx,%r9
	andq	$-8,%r9
	movl	%ecx,%eax
	andl	$7,%eax
	leaq	(%rcx,%rsi),%r10
	addq	$-8,%r10
	negq	%r8
	leaq	(%rdx,%rsi),%r11
	addq	$-8,%r11
	movq	%r9,%r15
	negq	%r15
	.p2align	4
11:
	movq	(%r10,%r8),%r12
	movq	%r12,(%r11,%r8)
	addq	$-8,%r8
	cmpq	%r8,%r15
	jne	11b
	cmpq	%r9,%rcx
	je	8f
9:
	leaq	-1(%rax),%r9
	movq	%rax,%r10
	movq	%rbx,%r8
	notq	%r8
	andq	$3,%r10
	je	11f
	movq	%rax,%r11
	negq	%r11
	addq	%r14,%rax
	addq	%r8,%rax
	subq	%rcx,%rax
	addq	%rsi,%rax
	leaq	(%rsi,%r9),%r15
	negq	%r10
	xorl	%r12d,%r12d
	.p2align	4
12:
	movzbl	(%r15,%r12),%ebp
	movb	%bpl,(%rax,%r12)
	incq	%r11
	decq	%r12
	cmpq	%r12,%r10
	jne	12b
	negq	%r11
	movq	%r11,%rax
11:
	cmpq	$3,%r9
	jb	8f
	movq	%rax,%r9
	negq	%r9
	addq	%rax,%r8
	addq	%r14,%r8
	subq	%rcx,%r8
	addq	%rsi,%r8
	addq	%rsi,%rax
	decq	%rax
	xorl	%r10d,%r10d
	.p2align	4
11:
	movzbl	(%rax,%r10),%r11d
	movb	%r11b,(%r8,%r10)
	movzbl	-1(%rax,%r10),%r11d
	movb	%r11b,-1(%r8,%r10)
	movzbl	-2(%rax,%r10),%r11d
	movb	%r11b,-2(%r8,%r10)
	movzbl	-3(%rax,%r10),%r11d
	movb	%r11b,-3(%r8,%r10)
	addq	$-4,%r10
	cmpq	%r10,%r9
	jne	11b
8:
	movzbl	%dil,%ebp
	movl	%ebp,%edi
	movq	%rsi,%r15
	callq	"rtp_b236e5ea_rtp_ext::form_change::change_row"
	movq	%rax,%r12
	addq	%rax,%r15
	subq	%rax,%r14
	movl	%ebp,%edi
	movq	%r15,%rsi
	movq	%r14,%rdx
	movq	%rbx,%rcx
	callq	"rtp_b236e5ea_rtp_ext::form_change::change_row"
	movq	%rax,%rdx
	movq	%r12,%rax
	addq	$8,%rsp
	.cfi_def_cfa_offset 56
	popq	%rbx
	.cfi_def_cfa_offset 48
	popq	%r12
	.cfi_def_cfa_offset 40
	popq	%r13
	.cfi_def_cfa_offset 32
	popq	%r14
	.cfi_def_cfa_offset 24
	popq	%r15
	.cfi_def_cfa_offset 16
	popq	%rbp
	.cfi_def_cfa_offset 8
	retq
6:
	.cfi_def_cfa_offset 64
	movq	%rbx,%r10
	andq	$-32,%r10
	leaq	(%rdx,%rsi),%r11
	addq	$16,%r11
	leaq	(%r8,%rsi),%r15
	addq	$16,%r15
	xorl	%r12d,%r12d
	.p2align	4
6:
	movups	-16(%r15,%r12),%xmm0
	movups	(%r15,%r12),%xmm1
	movups	%xmm0,-16(%r11,%r12)
	movups	%xmm1,(%r11,%r12)
	addq	$32,%r12
	cmpq	%r12,%r10
	jne	6b
	cmpq	%r10,%rbx
	je	2b
	testb	$28,%bl
	je	1b
7:
	movq	%r10,%r11
	movq	%rbx,%r10
	andq	$-4,%r10
	.p2align	4
6:
	movl	(%rax,%r11),%ebp
	movl	%ebp,(%r9,%r11)
	addq	$4,%r11
	cmpq	%r11,%r10
	jne	6b
	cmpq	%r10,%rbx
	je	2b
	jmp	1b
10:
	movl	%ecx,%eax
	andl	$31,%eax
	jmp	9b
4:
	movl	%ebx,%eax
	andl	$31,%eax
	leaq	-1(%rax),%r9
	movq	%rax,%r10
	andq	$3,%r10
	jne	5b
	jmp	3b
	.size	"rtp_b236e5ea_rtp_ext::form_change::change_rows", .-"rtp_b236e5ea_rtp_ext::form_change::change_rows"
	.cfi_endproc

	.section	".text.rtp_ext::form_change::change_row","ax",@progbits
	.p2align	4
	.type	"rtp_b236e5ea_rtp_ext::form_change::change_row",@function
"rtp_b236e5ea_rtp_ext::form_change::change_row":
	.cfi_startproc
	pushq	%rbp
	.cfi_def_cfa_offset 16
	pushq	%r15
	.cfi_def_cfa_offset 24
	pushq	%r14
	.cfi_def_cfa_offset 32
	pushq	%r13
	.cfi_def_cfa_offset 40
	pushq	%r12
	.cfi_def_cfa_offset 48
	pushq	%rbx
	.cfi_def_cfa_offset 56
	subq	$56,%rsp
	.cfi_def_cfa_offset 112
	.cfi_offset %rbx,-56
	.cfi_offset %r12,-48
	.cfi_offset %r13,-40
	.cfi_offset %r14,-32
	.cfi_offset %r15,-24
	.cfi_offset %rbp,-16
	movq	%rdx,(%rsp)
	movq	%rsi,%r14
	testb	%dil,%dil
	je	1f
	testq	%rcx,%rcx
	je	2f
	movq	(%rsp),%rax
	movq	%rax,%rdx
	subq	%rcx,%rdx
	leaq	1(%rax),%rsi
	movq	%rsi,48(%rsp)
	leaq	(%r14,%rax),%rsi
	addq	$5,%rsi
	movq	%rsi,32(%rsp)
	leaq	-6(%r14,%rax),%rsi
	movq	%rsi,24(%rsp)
	leaq	1(%r14,%rax),%rsi
	movq	%rsi,8(%rsp)
	addq	%r14,%rax
	movq	%rax,40(%rsp)
	xorl	%r13d,%r13d
	jmp	3f
	.p2align	4
4:
	rolb	$4,%r9b
	addb	%bpl,%r9b
	decb	%r9b
	movb	%r9b,(%r14,%r13)
	addq	%rbp,%rax
	negq	%rdi
	movq	%rax,%r13
	cmpq	%rcx,%rsi
	movq	%rdi,%rcx
	je	5f
3:
	leaq	(%r14,%rdx),%rax
	cmpb	$0,(%r14,%rdx)
	je	3f
	cmpq	$2,%rcx
	jae	6f
	jmp	7f
	.p2align	4
3:
	cmpq	$2,%rcx
	je	3f
	cmpq	$1,%rcx
	je	7f
	cmpq	$3,%rcx
	ja	8f
	cmpb	$0,1(%rax)
	jne	8f
	cmpb	$0,2(%rax)
	jne	8f
	jmp	7f
3:
	cmpb	$0,1(%rax)
	je	7f
8:
	decq	%rcx
	incq	%rax
	movq	%rax,%rdi
	movq	%rcx,%rsi
	callq	"rtp_b236e5ea_rtp_ext::elements::skip_zeros"
	testq	%rdx,%rdx
	je	7f
	movq	%rdx,%rcx
	cmpq	$2,%rcx
	jb	7f
6:
	movzbl	1(%rax),%ebp
	leaq	2(%rbp),%rsi
	movq	%rsi,%rdi
	subq	%rcx,%rdi
	ja	7f
	movzbl	(%rax),%r9d
	movq	(%rsp),%rax
	leaq	(%rdi,%rax),%rdx
	movq	%rdx,%r10
	subq	%rbp,%r10
	leaq	1(%r13),%rax
	cmpq	%r10,%rax
	jbe	3f
	testq	%rbp,%rbp
	je	4b
	movq	%rbp,%r12
	cmpb	$8,%bpl
	jb	6f
	movq	48(%rsp),%r11
	subq	%rcx,%r11
	subq	%r13,%r11
	movq	%rbp,%r12
	cmpq	$32,%r11
	jb	6f
	cmpb	$32,%bpl
	jae	8f
	xorl	%r11d,%r11d
	jmp	9f
	.p2align	4
3:
	testq	%rbp,%rbp
	je	4b
	addq	%r14,%r10
	leaq	(%r14,%rax),%r11
	cmpb	$4,%bpl
	jb	3f
	movq	(%rsp),%rbx
	subq	%rcx,%rbx
	subq	%r13,%rbx
	cmpq	$-33,%rbx
	jbe	10f
3:
	xorl	%r15d,%r15d
3:
	movq	%rbp,%r8
	movq	%r15,%r12
	andq	$3,%r8
	je	11f
	movq	%r15,%r12
	.p2align	4
12:
	movzbl	(%r10,%r12),%ebx
	movb	%bl,(%r11,%r12)
	incq	%r12
	decq	%r8
	jne	12b
11:
	subl	%ebp,%r15d
	cmpl	$-4,%r15d
	ja	4b
	leaq	4(%r14),%r8
	addq	%r13,%r8
	movq	32(%rsp),%r10
	subq	%rcx,%r10
	.p2align	4
11:
	movzbl	-3(%r10,%r12),%r11d
	movb	%r11b,-3(%r8,%r12)
	movzbl	-2(%r10,%r12),%r11d
	movb	%r11b,-2(%r8,%r12)
	movzbl	-1(%r10,%r12),%r11d
	movb	%r11b,-1(%r8,%r12)
	movzbl	(%r10,%r12),%r11d
	movb	%r11b,(%r8,%r12)
	addq	$4,%r12
	cmpq	%r12,%rbp
	jne	11b
	jmp	4b
10:
	cmpb	$32,%bpl
	jae	10f
	xorl	%r15d,%r15d
	jmp	11f
8:
	addq	%r14,%r10
	leaq	(%r14,%rax),%r12
	movl	%ebp,%r11d
	andl	$-32,%r11d
	movups	-32(%r10,%rbp),%xmm0
	movups	-16(%r10,%rbp),%xmm1
	movups	%xmm1,-16(%r12,%rbp)
	movups	%xmm0,-32(%r12,%rbp)
	cmpq	$32,%r11
	je	8f
	movups	-64(%r10,%rbp),%xmm0
	movups	-48(%r10,%rbp),%xmm1
	movups	%xmm1,-48(%r12,%rbp)
	movups	%xmm0,-64(%r12,%rbp)
	cmpl	$64,%r11d
	je	8f
	movups	-96(%r10,%rbp),%xmm0
	movups	-80(%r10,%rbp),%xmm1
	movups	%xmm1,-80(%r12,%rbp)
	movups	%xmm0,-96(%r12,%rbp)
	cmpl	$96,%r11d
	je	8f
	movups	-128(%r10,%rbp),%xmm0
	movups	-112(%r10,%rbp),%xmm1
	movups	%xmm1,-112(%r12,%rbp)
	movups	%xmm0,-128(%r12,%rbp)
	cmpl	$128,%r11d
	je	8f
	movups	-160(%r10,%rbp),%xmm0
	movups	-144(%r10,%rbp),%xmm1
	movups	%xmm1,-144(%r12,%rbp)
	movups	%xmm0,-160(%r12,%rbp)
	cmpl	$160,%r11d
	je	8f
	movups	-192(%r10,%rbp),%xmm0
	movups	-176(%r10,%rbp),%xmm1
	movups	%xmm1,-176(%r12,%rbp)
	movups	%xmm0,-192(%r12,%rbp)
	cmpl	$192,%r11d
	je	8f
	movups	-224(%r10,%rbp),%xmm0
	movups	-208(%r10,%rbp),%xmm1
	movups	%xmm1,-208(%r12,%rbp)
	movups	%xmm0,-224(%r12,%rbp)
8:
	cmpl	%ebp,%r11d
	je	4b
	testb	$24,%bpl
	je	8f
9:
	movl	%ebp,%ebx
	andl	$-8,%ebx
	movl	%ebp,%r12d
	andl	$7,%r12d
	movq	%rbp,%r15
	subq	%r11,%r15
	subq	%rcx,%r15
	addq	24(%rsp),%r15
	movq	%r13,%r8
	addq	%rbp,%r8
	subq	%r11,%r8
	leaq	-7(%r14),%r10
	addq	%r10,%r8
	movq	%rbx,16(%rsp)
	subq	%rbx,%r11
	xorl	%r10d,%r10d
	.p2align	4
9:
	movq	(%r15,%r10),%rbx
	movq	%rbx,(%r8,%r10)
	addq	$-8,%r10
	cmpq	%r10,%r11
	jne	9b
	cmpl	%ebp,16(%rsp)
	je	4b
	.p2align	4
6:
	movq	%r12,%r11
	movq	%r12,%r10
	andq	$3,%r11
	je	6f
9:
	leaq	(%r14,%r13),%r8
	movq	8(%rsp),%r15
	subq	%rcx,%r15
	movq	%r12,%r10
	.p2align	4
12:
	movzbl	(%r15,%r10),%ebx
	movb	%bl,(%r8,%r10)
	decq	%r10
	decq	%r11
	jne	12b
6:
	decq	%r12
	cmpl	$3,%r12d
	jb	4b
	leaq	(%r14,%r13),%r8
	movq	40(%rsp),%r11
	subq	%rcx,%r11
	movq	%r10,%r15
	.p2align	4
12:
	movzbl	1(%r11,%r10),%ebx
	movb	%bl,(%r8,%r10)
	movzbl	(%r11,%r10),%ebx
	movb	%bl,-1(%r8,%r10)
	movzbl	-1(%r11,%r10),%ebx
	movb	%bl,-2(%r8,%r10)
	addq	$-4,%r15
	movzbl	-2(%r11,%r10),%ebx
	movb	%bl,-3(%r8,%r10)
	movq	%r15,%r10
	jne	12b
	jmp	4b
10:
	movl	%ebp,%r15d
	andl	$-32,%r15d
	movups	(%r10),%xmm0
	movups	16(%r10),%xmm1
	movups	%xmm0,(%r11)
	movups	%xmm1,16(%r11)
	cmpq	$32,%r15
	je	10f
	movups	32(%r10),%xmm0
	movups	48(%r10),%xmm1
	movups	%xmm0,32(%r11)
	movups	%xmm1,48(%r11)
	cmpl	$64,%r15d
	je	10f
	movups	64(%r10),%xmm0
	movups	80(%r10),%xmm1
	movups	%xmm0,64(%r11)
	movups	%xmm1,80(%r11)
	cmpl	$96,%r15d
	je	10f
	movups	96(%r10),%xmm0
	movups	112(%r10),%xmm1
	movups	%xmm0,96(%r11)
	movups	%xmm1,112(%r11)
	cmpl	$128,%r15d
	je	10f
	movups	128(%r10),%xmm0
	movups	144(%r10),%xmm1
	movups	%xmm0,128(%r11)
	movups	%xmm1,144(%r11)
	cmpl	$160,%r15d
	je	10f
	movups	160(%r10),%xmm0
	movups	176(%r10),%xmm1
	movups	%xmm0,160(%r11)
	movups	%xmm1,176(%r11)
	cmpl	$192,%r15d
	je	10f
	movups	192(%r10),%xmm0
	movups	208(%r10),%xmm1
	movups	%xmm0,192(%r11)
	movups	%xmm1,208(%r11)
10:
	cmpl	%ebp,%r15d
	je	4b
	testb	$28,%bpl
	je	3b
11:
	movq	%r15,%r8
	movl	%ebp,%r15d
	andl	$-4,%r15d
	.p2align	4
10:
	movl	(%r10,%r8),%ebx
	movl	%ebx,(%r11,%r8)
	addq	$4,%r8
	cmpq	%r8,%r15
	jne	10b
	cmpl	%ebp,%r15d
	je	4b
	jmp	3b
8:
	movl	%ebp,%r12d
	andl	$31,%r12d
	movq	%r12,%r11
	movq	%r12,%r10
	andq	$3,%r11
	jne	9b
	jmp	6b
1:
	testq	%rcx,%rcx
	je	2f
	movq	(%rsp),%rax
	movq	%rax,%rdx
	subq	%rcx,%rdx
	addq	%r14,%rax
	movq	%rax,8(%rsp)
	xorl	%r13d,%r13d
	jmp	1f
2:
	xorl	%eax,%eax
	jmp	5f
2:
	movups	(%r11),%xmm0
	movups	%xmm0,(%r10)
	.p2align	4
3:
	shrb	$4,%sil
	movb	%sil,(%r14,%r13)
	movb	%r15b,1(%r14,%r13)
	addq	%r15,%rax
	negq	%r8
	movq	%rax,%r13
	cmpq	%rcx,%rdi
	movq	%r8,%rcx
	je	5f
1:
	movzbl	(%r14,%rdx),%esi
	testb	%sil,%sil
	jne	1f
	cmpq	$2,%rcx
	je	4f
	cmpq	$1,%rcx
	je	7f
	cmpq	$3,%rcx
	ja	6f
	cmpb	$0,1(%r14,%rdx)
	jne	6f
	cmpb	$0,2(%r14,%rdx)
	jne	6f
	jmp	7f
4:
	cmpb	$0,1(%r14,%rdx)
	je	7f
6:
	decq	%rcx
	leaq	(%r14,%rdx),%rdi
	incq	%rdi
	movq	%rcx,%rsi
	callq	"rtp_b236e5ea_rtp_ext::elements::skip_zeros"
	testq	%rdx,%rdx
	je	7f
	movq	%rdx,%rcx
	movzbl	(%rax),%esi
1:
	cmpb	$-17,%sil
	ja	7f
	movzbl	%sil,%ebp
	andl	$15,%ebp
	leaq	2(%rbp),%rdi
	movq	%rdi,%r8
	subq	%rcx,%r8
	ja	7f
	leaq	-1(%rdi),%r15
	movq	(%rsp),%rax
	leaq	(%r8,%rax),%rdx
	movq	%rdx,%r9
	subq	%r15,%r9
	leaq	2(%r13),%rax
	leaq	(%r14,%r9),%r11
	leaq	(%r14,%r13),%r10
	addq	$2,%r10
	cmpq	%r9,%rax
	jbe	1f
	movq	%r15,%r9
	cmpb	$3,%bpl
	jb	4f
	leaq	(%rcx,%r13),%r12
	subq	(%rsp),%r12
	movq	%r15,%r9
	cmpq	$-17,%r12
	jbe	6f
4:
	movq	%r9,%r11
	movq	%r9,%r10
	andq	$3,%r11
	je	4f
8:
	leaq	1(%r14),%r10
	leaq	(%r10,%r13),%rbp
	movq	8(%rsp),%r12
	subq	%rcx,%r12
	movq	%r9,%r10
	.p2align	4
9:
	movzbl	(%r12,%r10),%ebx
	movb	%bl,(%rbp,%r10)
	decq	%r10
	decq	%r11
	jne	9b
4:
	decq	%r9
	cmpl	$3,%r9d
	jb	3b
	leaq	(%r14,%r13),%r9
	movq	8(%rsp),%r11
	subq	%rcx,%r11
	movq	%r10,%r12
	.p2align	4
9:
	movzbl	(%r11,%r10),%ebx
	movb	%bl,1(%r9,%r10)
	movzbl	-1(%r11,%r10),%ebx
	movb	%bl,(%r9,%r10)
	movzbl	-2(%r11,%r10),%ebx
	movb	%bl,-1(%r9,%r10)
	addq	$-4,%r12
	movzbl	-3(%r11,%r10),%ebx
	movb	%bl,-2(%r9,%r10)
	movq	%r12,%r10
	jne	9b
	jmp	3b
	.p2align	4
1:
	cmpb	$3,%bpl
	jae	1f
	xorl	%ebp,%ebp
	jmp	9f
	.p2align	4
1:
	movq	%rcx,%r9
	subq	(%rsp),%r9
	addq	%r13,%r9
	incq	%r9
	cmpq	$16,%r9
	jae	1f
	xorl	%ebp,%ebp
	.p2align	4
9:
	movzbl	(%r11,%rbp),%r9d
	movb	%r9b,(%r10,%rbp)
	incq	%rbp
	cmpq	%rbp,%r15
	jne	9b
	jmp	3b
6:
	cmpb	$15,%bpl
	jne	6f
	movups	-15(%r11,%rbp),%xmm0
	movups	%xmm0,-15(%r10,%rbp)
	jmp	3b
1:
	cmpb	$15,%bpl
	je	2b
	movq	%r15,%rbp
	andq	$-4,%rbp
	movl	(%r11),%r9d
	movl	%r9d,(%r10)
	cmpq	$4,%rbp
	je	1f
	movl	4(%r11),%r9d
	movl	%r9d,4(%r10)
	cmpl	$8,%ebp
	je	1f
	movl	8(%r11),%r9d
	movl	%r9d,8(%r10)
	cmpl	$12,%ebp
	je	1f
	movl	12(%r11),%r9d
	movl	%r9d,12(%r10)
1:
	cmpl	%ebp,%r15d
	jne	9b
	jmp	3b
6:
	movq	%r15,%r9
	andq	$-4,%r9
	movl	-3(%r11,%rbp),%r12d
	movl	%r12d,-3(%r10,%rbp)
	cmpq	$4,%r9
	je	1f
	movl	-9(%r11,%rdi),%ebp
	movl	%ebp,-9(%r10,%rdi)
	cmpl	$8,%r9d
	je	1f
	movl	-13(%r11,%rdi),%ebp
	movl	%ebp,-13(%r10,%rdi)
	cmpl	$12,%r9d
	je	1f
	movl	-17(%r11,%rdi),%r11d
	movl	%r11d,-17(%r10,%rdi)
1:
	cmpl	%r9d,%r15d
	je	3b
	movl	%r15d,%r9d
	andl	$3,%r9d
	movq	%r9,%r11
	movq	%r9,%r10
	andq	$3,%r11
	jne	8b
	jmp	4b
7:
	movq	%r13,%rax
5:
	addq	$56,%rsp
	.cfi_def_cfa_offset 56
	popq	%rbx
	.cfi_def_cfa_offset 48
	popq	%r12
	.cfi_def_cfa_offset 40
	popq	%r13
	.cfi_def_cfa_offset 32
	popq	%r14
	.cfi_def_cfa_offset 24
	popq	%r15
	.cfi_def_cfa_offset 16
	popq	%rbp
	.cfi_def_cfa_offset 8
	retq
	.size	"rtp_b236e5ea_rtp_ext::form_change::change_row", .-"rtp_b236e5ea_rtp_ext::form_change::change_row"
	.cfi_endproc

	.section	".text.rtp_ext::rewriting::put_between","ax",@progbits
	.p2align	4
	.type	"rtp_b236e5ea_rtp_ext::rewriting::put_between",@function
"rtp_b236e5ea_rtp_ext::rewriting::put_between":
	.cfi_startproc
	pushq	%rbp
	.cfi_def_cfa_offset 16
	pushq	%r15
	.cfi_def_cfa_offset 24
	pushq	%r14
	.cfi_def_cfa_offset 32
	pushq	%r13
	.cfi_def_cfa_offset 40
	pushq	%r12
	.cfi_def_cfa_offset 48
	pushq	%rbx
	.cfi_def_cfa_offset 56
	pushq	%rax
	.cfi_def_cfa_offset 64
	.cfi_offset %rbx,-56
	.cfi_offset %r12,-48
	.cfi_offset %r13,-40
	.cfi_offset %r14,-32
	.cfi_offset %r15,-24
	.cfi_offset %rbp,-16
	movq	%rdx,%r11
	movq	%rsi,%r10
	movzbl	(%r9),%ebp
	movzbl	8(%r9),%r13d
	movq	24(%r9),%rdx
	movl	%edi,4(%rsp)
	cmpb	$1,%dil
	movq	%rdx,%rax
	sbbq	$0,%rax
	addq	$2,%rax
	xorl	%r14d,%r14d
	cmpb	$1,%bpl
	cmoveq	%rax,%r14
	movq	16(%r9),%rsi
	leaq	(%r14,%r11),%rax
	movq	%rcx,%r15
	subq	%rax,%r15
	jae	1f
	testq	%r8,%r8
	je	2f
	movq	%r8,%r9
	cmpq	$8,%r8
	jb	3f
	movq	%r8,%r9
	cmpq	$32,%r15
	jb	3f
	cmpq	$32,%r8
	jae	4f
	xorl	%r15d,%r15d
	jmp	5f
1:
	testq	%r8,%r8
	je	2f
	leaq	(%r10,%rcx),%r9
	leaq	(%r10,%rax),%r14
	cmpq	$4,%r8
	jb	1f
	movq	%rax,%rbx
	subq	%rcx,%rbx
	cmpq	$32,%rbx
	jae	6f
1:
	xorl	%r15d,%r15d
1:
	movl	%r13d,%edi
	movq	%r8,%r13
	movq	%r15,%r12
	andq	$3,%r13
	je	7f
	movq	%r15,%r12
	.p2align	4
8:
	movzbl	(%r9,%r12),%ebx
	movb	%bl,(%r14,%r12)
	incq	%r12
	decq	%r13
	jne	8b
7:
	subq	%r8,%r15
	cmpq	$-4,%r15
	movl	%edi,%r13d
	ja	2f
	leaq	(%r10,%rax),%r9
	addq	$3,%r9
	addq	%r10,%rcx
	addq	$3,%rcx
	.p2align	4
7:
	movzbl	-3(%rcx,%r12),%ebx
	movb	%bl,-3(%r9,%r12)
	movzbl	-2(%rcx,%r12),%ebx
	movb	%bl,-2(%r9,%r12)
	movzbl	-1(%rcx,%r12),%ebx
	movb	%bl,-1(%r9,%r12)
	movzbl	(%rcx,%r12),%ebx
	movb	%bl,(%r9,%r12)
	addq	$4,%r12
	cmpq	%r12,%r8
	jne	7b
	jmp	2f
6:
	cmpq	$32,%r8
	jae	6f
	xorl	%r15d,%r15d
	jmp	7f
4:
	movl	%r13d,%edi
	movq	%r8,%r15
	andq	$-32,%r15
	leaq	(%r8,%rcx),%r9
	addq	%r10,%r9
	addq	$-16,%r9
	leaq	(%r14,%r8),%rbx
	addq	%r11,%rbx
	leaq	(%r10,%rbx),%r12
	addq	$-16,%r12
	movq	%r15,%r13
	negq	%r13
	xorl	%ebx,%ebx
	.p2align	4
4:
	movups	-16(%r9,%rbx),%xmm0
	movups	(%r9,%rbx),%xmm1
	movups	%xmm1,(%r12,%rbx)
	movups	%xmm0,-16(%r12,%rbx)
	addq	$-32,%rbx
	cmpq	%rbx,%r13
	jne	4b
	cmpq	%r15,%r8
	movl	%edi,%r13d
	je	2f
	testb	$24,%r8b
	je	4f
5:
	movb	%r13b,3(%rsp)
	movq	%r8,%r12
	andq	$-8,%r12
	movl	%r8d,%r9d
	andl	$7,%r9d
	leaq	(%r8,%rcx),%rbx
	subq	%r15,%rbx
	leaq	(%rbx,%r10),%r13
	addq	$-8,%r13
	addq	%r8,%r14
	addq	%r11,%r14
	subq	%r15,%r14
	addq	%r10,%r14
	addq	$-8,%r14
	subq	%r12,%r15
	xorl	%ebx,%ebx
	.p2align	4
5:
	movq	(%r13,%rbx),%rdi
	movq	%rdi,(%r14,%rbx)
	addq	$-8,%rbx
	cmpq	%rbx,%r15
	jne	5b
	cmpq	%r12,%r8
	movzbl	3(%rsp),%r13d
	je	2f
3:
	movl	%r13d,%ebx
	leaq	-1(%r9),%r14
	movq	%r9,%r15
	andq	$3,%r15
	je	5f
	leaq	(%r10,%rax),%r12
	decq	%r12
	leaq	(%rcx,%r10),%r13
	decq	%r13
	.p2align	4
8:
	movzbl	(%r13,%r9),%edi
	movb	%dil,(%r12,%r9)
	decq	%r9
	decq	%r15
	jne	8b
5:
	cmpq	$3,%r14
	movl	%ebx,%r13d
	jb	2f
	leaq	(%r10,%rax),%r14
	decq	%r14
	addq	%r10,%rcx
	decq	%rcx
	movq	%r9,%r15
	.p2align	4
5:
	movzbl	(%rcx,%r9),%edi
	movb	%dil,(%r14,%r9)
	movzbl	-1(%rcx,%r9),%edi
	movb	%dil,-1(%r14,%r9)
	movzbl	-2(%rcx,%r9),%edi
	movb	%dil,-2(%r14,%r9)
	addq	$-4,%r15
	movzbl	-3(%rcx,%r9),%edi
	movb	%dil,-3(%r14,%r9)
	movq	%r15,%r9
	jne	5b
	jmp	2f
6:
	movl	%r13d,%edi
	movq	%r8,%r15
	andq	$-32,%r15
	leaq	(%r10,%rax),%r12
	addq	$16,%r12
	leaq	(%rcx,%r10),%r13
	addq	$16,%r13
	xorl	%ebx,%ebx
	.p2align	4
5:
	movups	-16(%r13,%rbx),%xmm0
	movups	(%r13,%rbx),%xmm1
	movups	%xmm0,-16(%r12,%rbx)
	movups	%xmm1,(%r12,%rbx)
	addq	$32,%rbx
	cmpq	%rbx,%r15
	jne	5b
	cmpq	%r15,%r8
	movl	%edi,%r13d
	je	2f
	testb	$28,%r8b
	je	1b
7:
	movq	%r15,%rbx
	movq	%r8,%r15
	andq	$-4,%r15
	.p2align	4
5:
	movl	(%r9,%rbx),%r12d
	movl	%r12d,(%r14,%rbx)
	addq	$4,%rbx
	cmpq	%rbx,%r15
	jne	5b
	cmpq	%r15,%r8
	jne	1b
2:
	cmpb	$1,%bpl
	jne	1f
	cmpb	$0,4(%rsp)
	je	2f
	movb	%r13b,(%r10,%r11)
	movb	%dl,1(%r10,%r11)
	movl	$2,%ecx
	addq	%r11,%rcx
	testq	%rdx,%rdx
	jne	5f
	jmp	6f
2:
	rolb	$4,%r13b
	addb	%dl,%r13b
	decb	%r13b
	movb	%r13b,(%r10,%r11)
	movl	$1,%ecx
	addq	%r11,%rcx
	testq	%rdx,%rdx
	je	6f
5:
	cmpq	$1,%rdx
	jne	2f
	movzbl	(%rsi),%edx
	movb	%dl,(%r10,%rcx)
	jmp	1f
2:
	cmpq	$2,%rdx
	ja	2f
	movzbl	(%rsi),%edx
	movb	%dl,(%r10,%rcx)
	movzbl	1(%rsi),%edx
	movb	%dl,1(%r10,%rcx)
	jmp	1f
2:
	cmpq	$3,%rdx
	jne	6f
	movzbl	(%rsi),%edx
	movb	%dl,(%r10,%rcx)
	movzbl	1(%rsi),%edx
	movb	%dl,1(%r10,%rcx)
	movzbl	2(%rsi),%edx
	movb	%dl,2(%r10,%rcx)
	jmp	1f
6:
	leaq	(%r10,%rcx),%rdi
	movq	%rdi,%r9
	subq	%rsi,%r9
	cmpq	%rdx,%r9
	jae	2f
	cmpq	$4,%rdx
	jb	5f
	cmpq	$32,%r9
	jae	6f
5:
	xorl	%r9d,%r9d
5:
	movq	%rdx,%rbx
	movq	%r9,%r11
	andq	$3,%rbx
	je	7f
	movq	%r9,%r11
	.p2align	4
8:
	movzbl	(%rsi,%r11),%ebp
	movb	%bpl,(%rdi,%r11)
	incq	%r11
	decq	%rbx
	jne	8b
7:
	subq	%rdx,%r9
	cmpq	$-4,%r9
	ja	1f
	addq	%r10,%rcx
	addq	$3,%rcx
	.p2align	4
7:
	movzbl	(%rsi,%r11),%edi
	movb	%dil,-3(%rcx,%r11)
	movzbl	1(%rsi,%r11),%edi
	movb	%dil,-2(%rcx,%r11)
	movzbl	2(%rsi,%r11),%edi
	movb	%dil,-1(%rcx,%r11)
	movzbl	3(%rsi,%r11),%edi
	movb	%dil,(%rcx,%r11)
	addq	$4,%r11
	cmpq	%r11,%rdx
	jne	7b
	jmp	1f
2:
	movq	%r8,%rbx
	movq	%rax,%r14
	callq	memmove@PLT
	movq	%r14,%rax
	movq	%rbx,%r8
1:
	addq	%r8,%rax
	addq	$8,%rsp
	.cfi_def_cfa_offset 56
	popq	%rbx
	.cfi_def_cfa_offset 48
	popq	%r12
	.cfi_def_cfa_offset 40
	popq	%r13
	.cfi_def_cfa_offset 32
	popq	%r14
	.cfi_def_cfa_offset 24
	popq	%r15
	.cfi_def_cfa_offset 16
	popq	%rbp
	.cfi_def_cfa_offset 8
	retq
6:
	.cfi_def_cfa_offset 64
	cmpq	$32,%rdx
	jae	2f
	xorl	%r9d,%r9d
	jmp	6f
2:
	movq	%rdx,%r9
	andq	$-32,%r9
	leaq	(%r10,%rcx),%r11
	addq	$16,%r11
	xorl	%ebx,%ebx
	.p2align	4
2:
	movups	(%rsi,%rbx),%xmm0
	movups	16(%rsi,%rbx),%xmm1
	movups	%xmm0,-16(%r11,%rbx)
	movups	%xmm1,(%r11,%rbx)
	addq	$32,%rbx
	cmpq	%rbx,%r9
	jne	2b
	cmpq	%r9,%rdx
	je	1b
	testb	$28,%dl
	je	5b
6:
	movq	%r9,%r11
	movq	%rdx,%r9
	andq	$-4,%r9
	.p2align	4
2:
	movl	(%rsi,%r11),%ebx
	movl	%ebx,(%rdi,%r11)
	addq	$4,%r11
	cmpq	%r11,%r9
	jne	2b
	cmpq	%r9,%rdx
	je	1b
	jmp	5b
4:
	movl	%r8d,%r9d
	andl	$31,%r9d
	jmp	3b
	.size	"rtp_b236e5ea_rtp_ext::rewriting::put_between", .-"rtp_b236e5ea_rtp_ext::rewriting::put_between"
	.cfi_endproc

	.section	".text.unlikely.rtp_c::growing::put_status_of","ax",@progbits
	.p2align	4
	.type	"rtp_b236e5ea_rtp_c::growing::put_status_of",@function
"rtp_b236e5ea_rtp_c::growing::put_status_of":
	.cfi_startproc
	movzbl	%dil,%eax
	leaq	1f(%rip),%rcx
	movslq	(%rcx,%rax,4),%rax
	addq	%rcx,%rax
	jmpq	*%rax
2:
	movl	$9,%eax
	retq
3:
	movl	$5,%eax
	retq
4:
	movl	$13,%eax
	retq
5:
	movzbl	%sil,%eax
	leaq	"rtp_b236e5ea_.Lrtp_b236e5ea_switch.table.rtp_c::whole_packet::status_of_no_packet"(%rip), %rcx
	movl	(%rcx,%rax,4),%eax
	retq
6:
	movl	$15,%eax
	retq
7:
	movl	$16,%eax
	retq
8:
	movl	$14,%eax
	retq
9:
	movl	$8,%eax
	retq
	.size	"rtp_b236e5ea_rtp_c::growing::put_status_of", .-"rtp_b236e5ea_rtp_c::growing::put_status_of"
	.cfi_endproc
	.section	".rodata.unlikely.rtp_c::growing::put_status_of","a",@progbits
	.p2align	2,0x0
1:
	.long	2b-1b
	.long	4b-1b
	.long	2b-1b
	.long	5b-1b
	.long	3b-1b
	.long	7b-1b
	.long	8b-1b
	.long	6b-1b
	.long	9b-1b

	.section	".text.rtp_wire::packet::rtp_packet_buf::RtpPacketBuf::change_form","ax",@progbits
	.p2align	4
	.type	"rtp_b236e5ea_rtp_wire::packet::rtp_packet_buf::RtpPacketBuf::change_form",@function
"rtp_b236e5ea_rtp_wire::packet::rtp_packet_buf::RtpPacketBuf::change_form":
	.cfi_startproc
	pushq	%rbp
	.cfi_def_cfa_offset 16
	pushq	%r15
	.cfi_def_cfa_offset 24
	pushq	%r14
	.cfi_def_cfa_offset 32
	pushq	%r13
	.cfi_def_cfa_offset 40
	pushq	%r12
	.cfi_def_cfa_offset 48
	pushq	%rbx
	.cfi_def_cfa_offset 56
	subq	$88,%rsp
	.cfi_def_cfa_offset 144
	.cfi_offset %rbx,-56
	.cfi_offset %r12,-48
	.cfi_offset %r13,-40
	.cfi_offset %r14,-32
	.cfi_offset %r15,-24
	.cfi_offset %rbp,-16
	movq	(%rsi),%rbp
	cmpb	$1,32(%rsi)
	jne	1f
	movzbl	33(%rsi),%r9d
	testb	%r9b,%r9b
	sete	%al
	movl	%edx,%ecx
	andb	$1,%cl
	cmpb	%cl,%al
	jne	2f
	movq	24(%rsi),%r12
	movzbl	(%rbp),%eax
	movq	%rax,48(%rsp)
	leal	(,%rax,4),%r8d
	andl	$60,%r8d
	leaq	16(%r8),%rax
	movq	%r12,32(%rsp)
	subq	%rax,%r12
	movq	%r8,64(%rsp)
	leaq	(%r8,%rbp),%rax
	addq	$16,%rax
	testb	%r9b,%r9b
	movl	%edx,4(%rsp)
	movb	%r9b,3(%rsp)
	movq	%rax,24(%rsp)
	movq	%rdi,%r14
	je	3f
	testq	%r12,%r12
	je	4f
	xorl	%r13d,%r13d
	movq	%rax,%rdi
	movq	%r12,%rcx
5:
	movq	%rcx,%r15
6:
	cmpb	$0,(%rdi)
	je	7f
	movq	%r15,%rcx
	movq	%rdi,%rax
	cmpq	$2,%rcx
	jae	8f
	jmp	9f
7:
	cmpq	$2,%r15
	je	7f
	cmpq	$1,%r15
	je	9f
	cmpq	$3,%r15
	ja	10f
	cmpb	$0,1(%rdi)
	jne	10f
	cmpb	$0,2(%rdi)
	jne	10f
	jmp	11f
7:
	cmpb	$0,1(%rdi)
	je	7f
10:
	movq	%rsi,%rbx
	leaq	-1(%r15),%rsi
	incq	%rdi
	callq	"rtp_b236e5ea_rtp_ext::elements::skip_zeros"
	testq	%rdx,%rdx
	je	10f
	movq	%rdx,%rcx
	movl	4(%rsp),%edx
	movq	%rbx,%rsi
	movzbl	3(%rsp),%r9d
	cmpq	$2,%rcx
	jb	9f
8:
	movzbl	1(%rax),%r8d
	leaq	2(%r8),%rdi
	subq	%rdi,%rcx
	jb	9f
	addq	%rax,%rdi
	cmpb	$0,(%rax)
	jne	8f
	movq	%rcx,%r15
	testq	%rcx,%rcx
	jne	6b
	jmp	6f
8:
	addq	%r8,%r13
	addq	$2,%r13
	xorl	%r15d,%r15d
	testq	%rcx,%rcx
	jne	5b
	jmp	9f
1:
	testb	$16,(%rbp)
	jne	1f
2:
	movb	$0,(%rdi)
	movw	$0,8(%rdi)
	jmp	2f
1:
	movb	$1,(%rdi)
	movw	$4,8(%rdi)
2:
	movq	$0,16(%rdi)
	jmp	1f
3:
	testq	%r12,%r12
	je	4f
	xorl	%r13d,%r13d
	movq	%r12,%rcx
2:
	movq	%rcx,%r15
	.p2align	4
3:
	movzbl	(%rax),%edi
	leal	16(%rdi),%ecx
	cmpb	$32,%cl
	jae	5f
	testb	%dil,%dil
	je	8f
	movq	%r15,%rcx
	cmpb	$-17,%dil
	jbe	12f
	jmp	9f
	.p2align	4
5:
	movzbl	%dil,%r8d
	andl	$15,%r8d
	addq	$2,%r8
	movq	%r15,%rcx
	subq	%r8,%rcx
	jae	5f
	movq	%r15,%rcx
12:
	movl	%edi,%r8d
	andb	$15,%r8b
	addb	$2,%r8b
	movzbl	%r8b,%r8d
	subq	%r8,%rcx
	jb	9f
	addq	%r8,%rax
	cmpb	$16,%dil
	jae	13f
	movq	%rcx,%r15
	testq	%rcx,%rcx
	jne	3b
	jmp	6f
8:
	cmpq	$2,%r15
	je	3f
	cmpq	$1,%r15
	je	9f
	cmpq	$3,%r15
	ja	8f
	cmpb	$0,1(%rax)
	jne	8f
	cmpb	$0,2(%rax)
	jne	8f
	jmp	11f
3:
	cmpb	$0,1(%rax)
	je	7f
8:
	movq	%rsi,%rbx
	leaq	-1(%r15),%rsi
	incq	%rax
	movq	%rax,%rdi
	callq	"rtp_b236e5ea_rtp_ext::elements::skip_zeros"
	testq	%rdx,%rdx
	je	10f
	movq	%rdx,%rcx
	movzbl	(%rax),%edi
	movl	4(%rsp),%edx
	movq	%rbx,%rsi
	movzbl	3(%rsp),%r9d
	cmpb	$-17,%dil
	jbe	12b
	jmp	9f
5:
	addq	%r8,%rax
13:
	addq	%r8,%r13
	xorl	%r15d,%r15d
	testq	%rcx,%rcx
	jne	2b
	jmp	9f
4:
	xorl	%r13d,%r13d
	xorl	%r15d,%r15d
	jmp	9f
7:
	movl	$2,%r15d
	jmp	9f
11:
	movl	$3,%r15d
	jmp	9f
6:
	xorl	%r15d,%r15d
9:
	movq	%rbp,56(%rsp)
	movq	%r14,40(%rsp)
	movq	%r12,%rcx
	subq	%r15,%rcx
	movq	16(%rsi),%rbp
	cmpb	%r9b,%dl
	setne	%al
	testq	%r13,%r13
	setne	%r14b
	andb	%al,%r14b
	cmpb	$1,%r14b
	movq	%r13,8(%rsp)
	movq	%rcx,80(%rsp)
	jne	2f
	movzbl	%r9b,%edi
	movzbl	%dl,%eax
	movq	%rsi,%rbx
	movl	%eax,%esi
	movq	24(%rsp),%rdx
	xorl	%r8d,%r8d
	callq	"rtp_b236e5ea_rtp_ext::form_change::row_len"
	movq	%rbx,%rsi
	movq	%rdx,%r13
	jmp	3f
2:
	movb	$1,%al
3:
	movq	32(%rsp),%rdx
	cmpb	$1,%al
	jne	2f
	addq	$3,%r13
	andq	$-4,%r13
	cmpq	%r13,%r12
	cmovaq	%r12,%r13
	cmpq	$262141,%r13
	movzwl	%r13w,%ecx
	movl	$7,%eax
	cmovbq	%rcx,%rax
	jae	3f
	movzbl	64(%rsp),%ebx
	addq	$12,%rbx
	leaq	(%rbx,%r13),%rax
	movq	%rbp,%rcx
	subq	%rdx,%rcx
	leaq	(%rcx,%rax),%rdi
	addq	$4,%rdi
	cmpq	%rdi,8(%rsi)
	jae	4f
	movb	$8,%al
	movb	$1,%cl
	xorl	%edx,%edx
	movq	40(%rsp),%r14
	jmp	5f
4:
	movq	%rdi,64(%rsp)
	movq	%rsi,24(%rsp)
	leaq	(%rbx,%r13),%rcx
	addq	$4,%rcx
	movq	56(%rsp),%rdi
	movq	%rdx,%rsi
	movq	%rbp,%rdx
	movq	%rdi,%rbp
	callq	"rtp_b236e5ea_rtp_wire::packet::resizing::move_bytes"
	movl	%r13d,%eax
	shrl	$10,%eax
	movl	%r13d,%ecx
	andl	$-4,%ecx
	shll	$6,%ecx
	orl	%eax,%ecx
	leaq	(%rbx,%rbp),%r11
	movw	%cx,78(%rsp)
	movw	%cx,2(%rbp,%rbx)
	movl	4(%rsp),%eax
	movzbl	3(%rsp),%ebx
	cmpb	%al,%bl
	je	4f
	orb	$16,(%rbp)
	testb	%al,%al
	movl	$57022,%ecx
	movl	$16,%edx
	cmovel	%ecx,%edx
	movw	%dx,(%r11)
4:
	addq	$4,%r11
	testq	%r12,%r12
	movq	80(%rsp),%rcx
	je	4f
	cmpq	%rcx,8(%rsp)
	movq	%r11,16(%rsp)
	jne	6f
	movq	%rcx,%rbp
	xorl	%r9d,%r9d
	jmp	7f
4:
	cmpq	$4,%r13
	movq	24(%rsp),%rcx
	ja	4f
	leaq	8f(%rip),%rdx
	movslq	(%rdx,%r13,4),%rsi
	addq	%rdx,%rsi
	movq	40(%rsp),%r14
	jmpq	*%rsi
11:
	movb	$0,(%r11)
	jmp	12f
6:
	movzbl	%bl,%edi
	movq	%r11,%rsi
	movq	%rcx,%rdx
	movq	%rcx,%rbp
	movq	%r12,%r8
	xorl	%r9d,%r9d
	callq	"rtp_b236e5ea_rtp_ext::gathering::gather_around"
	movq	16(%rsp),%r11
	movq	%rax,8(%rsp)
	movq	%rdx,%r9
7:
	testb	%r14b,%r14b
	je	6f
	movzbl	%bl,%edi
	movq	%r11,%rsi
	movq	%r13,%rdx
	movq	8(%rsp),%rcx
	movq	%rbp,%r8
	callq	"rtp_b236e5ea_rtp_ext::form_change::change_rows"
	movq	%rax,%r8
	testq	%rdx,%rdx
	movq	40(%rsp),%r14
	je	7f
	movq	%rdx,%r9
	movq	%r8,%rbp
	movl	4(%rsp),%eax
	movq	24(%rsp),%rcx
	movq	16(%rsp),%r11
	jmp	13f
6:
	cmpq	%rbp,8(%rsp)
	movq	40(%rsp),%r14
	jbe	6f
	testq	%r9,%r9
	movl	4(%rsp),%eax
	movq	24(%rsp),%rcx
	je	14f
	movq	%r9,%rdx
	cmpq	$8,%r9
	movq	56(%rsp),%r12
	jb	15f
	movq	8(%rsp),%rdx
	addq	%r15,%rdx
	movq	48(%rsp),%rsi
	leal	(,%rsi,4),%esi
	andl	$60,%esi
	addq	%rsi,%rdx
	movq	32(%rsp),%rdi
	subq	%rdx,%rdi
	addq	$-16,%rdi
	movq	%r9,%rdx
	cmpq	$32,%rdi
	jb	15f
	cmpq	$32,%r9
	jae	16f
	xorl	%edi,%edi
	jmp	17f
2:
	movzbl	3(%rsp),%edi
	movq	24(%rsp),%rsi
	movq	%r12,%rdx
	callq	"rtp_b236e5ea_rtp_wire::packet::rewriting::has_long_id"
	movzbl	%al,%ecx
	movl	$6,%eax
	subq	%rcx,%rax
3:
	movl	%eax,%edx
	shrl	$8,%edx
	movb	$1,%cl
	xorl	%edi,%edi
	movq	40(%rsp),%r14
	jmp	5f
6:
	testq	%r9,%r9
	movl	4(%rsp),%eax
	movq	24(%rsp),%rcx
	je	14f
	movq	8(%rsp),%r8
13:
	leaq	(%r11,%rbp),%rdx
	leaq	(%r11,%r8),%rsi
	xorl	%edi,%edi
	cmpq	$4,%r9
	movq	%rbp,%rbx
	movq	%r8,8(%rsp)
	jb	2f
	subq	%rbp,%r8
	cmpq	$32,%r8
	jb	2f
	cmpq	$32,%r9
	jae	3f
	xorl	%edi,%edi
	jmp	6f
7:
	movq	%r8,8(%rsp)
	xorl	%r9d,%r9d
	movl	4(%rsp),%eax
	movq	24(%rsp),%rcx
	movq	16(%rsp),%r11
	jmp	7f
14:
	xorl	%r9d,%r9d
	jmp	7f
10:
	movl	4(%rsp),%edx
	movq	%rbx,%rsi
	movzbl	3(%rsp),%r9d
	jmp	9b
3:
	movq	%r9,%rdi
	andq	$-32,%rdi
	movq	48(%rsp),%r10
	andl	$15,%r10d
	shll	$2,%r10d
	movq	8(%rsp),%r8
	addq	%r10,%r8
	movq	56(%rsp),%r11
	addq	%r11,%r8
	addq	$32,%r8
	addq	%rbp,%r10
	addq	%r11,%r10
	addq	$32,%r10
	xorl	%r11d,%r11d
3:
	movups	-16(%r10,%r11),%xmm0
	movups	(%r10,%r11),%xmm1
	movups	%xmm0,-16(%r8,%r11)
	movups	%xmm1,(%r8,%r11)
	addq	$32,%r11
	cmpq	%r11,%rdi
	jne	3b
	cmpq	%rdi,%r9
	movq	16(%rsp),%r11
	je	7f
	testb	$28,%r9b
	je	2f
6:
	movq	%rdi,%r8
	movq	%r9,%rdi
	andq	$-4,%rdi
3:
	movl	(%rdx,%r8),%r10d
	movl	%r10d,(%rsi,%r8)
	addq	$4,%r8
	cmpq	%r8,%rdi
	jne	3b
	cmpq	%rdi,%r9
	je	7f
2:
	movq	%r9,%r10
	movq	%rdi,%r8
	andq	$3,%r10
	je	2f
	movq	%rdi,%r8
	.p2align	4
3:
	movzbl	(%rdx,%r8),%r11d
	movb	%r11b,(%rsi,%r8)
	incq	%r8
	decq	%r10
	jne	3b
2:
	subq	%r9,%rdi
	cmpq	$-4,%rdi
	movq	56(%rsp),%rdi
	ja	2f
	movq	48(%rsp),%rsi
	andl	$15,%esi
	shll	$2,%esi
	movq	8(%rsp),%rdx
	addq	%rsi,%rdx
	addq	%rdi,%rdx
	addq	$19,%rdx
	addq	%rsi,%rbx
	leaq	(%rdi,%rbx),%rsi
	addq	$19,%rsi
	movq	16(%rsp),%r11
3:
	movzbl	-3(%rsi,%r8),%edi
	movb	%dil,-3(%rdx,%r8)
	movzbl	-2(%rsi,%r8),%edi
	movb	%dil,-2(%rdx,%r8)
	movzbl	-1(%rsi,%r8),%edi
	movb	%dil,-1(%rdx,%r8)
	movzbl	(%rsi,%r8),%edi
	movb	%dil,(%rdx,%r8)
	addq	$4,%r8
	cmpq	%r8,%r9
	jne	3b
	jmp	7f
3:
	movl	$0,(%r11)
	jmp	12f
6:
	movw	$0,(%r11)
	jmp	12f
9:
	movb	$0,2(%r11)
	movw	$0,(%r11)
	jmp	12f
4:
	leaq	-1(%r13),%rdx
	movq	%r11,%rdi
	xorl	%esi,%esi
	movq	%r11,%rbx
	callq	memset@PLT
	movq	24(%rsp),%rcx
	movl	4(%rsp),%eax
	movb	$0,-1(%rbx,%r13)
	movq	40(%rsp),%r14
	jmp	12f
16:
	movq	%r9,%rdi
	andq	$-32,%rdi
	movq	32(%rsp),%rdx
	addq	%r9,%rdx
	subq	%r15,%rdx
	addq	%r12,%rdx
	addq	$-16,%rdx
	movq	8(%rsp),%r8
	addq	%r9,%r8
	addq	%r12,%r8
	addq	%rsi,%r8
	movq	%rdi,%r10
	negq	%r10
	xorl	%r11d,%r11d
4:
	movups	-16(%rdx,%r11),%xmm0
	movups	(%rdx,%r11),%xmm1
	movups	%xmm1,(%r8,%r11)
	movups	%xmm0,-16(%r8,%r11)
	addq	$-32,%r11
	cmpq	%r11,%r10
	jne	4b
	cmpq	%rdi,%r9
	je	2f
	testb	$24,%r9b
	je	4f
17:
	movq	%r9,%r8
	andq	$-8,%r8
	movl	%r9d,%edx
	andl	$7,%edx
	movq	32(%rsp),%r10
	addq	%r9,%r10
	subq	%r15,%r10
	subq	%rdi,%r10
	addq	%r12,%r10
	addq	$-8,%r10
	movq	8(%rsp),%r11
	addq	%r9,%r11
	addq	%r11,%rsi
	subq	%rdi,%rsi
	addq	%r12,%rsi
	addq	$8,%rsi
	subq	%r8,%rdi
	xorl	%r11d,%r11d
10:
	movq	(%r10,%r11),%rbx
	movq	%rbx,(%rsi,%r11)
	addq	$-8,%r11
	cmpq	%r11,%rdi
	jne	10b
	cmpq	%r8,%r9
	movq	16(%rsp),%r11
	je	7f
15:
	leaq	-1(%rdx),%rsi
	movq	%rdx,%rdi
	notq	%r15
	andq	$3,%rdi
	je	10f
	movq	48(%rsp),%r8
	andl	$15,%r8d
	movq	8(%rsp),%r10
	leaq	(%r10,%r8,4),%r8
	addq	%r12,%r8
	addq	$15,%r8
	movq	32(%rsp),%r10
	addq	%r15,%r10
	addq	%r12,%r10
13:
	movzbl	(%r10,%rdx),%r11d
	movb	%r11b,(%r8,%rdx)
	decq	%rdx
	decq	%rdi
	jne	13b
10:
	cmpq	$3,%rsi
	jae	10f
2:
	movq	16(%rsp),%r11
	jmp	7f
10:
	movq	48(%rsp),%rdi
	andl	$15,%edi
	movq	8(%rsp),%rsi
	leaq	(%rsi,%rdi,4),%rsi
	addq	%r12,%rsi
	addq	$15,%rsi
	addq	32(%rsp),%r15
	addq	%r12,%r15
	movq	%rdx,%rdi
	movq	16(%rsp),%r11
2:
	movzbl	(%r15,%rdx),%r8d
	movb	%r8b,(%rsi,%rdx)
	movzbl	-1(%r15,%rdx),%r8d
	movb	%r8b,-1(%rsi,%rdx)
	movzbl	-2(%r15,%rdx),%r8d
	movb	%r8b,-2(%rsi,%rdx)
	addq	$-4,%rdi
	movzbl	-3(%r15,%rdx),%r8d
	movb	%r8b,-3(%rsi,%rdx)
	movq	%rdi,%rdx
	jne	2b
7:
	addq	8(%rsp),%r9
	subq	%r9,%r13
	jbe	12f
	cmpq	$4,%r13
	ja	2f
	leaq	7f(%rip),%rdx
	movslq	(%rdx,%r13,4),%rsi
	addq	%rdx,%rsi
	jmpq	*%rsi
10:
	movb	$0,(%r11,%r9)
	jmp	12f
13:
	movl	$0,(%r11,%r9)
	jmp	12f
14:
	movw	$0,(%r11,%r9)
	jmp	12f
16:
	movb	$0,2(%r11,%r9)
	movw	$0,(%r11,%r9)
	jmp	12f
2:
	movq	%r13,%rbx
	addq	%r9,%r11
	decq	%r13
	movq	%r11,%rdi
	xorl	%esi,%esi
	movq	%r13,%rdx
	movq	%r11,%r15
	callq	memset@PLT
	movq	24(%rsp),%rcx
	movl	4(%rsp),%eax
	movb	$0,-1(%rbx,%r15)
12:
	movq	64(%rsp),%rsi
	movq	%rsi,%rdx
	subq	16(%rcx),%rdx
	addq	%rdx,24(%rcx)
	movq	%rsi,16(%rcx)
	movb	$1,32(%rcx)
	movb	%al,33(%rcx)
	xorl	%ecx,%ecx
	xorl	%eax,%eax
	xorl	%edx,%edx
	xorl	%edi,%edi
5:
	movb	%cl,(%r14)
	movb	%al,8(%r14)
	movb	%dl,9(%r14)
	movq	%rdi,16(%r14)
1:
	addq	$88,%rsp
	.cfi_def_cfa_offset 56
	popq	%rbx
	.cfi_def_cfa_offset 48
	popq	%r12
	.cfi_def_cfa_offset 40
	popq	%r13
	.cfi_def_cfa_offset 32
	popq	%r14
	.cfi_def_cfa_offset 24
	popq	%r15
	.cfi_def_cfa_offset 16
	popq	%rbp
	.cfi_def_cfa_offset 8
	retq
4:
	.cfi_def_cfa_offset 144
	movl	%r9d,%edx
	andl	$31,%edx
	jmp	15b
	.size	"rtp_b236e5ea_rtp_wire::packet::rtp_packet_buf::RtpPacketBuf::change_form", .-"rtp_b236e5ea_rtp_wire::packet::rtp_packet_buf::RtpPacketBuf::change_form"
	.cfi_endproc
	.section	".rodata.rtp_wire::packet::rtp_packet_buf::RtpPacketBuf::change_form","a",@progbits
	.p2align	2,0x0
7:
	.long	12b-7b
	.long	10b-7b
	.long	14b-7b
	.long	16b-7b
	.long	13b-7b
8:
	.long	12b-8b
	.long	11b-8b
	.long	6b-8b
	.long	9b-8b
	.long	3b-8b

	.section	".text.rtp_ext::gathering::compact_body","ax",@progbits
	.p2align	4
	.type	"rtp_b236e5ea_rtp_ext::gathering::compact_body",@function
"rtp_b236e5ea_rtp_ext::gathering::compact_body":
	.cfi_startproc
	pushq	%rbp
	.cfi_def_cfa_offset 16
	pushq	%r15
	.cfi_def_cfa_offset 24
	pushq	%r14
	.cfi_def_cfa_offset 32
	pushq	%r13
	.cfi_def_cfa_offset 40
	pushq	%r12
	.cfi_def_cfa_offset 48
	pushq	%rbx
	.cfi_def_cfa_offset 56
	pushq	%rax
	.cfi_def_cfa_offset 64
	.cfi_offset %rbx,-56
	.cfi_offset %r12,-48
	.cfi_offset %r13,-40
	.cfi_offset %r14,-32
	.cfi_offset %r15,-24
	.cfi_offset %rbp,-16
	movq	%rdx,%r15
	movq	%rsi,%rbx
	testb	%dil,%dil
	je	1f
	leaq	16(%rbx),%r12
	leaq	(%rbx,%r15),%r13
	addq	$16,%r13
	xorl	%r14d,%r14d
	xorl	%edi,%edi
2:
	movq	%r15,%rdx
	subq	%rdi,%rdx
	je	3f
	addq	%rbx,%rdi
	cmpb	$0,(%rdi)
	je	4f
	movq	%rdi,%rax
	jmp	5f
	.p2align	4
4:
	cmpq	$2,%rdx
	je	4f
	cmpq	$1,%rdx
	je	3f
	cmpq	$3,%rdx
	ja	6f
	cmpb	$0,1(%rdi)
	jne	6f
	cmpb	$0,2(%rdi)
	jne	6f
	jmp	3f
4:
	cmpb	$0,1(%rdi)
	je	3f
6:
	decq	%rdx
	incq	%rdi
	movq	%rdx,%rsi
	callq	"rtp_b236e5ea_rtp_ext::elements::skip_zeros"
	testq	%rdx,%rdx
	je	3f
5:
	cmpq	$2,%rdx
	jb	3f
	movzbl	1(%rax),%esi
	leaq	2(%rsi),%rdi
	subq	%rdx,%rdi
	ja	3f
	addq	%r15,%rdi
	cmpb	$0,(%rax)
	je	2b
	movq	%rdi,%rax
	subq	%rsi,%rax
	leaq	-2(%rax),%r8
	cmpq	%r8,%r14
	jae	4f
	movq	%rdi,%rcx
	subq	%r8,%rcx
	je	4f
	addq	%rbx,%r8
	leaq	(%rbx,%r14),%r9
	cmpq	$4,%rcx
	jb	5f
	movq	%r14,%r10
	subq	%r15,%r10
	addq	%rdx,%r10
	cmpq	$32,%r10
	jae	6f
5:
	xorl	%r10d,%r10d
5:
	movl	%esi,%r13d
	andl	$3,%r13d
	movq	%r10,%r11
	cmpq	$2,%r13
	je	7f
	movl	$1,%ebp
	movq	%r10,%r11
	.p2align	4
8:
	movzbl	(%r8,%r11),%r12d
	movb	%r12b,(%r9,%r11)
	incq	%r11
	movq	%r13,%r12
	xorq	%rbp,%r12
	incq	%rbp
	cmpq	$2,%r12
	jne	8b
7:
	subq	%r10,%rsi
	incq	%rsi
	cmpq	$3,%rsi
	jae	7f
	leaq	16(%rbx),%r12
	leaq	(%rbx,%r15),%r13
	addq	$16,%r13
	jmp	4f
7:
	leaq	3(%rbx),%rsi
	addq	%r14,%rsi
	leaq	(%rbx,%r15),%r8
	addq	$3,%r8
	subq	%rdx,%r8
	leaq	16(%rbx),%r12
	leaq	(%rbx,%r15),%r13
	addq	$16,%r13
	.p2align	4
7:
	movzbl	-3(%r8,%r11),%edx
	movb	%dl,-3(%rsi,%r11)
	movzbl	-2(%r8,%r11),%edx
	movb	%dl,-2(%rsi,%r11)
	movzbl	-1(%r8,%r11),%edx
	movb	%dl,-1(%rsi,%r11)
	movzbl	(%r8,%r11),%edx
	movb	%dl,(%rsi,%r11)
	addq	$4,%r11
	cmpq	%r11,%rcx
	jne	7b
4:
	addq	%rdi,%r14
	subq	%rax,%r14
	addq	$2,%r14
	jmp	2b
6:
	cmpq	$32,%rcx
	jae	2f
	xorl	%r10d,%r10d
	jmp	6f
2:
	movq	%rcx,%r10
	andq	$-32,%r10
	leaq	(%r12,%r14),%r11
	subq	%rdx,%r13
	xorl	%ebp,%ebp
2:
	movups	-16(%r13,%rbp),%xmm0
	movups	(%r13,%rbp),%xmm1
	movups	%xmm0,-16(%r11,%rbp)
	movups	%xmm1,(%r11,%rbp)
	addq	$32,%rbp
	cmpq	%rbp,%r10
	jne	2b
	cmpq	%r10,%rcx
	jne	2f
	leaq	(%rbx,%r15),%r13
	addq	$16,%r13
	jmp	4b
2:
	testb	$28,%cl
	leaq	16(%rbx,%r15),%r13
	je	5b
6:
	movq	%r10,%r11
	movq	%rcx,%r10
	andq	$-4,%r10
2:
	movl	(%r8,%r11),%ebp
	movl	%ebp,(%r9,%r11)
	addq	$4,%r11
	cmpq	%r11,%r10
	jne	2b
	cmpq	%r10,%rcx
	je	4b
	jmp	5b
1:
	xorl	%eax,%eax
	xorl	%r14d,%r14d
1:
	movq	%r15,%rdx
	subq	%rax,%rdx
	je	3f
	movzbl	(%rbx,%rax),%ecx
	testb	%cl,%cl
	je	2f
	cmpb	$-17,%cl
	jbe	4f
	jmp	3f
	.p2align	4
2:
	cmpq	$2,%rdx
	je	2f
	cmpq	$1,%rdx
	je	3f
	cmpq	$3,%rdx
	ja	5f
	cmpb	$0,1(%rbx,%rax)
	jne	5f
	cmpb	$0,2(%rbx,%rax)
	jne	5f
	jmp	3f
2:
	cmpb	$0,1(%rbx,%rax)
	je	3f
5:
	decq	%rdx
	leaq	(%rbx,%rax),%rdi
	incq	%rdi
	movq	%rdx,%rsi
	callq	"rtp_b236e5ea_rtp_ext::elements::skip_zeros"
	testq	%rdx,%rdx
	je	3f
	movzbl	(%rax),%ecx
	cmpb	$-17,%cl
	ja	3f
4:
	movl	%ecx,%r9d
	andb	$15,%r9b
	leal	2(%r9),%eax
	movzbl	%al,%esi
	movq	%rsi,%rax
	subq	%rdx,%rax
	ja	3f
	addq	%r15,%rax
	cmpb	$16,%cl
	jb	1b
	movq	%rax,%rdi
	subq	%rsi,%rdi
	cmpq	%rdi,%r14
	jae	2f
	addq	%rbx,%rdi
	leaq	(%rbx,%r14),%r8
	cmpb	$2,%r9b
	jb	4f
	movq	%r14,%r10
	subq	%r15,%r10
	addq	%rdx,%r10
	cmpq	$16,%r10
	jae	5f
4:
	xorl	%edx,%edx
4:
	movzbl	%cl,%ecx
	andl	$15,%ecx
	addq	$2,%rcx
	.p2align	4
6:
	movzbl	(%rdi,%rdx),%r9d
	movb	%r9b,(%r8,%rdx)
	incq	%rdx
	cmpq	%rdx,%rcx
	jne	6b
2:
	addq	%rsi,%r14
	jmp	1b
5:
	cmpb	$14,%r9b
	jae	1f
	xorl	%edx,%edx
	jmp	5f
1:
	movl	%esi,%edx
	andl	$-16,%edx
	movups	(%rdi),%xmm0
	movups	%xmm0,(%r8)
	cmpq	%rsi,%rdx
	je	2b
	testb	$12,%sil
	je	4b
5:
	movq	%rdx,%r9
	movl	%esi,%edx
	andl	$-4,%edx
1:
	movl	(%rdi,%r9),%r10d
	movl	%r10d,(%r8,%r9)
	addq	$4,%r9
	cmpq	%r9,%rdx
	jne	1b
	cmpl	%esi,%edx
	je	2b
	jmp	4b
3:
	subq	%r14,%r15
	jbe	1f
	cmpq	$4,%r15
	ja	2f
	leaq	3f(%rip),%rax
	movslq	(%rax,%r15,4),%rcx
	addq	%rax,%rcx
	jmpq	*%rcx
4:
	movb	$0,(%rbx,%r14)
	jmp	1f
5:
	movl	$0,(%rbx,%r14)
	jmp	1f
6:
	movw	$0,(%rbx,%r14)
	jmp	1f
7:
	movb	$0,2(%rbx,%r14)
	movw	$0,(%rbx,%r14)
	jmp	1f
2:
	movq	%r15,%r12
	addq	%r14,%rbx
	decq	%r15
	movq	%rbx,%rdi
	xorl	%esi,%esi
	movq	%r15,%rdx
	callq	memset@PLT
	movb	$0,-1(%r12,%rbx)
1:
	movq	%r14,%rax
	addq	$8,%rsp
	.cfi_def_cfa_offset 56
	popq	%rbx
	.cfi_def_cfa_offset 48
	popq	%r12
	.cfi_def_cfa_offset 40
	popq	%r13
	.cfi_def_cfa_offset 32
	popq	%r14
	.cfi_def_cfa_offset 24
	popq	%r15
	.cfi_def_cfa_offset 16
	popq	%rbp
	.cfi_def_cfa_offset 8
	retq
	.size	"rtp_b236e5ea_rtp_ext::gathering::compact_body", .-"rtp_b236e5ea_rtp_ext::gathering::compact_body"
	.cfi_endproc
	.section	".rodata.rtp_ext::gathering::compact_body","a",@progbits
	.p2align	2,0x0
3:
	.long	1b-3b
	.long	4b-3b
	.long	6b-3b
	.long	7b-3b
	.long	5b-3b

	.section	.rodata.cst16,"aM",@progbits,16
	.p2align	4,0x0
.Lrtp_b236e5ea_CPI33_0:
	.short	14
	.short	14
	.short	14
	.short	14
	.short	14
	.short	14
	.short	14
	.short	14
	.section	".text.rtp_wire::packet::rtp_packet_mut::RtpPacketMut::renumber","ax",@progbits
	.p2align	4
	.type	"rtp_b236e5ea_rtp_wire::packet::rtp_packet_mut::RtpPacketMut::renumber",@function
"rtp_b236e5ea_rtp_wire::packet::rtp_packet_mut::RtpPacketMut::renumber":
	.cfi_startproc
	movb	$1,%al
	cmpb	$1,24(%rdi)
	jne	1f
	pushq	%rbp
	.cfi_def_cfa_offset 16
	pushq	%r15
	.cfi_def_cfa_offset 24
	pushq	%r14
	.cfi_def_cfa_offset 32
	pushq	%r13
	.cfi_def_cfa_offset 40
	pushq	%r12
	.cfi_def_cfa_offset 48
	pushq	%rbx
	.cfi_def_cfa_offset 56
	subq	$24,%rsp
	.cfi_def_cfa_offset 80
	.cfi_offset %rbx,-56
	.cfi_offset %r12,-48
	.cfi_offset %r13,-40
	.cfi_offset %r14,-32
	.cfi_offset %r15,-24
	.cfi_offset %rbp,-16
	movq	%rsi,%r14
	movzbl	25(%rdi),%ebp
	movq	(%rdi),%rax
	movq	16(%rdi),%r12
	movzbl	(%rax),%ecx
	andl	$15,%ecx
	leaq	16(,%rcx,4),%rdx
	subq	%rdx,%r12
	leaq	(%rax,%rcx,4),%r13
	addq	$16,%r13
	cmpl	$1,%ebp
	je	2f
	testl	%ebp,%ebp
	jne	3f
	pmovzxbw	(%r14),%xmm0
	pcmpgtw	.Lrtp_b236e5ea_CPI33_0(%rip),%xmm0
	pmovmskb	%xmm0,%eax
	testl	%eax,%eax
	jne	3f
	pmovzxbw	7(%r14),%xmm0
	pcmpgtw	.Lrtp_b236e5ea_CPI33_0(%rip),%xmm0
	pmovmskb	%xmm0,%eax
	testl	%eax,%eax
	je	4f
3:
	movq	%r13,%rax
	movq	%r12,%rdx
3:
	testq	%rdx,%rdx
	je	5f
	movzbl	(%rax),%ecx
	testb	%cl,%cl
	jne	6f
	cmpq	$2,%rdx
	je	7f
	cmpq	$1,%rdx
	je	5f
	cmpq	$3,%rdx
	ja	8f
	cmpb	$0,1(%rax)
	jne	8f
	cmpb	$0,2(%rax)
	jne	8f
	jmp	5f
7:
	cmpb	$0,1(%rax)
	je	5f
8:
	decq	%rdx
	incq	%rax
	movq	%rax,%rdi
	movq	%rdx,%rsi
	callq	"rtp_b236e5ea_rtp_ext::elements::skip_zeros"
	testq	%rdx,%rdx
	je	5f
	movzbl	(%rax),%ecx
6:
	cmpb	$-17,%cl
	ja	5f
	movl	%ecx,%esi
	andb	$15,%sil
	addb	$2,%sil
	movzbl	%sil,%esi
	subq	%rsi,%rdx
	jb	5f
	movzbl	%cl,%ecx
	shrl	$4,%ecx
	addq	%rsi,%rax
	cmpb	$15,(%r14,%rcx)
	jb	3b
	xorl	%eax,%eax
	jmp	3f
5:
	testb	%bpl,%bpl
	je	4f
2:
	testq	%r12,%r12
	je	2f
	movq	%r12,%rdx
	movq	%r13,%rax
	jmp	5f
4:
	testq	%r12,%r12
	je	2f
	movq	%r12,%rdx
	movq	%r13,%rdi
	jmp	4f
6:
	movl	$0,(%r13,%r15)
	.p2align	4
7:
	addq	%r13,%rax
	negq	%rbp
	cmpq	%rdx,%rbx
	movq	%rbp,%rdx
	je	2f
5:
	cmpb	$0,(%rax)
	jne	5f
	cmpq	$2,%rdx
	je	8f
	cmpq	$1,%rdx
	je	2f
	cmpq	$3,%rdx
	ja	9f
	cmpb	$0,1(%rax)
	jne	9f
	cmpb	$0,2(%rax)
	jne	9f
	jmp	2f
8:
	cmpb	$0,1(%rax)
	je	2f
9:
	decq	%rdx
	incq	%rax
	movq	%rax,%rdi
	movq	%rdx,%rsi
	callq	"rtp_b236e5ea_rtp_ext::elements::skip_zeros"
	testq	%rdx,%rdx
	je	2f
5:
	cmpq	$2,%rdx
	jb	2f
	movzbl	1(%rax),%ecx
	movzbl	%cl,%edi
	leaq	2(%rdi),%rbx
	movq	%rbx,%rbp
	subq	%rdx,%rbp
	ja	2f
	movzbl	(%rax),%esi
	leaq	(%r12,%rbp),%rax
	movq	%rax,%r15
	subq	%rdi,%r15
	addq	$-2,%r15
	movzbl	(%r14,%rsi),%edi
	testb	%dil,%dil
	je	5f
	cmpb	%sil,%dil
	je	7b
	movb	%dil,(%r13,%r15)
	movb	%cl,1(%r13,%r15)
	jmp	7b
	.p2align	4
5:
	movq	%rax,%rcx
	subq	%r15,%rcx
	cmpq	$4,%rcx
	ja	5f
	leaq	8f(%rip),%rsi
	movslq	(%rsi,%rcx,4),%rcx
	addq	%rsi,%rcx
	jmpq	*%rcx
9:
	movb	$0,(%r13,%r15)
	jmp	7b
10:
	movw	$0,(%r13,%r15)
	jmp	7b
11:
	movb	$0,2(%r13,%r15)
	movw	$0,(%r13,%r15)
	jmp	7b
5:
	movq	%rcx,16(%rsp)
	addq	%r13,%r15
	decq	%rcx
	movq	%r15,%rdi
	xorl	%esi,%esi
	movq	%rdx,8(%rsp)
	movq	%rcx,%rdx
	callq	memset@PLT
	leaq	(%r12,%rbp),%rax
	movq	8(%rsp),%rdx
	movq	16(%rsp),%rcx
	movb	$0,-1(%rcx,%r15)
	jmp	7b
5:
	movl	$0,(%r15)
	.p2align	4
12:
	leaq	(%r12,%rbp),%rdi
	addq	%r13,%rdi
	negq	%rbp
	cmpq	%rdx,%rbx
	movq	%rbp,%rdx
	je	2f
4:
	movzbl	(%rdi),%esi
	testb	%sil,%sil
	jne	4f
	cmpq	$2,%rdx
	je	13f
	cmpq	$1,%rdx
	je	2f
	cmpq	$3,%rdx
	ja	14f
	cmpb	$0,1(%rdi)
	jne	14f
	cmpb	$0,2(%rdi)
	jne	14f
	jmp	2f
13:
	cmpb	$0,1(%rdi)
	je	2f
14:
	decq	%rdx
	incq	%rdi
	movq	%rdx,%rsi
	callq	"rtp_b236e5ea_rtp_ext::elements::skip_zeros"
	testq	%rdx,%rdx
	je	2f
	movzbl	(%rax),%esi
4:
	cmpb	$-17,%sil
	ja	2f
	movl	%esi,%eax
	andb	$15,%al
	movzbl	%al,%ecx
	leaq	2(%rcx),%rbx
	movq	%rbx,%rbp
	subq	%rdx,%rbp
	ja	2f
	movzbl	%sil,%edi
	shrl	$4,%edi
	movq	%r12,%r15
	subq	%rdx,%r15
	movzbl	(%r14,%rdi),%esi
	testb	%sil,%sil
	je	4f
	cmpb	%dil,%sil
	je	12b
	rolb	$4,%sil
	addb	%al,%sil
	movb	%sil,(%r13,%r15)
	jmp	12b
4:
	addq	%r13,%r15
	cmpb	$2,%al
	je	5b
	cmpl	$1,%ecx
	je	4f
	testl	%ecx,%ecx
	je	5f
	leaq	-1(%rbx),%rax
	movq	%r15,%rdi
	xorl	%esi,%esi
	movq	%rdx,8(%rsp)
	movq	%rax,%rdx
	callq	memset@PLT
	movq	8(%rsp),%rdx
	movb	$0,-1(%r15,%rbx)
	jmp	12b
4:
	movb	$0,2(%r15)
5:
	movw	$0,(%r15)
	jmp	12b
2:
	movb	$1,%al
3:
	addq	$24,%rsp
	.cfi_def_cfa_offset 56
	popq	%rbx
	.cfi_def_cfa_offset 48
	popq	%r12
	.cfi_def_cfa_offset 40
	popq	%r13
	.cfi_def_cfa_offset 32
	popq	%r14
	.cfi_def_cfa_offset 24
	popq	%r15
	.cfi_def_cfa_offset 16
	popq	%rbp
	.cfi_def_cfa_offset 8
	.cfi_restore %rbx
	.cfi_restore %r12
	.cfi_restore %r13
	.cfi_restore %r14
	.cfi_restore %r15
	.cfi_restore %rbp
1:
	retq
	.size	"rtp_b236e5ea_rtp_wire::packet::rtp_packet_mut::RtpPacketMut::renumber", .-"rtp_b236e5ea_rtp_wire::packet::rtp_packet_mut::RtpPacketMut::renumber"
	.cfi_endproc
	.section	".rodata.rtp_wire::packet::rtp_packet_mut::RtpPacketMut::renumber","a",@progbits
	.p2align	2,0x0
8:
	.long	7b-8b
	.long	9b-8b
	.long	10b-8b
	.long	11b-8b
	.long	6b-8b

	.section	.rodata.cst16,"aM",@progbits,16
	.p2align	4,0x0
.Lrtp_b236e5ea_CPI34_0:
	.zero	16,32
.Lrtp_b236e5ea_CPI34_1:
	.byte	1
	.byte	0
	.byte	3
	.byte	2
	.byte	5
	.byte	4
	.byte	7
	.byte	6
	.zero	1
	.zero	1
	.zero	1
	.zero	1
	.zero	1
	.zero	1
	.zero	1
	.zero	1
	.section	".text.rtp_ext::block_values::read_apart::<#203c5bf9b6d6d505>","ax",@progbits
	.p2align	4
	.type	"rtp_b236e5ea_rtp_ext::block_values::read_apart::<#203c5bf9b6d6d505>",@function
"rtp_b236e5ea_rtp_ext::block_values::read_apart::<#203c5bf9b6d6d505>":
	.cfi_startproc
	pushq	%rbp
	.cfi_def_cfa_offset 16
	pushq	%r15
	.cfi_def_cfa_offset 24
	pushq	%r14
	.cfi_def_cfa_offset 32
	pushq	%r13
	.cfi_def_cfa_offset 40
	pushq	%r12
	.cfi_def_cfa_offset 48
	pushq	%rbx
	.cfi_def_cfa_offset 56
	subq	$104,%rsp
	.cfi_def_cfa_offset 160
	.cfi_offset %rbx,-56
	.cfi_offset %r12,-48
	.cfi_offset %r13,-40
	.cfi_offset %r14,-32
	.cfi_offset %r15,-24
	.cfi_offset %rbp,-16
	movq	%r8,%r14
	movq	%rsi,%rax
	movq	%rdi,%r12
	testb	%cl,%cl
	je	1f
	testq	%rdx,%rdx
	je	2f
	movq	%r9,56(%rsp)
	xorl	%r15d,%r15d
	jmp	3f
1:
	testq	%rdx,%rdx
	je	2f
	movq	%r9,56(%rsp)
	xorl	%r15d,%r15d
	jmp	1f
2:
	xorl	%r15d,%r15d
2:
	andb	$1,%r15b
	movl	%r15d,%eax
	addq	$104,%rsp
	.cfi_def_cfa_offset 56
	popq	%rbx
	.cfi_def_cfa_offset 48
	popq	%r12
	.cfi_def_cfa_offset 40
	popq	%r13
	.cfi_def_cfa_offset 32
	popq	%r14
	.cfi_def_cfa_offset 24
	popq	%r15
	.cfi_def_cfa_offset 16
	popq	%rbp
	.cfi_def_cfa_offset 8
	retq
4:
	.cfi_def_cfa_offset 160
	movq	%rbp,%rdi
	movq	%r13,%rsi
	movq	%r14,%r13
	movq	%rdx,%r14
	movq	%r13,%rdx
	callq	"rtp_b236e5ea_rtp_values::value::stream_id::read_repaired::<#a6b2bc1c138ab33f>"
5:
	movq	%r14,%rdx
	movq	%r13,%r14
	.p2align	4
6:
	movq	%rbx,%rax
	testq	%rdx,%rdx
	je	2b
3:
	cmpb	$0,(%rax)
	jne	3f
	cmpq	$2,%rdx
	je	7f
	cmpq	$1,%rdx
	je	2b
	cmpq	$3,%rdx
	ja	8f
	cmpb	$0,1(%rax)
	jne	8f
	cmpb	$0,2(%rax)
	jne	8f
	jmp	2b
7:
	cmpb	$0,1(%rax)
	je	2b
8:
	decq	%rdx
	incq	%rax
	movq	%rax,%rdi
	movq	%rdx,%rsi
	callq	"rtp_b236e5ea_rtp_ext::elements::skip_zeros"
	testq	%rdx,%rdx
	je	2b
3:
	cmpq	$2,%rdx
	jb	2b
	movzbl	1(%rax),%r13d
	leaq	2(%r13),%rbx
	subq	%rbx,%rdx
	jb	2b
	movzbl	(%rax),%ecx
	addq	%rax,%rbx
	testq	%rcx,%rcx
	je	6b
	movzbl	(%r12,%rcx),%ecx
	decl	%ecx
	cmpl	$14,%ecx
	ja	6b
	leaq	2(%rax),%rbp
	leaq	3f(%rip),%rsi
	movslq	(%rsi,%rcx,4),%rcx
	addq	%rsi,%rcx
	jmpq	*%rcx
7:
	cmpb	$3,%r13b
	jb	6b
	movzbl	2(%rax),%ecx
	movzwl	3(%rax),%eax
	shll	$16,%eax
	shll	$8,%ecx
	orl	%eax,%ecx
	bswapl	%ecx
	imulq	$1000000,%rcx,%rax
	shrq	$18,%rax
	movb	$1,115(%r14)
	movq	%rax,(%r14)
	jmp	6b
8:
	cmpb	$2,%r13b
	jb	9f
	leaq	.Lrtp_b236e5ea_static.0(%rip),%rax
	testq	%rdx,%rdx
	je	10f
	movq	%r12,16(%rsp)
	movq	%r14,24(%rsp)
	movl	%r15d,12(%rsp)
	movq	%rdx,%r14
11:
	cmpb	$0,(%rbx)
	movq	%rbx,%rax
	jne	12f
	cmpq	$2,%rdx
	je	13f
	cmpq	$1,%rdx
	movl	12(%rsp),%r15d
	movq	24(%rsp),%r14
	movq	16(%rsp),%r12
	leaq	.Lrtp_b236e5ea_static.0(%rip),%rax
	je	10f
	cmpq	$3,%rdx
	ja	14f
	cmpb	$0,1(%rbx)
	jne	14f
	cmpb	$0,2(%rbx)
	jne	14f
	jmp	10f
13:
	cmpb	$0,1(%rbx)
	movl	12(%rsp),%r15d
	movq	24(%rsp),%r14
	movq	16(%rsp),%r12
	leaq	.Lrtp_b236e5ea_static.0(%rip),%rax
	je	10f
14:
	movq	%rdx,%r15
	leaq	-1(%rdx),%rsi
	leaq	1(%rbx),%rdi
	callq	"rtp_b236e5ea_rtp_ext::elements::skip_zeros"
	testq	%rdx,%rdx
	je	13f
	movq	%rdx,%r14
	movq	%r15,%rdx
12:
	cmpq	$2,%r14
	jb	12f
	movzbl	1(%rax),%r15d
	leaq	2(%r15),%r12
	subq	%r12,%r14
	jb	12f
	movzbl	(%rax),%ecx
	testq	%rcx,%rcx
	je	14f
	movq	16(%rsp),%rsi
	cmpb	$15,(%rsi,%rcx)
	jne	14f
	leaq	2(%rax),%rbx
	addq	%rax,%r12
	movq	%rbx,%rdi
	movq	%r15,%rsi
	callq	"rtp_b236e5ea_rtp_ext::block_values::is_another_allocation"
	testb	%al,%al
	cmovneq	%r15,%r13
	cmovneq	%rbx,%rbp
	movq	%r14,%rdx
	movq	%r12,%rbx
	testq	%r14,%r14
	jne	11b
12:
	xorl	%edx,%edx
	leaq	.Lrtp_b236e5ea_static.0(%rip),%rbx
14:
	movl	12(%rsp),%r15d
	movq	24(%rsp),%r14
	movq	16(%rsp),%r12
	testq	%r13,%r13
	jne	11f
	jmp	6b
12:
	testq	%r13,%r13
	je	6b
	movzbl	(%rbp),%ecx
	shlb	$4,%cl
	movb	$1,121(%r14)
	movabsq	$25333521015767040,%rax
	shrq	%cl,%rax
	movw	%ax,66(%r14)
	jmp	6b
14:
	cmpb	$4,%r13b
	jb	6b
	movl	(%rbp),%eax
	bswapl	%eax
	movb	$1,119(%r14)
	movl	%eax,60(%r14)
	jmp	6b
15:
	cmpb	$2,%r13b
	jb	6b
	movzwl	(%rbp),%eax
	rolw	$8,%ax
	movb	$1,120(%r14)
	movw	%ax,64(%r14)
	jmp	6b
16:
	movq	%r12,16(%rsp)
	movq	%rdx,%r12
	xorps	%xmm0,%xmm0
	movaps	%xmm0,32(%rsp)
	movq	$0,48(%rsp)
	movdqa	.Lrtp_b236e5ea_CPI34_0(%rip),%xmm0
	movdqa	%xmm0,64(%rsp)
	cmpb	$16,%r13b
	ja	17f
	testq	%r13,%r13
	je	18f
	xorl	%eax,%eax
	.p2align	4
19:
	movsbq	(%rbp,%rax),%rcx
	testq	%rcx,%rcx
	js	17f
	leaq	.Lrtp_b236e5ea_static.2(%rip),%rdx
	movzbl	(%rcx,%rdx),%ecx
	movb	%cl,64(%rsp,%rax)
	incq	%rax
	cmpq	%rax,%r13
	jne	19b
	movdqa	64(%rsp),%xmm1
	movq	%r12,%rdx
	movq	16(%rsp),%r12
	jmp	19f
20:
	cmpb	$4,%r13b
	jb	6b
	movl	(%rbp),%eax
	bswapl	%eax
	movb	$1,118(%r14)
	movl	%eax,56(%r14)
	jmp	6b
21:
	testq	%r13,%r13
	je	6b
	movzbl	(%rbp),%eax
	movl	%eax,%ecx
	andb	$127,%cl
	negb	%cl
	movw	$257,123(%r14)
	movb	%cl,78(%r14)
	shrb	$7,%al
	movb	%al,79(%r14)
	jmp	6b
22:
	cmpb	$8,%r13b
	jb	6b
	cmpb	$16,%r13b
	jb	23f
	movq	10(%rax),%rax
	bswapq	%rax
	jmp	24f
25:
	cmpb	$3,%r13b
	jb	6b
	movzbl	2(%rax),%ecx
	movzwl	3(%rax),%eax
	shll	$16,%eax
	shll	$8,%ecx
	orl	%eax,%ecx
	bswapl	%ecx
	movl	%ecx,%eax
	shrl	$12,%eax
	andl	$4095,%ecx
	movw	$257,125(%r14)
	movq	%rax,24(%r14)
	movq	$100,32(%r14)
	movq	%rcx,40(%r14)
	movq	$100,48(%r14)
	jmp	6b
26:
	testq	%r13,%r13
	je	6b
	movzbl	(%rbp),%eax
	movb	$1,122(%r14)
	movb	%al,77(%r14)
	jmp	6b
27:
	movq	%rbp,%rdi
	movq	%r13,%rsi
	movq	%r14,%r13
	movq	%rdx,%r14
	movq	%r13,%rdx
	callq	"rtp_b236e5ea_rtp_values::value::stream_id::read::<#a6b2bc1c138ab33f>"
	jmp	5b
5:
	cmpb	$9,%r13b
	jb	6b
	movq	3(%rax),%xmm0
	pshufb	.Lrtp_b236e5ea_CPI34_1(%rip),%xmm0
	movzbl	2(%rax),%eax
	movb	$1,127(%r14)
	movb	%al,76(%r14)
	movq	%xmm0,68(%r14)
	jmp	6b
17:
	leaq	32(%rsp),%rdi
	movq	%rbp,%rsi
	movq	%r13,%rdx
	callq	"rtp_b236e5ea_core::str::utf8::from_utf8"
	cmpb	$0,32(%rsp)
	je	17f
	movq	%r12,%rdx
	movq	16(%rsp),%r12
	jmp	6b
10:
	xorl	%edx,%edx
	movq	%rax,%rbx
9:
	testq	%r13,%r13
	je	6b
11:
	cmpq	$1,%r13
	jne	9f
	cmpb	$0,(%rbp)
	jne	6b
9:
	movq	%rbp,%rdi
	movq	%r13,%rsi
	movq	%r12,%r13
	movq	%r14,%r12
	movq	%rdx,%r14
	movq	56(%rsp),%rdx
	callq	"rtp_b236e5ea_rtp_ext::block_values::read_long::<#1839c04a795dab0b>"
	movq	%r14,%rdx
	movq	%r12,%r14
	movq	%r13,%r12
	orb	%al,%r15b
	jmp	6b
23:
	xorl	%eax,%eax
24:
	movq	(%rbp),%rcx
	bswapq	%rcx
	cmpb	$16,%r13b
	movb	$1,116(%r14)
	movq	%rcx,8(%r14)
	setae	117(%r14)
	movq	%rax,16(%r14)
	jmp	6b
17:
	movq	40(%rsp),%rax
	movq	48(%rsp),%rcx
	movdqa	.Lrtp_b236e5ea_CPI34_0(%rip),%xmm1
	movdqa	%xmm1,80(%rsp)
	testq	%rcx,%rcx
	movq	%r12,%rdx
	movq	16(%rsp),%r12
	je	19f
	movl	$1,%esi
	xorl	%edi,%edi
	.p2align	4
9:
	movzbl	-1(%rax,%rsi),%r8d
	cmpb	$-64,%r8b
	jl	10f
	leaq	.Lrtp_b236e5ea_static.2(%rip),%r9
	movzbl	(%r8,%r9),%r8d
	movb	%r8b,80(%rsp,%rdi)
	incq	%rdi
10:
	cmpq	%rcx,%rsi
	jae	10f
	incq	%rsi
	cmpq	$16,%rdi
	jne	9b
10:
	movdqa	80(%rsp),%xmm1
19:
	movb	$1,128(%r14)
	movdqa	.Lrtp_b236e5ea_CPI34_0(%rip),%xmm0
	pcmpeqb	%xmm1,%xmm0
	pandn	%xmm1,%xmm0
	jmp	9f
18:
	movb	$1,128(%r14)
	pxor	%xmm0,%xmm0
	movq	%r12,%rdx
	movq	16(%rsp),%r12
9:
	movdqu	%xmm0,80(%r14)
	movb	$0,96(%r14)
	jmp	6b
13:
	xorl	%edx,%edx
	leaq	.Lrtp_b236e5ea_static.0(%rip),%rbx
	movl	12(%rsp),%r15d
	movq	24(%rsp),%r14
	testq	%r13,%r13
	jne	11b
	jmp	6b
9:
	movzbl	(%r13),%ecx
	shlb	$4,%cl
	movb	$1,121(%r14)
	movabsq	$25333521015767040,%rax
	shrq	%cl,%rax
	movw	%ax,66(%r14)
	.p2align	4
10:
	movq	%rbx,%rax
	testq	%rdx,%rdx
	je	2b
1:
	movzbl	(%rax),%esi
	testb	%sil,%sil
	jne	1f
	cmpq	$2,%rdx
	je	11f
	cmpq	$1,%rdx
	je	2b
	cmpq	$3,%rdx
	ja	13f
	cmpb	$0,1(%rax)
	jne	13f
	cmpb	$0,2(%rax)
	jne	13f
	jmp	2b
11:
	cmpb	$0,1(%rax)
	je	2b
13:
	decq	%rdx
	incq	%rax
	movq	%rax,%rdi
	movq	%rdx,%rsi
	callq	"rtp_b236e5ea_rtp_ext::elements::skip_zeros"
	testq	%rdx,%rdx
	je	2b
	movzbl	(%rax),%esi
1:
	cmpb	$-17,%sil
	ja	2b
	movl	%esi,%ecx
	andb	$15,%cl
	leal	2(%rcx),%edi
	movzbl	%dil,%ebp
	subq	%rbp,%rdx
	jb	2b
	movzbl	%sil,%esi
	shrl	$4,%esi
	leaq	(%rax,%rbp),%rbx
	testl	%esi,%esi
	je	10b
	movzbl	(%r12,%rsi),%esi
	decl	%esi
	cmpl	$14,%esi
	ja	10b
	leaq	1(%rax),%r13
	decq	%rbp
	leaq	1f(%rip),%rdi
	movslq	(%rdi,%rsi,4),%rsi
	addq	%rdi,%rsi
	jmpq	*%rsi
2:
	cmpb	$2,%cl
	jb	10b
	movzbl	1(%rax),%ecx
	movzwl	2(%rax),%eax
	shll	$16,%eax
	shll	$8,%ecx
	orl	%eax,%ecx
	bswapl	%ecx
	imulq	$1000000,%rcx,%rax
	shrq	$18,%rax
	movb	$1,115(%r14)
	movq	%rax,(%r14)
	jmp	10b
11:
	testb	%cl,%cl
	movq	%r14,24(%rsp)
	je	13f
	testq	%rdx,%rdx
	je	17f
	movq	%r12,16(%rsp)
	movl	%r15d,12(%rsp)
	movq	%rbx,%r14
	movq	%rdx,%r12
18:
	movzbl	(%rbx),%eax
	testb	%al,%al
	jne	19f
	cmpq	$2,%rdx
	je	23f
	cmpq	$1,%rdx
	movl	12(%rsp),%r15d
	movq	16(%rsp),%r12
	je	17f
	cmpq	$3,%rdx
	ja	24f
	cmpb	$0,1(%rbx)
	jne	24f
	cmpb	$0,2(%rbx)
	jne	24f
	jmp	17f
23:
	cmpb	$0,1(%rbx)
	movl	12(%rsp),%r15d
	movq	16(%rsp),%r12
	je	17f
24:
	movq	%rdx,%r15
	leaq	-1(%rdx),%rsi
	leaq	1(%rbx),%rdi
	callq	"rtp_b236e5ea_rtp_ext::elements::skip_zeros"
	testq	%rdx,%rdx
	je	23f
	movq	%rax,%r14
	movq	%rdx,%r12
	movzbl	(%rax),%eax
	movq	%r15,%rdx
19:
	cmpb	$-17,%al
	ja	23f
	movl	%eax,%ecx
	andb	$15,%cl
	addb	$2,%cl
	movzbl	%cl,%r15d
	subq	%r15,%r12
	jb	23f
	movzbl	%al,%eax
	shrl	$4,%eax
	je	19f
	movq	16(%rsp),%rcx
	cmpb	$15,(%rcx,%rax)
	jne	19f
	leaq	1(%r14),%rbx
	addq	%r15,%r14
	decq	%r15
	movq	%rbx,%rdi
	movq	%r15,%rsi
	callq	"rtp_b236e5ea_rtp_ext::block_values::is_another_allocation"
	testb	%al,%al
	cmovneq	%r15,%rbp
	cmovneq	%rbx,%r13
	movq	%r12,%rdx
	movq	%r14,%rbx
	testq	%r12,%r12
	jne	18b
23:
	xorl	%edx,%edx
	movl	12(%rsp),%r15d
	movq	16(%rsp),%r12
	leaq	.Lrtp_b236e5ea_static.0(%rip),%rbx
	cmpq	$1,%rbp
	jne	18f
	jmp	13f
23:
	movq	%r13,%rdi
	movq	%rbp,%rsi
	movq	%r14,%r13
	movq	%rdx,%r14
	movq	%r13,%rdx
	callq	"rtp_b236e5ea_rtp_values::value::stream_id::read_repaired::<#a6b2bc1c138ab33f>"
	jmp	24f
28:
	cmpb	$3,%cl
	jb	10b
	movl	(%r13),%eax
	bswapl	%eax
	movb	$1,119(%r14)
	movl	%eax,60(%r14)
	jmp	10b
29:
	testb	%cl,%cl
	je	10b
	movzwl	(%r13),%eax
	rolw	$8,%ax
	movb	$1,120(%r14)
	movw	%ax,64(%r14)
	jmp	10b
30:
	xorps	%xmm0,%xmm0
	movaps	%xmm0,32(%rsp)
	movq	$0,48(%rsp)
	movdqa	.Lrtp_b236e5ea_CPI34_0(%rip),%xmm0
	movdqa	%xmm0,64(%rsp)
	xorl	%eax,%eax
	.p2align	4
31:
	movsbq	(%r13,%rax),%rcx
	testq	%rcx,%rcx
	js	32f
	leaq	.Lrtp_b236e5ea_static.2(%rip),%rsi
	movzbl	(%rcx,%rsi),%ecx
	movb	%cl,64(%rsp,%rax)
	incq	%rax
	cmpq	%rax,%rbp
	jne	31b
	movdqa	64(%rsp),%xmm1
	jmp	31f
33:
	cmpb	$3,%cl
	jb	10b
	movl	(%r13),%eax
	bswapl	%eax
	movb	$1,118(%r14)
	movl	%eax,56(%r14)
	jmp	10b
34:
	movzbl	(%r13),%eax
	movl	%eax,%ecx
	andb	$127,%cl
	negb	%cl
	movw	$257,123(%r14)
	movb	%cl,78(%r14)
	shrb	$7,%al
	movb	%al,79(%r14)
	jmp	10b
35:
	cmpb	$7,%cl
	jb	10b
	cmpb	$15,%cl
	jne	36f
	movq	9(%rax),%rax
	bswapq	%rax
	jmp	37f
38:
	cmpb	$2,%cl
	jb	10b
	movzbl	1(%rax),%ecx
	movzwl	2(%rax),%eax
	shll	$16,%eax
	shll	$8,%ecx
	orl	%eax,%ecx
	bswapl	%ecx
	movl	%ecx,%eax
	shrl	$12,%eax
	andl	$4095,%ecx
	movw	$257,125(%r14)
	movq	%rax,24(%r14)
	movq	$100,32(%r14)
	movq	%rcx,40(%r14)
	movq	$100,48(%r14)
	jmp	10b
39:
	movzbl	(%r13),%eax
	movb	$1,122(%r14)
	movb	%al,77(%r14)
	jmp	10b
40:
	movq	%r13,%rdi
	movq	%rbp,%rsi
	movq	%r14,%r13
	movq	%rdx,%r14
	movq	%r13,%rdx
	callq	"rtp_b236e5ea_rtp_values::value::stream_id::read::<#a6b2bc1c138ab33f>"
24:
	movq	%r14,%rdx
	movq	%r13,%r14
	jmp	10b
24:
	cmpb	$8,%cl
	jb	10b
	movq	2(%rax),%xmm0
	pshufb	.Lrtp_b236e5ea_CPI34_1(%rip),%xmm0
	movzbl	1(%rax),%eax
	movb	$1,127(%r14)
	movb	%al,76(%r14)
	movq	%xmm0,68(%r14)
	jmp	10b
32:
	movq	%r14,24(%rsp)
	movq	%rdx,%r14
	leaq	32(%rsp),%rdi
	movq	%r13,%rsi
	movq	%rbp,%rdx
	callq	"rtp_b236e5ea_core::str::utf8::from_utf8"
	cmpb	$0,32(%rsp)
	je	32f
	movq	%r14,%rdx
	movq	24(%rsp),%r14
	jmp	10b
17:
	xorl	%edx,%edx
	leaq	.Lrtp_b236e5ea_static.0(%rip),%rbx
	cmpq	$1,%rbp
	jne	18f
13:
	cmpb	$0,(%r13)
	je	17f
	movq	24(%rsp),%r14
	jmp	10b
17:
	movl	$1,%ebp
18:
	movq	%r13,%rdi
	movq	%rbp,%rsi
	movq	%rdx,%r14
	movq	56(%rsp),%rdx
	callq	"rtp_b236e5ea_rtp_ext::block_values::read_long::<#1839c04a795dab0b>"
	movq	%r14,%rdx
	orb	%al,%r15b
	movq	24(%rsp),%r14
	jmp	10b
36:
	xorl	%eax,%eax
37:
	movq	(%r13),%rsi
	bswapq	%rsi
	cmpb	$15,%cl
	movb	$1,116(%r14)
	movq	%rsi,8(%r14)
	sete	117(%r14)
	movq	%rax,16(%r14)
	jmp	10b
32:
	movq	40(%rsp),%rax
	movq	48(%rsp),%rcx
	movdqa	.Lrtp_b236e5ea_CPI34_0(%rip),%xmm1
	movdqa	%xmm1,80(%rsp)
	testq	%rcx,%rcx
	je	17f
	movl	$1,%edx
	xorl	%esi,%esi
32:
	movzbl	-1(%rax,%rdx),%edi
	cmpb	$-64,%dil
	jl	36f
	leaq	.Lrtp_b236e5ea_static.2(%rip),%r8
	movzbl	(%rdi,%r8),%edi
	movb	%dil,80(%rsp,%rsi)
	incq	%rsi
36:
	cmpq	%rcx,%rdx
	jae	36f
	incq	%rdx
	cmpq	$16,%rsi
	jne	32b
36:
	movdqa	80(%rsp),%xmm1
17:
	movq	%r14,%rdx
	movq	24(%rsp),%r14
31:
	movb	$1,128(%r14)
	movdqa	.Lrtp_b236e5ea_CPI34_0(%rip),%xmm0
	pcmpeqb	%xmm1,%xmm0
	pandn	%xmm1,%xmm0
	movdqu	%xmm0,80(%r14)
	movb	$0,96(%r14)
	jmp	10b
19:
	movl	12(%rsp),%r15d
	movq	16(%rsp),%r12
	cmpq	$1,%rbp
	je	13b
	jmp	18b
	.size	"rtp_b236e5ea_rtp_ext::block_values::read_apart::<#203c5bf9b6d6d505>", .-"rtp_b236e5ea_rtp_ext::block_values::read_apart::<#203c5bf9b6d6d505>"
	.cfi_endproc
	.section	".rodata.rtp_ext::block_values::read_apart::<#203c5bf9b6d6d505>","a",@progbits
	.p2align	2,0x0
3:
	.long	7b-3b
	.long	22b-3b
	.long	21b-3b
	.long	20b-3b
	.long	12b-3b
	.long	15b-3b
	.long	25b-3b
	.long	26b-3b
	.long	5b-3b
	.long	27b-3b
	.long	4b-3b
	.long	16b-3b
	.long	14b-3b
	.long	6b-3b
	.long	8b-3b
1:
	.long	2b-1b
	.long	35b-1b
	.long	34b-1b
	.long	33b-1b
	.long	9b-1b
	.long	29b-1b
	.long	38b-1b
	.long	39b-1b
	.long	24b-1b
	.long	40b-1b
	.long	23b-1b
	.long	30b-1b
	.long	28b-1b
	.long	10b-1b
	.long	11b-1b

	.section	.rodata.cst16,"aM",@progbits,16
	.p2align	4,0x0
.Lrtp_b236e5ea_CPI35_0:
	.zero	8
	.quad	1
.Lrtp_b236e5ea_CPI35_1:
	.zero	8
	.quad	2
.Lrtp_b236e5ea_CPI35_2:
	.byte	1
	.byte	0
	.byte	3
	.byte	2
	.byte	5
	.byte	4
	.byte	7
	.byte	6
	.byte	9
	.byte	8
	.byte	11
	.byte	10
	.byte	13
	.byte	12
	.byte	15
	.byte	14
	.section	".text.rtp_ext::block_values::read_long::<#1839c04a795dab0b>","ax",@progbits
	.p2align	4
	.type	"rtp_b236e5ea_rtp_ext::block_values::read_long::<#1839c04a795dab0b>",@function
"rtp_b236e5ea_rtp_ext::block_values::read_long::<#1839c04a795dab0b>":
	.cfi_startproc
	pushq	%rbp
	.cfi_def_cfa_offset 16
	pushq	%r15
	.cfi_def_cfa_offset 24
	pushq	%r14
	.cfi_def_cfa_offset 32
	pushq	%r13
	.cfi_def_cfa_offset 40
	pushq	%r12
	.cfi_def_cfa_offset 48
	pushq	%rbx
	.cfi_def_cfa_offset 56
	subq	$152,%rsp
	.cfi_def_cfa_offset 208
	.cfi_offset %rbx,-56
	.cfi_offset %r12,-48
	.cfi_offset %r13,-40
	.cfi_offset %r14,-32
	.cfi_offset %r15,-24
	.cfi_offset %rbp,-16
	testq	%rsi,%rsi
	je	1f
	movq	%rdx,%rbx
	movq	%rsi,%r14
	cmpq	$1,%rsi
	jne	2f
	cmpb	$0,(%rdi)
	je	3f
2:
	leaq	1(%rdi),%rcx
	decq	%r14
	movzbl	(%rdi),%r12d
	movl	%r12d,%edx
	shrl	$4,%edx
	andl	$3,%edx
	leaq	1(%rdx),%r9
	movl	%r12d,%eax
	andl	$15,%eax
	imull	$16843009,%eax,%esi
	movl	%r12d,%eax
	movl	%esi,12(%rsp)
	andb	$15,%al
	je	2f
	movzbl	%al,%eax
	popcntl	%eax,%eax
	mulb	%r9b
4:
	movzbl	%al,%edx
	leal	3(%rdx),%eax
	shrl	$2,%eax
	xorl	%ebp,%ebp
	subq	%rax,%r14
	jb	5f
	movq	%r9,112(%rsp)
	leaq	(%rcx,%rax),%r15
	testq	%rax,%rax
	je	6f
	cmpl	$1,%eax
	jne	7f
	movzbl	(%rcx),%ebp
	shll	$24,%ebp
6:
	movq	%r14,16(%rsp)
	movq	%r15,%rsi
	testq	%rdx,%rdx
	jne	6f
	jmp	8f
2:
	leal	1(%r9),%eax
	shrl	%eax
	subq	%rax,%r14
	jae	2f
1:
	xorl	%ebp,%ebp
	jmp	5f
3:
	movl	$680,%edx
	movq	%rbx,%rdi
	xorl	%esi,%esi
	callq	memset@PLT
3:
	movb	$1,%bpl
5:
	movl	%ebp,%eax
	addq	$152,%rsp
	.cfi_def_cfa_offset 56
	popq	%rbx
	.cfi_def_cfa_offset 48
	popq	%r12
	.cfi_def_cfa_offset 40
	popq	%r13
	.cfi_def_cfa_offset 32
	popq	%r14
	.cfi_def_cfa_offset 24
	popq	%r15
	.cfi_def_cfa_offset 16
	popq	%rbp
	.cfi_def_cfa_offset 8
	retq
2:
	.cfi_def_cfa_offset 208
	leal	1(%r9),%esi
	andl	$-2,%esi
	movzbl	%dl,%r8d
	movd	%r8d,%xmm0
	pshufd	$68,%xmm0,%xmm0
	xorl	%r8d,%r8d
	testb	%r8b,%r8b
	jne	2f
	movzbl	(%rcx),%r8d
	shrb	$4,%r8b
	movb	%r8b,12(%rsp)
2:
	movdqa	.Lrtp_b236e5ea_CPI35_0(%rip),%xmm1
	pcmpgtq	%xmm0,%xmm1
	pcmpeqd	%xmm2,%xmm2
	pxor	%xmm1,%xmm2
	pextrb	$8,%xmm2,%r8d
	testb	$1,%r8b
	je	2f
	movzbl	(%rcx),%r8d
	andb	$15,%r8b
	movb	%r8b,13(%rsp)
2:
	cmpl	$2,%esi
	je	2f
	movl	$1,%esi
	movq	%rsi,%xmm1
	movdqa	%xmm0,%xmm2
	pcmpgtq	%xmm1,%xmm2
	movd	%xmm2,%esi
	testb	$1,%sil
	je	5f
	movzbl	2(%rdi),%esi
	shrb	$4,%sil
	movb	%sil,14(%rsp)
5:
	pcmpgtq	.Lrtp_b236e5ea_CPI35_1(%rip),%xmm0
	pextrb	$8,%xmm0,%esi
	testb	$1,%sil
	je	2f
	movzbl	2(%rdi),%esi
	andb	$15,%sil
	movb	%sil,15(%rsp)
2:
	addq	%rax,%rcx
	movzbl	12(%rsp),%eax
	popcntl	%eax,%eax
	testb	%dl,%dl
	je	4b
	movzbl	13(%rsp),%edx
	popcntl	%edx,%edx
	addb	%dl,%al
	cmpb	$2,%r9b
	je	4b
	movzbl	14(%rsp),%edx
	popcntl	%edx,%edx
	addb	%dl,%al
	cmpb	$3,%r9b
	je	4b
	movzbl	15(%rsp),%edx
	popcntl	%edx,%edx
	addb	%dl,%al
	jmp	4b
7:
	cmpb	$8,%dl
	ja	2f
	movzwl	(%rcx),%ebp
	bswapl	%ebp
	movq	%r14,16(%rsp)
	movq	%r15,%rsi
	testq	%rdx,%rdx
	jne	6f
	jmp	8f
2:
	cmpl	$3,%eax
	jne	2f
	movzbl	(%rcx),%eax
	movzwl	1(%rcx),%ebp
	shll	$8,%ebp
	orl	%eax,%ebp
	jmp	4f
2:
	movl	(%rcx),%ebp
4:
	bswapl	%ebp
6:
	movl	%r12d,32(%rsp)
	movl	%ebp,%eax
	leal	32(,%rdx,2),%ecx
	negl	%ecx
	shrq	%cl,%rax
	popcntl	%eax,%r13d
	andl	$-1431655766,%eax
	popcntl	%eax,%eax
	movq	%rdx,24(%rsp)
	addq	%rdx,%r13
	movq	%r15,%rsi
	movq	%r14,16(%rsp)
	addq	%rax,%r13
	je	2f
	movq	%r14,16(%rsp)
	movq	%r15,%rsi
	jmp	4f
	.p2align	4
5:
	movq	$0,16(%rsp)
6:
	decq	%r13
	je	2f
4:
	cmpq	$0,16(%rsp)
	je	5b
	cmpb	$0,(%rsi)
	js	4f
	decq	16(%rsp)
	incq	%rsi
	jmp	6b
	.p2align	4
4:
	cmpq	$1,16(%rsp)
	je	4f
	cmpb	$0,1(%rsi)
	js	4f
	movl	$2,%eax
	jmp	5f
4:
	leaq	64(%rsp),%rdi
	movq	%rsi,%r12
	movq	16(%rsp),%rdx
	callq	"rtp_b236e5ea_rtp_vla::leb::long_number_at"
	cmpb	$1,64(%rsp)
	jne	4f
	movq	80(%rsp),%rax
	movq	%r12,%rsi
5:
	addq	%rax,%rsi
	subq	%rax,16(%rsp)
	jmp	6b
4:
	movq	%r12,%rsi
	jmp	6b
2:
	movq	16(%rsp),%rax
	cmpq	$5,%rax
	jae	2f
	movl	32(%rsp),%r12d
	jmp	8f
2:
	addq	$-5,%rax
	movq	%rsi,%rdx
	movl	$1,%ecx
	movq	%rsi,%rdi
	movl	32(%rsp),%r12d
	movq	24(%rsp),%r8
	.p2align	4
2:
	cmpw	$-1,(%rdx)
	je	1b
	cmpw	$-1,2(%rdx)
	je	1b
	subq	$5,%rax
	setb	%sil
	cmpq	%r8,%rcx
	jae	1f
	incq	%rcx
	addq	$5,%rdx
	testb	%sil,%sil
	je	2b
1:
	movq	%rdi,%rsi
8:
	movq	%rsi,24(%rsp)
	shrb	$6,%r12b
	movl	$680,%edx
	movq	%rbx,%rdi
	xorl	%esi,%esi
	callq	memset@PLT
	movb	%r12b,673(%rbx)
	xorl	%edx,%edx
	movq	%rbx,56(%rsp)
	jmp	1f
	.p2align	4
2:
	movq	120(%rsp),%rdx
	incq	%rdx
	cmpq	112(%rsp),%rdx
	je	3b
1:
	movzbl	672(%rbx),%eax
	imulq	$168,%rax,%rcx
	movb	$0,160(%rbx,%rcx)
	incl	%eax
	movb	%al,672(%rbx)
	movq	%rdx,120(%rsp)
	movzbl	12(%rsp,%rdx),%r12d
	testb	%r12b,%r12b
	jne	1f
	jmp	2b
	.p2align	4
3:
	incb	-8(%rdx)
	shrb	%r12b
	je	2b
1:
	pxor	%xmm1,%xmm1
	movdqa	%xmm1,80(%rsp)
	pxor	%xmm0,%xmm0
	movdqa	%xmm0,32(%rsp)
	movdqa	%xmm1,64(%rsp)
	movq	$0,96(%rsp)
	testb	$1,%r12b
	jne	1f
	xorl	%r13d,%r13d
	xorl	%ecx,%ecx
	xorl	%eax,%eax
	jmp	2f
	.p2align	4
1:
	movl	%ebp,%ebx
	movl	%ebp,%r13d
	shrl	$30,%r13d
	incl	%r13d
	xorl	%ebp,%ebp
	jmp	1f
	.p2align	4
4:
	xorl	%eax,%eax
	xorl	%r14d,%r14d
5:
	movq	%rax,64(%rsp,%rbp,8)
	incq	%rbp
	cmpq	%rbp,%r13
	je	6f
1:
	testq	%r14,%r14
	je	4b
	movsbq	(%r15),%rax
	testq	%rax,%rax
	js	1f
	decq	%r14
	incq	%r15
	jmp	5b
	.p2align	4
1:
	cmpq	$1,%r14
	je	1f
	movsbq	1(%r15),%rcx
	testq	%rcx,%rcx
	js	1f
	andl	$127,%eax
	shlq	$7,%rcx
	orq	%rcx,%rax
	movl	$2,%ecx
	jmp	4f
1:
	leaq	128(%rsp),%rdi
	movq	%r15,%rsi
	movq	%r14,%rdx
	callq	"rtp_b236e5ea_rtp_vla::leb::long_number_at"
	cmpb	$1,128(%rsp)
	jne	1f
	movq	136(%rsp),%rax
	movq	144(%rsp),%rcx
4:
	addq	%rcx,%r15
	subq	%rcx,%r14
	jmp	5b
1:
	xorl	%eax,%eax
	jmp	5b
	.p2align	4
6:
	movl	%ebx,%ebp
	shll	$2,%ebp
	movq	%r13,96(%rsp)
	xorl	%eax,%eax
	xorl	%ecx,%ecx
	movq	16(%rsp),%rsi
	cmpq	$5,%rsi
	jb	1f
	movq	24(%rsp),%rcx
	movd	(%rcx),%xmm1
	movzbl	4(%rcx),%eax
	leaq	5(%rcx),%rdx
	addq	$-5,%rsi
	movq	%rsi,16(%rsp)
	pshufb	.Lrtp_b236e5ea_CPI35_2(%rip),%xmm1
	pcmpeqd	%xmm0,%xmm0
	psubw	%xmm0,%xmm1
	movdqa	%xmm1,32(%rsp)
	movb	$1,%cl
	movq	%rdx,24(%rsp)
1:
	movq	56(%rsp),%rbx
2:
	movzbl	672(%rbx),%edx
	imulq	$168,%rdx,%rsi
	leaq	(%rbx,%rsi),%rdx
	movzbl	-8(%rbx,%rsi),%esi
	leaq	(%rsi,%rsi,4),%rsi
	movdqa	64(%rsp),%xmm0
	movdqa	80(%rsp),%xmm1
	movdqu	%xmm1,-152(%rdx,%rsi,8)
	movdqu	%xmm0,-168(%rdx,%rsi,8)
	movb	%r13b,-130(%rdx,%rsi,8)
	testb	%cl,%cl
	je	3b
	leaq	(%rdx,%rsi,8),%rcx
	addq	$-168,%rcx
	movdqa	32(%rsp),%xmm0
	movd	%xmm0,32(%rcx)
	movb	%al,36(%rcx)
	movb	$1,37(%rcx)
	jmp	3b
	.size	"rtp_b236e5ea_rtp_ext::block_values::read_long::<#1839c04a795dab0b>", .-"rtp_b236e5ea_rtp_ext::block_values::read_long::<#1839c04a795dab0b>"
	.cfi_endproc

	.section	".text.unlikely.rtp_c::template::not_routed_status","ax",@progbits
	.p2align	4
	.type	"rtp_b236e5ea_rtp_c::template::not_routed_status",@function
"rtp_b236e5ea_rtp_c::template::not_routed_status":
	.cfi_startproc
	movzbl	(%rdi),%ecx
	movl	$9,%eax
	cmpl	$2,%ecx
	jae	1f
	retq
1:
	jne	1f
	movl	$16,%eax
	retq
1:
	movzbl	8(%rdi),%eax
	movzbl	9(%rdi),%esi
	movl	%eax,%edi
	jmp	"rtp_b236e5ea_rtp_c::growing::put_status_of"
	.size	"rtp_b236e5ea_rtp_c::template::not_routed_status", .-"rtp_b236e5ea_rtp_c::template::not_routed_status"
	.cfi_endproc

	.section	".text.unlikely.rtp_c::status::refusal_status","ax",@progbits
	.p2align	4
	.type	"rtp_b236e5ea_rtp_c::status::refusal_status",@function
"rtp_b236e5ea_rtp_c::status::refusal_status":
	.cfi_startproc
	movzbl	%dil,%eax
	leaq	"rtp_b236e5ea_.Lrtp_b236e5ea_switch.table.rtp_c::whole_packet::status_of_no_packet"(%rip), %rcx
	movl	(%rcx,%rax,4),%eax
	retq
	.size	"rtp_b236e5ea_rtp_c::status::refusal_status", .-"rtp_b236e5ea_rtp_c::status::refusal_status"
	.cfi_endproc

	.section	".text.rtp_ext::place::remove_element","ax",@progbits
	.p2align	4
	.type	"rtp_b236e5ea_rtp_ext::place::remove_element",@function
"rtp_b236e5ea_rtp_ext::place::remove_element":
	.cfi_startproc
	pushq	%rbp
	.cfi_def_cfa_offset 16
	pushq	%r15
	.cfi_def_cfa_offset 24
	pushq	%r14
	.cfi_def_cfa_offset 32
	pushq	%r13
	.cfi_def_cfa_offset 40
	pushq	%r12
	.cfi_def_cfa_offset 48
	pushq	%rbx
	.cfi_def_cfa_offset 56
	subq	$40,%rsp
	.cfi_def_cfa_offset 96
	.cfi_offset %rbx,-56
	.cfi_offset %r12,-48
	.cfi_offset %r13,-40
	.cfi_offset %r14,-32
	.cfi_offset %r15,-24
	.cfi_offset %rbp,-16
	movq	%rdx,%r9
	movq	%rsi,%r10
	testb	%dil,%dil
	je	1f
	xorl	%edi,%edi
	testq	%r9,%r9
	je	2f
	movq	%r9,%rdx
	movq	%r10,%rax
	jmp	3f
1:
	xorl	%edi,%edi
	testq	%r9,%r9
	je	2f
	movq	%r9,%r12
	movq	%r10,%r13
	jmp	1f
4:
	movl	$0,(%r10,%r12)
	.p2align	4
5:
	cmpb	%cl,%bl
	sete	%sil
	orb	%sil,%dil
	addq	%r10,%rax
	negq	%r15
	cmpq	%rdx,%r14
	movq	%r15,%rdx
	je	2f
3:
	cmpb	$0,(%rax)
	je	3f
	cmpq	$2,%rdx
	jae	6f
	jmp	2f
	.p2align	4
3:
	cmpq	$2,%rdx
	je	3f
	cmpq	$1,%rdx
	je	2f
	cmpq	$3,%rdx
	ja	7f
	cmpb	$0,1(%rax)
	jne	7f
	cmpb	$0,2(%rax)
	jne	7f
	jmp	2f
3:
	cmpb	$0,1(%rax)
	je	2f
7:
	movq	%r10,%r15
	movq	%r9,%r14
	movl	%ecx,%ebp
	movl	%edi,%ebx
	decq	%rdx
	incq	%rax
	movq	%rax,%rdi
	movq	%rdx,%rsi
	callq	"rtp_b236e5ea_rtp_ext::elements::skip_zeros"
	movl	%ebx,%edi
	testq	%rdx,%rdx
	je	2f
	movl	%ebp,%ecx
	movq	%r14,%r9
	movq	%r15,%r10
	cmpq	$2,%rdx
	jb	2f
6:
	movzbl	1(%rax),%esi
	leaq	2(%rsi),%r14
	movq	%r14,%r15
	subq	%rdx,%r15
	ja	2f
	movzbl	(%rax),%ebx
	leaq	(%r15,%r9),%rax
	cmpb	%cl,%bl
	jne	5b
	movq	%rax,%r12
	subq	%rsi,%r12
	addq	$-2,%r12
	movq	%rax,%r8
	subq	%r12,%r8
	cmpq	$4,%r8
	ja	3f
	leaq	6f(%rip),%rsi
	movslq	(%rsi,%r8,4),%r8
	addq	%rsi,%r8
	jmpq	*%r8
7:
	movb	$0,(%r10,%r12)
	jmp	5b
8:
	movw	$0,(%r10,%r12)
	jmp	5b
9:
	movb	$0,2(%r10,%r12)
	movw	$0,(%r10,%r12)
	jmp	5b
3:
	movq	%r8,16(%rsp)
	addq	%r10,%r12
	decq	%r8
	movl	%edi,12(%rsp)
	movq	%r12,%rdi
	xorl	%esi,%esi
	movq	%rdx,24(%rsp)
	movq	%r8,%rdx
	movl	%ecx,%ebp
	movq	%r9,32(%rsp)
	movq	%r10,%r13
	callq	memset@PLT
	movq	%r13,%r10
	movq	32(%rsp),%r9
	movl	%ebp,%ecx
	movl	12(%rsp),%edi
	leaq	(%r15,%r9),%rax
	movq	24(%rsp),%rdx
	movq	16(%rsp),%rsi
	movb	$0,-1(%rsi,%r12)
	jmp	5b
3:
	movl	$0,(%r14)
	.p2align	4
10:
	cmpb	%cl,%r15b
	sete	%al
	orb	%al,%dil
	addq	%r10,%r13
	negq	%rbp
	cmpq	%r12,%rbx
	movq	%rbp,%r12
	je	2f
1:
	movzbl	(%r13),%r15d
	testb	%r15b,%r15b
	jne	1f
	cmpq	$2,%r12
	je	11f
	cmpq	$1,%r12
	je	2f
	cmpq	$3,%r12
	ja	12f
	cmpb	$0,1(%r13)
	jne	12f
	cmpb	$0,2(%r13)
	jne	12f
	jmp	2f
11:
	cmpb	$0,1(%r13)
	je	2f
12:
	movq	%r10,%rbx
	movq	%r9,%r14
	movl	%ecx,%ebp
	movl	%edi,12(%rsp)
	decq	%r12
	incq	%r13
	movq	%r13,%rdi
	movq	%r12,%rsi
	callq	"rtp_b236e5ea_rtp_ext::elements::skip_zeros"
	testq	%rdx,%rdx
	je	11f
	movq	%rdx,%r12
	movzbl	(%rax),%r15d
	movl	12(%rsp),%edi
	movl	%ebp,%ecx
	movq	%r14,%r9
	movq	%rbx,%r10
1:
	cmpb	$-17,%r15b
	ja	2f
	movl	%r15d,%edx
	andb	$15,%dl
	movzbl	%dl,%eax
	leaq	2(%rax),%rbx
	movq	%rbx,%rbp
	subq	%r12,%rbp
	ja	2f
	shrb	$4,%r15b
	leaq	(%r9,%rbp),%r13
	cmpb	%cl,%r15b
	jne	10b
	movq	%r13,%r14
	subq	%rbx,%r14
	addq	%r10,%r14
	cmpb	$2,%dl
	je	3b
	cmpl	$1,%eax
	je	1f
	testl	%eax,%eax
	je	3f
	leaq	-1(%rbx),%rdx
	movl	%edi,12(%rsp)
	movq	%r14,%rdi
	xorl	%esi,%esi
	movl	%ecx,24(%rsp)
	movq	%r9,32(%rsp)
	movq	%r10,16(%rsp)
	callq	memset@PLT
	movq	16(%rsp),%r10
	movq	32(%rsp),%r9
	movl	24(%rsp),%ecx
	movl	12(%rsp),%edi
	movb	$0,-1(%r14,%rbx)
	jmp	10b
1:
	movb	$0,2(%r14)
3:
	movw	$0,(%r14)
	jmp	10b
11:
	movl	12(%rsp),%edi
2:
	andb	$1,%dil
	movl	%edi,%eax
	addq	$40,%rsp
	.cfi_def_cfa_offset 56
	popq	%rbx
	.cfi_def_cfa_offset 48
	popq	%r12
	.cfi_def_cfa_offset 40
	popq	%r13
	.cfi_def_cfa_offset 32
	popq	%r14
	.cfi_def_cfa_offset 24
	popq	%r15
	.cfi_def_cfa_offset 16
	popq	%rbp
	.cfi_def_cfa_offset 8
	retq
	.size	"rtp_b236e5ea_rtp_ext::place::remove_element", .-"rtp_b236e5ea_rtp_ext::place::remove_element"
	.cfi_endproc
	.section	".rodata.rtp_ext::place::remove_element","a",@progbits
	.p2align	2,0x0
6:
	.long	5b-6b
	.long	7b-6b
	.long	8b-6b
	.long	9b-6b
	.long	4b-6b

	.section	".text.rtp_route::walk::write_kept::<#82187cbc7fdfa14b>","ax",@progbits
	.p2align	4
	.type	"rtp_b236e5ea_rtp_route::walk::write_kept::<#82187cbc7fdfa14b>",@function
"rtp_b236e5ea_rtp_route::walk::write_kept::<#82187cbc7fdfa14b>":
	.cfi_startproc
	pushq	%rbp
	.cfi_def_cfa_offset 16
	pushq	%r15
	.cfi_def_cfa_offset 24
	pushq	%r14
	.cfi_def_cfa_offset 32
	pushq	%r13
	.cfi_def_cfa_offset 40
	pushq	%r12
	.cfi_def_cfa_offset 48
	pushq	%rbx
	.cfi_def_cfa_offset 56
	subq	$56,%rsp
	.cfi_def_cfa_offset 112
	.cfi_offset %rbx,-56
	.cfi_offset %r12,-48
	.cfi_offset %r13,-40
	.cfi_offset %r14,-32
	.cfi_offset %r15,-24
	.cfi_offset %rbp,-16
	movq	%r9,%rax
	movq	%rdx,%r15
	movq	%rsi,%r9
	movq	%rdi,%r10
	movq	120(%rsp),%r11
	movq	112(%rsp),%r12
	movl	%r8d,%edx
	movl	%ecx,36(%rsp)
	orb	%cl,%dl
	je	1f
	testq	%r12,%r12
	je	2f
	leaq	16(%r10),%rcx
	movq	%rcx,40(%rsp)
	leaq	3(%r10),%rcx
	movq	%rcx,48(%rsp)
	movl	%r8d,4(%rsp)
	jmp	3f
4:
	movzbl	(%rax),%eax
	movb	%al,(%r10,%r13)
5:
	addq	%r14,%r13
	movq	%r13,%r15
6:
	movq	%rbp,%rax
	testq	%r12,%r12
	je	2f
3:
	cmpb	$0,(%rax)
	je	3f
	cmpb	$0,36(%rsp)
	je	7f
8:
	cmpq	$2,%r12
	jb	2f
	movzbl	1(%rax),%r14d
	leaq	2(%r14),%rbp
	subq	%rbp,%r12
	jb	2f
	movzbl	(%rax),%ecx
	addq	%rax,%rbp
	movzbl	(%r11,%rcx),%r13d
	testb	%r13b,%r13b
	je	6b
	addq	$2,%rax
	jmp	9f
	.p2align	4
3:
	cmpq	$2,%r12
	je	3f
	cmpq	$1,%r12
	je	2f
	cmpq	$3,%r12
	ja	10f
	cmpb	$0,1(%rax)
	jne	10f
	cmpb	$0,2(%rax)
	jne	10f
	jmp	2f
3:
	cmpb	$0,1(%rax)
	je	2f
10:
	movq	%r11,%r13
	movq	%r10,%r14
	movq	%r9,%rbx
	decq	%r12
	incq	%rax
	movq	%rax,%rdi
	movq	%r12,%rsi
	callq	"rtp_b236e5ea_rtp_ext::elements::skip_zeros"
	testq	%rdx,%rdx
	je	2f
	movq	%rdx,%r12
	movq	%rbx,%r9
	movq	%r14,%r10
	movq	%r13,%r11
	movl	4(%rsp),%r8d
	cmpb	$0,36(%rsp)
	jne	8b
7:
	movzbl	(%rax),%ecx
	cmpq	$239,%rcx
	ja	2f
	movl	%ecx,%r14d
	andl	$15,%r14d
	addq	$2,%r14
	subq	%r14,%r12
	jb	2f
	shrl	$4,%ecx
	leaq	(%rax,%r14),%rbp
	movzbl	(%r11,%rcx),%r13d
	testb	%r13b,%r13b
	je	6b
	incq	%rax
	decq	%r14
	cmpb	$15,%r13b
	jae	3f
9:
	movzbl	%r13b,%ecx
	movzbl	256(%r11,%rcx),%ebx
	testq	%rbx,%rbx
	je	7f
	cmpb	%bl,546(%r11)
	jb	7f
	cmpb	%r13b,511(%r11,%rbx)
	jne	7f
	movq	128(%rsp),%rax
	cmpl	$0,-8(%rax,%rbx,8)
	jne	8f
	movzbl	527(%r11,%rbx),%eax
	movzbl	%al,%r14d
	leaq	(%r15,%r14),%rcx
	addq	$2,%rcx
	cmpq	%rcx,%r9
	jb	8f
	testb	%r8b,%r8b
	je	10f
	movb	%r13b,(%r10,%r15)
	movb	%al,1(%r10,%r15)
	movl	$2,%r13d
	addq	%r15,%r13
	testl	%r14d,%r14d
	jne	11f
	jmp	12f
	.p2align	4
7:
	leaq	(%r15,%r14),%rcx
	addq	$2,%rcx
	cmpq	%rcx,%r9
	jb	8f
	testb	%r8b,%r8b
	je	7f
	movb	%r13b,(%r10,%r15)
	movb	%r14b,1(%r10,%r15)
	movl	$2,%ecx
	leaq	(%rcx,%r15),%r13
	testq	%r14,%r14
	jne	13f
	jmp	14f
7:
	rolb	$4,%r13b
	addb	%r14b,%r13b
	decb	%r13b
	movb	%r13b,(%r10,%r15)
	movl	$1,%ecx
	leaq	(%rcx,%r15),%r13
	testq	%r14,%r14
	je	14f
13:
	cmpl	$1,%r14d
	je	4b
	cmpl	$2,%r14d
	ja	4f
	movzbl	(%rax),%ecx
	movb	%cl,(%r10,%r13)
	movzbl	1(%rax),%eax
	movb	%al,1(%r10,%r13)
	jmp	5b
4:
	cmpl	$3,%r14d
	jne	14f
	movzbl	(%rax),%ecx
	movb	%cl,(%r10,%r13)
	movzbl	1(%rax),%ecx
	movb	%cl,1(%r10,%r13)
	movzbl	2(%rax),%eax
	movb	%al,2(%r10,%r13)
	jmp	5b
14:
	leaq	(%r10,%r13),%rdi
	movq	%rdi,%rdx
	subq	%rax,%rdx
	cmpq	%r14,%rdx
	jae	4f
	cmpl	$4,%r14d
	jb	7f
	addq	%r10,%r15
	addq	%rcx,%r15
	subq	%rax,%r15
	cmpq	$32,%r15
	jae	13f
7:
	xorl	%ecx,%ecx
7:
	movq	%r14,%rsi
	movq	%rcx,%rdx
	andq	$3,%rsi
	je	14f
	movq	%rcx,%rdx
	.p2align	4
15:
	movzbl	(%rax,%rdx),%r8d
	movb	%r8b,(%rdi,%rdx)
	incq	%rdx
	decq	%rsi
	jne	15b
14:
	subl	%r14d,%ecx
	cmpl	$-4,%ecx
	movl	4(%rsp),%r8d
	ja	5b
	movq	48(%rsp),%rcx
	addq	%r13,%rcx
	.p2align	4
14:
	movzbl	(%rax,%rdx),%esi
	movb	%sil,-3(%rcx,%rdx)
	movzbl	1(%rax,%rdx),%esi
	movb	%sil,-2(%rcx,%rdx)
	movzbl	2(%rax,%rdx),%esi
	movb	%sil,-1(%rcx,%rdx)
	movzbl	3(%rax,%rdx),%esi
	movb	%sil,(%rcx,%rdx)
	addq	$4,%rdx
	cmpq	%rdx,%r14
	jne	14b
	jmp	5b
4:
	movq	%rax,%rsi
	movq	%r14,%rdx
	movq	%r9,%rbx
	movq	%r10,%r15
	callq	memmove@PLT
	movl	4(%rsp),%r8d
	movq	120(%rsp),%r11
	movq	%r15,%r10
	movq	%rbx,%r9
	jmp	5b
10:
	rolb	$4,%r13b
	addb	%al,%r13b
	decb	%r13b
	movb	%r13b,(%r10,%r15)
	movl	$1,%r13d
	addq	%r15,%r13
	testl	%r14d,%r14d
	je	12f
11:
	cmpl	$1,%r14d
	jne	4f
	movb	$0,(%r10,%r13)
	jmp	10f
4:
	cmpb	$2,%al
	ja	4f
	movw	$0,(%r10,%r13)
	jmp	10f
13:
	cmpl	$32,%r14d
	jae	11f
	xorl	%ecx,%ecx
	jmp	13f
4:
	cmpb	$3,%al
	jne	12f
	movw	$0,(%r10,%r13)
	movb	$0,2(%r10,%r13)
	jmp	10f
12:
	leaq	(%r10,%r13),%rdi
	xorl	%esi,%esi
	movq	%r14,%rdx
	movq	%r9,24(%rsp)
	movq	%r10,%r15
	callq	memset@PLT
	movl	4(%rsp),%r8d
	movq	120(%rsp),%r11
	movq	%r15,%r10
	movq	24(%rsp),%r9
10:
	leaq	(%r14,%r13),%r15
	movq	128(%rsp),%rax
	movl	%r13d,-8(%rax,%rbx,8)
	movl	%r14d,-4(%rax,%rbx,8)
	jmp	6b
3:
	movzbl	%r8b,%edi
	movzbl	%r13b,%esi
	movq	%r14,%rdx
	movq	%rax,8(%rsp)
	movq	%r9,24(%rsp)
	movq	%r10,16(%rsp)
	movq	%r11,%rbx
	callq	"rtp_b236e5ea_rtp_route::walk::is_carried"
	movl	4(%rsp),%r8d
	movq	%rbx,%r11
	movq	16(%rsp),%r10
	movq	24(%rsp),%r9
	movl	%eax,%ecx
	movq	8(%rsp),%rax
	testb	%cl,%cl
	jne	9b
	jmp	8f
11:
	movq	%r14,%rcx
	andq	$-32,%rcx
	movq	40(%rsp),%rdx
	addq	%r13,%rdx
	xorl	%esi,%esi
	.p2align	4
3:
	movups	(%rax,%rsi),%xmm0
	movups	16(%rax,%rsi),%xmm1
	movups	%xmm0,-16(%rdx,%rsi)
	movups	%xmm1,(%rdx,%rsi)
	addq	$32,%rsi
	cmpq	%rsi,%rcx
	jne	3b
	cmpl	%ecx,%r14d
	je	5b
	testb	$28,%r14b
	je	7b
13:
	movq	%rcx,%rdx
	movq	%r14,%rcx
	andq	$-4,%rcx
	.p2align	4
3:
	movl	(%rax,%rdx),%esi
	movl	%esi,(%rdi,%rdx)
	addq	$4,%rdx
	cmpq	%rdx,%rcx
	jne	3b
	cmpl	%ecx,%r14d
	je	5b
	jmp	7b
3:
	leaq	(%r10,%r15),%rdi
	xorl	%esi,%esi
	movq	%r13,%rdx
	movq	%rax,8(%rsp)
	movq	%r9,%r14
	movq	%r10,16(%rsp)
	callq	memset@PLT
	movq	120(%rsp),%r11
	movq	16(%rsp),%r10
	movq	%r14,%r9
	movq	8(%rsp),%rax
4:
	movq	%r13,%rcx
	addq	%r15,%rcx
	movq	128(%rsp),%rdx
	movl	%r15d,-8(%rdx,%rbx,8)
	movl	%r13d,-4(%rdx,%rbx,8)
	movq	%rcx,%r15
	.p2align	4
5:
	addq	%rbp,%rax
1:
	testq	%r12,%r12
	je	2f
	movzbl	(%rax),%ecx
	testb	%cl,%cl
	jne	6f
	cmpq	$2,%r12
	je	7f
	cmpq	$1,%r12
	je	2f
	cmpq	$3,%r12
	ja	9f
	cmpb	$0,1(%rax)
	jne	9f
	cmpb	$0,2(%rax)
	jne	9f
	jmp	2f
7:
	cmpb	$0,1(%rax)
	je	2f
9:
	movq	%r11,%r13
	movq	%r10,%r14
	movq	%r9,%rbx
	decq	%r12
	incq	%rax
	movq	%rax,%rdi
	movq	%r12,%rsi
	callq	"rtp_b236e5ea_rtp_ext::elements::skip_zeros"
	testq	%rdx,%rdx
	je	2f
	movq	%rdx,%r12
	movzbl	(%rax),%ecx
	movq	%rbx,%r9
	movq	%r14,%r10
	movq	%r13,%r11
6:
	cmpb	$-17,%cl
	ja	2f
	movl	%ecx,%r13d
	andb	$15,%r13b
	leal	2(%r13),%edx
	movzbl	%dl,%ebp
	subq	%rbp,%r12
	jb	2f
	movzbl	%cl,%ecx
	shrl	$4,%ecx
	movzbl	(%r11,%rcx),%r14d
	testq	%r14,%r14
	je	5b
	leaq	-1(%rbp),%rdx
	cmpb	$15,%r14b
	jae	5f
6:
	movzbl	256(%r11,%r14),%ebx
	testq	%rbx,%rbx
	je	7f
	cmpb	%bl,546(%r11)
	jb	7f
	cmpb	%r14b,511(%r11,%rbx)
	jne	7f
	movq	128(%rsp),%rcx
	cmpl	$0,-8(%rcx,%rbx,8)
	jne	8f
	movzbl	527(%r11,%rbx),%r13d
	leaq	(%r15,%r13),%rcx
	addq	$2,%rcx
	cmpq	%rcx,%r9
	jb	8f
	rolb	$4,%r14b
	addb	%r13b,%r14b
	decb	%r14b
	movb	%r14b,(%r10,%r15)
	incq	%r15
	testl	%r13d,%r13d
	je	3b
	cmpl	$1,%r13d
	jne	9f
	movb	$0,(%r10,%r15)
	jmp	4b
	.p2align	4
7:
	leaq	(%r15,%rdx),%rcx
	addq	$2,%rcx
	cmpq	%rcx,%r9
	jb	8f
	leaq	1(%rax),%rsi
	rolb	$4,%r14b
	addb	%dl,%r14b
	decb	%r14b
	movb	%r14b,(%r10,%r15)
	leaq	1(%r15),%rdi
	cmpq	$1,%rdx
	jne	7f
	movzbl	(%rsi),%ecx
	movb	%cl,(%r10,%rdi)
	addq	%rbp,%r15
	addq	%rbp,%rax
	jmp	1b
7:
	cmpb	$1,%r13b
	ja	7f
	movzbl	1(%rax),%ecx
	movb	%cl,(%r10,%rdi)
	movzbl	2(%rax),%ecx
	movb	%cl,1(%r10,%rdi)
	addq	%rbp,%r15
	addq	%rbp,%rax
	jmp	1b
7:
	cmpl	$3,%edx
	jne	7f
	movzbl	1(%rax),%ecx
	movb	%cl,(%r10,%rdi)
	movzbl	2(%rax),%ecx
	movb	%cl,1(%r10,%rdi)
	movzbl	3(%rax),%ecx
	movb	%cl,2(%r10,%rdi)
	addq	%rbp,%r15
	addq	%rbp,%rax
	jmp	1b
7:
	addq	%r10,%rdi
	movq	%rdi,%rcx
	subq	%rsi,%rcx
	cmpq	%rdx,%rcx
	jae	7f
	cmpb	$2,%r13b
	jne	10f
	xorl	%ecx,%ecx
	jmp	11f
5:
	xorl	%edi,%edi
	movl	%r14d,%esi
	movq	%rax,8(%rsp)
	movq	%r9,24(%rsp)
	movq	%r10,16(%rsp)
	movq	%r11,%rbx
	callq	"rtp_b236e5ea_rtp_route::walk::is_carried"
	leaq	-1(%rbp),%rdx
	movq	%rbx,%r11
	movq	16(%rsp),%r10
	movq	24(%rsp),%r9
	movl	%eax,%ecx
	movq	8(%rsp),%rax
	testb	%cl,%cl
	jne	6b
	jmp	8f
7:
	movq	%rax,8(%rsp)
	movq	%r9,%r14
	movq	%r10,%r13
	movq	%r11,%rbx
	callq	memmove@PLT
	movq	%rbx,%r11
	movq	%r13,%r10
	movq	%r14,%r9
	movq	8(%rsp),%rax
	addq	%rbp,%r15
	addq	%rbp,%rax
	jmp	1b
9:
	cmpb	$2,%r13b
	ja	5f
	movw	$0,(%r10,%r15)
	jmp	4b
10:
	leaq	(%r15,%r10),%rcx
	subq	%rax,%rcx
	cmpq	$16,%rcx
	jae	6f
	xorl	%ecx,%ecx
	.p2align	4
11:
	movzbl	(%rsi,%rcx),%r8d
	movb	%r8b,(%rdi,%rcx)
	incq	%rcx
	cmpq	%rcx,%rdx
	jne	11b
7:
	addq	%rbp,%r15
	addq	%rbp,%rax
	jmp	1b
5:
	cmpl	$3,%r13d
	jne	3b
	movw	$0,(%r10,%r15)
	movb	$0,2(%r10,%r15)
	jmp	4b
6:
	cmpb	$15,%r13b
	jne	3f
	movups	(%rsi),%xmm0
	movups	%xmm0,(%rdi)
	addq	%rbp,%r15
	addq	%rbp,%rax
	jmp	1b
3:
	movq	%rdx,%rbx
	movq	%rdx,%rcx
	andq	$-4,%rcx
	xorl	%edx,%edx
1:
	movl	(%rsi,%rdx),%r8d
	movl	%r8d,(%rdi,%rdx)
	addq	$4,%rdx
	cmpq	%rdx,%rcx
	jne	1b
	movq	%rbx,%rdx
	cmpl	%ecx,%edx
	jne	11b
	jmp	7b
2:
	movb	$1,%al
1:
	movq	%r15,%rdx
	addq	$56,%rsp
	.cfi_def_cfa_offset 56
	popq	%rbx
	.cfi_def_cfa_offset 48
	popq	%r12
	.cfi_def_cfa_offset 40
	popq	%r13
	.cfi_def_cfa_offset 32
	popq	%r14
	.cfi_def_cfa_offset 24
	popq	%r15
	.cfi_def_cfa_offset 16
	popq	%rbp
	.cfi_def_cfa_offset 8
	retq
8:
	.cfi_def_cfa_offset 112
	xorl	%eax,%eax
	xorl	%r15d,%r15d
	jmp	1b
	.size	"rtp_b236e5ea_rtp_route::walk::write_kept::<#82187cbc7fdfa14b>", .-"rtp_b236e5ea_rtp_route::walk::write_kept::<#82187cbc7fdfa14b>"
	.cfi_endproc

	.section	".text.unlikely.rtp_route::walk::is_carried","ax",@progbits
	.p2align	4
	.type	"rtp_b236e5ea_rtp_route::walk::is_carried",@function
"rtp_b236e5ea_rtp_route::walk::is_carried":
	.cfi_startproc
	testb	%dil,%dil
	je	1f
	testb	%sil,%sil
	setne	%cl
	cmpq	$256,%rdx
	setb	%al
	andb	%cl,%al
	retq
1:
	decb	%sil
	cmpb	$14,%sil
	setb	%cl
	decq	%rdx
	cmpq	$16,%rdx
	setb	%al
	andb	%cl,%al
	retq
	.size	"rtp_b236e5ea_rtp_route::walk::is_carried", .-"rtp_b236e5ea_rtp_route::walk::is_carried"
	.cfi_endproc

	.section	".text.rtp_route::copying::put_any","ax",@progbits
	.p2align	4
	.type	"rtp_b236e5ea_rtp_route::copying::put_any",@function
"rtp_b236e5ea_rtp_route::copying::put_any":
	.cfi_startproc
	movq	%rdi,%rax
	subq	%rsi,%rax
	cmpq	%rdx,%rax
	jae	memmove@PLT
	cmpq	$4,%rdx
	setb	%cl
	cmpq	$32,%rax
	setb	%al
	orb	%cl,%al
	je	1f
	xorl	%eax,%eax
	jmp	2f
1:
	cmpq	$32,%rdx
	jae	1f
	xorl	%eax,%eax
	jmp	3f
1:
	movq	%rdx,%rax
	andq	$-32,%rax
	xorl	%ecx,%ecx
	.p2align	4
1:
	movups	(%rsi,%rcx),%xmm0
	movups	16(%rsi,%rcx),%xmm1
	movups	%xmm0,(%rdi,%rcx)
	movups	%xmm1,16(%rdi,%rcx)
	addq	$32,%rcx
	cmpq	%rcx,%rax
	jne	1b
	cmpq	%rax,%rdx
	je	1f
	testb	$28,%dl
	je	2f
3:
	movq	%rax,%rcx
	movq	%rdx,%rax
	andq	$-4,%rax
	.p2align	4
3:
	movl	(%rsi,%rcx),%r8d
	movl	%r8d,(%rdi,%rcx)
	addq	$4,%rcx
	cmpq	%rcx,%rax
	jne	3b
	cmpq	%rax,%rdx
	je	1f
2:
	movq	%rdx,%r8
	movq	%rax,%rcx
	andq	$3,%r8
	je	2f
	movq	%rax,%rcx
	.p2align	4
3:
	movzbl	(%rsi,%rcx),%r9d
	movb	%r9b,(%rdi,%rcx)
	incq	%rcx
	decq	%r8
	jne	3b
2:
	subq	%rdx,%rax
	cmpq	$-4,%rax
	ja	1f
	.p2align	4
2:
	movzbl	(%rsi,%rcx),%eax
	movb	%al,(%rdi,%rcx)
	movzbl	1(%rsi,%rcx),%eax
	movb	%al,1(%rdi,%rcx)
	movzbl	2(%rsi,%rcx),%eax
	movb	%al,2(%rdi,%rcx)
	movzbl	3(%rsi,%rcx),%eax
	movb	%al,3(%rdi,%rcx)
	addq	$4,%rcx
	cmpq	%rcx,%rdx
	jne	2b
1:
	retq
	.size	"rtp_b236e5ea_rtp_route::copying::put_any", .-"rtp_b236e5ea_rtp_route::copying::put_any"
	.cfi_endproc

	.section	.rodata.cst16,"aM",@progbits,16
	.p2align	4,0x0
.Lrtp_b236e5ea_CPI42_0:
	.short	14
	.short	14
	.short	14
	.short	14
	.short	14
	.short	14
	.short	14
	.short	14
	.section	".text.unlikely.rtp_route::by_walk::write_in_two_byte_form::<#82187cbc7fdfa14b>","ax",@progbits
	.p2align	4
	.type	"rtp_b236e5ea_rtp_route::by_walk::write_in_two_byte_form::<#82187cbc7fdfa14b>",@function
"rtp_b236e5ea_rtp_route::by_walk::write_in_two_byte_form::<#82187cbc7fdfa14b>":
	.cfi_startproc
	pushq	%rbp
	.cfi_def_cfa_offset 16
	pushq	%r15
	.cfi_def_cfa_offset 24
	pushq	%r14
	.cfi_def_cfa_offset 32
	pushq	%r13
	.cfi_def_cfa_offset 40
	pushq	%r12
	.cfi_def_cfa_offset 48
	pushq	%rbx
	.cfi_def_cfa_offset 56
	subq	$376,%rsp
	.cfi_def_cfa_offset 432
	.cfi_offset %rbx,-56
	.cfi_offset %r12,-48
	.cfi_offset %r13,-40
	.cfi_offset %r14,-32
	.cfi_offset %r15,-24
	.cfi_offset %rbp,-16
	movq	%rdi,%rbx
	cmpb	$1,24(%rsi)
	jne	1f
	movq	%r9,%r12
	movq	%r8,48(%rsp)
	movq	(%rsi),%r14
	movq	16(%rsi),%r15
	movzbl	25(%rsi),%ebp
	movzbl	(%rdx),%eax
	movb	%al,43(%rsp)
	movzbl	1(%rdx),%eax
	movb	%al,41(%rsp)
	movzbl	2(%rdx),%eax
	movb	%al,37(%rsp)
	movzbl	3(%rdx),%eax
	movb	%al,42(%rsp)
	movzbl	4(%rdx),%eax
	movb	%al,38(%rsp)
	movzwl	6(%rdx),%eax
	movw	%ax,46(%rsp)
	movzbl	8(%rdx),%eax
	movb	%al,39(%rsp)
	movl	12(%rdx),%eax
	movl	%eax,76(%rsp)
	movzbl	16(%rdx),%eax
	movb	%al,40(%rsp)
	movl	20(%rdx),%eax
	movl	%eax,80(%rsp)
	movzbl	(%r14),%r13d
	movq	%rcx,64(%rsp)
	leaq	1(%rcx),%rsi
	movb	$0,120(%rsp)
	leaq	121(%rsp),%rdi
	movl	$255,%edx
	callq	memcpy@PLT
	cmpl	$1,%ebp
	je	1f
	testl	%ebp,%ebp
	jne	2f
	pmovzxbw	120(%rsp),%xmm0
	pcmpgtw	.Lrtp_b236e5ea_CPI42_0(%rip),%xmm0
	pmovmskb	%xmm0,%eax
	testl	%eax,%eax
	jne	2f
	pmovzxbw	127(%rsp),%xmm0
	pcmpgtw	.Lrtp_b236e5ea_CPI42_0(%rip),%xmm0
	pmovmskb	%xmm0,%eax
	testl	%eax,%eax
	je	1f
2:
	andl	$15,%r13d
	leaq	16(,%r13,4),%rcx
	leaq	(%r14,%r13,4),%rax
	addq	$16,%rax
	movq	%r15,%rdx
	subq	%rcx,%rdx
2:
	testq	%rdx,%rdx
	je	1f
	movzbl	(%rax),%ecx
	testb	%cl,%cl
	jne	3f
	cmpq	$2,%rdx
	je	4f
	cmpq	$1,%rdx
	je	1f
	cmpq	$3,%rdx
	ja	5f
	cmpb	$0,1(%rax)
	jne	5f
	cmpb	$0,2(%rax)
	jne	5f
	jmp	1f
4:
	cmpb	$0,1(%rax)
	je	1f
5:
	decq	%rdx
	incq	%rax
	movq	%rax,%rdi
	movq	%rdx,%rsi
	callq	"rtp_b236e5ea_rtp_ext::elements::skip_zeros"
	testq	%rdx,%rdx
	je	1f
	movzbl	(%rax),%ecx
3:
	cmpb	$-17,%cl
	ja	1f
	movl	%ecx,%esi
	andb	$15,%sil
	addb	$2,%sil
	movzbl	%sil,%esi
	subq	%rsi,%rdx
	jb	1f
	movzbl	%cl,%ecx
	shrl	$4,%ecx
	addq	%rsi,%rax
	cmpb	$15,120(%rsp,%rcx)
	jb	2b
	pxor	%xmm0,%xmm0
	movq	432(%rsp),%r13
	movdqu	%xmm0,112(%r13)
	movdqu	%xmm0,96(%r13)
	movdqu	%xmm0,80(%r13)
	movdqu	%xmm0,64(%r13)
	movdqu	%xmm0,48(%r13)
	movdqu	%xmm0,32(%r13)
	movdqu	%xmm0,16(%r13)
	cmpq	$262140,%r12
	movl	$262140,%esi
	cmovbq	%r12,%rsi
	movdqu	%xmm0,(%r13)
	leaq	3(,%r15,2),%rax
	movq	%rsi,%rdx
	subq	%rax,%rdx
	jb	2f
	movq	64(%rsp),%rax
	movzbl	546(%rax),%ecx
	movzwl	544(%rax),%edi
	leaq	(%rdi,%rcx,2),%rdi
	cmpq	%rdi,%rdx
	jb	2f
	movzbl	(%r14),%edi
	testb	%cl,%cl
	je	3f
	cmpb	$1,547(%rax)
	je	2f
3:
	shll	$2,%edi
	andl	$60,%edi
	leaq	16(%rdi),%rdx
	movq	%rdi,96(%rsp)
	leaq	(%r14,%rdi),%r9
	addq	$16,%r9
	subq	%rdx,%r15
	movq	%r13,16(%rsp)
	movq	%rax,8(%rsp)
	movq	%r15,(%rsp)
	movq	48(%rsp),%rdi
	movq	%rsi,56(%rsp)
	movq	%rdx,88(%rsp)
	movl	%ebp,%ecx
	movl	$1,%r8d
	callq	"rtp_b236e5ea_rtp_route::walk::write_kept::<#82187cbc7fdfa14b>"
	cmpb	$1,%al
	jne	2f
	movq	64(%rsp),%rax
	movzbl	546(%rax),%r10d
	testq	%r10,%r10
	je	3f
	xorl	%r15d,%r15d
	movq	48(%rsp),%rdi
	movq	56(%rsp),%r8
	movq	%r10,104(%rsp)
	jmp	4f
1:
	pxor	%xmm0,%xmm0
	movdqu	%xmm0,(%rbx)
	movw	$0,16(%rbx)
1:
	addq	$376,%rsp
	.cfi_def_cfa_offset 56
	popq	%rbx
	.cfi_def_cfa_offset 48
	popq	%r12
	.cfi_def_cfa_offset 40
	popq	%r13
	.cfi_def_cfa_offset 32
	popq	%r14
	.cfi_def_cfa_offset 24
	popq	%r15
	.cfi_def_cfa_offset 16
	popq	%rbp
	.cfi_def_cfa_offset 8
	retq
5:
	.cfi_def_cfa_offset 432
	movq	%rdx,%r9
	incq	%r15
	cmpq	%r15,%r10
	je	6f
4:
	cmpl	$0,(%r13,%r15,8)
	jne	5b
	movzbl	528(%rax,%r15),%ecx
	movzbl	%cl,%r12d
	leaq	(%rdx,%r12),%r9
	addq	$2,%r9
	cmpq	%r9,%r8
	jb	2f
	leaq	2(%rdx),%r13
	movzbl	512(%rax,%r15),%esi
	movb	%sil,(%rdi,%rdx)
	movb	%r12b,1(%rdi,%rdx)
	testl	%r12d,%r12d
	je	5f
	cmpl	$1,%r12d
	jne	7f
	movb	$0,(%rdi,%r13)
	jmp	8f
7:
	cmpb	$2,%cl
	ja	7f
	movw	$0,(%rdi,%r13)
	jmp	8f
7:
	cmpb	$3,%cl
	jne	5f
	movw	$0,(%rdi,%r13)
	movb	$0,2(%rdi,%r13)
	jmp	8f
5:
	addq	%r13,%rdi
	xorl	%esi,%esi
	movq	%r12,%rdx
	movq	%r9,112(%rsp)
	callq	memset@PLT
	movq	104(%rsp),%r10
	movq	112(%rsp),%r9
	movq	56(%rsp),%r8
	movq	64(%rsp),%rax
	movq	48(%rsp),%rdi
8:
	movq	432(%rsp),%rcx
	movl	%r13d,(%rcx,%r15,8)
	movq	%rcx,%r13
	movl	%r12d,4(%rcx,%r15,8)
	movq	%r9,%rdx
	incq	%r15
	cmpq	%r15,%r10
	jne	4b
	jmp	6f
3:
	movq	%rdx,%r9
	movq	48(%rsp),%rdi
	movq	56(%rsp),%r8
6:
	leaq	3(%r9),%r12
	andq	$-4,%r12
	cmpq	%r12,%r8
	jae	3f
2:
	xorl	%r12d,%r12d
	xorl	%eax,%eax
2:
	movzbl	%al,%eax
	movq	%rax,(%rbx)
	movq	%r12,8(%rbx)
	movb	%al,16(%rbx)
	movb	%al,17(%rbx)
	jmp	1b
3:
	movq	%r12,%rax
	subq	%r9,%rax
	je	1f
	cmpq	$2,%rax
	je	3f
	cmpq	$1,%rax
	jne	4f
	movb	$0,(%rdi,%r9)
	jmp	1f
4:
	movb	$0,2(%rdi,%r9)
3:
	movw	$0,(%rdi,%r9)
1:
	movq	96(%rsp),%rax
	cmpb	$33,%al
	jb	1f
	movq	%r14,%rsi
	movq	88(%rsp),%r14
	movq	%r14,%rdx
	callq	"rtp_b236e5ea_rtp_route::copying::put_any"
	movq	48(%rsp),%rdi
	movzbl	40(%rsp),%r8d
	movzbl	39(%rsp),%r9d
	movzbl	38(%rsp),%r10d
	movzbl	37(%rsp),%r11d
	jmp	3f
1:
	movups	(%r14),%xmm0
	movups	%xmm0,(%rdi)
	cmpb	$17,%al
	jb	1f
	movups	16(%r14),%xmm0
	movups	%xmm0,16(%rdi)
1:
	movq	96(%rsp),%rax
	movdqu	(%r14,%rax),%xmm0
	movdqu	%xmm0,(%rdi,%rax)
	movzbl	40(%rsp),%r8d
	movzbl	39(%rsp),%r9d
	movzbl	38(%rsp),%r10d
	movzbl	37(%rsp),%r11d
	movq	88(%rsp),%r14
3:
	movq	%r12,%rax
	subq	%r14,%rax
	cmpl	$1,%ebp
	je	1f
	movw	$16,44(%rsp)
	leaq	(%rdi,%r14),%rcx
	addq	$-4,%rcx
	leaq	44(%rsp),%rdx
	movq	%rcx,%rsi
	subq	%rdx,%rsi
	cmpq	$1,%rsi
	ja	3f
	movzwl	44(%rsp),%edx
	movw	%dx,(%rcx)
	jmp	1f
3:
	movw	$16,(%rcx)
1:
	movl	%eax,%ecx
	shrl	$10,%ecx
	andl	$-4,%eax
	shll	$6,%eax
	movzbl	%cl,%ecx
	orl	%eax,%ecx
	movw	%cx,86(%rsp)
	movw	%cx,-2(%rdi,%r14)
	cmpb	$1,43(%rsp)
	je	1f
	cmpb	$1,%r11b
	je	3f
4:
	cmpb	$1,%r10b
	je	5f
6:
	cmpb	$1,%r9b
	je	7f
8:
	movb	$1,%al
	cmpb	$1,%r8b
	jne	2b
	jmp	9f
1:
	movzbl	41(%rsp),%ecx
	shlb	$7,%cl
	movzbl	1(%rdi),%eax
	andb	$127,%al
	orb	%cl,%al
	movb	%al,1(%rdi)
	cmpb	$1,%r11b
	jne	4b
3:
	movzbl	1(%rdi),%eax
	andb	$-128,%al
	addb	42(%rsp),%al
	movb	%al,1(%rdi)
	cmpb	$1,%r10b
	jne	6b
5:
	movzwl	46(%rsp),%eax
	rolw	$8,%ax
	movw	%ax,2(%rdi)
	cmpb	$1,%r9b
	jne	8b
7:
	movl	76(%rsp),%eax
	bswapl	%eax
	movl	%eax,4(%rdi)
	movb	$1,%al
	cmpb	$1,%r8b
	jne	2b
9:
	movl	80(%rsp),%ecx
	bswapl	%ecx
	movl	%ecx,8(%rdi)
	jmp	2b
	.size	"rtp_b236e5ea_rtp_route::by_walk::write_in_two_byte_form::<#82187cbc7fdfa14b>", .-"rtp_b236e5ea_rtp_route::by_walk::write_in_two_byte_form::<#82187cbc7fdfa14b>"
	.cfi_endproc

	.section	".text.unlikely.rtp_route::making::make_by_calls_of::<#82187cbc7fdfa14b>","ax",@progbits
	.p2align	4
	.type	"rtp_b236e5ea_rtp_route::making::make_by_calls_of::<#82187cbc7fdfa14b>",@function
"rtp_b236e5ea_rtp_route::making::make_by_calls_of::<#82187cbc7fdfa14b>":
	.cfi_startproc
	pushq	%rbp
	.cfi_def_cfa_offset 16
	pushq	%r15
	.cfi_def_cfa_offset 24
	pushq	%r14
	.cfi_def_cfa_offset 32
	pushq	%r13
	.cfi_def_cfa_offset 40
	pushq	%r12
	.cfi_def_cfa_offset 48
	pushq	%rbx
	.cfi_def_cfa_offset 56
	subq	$392,%rsp
	.cfi_def_cfa_offset 448
	.cfi_offset %rbx,-56
	.cfi_offset %r12,-48
	.cfi_offset %r13,-40
	.cfi_offset %r14,-32
	.cfi_offset %r15,-24
	.cfi_offset %rbp,-16
	movq	%r9,16(%rsp)
	movq	%r8,%r12
	movq	%rcx,24(%rsp)
	movq	%rdx,%rbp
	movq	%rsi,%r13
	movq	%rdi,%rbx
	movq	16(%rsi),%r14
	movzbl	24(%rsi),%r15d
	movzbl	25(%rsi),%eax
	movb	%al,15(%rsp)
	xorps	%xmm0,%xmm0
	movaps	%xmm0,48(%rsp)
	movaps	%xmm0,32(%rsp)
	movq	$0,88(%rsp)
	movq	$0,120(%rsp)
	leaq	1(%rdx),%rsi
	leaq	137(%rsp),%rdi
	movl	$255,%edx
	callq	memcpy@PLT
	movb	$0,136(%rsp)
	movzbl	547(%rbp),%eax
	testl	%eax,%eax
	je	1f
	cmpl	$1,%eax
	jne	2f
	xorl	%ecx,%ecx
	jmp	3f
1:
	movl	%eax,%ecx
	jmp	3f
2:
	movb	$1,%al
	movb	$1,%cl
3:
	movq	16(%rsp),%r9
	movq	%r12,%r8
	movq	24(%rsp),%r12
	movzbl	15(%rsp),%esi
	leaq	136(%rsp),%rdx
	movq	%rdx,72(%rsp)
	movq	%rbp,80(%rsp)
	movb	%al,88(%rsp)
	movb	%cl,89(%rsp)
	movups	(%r13),%xmm0
	movaps	%xmm0,96(%rsp)
	movq	%r14,112(%rsp)
	movb	%r15b,120(%rsp)
	movb	%sil,121(%rsp)
	leaq	32(%rsp),%rdi
	leaq	96(%rsp),%rsi
	leaq	72(%rsp),%rdx
	movq	%r12,%rcx
	callq	"rtp_b236e5ea_rtp_route::making::make_by_calls::<#7cdc9bd62dfc103a>"
	movzbl	32(%rsp),%eax
	movq	%rax,(%rbx)
	movq	40(%rsp),%rax
	movq	%rax,8(%rbx)
	movzbl	48(%rsp),%eax
	movb	%al,16(%rbx)
	movzbl	49(%rsp),%eax
	movb	%al,17(%rbx)
	movq	56(%rsp),%rax
	movq	%rax,24(%rbx)
	addq	$392,%rsp
	.cfi_def_cfa_offset 56
	popq	%rbx
	.cfi_def_cfa_offset 48
	popq	%r12
	.cfi_def_cfa_offset 40
	popq	%r13
	.cfi_def_cfa_offset 32
	popq	%r14
	.cfi_def_cfa_offset 24
	popq	%r15
	.cfi_def_cfa_offset 16
	popq	%rbp
	.cfi_def_cfa_offset 8
	retq
	.size	"rtp_b236e5ea_rtp_route::making::make_by_calls_of::<#82187cbc7fdfa14b>", .-"rtp_b236e5ea_rtp_route::making::make_by_calls_of::<#82187cbc7fdfa14b>"
	.cfi_endproc

	.section	".text.unlikely.rtp_route::making::make_by_calls::<#7cdc9bd62dfc103a>","ax",@progbits
	.p2align	4
	.type	"rtp_b236e5ea_rtp_route::making::make_by_calls::<#7cdc9bd62dfc103a>",@function
"rtp_b236e5ea_rtp_route::making::make_by_calls::<#7cdc9bd62dfc103a>":
	.cfi_startproc
	pushq	%rbp
	.cfi_def_cfa_offset 16
	pushq	%r15
	.cfi_def_cfa_offset 24
	pushq	%r14
	.cfi_def_cfa_offset 32
	pushq	%r13
	.cfi_def_cfa_offset 40
	pushq	%r12
	.cfi_def_cfa_offset 48
	pushq	%rbx
	.cfi_def_cfa_offset 56
	subq	$408,%rsp
	.cfi_def_cfa_offset 464
	.cfi_offset %rbx,-56
	.cfi_offset %r12,-48
	.cfi_offset %r13,-40
	.cfi_offset %r14,-32
	.cfi_offset %r15,-24
	.cfi_offset %rbp,-16
	movq	%r8,%r12
	movq	%rdx,%r14
	movq	%rsi,%rax
	movq	(%rsi),%rsi
	movq	16(%rax),%rdx
	movzbl	24(%rax),%r13d
	movzbl	25(%rax),%ebp
	xorps	%xmm0,%xmm0
	movaps	%xmm0,224(%rsp)
	movaps	%xmm0,208(%rsp)
	movaps	%xmm0,272(%rsp)
	movaps	%xmm0,288(%rsp)
	movaps	%xmm0,304(%rsp)
	movaps	%xmm0,320(%rsp)
	movaps	%xmm0,336(%rsp)
	movaps	%xmm0,352(%rsp)
	movaps	%xmm0,368(%rsp)
	movaps	%xmm0,384(%rsp)
	movaps	%xmm0,240(%rsp)
	movl	$3,%r8d
	cmpq	%rdx,%r12
	jae	1f
	movb	$8,%cl
	xorl	%eax,%eax
	jmp	2f
1:
	movq	%rcx,%r15
	leaq	-49(%rdx),%rax
	cmpq	$-34,%rax
	movq	%rdx,40(%rsp)
	movq	%r9,264(%rsp)
	movq	%rdi,48(%rsp)
	ja	1f
	movq	%r15,%rdi
	callq	"rtp_b236e5ea_rtp_route::copying::put_any"
	movq	40(%rsp),%rdx
	jmp	3f
1:
	movups	(%rsi),%xmm0
	movups	%xmm0,(%r15)
	cmpq	$33,%rdx
	jb	1f
	movups	16(%rsi),%xmm0
	movups	%xmm0,16(%r15)
1:
	movups	-16(%rsi,%rdx),%xmm0
	movups	%xmm0,-16(%r15,%rdx)
3:
	movq	(%r14),%rax
	movzbl	16(%r14),%ebx
	movzbl	17(%r14),%ecx
	movb	%cl,39(%rsp)
	movq	$0,104(%rsp)
	movq	%r15,80(%rsp)
	movq	%rdx,88(%rsp)
	movq	%rdx,96(%rsp)
	movb	%r13b,104(%rsp)
	movq	%rax,%r13
	movb	%bpl,105(%rsp)
	leaq	80(%rsp),%rdi
	movq	%rax,%rsi
	callq	"rtp_b236e5ea_rtp_wire::packet::rtp_packet_mut::RtpPacketMut::renumber"
	testb	%al,%al
	je	1f
3:
	xorps	%xmm0,%xmm0
	movaps	%xmm0,80(%rsp)
	movq	$0,96(%rsp)
	movq	8(%r14),%r13
	movzbl	546(%r13),%ebp
	testq	%rbp,%rbp
	je	4f
	xorl	%ebx,%ebx
	movq	40(%rsp),%rcx
	.p2align	4
5:
	movzbl	528(%r13,%rbx),%eax
	movzbl	512(%r13,%rbx),%r8d
	movzbl	16(%r14),%edx
	movzbl	17(%r14),%esi
	movl	%esi,16(%rsp)
	movl	%edx,8(%rsp)
	movq	%rax,(%rsp)
	leaq	.Lrtp_b236e5ea_static.8(%rip),%r9
	leaq	80(%rsp),%rdi
	movq	%r15,%rsi
	movq	%r12,%rdx
	callq	"rtp_b236e5ea_rtp_wire::packet::putting::put_element_copy::<=1>"
	movq	88(%rsp),%rcx
	cmpb	$0,80(%rsp)
	jne	6f
	incq	%rbx
	cmpq	%rbx,%rbp
	jne	5b
	jmp	5f
1:
	cmpb	$1,%bl
	jne	1f
	cmpb	$0,39(%rsp)
	jne	1f
	xorl	%ecx,%ecx
	movl	$2,%r8d
	xorl	%eax,%eax
	xorl	%edx,%edx
7:
	movq	48(%rsp),%rdi
	jmp	2f
4:
	movq	40(%rsp),%rcx
5:
	leaq	240(%rsp),%rdi
	movq	%r15,%rsi
	movq	%rcx,%rdx
	callq	"rtp_b236e5ea_rtp_wire::packet::compacting::compact_copy::<=1>"
	cmpb	$0,240(%rsp)
	jne	4f
	movq	248(%rsp),%r12
	cmpq	$12,%r12
	jb	4f
	movzbl	(%r15),%edx
	cmpb	$-65,%dl
	jg	4f
	movl	%edx,%eax
	andl	$15,%eax
	leaq	12(,%rax,4),%rax
	movq	%r12,%rcx
	subq	%rax,%rcx
	jb	4f
	testb	$16,%dl
	jne	5f
	xorl	%r13d,%r13d
	xorl	%ebp,%ebp
	jmp	8f
5:
	cmpq	$4,%rcx
	jb	4f
	movzwl	2(%r15,%rax),%edx
	rolw	$8,%dx
	addq	$-4,%rcx
	movzwl	%dx,%edx
	shll	$2,%edx
	cmpq	%rdx,%rcx
	jb	4f
	movzwl	(%r15,%rax),%ecx
	movl	%ecx,%esi
	andl	$61695,%esi
	xorl	%ebp,%ebp
	cmpw	$16,%si
	sete	%bpl
	cmpl	$57022,%ecx
	movl	$1,%r13d
	cmovnel	%ebp,%r13d
	addq	%rdx,%rax
	addq	$4,%rax
8:
	movq	%r15,208(%rsp)
	movq	%r12,216(%rsp)
	movq	%rax,224(%rsp)
	movb	%r13b,232(%rsp)
	movb	%bpl,233(%rsp)
	movq	8(%r14),%r14
	movl	$0,64(%rsp)
	movq	$0,56(%rsp)
	xorps	%xmm0,%xmm0
	movaps	%xmm0,80(%rsp)
	movaps	%xmm0,96(%rsp)
	movaps	%xmm0,112(%rsp)
	movaps	%xmm0,128(%rsp)
	movaps	%xmm0,144(%rsp)
	movaps	%xmm0,160(%rsp)
	movaps	%xmm0,176(%rsp)
	movaps	%xmm0,192(%rsp)
	movzbl	546(%r14),%ebx
	testq	%rbx,%rbx
	je	5f
	xorl	%r15d,%r15d
	.p2align	4
8:
	movzbl	512(%r14,%r15),%edx
	leaq	56(%rsp),%rdi
	leaq	208(%rsp),%rsi
	callq	"rtp_b236e5ea_rtp_route::slots::slot_of"
	cmpb	$1,56(%rsp)
	jne	4f
	movq	60(%rsp),%rax
	movq	%rax,80(%rsp,%r15,8)
	incq	%r15
	cmpq	%r15,%rbx
	jne	8b
5:
	movaps	192(%rsp),%xmm0
	movaps	%xmm0,384(%rsp)
	movaps	176(%rsp),%xmm0
	movaps	%xmm0,368(%rsp)
	movaps	160(%rsp),%xmm1
	movaps	%xmm1,352(%rsp)
	movaps	144(%rsp),%xmm2
	movaps	%xmm2,336(%rsp)
	movaps	80(%rsp),%xmm3
	movaps	96(%rsp),%xmm4
	movaps	112(%rsp),%xmm5
	movaps	128(%rsp),%xmm6
	movaps	%xmm6,320(%rsp)
	movaps	%xmm5,304(%rsp)
	movaps	%xmm4,288(%rsp)
	movaps	%xmm3,272(%rsp)
	movq	264(%rsp),%rax
	movups	%xmm0,96(%rax)
	movups	%xmm1,80(%rax)
	movups	%xmm2,64(%rax)
	movups	%xmm6,48(%rax)
	movups	%xmm5,32(%rax)
	movups	%xmm4,16(%rax)
	movups	%xmm3,(%rax)
	movaps	384(%rsp),%xmm0
	movups	%xmm0,112(%rax)
	movq	48(%rsp),%rax
	movq	$0,(%rax)
	movq	%r12,8(%rax)
	movb	%r13b,16(%rax)
	movb	%bpl,17(%rax)
	movq	$0,24(%rax)
	jmp	5f
6:
	movl	%ecx,%eax
	movq	96(%rsp),%rdx
	shrl	$8,%eax
	movq	48(%rsp),%rdi
	movl	$3,%r8d
2:
	movq	$1,(%rdi)
	movq	%r8,8(%rdi)
	movb	%cl,16(%rdi)
	movb	%al,17(%rdi)
	movq	%rdx,24(%rdi)
5:
	addq	$408,%rsp
	.cfi_def_cfa_offset 56
	popq	%rbx
	.cfi_def_cfa_offset 48
	popq	%r12
	.cfi_def_cfa_offset 40
	popq	%r13
	.cfi_def_cfa_offset 32
	popq	%r14
	.cfi_def_cfa_offset 24
	popq	%r15
	.cfi_def_cfa_offset 16
	popq	%rbp
	.cfi_def_cfa_offset 8
	retq
1:
	.cfi_def_cfa_offset 464
	leaq	56(%rsp),%rdi
	movq	%r15,%rsi
	movq	%r12,%rdx
	movq	40(%rsp),%rcx
	callq	"rtp_b236e5ea_rtp_route::in_place::change_form"
	movq	64(%rsp),%rcx
	cmpb	$0,56(%rsp)
	je	1f
	movl	%ecx,%eax
	movq	72(%rsp),%rdx
	shrl	$8,%eax
	movl	$3,%r8d
	jmp	7b
1:
	movq	$257,104(%rsp)
	movq	%r15,80(%rsp)
	movq	%rcx,88(%rsp)
	movq	%rcx,40(%rsp)
	movq	%rcx,96(%rsp)
	leaq	80(%rsp),%rdi
	movq	%r13,%rsi
	callq	"rtp_b236e5ea_rtp_wire::packet::rtp_packet_mut::RtpPacketMut::renumber"
	jmp	3b
4:
	ud2
	.size	"rtp_b236e5ea_rtp_route::making::make_by_calls::<#7cdc9bd62dfc103a>", .-"rtp_b236e5ea_rtp_route::making::make_by_calls::<#7cdc9bd62dfc103a>"
	.cfi_endproc

	.section	".text.unlikely.rtp_route::in_place::change_form","ax",@progbits
	.p2align	4
	.type	"rtp_b236e5ea_rtp_route::in_place::change_form",@function
"rtp_b236e5ea_rtp_route::in_place::change_form":
	.cfi_startproc
	pushq	%rbx
	.cfi_def_cfa_offset 16
	subq	$64,%rsp
	.cfi_def_cfa_offset 80
	.cfi_offset %rbx,-16
	movq	%rdi,%rbx
	xorps	%xmm0,%xmm0
	movaps	%xmm0,(%rsp)
	movq	$0,16(%rsp)
	movq	%rsi,24(%rsp)
	movq	%rdx,32(%rsp)
	movq	%rcx,40(%rsp)
	movq	%rcx,48(%rsp)
	movb	$1,56(%rsp)
	movl	$0,57(%rsp)
	movl	$0,60(%rsp)
	movq	%rsp,%rdi
	leaq	24(%rsp),%rsi
	movl	$1,%edx
	callq	"rtp_b236e5ea_rtp_wire::packet::rtp_packet_buf::RtpPacketBuf::change_form"
	xorl	%eax,%eax
	xorl	%ecx,%ecx
	cmpb	$0,(%rsp)
	movzwl	8(%rsp),%edx
	cmoveq	40(%rsp),%rdx
	cmovneq	16(%rsp),%rax
	setne	%cl
	movq	%rcx,(%rbx)
	movq	%rdx,8(%rbx)
	movq	%rax,16(%rbx)
	addq	$64,%rsp
	.cfi_def_cfa_offset 16
	popq	%rbx
	.cfi_def_cfa_offset 8
	retq
	.size	"rtp_b236e5ea_rtp_route::in_place::change_form", .-"rtp_b236e5ea_rtp_route::in_place::change_form"
	.cfi_endproc

	.section	".text.rtp_wire::packet::putting::put_element_copy::<=1>","ax",@progbits
	.p2align	4
	.type	"rtp_b236e5ea_rtp_wire::packet::putting::put_element_copy::<=1>",@function
"rtp_b236e5ea_rtp_wire::packet::putting::put_element_copy::<=1>":
	.cfi_startproc
	cmpq	%rcx,%rdx
	jae	1f
	movq	$1,(%rdi)
	xorps	%xmm0,%xmm0
	movups	%xmm0,8(%rdi)
	retq
1:
	pushq	%rbp
	.cfi_def_cfa_offset 16
	pushq	%r15
	.cfi_def_cfa_offset 24
	pushq	%r14
	.cfi_def_cfa_offset 32
	pushq	%r13
	.cfi_def_cfa_offset 40
	pushq	%r12
	.cfi_def_cfa_offset 48
	pushq	%rbx
	.cfi_def_cfa_offset 56
	subq	$200,%rsp
	.cfi_def_cfa_offset 256
	.cfi_offset %rbx,-56
	.cfi_offset %r12,-48
	.cfi_offset %r13,-40
	.cfi_offset %r14,-32
	.cfi_offset %r15,-24
	.cfi_offset %rbp,-16
	testb	%r8b,%r8b
	je	1f
	movq	256(%rsp),%rbx
	movl	$2,%eax
	cmpq	$255,%rbx
	ja	2f
	movl	$3,%r10d
	cmpq	$12,%rcx
	jb	3f
	movzbl	(%rsi),%r12d
	movl	$259,%r10d
	cmpb	$-65,%r12b
	jg	3f
	leal	(,%r12,4),%eax
	andl	$60,%eax
	leaq	12(%rax),%r13
	movl	$515,%r10d
	movq	%rcx,%r11
	subq	%r13,%r11
	jae	4f
3:
	movq	$1,(%rdi)
	movq	%r10,8(%rdi)
	jmp	5f
1:
	movl	$1,%eax
2:
	movq	$1,(%rdi)
	movq	%rax,8(%rdi)
5:
	movq	$0,16(%rdi)
1:
	addq	$200,%rsp
	.cfi_def_cfa_offset 56
	popq	%rbx
	.cfi_def_cfa_offset 48
	popq	%r12
	.cfi_def_cfa_offset 40
	popq	%r13
	.cfi_def_cfa_offset 32
	popq	%r14
	.cfi_def_cfa_offset 24
	popq	%r15
	.cfi_def_cfa_offset 16
	popq	%rbp
	.cfi_def_cfa_offset 8
	retq
4:
	.cfi_def_cfa_offset 256
	leaq	(%rsi,%r13),%r15
	testb	$16,%r12b
	jne	2f
	movq	%r12,128(%rsp)
	movq	%r15,%r12
	xorl	%ebp,%ebp
	movq	%r13,%r14
4:
	leaq	-1(%rbx),%r10
	cmpq	$16,%r10
	movzbl	%bpl,%r15d
	movl	$1,%r11d
	movl	$1,%r10d
	movl	%r15d,116(%rsp)
	cmovbl	%r15d,%r10d
	cmpb	$15,%r8b
	cmovael	%r11d,%r10d
	cmpb	$0,264(%rsp)
	je	6f
	movb	$1,%r11b
	cmpb	$1,272(%rsp)
	je	7f
	testb	%r10b,%r10b
	je	8f
	xorl	%r10d,%r10d
	cmpb	$15,%r8b
	movl	$0,%eax
	adcq	$5,%rax
	jmp	9f
2:
	movl	$771,%r10d
	cmpq	$4,%r11
	jb	3b
	addq	$-4,%r11
	movzwl	2(%r15),%r10d
	rolw	$8,%r10w
	movzwl	%r10w,%r14d
	shll	$2,%r14d
	movl	$1027,%r10d
	cmpq	%r14,%r11
	jb	3b
	movq	%r12,128(%rsp)
	movq	%r15,%r12
	movzwl	(%r15),%r11d
	movl	%r11d,%r10d
	andl	$61695,%r10d
	cmpw	$16,%r10w
	sete	%bpl
	addq	%r13,%r14
	addq	$4,%r14
	cmpl	$57022,%r11d
	je	4b
	cmpw	$16,%r10w
	je	4b
	xorl	%r10d,%r10d
	movl	$4,%eax
	jmp	9f
6:
	movl	%r10d,%r11d
	jmp	7f
8:
	xorl	%r11d,%r11d
7:
	testb	$16,128(%rsp)
	movl	%r11d,52(%rsp)
	movq	%r13,160(%rsp)
	movq	%r14,152(%rsp)
	movq	%r12,144(%rsp)
	jne	2f
	leaq	(%rsi,%r14),%rax
	movq	%rax,136(%rsp)
	xorl	%r15d,%r15d
	movq	$0,96(%rsp)
	movq	$0,88(%rsp)
	xorl	%r14d,%r14d
	movq	$0,64(%rsp)
	movq	$0,104(%rsp)
	xorl	%r13d,%r13d
3:
	movb	$1,%al
	xorl	%ebp,%ebp
	movq	%r14,%r10
	jmp	4f
2:
	movzbl	%al,%eax
	leaq	(%rsi,%rax),%r11
	addq	$16,%r11
	addq	$16,%rax
	subq	%rax,%r14
	testb	%bpl,%bpl
	movq	%rdx,24(%rsp)
	movl	%ebp,48(%rsp)
	movq	%r14,104(%rsp)
	movq	%r11,136(%rsp)
	je	2f
	testq	%r14,%r14
	je	6f
	movq	$0,64(%rsp)
	movq	$0,8(%rsp)
	movq	$0,80(%rsp)
	movq	%r14,%r10
	movq	$0,88(%rsp)
	movq	$0,40(%rsp)
	movq	$0,96(%rsp)
	movl	%r8d,20(%rsp)
	movq	%rcx,120(%rsp)
7:
	movq	%r10,%rbp
8:
	cmpb	$0,(%r11)
	je	10f
	movq	%rbp,%r10
	movq	%r11,%rax
	jmp	11f
10:
	cmpq	$2,%rbp
	je	10f
	cmpq	$1,%rbp
	je	12f
	cmpq	$3,%rbp
	ja	13f
	cmpb	$0,1(%r11)
	jne	13f
	cmpb	$0,2(%r11)
	jne	13f
	jmp	14f
10:
	cmpb	$0,1(%r11)
	je	10f
13:
	movq	%rsi,%r15
	movq	%r9,%r13
	movq	%rdi,%r14
	leaq	-1(%rbp),%rsi
	incq	%r11
	movq	%r11,%rdi
	callq	"rtp_b236e5ea_rtp_ext::elements::skip_zeros"
	testq	%rdx,%rdx
	je	13f
	movq	%rdx,%r10
	movq	%r14,%rdi
	movq	%r13,%r9
	movq	%r15,%rsi
	movq	120(%rsp),%rcx
	movl	20(%rsp),%r8d
	movq	24(%rsp),%rdx
11:
	cmpq	$2,%r10
	jb	12f
	movzbl	1(%rax),%r14d
	leaq	2(%r14),%r11
	subq	%r11,%r10
	jb	12f
	addq	%rax,%r11
	cmpb	%r8b,(%rax)
	je	11f
	movq	8(%rsp),%rax
	addq	%r14,%rax
	addq	$2,%rax
	movq	%rax,8(%rsp)
	movq	%r10,%rbp
	testq	%r10,%r10
	jne	8b
	jmp	8f
11:
	incq	80(%rsp)
	movq	104(%rsp),%r15
	subq	%r10,%r15
	movq	%r15,%rax
	subq	%r14,%rax
	movq	%rax,40(%rsp)
	negq	%r14
	movq	%r15,88(%rsp)
	leaq	(%r15,%r14),%rax
	addq	$-2,%rax
	movq	%rax,96(%rsp)
	movb	$1,%al
	movq	%rax,64(%rsp)
	xorl	%ebp,%ebp
	testq	%r10,%r10
	jne	7b
	jmp	12f
2:
	testq	%r14,%r14
	je	6f
	movq	$0,64(%rsp)
	movq	%r11,%r13
	movq	$0,8(%rsp)
	movq	$0,80(%rsp)
	movq	%r14,%r15
	movq	$0,88(%rsp)
	movq	$0,40(%rsp)
	movq	$0,96(%rsp)
	movq	%rdi,32(%rsp)
	movq	%rcx,120(%rsp)
	movq	%rsi,56(%rsp)
2:
	movq	8(%rsp),%rbp
7:
	movzbl	(%r13),%r10d
	leal	16(%r10),%eax
	cmpb	$32,%al
	jae	11f
	testb	%r10b,%r10b
	je	15f
	movq	%r15,%rax
	jmp	16f
11:
	movzbl	%r10b,%r11d
	andl	$15,%r11d
	addq	$2,%r11
	movq	%r15,%rax
	subq	%r11,%rax
	jae	11f
	movq	%r15,%rax
	jmp	17f
15:
	cmpq	$2,%r15
	je	15f
	cmpq	$1,%r15
	je	18f
	cmpq	$3,%r15
	ja	19f
	cmpb	$0,1(%r13)
	jne	19f
	cmpb	$0,2(%r13)
	jne	19f
	jmp	20f
15:
	cmpb	$0,1(%r13)
	je	15f
19:
	movl	%r8d,20(%rsp)
	movq	%r9,72(%rsp)
	leaq	-1(%r15),%rsi
	incq	%r13
	movq	%r13,%rdi
	callq	"rtp_b236e5ea_rtp_ext::elements::skip_zeros"
	testq	%rdx,%rdx
	je	19f
	movq	%rax,%r13
	movq	%rdx,%rax
	movzbl	(%r13),%r10d
	movq	32(%rsp),%rdi
	movq	72(%rsp),%r9
	movq	56(%rsp),%rsi
	movq	120(%rsp),%rcx
	movl	20(%rsp),%r8d
	movq	24(%rsp),%rdx
16:
	cmpb	$-17,%r10b
	ja	18f
	movl	%r10d,%r11d
	andb	$15,%r11b
	addb	$2,%r11b
	movzbl	%r11b,%r11d
17:
	subq	%r11,%rax
	jb	18f
11:
	addq	%r11,%r13
	movq	%rax,%r15
	shrb	$4,%r10b
	cmpb	%r8b,%r10b
	je	11f
	testb	%r10b,%r10b
	je	16f
	addq	%r11,%rbp
	testq	%r15,%r15
	jne	7b
	jmp	17f
16:
	movq	80(%rsp),%rdi
	movq	%r9,%r14
	movq	%rbp,8(%rsp)
	movl	%r8d,%ebp
	callq	"rtp_b236e5ea_rtp_ext::survey::one_more"
	movq	24(%rsp),%rdx
	movl	%ebp,%r8d
	movq	8(%rsp),%rbp
	movq	120(%rsp),%rcx
	movq	56(%rsp),%rsi
	movq	%r14,%r9
	movq	32(%rsp),%rdi
	movq	%rax,80(%rsp)
	testq	%r15,%r15
	jne	7b
	jmp	17f
11:
	movq	%rbp,8(%rsp)
	incq	80(%rsp)
	movq	104(%rsp),%r10
	subq	%r15,%r10
	movq	%r10,%rax
	subq	%r11,%rax
	movq	%rax,96(%rsp)
	negq	%r11
	movq	%r10,88(%rsp)
	leaq	(%r10,%r11),%rax
	incq	%rax
	movq	%rax,40(%rsp)
	movb	$1,%al
	movq	%rax,64(%rsp)
	xorl	%ebp,%ebp
	testq	%r15,%r15
	jne	2b
	jmp	12f
6:
	movq	$0,96(%rsp)
	movq	$0,40(%rsp)
	movq	$0,88(%rsp)
	movq	$0,64(%rsp)
	movq	$0,80(%rsp)
	movq	$0,8(%rsp)
	xorl	%ebp,%ebp
	jmp	12f
10:
	movl	$2,%ebp
	jmp	12f
14:
	movl	$3,%ebp
	jmp	12f
18:
	movq	%rbp,8(%rsp)
	movq	%r15,%rbp
	jmp	12f
15:
	movq	%rbp,8(%rsp)
	movl	$2,%ebp
	jmp	12f
20:
	movq	%rbp,8(%rsp)
	movl	$3,%ebp
	jmp	12f
17:
	movq	%rbp,8(%rsp)
8:
	xorl	%ebp,%ebp
12:
	movq	64(%rsp),%rax
	cmpb	$1,%al
	sete	%r15b
	movl	52(%rsp),%r10d
	movl	48(%rsp),%r11d
	cmpb	%r10b,%r11b
	sete	%r13b
	jne	2f
	cmpb	$1,%al
	jne	2f
	cmpq	$1,80(%rsp)
	jne	2f
	movq	88(%rsp),%rax
	subq	40(%rsp),%rax
	cmpq	%rbx,%rax
	jne	2f
	movq	144(%rsp),%r11
	addq	$4,%r11
	testq	%rbx,%rbx
	je	6f
	cmpl	$1,%ebx
	jne	7f
	movzbl	(%r9),%eax
	movq	40(%rsp),%rdx
	movb	%al,(%r11,%rdx)
	movq	%rcx,%r9
	jmp	8f
2:
	movq	104(%rsp),%rax
	subq	%rbp,%rax
	movq	%rax,64(%rsp)
	cmpb	%r11b,%r10b
	je	2f
	movq	8(%rsp),%r14
	testq	%r14,%r14
	je	3b
	movzbl	%r10b,%eax
	movzbl	%r8b,%r10d
	movq	%rdi,32(%rsp)
	movl	116(%rsp),%edi
	movq	%rsi,56(%rsp)
	movl	%eax,%esi
	movq	136(%rsp),%rdx
	movq	%rcx,%rbp
	movq	64(%rsp),%rcx
	movl	%r8d,%r14d
	movl	%r10d,%r8d
	movq	%r15,%r13
	movq	%r9,%r15
	callq	"rtp_b236e5ea_rtp_ext::form_change::row_len"
	movl	%r14d,%r8d
	movq	%rbp,%rcx
	movq	8(%rsp),%r14
	movq	56(%rsp),%rsi
	movl	48(%rsp),%r11d
	movq	%r15,%r9
	movq	%r13,%r15
	movq	32(%rsp),%rdi
	movq	%rdx,%r10
	movq	24(%rsp),%rdx
	movb	$1,%bpl
	xorl	%r13d,%r13d
4:
	cmpb	$1,%al
	jne	4f
	movl	%ebp,116(%rsp)
	movq	%r13,8(%rsp)
	movl	%r11d,48(%rsp)
	cmpb	$1,52(%rsp)
	movl	$2,%r13d
	sbbq	$0,%r13
	addq	%rbx,%r13
	leaq	(%r10,%r13),%rbp
	addq	$3,%rbp
	andq	$-4,%rbp
	movq	104(%rsp),%rax
	cmpq	%rbp,%rax
	cmovaq	%rax,%rbp
	cmpq	$262140,%rbp
	ja	10f
	movq	%r15,136(%rsp)
	movq	160(%rsp),%r11
	leaq	(%r11,%rbp),%rax
	movq	%rcx,%r10
	movq	152(%rsp),%r15
	subq	%r15,%r10
	addq	%rax,%r10
	addq	$4,%r10
	movl	$8,%eax
	cmpq	%r10,%rdx
	jb	9f
	movq	%r10,24(%rsp)
	movl	%r8d,20(%rsp)
	movq	%r9,72(%rsp)
	movq	%rdi,32(%rsp)
	leaq	(%r11,%rbp),%rax
	addq	$4,%rax
	movq	%rsi,56(%rsp)
	movq	%rsi,%rdi
	movq	%r15,%rsi
	movq	%rcx,%rdx
	movq	%rax,%rcx
	callq	"rtp_b236e5ea_rtp_wire::packet::resizing::move_bytes"
	movl	52(%rsp),%edi
	movl	%ebp,%eax
	shrl	$10,%eax
	movl	%ebp,%ecx
	andl	$-4,%ecx
	shll	$6,%ecx
	orl	%eax,%ecx
	movq	144(%rsp),%rdx
	movw	%cx,2(%rdx)
	cmpb	$0,8(%rsp)
	jne	11f
	movq	56(%rsp),%rax
	orb	$16,(%rax)
	testb	%dil,%dil
	movl	$57022,%eax
	movl	$16,%ecx
	cmovel	%eax,%ecx
	movw	%cx,(%rdx)
11:
	leaq	4(%rdx),%rax
	movq	%rax,8(%rsp)
	movq	104(%rsp),%r8
	testq	%r8,%r8
	movq	72(%rsp),%rsi
	movl	20(%rsp),%eax
	movq	136(%rsp),%rcx
	je	11f
	testb	%cl,%cl
	movq	96(%rsp),%r10
	movq	64(%rsp),%r11
	cmoveq	%r11,%r10
	movq	88(%rsp),%r15
	cmoveq	%r11,%r15
	subq	%r10,%r14
	addq	%r15,%r14
	cmpq	%r11,%r14
	jne	14f
	subq	%r15,%r11
	movl	48(%rsp),%r14d
	jmp	15f
10:
	movl	$7,%eax
10:
	xorl	%r10d,%r10d
9:
	movq	$1,(%rdi)
	movq	%rax,8(%rdi)
	movq	%r10,16(%rdi)
	jmp	1b
2:
	movq	8(%rsp),%r14
	jmp	3b
11:
	testb	%dil,%dil
	movq	32(%rsp),%rdi
	je	1f
	movb	%bl,5(%rdx)
	movl	$2,%ecx
	jmp	2f
14:
	movl	48(%rsp),%r14d
	movzbl	%r14b,%edi
	movzbl	%al,%r9d
	movq	8(%rsp),%rsi
	movq	%r10,%rdx
	movq	%r15,%rcx
	callq	"rtp_b236e5ea_rtp_ext::gathering::gather_around"
	movq	%rax,%r10
	movq	%rdx,%r11
15:
	cmpb	$0,116(%rsp)
	je	3f
	movzbl	%r14b,%edi
	movq	8(%rsp),%r14
	movq	%r14,%rsi
	movq	%rbp,%rdx
	movq	%r10,%rcx
	movq	%r15,%r8
	movq	%r11,%r9
	callq	"rtp_b236e5ea_rtp_ext::form_change::change_rows"
	movq	%rax,%r10
	movq	%rdx,%r11
	movq	%rax,%r15
	movq	72(%rsp),%rax
	movl	20(%rsp),%ecx
	movl	52(%rsp),%edx
	jmp	9f
3:
	movq	72(%rsp),%rax
	movl	20(%rsp),%ecx
	movl	52(%rsp),%edx
	movq	8(%rsp),%r14
9:
	movq	$1,168(%rsp)
	movb	%cl,176(%rsp)
	movl	$0,177(%rsp)
	movl	$0,180(%rsp)
	movq	%rax,184(%rsp)
	movq	%rbx,192(%rsp)
	movzbl	%dl,%edi
	leaq	168(%rsp),%r9
	movq	%r14,%rsi
	movq	%r10,%rdx
	movq	%r15,%rcx
	movq	%r11,%r8
	callq	"rtp_b236e5ea_rtp_ext::rewriting::put_between"
	subq	%rax,%rbp
	movq	32(%rsp),%rdi
	movq	24(%rsp),%r9
	jbe	8f
	cmpq	$4,%rbp
	ja	3f
	leaq	9f(%rip),%rcx
	movslq	(%rcx,%rbp,4),%rdx
	addq	%rcx,%rdx
	jmpq	*%rdx
11:
	movb	$0,(%r14,%rax)
	jmp	8f
4:
	movzbl	%r11b,%eax
	movq	%rdi,%rbx
	movl	%eax,%edi
	movq	136(%rsp),%rsi
	movq	104(%rsp),%rdx
	callq	"rtp_b236e5ea_rtp_wire::packet::rewriting::has_long_id"
	movq	%rbx,%rdi
	movzbl	%al,%ecx
	movl	$6,%eax
	subq	%rcx,%rax
	jmp	10b
7:
	cmpq	$2,%rbx
	ja	4f
	movzbl	(%r9),%eax
	movq	40(%rsp),%rdx
	movb	%al,(%r11,%rdx)
	movzbl	1(%r9),%eax
	movb	%al,1(%r11,%rdx)
	movq	%rcx,%r9
	jmp	8f
1:
	rolb	$4,%al
	addb	%bl,%al
	decb	%al
	movl	$1,%ecx
2:
	movq	24(%rsp),%r9
	movq	8(%rsp),%r14
	movb	%al,(%r14)
	testb	%bl,%bl
	je	1f
	movzbl	%bl,%eax
	cmpl	$1,%eax
	jne	2f
	movzbl	(%rsi),%eax
	movb	%al,(%r14,%rcx)
	jmp	7f
2:
	cmpq	$2,%rbx
	ja	2f
	movzbl	(%rsi),%eax
	movb	%al,(%r14,%rcx)
	movzbl	1(%rsi),%eax
	movb	%al,1(%r14,%rcx)
	jmp	7f
4:
	cmpq	$3,%rbx
	jne	6f
	movzbl	(%r9),%eax
	movq	40(%rsp),%rdx
	movb	%al,(%r11,%rdx)
	movzbl	1(%r9),%eax
	movb	%al,1(%r11,%rdx)
	movzbl	2(%r9),%eax
	movb	%al,2(%r11,%rdx)
	movq	%rcx,%r9
	jmp	8f
6:
	addq	40(%rsp),%r11
	movq	%r11,%rax
	subq	%r9,%rax
	cmpq	%rbx,%rax
	jae	4f
	cmpq	$4,%rbx
	jae	6f
	movq	%rsi,%rax
	jmp	10f
4:
	movq	%rdi,%r14
	movq	%r11,%rdi
	movq	%r9,%rsi
	movq	%rbx,%rdx
	movq	%rcx,%rbx
	callq	memmove@PLT
	movq	%r14,%rdi
	movq	%rbx,%r9
	jmp	8f
6:
	movq	%rsi,%rax
	movq	40(%rsp),%rdx
	addq	%rsi,%rdx
	movq	128(%rsp),%rsi
	leal	(,%rsi,4),%r10d
	andl	$60,%r10d
	addq	%r10,%rdx
	subq	%r9,%rdx
	addq	$16,%rdx
	cmpq	$32,%rdx
	jae	4f
10:
	xorl	%edx,%edx
6:
	movq	%rbx,%r8
	movq	%rdx,%rsi
	andq	$3,%r8
	je	10f
	movq	%rdx,%rsi
14:
	movzbl	(%r9,%rsi),%r10d
	movb	%r10b,(%r11,%rsi)
	incq	%rsi
	decq	%r8
	jne	14b
10:
	subq	%rbx,%rdx
	cmpq	$-4,%rdx
	ja	10f
	movq	128(%rsp),%r8
	andl	$15,%r8d
	movq	40(%rsp),%rdx
	leaq	(%rdx,%r8,4),%rdx
	addq	%rdx,%rax
	addq	$19,%rax
14:
	movzbl	(%r9,%rsi),%edx
	movb	%dl,-3(%rax,%rsi)
	movzbl	1(%r9,%rsi),%edx
	movb	%dl,-2(%rax,%rsi)
	movzbl	2(%r9,%rsi),%edx
	movb	%dl,-1(%rax,%rsi)
	movzbl	3(%r9,%rsi),%edx
	movb	%dl,(%rax,%rsi)
	addq	$4,%rsi
	cmpq	%rsi,%rbx
	jne	14b
10:
	movq	%rcx,%r9
	jmp	8f
2:
	cmpq	$3,%rbx
	jne	1f
	movzbl	(%rsi),%eax
	movb	%al,(%r14,%rcx)
	movzbl	1(%rsi),%eax
	movb	%al,1(%r14,%rcx)
	movzbl	2(%rsi),%eax
	movb	%al,2(%r14,%rcx)
	jmp	7f
1:
	leaq	(%r14,%rcx),%rax
	movq	%rax,%rdx
	subq	%rsi,%rdx
	cmpq	%rbx,%rdx
	jae	1f
	cmpq	$4,%rbx
	jae	2f
	xorl	%edx,%edx
	jmp	14f
1:
	movq	%rax,%rdi
	movq	%rbx,%rdx
	callq	memmove@PLT
	movq	24(%rsp),%r9
	movq	32(%rsp),%rdi
	jmp	7f
1:
	movl	$0,(%r14,%rax)
	jmp	8f
15:
	movw	$0,(%r14,%rax)
	jmp	8f
16:
	movb	$0,2(%r14,%rax)
	movw	$0,(%r14,%rax)
	jmp	8f
3:
	movq	%rbp,%rbx
	addq	%rax,%r14
	jmp	3f
2:
	movq	56(%rsp),%rdx
	addq	%rcx,%rdx
	movq	128(%rsp),%rdi
	leal	(,%rdi,4),%edi
	andl	$60,%edi
	addq	%rdi,%rdx
	subq	%rsi,%rdx
	addq	$16,%rdx
	cmpq	$32,%rdx
	jae	2f
	xorl	%edx,%edx
	movq	32(%rsp),%rdi
	movq	72(%rsp),%rsi
	movq	8(%rsp),%r14
	jmp	14f
13:
	movq	%r14,%rdi
	movq	%r13,%r9
	movq	%r15,%rsi
	jmp	13f
4:
	movq	%rcx,%r8
	movq	%rdi,%rsi
	cmpq	$32,%rbx
	jae	4f
	xorl	%edx,%edx
	jmp	17f
2:
	cmpq	$32,%rbx
	jae	2f
	xorl	%edx,%edx
	movq	72(%rsp),%rsi
	jmp	18f
19:
	movq	%rbp,8(%rsp)
	movq	%r15,%rbp
	movq	32(%rsp),%rdi
	movq	72(%rsp),%r9
	movq	56(%rsp),%rsi
13:
	movq	120(%rsp),%rcx
	movl	20(%rsp),%r8d
	movq	24(%rsp),%rdx
	jmp	12b
4:
	movl	%ebx,%edx
	andl	$224,%edx
	addq	40(%rsp),%r10
	leaq	(%rax,%r10),%rcx
	addq	$32,%rcx
	xorl	%edi,%edi
	movq	%r9,%r10
4:
	movups	(%r10,%rdi),%xmm0
	movups	16(%r10,%rdi),%xmm1
	movups	%xmm0,-16(%rcx,%rdi)
	movups	%xmm1,(%rcx,%rdi)
	addq	$32,%rdi
	cmpq	%rdi,%rdx
	jne	4b
	cmpq	%rdx,%rbx
	jne	4f
	movq	%r8,%r9
	movq	%rsi,%rdi
	jmp	8f
2:
	movl	%ebx,%edx
	andl	$224,%edx
	addq	%rcx,%rdi
	movq	56(%rsp),%rsi
	addq	%rsi,%rdi
	addq	$32,%rdi
	xorl	%r8d,%r8d
	movq	72(%rsp),%rsi
2:
	movups	(%rsi,%r8),%xmm0
	movups	16(%rsi,%r8),%xmm1
	movups	%xmm0,-16(%rdi,%r8)
	movups	%xmm1,(%rdi,%r8)
	addq	$32,%r8
	cmpq	%r8,%rdx
	jne	2b
	cmpq	%rdx,%rbx
	movq	32(%rsp),%rdi
	movq	24(%rsp),%r9
	movq	8(%rsp),%r14
	je	7f
	testb	$28,%bl
	je	14f
18:
	movq	%rdx,%rdi
	movl	%ebx,%edx
	andl	$252,%edx
2:
	movl	(%rsi,%rdi),%r8d
	movl	%r8d,(%rax,%rdi)
	addq	$4,%rdi
	cmpq	%rdi,%rdx
	jne	2b
	cmpq	%rdx,%rbx
	movq	32(%rsp),%rdi
	movq	24(%rsp),%r9
	movq	8(%rsp),%r14
	je	7f
14:
	movq	%rbx,%r9
	movq	%rdx,%r8
	andq	$3,%r9
	je	2f
	movq	%rdx,%r8
12:
	movzbl	(%rsi,%r8),%r10d
	movb	%r10b,(%rax,%r8)
	incq	%r8
	decq	%r9
	jne	12b
2:
	subq	%rbx,%rdx
	cmpq	$-4,%rdx
	movq	24(%rsp),%r9
	ja	7f
	movq	128(%rsp),%rax
	andl	$15,%eax
	leaq	(%rcx,%rax,4),%rax
	movq	56(%rsp),%rcx
	addq	%rcx,%rax
	addq	$19,%rax
2:
	movzbl	(%rsi,%r8),%ecx
	movb	%cl,-3(%rax,%r8)
	movzbl	1(%rsi,%r8),%ecx
	movb	%cl,-2(%rax,%r8)
	movzbl	2(%rsi,%r8),%ecx
	movb	%cl,-1(%rax,%r8)
	movzbl	3(%rsi,%r8),%ecx
	movb	%cl,(%rax,%r8)
	addq	$4,%r8
	cmpq	%r8,%rbx
	jne	2b
7:
	subq	%r13,%rbp
	jbe	8f
	cmpq	$4,%rbp
	ja	2f
	leaq	7f(%rip),%rax
	movslq	(%rax,%rbp,4),%rcx
	addq	%rax,%rcx
	jmpq	*%rcx
12:
	movb	$0,(%r14,%r13)
	jmp	8f
13:
	movl	$0,(%r14,%r13)
	jmp	8f
14:
	movw	$0,(%r14,%r13)
	jmp	8f
18:
	movb	$0,2(%r14,%r13)
	movw	$0,(%r14,%r13)
	jmp	8f
2:
	movq	%rbp,%rbx
	addq	%r13,%r14
3:
	decq	%rbp
	movq	%r14,%rdi
	xorl	%esi,%esi
	movq	%rbp,%rdx
	callq	memset@PLT
	movq	24(%rsp),%r9
	movq	32(%rsp),%rdi
	movb	$0,-1(%rbx,%r14)
8:
	movq	$0,(%rdi)
	movq	%r9,8(%rdi)
	jmp	5b
4:
	testb	$28,%bl
	movq	%rsi,%rdi
	movq	%r8,%rcx
	je	6b
17:
	movq	%rdx,%rcx
	movl	%ebx,%edx
	andl	$252,%edx
2:
	movl	(%r9,%rcx),%edi
	movl	%edi,(%r11,%rcx)
	addq	$4,%rcx
	cmpq	%rcx,%rdx
	jne	2b
	cmpq	%rdx,%rbx
	movq	%rsi,%rdi
	movq	%r8,%rcx
	jne	6b
	jmp	10b
	.size	"rtp_b236e5ea_rtp_wire::packet::putting::put_element_copy::<=1>", .-"rtp_b236e5ea_rtp_wire::packet::putting::put_element_copy::<=1>"
	.cfi_endproc
	.section	".rodata.rtp_wire::packet::putting::put_element_copy::<=1>","a",@progbits
	.p2align	2,0x0
9:
	.long	8b-9b
	.long	11b-9b
	.long	15b-9b
	.long	16b-9b
	.long	1b-9b
7:
	.long	8b-7b
	.long	12b-7b
	.long	14b-7b
	.long	18b-7b
	.long	13b-7b

	.section	".text.rtp_wire::packet::compacting::compact_copy::<=1>","ax",@progbits
	.p2align	4
	.type	"rtp_b236e5ea_rtp_wire::packet::compacting::compact_copy::<=1>",@function
"rtp_b236e5ea_rtp_wire::packet::compacting::compact_copy::<=1>":
	.cfi_startproc
	pushq	%rbp
	.cfi_def_cfa_offset 16
	pushq	%r15
	.cfi_def_cfa_offset 24
	pushq	%r14
	.cfi_def_cfa_offset 32
	pushq	%r13
	.cfi_def_cfa_offset 40
	pushq	%r12
	.cfi_def_cfa_offset 48
	pushq	%rbx
	.cfi_def_cfa_offset 56
	pushq	%rax
	.cfi_def_cfa_offset 64
	.cfi_offset %rbx,-56
	.cfi_offset %r12,-48
	.cfi_offset %r13,-40
	.cfi_offset %r14,-32
	.cfi_offset %r15,-24
	.cfi_offset %rbp,-16
	cmpq	$12,%rdx
	jae	1f
	xorl	%ecx,%ecx
	jmp	2f
1:
	movzbl	(%rsi),%eax
	movb	$1,%cl
	cmpb	$-65,%al
	jg	2f
	movl	%eax,%ecx
	andl	$15,%ecx
	leaq	12(,%rcx,4),%rbp
	movb	$2,%cl
	movq	%rdx,%r8
	subq	%rbp,%r8
	jae	1f
2:
	movb	$1,(%rdi)
	movb	%cl,1(%rdi)
	movq	$0,8(%rdi)
3:
	addq	$8,%rsp
	.cfi_def_cfa_offset 56
	popq	%rbx
	.cfi_def_cfa_offset 48
	popq	%r12
	.cfi_def_cfa_offset 40
	popq	%r13
	.cfi_def_cfa_offset 32
	popq	%r14
	.cfi_def_cfa_offset 24
	popq	%r15
	.cfi_def_cfa_offset 16
	popq	%rbp
	.cfi_def_cfa_offset 8
	retq
1:
	.cfi_def_cfa_offset 64
	testb	$16,%al
	jne	1f
4:
	movw	$0,(%rdi)
	movq	%rdx,8(%rdi)
	jmp	3b
1:
	movb	$3,%cl
	cmpq	$4,%r8
	jb	2b
	addq	$-4,%r8
	movzwl	2(%rsi,%rbp),%eax
	rolw	$8,%ax
	movzwl	%ax,%eax
	shll	$2,%eax
	movb	$4,%cl
	cmpq	%rax,%r8
	jb	2b
	movzwl	(%rsi,%rbp),%ecx
	movl	%ecx,%r8d
	andl	$61695,%r8d
	cmpl	$57022,%ecx
	je	1f
	cmpw	$16,%r8w
	jne	4b
1:
	xorl	%ecx,%ecx
	cmpw	$16,%r8w
	sete	%cl
	leaq	(%rax,%rbp),%rbx
	addq	$4,%rbx
	leaq	4(%rsi,%rbp),%r8
	movq	%rdi,(%rsp)
	movl	%ecx,%edi
	movq	%rsi,%r15
	movq	%r8,%rsi
	movq	%rdx,%r14
	movq	%rax,%rdx
	callq	"rtp_b236e5ea_rtp_ext::gathering::compact_body"
	movq	%rax,%r12
	addq	$3,%r12
	movq	%r12,%rax
	andq	$-4,%rax
	leaq	(%rax,%rbp),%r13
	addq	$4,%r13
	movq	%r15,%rdi
	movq	%rbx,%rsi
	movq	%r14,%rdx
	movq	%r13,%rcx
	callq	"rtp_b236e5ea_rtp_wire::packet::resizing::move_bytes"
	movl	%r12d,%eax
	shrl	$10,%eax
	andl	$-4,%r12d
	shll	$6,%r12d
	movzbl	%al,%eax
	orl	%r12d,%eax
	movw	%ax,2(%r15,%rbp)
	subq	%rbx,%r14
	addq	%r13,%r14
	movq	(%rsp),%rax
	movw	$0,(%rax)
	movq	%r14,8(%rax)
	jmp	3b
	.size	"rtp_b236e5ea_rtp_wire::packet::compacting::compact_copy::<=1>", .-"rtp_b236e5ea_rtp_wire::packet::compacting::compact_copy::<=1>"
	.cfi_endproc

	.section	".text.rtp_route::slots::slot_of","ax",@progbits
	.p2align	4
	.type	"rtp_b236e5ea_rtp_route::slots::slot_of",@function
"rtp_b236e5ea_rtp_route::slots::slot_of":
	.cfi_startproc
	cmpb	$1,24(%rsi)
	jne	1f
	pushq	%rbp
	.cfi_def_cfa_offset 16
	pushq	%r15
	.cfi_def_cfa_offset 24
	pushq	%r14
	.cfi_def_cfa_offset 32
	pushq	%r13
	.cfi_def_cfa_offset 40
	pushq	%r12
	.cfi_def_cfa_offset 48
	pushq	%rbx
	.cfi_def_cfa_offset 56
	pushq	%rax
	.cfi_def_cfa_offset 64
	.cfi_offset %rbx,-56
	.cfi_offset %r12,-48
	.cfi_offset %r13,-40
	.cfi_offset %r14,-32
	.cfi_offset %r15,-24
	.cfi_offset %rbp,-16
	movq	(%rsi),%rax
	movq	16(%rsi),%rbx
	movzbl	(%rax),%ecx
	andl	$15,%ecx
	leaq	16(,%rcx,4),%r8
	leaq	(%rax,%rcx,4),%rax
	addq	$16,%rax
	movq	%rbx,%r14
	subq	%r8,%r14
	cmpb	$0,25(%rsi)
	je	2f
	testq	%r14,%r14
	je	3f
	movq	$0,(%rsp)
	movq	%r14,%rsi
	xorl	%r15d,%r15d
	xorl	%r12d,%r12d
4:
	cmpb	$0,(%rax)
	je	5f
	movq	%rax,%rcx
	cmpq	$2,%rsi
	jae	6f
	jmp	7f
	.p2align	4
5:
	cmpq	$2,%rsi
	je	5f
	cmpq	$1,%rsi
	je	7f
	cmpq	$3,%rsi
	ja	8f
	cmpb	$0,1(%rax)
	jne	8f
	cmpb	$0,2(%rax)
	jne	8f
	jmp	7f
5:
	cmpb	$0,1(%rax)
	je	7f
8:
	movl	%edx,%r13d
	movq	%rdi,%rbp
	decq	%rsi
	incq	%rax
	movq	%rax,%rdi
	callq	"rtp_b236e5ea_rtp_ext::elements::skip_zeros"
	testq	%rdx,%rdx
	je	5f
	movq	%rax,%rcx
	movq	%rdx,%rsi
	movq	%rbp,%rdi
	movl	%r13d,%edx
	cmpq	$2,%rsi
	jb	7f
6:
	movzbl	1(%rcx),%r8d
	leaq	2(%r8),%rax
	subq	%rax,%rsi
	jb	7f
	addq	%rcx,%rax
	cmpb	%dl,(%rcx)
	je	6f
	testq	%rsi,%rsi
	jne	4b
	jmp	7f
6:
	movq	%r14,%r15
	subq	%rsi,%r15
	movq	%r15,%r12
	subq	%r8,%r12
	movb	$1,%cl
	movq	%rcx,(%rsp)
	testq	%rsi,%rsi
	jne	4b
	jmp	4f
1:
	.cfi_def_cfa_offset 8
	.cfi_restore %rbx
	.cfi_restore %rbp
	.cfi_restore %r12
	.cfi_restore %r13
	.cfi_restore %r14
	.cfi_restore %r15
	movl	$0,(%rdi)
	movq	$0,4(%rdi)
	retq
2:
	.cfi_def_cfa_offset 64
	.cfi_offset %rbx,-56
	.cfi_offset %rbp,-16
	.cfi_offset %r12,-48
	.cfi_offset %r13,-40
	.cfi_offset %r14,-32
	.cfi_offset %r15,-24
	testq	%r14,%r14
	je	3f
	movq	$0,(%rsp)
	movq	%r14,%rsi
	xorl	%r15d,%r15d
	xorl	%r12d,%r12d
1:
	movzbl	(%rax),%ecx
	testb	%cl,%cl
	jne	2f
	cmpq	$2,%rsi
	je	6f
	cmpq	$1,%rsi
	je	7f
	cmpq	$3,%rsi
	ja	8f
	cmpb	$0,1(%rax)
	jne	8f
	cmpb	$0,2(%rax)
	jne	8f
	jmp	7f
6:
	cmpb	$0,1(%rax)
	je	7f
8:
	movl	%edx,%r13d
	movq	%rdi,%rbp
	decq	%rsi
	incq	%rax
	movq	%rax,%rdi
	callq	"rtp_b236e5ea_rtp_ext::elements::skip_zeros"
	testq	%rdx,%rdx
	je	5f
	movq	%rdx,%rsi
	movzbl	(%rax),%ecx
	movq	%rbp,%rdi
	movl	%r13d,%edx
2:
	cmpb	$-17,%cl
	ja	7f
	movl	%ecx,%r8d
	andb	$15,%r8b
	addb	$2,%r8b
	movzbl	%r8b,%r8d
	subq	%r8,%rsi
	jb	7f
	addq	%r8,%rax
	shrb	$4,%cl
	cmpb	%dl,%cl
	je	2f
	testq	%rsi,%rsi
	jne	1b
	jmp	7f
2:
	movq	%r14,%r15
	subq	%rsi,%r15
	negq	%r8
	leaq	(%r15,%r8),%r12
	incq	%r12
	movb	$1,%cl
	movq	%rcx,(%rsp)
	testq	%rsi,%rsi
	jne	1b
	jmp	4f
5:
	movq	%rbp,%rdi
7:
	cmpb	$1,(%rsp)
	jne	3f
4:
	movl	%r12d,%eax
	subl	%r14d,%eax
	addl	%eax,%ebx
	subl	%r12d,%r15d
	shlq	$32,%r15
	orq	%rbx,%r15
	movl	$1,(%rdi)
	movq	%r15,4(%rdi)
	jmp	1f
3:
	movl	$0,(%rdi)
	movq	$0,4(%rdi)
1:
	addq	$8,%rsp
	.cfi_def_cfa_offset 56
	popq	%rbx
	.cfi_def_cfa_offset 48
	popq	%r12
	.cfi_def_cfa_offset 40
	popq	%r13
	.cfi_def_cfa_offset 32
	popq	%r14
	.cfi_def_cfa_offset 24
	popq	%r15
	.cfi_def_cfa_offset 16
	popq	%rbp
	.cfi_def_cfa_offset 8
	.cfi_restore %rbx
	.cfi_restore %r12
	.cfi_restore %r13
	.cfi_restore %r14
	.cfi_restore %r15
	.cfi_restore %rbp
	retq
	.size	"rtp_b236e5ea_rtp_route::slots::slot_of", .-"rtp_b236e5ea_rtp_route::slots::slot_of"
	.cfi_endproc

	.section	".text.unlikely.rtp_route::making::make_by_calls::<#d57726891005992a>","ax",@progbits
	.p2align	4
	.type	"rtp_b236e5ea_rtp_route::making::make_by_calls::<#d57726891005992a>",@function
"rtp_b236e5ea_rtp_route::making::make_by_calls::<#d57726891005992a>":
	.cfi_startproc
	pushq	%rbp
	.cfi_def_cfa_offset 16
	pushq	%r15
	.cfi_def_cfa_offset 24
	pushq	%r14
	.cfi_def_cfa_offset 32
	pushq	%r13
	.cfi_def_cfa_offset 40
	pushq	%r12
	.cfi_def_cfa_offset 48
	pushq	%rbx
	.cfi_def_cfa_offset 56
	subq	$408,%rsp
	.cfi_def_cfa_offset 464
	.cfi_offset %rbx,-56
	.cfi_offset %r12,-48
	.cfi_offset %r13,-40
	.cfi_offset %r14,-32
	.cfi_offset %r15,-24
	.cfi_offset %rbp,-16
	movq	%r8,%r12
	movq	%rdx,%r14
	movq	%rsi,%rax
	movq	(%rsi),%rsi
	movq	16(%rax),%rdx
	movzbl	24(%rax),%r13d
	movzbl	25(%rax),%ebp
	xorps	%xmm0,%xmm0
	movaps	%xmm0,224(%rsp)
	movaps	%xmm0,208(%rsp)
	movaps	%xmm0,272(%rsp)
	movaps	%xmm0,288(%rsp)
	movaps	%xmm0,304(%rsp)
	movaps	%xmm0,320(%rsp)
	movaps	%xmm0,336(%rsp)
	movaps	%xmm0,352(%rsp)
	movaps	%xmm0,368(%rsp)
	movaps	%xmm0,384(%rsp)
	movaps	%xmm0,240(%rsp)
	movl	$3,%r8d
	cmpq	%rdx,%r12
	jae	1f
	movb	$8,%cl
	xorl	%eax,%eax
	jmp	2f
1:
	movq	%rcx,%r15
	leaq	-49(%rdx),%rax
	cmpq	$-34,%rax
	movq	%rdx,40(%rsp)
	movq	%r9,264(%rsp)
	movq	%rdi,48(%rsp)
	ja	1f
	movq	%r15,%rdi
	callq	"rtp_b236e5ea_rtp_route::copying::put_any"
	movq	40(%rsp),%rdx
	jmp	3f
1:
	movups	(%rsi),%xmm0
	movups	%xmm0,(%r15)
	cmpq	$33,%rdx
	jb	1f
	movups	16(%rsi),%xmm0
	movups	%xmm0,16(%r15)
1:
	movups	-16(%rsi,%rdx),%xmm0
	movups	%xmm0,-16(%r15,%rdx)
3:
	movq	(%r14),%rax
	movzbl	40(%r14),%ebx
	movzbl	41(%r14),%ecx
	movb	%cl,39(%rsp)
	movq	$0,104(%rsp)
	movq	%r15,80(%rsp)
	movq	%rdx,88(%rsp)
	movq	%rdx,96(%rsp)
	movb	%r13b,104(%rsp)
	movq	%rax,%r13
	movb	%bpl,105(%rsp)
	leaq	80(%rsp),%rdi
	movq	%rax,%rsi
	callq	"rtp_b236e5ea_rtp_wire::packet::rtp_packet_mut::RtpPacketMut::renumber"
	testb	%al,%al
	je	1f
3:
	xorps	%xmm0,%xmm0
	movaps	%xmm0,80(%rsp)
	movq	$0,96(%rsp)
	movq	32(%r14),%r13
	testq	%r13,%r13
	je	4f
	movq	8(%r14),%rbp
	movq	24(%r14),%rbx
	movq	40(%rsp),%rcx
	.p2align	4
5:
	movq	8(%rbx),%rax
	movq	(%rbx),%r9
	addq	%rbp,%r9
	movl	24(%rbx),%r8d
	movzbl	40(%r14),%edx
	movzbl	41(%r14),%esi
	movl	%esi,16(%rsp)
	movl	%edx,8(%rsp)
	movq	%rax,(%rsp)
	leaq	80(%rsp),%rdi
	movq	%r15,%rsi
	movq	%r12,%rdx
	callq	"rtp_b236e5ea_rtp_wire::packet::putting::put_element_copy::<=1>"
	movq	88(%rsp),%rcx
	cmpb	$0,80(%rsp)
	jne	6f
	addq	$32,%rbx
	decq	%r13
	jne	5b
	jmp	5f
1:
	cmpb	$1,%bl
	jne	1f
	cmpb	$0,39(%rsp)
	jne	1f
	xorl	%ecx,%ecx
	movl	$2,%r8d
	xorl	%eax,%eax
	xorl	%edx,%edx
7:
	movq	48(%rsp),%rdi
	jmp	2f
4:
	movq	40(%rsp),%rcx
5:
	leaq	240(%rsp),%rdi
	movq	%r15,%rsi
	movq	%rcx,%rdx
	callq	"rtp_b236e5ea_rtp_wire::packet::compacting::compact_copy::<=1>"
	cmpb	$0,240(%rsp)
	jne	4f
	movq	248(%rsp),%r12
	cmpq	$12,%r12
	jb	4f
	movzbl	(%r15),%edx
	cmpb	$-65,%dl
	jg	4f
	movl	%edx,%eax
	andl	$15,%eax
	leaq	12(,%rax,4),%rax
	movq	%r12,%rcx
	subq	%rax,%rcx
	jb	4f
	testb	$16,%dl
	jne	5f
	xorl	%r13d,%r13d
	xorl	%ebp,%ebp
	jmp	8f
5:
	cmpq	$4,%rcx
	jb	4f
	movzwl	2(%r15,%rax),%edx
	rolw	$8,%dx
	addq	$-4,%rcx
	movzwl	%dx,%edx
	shll	$2,%edx
	cmpq	%rdx,%rcx
	jb	4f
	movzwl	(%r15,%rax),%ecx
	movl	%ecx,%esi
	andl	$61695,%esi
	xorl	%ebp,%ebp
	cmpw	$16,%si
	sete	%bpl
	cmpl	$57022,%ecx
	movl	$1,%r13d
	cmovnel	%ebp,%r13d
	addq	%rdx,%rax
	addq	$4,%rax
8:
	movq	%r15,208(%rsp)
	movq	%r12,216(%rsp)
	movq	%rax,224(%rsp)
	movb	%r13b,232(%rsp)
	movb	%bpl,233(%rsp)
	movq	24(%r14),%r15
	movq	32(%r14),%r14
	movl	$0,64(%rsp)
	movq	$0,56(%rsp)
	xorps	%xmm0,%xmm0
	movaps	%xmm0,80(%rsp)
	movaps	%xmm0,96(%rsp)
	movaps	%xmm0,112(%rsp)
	movaps	%xmm0,128(%rsp)
	movaps	%xmm0,144(%rsp)
	movaps	%xmm0,160(%rsp)
	movaps	%xmm0,176(%rsp)
	movaps	%xmm0,192(%rsp)
	testq	%r14,%r14
	je	5f
	addq	$24,%r15
	xorl	%ebx,%ebx
	.p2align	4
8:
	movzbl	(%r15),%edx
	leaq	56(%rsp),%rdi
	leaq	208(%rsp),%rsi
	callq	"rtp_b236e5ea_rtp_route::slots::slot_of"
	cmpb	$1,56(%rsp)
	jne	4f
	movq	60(%rsp),%rax
	movq	%rax,80(%rsp,%rbx,8)
	incq	%rbx
	addq	$32,%r15
	cmpq	%rbx,%r14
	jne	8b
5:
	movaps	192(%rsp),%xmm0
	movaps	%xmm0,384(%rsp)
	movaps	176(%rsp),%xmm0
	movaps	%xmm0,368(%rsp)
	movaps	160(%rsp),%xmm1
	movaps	%xmm1,352(%rsp)
	movaps	144(%rsp),%xmm2
	movaps	%xmm2,336(%rsp)
	movaps	80(%rsp),%xmm3
	movaps	96(%rsp),%xmm4
	movaps	112(%rsp),%xmm5
	movaps	128(%rsp),%xmm6
	movaps	%xmm6,320(%rsp)
	movaps	%xmm5,304(%rsp)
	movaps	%xmm4,288(%rsp)
	movaps	%xmm3,272(%rsp)
	movq	264(%rsp),%rax
	movups	%xmm0,96(%rax)
	movups	%xmm1,80(%rax)
	movups	%xmm2,64(%rax)
	movups	%xmm6,48(%rax)
	movups	%xmm5,32(%rax)
	movups	%xmm4,16(%rax)
	movups	%xmm3,(%rax)
	movaps	384(%rsp),%xmm0
	movups	%xmm0,112(%rax)
	movq	48(%rsp),%rax
	movq	$0,(%rax)
	movq	%r12,8(%rax)
	movb	%r13b,16(%rax)
	movb	%bpl,17(%rax)
	movq	$0,24(%rax)
	jmp	5f
6:
	movl	%ecx,%eax
	movq	96(%rsp),%rdx
	shrl	$8,%eax
	movq	48(%rsp),%rdi
	movl	$3,%r8d
2:
	movq	$1,(%rdi)
	movq	%r8,8(%rdi)
	movb	%cl,16(%rdi)
	movb	%al,17(%rdi)
	movq	%rdx,24(%rdi)
5:
	addq	$408,%rsp
	.cfi_def_cfa_offset 56
	popq	%rbx
	.cfi_def_cfa_offset 48
	popq	%r12
	.cfi_def_cfa_offset 40
	popq	%r13
	.cfi_def_cfa_offset 32
	popq	%r14
	.cfi_def_cfa_offset 24
	popq	%r15
	.cfi_def_cfa_offset 16
	popq	%rbp
	.cfi_def_cfa_offset 8
	retq
1:
	.cfi_def_cfa_offset 464
	leaq	56(%rsp),%rdi
	movq	%r15,%rsi
	movq	%r12,%rdx
	movq	40(%rsp),%rcx
	callq	"rtp_b236e5ea_rtp_route::in_place::change_form"
	movq	64(%rsp),%rcx
	cmpb	$0,56(%rsp)
	je	1f
	movl	%ecx,%eax
	movq	72(%rsp),%rdx
	shrl	$8,%eax
	movl	$3,%r8d
	jmp	7b
1:
	movq	$257,104(%rsp)
	movq	%r15,80(%rsp)
	movq	%rcx,88(%rsp)
	movq	%rcx,40(%rsp)
	movq	%rcx,96(%rsp)
	leaq	80(%rsp),%rdi
	movq	%r13,%rsi
	callq	"rtp_b236e5ea_rtp_wire::packet::rtp_packet_mut::RtpPacketMut::renumber"
	jmp	3b
4:
	ud2
	.size	"rtp_b236e5ea_rtp_route::making::make_by_calls::<#d57726891005992a>", .-"rtp_b236e5ea_rtp_route::making::make_by_calls::<#d57726891005992a>"
	.cfi_endproc

	.section	".text.rtp_route::walk::write_kept::<#687967002a58489c>","ax",@progbits
	.p2align	4
	.type	"rtp_b236e5ea_rtp_route::walk::write_kept::<#687967002a58489c>",@function
"rtp_b236e5ea_rtp_route::walk::write_kept::<#687967002a58489c>":
	.cfi_startproc
	pushq	%rbp
	.cfi_def_cfa_offset 16
	pushq	%r15
	.cfi_def_cfa_offset 24
	pushq	%r14
	.cfi_def_cfa_offset 32
	pushq	%r13
	.cfi_def_cfa_offset 40
	pushq	%r12
	.cfi_def_cfa_offset 48
	pushq	%rbx
	.cfi_def_cfa_offset 56
	subq	$72,%rsp
	.cfi_def_cfa_offset 128
	.cfi_offset %rbx,-56
	.cfi_offset %r12,-48
	.cfi_offset %r13,-40
	.cfi_offset %r14,-32
	.cfi_offset %r15,-24
	.cfi_offset %rbp,-16
	movq	%r9,%rax
	movl	%ecx,%ebp
	movq	%rsi,%r11
	movq	%rdi,%r15
	movq	144(%rsp),%r10
	movq	128(%rsp),%r12
	movq	136(%rsp),%rcx
	movq	(%rcx),%r9
	movq	8(%rcx),%rcx
	movq	%rcx,64(%rsp)
	movl	%r8d,24(%rsp)
	movl	%r8d,%ecx
	orb	%bpl,%cl
	movq	%r9,(%rsp)
	je	1f
	testq	%r12,%r12
	je	2f
	leaq	16(%r15),%rcx
	movq	%rcx,56(%rsp)
	leaq	3(%r15),%rcx
	movq	%rcx,32(%rsp)
	movl	%ebp,40(%rsp)
	jmp	3f
1:
	testq	%r12,%r12
	je	2f
	leaq	1(%r15),%rcx
	movq	%rcx,24(%rsp)
	leaq	17(%r15),%rcx
	movq	%rcx,32(%rsp)
	leaq	4(%r15),%rcx
	movq	%rcx,40(%rsp)
	jmp	1f
4:
	movzbl	(%rsi),%eax
	movb	%al,(%r15,%r13)
5:
	leaq	(%rbx,%r13),%rdx
	movl	%r13d,-8(%r10,%rbp,8)
	movl	%ebx,-4(%r10,%rbp,8)
6:
	movl	40(%rsp),%ebp
7:
	movq	%r14,%rax
	testq	%r12,%r12
	je	2f
3:
	cmpb	$0,(%rax)
	je	3f
	testb	%bpl,%bpl
	je	8f
9:
	cmpq	$2,%r12
	jb	2f
	movzbl	1(%rax),%ebx
	leaq	2(%rbx),%r14
	subq	%r14,%r12
	jb	2f
	movzbl	(%rax),%ecx
	addq	%rax,%r14
	movq	(%r9),%rsi
	movzbl	(%rsi,%rcx),%r13d
	testb	%r13b,%r13b
	je	7b
	addq	$2,%rax
	jmp	10f
	.p2align	4
3:
	cmpq	$2,%r12
	je	3f
	cmpq	$1,%r12
	je	2f
	cmpq	$3,%r12
	ja	11f
	cmpb	$0,1(%rax)
	jne	11f
	cmpb	$0,2(%rax)
	jne	11f
	jmp	2f
3:
	cmpb	$0,1(%rax)
	je	2f
11:
	movq	%r11,%r14
	movq	%rdx,%rbx
	decq	%r12
	incq	%rax
	movq	%rax,%rdi
	movq	%r12,%rsi
	callq	"rtp_b236e5ea_rtp_ext::elements::skip_zeros"
	testq	%rdx,%rdx
	je	3f
	movq	%rdx,%r12
	movq	%rbx,%rdx
	movq	%r14,%r11
	movq	144(%rsp),%r10
	movq	(%rsp),%r9
	testb	%bpl,%bpl
	jne	9b
8:
	movzbl	(%rax),%ecx
	cmpq	$239,%rcx
	ja	2f
	movl	%ecx,%ebx
	andl	$15,%ebx
	addq	$2,%rbx
	subq	%rbx,%r12
	jb	2f
	shrl	$4,%ecx
	leaq	(%rax,%rbx),%r14
	movq	(%r9),%rsi
	movzbl	(%rsi,%rcx),%r13d
	testb	%r13b,%r13b
	je	7b
	incq	%rax
	decq	%rbx
	cmpb	$15,%r13b
	jae	7f
10:
	movzbl	%r13b,%ecx
	movq	64(%rsp),%rsi
	movzbl	(%rsi,%rcx),%ebp
	testq	%rbp,%rbp
	je	8f
	cmpl	$0,-8(%r10,%rbp,8)
	jne	9f
	leaq	-1(%rbp),%rsi
	movq	24(%r9),%rdi
	shlq	$5,%rsi
	movq	8(%rdi,%rsi),%rbx
	leaq	(%rdx,%rbx),%rax
	addq	$2,%rax
	cmpq	%rax,%r11
	jb	9f
	movq	8(%r9),%rax
	movq	(%rdi,%rsi),%rcx
	movzbl	24(%rdi,%rsi),%esi
	cmpb	$0,24(%rsp)
	je	11f
	movb	%sil,(%r15,%rdx)
	movb	%bl,1(%r15,%rdx)
	movl	$2,%r8d
	leaq	(%rax,%rcx),%rsi
	leaq	(%r8,%rdx),%r13
	testq	%rbx,%rbx
	jne	12f
	jmp	13f
8:
	leaq	(%rdx,%rbx),%rcx
	addq	$2,%rcx
	cmpq	%rcx,%r11
	jb	9f
	cmpb	$0,24(%rsp)
	je	8f
	movb	%r13b,(%r15,%rdx)
	movb	%bl,1(%r15,%rdx)
	movl	$2,%ecx
	leaq	(%rcx,%rdx),%rbp
	testq	%rbx,%rbx
	jne	14f
	jmp	15f
11:
	rolb	$4,%sil
	addb	%bl,%sil
	decb	%sil
	movb	%sil,(%r15,%rdx)
	movl	$1,%r8d
	leaq	(%rax,%rcx),%rsi
	leaq	(%r8,%rdx),%r13
	testq	%rbx,%rbx
	je	13f
12:
	cmpq	$1,%rbx
	je	4b
	cmpq	$2,%rbx
	ja	4f
	movzbl	(%rsi),%eax
	movb	%al,(%r15,%r13)
	movzbl	1(%rsi),%eax
	movb	%al,1(%r15,%r13)
	jmp	5b
8:
	rolb	$4,%r13b
	addb	%bl,%r13b
	decb	%r13b
	movb	%r13b,(%r15,%rdx)
	movl	$1,%ecx
	leaq	(%rcx,%rdx),%rbp
	testq	%rbx,%rbx
	je	15f
14:
	cmpl	$1,%ebx
	jne	8f
	movzbl	(%rax),%eax
	movb	%al,(%r15,%rbp)
	jmp	11f
8:
	cmpl	$2,%ebx
	ja	8f
	movzbl	(%rax),%ecx
	movb	%cl,(%r15,%rbp)
	movzbl	1(%rax),%eax
	movb	%al,1(%r15,%rbp)
	jmp	11f
4:
	cmpq	$3,%rbx
	jne	13f
	movzbl	(%rsi),%eax
	movb	%al,(%r15,%r13)
	movzbl	1(%rsi),%eax
	movb	%al,1(%r15,%r13)
	movzbl	2(%rsi),%eax
	movb	%al,2(%r15,%r13)
	jmp	5b
13:
	leaq	(%r15,%r13),%rdi
	movq	%rdi,%r9
	subq	%rsi,%r9
	cmpq	%rbx,%r9
	jae	4f
	cmpq	$4,%rbx
	jb	12f
	addq	%r15,%rdx
	addq	%r8,%rdx
	subq	%rsi,%rdx
	cmpq	$32,%rdx
	jae	13f
12:
	xorl	%edx,%edx
12:
	movq	%rbx,%r9
	movq	%rdx,%r8
	andq	$3,%r9
	je	14f
	movq	%rdx,%r8
	.p2align	4
16:
	movzbl	(%rsi,%r8),%r10d
	movb	%r10b,(%rdi,%r8)
	incq	%r8
	decq	%r9
	jne	16b
14:
	subq	%rbx,%rdx
	cmpq	$-4,%rdx
	movq	144(%rsp),%r10
	movq	(%rsp),%r9
	ja	5b
	addq	%rcx,%rax
	addq	$3,%rax
	movq	32(%rsp),%rcx
	addq	%r13,%rcx
	.p2align	4
14:
	movzbl	-3(%rax,%r8),%edx
	movb	%dl,-3(%rcx,%r8)
	movzbl	-2(%rax,%r8),%edx
	movb	%dl,-2(%rcx,%r8)
	movzbl	-1(%rax,%r8),%edx
	movb	%dl,-1(%rcx,%r8)
	movzbl	(%rax,%r8),%edx
	movb	%dl,(%rcx,%r8)
	addq	$4,%r8
	cmpq	%r8,%rbx
	jne	14b
	jmp	5b
4:
	movq	%rbx,%rdx
	movq	%r15,8(%rsp)
	movq	%r11,%r15
	callq	memmove@PLT
	movq	144(%rsp),%r10
	movq	%r15,%r11
	movq	8(%rsp),%r15
	movq	(%rsp),%r9
	jmp	5b
8:
	cmpl	$3,%ebx
	jne	15f
	movzbl	(%rax),%ecx
	movb	%cl,(%r15,%rbp)
	movzbl	1(%rax),%ecx
	movb	%cl,1(%r15,%rbp)
	movzbl	2(%rax),%eax
	movb	%al,2(%r15,%rbp)
	jmp	11f
15:
	leaq	(%r15,%rbp),%rdi
	movq	%rdi,%rsi
	subq	%rax,%rsi
	cmpq	%rbx,%rsi
	jae	4f
	cmpl	$4,%ebx
	jb	8f
	addq	%r15,%rdx
	addq	%rcx,%rdx
	subq	%rax,%rdx
	cmpq	$32,%rdx
	jae	14f
8:
	xorl	%ecx,%ecx
8:
	movq	%rbx,%rsi
	movq	%rcx,%rdx
	andq	$3,%rsi
	je	15f
	movq	%rcx,%rdx
	.p2align	4
16:
	movzbl	(%rax,%rdx),%r8d
	movb	%r8b,(%rdi,%rdx)
	incq	%rdx
	decq	%rsi
	jne	16b
15:
	subl	%ebx,%ecx
	cmpl	$-4,%ecx
	ja	11f
	movq	32(%rsp),%rcx
	addq	%rbp,%rcx
	.p2align	4
15:
	movzbl	(%rax,%rdx),%esi
	movb	%sil,-3(%rcx,%rdx)
	movzbl	1(%rax,%rdx),%esi
	movb	%sil,-2(%rcx,%rdx)
	movzbl	2(%rax,%rdx),%esi
	movb	%sil,-1(%rcx,%rdx)
	movzbl	3(%rax,%rdx),%esi
	movb	%sil,(%rcx,%rdx)
	addq	$4,%rdx
	cmpq	%rdx,%rbx
	jne	15b
	jmp	11f
4:
	movq	%rax,%rsi
	movq	%rbx,%rdx
	movq	%r11,%r13
	callq	memmove@PLT
	movq	(%rsp),%r9
	movq	144(%rsp),%r10
	movq	%r13,%r11
11:
	addq	%rbx,%rbp
	movq	%rbp,%rdx
	jmp	6b
13:
	cmpq	$32,%rbx
	jae	4f
	xorl	%edx,%edx
	jmp	6f
7:
	movzbl	24(%rsp),%edi
	movzbl	%r13b,%esi
	movq	%rdx,%rbp
	movq	%rbx,%rdx
	movq	%rax,16(%rsp)
	movq	%r15,8(%rsp)
	movq	%r11,%r15
	callq	"rtp_b236e5ea_rtp_route::walk::is_carried"
	movq	(%rsp),%r9
	movq	144(%rsp),%r10
	movq	%r15,%r11
	movq	8(%rsp),%r15
	movq	%rbp,%rdx
	movl	%eax,%ecx
	movq	16(%rsp),%rax
	testb	%cl,%cl
	jne	10b
	jmp	9f
14:
	cmpl	$32,%ebx
	jae	7f
	xorl	%ecx,%ecx
	jmp	10f
4:
	movq	%rbx,%rdx
	andq	$-32,%rdx
	leaq	(%rax,%rcx),%r8
	addq	$16,%r8
	movq	56(%rsp),%r9
	addq	%r13,%r9
	xorl	%r10d,%r10d
	.p2align	4
4:
	movups	-16(%r8,%r10),%xmm0
	movups	(%r8,%r10),%xmm1
	movups	%xmm0,-16(%r9,%r10)
	movups	%xmm1,(%r9,%r10)
	addq	$32,%r10
	cmpq	%r10,%rdx
	jne	4b
	cmpq	%rdx,%rbx
	movq	144(%rsp),%r10
	movq	(%rsp),%r9
	je	5b
	testb	$28,%bl
	je	12b
6:
	movq	%rdx,%r8
	movq	%rbx,%rdx
	andq	$-4,%rdx
	.p2align	4
4:
	movl	(%rsi,%r8),%r9d
	movl	%r9d,(%rdi,%r8)
	addq	$4,%r8
	cmpq	%r8,%rdx
	jne	4b
	cmpq	%rdx,%rbx
	movq	(%rsp),%r9
	je	5b
	jmp	12b
7:
	movq	%rbx,%rcx
	andq	$-32,%rcx
	movq	56(%rsp),%rdx
	addq	%rbp,%rdx
	xorl	%esi,%esi
	.p2align	4
4:
	movups	(%rax,%rsi),%xmm0
	movups	16(%rax,%rsi),%xmm1
	movups	%xmm0,-16(%rdx,%rsi)
	movups	%xmm1,(%rdx,%rsi)
	addq	$32,%rsi
	cmpq	%rsi,%rcx
	jne	4b
	cmpl	%ecx,%ebx
	je	11b
	testb	$28,%bl
	je	8b
10:
	movq	%rcx,%rdx
	movq	%rbx,%rcx
	andq	$-4,%rcx
	.p2align	4
4:
	movl	(%rax,%rdx),%esi
	movl	%esi,(%rdi,%rdx)
	addq	$4,%rdx
	cmpq	%rdx,%rcx
	jne	4b
	cmpl	%ecx,%ebx
	je	11b
	jmp	8b
4:
	movzbl	(%rsi),%ecx
	movb	%cl,(%r15,%r13)
5:
	leaq	(%rbx,%r13),%rdx
	movq	144(%rsp),%r10
	movl	%r13d,-8(%r10,%r14,8)
	movl	%ebx,-4(%r10,%r14,8)
	movq	(%rsp),%r9
6:
	addq	%rbp,%rax
	testq	%r12,%r12
	je	2f
1:
	movzbl	(%rax),%ecx
	testb	%cl,%cl
	jne	1f
	cmpq	$2,%r12
	je	7f
	cmpq	$1,%r12
	je	2f
	cmpq	$3,%r12
	ja	8f
	cmpb	$0,1(%rax)
	jne	8f
	cmpb	$0,2(%rax)
	jne	8f
	jmp	2f
7:
	cmpb	$0,1(%rax)
	je	2f
8:
	movq	%r11,%r14
	movq	%rdx,%rbx
	decq	%r12
	incq	%rax
	movq	%rax,%rdi
	movq	%r12,%rsi
	callq	"rtp_b236e5ea_rtp_ext::elements::skip_zeros"
	testq	%rdx,%rdx
	je	3f
	movq	%rdx,%r12
	movzbl	(%rax),%ecx
	movq	%rbx,%rdx
	movq	%r14,%r11
	movq	144(%rsp),%r10
	movq	(%rsp),%r9
1:
	cmpb	$-17,%cl
	ja	2f
	movl	%ecx,%ebx
	andb	$15,%bl
	leal	2(%rbx),%esi
	movzbl	%sil,%ebp
	subq	%rbp,%r12
	jb	2f
	movzbl	%cl,%ecx
	shrl	$4,%ecx
	movq	(%r9),%rsi
	movzbl	(%rsi,%rcx),%r13d
	testq	%r13,%r13
	je	6b
	leaq	-1(%rbp),%r8
	cmpb	$15,%r13b
	jae	1f
7:
	movq	64(%rsp),%rcx
	movzbl	(%rcx,%r13),%r14d
	testq	%r14,%r14
	je	8f
	cmpl	$0,-8(%r10,%r14,8)
	jne	9f
	leaq	-1(%r14),%rcx
	movq	24(%r9),%rdi
	shlq	$5,%rcx
	movq	8(%rdi,%rcx),%rbx
	leaq	(%rdx,%rbx),%rsi
	addq	$2,%rsi
	cmpq	%rsi,%r11
	jb	9f
	movq	8(%r9),%r10
	movq	(%rdi,%rcx),%r8
	leaq	(%r10,%r8),%rsi
	movzbl	24(%rdi,%rcx),%ecx
	rolb	$4,%cl
	addb	%bl,%cl
	decb	%cl
	movb	%cl,(%r15,%rdx)
	leaq	1(%rdx),%r13
	testq	%rbx,%rbx
	je	10f
	cmpq	$1,%rbx
	je	4b
	cmpq	$2,%rbx
	ja	4f
	movzbl	(%rsi),%ecx
	movb	%cl,(%r15,%r13)
	movzbl	1(%rsi),%ecx
	movb	%cl,1(%r15,%r13)
	jmp	5b
8:
	leaq	(%rdx,%r8),%rcx
	addq	$2,%rcx
	cmpq	%rcx,%r11
	jb	9f
	leaq	1(%rax),%rsi
	rolb	$4,%r13b
	addb	%r8b,%r13b
	decb	%r13b
	movb	%r13b,(%r15,%rdx)
	leaq	1(%rdx),%rdi
	cmpq	$1,%r8
	jne	8f
	movzbl	(%rsi),%ecx
	movb	%cl,(%r15,%rdi)
	addq	%rbp,%rdx
	jmp	6b
8:
	cmpb	$1,%bl
	ja	8f
	movzbl	1(%rax),%ecx
	movb	%cl,(%r15,%rdi)
	movzbl	2(%rax),%ecx
	movb	%cl,1(%r15,%rdi)
	addq	%rbp,%rdx
	jmp	6b
4:
	cmpq	$3,%rbx
	jne	10f
	movzbl	(%rsi),%ecx
	movb	%cl,(%r15,%r13)
	movzbl	1(%rsi),%ecx
	movb	%cl,1(%r15,%r13)
	movzbl	2(%rsi),%ecx
	movb	%cl,2(%r15,%r13)
	jmp	5b
10:
	leaq	(%r15,%r13),%rdi
	movq	%rdi,%rcx
	subq	%rsi,%rcx
	cmpq	%rbx,%rcx
	jae	4f
	cmpq	$4,%rbx
	movq	%r11,48(%rsp)
	movq	%r10,8(%rsp)
	jb	10f
	movq	24(%rsp),%rcx
	addq	%rdx,%rcx
	subq	%rsi,%rcx
	cmpq	$32,%rcx
	jae	11f
10:
	xorl	%r9d,%r9d
10:
	movq	%rbx,%r11
	movq	%r9,%r10
	andq	$3,%r11
	je	12f
	movq	%r9,%r10
	.p2align	4
13:
	movzbl	(%rsi,%r10),%ecx
	movb	%cl,(%rdi,%r10)
	incq	%r10
	decq	%r11
	jne	13b
12:
	subq	%rbx,%r9
	cmpq	$-4,%r9
	movq	48(%rsp),%r11
	ja	5b
	movq	8(%rsp),%rcx
	addq	%r8,%rcx
	addq	$3,%rcx
	addq	40(%rsp),%rdx
	.p2align	4
12:
	movzbl	-3(%rcx,%r10),%esi
	movb	%sil,-3(%rdx,%r10)
	movzbl	-2(%rcx,%r10),%esi
	movb	%sil,-2(%rdx,%r10)
	movzbl	-1(%rcx,%r10),%esi
	movb	%sil,-1(%rdx,%r10)
	movzbl	(%rcx,%r10),%esi
	movb	%sil,(%rdx,%r10)
	addq	$4,%r10
	cmpq	%r10,%rbx
	jne	12b
	jmp	5b
4:
	movq	%rbx,%rdx
	movq	%rax,16(%rsp)
	movq	%r15,8(%rsp)
	movq	%r11,%r15
	callq	memmove@PLT
	movq	%r15,%r11
	movq	8(%rsp),%r15
	movq	16(%rsp),%rax
	jmp	5b
8:
	cmpl	$3,%r8d
	jne	4f
	movzbl	1(%rax),%ecx
	movb	%cl,(%r15,%rdi)
	movzbl	2(%rax),%ecx
	movb	%cl,1(%r15,%rdi)
	movzbl	3(%rax),%ecx
	movb	%cl,2(%r15,%rdi)
	addq	%rbp,%rdx
	jmp	6b
1:
	xorl	%edi,%edi
	movl	%r13d,%esi
	movq	%rdx,%r14
	movq	%r8,%rdx
	movq	%rax,16(%rsp)
	movq	%r15,8(%rsp)
	movq	%r11,%r15
	callq	"rtp_b236e5ea_rtp_route::walk::is_carried"
	leaq	-1(%rbp),%r8
	movq	(%rsp),%r9
	movq	144(%rsp),%r10
	movq	%r15,%r11
	movq	8(%rsp),%r15
	movq	%r14,%rdx
	movl	%eax,%ecx
	movq	16(%rsp),%rax
	testb	%cl,%cl
	jne	7b
	jmp	9f
4:
	addq	%r15,%rdi
	movq	%rdi,%rcx
	subq	%rsi,%rcx
	cmpq	%r8,%rcx
	jae	1f
	cmpb	$2,%bl
	jne	4f
	xorl	%ecx,%ecx
	jmp	7f
11:
	cmpq	$32,%rbx
	jae	8f
	xorl	%r9d,%r9d
	jmp	11f
1:
	movq	%rdx,%rbx
	movq	%r8,%rdx
	movq	%rax,%r14
	movq	%r15,%r13
	movq	%r11,%r15
	callq	memmove@PLT
	movq	(%rsp),%r9
	movq	144(%rsp),%r10
	movq	%r15,%r11
	movq	%r13,%r15
	movq	%r14,%rax
	movq	%rbx,%rdx
	addq	%rbp,%rdx
	jmp	6b
8:
	movq	%rbx,%r9
	andq	$-32,%r9
	addq	%r8,%r10
	addq	$16,%r10
	movq	32(%rsp),%rcx
	leaq	(%rcx,%rdx),%r11
	xorl	%ecx,%ecx
	.p2align	4
1:
	movups	-16(%r10,%rcx),%xmm0
	movups	(%r10,%rcx),%xmm1
	movups	%xmm0,-16(%r11,%rcx)
	movups	%xmm1,(%r11,%rcx)
	addq	$32,%rcx
	cmpq	%rcx,%r9
	jne	1b
	cmpq	%r9,%rbx
	movq	48(%rsp),%r11
	je	5b
	testb	$28,%bl
	je	10b
11:
	movq	%r9,%rcx
	movq	%rbx,%r9
	andq	$-4,%r9
	.p2align	4
1:
	movl	(%rsi,%rcx),%r10d
	movl	%r10d,(%rdi,%rcx)
	addq	$4,%rcx
	cmpq	%rcx,%r9
	jne	1b
	cmpq	%r9,%rbx
	je	5b
	jmp	10b
4:
	leaq	(%rdx,%r15),%rcx
	subq	%rax,%rcx
	cmpq	$16,%rcx
	jae	1f
	xorl	%ecx,%ecx
	.p2align	4
7:
	movq	%r8,%rbx
	movzbl	(%rsi,%rcx),%r8d
	movb	%r8b,(%rdi,%rcx)
	movq	%rbx,%r8
	incq	%rcx
	cmpq	%rcx,%rbx
	jne	7b
4:
	addq	%rbp,%rdx
	jmp	6b
1:
	cmpb	$15,%bl
	jne	1f
	movups	(%rsi),%xmm0
	movups	%xmm0,(%rdi)
	addq	%rbp,%rdx
	jmp	6b
1:
	movq	%r8,%rbx
	movq	%r8,%rcx
	andq	$-4,%rcx
	xorl	%r8d,%r8d
1:
	movl	(%rsi,%r8),%r9d
	movl	%r9d,(%rdi,%r8)
	addq	$4,%r8
	cmpq	%r8,%rcx
	jne	1b
	movq	%rbx,%r8
	cmpl	%ecx,%r8d
	movq	(%rsp),%r9
	jne	7b
	jmp	4b
9:
	xorl	%eax,%eax
	xorl	%edx,%edx
	jmp	1f
3:
	movq	%rbx,%rdx
2:
	movb	$1,%al
1:
	addq	$72,%rsp
	.cfi_def_cfa_offset 56
	popq	%rbx
	.cfi_def_cfa_offset 48
	popq	%r12
	.cfi_def_cfa_offset 40
	popq	%r13
	.cfi_def_cfa_offset 32
	popq	%r14
	.cfi_def_cfa_offset 24
	popq	%r15
	.cfi_def_cfa_offset 16
	popq	%rbp
	.cfi_def_cfa_offset 8
	retq
	.size	"rtp_b236e5ea_rtp_route::walk::write_kept::<#687967002a58489c>", .-"rtp_b236e5ea_rtp_route::walk::write_kept::<#687967002a58489c>"
	.cfi_endproc

	.section	.rodata.cst16,"aM",@progbits,16
	.p2align	4,0x0
.Lrtp_b236e5ea_CPI51_0:
	.short	14
	.short	14
	.short	14
	.short	14
	.short	14
	.short	14
	.short	14
	.short	14
	.section	".text.unlikely.rtp_route::by_walk::write_in_two_byte_form::<#687967002a58489c>","ax",@progbits
	.p2align	4
	.type	"rtp_b236e5ea_rtp_route::by_walk::write_in_two_byte_form::<#687967002a58489c>",@function
"rtp_b236e5ea_rtp_route::by_walk::write_in_two_byte_form::<#687967002a58489c>":
	.cfi_startproc
	pushq	%rbp
	.cfi_def_cfa_offset 16
	pushq	%r15
	.cfi_def_cfa_offset 24
	pushq	%r14
	.cfi_def_cfa_offset 32
	pushq	%r13
	.cfi_def_cfa_offset 40
	pushq	%r12
	.cfi_def_cfa_offset 48
	pushq	%rbx
	.cfi_def_cfa_offset 56
	subq	$440,%rsp
	.cfi_def_cfa_offset 496
	.cfi_offset %rbx,-56
	.cfi_offset %r12,-48
	.cfi_offset %r13,-40
	.cfi_offset %r14,-32
	.cfi_offset %r15,-24
	.cfi_offset %rbp,-16
	movq	%rdi,%rbx
	cmpb	$1,24(%rsi)
	jne	1f
	movq	%r9,%r15
	movq	%r8,40(%rsp)
	movq	(%rsi),%rdi
	movq	16(%rsi),%r13
	movzbl	25(%rsi),%r14d
	movzbl	(%rdx),%eax
	movb	%al,25(%rsp)
	movzbl	1(%rdx),%eax
	movb	%al,30(%rsp)
	movzbl	2(%rdx),%eax
	movb	%al,26(%rsp)
	movzbl	3(%rdx),%eax
	movb	%al,31(%rsp)
	movzbl	4(%rdx),%eax
	movb	%al,27(%rsp)
	movzwl	6(%rdx),%eax
	movw	%ax,38(%rsp)
	movzbl	8(%rdx),%eax
	movb	%al,28(%rsp)
	movl	12(%rdx),%eax
	movl	%eax,92(%rsp)
	movzbl	16(%rdx),%eax
	movb	%al,29(%rsp)
	movl	20(%rdx),%eax
	movl	%eax,96(%rsp)
	movq	(%rcx),%rax
	movq	16(%rcx),%rdx
	movq	%rdx,80(%rsp)
	movdqu	8(%rcx),%xmm0
	movdqa	%xmm0,48(%rsp)
	movq	24(%rcx),%rcx
	movq	%rcx,72(%rsp)
	movq	%rdi,%r12
	movzbl	(%rdi),%ebp
	movq	%rax,112(%rsp)
	movq	(%rax),%rsi
	leaq	184(%rsp),%rdi
	movl	$256,%edx
	callq	memcpy@PLT
	movl	%r14d,32(%rsp)
	cmpl	$1,%r14d
	je	1f
	cmpl	$0,32(%rsp)
	jne	2f
	pmovzxbw	184(%rsp),%xmm0
	pcmpgtw	.Lrtp_b236e5ea_CPI51_0(%rip),%xmm0
	pmovmskb	%xmm0,%eax
	testl	%eax,%eax
	jne	2f
	pmovzxbw	191(%rsp),%xmm0
	pcmpgtw	.Lrtp_b236e5ea_CPI51_0(%rip),%xmm0
	pmovmskb	%xmm0,%eax
	testl	%eax,%eax
	je	1f
2:
	movq	496(%rsp),%r14
	andl	$15,%ebp
	leaq	16(,%rbp,4),%rcx
	leaq	(%r12,%rbp,4),%rax
	addq	$16,%rax
	movq	%r13,%rdx
	subq	%rcx,%rdx
2:
	testq	%rdx,%rdx
	je	1f
	movzbl	(%rax),%ecx
	testb	%cl,%cl
	jne	3f
	cmpq	$2,%rdx
	je	4f
	cmpq	$1,%rdx
	je	1f
	cmpq	$3,%rdx
	ja	5f
	cmpb	$0,1(%rax)
	jne	5f
	cmpb	$0,2(%rax)
	jne	5f
	jmp	1f
4:
	cmpb	$0,1(%rax)
	je	1f
5:
	decq	%rdx
	incq	%rax
	movq	%rax,%rdi
	movq	%rdx,%rsi
	callq	"rtp_b236e5ea_rtp_ext::elements::skip_zeros"
	testq	%rdx,%rdx
	je	1f
	movzbl	(%rax),%ecx
3:
	cmpb	$-17,%cl
	ja	1f
	movl	%ecx,%esi
	andb	$15,%sil
	addb	$2,%sil
	movzbl	%sil,%esi
	subq	%rsi,%rdx
	jb	1f
	movzbl	%cl,%ecx
	shrl	$4,%ecx
	addq	%rsi,%rax
	cmpb	$15,184(%rsp,%rcx)
	jb	2b
	pxor	%xmm0,%xmm0
	movdqu	%xmm0,112(%r14)
	movdqu	%xmm0,96(%r14)
	movdqu	%xmm0,80(%r14)
	movdqu	%xmm0,64(%r14)
	movdqu	%xmm0,48(%r14)
	movdqu	%xmm0,32(%r14)
	movdqu	%xmm0,16(%r14)
	cmpq	$262140,%r15
	movl	$262140,%esi
	cmovbq	%r15,%rsi
	movdqu	%xmm0,(%r14)
	leaq	3(,%r13,2),%rdx
	xorl	%r15d,%r15d
	movq	%rsi,%rcx
	movl	$0,%eax
	subq	%rdx,%rcx
	cmovbq	%r15,%rcx
	movl	$0,%ebp
	jb	2f
	cmpq	80(%rsp),%rcx
	jb	2f
	movq	%r12,%rax
	movzbl	(%r12),%ecx
	movb	$1,%bpl
	movq	112(%rsp),%r12
	cmpq	$0,32(%r12)
	je	3f
	cmpb	$1,40(%r12)
	movq	40(%rsp),%rdi
	jne	4f
	movzbl	41(%r12),%ebp
	cmpb	$1,%bpl
	je	4f
	jmp	5f
1:
	pxor	%xmm0,%xmm0
	movdqu	%xmm0,(%rbx)
	movw	$0,16(%rbx)
1:
	addq	$440,%rsp
	.cfi_def_cfa_offset 56
	popq	%rbx
	.cfi_def_cfa_offset 48
	popq	%r12
	.cfi_def_cfa_offset 40
	popq	%r13
	.cfi_def_cfa_offset 32
	popq	%r14
	.cfi_def_cfa_offset 24
	popq	%r15
	.cfi_def_cfa_offset 16
	popq	%rbp
	.cfi_def_cfa_offset 8
	retq
3:
	.cfi_def_cfa_offset 496
	movq	40(%rsp),%rdi
4:
	shll	$2,%ecx
	andl	$60,%ecx
	leaq	16(%rcx),%rdx
	movq	%rax,104(%rsp)
	movq	%rcx,144(%rsp)
	leaq	(%rax,%rcx),%r9
	addq	$16,%r9
	subq	%rdx,%r13
	movq	%r12,152(%rsp)
	movdqa	48(%rsp),%xmm0
	movdqu	%xmm0,160(%rsp)
	movq	72(%rsp),%rax
	movq	%rax,176(%rsp)
	movq	%r14,16(%rsp)
	leaq	152(%rsp),%rax
	movq	%rax,8(%rsp)
	movq	%r13,(%rsp)
	movzbl	%bpl,%r8d
	movl	32(%rsp),%ecx
	movq	%rsi,48(%rsp)
	callq	"rtp_b236e5ea_rtp_route::walk::write_kept::<#687967002a58489c>"
	movq	48(%rsp),%r11
	movq	40(%rsp),%rdi
	cmpb	$1,%al
	jne	5f
	movq	32(%r12),%rsi
	testq	%rsi,%rsi
	je	3f
	leaq	2(%rdi),%rax
	movq	%rax,136(%rsp)
	leaq	18(%rdi),%rax
	movq	%rax,120(%rsp)
	leaq	5(%rdi),%rax
	movq	%rax,128(%rsp)
	xorl	%r15d,%r15d
	movq	%rsi,72(%rsp)
	jmp	4f
6:
	movzbl	(%rsi),%eax
	movb	%al,(%rdi,%r9)
7:
	movq	80(%rsp),%rax
	leaq	(%rax,%r13),%rdx
	movl	%eax,(%r14,%r15,8)
	movl	%r13d,4(%r14,%r15,8)
	movq	72(%rsp),%rsi
8:
	incq	%r15
	cmpq	%rsi,%r15
	je	3f
4:
	cmpl	$0,(%r14,%r15,8)
	jne	8b
	movq	24(%r12),%rax
	movq	%r15,%r9
	shlq	$5,%r9
	movq	8(%rax,%r9),%r13
	leaq	(%rdx,%r13),%rcx
	addq	$2,%rcx
	cmpq	%rcx,%r11
	jb	5f
	movq	8(%r12),%rcx
	movq	(%rax,%r9),%r8
	leaq	(%rcx,%r8),%rsi
	movzbl	24(%rax,%r9),%eax
	movb	%al,(%rdi,%rdx)
	movb	%r13b,1(%rdi,%rdx)
	leaq	2(%rdx),%r9
	testq	%r13,%r13
	movq	%r9,80(%rsp)
	je	4f
	cmpq	$1,%r13
	je	6b
	cmpq	$2,%r13
	ja	6f
	movzbl	(%rsi),%eax
	movb	%al,(%rdi,%r9)
	movzbl	1(%rsi),%eax
	movb	%al,1(%rdi,%r9)
	jmp	7b
6:
	cmpq	$3,%r13
	jne	4f
	movzbl	(%rsi),%eax
	movb	%al,(%rdi,%r9)
	movzbl	1(%rsi),%eax
	movb	%al,1(%rdi,%r9)
	movzbl	2(%rsi),%eax
	movb	%al,2(%rdi,%r9)
	jmp	7b
4:
	leaq	(%rdi,%r9),%rax
	movq	%rax,%r9
	subq	%rsi,%r9
	cmpq	%r13,%r9
	jae	4f
	cmpq	$4,%r13
	jb	6f
	movq	136(%rsp),%r9
	addq	%rdx,%r9
	subq	%rsi,%r9
	cmpq	$32,%r9
	jae	8f
6:
	xorl	%r9d,%r9d
6:
	movq	%rbp,%r14
	movq	%r13,%r11
	movq	%r9,%r10
	andq	$3,%r11
	je	9f
	movq	%r9,%r10
10:
	movzbl	(%rsi,%r10),%ebp
	movb	%bpl,(%rax,%r10)
	incq	%r10
	decq	%r11
	jne	10b
9:
	subq	%r13,%r9
	cmpq	$-4,%r9
	movq	%r14,%rbp
	movq	496(%rsp),%r14
	movq	48(%rsp),%r11
	ja	7b
	leaq	(%rcx,%r8),%rax
	addq	$3,%rax
	addq	128(%rsp),%rdx
9:
	movzbl	-3(%rax,%r10),%ecx
	movb	%cl,-3(%rdx,%r10)
	movzbl	-2(%rax,%r10),%ecx
	movb	%cl,-2(%rdx,%r10)
	movzbl	-1(%rax,%r10),%ecx
	movb	%cl,-1(%rdx,%r10)
	movzbl	(%rax,%r10),%ecx
	movb	%cl,(%rdx,%r10)
	addq	$4,%r10
	cmpq	%r10,%r13
	jne	9b
	jmp	7b
4:
	movq	%rax,%rdi
	movq	%r13,%rdx
	callq	memmove@PLT
	movq	48(%rsp),%r11
	movq	40(%rsp),%rdi
	jmp	7b
8:
	cmpq	$32,%r13
	jae	4f
	xorl	%r9d,%r9d
	jmp	8f
4:
	movq	%r13,%r9
	andq	$-32,%r9
	leaq	(%rcx,%r8),%r10
	addq	$16,%r10
	movq	120(%rsp),%r11
	addq	%rdx,%r11
	xorl	%r12d,%r12d
4:
	movdqu	-16(%r10,%r12),%xmm0
	movups	(%r10,%r12),%xmm1
	movdqu	%xmm0,-16(%r11,%r12)
	movups	%xmm1,(%r11,%r12)
	addq	$32,%r12
	cmpq	%r12,%r9
	jne	4b
	cmpq	%r9,%r13
	movq	112(%rsp),%r12
	movq	48(%rsp),%r11
	je	7b
	testb	$28,%r13b
	je	6b
8:
	movq	%r9,%r10
	movq	%r13,%r9
	andq	$-4,%r9
4:
	movl	(%rsi,%r10),%r11d
	movl	%r11d,(%rax,%r10)
	addq	$4,%r10
	cmpq	%r10,%r9
	jne	4b
	cmpq	%r9,%r13
	movq	48(%rsp),%r11
	je	7b
	jmp	6b
3:
	leaq	3(%rdx),%r15
	andq	$-4,%r15
	cmpq	%r15,%r11
	jae	3f
5:
	xorl	%eax,%eax
	xorl	%r15d,%r15d
	xorl	%ebp,%ebp
2:
	movzbl	%al,%eax
	movq	%rax,(%rbx)
	movq	%r15,8(%rbx)
	movb	%al,16(%rbx)
	movb	%bpl,17(%rbx)
	jmp	1b
3:
	movq	%r15,%rax
	subq	%rdx,%rax
	movq	144(%rsp),%rcx
	leaq	16(%rcx),%r14
	je	1f
	cmpq	$2,%rax
	je	3f
	cmpq	$1,%rax
	jne	4f
	movb	$0,(%rdi,%rdx)
	jmp	1f
4:
	movb	$0,2(%rdi,%rdx)
3:
	movw	$0,(%rdi,%rdx)
1:
	cmpb	$33,%cl
	jb	1f
	movq	104(%rsp),%rsi
	movq	%r14,%rdx
	callq	"rtp_b236e5ea_rtp_route::copying::put_any"
	movq	40(%rsp),%rdi
	jmp	3f
1:
	movq	104(%rsp),%rax
	movups	(%rax),%xmm0
	movups	%xmm0,(%rdi)
	cmpb	$17,%cl
	jb	1f
	movups	16(%rax),%xmm0
	movups	%xmm0,16(%rdi)
1:
	movdqu	(%rax,%rcx),%xmm0
	movdqu	%xmm0,(%rdi,%rcx)
3:
	movzbl	29(%rsp),%esi
	movzbl	28(%rsp),%r8d
	movzbl	27(%rsp),%r9d
	movzbl	26(%rsp),%r10d
	movzbl	25(%rsp),%r11d
	movq	%r15,%rax
	subq	%r14,%rax
	cmpl	$1,32(%rsp)
	je	1f
	movw	$16,152(%rsp)
	leaq	(%rdi,%r14),%rcx
	addq	$-4,%rcx
	movq	%rcx,%rdx
	leaq	152(%rsp),%r12
	subq	%r12,%rdx
	cmpq	$1,%rdx
	ja	3f
	movzwl	152(%rsp),%edx
	movw	%dx,(%rcx)
	jmp	1f
3:
	movw	$16,(%rcx)
1:
	movl	%eax,%ecx
	shrl	$10,%ecx
	andl	$-4,%eax
	shll	$6,%eax
	movzbl	%cl,%ecx
	orl	%eax,%ecx
	movw	%cx,102(%rsp)
	movw	%cx,-2(%rdi,%r14)
	cmpb	$1,%r11b
	jne	1f
	movzbl	30(%rsp),%ecx
	shlb	$7,%cl
	movzbl	1(%rdi),%eax
	andb	$127,%al
	orb	%cl,%al
	movb	%al,1(%rdi)
	cmpb	$1,%r10b
	je	3f
4:
	cmpb	$1,%r9b
	jne	5f
6:
	movzwl	38(%rsp),%eax
	rolw	$8,%ax
	movw	%ax,2(%rdi)
	cmpb	$1,%r8b
	je	7f
8:
	movb	$1,%al
	cmpb	$1,%sil
	jne	2b
	jmp	9f
1:
	cmpb	$1,%r10b
	jne	4b
3:
	movzbl	1(%rdi),%eax
	andb	$-128,%al
	addb	31(%rsp),%al
	movb	%al,1(%rdi)
	cmpb	$1,%r9b
	je	6b
5:
	cmpb	$1,%r8b
	jne	8b
7:
	movl	92(%rsp),%eax
	bswapl	%eax
	movl	%eax,4(%rdi)
	movb	$1,%al
	cmpb	$1,%sil
	jne	2b
9:
	movl	96(%rsp),%ecx
	bswapl	%ecx
	movl	%ecx,8(%rdi)
	jmp	2b
	.size	"rtp_b236e5ea_rtp_route::by_walk::write_in_two_byte_form::<#687967002a58489c>", .-"rtp_b236e5ea_rtp_route::by_walk::write_in_two_byte_form::<#687967002a58489c>"
	.cfi_endproc

	.section	".text.unlikely.rtp_route::making::make_by_calls_of::<#687967002a58489c>","ax",@progbits
	.p2align	4
	.type	"rtp_b236e5ea_rtp_route::making::make_by_calls_of::<#687967002a58489c>",@function
"rtp_b236e5ea_rtp_route::making::make_by_calls_of::<#687967002a58489c>":
	.cfi_startproc
	pushq	%rbp
	.cfi_def_cfa_offset 16
	pushq	%r15
	.cfi_def_cfa_offset 24
	pushq	%r14
	.cfi_def_cfa_offset 32
	pushq	%r13
	.cfi_def_cfa_offset 40
	pushq	%r12
	.cfi_def_cfa_offset 48
	pushq	%rbx
	.cfi_def_cfa_offset 56
	subq	$408,%rsp
	.cfi_def_cfa_offset 464
	.cfi_offset %rbx,-56
	.cfi_offset %r12,-48
	.cfi_offset %r13,-40
	.cfi_offset %r14,-32
	.cfi_offset %r15,-24
	.cfi_offset %rbp,-16
	movq	%r9,56(%rsp)
	movq	%r8,48(%rsp)
	movq	%rcx,40(%rsp)
	movq	%rsi,%r13
	movq	%rdi,%rbx
	movq	16(%rsi),%r14
	movzwl	24(%rsi),%r15d
	movq	(%rdx),%r12
	xorps	%xmm0,%xmm0
	movaps	%xmm0,16(%rsp)
	movaps	%xmm0,(%rsp)
	movq	$0,144(%rsp)
	movups	8(%rdx),%xmm0
	movups	%xmm0,120(%rsp)
	movq	24(%rdx),%rax
	movq	%rax,136(%rsp)
	movq	(%r12),%rsi
	leaq	152(%rsp),%rbp
	movl	$256,%edx
	movq	%rbp,%rdi
	callq	memcpy@PLT
	movzwl	40(%r12),%eax
	movq	%rbp,104(%rsp)
	movq	%r12,112(%rsp)
	movw	%ax,144(%rsp)
	movq	$0,88(%rsp)
	movups	(%r13),%xmm0
	movaps	%xmm0,64(%rsp)
	movq	%r14,80(%rsp)
	movw	%r15w,88(%rsp)
	movq	%rsp,%rdi
	leaq	64(%rsp),%rsi
	leaq	104(%rsp),%rdx
	movq	40(%rsp),%rcx
	movq	48(%rsp),%r8
	movq	56(%rsp),%r9
	callq	"rtp_b236e5ea_rtp_route::making::make_by_calls::<#2b2c45b9ae55a838>"
	movzbl	(%rsp),%eax
	movq	%rax,(%rbx)
	movq	8(%rsp),%rax
	movq	%rax,8(%rbx)
	movzbl	16(%rsp),%eax
	movb	%al,16(%rbx)
	movzbl	17(%rsp),%eax
	movb	%al,17(%rbx)
	movq	24(%rsp),%rax
	movq	%rax,24(%rbx)
	addq	$408,%rsp
	.cfi_def_cfa_offset 56
	popq	%rbx
	.cfi_def_cfa_offset 48
	popq	%r12
	.cfi_def_cfa_offset 40
	popq	%r13
	.cfi_def_cfa_offset 32
	popq	%r14
	.cfi_def_cfa_offset 24
	popq	%r15
	.cfi_def_cfa_offset 16
	popq	%rbp
	.cfi_def_cfa_offset 8
	retq
	.size	"rtp_b236e5ea_rtp_route::making::make_by_calls_of::<#687967002a58489c>", .-"rtp_b236e5ea_rtp_route::making::make_by_calls_of::<#687967002a58489c>"
	.cfi_endproc

	.section	".text.unlikely.rtp_route::making::make_by_calls::<#2b2c45b9ae55a838>","ax",@progbits
	.p2align	4
	.type	"rtp_b236e5ea_rtp_route::making::make_by_calls::<#2b2c45b9ae55a838>",@function
"rtp_b236e5ea_rtp_route::making::make_by_calls::<#2b2c45b9ae55a838>":
	.cfi_startproc
	pushq	%rbp
	.cfi_def_cfa_offset 16
	pushq	%r15
	.cfi_def_cfa_offset 24
	pushq	%r14
	.cfi_def_cfa_offset 32
	pushq	%r13
	.cfi_def_cfa_offset 40
	pushq	%r12
	.cfi_def_cfa_offset 48
	pushq	%rbx
	.cfi_def_cfa_offset 56
	subq	$408,%rsp
	.cfi_def_cfa_offset 464
	.cfi_offset %rbx,-56
	.cfi_offset %r12,-48
	.cfi_offset %r13,-40
	.cfi_offset %r14,-32
	.cfi_offset %r15,-24
	.cfi_offset %rbp,-16
	movq	%r8,%r12
	movq	%rdx,%r14
	movq	%rsi,%rax
	movq	(%rsi),%rsi
	movq	16(%rax),%rdx
	movzbl	24(%rax),%r13d
	movzbl	25(%rax),%ebx
	xorps	%xmm0,%xmm0
	movaps	%xmm0,224(%rsp)
	movaps	%xmm0,208(%rsp)
	movaps	%xmm0,272(%rsp)
	movaps	%xmm0,288(%rsp)
	movaps	%xmm0,304(%rsp)
	movaps	%xmm0,320(%rsp)
	movaps	%xmm0,336(%rsp)
	movaps	%xmm0,352(%rsp)
	movaps	%xmm0,368(%rsp)
	movaps	%xmm0,384(%rsp)
	movaps	%xmm0,240(%rsp)
	movl	$3,%r8d
	cmpq	%rdx,%r12
	jae	1f
	movb	$8,%cl
	xorl	%eax,%eax
	jmp	2f
1:
	movq	%rcx,%r15
	leaq	-49(%rdx),%rax
	cmpq	$-34,%rax
	movq	%rdx,40(%rsp)
	movq	%r9,264(%rsp)
	movq	%rdi,48(%rsp)
	ja	1f
	movq	%r15,%rdi
	callq	"rtp_b236e5ea_rtp_route::copying::put_any"
	movq	40(%rsp),%rdx
	jmp	3f
1:
	movups	(%rsi),%xmm0
	movups	%xmm0,(%r15)
	cmpq	$33,%rdx
	jb	1f
	movups	16(%rsi),%xmm0
	movups	%xmm0,16(%r15)
1:
	movups	-16(%rsi,%rdx),%xmm0
	movups	%xmm0,-16(%r15,%rdx)
3:
	movq	(%r14),%rax
	movzbl	40(%r14),%ebp
	movzbl	41(%r14),%ecx
	movb	%cl,39(%rsp)
	movq	$0,104(%rsp)
	movq	%r15,80(%rsp)
	movq	%rdx,88(%rsp)
	movq	%rdx,96(%rsp)
	movb	%r13b,104(%rsp)
	movb	%bl,105(%rsp)
	movq	%rax,%rbx
	leaq	80(%rsp),%rdi
	movq	%rax,%rsi
	callq	"rtp_b236e5ea_rtp_wire::packet::rtp_packet_mut::RtpPacketMut::renumber"
	testb	%al,%al
	je	1f
3:
	xorps	%xmm0,%xmm0
	movaps	%xmm0,80(%rsp)
	movq	$0,96(%rsp)
	movq	8(%r14),%rbp
	movq	32(%rbp),%r13
	testq	%r13,%r13
	je	4f
	xorl	%ebx,%ebx
	movq	40(%rsp),%rcx
	.p2align	4
5:
	movq	8(%rbp),%r9
	movq	24(%rbp),%rax
	addq	(%rax,%rbx),%r9
	movq	8(%rax,%rbx),%rdx
	movl	24(%rax,%rbx),%r8d
	movzbl	40(%r14),%eax
	movzbl	41(%r14),%esi
	movl	%esi,16(%rsp)
	movl	%eax,8(%rsp)
	movq	%rdx,(%rsp)
	leaq	80(%rsp),%rdi
	movq	%r15,%rsi
	movq	%r12,%rdx
	callq	"rtp_b236e5ea_rtp_wire::packet::putting::put_element_copy::<=1>"
	movq	88(%rsp),%rcx
	cmpb	$0,80(%rsp)
	jne	6f
	addq	$32,%rbx
	decq	%r13
	jne	5b
	jmp	5f
1:
	cmpb	$1,%bpl
	jne	1f
	cmpb	$0,39(%rsp)
	jne	1f
	xorl	%ecx,%ecx
	movl	$2,%r8d
	xorl	%eax,%eax
	xorl	%edx,%edx
7:
	movq	48(%rsp),%rdi
	jmp	2f
4:
	movq	40(%rsp),%rcx
5:
	leaq	240(%rsp),%rdi
	movq	%r15,%rsi
	movq	%rcx,%rdx
	callq	"rtp_b236e5ea_rtp_wire::packet::compacting::compact_copy::<=1>"
	cmpb	$0,240(%rsp)
	jne	4f
	movq	248(%rsp),%r12
	cmpq	$12,%r12
	jb	4f
	movzbl	(%r15),%edx
	cmpb	$-65,%dl
	jg	4f
	movl	%edx,%eax
	andl	$15,%eax
	leaq	12(,%rax,4),%rax
	movq	%r12,%rcx
	subq	%rax,%rcx
	jb	4f
	testb	$16,%dl
	jne	5f
	xorl	%r13d,%r13d
	xorl	%ebp,%ebp
	jmp	8f
5:
	cmpq	$4,%rcx
	jb	4f
	movzwl	2(%r15,%rax),%edx
	rolw	$8,%dx
	addq	$-4,%rcx
	movzwl	%dx,%edx
	shll	$2,%edx
	cmpq	%rdx,%rcx
	jb	4f
	movzwl	(%r15,%rax),%ecx
	movl	%ecx,%esi
	andl	$61695,%esi
	xorl	%ebp,%ebp
	cmpw	$16,%si
	sete	%bpl
	cmpl	$57022,%ecx
	movl	$1,%r13d
	cmovnel	%ebp,%r13d
	addq	%rdx,%rax
	addq	$4,%rax
8:
	movq	%r15,208(%rsp)
	movq	%r12,216(%rsp)
	movq	%rax,224(%rsp)
	movb	%r13b,232(%rsp)
	movb	%bpl,233(%rsp)
	movq	8(%r14),%rax
	movl	$0,64(%rsp)
	movq	$0,56(%rsp)
	xorps	%xmm0,%xmm0
	movaps	%xmm0,80(%rsp)
	movaps	%xmm0,96(%rsp)
	movaps	%xmm0,112(%rsp)
	movaps	%xmm0,128(%rsp)
	movaps	%xmm0,144(%rsp)
	movaps	%xmm0,160(%rsp)
	movaps	%xmm0,176(%rsp)
	movaps	%xmm0,192(%rsp)
	movq	32(%rax),%rbx
	testq	%rbx,%rbx
	je	5f
	movq	24(%rax),%r14
	addq	$24,%r14
	xorl	%r15d,%r15d
	.p2align	4
8:
	movzbl	(%r14),%edx
	leaq	56(%rsp),%rdi
	leaq	208(%rsp),%rsi
	callq	"rtp_b236e5ea_rtp_route::slots::slot_of"
	cmpb	$1,56(%rsp)
	jne	4f
	movq	60(%rsp),%rax
	movq	%rax,80(%rsp,%r15,8)
	incq	%r15
	addq	$32,%r14
	cmpq	%r15,%rbx
	jne	8b
5:
	movaps	192(%rsp),%xmm0
	movaps	%xmm0,384(%rsp)
	movaps	176(%rsp),%xmm0
	movaps	%xmm0,368(%rsp)
	movaps	160(%rsp),%xmm1
	movaps	%xmm1,352(%rsp)
	movaps	144(%rsp),%xmm2
	movaps	%xmm2,336(%rsp)
	movaps	80(%rsp),%xmm3
	movaps	96(%rsp),%xmm4
	movaps	112(%rsp),%xmm5
	movaps	128(%rsp),%xmm6
	movaps	%xmm6,320(%rsp)
	movaps	%xmm5,304(%rsp)
	movaps	%xmm4,288(%rsp)
	movaps	%xmm3,272(%rsp)
	movq	264(%rsp),%rax
	movups	%xmm0,96(%rax)
	movups	%xmm1,80(%rax)
	movups	%xmm2,64(%rax)
	movups	%xmm6,48(%rax)
	movups	%xmm5,32(%rax)
	movups	%xmm4,16(%rax)
	movups	%xmm3,(%rax)
	movaps	384(%rsp),%xmm0
	movups	%xmm0,112(%rax)
	movq	48(%rsp),%rax
	movq	$0,(%rax)
	movq	%r12,8(%rax)
	movb	%r13b,16(%rax)
	movb	%bpl,17(%rax)
	movq	$0,24(%rax)
	jmp	5f
6:
	movl	%ecx,%eax
	movq	96(%rsp),%rdx
	shrl	$8,%eax
	movq	48(%rsp),%rdi
	movl	$3,%r8d
2:
	movq	$1,(%rdi)
	movq	%r8,8(%rdi)
	movb	%cl,16(%rdi)
	movb	%al,17(%rdi)
	movq	%rdx,24(%rdi)
5:
	addq	$408,%rsp
	.cfi_def_cfa_offset 56
	popq	%rbx
	.cfi_def_cfa_offset 48
	popq	%r12
	.cfi_def_cfa_offset 40
	popq	%r13
	.cfi_def_cfa_offset 32
	popq	%r14
	.cfi_def_cfa_offset 24
	popq	%r15
	.cfi_def_cfa_offset 16
	popq	%rbp
	.cfi_def_cfa_offset 8
	retq
1:
	.cfi_def_cfa_offset 464
	leaq	56(%rsp),%rdi
	movq	%r15,%rsi
	movq	%r12,%rdx
	movq	40(%rsp),%rcx
	callq	"rtp_b236e5ea_rtp_route::in_place::change_form"
	movq	64(%rsp),%rcx
	cmpb	$0,56(%rsp)
	je	1f
	movl	%ecx,%eax
	movq	72(%rsp),%rdx
	shrl	$8,%eax
	movl	$3,%r8d
	jmp	7b
1:
	movq	$257,104(%rsp)
	movq	%r15,80(%rsp)
	movq	%rcx,88(%rsp)
	movq	%rcx,40(%rsp)
	movq	%rcx,96(%rsp)
	leaq	80(%rsp),%rdi
	movq	%rbx,%rsi
	callq	"rtp_b236e5ea_rtp_wire::packet::rtp_packet_mut::RtpPacketMut::renumber"
	jmp	3b
4:
	ud2
	.size	"rtp_b236e5ea_rtp_route::making::make_by_calls::<#2b2c45b9ae55a838>", .-"rtp_b236e5ea_rtp_route::making::make_by_calls::<#2b2c45b9ae55a838>"
	.cfi_endproc

	.section	".text.rtp_c::receiver::receive_any","ax",@progbits
	.p2align	4
	.type	"rtp_b236e5ea_rtp_c::receiver::receive_any",@function
"rtp_b236e5ea_rtp_c::receiver::receive_any":
	.cfi_startproc
	pushq	%r15
	.cfi_def_cfa_offset 16
	pushq	%r14
	.cfi_def_cfa_offset 24
	pushq	%rbx
	.cfi_def_cfa_offset 32
	.cfi_offset %rbx,-32
	.cfi_offset %r14,-24
	.cfi_offset %r15,-16
	movzbl	24(%rdi),%r9d
	movq	(%rdi),%r10
	testb	%r9b,%r9b
	je	1f
	subl	%r10d,%esi
	movzwl	%si,%eax
	leaq	(%rax,%r10),%r8
	testw	%ax,%ax
	jns	2f
	xorl	%eax,%eax
	negw	%si
	seto	%al
	shll	$16,%eax
	addq	$-65536,%rax
	testw	%r10w,%r10w
	movq	$-65536,%rcx
	cmovnsq	%rax,%rcx
	addq	%rcx,%r8
2:
	movq	8(%rdi),%r11
	movq	16(%rdi),%rsi
	orq	$1,%r11
	movq	%r10,%rcx
	subq	%r8,%rcx
	jae	2f
	movq	%r8,%rcx
	subq	%r10,%rcx
	cmpq	$1,%rcx
	jne	3f
	leaq	1(,%r11,2),%rax
	shldq	$1,%r11,%rsi
	movq	%r8,%r10
	jmp	4f
1:
	andq	$-65536,%r10
	movzwl	%si,%r8d
	orq	%r10,%r8
	movq	%r8,(%rdi)
	movq	$1,8(%rdi)
	movq	$0,16(%rdi)
	jmp	1f
2:
	movl	$10,%eax
	cmpq	$127,%rcx
	ja	2f
	movl	$1,%ebx
	xorl	%r14d,%r14d
	shldq	%cl,%rbx,%r14
	shlq	%cl,%rbx
	xorl	%r15d,%r15d
	testb	$64,%cl
	cmovneq	%rbx,%r14
	cmovneq	%r15,%rbx
	movq	%rsi,%rcx
	andq	%r14,%rcx
	movq	%r11,%r15
	andq	%rbx,%r15
	orq	%rcx,%r15
	je	5f
2:
	popq	%rbx
	.cfi_def_cfa_offset 24
	popq	%r14
	.cfi_def_cfa_offset 16
	popq	%r15
	.cfi_def_cfa_offset 8
	retq
3:
	.cfi_def_cfa_offset 32
	cmpq	$127,%rcx
	ja	2f
	shldq	%cl,%r11,%rsi
	shlq	%cl,%r11
	xorl	%eax,%eax
	testb	$64,%cl
	cmovneq	%r11,%rsi
	cmoveq	%r11,%rax
	orq	$1,%rax
	movq	%r8,%r10
	jmp	4f
2:
	movl	$1,%eax
	xorl	%esi,%esi
	movq	%r8,%r10
	jmp	4f
5:
	orq	%rbx,%r11
	orq	%r14,%rsi
	movq	%r11,%rax
4:
	movq	%r10,(%rdi)
	movq	%rax,8(%rdi)
	movq	%rsi,16(%rdi)
	cmpb	$1,%r9b
	je	2f
1:
	movb	$1,24(%rdi)
2:
	movq	%r8,(%rdx)
	xorl	%eax,%eax
	popq	%rbx
	.cfi_def_cfa_offset 24
	popq	%r14
	.cfi_def_cfa_offset 16
	popq	%r15
	.cfi_def_cfa_offset 8
	retq
	.size	"rtp_b236e5ea_rtp_c::receiver::receive_any", .-"rtp_b236e5ea_rtp_c::receiver::receive_any"
	.cfi_endproc

	.section	".text.rtp_base::ring::ring_start","ax",@progbits
	.p2align	4
	.type	"rtp_b236e5ea_rtp_base::ring::ring_start",@function
"rtp_b236e5ea_rtp_base::ring::ring_start":
	.cfi_startproc
	testq	%rsi,%rsi
	je	1f
	pushq	%r15
	.cfi_def_cfa_offset 16
	pushq	%r14
	.cfi_def_cfa_offset 24
	pushq	%rbx
	.cfi_def_cfa_offset 32
	.cfi_offset %rbx,-32
	.cfi_offset %r14,-24
	.cfi_offset %r15,-16
	movq	%rdx,%r14
	movq	%rsi,%r15
	movq	%rdi,%rbx
	cmpq	$1,%rsi
	je	2f
	leaq	-8(,%r15,8),%rdx
	movq	%rbx,%rdi
	xorl	%esi,%esi
	callq	memset@PLT
	movq	$0,-8(%rbx,%r15,8)
	cmpq	$16,%r15
	jne	3f
	movl	%r14d,%edx
	shrl	$6,%edx
	andl	$15,%edx
	jmp	4f
2:
	movq	$0,(%rbx)
3:
	movq	%r14,%rax
	shrq	$6,%rax
	movq	%rax,%rcx
	orq	%r15,%rcx
	shrq	$32,%rcx
	je	2f
	xorl	%edx,%edx
	divq	%r15
	jmp	4f
2:
	xorl	%edx,%edx
	divl	%r15d
4:
	movl	$1,%eax
	movl	%r14d,%ecx
	shlq	%cl,%rax
	orq	%rax,(%rbx,%rdx,8)
	popq	%rbx
	.cfi_def_cfa_offset 24
	popq	%r14
	.cfi_def_cfa_offset 16
	popq	%r15
	.cfi_def_cfa_offset 8
	retq
1:
	.cfi_restore %rbx
	.cfi_restore %r14
	.cfi_restore %r15
	ud2
	.size	"rtp_b236e5ea_rtp_base::ring::ring_start", .-"rtp_b236e5ea_rtp_base::ring::ring_start"
	.cfi_endproc

	.section	".text.rtp_base::ring::clear","ax",@progbits
	.p2align	4
	.type	"rtp_b236e5ea_rtp_base::ring::clear",@function
"rtp_b236e5ea_rtp_base::ring::clear":
	.cfi_startproc
	movq	%rcx,%rax
	subq	%rdx,%rax
	shrq	$6,%rax
	cmpq	%rax,%rsi
	jbe	1f
	movq	%rcx,%r8
	movq	%rdx,%r9
	cmpq	%rdx,%rcx
	jbe	2f
	cmpq	$16,%rsi
	jne	3f
	.p2align	4
4:
	movl	%r9d,%eax
	andl	$63,%eax
	movl	$64,%ecx
	subq	%rax,%rcx
	movq	%r8,%rdx
	subq	%r9,%rdx
	cmpq	%rcx,%rdx
	cmovaeq	%rcx,%rdx
	movl	%eax,%ecx
	addl	%edx,%ecx
	negb	%cl
	movq	$-1,%rsi
	shrq	%cl,%rsi
	movl	%eax,%ecx
	shrq	%cl,%rsi
	shlq	%cl,%rsi
	notq	%rsi
	movl	%r9d,%eax
	shrl	$3,%eax
	andl	$120,%eax
	andq	%rsi,(%rdi,%rax)
	addq	%rdx,%r9
	cmpq	%r8,%r9
	jb	4b
2:
	retq
	.p2align	4
4:
	xorl	%edx,%edx
	divq	%rsi
5:
	movl	%r10d,%ecx
	addl	%r11d,%ecx
	negb	%cl
	movq	$-1,%rax
	shrq	%cl,%rax
	movl	%r10d,%ecx
	shrq	%cl,%rax
	shlq	%cl,%rax
	notq	%rax
	andq	%rax,(%rdi,%rdx,8)
	addq	%r11,%r9
	cmpq	%r8,%r9
	jae	2b
3:
	movl	%r9d,%r10d
	andl	$63,%r10d
	movl	$64,%eax
	subq	%r10,%rax
	movq	%r8,%r11
	subq	%r9,%r11
	cmpq	%rax,%r11
	cmovaeq	%rax,%r11
	movq	%r9,%rax
	shrq	$6,%rax
	movq	%rax,%rcx
	orq	%rsi,%rcx
	shrq	$32,%rcx
	jne	4b
	xorl	%edx,%edx
	divl	%esi
	jmp	5b
1:
	testq	%rsi,%rsi
	je	2b
	cmpq	$1,%rsi
	je	1f
	pushq	%r14
	.cfi_def_cfa_offset 16
	pushq	%rbx
	.cfi_def_cfa_offset 24
	pushq	%rax
	.cfi_def_cfa_offset 32
	.cfi_offset %rbx,-24
	.cfi_offset %r14,-16
	leaq	-8(,%rsi,8),%rdx
	movq	%rdi,%rbx
	movq	%rsi,%r14
	xorl	%esi,%esi
	callq	memset@PLT
	movq	%r14,%rsi
	movq	%rbx,%rdi
	addq	$8,%rsp
	.cfi_def_cfa_offset 24
	popq	%rbx
	.cfi_def_cfa_offset 16
	popq	%r14
	.cfi_def_cfa_offset 8
	.cfi_restore %rbx
	.cfi_restore %r14
1:
	movq	$0,-8(%rdi,%rsi,8)
	retq
	.size	"rtp_b236e5ea_rtp_base::ring::clear", .-"rtp_b236e5ea_rtp_base::ring::clear"
	.cfi_endproc

	.section	".text.rtp_c::wide_receiver::receive_other","ax",@progbits
	.p2align	4
	.type	"rtp_b236e5ea_rtp_c::wide_receiver::receive_other",@function
"rtp_b236e5ea_rtp_c::wide_receiver::receive_other":
	.cfi_startproc
	pushq	%r15
	.cfi_def_cfa_offset 16
	pushq	%r14
	.cfi_def_cfa_offset 24
	pushq	%r13
	.cfi_def_cfa_offset 32
	pushq	%r12
	.cfi_def_cfa_offset 40
	pushq	%rbx
	.cfi_def_cfa_offset 48
	.cfi_offset %rbx,-48
	.cfi_offset %r12,-40
	.cfi_offset %r13,-32
	.cfi_offset %r14,-24
	.cfi_offset %r15,-16
	movq	%r8,%rbx
	movq	%rcx,%r14
	movq	%rdx,%r12
	movq	%rdi,%r15
	cmpb	$0,8(%rdi)
	je	1f
	movq	(%r15),%r8
	movl	$10,%eax
	movq	%r8,%rcx
	subq	%r14,%rcx
	je	2f
	jae	3f
4:
	cmpq	$16,%r12
	je	5f
	testq	%r12,%r12
	je	6f
	movq	%r8,%rax
	shrq	$6,%rax
	movq	%rax,%rcx
	orq	%r12,%rcx
	shrq	$32,%rcx
	je	7f
	xorl	%edx,%edx
	divq	%r12
	jmp	8f
1:
	movq	%rsi,%rdi
	movq	%r12,%rsi
	movq	%r14,%rdx
	callq	"rtp_b236e5ea_rtp_base::ring::ring_start"
1:
	movq	%r14,%r8
9:
	movq	%r8,(%r15)
	movb	$1,8(%r15)
	movq	%r14,(%rbx)
	xorl	%eax,%eax
2:
	popq	%rbx
	.cfi_def_cfa_offset 40
	popq	%r12
	.cfi_def_cfa_offset 32
	popq	%r13
	.cfi_def_cfa_offset 24
	popq	%r14
	.cfi_def_cfa_offset 16
	popq	%r15
	.cfi_def_cfa_offset 8
	retq
3:
	.cfi_def_cfa_offset 48
	shrq	$6,%rcx
	cmpq	%r12,%rcx
	jae	2b
	movq	%r14,%rdx
	shrq	$6,%rdx
	cmpq	$16,%r12
	jne	3f
	andl	$15,%edx
	movq	(%rsi,%rdx,8),%rcx
	btq	%r14,%rcx
	jb	2b
	jmp	4b
5:
	movl	%r8d,%edx
	shrl	$6,%edx
	andl	$15,%edx
	jmp	8f
3:
	movq	%rdx,%rax
	orq	%r12,%rax
	shrq	$32,%rax
	je	3f
	movq	%rdx,%rax
	xorl	%edx,%edx
	divq	%r12
	jmp	5f
7:
	xorl	%edx,%edx
	divl	%r12d
8:
	movl	$1,%eax
	movl	%r8d,%ecx
	shlq	%cl,%rax
	orq	%rax,(%rsi,%rdx,8)
	movq	%r8,%rax
	subq	%r14,%rax
	jae	7f
	movq	%r14,%rax
	subq	%r8,%rax
	cmpq	$2,%rax
	jb	8f
	incq	%r8
	movq	%rsi,%rdi
	movq	%rsi,%r13
	movq	%r12,%rsi
	movq	%r8,%rdx
	movq	%r14,%rcx
	callq	"rtp_b236e5ea_rtp_base::ring::clear"
	movq	%r13,%rsi
8:
	movq	%r14,%rax
	shrq	$6,%rax
	cmpq	$16,%r12
	jne	8f
	andl	$15,%eax
	jmp	10f
7:
	shrq	$6,%rax
	cmpq	%r12,%rax
	jae	9b
	movq	%r14,%rax
	shrq	$6,%rax
	movl	$1,%edi
	movl	%r14d,%ecx
	shlq	%cl,%rdi
	cmpq	$16,%r12
	jne	7f
	movl	%eax,%ecx
	andl	$15,%ecx
	testq	%rdi,(%rsi,%rcx,8)
	jne	9b
	shll	$3,%eax
	andl	$120,%eax
	movq	(%rsi,%rax),%rcx
	jmp	11f
8:
	movq	%rax,%rcx
	orq	%r12,%rcx
	shrq	$32,%rcx
	je	8f
	xorl	%edx,%edx
	divq	%r12
	movq	%rdx,%rax
	jmp	10f
7:
	movq	%rax,%rcx
	orq	%r12,%rcx
	shrq	$32,%rcx
	je	7f
	xorl	%edx,%edx
	divq	%r12
	movq	%rdx,%rax
	jmp	12f
8:
	xorl	%edx,%edx
	divl	%r12d
	movl	%edx,%eax
10:
	movl	$1,%edx
	movl	%r14d,%ecx
	shlq	%cl,%rdx
	orq	%rdx,(%rsi,%rax,8)
	jmp	1b
3:
	movl	%edx,%eax
	xorl	%edx,%edx
	divl	%r12d
5:
	movl	$10,%eax
	movq	(%rsi,%rdx,8),%rcx
	btq	%r14,%rcx
	jb	2b
	jmp	4b
7:
	xorl	%edx,%edx
	divl	%r12d
	movl	%edx,%eax
12:
	movq	(%rsi,%rax,8),%rcx
	testq	%rdi,%rcx
	jne	9b
	shlq	$3,%rax
11:
	orq	%rdi,%rcx
	movq	%rcx,(%rsi,%rax)
	jmp	9b
6:
	ud2
	.size	"rtp_b236e5ea_rtp_c::wide_receiver::receive_other", .-"rtp_b236e5ea_rtp_c::wide_receiver::receive_other"
	.cfi_endproc

	.section	".text.unlikely.rtp_c::whole_packet::status_of_no_packet","ax",@progbits
	.p2align	4
	.type	"rtp_b236e5ea_rtp_c::whole_packet::status_of_no_packet",@function
"rtp_b236e5ea_rtp_c::whole_packet::status_of_no_packet":
	.cfi_startproc
	cmpq	$2,%rsi
	jb	1f
	cmpb	$-65,(%rdi)
	jg	1f
	movzbl	1(%rdi),%ecx
	andb	$-32,%cl
	movl	$17,%eax
	cmpb	$-64,%cl
	jne	1f
	retq
1:
	movzbl	%dl,%eax
	leaq	"rtp_b236e5ea_.Lrtp_b236e5ea_switch.table.rtp_c::whole_packet::status_of_no_packet"(%rip), %rcx
	movl	(%rcx,%rax,4),%eax
	retq
	.size	"rtp_b236e5ea_rtp_c::whole_packet::status_of_no_packet", .-"rtp_b236e5ea_rtp_c::whole_packet::status_of_no_packet"
	.cfi_endproc

	.section	".text.rtp_c::given_layers::with_given_layers::<#6444109e7f8c5753>","ax",@progbits
	.p2align	4
	.type	"rtp_b236e5ea_rtp_c::given_layers::with_given_layers::<#6444109e7f8c5753>",@function
"rtp_b236e5ea_rtp_c::given_layers::with_given_layers::<#6444109e7f8c5753>":
	.cfi_startproc
	pushq	%rbp
	.cfi_def_cfa_offset 16
	pushq	%r15
	.cfi_def_cfa_offset 24
	pushq	%r14
	.cfi_def_cfa_offset 32
	pushq	%r13
	.cfi_def_cfa_offset 40
	pushq	%r12
	.cfi_def_cfa_offset 48
	pushq	%rbx
	.cfi_def_cfa_offset 56
	.cfi_offset %rbx,-56
	.cfi_offset %r12,-48
	.cfi_offset %r13,-40
	.cfi_offset %r14,-32
	.cfi_offset %r15,-24
	.cfi_offset %rbp,-16
	movzbl	672(%rdx),%eax
	cmpq	$4,%rax
	ja	1f
	testq	%rax,%rax
	je	2f
	movzbl	160(%rdx),%ecx
	cmpb	$5,%cl
	jae	1f
	testb	%cl,%cl
	je	3f
	cmpb	$4,38(%rdx)
	ja	1f
	cmpb	$1,%cl
	jne	4f
3:
	cmpl	$1,%eax
	jne	5f
6:
	movzbl	673(%rdx),%ecx
	movl	$0,-44(%rsp)
	movq	%rcx,-24(%rsp)
	cmpq	$3,%rcx
	ja	7f
	xorl	%r9d,%r9d
	movq	%rax,%rcx
	movq	$0,-40(%rsp)
	movq	$0,-32(%rsp)
8:
	decq	%rcx
	movq	%rcx,-16(%rsp)
	imulq	$168,%rcx,%rbx
	movzbl	160(%rdx,%rbx),%ecx
	testb	%cl,%cl
	je	9f
	addq	%rdx,%rbx
	movzbl	%cl,%r8d
	cmpb	$4,%cl
	movl	$4,%ecx
	cmovbl	%r8d,%ecx
	movzbl	%cl,%r14d
	xorl	%ebp,%ebp
	movb	%r9b,-45(%rsp)
	jmp	10f
11:
	testb	$1,-45(%rsp)
	jne	7f
12:
	addq	%r10,-40(%rsp)
	incq	-32(%rsp)
	addb	%bpl,%bpl
	incb	%bpl
	movq	-8(%rsp),%r9
	movb	%r9b,-45(%rsp)
	decq	%r14
	je	13f
10:
	leaq	-8(,%r14,8),%rcx
	leaq	(%rcx,%rcx,4),%r8
	movzbl	37(%rbx,%r8),%r12d
	testb	%r12b,%r12b
	setne	%cl
	movq	%rcx,-8(%rsp)
	je	14f
	cmpw	$0,34(%rbx,%r8)
	setne	%cl
	cmpw	$0,32(%rbx,%r8)
	setne	%r13b
	andb	%cl,%r13b
	cmpb	$7,%bpl
	jbe	15f
	jmp	7f
14:
	xorl	%r13d,%r13d
	cmpb	$7,%bpl
	ja	7f
15:
	movzbl	38(%rbx,%r8),%r9d
	testb	%r9b,%r9b
	je	14f
	movq	(%rbx,%r8),%rcx
	cmpq	$16384,%rcx
	jb	15f
	testq	%rcx,%rcx
	js	7f
	movl	$3,%r10d
	cmpq	$2097152,%rcx
	jb	16f
	shrq	$14,%rcx
	movq	%rcx,%r15
	.p2align	4
17:
	shrq	$7,%r15
	incq	%r10
	cmpq	$16383,%rcx
	movq	%r15,%rcx
	ja	17b
16:
	cmpb	$1,%r9b
	jne	16f
	jmp	17f
14:
	testb	%r12b,%r12b
	jne	7f
	addb	%bpl,%bpl
	movzbl	-45(%rsp),%ecx
	movl	%ecx,%r9d
	decq	%r14
	jne	10b
	jmp	13f
15:
	cmpq	$128,%rcx
	movl	$2,%r10d
	sbbq	$0,%r10
	cmpb	$1,%r9b
	je	17f
16:
	movq	8(%rbx,%r8),%r11
	cmpq	$16383,%r11
	jbe	10f
	testq	%r11,%r11
	js	7f
	movl	$3,%r15d
	cmpq	$2097152,%r11
	jb	14f
	shrq	$14,%r11
	movq	%r11,%rcx
	.p2align	4
15:
	shrq	$7,%rcx
	incq	%r15
	cmpq	$16383,%r11
	movq	%rcx,%r11
	ja	15b
14:
	addq	%r15,%r10
	cmpb	$2,%r9b
	jne	14f
	jmp	17f
10:
	cmpq	$128,%r11
	movl	$2,%r15d
	sbbq	$0,%r15
	addq	%r15,%r10
	cmpb	$2,%r9b
	je	17f
14:
	movq	16(%rbx,%r8),%rcx
	cmpq	$16383,%rcx
	jbe	10f
	testq	%rcx,%rcx
	js	7f
	movl	$3,%r15d
	cmpq	$2097152,%rcx
	jb	14f
	shrq	$14,%rcx
	movq	%rcx,%r11
	.p2align	4
15:
	shrq	$7,%r11
	incq	%r15
	cmpq	$16383,%rcx
	movq	%r11,%rcx
	ja	15b
	jmp	14f
10:
	cmpq	$128,%rcx
	movl	$2,%r15d
	sbbq	$0,%r15
14:
	addq	%r15,%r10
	cmpb	$3,%r9b
	je	17f
	movq	24(%rbx,%r8),%rcx
	cmpq	$16383,%rcx
	jbe	10f
	testq	%rcx,%rcx
	js	7f
	movl	$3,%r8d
	cmpq	$2097152,%rcx
	jb	14f
	shrq	$14,%rcx
	movq	%rcx,%r9
15:
	shrq	$7,%r9
	incq	%r8
	cmpq	$16383,%rcx
	movq	%r9,%rcx
	ja	15b
	jmp	14f
10:
	cmpq	$128,%rcx
	movl	$2,%r8d
	sbbq	$0,%r8
14:
	addq	%r8,%r10
17:
	testb	%r12b,%r12b
	je	11b
	testb	%r13b,%r13b
	je	7f
	addq	$5,%r10
	jmp	12b
9:
	xorl	%ebp,%ebp
13:
	movq	-16(%rsp),%rcx
	movb	%bpl,-44(%rsp,%rcx)
	testq	%rcx,%rcx
	jne	8b
	movzbl	-44(%rsp),%r8d
	movl	$1,%ecx
	movq	-32(%rsp),%r10
8:
	cmpq	%rcx,%rax
	je	9f
	cmpb	%r8b,-44(%rsp,%rcx)
	leaq	1(%rcx),%rcx
	je	8b
	leal	1(%rax),%ecx
	shrl	%ecx
	xorl	%r8d,%r8d
	jmp	8f
2:
	cmpb	$0,673(%rdx)
	je	2f
7:
	xorl	%ecx,%ecx
	xorl	%esi,%esi
	xorl	%r9d,%r9d
	xorl	%edx,%edx
	xorl	%eax,%eax
	xorl	%r8d,%r8d
	jmp	10f
2:
	movabsq	$281474976710656,%r8
	movl	$1,%ecx
	xorl	%r9d,%r9d
	xorl	%eax,%eax
10:
	movq	%rcx,(%rdi)
	movq	%rsi,8(%rdi)
	movq	%r9,16(%rdi)
	movq	%rdx,24(%rdi)
	movq	%rax,32(%rdi)
	movq	%r8,40(%rdi)
	jmp	2f
5:
	movzbl	328(%rdx),%ecx
	cmpb	$4,%cl
	ja	1f
	testb	%cl,%cl
	je	5f
	cmpb	$4,206(%rdx)
	ja	1f
	cmpb	$1,%cl
	jne	11f
5:
	cmpl	$2,%eax
	je	6b
	movzbl	496(%rdx),%ecx
	cmpb	$4,%cl
	ja	1f
	testb	%cl,%cl
	je	12f
	cmpb	$4,374(%rdx)
	ja	1f
	cmpb	$1,%cl
	jne	13f
12:
	cmpl	$3,%eax
	je	6b
	movzbl	664(%rdx),%ecx
	cmpb	$4,%cl
	ja	1f
	testb	%cl,%cl
	je	6b
	cmpb	$4,542(%rdx)
	ja	1f
	cmpb	$1,%cl
	je	6b
	cmpb	$4,582(%rdx)
	ja	1f
	cmpb	$2,%cl
	je	6b
	cmpb	$4,622(%rdx)
	ja	1f
	cmpb	$3,%cl
	je	6b
	cmpb	$5,662(%rdx)
	setb	%r8b
	cmpb	$4,%cl
	sete	%cl
	testb	%cl,%r8b
	jne	6b
	jmp	1f
4:
	cmpb	$4,78(%rdx)
	ja	1f
	cmpb	$2,%cl
	je	3b
	cmpb	$4,118(%rdx)
	ja	1f
	cmpb	$3,%cl
	je	3b
	cmpb	$5,158(%rdx)
	setb	%r8b
	cmpb	$4,%cl
	sete	%cl
	testb	%cl,%r8b
	jne	3b
	jmp	1f
11:
	cmpb	$4,246(%rdx)
	ja	1f
	cmpb	$2,%cl
	je	5b
	cmpb	$4,286(%rdx)
	ja	1f
	cmpb	$3,%cl
	je	5b
	cmpb	$5,326(%rdx)
	setae	%r8b
	cmpb	$4,%cl
	setne	%cl
	orb	%r8b,%cl
	je	5b
	jmp	1f
13:
	cmpb	$4,414(%rdx)
	ja	1f
	cmpb	$2,%cl
	je	12b
	cmpb	$4,454(%rdx)
	ja	1f
	cmpb	$3,%cl
	je	12b
	cmpb	$5,494(%rdx)
	setae	%r8b
	cmpb	$4,%cl
	setne	%cl
	orb	%r8b,%cl
	je	12b
1:
	xorps	%xmm0,%xmm0
	movups	%xmm0,32(%rdi)
	movups	%xmm0,16(%rdi)
	movups	%xmm0,(%rdi)
2:
	popq	%rbx
	.cfi_def_cfa_offset 48
	popq	%r12
	.cfi_def_cfa_offset 40
	popq	%r13
	.cfi_def_cfa_offset 32
	popq	%r14
	.cfi_def_cfa_offset 24
	popq	%r15
	.cfi_def_cfa_offset 16
	popq	%rbp
	.cfi_def_cfa_offset 8
	retq
9:
	.cfi_def_cfa_offset 56
	leal	1(%rax),%r9d
	shrl	%r9d
	xorl	%ecx,%ecx
	testq	%r8,%r8
	cmoveq	%r9,%rcx
	shlq	$32,%r8
8:
	leal	3(%r10),%r9d
	shrl	$2,%r9d
	movq	-40(%rsp),%r11
	addl	%r9d,%r11d
	addl	%r11d,%ecx
	incl	%ecx
	shlq	$48,%rcx
	movq	%rcx,%r9
	shrq	$56,%r9
	jne	7b
	movl	-44(%rsp),%r9d
	movzbl	%r10b,%r10d
	shlq	$40,%r10
	orq	%r10,%r8
	orq	%r9,%r8
	orq	%rcx,%r8
	movl	$1,%ecx
	movq	-24(%rsp),%r9
	jmp	10b
	.size	"rtp_b236e5ea_rtp_c::given_layers::with_given_layers::<#6444109e7f8c5753>", .-"rtp_b236e5ea_rtp_c::given_layers::with_given_layers::<#6444109e7f8c5753>"
	.cfi_endproc

	.section	".text.rtp_ext::block_form::has_empty_data::<#16f98aa29e959305>","ax",@progbits
	.p2align	4
	.type	"rtp_b236e5ea_rtp_ext::block_form::has_empty_data::<#16f98aa29e959305>",@function
"rtp_b236e5ea_rtp_ext::block_form::has_empty_data::<#16f98aa29e959305>":
	.cfi_startproc
	testq	%rsi,%rsi
	je	1f
	pushq	%r14
	.cfi_def_cfa_offset 16
	pushq	%rbx
	.cfi_def_cfa_offset 24
	pushq	%rax
	.cfi_def_cfa_offset 32
	.cfi_offset %rbx,-24
	.cfi_offset %r14,-16
	movq	%rdx,%rbx
	movq	%rdi,%r14
	xorl	%eax,%eax
	.p2align	4
2:
	cmpq	%rsi,%rax
	setb	%cl
	jae	3f
	movzbl	1(%r14,%rax),%edx
	incq	%rax
	cmpl	$10,%edx
	je	4f
	cmpl	$11,%edx
	je	5f
	cmpl	$12,%edx
	jne	2b
	movq	(%rbx),%rdx
	cmpb	$0,128(%rdx)
	je	2b
	cmpb	$0,80(%rdx)
	jne	2b
	jmp	6f
	.p2align	4
3:
	cmpq	$15,%rsi
	jb	6f
	cmpq	$254,%rax
	ja	6f
	movq	%r14,%rdi
	movq	%rax,%rsi
	callq	"rtp_b236e5ea_rtp_c::kinds::StoredMap::past_unmapped"
	movq	%rax,%rcx
	addq	$16,%rcx
	cmpq	$255,%rcx
	movl	$255,%esi
	cmovbq	%rcx,%rsi
	jmp	2b
5:
	movq	(%rbx),%rdx
	cmpb	$0,130(%rdx)
	je	2b
	cmpb	$0,106(%rdx)
	jne	2b
	jmp	6f
4:
	movq	(%rbx),%rdx
	cmpb	$0,129(%rdx)
	je	2b
	cmpb	$0,97(%rdx)
	jne	2b
6:
	addq	$8,%rsp
	.cfi_def_cfa_offset 24
	popq	%rbx
	.cfi_def_cfa_offset 16
	popq	%r14
	.cfi_def_cfa_offset 8
	.cfi_restore %rbx
	.cfi_restore %r14
	movl	%ecx,%eax
	retq
1:
	xorl	%ecx,%ecx
	movl	%ecx,%eax
	retq
	.size	"rtp_b236e5ea_rtp_ext::block_form::has_empty_data::<#16f98aa29e959305>", .-"rtp_b236e5ea_rtp_ext::block_form::has_empty_data::<#16f98aa29e959305>"
	.cfi_endproc

	.section	".text.rtp_ext::block_elements::values_len::<#16f98aa29e959305>","ax",@progbits
	.p2align	4
	.type	"rtp_b236e5ea_rtp_ext::block_elements::values_len::<#16f98aa29e959305>",@function
"rtp_b236e5ea_rtp_ext::block_elements::values_len::<#16f98aa29e959305>":
	.cfi_startproc
	pushq	%r15
	.cfi_def_cfa_offset 16
	pushq	%r14
	.cfi_def_cfa_offset 24
	pushq	%r12
	.cfi_def_cfa_offset 32
	pushq	%rbx
	.cfi_def_cfa_offset 40
	pushq	%rax
	.cfi_def_cfa_offset 48
	.cfi_offset %rbx,-40
	.cfi_offset %r12,-32
	.cfi_offset %r14,-24
	.cfi_offset %r15,-16
	movq	%rdx,%rbx
	movq	%rdi,%r14
	cmpb	$1,%cl
	movl	$2,%r12d
	sbbq	$0,%r12
	xorl	%eax,%eax
	xorl	%r15d,%r15d
	jmp	1f
2:
	xorl	%ecx,%ecx
3:
	addq	%r12,%r15
	addq	%rcx,%r15
	.p2align	4
1:
	cmpq	%rsi,%rax
	jae	4f
	movzbl	1(%r14,%rax),%ecx
	incq	%rax
	decl	%ecx
	cmpl	$14,%ecx
	ja	1b
	leaq	5f(%rip),%rdx
	movslq	(%rdx,%rcx,4),%rcx
	addq	%rdx,%rcx
	jmpq	*%rcx
6:
	movq	(%rbx),%rdx
	movl	$3,%ecx
	cmpb	$0,115(%rdx)
	jne	3b
	jmp	1b
4:
	cmpq	$15,%rsi
	jb	4f
	cmpq	$254,%rax
	ja	4f
	movq	%r14,%rdi
	movq	%rax,%rsi
	callq	"rtp_b236e5ea_rtp_c::kinds::StoredMap::past_unmapped"
	movq	%rax,%rcx
	addq	$16,%rcx
	cmpq	$255,%rcx
	movl	$255,%esi
	cmovbq	%rcx,%rsi
	jmp	1b
7:
	movq	(%rbx),%rcx
	cmpb	$0,128(%rcx)
	je	1b
	cmpb	$0,80(%rcx)
	je	2b
	cmpb	$0,81(%rcx)
	je	8f
	cmpb	$0,82(%rcx)
	je	9f
	cmpb	$0,83(%rcx)
	je	10f
	cmpb	$0,84(%rcx)
	je	11f
	cmpb	$0,85(%rcx)
	je	12f
	cmpb	$0,86(%rcx)
	je	13f
	cmpb	$0,87(%rcx)
	je	14f
	cmpb	$0,88(%rcx)
	je	15f
	cmpb	$0,89(%rcx)
	je	16f
	cmpb	$0,90(%rcx)
	je	17f
	cmpb	$0,91(%rcx)
	je	18f
	cmpb	$0,92(%rcx)
	je	19f
	cmpb	$0,93(%rcx)
	je	20f
	cmpb	$0,94(%rcx)
	je	21f
	cmpb	$0,95(%rcx)
	je	22f
	cmpb	$1,96(%rcx)
	movl	$17,%ecx
	sbbq	$0,%rcx
	jmp	3b
23:
	movq	(%rbx),%rcx
	cmpb	$0,121(%rcx)
	je	1b
	movzwl	66(%rcx),%edx
	movl	$1,%ecx
	cmpl	$179,%edx
	jg	24f
	testl	%edx,%edx
	je	3b
	cmpl	$90,%edx
	je	3b
	jmp	1b
25:
	movq	(%rbx),%rdx
	movl	$4,%ecx
	cmpb	$0,119(%rdx)
	jne	3b
	jmp	1b
26:
	movq	(%rbx),%rcx
	cmpb	$0,129(%rcx)
	je	1b
	cmpb	$0,97(%rcx)
	je	2b
	cmpb	$0,98(%rcx)
	je	8f
	cmpb	$0,99(%rcx)
	je	9f
	cmpb	$0,100(%rcx)
	je	10f
	cmpb	$0,101(%rcx)
	je	11f
	cmpb	$0,102(%rcx)
	je	12f
	cmpb	$0,103(%rcx)
	je	13f
	cmpb	$0,104(%rcx)
	je	14f
	cmpb	$1,105(%rcx)
	jmp	27f
28:
	movq	(%rbx),%rdx
	cmpb	$0,123(%rdx)
	je	1b
	movl	$1,%ecx
	cmpb	$0,124(%rdx)
	jne	3b
	jmp	1b
29:
	movq	(%rbx),%rdx
	movl	$4,%ecx
	cmpb	$0,118(%rdx)
	jne	3b
	jmp	1b
30:
	movq	(%rbx),%rdx
	movl	$1,%ecx
	cmpb	$0,122(%rdx)
	jne	3b
	jmp	1b
31:
	movq	(%rbx),%rcx
	cmpb	$0,116(%rcx)
	je	1b
	xorl	%edx,%edx
	cmpb	$0,117(%rcx)
	setne	%dl
	leaq	8(,%rdx,8),%rcx
	jmp	3b
32:
	movq	(%rbx),%rdx
	movl	$2,%ecx
	cmpb	$0,120(%rdx)
	jne	3b
	jmp	1b
33:
	movq	(%rbx),%rcx
	cmpb	$0,125(%rcx)
	je	34f
	cmpl	$0,32(%rcx)
	setne	%dl
	cmpb	$0,126(%rcx)
	jne	35f
	jmp	1b
36:
	movq	(%rbx),%rcx
	cmpb	$0,130(%rcx)
	je	1b
	cmpb	$0,106(%rcx)
	je	2b
	cmpb	$0,107(%rcx)
	je	8f
	cmpb	$0,108(%rcx)
	je	9f
	cmpb	$0,109(%rcx)
	je	10f
	cmpb	$0,110(%rcx)
	je	11f
	cmpb	$0,111(%rcx)
	je	12f
	cmpb	$0,112(%rcx)
	je	13f
	cmpb	$0,113(%rcx)
	je	14f
	cmpb	$1,114(%rcx)
27:
	movl	$9,%ecx
	sbbq	$0,%rcx
	jmp	3b
2:
	movq	(%rbx),%rdx
	movl	$13,%ecx
	cmpb	$0,127(%rdx)
	jne	3b
	jmp	1b
8:
	movl	$1,%ecx
	jmp	3b
34:
	xorl	%edx,%edx
	cmpb	$0,126(%rcx)
	je	1b
35:
	cmpl	$0,48(%rcx)
	setne	%dil
	movl	$3,%ecx
	testb	%dil,%dl
	je	1b
	jmp	3b
24:
	cmpl	$180,%edx
	je	3b
	cmpl	$270,%edx
	je	3b
	jmp	1b
9:
	movl	$2,%ecx
	jmp	3b
10:
	movl	$3,%ecx
	jmp	3b
11:
	movl	$4,%ecx
	jmp	3b
12:
	movl	$5,%ecx
	jmp	3b
13:
	movl	$6,%ecx
	jmp	3b
14:
	movl	$7,%ecx
	jmp	3b
15:
	movl	$8,%ecx
	jmp	3b
16:
	movl	$9,%ecx
	jmp	3b
17:
	movl	$10,%ecx
	jmp	3b
18:
	movl	$11,%ecx
	jmp	3b
19:
	movl	$12,%ecx
	jmp	3b
20:
	movl	$13,%ecx
	jmp	3b
21:
	movl	$14,%ecx
	jmp	3b
22:
	movl	$15,%ecx
	jmp	3b
4:
	movq	%r15,%rax
	addq	$8,%rsp
	.cfi_def_cfa_offset 40
	popq	%rbx
	.cfi_def_cfa_offset 32
	popq	%r12
	.cfi_def_cfa_offset 24
	popq	%r14
	.cfi_def_cfa_offset 16
	popq	%r15
	.cfi_def_cfa_offset 8
	retq
	.size	"rtp_b236e5ea_rtp_ext::block_elements::values_len::<#16f98aa29e959305>", .-"rtp_b236e5ea_rtp_ext::block_elements::values_len::<#16f98aa29e959305>"
	.cfi_endproc
	.section	".rodata.rtp_ext::block_elements::values_len::<#16f98aa29e959305>","a",@progbits
	.p2align	2,0x0
5:
	.long	6b-5b
	.long	31b-5b
	.long	28b-5b
	.long	29b-5b
	.long	23b-5b
	.long	32b-5b
	.long	33b-5b
	.long	30b-5b
	.long	2b-5b
	.long	26b-5b
	.long	36b-5b
	.long	7b-5b
	.long	25b-5b
	.long	1b-5b
	.long	1b-5b

	.section	".text.rtp_ext::block_form::has_empty_data::<#defbc6cea7b2a850>","ax",@progbits
	.p2align	4
	.type	"rtp_b236e5ea_rtp_ext::block_form::has_empty_data::<#defbc6cea7b2a850>",@function
"rtp_b236e5ea_rtp_ext::block_form::has_empty_data::<#defbc6cea7b2a850>":
	.cfi_startproc
	testq	%rsi,%rsi
	je	1f
	pushq	%r14
	.cfi_def_cfa_offset 16
	pushq	%rbx
	.cfi_def_cfa_offset 24
	pushq	%rax
	.cfi_def_cfa_offset 32
	.cfi_offset %rbx,-24
	.cfi_offset %r14,-16
	movq	%rdx,%rbx
	movq	%rdi,%r14
	xorl	%eax,%eax
	.p2align	4
2:
	cmpq	%rsi,%rax
	setb	%cl
	jae	3f
	movzbl	1(%r14,%rax),%edx
	incq	%rax
	cmpl	$10,%edx
	je	4f
	cmpl	$11,%edx
	je	5f
	cmpl	$12,%edx
	jne	2b
	movq	(%rbx),%rdx
	movq	(%rdx),%rdx
	cmpb	$0,128(%rdx)
	je	2b
	cmpb	$0,80(%rdx)
	jne	2b
	jmp	6f
	.p2align	4
3:
	cmpq	$15,%rsi
	jb	6f
	cmpq	$254,%rax
	ja	6f
	movq	%r14,%rdi
	movq	%rax,%rsi
	callq	"rtp_b236e5ea_rtp_c::kinds::StoredMap::past_unmapped"
	movq	%rax,%rcx
	addq	$16,%rcx
	cmpq	$255,%rcx
	movl	$255,%esi
	cmovbq	%rcx,%rsi
	jmp	2b
5:
	movq	(%rbx),%rdx
	movq	(%rdx),%rdx
	cmpb	$0,130(%rdx)
	je	2b
	cmpb	$0,106(%rdx)
	jne	2b
	jmp	6f
4:
	movq	(%rbx),%rdx
	movq	(%rdx),%rdx
	cmpb	$0,129(%rdx)
	je	2b
	cmpb	$0,97(%rdx)
	jne	2b
6:
	addq	$8,%rsp
	.cfi_def_cfa_offset 24
	popq	%rbx
	.cfi_def_cfa_offset 16
	popq	%r14
	.cfi_def_cfa_offset 8
	.cfi_restore %rbx
	.cfi_restore %r14
	movl	%ecx,%eax
	retq
1:
	xorl	%ecx,%ecx
	movl	%ecx,%eax
	retq
	.size	"rtp_b236e5ea_rtp_ext::block_form::has_empty_data::<#defbc6cea7b2a850>", .-"rtp_b236e5ea_rtp_ext::block_form::has_empty_data::<#defbc6cea7b2a850>"
	.cfi_endproc

	.section	".text.rtp_ext::block_elements::values_len::<#defbc6cea7b2a850>","ax",@progbits
	.p2align	4
	.type	"rtp_b236e5ea_rtp_ext::block_elements::values_len::<#defbc6cea7b2a850>",@function
"rtp_b236e5ea_rtp_ext::block_elements::values_len::<#defbc6cea7b2a850>":
	.cfi_startproc
	pushq	%r15
	.cfi_def_cfa_offset 16
	pushq	%r14
	.cfi_def_cfa_offset 24
	pushq	%r12
	.cfi_def_cfa_offset 32
	pushq	%rbx
	.cfi_def_cfa_offset 40
	pushq	%rax
	.cfi_def_cfa_offset 48
	.cfi_offset %rbx,-40
	.cfi_offset %r12,-32
	.cfi_offset %r14,-24
	.cfi_offset %r15,-16
	movq	%rdx,%rbx
	movq	%rdi,%r14
	cmpb	$1,%cl
	movl	$2,%r12d
	sbbq	$0,%r12
	xorl	%eax,%eax
	xorl	%r15d,%r15d
	jmp	1f
2:
	movzwl	38(%rbx),%ecx
3:
	addq	%r12,%r15
	addq	%rcx,%r15
	.p2align	4
1:
	cmpq	%rsi,%rax
	jae	4f
	movzbl	1(%r14,%rax),%ecx
	incq	%rax
	decl	%ecx
	cmpl	$14,%ecx
	ja	1b
	leaq	5f(%rip),%rdx
	movslq	(%rdx,%rcx,4),%rcx
	addq	%rdx,%rcx
	jmpq	*%rcx
6:
	movq	(%rbx),%rcx
	movq	(%rcx),%rdx
	movl	$3,%ecx
	cmpb	$0,115(%rdx)
	jne	3b
	jmp	1b
4:
	cmpq	$15,%rsi
	jb	4f
	cmpq	$254,%rax
	ja	4f
	movq	%r14,%rdi
	movq	%rax,%rsi
	callq	"rtp_b236e5ea_rtp_c::kinds::StoredMap::past_unmapped"
	movq	%rax,%rcx
	addq	$16,%rcx
	cmpq	$255,%rcx
	movl	$255,%esi
	cmovbq	%rcx,%rsi
	jmp	1b
7:
	movq	(%rbx),%rcx
	movq	(%rcx),%rcx
	cmpb	$0,128(%rcx)
	je	1b
	cmpb	$0,80(%rcx)
	je	8f
	cmpb	$0,81(%rcx)
	je	9f
	cmpb	$0,82(%rcx)
	je	10f
	cmpb	$0,83(%rcx)
	je	11f
	cmpb	$0,84(%rcx)
	je	12f
	cmpb	$0,85(%rcx)
	je	13f
	cmpb	$0,86(%rcx)
	je	14f
	cmpb	$0,87(%rcx)
	je	15f
	cmpb	$0,88(%rcx)
	je	16f
	cmpb	$0,89(%rcx)
	je	17f
	cmpb	$0,90(%rcx)
	je	18f
	cmpb	$0,91(%rcx)
	je	19f
	cmpb	$0,92(%rcx)
	je	20f
	cmpb	$0,93(%rcx)
	je	21f
	cmpb	$0,94(%rcx)
	je	22f
	cmpb	$0,95(%rcx)
	je	23f
	cmpb	$1,96(%rcx)
	movl	$17,%ecx
	sbbq	$0,%rcx
	jmp	3b
24:
	movq	(%rbx),%rcx
	movq	(%rcx),%rcx
	cmpb	$0,121(%rcx)
	je	1b
	movzwl	66(%rcx),%edx
	movl	$1,%ecx
	cmpl	$179,%edx
	jg	25f
	testl	%edx,%edx
	je	3b
	cmpl	$90,%edx
	je	3b
	jmp	1b
26:
	movq	(%rbx),%rcx
	movq	(%rcx),%rdx
	movl	$4,%ecx
	cmpb	$0,119(%rdx)
	jne	3b
	jmp	1b
27:
	movq	(%rbx),%rcx
	movq	(%rcx),%rcx
	cmpb	$0,129(%rcx)
	je	1b
	cmpb	$0,97(%rcx)
	je	8f
	cmpb	$0,98(%rcx)
	je	9f
	cmpb	$0,99(%rcx)
	je	10f
	cmpb	$0,100(%rcx)
	je	11f
	cmpb	$0,101(%rcx)
	je	12f
	cmpb	$0,102(%rcx)
	je	13f
	cmpb	$0,103(%rcx)
	je	14f
	cmpb	$0,104(%rcx)
	je	15f
	cmpb	$1,105(%rcx)
	jmp	28f
29:
	movq	(%rbx),%rcx
	movq	(%rcx),%rdx
	cmpb	$0,123(%rdx)
	je	1b
	movl	$1,%ecx
	cmpb	$0,124(%rdx)
	jne	3b
	jmp	1b
30:
	movq	(%rbx),%rcx
	movq	(%rcx),%rdx
	movl	$4,%ecx
	cmpb	$0,118(%rdx)
	jne	3b
	jmp	1b
31:
	movq	(%rbx),%rcx
	movq	(%rcx),%rdx
	movl	$1,%ecx
	cmpb	$0,122(%rdx)
	jne	3b
	jmp	1b
32:
	movq	(%rbx),%rcx
	movq	(%rcx),%rcx
	cmpb	$0,116(%rcx)
	je	1b
	xorl	%edx,%edx
	cmpb	$0,117(%rcx)
	setne	%dl
	leaq	8(,%rdx,8),%rcx
	jmp	3b
33:
	movq	(%rbx),%rcx
	movq	(%rcx),%rdx
	movl	$2,%ecx
	cmpb	$0,120(%rdx)
	jne	3b
	jmp	1b
34:
	movq	(%rbx),%rcx
	movq	(%rcx),%rcx
	cmpb	$0,125(%rcx)
	je	35f
	cmpl	$0,32(%rcx)
	setne	%dl
	cmpb	$0,126(%rcx)
	jne	36f
	jmp	1b
37:
	movq	(%rbx),%rcx
	movq	(%rcx),%rcx
	cmpb	$0,130(%rcx)
	je	1b
	cmpb	$0,106(%rcx)
	je	8f
	cmpb	$0,107(%rcx)
	je	9f
	cmpb	$0,108(%rcx)
	je	10f
	cmpb	$0,109(%rcx)
	je	11f
	cmpb	$0,110(%rcx)
	je	12f
	cmpb	$0,111(%rcx)
	je	13f
	cmpb	$0,112(%rcx)
	je	14f
	cmpb	$0,113(%rcx)
	je	15f
	cmpb	$1,114(%rcx)
28:
	movl	$9,%ecx
	sbbq	$0,%rcx
	jmp	3b
28:
	movq	(%rbx),%rcx
	movq	(%rcx),%rdx
	movl	$13,%ecx
	cmpb	$0,127(%rdx)
	jne	3b
	jmp	1b
8:
	xorl	%ecx,%ecx
	jmp	3b
9:
	movl	$1,%ecx
	jmp	3b
35:
	xorl	%edx,%edx
	cmpb	$0,126(%rcx)
	je	1b
36:
	cmpl	$0,48(%rcx)
	setne	%dil
	movl	$3,%ecx
	testb	%dil,%dl
	je	1b
	jmp	3b
25:
	cmpl	$180,%edx
	je	3b
	cmpl	$270,%edx
	je	3b
	jmp	1b
10:
	movl	$2,%ecx
	jmp	3b
11:
	movl	$3,%ecx
	jmp	3b
12:
	movl	$4,%ecx
	jmp	3b
13:
	movl	$5,%ecx
	jmp	3b
14:
	movl	$6,%ecx
	jmp	3b
15:
	movl	$7,%ecx
	jmp	3b
16:
	movl	$8,%ecx
	jmp	3b
17:
	movl	$9,%ecx
	jmp	3b
18:
	movl	$10,%ecx
	jmp	3b
19:
	movl	$11,%ecx
	jmp	3b
20:
	movl	$12,%ecx
	jmp	3b
21:
	movl	$13,%ecx
	jmp	3b
22:
	movl	$14,%ecx
	jmp	3b
23:
	movl	$15,%ecx
	jmp	3b
4:
	movq	%r15,%rax
	addq	$8,%rsp
	.cfi_def_cfa_offset 40
	popq	%rbx
	.cfi_def_cfa_offset 32
	popq	%r12
	.cfi_def_cfa_offset 24
	popq	%r14
	.cfi_def_cfa_offset 16
	popq	%r15
	.cfi_def_cfa_offset 8
	retq
	.size	"rtp_b236e5ea_rtp_ext::block_elements::values_len::<#defbc6cea7b2a850>", .-"rtp_b236e5ea_rtp_ext::block_elements::values_len::<#defbc6cea7b2a850>"
	.cfi_endproc
	.section	".rodata.rtp_ext::block_elements::values_len::<#defbc6cea7b2a850>","a",@progbits
	.p2align	2,0x0
5:
	.long	6b-5b
	.long	32b-5b
	.long	29b-5b
	.long	30b-5b
	.long	24b-5b
	.long	33b-5b
	.long	34b-5b
	.long	31b-5b
	.long	28b-5b
	.long	27b-5b
	.long	37b-5b
	.long	7b-5b
	.long	26b-5b
	.long	1b-5b
	.long	2b-5b

	.section	".text.rtp_ext::block_elements::most_in_two_byte_form::<#d4d397b1ff315637>","ax",@progbits
	.p2align	4
	.type	"rtp_b236e5ea_rtp_ext::block_elements::most_in_two_byte_form::<#d4d397b1ff315637>",@function
"rtp_b236e5ea_rtp_ext::block_elements::most_in_two_byte_form::<#d4d397b1ff315637>":
	.cfi_startproc
	pushq	%r14
	.cfi_def_cfa_offset 16
	pushq	%rbx
	.cfi_def_cfa_offset 24
	pushq	%rax
	.cfi_def_cfa_offset 32
	.cfi_offset %rbx,-24
	.cfi_offset %r14,-16
	movq	(%rdi),%rbx
	movq	8(%rdi),%rax
	movq	16(%rdi),%rcx
	xorl	%r14d,%r14d
	.p2align	4
1:
	cmpq	%rcx,%rax
	jae	2f
	movzbl	1(%rbx,%rax),%edx
	incq	%rax
	decb	%dl
	cmpb	$15,%dl
	jae	1b
	movzbl	%dl,%edx
	leaq	"rtp_b236e5ea_.Lrtp_b236e5ea_switch.table.rtp_ext::block_elements::most_in_two_byte_form::<#d4d397b1ff315637>"(%rip), %rsi
	addq	(%rsi,%rdx,8),%r14
	jmp	1b
2:
	cmpq	$15,%rcx
	jb	2f
	cmpq	$254,%rax
	ja	2f
	movq	%rbx,%rdi
	movq	%rax,%rsi
	callq	"rtp_b236e5ea_rtp_c::kinds::StoredMap::past_unmapped"
	movq	%rax,%rdx
	addq	$16,%rdx
	cmpq	$255,%rdx
	movl	$255,%ecx
	cmovbq	%rdx,%rcx
	jmp	1b
2:
	movq	%r14,%rax
	addq	$8,%rsp
	.cfi_def_cfa_offset 24
	popq	%rbx
	.cfi_def_cfa_offset 16
	popq	%r14
	.cfi_def_cfa_offset 8
	retq
	.size	"rtp_b236e5ea_rtp_ext::block_elements::most_in_two_byte_form::<#d4d397b1ff315637>", .-"rtp_b236e5ea_rtp_ext::block_elements::most_in_two_byte_form::<#d4d397b1ff315637>"
	.cfi_endproc

	.section	".text.rtp_ext::block_elements::write_values::<#defbc6cea7b2a850>","ax",@progbits
	.p2align	4
	.type	"rtp_b236e5ea_rtp_ext::block_elements::write_values::<#defbc6cea7b2a850>",@function
"rtp_b236e5ea_rtp_ext::block_elements::write_values::<#defbc6cea7b2a850>":
	.cfi_startproc
	pushq	%rbp
	.cfi_def_cfa_offset 16
	pushq	%r15
	.cfi_def_cfa_offset 24
	pushq	%r14
	.cfi_def_cfa_offset 32
	pushq	%r13
	.cfi_def_cfa_offset 40
	pushq	%r12
	.cfi_def_cfa_offset 48
	pushq	%rbx
	.cfi_def_cfa_offset 56
	subq	$40,%rsp
	.cfi_def_cfa_offset 96
	.cfi_offset %rbx,-56
	.cfi_offset %r12,-48
	.cfi_offset %r13,-40
	.cfi_offset %r14,-32
	.cfi_offset %r15,-24
	.cfi_offset %rbp,-16
	movl	%ecx,28(%rsp)
	cmpb	$1,%cl
	movl	$2,%r10d
	sbbq	$0,%r10
	cmpq	%r10,%r9
	jae	1f
	xorl	%r13d,%r13d
2:
	movq	%r13,%rax
	addq	$40,%rsp
	.cfi_def_cfa_offset 56
	popq	%rbx
	.cfi_def_cfa_offset 48
	popq	%r12
	.cfi_def_cfa_offset 40
	popq	%r13
	.cfi_def_cfa_offset 32
	popq	%r14
	.cfi_def_cfa_offset 24
	popq	%r15
	.cfi_def_cfa_offset 16
	popq	%rbp
	.cfi_def_cfa_offset 8
	retq
1:
	.cfi_def_cfa_offset 96
	movq	%r8,%r14
	movq	%rdx,%r8
	movq	%rsi,%rbp
	movq	%rdi,%r12
	leaq	32(%rdx),%rax
	movq	%rax,32(%rsp)
	xorl	%r13d,%r13d
	movq	%r10,%rbx
	xorl	%r15d,%r15d
	movq	%r9,16(%rsp)
	movq	%rdx,8(%rsp)
	movq	%r10,(%rsp)
	jmp	1f
3:
	movb	%r15b,(%r14,%r13)
	movb	%dl,1(%r14,%r13)
4:
	addq	%rbx,%rdx
	movq	%rdx,%r13
5:
	leaq	(%r10,%r13),%rbx
	cmpq	%rbx,%r9
	jb	2b
1:
	cmpq	%rbp,%r15
	jae	6f
	movzbl	1(%r12,%r15),%eax
	incq	%r15
	decl	%eax
	cmpl	$14,%eax
	ja	1b
	leaq	7f(%rip),%rcx
	movslq	(%rcx,%rax,4),%rax
	addq	%rcx,%rax
	jmpq	*%rax
8:
	movq	(%r8),%rax
	movq	(%rax),%rax
	cmpb	$0,115(%rax)
	je	9f
	movq	(%rax),%rcx
	movabsq	$4835703278458516699,%rdx
	movq	%rcx,%rax
	mulq	%rdx
	shrq	$24,%rdx
	imulq	$64000000,%rdx,%rax
	subq	%rax,%rcx
	shlq	$18,%rcx
	movabsq	$18446744073710,%rdx
	movq	%rcx,%rax
	mulq	%rdx
	bswapl	%edx
	movl	%edx,%eax
	shrl	$8,%eax
	shrl	$24,%edx
	movb	%dl,2(%r14,%rbx)
	movw	%ax,(%r14,%rbx)
	movb	$1,%al
	movl	$3,%edx
	jmp	10f
6:
	cmpq	$15,%rbp
	jb	2b
	cmpq	$254,%r15
	ja	2b
	movq	%r12,%rdi
	movq	%r15,%rsi
	callq	"rtp_b236e5ea_rtp_c::kinds::StoredMap::past_unmapped"
	movq	(%rsp),%r10
	movq	8(%rsp),%r8
	movq	16(%rsp),%r9
	movq	%rax,%r15
	addq	$16,%rax
	cmpq	$255,%rax
	movl	$255,%ebp
	cmovbq	%rax,%rbp
	jmp	1b
1:
	leaq	(%r14,%rbx),%rdi
	movq	24(%r8),%rcx
	testq	%rcx,%rcx
	je	2f
	movq	8(%r8),%rsi
	movq	16(%r8),%rdx
	movq	32(%rsp),%r8
	callq	"rtp_b236e5ea_rtp_vla::writing::put_streams::<#0e5569fdf2589307>"
	movq	(%rsp),%r10
	movq	8(%rsp),%r8
	movq	16(%rsp),%r9
	movq	%rax,%rdx
	jmp	6f
11:
	movq	(%r8),%rax
	movq	(%rax),%rsi
	cmpb	$0,130(%rsi)
	je	5b
	leaq	(%r14,%rbx),%rdi
	callq	"rtp_b236e5ea_rtp_values::value::stream_id::write_repaired::<#7ba4d078ccf006bf>"
	jmp	12f
13:
	movq	(%r8),%rax
	movq	(%rax),%rax
	cmpb	$0,118(%rax)
	je	9f
	movl	56(%rax),%eax
	jmp	14f
15:
	leaq	(%r14,%rbx),%rdi
	movq	(%r8),%rax
	movq	(%rax),%rsi
	callq	"rtp_b236e5ea_rtp_values::value::mid::write::<#7ba4d078ccf006bf>"
	jmp	12f
16:
	leaq	(%r14,%rbx),%rdi
	movq	(%r8),%rax
	movq	(%rax),%rsi
	callq	"rtp_b236e5ea_rtp_values::value::video_timing::write::<#7ba4d078ccf006bf>"
	jmp	12f
17:
	leaq	(%r14,%rbx),%rdi
	movq	(%r8),%rax
	movq	(%rax),%rsi
	callq	"rtp_b236e5ea_rtp_values::value::abs_capture_time::write::<#7ba4d078ccf006bf>"
	jmp	12f
18:
	movq	(%r8),%rax
	movq	(%rax),%rax
	cmpb	$0,123(%rax)
	je	9f
	cmpb	$0,124(%rax)
	je	9f
	cmpb	$0,79(%rax)
	movzbl	78(%rax),%eax
	setne	%cl
	movl	%eax,%edx
	sarb	$7,%dl
	xorb	%dl,%al
	subb	%dl,%al
	andb	$127,%al
	shlb	$7,%cl
	orb	%al,%cl
	movb	%cl,(%r14,%rbx)
	jmp	19f
20:
	leaq	(%r14,%rbx),%rdi
	movq	(%r8),%rax
	movq	(%rax),%rsi
	callq	"rtp_b236e5ea_rtp_values::value::playout_delay::write::<#7ba4d078ccf006bf>"
	jmp	12f
21:
	movq	(%r8),%rax
	movq	(%rax),%rax
	cmpb	$0,121(%rax)
	je	9f
	movzwl	66(%rax),%ecx
	xorl	%edx,%edx
	xorl	%eax,%eax
	cmpl	$179,%ecx
	jg	22f
	testl	%ecx,%ecx
	je	23f
	cmpl	$90,%ecx
	jne	10f
	movb	$3,%al
	jmp	23f
24:
	movq	(%r8),%rax
	movq	(%rax),%rax
	cmpb	$0,119(%rax)
	je	9f
	movl	60(%rax),%eax
14:
	bswapl	%eax
	movl	%eax,(%r14,%rbx)
	movb	$1,%al
	movl	$4,%edx
	jmp	10f
14:
	movq	(%r8),%rax
	movq	(%rax),%rax
	cmpb	$0,120(%rax)
	je	9f
	movzwl	64(%rax),%eax
	rolw	$8,%ax
	movw	%ax,(%r14,%rbx)
	movb	$1,%al
	movl	$2,%edx
	jmp	10f
25:
	movq	(%r8),%rax
	movq	(%rax),%rsi
	cmpb	$0,129(%rsi)
	je	5b
	leaq	(%r14,%rbx),%rdi
	callq	"rtp_b236e5ea_rtp_values::value::stream_id::write::<#7ba4d078ccf006bf>"
12:
	movq	(%rsp),%r10
	movq	8(%rsp),%r8
	movq	16(%rsp),%r9
	jmp	10f
12:
	movq	(%r8),%rax
	movq	(%rax),%rax
	cmpb	$0,122(%rax)
	je	9f
	movzbl	77(%rax),%eax
	movb	%al,(%r14,%rbx)
	jmp	19f
9:
	xorl	%edx,%edx
	xorl	%eax,%eax
	jmp	10f
2:
	movb	$0,(%rdi)
	movl	$1,%edx
	jmp	6f
22:
	cmpl	$180,%ecx
	je	2f
	cmpl	$270,%ecx
	jne	10f
	movb	$1,%al
	jmp	23f
2:
	movb	$2,%al
23:
	movb	%al,(%r14,%rbx)
19:
	movb	$1,%al
	movl	$1,%edx
	.p2align	4
10:
	cmpb	$1,%al
	jne	5b
6:
	cmpb	$0,28(%rsp)
	jne	3b
	movl	%r15d,%eax
	rolb	$4,%al
	addb	%dl,%al
	decb	%al
	movb	%al,(%r14,%r13)
	jmp	4b
	.size	"rtp_b236e5ea_rtp_ext::block_elements::write_values::<#defbc6cea7b2a850>", .-"rtp_b236e5ea_rtp_ext::block_elements::write_values::<#defbc6cea7b2a850>"
	.cfi_endproc
	.section	".rodata.rtp_ext::block_elements::write_values::<#defbc6cea7b2a850>","a",@progbits
	.p2align	2,0x0
7:
	.long	8b-7b
	.long	17b-7b
	.long	18b-7b
	.long	13b-7b
	.long	21b-7b
	.long	14b-7b
	.long	20b-7b
	.long	12b-7b
	.long	16b-7b
	.long	25b-7b
	.long	11b-7b
	.long	15b-7b
	.long	24b-7b
	.long	5b-7b
	.long	1b-7b

	.section	.rodata.cst16,"aM",@progbits,16
	.p2align	4,0x0
.Lrtp_b236e5ea_CPI66_0:
	.byte	1
	.byte	0
	.byte	3
	.byte	2
	.zero	1
	.zero	1
	.zero	1
	.zero	1
	.zero	1
	.zero	1
	.zero	1
	.zero	1
	.zero	1
	.zero	1
	.zero	1
	.zero	1
	.section	".text.rtp_vla::writing::put_streams::<#0e5569fdf2589307>","ax",@progbits
	.p2align	4
	.type	"rtp_b236e5ea_rtp_vla::writing::put_streams::<#0e5569fdf2589307>",@function
"rtp_b236e5ea_rtp_vla::writing::put_streams::<#0e5569fdf2589307>":
	.cfi_startproc
	pushq	%rbp
	.cfi_def_cfa_offset 16
	pushq	%r15
	.cfi_def_cfa_offset 24
	pushq	%r14
	.cfi_def_cfa_offset 32
	pushq	%r13
	.cfi_def_cfa_offset 40
	pushq	%r12
	.cfi_def_cfa_offset 48
	pushq	%rbx
	.cfi_def_cfa_offset 56
	.cfi_offset %rbx,-56
	.cfi_offset %r12,-48
	.cfi_offset %r13,-40
	.cfi_offset %r14,-32
	.cfi_offset %r15,-24
	.cfi_offset %rbp,-16
	shll	$6,%esi
	movl	%ecx,%eax
	shll	$4,%eax
	addl	%esi,%eax
	addb	4(%r8),%al
	addb	$-16,%al
	movb	%al,(%rdi)
	cmpb	$0,4(%r8)
	je	1f
	movzbl	5(%r8),%r9d
	addl	$3,%r9d
	shrl	$2,%r9d
	leaq	1(%r9),%rax
	testq	%rcx,%rcx
	je	2f
	movq	%r9,-16(%rsp)
	movl	$1,%esi
	movq	%rsi,-24(%rsp)
	movq	%r8,-8(%rsp)
	jmp	3f
1:
	cmpq	$1,%rcx
	je	1f
	testq	%rcx,%rcx
	jne	4f
	movzbl	5(%r8),%r9d
	addl	$3,%r9d
	shrl	$2,%r9d
	leaq	1(%r9),%rax
	xorl	%ebx,%ebx
	movl	$1,%esi
	movq	%rsi,-24(%rsp)
	movb	$1,%r10b
	jmp	5f
2:
	movl	$1,%esi
	movq	%rsi,-24(%rsp)
	xorl	%ebx,%ebx
	movb	$1,%r10b
	jmp	5f
1:
	movzbl	(%r8),%eax
	shlb	$4,%al
	jmp	1f
4:
	cmpq	$2,%rcx
	ja	2f
	movzbl	(%r8),%eax
	shlb	$4,%al
	addb	1(%r8),%al
1:
	movb	%al,1(%rdi)
	movl	$2,%eax
	jmp	1f
2:
	cmpq	$3,%rcx
	jne	2f
	movzbl	(%r8),%eax
	movzbl	2(%r8),%esi
	shlb	$4,%al
	addb	1(%r8),%al
	shlb	$4,%sil
	orb	$15,%sil
	jmp	4f
2:
	movzbl	(%r8),%eax
	movzbl	2(%r8),%esi
	shlb	$4,%al
	addb	1(%r8),%al
	shlb	$4,%sil
	addb	3(%r8),%sil
4:
	movzbl	%sil,%esi
	shll	$8,%esi
	movzbl	%al,%eax
	orl	%esi,%eax
	movw	%ax,1(%rdi)
	movl	$3,%eax
1:
	movq	%r8,-8(%rsp)
	movzbl	5(%r8),%esi
	addl	$3,%esi
	shrl	$2,%esi
	movq	%rax,-24(%rsp)
	movq	%rsi,-16(%rsp)
	addq	%rsi,%rax
3:
	xorl	%ebx,%ebx
	movl	$1073741824,%r10d
	xorl	%r11d,%r11d
	jmp	1f
	.p2align	4
2:
	incq	%r11
	cmpq	%rcx,%r11
	je	3f
1:
	imulq	$168,%r11,%r15
	leaq	(%rdx,%r15),%r14
	movzbl	160(%rdx,%r15),%ebp
	cmpb	$4,%bpl
	movl	$4,%r15d
	cmovbl	%ebp,%r15d
	movzbl	%r15b,%r15d
1:
	negq	%r15
	.p2align	4
4:
	incq	%r15
	cmpq	$1,%r15
	je	2b
	movzbl	38(%r14),%r12d
	addq	$40,%r14
	testb	%r12b,%r12b
	je	4b
	movzbl	%r12b,%r13d
	cmpb	$4,%r12b
	movl	$4,%ebp
	cmovbl	%r13d,%ebp
	movq	-40(%r14),%rsi
	cmpq	$127,%rsi
	ja	2f
	movb	%sil,(%rdi,%rax)
	incq	%rax
	cmpb	$1,%r12b
	jne	4f
	jmp	6f
	.p2align	4
2:
	cmpq	$16384,%rsi
	jae	2f
	movl	%esi,%r13d
	andl	$16256,%r13d
	addl	%r13d,%esi
	addl	$128,%esi
	movw	%si,(%rdi,%rax)
	addq	$2,%rax
	cmpb	$1,%r12b
	jne	4f
	jmp	6f
2:
	incq	%rax
	.p2align	4
2:
	movq	%rsi,%r13
	movl	%r13d,%r9d
	orb	$-128,%r9b
	movb	%r9b,-1(%rdi,%rax)
	shrq	$7,%rsi
	incq	%rax
	cmpq	$16383,%r13
	ja	2b
	movb	%sil,-1(%rdi,%rax)
	cmpb	$1,%r12b
	je	6f
4:
	movq	-32(%r14),%r13
	cmpq	$128,%r13
	jae	2f
	movb	%r13b,(%rdi,%rax)
	incq	%rax
	cmpb	$2,%r12b
	jne	4f
	jmp	6f
2:
	cmpq	$16384,%r13
	jae	2f
	movl	%r13d,%esi
	andl	$16256,%esi
	addl	%r13d,%esi
	addl	$128,%esi
	movw	%si,(%rdi,%rax)
	addq	$2,%rax
	cmpb	$2,%r12b
	jne	4f
	jmp	6f
2:
	incq	%rax
	.p2align	4
2:
	movq	%r13,%rsi
	movl	%esi,%r9d
	orb	$-128,%r9b
	movb	%r9b,-1(%rdi,%rax)
	shrq	$7,%r13
	incq	%rax
	cmpq	$16383,%rsi
	ja	2b
	movb	%r13b,-1(%rdi,%rax)
	cmpb	$2,%r12b
	je	6f
4:
	movq	-24(%r14),%r13
	cmpq	$128,%r13
	jae	2f
	movb	%r13b,(%rdi,%rax)
	incq	%rax
	cmpb	$3,%r12b
	jne	4f
	jmp	6f
2:
	cmpq	$16384,%r13
	jae	2f
	movl	%r13d,%esi
	andl	$16256,%esi
	addl	%r13d,%esi
	addl	$128,%esi
	movw	%si,(%rdi,%rax)
	addq	$2,%rax
	cmpb	$3,%r12b
	jne	4f
	jmp	6f
2:
	incq	%rax
	.p2align	4
2:
	movq	%r13,%rsi
	movl	%esi,%r9d
	orb	$-128,%r9b
	movb	%r9b,-1(%rdi,%rax)
	shrq	$7,%r13
	incq	%rax
	cmpq	$16383,%rsi
	ja	2b
	movb	%r13b,-1(%rdi,%rax)
	cmpb	$3,%r12b
	je	6f
4:
	movq	-16(%r14),%r12
	cmpq	$128,%r12
	jae	2f
	movb	%r12b,(%rdi,%rax)
	incq	%rax
	jmp	6f
2:
	cmpq	$16384,%r12
	jae	2f
	movl	%r12d,%esi
	andl	$16256,%esi
	addl	%r12d,%esi
	addl	$128,%esi
	movw	%si,(%rdi,%rax)
	addq	$2,%rax
	jmp	6f
2:
	incq	%rax
	.p2align	4
2:
	movq	%r12,%rsi
	movl	%esi,%r9d
	orb	$-128,%r9b
	movb	%r9b,-1(%rdi,%rax)
	shrq	$7,%r12
	incq	%rax
	cmpq	$16383,%rsi
	ja	2b
	movb	%r12b,-1(%rdi,%rax)
	.p2align	4
6:
	negq	%r15
	movzbl	%bpl,%ebp
	decl	%ebp
	imull	%r10d,%ebp
	addl	%ebp,%ebx
	shrl	$2,%r10d
	jmp	1b
3:
	bswapl	%ebx
	xorl	%r10d,%r10d
	movq	-8(%rsp),%r8
	movq	-16(%rsp),%r9
5:
	cmpq	$3,%r9
	ja	1f
	leaq	2f(%rip),%rsi
	movslq	(%rsi,%r9,4),%r9
	addq	%rsi,%r9
	jmpq	*%r9
3:
	movq	-24(%rsp),%rsi
	movb	%bl,(%rdi,%rsi)
	jmp	4f
5:
	movq	-24(%rsp),%rsi
	movw	%bx,(%rdi,%rsi)
	jmp	4f
6:
	movl	%ebx,%esi
	shrl	$16,%esi
	movq	-24(%rsp),%rbp
	movb	%bl,(%rdi,%rbp)
	movb	%bh,1(%rdi,%rbp)
	movb	%sil,2(%rdi,%rbp)
	jmp	4f
1:
	movq	-24(%rsp),%rsi
	movl	%ebx,(%rdi,%rsi)
4:
	movzwl	6(%r8),%esi
	cmpq	%rsi,%rax
	sete	%sil
	orb	%sil,%r10b
	je	1f
7:
	popq	%rbx
	.cfi_def_cfa_offset 48
	popq	%r12
	.cfi_def_cfa_offset 40
	popq	%r13
	.cfi_def_cfa_offset 32
	popq	%r14
	.cfi_def_cfa_offset 24
	popq	%r15
	.cfi_def_cfa_offset 16
	popq	%rbp
	.cfi_def_cfa_offset 8
	retq
1:
	.cfi_def_cfa_offset 56
	xorl	%esi,%esi
	jmp	1f
	.p2align	4
8:
	incq	%rsi
	cmpq	%rcx,%rsi
	je	7b
1:
	imulq	$168,%rsi,%r8
	movzbl	160(%rdx,%r8),%r9d
	testb	%r9b,%r9b
	je	8b
	addq	%rdx,%r8
	movzbl	%r9b,%r10d
	cmpb	$4,%r9b
	movl	$4,%r9d
	cmovbl	%r10d,%r9d
	movzbl	%r9b,%r9d
1:
	movl	$1,%r10d
	subq	%r9,%r10
	addq	$40,%r8
	movq	%r10,%r9
	jmp	7f
	.p2align	4
9:
	testb	%r10b,%r10b
	jne	10f
11:
	incq	%r9
	addq	$40,%r8
	cmpq	$1,%r9
	je	8b
7:
	movzbl	-2(%r8),%r10d
	cmpb	$0,-3(%r8)
	je	9b
	testb	%r10b,%r10b
	je	11b
	movd	-8(%r8),%xmm0
	pcmpeqd	%xmm1,%xmm1
	paddw	%xmm0,%xmm1
	pshufb	.Lrtp_b236e5ea_CPI66_0(%rip),%xmm1
	movzbl	-4(%r8),%r10d
	movd	%xmm1,(%rdi,%rax)
	movb	%r10b,4(%rdi,%rax)
	addq	$5,%rax
10:
	negq	%r9
	jb	1b
	jmp	8b
	.size	"rtp_b236e5ea_rtp_vla::writing::put_streams::<#0e5569fdf2589307>", .-"rtp_b236e5ea_rtp_vla::writing::put_streams::<#0e5569fdf2589307>"
	.cfi_endproc
	.section	".rodata.rtp_vla::writing::put_streams::<#0e5569fdf2589307>","a",@progbits
	.p2align	2,0x0
2:
	.long	4b-2b
	.long	3b-2b
	.long	5b-2b
	.long	6b-2b

	.section	.rodata.cst16,"aM",@progbits,16
	.p2align	4,0x0
.Lrtp_b236e5ea_CPI67_0:
	.byte	3
	.byte	2
	.byte	1
	.byte	0
	.byte	7
	.byte	6
	.byte	5
	.byte	4
	.zero	1
	.zero	1
	.zero	1
	.zero	1
	.zero	1
	.zero	1
	.zero	1
	.zero	1
.Lrtp_b236e5ea_CPI67_1:
	.byte	3
	.byte	2
	.byte	1
	.byte	0
	.byte	7
	.byte	6
	.byte	5
	.byte	4
	.byte	11
	.byte	10
	.byte	9
	.byte	8
	.byte	15
	.byte	14
	.byte	13
	.byte	12
	.section	".text.rtp_c::writing::write_header_with","ax",@progbits
	.p2align	4
	.type	"rtp_b236e5ea_rtp_c::writing::write_header_with",@function
"rtp_b236e5ea_rtp_c::writing::write_header_with":
	.cfi_startproc
	movzbl	78(%rdi),%r10d
	movl	$9,%eax
	testb	%r10b,%r10b
	js	1f
	pushq	%rbp
	.cfi_def_cfa_offset 16
	pushq	%r15
	.cfi_def_cfa_offset 24
	pushq	%r14
	.cfi_def_cfa_offset 32
	pushq	%r13
	.cfi_def_cfa_offset 40
	pushq	%r12
	.cfi_def_cfa_offset 48
	pushq	%rbx
	.cfi_def_cfa_offset 56
	subq	$104,%rsp
	.cfi_def_cfa_offset 160
	.cfi_offset %rbx,-56
	.cfi_offset %r12,-48
	.cfi_offset %r13,-40
	.cfi_offset %r14,-32
	.cfi_offset %r15,-24
	.cfi_offset %rbp,-16
	movzbl	79(%rdi),%r15d
	cmpq	$15,%r15
	ja	2f
	movq	%r8,%r12
	movq	176(%rsp),%r8
	movq	$-1,%rbx
	movq	%rcx,%r11
	.p2align	4
3:
	incq	%rbx
	cmpq	%rbx,%r12
	je	4f
	movq	%rdx,%r14
	subq	(%r11),%r14
	jb	2f
	cmpq	%r14,8(%r11)
	leaq	32(%r11),%r11
	jbe	3b
	jmp	2f
4:
	movq	%rsi,24(%rsp)
	movq	%r15,16(%rsp)
	leaq	12(,%r15,4),%rax
	subq	%rax,%r8
	movl	$0,%eax
	cmovaeq	%r8,%rax
	shrq	$2,%rax
	movzbl	160(%rsp),%esi
	movl	%esi,12(%rsp)
	je	3f
	movzbl	80(%rdi),%r8d
	decq	%rax
	cmpq	$65535,%rax
	movl	$65535,%ebx
	cmovbq	%rax,%rbx
	movzbl	81(%rdi),%ebp
	shll	$2,%ebx
	movl	%r9d,%esi
	cmpb	$1,%sil
	sete	%r11b
	movl	$0,%eax
	cmovel	12(%rsp),%eax
	testq	%r12,%r12
	movb	%r8b,10(%rsp)
	movb	%r11b,11(%rsp)
	movb	%bpl,9(%rsp)
	je	4f
	movl	%esi,%r8d
	xorb	$1,%r8b
	orb	160(%rsp),%r8b
	jne	5f
	leaq	24(%rcx),%r8
	movq	%r12,%r15
	.p2align	4
6:
	movq	-16(%r8),%r14
	leaq	-1(%r14),%r11
	cmpq	$15,%r11
	ja	3f
	movzbl	(%r8),%r11d
	decb	%r11b
	cmpb	$13,%r11b
	ja	3f
	cmpq	%r14,%rbx
	jbe	3f
	incq	%r14
	movq	%rbx,%r11
	subq	%r14,%r11
	movl	$0,%ebx
	cmovaeq	%r11,%rbx
	addq	$32,%r8
	decq	%r15
	jne	6b
4:
	movq	%rbx,%r13
	movl	%eax,%ebp
	jmp	4f
5:
	leaq	24(%rcx),%r15
	movq	%r12,%r8
	movl	%eax,%ebp
	.p2align	4
5:
	movq	-16(%r15),%r14
	cmpq	$255,%r14
	ja	3f
	movzbl	(%r15),%r11d
	testb	%r11b,%r11b
	je	3f
	cmpq	%r14,%rbx
	jbe	3f
	leaq	1(%r14),%rsi
	xorl	%r13d,%r13d
	subq	%rsi,%rbx
	cmovaeq	%rbx,%r13
	decq	%r14
	cmpb	$15,%r11b
	movzbl	%bpl,%ebp
	movl	$1,%esi
	cmovael	%esi,%ebp
	cmpq	$16,%r14
	cmovael	%esi,%ebp
	addq	$32,%r15
	movq	%r13,%rbx
	decq	%r8
	jne	5b
4:
	testb	%bpl,%bpl
	movzbl	11(%rsp),%esi
	je	4f
	cmpq	%r13,%r12
	ja	5f
4:
	cmpb	$0,10(%rsp)
	setne	%al
	cmpb	$0,9(%rsp)
	setne	%sil
	movzwl	76(%rdi),%r8d
	shlb	$5,%sil
	orb	16(%rsp),%sil
	orb	$-112,%sil
	shlb	$7,%al
	orb	%r10b,%al
	rolw	$8,%r8w
	movq	8(%rdi),%xmm0
	pshufb	.Lrtp_b236e5ea_CPI67_0(%rip),%xmm0
	movq	168(%rsp),%r15
	movb	%sil,(%r15)
	movb	%al,1(%r15)
	movw	%r8w,2(%r15)
	movq	%xmm0,4(%r15)
	movzbl	79(%rdi),%eax
	testq	%rax,%rax
	je	4f
	movdqu	16(%rdi),%xmm0
	movdqu	32(%rdi),%xmm1
	movdqu	48(%rdi),%xmm2
	movups	60(%rdi),%xmm3
	movups	%xmm3,76(%rsp)
	movdqa	%xmm2,64(%rsp)
	movdqa	%xmm1,48(%rsp)
	movdqa	%xmm0,32(%rsp)
	cmpb	$8,%al
	movq	184(%rsp),%r14
	jae	6f
	movl	$12,%ebx
	xorl	%edi,%edi
	jmp	7f
3:
	cmpb	$1,%r9b
	sete	%sil
	movl	$0,%eax
	cmovel	12(%rsp),%eax
	testq	%r12,%r12
	je	3f
5:
	cmpb	$0,160(%rsp)
	sete	%dl
	addq	$24,%rcx
	testb	%dl,%sil
	je	5f
	movl	$262140,%edx
	movq	%r12,%rsi
	.p2align	4
8:
	movq	-16(%rcx),%rdi
	leaq	-1(%rdi),%r8
	cmpq	$15,%r8
	ja	9f
	movzbl	(%rcx),%r8d
	decb	%r8b
	cmpb	$13,%r8b
	ja	9f
	cmpq	%rdi,%rdx
	jbe	9f
	incq	%rdi
	movq	%rdx,%r8
	subq	%rdi,%r8
	movl	$0,%edx
	cmovaeq	%r8,%rdx
	addq	$32,%rcx
	decq	%rsi
	jne	8b
	jmp	8f
5:
	movl	$262140,%edi
	movq	%r12,%rsi
	.p2align	4
5:
	movq	-16(%rcx),%r8
	cmpq	$255,%r8
	ja	9f
	movzbl	(%rcx),%r9d
	testb	%r9b,%r9b
	je	9f
	cmpq	%r8,%rdi
	jbe	9f
	leaq	1(%r8),%r10
	xorl	%edx,%edx
	subq	%r10,%rdi
	cmovaeq	%rdi,%rdx
	decq	%r8
	cmpb	$15,%r9b
	movzbl	%al,%eax
	movl	$1,%edi
	cmovael	%edi,%eax
	cmpq	$16,%r8
	cmovael	%edi,%eax
	addq	$32,%rcx
	movq	%rdx,%rdi
	decq	%rsi
	jne	5b
8:
	testb	%al,%al
	setne	%al
	cmpq	%rdx,%r12
	seta	%cl
	andb	%al,%cl
	movl	$8,%eax
	cmpb	$1,%cl
	jne	2f
9:
	movl	$9,%eax
	jmp	2f
3:
	movl	$8,%eax
	jmp	2f
4:
	movl	$12,%ebx
	movq	184(%rsp),%r14
	jmp	3f
6:
	movl	%eax,%edi
	andl	$-8,%edi
	leal	(,%rdi,4),%r8d
	leaq	12(%r8),%rbx
	xorl	%r9d,%r9d
	.p2align	4
4:
	movdqu	32(%rsp,%r9),%xmm0
	movdqu	48(%rsp,%r9),%xmm1
	movdqa	.Lrtp_b236e5ea_CPI67_1(%rip),%xmm2
	pshufb	%xmm2,%xmm0
	pshufb	%xmm2,%xmm1
	movdqu	%xmm0,12(%r15,%r9)
	movdqu	%xmm1,28(%r15,%r9)
	addq	$32,%r9
	cmpq	%r9,%r8
	jne	4b
	cmpl	%eax,%edi
	je	3f
	.p2align	4
7:
	movl	32(%rsp,%rdi,4),%esi
	bswapl	%esi
	movl	%esi,(%r15,%rbx)
	addq	$4,%rbx
	incq	%rdi
	cmpq	%rdi,%rax
	jne	7b
3:
	movq	24(%rsp),%rax
	movq	%rax,32(%rsp)
	movq	%rdx,40(%rsp)
	movq	%rcx,48(%rsp)
	movq	%r12,56(%rsp)
	leaq	(%r15,%rbx),%rdi
	addq	$4,%rdi
	addq	%rbx,%r15
	movzbl	%bpl,%esi
	leaq	32(%rsp),%rdx
	callq	"rtp_b236e5ea_rtp_ext::raw_writing::put_elements::<#d57726891005992a>"
	leaq	3(%rax),%rcx
	movq	%rcx,%rsi
	andq	$-4,%rsi
	leaq	4(%rax),%rdx
	subq	%rax,%rsi
	je	3f
	cmpq	$2,%rsi
	je	4f
	cmpq	$1,%rsi
	jne	5f
	movb	$0,4(%r15,%rax)
	addq	$5,%rax
	jmp	6f
4:
	movw	$0,4(%r15,%rax)
	addq	$6,%rax
	jmp	6f
5:
	movb	$0,2(%r15,%rdx)
	movw	$0,(%r15,%rdx)
	addq	$7,%rax
6:
	movq	%rax,%rdx
3:
	movl	%ecx,%eax
	andl	$-4,%eax
	shll	$22,%eax
	shll	$6,%ecx
	andl	$16711680,%ecx
	testb	%bpl,%bpl
	movl	$57022,%esi
	movl	$16,%edi
	cmovel	%esi,%edi
	orl	%ecx,%edi
	orl	%eax,%edi
	movl	%edi,(%r15)
	addq	%rbx,%rdx
	movq	%rdx,(%r14)
	xorl	%eax,%eax
2:
	addq	$104,%rsp
	.cfi_def_cfa_offset 56
	popq	%rbx
	.cfi_def_cfa_offset 48
	popq	%r12
	.cfi_def_cfa_offset 40
	popq	%r13
	.cfi_def_cfa_offset 32
	popq	%r14
	.cfi_def_cfa_offset 24
	popq	%r15
	.cfi_def_cfa_offset 16
	popq	%rbp
	.cfi_def_cfa_offset 8
	.cfi_restore %rbx
	.cfi_restore %r12
	.cfi_restore %r13
	.cfi_restore %r14
	.cfi_restore %r15
	.cfi_restore %rbp
1:
	retq
	.size	"rtp_b236e5ea_rtp_c::writing::write_header_with", .-"rtp_b236e5ea_rtp_c::writing::write_header_with"
	.cfi_endproc

	.section	".text.unlikely.rtp_c::routed_headers::write_again","ax",@progbits
	.p2align	4
	.type	"rtp_b236e5ea_rtp_c::routed_headers::write_again",@function
"rtp_b236e5ea_rtp_c::routed_headers::write_again":
	.cfi_startproc
	pushq	%rbp
	.cfi_def_cfa_offset 16
	pushq	%r15
	.cfi_def_cfa_offset 24
	pushq	%r14
	.cfi_def_cfa_offset 32
	pushq	%r13
	.cfi_def_cfa_offset 40
	pushq	%r12
	.cfi_def_cfa_offset 48
	pushq	%rbx
	.cfi_def_cfa_offset 56
	subq	$40,%rsp
	.cfi_def_cfa_offset 96
	.cfi_offset %rbx,-56
	.cfi_offset %r12,-48
	.cfi_offset %r13,-40
	.cfi_offset %r14,-32
	.cfi_offset %r15,-24
	.cfi_offset %rbp,-16
	movq	%rcx,%r12
	movq	104(%rsp),%rax
	leaq	2(%rsi),%rcx
	subq	%r9,%rax
	cmpq	%rcx,%rax
	jae	1f
	xorl	%edx,%edx
	xorl	%eax,%eax
	jmp	2f
1:
	movq	%r9,%r14
	movq	%rdx,%r13
	movzbl	32(%r8),%eax
	movb	%al,11(%rsp)
	movzbl	27(%r8),%r15d
	movzbl	31(%r8),%ebp
	movzbl	26(%r8),%eax
	movb	%al,15(%rsp)
	movzbl	30(%r8),%eax
	movb	%al,12(%rsp)
	movzwl	24(%r8),%ebx
	movzbl	28(%r8),%r11d
	movl	16(%r8),%r10d
	movl	20(%r8),%edx
	movzbl	29(%r8),%r9d
	movzwl	36(%r8),%eax
	movw	%ax,18(%rsp)
	addq	96(%rsp),%r14
	leaq	-49(%rsi),%rax
	cmpq	$-34,%rax
	movq	%rcx,32(%rsp)
	movq	%rsi,24(%rsp)
	ja	1f
	movl	%edx,20(%rsp)
	movq	%rsi,%rdx
	movq	%rdi,%rsi
	movq	%r14,%rdi
	movb	%bpl,14(%rsp)
	movl	%r9d,%ebp
	movb	%r15b,13(%rsp)
	movl	%r10d,%r15d
	movw	%bx,16(%rsp)
	movl	%r11d,%ebx
	callq	"rtp_b236e5ea_rtp_route::copying::put_any"
	movl	%ebx,%r11d
	movzwl	16(%rsp),%ebx
	movl	%r15d,%r10d
	movzbl	13(%rsp),%r15d
	movl	%ebp,%r9d
	movzbl	14(%rsp),%ebp
	movl	20(%rsp),%edx
	movzbl	12(%rsp),%esi
	movzbl	11(%rsp),%eax
	testb	%al,%al
	jne	3f
	jmp	4f
1:
	movups	(%rdi),%xmm0
	movups	%xmm0,(%r14)
	cmpq	$33,%rsi
	jb	1f
	movups	16(%rdi),%xmm0
	movups	%xmm0,16(%r14)
1:
	movups	-16(%rdi,%rsi),%xmm0
	movups	%xmm0,-16(%r14,%rsi)
	movzbl	12(%rsp),%esi
	movzbl	11(%rsp),%eax
	testb	%al,%al
	je	4f
3:
	testb	%r15b,%r15b
	setne	%al
	shlb	$7,%al
	movzbl	1(%r14),%ecx
	andb	$127,%cl
	orb	%al,%cl
	movb	%cl,1(%r14)
4:
	testb	%bpl,%bpl
	je	1f
	movzbl	1(%r14),%eax
	andb	$-128,%al
	addb	15(%rsp),%al
	movb	%al,1(%r14)
1:
	testb	%sil,%sil
	je	1f
	rolw	$8,%bx
	movw	%bx,2(%r14)
1:
	testb	%r11b,%r11b
	je	1f
	bswapl	%r10d
	movl	%r10d,4(%r14)
1:
	testb	%r9b,%r9b
	je	1f
	bswapl	%edx
	movl	%edx,8(%r14)
1:
	movzbl	70(%r13),%ebx
	testq	%rbx,%rbx
	je	1f
	xorl	%r15d,%r15d
	jmp	3f
	.p2align	4
4:
	addq	%r14,%rdi
	movq	%r12,%rsi
	movq	%rbp,%rdx
	callq	"rtp_b236e5ea_rtp_route::slots::copy_long"
5:
	addq	%rbp,%r12
	incq	%r15
	cmpq	%r15,%rbx
	je	1f
3:
	movl	4(%r13,%r15,4),%edi
	movzbl	71(%r13,%r15),%ebp
	testl	%ebp,%ebp
	je	4b
	cmpl	$1,%ebp
	jne	3f
	movzbl	(%r12),%eax
	movb	%al,(%r14,%rdi)
	jmp	5b
	.p2align	4
3:
	cmpb	$2,%bpl
	ja	3f
	movzwl	(%r12),%eax
	movw	%ax,(%r14,%rdi)
	jmp	5b
3:
	cmpl	$3,%ebp
	jne	3f
	movzwl	(%r12),%eax
	movw	%ax,(%r14,%rdi)
	movzbl	2(%r12),%eax
	movb	%al,2(%r14,%rdi)
	jmp	5b
3:
	cmpb	$4,%bpl
	ja	4b
	movl	(%r12),%eax
	movl	%eax,(%r14,%rdi)
	jmp	5b
1:
	andb	$-33,(%r14)
	movzwl	18(%rsp),%ecx
	rolw	$8,%cx
	movq	24(%rsp),%rax
	movw	%cx,(%r14,%rax)
	movb	$1,%al
	movq	32(%rsp),%rdx
2:
	addq	$40,%rsp
	.cfi_def_cfa_offset 56
	popq	%rbx
	.cfi_def_cfa_offset 48
	popq	%r12
	.cfi_def_cfa_offset 40
	popq	%r13
	.cfi_def_cfa_offset 32
	popq	%r14
	.cfi_def_cfa_offset 24
	popq	%r15
	.cfi_def_cfa_offset 16
	popq	%rbp
	.cfi_def_cfa_offset 8
	retq
	.size	"rtp_b236e5ea_rtp_c::routed_headers::write_again", .-"rtp_b236e5ea_rtp_c::routed_headers::write_again"
	.cfi_endproc

	.section	".text.rtp_route::slots::copy_long","ax",@progbits
	.p2align	4
	.type	"rtp_b236e5ea_rtp_route::slots::copy_long",@function
"rtp_b236e5ea_rtp_route::slots::copy_long":
	.cfi_startproc
	movq	%rdi,%rax
	subq	%rsi,%rax
	cmpq	%rdx,%rax
	jae	memmove@PLT
	cmpq	$4,%rdx
	setb	%cl
	cmpq	$32,%rax
	setb	%al
	orb	%cl,%al
	je	1f
	xorl	%eax,%eax
	jmp	2f
1:
	cmpq	$32,%rdx
	jae	1f
	xorl	%eax,%eax
	jmp	3f
1:
	movq	%rdx,%rax
	andq	$-32,%rax
	xorl	%ecx,%ecx
	.p2align	4
1:
	movups	(%rsi,%rcx),%xmm0
	movups	16(%rsi,%rcx),%xmm1
	movups	%xmm0,(%rdi,%rcx)
	movups	%xmm1,16(%rdi,%rcx)
	addq	$32,%rcx
	cmpq	%rcx,%rax
	jne	1b
	cmpq	%rax,%rdx
	je	1f
	testb	$28,%dl
	je	2f
3:
	movq	%rax,%rcx
	movq	%rdx,%rax
	andq	$-4,%rax
	.p2align	4
3:
	movl	(%rsi,%rcx),%r8d
	movl	%r8d,(%rdi,%rcx)
	addq	$4,%rcx
	cmpq	%rcx,%rax
	jne	3b
	cmpq	%rax,%rdx
	je	1f
2:
	movq	%rdx,%r8
	movq	%rax,%rcx
	andq	$3,%r8
	je	2f
	movq	%rax,%rcx
	.p2align	4
3:
	movzbl	(%rsi,%rcx),%r9d
	movb	%r9b,(%rdi,%rcx)
	incq	%rcx
	decq	%r8
	jne	3b
2:
	subq	%rdx,%rax
	cmpq	$-4,%rax
	ja	1f
	.p2align	4
2:
	movzbl	(%rsi,%rcx),%eax
	movb	%al,(%rdi,%rcx)
	movzbl	1(%rsi,%rcx),%eax
	movb	%al,1(%rdi,%rcx)
	movzbl	2(%rsi,%rcx),%eax
	movb	%al,2(%rdi,%rcx)
	movzbl	3(%rsi,%rcx),%eax
	movb	%al,3(%rdi,%rcx)
	addq	$4,%rcx
	cmpq	%rcx,%rdx
	jne	2b
1:
	retq
	.size	"rtp_b236e5ea_rtp_route::slots::copy_long", .-"rtp_b236e5ea_rtp_route::slots::copy_long"
	.cfi_endproc

	.section	".text.unlikely.rtp_c::routed_headers::refuse","ax",@progbits
	.p2align	4
	.type	"rtp_b236e5ea_rtp_c::routed_headers::refuse",@function
"rtp_b236e5ea_rtp_c::routed_headers::refuse":
	.cfi_startproc
	movq	%rsi,%rax
	movq	%rsi,8(%rdi)
	movl	%edx,40(%rdi)
	movl	$0,44(%rdi)
	retq
	.size	"rtp_b236e5ea_rtp_c::routed_headers::refuse", .-"rtp_b236e5ea_rtp_c::routed_headers::refuse"
	.cfi_endproc

	.section	.rodata.cst16,"aM",@progbits,16
	.p2align	4,0x0
.Lrtp_b236e5ea_CPI71_0:
	.zero	16,32
.Lrtp_b236e5ea_CPI71_1:
	.zero	16,133
.Lrtp_b236e5ea_CPI71_2:
	.zero	16,229
.Lrtp_b236e5ea_CPI71_3:
	.zero	16,198
.Lrtp_b236e5ea_CPI71_4:
	.zero	16,245
.Lrtp_b236e5ea_CPI71_5:
	.zero	16,95
.Lrtp_b236e5ea_CPI71_6:
	.byte	3
	.byte	2
	.byte	1
	.byte	0
	.byte	7
	.byte	6
	.byte	5
	.byte	4
	.zero	1
	.zero	1
	.zero	1
	.zero	1
	.zero	1
	.zero	1
	.zero	1
	.zero	1
.Lrtp_b236e5ea_CPI71_7:
	.byte	3
	.byte	2
	.byte	1
	.byte	0
	.byte	7
	.byte	6
	.byte	5
	.byte	4
	.byte	11
	.byte	10
	.byte	9
	.byte	8
	.byte	15
	.byte	14
	.byte	13
	.byte	12
	.section	".text.rtp_c::writing_values::write_without_block","ax",@progbits
	.p2align	4
	.type	"rtp_b236e5ea_rtp_c::writing_values::write_without_block",@function
"rtp_b236e5ea_rtp_c::writing_values::write_without_block":
	.cfi_startproc
	cmpb	$0,209(%rdi)
	je	1f
	movzwl	154(%rdi),%r8d
	movl	$9,%eax
	cmpl	$179,%r8d
	jg	2f
	testl	%r8d,%r8d
	je	1f
	cmpl	$90,%r8d
	je	1f
	jmp	3f
2:
	cmpl	$270,%r8d
	je	1f
	cmpl	$180,%r8d
	jne	3f
1:
	cmpb	$0,213(%rdi)
	je	1f
	cmpl	$0,120(%rdi)
	je	2f
1:
	cmpb	$0,214(%rdi)
	je	1f
	cmpl	$0,136(%rdi)
	je	2f
1:
	cmpb	$0,211(%rdi)
	je	1f
	movzbl	166(%rdi),%eax
	addb	$127,%al
	js	2f
1:
	cmpb	$0,216(%rdi)
	je	1f
	movdqu	168(%rdi),%xmm0
	movdqa	.Lrtp_b236e5ea_CPI71_0(%rip),%xmm1
	por	%xmm0,%xmm1
	paddb	.Lrtp_b236e5ea_CPI71_1(%rip),%xmm1
	movdqa	.Lrtp_b236e5ea_CPI71_2(%rip),%xmm2
	pminub	%xmm1,%xmm2
	pcmpeqb	%xmm1,%xmm2
	movdqa	.Lrtp_b236e5ea_CPI71_3(%rip),%xmm1
	paddb	%xmm0,%xmm1
	movdqa	.Lrtp_b236e5ea_CPI71_4(%rip),%xmm3
	pminub	%xmm1,%xmm3
	pcmpeqb	%xmm1,%xmm3
	pcmpeqb	.Lrtp_b236e5ea_CPI71_5(%rip),%xmm0
	pand	%xmm2,%xmm3
	pandn	%xmm3,%xmm0
	pmovmskb	%xmm0,%eax
	orl	$65536,%eax
	rep		bsfl	%eax,%r8d
	movl	$9,%eax
	cmpb	$0,168(%rdi,%r8)
	jne	3f
1:
	cmpb	$0,217(%rdi)
	je	1f
	cmpb	$0,185(%rdi)
	je	4f
	cmpb	$0,186(%rdi)
	je	5f
	cmpb	$0,187(%rdi)
	je	6f
	cmpb	$0,188(%rdi)
	je	7f
	cmpb	$0,189(%rdi)
	je	8f
	cmpb	$0,190(%rdi)
	je	9f
	cmpb	$0,191(%rdi)
	je	10f
	cmpb	$0,192(%rdi)
	je	11f
	movl	$9,%eax
	cmpb	$0,193(%rdi)
	jne	3f
	movl	$8,%eax
	jmp	12f
4:
	xorl	%eax,%eax
	jmp	12f
5:
	movl	$1,%eax
	jmp	12f
6:
	movl	$2,%eax
	jmp	12f
7:
	movl	$3,%eax
	jmp	12f
8:
	movl	$4,%eax
	jmp	12f
9:
	movl	$5,%eax
	jmp	12f
10:
	movl	$6,%eax
	jmp	12f
11:
	movl	$7,%eax
12:
	xorl	%r8d,%r8d
	.p2align	4
4:
	cmpq	%r8,%rax
	je	1f
	movzbl	185(%rdi,%r8),%r9d
	incq	%r8
	cmpb	$95,%r9b
	je	4b
	leal	-48(%r9),%r10d
	cmpb	$10,%r10b
	jb	4b
	andb	$-33,%r9b
	addb	$-65,%r9b
	cmpb	$26,%r9b
	jb	4b
	jmp	2f
1:
	cmpb	$0,218(%rdi)
	je	1f
	cmpb	$0,194(%rdi)
	je	4f
	cmpb	$0,195(%rdi)
	je	5f
	cmpb	$0,196(%rdi)
	je	6f
	cmpb	$0,197(%rdi)
	je	7f
	cmpb	$0,198(%rdi)
	je	8f
	cmpb	$0,199(%rdi)
	je	9f
	cmpb	$0,200(%rdi)
	je	10f
	cmpb	$0,201(%rdi)
	je	11f
	movl	$9,%eax
	cmpb	$0,202(%rdi)
	jne	3f
	movl	$8,%eax
	jmp	12f
4:
	xorl	%eax,%eax
	jmp	12f
5:
	movl	$1,%eax
	jmp	12f
6:
	movl	$2,%eax
	jmp	12f
7:
	movl	$3,%eax
	jmp	12f
8:
	movl	$4,%eax
	jmp	12f
9:
	movl	$5,%eax
	jmp	12f
10:
	movl	$6,%eax
	jmp	12f
11:
	movl	$7,%eax
12:
	xorl	%r8d,%r8d
	.p2align	4
4:
	cmpq	%r8,%rax
	je	1f
	movzbl	194(%rdi,%r8),%r9d
	incq	%r8
	cmpb	$95,%r9b
	je	4b
	leal	-48(%r9),%r10d
	cmpb	$10,%r10b
	jb	4b
	andb	$-33,%r9b
	addb	$-65,%r9b
	cmpb	$26,%r9b
	jb	4b
2:
	movl	$9,%eax
	retq
1:
	movzbl	78(%rdi),%r8d
	movl	$9,%eax
	testb	%r8b,%r8b
	js	3f
	movzbl	79(%rdi),%r9d
	cmpq	$15,%r9
	ja	3f
	leaq	12(,%r9,4),%r10
	movl	$8,%eax
	cmpq	%r10,%rdx
	jae	1f
3:
	retq
1:
	cmpb	$0,80(%rdi)
	setne	%al
	cmpb	$0,81(%rdi)
	setne	%dl
	movzwl	76(%rdi),%r10d
	shlb	$5,%dl
	orb	%r9b,%dl
	orb	$-128,%dl
	shlb	$7,%al
	orb	%r8b,%al
	rolw	$8,%r10w
	movq	8(%rdi),%xmm0
	pshufb	.Lrtp_b236e5ea_CPI71_6(%rip),%xmm0
	movb	%dl,(%rsi)
	movb	%al,1(%rsi)
	movw	%r10w,2(%rsi)
	movq	%xmm0,4(%rsi)
	movzbl	79(%rdi),%eax
	testq	%rax,%rax
	je	1f
	movdqu	16(%rdi),%xmm0
	movdqu	32(%rdi),%xmm1
	movdqu	48(%rdi),%xmm2
	movups	60(%rdi),%xmm3
	movups	%xmm3,-28(%rsp)
	movdqa	%xmm2,-40(%rsp)
	movdqa	%xmm1,-56(%rsp)
	movdqa	%xmm0,-72(%rsp)
	cmpb	$8,%al
	jae	2f
	movl	$12,%edi
	xorl	%edx,%edx
	jmp	3f
1:
	movl	$12,%edi
	movq	%rdi,(%rcx)
	xorl	%eax,%eax
	retq
2:
	movl	%eax,%edx
	andl	$-8,%edx
	leal	(,%rdx,4),%r8d
	leaq	12(%r8),%rdi
	xorl	%r9d,%r9d
1:
	movdqu	-72(%rsp,%r9),%xmm0
	movdqu	-56(%rsp,%r9),%xmm1
	movdqa	.Lrtp_b236e5ea_CPI71_7(%rip),%xmm2
	pshufb	%xmm2,%xmm0
	pshufb	%xmm2,%xmm1
	movdqu	%xmm0,12(%rsi,%r9)
	movdqu	%xmm1,28(%rsi,%r9)
	addq	$32,%r9
	cmpq	%r9,%r8
	jne	1b
	cmpl	%eax,%edx
	je	1f
	.p2align	4
3:
	movl	-72(%rsp,%rdx,4),%r8d
	bswapl	%r8d
	movl	%r8d,(%rsi,%rdi)
	addq	$4,%rdi
	incq	%rdx
	cmpq	%rdx,%rax
	jne	3b
1:
	movq	%rdi,(%rcx)
	xorl	%eax,%eax
	retq
	.size	"rtp_b236e5ea_rtp_c::writing_values::write_without_block", .-"rtp_b236e5ea_rtp_c::writing_values::write_without_block"
	.cfi_endproc

	.section	".text.rtp_ext::block_elements::write_values::<#16f98aa29e959305>","ax",@progbits
	.p2align	4
	.type	"rtp_b236e5ea_rtp_ext::block_elements::write_values::<#16f98aa29e959305>",@function
"rtp_b236e5ea_rtp_ext::block_elements::write_values::<#16f98aa29e959305>":
	.cfi_startproc
	pushq	%rbp
	.cfi_def_cfa_offset 16
	pushq	%r15
	.cfi_def_cfa_offset 24
	pushq	%r14
	.cfi_def_cfa_offset 32
	pushq	%r13
	.cfi_def_cfa_offset 40
	pushq	%r12
	.cfi_def_cfa_offset 48
	pushq	%rbx
	.cfi_def_cfa_offset 56
	subq	$40,%rsp
	.cfi_def_cfa_offset 96
	.cfi_offset %rbx,-56
	.cfi_offset %r12,-48
	.cfi_offset %r13,-40
	.cfi_offset %r14,-32
	.cfi_offset %r15,-24
	.cfi_offset %rbp,-16
	movq	%rdi,%r12
	movl	%ecx,12(%rsp)
	cmpb	$1,%cl
	movl	$2,%edi
	sbbq	$0,%rdi
	cmpq	%rdi,%r9
	jae	1f
	xorl	%r13d,%r13d
2:
	movq	%r13,%rax
	addq	$40,%rsp
	.cfi_def_cfa_offset 56
	popq	%rbx
	.cfi_def_cfa_offset 48
	popq	%r12
	.cfi_def_cfa_offset 40
	popq	%r13
	.cfi_def_cfa_offset 32
	popq	%r14
	.cfi_def_cfa_offset 24
	popq	%r15
	.cfi_def_cfa_offset 16
	popq	%rbp
	.cfi_def_cfa_offset 8
	retq
1:
	.cfi_def_cfa_offset 96
	movq	%r8,%r14
	movq	%rsi,%rbp
	xorl	%r13d,%r13d
	movq	%rdi,%r15
	xorl	%ebx,%ebx
	movq	%r9,32(%rsp)
	movq	%rdx,%rsi
	movq	%rdx,24(%rsp)
	movq	%rdi,16(%rsp)
	jmp	1f
3:
	movb	%bl,(%r14,%r13)
	movb	%dl,1(%r14,%r13)
4:
	addq	%r15,%rdx
	movq	%rdx,%r13
5:
	leaq	(%rdi,%r13),%r15
	cmpq	%r15,%r9
	jb	2b
1:
	cmpq	%rbp,%rbx
	jae	6f
	movzbl	1(%r12,%rbx),%eax
	incq	%rbx
	decl	%eax
	cmpl	$14,%eax
	ja	1b
	leaq	7f(%rip),%rcx
	movslq	(%rcx,%rax,4),%rax
	addq	%rcx,%rax
	jmpq	*%rax
8:
	cmpb	$0,115(%rsi)
	je	5b
	movq	(%rsi),%rcx
	movabsq	$4835703278458516699,%rdx
	movq	%rcx,%rax
	mulq	%rdx
	shrq	$24,%rdx
	imulq	$64000000,%rdx,%rax
	subq	%rax,%rcx
	shlq	$18,%rcx
	movabsq	$18446744073710,%rdx
	movq	%rcx,%rax
	mulq	%rdx
	bswapl	%edx
	movl	%edx,%eax
	shrl	$8,%eax
	shrl	$24,%edx
	movb	%dl,2(%r14,%r15)
	movw	%ax,(%r14,%r15)
	movl	$3,%edx
	cmpb	$0,12(%rsp)
	jne	3b
	jmp	9f
6:
	cmpq	$15,%rbp
	jb	2b
	cmpq	$254,%rbx
	ja	2b
	movq	%r12,%rdi
	movq	%rbx,%rsi
	callq	"rtp_b236e5ea_rtp_c::kinds::StoredMap::past_unmapped"
	movq	16(%rsp),%rdi
	movq	24(%rsp),%rsi
	movq	32(%rsp),%r9
	movq	%rax,%rbx
	addq	$16,%rax
	cmpq	$255,%rax
	movl	$255,%ebp
	cmovbq	%rax,%rbp
	jmp	1b
1:
	cmpb	$0,119(%rsi)
	je	5b
	movl	60(%rsi),%eax
	jmp	2f
6:
	cmpb	$0,121(%rsi)
	je	5b
	movzwl	66(%rsi),%eax
	cmpl	$179,%eax
	jg	10f
	testl	%eax,%eax
	je	11f
	cmpl	$90,%eax
	jne	5b
	movb	$3,%al
	jmp	12f
13:
	cmpb	$0,129(%rsi)
	je	5b
	leaq	(%r14,%r15),%rdi
	callq	"rtp_b236e5ea_rtp_values::value::stream_id::write::<#7ba4d078ccf006bf>"
	jmp	14f
15:
	cmpb	$0,118(%rsi)
	je	5b
	movl	56(%rsi),%eax
2:
	bswapl	%eax
	movl	%eax,(%r14,%r15)
	movl	$4,%edx
	cmpb	$0,12(%rsp)
	jne	3b
	jmp	9f
2:
	cmpb	$0,130(%rsi)
	je	5b
	leaq	(%r14,%r15),%rdi
	callq	"rtp_b236e5ea_rtp_values::value::stream_id::write_repaired::<#7ba4d078ccf006bf>"
	jmp	14f
16:
	cmpb	$0,122(%rsi)
	je	5b
	movzbl	77(%rsi),%eax
	movb	%al,(%r14,%r15)
	movl	$1,%edx
	cmpb	$0,12(%rsp)
	jne	3b
	jmp	9f
17:
	leaq	(%r14,%r15),%rdi
	callq	"rtp_b236e5ea_rtp_values::value::abs_capture_time::write::<#7ba4d078ccf006bf>"
	jmp	14f
18:
	cmpb	$0,123(%rsi)
	je	5b
	cmpb	$0,124(%rsi)
	je	5b
	movzbl	78(%rsi),%eax
	cmpb	$0,79(%rsi)
	setne	%cl
	movl	%eax,%edx
	sarb	$7,%dl
	xorb	%dl,%al
	subb	%dl,%al
	andb	$127,%al
	shlb	$7,%cl
	orb	%al,%cl
	movb	%cl,(%r14,%r15)
	movl	$1,%edx
	cmpb	$0,12(%rsp)
	jne	3b
	jmp	9f
19:
	cmpb	$0,120(%rsi)
	je	5b
	movzwl	64(%rsi),%eax
	rolw	$8,%ax
	movw	%ax,(%r14,%r15)
	movl	$2,%edx
	cmpb	$0,12(%rsp)
	jne	3b
	jmp	9f
20:
	leaq	(%r14,%r15),%rdi
	callq	"rtp_b236e5ea_rtp_values::value::mid::write::<#7ba4d078ccf006bf>"
	jmp	14f
21:
	leaq	(%r14,%r15),%rdi
	callq	"rtp_b236e5ea_rtp_values::value::video_timing::write::<#7ba4d078ccf006bf>"
	jmp	14f
22:
	leaq	(%r14,%r15),%rdi
	callq	"rtp_b236e5ea_rtp_values::value::playout_delay::write::<#7ba4d078ccf006bf>"
14:
	cmpb	$1,%al
	movq	32(%rsp),%r9
	movq	24(%rsp),%rsi
	movq	16(%rsp),%rdi
	jne	5b
	cmpb	$0,12(%rsp)
	jne	3b
9:
	movl	%ebx,%eax
	rolb	$4,%al
	addb	%dl,%al
	decb	%al
	movb	%al,(%r14,%r13)
	jmp	4b
10:
	cmpl	$180,%eax
	je	4f
	cmpl	$270,%eax
	jne	5b
	movb	$1,%al
	jmp	12f
11:
	xorl	%eax,%eax
	jmp	12f
4:
	movb	$2,%al
12:
	movb	%al,(%r14,%r15)
	movl	$1,%edx
	cmpb	$0,12(%rsp)
	jne	3b
	jmp	9b
	.size	"rtp_b236e5ea_rtp_ext::block_elements::write_values::<#16f98aa29e959305>", .-"rtp_b236e5ea_rtp_ext::block_elements::write_values::<#16f98aa29e959305>"
	.cfi_endproc
	.section	".rodata.rtp_ext::block_elements::write_values::<#16f98aa29e959305>","a",@progbits
	.p2align	2,0x0
7:
	.long	8b-7b
	.long	17b-7b
	.long	18b-7b
	.long	15b-7b
	.long	6b-7b
	.long	19b-7b
	.long	22b-7b
	.long	16b-7b
	.long	21b-7b
	.long	13b-7b
	.long	2b-7b
	.long	20b-7b
	.long	1b-7b
	.long	5b-7b
	.long	5b-7b

	.section	.rodata.cst16,"aM",@progbits,16
	.p2align	4,0x0
.Lrtp_b236e5ea_CPI73_0:
	.zero	16,15
.Lrtp_b236e5ea_CPI73_1:
	.zero	16,14
.Lrtp_b236e5ea_CPI73_2:
	.byte	3
	.byte	2
	.byte	1
	.byte	0
	.byte	7
	.byte	6
	.byte	5
	.byte	4
	.zero	1
	.zero	1
	.zero	1
	.zero	1
	.zero	1
	.zero	1
	.zero	1
	.zero	1
.Lrtp_b236e5ea_CPI73_3:
	.byte	3
	.byte	2
	.byte	1
	.byte	0
	.byte	7
	.byte	6
	.byte	5
	.byte	4
	.byte	11
	.byte	10
	.byte	9
	.byte	8
	.byte	15
	.byte	14
	.byte	13
	.byte	12
	.section	".text.rtp_c::writing_values::write_with_block","ax",@progbits
	.p2align	4
	.type	"rtp_b236e5ea_rtp_c::writing_values::write_with_block",@function
"rtp_b236e5ea_rtp_c::writing_values::write_with_block":
	.cfi_startproc
	pushq	%rbp
	.cfi_def_cfa_offset 16
	pushq	%r15
	.cfi_def_cfa_offset 24
	pushq	%r14
	.cfi_def_cfa_offset 32
	pushq	%r13
	.cfi_def_cfa_offset 40
	pushq	%r12
	.cfi_def_cfa_offset 48
	pushq	%rbx
	.cfi_def_cfa_offset 56
	subq	$136,%rsp
	.cfi_def_cfa_offset 192
	.cfi_offset %rbx,-56
	.cfi_offset %r12,-48
	.cfi_offset %r13,-40
	.cfi_offset %r14,-32
	.cfi_offset %r15,-24
	.cfi_offset %rbp,-16
	movq	%r9,56(%rsp)
	movzbl	78(%rsi),%r15d
	movl	$9,%eax
	testb	%r15b,%r15b
	js	1f
	movzbl	79(%rsi),%r12d
	cmpq	$15,%r12
	ja	1f
	leal	(,%r12,4),%r13d
	leaq	16(%r13),%r10
	movl	$8,%eax
	cmpq	%r10,%rcx
	jb	1f
	movdqu	16(%rdi),%xmm0
	movdqu	32(%rdi),%xmm1
	movdqu	48(%rdi),%xmm2
	movdqu	64(%rdi),%xmm3
	por	%xmm1,%xmm3
	movdqu	80(%rdi),%xmm1
	por	%xmm2,%xmm1
	movdqu	96(%rdi),%xmm2
	movdqu	112(%rdi),%xmm4
	movdqu	128(%rdi),%xmm5
	por	%xmm2,%xmm5
	por	%xmm3,%xmm5
	movdqu	144(%rdi),%xmm2
	por	%xmm4,%xmm2
	por	%xmm1,%xmm2
	movdqu	160(%rdi),%xmm1
	movdqu	176(%rdi),%xmm3
	movdqu	192(%rdi),%xmm4
	por	%xmm1,%xmm4
	movdqu	208(%rdi),%xmm1
	por	%xmm3,%xmm1
	movdqu	224(%rdi),%xmm3
	por	%xmm4,%xmm3
	por	%xmm5,%xmm3
	por	%xmm0,%xmm3
	movdqu	240(%rdi),%xmm0
	por	%xmm1,%xmm0
	por	%xmm2,%xmm0
	por	%xmm3,%xmm0
	movl	$15,%r11d
	ptest	%xmm0,%xmm0
	je	2f
	cmpb	$0,128(%r9)
	je	3f
4:
	cmpb	$0,80(%r9)
	sete	%r10b
	cmpb	$0,129(%r9)
	je	5f
6:
	cmpb	$0,97(%r9)
	sete	%bl
	cmpb	$0,130(%r9)
	movq	%r11,16(%rsp)
	je	7f
8:
	cmpb	$0,106(%r9)
	sete	%r11b
	jmp	9f
2:
	movdqu	(%rdi),%xmm0
	pxor	%xmm1,%xmm1
	pcmpeqb	%xmm0,%xmm1
	pmovmskb	%xmm1,%r10d
	xorl	$65534,%r10d
	orl	$1,%r10d
	bsrq	%r10,%r11
	cmpb	$0,128(%r9)
	jne	4b
3:
	xorl	%r10d,%r10d
	cmpb	$0,129(%r9)
	jne	6b
5:
	xorl	%ebx,%ebx
	cmpb	$0,130(%r9)
	movq	%r11,16(%rsp)
	jne	8b
7:
	xorl	%r11d,%r11d
9:
	movzbl	80(%rsi),%ebp
	movb	%bpl,15(%rsp)
	movzbl	81(%rsi),%r14d
	movdqu	1(%rdi),%xmm0
	pcmpeqb	.Lrtp_b236e5ea_CPI73_0(%rip),%xmm0
	pmovmskb	%xmm0,%ebp
	testl	%ebp,%ebp
	movq	16(%rsp),%rbp
	je	2f
3:
	leal	(,%rbp,2),%r10d
	cmpq	$15,%rbp
	leaq	(%r10,%r10,8),%r11
	movl	$4590,%r10d
	cmovbq	%r11,%r10
	movb	$1,%r11b
4:
	movq	%rcx,%rbx
	subq	%r13,%rbx
	addq	$-12,%rbx
	addq	$7,%r10
	movzbl	%r11b,%r13d
	cmpq	%rbx,%r10
	jbe	5f
	testq	%rbp,%rbp
	je	6f
	leaq	56(%rsp),%rax
	movb	%r14b,14(%rsp)
	movq	%rdi,%r14
	movq	%rsi,40(%rsp)
	movq	%rbp,%rsi
	movq	%rdx,32(%rsp)
	movq	%rax,%rdx
	movq	%rcx,24(%rsp)
	movl	%r13d,%ecx
	movq	%r8,%rbp
	movl	%r13d,52(%rsp)
	movq	%r9,%r13
	callq	"rtp_b236e5ea_rtp_ext::block_elements::values_len::<#16f98aa29e959305>"
	movq	40(%rsp),%rsi
	movq	%r14,%rdi
	movzbl	14(%rsp),%r14d
	movq	%r13,%r9
	movl	52(%rsp),%r13d
	movq	24(%rsp),%rcx
	movq	32(%rsp),%rdx
	movq	%rbp,%r8
	movq	16(%rsp),%rbp
	movq	%rax,%r10
	movl	$8,%eax
	addq	$3,%r10
	andq	$-4,%r10
	addq	$4,%r10
	cmpq	%rbx,%r10
	jbe	5f
	jmp	1f
2:
	orb	%bl,%r10b
	cmpl	$15,%ebp
	jb	2f
	pcmpeqd	%xmm1,%xmm1
	movdqu	15(%rdi),%xmm3
	movdqu	31(%rdi),%xmm4
	movdqu	47(%rdi),%xmm2
	movdqu	63(%rdi),%xmm5
	paddb	%xmm1,%xmm4
	movdqa	.Lrtp_b236e5ea_CPI73_1(%rip),%xmm0
	paddb	%xmm1,%xmm5
	pminub	%xmm4,%xmm5
	movdqu	95(%rdi),%xmm4
	paddb	%xmm1,%xmm4
	movdqu	127(%rdi),%xmm6
	paddb	%xmm1,%xmm6
	pminub	%xmm4,%xmm6
	pminub	%xmm5,%xmm6
	movdqu	159(%rdi),%xmm4
	paddb	%xmm1,%xmm4
	movdqu	191(%rdi),%xmm5
	paddb	%xmm1,%xmm5
	pminub	%xmm4,%xmm5
	movdqu	223(%rdi),%xmm4
	paddb	%xmm1,%xmm4
	pminub	%xmm5,%xmm4
	pminub	%xmm6,%xmm4
	paddb	%xmm1,%xmm3
	paddb	%xmm1,%xmm2
	pminub	%xmm3,%xmm2
	movdqu	79(%rdi),%xmm3
	paddb	%xmm1,%xmm3
	movdqu	111(%rdi),%xmm5
	paddb	%xmm1,%xmm5
	pminub	%xmm3,%xmm5
	pminub	%xmm2,%xmm5
	movdqu	143(%rdi),%xmm2
	paddb	%xmm1,%xmm2
	movdqu	175(%rdi),%xmm3
	paddb	%xmm1,%xmm3
	pminub	%xmm2,%xmm3
	movdqu	207(%rdi),%xmm2
	paddb	%xmm1,%xmm2
	pminub	%xmm3,%xmm2
	pminub	%xmm5,%xmm2
	pminub	%xmm4,%xmm2
	movdqa	%xmm2,%xmm3
	pminub	%xmm0,%xmm3
	pcmpeqb	%xmm2,%xmm3
	pmovmskb	%xmm3,%ebx
	xorl	%ebp,%ebp
	testl	%ebx,%ebx
	setne	%bpl
	movd	%ebp,%xmm2
	movdqu	239(%rdi),%xmm3
	paddb	%xmm1,%xmm3
	pminub	%xmm3,%xmm0
	pcmpeqb	%xmm3,%xmm0
	por	%xmm2,%xmm0
	psllw	$7,%xmm0
	pmovmskb	%xmm0,%ebx
	testl	%ebx,%ebx
	setne	%bpl
	movzbl	255(%rdi),%ebx
	decb	%bl
	cmpb	$15,%bl
	setb	%bl
	orb	%bpl,%bl
	movq	16(%rsp),%rbp
	jmp	7f
6:
	movl	$4,%r10d
	cmpq	%rbx,%r10
	ja	1f
5:
	cmpb	$0,15(%rsp)
	setne	%al
	testb	%r14b,%r14b
	setne	%r10b
	movzwl	76(%rsi),%r11d
	shlb	$5,%r10b
	orb	%r12b,%r10b
	orb	$-112,%r10b
	shlb	$7,%al
	orb	%r15b,%al
	rolw	$8,%r11w
	movq	8(%rsi),%xmm0
	pshufb	.Lrtp_b236e5ea_CPI73_2(%rip),%xmm0
	movb	%r10b,(%rdx)
	movb	%al,1(%rdx)
	movw	%r11w,2(%rdx)
	movq	%xmm0,4(%rdx)
	movzbl	79(%rsi),%eax
	testq	%rax,%rax
	je	5f
	movdqu	16(%rsi),%xmm0
	movdqu	32(%rsi),%xmm1
	movdqu	48(%rsi),%xmm2
	movdqu	60(%rsi),%xmm3
	movdqu	%xmm3,108(%rsp)
	movdqa	%xmm2,96(%rsp)
	movdqa	%xmm1,80(%rsp)
	movdqa	%xmm0,64(%rsp)
	cmpb	$8,%al
	jae	6f
	movq	%r8,%r15
	movl	$12,%r14d
	xorl	%esi,%esi
	jmp	8f
5:
	movq	%r8,%r15
	movl	$12,%r14d
	jmp	5f
6:
	movl	%eax,%esi
	andl	$-8,%esi
	leal	(,%rsi,4),%r10d
	leaq	12(%r10),%r14
	xorl	%r11d,%r11d
	.p2align	4
6:
	movdqu	64(%rsp,%r11),%xmm0
	movdqu	80(%rsp,%r11),%xmm1
	movdqa	.Lrtp_b236e5ea_CPI73_3(%rip),%xmm2
	pshufb	%xmm2,%xmm0
	pshufb	%xmm2,%xmm1
	movdqu	%xmm0,12(%rdx,%r11)
	movdqu	%xmm1,28(%rdx,%r11)
	addq	$32,%r11
	cmpq	%r11,%r10
	jne	6b
	movq	%r8,%r15
	cmpl	%eax,%esi
	je	5f
	.p2align	4
8:
	movl	64(%rsp,%rsi,4),%r8d
	bswapl	%r8d
	movl	%r8d,(%rdx,%r14)
	addq	$4,%r14
	incq	%rsi
	cmpq	%rsi,%rax
	jne	8b
5:
	subq	%r14,%rcx
	leaq	(%rdx,%r14),%r8
	addq	$4,%r8
	addq	%r14,%rdx
	addq	$-4,%rcx
	movq	%rbp,%rsi
	movq	%rdx,%rbx
	movq	%r9,%rdx
	movq	%rcx,%r9
	movl	%r13d,%ecx
	callq	"rtp_b236e5ea_rtp_ext::block_elements::write_values::<#16f98aa29e959305>"
	movq	%rbx,%rdi
	movl	%r13d,%esi
	movq	%rax,%rdx
	callq	"rtp_b236e5ea_rtp_wire::header::block::close_block"
	addq	%r14,%rax
	movq	%rax,(%r15)
	xorl	%eax,%eax
1:
	addq	$136,%rsp
	.cfi_def_cfa_offset 56
	popq	%rbx
	.cfi_def_cfa_offset 48
	popq	%r12
	.cfi_def_cfa_offset 40
	popq	%r13
	.cfi_def_cfa_offset 32
	popq	%r14
	.cfi_def_cfa_offset 24
	popq	%r15
	.cfi_def_cfa_offset 16
	popq	%rbp
	.cfi_def_cfa_offset 8
	retq
2:
	.cfi_def_cfa_offset 192
	xorl	%ebx,%ebx
7:
	orb	%r11b,%r10b
	testb	%bl,%bl
	jne	1f
	movl	%r10d,%r11d
	xorb	$1,%r11b
	jne	1f
	leaq	56(%rsp),%rax
	movb	%r14b,14(%rsp)
	movq	%rdi,%r14
	movq	%rsi,40(%rsp)
	movq	%rbp,%rsi
	movq	%rdx,32(%rsp)
	movq	%rax,%rdx
	movq	%r8,24(%rsp)
	movq	%rcx,%rbx
	movq	%r9,%rbp
	callq	"rtp_b236e5ea_rtp_ext::block_form::has_empty_data::<#16f98aa29e959305>"
	movq	40(%rsp),%rsi
	movq	%r14,%rdi
	movzbl	14(%rsp),%r14d
	movq	%rbp,%r9
	movq	16(%rsp),%rbp
	movq	%rbx,%rcx
	movq	32(%rsp),%rdx
	movq	24(%rsp),%r8
	movl	%eax,%r10d
	movl	$8,%eax
	testb	%r10b,%r10b
	jne	3b
	jmp	2f
1:
	orb	%bl,%r10b
	jne	3b
2:
	movl	%ebp,%r11d
	shll	$4,%r11d
	addq	%rbp,%r11
	cmpq	$15,%rbp
	movl	$4335,%r10d
	cmovbq	%r11,%r10
	xorl	%r11d,%r11d
	jmp	4b
	.size	"rtp_b236e5ea_rtp_c::writing_values::write_with_block", .-"rtp_b236e5ea_rtp_c::writing_values::write_with_block"
	.cfi_endproc

	.section	.rodata.cst16,"aM",@progbits,16
	.p2align	4,0x0
.Lrtp_b236e5ea_CPI74_0:
	.zero	16,32
.Lrtp_b236e5ea_CPI74_1:
	.zero	16,133
.Lrtp_b236e5ea_CPI74_2:
	.zero	16,229
.Lrtp_b236e5ea_CPI74_3:
	.zero	16,198
.Lrtp_b236e5ea_CPI74_4:
	.zero	16,245
.Lrtp_b236e5ea_CPI74_5:
	.zero	16,95
	.section	.text.rtpw_data_of,"ax",@progbits
	.globl	rtp_b236e5ea_rtpw_data_of
	.p2align	4
	.type	rtp_b236e5ea_rtpw_data_of,@function
rtp_b236e5ea_rtpw_data_of:
	.cfi_startproc
	pushq	%rbp
	.cfi_def_cfa_offset 16
	pushq	%r15
	.cfi_def_cfa_offset 24
	pushq	%r14
	.cfi_def_cfa_offset 32
	pushq	%r13
	.cfi_def_cfa_offset 40
	pushq	%r12
	.cfi_def_cfa_offset 48
	pushq	%rbx
	.cfi_def_cfa_offset 56
	subq	$24,%rsp
	.cfi_def_cfa_offset 80
	.cfi_offset %rbx,-56
	.cfi_offset %r12,-48
	.cfi_offset %r13,-40
	.cfi_offset %r14,-32
	.cfi_offset %r15,-24
	.cfi_offset %rbp,-16
	testq	%rdx,%rdx
	sete	%bpl
	movl	$9,%eax
	cmpb	$15,%dil
	ja	1f
	movb	$1,%r9b
	movzbl	%dil,%edi
	leaq	2f(%rip),%r10
	movslq	(%r10,%rdi,4),%rdi
	addq	%r10,%rdi
	jmpq	*%rdi
3:
	xorl	%r10d,%r10d
	jmp	4f
5:
	movb	$13,%r10b
	jmp	4f
6:
	movb	$10,%r10b
	jmp	4f
7:
	movb	$3,%r10b
	jmp	4f
8:
	movb	$11,%r10b
	jmp	4f
9:
	movb	$8,%r10b
	jmp	4f
10:
	movb	$1,%r9b
	movb	$1,%r10b
	jmp	4f
11:
	movb	$14,%r10b
	jmp	4f
12:
	movb	$2,%r10b
	jmp	4f
13:
	movb	$6,%r10b
	jmp	4f
14:
	movb	$4,%r10b
	jmp	4f
15:
	movb	$12,%r10b
	jmp	4f
16:
	movb	$5,%r10b
	jmp	4f
17:
	movb	$9,%r10b
	jmp	4f
18:
	movb	$7,%r10b
	jmp	4f
1:
	xorl	%r9d,%r9d
	movl	$0,%r10d
	cmpb	$20,%dil
	jg	1f
4:
	movzbl	121(%rsi),%r15d
	testb	%r15b,%r15b
	je	4f
	movzwl	66(%rsi),%edi
	cmpl	$179,%edi
	jg	19f
	testl	%edi,%edi
	je	4f
	cmpl	$90,%edi
	je	4f
	jmp	1f
19:
	cmpl	$270,%edi
	je	4f
	cmpl	$180,%edi
	jne	1f
4:
	movzbl	125(%rsi),%edi
	testb	%dil,%dil
	je	4f
	cmpl	$0,32(%rsi)
	je	1f
4:
	movzbl	126(%rsi),%r11d
	testb	%r11b,%r11b
	je	4f
	cmpl	$0,48(%rsi)
	je	1f
4:
	movzbl	123(%rsi),%r12d
	testb	%r12b,%r12b
	je	4f
	movzbl	78(%rsi),%ebx
	addb	$127,%bl
	js	1f
4:
	cmpb	$0,128(%rsi)
	je	4f
	movdqu	80(%rsi),%xmm0
	movdqa	.Lrtp_b236e5ea_CPI74_0(%rip),%xmm1
	por	%xmm0,%xmm1
	paddb	.Lrtp_b236e5ea_CPI74_1(%rip),%xmm1
	movdqa	.Lrtp_b236e5ea_CPI74_2(%rip),%xmm2
	pminub	%xmm1,%xmm2
	pcmpeqb	%xmm1,%xmm2
	movdqa	.Lrtp_b236e5ea_CPI74_3(%rip),%xmm1
	paddb	%xmm0,%xmm1
	movdqa	.Lrtp_b236e5ea_CPI74_4(%rip),%xmm3
	pminub	%xmm1,%xmm3
	pcmpeqb	%xmm1,%xmm3
	pand	%xmm2,%xmm3
	pcmpeqb	.Lrtp_b236e5ea_CPI74_5(%rip),%xmm0
	pandn	%xmm3,%xmm0
	pmovmskb	%xmm0,%ebx
	orl	$65536,%ebx
	rep		bsfl	%ebx,%ebx
	cmpb	$0,80(%rsi,%rbx)
	jne	1f
4:
	movb	%bpl,7(%rsp)
	cmpb	$0,129(%rsi)
	je	4f
	cmpb	$0,97(%rsi)
	je	19f
	cmpb	$0,98(%rsi)
	je	20f
	cmpb	$0,99(%rsi)
	je	21f
	cmpb	$0,100(%rsi)
	je	22f
	cmpb	$0,101(%rsi)
	je	23f
	cmpb	$0,102(%rsi)
	je	24f
	cmpb	$0,103(%rsi)
	je	25f
	cmpb	$0,104(%rsi)
	je	26f
	cmpb	$0,105(%rsi)
	jne	1f
	movl	$8,%ebx
	jmp	27f
19:
	xorl	%ebx,%ebx
	jmp	27f
20:
	movl	$1,%ebx
	jmp	27f
21:
	movl	$2,%ebx
	jmp	27f
22:
	movl	$3,%ebx
	jmp	27f
23:
	movl	$4,%ebx
	jmp	27f
24:
	movl	$5,%ebx
	jmp	27f
25:
	movl	$6,%ebx
	jmp	27f
26:
	movl	$7,%ebx
27:
	xorl	%r13d,%r13d
	.p2align	4
19:
	cmpq	%r13,%rbx
	je	4f
	movzbl	97(%rsi,%r13),%ebp
	incq	%r13
	cmpb	$95,%bpl
	je	19b
	leal	-48(%rbp),%r14d
	cmpb	$10,%r14b
	jb	19b
	andb	$-33,%bpl
	addb	$-65,%bpl
	cmpb	$26,%bpl
	jb	19b
	jmp	1f
4:
	cmpb	$0,130(%rsi)
	je	4f
	cmpb	$0,106(%rsi)
	je	19f
	cmpb	$0,107(%rsi)
	je	20f
	cmpb	$0,108(%rsi)
	je	21f
	cmpb	$0,109(%rsi)
	je	22f
	cmpb	$0,110(%rsi)
	je	23f
	cmpb	$0,111(%rsi)
	je	24f
	cmpb	$0,112(%rsi)
	je	25f
	cmpb	$0,113(%rsi)
	je	26f
	cmpb	$0,114(%rsi)
	jne	1f
	movl	$8,%ebx
	jmp	27f
19:
	xorl	%ebx,%ebx
	jmp	27f
20:
	movl	$1,%ebx
	jmp	27f
21:
	movl	$2,%ebx
	jmp	27f
22:
	movl	$3,%ebx
	jmp	27f
23:
	movl	$4,%ebx
	jmp	27f
24:
	movl	$5,%ebx
	jmp	27f
25:
	movl	$6,%ebx
	jmp	27f
26:
	movl	$7,%ebx
27:
	xorl	%r13d,%r13d
	.p2align	4
19:
	cmpq	%r13,%rbx
	je	4f
	movzbl	106(%rsi,%r13),%ebp
	incq	%r13
	cmpb	$95,%bpl
	je	19b
	leal	-48(%rbp),%r14d
	cmpb	$10,%r14b
	jb	19b
	andb	$-33,%bpl
	addb	$-65,%bpl
	cmpb	$26,%bpl
	jb	19b
	jmp	1f
4:
	movl	$11,%eax
	testb	%r9b,%r9b
	je	1f
	movzbl	%r10b,%r13d
	leaq	4f(%rip),%r9
	movslq	(%r9,%r13,4),%r10
	addq	%r9,%r10
	jmpq	*%r10
19:
	xorl	%edi,%edi
	cmpb	$0,115(%rsi)
	setne	%dil
	leaq	(%rdi,%rdi,2),%rbx
	jmp	20f
21:
	xorl	%edi,%edi
	cmpb	$0,119(%rsi)
	jmp	22f
23:
	testb	%r15b,%r15b
	je	24f
	movzwl	66(%rsi),%r9d
	movb	$1,%dil
	cmpl	$179,%r9d
	jg	25f
	testl	%r9d,%r9d
	je	26f
	cmpl	$90,%r9d
	je	26f
	jmp	24f
27:
	movq	%rsi,%rdi
	movq	%r8,%rbp
	movq	%rdx,16(%rsp)
	movq	%rsi,%rbx
	movq	%rcx,8(%rsp)
	callq	"rtp_b236e5ea_rtp_values::value::lengths::rid_len::<#7ba4d078ccf006bf>"
	jmp	28f
29:
	xorl	%edi,%edi
	cmpb	$0,118(%rsi)
22:
	setne	%dil
	movl	%edi,%ebx
	shll	$2,%ebx
	jmp	20f
22:
	movq	%rsi,%rdi
	movq	%r8,%rbp
	movq	%rdx,16(%rsp)
	movq	%rsi,%rbx
	movq	%rcx,8(%rsp)
	callq	"rtp_b236e5ea_rtp_values::value::lengths::repaired_rid_len::<#7ba4d078ccf006bf>"
	jmp	28f
30:
	xorl	%ebx,%ebx
	cmpb	$0,122(%rsi)
	setne	%bl
	movl	%ebx,%edi
	jmp	20f
31:
	cmpb	$0,116(%rsi)
	je	1f
	xorl	%eax,%eax
	cmpb	$0,117(%rsi)
	setne	%al
	leaq	8(,%rax,8),%rbx
	jmp	32f
33:
	testb	%r12b,%r12b
	setne	%r9b
	cmpb	$0,124(%rsi)
	setne	%dil
	andb	%r9b,%dil
	jmp	26f
34:
	xorl	%edi,%edi
	cmpb	$0,120(%rsi)
	setne	%dil
	movl	%edi,%ebx
	addl	%ebx,%ebx
	jmp	20f
35:
	movq	%rsi,%rdi
	movq	%r8,%rbp
	movq	%rdx,16(%rsp)
	movq	%rsi,%rbx
	movq	%rcx,8(%rsp)
	callq	"rtp_b236e5ea_rtp_values::value::lengths::mid_len::<#7ba4d078ccf006bf>"
28:
	movq	8(%rsp),%rcx
	movq	%rbx,%rsi
	movq	%rbp,%r8
	movl	%eax,%edi
	movl	$11,%eax
	movq	%rdx,%rbx
	movq	16(%rsp),%rdx
	jmp	20f
28:
	xorl	%r9d,%r9d
	cmpb	$0,127(%rsi)
	setne	%dil
	movl	$13,%ebx
	cmoveq	%r9,%rbx
	jmp	20f
36:
	testb	%dil,%dil
	je	37f
	cmpl	$0,32(%rsi)
	setne	%dil
	jmp	38f
37:
	xorl	%edi,%edi
38:
	testb	%r11b,%r11b
	je	37f
	cmpl	$0,48(%rsi)
	setne	%r9b
	jmp	38f
37:
	xorl	%r9d,%r9d
38:
	andb	%r9b,%dil
	movzbl	%dil,%r9d
	leaq	(%r9,%r9,2),%rbx
	jmp	20f
25:
	cmpl	$180,%r9d
	je	26f
	cmpl	$270,%r9d
	je	26f
24:
	xorl	%edi,%edi
26:
	movzbl	%dil,%ebx
20:
	cmpb	$1,%dil
	jne	1f
32:
	movl	$8,%eax
	cmpq	%rbx,%rcx
	jb	1f
	xorl	%eax,%eax
	movzbl	7(%rsp),%ecx
	movb	%cl,%al
	shll	$12,%eax
	addq	%rax,%rdx
	leaq	20f(%rip),%rax
	movslq	(%rax,%r13,4),%rcx
	addq	%rax,%rcx
	jmpq	*%rcx
24:
	cmpb	$0,115(%rsi)
	je	25f
	movq	(%rsi),%rcx
	movabsq	$4835703278458516699,%rsi
	movq	%rcx,%rax
	movq	%rdx,%rdi
	mulq	%rsi
	shrq	$24,%rdx
	imulq	$64000000,%rdx,%rax
	subq	%rax,%rcx
	shlq	$18,%rcx
	movabsq	$18446744073710,%rdx
	movq	%rcx,%rax
	mulq	%rdx
	bswapl	%edx
	movl	%edx,%eax
	shrl	$8,%eax
	shrl	$24,%edx
	movb	%dl,2(%rdi)
	movw	%ax,(%rdi)
	jmp	25f
26:
	movq	%rdx,%rdi
	movq	%r8,%r14
	callq	"rtp_b236e5ea_rtp_values::value::mid::write::<#7ba4d078ccf006bf>"
	jmp	32f
37:
	testb	%r15b,%r15b
	je	25f
	movzwl	66(%rsi),%eax
	cmpl	$179,%eax
	jg	38f
	testl	%eax,%eax
	je	39f
	cmpl	$90,%eax
	jne	25f
	movb	$3,%al
	movb	%al,(%rdx)
	jmp	25f
40:
	cmpb	$0,119(%rsi)
	je	25f
	movl	60(%rsi),%eax
	jmp	41f
42:
	movq	%rdx,%rdi
	movq	%r8,%r14
	callq	"rtp_b236e5ea_rtp_values::value::stream_id::write::<#7ba4d078ccf006bf>"
	jmp	32f
43:
	testb	%r12b,%r12b
	je	25f
	cmpb	$0,124(%rsi)
	je	25f
	movzbl	78(%rsi),%eax
	cmpb	$0,79(%rsi)
	setne	%cl
	movl	%eax,%esi
	sarb	$7,%sil
	xorb	%sil,%al
	subb	%sil,%al
	andb	$127,%al
	shlb	$7,%cl
	orb	%al,%cl
	movb	%cl,(%rdx)
	jmp	25f
44:
	cmpb	$0,118(%rsi)
	je	25f
	movl	56(%rsi),%eax
41:
	bswapl	%eax
	movl	%eax,(%rdx)
	jmp	25f
41:
	cmpb	$0,122(%rsi)
	je	25f
	movzbl	77(%rsi),%eax
	movb	%al,(%rdx)
	jmp	25f
45:
	movq	%rdx,%rdi
	movq	%r8,%r14
	callq	"rtp_b236e5ea_rtp_values::value::abs_capture_time::write::<#7ba4d078ccf006bf>"
	jmp	32f
46:
	cmpb	$0,120(%rsi)
	je	25f
	movzwl	64(%rsi),%eax
	rolw	$8,%ax
	movw	%ax,(%rdx)
	jmp	25f
47:
	movq	%rdx,%rdi
	movq	%r8,%r14
	callq	"rtp_b236e5ea_rtp_values::value::playout_delay::write::<#7ba4d078ccf006bf>"
	jmp	32f
48:
	movq	%rdx,%rdi
	movq	%r8,%r14
	callq	"rtp_b236e5ea_rtp_values::value::stream_id::write_repaired::<#7ba4d078ccf006bf>"
	jmp	32f
49:
	movq	%rdx,%rdi
	movq	%r8,%r14
	callq	"rtp_b236e5ea_rtp_values::value::video_timing::write::<#7ba4d078ccf006bf>"
32:
	movq	%r14,%r8
25:
	movq	%rbx,(%r8)
	xorl	%eax,%eax
1:
	addq	$24,%rsp
	.cfi_def_cfa_offset 56
	popq	%rbx
	.cfi_def_cfa_offset 48
	popq	%r12
	.cfi_def_cfa_offset 40
	popq	%r13
	.cfi_def_cfa_offset 32
	popq	%r14
	.cfi_def_cfa_offset 24
	popq	%r15
	.cfi_def_cfa_offset 16
	popq	%rbp
	.cfi_def_cfa_offset 8
	retq
38:
	.cfi_def_cfa_offset 80
	cmpl	$180,%eax
	je	32f
	cmpl	$270,%eax
	jne	25b
	movb	$1,%al
	movb	%al,(%rdx)
	jmp	25b
39:
	xorl	%eax,%eax
	movb	%al,(%rdx)
	jmp	25b
32:
	movb	$2,%al
	movb	%al,(%rdx)
	jmp	25b
	.size	rtp_b236e5ea_rtpw_data_of,.-rtp_b236e5ea_rtpw_data_of
	.cfi_endproc
	.section	.rodata.rtpw_data_of,"a",@progbits
	.p2align	2,0x0
2:
	.long	1b-2b
	.long	3b-2b
	.long	10b-2b
	.long	12b-2b
	.long	7b-2b
	.long	14b-2b
	.long	16b-2b
	.long	13b-2b
	.long	18b-2b
	.long	9b-2b
	.long	17b-2b
	.long	6b-2b
	.long	8b-2b
	.long	15b-2b
	.long	5b-2b
	.long	11b-2b
4:
	.long	19b-4b
	.long	31b-4b
	.long	33b-4b
	.long	29b-4b
	.long	23b-4b
	.long	34b-4b
	.long	36b-4b
	.long	30b-4b
	.long	28b-4b
	.long	27b-4b
	.long	22b-4b
	.long	35b-4b
	.long	21b-4b
	.long	1b-4b
	.long	1b-4b
20:
	.long	24b-20b
	.long	45b-20b
	.long	43b-20b
	.long	44b-20b
	.long	37b-20b
	.long	46b-20b
	.long	47b-20b
	.long	41b-20b
	.long	49b-20b
	.long	42b-20b
	.long	48b-20b
	.long	26b-20b
	.long	40b-20b

	.section	.text.rtpw_extend_ntp_56,"ax",@progbits
	.globl	rtp_b236e5ea_rtpw_extend_ntp_56
	.p2align	4
	.type	rtp_b236e5ea_rtpw_extend_ntp_56,@function
rtp_b236e5ea_rtpw_extend_ntp_56:
	.cfi_startproc
	subq	%rdi,%rsi
	movabsq	$72057594037927935,%rcx
	andq	%rsi,%rcx
	leaq	(%rdi,%rcx),%rdx
	movabsq	$-72057594037927936,%rax
	addq	%rdx,%rax
	movabsq	$36028797018963968,%rsi
	cmpq	%rsi,%rcx
	cmovbeq	%rdx,%rax
	retq
	.size	rtp_b236e5ea_rtpw_extend_ntp_56,.-rtp_b236e5ea_rtpw_extend_ntp_56
	.cfi_endproc

	.section	.text.rtpw_extend_send_time,"ax",@progbits
	.globl	rtp_b236e5ea_rtpw_extend_send_time
	.p2align	4
	.type	rtp_b236e5ea_rtpw_extend_send_time,@function
rtp_b236e5ea_rtpw_extend_send_time:
	.cfi_startproc
	shlq	$14,%rsi
	subq	%rdi,%rsi
	movabsq	$274877906943,%rcx
	andq	%rsi,%rcx
	leaq	(%rdi,%rcx),%rdx
	movabsq	$-274877906944,%rax
	addq	%rdx,%rax
	movabsq	$137438953472,%rsi
	cmpq	%rsi,%rcx
	cmovbeq	%rdx,%rax
	retq
	.size	rtp_b236e5ea_rtpw_extend_send_time,.-rtp_b236e5ea_rtpw_extend_send_time
	.cfi_endproc

	.section	.text.rtpw_extend_u15,"ax",@progbits
	.globl	rtp_b236e5ea_rtpw_extend_u15
	.p2align	4
	.type	rtp_b236e5ea_rtpw_extend_u15,@function
rtp_b236e5ea_rtpw_extend_u15:
	.cfi_startproc
	subl	%edi,%esi
	andl	$32767,%esi
	leaq	(%rsi,%rdi),%rax
	cmpl	$16384,%esi
	jb	1f
	xorq	$16384,%rsi
	andl	$16384,%edi
	xorl	%ecx,%ecx
	orq	%rsi,%rdi
	sete	%cl
	shll	$15,%ecx
	addq	%rcx,%rax
	addq	$-32768,%rax
1:
	retq
	.size	rtp_b236e5ea_rtpw_extend_u15,.-rtp_b236e5ea_rtpw_extend_u15
	.cfi_endproc

	.section	.text.rtpw_extend_u16,"ax",@progbits
	.globl	rtp_b236e5ea_rtpw_extend_u16
	.p2align	4
	.type	rtp_b236e5ea_rtpw_extend_u16,@function
rtp_b236e5ea_rtpw_extend_u16:
	.cfi_startproc
	subl	%edi,%esi
	movzwl	%si,%ecx
	leaq	(%rcx,%rdi),%rax
	testw	%cx,%cx
	js	1f
	retq
1:
	xorl	%ecx,%ecx
	negw	%si
	seto	%cl
	shll	$16,%ecx
	addq	$-65536,%rcx
	testw	%di,%di
	movq	$-65536,%rdx
	cmovnsq	%rcx,%rdx
	addq	%rdx,%rax
	retq
	.size	rtp_b236e5ea_rtpw_extend_u16,.-rtp_b236e5ea_rtpw_extend_u16
	.cfi_endproc

	.section	.text.rtpw_extend_u32,"ax",@progbits
	.globl	rtp_b236e5ea_rtpw_extend_u32
	.p2align	4
	.type	rtp_b236e5ea_rtpw_extend_u32,@function
rtp_b236e5ea_rtpw_extend_u32:
	.cfi_startproc
	subl	%edi,%esi
	leaq	(%rsi,%rdi),%rax
	testl	%esi,%esi
	js	1f
	retq
1:
	xorl	%ecx,%ecx
	negl	%esi
	seto	%cl
	shlq	$32,%rcx
	movabsq	$-4294967296,%rdx
	addq	%rdx,%rcx
	testl	%edi,%edi
	cmovsq	%rdx,%rcx
	addq	%rcx,%rax
	retq
	.size	rtp_b236e5ea_rtpw_extend_u32,.-rtp_b236e5ea_rtpw_extend_u32
	.cfi_endproc

	.section	.text.rtpw_extend_u8,"ax",@progbits
	.globl	rtp_b236e5ea_rtpw_extend_u8
	.p2align	4
	.type	rtp_b236e5ea_rtpw_extend_u8,@function
rtp_b236e5ea_rtpw_extend_u8:
	.cfi_startproc
	subb	%dil,%sil
	movzbl	%sil,%ecx
	leaq	(%rcx,%rdi),%rax
	testb	%cl,%cl
	js	1f
	retq
1:
	xorl	%ecx,%ecx
	negb	%sil
	seto	%cl
	shll	$8,%ecx
	addq	$-256,%rcx
	testb	%dil,%dil
	movq	$-256,%rdx
	cmovnsq	%rcx,%rdx
	addq	%rdx,%rax
	retq
	.size	rtp_b236e5ea_rtpw_extend_u8,.-rtp_b236e5ea_rtpw_extend_u8
	.cfi_endproc

	.section	.text.rtpw_has_structure,"ax",@progbits
	.globl	rtp_b236e5ea_rtpw_has_structure
	.p2align	4
	.type	rtp_b236e5ea_rtpw_has_structure,@function
rtp_b236e5ea_rtpw_has_structure:
	.cfi_startproc
	cmpq	$4,%rsi
	jb	1f
	xorl	%eax,%eax
	testq	%rdi,%rdi
	sete	%al
	shll	$12,%eax
	movzbl	3(%rdi,%rax),%eax
	shrb	$7,%al
	retq
1:
	xorl	%eax,%eax
	retq
	.size	rtp_b236e5ea_rtpw_has_structure,.-rtp_b236e5ea_rtpw_has_structure
	.cfi_endproc

	.section	.text.rtpw_id_of,"ax",@progbits
	.globl	rtp_b236e5ea_rtpw_id_of
	.p2align	4
	.type	rtp_b236e5ea_rtpw_id_of,@function
rtp_b236e5ea_rtpw_id_of:
	.cfi_startproc
	testb	%sil,%sil
	sete	%al
	cmpb	$21,%sil
	setge	%cl
	orb	%al,%cl
	jne	1f
	movq	$-255,%rax
	.p2align	4
2:
	cmpb	%sil,256(%rdi,%rax)
	je	3f
	cmpb	%sil,257(%rdi,%rax)
	je	4f
	cmpb	%sil,258(%rdi,%rax)
	je	5f
	cmpb	%sil,259(%rdi,%rax)
	je	6f
	cmpb	%sil,260(%rdi,%rax)
	je	7f
	addq	$5,%rax
	jne	2b
1:
	xorl	%eax,%eax
	retq
3:
	decb	%al
4:
	incb	%al
	retq
5:
	incb	%al
	incb	%al
	retq
6:
	addb	$2,%al
	incb	%al
	retq
7:
	addb	$3,%al
	incb	%al
	retq
	.size	rtp_b236e5ea_rtpw_id_of,.-rtp_b236e5ea_rtpw_id_of
	.cfi_endproc

	.section	.text.rtpw_is_rtcp,"ax",@progbits
	.globl	rtp_b236e5ea_rtpw_is_rtcp
	.p2align	4
	.type	rtp_b236e5ea_rtpw_is_rtcp,@function
rtp_b236e5ea_rtpw_is_rtcp:
	.cfi_startproc
	cmpq	$2,%rsi
	jb	1f
	xorl	%eax,%eax
	testq	%rdi,%rdi
	sete	%al
	shll	$12,%eax
	movzbl	1(%rdi,%rax),%ecx
	cmpb	$-64,(%rdi,%rax)
	setl	%dl
	andb	$-32,%cl
	cmpb	$-64,%cl
	sete	%al
	andb	%dl,%al
	retq
1:
	xorl	%eax,%eax
	retq
	.size	rtp_b236e5ea_rtpw_is_rtcp,.-rtp_b236e5ea_rtpw_is_rtcp
	.cfi_endproc

	.section	.text.rtpw_is_stream_id,"ax",@progbits
	.globl	rtp_b236e5ea_rtpw_is_stream_id
	.p2align	4
	.type	rtp_b236e5ea_rtpw_is_stream_id,@function
rtp_b236e5ea_rtpw_is_stream_id:
	.cfi_startproc
	leaq	-1(%rsi),%rax
	cmpq	$254,%rax
	ja	1f
	xorl	%ecx,%ecx
	testq	%rdi,%rdi
	sete	%cl
	shll	$12,%ecx
	addq	%rdi,%rcx
	xorl	%edx,%edx
	.p2align	4
2:
	cmpq	%rdx,%rsi
	sete	%al
	je	3f
	movzbl	(%rcx,%rdx),%edi
	leal	-48(%rdi),%r8d
	incq	%rdx
	cmpb	$10,%r8b
	jb	2b
	andb	$-33,%dil
	addb	$-65,%dil
	cmpb	$26,%dil
	jb	2b
3:
	retq
1:
	xorl	%eax,%eax
	retq
	.size	rtp_b236e5ea_rtpw_is_stream_id,.-rtp_b236e5ea_rtpw_is_stream_id
	.cfi_endproc

	.section	.text.rtpw_is_token,"ax",@progbits
	.globl	rtp_b236e5ea_rtpw_is_token
	.p2align	4
	.type	rtp_b236e5ea_rtpw_is_token,@function
rtp_b236e5ea_rtpw_is_token:
	.cfi_startproc
	leaq	-1(%rsi),%rax
	cmpq	$254,%rax
	ja	1f
	xorl	%ecx,%ecx
	testq	%rdi,%rdi
	sete	%cl
	shll	$12,%ecx
	addq	%rdi,%rcx
	xorl	%edx,%edx
	jmp	2f
	.p2align	4
3:
	incq	%rdx
	cmpq	%rdx,%rsi
	je	4f
2:
	movzbl	(%rcx,%rdx),%edi
	cmpl	$33,%edi
	je	3b
	cmpb	$47,%dil
	ja	2f
	cmpb	$35,%dil
	jb	1f
	cmpb	$40,%dil
	jb	3b
	cmpb	$42,%dil
	jb	1f
	cmpb	$44,%dil
	jb	3b
	xorl	%eax,%eax
	cmpl	$47,%edi
	je	5f
	cmpl	$44,%edi
	jne	3b
	jmp	5f
	.p2align	4
2:
	cmpb	$58,%dil
	jb	3b
	cmpb	$65,%dil
	jb	1f
	cmpb	$91,%dil
	setae	%al
	addb	$-94,%dil
	cmpb	$33,%dil
	setae	%dil
	testb	%dil,%al
	je	3b
1:
	xorl	%eax,%eax
	retq
4:
	movb	$1,%al
	retq
5:
	retq
	.size	rtp_b236e5ea_rtpw_is_token,.-rtp_b236e5ea_rtpw_is_token
	.cfi_endproc

	.section	.text.rtpw_last_element,"ax",@progbits
	.globl	rtp_b236e5ea_rtpw_last_element
	.p2align	4
	.type	rtp_b236e5ea_rtpw_last_element,@function
rtp_b236e5ea_rtpw_last_element:
	.cfi_startproc
	pushq	%rbp
	.cfi_def_cfa_offset 16
	pushq	%r15
	.cfi_def_cfa_offset 24
	pushq	%r14
	.cfi_def_cfa_offset 32
	pushq	%r13
	.cfi_def_cfa_offset 40
	pushq	%r12
	.cfi_def_cfa_offset 48
	pushq	%rbx
	.cfi_def_cfa_offset 56
	pushq	%rax
	.cfi_def_cfa_offset 64
	.cfi_offset %rbx,-56
	.cfi_offset %r12,-48
	.cfi_offset %r13,-40
	.cfi_offset %r14,-32
	.cfi_offset %r15,-24
	.cfi_offset %rbp,-16
	movq	%r8,%rbx
	movl	%ecx,%ebp
	movq	%rsi,%r14
	xorl	%eax,%eax
	testq	%rdi,%rdi
	sete	%al
	shll	$12,%eax
	addq	%rdi,%rax
	cmpb	$1,%dl
	je	1f
	movzbl	%dl,%edx
	movl	$9,%ecx
	cmpl	$2,%edx
	jne	2f
	testq	%r14,%r14
	je	3f
	xorl	%r13d,%r13d
	movq	%r14,%rdx
	xorl	%r15d,%r15d
	xorl	%r12d,%r12d
4:
	cmpb	$0,(%rax)
	jne	5f
	cmpq	$2,%rdx
	je	6f
	cmpq	$1,%rdx
	je	7f
	cmpq	$3,%rdx
	ja	8f
	cmpb	$0,1(%rax)
	jne	8f
	cmpb	$0,2(%rax)
	jne	8f
	jmp	7f
6:
	cmpb	$0,1(%rax)
	je	7f
8:
	decq	%rdx
	incq	%rax
	movq	%rax,%rdi
	movq	%rdx,%rsi
	callq	"rtp_b236e5ea_rtp_ext::elements::skip_zeros"
	testq	%rdx,%rdx
	je	7f
5:
	movq	%rax,%rcx
	cmpq	$2,%rdx
	jb	7f
	movzbl	1(%rcx),%esi
	leaq	2(%rsi),%rax
	subq	%rax,%rdx
	jb	7f
	addq	%rcx,%rax
	cmpb	%bpl,(%rcx)
	je	5f
	testq	%rdx,%rdx
	jne	4b
	jmp	7f
5:
	movq	%r14,%r15
	subq	%rdx,%r15
	movq	%r15,%r12
	subq	%rsi,%r12
	movb	$1,%r13b
	testq	%rdx,%rdx
	jne	4b
	jmp	4f
1:
	testq	%r14,%r14
	je	3f
	xorl	%r13d,%r13d
	movq	%r14,%rdx
	xorl	%r15d,%r15d
	xorl	%r12d,%r12d
1:
	movzbl	(%rax),%ecx
	testb	%cl,%cl
	jne	5f
	cmpq	$2,%rdx
	je	6f
	cmpq	$1,%rdx
	je	7f
	cmpq	$3,%rdx
	ja	8f
	cmpb	$0,1(%rax)
	jne	8f
	cmpb	$0,2(%rax)
	jne	8f
	jmp	7f
6:
	cmpb	$0,1(%rax)
	je	7f
8:
	decq	%rdx
	incq	%rax
	movq	%rax,%rdi
	movq	%rdx,%rsi
	callq	"rtp_b236e5ea_rtp_ext::elements::skip_zeros"
	testq	%rdx,%rdx
	je	7f
	movzbl	(%rax),%ecx
5:
	cmpb	$-17,%cl
	ja	7f
	movl	%ecx,%esi
	andb	$15,%sil
	addb	$2,%sil
	movzbl	%sil,%esi
	subq	%rsi,%rdx
	jb	7f
	addq	%rsi,%rax
	shrb	$4,%cl
	cmpb	%bpl,%cl
	je	5f
	testq	%rdx,%rdx
	jne	1b
	jmp	7f
5:
	movq	%r14,%r15
	subq	%rdx,%r15
	negq	%rsi
	leaq	(%r15,%rsi),%r12
	incq	%r12
	movb	$1,%r13b
	testq	%rdx,%rdx
	jne	1b
	jmp	4f
7:
	movl	$11,%ecx
	cmpb	$1,%r13b
	jne	2f
4:
	movq	%r15,%rax
	subq	%r12,%rax
	movq	%r12,(%rbx)
	movq	%rax,8(%rbx)
	movq	%r15,16(%rbx)
	movb	%bpl,24(%rbx)
	movl	$0,25(%rbx)
	movl	$0,28(%rbx)
	xorl	%ecx,%ecx
	jmp	2f
3:
	movl	$11,%ecx
2:
	movl	%ecx,%eax
	addq	$8,%rsp
	.cfi_def_cfa_offset 56
	popq	%rbx
	.cfi_def_cfa_offset 48
	popq	%r12
	.cfi_def_cfa_offset 40
	popq	%r13
	.cfi_def_cfa_offset 32
	popq	%r14
	.cfi_def_cfa_offset 24
	popq	%r15
	.cfi_def_cfa_offset 16
	popq	%rbp
	.cfi_def_cfa_offset 8
	retq
	.size	rtp_b236e5ea_rtpw_last_element,.-rtp_b236e5ea_rtpw_last_element
	.cfi_endproc

	.section	.text.rtpw_map_get,"ax",@progbits
	.globl	rtp_b236e5ea_rtpw_map_get
	.p2align	4
	.type	rtp_b236e5ea_rtpw_map_get,@function
rtp_b236e5ea_rtpw_map_get:
	.cfi_startproc
	movzbl	%sil,%ecx
	movzbl	(%rdi,%rcx),%eax
	movl	%eax,%edx
	xorl	%esi,%esi
	testb	%al,%al
	cmovel	%esi,%eax
	testb	%cl,%cl
	cmovel	%esi,%eax
	cmpb	$21,%dl
	cmovgel	%esi,%eax
	retq
	.size	rtp_b236e5ea_rtpw_map_get,.-rtp_b236e5ea_rtpw_map_get
	.cfi_endproc

	.section	.text.rtpw_map_remove,"ax",@progbits
	.globl	rtp_b236e5ea_rtpw_map_remove
	.p2align	4
	.type	rtp_b236e5ea_rtpw_map_remove,@function
rtp_b236e5ea_rtpw_map_remove:
	.cfi_startproc
	movzbl	%sil,%eax
	movb	$0,(%rdi,%rax)
	retq
	.size	rtp_b236e5ea_rtpw_map_remove,.-rtp_b236e5ea_rtpw_map_remove
	.cfi_endproc

	.section	.text.rtpw_map_set,"ax",@progbits
	.globl	rtp_b236e5ea_rtpw_map_set
	.p2align	4
	.type	rtp_b236e5ea_rtpw_map_set,@function
rtp_b236e5ea_rtpw_map_set:
	.cfi_startproc
	movl	$9,%eax
	cmpb	$20,%dl
	jg	1f
	testb	%sil,%sil
	je	1f
	testb	%dl,%dl
	je	1f
	movzbl	%sil,%eax
	movb	%dl,(%rdi,%rax)
	xorl	%eax,%eax
1:
	retq
	.size	rtp_b236e5ea_rtpw_map_set,.-rtp_b236e5ea_rtpw_map_set
	.cfi_endproc

	.section	.text.rtpw_map_standard,"ax",@progbits
	.globl	rtp_b236e5ea_rtpw_map_standard
	.p2align	4
	.type	rtp_b236e5ea_rtpw_map_standard,@function
rtp_b236e5ea_rtpw_map_standard:
	.cfi_startproc
	movl	$100729600,(%rdi)
	movb	$12,4(%rdi)
	movl	$0,5(%rdi)
	movb	$0,9(%rdi)
	movl	$83888906,10(%rdi)
	xorps	%xmm0,%xmm0
	movups	%xmm0,14(%rdi)
	movups	%xmm0,30(%rdi)
	movups	%xmm0,46(%rdi)
	movups	%xmm0,62(%rdi)
	movups	%xmm0,78(%rdi)
	movups	%xmm0,94(%rdi)
	movups	%xmm0,110(%rdi)
	movups	%xmm0,126(%rdi)
	movups	%xmm0,142(%rdi)
	movups	%xmm0,158(%rdi)
	movups	%xmm0,174(%rdi)
	movups	%xmm0,190(%rdi)
	movups	%xmm0,206(%rdi)
	movups	%xmm0,222(%rdi)
	movups	%xmm0,238(%rdi)
	movw	$0,254(%rdi)
	retq
	.size	rtp_b236e5ea_rtpw_map_standard,.-rtp_b236e5ea_rtpw_map_standard
	.cfi_endproc

	.section	.text.rtpw_new_ids_between,"ax",@progbits
	.globl	rtp_b236e5ea_rtpw_new_ids_between
	.p2align	4
	.type	rtp_b236e5ea_rtpw_new_ids_between,@function
rtp_b236e5ea_rtpw_new_ids_between:
	.cfi_startproc
	xorps	%xmm0,%xmm0
	movups	%xmm0,240(%rdx)
	movups	%xmm0,224(%rdx)
	movups	%xmm0,208(%rdx)
	movups	%xmm0,192(%rdx)
	movups	%xmm0,176(%rdx)
	movups	%xmm0,160(%rdx)
	movups	%xmm0,144(%rdx)
	movups	%xmm0,128(%rdx)
	movups	%xmm0,112(%rdx)
	movups	%xmm0,96(%rdx)
	movups	%xmm0,80(%rdx)
	movups	%xmm0,64(%rdx)
	movups	%xmm0,48(%rdx)
	movups	%xmm0,32(%rdx)
	movups	%xmm0,16(%rdx)
	movups	%xmm0,(%rdx)
	movdqu	16(%rdi),%xmm0
	movdqu	32(%rdi),%xmm1
	movdqu	48(%rdi),%xmm2
	movdqu	64(%rdi),%xmm3
	por	%xmm1,%xmm3
	movdqu	80(%rdi),%xmm1
	por	%xmm2,%xmm1
	movdqu	96(%rdi),%xmm2
	movdqu	112(%rdi),%xmm4
	movdqu	128(%rdi),%xmm5
	por	%xmm2,%xmm5
	por	%xmm3,%xmm5
	movdqu	144(%rdi),%xmm2
	por	%xmm4,%xmm2
	por	%xmm1,%xmm2
	movdqu	160(%rdi),%xmm1
	movdqu	176(%rdi),%xmm3
	movdqu	192(%rdi),%xmm4
	por	%xmm1,%xmm4
	movdqu	208(%rdi),%xmm1
	por	%xmm3,%xmm1
	movdqu	224(%rdi),%xmm3
	por	%xmm4,%xmm3
	por	%xmm5,%xmm3
	por	%xmm0,%xmm3
	movdqu	240(%rdi),%xmm0
	por	%xmm1,%xmm0
	por	%xmm2,%xmm0
	por	%xmm3,%xmm0
	ptest	%xmm0,%xmm0
	movl	$16,%ecx
	movl	$256,%eax
	cmoveq	%rcx,%rax
	xorl	%ecx,%ecx
	jmp	1f
2:
	decb	%r8b
3:
	incb	%r8b
4:
	movb	%r8b,(%rdx,%rcx)
5:
	incq	%rcx
	cmpq	%rax,%rcx
	je	6f
1:
	movzbl	%cl,%r8d
	movzbl	(%rdi,%r8),%r9d
	cmpb	$20,%r9b
	jg	5b
	testq	%rcx,%rcx
	je	5b
	testb	%r9b,%r9b
	je	5b
	movq	$-255,%r8
	.p2align	4
1:
	cmpb	%r9b,256(%rsi,%r8)
	je	2b
	cmpb	%r9b,257(%rsi,%r8)
	je	3b
	cmpb	%r9b,258(%rsi,%r8)
	je	2f
	cmpb	%r9b,259(%rsi,%r8)
	je	5f
	cmpb	%r9b,260(%rsi,%r8)
	je	7f
	addq	$5,%r8
	jne	1b
	xorl	%r8d,%r8d
	jmp	4b
2:
	incb	%r8b
	jmp	3b
5:
	addb	$2,%r8b
	jmp	3b
7:
	addb	$3,%r8b
	jmp	3b
6:
	retq
	.size	rtp_b236e5ea_rtpw_new_ids_between,.-rtp_b236e5ea_rtpw_new_ids_between
	.cfi_endproc

	.section	.rodata.cst16,"aM",@progbits,16
	.p2align	4,0x0
.Lrtp_b236e5ea_CPI92_0:
	.byte	0
	.byte	1
	.byte	2
	.byte	3
	.byte	4
	.byte	5
	.byte	6
	.byte	7
	.byte	8
	.byte	9
	.byte	10
	.byte	11
	.byte	12
	.byte	13
	.byte	14
	.byte	15
.Lrtp_b236e5ea_CPI92_1:
	.byte	16
	.byte	17
	.byte	18
	.byte	19
	.byte	20
	.byte	21
	.byte	22
	.byte	23
	.byte	24
	.byte	25
	.byte	26
	.byte	27
	.byte	28
	.byte	29
	.byte	30
	.byte	31
.Lrtp_b236e5ea_CPI92_2:
	.byte	32
	.byte	33
	.byte	34
	.byte	35
	.byte	36
	.byte	37
	.byte	38
	.byte	39
	.byte	40
	.byte	41
	.byte	42
	.byte	43
	.byte	44
	.byte	45
	.byte	46
	.byte	47
.Lrtp_b236e5ea_CPI92_3:
	.byte	48
	.byte	49
	.byte	50
	.byte	51
	.byte	52
	.byte	53
	.byte	54
	.byte	55
	.byte	56
	.byte	57
	.byte	58
	.byte	59
	.byte	60
	.byte	61
	.byte	62
	.byte	63
.Lrtp_b236e5ea_CPI92_4:
	.byte	64
	.byte	65
	.byte	66
	.byte	67
	.byte	68
	.byte	69
	.byte	70
	.byte	71
	.byte	72
	.byte	73
	.byte	74
	.byte	75
	.byte	76
	.byte	77
	.byte	78
	.byte	79
.Lrtp_b236e5ea_CPI92_5:
	.byte	80
	.byte	81
	.byte	82
	.byte	83
	.byte	84
	.byte	85
	.byte	86
	.byte	87
	.byte	88
	.byte	89
	.byte	90
	.byte	91
	.byte	92
	.byte	93
	.byte	94
	.byte	95
.Lrtp_b236e5ea_CPI92_6:
	.byte	96
	.byte	97
	.byte	98
	.byte	99
	.byte	100
	.byte	101
	.byte	102
	.byte	103
	.byte	104
	.byte	105
	.byte	106
	.byte	107
	.byte	108
	.byte	109
	.byte	110
	.byte	111
.Lrtp_b236e5ea_CPI92_7:
	.byte	112
	.byte	113
	.byte	114
	.byte	115
	.byte	116
	.byte	117
	.byte	118
	.byte	119
	.byte	120
	.byte	121
	.byte	122
	.byte	123
	.byte	124
	.byte	125
	.byte	126
	.byte	127
.Lrtp_b236e5ea_CPI92_8:
	.byte	128
	.byte	129
	.byte	130
	.byte	131
	.byte	132
	.byte	133
	.byte	134
	.byte	135
	.byte	136
	.byte	137
	.byte	138
	.byte	139
	.byte	140
	.byte	141
	.byte	142
	.byte	143
.Lrtp_b236e5ea_CPI92_9:
	.byte	144
	.byte	145
	.byte	146
	.byte	147
	.byte	148
	.byte	149
	.byte	150
	.byte	151
	.byte	152
	.byte	153
	.byte	154
	.byte	155
	.byte	156
	.byte	157
	.byte	158
	.byte	159
.Lrtp_b236e5ea_CPI92_10:
	.byte	160
	.byte	161
	.byte	162
	.byte	163
	.byte	164
	.byte	165
	.byte	166
	.byte	167
	.byte	168
	.byte	169
	.byte	170
	.byte	171
	.byte	172
	.byte	173
	.byte	174
	.byte	175
.Lrtp_b236e5ea_CPI92_11:
	.byte	176
	.byte	177
	.byte	178
	.byte	179
	.byte	180
	.byte	181
	.byte	182
	.byte	183
	.byte	184
	.byte	185
	.byte	186
	.byte	187
	.byte	188
	.byte	189
	.byte	190
	.byte	191
.Lrtp_b236e5ea_CPI92_12:
	.byte	192
	.byte	193
	.byte	194
	.byte	195
	.byte	196
	.byte	197
	.byte	198
	.byte	199
	.byte	200
	.byte	201
	.byte	202
	.byte	203
	.byte	204
	.byte	205
	.byte	206
	.byte	207
.Lrtp_b236e5ea_CPI92_13:
	.byte	208
	.byte	209
	.byte	210
	.byte	211
	.byte	212
	.byte	213
	.byte	214
	.byte	215
	.byte	216
	.byte	217
	.byte	218
	.byte	219
	.byte	220
	.byte	221
	.byte	222
	.byte	223
.Lrtp_b236e5ea_CPI92_14:
	.byte	224
	.byte	225
	.byte	226
	.byte	227
	.byte	228
	.byte	229
	.byte	230
	.byte	231
	.byte	232
	.byte	233
	.byte	234
	.byte	235
	.byte	236
	.byte	237
	.byte	238
	.byte	239
.Lrtp_b236e5ea_CPI92_15:
	.byte	240
	.byte	241
	.byte	242
	.byte	243
	.byte	244
	.byte	245
	.byte	246
	.byte	247
	.byte	248
	.byte	249
	.byte	250
	.byte	251
	.byte	252
	.byte	253
	.byte	254
	.byte	255
.Lrtp_b236e5ea_CPI92_16:
	.zero	16,11
.Lrtp_b236e5ea_CPI92_17:
	.zero	16,10
.Lrtp_b236e5ea_CPI92_18:
	.byte	11
	.byte	11
	.byte	11
	.byte	11
	.byte	11
	.byte	11
	.byte	11
	.byte	11
	.zero	1
	.zero	1
	.zero	1
	.zero	1
	.zero	1
	.zero	1
	.zero	1
	.zero	1
.Lrtp_b236e5ea_CPI92_19:
	.byte	10
	.byte	10
	.byte	10
	.byte	10
	.byte	10
	.byte	10
	.byte	10
	.byte	10
	.zero	1
	.zero	1
	.zero	1
	.zero	1
	.zero	1
	.zero	1
	.zero	1
	.zero	1
	.section	.text.rtpw_new_ids_from_retransmission,"ax",@progbits
	.globl	rtp_b236e5ea_rtpw_new_ids_from_retransmission
	.p2align	4
	.type	rtp_b236e5ea_rtpw_new_ids_from_retransmission,@function
rtp_b236e5ea_rtpw_new_ids_from_retransmission:
	.cfi_startproc
	pushq	%r14
	.cfi_def_cfa_offset 16
	pushq	%rbx
	.cfi_def_cfa_offset 24
	subq	$264,%rsp
	.cfi_def_cfa_offset 288
	.cfi_offset %rbx,-24
	.cfi_offset %r14,-16
	movq	%rsi,%rbx
	movq	%rdi,%r14
	movaps	.Lrtp_b236e5ea_CPI92_0(%rip),%xmm0
	movaps	%xmm0,(%rsp)
	movaps	.Lrtp_b236e5ea_CPI92_1(%rip),%xmm0
	movaps	%xmm0,16(%rsp)
	movaps	.Lrtp_b236e5ea_CPI92_2(%rip),%xmm0
	movaps	%xmm0,32(%rsp)
	movaps	.Lrtp_b236e5ea_CPI92_3(%rip),%xmm0
	movaps	%xmm0,48(%rsp)
	movaps	.Lrtp_b236e5ea_CPI92_4(%rip),%xmm0
	movaps	%xmm0,64(%rsp)
	movaps	.Lrtp_b236e5ea_CPI92_5(%rip),%xmm0
	movaps	%xmm0,80(%rsp)
	movaps	.Lrtp_b236e5ea_CPI92_6(%rip),%xmm0
	movaps	%xmm0,96(%rsp)
	movaps	.Lrtp_b236e5ea_CPI92_7(%rip),%xmm0
	movaps	%xmm0,112(%rsp)
	movaps	.Lrtp_b236e5ea_CPI92_8(%rip),%xmm0
	movaps	%xmm0,128(%rsp)
	movaps	.Lrtp_b236e5ea_CPI92_9(%rip),%xmm0
	movaps	%xmm0,144(%rsp)
	movaps	.Lrtp_b236e5ea_CPI92_10(%rip),%xmm0
	movaps	%xmm0,160(%rsp)
	movaps	.Lrtp_b236e5ea_CPI92_11(%rip),%xmm0
	movaps	%xmm0,176(%rsp)
	movaps	.Lrtp_b236e5ea_CPI92_12(%rip),%xmm0
	movaps	%xmm0,192(%rsp)
	movaps	.Lrtp_b236e5ea_CPI92_13(%rip),%xmm0
	movaps	%xmm0,208(%rsp)
	movaps	.Lrtp_b236e5ea_CPI92_14(%rip),%xmm0
	movaps	%xmm0,224(%rsp)
	movaps	.Lrtp_b236e5ea_CPI92_15(%rip),%xmm0
	movaps	%xmm0,240(%rsp)
	movdqu	16(%rdi),%xmm0
	movdqu	32(%rdi),%xmm1
	movdqu	48(%rdi),%xmm2
	movdqu	64(%rdi),%xmm3
	por	%xmm1,%xmm3
	movdqu	80(%rdi),%xmm1
	por	%xmm2,%xmm1
	movdqu	96(%rdi),%xmm2
	movdqu	112(%rdi),%xmm4
	movdqu	128(%rdi),%xmm5
	por	%xmm2,%xmm5
	por	%xmm3,%xmm5
	movdqu	144(%rdi),%xmm2
	por	%xmm4,%xmm2
	por	%xmm1,%xmm2
	movdqu	160(%rdi),%xmm1
	movdqu	176(%rdi),%xmm3
	movdqu	192(%rdi),%xmm4
	por	%xmm1,%xmm4
	movdqu	208(%rdi),%xmm1
	por	%xmm3,%xmm1
	movdqu	224(%rdi),%xmm3
	por	%xmm4,%xmm3
	por	%xmm5,%xmm3
	por	%xmm0,%xmm3
	movdqu	240(%rdi),%xmm0
	por	%xmm1,%xmm0
	por	%xmm2,%xmm0
	por	%xmm3,%xmm0
	movl	$15,%esi
	ptest	%xmm0,%xmm0
	jne	1f
	movdqu	(%r14),%xmm0
	pxor	%xmm1,%xmm1
	pcmpeqb	%xmm0,%xmm1
	pmovmskb	%xmm1,%eax
	xorl	$65534,%eax
	orl	$1,%eax
	bsrq	%rax,%rsi
1:
	movq	%r14,%rdi
	movl	$10,%edx
	movl	$9,%ecx
	callq	"rtp_b236e5ea_rtp_ext::renamed_ids::lowest_beside::<#d4d397b1ff315637>"
	cmpb	$1,%al
	jne	1f
	movzbl	%dl,%eax
	movd	%eax,%xmm0
	punpcklbw	%xmm0,%xmm0
	pshuflw	$0,%xmm0,%xmm3
	pshufd	$68,%xmm3,%xmm4
	movdqu	1(%r14),%xmm8
	movdqu	17(%r14),%xmm9
	movdqu	1(%rsp),%xmm10
	movdqu	17(%rsp),%xmm11
	movdqu	33(%rsp),%xmm7
	movdqu	49(%rsp),%xmm6
	movdqa	.Lrtp_b236e5ea_CPI92_16(%rip),%xmm1
	movdqa	%xmm8,%xmm0
	pcmpeqb	%xmm1,%xmm0
	movdqa	%xmm9,%xmm2
	pcmpeqb	%xmm1,%xmm2
	movdqa	.Lrtp_b236e5ea_CPI92_17(%rip),%xmm5
	pcmpeqb	%xmm5,%xmm8
	pandn	%xmm10,%xmm8
	pcmpeqb	%xmm5,%xmm9
	pandn	%xmm11,%xmm9
	pblendvb	%xmm0,%xmm4,%xmm8
	movdqa	%xmm2,%xmm0
	pblendvb	%xmm0,%xmm4,%xmm9
	movdqu	%xmm8,1(%rsp)
	movdqu	%xmm9,17(%rsp)
	movdqu	33(%r14),%xmm8
	movdqu	49(%r14),%xmm9
	movdqa	%xmm8,%xmm0
	pcmpeqb	%xmm1,%xmm0
	movdqa	%xmm9,%xmm2
	pcmpeqb	%xmm1,%xmm2
	pcmpeqb	%xmm5,%xmm8
	pandn	%xmm7,%xmm8
	pcmpeqb	%xmm5,%xmm9
	pblendvb	%xmm0,%xmm4,%xmm8
	pandn	%xmm6,%xmm9
	movdqa	%xmm2,%xmm0
	pblendvb	%xmm0,%xmm4,%xmm9
	movdqu	%xmm8,33(%rsp)
	movdqu	%xmm9,49(%rsp)
	movdqu	65(%r14),%xmm6
	movdqu	81(%r14),%xmm7
	movdqu	65(%rsp),%xmm8
	movdqu	81(%rsp),%xmm9
	movdqa	%xmm6,%xmm0
	pcmpeqb	%xmm1,%xmm0
	movdqa	%xmm7,%xmm2
	pcmpeqb	%xmm1,%xmm2
	pcmpeqb	%xmm5,%xmm6
	pandn	%xmm8,%xmm6
	pcmpeqb	%xmm5,%xmm7
	pblendvb	%xmm0,%xmm4,%xmm6
	pandn	%xmm9,%xmm7
	movdqa	%xmm2,%xmm0
	pblendvb	%xmm0,%xmm4,%xmm7
	movdqu	%xmm6,65(%rsp)
	movdqu	%xmm7,81(%rsp)
	movdqu	97(%r14),%xmm6
	movdqu	113(%r14),%xmm7
	movdqu	97(%rsp),%xmm8
	movdqu	113(%rsp),%xmm9
	movdqa	%xmm6,%xmm0
	pcmpeqb	%xmm1,%xmm0
	movdqa	%xmm7,%xmm2
	pcmpeqb	%xmm1,%xmm2
	pcmpeqb	%xmm5,%xmm6
	pandn	%xmm8,%xmm6
	pcmpeqb	%xmm5,%xmm7
	pblendvb	%xmm0,%xmm4,%xmm6
	pandn	%xmm9,%xmm7
	movdqa	%xmm2,%xmm0
	pblendvb	%xmm0,%xmm4,%xmm7
	movdqu	%xmm6,97(%rsp)
	movdqu	%xmm7,113(%rsp)
	movdqu	129(%r14),%xmm6
	movdqu	145(%r14),%xmm7
	movdqu	129(%rsp),%xmm8
	movdqu	145(%rsp),%xmm9
	movdqa	%xmm6,%xmm0
	pcmpeqb	%xmm1,%xmm0
	movdqa	%xmm7,%xmm2
	pcmpeqb	%xmm1,%xmm2
	pcmpeqb	%xmm5,%xmm6
	pandn	%xmm8,%xmm6
	pcmpeqb	%xmm5,%xmm7
	pblendvb	%xmm0,%xmm4,%xmm6
	pandn	%xmm9,%xmm7
	movdqa	%xmm2,%xmm0
	pblendvb	%xmm0,%xmm4,%xmm7
	movdqu	%xmm6,129(%rsp)
	movdqu	%xmm7,145(%rsp)
	movdqu	161(%r14),%xmm6
	movdqu	177(%r14),%xmm7
	movdqu	161(%rsp),%xmm8
	movdqu	177(%rsp),%xmm9
	movdqa	%xmm6,%xmm0
	pcmpeqb	%xmm1,%xmm0
	movdqa	%xmm7,%xmm2
	pcmpeqb	%xmm1,%xmm2
	pcmpeqb	%xmm5,%xmm6
	pandn	%xmm8,%xmm6
	pcmpeqb	%xmm5,%xmm7
	pblendvb	%xmm0,%xmm4,%xmm6
	pandn	%xmm9,%xmm7
	movdqa	%xmm2,%xmm0
	pblendvb	%xmm0,%xmm4,%xmm7
	movdqu	%xmm6,161(%rsp)
	movdqu	%xmm7,177(%rsp)
	movdqu	193(%r14),%xmm2
	movdqu	209(%r14),%xmm6
	movdqu	193(%rsp),%xmm7
	movdqu	209(%rsp),%xmm8
	movdqa	%xmm2,%xmm0
	pcmpeqb	%xmm1,%xmm0
	pcmpeqb	%xmm6,%xmm1
	pcmpeqb	%xmm5,%xmm2
	pandn	%xmm7,%xmm2
	pcmpeqb	%xmm5,%xmm6
	pandn	%xmm8,%xmm6
	pblendvb	%xmm0,%xmm4,%xmm2
	movdqa	%xmm1,%xmm0
	pblendvb	%xmm0,%xmm4,%xmm6
	movdqu	%xmm2,193(%rsp)
	movdqu	%xmm6,209(%rsp)
	movq	225(%r14),%xmm2
	movq	225(%rsp),%xmm4
	movdqa	.Lrtp_b236e5ea_CPI92_18(%rip),%xmm1
	movdqa	%xmm2,%xmm0
	pcmpeqb	%xmm1,%xmm0
	movdqa	.Lrtp_b236e5ea_CPI92_19(%rip),%xmm5
	pcmpeqb	%xmm5,%xmm2
	pandn	%xmm4,%xmm2
	pblendvb	%xmm0,%xmm3,%xmm2
	movq	%xmm2,225(%rsp)
	movq	233(%r14),%xmm2
	movq	233(%rsp),%xmm4
	movdqa	%xmm2,%xmm0
	pcmpeqb	%xmm1,%xmm0
	pcmpeqb	%xmm5,%xmm2
	pandn	%xmm4,%xmm2
	pblendvb	%xmm0,%xmm3,%xmm2
	movq	%xmm2,233(%rsp)
	movq	241(%r14),%xmm2
	movq	241(%rsp),%xmm0
	pcmpeqb	%xmm2,%xmm1
	pcmpeqb	%xmm5,%xmm2
	pandn	%xmm0,%xmm2
	movdqa	%xmm1,%xmm0
	pblendvb	%xmm0,%xmm3,%xmm2
	movq	%xmm2,241(%rsp)
	movzbl	249(%r14),%edx
	xorl	%ecx,%ecx
	cmpb	$10,%dl
	movzbl	249(%rsp),%esi
	cmovel	%ecx,%esi
	cmpb	$11,%dl
	cmovel	%eax,%esi
	movb	%sil,249(%rsp)
	movzbl	250(%r14),%edx
	cmpb	$10,%dl
	movzbl	250(%rsp),%esi
	cmovel	%ecx,%esi
	cmpb	$11,%dl
	cmovel	%eax,%esi
	movb	%sil,250(%rsp)
	movzbl	251(%r14),%edx
	cmpb	$10,%dl
	movzbl	251(%rsp),%esi
	cmovel	%ecx,%esi
	cmpb	$11,%dl
	cmovel	%eax,%esi
	movb	%sil,251(%rsp)
	movzbl	252(%r14),%esi
	movl	$0,%edx
	cmpb	$10,%sil
	je	2f
	movl	252(%rsp),%edx
2:
	cmpb	$11,%sil
	cmovel	%eax,%edx
	movb	%dl,252(%rsp)
	movzbl	253(%r14),%edx
	cmpb	$10,%dl
	movzbl	253(%rsp),%esi
	cmovel	%ecx,%esi
	cmpb	$11,%dl
	cmovel	%eax,%esi
	movb	%sil,253(%rsp)
	movzbl	254(%r14),%edx
	cmpb	$10,%dl
	movzbl	254(%rsp),%esi
	cmovel	%ecx,%esi
	cmpb	$11,%dl
	cmovel	%eax,%esi
	movb	%sil,254(%rsp)
	movzbl	255(%r14),%edx
	cmpb	$10,%dl
	movzbl	255(%rsp),%esi
	cmovel	%ecx,%esi
	cmpb	$11,%dl
	cmovel	%eax,%esi
	movb	%sil,255(%rsp)
1:
	movq	%rsp,%rsi
	movl	$256,%edx
	movq	%rbx,%rdi
	callq	memcpy@PLT
	addq	$264,%rsp
	.cfi_def_cfa_offset 24
	popq	%rbx
	.cfi_def_cfa_offset 16
	popq	%r14
	.cfi_def_cfa_offset 8
	retq
	.size	rtp_b236e5ea_rtpw_new_ids_from_retransmission,.-rtp_b236e5ea_rtpw_new_ids_from_retransmission
	.cfi_endproc

	.section	.rodata.cst16,"aM",@progbits,16
	.p2align	4,0x0
.Lrtp_b236e5ea_CPI93_0:
	.byte	0
	.byte	1
	.byte	2
	.byte	3
	.byte	4
	.byte	5
	.byte	6
	.byte	7
	.byte	8
	.byte	9
	.byte	10
	.byte	11
	.byte	12
	.byte	13
	.byte	14
	.byte	15
.Lrtp_b236e5ea_CPI93_1:
	.byte	16
	.byte	17
	.byte	18
	.byte	19
	.byte	20
	.byte	21
	.byte	22
	.byte	23
	.byte	24
	.byte	25
	.byte	26
	.byte	27
	.byte	28
	.byte	29
	.byte	30
	.byte	31
.Lrtp_b236e5ea_CPI93_2:
	.byte	32
	.byte	33
	.byte	34
	.byte	35
	.byte	36
	.byte	37
	.byte	38
	.byte	39
	.byte	40
	.byte	41
	.byte	42
	.byte	43
	.byte	44
	.byte	45
	.byte	46
	.byte	47
.Lrtp_b236e5ea_CPI93_3:
	.byte	48
	.byte	49
	.byte	50
	.byte	51
	.byte	52
	.byte	53
	.byte	54
	.byte	55
	.byte	56
	.byte	57
	.byte	58
	.byte	59
	.byte	60
	.byte	61
	.byte	62
	.byte	63
.Lrtp_b236e5ea_CPI93_4:
	.byte	64
	.byte	65
	.byte	66
	.byte	67
	.byte	68
	.byte	69
	.byte	70
	.byte	71
	.byte	72
	.byte	73
	.byte	74
	.byte	75
	.byte	76
	.byte	77
	.byte	78
	.byte	79
.Lrtp_b236e5ea_CPI93_5:
	.byte	80
	.byte	81
	.byte	82
	.byte	83
	.byte	84
	.byte	85
	.byte	86
	.byte	87
	.byte	88
	.byte	89
	.byte	90
	.byte	91
	.byte	92
	.byte	93
	.byte	94
	.byte	95
.Lrtp_b236e5ea_CPI93_6:
	.byte	96
	.byte	97
	.byte	98
	.byte	99
	.byte	100
	.byte	101
	.byte	102
	.byte	103
	.byte	104
	.byte	105
	.byte	106
	.byte	107
	.byte	108
	.byte	109
	.byte	110
	.byte	111
.Lrtp_b236e5ea_CPI93_7:
	.byte	112
	.byte	113
	.byte	114
	.byte	115
	.byte	116
	.byte	117
	.byte	118
	.byte	119
	.byte	120
	.byte	121
	.byte	122
	.byte	123
	.byte	124
	.byte	125
	.byte	126
	.byte	127
.Lrtp_b236e5ea_CPI93_8:
	.byte	128
	.byte	129
	.byte	130
	.byte	131
	.byte	132
	.byte	133
	.byte	134
	.byte	135
	.byte	136
	.byte	137
	.byte	138
	.byte	139
	.byte	140
	.byte	141
	.byte	142
	.byte	143
.Lrtp_b236e5ea_CPI93_9:
	.byte	144
	.byte	145
	.byte	146
	.byte	147
	.byte	148
	.byte	149
	.byte	150
	.byte	151
	.byte	152
	.byte	153
	.byte	154
	.byte	155
	.byte	156
	.byte	157
	.byte	158
	.byte	159
.Lrtp_b236e5ea_CPI93_10:
	.byte	160
	.byte	161
	.byte	162
	.byte	163
	.byte	164
	.byte	165
	.byte	166
	.byte	167
	.byte	168
	.byte	169
	.byte	170
	.byte	171
	.byte	172
	.byte	173
	.byte	174
	.byte	175
.Lrtp_b236e5ea_CPI93_11:
	.byte	176
	.byte	177
	.byte	178
	.byte	179
	.byte	180
	.byte	181
	.byte	182
	.byte	183
	.byte	184
	.byte	185
	.byte	186
	.byte	187
	.byte	188
	.byte	189
	.byte	190
	.byte	191
.Lrtp_b236e5ea_CPI93_12:
	.byte	192
	.byte	193
	.byte	194
	.byte	195
	.byte	196
	.byte	197
	.byte	198
	.byte	199
	.byte	200
	.byte	201
	.byte	202
	.byte	203
	.byte	204
	.byte	205
	.byte	206
	.byte	207
.Lrtp_b236e5ea_CPI93_13:
	.byte	208
	.byte	209
	.byte	210
	.byte	211
	.byte	212
	.byte	213
	.byte	214
	.byte	215
	.byte	216
	.byte	217
	.byte	218
	.byte	219
	.byte	220
	.byte	221
	.byte	222
	.byte	223
.Lrtp_b236e5ea_CPI93_14:
	.byte	224
	.byte	225
	.byte	226
	.byte	227
	.byte	228
	.byte	229
	.byte	230
	.byte	231
	.byte	232
	.byte	233
	.byte	234
	.byte	235
	.byte	236
	.byte	237
	.byte	238
	.byte	239
.Lrtp_b236e5ea_CPI93_15:
	.byte	240
	.byte	241
	.byte	242
	.byte	243
	.byte	244
	.byte	245
	.byte	246
	.byte	247
	.byte	248
	.byte	249
	.byte	250
	.byte	251
	.byte	252
	.byte	253
	.byte	254
	.byte	255
.Lrtp_b236e5ea_CPI93_16:
	.zero	16,10
.Lrtp_b236e5ea_CPI93_17:
	.zero	16,11
.Lrtp_b236e5ea_CPI93_18:
	.byte	10
	.byte	10
	.byte	10
	.byte	10
	.byte	10
	.byte	10
	.byte	10
	.byte	10
	.zero	1
	.zero	1
	.zero	1
	.zero	1
	.zero	1
	.zero	1
	.zero	1
	.zero	1
.Lrtp_b236e5ea_CPI93_19:
	.byte	11
	.byte	11
	.byte	11
	.byte	11
	.byte	11
	.byte	11
	.byte	11
	.byte	11
	.zero	1
	.zero	1
	.zero	1
	.zero	1
	.zero	1
	.zero	1
	.zero	1
	.zero	1
	.section	.text.rtpw_new_ids_to_retransmission,"ax",@progbits
	.globl	rtp_b236e5ea_rtpw_new_ids_to_retransmission
	.p2align	4
	.type	rtp_b236e5ea_rtpw_new_ids_to_retransmission,@function
rtp_b236e5ea_rtpw_new_ids_to_retransmission:
	.cfi_startproc
	pushq	%r14
	.cfi_def_cfa_offset 16
	pushq	%rbx
	.cfi_def_cfa_offset 24
	subq	$264,%rsp
	.cfi_def_cfa_offset 288
	.cfi_offset %rbx,-24
	.cfi_offset %r14,-16
	movq	%rsi,%rbx
	movq	%rdi,%r14
	movaps	.Lrtp_b236e5ea_CPI93_0(%rip),%xmm0
	movaps	%xmm0,(%rsp)
	movaps	.Lrtp_b236e5ea_CPI93_1(%rip),%xmm0
	movaps	%xmm0,16(%rsp)
	movaps	.Lrtp_b236e5ea_CPI93_2(%rip),%xmm0
	movaps	%xmm0,32(%rsp)
	movaps	.Lrtp_b236e5ea_CPI93_3(%rip),%xmm0
	movaps	%xmm0,48(%rsp)
	movaps	.Lrtp_b236e5ea_CPI93_4(%rip),%xmm0
	movaps	%xmm0,64(%rsp)
	movaps	.Lrtp_b236e5ea_CPI93_5(%rip),%xmm0
	movaps	%xmm0,80(%rsp)
	movaps	.Lrtp_b236e5ea_CPI93_6(%rip),%xmm0
	movaps	%xmm0,96(%rsp)
	movaps	.Lrtp_b236e5ea_CPI93_7(%rip),%xmm0
	movaps	%xmm0,112(%rsp)
	movaps	.Lrtp_b236e5ea_CPI93_8(%rip),%xmm0
	movaps	%xmm0,128(%rsp)
	movaps	.Lrtp_b236e5ea_CPI93_9(%rip),%xmm0
	movaps	%xmm0,144(%rsp)
	movaps	.Lrtp_b236e5ea_CPI93_10(%rip),%xmm0
	movaps	%xmm0,160(%rsp)
	movaps	.Lrtp_b236e5ea_CPI93_11(%rip),%xmm0
	movaps	%xmm0,176(%rsp)
	movaps	.Lrtp_b236e5ea_CPI93_12(%rip),%xmm0
	movaps	%xmm0,192(%rsp)
	movaps	.Lrtp_b236e5ea_CPI93_13(%rip),%xmm0
	movaps	%xmm0,208(%rsp)
	movaps	.Lrtp_b236e5ea_CPI93_14(%rip),%xmm0
	movaps	%xmm0,224(%rsp)
	movaps	.Lrtp_b236e5ea_CPI93_15(%rip),%xmm0
	movaps	%xmm0,240(%rsp)
	movdqu	16(%rdi),%xmm0
	movdqu	32(%rdi),%xmm1
	movdqu	48(%rdi),%xmm2
	movdqu	64(%rdi),%xmm3
	por	%xmm1,%xmm3
	movdqu	80(%rdi),%xmm1
	por	%xmm2,%xmm1
	movdqu	96(%rdi),%xmm2
	movdqu	112(%rdi),%xmm4
	movdqu	128(%rdi),%xmm5
	por	%xmm2,%xmm5
	por	%xmm3,%xmm5
	movdqu	144(%rdi),%xmm2
	por	%xmm4,%xmm2
	por	%xmm1,%xmm2
	movdqu	160(%rdi),%xmm1
	movdqu	176(%rdi),%xmm3
	movdqu	192(%rdi),%xmm4
	por	%xmm1,%xmm4
	movdqu	208(%rdi),%xmm1
	por	%xmm3,%xmm1
	movdqu	224(%rdi),%xmm3
	por	%xmm4,%xmm3
	por	%xmm5,%xmm3
	por	%xmm0,%xmm3
	movdqu	240(%rdi),%xmm0
	por	%xmm1,%xmm0
	por	%xmm2,%xmm0
	por	%xmm3,%xmm0
	movl	$15,%esi
	ptest	%xmm0,%xmm0
	jne	1f
	movdqu	(%r14),%xmm0
	pxor	%xmm1,%xmm1
	pcmpeqb	%xmm0,%xmm1
	pmovmskb	%xmm1,%eax
	xorl	$65534,%eax
	orl	$1,%eax
	bsrq	%rax,%rsi
1:
	movq	%r14,%rdi
	movl	$9,%edx
	movl	$10,%ecx
	callq	"rtp_b236e5ea_rtp_ext::renamed_ids::lowest_beside::<#d4d397b1ff315637>"
	cmpb	$1,%al
	jne	1f
	movzbl	%dl,%eax
	movd	%eax,%xmm0
	punpcklbw	%xmm0,%xmm0
	pshuflw	$0,%xmm0,%xmm3
	pshufd	$68,%xmm3,%xmm4
	movdqu	1(%r14),%xmm8
	movdqu	17(%r14),%xmm9
	movdqu	1(%rsp),%xmm10
	movdqu	17(%rsp),%xmm11
	movdqu	33(%rsp),%xmm7
	movdqu	49(%rsp),%xmm6
	movdqa	.Lrtp_b236e5ea_CPI93_16(%rip),%xmm1
	movdqa	%xmm8,%xmm0
	pcmpeqb	%xmm1,%xmm0
	movdqa	%xmm9,%xmm2
	pcmpeqb	%xmm1,%xmm2
	movdqa	.Lrtp_b236e5ea_CPI93_17(%rip),%xmm5
	pcmpeqb	%xmm5,%xmm8
	pandn	%xmm10,%xmm8
	pcmpeqb	%xmm5,%xmm9
	pandn	%xmm11,%xmm9
	pblendvb	%xmm0,%xmm4,%xmm8
	movdqa	%xmm2,%xmm0
	pblendvb	%xmm0,%xmm4,%xmm9
	movdqu	%xmm8,1(%rsp)
	movdqu	%xmm9,17(%rsp)
	movdqu	33(%r14),%xmm8
	movdqu	49(%r14),%xmm9
	movdqa	%xmm8,%xmm0
	pcmpeqb	%xmm1,%xmm0
	movdqa	%xmm9,%xmm2
	pcmpeqb	%xmm1,%xmm2
	pcmpeqb	%xmm5,%xmm8
	pandn	%xmm7,%xmm8
	pcmpeqb	%xmm5,%xmm9
	pblendvb	%xmm0,%xmm4,%xmm8
	pandn	%xmm6,%xmm9
	movdqa	%xmm2,%xmm0
	pblendvb	%xmm0,%xmm4,%xmm9
	movdqu	%xmm8,33(%rsp)
	movdqu	%xmm9,49(%rsp)
	movdqu	65(%r14),%xmm6
	movdqu	81(%r14),%xmm7
	movdqu	65(%rsp),%xmm8
	movdqu	81(%rsp),%xmm9
	movdqa	%xmm6,%xmm0
	pcmpeqb	%xmm1,%xmm0
	movdqa	%xmm7,%xmm2
	pcmpeqb	%xmm1,%xmm2
	pcmpeqb	%xmm5,%xmm6
	pandn	%xmm8,%xmm6
	pcmpeqb	%xmm5,%xmm7
	pblendvb	%xmm0,%xmm4,%xmm6
	pandn	%xmm9,%xmm7
	movdqa	%xmm2,%xmm0
	pblendvb	%xmm0,%xmm4,%xmm7
	movdqu	%xmm6,65(%rsp)
	movdqu	%xmm7,81(%rsp)
	movdqu	97(%r14),%xmm6
	movdqu	113(%r14),%xmm7
	movdqu	97(%rsp),%xmm8
	movdqu	113(%rsp),%xmm9
	movdqa	%xmm6,%xmm0
	pcmpeqb	%xmm1,%xmm0
	movdqa	%xmm7,%xmm2
	pcmpeqb	%xmm1,%xmm2
	pcmpeqb	%xmm5,%xmm6
	pandn	%xmm8,%xmm6
	pcmpeqb	%xmm5,%xmm7
	pblendvb	%xmm0,%xmm4,%xmm6
	pandn	%xmm9,%xmm7
	movdqa	%xmm2,%xmm0
	pblendvb	%xmm0,%xmm4,%xmm7
	movdqu	%xmm6,97(%rsp)
	movdqu	%xmm7,113(%rsp)
	movdqu	129(%r14),%xmm6
	movdqu	145(%r14),%xmm7
	movdqu	129(%rsp),%xmm8
	movdqu	145(%rsp),%xmm9
	movdqa	%xmm6,%xmm0
	pcmpeqb	%xmm1,%xmm0
	movdqa	%xmm7,%xmm2
	pcmpeqb	%xmm1,%xmm2
	pcmpeqb	%xmm5,%xmm6
	pandn	%xmm8,%xmm6
	pcmpeqb	%xmm5,%xmm7
	pblendvb	%xmm0,%xmm4,%xmm6
	pandn	%xmm9,%xmm7
	movdqa	%xmm2,%xmm0
	pblendvb	%xmm0,%xmm4,%xmm7
	movdqu	%xmm6,129(%rsp)
	movdqu	%xmm7,145(%rsp)
	movdqu	161(%r14),%xmm6
	movdqu	177(%r14),%xmm7
	movdqu	161(%rsp),%xmm8
	movdqu	177(%rsp),%xmm9
	movdqa	%xmm6,%xmm0
	pcmpeqb	%xmm1,%xmm0
	movdqa	%xmm7,%xmm2
	pcmpeqb	%xmm1,%xmm2
	pcmpeqb	%xmm5,%xmm6
	pandn	%xmm8,%xmm6
	pcmpeqb	%xmm5,%xmm7
	pblendvb	%xmm0,%xmm4,%xmm6
	pandn	%xmm9,%xmm7
	movdqa	%xmm2,%xmm0
	pblendvb	%xmm0,%xmm4,%xmm7
	movdqu	%xmm6,161(%rsp)
	movdqu	%xmm7,177(%rsp)
	movdqu	193(%r14),%xmm2
	movdqu	209(%r14),%xmm6
	movdqu	193(%rsp),%xmm7
	movdqu	209(%rsp),%xmm8
	movdqa	%xmm2,%xmm0
	pcmpeqb	%xmm1,%xmm0
	pcmpeqb	%xmm6,%xmm1
	pcmpeqb	%xmm5,%xmm2
	pandn	%xmm7,%xmm2
	pcmpeqb	%xmm5,%xmm6
	pandn	%xmm8,%xmm6
	pblendvb	%xmm0,%xmm4,%xmm2
	movdqa	%xmm1,%xmm0
	pblendvb	%xmm0,%xmm4,%xmm6
	movdqu	%xmm2,193(%rsp)
	movdqu	%xmm6,209(%rsp)
	movq	225(%r14),%xmm2
	movq	225(%rsp),%xmm4
	movdqa	.Lrtp_b236e5ea_CPI93_18(%rip),%xmm1
	movdqa	%xmm2,%xmm0
	pcmpeqb	%xmm1,%xmm0
	movdqa	.Lrtp_b236e5ea_CPI93_19(%rip),%xmm5
	pcmpeqb	%xmm5,%xmm2
	pandn	%xmm4,%xmm2
	pblendvb	%xmm0,%xmm3,%xmm2
	movq	%xmm2,225(%rsp)
	movq	233(%r14),%xmm2
	movq	233(%rsp),%xmm4
	movdqa	%xmm2,%xmm0
	pcmpeqb	%xmm1,%xmm0
	pcmpeqb	%xmm5,%xmm2
	pandn	%xmm4,%xmm2
	pblendvb	%xmm0,%xmm3,%xmm2
	movq	%xmm2,233(%rsp)
	movq	241(%r14),%xmm2
	movq	241(%rsp),%xmm0
	pcmpeqb	%xmm2,%xmm1
	pcmpeqb	%xmm5,%xmm2
	pandn	%xmm0,%xmm2
	movdqa	%xmm1,%xmm0
	pblendvb	%xmm0,%xmm3,%xmm2
	movq	%xmm2,241(%rsp)
	movzbl	249(%r14),%edx
	xorl	%ecx,%ecx
	cmpb	$11,%dl
	movzbl	249(%rsp),%esi
	cmovel	%ecx,%esi
	cmpb	$10,%dl
	cmovel	%eax,%esi
	movb	%sil,249(%rsp)
	movzbl	250(%r14),%edx
	cmpb	$11,%dl
	movzbl	250(%rsp),%esi
	cmovel	%ecx,%esi
	cmpb	$10,%dl
	cmovel	%eax,%esi
	movb	%sil,250(%rsp)
	movzbl	251(%r14),%edx
	cmpb	$11,%dl
	movzbl	251(%rsp),%esi
	cmovel	%ecx,%esi
	cmpb	$10,%dl
	cmovel	%eax,%esi
	movb	%sil,251(%rsp)
	movzbl	252(%r14),%esi
	movl	$0,%edx
	cmpb	$11,%sil
	je	2f
	movl	252(%rsp),%edx
2:
	cmpb	$10,%sil
	cmovel	%eax,%edx
	movb	%dl,252(%rsp)
	movzbl	253(%r14),%edx
	cmpb	$11,%dl
	movzbl	253(%rsp),%esi
	cmovel	%ecx,%esi
	cmpb	$10,%dl
	cmovel	%eax,%esi
	movb	%sil,253(%rsp)
	movzbl	254(%r14),%edx
	cmpb	$11,%dl
	movzbl	254(%rsp),%esi
	cmovel	%ecx,%esi
	cmpb	$10,%dl
	cmovel	%eax,%esi
	movb	%sil,254(%rsp)
	movzbl	255(%r14),%edx
	cmpb	$11,%dl
	movzbl	255(%rsp),%esi
	cmovel	%ecx,%esi
	cmpb	$10,%dl
	cmovel	%eax,%esi
	movb	%sil,255(%rsp)
1:
	movq	%rsp,%rsi
	movl	$256,%edx
	movq	%rbx,%rdi
	callq	memcpy@PLT
	addq	$264,%rsp
	.cfi_def_cfa_offset 24
	popq	%rbx
	.cfi_def_cfa_offset 16
	popq	%r14
	.cfi_def_cfa_offset 8
	retq
	.size	rtp_b236e5ea_rtpw_new_ids_to_retransmission,.-rtp_b236e5ea_rtpw_new_ids_to_retransmission
	.cfi_endproc

	.section	.text.rtpw_next_element,"ax",@progbits
	.globl	rtp_b236e5ea_rtpw_next_element
	.p2align	4
	.type	rtp_b236e5ea_rtpw_next_element,@function
rtp_b236e5ea_rtpw_next_element:
	.cfi_startproc
	pushq	%r15
	.cfi_def_cfa_offset 16
	pushq	%r14
	.cfi_def_cfa_offset 24
	pushq	%rbx
	.cfi_def_cfa_offset 32
	.cfi_offset %rbx,-32
	.cfi_offset %r14,-24
	.cfi_offset %r15,-16
	xorl	%r9d,%r9d
	testq	%rdi,%rdi
	sete	%r10b
	movl	$9,%eax
	cmpb	$1,%dl
	je	1f
	movzbl	%dl,%edx
	cmpl	$2,%edx
	jne	2f
	xorl	%ebx,%ebx
	cmpq	%rcx,%rsi
	jae	3f
2:
	popq	%rbx
	.cfi_def_cfa_offset 24
	popq	%r14
	.cfi_def_cfa_offset 16
	popq	%r15
	.cfi_def_cfa_offset 8
	retq
1:
	.cfi_def_cfa_offset 32
	movb	$1,%bl
	cmpq	%rcx,%rsi
	jb	2b
3:
	movq	%rsi,%rdx
	movl	$11,%eax
	subq	%rcx,%rdx
	je	2b
	movb	%r10b,%r9b
	shll	$12,%r9d
	addq	%r9,%rdi
	addq	%rcx,%rdi
	cmpb	$0,(%rdi)
	je	1f
	testb	%bl,%bl
	je	3f
4:
	movzbl	(%rdi),%ecx
	cmpq	$239,%rcx
	ja	2b
	movl	%ecx,%r9d
	andl	$15,%r9d
	addq	$2,%r9
	cmpq	%r9,%rdx
	jb	2b
	shrb	$4,%cl
	leaq	-1(%r9),%r10
	jmp	5f
1:
	cmpq	$1,%rdx
	je	2b
	cmpq	$2,%rdx
	jne	1f
	cmpb	$0,1(%rdi)
	je	2b
	jmp	6f
1:
	cmpq	$3,%rdx
	ja	6f
	cmpb	$0,1(%rdi)
	jne	6f
	cmpb	$0,2(%rdi)
	je	2b
6:
	movq	%rsi,%r14
	movq	%r8,%r15
	decq	%rdx
	incq	%rdi
	movq	%rdx,%rsi
	callq	"rtp_b236e5ea_rtp_ext::elements::skip_zeros"
	testq	%rdx,%rdx
	je	1f
	movq	%rax,%rdi
	movq	%r15,%r8
	movq	%r14,%rsi
	movl	$11,%eax
	testb	%bl,%bl
	jne	4b
3:
	cmpq	$2,%rdx
	jb	2b
	movzbl	1(%rdi),%r10d
	leaq	2(%r10),%r9
	cmpq	%r9,%rdx
	jb	2b
	movzbl	(%rdi),%ecx
5:
	subq	%rdx,%r9
	addq	%rsi,%r9
	movq	%r9,%rax
	subq	%r10,%rax
	movq	%rax,(%r8)
	movq	%r10,8(%r8)
	movq	%r9,16(%r8)
	movb	%cl,24(%r8)
	movl	$0,25(%r8)
	movl	$0,28(%r8)
	xorl	%eax,%eax
	popq	%rbx
	.cfi_def_cfa_offset 24
	popq	%r14
	.cfi_def_cfa_offset 16
	popq	%r15
	.cfi_def_cfa_offset 8
	retq
1:
	.cfi_def_cfa_offset 32
	movl	$11,%eax
	popq	%rbx
	.cfi_def_cfa_offset 24
	popq	%r14
	.cfi_def_cfa_offset 16
	popq	%r15
	.cfi_def_cfa_offset 8
	retq
	.size	rtp_b236e5ea_rtpw_next_element,.-rtp_b236e5ea_rtpw_next_element
	.cfi_endproc

	.section	.text.rtpw_next_elements,"ax",@progbits
	.globl	rtp_b236e5ea_rtpw_next_elements
	.p2align	4
	.type	rtp_b236e5ea_rtpw_next_elements,@function
rtp_b236e5ea_rtpw_next_elements:
	.cfi_startproc
	pushq	%r15
	.cfi_def_cfa_offset 16
	pushq	%r14
	.cfi_def_cfa_offset 24
	pushq	%r13
	.cfi_def_cfa_offset 32
	pushq	%r12
	.cfi_def_cfa_offset 40
	pushq	%rbx
	.cfi_def_cfa_offset 48
	.cfi_offset %rbx,-48
	.cfi_offset %r12,-40
	.cfi_offset %r13,-32
	.cfi_offset %r14,-24
	.cfi_offset %r15,-16
	xorl	%ebx,%ebx
	testq	%rdi,%rdi
	sete	%bl
	shll	$12,%ebx
	addq	%rdi,%rbx
	xorl	%eax,%eax
	testq	%r8,%r8
	sete	%al
	shll	$12,%eax
	cmpb	$2,%dl
	je	1f
	movzbl	%dl,%edx
	cmpl	$1,%edx
	jne	2f
	cmpq	%rsi,%rcx
	seta	%dl
	testq	%r9,%r9
	sete	%dil
	orb	%dl,%dil
	jne	2f
	leaq	(%rax,%r8),%r14
	addq	$24,%r14
	xorl	%eax,%eax
3:
	movq	%rsi,%rdx
	subq	%rcx,%rdx
	je	4f
	movzbl	(%rbx,%rcx),%edi
	testb	%dil,%dil
	jne	5f
	cmpq	$2,%rdx
	je	6f
	cmpq	$1,%rdx
	je	4f
	cmpq	$3,%rdx
	ja	7f
	cmpb	$0,1(%rbx,%rcx)
	jne	7f
	cmpb	$0,2(%rbx,%rcx)
	jne	7f
	jmp	4f
6:
	cmpb	$0,1(%rbx,%rcx)
	je	4f
7:
	movq	%rsi,%r12
	movq	%r9,%r13
	movq	%rax,%r15
	decq	%rdx
	leaq	(%rbx,%rcx),%rdi
	incq	%rdi
	movq	%rdx,%rsi
	callq	"rtp_b236e5ea_rtp_ext::elements::skip_zeros"
	testq	%rdx,%rdx
	je	6f
	movzbl	(%rax),%edi
	movq	%r15,%rax
	movq	%r13,%r9
	movq	%r12,%rsi
5:
	cmpb	$-17,%dil
	ja	4f
	movl	%edi,%ecx
	andb	$15,%cl
	addb	$2,%cl
	movzbl	%cl,%r8d
	movq	%r8,%rcx
	subq	%rdx,%rcx
	ja	4f
	shrb	$4,%dil
	decq	%r8
	addq	%rsi,%rcx
	movq	%rcx,%rdx
	subq	%r8,%rdx
	movq	%rdx,-24(%r14)
	movq	%r8,-16(%r14)
	movq	%rcx,-8(%r14)
	movb	%dil,(%r14)
	incq	%rax
	addq	$32,%r14
	cmpq	%rax,%r9
	jne	3b
	jmp	3f
1:
	cmpq	%rsi,%rcx
	seta	%dl
	testq	%r9,%r9
	sete	%dil
	orb	%dl,%dil
	je	1f
2:
	xorl	%eax,%eax
4:
	popq	%rbx
	.cfi_def_cfa_offset 40
	popq	%r12
	.cfi_def_cfa_offset 32
	popq	%r13
	.cfi_def_cfa_offset 24
	popq	%r14
	.cfi_def_cfa_offset 16
	popq	%r15
	.cfi_def_cfa_offset 8
	retq
1:
	.cfi_def_cfa_offset 48
	leaq	(%rax,%r8),%r14
	addq	$24,%r14
	xorl	%eax,%eax
1:
	movq	%rsi,%rdx
	subq	%rcx,%rdx
	je	4b
	addq	%rbx,%rcx
	cmpb	$0,(%rcx)
	jne	2f
	cmpq	$2,%rdx
	je	5f
	cmpq	$1,%rdx
	je	4b
	cmpq	$3,%rdx
	ja	7f
	cmpb	$0,1(%rcx)
	jne	7f
	cmpb	$0,2(%rcx)
	jne	7f
	jmp	4b
5:
	cmpb	$0,1(%rcx)
	je	4b
7:
	movq	%rsi,%r12
	movq	%r9,%r13
	movq	%rax,%r15
	decq	%rdx
	incq	%rcx
	movq	%rcx,%rdi
	movq	%rdx,%rsi
	callq	"rtp_b236e5ea_rtp_ext::elements::skip_zeros"
	testq	%rdx,%rdx
	je	6f
	movq	%rax,%rcx
	movq	%r15,%rax
	movq	%r13,%r9
	movq	%r12,%rsi
2:
	cmpq	$2,%rdx
	jb	4b
	movzbl	1(%rcx),%r8d
	leaq	2(%r8),%rdi
	subq	%rdx,%rdi
	ja	4b
	movzbl	(%rcx),%ecx
	addq	%rsi,%rdi
	movq	%rdi,%rdx
	subq	%r8,%rdx
	movq	%rdx,-24(%r14)
	movq	%r8,-16(%r14)
	movq	%rdi,-8(%r14)
	movb	%cl,(%r14)
	incq	%rax
	addq	$32,%r14
	movq	%rdi,%rcx
	cmpq	%rax,%r9
	jne	1b
3:
	movq	%r9,%rax
	jmp	4b
6:
	movq	%r15,%rax
	jmp	4b
	.size	rtp_b236e5ea_rtpw_next_elements,.-rtp_b236e5ea_rtpw_next_elements
	.cfi_endproc

	.section	.text.rtpw_pad,"ax",@progbits
	.globl	rtp_b236e5ea_rtpw_pad
	.p2align	4
	.type	rtp_b236e5ea_rtpw_pad,@function
rtp_b236e5ea_rtpw_pad:
	.cfi_startproc
	xorl	%r10d,%r10d
	testq	%rdi,%rdi
	sete	%r11b
	testq	%r8,%r8
	je	1f
	pushq	%rbp
	.cfi_def_cfa_offset 16
	pushq	%r15
	.cfi_def_cfa_offset 24
	pushq	%r14
	.cfi_def_cfa_offset 32
	pushq	%r13
	.cfi_def_cfa_offset 40
	pushq	%r12
	.cfi_def_cfa_offset 48
	pushq	%rbx
	.cfi_def_cfa_offset 56
	pushq	%rax
	.cfi_def_cfa_offset 64
	.cfi_offset %rbx,-56
	.cfi_offset %r12,-48
	.cfi_offset %r13,-40
	.cfi_offset %r14,-32
	.cfi_offset %r15,-24
	.cfi_offset %rbp,-16
	xorl	%r15d,%r15d
	testb	%cl,%cl
	je	2f
	movl	$240,%r15d
	cmpq	$240,%r8
	ja	3f
	movzbl	%cl,%ebx
	movzbl	%cl,%eax
	divb	%r8b
	movzbl	%ah,%eax
	subq	%rax,%r8
	xorl	%ecx,%ecx
	testb	%al,%al
	cmovneq	%r8,%rcx
	addq	%rbx,%rcx
	cmpq	$240,%rcx
	cmovbq	%rcx,%r15
3:
	movq	%r15,%rax
	addq	%rdx,%rax
	setb	%cl
	cmpq	%rsi,%rax
	seta	%al
	orb	%cl,%al
	movl	$8,%eax
	jne	3f
	movb	%r11b,%r10b
	shll	$12,%r10d
	addq	%r10,%rdi
	orb	$32,(%rdi)
	movq	%r15,%r12
	decq	%r12
	je	4f
	leaq	(%rdi,%rdx),%r13
	movq	%r15,%r14
	addq	$-2,%r14
	je	5f
	movq	%rdi,(%rsp)
	movq	%r13,%rdi
	xorl	%esi,%esi
	movq	%rdx,%rbp
	movq	%r14,%rdx
	movq	%r9,%rbx
	callq	memset@PLT
	movq	(%rsp),%rdi
	movq	%rbp,%rdx
	movq	%rbx,%r9
5:
	movb	$0,(%r13,%r14)
4:
	addq	%r12,%rdi
	movb	%r15b,(%rdx,%rdi)
2:
	movq	%r15,(%r9)
	xorl	%eax,%eax
3:
	addq	$8,%rsp
	.cfi_def_cfa_offset 56
	popq	%rbx
	.cfi_def_cfa_offset 48
	popq	%r12
	.cfi_def_cfa_offset 40
	popq	%r13
	.cfi_def_cfa_offset 32
	popq	%r14
	.cfi_def_cfa_offset 24
	popq	%r15
	.cfi_def_cfa_offset 16
	popq	%rbp
	.cfi_def_cfa_offset 8
	.cfi_restore %rbx
	.cfi_restore %r12
	.cfi_restore %r13
	.cfi_restore %r14
	.cfi_restore %r15
	.cfi_restore %rbp
	retq
1:
	movl	$9,%eax
	retq
	.size	rtp_b236e5ea_rtpw_pad,.-rtp_b236e5ea_rtpw_pad
	.cfi_endproc

	.section	.rodata.cst16,"aM",@progbits,16
	.p2align	4,0x0
.Lrtp_b236e5ea_CPI97_0:
	.byte	255
	.byte	1
	.byte	63
	.byte	0
	.zero	1
	.zero	1
	.zero	1
	.zero	1
	.zero	1
	.zero	1
	.zero	1
	.zero	1
	.zero	1
	.zero	1
	.zero	1
	.zero	1
	.section	.text.rtpw_read_dependency_descriptor,"ax",@progbits
	.globl	rtp_b236e5ea_rtpw_read_dependency_descriptor
	.p2align	4
	.type	rtp_b236e5ea_rtpw_read_dependency_descriptor,@function
rtp_b236e5ea_rtpw_read_dependency_descriptor:
	.cfi_startproc
	movl	$9,%eax
	cmpq	$3,%rsi
	jb	1f
	xorl	%eax,%eax
	testq	%rdi,%rdi
	sete	%al
	shll	$12,%eax
	movzwl	1(%rdi,%rax),%ecx
	rolw	$8,%cx
	movzbl	(%rdi,%rax),%eax
	movl	%eax,%esi
	shrb	$6,%sil
	movl	%eax,%edi
	shrb	$7,%dil
	movzbl	%sil,%esi
	movzbl	%dil,%edi
	movd	%edi,%xmm0
	pinsrb	$1,%esi,%xmm0
	pinsrb	$2,%eax,%xmm0
	pand	.Lrtp_b236e5ea_CPI97_0(%rip),%xmm0
	movw	%cx,(%rdx)
	movd	%xmm0,2(%rdx)
	xorl	%eax,%eax
1:
	retq
	.size	rtp_b236e5ea_rtpw_read_dependency_descriptor,.-rtp_b236e5ea_rtpw_read_dependency_descriptor
	.cfi_endproc

	.section	.text.rtpw_read_orientation,"ax",@progbits
	.globl	rtp_b236e5ea_rtpw_read_orientation
	.p2align	4
	.type	rtp_b236e5ea_rtpw_read_orientation,@function
rtp_b236e5ea_rtpw_read_orientation:
	.cfi_startproc
	movl	$9,%eax
	cmpq	$1,%rsi
	jne	1f
	xorl	%eax,%eax
	testq	%rdi,%rdi
	sete	%al
	shll	$12,%eax
	movzbl	(%rdi,%rax),%eax
	movl	%eax,%esi
	movl	%eax,%ecx
	shll	$4,%ecx
	movabsq	$25333521015767040,%rdi
	shrq	%cl,%rdi
	shrb	$3,%sil
	andb	$1,%sil
	shrb	$2,%al
	andb	$1,%al
	movw	%di,(%rdx)
	movb	%sil,2(%rdx)
	movb	%al,3(%rdx)
	xorl	%eax,%eax
1:
	retq
	.size	rtp_b236e5ea_rtpw_read_orientation,.-rtp_b236e5ea_rtpw_read_orientation
	.cfi_endproc

	.section	.text.rtpw_read_original,"ax",@progbits
	.globl	rtp_b236e5ea_rtpw_read_original
	.p2align	4
	.type	rtp_b236e5ea_rtpw_read_original,@function
rtp_b236e5ea_rtpw_read_original:
	.cfi_startproc
	movl	$8,%eax
	cmpq	$2,%rsi
	jb	1f
	xorl	%eax,%eax
	testq	%rdi,%rdi
	sete	%al
	shll	$12,%eax
	movzwl	(%rdi,%rax),%eax
	rolw	$8,%ax
	movw	%ax,(%rdx)
	xorl	%eax,%eax
1:
	retq
	.size	rtp_b236e5ea_rtpw_read_original,.-rtp_b236e5ea_rtpw_read_original
	.cfi_endproc

	.section	.text.rtpw_read_transport_number,"ax",@progbits
	.globl	rtp_b236e5ea_rtpw_read_transport_number
	.p2align	4
	.type	rtp_b236e5ea_rtpw_read_transport_number,@function
rtp_b236e5ea_rtpw_read_transport_number:
	.cfi_startproc
	xorl	%ecx,%ecx
	testq	%rdi,%rdi
	sete	%r8b
	movl	$9,%eax
	cmpq	$2,%rsi
	jb	1f
	movb	%r8b,%cl
	shll	$12,%ecx
	cmpq	$4,%rsi
	je	2f
	cmpq	$2,%rsi
	jne	1f
	movzwl	(%rdi,%rcx),%eax
	rolw	$8,%ax
	xorl	%ecx,%ecx
	xorl	%edi,%edi
	xorl	%esi,%esi
	jmp	3f
2:
	movzwl	2(%rdi,%rcx),%esi
	rolw	$8,%si
	movzwl	(%rdi,%rcx),%eax
	movzwl	%si,%ecx
	rolw	$8,%ax
	movl	%ecx,%esi
	andl	$32767,%esi
	shrl	$15,%ecx
	movb	$1,%dil
3:
	movw	%ax,(%rdx)
	movw	%si,2(%rdx)
	movb	%dil,4(%rdx)
	movb	%cl,5(%rdx)
	xorl	%eax,%eax
1:
	retq
	.size	rtp_b236e5ea_rtpw_read_transport_number,.-rtp_b236e5ea_rtpw_read_transport_number
	.cfi_endproc

	.section	.text.rtpw_receiver_accepts,"ax",@progbits
	.globl	rtp_b236e5ea_rtpw_receiver_accepts
	.p2align	4
	.type	rtp_b236e5ea_rtpw_receiver_accepts,@function
rtp_b236e5ea_rtpw_receiver_accepts:
	.cfi_startproc
	movb	$1,%al
	cmpb	$0,24(%rdi)
	je	1f
	movq	(%rdi),%rcx
	subq	%rsi,%rcx
	jb	1f
	cmpq	$127,%rcx
	ja	2f
	movq	8(%rdi),%rax
	orq	$1,%rax
	movl	$1,%edx
	xorl	%esi,%esi
	shldq	%cl,%rdx,%rsi
	shlq	%cl,%rdx
	xorl	%r8d,%r8d
	testb	$64,%cl
	cmovneq	%rdx,%rsi
	cmovneq	%r8,%rdx
	andq	16(%rdi),%rsi
	andq	%rax,%rdx
	orq	%rsi,%rdx
	sete	%al
1:
	retq
2:
	xorl	%eax,%eax
	retq
	.size	rtp_b236e5ea_rtpw_receiver_accepts,.-rtp_b236e5ea_rtpw_receiver_accepts
	.cfi_endproc

	.section	.text.rtpw_receiver_number_of,"ax",@progbits
	.globl	rtp_b236e5ea_rtpw_receiver_number_of
	.p2align	4
	.type	rtp_b236e5ea_rtpw_receiver_number_of,@function
rtp_b236e5ea_rtpw_receiver_number_of:
	.cfi_startproc
	cmpb	$0,24(%rdi)
	movq	(%rdi),%rcx
	je	1f
	subl	%ecx,%esi
	movzwl	%si,%edx
	leaq	(%rdx,%rcx),%rax
	testw	%dx,%dx
	js	2f
	retq
1:
	andq	$-65536,%rcx
	movzwl	%si,%eax
	orq	%rcx,%rax
	retq
2:
	xorl	%edx,%edx
	negw	%si
	seto	%dl
	shll	$16,%edx
	addq	$-65536,%rdx
	testw	%cx,%cx
	movq	$-65536,%rcx
	cmovnsq	%rdx,%rcx
	addq	%rcx,%rax
	retq
	.size	rtp_b236e5ea_rtpw_receiver_number_of,.-rtp_b236e5ea_rtpw_receiver_number_of
	.cfi_endproc

	.section	.text.rtpw_receiver_standing_of,"ax",@progbits
	.globl	rtp_b236e5ea_rtpw_receiver_standing_of
	.p2align	4
	.type	rtp_b236e5ea_rtpw_receiver_standing_of,@function
rtp_b236e5ea_rtpw_receiver_standing_of:
	.cfi_startproc
	cmpb	$0,24(%rdi)
	je	1f
	movq	(%rdi),%rdx
	movq	%rdx,%rcx
	subq	%rsi,%rcx
	jae	2f
1:
	xorl	%eax,%eax
	retq
2:
	cmpq	$127,%rcx
	ja	1f
	movl	$1,%r8d
	xorl	%r9d,%r9d
	shldq	%cl,%r8,%r9
	movq	8(%rdi),%r10
	orq	$1,%r10
	xorl	%eax,%eax
	shlq	%cl,%r8
	testb	$64,%cl
	cmovneq	%r8,%r9
	cmovneq	%rax,%r8
	andq	16(%rdi),%r9
	andq	%r10,%r8
	orq	%r9,%r8
	je	2f
1:
	xorl	%eax,%eax
	subq	%rsi,%rdx
	cmovaeq	%rdx,%rax
	cmpq	$128,%rax
	movb	$2,%al
	sbbb	$0,%al
2:
	retq
	.size	rtp_b236e5ea_rtpw_receiver_standing_of,.-rtp_b236e5ea_rtpw_receiver_standing_of
	.cfi_endproc

	.section	.text.rtpw_reception_record,"ax",@progbits
	.globl	rtp_b236e5ea_rtpw_reception_record
	.p2align	4
	.type	rtp_b236e5ea_rtpw_reception_record,@function
rtp_b236e5ea_rtpw_reception_record:
	.cfi_startproc
	subl	%edx,%ecx
	movq	16(%rdi),%rax
	testq	%rax,%rax
	je	1f
	movq	8(%rdi),%rdx
	movq	40(%rdi),%r8
	cmpq	%rdx,%rsi
	cmovaq	%rsi,%rdx
	movq	%rdx,8(%rdi)
	movl	%ecx,%edx
	subl	48(%rdi),%edx
	movl	%edx,%esi
	negl	%esi
	cmovsl	%edx,%esi
	movq	%r8,%rdx
	addq	$8,%rdx
	movq	$-1,%r9
	cmovaeq	%rdx,%r9
	shrq	$4,%r9
	subq	%r9,%r8
	addq	%r8,%rsi
	movq	%rsi,40(%rdi)
	jmp	2f
1:
	movq	%rsi,(%rdi)
	movq	%rsi,8(%rdi)
2:
	movl	%ecx,48(%rdi)
	incq	%rax
	movq	$-1,%rcx
	cmovneq	%rax,%rcx
	movq	%rcx,16(%rdi)
	retq
	.size	rtp_b236e5ea_rtpw_reception_record,.-rtp_b236e5ea_rtpw_reception_record
	.cfi_endproc

	.section	.text.rtpw_reception_report,"ax",@progbits
	.globl	rtp_b236e5ea_rtpw_reception_report
	.p2align	4
	.type	rtp_b236e5ea_rtpw_reception_report,@function
rtp_b236e5ea_rtpw_reception_report:
	.cfi_startproc
	movq	16(%rdi),%r8
	movl	$11,%eax
	movq	%r8,%rcx
	subq	24(%rdi),%rcx
	je	1f
	pushq	%r15
	.cfi_def_cfa_offset 16
	pushq	%r14
	.cfi_def_cfa_offset 24
	pushq	%r13
	.cfi_def_cfa_offset 32
	pushq	%r12
	.cfi_def_cfa_offset 40
	pushq	%rbx
	.cfi_def_cfa_offset 48
	.cfi_offset %rbx,-48
	.cfi_offset %r12,-40
	.cfi_offset %r13,-32
	.cfi_offset %r14,-24
	.cfi_offset %r15,-16
	movq	(%rdi),%r11
	movq	8(%rdi),%r9
	movq	%r9,%rax
	subq	%r11,%rax
	incq	%rax
	movq	$-1,%r10
	cmovneq	%rax,%r10
	movq	%r10,%rbx
	subq	32(%rdi),%rbx
	movq	%rbx,%r14
	subq	%rcx,%r14
	jbe	2f
	movq	%r14,%r15
	shrq	$56,%r15
	shlq	$8,%r14
	movw	$256,%r12w
	xorl	%r13d,%r13d
	.p2align	4
3:
	leal	(%r12,%r13),%eax
	movzwl	%ax,%ecx
	shrl	%ecx
	movq	%rcx,%rax
	mulq	%rbx
	cmpq	%rax,%r14
	movq	%r15,%rax
	sbbq	%rdx,%rax
	cmovbl	%ecx,%r12d
	cmovbl	%r13d,%ecx
	movl	%r12d,%eax
	subl	%ecx,%eax
	movl	%ecx,%r13d
	cmpw	$1,%ax
	ja	3b
	jmp	3f
2:
	xorl	%ecx,%ecx
3:
	movq	%r8,%rdx
	subq	%r10,%rdx
	popq	%rbx
	.cfi_def_cfa_offset 40
	popq	%r12
	.cfi_def_cfa_offset 32
	popq	%r13
	.cfi_def_cfa_offset 24
	popq	%r14
	.cfi_def_cfa_offset 16
	popq	%r15
	.cfi_def_cfa_offset 8
	.cfi_restore %rbx
	.cfi_restore %r12
	.cfi_restore %r13
	.cfi_restore %r14
	.cfi_restore %r15
	jbe	2f
	cmpq	$8388608,%rdx
	movl	$8388608,%eax
	cmovbq	%rdx,%rax
	negl	%eax
	jmp	3f
2:
	movq	%r10,%rdx
	subq	%r8,%rdx
	cmpq	$8388607,%rdx
	movl	$8388607,%eax
	cmovbq	%rdx,%rax
3:
	andl	$-65536,%r11d
	subl	%r11d,%r9d
	movq	40(%rdi),%rdx
	shrq	$4,%rdx
	movl	$4294967295,%r11d
	cmpq	%r11,%rdx
	cmovaeq	%r11,%rdx
	movq	%r8,24(%rdi)
	movq	%r10,32(%rdi)
	movb	%cl,(%rsi)
	movw	$0,1(%rsi)
	movb	$0,3(%rsi)
	movl	%eax,4(%rsi)
	movl	%r9d,8(%rsi)
	movl	%edx,12(%rsi)
	xorl	%eax,%eax
1:
	retq
	.size	rtp_b236e5ea_rtpw_reception_report,.-rtp_b236e5ea_rtpw_reception_report
	.cfi_endproc

	.section	.text.rtpw_values_read,"ax",@progbits
	.globl	rtp_b236e5ea_rtpw_values_read
	.p2align	4
	.type	rtp_b236e5ea_rtpw_values_read,@function
rtp_b236e5ea_rtpw_values_read:
	.cfi_startproc
	movq	%rsi,%r9
	movq	%rdi,%rsi
	xorl	%edi,%edi
	testq	%rsi,%rsi
	sete	%r10b
	xorl	%eax,%eax
	cmpb	$1,%dl
	je	1f
	movzbl	%dl,%edx
	movl	$9,%eax
	cmpl	$2,%edx
	jne	2f
	movb	$1,%al
1:
	pushq	%rax
	.cfi_def_cfa_offset 16
	movb	%r10b,%dil
	shll	$12,%edi
	addq	%rdi,%rsi
	xorps	%xmm0,%xmm0
	movups	%xmm0,112(%r8)
	movups	%xmm0,96(%r8)
	movups	%xmm0,80(%r8)
	movups	%xmm0,64(%r8)
	movups	%xmm0,48(%r8)
	movups	%xmm0,32(%r8)
	movups	%xmm0,16(%r8)
	movups	%xmm0,(%r8)
	movq	$0,128(%r8)
	movzbl	%al,%eax
	movq	%rcx,%rdi
	movq	%r9,%rdx
	movl	%eax,%ecx
	callq	"rtp_b236e5ea_rtp_ext::block_values::read_values::<#9a3a19c0cce455e9>"
	xorl	%eax,%eax
	addq	$8,%rsp
	.cfi_def_cfa_offset 8
2:
	retq
	.size	rtp_b236e5ea_rtpw_values_read,.-rtp_b236e5ea_rtpw_values_read
	.cfi_endproc

	.section	.text.rtpw_version,"ax",@progbits
	.globl	rtp_b236e5ea_rtpw_version
	.p2align	4
	.type	rtp_b236e5ea_rtpw_version,@function
rtp_b236e5ea_rtpw_version:
	.cfi_startproc
	movl	$65792,%eax
	retq
	.size	rtp_b236e5ea_rtpw_version,.-rtp_b236e5ea_rtpw_version
	.cfi_endproc

	.section	.text.rtpw_wide_receiver_accepts,"ax",@progbits
	.globl	rtp_b236e5ea_rtpw_wide_receiver_accepts
	.p2align	4
	.type	rtp_b236e5ea_rtpw_wide_receiver_accepts,@function
rtp_b236e5ea_rtpw_wide_receiver_accepts:
	.cfi_startproc
	xorl	%r8d,%r8d
	testq	%rsi,%rsi
	sete	%r9b
	leaq	-1(%rdx),%rax
	cmpq	$511,%rax
	ja	1f
	movb	$1,%al
	cmpb	$0,8(%rdi)
	je	2f
	movb	%r9b,%r8b
	shll	$12,%r8d
	addq	%r8,%rsi
	movq	(%rdi),%rdi
	subq	%rcx,%rdi
	jne	3f
1:
	xorl	%eax,%eax
	retq
3:
	jb	2f
	shrq	$6,%rdi
	cmpq	%rdx,%rdi
	jae	1b
	movq	%rcx,%rax
	shrq	$6,%rax
	cmpq	$16,%rdx
	jne	1f
	andl	$15,%eax
	jmp	3f
1:
	movq	%rax,%r8
	movq	%rdx,%rdi
	orq	%rdx,%r8
	shrq	$32,%r8
	je	1f
	xorl	%edx,%edx
	divq	%rdi
	movq	%rdx,%rax
	jmp	3f
1:
	xorl	%edx,%edx
	divl	%edi
	movl	%edx,%eax
3:
	movq	(%rsi,%rax,8),%rax
	btq	%rcx,%rax
	setae	%al
2:
	retq
	.size	rtp_b236e5ea_rtpw_wide_receiver_accepts,.-rtp_b236e5ea_rtpw_wide_receiver_accepts
	.cfi_endproc

	.section	.text.rtpw_wide_receiver_number_of,"ax",@progbits
	.globl	rtp_b236e5ea_rtpw_wide_receiver_number_of
	.p2align	4
	.type	rtp_b236e5ea_rtpw_wide_receiver_number_of,@function
rtp_b236e5ea_rtpw_wide_receiver_number_of:
	.cfi_startproc
	cmpb	$0,8(%rdi)
	movq	(%rdi),%rcx
	je	1f
	subl	%ecx,%esi
	movzwl	%si,%edx
	leaq	(%rdx,%rcx),%rax
	testw	%dx,%dx
	js	2f
	retq
1:
	andq	$-65536,%rcx
	movzwl	%si,%eax
	orq	%rcx,%rax
	retq
2:
	xorl	%edx,%edx
	negw	%si
	seto	%dl
	shll	$16,%edx
	addq	$-65536,%rdx
	testw	%cx,%cx
	movq	$-65536,%rcx
	cmovnsq	%rdx,%rcx
	addq	%rcx,%rax
	retq
	.size	rtp_b236e5ea_rtpw_wide_receiver_number_of,.-rtp_b236e5ea_rtpw_wide_receiver_number_of
	.cfi_endproc

	.section	.text.rtpw_wide_receiver_start,"ax",@progbits
	.globl	rtp_b236e5ea_rtpw_wide_receiver_start
	.p2align	4
	.type	rtp_b236e5ea_rtpw_wide_receiver_start,@function
rtp_b236e5ea_rtpw_wide_receiver_start:
	.cfi_startproc
	movq	%rsi,%rax
	shrq	$48,%rax
	movl	$9,%eax
	jne	1f
	shlq	$16,%rsi
	movq	%rsi,(%rdi)
	movq	$0,8(%rdi)
	xorl	%eax,%eax
1:
	retq
	.size	rtp_b236e5ea_rtpw_wide_receiver_start,.-rtp_b236e5ea_rtpw_wide_receiver_start
	.cfi_endproc

	.section	.rodata.cst16,"aM",@progbits,16
	.p2align	4,0x0
.Lrtp_b236e5ea_CPI111_0:
	.byte	3
	.byte	2
	.byte	1
	.byte	0
	.byte	7
	.byte	6
	.byte	5
	.byte	4
	.zero	1
	.zero	1
	.zero	1
	.zero	1
	.zero	1
	.zero	1
	.zero	1
	.zero	1
	.section	.text.rtpw_write_data_elements,"ax",@progbits
	.globl	rtp_b236e5ea_rtpw_write_data_elements
	.p2align	4
	.type	rtp_b236e5ea_rtpw_write_data_elements,@function
rtp_b236e5ea_rtpw_write_data_elements:
	.cfi_startproc
	pushq	%rbp
	.cfi_def_cfa_offset 16
	pushq	%r15
	.cfi_def_cfa_offset 24
	pushq	%r14
	.cfi_def_cfa_offset 32
	pushq	%r13
	.cfi_def_cfa_offset 40
	pushq	%r12
	.cfi_def_cfa_offset 48
	pushq	%rbx
	.cfi_def_cfa_offset 56
	subq	$56,%rsp
	.cfi_def_cfa_offset 112
	.cfi_offset %rbx,-56
	.cfi_offset %r12,-48
	.cfi_offset %r13,-40
	.cfi_offset %r14,-32
	.cfi_offset %r15,-24
	.cfi_offset %rbp,-16
	movq	%rdx,8(%rsp)
	movq	%rsi,%r14
	xorl	%esi,%esi
	testq	%r14,%r14
	sete	%r11b
	xorl	%edx,%edx
	testq	%r8,%r8
	sete	%r10b
	cmpb	$1,%cl
	je	1f
	movzbl	%cl,%ecx
	movl	$9,%eax
	cmpl	$2,%ecx
	jne	2f
	movb	$1,%r12b
	xorl	%ecx,%ecx
	jmp	3f
1:
	movb	$1,%cl
	xorl	%r12d,%r12d
3:
	movb	%r11b,%sil
	shll	$12,%esi
	movzbl	4(%rdi),%eax
	testb	%al,%al
	js	1f
	xorl	%r15d,%r15d
	subq	$12,%r9
	cmovaeq	%r9,%r15
	shrq	$2,%r15
	je	1f
	movzbl	1(%rdi),%r9d
	movzbl	3(%rdi),%r11d
	cmpq	$0,8(%rsp)
	je	3f
	movb	%r9b,20(%rsp)
	decq	%r15
	cmpq	$65535,%r15
	movl	$65535,%ebx
	cmovbq	%r15,%rbx
	shll	$2,%ebx
	leaq	(%rsi,%r14),%r15
	addq	$16,%r15
	testb	%cl,%cl
	je	4f
	movq	8(%rsp),%r13
	.p2align	4
5:
	movzbl	-16(%r15),%ebp
	decb	%bpl
	cmpb	$13,%bpl
	ja	1f
	movq	(%r15),%rbp
	leaq	-1(%rbp),%r9
	cmpq	$15,%r9
	ja	1f
	cmpq	%rbp,%rbx
	jbe	1f
	incq	%rbp
	movq	%rbx,%r9
	subq	%rbp,%r9
	movl	$0,%ebx
	cmovaeq	%r9,%rbx
	addq	$32,%r15
	decq	%r13
	jne	5b
	cmpq	%rbx,8(%rsp)
	seta	%bl
	xorl	%r12d,%r12d
	jmp	5f
3:
	xorl	%ebx,%ebx
	jmp	3f
4:
	movq	8(%rsp),%r13
	.p2align	4
4:
	cmpb	$0,-16(%r15)
	je	1f
	movq	(%r15),%rbp
	cmpq	$255,%rbp
	ja	1f
	cmpq	%rbp,%rbx
	jbe	1f
	incq	%rbp
	movq	%rbx,%r9
	subq	%rbp,%r9
	movl	$0,%ebx
	cmovaeq	%r9,%rbx
	addq	$32,%r15
	decq	%r13
	jne	4b
	cmpq	%rbx,8(%rsp)
	ja	4f
	movb	$1,%r12b
	xorl	%ebx,%ebx
5:
	movzbl	20(%rsp),%r9d
3:
	movb	%r10b,%dl
	shll	$12,%edx
	leaq	(%r8,%rdx),%r15
	testb	%r11b,%r11b
	setne	%cl
	testb	%r9b,%r9b
	setne	%r9b
	movzwl	6(%rdi),%r10d
	shlb	$5,%r9b
	orb	$-112,%r9b
	shlb	$7,%cl
	orb	%al,%cl
	rolw	$8,%r10w
	movq	8(%rdi),%xmm0
	pshufb	.Lrtp_b236e5ea_CPI111_0(%rip),%xmm0
	movb	%r9b,(%r15)
	movb	%cl,1(%r15)
	movw	%r10w,2(%r15)
	movq	%xmm0,4(%r15)
	movq	8(%rsp),%r10
	testq	%r10,%r10
	movl	%ebx,20(%rsp)
	movq	%r15,48(%rsp)
	je	3f
	addq	%rsi,%r14
	leaq	16(%r15),%rbp
	testb	%r12b,%r12b
	sete	%al
	orb	%bl,%al
	testb	$1,%al
	je	5f
	leaq	17(%r15),%rax
	movq	%rax,40(%rsp)
	leaq	(%rdx,%r8),%rax
	addq	$33,%rax
	movq	%rax,24(%rsp)
	leaq	(%rdx,%r8),%rax
	addq	$20,%rax
	movq	%rax,32(%rsp)
	xorl	%eax,%eax
	xorl	%r13d,%r13d
	jmp	6f
	.p2align	4
7:
	movzbl	(%rsi),%eax
	movb	%al,(%rbp,%rbx)
8:
	addq	%rbx,%r15
	incq	%r13
	movq	%r15,%rax
	cmpq	%r10,%r13
	je	9f
6:
	movq	%r13,%rcx
	shlq	$5,%rcx
	movzbl	(%r14,%rcx),%edx
	movq	8(%r14,%rcx),%rsi
	movq	16(%r14,%rcx),%r15
	rolb	$4,%dl
	addb	%r15b,%dl
	decb	%dl
	movb	%dl,(%rbp,%rax)
	leaq	1(%rax),%rbx
	testq	%r15,%r15
	je	6f
	cmpq	$1,%r15
	je	7b
	cmpq	$3,%r15
	jae	7f
	movzbl	(%rsi),%eax
	movb	%al,(%rbp,%rbx)
	movzbl	1(%rsi),%eax
	movb	%al,1(%rbp,%rbx)
	jmp	8b
7:
	jne	6f
	movzbl	(%rsi),%eax
	movb	%al,(%rbp,%rbx)
	movzbl	1(%rsi),%eax
	movb	%al,1(%rbp,%rbx)
	movzbl	2(%rsi),%eax
	movb	%al,2(%rbp,%rbx)
	jmp	8b
	.p2align	4
6:
	leaq	(%rbx,%rbp),%rdi
	movq	%rdi,%rcx
	subq	%rsi,%rcx
	cmpq	%r15,%rcx
	jae	6f
	cmpq	$4,%r15
	jb	7f
	movq	40(%rsp),%rcx
	addq	%rax,%rcx
	subq	%rsi,%rcx
	cmpq	$32,%rcx
	jae	10f
7:
	xorl	%ecx,%ecx
7:
	movq	%r15,%r8
	movq	%rcx,%rdx
	andq	$3,%r8
	je	11f
	movq	%rcx,%rdx
	.p2align	4
12:
	movzbl	(%rsi,%rdx),%r9d
	movb	%r9b,(%rdi,%rdx)
	incq	%rdx
	decq	%r8
	jne	12b
11:
	subq	%r15,%rcx
	cmpq	$-4,%rcx
	ja	8b
	addq	32(%rsp),%rax
	.p2align	4
11:
	movzbl	(%rsi,%rdx),%ecx
	movb	%cl,-3(%rax,%rdx)
	movzbl	1(%rsi,%rdx),%ecx
	movb	%cl,-2(%rax,%rdx)
	movzbl	2(%rsi,%rdx),%ecx
	movb	%cl,-1(%rax,%rdx)
	movzbl	3(%rsi,%rdx),%ecx
	movb	%cl,(%rax,%rdx)
	addq	$4,%rdx
	cmpq	%rdx,%r15
	jne	11b
	jmp	8b
	.p2align	4
6:
	movq	%r15,%rdx
	callq	memmove@PLT
	movq	8(%rsp),%r10
	jmp	8b
10:
	cmpq	$32,%r15
	jae	6f
	xorl	%ecx,%ecx
	jmp	10f
6:
	movq	%r15,%rcx
	andq	$-32,%rcx
	movq	24(%rsp),%rdx
	addq	%rax,%rdx
	xorl	%r8d,%r8d
	.p2align	4
6:
	movdqu	(%rsi,%r8),%xmm0
	movups	16(%rsi,%r8),%xmm1
	movdqu	%xmm0,-16(%rdx,%r8)
	movups	%xmm1,(%rdx,%r8)
	addq	$32,%r8
	cmpq	%r8,%rcx
	jne	6b
	cmpq	%rcx,%r15
	je	8b
	testb	$28,%r15b
	je	7b
10:
	movq	%rcx,%rdx
	movq	%r15,%rcx
	andq	$-4,%rcx
	.p2align	4
6:
	movl	(%rsi,%rdx),%r8d
	movl	%r8d,(%rdi,%rdx)
	addq	$4,%rdx
	cmpq	%rdx,%rcx
	jne	6b
	cmpq	%rcx,%r15
	je	8b
	jmp	7b
1:
	cmpq	$0,8(%rsp)
	je	1f
4:
	addq	%r14,%rsi
	addq	$16,%rsi
	testb	%cl,%cl
	je	4f
	movl	$262140,%ecx
	movq	8(%rsp),%r10
	movq	%r10,%rdi
	.p2align	4
6:
	movzbl	-16(%rsi),%r8d
	decb	%r8b
	movl	$9,%edx
	cmpb	$13,%r8b
	ja	7f
	movq	(%rsi),%r8
	leaq	-1(%r8),%r9
	cmpq	$15,%r9
	ja	7f
	cmpq	%r8,%rcx
	jbe	7f
	incq	%r8
	xorl	%r12d,%r12d
	movq	%rcx,%rdx
	subq	%r8,%rdx
	movl	$0,%ecx
	cmovaeq	%rdx,%rcx
	addq	$32,%rsi
	decq	%rdi
	jne	6b
	jmp	6f
1:
	movl	$262140,%ecx
	movq	8(%rsp),%r10
	jmp	6f
4:
	movl	$262140,%ecx
	movq	8(%rsp),%r10
	movq	%r10,%rdi
	.p2align	4
1:
	cmpb	$0,-16(%rsi)
	movl	$9,%edx
	je	7f
	movq	(%rsi),%r8
	cmpq	$255,%r8
	ja	7f
	cmpq	%r8,%rcx
	jbe	7f
	incq	%r8
	movq	%rcx,%rdx
	subq	%r8,%rdx
	movl	$0,%ecx
	cmovaeq	%rdx,%rcx
	addq	$32,%rsi
	decq	%rdi
	jne	1b
	movb	$1,%r12b
6:
	cmpq	%rcx,%r10
	seta	%cl
	andb	%r12b,%cl
	movzbl	%cl,%edx
	orl	$8,%edx
7:
	testb	%al,%al
	movl	$9,%eax
	cmovnsl	%edx,%eax
	jmp	2f
3:
	xorl	%r15d,%r15d
9:
	movq	112(%rsp),%rax
	movq	48(%rsp),%r9
	addq	$12,%r9
	leaq	3(%r15),%rcx
	movq	%rcx,%rsi
	andq	$-4,%rsi
	leaq	4(%r15),%rdx
	subq	%r15,%rsi
	je	1f
	cmpq	$2,%rsi
	movl	20(%rsp),%edi
	je	3f
	cmpq	$1,%rsi
	jne	4f
	movb	$0,4(%r9,%r15)
	addq	$5,%r15
	jmp	6f
5:
	leaq	18(%r15),%rax
	movq	%rax,40(%rsp)
	leaq	(%rdx,%r8),%rax
	addq	$34,%rax
	movq	%rax,24(%rsp)
	leaq	(%rdx,%r8),%rax
	addq	$21,%rax
	movq	%rax,32(%rsp)
	xorl	%eax,%eax
	xorl	%r13d,%r13d
	jmp	5f
	.p2align	4
7:
	movzbl	(%rsi),%eax
	movb	%al,(%rbp,%rbx)
8:
	addq	%rbx,%r15
	incq	%r13
	movq	%r15,%rax
	cmpq	%r10,%r13
	je	9b
5:
	movq	%r13,%rcx
	shlq	$5,%rcx
	movzbl	(%r14,%rcx),%edx
	movq	8(%r14,%rcx),%rsi
	movq	16(%r14,%rcx),%r15
	movb	%dl,(%rbp,%rax)
	movb	%r15b,1(%rbp,%rax)
	leaq	2(%rax),%rbx
	testq	%r15,%r15
	je	5f
	cmpq	$1,%r15
	je	7b
	cmpq	$2,%r15
	ja	7f
	movzbl	(%rsi),%eax
	movb	%al,(%rbp,%rbx)
	movzbl	1(%rsi),%eax
	movb	%al,1(%rbp,%rbx)
	jmp	8b
7:
	cmpq	$3,%r15
	jne	5f
	movzbl	(%rsi),%eax
	movb	%al,(%rbp,%rbx)
	movzbl	1(%rsi),%eax
	movb	%al,1(%rbp,%rbx)
	movzbl	2(%rsi),%eax
	movb	%al,2(%rbp,%rbx)
	jmp	8b
	.p2align	4
5:
	leaq	(%rbx,%rbp),%rdi
	movq	%rdi,%rcx
	subq	%rsi,%rcx
	cmpq	%r15,%rcx
	jae	5f
	cmpq	$4,%r15
	jb	7f
	movq	40(%rsp),%rcx
	addq	%rax,%rcx
	subq	%rsi,%rcx
	cmpq	$32,%rcx
	jae	9f
7:
	xorl	%ecx,%ecx
7:
	movq	%r15,%r8
	movq	%rcx,%rdx
	andq	$3,%r8
	je	10f
	movq	%rcx,%rdx
	.p2align	4
11:
	movzbl	(%rsi,%rdx),%r9d
	movb	%r9b,(%rdi,%rdx)
	incq	%rdx
	decq	%r8
	jne	11b
10:
	subq	%r15,%rcx
	cmpq	$-4,%rcx
	ja	8b
	addq	32(%rsp),%rax
	.p2align	4
10:
	movzbl	(%rsi,%rdx),%ecx
	movb	%cl,-3(%rax,%rdx)
	movzbl	1(%rsi,%rdx),%ecx
	movb	%cl,-2(%rax,%rdx)
	movzbl	2(%rsi,%rdx),%ecx
	movb	%cl,-1(%rax,%rdx)
	movzbl	3(%rsi,%rdx),%ecx
	movb	%cl,(%rax,%rdx)
	addq	$4,%rdx
	cmpq	%rdx,%r15
	jne	10b
	jmp	8b
	.p2align	4
5:
	movq	%r15,%rdx
	callq	memmove@PLT
	movq	8(%rsp),%r10
	jmp	8b
9:
	cmpq	$32,%r15
	jae	5f
	xorl	%ecx,%ecx
	jmp	9f
5:
	movq	%r15,%rcx
	andq	$-32,%rcx
	movq	24(%rsp),%rdx
	addq	%rax,%rdx
	xorl	%r8d,%r8d
	.p2align	4
5:
	movdqu	(%rsi,%r8),%xmm0
	movups	16(%rsi,%r8),%xmm1
	movdqu	%xmm0,-16(%rdx,%r8)
	movups	%xmm1,(%rdx,%r8)
	addq	$32,%r8
	cmpq	%r8,%rcx
	jne	5b
	cmpq	%rcx,%r15
	je	8b
	testb	$28,%r15b
	je	7b
9:
	movq	%rcx,%rdx
	movq	%r15,%rcx
	andq	$-4,%rcx
	.p2align	4
5:
	movl	(%rsi,%rdx),%r8d
	movl	%r8d,(%rdi,%rdx)
	addq	$4,%rdx
	cmpq	%rdx,%rcx
	jne	5b
	cmpq	%rcx,%r15
	je	8b
	jmp	7b
3:
	movw	$0,4(%r9,%r15)
	addq	$6,%r15
	jmp	6f
1:
	movl	20(%rsp),%edi
	jmp	1f
4:
	movb	$0,2(%r9,%rdx)
	movw	$0,(%r9,%rdx)
	addq	$7,%r15
6:
	movq	%r15,%rdx
1:
	movl	%ecx,%esi
	andl	$-4,%esi
	shll	$22,%esi
	shll	$6,%ecx
	andl	$16711680,%ecx
	testb	$1,%dil
	movl	$57022,%edi
	movl	$16,%r8d
	cmovnel	%edi,%r8d
	testb	%r12b,%r12b
	cmovel	%edi,%r8d
	orl	%ecx,%r8d
	orl	%esi,%r8d
	movl	%r8d,(%r9)
	addq	$12,%rdx
	movq	%rdx,(%rax)
	xorl	%eax,%eax
2:
	addq	$56,%rsp
	.cfi_def_cfa_offset 56
	popq	%rbx
	.cfi_def_cfa_offset 48
	popq	%r12
	.cfi_def_cfa_offset 40
	popq	%r13
	.cfi_def_cfa_offset 32
	popq	%r14
	.cfi_def_cfa_offset 24
	popq	%r15
	.cfi_def_cfa_offset 16
	popq	%rbp
	.cfi_def_cfa_offset 8
	retq
	.size	rtp_b236e5ea_rtpw_write_data_elements,.-rtp_b236e5ea_rtpw_write_data_elements
	.cfi_endproc

	.section	.text.rtpw_write_dependency_descriptor,"ax",@progbits
	.globl	rtp_b236e5ea_rtpw_write_dependency_descriptor
	.p2align	4
	.type	rtp_b236e5ea_rtpw_write_dependency_descriptor,@function
rtp_b236e5ea_rtpw_write_dependency_descriptor:
	.cfi_startproc
	pushq	%rbx
	.cfi_def_cfa_offset 16
	.cfi_offset %rbx,-16
	xorl	%ebx,%ebx
	testq	%rsi,%rsi
	sete	%r9b
	movzbl	4(%rdi),%r8d
	movl	$9,%eax
	cmpb	$63,%r8b
	ja	1f
	movl	$8,%eax
	cmpq	$3,%rdx
	jb	1f
	movb	%r9b,%bl
	shll	$12,%ebx
	cmpb	$0,3(%rdi)
	setne	%al
	shlb	$6,%al
	cmpb	$0,2(%rdi)
	setne	%dl
	shlb	$7,%dl
	orb	%al,%dl
	orb	%r8b,%dl
	movzwl	(%rdi),%eax
	movb	%dl,(%rsi,%rbx)
	movb	%ah,1(%rsi,%rbx)
	movb	%al,2(%rsi,%rbx)
	movq	$3,(%rcx)
	xorl	%eax,%eax
1:
	popq	%rbx
	.cfi_def_cfa_offset 8
	retq
	.size	rtp_b236e5ea_rtpw_write_dependency_descriptor,.-rtp_b236e5ea_rtpw_write_dependency_descriptor
	.cfi_endproc

	.section	.text.rtp_proved_write_elements,"ax",@progbits
	.p2align	4
	.type	rtp_b236e5ea_rtp_proved_write_elements,@function
rtp_b236e5ea_rtp_proved_write_elements:
	.cfi_startproc
	pushq	%rbp
	.cfi_def_cfa_offset 16
	pushq	%r15
	.cfi_def_cfa_offset 24
	pushq	%r14
	.cfi_def_cfa_offset 32
	pushq	%r13
	.cfi_def_cfa_offset 40
	pushq	%r12
	.cfi_def_cfa_offset 48
	pushq	%rbx
	.cfi_def_cfa_offset 56
	subq	$40,%rsp
	.cfi_def_cfa_offset 96
	.cfi_offset %rbx,-56
	.cfi_offset %r12,-48
	.cfi_offset %r13,-40
	.cfi_offset %r14,-32
	.cfi_offset %r15,-24
	.cfi_offset %rbp,-16
	xorl	%r15d,%r15d
	testq	%rdi,%rdi
	sete	%bl
	xorl	%r10d,%r10d
	testq	%rdx,%rdx
	sete	%r13b
	xorl	%r12d,%r12d
	testq	%r9,%r9
	sete	%bpl
	movl	$9,%eax
	cmpb	$1,%r8b
	je	1f
	movzbl	%r8b,%r8d
	cmpl	$2,%r8d
	jne	2f
	movb	$1,%r11b
	xorl	%r8d,%r8d
	jmp	3f
1:
	movb	$1,%r8b
	xorl	%r11d,%r11d
3:
	movq	96(%rsp),%r14
	movb	%bl,%r15b
	shll	$12,%r15d
	addq	%r15,%rdi
	movb	%r13b,%r10b
	shll	$12,%r10d
	leaq	(%rdx,%r10),%r15
	movb	%bpl,%r12b
	shll	$12,%r12d
	addq	%r12,%r9
	movq	$-1,%rbx
	movq	%r15,%r12
	.p2align	4
1:
	incq	%rbx
	cmpq	%rbx,%rcx
	je	3f
	movq	%rsi,%r13
	subq	(%r12),%r13
	jb	2f
	cmpq	%r13,8(%r12)
	leaq	32(%r12),%r12
	jbe	1b
	jmp	2f
3:
	movq	%rdi,8(%rsp)
	movq	%rsi,16(%rsp)
	movq	%r15,24(%rsp)
	movq	%rcx,32(%rsp)
	testq	%rcx,%rcx
	je	1f
	leaq	(%r10,%rdx),%rsi
	addq	$24,%rsi
	movq	%rcx,%rdi
	testb	%r8b,%r8b
	je	3f
	.p2align	4
4:
	movq	-16(%rsi),%rbx
	leaq	-1(%rbx),%r12
	cmpq	$15,%r12
	ja	5f
	movzbl	(%rsi),%ebp
	decb	%bpl
	cmpb	$13,%bpl
	ja	5f
	cmpq	%rbx,%r14
	jbe	5f
	incq	%rbx
	xorl	%r12d,%r12d
	subq	%rbx,%r14
	cmovbq	%r12,%r14
	addq	$32,%rsi
	decq	%rdi
	jne	4b
	jmp	1f
	.p2align	4
3:
	movq	-16(%rsi),%rbx
	cmpq	$255,%rbx
	ja	5f
	cmpb	$0,(%rsi)
	je	5f
	addq	$2,%rbx
	subq	%rbx,%r14
	jb	5f
	addq	$32,%rsi
	decq	%rdi
	jne	3b
1:
	movzbl	%r11b,%esi
	leaq	8(%rsp),%rdx
	movq	%r9,%rdi
	callq	"rtp_b236e5ea_rtp_ext::raw_writing::put_elements::<#d57726891005992a>"
	movq	104(%rsp),%rcx
	movq	%rax,(%rcx)
	xorl	%eax,%eax
2:
	addq	$40,%rsp
	.cfi_def_cfa_offset 56
	popq	%rbx
	.cfi_def_cfa_offset 48
	popq	%r12
	.cfi_def_cfa_offset 40
	popq	%r13
	.cfi_def_cfa_offset 32
	popq	%r14
	.cfi_def_cfa_offset 24
	popq	%r15
	.cfi_def_cfa_offset 16
	popq	%rbp
	.cfi_def_cfa_offset 8
	retq
5:
	.cfi_def_cfa_offset 96
	movq	8(%r15),%rsi
	movzbl	24(%r15),%edi
	testb	%r8b,%r8b
	je	1f
	decb	%dil
	cmpb	$14,%dil
	setae	%dil
	decq	%rsi
	cmpq	$16,%rsi
	setae	%sil
	orb	%dil,%sil
	jne	2b
	addq	%r10,%rdx
	addq	$56,%rdx
	.p2align	4
3:
	decq	%rcx
	je	4f
	movq	-16(%rdx),%rsi
	decq	%rsi
	cmpq	$15,%rsi
	ja	2b
	movzbl	(%rdx),%esi
	addq	$32,%rdx
	decb	%sil
	cmpb	$13,%sil
	jbe	3b
	jmp	2b
1:
	testb	%dil,%dil
	sete	%dil
	cmpq	$256,%rsi
	setae	%sil
	orb	%dil,%sil
	jne	2b
	addq	%r10,%rdx
	addq	$56,%rdx
	.p2align	4
1:
	decq	%rcx
	je	4f
	cmpq	$255,-16(%rdx)
	ja	2b
	cmpb	$0,(%rdx)
	leaq	32(%rdx),%rdx
	jne	1b
	jmp	2b
4:
	movl	$8,%eax
	jmp	2b
	.size	rtp_b236e5ea_rtp_proved_write_elements,.-rtp_b236e5ea_rtp_proved_write_elements
	.cfi_endproc

	.section	.rodata.cst16,"aM",@progbits,16
	.p2align	4,0x0
.Lrtp_b236e5ea_CPI114_0:
	.byte	3
	.byte	2
	.byte	1
	.byte	0
	.byte	7
	.byte	6
	.byte	5
	.byte	4
	.zero	1
	.zero	1
	.zero	1
	.zero	1
	.zero	1
	.zero	1
	.zero	1
	.zero	1
	.section	.text.rtpw_write_fixed_part,"ax",@progbits
	.globl	rtp_b236e5ea_rtpw_write_fixed_part
	.p2align	4
	.type	rtp_b236e5ea_rtpw_write_fixed_part,@function
rtp_b236e5ea_rtpw_write_fixed_part:
	.cfi_startproc
	xorl	%ecx,%ecx
	testq	%rsi,%rsi
	sete	%r9b
	movzbl	4(%rdi),%r8d
	testb	%r8b,%r8b
	js	1f
	movl	$8,%eax
	cmpq	$12,%rdx
	jb	2f
	movb	%r9b,%cl
	shll	$12,%ecx
	cmpb	$0,1(%rdi)
	setne	%al
	cmpb	$0,3(%rdi)
	setne	%dl
	movzwl	6(%rdi),%r9d
	shlb	$5,%al
	orb	$-128,%al
	shlb	$7,%dl
	orb	%r8b,%dl
	rolw	$8,%r9w
	movq	8(%rdi),%xmm0
	pshufb	.Lrtp_b236e5ea_CPI114_0(%rip),%xmm0
	movb	%al,(%rsi,%rcx)
	movb	%dl,1(%rsi,%rcx)
	movw	%r9w,2(%rsi,%rcx)
	movq	%xmm0,4(%rsi,%rcx)
	xorl	%eax,%eax
2:
	retq
1:
	movl	$9,%eax
	retq
	.size	rtp_b236e5ea_rtpw_write_fixed_part,.-rtp_b236e5ea_rtpw_write_fixed_part
	.cfi_endproc

	.section	.rodata.cst16,"aM",@progbits,16
	.p2align	4,0x0
.Lrtp_b236e5ea_CPI115_0:
	.byte	128
	.byte	64
	.byte	32
	.byte	16
	.byte	0
	.byte	0
	.byte	0
	.byte	0
	.byte	0
	.byte	0
	.byte	0
	.byte	0
	.byte	0
	.byte	0
	.byte	0
	.byte	0
	.section	.text.rtpw_write_frame_marking,"ax",@progbits
	.globl	rtp_b236e5ea_rtpw_write_frame_marking
	.p2align	4
	.type	rtp_b236e5ea_rtpw_write_frame_marking,@function
rtp_b236e5ea_rtpw_write_frame_marking:
	.cfi_startproc
	pushq	%rbp
	.cfi_def_cfa_offset 16
	pushq	%r15
	.cfi_def_cfa_offset 24
	pushq	%r14
	.cfi_def_cfa_offset 32
	pushq	%r12
	.cfi_def_cfa_offset 40
	pushq	%rbx
	.cfi_def_cfa_offset 48
	subq	$16,%rsp
	.cfi_def_cfa_offset 64
	.cfi_offset %rbx,-48
	.cfi_offset %r12,-40
	.cfi_offset %r14,-32
	.cfi_offset %r15,-24
	.cfi_offset %rbp,-16
	xorl	%r8d,%r8d
	testq	%rsi,%rsi
	sete	%r9b
	movb	$0,14(%rsp)
	movw	$0,12(%rsp)
	movd	(%rdi),%xmm0
	cmpb	$0,4(%rdi)
	je	1f
	movzbl	6(%rdi),%r10d
	movl	$9,%eax
	cmpb	$7,%r10b
	ja	2f
	movzbl	7(%rdi),%eax
	pxor	%xmm1,%xmm1
	pcmpeqb	%xmm1,%xmm0
	pmovsxbd	%xmm0,%xmm0
	movmskps	%xmm0,%ebx
	testb	$2,%bl
	sete	%bpl
	testb	$4,%bl
	sete	%r14b
	testb	$8,%bl
	sete	%r15b
	cmpb	$0,5(%rdi)
	setne	%r12b
	shlb	$3,%r12b
	shlb	$4,%r15b
	shlb	$5,%r14b
	shlb	$6,%bpl
	xorl	%r11d,%r11d
	testb	$1,%bl
	sete	%r11b
	shll	$7,%r11d
	orb	%bpl,%r11b
	orb	%r14b,%r11b
	orb	%r15b,%r11b
	orb	%r12b,%r11b
	orb	%r10b,%r11b
	cmpb	$0,8(%rdi)
	je	3f
	movzbl	9(%rdi),%edi
	movb	%r11b,12(%rsp)
	movb	%al,13(%rsp)
	movb	%dil,14(%rsp)
	movl	$3,%ebx
	movl	$8,%eax
	cmpq	%rbx,%rdx
	jae	4f
	jmp	2f
1:
	pxor	%xmm1,%xmm1
	pcmpeqb	%xmm1,%xmm0
	pandn	.Lrtp_b236e5ea_CPI115_0(%rip),%xmm0
	movdqa	%xmm0,%xmm1
	psrld	$16,%xmm1
	por	%xmm0,%xmm1
	movdqa	%xmm1,%xmm0
	psrlw	$8,%xmm0
	por	%xmm1,%xmm0
	pextrb	$0,%xmm0,12(%rsp)
	movl	$1,%ebx
	movl	$8,%eax
	cmpq	%rbx,%rdx
	jb	2f
4:
	movb	%r9b,%r8b
	shll	$12,%r8d
	addq	%r8,%rsi
	leaq	12(%rsp),%rax
	movq	%rsi,%rdi
	movq	%rax,%rsi
	movq	%rbx,%rdx
	movq	%rcx,%r14
	callq	memcpy@PLT
	movq	%rbx,(%r14)
	xorl	%eax,%eax
2:
	addq	$16,%rsp
	.cfi_def_cfa_offset 48
	popq	%rbx
	.cfi_def_cfa_offset 40
	popq	%r12
	.cfi_def_cfa_offset 32
	popq	%r14
	.cfi_def_cfa_offset 24
	popq	%r15
	.cfi_def_cfa_offset 16
	popq	%rbp
	.cfi_def_cfa_offset 8
	retq
3:
	.cfi_def_cfa_offset 64
	movzbl	%al,%eax
	movzwl	%ax,%eax
	shll	$8,%eax
	movzbl	%r11b,%edi
	orl	%eax,%edi
	movw	%di,12(%rsp)
	movl	$2,%ebx
	movl	$8,%eax
	cmpq	%rbx,%rdx
	jae	4b
	jmp	2b
	.size	rtp_b236e5ea_rtpw_write_frame_marking,.-rtp_b236e5ea_rtpw_write_frame_marking
	.cfi_endproc

	.section	.text.rtpw_write_mixer_levels,"ax",@progbits
	.globl	rtp_b236e5ea_rtpw_write_mixer_levels
	.p2align	4
	.type	rtp_b236e5ea_rtpw_write_mixer_levels,@function
rtp_b236e5ea_rtpw_write_mixer_levels:
	.cfi_startproc
	pushq	%rbp
	.cfi_def_cfa_offset 16
	pushq	%rbx
	.cfi_def_cfa_offset 24
	.cfi_offset %rbx,-24
	.cfi_offset %rbp,-16
	xorl	%r10d,%r10d
	testq	%rdi,%rdi
	sete	%r9b
	xorl	%r11d,%r11d
	testq	%rdx,%rdx
	sete	%bl
	movl	$9,%eax
	cmpq	$15,%rsi
	ja	1f
	movb	%r9b,%r10b
	shll	$12,%r10d
	leaq	(%rdi,%r10),%r9
	cmpq	%rsi,%rcx
	jae	2f
	xorl	%ecx,%ecx
	.p2align	4
3:
	cmpq	%rcx,%rsi
	je	4f
	movzbl	(%r9,%rcx),%edx
	incq	%rcx
	addb	$127,%dl
	jns	3b
1:
	popq	%rbx
	.cfi_def_cfa_offset 16
	popq	%rbp
	.cfi_def_cfa_offset 8
	retq
2:
	.cfi_def_cfa_offset 24
	movb	%bl,%r11b
	shll	$12,%r11d
	leaq	(%rdx,%r11),%rcx
	xorl	%ebx,%ebx
	.p2align	4
2:
	cmpq	%rbx,%rsi
	je	3f
	movzbl	(%r9,%rbx),%ebp
	incq	%rbx
	addb	$127,%bpl
	jns	2b
	jmp	1b
4:
	movl	$8,%eax
	popq	%rbx
	.cfi_def_cfa_offset 16
	popq	%rbp
	.cfi_def_cfa_offset 8
	retq
3:
	.cfi_def_cfa_offset 24
	testq	%rsi,%rsi
	je	1f
	cmpq	$1,%rsi
	jne	2f
	xorl	%eax,%eax
	jmp	3f
2:
	movl	%esi,%ebx
	andl	$14,%ebx
	addq	%r10,%rdi
	incq	%rdi
	addq	%r11,%rdx
	incq	%rdx
	xorl	%eax,%eax
	.p2align	4
2:
	movzbl	-1(%rdi,%rax),%r10d
	movl	%r10d,%r11d
	sarb	$7,%r11b
	xorb	%r11b,%r10b
	subb	%r11b,%r10b
	movb	%r10b,-1(%rdx,%rax)
	movzbl	(%rdi,%rax),%r10d
	movl	%r10d,%r11d
	sarb	$7,%r11b
	xorb	%r11b,%r10b
	subb	%r11b,%r10b
	movb	%r10b,(%rdx,%rax)
	addq	$2,%rax
	cmpq	%rax,%rbx
	jne	2b
	testb	$1,%sil
	je	1f
3:
	movzbl	(%r9,%rax),%edx
	movl	%edx,%edi
	sarb	$7,%dil
	xorb	%dil,%dl
	subb	%dil,%dl
	movb	%dl,(%rcx,%rax)
1:
	movq	%rsi,(%r8)
	xorl	%eax,%eax
	popq	%rbx
	.cfi_def_cfa_offset 16
	popq	%rbp
	.cfi_def_cfa_offset 8
	retq
	.size	rtp_b236e5ea_rtpw_write_mixer_levels,.-rtp_b236e5ea_rtpw_write_mixer_levels
	.cfi_endproc

	.section	.text.rtpw_write_ntp_56,"ax",@progbits
	.globl	rtp_b236e5ea_rtpw_write_ntp_56
	.p2align	4
	.type	rtp_b236e5ea_rtpw_write_ntp_56,@function
rtp_b236e5ea_rtpw_write_ntp_56:
	.cfi_startproc
	movl	$8,%eax
	cmpq	$7,%rdx
	jb	1f
	pushq	%rbx
	.cfi_def_cfa_offset 16
	.cfi_offset %rbx,-16
	movq	%rdi,%rbx
	movl	%ebx,%edx
	shrl	$16,%edx
	shrl	$24,%edi
	movq	%rbx,%r8
	shrq	$32,%r8
	movq	%rbx,%r9
	shrq	$40,%r9
	movq	%rbx,%r10
	shrq	$48,%r10
	xorl	%eax,%eax
	testq	%rsi,%rsi
	sete	%al
	shll	$12,%eax
	movb	%r10b,(%rsi,%rax)
	movb	%r9b,1(%rsi,%rax)
	movb	%r8b,2(%rsi,%rax)
	movb	%dil,3(%rsi,%rax)
	movb	%dl,4(%rsi,%rax)
	movb	%bh,5(%rsi,%rax)
	movb	%bl,6(%rsi,%rax)
	movq	$7,(%rcx)
	xorl	%eax,%eax
	popq	%rbx
	.cfi_def_cfa_offset 8
	.cfi_restore %rbx
1:
	retq
	.size	rtp_b236e5ea_rtpw_write_ntp_56,.-rtp_b236e5ea_rtpw_write_ntp_56
	.cfi_endproc

	.section	.text.rtpw_write_ntp_64,"ax",@progbits
	.globl	rtp_b236e5ea_rtpw_write_ntp_64
	.p2align	4
	.type	rtp_b236e5ea_rtpw_write_ntp_64,@function
rtp_b236e5ea_rtpw_write_ntp_64:
	.cfi_startproc
	movl	$8,%eax
	cmpq	$8,%rdx
	jb	1f
	bswapq	%rdi
	xorl	%eax,%eax
	testq	%rsi,%rsi
	sete	%al
	shll	$12,%eax
	movq	%rdi,(%rsi,%rax)
	movq	$8,(%rcx)
	xorl	%eax,%eax
1:
	retq
	.size	rtp_b236e5ea_rtpw_write_ntp_64,.-rtp_b236e5ea_rtpw_write_ntp_64
	.cfi_endproc

	.section	.text.rtpw_write_orientation,"ax",@progbits
	.globl	rtp_b236e5ea_rtpw_write_orientation
	.p2align	4
	.type	rtp_b236e5ea_rtpw_write_orientation,@function
rtp_b236e5ea_rtpw_write_orientation:
	.cfi_startproc
	xorl	%r8d,%r8d
	testq	%rsi,%rsi
	sete	%r11b
	movzbl	2(%rdi),%r9d
	movl	$9,%eax
	cmpb	$1,%r9b
	ja	1f
	movzbl	3(%rdi),%r10d
	movzwl	(%rdi),%edi
	cmpl	$179,%edi
	jg	2f
	testl	%edi,%edi
	je	3f
	cmpl	$90,%edi
	jne	1f
	movb	$3,%al
	testq	%rdx,%rdx
	jne	4f
	jmp	5f
2:
	cmpl	$180,%edi
	je	2f
	cmpl	$270,%edi
	jne	1f
	movb	$1,%al
	testq	%rdx,%rdx
	jne	4f
	jmp	5f
3:
	xorl	%eax,%eax
	testq	%rdx,%rdx
	je	5f
4:
	movb	%r11b,%r8b
	shll	$12,%r8d
	shlb	$3,%r9b
	orb	%r9b,%al
	testb	%r10b,%r10b
	setne	%dl
	shlb	$2,%dl
	orb	%al,%dl
	movb	%dl,(%rsi,%r8)
	movq	$1,(%rcx)
	xorl	%eax,%eax
1:
	retq
2:
	movb	$2,%al
	testq	%rdx,%rdx
	jne	4b
5:
	movl	$8,%eax
	retq
	.size	rtp_b236e5ea_rtpw_write_orientation,.-rtp_b236e5ea_rtpw_write_orientation
	.cfi_endproc

	.section	.text.rtpw_write_original,"ax",@progbits
	.globl	rtp_b236e5ea_rtpw_write_original
	.p2align	4
	.type	rtp_b236e5ea_rtpw_write_original,@function
rtp_b236e5ea_rtpw_write_original:
	.cfi_startproc
	movl	$8,%eax
	cmpq	$2,%rsi
	jb	1f
	xorl	%eax,%eax
	testq	%rdi,%rdi
	sete	%al
	shll	$12,%eax
	rolw	$8,%dx
	movw	%dx,(%rdi,%rax)
	xorl	%eax,%eax
1:
	retq
	.size	rtp_b236e5ea_rtpw_write_original,.-rtp_b236e5ea_rtpw_write_original
	.cfi_endproc

	.section	.text.rtpw_write_report,"ax",@progbits
	.globl	rtp_b236e5ea_rtpw_write_report
	.p2align	4
	.type	rtp_b236e5ea_rtpw_write_report,@function
rtp_b236e5ea_rtpw_write_report:
	.cfi_startproc
	movl	$8,%eax
	cmpq	$24,%r9
	jb	1f
	pushq	%rbp
	.cfi_def_cfa_offset 16
	pushq	%r15
	.cfi_def_cfa_offset 24
	pushq	%r14
	.cfi_def_cfa_offset 32
	pushq	%r13
	.cfi_def_cfa_offset 40
	pushq	%r12
	.cfi_def_cfa_offset 48
	pushq	%rbx
	.cfi_def_cfa_offset 56
	.cfi_offset %rbx,-56
	.cfi_offset %r12,-48
	.cfi_offset %r13,-40
	.cfi_offset %r14,-32
	.cfi_offset %r15,-24
	.cfi_offset %rbp,-16
	movq	%r8,%rbx
	movl	%esi,%r10d
	movl	%ecx,%eax
	shrl	$16,%eax
	movl	%eax,-4(%rsp)
	movl	%ecx,%esi
	shrl	$24,%esi
	movl	%edx,%r8d
	shrl	$16,%r8d
	movl	%edx,%r9d
	shrl	$24,%r9d
	movl	12(%rdi),%ebp
	movl	%ebp,-12(%rsp)
	movl	%ebp,%r11d
	shrl	$16,%r11d
	shrl	$24,%ebp
	movl	8(%rdi),%r15d
	movl	%r15d,-16(%rsp)
	movl	%r15d,%r14d
	shrl	$16,%r14d
	shrl	$24,%r15d
	movl	%ecx,-8(%rsp)
	movl	4(%rdi),%ecx
	cmpl	$-8388607,%ecx
	movl	$-8388608,%r12d
	cmovgel	%ecx,%r12d
	cmpl	$8388607,%r12d
	movl	$8388607,%ecx
	cmovll	%r12d,%ecx
	movzbl	(%rdi),%r12d
	movl	%ecx,%r13d
	shrl	$16,%r13d
	movl	%edx,-20(%rsp)
	movl	%r10d,%edx
	shrl	$16,%r10d
	movl	%edx,%eax
	shrl	$24,%eax
	xorl	%edi,%edi
	testq	%rbx,%rbx
	sete	%dil
	shll	$12,%edi
	movb	%al,(%rbx,%rdi)
	movb	%r10b,1(%rbx,%rdi)
	movb	%dh,2(%rbx,%rdi)
	movb	%dl,3(%rbx,%rdi)
	movb	%r12b,4(%rbx,%rdi)
	movb	%r13b,5(%rbx,%rdi)
	movb	%ch,6(%rbx,%rdi)
	movb	%cl,7(%rbx,%rdi)
	movb	%r15b,8(%rbx,%rdi)
	movb	%r14b,9(%rbx,%rdi)
	movl	-16(%rsp),%eax
	movb	%ah,10(%rbx,%rdi)
	movb	%al,11(%rbx,%rdi)
	movb	%bpl,12(%rbx,%rdi)
	movb	%r11b,13(%rbx,%rdi)
	movl	-12(%rsp),%eax
	movb	%ah,14(%rbx,%rdi)
	movb	%al,15(%rbx,%rdi)
	movb	%r9b,16(%rbx,%rdi)
	movb	%r8b,17(%rbx,%rdi)
	movl	-20(%rsp),%eax
	movb	%ah,18(%rbx,%rdi)
	movb	%al,19(%rbx,%rdi)
	movb	%sil,20(%rbx,%rdi)
	movl	-4(%rsp),%eax
	movb	%al,21(%rbx,%rdi)
	movl	-8(%rsp),%eax
	movb	%ah,22(%rbx,%rdi)
	movb	%al,23(%rbx,%rdi)
	movq	56(%rsp),%rax
	movq	$24,(%rax)
	xorl	%eax,%eax
	popq	%rbx
	.cfi_def_cfa_offset 48
	popq	%r12
	.cfi_def_cfa_offset 40
	popq	%r13
	.cfi_def_cfa_offset 32
	popq	%r14
	.cfi_def_cfa_offset 24
	popq	%r15
	.cfi_def_cfa_offset 16
	popq	%rbp
	.cfi_def_cfa_offset 8
	.cfi_restore %rbx
	.cfi_restore %r12
	.cfi_restore %r13
	.cfi_restore %r14
	.cfi_restore %r15
	.cfi_restore %rbp
1:
	retq
	.size	rtp_b236e5ea_rtpw_write_report,.-rtp_b236e5ea_rtpw_write_report
	.cfi_endproc

	.section	.text.rtpw_write_send_time,"ax",@progbits
	.globl	rtp_b236e5ea_rtpw_write_send_time
	.p2align	4
	.type	rtp_b236e5ea_rtpw_write_send_time,@function
rtp_b236e5ea_rtpw_write_send_time:
	.cfi_startproc
	pushq	%rbx
	.cfi_def_cfa_offset 16
	.cfi_offset %rbx,-16
	movl	%edi,%ebx
	xorl	%edi,%edi
	testq	%rsi,%rsi
	sete	%r8b
	movl	$9,%eax
	cmpl	$16777215,%ebx
	ja	1f
	movl	$8,%eax
	cmpq	$3,%rdx
	jb	1f
	movb	%r8b,%dil
	shll	$12,%edi
	movl	%ebx,%eax
	shrl	$16,%eax
	movb	%al,(%rsi,%rdi)
	movb	%bh,1(%rsi,%rdi)
	movb	%bl,2(%rsi,%rdi)
	movq	$3,(%rcx)
	xorl	%eax,%eax
1:
	popq	%rbx
	.cfi_def_cfa_offset 8
	retq
	.size	rtp_b236e5ea_rtpw_write_send_time,.-rtp_b236e5ea_rtpw_write_send_time
	.cfi_endproc

	.section	.text.rtpw_write_transmission_offset,"ax",@progbits
	.globl	rtp_b236e5ea_rtpw_write_transmission_offset
	.p2align	4
	.type	rtp_b236e5ea_rtpw_write_transmission_offset,@function
rtp_b236e5ea_rtpw_write_transmission_offset:
	.cfi_startproc
	pushq	%rbx
	.cfi_def_cfa_offset 16
	.cfi_offset %rbx,-16
	movl	%edi,%ebx
	xorl	%edi,%edi
	testq	%rsi,%rsi
	sete	%r8b
	leal	8388608(%rbx),%r9d
	movl	$9,%eax
	cmpl	$16777215,%r9d
	ja	1f
	movl	$8,%eax
	cmpq	$3,%rdx
	jb	1f
	movb	%r8b,%dil
	shll	$12,%edi
	movl	%ebx,%eax
	shrl	$16,%eax
	movb	%al,(%rsi,%rdi)
	movb	%bh,1(%rsi,%rdi)
	movb	%bl,2(%rsi,%rdi)
	movq	$3,(%rcx)
	xorl	%eax,%eax
1:
	popq	%rbx
	.cfi_def_cfa_offset 8
	retq
	.size	rtp_b236e5ea_rtpw_write_transmission_offset,.-rtp_b236e5ea_rtpw_write_transmission_offset
	.cfi_endproc

	.section	.text.rtpw_write_transport_number,"ax",@progbits
	.globl	rtp_b236e5ea_rtpw_write_transport_number
	.p2align	4
	.type	rtp_b236e5ea_rtpw_write_transport_number,@function
rtp_b236e5ea_rtpw_write_transport_number:
	.cfi_startproc
	xorl	%r8d,%r8d
	testq	%rsi,%rsi
	sete	%r8b
	shll	$12,%r8d
	movzwl	(%rdi),%r9d
	cmpb	$0,4(%rdi)
	je	1f
	movzwl	2(%rdi),%r10d
	testw	%r10w,%r10w
	js	2f
	movl	$8,%eax
	cmpq	$4,%rdx
	jb	3f
	movl	%r10d,%eax
	orl	$-32768,%eax
	cmpb	$0,5(%rdi)
	cmovel	%r10d,%eax
	movzwl	%ax,%eax
	bswapl	%eax
	rolw	$8,%r9w
	movzwl	%r9w,%edx
	orl	%eax,%edx
	movl	%edx,(%rsi,%r8)
	movq	$4,(%rcx)
	jmp	4f
1:
	movl	$8,%eax
	cmpq	$2,%rdx
	jb	3f
	rolw	$8,%r9w
	movw	%r9w,(%rsi,%r8)
	movq	$2,(%rcx)
4:
	xorl	%eax,%eax
3:
	retq
2:
	movl	$9,%eax
	retq
	.size	rtp_b236e5ea_rtpw_write_transport_number,.-rtp_b236e5ea_rtpw_write_transport_number
	.cfi_endproc

	.section	.rodata.cst16,"aM",@progbits,16
	.p2align	4,0x0
.Lrtp_b236e5ea_CPI125_0:
	.byte	1
	.byte	0
	.byte	3
	.byte	2
	.byte	5
	.byte	4
	.byte	7
	.byte	6
	.byte	9
	.byte	8
	.byte	11
	.byte	10
	.byte	13
	.byte	12
	.byte	15
	.byte	14
	.section	.text.rtpw_write_color_space,"ax",@progbits
	.globl	rtp_b236e5ea_rtpw_write_color_space
	.p2align	4
	.type	rtp_b236e5ea_rtpw_write_color_space,@function
rtp_b236e5ea_rtpw_write_color_space:
	.cfi_startproc
	xorl	%r8d,%r8d
	testq	%rsi,%rsi
	sete	%r9b
	movzbl	27(%rdi),%r10d
	movl	$9,%eax
	cmpb	$3,%r10b
	ja	1f
	pushq	%rbp
	.cfi_def_cfa_offset 16
	pushq	%r14
	.cfi_def_cfa_offset 24
	pushq	%rbx
	.cfi_def_cfa_offset 32
	subq	$32,%rsp
	.cfi_def_cfa_offset 64
	.cfi_offset %rbx,-32
	.cfi_offset %r14,-24
	.cfi_offset %rbp,-16
	movzbl	28(%rdi),%ebx
	cmpb	$2,%bl
	ja	2f
	movzbl	29(%rdi),%r14d
	cmpb	$2,%r14b
	ja	2f
	movzwl	24(%rdi),%ebp
	movzbl	26(%rdi),%r11d
	movzbl	30(%rdi),%eax
	xorps	%xmm0,%xmm0
	testb	%al,%al
	je	3f
	movq	16(%rdi),%xmm1
	movdqu	(%rdi),%xmm2
	movdqa	.Lrtp_b236e5ea_CPI125_0(%rip),%xmm3
	pshufb	%xmm3,%xmm2
	pshufb	%xmm3,%xmm1
	jmp	4f
3:
	pxor	%xmm2,%xmm2
	pxor	%xmm1,%xmm1
4:
	shlb	$4,%r10b
	shlb	$2,%bl
	orb	%r10b,%bl
	orb	%r14b,%bl
	movzbl	%bl,%edi
	shll	$24,%edi
	shll	$16,%r11d
	orl	%ebp,%r11d
	orl	%edi,%r11d
	movups	%xmm0,8(%rsp)
	movq	$0,24(%rsp)
	movl	%r11d,4(%rsp)
	testb	%al,%al
	je	3f
	movdqu	%xmm2,8(%rsp)
	movq	%xmm1,24(%rsp)
	movl	$28,%ebx
	movl	$8,%eax
	cmpq	%rbx,%rdx
	jb	2f
4:
	movb	%r9b,%r8b
	shll	$12,%r8d
	addq	%r8,%rsi
	leaq	4(%rsp),%rax
	movq	%rsi,%rdi
	movq	%rax,%rsi
	movq	%rbx,%rdx
	movq	%rcx,%r14
	callq	memcpy@PLT
	movq	%rbx,(%r14)
	xorl	%eax,%eax
2:
	addq	$32,%rsp
	.cfi_def_cfa_offset 32
	popq	%rbx
	.cfi_def_cfa_offset 24
	popq	%r14
	.cfi_def_cfa_offset 16
	popq	%rbp
	.cfi_def_cfa_offset 8
	.cfi_restore %rbx
	.cfi_restore %r14
	.cfi_restore %rbp
1:
	retq
3:
	.cfi_def_cfa_offset 64
	.cfi_offset %rbx,-32
	.cfi_offset %rbp,-16
	.cfi_offset %r14,-24
	movl	$4,%ebx
	movl	$8,%eax
	cmpq	%rbx,%rdx
	jae	4b
	jmp	2b
	.size	rtp_b236e5ea_rtpw_write_color_space,.-rtp_b236e5ea_rtpw_write_color_space
	.cfi_endproc

	.section	.text.rtpw_wide_receiver_standing_of,"ax",@progbits
	.globl	rtp_b236e5ea_rtpw_wide_receiver_standing_of
	.p2align	4
	.type	rtp_b236e5ea_rtpw_wide_receiver_standing_of,@function
rtp_b236e5ea_rtpw_wide_receiver_standing_of:
	.cfi_startproc
	xorl	%r8d,%r8d
	testq	%rsi,%rsi
	sete	%r9b
	leaq	-1(%rdx),%r10
	movb	$3,%al
	cmpq	$511,%r10
	ja	1f
	cmpb	$0,8(%rdi)
	je	2f
	movq	(%rdi),%rdi
	cmpq	%rcx,%rdi
	jne	3f
4:
	xorl	%eax,%eax
	subq	%rcx,%rdi
	cmovaeq	%rdi,%rax
	shrq	$6,%rax
	cmpq	%rdx,%rax
	movb	$2,%al
	sbbb	$0,%al
1:
	retq
3:
	movq	%rdi,%rax
	subq	%rcx,%rax
	jae	1f
2:
	xorl	%eax,%eax
	retq
1:
	shrq	$6,%rax
	cmpq	%rdx,%rax
	jae	4b
	movb	%r9b,%r8b
	shll	$12,%r8d
	addq	%r8,%rsi
	movq	%rcx,%rax
	shrq	$6,%rax
	cmpq	$16,%rdx
	jne	1f
	andl	$15,%eax
	jmp	3f
1:
	movq	%rax,%r9
	movq	%rdx,%r8
	orq	%rdx,%r9
	shrq	$32,%r9
	je	1f
	xorl	%edx,%edx
	divq	%r8
	movq	%rdx,%rax
	jmp	5f
1:
	xorl	%edx,%edx
	divl	%r8d
	movl	%edx,%eax
5:
	movq	%r8,%rdx
3:
	movq	(%rsi,%rax,8),%rax
	btq	%rcx,%rax
	jb	4b
	jmp	2b
	.size	rtp_b236e5ea_rtpw_wide_receiver_standing_of,.-rtp_b236e5ea_rtpw_wide_receiver_standing_of
	.cfi_endproc

	.section	.text.rtp_proved_add_element,"ax",@progbits
	.p2align	4
	.type	rtp_b236e5ea_rtp_proved_add_element,@function
rtp_b236e5ea_rtp_proved_add_element:
	.cfi_startproc
	pushq	%rbp
	.cfi_def_cfa_offset 16
	pushq	%r15
	.cfi_def_cfa_offset 24
	pushq	%r14
	.cfi_def_cfa_offset 32
	pushq	%r13
	.cfi_def_cfa_offset 40
	pushq	%r12
	.cfi_def_cfa_offset 48
	pushq	%rbx
	.cfi_def_cfa_offset 56
	subq	$152,%rsp
	.cfi_def_cfa_offset 208
	.cfi_offset %rbx,-56
	.cfi_offset %r12,-48
	.cfi_offset %r13,-40
	.cfi_offset %r14,-32
	.cfi_offset %r15,-24
	.cfi_offset %rbp,-16
	movq	%rsi,80(%rsp)
	movzbl	208(%rsp),%r13d
	xorl	%r14d,%r14d
	testq	%rdi,%rdi
	sete	%r11b
	testq	%r8,%r8
	sete	%bpl
	movl	$9,%eax
	cmpb	$2,%r13b
	ja	1f
	movq	(%rdx),%rax
	movq	%rax,32(%rsp)
	cmpq	%rax,80(%rsp)
	jb	2f
	testb	%cl,%cl
	je	3f
	cmpq	$255,%r9
	ja	4f
	movb	$3,%r10b
	cmpq	$12,32(%rsp)
	jb	5f
	movb	%r11b,%r14b
	shll	$12,%r14d
	leaq	(%rdi,%r14),%rbx
	movzbl	(%rbx),%r15d
	cmpb	$-65,%r15b
	jg	6f
	movb	%bpl,64(%rsp)
	movq	%r8,96(%rsp)
	leal	(,%r15,4),%eax
	andl	$60,%eax
	leaq	12(%rax),%r12
	movq	32(%rsp),%r11
	subq	%r12,%r11
	jb	7f
	movq	%rbx,144(%rsp)
	addq	%r12,%rbx
	testb	$16,%r15b
	movq	%rbx,72(%rsp)
	jne	8f
	movq	%r9,%rsi
	movb	$1,4(%rsp)
	xorl	%ebp,%ebp
	movq	%r12,%r10
	leaq	(%rdi,%r14),%rbx
	jmp	9f
8:
	movb	$3,%r10b
	cmpq	$4,%r11
	jb	8f
	movzwl	2(%rbx),%r8d
	rolw	$8,%r8w
	addq	$-4,%r11
	movzwl	%r8w,%r8d
	shll	$2,%r8d
	cmpq	%r8,%r11
	jb	10f
	movzwl	(%rbx),%r11d
	movl	%r11d,%ebx
	andl	$61695,%ebx
	cmpw	$16,%bx
	sete	%bpl
	setne	4(%rsp)
	leaq	12(%rax),%r12
	leaq	(%r12,%r8),%r10
	addq	$4,%r10
	cmpl	$57022,%r11d
	je	11f
	cmpw	$16,%bx
	leaq	(%rdi,%r14),%rbx
	movq	%r9,%rsi
	je	9f
	xorl	%eax,%eax
	movb	$4,%r10b
	jmp	12f
11:
	leaq	(%rdi,%r14),%rbx
	movq	%r9,%rsi
9:
	movq	%r12,104(%rsp)
	leaq	-1(%rsi),%r8
	cmpq	$16,%r8
	movl	%ebp,28(%rsp)
	movzbl	%bpl,%r9d
	movl	$1,%r8d
	cmovbl	%r9d,%r8d
	movl	$1,%r11d
	movl	%ecx,44(%rsp)
	cmpb	$15,%cl
	cmovael	%r11d,%r8d
	testb	%r13b,%r13b
	cmovel	%r8d,%r11d
	testb	$-3,%r13b
	jne	9f
	movl	%r11d,%r12d
	jmp	11f
9:
	testb	%r8b,%r8b
	jne	9f
	xorl	%r12d,%r12d
11:
	movq	%r14,16(%rsp)
	movq	%rdi,88(%rsp)
	movq	%r15,8(%rsp)
	testb	$16,%r15b
	movq	%rsi,48(%rsp)
	leaq	12(%rax),%r8
	movq	%rdx,120(%rsp)
	jne	11f
	addq	%r10,%rbx
	movq	$0,112(%rsp)
	xorl	%r11d,%r11d
	movl	%r12d,%eax
	movl	%eax,28(%rsp)
	jmp	13f
11:
	movzbl	%al,%eax
	addq	%rax,%rbx
	addq	$16,%rbx
	addq	$16,%rax
	movq	%r10,%r11
	subq	%rax,%r11
	cmpb	$0,4(%rsp)
	je	11f
	testq	%r11,%r11
	je	14f
	movl	%r9d,4(%rsp)
	xorl	%ebp,%ebp
	movq	%rbx,%rax
	movq	%r11,%rdx
15:
	movq	%rdx,%r14
	.p2align	4
16:
	movzbl	(%rax),%ecx
	leal	16(%rcx),%edx
	cmpb	$32,%dl
	jae	17f
	testb	%cl,%cl
	je	18f
	movq	%r14,%rdx
	cmpb	$-17,%cl
	jbe	19f
	jmp	20f
17:
	movzbl	%cl,%edi
	andl	$15,%edi
	addq	$2,%rdi
	movq	%r14,%rdx
	subq	%rdi,%rdx
	jae	17f
	movq	%r14,%rdx
	subq	%rdi,%rdx
	jae	21f
	jmp	20f
18:
	cmpq	$2,%r14
	je	18f
	cmpq	$1,%r14
	je	20f
	cmpq	$3,%r14
	ja	22f
	cmpb	$0,1(%rax)
	jne	22f
	cmpb	$0,2(%rax)
	jne	22f
	jmp	23f
18:
	cmpb	$0,1(%rax)
	je	18f
22:
	movq	%r11,%r15
	movq	%rbx,%r13
	movq	%r10,%rbx
	leaq	-1(%r14),%rsi
	incq	%rax
	movq	%rax,%rdi
	callq	"rtp_b236e5ea_rtp_ext::elements::skip_zeros"
	testq	%rdx,%rdx
	je	22f
	movzbl	(%rax),%ecx
	movq	48(%rsp),%rsi
	movq	104(%rsp),%r8
	movq	%rbx,%r10
	movq	%r13,%rbx
	movq	%r15,%r11
	cmpb	$-17,%cl
	ja	20f
19:
	movl	%ecx,%edi
	andb	$15,%dil
	addb	$2,%dil
	movzbl	%dil,%edi
	subq	%rdi,%rdx
	jb	20f
21:
	addq	%rdi,%rax
	cmpb	$16,%cl
	jae	19f
	movq	%rdx,%r14
	testq	%rdx,%rdx
	jne	16b
	jmp	16f
17:
	addq	%rdi,%rax
19:
	addq	%rdi,%rbp
	xorl	%r14d,%r14d
	testq	%rdx,%rdx
	jne	15b
	jmp	20f
11:
	testq	%r11,%r11
	je	14f
	movl	%r9d,4(%rsp)
	xorl	%ebp,%ebp
	movq	%rbx,%rdi
	movq	%r11,%rdx
11:
	movq	%rdx,%r14
15:
	cmpb	$0,(%rdi)
	je	17f
	movq	%r14,%rdx
	movq	%rdi,%rax
	cmpq	$2,%rdx
	jae	19f
	jmp	20f
17:
	cmpq	$2,%r14
	je	17f
	cmpq	$1,%r14
	je	20f
	cmpq	$3,%r14
	ja	21f
	cmpb	$0,1(%rdi)
	jne	21f
	cmpb	$0,2(%rdi)
	jne	21f
	jmp	23f
17:
	cmpb	$0,1(%rdi)
	je	18f
21:
	movq	%r11,%r15
	movq	%rbx,%r13
	movq	%r10,%rbx
	leaq	-1(%r14),%rsi
	incq	%rdi
	callq	"rtp_b236e5ea_rtp_ext::elements::skip_zeros"
	testq	%rdx,%rdx
	je	22f
	movq	48(%rsp),%rsi
	movq	104(%rsp),%r8
	movq	%rbx,%r10
	movq	%r13,%rbx
	movq	%r15,%r11
	cmpq	$2,%rdx
	jb	20f
19:
	movzbl	1(%rax),%ecx
	leaq	2(%rcx),%rdi
	subq	%rdi,%rdx
	jb	20f
	addq	%rax,%rdi
	cmpb	$0,(%rax)
	jne	17f
	movq	%rdx,%r14
	testq	%rdx,%rdx
	jne	15b
	jmp	16f
17:
	addq	%rcx,%rbp
	addq	$2,%rbp
	xorl	%r14d,%r14d
	testq	%rdx,%rdx
	jne	11b
	jmp	20f
14:
	cmpb	28(%rsp),%r12b
	sete	%al
	movq	%rax,112(%rsp)
	xorl	%r11d,%r11d
13:
	xorl	%ecx,%ecx
	xorl	%ebp,%ebp
11:
	movb	$1,%al
	xorl	%r15d,%r15d
	movq	%rbp,%rdx
	cmpb	$1,%al
	jne	13f
14:
	movl	%r12d,4(%rsp)
	cmpb	$1,%r12b
	movl	$2,%eax
	sbbq	$0,%rax
	movq	%rax,56(%rsp)
	leaq	(%rsi,%rax),%rdi
	leaq	(%rdx,%rdi),%r12
	addq	$3,%r12
	andq	$-4,%r12
	cmpq	%r12,%r11
	cmovaq	%r11,%r12
	cmpq	$262140,%r12
	ja	15f
	leaq	(%r8,%r12),%rax
	movq	32(%rsp),%rdx
	subq	%r10,%rdx
	addq	%rdx,%rax
	addq	$4,%rax
	cmpq	%rax,80(%rsp)
	jb	17f
	movq	%r11,%rbx
	movl	%r15d,132(%rsp)
	movq	%rbp,%r13
	movq	%rcx,%r14
	movq	%rdi,80(%rsp)
	movq	%rax,136(%rsp)
	xorl	%eax,%eax
	movzbl	64(%rsp),%ecx
	movb	%cl,%al
	shll	$12,%eax
	movq	%rax,64(%rsp)
	leaq	(%r8,%r12),%rcx
	addq	$4,%rcx
	movq	144(%rsp),%rbp
	movq	%rbp,%rdi
	movq	%r10,%rsi
	movq	32(%rsp),%rdx
	callq	"rtp_b236e5ea_rtp_wire::packet::resizing::move_bytes"
	movl	%r12d,%eax
	shrl	$10,%eax
	movq	%r12,%r15
	movl	%r12d,%ecx
	andl	$-4,%ecx
	shll	$6,%ecx
	orl	%eax,%ecx
	movq	72(%rsp),%rdx
	movw	%cx,2(%rdx)
	cmpb	$0,112(%rsp)
	jne	19f
	orb	$16,(%rbp)
	cmpb	$0,4(%rsp)
	movl	$57022,%eax
	movl	$16,%ecx
	cmovel	%eax,%ecx
	movw	%cx,(%rdx)
19:
	movq	96(%rsp),%rcx
	movq	64(%rsp),%rax
	leaq	(%rcx,%rax),%rbp
	movq	%rdx,%rax
	leaq	4(%rdx),%r9
	testq	%rbx,%rbx
	movq	48(%rsp),%rdx
	je	19f
	movq	%r14,%r10
	movq	%rbp,72(%rsp)
	cmpq	%r14,%r13
	movq	%r9,32(%rsp)
	jne	21f
	xorl	%r12d,%r12d
	movq	%r10,%rax
	movq	88(%rsp),%rbx
	movl	28(%rsp),%ebp
	movq	%r15,%r13
	movl	132(%rsp),%r15d
	testb	%r15b,%r15b
	jne	24f
	jmp	25f
19:
	cmpb	$0,4(%rsp)
	je	19f
	movb	%dl,5(%rax)
	movl	$2,%eax
	movq	120(%rsp),%r14
	movq	88(%rsp),%r11
	movq	16(%rsp),%r12
	movq	8(%rsp),%rbx
	movl	44(%rsp),%ecx
	movq	%r15,%r13
	movb	%cl,(%r9)
	testb	%dl,%dl
	jne	26f
	jmp	27f
21:
	movq	%rbx,%r8
	movl	28(%rsp),%ebp
	movzbl	%bpl,%edi
	movq	%r9,%rsi
	movq	%r10,%rdx
	movq	%r10,%rcx
	xorl	%r9d,%r9d
	callq	"rtp_b236e5ea_rtp_ext::gathering::gather_around"
	movq	%r14,%r10
	movq	%rdx,%r12
	movq	88(%rsp),%rbx
	movq	%r15,%r13
	movl	132(%rsp),%r15d
	testb	%r15b,%r15b
	je	25f
24:
	movzbl	%bpl,%edi
	movq	32(%rsp),%rsi
	movq	%r13,%rdx
	movq	%rax,%rcx
	movq	%r10,%r8
	movq	%r12,%r9
	callq	"rtp_b236e5ea_rtp_ext::form_change::change_rows"
	movq	%rdx,%r12
	movq	%rax,%r10
25:
	movq	120(%rsp),%r14
	movq	48(%rsp),%r11
	movq	80(%rsp),%rcx
	addq	%rax,%rcx
	movq	%r10,%rdx
	movq	%rcx,80(%rsp)
	subq	%rcx,%rdx
	jae	21f
	testq	%r12,%r12
	je	24f
	movq	%r12,%rcx
	cmpq	$8,%r12
	jb	25f
	movq	%r12,%rcx
	cmpq	$32,%rdx
	jb	25f
	cmpq	$32,%r12
	jae	28f
	xorl	%edx,%edx
	jmp	29f
21:
	testq	%r12,%r12
	je	24f
	cmpq	$4,%r12
	jb	21f
	movq	56(%rsp),%rcx
	addq	%rax,%rcx
	addq	%r11,%rcx
	subq	%r10,%rcx
	cmpq	$32,%rcx
	jae	30f
21:
	xorl	%ecx,%ecx
21:
	movq	%r12,%rsi
	movq	%rcx,%rdx
	andq	$3,%rsi
	je	31f
	movq	%r14,%rbp
	movq	16(%rsp),%rdx
	addq	%rcx,%rdx
	movq	56(%rsp),%rdi
	addq	%rdx,%rdi
	addq	%rax,%rdi
	movq	8(%rsp),%r8
	andl	$15,%r8d
	shll	$2,%r8d
	addq	%r11,%rdi
	addq	%r8,%rdi
	addq	%rbx,%rdi
	addq	$16,%rdi
	movq	%r10,%r14
	addq	%r10,%rdx
	addq	%r8,%rdx
	leaq	(%rbx,%rdx),%r8
	addq	$16,%r8
	leaq	(%rcx,%rsi),%rdx
	xorl	%r9d,%r9d
	.p2align	4
32:
	movzbl	(%r8,%r9),%r10d
	movb	%r10b,(%rdi,%r9)
	incq	%r9
	cmpq	%r9,%rsi
	jne	32b
	movq	%r14,%r10
	movq	%rbp,%r14
31:
	subq	%r12,%rcx
	cmpq	$-4,%rcx
	ja	24f
	movq	%r12,%rcx
	subq	%rdx,%rcx
	movq	16(%rsp),%r8
	movq	56(%rsp),%r9
	addq	%r8,%r9
	addq	%rax,%r9
	addq	%rdx,%r9
	addq	%r11,%r9
	movq	8(%rsp),%rdi
	andl	$15,%edi
	shll	$2,%edi
	addq	%rdi,%r9
	leaq	(%rbx,%r9),%rsi
	addq	$19,%rsi
	addq	%r8,%r10
	addq	%rdx,%r10
	addq	%rdi,%r10
	leaq	(%rbx,%r10),%rdx
	addq	$19,%rdx
	xorl	%edi,%edi
	.p2align	4
31:
	movzbl	-3(%rdx,%rdi),%r8d
	movb	%r8b,-3(%rsi,%rdi)
	movzbl	-2(%rdx,%rdi),%r8d
	movb	%r8b,-2(%rsi,%rdi)
	movzbl	-1(%rdx,%rdi),%r8d
	movb	%r8b,-1(%rsi,%rdi)
	movzbl	(%rdx,%rdi),%r8d
	movb	%r8b,(%rsi,%rdi)
	addq	$4,%rdi
	cmpq	%rdi,%rcx
	jne	31b
	jmp	24f
19:
	movl	44(%rsp),%ecx
	rolb	$4,%cl
	addb	%dl,%cl
	decb	%cl
	movl	$1,%eax
	movq	120(%rsp),%r14
	movq	88(%rsp),%r11
	movq	16(%rsp),%r12
	movq	8(%rsp),%rbx
	movq	%r15,%r13
	movb	%cl,(%r9)
	testb	%dl,%dl
	je	27f
26:
	movzbl	%dl,%ecx
	cmpl	$1,%ecx
	jne	19f
	movzbl	(%rbp),%ecx
	movb	%cl,(%r9,%rax)
	jmp	26f
19:
	cmpq	$2,%rdx
	ja	19f
	movzbl	(%rbp),%ecx
	movb	%cl,(%r9,%rax)
	movzbl	1(%rbp),%ecx
	movb	%cl,1(%r9,%rax)
	jmp	26f
2:
	xorl	%r10d,%r10d
	jmp	5f
3:
	movb	$1,%r10b
	jmp	5f
4:
	movb	$2,%r10b
	jmp	5f
18:
	movl	$2,%r14d
	jmp	20f
6:
	movb	$1,%al
	jmp	12f
23:
	movl	$3,%r14d
	jmp	20f
7:
	movb	$2,%al
	jmp	12f
15:
	movb	$7,%r10b
	jmp	5f
19:
	cmpq	$3,%rdx
	jne	27f
	movzbl	(%rbp),%ecx
	movb	%cl,(%r9,%rax)
	movzbl	1(%rbp),%ecx
	movb	%cl,1(%r9,%rax)
	movzbl	2(%rbp),%ecx
	movb	%cl,2(%r9,%rax)
	jmp	26f
27:
	leaq	(%r9,%rax),%rdi
	movq	%rdi,%rcx
	subq	%rbp,%rcx
	cmpq	%rdx,%rcx
	jae	2f
	cmpq	$4,%rdx
	jae	3f
	xorl	%ecx,%ecx
	jmp	4f
2:
	movq	%rbp,%rsi
	movq	%r9,%rbx
	callq	memmove@PLT
	movq	%rbx,%r9
	jmp	26f
17:
	movb	$8,%r10b
	jmp	5f
16:
	xorl	%r14d,%r14d
20:
	movq	%r11,%rcx
	subq	%r14,%rcx
	cmpb	28(%rsp),%r12b
	sete	%al
	je	2f
	testq	%rbp,%rbp
	je	2f
	movzbl	%r12b,%esi
	movq	$0,112(%rsp)
	movl	4(%rsp),%edi
	movq	%rbx,%rdx
	xorl	%r8d,%r8d
	movq	%rcx,%r13
	movq	%r10,%r14
	movq	%r11,%r15
	callq	"rtp_b236e5ea_rtp_ext::form_change::row_len"
	movq	%r15,%r11
	movq	%r14,%r10
	movq	104(%rsp),%r8
	movq	%r13,%rcx
	movq	48(%rsp),%rsi
	movb	$1,%r15b
	cmpb	$1,%al
	je	14b
13:
	movzbl	28(%rsp),%edi
	movq	%rbx,%rsi
	movq	%r11,%rdx
	callq	"rtp_b236e5ea_rtp_wire::packet::rewriting::has_long_id"
	movb	$6,%r10b
	subb	%al,%r10b
5:
	xorl	%eax,%eax
12:
	movzbl	%r10b,%edi
	movzbl	%al,%esi
	addq	$152,%rsp
	.cfi_def_cfa_offset 56
	popq	%rbx
	.cfi_def_cfa_offset 48
	popq	%r12
	.cfi_def_cfa_offset 40
	popq	%r13
	.cfi_def_cfa_offset 32
	popq	%r14
	.cfi_def_cfa_offset 24
	popq	%r15
	.cfi_def_cfa_offset 16
	popq	%rbp
	.cfi_def_cfa_offset 8
	jmp	"rtp_b236e5ea_rtp_c::growing::put_status_of"
2:
	.cfi_def_cfa_offset 208
	movq	%rax,112(%rsp)
	jmp	11b
30:
	cmpq	$32,%r12
	jae	2f
	xorl	%ecx,%ecx
	jmp	5f
28:
	movq	%r12,%rdx
	andq	$-32,%rdx
	movq	16(%rsp),%r8
	leaq	(%r8,%r12),%rdi
	movq	8(%rsp),%rcx
	andl	$15,%ecx
	shll	$2,%ecx
	leaq	(%r10,%rcx),%rsi
	addq	%rdi,%rsi
	addq	%rbx,%rsi
	movq	56(%rsp),%rdi
	addq	%r8,%rdi
	leaq	(%rax,%r12),%r8
	addq	%r11,%r8
	addq	%rdi,%r8
	addq	%rbx,%rcx
	addq	%r8,%rcx
	movq	%rdx,%rdi
	negq	%rdi
	xorl	%r8d,%r8d
	.p2align	4
6:
	movups	-16(%rsi,%r8),%xmm0
	movups	(%rsi,%r8),%xmm1
	movups	%xmm1,(%rcx,%r8)
	movups	%xmm0,-16(%rcx,%r8)
	addq	$-32,%r8
	cmpq	%r8,%rdi
	jne	6b
	cmpq	%rdx,%r12
	je	24f
	testb	$24,%r12b
	je	6f
29:
	movq	%r12,%rsi
	andq	$-8,%rsi
	movl	%r12d,%ecx
	andl	$7,%ecx
	movq	16(%rsp),%rdi
	leaq	(%rdi,%r12),%r8
	movq	%r10,48(%rsp)
	leaq	(%r8,%r10),%rdi
	movq	8(%rsp),%r9
	andl	$15,%r9d
	shll	$2,%r9d
	addq	%r9,%rdi
	subq	%rdx,%rdi
	addq	%rbx,%rdi
	addq	$8,%rdi
	addq	56(%rsp),%r8
	addq	%rax,%r8
	addq	%r11,%r9
	addq	%r8,%r9
	subq	%rdx,%r9
	leaq	(%r9,%rbx),%r8
	addq	$8,%r8
	subq	%rsi,%rdx
	xorl	%r9d,%r9d
	.p2align	4
7:
	movq	(%rdi,%r9),%r10
	movq	%r10,(%r8,%r9)
	addq	$-8,%r9
	cmpq	%r9,%rdx
	jne	7b
	cmpq	%rsi,%r12
	movq	48(%rsp),%r10
	je	24f
25:
	leaq	-1(%rcx),%rdx
	movq	%rcx,%rsi
	andq	$3,%rsi
	je	7f
11:
	movq	16(%rsp),%rdi
	leaq	(%rdi,%rcx),%r8
	movq	56(%rsp),%rdi
	addq	%r8,%rdi
	addq	%rax,%rdi
	movq	8(%rsp),%r9
	andl	$15,%r9d
	shll	$2,%r9d
	movq	%r10,%r14
	addq	%r11,%rdi
	addq	%r9,%rdi
	addq	%rbx,%rdi
	addq	$15,%rdi
	movq	%r14,%rbp
	addq	%r14,%r8
	addq	%r9,%r8
	addq	%rbx,%r8
	addq	$15,%r8
	negq	%rsi
	andq	$-4,%rcx
	xorl	%r9d,%r9d
	.p2align	4
13:
	movzbl	(%r8,%r9),%r10d
	movb	%r10b,(%rdi,%r9)
	decq	%r9
	cmpq	%r9,%rsi
	jne	13b
	movq	%rbp,%r10
	movq	120(%rsp),%r14
7:
	cmpq	$3,%rdx
	jb	24f
	movq	%rcx,%rdx
	negq	%rdx
	movq	16(%rsp),%r8
	movq	56(%rsp),%r9
	addq	%r8,%r9
	addq	%rax,%r9
	addq	%rcx,%r9
	addq	%r11,%r9
	movq	8(%rsp),%rdi
	andl	$15,%edi
	shll	$2,%edi
	addq	%rdi,%r9
	leaq	(%rbx,%r9),%rsi
	addq	$15,%rsi
	addq	%r8,%r10
	addq	%rcx,%r10
	addq	%rdi,%r10
	leaq	(%rbx,%r10),%rcx
	addq	$15,%rcx
	xorl	%edi,%edi
	.p2align	4
13:
	movzbl	(%rcx,%rdi),%r8d
	movb	%r8b,(%rsi,%rdi)
	movzbl	-1(%rcx,%rdi),%r8d
	movb	%r8b,-1(%rsi,%rdi)
	movzbl	-2(%rcx,%rdi),%r8d
	movb	%r8b,-2(%rsi,%rdi)
	movzbl	-3(%rcx,%rdi),%r8d
	movb	%r8b,-3(%rsi,%rdi)
	addq	$-4,%rdi
	cmpq	%rdi,%rdx
	jne	13b
	jmp	24f
8:
	movb	$3,%al
	jmp	12b
3:
	movq	%r9,%r15
	movq	%r12,%rcx
	orq	%rax,%rcx
	addq	%r11,%rcx
	leal	(,%rbx,4),%r8d
	andl	$60,%r8d
	addq	%r8,%rcx
	subq	%rbp,%rcx
	addq	$16,%rcx
	cmpq	$32,%rcx
	jae	3f
	xorl	%ecx,%ecx
	movq	%r15,%r9
	jmp	4f
10:
	movb	$4,%al
	jmp	12b
2:
	movq	%r12,%rcx
	andq	$-32,%rcx
	movq	16(%rsp),%r8
	movq	56(%rsp),%rdx
	addq	%r8,%rdx
	leaq	(%rax,%r11),%rsi
	movq	8(%rsp),%rdi
	andl	$15,%edi
	shll	$2,%edi
	addq	%rdi,%rsi
	addq	%rdx,%rsi
	leaq	(%rbx,%rsi),%rdx
	addq	$32,%rdx
	leaq	(%r8,%r10),%rsi
	addq	%rdi,%rsi
	addq	%rbx,%rsi
	addq	$32,%rsi
	xorl	%edi,%edi
	.p2align	4
2:
	movups	-16(%rsi,%rdi),%xmm0
	movups	(%rsi,%rdi),%xmm1
	movups	%xmm0,-16(%rdx,%rdi)
	movups	%xmm1,(%rdx,%rdi)
	addq	$32,%rdi
	cmpq	%rdi,%rcx
	jne	2b
	cmpq	%rcx,%r12
	je	24f
	testb	$28,%r12b
	je	21b
5:
	movq	%rcx,%rdi
	movq	%r12,%rcx
	andq	$-4,%rcx
	movq	%rcx,%rdx
	subq	%rdi,%rdx
	movq	16(%rsp),%r9
	movq	56(%rsp),%rsi
	addq	%r9,%rsi
	addq	%rax,%rsi
	addq	%rdi,%rsi
	addq	%r11,%rsi
	movq	8(%rsp),%r8
	andl	$15,%r8d
	shll	$2,%r8d
	addq	%r8,%rsi
	addq	%rbx,%rsi
	addq	$16,%rsi
	addq	%r10,%r9
	addq	%rdi,%r9
	addq	%r8,%r9
	leaq	(%rbx,%r9),%rdi
	addq	$16,%rdi
	xorl	%r8d,%r8d
	.p2align	4
2:
	movl	(%rdi,%r8),%r9d
	movl	%r9d,(%rsi,%r8)
	addq	$4,%r8
	cmpq	%r8,%rdx
	jne	2b
	cmpq	%rcx,%r12
	jne	21b
24:
	cmpb	$0,4(%rsp)
	je	2f
	movl	44(%rsp),%ecx
	movq	32(%rsp),%rbp
	movb	%cl,(%rbp,%rax)
	movb	%r11b,1(%rbp,%rax)
	movl	$2,%ecx
	leaq	(%rcx,%rax),%rdi
	testb	%r11b,%r11b
	jne	5f
	jmp	8f
2:
	movl	44(%rsp),%ecx
	rolb	$4,%cl
	addb	%r11b,%cl
	decb	%cl
	movq	32(%rsp),%rbp
	movb	%cl,(%rbp,%rax)
	movl	$1,%ecx
	leaq	(%rcx,%rax),%rdi
	testb	%r11b,%r11b
	je	8f
5:
	movzbl	%r11b,%edx
	cmpl	$1,%edx
	jne	2f
	movq	72(%rsp),%rax
	movzbl	(%rax),%eax
	movb	%al,(%rbp,%rdi)
	jmp	5f
2:
	cmpq	$2,%r11
	ja	2f
	movq	72(%rsp),%rcx
	movzbl	(%rcx),%eax
	movb	%al,(%rbp,%rdi)
	movzbl	1(%rcx),%eax
	movb	%al,1(%rbp,%rdi)
	jmp	5f
2:
	cmpq	$3,%r11
	jne	8f
	movq	72(%rsp),%rcx
	movzbl	(%rcx),%eax
	movb	%al,(%rbp,%rdi)
	movzbl	1(%rcx),%eax
	movb	%al,1(%rbp,%rdi)
	movzbl	2(%rcx),%eax
	movb	%al,2(%rbp,%rdi)
	jmp	5f
8:
	addq	%rbp,%rdi
	movq	%rdi,%rdx
	movq	72(%rsp),%rsi
	subq	%rsi,%rdx
	cmpq	%r11,%rdx
	jae	2f
	cmpq	$4,%r11
	jae	8f
	xorl	%edx,%edx
	jmp	10f
2:
	movq	%r11,%rdx
	callq	memmove@PLT
	jmp	5f
8:
	movq	16(%rsp),%rdx
	leaq	(%rdx,%rax),%rsi
	leaq	(%rsi,%rcx),%rdi
	leaq	(%rdi,%rbx),%rdx
	movq	8(%rsp),%r8
	leal	(,%r8,4),%r8d
	andl	$60,%r8d
	addq	%r8,%rdx
	subq	72(%rsp),%rdx
	addq	$16,%rdx
	cmpq	$32,%rdx
	jae	2f
	xorl	%edx,%edx
	movq	32(%rsp),%rbp
	jmp	10f
2:
	cmpq	$32,%r11
	jae	2f
	xorl	%edx,%edx
	jmp	8f
9:
	xorl	%eax,%eax
	cmpb	$15,44(%rsp)
	movl	$0,%r10d
	adcb	$5,%r10b
	jmp	12b
3:
	cmpq	$32,%rdx
	jae	3f
	xorl	%ecx,%ecx
	jmp	9f
2:
	movl	%r11d,%edx
	andl	$224,%edx
	movq	64(%rsp),%r9
	movq	96(%rsp),%r10
	addq	%r10,%r9
	addq	$16,%r9
	addq	%r8,%rdi
	addq	%rbx,%rdi
	addq	$32,%rdi
	xorl	%r8d,%r8d
2:
	movups	-16(%r9,%r8),%xmm0
	movups	(%r9,%r8),%xmm1
	movups	%xmm0,-16(%rdi,%r8)
	movups	%xmm1,(%rdi,%r8)
	addq	$32,%r8
	cmpq	%r8,%rdx
	jne	2b
	cmpq	%rdx,%r11
	movq	32(%rsp),%rbp
	je	5f
	testb	$28,%r11b
	je	10f
8:
	movq	%rdx,%r9
	movl	%r11d,%edx
	andl	$252,%edx
	movq	%rdx,%rdi
	subq	%r9,%rdi
	movq	64(%rsp),%r8
	addq	%r9,%r8
	addq	96(%rsp),%r8
	addq	%r9,%rsi
	addq	%rcx,%rsi
	movq	8(%rsp),%r9
	andl	$15,%r9d
	leaq	(%rsi,%r9,4),%rsi
	movq	88(%rsp),%r9
	addq	%r9,%rsi
	addq	$16,%rsi
	xorl	%r9d,%r9d
2:
	movl	(%r8,%r9),%r10d
	movl	%r10d,(%rsi,%r9)
	addq	$4,%r9
	cmpq	%r9,%rdi
	jne	2b
	cmpq	%rdx,%r11
	movq	32(%rsp),%rbp
	je	5f
10:
	movq	96(%rsp),%r15
	movq	%r14,%rbx
	movq	%r11,%rsi
	movq	%rdx,%rdi
	andq	$3,%rsi
	movq	72(%rsp),%r14
	je	2f
	movq	16(%rsp),%rdi
	addq	%rdx,%rdi
	addq	%rax,%rdi
	addq	%rcx,%rdi
	movq	8(%rsp),%r8
	andl	$15,%r8d
	leaq	(%rdi,%r8,4),%rdi
	movq	88(%rsp),%r8
	addq	%rdi,%r8
	addq	$16,%r8
	xorl	%r9d,%r9d
	movq	%rdx,%rdi
	.p2align	4
8:
	movzbl	(%r14,%rdi),%r10d
	movb	%r10b,(%r8,%r9)
	incq	%rdi
	incq	%r9
	cmpq	%r9,%rsi
	jne	8b
2:
	subq	%r11,%rdx
	cmpq	$-4,%rdx
	movq	%rbx,%r14
	ja	5f
	subq	%rdi,%r11
	movq	64(%rsp),%rdx
	addq	%rdi,%rdx
	addq	%r15,%rdx
	addq	$3,%rdx
	movq	16(%rsp),%rsi
	addq	%rax,%rsi
	addq	%rdi,%rsi
	addq	%rcx,%rsi
	movq	8(%rsp),%rax
	andl	$15,%eax
	leaq	(%rsi,%rax,4),%rax
	movq	88(%rsp),%rcx
	addq	%rcx,%rax
	addq	$19,%rax
	xorl	%ecx,%ecx
	.p2align	4
2:
	movzbl	-3(%rdx,%rcx),%esi
	movb	%sil,-3(%rax,%rcx)
	movzbl	-2(%rdx,%rcx),%esi
	movb	%sil,-2(%rax,%rcx)
	movzbl	-1(%rdx,%rcx),%esi
	movb	%sil,-1(%rax,%rcx)
	movzbl	(%rdx,%rcx),%esi
	movb	%sil,(%rax,%rcx)
	addq	$4,%rcx
	cmpq	%rcx,%r11
	jne	2b
5:
	addq	80(%rsp),%r12
	subq	%r12,%r13
	jbe	2f
	cmpq	$4,%r13
	ja	5f
	leaq	8f(%rip),%rax
	movslq	(%rax,%r13,4),%rcx
	addq	%rax,%rcx
	jmpq	*%rcx
10:
	movb	$0,(%rbp,%r12)
	jmp	2f
12:
	movl	$0,(%rbp,%r12)
	jmp	2f
13:
	movw	$0,(%rbp,%r12)
	jmp	2f
14:
	movb	$0,2(%rbp,%r12)
	movw	$0,(%rbp,%r12)
	jmp	2f
5:
	movq	%r13,%rbx
	addq	%r12,%rbp
	decq	%r13
	movq	%rbp,%rdi
	xorl	%esi,%esi
	movq	%r13,%rdx
	callq	memset@PLT
	movb	$0,-1(%rbx,%rbp)
	jmp	2f
22:
	movq	48(%rsp),%rsi
	movq	104(%rsp),%r8
	movq	%rbx,%r10
	movq	%r13,%rbx
	movq	%r15,%r11
	jmp	20b
3:
	movl	%edx,%ecx
	andl	$224,%ecx
	movq	64(%rsp),%rsi
	movq	96(%rsp),%rdi
	addq	%rdi,%rsi
	addq	$16,%rsi
	addq	%r12,%r8
	addq	%rax,%r8
	addq	%r11,%r8
	addq	$32,%r8
	xorl	%edi,%edi
3:
	movups	-16(%rsi,%rdi),%xmm0
	movups	(%rsi,%rdi),%xmm1
	movups	%xmm0,-16(%r8,%rdi)
	movups	%xmm1,(%r8,%rdi)
	addq	$32,%rdi
	cmpq	%rdi,%rcx
	jne	3b
	cmpq	%rcx,%rdx
	movq	%r15,%r9
	je	26f
	testb	$28,%dl
	je	4f
9:
	movq	%rcx,%rdi
	movl	%edx,%ecx
	andl	$252,%ecx
	movq	%rcx,%r10
	subq	%rdi,%r10
	movq	64(%rsp),%rsi
	addq	%rdi,%rsi
	addq	96(%rsp),%rsi
	addq	%r12,%rdi
	addq	%rax,%rdi
	movl	%ebx,%r8d
	andl	$15,%r8d
	leaq	(%rdi,%r8,4),%rdi
	addq	%r11,%rdi
	addq	$16,%rdi
	xorl	%r8d,%r8d
3:
	movl	(%rsi,%r8),%r9d
	movl	%r9d,(%rdi,%r8)
	addq	$4,%r8
	cmpq	%r8,%r10
	jne	3b
	cmpq	%rcx,%rdx
	movq	%r15,%r9
	je	26f
4:
	movq	%r9,%r15
	movq	%rdx,%r10
	movq	%rcx,%rsi
	andq	$3,%r10
	je	3f
	leaq	(%r12,%rcx),%rsi
	addq	%rax,%rsi
	movl	%ebx,%edi
	andl	$15,%edi
	leaq	(%rsi,%rdi,4),%rsi
	leaq	(%r11,%rsi),%rdi
	addq	$16,%rdi
	xorl	%r8d,%r8d
	movq	%rcx,%rsi
	.p2align	4
4:
	movzbl	(%rbp,%rsi),%r9d
	movb	%r9b,(%rdi,%r8)
	incq	%rsi
	incq	%r8
	cmpq	%r8,%r10
	jne	4b
3:
	subq	%rdx,%rcx
	cmpq	$-4,%rcx
	movq	%r15,%r9
	ja	26f
	subq	%rsi,%rdx
	movq	64(%rsp),%rcx
	addq	%rsi,%rcx
	movq	96(%rsp),%rdi
	addq	%rdi,%rcx
	addq	$3,%rcx
	addq	%rsi,%r12
	addq	%rax,%r12
	andl	$15,%ebx
	leaq	(%r12,%rbx,4),%rax
	addq	%r11,%rax
	addq	$19,%rax
	xorl	%edi,%edi
	.p2align	4
3:
	movzbl	-3(%rcx,%rdi),%esi
	movb	%sil,-3(%rax,%rdi)
	movzbl	-2(%rcx,%rdi),%esi
	movb	%sil,-2(%rax,%rdi)
	movzbl	-1(%rcx,%rdi),%esi
	movb	%sil,-1(%rax,%rdi)
	movzbl	(%rcx,%rdi),%esi
	movb	%sil,(%rax,%rdi)
	addq	$4,%rdi
	cmpq	%rdi,%rdx
	jne	3b
26:
	movq	80(%rsp),%rdx
	subq	%rdx,%r13
	jbe	2f
	cmpq	$4,%r13
	ja	3f
	leaq	4f(%rip),%rax
	movslq	(%rax,%r13,4),%rcx
	addq	%rax,%rcx
	jmpq	*%rcx
5:
	movb	$0,(%r9,%rdx)
	jmp	2f
9:
	movl	$0,(%r9,%rdx)
	jmp	2f
15:
	movw	$0,(%r9,%rdx)
	jmp	2f
16:
	movb	$0,2(%r9,%rdx)
	movw	$0,(%r9,%rdx)
	jmp	2f
3:
	movq	%r13,%rbx
	addq	%rdx,%r9
	decq	%r13
	movq	%r9,%rdi
	xorl	%esi,%esi
	movq	%r13,%rdx
	movq	%r9,%r15
	callq	memset@PLT
	movb	$0,-1(%rbx,%r15)
2:
	movq	136(%rsp),%rax
	movq	%rax,(%r14)
	xorl	%eax,%eax
1:
	addq	$152,%rsp
	.cfi_def_cfa_offset 56
	popq	%rbx
	.cfi_def_cfa_offset 48
	popq	%r12
	.cfi_def_cfa_offset 40
	popq	%r13
	.cfi_def_cfa_offset 32
	popq	%r14
	.cfi_def_cfa_offset 24
	popq	%r15
	.cfi_def_cfa_offset 16
	popq	%rbp
	.cfi_def_cfa_offset 8
	retq
6:
	.cfi_def_cfa_offset 208
	movl	%r12d,%ecx
	andl	$31,%ecx
	leaq	-1(%rcx),%rdx
	movq	%rcx,%rsi
	andq	$3,%rsi
	jne	11b
	jmp	7b
	.size	rtp_b236e5ea_rtp_proved_add_element,.-rtp_b236e5ea_rtp_proved_add_element
	.cfi_endproc
	.section	.rodata.rtp_proved_add_element,"a",@progbits
	.p2align	2,0x0
8:
	.long	2b-8b
	.long	10b-8b
	.long	13b-8b
	.long	14b-8b
	.long	12b-8b
4:
	.long	2b-4b
	.long	5b-4b
	.long	15b-4b
	.long	16b-4b
	.long	9b-4b

	.section	.text.rtpw_change_form,"ax",@progbits
	.globl	rtp_b236e5ea_rtpw_change_form
	.p2align	4
	.type	rtp_b236e5ea_rtpw_change_form,@function
rtp_b236e5ea_rtpw_change_form:
	.cfi_startproc
	pushq	%rbx
	.cfi_def_cfa_offset 16
	subq	$80,%rsp
	.cfi_def_cfa_offset 96
	.cfi_offset %rbx,-16
	movq	%rdx,%rbx
	xorl	%edx,%edx
	testq	%rdi,%rdi
	sete	%r8b
	cmpb	$1,%cl
	je	1f
	movzbl	%cl,%ecx
	movl	$9,%eax
	cmpl	$2,%ecx
	jne	2f
	movb	$1,%al
	jmp	3f
1:
	xorl	%eax,%eax
3:
	movq	(%rbx),%rcx
	xorps	%xmm0,%xmm0
	movaps	%xmm0,48(%rsp)
	movq	$0,64(%rsp)
	cmpq	%rcx,%rsi
	jb	1f
	cmpq	$12,%rcx
	jb	3f
	movb	%r8b,%dl
	shll	$12,%edx
	addq	%rdx,%rdi
	movzbl	(%rdi),%r9d
	cmpb	$-65,%r9b
	jg	4f
	movl	%r9d,%edx
	andl	$15,%edx
	leaq	12(,%rdx,4),%rdx
	movq	%rcx,%r8
	subq	%rdx,%r8
	jb	5f
	testb	$16,%r9b
	jne	6f
	xorl	%r8d,%r8d
	jmp	7f
6:
	cmpq	$4,%r8
	jb	6f
	movzwl	2(%rdi,%rdx),%r9d
	rolw	$8,%r9w
	addq	$-4,%r8
	movzwl	%r9w,%r9d
	shll	$2,%r9d
	cmpq	%r9,%r8
	jb	8f
	movzwl	(%rdi,%rdx),%r10d
	cmpl	$57022,%r10d
	sete	%r11b
	andl	$61695,%r10d
	xorl	%r8d,%r8d
	cmpw	$16,%r10w
	sete	%r8b
	addq	%r9,%rdx
	addq	$4,%rdx
	orb	%r8b,%r11b
	movzbl	%r11b,%r9d
	shll	$8,%r8d
	orl	%r9d,%r8d
7:
	movq	%rdi,8(%rsp)
	movq	%rsi,16(%rsp)
	movq	%rcx,24(%rsp)
	movq	%rdx,32(%rsp)
	movw	%r8w,40(%rsp)
	movl	$0,42(%rsp)
	movw	$0,46(%rsp)
	movzbl	%al,%edx
	leaq	48(%rsp),%rdi
	leaq	8(%rsp),%rsi
	callq	"rtp_b236e5ea_rtp_wire::packet::rtp_packet_buf::RtpPacketBuf::change_form"
	cmpb	$0,48(%rsp)
	jne	7f
	movq	24(%rsp),%rax
	movq	%rax,(%rbx)
	xorl	%eax,%eax
2:
	addq	$80,%rsp
	.cfi_def_cfa_offset 16
	popq	%rbx
	.cfi_def_cfa_offset 8
	retq
1:
	.cfi_def_cfa_offset 96
	xorl	%eax,%eax
	jmp	1f
3:
	movl	$3,%eax
	jmp	1f
4:
	movl	$259,%eax
	jmp	1f
5:
	movl	$515,%eax
	jmp	1f
7:
	movzwl	56(%rsp),%eax
	jmp	1f
6:
	movl	$771,%eax
	jmp	1f
8:
	movl	$1027,%eax
1:
	movl	%eax,%ecx
	shrl	$8,%ecx
	movzbl	%al,%edi
	movzbl	%cl,%esi
	addq	$80,%rsp
	.cfi_def_cfa_offset 16
	popq	%rbx
	.cfi_def_cfa_offset 8
	jmp	"rtp_b236e5ea_rtp_c::growing::put_status_of"
	.size	rtp_b236e5ea_rtpw_change_form,.-rtp_b236e5ea_rtpw_change_form
	.cfi_endproc

	.section	.text.rtpw_compact,"ax",@progbits
	.globl	rtp_b236e5ea_rtpw_compact
	.p2align	4
	.type	rtp_b236e5ea_rtpw_compact,@function
rtp_b236e5ea_rtpw_compact:
	.cfi_startproc
	pushq	%rbp
	.cfi_def_cfa_offset 16
	pushq	%r15
	.cfi_def_cfa_offset 24
	pushq	%r14
	.cfi_def_cfa_offset 32
	pushq	%r13
	.cfi_def_cfa_offset 40
	pushq	%r12
	.cfi_def_cfa_offset 48
	pushq	%rbx
	.cfi_def_cfa_offset 56
	pushq	%rax
	.cfi_def_cfa_offset 64
	.cfi_offset %rbx,-56
	.cfi_offset %r12,-48
	.cfi_offset %r13,-40
	.cfi_offset %r14,-32
	.cfi_offset %r15,-24
	.cfi_offset %rbp,-16
	xorl	%ecx,%ecx
	testq	%rdi,%rdi
	sete	%r8b
	movq	(%rdx),%rbx
	movl	$9,%eax
	cmpq	%rbx,%rsi
	jb	1f
	movl	$1,%eax
	cmpq	$12,%rbx
	jb	1f
	movb	%r8b,%cl
	shll	$12,%ecx
	addq	%rcx,%rdi
	movzbl	(%rdi),%ecx
	movl	$2,%eax
	cmpb	$-65,%cl
	jg	1f
	movl	%ecx,%eax
	andl	$15,%eax
	leaq	12(,%rax,4),%rbp
	movl	$3,%eax
	movq	%rbx,%rsi
	subq	%rbp,%rsi
	jb	1f
	testb	$16,%cl
	jne	2f
3:
	movq	%rbx,(%rdx)
	xorl	%eax,%eax
	jmp	1f
2:
	movl	$4,%eax
	cmpq	$4,%rsi
	jb	1f
	addq	$-4,%rsi
	movzwl	2(%rdi,%rbp),%eax
	rolw	$8,%ax
	movzwl	%ax,%ecx
	shll	$2,%ecx
	movl	$6,%eax
	cmpq	%rcx,%rsi
	jae	2f
1:
	addq	$8,%rsp
	.cfi_def_cfa_offset 56
	popq	%rbx
	.cfi_def_cfa_offset 48
	popq	%r12
	.cfi_def_cfa_offset 40
	popq	%r13
	.cfi_def_cfa_offset 32
	popq	%r14
	.cfi_def_cfa_offset 24
	popq	%r15
	.cfi_def_cfa_offset 16
	popq	%rbp
	.cfi_def_cfa_offset 8
	retq
2:
	.cfi_def_cfa_offset 64
	movzwl	(%rdi,%rbp),%eax
	movl	%eax,%esi
	andl	$61695,%esi
	cmpl	$57022,%eax
	je	1f
	cmpw	$16,%si
	jne	3b
1:
	xorl	%eax,%eax
	cmpw	$16,%si
	sete	%al
	leaq	(%rcx,%rbp),%r14
	addq	$4,%r14
	leaq	4(%rdi,%rbp),%rsi
	movq	%rdi,%r15
	movl	%eax,%edi
	movq	%rdx,(%rsp)
	movq	%rcx,%rdx
	callq	"rtp_b236e5ea_rtp_ext::gathering::compact_body"
	movq	%rax,%r12
	addq	$3,%r12
	movq	%r12,%rax
	andq	$-4,%rax
	leaq	(%rax,%rbp),%r13
	addq	$4,%r13
	movq	%r15,%rdi
	movq	%r14,%rsi
	movq	%rbx,%rdx
	movq	%r13,%rcx
	callq	"rtp_b236e5ea_rtp_wire::packet::resizing::move_bytes"
	movq	(%rsp),%rdx
	movl	%r12d,%eax
	shrl	$10,%eax
	andl	$-4,%r12d
	shll	$6,%r12d
	movzbl	%al,%eax
	orl	%r12d,%eax
	movw	%ax,2(%r15,%rbp)
	subq	%r14,%rbx
	addq	%r13,%rbx
	jmp	3b
	.size	rtp_b236e5ea_rtpw_compact,.-rtp_b236e5ea_rtpw_compact
	.cfi_endproc

	.section	.text.rtpw_from_retransmission,"ax",@progbits
	.globl	rtp_b236e5ea_rtpw_from_retransmission
	.p2align	4
	.type	rtp_b236e5ea_rtpw_from_retransmission,@function
rtp_b236e5ea_rtpw_from_retransmission:
	.cfi_startproc
	pushq	%rbp
	.cfi_def_cfa_offset 16
	pushq	%r15
	.cfi_def_cfa_offset 24
	pushq	%r14
	.cfi_def_cfa_offset 32
	pushq	%r13
	.cfi_def_cfa_offset 40
	pushq	%r12
	.cfi_def_cfa_offset 48
	pushq	%rbx
	.cfi_def_cfa_offset 56
	subq	$312,%rsp
	.cfi_def_cfa_offset 368
	.cfi_offset %rbx,-56
	.cfi_offset %r12,-48
	.cfi_offset %r13,-40
	.cfi_offset %r14,-32
	.cfi_offset %r15,-24
	.cfi_offset %rbp,-16
	xorl	%r12d,%r12d
	testq	%rdi,%rdi
	sete	%r13b
	movl	$9,%ebp
	testb	%r8b,%r8b
	js	1f
	movq	%rsi,%r14
	movq	%rdi,%rbx
	movl	%r8d,8(%rsp)
	movl	%ecx,12(%rsp)
	movq	%rdx,16(%rsp)
	movq	(%rdx),%r15
	incq	%r9
	movb	$0,56(%rsp)
	leaq	57(%rsp),%rdi
	movl	$255,%edx
	movq	%r9,%rsi
	callq	memcpy@PLT
	cmpq	%r15,%r14
	jb	1f
	movl	$1,%ebp
	cmpq	$12,%r15
	jb	1f
	movb	%r13b,%r12b
	shll	$12,%r12d
	addq	%r12,%rbx
	movzbl	(%rbx),%eax
	movl	$2,%ebp
	cmpb	$-65,%al
	jg	1f
	movl	%eax,%ecx
	andl	$15,%ecx
	leaq	12(,%rcx,4),%r12
	movl	$3,%ebp
	movq	%r15,%r14
	subq	%r12,%r14
	jae	2f
1:
	movl	%ebp,%eax
	addq	$312,%rsp
	.cfi_def_cfa_offset 56
	popq	%rbx
	.cfi_def_cfa_offset 48
	popq	%r12
	.cfi_def_cfa_offset 40
	popq	%r13
	.cfi_def_cfa_offset 32
	popq	%r14
	.cfi_def_cfa_offset 24
	popq	%r15
	.cfi_def_cfa_offset 16
	popq	%rbp
	.cfi_def_cfa_offset 8
	retq
2:
	.cfi_def_cfa_offset 368
	testb	$16,%al
	jne	2f
	xorl	%edx,%edx
	xorl	%ecx,%ecx
	testb	$32,%al
	je	3f
4:
	movl	$11,%ebp
	cmpq	%r12,%r15
	je	1b
	movzbl	-1(%rbx,%r15),%eax
	movl	$9,%ebp
	subq	%rax,%r14
	jb	1b
	jmp	3f
2:
	movl	$4,%ebp
	cmpq	$4,%r14
	jb	1b
	addq	$-4,%r14
	movzwl	2(%rbx,%r12),%ecx
	rolw	$8,%cx
	movzwl	%cx,%esi
	shll	$2,%esi
	movl	$6,%ebp
	cmpq	%rsi,%r14
	jb	1b
	movzwl	(%rbx,%r12),%edx
	movl	%edx,%edi
	andl	$61695,%edi
	xorl	%ecx,%ecx
	cmpw	$16,%di
	sete	%cl
	cmpl	$57022,%edx
	movl	$1,%edx
	cmovnel	%ecx,%edx
	addq	%rsi,%r12
	addq	$4,%r12
	movq	%r15,%r14
	subq	%r12,%r14
	testb	$32,%al
	jne	4b
3:
	movl	$11,%ebp
	cmpq	$2,%r14
	jb	1b
	movzwl	(%rbx,%r12),%ebp
	movq	$0,48(%rsp)
	movq	%rbx,24(%rsp)
	movq	%r12,32(%rsp)
	movq	%r12,40(%rsp)
	movb	%dl,48(%rsp)
	movb	%cl,49(%rsp)
	leaq	24(%rsp),%rdi
	leaq	56(%rsp),%rsi
	callq	"rtp_b236e5ea_rtp_wire::packet::rtp_packet_mut::RtpPacketMut::renumber"
	testb	%al,%al
	je	2f
	movzbl	(%rbx),%eax
	movzbl	1(%rbx),%ecx
	andb	$31,%al
	orb	$-128,%al
	movb	%al,(%rbx)
	andb	$-128,%cl
	orb	8(%rsp),%cl
	movb	%cl,1(%rbx)
	movw	%bp,2(%rbx)
	movl	12(%rsp),%eax
	bswapl	%eax
	movl	%eax,8(%rbx)
	cmpq	$2,%r14
	je	3f
	addq	%r12,%rbx
	leaq	2(%rbx),%rsi
	leaq	-2(%r14),%rdx
	movq	%rbx,%rdi
	callq	memmove@PLT
3:
	leaq	(%r12,%r14),%rcx
	addq	$-2,%rcx
	movq	16(%rsp),%rax
	movq	%rcx,(%rax)
	xorl	%ebp,%ebp
	jmp	1b
2:
	movl	$16,%ebp
	jmp	1b
	.size	rtp_b236e5ea_rtpw_from_retransmission,.-rtp_b236e5ea_rtpw_from_retransmission
	.cfi_endproc

	.section	.text.rtpw_parse,"ax",@progbits
	.globl	rtp_b236e5ea_rtpw_parse
	.p2align	4
	.type	rtp_b236e5ea_rtpw_parse,@function
rtp_b236e5ea_rtpw_parse:
	.cfi_startproc
	xorl	%r8d,%r8d
	testq	%rdi,%rdi
	sete	%r9b
	movl	$1,%eax
	cmpq	$12,%rsi
	jb	1f
	movb	%r9b,%r8b
	shll	$12,%r8d
	addq	%r8,%rdi
	movzbl	(%rdi),%r8d
	movl	$2,%eax
	cmpb	$-65,%r8b
	jg	1f
	leal	(,%r8,4),%r10d
	andl	$60,%r10d
	leaq	12(%r10),%r9
	movl	$3,%eax
	subq	%r9,%rsi
	jae	2f
1:
	retq
2:
	testb	$16,%r8b
	jne	2f
	xorl	%r10d,%r10d
3:
	pushq	%rbp
	.cfi_def_cfa_offset 16
	pushq	%rbx
	.cfi_def_cfa_offset 24
	pushq	%rax
	.cfi_def_cfa_offset 32
	.cfi_offset %rbx,-24
	.cfi_offset %rbp,-16
	movq	%r9,(%rcx)
	movl	4(%rdi),%eax
	bswapl	%eax
	movl	%eax,8(%rcx)
	movl	8(%rdi),%eax
	bswapl	%eax
	movl	%eax,12(%rcx)
	movzbl	(%rdi),%r11d
	xorps	%xmm0,%xmm0
	movups	%xmm0,60(%rcx)
	movups	%xmm0,48(%rcx)
	movups	%xmm0,32(%rcx)
	movups	%xmm0,16(%rcx)
	andl	$15,%r11d
	je	4f
	leaq	12(%rdi),%rsi
	cmpb	$1,%r11b
	jne	5f
	xorl	%eax,%eax
	jmp	6f
2:
	.cfi_def_cfa_offset 8
	.cfi_restore %rbx
	.cfi_restore %rbp
	movl	$4,%eax
	cmpq	$4,%rsi
	jb	1b
	movzwl	2(%rdi,%r9),%eax
	rolw	$8,%ax
	addq	$-4,%rsi
	movzwl	%ax,%r11d
	shll	$2,%r11d
	cmpq	%r11,%rsi
	jae	2f
	movzwl	12(%rdi,%r10),%eax
	cmpl	$57022,%eax
	sete	%cl
	andl	$61695,%eax
	cmpw	$16,%ax
	sete	%al
	orb	%cl,%al
	movzbl	%al,%eax
	addl	$5,%eax
	retq
4:
	.cfi_def_cfa_offset 32
	.cfi_offset %rbx,-24
	.cfi_offset %rbp,-16
	xorl	%eax,%eax
	jmp	4f
5:
	movl	%r11d,%ebx
	andl	$-2,%ebx
	xorl	%eax,%eax
	.p2align	4
5:
	movl	(%rsi),%ebp
	bswapl	%ebp
	movl	%ebp,16(%rcx,%rax,4)
	movl	4(%rsi),%ebp
	addq	$8,%rsi
	bswapl	%ebp
	movl	%ebp,20(%rcx,%rax,4)
	addq	$2,%rax
	cmpq	%rax,%rbx
	jne	5b
	testb	$1,%r11b
	je	4f
6:
	leaq	16(%rcx),%r11
	movl	(%rsi),%esi
	bswapl	%esi
	movl	%esi,(%r11,%rax,4)
	incq	%rax
4:
	movb	%al,79(%rcx)
	movzwl	2(%rdi),%eax
	rolw	$8,%ax
	movw	%ax,76(%rcx)
	movzbl	1(%rdi),%eax
	andb	$127,%al
	movb	%al,78(%rcx)
	movzbl	1(%rdi),%eax
	shrb	$7,%al
	movb	%al,80(%rcx)
	movzbl	(%rdi),%eax
	shrb	$5,%al
	andb	$1,%al
	movb	%al,81(%rcx)
	movzbl	(%rdi),%eax
	shrb	$4,%al
	andb	$1,%al
	movb	%al,82(%rcx)
	testb	$16,%r8b
	jne	4f
	xorps	%xmm0,%xmm0
	movups	%xmm0,200(%rcx)
	movups	%xmm0,184(%rcx)
	movups	%xmm0,168(%rcx)
	movups	%xmm0,152(%rcx)
	movups	%xmm0,136(%rcx)
	movups	%xmm0,120(%rcx)
	movups	%xmm0,104(%rcx)
	movups	%xmm0,88(%rcx)
	movq	$0,216(%rcx)
	jmp	5f
4:
	movzbl	(%rdi),%eax
	andl	$15,%eax
	leaq	16(,%rax,4),%r8
	leaq	(%rdi,%rax,4),%rsi
	addq	$16,%rsi
	subq	%r8,%r9
	leaq	88(%rcx),%r8
	xorps	%xmm0,%xmm0
	movups	%xmm0,200(%rcx)
	movups	%xmm0,184(%rcx)
	movups	%xmm0,168(%rcx)
	movups	%xmm0,152(%rcx)
	movups	%xmm0,136(%rcx)
	movups	%xmm0,120(%rcx)
	movups	%xmm0,104(%rcx)
	movups	%xmm0,88(%rcx)
	movq	$0,216(%rcx)
	movzbl	%r10b,%ecx
	movq	%rdx,%rdi
	movq	%r9,%rdx
	callq	"rtp_b236e5ea_rtp_ext::block_values::read_values::<#9a3a19c0cce455e9>"
5:
	xorl	%eax,%eax
	addq	$8,%rsp
	.cfi_def_cfa_offset 24
	popq	%rbx
	.cfi_def_cfa_offset 16
	popq	%rbp
	.cfi_def_cfa_offset 8
	.cfi_restore %rbx
	.cfi_restore %rbp
	retq
2:
	movzwl	(%rdi,%r9),%eax
	cmpl	$57022,%eax
	setne	%sil
	andl	$61695,%eax
	cmpw	$16,%ax
	sete	%r10b
	xorb	%r10b,%sil
	movl	$5,%eax
	jne	1b
	addq	%r11,%r9
	addq	$4,%r9
	jmp	3b
	.size	rtp_b236e5ea_rtpw_parse,.-rtp_b236e5ea_rtpw_parse
	.cfi_endproc

	.section	.text.rtpw_parse_layers,"ax",@progbits
	.globl	rtp_b236e5ea_rtpw_parse_layers
	.p2align	4
	.type	rtp_b236e5ea_rtpw_parse_layers,@function
rtp_b236e5ea_rtpw_parse_layers:
	.cfi_startproc
	pushq	%rbp
	.cfi_def_cfa_offset 16
	pushq	%r14
	.cfi_def_cfa_offset 24
	pushq	%rbx
	.cfi_def_cfa_offset 32
	.cfi_offset %rbx,-32
	.cfi_offset %r14,-24
	.cfi_offset %rbp,-16
	xorl	%eax,%eax
	testq	%rdi,%rdi
	sete	%r9b
	movl	$1,%ebx
	cmpq	$12,%rsi
	jb	1f
	movb	%r9b,%al
	shll	$12,%eax
	addq	%rax,%rdi
	movzbl	(%rdi),%r9d
	movl	$2,%ebx
	cmpb	$-65,%r9b
	jg	1f
	leal	(,%r9,4),%r10d
	andl	$60,%r10d
	leaq	12(%r10),%rax
	movl	$3,%ebx
	subq	%rax,%rsi
	jb	1f
	testb	$16,%r9b
	jne	2f
	xorl	%r11d,%r11d
3:
	movq	%rax,(%rcx)
	movl	4(%rdi),%esi
	bswapl	%esi
	movl	%esi,8(%rcx)
	movl	8(%rdi),%esi
	bswapl	%esi
	movl	%esi,12(%rcx)
	movzbl	(%rdi),%ebx
	xorps	%xmm0,%xmm0
	movups	%xmm0,60(%rcx)
	movups	%xmm0,48(%rcx)
	movups	%xmm0,32(%rcx)
	movups	%xmm0,16(%rcx)
	andl	$15,%ebx
	je	4f
	leaq	12(%rdi),%r10
	cmpb	$1,%bl
	jne	5f
	xorl	%esi,%esi
	jmp	6f
2:
	movl	$4,%ebx
	cmpq	$4,%rsi
	jb	1f
	movzwl	2(%rdi,%rax),%r11d
	rolw	$8,%r11w
	addq	$-4,%rsi
	movzwl	%r11w,%r14d
	shll	$2,%r14d
	cmpq	%r14,%rsi
	jae	2f
	movzwl	12(%rdi,%r10),%eax
	cmpl	$57022,%eax
	sete	%cl
	andl	$61695,%eax
	cmpw	$16,%ax
	sete	%al
	orb	%cl,%al
	movzbl	%al,%ebx
	addl	$5,%ebx
	jmp	1f
4:
	xorl	%esi,%esi
	jmp	4f
5:
	movl	%ebx,%r14d
	andl	$-2,%r14d
	xorl	%esi,%esi
	.p2align	4
5:
	movl	(%r10),%ebp
	bswapl	%ebp
	movl	%ebp,16(%rcx,%rsi,4)
	movl	4(%r10),%ebp
	addq	$8,%r10
	bswapl	%ebp
	movl	%ebp,20(%rcx,%rsi,4)
	addq	$2,%rsi
	cmpq	%rsi,%r14
	jne	5b
	testb	$1,%bl
	je	4f
6:
	leaq	16(%rcx),%rbx
	movl	(%r10),%r10d
	bswapl	%r10d
	movl	%r10d,(%rbx,%rsi,4)
	incq	%rsi
4:
	movb	%sil,79(%rcx)
	movzwl	2(%rdi),%esi
	rolw	$8,%si
	movw	%si,76(%rcx)
	movzbl	1(%rdi),%esi
	andb	$127,%sil
	movb	%sil,78(%rcx)
	movzbl	1(%rdi),%esi
	shrb	$7,%sil
	movb	%sil,80(%rcx)
	movzbl	(%rdi),%esi
	shrb	$5,%sil
	andb	$1,%sil
	movb	%sil,81(%rcx)
	movzbl	(%rdi),%esi
	shrb	$4,%sil
	andb	$1,%sil
	movb	%sil,82(%rcx)
	movups	%xmm0,88(%rcx)
	movups	%xmm0,104(%rcx)
	movups	%xmm0,120(%rcx)
	movups	%xmm0,136(%rcx)
	movups	%xmm0,152(%rcx)
	movups	%xmm0,168(%rcx)
	movups	%xmm0,184(%rcx)
	movups	%xmm0,200(%rcx)
	movq	$0,216(%rcx)
	testb	$16,%r9b
	jne	4f
	xorl	%ebx,%ebx
	movl	$680,%edx
	movq	%r8,%rdi
	jmp	5f
4:
	movq	%rcx,%rbx
	leaq	88(%rcx),%r10
	movzbl	(%rdi),%ecx
	andl	$15,%ecx
	leaq	16(,%rcx,4),%r9
	leaq	(%rdi,%rcx,4),%rsi
	addq	$16,%rsi
	subq	%r9,%rax
	movzbl	%r11b,%ecx
	movq	%rdx,%rdi
	movq	%rax,%rdx
	movq	%r8,%r9
	movq	%r10,%r8
	movq	%r9,%r14
	callq	"rtp_b236e5ea_rtp_ext::block_values::read_apart::<#203c5bf9b6d6d505>"
	testb	%al,%al
	je	4f
	movb	$1,219(%rbx)
	xorl	%ebx,%ebx
	jmp	1f
4:
	xorl	%ebx,%ebx
	movl	$680,%edx
	movq	%r14,%rdi
5:
	xorl	%esi,%esi
	callq	memset@PLT
1:
	movl	%ebx,%eax
	popq	%rbx
	.cfi_def_cfa_offset 24
	popq	%r14
	.cfi_def_cfa_offset 16
	popq	%rbp
	.cfi_def_cfa_offset 8
	retq
2:
	.cfi_def_cfa_offset 32
	movzwl	(%rdi,%rax),%esi
	cmpl	$57022,%esi
	setne	%r10b
	andl	$61695,%esi
	cmpw	$16,%si
	sete	%r11b
	xorb	%r11b,%r10b
	movl	$5,%ebx
	jne	1b
	addq	%r14,%rax
	addq	$4,%rax
	jmp	3b
	.size	rtp_b236e5ea_rtpw_parse_layers,.-rtp_b236e5ea_rtpw_parse_layers
	.cfi_endproc

	.section	.text.rtpw_parse_many,"ax",@progbits
	.globl	rtp_b236e5ea_rtpw_parse_many
	.p2align	4
	.type	rtp_b236e5ea_rtpw_parse_many,@function
rtp_b236e5ea_rtpw_parse_many:
	.cfi_startproc
	pushq	%rbp
	.cfi_def_cfa_offset 16
	pushq	%r15
	.cfi_def_cfa_offset 24
	pushq	%r14
	.cfi_def_cfa_offset 32
	pushq	%r13
	.cfi_def_cfa_offset 40
	pushq	%r12
	.cfi_def_cfa_offset 48
	pushq	%rbx
	.cfi_def_cfa_offset 56
	subq	$24,%rsp
	.cfi_def_cfa_offset 80
	.cfi_offset %rbx,-56
	.cfi_offset %r12,-48
	.cfi_offset %r13,-40
	.cfi_offset %r14,-32
	.cfi_offset %r15,-24
	.cfi_offset %rbp,-16
	movq	%rdx,16(%rsp)
	xorl	%edx,%edx
	testq	%rdi,%rdi
	sete	%r10b
	xorl	%eax,%eax
	testq	%rcx,%rcx
	sete	%r9b
	testq	%r8,%r8
	je	1f
	movb	%r10b,%dl
	shll	$12,%edx
	addq	%rdx,%rdi
	movb	%r9b,%al
	shll	$12,%eax
	leaq	(%rcx,%rax),%rbx
	leaq	(%rax,%rcx),%r14
	addq	$36,%r14
	xorl	%r15d,%r15d
	jmp	2f
	.p2align	4
3:
	movl	$9,240(%r12)
	movb	$0,244(%r12)
4:
	incq	%r15
	addq	$248,%r14
	cmpq	%r8,%r15
	je	1f
2:
	imulq	$248,%r15,%rax
	leaq	(%rbx,%rax),%r12
	movq	(%rbx,%rax),%r13
	movq	%rsi,%rax
	subq	%r13,%rax
	jb	3b
	movq	8(%r12),%r9
	cmpq	%r9,%rax
	jb	3b
	addq	%rdi,%r13
	cmpq	$12,%r9
	jae	2f
	movl	$1,240(%r12)
	cmpq	$2,%r9
	jae	3f
	xorl	%eax,%eax
	movb	%al,244(%r12)
	jmp	4b
2:
	movzbl	(%r13),%ecx
	movl	$2,%eax
	cmpb	$-65,%cl
	jg	2f
	leal	(,%rcx,4),%r10d
	andl	$60,%r10d
	leaq	12(%r10),%rdx
	movl	$3,%eax
	subq	%rdx,%r9
	jae	5f
2:
	movl	%eax,240(%r12)
3:
	movzbl	1(%r13),%eax
	cmpb	$-64,(%r13)
	setl	%cl
	andb	$-32,%al
	cmpb	$-64,%al
	sete	%al
	andb	%cl,%al
	movb	%al,244(%r12)
	jmp	4b
5:
	testb	$16,%cl
	jne	4f
	xorl	%ebp,%ebp
5:
	movq	%rdx,16(%r12)
	movl	4(%r13),%eax
	bswapl	%eax
	movl	%eax,24(%r12)
	movl	8(%r13),%eax
	bswapl	%eax
	movl	%eax,28(%r12)
	movzbl	(%r13),%eax
	xorps	%xmm0,%xmm0
	movups	%xmm0,76(%r12)
	movups	%xmm0,64(%r12)
	movups	%xmm0,48(%r12)
	movups	%xmm0,32(%r12)
	andl	$15,%eax
	je	6f
	leaq	12(%r13),%r10
	cmpb	$1,%al
	jne	7f
	xorl	%r9d,%r9d
	jmp	8f
4:
	movl	$4,%eax
	cmpq	$4,%r9
	jb	2b
	movzwl	2(%r13,%rdx),%eax
	rolw	$8,%ax
	addq	$-4,%r9
	movzwl	%ax,%r11d
	shll	$2,%r11d
	cmpq	%r11,%r9
	jae	4f
	movzwl	12(%r13,%r10),%eax
	cmpl	$57022,%eax
	sete	%cl
	andl	$61695,%eax
	cmpw	$16,%ax
	sete	%al
	orb	%cl,%al
	movzbl	%al,%eax
	addl	$5,%eax
	jmp	2b
6:
	xorl	%r9d,%r9d
	jmp	6f
7:
	movl	%ebp,8(%rsp)
	movq	%rdx,(%rsp)
	movq	%rax,%rdx
	movl	%eax,%ebp
	andl	$-2,%ebp
	xorl	%r9d,%r9d
	xorl	%r11d,%r11d
	.p2align	4
7:
	movl	(%r10,%r9,4),%eax
	bswapl	%eax
	movl	%eax,-4(%r14,%r9,4)
	movl	4(%r10,%r9,4),%eax
	bswapl	%eax
	movl	%eax,(%r14,%r9,4)
	addq	$2,%r9
	addq	$-8,%r11
	cmpq	%r9,%rbp
	jne	7b
	testb	$1,%dl
	jne	7f
	movq	(%rsp),%rdx
	movl	8(%rsp),%ebp
	jmp	6f
4:
	movzwl	(%r13,%rdx),%eax
	cmpl	$57022,%eax
	setne	%r9b
	andl	$61695,%eax
	cmpw	$16,%ax
	sete	%bpl
	xorb	%bpl,%r9b
	movl	$5,%eax
	jne	2b
	addq	%r11,%rdx
	addq	$4,%rdx
	jmp	5b
7:
	subq	%r11,%r10
	movq	(%rsp),%rdx
	movl	8(%rsp),%ebp
8:
	leaq	32(%r12),%rax
	movl	(%r10),%r10d
	bswapl	%r10d
	movl	%r10d,(%rax,%r9,4)
	incq	%r9
6:
	movb	%r9b,95(%r12)
	movzwl	2(%r13),%eax
	rolw	$8,%ax
	movw	%ax,92(%r12)
	movzbl	1(%r13),%eax
	andb	$127,%al
	movb	%al,94(%r12)
	movzbl	1(%r13),%eax
	shrb	$7,%al
	movb	%al,96(%r12)
	movzbl	(%r13),%eax
	shrb	$5,%al
	andb	$1,%al
	movb	%al,97(%r12)
	movzbl	(%r13),%eax
	shrb	$4,%al
	andb	$1,%al
	movb	%al,98(%r12)
	testb	$16,%cl
	jne	2f
	xorps	%xmm0,%xmm0
	movups	%xmm0,216(%r12)
	movups	%xmm0,200(%r12)
	movups	%xmm0,184(%r12)
	movups	%xmm0,168(%r12)
	movups	%xmm0,152(%r12)
	movups	%xmm0,136(%r12)
	movups	%xmm0,120(%r12)
	movups	%xmm0,104(%r12)
	movq	$0,232(%r12)
	jmp	4f
2:
	movzbl	(%r13),%eax
	andl	$15,%eax
	leaq	16(,%rax,4),%rcx
	leaq	16(,%rax,4),%r10
	addq	%r13,%r10
	subq	%rcx,%rdx
	leaq	104(%r12),%r9
	xorps	%xmm0,%xmm0
	movups	%xmm0,216(%r12)
	movups	%xmm0,200(%r12)
	movups	%xmm0,184(%r12)
	movups	%xmm0,168(%r12)
	movups	%xmm0,152(%r12)
	movups	%xmm0,136(%r12)
	movups	%xmm0,120(%r12)
	movups	%xmm0,104(%r12)
	movq	$0,232(%r12)
	movzbl	%bpl,%ecx
	movq	%rdi,8(%rsp)
	movq	16(%rsp),%rdi
	movq	%rsi,(%rsp)
	movq	%r10,%rsi
	movq	%r8,%rbp
	movq	%r9,%r8
	callq	"rtp_b236e5ea_rtp_ext::block_values::read_values::<#9a3a19c0cce455e9>"
	movq	8(%rsp),%rdi
	movq	(%rsp),%rsi
	movq	%rbp,%r8
4:
	movl	$0,240(%r12)
	jmp	3b
1:
	addq	$24,%rsp
	.cfi_def_cfa_offset 56
	popq	%rbx
	.cfi_def_cfa_offset 48
	popq	%r12
	.cfi_def_cfa_offset 40
	popq	%r13
	.cfi_def_cfa_offset 32
	popq	%r14
	.cfi_def_cfa_offset 24
	popq	%r15
	.cfi_def_cfa_offset 16
	popq	%rbp
	.cfi_def_cfa_offset 8
	retq
	.size	rtp_b236e5ea_rtpw_parse_many,.-rtp_b236e5ea_rtpw_parse_many
	.cfi_endproc

	.section	.text.rtpw_prepare_group,"ax",@progbits
	.globl	rtp_b236e5ea_rtpw_prepare_group
	.p2align	4
	.type	rtp_b236e5ea_rtpw_prepare_group,@function
rtp_b236e5ea_rtpw_prepare_group:
	.cfi_startproc
	pushq	%rbp
	.cfi_def_cfa_offset 16
	pushq	%r15
	.cfi_def_cfa_offset 24
	pushq	%r14
	.cfi_def_cfa_offset 32
	pushq	%r13
	.cfi_def_cfa_offset 40
	pushq	%r12
	.cfi_def_cfa_offset 48
	pushq	%rbx
	.cfi_def_cfa_offset 56
	subq	$1432,%rsp
	.cfi_def_cfa_offset 1488
	.cfi_offset %rbx,-56
	.cfi_offset %r12,-48
	.cfi_offset %r13,-40
	.cfi_offset %r14,-32
	.cfi_offset %r15,-24
	.cfi_offset %rbp,-16
	movl	%ecx,%ebx
	movq	%rdx,%r14
	xorl	%edx,%edx
	testq	%rsi,%rsi
	sete	%cl
	movq	$0,80(%rsp)
	cmpb	$3,%bl
	setae	%al
	cmpq	$17,%r14
	setae	%r9b
	orb	%al,%r9b
	movl	$9,%eax
	jne	1f
	movb	%cl,%dl
	shll	$12,%edx
	leaq	(%rsi,%rdx),%rcx
	leaq	(%rdx,%rsi),%r10
	addq	$8,%r10
	movq	$-1,%r9
	.p2align	4
2:
	incq	%r9
	cmpq	%r9,%r14
	je	3f
	cmpq	$256,(%r10)
	leaq	32(%r10),%r10
	jb	2b
	jmp	1f
3:
	movw	$0,908(%rsp)
	xorps	%xmm0,%xmm0
	movaps	%xmm0,96(%rsp)
	movaps	%xmm0,112(%rsp)
	movaps	%xmm0,128(%rsp)
	movaps	%xmm0,144(%rsp)
	movaps	%xmm0,160(%rsp)
	movaps	%xmm0,176(%rsp)
	movaps	%xmm0,192(%rsp)
	movaps	%xmm0,208(%rsp)
	movaps	%xmm0,224(%rsp)
	movaps	%xmm0,240(%rsp)
	movaps	%xmm0,256(%rsp)
	movaps	%xmm0,272(%rsp)
	movaps	%xmm0,288(%rsp)
	movaps	%xmm0,304(%rsp)
	movaps	%xmm0,320(%rsp)
	movaps	%xmm0,336(%rsp)
	testq	%r14,%r14
	je	2f
	leaq	(%rdx,%rsi),%rax
	addq	$24,%rax
	xorl	%r9d,%r9d
	.p2align	4
3:
	movzbl	(%rax),%r10d
	cmpb	$0,96(%rsp,%r10)
	jne	4f
	incq	%r9
	movb	%r9b,96(%rsp,%r10)
	addq	$32,%rax
	cmpq	%r9,%r14
	jne	3b
	leaq	(%rdx,%rsi),%r9
	addq	$24,%r9
	movq	%r14,%r10
	.p2align	4
3:
	movl	$3,%eax
	cmpb	$0,(%r9)
	je	5f
	cmpq	$255,-16(%r9)
	ja	6f
	addq	$32,%r9
	decq	%r10
	jne	3b
	xorps	%xmm0,%xmm0
	movaps	%xmm0,32(%rsp)
	movaps	%xmm0,16(%rsp)
	cmpq	$1,%r14
	movq	%r8,48(%rsp)
	jne	3f
	xorl	%eax,%eax
	jmp	7f
2:
	movq	%r8,48(%rsp)
	movaps	%xmm0,32(%rsp)
	movaps	%xmm0,16(%rsp)
	jmp	2f
3:
	movl	%r14d,%r9d
	andl	$30,%r9d
	addq	%rsi,%rdx
	addq	$56,%rdx
	xorl	%eax,%eax
	.p2align	4
3:
	movzbl	-48(%rdx),%esi
	movzbl	-32(%rdx),%r10d
	movb	%r10b,32(%rsp,%rax)
	movb	%sil,16(%rsp,%rax)
	movzbl	-16(%rdx),%esi
	movzbl	(%rdx),%r10d
	movb	%r10b,33(%rsp,%rax)
	movb	%sil,17(%rsp,%rax)
	addq	$2,%rax
	addq	$64,%rdx
	cmpq	%rax,%r9
	jne	3b
	testb	$1,%r14b
	je	2f
7:
	movq	%rax,%rdx
	shlq	$5,%rdx
	movzbl	8(%rcx,%rdx),%esi
	movzbl	24(%rcx,%rdx),%ecx
	movb	%cl,32(%rsp,%rax)
	movb	%sil,16(%rsp,%rax)
2:
	movq	%rdi,%r15
	leaq	1(%rdi),%rsi
	leaq	361(%rsp),%rdi
	movl	$255,%edx
	movq	%rsi,64(%rsp)
	callq	memcpy@PLT
	leaq	616(%rsp),%rdi
	leaq	96(%rsp),%rsi
	movl	$256,%edx
	callq	memcpy@PLT
	movaps	32(%rsp),%xmm0
	movups	%xmm0,872(%rsp)
	movaps	16(%rsp),%xmm0
	movups	%xmm0,888(%rsp)
	movw	$0,904(%rsp)
	movb	%r14b,906(%rsp)
	movb	%bl,907(%rsp)
	movb	$1,%bpl
	xorl	%r13d,%r13d
	testq	%r14,%r14
	je	2f
	xorl	%esi,%esi
	.p2align	4
3:
	movzbl	872(%rsp,%rsi),%edx
	movzbl	616(%rsp,%rdx),%ecx
	leaq	1(%rsi),%rdi
	cmpq	%rcx,%rdi
	jne	7f
	movzbl	888(%rsp,%rsi),%esi
	addl	%esi,%r13d
	decb	%dl
	decl	%esi
	xorl	%edi,%edi
	cmpb	$16,%sil
	movzbl	%bpl,%ebp
	cmovael	%edi,%ebp
	cmpb	$14,%dl
	cmovael	%edi,%ebp
	movq	%rcx,%rsi
	cmpq	%rcx,%r14
	jne	3b
2:
	movq	366(%rsp),%r12
	movzwl	374(%rsp),%ecx
	movw	%cx,14(%rsp)
	movq	382(%rsp),%rcx
	movq	%rcx,56(%rsp)
	leaq	30(%r15),%rsi
	leaq	912(%rsp),%rdi
	movl	$226,%edx
	callq	memcpy@PLT
	leaq	1138(%rsp),%rdi
	leaq	96(%rsp),%rsi
	movl	$256,%edx
	callq	memcpy@PLT
	movaps	32(%rsp),%xmm0
	movups	%xmm0,1394(%rsp)
	movaps	16(%rsp),%xmm0
	movups	%xmm0,1410(%rsp)
	movq	64(%rsp),%rcx
	movl	(%rcx),%eax
	movl	%eax,96(%rsp)
	movzbl	4(%rcx),%eax
	movb	%al,100(%rsp)
	movl	16(%r15),%eax
	movl	%eax,360(%rsp)
	movzwl	20(%r15),%eax
	movw	%ax,364(%rsp)
	movq	48(%rsp),%r15
	movb	$0,(%r15)
	movl	96(%rsp),%eax
	movl	%eax,1(%r15)
	movzbl	100(%rsp),%eax
	movb	%al,5(%r15)
	movq	%r12,6(%r15)
	movzwl	14(%rsp),%eax
	movw	%ax,14(%r15)
	movl	360(%rsp),%eax
	movl	%eax,16(%r15)
	movzwl	364(%rsp),%eax
	movw	%ax,20(%r15)
	movq	56(%rsp),%rax
	movq	%rax,22(%r15)
	leaq	30(%r15),%rdi
	movl	$514,%edx
	leaq	912(%rsp),%rsi
	callq	memcpy@PLT
	movw	%r13w,544(%r15)
	movb	%r14b,546(%r15)
	movb	%bl,547(%r15)
	movb	%bpl,548(%r15)
	movb	$0,549(%r15)
	xorl	%eax,%eax
1:
	addq	$1432,%rsp
	.cfi_def_cfa_offset 56
	popq	%rbx
	.cfi_def_cfa_offset 48
	popq	%r12
	.cfi_def_cfa_offset 40
	popq	%r13
	.cfi_def_cfa_offset 32
	popq	%r14
	.cfi_def_cfa_offset 24
	popq	%r15
	.cfi_def_cfa_offset 16
	popq	%rbp
	.cfi_def_cfa_offset 8
	retq
4:
	.cfi_def_cfa_offset 1488
	movl	$1,%eax
	xorl	%ecx,%ecx
	jmp	2f
5:
	movb	$1,%cl
	jmp	2f
6:
	movb	$2,%cl
2:
	movq	%rax,72(%rsp)
	movb	%cl,80(%rsp)
	movb	$0,81(%rsp)
	movq	$0,88(%rsp)
	leaq	72(%rsp),%rdi
	callq	"rtp_b236e5ea_rtp_c::template::not_routed_status"
	jmp	1b
7:
	ud2
	.size	rtp_b236e5ea_rtpw_prepare_group,.-rtp_b236e5ea_rtpw_prepare_group
	.cfi_endproc

	.section	.text.rtp_proved_put_block,"ax",@progbits
	.p2align	4
	.type	rtp_b236e5ea_rtp_proved_put_block,@function
rtp_b236e5ea_rtp_proved_put_block:
	.cfi_startproc
	pushq	%rbp
	.cfi_def_cfa_offset 16
	pushq	%r15
	.cfi_def_cfa_offset 24
	pushq	%r14
	.cfi_def_cfa_offset 32
	pushq	%r13
	.cfi_def_cfa_offset 40
	pushq	%r12
	.cfi_def_cfa_offset 48
	pushq	%rbx
	.cfi_def_cfa_offset 56
	subq	$72,%rsp
	.cfi_def_cfa_offset 128
	.cfi_offset %rbx,-56
	.cfi_offset %r12,-48
	.cfi_offset %r13,-40
	.cfi_offset %r14,-32
	.cfi_offset %r15,-24
	.cfi_offset %rbp,-16
	movq	%rdx,%r15
	xorl	%r12d,%r12d
	testq	%rdi,%rdi
	sete	%r10b
	testq	%r8,%r8
	sete	%bl
	movq	(%rdx),%rdx
	cmpq	%rdx,%rsi
	setb	%r11b
	testb	$3,%r9b
	setne	%r14b
	movl	$9,%eax
	orb	%r11b,%r14b
	jne	1f
	movl	$15,%eax
	cmpq	$262140,%r9
	ja	1f
	cmpq	$12,%rdx
	jb	2f
	movb	%r10b,%r12b
	shll	$12,%r12d
	leaq	(%rdi,%r12),%r10
	movzbl	(%r10),%r11d
	cmpb	$-65,%r11b
	jg	3f
	movl	%r11d,%eax
	andl	$15,%eax
	leaq	12(,%rax,4),%r14
	movq	%rdx,%rbp
	subq	%r14,%rbp
	jb	4f
	testb	$16,%r11b
	movq	%r11,40(%rsp)
	movq	%r10,64(%rsp)
	jne	5f
	leaq	4(%r14),%r13
	movq	%r14,%r10
	jmp	6f
5:
	cmpq	$4,%rbp
	jb	5f
	movzwl	2(%r10,%r14),%eax
	rolw	$8,%ax
	addq	$-4,%rbp
	movzwl	%ax,%eax
	shll	$2,%eax
	cmpq	%rax,%rbp
	jb	7f
	leaq	4(%r14),%r13
	leaq	(%rax,%r14),%r10
	addq	$4,%r10
	movq	%rdx,%rbp
	subq	%r10,%rbp
6:
	leaq	(%r9,%r13),%r11
	addq	%r11,%rbp
	movl	$8,%eax
	movq	%rbp,56(%rsp)
	cmpq	%rbp,%rsi
	jb	1f
	movq	%rdi,32(%rsp)
	movq	%r15,8(%rsp)
	xorl	%eax,%eax
	movb	%bl,%al
	shll	$12,%eax
	movq	%r8,24(%rsp)
	movq	%rax,16(%rsp)
	addq	%r8,%rax
	movq	%rax,48(%rsp)
	movq	64(%rsp),%rbp
	movq	%rbp,%rdi
	movq	%r10,%rsi
	movl	%ecx,%r15d
	movq	%r11,%rcx
	movq	%r9,%rbx
	callq	"rtp_b236e5ea_rtp_wire::packet::resizing::move_bytes"
	movq	%rbx,%rdx
	rolw	$8,%r15w
	movw	%r15w,(%rbp,%r14)
	movl	%edx,%eax
	shrl	$10,%eax
	movl	%edx,%ecx
	shll	$6,%ecx
	orl	%eax,%ecx
	movw	%cx,2(%rbp,%r14)
	movq	48(%rsp),%rsi
	addq	%rbp,%r13
	movq	%r13,%rax
	subq	%rsi,%rax
	cmpq	%rbx,%rax
	jae	6f
	cmpq	$4,%rdx
	jae	8f
	xorl	%ecx,%ecx
	movq	8(%rsp),%rax
	movq	24(%rsp),%r14
	movq	32(%rsp),%rbx
	movq	40(%rsp),%r11
	jmp	9f
6:
	movq	%r13,%rdi
	callq	memmove@PLT
	movq	8(%rsp),%rax
	jmp	6f
8:
	movq	40(%rsp),%r11
	leal	(,%r11,4),%r8d
	andl	$60,%r8d
	leaq	(%r8,%rbp),%rax
	subq	%rsi,%rax
	addq	$16,%rax
	cmpq	$32,%rax
	movq	8(%rsp),%rax
	movq	24(%rsp),%r14
	movq	32(%rsp),%rbx
	jae	8f
	xorl	%ecx,%ecx
9:
	movq	%rcx,%r8
	subq	%rdx,%r8
	cmpq	$-4,%r8
	ja	6f
	andl	$15,%r11d
	leaq	(%r12,%r11,4),%r8
	leaq	(%rbx,%r8),%rdi
	addq	$19,%rdi
	movq	16(%rsp),%r8
	leaq	(%r8,%r14),%rsi
	addq	$3,%rsi
	.p2align	4
10:
	movzbl	-3(%rsi,%rcx),%r8d
	movb	%r8b,-3(%rdi,%rcx)
	movzbl	-2(%rsi,%rcx),%r8d
	movb	%r8b,-2(%rdi,%rcx)
	movzbl	-1(%rsi,%rcx),%r8d
	movb	%r8b,-1(%rdi,%rcx)
	movzbl	(%rsi,%rcx),%r8d
	movb	%r8b,(%rdi,%rcx)
	addq	$4,%rcx
	cmpq	%rcx,%rdx
	jne	10b
	jmp	6f
2:
	xorl	%eax,%eax
	jmp	2f
3:
	movb	$1,%al
	jmp	2f
4:
	movb	$2,%al
	jmp	2f
8:
	cmpq	$32,%rdx
	jae	3f
	xorl	%ecx,%ecx
	jmp	4f
3:
	movl	%edx,%ecx
	andl	$262112,%ecx
	movq	16(%rsp),%r9
	addq	%r14,%r9
	addq	$16,%r9
	addq	%r12,%r8
	addq	%rbx,%r8
	addq	$32,%r8
	xorl	%r10d,%r10d
3:
	movups	-16(%r9,%r10),%xmm0
	movups	(%r9,%r10),%xmm1
	movups	%xmm0,-16(%r8,%r10)
	movups	%xmm1,(%r8,%r10)
	addq	$32,%r10
	cmpq	%r10,%rcx
	jne	3b
	cmpq	%rcx,%rdx
	je	6f
	testb	$28,%dl
	je	9b
	.p2align	4
4:
	movl	(%rsi,%rcx),%r8d
	movl	%r8d,(%r13,%rcx)
	addq	$4,%rcx
	cmpq	%rcx,%rdx
	jne	4b
6:
	orb	$16,(%rbp)
	movq	56(%rsp),%rcx
	movq	%rcx,(%rax)
	xorl	%eax,%eax
1:
	addq	$72,%rsp
	.cfi_def_cfa_offset 56
	popq	%rbx
	.cfi_def_cfa_offset 48
	popq	%r12
	.cfi_def_cfa_offset 40
	popq	%r13
	.cfi_def_cfa_offset 32
	popq	%r14
	.cfi_def_cfa_offset 24
	popq	%r15
	.cfi_def_cfa_offset 16
	popq	%rbp
	.cfi_def_cfa_offset 8
	retq
5:
	.cfi_def_cfa_offset 128
	movb	$3,%al
	jmp	2f
7:
	movb	$4,%al
2:
	movzbl	%al,%esi
	movl	$3,%edi
	addq	$72,%rsp
	.cfi_def_cfa_offset 56
	popq	%rbx
	.cfi_def_cfa_offset 48
	popq	%r12
	.cfi_def_cfa_offset 40
	popq	%r13
	.cfi_def_cfa_offset 32
	popq	%r14
	.cfi_def_cfa_offset 24
	popq	%r15
	.cfi_def_cfa_offset 16
	popq	%rbp
	.cfi_def_cfa_offset 8
	jmp	"rtp_b236e5ea_rtp_c::growing::put_status_of"
	.size	rtp_b236e5ea_rtp_proved_put_block,.-rtp_b236e5ea_rtp_proved_put_block
	.cfi_endproc

	.section	.text.rtp_proved_put_element,"ax",@progbits
	.p2align	4
	.type	rtp_b236e5ea_rtp_proved_put_element,@function
rtp_b236e5ea_rtp_proved_put_element:
	.cfi_startproc
	pushq	%rbp
	.cfi_def_cfa_offset 16
	pushq	%r15
	.cfi_def_cfa_offset 24
	pushq	%r14
	.cfi_def_cfa_offset 32
	pushq	%r13
	.cfi_def_cfa_offset 40
	pushq	%r12
	.cfi_def_cfa_offset 48
	pushq	%rbx
	.cfi_def_cfa_offset 56
	subq	$184,%rsp
	.cfi_def_cfa_offset 240
	.cfi_offset %rbx,-56
	.cfi_offset %r12,-48
	.cfi_offset %r13,-40
	.cfi_offset %r14,-32
	.cfi_offset %r15,-24
	.cfi_offset %rbp,-16
	movzbl	240(%rsp),%r10d
	xorl	%r15d,%r15d
	testq	%rdi,%rdi
	sete	%r11b
	xorl	%r12d,%r12d
	movq	%r8,72(%rsp)
	testq	%r8,%r8
	sete	48(%rsp)
	movl	$9,%eax
	cmpb	$2,%r10b
	ja	1f
	movq	(%rdx),%r14
	cmpq	%r14,%rsi
	jb	2f
	testb	%cl,%cl
	je	3f
	cmpq	$255,%r9
	ja	4f
	cmpq	$12,%r14
	jb	5f
	movb	%r11b,%r15b
	shll	$12,%r15d
	leaq	(%rdi,%r15),%r8
	movzbl	(%r8),%r13d
	cmpb	$-65,%r13b
	jg	6f
	leal	(,%r13,4),%ebx
	andl	$60,%ebx
	leaq	12(%rbx),%rbp
	movq	%r14,%rax
	subq	%rbp,%rax
	jb	7f
	leaq	(%r8,%rbp),%r11
	movq	%r11,104(%rsp)
	testb	$16,%r13b
	movl	%ecx,12(%rsp)
	movq	%r9,64(%rsp)
	movq	%r8,136(%rsp)
	movq	%r14,168(%rsp)
	movq	%rbp,160(%rsp)
	jne	8f
	xorl	%r8d,%r8d
	movq	%r9,%r11
9:
	movq	%r11,%r9
	leaq	-1(%r11),%rax
	cmpq	$16,%rax
	movzbl	%r8b,%r11d
	movl	$1,%eax
	movl	%r11d,152(%rsp)
	cmovbl	%r11d,%eax
	movl	$1,%r11d
	cmpb	$15,%cl
	cmovael	%r11d,%eax
	testb	%r10b,%r10b
	cmovel	%eax,%r11d
	movl	%r11d,36(%rsp)
	testb	$-3,%r10b
	jne	10f
	movq	72(%rsp),%r11
	jmp	11f
8:
	cmpq	$4,%rax
	jb	8f
	leaq	12(%rbx),%r9
	leaq	(%r8,%r9),%rcx
	movzwl	2(%rcx),%r11d
	rolw	$8,%r11w
	addq	$-4,%rax
	movzwl	%r11w,%r14d
	shll	$2,%r14d
	cmpq	%r14,%rax
	jb	12f
	movzwl	(%rcx),%eax
	movl	%eax,%r11d
	andl	$61695,%r11d
	cmpw	$16,%r11w
	sete	%r8b
	leaq	(%r9,%r14),%rbp
	addq	$4,%rbp
	cmpl	$57022,%eax
	je	13f
	movl	$5,%eax
	cmpw	$16,%r11w
	movl	12(%rsp),%ecx
	movq	64(%rsp),%r11
	jne	1f
	jmp	9b
10:
	testb	%al,%al
	movq	72(%rsp),%r11
	jne	10f
	movl	$0,36(%rsp)
11:
	movzbl	48(%rsp),%eax
	movb	%al,%r12b
	shll	$12,%r12d
	movq	%r12,128(%rsp)
	leaq	(%r11,%r12),%rax
	movq	%rax,120(%rsp)
	testb	$16,%r13b
	movq	%r13,48(%rsp)
	movq	%rdx,176(%rsp)
	movq	%rdi,16(%rsp)
	movq	%r15,24(%rsp)
	movq	%rsi,40(%rsp)
	jne	11f
	movq	136(%rsp),%rax
	leaq	(%rax,%rbp),%r12
	xorl	%r13d,%r13d
	movq	$0,96(%rsp)
	movq	$0,112(%rsp)
	xorl	%r14d,%r14d
	movq	$0,88(%rsp)
	movl	36(%rsp),%ebx
	movl	%ebx,%r8d
	xorl	%r10d,%r10d
	xorl	%r15d,%r15d
14:
	movb	$1,%al
	xorl	%r11d,%r11d
	movq	%r14,%rdx
	movq	160(%rsp),%rsi
	cmpb	$1,%al
	jne	15f
16:
	movq	%r14,152(%rsp)
	movq	%r13,80(%rsp)
	movq	168(%rsp),%rcx
	cmpb	$1,%bl
	movl	$2,%eax
	sbbq	$0,%rax
	movq	%rax,(%rsp)
	addq	%r9,%rax
	leaq	(%rdx,%rax),%rdi
	addq	$3,%rdi
	andq	$-4,%rdi
	cmpq	%rdi,%r10
	cmovaq	%r10,%rdi
	cmpq	$262140,%rdi
	ja	17f
	movl	%ebx,%r13d
	movq	%rax,%rbx
	leaq	(%rsi,%rdi),%rax
	movq	%rcx,%rdx
	subq	%rbp,%rcx
	addq	%rcx,%rax
	addq	$4,%rax
	cmpq	%rax,40(%rsp)
	jb	18f
	movl	%r11d,56(%rsp)
	movq	%r15,%r14
	movq	%rdi,%r15
	movq	%r10,%r12
	movl	%r8d,144(%rsp)
	movq	%rax,40(%rsp)
	leaq	4(%rsi,%rdi),%rcx
	movq	%rbp,%rsi
	movq	136(%rsp),%rbp
	movq	%rbp,%rdi
	callq	"rtp_b236e5ea_rtp_wire::packet::resizing::move_bytes"
	movl	%r15d,%eax
	shrl	$10,%eax
	movq	%r15,%rsi
	movl	%r15d,%ecx
	andl	$-4,%ecx
	shll	$6,%ecx
	orl	%eax,%ecx
	movq	104(%rsp),%rax
	movw	%cx,2(%rax)
	testb	%r14b,%r14b
	jne	19f
	orb	$16,(%rbp)
	testb	%r13b,%r13b
	movl	$57022,%eax
	movl	$16,%ecx
	cmovel	%eax,%ecx
	movq	104(%rsp),%rax
	movw	%cx,(%rax)
	movq	104(%rsp),%rax
19:
	leaq	4(%rax),%r10
	testq	%r12,%r12
	movq	64(%rsp),%rdx
	movl	12(%rsp),%r9d
	movq	96(%rsp),%rax
	movq	112(%rsp),%r15
	je	19f
	movq	%r12,%r8
	cmpb	$0,80(%rsp)
	movq	88(%rsp),%r14
	cmoveq	%r14,%rax
	cmoveq	%r14,%r15
	movq	152(%rsp),%rcx
	subq	%rax,%rcx
	addq	%r15,%rcx
	cmpq	%r14,%rcx
	movq	%rsi,%r12
	movq	%r10,136(%rsp)
	jne	20f
	subq	%r15,%r14
	movq	120(%rsp),%rbp
	movl	56(%rsp),%ecx
	testb	%cl,%cl
	jne	21f
	jmp	22f
11:
	movzbl	%bl,%eax
	leaq	(%rdi,%r15),%r10
	leaq	(%r10,%rax),%r13
	addq	$16,%r13
	addq	$16,%rax
	movq	%rbp,%r10
	subq	%rax,%r10
	testb	%r8b,%r8b
	movl	36(%rsp),%ebx
	movq	%r10,80(%rsp)
	movq	%r13,144(%rsp)
	je	11f
	testq	%r10,%r10
	je	23f
	movq	$0,88(%rsp)
	movq	%r13,%rdi
	xorl	%r14d,%r14d
	movq	$0,56(%rsp)
	movq	%r10,%rdx
	movq	$0,112(%rsp)
	movq	$0,(%rsp)
	movq	$0,96(%rsp)
24:
	movq	%rdx,%r12
25:
	cmpb	$0,(%rdi)
	je	26f
	movq	%r12,%rdx
	movq	%rdi,%rax
	cmpq	$2,%rdx
	jae	27f
	jmp	28f
26:
	cmpq	$2,%r12
	je	26f
	cmpq	$1,%r12
	je	28f
	cmpq	$3,%r12
	ja	29f
	cmpb	$0,1(%rdi)
	jne	29f
	cmpb	$0,2(%rdi)
	jne	29f
	jmp	30f
26:
	cmpb	$0,1(%rdi)
	je	26f
29:
	movl	%ebx,%r15d
	movq	%rbp,%rbx
	movl	%r8d,%ebp
	leaq	-1(%r12),%rsi
	incq	%rdi
	callq	"rtp_b236e5ea_rtp_ext::elements::skip_zeros"
	testq	%rdx,%rdx
	je	29f
	movq	72(%rsp),%r11
	movq	64(%rsp),%r9
	movl	12(%rsp),%ecx
	movl	%ebp,%r8d
	movq	%rbx,%rbp
	movq	80(%rsp),%r10
	movl	%r15d,%ebx
	cmpq	$2,%rdx
	jb	28f
27:
	movzbl	1(%rax),%esi
	leaq	2(%rsi),%rdi
	subq	%rdi,%rdx
	jb	28f
	addq	%rax,%rdi
	cmpb	%cl,(%rax)
	je	27f
	addq	%rsi,%r14
	addq	$2,%r14
	movq	%rdx,%r12
	testq	%rdx,%rdx
	jne	25b
	jmp	25f
27:
	incq	56(%rsp)
	movq	80(%rsp),%r10
	subq	%rdx,%r10
	movq	%r10,%rax
	subq	%rsi,%rax
	movq	%rax,(%rsp)
	negq	%rsi
	movq	%r10,112(%rsp)
	leaq	(%r10,%rsi),%rax
	addq	$-2,%rax
	movq	80(%rsp),%r10
	movq	%rax,96(%rsp)
	movb	$1,%al
	movq	%rax,88(%rsp)
	xorl	%r12d,%r12d
	testq	%rdx,%rdx
	jne	24b
	jmp	28f
19:
	cmpb	$0,36(%rsp)
	movq	72(%rsp),%rcx
	movq	%rsi,%r12
	je	19f
	movq	104(%rsp),%rax
	movb	%dl,5(%rax)
	movl	$2,%eax
	jmp	24f
20:
	movzbl	144(%rsp),%edi
	movq	%rax,%rdx
	movzbl	%r9b,%r9d
	movq	%r10,%rsi
	movq	%r15,%rcx
	callq	"rtp_b236e5ea_rtp_ext::gathering::gather_around"
	movq	%rdx,%r14
	movq	120(%rsp),%rbp
	movl	56(%rsp),%ecx
	testb	%cl,%cl
	je	22f
21:
	movzbl	144(%rsp),%edi
	movq	136(%rsp),%rsi
	movq	%r12,%rdx
	movq	%rax,%rcx
	movq	%r15,%r8
	movq	%r14,%r9
	callq	"rtp_b236e5ea_rtp_ext::form_change::change_rows"
	movq	%rdx,%r14
	movq	%rax,%r15
22:
	movq	64(%rsp),%r11
	addq	%rax,%rbx
	movq	%r15,%rdx
	subq	%rbx,%rdx
	jae	20f
	testq	%r14,%r14
	je	21f
	movq	%r14,%rcx
	cmpq	$8,%r14
	jb	22f
	movq	%r14,%rcx
	cmpq	$32,%rdx
	jb	22f
	cmpq	$32,%r14
	jae	27f
	xorl	%edx,%edx
	jmp	31f
20:
	testq	%r14,%r14
	je	21f
	cmpq	$4,%r14
	jb	20f
	movq	(%rsp),%rcx
	addq	%rax,%rcx
	addq	%r11,%rcx
	subq	%r15,%rcx
	cmpq	$32,%rcx
	jae	32f
20:
	xorl	%ecx,%ecx
20:
	movq	%r14,%rsi
	movq	%rcx,%rdx
	andq	$3,%rsi
	je	33f
	movq	%r14,%rbp
	movq	%rbx,104(%rsp)
	movq	24(%rsp),%rdx
	addq	%rcx,%rdx
	movq	(%rsp),%rdi
	addq	%rdx,%rdi
	movq	%rax,%r14
	addq	%rax,%rdi
	movq	48(%rsp),%r8
	andl	$15,%r8d
	shll	$2,%r8d
	addq	%r11,%rdi
	addq	%r8,%rdi
	movq	16(%rsp),%rax
	addq	%rax,%rdi
	addq	$16,%rdi
	addq	%r15,%rdx
	addq	%r8,%rdx
	leaq	(%rax,%rdx),%r8
	addq	$16,%r8
	leaq	(%rcx,%rsi),%rdx
	xorl	%r9d,%r9d
	.p2align	4
34:
	movzbl	(%r8,%r9),%r10d
	movb	%r10b,(%rdi,%r9)
	incq	%r9
	cmpq	%r9,%rsi
	jne	34b
	movq	%r14,%rax
	movq	104(%rsp),%rbx
	movq	%rbp,%r14
	movq	120(%rsp),%rbp
33:
	subq	%r14,%rcx
	cmpq	$-4,%rcx
	ja	21f
	movq	%r14,%rcx
	subq	%rdx,%rcx
	movq	24(%rsp),%r9
	movq	(%rsp),%r10
	addq	%r9,%r10
	addq	%rax,%r10
	addq	%rdx,%r10
	addq	%r11,%r10
	movq	48(%rsp),%rdi
	andl	$15,%edi
	shll	$2,%edi
	addq	%rdi,%r10
	movq	16(%rsp),%r8
	leaq	(%r8,%r10),%rsi
	addq	$19,%rsi
	addq	%r9,%r15
	addq	%rdx,%r15
	addq	%rdi,%r15
	leaq	(%r8,%r15),%rdx
	addq	$19,%rdx
	xorl	%edi,%edi
	.p2align	4
33:
	movzbl	-3(%rdx,%rdi),%r8d
	movb	%r8b,-3(%rsi,%rdi)
	movzbl	-2(%rdx,%rdi),%r8d
	movb	%r8b,-2(%rsi,%rdi)
	movzbl	-1(%rdx,%rdi),%r8d
	movb	%r8b,-1(%rsi,%rdi)
	movzbl	(%rdx,%rdi),%r8d
	movb	%r8b,(%rsi,%rdi)
	addq	$4,%rdi
	cmpq	%rdi,%rcx
	jne	33b
	jmp	21f
11:
	testq	%r10,%r10
	je	23f
	movq	$0,88(%rsp)
	xorl	%r14d,%r14d
	movq	$0,56(%rsp)
	movq	%r10,%r15
	movq	$0,112(%rsp)
	movq	$0,(%rsp)
	movq	$0,96(%rsp)
	.p2align	4
11:
	movzbl	(%r13),%eax
	leal	16(%rax),%edx
	cmpb	$32,%dl
	jae	33f
	testb	%al,%al
	je	34f
	movq	%r15,%rdx
	cmpb	$-17,%al
	jbe	35f
	jmp	36f
33:
	movzbl	%al,%esi
	andl	$15,%esi
	addq	$2,%rsi
	movq	%r15,%rdx
	subq	%rsi,%rdx
	jae	33f
	movq	%r15,%rdx
	jmp	37f
34:
	cmpq	$2,%r15
	je	34f
	cmpq	$1,%r15
	je	36f
	cmpq	$3,%r15
	ja	38f
	cmpb	$0,1(%r13)
	jne	38f
	cmpb	$0,2(%r13)
	jne	38f
	jmp	30f
34:
	cmpb	$0,1(%r13)
	je	26f
38:
	movl	%ebx,36(%rsp)
	movl	%r8d,%ebx
	leaq	-1(%r15),%rsi
	incq	%r13
	movq	%r13,%rdi
	callq	"rtp_b236e5ea_rtp_ext::elements::skip_zeros"
	testq	%rdx,%rdx
	je	34f
	movq	%rax,%r13
	movzbl	(%rax),%eax
	movq	72(%rsp),%r11
	movq	64(%rsp),%r9
	movl	12(%rsp),%ecx
	movl	%ebx,%r8d
	movq	80(%rsp),%r10
	movl	36(%rsp),%ebx
	cmpb	$-17,%al
	ja	36f
35:
	movl	%eax,%esi
	andb	$15,%sil
	addb	$2,%sil
	movzbl	%sil,%esi
37:
	subq	%rsi,%rdx
	jb	36f
33:
	addq	%rsi,%r13
	movq	%rdx,%r15
	shrb	$4,%al
	cmpb	%cl,%al
	je	33f
	testb	%al,%al
	je	35f
	addq	%rsi,%r14
	testq	%r15,%r15
	jne	11b
	jmp	25f
35:
	movq	56(%rsp),%rdi
	movl	%ebx,%r12d
	movq	%rbp,%rbx
	movl	%r8d,%ebp
	callq	"rtp_b236e5ea_rtp_ext::survey::one_more"
	movq	80(%rsp),%r10
	movl	%ebp,%r8d
	movq	%rbx,%rbp
	movl	%r12d,%ebx
	movl	12(%rsp),%ecx
	movq	64(%rsp),%r9
	movq	72(%rsp),%r11
	movq	%rax,56(%rsp)
	testq	%r15,%r15
	jne	11b
	jmp	25f
33:
	incq	56(%rsp)
	movq	%r10,%rdx
	subq	%r15,%rdx
	movq	%rdx,%rax
	subq	%rsi,%rax
	movq	%rax,96(%rsp)
	negq	%rsi
	movq	%rdx,112(%rsp)
	leaq	(%rdx,%rsi),%rax
	incq	%rax
	movq	%rax,(%rsp)
	movb	$1,%al
	movq	%rax,88(%rsp)
	xorl	%r12d,%r12d
	testq	%r15,%r15
	jne	11b
	jmp	28f
23:
	movq	$0,96(%rsp)
	movq	$0,(%rsp)
	movq	$0,112(%rsp)
	movq	$0,88(%rsp)
	movq	$0,56(%rsp)
	xorl	%r14d,%r14d
	xorl	%r12d,%r12d
	jmp	28f
13:
	movl	12(%rsp),%ecx
	movq	64(%rsp),%r11
	jmp	9b
2:
	xorl	%ecx,%ecx
	jmp	2f
3:
	movl	$1,%ecx
	jmp	2f
4:
	movl	$2,%ecx
	jmp	2f
19:
	rolb	$4,%r9b
	addb	%dl,%r9b
	decb	%r9b
	movl	$1,%eax
24:
	movq	48(%rsp),%r13
	movq	120(%rsp),%rsi
	movb	%r9b,(%r10)
	testb	%dl,%dl
	je	3f
	movzbl	%dl,%edi
	cmpl	$1,%edi
	jne	4f
	movzbl	(%rsi),%ecx
	movb	%cl,(%r10,%rax)
	jmp	9f
5:
	movl	$3,%ecx
	jmp	2f
6:
	movl	$259,%ecx
	jmp	2f
4:
	cmpq	$2,%rdx
	ja	4f
	movzbl	(%rsi),%ecx
	movb	%cl,(%r10,%rax)
	movzbl	1(%rsi),%ecx
	movb	%cl,1(%r10,%rax)
	jmp	9f
7:
	movl	$515,%ecx
	jmp	2f
26:
	movl	$2,%r12d
	jmp	28f
30:
	movl	$3,%r12d
	jmp	28f
17:
	movl	$7,%ecx
	jmp	2f
25:
	xorl	%r12d,%r12d
	jmp	28f
4:
	cmpq	$3,%rdx
	jne	3f
	movzbl	(%rsi),%ecx
	movb	%cl,(%r10,%rax)
	movzbl	1(%rsi),%ecx
	movb	%cl,1(%r10,%rax)
	movzbl	2(%rsi),%ecx
	movb	%cl,2(%r10,%rax)
	jmp	9f
3:
	leaq	(%r10,%rax),%rdi
	movq	%rdi,%r9
	subq	%rsi,%r9
	cmpq	%rdx,%r9
	jae	3f
	cmpq	$4,%rdx
	jb	4f
	movq	24(%rsp),%rdi
	orq	%rax,%rdi
	addq	16(%rsp),%rdi
	leal	(,%r13,4),%r14d
	andl	$60,%r14d
	addq	%r14,%rdi
	subq	%rsi,%rdi
	addq	$16,%rdi
	cmpq	$32,%rdi
	jae	5f
4:
	xorl	%r11d,%r11d
4:
	movq	%r10,%r15
	movq	%rdx,%r14
	movq	%r11,%rdi
	andq	$3,%r14
	je	6f
	movq	24(%rsp),%rdi
	addq	%r11,%rdi
	addq	%rax,%rdi
	movl	%r13d,%r8d
	andl	$15,%r8d
	leaq	(%rdi,%r8,4),%rdi
	movq	16(%rsp),%r8
	addq	%rdi,%r8
	addq	$16,%r8
	xorl	%r9d,%r9d
	movq	%r11,%rdi
	.p2align	4
7:
	movzbl	(%rsi,%rdi),%r10d
	movb	%r10b,(%r8,%r9)
	incq	%rdi
	incq	%r9
	cmpq	%r9,%r14
	jne	7b
6:
	subq	%rdx,%r11
	cmpq	$-4,%r11
	movq	%r15,%r10
	ja	9f
	subq	%rdi,%rdx
	movq	128(%rsp),%rsi
	addq	%rdi,%rsi
	addq	%rsi,%rcx
	addq	$3,%rcx
	movq	24(%rsp),%rsi
	addq	%rdi,%rsi
	addq	%rax,%rsi
	andl	$15,%r13d
	leaq	(%rsi,%r13,4),%rax
	movq	16(%rsp),%rsi
	addq	%rsi,%rax
	addq	$19,%rax
	xorl	%edi,%edi
6:
	movzbl	-3(%rcx,%rdi),%esi
	movb	%sil,-3(%rax,%rdi)
	movzbl	-2(%rcx,%rdi),%esi
	movb	%sil,-2(%rax,%rdi)
	movzbl	-1(%rcx,%rdi),%esi
	movb	%sil,-1(%rax,%rdi)
	movzbl	(%rcx,%rdi),%esi
	movb	%sil,(%rax,%rdi)
	addq	$4,%rdi
	cmpq	%rdi,%rdx
	jne	6b
	jmp	9f
3:
	movq	%r10,%r15
	callq	memmove@PLT
	movq	%r15,%r10
9:
	subq	%rbx,%r12
	jbe	3f
	cmpq	$4,%r12
	ja	6f
	leaq	7f(%rip),%rax
	movslq	(%rax,%r12,4),%rcx
	addq	%rax,%rcx
	jmpq	*%rcx
11:
	movb	$0,(%r10,%rbx)
	movq	40(%rsp),%rbx
	jmp	13f
18:
	movl	$8,%ecx
	jmp	2f
8:
	movl	$771,%ecx
	jmp	2f
12:
	movl	$1027,%ecx
2:
	movl	%ecx,%eax
	shrl	$8,%eax
2:
	movzbl	%cl,%edi
	movzbl	%al,%esi
	addq	$184,%rsp
	.cfi_def_cfa_offset 56
	popq	%rbx
	.cfi_def_cfa_offset 48
	popq	%r12
	.cfi_def_cfa_offset 40
	popq	%r13
	.cfi_def_cfa_offset 32
	popq	%r14
	.cfi_def_cfa_offset 24
	popq	%r15
	.cfi_def_cfa_offset 16
	popq	%rbp
	.cfi_def_cfa_offset 8
	jmp	"rtp_b236e5ea_rtp_c::growing::put_status_of"
32:
	.cfi_def_cfa_offset 240
	cmpq	$32,%r14
	jae	8f
	xorl	%ecx,%ecx
	jmp	12f
27:
	movq	%r14,%rdx
	andq	$-32,%rdx
	movq	24(%rsp),%r10
	leaq	(%r10,%r14),%rdi
	movq	48(%rsp),%rcx
	andl	$15,%ecx
	shll	$2,%ecx
	leaq	(%r15,%rcx),%rsi
	movq	16(%rsp),%r9
	addq	%r9,%rsi
	addq	%rdi,%rsi
	movq	(%rsp),%rdi
	addq	%r10,%rdi
	addq	%rax,%rdi
	addq	%r14,%rdi
	addq	%r11,%rdi
	addq	%r9,%rcx
	addq	%rdi,%rcx
	movq	%rdx,%rdi
	negq	%rdi
	xorl	%r8d,%r8d
	.p2align	4
17:
	movups	-16(%rsi,%r8),%xmm0
	movups	(%rsi,%r8),%xmm1
	movups	%xmm1,(%rcx,%r8)
	movups	%xmm0,-16(%rcx,%r8)
	addq	$-32,%r8
	cmpq	%r8,%rdi
	jne	17b
	cmpq	%rdx,%r14
	je	21f
	testb	$24,%r14b
	je	17f
31:
	movq	%r14,%rsi
	andq	$-8,%rsi
	movl	%r14d,%ecx
	andl	$7,%ecx
	movq	24(%rsp),%rdi
	movq	%r14,%rbp
	leaq	(%rdi,%r14),%r8
	leaq	(%r8,%r15),%rdi
	movq	48(%rsp),%r9
	andl	$15,%r9d
	shll	$2,%r9d
	addq	%r9,%rdi
	subq	%rdx,%rdi
	movq	16(%rsp),%r14
	addq	%r14,%rdi
	addq	$8,%rdi
	addq	(%rsp),%r8
	addq	%rax,%r8
	addq	%r11,%r9
	addq	%r8,%r9
	subq	%rdx,%r9
	leaq	(%r9,%r14),%r8
	addq	$8,%r8
	subq	%rsi,%rdx
	xorl	%r9d,%r9d
	.p2align	4
18:
	movq	(%rdi,%r9),%r10
	movq	%r10,(%r8,%r9)
	addq	$-8,%r9
	cmpq	%r9,%rdx
	jne	18b
	movq	%rbp,%r14
	cmpq	%rsi,%rbp
	movq	120(%rsp),%rbp
	je	21f
22:
	leaq	-1(%rcx),%rdx
	movq	%rcx,%rsi
	andq	$3,%rsi
	je	18f
19:
	movq	%r14,%rbp
	movq	%rbx,104(%rsp)
	movq	24(%rsp),%rdi
	leaq	(%rdi,%rcx),%r8
	movq	(%rsp),%rdi
	addq	%r8,%rdi
	movq	%rax,%rbx
	addq	%rax,%rdi
	movq	48(%rsp),%r9
	andl	$15,%r9d
	shll	$2,%r9d
	addq	%r11,%rdi
	addq	%r9,%rdi
	movq	16(%rsp),%rax
	addq	%rax,%rdi
	addq	$15,%rdi
	movq	%r15,%r14
	addq	%r15,%r8
	addq	%r9,%r8
	addq	%rax,%r8
	addq	$15,%r8
	negq	%rsi
	andq	$-4,%rcx
	xorl	%r9d,%r9d
	.p2align	4
22:
	movzbl	(%r8,%r9),%r10d
	movb	%r10b,(%rdi,%r9)
	decq	%r9
	cmpq	%r9,%rsi
	jne	22b
	movq	%rbx,%rax
	movq	104(%rsp),%rbx
	movq	%r14,%r15
	movq	%rbp,%r14
	movq	120(%rsp),%rbp
18:
	cmpq	$3,%rdx
	jb	21f
	movq	%rcx,%rdx
	negq	%rdx
	movq	24(%rsp),%r9
	movq	(%rsp),%r10
	addq	%r9,%r10
	addq	%rax,%r10
	addq	%rcx,%r10
	addq	%r11,%r10
	movq	48(%rsp),%rdi
	andl	$15,%edi
	shll	$2,%edi
	addq	%rdi,%r10
	movq	16(%rsp),%r8
	leaq	(%r8,%r10),%rsi
	addq	$15,%rsi
	addq	%r9,%r15
	addq	%rcx,%r15
	addq	%rdi,%r15
	leaq	(%r8,%r15),%rcx
	addq	$15,%rcx
	xorl	%edi,%edi
	.p2align	4
22:
	movzbl	(%rcx,%rdi),%r8d
	movb	%r8b,(%rsi,%rdi)
	movzbl	-1(%rcx,%rdi),%r8d
	movb	%r8b,-1(%rsi,%rdi)
	movzbl	-2(%rcx,%rdi),%r8d
	movb	%r8b,-2(%rsi,%rdi)
	movzbl	-3(%rcx,%rdi),%r8d
	movb	%r8b,-3(%rsi,%rdi)
	addq	$-4,%rdi
	cmpq	%rdi,%rdx
	jne	22b
	jmp	21f
36:
	movq	%r15,%r12
28:
	movq	88(%rsp),%rax
	cmpb	$1,%al
	sete	%r13b
	cmpb	%bl,%r8b
	sete	%r15b
	jne	22f
	cmpb	$1,%al
	jne	22f
	cmpq	$1,56(%rsp)
	jne	22f
	movq	112(%rsp),%rax
	subq	(%rsp),%rax
	cmpq	%r9,%rax
	jne	22f
	movq	%r11,%r8
	movq	104(%rsp),%rdi
	addq	$4,%rdi
	testq	%r9,%r9
	movq	16(%rsp),%r11
	movq	24(%rsp),%r15
	movq	128(%rsp),%r12
	movq	48(%rsp),%r13
	movq	120(%rsp),%rsi
	movq	168(%rsp),%rbx
	je	23f
	cmpl	$1,%r9d
	jne	24f
	movzbl	(%rsi),%eax
	movq	(%rsp),%rcx
	movb	%al,(%rdi,%rcx)
	jmp	13f
22:
	movq	%r10,%rax
	subq	%r12,%rax
	movq	%rax,88(%rsp)
	cmpb	%r8b,%bl
	je	22f
	testq	%r14,%r14
	movq	144(%rsp),%r12
	je	14b
	movzbl	%bl,%esi
	movl	%r8d,%r15d
	movzbl	%cl,%r8d
	movl	152(%rsp),%edi
	movq	%r12,%rdx
	movq	88(%rsp),%rcx
	callq	"rtp_b236e5ea_rtp_ext::form_change::row_len"
	movq	80(%rsp),%r10
	movl	%r15d,%r8d
	movq	64(%rsp),%r9
	movb	$1,%r11b
	xorl	%r15d,%r15d
	movq	160(%rsp),%rsi
	cmpb	$1,%al
	je	16b
15:
	movzbl	%r8b,%edi
	movq	%r12,%rsi
	movq	%r10,%rdx
	callq	"rtp_b236e5ea_rtp_wire::packet::rewriting::has_long_id"
	movb	$6,%cl
	subb	%al,%cl
	xorl	%eax,%eax
	jmp	2b
22:
	movq	144(%rsp),%r12
	jmp	14b
24:
	cmpq	$2,%r9
	ja	14f
	movzbl	(%rsi),%eax
	movq	(%rsp),%rcx
	movb	%al,(%rdi,%rcx)
	movzbl	1(%rsi),%eax
	movb	%al,1(%rdi,%rcx)
	jmp	13f
15:
	movl	$0,(%r10,%rbx)
	movq	40(%rsp),%rbx
	jmp	13f
16:
	movb	$0,2(%r10,%rbx)
22:
	movw	$0,(%r10,%rbx)
	movq	40(%rsp),%rbx
	jmp	13f
6:
	movq	%rbx,%rax
	movq	%r12,%rbx
	addq	%rax,%r10
	decq	%r12
	movq	%r10,%rdi
	xorl	%esi,%esi
	movq	%r12,%rdx
	movq	%r10,%r15
	jmp	6f
14:
	cmpq	$3,%r9
	jne	23f
	movzbl	(%rsi),%eax
	movq	(%rsp),%rcx
	movb	%al,(%rdi,%rcx)
	movzbl	1(%rsi),%eax
	movb	%al,1(%rdi,%rcx)
	movzbl	2(%rsi),%eax
	movb	%al,2(%rdi,%rcx)
	jmp	13f
23:
	addq	(%rsp),%rdi
	movq	%rdi,%rax
	subq	%rsi,%rax
	cmpq	%r9,%rax
	jae	14f
	cmpq	$4,%r9
	jb	23f
	movq	(%rsp),%rax
	leaq	(%r15,%rax),%rcx
	leaq	(%rcx,%r11),%rax
	leal	(,%r13,4),%edx
	andl	$60,%edx
	addq	%rdx,%rax
	subq	%rsi,%rax
	addq	$16,%rax
	cmpq	$32,%rax
	jae	24f
23:
	xorl	%eax,%eax
23:
	movq	%r9,%rdx
	movq	%rax,%rcx
	andq	$3,%rdx
	je	25f
	movq	(%rsp),%rcx
	addq	%r15,%rcx
	addq	%rax,%rcx
	movl	%r13d,%edi
	andl	$15,%edi
	leaq	(%rcx,%rdi,4),%rcx
	leaq	(%r11,%rcx),%rbp
	addq	$16,%rbp
	xorl	%edi,%edi
	movq	%rax,%rcx
26:
	movzbl	(%rsi,%rcx),%r10d
	movb	%r10b,(%rbp,%rdi)
	incq	%rcx
	incq	%rdi
	cmpq	%rdi,%rdx
	jne	26b
25:
	subq	%r9,%rax
	cmpq	$-4,%rax
	ja	13f
	subq	%rcx,%r9
	addq	%rcx,%r12
	leaq	(%r8,%r12),%rax
	addq	$3,%rax
	addq	(%rsp),%r15
	addq	%rcx,%r15
	andl	$15,%r13d
	leaq	(%r15,%r13,4),%rcx
	addq	%r11,%rcx
	addq	$19,%rcx
	xorl	%edx,%edx
25:
	movzbl	-3(%rax,%rdx),%esi
	movb	%sil,-3(%rcx,%rdx)
	movzbl	-2(%rax,%rdx),%esi
	movb	%sil,-2(%rcx,%rdx)
	movzbl	-1(%rax,%rdx),%esi
	movb	%sil,-1(%rcx,%rdx)
	movzbl	(%rax,%rdx),%esi
	movb	%sil,(%rcx,%rdx)
	addq	$4,%rdx
	cmpq	%rdx,%r9
	jne	25b
	jmp	13f
14:
	movq	%r9,%rdx
	callq	memmove@PLT
	jmp	13f
10:
	xorl	%eax,%eax
	cmpb	$15,%cl
	movl	$0,%ecx
	adcb	$5,%cl
	jmp	2b
8:
	movq	%r14,%rcx
	andq	$-32,%rcx
	movq	24(%rsp),%r9
	movq	(%rsp),%rdx
	addq	%r9,%rdx
	addq	%r11,%rdx
	movq	48(%rsp),%rsi
	andl	$15,%esi
	shll	$2,%esi
	addq	%rsi,%rdx
	addq	%rax,%rdx
	movq	16(%rsp),%r8
	addq	%r8,%rdx
	addq	$32,%rdx
	leaq	(%r9,%r15),%rdi
	addq	%rsi,%rdi
	leaq	(%r8,%rdi),%rsi
	addq	$32,%rsi
	xorl	%edi,%edi
2:
	movups	-16(%rsi,%rdi),%xmm0
	movups	(%rsi,%rdi),%xmm1
	movups	%xmm0,-16(%rdx,%rdi)
	movups	%xmm1,(%rdx,%rdi)
	addq	$32,%rdi
	cmpq	%rdi,%rcx
	jne	2b
	cmpq	%rcx,%r14
	je	21f
	testb	$28,%r14b
	je	20b
12:
	movq	%rcx,%rdi
	movq	%r14,%rcx
	andq	$-4,%rcx
	movq	%rcx,%rdx
	subq	%rdi,%rdx
	movq	24(%rsp),%r9
	movq	(%rsp),%rsi
	addq	%r9,%rsi
	movq	%rax,%r10
	addq	%rax,%rsi
	addq	%rdi,%rsi
	addq	%r11,%rsi
	movq	48(%rsp),%r8
	andl	$15,%r8d
	shll	$2,%r8d
	addq	%r8,%rsi
	movq	16(%rsp),%rax
	addq	%rax,%rsi
	addq	$16,%rsi
	addq	%r15,%r9
	addq	%rdi,%r9
	addq	%r8,%r9
	leaq	(%rax,%r9),%rdi
	addq	$16,%rdi
	xorl	%r8d,%r8d
	.p2align	4
2:
	movl	(%rdi,%r8),%r9d
	movl	%r9d,(%rsi,%r8)
	addq	$4,%r8
	cmpq	%r8,%rdx
	jne	2b
	cmpq	%rcx,%r14
	movq	%r10,%rax
	jne	20b
21:
	cmpb	$0,36(%rsp)
	je	2f
	movl	12(%rsp),%ecx
	movq	136(%rsp),%r8
	movb	%cl,(%r8,%rax)
	movb	%r11b,1(%r8,%rax)
	movl	$2,%ecx
	movq	48(%rsp),%r13
	leaq	(%rcx,%rax),%rdi
	testb	%r11b,%r11b
	jne	8f
	jmp	10f
2:
	movl	12(%rsp),%ecx
	rolb	$4,%cl
	addb	%r11b,%cl
	decb	%cl
	movq	136(%rsp),%r8
	movb	%cl,(%r8,%rax)
	movl	$1,%ecx
	movq	48(%rsp),%r13
	leaq	(%rcx,%rax),%rdi
	testb	%r11b,%r11b
	je	10f
8:
	movzbl	%r11b,%edx
	cmpl	$1,%edx
	jne	2f
	movzbl	(%rbp),%eax
	movb	%al,(%r8,%rdi)
	jmp	8f
2:
	cmpq	$2,%r11
	ja	2f
	movzbl	(%rbp),%eax
	movb	%al,(%r8,%rdi)
	movzbl	1(%rbp),%eax
	movb	%al,1(%r8,%rdi)
	jmp	8f
2:
	cmpq	$3,%r11
	jne	10f
	movzbl	(%rbp),%eax
	movb	%al,(%r8,%rdi)
	movzbl	1(%rbp),%eax
	movb	%al,1(%r8,%rdi)
	movzbl	2(%rbp),%eax
	movb	%al,2(%r8,%rdi)
	jmp	8f
10:
	addq	%r8,%rdi
	movq	%rdi,%rdx
	subq	%rbp,%rdx
	cmpq	%r11,%rdx
	jae	2f
	cmpq	$4,%r11
	movq	%rax,96(%rsp)
	jae	10f
	xorl	%edx,%edx
	jmp	12f
2:
	movq	%rbp,%rsi
	movq	%r11,%rdx
	movq	%r8,%r15
	callq	memmove@PLT
	movq	%r15,%r8
	jmp	8f
10:
	movq	%r8,%r15
	movq	24(%rsp),%rdx
	leaq	(%rdx,%rax),%rsi
	leaq	(%rsi,%rcx),%rdi
	movq	16(%rsp),%rdx
	addq	%rdi,%rdx
	leal	(,%r13,4),%r8d
	andl	$60,%r8d
	addq	%r8,%rdx
	subq	%rbp,%rdx
	addq	$16,%rdx
	cmpq	$32,%rdx
	jae	2f
	xorl	%edx,%edx
	movq	%r15,%r8
	jmp	12f
2:
	cmpq	$32,%r11
	jae	2f
	xorl	%edx,%edx
	jmp	10f
5:
	cmpq	$32,%rdx
	jae	5f
	xorl	%r11d,%r11d
	jmp	14f
2:
	movl	%r11d,%edx
	andl	$224,%edx
	movq	128(%rsp),%r9
	movq	72(%rsp),%rax
	addq	%rax,%r9
	addq	$16,%r9
	addq	%r8,%rdi
	movq	16(%rsp),%rax
	addq	%rax,%rdi
	addq	$32,%rdi
	xorl	%r8d,%r8d
2:
	movups	-16(%r9,%r8),%xmm0
	movups	(%r9,%r8),%xmm1
	movups	%xmm0,-16(%rdi,%r8)
	movups	%xmm1,(%rdi,%r8)
	addq	$32,%r8
	cmpq	%r8,%rdx
	jne	2b
	cmpq	%rdx,%r11
	movq	%r15,%r8
	je	8f
	testb	$28,%r11b
	je	12f
10:
	movq	%rdx,%r9
	movl	%r11d,%edx
	andl	$252,%edx
	movq	%rdx,%rdi
	subq	%r9,%rdi
	movq	128(%rsp),%r8
	addq	%r9,%r8
	addq	72(%rsp),%r8
	addq	%r9,%rsi
	addq	%rcx,%rsi
	movl	%r13d,%r9d
	andl	$15,%r9d
	leaq	(%rsi,%r9,4),%rsi
	movq	16(%rsp),%rax
	addq	%rax,%rsi
	addq	$16,%rsi
	xorl	%r9d,%r9d
2:
	movl	(%r8,%r9),%r10d
	movl	%r10d,(%rsi,%r9)
	addq	$4,%r9
	cmpq	%r9,%rdi
	jne	2b
	cmpq	%rdx,%r11
	movq	%r15,%r8
	je	8f
12:
	movq	%r8,%rax
	movq	%r11,%rsi
	movq	%rdx,%rdi
	andq	$3,%rsi
	je	2f
	movq	24(%rsp),%rdi
	addq	%rdx,%rdi
	addq	96(%rsp),%rdi
	addq	%rcx,%rdi
	movl	%r13d,%r8d
	andl	$15,%r8d
	leaq	(%rdi,%r8,4),%rdi
	movq	16(%rsp),%r8
	addq	%rdi,%r8
	addq	$16,%r8
	xorl	%r9d,%r9d
	movq	%rdx,%rdi
	.p2align	4
10:
	movzbl	(%rbp,%rdi),%r10d
	movb	%r10b,(%r8,%r9)
	incq	%rdi
	incq	%r9
	cmpq	%r9,%rsi
	jne	10b
2:
	subq	%r11,%rdx
	cmpq	$-4,%rdx
	movq	%rax,%r8
	ja	8f
	subq	%rdi,%r11
	movq	128(%rsp),%rdx
	addq	%rdi,%rdx
	movq	72(%rsp),%rax
	addq	%rdx,%rax
	addq	$3,%rax
	movq	24(%rsp),%rdx
	addq	96(%rsp),%rdx
	addq	%rdi,%rdx
	addq	%rcx,%rdx
	andl	$15,%r13d
	leaq	(%rdx,%r13,4),%rcx
	movq	16(%rsp),%rdx
	addq	%rdx,%rcx
	addq	$19,%rcx
	xorl	%edx,%edx
	.p2align	4
2:
	movzbl	-3(%rax,%rdx),%esi
	movb	%sil,-3(%rcx,%rdx)
	movzbl	-2(%rax,%rdx),%esi
	movb	%sil,-2(%rcx,%rdx)
	movzbl	-1(%rax,%rdx),%esi
	movb	%sil,-1(%rcx,%rdx)
	movzbl	(%rax,%rdx),%esi
	movb	%sil,(%rcx,%rdx)
	addq	$4,%rdx
	cmpq	%rdx,%r11
	jne	2b
8:
	addq	%rbx,%r14
	subq	%r14,%r12
	jbe	3f
	cmpq	$4,%r12
	ja	2f
	leaq	8f(%rip),%rax
	movslq	(%rax,%r12,4),%rcx
	addq	%rax,%rcx
	jmpq	*%rcx
3:
	movq	40(%rsp),%rbx
13:
	movq	176(%rsp),%rax
	movq	%rbx,(%rax)
	xorl	%eax,%eax
1:
	addq	$184,%rsp
	.cfi_def_cfa_offset 56
	popq	%rbx
	.cfi_def_cfa_offset 48
	popq	%r12
	.cfi_def_cfa_offset 40
	popq	%r13
	.cfi_def_cfa_offset 32
	popq	%r14
	.cfi_def_cfa_offset 24
	popq	%r15
	.cfi_def_cfa_offset 16
	popq	%rbp
	.cfi_def_cfa_offset 8
	retq
1:
	.cfi_def_cfa_offset 240
	movl	$0,(%r8,%r14)
	movq	40(%rsp),%rbx
	jmp	13b
10:
	movb	$0,2(%r8,%r14)
12:
	movw	$0,(%r8,%r14)
	movq	40(%rsp),%rbx
	jmp	13b
20:
	movb	$0,(%r8,%r14)
	movq	40(%rsp),%rbx
	jmp	13b
2:
	movq	%r12,%rbx
	addq	%r14,%r8
	decq	%r12
	movq	%r8,%rdi
	xorl	%esi,%esi
	movq	%r12,%rdx
	movq	%r8,%r15
6:
	callq	memset@PLT
	movb	$0,-1(%rbx,%r15)
	movq	40(%rsp),%rbx
	jmp	13b
29:
	movq	72(%rsp),%r11
	movq	64(%rsp),%r9
	movl	12(%rsp),%ecx
	movl	%ebp,%r8d
	movq	%rbx,%rbp
	movq	80(%rsp),%r10
	movl	%r15d,%ebx
	jmp	28b
5:
	movq	%r10,%r9
	movl	%edx,%r11d
	andl	$224,%r11d
	movq	128(%rsp),%rdi
	addq	%rcx,%rdi
	addq	$16,%rdi
	movq	24(%rsp),%r8
	addq	%rax,%r8
	addq	%r8,%r14
	movq	16(%rsp),%r8
	leaq	(%r8,%r14),%r10
	addq	$32,%r10
	xorl	%r8d,%r8d
2:
	movups	-16(%rdi,%r8),%xmm0
	movups	(%rdi,%r8),%xmm1
	movups	%xmm0,-16(%r10,%r8)
	movups	%xmm1,(%r10,%r8)
	addq	$32,%r8
	cmpq	%r8,%r11
	jne	2b
	cmpq	%r11,%rdx
	movq	%r9,%r10
	je	9b
	testb	$28,%dl
	je	4b
14:
	movq	%r10,%r15
	movq	%r11,%r8
	movl	%edx,%r11d
	andl	$252,%r11d
	movq	%r11,%r14
	subq	%r8,%r14
	movq	128(%rsp),%rdi
	addq	%r8,%rdi
	addq	%rcx,%rdi
	addq	24(%rsp),%r8
	addq	%rax,%r8
	movl	%r13d,%r9d
	andl	$15,%r9d
	leaq	(%r8,%r9,4),%r8
	movq	16(%rsp),%r9
	addq	%r9,%r8
	addq	$16,%r8
	xorl	%r9d,%r9d
2:
	movl	(%rdi,%r9),%r10d
	movl	%r10d,(%r8,%r9)
	addq	$4,%r9
	cmpq	%r9,%r14
	jne	2b
	cmpq	%r11,%rdx
	movq	%r15,%r10
	je	9b
	jmp	4b
24:
	cmpq	$32,%r9
	jae	2f
	xorl	%eax,%eax
	jmp	4f
17:
	movl	%r14d,%ecx
	andl	$31,%ecx
	leaq	-1(%rcx),%rdx
	movq	%rcx,%rsi
	andq	$3,%rsi
	jne	19b
	jmp	18b
34:
	movq	%r15,%r12
	movq	72(%rsp),%r11
	movq	64(%rsp),%r9
	movl	12(%rsp),%ecx
	movl	%ebx,%r8d
	movq	80(%rsp),%r10
	movl	36(%rsp),%ebx
	jmp	28b
2:
	movl	%r9d,%eax
	andl	$224,%eax
	leaq	(%r12,%r8),%r10
	addq	$16,%r10
	addq	%rcx,%rdx
	addq	%r11,%rdx
	addq	$32,%rdx
	xorl	%edi,%edi
2:
	movups	-16(%r10,%rdi),%xmm0
	movups	(%r10,%rdi),%xmm1
	movups	%xmm0,-16(%rdx,%rdi)
	movups	%xmm1,(%rdx,%rdi)
	addq	$32,%rdi
	cmpq	%rdi,%rax
	jne	2b
	cmpq	%rax,%r9
	je	13b
	testb	$28,%r9b
	je	23b
4:
	movq	%rax,%rdi
	movl	%r9d,%eax
	andl	$252,%eax
	movq	%rax,%rdx
	subq	%rdi,%rdx
	leaq	(%r12,%rdi),%rbp
	addq	%r8,%rbp
	addq	%rdi,%rcx
	movl	%r13d,%edi
	andl	$15,%edi
	leaq	(%rcx,%rdi,4),%rcx
	addq	%r11,%rcx
	addq	$16,%rcx
	xorl	%edi,%edi
2:
	movl	(%rbp,%rdi),%r10d
	movl	%r10d,(%rcx,%rdi)
	addq	$4,%rdi
	cmpq	%rdi,%rdx
	jne	2b
	cmpq	%rax,%r9
	je	13b
	jmp	23b
	.size	rtp_b236e5ea_rtp_proved_put_element,.-rtp_b236e5ea_rtp_proved_put_element
	.cfi_endproc
	.section	.rodata.rtp_proved_put_element,"a",@progbits
	.p2align	2,0x0
8:
	.long	3b-8b
	.long	20b-8b
	.long	12b-8b
	.long	10b-8b
	.long	1b-8b
7:
	.long	3b-7b
	.long	11b-7b
	.long	22b-7b
	.long	16b-7b
	.long	15b-7b

	.section	.text.rtpw_remove_block,"ax",@progbits
	.globl	rtp_b236e5ea_rtpw_remove_block
	.p2align	4
	.type	rtp_b236e5ea_rtpw_remove_block,@function
rtp_b236e5ea_rtpw_remove_block:
	.cfi_startproc
	pushq	%r15
	.cfi_def_cfa_offset 16
	pushq	%r14
	.cfi_def_cfa_offset 24
	pushq	%r12
	.cfi_def_cfa_offset 32
	pushq	%rbx
	.cfi_def_cfa_offset 40
	pushq	%rax
	.cfi_def_cfa_offset 48
	.cfi_offset %rbx,-40
	.cfi_offset %r12,-32
	.cfi_offset %r14,-24
	.cfi_offset %r15,-16
	movq	%rdx,%rbx
	xorl	%ecx,%ecx
	testq	%rdi,%rdi
	sete	%r8b
	movq	(%rdx),%rdx
	cmpq	%rdx,%rsi
	jb	1f
	movb	$3,%al
	cmpq	$12,%rdx
	jb	2f
	movb	%r8b,%cl
	shll	$12,%ecx
	addq	%rcx,%rdi
	movzbl	(%rdi),%ecx
	cmpb	$-65,%cl
	jg	3f
	movl	%ecx,%esi
	andl	$15,%esi
	leaq	12(,%rsi,4),%r14
	movq	%rdx,%r12
	subq	%r14,%r12
	jb	4f
	testb	$16,%cl
	jne	5f
	movq	%r14,%rsi
	jmp	6f
5:
	movb	$3,%al
	cmpq	$4,%r12
	jb	5f
	movzwl	2(%rdi,%r14),%ecx
	rolw	$8,%cx
	addq	$-4,%r12
	movzwl	%cx,%ecx
	shll	$2,%ecx
	cmpq	%rcx,%r12
	jb	7f
	leaq	(%r14,%rcx),%rsi
	addq	$4,%rsi
	movq	%rdx,%r12
	subq	%rsi,%r12
6:
	movq	%rdi,%r15
	movq	%r14,%rcx
	callq	"rtp_b236e5ea_rtp_wire::packet::resizing::move_bytes"
	andb	$-17,(%r15)
	addq	%r14,%r12
	movq	%r12,(%rbx)
	xorl	%eax,%eax
	addq	$8,%rsp
	.cfi_def_cfa_offset 40
	popq	%rbx
	.cfi_def_cfa_offset 32
	popq	%r12
	.cfi_def_cfa_offset 24
	popq	%r14
	.cfi_def_cfa_offset 16
	popq	%r15
	.cfi_def_cfa_offset 8
	retq
1:
	.cfi_def_cfa_offset 48
	xorl	%eax,%eax
2:
	xorl	%ecx,%ecx
	jmp	1f
3:
	movb	$1,%cl
	jmp	1f
4:
	movb	$2,%cl
	jmp	1f
5:
	movb	$3,%cl
	jmp	1f
7:
	movb	$4,%cl
1:
	movzbl	%al,%edi
	movzbl	%cl,%esi
	addq	$8,%rsp
	.cfi_def_cfa_offset 40
	popq	%rbx
	.cfi_def_cfa_offset 32
	popq	%r12
	.cfi_def_cfa_offset 24
	popq	%r14
	.cfi_def_cfa_offset 16
	popq	%r15
	.cfi_def_cfa_offset 8
	jmp	"rtp_b236e5ea_rtp_c::growing::put_status_of"
	.size	rtp_b236e5ea_rtpw_remove_block,.-rtp_b236e5ea_rtpw_remove_block
	.cfi_endproc

	.section	.text.rtpw_remove_element,"ax",@progbits
	.globl	rtp_b236e5ea_rtpw_remove_element
	.p2align	4
	.type	rtp_b236e5ea_rtpw_remove_element,@function
rtp_b236e5ea_rtpw_remove_element:
	.cfi_startproc
	xorl	%eax,%eax
	testq	%rdi,%rdi
	sete	%cl
	cmpq	$12,%rsi
	jb	1f
	movb	%cl,%al
	shll	$12,%eax
	addq	%rax,%rdi
	movzbl	(%rdi),%r9d
	cmpb	$-65,%r9b
	jg	2f
	leal	(,%r9,4),%r8d
	andl	$60,%r8d
	leaq	12(%r8),%rcx
	subq	%rcx,%rsi
	jb	3f
	movl	$11,%eax
	testb	$16,%r9b
	je	4f
	cmpq	$4,%rsi
	jb	5f
	movzwl	2(%rdi,%rcx),%r9d
	rolw	$8,%r9w
	addq	$-4,%rsi
	movzwl	%r9w,%r9d
	shll	$2,%r9d
	cmpq	%r9,%rsi
	jb	6f
	movzwl	(%rdi,%rcx),%r10d
	movl	%r10d,%esi
	andl	$61695,%esi
	cmpl	$57022,%r10d
	je	7f
	cmpw	$16,%si
	je	7f
4:
	retq
7:
	pushq	%rax
	.cfi_def_cfa_offset 16
	xorl	%eax,%eax
	cmpw	$16,%si
	sete	%al
	movzbl	%r8b,%r8d
	leaq	(%rdi,%r8),%rsi
	addq	$16,%rsi
	addq	$16,%r8
	subq	%r8,%rcx
	leaq	(%rcx,%r9),%r8
	addq	$4,%r8
	movzbl	%dl,%ecx
	movl	%eax,%edi
	movq	%r8,%rdx
	callq	"rtp_b236e5ea_rtp_ext::place::remove_element"
	xorl	%ecx,%ecx
	testb	%al,%al
	movl	$11,%eax
	cmovnel	%ecx,%eax
	addq	$8,%rsp
	.cfi_def_cfa_offset 8
	retq
1:
	xorl	%eax,%eax
	movzbl	%al,%edi
	jmp	"rtp_b236e5ea_rtp_c::status::refusal_status"
2:
	movb	$1,%al
	movzbl	%al,%edi
	jmp	"rtp_b236e5ea_rtp_c::status::refusal_status"
3:
	movb	$2,%al
	movzbl	%al,%edi
	jmp	"rtp_b236e5ea_rtp_c::status::refusal_status"
5:
	movb	$3,%al
	movzbl	%al,%edi
	jmp	"rtp_b236e5ea_rtp_c::status::refusal_status"
6:
	movb	$4,%al
	movzbl	%al,%edi
	jmp	"rtp_b236e5ea_rtp_c::status::refusal_status"
	.size	rtp_b236e5ea_rtpw_remove_element,.-rtp_b236e5ea_rtpw_remove_element
	.cfi_endproc

	.section	.text.rtpw_remove_padding,"ax",@progbits
	.globl	rtp_b236e5ea_rtpw_remove_padding
	.p2align	4
	.type	rtp_b236e5ea_rtpw_remove_padding,@function
rtp_b236e5ea_rtpw_remove_padding:
	.cfi_startproc
	xorl	%eax,%eax
	testq	%rdi,%rdi
	sete	%cl
	cmpq	$12,%rsi
	jb	1f
	movb	%cl,%al
	shll	$12,%eax
	addq	%rax,%rdi
	movzbl	(%rdi),%ecx
	cmpb	$-65,%cl
	jg	2f
	movl	%ecx,%eax
	andl	$15,%eax
	leaq	12(,%rax,4),%r8
	movq	%rsi,%r9
	subq	%r8,%r9
	jb	3f
	testb	$16,%cl
	je	4f
	cmpq	$4,%r9
	jb	5f
	movzwl	2(%rdi,%r8),%eax
	rolw	$8,%ax
	addq	$-4,%r9
	movzwl	%ax,%eax
	shll	$2,%eax
	cmpq	%rax,%r9
	jb	6f
	addq	%rax,%r8
	addq	$4,%r8
	movq	%rsi,%r9
	subq	%r8,%r9
4:
	testb	$32,%cl
	je	4f
	cmpq	%r8,%rsi
	jne	7f
	xorl	%r9d,%r9d
	jmp	4f
7:
	movzbl	-1(%rdi,%rsi),%esi
	movl	$9,%eax
	subq	%rsi,%r9
	jb	7f
4:
	addq	%r8,%r9
	andb	$-97,%cl
	movb	%cl,(%rdi)
	movq	%r9,(%rdx)
	xorl	%eax,%eax
7:
	retq
1:
	xorl	%eax,%eax
	movzbl	%al,%edi
	jmp	"rtp_b236e5ea_rtp_c::status::refusal_status"
2:
	movb	$1,%al
	movzbl	%al,%edi
	jmp	"rtp_b236e5ea_rtp_c::status::refusal_status"
3:
	movb	$2,%al
	movzbl	%al,%edi
	jmp	"rtp_b236e5ea_rtp_c::status::refusal_status"
5:
	movb	$3,%al
	movzbl	%al,%edi
	jmp	"rtp_b236e5ea_rtp_c::status::refusal_status"
6:
	movb	$4,%al
	movzbl	%al,%edi
	jmp	"rtp_b236e5ea_rtp_c::status::refusal_status"
	.size	rtp_b236e5ea_rtpw_remove_padding,.-rtp_b236e5ea_rtpw_remove_padding
	.cfi_endproc

	.section	.text.rtpw_renumber,"ax",@progbits
	.globl	rtp_b236e5ea_rtpw_renumber
	.p2align	4
	.type	rtp_b236e5ea_rtpw_renumber,@function
rtp_b236e5ea_rtpw_renumber:
	.cfi_startproc
	subq	$296,%rsp
	.cfi_def_cfa_offset 304
	movq	%rdx,%rax
	xorl	%ecx,%ecx
	testq	%rdi,%rdi
	sete	%dl
	movq	$0,32(%rsp)
	cmpq	$12,%rsi
	jb	1f
	movb	%dl,%cl
	shll	$12,%ecx
	addq	%rcx,%rdi
	movzbl	(%rdi),%r8d
	cmpb	$-65,%r8b
	jg	2f
	movl	%r8d,%ecx
	andl	$15,%ecx
	leaq	12(,%rcx,4),%rcx
	movq	%rsi,%rdx
	subq	%rcx,%rdx
	jb	3f
	testb	$16,%r8b
	jne	4f
	xorl	%r8d,%r8d
	xorl	%edx,%edx
	jmp	5f
4:
	cmpq	$4,%rdx
	jb	4f
	movzwl	2(%rdi,%rcx),%r8d
	rolw	$8,%r8w
	addq	$-4,%rdx
	movzwl	%r8w,%r9d
	shll	$2,%r9d
	cmpq	%r9,%rdx
	jb	6f
	movzwl	(%rdi,%rcx),%r8d
	movl	%r8d,%r10d
	andl	$61695,%r10d
	xorl	%edx,%edx
	cmpw	$16,%r10w
	sete	%dl
	cmpl	$57022,%r8d
	movl	$1,%r8d
	cmovnel	%edx,%r8d
	addq	%r9,%rcx
	addq	$4,%rcx
5:
	movq	%rdi,8(%rsp)
	movq	%rsi,16(%rsp)
	movq	%rcx,24(%rsp)
	movb	%r8b,32(%rsp)
	movb	%dl,33(%rsp)
	incq	%rax
	movb	$0,40(%rsp)
	leaq	41(%rsp),%rdi
	movl	$255,%edx
	movq	%rax,%rsi
	callq	memcpy@PLT
	leaq	8(%rsp),%rdi
	leaq	40(%rsp),%rsi
	callq	"rtp_b236e5ea_rtp_wire::packet::rtp_packet_mut::RtpPacketMut::renumber"
	xorb	$1,%al
	movzbl	%al,%eax
	shll	$4,%eax
	addq	$296,%rsp
	.cfi_def_cfa_offset 8
	retq
1:
	.cfi_def_cfa_offset 304
	xorl	%eax,%eax
	movzbl	%al,%edi
	addq	$296,%rsp
	.cfi_def_cfa_offset 8
	jmp	"rtp_b236e5ea_rtp_c::status::refusal_status"
2:
	.cfi_def_cfa_offset 304
	movb	$1,%al
	movzbl	%al,%edi
	addq	$296,%rsp
	.cfi_def_cfa_offset 8
	jmp	"rtp_b236e5ea_rtp_c::status::refusal_status"
3:
	.cfi_def_cfa_offset 304
	movb	$2,%al
	movzbl	%al,%edi
	addq	$296,%rsp
	.cfi_def_cfa_offset 8
	jmp	"rtp_b236e5ea_rtp_c::status::refusal_status"
4:
	.cfi_def_cfa_offset 304
	movb	$3,%al
	movzbl	%al,%edi
	addq	$296,%rsp
	.cfi_def_cfa_offset 8
	jmp	"rtp_b236e5ea_rtp_c::status::refusal_status"
6:
	.cfi_def_cfa_offset 304
	movb	$4,%al
	movzbl	%al,%edi
	addq	$296,%rsp
	.cfi_def_cfa_offset 8
	jmp	"rtp_b236e5ea_rtp_c::status::refusal_status"
	.size	rtp_b236e5ea_rtpw_renumber,.-rtp_b236e5ea_rtpw_renumber
	.cfi_endproc

	.section	.text.rtpw_set_csrc,"ax",@progbits
	.globl	rtp_b236e5ea_rtpw_set_csrc
	.p2align	4
	.type	rtp_b236e5ea_rtpw_set_csrc,@function
rtp_b236e5ea_rtpw_set_csrc:
	.cfi_startproc
	xorl	%eax,%eax
	testq	%rdi,%rdi
	sete	%r8b
	cmpq	$12,%rsi
	jb	1f
	movb	%r8b,%al
	shll	$12,%eax
	addq	%rax,%rdi
	movzbl	(%rdi),%r8d
	cmpb	$-65,%r8b
	jg	2f
	movl	%r8d,%eax
	andl	$15,%eax
	leaq	12(,%rax,4),%rax
	subq	%rax,%rsi
	jb	3f
	testb	$16,%r8b
	je	4f
	cmpq	$4,%rsi
	jb	5f
	movzwl	2(%rdi,%rax),%eax
	rolw	$8,%ax
	addq	$-4,%rsi
	movzwl	%ax,%eax
	shll	$2,%eax
	cmpq	%rax,%rsi
	jb	6f
4:
	andl	$15,%r8d
	movl	$11,%eax
	cmpq	%r8,%rdx
	jae	4f
	bswapl	%ecx
	movl	%ecx,12(%rdi,%rdx,4)
	xorl	%eax,%eax
4:
	retq
1:
	xorl	%eax,%eax
	movzbl	%al,%edi
	jmp	"rtp_b236e5ea_rtp_c::status::refusal_status"
2:
	movb	$1,%al
	movzbl	%al,%edi
	jmp	"rtp_b236e5ea_rtp_c::status::refusal_status"
3:
	movb	$2,%al
	movzbl	%al,%edi
	jmp	"rtp_b236e5ea_rtp_c::status::refusal_status"
5:
	movb	$3,%al
	movzbl	%al,%edi
	jmp	"rtp_b236e5ea_rtp_c::status::refusal_status"
6:
	movb	$4,%al
	movzbl	%al,%edi
	jmp	"rtp_b236e5ea_rtp_c::status::refusal_status"
	.size	rtp_b236e5ea_rtpw_set_csrc,.-rtp_b236e5ea_rtpw_set_csrc
	.cfi_endproc

	.section	.text.rtp_proved_set_element,"ax",@progbits
	.p2align	4
	.type	rtp_b236e5ea_rtp_proved_set_element,@function
rtp_b236e5ea_rtp_proved_set_element:
	.cfi_startproc
	pushq	%rbp
	.cfi_def_cfa_offset 16
	pushq	%r15
	.cfi_def_cfa_offset 24
	pushq	%r14
	.cfi_def_cfa_offset 32
	pushq	%r13
	.cfi_def_cfa_offset 40
	pushq	%r12
	.cfi_def_cfa_offset 48
	pushq	%rbx
	.cfi_def_cfa_offset 56
	subq	$56,%rsp
	.cfi_def_cfa_offset 112
	.cfi_offset %rbx,-56
	.cfi_offset %r12,-48
	.cfi_offset %r13,-40
	.cfi_offset %r14,-32
	.cfi_offset %r15,-24
	.cfi_offset %rbp,-16
	xorl	%r14d,%r14d
	testq	%rdi,%rdi
	sete	%al
	xorl	%r13d,%r13d
	testq	%rcx,%rcx
	sete	%r15b
	cmpq	$12,%rsi
	jb	1f
	movb	%al,%r14b
	shll	$12,%r14d
	leaq	(%rdi,%r14),%r9
	movzbl	(%r9),%r12d
	cmpb	$-65,%r12b
	jg	2f
	leal	(,%r12,4),%r11d
	andl	$60,%r11d
	leaq	12(%r11),%r10
	subq	%r10,%rsi
	jb	3f
	movl	$11,%eax
	testb	$16,%r12b
	je	4f
	cmpq	$4,%rsi
	jb	5f
	movzwl	2(%r9,%r10),%ebx
	rolw	$8,%bx
	addq	$-4,%rsi
	movzwl	%bx,%ebx
	shll	$2,%ebx
	cmpq	%rbx,%rsi
	jb	6f
	movzwl	(%r9,%r10),%ebp
	movl	%ebp,%esi
	andl	$61695,%esi
	cmpl	$57022,%ebp
	je	7f
	cmpw	$16,%si
	jne	4f
7:
	movb	%r15b,15(%rsp)
	movzbl	%r11b,%r11d
	leaq	16(%r11),%r15
	subq	%r15,%r10
	addq	%r11,%r9
	addq	$16,%r9
	leaq	(%r10,%rbx),%rbp
	addq	$4,%rbp
	cmpw	$16,%si
	jne	7f
	testq	%rbp,%rbp
	movzbl	15(%rsp),%r15d
	je	4f
	movq	$0,40(%rsp)
	movq	%rbp,%rsi
	movq	%r9,48(%rsp)
	movq	$0,32(%rsp)
	movq	$0,16(%rsp)
	movq	%rcx,24(%rsp)
8:
	cmpb	$0,(%r9)
	je	9f
	movq	%r9,%r10
	cmpq	$2,%rsi
	jae	10f
	jmp	11f
9:
	cmpq	$2,%rsi
	je	9f
	cmpq	$1,%rsi
	je	11f
	cmpq	$3,%rsi
	ja	12f
	cmpb	$0,1(%r9)
	jne	12f
	cmpb	$0,2(%r9)
	jne	12f
	jmp	11f
9:
	cmpb	$0,1(%r9)
	je	11f
12:
	movq	%rbp,%rbx
	movl	%edx,%ebp
	movq	%rdi,%r15
	movq	%r8,%r13
	decq	%rsi
	incq	%r9
	movq	%r9,%rdi
	callq	"rtp_b236e5ea_rtp_ext::elements::skip_zeros"
	testq	%rdx,%rdx
	je	9f
	movq	%rax,%r10
	movq	%rdx,%rsi
	movq	%r13,%r8
	movq	%r15,%rdi
	movq	24(%rsp),%rcx
	movl	$11,%eax
	movl	%ebp,%edx
	xorl	%r13d,%r13d
	movzbl	15(%rsp),%r15d
	movq	%rbx,%rbp
	cmpq	$2,%rsi
	jb	11f
10:
	movzbl	1(%r10),%r11d
	leaq	2(%r11),%r9
	subq	%r9,%rsi
	jb	11f
	addq	%r10,%r9
	cmpb	%dl,(%r10)
	je	10f
	testq	%rsi,%rsi
	jne	8b
	jmp	11f
10:
	movq	%rbp,%rbx
	subq	%rsi,%rbx
	movq	%rbx,%r10
	movq	%rbx,32(%rsp)
	subq	%r11,%r10
	movq	%r10,16(%rsp)
	movb	$1,%r10b
	movq	%r10,40(%rsp)
	testq	%rsi,%rsi
	jne	8b
	jmp	11f
7:
	testq	%rbp,%rbp
	movzbl	15(%rsp),%r15d
	je	4f
	movq	$0,40(%rsp)
	movq	%rbp,%rsi
	movq	%r9,48(%rsp)
	movq	$0,32(%rsp)
	movq	$0,16(%rsp)
	movq	%rcx,24(%rsp)
7:
	movzbl	(%r9),%r10d
	testb	%r10b,%r10b
	jne	8f
	cmpq	$2,%rsi
	je	10f
	cmpq	$1,%rsi
	je	11f
	cmpq	$3,%rsi
	ja	12f
	cmpb	$0,1(%r9)
	jne	12f
	cmpb	$0,2(%r9)
	jne	12f
	jmp	11f
10:
	cmpb	$0,1(%r9)
	je	11f
12:
	movq	%rbp,%rbx
	movl	%edx,%ebp
	movq	%rdi,%r13
	movq	%r8,%r15
	decq	%rsi
	incq	%r9
	movq	%r9,%rdi
	callq	"rtp_b236e5ea_rtp_ext::elements::skip_zeros"
	testq	%rdx,%rdx
	je	10f
	movq	%rax,%r9
	movq	%rdx,%rsi
	movzbl	(%rax),%r10d
	movq	%r15,%r8
	movq	%r13,%rdi
	movq	24(%rsp),%rcx
	movl	$11,%eax
	movl	%ebp,%edx
	xorl	%r13d,%r13d
	movzbl	15(%rsp),%r15d
	movq	%rbx,%rbp
8:
	cmpb	$-17,%r10b
	ja	11f
	movl	%r10d,%r11d
	andb	$15,%r11b
	addb	$2,%r11b
	movzbl	%r11b,%r11d
	subq	%r11,%rsi
	jb	11f
	addq	%r11,%r9
	shrb	$4,%r10b
	cmpb	%dl,%r10b
	je	8f
	testq	%rsi,%rsi
	jne	7b
	jmp	11f
8:
	movq	%rbp,%rbx
	subq	%rsi,%rbx
	negq	%r11
	movq	%rbx,32(%rsp)
	leaq	(%rbx,%r11),%r10
	incq	%r10
	movq	%r10,16(%rsp)
	movb	$1,%r10b
	movq	%r10,40(%rsp)
	testq	%rsi,%rsi
	jne	7b
	jmp	11f
1:
	xorl	%eax,%eax
	jmp	1f
2:
	movb	$1,%al
	jmp	1f
3:
	movb	$2,%al
	jmp	1f
5:
	movb	$3,%al
	jmp	1f
6:
	movb	$4,%al
1:
	movzbl	%al,%edi
	addq	$56,%rsp
	.cfi_def_cfa_offset 56
	popq	%rbx
	.cfi_def_cfa_offset 48
	popq	%r12
	.cfi_def_cfa_offset 40
	popq	%r13
	.cfi_def_cfa_offset 32
	popq	%r14
	.cfi_def_cfa_offset 24
	popq	%r15
	.cfi_def_cfa_offset 16
	popq	%rbp
	.cfi_def_cfa_offset 8
	jmp	"rtp_b236e5ea_rtp_c::status::refusal_status"
9:
	.cfi_def_cfa_offset 112
	movq	%r13,%r8
	movq	%r15,%rdi
	jmp	1f
10:
	movq	%r15,%r8
	movq	%r13,%rdi
1:
	movq	24(%rsp),%rcx
	movl	$11,%eax
	xorl	%r13d,%r13d
	movzbl	15(%rsp),%r15d
11:
	cmpb	$1,40(%rsp)
	jne	4f
	movq	16(%rsp),%rdx
	movq	32(%rsp),%rsi
	subq	%rdx,%rsi
	cmpq	%r8,%rsi
	jne	4f
	movb	%r15b,%r13b
	shll	$12,%r13d
	leaq	(%rcx,%r13),%rsi
	testq	%r8,%r8
	movq	48(%rsp),%r9
	je	1f
	cmpq	$1,%r8
	jne	2f
	movzbl	(%rsi),%eax
	movb	%al,(%r9,%rdx)
	jmp	3f
2:
	cmpq	$2,%r8
	ja	2f
	movzbl	(%rsi),%eax
	movb	%al,(%r9,%rdx)
	movzbl	1(%rsi),%eax
	movb	%al,1(%r9,%rdx)
	jmp	3f
2:
	cmpq	$3,%r8
	jne	1f
	movzbl	(%rsi),%eax
	movb	%al,(%r9,%rdx)
	movzbl	1(%rsi),%eax
	movb	%al,1(%r9,%rdx)
	movzbl	2(%rsi),%eax
	movb	%al,2(%r9,%rdx)
	jmp	3f
1:
	addq	%rdx,%r9
	movq	%r9,%rax
	subq	%rsi,%rax
	cmpq	%r8,%rax
	jae	1f
	cmpq	$4,%r8
	jb	2f
	addq	%r14,%rdx
	leaq	(%rdx,%rdi),%rax
	leal	(,%r12,4),%r9d
	andl	$60,%r9d
	addq	%r9,%rax
	subq	%rsi,%rax
	addq	$16,%rax
	cmpq	$32,%rax
	jae	5f
2:
	xorl	%eax,%eax
2:
	movq	%r8,%r9
	movq	%rax,%rdx
	andq	$3,%r9
	je	6f
	movq	16(%rsp),%rdx
	addq	%r14,%rdx
	addq	%rax,%rdx
	movl	%r12d,%r10d
	andl	$15,%r10d
	leaq	(%rdx,%r10,4),%rdx
	leaq	(%rdi,%rdx),%r10
	addq	$16,%r10
	xorl	%r11d,%r11d
	movq	%rax,%rdx
	.p2align	4
7:
	movzbl	(%rsi,%rdx),%ebx
	movb	%bl,(%r10,%r11)
	incq	%rdx
	incq	%r11
	cmpq	%r11,%r9
	jne	7b
6:
	subq	%r8,%rax
	cmpq	$-4,%rax
	ja	3f
	subq	%rdx,%r8
	addq	%rdx,%r13
	addq	%r13,%rcx
	addq	$3,%rcx
	addq	16(%rsp),%r14
	addq	%rdx,%r14
	andl	$15,%r12d
	leaq	(%r14,%r12,4),%rax
	leaq	(%rdi,%rax),%rdx
	addq	$19,%rdx
	xorl	%eax,%eax
	xorl	%esi,%esi
6:
	movzbl	-3(%rcx,%rsi),%edi
	movb	%dil,-3(%rdx,%rsi)
	movzbl	-2(%rcx,%rsi),%edi
	movb	%dil,-2(%rdx,%rsi)
	movzbl	-1(%rcx,%rsi),%edi
	movb	%dil,-1(%rdx,%rsi)
	movzbl	(%rcx,%rsi),%edi
	movb	%dil,(%rdx,%rsi)
	addq	$4,%rsi
	cmpq	%rsi,%r8
	jne	6b
	jmp	4f
1:
	movq	%r9,%rdi
	movq	%r8,%rdx
	callq	memmove@PLT
3:
	xorl	%eax,%eax
4:
	addq	$56,%rsp
	.cfi_def_cfa_offset 56
	popq	%rbx
	.cfi_def_cfa_offset 48
	popq	%r12
	.cfi_def_cfa_offset 40
	popq	%r13
	.cfi_def_cfa_offset 32
	popq	%r14
	.cfi_def_cfa_offset 24
	popq	%r15
	.cfi_def_cfa_offset 16
	popq	%rbp
	.cfi_def_cfa_offset 8
	retq
5:
	.cfi_def_cfa_offset 112
	cmpq	$32,%r8
	jae	1f
	xorl	%eax,%eax
	jmp	4f
1:
	movq	%r8,%rax
	andq	$-32,%rax
	leaq	(%rcx,%r13),%r10
	addq	$16,%r10
	addq	%rdx,%r9
	addq	%rdi,%r9
	addq	$32,%r9
	xorl	%r11d,%r11d
1:
	movups	-16(%r10,%r11),%xmm0
	movups	(%r10,%r11),%xmm1
	movups	%xmm0,-16(%r9,%r11)
	movups	%xmm1,(%r9,%r11)
	addq	$32,%r11
	cmpq	%r11,%rax
	jne	1b
	cmpq	%rax,%r8
	je	3b
	testb	$28,%r8b
	je	2b
4:
	movq	%rax,%r11
	movq	%r8,%rax
	andq	$-4,%rax
	movq	%rax,%r9
	subq	%r11,%r9
	leaq	(%r11,%r13),%r10
	addq	%rcx,%r10
	addq	%r11,%rdx
	movl	%r12d,%r11d
	andl	$15,%r11d
	leaq	(%rdx,%r11,4),%rdx
	addq	%rdi,%rdx
	addq	$16,%rdx
	xorl	%r11d,%r11d
1:
	movl	(%r10,%r11),%ebx
	movl	%ebx,(%rdx,%r11)
	addq	$4,%r11
	cmpq	%r11,%r9
	jne	1b
	cmpq	%rax,%r8
	jne	2b
	jmp	3b
	.size	rtp_b236e5ea_rtp_proved_set_element,.-rtp_b236e5ea_rtp_proved_set_element
	.cfi_endproc

	.section	.text.rtpw_set_padding,"ax",@progbits
	.globl	rtp_b236e5ea_rtpw_set_padding
	.p2align	4
	.type	rtp_b236e5ea_rtpw_set_padding,@function
rtp_b236e5ea_rtpw_set_padding:
	.cfi_startproc
	xorl	%eax,%eax
	testq	%rdi,%rdi
	sete	%cl
	cmpq	$12,%rsi
	jb	1f
	movb	%cl,%al
	shll	$12,%eax
	addq	%rax,%rdi
	movzbl	(%rdi),%eax
	cmpb	$-65,%al
	jg	2f
	movl	%eax,%ecx
	andl	$15,%ecx
	leaq	12(,%rcx,4),%rcx
	subq	%rcx,%rsi
	jb	3f
	testb	$16,%al
	je	4f
	cmpq	$4,%rsi
	jb	5f
	movzwl	2(%rdi,%rcx),%ecx
	rolw	$8,%cx
	addq	$-4,%rsi
	movzwl	%cx,%ecx
	shll	$2,%ecx
	cmpq	%rcx,%rsi
	jb	6f
4:
	andb	$1,%dl
	shlb	$5,%dl
	andb	$31,%al
	orb	%dl,%al
	orb	$-128,%al
	movb	%al,(%rdi)
	xorl	%eax,%eax
	retq
1:
	xorl	%eax,%eax
	movzbl	%al,%edi
	jmp	"rtp_b236e5ea_rtp_c::status::refusal_status"
2:
	movb	$1,%al
	movzbl	%al,%edi
	jmp	"rtp_b236e5ea_rtp_c::status::refusal_status"
3:
	movb	$2,%al
	movzbl	%al,%edi
	jmp	"rtp_b236e5ea_rtp_c::status::refusal_status"
5:
	movb	$3,%al
	movzbl	%al,%edi
	jmp	"rtp_b236e5ea_rtp_c::status::refusal_status"
6:
	movb	$4,%al
	movzbl	%al,%edi
	jmp	"rtp_b236e5ea_rtp_c::status::refusal_status"
	.size	rtp_b236e5ea_rtpw_set_padding,.-rtp_b236e5ea_rtpw_set_padding
	.cfi_endproc

	.section	.rodata.cst16,"aM",@progbits,16
	.p2align	4,0x0
.Lrtp_b236e5ea_CPI144_0:
	.short	14
	.short	14
	.short	14
	.short	14
	.short	14
	.short	14
	.short	14
	.short	14
	.section	.text.rtpw_to_retransmission,"ax",@progbits
	.globl	rtp_b236e5ea_rtpw_to_retransmission
	.p2align	4
	.type	rtp_b236e5ea_rtpw_to_retransmission,@function
rtp_b236e5ea_rtpw_to_retransmission:
	.cfi_startproc
	pushq	%rbp
	.cfi_def_cfa_offset 16
	pushq	%r15
	.cfi_def_cfa_offset 24
	pushq	%r14
	.cfi_def_cfa_offset 32
	pushq	%r13
	.cfi_def_cfa_offset 40
	pushq	%r12
	.cfi_def_cfa_offset 48
	pushq	%rbx
	.cfi_def_cfa_offset 56
	subq	$312,%rsp
	.cfi_def_cfa_offset 368
	.cfi_offset %rbx,-56
	.cfi_offset %r12,-48
	.cfi_offset %r13,-40
	.cfi_offset %r14,-32
	.cfi_offset %r15,-24
	.cfi_offset %rbp,-16
	xorl	%r12d,%r12d
	testq	%rdi,%rdi
	sete	%r13b
	movl	$9,%ebp
	testb	%r8b,%r8b
	js	1f
	movq	%rsi,%r15
	movq	%rdi,%r14
	movl	%r8d,4(%rsp)
	movl	%r9d,8(%rsp)
	movl	%ecx,12(%rsp)
	movq	368(%rsp),%rsi
	movq	%rdx,16(%rsp)
	movq	(%rdx),%rbx
	incq	%rsi
	movb	$0,56(%rsp)
	leaq	57(%rsp),%rdi
	movl	$255,%edx
	callq	memcpy@PLT
	cmpq	%rbx,%r15
	jb	1f
	movl	$1,%ebp
	cmpq	$12,%rbx
	jb	1f
	movb	%r13b,%r12b
	shll	$12,%r12d
	addq	%r12,%r14
	movzbl	(%r14),%ecx
	movl	$2,%ebp
	cmpb	$-65,%cl
	jg	1f
	leal	(,%rcx,4),%eax
	andl	$60,%eax
	leaq	12(%rax),%r12
	movl	$3,%ebp
	movq	%rbx,%r13
	subq	%r12,%r13
	jb	1f
	testb	$16,%cl
	jne	2f
	xorl	%esi,%esi
	xorl	%edx,%edx
	testb	$32,%cl
	je	3f
4:
	cmpq	%r12,%rbx
	jne	5f
	xorl	%r13d,%r13d
	jmp	3f
2:
	movl	$4,%ebp
	cmpq	$4,%r13
	jb	1f
	addq	$-4,%r13
	movzwl	2(%r14,%r12),%edx
	rolw	$8,%dx
	movzwl	%dx,%edi
	shll	$2,%edi
	movl	$6,%ebp
	cmpq	%rdi,%r13
	jb	1f
	movzwl	(%r14,%r12),%esi
	movl	%esi,%r8d
	andl	$61695,%r8d
	xorl	%edx,%edx
	cmpw	$16,%r8w
	sete	%dl
	cmpl	$57022,%esi
	movl	$1,%esi
	cmovnel	%edx,%esi
	addq	%rdi,%r12
	addq	$4,%r12
	movq	%rbx,%r13
	subq	%r12,%r13
	testb	$32,%cl
	jne	4b
	jmp	3f
5:
	movzbl	-1(%r14,%rbx),%ecx
	movl	$9,%ebp
	subq	%rcx,%r13
	jb	1f
3:
	leaq	(%r12,%r13),%rbx
	subq	%rbx,%r15
	cmpq	$1,%r15
	ja	2f
	testb	%sil,%sil
	je	3f
	testb	%dl,%dl
	je	4f
3:
	movl	$8,%ebp
	jmp	1f
2:
	movzwl	2(%r14),%ebp
	movq	$0,48(%rsp)
	movq	%r14,24(%rsp)
	movq	%r12,32(%rsp)
	movq	%r12,40(%rsp)
	movb	%sil,48(%rsp)
	movb	%dl,49(%rsp)
	leaq	24(%rsp),%rdi
	leaq	56(%rsp),%rsi
	callq	"rtp_b236e5ea_rtp_wire::packet::rtp_packet_mut::RtpPacketMut::renumber"
	testb	%al,%al
	je	2f
	movzbl	(%r14),%eax
	movzbl	1(%r14),%ecx
	andb	$31,%al
	orb	$-128,%al
	movb	%al,(%r14)
	andb	$-128,%cl
	orb	4(%rsp),%cl
	movb	%cl,1(%r14)
	movl	8(%rsp),%eax
	rolw	$8,%ax
	movw	%ax,2(%r14)
	movl	12(%rsp),%eax
	bswapl	%eax
	movl	%eax,8(%r14)
	testq	%r13,%r13
	je	5f
	leaq	(%r14,%r12),%rsi
	leaq	(%r14,%r12),%rdi
	addq	$2,%rdi
	movq	%r13,%rdx
	callq	memmove@PLT
5:
	movw	%bp,(%r14,%r12)
	addq	$2,%rbx
	movq	16(%rsp),%rax
	movq	%rbx,(%rax)
	xorl	%ebp,%ebp
	jmp	1f
2:
	movl	$16,%ebp
1:
	movl	%ebp,%eax
	addq	$312,%rsp
	.cfi_def_cfa_offset 56
	popq	%rbx
	.cfi_def_cfa_offset 48
	popq	%r12
	.cfi_def_cfa_offset 40
	popq	%r13
	.cfi_def_cfa_offset 32
	popq	%r14
	.cfi_def_cfa_offset 24
	popq	%r15
	.cfi_def_cfa_offset 16
	popq	%rbp
	.cfi_def_cfa_offset 8
	retq
4:
	.cfi_def_cfa_offset 368
	pmovzxbw	56(%rsp),%xmm0
	pcmpgtw	.Lrtp_b236e5ea_CPI144_0(%rip),%xmm0
	pmovmskb	%xmm0,%ecx
	testl	%ecx,%ecx
	jne	2f
	pmovzxbw	63(%rsp),%xmm0
	pcmpgtw	.Lrtp_b236e5ea_CPI144_0(%rip),%xmm0
	pmovmskb	%xmm0,%ecx
	testl	%ecx,%ecx
	je	3b
2:
	movzbl	%al,%ecx
	leaq	(%r14,%rcx),%rax
	addq	$16,%rax
	addq	$16,%rcx
	subq	%rcx,%r12
2:
	testq	%r12,%r12
	je	3b
	movzbl	(%rax),%ecx
	testb	%cl,%cl
	jne	4f
	cmpq	$2,%r12
	je	5f
	cmpq	$1,%r12
	je	3b
	cmpq	$3,%r12
	ja	6f
	cmpb	$0,1(%rax)
	jne	6f
	cmpb	$0,2(%rax)
	jne	6f
	jmp	3b
5:
	cmpb	$0,1(%rax)
	je	3b
6:
	decq	%r12
	incq	%rax
	movq	%rax,%rdi
	movq	%r12,%rsi
	callq	"rtp_b236e5ea_rtp_ext::elements::skip_zeros"
	testq	%rdx,%rdx
	je	3b
	movq	%rdx,%r12
	movzbl	(%rax),%ecx
4:
	cmpb	$-17,%cl
	ja	3b
	movl	%ecx,%edx
	andb	$15,%dl
	addb	$2,%dl
	movzbl	%dl,%edx
	subq	%rdx,%r12
	jb	3b
	movzbl	%cl,%ecx
	shrl	$4,%ecx
	addq	%rdx,%rax
	movl	$16,%ebp
	cmpb	$15,56(%rsp,%rcx)
	jb	2b
	jmp	1b
	.size	rtp_b236e5ea_rtpw_to_retransmission,.-rtp_b236e5ea_rtpw_to_retransmission
	.cfi_endproc

	.section	.text.rtpw_set_fields,"ax",@progbits
	.globl	rtp_b236e5ea_rtpw_set_fields
	.p2align	4
	.type	rtp_b236e5ea_rtpw_set_fields,@function
rtp_b236e5ea_rtpw_set_fields:
	.cfi_startproc
	pushq	%rbp
	.cfi_def_cfa_offset 16
	pushq	%r15
	.cfi_def_cfa_offset 24
	pushq	%r14
	.cfi_def_cfa_offset 32
	pushq	%r12
	.cfi_def_cfa_offset 40
	pushq	%rbx
	.cfi_def_cfa_offset 48
	.cfi_offset %rbx,-48
	.cfi_offset %r12,-40
	.cfi_offset %r14,-32
	.cfi_offset %r15,-24
	.cfi_offset %rbp,-16
	xorl	%r9d,%r9d
	testq	%rdi,%rdi
	sete	%r10b
	movzbl	10(%rdx),%ecx
	movzbl	15(%rdx),%r8d
	testb	%r8b,%r8b
	setne	%r11b
	testb	%cl,%cl
	sets	%bl
	movl	$9,%eax
	testb	%bl,%r11b
	jne	1f
	cmpq	$12,%rsi
	jb	2f
	movb	%r10b,%r9b
	shll	$12,%r9d
	addq	%r9,%rdi
	movzbl	(%rdi),%r15d
	cmpb	$-65,%r15b
	jg	3f
	movl	%r15d,%eax
	andl	$15,%eax
	leaq	12(,%rax,4),%r12
	subq	%r12,%rsi
	jb	4f
	movzbl	16(%rdx),%r14d
	movzbl	11(%rdx),%ebp
	movzbl	14(%rdx),%ebx
	movzwl	8(%rdx),%r11d
	movzbl	12(%rdx),%r10d
	movl	(%rdx),%eax
	movl	4(%rdx),%r9d
	movzbl	13(%rdx),%edx
	testb	$16,%r15b
	je	5f
	cmpq	$4,%rsi
	jb	6f
	movzwl	2(%rdi,%r12),%r15d
	rolw	$8,%r15w
	addq	$-4,%rsi
	movzwl	%r15w,%r15d
	shll	$2,%r15d
	cmpq	%r15,%rsi
	jb	7f
5:
	testb	%r14b,%r14b
	je	5f
	testb	%bpl,%bpl
	setne	%sil
	shlb	$7,%sil
	movzbl	1(%rdi),%ebp
	andb	$127,%bpl
	orb	%sil,%bpl
	movb	%bpl,1(%rdi)
5:
	testb	%r8b,%r8b
	je	5f
	movzbl	1(%rdi),%esi
	andb	$-128,%sil
	addb	%cl,%sil
	movb	%sil,1(%rdi)
5:
	testb	%bl,%bl
	je	5f
	rolw	$8,%r11w
	movw	%r11w,2(%rdi)
5:
	testb	%r10b,%r10b
	je	5f
	bswapl	%eax
	movl	%eax,4(%rdi)
5:
	xorl	%eax,%eax
	testb	%dl,%dl
	je	1f
	bswapl	%r9d
	movl	%r9d,8(%rdi)
1:
	popq	%rbx
	.cfi_def_cfa_offset 40
	popq	%r12
	.cfi_def_cfa_offset 32
	popq	%r14
	.cfi_def_cfa_offset 24
	popq	%r15
	.cfi_def_cfa_offset 16
	popq	%rbp
	.cfi_def_cfa_offset 8
	retq
2:
	.cfi_def_cfa_offset 48
	xorl	%eax,%eax
	jmp	1f
3:
	movb	$1,%al
	jmp	1f
4:
	movb	$2,%al
	jmp	1f
6:
	movb	$3,%al
	jmp	1f
7:
	movb	$4,%al
1:
	movzbl	%al,%edi
	popq	%rbx
	.cfi_def_cfa_offset 40
	popq	%r12
	.cfi_def_cfa_offset 32
	popq	%r14
	.cfi_def_cfa_offset 24
	popq	%r15
	.cfi_def_cfa_offset 16
	popq	%rbp
	.cfi_def_cfa_offset 8
	jmp	"rtp_b236e5ea_rtp_c::status::refusal_status"
	.size	rtp_b236e5ea_rtpw_set_fields,.-rtp_b236e5ea_rtpw_set_fields
	.cfi_endproc

	.section	.text.rtpw_set_marker,"ax",@progbits
	.globl	rtp_b236e5ea_rtpw_set_marker
	.p2align	4
	.type	rtp_b236e5ea_rtpw_set_marker,@function
rtp_b236e5ea_rtpw_set_marker:
	.cfi_startproc
	xorl	%eax,%eax
	testq	%rdi,%rdi
	sete	%cl
	cmpq	$12,%rsi
	jb	1f
	movb	%cl,%al
	shll	$12,%eax
	addq	%rax,%rdi
	movzbl	(%rdi),%eax
	cmpb	$-65,%al
	jg	2f
	movl	%eax,%ecx
	andl	$15,%ecx
	leaq	12(,%rcx,4),%rcx
	subq	%rcx,%rsi
	jb	3f
	testb	$16,%al
	je	4f
	cmpq	$4,%rsi
	jb	5f
	movzwl	2(%rdi,%rcx),%eax
	rolw	$8,%ax
	addq	$-4,%rsi
	movzwl	%ax,%eax
	shll	$2,%eax
	cmpq	%rax,%rsi
	jb	6f
4:
	shlb	$7,%dl
	movzbl	1(%rdi),%eax
	andb	$127,%al
	orb	%dl,%al
	movb	%al,1(%rdi)
	xorl	%eax,%eax
	retq
1:
	xorl	%eax,%eax
	movzbl	%al,%edi
	jmp	"rtp_b236e5ea_rtp_c::status::refusal_status"
2:
	movb	$1,%al
	movzbl	%al,%edi
	jmp	"rtp_b236e5ea_rtp_c::status::refusal_status"
3:
	movb	$2,%al
	movzbl	%al,%edi
	jmp	"rtp_b236e5ea_rtp_c::status::refusal_status"
5:
	movb	$3,%al
	movzbl	%al,%edi
	jmp	"rtp_b236e5ea_rtp_c::status::refusal_status"
6:
	movb	$4,%al
	movzbl	%al,%edi
	jmp	"rtp_b236e5ea_rtp_c::status::refusal_status"
	.size	rtp_b236e5ea_rtpw_set_marker,.-rtp_b236e5ea_rtpw_set_marker
	.cfi_endproc

	.section	.text.rtpw_set_payload_type,"ax",@progbits
	.globl	rtp_b236e5ea_rtpw_set_payload_type
	.p2align	4
	.type	rtp_b236e5ea_rtpw_set_payload_type,@function
rtp_b236e5ea_rtpw_set_payload_type:
	.cfi_startproc
	xorl	%eax,%eax
	testq	%rdi,%rdi
	sete	%cl
	testb	%dl,%dl
	js	1f
	cmpq	$12,%rsi
	jb	2f
	movb	%cl,%al
	shll	$12,%eax
	addq	%rax,%rdi
	movzbl	(%rdi),%eax
	cmpb	$-65,%al
	jg	3f
	movl	%eax,%ecx
	andl	$15,%ecx
	leaq	12(,%rcx,4),%rcx
	subq	%rcx,%rsi
	jb	4f
	testb	$16,%al
	je	5f
	cmpq	$4,%rsi
	jb	6f
	movzwl	2(%rdi,%rcx),%eax
	rolw	$8,%ax
	addq	$-4,%rsi
	movzwl	%ax,%eax
	shll	$2,%eax
	cmpq	%rax,%rsi
	jb	7f
5:
	movzbl	1(%rdi),%eax
	andb	$-128,%al
	orb	%dl,%al
	movb	%al,1(%rdi)
	xorl	%eax,%eax
	retq
1:
	movl	$9,%eax
	retq
2:
	xorl	%eax,%eax
	movzbl	%al,%edi
	jmp	"rtp_b236e5ea_rtp_c::status::refusal_status"
3:
	movb	$1,%al
	movzbl	%al,%edi
	jmp	"rtp_b236e5ea_rtp_c::status::refusal_status"
4:
	movb	$2,%al
	movzbl	%al,%edi
	jmp	"rtp_b236e5ea_rtp_c::status::refusal_status"
6:
	movb	$3,%al
	movzbl	%al,%edi
	jmp	"rtp_b236e5ea_rtp_c::status::refusal_status"
7:
	movb	$4,%al
	movzbl	%al,%edi
	jmp	"rtp_b236e5ea_rtp_c::status::refusal_status"
	.size	rtp_b236e5ea_rtpw_set_payload_type,.-rtp_b236e5ea_rtpw_set_payload_type
	.cfi_endproc

	.section	.text.rtpw_set_sequence_number,"ax",@progbits
	.globl	rtp_b236e5ea_rtpw_set_sequence_number
	.p2align	4
	.type	rtp_b236e5ea_rtpw_set_sequence_number,@function
rtp_b236e5ea_rtpw_set_sequence_number:
	.cfi_startproc
	xorl	%eax,%eax
	testq	%rdi,%rdi
	sete	%cl
	cmpq	$12,%rsi
	jb	1f
	movb	%cl,%al
	shll	$12,%eax
	addq	%rax,%rdi
	movzbl	(%rdi),%eax
	cmpb	$-65,%al
	jg	2f
	movl	%eax,%ecx
	andl	$15,%ecx
	leaq	12(,%rcx,4),%rcx
	subq	%rcx,%rsi
	jb	3f
	testb	$16,%al
	je	4f
	cmpq	$4,%rsi
	jb	5f
	movzwl	2(%rdi,%rcx),%eax
	rolw	$8,%ax
	addq	$-4,%rsi
	movzwl	%ax,%eax
	shll	$2,%eax
	cmpq	%rax,%rsi
	jb	6f
4:
	rolw	$8,%dx
	movw	%dx,2(%rdi)
	xorl	%eax,%eax
	retq
1:
	xorl	%eax,%eax
	movzbl	%al,%edi
	jmp	"rtp_b236e5ea_rtp_c::status::refusal_status"
2:
	movb	$1,%al
	movzbl	%al,%edi
	jmp	"rtp_b236e5ea_rtp_c::status::refusal_status"
3:
	movb	$2,%al
	movzbl	%al,%edi
	jmp	"rtp_b236e5ea_rtp_c::status::refusal_status"
5:
	movb	$3,%al
	movzbl	%al,%edi
	jmp	"rtp_b236e5ea_rtp_c::status::refusal_status"
6:
	movb	$4,%al
	movzbl	%al,%edi
	jmp	"rtp_b236e5ea_rtp_c::status::refusal_status"
	.size	rtp_b236e5ea_rtpw_set_sequence_number,.-rtp_b236e5ea_rtpw_set_sequence_number
	.cfi_endproc

	.section	.text.rtpw_set_ssrc,"ax",@progbits
	.globl	rtp_b236e5ea_rtpw_set_ssrc
	.p2align	4
	.type	rtp_b236e5ea_rtpw_set_ssrc,@function
rtp_b236e5ea_rtpw_set_ssrc:
	.cfi_startproc
	xorl	%eax,%eax
	testq	%rdi,%rdi
	sete	%cl
	cmpq	$12,%rsi
	jb	1f
	movb	%cl,%al
	shll	$12,%eax
	addq	%rax,%rdi
	movzbl	(%rdi),%eax
	cmpb	$-65,%al
	jg	2f
	movl	%eax,%ecx
	andl	$15,%ecx
	leaq	12(,%rcx,4),%rcx
	subq	%rcx,%rsi
	jb	3f
	testb	$16,%al
	je	4f
	cmpq	$4,%rsi
	jb	5f
	movzwl	2(%rdi,%rcx),%eax
	rolw	$8,%ax
	addq	$-4,%rsi
	movzwl	%ax,%eax
	shll	$2,%eax
	cmpq	%rax,%rsi
	jb	6f
4:
	bswapl	%edx
	movl	%edx,8(%rdi)
	xorl	%eax,%eax
	retq
1:
	xorl	%eax,%eax
	movzbl	%al,%edi
	jmp	"rtp_b236e5ea_rtp_c::status::refusal_status"
2:
	movb	$1,%al
	movzbl	%al,%edi
	jmp	"rtp_b236e5ea_rtp_c::status::refusal_status"
3:
	movb	$2,%al
	movzbl	%al,%edi
	jmp	"rtp_b236e5ea_rtp_c::status::refusal_status"
5:
	movb	$3,%al
	movzbl	%al,%edi
	jmp	"rtp_b236e5ea_rtp_c::status::refusal_status"
6:
	movb	$4,%al
	movzbl	%al,%edi
	jmp	"rtp_b236e5ea_rtp_c::status::refusal_status"
	.size	rtp_b236e5ea_rtpw_set_ssrc,.-rtp_b236e5ea_rtpw_set_ssrc
	.cfi_endproc

	.section	.text.rtpw_set_timestamp,"ax",@progbits
	.globl	rtp_b236e5ea_rtpw_set_timestamp
	.p2align	4
	.type	rtp_b236e5ea_rtpw_set_timestamp,@function
rtp_b236e5ea_rtpw_set_timestamp:
	.cfi_startproc
	xorl	%eax,%eax
	testq	%rdi,%rdi
	sete	%cl
	cmpq	$12,%rsi
	jb	1f
	movb	%cl,%al
	shll	$12,%eax
	addq	%rax,%rdi
	movzbl	(%rdi),%eax
	cmpb	$-65,%al
	jg	2f
	movl	%eax,%ecx
	andl	$15,%ecx
	leaq	12(,%rcx,4),%rcx
	subq	%rcx,%rsi
	jb	3f
	testb	$16,%al
	je	4f
	cmpq	$4,%rsi
	jb	5f
	movzwl	2(%rdi,%rcx),%eax
	rolw	$8,%ax
	addq	$-4,%rsi
	movzwl	%ax,%eax
	shll	$2,%eax
	cmpq	%rax,%rsi
	jb	6f
4:
	bswapl	%edx
	movl	%edx,4(%rdi)
	xorl	%eax,%eax
	retq
1:
	xorl	%eax,%eax
	movzbl	%al,%edi
	jmp	"rtp_b236e5ea_rtp_c::status::refusal_status"
2:
	movb	$1,%al
	movzbl	%al,%edi
	jmp	"rtp_b236e5ea_rtp_c::status::refusal_status"
3:
	movb	$2,%al
	movzbl	%al,%edi
	jmp	"rtp_b236e5ea_rtp_c::status::refusal_status"
5:
	movb	$3,%al
	movzbl	%al,%edi
	jmp	"rtp_b236e5ea_rtp_c::status::refusal_status"
6:
	movb	$4,%al
	movzbl	%al,%edi
	jmp	"rtp_b236e5ea_rtp_c::status::refusal_status"
	.size	rtp_b236e5ea_rtpw_set_timestamp,.-rtp_b236e5ea_rtpw_set_timestamp
	.cfi_endproc

	.section	.text.rtpw_receiver_record,"ax",@progbits
	.globl	rtp_b236e5ea_rtpw_receiver_record
	.p2align	4
	.type	rtp_b236e5ea_rtpw_receiver_record,@function
rtp_b236e5ea_rtpw_receiver_record:
	.cfi_startproc
	movzbl	24(%rdi),%eax
	testb	%al,%al
	je	1f
	movq	16(%rdi),%rdx
	movq	(%rdi),%r10
	movq	8(%rdi),%r8
	orq	$1,%r8
	movq	%r10,%rcx
	subq	%rsi,%rcx
	jae	2f
	movq	%rsi,%rcx
	subq	%r10,%rcx
	cmpq	$1,%rcx
	jne	3f
	leaq	1(,%r8,2),%r9
	shldq	$1,%r8,%rdx
	jmp	4f
1:
	movq	%rsi,(%rdi)
	movq	$1,8(%rdi)
	movq	$0,16(%rdi)
	jmp	1f
2:
	cmpq	$127,%rcx
	jbe	2f
	movq	%r10,%rsi
	movq	%r8,%r9
	jmp	4f
3:
	cmpq	$127,%rcx
	ja	3f
	shldq	%cl,%r8,%rdx
	shlq	%cl,%r8
	xorl	%r9d,%r9d
	testb	$64,%cl
	cmovneq	%r8,%rdx
	cmoveq	%r8,%r9
	orq	$1,%r9
	jmp	4f
2:
	pushq	%rbx
	.cfi_def_cfa_offset 16
	.cfi_offset %rbx,-16
	movl	$1,%r9d
	xorl	%esi,%esi
	shldq	%cl,%r9,%rsi
	shlq	%cl,%r9
	xorl	%r11d,%r11d
	testb	$64,%cl
	cmovneq	%r9,%rsi
	cmovneq	%r11,%r9
	movq	%rsi,%rcx
	andq	%rdx,%rcx
	movq	%r9,%rbx
	andq	%r8,%rbx
	orq	%rcx,%rbx
	cmovneq	%r11,%rsi
	cmovneq	%r11,%r9
	orq	%rsi,%rdx
	orq	%r8,%r9
	movq	%r10,%rsi
	popq	%rbx
	.cfi_def_cfa_offset 8
	.cfi_restore %rbx
	jmp	4f
3:
	movl	$1,%r9d
	xorl	%edx,%edx
4:
	movq	%rsi,(%rdi)
	movq	%r9,8(%rdi)
	movq	%rdx,16(%rdi)
	cmpb	$1,%al
	je	2f
1:
	movb	$1,24(%rdi)
2:
	retq
	.size	rtp_b236e5ea_rtpw_receiver_record,.-rtp_b236e5ea_rtpw_receiver_record
	.cfi_endproc

	.section	.text.rtpw_receiver_start,"ax",@progbits
	.globl	rtp_b236e5ea_rtpw_receiver_start
	.p2align	4
	.type	rtp_b236e5ea_rtpw_receiver_start,@function
rtp_b236e5ea_rtpw_receiver_start:
	.cfi_startproc
	movq	%rsi,%rax
	shrq	$48,%rax
	movl	$9,%eax
	jne	1f
	shlq	$16,%rsi
	movq	%rsi,(%rdi)
	xorps	%xmm0,%xmm0
	movups	%xmm0,8(%rdi)
	movb	$0,24(%rdi)
	xorl	%eax,%eax
1:
	retq
	.size	rtp_b236e5ea_rtpw_receiver_start,.-rtp_b236e5ea_rtpw_receiver_start
	.cfi_endproc

	.section	.rodata.cst16,"aM",@progbits,16
	.p2align	4,0x0
.Lrtp_b236e5ea_CPI153_0:
	.byte	0
	.byte	8
	.zero	1
	.zero	1
	.zero	1
	.zero	1
	.zero	1
	.zero	1
	.zero	1
	.zero	1
	.zero	1
	.zero	1
	.zero	1
	.zero	1
	.zero	1
	.zero	1
.Lrtp_b236e5ea_CPI153_1:
	.byte	0
	.byte	8
	.byte	0
	.byte	0
	.byte	0
	.byte	0
	.byte	0
	.byte	0
	.byte	0
	.byte	0
	.byte	0
	.byte	0
	.byte	0
	.byte	0
	.byte	0
	.byte	0
	.section	.text.rtpw_make_from_group,"ax",@progbits
	.globl	rtp_b236e5ea_rtpw_make_from_group
	.p2align	4
	.type	rtp_b236e5ea_rtpw_make_from_group,@function
rtp_b236e5ea_rtpw_make_from_group:
	.cfi_startproc
	pushq	%rbp
	.cfi_def_cfa_offset 16
	pushq	%r15
	.cfi_def_cfa_offset 24
	pushq	%r14
	.cfi_def_cfa_offset 32
	pushq	%r13
	.cfi_def_cfa_offset 40
	pushq	%r12
	.cfi_def_cfa_offset 48
	pushq	%rbx
	.cfi_def_cfa_offset 56
	subq	$424,%rsp
	.cfi_def_cfa_offset 480
	.cfi_offset %rbx,-56
	.cfi_offset %r12,-48
	.cfi_offset %r13,-40
	.cfi_offset %r14,-32
	.cfi_offset %r15,-24
	.cfi_offset %rbp,-16
	xorl	%ebx,%ebx
	testq	%rsi,%rsi
	sete	%r12b
	movq	%rcx,24(%rsp)
	testq	%rcx,%rcx
	sete	%r15b
	pxor	%xmm0,%xmm0
	movdqa	%xmm0,96(%rsp)
	movq	$0,112(%rsp)
	movzbl	546(%rdi),%r11d
	movl	$9,%eax
	cmpq	$16,%r11
	ja	1f
	movzbl	547(%rdi),%ecx
	cmpl	$2,%ecx
	ja	1f
	cmpb	$0,(%rdi)
	jne	1f
	cmpb	$0,256(%rdi)
	je	2f
1:
	addq	$424,%rsp
	.cfi_def_cfa_offset 56
	popq	%rbx
	.cfi_def_cfa_offset 48
	popq	%r12
	.cfi_def_cfa_offset 40
	popq	%r13
	.cfi_def_cfa_offset 32
	popq	%r14
	.cfi_def_cfa_offset 24
	popq	%r15
	.cfi_def_cfa_offset 16
	popq	%rbp
	.cfi_def_cfa_offset 8
	retq
2:
	.cfi_def_cfa_offset 480
	movl	%ecx,36(%rsp)
	testq	%r11,%r11
	je	2f
	movq	%rdx,64(%rsp)
	movq	%r8,72(%rsp)
	movb	$1,%bpl
	xorl	%r13d,%r13d
	xorl	%r8d,%r8d
	.p2align	4
3:
	movzbl	512(%rdi,%r8),%edx
	movzbl	256(%rdi,%rdx),%r10d
	movzbl	%r10b,%ecx
	leaq	1(%r8),%r14
	cmpq	%rcx,%r14
	jne	1b
	movzbl	528(%rdi,%r8),%r8d
	addl	%r8d,%r13d
	decb	%dl
	decl	%r8d
	xorl	%r14d,%r14d
	cmpb	$16,%r8b
	movzbl	%bpl,%ebp
	cmovael	%r14d,%ebp
	cmpb	$14,%dl
	cmovael	%r14d,%ebp
	movq	%rcx,%r8
	cmpb	%r11b,%r10b
	jne	3b
	testb	%bpl,%bpl
	setne	%cl
	movq	72(%rsp),%r8
	movq	64(%rsp),%rdx
	jmp	3f
2:
	movb	$1,%cl
	xorl	%r13d,%r13d
3:
	cmpw	%r13w,544(%rdi)
	jne	1b
	movzbl	548(%rdi),%ebp
	testb	%bpl,%bpl
	setne	%r10b
	xorb	%r10b,%cl
	jne	1b
	movl	$1,%eax
	cmpq	$12,%rdx
	jb	1b
	movb	%r12b,%bl
	shll	$12,%ebx
	addq	%rbx,%rsi
	movzbl	(%rsi),%ecx
	movl	$2,%eax
	cmpb	$-65,%cl
	jg	1b
	leal	(,%rcx,4),%ebx
	andl	$60,%ebx
	leaq	12(%rbx),%r10
	movl	$3,%eax
	movq	%rdx,%r14
	subq	%r10,%r14
	jb	1b
	testb	$16,%cl
	jne	2f
	xorl	%r14d,%r14d
	xorl	%ecx,%ecx
3:
	movq	%rdx,64(%rsp)
	xorl	%eax,%eax
	movb	%r15b,%al
	shll	$12,%eax
	addq	%rax,24(%rsp)
	pxor	%xmm0,%xmm0
	movdqu	%xmm0,192(%rsp)
	movq	$0,168(%rsp)
	movdqa	%xmm0,208(%rsp)
	movq	$0,224(%rsp)
	movq	$1,264(%rsp)
	movdqa	%xmm0,272(%rsp)
	movdqa	%xmm0,288(%rsp)
	movdqa	%xmm0,304(%rsp)
	movdqa	%xmm0,320(%rsp)
	movdqa	%xmm0,336(%rsp)
	movdqa	%xmm0,352(%rsp)
	movdqa	%xmm0,368(%rsp)
	movdqa	%xmm0,384(%rsp)
	movl	%r14d,84(%rsp)
	testb	%r14b,%r14b
	movq	%r9,56(%rsp)
	movq	%rdi,40(%rsp)
	je	4f
	movq	%rbx,136(%rsp)
	movzbl	%bl,%edx
	addq	$16,%rdx
	movq	%r10,%r14
	subq	%rdx,%r14
	cmpq	$256,%r14
	movl	%ecx,%r15d
	ja	5f
	cmpq	$262140,%r8
	movl	$262140,%r12d
	cmovbq	%r8,%r12
	leaq	3(,%r10,2),%rcx
	movq	%r12,%rax
	subq	%rcx,%rax
	jb	6f
	movzwl	%r13w,%ecx
	leaq	(%rcx,%r11,2),%rcx
	cmpq	%rcx,%rax
	jb	6f
	movzbl	%r15b,%eax
	movl	%r15d,%ebx
	testq	%r11,%r11
	movl	36(%rsp),%r9d
	je	7f
	testb	%bpl,%bpl
	movl	$1,%ecx
	cmovnel	%eax,%ecx
	cmpl	$1,%r9d
	je	8f
	movb	$1,%bl
	testl	%r9d,%r9d
	jne	7f
	movl	%ecx,%ebx
	jmp	7f
2:
	movl	$4,%eax
	cmpq	$4,%r14
	jb	1b
	addq	$-4,%r14
	movzwl	2(%rsi,%r10),%eax
	rolw	$8,%ax
	movzwl	%ax,%ecx
	shll	$2,%ecx
	movl	$6,%eax
	cmpq	%rcx,%r14
	jb	1b
	movzwl	(%rsi,%r10),%eax
	movl	%eax,%r14d
	andl	$61695,%r14d
	xorl	%r12d,%r12d
	cmpw	$16,%r14w
	sete	%r12b
	cmpl	$57022,%eax
	leaq	4(%r10,%rcx),%r10
	movl	$1,%r14d
	movl	%r12d,%ecx
	cmovnel	%r12d,%r14d
	jmp	3b
8:
	testb	%cl,%cl
	jne	5f
	xorl	%ebx,%ebx
7:
	movq	%r10,120(%rsp)
	movl	%r15d,52(%rsp)
	movq	%r8,72(%rsp)
	movq	%rsi,88(%rsp)
	leaq	(%rsi,%rdx),%r9
	leaq	272(%rsp),%rcx
	movq	%rcx,16(%rsp)
	movq	%rdi,8(%rsp)
	movq	%r14,(%rsp)
	movl	%ebx,36(%rsp)
	movzbl	%bl,%r8d
	movq	24(%rsp),%rdi
	movq	%r12,%rsi
	movq	%rdx,128(%rsp)
	movl	%eax,%ecx
	callq	"rtp_b236e5ea_rtp_route::walk::write_kept::<#82187cbc7fdfa14b>"
	movq	40(%rsp),%rdi
	cmpb	$1,%al
	jne	2f
	movzbl	546(%rdi),%r15d
	testq	%r15,%r15
	je	3f
	cmpb	$0,36(%rsp)
	je	7f
	xorl	%ebp,%ebp
	jmp	8f
9:
	movq	%rdx,%r14
	incq	%rbp
	cmpq	%rbp,%r15
	je	10f
8:
	cmpl	$0,272(%rsp,%rbp,8)
	jne	9b
	movzbl	528(%rdi,%rbp),%eax
	movzbl	%al,%r13d
	leaq	(%rdx,%r13),%r14
	addq	$2,%r14
	cmpq	%r14,%r12
	jb	2f
	leaq	2(%rdx),%rbx
	movzbl	512(%rdi,%rbp),%ecx
	movq	24(%rsp),%rsi
	movb	%cl,(%rsi,%rdx)
	movb	%r13b,1(%rsi,%rdx)
	testl	%r13d,%r13d
	je	9f
	cmpl	$1,%r13d
	jne	11f
	movq	24(%rsp),%rax
	movb	$0,(%rax,%rbx)
	jmp	12f
11:
	cmpb	$2,%al
	ja	11f
	movq	24(%rsp),%rax
	movw	$0,(%rax,%rbx)
	jmp	12f
11:
	cmpb	$3,%al
	jne	9f
	movq	24(%rsp),%rax
	movw	$0,(%rax,%rbx)
	movb	$0,2(%rax,%rbx)
	jmp	12f
9:
	movq	24(%rsp),%rax
	leaq	(%rax,%rbx),%rdi
	xorl	%esi,%esi
	movq	%r13,%rdx
	callq	memset@PLT
	movq	40(%rsp),%rdi
12:
	movl	%ebx,272(%rsp,%rbp,8)
	movl	%r13d,276(%rsp,%rbp,8)
	movq	%r14,%rdx
	incq	%rbp
	cmpq	%rbp,%r15
	jne	8b
	jmp	10f
3:
	movq	%rdx,%r14
10:
	leaq	3(%r14),%r13
	andq	$-4,%r13
	cmpq	%r13,%r12
	jb	2f
	movq	%r13,%rax
	subq	%r14,%rax
	movq	88(%rsp),%rsi
	je	3f
	cmpq	$2,%rax
	je	8f
	cmpq	$1,%rax
	jne	9f
	movq	24(%rsp),%rax
	movb	$0,(%rax,%r14)
	jmp	3f
7:
	xorl	%ebp,%ebp
	movq	%rdx,%r14
	jmp	7f
11:
	movq	24(%rsp),%rax
	leaq	(%rax,%r14),%rdi
	xorl	%esi,%esi
	movq	%r13,%rdx
	callq	memset@PLT
	movq	40(%rsp),%rdi
12:
	movq	%r13,%rax
	addq	%r14,%rax
	movl	%r14d,272(%rsp,%rbp,8)
	movl	%r13d,276(%rsp,%rbp,8)
	movq	%rax,%r14
13:
	incq	%rbp
	cmpq	%rbp,%r15
	je	10b
7:
	cmpl	$0,272(%rsp,%rbp,8)
	jne	13b
	movzbl	528(%rdi,%rbp),%r13d
	leaq	(%r14,%r13),%rax
	addq	$2,%rax
	cmpq	%rax,%r12
	jb	2f
	movzbl	512(%rdi,%rbp),%ecx
	rolb	$4,%cl
	addb	%r13b,%cl
	decb	%cl
	movq	24(%rsp),%rax
	movb	%cl,(%rax,%r14)
	incq	%r14
	testl	%r13d,%r13d
	je	11b
	cmpl	$1,%r13d
	jne	7f
	movq	24(%rsp),%rax
	movb	$0,(%rax,%r14)
	jmp	12b
7:
	cmpb	$3,%r13b
	jae	7f
	movq	24(%rsp),%rax
	movw	$0,(%rax,%r14)
	jmp	12b
7:
	cmpl	$3,%r13d
	jne	11b
	movq	24(%rsp),%rax
	movw	$0,(%rax,%r14)
	movb	$0,2(%rax,%r14)
	jmp	12b
8:
	movq	24(%rsp),%rax
	jmp	7f
9:
	movq	24(%rsp),%rax
	movb	$0,2(%rax,%r14)
7:
	movw	$0,(%rax,%r14)
3:
	movq	136(%rsp),%rcx
	cmpb	$33,%cl
	movq	128(%rsp),%rbx
	jb	3f
	movq	24(%rsp),%rdi
	movq	%rbx,%rdx
	callq	"rtp_b236e5ea_rtp_route::copying::put_any"
	movq	40(%rsp),%rdi
	movq	56(%rsp),%rdx
	movl	52(%rsp),%ecx
	movl	36(%rsp),%r8d
	jmp	7f
3:
	movups	(%rsi),%xmm0
	movq	24(%rsp),%rax
	movups	%xmm0,(%rax)
	cmpb	$17,%cl
	movl	36(%rsp),%r8d
	jb	3f
	movups	16(%rsi),%xmm0
	movq	24(%rsp),%rax
	movups	%xmm0,16(%rax)
3:
	movdqu	(%rsi,%rcx),%xmm0
	movq	24(%rsp),%rax
	movdqu	%xmm0,(%rax,%rcx)
	movq	56(%rsp),%rdx
	movl	52(%rsp),%ecx
7:
	movq	%r13,%rax
	subq	%rbx,%rax
	cmpb	%cl,%r8b
	je	3f
	testb	%r8b,%r8b
	movl	$57022,%ecx
	movl	$16,%esi
	cmovel	%ecx,%esi
	movq	24(%rsp),%rcx
	movw	%si,-4(%rcx,%rbx)
3:
	movl	%eax,%ecx
	shrl	$10,%ecx
	andl	$-4,%eax
	shll	$6,%eax
	movzbl	%cl,%ecx
	orl	%eax,%ecx
	movq	24(%rsp),%rax
	movw	%cx,-2(%rax,%rbx)
	jmp	3f
2:
	movzbl	547(%rdi),%eax
	movl	%eax,36(%rsp)
	movq	88(%rsp),%rsi
	movq	72(%rsp),%r8
	movl	52(%rsp),%r15d
	movq	120(%rsp),%r10
6:
	cmpb	$1,36(%rsp)
	je	5f
	movq	%rsi,240(%rsp)
	movq	64(%rsp),%rax
	movq	%rax,248(%rsp)
	movq	%r10,256(%rsp)
	movb	%r15b,265(%rsp)
	pxor	%xmm0,%xmm0
	movdqa	%xmm0,400(%rsp)
	movq	$0,416(%rsp)
	leaq	272(%rsp),%rax
	movq	%rax,(%rsp)
	leaq	208(%rsp),%rax
	movq	%r10,%r12
	leaq	240(%rsp),%r10
	leaq	400(%rsp),%rdx
	movq	%rdi,%rcx
	movq	%rax,%rdi
	movq	%rsi,%rbx
	movq	%r10,%rsi
	movq	%r8,%r14
	movq	24(%rsp),%r8
	movq	%r14,%r9
	callq	"rtp_b236e5ea_rtp_route::by_walk::write_in_two_byte_form::<#82187cbc7fdfa14b>"
	movq	%r12,%r10
	movq	%r14,%r8
	movq	%rbx,%rsi
	cmpb	$1,208(%rsp)
	jne	5f
	movq	216(%rsp),%r13
	jmp	2f
4:
	movl	%ecx,%r15d
5:
	movq	%rsi,144(%rsp)
	movq	64(%rsp),%rax
	movq	%rax,152(%rsp)
	movq	%r10,160(%rsp)
	movl	84(%rsp),%eax
	movb	%al,168(%rsp)
	movb	%r15b,169(%rsp)
	leaq	176(%rsp),%rdi
	leaq	144(%rsp),%rsi
	leaq	272(%rsp),%r9
	movq	40(%rsp),%rdx
	movq	24(%rsp),%rcx
	callq	"rtp_b236e5ea_rtp_route::making::make_by_calls_of::<#82187cbc7fdfa14b>"
	movq	184(%rsp),%r13
	cmpb	$0,176(%rsp)
	jne	4f
2:
	movq	56(%rsp),%rdx
	movq	40(%rsp),%rdi
3:
	movzbl	546(%rdi),%ecx
	xorl	%eax,%eax
	pxor	%xmm0,%xmm0
	movdqu	%xmm0,52(%rdx)
	movdqu	%xmm0,36(%rdx)
	movdqu	%xmm0,20(%rdx)
	movdqu	%xmm0,4(%rdx)
	movdqu	%xmm0,71(%rdx)
	testq	%rcx,%rcx
	je	2f
	leaq	4(%rdx),%r8
	leaq	71(%rdx),%rsi
	cmpb	$8,%cl
	jb	3f
	leaq	(%rdx,%rcx,4),%rdi
	addq	$4,%rdi
	leaq	(%rdx,%rcx),%r9
	addq	$71,%r9
	cmpq	%r9,%r8
	setb	%r9b
	cmpq	%rdi,%rsi
	setb	%dil
	testb	%dil,%r9b
	je	5f
3:
	xorl	%r9d,%r9d
	xorl	%edi,%edi
3:
	testb	$1,%cl
	jne	6f
	movq	%rdi,%r11
	jmp	7f
2:
	xorl	%r10d,%r10d
	jmp	2f
6:
	movq	272(%rsp,%rdi,8),%r10
	movl	%r10d,%r11d
	shrq	$32,%r10
	movl	%r11d,(%r8,%rdi,4)
	movb	%r10b,(%rsi,%rdi)
	addl	%r10d,%r9d
	movq	%rdi,%r11
	orq	$1,%r11
	movl	%r9d,%r10d
7:
	leal	-1(%rcx),%esi
	cmpl	%esi,%edi
	je	2f
	movq	%rcx,%rsi
	subq	%r11,%rsi
	leaq	(%r11,%rdx),%rdi
	addq	$72,%rdi
	leaq	(%rdx,%r11,4),%r8
	addq	$8,%r8
	leaq	(%rsp,%r11,8),%r11
	addq	$280,%r11
	xorl	%ebx,%ebx
6:
	movq	-8(%r11,%rbx,8),%r10
	movl	%r10d,%ebp
	shrq	$32,%r10
	movl	%ebp,-4(%r8,%rbx,4)
	movb	%r10b,-1(%rdi,%rbx)
	addl	%r10d,%r9d
	movq	(%r11,%rbx,8),%r10
	movl	%r10d,%ebp
	shrq	$32,%r10
	movl	%ebp,(%r8,%rbx,4)
	movb	%r10b,(%rdi,%rbx)
	addl	%r9d,%r10d
	addq	$2,%rbx
	movl	%r10d,%r9d
	cmpq	%rbx,%rsi
	jne	6b
	jmp	2f
5:
	movl	%ecx,%edi
	andl	$-4,%edi
	xorl	%r9d,%r9d
	pxor	%xmm1,%xmm1
5:
	movdqu	272(%rsp,%r9,8),%xmm2
	movdqu	288(%rsp,%r9,8),%xmm3
	pshufd	$232,%xmm2,%xmm4
	pshufd	$232,%xmm3,%xmm5
	punpcklqdq	%xmm5,%xmm4
	psrlq	$32,%xmm2
	psrlq	$32,%xmm3
	movdqu	%xmm4,4(%rdx,%r9,4)
	movd	.Lrtp_b236e5ea_CPI153_1(%rip),%xmm4
	pshufd	$232,%xmm2,%xmm5
	pshufb	%xmm4,%xmm2
	pshufd	$232,%xmm3,%xmm6
	pextrw	$0,%xmm2,71(%rdx,%r9)
	pshufb	%xmm4,%xmm3
	pextrw	$0,%xmm3,73(%rdx,%r9)
	pshuflw	$232,%xmm5,%xmm2
	paddw	%xmm2,%xmm1
	pshuflw	$232,%xmm6,%xmm2
	paddw	%xmm2,%xmm0
	addq	$4,%r9
	cmpq	%r9,%rdi
	jne	5b
	paddw	%xmm1,%xmm0
	movdqa	%xmm0,%xmm1
	psrld	$16,%xmm1
	paddw	%xmm0,%xmm1
	movd	%xmm1,%r9d
	movl	%r9d,%r10d
	cmpl	%ecx,%edi
	jne	3b
2:
	movl	%r13d,(%rdx)
	movw	%r10w,68(%rdx)
	movb	%cl,70(%rdx)
	jmp	1b
4:
	movzbl	192(%rsp),%eax
	movzbl	193(%rsp),%ecx
	movq	200(%rsp),%rdx
	movzbl	%r13b,%esi
	movq	%rsi,96(%rsp)
	movb	%al,104(%rsp)
	movb	%cl,105(%rsp)
	movq	%rdx,112(%rsp)
	leaq	96(%rsp),%rdi
	callq	"rtp_b236e5ea_rtp_c::template::not_routed_status"
	jmp	1b
	.size	rtp_b236e5ea_rtpw_make_from_group,.-rtp_b236e5ea_rtpw_make_from_group
	.cfi_endproc

	.section	.rodata.cst16,"aM",@progbits,16
	.p2align	4,0x0
.Lrtp_b236e5ea_CPI154_0:
	.byte	0
	.byte	8
	.zero	1
	.zero	1
	.zero	1
	.zero	1
	.zero	1
	.zero	1
	.zero	1
	.zero	1
	.zero	1
	.zero	1
	.zero	1
	.zero	1
	.zero	1
	.zero	1
.Lrtp_b236e5ea_CPI154_1:
	.byte	0
	.byte	8
	.byte	0
	.byte	0
	.byte	0
	.byte	0
	.byte	0
	.byte	0
	.byte	0
	.byte	0
	.byte	0
	.byte	0
	.byte	0
	.byte	0
	.byte	0
	.byte	0
	.section	.text.rtpw_make_template,"ax",@progbits
	.globl	rtp_b236e5ea_rtpw_make_template
	.p2align	4
	.type	rtp_b236e5ea_rtpw_make_template,@function
rtp_b236e5ea_rtpw_make_template:
	.cfi_startproc
	pushq	%rbp
	.cfi_def_cfa_offset 16
	pushq	%r15
	.cfi_def_cfa_offset 24
	pushq	%r14
	.cfi_def_cfa_offset 32
	pushq	%r13
	.cfi_def_cfa_offset 40
	pushq	%r12
	.cfi_def_cfa_offset 48
	pushq	%rbx
	.cfi_def_cfa_offset 56
	subq	$1192,%rsp
	.cfi_def_cfa_offset 1248
	.cfi_offset %rbx,-56
	.cfi_offset %r12,-48
	.cfi_offset %r13,-40
	.cfi_offset %r14,-32
	.cfi_offset %r15,-24
	.cfi_offset %rbp,-16
	movq	%rcx,%r12
	movzbl	1256(%rsp),%ecx
	xorl	%ebx,%ebx
	testq	%rdi,%rdi
	sete	%r13b
	xorl	%r10d,%r10d
	testq	%r12,%r12
	sete	%r15b
	testq	%r9,%r9
	sete	%r14b
	cmpq	$0,1264(%rsp)
	sete	%r11b
	movq	$0,152(%rsp)
	pxor	%xmm0,%xmm0
	movdqa	%xmm0,160(%rsp)
	movq	$0,176(%rsp)
	movl	$9,%eax
	cmpb	$2,%cl
	ja	1f
	leal	(,%rcx,8),%ecx
	movl	$65792,%ebp
	shrl	%cl,%ebp
	movl	%ebp,36(%rsp)
	movl	$65536,%ebp
	shrl	%cl,%ebp
	cmpq	$16,1248(%rsp)
	ja	1f
	movb	%r13b,%bl
	shll	$12,%ebx
	addq	%rbx,%rdi
	movb	%r15b,%r10b
	shll	$12,%r10d
	addq	%r10,%r12
	xorl	%ecx,%ecx
	movb	%r14b,%cl
	shll	$12,%ecx
	movq	%rcx,%r13
	leaq	(%r9,%rcx),%rbx
	xorl	%r10d,%r10d
	movb	%r11b,%r10b
	shll	$12,%r10d
	movq	1264(%rsp),%rcx
	movq	%r10,72(%rsp)
	leaq	(%rcx,%r10),%r15
	movq	$-1,%rcx
	movq	%rbx,%r10
	movq	1248(%rsp),%r14
	.p2align	4
2:
	incq	%rcx
	cmpq	%rcx,%r14
	je	3f
	movq	%r8,%r11
	subq	(%r10),%r11
	jb	1f
	cmpq	%r11,8(%r10)
	leaq	32(%r10),%r10
	jbe	2b
	jmp	1f
3:
	movq	%rbx,64(%rsp)
	movl	$1,%eax
	cmpq	$12,%rsi
	jb	1f
	movzbl	(%rdi),%r10d
	movl	$2,%eax
	cmpb	$-65,%r10b
	jg	1f
	leal	(,%r10,4),%ebx
	andl	$60,%ebx
	leaq	12(%rbx),%r11
	movl	$3,%eax
	movq	%rsi,%rcx
	subq	%r11,%rcx
	jb	1f
	testb	$16,%r10b
	movq	%rdi,56(%rsp)
	movq	%rsi,96(%rsp)
	movq	%rbx,104(%rsp)
	jne	2f
	movq	%r8,%rbx
	movq	%r9,80(%rsp)
	movl	$0,52(%rsp)
	movl	$0,48(%rsp)
3:
	movq	%r11,88(%rsp)
	incq	%rdx
	movb	$0,936(%rsp)
	leaq	937(%rsp),%rdi
	movq	%rdx,%rsi
	movl	$255,%edx
	callq	memcpy@PLT
	leaq	936(%rsp),%rax
	movq	%rax,112(%rsp)
	movq	%r12,120(%rsp)
	movq	%rbx,128(%rsp)
	movq	64(%rsp),%rax
	movq	%rax,136(%rsp)
	movq	%r14,144(%rsp)
	movl	36(%rsp),%eax
	movb	%al,152(%rsp)
	movb	%bpl,153(%rsp)
	pxor	%xmm0,%xmm0
	movdqa	%xmm0,448(%rsp)
	movdqa	%xmm0,464(%rsp)
	movdqa	%xmm0,480(%rsp)
	movdqa	%xmm0,496(%rsp)
	movdqa	%xmm0,512(%rsp)
	movdqa	%xmm0,528(%rsp)
	movdqa	%xmm0,544(%rsp)
	movdqa	%xmm0,560(%rsp)
	movdqa	%xmm0,256(%rsp)
	movdqa	%xmm0,272(%rsp)
	movq	$0,344(%rsp)
	movdqa	%xmm0,672(%rsp)
	movdqa	%xmm0,688(%rsp)
	movdqa	%xmm0,704(%rsp)
	movdqa	%xmm0,720(%rsp)
	movdqa	%xmm0,736(%rsp)
	movdqa	%xmm0,752(%rsp)
	movdqa	%xmm0,768(%rsp)
	movdqa	%xmm0,784(%rsp)
	movdqa	%xmm0,800(%rsp)
	movdqa	%xmm0,816(%rsp)
	movdqa	%xmm0,832(%rsp)
	movdqa	%xmm0,848(%rsp)
	movdqa	%xmm0,864(%rsp)
	movdqa	%xmm0,880(%rsp)
	movdqa	%xmm0,896(%rsp)
	movdqa	%xmm0,912(%rsp)
	testq	%r14,%r14
	movq	%r15,40(%rsp)
	je	4f
	movq	80(%rsp),%rcx
	leaq	(%rcx,%r13),%rsi
	addq	$24,%rsi
	xorl	%edi,%edi
	movq	56(%rsp),%rax
	movq	96(%rsp),%r12
5:
	movzbl	(%rsi),%r8d
	cmpb	$0,672(%rsp,%r8)
	jne	6f
	incq	%rdi
	movb	%dil,672(%rsp,%r8)
	addq	$32,%rsi
	cmpq	%rdi,%r14
	jne	5b
	leaq	(%rcx,%r13),%rdi
	addq	$24,%rdi
	movb	$1,%cl
	xorl	%esi,%esi
	movq	%r14,%r8
	movq	1280(%rsp),%r15
5:
	movq	-16(%rdi),%r9
	cmpq	$255,%r9
	ja	7f
	movzbl	(%rdi),%r10d
	testb	%r10b,%r10b
	je	7f
	leaq	-1(%r9),%r11
	xorl	%ebx,%ebx
	cmpq	$16,%r11
	movzbl	%cl,%ecx
	cmovael	%ebx,%ecx
	cmpb	$15,%r10b
	cmovael	%ebx,%ecx
	addq	%r9,%rsi
	addq	$2,%rsi
	addq	$32,%rdi
	decq	%r8
	jne	5b
	jmp	5f
2:
	movl	$4,%eax
	cmpq	$4,%rcx
	jb	1f
	addq	$-4,%rcx
	movzwl	2(%rdi,%r11),%eax
	rolw	$8,%ax
	movzwl	%ax,%esi
	shll	$2,%esi
	movl	$6,%eax
	cmpq	%rsi,%rcx
	jb	1f
	movq	%r8,%rbx
	movq	%r9,80(%rsp)
	movzwl	(%rdi,%r11),%eax
	movl	%eax,%ecx
	andl	$61695,%ecx
	xorl	%edi,%edi
	cmpw	$16,%cx
	sete	%dil
	cmpl	$57022,%eax
	movl	$1,%eax
	movl	%edi,48(%rsp)
	cmovnel	%edi,%eax
	movl	%eax,52(%rsp)
	addq	%rsi,%r11
	addq	$4,%r11
	jmp	3b
4:
	movb	$1,%cl
	xorl	%esi,%esi
	movq	56(%rsp),%rax
	movq	96(%rsp),%r12
	movq	1280(%rsp),%r15
5:
	leaq	112(%rsp),%r10
	movq	%r10,224(%rsp)
	leaq	672(%rsp),%rdi
	movq	%rdi,232(%rsp)
	movq	%rsi,240(%rsp)
	movb	%cl,248(%rsp)
	movl	$0,249(%rsp)
	movl	$0,252(%rsp)
	movdqu	%xmm0,400(%rsp)
	movq	$0,376(%rsp)
	movdqa	%xmm0,192(%rsp)
	movq	$0,208(%rsp)
	movq	$1,600(%rsp)
	movdqa	%xmm0,560(%rsp)
	movdqa	%xmm0,544(%rsp)
	movdqa	%xmm0,528(%rsp)
	movdqa	%xmm0,512(%rsp)
	movdqa	%xmm0,496(%rsp)
	movdqa	%xmm0,480(%rsp)
	movdqa	%xmm0,464(%rsp)
	movdqa	%xmm0,448(%rsp)
	cmpb	$0,52(%rsp)
	je	2f
	movzbl	104(%rsp),%edx
	addq	$16,%rdx
	movq	88(%rsp),%r8
	movq	%r8,%rsi
	subq	%rdx,%rsi
	cmpq	$256,%rsi
	ja	2f
	movq	%r12,%rbx
	leaq	232(%rsp),%r11
	movdqu	(%r11),%xmm0
	movdqu	%xmm0,424(%rsp)
	movq	16(%r11),%rdi
	movq	%rdi,440(%rsp)
	movq	1272(%rsp),%rcx
	cmpq	$262140,%rcx
	movl	$262140,%r9d
	cmovbq	%rcx,%r9
	leaq	3(,%r8,2),%r8
	xorl	%ecx,%ecx
	movq	%r9,64(%rsp)
	subq	%r8,%r9
	cmovaeq	%r9,%rcx
	jb	3f
	cmpq	432(%rsp),%rcx
	jb	3f
	movdqu	424(%rsp),%xmm0
	movl	48(%rsp),%r8d
	movzbl	%r8b,%ecx
	movl	%r8d,%r12d
	testq	%r14,%r14
	je	4f
	testb	$1,%dil
	movl	$1,%r12d
	cmovnel	%ecx,%r12d
	movzbl	1256(%rsp),%r8d
	testb	%r8b,%r8b
	je	4f
	cmpb	$2,%r8b
	je	5f
	testb	%r12b,%r12b
	movl	%ebp,%r12d
	je	4f
	jmp	3f
5:
	movl	%ebp,%r12d
4:
	leaq	(%rax,%rdx),%r9
	movq	%r10,640(%rsp)
	movdqu	%xmm0,648(%rsp)
	movq	%rdi,664(%rsp)
	leaq	448(%rsp),%rax
	movq	%rax,16(%rsp)
	leaq	640(%rsp),%rax
	movq	%rax,8(%rsp)
	movq	%rsi,(%rsp)
	movzbl	%r12b,%r8d
	movq	40(%rsp),%rdi
	movq	64(%rsp),%rbx
	movq	%rbx,%rsi
	movq	%rdx,80(%rsp)
	callq	"rtp_b236e5ea_rtp_route::walk::write_kept::<#687967002a58489c>"
	cmpb	$1,%al
	jne	4f
	movq	%rbx,%r11
	movq	144(%rsp),%rbx
	testq	%rbx,%rbx
	movl	%r12d,36(%rsp)
	je	5f
	movq	120(%rsp),%r9
	movq	136(%rsp),%r15
	leaq	16(%r9),%rax
	movq	%rax,296(%rsp)
	movq	1264(%rsp),%rax
	movq	72(%rsp),%r13
	leaq	16(%r13,%rax),%rcx
	movq	%rcx,288(%rsp)
	leaq	3(%r9),%rcx
	movq	%rcx,312(%rsp)
	addq	%r13,%rax
	addq	$3,%rax
	movq	%rax,304(%rsp)
	xorl	%r13d,%r13d
	movq	%r9,72(%rsp)
	jmp	8f
9:
	movzbl	(%rsi),%eax
	movq	40(%rsp),%rcx
	movb	%al,(%rcx,%r14)
10:
	leaq	(%r14,%rbp),%rdx
	movl	%r14d,448(%rsp,%r13,8)
	movl	%ebp,452(%rsp,%r13,8)
11:
	incq	%r13
	cmpq	%rbx,%r13
	je	5f
8:
	cmpl	$0,448(%rsp,%r13,8)
	jne	11b
	movq	%r13,%rcx
	shlq	$5,%rcx
	movq	8(%r15,%rcx),%rbp
	leaq	(%rdx,%rbp),%rax
	addq	$2,%rax
	cmpq	%rax,%r11
	jb	4f
	movq	(%r15,%rcx),%rax
	movzbl	24(%r15,%rcx),%ecx
	testb	%r12b,%r12b
	je	8f
	movq	40(%rsp),%rsi
	movb	%cl,(%rsi,%rdx)
	movb	%bpl,1(%rsi,%rdx)
	movl	$2,%ecx
	jmp	11f
8:
	rolb	$4,%cl
	addb	%bpl,%cl
	decb	%cl
	movq	40(%rsp),%rsi
	movb	%cl,(%rsi,%rdx)
	movl	$1,%ecx
11:
	leaq	(%r9,%rax),%rsi
	leaq	(%rcx,%rdx),%r14
	testq	%rbp,%rbp
	je	8f
	cmpq	$1,%rbp
	je	9b
	cmpq	$2,%rbp
	ja	9f
	movzbl	(%rsi),%eax
	movq	40(%rsp),%rcx
	movb	%al,(%rcx,%r14)
	movzbl	1(%rsi),%eax
	movb	%al,1(%rcx,%r14)
	jmp	10b
9:
	cmpq	$3,%rbp
	jne	8f
	movzbl	(%rsi),%eax
	movq	40(%rsp),%rcx
	movb	%al,(%rcx,%r14)
	movzbl	1(%rsi),%eax
	movb	%al,1(%rcx,%r14)
	movzbl	2(%rsi),%eax
	movb	%al,2(%rcx,%r14)
	jmp	10b
8:
	movq	40(%rsp),%rdi
	addq	%r14,%rdi
	movq	%rdi,%r8
	subq	%rsi,%r8
	cmpq	%rbp,%r8
	jae	8f
	cmpq	$4,%rbp
	jb	9f
	movq	40(%rsp),%rdi
	addq	%rdx,%rdi
	addq	%rcx,%rdi
	subq	%rsi,%rdi
	cmpq	$32,%rdi
	jae	11f
9:
	xorl	%edi,%edi
9:
	movq	%rbp,%r9
	movq	%rdi,%r8
	andq	$3,%r9
	je	12f
	leaq	(%rdi,%rdx),%r10
	movq	40(%rsp),%r8
	addq	%rcx,%r8
	addq	%r8,%r10
	xorl	%r11d,%r11d
	movq	%rdi,%r8
13:
	movzbl	(%rsi,%r8),%r12d
	movb	%r12b,(%r10,%r11)
	incq	%r8
	incq	%r11
	cmpq	%r11,%r9
	jne	13b
12:
	subq	%rbp,%rdi
	cmpq	$-4,%rdi
	movl	36(%rsp),%r12d
	movq	64(%rsp),%r11
	movq	72(%rsp),%r9
	ja	10b
	movq	%rbp,%rsi
	subq	%r8,%rsi
	addq	%r8,%rax
	addq	312(%rsp),%rax
	addq	%r8,%rdx
	addq	304(%rsp),%rcx
	addq	%rdx,%rcx
	xorl	%edx,%edx
12:
	movzbl	-3(%rax,%rdx),%edi
	movb	%dil,-3(%rcx,%rdx)
	movzbl	-2(%rax,%rdx),%edi
	movb	%dil,-2(%rcx,%rdx)
	movzbl	-1(%rax,%rdx),%edi
	movb	%dil,-1(%rcx,%rdx)
	movzbl	(%rax,%rdx),%edi
	movb	%dil,(%rcx,%rdx)
	addq	$4,%rdx
	cmpq	%rdx,%rsi
	jne	12b
	jmp	10b
8:
	movq	%rbp,%rdx
	callq	memmove@PLT
	movq	72(%rsp),%r9
	movq	64(%rsp),%r11
	jmp	10b
11:
	cmpq	$32,%rbp
	jae	8f
	xorl	%edi,%edi
	jmp	11f
8:
	movq	%rbp,%rdi
	andq	$-32,%rdi
	movq	296(%rsp),%r8
	addq	%rax,%r8
	movq	288(%rsp),%r9
	addq	%r14,%r9
	xorl	%r10d,%r10d
8:
	movdqu	-16(%r8,%r10),%xmm0
	movdqu	(%r8,%r10),%xmm1
	movdqu	%xmm0,-16(%r9,%r10)
	movdqu	%xmm1,(%r9,%r10)
	addq	$32,%r10
	cmpq	%r10,%rdi
	jne	8b
	cmpq	%rdi,%rbp
	movq	72(%rsp),%r9
	je	10b
	testb	$28,%bpl
	je	9b
11:
	movq	%rdi,%r8
	movq	%rbp,%rdi
	andq	$-4,%rdi
	movq	%r9,%r11
	movq	%rdi,%r9
	subq	%r8,%r9
	leaq	(%r8,%rax),%r10
	addq	%r11,%r10
	addq	%rdx,%r8
	addq	%rcx,%r8
	addq	40(%rsp),%r8
	xorl	%r11d,%r11d
8:
	movl	(%r10,%r11),%r12d
	movl	%r12d,(%r8,%r11)
	addq	$4,%r11
	cmpq	%r11,%r9
	jne	8b
	cmpq	%rdi,%rbp
	movl	36(%rsp),%r12d
	movq	64(%rsp),%r11
	movq	72(%rsp),%r9
	je	10b
	jmp	9b
5:
	leaq	3(%rdx),%rbx
	andq	$-4,%rbx
	cmpq	%rbx,%r11
	jb	4f
	movq	%rbx,%rax
	subq	%rdx,%rax
	movq	1280(%rsp),%r15
	movq	40(%rsp),%r12
	je	5f
	cmpq	$2,%rax
	je	8f
	cmpq	$1,%rax
	jne	9f
	movb	$0,(%r12,%rdx)
	jmp	5f
9:
	movb	$0,2(%r12,%rdx)
8:
	movw	$0,(%r12,%rdx)
5:
	movq	104(%rsp),%rcx
	cmpb	$33,%cl
	movq	80(%rsp),%r13
	jb	5f
	movq	%r12,%rdi
	movq	56(%rsp),%rsi
	movq	%r13,%rdx
	callq	"rtp_b236e5ea_rtp_route::copying::put_any"
	jmp	8f
5:
	movq	56(%rsp),%rax
	movups	(%rax),%xmm0
	movups	%xmm0,(%r12)
	cmpb	$17,%cl
	jb	5f
	movups	16(%rax),%xmm0
	movups	%xmm0,16(%r12)
5:
	movq	104(%rsp),%rcx
	movdqu	(%rax,%rcx),%xmm0
	movdqu	%xmm0,(%r12,%rcx)
8:
	movq	1248(%rsp),%r14
	movq	%rbx,%rax
	subq	%r13,%rax
	movl	36(%rsp),%ecx
	cmpb	48(%rsp),%cl
	je	5f
	cmpb	$0,36(%rsp)
	movl	$57022,%ecx
	movl	$16,%edx
	cmovel	%ecx,%edx
	movw	%dx,-4(%r12,%r13)
5:
	movl	%eax,%ecx
	shrl	$10,%ecx
	andl	$-4,%eax
	shll	$6,%eax
	movzbl	%cl,%ecx
	orl	%eax,%ecx
	movw	%cx,-2(%r12,%r13)
	movb	$1,%cl
	xorl	%eax,%eax
	xorl	%edx,%edx
	movl	36(%rsp),%esi
	jmp	5f
4:
	movzbl	152(%rsp),%eax
	movl	%eax,36(%rsp)
	movzbl	153(%rsp),%ebp
	movq	56(%rsp),%rax
	movq	96(%rsp),%rbx
	movq	1248(%rsp),%r14
	movq	1280(%rsp),%r15
	leaq	112(%rsp),%r10
	leaq	232(%rsp),%r11
3:
	cmpb	$1,36(%rsp)
	jne	3f
	testb	%bpl,%bpl
	jne	3f
	movq	%rbx,%r12
2:
	movq	%rax,352(%rsp)
	movq	%r12,360(%rsp)
	movq	88(%rsp),%rax
	movq	%rax,368(%rsp)
	movl	52(%rsp),%eax
	movb	%al,376(%rsp)
	movl	48(%rsp),%eax
	movb	%al,377(%rsp)
	leaq	384(%rsp),%rdi
	leaq	352(%rsp),%rsi
	leaq	224(%rsp),%rdx
	leaq	448(%rsp),%r9
	movq	40(%rsp),%rcx
	movq	1272(%rsp),%r8
	callq	"rtp_b236e5ea_rtp_route::making::make_by_calls_of::<#687967002a58489c>"
	movzbl	384(%rsp),%edx
	movq	392(%rsp),%rbx
	movzbl	400(%rsp),%ecx
	movzbl	401(%rsp),%esi
	movq	408(%rsp),%rax
	jmp	5f
3:
	leaq	424(%rsp),%rcx
	movq	%rax,576(%rsp)
	movq	%rbx,584(%rsp)
	movq	88(%rsp),%rax
	movq	%rax,592(%rsp)
	movl	48(%rsp),%eax
	movb	%al,601(%rsp)
	pxor	%xmm0,%xmm0
	movdqa	%xmm0,608(%rsp)
	movq	$0,624(%rsp)
	movq	%r10,416(%rsp)
	movq	16(%r11),%rax
	movq	%rax,16(%rcx)
	movdqu	(%r11),%xmm0
	movdqu	%xmm0,(%rcx)
	leaq	448(%rsp),%rax
	movq	%rax,(%rsp)
	leaq	192(%rsp),%rdi
	leaq	576(%rsp),%rsi
	leaq	608(%rsp),%rdx
	leaq	416(%rsp),%rcx
	movq	40(%rsp),%r8
	movq	1272(%rsp),%r9
	callq	"rtp_b236e5ea_rtp_route::by_walk::write_in_two_byte_form::<#687967002a58489c>"
	movq	96(%rsp),%r12
	movq	56(%rsp),%rax
	cmpb	$1,192(%rsp)
	jne	2b
	movq	200(%rsp),%rbx
	movzbl	208(%rsp),%ecx
	movzbl	209(%rsp),%esi
	xorl	%eax,%eax
	xorl	%edx,%edx
	jmp	5f
6:
	movl	$1,%ebx
	xorl	%eax,%eax
	xorl	%esi,%esi
	xorl	%ecx,%ecx
	jmp	2f
7:
	movq	%rax,320(%rsp)
	movq	%r12,328(%rsp)
	movq	88(%rsp),%rax
	movq	%rax,336(%rsp)
	movl	52(%rsp),%eax
	movb	%al,344(%rsp)
	movl	48(%rsp),%eax
	movb	%al,345(%rsp)
	leaq	256(%rsp),%rdi
	leaq	320(%rsp),%rsi
	leaq	112(%rsp),%rdx
	leaq	448(%rsp),%r9
	movq	40(%rsp),%rcx
	movq	1272(%rsp),%r8
	callq	"rtp_b236e5ea_rtp_route::making::make_by_calls::<#d57726891005992a>"
	movq	264(%rsp),%rbx
	movzbl	272(%rsp),%ecx
	movzbl	273(%rsp),%esi
	movq	280(%rsp),%rax
	movzbl	256(%rsp),%edx
5:
	testb	%dl,%dl
	jne	2f
	xorl	%eax,%eax
	pxor	%xmm0,%xmm0
	movdqu	%xmm0,52(%r15)
	movdqu	%xmm0,36(%r15)
	movdqu	%xmm0,20(%r15)
	movdqu	%xmm0,4(%r15)
	movdqu	%xmm0,71(%r15)
	testq	%r14,%r14
	je	3f
	leaq	4(%r15),%rdx
	leaq	71(%r15),%rcx
	cmpq	$8,%r14
	jb	4f
	leaq	(%r15,%r14,4),%rsi
	addq	$4,%rsi
	leaq	(%r15,%r14),%rdi
	addq	$71,%rdi
	cmpq	%rdi,%rdx
	setb	%dil
	cmpq	%rsi,%rcx
	setb	%sil
	testb	%sil,%dil
	je	5f
4:
	xorl	%edi,%edi
	xorl	%esi,%esi
4:
	movq	%rsi,%r9
	orq	$1,%r9
	testb	$1,%r14b
	jne	6f
	jmp	7f
3:
	xorl	%r8d,%r8d
	jmp	3f
6:
	movq	448(%rsp,%rsi,8),%r8
	movl	%r8d,%r10d
	shrq	$32,%r8
	movl	%r10d,(%rdx,%rsi,4)
	movb	%r8b,(%rcx,%rsi)
	addl	%r8d,%edi
	movl	%edi,%r8d
	movq	%r9,%rsi
7:
	cmpq	%r9,%r14
	je	3f
	movq	%r14,%rcx
	subq	%rsi,%rcx
	leaq	(%rsi,%r15),%rdx
	addq	$72,%rdx
	leaq	(%r15,%rsi,4),%r9
	addq	$8,%r9
	leaq	(%rsp,%rsi,8),%rsi
	addq	$456,%rsi
	xorl	%r10d,%r10d
6:
	movq	-8(%rsi,%r10,8),%r8
	movl	%r8d,%r11d
	shrq	$32,%r8
	movl	%r11d,-4(%r9,%r10,4)
	movb	%r8b,-1(%rdx,%r10)
	addl	%r8d,%edi
	movq	(%rsi,%r10,8),%r8
	movl	%r8d,%r11d
	shrq	$32,%r8
	movl	%r11d,(%r9,%r10,4)
	movb	%r8b,(%rdx,%r10)
	addl	%edi,%r8d
	addq	$2,%r10
	movl	%r8d,%edi
	cmpq	%r10,%rcx
	jne	6b
	jmp	3f
5:
	movl	%r14d,%esi
	andl	$28,%esi
	xorl	%edi,%edi
	pxor	%xmm1,%xmm1
5:
	movdqu	448(%rsp,%rdi,8),%xmm2
	movdqu	464(%rsp,%rdi,8),%xmm3
	pshufd	$232,%xmm2,%xmm4
	pshufd	$232,%xmm3,%xmm5
	punpcklqdq	%xmm5,%xmm4
	psrlq	$32,%xmm2
	psrlq	$32,%xmm3
	movdqu	%xmm4,4(%r15,%rdi,4)
	movd	.Lrtp_b236e5ea_CPI154_1(%rip),%xmm4
	pshufd	$232,%xmm2,%xmm5
	pshufb	%xmm4,%xmm2
	pshufd	$232,%xmm3,%xmm6
	pextrw	$0,%xmm2,71(%r15,%rdi)
	pshufb	%xmm4,%xmm3
	pextrw	$0,%xmm3,73(%r15,%rdi)
	pshuflw	$232,%xmm5,%xmm2
	paddw	%xmm2,%xmm1
	pshuflw	$232,%xmm6,%xmm2
	paddw	%xmm2,%xmm0
	addq	$4,%rdi
	cmpq	%rdi,%rsi
	jne	5b
	paddw	%xmm1,%xmm0
	movdqa	%xmm0,%xmm1
	psrld	$16,%xmm1
	paddw	%xmm0,%xmm1
	movd	%xmm1,%edi
	movl	%edi,%r8d
	cmpq	%rsi,%r14
	jne	4b
3:
	movl	%ebx,(%r15)
	movw	%r8w,68(%r15)
	movb	%r14b,70(%r15)
1:
	addq	$1192,%rsp
	.cfi_def_cfa_offset 56
	popq	%rbx
	.cfi_def_cfa_offset 48
	popq	%r12
	.cfi_def_cfa_offset 40
	popq	%r13
	.cfi_def_cfa_offset 32
	popq	%r14
	.cfi_def_cfa_offset 24
	popq	%r15
	.cfi_def_cfa_offset 16
	popq	%rbp
	.cfi_def_cfa_offset 8
	retq
2:
	.cfi_def_cfa_offset 1248
	movzbl	%bl,%edx
	movq	%rdx,160(%rsp)
	movb	%cl,168(%rsp)
	movb	%sil,169(%rsp)
	movq	%rax,176(%rsp)
	leaq	160(%rsp),%rdi
	callq	"rtp_b236e5ea_rtp_c::template::not_routed_status"
	jmp	1b
	.size	rtp_b236e5ea_rtpw_make_template,.-rtp_b236e5ea_rtpw_make_template
	.cfi_endproc

	.section	.text.rtpw_receiver_receive,"ax",@progbits
	.globl	rtp_b236e5ea_rtpw_receiver_receive
	.p2align	4
	.type	rtp_b236e5ea_rtpw_receiver_receive,@function
rtp_b236e5ea_rtpw_receiver_receive:
	.cfi_startproc
	movq	(%rdi),%rax
	cmpq	$-1,%rax
	je	"rtp_b236e5ea_rtp_c::receiver::receive_any"
	cmpb	$1,24(%rdi)
	jne	"rtp_b236e5ea_rtp_c::receiver::receive_any"
	incq	%rax
	cmpw	%ax,%si
	jne	"rtp_b236e5ea_rtp_c::receiver::receive_any"
	movq	8(%rdi),%rcx
	leaq	(%rcx,%rcx),%rsi
	orq	$3,%rsi
	movq	%rax,(%rdi)
	movq	%rsi,8(%rdi)
	shldq	$1,%rcx,16(%rdi)
	movq	%rax,(%rdx)
	xorl	%eax,%eax
	retq
	.size	rtp_b236e5ea_rtpw_receiver_receive,.-rtp_b236e5ea_rtpw_receiver_receive
	.cfi_endproc

	.section	.text.rtpw_receive_many,"ax",@progbits
	.globl	rtp_b236e5ea_rtpw_receive_many
	.p2align	4
	.type	rtp_b236e5ea_rtpw_receive_many,@function
rtp_b236e5ea_rtpw_receive_many:
	.cfi_startproc
	pushq	%r15
	.cfi_def_cfa_offset 16
	pushq	%r14
	.cfi_def_cfa_offset 24
	pushq	%r12
	.cfi_def_cfa_offset 32
	pushq	%rbx
	.cfi_def_cfa_offset 40
	pushq	%rax
	.cfi_def_cfa_offset 48
	.cfi_offset %rbx,-40
	.cfi_offset %r12,-32
	.cfi_offset %r14,-24
	.cfi_offset %r15,-16
	movq	%rcx,%rbx
	movq	%rsi,%r14
	movq	%rdi,%r15
	xorl	%ecx,%ecx
	testq	%rdi,%rdi
	sete	%dil
	xorl	%eax,%eax
	testq	%rdx,%rdx
	sete	%sil
	testq	%rbx,%rbx
	je	1f
	movb	%dil,%cl
	shll	$12,%ecx
	addq	%rcx,%r15
	movb	%sil,%al
	shll	$12,%eax
	leaq	(%rax,%rdx),%r12
	addq	$20,%r12
	jmp	2f
	.p2align	4
3:
	movl	$9,(%r12)
	addq	$24,%r12
	decq	%rbx
	je	1f
2:
	movq	-20(%r12),%rcx
	cmpq	%rcx,%r14
	jbe	3b
	shlq	$5,%rcx
	leaq	(%r15,%rcx),%rdi
	movzwl	-4(%r12),%esi
	leaq	-12(%r12),%rdx
	movq	(%r15,%rcx),%rax
	cmpq	$-1,%rax
	je	3f
	cmpb	$1,24(%r15,%rcx)
	jne	3f
	incq	%rax
	cmpw	%ax,%si
	jne	3f
	movq	8(%rdi),%rcx
	leaq	(%rcx,%rcx),%rsi
	orq	$3,%rsi
	movq	%rax,(%rdi)
	movq	%rsi,8(%rdi)
	shldq	$1,%rcx,16(%rdi)
	movq	%rax,(%rdx)
	xorl	%eax,%eax
	jmp	4f
	.p2align	4
3:
	callq	"rtp_b236e5ea_rtp_c::receiver::receive_any"
4:
	movl	%eax,(%r12)
	addq	$24,%r12
	decq	%rbx
	jne	2b
1:
	addq	$8,%rsp
	.cfi_def_cfa_offset 40
	popq	%rbx
	.cfi_def_cfa_offset 32
	popq	%r12
	.cfi_def_cfa_offset 24
	popq	%r14
	.cfi_def_cfa_offset 16
	popq	%r15
	.cfi_def_cfa_offset 8
	retq
	.size	rtp_b236e5ea_rtpw_receive_many,.-rtp_b236e5ea_rtpw_receive_many
	.cfi_endproc

	.section	.text.rtpw_wide_receiver_receive,"ax",@progbits
	.globl	rtp_b236e5ea_rtpw_wide_receiver_receive
	.p2align	4
	.type	rtp_b236e5ea_rtpw_wide_receiver_receive,@function
rtp_b236e5ea_rtpw_wide_receiver_receive:
	.cfi_startproc
	movl	%ecx,%r10d
	xorl	%ecx,%ecx
	testq	%rsi,%rsi
	sete	%r9b
	leaq	-1(%rdx),%r11
	movl	$9,%eax
	cmpq	$511,%r11
	ja	1f
	movb	%r9b,%cl
	shll	$12,%ecx
	addq	%rcx,%rsi
	cmpb	$0,8(%rdi)
	movq	(%rdi),%rcx
	je	2f
	subl	%ecx,%r10d
	movzwl	%r10w,%eax
	leaq	(%rax,%rcx),%r9
	testw	%ax,%ax
	jns	3f
	xorl	%eax,%eax
	negw	%r10w
	seto	%al
	shll	$16,%eax
	addq	$-65536,%rax
	testw	%cx,%cx
	movq	$-65536,%r10
	cmovnsq	%rax,%r10
	addq	%r10,%r9
3:
	movq	%r9,%rax
	xorq	%rcx,%rax
	cmpq	$63,%rax
	ja	3f
	cmpq	%rcx,%r9
	jbe	3f
	movq	%r9,%rax
	subq	%rcx,%rax
	cmpq	$1,%rax
	jne	3f
	cmpq	$16,%rdx
	jne	4f
	movl	$1,%eax
	shlq	%cl,%rax
	shrl	$3,%ecx
	andl	$120,%ecx
	orq	%rax,(%rsi,%rcx)
	movl	%r9d,%edx
	shrl	$6,%edx
	andl	$15,%edx
	jmp	5f
2:
	andq	$-65536,%rcx
	movzwl	%r10w,%r9d
	orq	%rcx,%r9
3:
	movq	%r9,%rcx
	jmp	"rtp_b236e5ea_rtp_c::wide_receiver::receive_other"
4:
	movq	%rcx,%rax
	shrq	$6,%rax
	movq	%rax,%r11
	movq	%rdx,%r10
	orq	%rdx,%r11
	shrq	$32,%r11
	je	2f
	xorl	%edx,%edx
	divq	%r10
	jmp	3f
2:
	xorl	%edx,%edx
	divl	%r10d
3:
	movl	$1,%eax
	shlq	%cl,%rax
	orq	%rax,(%rsi,%rdx,8)
	movq	%r9,%rax
	shrq	$6,%rax
	movq	%rax,%rcx
	orq	%r10,%rcx
	shrq	$32,%rcx
	je	2f
	xorl	%edx,%edx
	divq	%r10
	jmp	5f
2:
	xorl	%edx,%edx
	divl	%r10d
5:
	movl	$1,%eax
	movl	%r9d,%ecx
	shlq	%cl,%rax
	orq	%rax,(%rsi,%rdx,8)
	movq	%r9,(%rdi)
	movb	$1,8(%rdi)
	movq	%r9,(%r8)
	xorl	%eax,%eax
1:
	retq
	.size	rtp_b236e5ea_rtpw_wide_receiver_receive,.-rtp_b236e5ea_rtpw_wide_receiver_receive
	.cfi_endproc

	.section	.text.rtpw_wide_receiver_record,"ax",@progbits
	.globl	rtp_b236e5ea_rtpw_wide_receiver_record
	.p2align	4
	.type	rtp_b236e5ea_rtpw_wide_receiver_record,@function
rtp_b236e5ea_rtpw_wide_receiver_record:
	.cfi_startproc
	pushq	%r15
	.cfi_def_cfa_offset 16
	pushq	%r14
	.cfi_def_cfa_offset 24
	pushq	%r12
	.cfi_def_cfa_offset 32
	pushq	%rbx
	.cfi_def_cfa_offset 40
	pushq	%rax
	.cfi_def_cfa_offset 48
	.cfi_offset %rbx,-40
	.cfi_offset %r12,-32
	.cfi_offset %r14,-24
	.cfi_offset %r15,-16
	xorl	%r8d,%r8d
	testq	%rsi,%rsi
	sete	%r9b
	leaq	-1(%rdx),%r10
	movl	$9,%eax
	cmpq	$511,%r10
	ja	1f
	movb	%r9b,%r8b
	shll	$12,%r8d
	addq	%r8,%rsi
	cmpb	$0,8(%rdi)
	je	2f
	movq	(%rdi),%r8
	movl	$10,%eax
	movq	%r8,%r9
	subq	%rcx,%r9
	je	1f
	jae	3f
4:
	movq	%r8,%rax
	shrq	$6,%rax
	cmpq	$16,%rdx
	jne	5f
	movq	%rdx,%r9
	movq	%rcx,%r10
	andl	$15,%eax
	jmp	6f
2:
	movq	%rdi,%rbx
	movq	%rsi,%rdi
	movq	%rdx,%rsi
	movq	%rcx,%rdx
	movq	%rcx,%r14
	callq	"rtp_b236e5ea_rtp_base::ring::ring_start"
	movq	%r14,%r8
	movq	%rbx,%rdi
2:
	movq	%r8,(%rdi)
	movb	$1,8(%rdi)
	xorl	%eax,%eax
1:
	addq	$8,%rsp
	.cfi_def_cfa_offset 40
	popq	%rbx
	.cfi_def_cfa_offset 32
	popq	%r12
	.cfi_def_cfa_offset 24
	popq	%r14
	.cfi_def_cfa_offset 16
	popq	%r15
	.cfi_def_cfa_offset 8
	retq
3:
	.cfi_def_cfa_offset 48
	shrq	$6,%r9
	cmpq	%rdx,%r9
	jae	1b
	movq	%rcx,%r9
	shrq	$6,%r9
	cmpq	$16,%rdx
	jne	3f
	andl	$15,%r9d
	jmp	7f
5:
	movq	%rax,%r10
	movq	%rdx,%r9
	orq	%rdx,%r10
	shrq	$32,%r10
	je	5f
	movq	%rcx,%r10
	xorl	%edx,%edx
	divq	%r9
	movq	%rdx,%rax
	jmp	6f
3:
	movq	%r9,%rax
	movq	%rdx,%r10
	orq	%rdx,%rax
	shrq	$32,%rax
	je	3f
	movq	%r9,%rax
	xorl	%edx,%edx
	divq	%r10
	movq	%rdx,%r9
	jmp	8f
5:
	movq	%rcx,%r10
	xorl	%edx,%edx
	divl	%r9d
	movl	%edx,%eax
6:
	movl	$1,%edx
	movl	%r8d,%ecx
	shlq	%cl,%rdx
	orq	%rdx,(%rsi,%rax,8)
	movq	%r8,%rax
	movq	%r10,%rcx
	subq	%r10,%rax
	jae	5f
	movq	%rcx,%rax
	subq	%r8,%rax
	cmpq	$2,%rax
	movq	%r9,%rdx
	jb	6f
	incq	%r8
	movq	%rdi,%r14
	movq	%rsi,%rdi
	movq	%rsi,%r15
	movq	%rdx,%rsi
	movq	%rdx,%r12
	movq	%r8,%rdx
	movq	%rcx,%rbx
	callq	"rtp_b236e5ea_rtp_base::ring::clear"
	movq	%r12,%rdx
	movq	%rbx,%rcx
	movq	%r15,%rsi
	movq	%r14,%rdi
6:
	movq	%rcx,%rax
	shrq	$6,%rax
	cmpq	$16,%rdx
	jne	6f
	andl	$15,%eax
	jmp	9f
5:
	shrq	$6,%rax
	cmpq	%r9,%rax
	jae	2b
	movq	%r9,%rdx
	movq	%rcx,%rax
	shrq	$6,%rax
	movl	$1,%r9d
	shlq	%cl,%r9
	cmpq	$16,%rdx
	jne	5f
	shll	$3,%eax
	andl	$120,%eax
	movq	(%rsi,%rax),%rcx
	testq	%r9,%rcx
	jne	2b
	jmp	10f
6:
	movq	%rax,%r9
	movq	%rdx,%r8
	orq	%rdx,%r9
	shrq	$32,%r9
	je	6f
	xorl	%edx,%edx
	divq	%r8
	movq	%rdx,%rax
	jmp	9f
5:
	movq	%rax,%r10
	movq	%rdx,%rcx
	orq	%rdx,%r10
	shrq	$32,%r10
	je	5f
	xorl	%edx,%edx
	divq	%rcx
	movq	%rdx,%rax
	jmp	11f
6:
	xorl	%edx,%edx
	divl	%r8d
	movl	%edx,%eax
9:
	movl	$1,%edx
	shlq	%cl,%rdx
	movq	%rcx,%r8
	orq	%rdx,(%rsi,%rax,8)
	jmp	2b
3:
	movl	%r9d,%eax
	xorl	%edx,%edx
	divl	%r10d
	movl	%edx,%r9d
8:
	movq	%r10,%rdx
	movl	$10,%eax
7:
	movq	(%rsi,%r9,8),%r9
	btq	%rcx,%r9
	jb	1b
	jmp	4b
5:
	xorl	%edx,%edx
	divl	%ecx
	movl	%edx,%eax
11:
	movq	(%rsi,%rax,8),%rcx
	testq	%r9,%rcx
	jne	2b
	shlq	$3,%rax
10:
	orq	%r9,%rcx
	movq	%rcx,(%rsi,%rax)
	jmp	2b
	.size	rtp_b236e5ea_rtpw_wide_receiver_record,.-rtp_b236e5ea_rtpw_wide_receiver_record
	.cfi_endproc

	.section	.text.rtpw_restarting_receive,"ax",@progbits
	.globl	rtp_b236e5ea_rtpw_restarting_receive
	.p2align	4
	.type	rtp_b236e5ea_rtpw_restarting_receive,@function
rtp_b236e5ea_rtpw_restarting_receive:
	.cfi_startproc
	pushq	%r15
	.cfi_def_cfa_offset 16
	pushq	%r14
	.cfi_def_cfa_offset 24
	pushq	%r13
	.cfi_def_cfa_offset 32
	pushq	%r12
	.cfi_def_cfa_offset 40
	pushq	%rbx
	.cfi_def_cfa_offset 48
	subq	$96,%rsp
	.cfi_def_cfa_offset 144
	.cfi_offset %rbx,-48
	.cfi_offset %r12,-40
	.cfi_offset %r13,-32
	.cfi_offset %r14,-24
	.cfi_offset %r15,-16
	movq	%rdx,%rbx
	movq	%rdi,%r14
	movq	$0,40(%rsp)
	movzbl	30(%rdi),%r8d
	testb	%r8b,%r8b
	je	1f
	movq	(%r14),%r15
	movups	8(%r14),%xmm0
	movl	$1,%edx
	movl	%r15d,%ecx
	shlq	%cl,%rdx
	movaps	%xmm0,48(%rsp)
	movl	$1,%eax
	movl	%r15d,%ecx
	shrl	$3,%ecx
	andl	$8,%ecx
	orq	%rdx,48(%rsp,%rcx)
	jmp	2f
1:
	xorps	%xmm0,%xmm0
	movaps	%xmm0,48(%rsp)
	movl	$1,%r15d
	xorl	%eax,%eax
2:
	movzwl	24(%r14),%ecx
	testw	%cx,%cx
	movl	$3000,%edi
	cmovnel	%ecx,%edi
	movzbl	29(%r14),%ecx
	movzwl	26(%r14),%edx
	movzbl	28(%r14),%r9d
	movq	%rax,(%rsp)
	movq	%r15,8(%rsp)
	leaq	16(%rsp),%r12
	movaps	48(%rsp),%xmm0
	movups	%xmm0,16(%rsp)
	movw	%di,32(%rsp)
	movl	$0,34(%rsp)
	movb	%r9b,38(%rsp)
	movb	$0,39(%rsp)
	movw	%dx,42(%rsp)
	testb	%r8b,%r8b
	je	1f
	movl	%esi,%r8d
	subl	%r15d,%r8d
	movzwl	%r8w,%r9d
	leaq	(%r9,%r15),%r13
	testw	%r9w,%r9w
	jns	2f
	xorl	%r9d,%r9d
	negw	%r8w
	seto	%r9b
	shll	$16,%r9d
	addq	$-65536,%r9
	testw	%r15w,%r15w
	movq	$-65536,%r8
	cmovnsq	%r9,%r8
	addq	%r8,%r13
2:
	movq	%r13,%r8
	subq	%r15,%r8
	setb	%r9b
	movzwl	%di,%edi
	cmpq	%rdi,%r8
	setb	%r10b
	orb	%r9b,%r10b
	movq	%r15,%rdi
	subq	%r13,%rdi
	setb	%r9b
	cmpq	$128,%rdi
	setb	%r11b
	orb	%r9b,%r11b
	testb	%r11b,%r10b
	je	2f
	movb	$0,40(%rsp)
	cmpq	%r13,%r15
	jae	3f
	movb	$1,%al
	cmpq	$2,%r8
	jb	4f
	incq	%r15
	movl	$2,%esi
	movq	%r12,%rdi
	movq	%r15,%rdx
	movq	%r13,%rcx
	callq	"rtp_b236e5ea_rtp_base::ring::clear"
	movzbl	(%rsp),%eax
4:
	movl	$1,%edx
	movl	%r13d,%ecx
	shlq	%cl,%rdx
	movl	%r13d,%ecx
	shrl	$3,%ecx
	andl	$8,%ecx
	orq	%rdx,16(%rsp,%rcx)
	movq	%r13,%r15
	xorl	%ecx,%ecx
	testb	%al,%al
	jne	4f
	jmp	5f
1:
	cmpb	$1,%r9b
	adcb	$-1,%r9b
	movq	%r15,%rdi
	cmpw	%dx,%si
	jne	1f
6:
	movq	%rdi,%rdx
	shrq	$48,%rdx
	sete	%dl
	cmpb	%r9b,%cl
	setae	%r8b
	testb	%dl,%r8b
	jne	7f
	incb	%cl
	movzbl	%cl,%edx
	movl	$255,%ecx
	cmovnel	%edx,%ecx
	jmp	8f
2:
	movq	%r15,%rdi
	shrq	$16,%rdi
	addq	$2,%rdi
	movb	$1,%r9b
	cmpw	%dx,%si
	je	6b
1:
	movq	%rdi,%rcx
	shrq	$48,%rcx
	sete	%dl
	testb	%r9b,%r9b
	sete	%r8b
	movb	$1,%cl
	testb	%dl,%r8b
	je	8f
7:
	shlq	$16,%rdi
	movzwl	%si,%r15d
	orq	%rdi,%r15
	movb	$0,40(%rsp)
	xorps	%xmm0,%xmm0
	testq	%rax,%rax
	je	1f
	movaps	%xmm0,80(%rsp)
	leaq	80(%rsp),%rdi
	movl	$2,%esi
	movq	%r15,%rdx
	callq	"rtp_b236e5ea_rtp_base::ring::ring_start"
	movaps	80(%rsp),%xmm0
	movups	%xmm0,(%r12)
	movb	$1,%cl
	movq	%r15,%r13
	jmp	4f
8:
	movb	%cl,40(%rsp)
	incl	%esi
	movw	%si,42(%rsp)
	movb	$2,%cl
	xorl	%r13d,%r13d
	testb	%al,%al
	jne	4f
	jmp	5f
1:
	movaps	%xmm0,64(%rsp)
	leaq	64(%rsp),%rdi
	movl	$2,%esi
	movq	%r15,%rdx
	callq	"rtp_b236e5ea_rtp_base::ring::ring_start"
	movaps	64(%rsp),%xmm0
	movups	%xmm0,(%r12)
	movb	$1,%al
	movq	%r15,%r13
	xorl	%ecx,%ecx
	testb	%al,%al
	jne	4f
5:
	xorl	%eax,%eax
	jmp	1f
3:
	cmpq	$127,%rdi
	ja	2f
	movl	$1,%eax
	movl	%r13d,%ecx
	shlq	%cl,%rax
	movl	%r13d,%ecx
	shrl	$3,%ecx
	andl	$8,%ecx
	movq	16(%rsp,%rcx),%rdx
	btq	%r13,%rdx
	jae	3f
2:
	movb	$2,%cl
	xorl	%r13d,%r13d
4:
	movq	%r15,(%r14)
	movups	(%r12),%xmm0
	movups	%xmm0,8(%r14)
	movb	$1,%al
1:
	movb	%al,30(%r14)
	movzbl	40(%rsp),%eax
	movzwl	42(%rsp),%edx
	movb	%al,29(%r14)
	movw	%dx,26(%r14)
	cmpb	$2,%cl
	je	1f
	movzbl	%cl,%eax
	cmpl	$1,%eax
	jne	2f
	movq	%r13,(%rbx)
	movl	$12,%eax
	jmp	6f
1:
	movl	$10,%eax
	jmp	6f
2:
	movq	%r13,(%rbx)
	xorl	%eax,%eax
6:
	addq	$96,%rsp
	.cfi_def_cfa_offset 48
	popq	%rbx
	.cfi_def_cfa_offset 40
	popq	%r12
	.cfi_def_cfa_offset 32
	popq	%r13
	.cfi_def_cfa_offset 24
	popq	%r14
	.cfi_def_cfa_offset 16
	popq	%r15
	.cfi_def_cfa_offset 8
	retq
3:
	.cfi_def_cfa_offset 144
	orq	%rax,%rdx
	movq	%rdx,16(%rsp,%rcx)
	movb	$1,%al
	xorl	%ecx,%ecx
	testb	%al,%al
	jne	4b
	jmp	5b
	.size	rtp_b236e5ea_rtpw_restarting_receive,.-rtp_b236e5ea_rtpw_restarting_receive
	.cfi_endproc

	.section	.text.rtpw_wide_restarting_receive,"ax",@progbits
	.globl	rtp_b236e5ea_rtpw_wide_restarting_receive
	.p2align	4
	.type	rtp_b236e5ea_rtpw_wide_restarting_receive,@function
rtp_b236e5ea_rtpw_wide_restarting_receive:
	.cfi_startproc
	xorl	%r9d,%r9d
	testq	%rsi,%rsi
	sete	%r10b
	leaq	-1(%rdx),%r11
	movl	$9,%eax
	cmpq	$511,%r11
	ja	1f
	pushq	%rbp
	.cfi_def_cfa_offset 16
	pushq	%r15
	.cfi_def_cfa_offset 24
	pushq	%r14
	.cfi_def_cfa_offset 32
	pushq	%r13
	.cfi_def_cfa_offset 40
	pushq	%r12
	.cfi_def_cfa_offset 48
	pushq	%rbx
	.cfi_def_cfa_offset 56
	pushq	%rax
	.cfi_def_cfa_offset 64
	.cfi_offset %rbx,-56
	.cfi_offset %r12,-48
	.cfi_offset %r13,-40
	.cfi_offset %r14,-32
	.cfi_offset %r15,-24
	.cfi_offset %rbp,-16
	movb	%r10b,%r9b
	shll	$12,%r9d
	addq	%r9,%rsi
	movzwl	8(%rdi),%eax
	testw	%ax,%ax
	movl	$3000,%r11d
	cmovnel	%eax,%r11d
	movq	%rdx,%rax
	shlq	$6,%rax
	cmpq	$3001,%rax
	movl	$3000,%r15d
	cmovaeq	%rax,%r15
	movzwl	10(%rdi),%eax
	testq	%rax,%rax
	cmovneq	%rax,%r15
	movzbl	15(%rdi),%eax
	movzwl	12(%rdi),%ebp
	movzbl	16(%rdi),%r14d
	testb	%r14b,%r14b
	je	2f
	movq	(%rdi),%r9
	movl	%ecx,%r10d
	subl	%r9d,%r10d
	movzwl	%r10w,%r12d
	leaq	(%r12,%r9),%rbx
	testw	%r12w,%r12w
	jns	3f
	xorl	%r12d,%r12d
	negw	%r10w
	seto	%r12b
	shll	$16,%r12d
	addq	$-65536,%r12
	testw	%r9w,%r9w
	movq	$-65536,%r10
	cmovnsq	%r12,%r10
	addq	%r10,%rbx
3:
	movq	%rbx,%r10
	subq	%r9,%r10
	setb	%r12b
	movzwl	%r11w,%r11d
	cmpq	%r11,%r10
	setb	%r13b
	orb	%r12b,%r13b
	movq	%r9,%r11
	subq	%rbx,%r11
	setb	%r12b
	cmpq	%r11,%r15
	seta	%r15b
	cmpb	$1,%r13b
	jne	3f
	orb	%r15b,%r12b
	je	3f
	cmpq	%rbx,%r9
	jne	4f
5:
	xorl	%eax,%eax
	jmp	6f
2:
	movzbl	14(%rdi),%r10d
	cmpb	$1,%r10b
	adcb	$-1,%r10b
	movl	$1,%r9d
	cmpw	%bp,%cx
	jne	2f
7:
	movq	%r9,%r11
	shrq	$48,%r11
	sete	%r11b
	cmpb	%r10b,%al
	setae	%r10b
	testb	%r11b,%r10b
	jne	8f
	incb	%al
	movzbl	%al,%edx
	movl	$255,%eax
	cmovnel	%edx,%eax
	jmp	9f
3:
	shrq	$16,%r9
	addq	$2,%r9
	movb	$1,%r10b
	cmpw	%bp,%cx
	je	7b
2:
	movq	%r9,%rax
	shrq	$48,%rax
	sete	%r11b
	testb	%r10b,%r10b
	sete	%r10b
	movb	$1,%al
	testb	%r11b,%r10b
	je	9f
8:
	movq	%r8,%r15
	movq	%rdi,%r12
	shlq	$16,%r9
	movzwl	%cx,%ebx
	orq	%r9,%rbx
	movq	%rsi,%rdi
	movq	%rdx,%rsi
	movq	%rbx,%rdx
	callq	"rtp_b236e5ea_rtp_base::ring::ring_start"
	testb	%r14b,%r14b
	je	2f
	movw	$256,15(%r12)
	movw	%bp,12(%r12)
	movq	%rbx,(%r12)
	movq	%rbx,(%r15)
	movl	$12,%eax
	jmp	3f
9:
	incl	%ecx
	movl	%ecx,%ebp
6:
	movb	%al,15(%rdi)
	movw	%bp,12(%rdi)
	movl	$10,%eax
	jmp	3f
4:
	jae	4f
6:
	movq	%r9,%rax
	shrq	$6,%rax
	cmpq	$16,%rdx
	jne	7f
	movq	%rdx,%r14
	andl	$15,%eax
	jmp	8f
2:
	movq	%rbx,%r9
	movq	%r12,%rdi
	movq	%r15,%r8
	jmp	2f
4:
	movq	%r11,%rax
	shrq	$6,%rax
	cmpq	%rdx,%rax
	jae	5b
	movq	%rbx,%rax
	shrq	$6,%rax
	cmpq	$16,%rdx
	jne	4f
	andl	$15,%eax
	jmp	9f
7:
	movq	%rax,%rcx
	movq	%rdx,%r14
	orq	%rdx,%rcx
	shrq	$32,%rcx
	je	7f
	xorl	%edx,%edx
	divq	%r14
	movq	%rdx,%rax
	jmp	8f
4:
	movq	%rax,%r14
	movq	%rdx,%rcx
	orq	%rdx,%r14
	shrq	$32,%r14
	je	4f
	xorl	%edx,%edx
	divq	%rcx
	movq	%rdx,%rax
	jmp	10f
7:
	xorl	%edx,%edx
	divl	%r14d
	movl	%edx,%eax
8:
	movl	$1,%edx
	movl	%r9d,%ecx
	shlq	%cl,%rdx
	orq	%rdx,(%rsi,%rax,8)
	cmpq	%rbx,%r9
	jae	7f
	cmpq	$2,%r10
	movq	%r14,%rcx
	jb	8f
	incq	%r9
	movq	%rdi,%r14
	movq	%rsi,%rdi
	movq	%rsi,%r15
	movq	%rcx,%rsi
	movq	%rcx,%r12
	movq	%r9,%rdx
	movq	%rbx,%rcx
	movq	%r8,%r13
	callq	"rtp_b236e5ea_rtp_base::ring::clear"
	movq	%r12,%rcx
	movq	%r15,%rsi
	movq	%r13,%r8
	movq	%r14,%rdi
8:
	movq	%rbx,%rax
	shrq	$6,%rax
	cmpq	$16,%rcx
	jne	8f
	andl	$15,%eax
	jmp	11f
7:
	shrq	$6,%r11
	cmpq	%r14,%r11
	jae	2f
	movq	%rbx,%rax
	shrq	$6,%rax
	movl	$1,%r10d
	movl	%ebx,%ecx
	shlq	%cl,%r10
	cmpq	$16,%r14
	jne	7f
	shll	$3,%eax
	andl	$120,%eax
	movq	(%rsi,%rax),%rcx
	testq	%r10,%rcx
	jne	2f
	jmp	12f
8:
	movq	%rax,%rdx
	movq	%rcx,%r9
	orq	%rcx,%rdx
	shrq	$32,%rdx
	je	8f
	xorl	%edx,%edx
	divq	%r9
	movq	%rdx,%rax
	jmp	11f
7:
	movq	%rax,%rdx
	movq	%r14,%rcx
	orq	%r14,%rdx
	shrq	$32,%rdx
	je	7f
	xorl	%edx,%edx
	divq	%rcx
	movq	%rdx,%rax
	jmp	13f
8:
	xorl	%edx,%edx
	divl	%r9d
	movl	%edx,%eax
11:
	movl	$1,%edx
	movl	%ebx,%ecx
	shlq	%cl,%rdx
	orq	%rdx,(%rsi,%rax,8)
	movq	%rbx,%r9
2:
	movw	$256,15(%rdi)
	movw	%bp,12(%rdi)
	movq	%r9,(%rdi)
	movq	%rbx,(%r8)
	xorl	%eax,%eax
3:
	addq	$8,%rsp
	.cfi_def_cfa_offset 56
	popq	%rbx
	.cfi_def_cfa_offset 48
	popq	%r12
	.cfi_def_cfa_offset 40
	popq	%r13
	.cfi_def_cfa_offset 32
	popq	%r14
	.cfi_def_cfa_offset 24
	popq	%r15
	.cfi_def_cfa_offset 16
	popq	%rbp
	.cfi_def_cfa_offset 8
	.cfi_restore %rbx
	.cfi_restore %r12
	.cfi_restore %r13
	.cfi_restore %r14
	.cfi_restore %r15
	.cfi_restore %rbp
1:
	retq
4:
	.cfi_def_cfa_offset 64
	.cfi_offset %rbx,-56
	.cfi_offset %rbp,-16
	.cfi_offset %r12,-48
	.cfi_offset %r13,-40
	.cfi_offset %r14,-32
	.cfi_offset %r15,-24
	xorl	%edx,%edx
	divl	%ecx
	movl	%edx,%eax
10:
	movq	%rcx,%rdx
9:
	movq	(%rsi,%rax,8),%rax
	btq	%rbx,%rax
	jb	5b
	jmp	6b
7:
	xorl	%edx,%edx
	divl	%ecx
	movl	%edx,%eax
13:
	movq	(%rsi,%rax,8),%rcx
	testq	%r10,%rcx
	jne	2b
	shlq	$3,%rax
12:
	orq	%r10,%rcx
	movq	%rcx,(%rsi,%rax)
	jmp	2b
	.size	rtp_b236e5ea_rtpw_wide_restarting_receive,.-rtp_b236e5ea_rtpw_wide_restarting_receive
	.cfi_endproc

	.section	.text.rtpw_read_mixer_level,"ax",@progbits
	.globl	rtp_b236e5ea_rtpw_read_mixer_level
	.p2align	4
	.type	rtp_b236e5ea_rtpw_read_mixer_level,@function
rtp_b236e5ea_rtpw_read_mixer_level:
	.cfi_startproc
	cmpq	%rcx,%rdx
	setbe	%dl
	cmpq	%rsi,%rcx
	setae	%sil
	movl	$9,%eax
	orb	%dl,%sil
	jne	1f
	xorl	%eax,%eax
	testq	%rdi,%rdi
	sete	%al
	shll	$12,%eax
	addq	%rdi,%rax
	movzbl	(%rcx,%rax),%eax
	andb	$127,%al
	negb	%al
	movb	%al,(%r8)
	xorl	%eax,%eax
1:
	retq
	.size	rtp_b236e5ea_rtpw_read_mixer_level,.-rtp_b236e5ea_rtpw_read_mixer_level
	.cfi_endproc

	.section	.text.rtpw_read_ntp_56,"ax",@progbits
	.globl	rtp_b236e5ea_rtpw_read_ntp_56
	.p2align	4
	.type	rtp_b236e5ea_rtpw_read_ntp_56,@function
rtp_b236e5ea_rtpw_read_ntp_56:
	.cfi_startproc
	movl	$9,%eax
	cmpq	$7,%rsi
	jne	1f
	xorl	%eax,%eax
	testq	%rdi,%rdi
	sete	%al
	shll	$12,%eax
	movzwl	(%rdi,%rax),%ecx
	shll	$8,%ecx
	movl	3(%rdi,%rax),%esi
	shlq	$32,%rsi
	movzbl	2(%rdi,%rax),%eax
	shll	$24,%eax
	orl	%ecx,%eax
	orq	%rsi,%rax
	bswapq	%rax
	movq	%rax,(%rdx)
	xorl	%eax,%eax
1:
	retq
	.size	rtp_b236e5ea_rtpw_read_ntp_56,.-rtp_b236e5ea_rtpw_read_ntp_56
	.cfi_endproc

	.section	.text.rtpw_read_ntp_64,"ax",@progbits
	.globl	rtp_b236e5ea_rtpw_read_ntp_64
	.p2align	4
	.type	rtp_b236e5ea_rtpw_read_ntp_64,@function
rtp_b236e5ea_rtpw_read_ntp_64:
	.cfi_startproc
	movl	$9,%eax
	cmpq	$8,%rsi
	jne	1f
	xorl	%eax,%eax
	testq	%rdi,%rdi
	sete	%al
	shll	$12,%eax
	movq	(%rdi,%rax),%rax
	bswapq	%rax
	movq	%rax,(%rdx)
	xorl	%eax,%eax
1:
	retq
	.size	rtp_b236e5ea_rtpw_read_ntp_64,.-rtp_b236e5ea_rtpw_read_ntp_64
	.cfi_endproc

	.section	.text.rtpw_read_send_time,"ax",@progbits
	.globl	rtp_b236e5ea_rtpw_read_send_time
	.p2align	4
	.type	rtp_b236e5ea_rtpw_read_send_time,@function
rtp_b236e5ea_rtpw_read_send_time:
	.cfi_startproc
	movl	$9,%eax
	cmpq	$3,%rsi
	jne	1f
	xorl	%eax,%eax
	testq	%rdi,%rdi
	sete	%al
	shll	$12,%eax
	movzbl	(%rdi,%rax),%ecx
	movzwl	1(%rdi,%rax),%eax
	shll	$16,%eax
	shll	$8,%ecx
	orl	%eax,%ecx
	bswapl	%ecx
	movl	%ecx,(%rdx)
	xorl	%eax,%eax
1:
	retq
	.size	rtp_b236e5ea_rtpw_read_send_time,.-rtp_b236e5ea_rtpw_read_send_time
	.cfi_endproc

	.section	.text.rtpw_read_transmission_offset,"ax",@progbits
	.globl	rtp_b236e5ea_rtpw_read_transmission_offset
	.p2align	4
	.type	rtp_b236e5ea_rtpw_read_transmission_offset,@function
rtp_b236e5ea_rtpw_read_transmission_offset:
	.cfi_startproc
	movl	$9,%eax
	cmpq	$3,%rsi
	jne	1f
	xorl	%eax,%eax
	testq	%rdi,%rdi
	sete	%al
	shll	$12,%eax
	movzbl	(%rdi,%rax),%ecx
	movzwl	1(%rdi,%rax),%eax
	shll	$16,%eax
	shll	$8,%ecx
	orl	%eax,%ecx
	bswapl	%ecx
	leal	-16777216(%rcx),%eax
	cmpl	$8388608,%ecx
	cmovbl	%ecx,%eax
	movl	%eax,(%rdx)
	xorl	%eax,%eax
1:
	retq
	.size	rtp_b236e5ea_rtpw_read_transmission_offset,.-rtp_b236e5ea_rtpw_read_transmission_offset
	.cfi_endproc

	.section	.rodata.cst16,"aM",@progbits,16
	.p2align	4,0x0
.Lrtp_b236e5ea_CPI166_0:
	.byte	1
	.byte	0
	.byte	3
	.byte	2
	.byte	5
	.byte	4
	.byte	7
	.byte	6
	.byte	9
	.byte	8
	.byte	11
	.byte	10
	.byte	13
	.byte	12
	.byte	15
	.byte	14
	.section	.text.rtpw_write_timing,"ax",@progbits
	.globl	rtp_b236e5ea_rtpw_write_timing
	.p2align	4
	.type	rtp_b236e5ea_rtpw_write_timing,@function
rtp_b236e5ea_rtpw_write_timing:
	.cfi_startproc
	pushq	%r14
	.cfi_def_cfa_offset 16
	pushq	%rbx
	.cfi_def_cfa_offset 24
	subq	$24,%rsp
	.cfi_def_cfa_offset 48
	.cfi_offset %rbx,-24
	.cfi_offset %r14,-16
	movq	%rcx,%rbx
	xorl	%ecx,%ecx
	testq	%rsi,%rsi
	sete	%r8b
	movq	$0,13(%rsp)
	movq	$0,8(%rsp)
	movzwl	8(%rdi),%r9d
	movzwl	10(%rdi),%eax
	rolw	$8,%r9w
	rolw	$8,%ax
	cmpb	$0,13(%rdi)
	movq	(%rdi),%xmm0
	pshufb	.Lrtp_b236e5ea_CPI166_0(%rip),%xmm0
	je	1f
	movzbl	12(%rdi),%edi
	movb	%dil,8(%rsp)
	movq	%xmm0,9(%rsp)
	movw	%r9w,17(%rsp)
	movw	%ax,19(%rsp)
	movl	$13,%r14d
	movl	$8,%eax
	cmpq	%r14,%rdx
	jb	2f
3:
	movb	%r8b,%cl
	shll	$12,%ecx
	addq	%rcx,%rsi
	leaq	8(%rsp),%rax
	movq	%rsi,%rdi
	movq	%rax,%rsi
	movq	%r14,%rdx
	callq	memcpy@PLT
	movq	%r14,(%rbx)
	xorl	%eax,%eax
2:
	addq	$24,%rsp
	.cfi_def_cfa_offset 24
	popq	%rbx
	.cfi_def_cfa_offset 16
	popq	%r14
	.cfi_def_cfa_offset 8
	retq
1:
	.cfi_def_cfa_offset 48
	movq	%xmm0,8(%rsp)
	movw	%r9w,16(%rsp)
	movw	%ax,18(%rsp)
	movl	$12,%r14d
	movl	$8,%eax
	cmpq	%r14,%rdx
	jae	3b
	jmp	2b
	.size	rtp_b236e5ea_rtpw_write_timing,.-rtp_b236e5ea_rtpw_write_timing
	.cfi_endproc

	.section	.text.rtpw_packet_parse,"ax",@progbits
	.globl	rtp_b236e5ea_rtpw_packet_parse
	.p2align	4
	.type	rtp_b236e5ea_rtpw_packet_parse,@function
rtp_b236e5ea_rtpw_packet_parse:
	.cfi_startproc
	xorl	%eax,%eax
	testq	%rdi,%rdi
	sete	%cl
	cmpq	$12,%rsi
	jb	1f
	movb	%cl,%al
	shll	$12,%eax
	addq	%rax,%rdi
	movzbl	(%rdi),%r9d
	cmpb	$-65,%r9b
	jg	2f
	leal	(,%r9,4),%ecx
	andl	$60,%ecx
	leaq	12(%rcx),%rax
	movq	%rsi,%r8
	subq	%rax,%r8
	jb	3f
	testb	$16,%r9b
	jne	4f
	movb	$0,55(%rdx)
	movw	$0,56(%rdx)
	movq	%rax,24(%rdx)
	movq	$0,32(%rdx)
	jmp	5f
4:
	cmpq	$4,%r8
	jb	4f
	movzwl	2(%rdi,%rax),%r9d
	rolw	$8,%r9w
	addq	$-4,%r8
	movzwl	%r9w,%r9d
	shll	$2,%r9d
	cmpq	%r9,%r8
	jb	6f
	movzwl	12(%rdi,%rcx),%r10d
	movl	%r10d,%r8d
	andl	$61695,%r8d
	addq	%r9,%rax
	addq	$4,%rax
	movl	%r10d,%r9d
	rolw	$8,%r9w
	addb	$16,%cl
	movzbl	%cl,%ecx
	movq	%rax,%r11
	subq	%rcx,%r11
	movw	%r9w,56(%rdx)
	movq	%rcx,24(%rdx)
	movq	%r11,32(%rdx)
	cmpl	$57022,%r10d
	je	7f
	cmpw	$16,%r8w
	je	7f
	movb	$3,55(%rdx)
	jmp	5f
7:
	cmpw	$16,%r8w
	sete	%cl
	incb	%cl
	movb	%cl,55(%rdx)
5:
	movq	%rax,(%rdx)
	movq	%rsi,%rcx
	subq	%rax,%rcx
	testb	$32,(%rdi)
	movb	$1,%r8b
	jne	5f
	movq	%rcx,%rax
	jmp	7f
5:
	cmpq	%rax,%rsi
	jne	5f
	xorl	%eax,%eax
	jmp	7f
5:
	movzbl	-1(%rdi,%rsi),%esi
	xorl	%r9d,%r9d
	movq	%rcx,%rax
	subq	%rsi,%rax
	setae	%r8b
	cmovbq	%r9,%rax
	cmovbq	%r9,%rax
7:
	movq	%rcx,8(%rdx)
	movq	%rax,16(%rdx)
	movb	%r8b,54(%rdx)
	movl	4(%rdi),%eax
	bswapl	%eax
	movl	%eax,40(%rdx)
	movl	8(%rdi),%eax
	bswapl	%eax
	movl	%eax,44(%rdx)
	movzwl	2(%rdi),%eax
	rolw	$8,%ax
	movw	%ax,48(%rdx)
	movzbl	1(%rdi),%eax
	andb	$127,%al
	movb	%al,50(%rdx)
	movzbl	(%rdi),%eax
	andb	$15,%al
	movb	%al,51(%rdx)
	movzbl	1(%rdi),%eax
	shrb	$7,%al
	movb	%al,52(%rdx)
	movzbl	(%rdi),%eax
	shrb	$5,%al
	andb	$1,%al
	movb	%al,53(%rdx)
	xorl	%eax,%eax
	retq
1:
	xorl	%eax,%eax
	movzbl	%al,%edi
	jmp	"rtp_b236e5ea_rtp_c::status::refusal_status"
2:
	movb	$1,%al
	movzbl	%al,%edi
	jmp	"rtp_b236e5ea_rtp_c::status::refusal_status"
3:
	movb	$2,%al
	movzbl	%al,%edi
	jmp	"rtp_b236e5ea_rtp_c::status::refusal_status"
4:
	movb	$3,%al
	movzbl	%al,%edi
	jmp	"rtp_b236e5ea_rtp_c::status::refusal_status"
6:
	movb	$4,%al
	movzbl	%al,%edi
	jmp	"rtp_b236e5ea_rtp_c::status::refusal_status"
	.size	rtp_b236e5ea_rtpw_packet_parse,.-rtp_b236e5ea_rtpw_packet_parse
	.cfi_endproc

	.section	.text.rtpw_packet_parse_many,"ax",@progbits
	.globl	rtp_b236e5ea_rtpw_packet_parse_many
	.p2align	4
	.type	rtp_b236e5ea_rtpw_packet_parse_many,@function
rtp_b236e5ea_rtpw_packet_parse_many:
	.cfi_startproc
	pushq	%rbp
	.cfi_def_cfa_offset 16
	pushq	%r15
	.cfi_def_cfa_offset 24
	pushq	%r14
	.cfi_def_cfa_offset 32
	pushq	%r13
	.cfi_def_cfa_offset 40
	pushq	%r12
	.cfi_def_cfa_offset 48
	pushq	%rbx
	.cfi_def_cfa_offset 56
	pushq	%rax
	.cfi_def_cfa_offset 64
	.cfi_offset %rbx,-56
	.cfi_offset %r12,-48
	.cfi_offset %r13,-40
	.cfi_offset %r14,-32
	.cfi_offset %r15,-24
	.cfi_offset %rbp,-16
	movq	%rcx,%rbx
	movq	%rsi,%r14
	xorl	%ecx,%ecx
	testq	%rdi,%rdi
	sete	%r8b
	xorl	%eax,%eax
	testq	%rdx,%rdx
	sete	%sil
	testq	%rbx,%rbx
	je	1f
	movb	%r8b,%cl
	shll	$12,%ecx
	addq	%rcx,%rdi
	movb	%sil,%al
	shll	$12,%eax
	leaq	(%rax,%rdx),%r12
	addq	$84,%r12
	movq	%rdi,(%rsp)
	jmp	2f
	.p2align	4
3:
	movl	$9,-4(%r12)
	movb	$0,(%r12)
	addq	$88,%r12
	decq	%rbx
	je	1f
2:
	movq	-84(%r12),%r13
	movq	%r14,%rax
	subq	%r13,%rax
	jb	3b
	movq	-76(%r12),%rbp
	cmpq	%rbp,%rax
	jb	3b
	addq	%rdi,%r13
	cmpq	$12,%rbp
	jb	3f
	movzbl	(%r13),%esi
	cmpb	$-65,%sil
	jg	4f
	leal	(,%rsi,4),%ecx
	andl	$60,%ecx
	leaq	12(%rcx),%rax
	movq	%rbp,%rdx
	subq	%rax,%rdx
	jb	5f
	testb	$16,%sil
	jne	6f
	movb	$0,-13(%r12)
	movw	$0,-12(%r12)
	movq	%rax,-44(%r12)
	movq	$0,-36(%r12)
	jmp	7f
6:
	cmpq	$4,%rdx
	jb	6f
	movzwl	2(%r13,%rax),%esi
	rolw	$8,%si
	addq	$-4,%rdx
	movzwl	%si,%esi
	shll	$2,%esi
	cmpq	%rsi,%rdx
	jb	8f
	movzwl	12(%r13,%rcx),%r9d
	movl	%r9d,%edx
	andl	$61695,%edx
	addq	%rsi,%rax
	addq	$4,%rax
	movl	%r9d,%esi
	rolw	$8,%si
	addb	$16,%cl
	movzbl	%cl,%ecx
	movq	%rax,%r8
	subq	%rcx,%r8
	movw	%si,-12(%r12)
	movq	%rcx,-44(%r12)
	movq	%r8,-36(%r12)
	cmpl	$57022,%r9d
	je	9f
	cmpw	$16,%dx
	je	9f
	movb	$3,-13(%r12)
	jmp	7f
9:
	cmpw	$16,%dx
	sete	%cl
	incb	%cl
	movb	%cl,-13(%r12)
7:
	movq	%rax,-68(%r12)
	movq	%rbp,%rcx
	subq	%rax,%rcx
	testb	$32,(%r13)
	movb	$1,%dl
	jne	7f
	movq	%rcx,%rax
	jmp	9f
7:
	cmpq	%rax,%rbp
	jne	7f
	xorl	%eax,%eax
	jmp	9f
7:
	movzbl	-1(%r13,%rbp),%edx
	xorl	%esi,%esi
	movq	%rcx,%rax
	subq	%rdx,%rax
	setae	%dl
	cmovbq	%rsi,%rax
	cmovbq	%rsi,%rax
9:
	movq	%rcx,-60(%r12)
	movq	%rax,-52(%r12)
	movb	%dl,-14(%r12)
	movl	4(%r13),%eax
	bswapl	%eax
	movl	%eax,-28(%r12)
	movl	8(%r13),%eax
	bswapl	%eax
	movl	%eax,-24(%r12)
	movzwl	2(%r13),%eax
	rolw	$8,%ax
	movw	%ax,-20(%r12)
	movzbl	1(%r13),%eax
	andb	$127,%al
	movb	%al,-18(%r12)
	movzbl	(%r13),%eax
	andb	$15,%al
	movb	%al,-17(%r12)
	movzbl	1(%r13),%eax
	shrb	$7,%al
	movb	%al,-16(%r12)
	movzbl	(%r13),%eax
	shrb	$5,%al
	andb	$1,%al
	movb	%al,-15(%r12)
	movl	$0,-4(%r12)
7:
	movzbl	1(%r13),%eax
	cmpb	$-64,(%r13)
	setl	%cl
	andb	$-32,%al
	cmpb	$-64,%al
	sete	%r15b
	andb	%cl,%r15b
9:
	movb	%r15b,(%r12)
	addq	$88,%r12
	decq	%rbx
	jne	2b
	jmp	1f
3:
	xorl	%r15d,%r15d
	xorl	%edi,%edi
	callq	"rtp_b236e5ea_rtp_c::status::refusal_status"
	movq	(%rsp),%rdi
	movl	%eax,-4(%r12)
	cmpq	$2,%rbp
	jae	7b
	jmp	9b
4:
	movb	$1,%al
	jmp	2f
5:
	movb	$2,%al
	jmp	2f
6:
	movb	$3,%al
	jmp	2f
8:
	movb	$4,%al
2:
	movzbl	%al,%edi
	callq	"rtp_b236e5ea_rtp_c::status::refusal_status"
	movl	%eax,-4(%r12)
	movq	(%rsp),%rdi
	jmp	7b
1:
	addq	$8,%rsp
	.cfi_def_cfa_offset 56
	popq	%rbx
	.cfi_def_cfa_offset 48
	popq	%r12
	.cfi_def_cfa_offset 40
	popq	%r13
	.cfi_def_cfa_offset 32
	popq	%r14
	.cfi_def_cfa_offset 24
	popq	%r15
	.cfi_def_cfa_offset 16
	popq	%rbp
	.cfi_def_cfa_offset 8
	retq
	.size	rtp_b236e5ea_rtpw_packet_parse_many,.-rtp_b236e5ea_rtpw_packet_parse_many
	.cfi_endproc

	.section	.text.rtpw_read,"ax",@progbits
	.globl	rtp_b236e5ea_rtpw_read
	.p2align	4
	.type	rtp_b236e5ea_rtpw_read,@function
rtp_b236e5ea_rtpw_read:
	.cfi_startproc
	movq	%rdi,%rax
	xorl	%edi,%edi
	testq	%rax,%rax
	sete	%dil
	shll	$12,%edi
	addq	%rax,%rdi
	cmpq	$12,%rsi
	jb	1f
	movzbl	(%rdi),%r11d
	cmpb	$-65,%r11b
	jg	2f
	movl	%r11d,%eax
	andl	$15,%eax
	leaq	12(,%rax,4),%r9
	movq	%rsi,%rax
	subq	%r9,%rax
	jb	3f
	xorl	%r10d,%r10d
	xorl	%r8d,%r8d
	testb	$16,%r11b
	je	4f
	cmpq	$4,%rax
	jb	5f
	movzwl	2(%rdi,%r9),%r8d
	rolw	$8,%r8w
	addq	$-4,%rax
	movzwl	%r8w,%r11d
	shll	$2,%r11d
	cmpq	%r11,%rax
	jb	6f
	movzwl	(%rdi,%r9),%eax
	cmpl	$57022,%eax
	sete	%r8b
	andl	$61695,%eax
	cmpw	$16,%ax
	sete	%r10b
	addq	%r11,%r9
	addq	$4,%r9
	orb	%r10b,%r8b
4:
	movzbl	1(%rdi),%r11d
	andb	$-32,%r11b
	movl	$17,%eax
	cmpb	$-64,%r11b
	je	4f
	pushq	%rbp
	.cfi_def_cfa_offset 16
	pushq	%r14
	.cfi_def_cfa_offset 24
	pushq	%rbx
	.cfi_def_cfa_offset 32
	.cfi_offset %rbx,-32
	.cfi_offset %r14,-24
	.cfi_offset %rbp,-16
	movq	%r9,(%rcx)
	movl	4(%rdi),%eax
	bswapl	%eax
	movl	%eax,8(%rcx)
	movl	8(%rdi),%eax
	bswapl	%eax
	movl	%eax,12(%rcx)
	movzbl	(%rdi),%ebx
	xorps	%xmm0,%xmm0
	movups	%xmm0,60(%rcx)
	movups	%xmm0,48(%rcx)
	movups	%xmm0,32(%rcx)
	movups	%xmm0,16(%rcx)
	andl	$15,%ebx
	je	7f
	leaq	12(%rdi),%r11
	cmpb	$1,%bl
	jne	8f
	xorl	%eax,%eax
	jmp	9f
7:
	xorl	%eax,%eax
	jmp	7f
8:
	movl	%ebx,%r14d
	andl	$-2,%r14d
	xorl	%eax,%eax
	.p2align	4
8:
	movl	(%r11),%ebp
	bswapl	%ebp
	movl	%ebp,16(%rcx,%rax,4)
	movl	4(%r11),%ebp
	addq	$8,%r11
	bswapl	%ebp
	movl	%ebp,20(%rcx,%rax,4)
	addq	$2,%rax
	cmpq	%rax,%r14
	jne	8b
	testb	$1,%bl
	je	7f
9:
	leaq	16(%rcx),%rbx
	movl	(%r11),%r11d
	bswapl	%r11d
	movl	%r11d,(%rbx,%rax,4)
	incq	%rax
7:
	movb	%al,79(%rcx)
	movzwl	2(%rdi),%eax
	rolw	$8,%ax
	movw	%ax,76(%rcx)
	movzbl	1(%rdi),%eax
	andb	$127,%al
	movb	%al,78(%rcx)
	movzbl	1(%rdi),%eax
	shrb	$7,%al
	movb	%al,80(%rcx)
	movzbl	(%rdi),%eax
	shrb	$5,%al
	andb	$1,%al
	movb	%al,81(%rcx)
	movzbl	(%rdi),%eax
	shrb	$4,%al
	andb	$1,%al
	movb	%al,82(%rcx)
	movq	%rsi,%rax
	subq	%r9,%rax
	testb	$32,(%rdi)
	movb	$1,%r11b
	je	7f
	cmpq	%r9,%rsi
	jne	8f
	xorl	%eax,%eax
	jmp	7f
8:
	movzbl	-1(%rdi,%rsi),%esi
	xorl	%ebx,%ebx
	subq	%rsi,%rax
	setae	%r11b
	cmovbq	%rbx,%rax
	cmovbq	%rbx,%rax
7:
	movq	%rax,224(%rcx)
	movb	%r11b,251(%rcx)
	movzbl	(%rdi),%eax
	testb	$16,%al
	jne	7f
	movb	$0,250(%rcx)
	movw	$0,248(%rcx)
	movq	%r9,232(%rcx)
	movq	$0,240(%rcx)
	jmp	8f
7:
	shll	$2,%eax
	andl	$60,%eax
	movzwl	12(%rdi,%rax),%esi
	rolw	$8,%si
	addb	$16,%al
	movzbl	%al,%eax
	subq	%rax,%r9
	movw	%si,248(%rcx)
	movq	%rax,232(%rcx)
	movq	%r9,240(%rcx)
	testb	%r8b,%r8b
	je	7f
	addq	%rax,%rdi
	leal	1(%r10),%eax
	movb	%al,250(%rcx)
	leaq	88(%rcx),%r8
	xorps	%xmm0,%xmm0
	movups	%xmm0,88(%rcx)
	movups	%xmm0,104(%rcx)
	movups	%xmm0,120(%rcx)
	movups	%xmm0,136(%rcx)
	movups	%xmm0,152(%rcx)
	movups	%xmm0,168(%rcx)
	movups	%xmm0,184(%rcx)
	movups	%xmm0,200(%rcx)
	movq	$0,216(%rcx)
	movzbl	%r10b,%ecx
	movq	%rdi,%rsi
	movq	%rdx,%rdi
	movq	%r9,%rdx
	callq	"rtp_b236e5ea_rtp_ext::block_values::read_values::<#9a3a19c0cce455e9>"
	jmp	9f
7:
	movb	$3,250(%rcx)
8:
	xorps	%xmm0,%xmm0
	movups	%xmm0,200(%rcx)
	movups	%xmm0,184(%rcx)
	movups	%xmm0,168(%rcx)
	movups	%xmm0,152(%rcx)
	movups	%xmm0,136(%rcx)
	movups	%xmm0,120(%rcx)
	movups	%xmm0,104(%rcx)
	movups	%xmm0,88(%rcx)
	movq	$0,216(%rcx)
9:
	xorl	%eax,%eax
	popq	%rbx
	.cfi_def_cfa_offset 24
	popq	%r14
	.cfi_def_cfa_offset 16
	popq	%rbp
	.cfi_def_cfa_offset 8
	.cfi_restore %rbx
	.cfi_restore %r14
	.cfi_restore %rbp
4:
	retq
1:
	xorl	%eax,%eax
	movzbl	%al,%edx
	jmp	"rtp_b236e5ea_rtp_c::whole_packet::status_of_no_packet"
2:
	movb	$1,%al
	movzbl	%al,%edx
	jmp	"rtp_b236e5ea_rtp_c::whole_packet::status_of_no_packet"
3:
	movb	$2,%al
	movzbl	%al,%edx
	jmp	"rtp_b236e5ea_rtp_c::whole_packet::status_of_no_packet"
5:
	movb	$3,%al
	movzbl	%al,%edx
	jmp	"rtp_b236e5ea_rtp_c::whole_packet::status_of_no_packet"
6:
	movb	$4,%al
	movzbl	%al,%edx
	jmp	"rtp_b236e5ea_rtp_c::whole_packet::status_of_no_packet"
	.size	rtp_b236e5ea_rtpw_read,.-rtp_b236e5ea_rtpw_read
	.cfi_endproc

	.section	.rodata.cst16,"aM",@progbits,16
	.p2align	4,0x0
.Lrtp_b236e5ea_CPI170_0:
	.byte	3
	.byte	2
	.byte	1
	.byte	0
	.byte	7
	.byte	6
	.byte	5
	.byte	4
	.zero	1
	.zero	1
	.zero	1
	.zero	1
	.zero	1
	.zero	1
	.zero	1
	.zero	1
	.section	.text.rtpw_read_fixed_part,"ax",@progbits
	.globl	rtp_b236e5ea_rtpw_read_fixed_part
	.p2align	4
	.type	rtp_b236e5ea_rtpw_read_fixed_part,@function
rtp_b236e5ea_rtpw_read_fixed_part:
	.cfi_startproc
	pushq	%rbp
	.cfi_def_cfa_offset 16
	pushq	%r15
	.cfi_def_cfa_offset 24
	pushq	%r14
	.cfi_def_cfa_offset 32
	pushq	%r12
	.cfi_def_cfa_offset 40
	pushq	%rbx
	.cfi_def_cfa_offset 48
	.cfi_offset %rbx,-48
	.cfi_offset %r12,-40
	.cfi_offset %r14,-32
	.cfi_offset %r15,-24
	.cfi_offset %rbp,-16
	xorl	%eax,%eax
	testq	%rdi,%rdi
	sete	%r8b
	cmpq	$12,%rsi
	jb	1f
	movb	%r8b,%al
	shll	$12,%eax
	addq	%rax,%rdi
	movzbl	(%rdi),%eax
	cmpb	$-65,%al
	jg	2f
	leal	(,%rax,4),%ebx
	andl	$60,%ebx
	leaq	12(%rbx),%r8
	movq	%rsi,%r10
	subq	%r8,%r10
	jb	3f
	testb	$16,%al
	jne	4f
	xorl	%r9d,%r9d
	movq	%r8,%rbx
	xorl	%r11d,%r11d
	movl	%eax,%r14d
	movb	$1,%bpl
	andb	$32,%r14b
	jne	5f
	jmp	6f
4:
	cmpq	$4,%r10
	jb	4f
	movzwl	2(%rdi,%r8),%r9d
	rolw	$8,%r9w
	addq	$-4,%r10
	movzwl	%r9w,%r11d
	shll	$2,%r11d
	cmpq	%r11,%r10
	jb	7f
	movzwl	12(%rdi,%rbx),%r9d
	cmpl	$57022,%r9d
	setne	%r10b
	movl	%r9d,%ebp
	andl	$61695,%ebp
	addb	%r10b,%r10b
	incb	%r10b
	cmpw	$16,%bp
	leaq	4(%r8,%r11),%r8
	movzbl	%r10b,%r10d
	movl	$2,%r11d
	cmovnel	%r10d,%r11d
	rolw	$8,%r9w
	addb	$16,%bl
	movzbl	%bl,%ebx
	movq	%rsi,%r10
	subq	%r8,%r10
	movl	%eax,%r14d
	movb	$1,%bpl
	andb	$32,%r14b
	je	6f
5:
	cmpq	%r8,%rsi
	jne	5f
	xorl	%r10d,%r10d
	jmp	6f
5:
	movzbl	-1(%rdi,%rsi),%esi
	xorl	%r15d,%r15d
	subq	%rsi,%r10
	setae	%bpl
	cmovbq	%r15,%r10
	cmovbq	%r15,%r10
6:
	movzwl	2(%rdi),%esi
	rolw	$8,%si
	movzbl	1(%rdi),%r15d
	movl	%r15d,%r12d
	andb	$127,%r12b
	andb	$15,%al
	shrb	$7,%r15b
	shrb	$5,%r14b
	testb	%r11b,%r11b
	movq	4(%rdi),%xmm0
	pshufb	.Lrtp_b236e5ea_CPI170_0(%rip),%xmm0
	movb	$2,(%rdx)
	movb	%r14b,1(%rdx)
	setne	2(%rdx)
	movb	%r15b,3(%rdx)
	movb	%r12b,4(%rdx)
	movw	%si,6(%rdx)
	movq	%xmm0,8(%rdx)
	movq	%r8,(%rcx)
	movq	%r10,8(%rcx)
	movq	%rbx,16(%rcx)
	movw	%r9w,24(%rcx)
	movb	%r11b,26(%rcx)
	movb	%al,27(%rcx)
	movb	%bpl,28(%rcx)
	xorl	%eax,%eax
	popq	%rbx
	.cfi_def_cfa_offset 40
	popq	%r12
	.cfi_def_cfa_offset 32
	popq	%r14
	.cfi_def_cfa_offset 24
	popq	%r15
	.cfi_def_cfa_offset 16
	popq	%rbp
	.cfi_def_cfa_offset 8
	retq
1:
	.cfi_def_cfa_offset 48
	xorl	%eax,%eax
	jmp	1f
2:
	movb	$1,%al
	jmp	1f
3:
	movb	$2,%al
	jmp	1f
4:
	movb	$3,%al
	jmp	1f
7:
	movb	$4,%al
1:
	movzbl	%al,%edi
	popq	%rbx
	.cfi_def_cfa_offset 40
	popq	%r12
	.cfi_def_cfa_offset 32
	popq	%r14
	.cfi_def_cfa_offset 24
	popq	%r15
	.cfi_def_cfa_offset 16
	popq	%rbp
	.cfi_def_cfa_offset 8
	jmp	"rtp_b236e5ea_rtp_c::status::refusal_status"
	.size	rtp_b236e5ea_rtpw_read_fixed_part,.-rtp_b236e5ea_rtpw_read_fixed_part
	.cfi_endproc

	.section	.text.rtpw_read_many,"ax",@progbits
	.globl	rtp_b236e5ea_rtpw_read_many
	.p2align	4
	.type	rtp_b236e5ea_rtpw_read_many,@function
rtp_b236e5ea_rtpw_read_many:
	.cfi_startproc
	pushq	%rbp
	.cfi_def_cfa_offset 16
	pushq	%r15
	.cfi_def_cfa_offset 24
	pushq	%r14
	.cfi_def_cfa_offset 32
	pushq	%r13
	.cfi_def_cfa_offset 40
	pushq	%r12
	.cfi_def_cfa_offset 48
	pushq	%rbx
	.cfi_def_cfa_offset 56
	subq	$40,%rsp
	.cfi_def_cfa_offset 96
	.cfi_offset %rbx,-56
	.cfi_offset %r12,-48
	.cfi_offset %r13,-40
	.cfi_offset %r14,-32
	.cfi_offset %r15,-24
	.cfi_offset %rbp,-16
	movq	%rdx,32(%rsp)
	movq	%rsi,%r15
	movq	%rdi,%r10
	xorl	%edx,%edx
	testq	%rdi,%rdi
	sete	%dil
	xorl	%eax,%eax
	testq	%rcx,%rcx
	sete	%sil
	testq	%r8,%r8
	je	1f
	movq	%r8,%rbx
	movb	%dil,%dl
	shll	$12,%edx
	addq	%rdx,%r10
	movb	%sil,%al
	shll	$12,%eax
	leaq	(%rcx,%rax),%r13
	leaq	(%rax,%rcx),%rbp
	addq	$36,%rbp
	xorl	%r14d,%r14d
	movq	%r10,16(%rsp)
	jmp	2f
	.p2align	4
3:
	movl	$9,272(%r12)
4:
	incq	%r14
	addq	$280,%rbp
	cmpq	%rbx,%r14
	je	1f
2:
	imulq	$280,%r14,%rax
	leaq	(%rax,%r13),%r12
	movq	(%r13,%rax),%rdi
	movq	%r15,%rcx
	subq	%rdi,%rcx
	jb	3b
	movq	8(%r13,%rax),%rsi
	cmpq	%rsi,%rcx
	jb	3b
	addq	%r10,%rdi
	cmpq	$12,%rsi
	jb	2f
	movzbl	(%rdi),%ecx
	cmpb	$-65,%cl
	jg	3f
	movl	%ecx,%eax
	andl	$15,%eax
	leaq	12(,%rax,4),%rdx
	movq	%rsi,%rax
	subq	%rdx,%rax
	jb	5f
	xorl	%r11d,%r11d
	xorl	%r8d,%r8d
	testb	$16,%cl
	je	6f
	cmpq	$4,%rax
	jb	7f
	movzwl	2(%rdi,%rdx),%ecx
	rolw	$8,%cx
	addq	$-4,%rax
	movzwl	%cx,%ecx
	shll	$2,%ecx
	cmpq	%rcx,%rax
	jb	8f
	movzwl	(%rdi,%rdx),%eax
	cmpl	$57022,%eax
	sete	%r8b
	andl	$61695,%eax
	cmpw	$16,%ax
	sete	%r11b
	addq	%rcx,%rdx
	addq	$4,%rdx
	orb	%r11b,%r8b
6:
	movzbl	1(%rdi),%ecx
	andb	$-32,%cl
	movl	$17,%eax
	cmpb	$-64,%cl
	je	6f
	movq	%rdx,16(%r12)
	movl	4(%rdi),%eax
	bswapl	%eax
	movl	%eax,24(%r12)
	movl	8(%rdi),%eax
	bswapl	%eax
	movl	%eax,28(%r12)
	movzbl	(%rdi),%ecx
	xorps	%xmm0,%xmm0
	movups	%xmm0,76(%r12)
	movups	%xmm0,64(%r12)
	movups	%xmm0,48(%r12)
	movups	%xmm0,32(%r12)
	andl	$15,%ecx
	je	9f
	movl	%r8d,12(%rsp)
	leaq	12(%rdi),%r9
	cmpb	$1,%cl
	jne	10f
	xorl	%eax,%eax
	jmp	11f
9:
	xorl	%eax,%eax
	jmp	9f
10:
	movq	%r11,24(%rsp)
	movl	%ecx,%r10d
	andl	$-2,%r10d
	xorl	%eax,%eax
	xorl	%r11d,%r11d
	.p2align	4
10:
	movl	(%r9,%rax,4),%r8d
	bswapl	%r8d
	movl	%r8d,-4(%rbp,%rax,4)
	movl	4(%r9,%rax,4),%r8d
	bswapl	%r8d
	movl	%r8d,(%rbp,%rax,4)
	addq	$2,%rax
	addq	$-8,%r11
	cmpq	%rax,%r10
	jne	10b
	testb	$1,%cl
	jne	10f
	movq	16(%rsp),%r10
	movq	24(%rsp),%r11
	jmp	12f
10:
	subq	%r11,%r9
	movq	16(%rsp),%r10
	movq	24(%rsp),%r11
11:
	leaq	32(%r12),%rcx
	movl	(%r9),%r8d
	bswapl	%r8d
	movl	%r8d,(%rcx,%rax,4)
	incq	%rax
12:
	movl	12(%rsp),%r8d
9:
	movb	%al,95(%r12)
	movzwl	2(%rdi),%eax
	rolw	$8,%ax
	movw	%ax,92(%r12)
	movzbl	1(%rdi),%eax
	andb	$127,%al
	movb	%al,94(%r12)
	movzbl	1(%rdi),%eax
	shrb	$7,%al
	movb	%al,96(%r12)
	movzbl	(%rdi),%eax
	shrb	$5,%al
	andb	$1,%al
	movb	%al,97(%r12)
	movzbl	(%rdi),%eax
	shrb	$4,%al
	andb	$1,%al
	movb	%al,98(%r12)
	movq	%rsi,%rax
	subq	%rdx,%rax
	testb	$32,(%rdi)
	movb	$1,%cl
	je	9f
	cmpq	%rdx,%rsi
	jne	10f
	xorl	%eax,%eax
	jmp	9f
10:
	movzbl	-1(%rdi,%rsi),%ecx
	xorl	%esi,%esi
	subq	%rcx,%rax
	setae	%cl
	cmovbq	%rsi,%rax
	cmovbq	%rsi,%rax
9:
	movq	%rax,240(%r12)
	movb	%cl,267(%r12)
	movzbl	(%rdi),%eax
	testb	$16,%al
	jne	9f
	movb	$0,266(%r12)
	movw	$0,264(%r12)
	movq	%rdx,248(%r12)
	movq	$0,256(%r12)
	jmp	10f
9:
	shll	$2,%eax
	andl	$60,%eax
	movzwl	12(%rdi,%rax),%ecx
	rolw	$8,%cx
	addb	$16,%al
	movzbl	%al,%eax
	subq	%rax,%rdx
	movw	%cx,264(%r12)
	movq	%rax,248(%r12)
	movq	%rdx,256(%r12)
	testb	%r8b,%r8b
	je	9f
	addq	%rax,%rdi
	leal	1(%r11),%eax
	movb	%al,266(%r12)
	leaq	104(%r12),%r8
	xorps	%xmm0,%xmm0
	movups	%xmm0,104(%r12)
	movups	%xmm0,120(%r12)
	movups	%xmm0,136(%r12)
	movups	%xmm0,152(%r12)
	movups	%xmm0,168(%r12)
	movups	%xmm0,184(%r12)
	movups	%xmm0,200(%r12)
	movups	%xmm0,216(%r12)
	movq	$0,232(%r12)
	movzbl	%r11b,%ecx
	movq	%rdi,%rsi
	movq	32(%rsp),%rdi
	callq	"rtp_b236e5ea_rtp_ext::block_values::read_values::<#9a3a19c0cce455e9>"
	movq	16(%rsp),%r10
	jmp	11f
9:
	movb	$3,266(%r12)
10:
	xorps	%xmm0,%xmm0
	movups	%xmm0,216(%r12)
	movups	%xmm0,200(%r12)
	movups	%xmm0,184(%r12)
	movups	%xmm0,168(%r12)
	movups	%xmm0,152(%r12)
	movups	%xmm0,136(%r12)
	movups	%xmm0,120(%r12)
	movups	%xmm0,104(%r12)
	movq	$0,232(%r12)
11:
	xorl	%eax,%eax
6:
	movl	%eax,272(%r12)
	jmp	4b
2:
	xorl	%eax,%eax
	jmp	2f
3:
	movb	$1,%al
	jmp	2f
5:
	movb	$2,%al
	jmp	2f
7:
	movb	$3,%al
	jmp	2f
8:
	movb	$4,%al
2:
	movzbl	%al,%edx
	callq	"rtp_b236e5ea_rtp_c::whole_packet::status_of_no_packet"
	movq	16(%rsp),%r10
	movl	%eax,272(%r12)
	jmp	4b
1:
	addq	$40,%rsp
	.cfi_def_cfa_offset 56
	popq	%rbx
	.cfi_def_cfa_offset 48
	popq	%r12
	.cfi_def_cfa_offset 40
	popq	%r13
	.cfi_def_cfa_offset 32
	popq	%r14
	.cfi_def_cfa_offset 24
	popq	%r15
	.cfi_def_cfa_offset 16
	popq	%rbp
	.cfi_def_cfa_offset 8
	retq
	.size	rtp_b236e5ea_rtpw_read_many,.-rtp_b236e5ea_rtpw_read_many
	.cfi_endproc

	.section	.rodata.cst16,"aM",@progbits,16
	.p2align	4,0x0
.Lrtp_b236e5ea_CPI172_0:
	.zero	16,1
.Lrtp_b236e5ea_CPI172_1:
	.byte	117
	.byte	114
	.byte	110
	.byte	58
	.byte	105
	.byte	101
	.byte	116
	.byte	102
	.byte	58
	.byte	112
	.byte	97
	.byte	114
	.byte	97
	.byte	109
	.byte	115
	.byte	58
.Lrtp_b236e5ea_CPI172_2:
	.byte	114
	.byte	116
	.byte	112
	.byte	45
	.byte	104
	.byte	100
	.byte	114
	.byte	101
	.byte	120
	.byte	116
	.byte	58
	.byte	110
	.byte	116
	.byte	112
	.byte	45
	.byte	53
.Lrtp_b236e5ea_CPI172_3:
	.byte	116
	.byte	112
	.byte	45
	.byte	104
	.byte	100
	.byte	114
	.byte	101
	.byte	120
	.byte	116
	.byte	58
	.byte	110
	.byte	116
	.byte	112
	.byte	45
	.byte	53
	.byte	54
.Lrtp_b236e5ea_CPI172_4:
	.byte	104
	.byte	116
	.byte	116
	.byte	112
	.byte	58
	.byte	47
	.byte	47
	.byte	119
	.byte	119
	.byte	119
	.byte	46
	.byte	119
	.byte	101
	.byte	98
	.byte	114
	.byte	116
.Lrtp_b236e5ea_CPI172_5:
	.byte	99
	.byte	46
	.byte	111
	.byte	114
	.byte	103
	.byte	47
	.byte	101
	.byte	120
	.byte	112
	.byte	101
	.byte	114
	.byte	105
	.byte	109
	.byte	101
	.byte	110
	.byte	116
.Lrtp_b236e5ea_CPI172_6:
	.byte	115
	.byte	47
	.byte	114
	.byte	116
	.byte	112
	.byte	45
	.byte	104
	.byte	100
	.byte	114
	.byte	101
	.byte	120
	.byte	116
	.byte	47
	.byte	112
	.byte	108
	.byte	97
.Lrtp_b236e5ea_CPI172_7:
	.byte	120
	.byte	116
	.byte	47
	.byte	112
	.byte	108
	.byte	97
	.byte	121
	.byte	111
	.byte	117
	.byte	116
	.byte	45
	.byte	100
	.byte	101
	.byte	108
	.byte	97
	.byte	121
.Lrtp_b236e5ea_CPI172_8:
	.quad	7598805623977109874
	.quad	7957695015159098981
.Lrtp_b236e5ea_CPI172_9:
	.quad	8102089199360832117
	.quad	8011181793428993594
	.section	.text.rtpw_kind_of_uri,"ax",@progbits
	.globl	rtp_b236e5ea_rtpw_kind_of_uri
	.p2align	4
	.type	rtp_b236e5ea_rtpw_kind_of_uri,@function
rtp_b236e5ea_rtpw_kind_of_uri:
	.cfi_startproc
	subq	$24,%rsp
	.cfi_def_cfa_offset 32
	movq	%rsi,%rdx
	xorl	%esi,%esi
	testq	%rdi,%rdi
	sete	%sil
	shll	$12,%esi
	addq	%rdi,%rsi
	pxor	%xmm0,%xmm0
	movdqa	%xmm0,(%rsp)
	movq	$0,16(%rsp)
	movq	%rsp,%rdi
	callq	"rtp_b236e5ea_core::str::utf8::from_utf8"
	cmpb	$0,(%rsp)
	je	1f
2:
	xorl	%eax,%eax
	addq	$24,%rsp
	.cfi_def_cfa_offset 8
	retq
1:
	.cfi_def_cfa_offset 32
	movq	16(%rsp),%rdx
	xorl	%eax,%eax
	leaq	-26(%rdx),%r8
	cmpq	$61,%r8
	ja	1f
	movq	8(%rsp),%rcx
	leaq	.Lrtp_b236e5ea_static.39(%rip),%rdi
	movb	$1,%sil
	leaq	3f(%rip),%r9
	movslq	(%r9,%r8,4),%r8
	addq	%r9,%r8
	jmpq	*%r8
4:
	movdqu	(%rcx),%xmm0
	movq	18(%rcx),%xmm1
	movq	16(%rcx),%xmm2
	punpcklqdq	%xmm1,%xmm2
	pxor	.Lrtp_b236e5ea_CPI172_8(%rip),%xmm2
	pxor	.Lrtp_b236e5ea_CPI172_9(%rip),%xmm0
	por	%xmm2,%xmm0
	ptest	%xmm0,%xmm0
	jne	2b
	movb	$4,%al
	incb	%al
	addq	$24,%rsp
	.cfi_def_cfa_offset 8
	retq
5:
	.cfi_def_cfa_offset 32
	leaq	.Lrtp_b236e5ea_static.11(%rip),%r8
	movb	$1,%al
	jmp	6f
7:
	leaq	.Lrtp_b236e5ea_static.25(%rip),%r8
	movb	$8,%al
	jmp	6f
8:
	leaq	.Lrtp_b236e5ea_static.15(%rip),%r8
	movb	$3,%al
	jmp	6f
9:
	leaq	.Lrtp_b236e5ea_static.33(%rip),%r8
	movb	$12,%al
	jmp	6f
10:
	leaq	.Lrtp_b236e5ea_static.31(%rip),%r8
	movb	$11,%al
	jmp	6f
11:
	leaq	.Lrtp_b236e5ea_static.9(%rip),%r8
	xorl	%eax,%eax
	jmp	6f
12:
	leaq	.Lrtp_b236e5ea_static.13(%rip),%r8
	movb	$2,%al
	jmp	6f
13:
	leaq	.Lrtp_b236e5ea_static.27(%rip),%r8
	movb	$9,%al
	jmp	6f
14:
	leaq	.Lrtp_b236e5ea_static.23(%rip),%r8
	movb	$7,%al
	jmp	6f
15:
	leaq	.Lrtp_b236e5ea_static.37(%rip),%r8
	movb	$14,%al
	jmp	16f
17:
	leaq	.Lrtp_b236e5ea_static.35(%rip),%r8
	movb	$13,%al
	jmp	6f
18:
	leaq	.Lrtp_b236e5ea_static.29(%rip),%r8
	movb	$10,%al
6:
	leaq	-16(%rdx),%r9
	movdqu	(%r8),%xmm0
	movdqu	16(%r8),%xmm1
	movdqu	(%rcx),%xmm2
	pcmpeqb	%xmm0,%xmm2
	movdqu	16(%rcx),%xmm3
	pcmpeqb	%xmm1,%xmm3
	pcmpeqd	%xmm1,%xmm1
	pxor	%xmm1,%xmm2
	pxor	%xmm1,%xmm3
	por	%xmm2,%xmm3
	cmpq	$32,%r9
	movl	$32,%r10d
	cmovbq	%r9,%r10
	movdqu	(%r8,%r10),%xmm0
	movdqu	(%rcx,%r10),%xmm2
	pcmpeqb	%xmm0,%xmm2
	pxor	%xmm1,%xmm2
	movdqu	-16(%r8,%rdx),%xmm4
	movdqu	-16(%rcx,%rdx),%xmm0
	pcmpeqb	%xmm4,%xmm0
	pxor	%xmm1,%xmm0
	por	%xmm3,%xmm0
	por	%xmm2,%xmm0
	ptest	.Lrtp_b236e5ea_CPI172_0(%rip),%xmm0
	je	6f
19:
	xorl	%eax,%eax
	leaq	-33(%rdx),%r8
	cmpq	$32,%r8
	ja	20f
	leaq	21f(%rip),%r9
	movslq	(%r9,%r8,4),%r8
	addq	%r9,%r8
	jmpq	*%r8
22:
	leaq	.Lrtp_b236e5ea_static.41(%rip),%rsi
	movb	$3,%al
	jmp	23f
20:
	cmpq	$87,%rdx
	jne	1f
20:
	leaq	.Lrtp_b236e5ea_static.40(%rip),%rdi
	movb	$2,%sil
24:
	xorl	%eax,%eax
	movq	%rdx,%r8
	.p2align	4
25:
	movdqu	(%rdi,%rax),%xmm0
	movdqu	16(%rdi,%rax),%xmm1
	movdqu	32(%rdi,%rax),%xmm2
	movdqu	48(%rdi,%rax),%xmm3
	movdqu	(%rcx,%rax),%xmm4
	pcmpeqb	%xmm0,%xmm4
	movdqu	16(%rcx,%rax),%xmm0
	pcmpeqb	%xmm1,%xmm0
	pand	%xmm4,%xmm0
	movdqu	32(%rcx,%rax),%xmm1
	pcmpeqb	%xmm2,%xmm1
	movdqu	48(%rcx,%rax),%xmm2
	pcmpeqb	%xmm3,%xmm2
	pand	%xmm1,%xmm2
	pand	%xmm0,%xmm2
	pmovmskb	%xmm2,%r9d
	cmpl	$65535,%r9d
	jne	26f
	addq	$64,%rax
	addq	$-64,%r8
	cmpq	$65,%r8
	jae	25b
	movdqu	-64(%rdi,%rdx),%xmm0
	movdqu	-48(%rdi,%rdx),%xmm1
	movdqu	-32(%rdi,%rdx),%xmm2
	movdqu	-16(%rdi,%rdx),%xmm3
	movdqu	-64(%rcx,%rdx),%xmm4
	pcmpeqb	%xmm0,%xmm4
	movdqu	-48(%rcx,%rdx),%xmm5
	pcmpeqb	%xmm1,%xmm5
	movdqu	-32(%rcx,%rdx),%xmm0
	pcmpeqb	%xmm2,%xmm0
	movdqu	-16(%rcx,%rdx),%xmm1
	pcmpeqb	%xmm3,%xmm1
	pcmpeqd	%xmm2,%xmm2
	pxor	%xmm2,%xmm1
	pxor	%xmm2,%xmm0
	por	%xmm1,%xmm0
	pxor	%xmm2,%xmm4
	pxor	%xmm2,%xmm5
	por	%xmm4,%xmm5
	por	%xmm0,%xmm5
	pxor	%xmm0,%xmm0
	pcmpgtb	%xmm5,%xmm0
	ptest	.Lrtp_b236e5ea_CPI172_0(%rip),%xmm0
	jne	26f
	jmp	25f
27:
	leaq	.Lrtp_b236e5ea_static.38(%rip),%rsi
23:
	movdqu	(%rsi),%xmm0
	movdqu	16(%rsi),%xmm1
	movdqu	(%rcx),%xmm2
	pcmpeqb	%xmm0,%xmm2
	movdqu	16(%rcx),%xmm3
	pcmpeqb	%xmm1,%xmm3
	pcmpeqd	%xmm1,%xmm1
	pxor	%xmm1,%xmm2
	pxor	%xmm1,%xmm3
	por	%xmm2,%xmm3
	movdqu	-16(%rsi,%rdx),%xmm2
	movdqu	-16(%rcx,%rdx),%xmm0
	pcmpeqb	%xmm2,%xmm0
	pxor	%xmm1,%xmm0
	por	%xmm3,%xmm0
	movl	%eax,%esi
	ptest	.Lrtp_b236e5ea_CPI172_0(%rip),%xmm0
	je	25f
26:
	cmpq	$33,%rdx
	jne	2b
	movdqu	(%rcx),%xmm0
	movdqu	16(%rcx),%xmm1
	movdqu	17(%rcx),%xmm2
	pcmpeqb	.Lrtp_b236e5ea_CPI172_1(%rip),%xmm0
	pcmpeqb	.Lrtp_b236e5ea_CPI172_2(%rip),%xmm1
	pcmpeqb	.Lrtp_b236e5ea_CPI172_3(%rip),%xmm2
	pand	%xmm0,%xmm1
	pand	%xmm1,%xmm2
	pmovmskb	%xmm2,%eax
	cmpl	$65535,%eax
	jne	2b
	movb	$4,%sil
25:
	orb	$16,%sil
	movl	%esi,%eax
1:
	addq	$24,%rsp
	.cfi_def_cfa_offset 8
	retq
23:
	.cfi_def_cfa_offset 32
	movdqu	(%rcx),%xmm0
	movdqu	16(%rcx),%xmm1
	movdqu	32(%rcx),%xmm2
	pcmpeqb	.Lrtp_b236e5ea_CPI172_4(%rip),%xmm0
	movdqu	42(%rcx),%xmm3
	pcmpeqb	.Lrtp_b236e5ea_CPI172_5(%rip),%xmm1
	pand	%xmm0,%xmm1
	pcmpeqb	.Lrtp_b236e5ea_CPI172_6(%rip),%xmm2
	pcmpeqb	.Lrtp_b236e5ea_CPI172_7(%rip),%xmm3
	pand	%xmm2,%xmm3
	pand	%xmm1,%xmm3
	pmovmskb	%xmm3,%eax
	cmpl	$65535,%eax
	jne	2b
	movb	$6,%al
	incb	%al
	addq	$24,%rsp
	.cfi_def_cfa_offset 8
	retq
2:
	.cfi_def_cfa_offset 32
	leaq	.Lrtp_b236e5ea_static.19(%rip),%r8
	movb	$5,%al
16:
	xorl	%r9d,%r9d
	movq	%rdx,%r10
	.p2align	4
16:
	movdqu	(%r8,%r9),%xmm0
	movdqu	16(%r8,%r9),%xmm1
	movdqu	32(%r8,%r9),%xmm2
	movdqu	48(%r8,%r9),%xmm3
	movdqu	(%rcx,%r9),%xmm4
	pcmpeqb	%xmm0,%xmm4
	movdqu	16(%rcx,%r9),%xmm0
	pcmpeqb	%xmm1,%xmm0
	pand	%xmm4,%xmm0
	movdqu	32(%rcx,%r9),%xmm1
	pcmpeqb	%xmm2,%xmm1
	movdqu	48(%rcx,%r9),%xmm2
	pcmpeqb	%xmm3,%xmm2
	pand	%xmm1,%xmm2
	pand	%xmm0,%xmm2
	pmovmskb	%xmm2,%r11d
	cmpl	$65535,%r11d
	jne	19b
	addq	$64,%r9
	addq	$-64,%r10
	cmpq	$65,%r10
	jae	16b
	movdqu	-64(%r8,%rdx),%xmm0
	movdqu	-48(%r8,%rdx),%xmm1
	movdqu	-32(%r8,%rdx),%xmm2
	movdqu	-16(%r8,%rdx),%xmm3
	movdqu	-64(%rcx,%rdx),%xmm4
	pcmpeqb	%xmm0,%xmm4
	movdqu	-48(%rcx,%rdx),%xmm5
	pcmpeqb	%xmm1,%xmm5
	movdqu	-32(%rcx,%rdx),%xmm0
	pcmpeqb	%xmm2,%xmm0
	movdqu	-16(%rcx,%rdx),%xmm1
	pcmpeqb	%xmm3,%xmm1
	pcmpeqd	%xmm2,%xmm2
	pxor	%xmm2,%xmm1
	pxor	%xmm2,%xmm0
	por	%xmm1,%xmm0
	pxor	%xmm2,%xmm4
	pxor	%xmm2,%xmm5
	por	%xmm4,%xmm5
	por	%xmm0,%xmm5
	pxor	%xmm0,%xmm0
	pcmpgtb	%xmm5,%xmm0
	ptest	.Lrtp_b236e5ea_CPI172_0(%rip),%xmm0
	jne	19b
6:
	incb	%al
	addq	$24,%rsp
	.cfi_def_cfa_offset 8
	retq
	.size	rtp_b236e5ea_rtpw_kind_of_uri,.-rtp_b236e5ea_rtpw_kind_of_uri
	.cfi_endproc
	.section	.rodata.rtpw_kind_of_uri,"a",@progbits
	.p2align	2,0x0
3:
	.long	4b-3b
	.long	1b-3b
	.long	1b-3b
	.long	1b-3b
	.long	1b-3b
	.long	1b-3b
	.long	1b-3b
	.long	22b-3b
	.long	8b-3b
	.long	10b-3b
	.long	1b-3b
	.long	1b-3b
	.long	1b-3b
	.long	1b-3b
	.long	1b-3b
	.long	1b-3b
	.long	1b-3b
	.long	12b-3b
	.long	1b-3b
	.long	13b-3b
	.long	1b-3b
	.long	1b-3b
	.long	1b-3b
	.long	1b-3b
	.long	1b-3b
	.long	1b-3b
	.long	1b-3b
	.long	1b-3b
	.long	18b-3b
	.long	1b-3b
	.long	17b-3b
	.long	7b-3b
	.long	11b-3b
	.long	1b-3b
	.long	9b-3b
	.long	5b-3b
	.long	1b-3b
	.long	14b-3b
	.long	1b-3b
	.long	24b-3b
	.long	1b-3b
	.long	1b-3b
	.long	1b-3b
	.long	1b-3b
	.long	15b-3b
	.long	1b-3b
	.long	1b-3b
	.long	2b-3b
	.long	1b-3b
	.long	1b-3b
	.long	1b-3b
	.long	1b-3b
	.long	1b-3b
	.long	1b-3b
	.long	1b-3b
	.long	1b-3b
	.long	1b-3b
	.long	1b-3b
	.long	1b-3b
	.long	1b-3b
	.long	1b-3b
	.long	20b-3b
21:
	.long	22b-21b
	.long	1b-21b
	.long	1b-21b
	.long	1b-21b
	.long	1b-21b
	.long	1b-21b
	.long	1b-21b
	.long	1b-21b
	.long	1b-21b
	.long	1b-21b
	.long	27b-21b
	.long	1b-21b
	.long	1b-21b
	.long	1b-21b
	.long	1b-21b
	.long	1b-21b
	.long	1b-21b
	.long	1b-21b
	.long	1b-21b
	.long	1b-21b
	.long	1b-21b
	.long	1b-21b
	.long	1b-21b
	.long	1b-21b
	.long	1b-21b
	.long	23b-21b
	.long	1b-21b
	.long	1b-21b
	.long	1b-21b
	.long	1b-21b
	.long	1b-21b
	.long	1b-21b
	.long	24b-21b

	.section	.text.rtpw_uri_of_kind,"ax",@progbits
	.globl	rtp_b236e5ea_rtpw_uri_of_kind
	.p2align	4
	.type	rtp_b236e5ea_rtpw_uri_of_kind,@function
rtp_b236e5ea_rtpw_uri_of_kind:
	.cfi_startproc
	pushq	%r14
	.cfi_def_cfa_offset 16
	pushq	%rbx
	.cfi_def_cfa_offset 24
	pushq	%rax
	.cfi_def_cfa_offset 32
	.cfi_offset %rbx,-24
	.cfi_offset %r14,-16
	movl	%edi,%r8d
	xorl	%r9d,%r9d
	testq	%rsi,%rsi
	sete	%r9b
	shll	$12,%r9d
	leaq	(%rsi,%r9),%rdi
	leal	-1(%r8),%eax
	cmpb	$14,%al
	ja	1f
	movzbl	%al,%r10d
	shll	$3,%r10d
	leaq	.Lrtp_b236e5ea_switch.table.rtp_b236e5ea_rtpw_uri_of_kind.247(%rip),%rax
	movq	(%r10,%rax),%rbx
	movl	$8,%eax
	cmpq	%rbx,%rdx
	jb	2f
	leaq	.Lrtp_b236e5ea_switch.table.rtp_b236e5ea_rtpw_uri_of_kind(%rip),%rax
	movq	(%r10,%rax),%rdx
	movq	%rdi,%rax
	subq	%rdx,%rax
	cmpq	%rbx,%rax
	jae	3f
	cmpq	$16,%rax
	jae	4f
	xorl	%eax,%eax
5:
	addb	$-13,%r8b
	movq	%rax,%r10
	cmpb	$2,%r8b
	jb	6f
	movl	%ebx,%r8d
	andl	$3,%r8d
	movq	%rax,%r10
	.p2align	4
7:
	movzbl	(%rdx,%r10),%r11d
	movb	%r11b,(%rdi,%r10)
	incq	%r10
	decq	%r8
	jne	7b
6:
	subq	%rbx,%rax
	cmpq	$-4,%rax
	ja	6f
	leaq	(%r9,%rsi),%rax
	addq	$3,%rax
	.p2align	4
7:
	movzbl	(%rdx,%r10),%esi
	movb	%sil,-3(%rax,%r10)
	movzbl	1(%rdx,%r10),%esi
	movb	%sil,-2(%rax,%r10)
	movzbl	2(%rdx,%r10),%esi
	movb	%sil,-1(%rax,%r10)
	movzbl	3(%rdx,%r10),%esi
	movb	%sil,(%rax,%r10)
	addq	$4,%r10
	cmpq	%r10,%rbx
	jne	7b
	jmp	6f
1:
	leal	-16(%r8),%r10d
	movl	$11,%eax
	cmpb	$4,%r10b
	ja	2f
	movzbl	%r10b,%r11d
	shll	$3,%r11d
	leaq	.Lrtp_b236e5ea_switch.table.rtp_b236e5ea_rtpw_uri_of_kind.248(%rip),%rax
	movq	(%r11,%rax),%rbx
	movl	$8,%eax
	cmpq	%rbx,%rdx
	jb	2f
	leaq	.Lrtp_b236e5ea_switch.table.rtp_b236e5ea_rtpw_uri_of_kind.249(%rip),%rax
	movq	(%r11,%rax),%rdx
	movq	%rdi,%rax
	subq	%rdx,%rax
	cmpq	%rbx,%rax
	jae	1f
	cmpq	$32,%rax
	jae	7f
	xorl	%eax,%eax
	jmp	8f
3:
	movq	%rdx,%rsi
	movq	%rbx,%rdx
	movq	%rcx,%r14
	callq	memmove@PLT
	jmp	3f
4:
	movl	%ebx,%r10d
	andl	$112,%r10d
	leaq	(%r9,%rsi),%rax
	addq	$8,%rax
	xorl	%r11d,%r11d
	.p2align	4
4:
	movups	(%rdx,%r11),%xmm0
	movups	%xmm0,-8(%rax,%r11)
	addq	$16,%r11
	cmpq	%r11,%r10
	jne	4b
	cmpq	%r10,%rbx
	je	6f
	movl	%r8d,%eax
	andb	$7,%al
	cmpb	$4,%al
	je	4f
	movl	%ebx,%eax
	andl	$124,%eax
	.p2align	4
9:
	movl	(%rdx,%r10),%r11d
	movl	%r11d,(%rdi,%r10)
	addq	$4,%r10
	cmpq	%r10,%rax
	jne	9b
	cmpq	%rax,%rbx
	jne	5b
	jmp	6f
1:
	movq	%rdx,%rsi
	movq	%rbx,%rdx
	movq	%rcx,%r14
	callq	memcpy@PLT
3:
	movq	%r14,%rcx
6:
	movq	%rbx,(%rcx)
	xorl	%eax,%eax
2:
	addq	$8,%rsp
	.cfi_def_cfa_offset 24
	popq	%rbx
	.cfi_def_cfa_offset 16
	popq	%r14
	.cfi_def_cfa_offset 8
	retq
7:
	.cfi_def_cfa_offset 32
	movl	%ebx,%eax
	andl	$96,%eax
	leaq	(%r9,%rsi),%r11
	addq	$16,%r11
	xorl	%r14d,%r14d
	.p2align	4
1:
	movups	(%rdx,%r14),%xmm0
	movups	16(%rdx,%r14),%xmm1
	movups	%xmm0,-16(%r11,%r14)
	movups	%xmm1,(%r11,%r14)
	addq	$32,%r14
	cmpq	%r14,%rax
	jne	1b
	andb	$2,%r8b
	cmpb	%r10b,%r8b
	jne	8f
	movl	%ebx,%r8d
	andl	$124,%r8d
	.p2align	4
1:
	movl	(%rdx,%rax),%r10d
	movl	%r10d,(%rdi,%rax)
	addq	$4,%rax
	cmpq	%rax,%r8
	jne	1b
	movq	%r8,%rax
8:
	movl	%ebx,%r10d
	andl	$3,%r10d
	movq	%rax,%r8
	.p2align	4
1:
	movzbl	(%rdx,%r8),%r11d
	movb	%r11b,(%rdi,%r8)
	incq	%r8
	decq	%r10
	jne	1b
	subq	%rbx,%rax
	cmpq	$-4,%rax
	ja	6b
	leaq	(%r9,%rsi),%rax
	addq	$3,%rax
	.p2align	4
1:
	movzbl	(%rdx,%r8),%esi
	movb	%sil,-3(%rax,%r8)
	movzbl	1(%rdx,%r8),%esi
	movb	%sil,-2(%rax,%r8)
	movzbl	2(%rdx,%r8),%esi
	movb	%sil,-1(%rax,%r8)
	movzbl	3(%rdx,%r8),%esi
	movb	%sil,(%rax,%r8)
	addq	$4,%r8
	cmpq	%r8,%rbx
	jne	1b
	jmp	6b
4:
	movq	%r10,%rax
	jmp	5b
	.size	rtp_b236e5ea_rtpw_uri_of_kind,.-rtp_b236e5ea_rtpw_uri_of_kind
	.cfi_endproc

	.section	.rodata.cst16,"aM",@progbits,16
	.p2align	4,0x0
.Lrtp_b236e5ea_CPI174_0:
	.byte	1
	.byte	0
	.byte	3
	.byte	2
	.byte	5
	.byte	4
	.byte	7
	.byte	6
	.byte	9
	.byte	8
	.byte	11
	.byte	10
	.byte	13
	.byte	12
	.byte	15
	.byte	14
	.section	.text.rtpw_read_color_space,"ax",@progbits
	.globl	rtp_b236e5ea_rtpw_read_color_space
	.p2align	4
	.type	rtp_b236e5ea_rtpw_read_color_space,@function
rtp_b236e5ea_rtpw_read_color_space:
	.cfi_startproc
	xorl	%ecx,%ecx
	testq	%rdi,%rdi
	sete	%cl
	shll	$12,%ecx
	movl	$9,%eax
	cmpq	$28,%rsi
	je	1f
	cmpq	$4,%rsi
	jne	2f
	movzbl	3(%rdi,%rcx),%esi
	movl	%esi,%r8d
	andb	$3,%r8b
	cmpb	$3,%r8b
	je	2f
	movl	%esi,%r9d
	shrb	$2,%r9b
	andb	$3,%r9b
	cmpb	$3,%r9b
	je	2f
	xorl	%eax,%eax
	pxor	%xmm0,%xmm0
	pxor	%xmm1,%xmm1
	jmp	3f
1:
	movzbl	3(%rdi,%rcx),%esi
	movl	%esi,%r8d
	andb	$3,%r8b
	cmpb	$3,%r8b
	je	2f
	movl	%esi,%r9d
	shrb	$2,%r9b
	andb	$3,%r9b
	cmpb	$3,%r9b
	je	2f
	movdqu	4(%rdi,%rcx),%xmm0
	movdqa	.Lrtp_b236e5ea_CPI174_0(%rip),%xmm2
	pshufb	%xmm2,%xmm0
	movq	20(%rdi,%rcx),%xmm1
	pshufb	%xmm2,%xmm1
	movb	$1,%al
3:
	shrb	$4,%sil
	andb	$3,%sil
	movzbl	2(%rdi,%rcx),%r10d
	movzwl	(%rdi,%rcx),%ecx
	movdqu	%xmm0,(%rdx)
	movq	%xmm1,16(%rdx)
	movw	%cx,24(%rdx)
	movb	%r10b,26(%rdx)
	movb	%sil,27(%rdx)
	movb	%r9b,28(%rdx)
	movb	%r8b,29(%rdx)
	movb	%al,30(%rdx)
	movb	$0,31(%rdx)
	xorl	%eax,%eax
2:
	retq
	.size	rtp_b236e5ea_rtpw_read_color_space,.-rtp_b236e5ea_rtpw_read_color_space
	.cfi_endproc

	.section	.text.rtpw_read_frame_marking,"ax",@progbits
	.globl	rtp_b236e5ea_rtpw_read_frame_marking
	.p2align	4
	.type	rtp_b236e5ea_rtpw_read_frame_marking,@function
rtp_b236e5ea_rtpw_read_frame_marking:
	.cfi_startproc
	pushq	%rbp
	.cfi_def_cfa_offset 16
	pushq	%r15
	.cfi_def_cfa_offset 24
	pushq	%r14
	.cfi_def_cfa_offset 32
	pushq	%r13
	.cfi_def_cfa_offset 40
	pushq	%r12
	.cfi_def_cfa_offset 48
	pushq	%rbx
	.cfi_def_cfa_offset 56
	.cfi_offset %rbx,-56
	.cfi_offset %r12,-48
	.cfi_offset %r13,-40
	.cfi_offset %r14,-32
	.cfi_offset %r15,-24
	.cfi_offset %rbp,-16
	xorl	%r9d,%r9d
	testq	%rdi,%rdi
	sete	%cl
	movl	$9,%eax
	testq	%rsi,%rsi
	je	1f
	movb	%cl,%r9b
	shll	$12,%r9d
	cmpq	$1,%rsi
	jne	2f
	movzbl	(%rdi,%r9),%ecx
	xorl	%esi,%esi
	xorl	%r9d,%r9d
	movl	$0,-4(%rsp)
	movl	$0,-8(%rsp)
	movl	$0,-12(%rsp)
	xorl	%r11d,%r11d
	jmp	3f
2:
	cmpq	$2,%rsi
	ja	2f
	movzbl	(%rdi,%r9),%ecx
	movzbl	1(%rdi,%r9),%eax
	movl	%eax,-4(%rsp)
	movl	%ecx,%esi
	shrb	$3,%sil
	andb	$1,%sil
	movl	%ecx,%r9d
	andb	$7,%r9b
	movb	$1,%r11b
	movl	$0,-8(%rsp)
	movl	$0,-12(%rsp)
	jmp	3f
2:
	cmpq	$3,%rsi
	jne	1f
	movzbl	(%rdi,%r9),%ecx
	movzbl	1(%rdi,%r9),%eax
	movl	%eax,-4(%rsp)
	movzbl	2(%rdi,%r9),%eax
	movl	%eax,-8(%rsp)
	movl	%ecx,%esi
	shrb	$3,%sil
	andb	$1,%sil
	movl	%ecx,%r9d
	andb	$7,%r9b
	movb	$1,%al
	movl	%eax,-12(%rsp)
	movb	$1,%r11b
3:
	movl	%ecx,%ebx
	shrb	$7,%bl
	movl	%ecx,%ebp
	shrb	$6,%bpl
	andb	$1,%bpl
	movl	%ecx,%r14d
	shrb	$5,%r14b
	andb	$1,%r14b
	shrb	$4,%cl
	andb	$1,%cl
	xorl	%eax,%eax
	movl	$0,%r15d
	movl	$0,%r12d
	movl	$0,%r13d
	movl	$0,%r8d
	movl	$0,%r10d
	movl	$0,%edi
	testb	%r11b,%r11b
	je	2f
	movb	$1,%r15b
	movl	%esi,%r12d
	movl	%r9d,%r13d
	movl	-4(%rsp),%r8d
	movl	-12(%rsp),%r10d
	movl	-8(%rsp),%edi
2:
	movb	%bl,(%rdx)
	movb	%bpl,1(%rdx)
	movb	%r14b,2(%rdx)
	movb	%cl,3(%rdx)
	movb	%r15b,4(%rdx)
	movb	%r12b,5(%rdx)
	movb	%r13b,6(%rdx)
	movb	%r8b,7(%rdx)
	movb	%r10b,8(%rdx)
	movb	%dil,9(%rdx)
1:
	popq	%rbx
	.cfi_def_cfa_offset 48
	popq	%r12
	.cfi_def_cfa_offset 40
	popq	%r13
	.cfi_def_cfa_offset 32
	popq	%r14
	.cfi_def_cfa_offset 24
	popq	%r15
	.cfi_def_cfa_offset 16
	popq	%rbp
	.cfi_def_cfa_offset 8
	retq
	.size	rtp_b236e5ea_rtpw_read_frame_marking,.-rtp_b236e5ea_rtpw_read_frame_marking
	.cfi_endproc

	.section	.rodata.cst16,"aM",@progbits,16
	.p2align	4,0x0
.Lrtp_b236e5ea_CPI176_0:
	.byte	1
	.byte	0
	.byte	3
	.byte	2
	.byte	5
	.byte	4
	.byte	7
	.byte	6
	.byte	9
	.byte	8
	.byte	11
	.byte	10
	.byte	13
	.byte	12
	.byte	15
	.byte	14
	.section	.text.rtpw_read_timing,"ax",@progbits
	.globl	rtp_b236e5ea_rtpw_read_timing
	.p2align	4
	.type	rtp_b236e5ea_rtpw_read_timing,@function
rtp_b236e5ea_rtpw_read_timing:
	.cfi_startproc
	xorl	%ecx,%ecx
	testq	%rdi,%rdi
	sete	%cl
	shll	$12,%ecx
	cmpq	$13,%rsi
	je	1f
	movl	$9,%eax
	cmpq	$12,%rsi
	jne	2f
	movq	(%rdi,%rcx),%xmm0
	movdqa	.Lrtp_b236e5ea_CPI176_0(%rip),%xmm2
	pshufb	%xmm2,%xmm0
	movd	8(%rdi,%rcx),%xmm1
	pshufb	%xmm2,%xmm1
	xorl	%eax,%eax
	xorl	%ecx,%ecx
	jmp	3f
1:
	movzbl	(%rdi,%rcx),%eax
	movq	1(%rdi,%rcx),%xmm0
	movdqa	.Lrtp_b236e5ea_CPI176_0(%rip),%xmm2
	pshufb	%xmm2,%xmm0
	movd	9(%rdi,%rcx),%xmm1
	pshufb	%xmm2,%xmm1
	movb	$1,%cl
3:
	movq	%xmm0,(%rdx)
	movd	%xmm1,8(%rdx)
	movb	%al,12(%rdx)
	movb	%cl,13(%rdx)
	xorl	%eax,%eax
2:
	retq
	.size	rtp_b236e5ea_rtpw_read_timing,.-rtp_b236e5ea_rtpw_read_timing
	.cfi_endproc

	.section	.rodata.cst16,"aM",@progbits,16
	.p2align	4,0x0
.Lrtp_b236e5ea_CPI177_0:
	.zero	16,32
.Lrtp_b236e5ea_CPI177_1:
	.zero	16,133
.Lrtp_b236e5ea_CPI177_2:
	.zero	16,229
.Lrtp_b236e5ea_CPI177_3:
	.zero	16,198
.Lrtp_b236e5ea_CPI177_4:
	.zero	16,245
.Lrtp_b236e5ea_CPI177_5:
	.zero	16,95
	.section	.text.rtpw_left_out,"ax",@progbits
	.globl	rtp_b236e5ea_rtpw_left_out
	.p2align	4
	.type	rtp_b236e5ea_rtpw_left_out,@function
rtp_b236e5ea_rtpw_left_out:
	.cfi_startproc
	pushq	%rbp
	.cfi_def_cfa_offset 16
	pushq	%r15
	.cfi_def_cfa_offset 24
	pushq	%r14
	.cfi_def_cfa_offset 32
	pushq	%r13
	.cfi_def_cfa_offset 40
	pushq	%r12
	.cfi_def_cfa_offset 48
	pushq	%rbx
	.cfi_def_cfa_offset 56
	subq	$40,%rsp
	.cfi_def_cfa_offset 96
	.cfi_offset %rbx,-56
	.cfi_offset %r12,-48
	.cfi_offset %r13,-40
	.cfi_offset %r14,-32
	.cfi_offset %r15,-24
	.cfi_offset %rbp,-16
	movq	%rsi,%rbx
	movq	%rdi,%r13
	movzbl	209(%rsi),%ebp
	testb	%bpl,%bpl
	je	1f
	movzwl	154(%rbx),%ecx
	movl	$9,%eax
	cmpl	$179,%ecx
	jg	2f
	testl	%ecx,%ecx
	je	1f
	cmpl	$90,%ecx
	je	1f
	jmp	3f
2:
	cmpl	$270,%ecx
	je	1f
	cmpl	$180,%ecx
	jne	3f
1:
	movzbl	213(%rbx),%r15d
	testb	%r15b,%r15b
	je	1f
	cmpl	$0,120(%rbx)
	je	2f
1:
	movzbl	214(%rbx),%r12d
	testb	%r12b,%r12b
	je	1f
	cmpl	$0,136(%rbx)
	je	2f
1:
	movzbl	211(%rbx),%ecx
	testb	%cl,%cl
	je	1f
	movzbl	166(%rbx),%eax
	addb	$127,%al
	js	2f
1:
	movzbl	216(%rbx),%eax
	movb	%al,10(%rsp)
	testb	%al,%al
	je	1f
	movdqu	168(%rbx),%xmm0
	movdqa	.Lrtp_b236e5ea_CPI177_0(%rip),%xmm1
	por	%xmm0,%xmm1
	paddb	.Lrtp_b236e5ea_CPI177_1(%rip),%xmm1
	movdqa	.Lrtp_b236e5ea_CPI177_2(%rip),%xmm2
	pminub	%xmm1,%xmm2
	pcmpeqb	%xmm1,%xmm2
	movdqa	.Lrtp_b236e5ea_CPI177_3(%rip),%xmm1
	paddb	%xmm0,%xmm1
	movdqa	.Lrtp_b236e5ea_CPI177_4(%rip),%xmm3
	pminub	%xmm1,%xmm3
	pcmpeqb	%xmm1,%xmm3
	pcmpeqb	.Lrtp_b236e5ea_CPI177_5(%rip),%xmm0
	pand	%xmm2,%xmm3
	pandn	%xmm3,%xmm0
	pmovmskb	%xmm0,%eax
	orl	$65536,%eax
	rep		bsfl	%eax,%esi
	movl	$9,%eax
	cmpb	$0,168(%rbx,%rsi)
	jne	3f
1:
	movzbl	217(%rbx),%eax
	movb	%al,9(%rsp)
	testb	%al,%al
	je	1f
	cmpb	$0,185(%rbx)
	je	4f
	cmpb	$0,186(%rbx)
	je	5f
	cmpb	$0,187(%rbx)
	je	6f
	cmpb	$0,188(%rbx)
	je	7f
	cmpb	$0,189(%rbx)
	je	8f
	cmpb	$0,190(%rbx)
	je	9f
	cmpb	$0,191(%rbx)
	je	10f
	cmpb	$0,192(%rbx)
	je	11f
	movl	$9,%eax
	cmpb	$0,193(%rbx)
	jne	3f
	movl	$8,%eax
	jmp	12f
4:
	xorl	%eax,%eax
	jmp	12f
5:
	movl	$1,%eax
	jmp	12f
6:
	movl	$2,%eax
	jmp	12f
7:
	movl	$3,%eax
	jmp	12f
8:
	movl	$4,%eax
	jmp	12f
9:
	movl	$5,%eax
	jmp	12f
10:
	movl	$6,%eax
	jmp	12f
11:
	movl	$7,%eax
12:
	xorl	%esi,%esi
	.p2align	4
4:
	cmpq	%rsi,%rax
	je	1f
	movzbl	185(%rbx,%rsi),%edi
	incq	%rsi
	cmpb	$95,%dil
	je	4b
	leal	-48(%rdi),%r8d
	cmpb	$10,%r8b
	jb	4b
	andb	$-33,%dil
	addb	$-65,%dil
	cmpb	$26,%dil
	jb	4b
	jmp	2f
1:
	movzbl	218(%rbx),%eax
	movb	%al,11(%rsp)
	testb	%al,%al
	je	1f
	cmpb	$0,194(%rbx)
	je	4f
	cmpb	$0,195(%rbx)
	je	5f
	cmpb	$0,196(%rbx)
	je	6f
	cmpb	$0,197(%rbx)
	je	7f
	cmpb	$0,198(%rbx)
	je	8f
	cmpb	$0,199(%rbx)
	je	9f
	cmpb	$0,200(%rbx)
	je	10f
	cmpb	$0,201(%rbx)
	je	11f
	movl	$9,%eax
	cmpb	$0,202(%rbx)
	jne	3f
	movl	$8,%eax
	jmp	12f
4:
	xorl	%eax,%eax
	jmp	12f
5:
	movl	$1,%eax
	jmp	12f
6:
	movl	$2,%eax
	jmp	12f
7:
	movl	$3,%eax
	jmp	12f
8:
	movl	$4,%eax
	jmp	12f
9:
	movl	$5,%eax
	jmp	12f
10:
	movl	$6,%eax
	jmp	12f
11:
	movl	$7,%eax
12:
	xorl	%esi,%esi
	.p2align	4
4:
	cmpq	%rsi,%rax
	je	1f
	movzbl	194(%rbx,%rsi),%edi
	incq	%rsi
	cmpb	$95,%dil
	je	4b
	leal	-48(%rdi),%r8d
	cmpb	$10,%r8b
	jb	4b
	andb	$-33,%dil
	addb	$-65,%dil
	cmpb	$26,%dil
	jb	4b
2:
	movl	$9,%eax
3:
	addq	$40,%rsp
	.cfi_def_cfa_offset 56
	popq	%rbx
	.cfi_def_cfa_offset 48
	popq	%r12
	.cfi_def_cfa_offset 40
	popq	%r13
	.cfi_def_cfa_offset 32
	popq	%r14
	.cfi_def_cfa_offset 24
	popq	%r15
	.cfi_def_cfa_offset 16
	popq	%rbp
	.cfi_def_cfa_offset 8
	retq
1:
	.cfi_def_cfa_offset 96
	movl	$9,%eax
	cmpb	$0,78(%rbx)
	js	3b
	cmpb	$15,79(%rbx)
	ja	3b
	cmpb	$0,82(%rbx)
	je	1f
	movq	%rdx,32(%rsp)
	movdqu	16(%r13),%xmm0
	movdqu	32(%r13),%xmm1
	movdqu	48(%r13),%xmm2
	movdqu	64(%r13),%xmm3
	por	%xmm1,%xmm3
	movdqu	80(%r13),%xmm1
	por	%xmm2,%xmm1
	movdqu	96(%r13),%xmm2
	movdqu	112(%r13),%xmm4
	movdqu	128(%r13),%xmm5
	por	%xmm2,%xmm5
	por	%xmm3,%xmm5
	movdqu	144(%r13),%xmm2
	por	%xmm4,%xmm2
	por	%xmm1,%xmm2
	movdqu	160(%r13),%xmm1
	movdqu	176(%r13),%xmm3
	movdqu	192(%r13),%xmm4
	por	%xmm1,%xmm4
	movdqu	208(%r13),%xmm1
	por	%xmm3,%xmm1
	movdqu	224(%r13),%xmm3
	por	%xmm4,%xmm3
	por	%xmm5,%xmm3
	por	%xmm0,%xmm3
	movdqu	240(%r13),%xmm0
	por	%xmm1,%xmm0
	por	%xmm2,%xmm0
	por	%xmm3,%xmm0
	movl	$15,%edx
	ptest	%xmm0,%xmm0
	jne	2f
	movdqu	(%r13),%xmm0
	pxor	%xmm1,%xmm1
	pcmpeqb	%xmm0,%xmm1
	pmovmskb	%xmm1,%eax
	xorl	$65534,%eax
	orl	$1,%eax
	bsrq	%rax,%rdx
2:
	movzbl	203(%rbx),%eax
	movzbl	204(%rbx),%edi
	movb	%al,31(%rsp)
	testb	%al,%al
	movzbl	212(%rbx),%eax
	movzbl	206(%rbx),%r8d
	movzbl	208(%rbx),%r9d
	movzbl	210(%rbx),%r10d
	movzbl	215(%rbx),%r11d
	movzbl	207(%rbx),%r14d
	setne	24(%rsp)
	testb	%dil,%dil
	setne	23(%rsp)
	movl	%eax,%esi
	orb	%cl,%sil
	setne	22(%rsp)
	movb	%r8b,30(%rsp)
	testb	%r8b,%r8b
	setne	21(%rsp)
	testb	%bpl,%bpl
	setne	20(%rsp)
	movb	%r9b,29(%rsp)
	testb	%r9b,%r9b
	setne	19(%rsp)
	movl	%r12d,%esi
	orb	%r15b,%sil
	setne	18(%rsp)
	movb	%r10b,28(%rsp)
	testb	%r10b,%r10b
	setne	17(%rsp)
	movb	%r11b,27(%rsp)
	testb	%r11b,%r11b
	setne	16(%rsp)
	cmpb	$0,9(%rsp)
	setne	15(%rsp)
	cmpb	$0,11(%rsp)
	setne	14(%rsp)
	cmpb	$0,10(%rsp)
	setne	13(%rsp)
	movb	%r14b,26(%rsp)
	testb	%r14b,%r14b
	setne	12(%rsp)
	testb	%cl,%cl
	setne	%cl
	testb	%al,%al
	setne	%al
	andb	%cl,%al
	movb	%al,25(%rsp)
	xorl	%eax,%eax
	jmp	2f
4:
	testb	%dil,%dil
	je	2f
	leaq	23(%rsp),%rcx
5:
	movb	$0,(%rcx)
	.p2align	4
2:
	cmpq	%rdx,%rax
	jae	6f
	movzbl	1(%r13,%rax),%ecx
	incq	%rax
	decl	%ecx
	cmpl	$12,%ecx
	ja	2b
	leaq	7f(%rip),%rsi
	movslq	(%rsi,%rcx,4),%rcx
	addq	%rsi,%rcx
	jmpq	*%rcx
8:
	cmpb	$0,31(%rsp)
	je	2b
	leaq	24(%rsp),%rcx
	movb	$0,(%rcx)
	jmp	2b
	.p2align	4
6:
	movl	%edi,%r14d
	cmpq	$15,%rdx
	jb	6f
	cmpq	$254,%rax
	ja	6f
	movq	%r13,%rdi
	movq	%rax,%rsi
	callq	"rtp_b236e5ea_rtp_c::kinds::StoredMap::past_unmapped"
	movq	%rax,%rcx
	addq	$16,%rcx
	cmpq	$255,%rcx
	movl	$255,%edx
	cmovbq	%rcx,%rdx
	movl	%r14d,%edi
	jmp	2b
9:
	cmpb	$0,10(%rsp)
	je	2b
	leaq	13(%rsp),%rcx
	movb	$0,(%rcx)
	jmp	2b
10:
	testb	%bpl,%bpl
	je	2b
	movzwl	154(%rbx),%esi
	leaq	20(%rsp),%rcx
	cmpl	$179,%esi
	jg	11f
	testl	%esi,%esi
	je	5b
	cmpl	$90,%esi
	je	5b
	jmp	2b
12:
	cmpb	$0,26(%rsp)
	je	2b
	leaq	12(%rsp),%rcx
	movb	$0,(%rcx)
	jmp	2b
13:
	cmpb	$0,9(%rsp)
	je	2b
	leaq	15(%rsp),%rcx
	movb	$0,(%rcx)
	jmp	2b
14:
	cmpb	$0,25(%rsp)
	je	2b
	leaq	22(%rsp),%rcx
	movb	$0,(%rcx)
	jmp	2b
15:
	cmpb	$0,30(%rsp)
	je	2b
	leaq	21(%rsp),%rcx
	movb	$0,(%rcx)
	jmp	2b
16:
	cmpb	$0,28(%rsp)
	je	2b
	leaq	17(%rsp),%rcx
	movb	$0,(%rcx)
	jmp	2b
17:
	cmpb	$0,29(%rsp)
	je	2b
	leaq	19(%rsp),%rcx
	movb	$0,(%rcx)
	jmp	2b
18:
	testb	%r15b,%r15b
	je	19f
	cmpl	$0,120(%rbx)
	setne	%cl
	jmp	20f
21:
	cmpb	$0,11(%rsp)
	je	2b
	leaq	14(%rsp),%rcx
	movb	$0,(%rcx)
	jmp	2b
22:
	cmpb	$0,27(%rsp)
	je	2b
	leaq	16(%rsp),%rcx
	movb	$0,(%rcx)
	jmp	2b
19:
	xorl	%ecx,%ecx
20:
	testb	%r12b,%r12b
	je	2b
	cmpl	$0,136(%rbx)
	setne	%sil
	testb	%sil,%cl
	je	2b
	leaq	18(%rsp),%rcx
	movb	$0,(%rcx)
	jmp	2b
11:
	cmpl	$180,%esi
	je	5b
	cmpl	$270,%esi
	je	5b
	jmp	2b
6:
	movzbl	24(%rsp),%r8d
	movzbl	23(%rsp),%esi
	movzbl	22(%rsp),%r9d
	movzbl	21(%rsp),%eax
	movzbl	20(%rsp),%r10d
	movzbl	19(%rsp),%edi
	movzbl	18(%rsp),%r11d
	movzbl	17(%rsp),%ecx
	movzbl	16(%rsp),%r15d
	movzbl	15(%rsp),%ebp
	movzbl	14(%rsp),%edx
	movb	%dl,9(%rsp)
	movzbl	13(%rsp),%r13d
	movzbl	12(%rsp),%edx
	movb	%dl,10(%rsp)
	movq	32(%rsp),%rdx
	jmp	2f
1:
	cmpb	$0,203(%rbx)
	setne	%r8b
	movzbl	204(%rbx),%r14d
	testb	%r14b,%r14b
	setne	%sil
	orb	212(%rbx),%cl
	setne	%r9b
	cmpb	$0,206(%rbx)
	setne	%al
	testb	%bpl,%bpl
	setne	%r10b
	cmpb	$0,208(%rbx)
	setne	%dil
	orb	%r15b,%r12b
	setne	%r11b
	cmpb	$0,210(%rbx)
	setne	%cl
	cmpb	$0,215(%rbx)
	setne	%r15b
	cmpb	$0,9(%rsp)
	setne	%bpl
	cmpb	$0,11(%rsp)
	setne	9(%rsp)
	cmpb	$0,10(%rsp)
	setne	%r13b
	cmpb	$0,207(%rbx)
	setne	10(%rsp)
2:
	testb	%r14b,%r14b
	movzbl	%sil,%esi
	movl	$1,%r12d
	cmovnel	%esi,%r12d
	cmpb	$0,205(%rbx)
	cmovel	%esi,%r12d
	xorl	%esi,%esi
	cmpb	$0,219(%rbx)
	setne	%sil
	addb	%r8b,%r8b
	shlb	$2,%r12b
	shlb	$3,%r9b
	addb	%r8b,%r9b
	shlb	$4,%al
	shlb	$5,%r10b
	addb	%al,%r10b
	addb	%r9b,%r10b
	addb	%r12b,%r10b
	shlb	$6,%dil
	orb	%r10b,%dil
	shlb	$7,%r11b
	orb	%dil,%r11b
	movzbl	%r11b,%eax
	movzbl	%cl,%edi
	shll	$8,%edi
	movzbl	%r15b,%r8d
	shll	$9,%r8d
	addl	%edi,%r8d
	movzbl	%bpl,%edi
	shll	$10,%edi
	addl	%r8d,%edi
	orl	%eax,%edi
	movzbl	9(%rsp),%eax
	shll	$11,%eax
	movzbl	%r13b,%ecx
	shll	$12,%ecx
	orl	%eax,%ecx
	movzbl	10(%rsp),%eax
	shll	$13,%eax
	orl	%ecx,%eax
	shll	$15,%esi
	orl	%eax,%esi
	orl	%edi,%esi
	movl	%esi,(%rdx)
	xorl	%eax,%eax
	jmp	3b
	.size	rtp_b236e5ea_rtpw_left_out,.-rtp_b236e5ea_rtpw_left_out
	.cfi_endproc
	.section	.rodata.rtpw_left_out,"a",@progbits
	.p2align	2,0x0
7:
	.long	8b-7b
	.long	4b-7b
	.long	14b-7b
	.long	15b-7b
	.long	10b-7b
	.long	17b-7b
	.long	18b-7b
	.long	16b-7b
	.long	22b-7b
	.long	13b-7b
	.long	21b-7b
	.long	9b-7b
	.long	12b-7b

	.section	.rodata.cst16,"aM",@progbits,16
	.p2align	4,0x0
.Lrtp_b236e5ea_CPI178_0:
	.zero	16,32
.Lrtp_b236e5ea_CPI178_1:
	.zero	16,133
.Lrtp_b236e5ea_CPI178_2:
	.zero	16,229
.Lrtp_b236e5ea_CPI178_3:
	.zero	16,198
.Lrtp_b236e5ea_CPI178_4:
	.zero	16,245
.Lrtp_b236e5ea_CPI178_5:
	.zero	16,95
	.section	.text.rtpw_left_out_layers,"ax",@progbits
	.globl	rtp_b236e5ea_rtpw_left_out_layers
	.p2align	4
	.type	rtp_b236e5ea_rtpw_left_out_layers,@function
rtp_b236e5ea_rtpw_left_out_layers:
	.cfi_startproc
	pushq	%rbp
	.cfi_def_cfa_offset 16
	pushq	%r15
	.cfi_def_cfa_offset 24
	pushq	%r14
	.cfi_def_cfa_offset 32
	pushq	%r13
	.cfi_def_cfa_offset 40
	pushq	%r12
	.cfi_def_cfa_offset 48
	pushq	%rbx
	.cfi_def_cfa_offset 56
	subq	$120,%rsp
	.cfi_def_cfa_offset 176
	.cfi_offset %rbx,-56
	.cfi_offset %r12,-48
	.cfi_offset %r13,-40
	.cfi_offset %r14,-32
	.cfi_offset %r15,-24
	.cfi_offset %rbp,-16
	movq	%rdi,%rbx
	pxor	%xmm0,%xmm0
	movdqa	%xmm0,96(%rsp)
	movdqa	%xmm0,80(%rsp)
	movdqa	%xmm0,64(%rsp)
	cmpb	$0,209(%rsi)
	je	1f
	movzwl	154(%rsi),%edi
	movl	$9,%eax
	cmpl	$179,%edi
	jg	2f
	testl	%edi,%edi
	je	1f
	cmpl	$90,%edi
	je	1f
	jmp	3f
2:
	cmpl	$270,%edi
	je	1f
	cmpl	$180,%edi
	jne	3f
1:
	cmpb	$0,213(%rsi)
	je	1f
	cmpl	$0,120(%rsi)
	je	2f
1:
	cmpb	$0,214(%rsi)
	je	1f
	cmpl	$0,136(%rsi)
	je	2f
1:
	cmpb	$0,211(%rsi)
	je	1f
	movzbl	166(%rsi),%eax
	addb	$127,%al
	js	2f
1:
	cmpb	$0,216(%rsi)
	je	1f
	movdqu	168(%rsi),%xmm0
	movdqa	.Lrtp_b236e5ea_CPI178_0(%rip),%xmm1
	por	%xmm0,%xmm1
	paddb	.Lrtp_b236e5ea_CPI178_1(%rip),%xmm1
	movdqa	.Lrtp_b236e5ea_CPI178_2(%rip),%xmm2
	pminub	%xmm1,%xmm2
	pcmpeqb	%xmm1,%xmm2
	movdqa	.Lrtp_b236e5ea_CPI178_3(%rip),%xmm1
	paddb	%xmm0,%xmm1
	movdqa	.Lrtp_b236e5ea_CPI178_4(%rip),%xmm3
	pminub	%xmm1,%xmm3
	pcmpeqb	%xmm1,%xmm3
	pcmpeqb	.Lrtp_b236e5ea_CPI178_5(%rip),%xmm0
	pand	%xmm2,%xmm3
	pandn	%xmm3,%xmm0
	pmovmskb	%xmm0,%eax
	orl	$65536,%eax
	rep		bsfl	%eax,%edi
	movl	$9,%eax
	cmpb	$0,168(%rsi,%rdi)
	jne	3f
1:
	cmpb	$0,217(%rsi)
	je	1f
	cmpb	$0,185(%rsi)
	je	4f
	cmpb	$0,186(%rsi)
	je	5f
	cmpb	$0,187(%rsi)
	je	6f
	cmpb	$0,188(%rsi)
	je	7f
	cmpb	$0,189(%rsi)
	je	8f
	cmpb	$0,190(%rsi)
	je	9f
	cmpb	$0,191(%rsi)
	je	10f
	cmpb	$0,192(%rsi)
	je	11f
	movl	$9,%eax
	cmpb	$0,193(%rsi)
	jne	3f
	movl	$8,%eax
	jmp	12f
4:
	xorl	%eax,%eax
	jmp	12f
5:
	movl	$1,%eax
	jmp	12f
6:
	movl	$2,%eax
	jmp	12f
7:
	movl	$3,%eax
	jmp	12f
8:
	movl	$4,%eax
	jmp	12f
9:
	movl	$5,%eax
	jmp	12f
10:
	movl	$6,%eax
	jmp	12f
11:
	movl	$7,%eax
12:
	xorl	%edi,%edi
	.p2align	4
4:
	cmpq	%rdi,%rax
	je	1f
	movzbl	185(%rsi,%rdi),%r8d
	incq	%rdi
	cmpb	$95,%r8b
	je	4b
	leal	-48(%r8),%r9d
	cmpb	$10,%r9b
	jb	4b
	andb	$-33,%r8b
	addb	$-65,%r8b
	cmpb	$26,%r8b
	jb	4b
	jmp	2f
1:
	cmpb	$0,218(%rsi)
	je	1f
	cmpb	$0,194(%rsi)
	je	4f
	cmpb	$0,195(%rsi)
	je	5f
	cmpb	$0,196(%rsi)
	je	6f
	cmpb	$0,197(%rsi)
	je	7f
	cmpb	$0,198(%rsi)
	je	8f
	cmpb	$0,199(%rsi)
	je	9f
	cmpb	$0,200(%rsi)
	je	10f
	cmpb	$0,201(%rsi)
	je	11f
	movl	$9,%eax
	cmpb	$0,202(%rsi)
	jne	3f
	movl	$8,%eax
	jmp	12f
4:
	xorl	%eax,%eax
	jmp	12f
5:
	movl	$1,%eax
	jmp	12f
6:
	movl	$2,%eax
	jmp	12f
7:
	movl	$3,%eax
	jmp	12f
8:
	movl	$4,%eax
	jmp	12f
9:
	movl	$5,%eax
	jmp	12f
10:
	movl	$6,%eax
	jmp	12f
11:
	movl	$7,%eax
12:
	xorl	%edi,%edi
	.p2align	4
4:
	cmpq	%rdi,%rax
	je	1f
	movzbl	194(%rsi,%rdi),%r8d
	incq	%rdi
	cmpb	$95,%r8b
	je	4b
	leal	-48(%r8),%r9d
	cmpb	$10,%r9b
	jb	4b
	andb	$-33,%r8b
	addb	$-65,%r8b
	cmpb	$26,%r8b
	jb	4b
2:
	movl	$9,%eax
3:
	addq	$120,%rsp
	.cfi_def_cfa_offset 56
	popq	%rbx
	.cfi_def_cfa_offset 48
	popq	%r12
	.cfi_def_cfa_offset 40
	popq	%r13
	.cfi_def_cfa_offset 32
	popq	%r14
	.cfi_def_cfa_offset 24
	popq	%r15
	.cfi_def_cfa_offset 16
	popq	%rbp
	.cfi_def_cfa_offset 8
	retq
1:
	.cfi_def_cfa_offset 176
	movl	$9,%eax
	cmpb	$0,78(%rsi)
	js	3b
	cmpb	$15,79(%rsi)
	ja	3b
	leaq	88(%rsi),%rax
	movzbl	82(%rsi),%ebp
	movq	%rax,56(%rsp)
	leaq	64(%rsp),%rdi
	leaq	56(%rsp),%rax
	movq	%rsi,48(%rsp)
	movq	%rax,%rsi
	movq	%rcx,40(%rsp)
	callq	"rtp_b236e5ea_rtp_c::given_layers::with_given_layers::<#6444109e7f8c5753>"
	movl	$9,%eax
	movq	48(%rsp),%rsi
	movq	40(%rsp),%rcx
	cmpb	$1,64(%rsp)
	jne	3b
	movq	72(%rsp),%rax
	testb	%bpl,%bpl
	je	1f
	movdqu	16(%rbx),%xmm0
	movdqu	32(%rbx),%xmm1
	movdqu	48(%rbx),%xmm2
	movdqu	64(%rbx),%xmm3
	por	%xmm1,%xmm3
	movdqu	80(%rbx),%xmm1
	por	%xmm2,%xmm1
	movdqu	96(%rbx),%xmm2
	movdqu	112(%rbx),%xmm4
	movdqu	128(%rbx),%xmm5
	por	%xmm2,%xmm5
	por	%xmm3,%xmm5
	movdqu	144(%rbx),%xmm2
	por	%xmm4,%xmm2
	por	%xmm1,%xmm2
	movdqu	160(%rbx),%xmm1
	movdqu	176(%rbx),%xmm3
	movdqu	192(%rbx),%xmm4
	por	%xmm1,%xmm4
	movdqu	208(%rbx),%xmm1
	por	%xmm3,%xmm1
	movdqu	224(%rbx),%xmm3
	por	%xmm4,%xmm3
	por	%xmm5,%xmm3
	por	%xmm0,%xmm3
	movdqu	240(%rbx),%xmm0
	por	%xmm1,%xmm0
	por	%xmm2,%xmm0
	por	%xmm3,%xmm0
	movl	$15,%ecx
	ptest	%xmm0,%xmm0
	jne	2f
	movdqu	(%rbx),%xmm0
	pxor	%xmm1,%xmm1
	pcmpeqb	%xmm0,%xmm1
	pmovmskb	%xmm1,%ecx
	xorl	$65534,%ecx
	orl	$1,%ecx
	bsrq	%rcx,%rcx
2:
	movq	(%rax),%r12
	movzbl	115(%r12),%eax
	movb	%al,33(%rsp)
	movzbl	116(%r12),%esi
	movb	%sil,32(%rsp)
	testb	%al,%al
	movzbl	123(%r12),%edx
	movzbl	124(%r12),%eax
	movzbl	118(%r12),%edi
	movzbl	121(%r12),%r8d
	movzbl	120(%r12),%r9d
	movzbl	125(%r12),%r10d
	movzbl	126(%r12),%r11d
	movzbl	122(%r12),%r13d
	movzbl	127(%r12),%r14d
	movzbl	129(%r12),%ebp
	movb	%bpl,29(%rsp)
	movzbl	130(%r12),%ebp
	movzbl	128(%r12),%r15d
	movb	%r15b,30(%rsp)
	movzbl	119(%r12),%r15d
	setne	28(%rsp)
	testb	%sil,%sil
	setne	27(%rsp)
	movl	%eax,%esi
	orb	%dl,%sil
	setne	26(%rsp)
	movb	%dil,14(%rsp)
	testb	%dil,%dil
	setne	25(%rsp)
	movb	%r8b,39(%rsp)
	testb	%r8b,%r8b
	setne	24(%rsp)
	movb	%r9b,38(%rsp)
	testb	%r9b,%r9b
	setne	23(%rsp)
	movb	%r11b,36(%rsp)
	movl	%r11d,%esi
	movb	%r10b,37(%rsp)
	orb	%r10b,%sil
	setne	22(%rsp)
	movb	%r13b,35(%rsp)
	testb	%r13b,%r13b
	setne	21(%rsp)
	movb	%r14b,34(%rsp)
	testb	%r14b,%r14b
	movzbl	29(%rsp),%r14d
	setne	20(%rsp)
	testb	%r14b,%r14b
	setne	19(%rsp)
	movb	%bpl,31(%rsp)
	testb	%bpl,%bpl
	movzbl	30(%rsp),%ebp
	setne	18(%rsp)
	testb	%bpl,%bpl
	setne	17(%rsp)
	testb	%r15b,%r15b
	setne	16(%rsp)
	movb	$1,15(%rsp)
	testb	%dl,%dl
	setne	%dl
	testb	%al,%al
	setne	%r13b
	andb	%dl,%r13b
	xorl	%eax,%eax
	jmp	2f
4:
	leaq	15(%rsp),%rdx
	movb	$0,(%rdx)
	.p2align	4
2:
	cmpq	%rcx,%rax
	jae	5f
	movzbl	1(%rbx,%rax),%edx
	incq	%rax
	decl	%edx
	cmpl	$14,%edx
	ja	2b
	leaq	6f(%rip),%rsi
	movslq	(%rsi,%rdx,4),%rdx
	addq	%rsi,%rdx
	jmpq	*%rdx
7:
	cmpb	$0,33(%rsp)
	je	2b
	leaq	28(%rsp),%rdx
	movb	$0,(%rdx)
	jmp	2b
	.p2align	4
5:
	cmpq	$15,%rcx
	jb	5f
	cmpq	$254,%rax
	ja	5f
	movq	%rbx,%rdi
	movq	%rax,%rsi
	callq	"rtp_b236e5ea_rtp_c::kinds::StoredMap::past_unmapped"
	movq	%rax,%rdx
	addq	$16,%rdx
	cmpq	$255,%rdx
	movl	$255,%ecx
	cmovbq	%rdx,%rcx
	jmp	2b
8:
	testb	%bpl,%bpl
	je	2b
	leaq	17(%rsp),%rdx
	movb	$0,(%rdx)
	jmp	2b
9:
	cmpb	$0,39(%rsp)
	je	2b
	movzwl	66(%r12),%esi
	leaq	24(%rsp),%rdx
	cmpl	$179,%esi
	jg	10f
	testl	%esi,%esi
	je	11f
	cmpl	$90,%esi
	je	11f
	jmp	2b
12:
	testb	%r15b,%r15b
	je	2b
	leaq	16(%rsp),%rdx
	movb	$0,(%rdx)
	jmp	2b
13:
	testb	%r14b,%r14b
	je	2b
	leaq	19(%rsp),%rdx
	movb	$0,(%rdx)
	jmp	2b
14:
	testb	%r13b,%r13b
	je	2b
	leaq	26(%rsp),%rdx
	movb	$0,(%rdx)
	jmp	2b
15:
	cmpb	$0,14(%rsp)
	je	2b
	leaq	25(%rsp),%rdx
	movb	$0,(%rdx)
	jmp	2b
16:
	cmpb	$0,35(%rsp)
	je	2b
	leaq	21(%rsp),%rdx
	movb	$0,(%rdx)
	jmp	2b
17:
	cmpb	$0,32(%rsp)
	je	2b
	leaq	27(%rsp),%rdx
11:
	movb	$0,(%rdx)
	jmp	2b
18:
	cmpb	$0,38(%rsp)
	je	2b
	leaq	23(%rsp),%rdx
	movb	$0,(%rdx)
	jmp	2b
19:
	cmpb	$0,37(%rsp)
	je	20f
	cmpl	$0,32(%r12)
	setne	%dl
	jmp	21f
22:
	cmpb	$0,31(%rsp)
	je	2b
	leaq	18(%rsp),%rdx
	movb	$0,(%rdx)
	jmp	2b
23:
	cmpb	$0,34(%rsp)
	je	2b
	leaq	20(%rsp),%rdx
	movb	$0,(%rdx)
	jmp	2b
20:
	xorl	%edx,%edx
21:
	cmpb	$0,36(%rsp)
	je	2b
	cmpl	$0,48(%r12)
	setne	%sil
	testb	%sil,%dl
	je	2b
	leaq	22(%rsp),%rdx
	movb	$0,(%rdx)
	jmp	2b
10:
	cmpl	$180,%esi
	je	11b
	cmpl	$270,%esi
	je	11b
	jmp	2b
5:
	movzbl	28(%rsp),%edi
	movzbl	27(%rsp),%edx
	movzbl	26(%rsp),%r10d
	movzbl	25(%rsp),%r13d
	movzbl	24(%rsp),%r11d
	movzbl	23(%rsp),%ebx
	movzbl	22(%rsp),%ebp
	movzbl	21(%rsp),%r14d
	movzbl	20(%rsp),%r15d
	movzbl	19(%rsp),%r12d
	movzbl	18(%rsp),%r8d
	movzbl	17(%rsp),%r9d
	movzbl	16(%rsp),%eax
	movb	%al,14(%rsp)
	movzbl	15(%rsp),%eax
	shll	$15,%eax
	movq	40(%rsp),%rcx
	movq	48(%rsp),%rsi
	jmp	5f
1:
	movq	(%rax),%rax
	cmpb	$0,115(%rax)
	setne	%dil
	cmpb	$0,116(%rax)
	setne	%dl
	movzbl	124(%rax),%r8d
	orb	123(%rax),%r8b
	setne	%r10b
	cmpb	$0,118(%rax)
	setne	%r13b
	cmpb	$0,121(%rax)
	setne	%r11b
	cmpb	$0,120(%rax)
	movzbl	126(%rax),%r8d
	setne	%bl
	orb	125(%rax),%r8b
	setne	%bpl
	cmpb	$0,122(%rax)
	setne	%r14b
	cmpb	$0,127(%rax)
	setne	%r15b
	cmpb	$0,129(%rax)
	setne	%r12b
	cmpb	$0,130(%rax)
	setne	%r8b
	cmpb	$0,128(%rax)
	setne	%r9b
	cmpb	$0,119(%rax)
	setne	14(%rsp)
	movl	$32768,%eax
5:
	cmpb	$0,205(%rsi)
	je	1f
	cmpb	$0,204(%rsi)
	movzbl	%dl,%esi
	movl	$1,%edx
	cmovnel	%esi,%edx
1:
	addb	%dil,%dil
	shlb	$2,%dl
	shlb	$3,%r10b
	addb	%dil,%r10b
	shlb	$4,%r13b
	shlb	$5,%r11b
	addb	%r13b,%r11b
	addb	%r10b,%r11b
	addb	%dl,%r11b
	shlb	$6,%bl
	orb	%r11b,%bl
	shlb	$7,%bpl
	orb	%bl,%bpl
	movzbl	%bpl,%edx
	movzbl	%r14b,%esi
	shll	$8,%esi
	movzbl	%r15b,%edi
	shll	$9,%edi
	addl	%esi,%edi
	movzbl	%r12b,%esi
	shll	$10,%esi
	addl	%edi,%esi
	orl	%edx,%esi
	movzbl	%r8b,%edx
	shll	$11,%edx
	movzbl	%r9b,%edi
	shll	$12,%edi
	orl	%edx,%edi
	movzbl	14(%rsp),%edx
	shll	$13,%edx
	orl	%edx,%eax
	orl	%edi,%eax
	orl	%esi,%eax
	movl	%eax,(%rcx)
	xorl	%eax,%eax
	jmp	3b
	.size	rtp_b236e5ea_rtpw_left_out_layers,.-rtp_b236e5ea_rtpw_left_out_layers
	.cfi_endproc
	.section	.rodata.rtpw_left_out_layers,"a",@progbits
	.p2align	2,0x0
6:
	.long	7b-6b
	.long	17b-6b
	.long	14b-6b
	.long	15b-6b
	.long	9b-6b
	.long	18b-6b
	.long	19b-6b
	.long	16b-6b
	.long	23b-6b
	.long	13b-6b
	.long	22b-6b
	.long	8b-6b
	.long	12b-6b
	.long	2b-6b
	.long	4b-6b

	.section	.rodata.cst16,"aM",@progbits,16
	.p2align	4,0x0
.Lrtp_b236e5ea_CPI179_0:
	.zero	16,32
.Lrtp_b236e5ea_CPI179_1:
	.zero	16,133
.Lrtp_b236e5ea_CPI179_2:
	.zero	16,229
.Lrtp_b236e5ea_CPI179_3:
	.zero	16,198
.Lrtp_b236e5ea_CPI179_4:
	.zero	16,245
.Lrtp_b236e5ea_CPI179_5:
	.zero	16,95
.Lrtp_b236e5ea_CPI179_6:
	.zero	16,15
.Lrtp_b236e5ea_CPI179_7:
	.zero	16,14
	.section	.text.rtpw_wire_len,"ax",@progbits
	.globl	rtp_b236e5ea_rtpw_wire_len
	.p2align	4
	.type	rtp_b236e5ea_rtpw_wire_len,@function
rtp_b236e5ea_rtpw_wire_len:
	.cfi_startproc
	pushq	%r15
	.cfi_def_cfa_offset 16
	pushq	%r14
	.cfi_def_cfa_offset 24
	pushq	%r12
	.cfi_def_cfa_offset 32
	pushq	%rbx
	.cfi_def_cfa_offset 40
	pushq	%rax
	.cfi_def_cfa_offset 48
	.cfi_offset %rbx,-40
	.cfi_offset %r12,-32
	.cfi_offset %r14,-24
	.cfi_offset %r15,-16
	cmpb	$0,209(%rsi)
	je	1f
	movzwl	154(%rsi),%ecx
	movl	$9,%eax
	cmpl	$179,%ecx
	jg	2f
	testl	%ecx,%ecx
	je	1f
	cmpl	$90,%ecx
	je	1f
	jmp	3f
2:
	cmpl	$270,%ecx
	je	1f
	cmpl	$180,%ecx
	jne	3f
1:
	cmpb	$0,213(%rsi)
	je	1f
	cmpl	$0,120(%rsi)
	je	2f
1:
	cmpb	$0,214(%rsi)
	je	1f
	cmpl	$0,136(%rsi)
	je	2f
1:
	cmpb	$0,211(%rsi)
	je	1f
	movzbl	166(%rsi),%eax
	addb	$127,%al
	js	2f
1:
	movzbl	216(%rsi),%ecx
	testb	%cl,%cl
	je	1f
	movdqu	168(%rsi),%xmm0
	movdqa	.Lrtp_b236e5ea_CPI179_0(%rip),%xmm1
	por	%xmm0,%xmm1
	paddb	.Lrtp_b236e5ea_CPI179_1(%rip),%xmm1
	movdqa	.Lrtp_b236e5ea_CPI179_2(%rip),%xmm2
	pminub	%xmm1,%xmm2
	pcmpeqb	%xmm1,%xmm2
	movdqa	.Lrtp_b236e5ea_CPI179_3(%rip),%xmm1
	paddb	%xmm0,%xmm1
	movdqa	.Lrtp_b236e5ea_CPI179_4(%rip),%xmm3
	pminub	%xmm1,%xmm3
	pcmpeqb	%xmm1,%xmm3
	pcmpeqb	.Lrtp_b236e5ea_CPI179_5(%rip),%xmm0
	pand	%xmm2,%xmm3
	pandn	%xmm3,%xmm0
	pmovmskb	%xmm0,%eax
	orl	$65536,%eax
	rep		bsfl	%eax,%r8d
	movl	$9,%eax
	cmpb	$0,168(%rsi,%r8)
	jne	3f
1:
	movzbl	217(%rsi),%r8d
	testb	%r8b,%r8b
	je	1f
	cmpb	$0,185(%rsi)
	je	4f
	cmpb	$0,186(%rsi)
	je	5f
	cmpb	$0,187(%rsi)
	je	6f
	cmpb	$0,188(%rsi)
	je	7f
	cmpb	$0,189(%rsi)
	je	8f
	cmpb	$0,190(%rsi)
	je	9f
	cmpb	$0,191(%rsi)
	je	10f
	cmpb	$0,192(%rsi)
	je	11f
	movl	$9,%eax
	cmpb	$0,193(%rsi)
	jne	3f
	movl	$8,%eax
	jmp	12f
4:
	xorl	%eax,%eax
	jmp	12f
5:
	movl	$1,%eax
	jmp	12f
6:
	movl	$2,%eax
	jmp	12f
7:
	movl	$3,%eax
	jmp	12f
8:
	movl	$4,%eax
	jmp	12f
9:
	movl	$5,%eax
	jmp	12f
10:
	movl	$6,%eax
	jmp	12f
11:
	movl	$7,%eax
12:
	xorl	%r9d,%r9d
	.p2align	4
4:
	cmpq	%r9,%rax
	je	1f
	movzbl	185(%rsi,%r9),%r10d
	incq	%r9
	cmpb	$95,%r10b
	je	4b
	leal	-48(%r10),%r11d
	cmpb	$10,%r11b
	jb	4b
	andb	$-33,%r10b
	addb	$-65,%r10b
	cmpb	$26,%r10b
	jb	4b
	jmp	2f
1:
	movzbl	218(%rsi),%r9d
	testb	%r9b,%r9b
	je	1f
	cmpb	$0,194(%rsi)
	je	4f
	cmpb	$0,195(%rsi)
	je	5f
	cmpb	$0,196(%rsi)
	je	6f
	cmpb	$0,197(%rsi)
	je	7f
	cmpb	$0,198(%rsi)
	je	8f
	cmpb	$0,199(%rsi)
	je	9f
	cmpb	$0,200(%rsi)
	je	10f
	cmpb	$0,201(%rsi)
	je	11f
	movl	$9,%eax
	cmpb	$0,202(%rsi)
	jne	3f
	movl	$8,%eax
	jmp	12f
4:
	xorl	%eax,%eax
	jmp	12f
5:
	movl	$1,%eax
	jmp	12f
6:
	movl	$2,%eax
	jmp	12f
7:
	movl	$3,%eax
	jmp	12f
8:
	movl	$4,%eax
	jmp	12f
9:
	movl	$5,%eax
	jmp	12f
10:
	movl	$6,%eax
	jmp	12f
11:
	movl	$7,%eax
12:
	xorl	%r10d,%r10d
	.p2align	4
4:
	cmpq	%r10,%rax
	je	1f
	movzbl	194(%rsi,%r10),%r11d
	incq	%r10
	cmpb	$95,%r11b
	je	4b
	leal	-48(%r11),%ebx
	cmpb	$10,%bl
	jb	4b
	andb	$-33,%r11b
	addb	$-65,%r11b
	cmpb	$26,%r11b
	jb	4b
2:
	movl	$9,%eax
3:
	addq	$8,%rsp
	.cfi_def_cfa_offset 40
	popq	%rbx
	.cfi_def_cfa_offset 32
	popq	%r12
	.cfi_def_cfa_offset 24
	popq	%r14
	.cfi_def_cfa_offset 16
	popq	%r15
	.cfi_def_cfa_offset 8
	retq
1:
	.cfi_def_cfa_offset 48
	movl	$9,%eax
	cmpb	$0,78(%rsi)
	js	3b
	movzbl	79(%rsi),%r10d
	cmpq	$15,%r10
	ja	3b
	leaq	88(%rsi),%rax
	cmpb	$0,82(%rsi)
	movq	%rax,(%rsp)
	leaq	12(,%r10,4),%r15
	je	1f
	movdqu	16(%rdi),%xmm0
	movdqu	32(%rdi),%xmm1
	movdqu	48(%rdi),%xmm2
	movdqu	64(%rdi),%xmm3
	por	%xmm1,%xmm3
	movdqu	80(%rdi),%xmm1
	por	%xmm2,%xmm1
	movdqu	96(%rdi),%xmm2
	movdqu	112(%rdi),%xmm4
	movdqu	128(%rdi),%xmm5
	por	%xmm2,%xmm5
	por	%xmm3,%xmm5
	movdqu	144(%rdi),%xmm2
	por	%xmm4,%xmm2
	por	%xmm1,%xmm2
	movdqu	160(%rdi),%xmm1
	movdqu	176(%rdi),%xmm3
	movdqu	192(%rdi),%xmm4
	por	%xmm1,%xmm4
	movdqu	208(%rdi),%xmm1
	por	%xmm3,%xmm1
	movdqu	224(%rdi),%xmm3
	por	%xmm4,%xmm3
	por	%xmm5,%xmm3
	por	%xmm0,%xmm3
	movdqu	240(%rdi),%xmm0
	por	%xmm1,%xmm0
	por	%xmm2,%xmm0
	por	%xmm3,%xmm0
	movl	$15,%ebx
	ptest	%xmm0,%xmm0
	jne	2f
	movdqu	(%rdi),%xmm0
	pxor	%xmm1,%xmm1
	pcmpeqb	%xmm0,%xmm1
	pmovmskb	%xmm1,%eax
	xorl	$65534,%eax
	orl	$1,%eax
	bsrq	%rax,%rbx
2:
	testb	%cl,%cl
	je	2f
	cmpb	$0,168(%rsi)
	sete	%al
	jmp	4f
2:
	xorl	%eax,%eax
4:
	testb	%r8b,%r8b
	je	2f
	cmpb	$0,185(%rsi)
	sete	%r8b
	jmp	4f
2:
	xorl	%r8d,%r8d
4:
	testb	%r9b,%r9b
	je	2f
	cmpb	$0,194(%rsi)
	sete	%cl
	jmp	4f
2:
	xorl	%ecx,%ecx
4:
	movdqu	1(%rdi),%xmm0
	pcmpeqb	.Lrtp_b236e5ea_CPI179_6(%rip),%xmm0
	pmovmskb	%xmm0,%esi
	testl	%esi,%esi
	je	2f
4:
	movb	$1,%al
	testq	%rbx,%rbx
	je	5f
6:
	movzbl	%al,%ecx
	movq	%rsp,%rax
	movq	%rbx,%rsi
	movq	%rdx,%rbx
	movq	%rax,%rdx
	callq	"rtp_b236e5ea_rtp_ext::block_elements::values_len::<#16f98aa29e959305>"
	movq	%rbx,%rdx
	addq	$3,%rax
	andq	$-4,%rax
	addq	$4,%rax
	jmp	7f
2:
	orb	%r8b,%al
	cmpl	$15,%ebx
	jb	2f
	pcmpeqd	%xmm1,%xmm1
	movdqu	15(%rdi),%xmm3
	movdqu	31(%rdi),%xmm4
	movdqu	47(%rdi),%xmm2
	movdqu	63(%rdi),%xmm5
	paddb	%xmm1,%xmm4
	movdqa	.Lrtp_b236e5ea_CPI179_7(%rip),%xmm0
	paddb	%xmm1,%xmm5
	pminub	%xmm4,%xmm5
	movdqu	95(%rdi),%xmm4
	paddb	%xmm1,%xmm4
	movdqu	127(%rdi),%xmm6
	paddb	%xmm1,%xmm6
	pminub	%xmm4,%xmm6
	pminub	%xmm5,%xmm6
	movdqu	159(%rdi),%xmm4
	paddb	%xmm1,%xmm4
	movdqu	191(%rdi),%xmm5
	paddb	%xmm1,%xmm5
	pminub	%xmm4,%xmm5
	movdqu	223(%rdi),%xmm4
	paddb	%xmm1,%xmm4
	pminub	%xmm5,%xmm4
	pminub	%xmm6,%xmm4
	paddb	%xmm1,%xmm3
	paddb	%xmm1,%xmm2
	pminub	%xmm3,%xmm2
	movdqu	79(%rdi),%xmm3
	paddb	%xmm1,%xmm3
	movdqu	111(%rdi),%xmm5
	paddb	%xmm1,%xmm5
	pminub	%xmm3,%xmm5
	pminub	%xmm2,%xmm5
	movdqu	143(%rdi),%xmm2
	paddb	%xmm1,%xmm2
	movdqu	175(%rdi),%xmm3
	paddb	%xmm1,%xmm3
	pminub	%xmm2,%xmm3
	movdqu	207(%rdi),%xmm2
	paddb	%xmm1,%xmm2
	pminub	%xmm3,%xmm2
	pminub	%xmm5,%xmm2
	pminub	%xmm4,%xmm2
	movdqa	%xmm2,%xmm3
	pminub	%xmm0,%xmm3
	pcmpeqb	%xmm2,%xmm3
	pmovmskb	%xmm3,%esi
	xorl	%r8d,%r8d
	testl	%esi,%esi
	setne	%r8b
	movd	%r8d,%xmm2
	movdqu	239(%rdi),%xmm3
	paddb	%xmm1,%xmm3
	pminub	%xmm3,%xmm0
	pcmpeqb	%xmm3,%xmm0
	por	%xmm2,%xmm0
	psllw	$7,%xmm0
	pmovmskb	%xmm0,%esi
	testl	%esi,%esi
	setne	%r8b
	movzbl	255(%rdi),%esi
	decb	%sil
	cmpb	$15,%sil
	setb	%sil
	orb	%r8b,%sil
	jmp	8f
2:
	xorl	%esi,%esi
8:
	orb	%cl,%al
	testb	%sil,%sil
	jne	2f
	movl	%eax,%ecx
	xorb	$1,%cl
	jne	2f
	movq	%rsp,%rax
	movq	%rdi,%r14
	movq	%rbx,%rsi
	movq	%rdx,%r12
	movq	%rax,%rdx
	callq	"rtp_b236e5ea_rtp_ext::block_form::has_empty_data::<#16f98aa29e959305>"
	movq	%r14,%rdi
	movq	%r12,%rdx
	testb	%al,%al
	jne	4b
	jmp	8f
2:
	orb	%sil,%al
	cmpb	$1,%al
	je	4b
8:
	xorl	%eax,%eax
	testq	%rbx,%rbx
	jne	6b
5:
	movl	$4,%eax
7:
	addq	%rax,%r15
1:
	movq	%r15,(%rdx)
	xorl	%eax,%eax
	jmp	3b
	.size	rtp_b236e5ea_rtpw_wire_len,.-rtp_b236e5ea_rtpw_wire_len
	.cfi_endproc

	.section	.rodata.cst16,"aM",@progbits,16
	.p2align	4,0x0
.Lrtp_b236e5ea_CPI180_0:
	.zero	16,32
.Lrtp_b236e5ea_CPI180_1:
	.zero	16,133
.Lrtp_b236e5ea_CPI180_2:
	.zero	16,229
.Lrtp_b236e5ea_CPI180_3:
	.zero	16,198
.Lrtp_b236e5ea_CPI180_4:
	.zero	16,245
.Lrtp_b236e5ea_CPI180_5:
	.zero	16,95
.Lrtp_b236e5ea_CPI180_6:
	.zero	16,15
.Lrtp_b236e5ea_CPI180_7:
	.zero	16,14
	.section	.text.rtpw_wire_len_layers,"ax",@progbits
	.globl	rtp_b236e5ea_rtpw_wire_len_layers
	.p2align	4
	.type	rtp_b236e5ea_rtpw_wire_len_layers,@function
rtp_b236e5ea_rtpw_wire_len_layers:
	.cfi_startproc
	pushq	%rbp
	.cfi_def_cfa_offset 16
	pushq	%r15
	.cfi_def_cfa_offset 24
	pushq	%r14
	.cfi_def_cfa_offset 32
	pushq	%r12
	.cfi_def_cfa_offset 40
	pushq	%rbx
	.cfi_def_cfa_offset 48
	subq	$112,%rsp
	.cfi_def_cfa_offset 160
	.cfi_offset %rbx,-48
	.cfi_offset %r12,-40
	.cfi_offset %r14,-32
	.cfi_offset %r15,-24
	.cfi_offset %rbp,-16
	pxor	%xmm0,%xmm0
	movdqa	%xmm0,48(%rsp)
	movdqa	%xmm0,32(%rsp)
	movdqa	%xmm0,16(%rsp)
	cmpb	$0,209(%rsi)
	je	1f
	movzwl	154(%rsi),%r8d
	movl	$9,%eax
	cmpl	$179,%r8d
	jg	2f
	testl	%r8d,%r8d
	je	1f
	cmpl	$90,%r8d
	je	1f
	jmp	3f
2:
	cmpl	$270,%r8d
	je	1f
	cmpl	$180,%r8d
	jne	3f
1:
	cmpb	$0,213(%rsi)
	je	1f
	cmpl	$0,120(%rsi)
	je	2f
1:
	cmpb	$0,214(%rsi)
	je	1f
	cmpl	$0,136(%rsi)
	je	2f
1:
	cmpb	$0,211(%rsi)
	je	1f
	movzbl	166(%rsi),%eax
	addb	$127,%al
	js	2f
1:
	cmpb	$0,216(%rsi)
	je	1f
	movdqu	168(%rsi),%xmm0
	movdqa	.Lrtp_b236e5ea_CPI180_0(%rip),%xmm1
	por	%xmm0,%xmm1
	paddb	.Lrtp_b236e5ea_CPI180_1(%rip),%xmm1
	movdqa	.Lrtp_b236e5ea_CPI180_2(%rip),%xmm2
	pminub	%xmm1,%xmm2
	pcmpeqb	%xmm1,%xmm2
	movdqa	.Lrtp_b236e5ea_CPI180_3(%rip),%xmm1
	paddb	%xmm0,%xmm1
	movdqa	.Lrtp_b236e5ea_CPI180_4(%rip),%xmm3
	pminub	%xmm1,%xmm3
	pcmpeqb	%xmm1,%xmm3
	pcmpeqb	.Lrtp_b236e5ea_CPI180_5(%rip),%xmm0
	pand	%xmm2,%xmm3
	pandn	%xmm3,%xmm0
	pmovmskb	%xmm0,%eax
	orl	$65536,%eax
	rep		bsfl	%eax,%r8d
	movl	$9,%eax
	cmpb	$0,168(%rsi,%r8)
	jne	3f
1:
	cmpb	$0,217(%rsi)
	je	1f
	cmpb	$0,185(%rsi)
	je	4f
	cmpb	$0,186(%rsi)
	je	5f
	cmpb	$0,187(%rsi)
	je	6f
	cmpb	$0,188(%rsi)
	je	7f
	cmpb	$0,189(%rsi)
	je	8f
	cmpb	$0,190(%rsi)
	je	9f
	cmpb	$0,191(%rsi)
	je	10f
	cmpb	$0,192(%rsi)
	je	11f
	movl	$9,%eax
	cmpb	$0,193(%rsi)
	jne	3f
	movl	$8,%eax
	jmp	12f
4:
	xorl	%eax,%eax
	jmp	12f
5:
	movl	$1,%eax
	jmp	12f
6:
	movl	$2,%eax
	jmp	12f
7:
	movl	$3,%eax
	jmp	12f
8:
	movl	$4,%eax
	jmp	12f
9:
	movl	$5,%eax
	jmp	12f
10:
	movl	$6,%eax
	jmp	12f
11:
	movl	$7,%eax
12:
	xorl	%r8d,%r8d
	.p2align	4
4:
	cmpq	%r8,%rax
	je	1f
	movzbl	185(%rsi,%r8),%r9d
	incq	%r8
	cmpb	$95,%r9b
	je	4b
	leal	-48(%r9),%r10d
	cmpb	$10,%r10b
	jb	4b
	andb	$-33,%r9b
	addb	$-65,%r9b
	cmpb	$26,%r9b
	jb	4b
	jmp	2f
1:
	cmpb	$0,218(%rsi)
	je	1f
	cmpb	$0,194(%rsi)
	je	4f
	cmpb	$0,195(%rsi)
	je	5f
	cmpb	$0,196(%rsi)
	je	6f
	cmpb	$0,197(%rsi)
	je	7f
	cmpb	$0,198(%rsi)
	je	8f
	cmpb	$0,199(%rsi)
	je	9f
	cmpb	$0,200(%rsi)
	je	10f
	cmpb	$0,201(%rsi)
	je	11f
	movl	$9,%eax
	cmpb	$0,202(%rsi)
	jne	3f
	movl	$8,%eax
	jmp	12f
4:
	xorl	%eax,%eax
	jmp	12f
5:
	movl	$1,%eax
	jmp	12f
6:
	movl	$2,%eax
	jmp	12f
7:
	movl	$3,%eax
	jmp	12f
8:
	movl	$4,%eax
	jmp	12f
9:
	movl	$5,%eax
	jmp	12f
10:
	movl	$6,%eax
	jmp	12f
11:
	movl	$7,%eax
12:
	xorl	%r8d,%r8d
	.p2align	4
4:
	cmpq	%r8,%rax
	je	1f
	movzbl	194(%rsi,%r8),%r9d
	incq	%r8
	cmpb	$95,%r9b
	je	4b
	leal	-48(%r9),%r10d
	cmpb	$10,%r10b
	jb	4b
	andb	$-33,%r9b
	addb	$-65,%r9b
	cmpb	$26,%r9b
	jb	4b
2:
	movl	$9,%eax
3:
	addq	$112,%rsp
	.cfi_def_cfa_offset 48
	popq	%rbx
	.cfi_def_cfa_offset 40
	popq	%r12
	.cfi_def_cfa_offset 32
	popq	%r14
	.cfi_def_cfa_offset 24
	popq	%r15
	.cfi_def_cfa_offset 16
	popq	%rbp
	.cfi_def_cfa_offset 8
	retq
1:
	.cfi_def_cfa_offset 160
	movl	$9,%eax
	cmpb	$0,78(%rsi)
	js	3b
	cmpb	$15,79(%rsi)
	ja	3b
	leaq	88(%rsi),%rax
	movzbl	82(%rsi),%ebp
	movq	%rax,8(%rsp)
	leaq	16(%rsp),%rax
	leaq	8(%rsp),%r8
	movq	%rdi,%rbx
	movq	%rax,%rdi
	movq	%rsi,%r14
	movq	%r8,%rsi
	movq	%rcx,%r12
	callq	"rtp_b236e5ea_rtp_c::given_layers::with_given_layers::<#6444109e7f8c5753>"
	movl	$9,%eax
	cmpb	$1,16(%rsp)
	jne	3b
	movq	%r12,%rcx
	movq	56(%rsp),%rax
	movq	%rax,96(%rsp)
	movdqu	24(%rsp),%xmm0
	movdqu	40(%rsp),%xmm1
	movdqa	%xmm1,80(%rsp)
	movdqa	%xmm0,64(%rsp)
	movzbl	79(%r14),%eax
	leaq	12(,%rax,4),%r15
	testb	%bpl,%bpl
	je	1f
	movq	%rbx,%rdi
	movdqu	16(%rbx),%xmm0
	movdqu	32(%rbx),%xmm1
	movdqu	48(%rbx),%xmm2
	movdqu	64(%rbx),%xmm3
	por	%xmm1,%xmm3
	movdqu	80(%rbx),%xmm1
	por	%xmm2,%xmm1
	movdqu	96(%rbx),%xmm2
	movdqu	112(%rbx),%xmm4
	movdqu	128(%rbx),%xmm5
	por	%xmm2,%xmm5
	por	%xmm3,%xmm5
	movdqu	144(%rbx),%xmm2
	por	%xmm4,%xmm2
	por	%xmm1,%xmm2
	movdqu	160(%rbx),%xmm1
	movdqu	176(%rbx),%xmm3
	movdqu	192(%rbx),%xmm4
	por	%xmm1,%xmm4
	movdqu	208(%rbx),%xmm1
	por	%xmm3,%xmm1
	movdqu	224(%rbx),%xmm3
	por	%xmm4,%xmm3
	por	%xmm5,%xmm3
	por	%xmm0,%xmm3
	movdqu	240(%rbx),%xmm0
	por	%xmm1,%xmm0
	por	%xmm2,%xmm0
	por	%xmm3,%xmm0
	movl	$15,%esi
	ptest	%xmm0,%xmm0
	jne	2f
	movdqu	(%rdi),%xmm0
	pxor	%xmm1,%xmm1
	pcmpeqb	%xmm0,%xmm1
	pmovmskb	%xmm1,%eax
	xorl	$65534,%eax
	orl	$1,%eax
	bsrq	%rax,%rsi
2:
	movq	64(%rsp),%rax
	movq	(%rax),%rdx
	cmpb	$0,128(%rdx)
	je	2f
	cmpb	$0,80(%rdx)
	sete	%al
	jmp	4f
2:
	xorl	%eax,%eax
4:
	cmpb	$0,129(%rdx)
	je	2f
	cmpb	$0,97(%rdx)
	sete	%r8b
	jmp	4f
2:
	xorl	%r8d,%r8d
4:
	cmpb	$0,130(%rdx)
	je	2f
	cmpb	$0,106(%rdx)
	sete	%dl
	jmp	4f
2:
	xorl	%edx,%edx
4:
	movdqu	1(%rdi),%xmm0
	pcmpeqb	.Lrtp_b236e5ea_CPI180_6(%rip),%xmm0
	pmovmskb	%xmm0,%r9d
	testl	%r9d,%r9d
	je	2f
4:
	movb	$1,%al
	testq	%rsi,%rsi
	je	5f
6:
	movzbl	%al,%ecx
	leaq	64(%rsp),%rdx
	callq	"rtp_b236e5ea_rtp_ext::block_elements::values_len::<#defbc6cea7b2a850>"
	movq	%r12,%rcx
	addq	$3,%rax
	andq	$-4,%rax
	addq	$4,%rax
	jmp	7f
2:
	orb	%r8b,%al
	cmpl	$15,%esi
	jb	2f
	pcmpeqd	%xmm1,%xmm1
	movdqu	15(%rdi),%xmm3
	movdqu	31(%rdi),%xmm4
	movdqu	47(%rdi),%xmm2
	movdqu	63(%rdi),%xmm5
	paddb	%xmm1,%xmm4
	movdqa	.Lrtp_b236e5ea_CPI180_7(%rip),%xmm0
	paddb	%xmm1,%xmm5
	pminub	%xmm4,%xmm5
	movdqu	95(%rdi),%xmm4
	paddb	%xmm1,%xmm4
	movdqu	127(%rdi),%xmm6
	paddb	%xmm1,%xmm6
	pminub	%xmm4,%xmm6
	pminub	%xmm5,%xmm6
	movdqu	159(%rdi),%xmm4
	paddb	%xmm1,%xmm4
	movdqu	191(%rdi),%xmm5
	paddb	%xmm1,%xmm5
	pminub	%xmm4,%xmm5
	movdqu	223(%rdi),%xmm4
	paddb	%xmm1,%xmm4
	pminub	%xmm5,%xmm4
	pminub	%xmm6,%xmm4
	paddb	%xmm1,%xmm3
	paddb	%xmm1,%xmm2
	pminub	%xmm3,%xmm2
	movdqu	79(%rdi),%xmm3
	paddb	%xmm1,%xmm3
	movdqu	111(%rdi),%xmm5
	paddb	%xmm1,%xmm5
	pminub	%xmm3,%xmm5
	pminub	%xmm2,%xmm5
	movdqu	143(%rdi),%xmm2
	paddb	%xmm1,%xmm2
	movdqu	175(%rdi),%xmm3
	paddb	%xmm1,%xmm3
	pminub	%xmm2,%xmm3
	movdqu	207(%rdi),%xmm2
	paddb	%xmm1,%xmm2
	pminub	%xmm3,%xmm2
	pminub	%xmm5,%xmm2
	pminub	%xmm4,%xmm2
	movdqa	%xmm2,%xmm3
	pminub	%xmm0,%xmm3
	pcmpeqb	%xmm2,%xmm3
	pmovmskb	%xmm3,%r8d
	xorl	%r9d,%r9d
	testl	%r8d,%r8d
	setne	%r9b
	movd	%r9d,%xmm2
	movdqu	239(%rdi),%xmm3
	paddb	%xmm1,%xmm3
	pminub	%xmm3,%xmm0
	pcmpeqb	%xmm3,%xmm0
	por	%xmm2,%xmm0
	psllw	$7,%xmm0
	pmovmskb	%xmm0,%r8d
	testl	%r8d,%r8d
	setne	%r9b
	movzbl	255(%rdi),%r8d
	decb	%r8b
	cmpb	$15,%r8b
	setb	%r8b
	orb	%r9b,%r8b
	jmp	8f
2:
	xorl	%r8d,%r8d
8:
	orb	%dl,%al
	testb	%r8b,%r8b
	jne	2f
	movl	%eax,%edx
	xorb	$1,%dl
	jne	2f
	leaq	64(%rsp),%rdx
	movq	%rbx,%rdi
	movq	%rsi,%r14
	callq	"rtp_b236e5ea_rtp_ext::block_form::has_empty_data::<#defbc6cea7b2a850>"
	movq	%r14,%rsi
	movq	%rbx,%rdi
	movq	%r12,%rcx
	testb	%al,%al
	jne	4b
	jmp	8f
2:
	orb	%r8b,%al
	cmpb	$1,%al
	je	4b
8:
	xorl	%eax,%eax
	testq	%rsi,%rsi
	jne	6b
5:
	movl	$4,%eax
7:
	addq	%rax,%r15
1:
	movq	%r15,(%rcx)
	xorl	%eax,%eax
	jmp	3b
	.size	rtp_b236e5ea_rtpw_wire_len_layers,.-rtp_b236e5ea_rtpw_wire_len_layers
	.cfi_endproc

	.section	.rodata.cst16,"aM",@progbits,16
	.p2align	4,0x0
.Lrtp_b236e5ea_CPI181_0:
	.zero	16,32
.Lrtp_b236e5ea_CPI181_1:
	.zero	16,133
.Lrtp_b236e5ea_CPI181_2:
	.zero	16,229
.Lrtp_b236e5ea_CPI181_3:
	.zero	16,198
.Lrtp_b236e5ea_CPI181_4:
	.zero	16,245
.Lrtp_b236e5ea_CPI181_5:
	.zero	16,95
.Lrtp_b236e5ea_CPI181_6:
	.zero	16,15
.Lrtp_b236e5ea_CPI181_7:
	.zero	16,14
.Lrtp_b236e5ea_CPI181_8:
	.byte	3
	.byte	2
	.byte	1
	.byte	0
	.byte	7
	.byte	6
	.byte	5
	.byte	4
	.zero	1
	.zero	1
	.zero	1
	.zero	1
	.zero	1
	.zero	1
	.zero	1
	.zero	1
.Lrtp_b236e5ea_CPI181_9:
	.byte	3
	.byte	2
	.byte	1
	.byte	0
	.byte	7
	.byte	6
	.byte	5
	.byte	4
	.byte	11
	.byte	10
	.byte	9
	.byte	8
	.byte	15
	.byte	14
	.byte	13
	.byte	12
	.section	.text.rtpw_write_layers,"ax",@progbits
	.globl	rtp_b236e5ea_rtpw_write_layers
	.p2align	4
	.type	rtp_b236e5ea_rtpw_write_layers,@function
rtp_b236e5ea_rtpw_write_layers:
	.cfi_startproc
	pushq	%rbp
	.cfi_def_cfa_offset 16
	pushq	%r15
	.cfi_def_cfa_offset 24
	pushq	%r14
	.cfi_def_cfa_offset 32
	pushq	%r13
	.cfi_def_cfa_offset 40
	pushq	%r12
	.cfi_def_cfa_offset 48
	pushq	%rbx
	.cfi_def_cfa_offset 56
	subq	$232,%rsp
	.cfi_def_cfa_offset 288
	.cfi_offset %rbx,-56
	.cfi_offset %r12,-48
	.cfi_offset %r13,-40
	.cfi_offset %r14,-32
	.cfi_offset %r15,-24
	.cfi_offset %rbp,-16
	xorl	%r12d,%r12d
	testq	%rcx,%rcx
	sete	%r13b
	pxor	%xmm0,%xmm0
	movdqa	%xmm0,176(%rsp)
	movdqa	%xmm0,160(%rsp)
	movdqa	%xmm0,144(%rsp)
	cmpb	$0,209(%rsi)
	je	1f
	movzwl	154(%rsi),%r10d
	movl	$9,%eax
	cmpl	$179,%r10d
	jg	2f
	testl	%r10d,%r10d
	je	1f
	cmpl	$90,%r10d
	je	1f
	jmp	3f
2:
	cmpl	$270,%r10d
	je	1f
	cmpl	$180,%r10d
	jne	3f
1:
	cmpb	$0,213(%rsi)
	je	1f
	cmpl	$0,120(%rsi)
	je	2f
1:
	cmpb	$0,214(%rsi)
	je	1f
	cmpl	$0,136(%rsi)
	je	2f
1:
	cmpb	$0,211(%rsi)
	je	1f
	movzbl	166(%rsi),%eax
	addb	$127,%al
	js	2f
1:
	cmpb	$0,216(%rsi)
	je	1f
	movdqu	168(%rsi),%xmm0
	movdqa	.Lrtp_b236e5ea_CPI181_0(%rip),%xmm1
	por	%xmm0,%xmm1
	paddb	.Lrtp_b236e5ea_CPI181_1(%rip),%xmm1
	movdqa	.Lrtp_b236e5ea_CPI181_2(%rip),%xmm2
	pminub	%xmm1,%xmm2
	pcmpeqb	%xmm1,%xmm2
	movdqa	.Lrtp_b236e5ea_CPI181_3(%rip),%xmm1
	paddb	%xmm0,%xmm1
	movdqa	.Lrtp_b236e5ea_CPI181_4(%rip),%xmm3
	pminub	%xmm1,%xmm3
	pcmpeqb	%xmm1,%xmm3
	pcmpeqb	.Lrtp_b236e5ea_CPI181_5(%rip),%xmm0
	pand	%xmm2,%xmm3
	pandn	%xmm3,%xmm0
	pmovmskb	%xmm0,%eax
	orl	$65536,%eax
	rep		bsfl	%eax,%r10d
	movl	$9,%eax
	cmpb	$0,168(%rsi,%r10)
	jne	3f
1:
	cmpb	$0,217(%rsi)
	je	1f
	cmpb	$0,185(%rsi)
	je	4f
	cmpb	$0,186(%rsi)
	je	5f
	cmpb	$0,187(%rsi)
	je	6f
	cmpb	$0,188(%rsi)
	je	7f
	cmpb	$0,189(%rsi)
	je	8f
	cmpb	$0,190(%rsi)
	je	9f
	cmpb	$0,191(%rsi)
	je	10f
	cmpb	$0,192(%rsi)
	je	11f
	movl	$9,%eax
	cmpb	$0,193(%rsi)
	jne	3f
	movl	$8,%eax
	jmp	12f
4:
	xorl	%eax,%eax
	jmp	12f
5:
	movl	$1,%eax
	jmp	12f
6:
	movl	$2,%eax
	jmp	12f
7:
	movl	$3,%eax
	jmp	12f
8:
	movl	$4,%eax
	jmp	12f
9:
	movl	$5,%eax
	jmp	12f
10:
	movl	$6,%eax
	jmp	12f
11:
	movl	$7,%eax
12:
	xorl	%r10d,%r10d
	.p2align	4
4:
	cmpq	%r10,%rax
	je	1f
	movzbl	185(%rsi,%r10),%r11d
	incq	%r10
	cmpb	$95,%r11b
	je	4b
	leal	-48(%r11),%ebx
	cmpb	$10,%bl
	jb	4b
	andb	$-33,%r11b
	addb	$-65,%r11b
	cmpb	$26,%r11b
	jb	4b
	jmp	2f
1:
	cmpb	$0,218(%rsi)
	je	1f
	cmpb	$0,194(%rsi)
	je	4f
	cmpb	$0,195(%rsi)
	je	5f
	cmpb	$0,196(%rsi)
	je	6f
	cmpb	$0,197(%rsi)
	je	7f
	cmpb	$0,198(%rsi)
	je	8f
	cmpb	$0,199(%rsi)
	je	9f
	cmpb	$0,200(%rsi)
	je	10f
	cmpb	$0,201(%rsi)
	je	11f
	movl	$9,%eax
	cmpb	$0,202(%rsi)
	jne	3f
	movl	$8,%eax
	jmp	12f
4:
	xorl	%eax,%eax
	jmp	12f
5:
	movl	$1,%eax
	jmp	12f
6:
	movl	$2,%eax
	jmp	12f
7:
	movl	$3,%eax
	jmp	12f
8:
	movl	$4,%eax
	jmp	12f
9:
	movl	$5,%eax
	jmp	12f
10:
	movl	$6,%eax
	jmp	12f
11:
	movl	$7,%eax
12:
	xorl	%r10d,%r10d
	.p2align	4
4:
	cmpq	%r10,%rax
	je	1f
	movzbl	194(%rsi,%r10),%r11d
	incq	%r10
	cmpb	$95,%r11b
	je	4b
	leal	-48(%r11),%ebx
	cmpb	$10,%bl
	jb	4b
	andb	$-33,%r11b
	addb	$-65,%r11b
	cmpb	$26,%r11b
	jb	4b
2:
	movl	$9,%eax
3:
	addq	$232,%rsp
	.cfi_def_cfa_offset 56
	popq	%rbx
	.cfi_def_cfa_offset 48
	popq	%r12
	.cfi_def_cfa_offset 40
	popq	%r13
	.cfi_def_cfa_offset 32
	popq	%r14
	.cfi_def_cfa_offset 24
	popq	%r15
	.cfi_def_cfa_offset 16
	popq	%rbp
	.cfi_def_cfa_offset 8
	retq
1:
	.cfi_def_cfa_offset 288
	movl	$9,%eax
	cmpb	$0,78(%rsi)
	js	3b
	cmpb	$15,79(%rsi)
	ja	3b
	leaq	88(%rsi),%rax
	movzbl	82(%rsi),%ebp
	movq	%rax,136(%rsp)
	leaq	144(%rsp),%rax
	leaq	136(%rsp),%r10
	movq	%rdi,%r15
	movq	%rax,%rdi
	movq	%rsi,24(%rsp)
	movq	%r10,%rsi
	movq	%r9,40(%rsp)
	movq	%r8,16(%rsp)
	movq	%rcx,%rbx
	callq	"rtp_b236e5ea_rtp_c::given_layers::with_given_layers::<#6444109e7f8c5753>"
	movl	$9,%eax
	movq	24(%rsp),%r8
	movq	16(%rsp),%r14
	movq	40(%rsp),%rcx
	cmpb	$1,144(%rsp)
	jne	3b
	movq	184(%rsp),%rax
	movq	%rax,224(%rsp)
	movdqu	152(%rsp),%xmm0
	movdqu	168(%rsp),%xmm1
	movdqa	%xmm1,208(%rsp)
	movdqa	%xmm0,192(%rsp)
	movzbl	79(%r8),%r10d
	cmpq	$16,%r10
	setae	%al
	movzbl	78(%r8),%r11d
	testb	%r11b,%r11b
	sets	%dl
	orb	%al,%dl
	movl	$8,%eax
	jne	3b
	xorl	%edx,%edx
	testb	%bpl,%bpl
	setne	%dl
	leal	(,%r10,4),%r9d
	movq	%r9,32(%rsp)
	leaq	(%r9,%rdx,4),%rdx
	addq	$12,%rdx
	cmpq	%rdx,%r14
	jb	3b
	movq	%rbx,%rsi
	movb	%r13b,%r12b
	shll	$12,%r12d
	leaq	(%rbx,%r12),%r13
	testb	%bpl,%bpl
	je	1f
	movq	%r15,%rdi
	movq	%r14,%r9
	movdqu	16(%r15),%xmm0
	movdqu	32(%r15),%xmm1
	movdqu	48(%r15),%xmm2
	movdqu	64(%r15),%xmm3
	por	%xmm1,%xmm3
	movdqu	80(%r15),%xmm1
	por	%xmm2,%xmm1
	movdqu	96(%r15),%xmm2
	movdqu	112(%r15),%xmm4
	movdqu	128(%r15),%xmm5
	por	%xmm2,%xmm5
	por	%xmm3,%xmm5
	movdqu	144(%r15),%xmm2
	por	%xmm4,%xmm2
	por	%xmm1,%xmm2
	movdqu	160(%r15),%xmm1
	movdqu	176(%r15),%xmm3
	movdqu	192(%r15),%xmm4
	por	%xmm1,%xmm4
	movdqu	208(%r15),%xmm1
	por	%xmm3,%xmm1
	movdqu	224(%r15),%xmm3
	por	%xmm4,%xmm3
	por	%xmm5,%xmm3
	por	%xmm0,%xmm3
	movdqu	240(%r15),%xmm0
	por	%xmm1,%xmm0
	por	%xmm2,%xmm0
	por	%xmm3,%xmm0
	movl	$15,%ebp
	ptest	%xmm0,%xmm0
	jne	2f
	movdqu	(%rdi),%xmm0
	pxor	%xmm1,%xmm1
	pcmpeqb	%xmm0,%xmm1
	pmovmskb	%xmm1,%ecx
	xorl	$65534,%ecx
	orl	$1,%ecx
	bsrq	%rcx,%rbp
2:
	movq	192(%rsp),%rcx
	movq	(%rcx),%rdx
	cmpb	$0,128(%rdx)
	je	2f
	cmpb	$0,80(%rdx)
	sete	%cl
	jmp	4f
1:
	cmpb	$0,81(%r8)
	setne	%al
	cmpb	$0,80(%r8)
	setne	%dl
	movzwl	76(%r8),%edi
	shlb	$5,%al
	orb	%r10b,%al
	orb	$-128,%al
	shlb	$7,%dl
	orb	%r11b,%dl
	rolw	$8,%di
	movq	8(%r8),%xmm0
	pshufb	.Lrtp_b236e5ea_CPI181_8(%rip),%xmm0
	movb	%al,(%r13)
	movb	%dl,1(%r13)
	movw	%di,2(%r13)
	movq	%xmm0,4(%r13)
	movzbl	79(%r8),%edx
	testq	%rdx,%rdx
	je	1f
	movdqu	16(%r8),%xmm0
	movdqu	32(%r8),%xmm1
	movdqu	48(%r8),%xmm2
	movdqu	60(%r8),%xmm3
	movdqu	%xmm3,92(%rsp)
	movdqa	%xmm2,80(%rsp)
	movdqa	%xmm1,64(%rsp)
	movdqa	%xmm0,48(%rsp)
	cmpb	$8,%dl
	jae	5f
	movl	$12,%eax
	xorl	%edi,%edi
	jmp	6f
2:
	xorl	%ecx,%ecx
4:
	movq	%r10,120(%rsp)
	cmpb	$0,129(%rdx)
	je	2f
	cmpb	$0,97(%rdx)
	sete	%r10b
	jmp	4f
2:
	xorl	%r10d,%r10d
4:
	cmpb	$0,130(%rdx)
	movq	%rbp,8(%rsp)
	movb	%r11b,7(%rsp)
	je	2f
	cmpb	$0,106(%rdx)
	sete	%dl
	jmp	4f
2:
	xorl	%edx,%edx
4:
	movdqu	1(%rdi),%xmm0
	pcmpeqb	.Lrtp_b236e5ea_CPI181_6(%rip),%xmm0
	pmovmskb	%xmm0,%r11d
	testl	%r11d,%r11d
	movq	8(%rsp),%rbp
	movq	%rsi,%r11
	movq	%r13,128(%rsp)
	je	2f
4:
	movq	%r9,%r13
	subq	32(%rsp),%r13
	addq	$-12,%r13
	movzwl	230(%rsp),%edx
	testw	%dx,%dx
	setne	%cl
	cmpq	$261,%r13
	setb	%r10b
	testb	%cl,%r10b
	je	7f
	movq	%rbp,%rsi
	movb	$1,%bpl
	jmp	8f
7:
	cmpw	$17,%dx
	movl	$16,%ecx
	cmovael	%edx,%ecx
	movzwl	%cx,%r10d
	addq	$2,%r10
	movq	%rbp,%rsi
	cmpq	$15,%rbp
	movl	$255,%ecx
	cmovbq	%rbp,%rcx
	imulq	%r10,%rcx
	movb	$1,%bpl
	testw	%dx,%dx
	je	7f
	cmpl	$1025,%ecx
	jb	7f
	movq	%rdi,48(%rsp)
	movq	$0,56(%rsp)
	movq	%rsi,64(%rsp)
	leaq	48(%rsp),%rdi
	callq	"rtp_b236e5ea_rtp_ext::block_elements::most_in_two_byte_form::<#d4d397b1ff315637>"
	movq	8(%rsp),%rsi
	movq	24(%rsp),%r8
	movq	%rbx,%r11
	movq	%r15,%rdi
	movq	16(%rsp),%r9
	movq	%rax,%rcx
	movl	$8,%eax
	jmp	7f
2:
	orb	%r10b,%cl
	cmpl	$15,%ebp
	jb	2f
	pcmpeqd	%xmm1,%xmm1
	movdqu	15(%rdi),%xmm3
	movdqu	31(%rdi),%xmm4
	movdqu	47(%rdi),%xmm2
	movdqu	63(%rdi),%xmm5
	paddb	%xmm1,%xmm4
	movdqa	.Lrtp_b236e5ea_CPI181_7(%rip),%xmm0
	paddb	%xmm1,%xmm5
	pminub	%xmm4,%xmm5
	movdqu	95(%rdi),%xmm4
	paddb	%xmm1,%xmm4
	movdqu	127(%rdi),%xmm6
	paddb	%xmm1,%xmm6
	pminub	%xmm4,%xmm6
	pminub	%xmm5,%xmm6
	movdqu	159(%rdi),%xmm4
	paddb	%xmm1,%xmm4
	movdqu	191(%rdi),%xmm5
	paddb	%xmm1,%xmm5
	pminub	%xmm4,%xmm5
	movdqu	223(%rdi),%xmm4
	paddb	%xmm1,%xmm4
	pminub	%xmm5,%xmm4
	pminub	%xmm6,%xmm4
	paddb	%xmm1,%xmm3
	paddb	%xmm1,%xmm2
	pminub	%xmm3,%xmm2
	movdqu	79(%rdi),%xmm3
	paddb	%xmm1,%xmm3
	movdqu	111(%rdi),%xmm5
	paddb	%xmm1,%xmm5
	pminub	%xmm3,%xmm5
	pminub	%xmm2,%xmm5
	movdqu	143(%rdi),%xmm2
	paddb	%xmm1,%xmm2
	movdqu	175(%rdi),%xmm3
	paddb	%xmm1,%xmm3
	pminub	%xmm2,%xmm3
	movdqu	207(%rdi),%xmm2
	paddb	%xmm1,%xmm2
	pminub	%xmm3,%xmm2
	pminub	%xmm5,%xmm2
	pminub	%xmm4,%xmm2
	movdqa	%xmm2,%xmm3
	pminub	%xmm0,%xmm3
	pcmpeqb	%xmm2,%xmm3
	pmovmskb	%xmm3,%r10d
	movq	%r11,%rsi
	xorl	%r11d,%r11d
	testl	%r10d,%r10d
	setne	%r11b
	movd	%r11d,%xmm2
	movdqu	239(%rdi),%xmm3
	paddb	%xmm1,%xmm3
	pminub	%xmm3,%xmm0
	pcmpeqb	%xmm3,%xmm0
	por	%xmm2,%xmm0
	psllw	$7,%xmm0
	pmovmskb	%xmm0,%r10d
	testl	%r10d,%r10d
	setne	%r11b
	movzbl	255(%rdi),%r10d
	decb	%r10b
	cmpb	$15,%r10b
	setb	%r10b
	orb	%r11b,%r10b
	movq	%rsi,%r11
	movq	8(%rsp),%rbp
	jmp	9f
1:
	movl	$12,%eax
	jmp	1f
5:
	movl	%edx,%edi
	andl	$-8,%edi
	leal	(,%rdi,4),%r8d
	leaq	12(%r8),%rax
	addq	%r12,%rsi
	addq	$28,%rsi
	xorl	%r9d,%r9d
5:
	movdqu	48(%rsp,%r9),%xmm0
	movdqu	64(%rsp,%r9),%xmm1
	movdqa	.Lrtp_b236e5ea_CPI181_9(%rip),%xmm2
	pshufb	%xmm2,%xmm0
	pshufb	%xmm2,%xmm1
	movdqu	%xmm0,-16(%rsi,%r9)
	movdqu	%xmm1,(%rsi,%r9)
	addq	$32,%r9
	cmpq	%r9,%r8
	jne	5b
	cmpl	%edx,%edi
	je	1f
6:
	movl	48(%rsp,%rdi,4),%esi
	bswapl	%esi
	movl	%esi,(%r13,%rax)
	addq	$4,%rax
	incq	%rdi
	cmpq	%rdi,%rdx
	jne	6b
	jmp	1f
2:
	xorl	%r10d,%r10d
9:
	orb	%dl,%cl
	testb	%r10b,%r10b
	jne	2f
	movl	%ecx,%edx
	xorb	$1,%dl
	jne	2f
	leaq	192(%rsp),%rdx
	movq	%r15,%rdi
	movq	%rbp,%rsi
	callq	"rtp_b236e5ea_rtp_ext::block_form::has_empty_data::<#defbc6cea7b2a850>"
	movq	8(%rsp),%rbp
	movq	24(%rsp),%r8
	movq	%rbx,%r11
	movq	%r15,%rdi
	movq	16(%rsp),%r9
	movl	%eax,%ecx
	movl	$8,%eax
	testb	%cl,%cl
	jne	4b
	jmp	5f
2:
	orb	%r10b,%cl
	cmpb	$1,%cl
	je	4b
5:
	movq	%r9,%r13
	subq	32(%rsp),%r13
	addq	$-12,%r13
	movq	%rbp,%rsi
	movl	%ebp,%edx
	shll	$4,%edx
	addq	%rbp,%rdx
	cmpq	$15,%rbp
	movl	$4335,%ecx
	cmovbq	%rdx,%rcx
	xorl	%ebp,%ebp
7:
	addq	$7,%rcx
	cmpq	%r13,%rcx
	jbe	2f
8:
	testq	%rsi,%rsi
	je	4f
	movzbl	%bpl,%ecx
	leaq	192(%rsp),%rdx
	movq	%r15,%rdi
	callq	"rtp_b236e5ea_rtp_ext::block_elements::values_len::<#defbc6cea7b2a850>"
	movq	8(%rsp),%rsi
	movq	24(%rsp),%r8
	movq	%rbx,%r11
	movq	%r15,%rdi
	movq	16(%rsp),%r9
	movq	%rax,%rcx
	movl	$8,%eax
	addq	$3,%rcx
	andq	$-4,%rcx
	addq	$4,%rcx
	jmp	5f
4:
	movl	$4,%ecx
5:
	cmpq	%r13,%rcx
	ja	3b
2:
	leaq	152(%rsp),%rdx
	cmpb	$0,81(%r8)
	setne	%al
	cmpb	$0,80(%r8)
	setne	%cl
	movzwl	76(%r8),%r10d
	shlb	$5,%al
	orb	120(%rsp),%al
	orb	$-112,%al
	shlb	$7,%cl
	orb	7(%rsp),%cl
	rolw	$8,%r10w
	movq	8(%r8),%xmm0
	pshufb	.Lrtp_b236e5ea_CPI181_8(%rip),%xmm0
	movq	128(%rsp),%r14
	movb	%al,(%r14)
	movb	%cl,1(%r14)
	movw	%r10w,2(%r14)
	movq	%xmm0,4(%r14)
	movzbl	79(%r8),%eax
	testq	%rax,%rax
	je	2f
	movdqu	16(%r8),%xmm0
	movdqu	32(%r8),%xmm1
	movdqu	48(%r8),%xmm2
	movdqu	60(%r8),%xmm3
	movdqu	%xmm3,92(%rsp)
	movdqa	%xmm2,80(%rsp)
	movdqa	%xmm1,64(%rsp)
	movdqa	%xmm0,48(%rsp)
	cmpb	$8,%al
	jae	4f
	movl	$12,%ebx
	xorl	%ecx,%ecx
	jmp	5f
2:
	movl	$12,%ebx
	jmp	2f
4:
	movl	%eax,%ecx
	andl	$-8,%ecx
	leal	(,%rcx,4),%r8d
	leaq	12(%r8),%rbx
	addq	%r12,%r11
	addq	$28,%r11
	xorl	%r10d,%r10d
4:
	movdqu	48(%rsp,%r10),%xmm0
	movdqu	64(%rsp,%r10),%xmm1
	movdqa	.Lrtp_b236e5ea_CPI181_9(%rip),%xmm2
	pshufb	%xmm2,%xmm0
	pshufb	%xmm2,%xmm1
	movdqu	%xmm0,-16(%r11,%r10)
	movdqu	%xmm1,(%r11,%r10)
	addq	$32,%r10
	cmpq	%r10,%r8
	jne	4b
	cmpl	%eax,%ecx
	je	2f
5:
	movl	48(%rsp,%rcx,4),%r8d
	bswapl	%r8d
	movl	%r8d,(%r14,%rbx)
	addq	$4,%rbx
	incq	%rcx
	cmpq	%rcx,%rax
	jne	5b
2:
	subq	%rbx,%r9
	leaq	(%r14,%rbx),%r8
	addq	$4,%r8
	addq	%rbx,%r14
	addq	$-4,%r9
	movzbl	%bpl,%ebp
	movl	%ebp,%ecx
	callq	"rtp_b236e5ea_rtp_ext::block_elements::write_values::<#defbc6cea7b2a850>"
	movq	%r14,%rdi
	movl	%ebp,%esi
	movq	%rax,%rdx
	callq	"rtp_b236e5ea_rtp_wire::header::block::close_block"
	addq	%rbx,%rax
	movq	40(%rsp),%rcx
1:
	movq	%rax,(%rcx)
	xorl	%eax,%eax
	jmp	3b
	.size	rtp_b236e5ea_rtpw_write_layers,.-rtp_b236e5ea_rtpw_write_layers
	.cfi_endproc

	.section	.text.rtp_proved_write_with,"ax",@progbits
	.p2align	4
	.type	rtp_b236e5ea_rtp_proved_write_with,@function
rtp_b236e5ea_rtp_proved_write_with:
	.cfi_startproc
	subq	$40,%rsp
	.cfi_def_cfa_offset 48
	movaps	48(%rsp),%xmm0
	xorl	%eax,%eax
	testq	%rsi,%rsi
	sete	%al
	shll	$12,%eax
	addq	%rax,%rsi
	xorl	%eax,%eax
	testq	%rcx,%rcx
	sete	%al
	shll	$12,%eax
	addq	%rax,%rcx
	xorl	%eax,%eax
	testq	%r9,%r9
	sete	%al
	shll	$12,%eax
	addq	%r9,%rax
	movups	%xmm0,16(%rsp)
	movq	%rax,8(%rsp)
	movl	$0,(%rsp)
	xorl	%r9d,%r9d
	callq	"rtp_b236e5ea_rtp_c::writing::write_header_with"
	addq	$40,%rsp
	.cfi_def_cfa_offset 8
	retq
	.size	rtp_b236e5ea_rtp_proved_write_with,.-rtp_b236e5ea_rtp_proved_write_with
	.cfi_endproc

	.section	.text.rtp_proved_write_with_form,"ax",@progbits
	.p2align	4
	.type	rtp_b236e5ea_rtp_proved_write_with_form,@function
rtp_b236e5ea_rtp_proved_write_with_form:
	.cfi_startproc
	movl	%r9d,%r11d
	cmpb	$2,%r11b
	ja	1f
	pushq	%r15
	.cfi_def_cfa_offset 16
	pushq	%r14
	.cfi_def_cfa_offset 24
	pushq	%rbx
	.cfi_def_cfa_offset 32
	subq	$32,%rsp
	.cfi_def_cfa_offset 64
	.cfi_offset %rbx,-32
	.cfi_offset %r14,-24
	.cfi_offset %r15,-16
	movq	80(%rsp),%r14
	movq	72(%rsp),%rbx
	movq	64(%rsp),%rax
	xorl	%r15d,%r15d
	testq	%rax,%rax
	sete	%r15b
	shll	$12,%r15d
	addq	%rax,%r15
	xorl	%eax,%eax
	testq	%rcx,%rcx
	sete	%al
	shll	$12,%eax
	addq	%rcx,%rax
	xorl	%r10d,%r10d
	testq	%rsi,%rsi
	sete	%r10b
	shll	$12,%r10d
	addq	%rsi,%r10
	shlb	$3,%r11b
	movl	$65792,%r9d
	movl	%r11d,%ecx
	shrl	%cl,%r9d
	movl	$65536,%esi
	shrl	%cl,%esi
	movq	%r14,24(%rsp)
	movq	%rbx,16(%rsp)
	movl	%esi,(%rsp)
	movq	%r15,8(%rsp)
	movq	%r10,%rsi
	movq	%rax,%rcx
	callq	"rtp_b236e5ea_rtp_c::writing::write_header_with"
	addq	$32,%rsp
	.cfi_def_cfa_offset 32
	popq	%rbx
	.cfi_def_cfa_offset 24
	popq	%r14
	.cfi_def_cfa_offset 16
	popq	%r15
	.cfi_def_cfa_offset 8
	retq
1:
	.cfi_restore %rbx
	.cfi_restore %r14
	.cfi_restore %r15
	movl	$9,%eax
	retq
	.size	rtp_b236e5ea_rtp_proved_write_with_form,.-rtp_b236e5ea_rtp_proved_write_with_form
	.cfi_endproc

	.section	.text.rtpw_write_headers,"ax",@progbits
	.globl	rtp_b236e5ea_rtpw_write_headers
	.p2align	4
	.type	rtp_b236e5ea_rtpw_write_headers,@function
rtp_b236e5ea_rtpw_write_headers:
	.cfi_startproc
	pushq	%rbp
	.cfi_def_cfa_offset 16
	pushq	%r15
	.cfi_def_cfa_offset 24
	pushq	%r14
	.cfi_def_cfa_offset 32
	pushq	%r13
	.cfi_def_cfa_offset 40
	pushq	%r12
	.cfi_def_cfa_offset 48
	pushq	%rbx
	.cfi_def_cfa_offset 56
	subq	$120,%rsp
	.cfi_def_cfa_offset 176
	.cfi_offset %rbx,-56
	.cfi_offset %r12,-48
	.cfi_offset %r13,-40
	.cfi_offset %r14,-32
	.cfi_offset %r15,-24
	.cfi_offset %rbp,-16
	movq	%rdi,%r13
	movq	184(%rsp),%rbx
	xorl	%r11d,%r11d
	testq	%rsi,%rsi
	sete	%r14b
	testq	%rcx,%rcx
	sete	%r10b
	testq	%r9,%r9
	sete	%dil
	testq	%rbx,%rbx
	sete	%bpl
	movl	(%r13),%r12d
	movzbl	70(%r13),%r15d
	cmpq	$17,%r15
	setae	%al
	movq	%r12,24(%rsp)
	cmpq	%r12,%rdx
	setb	%dl
	orb	%al,%dl
	movl	$9,%eax
	jne	1f
	movb	%bpl,40(%rsp)
	movq	%rbx,48(%rsp)
	movq	%rcx,64(%rsp)
	movq	%r8,112(%rsp)
	xorl	%ebx,%ebx
	testq	%r15,%r15
	je	2f
	xorl	%edx,%edx
	movq	24(%rsp),%r8
	.p2align	4
3:
	movzbl	71(%r13,%rdx),%r12d
	movl	4(%r13,%rdx,4),%ebp
	addq	%r12,%rbp
	cmpq	%r8,%rbp
	ja	1f
	addq	%r12,%rbx
	incq	%rdx
	cmpq	%rdx,%r15
	jne	3b
	jmp	3f
2:
	movq	24(%rsp),%r8
3:
	movzwl	68(%r13),%edx
	xorl	%ecx,%ecx
	cmpq	%rdx,%rbx
	cmoveq	%r13,%rcx
	jne	1f
	movq	%rcx,88(%rsp)
	movl	$1,%eax
	cmpl	$12,%r8d
	jb	1f
	movq	%rsi,%rbp
	movb	%r14b,%r11b
	shll	$12,%r11d
	addq	%r11,%rbp
	movzbl	(%rbp),%r11d
	movl	$2,%eax
	cmpb	$-65,%r11b
	jg	1f
	movl	%r11d,%eax
	andl	$15,%eax
	leaq	12(,%rax,4),%rdx
	movl	$3,%eax
	cmpl	%edx,%r8d
	jb	1f
	movq	%r9,%r12
	testb	$16,%r11b
	jne	2f
	movl	$9,%eax
	cmpl	%r8d,%edx
	jne	1f
3:
	cmpq	$0,176(%rsp)
	je	4f
	xorl	%eax,%eax
	movb	%r10b,%al
	shll	$12,%eax
	addq	%rax,64(%rsp)
	xorl	%eax,%eax
	movb	%dil,%al
	shll	$12,%eax
	addq	%rax,%r12
	xorl	%eax,%eax
	movzbl	40(%rsp),%ecx
	movb	%cl,%al
	shll	$12,%eax
	addq	%rax,48(%rsp)
	leal	-49(%r8),%eax
	movl	%eax,60(%rsp)
	xorl	%r14d,%r14d
	xorl	%r9d,%r9d
	movq	%r12,80(%rsp)
	movq	%rbp,72(%rsp)
	jmp	5f
2:
	movq	%r8,%r11
	subq	%rdx,%r11
	movl	$4,%eax
	cmpl	$4,%r11d
	jb	1f
	addq	$-4,%r11
	movzwl	2(%rbp,%rdx),%eax
	rolw	$8,%ax
	movzwl	%ax,%r14d
	shll	$2,%r14d
	movl	$6,%eax
	cmpq	%r14,%r11
	jb	1f
	addq	%r14,%rdx
	addq	$4,%rdx
	movl	$9,%eax
	cmpl	%r8d,%edx
	je	3b
	jmp	1f
2:
	movq	%r8,%rsi
	leaq	(%r12,%rdi),%r8
	movq	192(%rsp),%rax
	movq	%rax,8(%rsp)
	movq	48(%rsp),%rax
	movq	%rax,(%rsp)
	movq	%rbp,%rdi
	movq	88(%rsp),%rdx
	movq	%r15,%rcx
	movq	%r9,%r15
	callq	"rtp_b236e5ea_rtp_c::routed_headers::write_again"
	cmpb	$1,%al
	jne	3f
	movq	24(%rsp),%r8
	movq	%r15,%r9
	movq	32(%rsp),%rax
6:
	movq	%r9,8(%r12,%rax)
	movl	$0,40(%r12,%rax)
	movl	%edx,44(%r12,%rax)
	addq	%rdx,%r9
	incq	%r14
	xorl	%eax,%eax
	cmpq	176(%rsp),%r14
	je	1f
5:
	movq	%r14,%rax
	shlq	$4,%rax
	leaq	(%rax,%rax,2),%rdi
	cmpb	$0,31(%r12,%rdi)
	je	7f
	cmpb	$0,26(%r12,%rdi)
	js	8f
7:
	movq	(%r12,%rdi),%r15
	movl	$9,%edx
	movq	112(%rsp),%rax
	subq	%r15,%rax
	jb	7f
	cmpq	%rbx,%rax
	jb	7f
	addq	64(%rsp),%r15
	cmpb	$0,38(%r12,%rdi)
	movq	%rdi,32(%rsp)
	jne	2b
	movq	192(%rsp),%rax
	subq	%r9,%rax
	cmpq	%r8,%rax
	jb	2f
	movq	48(%rsp),%rax
	leaq	(%rax,%r9),%rsi
	cmpl	$-34,60(%rsp)
	movq	%rsi,40(%rsp)
	movq	%r9,96(%rsp)
	ja	9f
	movq	%rsi,%rdi
	movq	%rbp,%rsi
	movq	%r8,%rdx
	callq	"rtp_b236e5ea_rtp_route::copying::put_any"
	movq	40(%rsp),%rsi
	movq	32(%rsp),%rdi
	movq	24(%rsp),%r8
	jmp	10f
9:
	movups	(%rbp),%xmm0
	movups	%xmm0,(%rsi)
	cmpl	$33,%r8d
	jb	9f
	movups	16(%rbp),%xmm0
	movups	%xmm0,16(%rsi)
9:
	movups	-16(%rbp,%r8),%xmm0
	movups	%xmm0,-16(%rsi,%r8)
10:
	cmpb	$0,32(%r12,%rdi)
	je	9f
	cmpb	$0,27(%r12,%rdi)
	setne	%al
	shlb	$7,%al
	movzbl	1(%rsi),%ecx
	andb	$127,%cl
	orb	%al,%cl
	movb	%cl,1(%rsi)
9:
	cmpb	$0,31(%r12,%rdi)
	je	9f
	movzbl	1(%rsi),%eax
	andb	$-128,%al
	addb	26(%r12,%rdi),%al
	movb	%al,1(%rsi)
9:
	cmpb	$0,30(%r12,%rdi)
	je	9f
	movzwl	24(%r12,%rdi),%eax
	rolw	$8,%ax
	movw	%ax,2(%rsi)
9:
	movq	%r14,104(%rsp)
	cmpb	$0,28(%r12,%rdi)
	je	9f
	movl	16(%r12,%rdi),%eax
	bswapl	%eax
	movl	%eax,4(%rsi)
9:
	cmpb	$0,29(%r12,%rdi)
	je	9f
	movl	20(%r12,%rdi),%eax
	bswapl	%eax
	movl	%eax,8(%rsi)
9:
	movzbl	70(%r13),%r12d
	testq	%r12,%r12
	je	9f
	xorl	%ebp,%ebp
	jmp	10f
	.p2align	4
11:
	addq	%rsi,%rdi
	movq	%r15,%rsi
	movq	%r14,%rdx
	callq	"rtp_b236e5ea_rtp_route::slots::copy_long"
	movq	40(%rsp),%rsi
	movq	24(%rsp),%r8
12:
	addq	%r14,%r15
	incq	%rbp
	cmpq	%rbp,%r12
	je	9f
10:
	movl	4(%r13,%rbp,4),%edi
	movzbl	71(%r13,%rbp),%r14d
	testl	%r14d,%r14d
	je	11b
	cmpl	$1,%r14d
	jne	10f
	movzbl	(%r15),%eax
	movb	%al,(%rsi,%rdi)
	jmp	12b
	.p2align	4
10:
	cmpb	$2,%r14b
	ja	10f
	movzwl	(%r15),%eax
	movw	%ax,(%rsi,%rdi)
	jmp	12b
10:
	cmpl	$3,%r14d
	jne	10f
	movzwl	(%r15),%eax
	movw	%ax,(%rsi,%rdi)
	movzbl	2(%r15),%eax
	movb	%al,2(%rsi,%rdi)
	jmp	12b
10:
	cmpb	$4,%r14b
	ja	11b
	movl	(%r15),%eax
	movl	%eax,(%rsi,%rdi)
	jmp	12b
9:
	movq	80(%rsp),%r12
	movq	32(%rsp),%rax
	cmpb	$0,39(%r12,%rax)
	movq	%r8,%rdx
	movq	72(%rsp),%rbp
	movq	104(%rsp),%r14
	movq	96(%rsp),%r9
	je	6b
	andb	$-33,(%rsi)
	movq	%r8,%rdx
	jmp	6b
2:
	movl	$8,%edx
	jmp	7f
8:
	movl	$9,%edx
7:
	addq	%r12,%rdi
	movq	%r9,%r15
	movq	%r9,%rsi
	callq	"rtp_b236e5ea_rtp_c::routed_headers::refuse"
	movq	%r15,%r9
	movq	24(%rsp),%r8
	incq	%r14
	xorl	%eax,%eax
	cmpq	176(%rsp),%r14
	jne	5b
	jmp	1f
3:
	movl	$8,%edx
	movq	%r15,%r9
	movq	32(%rsp),%rdi
	jmp	7b
4:
	xorl	%eax,%eax
1:
	addq	$120,%rsp
	.cfi_def_cfa_offset 56
	popq	%rbx
	.cfi_def_cfa_offset 48
	popq	%r12
	.cfi_def_cfa_offset 40
	popq	%r13
	.cfi_def_cfa_offset 32
	popq	%r14
	.cfi_def_cfa_offset 24
	popq	%r15
	.cfi_def_cfa_offset 16
	popq	%rbp
	.cfi_def_cfa_offset 8
	retq
	.size	rtp_b236e5ea_rtpw_write_headers,.-rtp_b236e5ea_rtpw_write_headers
	.cfi_endproc

	.section	.rodata.cst16,"aM",@progbits,16
	.p2align	4,0x0
.Lrtp_b236e5ea_CPI185_0:
	.zero	16,32
.Lrtp_b236e5ea_CPI185_1:
	.zero	16,133
.Lrtp_b236e5ea_CPI185_2:
	.zero	16,229
.Lrtp_b236e5ea_CPI185_3:
	.zero	16,198
.Lrtp_b236e5ea_CPI185_4:
	.zero	16,245
.Lrtp_b236e5ea_CPI185_5:
	.zero	16,95
	.section	.text.rtpw_write,"ax",@progbits
	.globl	rtp_b236e5ea_rtpw_write
	.p2align	4
	.type	rtp_b236e5ea_rtpw_write,@function
rtp_b236e5ea_rtpw_write:
	.cfi_startproc
	xorl	%eax,%eax
	testq	%rdx,%rdx
	sete	%al
	shll	$12,%eax
	addq	%rdx,%rax
	cmpb	$0,82(%rsi)
	je	1f
	cmpb	$0,209(%rsi)
	je	2f
	movzwl	154(%rsi),%edx
	cmpl	$179,%edx
	jg	3f
	testl	%edx,%edx
	je	2f
	cmpl	$90,%edx
	je	2f
	jmp	4f
1:
	movq	%rsi,%rdi
	movq	%rax,%rsi
	movq	%rcx,%rdx
	movq	%r8,%rcx
	jmp	"rtp_b236e5ea_rtp_c::writing_values::write_without_block"
3:
	cmpl	$270,%edx
	je	2f
	cmpl	$180,%edx
	jne	4f
2:
	cmpb	$0,213(%rsi)
	je	1f
	cmpl	$0,120(%rsi)
	je	4f
1:
	cmpb	$0,214(%rsi)
	je	1f
	cmpl	$0,136(%rsi)
	je	4f
1:
	cmpb	$0,211(%rsi)
	je	1f
	movzbl	166(%rsi),%edx
	addb	$127,%dl
	js	4f
1:
	cmpb	$0,216(%rsi)
	je	1f
	movdqu	168(%rsi),%xmm0
	movdqa	.Lrtp_b236e5ea_CPI185_0(%rip),%xmm1
	por	%xmm0,%xmm1
	paddb	.Lrtp_b236e5ea_CPI185_1(%rip),%xmm1
	movdqa	.Lrtp_b236e5ea_CPI185_2(%rip),%xmm2
	pminub	%xmm1,%xmm2
	pcmpeqb	%xmm1,%xmm2
	movdqa	.Lrtp_b236e5ea_CPI185_3(%rip),%xmm1
	paddb	%xmm0,%xmm1
	movdqa	.Lrtp_b236e5ea_CPI185_4(%rip),%xmm3
	pminub	%xmm1,%xmm3
	pcmpeqb	%xmm1,%xmm3
	pand	%xmm2,%xmm3
	pcmpeqb	.Lrtp_b236e5ea_CPI185_5(%rip),%xmm0
	pandn	%xmm3,%xmm0
	pmovmskb	%xmm0,%edx
	orl	$65536,%edx
	rep		bsfl	%edx,%edx
	cmpb	$0,168(%rsi,%rdx)
	jne	4f
1:
	cmpb	$0,217(%rsi)
	je	1f
	cmpb	$0,185(%rsi)
	je	2f
	cmpb	$0,186(%rsi)
	je	3f
	cmpb	$0,187(%rsi)
	je	5f
	cmpb	$0,188(%rsi)
	je	6f
	cmpb	$0,189(%rsi)
	je	7f
	cmpb	$0,190(%rsi)
	je	8f
	cmpb	$0,191(%rsi)
	je	9f
	cmpb	$0,192(%rsi)
	je	10f
	cmpb	$0,193(%rsi)
	jne	4f
	movl	$8,%edx
	jmp	11f
2:
	xorl	%edx,%edx
	jmp	11f
3:
	movl	$1,%edx
	jmp	11f
5:
	movl	$2,%edx
	jmp	11f
6:
	movl	$3,%edx
	jmp	11f
7:
	movl	$4,%edx
	jmp	11f
8:
	movl	$5,%edx
	jmp	11f
9:
	movl	$6,%edx
	jmp	11f
10:
	movl	$7,%edx
11:
	xorl	%r9d,%r9d
	.p2align	4
2:
	cmpq	%r9,%rdx
	je	1f
	movzbl	185(%rsi,%r9),%r10d
	incq	%r9
	cmpb	$95,%r10b
	je	2b
	leal	-48(%r10),%r11d
	cmpb	$10,%r11b
	jb	2b
	andb	$-33,%r10b
	addb	$-65,%r10b
	cmpb	$26,%r10b
	jb	2b
	jmp	4f
1:
	cmpb	$0,218(%rsi)
	je	1f
	cmpb	$0,194(%rsi)
	je	2f
	cmpb	$0,195(%rsi)
	je	3f
	cmpb	$0,196(%rsi)
	je	5f
	cmpb	$0,197(%rsi)
	je	6f
	cmpb	$0,198(%rsi)
	je	7f
	cmpb	$0,199(%rsi)
	je	8f
	cmpb	$0,200(%rsi)
	je	9f
	cmpb	$0,201(%rsi)
	je	10f
	cmpb	$0,202(%rsi)
	jne	4f
	movl	$8,%edx
	jmp	11f
2:
	xorl	%edx,%edx
	jmp	11f
3:
	movl	$1,%edx
	jmp	11f
5:
	movl	$2,%edx
	jmp	11f
6:
	movl	$3,%edx
	jmp	11f
7:
	movl	$4,%edx
	jmp	11f
8:
	movl	$5,%edx
	jmp	11f
9:
	movl	$6,%edx
	jmp	11f
10:
	movl	$7,%edx
11:
	xorl	%r9d,%r9d
	.p2align	4
2:
	cmpq	%r9,%rdx
	je	1f
	movzbl	194(%rsi,%r9),%r10d
	incq	%r9
	cmpb	$95,%r10b
	je	2b
	leal	-48(%r10),%r11d
	cmpb	$10,%r11b
	jb	2b
	andb	$-33,%r10b
	addb	$-65,%r10b
	cmpb	$26,%r10b
	jb	2b
4:
	movl	$9,%eax
	retq
1:
	leaq	88(%rsi),%r9
	movq	%rax,%rdx
	jmp	"rtp_b236e5ea_rtp_c::writing_values::write_with_block"
	.size	rtp_b236e5ea_rtpw_write,.-rtp_b236e5ea_rtpw_write
	.cfi_endproc

	.type	.Lrtp_b236e5ea_static.0,@object
	.section	.rodata..Lrtp_static.0,"a",@progbits
.Lrtp_b236e5ea_static.0:
	.size	.Lrtp_b236e5ea_static.0,0

	.type	.Lrtp_b236e5ea_static.2,@object
	.section	.rodata..Lrtp_static.2,"a",@progbits
.Lrtp_b236e5ea_static.2:
	.ascii	"________________________________________________0123456789_______ABCDEFGHIJKLMNOPQRSTUVWXYZ______abcdefghijklmnopqrstuvwxyz_____________________________________________________________________________________________________________________________________"
	.size	.Lrtp_b236e5ea_static.2,256

	.type	.Lrtp_b236e5ea_static.8,@object
	.section	.rodata..Lrtp_static.8,"a",@progbits
.Lrtp_b236e5ea_static.8:
	.zero	255
	.size	.Lrtp_b236e5ea_static.8,255

	.type	.Lrtp_b236e5ea_static.9,@object
	.section	.rodata..Lrtp_static.9,"a",@progbits
.Lrtp_b236e5ea_static.9:
	.ascii	"http://www.webrtc.org/experiments/rtp-hdrext/abs-send-time"
	.size	.Lrtp_b236e5ea_static.9,58

	.type	.Lrtp_b236e5ea_static.11,@object
	.section	.rodata..Lrtp_static.11,"a",@progbits
.Lrtp_b236e5ea_static.11:
	.ascii	"http://www.webrtc.org/experiments/rtp-hdrext/abs-capture-time"
	.size	.Lrtp_b236e5ea_static.11,61

	.type	.Lrtp_b236e5ea_static.13,@object
	.section	.rodata..Lrtp_static.13,"a",@progbits
.Lrtp_b236e5ea_static.13:
	.ascii	"urn:ietf:params:rtp-hdrext:ssrc-audio-level"
	.size	.Lrtp_b236e5ea_static.13,43

	.type	.Lrtp_b236e5ea_static.15,@object
	.section	.rodata..Lrtp_static.15,"a",@progbits
.Lrtp_b236e5ea_static.15:
	.ascii	"urn:ietf:params:rtp-hdrext:toffset"
	.size	.Lrtp_b236e5ea_static.15,34

	.type	.Lrtp_b236e5ea_static.17,@object
	.section	.rodata..Lrtp_static.17,"a",@progbits
.Lrtp_b236e5ea_static.17:
	.ascii	"urn:3gpp:video-orientation"
	.size	.Lrtp_b236e5ea_static.17,26

	.type	.Lrtp_b236e5ea_static.19,@object
	.section	.rodata..Lrtp_static.19,"a",@progbits
.Lrtp_b236e5ea_static.19:
	.ascii	"http://www.ietf.org/id/draft-holmer-rmcat-transport-wide-cc-extensions-01"
	.size	.Lrtp_b236e5ea_static.19,73

	.type	.Lrtp_b236e5ea_static.21,@object
	.section	.rodata..Lrtp_static.21,"a",@progbits
.Lrtp_b236e5ea_static.21:
	.ascii	"http://www.webrtc.org/experiments/rtp-hdrext/playout-delay"
	.size	.Lrtp_b236e5ea_static.21,58

	.type	.Lrtp_b236e5ea_static.23,@object
	.section	.rodata..Lrtp_static.23,"a",@progbits
.Lrtp_b236e5ea_static.23:
	.ascii	"http://www.webrtc.org/experiments/rtp-hdrext/video-content-type"
	.size	.Lrtp_b236e5ea_static.23,63

	.type	.Lrtp_b236e5ea_static.25,@object
	.section	.rodata..Lrtp_static.25,"a",@progbits
.Lrtp_b236e5ea_static.25:
	.ascii	"http://www.webrtc.org/experiments/rtp-hdrext/video-timing"
	.size	.Lrtp_b236e5ea_static.25,57

	.type	.Lrtp_b236e5ea_static.27,@object
	.section	.rodata..Lrtp_static.27,"a",@progbits
.Lrtp_b236e5ea_static.27:
	.ascii	"urn:ietf:params:rtp-hdrext:sdes:rtp-stream-id"
	.size	.Lrtp_b236e5ea_static.27,45

	.type	.Lrtp_b236e5ea_static.29,@object
	.section	.rodata..Lrtp_static.29,"a",@progbits
.Lrtp_b236e5ea_static.29:
	.ascii	"urn:ietf:params:rtp-hdrext:sdes:repaired-rtp-stream-id"
	.size	.Lrtp_b236e5ea_static.29,54

	.type	.Lrtp_b236e5ea_static.31,@object
	.section	.rodata..Lrtp_static.31,"a",@progbits
.Lrtp_b236e5ea_static.31:
	.ascii	"urn:ietf:params:rtp-hdrext:sdes:mid"
	.size	.Lrtp_b236e5ea_static.31,35

	.type	.Lrtp_b236e5ea_static.33,@object
	.section	.rodata..Lrtp_static.33,"a",@progbits
.Lrtp_b236e5ea_static.33:
	.ascii	"http://tools.ietf.org/html/draft-ietf-avtext-framemarking-07"
	.size	.Lrtp_b236e5ea_static.33,60

	.type	.Lrtp_b236e5ea_static.35,@object
	.section	.rodata..Lrtp_static.35,"a",@progbits
.Lrtp_b236e5ea_static.35:
	.ascii	"http://www.webrtc.org/experiments/rtp-hdrext/color-space"
	.size	.Lrtp_b236e5ea_static.35,56

	.type	.Lrtp_b236e5ea_static.37,@object
	.section	.rodata..Lrtp_static.37,"a",@progbits
.Lrtp_b236e5ea_static.37:
	.ascii	"http://www.webrtc.org/experiments/rtp-hdrext/video-layers-allocation00"
	.size	.Lrtp_b236e5ea_static.37,70

	.type	.Lrtp_b236e5ea_static.38,@object
	.section	.rodata..Lrtp_static.38,"a",@progbits
.Lrtp_b236e5ea_static.38:
	.ascii	"urn:ietf:params:rtp-hdrext:csrc-audio-level"
	.size	.Lrtp_b236e5ea_static.38,43

	.type	.Lrtp_b236e5ea_static.39,@object
	.section	.rodata..Lrtp_static.39,"a",@progbits
.Lrtp_b236e5ea_static.39:
	.ascii	"http://www.webrtc.org/experiments/rtp-hdrext/transport-wide-cc-02"
	.size	.Lrtp_b236e5ea_static.39,65

	.type	.Lrtp_b236e5ea_static.40,@object
	.section	.rodata..Lrtp_static.40,"a",@progbits
.Lrtp_b236e5ea_static.40:
	.ascii	"https://aomediacodec.github.io/av1-rtp-spec/#dependency-descriptor-rtp-header-extension"
	.size	.Lrtp_b236e5ea_static.40,87

	.type	.Lrtp_b236e5ea_static.41,@object
	.section	.rodata..Lrtp_static.41,"a",@progbits
.Lrtp_b236e5ea_static.41:
	.ascii	"urn:ietf:params:rtp-hdrext:ntp-64"
	.size	.Lrtp_b236e5ea_static.41,33

	.type	.Lrtp_b236e5ea_static.42,@object
	.section	.rodata..Lrtp_static.42,"a",@progbits
.Lrtp_b236e5ea_static.42:
	.ascii	"urn:ietf:params:rtp-hdrext:ntp-56"
	.size	.Lrtp_b236e5ea_static.42,33

	.type	"rtp_b236e5ea_.Lrtp_b236e5ea_switch.table.rtp_c::whole_packet::status_of_no_packet",@object
	.section	".rodata..Lrtp_switch.table.rtp_c::whole_packet::status_of_no_packet","a",@progbits
	.p2align	2,0x0
"rtp_b236e5ea_.Lrtp_b236e5ea_switch.table.rtp_c::whole_packet::status_of_no_packet":
	.long	1
	.long	2
	.long	3
	.long	4
	.long	6
	.size	"rtp_b236e5ea_.Lrtp_b236e5ea_switch.table.rtp_c::whole_packet::status_of_no_packet", 20

	.type	"rtp_b236e5ea_.Lrtp_b236e5ea_switch.table.rtp_ext::block_elements::most_in_two_byte_form::<#d4d397b1ff315637>",@object
	.section	".rodata..Lrtp_switch.table.rtp_ext::block_elements::most_in_two_byte_form::<#d4d397b1ff315637>","a",@progbits
	.p2align	3,0x0
"rtp_b236e5ea_.Lrtp_b236e5ea_switch.table.rtp_ext::block_elements::most_in_two_byte_form::<#d4d397b1ff315637>":
	.quad	18
	.quad	18
	.quad	18
	.quad	18
	.quad	18
	.quad	18
	.quad	18
	.quad	18
	.quad	18
	.quad	18
	.quad	18
	.quad	18
	.quad	18
	.quad	18
	.quad	257
	.size	"rtp_b236e5ea_.Lrtp_b236e5ea_switch.table.rtp_ext::block_elements::most_in_two_byte_form::<#d4d397b1ff315637>", 120

	.type	.Lrtp_b236e5ea_switch.table.rtp_b236e5ea_rtpw_uri_of_kind,@object
	.section	.data.rel.ro..Lrtp_switch.table.rtpw_uri_of_kind,"aw",@progbits
	.p2align	3,0x0
.Lrtp_b236e5ea_switch.table.rtp_b236e5ea_rtpw_uri_of_kind:
	.quad	.Lrtp_b236e5ea_static.9
	.quad	.Lrtp_b236e5ea_static.11
	.quad	.Lrtp_b236e5ea_static.13
	.quad	.Lrtp_b236e5ea_static.15
	.quad	.Lrtp_b236e5ea_static.17
	.quad	.Lrtp_b236e5ea_static.19
	.quad	.Lrtp_b236e5ea_static.21
	.quad	.Lrtp_b236e5ea_static.23
	.quad	.Lrtp_b236e5ea_static.25
	.quad	.Lrtp_b236e5ea_static.27
	.quad	.Lrtp_b236e5ea_static.29
	.quad	.Lrtp_b236e5ea_static.31
	.quad	.Lrtp_b236e5ea_static.33
	.quad	.Lrtp_b236e5ea_static.35
	.quad	.Lrtp_b236e5ea_static.37
	.size	.Lrtp_b236e5ea_switch.table.rtp_b236e5ea_rtpw_uri_of_kind,120

	.type	.Lrtp_b236e5ea_switch.table.rtp_b236e5ea_rtpw_uri_of_kind.247,@object
	.section	.rodata..Lrtp_switch.table.rtpw_uri_of_kind.247,"a",@progbits
	.p2align	3,0x0
.Lrtp_b236e5ea_switch.table.rtp_b236e5ea_rtpw_uri_of_kind.247:
	.quad	58
	.quad	61
	.quad	43
	.quad	34
	.quad	26
	.quad	73
	.quad	58
	.quad	63
	.quad	57
	.quad	45
	.quad	54
	.quad	35
	.quad	60
	.quad	56
	.quad	70
	.size	.Lrtp_b236e5ea_switch.table.rtp_b236e5ea_rtpw_uri_of_kind.247,120

	.type	.Lrtp_b236e5ea_switch.table.rtp_b236e5ea_rtpw_uri_of_kind.248,@object
	.section	.rodata..Lrtp_switch.table.rtpw_uri_of_kind.248,"a",@progbits
	.p2align	3,0x0
.Lrtp_b236e5ea_switch.table.rtp_b236e5ea_rtpw_uri_of_kind.248:
	.quad	43
	.quad	65
	.quad	87
	.quad	33
	.quad	33
	.size	.Lrtp_b236e5ea_switch.table.rtp_b236e5ea_rtpw_uri_of_kind.248,40

	.type	.Lrtp_b236e5ea_switch.table.rtp_b236e5ea_rtpw_uri_of_kind.249,@object
	.section	.data.rel.ro..Lrtp_switch.table.rtpw_uri_of_kind.249,"aw",@progbits
	.p2align	3,0x0
.Lrtp_b236e5ea_switch.table.rtp_b236e5ea_rtpw_uri_of_kind.249:
	.quad	.Lrtp_b236e5ea_static.38
	.quad	.Lrtp_b236e5ea_static.39
	.quad	.Lrtp_b236e5ea_static.40
	.quad	.Lrtp_b236e5ea_static.41
	.quad	.Lrtp_b236e5ea_static.42
	.size	.Lrtp_b236e5ea_switch.table.rtp_b236e5ea_rtpw_uri_of_kind.249,40

	.section	".note.GNU-stack","",@progbits
/* What follows is of generated/apart.c, in front of the functions rtp_proved_*, and is not proved. */
	.section	.text.rtpw_set_element,"ax",@progbits
	.globl	rtp_b236e5ea_rtpw_set_element
	.p2align	4
	.type	rtp_b236e5ea_rtpw_set_element,@function
rtp_b236e5ea_rtpw_set_element:
	.cfi_startproc
	leaq	(%r8,%rcx),%rax
	cmpq	%rdi,%rax
	jbe	rtp_b236e5ea_rtp_proved_set_element
	leaq	(%rsi,%rdi),%rax
	cmpq	%rcx,%rax
	jbe	rtp_b236e5ea_rtp_proved_set_element
	testq	%r8,%r8
	setne	%al
	testq	%rsi,%rsi
	setne	%r9b
	testb	%al,%r9b
	je	rtp_b236e5ea_rtp_proved_set_element
	movl	$9,%eax
	retq
	.size	rtp_b236e5ea_rtpw_set_element,.-rtp_b236e5ea_rtpw_set_element
	.cfi_endproc

	.section	.text.rtpw_put_element,"ax",@progbits
	.globl	rtp_b236e5ea_rtpw_put_element
	.p2align	4
	.type	rtp_b236e5ea_rtpw_put_element,@function
rtp_b236e5ea_rtpw_put_element:
	.cfi_startproc
	leaq	(%r9,%r8),%rax
	cmpq	%rdi,%rax
	jbe	rtp_b236e5ea_rtp_proved_put_element
	leaq	(%rsi,%rdi),%rax
	cmpq	%r8,%rax
	jbe	rtp_b236e5ea_rtp_proved_put_element
	testq	%r9,%r9
	setne	%al
	testq	%rsi,%rsi
	setne	%r10b
	testb	%al,%r10b
	je	rtp_b236e5ea_rtp_proved_put_element
	movl	$9,%eax
	retq
	.size	rtp_b236e5ea_rtpw_put_element,.-rtp_b236e5ea_rtpw_put_element
	.cfi_endproc

	.section	.text.rtpw_add_element,"ax",@progbits
	.globl	rtp_b236e5ea_rtpw_add_element
	.p2align	4
	.type	rtp_b236e5ea_rtpw_add_element,@function
rtp_b236e5ea_rtpw_add_element:
	.cfi_startproc
	leaq	(%r9,%r8),%rax
	cmpq	%rdi,%rax
	jbe	rtp_b236e5ea_rtp_proved_add_element
	leaq	(%rsi,%rdi),%rax
	cmpq	%r8,%rax
	jbe	rtp_b236e5ea_rtp_proved_add_element
	testq	%r9,%r9
	setne	%al
	testq	%rsi,%rsi
	setne	%r10b
	testb	%al,%r10b
	je	rtp_b236e5ea_rtp_proved_add_element
	movl	$9,%eax
	retq
	.size	rtp_b236e5ea_rtpw_add_element,.-rtp_b236e5ea_rtpw_add_element
	.cfi_endproc

	.section	.text.rtpw_put_block,"ax",@progbits
	.globl	rtp_b236e5ea_rtpw_put_block
	.p2align	4
	.type	rtp_b236e5ea_rtpw_put_block,@function
rtp_b236e5ea_rtpw_put_block:
	.cfi_startproc
	leaq	(%r9,%r8),%rax
	cmpq	%rdi,%rax
	jbe	rtp_b236e5ea_rtp_proved_put_block
	leaq	(%rsi,%rdi),%rax
	cmpq	%r8,%rax
	jbe	rtp_b236e5ea_rtp_proved_put_block
	testq	%r9,%r9
	setne	%al
	testq	%rsi,%rsi
	setne	%r10b
	testb	%al,%r10b
	je	rtp_b236e5ea_rtp_proved_put_block
	movl	$9,%eax
	retq
	.size	rtp_b236e5ea_rtpw_put_block,.-rtp_b236e5ea_rtpw_put_block
	.cfi_endproc

	.section	.text.rtpw_write_with,"ax",@progbits
	.globl	rtp_b236e5ea_rtpw_write_with
	.p2align	4
	.type	rtp_b236e5ea_rtpw_write_with,@function
rtp_b236e5ea_rtpw_write_with:
	.cfi_startproc
	leaq	(%rdx,%rsi),%rax
	cmpq	%r9,%rax
	jbe	rtp_b236e5ea_rtp_proved_write_with
	movq	8(%rsp),%rax
	leaq	(%rax,%r9),%r10
	cmpq	%rsi,%r10
	jbe	rtp_b236e5ea_rtp_proved_write_with
	testq	%rdx,%rdx
	setne	%r10b
	testq	%rax,%rax
	setne	%al
	testb	%al,%r10b
	je	rtp_b236e5ea_rtp_proved_write_with
	movl	$9,%eax
	retq
	.size	rtp_b236e5ea_rtpw_write_with,.-rtp_b236e5ea_rtpw_write_with
	.cfi_endproc

	.section	.text.rtpw_write_with_form,"ax",@progbits
	.globl	rtp_b236e5ea_rtpw_write_with_form
	.p2align	4
	.type	rtp_b236e5ea_rtpw_write_with_form,@function
rtp_b236e5ea_rtpw_write_with_form:
	.cfi_startproc
	movq	8(%rsp),%r10
	leaq	(%rdx,%rsi),%rax
	cmpq	%r10,%rax
	jbe	rtp_b236e5ea_rtp_proved_write_with_form
	movq	16(%rsp),%rax
	addq	%rax,%r10
	cmpq	%rsi,%r10
	jbe	rtp_b236e5ea_rtp_proved_write_with_form
	testq	%rdx,%rdx
	setne	%r10b
	testq	%rax,%rax
	setne	%al
	testb	%al,%r10b
	je	rtp_b236e5ea_rtp_proved_write_with_form
	movl	$9,%eax
	retq
	.size	rtp_b236e5ea_rtpw_write_with_form,.-rtp_b236e5ea_rtpw_write_with_form
	.cfi_endproc

	.section	.text.rtpw_write_elements,"ax",@progbits
	.globl	rtp_b236e5ea_rtpw_write_elements
	.p2align	4
	.type	rtp_b236e5ea_rtpw_write_elements,@function
rtp_b236e5ea_rtpw_write_elements:
	.cfi_startproc
	leaq	(%rsi,%rdi),%rax
	cmpq	%r9,%rax
	jbe	rtp_b236e5ea_rtp_proved_write_elements
	movq	8(%rsp),%rax
	leaq	(%rax,%r9),%r10
	cmpq	%rdi,%r10
	jbe	rtp_b236e5ea_rtp_proved_write_elements
	testq	%rsi,%rsi
	setne	%r10b
	testq	%rax,%rax
	setne	%al
	testb	%al,%r10b
	je	rtp_b236e5ea_rtp_proved_write_elements
	movl	$9,%eax
	retq
	.size	rtp_b236e5ea_rtpw_write_elements,.-rtp_b236e5ea_rtpw_write_elements
	.cfi_endproc

	.section	".note.GNU-stack","",@progbits
