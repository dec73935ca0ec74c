/*
 * rtp_wire for Windows on x86_64: the assembly text that Rattle's compiler makes of the library for C, each function of which but those at its end is proved.
 * Made anew by: generated/make
 * kit: rattle-kit-13b logic dac8208d650f15bf
 * proved for: x86_64-unknown-linux-gnu
 * compiled for: x86_64-pc-windows-gnu
 * sources: 9bd27186c7d38e855bb0763b0c5f497dd31cb39700025263f1556f2423a7dcad
 * text: ac7cd7d7e3a49b213495168f658a99afca91e30405886fe32258301f8141a9c7
 * SPDX-License-Identifier: MIT OR Apache-2.0
 * Copyright (c) 2026 The rtp-wire developers (NOTICE)
 */
	.ifdef	.gasversion.
	.ifdef	.text
	.error	"this text is for Windows on x86_64: the folder generated has those for other systems"
	.end
	.endif
	.endif
	.def	rtp_values.value.lengths.rid_len.7ba4d078ccf006bf; # this text is for Windows on x86_64
	.scl	3;
	.type	32;
	.endef
	.section	.text$rtp_values.value.lengths.rid_len.7ba4d078ccf006bf,"xr"
	.p2align	4
rtp_values.value.lengths.rid_len.7ba4d078ccf006bf:
	cmpb	$0,129(%rcx)
	je	1f
	movb	$1,%al
	cmpb	$0,97(%rcx)
	je	2f
	cmpb	$0,98(%rcx)
	je	3f
	cmpb	$0,99(%rcx)
	je	4f
	cmpb	$0,100(%rcx)
	je	5f
	cmpb	$0,101(%rcx)
	je	6f
	cmpb	$0,102(%rcx)
	je	7f
	cmpb	$0,103(%rcx)
	je	8f
	cmpb	$0,104(%rcx)
	je	9f
	cmpb	$1,105(%rcx)
	movl	$9,%edx
	sbbq	$0,%rdx
	retq
1:
	xorl	%edx,%edx
	xorl	%eax,%eax
	retq
2:
	xorl	%edx,%edx
	retq
3:
	movl	$1,%edx
	retq
4:
	movl	$2,%edx
	retq
5:
	movl	$3,%edx
	retq
6:
	movl	$4,%edx
	retq
7:
	movl	$5,%edx
	retq
8:
	movl	$6,%edx
	retq
9:
	movl	$7,%edx
	retq

	.def	rtp_values.value.lengths.repaired_rid_len.7ba4d078ccf006bf;
	.scl	3;
	.type	32;
	.endef
	.section	.text$rtp_values.value.lengths.repaired_rid_len.7ba4d078ccf006bf,"xr"
	.p2align	4
rtp_values.value.lengths.repaired_rid_len.7ba4d078ccf006bf:
	cmpb	$0,130(%rcx)
	je	1f
	movb	$1,%al
	cmpb	$0,106(%rcx)
	je	2f
	cmpb	$0,107(%rcx)
	je	3f
	cmpb	$0,108(%rcx)
	je	4f
	cmpb	$0,109(%rcx)
	je	5f
	cmpb	$0,110(%rcx)
	je	6f
	cmpb	$0,111(%rcx)
	je	7f
	cmpb	$0,112(%rcx)
	je	8f
	cmpb	$0,113(%rcx)
	je	9f
	cmpb	$1,114(%rcx)
	movl	$9,%edx
	sbbq	$0,%rdx
	retq
1:
	xorl	%edx,%edx
	xorl	%eax,%eax
	retq
2:
	xorl	%edx,%edx
	retq
3:
	movl	$1,%edx
	retq
4:
	movl	$2,%edx
	retq
5:
	movl	$3,%edx
	retq
6:
	movl	$4,%edx
	retq
7:
	movl	$5,%edx
	retq
8:
	movl	$6,%edx
	retq
9:
	movl	$7,%edx
	retq

	.def	rtp_values.value.lengths.mid_len.7ba4d078ccf006bf;
	.scl	3;
	.type	32;
	.endef
	.section	.text$rtp_values.value.lengths.mid_len.7ba4d078ccf006bf,"xr"
	.p2align	4
rtp_values.value.lengths.mid_len.7ba4d078ccf006bf:
	cmpb	$0,128(%rcx)
	je	1f
	movb	$1,%al
	cmpb	$0,80(%rcx)
	je	2f
	cmpb	$0,81(%rcx)
	je	3f
	cmpb	$0,82(%rcx)
	je	4f
	cmpb	$0,83(%rcx)
	je	5f
	cmpb	$0,84(%rcx)
	je	6f
	cmpb	$0,85(%rcx)
	je	7f
	cmpb	$0,86(%rcx)
	je	8f
	cmpb	$0,87(%rcx)
	je	9f
	cmpb	$0,88(%rcx)
	je	10f
	cmpb	$0,89(%rcx)
	je	11f
	cmpb	$0,90(%rcx)
	je	12f
	cmpb	$0,91(%rcx)
	je	13f
	cmpb	$0,92(%rcx)
	je	14f
	cmpb	$0,93(%rcx)
	je	15f
	cmpb	$0,94(%rcx)
	je	16f
	cmpb	$0,95(%rcx)
	je	17f
	cmpb	$1,96(%rcx)
	movl	$17,%edx
	sbbq	$0,%rdx
	retq
1:
	xorl	%edx,%edx
	xorl	%eax,%eax
	retq
2:
	xorl	%edx,%edx
	retq
3:
	movl	$1,%edx
	retq
4:
	movl	$2,%edx
	retq
5:
	movl	$3,%edx
	retq
6:
	movl	$4,%edx
	retq
7:
	movl	$5,%edx
	retq
8:
	movl	$6,%edx
	retq
9:
	movl	$7,%edx
	retq
10:
	movl	$8,%edx
	retq
11:
	movl	$9,%edx
	retq
12:
	movl	$10,%edx
	retq
13:
	movl	$11,%edx
	retq
14:
	movl	$12,%edx
	retq
15:
	movl	$13,%edx
	retq
16:
	movl	$14,%edx
	retq
17:
	movl	$15,%edx
	retq

	.def	rtp_values.value.abs_capture_time.write.7ba4d078ccf006bf;
	.scl	3;
	.type	32;
	.endef
	.section	.text$rtp_values.value.abs_capture_time.write.7ba4d078ccf006bf,"xr"
	.p2align	4
rtp_values.value.abs_capture_time.write.7ba4d078ccf006bf:
	cmpb	$0,116(%rdx)
	je	1f
	movq	8(%rdx),%rax
	cmpb	$0,117(%rdx)
	je	2f
	movq	16(%rdx),%rdx
	bswapq	%rax
	bswapq	%rdx
	movq	%rax,(%rcx)
	movq	%rdx,8(%rcx)
	movb	$1,%al
	movl	$16,%edx
	retq
1:
	xorl	%edx,%edx
	xorl	%eax,%eax
	retq
2:
	bswapq	%rax
	movq	%rax,(%rcx)
	movb	$1,%al
	movl	$8,%edx
	retq

	.def	rtp_values.value.playout_delay.write.7ba4d078ccf006bf;
	.scl	3;
	.type	32;
	.endef
	.section	.text$rtp_values.value.playout_delay.write.7ba4d078ccf006bf,"xr"
	.p2align	4
rtp_values.value.playout_delay.write.7ba4d078ccf006bf:
	cmpb	$0,125(%rdx)
	je	1f
	movl	32(%rdx),%r8d
	testq	%r8,%r8
	je	1f
	cmpb	$0,126(%rdx)
	je	1f
	movl	48(%rdx),%r10d
	testq	%r10,%r10
	je	1f
	movq	24(%rdx),%rax
	movq	40(%rdx),%r9
	movq	%rax,%rdx
	shrq	$32,%rdx
	je	2f
	xorl	%edx,%edx
	divq	%r8
	jmp	3f
1:
	xorl	%edx,%edx
	xorl	%eax,%eax
	retq
2:
	xorl	%edx,%edx
	divl	%r8d
3:
	imulq	$100,%rax,%r11
	imulq	$100,%rdx,%rax
	movq	%rax,%rdx
	shrq	$32,%rdx
	je	1f
	xorl	%edx,%edx
	divq	%r8
	movq	%rax,%r8
	jmp	2f
1:
	xorl	%edx,%edx
	divl	%r8d
	movl	%eax,%r8d
2:
	addl	%r11d,%r8d
	shll	$12,%r8d
	movq	%r9,%rax
	shrq	$32,%rax
	je	1f
	movq	%r9,%rax
	xorl	%edx,%edx
	divq	%r10
	movq	%rax,%r9
	jmp	2f
1:
	movl	%r9d,%eax
	xorl	%edx,%edx
	divl	%r10d
	movl	%eax,%r9d
2:
	andl	$16773120,%r8d
	imulq	$100,%rdx,%rax
	movq	%rax,%rdx
	shrq	$32,%rdx
	je	1f
	xorl	%edx,%edx
	divq	%r10
	jmp	2f
1:
	xorl	%edx,%edx
	divl	%r10d
2:
	imull	$100,%r9d,%edx
	addl	%edx,%eax
	andl	$4095,%eax
	orl	%r8d,%eax
	bswapl	%eax
	movl	%eax,%edx
	shrl	$8,%edx
	shrl	$24,%eax
	movb	%al,2(%rcx)
	movw	%dx,(%rcx)
	movb	$1,%al
	movl	$3,%edx
	retq

	.def	rtp_values.value.video_timing.write.7ba4d078ccf006bf;
	.scl	3;
	.type	32;
	.endef
	.section	.text$rtp_values.value.video_timing.write.7ba4d078ccf006bf,"xr"
	.p2align	4
rtp_values.value.video_timing.write.7ba4d078ccf006bf:
	cmpb	$0,127(%rdx)
	je	1f
	movzbl	76(%rdx),%eax
	movq	68(%rdx),%xmm0
	movdqa	%xmm0,%xmm1
	psrlw	$8,%xmm1
	psllw	$8,%xmm0
	por	%xmm1,%xmm0
	movb	%al,(%rcx)
	movq	%xmm0,1(%rcx)
	movl	$0,9(%rcx)
	movb	$1,%al
	movl	$13,%edx
	retq
1:
	xorl	%edx,%edx
	xorl	%eax,%eax
	retq

	.def	rtp_values.value.stream_id.write.7ba4d078ccf006bf;
	.scl	3;
	.type	32;
	.endef
	.section	.text$rtp_values.value.stream_id.write.7ba4d078ccf006bf,"xr"
	.p2align	4
rtp_values.value.stream_id.write.7ba4d078ccf006bf:
.seh_proc rtp_values.value.stream_id.write.7ba4d078ccf006bf
	pushq	%rsi
	.seh_pushreg %rsi
	subq	$32,%rsp
	.seh_stackalloc 32
	.seh_endprologue
	cmpb	$0,129(%rdx)
	je	1f
	movq	%rdx,%rax
	addq	$97,%rdx
	movzbl	(%rdx),%r8d
	testb	%r8b,%r8b
	je	2f
	cmpb	$0,98(%rax)
	je	3f
	cmpb	$0,99(%rax)
	je	4f
	cmpb	$0,100(%rax)
	je	5f
	cmpb	$0,101(%rax)
	je	6f
	cmpb	$0,102(%rax)
	je	7f
	cmpb	$0,103(%rax)
	je	8f
	cmpb	$0,104(%rax)
	je	9f
	cmpb	$1,105(%rax)
	movl	$9,%esi
	sbbq	$0,%rsi
	jmp	10f
1:
	xorl	%esi,%esi
	xorl	%eax,%eax
1:
	movq	%rsi,%rdx
	addq	$32,%rsp
	popq	%rsi
	retq
2:
	xorl	%esi,%esi
2:
	movq	%rsi,%r8
	callq	memmove
	movb	$1,%al
	movq	%rsi,%rdx
	addq	$32,%rsp
	popq	%rsi
	retq
3:
	movb	%r8b,(%rcx)
	movb	$1,%al
	movl	$1,%esi
	movq	%rsi,%rdx
	addq	$32,%rsp
	popq	%rsi
	retq
4:
	movb	%r8b,(%rcx)
	movzbl	98(%rax),%eax
	movb	%al,1(%rcx)
	movb	$1,%al
	movl	$2,%esi
	movq	%rsi,%rdx
	addq	$32,%rsp
	popq	%rsi
	retq
5:
	movb	%r8b,(%rcx)
	movzbl	98(%rax),%edx
	movb	%dl,1(%rcx)
	movzbl	99(%rax),%eax
	movb	%al,2(%rcx)
	movb	$1,%al
	movl	$3,%esi
	movq	%rsi,%rdx
	addq	$32,%rsp
	popq	%rsi
	retq
6:
	movl	$4,%esi
	jmp	10f
7:
	movl	$5,%esi
	jmp	10f
8:
	movl	$6,%esi
	jmp	10f
9:
	movl	$7,%esi
10:
	movq	%rcx,%r8
	subq	%rdx,%r8
	cmpq	%rsi,%r8
	jae	2b
	movl	%esi,%r8d
	andl	$3,%r8d
	movl	%esi,%r10d
	andl	$12,%r10d
	xorl	%r9d,%r9d
	.p2align	4
2:
	movzbl	97(%rax,%r9),%r11d
	movb	%r11b,(%rcx,%r9)
	movzbl	98(%rax,%r9),%r11d
	movb	%r11b,1(%rcx,%r9)
	movzbl	99(%rax,%r9),%r11d
	movb	%r11b,2(%rcx,%r9)
	movzbl	100(%rax,%r9),%r11d
	movb	%r11b,3(%rcx,%r9)
	addq	$4,%r9
	cmpq	%r9,%r10
	jne	2b
	movb	$1,%al
	testq	%r8,%r8
	je	1b
	.p2align	4
2:
	movzbl	(%rdx,%r9),%r10d
	movb	%r10b,(%rcx,%r9)
	incq	%r9
	decq	%r8
	jne	2b
	jmp	1b
	.seh_endproc

	.def	rtp_values.value.stream_id.write_repaired.7ba4d078ccf006bf;
	.scl	3;
	.type	32;
	.endef
	.section	.text$rtp_values.value.stream_id.write_repaired.7ba4d078ccf006bf,"xr"
	.p2align	4
rtp_values.value.stream_id.write_repaired.7ba4d078ccf006bf:
.seh_proc rtp_values.value.stream_id.write_repaired.7ba4d078ccf006bf
	pushq	%rsi
	.seh_pushreg %rsi
	subq	$32,%rsp
	.seh_stackalloc 32
	.seh_endprologue
	cmpb	$0,130(%rdx)
	je	1f
	movq	%rdx,%rax
	addq	$106,%rdx
	movzbl	(%rdx),%r8d
	testb	%r8b,%r8b
	je	2f
	cmpb	$0,107(%rax)
	je	3f
	cmpb	$0,108(%rax)
	je	4f
	cmpb	$0,109(%rax)
	je	5f
	cmpb	$0,110(%rax)
	je	6f
	cmpb	$0,111(%rax)
	je	7f
	cmpb	$0,112(%rax)
	je	8f
	cmpb	$0,113(%rax)
	je	9f
	cmpb	$1,114(%rax)
	movl	$9,%esi
	sbbq	$0,%rsi
	jmp	10f
1:
	xorl	%esi,%esi
	xorl	%eax,%eax
1:
	movq	%rsi,%rdx
	addq	$32,%rsp
	popq	%rsi
	retq
2:
	xorl	%esi,%esi
2:
	movq	%rsi,%r8
	callq	memmove
	movb	$1,%al
	movq	%rsi,%rdx
	addq	$32,%rsp
	popq	%rsi
	retq
3:
	movb	%r8b,(%rcx)
	movb	$1,%al
	movl	$1,%esi
	movq	%rsi,%rdx
	addq	$32,%rsp
	popq	%rsi
	retq
4:
	movb	%r8b,(%rcx)
	movzbl	107(%rax),%eax
	movb	%al,1(%rcx)
	movb	$1,%al
	movl	$2,%esi
	movq	%rsi,%rdx
	addq	$32,%rsp
	popq	%rsi
	retq
5:
	movb	%r8b,(%rcx)
	movzbl	107(%rax),%edx
	movb	%dl,1(%rcx)
	movzbl	108(%rax),%eax
	movb	%al,2(%rcx)
	movb	$1,%al
	movl	$3,%esi
	movq	%rsi,%rdx
	addq	$32,%rsp
	popq	%rsi
	retq
6:
	movl	$4,%esi
	jmp	10f
7:
	movl	$5,%esi
	jmp	10f
8:
	movl	$6,%esi
	jmp	10f
9:
	movl	$7,%esi
10:
	movq	%rcx,%r8
	subq	%rdx,%r8
	cmpq	%rsi,%r8
	jae	2b
	movl	%esi,%r8d
	andl	$3,%r8d
	movl	%esi,%r10d
	andl	$12,%r10d
	xorl	%r9d,%r9d
	.p2align	4
2:
	movzbl	106(%rax,%r9),%r11d
	movb	%r11b,(%rcx,%r9)
	movzbl	107(%rax,%r9),%r11d
	movb	%r11b,1(%rcx,%r9)
	movzbl	108(%rax,%r9),%r11d
	movb	%r11b,2(%rcx,%r9)
	movzbl	109(%rax,%r9),%r11d
	movb	%r11b,3(%rcx,%r9)
	addq	$4,%r9
	cmpq	%r9,%r10
	jne	2b
	movb	$1,%al
	testq	%r8,%r8
	je	1b
	.p2align	4
2:
	movzbl	(%rdx,%r9),%r10d
	movb	%r10b,(%rcx,%r9)
	incq	%r9
	decq	%r8
	jne	2b
	jmp	1b
	.seh_endproc

	.def	rtp_values.value.mid.write.7ba4d078ccf006bf;
	.scl	3;
	.type	32;
	.endef
	.section	.text$rtp_values.value.mid.write.7ba4d078ccf006bf,"xr"
	.p2align	4
rtp_values.value.mid.write.7ba4d078ccf006bf:
.seh_proc rtp_values.value.mid.write.7ba4d078ccf006bf
	pushq	%rsi
	.seh_pushreg %rsi
	subq	$32,%rsp
	.seh_stackalloc 32
	.seh_endprologue
	cmpb	$0,128(%rdx)
	je	1f
	leaq	80(%rdx),%r8
	movzbl	(%r8),%eax
	testb	%al,%al
	je	2f
	cmpb	$0,81(%rdx)
	je	3f
	cmpb	$0,82(%rdx)
	je	4f
	cmpb	$0,83(%rdx)
	je	5f
	cmpb	$0,84(%rdx)
	je	6f
	cmpb	$0,85(%rdx)
	je	7f
	cmpb	$0,86(%rdx)
	je	8f
	cmpb	$0,87(%rdx)
	je	9f
	cmpb	$0,88(%rdx)
	je	10f
	cmpb	$0,89(%rdx)
	je	11f
	cmpb	$0,90(%rdx)
	je	12f
	cmpb	$0,91(%rdx)
	je	13f
	cmpb	$0,92(%rdx)
	je	14f
	cmpb	$0,93(%rdx)
	je	15f
	cmpb	$0,94(%rdx)
	je	16f
	cmpb	$0,95(%rdx)
	je	17f
	cmpb	$1,96(%rdx)
	movl	$17,%esi
	sbbq	$0,%rsi
	jmp	18f
1:
	xorl	%esi,%esi
	xorl	%eax,%eax
1:
	movq	%rsi,%rdx
	addq	$32,%rsp
	popq	%rsi
	retq
2:
	xorl	%esi,%esi
2:
	movq	%r8,%rdx
	movq	%rsi,%r8
	callq	memmove
	movb	$1,%al
	movq	%rsi,%rdx
	addq	$32,%rsp
	popq	%rsi
	retq
3:
	movb	%al,(%rcx)
	movb	$1,%al
	movl	$1,%esi
	movq	%rsi,%rdx
	addq	$32,%rsp
	popq	%rsi
	retq
4:
	movb	%al,(%rcx)
	movzbl	81(%rdx),%eax
	movb	%al,1(%rcx)
	movb	$1,%al
	movl	$2,%esi
	movq	%rsi,%rdx
	addq	$32,%rsp
	popq	%rsi
	retq
5:
	movb	%al,(%rcx)
	movzbl	81(%rdx),%eax
	movb	%al,1(%rcx)
	movzbl	82(%rdx),%eax
	movb	%al,2(%rcx)
	movb	$1,%al
	movl	$3,%esi
	movq	%rsi,%rdx
	addq	$32,%rsp
	popq	%rsi
	retq
6:
	movl	$4,%esi
	jmp	18f
7:
	movl	$5,%esi
	jmp	18f
8:
	movl	$6,%esi
	jmp	18f
9:
	movl	$7,%esi
	jmp	18f
10:
	movl	$8,%esi
	jmp	18f
11:
	movl	$9,%esi
	jmp	18f
12:
	movl	$10,%esi
	jmp	18f
13:
	movl	$11,%esi
	jmp	18f
14:
	movl	$12,%esi
	jmp	18f
15:
	movl	$13,%esi
	jmp	18f
16:
	movl	$14,%esi
	jmp	18f
17:
	movl	$15,%esi
18:
	movq	%rcx,%rax
	subq	%r8,%rax
	cmpq	%rsi,%rax
	jae	2b
	movq	%rcx,%rax
	subq	%rdx,%rax
	addq	$-80,%rax
	cmpq	$16,%rax
	jae	2f
	xorl	%r9d,%r9d
	jmp	3f
2:
	cmpq	$16,%rsi
	jae	2f
	xorl	%r9d,%r9d
	jmp	4f
2:
	movl	%esi,%r9d
	andl	$16,%r9d
	xorl	%eax,%eax
	.p2align	4
2:
	movups	(%r8,%rax),%xmm0
	movups	%xmm0,(%rcx,%rax)
	addq	$16,%rax
	cmpq	%rax,%r9
	jne	2b
	movb	$1,%al
	cmpq	%r9,%rsi
	je	1b
	testb	$12,%sil
	je	3f
4:
	movq	%r9,%rax
	movl	%esi,%r9d
	andl	$28,%r9d
	.p2align	4
2:
	movl	(%r8,%rax),%r10d
	movl	%r10d,(%rcx,%rax)
	addq	$4,%rax
	cmpq	%rax,%r9
	jne	2b
	movb	$1,%al
	cmpq	%r9,%rsi
	je	1b
3:
	movq	%rsi,%rax
	movq	%r9,%r10
	andq	$3,%rax
	je	2f
	movq	%r9,%r10
	.p2align	4
3:
	movzbl	(%r8,%r10),%r11d
	movb	%r11b,(%rcx,%r10)
	incq	%r10
	decq	%rax
	jne	3b
2:
	subq	%rsi,%r9
	movb	$1,%al
	cmpq	$-4,%r9
	ja	1b
	.p2align	4
2:
	movzbl	80(%rdx,%r10),%r8d
	movb	%r8b,(%rcx,%r10)
	movzbl	81(%rdx,%r10),%r8d
	movb	%r8b,1(%rcx,%r10)
	movzbl	82(%rdx,%r10),%r8d
	movb	%r8b,2(%rcx,%r10)
	movzbl	83(%rdx,%r10),%r8d
	movb	%r8b,3(%rcx,%r10)
	addq	$4,%r10
	cmpq	%r10,%rsi
	jne	2b
	jmp	1b
	.seh_endproc

	.def	rtp_ext.elements.skip_zeros;
	.scl	3;
	.type	32;
	.endef
	.section	.text$unlikely$rtp_ext.elements.skip_zeros,"xr"
	.p2align	4
rtp_ext.elements.skip_zeros:
	leaq	-1(%rcx),%r10
	movq	%rdx,%rax
	.p2align	4
1:
	movq	%rax,%r8
	movq	%r10,%r9
	subq	$16,%rax
	jb	2f
	movq	9(%r9),%r11
	leaq	16(%r9),%r10
	orq	1(%r9),%r11
	je	1b
2:
	addq	%rdx,%rcx
	.p2align	4
1:
	movq	%r8,%rdx
	subq	$1,%r8
	jb	2f
	leaq	1(%r9),%rax
	cmpb	$0,1(%r9)
	movq	%rax,%r9
	je	1b
	retq
2:
	movq	%rcx,%rax
	retq

	.def	rtp_ext.survey.one_more;
	.scl	3;
	.type	32;
	.endef
	.section	.text$unlikely$rtp_ext.survey.one_more,"xr"
	.p2align	4
rtp_ext.survey.one_more:
	leaq	1(%rcx),%rax
	retq

	.def	rtp_ext.renamed_ids.lowest_beside.d4d397b1ff315637;
	.scl	3;
	.type	32;
	.endef
	.section	.text$rtp_ext.renamed_ids.lowest_beside.d4d397b1ff315637,"xr"
	.p2align	4
rtp_ext.renamed_ids.lowest_beside.d4d397b1ff315637:
.seh_proc rtp_ext.renamed_ids.lowest_beside.d4d397b1ff315637
	pushq	%rsi
	.seh_pushreg %rsi
	pushq	%rdi
	.seh_pushreg %rdi
	pushq	%rbp
	.seh_pushreg %rbp
	pushq	%rbx
	.seh_pushreg %rbx
	subq	$40,%rsp
	.seh_stackalloc 40
	.seh_endprologue
	movl	%r9d,%ebx
	movl	%r8d,%ebp
	movq	%rdx,%rdi
	movq	%rcx,%rsi
	xorl	%eax,%eax
	movq	%rdx,%rcx
	.p2align	4
1:
	cmpq	%rcx,%rax
	jae	2f
	movzbl	1(%rsi,%rax),%edx
	incq	%rax
	decb	%dl
	cmpb	%bpl,%dl
	jne	1b
	jmp	3f
2:
	xorl	%edx,%edx
	cmpq	$15,%rcx
	jb	2f
	movl	$0,%ecx
	cmpq	$254,%rax
	ja	4f
	movq	%rsi,%rcx
	movq	%rax,%rdx
	callq	rtp_c.kinds.StoredMap.past_unmapped
	movq	%rax,%rdx
	addq	$16,%rdx
	cmpq	$255,%rdx
	movl	$255,%ecx
	cmovbq	%rdx,%rcx
	jmp	1b
3:
	xorl	%eax,%eax
	.p2align	4
1:
	cmpq	%rdi,%rax
	jae	3f
	movzbl	1(%rsi,%rax),%ecx
	incq	%rax
	decb	%cl
	cmpb	%bl,%cl
	jne	1b
	jmp	5f
3:
	xorl	%edx,%edx
	cmpq	$15,%rdi
	jb	2f
	movl	$0,%ecx
	cmpq	$254,%rax
	ja	4f
	movq	%rsi,%rcx
	movq	%rax,%rdx
	callq	rtp_c.kinds.StoredMap.past_unmapped
	movq	%rax,%rcx
	addq	$16,%rcx
	cmpq	$255,%rcx
	movl	$255,%edi
	cmovbq	%rcx,%rdi
	jmp	1b
5:
	movb	$1,%cl
	movl	%eax,%edx
4:
	movl	%ecx,%eax
	addq	$40,%rsp
	popq	%rbx
	popq	%rbp
	popq	%rdi
	popq	%rsi
	retq
2:
	xorl	%ecx,%ecx
	jmp	4b
	.seh_endproc

	.def	rtp_c.kinds.StoredMap.past_unmapped;
	.scl	3;
	.type	32;
	.endef
	.section	.rdata,"dr"
	.p2align	4,0x0
1:
	.zero	16,14
	.section	.text$rtp_c.kinds.StoredMap.past_unmapped,"xr"
	.p2align	4
rtp_c.kinds.StoredMap.past_unmapped:
	.p2align	4
2:
	movq	%rdx,%rax
	addq	$16,%rdx
	cmpq	$255,%rdx
	ja	3f
	movdqu	1(%rcx,%rax),%xmm0
	pcmpeqd	%xmm1,%xmm1
	paddb	%xmm0,%xmm1
	movdqa	1b(%rip),%xmm0
	pminub	%xmm1,%xmm0
	pcmpeqb	%xmm1,%xmm0
	pmovmskb	%xmm0,%r8d
	testl	%r8d,%r8d
	je	2b
3:
	retq

	.def	rtp_ext.block_values.read_values.9a3a19c0cce455e9;
	.scl	3;
	.type	32;
	.endef
	.section	.rdata,"dr"
	.p2align	4,0x0
1:
	.zero	16,32
	.section	.text$rtp_ext.block_values.read_values.9a3a19c0cce455e9,"xr"
	.p2align	4
rtp_ext.block_values.read_values.9a3a19c0cce455e9:
.seh_proc rtp_ext.block_values.read_values.9a3a19c0cce455e9
	pushq	%r15
	.seh_pushreg %r15
	pushq	%r14
	.seh_pushreg %r14
	pushq	%r13
	.seh_pushreg %r13
	pushq	%r12
	.seh_pushreg %r12
	pushq	%rsi
	.seh_pushreg %rsi
	pushq	%rdi
	.seh_pushreg %rdi
	pushq	%rbp
	.seh_pushreg %rbp
	pushq	%rbx
	.seh_pushreg %rbx
	subq	$136,%rsp
	.seh_stackalloc 136
	movdqa	%xmm6,112(%rsp)
	.seh_savexmm %xmm6,112
	.seh_endprologue
	movq	%r8,%rbx
	movq	%rdx,%rax
	movq	%rcx,%rsi
	movq	240(%rsp),%r13
	testb	%r9b,%r9b
	jne	2f
	jmp	3f
4:
	leaq	48(%rsp),%rcx
	movq	%r12,%rdx
	movq	%r14,%r8
	callq	rtp_core.str.utf8.from_utf8
	cmpb	$0,48(%rsp)
	je	5f
	.p2align	4
6:
	movq	%rbp,%rax
2:
	testq	%rbx,%rbx
	je	7f
	cmpb	$0,(%rax)
	je	8f
	cmpq	$2,%rbx
	jae	9f
	jmp	7f
	.p2align	4
8:
	cmpq	$2,%rbx
	je	8f
	cmpq	$1,%rbx
	je	7f
	cmpq	$3,%rbx
	ja	10f
	cmpb	$0,1(%rax)
	jne	10f
	cmpb	$0,2(%rax)
	jne	10f
	jmp	7f
8:
	cmpb	$0,1(%rax)
	je	7f
10:
	decq	%rbx
	incq	%rax
	movq	%rax,%rcx
	movq	%rbx,%rdx
	callq	rtp_ext.elements.skip_zeros
	testq	%rdx,%rdx
	je	7f
	movq	%rdx,%rbx
	cmpq	$2,%rbx
	jb	7f
9:
	movzbl	1(%rax),%r14d
	leaq	2(%r14),%rbp
	subq	%rbp,%rbx
	jb	7f
	movzbl	(%rax),%ecx
	addq	%rax,%rbp
	testq	%rcx,%rcx
	je	6b
	movzbl	(%rsi,%rcx),%ecx
	decl	%ecx
	cmpl	$14,%ecx
	ja	6b
	leaq	2(%rax),%r12
	leaq	8f(%rip),%rdx
	movslq	(%rdx,%rcx,4),%rcx
	addq	%rdx,%rcx
	jmpq	*%rcx
9:
	cmpb	$3,%r14b
	jb	6b
	movzbl	2(%rax),%ecx
	movzwl	3(%rax),%eax
	shll	$16,%eax
	shll	$8,%ecx
	orl	%eax,%ecx
	bswapl	%ecx
	imulq	$1000000,%rcx,%rax
	shrq	$18,%rax
	movb	$1,115(%r13)
	movq	%rax,(%r13)
	movq	%rbp,%rax
	jmp	2b
10:
	cmpb	$2,%r14b
	jb	11f
	leaq	rtp_static.0(%rip),%rax
	testq	%rbx,%rbx
	je	12f
	movq	%rbx,%r15
13:
	cmpb	$0,(%rbp)
	movq	%rbp,%rax
	jne	14f
	cmpq	$2,%rbx
	je	15f
	cmpq	$1,%rbx
	movq	240(%rsp),%r13
	leaq	rtp_static.0(%rip),%rax
	je	12f
	cmpq	$3,%rbx
	ja	16f
	cmpb	$0,1(%rbp)
	jne	16f
	cmpb	$0,2(%rbp)
	jne	16f
	jmp	12f
15:
	cmpb	$0,1(%rbp)
	movq	240(%rsp),%r13
	leaq	rtp_static.0(%rip),%rax
	je	12f
16:
	leaq	-1(%rbx),%rdx
	leaq	1(%rbp),%rcx
	callq	rtp_ext.elements.skip_zeros
	testq	%rdx,%rdx
	je	15f
	movq	%rdx,%r15
14:
	cmpq	$2,%r15
	jb	14f
	movzbl	1(%rax),%r13d
	leaq	2(%r13),%rdi
	subq	%rdi,%r15
	jb	14f
	movzbl	(%rax),%ecx
	testq	%rcx,%rcx
	je	16f
	cmpb	$15,(%rsi,%rcx)
	jne	16f
	leaq	2(%rax),%rbx
	addq	%rax,%rdi
	movq	%rbx,%rcx
	movq	%r13,%rdx
	callq	rtp_ext.block_values.is_another_allocation
	testb	%al,%al
	cmovneq	%r13,%r14
	cmovneq	%rbx,%r12
	movq	%r15,%rbx
	movq	%rdi,%rbp
	testq	%r15,%r15
	jne	13b
14:
	xorl	%ebx,%ebx
	leaq	rtp_static.0(%rip),%rbp
16:
	movq	240(%rsp),%r13
	testq	%r14,%r14
	jne	13f
	jmp	6b
14:
	movq	%r12,%rcx
	movq	%r14,%rdx
	movq	%r13,%r8
	callq	rtp_values.value.stream_id.read_repaired.a6b2bc1c138ab33f
	movq	%rbp,%rax
	jmp	2b
16:
	testq	%r14,%r14
	je	6b
	movzbl	(%r12),%ecx
	shlb	$4,%cl
	movb	$1,121(%r13)
	movabsq	$25333521015767040,%rax
	shrq	%cl,%rax
	movw	%ax,66(%r13)
	movq	%rbp,%rax
	jmp	2b
17:
	cmpb	$4,%r14b
	jb	6b
	movl	(%r12),%eax
	bswapl	%eax
	movb	$1,119(%r13)
	movl	%eax,60(%r13)
	jmp	6b
18:
	cmpb	$2,%r14b
	jb	6b
	movzwl	(%r12),%eax
	rolw	$8,%ax
	movb	$1,120(%r13)
	movw	%ax,64(%r13)
	movq	%rbp,%rax
	jmp	2b
19:
	pxor	%xmm0,%xmm0
	movdqa	%xmm0,48(%rsp)
	movq	$0,64(%rsp)
	movdqa	1b(%rip),%xmm6
	movdqa	%xmm6,80(%rsp)
	cmpb	$16,%r14b
	ja	4b
	testq	%r14,%r14
	je	20f
	xorl	%eax,%eax
	.p2align	4
21:
	movsbq	(%r12,%rax),%rcx
	testq	%rcx,%rcx
	js	4b
	leaq	rtp_static.2(%rip),%rdx
	movzbl	(%rcx,%rdx),%ecx
	movb	%cl,80(%rsp,%rax)
	incq	%rax
	cmpq	%rax,%r14
	jne	21b
	movdqa	80(%rsp),%xmm6
	jmp	4f
21:
	cmpb	$4,%r14b
	jb	6b
	movl	(%r12),%eax
	bswapl	%eax
	movb	$1,118(%r13)
	movl	%eax,56(%r13)
	movq	%rbp,%rax
	jmp	2b
22:
	testq	%r14,%r14
	je	6b
	movzbl	(%r12),%eax
	movl	%eax,%ecx
	andb	$127,%cl
	negb	%cl
	movw	$257,123(%r13)
	movb	%cl,78(%r13)
	shrb	$7,%al
	movb	%al,79(%r13)
	movq	%rbp,%rax
	jmp	2b
23:
	cmpb	$8,%r14b
	jb	6b
	cmpb	$16,%r14b
	jb	24f
	movq	10(%rax),%rax
	bswapq	%rax
	jmp	25f
26:
	cmpb	$3,%r14b
	jb	6b
	movzbl	2(%rax),%ecx
	movzwl	3(%rax),%eax
	shll	$16,%eax
	shll	$8,%ecx
	orl	%eax,%ecx
	bswapl	%ecx
	movl	%ecx,%eax
	shrl	$12,%eax
	andl	$4095,%ecx
	movw	$257,125(%r13)
	movq	%rax,24(%r13)
	movq	$100,32(%r13)
	movq	%rcx,40(%r13)
	movq	$100,48(%r13)
	movq	%rbp,%rax
	jmp	2b
27:
	testq	%r14,%r14
	je	6b
	movzbl	(%r12),%eax
	movb	$1,122(%r13)
	movb	%al,77(%r13)
	movq	%rbp,%rax
	jmp	2b
28:
	movq	%r12,%rcx
	movq	%r14,%rdx
	movq	%r13,%r8
	callq	rtp_values.value.stream_id.read.a6b2bc1c138ab33f
	movq	%rbp,%rax
	jmp	2b
29:
	cmpb	$9,%r14b
	jb	6b
	movzbl	2(%rax),%ecx
	movq	3(%rax),%xmm0
	movdqa	%xmm0,%xmm1
	psrlw	$8,%xmm1
	psllw	$8,%xmm0
	por	%xmm1,%xmm0
	movb	$1,127(%r13)
	movb	%cl,76(%r13)
	movq	%xmm0,68(%r13)
	movq	%rbp,%rax
	jmp	2b
12:
	xorl	%ebx,%ebx
	movq	%rax,%rbp
11:
	testq	%r14,%r14
	je	6b
13:
	cmpq	$1,%r14
	jne	11f
	cmpb	$0,(%r12)
	jne	6b
	jmp	12f
11:
	leaq	1(%r12),%r15
	decq	%r14
	movzbl	(%r12),%eax
	movl	%eax,%r8d
	shrl	$4,%r8d
	andl	$3,%r8d
	leal	1(%r8),%edx
	andb	$15,%al
	je	11f
	movl	%eax,%r10d
	movl	%eax,%r9d
	movl	%eax,%r11d
	jmp	30f
24:
	xorl	%eax,%eax
25:
	movq	(%r12),%rcx
	bswapq	%rcx
	cmpb	$16,%r14b
	movb	$1,116(%r13)
	movq	%rcx,8(%r13)
	setae	117(%r13)
	movq	%rax,16(%r13)
	movq	%rbp,%rax
	jmp	2b
5:
	movq	56(%rsp),%rax
	movq	64(%rsp),%rcx
	movdqa	%xmm6,96(%rsp)
	testq	%rcx,%rcx
	je	4f
	movl	$1,%edx
	xorl	%r8d,%r8d
	.p2align	4
5:
	movzbl	-1(%rax,%rdx),%r9d
	cmpb	$-64,%r9b
	jl	24f
	leaq	rtp_static.2(%rip),%r10
	movzbl	(%r9,%r10),%r9d
	movb	%r9b,96(%rsp,%r8)
	incq	%r8
24:
	cmpq	%rcx,%rdx
	jae	24f
	incq	%rdx
	cmpq	$16,%r8
	jne	5b
24:
	movdqa	96(%rsp),%xmm6
4:
	movb	$1,128(%r13)
	movdqa	1b(%rip),%xmm0
	pcmpeqb	%xmm6,%xmm0
	pandn	%xmm6,%xmm0
	jmp	4f
20:
	movb	$1,128(%r13)
4:
	movdqu	%xmm0,80(%r13)
	movb	$0,96(%r13)
	movq	%rbp,%rax
	jmp	2b
11:
	movl	%r8d,%ecx
	addl	$2,%ecx
	shrl	%ecx
	subq	%rcx,%r14
	jb	6b
	testb	%r8b,%r8b
	je	4f
	movzbl	(%r15),%r10d
	andb	$15,%r10b
	cmpb	$2,%dl
	jne	5f
	movl	%eax,%r9d
	jmp	11f
4:
	movl	%eax,%r10d
	movl	%eax,%r9d
	jmp	11f
5:
	movzbl	2(%r12),%r9d
	shrb	$4,%r9b
	cmpb	$3,%dl
	je	11f
	movzbl	2(%r12),%eax
	andb	$15,%al
11:
	movl	%eax,%r11d
	movzbl	(%r15),%eax
	shrb	$4,%al
	addq	%rcx,%r15
30:
	movzbl	(%r12),%ecx
	andb	$15,%cl
	je	4f
	movzbl	%cl,%ecx
	shll	$2,%ecx
	movabsq	$4841987667533046032,%rax
	shrq	%cl,%rax
	andl	$7,%eax
	mulb	%dl
5:
	movzbl	%al,%edi
	leal	3(%rdi),%eax
	shrl	$2,%eax
	subq	%rax,%r14
	jb	6b
	testq	%rax,%rax
	je	11f
	cmpl	$1,%eax
	jne	20f
	movzbl	(%r15),%ecx
	shll	$24,%ecx
	jmp	24f
4:
	movzbl	%al,%ecx
	shll	$2,%ecx
	movabsq	$4841987667533046032,%rdi
	movq	%rdi,%rax
	shrq	%cl,%rax
	andl	$7,%eax
	testb	%r8b,%r8b
	je	5b
	movzbl	%r10b,%ecx
	shll	$2,%ecx
	movq	%rdi,%r8
	shrq	%cl,%r8
	andl	$7,%r8d
	addb	%r8b,%al
	cmpb	$2,%dl
	je	5b
	movzbl	%r9b,%ecx
	shll	$2,%ecx
	movq	%rdi,%r8
	shrq	%cl,%r8
	andl	$7,%r8d
	addb	%r8b,%al
	cmpb	$3,%dl
	je	5b
	movzbl	%r11b,%ecx
	shll	$2,%ecx
	shrq	%cl,%rdi
	andl	$7,%edi
	addb	%dil,%al
	jmp	5b
11:
	xorl	%ecx,%ecx
	jmp	24f
20:
	cmpb	$8,%dil
	ja	4f
	movzwl	(%r15),%ecx
	bswapl	%ecx
24:
	testq	%rdi,%rdi
	jne	5f
	jmp	12f
4:
	cmpl	$3,%eax
	jne	4f
	movzbl	(%r15),%edx
	movzwl	1(%r15),%ecx
	shll	$8,%ecx
	orl	%edx,%ecx
	jmp	11f
4:
	movl	(%r15),%ecx
11:
	bswapl	%ecx
5:
	addq	%rax,%r15
	movl	%ecx,%eax
	leal	32(,%rdi,2),%ecx
	negl	%ecx
	shrq	%cl,%rax
	movl	%eax,%ecx
	shrl	%ecx
	andl	$1431655765,%ecx
	movl	%eax,%edx
	subl	%ecx,%edx
	movl	%edx,%ecx
	andl	$858993459,%ecx
	shrl	$2,%edx
	andl	$858993459,%edx
	addl	%ecx,%edx
	movl	%edx,%ecx
	shrl	$4,%ecx
	addl	%edx,%ecx
	andl	$252645135,%ecx
	imull	$16843009,%ecx,%r12d
	shrl	$24,%r12d
	andl	$-1431655766,%eax
	movl	%eax,%ecx
	shrl	%ecx
	subl	%ecx,%eax
	movl	%eax,%ecx
	andl	$858993459,%ecx
	shrl	$2,%eax
	andl	$858993459,%eax
	addl	%ecx,%eax
	movl	%eax,%ecx
	shrl	$4,%ecx
	addl	%eax,%ecx
	andl	$252645135,%ecx
	imull	$16843009,%ecx,%eax
	shrl	$24,%eax
	addq	%rdi,%r12
	addq	%rax,%r12
	jne	4f
5:
	cmpq	$5,%r14
	jae	11f
12:
	movb	$1,131(%r13)
	movq	%rbp,%rax
	jmp	2b
2:
	xorl	%r14d,%r14d
20:
	decq	%r12
	je	5b
4:
	testq	%r14,%r14
	je	2b
	cmpb	$0,(%r15)
	js	2f
	decq	%r14
	incq	%r15
	jmp	20b
2:
	cmpq	$1,%r14
	je	2f
	cmpb	$0,1(%r15)
	js	2f
	movl	$2,%eax
	jmp	4f
2:
	leaq	48(%rsp),%rcx
	movq	%r15,%rdx
	movq	%r14,%r8
	callq	rtp_vla.leb.long_number_at
	cmpb	$1,48(%rsp)
	jne	20b
	movq	64(%rsp),%rax
4:
	addq	%rax,%r15
	subq	%rax,%r14
	jmp	20b
11:
	addq	$-5,%r14
	movl	$1,%eax
2:
	cmpw	$-1,(%r15)
	je	6b
	cmpw	$-1,2(%r15)
	je	6b
	subq	$5,%r14
	setb	%cl
	cmpq	%rdi,%rax
	jae	12b
	incq	%rax
	addq	$5,%r15
	testb	%cl,%cl
	je	2b
	jmp	12b
15:
	xorl	%ebx,%ebx
	leaq	rtp_static.0(%rip),%rbp
	testq	%r14,%r14
	jne	13b
	jmp	6b
2:
	leaq	48(%rsp),%rcx
	movq	%r12,%rdx
	movq	%r14,%r8
	callq	rtp_core.str.utf8.from_utf8
	cmpb	$0,48(%rsp)
	je	4f
	.p2align	4
5:
	movq	%r15,%rax
3:
	testq	%rbx,%rbx
	je	7f
	movzbl	(%rax),%edx
	testb	%dl,%dl
	jne	11f
	cmpq	$2,%rbx
	je	12f
	cmpq	$1,%rbx
	je	7f
	cmpq	$3,%rbx
	ja	13f
	cmpb	$0,1(%rax)
	jne	13f
	cmpb	$0,2(%rax)
	jne	13f
	jmp	7f
12:
	cmpb	$0,1(%rax)
	je	7f
13:
	decq	%rbx
	incq	%rax
	movq	%rax,%rcx
	movq	%rbx,%rdx
	callq	rtp_ext.elements.skip_zeros
	testq	%rdx,%rdx
	je	7f
	movq	%rdx,%rbx
	movzbl	(%rax),%edx
11:
	cmpb	$-17,%dl
	ja	7f
	movl	%edx,%ecx
	andb	$15,%cl
	leal	2(%rcx),%r8d
	movzbl	%r8b,%r14d
	subq	%r14,%rbx
	jb	7f
	movzbl	%dl,%edx
	shrl	$4,%edx
	leaq	(%rax,%r14),%r15
	testl	%edx,%edx
	je	5b
	movzbl	(%rsi,%rdx),%edx
	decl	%edx
	cmpl	$14,%edx
	ja	5b
	leaq	1(%rax),%r12
	decq	%r14
	leaq	11f(%rip),%r8
	movslq	(%r8,%rdx,4),%rdx
	addq	%r8,%rdx
	jmpq	*%rdx
12:
	cmpb	$2,%cl
	jb	5b
	movzbl	1(%rax),%ecx
	movzwl	2(%rax),%eax
	shll	$16,%eax
	shll	$8,%ecx
	orl	%eax,%ecx
	bswapl	%ecx
	imulq	$1000000,%rcx,%rax
	shrq	$18,%rax
	movb	$1,115(%r13)
	movq	%rax,(%r13)
	movq	%r15,%rax
	jmp	3b
13:
	testb	%cl,%cl
	je	15f
	leaq	rtp_static.0(%rip),%rax
	movq	%rax,40(%rsp)
	testq	%rbx,%rbx
	je	20f
	movq	%r15,%rdi
	movq	%rbx,%r13
24:
	movzbl	(%r15),%eax
	testb	%al,%al
	jne	25f
	cmpq	$2,%rbx
	je	30f
	cmpq	$1,%rbx
	movq	240(%rsp),%r13
	je	20f
	cmpq	$3,%rbx
	ja	31f
	cmpb	$0,1(%r15)
	jne	31f
	cmpb	$0,2(%r15)
	jne	31f
	jmp	20f
30:
	cmpb	$0,1(%r15)
	movq	240(%rsp),%r13
	je	20f
31:
	leaq	-1(%rbx),%rdx
	leaq	1(%r15),%rcx
	callq	rtp_ext.elements.skip_zeros
	testq	%rdx,%rdx
	je	30f
	movq	%rax,%rdi
	movq	%rdx,%r13
	movzbl	(%rax),%eax
25:
	cmpb	$-17,%al
	ja	30f
	movl	%eax,%ecx
	andb	$15,%cl
	addb	$2,%cl
	movzbl	%cl,%ebp
	subq	%rbp,%r13
	jb	30f
	movzbl	%al,%eax
	shrl	$4,%eax
	je	25f
	cmpb	$15,(%rsi,%rax)
	jne	25f
	leaq	1(%rdi),%rbx
	addq	%rbp,%rdi
	decq	%rbp
	movq	%rbx,%rcx
	movq	%rbp,%rdx
	callq	rtp_ext.block_values.is_another_allocation
	testb	%al,%al
	cmovneq	%rbp,%r14
	cmovneq	%rbx,%r12
	movq	%r13,%rbx
	movq	%rdi,%r15
	testq	%r13,%r13
	jne	24b
30:
	xorl	%ebx,%ebx
	movq	240(%rsp),%r13
	cmpq	$1,%r14
	je	24f
30:
	leaq	1(%r12),%r15
	decq	%r14
	movzbl	(%r12),%eax
	movl	%eax,%r8d
	shrl	$4,%r8d
	andl	$3,%r8d
	leal	1(%r8),%edx
	andb	$15,%al
	je	31f
	movl	%eax,%r10d
	movl	%eax,%r9d
	movl	%eax,%r11d
	jmp	32f
33:
	movq	%r12,%rcx
	movq	%r14,%rdx
	movq	%r13,%r8
	callq	rtp_values.value.stream_id.read_repaired.a6b2bc1c138ab33f
	movq	%r15,%rax
	jmp	3b
34:
	movzbl	(%r12),%ecx
	shlb	$4,%cl
	movb	$1,121(%r13)
	movabsq	$25333521015767040,%rax
	shrq	%cl,%rax
	movw	%ax,66(%r13)
	movq	%r15,%rax
	jmp	3b
35:
	cmpb	$3,%cl
	jb	5b
	movl	(%r12),%eax
	bswapl	%eax
	movb	$1,119(%r13)
	movl	%eax,60(%r13)
	jmp	5b
36:
	testb	%cl,%cl
	je	5b
	movzwl	(%r12),%eax
	rolw	$8,%ax
	movb	$1,120(%r13)
	movw	%ax,64(%r13)
	movq	%r15,%rax
	jmp	3b
37:
	pxor	%xmm0,%xmm0
	movdqa	%xmm0,48(%rsp)
	movq	$0,64(%rsp)
	movdqa	1b(%rip),%xmm6
	movdqa	%xmm6,80(%rsp)
	xorl	%eax,%eax
	.p2align	4
38:
	movsbq	(%r12,%rax),%rcx
	testq	%rcx,%rcx
	js	2b
	leaq	rtp_static.2(%rip),%rdx
	movzbl	(%rcx,%rdx),%ecx
	movb	%cl,80(%rsp,%rax)
	incq	%rax
	cmpq	%rax,%r14
	jne	38b
	movdqa	80(%rsp),%xmm6
2:
	movb	$1,128(%r13)
	movdqa	1b(%rip),%xmm0
	pcmpeqb	%xmm6,%xmm0
	pandn	%xmm6,%xmm0
	movdqu	%xmm0,80(%r13)
	movb	$0,96(%r13)
	movq	%r15,%rax
	jmp	3b
1:
	cmpb	$3,%cl
	jb	5b
	movl	(%r12),%eax
	bswapl	%eax
	movb	$1,118(%r13)
	movl	%eax,56(%r13)
	movq	%r15,%rax
	jmp	3b
38:
	movzbl	(%r12),%eax
	movl	%eax,%ecx
	andb	$127,%cl
	negb	%cl
	movw	$257,123(%r13)
	movb	%cl,78(%r13)
	shrb	$7,%al
	movb	%al,79(%r13)
	movq	%r15,%rax
	jmp	3b
39:
	cmpb	$7,%cl
	jb	5b
	cmpb	$15,%cl
	jne	40f
	movq	9(%rax),%rax
	bswapq	%rax
	jmp	41f
42:
	cmpb	$2,%cl
	jb	5b
	movzbl	1(%rax),%ecx
	movzwl	2(%rax),%eax
	shll	$16,%eax
	shll	$8,%ecx
	orl	%eax,%ecx
	bswapl	%ecx
	movl	%ecx,%eax
	shrl	$12,%eax
	andl	$4095,%ecx
	movw	$257,125(%r13)
	movq	%rax,24(%r13)
	movq	$100,32(%r13)
	movq	%rcx,40(%r13)
	movq	$100,48(%r13)
	movq	%r15,%rax
	jmp	3b
43:
	movzbl	(%r12),%eax
	movb	$1,122(%r13)
	movb	%al,77(%r13)
	movq	%r15,%rax
	jmp	3b
44:
	movq	%r12,%rcx
	movq	%r14,%rdx
	movq	%r13,%r8
	callq	rtp_values.value.stream_id.read.a6b2bc1c138ab33f
	movq	%r15,%rax
	jmp	3b
45:
	cmpb	$8,%cl
	jb	5b
	movzbl	1(%rax),%ecx
	movq	2(%rax),%xmm0
	movdqa	%xmm0,%xmm1
	psrlw	$8,%xmm1
	psllw	$8,%xmm0
	por	%xmm1,%xmm0
	movb	$1,127(%r13)
	movb	%cl,76(%r13)
	movq	%xmm0,68(%r13)
	movq	%r15,%rax
	jmp	3b
20:
	xorl	%ebx,%ebx
	cmpq	$1,%r14
	jne	30b
24:
	movq	40(%rsp),%rax
	movq	%rax,%r15
	jmp	20f
15:
	movq	%r15,%rax
20:
	cmpb	$0,(%r12)
	jne	5b
	jmp	15f
40:
	xorl	%eax,%eax
41:
	movq	(%r12),%rdx
	bswapq	%rdx
	cmpb	$15,%cl
	movb	$1,116(%r13)
	movq	%rdx,8(%r13)
	sete	117(%r13)
	movq	%rax,16(%r13)
	movq	%r15,%rax
	jmp	3b
4:
	movq	56(%rsp),%rax
	movq	64(%rsp),%rcx
	movdqa	%xmm6,96(%rsp)
	testq	%rcx,%rcx
	je	2b
	movl	$1,%edx
	xorl	%r8d,%r8d
4:
	movzbl	-1(%rax,%rdx),%r9d
	cmpb	$-64,%r9b
	jl	20f
	leaq	rtp_static.2(%rip),%r10
	movzbl	(%r9,%r10),%r9d
	movb	%r9b,96(%rsp,%r8)
	incq	%r8
20:
	cmpq	%rcx,%rdx
	jae	20f
	incq	%rdx
	cmpq	$16,%r8
	jne	4b
20:
	movdqa	96(%rsp),%xmm6
	jmp	2b
31:
	movl	%r8d,%ecx
	addl	$2,%ecx
	shrl	%ecx
	subq	%rcx,%r14
	jae	2f
	movq	40(%rsp),%rax
	jmp	3b
25:
	movq	%r15,40(%rsp)
	movq	240(%rsp),%r13
	cmpq	$1,%r14
	jne	30b
	jmp	24b
2:
	testb	%r8b,%r8b
	je	2f
	movzbl	(%r15),%r10d
	andb	$15,%r10b
	cmpb	$2,%dl
	jne	4f
	movl	%eax,%r9d
	jmp	20f
2:
	movl	%eax,%r10d
	movl	%eax,%r9d
	jmp	20f
4:
	movzbl	2(%r12),%r9d
	shrb	$4,%r9b
	cmpb	$3,%dl
	je	20f
	movzbl	2(%r12),%eax
	andb	$15,%al
20:
	movl	%eax,%r11d
	movzbl	(%r15),%eax
	shrb	$4,%al
	addq	%rcx,%r15
32:
	movzbl	(%r12),%ecx
	andb	$15,%cl
	je	2f
	movzbl	%cl,%ecx
	shll	$2,%ecx
	movabsq	$4841987667533046032,%rax
	shrq	%cl,%rax
	andl	$7,%eax
	mulb	%dl
4:
	movzbl	%al,%edi
	leal	3(%rdi),%eax
	shrl	$2,%eax
	subq	%rax,%r14
	jae	20f
	movq	40(%rsp),%rax
	jmp	3b
20:
	testq	%rax,%rax
	je	20f
	cmpl	$1,%eax
	jne	24f
	movzbl	(%r15),%ecx
	shll	$24,%ecx
	jmp	25f
2:
	movzbl	%al,%ecx
	shll	$2,%ecx
	movabsq	$4841987667533046032,%rdi
	movq	%rdi,%rax
	shrq	%cl,%rax
	andl	$7,%eax
	testb	%r8b,%r8b
	je	4b
	movzbl	%r10b,%ecx
	shll	$2,%ecx
	movq	%rdi,%r8
	shrq	%cl,%r8
	andl	$7,%r8d
	addb	%r8b,%al
	cmpb	$2,%dl
	je	4b
	movzbl	%r9b,%ecx
	shll	$2,%ecx
	movq	%rdi,%r8
	shrq	%cl,%r8
	andl	$7,%r8d
	addb	%r8b,%al
	cmpb	$3,%dl
	je	4b
	movzbl	%r11b,%ecx
	shll	$2,%ecx
	shrq	%cl,%rdi
	andl	$7,%edi
	addb	%dil,%al
	jmp	4b
20:
	xorl	%ecx,%ecx
	jmp	25f
24:
	cmpb	$8,%dil
	ja	2f
	movzwl	(%r15),%ecx
	bswapl	%ecx
25:
	testq	%rdi,%rdi
	jne	4f
	jmp	20f
2:
	cmpl	$3,%eax
	jne	2f
	movzbl	(%r15),%edx
	movzwl	1(%r15),%ecx
	shll	$8,%ecx
	orl	%edx,%ecx
	jmp	24f
2:
	movl	(%r15),%ecx
24:
	bswapl	%ecx
4:
	addq	%rax,%r15
	movl	%ecx,%eax
	leal	32(,%rdi,2),%ecx
	negl	%ecx
	shrq	%cl,%rax
	movl	%eax,%ecx
	shrl	%ecx
	andl	$1431655765,%ecx
	movl	%eax,%edx
	subl	%ecx,%edx
	movl	%edx,%ecx
	andl	$858993459,%ecx
	shrl	$2,%edx
	andl	$858993459,%edx
	addl	%ecx,%edx
	movl	%edx,%ecx
	shrl	$4,%ecx
	addl	%edx,%ecx
	andl	$252645135,%ecx
	imull	$16843009,%ecx,%r12d
	shrl	$24,%r12d
	andl	$-1431655766,%eax
	movl	%eax,%ecx
	shrl	%ecx
	subl	%ecx,%eax
	movl	%eax,%ecx
	andl	$858993459,%ecx
	shrl	$2,%eax
	andl	$858993459,%eax
	addl	%ecx,%eax
	movl	%eax,%ecx
	shrl	$4,%ecx
	addl	%eax,%ecx
	andl	$252645135,%ecx
	imull	$16843009,%ecx,%eax
	shrl	$24,%eax
	addq	%rdi,%r12
	addq	%rax,%r12
	jne	2f
4:
	cmpq	$5,%r14
	jae	24f
20:
	movq	40(%rsp),%rax
15:
	movb	$1,131(%r13)
	jmp	3b
15:
	xorl	%r14d,%r14d
25:
	decq	%r12
	je	4b
2:
	testq	%r14,%r14
	je	15b
	cmpb	$0,(%r15)
	js	2f
	decq	%r14
	incq	%r15
	jmp	25b
2:
	cmpq	$1,%r14
	je	2f
	cmpb	$0,1(%r15)
	js	2f
	movl	$2,%eax
	jmp	4f
2:
	leaq	48(%rsp),%rcx
	movq	%r15,%rdx
	movq	%r14,%r8
	callq	rtp_vla.leb.long_number_at
	cmpb	$1,48(%rsp)
	jne	25b
	movq	64(%rsp),%rax
4:
	addq	%rax,%r15
	subq	%rax,%r14
	jmp	25b
24:
	addq	$-5,%r14
	movl	$1,%eax
2:
	cmpw	$-1,(%r15)
	je	4f
	cmpw	$-1,2(%r15)
	je	15f
	subq	$5,%r14
	setb	%cl
	cmpq	%rdi,%rax
	jae	20b
	incq	%rax
	addq	$5,%r15
	testb	%cl,%cl
	je	2b
	jmp	20b
4:
	movq	40(%rsp),%rax
	jmp	3b
15:
	movq	40(%rsp),%rax
	jmp	3b
7:
	movaps	112(%rsp),%xmm6
	addq	$136,%rsp
	popq	%rbx
	popq	%rbp
	popq	%rdi
	popq	%rsi
	popq	%r12
	popq	%r13
	popq	%r14
	popq	%r15
	retq
	.section	.rdata,"dr"
	.p2align	2,0x0
8:
	.long	9b-8b
	.long	23b-8b
	.long	22b-8b
	.long	21b-8b
	.long	16b-8b
	.long	18b-8b
	.long	26b-8b
	.long	27b-8b
	.long	29b-8b
	.long	28b-8b
	.long	14b-8b
	.long	19b-8b
	.long	17b-8b
	.long	6b-8b
	.long	10b-8b
11:
	.long	12b-11b
	.long	39b-11b
	.long	38b-11b
	.long	1b-11b
	.long	34b-11b
	.long	36b-11b
	.long	42b-11b
	.long	43b-11b
	.long	45b-11b
	.long	44b-11b
	.long	33b-11b
	.long	37b-11b
	.long	35b-11b
	.long	5b-11b
	.long	13b-11b
	.section	.text$rtp_ext.block_values.read_values.9a3a19c0cce455e9,"xr"
	.seh_endproc

	.def	rtp_ext.block_values.is_another_allocation;
	.scl	3;
	.type	32;
	.endef
	.section	.text$rtp_ext.block_values.is_another_allocation,"xr"
	.p2align	4
rtp_ext.block_values.is_another_allocation:
.seh_proc rtp_ext.block_values.is_another_allocation
	pushq	%r14
	.seh_pushreg %r14
	pushq	%rsi
	.seh_pushreg %rsi
	pushq	%rdi
	.seh_pushreg %rdi
	pushq	%rbx
	.seh_pushreg %rbx
	subq	$56,%rsp
	.seh_stackalloc 56
	.seh_endprologue
	testq	%rdx,%rdx
	je	1f
	movq	%rdx,%rsi
	cmpq	$1,%rdx
	jne	2f
	cmpb	$0,(%rcx)
	sete	%al
	jmp	3f
2:
	leaq	1(%rcx),%rdi
	decq	%rsi
	movzbl	(%rcx),%r8d
	movl	%r8d,%r9d
	shrl	$4,%r9d
	andl	$3,%r9d
	leal	1(%r9),%edx
	andb	$15,%r8b
	je	2f
	movzbl	%r8b,%ecx
	shll	$2,%ecx
	movabsq	$4841987667533046032,%rax
	shrq	%cl,%rax
	andl	$7,%eax
	mulb	%dl
4:
	movzbl	%al,%ebx
	leal	3(%rbx),%ecx
	shrl	$2,%ecx
	xorl	%eax,%eax
	subq	%rcx,%rsi
	jb	3f
	testq	%rcx,%rcx
	je	5f
	cmpl	$1,%ecx
	jne	6f
	movzbl	(%rdi),%eax
	shll	$24,%eax
5:
	testq	%rbx,%rbx
	jne	5f
7:
	movb	$1,%al
	jmp	3f
2:
	movl	%r9d,%r10d
	addl	$2,%r10d
	shrl	%r10d
	subq	%r10,%rsi
	jae	2f
1:
	xorl	%eax,%eax
3:
	addq	$56,%rsp
	popq	%rbx
	popq	%rdi
	popq	%rsi
	popq	%r14
	retq
2:
	movzbl	(%rdi),%eax
	shrb	$4,%al
	testb	%r9b,%r9b
	je	2f
	movzbl	(%rdi),%ebx
	andb	$15,%bl
	cmpb	$2,%dl
	jne	8f
	movl	%r8d,%r11d
	jmp	9f
6:
	cmpb	$8,%bl
	ja	6f
	movzwl	(%rdi),%eax
	bswapl	%eax
	testq	%rbx,%rbx
	jne	5f
	jmp	7b
2:
	movl	%r8d,%ebx
	movl	%r8d,%r11d
	jmp	9f
6:
	cmpl	$3,%ecx
	jne	2f
	movzbl	(%rdi),%edx
	movzwl	1(%rdi),%eax
	shll	$8,%eax
	orl	%edx,%eax
	jmp	6f
8:
	movzbl	2(%rcx),%r11d
	shrb	$4,%r11b
	cmpb	$3,%dl
	je	9f
	movzbl	2(%rcx),%ecx
	andb	$15,%cl
	movzbl	%cl,%ecx
	shll	$2,%ecx
	movabsq	$4841987667533046032,%r8
	shrq	%cl,%r8
	andl	$7,%r8d
9:
	movzbl	%al,%ecx
	shll	$2,%ecx
	movabsq	$4841987667533046032,%r14
	movq	%r14,%rax
	shrq	%cl,%rax
	addq	%r10,%rdi
	andl	$7,%eax
	testb	%r9b,%r9b
	je	4b
	movzbl	%bl,%ecx
	shll	$2,%ecx
	movq	%r14,%r9
	shrq	%cl,%r9
	andl	$7,%r9d
	addb	%r9b,%al
	cmpb	$2,%dl
	je	4b
	movzbl	%r11b,%ecx
	shll	$2,%ecx
	shrq	%cl,%r14
	andl	$7,%r14d
	addb	%r14b,%al
	addb	%al,%r8b
	cmpb	$3,%dl
	movzbl	%al,%ecx
	movzbl	%r8b,%eax
	cmovel	%ecx,%eax
	jmp	4b
2:
	movl	(%rdi),%eax
6:
	bswapl	%eax
5:
	addq	%rcx,%rdi
	movl	%eax,%eax
	leal	32(,%rbx,2),%ecx
	negl	%ecx
	shrq	%cl,%rax
	movl	%eax,%ecx
	shrl	%ecx
	andl	$1431655765,%ecx
	movl	%eax,%edx
	subl	%ecx,%edx
	movl	%edx,%ecx
	andl	$858993459,%ecx
	shrl	$2,%edx
	andl	$858993459,%edx
	addl	%ecx,%edx
	movl	%edx,%ecx
	shrl	$4,%ecx
	addl	%edx,%ecx
	andl	$252645135,%ecx
	imull	$16843009,%ecx,%r14d
	shrl	$24,%r14d
	andl	$-1431655766,%eax
	movl	%eax,%ecx
	shrl	%ecx
	subl	%ecx,%eax
	movl	%eax,%ecx
	andl	$858993459,%ecx
	shrl	$2,%eax
	andl	$858993459,%eax
	addl	%ecx,%eax
	movl	%eax,%ecx
	shrl	$4,%ecx
	addl	%eax,%ecx
	andl	$252645135,%ecx
	imull	$16843009,%ecx,%eax
	shrl	$24,%eax
	addq	%rbx,%r14
	addq	%rax,%r14
	jne	2f
4:
	movb	$1,%al
	cmpq	$5,%rsi
	jb	3b
	addq	$-5,%rsi
	movl	$1,%ecx
	.p2align	4
5:
	cmpw	$-1,(%rdi)
	je	1b
	cmpw	$-1,2(%rdi)
	je	1b
	subq	$5,%rsi
	setb	%dl
	cmpq	%rbx,%rcx
	jae	3b
	incq	%rcx
	addq	$5,%rdi
	testb	%dl,%dl
	je	5b
	jmp	3b
	.p2align	4
1:
	xorl	%esi,%esi
3:
	decq	%r14
	je	4b
2:
	testq	%rsi,%rsi
	je	1b
	cmpb	$0,(%rdi)
	js	1f
	decq	%rsi
	incq	%rdi
	jmp	3b
	.p2align	4
1:
	cmpq	$1,%rsi
	je	1f
	cmpb	$0,1(%rdi)
	js	1f
	movl	$2,%eax
	jmp	2f
1:
	leaq	32(%rsp),%rcx
	movq	%rdi,%rdx
	movq	%rsi,%r8
	callq	rtp_vla.leb.long_number_at
	cmpb	$1,32(%rsp)
	jne	3b
	movq	48(%rsp),%rax
2:
	addq	%rax,%rdi
	subq	%rax,%rsi
	jmp	3b
	.seh_endproc

	.def	rtp_vla.leb.long_number_at;
	.scl	3;
	.type	32;
	.endef
	.section	.text$rtp_vla.leb.long_number_at,"xr"
	.p2align	4
rtp_vla.leb.long_number_at:
	testq	%r8,%r8
	je	1f
	movzbl	(%rdx),%eax
	movl	%eax,%r10d
	andl	$127,%eax
	movl	$1,%r9d
	testb	%r10b,%r10b
	js	2f
3:
	movq	$1,(%rcx)
	movq	%rax,8(%rcx)
	movq	%r9,16(%rcx)
	retq
2:
	cmpq	$1,%r8
	jne	2f
1:
	xorps	%xmm0,%xmm0
	movups	%xmm0,(%rcx)
	movq	$0,16(%rcx)
	retq
2:
	movzbl	1(%rdx),%r9d
	movl	%r9d,%r10d
	andl	$127,%r9d
	shll	$7,%r9d
	orq	%r9,%rax
	movl	$2,%r9d
	testb	%r10b,%r10b
	jns	3b
	cmpq	$2,%r8
	je	1b
	movzbl	2(%rdx),%r9d
	movl	%r9d,%r10d
	andl	$127,%r9d
	shll	$14,%r9d
	orq	%r9,%rax
	movl	$3,%r9d
	testb	%r10b,%r10b
	jns	3b
	cmpq	$3,%r8
	je	1b
	movzbl	3(%rdx),%r9d
	movl	%r9d,%r10d
	andl	$127,%r9d
	shll	$21,%r9d
	orq	%r9,%rax
	movl	$4,%r9d
	testb	%r10b,%r10b
	jns	3b
	cmpq	$4,%r8
	je	1b
	movzbl	4(%rdx),%r9d
	movl	%r9d,%r10d
	andl	$127,%r9d
	shlq	$28,%r9
	orq	%r9,%rax
	movl	$5,%r9d
	testb	%r10b,%r10b
	jns	3b
	cmpq	$5,%r8
	je	1b
	movzbl	5(%rdx),%r9d
	movl	%r9d,%r10d
	andl	$127,%r9d
	shlq	$35,%r9
	orq	%r9,%rax
	movl	$6,%r9d
	testb	%r10b,%r10b
	jns	3b
	cmpq	$6,%r8
	je	1b
	movzbl	6(%rdx),%r9d
	movl	%r9d,%r10d
	andl	$127,%r9d
	shlq	$42,%r9
	orq	%r9,%rax
	movl	$7,%r9d
	testb	%r10b,%r10b
	jns	3b
	cmpq	$7,%r8
	je	1b
	movzbl	7(%rdx),%r9d
	movl	%r9d,%r10d
	andl	$127,%r9d
	shlq	$49,%r9
	orq	%r9,%rax
	movl	$8,%r9d
	testb	%r10b,%r10b
	jns	3b
	cmpq	$8,%r8
	je	1b
	movzbl	8(%rdx),%edx
	movl	%edx,%r8d
	andl	$127,%edx
	shlq	$56,%rdx
	orq	%rdx,%rax
	movl	$9,%r9d
	testb	%r8b,%r8b
	jns	3b
	movq	$1,(%rcx)
	movq	%rax,8(%rcx)
	movq	$9,16(%rcx)
	retq

	.def	rtp_values.value.stream_id.read.a6b2bc1c138ab33f;
	.scl	3;
	.type	32;
	.endef
	.section	.text$rtp_values.value.stream_id.read.a6b2bc1c138ab33f,"xr"
	.p2align	4
rtp_values.value.stream_id.read.a6b2bc1c138ab33f:
.seh_proc rtp_values.value.stream_id.read.a6b2bc1c138ab33f
	pushq	%r15
	.seh_pushreg %r15
	pushq	%r14
	.seh_pushreg %r14
	pushq	%rsi
	.seh_pushreg %rsi
	pushq	%rdi
	.seh_pushreg %rdi
	pushq	%rbp
	.seh_pushreg %rbp
	pushq	%rbx
	.seh_pushreg %rbx
	subq	$72,%rsp
	.seh_stackalloc 72
	.seh_endprologue
	movq	%r8,%rsi
	movq	%rdx,%r8
	movq	%rcx,%rdx
	xorps	%xmm0,%xmm0
	movaps	%xmm0,48(%rsp)
	movq	$0,64(%rsp)
	cmpq	$8,%r8
	ja	1f
	testq	%r8,%r8
	je	2f
	movsbq	(%rdx),%rax
	testq	%rax,%rax
	js	1f
	movabsq	$2305843009213693952,%r9
	leaq	rtp_static.2(%rip),%r14
	movzbl	(%rax,%r14),%eax
	movb	$32,%r10b
	cmpq	$1,%r8
	jne	3f
	movb	$32,%bpl
	movb	$32,%dil
	movb	$32,%bl
	movb	$32,%r11b
	movb	$32,%cl
	jmp	4f
2:
	movabsq	$2314885530818453536,%rcx
	jmp	2f
3:
	movsbq	1(%rdx),%rcx
	testq	%rcx,%rcx
	js	1f
	movzbl	(%rcx,%r14),%ecx
	cmpq	$2,%r8
	jne	3f
	movb	$32,%bpl
	movb	$32,%dil
	movb	$32,%bl
	movb	$32,%r11b
	jmp	4f
3:
	movsbq	2(%rdx),%r11
	testq	%r11,%r11
	js	1f
	movzbl	(%r11,%r14),%r11d
	cmpq	$3,%r8
	jne	3f
	movb	$32,%bpl
	movb	$32,%dil
	movb	$32,%bl
	jmp	4f
3:
	movsbq	3(%rdx),%rdi
	testq	%rdi,%rdi
	js	1f
	movzbl	(%rdi,%r14),%ebx
	cmpq	$4,%r8
	jne	3f
	movb	$32,%bpl
	movb	$32,%dil
	jmp	4f
3:
	movsbq	4(%rdx),%rdi
	testq	%rdi,%rdi
	js	1f
	movzbl	(%rdi,%r14),%edi
	cmpq	$5,%r8
	jne	3f
	movb	$32,%bpl
	jmp	4f
3:
	movsbq	5(%rdx),%r15
	testq	%r15,%r15
	js	1f
	movzbl	(%r15,%r14),%ebp
	cmpq	$6,%r8
	je	4f
	movsbq	6(%rdx),%r10
	testq	%r10,%r10
	js	1f
	movzbl	(%r10,%r14),%r10d
	cmpq	$7,%r8
	je	4f
	movsbq	7(%rdx),%r9
	testq	%r9,%r9
	js	1f
	movzbl	(%r9,%r14),%r9d
	shlq	$56,%r9
4:
	movzbl	%r10b,%edx
	shlq	$48,%rdx
	orq	%r9,%rdx
	movzbl	%bpl,%r8d
	shlq	$40,%r8
	movzbl	%dil,%r9d
	shlq	$32,%r9
	orq	%r8,%r9
	orq	%rdx,%r9
	movzbl	%bl,%edx
	shll	$24,%edx
	movzbl	%r11b,%r8d
	shll	$16,%r8d
	orq	%rdx,%r8
	movzbl	%cl,%ecx
	shll	$8,%ecx
	orq	%r8,%rcx
	orq	%r9,%rcx
	orq	%rax,%rcx
	jmp	2f
1:
	leaq	48(%rsp),%rcx
	callq	rtp_core.str.utf8.from_utf8
	cmpb	$0,48(%rsp)
	jne	1f
	movabsq	$2314885530818453536,%rcx
	movq	56(%rsp),%rax
	movq	64(%rsp),%rdx
	movq	%rcx,40(%rsp)
	testq	%rdx,%rdx
	je	2f
	movl	$1,%ecx
	xorl	%r8d,%r8d
	.p2align	4
3:
	movzbl	-1(%rax,%rcx),%r9d
	cmpb	$-64,%r9b
	jl	4f
	leaq	rtp_static.2(%rip),%r10
	movzbl	(%r9,%r10),%r9d
	movb	%r9b,40(%rsp,%r8)
	incq	%r8
4:
	cmpq	%rdx,%rcx
	jae	4f
	incq	%rcx
	cmpq	$8,%r8
	jne	3b
4:
	movq	40(%rsp),%rcx
2:
	movb	$1,129(%rsi)
	movl	%ecx,%eax
	andl	$65280,%eax
	movl	%ecx,%r8d
	andl	$16711680,%r8d
	movl	%ecx,%edx
	andl	$-16777216,%edx
	movabsq	$1095216660480,%r9
	andq	%rcx,%r9
	movabsq	$280375465082880,%r11
	andq	%rcx,%r11
	movabsq	$71776119061217280,%rdi
	andq	%rcx,%rdi
	movabsq	$-72057594037927936,%rbx
	andq	%rcx,%rbx
	xorl	%r10d,%r10d
	movabsq	$2305843009213693952,%r14
	cmpq	%r14,%rbx
	cmoveq	%r10,%rbx
	movabsq	$9007199254740992,%r14
	cmpq	%r14,%rdi
	cmoveq	%r10,%rdi
	orq	%rbx,%rdi
	movabsq	$35184372088832,%rbx
	cmpq	%rbx,%r11
	cmoveq	%r10,%r11
	orq	%rdi,%r11
	movabsq	$137438953472,%rdi
	cmpq	%rdi,%r9
	cmoveq	%r10,%r9
	orq	%r11,%r9
	cmpq	$536870912,%rdx
	cmoveq	%r10,%rdx
	movzbl	%cl,%ecx
	cmpq	$2097152,%r8
	cmoveq	%r10,%r8
	orq	%r9,%rdx
	cmpq	$8192,%rax
	cmoveq	%r10,%rax
	cmpq	$32,%rcx
	cmoveq	%r10,%rcx
	orq	%r8,%rdx
	orq	%rax,%rcx
	orq	%rdx,%rcx
	movq	%rcx,97(%rsi)
	movb	$0,105(%rsi)
1:
	addq	$72,%rsp
	popq	%rbx
	popq	%rbp
	popq	%rdi
	popq	%rsi
	popq	%r14
	popq	%r15
	retq
	.seh_endproc

	.def	rtp_core.str.utf8.from_utf8;
	.scl	3;
	.type	32;
	.endef
	.section	.text$rtp_core.str.utf8.from_utf8,"xr"
	.p2align	4
rtp_core.str.utf8.from_utf8:
.seh_proc rtp_core.str.utf8.from_utf8
	pushq	%r15
	.seh_pushreg %r15
	pushq	%r14
	.seh_pushreg %r14
	pushq	%rsi
	.seh_pushreg %rsi
	pushq	%rdi
	.seh_pushreg %rdi
	pushq	%rbp
	.seh_pushreg %rbp
	pushq	%rbx
	.seh_pushreg %rbx
	subq	$56,%rsp
	.seh_stackalloc 56
	.seh_endprologue
	movq	%r8,%rbx
	movq	%rdx,%rdi
	movq	%rcx,%rsi
	testq	%r8,%r8
	je	1f
	movabsq	$-9187201950435737472,%r14
	leaq	-8(%rbx),%r15
	xorl	%ecx,%ecx
	jmp	2f
3:
	movl	$1,%r9d
4:
	addq	%rcx,%r9
5:
	movq	%r9,%rcx
	cmpq	%rbx,%r9
	jae	1f
2:
	movzbl	(%rdi,%rcx),%r8d
	testb	%r8b,%r8b
	sets	%dl
	movq	%rbx,%rax
	subq	%rcx,%rax
	cmpq	$2,%rax
	setb	%r9b
	orb	%dl,%r9b
	jne	2f
	cmpb	$0,1(%rdi,%rcx)
	js	3b
	movq	%rdi,40(%rsp)
	movq	%rbx,48(%rsp)
	cmpq	$7,%rax
	ja	3f
	cmpb	$0,(%rdi,%rcx)
	js	6f
	leaq	1(%rcx),%r9
	cmpq	%rbx,%r9
	je	1f
	cmpb	$0,(%rdi,%r9)
	js	5b
	leaq	2(%rcx),%r9
	cmpq	%rbx,%r9
	je	1f
	cmpb	$0,(%rdi,%r9)
	js	5b
	leaq	3(%rcx),%r9
	cmpq	%rbx,%r9
	je	1f
	cmpb	$0,(%rdi,%r9)
	js	5b
	leaq	4(%rcx),%r9
	cmpq	%rbx,%r9
	je	1f
	cmpb	$0,(%rdi,%r9)
	js	5b
	leaq	5(%rcx),%r9
	cmpq	%rbx,%r9
	je	1f
	cmpb	$0,(%rdi,%r9)
	js	5b
	addq	$6,%rcx
	cmpq	%rbx,%rcx
	je	1f
	cmpb	$0,(%rdi,%rcx)
	movq	%rcx,%r9
	js	5b
	jmp	1f
	.p2align	4
2:
	movl	$1,%r9d
	testb	%r8b,%r8b
	jns	4b
	movl	$257,%edx
	cmpb	$-62,%r8b
	jb	2f
	cmpb	$-33,%r8b
	ja	7f
	cmpq	$2,%rax
	jb	8f
	movzbl	1(%rdi,%rcx),%r10d
	movl	$2,%r9d
	cmpb	$-65,%r10b
	jle	4b
	jmp	9f
3:
	movq	(%rdi,%rcx),%rax
	andq	%r14,%rax
	je	3f
	rep		bsfq	%rax,%rax
	shrl	$3,%eax
	addq	%rcx,%rax
	addq	$8,%rcx
	movq	%rax,%r9
	cmpq	%rcx,%rax
	jb	5b
	movq	%rbx,%rcx
	subq	%rax,%rcx
	cmpq	$32,%rcx
	jae	10f
	jmp	11f
7:
	cmpb	$-17,%r8b
	ja	7f
	cmpq	$3,%rax
	jb	12f
	movzbl	1(%rdi,%rcx),%r10d
	cmpb	$-65,%r10b
	jg	9f
	cmpb	$-65,2(%rdi,%rcx)
	jg	9f
	movzbl	%r10b,%r9d
	movl	%r8d,%r11d
	shll	$6,%r11d
	addl	%r9d,%r11d
	addl	$-14464,%r11d
	cmpl	$32,%r11d
	jb	9f
	xorl	%r10d,%r10d
	cmpl	$896,%r11d
	setae	%bpl
	movl	$3,%r9d
	cmpl	$864,%r11d
	jb	4b
	movb	%bpl,%r10b
	leaq	(%r10,%r10,2),%r9
	testq	%r9,%r9
	jne	4b
	jmp	13f
6:
	movq	%rcx,%r9
	jmp	5b
3:
	addq	$8,%rcx
	movq	%rcx,%rax
	movq	%rbx,%rcx
	subq	%rax,%rcx
	cmpq	$32,%rcx
	jb	11f
	.p2align	4
10:
	movdqu	(%rdi,%rax),%xmm0
	movdqu	16(%rdi,%rax),%xmm1
	por	%xmm0,%xmm1
	pshufd	$238,%xmm1,%xmm0
	por	%xmm1,%xmm0
	movq	%xmm0,%rcx
	testq	%r14,%rcx
	jne	11f
	addq	$32,%rax
	leaq	40(%rsp),%rcx
	movq	%rax,%rdx
	movq	%rbx,%r8
	callq	rtp_core.slice.words.skip_far.52f9edcae2f82f51
	movq	%rbx,%rcx
	subq	%rax,%rcx
	cmpq	$31,%rcx
	ja	10b
11:
	movq	%rbx,%rcx
	subq	%rax,%rcx
	jmp	3f
	.p2align	4
6:
	rep		bsfq	%rdx,%r9
	shrl	$3,%r9d
	addq	%rax,%r9
	addq	$8,%rax
	addq	$-8,%rcx
	cmpq	%rax,%r9
	jb	5b
3:
	cmpq	$9,%rcx
	jb	10f
	movq	(%rdi,%rax),%rdx
	andq	%r14,%rdx
	jne	6b
	leaq	8(%rax),%r9
	addq	$8,%rax
	addq	$-8,%rcx
	cmpq	%rax,%r9
	jae	3b
	jmp	5b
10:
	movq	(%rdi,%r15),%rax
	andq	%r14,%rax
	je	1f
	rep		bsfq	%rax,%r9
	shrl	$3,%r9d
	addq	%r15,%r9
	jmp	5b
7:
	cmpq	$4,%rax
	jb	13f
	movzbl	1(%rdi,%rcx),%r9d
	cmpb	$-65,%r9b
	jg	13f
	cmpb	$-65,2(%rdi,%rcx)
	jg	13f
	cmpb	$-65,3(%rdi,%rcx)
	jg	13f
	movl	%r8d,%r10d
	shll	$6,%r10d
	leal	(%r10,%r9),%r11d
	addl	$-15488,%r11d
	xorl	%r9d,%r9d
	cmpl	$272,%r11d
	setb	%r10b
	cmpl	$16,%r11d
	jb	13f
	movb	%r10b,%r9b
	shll	$2,%r9d
	testq	%r9,%r9
	jne	4b
13:
	cmpb	$-12,%r8b
	ja	2f
12:
	cmpq	$2,%rax
	jb	8f
	movzbl	1(%rdi,%rcx),%r10d
9:
	cmpl	$240,%r8d
	sete	%r9b
	shlb	$4,%r9b
	orb	$-128,%r9b
	cmpl	$224,%r8d
	movzbl	%r9b,%r9d
	movl	$160,%r11d
	cmovnel	%r9d,%r11d
	cmpl	$244,%r8d
	movl	$143,%r9d
	movl	$191,%ebx
	cmovel	%r9d,%ebx
	cmpl	$237,%r8d
	movl	$159,%r8d
	cmovnel	%ebx,%r8d
	cmpb	%r10b,%r11b
	ja	2f
	cmpb	%r8b,%r10b
	ja	2f
	cmpq	$2,%rax
	jne	3f
8:
	xorl	%edx,%edx
2:
	movq	$1,(%rsi)
	movq	%rcx,8(%rsi)
	movq	%rdx,16(%rsi)
	jmp	4f
1:
	movq	$0,(%rsi)
	movq	%rdi,8(%rsi)
	movq	%rbx,16(%rsi)
4:
	addq	$56,%rsp
	popq	%rbx
	popq	%rbp
	popq	%rdi
	popq	%rsi
	popq	%r14
	popq	%r15
	retq
3:
	movl	$513,%edx
	cmpb	$-65,2(%rdi,%rcx)
	jg	2b
	xorl	%r8d,%r8d
	cmpq	$4,%rax
	movl	$769,%edx
	cmovbq	%r8,%rdx
	jmp	2b
	.seh_endproc

	.def	rtp_core.slice.words.skip_far.52f9edcae2f82f51;
	.scl	3;
	.type	32;
	.endef
	.section	.text$rtp_core.slice.words.skip_far.52f9edcae2f82f51,"xr"
	.p2align	4
rtp_core.slice.words.skip_far.52f9edcae2f82f51:
	movq	%rdx,%rax
	subq	%rdx,%r8
	cmpq	$64,%r8
	jb	1f
	movq	(%rcx),%rcx
	.p2align	4
2:
	movdqu	(%rcx,%rax),%xmm0
	movdqu	16(%rcx,%rax),%xmm1
	movdqu	32(%rcx,%rax),%xmm2
	por	%xmm0,%xmm2
	movdqu	48(%rcx,%rax),%xmm0
	por	%xmm1,%xmm0
	por	%xmm2,%xmm0
	pshufd	$238,%xmm0,%xmm1
	por	%xmm0,%xmm1
	movq	%xmm1,%rdx
	movabsq	$-9187201950435737472,%r9
	testq	%r9,%rdx
	jne	1f
	addq	$64,%rax
	addq	$-64,%r8
	cmpq	$63,%r8
	ja	2b
1:
	retq

	.def	rtp_values.value.stream_id.read_repaired.a6b2bc1c138ab33f;
	.scl	3;
	.type	32;
	.endef
	.section	.text$rtp_values.value.stream_id.read_repaired.a6b2bc1c138ab33f,"xr"
	.p2align	4
rtp_values.value.stream_id.read_repaired.a6b2bc1c138ab33f:
.seh_proc rtp_values.value.stream_id.read_repaired.a6b2bc1c138ab33f
	pushq	%r15
	.seh_pushreg %r15
	pushq	%r14
	.seh_pushreg %r14
	pushq	%rsi
	.seh_pushreg %rsi
	pushq	%rdi
	.seh_pushreg %rdi
	pushq	%rbp
	.seh_pushreg %rbp
	pushq	%rbx
	.seh_pushreg %rbx
	subq	$72,%rsp
	.seh_stackalloc 72
	.seh_endprologue
	movq	%r8,%rsi
	movq	%rdx,%r8
	movq	%rcx,%rdx
	xorps	%xmm0,%xmm0
	movaps	%xmm0,48(%rsp)
	movq	$0,64(%rsp)
	cmpq	$8,%r8
	ja	1f
	testq	%r8,%r8
	je	2f
	movsbq	(%rdx),%rax
	testq	%rax,%rax
	js	1f
	movabsq	$2305843009213693952,%r9
	leaq	rtp_static.2(%rip),%r14
	movzbl	(%rax,%r14),%eax
	movb	$32,%r10b
	cmpq	$1,%r8
	jne	3f
	movb	$32,%bpl
	movb	$32,%dil
	movb	$32,%bl
	movb	$32,%r11b
	movb	$32,%cl
	jmp	4f
2:
	movabsq	$2314885530818453536,%rcx
	jmp	2f
3:
	movsbq	1(%rdx),%rcx
	testq	%rcx,%rcx
	js	1f
	movzbl	(%rcx,%r14),%ecx
	cmpq	$2,%r8
	jne	3f
	movb	$32,%bpl
	movb	$32,%dil
	movb	$32,%bl
	movb	$32,%r11b
	jmp	4f
3:
	movsbq	2(%rdx),%r11
	testq	%r11,%r11
	js	1f
	movzbl	(%r11,%r14),%r11d
	cmpq	$3,%r8
	jne	3f
	movb	$32,%bpl
	movb	$32,%dil
	movb	$32,%bl
	jmp	4f
3:
	movsbq	3(%rdx),%rdi
	testq	%rdi,%rdi
	js	1f
	movzbl	(%rdi,%r14),%ebx
	cmpq	$4,%r8
	jne	3f
	movb	$32,%bpl
	movb	$32,%dil
	jmp	4f
3:
	movsbq	4(%rdx),%rdi
	testq	%rdi,%rdi
	js	1f
	movzbl	(%rdi,%r14),%edi
	cmpq	$5,%r8
	jne	3f
	movb	$32,%bpl
	jmp	4f
3:
	movsbq	5(%rdx),%r15
	testq	%r15,%r15
	js	1f
	movzbl	(%r15,%r14),%ebp
	cmpq	$6,%r8
	je	4f
	movsbq	6(%rdx),%r10
	testq	%r10,%r10
	js	1f
	movzbl	(%r10,%r14),%r10d
	cmpq	$7,%r8
	je	4f
	movsbq	7(%rdx),%r9
	testq	%r9,%r9
	js	1f
	movzbl	(%r9,%r14),%r9d
	shlq	$56,%r9
4:
	movzbl	%r10b,%edx
	shlq	$48,%rdx
	orq	%r9,%rdx
	movzbl	%bpl,%r8d
	shlq	$40,%r8
	movzbl	%dil,%r9d
	shlq	$32,%r9
	orq	%r8,%r9
	orq	%rdx,%r9
	movzbl	%bl,%edx
	shll	$24,%edx
	movzbl	%r11b,%r8d
	shll	$16,%r8d
	orq	%rdx,%r8
	movzbl	%cl,%ecx
	shll	$8,%ecx
	orq	%r8,%rcx
	orq	%r9,%rcx
	orq	%rax,%rcx
	jmp	2f
1:
	leaq	48(%rsp),%rcx
	callq	rtp_core.str.utf8.from_utf8
	cmpb	$0,48(%rsp)
	jne	1f
	movabsq	$2314885530818453536,%rcx
	movq	56(%rsp),%rax
	movq	64(%rsp),%rdx
	movq	%rcx,40(%rsp)
	testq	%rdx,%rdx
	je	2f
	movl	$1,%ecx
	xorl	%r8d,%r8d
	.p2align	4
3:
	movzbl	-1(%rax,%rcx),%r9d
	cmpb	$-64,%r9b
	jl	4f
	leaq	rtp_static.2(%rip),%r10
	movzbl	(%r9,%r10),%r9d
	movb	%r9b,40(%rsp,%r8)
	incq	%r8
4:
	cmpq	%rdx,%rcx
	jae	4f
	incq	%rcx
	cmpq	$8,%r8
	jne	3b
4:
	movq	40(%rsp),%rcx
2:
	movb	$1,130(%rsi)
	movl	%ecx,%eax
	andl	$65280,%eax
	movl	%ecx,%r8d
	andl	$16711680,%r8d
	movl	%ecx,%edx
	andl	$-16777216,%edx
	movabsq	$1095216660480,%r9
	andq	%rcx,%r9
	movabsq	$280375465082880,%r11
	andq	%rcx,%r11
	movabsq	$71776119061217280,%rdi
	andq	%rcx,%rdi
	movabsq	$-72057594037927936,%rbx
	andq	%rcx,%rbx
	xorl	%r10d,%r10d
	movabsq	$2305843009213693952,%r14
	cmpq	%r14,%rbx
	cmoveq	%r10,%rbx
	movabsq	$9007199254740992,%r14
	cmpq	%r14,%rdi
	cmoveq	%r10,%rdi
	orq	%rbx,%rdi
	movabsq	$35184372088832,%rbx
	cmpq	%rbx,%r11
	cmoveq	%r10,%r11
	orq	%rdi,%r11
	movabsq	$137438953472,%rdi
	cmpq	%rdi,%r9
	cmoveq	%r10,%r9
	orq	%r11,%r9
	cmpq	$536870912,%rdx
	cmoveq	%r10,%rdx
	movzbl	%cl,%ecx
	cmpq	$2097152,%r8
	cmoveq	%r10,%r8
	orq	%r9,%rdx
	cmpq	$8192,%rax
	cmoveq	%r10,%rax
	cmpq	$32,%rcx
	cmoveq	%r10,%rcx
	orq	%r8,%rdx
	orq	%rax,%rcx
	orq	%rdx,%rcx
	movq	%rcx,106(%rsi)
	movb	$0,114(%rsi)
1:
	addq	$72,%rsp
	popq	%rbx
	popq	%rbp
	popq	%rdi
	popq	%rsi
	popq	%r14
	popq	%r15
	retq
	.seh_endproc

	.def	rtp_wire.header.block.close_block;
	.scl	3;
	.type	32;
	.endef
	.section	.text$rtp_wire.header.block.close_block,"xr"
	.p2align	4
rtp_wire.header.block.close_block:
	leaq	3(%r8),%r9
	movq	%r9,%r10
	andq	$-4,%r10
	leaq	4(%r8),%rax
	subq	%r8,%r10
	je	1f
	cmpq	$2,%r10
	je	2f
	cmpq	$1,%r10
	jne	3f
	movb	$0,4(%rcx,%r8)
	addq	$5,%r8
	jmp	4f
2:
	movw	$0,4(%rcx,%r8)
	addq	$6,%r8
	jmp	4f
3:
	movb	$0,2(%rcx,%rax)
	movw	$0,(%rcx,%rax)
	addq	$7,%r8
4:
	movq	%r8,%rax
1:
	movl	%r9d,%r8d
	andl	$-4,%r8d
	shll	$22,%r8d
	shll	$6,%r9d
	andl	$16711680,%r9d
	testb	%dl,%dl
	movl	$57022,%edx
	movl	$16,%r10d
	cmovel	%edx,%r10d
	orl	%r9d,%r10d
	orl	%r8d,%r10d
	movl	%r10d,(%rcx)
	retq

	.def	rtp_ext.raw_writing.put_elements.d57726891005992a;
	.scl	3;
	.type	32;
	.endef
	.section	.text$rtp_ext.raw_writing.put_elements.d57726891005992a,"xr"
	.p2align	4
rtp_ext.raw_writing.put_elements.d57726891005992a:
.seh_proc rtp_ext.raw_writing.put_elements.d57726891005992a
	pushq	%r15
	.seh_pushreg %r15
	pushq	%r14
	.seh_pushreg %r14
	pushq	%r13
	.seh_pushreg %r13
	pushq	%r12
	.seh_pushreg %r12
	pushq	%rsi
	.seh_pushreg %rsi
	pushq	%rdi
	.seh_pushreg %rdi
	pushq	%rbp
	.seh_pushreg %rbp
	pushq	%rbx
	.seh_pushreg %rbx
	subq	$40,%rsp
	.seh_stackalloc 40
	.seh_endprologue
	movq	24(%r8),%r14
	testq	%r14,%r14
	je	1f
	movq	%rcx,%rsi
	movq	(%r8),%r15
	movq	16(%r8),%r12
	xorl	%eax,%eax
	xorl	%ebp,%ebp
	testb	%dl,%dl
	jne	2f
	jmp	3f
	.p2align	4
4:
	movzbl	(%rdx),%eax
	movb	%al,(%rsi,%rdi)
5:
	addq	%rbx,%rdi
	incq	%rbp
	movq	%rdi,%rax
	cmpq	%r14,%rbp
	je	6f
2:
	movq	%rbp,%rcx
	shlq	$5,%rcx
	movq	(%r12,%rcx),%r8
	movq	8(%r12,%rcx),%rbx
	movzbl	24(%r12,%rcx),%ecx
	leaq	(%r15,%r8),%rdx
	movb	%cl,(%rsi,%rax)
	movb	%bl,1(%rsi,%rax)
	leaq	2(%rax),%rdi
	testq	%rbx,%rbx
	je	2f
	cmpq	$1,%rbx
	je	4b
	cmpq	$2,%rbx
	ja	4f
	movzbl	(%rdx),%eax
	movb	%al,(%rsi,%rdi)
	movzbl	1(%rdx),%eax
	movb	%al,1(%rsi,%rdi)
	jmp	5b
4:
	cmpq	$3,%rbx
	jne	2f
	movzbl	(%rdx),%eax
	movb	%al,(%rsi,%rdi)
	movzbl	1(%rdx),%eax
	movb	%al,1(%rsi,%rdi)
	movzbl	2(%rdx),%eax
	movb	%al,2(%rsi,%rdi)
	jmp	5b
	.p2align	4
2:
	leaq	(%rsi,%rdi),%rcx
	movq	%rcx,%r9
	subq	%rdx,%r9
	cmpq	%rbx,%r9
	jae	2f
	cmpq	$4,%rbx
	jb	4f
	leaq	2(%rsi),%r9
	addq	%rax,%r9
	subq	%rdx,%r9
	cmpq	$32,%r9
	jae	7f
4:
	xorl	%r9d,%r9d
4:
	movq	%rbx,%r11
	movq	%r9,%r10
	andq	$3,%r11
	je	8f
	movq	%r9,%r10
	.p2align	4
9:
	movzbl	(%rdx,%r10),%r13d
	movb	%r13b,(%rcx,%r10)
	incq	%r10
	decq	%r11
	jne	9b
8:
	subq	%rbx,%r9
	cmpq	$-4,%r9
	ja	5b
	leaq	3(%r15),%rcx
	addq	%rcx,%r8
	leaq	5(%rsi),%rcx
	addq	%rcx,%rax
	.p2align	4
8:
	movzbl	-3(%r8,%r10),%ecx
	movb	%cl,-3(%rax,%r10)
	movzbl	-2(%r8,%r10),%ecx
	movb	%cl,-2(%rax,%r10)
	movzbl	-1(%r8,%r10),%ecx
	movb	%cl,-1(%rax,%r10)
	movzbl	(%r8,%r10),%ecx
	movb	%cl,(%rax,%r10)
	addq	$4,%r10
	cmpq	%r10,%rbx
	jne	8b
	jmp	5b
	.p2align	4
2:
	movq	%rbx,%r8
	callq	memmove
	jmp	5b
7:
	cmpq	$32,%rbx
	jae	2f
	xorl	%r9d,%r9d
	jmp	7f
2:
	movq	%rbx,%r9
	andq	$-32,%r9
	leaq	16(%r15),%r10
	addq	%r8,%r10
	leaq	18(%rsi),%r11
	addq	%rax,%r11
	xorl	%r13d,%r13d
	.p2align	4
2:
	movups	-16(%r10,%r13),%xmm0
	movups	(%r10,%r13),%xmm1
	movups	%xmm0,-16(%r11,%r13)
	movups	%xmm1,(%r11,%r13)
	addq	$32,%r13
	cmpq	%r13,%r9
	jne	2b
	cmpq	%r9,%rbx
	je	5b
	testb	$28,%bl
	je	4b
7:
	movq	%r9,%r10
	movq	%rbx,%r9
	andq	$-4,%r9
	.p2align	4
2:
	movl	(%rdx,%r10),%r11d
	movl	%r11d,(%rcx,%r10)
	addq	$4,%r10
	cmpq	%r10,%r9
	jne	2b
	cmpq	%r9,%rbx
	je	5b
	jmp	4b
	.p2align	4
2:
	movzbl	(%rdx),%eax
	movb	%al,(%rsi,%rdi)
4:
	addq	%rbx,%rdi
	incq	%rbp
	movq	%rdi,%rax
	cmpq	%r14,%rbp
	je	6f
3:
	movq	%rbp,%rcx
	shlq	$5,%rcx
	movq	(%r12,%rcx),%r8
	movq	8(%r12,%rcx),%rbx
	movzbl	24(%r12,%rcx),%ecx
	leaq	(%r15,%r8),%rdx
	rolb	$4,%cl
	addb	%bl,%cl
	decb	%cl
	movb	%cl,(%rsi,%rax)
	leaq	1(%rax),%rdi
	testq	%rbx,%rbx
	je	3f
	cmpq	$1,%rbx
	je	2b
	cmpq	$3,%rbx
	jae	2f
	movzbl	(%rdx),%eax
	movb	%al,(%rsi,%rdi)
	movzbl	1(%rdx),%eax
	movb	%al,1(%rsi,%rdi)
	jmp	4b
2:
	jne	3f
	movzbl	(%rdx),%eax
	movb	%al,(%rsi,%rdi)
	movzbl	1(%rdx),%eax
	movb	%al,1(%rsi,%rdi)
	movzbl	2(%rdx),%eax
	movb	%al,2(%rsi,%rdi)
	jmp	4b
	.p2align	4
3:
	leaq	(%rsi,%rdi),%rcx
	movq	%rcx,%r9
	subq	%rdx,%r9
	cmpq	%rbx,%r9
	jae	2f
	cmpq	$4,%rbx
	jb	3f
	leaq	1(%rsi),%r9
	addq	%rax,%r9
	subq	%rdx,%r9
	cmpq	$32,%r9
	jae	5f
3:
	xorl	%r9d,%r9d
3:
	movq	%rbx,%r11
	movq	%r9,%r10
	andq	$3,%r11
	je	7f
	movq	%r9,%r10
	.p2align	4
8:
	movzbl	(%rdx,%r10),%r13d
	movb	%r13b,(%rcx,%r10)
	incq	%r10
	decq	%r11
	jne	8b
7:
	subq	%rbx,%r9
	cmpq	$-4,%r9
	ja	4b
	leaq	3(%r15),%rcx
	addq	%rcx,%r8
	leaq	4(%rsi),%rcx
	addq	%rcx,%rax
	.p2align	4
7:
	movzbl	-3(%r8,%r10),%ecx
	movb	%cl,-3(%rax,%r10)
	movzbl	-2(%r8,%r10),%ecx
	movb	%cl,-2(%rax,%r10)
	movzbl	-1(%r8,%r10),%ecx
	movb	%cl,-1(%rax,%r10)
	movzbl	(%r8,%r10),%ecx
	movb	%cl,(%rax,%r10)
	addq	$4,%r10
	cmpq	%r10,%rbx
	jne	7b
	jmp	4b
	.p2align	4
2:
	movq	%rbx,%r8
	callq	memmove
	jmp	4b
5:
	cmpq	$32,%rbx
	jae	2f
	xorl	%r9d,%r9d
	jmp	5f
2:
	movq	%rbx,%r9
	andq	$-32,%r9
	leaq	16(%r15),%r10
	addq	%r8,%r10
	leaq	17(%rsi),%r11
	addq	%rax,%r11
	xorl	%r13d,%r13d
	.p2align	4
2:
	movups	-16(%r10,%r13),%xmm0
	movups	(%r10,%r13),%xmm1
	movups	%xmm0,-16(%r11,%r13)
	movups	%xmm1,(%r11,%r13)
	addq	$32,%r13
	cmpq	%r13,%r9
	jne	2b
	cmpq	%r9,%rbx
	je	4b
	testb	$28,%bl
	je	3b
5:
	movq	%r9,%r10
	movq	%rbx,%r9
	andq	$-4,%r9
	.p2align	4
2:
	movl	(%rdx,%r10),%r11d
	movl	%r11d,(%rcx,%r10)
	addq	$4,%r10
	cmpq	%r10,%r9
	jne	2b
	cmpq	%r9,%rbx
	je	4b
	jmp	3b
1:
	xorl	%edi,%edi
6:
	movq	%rdi,%rax
	addq	$40,%rsp
	popq	%rbx
	popq	%rbp
	popq	%rdi
	popq	%rsi
	popq	%r12
	popq	%r13
	popq	%r14
	popq	%r15
	retq
	.seh_endproc

	.def	rtp_ext.form_change.row_len;
	.scl	3;
	.type	32;
	.endef
	.section	.text$rtp_ext.form_change.row_len,"xr"
	.p2align	4
rtp_ext.form_change.row_len:
.seh_proc rtp_ext.form_change.row_len
	pushq	%r15
	.seh_pushreg %r15
	pushq	%r14
	.seh_pushreg %r14
	pushq	%rsi
	.seh_pushreg %rsi
	pushq	%rdi
	.seh_pushreg %rdi
	pushq	%rbp
	.seh_pushreg %rbp
	pushq	%rbx
	.seh_pushreg %rbx
	subq	$40,%rsp
	.seh_stackalloc 40
	.seh_endprologue
	movq	%r9,%rsi
	movq	%r8,%rdi
	movzbl	128(%rsp),%ebp
	testb	%cl,%cl
	je	1f
	testb	%dl,%dl
	je	2f
	xorl	%ebx,%ebx
	xorl	%ecx,%ecx
3:
	movq	%rsi,%rdx
	movb	$1,%r14b
	subq	%rcx,%rdx
	je	4f
	addq	%rdi,%rcx
	cmpb	$0,(%rcx)
	je	5f
	movq	%rcx,%rax
	jmp	6f
	.p2align	4
5:
	cmpq	$2,%rdx
	je	5f
	cmpq	$1,%rdx
	je	4f
	cmpq	$3,%rdx
	ja	7f
	cmpb	$0,1(%rcx)
	jne	7f
	cmpb	$0,2(%rcx)
	jne	7f
	jmp	4f
5:
	cmpb	$0,1(%rcx)
	je	4f
7:
	decq	%rdx
	incq	%rcx
	callq	rtp_ext.elements.skip_zeros
	testq	%rdx,%rdx
	je	4f
6:
	cmpq	$2,%rdx
	jb	4f
	movzbl	1(%rax),%r8d
	leaq	2(%r8),%rcx
	subq	%rdx,%rcx
	ja	4f
	movzbl	(%rax),%eax
	addq	%rsi,%rcx
	cmpb	%bpl,%al
	je	3b
	testb	%al,%al
	je	3b
	addq	%r8,%rbx
	addq	$2,%rbx
	jmp	3b
1:
	xorl	%ebx,%ebx
	xorl	%eax,%eax
	testb	%dl,%dl
	je	1f
3:
	movq	%rsi,%rdx
	movb	$1,%r14b
	subq	%rax,%rdx
	je	4f
	movzbl	(%rdi,%rax),%ecx
	testb	%cl,%cl
	jne	5f
	cmpq	$2,%rdx
	je	6f
	cmpq	$1,%rdx
	je	4f
	cmpq	$3,%rdx
	ja	7f
	cmpb	$0,1(%rdi,%rax)
	jne	7f
	cmpb	$0,2(%rdi,%rax)
	jne	7f
	jmp	4f
6:
	cmpb	$0,1(%rdi,%rax)
	je	4f
7:
	decq	%rdx
	leaq	(%rdi,%rax),%rcx
	incq	%rcx
	callq	rtp_ext.elements.skip_zeros
	testq	%rdx,%rdx
	je	4f
	movzbl	(%rax),%ecx
5:
	cmpb	$-17,%cl
	ja	4f
	movl	%ecx,%eax
	andb	$15,%al
	addb	$2,%al
	movzbl	%al,%r8d
	movq	%r8,%rax
	subq	%rdx,%rax
	ja	4f
	shrb	$4,%cl
	addq	%rsi,%rax
	cmpb	%bpl,%cl
	je	3b
	testb	%cl,%cl
	je	3b
	addq	%r8,%rbx
	incq	%rbx
	jmp	3b
2:
	xorl	%r15d,%r15d
	xorl	%ecx,%ecx
2:
	movq	%rsi,%rdx
	movb	$1,%r14b
	subq	%rcx,%rdx
	je	3f
	addq	%rdi,%rcx
	cmpb	$0,(%rcx)
	je	5f
	movq	%rcx,%rax
	jmp	6f
	.p2align	4
5:
	cmpq	$2,%rdx
	je	5f
	cmpq	$1,%rdx
	je	3f
	cmpq	$3,%rdx
	ja	7f
	cmpb	$0,1(%rcx)
	jne	7f
	cmpb	$0,2(%rcx)
	jne	7f
	jmp	3f
5:
	cmpb	$0,1(%rcx)
	je	3f
7:
	decq	%rdx
	incq	%rcx
	callq	rtp_ext.elements.skip_zeros
	testq	%rdx,%rdx
	je	3f
6:
	cmpq	$2,%rdx
	jb	3f
	movzbl	1(%rax),%r8d
	leaq	2(%r8),%rcx
	subq	%rdx,%rcx
	ja	3f
	movzbl	(%rax),%eax
	addq	%rsi,%rcx
	cmpb	%bpl,%al
	je	2b
	testb	%al,%al
	je	2b
	xorl	%ebx,%ebx
	movl	$0,%r14d
	cmpb	$14,%al
	ja	4f
	leal	-1(%r8),%eax
	cmpb	$15,%al
	ja	4f
	addq	%r8,%r15
	incq	%r15
	jmp	2b
3:
	movq	%r15,%rbx
4:
	movl	%r14d,%eax
	movq	%rbx,%rdx
	addq	$40,%rsp
	popq	%rbx
	popq	%rbp
	popq	%rdi
	popq	%rsi
	popq	%r14
	popq	%r15
	retq
2:
	decq	%rdx
	leaq	(%rdi,%rax),%rcx
	incq	%rcx
	callq	rtp_ext.elements.skip_zeros
	testq	%rdx,%rdx
	je	4b
	movzbl	(%rax),%ecx
3:
	cmpb	$-17,%cl
	ja	4b
	movl	%ecx,%eax
	andb	$15,%al
	addb	$2,%al
	movzbl	%al,%r8d
	movq	%r8,%rax
	subq	%rdx,%rax
	ja	4b
	shrb	$4,%cl
	addq	%rsi,%rax
	cmpb	%bpl,%cl
	je	1f
	testb	%cl,%cl
	je	1f
	addq	%r8,%rbx
	.p2align	4
1:
	movq	%rsi,%rdx
	movb	$1,%r14b
	subq	%rax,%rdx
	je	4b
	movzbl	(%rdi,%rax),%ecx
	testb	%cl,%cl
	jne	3b
	cmpq	$2,%rdx
	je	1f
	cmpq	$1,%rdx
	je	4b
	cmpq	$3,%rdx
	ja	2b
	cmpb	$0,1(%rdi,%rax)
	jne	2b
	cmpb	$0,2(%rdi,%rax)
	jne	2b
	jmp	4b
1:
	cmpb	$0,1(%rdi,%rax)
	jne	2b
	jmp	4b
	.seh_endproc

	.def	rtp_wire.packet.rewriting.has_long_id;
	.scl	3;
	.type	32;
	.endef
	.section	.text$unlikely$rtp_wire.packet.rewriting.has_long_id,"xr"
	.p2align	4
rtp_wire.packet.rewriting.has_long_id:
.seh_proc rtp_wire.packet.rewriting.has_long_id
	subq	$40,%rsp
	.seh_stackalloc 40
	.seh_endprologue
	movq	%rdx,%rax
	testb	%cl,%cl
	je	1f
2:
	testq	%r8,%r8
	je	3f
	cmpb	$0,(%rax)
	je	4f
	cmpq	$2,%r8
	jae	5f
	jmp	3f
	.p2align	4
4:
	cmpq	$2,%r8
	je	4f
	cmpq	$1,%r8
	je	3f
	cmpq	$3,%r8
	ja	6f
	cmpb	$0,1(%rax)
	jne	6f
	cmpb	$0,2(%rax)
	jne	6f
	jmp	3f
4:
	cmpb	$0,1(%rax)
	je	3f
6:
	decq	%r8
	incq	%rax
	movq	%rax,%rcx
	movq	%r8,%rdx
	callq	rtp_ext.elements.skip_zeros
	testq	%rdx,%rdx
	je	3f
	movq	%rdx,%r8
	cmpq	$2,%r8
	jb	3f
5:
	movzbl	1(%rax),%ecx
	addq	$2,%rcx
	subq	%rcx,%r8
	jb	3f
	addq	%rax,%rcx
	cmpb	$15,(%rax)
	movq	%rcx,%rax
	jb	2b
	movb	$1,%cl
2:
	movl	%ecx,%eax
	addq	$40,%rsp
	retq
1:
	testq	%r8,%r8
	je	3f
	.p2align	4
1:
	movzbl	(%rax),%ecx
	testb	%cl,%cl
	jne	4f
	cmpq	$2,%r8
	je	5f
	cmpq	$1,%r8
	je	3f
	cmpq	$3,%r8
	ja	6f
	cmpb	$0,1(%rax)
	jne	6f
	cmpb	$0,2(%rax)
	jne	6f
	jmp	3f
5:
	cmpb	$0,1(%rax)
	je	3f
6:
	decq	%r8
	incq	%rax
	movq	%rax,%rcx
	movq	%r8,%rdx
	callq	rtp_ext.elements.skip_zeros
	testq	%rdx,%rdx
	je	3f
	movq	%rdx,%r8
	movzbl	(%rax),%ecx
4:
	cmpb	$-17,%cl
	ja	3f
	andb	$15,%cl
	movzbl	%cl,%edx
	leaq	2(%rdx),%r9
	xorl	%ecx,%ecx
	subq	%r9,%r8
	jb	2b
	leaq	2(%rax,%rdx),%rax
	jne	1b
	jmp	2b
3:
	xorl	%ecx,%ecx
	movl	%ecx,%eax
	addq	$40,%rsp
	retq
	.seh_endproc

	.def	rtp_wire.packet.resizing.move_bytes;
	.scl	3;
	.type	32;
	.endef
	.section	.text$rtp_wire.packet.resizing.move_bytes,"xr"
	.p2align	4
rtp_wire.packet.resizing.move_bytes:
.seh_proc rtp_wire.packet.resizing.move_bytes
	pushq	%rsi
	.seh_pushreg %rsi
	pushq	%rdi
	.seh_pushreg %rdi
	pushq	%rbx
	.seh_pushreg %rbx
	.seh_endprologue
	movq	%r9,%rax
	subq	%rdx,%rax
	jne	1f
2:
	popq	%rbx
	popq	%rdi
	popq	%rsi
	retq
1:
	jbe	1f
	cmpq	$8,%rax
	je	3f
	cmpq	$4,%rax
	jne	4f
	subq	%rdx,%r8
	je	2b
	leaq	(%rcx,%rdx),%rax
	addq	%rdx,%rcx
	addq	$4,%rcx
	jmp	5f
1:
	movq	%rdx,%r10
	subq	%r9,%r10
	cmpq	$8,%r10
	je	1f
	cmpq	$4,%r10
	jne	6f
	subq	%rdx,%r8
	je	2b
	leaq	(%rcx,%rdx),%rax
	addq	%rdx,%rcx
	addq	$-4,%rcx
	jmp	5f
3:
	subq	%rdx,%r8
	je	2b
	leaq	(%rcx,%rdx),%rax
	addq	%rdx,%rcx
	addq	$8,%rcx
	jmp	5f
1:
	subq	%rdx,%r8
	je	2b
	leaq	(%rcx,%rdx),%rax
	addq	%rdx,%rcx
	addq	$-8,%rcx
5:
	movq	%rax,%rdx
	popq	%rbx
	popq	%rdi
	popq	%rsi
	jmp	memmove
4:
	movq	%r8,%r10
	subq	%rdx,%r10
	je	2b
	cmpq	$8,%r10
	setb	%r11b
	movq	%rdx,%rsi
	subq	%r9,%rsi
	cmpq	$32,%rsi
	setb	%bl
	orb	%r11b,%bl
	je	1f
3:
	movq	%r10,%r11
	jmp	4f
6:
	subq	%rdx,%r8
	je	2b
	leaq	(%rcx,%rdx),%r10
	leaq	(%rcx,%r9),%r11
	cmpq	$4,%r8
	setb	%bl
	cmpq	$32,%rax
	setb	%al
	orb	%bl,%al
	je	5f
	xorl	%eax,%eax
	jmp	6f
1:
	cmpq	$32,%r10
	jae	1f
	xorl	%esi,%esi
	jmp	7f
5:
	cmpq	$32,%r8
	jae	5f
	xorl	%eax,%eax
	jmp	8f
1:
	movq	%r10,%rsi
	andq	$-32,%rsi
	leaq	(%r8,%rcx),%r11
	addq	$-16,%r11
	movq	%rsi,%rdi
	.p2align	4
1:
	movups	-16(%r11),%xmm0
	movups	(%r11),%xmm1
	movups	%xmm1,(%r11,%rax)
	movups	%xmm0,-16(%r11,%rax)
	addq	$-32,%r11
	addq	$-32,%rdi
	jne	1b
	cmpq	%rsi,%r10
	je	2b
	testb	$24,%r10b
	je	1f
7:
	movq	%r10,%rdi
	andq	$-8,%rdi
	movl	%r10d,%r11d
	andl	$7,%r11d
	subq	%rsi,%r8
	addq	%rcx,%r8
	addq	$-8,%r8
	subq	%rdi,%rsi
	.p2align	4
7:
	movq	(%r8),%rbx
	movq	%rbx,(%r8,%rax)
	addq	$-8,%r8
	addq	$8,%rsi
	jne	7b
	cmpq	%rdi,%r10
	je	2b
4:
	leaq	-1(%r11),%rax
	movq	%r11,%r8
	andq	$3,%r8
	je	4f
	leaq	(%r9,%rcx),%r10
	decq	%r10
	leaq	(%rdx,%rcx),%rsi
	decq	%rsi
	.p2align	4
7:
	movzbl	(%rsi,%r11),%ebx
	movb	%bl,(%r10,%r11)
	decq	%r11
	decq	%r8
	jne	7b
4:
	cmpq	$3,%rax
	jb	2b
	leaq	(%r9,%rcx),%rax
	decq	%rax
	addq	%rdx,%rcx
	decq	%rcx
	movq	%r11,%rdx
	.p2align	4
4:
	movzbl	(%rcx,%r11),%r8d
	movb	%r8b,(%rax,%r11)
	movzbl	-1(%rcx,%r11),%r8d
	movb	%r8b,-1(%rax,%r11)
	movzbl	-2(%rcx,%r11),%r8d
	movb	%r8b,-2(%rax,%r11)
	addq	$-4,%rdx
	movzbl	-3(%rcx,%r11),%r8d
	movb	%r8b,-3(%rax,%r11)
	movq	%rdx,%r11
	jne	4b
	jmp	2b
5:
	movq	%r8,%rax
	andq	$-32,%rax
	addq	%rcx,%r9
	addq	$16,%r9
	addq	%rdx,%rcx
	addq	$16,%rcx
	xorl	%edx,%edx
	.p2align	4
4:
	movups	-16(%rcx,%rdx),%xmm0
	movups	(%rcx,%rdx),%xmm1
	movups	%xmm0,-16(%r9,%rdx)
	movups	%xmm1,(%r9,%rdx)
	addq	$32,%rdx
	cmpq	%rdx,%rax
	jne	4b
	cmpq	%rax,%r8
	je	2b
	testb	$28,%r8b
	je	6f
8:
	movq	%rax,%rcx
	movq	%r8,%rax
	andq	$-4,%rax
	.p2align	4
4:
	movl	(%r10,%rcx),%edx
	movl	%edx,(%r11,%rcx)
	addq	$4,%rcx
	cmpq	%rcx,%rax
	jne	4b
	jmp	4f
1:
	andl	$31,%r10d
	jmp	3b
6:
	movzbl	(%r10,%rax),%ecx
	movb	%cl,(%r11,%rax)
	incq	%rax
4:
	cmpq	%rax,%r8
	jne	6b
	jmp	2b
	.seh_endproc

	.def	rtp_ext.gathering.gather_around;
	.scl	3;
	.type	32;
	.endef
	.section	.text$rtp_ext.gathering.gather_around,"xr"
	.p2align	4
rtp_ext.gathering.gather_around:
.seh_proc rtp_ext.gathering.gather_around
	pushq	%r15
	.seh_pushreg %r15
	pushq	%r14
	.seh_pushreg %r14
	pushq	%rsi
	.seh_pushreg %rsi
	pushq	%rdi
	.seh_pushreg %rdi
	pushq	%rbp
	.seh_pushreg %rbp
	pushq	%rbx
	.seh_pushreg %rbx
	subq	$40,%rsp
	.seh_stackalloc 40
	.seh_endprologue
	movq	%r9,%rsi
	movq	%rdx,%rdi
	movl	%ecx,%ebx
	movq	128(%rsp),%r14
	movzbl	136(%rsp),%ebp
	movl	%ebp,%r9d
	callq	rtp_ext.gathering.gather
	movq	%rax,%r15
	addq	%rsi,%rdi
	subq	%rsi,%r14
	movl	%ebx,%ecx
	movq	%rdi,%rdx
	movq	%r14,%r8
	movl	%ebp,%r9d
	callq	rtp_ext.gathering.gather
	movq	%rax,%rdx
	movq	%r15,%rax
	addq	$40,%rsp
	popq	%rbx
	popq	%rbp
	popq	%rdi
	popq	%rsi
	popq	%r14
	popq	%r15
	retq
	.seh_endproc

	.def	rtp_ext.gathering.gather;
	.scl	3;
	.type	32;
	.endef
	.section	.text$rtp_ext.gathering.gather,"xr"
	.p2align	4
rtp_ext.gathering.gather:
.seh_proc rtp_ext.gathering.gather
	pushq	%r15
	.seh_pushreg %r15
	pushq	%r14
	.seh_pushreg %r14
	pushq	%r13
	.seh_pushreg %r13
	pushq	%r12
	.seh_pushreg %r12
	pushq	%rsi
	.seh_pushreg %rsi
	pushq	%rdi
	.seh_pushreg %rdi
	pushq	%rbp
	.seh_pushreg %rbp
	pushq	%rbx
	.seh_pushreg %rbx
	subq	$40,%rsp
	.seh_stackalloc 40
	.seh_endprologue
	movl	%r9d,%ebx
	movq	%r8,%rdi
	movq	%rdx,%r14
	testb	%cl,%cl
	je	1f
	leaq	16(%r14),%r13
	leaq	(%r14,%rdi),%rbp
	addq	$16,%rbp
	leaq	3(%r14),%r15
	xorl	%esi,%esi
	xorl	%ecx,%ecx
2:
	movq	%rdi,%rdx
	subq	%rcx,%rdx
	je	3f
	addq	%r14,%rcx
	cmpb	$0,(%rcx)
	je	4f
	movq	%rcx,%rax
	jmp	5f
	.p2align	4
4:
	cmpq	$2,%rdx
	je	4f
	cmpq	$1,%rdx
	je	3f
	cmpq	$3,%rdx
	ja	6f
	cmpb	$0,1(%rcx)
	jne	6f
	cmpb	$0,2(%rcx)
	jne	6f
	jmp	3f
4:
	cmpb	$0,1(%rcx)
	je	3f
6:
	decq	%rdx
	incq	%rcx
	callq	rtp_ext.elements.skip_zeros
	testq	%rdx,%rdx
	je	3f
5:
	cmpq	$2,%rdx
	jb	3f
	movzbl	1(%rax),%r9d
	leaq	2(%r9),%rcx
	subq	%rdx,%rcx
	ja	3f
	addq	%rdi,%rcx
	cmpb	%bl,(%rax)
	je	2b
	movq	%rcx,%rax
	subq	%r9,%rax
	leaq	-2(%rax),%r10
	cmpq	%r10,%rsi
	jae	4f
	movq	%rcx,%r8
	subq	%r10,%r8
	je	4f
	addq	%r14,%r10
	leaq	(%r14,%rsi),%r11
	cmpq	$4,%r8
	movq	%rax,32(%rsp)
	jb	5f
	movq	%r15,%rax
	movq	%rsi,%r15
	subq	%rdi,%r15
	addq	%rdx,%r15
	cmpq	$32,%r15
	jae	6f
5:
	xorl	%r12d,%r12d
5:
	movl	%r9d,%r13d
	andl	$3,%r13d
	movq	%r12,%r15
	cmpq	$2,%r13
	je	7f
	movl	$1,%ebp
	movq	%r12,%r15
	.p2align	4
8:
	movzbl	(%r10,%r15),%eax
	movb	%al,(%r11,%r15)
	incq	%r15
	movq	%r13,%rax
	xorq	%rbp,%rax
	incq	%rbp
	cmpq	$2,%rax
	jne	8b
7:
	subq	%r12,%r9
	incq	%r9
	cmpq	$3,%r9
	jae	7f
	leaq	16(%r14),%r13
	leaq	(%r14,%rdi),%rbp
	addq	$16,%rbp
	jmp	8f
7:
	leaq	3(%r14),%rax
	leaq	(%rax,%rsi),%r9
	leaq	(%r14,%rdi),%r10
	addq	$3,%r10
	subq	%rdx,%r10
	leaq	16(%r14),%r13
	leaq	(%r14,%rdi),%rbp
	addq	$16,%rbp
	.p2align	4
7:
	movzbl	-3(%r10,%r15),%eax
	movb	%al,-3(%r9,%r15)
	movzbl	-2(%r10,%r15),%eax
	movb	%al,-2(%r9,%r15)
	movzbl	-1(%r10,%r15),%eax
	movb	%al,-1(%r9,%r15)
	movzbl	(%r10,%r15),%eax
	movb	%al,(%r9,%r15)
	addq	$4,%r15
	cmpq	%r15,%r8
	jne	7b
8:
	leaq	3(%r14),%r15
7:
	movq	32(%rsp),%rax
4:
	addq	%rcx,%rsi
	subq	%rax,%rsi
	addq	$2,%rsi
	jmp	2b
6:
	cmpq	$32,%r8
	jae	2f
	xorl	%r12d,%r12d
	jmp	6f
2:
	movq	%r8,%r12
	andq	$-32,%r12
	leaq	(%rsi,%r13),%r15
	movq	%rbp,%r13
	subq	%rdx,%r13
	xorl	%ebp,%ebp
2:
	movups	-16(%r13,%rbp),%xmm0
	movups	(%r13,%rbp),%xmm1
	movups	%xmm0,-16(%r15,%rbp)
	movups	%xmm1,(%r15,%rbp)
	addq	$32,%rbp
	cmpq	%rbp,%r12
	jne	2b
	cmpq	%r12,%r8
	jne	2f
	leaq	16(%r14),%r13
	leaq	(%r14,%rdi),%rbp
	addq	$16,%rbp
	movq	%rax,%r15
	jmp	7b
2:
	testb	$28,%r8b
	je	5b
6:
	movq	%r12,%r15
	movq	%r8,%r12
	andq	$-4,%r12
2:
	movl	(%r10,%r15),%ebp
	movl	%ebp,(%r11,%r15)
	addq	$4,%r15
	cmpq	%r15,%r12
	jne	2b
	cmpq	%r12,%r8
	leaq	16(%r14),%r13
	leaq	16(%r14,%rdi),%rbp
	movq	%rax,%r15
	movq	32(%rsp),%rax
	je	4b
	jmp	5b
1:
	leaq	(%r14,%rdi),%r15
	xorl	%eax,%eax
	xorl	%esi,%esi
	.p2align	4
1:
	movq	%rdi,%rdx
	subq	%rax,%rdx
	je	3f
	movzbl	(%r14,%rax),%r9d
	leal	16(%r9),%ecx
	cmpb	$32,%cl
	jae	2f
	testb	%r9b,%r9b
	je	4f
	cmpb	$-17,%r9b
	jbe	5f
	jmp	3f
	.p2align	4
2:
	movzbl	%r9b,%ecx
	andl	$15,%ecx
	addq	$2,%rcx
	movq	%rcx,%r8
	subq	%rdx,%r8
	ja	5f
	jmp	2f
4:
	cmpq	$2,%rdx
	je	4f
	cmpq	$1,%rdx
	je	3f
	cmpq	$3,%rdx
	ja	6f
	cmpb	$0,1(%r14,%rax)
	jne	6f
	cmpb	$0,2(%r14,%rax)
	jne	6f
	jmp	3f
4:
	cmpb	$0,1(%r14,%rax)
	je	3f
6:
	decq	%rdx
	leaq	(%r14,%rax),%rcx
	incq	%rcx
	callq	rtp_ext.elements.skip_zeros
	testq	%rdx,%rdx
	je	3f
	movzbl	(%rax),%r9d
	cmpb	$-17,%r9b
	ja	3f
	.p2align	4
5:
	movl	%r9d,%eax
	andb	$15,%al
	addb	$2,%al
	movzbl	%al,%ecx
	movq	%rcx,%r8
	subq	%rdx,%r8
	ja	3f
2:
	shrb	$4,%r9b
	leaq	(%r8,%rdi),%rax
	cmpb	%bl,%r9b
	je	1b
	testb	%r9b,%r9b
	je	1b
	movq	%rax,%r10
	subq	%rcx,%r10
	cmpq	%r10,%rsi
	jae	2f
	leaq	(%r14,%rsi),%rdx
	cmpl	$4,%ecx
	jb	4f
	leaq	(%rsi,%rcx),%r9
	subq	%rax,%r9
	cmpq	$16,%r9
	jae	5f
4:
	xorl	%r9d,%r9d
4:
	movq	%r15,%r12
	movq	%rcx,%r11
	movq	%r9,%r10
	andq	$3,%r11
	je	6f
	movq	%r8,%r15
	subq	%rcx,%r15
	addq	%r12,%r15
	addq	%r9,%r15
	xorl	%ebp,%ebp
	movq	%r9,%r10
	.p2align	4
7:
	movzbl	(%r15,%rbp),%r13d
	movb	%r13b,(%rdx,%r10)
	incq	%r10
	incq	%rbp
	cmpq	%rbp,%r11
	jne	7b
6:
	subl	%ecx,%r9d
	cmpl	$-4,%r9d
	leaq	3(%r14,%rdi),%r11
	movq	%r12,%r15
	leaq	3(%r14),%r12
	ja	2f
	movq	%rcx,%rdx
	subq	%r10,%rdx
	leaq	(%r10,%rsi),%r9
	addq	%r12,%r9
	addq	%r11,%r10
	subq	%rcx,%r8
	addq	%r10,%r8
	xorl	%r10d,%r10d
	.p2align	4
6:
	movzbl	-3(%r8,%r10),%r11d
	movb	%r11b,-3(%r9,%r10)
	movzbl	-2(%r8,%r10),%r11d
	movb	%r11b,-2(%r9,%r10)
	movzbl	-1(%r8,%r10),%r11d
	movb	%r11b,-1(%r9,%r10)
	movzbl	(%r8,%r10),%r11d
	movb	%r11b,(%r9,%r10)
	addq	$4,%r10
	cmpq	%r10,%rdx
	jne	6b
2:
	addq	%rcx,%rsi
	jmp	1b
5:
	cmpl	$16,%ecx
	jae	1f
	xorl	%r9d,%r9d
	jmp	5f
1:
	movl	%ecx,%r9d
	andl	$-16,%r9d
	movups	(%r14,%r10),%xmm0
	movups	%xmm0,(%rdx)
	cmpq	%r9,%rcx
	je	2b
	testb	$12,%cl
	je	4b
5:
	movq	%r9,%rbp
	movl	%ecx,%r9d
	andl	$-4,%r9d
	movq	%r9,%r10
	subq	%rbp,%r10
	leaq	(%rdx,%rbp),%r11
	movq	%r15,%r12
	addq	%r15,%rbp
	movq	%r8,%r15
	subq	%rcx,%r15
	addq	%rbp,%r15
	xorl	%ebp,%ebp
	.p2align	4
1:
	movl	(%r15,%rbp),%r13d
	movl	%r13d,(%r11,%rbp)
	addq	$4,%rbp
	cmpq	%rbp,%r10
	jne	1b
	cmpl	%r9d,%ecx
	movq	%r12,%r15
	je	2b
	jmp	4b
3:
	movq	%rsi,%rax
	addq	$40,%rsp
	popq	%rbx
	popq	%rbp
	popq	%rdi
	popq	%rsi
	popq	%r12
	popq	%r13
	popq	%r14
	popq	%r15
	retq
	.seh_endproc

	.def	rtp_ext.form_change.change_rows;
	.scl	3;
	.type	32;
	.endef
	.section	.text$rtp_ext.form_change.change_rows,"xr"
	.p2align	4
rtp_ext.form_change.change_rows:
.seh_proc rtp_ext.form_change.change_rows
	pushq	%r15
	.seh_pushreg %r15
	pushq	%r14
	.seh_pushreg %r14
	pushq	%r13
	.seh_pushreg %r13
	pushq	%r12
	.seh_pushreg %r12
	pushq	%rsi
	.seh_pushreg %rsi
	pushq	%rdi
	.seh_pushreg %rdi
	pushq	%rbp
	.seh_pushreg %rbp
	pushq	%rbx
	.seh_pushreg %rbx
	subq	$40,%rsp
	.seh_stackalloc 40
	.seh_endprologue
	movq	%r8,%rsi
	movq	152(%rsp),%rdi
	movq	144(%rsp),%rax
	subq	%rdi,%r8
	cmpq	%rax,%r8
	jbe	1f
	testq	%rdi,%rdi
	je	2f
	movq	%rdi,%r10
	cmpq	$8,%rdi
	jb	3f
	leaq	(%rdi,%rax),%rbx
	movq	%rbx,%r11
	subq	%rsi,%r11
	movq	%rdi,%r10
	cmpq	$32,%r11
	jb	3f
	cmpq	$32,%rdi
	jae	4f
	xorl	%r11d,%r11d
	jmp	5f
1:
	testq	%rdi,%rdi
	je	2f
	leaq	(%rdx,%rax),%r10
	leaq	(%rdx,%r8),%r11
	cmpq	$4,%rdi
	jb	1f
	movq	%rsi,%r14
	subq	%rdi,%r14
	subq	%rax,%r14
	cmpq	$32,%r14
	jae	6f
1:
	xorl	%ebx,%ebx
1:
	movq	%rdi,%r15
	movq	%rbx,%r14
	andq	$3,%r15
	je	7f
	movq	%rbx,%r14
	.p2align	4
8:
	movzbl	(%r10,%r14),%ebp
	movb	%bpl,(%r11,%r14)
	incq	%r14
	decq	%r15
	jne	8b
7:
	subq	%rdi,%rbx
	cmpq	$-4,%rbx
	ja	2f
	leaq	(%r8,%rdx),%r10
	addq	$3,%r10
	addq	%rdx,%rax
	addq	$3,%rax
	.p2align	4
7:
	movzbl	-3(%rax,%r14),%r11d
	movb	%r11b,-3(%r10,%r14)
	movzbl	-2(%rax,%r14),%r11d
	movb	%r11b,-2(%r10,%r14)
	movzbl	-1(%rax,%r14),%r11d
	movb	%r11b,-1(%r10,%r14)
	movzbl	(%rax,%r14),%r11d
	movb	%r11b,(%r10,%r14)
	addq	$4,%r14
	cmpq	%r14,%rdi
	jne	7b
	jmp	2f
6:
	cmpq	$32,%rdi
	jae	6f
	xorl	%ebx,%ebx
	jmp	7f
4:
	movq	%rdi,%r11
	andq	$-32,%r11
	leaq	(%rdx,%rbx),%r10
	addq	$-16,%r10
	leaq	(%rsi,%rdx),%r14
	addq	$-16,%r14
	movq	%r11,%r15
	negq	%r15
	xorl	%r12d,%r12d
	.p2align	4
4:
	movups	-16(%r10,%r12),%xmm0
	movups	(%r10,%r12),%xmm1
	movups	%xmm1,(%r14,%r12)
	movups	%xmm0,-16(%r14,%r12)
	addq	$-32,%r12
	cmpq	%r12,%r15
	jne	4b
	cmpq	%r11,%rdi
	je	2f
	testb	$24,%dil
	je	4f
5:
	movq	%rdi,%r14
	andq	$-8,%r14
	movl	%edi,%r10d
	andl	$7,%r10d
	addq	%rdx,%rbx
	addq	$-8,%rbx
	negq	%r11
	leaq	(%rsi,%rdx),%r15
	addq	$-8,%r15
	movq	%r14,%r12
	negq	%r12
	.p2align	4
5:
	movq	(%rbx,%r11),%r13
	movq	%r13,(%r15,%r11)
	addq	$-8,%r11
	cmpq	%r11,%r12
	jne	5b
	cmpq	%r14,%rdi
	je	2f
3:
	leaq	-1(%r10),%r11
	movq	%r10,%rbx
	andq	$3,%rbx
	je	3f
5:
	movq	%rdi,%r14
	notq	%r14
	addq	%rdx,%r14
	addq	%rsi,%r14
	leaq	(%rax,%rdx),%r15
	decq	%r15
	.p2align	4
8:
	movzbl	(%r15,%r10),%ebp
	movb	%bpl,(%r14,%r10)
	decq	%r10
	decq	%rbx
	jne	8b
3:
	cmpq	$3,%r11
	jb	2f
	movq	%rdi,%r11
	notq	%r11
	addq	%rdx,%r11
	addq	%rsi,%r11
	addq	%rdx,%rax
	decq	%rax
	movq	%r10,%rbx
	.p2align	4
8:
	movzbl	(%rax,%r10),%ebp
	movb	%bpl,(%r11,%r10)
	movzbl	-1(%rax,%r10),%ebp
	movb	%bpl,-1(%r11,%r10)
	movzbl	-2(%rax,%r10),%ebp
	movb	%bpl,-2(%r11,%r10)
	addq	$-4,%rbx
	movzbl	-3(%rax,%r10),%ebp
	movb	%bpl,-3(%r11,%r10)
	movq	%rbx,%r10
	jne	8b
2:
	cmpq	%r9,%r8
	je	8f
	testq	%r9,%r9
	je	8f
	movq	%r9,%rax
	cmpq	$8,%r9
	jb	9f
	leaq	(%rdi,%r9),%r10
	subq	%rsi,%r10
	movq	%r9,%rax
	cmpq	$32,%r10
	jb	9f
	cmpq	$32,%r9
	jae	10f
	xorl	%r10d,%r10d
	jmp	11f
10:
	movq	%r9,%r10
	andq	$-32,%r10
	leaq	(%r9,%rdx),%rax
	addq	$-16,%rax
	leaq	(%r8,%rdx),%r11
	addq	$-16,%r11
	movq	%r10,%rbx
	negq	%rbx
	xorl	%r14d,%r14d
	.p2align	4
10:
	movups	-16(%rax,%r14),%xmm0
	movups	(%rax,%r14),%xmm1
	movups	%xmm1,(%r11,%r14)
	movups	%xmm0,-16(%r11,%r14)
	addq	$-32,%r14
	cmpq	%r14,%rbx
	jne	10b
	cmpq	%r10,%r9
	je	8f
	testb	$24,%r9b
	je	10f
11:
	movq	%r9,%r11
	andq	$-8,%r11
	movl	%r9d,%eax
	andl	$7,%eax
	leaq	(%r9,%rdx),%rbx
	addq	$-8,%rbx
	negq	%r10
	leaq	(%r8,%rdx),%r14
	addq	$-8,%r14
	movq	%r11,%r15
	negq	%r15
	.p2align	4
11:
	movq	(%rbx,%r10),%r12
	movq	%r12,(%r14,%r10)
	addq	$-8,%r10
	cmpq	%r10,%r15
	jne	11b
	cmpq	%r11,%r9
	je	8f
9:
	leaq	-1(%rax),%r11
	movq	%rax,%rbx
	movq	%rdi,%r10
	notq	%r10
	andq	$3,%rbx
	je	11f
	movq	%rax,%r14
	negq	%r14
	addq	%rsi,%rax
	addq	%r10,%rax
	subq	%r9,%rax
	addq	%rdx,%rax
	leaq	(%rdx,%r11),%r15
	negq	%rbx
	xorl	%r12d,%r12d
	.p2align	4
12:
	movzbl	(%r15,%r12),%ebp
	movb	%bpl,(%rax,%r12)
	incq	%r14
	decq	%r12
	cmpq	%r12,%rbx
	jne	12b
	negq	%r14
	movq	%r14,%rax
11:
	cmpq	$3,%r11
	jb	8f
	movq	%rax,%r11
	negq	%r11
	addq	%rax,%r10
	addq	%rsi,%r10
	subq	%r9,%r10
	addq	%rdx,%r10
	addq	%rdx,%rax
	decq	%rax
	xorl	%ebx,%ebx
	.p2align	4
11:
	movzbl	(%rax,%rbx),%ebp
	movb	%bpl,(%r10,%rbx)
	movzbl	-1(%rax,%rbx),%ebp
	movb	%bpl,-1(%r10,%rbx)
	movzbl	-2(%rax,%rbx),%ebp
	movb	%bpl,-2(%r10,%rbx)
	movzbl	-3(%rax,%rbx),%ebp
	movb	%bpl,-3(%r10,%rbx)
	addq	$-4,%rbx
	cmpq	%rbx,%r11
	jne	11b
8:
	movl	%ecx,%ebx
	movq	%rdx,%r14
	callq	rtp_ext.form_change.change_row
	movq	%rax,%r15
	addq	%rax,%r14
	subq	%rax,%rsi
	movl	%ebx,%ecx
	movq	%r14,%rdx
	movq	%rsi,%r8
	movq	%rdi,%r9
	callq	rtp_ext.form_change.change_row
	movq	%rax,%rdx
	movq	%r15,%rax
	addq	$40,%rsp
	popq	%rbx
	popq	%rbp
	popq	%rdi
	popq	%rsi
	popq	%r12
	popq	%r13
	popq	%r14
	popq	%r15
	retq
6:
	movq	%rdi,%rbx
	andq	$-32,%rbx
	leaq	(%r8,%rdx),%r14
	addq	$16,%r14
	leaq	(%rax,%rdx),%r15
	addq	$16,%r15
	xorl	%r12d,%r12d
	.p2align	4
6:
	movups	-16(%r15,%r12),%xmm0
	movups	(%r15,%r12),%xmm1
	movups	%xmm0,-16(%r14,%r12)
	movups	%xmm1,(%r14,%r12)
	addq	$32,%r12
	cmpq	%r12,%rbx
	jne	6b
	cmpq	%rbx,%rdi
	je	2b
	testb	$28,%dil
	je	1b
7:
	movq	%rbx,%r14
	movq	%rdi,%rbx
	andq	$-4,%rbx
	.p2align	4
6:
	movl	(%r10,%r14),%ebp
	movl	%ebp,(%r11,%r14)
	addq	$4,%r14
	cmpq	%r14,%rbx
	jne	6b
	cmpq	%rbx,%rdi
	je	2b
	jmp	1b
10:
	movl	%r9d,%eax
	andl	$31,%eax
	jmp	9b
4:
	movl	%edi,%r10d
	andl	$31,%r10d
	leaq	-1(%r10),%r11
	movq	%r10,%rbx
	andq	$3,%rbx
	jne	5b
	jmp	3b
	.seh_endproc

	.def	rtp_ext.form_change.change_row;
	.scl	3;
	.type	32;
	.endef
	.section	.text$rtp_ext.form_change.change_row,"xr"
	.p2align	4
rtp_ext.form_change.change_row:
.seh_proc rtp_ext.form_change.change_row
	pushq	%r15
	.seh_pushreg %r15
	pushq	%r14
	.seh_pushreg %r14
	pushq	%r13
	.seh_pushreg %r13
	pushq	%r12
	.seh_pushreg %r12
	pushq	%rsi
	.seh_pushreg %rsi
	pushq	%rdi
	.seh_pushreg %rdi
	pushq	%rbp
	.seh_pushreg %rbp
	pushq	%rbx
	.seh_pushreg %rbx
	subq	$88,%rsp
	.seh_stackalloc 88
	.seh_endprologue
	movq	%r8,%r12
	movq	%rdx,%rdi
	testb	%cl,%cl
	je	1f
	testq	%r9,%r9
	je	2f
	movq	%r12,%rsi
	subq	%r9,%rsi
	leaq	1(%r12),%rax
	movq	%rax,80(%rsp)
	leaq	(%rdi,%r12),%rax
	addq	$5,%rax
	movq	%rax,64(%rsp)
	leaq	-6(%rdi,%r12),%rax
	movq	%rax,56(%rsp)
	leaq	1(%rdi,%r12),%rax
	movq	%rax,40(%rsp)
	leaq	(%rdi,%r12),%rax
	movq	%rax,72(%rsp)
	xorl	%r13d,%r13d
	movq	%r12,32(%rsp)
	jmp	3f
	.p2align	4
4:
	rolb	$4,%r11b
	addb	%r15b,%r11b
	decb	%r11b
	movb	%r11b,(%rdi,%r13)
	addq	%r15,%rax
	negq	%r8
	movq	%rax,%r13
	cmpq	%r9,%rdx
	movq	%r8,%r9
	je	5f
3:
	leaq	(%rdi,%rsi),%rax
	cmpb	$0,(%rdi,%rsi)
	je	3f
	cmpq	$2,%r9
	jae	6f
	jmp	7f
	.p2align	4
3:
	cmpq	$2,%r9
	je	3f
	cmpq	$1,%r9
	je	7f
	cmpq	$3,%r9
	ja	8f
	cmpb	$0,1(%rax)
	jne	8f
	cmpb	$0,2(%rax)
	jne	8f
	jmp	7f
3:
	cmpb	$0,1(%rax)
	je	7f
8:
	decq	%r9
	incq	%rax
	movq	%rax,%rcx
	movq	%r9,%rdx
	callq	rtp_ext.elements.skip_zeros
	testq	%rdx,%rdx
	je	7f
	movq	%rdx,%r9
	cmpq	$2,%r9
	jb	7f
6:
	movzbl	1(%rax),%r15d
	leaq	2(%r15),%rdx
	movq	%rdx,%r8
	subq	%r9,%r8
	ja	7f
	movzbl	(%rax),%r11d
	leaq	(%r8,%r12),%rsi
	movq	%rsi,%rcx
	subq	%r15,%rcx
	leaq	1(%r13),%rax
	cmpq	%rcx,%rax
	jbe	3f
	testq	%r15,%r15
	je	4b
	movq	%r15,%r10
	cmpb	$8,%r15b
	jb	6f
	movq	80(%rsp),%rbx
	subq	%r9,%rbx
	subq	%r13,%rbx
	movq	%r15,%r10
	cmpq	$32,%rbx
	jb	6f
	cmpb	$32,%r15b
	jae	8f
	xorl	%r14d,%r14d
	jmp	9f
	.p2align	4
3:
	testq	%r15,%r15
	je	4b
	addq	%rdi,%rcx
	leaq	(%rdi,%rax),%rbp
	cmpb	$4,%r15b
	jb	3f
	movq	%r12,%rbx
	subq	%r9,%rbx
	subq	%r13,%rbx
	cmpq	$-33,%rbx
	jbe	10f
3:
	xorl	%ebx,%ebx
3:
	movq	%r15,%r10
	movq	%rbx,%r14
	andq	$3,%r10
	je	11f
	movq	%rbx,%r14
	.p2align	4
12:
	movzbl	(%rcx,%r14),%r12d
	movb	%r12b,(%rbp,%r14)
	incq	%r14
	decq	%r10
	jne	12b
11:
	subl	%r15d,%ebx
	cmpl	$-4,%ebx
	movq	32(%rsp),%r12
	ja	4b
	leaq	4(%rdi),%rcx
	addq	%r13,%rcx
	movq	64(%rsp),%r10
	subq	%r9,%r10
	.p2align	4
11:
	movzbl	-3(%r10,%r14),%ebx
	movb	%bl,-3(%rcx,%r14)
	movzbl	-2(%r10,%r14),%ebx
	movb	%bl,-2(%rcx,%r14)
	movzbl	-1(%r10,%r14),%ebx
	movb	%bl,-1(%rcx,%r14)
	movzbl	(%r10,%r14),%ebx
	movb	%bl,(%rcx,%r14)
	addq	$4,%r14
	cmpq	%r14,%r15
	jne	11b
	jmp	4b
10:
	cmpb	$32,%r15b
	jae	10f
	xorl	%ebx,%ebx
	jmp	11f
8:
	addq	%rdi,%rcx
	leaq	(%rdi,%rax),%r10
	movl	%r15d,%r14d
	andl	$-32,%r14d
	movups	-32(%rcx,%r15),%xmm0
	movups	-16(%rcx,%r15),%xmm1
	movups	%xmm1,-16(%r10,%r15)
	movups	%xmm0,-32(%r10,%r15)
	cmpq	$32,%r14
	je	8f
	movups	-64(%rcx,%r15),%xmm0
	movups	-48(%rcx,%r15),%xmm1
	movups	%xmm1,-48(%r10,%r15)
	movups	%xmm0,-64(%r10,%r15)
	cmpl	$64,%r14d
	je	8f
	movups	-96(%rcx,%r15),%xmm0
	movups	-80(%rcx,%r15),%xmm1
	movups	%xmm1,-80(%r10,%r15)
	movups	%xmm0,-96(%r10,%r15)
	cmpl	$96,%r14d
	je	8f
	movups	-128(%rcx,%r15),%xmm0
	movups	-112(%rcx,%r15),%xmm1
	movups	%xmm1,-112(%r10,%r15)
	movups	%xmm0,-128(%r10,%r15)
	cmpl	$128,%r14d
	je	8f
	movups	-160(%rcx,%r15),%xmm0
	movups	-144(%rcx,%r15),%xmm1
	movups	%xmm1,-144(%r10,%r15)
	movups	%xmm0,-160(%r10,%r15)
	cmpl	$160,%r14d
	je	8f
	movups	-192(%rcx,%r15),%xmm0
	movups	-176(%rcx,%r15),%xmm1
	movups	%xmm1,-176(%r10,%r15)
	movups	%xmm0,-192(%r10,%r15)
	cmpl	$192,%r14d
	je	8f
	movups	-224(%rcx,%r15),%xmm0
	movups	-208(%rcx,%r15),%xmm1
	movups	%xmm1,-208(%r10,%r15)
	movups	%xmm0,-224(%r10,%r15)
8:
	cmpl	%r15d,%r14d
	je	4b
	testb	$24,%r15b
	je	8f
9:
	movl	%r15d,%r12d
	andl	$-8,%r12d
	movl	%r15d,%r10d
	andl	$7,%r10d
	movq	%r15,%rbx
	subq	%r14,%rbx
	subq	%r9,%rbx
	addq	56(%rsp),%rbx
	leaq	(%r15,%r13),%rbp
	subq	%r14,%rbp
	leaq	-7(%rdi),%rcx
	addq	%rcx,%rbp
	movq	%r12,48(%rsp)
	subq	%r12,%r14
	xorl	%ecx,%ecx
	.p2align	4
9:
	movq	(%rbx,%rcx),%r12
	movq	%r12,(%rbp,%rcx)
	addq	$-8,%rcx
	cmpq	%rcx,%r14
	jne	9b
	cmpl	%r15d,48(%rsp)
	movq	32(%rsp),%r12
	je	4b
	.p2align	4
6:
	movq	%r10,%rbx
	movq	%r10,%rcx
	andq	$3,%rbx
	je	6f
9:
	leaq	(%rdi,%r13),%r14
	movq	40(%rsp),%rbp
	subq	%r9,%rbp
	movq	%r10,%rcx
	.p2align	4
12:
	movzbl	(%rbp,%rcx),%r12d
	movb	%r12b,(%r14,%rcx)
	decq	%rcx
	decq	%rbx
	jne	12b
6:
	decq	%r10
	cmpl	$3,%r10d
	movq	32(%rsp),%r12
	jb	4b
	leaq	(%rdi,%r13),%r10
	movq	72(%rsp),%rbx
	subq	%r9,%rbx
	movq	%rcx,%r14
	.p2align	4
12:
	movzbl	1(%rbx,%rcx),%ebp
	movb	%bpl,(%r10,%rcx)
	movzbl	(%rbx,%rcx),%ebp
	movb	%bpl,-1(%r10,%rcx)
	movzbl	-1(%rbx,%rcx),%ebp
	movb	%bpl,-2(%r10,%rcx)
	addq	$-4,%r14
	movzbl	-2(%rbx,%rcx),%ebp
	movb	%bpl,-3(%r10,%rcx)
	movq	%r14,%rcx
	jne	12b
	jmp	4b
10:
	movl	%r15d,%ebx
	andl	$-32,%ebx
	movups	(%rcx),%xmm0
	movups	16(%rcx),%xmm1
	movups	%xmm0,(%rbp)
	movups	%xmm1,16(%rbp)
	cmpq	$32,%rbx
	je	10f
	movups	32(%rcx),%xmm0
	movups	48(%rcx),%xmm1
	movups	%xmm0,32(%rbp)
	movups	%xmm1,48(%rbp)
	cmpl	$64,%ebx
	je	10f
	movups	64(%rcx),%xmm0
	movups	80(%rcx),%xmm1
	movups	%xmm0,64(%rbp)
	movups	%xmm1,80(%rbp)
	cmpl	$96,%ebx
	je	10f
	movups	96(%rcx),%xmm0
	movups	112(%rcx),%xmm1
	movups	%xmm0,96(%rbp)
	movups	%xmm1,112(%rbp)
	cmpl	$128,%ebx
	je	10f
	movups	128(%rcx),%xmm0
	movups	144(%rcx),%xmm1
	movups	%xmm0,128(%rbp)
	movups	%xmm1,144(%rbp)
	cmpl	$160,%ebx
	je	10f
	movups	160(%rcx),%xmm0
	movups	176(%rcx),%xmm1
	movups	%xmm0,160(%rbp)
	movups	%xmm1,176(%rbp)
	cmpl	$192,%ebx
	je	10f
	movups	192(%rcx),%xmm0
	movups	208(%rcx),%xmm1
	movups	%xmm0,192(%rbp)
	movups	%xmm1,208(%rbp)
10:
	cmpl	%r15d,%ebx
	je	4b
	testb	$28,%r15b
	je	3b
11:
	movq	%rbx,%r10
	movl	%r15d,%ebx
	andl	$-4,%ebx
	.p2align	4
10:
	movl	(%rcx,%r10),%r14d
	movl	%r14d,(%rbp,%r10)
	addq	$4,%r10
	cmpq	%r10,%rbx
	jne	10b
	cmpl	%r15d,%ebx
	je	4b
	jmp	3b
8:
	movl	%r15d,%r10d
	andl	$31,%r10d
	movq	%r10,%rbx
	movq	%r10,%rcx
	andq	$3,%rbx
	jne	9b
	jmp	6b
1:
	testq	%r9,%r9
	je	2f
	movq	%r12,%rcx
	subq	%r9,%rcx
	leaq	(%rdi,%r12),%rax
	movq	%rax,40(%rsp)
	xorl	%r15d,%r15d
	movq	%r12,32(%rsp)
	jmp	1f
2:
	xorl	%eax,%eax
	jmp	5f
7:
	movq	%r13,%rax
	jmp	5f
2:
	movups	(%r13),%xmm0
	movups	%xmm0,(%rsi)
	.p2align	4
3:
	shrb	$4,%dl
	movb	%dl,(%rdi,%r15)
	movb	%bl,1(%rdi,%r15)
	addq	%rbx,%rax
	negq	%r10
	movq	%rax,%r15
	cmpq	%r9,%r8
	movq	%r10,%r9
	je	5f
1:
	movzbl	(%rdi,%rcx),%edx
	testb	%dl,%dl
	jne	1f
	cmpq	$2,%r9
	je	4f
	cmpq	$1,%r9
	je	6f
	cmpq	$3,%r9
	ja	7f
	cmpb	$0,1(%rdi,%rcx)
	jne	7f
	cmpb	$0,2(%rdi,%rcx)
	jne	7f
	jmp	6f
4:
	cmpb	$0,1(%rdi,%rcx)
	je	6f
7:
	decq	%r9
	addq	%rdi,%rcx
	incq	%rcx
	movq	%r9,%rdx
	callq	rtp_ext.elements.skip_zeros
	testq	%rdx,%rdx
	je	6f
	movq	%rdx,%r9
	movzbl	(%rax),%edx
1:
	cmpb	$-17,%dl
	ja	6f
	movzbl	%dl,%ebp
	andl	$15,%ebp
	leaq	2(%rbp),%r8
	movq	%r8,%r10
	subq	%r9,%r10
	ja	6f
	leaq	-1(%r8),%rbx
	leaq	(%r10,%r12),%rcx
	movq	%rcx,%r11
	subq	%rbx,%r11
	leaq	2(%r15),%rax
	leaq	(%rdi,%r11),%r13
	leaq	(%rdi,%r15),%rsi
	addq	$2,%rsi
	cmpq	%r11,%rax
	jbe	1f
	movq	%rbx,%r11
	cmpb	$3,%bpl
	jb	4f
	leaq	(%r9,%r15),%r14
	subq	%r12,%r14
	movq	%rbx,%r11
	cmpq	$-17,%r14
	jbe	7f
4:
	movq	%r11,%r13
	movq	%r11,%rsi
	andq	$3,%r13
	je	4f
8:
	leaq	1(%rdi),%rsi
	leaq	(%rsi,%r15),%rbp
	movq	40(%rsp),%r14
	subq	%r9,%r14
	movq	%r11,%rsi
	.p2align	4
9:
	movzbl	(%r14,%rsi),%r12d
	movb	%r12b,(%rbp,%rsi)
	decq	%rsi
	decq	%r13
	jne	9b
4:
	decq	%r11
	cmpl	$3,%r11d
	movq	32(%rsp),%r12
	jb	3b
	leaq	(%rdi,%r15),%r11
	movq	40(%rsp),%r13
	subq	%r9,%r13
	movq	%rsi,%r14
	.p2align	4
9:
	movzbl	(%r13,%rsi),%ebp
	movb	%bpl,1(%r11,%rsi)
	movzbl	-1(%r13,%rsi),%ebp
	movb	%bpl,(%r11,%rsi)
	movzbl	-2(%r13,%rsi),%ebp
	movb	%bpl,-1(%r11,%rsi)
	addq	$-4,%r14
	movzbl	-3(%r13,%rsi),%ebp
	movb	%bpl,-2(%r11,%rsi)
	movq	%r14,%rsi
	jne	9b
	jmp	3b
	.p2align	4
1:
	cmpb	$3,%bpl
	jae	1f
	xorl	%ebp,%ebp
	jmp	9f
	.p2align	4
1:
	movq	%r9,%r11
	subq	%r12,%r11
	addq	%r15,%r11
	incq	%r11
	cmpq	$16,%r11
	jae	1f
	xorl	%ebp,%ebp
	.p2align	4
9:
	movzbl	(%r13,%rbp),%r11d
	movb	%r11b,(%rsi,%rbp)
	incq	%rbp
	cmpq	%rbp,%rbx
	jne	9b
	jmp	3b
7:
	cmpb	$15,%bpl
	jne	7f
	movups	-15(%r13,%rbp),%xmm0
	movups	%xmm0,-15(%rsi,%rbp)
	jmp	3b
1:
	cmpb	$15,%bpl
	je	2b
	movq	%rbx,%rbp
	andq	$-4,%rbp
	movl	(%r13),%r11d
	movl	%r11d,(%rsi)
	cmpq	$4,%rbp
	je	1f
	movl	4(%r13),%r11d
	movl	%r11d,4(%rsi)
	cmpl	$8,%ebp
	je	1f
	movl	8(%r13),%r11d
	movl	%r11d,8(%rsi)
	cmpl	$12,%ebp
	je	1f
	movl	12(%r13),%r11d
	movl	%r11d,12(%rsi)
1:
	cmpl	%ebp,%ebx
	jne	9b
	jmp	3b
7:
	movq	%rbx,%r11
	andq	$-4,%r11
	movl	-3(%r13,%rbp),%r14d
	movl	%r14d,-3(%rsi,%rbp)
	cmpq	$4,%r11
	je	1f
	movl	-9(%r13,%r8),%ebp
	movl	%ebp,-9(%rsi,%r8)
	cmpl	$8,%r11d
	je	1f
	movl	-13(%r13,%r8),%ebp
	movl	%ebp,-13(%rsi,%r8)
	cmpl	$12,%r11d
	je	1f
	movl	-17(%r13,%r8),%ebp
	movl	%ebp,-17(%rsi,%r8)
1:
	cmpl	%r11d,%ebx
	je	3b
	movl	%ebx,%r11d
	andl	$3,%r11d
	movq	%r11,%r13
	movq	%r11,%rsi
	andq	$3,%r13
	jne	8b
	jmp	4b
6:
	movq	%r15,%rax
5:
	addq	$88,%rsp
	popq	%rbx
	popq	%rbp
	popq	%rdi
	popq	%rsi
	popq	%r12
	popq	%r13
	popq	%r14
	popq	%r15
	retq
	.seh_endproc

	.def	rtp_ext.rewriting.put_between;
	.scl	3;
	.type	32;
	.endef
	.section	.text$rtp_ext.rewriting.put_between,"xr"
	.p2align	4
rtp_ext.rewriting.put_between:
.seh_proc rtp_ext.rewriting.put_between
	pushq	%r15
	.seh_pushreg %r15
	pushq	%r14
	.seh_pushreg %r14
	pushq	%r13
	.seh_pushreg %r13
	pushq	%r12
	.seh_pushreg %r12
	pushq	%rsi
	.seh_pushreg %rsi
	pushq	%rdi
	.seh_pushreg %rdi
	pushq	%rbp
	.seh_pushreg %rbp
	pushq	%rbx
	.seh_pushreg %rbx
	subq	$40,%rsp
	.seh_stackalloc 40
	.seh_endprologue
	movq	%r8,%r10
	movq	%rdx,%r11
	movl	%ecx,%edx
	movq	144(%rsp),%rsi
	movq	152(%rsp),%rax
	movzbl	(%rax),%edi
	movzbl	8(%rax),%ecx
	movb	%cl,38(%rsp)
	movq	24(%rax),%r8
	movb	%dl,39(%rsp)
	cmpb	$1,%dl
	movq	%r8,%rdx
	sbbq	$0,%rdx
	addq	$2,%rdx
	xorl	%r15d,%r15d
	cmpb	$1,%dil
	cmoveq	%rdx,%r15
	movq	16(%rax),%rdx
	leaq	(%r15,%r10),%rax
	movq	%r9,%r12
	subq	%rax,%r12
	jae	1f
	testq	%rsi,%rsi
	je	2f
	movq	%rsi,%r14
	cmpq	$8,%rsi
	jb	3f
	movq	%rsi,%r14
	cmpq	$32,%r12
	jb	3f
	cmpq	$32,%rsi
	jae	4f
	xorl	%r12d,%r12d
	jmp	5f
1:
	testq	%rsi,%rsi
	je	2f
	leaq	(%r11,%r9),%r14
	leaq	(%r11,%rax),%r15
	cmpq	$4,%rsi
	jb	1f
	movq	%rax,%rbx
	subq	%r9,%rbx
	cmpq	$32,%rbx
	jae	6f
1:
	xorl	%r12d,%r12d
1:
	movq	%rsi,%rbp
	movq	%r12,%r13
	andq	$3,%rbp
	je	7f
	movq	%r12,%r13
	.p2align	4
8:
	movzbl	(%r14,%r13),%ebx
	movb	%bl,(%r15,%r13)
	incq	%r13
	decq	%rbp
	jne	8b
7:
	subq	%rsi,%r12
	cmpq	$-4,%r12
	ja	2f
	leaq	(%r11,%rax),%r14
	addq	$3,%r14
	addq	%r11,%r9
	addq	$3,%r9
	.p2align	4
7:
	movzbl	-3(%r9,%r13),%ebx
	movb	%bl,-3(%r14,%r13)
	movzbl	-2(%r9,%r13),%ebx
	movb	%bl,-2(%r14,%r13)
	movzbl	-1(%r9,%r13),%ebx
	movb	%bl,-1(%r14,%r13)
	movzbl	(%r9,%r13),%ebx
	movb	%bl,(%r14,%r13)
	addq	$4,%r13
	cmpq	%r13,%rsi
	jne	7b
	jmp	2f
6:
	cmpq	$32,%rsi
	jae	6f
	xorl	%r12d,%r12d
	jmp	7f
4:
	movq	%rsi,%r12
	andq	$-32,%r12
	leaq	(%rsi,%r9),%rbx
	leaq	(%r11,%rbx),%r14
	addq	$-16,%r14
	leaq	(%r15,%rsi),%rbx
	addq	%r10,%rbx
	leaq	(%r11,%rbx),%r13
	addq	$-16,%r13
	movq	%r12,%rbp
	negq	%rbp
	xorl	%ebx,%ebx
	.p2align	4
4:
	movups	-16(%r14,%rbx),%xmm0
	movups	(%r14,%rbx),%xmm1
	movups	%xmm1,(%r13,%rbx)
	movups	%xmm0,-16(%r13,%rbx)
	addq	$-32,%rbx
	cmpq	%rbx,%rbp
	jne	4b
	cmpq	%r12,%rsi
	je	2f
	testb	$24,%sil
	je	4f
5:
	movq	%rsi,%r13
	andq	$-8,%r13
	movl	%esi,%r14d
	andl	$7,%r14d
	leaq	(%rsi,%r9),%rbx
	subq	%r12,%rbx
	leaq	(%rbx,%r11),%rbp
	addq	$-8,%rbp
	addq	%rsi,%r15
	addq	%r10,%r15
	subq	%r12,%r15
	addq	%r11,%r15
	addq	$-8,%r15
	subq	%r13,%r12
	xorl	%ebx,%ebx
	.p2align	4
5:
	movq	(%rbp,%rbx),%rcx
	movq	%rcx,(%r15,%rbx)
	addq	$-8,%rbx
	cmpq	%rbx,%r12
	jne	5b
	cmpq	%r13,%rsi
	je	2f
3:
	leaq	-1(%r14),%r15
	movq	%r14,%r12
	andq	$3,%r12
	je	3f
5:
	leaq	(%r11,%rax),%r13
	decq	%r13
	leaq	(%r9,%r11),%rbp
	decq	%rbp
	.p2align	4
8:
	movzbl	(%rbp,%r14),%ecx
	movb	%cl,(%r13,%r14)
	decq	%r14
	decq	%r12
	jne	8b
3:
	cmpq	$3,%r15
	jb	2f
	leaq	(%r11,%rax),%r15
	decq	%r15
	addq	%r11,%r9
	decq	%r9
	movq	%r14,%r12
	.p2align	4
8:
	movzbl	(%r9,%r14),%ecx
	movb	%cl,(%r15,%r14)
	movzbl	-1(%r9,%r14),%ecx
	movb	%cl,-1(%r15,%r14)
	movzbl	-2(%r9,%r14),%ecx
	movb	%cl,-2(%r15,%r14)
	addq	$-4,%r12
	movzbl	-3(%r9,%r14),%ecx
	movb	%cl,-3(%r15,%r14)
	movq	%r12,%r14
	jne	8b
	jmp	2f
6:
	movq	%rsi,%r12
	andq	$-32,%r12
	leaq	(%r11,%rax),%r13
	addq	$16,%r13
	leaq	(%r9,%r11),%rbp
	addq	$16,%rbp
	xorl	%ebx,%ebx
	.p2align	4
6:
	movups	-16(%rbp,%rbx),%xmm0
	movups	(%rbp,%rbx),%xmm1
	movups	%xmm0,-16(%r13,%rbx)
	movups	%xmm1,(%r13,%rbx)
	addq	$32,%rbx
	cmpq	%rbx,%r12
	jne	6b
	cmpq	%r12,%rsi
	je	2f
	testb	$28,%sil
	je	1b
7:
	movq	%r12,%rbx
	movq	%rsi,%r12
	andq	$-4,%r12
	.p2align	4
6:
	movl	(%r14,%rbx),%ebp
	movl	%ebp,(%r15,%rbx)
	addq	$4,%rbx
	cmpq	%rbx,%r12
	jne	6b
	cmpq	%r12,%rsi
	jne	1b
2:
	cmpb	$1,%dil
	jne	1f
	cmpb	$0,39(%rsp)
	je	2f
	movzbl	38(%rsp),%ecx
	movb	%cl,(%r11,%r10)
	movb	%r8b,1(%r11,%r10)
	movl	$2,%r9d
	addq	%r10,%r9
	testq	%r8,%r8
	jne	6f
	jmp	7f
2:
	movzbl	38(%rsp),%ecx
	rolb	$4,%cl
	addb	%r8b,%cl
	decb	%cl
	movb	%cl,(%r11,%r10)
	movl	$1,%r9d
	addq	%r10,%r9
	testq	%r8,%r8
	je	7f
6:
	cmpq	$1,%r8
	jne	2f
	movzbl	(%rdx),%ecx
	movb	%cl,(%r11,%r9)
	jmp	1f
2:
	cmpq	$2,%r8
	ja	2f
	movzbl	(%rdx),%ecx
	movb	%cl,(%r11,%r9)
	movzbl	1(%rdx),%ecx
	movb	%cl,1(%r11,%r9)
	jmp	1f
2:
	cmpq	$3,%r8
	jne	7f
	movzbl	(%rdx),%ecx
	movb	%cl,(%r11,%r9)
	movzbl	1(%rdx),%ecx
	movb	%cl,1(%r11,%r9)
	movzbl	2(%rdx),%ecx
	movb	%cl,2(%r11,%r9)
	jmp	1f
7:
	leaq	(%r11,%r9),%rcx
	movq	%rcx,%r10
	subq	%rdx,%r10
	cmpq	%r8,%r10
	jae	2f
	cmpq	$4,%r8
	jb	6f
	cmpq	$32,%r10
	jae	7f
6:
	xorl	%r10d,%r10d
6:
	movq	%r8,%rbx
	movq	%r10,%rdi
	andq	$3,%rbx
	je	8f
	movq	%r10,%rdi
	.p2align	4
9:
	movzbl	(%rdx,%rdi),%ebp
	movb	%bpl,(%rcx,%rdi)
	incq	%rdi
	decq	%rbx
	jne	9b
8:
	subq	%r8,%r10
	cmpq	$-4,%r10
	ja	1f
	leaq	(%r11,%r9),%rcx
	addq	$3,%rcx
	.p2align	4
8:
	movzbl	(%rdx,%rdi),%r9d
	movb	%r9b,-3(%rcx,%rdi)
	movzbl	1(%rdx,%rdi),%r9d
	movb	%r9b,-2(%rcx,%rdi)
	movzbl	2(%rdx,%rdi),%r9d
	movb	%r9b,-1(%rcx,%rdi)
	movzbl	3(%rdx,%rdi),%r9d
	movb	%r9b,(%rcx,%rdi)
	addq	$4,%rdi
	cmpq	%rdi,%r8
	jne	8b
	jmp	1f
2:
	movq	%rax,%rdi
	callq	memmove
	movq	%rdi,%rax
1:
	addq	%rsi,%rax
	addq	$40,%rsp
	popq	%rbx
	popq	%rbp
	popq	%rdi
	popq	%rsi
	popq	%r12
	popq	%r13
	popq	%r14
	popq	%r15
	retq
7:
	cmpq	$32,%r8
	jae	2f
	xorl	%r10d,%r10d
	jmp	7f
2:
	movq	%r8,%r10
	andq	$-32,%r10
	leaq	(%r11,%r9),%rdi
	addq	$16,%rdi
	xorl	%ebx,%ebx
	.p2align	4
2:
	movups	(%rdx,%rbx),%xmm0
	movups	16(%rdx,%rbx),%xmm1
	movups	%xmm0,-16(%rdi,%rbx)
	movups	%xmm1,(%rdi,%rbx)
	addq	$32,%rbx
	cmpq	%rbx,%r10
	jne	2b
	cmpq	%r10,%r8
	je	1b
	testb	$28,%r8b
	je	6b
7:
	movq	%r10,%rdi
	movq	%r8,%r10
	andq	$-4,%r10
	.p2align	4
2:
	movl	(%rdx,%rdi),%ebx
	movl	%ebx,(%rcx,%rdi)
	addq	$4,%rdi
	cmpq	%rdi,%r10
	jne	2b
	cmpq	%r10,%r8
	je	1b
	jmp	6b
4:
	movl	%esi,%r14d
	andl	$31,%r14d
	leaq	-1(%r14),%r15
	movq	%r14,%r12
	andq	$3,%r12
	jne	5b
	jmp	3b
	.seh_endproc

	.def	rtp_c.growing.put_status_of;
	.scl	3;
	.type	32;
	.endef
	.section	.text$unlikely$rtp_c.growing.put_status_of,"xr"
	.p2align	4
rtp_c.growing.put_status_of:
	movzbl	%cl,%eax
	leaq	1f(%rip),%rcx
	movslq	(%rcx,%rax,4),%rax
	addq	%rcx,%rax
	jmpq	*%rax
2:
	movl	$9,%eax
	retq
3:
	movl	$5,%eax
	retq
4:
	movl	$13,%eax
	retq
5:
	movzbl	%dl,%eax
	leaq	rtp_switch.table.rtp_c.whole_packet.status_of_no_packet(%rip),%rcx
	movl	(%rcx,%rax,4),%eax
	retq
6:
	movl	$15,%eax
	retq
7:
	movl	$16,%eax
	retq
8:
	movl	$14,%eax
	retq
9:
	movl	$8,%eax
	retq
	.section	.rdata,"dr"
	.p2align	2,0x0
1:
	.long	2b-1b
	.long	4b-1b
	.long	2b-1b
	.long	5b-1b
	.long	3b-1b
	.long	7b-1b
	.long	8b-1b
	.long	6b-1b
	.long	9b-1b

	.def	rtp_wire.packet.rtp_packet_buf.RtpPacketBuf.change_form;
	.scl	3;
	.type	32;
	.endef
	.section	.text$rtp_wire.packet.rtp_packet_buf.RtpPacketBuf.change_form,"xr"
	.p2align	4
rtp_wire.packet.rtp_packet_buf.RtpPacketBuf.change_form:
.seh_proc rtp_wire.packet.rtp_packet_buf.RtpPacketBuf.change_form
	pushq	%r15
	.seh_pushreg %r15
	pushq	%r14
	.seh_pushreg %r14
	pushq	%r13
	.seh_pushreg %r13
	pushq	%r12
	.seh_pushreg %r12
	pushq	%rsi
	.seh_pushreg %rsi
	pushq	%rdi
	.seh_pushreg %rdi
	pushq	%rbp
	.seh_pushreg %rbp
	pushq	%rbx
	.seh_pushreg %rbx
	subq	$120,%rsp
	.seh_stackalloc 120
	.seh_endprologue
	movq	%rcx,%rsi
	movq	(%rdx),%r9
	cmpb	$1,32(%rdx)
	jne	1f
	movzbl	33(%rdx),%r15d
	testb	%r15b,%r15b
	sete	%al
	movl	%r8d,%ecx
	andb	$1,%cl
	cmpb	%cl,%al
	jne	2f
	movq	24(%rdx),%r13
	movzbl	(%r9),%eax
	movq	%rax,72(%rsp)
	leal	(,%rax,4),%r10d
	andl	$60,%r10d
	leaq	16(%r10),%rax
	movq	%r13,64(%rsp)
	subq	%rax,%r13
	movq	%r10,56(%rsp)
	leaq	(%r9,%r10),%rcx
	addq	$16,%rcx
	testb	%r15b,%r15b
	movb	%r8b,54(%rsp)
	movq	%r9,112(%rsp)
	movq	%rcx,80(%rsp)
	je	3f
	testq	%r13,%r13
	je	4f
	xorl	%ebp,%ebp
	movq	%r13,%r9
5:
	movq	%r9,%r12
6:
	cmpb	$0,(%rcx)
	je	7f
	movq	%r12,%r9
	movq	%rcx,%rax
	cmpq	$2,%r9
	jae	8f
	jmp	9f
7:
	cmpq	$2,%r12
	je	7f
	cmpq	$1,%r12
	je	9f
	cmpq	$3,%r12
	ja	10f
	cmpb	$0,1(%rcx)
	jne	10f
	cmpb	$0,2(%rcx)
	jne	10f
	jmp	11f
7:
	cmpb	$0,1(%rcx)
	je	7f
10:
	movq	%rdx,%rdi
	leaq	-1(%r12),%rdx
	incq	%rcx
	callq	rtp_ext.elements.skip_zeros
	testq	%rdx,%rdx
	je	10f
	movq	%rdx,%r9
	movzbl	54(%rsp),%r8d
	movq	%rdi,%rdx
	cmpq	$2,%r9
	jb	9f
8:
	movzbl	1(%rax),%r10d
	leaq	2(%r10),%rcx
	subq	%rcx,%r9
	jb	9f
	addq	%rax,%rcx
	cmpb	$0,(%rax)
	jne	8f
	movq	%r9,%r12
	testq	%r9,%r9
	jne	6b
	jmp	6f
8:
	addq	%r10,%rbp
	addq	$2,%rbp
	xorl	%r12d,%r12d
	testq	%r9,%r9
	jne	5b
	jmp	9f
1:
	testb	$16,(%r9)
	jne	1f
2:
	movb	$0,(%rsi)
	movw	$0,8(%rsi)
	jmp	2f
1:
	movb	$1,(%rsi)
	movw	$4,8(%rsi)
2:
	movq	$0,16(%rsi)
	jmp	1f
3:
	testq	%r13,%r13
	je	4f
	xorl	%ebp,%ebp
	movq	%rcx,%rax
	movq	%r13,%rcx
2:
	movq	%rcx,%r12
	.p2align	4
3:
	movzbl	(%rax),%r9d
	leal	16(%r9),%ecx
	cmpb	$32,%cl
	jae	5f
	testb	%r9b,%r9b
	je	8f
	movq	%r12,%rcx
	cmpb	$-17,%r9b
	jbe	12f
	jmp	9f
	.p2align	4
5:
	movzbl	%r9b,%r10d
	andl	$15,%r10d
	addq	$2,%r10
	movq	%r12,%rcx
	subq	%r10,%rcx
	jae	5f
	movq	%r12,%rcx
12:
	movl	%r9d,%r10d
	andb	$15,%r10b
	addb	$2,%r10b
	movzbl	%r10b,%r10d
	subq	%r10,%rcx
	jb	9f
	addq	%r10,%rax
	cmpb	$16,%r9b
	jae	13f
	movq	%rcx,%r12
	testq	%rcx,%rcx
	jne	3b
	jmp	6f
8:
	cmpq	$2,%r12
	je	3f
	cmpq	$1,%r12
	je	9f
	cmpq	$3,%r12
	ja	8f
	cmpb	$0,1(%rax)
	jne	8f
	cmpb	$0,2(%rax)
	jne	8f
	jmp	11f
3:
	cmpb	$0,1(%rax)
	je	7f
8:
	movq	%rdx,%rdi
	leaq	-1(%r12),%rdx
	incq	%rax
	movq	%rax,%rcx
	callq	rtp_ext.elements.skip_zeros
	testq	%rdx,%rdx
	je	10f
	movq	%rdx,%rcx
	movzbl	(%rax),%r9d
	movzbl	54(%rsp),%r8d
	movq	%rdi,%rdx
	cmpb	$-17,%r9b
	jbe	12b
	jmp	9f
5:
	addq	%r10,%rax
13:
	addq	%r10,%rbp
	xorl	%r12d,%r12d
	testq	%rcx,%rcx
	jne	2b
	jmp	9f
4:
	xorl	%ebp,%ebp
	xorl	%r12d,%r12d
	jmp	9f
7:
	movl	$2,%r12d
	jmp	9f
11:
	movl	$3,%r12d
	jmp	9f
6:
	xorl	%r12d,%r12d
9:
	movq	%r13,%r9
	subq	%r12,%r9
	movq	16(%rdx),%r14
	cmpb	%r15b,%r8b
	setne	%al
	testq	%rbp,%rbp
	setne	%bl
	andb	%al,%bl
	cmpb	$1,%bl
	movb	%r15b,55(%rsp)
	movq	%r9,104(%rsp)
	jne	2f
	movb	$0,32(%rsp)
	movl	%r15d,%ecx
	movq	%rbp,%rdi
	movq	%rdx,%rbp
	movl	%r8d,%edx
	movq	80(%rsp),%r8
	callq	rtp_ext.form_change.row_len
	movq	%rdx,%r15
	movq	%rbp,%rdx
	movq	%rdi,%rbp
	jmp	3f
2:
	movb	$1,%al
	movq	%rbp,%r15
3:
	movq	64(%rsp),%r8
	cmpb	$1,%al
	jne	2f
	addq	$3,%r15
	andq	$-4,%r15
	cmpq	%r15,%r13
	cmovaq	%r13,%r15
	cmpq	$262141,%r15
	movzwl	%r15w,%ecx
	movl	$7,%eax
	cmovbq	%rcx,%rax
	jae	3f
	movq	%rbp,80(%rsp)
	movzbl	56(%rsp),%ebp
	addq	$12,%rbp
	leaq	(%r15,%rbp),%rax
	movq	%r14,%rcx
	subq	%r8,%rcx
	leaq	(%rcx,%rax),%r9
	addq	$4,%r9
	cmpq	%r9,8(%rdx)
	jae	4f
	movb	$8,%al
	movb	$1,%cl
	xorl	%edx,%edx
	jmp	5f
4:
	movq	%r9,96(%rsp)
	movq	%rdx,56(%rsp)
	leaq	(%r15,%rbp),%r9
	addq	$4,%r9
	movq	112(%rsp),%rdi
	movq	%rdi,%rcx
	movq	%r8,%rdx
	movq	%r14,%r8
	callq	rtp_wire.packet.resizing.move_bytes
	movl	%r15d,%eax
	shrl	$10,%eax
	movl	%r15d,%ecx
	andl	$-4,%ecx
	shll	$6,%ecx
	orl	%eax,%ecx
	leaq	(%rdi,%rbp),%r14
	movw	%cx,94(%rsp)
	movw	%cx,2(%rdi,%rbp)
	movq	%rdi,%rbp
	movzbl	54(%rsp),%edi
	cmpb	%dil,55(%rsp)
	je	4f
	orb	$16,(%rbp)
	testb	%dil,%dil
	movl	$57022,%ecx
	movl	$16,%edx
	cmovel	%ecx,%edx
	movw	%dx,(%r14)
4:
	addq	$4,%r14
	testq	%r13,%r13
	movq	80(%rsp),%rax
	movq	104(%rsp),%r8
	je	4f
	cmpq	%r8,%rax
	jne	6f
	movq	%r8,%rdi
	xorl	%edx,%edx
	jmp	7f
4:
	cmpq	$4,%r15
	movq	56(%rsp),%rcx
	ja	4f
	leaq	8f(%rip),%rdx
	movslq	(%rdx,%r15,4),%r8
	addq	%rdx,%r8
	jmpq	*%r8
11:
	movb	$0,(%r14)
	jmp	12f
6:
	movq	%r13,32(%rsp)
	movb	$0,40(%rsp)
	movzbl	55(%rsp),%ecx
	movq	%r14,%rdx
	movq	%r8,%rdi
	movq	%r8,%r9
	callq	rtp_ext.gathering.gather_around
7:
	testb	%bl,%bl
	je	6f
	movq	%rdx,40(%rsp)
	movq	%rdi,32(%rsp)
	movzbl	55(%rsp),%ecx
	movq	%r14,%rdx
	movq	%r15,%r8
	movq	%rax,%r9
	callq	rtp_ext.form_change.change_rows
	testq	%rdx,%rdx
	je	7f
	movq	%rax,%r9
	movzbl	54(%rsp),%edi
	movq	56(%rsp),%rcx
	jmp	13f
6:
	cmpq	%rdi,%rax
	jbe	6f
	testq	%rdx,%rdx
	movzbl	54(%rsp),%edi
	movq	56(%rsp),%rcx
	je	14f
	movq	%rdx,%r8
	cmpq	$8,%rdx
	jb	15f
	leaq	(%rax,%r12),%r8
	movq	72(%rsp),%r9
	leal	(,%r9,4),%r9d
	andl	$60,%r9d
	addq	%r9,%r8
	movq	64(%rsp),%r10
	subq	%r8,%r10
	addq	$-16,%r10
	movq	%rdx,%r8
	cmpq	$32,%r10
	jb	15f
	cmpq	$32,%rdx
	jae	16f
	xorl	%r10d,%r10d
	jmp	17f
2:
	movzbl	55(%rsp),%ecx
	movq	80(%rsp),%rdx
	movq	%r13,%r8
	callq	rtp_wire.packet.rewriting.has_long_id
	movzbl	%al,%ecx
	movl	$6,%eax
	subq	%rcx,%rax
3:
	movl	%eax,%edx
	shrl	$8,%edx
	movb	$1,%cl
	jmp	2f
6:
	movq	%rdi,%r9
	testq	%rdx,%rdx
	movzbl	54(%rsp),%edi
	movq	56(%rsp),%rcx
	je	14f
13:
	leaq	(%r14,%r9),%r8
	movq	%r9,%rbx
	leaq	(%r14,%rax),%r9
	xorl	%r10d,%r10d
	cmpq	$4,%rdx
	jb	3f
	movq	%rax,%r11
	movq	%rbx,%r13
	subq	%rbx,%r11
	cmpq	$32,%r11
	jb	6f
	cmpq	$32,%rdx
	jae	13f
	xorl	%r10d,%r10d
	jmp	18f
7:
	xorl	%edx,%edx
	movzbl	54(%rsp),%edi
	movq	56(%rsp),%rcx
	jmp	7f
14:
	xorl	%edx,%edx
	jmp	7f
10:
	movzbl	54(%rsp),%r8d
	movq	%rdi,%rdx
	jmp	9b
3:
	movq	%rbx,%r13
	jmp	6f
13:
	movq	%rdx,%r10
	andq	$-32,%r10
	movq	72(%rsp),%rbx
	andl	$15,%ebx
	shll	$2,%ebx
	leaq	(%rax,%rbx),%r11
	addq	%rbp,%r11
	addq	$32,%r11
	addq	%r13,%rbx
	addq	%rbp,%rbx
	addq	$32,%rbx
	xorl	%r12d,%r12d
3:
	movups	-16(%rbx,%r12),%xmm0
	movups	(%rbx,%r12),%xmm1
	movups	%xmm0,-16(%r11,%r12)
	movups	%xmm1,(%r11,%r12)
	addq	$32,%r12
	cmpq	%r12,%r10
	jne	3b
	cmpq	%r10,%rdx
	je	7f
	testb	$28,%dl
	je	6f
18:
	movq	%r10,%r11
	movq	%rdx,%r10
	andq	$-4,%r10
3:
	movl	(%r8,%r11),%ebx
	movl	%ebx,(%r9,%r11)
	addq	$4,%r11
	cmpq	%r11,%r10
	jne	3b
	cmpq	%r10,%rdx
	je	7f
6:
	movl	%edi,%r12d
	movq	%rbp,%rdi
	movq	%rdx,%rbx
	movq	%r10,%r11
	andq	$3,%rbx
	je	3f
	movq	%r10,%r11
	.p2align	4
6:
	movzbl	(%r8,%r11),%ebp
	movb	%bpl,(%r9,%r11)
	incq	%r11
	decq	%rbx
	jne	6b
3:
	subq	%rdx,%r10
	cmpq	$-4,%r10
	ja	3f
	movq	72(%rsp),%r9
	andl	$15,%r9d
	shll	$2,%r9d
	leaq	(%rax,%r9),%r8
	addq	%rdi,%r8
	addq	$19,%r8
	addq	%r9,%r13
	leaq	(%rdi,%r13),%r9
	addq	$19,%r9
6:
	movzbl	-3(%r9,%r11),%r10d
	movb	%r10b,-3(%r8,%r11)
	movzbl	-2(%r9,%r11),%r10d
	movb	%r10b,-2(%r8,%r11)
	movzbl	-1(%r9,%r11),%r10d
	movb	%r10b,-1(%r8,%r11)
	movzbl	(%r9,%r11),%r10d
	movb	%r10b,(%r8,%r11)
	addq	$4,%r11
	cmpq	%r11,%rdx
	jne	6b
3:
	movl	%r12d,%edi
7:
	addq	%rax,%rdx
	subq	%rdx,%r15
	jbe	12f
	cmpq	$4,%r15
	ja	3f
	leaq	6f(%rip),%r8
	movslq	(%r8,%r15,4),%r9
	addq	%r8,%r9
	jmpq	*%r9
9:
	movb	$0,(%r14,%rdx)
	jmp	12f
10:
	movl	$0,(%r14)
	jmp	12f
13:
	movw	$0,(%r14)
	jmp	12f
14:
	movb	$0,2(%r14)
	movw	$0,(%r14)
	jmp	12f
4:
	leaq	-1(%r15),%r8
	movq	%r14,%rcx
	xorl	%edx,%edx
	callq	memset
	movq	56(%rsp),%rcx
	movzbl	54(%rsp),%edi
	movb	$0,-1(%r14,%r15)
	jmp	12f
4:
	movl	$0,(%r14,%rdx)
	jmp	12f
18:
	movw	$0,(%r14,%rdx)
	jmp	12f
19:
	movb	$0,2(%r14,%rdx)
	movw	$0,(%r14,%rdx)
	jmp	12f
3:
	movq	%r15,%rdi
	addq	%rdx,%r14
	decq	%r15
	movq	%r14,%rcx
	xorl	%edx,%edx
	movq	%r15,%r8
	callq	memset
	movq	56(%rsp),%rcx
	movzbl	54(%rsp),%eax
	movb	$0,-1(%rdi,%r14)
	movl	%eax,%edi
12:
	movq	96(%rsp),%rax
	movq	%rax,%rdx
	subq	16(%rcx),%rdx
	addq	%rdx,24(%rcx)
	movq	%rax,16(%rcx)
	movb	$1,32(%rcx)
	movb	%dil,33(%rcx)
	xorl	%ecx,%ecx
	xorl	%eax,%eax
	xorl	%edx,%edx
2:
	xorl	%r9d,%r9d
5:
	movb	%cl,(%rsi)
	movb	%al,8(%rsi)
	movb	%dl,9(%rsi)
	movq	%r9,16(%rsi)
1:
	addq	$120,%rsp
	popq	%rbx
	popq	%rbp
	popq	%rdi
	popq	%rsi
	popq	%r12
	popq	%r13
	popq	%r14
	popq	%r15
	retq
16:
	movq	%rdx,%r10
	andq	$-32,%r10
	movq	64(%rsp),%r8
	addq	%rdx,%r8
	subq	%r12,%r8
	addq	%rbp,%r8
	addq	$-16,%r8
	leaq	(%rax,%rdx),%r11
	addq	%rbp,%r11
	addq	%r9,%r11
	movq	%r10,%rdi
	negq	%rdi
	xorl	%ebx,%ebx
1:
	movups	-16(%r8,%rbx),%xmm0
	movups	(%r8,%rbx),%xmm1
	movups	%xmm1,(%r11,%rbx)
	movups	%xmm0,-16(%r11,%rbx)
	addq	$-32,%rbx
	cmpq	%rbx,%rdi
	jne	1b
	cmpq	%r10,%rdx
	jne	1f
	movzbl	54(%rsp),%edi
	jmp	7b
1:
	testb	$24,%dl
	je	1f
17:
	movq	%rdx,%r11
	andq	$-8,%r11
	movl	%edx,%r8d
	andl	$7,%r8d
	movq	64(%rsp),%rdi
	addq	%rdx,%rdi
	subq	%r12,%rdi
	subq	%r10,%rdi
	addq	%rbp,%rdi
	addq	$-8,%rdi
	addq	%rdx,%r9
	addq	%rax,%r9
	subq	%r10,%r9
	addq	%rbp,%r9
	addq	$8,%r9
	subq	%r11,%r10
	xorl	%ebx,%ebx
2:
	movq	(%rdi,%rbx),%r13
	movq	%r13,(%r9,%rbx)
	addq	$-8,%rbx
	cmpq	%rbx,%r10
	jne	2b
	cmpq	%r11,%rdx
	movzbl	54(%rsp),%edi
	je	7b
15:
	movl	%edi,%r13d
	leaq	-1(%r8),%r9
	movq	%r8,%r10
	notq	%r12
	andq	$3,%r10
	je	2f
	movq	72(%rsp),%r11
	andl	$15,%r11d
	leaq	(%rax,%r11,4),%r11
	addq	%rbp,%r11
	addq	$15,%r11
	movq	64(%rsp),%rdi
	addq	%r12,%rdi
	addq	%rbp,%rdi
3:
	movzbl	(%rdi,%r8),%ebx
	movb	%bl,(%r11,%r8)
	decq	%r8
	decq	%r10
	jne	3b
2:
	cmpq	$3,%r9
	jae	2f
	movl	%r13d,%edi
	jmp	7b
2:
	movq	72(%rsp),%r9
	andl	$15,%r9d
	leaq	(%rax,%r9,4),%r9
	addq	%rbp,%r9
	addq	$15,%r9
	addq	64(%rsp),%r12
	addq	%rbp,%r12
	movq	%r8,%r10
	movl	%r13d,%edi
2:
	movzbl	(%r12,%r8),%r11d
	movb	%r11b,(%r9,%r8)
	movzbl	-1(%r12,%r8),%r11d
	movb	%r11b,-1(%r9,%r8)
	movzbl	-2(%r12,%r8),%r11d
	movb	%r11b,-2(%r9,%r8)
	addq	$-4,%r10
	movzbl	-3(%r12,%r8),%r11d
	movb	%r11b,-3(%r9,%r8)
	movq	%r10,%r8
	jne	2b
	jmp	7b
1:
	movl	%edx,%r8d
	andl	$31,%r8d
	movzbl	54(%rsp),%edi
	jmp	15b
	.section	.rdata,"dr"
	.p2align	2,0x0
6:
	.long	12b-6b
	.long	9b-6b
	.long	18b-6b
	.long	19b-6b
	.long	4b-6b
8:
	.long	12b-8b
	.long	11b-8b
	.long	13b-8b
	.long	14b-8b
	.long	10b-8b
	.section	.text$rtp_wire.packet.rtp_packet_buf.RtpPacketBuf.change_form,"xr"
	.seh_endproc

	.def	rtp_ext.gathering.compact_body;
	.scl	3;
	.type	32;
	.endef
	.section	.text$rtp_ext.gathering.compact_body,"xr"
	.p2align	4
rtp_ext.gathering.compact_body:
.seh_proc rtp_ext.gathering.compact_body
	pushq	%r15
	.seh_pushreg %r15
	pushq	%r14
	.seh_pushreg %r14
	pushq	%r13
	.seh_pushreg %r13
	pushq	%r12
	.seh_pushreg %r12
	pushq	%rsi
	.seh_pushreg %rsi
	pushq	%rdi
	.seh_pushreg %rdi
	pushq	%rbp
	.seh_pushreg %rbp
	pushq	%rbx
	.seh_pushreg %rbx
	subq	$40,%rsp
	.seh_stackalloc 40
	.seh_endprologue
	movq	%r8,%rbx
	movq	%rdx,%rsi
	testb	%cl,%cl
	je	1f
	leaq	16(%rsi),%r13
	leaq	(%rsi,%rbx),%r12
	addq	$16,%r12
	xorl	%edi,%edi
	xorl	%ecx,%ecx
2:
	movq	%rbx,%rdx
	subq	%rcx,%rdx
	je	3f
	addq	%rsi,%rcx
	cmpb	$0,(%rcx)
	je	4f
	movq	%rcx,%rax
	jmp	5f
	.p2align	4
4:
	cmpq	$2,%rdx
	je	4f
	cmpq	$1,%rdx
	je	3f
	cmpq	$3,%rdx
	ja	6f
	cmpb	$0,1(%rcx)
	jne	6f
	cmpb	$0,2(%rcx)
	jne	6f
	jmp	3f
4:
	cmpb	$0,1(%rcx)
	je	3f
6:
	decq	%rdx
	incq	%rcx
	callq	rtp_ext.elements.skip_zeros
	testq	%rdx,%rdx
	je	3f
5:
	cmpq	$2,%rdx
	jb	3f
	movzbl	1(%rax),%r9d
	leaq	2(%r9),%rcx
	subq	%rdx,%rcx
	ja	3f
	addq	%rbx,%rcx
	cmpb	$0,(%rax)
	je	2b
	movq	%rcx,%rax
	subq	%r9,%rax
	leaq	-2(%rax),%r10
	cmpq	%r10,%rdi
	jae	4f
	movq	%rcx,%r8
	subq	%r10,%r8
	je	4f
	addq	%rsi,%r10
	leaq	(%rsi,%rdi),%r11
	cmpq	$4,%r8
	jb	5f
	movq	%rdi,%r14
	subq	%rbx,%r14
	addq	%rdx,%r14
	cmpq	$32,%r14
	jae	6f
5:
	xorl	%r14d,%r14d
5:
	movl	%r9d,%r15d
	andl	$3,%r15d
	movq	%r14,%rbp
	cmpq	$2,%r15
	je	7f
	movl	$1,%r12d
	movq	%r14,%rbp
	.p2align	4
8:
	movzbl	(%r10,%rbp),%r13d
	movb	%r13b,(%r11,%rbp)
	incq	%rbp
	movq	%r15,%r13
	xorq	%r12,%r13
	incq	%r12
	cmpq	$2,%r13
	jne	8b
7:
	subq	%r14,%r9
	incq	%r9
	cmpq	$3,%r9
	jae	7f
	leaq	16(%rsi),%r13
	leaq	(%rsi,%rbx),%r12
	addq	$16,%r12
	jmp	4f
7:
	leaq	3(%rsi),%r9
	addq	%rdi,%r9
	leaq	(%rsi,%rbx),%r10
	addq	$3,%r10
	subq	%rdx,%r10
	leaq	16(%rsi),%r13
	leaq	(%rsi,%rbx),%r12
	addq	$16,%r12
	.p2align	4
7:
	movzbl	-3(%r10,%rbp),%edx
	movb	%dl,-3(%r9,%rbp)
	movzbl	-2(%r10,%rbp),%edx
	movb	%dl,-2(%r9,%rbp)
	movzbl	-1(%r10,%rbp),%edx
	movb	%dl,-1(%r9,%rbp)
	movzbl	(%r10,%rbp),%edx
	movb	%dl,(%r9,%rbp)
	addq	$4,%rbp
	cmpq	%rbp,%r8
	jne	7b
4:
	addq	%rcx,%rdi
	subq	%rax,%rdi
	addq	$2,%rdi
	jmp	2b
6:
	cmpq	$32,%r8
	jae	2f
	xorl	%r14d,%r14d
	jmp	6f
2:
	movq	%r8,%r14
	andq	$-32,%r14
	leaq	(%rdi,%r13),%r15
	subq	%rdx,%r12
	xorl	%ebp,%ebp
2:
	movups	-16(%r12,%rbp),%xmm0
	movups	(%r12,%rbp),%xmm1
	movups	%xmm0,-16(%r15,%rbp)
	movups	%xmm1,(%r15,%rbp)
	addq	$32,%rbp
	cmpq	%rbp,%r14
	jne	2b
	cmpq	%r14,%r8
	jne	2f
	leaq	(%rsi,%rbx),%r12
	addq	$16,%r12
	jmp	4b
2:
	testb	$28,%r8b
	leaq	16(%rsi,%rbx),%r12
	je	5b
6:
	movq	%r14,%r15
	movq	%r8,%r14
	andq	$-4,%r14
2:
	movl	(%r10,%r15),%ebp
	movl	%ebp,(%r11,%r15)
	addq	$4,%r15
	cmpq	%r15,%r14
	jne	2b
	cmpq	%r14,%r8
	je	4b
	jmp	5b
1:
	xorl	%eax,%eax
	xorl	%edi,%edi
1:
	movq	%rbx,%rdx
	subq	%rax,%rdx
	je	3f
	movzbl	(%rsi,%rax),%ecx
	testb	%cl,%cl
	je	2f
	cmpb	$-17,%cl
	jbe	4f
	jmp	3f
	.p2align	4
2:
	cmpq	$2,%rdx
	je	2f
	cmpq	$1,%rdx
	je	3f
	cmpq	$3,%rdx
	ja	5f
	cmpb	$0,1(%rsi,%rax)
	jne	5f
	cmpb	$0,2(%rsi,%rax)
	jne	5f
	jmp	3f
2:
	cmpb	$0,1(%rsi,%rax)
	je	3f
5:
	decq	%rdx
	leaq	(%rsi,%rax),%rcx
	incq	%rcx
	callq	rtp_ext.elements.skip_zeros
	testq	%rdx,%rdx
	je	3f
	movzbl	(%rax),%ecx
	cmpb	$-17,%cl
	ja	3f
4:
	movl	%ecx,%r11d
	andb	$15,%r11b
	leal	2(%r11),%eax
	movzbl	%al,%r8d
	movq	%r8,%rax
	subq	%rdx,%rax
	ja	3f
	addq	%rbx,%rax
	cmpb	$16,%cl
	jb	1b
	movq	%rax,%r9
	subq	%r8,%r9
	cmpq	%r9,%rdi
	jae	2f
	addq	%rsi,%r9
	leaq	(%rsi,%rdi),%r10
	cmpb	$2,%r11b
	jb	4f
	movq	%rdi,%r14
	subq	%rbx,%r14
	addq	%rdx,%r14
	cmpq	$16,%r14
	jae	5f
4:
	xorl	%edx,%edx
4:
	movzbl	%cl,%ecx
	andl	$15,%ecx
	addq	$2,%rcx
	.p2align	4
6:
	movzbl	(%r9,%rdx),%r11d
	movb	%r11b,(%r10,%rdx)
	incq	%rdx
	cmpq	%rdx,%rcx
	jne	6b
2:
	addq	%r8,%rdi
	jmp	1b
5:
	cmpb	$14,%r11b
	jae	1f
	xorl	%edx,%edx
	jmp	5f
1:
	movl	%r8d,%edx
	andl	$-16,%edx
	movups	(%r9),%xmm0
	movups	%xmm0,(%r10)
	cmpq	%r8,%rdx
	je	2b
	testb	$12,%r8b
	je	4b
5:
	movq	%rdx,%r11
	movl	%r8d,%edx
	andl	$-4,%edx
1:
	movl	(%r9,%r11),%ebp
	movl	%ebp,(%r10,%r11)
	addq	$4,%r11
	cmpq	%r11,%rdx
	jne	1b
	cmpl	%r8d,%edx
	je	2b
	jmp	4b
3:
	subq	%rdi,%rbx
	jbe	1f
	cmpq	$4,%rbx
	ja	2f
	leaq	3f(%rip),%rax
	movslq	(%rax,%rbx,4),%rcx
	addq	%rax,%rcx
	jmpq	*%rcx
4:
	movb	$0,(%rsi,%rdi)
	jmp	1f
5:
	movl	$0,(%rsi,%rdi)
	jmp	1f
6:
	movw	$0,(%rsi,%rdi)
	jmp	1f
7:
	movb	$0,2(%rsi,%rdi)
	movw	$0,(%rsi,%rdi)
	jmp	1f
2:
	movq	%rbx,%r14
	addq	%rdi,%rsi
	decq	%rbx
	movq	%rsi,%rcx
	xorl	%edx,%edx
	movq	%rbx,%r8
	callq	memset
	movb	$0,-1(%r14,%rsi)
1:
	movq	%rdi,%rax
	addq	$40,%rsp
	popq	%rbx
	popq	%rbp
	popq	%rdi
	popq	%rsi
	popq	%r12
	popq	%r13
	popq	%r14
	popq	%r15
	retq
	.section	.rdata,"dr"
	.p2align	2,0x0
3:
	.long	1b-3b
	.long	4b-3b
	.long	6b-3b
	.long	7b-3b
	.long	5b-3b
	.section	.text$rtp_ext.gathering.compact_body,"xr"
	.seh_endproc

	.def	rtp_wire.packet.rtp_packet_mut.RtpPacketMut.renumber;
	.scl	3;
	.type	32;
	.endef
	.section	.rdata,"dr"
	.p2align	4,0x0
1:
	.byte	14
	.byte	14
	.byte	14
	.byte	14
	.byte	14
	.byte	14
	.byte	14
	.byte	14
	.zero	1
	.zero	1
	.zero	1
	.zero	1
	.zero	1
	.zero	1
	.zero	1
	.zero	1
	.section	.text$rtp_wire.packet.rtp_packet_mut.RtpPacketMut.renumber,"xr"
	.p2align	4
rtp_wire.packet.rtp_packet_mut.RtpPacketMut.renumber:
.seh_proc rtp_wire.packet.rtp_packet_mut.RtpPacketMut.renumber
	pushq	%r15
	.seh_pushreg %r15
	pushq	%r14
	.seh_pushreg %r14
	pushq	%r13
	.seh_pushreg %r13
	pushq	%r12
	.seh_pushreg %r12
	pushq	%rsi
	.seh_pushreg %rsi
	pushq	%rdi
	.seh_pushreg %rdi
	pushq	%rbp
	.seh_pushreg %rbp
	pushq	%rbx
	.seh_pushreg %rbx
	subq	$40,%rsp
	.seh_stackalloc 40
	.seh_endprologue
	movb	$1,%sil
	cmpb	$1,24(%rcx)
	jne	2f
	movq	%rdx,%rdi
	movzbl	25(%rcx),%ebx
	movq	(%rcx),%rax
	movq	16(%rcx),%r14
	movzbl	(%rax),%ecx
	andl	$15,%ecx
	leaq	16(,%rcx,4),%rdx
	subq	%rdx,%r14
	leaq	(%rax,%rcx,4),%r15
	addq	$16,%r15
	cmpl	$1,%ebx
	je	3f
	testl	%ebx,%ebx
	jne	4f
	movq	(%rdi),%xmm0
	movdqa	1b(%rip),%xmm1
	pminub	%xmm0,%xmm1
	pcmpeqb	%xmm0,%xmm1
	pmovmskb	%xmm1,%eax
	xorb	$-1,%al
	jne	4f
	movq	7(%rdi),%xmm0
	movdqa	1b(%rip),%xmm1
	pminub	%xmm0,%xmm1
	pcmpeqb	%xmm0,%xmm1
	pmovmskb	%xmm1,%eax
	xorb	$-1,%al
	je	1f
4:
	movq	%r15,%rax
	movq	%r14,%rdx
4:
	testq	%rdx,%rdx
	je	5f
	movzbl	(%rax),%ecx
	testb	%cl,%cl
	jne	6f
	cmpq	$2,%rdx
	je	7f
	cmpq	$1,%rdx
	je	5f
	cmpq	$3,%rdx
	ja	8f
	cmpb	$0,1(%rax)
	jne	8f
	cmpb	$0,2(%rax)
	jne	8f
	jmp	5f
7:
	cmpb	$0,1(%rax)
	je	5f
8:
	decq	%rdx
	incq	%rax
	movq	%rax,%rcx
	callq	rtp_ext.elements.skip_zeros
	testq	%rdx,%rdx
	je	5f
	movzbl	(%rax),%ecx
6:
	cmpb	$-17,%cl
	ja	5f
	movl	%ecx,%r8d
	andb	$15,%r8b
	addb	$2,%r8b
	movzbl	%r8b,%r8d
	subq	%r8,%rdx
	jb	5f
	movzbl	%cl,%ecx
	shrl	$4,%ecx
	addq	%r8,%rax
	cmpb	$15,(%rdi,%rcx)
	jb	4b
	xorl	%esi,%esi
	jmp	2f
5:
	testb	%bl,%bl
	je	1f
3:
	testq	%r14,%r14
	je	2f
	movq	%r14,%rdx
	movq	%r15,%rax
	jmp	3f
1:
	testq	%r14,%r14
	je	2f
	movq	%r14,%rdx
	movq	%r15,%rcx
	jmp	1f
4:
	movl	$0,(%r15,%rbx)
	.p2align	4
5:
	addq	%r15,%rax
	negq	%r13
	cmpq	%rdx,%r12
	movq	%r13,%rdx
	je	2f
3:
	cmpb	$0,(%rax)
	jne	3f
	cmpq	$2,%rdx
	je	6f
	cmpq	$1,%rdx
	je	2f
	cmpq	$3,%rdx
	ja	7f
	cmpb	$0,1(%rax)
	jne	7f
	cmpb	$0,2(%rax)
	jne	7f
	jmp	2f
6:
	cmpb	$0,1(%rax)
	je	2f
7:
	decq	%rdx
	incq	%rax
	movq	%rax,%rcx
	callq	rtp_ext.elements.skip_zeros
	testq	%rdx,%rdx
	je	2f
3:
	cmpq	$2,%rdx
	jb	2f
	movzbl	1(%rax),%ecx
	movzbl	%cl,%r9d
	leaq	2(%r9),%r12
	movq	%r12,%r13
	subq	%rdx,%r13
	ja	2f
	movzbl	(%rax),%r8d
	leaq	(%r14,%r13),%rax
	movq	%rax,%rbx
	subq	%r9,%rbx
	addq	$-2,%rbx
	movzbl	(%rdi,%r8),%r9d
	testb	%r9b,%r9b
	je	3f
	cmpb	%r8b,%r9b
	je	5b
	movb	%r9b,(%r15,%rbx)
	movb	%cl,1(%r15,%rbx)
	jmp	5b
	.p2align	4
3:
	movq	%rax,%r8
	subq	%rbx,%r8
	cmpq	$4,%r8
	ja	3f
	leaq	6f(%rip),%rcx
	movslq	(%rcx,%r8,4),%r8
	addq	%rcx,%r8
	jmpq	*%r8
7:
	movb	$0,(%r15,%rbx)
	jmp	5b
8:
	movw	$0,(%r15,%rbx)
	jmp	5b
9:
	movb	$0,2(%r15,%rbx)
	movw	$0,(%r15,%rbx)
	jmp	5b
3:
	movq	%r8,32(%rsp)
	addq	%r15,%rbx
	decq	%r8
	movq	%rbx,%rcx
	movq	%rdx,%rbp
	xorl	%edx,%edx
	callq	memset
	leaq	(%r14,%r13),%rax
	movq	%rbp,%rdx
	movq	32(%rsp),%rcx
	movb	$0,-1(%rcx,%rbx)
	jmp	5b
3:
	movl	$0,(%rbx)
	.p2align	4
10:
	leaq	(%r14,%r13),%rcx
	addq	%r15,%rcx
	negq	%r13
	cmpq	%rdx,%r12
	movq	%r13,%rdx
	je	2f
1:
	movzbl	(%rcx),%r8d
	testb	%r8b,%r8b
	jne	1f
	cmpq	$2,%rdx
	je	11f
	cmpq	$1,%rdx
	je	2f
	cmpq	$3,%rdx
	ja	12f
	cmpb	$0,1(%rcx)
	jne	12f
	cmpb	$0,2(%rcx)
	jne	12f
	jmp	2f
11:
	cmpb	$0,1(%rcx)
	je	2f
12:
	decq	%rdx
	incq	%rcx
	callq	rtp_ext.elements.skip_zeros
	testq	%rdx,%rdx
	je	2f
	movzbl	(%rax),%r8d
1:
	cmpb	$-17,%r8b
	ja	2f
	movl	%r8d,%eax
	andb	$15,%al
	movzbl	%al,%ecx
	leaq	2(%rcx),%r12
	movq	%r12,%r13
	subq	%rdx,%r13
	ja	2f
	movzbl	%r8b,%r9d
	shrl	$4,%r9d
	movq	%r14,%rbx
	subq	%rdx,%rbx
	movzbl	(%rdi,%r9),%r8d
	testb	%r8b,%r8b
	je	1f
	cmpb	%r9b,%r8b
	je	10b
	rolb	$4,%r8b
	addb	%al,%r8b
	movb	%r8b,(%r15,%rbx)
	jmp	10b
1:
	addq	%r15,%rbx
	cmpb	$2,%al
	je	3b
	cmpl	$1,%ecx
	je	1f
	testl	%ecx,%ecx
	je	3f
	leaq	-1(%r12),%r8
	movq	%rbx,%rcx
	movq	%rdx,%rbp
	xorl	%edx,%edx
	callq	memset
	movq	%rbp,%rdx
	movb	$0,-1(%rbx,%r12)
	jmp	10b
1:
	movb	$0,2(%rbx)
3:
	movw	$0,(%rbx)
	jmp	10b
2:
	movl	%esi,%eax
	addq	$40,%rsp
	popq	%rbx
	popq	%rbp
	popq	%rdi
	popq	%rsi
	popq	%r12
	popq	%r13
	popq	%r14
	popq	%r15
	retq
	.section	.rdata,"dr"
	.p2align	2,0x0
6:
	.long	5b-6b
	.long	7b-6b
	.long	8b-6b
	.long	9b-6b
	.long	4b-6b
	.section	.text$rtp_wire.packet.rtp_packet_mut.RtpPacketMut.renumber,"xr"
	.seh_endproc

	.def	rtp_ext.block_values.read_apart.203c5bf9b6d6d505;
	.scl	3;
	.type	32;
	.endef
	.section	.rdata,"dr"
	.p2align	4,0x0
1:
	.zero	16,32
	.section	.text$rtp_ext.block_values.read_apart.203c5bf9b6d6d505,"xr"
	.p2align	4
rtp_ext.block_values.read_apart.203c5bf9b6d6d505:
.seh_proc rtp_ext.block_values.read_apart.203c5bf9b6d6d505
	pushq	%r15
	.seh_pushreg %r15
	pushq	%r14
	.seh_pushreg %r14
	pushq	%r13
	.seh_pushreg %r13
	pushq	%r12
	.seh_pushreg %r12
	pushq	%rsi
	.seh_pushreg %rsi
	pushq	%rdi
	.seh_pushreg %rdi
	pushq	%rbp
	.seh_pushreg %rbp
	pushq	%rbx
	.seh_pushreg %rbx
	subq	$136,%rsp
	.seh_stackalloc 136
	movdqa	%xmm6,112(%rsp)
	.seh_savexmm %xmm6,112
	.seh_endprologue
	movq	%r8,%r15
	movq	%rdx,%rax
	movq	%rcx,%r14
	movq	248(%rsp),%rbx
	movq	240(%rsp),%r8
	xorl	%esi,%esi
	testb	%r9b,%r9b
	jne	2f
	jmp	3f
	.p2align	4
4:
	movq	%rdi,%rax
3:
	testq	%r15,%r15
	je	5f
	movzbl	(%rax),%edx
	testb	%dl,%dl
	jne	6f
	cmpq	$2,%r15
	je	7f
	cmpq	$1,%r15
	je	5f
	cmpq	$3,%r15
	ja	8f
	cmpb	$0,1(%rax)
	jne	8f
	cmpb	$0,2(%rax)
	jne	8f
	jmp	5f
7:
	cmpb	$0,1(%rax)
	je	5f
8:
	decq	%r15
	incq	%rax
	movq	%rax,%rcx
	movq	%r15,%rdx
	callq	rtp_ext.elements.skip_zeros
	testq	%rdx,%rdx
	je	5f
	movq	%rdx,%r15
	movzbl	(%rax),%edx
	movq	240(%rsp),%r8
6:
	cmpb	$-17,%dl
	ja	5f
	movl	%edx,%ecx
	andb	$15,%cl
	leal	2(%rcx),%r9d
	movzbl	%r9b,%r13d
	subq	%r13,%r15
	jb	5f
	movzbl	%dl,%edx
	shrl	$4,%edx
	leaq	(%rax,%r13),%rdi
	testl	%edx,%edx
	je	4b
	movzbl	(%r14,%rdx),%edx
	decl	%edx
	cmpl	$14,%edx
	ja	4b
	leaq	1(%rax),%r12
	decq	%r13
	leaq	6f(%rip),%r9
	movslq	(%r9,%rdx,4),%rdx
	addq	%r9,%rdx
	jmpq	*%rdx
7:
	cmpb	$2,%cl
	jb	4b
	movzbl	1(%rax),%ecx
	movzwl	2(%rax),%eax
	shll	$16,%eax
	shll	$8,%ecx
	orl	%eax,%ecx
	bswapl	%ecx
	imulq	$1000000,%rcx,%rax
	shrq	$18,%rax
	movb	$1,115(%r8)
	movq	%rax,(%r8)
	movq	%rdi,%rax
	jmp	3b
8:
	testb	%cl,%cl
	je	9f
	testq	%r15,%r15
	je	10f
	movq	%r14,40(%rsp)
	movq	%rdi,%rbp
	movq	%r15,%rbx
11:
	movzbl	(%rdi),%eax
	testb	%al,%al
	jne	12f
	cmpq	$2,%r15
	je	13f
	cmpq	$1,%r15
	movq	40(%rsp),%r14
	movq	248(%rsp),%rbx
	je	10f
	cmpq	$3,%r15
	ja	14f
	cmpb	$0,1(%rdi)
	jne	14f
	cmpb	$0,2(%rdi)
	jne	14f
	jmp	10f
13:
	cmpb	$0,1(%rdi)
	movq	40(%rsp),%r14
	movq	248(%rsp),%rbx
	je	10f
14:
	leaq	-1(%r15),%rdx
	leaq	1(%rdi),%rcx
	callq	rtp_ext.elements.skip_zeros
	testq	%rdx,%rdx
	je	13f
	movq	%rax,%rbp
	movq	%rdx,%rbx
	movzbl	(%rax),%eax
12:
	cmpb	$-17,%al
	ja	12f
	movl	%eax,%ecx
	andb	$15,%cl
	addb	$2,%cl
	movzbl	%cl,%r14d
	subq	%r14,%rbx
	jb	12f
	movzbl	%al,%eax
	shrl	$4,%eax
	je	14f
	movq	40(%rsp),%rcx
	cmpb	$15,(%rcx,%rax)
	jne	14f
	leaq	1(%rbp),%r15
	addq	%r14,%rbp
	decq	%r14
	movq	%r15,%rcx
	movq	%r14,%rdx
	callq	rtp_ext.block_values.is_another_allocation
	testb	%al,%al
	cmovneq	%r14,%r13
	cmovneq	%r15,%r12
	movq	%rbx,%r15
	movq	%rbp,%rdi
	testq	%rbx,%rbx
	jne	11b
12:
	xorl	%r15d,%r15d
	movq	40(%rsp),%r14
11:
	movq	248(%rsp),%rbx
	leaq	rtp_static.0(%rip),%rdi
	cmpq	$1,%r13
	je	9f
	jmp	12f
15:
	movq	%r12,%rcx
	movq	%r13,%rdx
	callq	rtp_values.value.stream_id.read_repaired.a6b2bc1c138ab33f
	movq	240(%rsp),%r8
	movq	%rdi,%rax
	jmp	3b
16:
	movzbl	(%r12),%ecx
	shlb	$4,%cl
	movb	$1,121(%r8)
	movabsq	$25333521015767040,%rax
	shrq	%cl,%rax
	movw	%ax,66(%r8)
	movq	%rdi,%rax
	jmp	3b
17:
	cmpb	$3,%cl
	jb	4b
	movl	(%r12),%eax
	bswapl	%eax
	movb	$1,119(%r8)
	movl	%eax,60(%r8)
	jmp	4b
18:
	testb	%cl,%cl
	je	4b
	movzwl	(%r12),%eax
	rolw	$8,%ax
	movb	$1,120(%r8)
	movw	%ax,64(%r8)
	movq	%rdi,%rax
	jmp	3b
19:
	pxor	%xmm0,%xmm0
	movdqa	%xmm0,48(%rsp)
	movq	$0,64(%rsp)
	movdqa	1b(%rip),%xmm6
	movdqa	%xmm6,80(%rsp)
	xorl	%eax,%eax
	.p2align	4
20:
	movsbq	(%r12,%rax),%rcx
	testq	%rcx,%rcx
	js	21f
	leaq	rtp_static.2(%rip),%rdx
	movzbl	(%rcx,%rdx),%ecx
	movb	%cl,80(%rsp,%rax)
	incq	%rax
	cmpq	%rax,%r13
	jne	20b
	movdqa	80(%rsp),%xmm6
20:
	movb	$1,128(%r8)
	movdqa	1b(%rip),%xmm0
	pcmpeqb	%xmm6,%xmm0
	pandn	%xmm6,%xmm0
	movdqu	%xmm0,80(%r8)
	movb	$0,96(%r8)
	movq	%rdi,%rax
	jmp	3b
22:
	cmpb	$3,%cl
	jb	4b
	movl	(%r12),%eax
	bswapl	%eax
	movb	$1,118(%r8)
	movl	%eax,56(%r8)
	movq	%rdi,%rax
	jmp	3b
23:
	movzbl	(%r12),%eax
	movl	%eax,%ecx
	andb	$127,%cl
	negb	%cl
	movw	$257,123(%r8)
	movb	%cl,78(%r8)
	shrb	$7,%al
	movb	%al,79(%r8)
	movq	%rdi,%rax
	jmp	3b
24:
	cmpb	$7,%cl
	jb	4b
	cmpb	$15,%cl
	jne	25f
	movq	9(%rax),%rax
	bswapq	%rax
	jmp	26f
27:
	cmpb	$2,%cl
	jb	4b
	movzbl	1(%rax),%ecx
	movzwl	2(%rax),%eax
	shll	$16,%eax
	shll	$8,%ecx
	orl	%eax,%ecx
	bswapl	%ecx
	movl	%ecx,%eax
	shrl	$12,%eax
	andl	$4095,%ecx
	movw	$257,125(%r8)
	movq	%rax,24(%r8)
	movq	$100,32(%r8)
	movq	%rcx,40(%r8)
	movq	$100,48(%r8)
	movq	%rdi,%rax
	jmp	3b
28:
	movzbl	(%r12),%eax
	movb	$1,122(%r8)
	movb	%al,77(%r8)
	movq	%rdi,%rax
	jmp	3b
29:
	movq	%r12,%rcx
	movq	%r13,%rdx
	callq	rtp_values.value.stream_id.read.a6b2bc1c138ab33f
	movq	240(%rsp),%r8
	movq	%rdi,%rax
	jmp	3b
30:
	cmpb	$8,%cl
	jb	4b
	movzbl	1(%rax),%ecx
	movq	2(%rax),%xmm0
	movdqa	%xmm0,%xmm1
	psrlw	$8,%xmm1
	psllw	$8,%xmm0
	por	%xmm1,%xmm0
	movb	$1,127(%r8)
	movb	%cl,76(%r8)
	movq	%xmm0,68(%r8)
	movq	%rdi,%rax
	jmp	3b
21:
	leaq	48(%rsp),%rcx
	movq	%r12,%rdx
	movq	%r13,%r8
	callq	rtp_core.str.utf8.from_utf8
	cmpb	$0,48(%rsp)
	je	21f
	movq	240(%rsp),%r8
	movq	%rdi,%rax
	jmp	3b
10:
	xorl	%r15d,%r15d
	leaq	rtp_static.0(%rip),%rdi
	cmpq	$1,%r13
	jne	12f
9:
	cmpb	$0,(%r12)
	je	10f
	movq	240(%rsp),%r8
	movq	%rdi,%rax
	jmp	3b
10:
	movl	$1,%r13d
12:
	movq	%r12,%rcx
	movq	%r13,%rdx
	movq	%rbx,%r8
	callq	rtp_ext.block_values.read_long.1839c04a795dab0b
	orb	%al,%sil
	movq	240(%rsp),%r8
	movq	%rdi,%rax
	jmp	3b
25:
	xorl	%eax,%eax
26:
	movq	(%r12),%rdx
	bswapq	%rdx
	cmpb	$15,%cl
	movb	$1,116(%r8)
	movq	%rdx,8(%r8)
	sete	117(%r8)
	movq	%rax,16(%r8)
	movq	%rdi,%rax
	jmp	3b
21:
	movq	56(%rsp),%rax
	movq	64(%rsp),%rcx
	movdqa	%xmm6,96(%rsp)
	testq	%rcx,%rcx
	movq	240(%rsp),%r8
	je	20b
	movl	$1,%edx
	xorl	%r11d,%r11d
3:
	movzbl	-1(%rax,%rdx),%r9d
	cmpb	$-64,%r9b
	jl	10f
	leaq	rtp_static.2(%rip),%r10
	movzbl	(%r9,%r10),%r9d
	movb	%r9b,96(%rsp,%r11)
	incq	%r11
10:
	cmpq	%rcx,%rdx
	jae	10f
	incq	%rdx
	cmpq	$16,%r11
	jne	3b
10:
	movdqa	96(%rsp),%xmm6
	jmp	20b
14:
	movq	40(%rsp),%r14
	movq	248(%rsp),%rbx
	cmpq	$1,%r13
	je	9b
	jmp	12b
13:
	xorl	%r15d,%r15d
	jmp	11b
3:
	cmpb	$0,(%r13)
	je	9f
	.p2align	4
10:
	movq	%rbp,%rax
2:
	testq	%r15,%r15
	je	5f
	cmpb	$0,(%rax)
	je	11f
	cmpq	$2,%r15
	jae	12f
	jmp	5f
	.p2align	4
11:
	cmpq	$2,%r15
	je	11f
	cmpq	$1,%r15
	je	5f
	cmpq	$3,%r15
	ja	13f
	cmpb	$0,1(%rax)
	jne	13f
	cmpb	$0,2(%rax)
	jne	13f
	jmp	5f
11:
	cmpb	$0,1(%rax)
	je	5f
13:
	decq	%r15
	incq	%rax
	movq	%rax,%rcx
	movq	%r15,%rdx
	callq	rtp_ext.elements.skip_zeros
	testq	%rdx,%rdx
	je	5f
	movq	%rdx,%r15
	movq	240(%rsp),%r8
	cmpq	$2,%r15
	jb	5f
12:
	movzbl	1(%rax),%r12d
	leaq	2(%r12),%rbp
	subq	%rbp,%r15
	jb	5f
	movzbl	(%rax),%ecx
	addq	%rax,%rbp
	testq	%rcx,%rcx
	je	10b
	movzbl	(%r14,%rcx),%ecx
	decl	%ecx
	cmpl	$14,%ecx
	ja	10b
	leaq	2(%rax),%r13
	leaq	11f(%rip),%rdx
	movslq	(%rdx,%rcx,4),%rcx
	addq	%rdx,%rcx
	jmpq	*%rcx
12:
	cmpb	$3,%r12b
	jb	10b
	movzbl	2(%rax),%ecx
	movzwl	3(%rax),%eax
	shll	$16,%eax
	shll	$8,%ecx
	orl	%eax,%ecx
	bswapl	%ecx
	imulq	$1000000,%rcx,%rax
	shrq	$18,%rax
	movb	$1,115(%r8)
	movq	%rax,(%r8)
	movq	%rbp,%rax
	jmp	2b
13:
	cmpb	$2,%r12b
	jb	14f
	leaq	rtp_static.0(%rip),%rax
	testq	%r15,%r15
	je	20f
	movq	%r14,40(%rsp)
	movq	%r15,%rbx
21:
	cmpb	$0,(%rbp)
	movq	%rbp,%rax
	jne	25f
	cmpq	$2,%r15
	je	26f
	cmpq	$1,%r15
	movq	40(%rsp),%r14
	movq	248(%rsp),%rbx
	movq	240(%rsp),%r8
	leaq	rtp_static.0(%rip),%rax
	je	20f
	cmpq	$3,%r15
	ja	31f
	cmpb	$0,1(%rbp)
	jne	31f
	cmpb	$0,2(%rbp)
	jne	31f
	jmp	20f
26:
	cmpb	$0,1(%rbp)
	movq	40(%rsp),%r14
	movq	248(%rsp),%rbx
	movq	240(%rsp),%r8
	leaq	rtp_static.0(%rip),%rax
	je	20f
31:
	leaq	-1(%r15),%rdx
	leaq	1(%rbp),%rcx
	callq	rtp_ext.elements.skip_zeros
	testq	%rdx,%rdx
	je	26f
	movq	%rdx,%rbx
25:
	cmpq	$2,%rbx
	jb	25f
	movzbl	1(%rax),%r14d
	leaq	2(%r14),%rdi
	subq	%rdi,%rbx
	movq	240(%rsp),%r8
	jb	31f
	movzbl	(%rax),%ecx
	testq	%rcx,%rcx
	je	32f
	movq	40(%rsp),%rdx
	cmpb	$15,(%rdx,%rcx)
	jne	32f
	leaq	2(%rax),%r15
	addq	%rax,%rdi
	movq	%r15,%rcx
	movq	%r14,%rdx
	callq	rtp_ext.block_values.is_another_allocation
	testb	%al,%al
	cmovneq	%r14,%r12
	cmovneq	%r15,%r13
	movq	%rbx,%r15
	movq	%rdi,%rbp
	testq	%rbx,%rbx
	jne	21b
25:
	xorl	%r15d,%r15d
	leaq	rtp_static.0(%rip),%rbp
	movq	40(%rsp),%r14
21:
	movq	248(%rsp),%rbx
	movq	240(%rsp),%r8
	jmp	14f
25:
	movq	%r13,%rcx
	movq	%r12,%rdx
	callq	rtp_values.value.stream_id.read_repaired.a6b2bc1c138ab33f
	movq	240(%rsp),%r8
	movq	%rbp,%rax
	jmp	2b
33:
	testq	%r12,%r12
	je	10b
	movzbl	(%r13),%ecx
	shlb	$4,%cl
	movb	$1,121(%r8)
	movabsq	$25333521015767040,%rax
	shrq	%cl,%rax
	movw	%ax,66(%r8)
	movq	%rbp,%rax
	jmp	2b
34:
	cmpb	$4,%r12b
	jb	10b
	movl	(%r13),%eax
	bswapl	%eax
	movb	$1,119(%r8)
	movl	%eax,60(%r8)
	jmp	10b
35:
	cmpb	$2,%r12b
	jb	10b
	movzwl	(%r13),%eax
	rolw	$8,%ax
	movb	$1,120(%r8)
	movw	%ax,64(%r8)
	movq	%rbp,%rax
	jmp	2b
36:
	pxor	%xmm0,%xmm0
	movdqa	%xmm0,48(%rsp)
	movq	$0,64(%rsp)
	movdqa	1b(%rip),%xmm6
	movdqa	%xmm6,80(%rsp)
	cmpb	$16,%r12b
	ja	37f
	testq	%r12,%r12
	je	38f
	xorl	%eax,%eax
	.p2align	4
39:
	movsbq	(%r13,%rax),%rcx
	testq	%rcx,%rcx
	js	37f
	leaq	rtp_static.2(%rip),%rdx
	movzbl	(%rcx,%rdx),%ecx
	movb	%cl,80(%rsp,%rax)
	incq	%rax
	cmpq	%rax,%r12
	jne	39b
	movdqa	80(%rsp),%xmm6
	jmp	39f
40:
	cmpb	$4,%r12b
	jb	10b
	movl	(%r13),%eax
	bswapl	%eax
	movb	$1,118(%r8)
	movl	%eax,56(%r8)
	movq	%rbp,%rax
	jmp	2b
41:
	testq	%r12,%r12
	je	10b
	movzbl	(%r13),%eax
	movl	%eax,%ecx
	andb	$127,%cl
	negb	%cl
	movw	$257,123(%r8)
	movb	%cl,78(%r8)
	shrb	$7,%al
	movb	%al,79(%r8)
	movq	%rbp,%rax
	jmp	2b
42:
	cmpb	$8,%r12b
	jb	10b
	cmpb	$16,%r12b
	jb	43f
	movq	10(%rax),%rax
	bswapq	%rax
	jmp	44f
45:
	cmpb	$3,%r12b
	jb	10b
	movzbl	2(%rax),%ecx
	movzwl	3(%rax),%eax
	shll	$16,%eax
	shll	$8,%ecx
	orl	%eax,%ecx
	bswapl	%ecx
	movl	%ecx,%eax
	shrl	$12,%eax
	andl	$4095,%ecx
	movw	$257,125(%r8)
	movq	%rax,24(%r8)
	movq	$100,32(%r8)
	movq	%rcx,40(%r8)
	movq	$100,48(%r8)
	movq	%rbp,%rax
	jmp	2b
46:
	testq	%r12,%r12
	je	10b
	movzbl	(%r13),%eax
	movb	$1,122(%r8)
	movb	%al,77(%r8)
	movq	%rbp,%rax
	jmp	2b
47:
	movq	%r13,%rcx
	movq	%r12,%rdx
	callq	rtp_values.value.stream_id.read.a6b2bc1c138ab33f
	movq	240(%rsp),%r8
	movq	%rbp,%rax
	jmp	2b
48:
	cmpb	$9,%r12b
	jb	10b
	movzbl	2(%rax),%ecx
	movq	3(%rax),%xmm0
	movdqa	%xmm0,%xmm1
	psrlw	$8,%xmm1
	psllw	$8,%xmm0
	por	%xmm1,%xmm0
	movb	$1,127(%r8)
	movb	%cl,76(%r8)
	movq	%xmm0,68(%r8)
	movq	%rbp,%rax
	jmp	2b
37:
	leaq	48(%rsp),%rcx
	movq	%r13,%rdx
	movq	%r12,%r8
	callq	rtp_core.str.utf8.from_utf8
	cmpb	$0,48(%rsp)
	je	37f
	movq	240(%rsp),%r8
	movq	%rbp,%rax
	jmp	2b
20:
	xorl	%r15d,%r15d
	movq	%rax,%rbp
	jmp	14f
43:
	xorl	%eax,%eax
44:
	movq	(%r13),%rcx
	bswapq	%rcx
	cmpb	$16,%r12b
	movb	$1,116(%r8)
	movq	%rcx,8(%r8)
	setae	117(%r8)
	movq	%rax,16(%r8)
	movq	%rbp,%rax
	jmp	2b
37:
	movq	56(%rsp),%rax
	movq	64(%rsp),%rcx
	movdqa	%xmm6,96(%rsp)
	testq	%rcx,%rcx
	movq	240(%rsp),%r8
	je	39f
	movl	$1,%edx
	xorl	%r11d,%r11d
	.p2align	4
20:
	movzbl	-1(%rax,%rdx),%r9d
	cmpb	$-64,%r9b
	jl	37f
	leaq	rtp_static.2(%rip),%r10
	movzbl	(%r9,%r10),%r9d
	movb	%r9b,96(%rsp,%r11)
	incq	%r11
37:
	cmpq	%rcx,%rdx
	jae	37f
	incq	%rdx
	cmpq	$16,%r11
	jne	20b
37:
	movdqa	96(%rsp),%xmm6
39:
	movb	$1,128(%r8)
	movdqa	1b(%rip),%xmm0
	pcmpeqb	%xmm6,%xmm0
	pandn	%xmm6,%xmm0
	jmp	1f
38:
	movb	$1,128(%r8)
1:
	movdqu	%xmm0,80(%r8)
	movb	$0,96(%r8)
	movq	%rbp,%rax
	jmp	2b
31:
	xorl	%r15d,%r15d
	leaq	rtp_static.0(%rip),%rbp
32:
	movq	40(%rsp),%r14
	movq	248(%rsp),%rbx
14:
	testq	%r12,%r12
	je	10b
	cmpq	$1,%r12
	je	3b
9:
	movq	%r13,%rcx
	movq	%r12,%rdx
	movq	%rbx,%r8
	callq	rtp_ext.block_values.read_long.1839c04a795dab0b
	movq	240(%rsp),%r8
	orb	%al,%sil
	movq	%rbp,%rax
	jmp	2b
26:
	xorl	%r15d,%r15d
	leaq	rtp_static.0(%rip),%rbp
	jmp	21b
5:
	andb	$1,%sil
	movl	%esi,%eax
	movaps	112(%rsp),%xmm6
	addq	$136,%rsp
	popq	%rbx
	popq	%rbp
	popq	%rdi
	popq	%rsi
	popq	%r12
	popq	%r13
	popq	%r14
	popq	%r15
	retq
	.section	.rdata,"dr"
	.p2align	2,0x0
11:
	.long	12b-11b
	.long	42b-11b
	.long	41b-11b
	.long	40b-11b
	.long	33b-11b
	.long	35b-11b
	.long	45b-11b
	.long	46b-11b
	.long	48b-11b
	.long	47b-11b
	.long	25b-11b
	.long	36b-11b
	.long	34b-11b
	.long	10b-11b
	.long	13b-11b
6:
	.long	7b-6b
	.long	24b-6b
	.long	23b-6b
	.long	22b-6b
	.long	16b-6b
	.long	18b-6b
	.long	27b-6b
	.long	28b-6b
	.long	30b-6b
	.long	29b-6b
	.long	15b-6b
	.long	19b-6b
	.long	17b-6b
	.long	4b-6b
	.long	8b-6b
	.section	.text$rtp_ext.block_values.read_apart.203c5bf9b6d6d505,"xr"
	.seh_endproc

	.def	rtp_ext.block_values.read_long.1839c04a795dab0b;
	.scl	3;
	.type	32;
	.endef
	.section	.text$rtp_ext.block_values.read_long.1839c04a795dab0b,"xr"
	.p2align	4
rtp_ext.block_values.read_long.1839c04a795dab0b:
.seh_proc rtp_ext.block_values.read_long.1839c04a795dab0b
	pushq	%r15
	.seh_pushreg %r15
	pushq	%r14
	.seh_pushreg %r14
	pushq	%r13
	.seh_pushreg %r13
	pushq	%r12
	.seh_pushreg %r12
	pushq	%rsi
	.seh_pushreg %rsi
	pushq	%rdi
	.seh_pushreg %rdi
	pushq	%rbp
	.seh_pushreg %rbp
	pushq	%rbx
	.seh_pushreg %rbx
	subq	$136,%rsp
	.seh_stackalloc 136
	.seh_endprologue
	testq	%rdx,%rdx
	je	1f
	movq	%r8,%rbx
	movq	%rdx,%rdi
	cmpq	$1,%rdx
	jne	2f
	cmpb	$0,(%rcx)
	je	3f
2:
	leaq	1(%rcx),%rdx
	decq	%rdi
	movzbl	(%rcx),%esi
	movl	%esi,%r8d
	shrl	$4,%r8d
	andl	$3,%r8d
	leaq	1(%r8),%r10
	movl	%esi,%eax
	andl	$15,%eax
	imull	$16843009,%eax,%r9d
	movl	%esi,%eax
	movl	%r9d,40(%rsp)
	andb	$15,%al
	je	2f
	movzbl	%al,%ecx
	shll	$2,%ecx
	movabsq	$4841987667533046032,%rax
	shrq	%cl,%rax
	andl	$7,%eax
	mulb	%r10b
4:
	movzbl	%al,%ebp
	leal	3(%rbp),%ecx
	shrl	$2,%ecx
	xorl	%eax,%eax
	subq	%rcx,%rdi
	jb	5f
	movq	%r10,96(%rsp)
	leaq	(%rdx,%rcx),%r14
	testq	%rcx,%rcx
	je	6f
	cmpl	$1,%ecx
	jne	7f
	movzbl	(%rdx),%eax
	shll	$24,%eax
6:
	movq	%rdi,%r15
	movq	%r14,%r12
	testq	%rbp,%rbp
	jne	6f
	jmp	8f
2:
	leal	1(%r10),%eax
	shrl	%eax
	subq	%rax,%rdi
	jae	2f
1:
	xorl	%eax,%eax
	jmp	5f
3:
	movl	$680,%r8d
	movq	%rbx,%rcx
	xorl	%edx,%edx
	callq	memset
3:
	movb	$1,%al
5:
	addq	$136,%rsp
	popq	%rbx
	popq	%rbp
	popq	%rdi
	popq	%rsi
	popq	%r12
	popq	%r13
	popq	%r14
	popq	%r15
	retq
2:
	movzbl	(%rdx),%r9d
	shrb	$4,%r9b
	movb	%r9b,40(%rsp)
	testb	%r8b,%r8b
	je	2f
	movzbl	(%rdx),%r9d
	andb	$15,%r9b
	movb	%r9b,41(%rsp)
	cmpb	$2,%r10b
	je	2f
	movzbl	2(%rcx),%r9d
	shrb	$4,%r9b
	movb	%r9b,42(%rsp)
	cmpb	$3,%r10b
	je	2f
	movzbl	2(%rcx),%ecx
	andb	$15,%cl
	movb	%cl,43(%rsp)
2:
	addq	%rax,%rdx
	movzbl	40(%rsp),%eax
	imull	$134480385,%eax,%eax
	shrl	$3,%eax
	andl	$286331153,%eax
	imull	$286331153,%eax,%eax
	shrl	$28,%eax
	testb	%r8b,%r8b
	je	4b
	movzbl	41(%rsp),%ecx
	imull	$134480385,%ecx,%ecx
	shrl	$3,%ecx
	andl	$286331153,%ecx
	imull	$286331153,%ecx,%ecx
	shrl	$28,%ecx
	addb	%cl,%al
	cmpb	$2,%r10b
	je	4b
	movzbl	42(%rsp),%ecx
	imull	$134480385,%ecx,%ecx
	shrl	$3,%ecx
	andl	$286331153,%ecx
	imull	$286331153,%ecx,%ecx
	shrl	$28,%ecx
	addb	%cl,%al
	cmpb	$3,%r10b
	je	4b
	movzbl	43(%rsp),%ecx
	imull	$134480385,%ecx,%ecx
	shrl	$3,%ecx
	andl	$286331153,%ecx
	imull	$286331153,%ecx,%ecx
	shrl	$28,%ecx
	addb	%cl,%al
	jmp	4b
7:
	cmpb	$8,%bpl
	ja	2f
	movzwl	(%rdx),%eax
	bswapl	%eax
	movq	%rdi,%r15
	movq	%r14,%r12
	testq	%rbp,%rbp
	jne	6f
	jmp	8f
2:
	cmpl	$3,%ecx
	jne	2f
	movzbl	(%rdx),%ecx
	movzwl	1(%rdx),%eax
	shll	$8,%eax
	orl	%ecx,%eax
	jmp	4f
2:
	movl	(%rdx),%eax
4:
	bswapl	%eax
6:
	movl	%esi,44(%rsp)
	movl	%eax,%esi
	movl	%eax,%eax
	leal	32(,%rbp,2),%ecx
	negl	%ecx
	shrq	%cl,%rax
	movl	%eax,%ecx
	shrl	%ecx
	andl	$1431655765,%ecx
	movl	%eax,%edx
	subl	%ecx,%edx
	movl	%edx,%ecx
	andl	$858993459,%ecx
	shrl	$2,%edx
	andl	$858993459,%edx
	addl	%ecx,%edx
	movl	%edx,%ecx
	shrl	$4,%ecx
	addl	%edx,%ecx
	andl	$252645135,%ecx
	imull	$16843009,%ecx,%r13d
	shrl	$24,%r13d
	andl	$-1431655766,%eax
	movl	%eax,%ecx
	shrl	%ecx
	subl	%ecx,%eax
	movl	%eax,%ecx
	andl	$858993459,%ecx
	shrl	$2,%eax
	andl	$858993459,%eax
	addl	%ecx,%eax
	movl	%eax,%ecx
	shrl	$4,%ecx
	addl	%eax,%ecx
	andl	$252645135,%ecx
	imull	$16843009,%ecx,%eax
	shrl	$24,%eax
	addq	%rbp,%r13
	movq	%r14,%r12
	movq	%rdi,%r15
	addq	%rax,%r13
	je	2f
	movq	%rdi,%r15
	movq	%r14,%r12
	jmp	4f
	.p2align	4
5:
	xorl	%r15d,%r15d
6:
	decq	%r13
	je	2f
4:
	testq	%r15,%r15
	je	5b
	cmpb	$0,(%r12)
	js	4f
	decq	%r15
	incq	%r12
	jmp	6b
	.p2align	4
4:
	cmpq	$1,%r15
	je	4f
	cmpb	$0,1(%r12)
	js	4f
	movl	$2,%eax
	jmp	5f
4:
	leaq	48(%rsp),%rcx
	movq	%r12,%rdx
	movq	%r15,%r8
	callq	rtp_vla.leb.long_number_at
	cmpb	$1,48(%rsp)
	jne	6b
	movq	64(%rsp),%rax
5:
	addq	%rax,%r12
	subq	%rax,%r15
	jmp	6b
2:
	cmpq	$5,%r15
	jae	2f
	movl	%esi,%eax
	movl	44(%rsp),%esi
8:
	movl	%eax,44(%rsp)
	shrb	$6,%sil
	xorl	%r13d,%r13d
	movl	$680,%r8d
	movq	%rbx,%rcx
	xorl	%edx,%edx
	callq	memset
	movb	%sil,673(%rbx)
	jmp	4f
	.p2align	4
5:
	movq	104(%rsp),%r13
	incq	%r13
	cmpq	96(%rsp),%r13
	je	3b
4:
	movzbl	672(%rbx),%eax
	imulq	$168,%rax,%rcx
	movb	$0,160(%rbx,%rcx)
	incl	%eax
	movb	%al,672(%rbx)
	movq	%r13,104(%rsp)
	movzbl	40(%rsp,%r13),%r13d
	testb	%r13b,%r13b
	jne	3f
	jmp	5b
	.p2align	4
4:
	incb	-8(%r9)
	shrb	%r13b
	je	5b
3:
	xorps	%xmm0,%xmm0
	movaps	%xmm0,64(%rsp)
	movaps	%xmm0,48(%rsp)
	movq	$0,80(%rsp)
	testb	$1,%r13b
	jne	3f
	xorl	%ebp,%ebp
	xorl	%r8d,%r8d
	xorl	%edx,%edx
	xorl	%eax,%eax
	xorl	%ecx,%ecx
	jmp	5f
	.p2align	4
3:
	movq	%rbx,%rsi
	movq	%r15,%rbx
	movl	44(%rsp),%eax
	movl	%eax,%ebp
	shrl	$30,%ebp
	incl	%ebp
	xorl	%r15d,%r15d
	jmp	3f
	.p2align	4
6:
	xorl	%eax,%eax
	xorl	%edi,%edi
7:
	movq	%rax,48(%rsp,%r15,8)
	incq	%r15
	cmpq	%r15,%rbp
	je	9f
3:
	testq	%rdi,%rdi
	je	6b
	movsbq	(%r14),%rax
	testq	%rax,%rax
	js	3f
	decq	%rdi
	incq	%r14
	jmp	7b
	.p2align	4
3:
	cmpq	$1,%rdi
	je	3f
	movsbq	1(%r14),%rcx
	testq	%rcx,%rcx
	js	3f
	andl	$127,%eax
	shlq	$7,%rcx
	orq	%rcx,%rax
	movl	$2,%ecx
	jmp	6f
3:
	leaq	112(%rsp),%rcx
	movq	%r14,%rdx
	movq	%rdi,%r8
	callq	rtp_vla.leb.long_number_at
	cmpb	$1,112(%rsp)
	jne	3f
	movq	120(%rsp),%rax
	movq	128(%rsp),%rcx
6:
	addq	%rcx,%r14
	subq	%rcx,%rdi
	jmp	7b
3:
	xorl	%eax,%eax
	jmp	7b
	.p2align	4
9:
	shll	$2,44(%rsp)
	movq	%rbp,80(%rsp)
	movq	%rbx,%r15
	cmpq	$5,%rbx
	jae	3f
	xorl	%r8d,%r8d
	xorl	%edx,%edx
	xorl	%eax,%eax
	xorl	%ecx,%ecx
	jmp	6f
	.p2align	4
3:
	movzwl	(%r12),%ecx
	movzwl	2(%r12),%eax
	movzbl	4(%r12),%edx
	addq	$5,%r12
	addq	$-5,%r15
	rolw	$8,%cx
	rolw	$8,%ax
	incl	%ecx
	incl	%eax
	movb	$1,%r8b
6:
	movq	%rsi,%rbx
5:
	movzbl	672(%rbx),%r9d
	imulq	$168,%r9,%r10
	leaq	(%rbx,%r10),%r9
	movzbl	-8(%rbx,%r10),%r10d
	leaq	(%r10,%r10,4),%r10
	movaps	48(%rsp),%xmm0
	movaps	64(%rsp),%xmm1
	movups	%xmm1,-152(%r9,%r10,8)
	movups	%xmm0,-168(%r9,%r10,8)
	movb	%bpl,-130(%r9,%r10,8)
	testb	%r8b,%r8b
	je	4b
	leaq	(%r9,%r10,8),%r8
	addq	$-168,%r8
	movw	%cx,32(%r8)
	movw	%ax,34(%r8)
	movb	%dl,36(%r8)
	movb	$1,37(%r8)
	jmp	4b
2:
	leaq	-5(%r15),%r9
	movl	$1,%ecx
	movq	%r12,%rdx
	movl	%esi,%eax
	movl	44(%rsp),%esi
	.p2align	4
2:
	cmpw	$-1,(%rdx)
	je	1b
	cmpw	$-1,2(%rdx)
	je	1b
	subq	$5,%r9
	setb	%r8b
	cmpq	%rbp,%rcx
	jae	8b
	incq	%rcx
	addq	$5,%rdx
	testb	%r8b,%r8b
	je	2b
	jmp	8b
	.seh_endproc

	.def	rtp_c.template.not_routed_status;
	.scl	3;
	.type	32;
	.endef
	.section	.text$unlikely$rtp_c.template.not_routed_status,"xr"
	.p2align	4
rtp_c.template.not_routed_status:
	movzbl	(%rcx),%edx
	movl	$9,%eax
	cmpl	$2,%edx
	jae	1f
	retq
1:
	jne	1f
	movl	$16,%eax
	retq
1:
	movzbl	8(%rcx),%eax
	movzbl	9(%rcx),%edx
	movl	%eax,%ecx
	jmp	rtp_c.growing.put_status_of

	.def	rtp_c.status.refusal_status;
	.scl	3;
	.type	32;
	.endef
	.section	.text$unlikely$rtp_c.status.refusal_status,"xr"
	.p2align	4
rtp_c.status.refusal_status:
	movzbl	%cl,%eax
	leaq	rtp_switch.table.rtp_c.whole_packet.status_of_no_packet(%rip),%rcx
	movl	(%rcx,%rax,4),%eax
	retq

	.def	rtp_ext.place.remove_element;
	.scl	3;
	.type	32;
	.endef
	.section	.text$rtp_ext.place.remove_element,"xr"
	.p2align	4
rtp_ext.place.remove_element:
.seh_proc rtp_ext.place.remove_element
	pushq	%r15
	.seh_pushreg %r15
	pushq	%r14
	.seh_pushreg %r14
	pushq	%r13
	.seh_pushreg %r13
	pushq	%r12
	.seh_pushreg %r12
	pushq	%rsi
	.seh_pushreg %rsi
	pushq	%rdi
	.seh_pushreg %rdi
	pushq	%rbp
	.seh_pushreg %rbp
	pushq	%rbx
	.seh_pushreg %rbx
	subq	$56,%rsp
	.seh_stackalloc 56
	.seh_endprologue
	movl	%r9d,%ebx
	movq	%r8,%r9
	movq	%rdx,%r14
	xorl	%esi,%esi
	testb	%cl,%cl
	je	1f
	testq	%r9,%r9
	je	2f
	movq	%r9,%rdx
	movq	%r14,%rax
	jmp	3f
1:
	testq	%r9,%r9
	je	2f
	movq	%r9,%rdx
	movq	%r14,%r15
	jmp	1f
4:
	movl	$0,(%r14,%r15)
	.p2align	4
5:
	cmpb	%bl,%dil
	sete	%cl
	orb	%cl,%sil
	addq	%r14,%rax
	negq	%r13
	cmpq	%rdx,%r12
	movq	%r13,%rdx
	je	2f
3:
	cmpb	$0,(%rax)
	je	3f
	cmpq	$2,%rdx
	jae	6f
	jmp	2f
	.p2align	4
3:
	cmpq	$2,%rdx
	je	3f
	cmpq	$1,%rdx
	je	2f
	cmpq	$3,%rdx
	ja	7f
	cmpb	$0,1(%rax)
	jne	7f
	cmpb	$0,2(%rax)
	jne	7f
	jmp	2f
3:
	cmpb	$0,1(%rax)
	je	2f
7:
	movq	%r9,%rdi
	decq	%rdx
	incq	%rax
	movq	%rax,%rcx
	callq	rtp_ext.elements.skip_zeros
	testq	%rdx,%rdx
	je	2f
	movq	%rdi,%r9
	cmpq	$2,%rdx
	jb	2f
6:
	movzbl	1(%rax),%ecx
	leaq	2(%rcx),%r12
	movq	%r12,%r13
	subq	%rdx,%r13
	ja	2f
	movzbl	(%rax),%edi
	leaq	(%r9,%r13),%rax
	cmpb	%bl,%dil
	jne	5b
	movq	%rax,%r15
	subq	%rcx,%r15
	addq	$-2,%r15
	movq	%rax,%r8
	subq	%r15,%r8
	cmpq	$4,%r8
	ja	3f
	leaq	6f(%rip),%rcx
	movslq	(%rcx,%r8,4),%r8
	addq	%rcx,%r8
	jmpq	*%r8
7:
	movb	$0,(%r14,%r15)
	jmp	5b
8:
	movw	$0,(%r14,%r15)
	jmp	5b
9:
	movb	$0,2(%r14,%r15)
	movw	$0,(%r14,%r15)
	jmp	5b
3:
	movq	%r8,40(%rsp)
	addq	%r14,%r15
	decq	%r8
	movq	%r15,%rcx
	movq	%rdx,48(%rsp)
	xorl	%edx,%edx
	movq	%r9,%rbp
	callq	memset
	movq	%rbp,%r9
	movq	%r13,%rax
	addq	%rbp,%rax
	movq	48(%rsp),%rdx
	movq	40(%rsp),%rcx
	movb	$0,-1(%rcx,%r15)
	jmp	5b
3:
	movl	$0,(%r12)
	.p2align	4
10:
	cmpb	%bl,%bpl
	sete	%al
	orb	%al,%sil
	addq	%r14,%r15
	negq	%r13
	cmpq	%rdx,%rdi
	movq	%r13,%rdx
	je	2f
1:
	movzbl	(%r15),%ebp
	testb	%bpl,%bpl
	jne	1f
	cmpq	$2,%rdx
	je	11f
	cmpq	$1,%rdx
	je	2f
	cmpq	$3,%rdx
	ja	12f
	cmpb	$0,1(%r15)
	jne	12f
	cmpb	$0,2(%r15)
	jne	12f
	jmp	2f
11:
	cmpb	$0,1(%r15)
	je	2f
12:
	movq	%r9,%rdi
	decq	%rdx
	incq	%r15
	movq	%r15,%rcx
	callq	rtp_ext.elements.skip_zeros
	testq	%rdx,%rdx
	je	2f
	movzbl	(%rax),%ebp
	movq	%rdi,%r9
1:
	cmpb	$-17,%bpl
	ja	2f
	movl	%ebp,%ecx
	andb	$15,%cl
	movzbl	%cl,%eax
	leaq	2(%rax),%rdi
	movq	%rdi,%r13
	subq	%rdx,%r13
	ja	2f
	shrb	$4,%bpl
	leaq	(%r9,%r13),%r15
	cmpb	%bl,%bpl
	jne	10b
	movq	%r15,%r12
	subq	%rdi,%r12
	addq	%r14,%r12
	cmpb	$2,%cl
	je	3b
	cmpl	$1,%eax
	je	1f
	testl	%eax,%eax
	je	3f
	leaq	-1(%rdi),%r8
	movq	%r12,%rcx
	movq	%rdx,48(%rsp)
	xorl	%edx,%edx
	movq	%r9,40(%rsp)
	callq	memset
	movq	40(%rsp),%r9
	movq	48(%rsp),%rdx
	movb	$0,-1(%r12,%rdi)
	jmp	10b
1:
	movb	$0,2(%r12)
3:
	movw	$0,(%r12)
	jmp	10b
2:
	andb	$1,%sil
	movl	%esi,%eax
	addq	$56,%rsp
	popq	%rbx
	popq	%rbp
	popq	%rdi
	popq	%rsi
	popq	%r12
	popq	%r13
	popq	%r14
	popq	%r15
	retq
	.section	.rdata,"dr"
	.p2align	2,0x0
6:
	.long	5b-6b
	.long	7b-6b
	.long	8b-6b
	.long	9b-6b
	.long	4b-6b
	.section	.text$rtp_ext.place.remove_element,"xr"
	.seh_endproc

	.def	rtp_route.walk.write_kept.82187cbc7fdfa14b;
	.scl	3;
	.type	32;
	.endef
	.section	.text$rtp_route.walk.write_kept.82187cbc7fdfa14b,"xr"
	.p2align	4
rtp_route.walk.write_kept.82187cbc7fdfa14b:
.seh_proc rtp_route.walk.write_kept.82187cbc7fdfa14b
	pushq	%r15
	.seh_pushreg %r15
	pushq	%r14
	.seh_pushreg %r14
	pushq	%r13
	.seh_pushreg %r13
	pushq	%r12
	.seh_pushreg %r12
	pushq	%rsi
	.seh_pushreg %rsi
	pushq	%rdi
	.seh_pushreg %rdi
	pushq	%rbp
	.seh_pushreg %rbp
	pushq	%rbx
	.seh_pushreg %rbx
	subq	$56,%rsp
	.seh_stackalloc 56
	.seh_endprologue
	movq	%r8,%rbx
	movq	%rdx,%rsi
	movq	%rcx,%r11
	movq	184(%rsp),%r10
	movq	176(%rsp),%rdx
	movq	168(%rsp),%rax
	movzbl	160(%rsp),%ecx
	orb	%r9b,%cl
	movq	%r11,32(%rsp)
	je	1f
	movb	$1,%dil
	testq	%rdx,%rdx
	je	2f
	movl	%r9d,%ebp
	leaq	16(%r11),%rcx
	movq	%rcx,40(%rsp)
	leaq	3(%r11),%rcx
	movq	%rcx,48(%rsp)
	jmp	3f
1:
	testq	%rdx,%rdx
	jne	1f
4:
	movb	$1,%dil
2:
	movl	%edi,%eax
	movq	%rbx,%rdx
	addq	$56,%rsp
	popq	%rbx
	popq	%rbp
	popq	%rdi
	popq	%rsi
	popq	%r12
	popq	%r13
	popq	%r14
	popq	%r15
	retq
5:
	movzbl	(%rax),%eax
	movb	%al,(%r11,%r13)
6:
	addq	%r12,%r13
	movq	%r13,%rbx
7:
	movq	%r15,%rax
	testq	%rdx,%rdx
	je	2b
3:
	cmpb	$0,(%rax)
	je	3f
	testb	%bpl,%bpl
	je	8f
9:
	cmpq	$2,%rdx
	jb	2b
	movzbl	1(%rax),%r12d
	leaq	2(%r12),%r15
	subq	%r15,%rdx
	jb	2b
	movzbl	(%rax),%ecx
	addq	%rax,%r15
	movzbl	(%r10,%rcx),%r13d
	testb	%r13b,%r13b
	je	7b
	addq	$2,%rax
	jmp	10f
	.p2align	4
3:
	cmpq	$2,%rdx
	je	3f
	cmpq	$1,%rdx
	je	2b
	cmpq	$3,%rdx
	ja	11f
	cmpb	$0,1(%rax)
	jne	11f
	cmpb	$0,2(%rax)
	jne	11f
	jmp	2b
3:
	cmpb	$0,1(%rax)
	je	2b
11:
	decq	%rdx
	incq	%rax
	movq	%rax,%rcx
	callq	rtp_ext.elements.skip_zeros
	testq	%rdx,%rdx
	je	2b
	movq	32(%rsp),%r11
	movq	184(%rsp),%r10
	testb	%bpl,%bpl
	jne	9b
8:
	movzbl	(%rax),%ecx
	cmpq	$239,%rcx
	ja	2b
	movl	%ecx,%r12d
	andl	$15,%r12d
	addq	$2,%r12
	subq	%r12,%rdx
	jb	2b
	shrl	$4,%ecx
	leaq	(%rax,%r12),%r15
	movzbl	(%r10,%rcx),%r13d
	testb	%r13b,%r13b
	je	7b
	incq	%rax
	decq	%r12
	cmpb	$15,%r13b
	jae	3f
10:
	movzbl	%r13b,%ecx
	movzbl	256(%r10,%rcx),%r14d
	testq	%r14,%r14
	je	8f
	cmpb	%r14b,546(%r10)
	jb	8f
	cmpb	%r13b,511(%r10,%r14)
	jne	8f
	movq	192(%rsp),%rax
	cmpl	$0,-8(%rax,%r14,8)
	jne	9f
	movzbl	527(%r10,%r14),%eax
	movzbl	%al,%r12d
	leaq	(%rbx,%r12),%rcx
	addq	$2,%rcx
	cmpq	%rcx,%rsi
	jb	9f
	movq	%rsi,%rdi
	cmpb	$0,160(%rsp)
	je	11f
	movb	%r13b,(%r11,%rbx)
	movb	%al,1(%r11,%rbx)
	movl	$2,%esi
	addq	%rbx,%rsi
	testl	%r12d,%r12d
	jne	12f
	jmp	13f
	.p2align	4
8:
	leaq	(%rbx,%r12),%rcx
	addq	$2,%rcx
	cmpq	%rcx,%rsi
	jb	9f
	cmpb	$0,160(%rsp)
	je	8f
	movb	%r13b,(%r11,%rbx)
	movb	%r12b,1(%r11,%rbx)
	movl	$2,%r8d
	leaq	(%r8,%rbx),%r13
	testq	%r12,%r12
	jne	14f
	jmp	15f
8:
	rolb	$4,%r13b
	addb	%r12b,%r13b
	decb	%r13b
	movb	%r13b,(%r11,%rbx)
	movl	$1,%r8d
	leaq	(%r8,%rbx),%r13
	testq	%r12,%r12
	je	15f
14:
	cmpl	$1,%r12d
	je	5b
	cmpl	$2,%r12d
	ja	5f
	movzbl	(%rax),%ecx
	movb	%cl,(%r11,%r13)
	movzbl	1(%rax),%eax
	movb	%al,1(%r11,%r13)
	jmp	6b
5:
	cmpl	$3,%r12d
	jne	15f
	movzbl	(%rax),%ecx
	movb	%cl,(%r11,%r13)
	movzbl	1(%rax),%ecx
	movb	%cl,1(%r11,%r13)
	movzbl	2(%rax),%eax
	movb	%al,2(%r11,%r13)
	jmp	6b
15:
	leaq	(%r11,%r13),%rcx
	movq	%rcx,%r9
	subq	%rax,%r9
	cmpq	%r12,%r9
	jae	5f
	cmpl	$4,%r12d
	jb	8f
	addq	%r11,%rbx
	addq	%r8,%rbx
	subq	%rax,%rbx
	cmpq	$32,%rbx
	jae	14f
8:
	xorl	%r8d,%r8d
8:
	movq	%r12,%r10
	movq	%r8,%r9
	andq	$3,%r10
	je	15f
	movq	%r8,%r9
	.p2align	4
16:
	movzbl	(%rax,%r9),%r11d
	movb	%r11b,(%rcx,%r9)
	incq	%r9
	decq	%r10
	jne	16b
15:
	subl	%r12d,%r8d
	cmpl	$-4,%r8d
	movq	32(%rsp),%r11
	movq	184(%rsp),%r10
	ja	6b
	movq	48(%rsp),%rcx
	addq	%r13,%rcx
	.p2align	4
15:
	movzbl	(%rax,%r9),%r8d
	movb	%r8b,-3(%rcx,%r9)
	movzbl	1(%rax,%r9),%r8d
	movb	%r8b,-2(%rcx,%r9)
	movzbl	2(%rax,%r9),%r8d
	movb	%r8b,-1(%rcx,%r9)
	movzbl	3(%rax,%r9),%r8d
	movb	%r8b,(%rcx,%r9)
	addq	$4,%r9
	cmpq	%r9,%r12
	jne	15b
	jmp	6b
5:
	movq	%rsi,%rdi
	movq	%rdx,%rsi
	movq	%rax,%rdx
	movq	%r12,%r8
	callq	memmove
	movq	184(%rsp),%r10
	movq	32(%rsp),%r11
	movq	%rsi,%rdx
	movq	%rdi,%rsi
	movb	$1,%dil
	jmp	6b
11:
	rolb	$4,%r13b
	addb	%al,%r13b
	decb	%r13b
	movb	%r13b,(%r11,%rbx)
	movl	$1,%esi
	addq	%rbx,%rsi
	testl	%r12d,%r12d
	je	13f
12:
	cmpl	$1,%r12d
	jne	5f
	movb	$0,(%r11,%rsi)
	jmp	11f
5:
	cmpb	$2,%al
	ja	5f
	movw	$0,(%r11,%rsi)
	jmp	11f
14:
	cmpl	$32,%r12d
	jae	12f
	xorl	%r8d,%r8d
	jmp	14f
5:
	cmpb	$3,%al
	jne	13f
	movw	$0,(%r11,%rsi)
	movb	$0,2(%r11,%rsi)
	jmp	11f
13:
	leaq	(%r11,%rsi),%rcx
	movq	%rdx,%rbx
	xorl	%edx,%edx
	movq	%r12,%r8
	callq	memset
	movq	184(%rsp),%r10
	movq	32(%rsp),%r11
	movq	%rbx,%rdx
11:
	leaq	(%rsi,%r12),%rbx
	movq	192(%rsp),%rax
	movl	%esi,-8(%rax,%r14,8)
	movl	%r12d,-4(%rax,%r14,8)
	movq	%rdi,%rsi
	movb	$1,%dil
	jmp	7b
3:
	movzbl	160(%rsp),%ecx
	movq	%rsi,%rdi
	movq	%rdx,%rsi
	movl	%r13d,%edx
	movq	%r12,%r8
	movq	%rax,%r14
	callq	rtp_route.walk.is_carried
	movq	184(%rsp),%r10
	movq	32(%rsp),%r11
	movq	%rsi,%rdx
	movq	%rdi,%rsi
	movb	$1,%dil
	movl	%eax,%ecx
	movq	%r14,%rax
	testb	%cl,%cl
	jne	10b
	jmp	9f
12:
	movq	%r12,%r8
	andq	$-32,%r8
	movq	40(%rsp),%r9
	addq	%r13,%r9
	xorl	%r10d,%r10d
	.p2align	4
3:
	movups	(%rax,%r10),%xmm0
	movups	16(%rax,%r10),%xmm1
	movups	%xmm0,-16(%r9,%r10)
	movups	%xmm1,(%r9,%r10)
	addq	$32,%r10
	cmpq	%r10,%r8
	jne	3b
	cmpl	%r8d,%r12d
	movq	184(%rsp),%r10
	je	6b
	testb	$28,%r12b
	je	8b
14:
	movq	%r8,%r9
	movq	%r12,%r8
	andq	$-4,%r8
	.p2align	4
3:
	movl	(%rax,%r9),%r10d
	movl	%r10d,(%rcx,%r9)
	addq	$4,%r9
	cmpq	%r9,%r8
	jne	3b
	cmpl	%r8d,%r12d
	movq	184(%rsp),%r10
	je	6b
	jmp	8b
	.p2align	4
3:
	movzbl	(%r8),%r8d
	movb	%r8b,(%r11,%rcx)
5:
	addq	%r13,%rbx
	movq	184(%rsp),%r10
6:
	addq	%r13,%rax
	testq	%rdx,%rdx
	je	4b
1:
	movzbl	(%rax),%ecx
	testb	%cl,%cl
	jne	1f
	cmpq	$2,%rdx
	je	7f
	cmpq	$1,%rdx
	je	4b
	cmpq	$3,%rdx
	ja	8f
	cmpb	$0,1(%rax)
	jne	8f
	cmpb	$0,2(%rax)
	jne	8f
	jmp	4b
7:
	cmpb	$0,1(%rax)
	je	4b
8:
	decq	%rdx
	incq	%rax
	movq	%rax,%rcx
	callq	rtp_ext.elements.skip_zeros
	testq	%rdx,%rdx
	je	4b
	movzbl	(%rax),%ecx
	movq	32(%rsp),%r11
	movq	184(%rsp),%r10
1:
	cmpb	$-17,%cl
	ja	4b
	movl	%ecx,%ebp
	andb	$15,%bpl
	leal	2(%rbp),%r8d
	movzbl	%r8b,%r13d
	subq	%r13,%rdx
	jb	4b
	movzbl	%cl,%ecx
	shrl	$4,%ecx
	movzbl	(%r10,%rcx),%r12d
	testq	%r12,%r12
	je	6b
	movq	%rsi,%rdi
	leaq	-1(%r13),%r15
	cmpb	$15,%r12b
	jae	1f
4:
	movzbl	256(%r10,%r12),%esi
	testq	%rsi,%rsi
	je	7f
	cmpb	%sil,546(%r10)
	jb	7f
	cmpb	%r12b,511(%r10,%rsi)
	jne	7f
	movq	192(%rsp),%rcx
	cmpl	$0,-8(%rcx,%rsi,8)
	jne	9f
	movzbl	527(%r10,%rsi),%r14d
	leaq	(%rbx,%r14),%rcx
	addq	$2,%rcx
	cmpq	%rcx,%rdi
	jb	9f
	rolb	$4,%r12b
	addb	%r14b,%r12b
	decb	%r12b
	movb	%r12b,(%r11,%rbx)
	incq	%rbx
	testl	%r14d,%r14d
	je	8f
	cmpl	$1,%r14d
	jne	10f
	movb	$0,(%r11,%rbx)
	jmp	11f
	.p2align	4
7:
	leaq	(%rbx,%r15),%rcx
	addq	$2,%rcx
	cmpq	%rcx,%rdi
	jb	9f
	movq	%rdi,%rsi
	leaq	1(%rax),%r8
	rolb	$4,%r12b
	addb	%r15b,%r12b
	decb	%r12b
	movb	%r12b,(%r11,%rbx)
	leaq	1(%rbx),%rcx
	cmpq	$1,%r15
	je	3b
	cmpb	$1,%bpl
	ja	3f
	movzbl	1(%rax),%r8d
	movb	%r8b,(%r11,%rcx)
	movzbl	2(%rax),%r8d
	movb	%r8b,1(%r11,%rcx)
	jmp	5b
3:
	cmpl	$3,%r15d
	jne	3f
	movzbl	1(%rax),%r8d
	movb	%r8b,(%r11,%rcx)
	movzbl	2(%rax),%r8d
	movb	%r8b,1(%r11,%rcx)
	movzbl	3(%rax),%r8d
	movb	%r8b,2(%r11,%rcx)
	jmp	5b
3:
	addq	%r11,%rcx
	movq	%rcx,%r9
	subq	%r8,%r9
	cmpq	%r15,%r9
	jae	3f
	cmpb	$2,%bpl
	jne	7f
	xorl	%r9d,%r9d
	jmp	12f
1:
	xorl	%ecx,%ecx
	movq	%rdx,%rsi
	movl	%r12d,%edx
	movq	%r15,%r8
	movq	%rax,%r14
	callq	rtp_route.walk.is_carried
	movq	184(%rsp),%r10
	movq	32(%rsp),%r11
	movq	%rsi,%rdx
	movl	%eax,%ecx
	movq	%r14,%rax
	testb	%cl,%cl
	jne	4b
	jmp	1f
3:
	movq	%rdx,%rsi
	movq	%r8,%rdx
	movq	%r15,%r8
	movq	%rax,%r14
	callq	memmove
	movq	32(%rsp),%r11
	movq	%r14,%rax
	movq	%rsi,%rdx
	movq	%rdi,%rsi
	jmp	5b
10:
	cmpb	$2,%r14b
	ja	3f
	movw	$0,(%r11,%rbx)
	jmp	11f
7:
	leaq	(%rbx,%r11),%r9
	subq	%rax,%r9
	cmpq	$16,%r9
	jae	4f
	xorl	%r9d,%r9d
	.p2align	4
12:
	movzbl	(%r8,%r9),%r10d
	movb	%r10b,(%rcx,%r9)
	incq	%r9
	cmpq	%r9,%r15
	jne	12b
	jmp	5b
3:
	cmpl	$3,%r14d
	jne	8f
	movw	$0,(%r11,%rbx)
	movb	$0,2(%r11,%rbx)
	jmp	11f
8:
	leaq	(%r11,%rbx),%rcx
	movq	%rdx,%r15
	xorl	%edx,%edx
	movq	%r14,%r8
	movq	%rax,%r12
	callq	memset
	movq	184(%rsp),%r10
	movq	32(%rsp),%r11
	movq	%r12,%rax
	movq	%r15,%rdx
11:
	movq	%r14,%rcx
	addq	%rbx,%rcx
	movq	192(%rsp),%r8
	movl	%ebx,-8(%r8,%rsi,8)
	movl	%r14d,-4(%r8,%rsi,8)
	movq	%rcx,%rbx
	movq	%rdi,%rsi
	jmp	6b
4:
	cmpb	$15,%bpl
	jne	3f
	movups	(%r8),%xmm0
	movups	%xmm0,(%rcx)
	jmp	5b
3:
	movq	%r15,%r9
	andq	$-4,%r9
	xorl	%r10d,%r10d
3:
	movl	(%r8,%r10),%r11d
	movl	%r11d,(%rcx,%r10)
	addq	$4,%r10
	cmpq	%r10,%r9
	jne	3b
	cmpl	%r9d,%r15d
	movq	32(%rsp),%r11
	jne	12b
	jmp	5b
9:
	xorl	%edi,%edi
	xorl	%ebx,%ebx
	jmp	2b
1:
	xorl	%ebx,%ebx
	xorl	%edi,%edi
	jmp	2b
	.seh_endproc

	.def	rtp_route.walk.is_carried;
	.scl	3;
	.type	32;
	.endef
	.section	.text$unlikely$rtp_route.walk.is_carried,"xr"
	.p2align	4
rtp_route.walk.is_carried:
	testb	%cl,%cl
	je	1f
	testb	%dl,%dl
	setne	%cl
	cmpq	$256,%r8
	setb	%al
	andb	%cl,%al
	retq
1:
	decb	%dl
	cmpb	$14,%dl
	setb	%cl
	decq	%r8
	cmpq	$16,%r8
	setb	%al
	andb	%cl,%al
	retq

	.def	rtp_route.copying.put_any;
	.scl	3;
	.type	32;
	.endef
	.section	.text$rtp_route.copying.put_any,"xr"
	.p2align	4
rtp_route.copying.put_any:
	movq	%rcx,%rax
	subq	%rdx,%rax
	cmpq	%r8,%rax
	jae	memmove
	cmpq	$4,%r8
	setb	%r9b
	cmpq	$32,%rax
	setb	%al
	orb	%r9b,%al
	je	1f
	xorl	%eax,%eax
	jmp	2f
1:
	cmpq	$32,%r8
	jae	1f
	xorl	%eax,%eax
	jmp	3f
1:
	movq	%r8,%rax
	andq	$-32,%rax
	xorl	%r9d,%r9d
	.p2align	4
1:
	movups	(%rdx,%r9),%xmm0
	movups	16(%rdx,%r9),%xmm1
	movups	%xmm0,(%rcx,%r9)
	movups	%xmm1,16(%rcx,%r9)
	addq	$32,%r9
	cmpq	%r9,%rax
	jne	1b
	cmpq	%rax,%r8
	je	1f
	testb	$28,%r8b
	je	2f
3:
	movq	%rax,%r9
	movq	%r8,%rax
	andq	$-4,%rax
	.p2align	4
3:
	movl	(%rdx,%r9),%r10d
	movl	%r10d,(%rcx,%r9)
	addq	$4,%r9
	cmpq	%r9,%rax
	jne	3b
	cmpq	%rax,%r8
	je	1f
2:
	movq	%r8,%r10
	movq	%rax,%r9
	andq	$3,%r10
	je	2f
	movq	%rax,%r9
	.p2align	4
3:
	movzbl	(%rdx,%r9),%r11d
	movb	%r11b,(%rcx,%r9)
	incq	%r9
	decq	%r10
	jne	3b
2:
	subq	%r8,%rax
	cmpq	$-4,%rax
	ja	1f
	.p2align	4
2:
	movzbl	(%rdx,%r9),%eax
	movb	%al,(%rcx,%r9)
	movzbl	1(%rdx,%r9),%eax
	movb	%al,1(%rcx,%r9)
	movzbl	2(%rdx,%r9),%eax
	movb	%al,2(%rcx,%r9)
	movzbl	3(%rdx,%r9),%eax
	movb	%al,3(%rcx,%r9)
	addq	$4,%r9
	cmpq	%r9,%r8
	jne	2b
1:
	retq

	.def	rtp_route.by_walk.write_in_two_byte_form.82187cbc7fdfa14b;
	.scl	3;
	.type	32;
	.endef
	.section	.rdata,"dr"
	.p2align	4,0x0
1:
	.byte	14
	.byte	14
	.byte	14
	.byte	14
	.byte	14
	.byte	14
	.byte	14
	.byte	14
	.zero	1
	.zero	1
	.zero	1
	.zero	1
	.zero	1
	.zero	1
	.zero	1
	.zero	1
	.section	.text$unlikely$rtp_route.by_walk.write_in_two_byte_form.82187cbc7fdfa14b,"xr"
	.p2align	4
rtp_route.by_walk.write_in_two_byte_form.82187cbc7fdfa14b:
.seh_proc rtp_route.by_walk.write_in_two_byte_form.82187cbc7fdfa14b
	pushq	%r15
	.seh_pushreg %r15
	pushq	%r14
	.seh_pushreg %r14
	pushq	%r13
	.seh_pushreg %r13
	pushq	%r12
	.seh_pushreg %r12
	pushq	%rsi
	.seh_pushreg %rsi
	pushq	%rdi
	.seh_pushreg %rdi
	pushq	%rbp
	.seh_pushreg %rbp
	pushq	%rbx
	.seh_pushreg %rbx
	subq	$392,%rsp
	.seh_stackalloc 392
	.seh_endprologue
	movq	%rcx,%rsi
	cmpb	$1,24(%rdx)
	jne	2f
	movq	(%rdx),%r14
	movq	16(%rdx),%r13
	movzbl	25(%rdx),%ebx
	movzbl	(%r8),%eax
	movb	%al,83(%rsp)
	movzbl	1(%r8),%eax
	movb	%al,81(%rsp)
	movzbl	2(%r8),%eax
	movb	%al,78(%rsp)
	movzbl	3(%r8),%eax
	movb	%al,82(%rsp)
	movzbl	4(%r8),%eax
	movb	%al,79(%rsp)
	movzwl	6(%r8),%eax
	movw	%ax,86(%rsp)
	movzbl	8(%r8),%eax
	movb	%al,80(%rsp)
	movl	12(%r8),%eax
	movl	%eax,108(%rsp)
	movzbl	16(%r8),%r15d
	movl	20(%r8),%eax
	movl	%eax,112(%rsp)
	movzbl	(%r14),%r12d
	movq	%r9,%rdi
	leaq	1(%r9),%rdx
	movb	$0,136(%rsp)
	leaq	137(%rsp),%rcx
	movl	$255,%r8d
	callq	memcpy
	cmpl	$1,%ebx
	je	2f
	testl	%ebx,%ebx
	jne	3f
	movq	136(%rsp),%xmm0
	movdqa	1b(%rip),%xmm1
	pminub	%xmm0,%xmm1
	pcmpeqb	%xmm0,%xmm1
	pmovmskb	%xmm1,%eax
	xorb	$-1,%al
	jne	3f
	movq	143(%rsp),%xmm0
	movdqa	1b(%rip),%xmm1
	pminub	%xmm0,%xmm1
	pcmpeqb	%xmm0,%xmm1
	pmovmskb	%xmm1,%eax
	xorb	$-1,%al
	je	2f
3:
	movq	504(%rsp),%rbp
	andl	$15,%r12d
	leaq	16(,%r12,4),%rcx
	leaq	(%r14,%r12,4),%rax
	addq	$16,%rax
	movq	%r13,%rdx
	subq	%rcx,%rdx
1:
	testq	%rdx,%rdx
	je	2f
	movzbl	(%rax),%ecx
	testb	%cl,%cl
	jne	3f
	cmpq	$2,%rdx
	je	4f
	cmpq	$1,%rdx
	je	2f
	cmpq	$3,%rdx
	ja	5f
	cmpb	$0,1(%rax)
	jne	5f
	cmpb	$0,2(%rax)
	jne	5f
	jmp	2f
4:
	cmpb	$0,1(%rax)
	je	2f
5:
	decq	%rdx
	incq	%rax
	movq	%rax,%rcx
	callq	rtp_ext.elements.skip_zeros
	testq	%rdx,%rdx
	je	2f
	movzbl	(%rax),%ecx
3:
	cmpb	$-17,%cl
	ja	2f
	movl	%ecx,%r8d
	andb	$15,%r8b
	addb	$2,%r8b
	movzbl	%r8b,%r8d
	subq	%r8,%rdx
	jb	2f
	movzbl	%cl,%ecx
	shrl	$4,%ecx
	addq	%r8,%rax
	cmpb	$15,136(%rsp,%rcx)
	jb	1b
	pxor	%xmm0,%xmm0
	movq	512(%rsp),%r12
	movdqu	%xmm0,112(%r12)
	movdqu	%xmm0,96(%r12)
	movdqu	%xmm0,80(%r12)
	movdqu	%xmm0,64(%r12)
	movdqu	%xmm0,48(%r12)
	movdqu	%xmm0,32(%r12)
	movdqu	%xmm0,16(%r12)
	cmpq	$262140,%rbp
	movl	$262140,%edx
	cmovbq	%rbp,%rdx
	movdqu	%xmm0,(%r12)
	leaq	3(,%r13,2),%rax
	movq	%rdx,%r9
	subq	%rax,%r9
	jb	1f
	movzbl	546(%rdi),%ecx
	movzwl	544(%rdi),%r8d
	leaq	(%r8,%rcx,2),%r8
	cmpq	%r8,%r9
	jb	1f
	movq	%rdi,%rax
	movzbl	(%r14),%ebp
	testb	%cl,%cl
	je	3f
	cmpb	$1,547(%rax)
	je	1f
3:
	shll	$2,%ebp
	andl	$60,%ebp
	leaq	16(%rbp),%r8
	leaq	(%r14,%rbp),%rcx
	addq	$16,%rcx
	subq	%r8,%r13
	movq	%r12,64(%rsp)
	movq	%rax,56(%rsp)
	movq	%r13,48(%rsp)
	movq	%rcx,40(%rsp)
	movb	$1,32(%rsp)
	movq	496(%rsp),%rcx
	movq	%rdx,96(%rsp)
	movl	%ebx,%r9d
	callq	rtp_route.walk.write_kept.82187cbc7fdfa14b
	cmpb	$1,%al
	jne	1f
	movq	%rbp,120(%rsp)
	movzbl	546(%rdi),%r8d
	testq	%r8,%r8
	je	3f
	movq	%rdi,%rax
	xorl	%ebp,%ebp
	movq	496(%rsp),%rcx
	movq	96(%rsp),%r10
	movq	%r8,88(%rsp)
	jmp	4f
2:
	pxor	%xmm0,%xmm0
	movdqu	%xmm0,(%rsi)
	movw	$0,16(%rsi)
2:
	addq	$392,%rsp
	popq	%rbx
	popq	%rbp
	popq	%rdi
	popq	%rsi
	popq	%r12
	popq	%r13
	popq	%r14
	popq	%r15
	retq
5:
	movq	%rdx,%r11
	incq	%rbp
	cmpq	%rbp,%r8
	je	6f
4:
	cmpl	$0,(%r12,%rbp,8)
	jne	5b
	movzbl	528(%rax,%rbp),%r9d
	movzbl	%r9b,%r13d
	leaq	(%rdx,%r13),%r11
	addq	$2,%r11
	cmpq	%r11,%r10
	jb	1f
	leaq	2(%rdx),%r12
	movzbl	512(%rax,%rbp),%r8d
	movq	496(%rsp),%rcx
	movb	%r8b,(%rcx,%rdx)
	movb	%r13b,1(%rcx,%rdx)
	testl	%r13d,%r13d
	je	5f
	cmpl	$1,%r13d
	jne	7f
	movb	$0,(%rcx,%r12)
	jmp	8f
7:
	cmpb	$2,%r9b
	ja	7f
	movw	$0,(%rcx,%r12)
	jmp	8f
7:
	cmpb	$3,%r9b
	jne	5f
	movw	$0,(%rcx,%r12)
	movb	$0,2(%rcx,%r12)
	jmp	8f
5:
	addq	%r12,%rcx
	xorl	%edx,%edx
	movq	%r13,%r8
	movq	%r11,128(%rsp)
	callq	memset
	movq	128(%rsp),%r11
	movq	96(%rsp),%r10
	movq	496(%rsp),%rcx
	movq	%rdi,%rax
8:
	movq	88(%rsp),%r8
	movq	512(%rsp),%rdx
	movl	%r12d,(%rdx,%rbp,8)
	movq	%rdx,%r12
	movl	%r13d,4(%rdx,%rbp,8)
	movq	%r11,%rdx
	incq	%rbp
	cmpq	%rbp,%r8
	jne	4b
	jmp	6f
3:
	movq	%rdx,%r11
	movq	496(%rsp),%rcx
	movq	96(%rsp),%r10
6:
	leaq	3(%r11),%rdi
	andq	$-4,%rdi
	cmpq	%rdi,%r10
	jae	3f
1:
	xorl	%edi,%edi
	xorl	%eax,%eax
1:
	movzbl	%al,%eax
	movq	%rax,(%rsi)
	movq	%rdi,8(%rsi)
	movb	%al,16(%rsi)
	movb	%al,17(%rsi)
	jmp	2b
3:
	movq	%rdi,%rax
	subq	%r11,%rax
	movq	120(%rsp),%rdx
	leaq	16(%rdx),%r12
	je	2f
	cmpq	$2,%rax
	je	3f
	cmpq	$1,%rax
	jne	4f
	movb	$0,(%rcx,%r11)
	jmp	2f
4:
	movb	$0,2(%rcx,%r11)
3:
	movw	$0,(%rcx,%r11)
2:
	cmpb	$33,%dl
	jb	2f
	movq	%r14,%rdx
	movq	%r12,%r8
	callq	rtp_route.copying.put_any
	movq	496(%rsp),%rcx
	jmp	3f
2:
	movups	(%r14),%xmm0
	movups	%xmm0,(%rcx)
	cmpb	$17,%dl
	jb	2f
	movups	16(%r14),%xmm0
	movups	%xmm0,16(%rcx)
2:
	movdqu	(%r14,%rdx),%xmm0
	movdqu	%xmm0,(%rcx,%rdx)
3:
	movzbl	80(%rsp),%r9d
	movzbl	79(%rsp),%r10d
	movzbl	78(%rsp),%r11d
	movq	%rdi,%rax
	subq	%r12,%rax
	cmpl	$1,%ebx
	je	2f
	movw	$16,84(%rsp)
	addq	%r12,%rcx
	addq	$-4,%rcx
	leaq	84(%rsp),%rdx
	movq	%rcx,%r8
	subq	%rdx,%r8
	cmpq	$1,%r8
	ja	3f
	movzwl	84(%rsp),%edx
	movw	%dx,(%rcx)
	jmp	4f
3:
	movw	$16,(%rcx)
4:
	movq	496(%rsp),%rcx
2:
	movl	%eax,%edx
	shrl	$10,%edx
	andl	$-4,%eax
	shll	$6,%eax
	movzbl	%dl,%edx
	orl	%eax,%edx
	movw	%dx,118(%rsp)
	movw	%dx,-2(%rcx,%r12)
	cmpb	$1,83(%rsp)
	je	2f
	cmpb	$1,%r11b
	je	3f
4:
	cmpb	$1,%r10b
	je	5f
6:
	cmpb	$1,%r9b
	je	7f
8:
	movb	$1,%al
	cmpb	$1,%r15b
	jne	1b
	jmp	9f
2:
	movzbl	81(%rsp),%edx
	shlb	$7,%dl
	movzbl	1(%rcx),%eax
	andb	$127,%al
	orb	%dl,%al
	movb	%al,1(%rcx)
	cmpb	$1,%r11b
	jne	4b
3:
	movzbl	1(%rcx),%eax
	andb	$-128,%al
	addb	82(%rsp),%al
	movb	%al,1(%rcx)
	cmpb	$1,%r10b
	jne	6b
5:
	movzwl	86(%rsp),%eax
	rolw	$8,%ax
	movw	%ax,2(%rcx)
	cmpb	$1,%r9b
	jne	8b
7:
	movl	108(%rsp),%eax
	bswapl	%eax
	movl	%eax,4(%rcx)
	movb	$1,%al
	cmpb	$1,%r15b
	jne	1b
9:
	movl	112(%rsp),%edx
	bswapl	%edx
	movl	%edx,8(%rcx)
	jmp	1b
	.seh_endproc

	.def	rtp_route.making.make_by_calls_of.82187cbc7fdfa14b;
	.scl	3;
	.type	32;
	.endef
	.section	.text$unlikely$rtp_route.making.make_by_calls_of.82187cbc7fdfa14b,"xr"
	.p2align	4
rtp_route.making.make_by_calls_of.82187cbc7fdfa14b:
.seh_proc rtp_route.making.make_by_calls_of.82187cbc7fdfa14b
	pushq	%r15
	.seh_pushreg %r15
	pushq	%r14
	.seh_pushreg %r14
	pushq	%r13
	.seh_pushreg %r13
	pushq	%r12
	.seh_pushreg %r12
	pushq	%rsi
	.seh_pushreg %rsi
	pushq	%rdi
	.seh_pushreg %rdi
	pushq	%rbp
	.seh_pushreg %rbp
	pushq	%rbx
	.seh_pushreg %rbx
	subq	$408,%rsp
	.seh_stackalloc 408
	.seh_endprologue
	movq	%r9,%rdi
	movq	%r8,%r14
	movq	%rdx,%rbx
	movq	%rcx,%rsi
	movq	512(%rsp),%r12
	movq	16(%rdx),%r13
	movzbl	24(%rdx),%ebp
	movzbl	25(%rdx),%r15d
	xorps	%xmm0,%xmm0
	movaps	%xmm0,64(%rsp)
	movaps	%xmm0,48(%rsp)
	movq	$0,104(%rsp)
	movq	$0,136(%rsp)
	leaq	1(%r8),%rdx
	leaq	153(%rsp),%rcx
	movl	$255,%r8d
	callq	memcpy
	movb	$0,152(%rsp)
	movzbl	547(%r14),%eax
	testl	%eax,%eax
	je	1f
	cmpl	$1,%eax
	jne	2f
	xorl	%ecx,%ecx
	jmp	3f
1:
	movl	%eax,%ecx
	jmp	3f
2:
	movb	$1,%al
	movb	$1,%cl
3:
	movq	520(%rsp),%r8
	leaq	152(%rsp),%rdx
	movq	%rdx,88(%rsp)
	movq	%r14,96(%rsp)
	movb	%al,104(%rsp)
	movb	%cl,105(%rsp)
	movups	(%rbx),%xmm0
	movaps	%xmm0,112(%rsp)
	movq	%r13,128(%rsp)
	movb	%bpl,136(%rsp)
	movb	%r15b,137(%rsp)
	movq	%r8,40(%rsp)
	movq	%r12,32(%rsp)
	leaq	48(%rsp),%rcx
	leaq	112(%rsp),%rdx
	leaq	88(%rsp),%r8
	movq	%rdi,%r9
	callq	rtp_route.making.make_by_calls.7cdc9bd62dfc103a
	movzbl	48(%rsp),%eax
	movq	%rax,(%rsi)
	movq	56(%rsp),%rax
	movq	%rax,8(%rsi)
	movzbl	64(%rsp),%eax
	movb	%al,16(%rsi)
	movzbl	65(%rsp),%eax
	movb	%al,17(%rsi)
	movq	72(%rsp),%rax
	movq	%rax,24(%rsi)
	addq	$408,%rsp
	popq	%rbx
	popq	%rbp
	popq	%rdi
	popq	%rsi
	popq	%r12
	popq	%r13
	popq	%r14
	popq	%r15
	retq
	.seh_endproc

	.def	rtp_route.making.make_by_calls.7cdc9bd62dfc103a;
	.scl	3;
	.type	32;
	.endef
	.section	.text$unlikely$rtp_route.making.make_by_calls.7cdc9bd62dfc103a,"xr"
	.p2align	4
rtp_route.making.make_by_calls.7cdc9bd62dfc103a:
.seh_proc rtp_route.making.make_by_calls.7cdc9bd62dfc103a
	pushq	%r15
	.seh_pushreg %r15
	pushq	%r14
	.seh_pushreg %r14
	pushq	%r13
	.seh_pushreg %r13
	pushq	%r12
	.seh_pushreg %r12
	pushq	%rsi
	.seh_pushreg %rsi
	pushq	%rdi
	.seh_pushreg %rdi
	pushq	%rbp
	.seh_pushreg %rbp
	pushq	%rbx
	.seh_pushreg %rbx
	subq	$440,%rsp
	.seh_stackalloc 440
	movaps	%xmm6,416(%rsp)
	.seh_savexmm %xmm6,416
	.seh_endprologue
	movq	%r9,%rbx
	movq	%r8,%rdi
	movq	%rdx,%rax
	movq	%rcx,%rsi
	movq	(%rdx),%rdx
	movq	16(%rax),%r8
	movzbl	24(%rax),%ebp
	movzbl	25(%rax),%r15d
	xorps	%xmm0,%xmm0
	movaps	%xmm0,256(%rsp)
	movaps	%xmm0,240(%rsp)
	movaps	%xmm0,288(%rsp)
	movaps	%xmm0,304(%rsp)
	movaps	%xmm0,320(%rsp)
	movaps	%xmm0,336(%rsp)
	movaps	%xmm0,352(%rsp)
	movaps	%xmm0,368(%rsp)
	movaps	%xmm0,384(%rsp)
	movaps	%xmm0,400(%rsp)
	movaps	%xmm0,272(%rsp)
	movl	$3,%r9d
	cmpq	%r8,544(%rsp)
	jae	1f
	movb	$8,%cl
	xorl	%eax,%eax
	jmp	2f
1:
	leaq	-49(%r8),%rax
	cmpq	$-34,%rax
	movq	%r8,80(%rsp)
	ja	1f
	movq	%rbx,%rcx
	callq	rtp_route.copying.put_any
	movq	80(%rsp),%r8
	jmp	3f
1:
	movups	(%rdx),%xmm0
	movups	%xmm0,(%rbx)
	cmpq	$33,%r8
	jb	1f
	movups	16(%rdx),%xmm0
	movups	%xmm0,16(%rbx)
1:
	movups	-16(%rdx,%r8),%xmm0
	movups	%xmm0,-16(%rbx,%r8)
3:
	movq	(%rdi),%r12
	movzbl	16(%rdi),%r14d
	movzbl	17(%rdi),%r13d
	movq	$0,136(%rsp)
	movq	%rbx,112(%rsp)
	movq	%r8,120(%rsp)
	movq	%r8,128(%rsp)
	movb	%bpl,136(%rsp)
	movb	%r15b,137(%rsp)
	leaq	112(%rsp),%rcx
	movq	%r12,%rdx
	callq	rtp_wire.packet.rtp_packet_mut.RtpPacketMut.renumber
	testb	%al,%al
	je	1f
	movq	544(%rsp),%r14
3:
	xorps	%xmm0,%xmm0
	movaps	%xmm0,112(%rsp)
	movq	$0,128(%rsp)
	movq	8(%rdi),%r15
	movzbl	546(%r15),%r12d
	testq	%r12,%r12
	je	4f
	xorl	%ebp,%ebp
	movq	80(%rsp),%r9
	.p2align	4
5:
	movzbl	528(%r15,%rbp),%eax
	movzbl	512(%r15,%rbp),%ecx
	movzbl	16(%rdi),%edx
	movzbl	17(%rdi),%r8d
	movb	%r8b,64(%rsp)
	movb	%dl,56(%rsp)
	movq	%rax,48(%rsp)
	leaq	rtp_static.8(%rip),%rax
	movq	%rax,40(%rsp)
	movb	%cl,32(%rsp)
	leaq	112(%rsp),%rcx
	movq	%rbx,%rdx
	movq	%r14,%r8
	callq	rtp_wire.packet.putting.put_element_copy.1
	movq	120(%rsp),%r9
	cmpb	$0,112(%rsp)
	jne	6f
	incq	%rbp
	cmpq	%rbp,%r12
	jne	5b
	jmp	5f
1:
	cmpb	$1,%r14b
	jne	1f
	testb	%r13b,%r13b
	jne	1f
	xorl	%ecx,%ecx
	movl	$2,%r9d
	xorl	%eax,%eax
	xorl	%r8d,%r8d
	jmp	2f
4:
	movq	80(%rsp),%r9
5:
	leaq	272(%rsp),%rcx
	movq	%rbx,%rdx
	movq	%r9,%r8
	callq	rtp_wire.packet.compacting.compact_copy.1
	cmpb	$0,272(%rsp)
	jne	4f
	movq	280(%rsp),%r14
	cmpq	$12,%r14
	jb	4f
	movzbl	(%rbx),%edx
	cmpb	$-65,%dl
	jg	4f
	movl	%edx,%eax
	andl	$15,%eax
	leaq	12(,%rax,4),%rax
	movq	%r14,%rcx
	subq	%rax,%rcx
	jb	4f
	testb	$16,%dl
	jne	5f
	xorl	%r15d,%r15d
	xorl	%ebp,%ebp
	jmp	7f
5:
	cmpq	$4,%rcx
	jb	4f
	movzwl	2(%rbx,%rax),%edx
	rolw	$8,%dx
	addq	$-4,%rcx
	movzwl	%dx,%edx
	shll	$2,%edx
	cmpq	%rdx,%rcx
	jb	4f
	movzwl	(%rbx,%rax),%ecx
	movl	%ecx,%r8d
	andl	$61695,%r8d
	xorl	%ebp,%ebp
	cmpw	$16,%r8w
	sete	%bpl
	cmpl	$57022,%ecx
	movl	$1,%r15d
	cmovnel	%ebp,%r15d
	addq	%rdx,%rax
	addq	$4,%rax
7:
	movq	%rbx,240(%rsp)
	movq	%r14,248(%rsp)
	movq	%rax,256(%rsp)
	movb	%r15b,264(%rsp)
	movb	%bpl,265(%rsp)
	movq	8(%rdi),%rdi
	movl	$0,96(%rsp)
	movq	$0,88(%rsp)
	xorps	%xmm0,%xmm0
	movaps	%xmm0,112(%rsp)
	movaps	%xmm0,128(%rsp)
	movaps	%xmm0,144(%rsp)
	movaps	%xmm0,160(%rsp)
	movaps	%xmm0,176(%rsp)
	movaps	%xmm0,192(%rsp)
	movaps	%xmm0,208(%rsp)
	movaps	%xmm0,224(%rsp)
	movzbl	546(%rdi),%ebx
	testq	%rbx,%rbx
	je	5f
	xorl	%r12d,%r12d
	.p2align	4
7:
	movzbl	512(%rdi,%r12),%r8d
	leaq	88(%rsp),%rcx
	leaq	240(%rsp),%rdx
	callq	rtp_route.slots.slot_of
	cmpb	$1,88(%rsp)
	jne	4f
	movq	92(%rsp),%rax
	movq	%rax,112(%rsp,%r12,8)
	incq	%r12
	cmpq	%r12,%rbx
	jne	7b
5:
	movq	552(%rsp),%rax
	movaps	224(%rsp),%xmm0
	movaps	%xmm0,400(%rsp)
	movaps	208(%rsp),%xmm0
	movaps	%xmm0,384(%rsp)
	movaps	192(%rsp),%xmm1
	movaps	%xmm1,368(%rsp)
	movaps	176(%rsp),%xmm2
	movaps	%xmm2,352(%rsp)
	movaps	112(%rsp),%xmm3
	movaps	128(%rsp),%xmm4
	movaps	144(%rsp),%xmm5
	movaps	160(%rsp),%xmm6
	movaps	%xmm6,336(%rsp)
	movaps	%xmm5,320(%rsp)
	movaps	%xmm4,304(%rsp)
	movaps	%xmm3,288(%rsp)
	movups	%xmm0,96(%rax)
	movups	%xmm1,80(%rax)
	movups	%xmm2,64(%rax)
	movups	%xmm6,48(%rax)
	movups	%xmm5,32(%rax)
	movups	%xmm4,16(%rax)
	movups	%xmm3,(%rax)
	movaps	400(%rsp),%xmm0
	movups	%xmm0,112(%rax)
	movq	$0,(%rsi)
	movq	%r14,8(%rsi)
	movb	%r15b,16(%rsi)
	movb	%bpl,17(%rsi)
	movq	$0,24(%rsi)
	jmp	5f
6:
	movl	%r9d,%eax
	movl	%r9d,%ecx
	movq	128(%rsp),%r8
6:
	shrl	$8,%eax
	movl	$3,%r9d
2:
	movq	$1,(%rsi)
	movq	%r9,8(%rsi)
	movb	%cl,16(%rsi)
	movb	%al,17(%rsi)
	movq	%r8,24(%rsi)
5:
	movaps	416(%rsp),%xmm6
	addq	$440,%rsp
	popq	%rbx
	popq	%rbp
	popq	%rdi
	popq	%rsi
	popq	%r12
	popq	%r13
	popq	%r14
	popq	%r15
	retq
1:
	leaq	88(%rsp),%rcx
	movq	%rbx,%rdx
	movq	544(%rsp),%r14
	movq	%r14,%r8
	movq	80(%rsp),%r9
	callq	rtp_route.in_place.change_form
	movq	96(%rsp),%rcx
	cmpb	$0,88(%rsp)
	je	1f
	movl	%ecx,%eax
	movq	104(%rsp),%r8
	jmp	6b
1:
	movq	$257,136(%rsp)
	movq	%rbx,112(%rsp)
	movq	%rcx,120(%rsp)
	movq	%rcx,80(%rsp)
	movq	%rcx,128(%rsp)
	leaq	112(%rsp),%rcx
	movq	%r12,%rdx
	callq	rtp_wire.packet.rtp_packet_mut.RtpPacketMut.renumber
	jmp	3b
4:
	ud2
	.seh_endproc

	.def	rtp_route.in_place.change_form;
	.scl	3;
	.type	32;
	.endef
	.section	.text$unlikely$rtp_route.in_place.change_form,"xr"
	.p2align	4
rtp_route.in_place.change_form:
.seh_proc rtp_route.in_place.change_form
	pushq	%rsi
	.seh_pushreg %rsi
	subq	$96,%rsp
	.seh_stackalloc 96
	.seh_endprologue
	movq	%rcx,%rsi
	xorps	%xmm0,%xmm0
	movaps	%xmm0,32(%rsp)
	movq	$0,48(%rsp)
	movq	%rdx,56(%rsp)
	movq	%r8,64(%rsp)
	movq	%r9,72(%rsp)
	movq	%r9,80(%rsp)
	movb	$1,88(%rsp)
	movl	$0,89(%rsp)
	movl	$0,92(%rsp)
	leaq	32(%rsp),%rcx
	leaq	56(%rsp),%rdx
	movb	$1,%r8b
	callq	rtp_wire.packet.rtp_packet_buf.RtpPacketBuf.change_form
	xorl	%eax,%eax
	xorl	%ecx,%ecx
	cmpb	$0,32(%rsp)
	movzwl	40(%rsp),%edx
	cmoveq	72(%rsp),%rdx
	cmovneq	48(%rsp),%rax
	setne	%cl
	movq	%rcx,(%rsi)
	movq	%rdx,8(%rsi)
	movq	%rax,16(%rsi)
	addq	$96,%rsp
	popq	%rsi
	retq
	.seh_endproc

	.def	rtp_wire.packet.putting.put_element_copy.1;
	.scl	3;
	.type	32;
	.endef
	.section	.text$rtp_wire.packet.putting.put_element_copy.1,"xr"
	.p2align	4
rtp_wire.packet.putting.put_element_copy.1:
.seh_proc rtp_wire.packet.putting.put_element_copy.1
	pushq	%r15
	.seh_pushreg %r15
	pushq	%r14
	.seh_pushreg %r14
	pushq	%r13
	.seh_pushreg %r13
	pushq	%r12
	.seh_pushreg %r12
	pushq	%rsi
	.seh_pushreg %rsi
	pushq	%rdi
	.seh_pushreg %rdi
	pushq	%rbp
	.seh_pushreg %rbp
	pushq	%rbx
	.seh_pushreg %rbx
	subq	$216,%rsp
	.seh_stackalloc 216
	.seh_endprologue
	cmpq	%r9,%r8
	jae	1f
	movq	$1,(%rcx)
	xorps	%xmm0,%xmm0
	movups	%xmm0,8(%rcx)
	jmp	2f
1:
	movzbl	320(%rsp),%ebx
	testb	%bl,%bl
	je	1f
	movq	336(%rsp),%rsi
	movl	$2,%eax
	cmpq	$255,%rsi
	ja	3f
	movl	$3,%r10d
	cmpq	$12,%r9
	jb	4f
	movzbl	(%rdx),%r13d
	movl	$259,%r10d
	cmpb	$-65,%r13b
	jg	4f
	leal	(,%r13,4),%eax
	andl	$60,%eax
	leaq	12(%rax),%r15
	movl	$515,%r10d
	movq	%r9,%r11
	subq	%r15,%r11
	jae	5f
4:
	movq	$1,(%rcx)
6:
	movq	%r10,8(%rcx)
	jmp	7f
1:
	movl	$1,%eax
3:
	movq	$1,(%rcx)
	movq	%rax,8(%rcx)
7:
	movq	$0,16(%rcx)
2:
	addq	$216,%rsp
	popq	%rbx
	popq	%rbp
	popq	%rdi
	popq	%rsi
	popq	%r12
	popq	%r13
	popq	%r14
	popq	%r15
	retq
5:
	leaq	(%rdx,%r15),%r14
	testb	$16,%r13b
	jne	1f
	xorl	%ebp,%ebp
	movq	%r15,%rdi
3:
	leaq	-1(%rsi),%r10
	cmpq	$16,%r10
	movzbl	%bpl,%r10d
	movl	$1,%r11d
	cmovael	%r11d,%r10d
	cmpb	$15,%bl
	cmovael	%r11d,%r10d
	cmpb	$0,344(%rsp)
	je	5f
	movb	$1,%r12b
	cmpb	$1,352(%rsp)
	je	7f
	testb	%r10b,%r10b
	je	8f
	xorl	%r10d,%r10d
	cmpb	$15,%bl
	movl	$0,%eax
	adcq	$5,%rax
	jmp	9f
1:
	movl	$771,%r10d
	cmpq	$4,%r11
	jb	4b
	addq	$-4,%r11
	movzwl	2(%r14),%r10d
	rolw	$8,%r10w
	movzwl	%r10w,%edi
	shll	$2,%edi
	movl	$1027,%r10d
	cmpq	%rdi,%r11
	jb	4b
	movzwl	(%r14),%r11d
	movl	%r11d,%r10d
	andl	$61695,%r10d
	cmpw	$16,%r10w
	sete	%bpl
	addq	%r15,%rdi
	addq	$4,%rdi
	cmpl	$57022,%r11d
	je	3b
	cmpw	$16,%r10w
	je	3b
	xorl	%r10d,%r10d
	movl	$4,%eax
	jmp	9f
5:
	movl	%r10d,%r12d
	jmp	7f
8:
	xorl	%r12d,%r12d
7:
	testb	$16,%r13b
	movq	%rdi,104(%rsp)
	movq	%r14,128(%rsp)
	jne	1f
	leaq	(%rdx,%rdi),%rax
	movq	%rax,144(%rsp)
	movq	$0,56(%rsp)
	movq	$0,136(%rsp)
	movq	$0,120(%rsp)
	xorl	%edi,%edi
	movq	$0,88(%rsp)
	movl	%r12d,%ebp
	movl	%r12d,%eax
	movl	%eax,100(%rsp)
	xorl	%r11d,%r11d
	movq	$0,64(%rsp)
3:
	movb	$1,%al
	xorl	%r12d,%r12d
	movq	%rdi,%r10
	jmp	4f
1:
	movzbl	%al,%eax
	leaq	(%rdx,%rax),%r11
	addq	$16,%r11
	addq	$16,%rax
	subq	%rax,%rdi
	movl	%ebp,100(%rsp)
	testb	%bpl,%bpl
	movq	%rdi,72(%rsp)
	movq	%r15,176(%rsp)
	movq	%r11,144(%rsp)
	movl	%r12d,%ebp
	je	1f
	testq	%rdi,%rdi
	je	5f
	xorl	%eax,%eax
	movq	$0,48(%rsp)
	movq	$0,88(%rsp)
	movq	%rdi,%r10
	movq	$0,120(%rsp)
	movq	$0,64(%rsp)
	movq	$0,136(%rsp)
	movl	%ebp,116(%rsp)
7:
	movq	%rax,56(%rsp)
	movq	%r10,%rdi
8:
	cmpb	$0,(%r11)
	je	10f
	movq	%rdi,%r10
	movq	%r11,%rax
	jmp	11f
10:
	cmpq	$2,%rdi
	je	10f
	cmpq	$1,%rdi
	je	12f
	cmpq	$3,%rdi
	ja	13f
	cmpb	$0,1(%r11)
	jne	13f
	cmpb	$0,2(%r11)
	jne	13f
	jmp	14f
10:
	cmpb	$0,1(%r11)
	je	10f
13:
	movq	%r8,%r15
	movq	%r9,%r12
	movq	%rdx,%r14
	movq	%rcx,%rbp
	leaq	-1(%rdi),%rdx
	incq	%r11
	movq	%r11,%rcx
	callq	rtp_ext.elements.skip_zeros
	testq	%rdx,%rdx
	je	13f
	movq	%rdx,%r10
	movq	%rbp,%rcx
	movq	%r14,%rdx
	movq	%r12,%r9
	movq	%r15,%r8
	movl	116(%rsp),%ebp
11:
	cmpq	$2,%r10
	jb	11f
	movzbl	1(%rax),%r14d
	leaq	2(%r14),%r11
	subq	%r11,%r10
	jb	11f
	addq	%rax,%r11
	cmpb	%bl,(%rax)
	je	15f
	movq	48(%rsp),%rax
	addq	%r14,%rax
	addq	$2,%rax
	movq	%rax,48(%rsp)
	movq	%r10,%rdi
	testq	%r10,%r10
	movq	128(%rsp),%r14
	jne	8b
	jmp	8f
15:
	incq	88(%rsp)
	movq	72(%rsp),%rdi
	subq	%r10,%rdi
	movq	%rdi,%rax
	subq	%r14,%rax
	movq	%rax,64(%rsp)
	negq	%r14
	movq	%rdi,120(%rsp)
	leaq	(%rdi,%r14),%rax
	addq	$-2,%rax
	movq	%rax,136(%rsp)
	movb	$1,%al
	xorl	%edi,%edi
	testq	%r10,%r10
	movq	128(%rsp),%r14
	jne	7b
	jmp	7f
1:
	testq	%rdi,%rdi
	je	5f
	xorl	%eax,%eax
	movq	%r11,%r15
	movq	$0,48(%rsp)
	movq	$0,88(%rsp)
	movq	%rdi,%r12
	movq	$0,120(%rsp)
	movq	$0,64(%rsp)
	movq	$0,136(%rsp)
	movq	%rcx,80(%rsp)
1:
	movq	%rax,56(%rsp)
	movq	48(%rsp),%rdi
15:
	movzbl	(%r15),%r10d
	leal	16(%r10),%eax
	cmpb	$32,%al
	jae	16f
	testb	%r10b,%r10b
	je	17f
	movq	%r12,%rax
	jmp	18f
16:
	movzbl	%r10b,%r11d
	andl	$15,%r11d
	addq	$2,%r11
	movq	%r12,%rax
	subq	%r11,%rax
	jae	16f
	movq	%r12,%rax
	jmp	19f
17:
	cmpq	$2,%r12
	je	17f
	cmpq	$1,%r12
	movq	56(%rsp),%rax
	je	20f
	cmpq	$3,%r12
	ja	21f
	cmpb	$0,1(%r15)
	jne	21f
	cmpb	$0,2(%r15)
	jne	21f
	jmp	22f
17:
	cmpb	$0,1(%r15)
	movq	56(%rsp),%rax
	je	17f
21:
	movq	%r8,168(%rsp)
	movq	%r9,160(%rsp)
	movq	%rdx,152(%rsp)
	leaq	-1(%r12),%rdx
	incq	%r15
	movq	%r15,%rcx
	callq	rtp_ext.elements.skip_zeros
	testq	%rdx,%rdx
	je	21f
	movq	%rax,%r15
	movq	%rdx,%rax
	movzbl	(%r15),%r10d
	movq	80(%rsp),%rcx
	movq	152(%rsp),%rdx
	movq	160(%rsp),%r9
	movq	168(%rsp),%r8
18:
	cmpb	$-17,%r10b
	ja	18f
	movl	%r10d,%r11d
	andb	$15,%r11b
	addb	$2,%r11b
	movzbl	%r11b,%r11d
19:
	subq	%r11,%rax
	jb	18f
16:
	addq	%r11,%r15
	movq	%rax,%r12
	shrb	$4,%r10b
	cmpb	%bl,%r10b
	je	16f
	testb	%r10b,%r10b
	je	19f
	addq	%r11,%rdi
	testq	%r12,%r12
	jne	15b
	jmp	23f
19:
	movq	88(%rsp),%rcx
	movl	%ebp,116(%rsp)
	movq	%rdx,%rbp
	movq	%rdi,48(%rsp)
	movq	%r9,%rdi
	movq	%r8,%r14
	callq	rtp_ext.survey.one_more
	movq	%r14,%r8
	movq	128(%rsp),%r14
	movq	%rdi,%r9
	movq	48(%rsp),%rdi
	movq	%rbp,%rdx
	movl	116(%rsp),%ebp
	movq	80(%rsp),%rcx
	movq	%rax,88(%rsp)
	testq	%r12,%r12
	jne	15b
	jmp	23f
16:
	movq	%rdi,48(%rsp)
	incq	88(%rsp)
	movq	72(%rsp),%r10
	subq	%r12,%r10
	movq	%r10,%rax
	subq	%r11,%rax
	movq	%rax,136(%rsp)
	negq	%r11
	movq	%r10,120(%rsp)
	leaq	(%r10,%r11),%rax
	incq	%rax
	movq	%rax,64(%rsp)
	movb	$1,%al
	xorl	%edi,%edi
	testq	%r12,%r12
	jne	1b
	jmp	7f
5:
	movq	$0,136(%rsp)
	movq	$0,64(%rsp)
	movq	$0,120(%rsp)
	xorl	%eax,%eax
	movq	$0,88(%rsp)
	movq	$0,48(%rsp)
	xorl	%edi,%edi
	jmp	7f
10:
	movl	$2,%edi
	jmp	12f
14:
	movl	$3,%edi
	jmp	12f
11:
	movq	128(%rsp),%r14
	jmp	12f
18:
	movq	%rdi,48(%rsp)
	movq	%r12,%rdi
	jmp	12f
17:
	movq	%rdi,48(%rsp)
	movl	$2,%edi
	jmp	7f
22:
	movq	%rdi,48(%rsp)
	movl	$3,%edi
	jmp	7f
23:
	movq	%rdi,48(%rsp)
8:
	xorl	%edi,%edi
12:
	movq	56(%rsp),%rax
7:
	cmpb	$1,%al
	sete	%r12b
	movl	%ebp,%r10d
	movl	100(%rsp),%ebp
	cmpb	%r10b,%bpl
	sete	%r11b
	movq	176(%rsp),%r15
	jne	1f
	cmpb	$1,%al
	jne	1f
	cmpq	$1,88(%rsp)
	jne	1f
	movq	120(%rsp),%rax
	subq	64(%rsp),%rax
	cmpq	%rsi,%rax
	jne	1f
	addq	$4,%r14
	testq	%rsi,%rsi
	movq	328(%rsp),%rbx
	je	5f
	cmpl	$1,%esi
	jne	8f
	movzbl	(%rbx),%eax
	movq	64(%rsp),%rdx
	movb	%al,(%r14,%rdx)
	movq	%r9,%r10
	movq	$0,(%rcx)
	jmp	6b
1:
	movq	%r11,64(%rsp)
	movq	72(%rsp),%r11
	movq	%r11,%rax
	subq	%rdi,%rax
	movq	%rax,88(%rsp)
	cmpb	%bpl,%r10b
	movq	%r12,56(%rsp)
	je	1f
	movq	48(%rsp),%rdi
	testq	%rdi,%rdi
	je	10f
	movb	%bl,32(%rsp)
	movq	%rcx,%r14
	movl	%ebp,%ecx
	movq	%rdx,152(%rsp)
	movl	%r10d,%ebp
	movl	%r10d,%edx
	movq	%r8,%r12
	movq	144(%rsp),%r8
	movq	%r15,%rdi
	movq	%r9,%r15
	movq	88(%rsp),%r9
	callq	rtp_ext.form_change.row_len
	movq	72(%rsp),%r11
	movq	%r12,%r8
	movq	%r15,%r9
	movq	%rdi,%r15
	movq	48(%rsp),%rdi
	movq	%r14,%rcx
	movq	%rdx,%r10
	movq	152(%rsp),%rdx
	movb	$1,%r12b
	movq	$0,64(%rsp)
4:
	cmpb	$1,%al
	jne	4f
	movl	%r12d,144(%rsp)
	movq	%rdi,48(%rsp)
	cmpb	$1,%bpl
	movl	$2,%edi
	sbbq	$0,%rdi
	addq	%rsi,%rdi
	leaq	(%r10,%rdi),%r12
	addq	$3,%r12
	andq	$-4,%r12
	cmpq	%r12,%r11
	cmovaq	%r11,%r12
	cmpq	$262140,%r12
	ja	11f
	movq	%r11,%r14
	leaq	(%r15,%r12),%rax
	movq	%r9,%r10
	movq	104(%rsp),%r11
	subq	%r11,%r10
	addq	%rax,%r10
	addq	$4,%r10
	movl	$8,%eax
	cmpq	%r10,%r8
	jb	9f
	movq	%r10,72(%rsp)
	movq	%r15,%rax
	movl	%ebp,%r15d
	movq	%rcx,80(%rsp)
	addq	%r12,%rax
	addq	$4,%rax
	movq	%rdx,%rbp
	movq	%rdx,%rcx
	movq	%r11,%rdx
	movq	%r9,%r8
	movq	%rax,%r9
	callq	rtp_wire.packet.resizing.move_bytes
	movl	%r12d,%eax
	shrl	$10,%eax
	movl	%r12d,%ecx
	andl	$-4,%ecx
	shll	$6,%ecx
	orl	%eax,%ecx
	movq	128(%rsp),%rdx
	movw	%cx,2(%rdx)
	cmpb	$0,64(%rsp)
	jne	14f
	orb	$16,(%rbp)
	testb	%r15b,%r15b
	movl	$57022,%eax
	movl	$16,%ecx
	cmovel	%eax,%ecx
	movw	%cx,(%rdx)
14:
	leaq	4(%rdx),%rax
	movq	%rax,104(%rsp)
	testq	%r14,%r14
	je	14f
	movq	%r14,%rax
	cmpb	$0,56(%rsp)
	movq	136(%rsp),%r9
	movq	88(%rsp),%rdx
	cmoveq	%rdx,%r9
	movq	120(%rsp),%r14
	cmoveq	%rdx,%r14
	movq	48(%rsp),%rcx
	subq	%r9,%rcx
	addq	%r14,%rcx
	cmpq	%rdx,%rcx
	jne	15f
	subq	%r14,%rdx
	movl	%r15d,%edi
	movl	100(%rsp),%ebp
	jmp	16f
11:
	movl	$7,%eax
11:
	xorl	%r10d,%r10d
9:
	movq	$1,(%rcx)
	movq	%rax,8(%rcx)
	movq	%r10,16(%rcx)
	jmp	2b
10:
	movl	%r10d,%ebp
	jmp	3b
1:
	movl	%r10d,%ebp
	movq	48(%rsp),%rdi
	jmp	3b
14:
	testb	%r15b,%r15b
	movq	80(%rsp),%rcx
	movq	72(%rsp),%r10
	je	1f
	movq	128(%rsp),%rax
	movb	%sil,5(%rax)
	movl	$2,%r14d
	jmp	2f
15:
	movb	%bl,40(%rsp)
	movq	%rax,32(%rsp)
	movl	100(%rsp),%ebp
	movl	%ebp,%ecx
	movq	104(%rsp),%rdx
	movq	%r9,%r8
	movq	%r14,%r9
	callq	rtp_ext.gathering.gather_around
	movq	%rax,%r9
	movl	%r15d,%edi
16:
	cmpb	$0,144(%rsp)
	je	3f
	movq	%rdx,40(%rsp)
	movq	%r14,32(%rsp)
	movl	%ebp,%ecx
	movq	104(%rsp),%r15
	movq	%r15,%rdx
	movq	%r12,%r8
	callq	rtp_ext.form_change.change_rows
	movq	%rax,%r9
	movq	%rax,%r14
	jmp	9f
3:
	movq	104(%rsp),%r15
9:
	movq	$1,184(%rsp)
	movb	%bl,192(%rsp)
	movl	$0,193(%rsp)
	movl	$0,196(%rsp)
	movq	328(%rsp),%rax
	movq	%rax,200(%rsp)
	movq	%rsi,208(%rsp)
	leaq	184(%rsp),%rax
	movq	%rax,40(%rsp)
	movq	%rdx,32(%rsp)
	movl	%edi,%ecx
	movq	%r15,%rdx
	movq	%r9,%r8
	movq	%r14,%r9
	callq	rtp_ext.rewriting.put_between
	subq	%rax,%r12
	movq	80(%rsp),%rcx
	movq	72(%rsp),%r10
	jbe	3f
	cmpq	$4,%r12
	ja	9f
	leaq	10f(%rip),%rdx
	movslq	(%rdx,%r12,4),%r8
	addq	%rdx,%r8
	jmpq	*%r8
14:
	movb	$0,(%r15,%rax)
	movq	$0,(%rcx)
	jmp	6b
4:
	movq	%rcx,%rsi
	movl	100(%rsp),%ecx
	movq	144(%rsp),%rdx
	movq	%r11,%r8
	callq	rtp_wire.packet.rewriting.has_long_id
	movq	%rsi,%rcx
	movzbl	%al,%edx
	movl	$6,%eax
	subq	%rdx,%rax
	jmp	11b
8:
	cmpq	$2,%rsi
	ja	4f
	movzbl	(%rbx),%eax
	movq	64(%rsp),%rdx
	movb	%al,(%r14,%rdx)
	movzbl	1(%rbx),%eax
	movb	%al,1(%r14,%rdx)
	movq	%r9,%r10
	movq	$0,(%rcx)
	jmp	6b
1:
	rolb	$4,%bl
	addb	%sil,%bl
	decb	%bl
	movl	$1,%r14d
2:
	movq	328(%rsp),%rdx
	movq	104(%rsp),%r15
	movb	%bl,(%r15)
	testb	%sil,%sil
	je	1f
	movzbl	%sil,%eax
	cmpl	$1,%eax
	jne	2f
	movzbl	(%rdx),%eax
	movb	%al,(%r15,%r14)
	jmp	8f
2:
	cmpq	$2,%rsi
	ja	2f
	movzbl	(%rdx),%eax
	movb	%al,(%r15,%r14)
	movzbl	1(%rdx),%eax
	movb	%al,1(%r15,%r14)
	jmp	8f
4:
	cmpq	$3,%rsi
	jne	5f
	movzbl	(%rbx),%eax
	movq	64(%rsp),%rdx
	movb	%al,(%r14,%rdx)
	movzbl	1(%rbx),%eax
	movb	%al,1(%r14,%rdx)
	movzbl	2(%rbx),%eax
	movb	%al,2(%r14,%rdx)
	movq	%r9,%r10
	movq	$0,(%rcx)
	jmp	6b
5:
	addq	64(%rsp),%r14
	movq	%r14,%rax
	subq	%rbx,%rax
	cmpq	%rsi,%rax
	jae	4f
	cmpq	$4,%rsi
	jae	5f
	movq	%rdx,%rax
	jmp	11f
4:
	movq	%rcx,%rdi
	movq	%r14,%rcx
	movq	%rbx,%rdx
	movq	%rsi,%r8
	movq	%r9,%rsi
	callq	memmove
	movq	%rdi,%rcx
	movq	%rsi,%r10
	jmp	3f
5:
	movq	%rdx,%rax
	movq	64(%rsp),%r8
	addq	%r8,%rdx
	leal	(,%r13,4),%r11d
	andl	$60,%r11d
	addq	%r11,%rdx
	subq	%rbx,%rdx
	addq	$16,%rdx
	cmpq	$32,%rdx
	jae	4f
11:
	xorl	%edx,%edx
5:
	movq	%rsi,%r10
	movq	%rdx,%r8
	andq	$3,%r10
	je	11f
	movq	%rdx,%r8
15:
	movzbl	(%rbx,%r8),%r11d
	movb	%r11b,(%r14,%r8)
	incq	%r8
	decq	%r10
	jne	15b
11:
	subq	%rsi,%rdx
	cmpq	$-4,%rdx
	ja	11f
	andl	$15,%r13d
	movq	64(%rsp),%rdx
	leaq	(%rdx,%r13,4),%rdx
	addq	%rdx,%rax
	addq	$19,%rax
15:
	movzbl	(%rbx,%r8),%edx
	movb	%dl,-3(%rax,%r8)
	movzbl	1(%rbx,%r8),%edx
	movb	%dl,-2(%rax,%r8)
	movzbl	2(%rbx,%r8),%edx
	movb	%dl,-1(%rax,%r8)
	movzbl	3(%rbx,%r8),%edx
	movb	%dl,(%rax,%r8)
	addq	$4,%r8
	cmpq	%r8,%rsi
	jne	15b
11:
	movq	%r9,%r10
	movq	$0,(%rcx)
	jmp	6b
2:
	cmpq	$3,%rsi
	jne	1f
	movzbl	(%rdx),%eax
	movb	%al,(%r15,%r14)
	movzbl	1(%rdx),%eax
	movb	%al,1(%r15,%r14)
	movzbl	2(%rdx),%eax
	movb	%al,2(%r15,%r14)
	jmp	8f
1:
	leaq	(%r15,%r14),%rax
	movq	%rax,%r8
	subq	%rdx,%r8
	cmpq	%rsi,%r8
	jae	1f
	cmpq	$4,%rsi
	jae	2f
	xorl	%r8d,%r8d
	jmp	15f
1:
	movq	%rax,%rcx
	movq	%rsi,%r8
	callq	memmove
	movq	72(%rsp),%r10
	movq	80(%rsp),%rcx
	jmp	8f
1:
	movl	$0,(%r15,%rax)
	movq	$0,(%rcx)
	jmp	6b
16:
	movw	$0,(%r15,%rax)
	movq	$0,(%rcx)
	jmp	6b
17:
	movb	$0,2(%r15,%rax)
	movw	$0,(%r15,%rax)
	movq	$0,(%rcx)
	jmp	6b
9:
	movq	%r12,%rsi
	addq	%rax,%r15
	jmp	9f
2:
	leaq	(%r14,%rbp),%r8
	leal	(,%r13,4),%ecx
	andl	$60,%ecx
	addq	%rcx,%r8
	subq	%rdx,%r8
	addq	$16,%r8
	cmpq	$32,%r8
	jae	2f
	xorl	%r8d,%r8d
	movq	80(%rsp),%rcx
	movq	104(%rsp),%r15
	jmp	15f
13:
	movq	%rbp,%rcx
	movq	%r14,%rdx
	movq	%r12,%r9
	movq	%r15,%r8
	movq	128(%rsp),%r14
	movl	116(%rsp),%ebp
	jmp	12b
4:
	movq	%r9,%r10
	movq	%rcx,%r8
	cmpq	$32,%rsi
	jae	4f
	xorl	%edx,%edx
	jmp	13f
2:
	cmpq	$32,%rsi
	jae	2f
	xorl	%r8d,%r8d
	jmp	18f
21:
	movq	%rdi,48(%rsp)
	movq	%r12,%rdi
	movq	80(%rsp),%rcx
	movq	152(%rsp),%rdx
	movq	160(%rsp),%r9
	movq	168(%rsp),%r8
	jmp	12b
4:
	movl	%esi,%edx
	andl	$224,%edx
	addq	64(%rsp),%r11
	leaq	(%rax,%r11),%rcx
	addq	$32,%rcx
	xorl	%r9d,%r9d
	movq	328(%rsp),%r11
4:
	movups	(%r11,%r9),%xmm0
	movups	16(%r11,%r9),%xmm1
	movups	%xmm0,-16(%rcx,%r9)
	movups	%xmm1,(%rcx,%r9)
	addq	$32,%r9
	cmpq	%r9,%rdx
	jne	4b
	cmpq	%rdx,%rsi
	jne	4f
	movq	%r8,%rcx
	movq	$0,(%r8)
	jmp	6b
20:
	movq	%rdi,48(%rsp)
	movq	%r12,%rdi
	jmp	7b
2:
	movl	%esi,%r8d
	andl	$224,%r8d
	addq	%r14,%rcx
	addq	%rbp,%rcx
	addq	$32,%rcx
	xorl	%r9d,%r9d
2:
	movups	(%rdx,%r9),%xmm0
	movups	16(%rdx,%r9),%xmm1
	movups	%xmm0,-16(%rcx,%r9)
	movups	%xmm1,(%rcx,%r9)
	addq	$32,%r9
	cmpq	%r9,%r8
	jne	2b
	cmpq	%r8,%rsi
	movq	80(%rsp),%rcx
	movq	72(%rsp),%r10
	movq	104(%rsp),%r15
	je	8f
	testb	$28,%sil
	je	15f
18:
	movq	%r8,%rcx
	movl	%esi,%r8d
	andl	$252,%r8d
2:
	movl	(%rdx,%rcx),%r9d
	movl	%r9d,(%rax,%rcx)
	addq	$4,%rcx
	cmpq	%rcx,%r8
	jne	2b
	cmpq	%r8,%rsi
	movq	80(%rsp),%rcx
	movq	72(%rsp),%r10
	movq	104(%rsp),%r15
	je	8f
15:
	movq	%rsi,%r10
	movq	%r8,%r9
	andq	$3,%r10
	je	2f
	movq	%r8,%r9
7:
	movzbl	(%rdx,%r9),%r11d
	movb	%r11b,(%rax,%r9)
	incq	%r9
	decq	%r10
	jne	7b
2:
	subq	%rsi,%r8
	cmpq	$-4,%r8
	movq	72(%rsp),%r10
	ja	8f
	andl	$15,%r13d
	leaq	(%r14,%r13,4),%rax
	addq	%rbp,%rax
	addq	$19,%rax
2:
	movzbl	(%rdx,%r9),%r8d
	movb	%r8b,-3(%rax,%r9)
	movzbl	1(%rdx,%r9),%r8d
	movb	%r8b,-2(%rax,%r9)
	movzbl	2(%rdx,%r9),%r8d
	movb	%r8b,-1(%rax,%r9)
	movzbl	3(%rdx,%r9),%r8d
	movb	%r8b,(%rax,%r9)
	addq	$4,%r9
	cmpq	%r9,%rsi
	jne	2b
8:
	subq	%rdi,%r12
	jbe	3f
	cmpq	$4,%r12
	ja	2f
	leaq	7f(%rip),%rax
	movslq	(%rax,%r12,4),%rdx
	addq	%rax,%rdx
	jmpq	*%rdx
3:
	movq	$0,(%rcx)
	jmp	6b
8:
	movl	$0,(%r15,%rdi)
	movq	$0,(%rcx)
	jmp	6b
12:
	movw	$0,(%r15,%rdi)
	movq	$0,(%rcx)
	jmp	6b
15:
	movb	$0,2(%r15,%rdi)
	movw	$0,(%r15,%rdi)
	movq	$0,(%rcx)
	jmp	6b
18:
	movb	$0,(%r15,%rdi)
	movq	$0,(%rcx)
	jmp	6b
2:
	movq	%r12,%rsi
	addq	%rdi,%r15
9:
	decq	%r12
	movq	%r15,%rcx
	xorl	%edx,%edx
	movq	%r12,%r8
	callq	memset
	movq	72(%rsp),%r10
	movq	80(%rsp),%rcx
	movb	$0,-1(%rsi,%r15)
	movq	$0,(%rcx)
	jmp	6b
4:
	testb	$28,%sil
	movq	%r8,%rcx
	movq	%r10,%r9
	movq	328(%rsp),%rbx
	je	5b
13:
	movq	%rdx,%rcx
	movl	%esi,%edx
	andl	$252,%edx
2:
	movl	(%rbx,%rcx),%r9d
	movl	%r9d,(%r14,%rcx)
	addq	$4,%rcx
	cmpq	%rcx,%rdx
	jne	2b
	cmpq	%rdx,%rsi
	movq	%r8,%rcx
	movq	%r10,%r9
	jne	5b
	jmp	11b
	.section	.rdata,"dr"
	.p2align	2,0x0
10:
	.long	3b-10b
	.long	14b-10b
	.long	16b-10b
	.long	17b-10b
	.long	1b-10b
7:
	.long	3b-7b
	.long	18b-7b
	.long	12b-7b
	.long	15b-7b
	.long	8b-7b
	.section	.text$rtp_wire.packet.putting.put_element_copy.1,"xr"
	.seh_endproc

	.def	rtp_wire.packet.compacting.compact_copy.1;
	.scl	3;
	.type	32;
	.endef
	.section	.text$rtp_wire.packet.compacting.compact_copy.1,"xr"
	.p2align	4
rtp_wire.packet.compacting.compact_copy.1:
.seh_proc rtp_wire.packet.compacting.compact_copy.1
	pushq	%r15
	.seh_pushreg %r15
	pushq	%r14
	.seh_pushreg %r14
	pushq	%r13
	.seh_pushreg %r13
	pushq	%r12
	.seh_pushreg %r12
	pushq	%rsi
	.seh_pushreg %rsi
	pushq	%rdi
	.seh_pushreg %rdi
	pushq	%rbx
	.seh_pushreg %rbx
	subq	$32,%rsp
	.seh_stackalloc 32
	.seh_endprologue
	cmpq	$12,%r8
	jae	1f
	xorl	%r9d,%r9d
	jmp	2f
1:
	movzbl	(%rdx),%eax
	movb	$1,%r9b
	cmpb	$-65,%al
	jg	2f
	movl	%eax,%r9d
	andl	$15,%r9d
	leaq	12(,%r9,4),%r12
	movb	$2,%r9b
	movq	%r8,%r10
	subq	%r12,%r10
	jae	1f
2:
	movb	$1,(%rcx)
	movb	%r9b,1(%rcx)
	movq	$0,8(%rcx)
3:
	addq	$32,%rsp
	popq	%rbx
	popq	%rdi
	popq	%rsi
	popq	%r12
	popq	%r13
	popq	%r14
	popq	%r15
	retq
1:
	testb	$16,%al
	jne	1f
4:
	movw	$0,(%rcx)
	movq	%r8,8(%rcx)
	jmp	3b
1:
	movb	$3,%r9b
	cmpq	$4,%r10
	jb	2b
	addq	$-4,%r10
	movzwl	2(%rdx,%r12),%eax
	rolw	$8,%ax
	movzwl	%ax,%eax
	shll	$2,%eax
	movb	$4,%r9b
	cmpq	%rax,%r10
	jb	2b
	movzwl	(%rdx,%r12),%r10d
	movl	%r10d,%r9d
	andl	$61695,%r9d
	cmpl	$57022,%r10d
	je	1f
	cmpw	$16,%r9w
	jne	4b
1:
	cmpw	$16,%r9w
	sete	%r9b
	leaq	(%r12,%rax),%rsi
	addq	$4,%rsi
	leaq	4(%rdx,%r12),%r10
	movq	%rcx,%r13
	movl	%r9d,%ecx
	movq	%rdx,%rbx
	movq	%r10,%rdx
	movq	%r8,%rdi
	movq	%rax,%r8
	callq	rtp_ext.gathering.compact_body
	movq	%rax,%r14
	addq	$3,%r14
	movq	%r14,%rax
	andq	$-4,%rax
	leaq	(%r12,%rax),%r15
	addq	$4,%r15
	movq	%rbx,%rcx
	movq	%rsi,%rdx
	movq	%rdi,%r8
	movq	%r15,%r9
	callq	rtp_wire.packet.resizing.move_bytes
	movl	%r14d,%eax
	shrl	$10,%eax
	andl	$-4,%r14d
	shll	$6,%r14d
	movzbl	%al,%eax
	orl	%r14d,%eax
	movw	%ax,2(%rbx,%r12)
	subq	%rsi,%rdi
	addq	%r15,%rdi
	movw	$0,(%r13)
	movq	%rdi,8(%r13)
	jmp	3b
	.seh_endproc

	.def	rtp_route.slots.slot_of;
	.scl	3;
	.type	32;
	.endef
	.section	.text$rtp_route.slots.slot_of,"xr"
	.p2align	4
rtp_route.slots.slot_of:
.seh_proc rtp_route.slots.slot_of
	pushq	%r15
	.seh_pushreg %r15
	pushq	%r14
	.seh_pushreg %r14
	pushq	%r12
	.seh_pushreg %r12
	pushq	%rsi
	.seh_pushreg %rsi
	pushq	%rdi
	.seh_pushreg %rdi
	pushq	%rbp
	.seh_pushreg %rbp
	pushq	%rbx
	.seh_pushreg %rbx
	subq	$32,%rsp
	.seh_stackalloc 32
	.seh_endprologue
	cmpb	$1,24(%rdx)
	jne	1f
	movq	(%rdx),%rax
	movq	16(%rdx),%rsi
	movzbl	(%rax),%r9d
	andl	$15,%r9d
	leaq	16(,%r9,4),%r10
	leaq	(%rax,%r9,4),%rax
	addq	$16,%rax
	movq	%rsi,%rdi
	subq	%r10,%rdi
	cmpb	$0,25(%rdx)
	je	2f
	testq	%rdi,%rdi
	je	1f
	xorl	%r15d,%r15d
	movq	%rdi,%rdx
	xorl	%ebx,%ebx
	xorl	%r14d,%r14d
3:
	cmpb	$0,(%rax)
	je	4f
	movq	%rax,%r9
	cmpq	$2,%rdx
	jae	5f
	jmp	6f
	.p2align	4
4:
	cmpq	$2,%rdx
	je	4f
	cmpq	$1,%rdx
	je	6f
	cmpq	$3,%rdx
	ja	7f
	cmpb	$0,1(%rax)
	jne	7f
	cmpb	$0,2(%rax)
	jne	7f
	jmp	6f
4:
	cmpb	$0,1(%rax)
	je	6f
7:
	movl	%r8d,%ebp
	movq	%rcx,%r12
	decq	%rdx
	incq	%rax
	movq	%rax,%rcx
	callq	rtp_ext.elements.skip_zeros
	testq	%rdx,%rdx
	je	4f
	movq	%rax,%r9
	movq	%r12,%rcx
	movl	%ebp,%r8d
	cmpq	$2,%rdx
	jb	6f
5:
	movzbl	1(%r9),%r10d
	leaq	2(%r10),%rax
	subq	%rax,%rdx
	jb	6f
	addq	%r9,%rax
	cmpb	%r8b,(%r9)
	je	5f
	testq	%rdx,%rdx
	jne	3b
	jmp	6f
5:
	movq	%rdi,%rbx
	subq	%rdx,%rbx
	movq	%rbx,%r14
	subq	%r10,%r14
	movb	$1,%r15b
	testq	%rdx,%rdx
	jne	3b
	jmp	3f
2:
	testq	%rdi,%rdi
	je	1f
	xorl	%r15d,%r15d
	movq	%rdi,%rdx
	xorl	%ebx,%ebx
	xorl	%r14d,%r14d
2:
	movzbl	(%rax),%r9d
	testb	%r9b,%r9b
	jne	5f
	cmpq	$2,%rdx
	je	7f
	cmpq	$1,%rdx
	je	6f
	cmpq	$3,%rdx
	ja	8f
	cmpb	$0,1(%rax)
	jne	8f
	cmpb	$0,2(%rax)
	jne	8f
	jmp	6f
7:
	cmpb	$0,1(%rax)
	je	6f
8:
	movl	%r8d,%ebp
	movq	%rcx,%r12
	decq	%rdx
	incq	%rax
	movq	%rax,%rcx
	callq	rtp_ext.elements.skip_zeros
	testq	%rdx,%rdx
	je	4f
	movzbl	(%rax),%r9d
	movq	%r12,%rcx
	movl	%ebp,%r8d
5:
	cmpb	$-17,%r9b
	ja	6f
	movl	%r9d,%r10d
	andb	$15,%r10b
	addb	$2,%r10b
	movzbl	%r10b,%r10d
	subq	%r10,%rdx
	jb	6f
	addq	%r10,%rax
	shrb	$4,%r9b
	cmpb	%r8b,%r9b
	je	5f
	testq	%rdx,%rdx
	jne	2b
	jmp	6f
5:
	movq	%rdi,%rbx
	subq	%rdx,%rbx
	negq	%r10
	leaq	(%rbx,%r10),%r14
	incq	%r14
	movb	$1,%r15b
	testq	%rdx,%rdx
	jne	2b
	jmp	3f
4:
	movq	%r12,%rcx
6:
	cmpb	$1,%r15b
	jne	1f
3:
	movl	%r14d,%eax
	subl	%edi,%eax
	addl	%eax,%esi
	subl	%r14d,%ebx
	shlq	$32,%rbx
	orq	%rsi,%rbx
	movl	$1,(%rcx)
	movq	%rbx,4(%rcx)
	jmp	2f
1:
	movl	$0,(%rcx)
	movq	$0,4(%rcx)
2:
	addq	$32,%rsp
	popq	%rbx
	popq	%rbp
	popq	%rdi
	popq	%rsi
	popq	%r12
	popq	%r14
	popq	%r15
	retq
	.seh_endproc

	.def	rtp_route.making.make_by_calls.d57726891005992a;
	.scl	3;
	.type	32;
	.endef
	.section	.text$unlikely$rtp_route.making.make_by_calls.d57726891005992a,"xr"
	.p2align	4
rtp_route.making.make_by_calls.d57726891005992a:
.seh_proc rtp_route.making.make_by_calls.d57726891005992a
	pushq	%r15
	.seh_pushreg %r15
	pushq	%r14
	.seh_pushreg %r14
	pushq	%r13
	.seh_pushreg %r13
	pushq	%r12
	.seh_pushreg %r12
	pushq	%rsi
	.seh_pushreg %rsi
	pushq	%rdi
	.seh_pushreg %rdi
	pushq	%rbp
	.seh_pushreg %rbp
	pushq	%rbx
	.seh_pushreg %rbx
	subq	$440,%rsp
	.seh_stackalloc 440
	movaps	%xmm6,416(%rsp)
	.seh_savexmm %xmm6,416
	.seh_endprologue
	movq	%r9,%rbx
	movq	%r8,%rdi
	movq	%rdx,%rax
	movq	%rcx,%rsi
	movq	(%rdx),%rdx
	movq	16(%rax),%r8
	movzbl	24(%rax),%ebp
	movzbl	25(%rax),%r15d
	xorps	%xmm0,%xmm0
	movaps	%xmm0,256(%rsp)
	movaps	%xmm0,240(%rsp)
	movaps	%xmm0,288(%rsp)
	movaps	%xmm0,304(%rsp)
	movaps	%xmm0,320(%rsp)
	movaps	%xmm0,336(%rsp)
	movaps	%xmm0,352(%rsp)
	movaps	%xmm0,368(%rsp)
	movaps	%xmm0,384(%rsp)
	movaps	%xmm0,400(%rsp)
	movaps	%xmm0,272(%rsp)
	movl	$3,%r9d
	cmpq	%r8,544(%rsp)
	jae	1f
	movb	$8,%cl
	xorl	%eax,%eax
	jmp	2f
1:
	leaq	-49(%r8),%rax
	cmpq	$-34,%rax
	movq	%r8,80(%rsp)
	ja	1f
	movq	%rbx,%rcx
	callq	rtp_route.copying.put_any
	movq	80(%rsp),%r8
	jmp	3f
1:
	movups	(%rdx),%xmm0
	movups	%xmm0,(%rbx)
	cmpq	$33,%r8
	jb	1f
	movups	16(%rdx),%xmm0
	movups	%xmm0,16(%rbx)
1:
	movups	-16(%rdx,%r8),%xmm0
	movups	%xmm0,-16(%rbx,%r8)
3:
	movq	(%rdi),%r12
	movzbl	40(%rdi),%r14d
	movzbl	41(%rdi),%r13d
	movq	$0,136(%rsp)
	movq	%rbx,112(%rsp)
	movq	%r8,120(%rsp)
	movq	%r8,128(%rsp)
	movb	%bpl,136(%rsp)
	movb	%r15b,137(%rsp)
	leaq	112(%rsp),%rcx
	movq	%r12,%rdx
	callq	rtp_wire.packet.rtp_packet_mut.RtpPacketMut.renumber
	testb	%al,%al
	je	1f
	movq	544(%rsp),%r14
3:
	xorps	%xmm0,%xmm0
	movaps	%xmm0,112(%rsp)
	movq	$0,128(%rsp)
	movq	32(%rdi),%r15
	testq	%r15,%r15
	je	4f
	movq	8(%rdi),%r12
	movq	24(%rdi),%rbp
	movq	80(%rsp),%r9
	.p2align	4
5:
	movq	8(%rbp),%rax
	movzbl	24(%rbp),%ecx
	movq	(%rbp),%rdx
	addq	%r12,%rdx
	movzbl	40(%rdi),%r8d
	movzbl	41(%rdi),%r10d
	movb	%r10b,64(%rsp)
	movb	%r8b,56(%rsp)
	movq	%rax,48(%rsp)
	movq	%rdx,40(%rsp)
	movb	%cl,32(%rsp)
	leaq	112(%rsp),%rcx
	movq	%rbx,%rdx
	movq	%r14,%r8
	callq	rtp_wire.packet.putting.put_element_copy.1
	movq	120(%rsp),%r9
	cmpb	$0,112(%rsp)
	jne	6f
	addq	$32,%rbp
	decq	%r15
	jne	5b
	jmp	5f
1:
	cmpb	$1,%r14b
	jne	1f
	testb	%r13b,%r13b
	jne	1f
	xorl	%ecx,%ecx
	movl	$2,%r9d
	xorl	%eax,%eax
	xorl	%r8d,%r8d
	jmp	2f
4:
	movq	80(%rsp),%r9
5:
	leaq	272(%rsp),%rcx
	movq	%rbx,%rdx
	movq	%r9,%r8
	callq	rtp_wire.packet.compacting.compact_copy.1
	cmpb	$0,272(%rsp)
	jne	4f
	movq	280(%rsp),%r14
	cmpq	$12,%r14
	jb	4f
	movzbl	(%rbx),%edx
	cmpb	$-65,%dl
	jg	4f
	movl	%edx,%eax
	andl	$15,%eax
	leaq	12(,%rax,4),%rax
	movq	%r14,%rcx
	subq	%rax,%rcx
	jb	4f
	testb	$16,%dl
	jne	5f
	xorl	%r15d,%r15d
	xorl	%ebp,%ebp
	jmp	7f
5:
	cmpq	$4,%rcx
	jb	4f
	movzwl	2(%rbx,%rax),%edx
	rolw	$8,%dx
	addq	$-4,%rcx
	movzwl	%dx,%edx
	shll	$2,%edx
	cmpq	%rdx,%rcx
	jb	4f
	movzwl	(%rbx,%rax),%ecx
	movl	%ecx,%r8d
	andl	$61695,%r8d
	xorl	%ebp,%ebp
	cmpw	$16,%r8w
	sete	%bpl
	cmpl	$57022,%ecx
	movl	$1,%r15d
	cmovnel	%ebp,%r15d
	addq	%rdx,%rax
	addq	$4,%rax
7:
	movq	%rbx,240(%rsp)
	movq	%r14,248(%rsp)
	movq	%rax,256(%rsp)
	movb	%r15b,264(%rsp)
	movb	%bpl,265(%rsp)
	movq	24(%rdi),%rbx
	movq	32(%rdi),%rdi
	movl	$0,96(%rsp)
	movq	$0,88(%rsp)
	xorps	%xmm0,%xmm0
	movaps	%xmm0,112(%rsp)
	movaps	%xmm0,128(%rsp)
	movaps	%xmm0,144(%rsp)
	movaps	%xmm0,160(%rsp)
	movaps	%xmm0,176(%rsp)
	movaps	%xmm0,192(%rsp)
	movaps	%xmm0,208(%rsp)
	movaps	%xmm0,224(%rsp)
	testq	%rdi,%rdi
	je	5f
	addq	$24,%rbx
	xorl	%r12d,%r12d
	.p2align	4
7:
	movzbl	(%rbx),%r8d
	leaq	88(%rsp),%rcx
	leaq	240(%rsp),%rdx
	callq	rtp_route.slots.slot_of
	cmpb	$1,88(%rsp)
	jne	4f
	movq	92(%rsp),%rax
	movq	%rax,112(%rsp,%r12,8)
	incq	%r12
	addq	$32,%rbx
	cmpq	%r12,%rdi
	jne	7b
5:
	movq	552(%rsp),%rax
	movaps	224(%rsp),%xmm0
	movaps	%xmm0,400(%rsp)
	movaps	208(%rsp),%xmm0
	movaps	%xmm0,384(%rsp)
	movaps	192(%rsp),%xmm1
	movaps	%xmm1,368(%rsp)
	movaps	176(%rsp),%xmm2
	movaps	%xmm2,352(%rsp)
	movaps	112(%rsp),%xmm3
	movaps	128(%rsp),%xmm4
	movaps	144(%rsp),%xmm5
	movaps	160(%rsp),%xmm6
	movaps	%xmm6,336(%rsp)
	movaps	%xmm5,320(%rsp)
	movaps	%xmm4,304(%rsp)
	movaps	%xmm3,288(%rsp)
	movups	%xmm0,96(%rax)
	movups	%xmm1,80(%rax)
	movups	%xmm2,64(%rax)
	movups	%xmm6,48(%rax)
	movups	%xmm5,32(%rax)
	movups	%xmm4,16(%rax)
	movups	%xmm3,(%rax)
	movaps	400(%rsp),%xmm0
	movups	%xmm0,112(%rax)
	movq	$0,(%rsi)
	movq	%r14,8(%rsi)
	movb	%r15b,16(%rsi)
	movb	%bpl,17(%rsi)
	movq	$0,24(%rsi)
	jmp	5f
6:
	movl	%r9d,%eax
	movl	%r9d,%ecx
	movq	128(%rsp),%r8
6:
	shrl	$8,%eax
	movl	$3,%r9d
2:
	movq	$1,(%rsi)
	movq	%r9,8(%rsi)
	movb	%cl,16(%rsi)
	movb	%al,17(%rsi)
	movq	%r8,24(%rsi)
5:
	movaps	416(%rsp),%xmm6
	addq	$440,%rsp
	popq	%rbx
	popq	%rbp
	popq	%rdi
	popq	%rsi
	popq	%r12
	popq	%r13
	popq	%r14
	popq	%r15
	retq
1:
	leaq	88(%rsp),%rcx
	movq	%rbx,%rdx
	movq	544(%rsp),%r14
	movq	%r14,%r8
	movq	80(%rsp),%r9
	callq	rtp_route.in_place.change_form
	movq	96(%rsp),%rcx
	cmpb	$0,88(%rsp)
	je	1f
	movl	%ecx,%eax
	movq	104(%rsp),%r8
	jmp	6b
1:
	movq	$257,136(%rsp)
	movq	%rbx,112(%rsp)
	movq	%rcx,120(%rsp)
	movq	%rcx,80(%rsp)
	movq	%rcx,128(%rsp)
	leaq	112(%rsp),%rcx
	movq	%r12,%rdx
	callq	rtp_wire.packet.rtp_packet_mut.RtpPacketMut.renumber
	jmp	3b
4:
	ud2
	.seh_endproc

	.def	rtp_route.walk.write_kept.687967002a58489c;
	.scl	3;
	.type	32;
	.endef
	.section	.text$rtp_route.walk.write_kept.687967002a58489c,"xr"
	.p2align	4
rtp_route.walk.write_kept.687967002a58489c:
.seh_proc rtp_route.walk.write_kept.687967002a58489c
	pushq	%r15
	.seh_pushreg %r15
	pushq	%r14
	.seh_pushreg %r14
	pushq	%r13
	.seh_pushreg %r13
	pushq	%r12
	.seh_pushreg %r12
	pushq	%rsi
	.seh_pushreg %rsi
	pushq	%rdi
	.seh_pushreg %rdi
	pushq	%rbp
	.seh_pushreg %rbp
	pushq	%rbx
	.seh_pushreg %rbx
	subq	$104,%rsp
	.seh_stackalloc 104
	.seh_endprologue
	movq	%r8,%rbx
	movq	%rdx,%rsi
	movq	%rcx,%rdi
	movq	224(%rsp),%rdx
	movq	216(%rsp),%rax
	movzbl	208(%rsp),%r8d
	movq	232(%rsp),%rcx
	movq	(%rcx),%r11
	movq	8(%rcx),%rcx
	movq	%rcx,72(%rsp)
	movl	%r8d,%ecx
	orb	%r9b,%cl
	movq	%r11,40(%rsp)
	je	1f
	testq	%rdx,%rdx
	je	2f
	movl	%r9d,%ebp
	leaq	16(%rdi),%rcx
	movq	%rcx,56(%rsp)
	leaq	3(%rdi),%rcx
	movq	%rcx,64(%rsp)
	jmp	3f
1:
	testq	%rdx,%rdx
	je	2f
	leaq	1(%rdi),%rcx
	movq	%rcx,64(%rsp)
	leaq	17(%rdi),%rcx
	movq	%rcx,88(%rsp)
	leaq	4(%rdi),%rcx
	movq	%rcx,56(%rsp)
	movq	%rsi,96(%rsp)
	jmp	1f
4:
	movzbl	(%rax),%eax
	movb	%al,(%rdi,%r13)
5:
	leaq	(%r12,%r13),%rbx
	movq	240(%rsp),%rax
	movl	%r13d,-8(%rax,%r14,8)
	movl	%r12d,-4(%rax,%r14,8)
	movq	40(%rsp),%r11
6:
	movq	%r15,%rax
	testq	%rdx,%rdx
	je	2f
3:
	cmpb	$0,(%rax)
	je	3f
	testb	%bpl,%bpl
	je	7f
8:
	cmpq	$2,%rdx
	jb	2f
	movzbl	1(%rax),%r12d
	leaq	2(%r12),%r15
	subq	%r15,%rdx
	jb	2f
	movzbl	(%rax),%ecx
	addq	%rax,%r15
	movq	(%r11),%r8
	movzbl	(%r8,%rcx),%r13d
	testb	%r13b,%r13b
	je	6b
	addq	$2,%rax
	jmp	9f
	.p2align	4
3:
	cmpq	$2,%rdx
	je	3f
	cmpq	$1,%rdx
	je	2f
	cmpq	$3,%rdx
	ja	10f
	cmpb	$0,1(%rax)
	jne	10f
	cmpb	$0,2(%rax)
	jne	10f
	jmp	2f
3:
	cmpb	$0,1(%rax)
	je	2f
10:
	decq	%rdx
	incq	%rax
	movq	%rax,%rcx
	callq	rtp_ext.elements.skip_zeros
	testq	%rdx,%rdx
	je	2f
	movq	40(%rsp),%r11
	testb	%bpl,%bpl
	jne	8b
7:
	movzbl	(%rax),%ecx
	cmpq	$239,%rcx
	ja	2f
	movl	%ecx,%r12d
	andl	$15,%r12d
	addq	$2,%r12
	subq	%r12,%rdx
	jb	2f
	shrl	$4,%ecx
	leaq	(%rax,%r12),%r15
	movq	(%r11),%r8
	movzbl	(%r8,%rcx),%r13d
	testb	%r13b,%r13b
	je	6b
	incq	%rax
	decq	%r12
	cmpb	$15,%r13b
	jae	3f
9:
	movzbl	%r13b,%ecx
	movq	72(%rsp),%r8
	movzbl	(%r8,%rcx),%r14d
	testq	%r14,%r14
	je	7f
	movq	240(%rsp),%rax
	cmpl	$0,-8(%rax,%r14,8)
	jne	8f
	leaq	-1(%r14),%rax
	movq	24(%r11),%rcx
	shlq	$5,%rax
	movq	8(%rcx,%rax),%r12
	leaq	(%rbx,%r12),%r8
	addq	$2,%r8
	cmpq	%r8,%rsi
	jb	8f
	movq	8(%r11),%r8
	movq	(%rcx,%rax),%r9
	movzbl	24(%rcx,%rax),%eax
	cmpb	$0,208(%rsp)
	je	10f
	movb	%al,(%rdi,%rbx)
	movb	%r12b,1(%rdi,%rbx)
	movl	$2,%r10d
	leaq	(%r8,%r9),%rax
	leaq	(%r10,%rbx),%r13
	testq	%r12,%r12
	jne	11f
	jmp	12f
7:
	leaq	(%rbx,%r12),%rcx
	addq	$2,%rcx
	cmpq	%rcx,%rsi
	jb	8f
	cmpb	$0,208(%rsp)
	je	7f
	movb	%r13b,(%rdi,%rbx)
	movb	%r12b,1(%rdi,%rbx)
	movl	$2,%r8d
	leaq	(%r8,%rbx),%r14
	testq	%r12,%r12
	jne	13f
	jmp	14f
10:
	rolb	$4,%al
	addb	%r12b,%al
	decb	%al
	movb	%al,(%rdi,%rbx)
	movl	$1,%r10d
	leaq	(%r8,%r9),%rax
	leaq	(%r10,%rbx),%r13
	testq	%r12,%r12
	je	12f
11:
	cmpq	$1,%r12
	je	4b
	cmpq	$2,%r12
	ja	4f
	movzbl	(%rax),%ecx
	movb	%cl,(%rdi,%r13)
	movzbl	1(%rax),%eax
	movb	%al,1(%rdi,%r13)
	jmp	5b
7:
	rolb	$4,%r13b
	addb	%r12b,%r13b
	decb	%r13b
	movb	%r13b,(%rdi,%rbx)
	movl	$1,%r8d
	leaq	(%r8,%rbx),%r14
	testq	%r12,%r12
	je	14f
13:
	cmpl	$1,%r12d
	jne	7f
	movzbl	(%rax),%eax
	movb	%al,(%rdi,%r14)
	jmp	10f
7:
	cmpl	$2,%r12d
	ja	7f
	movzbl	(%rax),%ecx
	movb	%cl,(%rdi,%r14)
	movzbl	1(%rax),%eax
	movb	%al,1(%rdi,%r14)
	jmp	10f
4:
	cmpq	$3,%r12
	jne	12f
	movzbl	(%rax),%ecx
	movb	%cl,(%rdi,%r13)
	movzbl	1(%rax),%ecx
	movb	%cl,1(%rdi,%r13)
	movzbl	2(%rax),%eax
	movb	%al,2(%rdi,%r13)
	jmp	5b
12:
	leaq	(%rdi,%r13),%rcx
	movq	%rcx,%r11
	subq	%rax,%r11
	cmpq	%r12,%r11
	jae	4f
	cmpq	$4,%r12
	movq	%rdi,48(%rsp)
	jb	11f
	addq	%rdi,%rbx
	addq	%r10,%rbx
	subq	%rax,%rbx
	cmpq	$32,%rbx
	jae	12f
11:
	xorl	%r10d,%r10d
11:
	movq	%rsi,%rdi
	movq	%r12,%rsi
	movq	%r10,%r11
	andq	$3,%rsi
	je	13f
	movq	%r10,%r11
	.p2align	4
15:
	movzbl	(%rax,%r11),%ebx
	movb	%bl,(%rcx,%r11)
	incq	%r11
	decq	%rsi
	jne	15b
13:
	subq	%r12,%r10
	cmpq	$-4,%r10
	movq	%rdi,%rsi
	movq	48(%rsp),%rdi
	ja	5b
	leaq	(%r8,%r9),%rax
	addq	$3,%rax
	movq	64(%rsp),%rcx
	addq	%r13,%rcx
	.p2align	4
13:
	movzbl	-3(%rax,%r11),%r8d
	movb	%r8b,-3(%rcx,%r11)
	movzbl	-2(%rax,%r11),%r8d
	movb	%r8b,-2(%rcx,%r11)
	movzbl	-1(%rax,%r11),%r8d
	movb	%r8b,-1(%rcx,%r11)
	movzbl	(%rax,%r11),%r8d
	movb	%r8b,(%rcx,%r11)
	addq	$4,%r11
	cmpq	%r11,%r12
	jne	13b
	jmp	5b
4:
	movq	%rdi,%rbx
	movq	%rsi,%rdi
	movq	%rdx,%rsi
	movq	%rax,%rdx
	movq	%r12,%r8
	callq	memmove
	movq	%rsi,%rdx
	movq	%rdi,%rsi
	movq	%rbx,%rdi
	jmp	5b
7:
	cmpl	$3,%r12d
	jne	14f
	movzbl	(%rax),%ecx
	movb	%cl,(%rdi,%r14)
	movzbl	1(%rax),%ecx
	movb	%cl,1(%rdi,%r14)
	movzbl	2(%rax),%eax
	movb	%al,2(%rdi,%r14)
	jmp	10f
14:
	leaq	(%rdi,%r14),%rcx
	movq	%rcx,%r9
	subq	%rax,%r9
	cmpq	%r12,%r9
	jae	4f
	cmpl	$4,%r12d
	jb	7f
	addq	%rdi,%rbx
	addq	%r8,%rbx
	subq	%rax,%rbx
	cmpq	$32,%rbx
	jae	13f
7:
	xorl	%r8d,%r8d
7:
	movq	%r12,%r10
	movq	%r8,%r9
	andq	$3,%r10
	je	14f
	movq	%r8,%r9
	.p2align	4
15:
	movzbl	(%rax,%r9),%r11d
	movb	%r11b,(%rcx,%r9)
	incq	%r9
	decq	%r10
	jne	15b
14:
	subl	%r12d,%r8d
	cmpl	$-4,%r8d
	movq	40(%rsp),%r11
	ja	10f
	movq	64(%rsp),%rcx
	addq	%r14,%rcx
	.p2align	4
14:
	movzbl	(%rax,%r9),%r8d
	movb	%r8b,-3(%rcx,%r9)
	movzbl	1(%rax,%r9),%r8d
	movb	%r8b,-2(%rcx,%r9)
	movzbl	2(%rax,%r9),%r8d
	movb	%r8b,-1(%rcx,%r9)
	movzbl	3(%rax,%r9),%r8d
	movb	%r8b,(%rcx,%r9)
	addq	$4,%r9
	cmpq	%r9,%r12
	jne	14b
	jmp	10f
4:
	movq	%rdi,%rbx
	movq	%rsi,%rdi
	movq	%rdx,%rsi
	movq	%rax,%rdx
	movq	%r12,%r8
	callq	memmove
	movq	40(%rsp),%r11
	movq	%rsi,%rdx
	movq	%rdi,%rsi
	movq	%rbx,%rdi
10:
	addq	%r12,%r14
	movq	%r14,%rbx
	jmp	6b
12:
	cmpq	$32,%r12
	jae	4f
	xorl	%r10d,%r10d
	jmp	6f
3:
	movzbl	208(%rsp),%ecx
	movq	%rdi,48(%rsp)
	movq	%rsi,%rdi
	movq	%rdx,%rsi
	movl	%r13d,%edx
	movq	%r12,%r8
	movq	%rax,%r14
	callq	rtp_route.walk.is_carried
	movq	40(%rsp),%r11
	movq	%rsi,%rdx
	movq	%rdi,%rsi
	movq	48(%rsp),%rdi
	movl	%eax,%ecx
	movq	%r14,%rax
	testb	%cl,%cl
	jne	9b
	jmp	8f
13:
	cmpl	$32,%r12d
	jae	3f
	xorl	%r8d,%r8d
	jmp	9f
4:
	movq	%rsi,%rdi
	movq	%r12,%r10
	andq	$-32,%r10
	leaq	(%r8,%r9),%r11
	addq	$16,%r11
	movq	56(%rsp),%rsi
	addq	%r13,%rsi
	xorl	%ebx,%ebx
	.p2align	4
4:
	movups	-16(%r11,%rbx),%xmm0
	movups	(%r11,%rbx),%xmm1
	movups	%xmm0,-16(%rsi,%rbx)
	movups	%xmm1,(%rsi,%rbx)
	addq	$32,%rbx
	cmpq	%rbx,%r10
	jne	4b
	cmpq	%r10,%r12
	movq	%rdi,%rsi
	movq	48(%rsp),%rdi
	je	5b
	testb	$28,%r12b
	je	11b
6:
	movq	%rdi,%rbx
	movq	%rsi,%rdi
	movq	%r10,%r11
	movq	%r12,%r10
	andq	$-4,%r10
	.p2align	4
4:
	movl	(%rax,%r11),%esi
	movl	%esi,(%rcx,%r11)
	addq	$4,%r11
	cmpq	%r11,%r10
	jne	4b
	cmpq	%r10,%r12
	movq	%rdi,%rsi
	movq	%rbx,%rdi
	je	5b
	jmp	11b
3:
	movq	%r12,%r8
	andq	$-32,%r8
	movq	56(%rsp),%r9
	addq	%r14,%r9
	xorl	%r10d,%r10d
	.p2align	4
3:
	movups	(%rax,%r10),%xmm0
	movups	16(%rax,%r10),%xmm1
	movups	%xmm0,-16(%r9,%r10)
	movups	%xmm1,(%r9,%r10)
	addq	$32,%r10
	cmpq	%r10,%r8
	jne	3b
	cmpl	%r8d,%r12d
	je	10b
	testb	$28,%r12b
	je	7b
9:
	movq	%r8,%r9
	movq	%r12,%r8
	andq	$-4,%r8
	.p2align	4
3:
	movl	(%rax,%r9),%r10d
	movl	%r10d,(%rcx,%r9)
	addq	$4,%r9
	cmpq	%r9,%r8
	jne	3b
	cmpl	%r8d,%r12d
	je	10b
	jmp	7b
3:
	movzbl	(%r8),%ecx
	movb	%cl,(%rdi,%r15)
4:
	leaq	(%rsi,%r15),%rbx
	movq	240(%rsp),%rcx
	movl	%r15d,-8(%rcx,%r13,8)
	movl	%esi,-4(%rcx,%r13,8)
	movq	96(%rsp),%rsi
	movq	40(%rsp),%r11
5:
	addq	%rbp,%rax
	testq	%rdx,%rdx
	je	2f
1:
	movzbl	(%rax),%ecx
	testb	%cl,%cl
	jne	1f
	cmpq	$2,%rdx
	je	6f
	cmpq	$1,%rdx
	je	2f
	cmpq	$3,%rdx
	ja	7f
	cmpb	$0,1(%rax)
	jne	7f
	cmpb	$0,2(%rax)
	jne	7f
	jmp	2f
6:
	cmpb	$0,1(%rax)
	je	2f
7:
	decq	%rdx
	incq	%rax
	movq	%rax,%rcx
	callq	rtp_ext.elements.skip_zeros
	testq	%rdx,%rdx
	je	2f
	movzbl	(%rax),%ecx
	movq	40(%rsp),%r11
1:
	cmpb	$-17,%cl
	ja	2f
	movl	%ecx,%r14d
	andb	$15,%r14b
	leal	2(%r14),%r8d
	movzbl	%r8b,%ebp
	subq	%rbp,%rdx
	jb	2f
	movzbl	%cl,%ecx
	shrl	$4,%ecx
	movq	(%r11),%r8
	movzbl	(%r8,%rcx),%r12d
	testq	%r12,%r12
	je	5b
	leaq	-1(%rbp),%r15
	cmpb	$15,%r12b
	jae	1f
6:
	movq	72(%rsp),%rcx
	movzbl	(%rcx,%r12),%r13d
	testq	%r13,%r13
	je	7f
	movq	240(%rsp),%rcx
	cmpl	$0,-8(%rcx,%r13,8)
	jne	8f
	leaq	-1(%r13),%rcx
	movq	24(%r11),%r9
	shlq	$5,%rcx
	movq	%rsi,%r10
	movq	8(%r9,%rcx),%rsi
	leaq	(%rbx,%rsi),%r8
	addq	$2,%r8
	cmpq	%r8,%r10
	jb	8f
	movq	8(%r11),%r14
	movq	(%r9,%rcx),%r10
	leaq	(%r14,%r10),%r8
	movzbl	24(%r9,%rcx),%ecx
	rolb	$4,%cl
	addb	%sil,%cl
	decb	%cl
	movb	%cl,(%rdi,%rbx)
	leaq	1(%rbx),%r15
	testq	%rsi,%rsi
	je	9f
	cmpq	$1,%rsi
	je	3b
	cmpq	$2,%rsi
	ja	3f
	movzbl	(%r8),%ecx
	movb	%cl,(%rdi,%r15)
	movzbl	1(%r8),%ecx
	movb	%cl,1(%rdi,%r15)
	jmp	4b
7:
	leaq	(%rbx,%r15),%rcx
	addq	$2,%rcx
	cmpq	%rcx,%rsi
	jb	8f
	leaq	1(%rax),%r8
	rolb	$4,%r12b
	addb	%r15b,%r12b
	decb	%r12b
	movb	%r12b,(%rdi,%rbx)
	leaq	1(%rbx),%rcx
	cmpq	$1,%r15
	jne	7f
	movzbl	(%r8),%r8d
	movb	%r8b,(%rdi,%rcx)
	addq	%rbp,%rbx
	jmp	5b
7:
	cmpb	$1,%r14b
	ja	7f
	movzbl	1(%rax),%r8d
	movb	%r8b,(%rdi,%rcx)
	movzbl	2(%rax),%r8d
	movb	%r8b,1(%rdi,%rcx)
	addq	%rbp,%rbx
	jmp	5b
3:
	cmpq	$3,%rsi
	jne	9f
	movzbl	(%r8),%ecx
	movb	%cl,(%rdi,%r15)
	movzbl	1(%r8),%ecx
	movb	%cl,1(%rdi,%r15)
	movzbl	2(%r8),%ecx
	movb	%cl,2(%rdi,%r15)
	jmp	4b
9:
	leaq	(%rdi,%r15),%rcx
	movq	%rcx,%r9
	subq	%r8,%r9
	cmpq	%rsi,%r9
	jae	3f
	cmpq	$4,%rsi
	movq	%r14,80(%rsp)
	jb	9f
	movq	64(%rsp),%r9
	addq	%rbx,%r9
	subq	%r8,%r9
	cmpq	$32,%r9
	jae	10f
9:
	xorl	%r11d,%r11d
9:
	movq	%rsi,%r14
	movq	%r11,%r12
	andq	$3,%r14
	je	11f
	movq	%r11,%r12
	.p2align	4
12:
	movzbl	(%r8,%r12),%r9d
	movb	%r9b,(%rcx,%r12)
	incq	%r12
	decq	%r14
	jne	12b
11:
	subq	%rsi,%r11
	cmpq	$-4,%r11
	ja	4b
	movq	80(%rsp),%rcx
	addq	%r10,%rcx
	addq	$3,%rcx
	addq	56(%rsp),%rbx
	.p2align	4
11:
	movzbl	-3(%rcx,%r12),%r8d
	movb	%r8b,-3(%rbx,%r12)
	movzbl	-2(%rcx,%r12),%r8d
	movb	%r8b,-2(%rbx,%r12)
	movzbl	-1(%rcx,%r12),%r8d
	movb	%r8b,-1(%rbx,%r12)
	movzbl	(%rcx,%r12),%r8d
	movb	%r8b,(%rbx,%r12)
	addq	$4,%r12
	cmpq	%r12,%rsi
	jne	11b
	jmp	4b
3:
	movq	%rdx,%rbx
	movq	%r8,%rdx
	movq	%rsi,%r8
	movq	%rax,%r14
	callq	memmove
	movq	%r14,%rax
	movq	%rbx,%rdx
	jmp	4b
7:
	cmpl	$3,%r15d
	jne	3f
	movzbl	1(%rax),%r8d
	movb	%r8b,(%rdi,%rcx)
	movzbl	2(%rax),%r8d
	movb	%r8b,1(%rdi,%rcx)
	movzbl	3(%rax),%r8d
	movb	%r8b,2(%rdi,%rcx)
	addq	%rbp,%rbx
	jmp	5b
1:
	xorl	%ecx,%ecx
	movq	%rdi,48(%rsp)
	movq	%rsi,%rdi
	movq	%rdx,%rsi
	movl	%r12d,%edx
	movq	%r15,%r8
	movq	%rax,%r13
	callq	rtp_route.walk.is_carried
	movq	40(%rsp),%r11
	movq	%rsi,%rdx
	movq	%rdi,%rsi
	movq	48(%rsp),%rdi
	movl	%eax,%ecx
	movq	%r13,%rax
	testb	%cl,%cl
	jne	6b
	jmp	1f
3:
	addq	%rdi,%rcx
	movq	%rcx,%r9
	subq	%r8,%r9
	cmpq	%r15,%r9
	jae	3f
	cmpb	$2,%r14b
	jne	6f
	xorl	%r9d,%r9d
	jmp	7f
10:
	cmpq	$32,%rsi
	jae	10f
	xorl	%r11d,%r11d
	jmp	11f
3:
	movq	%rdi,%r12
	movq	%rsi,%rdi
	movq	%rdx,%rsi
	movq	%r8,%rdx
	movq	%r15,%r8
	movq	%rax,%r14
	callq	memmove
	movq	40(%rsp),%r11
	movq	%r14,%rax
	movq	%rsi,%rdx
	movq	%rdi,%rsi
	movq	%r12,%rdi
	addq	%rbp,%rbx
	jmp	5b
10:
	movq	%rsi,%r11
	andq	$-32,%r11
	addq	%r10,%r14
	addq	$16,%r14
	movq	88(%rsp),%r9
	leaq	(%r9,%rbx),%r12
	xorl	%r9d,%r9d
	.p2align	4
3:
	movups	-16(%r14,%r9),%xmm0
	movups	(%r14,%r9),%xmm1
	movups	%xmm0,-16(%r12,%r9)
	movups	%xmm1,(%r12,%r9)
	addq	$32,%r9
	cmpq	%r9,%r11
	jne	3b
	cmpq	%r11,%rsi
	je	4b
	testb	$28,%sil
	je	9b
11:
	movq	%r11,%r9
	movq	%rsi,%r11
	andq	$-4,%r11
	.p2align	4
3:
	movl	(%r8,%r9),%r14d
	movl	%r14d,(%rcx,%r9)
	addq	$4,%r9
	cmpq	%r9,%r11
	jne	3b
	cmpq	%r11,%rsi
	je	4b
	jmp	9b
6:
	leaq	(%rbx,%rdi),%r9
	subq	%rax,%r9
	cmpq	$16,%r9
	jae	3f
	xorl	%r9d,%r9d
	.p2align	4
7:
	movzbl	(%r8,%r9),%r10d
	movb	%r10b,(%rcx,%r9)
	incq	%r9
	cmpq	%r9,%r15
	jne	7b
4:
	addq	%rbp,%rbx
	jmp	5b
3:
	cmpb	$15,%r14b
	jne	3f
	movups	(%r8),%xmm0
	movups	%xmm0,(%rcx)
	addq	%rbp,%rbx
	jmp	5b
3:
	movq	%r15,%r9
	andq	$-4,%r9
	xorl	%r10d,%r10d
3:
	movl	(%r8,%r10),%r11d
	movl	%r11d,(%rcx,%r10)
	addq	$4,%r10
	cmpq	%r10,%r9
	jne	3b
	cmpl	%r9d,%r15d
	movq	40(%rsp),%r11
	jne	7b
	jmp	4b
2:
	movb	$1,%al
2:
	movq	%rbx,%rdx
	addq	$104,%rsp
	popq	%rbx
	popq	%rbp
	popq	%rdi
	popq	%rsi
	popq	%r12
	popq	%r13
	popq	%r14
	popq	%r15
	retq
8:
	xorl	%eax,%eax
	xorl	%ebx,%ebx
	jmp	2b
1:
	xorl	%ebx,%ebx
	xorl	%eax,%eax
	jmp	2b
	.seh_endproc

	.def	rtp_route.by_walk.write_in_two_byte_form.687967002a58489c;
	.scl	3;
	.type	32;
	.endef
	.section	.rdata,"dr"
	.p2align	4,0x0
1:
	.byte	14
	.byte	14
	.byte	14
	.byte	14
	.byte	14
	.byte	14
	.byte	14
	.byte	14
	.zero	1
	.zero	1
	.zero	1
	.zero	1
	.zero	1
	.zero	1
	.zero	1
	.zero	1
	.section	.text$unlikely$rtp_route.by_walk.write_in_two_byte_form.687967002a58489c,"xr"
	.p2align	4
rtp_route.by_walk.write_in_two_byte_form.687967002a58489c:
.seh_proc rtp_route.by_walk.write_in_two_byte_form.687967002a58489c
	pushq	%r15
	.seh_pushreg %r15
	pushq	%r14
	.seh_pushreg %r14
	pushq	%r13
	.seh_pushreg %r13
	pushq	%r12
	.seh_pushreg %r12
	pushq	%rsi
	.seh_pushreg %rsi
	pushq	%rdi
	.seh_pushreg %rdi
	pushq	%rbp
	.seh_pushreg %rbp
	pushq	%rbx
	.seh_pushreg %rbx
	subq	$488,%rsp
	.seh_stackalloc 488
	movaps	%xmm6,464(%rsp)
	.seh_savexmm %xmm6,464
	.seh_endprologue
	movq	%rcx,%rsi
	cmpb	$1,24(%rdx)
	jne	2f
	movq	(%rdx),%r14
	movq	16(%rdx),%r13
	movzbl	25(%rdx),%ebx
	movzbl	(%r8),%eax
	movb	%al,85(%rsp)
	movzbl	1(%r8),%eax
	movb	%al,83(%rsp)
	movzbl	2(%r8),%eax
	movb	%al,79(%rsp)
	movzbl	3(%r8),%eax
	movb	%al,84(%rsp)
	movzbl	4(%r8),%eax
	movb	%al,80(%rsp)
	movzwl	6(%r8),%eax
	movw	%ax,86(%rsp)
	movzbl	8(%r8),%eax
	movb	%al,81(%rsp)
	movl	12(%r8),%eax
	movl	%eax,100(%rsp)
	movzbl	16(%r8),%eax
	movb	%al,82(%rsp)
	movl	20(%r8),%eax
	movl	%eax,104(%rsp)
	movq	(%r9),%rdi
	movq	16(%r9),%r15
	movups	8(%r9),%xmm6
	movq	24(%r9),%rbp
	movzbl	(%r14),%r12d
	movq	(%rdi),%rdx
	leaq	208(%rsp),%rcx
	movl	$256,%r8d
	callq	memcpy
	cmpl	$1,%ebx
	je	2f
	testl	%ebx,%ebx
	jne	3f
	movq	208(%rsp),%xmm0
	movdqa	1b(%rip),%xmm1
	pminub	%xmm0,%xmm1
	pcmpeqb	%xmm0,%xmm1
	pmovmskb	%xmm1,%eax
	xorb	$-1,%al
	jne	3f
	movq	215(%rsp),%xmm0
	movdqa	1b(%rip),%xmm1
	pminub	%xmm0,%xmm1
	pcmpeqb	%xmm0,%xmm1
	pmovmskb	%xmm1,%eax
	xorb	$-1,%al
	je	2f
3:
	andl	$15,%r12d
	leaq	16(,%r12,4),%rcx
	leaq	(%r14,%r12,4),%rax
	addq	$16,%rax
	movq	%r13,%rdx
	subq	%rcx,%rdx
1:
	testq	%rdx,%rdx
	je	2f
	movzbl	(%rax),%ecx
	testb	%cl,%cl
	jne	3f
	cmpq	$2,%rdx
	je	4f
	cmpq	$1,%rdx
	je	2f
	cmpq	$3,%rdx
	ja	5f
	cmpb	$0,1(%rax)
	jne	5f
	cmpb	$0,2(%rax)
	jne	5f
	jmp	2f
4:
	cmpb	$0,1(%rax)
	je	2f
5:
	decq	%rdx
	incq	%rax
	movq	%rax,%rcx
	callq	rtp_ext.elements.skip_zeros
	testq	%rdx,%rdx
	je	2f
	movzbl	(%rax),%ecx
3:
	cmpb	$-17,%cl
	ja	2f
	movl	%ecx,%r8d
	andb	$15,%r8b
	addb	$2,%r8b
	movzbl	%r8b,%r8d
	subq	%r8,%rdx
	jb	2f
	movzbl	%cl,%ecx
	shrl	$4,%ecx
	addq	%r8,%rax
	cmpb	$15,208(%rsp,%rcx)
	jb	1b
	pxor	%xmm0,%xmm0
	movq	608(%rsp),%rax
	movdqu	%xmm0,112(%rax)
	movdqu	%xmm0,96(%rax)
	movdqu	%xmm0,80(%rax)
	movdqu	%xmm0,64(%rax)
	movdqu	%xmm0,48(%rax)
	movdqu	%xmm0,32(%rax)
	movdqu	%xmm0,16(%rax)
	movq	600(%rsp),%rdx
	cmpq	$262140,%rdx
	movl	$262140,%ecx
	cmovbq	%rdx,%rcx
	movdqu	%xmm0,(%rax)
	leaq	3(,%r13,2),%rdx
	xorl	%r8d,%r8d
	movq	%rcx,88(%rsp)
	movl	$0,%eax
	subq	%rdx,%rcx
	cmovbq	%r8,%rcx
	movl	$0,%edx
	jb	1f
	cmpq	%r15,%rcx
	jb	1f
	movzbl	(%r14),%eax
	movb	$1,%cl
	cmpq	$0,32(%rdi)
	je	3f
	cmpb	$1,40(%rdi)
	movq	592(%rsp),%r12
	movq	608(%rsp),%r15
	jne	4f
	movzbl	41(%rdi),%ecx
	cmpb	$1,%cl
	je	4f
	jmp	5f
2:
	pxor	%xmm0,%xmm0
	movdqu	%xmm0,(%rsi)
	movw	$0,16(%rsi)
2:
	movaps	464(%rsp),%xmm6
	addq	$488,%rsp
	popq	%rbx
	popq	%rbp
	popq	%rdi
	popq	%rsi
	popq	%r12
	popq	%r13
	popq	%r14
	popq	%r15
	retq
3:
	movq	592(%rsp),%r12
	movq	608(%rsp),%r15
4:
	shll	$2,%eax
	andl	$60,%eax
	leaq	16(%rax),%r8
	movq	%rax,152(%rsp)
	addq	%r14,%rax
	addq	$16,%rax
	subq	%r8,%r13
	movq	%rdi,176(%rsp)
	movups	%xmm6,184(%rsp)
	movq	%rbp,200(%rsp)
	movq	%r15,64(%rsp)
	leaq	176(%rsp),%rdx
	movq	%rdx,56(%rsp)
	movq	%r13,48(%rsp)
	movq	%rax,40(%rsp)
	movq	%rcx,120(%rsp)
	movb	%cl,32(%rsp)
	movq	%r12,%rcx
	movq	88(%rsp),%rdx
	movq	%r8,112(%rsp)
	movl	%ebx,%r9d
	callq	rtp_route.walk.write_kept.687967002a58489c
	cmpb	$1,%al
	jne	5f
	movq	32(%rdi),%r8
	testq	%r8,%r8
	je	3f
	leaq	2(%r12),%rax
	movq	%rax,144(%rsp)
	leaq	18(%r12),%rax
	movq	%rax,128(%rsp)
	leaq	5(%r12),%rax
	movq	%rax,136(%rsp)
	xorl	%ebp,%ebp
	movq	%r8,160(%rsp)
	jmp	4f
6:
	movzbl	(%rax),%eax
	movb	%al,(%r12,%r10)
7:
	movq	168(%rsp),%rax
	leaq	(%rax,%r13),%rdx
	movl	%eax,(%r15,%rbp,8)
	movl	%r13d,4(%r15,%rbp,8)
	movq	160(%rsp),%r8
8:
	incq	%rbp
	cmpq	%r8,%rbp
	je	3f
4:
	cmpl	$0,(%r15,%rbp,8)
	jne	8b
	movq	24(%rdi),%rcx
	movq	%rbp,%r10
	shlq	$5,%r10
	movq	8(%rcx,%r10),%r13
	leaq	(%rdx,%r13),%rax
	addq	$2,%rax
	cmpq	%rax,88(%rsp)
	jb	5f
	movq	8(%rdi),%r8
	movq	(%rcx,%r10),%r9
	leaq	(%r8,%r9),%rax
	movzbl	24(%rcx,%r10),%ecx
	movb	%cl,(%r12,%rdx)
	movb	%r13b,1(%r12,%rdx)
	leaq	2(%rdx),%r10
	testq	%r13,%r13
	movq	%r10,168(%rsp)
	je	4f
	cmpq	$1,%r13
	je	6b
	cmpq	$2,%r13
	ja	6f
	movzbl	(%rax),%ecx
	movb	%cl,(%r12,%r10)
	movzbl	1(%rax),%eax
	movb	%al,1(%r12,%r10)
	jmp	7b
6:
	cmpq	$3,%r13
	jne	4f
	movzbl	(%rax),%ecx
	movb	%cl,(%r12,%r10)
	movzbl	1(%rax),%ecx
	movb	%cl,1(%r12,%r10)
	movzbl	2(%rax),%eax
	movb	%al,2(%r12,%r10)
	jmp	7b
4:
	leaq	(%r12,%r10),%rcx
	movq	%rcx,%r10
	subq	%rax,%r10
	cmpq	%r13,%r10
	jae	4f
	cmpq	$4,%r13
	jb	6f
	movq	144(%rsp),%r10
	addq	%rdx,%r10
	subq	%rax,%r10
	cmpq	$32,%r10
	jae	8f
6:
	xorl	%r10d,%r10d
6:
	movq	%r13,%r15
	movq	%r10,%r11
	andq	$3,%r15
	je	9f
	movq	%r10,%r11
10:
	movzbl	(%rax,%r11),%r12d
	movb	%r12b,(%rcx,%r11)
	incq	%r11
	decq	%r15
	jne	10b
9:
	subq	%r13,%r10
	cmpq	$-4,%r10
	movq	592(%rsp),%r12
	movq	608(%rsp),%r15
	ja	7b
	leaq	(%r8,%r9),%rax
	addq	$3,%rax
	addq	136(%rsp),%rdx
9:
	movzbl	-3(%rax,%r11),%ecx
	movb	%cl,-3(%rdx,%r11)
	movzbl	-2(%rax,%r11),%ecx
	movb	%cl,-2(%rdx,%r11)
	movzbl	-1(%rax,%r11),%ecx
	movb	%cl,-1(%rdx,%r11)
	movzbl	(%rax,%r11),%ecx
	movb	%cl,(%rdx,%r11)
	addq	$4,%r11
	cmpq	%r11,%r13
	jne	9b
	jmp	7b
4:
	movq	%rax,%rdx
	movq	%r13,%r8
	callq	memmove
	jmp	7b
8:
	cmpq	$32,%r13
	jae	4f
	xorl	%r10d,%r10d
	jmp	8f
4:
	movq	%r13,%r10
	andq	$-32,%r10
	leaq	(%r8,%r9),%r11
	addq	$16,%r11
	movq	128(%rsp),%r15
	addq	%rdx,%r15
	xorl	%r12d,%r12d
4:
	movdqu	-16(%r11,%r12),%xmm0
	movdqu	(%r11,%r12),%xmm1
	movdqu	%xmm0,-16(%r15,%r12)
	movdqu	%xmm1,(%r15,%r12)
	addq	$32,%r12
	cmpq	%r12,%r10
	jne	4b
	cmpq	%r10,%r13
	movq	592(%rsp),%r12
	movq	608(%rsp),%r15
	je	7b
	testb	$28,%r13b
	je	6b
8:
	movq	%r10,%r11
	movq	%r13,%r10
	andq	$-4,%r10
4:
	movl	(%rax,%r11),%r15d
	movl	%r15d,(%rcx,%r11)
	addq	$4,%r11
	cmpq	%r11,%r10
	jne	4b
	cmpq	%r10,%r13
	movq	608(%rsp),%r15
	je	7b
	jmp	6b
3:
	leaq	3(%rdx),%r15
	andq	$-4,%r15
	cmpq	%r15,88(%rsp)
	jae	3f
5:
	xorl	%eax,%eax
	xorl	%r8d,%r8d
	xorl	%edx,%edx
1:
	movzbl	%al,%eax
	movq	%rax,(%rsi)
	movq	%r8,8(%rsi)
	movb	%al,16(%rsi)
	movb	%dl,17(%rsi)
	jmp	2b
3:
	movq	%r15,%rax
	subq	%rdx,%rax
	je	2f
	cmpq	$2,%rax
	je	3f
	cmpq	$1,%rax
	jne	4f
	movb	$0,(%r12,%rdx)
	jmp	2f
4:
	movb	$0,2(%r12,%rdx)
3:
	movw	$0,(%r12,%rdx)
2:
	movq	152(%rsp),%rax
	cmpb	$33,%al
	jb	2f
	movq	%r12,%rcx
	movq	%r14,%rdx
	movq	112(%rsp),%rdi
	movq	%rdi,%r8
	callq	rtp_route.copying.put_any
	movzbl	82(%rsp),%r8d
	movzbl	81(%rsp),%r9d
	movzbl	80(%rsp),%r10d
	movzbl	79(%rsp),%r11d
	jmp	3f
2:
	movups	(%r14),%xmm0
	movups	%xmm0,(%r12)
	cmpb	$17,%al
	jb	2f
	movups	16(%r14),%xmm0
	movups	%xmm0,16(%r12)
2:
	movdqu	(%r14,%rax),%xmm0
	movdqu	%xmm0,(%r12,%rax)
	movzbl	82(%rsp),%r8d
	movzbl	81(%rsp),%r9d
	movzbl	80(%rsp),%r10d
	movzbl	79(%rsp),%r11d
	movq	112(%rsp),%rdi
3:
	movq	%r15,%rax
	subq	%rdi,%rax
	cmpl	$1,%ebx
	je	2f
	movw	$16,176(%rsp)
	leaq	(%r12,%rdi),%rcx
	addq	$-4,%rcx
	movq	%rcx,%rdx
	leaq	176(%rsp),%rbx
	subq	%rbx,%rdx
	cmpq	$1,%rdx
	ja	3f
	movzwl	176(%rsp),%edx
	movw	%dx,(%rcx)
	jmp	2f
3:
	movw	$16,(%rcx)
2:
	movl	%eax,%ecx
	shrl	$10,%ecx
	andl	$-4,%eax
	shll	$6,%eax
	movzbl	%cl,%ecx
	orl	%eax,%ecx
	movw	%cx,110(%rsp)
	movw	%cx,-2(%r12,%rdi)
	cmpb	$1,85(%rsp)
	jne	2f
	movzbl	83(%rsp),%ecx
	shlb	$7,%cl
	movzbl	1(%r12),%eax
	andb	$127,%al
	orb	%cl,%al
	movb	%al,1(%r12)
	cmpb	$1,%r11b
	je	3f
4:
	cmpb	$1,%r10b
	jne	5f
6:
	movzwl	86(%rsp),%eax
	rolw	$8,%ax
	movw	%ax,2(%r12)
	cmpb	$1,%r9b
	je	7f
8:
	movb	$1,%al
	cmpb	$1,%r8b
	jne	9f
10:
	movl	104(%rsp),%ecx
	bswapl	%ecx
	movl	%ecx,8(%r12)
9:
	movq	120(%rsp),%rdx
	movq	%r15,%r8
	jmp	1b
2:
	cmpb	$1,%r11b
	jne	4b
3:
	movzbl	1(%r12),%eax
	andb	$-128,%al
	addb	84(%rsp),%al
	movb	%al,1(%r12)
	cmpb	$1,%r10b
	je	6b
5:
	cmpb	$1,%r9b
	jne	8b
7:
	movl	100(%rsp),%eax
	bswapl	%eax
	movl	%eax,4(%r12)
	movb	$1,%al
	cmpb	$1,%r8b
	je	10b
	jmp	9b
	.seh_endproc

	.def	rtp_route.making.make_by_calls_of.687967002a58489c;
	.scl	3;
	.type	32;
	.endef
	.section	.text$unlikely$rtp_route.making.make_by_calls_of.687967002a58489c,"xr"
	.p2align	4
rtp_route.making.make_by_calls_of.687967002a58489c:
.seh_proc rtp_route.making.make_by_calls_of.687967002a58489c
	pushq	%r15
	.seh_pushreg %r15
	pushq	%r14
	.seh_pushreg %r14
	pushq	%r12
	.seh_pushreg %r12
	pushq	%rsi
	.seh_pushreg %rsi
	pushq	%rdi
	.seh_pushreg %rdi
	pushq	%rbp
	.seh_pushreg %rbp
	pushq	%rbx
	.seh_pushreg %rbx
	subq	$432,%rsp
	.seh_stackalloc 432
	movaps	%xmm6,416(%rsp)
	.seh_savexmm %xmm6,416
	.seh_endprologue
	movq	%r9,%rdi
	movq	%rdx,%rbx
	movq	%rcx,%rsi
	movaps	528(%rsp),%xmm6
	movq	16(%rdx),%r15
	movzwl	24(%rdx),%ebp
	movq	(%r8),%r12
	xorps	%xmm0,%xmm0
	movaps	%xmm0,64(%rsp)
	movaps	%xmm0,48(%rsp)
	movq	$0,152(%rsp)
	movups	8(%r8),%xmm0
	movups	%xmm0,128(%rsp)
	movq	24(%r8),%rax
	movq	%rax,144(%rsp)
	movq	(%r12),%rdx
	leaq	160(%rsp),%r14
	movl	$256,%r8d
	movq	%r14,%rcx
	callq	memcpy
	movzwl	40(%r12),%eax
	movq	%r14,112(%rsp)
	movq	%r12,120(%rsp)
	movw	%ax,152(%rsp)
	movq	$0,104(%rsp)
	movups	(%rbx),%xmm0
	movaps	%xmm0,80(%rsp)
	movq	%r15,96(%rsp)
	movw	%bp,104(%rsp)
	movups	%xmm6,32(%rsp)
	leaq	48(%rsp),%rcx
	leaq	80(%rsp),%rdx
	leaq	112(%rsp),%r8
	movq	%rdi,%r9
	callq	rtp_route.making.make_by_calls.2b2c45b9ae55a838
	movzbl	48(%rsp),%eax
	movq	%rax,(%rsi)
	movq	56(%rsp),%rax
	movq	%rax,8(%rsi)
	movzbl	64(%rsp),%eax
	movb	%al,16(%rsi)
	movzbl	65(%rsp),%eax
	movb	%al,17(%rsi)
	movq	72(%rsp),%rax
	movq	%rax,24(%rsi)
	movaps	416(%rsp),%xmm6
	addq	$432,%rsp
	popq	%rbx
	popq	%rbp
	popq	%rdi
	popq	%rsi
	popq	%r12
	popq	%r14
	popq	%r15
	retq
	.seh_endproc

	.def	rtp_route.making.make_by_calls.2b2c45b9ae55a838;
	.scl	3;
	.type	32;
	.endef
	.section	.text$unlikely$rtp_route.making.make_by_calls.2b2c45b9ae55a838,"xr"
	.p2align	4
rtp_route.making.make_by_calls.2b2c45b9ae55a838:
.seh_proc rtp_route.making.make_by_calls.2b2c45b9ae55a838
	pushq	%r15
	.seh_pushreg %r15
	pushq	%r14
	.seh_pushreg %r14
	pushq	%r13
	.seh_pushreg %r13
	pushq	%r12
	.seh_pushreg %r12
	pushq	%rsi
	.seh_pushreg %rsi
	pushq	%rdi
	.seh_pushreg %rdi
	pushq	%rbp
	.seh_pushreg %rbp
	pushq	%rbx
	.seh_pushreg %rbx
	subq	$440,%rsp
	.seh_stackalloc 440
	movaps	%xmm6,416(%rsp)
	.seh_savexmm %xmm6,416
	.seh_endprologue
	movq	%r9,%rbx
	movq	%r8,%rdi
	movq	%rdx,%rax
	movq	%rcx,%rsi
	movq	(%rdx),%rdx
	movq	16(%rax),%r8
	movzbl	24(%rax),%ebp
	movzbl	25(%rax),%r15d
	xorps	%xmm0,%xmm0
	movaps	%xmm0,256(%rsp)
	movaps	%xmm0,240(%rsp)
	movaps	%xmm0,288(%rsp)
	movaps	%xmm0,304(%rsp)
	movaps	%xmm0,320(%rsp)
	movaps	%xmm0,336(%rsp)
	movaps	%xmm0,352(%rsp)
	movaps	%xmm0,368(%rsp)
	movaps	%xmm0,384(%rsp)
	movaps	%xmm0,400(%rsp)
	movaps	%xmm0,272(%rsp)
	movl	$3,%r9d
	cmpq	%r8,544(%rsp)
	jae	1f
	movb	$8,%cl
	xorl	%eax,%eax
	jmp	2f
1:
	leaq	-49(%r8),%rax
	cmpq	$-34,%rax
	movq	%r8,80(%rsp)
	ja	1f
	movq	%rbx,%rcx
	callq	rtp_route.copying.put_any
	movq	80(%rsp),%r8
	jmp	3f
1:
	movups	(%rdx),%xmm0
	movups	%xmm0,(%rbx)
	cmpq	$33,%r8
	jb	1f
	movups	16(%rdx),%xmm0
	movups	%xmm0,16(%rbx)
1:
	movups	-16(%rdx,%r8),%xmm0
	movups	%xmm0,-16(%rbx,%r8)
3:
	movq	(%rdi),%r12
	movzbl	40(%rdi),%r14d
	movzbl	41(%rdi),%r13d
	movq	$0,136(%rsp)
	movq	%rbx,112(%rsp)
	movq	%r8,120(%rsp)
	movq	%r8,128(%rsp)
	movb	%bpl,136(%rsp)
	movb	%r15b,137(%rsp)
	leaq	112(%rsp),%rcx
	movq	%r12,%rdx
	callq	rtp_wire.packet.rtp_packet_mut.RtpPacketMut.renumber
	testb	%al,%al
	je	1f
	movq	544(%rsp),%r14
3:
	xorps	%xmm0,%xmm0
	movaps	%xmm0,112(%rsp)
	movq	$0,128(%rsp)
	movq	8(%rdi),%r12
	movq	32(%r12),%rbp
	testq	%rbp,%rbp
	je	4f
	xorl	%r15d,%r15d
	movq	80(%rsp),%r9
	.p2align	4
5:
	movq	8(%r12),%rax
	movq	24(%r12),%rcx
	movq	8(%rcx,%r15),%rdx
	movzbl	24(%rcx,%r15),%r8d
	addq	(%rcx,%r15),%rax
	movzbl	40(%rdi),%ecx
	movzbl	41(%rdi),%r10d
	movb	%r10b,64(%rsp)
	movb	%cl,56(%rsp)
	movq	%rdx,48(%rsp)
	movq	%rax,40(%rsp)
	movb	%r8b,32(%rsp)
	leaq	112(%rsp),%rcx
	movq	%rbx,%rdx
	movq	%r14,%r8
	callq	rtp_wire.packet.putting.put_element_copy.1
	movq	120(%rsp),%r9
	cmpb	$0,112(%rsp)
	jne	6f
	addq	$32,%r15
	decq	%rbp
	jne	5b
	jmp	5f
1:
	cmpb	$1,%r14b
	jne	1f
	testb	%r13b,%r13b
	jne	1f
	xorl	%ecx,%ecx
	movl	$2,%r9d
	xorl	%eax,%eax
	xorl	%r8d,%r8d
	jmp	2f
4:
	movq	80(%rsp),%r9
5:
	leaq	272(%rsp),%rcx
	movq	%rbx,%rdx
	movq	%r9,%r8
	callq	rtp_wire.packet.compacting.compact_copy.1
	cmpb	$0,272(%rsp)
	jne	4f
	movq	280(%rsp),%r14
	cmpq	$12,%r14
	jb	4f
	movzbl	(%rbx),%edx
	cmpb	$-65,%dl
	jg	4f
	movl	%edx,%eax
	andl	$15,%eax
	leaq	12(,%rax,4),%rax
	movq	%r14,%rcx
	subq	%rax,%rcx
	jb	4f
	testb	$16,%dl
	jne	5f
	xorl	%r15d,%r15d
	xorl	%ebp,%ebp
	jmp	7f
5:
	cmpq	$4,%rcx
	jb	4f
	movzwl	2(%rbx,%rax),%edx
	rolw	$8,%dx
	addq	$-4,%rcx
	movzwl	%dx,%edx
	shll	$2,%edx
	cmpq	%rdx,%rcx
	jb	4f
	movzwl	(%rbx,%rax),%ecx
	movl	%ecx,%r8d
	andl	$61695,%r8d
	xorl	%ebp,%ebp
	cmpw	$16,%r8w
	sete	%bpl
	cmpl	$57022,%ecx
	movl	$1,%r15d
	cmovnel	%ebp,%r15d
	addq	%rdx,%rax
	addq	$4,%rax
7:
	movq	%rbx,240(%rsp)
	movq	%r14,248(%rsp)
	movq	%rax,256(%rsp)
	movb	%r15b,264(%rsp)
	movb	%bpl,265(%rsp)
	movq	8(%rdi),%rax
	movl	$0,96(%rsp)
	movq	$0,88(%rsp)
	xorps	%xmm0,%xmm0
	movaps	%xmm0,112(%rsp)
	movaps	%xmm0,128(%rsp)
	movaps	%xmm0,144(%rsp)
	movaps	%xmm0,160(%rsp)
	movaps	%xmm0,176(%rsp)
	movaps	%xmm0,192(%rsp)
	movaps	%xmm0,208(%rsp)
	movaps	%xmm0,224(%rsp)
	movq	32(%rax),%rdi
	testq	%rdi,%rdi
	je	5f
	movq	24(%rax),%rbx
	addq	$24,%rbx
	xorl	%r12d,%r12d
	.p2align	4
7:
	movzbl	(%rbx),%r8d
	leaq	88(%rsp),%rcx
	leaq	240(%rsp),%rdx
	callq	rtp_route.slots.slot_of
	cmpb	$1,88(%rsp)
	jne	4f
	movq	92(%rsp),%rax
	movq	%rax,112(%rsp,%r12,8)
	incq	%r12
	addq	$32,%rbx
	cmpq	%r12,%rdi
	jne	7b
5:
	movq	552(%rsp),%rax
	movaps	224(%rsp),%xmm0
	movaps	%xmm0,400(%rsp)
	movaps	208(%rsp),%xmm0
	movaps	%xmm0,384(%rsp)
	movaps	192(%rsp),%xmm1
	movaps	%xmm1,368(%rsp)
	movaps	176(%rsp),%xmm2
	movaps	%xmm2,352(%rsp)
	movaps	112(%rsp),%xmm3
	movaps	128(%rsp),%xmm4
	movaps	144(%rsp),%xmm5
	movaps	160(%rsp),%xmm6
	movaps	%xmm6,336(%rsp)
	movaps	%xmm5,320(%rsp)
	movaps	%xmm4,304(%rsp)
	movaps	%xmm3,288(%rsp)
	movups	%xmm0,96(%rax)
	movups	%xmm1,80(%rax)
	movups	%xmm2,64(%rax)
	movups	%xmm6,48(%rax)
	movups	%xmm5,32(%rax)
	movups	%xmm4,16(%rax)
	movups	%xmm3,(%rax)
	movaps	400(%rsp),%xmm0
	movups	%xmm0,112(%rax)
	movq	$0,(%rsi)
	movq	%r14,8(%rsi)
	movb	%r15b,16(%rsi)
	movb	%bpl,17(%rsi)
	movq	$0,24(%rsi)
	jmp	5f
6:
	movl	%r9d,%eax
	movl	%r9d,%ecx
	movq	128(%rsp),%r8
6:
	shrl	$8,%eax
	movl	$3,%r9d
2:
	movq	$1,(%rsi)
	movq	%r9,8(%rsi)
	movb	%cl,16(%rsi)
	movb	%al,17(%rsi)
	movq	%r8,24(%rsi)
5:
	movaps	416(%rsp),%xmm6
	addq	$440,%rsp
	popq	%rbx
	popq	%rbp
	popq	%rdi
	popq	%rsi
	popq	%r12
	popq	%r13
	popq	%r14
	popq	%r15
	retq
1:
	leaq	88(%rsp),%rcx
	movq	%rbx,%rdx
	movq	544(%rsp),%r14
	movq	%r14,%r8
	movq	80(%rsp),%r9
	callq	rtp_route.in_place.change_form
	movq	96(%rsp),%rcx
	cmpb	$0,88(%rsp)
	je	1f
	movl	%ecx,%eax
	movq	104(%rsp),%r8
	jmp	6b
1:
	movq	$257,136(%rsp)
	movq	%rbx,112(%rsp)
	movq	%rcx,120(%rsp)
	movq	%rcx,80(%rsp)
	movq	%rcx,128(%rsp)
	leaq	112(%rsp),%rcx
	movq	%r12,%rdx
	callq	rtp_wire.packet.rtp_packet_mut.RtpPacketMut.renumber
	jmp	3b
4:
	ud2
	.seh_endproc

	.def	rtp_c.receiver.receive_any;
	.scl	3;
	.type	32;
	.endef
	.section	.text$rtp_c.receiver.receive_any,"xr"
	.p2align	4
rtp_c.receiver.receive_any:
.seh_proc rtp_c.receiver.receive_any
	pushq	%r15
	.seh_pushreg %r15
	pushq	%r14
	.seh_pushreg %r14
	pushq	%rsi
	.seh_pushreg %rsi
	pushq	%rdi
	.seh_pushreg %rdi
	pushq	%rbx
	.seh_pushreg %rbx
	.seh_endprologue
	movzbl	24(%rcx),%r10d
	movq	(%rcx),%r11
	testb	%r10b,%r10b
	je	1f
	subl	%r11d,%edx
	movzwl	%dx,%eax
	leaq	(%rax,%r11),%r9
	testw	%ax,%ax
	jns	2f
	xorl	%eax,%eax
	negw	%dx
	seto	%al
	shll	$16,%eax
	addq	$-65536,%rax
	testw	%r11w,%r11w
	movq	$-65536,%rdx
	cmovnsq	%rax,%rdx
	addq	%rdx,%r9
2:
	movq	8(%rcx),%rdi
	movq	16(%rcx),%rsi
	orq	$1,%rdi
	movq	%r11,%rdx
	subq	%r9,%rdx
	jae	2f
	movq	%r9,%rax
	subq	%r11,%rax
	cmpq	$1,%rax
	jne	3f
	leaq	1(,%rdi,2),%rdx
	shldq	$1,%rdi,%rsi
	jmp	4f
1:
	andq	$-65536,%r11
	movzwl	%dx,%r9d
	orq	%r11,%r9
	movq	%r9,(%rcx)
	movq	$1,8(%rcx)
	movq	$0,16(%rcx)
	jmp	1f
2:
	movl	$10,%eax
	cmpq	$127,%rdx
	ja	2f
	movq	%rcx,%rbx
	movl	$1,%r14d
	xorl	%r15d,%r15d
	movl	%edx,%ecx
	shldq	%cl,%r14,%r15
	shlq	%cl,%r14
	xorl	%ecx,%ecx
	testb	$64,%dl
	cmovneq	%r14,%r15
	cmovneq	%rcx,%r14
	movq	%rsi,%rcx
	andq	%r15,%rcx
	movq	%rdi,%rdx
	andq	%r14,%rdx
	orq	%rcx,%rdx
	jne	2f
	orq	%r14,%rdi
	orq	%r15,%rsi
	movq	%rdi,%rdx
	movq	%rbx,%rcx
	jmp	5f
3:
	cmpq	$127,%rax
	ja	3f
	movq	%rcx,%rdx
	movl	%eax,%ecx
	shldq	%cl,%rdi,%rsi
	shlq	%cl,%rdi
	movq	%rdx,%rcx
	xorl	%edx,%edx
	testb	$64,%al
	cmovneq	%rdi,%rsi
	cmoveq	%rdi,%rdx
	orq	$1,%rdx
	jmp	4f
3:
	movl	$1,%edx
	xorl	%esi,%esi
4:
	movq	%r9,%r11
5:
	movq	%r11,(%rcx)
	movq	%rdx,8(%rcx)
	movq	%rsi,16(%rcx)
	cmpb	$1,%r10b
	je	3f
1:
	movb	$1,24(%rcx)
3:
	movq	%r9,(%r8)
	xorl	%eax,%eax
2:
	popq	%rbx
	popq	%rdi
	popq	%rsi
	popq	%r14
	popq	%r15
	retq
	.seh_endproc

	.def	rtp_base.ring.ring_start;
	.scl	3;
	.type	32;
	.endef
	.section	.text$rtp_base.ring.ring_start,"xr"
	.p2align	4
rtp_base.ring.ring_start:
.seh_proc rtp_base.ring.ring_start
	pushq	%rsi
	.seh_pushreg %rsi
	pushq	%rdi
	.seh_pushreg %rdi
	pushq	%rbx
	.seh_pushreg %rbx
	subq	$32,%rsp
	.seh_stackalloc 32
	.seh_endprologue
	testq	%rdx,%rdx
	je	1f
	movq	%r8,%rdi
	movq	%rdx,%rbx
	movq	%rcx,%rsi
	cmpq	$1,%rdx
	je	2f
	leaq	-8(,%rbx,8),%r8
	movq	%rsi,%rcx
	xorl	%edx,%edx
	callq	memset
	movq	$0,-8(%rsi,%rbx,8)
	cmpq	$16,%rbx
	jne	3f
	movl	%edi,%edx
	shrl	$6,%edx
	andl	$15,%edx
	jmp	4f
2:
	movq	$0,(%rsi)
3:
	movq	%rdi,%rax
	shrq	$6,%rax
	movq	%rax,%rcx
	orq	%rbx,%rcx
	shrq	$32,%rcx
	je	2f
	xorl	%edx,%edx
	divq	%rbx
	jmp	4f
2:
	xorl	%edx,%edx
	divl	%ebx
4:
	movl	$1,%eax
	movl	%edi,%ecx
	shlq	%cl,%rax
	orq	%rax,(%rsi,%rdx,8)
	addq	$32,%rsp
	popq	%rbx
	popq	%rdi
	popq	%rsi
	retq
1:
	ud2
	.seh_endproc

	.def	rtp_base.ring.clear;
	.scl	3;
	.type	32;
	.endef
	.section	.text$rtp_base.ring.clear,"xr"
	.p2align	4
rtp_base.ring.clear:
.seh_proc rtp_base.ring.clear
	pushq	%rsi
	.seh_pushreg %rsi
	pushq	%rdi
	.seh_pushreg %rdi
	subq	$40,%rsp
	.seh_stackalloc 40
	.seh_endprologue
	movq	%rdx,%rdi
	movq	%rcx,%rsi
	movq	%r9,%rax
	subq	%r8,%rax
	shrq	$6,%rax
	cmpq	%rax,%rdx
	jbe	1f
	cmpq	%r8,%r9
	jbe	2f
	cmpq	$16,%rdi
	jne	3f
	.p2align	4
4:
	movl	%r8d,%eax
	andl	$63,%eax
	movl	$64,%ecx
	subq	%rax,%rcx
	movq	%r9,%rdx
	subq	%r8,%rdx
	cmpq	%rcx,%rdx
	cmovaeq	%rcx,%rdx
	movl	%eax,%ecx
	addl	%edx,%ecx
	negb	%cl
	movq	$-1,%r10
	shrq	%cl,%r10
	movl	%eax,%ecx
	shrq	%cl,%r10
	shlq	%cl,%r10
	notq	%r10
	movl	%r8d,%eax
	shrl	$3,%eax
	andl	$120,%eax
	andq	%r10,(%rsi,%rax)
	addq	%rdx,%r8
	cmpq	%r9,%r8
	jb	4b
2:
	addq	$40,%rsp
	popq	%rdi
	popq	%rsi
	retq
	.p2align	4
4:
	xorl	%edx,%edx
	divq	%rdi
5:
	movl	%r10d,%ecx
	addl	%r11d,%ecx
	negb	%cl
	movq	$-1,%rax
	shrq	%cl,%rax
	movl	%r10d,%ecx
	shrq	%cl,%rax
	shlq	%cl,%rax
	notq	%rax
	andq	%rax,(%rsi,%rdx,8)
	addq	%r11,%r8
	cmpq	%r9,%r8
	jae	2b
3:
	movl	%r8d,%r10d
	andl	$63,%r10d
	movl	$64,%eax
	subq	%r10,%rax
	movq	%r9,%r11
	subq	%r8,%r11
	cmpq	%rax,%r11
	cmovaeq	%rax,%r11
	movq	%r8,%rax
	shrq	$6,%rax
	movq	%rax,%rcx
	orq	%rdi,%rcx
	shrq	$32,%rcx
	jne	4b
	xorl	%edx,%edx
	divl	%edi
	jmp	5b
1:
	testq	%rdi,%rdi
	je	2b
	cmpq	$1,%rdi
	je	1f
	leaq	-8(,%rdi,8),%r8
	movq	%rsi,%rcx
	xorl	%edx,%edx
	callq	memset
1:
	movq	$0,-8(%rsi,%rdi,8)
	addq	$40,%rsp
	popq	%rdi
	popq	%rsi
	retq
	.seh_endproc

	.def	rtp_c.wide_receiver.receive_other;
	.scl	3;
	.type	32;
	.endef
	.section	.text$rtp_c.wide_receiver.receive_other,"xr"
	.p2align	4
rtp_c.wide_receiver.receive_other:
.seh_proc rtp_c.wide_receiver.receive_other
	pushq	%r14
	.seh_pushreg %r14
	pushq	%rsi
	.seh_pushreg %rsi
	pushq	%rdi
	.seh_pushreg %rdi
	pushq	%rbx
	.seh_pushreg %rbx
	subq	$40,%rsp
	.seh_stackalloc 40
	.seh_endprologue
	movq	%r9,%rsi
	movq	%r8,%rbx
	movq	%rcx,%rdi
	cmpb	$0,8(%rcx)
	je	1f
	movq	(%rdi),%r8
	movl	$10,%eax
	movq	%r8,%rcx
	subq	%rsi,%rcx
	je	2f
	jae	3f
4:
	cmpq	$16,%rbx
	je	5f
	testq	%rbx,%rbx
	je	6f
	movq	%rdx,%rcx
	movq	%r8,%rax
	shrq	$6,%rax
	movq	%rax,%rdx
	orq	%rbx,%rdx
	shrq	$32,%rdx
	je	7f
	xorl	%edx,%edx
	divq	%rbx
	movq	%rdx,%rax
	jmp	8f
1:
	movq	%rdx,%rcx
	movq	%rbx,%rdx
	movq	%rsi,%r8
	callq	rtp_base.ring.ring_start
1:
	movq	%rsi,%r8
9:
	movq	112(%rsp),%rax
	movq	%r8,(%rdi)
	movb	$1,8(%rdi)
	movq	%rsi,(%rax)
	xorl	%eax,%eax
2:
	addq	$40,%rsp
	popq	%rbx
	popq	%rdi
	popq	%rsi
	popq	%r14
	retq
3:
	shrq	$6,%rcx
	cmpq	%rbx,%rcx
	jae	2b
	movq	%rsi,%rcx
	shrq	$6,%rcx
	cmpq	$16,%rbx
	jne	3f
	andl	$15,%ecx
	movq	(%rdx,%rcx,8),%rcx
	btq	%rsi,%rcx
	jb	2b
	jmp	4b
5:
	movl	%r8d,%eax
	shrl	$6,%eax
	andl	$15,%eax
	jmp	5f
3:
	movq	%rdx,%r9
	movq	%rcx,%rax
	orq	%rbx,%rax
	shrq	$32,%rax
	je	3f
	movq	%rcx,%rax
	xorl	%edx,%edx
	divq	%rbx
	movq	%rdx,%rcx
	jmp	10f
7:
	xorl	%edx,%edx
	divl	%ebx
	movl	%edx,%eax
8:
	movq	%rcx,%rdx
5:
	movl	$1,%r9d
	movl	%r8d,%ecx
	shlq	%cl,%r9
	orq	%r9,(%rdx,%rax,8)
	movq	%r8,%rax
	subq	%rsi,%rax
	jae	5f
	movq	%rsi,%rax
	subq	%r8,%rax
	cmpq	$2,%rax
	jb	7f
	incq	%r8
	movq	%rdx,%rcx
	movq	%rdx,%r14
	movq	%rbx,%rdx
	movq	%rsi,%r9
	callq	rtp_base.ring.clear
	movq	%r14,%rdx
7:
	movq	%rsi,%rax
	shrq	$6,%rax
	cmpq	$16,%rbx
	jne	7f
	andl	$15,%eax
	jmp	8f
5:
	shrq	$6,%rax
	cmpq	%rbx,%rax
	jae	9b
	movq	%rsi,%rax
	shrq	$6,%rax
	movl	$1,%r9d
	movl	%esi,%ecx
	shlq	%cl,%r9
	cmpq	$16,%rbx
	jne	5f
	movl	%eax,%ecx
	andl	$15,%ecx
	testq	%r9,(%rdx,%rcx,8)
	jne	9b
	shll	$3,%eax
	andl	$120,%eax
	movq	(%rdx,%rax),%rcx
	jmp	11f
7:
	movq	%rdx,%rcx
	movq	%rax,%rdx
	orq	%rbx,%rdx
	shrq	$32,%rdx
	je	7f
	xorl	%edx,%edx
	divq	%rbx
	movq	%rdx,%rax
	jmp	12f
5:
	movq	%rdx,%rcx
	movq	%rax,%rdx
	orq	%rbx,%rdx
	shrq	$32,%rdx
	je	5f
	xorl	%edx,%edx
	divq	%rbx
	movq	%rdx,%rax
	jmp	13f
7:
	xorl	%edx,%edx
	divl	%ebx
	movl	%edx,%eax
12:
	movq	%rcx,%rdx
8:
	movl	$1,%r8d
	movl	%esi,%ecx
	shlq	%cl,%r8
	orq	%r8,(%rdx,%rax,8)
	jmp	1b
3:
	movl	%ecx,%eax
	xorl	%edx,%edx
	divl	%ebx
	movl	%edx,%ecx
10:
	movq	%r9,%rdx
	movl	$10,%eax
	movq	(%rdx,%rcx,8),%rcx
	btq	%rsi,%rcx
	jb	2b
	jmp	4b
5:
	xorl	%edx,%edx
	divl	%ebx
	movl	%edx,%eax
13:
	movq	%rcx,%rdx
	movq	(%rcx,%rax,8),%rcx
	testq	%r9,%rcx
	jne	9b
	shlq	$3,%rax
11:
	orq	%r9,%rcx
	movq	%rcx,(%rdx,%rax)
	jmp	9b
6:
	ud2
	.seh_endproc

	.def	rtp_c.whole_packet.status_of_no_packet;
	.scl	3;
	.type	32;
	.endef
	.section	.text$unlikely$rtp_c.whole_packet.status_of_no_packet,"xr"
	.p2align	4
rtp_c.whole_packet.status_of_no_packet:
	cmpq	$2,%rdx
	jb	1f
	cmpb	$-65,(%rcx)
	jg	1f
	movzbl	1(%rcx),%ecx
	andb	$-32,%cl
	movl	$17,%eax
	cmpb	$-64,%cl
	jne	1f
	retq
1:
	movzbl	%r8b,%eax
	leaq	rtp_switch.table.rtp_c.whole_packet.status_of_no_packet(%rip),%rcx
	movl	(%rcx,%rax,4),%eax
	retq

	.def	rtp_c.given_layers.with_given_layers.6444109e7f8c5753;
	.scl	3;
	.type	32;
	.endef
	.section	.text$rtp_c.given_layers.with_given_layers.6444109e7f8c5753,"xr"
	.p2align	4
rtp_c.given_layers.with_given_layers.6444109e7f8c5753:
.seh_proc rtp_c.given_layers.with_given_layers.6444109e7f8c5753
	pushq	%r15
	.seh_pushreg %r15
	pushq	%r14
	.seh_pushreg %r14
	pushq	%r13
	.seh_pushreg %r13
	pushq	%r12
	.seh_pushreg %r12
	pushq	%rsi
	.seh_pushreg %rsi
	pushq	%rdi
	.seh_pushreg %rdi
	pushq	%rbp
	.seh_pushreg %rbp
	pushq	%rbx
	.seh_pushreg %rbx
	subq	$48,%rsp
	.seh_stackalloc 48
	.seh_endprologue
	movzbl	672(%r8),%eax
	cmpq	$4,%rax
	ja	1f
	testq	%rax,%rax
	je	2f
	movzbl	160(%r8),%r9d
	cmpb	$5,%r9b
	jae	1f
	testb	%r9b,%r9b
	je	3f
	cmpb	$4,38(%r8)
	ja	1f
	cmpb	$1,%r9b
	jne	4f
3:
	cmpl	$1,%eax
	jne	5f
6:
	movzbl	673(%r8),%r9d
	movl	$0,4(%rsp)
	movq	%r9,24(%rsp)
	cmpq	$3,%r9
	ja	7f
	xorl	%r11d,%r11d
	movq	%rax,%r9
	movq	$0,8(%rsp)
	movq	$0,16(%rsp)
8:
	decq	%r9
	movq	%r9,32(%rsp)
	imulq	$168,%r9,%rbx
	movzbl	160(%r8,%rbx),%r9d
	testb	%r9b,%r9b
	je	9f
	addq	%r8,%rbx
	movzbl	%r9b,%r10d
	cmpb	$4,%r9b
	movl	$4,%r9d
	cmovbl	%r10d,%r9d
	movzbl	%r9b,%r14d
	xorl	%ebp,%ebp
	movb	%r11b,3(%rsp)
	jmp	10f
11:
	testb	$1,3(%rsp)
	jne	7f
12:
	addq	%rsi,8(%rsp)
	incq	16(%rsp)
	addb	%bpl,%bpl
	incb	%bpl
	movq	40(%rsp),%r11
	movb	%r11b,3(%rsp)
	decq	%r14
	je	13f
10:
	leaq	-8(,%r14,8),%r9
	leaq	(%r9,%r9,4),%r10
	movzbl	37(%rbx,%r10),%r12d
	testb	%r12b,%r12b
	setne	%r9b
	movq	%r9,40(%rsp)
	je	14f
	cmpw	$0,34(%rbx,%r10)
	setne	%r9b
	cmpw	$0,32(%rbx,%r10)
	setne	%r13b
	andb	%r9b,%r13b
	cmpb	$7,%bpl
	jbe	15f
	jmp	7f
14:
	xorl	%r13d,%r13d
	cmpb	$7,%bpl
	ja	7f
15:
	movzbl	38(%rbx,%r10),%r11d
	testb	%r11b,%r11b
	je	14f
	movq	(%rbx,%r10),%r9
	cmpq	$16384,%r9
	jb	15f
	testq	%r9,%r9
	js	7f
	movl	$3,%esi
	cmpq	$2097152,%r9
	jb	16f
	shrq	$14,%r9
	movq	%r9,%r15
	.p2align	4
17:
	shrq	$7,%r15
	incq	%rsi
	cmpq	$16383,%r9
	movq	%r15,%r9
	ja	17b
16:
	cmpb	$1,%r11b
	jne	16f
	jmp	17f
14:
	testb	%r12b,%r12b
	jne	7f
	addb	%bpl,%bpl
	movzbl	3(%rsp),%r9d
	movl	%r9d,%r11d
	decq	%r14
	jne	10b
	jmp	13f
15:
	cmpq	$128,%r9
	movl	$2,%esi
	sbbq	$0,%rsi
	cmpb	$1,%r11b
	je	17f
16:
	movq	8(%rbx,%r10),%rdi
	cmpq	$16383,%rdi
	jbe	10f
	testq	%rdi,%rdi
	js	7f
	movl	$3,%r15d
	cmpq	$2097152,%rdi
	jb	14f
	shrq	$14,%rdi
	movq	%rdi,%r9
	.p2align	4
15:
	shrq	$7,%r9
	incq	%r15
	cmpq	$16383,%rdi
	movq	%r9,%rdi
	ja	15b
14:
	addq	%r15,%rsi
	cmpb	$2,%r11b
	jne	14f
	jmp	17f
10:
	cmpq	$128,%rdi
	movl	$2,%r15d
	sbbq	$0,%r15
	addq	%r15,%rsi
	cmpb	$2,%r11b
	je	17f
14:
	movq	16(%rbx,%r10),%r9
	cmpq	$16383,%r9
	jbe	10f
	testq	%r9,%r9
	js	7f
	movl	$3,%r15d
	cmpq	$2097152,%r9
	jb	14f
	shrq	$14,%r9
	movq	%r9,%rdi
	.p2align	4
15:
	shrq	$7,%rdi
	incq	%r15
	cmpq	$16383,%r9
	movq	%rdi,%r9
	ja	15b
	jmp	14f
10:
	cmpq	$128,%r9
	movl	$2,%r15d
	sbbq	$0,%r15
14:
	addq	%r15,%rsi
	cmpb	$3,%r11b
	je	17f
	movq	24(%rbx,%r10),%r9
	cmpq	$16383,%r9
	jbe	10f
	testq	%r9,%r9
	js	7f
	movl	$3,%r10d
	cmpq	$2097152,%r9
	jb	14f
	shrq	$14,%r9
	movq	%r9,%r11
15:
	shrq	$7,%r11
	incq	%r10
	cmpq	$16383,%r9
	movq	%r11,%r9
	ja	15b
	jmp	14f
10:
	cmpq	$128,%r9
	movl	$2,%r10d
	sbbq	$0,%r10
14:
	addq	%r10,%rsi
17:
	testb	%r12b,%r12b
	je	11b
	testb	%r13b,%r13b
	je	7f
	addq	$5,%rsi
	jmp	12b
9:
	xorl	%ebp,%ebp
13:
	movq	32(%rsp),%r9
	movb	%bpl,4(%rsp,%r9)
	testq	%r9,%r9
	jne	8b
	movzbl	4(%rsp),%r10d
	movl	$1,%r9d
	movq	16(%rsp),%rsi
8:
	cmpq	%r9,%rax
	je	9f
	cmpb	%r10b,4(%rsp,%r9)
	leaq	1(%r9),%r9
	je	8b
	leal	1(%rax),%r9d
	shrl	%r9d
	xorl	%r10d,%r10d
	jmp	8f
2:
	cmpb	$0,673(%r8)
	je	2f
7:
	xorl	%r9d,%r9d
	xorl	%edx,%edx
	xorl	%r11d,%r11d
	xorl	%r8d,%r8d
	xorl	%eax,%eax
	xorl	%r10d,%r10d
	jmp	10f
2:
	movabsq	$281474976710656,%r10
	movl	$1,%r9d
	xorl	%r11d,%r11d
	xorl	%eax,%eax
10:
	movq	%r9,(%rcx)
	movq	%rdx,8(%rcx)
	movq	%r11,16(%rcx)
	movq	%r8,24(%rcx)
	movq	%rax,32(%rcx)
	movq	%r10,40(%rcx)
	jmp	2f
5:
	movzbl	328(%r8),%r9d
	cmpb	$4,%r9b
	ja	1f
	testb	%r9b,%r9b
	je	5f
	cmpb	$4,206(%r8)
	ja	1f
	cmpb	$1,%r9b
	jne	11f
5:
	cmpl	$2,%eax
	je	6b
	movzbl	496(%r8),%r9d
	cmpb	$4,%r9b
	ja	1f
	testb	%r9b,%r9b
	je	12f
	cmpb	$4,374(%r8)
	ja	1f
	cmpb	$1,%r9b
	jne	13f
12:
	cmpl	$3,%eax
	je	6b
	movzbl	664(%r8),%r9d
	cmpb	$4,%r9b
	ja	1f
	testb	%r9b,%r9b
	je	6b
	cmpb	$4,542(%r8)
	ja	1f
	cmpb	$1,%r9b
	je	6b
	cmpb	$4,582(%r8)
	ja	1f
	cmpb	$2,%r9b
	je	6b
	cmpb	$4,622(%r8)
	ja	1f
	cmpb	$3,%r9b
	je	6b
	cmpb	$5,662(%r8)
	setb	%r10b
	cmpb	$4,%r9b
	sete	%r9b
	testb	%r9b,%r10b
	jne	6b
	jmp	1f
4:
	cmpb	$4,78(%r8)
	ja	1f
	cmpb	$2,%r9b
	je	3b
	cmpb	$4,118(%r8)
	ja	1f
	cmpb	$3,%r9b
	je	3b
	cmpb	$5,158(%r8)
	setb	%r10b
	cmpb	$4,%r9b
	sete	%r9b
	testb	%r9b,%r10b
	jne	3b
	jmp	1f
11:
	cmpb	$4,246(%r8)
	ja	1f
	cmpb	$2,%r9b
	je	5b
	cmpb	$4,286(%r8)
	ja	1f
	cmpb	$3,%r9b
	je	5b
	cmpb	$5,326(%r8)
	setae	%r10b
	cmpb	$4,%r9b
	setne	%r9b
	orb	%r10b,%r9b
	je	5b
	jmp	1f
13:
	cmpb	$4,414(%r8)
	ja	1f
	cmpb	$2,%r9b
	je	12b
	cmpb	$4,454(%r8)
	ja	1f
	cmpb	$3,%r9b
	je	12b
	cmpb	$5,494(%r8)
	setae	%r10b
	cmpb	$4,%r9b
	setne	%r9b
	orb	%r10b,%r9b
	je	12b
1:
	xorps	%xmm0,%xmm0
	movups	%xmm0,32(%rcx)
	movups	%xmm0,16(%rcx)
	movups	%xmm0,(%rcx)
2:
	addq	$48,%rsp
	popq	%rbx
	popq	%rbp
	popq	%rdi
	popq	%rsi
	popq	%r12
	popq	%r13
	popq	%r14
	popq	%r15
	retq
9:
	leal	1(%rax),%r11d
	shrl	%r11d
	xorl	%r9d,%r9d
	testq	%r10,%r10
	cmoveq	%r11,%r9
	shlq	$32,%r10
8:
	leal	3(%rsi),%r11d
	shrl	$2,%r11d
	movq	8(%rsp),%rdi
	addl	%r11d,%edi
	addl	%edi,%r9d
	incl	%r9d
	shlq	$48,%r9
	movq	%r9,%r11
	shrq	$56,%r11
	jne	7b
	movl	4(%rsp),%r11d
	movzbl	%sil,%esi
	shlq	$40,%rsi
	orq	%rsi,%r10
	orq	%r11,%r10
	orq	%r9,%r10
	movl	$1,%r9d
	movq	24(%rsp),%r11
	jmp	10b
	.seh_endproc

	.def	rtp_ext.block_form.has_empty_data.16f98aa29e959305;
	.scl	3;
	.type	32;
	.endef
	.section	.text$rtp_ext.block_form.has_empty_data.16f98aa29e959305,"xr"
	.p2align	4
rtp_ext.block_form.has_empty_data.16f98aa29e959305:
.seh_proc rtp_ext.block_form.has_empty_data.16f98aa29e959305
	pushq	%rsi
	.seh_pushreg %rsi
	pushq	%rdi
	.seh_pushreg %rdi
	subq	$40,%rsp
	.seh_stackalloc 40
	.seh_endprologue
	testq	%rdx,%rdx
	je	1f
	movq	%r8,%rsi
	movq	%rcx,%rdi
	xorl	%eax,%eax
	.p2align	4
2:
	cmpq	%rdx,%rax
	setb	%cl
	jae	3f
	movzbl	1(%rdi,%rax),%r8d
	incq	%rax
	cmpl	$10,%r8d
	je	4f
	cmpl	$11,%r8d
	je	5f
	cmpl	$12,%r8d
	jne	2b
	movq	(%rsi),%r8
	cmpb	$0,128(%r8)
	je	2b
	cmpb	$0,80(%r8)
	jne	2b
	jmp	6f
	.p2align	4
3:
	cmpq	$15,%rdx
	jb	6f
	cmpq	$254,%rax
	ja	6f
	movq	%rdi,%rcx
	movq	%rax,%rdx
	callq	rtp_c.kinds.StoredMap.past_unmapped
	movq	%rax,%rcx
	addq	$16,%rcx
	cmpq	$255,%rcx
	movl	$255,%edx
	cmovbq	%rcx,%rdx
	jmp	2b
5:
	movq	(%rsi),%r8
	cmpb	$0,130(%r8)
	je	2b
	cmpb	$0,106(%r8)
	jne	2b
	jmp	6f
4:
	movq	(%rsi),%r8
	cmpb	$0,129(%r8)
	je	2b
	cmpb	$0,97(%r8)
	jne	2b
	jmp	6f
1:
	xorl	%ecx,%ecx
6:
	movl	%ecx,%eax
	addq	$40,%rsp
	popq	%rdi
	popq	%rsi
	retq
	.seh_endproc

	.def	rtp_ext.block_elements.values_len.16f98aa29e959305;
	.scl	3;
	.type	32;
	.endef
	.section	.text$rtp_ext.block_elements.values_len.16f98aa29e959305,"xr"
	.p2align	4
rtp_ext.block_elements.values_len.16f98aa29e959305:
.seh_proc rtp_ext.block_elements.values_len.16f98aa29e959305
	pushq	%r14
	.seh_pushreg %r14
	pushq	%rsi
	.seh_pushreg %rsi
	pushq	%rdi
	.seh_pushreg %rdi
	pushq	%rbx
	.seh_pushreg %rbx
	subq	$40,%rsp
	.seh_stackalloc 40
	.seh_endprologue
	movq	%r8,%rsi
	movq	%rcx,%rdi
	cmpb	$1,%r9b
	movl	$2,%r14d
	sbbq	$0,%r14
	xorl	%eax,%eax
	xorl	%ebx,%ebx
	jmp	1f
2:
	xorl	%ecx,%ecx
3:
	addq	%r14,%rbx
	addq	%rcx,%rbx
	.p2align	4
1:
	cmpq	%rdx,%rax
	jae	4f
	movzbl	1(%rdi,%rax),%ecx
	incq	%rax
	decl	%ecx
	cmpl	$14,%ecx
	ja	1b
	leaq	5f(%rip),%r8
	movslq	(%r8,%rcx,4),%rcx
	addq	%r8,%rcx
	jmpq	*%rcx
6:
	movq	(%rsi),%r8
	movl	$3,%ecx
	cmpb	$0,115(%r8)
	jne	3b
	jmp	1b
4:
	cmpq	$15,%rdx
	jb	4f
	cmpq	$254,%rax
	ja	4f
	movq	%rdi,%rcx
	movq	%rax,%rdx
	callq	rtp_c.kinds.StoredMap.past_unmapped
	movq	%rax,%rcx
	addq	$16,%rcx
	cmpq	$255,%rcx
	movl	$255,%edx
	cmovbq	%rcx,%rdx
	jmp	1b
7:
	movq	(%rsi),%rcx
	cmpb	$0,128(%rcx)
	je	1b
	cmpb	$0,80(%rcx)
	je	2b
	cmpb	$0,81(%rcx)
	je	8f
	cmpb	$0,82(%rcx)
	je	9f
	cmpb	$0,83(%rcx)
	je	10f
	cmpb	$0,84(%rcx)
	je	11f
	cmpb	$0,85(%rcx)
	je	12f
	cmpb	$0,86(%rcx)
	je	13f
	cmpb	$0,87(%rcx)
	je	14f
	cmpb	$0,88(%rcx)
	je	15f
	cmpb	$0,89(%rcx)
	je	16f
	cmpb	$0,90(%rcx)
	je	17f
	cmpb	$0,91(%rcx)
	je	18f
	cmpb	$0,92(%rcx)
	je	19f
	cmpb	$0,93(%rcx)
	je	20f
	cmpb	$0,94(%rcx)
	je	21f
	cmpb	$0,95(%rcx)
	je	22f
	cmpb	$1,96(%rcx)
	movl	$17,%ecx
	sbbq	$0,%rcx
	jmp	3b
23:
	movq	(%rsi),%rcx
	cmpb	$0,121(%rcx)
	je	1b
	movzwl	66(%rcx),%r8d
	movl	$1,%ecx
	cmpl	$179,%r8d
	jg	24f
	testl	%r8d,%r8d
	je	3b
	cmpl	$90,%r8d
	je	3b
	jmp	1b
25:
	movq	(%rsi),%r8
	movl	$4,%ecx
	cmpb	$0,119(%r8)
	jne	3b
	jmp	1b
26:
	movq	(%rsi),%rcx
	cmpb	$0,129(%rcx)
	je	1b
	cmpb	$0,97(%rcx)
	je	2b
	cmpb	$0,98(%rcx)
	je	8f
	cmpb	$0,99(%rcx)
	je	9f
	cmpb	$0,100(%rcx)
	je	10f
	cmpb	$0,101(%rcx)
	je	11f
	cmpb	$0,102(%rcx)
	je	12f
	cmpb	$0,103(%rcx)
	je	13f
	cmpb	$0,104(%rcx)
	je	14f
	cmpb	$1,105(%rcx)
	jmp	27f
28:
	movq	(%rsi),%r8
	cmpb	$0,123(%r8)
	je	1b
	movl	$1,%ecx
	cmpb	$0,124(%r8)
	jne	3b
	jmp	1b
29:
	movq	(%rsi),%r8
	movl	$4,%ecx
	cmpb	$0,118(%r8)
	jne	3b
	jmp	1b
30:
	movq	(%rsi),%r8
	movl	$1,%ecx
	cmpb	$0,122(%r8)
	jne	3b
	jmp	1b
31:
	movq	(%rsi),%rcx
	cmpb	$0,116(%rcx)
	je	1b
	xorl	%r8d,%r8d
	cmpb	$0,117(%rcx)
	setne	%r8b
	leaq	8(,%r8,8),%rcx
	jmp	3b
32:
	movq	(%rsi),%r8
	movl	$2,%ecx
	cmpb	$0,120(%r8)
	jne	3b
	jmp	1b
33:
	movq	(%rsi),%rcx
	cmpb	$0,125(%rcx)
	je	34f
	cmpl	$0,32(%rcx)
	setne	%r8b
	cmpb	$0,126(%rcx)
	jne	35f
	jmp	1b
36:
	movq	(%rsi),%rcx
	cmpb	$0,130(%rcx)
	je	1b
	cmpb	$0,106(%rcx)
	je	2b
	cmpb	$0,107(%rcx)
	je	8f
	cmpb	$0,108(%rcx)
	je	9f
	cmpb	$0,109(%rcx)
	je	10f
	cmpb	$0,110(%rcx)
	je	11f
	cmpb	$0,111(%rcx)
	je	12f
	cmpb	$0,112(%rcx)
	je	13f
	cmpb	$0,113(%rcx)
	je	14f
	cmpb	$1,114(%rcx)
27:
	movl	$9,%ecx
	sbbq	$0,%rcx
	jmp	3b
2:
	movq	(%rsi),%r8
	movl	$13,%ecx
	cmpb	$0,127(%r8)
	jne	3b
	jmp	1b
8:
	movl	$1,%ecx
	jmp	3b
34:
	xorl	%r8d,%r8d
	cmpb	$0,126(%rcx)
	je	1b
35:
	cmpl	$0,48(%rcx)
	setne	%r9b
	movl	$3,%ecx
	testb	%r9b,%r8b
	je	1b
	jmp	3b
24:
	cmpl	$180,%r8d
	je	3b
	cmpl	$270,%r8d
	je	3b
	jmp	1b
9:
	movl	$2,%ecx
	jmp	3b
10:
	movl	$3,%ecx
	jmp	3b
11:
	movl	$4,%ecx
	jmp	3b
12:
	movl	$5,%ecx
	jmp	3b
13:
	movl	$6,%ecx
	jmp	3b
14:
	movl	$7,%ecx
	jmp	3b
15:
	movl	$8,%ecx
	jmp	3b
16:
	movl	$9,%ecx
	jmp	3b
17:
	movl	$10,%ecx
	jmp	3b
18:
	movl	$11,%ecx
	jmp	3b
19:
	movl	$12,%ecx
	jmp	3b
20:
	movl	$13,%ecx
	jmp	3b
21:
	movl	$14,%ecx
	jmp	3b
22:
	movl	$15,%ecx
	jmp	3b
4:
	movq	%rbx,%rax
	addq	$40,%rsp
	popq	%rbx
	popq	%rdi
	popq	%rsi
	popq	%r14
	retq
	.section	.rdata,"dr"
	.p2align	2,0x0
5:
	.long	6b-5b
	.long	31b-5b
	.long	28b-5b
	.long	29b-5b
	.long	23b-5b
	.long	32b-5b
	.long	33b-5b
	.long	30b-5b
	.long	2b-5b
	.long	26b-5b
	.long	36b-5b
	.long	7b-5b
	.long	25b-5b
	.long	1b-5b
	.long	1b-5b
	.section	.text$rtp_ext.block_elements.values_len.16f98aa29e959305,"xr"
	.seh_endproc

	.def	rtp_ext.block_form.has_empty_data.defbc6cea7b2a850;
	.scl	3;
	.type	32;
	.endef
	.section	.text$rtp_ext.block_form.has_empty_data.defbc6cea7b2a850,"xr"
	.p2align	4
rtp_ext.block_form.has_empty_data.defbc6cea7b2a850:
.seh_proc rtp_ext.block_form.has_empty_data.defbc6cea7b2a850
	pushq	%rsi
	.seh_pushreg %rsi
	pushq	%rdi
	.seh_pushreg %rdi
	subq	$40,%rsp
	.seh_stackalloc 40
	.seh_endprologue
	testq	%rdx,%rdx
	je	1f
	movq	%r8,%rsi
	movq	%rcx,%rdi
	xorl	%eax,%eax
	.p2align	4
2:
	cmpq	%rdx,%rax
	setb	%cl
	jae	3f
	movzbl	1(%rdi,%rax),%r8d
	incq	%rax
	cmpl	$10,%r8d
	je	4f
	cmpl	$11,%r8d
	je	5f
	cmpl	$12,%r8d
	jne	2b
	movq	(%rsi),%r8
	movq	(%r8),%r8
	cmpb	$0,128(%r8)
	je	2b
	cmpb	$0,80(%r8)
	jne	2b
	jmp	6f
	.p2align	4
3:
	cmpq	$15,%rdx
	jb	6f
	cmpq	$254,%rax
	ja	6f
	movq	%rdi,%rcx
	movq	%rax,%rdx
	callq	rtp_c.kinds.StoredMap.past_unmapped
	movq	%rax,%rcx
	addq	$16,%rcx
	cmpq	$255,%rcx
	movl	$255,%edx
	cmovbq	%rcx,%rdx
	jmp	2b
5:
	movq	(%rsi),%r8
	movq	(%r8),%r8
	cmpb	$0,130(%r8)
	je	2b
	cmpb	$0,106(%r8)
	jne	2b
	jmp	6f
4:
	movq	(%rsi),%r8
	movq	(%r8),%r8
	cmpb	$0,129(%r8)
	je	2b
	cmpb	$0,97(%r8)
	jne	2b
	jmp	6f
1:
	xorl	%ecx,%ecx
6:
	movl	%ecx,%eax
	addq	$40,%rsp
	popq	%rdi
	popq	%rsi
	retq
	.seh_endproc

	.def	rtp_ext.block_elements.values_len.defbc6cea7b2a850;
	.scl	3;
	.type	32;
	.endef
	.section	.text$rtp_ext.block_elements.values_len.defbc6cea7b2a850,"xr"
	.p2align	4
rtp_ext.block_elements.values_len.defbc6cea7b2a850:
.seh_proc rtp_ext.block_elements.values_len.defbc6cea7b2a850
	pushq	%r14
	.seh_pushreg %r14
	pushq	%rsi
	.seh_pushreg %rsi
	pushq	%rdi
	.seh_pushreg %rdi
	pushq	%rbx
	.seh_pushreg %rbx
	subq	$40,%rsp
	.seh_stackalloc 40
	.seh_endprologue
	movq	%r8,%rsi
	movq	%rcx,%rdi
	cmpb	$1,%r9b
	movl	$2,%r14d
	sbbq	$0,%r14
	xorl	%eax,%eax
	xorl	%ebx,%ebx
	jmp	1f
2:
	movzwl	38(%rsi),%ecx
3:
	addq	%r14,%rbx
	addq	%rcx,%rbx
	.p2align	4
1:
	cmpq	%rdx,%rax
	jae	4f
	movzbl	1(%rdi,%rax),%ecx
	incq	%rax
	decl	%ecx
	cmpl	$14,%ecx
	ja	1b
	leaq	5f(%rip),%r8
	movslq	(%r8,%rcx,4),%rcx
	addq	%r8,%rcx
	jmpq	*%rcx
6:
	movq	(%rsi),%rcx
	movq	(%rcx),%r8
	movl	$3,%ecx
	cmpb	$0,115(%r8)
	jne	3b
	jmp	1b
4:
	cmpq	$15,%rdx
	jb	4f
	cmpq	$254,%rax
	ja	4f
	movq	%rdi,%rcx
	movq	%rax,%rdx
	callq	rtp_c.kinds.StoredMap.past_unmapped
	movq	%rax,%rcx
	addq	$16,%rcx
	cmpq	$255,%rcx
	movl	$255,%edx
	cmovbq	%rcx,%rdx
	jmp	1b
7:
	movq	(%rsi),%rcx
	movq	(%rcx),%rcx
	cmpb	$0,128(%rcx)
	je	1b
	cmpb	$0,80(%rcx)
	je	8f
	cmpb	$0,81(%rcx)
	je	9f
	cmpb	$0,82(%rcx)
	je	10f
	cmpb	$0,83(%rcx)
	je	11f
	cmpb	$0,84(%rcx)
	je	12f
	cmpb	$0,85(%rcx)
	je	13f
	cmpb	$0,86(%rcx)
	je	14f
	cmpb	$0,87(%rcx)
	je	15f
	cmpb	$0,88(%rcx)
	je	16f
	cmpb	$0,89(%rcx)
	je	17f
	cmpb	$0,90(%rcx)
	je	18f
	cmpb	$0,91(%rcx)
	je	19f
	cmpb	$0,92(%rcx)
	je	20f
	cmpb	$0,93(%rcx)
	je	21f
	cmpb	$0,94(%rcx)
	je	22f
	cmpb	$0,95(%rcx)
	je	23f
	cmpb	$1,96(%rcx)
	movl	$17,%ecx
	sbbq	$0,%rcx
	jmp	3b
24:
	movq	(%rsi),%rcx
	movq	(%rcx),%rcx
	cmpb	$0,121(%rcx)
	je	1b
	movzwl	66(%rcx),%r8d
	movl	$1,%ecx
	cmpl	$179,%r8d
	jg	25f
	testl	%r8d,%r8d
	je	3b
	cmpl	$90,%r8d
	je	3b
	jmp	1b
26:
	movq	(%rsi),%rcx
	movq	(%rcx),%r8
	movl	$4,%ecx
	cmpb	$0,119(%r8)
	jne	3b
	jmp	1b
27:
	movq	(%rsi),%rcx
	movq	(%rcx),%rcx
	cmpb	$0,129(%rcx)
	je	1b
	cmpb	$0,97(%rcx)
	je	8f
	cmpb	$0,98(%rcx)
	je	9f
	cmpb	$0,99(%rcx)
	je	10f
	cmpb	$0,100(%rcx)
	je	11f
	cmpb	$0,101(%rcx)
	je	12f
	cmpb	$0,102(%rcx)
	je	13f
	cmpb	$0,103(%rcx)
	je	14f
	cmpb	$0,104(%rcx)
	je	15f
	cmpb	$1,105(%rcx)
	jmp	28f
29:
	movq	(%rsi),%rcx
	movq	(%rcx),%r8
	cmpb	$0,123(%r8)
	je	1b
	movl	$1,%ecx
	cmpb	$0,124(%r8)
	jne	3b
	jmp	1b
30:
	movq	(%rsi),%rcx
	movq	(%rcx),%r8
	movl	$4,%ecx
	cmpb	$0,118(%r8)
	jne	3b
	jmp	1b
31:
	movq	(%rsi),%rcx
	movq	(%rcx),%r8
	movl	$1,%ecx
	cmpb	$0,122(%r8)
	jne	3b
	jmp	1b
32:
	movq	(%rsi),%rcx
	movq	(%rcx),%rcx
	cmpb	$0,116(%rcx)
	je	1b
	xorl	%r8d,%r8d
	cmpb	$0,117(%rcx)
	setne	%r8b
	leaq	8(,%r8,8),%rcx
	jmp	3b
33:
	movq	(%rsi),%rcx
	movq	(%rcx),%r8
	movl	$2,%ecx
	cmpb	$0,120(%r8)
	jne	3b
	jmp	1b
34:
	movq	(%rsi),%rcx
	movq	(%rcx),%rcx
	cmpb	$0,125(%rcx)
	je	35f
	cmpl	$0,32(%rcx)
	setne	%r8b
	cmpb	$0,126(%rcx)
	jne	36f
	jmp	1b
37:
	movq	(%rsi),%rcx
	movq	(%rcx),%rcx
	cmpb	$0,130(%rcx)
	je	1b
	cmpb	$0,106(%rcx)
	je	8f
	cmpb	$0,107(%rcx)
	je	9f
	cmpb	$0,108(%rcx)
	je	10f
	cmpb	$0,109(%rcx)
	je	11f
	cmpb	$0,110(%rcx)
	je	12f
	cmpb	$0,111(%rcx)
	je	13f
	cmpb	$0,112(%rcx)
	je	14f
	cmpb	$0,113(%rcx)
	je	15f
	cmpb	$1,114(%rcx)
28:
	movl	$9,%ecx
	sbbq	$0,%rcx
	jmp	3b
28:
	movq	(%rsi),%rcx
	movq	(%rcx),%r8
	movl	$13,%ecx
	cmpb	$0,127(%r8)
	jne	3b
	jmp	1b
8:
	xorl	%ecx,%ecx
	jmp	3b
9:
	movl	$1,%ecx
	jmp	3b
35:
	xorl	%r8d,%r8d
	cmpb	$0,126(%rcx)
	je	1b
36:
	cmpl	$0,48(%rcx)
	setne	%r9b
	movl	$3,%ecx
	testb	%r9b,%r8b
	je	1b
	jmp	3b
25:
	cmpl	$180,%r8d
	je	3b
	cmpl	$270,%r8d
	je	3b
	jmp	1b
10:
	movl	$2,%ecx
	jmp	3b
11:
	movl	$3,%ecx
	jmp	3b
12:
	movl	$4,%ecx
	jmp	3b
13:
	movl	$5,%ecx
	jmp	3b
14:
	movl	$6,%ecx
	jmp	3b
15:
	movl	$7,%ecx
	jmp	3b
16:
	movl	$8,%ecx
	jmp	3b
17:
	movl	$9,%ecx
	jmp	3b
18:
	movl	$10,%ecx
	jmp	3b
19:
	movl	$11,%ecx
	jmp	3b
20:
	movl	$12,%ecx
	jmp	3b
21:
	movl	$13,%ecx
	jmp	3b
22:
	movl	$14,%ecx
	jmp	3b
23:
	movl	$15,%ecx
	jmp	3b
4:
	movq	%rbx,%rax
	addq	$40,%rsp
	popq	%rbx
	popq	%rdi
	popq	%rsi
	popq	%r14
	retq
	.section	.rdata,"dr"
	.p2align	2,0x0
5:
	.long	6b-5b
	.long	32b-5b
	.long	29b-5b
	.long	30b-5b
	.long	24b-5b
	.long	33b-5b
	.long	34b-5b
	.long	31b-5b
	.long	28b-5b
	.long	27b-5b
	.long	37b-5b
	.long	7b-5b
	.long	26b-5b
	.long	1b-5b
	.long	2b-5b
	.section	.text$rtp_ext.block_elements.values_len.defbc6cea7b2a850,"xr"
	.seh_endproc

	.def	rtp_ext.block_elements.most_in_two_byte_form.d4d397b1ff315637;
	.scl	3;
	.type	32;
	.endef
	.section	.text$rtp_ext.block_elements.most_in_two_byte_form.d4d397b1ff315637,"xr"
	.p2align	4
rtp_ext.block_elements.most_in_two_byte_form.d4d397b1ff315637:
.seh_proc rtp_ext.block_elements.most_in_two_byte_form.d4d397b1ff315637
	pushq	%rsi
	.seh_pushreg %rsi
	pushq	%rdi
	.seh_pushreg %rdi
	subq	$40,%rsp
	.seh_stackalloc 40
	.seh_endprologue
	movq	(%rcx),%rsi
	movq	8(%rcx),%rax
	movq	16(%rcx),%rcx
	xorl	%edi,%edi
	.p2align	4
1:
	cmpq	%rcx,%rax
	jae	2f
	movzbl	1(%rsi,%rax),%edx
	incq	%rax
	decb	%dl
	cmpb	$15,%dl
	jae	1b
	movzbl	%dl,%edx
	leaq	rtp_switch.table.rtp_ext.block_elements.most_in_two_byte_form.d4d397b1ff315637(%rip),%r8
	addq	(%r8,%rdx,8),%rdi
	jmp	1b
2:
	cmpq	$15,%rcx
	jb	2f
	cmpq	$254,%rax
	ja	2f
	movq	%rsi,%rcx
	movq	%rax,%rdx
	callq	rtp_c.kinds.StoredMap.past_unmapped
	movq	%rax,%rdx
	addq	$16,%rdx
	cmpq	$255,%rdx
	movl	$255,%ecx
	cmovbq	%rdx,%rcx
	jmp	1b
2:
	movq	%rdi,%rax
	addq	$40,%rsp
	popq	%rdi
	popq	%rsi
	retq
	.seh_endproc

	.def	rtp_ext.block_elements.write_values.defbc6cea7b2a850;
	.scl	3;
	.type	32;
	.endef
	.section	.text$rtp_ext.block_elements.write_values.defbc6cea7b2a850,"xr"
	.p2align	4
rtp_ext.block_elements.write_values.defbc6cea7b2a850:
.seh_proc rtp_ext.block_elements.write_values.defbc6cea7b2a850
	pushq	%r15
	.seh_pushreg %r15
	pushq	%r14
	.seh_pushreg %r14
	pushq	%r13
	.seh_pushreg %r13
	pushq	%r12
	.seh_pushreg %r12
	pushq	%rsi
	.seh_pushreg %rsi
	pushq	%rdi
	.seh_pushreg %rdi
	pushq	%rbp
	.seh_pushreg %rbp
	pushq	%rbx
	.seh_pushreg %rbx
	subq	$56,%rsp
	.seh_stackalloc 56
	.seh_endprologue
	movq	%r8,%rsi
	movq	168(%rsp),%r8
	movb	%r9b,55(%rsp)
	cmpb	$1,%r9b
	movl	$2,%ebx
	sbbq	$0,%rbx
	cmpq	%rbx,%r8
	jae	1f
	xorl	%r14d,%r14d
2:
	movq	%r14,%rax
	addq	$56,%rsp
	popq	%rbx
	popq	%rbp
	popq	%rdi
	popq	%rsi
	popq	%r12
	popq	%r13
	popq	%r14
	popq	%r15
	retq
1:
	movq	%rdx,%r15
	movq	%rcx,%rdi
	movq	160(%rsp),%r13
	xorl	%r14d,%r14d
	movq	%rbx,%rbp
	xorl	%r12d,%r12d
	jmp	1f
3:
	movb	%r12b,(%r13,%r14)
	movb	%dl,1(%r13,%r14)
4:
	addq	%rbp,%rdx
	movq	%rdx,%r14
5:
	leaq	(%r14,%rbx),%rbp
	cmpq	%rbp,%r8
	jb	2b
1:
	cmpq	%r15,%r12
	jae	6f
	movzbl	1(%rdi,%r12),%eax
	incq	%r12
	decl	%eax
	cmpl	$14,%eax
	ja	1b
	leaq	7f(%rip),%rcx
	movslq	(%rcx,%rax,4),%rax
	addq	%rcx,%rax
	jmpq	*%rax
8:
	movq	(%rsi),%rax
	movq	(%rax),%rax
	cmpb	$0,115(%rax)
	je	9f
	movq	(%rax),%rcx
	movabsq	$4835703278458516699,%rdx
	movq	%rcx,%rax
	mulq	%rdx
	shrq	$24,%rdx
	imulq	$64000000,%rdx,%rax
	subq	%rax,%rcx
	shlq	$18,%rcx
	movabsq	$18446744073710,%rdx
	movq	%rcx,%rax
	mulq	%rdx
	bswapl	%edx
	movl	%edx,%eax
	shrl	$8,%eax
	shrl	$24,%edx
	movb	%dl,2(%r13,%rbp)
	movw	%ax,(%r13,%rbp)
	movb	$1,%al
	movl	$3,%edx
	jmp	10f
6:
	cmpq	$15,%r15
	jb	2b
	cmpq	$254,%r12
	ja	2b
	movq	%rdi,%rcx
	movq	%r12,%rdx
	callq	rtp_c.kinds.StoredMap.past_unmapped
	movq	168(%rsp),%r8
	movq	%rax,%r12
	addq	$16,%rax
	cmpq	$255,%rax
	movl	$255,%r15d
	cmovbq	%rax,%r15
	jmp	1b
1:
	movq	%r13,%rcx
	addq	%rbp,%rcx
	movq	24(%rsi),%r9
	testq	%r9,%r9
	je	2f
	movq	8(%rsi),%rdx
	movq	16(%rsi),%r8
	leaq	32(%rsi),%rax
	movq	%rax,32(%rsp)
	callq	rtp_vla.writing.put_streams.0e5569fdf2589307
	movq	168(%rsp),%r8
	movq	%rax,%rdx
	jmp	6f
11:
	movq	(%rsi),%rax
	movq	(%rax),%rdx
	cmpb	$0,130(%rdx)
	je	5b
	movq	%r13,%rcx
	addq	%rbp,%rcx
	callq	rtp_values.value.stream_id.write_repaired.7ba4d078ccf006bf
	movq	168(%rsp),%r8
	jmp	10f
12:
	movq	(%rsi),%rax
	movq	(%rax),%rax
	cmpb	$0,118(%rax)
	je	9f
	movl	56(%rax),%eax
	jmp	13f
14:
	movq	%r13,%rcx
	addq	%rbp,%rcx
	movq	(%rsi),%rax
	movq	(%rax),%rdx
	callq	rtp_values.value.mid.write.7ba4d078ccf006bf
	movq	168(%rsp),%r8
	jmp	10f
15:
	movq	%r13,%rcx
	addq	%rbp,%rcx
	movq	(%rsi),%rax
	movq	(%rax),%rdx
	callq	rtp_values.value.video_timing.write.7ba4d078ccf006bf
	movq	168(%rsp),%r8
	jmp	10f
16:
	movq	%r13,%rcx
	addq	%rbp,%rcx
	movq	(%rsi),%rax
	movq	(%rax),%rdx
	callq	rtp_values.value.abs_capture_time.write.7ba4d078ccf006bf
	movq	168(%rsp),%r8
	jmp	10f
17:
	movq	(%rsi),%rax
	movq	(%rax),%rax
	cmpb	$0,123(%rax)
	je	9f
	cmpb	$0,124(%rax)
	je	9f
	cmpb	$0,79(%rax)
	movzbl	78(%rax),%eax
	setne	%cl
	movl	%eax,%edx
	sarb	$7,%dl
	xorb	%dl,%al
	subb	%dl,%al
	andb	$127,%al
	shlb	$7,%cl
	orb	%al,%cl
	movb	%cl,(%r13,%rbp)
	jmp	18f
19:
	movq	%r13,%rcx
	addq	%rbp,%rcx
	movq	(%rsi),%rax
	movq	(%rax),%rdx
	callq	rtp_values.value.playout_delay.write.7ba4d078ccf006bf
	movq	168(%rsp),%r8
	jmp	10f
20:
	movq	(%rsi),%rax
	movq	(%rax),%rax
	cmpb	$0,121(%rax)
	je	9f
	movzwl	66(%rax),%ecx
	xorl	%edx,%edx
	xorl	%eax,%eax
	cmpl	$179,%ecx
	jg	21f
	testl	%ecx,%ecx
	je	22f
	cmpl	$90,%ecx
	jne	10f
	movb	$3,%al
	jmp	22f
23:
	movq	(%rsi),%rax
	movq	(%rax),%rax
	cmpb	$0,119(%rax)
	je	9f
	movl	60(%rax),%eax
13:
	bswapl	%eax
	movl	%eax,(%r13,%rbp)
	movb	$1,%al
	movl	$4,%edx
	jmp	10f
13:
	movq	(%rsi),%rax
	movq	(%rax),%rax
	cmpb	$0,120(%rax)
	je	9f
	movzwl	64(%rax),%eax
	rolw	$8,%ax
	movw	%ax,(%r13,%rbp)
	movb	$1,%al
	movl	$2,%edx
	jmp	10f
24:
	movq	(%rsi),%rax
	movq	(%rax),%rdx
	cmpb	$0,129(%rdx)
	je	5b
	movq	%r13,%rcx
	addq	%rbp,%rcx
	callq	rtp_values.value.stream_id.write.7ba4d078ccf006bf
	movq	168(%rsp),%r8
	jmp	10f
25:
	movq	(%rsi),%rax
	movq	(%rax),%rax
	cmpb	$0,122(%rax)
	je	9f
	movzbl	77(%rax),%eax
	movb	%al,(%r13,%rbp)
	jmp	18f
9:
	xorl	%edx,%edx
	xorl	%eax,%eax
	jmp	10f
2:
	movb	$0,(%rcx)
	movl	$1,%edx
	jmp	6f
21:
	cmpl	$180,%ecx
	je	2f
	cmpl	$270,%ecx
	jne	10f
	movb	$1,%al
	jmp	22f
2:
	movb	$2,%al
22:
	movb	%al,(%r13,%rbp)
18:
	movb	$1,%al
	movl	$1,%edx
	.p2align	4
10:
	cmpb	$1,%al
	jne	5b
6:
	cmpb	$0,55(%rsp)
	jne	3b
	movl	%r12d,%eax
	rolb	$4,%al
	addb	%dl,%al
	decb	%al
	movb	%al,(%r13,%r14)
	jmp	4b
	.section	.rdata,"dr"
	.p2align	2,0x0
7:
	.long	8b-7b
	.long	16b-7b
	.long	17b-7b
	.long	12b-7b
	.long	20b-7b
	.long	13b-7b
	.long	19b-7b
	.long	25b-7b
	.long	15b-7b
	.long	24b-7b
	.long	11b-7b
	.long	14b-7b
	.long	23b-7b
	.long	5b-7b
	.long	1b-7b
	.section	.text$rtp_ext.block_elements.write_values.defbc6cea7b2a850,"xr"
	.seh_endproc

	.def	rtp_vla.writing.put_streams.0e5569fdf2589307;
	.scl	3;
	.type	32;
	.endef
	.section	.text$rtp_vla.writing.put_streams.0e5569fdf2589307,"xr"
	.p2align	4
rtp_vla.writing.put_streams.0e5569fdf2589307:
.seh_proc rtp_vla.writing.put_streams.0e5569fdf2589307
	pushq	%r15
	.seh_pushreg %r15
	pushq	%r14
	.seh_pushreg %r14
	pushq	%r13
	.seh_pushreg %r13
	pushq	%r12
	.seh_pushreg %r12
	pushq	%rsi
	.seh_pushreg %rsi
	pushq	%rdi
	.seh_pushreg %rdi
	pushq	%rbp
	.seh_pushreg %rbp
	pushq	%rbx
	.seh_pushreg %rbx
	pushq	%rax
	.seh_stackalloc 8
	.seh_endprologue
	movq	112(%rsp),%rdi
	shll	$6,%edx
	movl	%r9d,%eax
	shll	$4,%eax
	addl	%edx,%eax
	addb	4(%rdi),%al
	addb	$-16,%al
	movb	%al,(%rcx)
	cmpb	$0,4(%rdi)
	je	1f
	movzbl	5(%rdi),%r11d
	addl	$3,%r11d
	shrl	$2,%r11d
	leaq	1(%r11),%rax
	movl	$1,%edx
	testq	%r9,%r9
	je	2f
	movq	%rdx,(%rsp)
	jmp	3f
1:
	cmpq	$1,%r9
	je	1f
	testq	%r9,%r9
	jne	4f
	movzbl	5(%rdi),%r11d
	addl	$3,%r11d
	shrl	$2,%r11d
	leaq	1(%r11),%rax
	xorl	%ebx,%ebx
	movl	$1,%edx
	movq	%rdx,(%rsp)
	movb	$1,%sil
	jmp	5f
2:
	movq	%rdx,(%rsp)
	xorl	%ebx,%ebx
	movb	$1,%sil
	jmp	5f
1:
	movzbl	(%rdi),%eax
	shlb	$4,%al
	jmp	1f
4:
	cmpq	$2,%r9
	ja	2f
	movzbl	(%rdi),%eax
	shlb	$4,%al
	addb	1(%rdi),%al
1:
	movb	%al,1(%rcx)
	movl	$2,%eax
	jmp	1f
2:
	cmpq	$3,%r9
	jne	2f
	movzbl	(%rdi),%eax
	movzbl	2(%rdi),%edx
	shlb	$4,%al
	addb	1(%rdi),%al
	shlb	$4,%dl
	orb	$15,%dl
	jmp	4f
2:
	movzbl	(%rdi),%eax
	movzbl	2(%rdi),%edx
	shlb	$4,%al
	addb	1(%rdi),%al
	shlb	$4,%dl
	addb	3(%rdi),%dl
4:
	movzbl	%dl,%edx
	shll	$8,%edx
	movzbl	%al,%eax
	orl	%edx,%eax
	movw	%ax,1(%rcx)
	movl	$3,%eax
1:
	movzbl	5(%rdi),%r11d
	addl	$3,%r11d
	shrl	$2,%r11d
	movq	%rax,(%rsp)
	addq	%r11,%rax
3:
	xorl	%ebx,%ebx
	movl	$1073741824,%esi
	xorl	%edi,%edi
	jmp	1f
	.p2align	4
2:
	incq	%rdi
	cmpq	%r9,%rdi
	je	3f
1:
	imulq	$168,%rdi,%r15
	leaq	(%r8,%r15),%r14
	movzbl	160(%r8,%r15),%ebp
	cmpb	$4,%bpl
	movl	$4,%r15d
	cmovbl	%ebp,%r15d
	movzbl	%r15b,%r15d
1:
	negq	%r15
	.p2align	4
4:
	incq	%r15
	cmpq	$1,%r15
	je	2b
	movzbl	38(%r14),%r12d
	addq	$40,%r14
	testb	%r12b,%r12b
	je	4b
	movzbl	%r12b,%r13d
	cmpb	$4,%r12b
	movl	$4,%ebp
	cmovbl	%r13d,%ebp
	movq	-40(%r14),%r10
	cmpq	$127,%r10
	ja	2f
	movb	%r10b,(%rcx,%rax)
	incq	%rax
	cmpb	$1,%r12b
	jne	4f
	jmp	6f
	.p2align	4
2:
	cmpq	$16384,%r10
	jae	2f
	movl	%r10d,%r13d
	andl	$16256,%r13d
	addl	%r13d,%r10d
	addl	$128,%r10d
	movw	%r10w,(%rcx,%rax)
	addq	$2,%rax
	cmpb	$1,%r12b
	jne	4f
	jmp	6f
2:
	incq	%rax
	.p2align	4
2:
	movq	%r10,%r13
	movl	%r13d,%edx
	orb	$-128,%dl
	movb	%dl,-1(%rcx,%rax)
	shrq	$7,%r10
	incq	%rax
	cmpq	$16383,%r13
	ja	2b
	movb	%r10b,-1(%rcx,%rax)
	cmpb	$1,%r12b
	je	6f
4:
	movq	-32(%r14),%r13
	cmpq	$128,%r13
	jae	2f
	movb	%r13b,(%rcx,%rax)
	incq	%rax
	cmpb	$2,%r12b
	jne	4f
	jmp	6f
2:
	cmpq	$16384,%r13
	jae	2f
	movl	%r13d,%edx
	andl	$16256,%edx
	addl	%r13d,%edx
	addl	$128,%edx
	movw	%dx,(%rcx,%rax)
	addq	$2,%rax
	cmpb	$2,%r12b
	jne	4f
	jmp	6f
2:
	incq	%rax
	.p2align	4
2:
	movq	%r13,%rdx
	movl	%edx,%r10d
	orb	$-128,%r10b
	movb	%r10b,-1(%rcx,%rax)
	shrq	$7,%r13
	incq	%rax
	cmpq	$16383,%rdx
	ja	2b
	movb	%r13b,-1(%rcx,%rax)
	cmpb	$2,%r12b
	je	6f
4:
	movq	-24(%r14),%r13
	cmpq	$128,%r13
	jae	2f
	movb	%r13b,(%rcx,%rax)
	incq	%rax
	cmpb	$3,%r12b
	jne	4f
	jmp	6f
2:
	cmpq	$16384,%r13
	jae	2f
	movl	%r13d,%edx
	andl	$16256,%edx
	addl	%r13d,%edx
	addl	$128,%edx
	movw	%dx,(%rcx,%rax)
	addq	$2,%rax
	cmpb	$3,%r12b
	jne	4f
	jmp	6f
2:
	incq	%rax
	.p2align	4
2:
	movq	%r13,%rdx
	movl	%edx,%r10d
	orb	$-128,%r10b
	movb	%r10b,-1(%rcx,%rax)
	shrq	$7,%r13
	incq	%rax
	cmpq	$16383,%rdx
	ja	2b
	movb	%r13b,-1(%rcx,%rax)
	cmpb	$3,%r12b
	je	6f
4:
	movq	-16(%r14),%r12
	cmpq	$128,%r12
	jae	2f
	movb	%r12b,(%rcx,%rax)
	incq	%rax
	jmp	6f
2:
	cmpq	$16384,%r12
	jae	2f
	movl	%r12d,%edx
	andl	$16256,%edx
	addl	%r12d,%edx
	addl	$128,%edx
	movw	%dx,(%rcx,%rax)
	addq	$2,%rax
	jmp	6f
2:
	incq	%rax
	.p2align	4
2:
	movq	%r12,%rdx
	movl	%edx,%r10d
	orb	$-128,%r10b
	movb	%r10b,-1(%rcx,%rax)
	shrq	$7,%r12
	incq	%rax
	cmpq	$16383,%rdx
	ja	2b
	movb	%r12b,-1(%rcx,%rax)
	.p2align	4
6:
	negq	%r15
	movzbl	%bpl,%ebp
	decl	%ebp
	imull	%esi,%ebp
	addl	%ebp,%ebx
	shrl	$2,%esi
	jmp	1b
3:
	bswapl	%ebx
	xorl	%esi,%esi
	movq	112(%rsp),%rdi
5:
	cmpq	$3,%r11
	ja	1f
	leaq	2f(%rip),%rdx
	movslq	(%rdx,%r11,4),%r10
	addq	%rdx,%r10
	jmpq	*%r10
3:
	movq	(%rsp),%rdx
	movb	%bl,(%rcx,%rdx)
	jmp	4f
5:
	movq	(%rsp),%rdx
	movw	%bx,(%rcx,%rdx)
	jmp	4f
6:
	movl	%ebx,%edx
	shrl	$16,%edx
	movq	(%rsp),%rbp
	movb	%bl,(%rcx,%rbp)
	movb	%bh,1(%rcx,%rbp)
	movb	%dl,2(%rcx,%rbp)
	jmp	4f
1:
	movq	(%rsp),%rdx
	movl	%ebx,(%rcx,%rdx)
4:
	movzwl	6(%rdi),%edx
	cmpq	%rdx,%rax
	sete	%dl
	orb	%dl,%sil
	je	1f
7:
	addq	$8,%rsp
	popq	%rbx
	popq	%rbp
	popq	%rdi
	popq	%rsi
	popq	%r12
	popq	%r13
	popq	%r14
	popq	%r15
	retq
1:
	xorl	%edx,%edx
	jmp	1f
	.p2align	4
8:
	incq	%rdx
	cmpq	%r9,%rdx
	je	7b
1:
	imulq	$168,%rdx,%r10
	movzbl	160(%r8,%r10),%r11d
	testb	%r11b,%r11b
	je	8b
	addq	%r8,%r10
	movzbl	%r11b,%esi
	cmpb	$4,%r11b
	movl	$4,%r11d
	cmovbl	%esi,%r11d
	movzbl	%r11b,%r11d
1:
	movl	$1,%esi
	subq	%r11,%rsi
	addq	$40,%r10
	movq	%rsi,%r11
	jmp	7f
	.p2align	4
9:
	testb	%bl,%bl
	jne	10f
11:
	incq	%r11
	addq	$40,%r10
	cmpq	$1,%r11
	je	8b
7:
	movzbl	-2(%r10),%ebx
	cmpb	$0,-3(%r10)
	je	9b
	testb	%bl,%bl
	je	11b
	movzwl	-8(%r10),%esi
	movzwl	-6(%r10),%edi
	decl	%esi
	rolw	$8,%si
	movzbl	-4(%r10),%ebx
	decl	%edi
	rolw	$8,%di
	movw	%si,(%rcx,%rax)
	movw	%di,2(%rcx,%rax)
	movb	%bl,4(%rcx,%rax)
	addq	$5,%rax
10:
	negq	%r11
	jb	1b
	jmp	8b
	.section	.rdata,"dr"
	.p2align	2,0x0
2:
	.long	4b-2b
	.long	3b-2b
	.long	5b-2b
	.long	6b-2b
	.section	.text$rtp_vla.writing.put_streams.0e5569fdf2589307,"xr"
	.seh_endproc

	.def	rtp_c.writing.write_header_with;
	.scl	3;
	.type	32;
	.endef
	.section	.text$rtp_c.writing.write_header_with,"xr"
	.p2align	4
rtp_c.writing.write_header_with:
.seh_proc rtp_c.writing.write_header_with
	pushq	%r15
	.seh_pushreg %r15
	pushq	%r14
	.seh_pushreg %r14
	pushq	%r13
	.seh_pushreg %r13
	pushq	%r12
	.seh_pushreg %r12
	pushq	%rsi
	.seh_pushreg %rsi
	pushq	%rdi
	.seh_pushreg %rdi
	pushq	%rbp
	.seh_pushreg %rbp
	pushq	%rbx
	.seh_pushreg %rbx
	subq	$120,%rsp
	.seh_stackalloc 120
	.seh_endprologue
	movzbl	78(%rcx),%r11d
	movl	$9,%eax
	testb	%r11b,%r11b
	js	1f
	movzbl	79(%rcx),%r14d
	cmpq	$15,%r14
	ja	1f
	movq	256(%rsp),%r10
	movq	$-1,%rsi
	movq	%r9,%rdi
	.p2align	4
2:
	incq	%rsi
	cmpq	%rsi,224(%rsp)
	je	3f
	movq	%r8,%rbx
	subq	(%rdi),%rbx
	jb	1f
	cmpq	%rbx,8(%rdi)
	leaq	32(%rdi),%rdi
	jbe	2b
	jmp	1f
3:
	leaq	12(,%r14,4),%rax
	subq	%rax,%r10
	movl	$0,%eax
	cmovaeq	%r10,%rax
	shrq	$2,%rax
	movzbl	240(%rsp),%r10d
	movl	%r10d,44(%rsp)
	je	2f
	movzbl	80(%rcx),%ebx
	decq	%rax
	cmpq	$65535,%rax
	movl	$65535,%edi
	cmovbq	%rax,%rdi
	movzbl	81(%rcx),%r15d
	shll	$2,%edi
	movzbl	232(%rsp),%r10d
	cmpb	$1,%r10b
	sete	%bpl
	movl	$0,%eax
	cmovel	44(%rsp),%eax
	movq	224(%rsp),%rsi
	testq	%rsi,%rsi
	movb	%bl,42(%rsp)
	movb	%bpl,43(%rsp)
	movb	%r15b,41(%rsp)
	je	3f
	xorb	$1,%r10b
	orb	240(%rsp),%r10b
	jne	4f
	leaq	24(%r9),%r10
	.p2align	4
5:
	movq	-16(%r10),%r12
	leaq	-1(%r12),%rbx
	cmpq	$15,%rbx
	ja	2f
	movzbl	(%r10),%ebx
	decb	%bl
	cmpb	$13,%bl
	ja	2f
	cmpq	%r12,%rdi
	jbe	2f
	incq	%r12
	movq	%rdi,%rbx
	subq	%r12,%rbx
	movl	$0,%edi
	cmovaeq	%rbx,%rdi
	addq	$32,%r10
	decq	%rsi
	jne	5b
3:
	movq	%rdi,%r12
	movl	%eax,%esi
	jmp	3f
4:
	leaq	24(%r9),%rbp
	movq	%rsi,%r10
	movl	%eax,%esi
	.p2align	4
4:
	movq	-16(%rbp),%r13
	cmpq	$255,%r13
	ja	2f
	movzbl	(%rbp),%ebx
	testb	%bl,%bl
	je	2f
	cmpq	%r13,%rdi
	jbe	2f
	leaq	1(%r13),%r15
	xorl	%r12d,%r12d
	subq	%r15,%rdi
	cmovaeq	%rdi,%r12
	decq	%r13
	cmpb	$15,%bl
	movzbl	%sil,%esi
	movl	$1,%edi
	cmovael	%edi,%esi
	cmpq	$16,%r13
	cmovael	%edi,%esi
	addq	$32,%rbp
	movq	%r12,%rdi
	decq	%r10
	jne	4b
3:
	testb	%sil,%sil
	movq	224(%rsp),%r15
	movzbl	43(%rsp),%r10d
	je	3f
	cmpq	%r12,%r15
	ja	4f
3:
	cmpb	$0,42(%rsp)
	setne	%al
	cmpb	$0,41(%rsp)
	setne	%r10b
	movzwl	76(%rcx),%edi
	movl	8(%rcx),%ebx
	movl	12(%rcx),%ebp
	shlb	$5,%r10b
	orb	%r14b,%r10b
	orb	$-112,%r10b
	shlb	$7,%al
	orb	%r11b,%al
	rolw	$8,%di
	bswapl	%ebx
	bswapl	%ebp
	movq	248(%rsp),%r12
	movb	%r10b,(%r12)
	movb	%al,1(%r12)
	movw	%di,2(%r12)
	movl	%ebx,4(%r12)
	movl	%ebp,8(%r12)
	movzbl	79(%rcx),%eax
	testq	%rax,%rax
	je	3f
	movdqu	16(%rcx),%xmm0
	movdqu	32(%rcx),%xmm1
	movdqu	48(%rcx),%xmm2
	movdqu	60(%rcx),%xmm3
	movdqu	%xmm3,92(%rsp)
	movdqa	%xmm2,80(%rsp)
	movdqa	%xmm1,64(%rsp)
	movdqa	%xmm0,48(%rsp)
	cmpb	$8,%al
	movq	264(%rsp),%rdi
	jae	5f
	movl	$12,%r14d
	xorl	%ecx,%ecx
	jmp	6f
2:
	cmpb	$1,232(%rsp)
	sete	%r10b
	movl	$0,%eax
	cmovel	44(%rsp),%eax
	movq	224(%rsp),%r15
	testq	%r15,%r15
	je	2f
4:
	cmpb	$0,240(%rsp)
	sete	%cl
	addq	$24,%r9
	testb	%cl,%r10b
	je	4f
	movl	$262140,%ecx
	movq	%r15,%rdx
	.p2align	4
7:
	movq	-16(%r9),%r8
	leaq	-1(%r8),%r10
	cmpq	$15,%r10
	ja	8f
	movzbl	(%r9),%r10d
	decb	%r10b
	cmpb	$13,%r10b
	ja	8f
	cmpq	%r8,%rcx
	jbe	8f
	incq	%r8
	movq	%rcx,%r10
	subq	%r8,%r10
	movl	$0,%ecx
	cmovaeq	%r10,%rcx
	addq	$32,%r9
	decq	%rdx
	jne	7b
	jmp	7f
4:
	movl	$262140,%r8d
	movq	%r15,%rdx
	.p2align	4
4:
	movq	-16(%r9),%r10
	cmpq	$255,%r10
	ja	8f
	movzbl	(%r9),%r11d
	testb	%r11b,%r11b
	je	8f
	cmpq	%r10,%r8
	jbe	8f
	leaq	1(%r10),%rsi
	xorl	%ecx,%ecx
	subq	%rsi,%r8
	cmovaeq	%r8,%rcx
	decq	%r10
	cmpb	$15,%r11b
	movzbl	%al,%eax
	movl	$1,%r8d
	cmovael	%r8d,%eax
	cmpq	$16,%r10
	cmovael	%r8d,%eax
	addq	$32,%r9
	movq	%rcx,%r8
	decq	%rdx
	jne	4b
7:
	testb	%al,%al
	setne	%al
	cmpq	%rcx,%r15
	seta	%cl
	andb	%al,%cl
	movl	$8,%eax
	cmpb	$1,%cl
	jne	1f
8:
	movl	$9,%eax
	jmp	1f
2:
	movl	$8,%eax
	jmp	1f
3:
	movl	$12,%r14d
	movq	264(%rsp),%rdi
	jmp	2f
5:
	movl	%eax,%ecx
	andl	$-8,%ecx
	leal	(,%rcx,4),%r10d
	leaq	12(%r10),%r14
	xorl	%r11d,%r11d
	.p2align	4
3:
	movdqu	48(%rsp,%r11),%xmm0
	movdqu	64(%rsp,%r11),%xmm1
	pxor	%xmm2,%xmm2
	movdqa	%xmm0,%xmm3
	punpckhbw	%xmm2,%xmm3
	pshuflw	$27,%xmm3,%xmm3
	pshufhw	$27,%xmm3,%xmm3
	punpcklbw	%xmm2,%xmm0
	pshuflw	$27,%xmm0,%xmm0
	pshufhw	$27,%xmm0,%xmm0
	packuswb	%xmm3,%xmm0
	movdqa	%xmm1,%xmm3
	punpckhbw	%xmm2,%xmm3
	pshuflw	$27,%xmm3,%xmm3
	pshufhw	$27,%xmm3,%xmm3
	punpcklbw	%xmm2,%xmm1
	pshuflw	$27,%xmm1,%xmm1
	pshufhw	$27,%xmm1,%xmm1
	packuswb	%xmm3,%xmm1
	movdqu	%xmm0,12(%r12,%r11)
	movdqu	%xmm1,28(%r12,%r11)
	addq	$32,%r11
	cmpq	%r11,%r10
	jne	3b
	cmpl	%eax,%ecx
	je	2f
	.p2align	4
6:
	movl	48(%rsp,%rcx,4),%r10d
	bswapl	%r10d
	movl	%r10d,(%r12,%r14)
	addq	$4,%r14
	incq	%rcx
	cmpq	%rcx,%rax
	jne	6b
2:
	movq	%rdx,48(%rsp)
	movq	%r8,56(%rsp)
	movq	%r9,64(%rsp)
	movq	%r15,72(%rsp)
	leaq	(%r12,%r14),%rcx
	addq	$4,%rcx
	addq	%r14,%r12
	leaq	48(%rsp),%r8
	movl	%esi,%edx
	callq	rtp_ext.raw_writing.put_elements.d57726891005992a
	leaq	3(%rax),%rcx
	movq	%rcx,%r8
	andq	$-4,%r8
	leaq	4(%rax),%rdx
	subq	%rax,%r8
	je	2f
	cmpq	$2,%r8
	je	3f
	cmpq	$1,%r8
	jne	4f
	movb	$0,4(%r12,%rax)
	addq	$5,%rax
	jmp	5f
3:
	movw	$0,4(%r12,%rax)
	addq	$6,%rax
	jmp	5f
4:
	movb	$0,2(%r12,%rdx)
	movw	$0,(%r12,%rdx)
	addq	$7,%rax
5:
	movq	%rax,%rdx
2:
	movl	%ecx,%eax
	andl	$-4,%eax
	shll	$22,%eax
	shll	$6,%ecx
	andl	$16711680,%ecx
	testb	%sil,%sil
	movl	$57022,%r8d
	movl	$16,%r9d
	cmovel	%r8d,%r9d
	orl	%ecx,%r9d
	orl	%eax,%r9d
	movl	%r9d,(%r12)
	addq	%r14,%rdx
	movq	%rdx,(%rdi)
	xorl	%eax,%eax
1:
	addq	$120,%rsp
	popq	%rbx
	popq	%rbp
	popq	%rdi
	popq	%rsi
	popq	%r12
	popq	%r13
	popq	%r14
	popq	%r15
	retq
	.seh_endproc

	.def	rtp_c.routed_headers.write_again;
	.scl	3;
	.type	32;
	.endef
	.section	.text$unlikely$rtp_c.routed_headers.write_again,"xr"
	.p2align	4
rtp_c.routed_headers.write_again:
.seh_proc rtp_c.routed_headers.write_again
	pushq	%r15
	.seh_pushreg %r15
	pushq	%r14
	.seh_pushreg %r14
	pushq	%r13
	.seh_pushreg %r13
	pushq	%r12
	.seh_pushreg %r12
	pushq	%rsi
	.seh_pushreg %rsi
	pushq	%rdi
	.seh_pushreg %rdi
	pushq	%rbp
	.seh_pushreg %rbp
	pushq	%rbx
	.seh_pushreg %rbx
	subq	$56,%rsp
	.seh_stackalloc 56
	.seh_endprologue
	movq	%rdx,%rdi
	movq	168(%rsp),%rbx
	movq	184(%rsp),%rax
	leaq	2(%rdx),%rsi
	subq	%rbx,%rax
	cmpq	%rsi,%rax
	jae	1f
	xorl	%esi,%esi
	xorl	%eax,%eax
	jmp	2f
1:
	movq	%r9,%r14
	movq	%r8,%r15
	movq	%rcx,%rdx
	movq	160(%rsp),%rax
	movzbl	32(%rax),%ecx
	movb	%cl,47(%rsp)
	movzbl	27(%rax),%ecx
	movb	%cl,49(%rsp)
	movzbl	31(%rax),%r13d
	movzbl	26(%rax),%ecx
	movb	%cl,50(%rsp)
	movzbl	30(%rax),%r12d
	movzwl	24(%rax),%ebp
	movzbl	28(%rax),%r11d
	movl	16(%rax),%r10d
	movl	20(%rax),%r8d
	movzbl	29(%rax),%r9d
	movzwl	36(%rax),%ecx
	addq	176(%rsp),%rbx
	leaq	-49(%rdi),%rax
	cmpq	$-34,%rax
	movw	%cx,54(%rsp)
	movb	%r12b,51(%rsp)
	ja	1f
	movq	%rbx,%rcx
	movb	%r13b,48(%rsp)
	movl	%r8d,%r13d
	movq	%rdi,%r8
	movl	%r9d,%r12d
	movw	%bp,52(%rsp)
	movl	%r10d,%ebp
	movl	%r11d,%esi
	callq	rtp_route.copying.put_any
	movl	%esi,%r11d
	leaq	2(%rdi),%rsi
	movl	%ebp,%r10d
	movzwl	52(%rsp),%ebp
	movl	%r12d,%r9d
	movl	%r13d,%r8d
	movzbl	48(%rsp),%r13d
	movzbl	47(%rsp),%eax
	testb	%al,%al
	jne	3f
	jmp	4f
1:
	movups	(%rdx),%xmm0
	movups	%xmm0,(%rbx)
	cmpq	$33,%rdi
	jb	1f
	movups	16(%rdx),%xmm0
	movups	%xmm0,16(%rbx)
1:
	movups	-16(%rdx,%rdi),%xmm0
	movups	%xmm0,-16(%rbx,%rdi)
	movzbl	47(%rsp),%eax
	testb	%al,%al
	je	4f
3:
	cmpb	$0,49(%rsp)
	setne	%al
	shlb	$7,%al
	movzbl	1(%rbx),%ecx
	andb	$127,%cl
	orb	%al,%cl
	movb	%cl,1(%rbx)
4:
	testb	%r13b,%r13b
	movzbl	51(%rsp),%ecx
	je	1f
	movzbl	1(%rbx),%eax
	andb	$-128,%al
	addb	50(%rsp),%al
	movb	%al,1(%rbx)
1:
	testb	%cl,%cl
	je	1f
	rolw	$8,%bp
	movw	%bp,2(%rbx)
1:
	testb	%r11b,%r11b
	je	1f
	bswapl	%r10d
	movl	%r10d,4(%rbx)
1:
	testb	%r9b,%r9b
	je	1f
	bswapl	%r8d
	movl	%r8d,8(%rbx)
1:
	movzbl	70(%r15),%r13d
	testq	%r13,%r13
	je	1f
	xorl	%ebp,%ebp
	jmp	3f
	.p2align	4
4:
	addq	%rbx,%rcx
	movq	%r14,%rdx
	movq	%r12,%r8
	callq	rtp_route.slots.copy_long
5:
	addq	%r12,%r14
	incq	%rbp
	cmpq	%rbp,%r13
	je	1f
3:
	movl	4(%r15,%rbp,4),%ecx
	movzbl	71(%r15,%rbp),%r12d
	testl	%r12d,%r12d
	je	4b
	cmpl	$1,%r12d
	jne	3f
	movzbl	(%r14),%eax
	movb	%al,(%rbx,%rcx)
	jmp	5b
	.p2align	4
3:
	cmpb	$2,%r12b
	ja	3f
	movzwl	(%r14),%eax
	movw	%ax,(%rbx,%rcx)
	jmp	5b
3:
	cmpl	$3,%r12d
	jne	3f
	movzwl	(%r14),%eax
	movw	%ax,(%rbx,%rcx)
	movzbl	2(%r14),%eax
	movb	%al,2(%rbx,%rcx)
	jmp	5b
3:
	cmpb	$4,%r12b
	ja	4b
	movl	(%r14),%eax
	movl	%eax,(%rbx,%rcx)
	jmp	5b
1:
	andb	$-33,(%rbx)
	movzwl	54(%rsp),%eax
	rolw	$8,%ax
	movw	%ax,(%rbx,%rdi)
	movb	$1,%al
2:
	movq	%rsi,%rdx
	addq	$56,%rsp
	popq	%rbx
	popq	%rbp
	popq	%rdi
	popq	%rsi
	popq	%r12
	popq	%r13
	popq	%r14
	popq	%r15
	retq
	.seh_endproc

	.def	rtp_route.slots.copy_long;
	.scl	3;
	.type	32;
	.endef
	.section	.text$rtp_route.slots.copy_long,"xr"
	.p2align	4
rtp_route.slots.copy_long:
	movq	%rcx,%rax
	subq	%rdx,%rax
	cmpq	%r8,%rax
	jae	memmove
	cmpq	$4,%r8
	setb	%r9b
	cmpq	$32,%rax
	setb	%al
	orb	%r9b,%al
	je	1f
	xorl	%eax,%eax
	jmp	2f
1:
	cmpq	$32,%r8
	jae	1f
	xorl	%eax,%eax
	jmp	3f
1:
	movq	%r8,%rax
	andq	$-32,%rax
	xorl	%r9d,%r9d
	.p2align	4
1:
	movups	(%rdx,%r9),%xmm0
	movups	16(%rdx,%r9),%xmm1
	movups	%xmm0,(%rcx,%r9)
	movups	%xmm1,16(%rcx,%r9)
	addq	$32,%r9
	cmpq	%r9,%rax
	jne	1b
	cmpq	%rax,%r8
	je	1f
	testb	$28,%r8b
	je	2f
3:
	movq	%rax,%r9
	movq	%r8,%rax
	andq	$-4,%rax
	.p2align	4
3:
	movl	(%rdx,%r9),%r10d
	movl	%r10d,(%rcx,%r9)
	addq	$4,%r9
	cmpq	%r9,%rax
	jne	3b
	cmpq	%rax,%r8
	je	1f
2:
	movq	%r8,%r10
	movq	%rax,%r9
	andq	$3,%r10
	je	2f
	movq	%rax,%r9
	.p2align	4
3:
	movzbl	(%rdx,%r9),%r11d
	movb	%r11b,(%rcx,%r9)
	incq	%r9
	decq	%r10
	jne	3b
2:
	subq	%r8,%rax
	cmpq	$-4,%rax
	ja	1f
	.p2align	4
2:
	movzbl	(%rdx,%r9),%eax
	movb	%al,(%rcx,%r9)
	movzbl	1(%rdx,%r9),%eax
	movb	%al,1(%rcx,%r9)
	movzbl	2(%rdx,%r9),%eax
	movb	%al,2(%rcx,%r9)
	movzbl	3(%rdx,%r9),%eax
	movb	%al,3(%rcx,%r9)
	addq	$4,%r9
	cmpq	%r9,%r8
	jne	2b
1:
	retq

	.def	rtp_c.routed_headers.refuse;
	.scl	3;
	.type	32;
	.endef
	.section	.text$unlikely$rtp_c.routed_headers.refuse,"xr"
	.p2align	4
rtp_c.routed_headers.refuse:
	movq	%rdx,%rax
	movq	%rdx,8(%rcx)
	movl	%r8d,40(%rcx)
	movl	$0,44(%rcx)
	retq

	.def	rtp_c.writing_values.write_without_block;
	.scl	3;
	.type	32;
	.endef
	.section	.rdata,"dr"
	.p2align	4,0x0
1:
	.zero	16,32
2:
	.zero	16,133
3:
	.zero	16,229
4:
	.zero	16,198
5:
	.zero	16,245
6:
	.zero	16,95
	.section	.text$rtp_c.writing_values.write_without_block,"xr"
	.p2align	4
rtp_c.writing_values.write_without_block:
.seh_proc rtp_c.writing_values.write_without_block
	pushq	%rsi
	.seh_pushreg %rsi
	pushq	%rdi
	.seh_pushreg %rdi
	pushq	%rbx
	.seh_pushreg %rbx
	subq	$64,%rsp
	.seh_stackalloc 64
	.seh_endprologue
	cmpb	$0,209(%rcx)
	je	7f
	movzwl	154(%rcx),%r10d
	movl	$9,%eax
	cmpl	$179,%r10d
	jg	8f
	testl	%r10d,%r10d
	je	7f
	cmpl	$90,%r10d
	je	7f
	jmp	9f
8:
	cmpl	$270,%r10d
	je	7f
	cmpl	$180,%r10d
	jne	9f
7:
	cmpb	$0,213(%rcx)
	je	7f
	cmpl	$0,120(%rcx)
	je	8f
7:
	cmpb	$0,214(%rcx)
	je	7f
	cmpl	$0,136(%rcx)
	je	8f
7:
	cmpb	$0,211(%rcx)
	je	7f
	movzbl	166(%rcx),%eax
	addb	$127,%al
	js	8f
7:
	cmpb	$0,216(%rcx)
	je	7f
	movdqu	168(%rcx),%xmm0
	movdqa	1b(%rip),%xmm1
	por	%xmm0,%xmm1
	paddb	2b(%rip),%xmm1
	movdqa	3b(%rip),%xmm2
	pminub	%xmm1,%xmm2
	pcmpeqb	%xmm1,%xmm2
	movdqa	4b(%rip),%xmm1
	paddb	%xmm0,%xmm1
	movdqa	5b(%rip),%xmm3
	pminub	%xmm1,%xmm3
	pcmpeqb	%xmm1,%xmm3
	pcmpeqb	6b(%rip),%xmm0
	pand	%xmm2,%xmm3
	pandn	%xmm3,%xmm0
	pmovmskb	%xmm0,%eax
	orl	$65536,%eax
	rep		bsfl	%eax,%r10d
	movl	$9,%eax
	cmpb	$0,168(%rcx,%r10)
	jne	9f
7:
	cmpb	$0,217(%rcx)
	je	1f
	cmpb	$0,185(%rcx)
	je	2f
	cmpb	$0,186(%rcx)
	je	3f
	cmpb	$0,187(%rcx)
	je	4f
	cmpb	$0,188(%rcx)
	je	5f
	cmpb	$0,189(%rcx)
	je	6f
	cmpb	$0,190(%rcx)
	je	7f
	cmpb	$0,191(%rcx)
	je	10f
	cmpb	$0,192(%rcx)
	je	11f
	movl	$9,%eax
	cmpb	$0,193(%rcx)
	jne	9f
	movl	$8,%eax
	jmp	12f
2:
	xorl	%eax,%eax
	jmp	12f
3:
	movl	$1,%eax
	jmp	12f
4:
	movl	$2,%eax
	jmp	12f
5:
	movl	$3,%eax
	jmp	12f
6:
	movl	$4,%eax
	jmp	12f
7:
	movl	$5,%eax
	jmp	12f
10:
	movl	$6,%eax
	jmp	12f
11:
	movl	$7,%eax
12:
	xorl	%r10d,%r10d
	.p2align	4
2:
	cmpq	%r10,%rax
	je	1f
	movzbl	185(%rcx,%r10),%r11d
	incq	%r10
	cmpb	$95,%r11b
	je	2b
	leal	-48(%r11),%esi
	cmpb	$10,%sil
	jb	2b
	andb	$-33,%r11b
	addb	$-65,%r11b
	cmpb	$26,%r11b
	jb	2b
	jmp	8f
1:
	cmpb	$0,218(%rcx)
	je	1f
	cmpb	$0,194(%rcx)
	je	2f
	cmpb	$0,195(%rcx)
	je	3f
	cmpb	$0,196(%rcx)
	je	4f
	cmpb	$0,197(%rcx)
	je	5f
	cmpb	$0,198(%rcx)
	je	6f
	cmpb	$0,199(%rcx)
	je	7f
	cmpb	$0,200(%rcx)
	je	10f
	cmpb	$0,201(%rcx)
	je	11f
	movl	$9,%eax
	cmpb	$0,202(%rcx)
	jne	9f
	movl	$8,%eax
	jmp	12f
2:
	xorl	%eax,%eax
	jmp	12f
3:
	movl	$1,%eax
	jmp	12f
4:
	movl	$2,%eax
	jmp	12f
5:
	movl	$3,%eax
	jmp	12f
6:
	movl	$4,%eax
	jmp	12f
7:
	movl	$5,%eax
	jmp	12f
10:
	movl	$6,%eax
	jmp	12f
11:
	movl	$7,%eax
12:
	xorl	%r10d,%r10d
	.p2align	4
2:
	cmpq	%r10,%rax
	je	1f
	movzbl	194(%rcx,%r10),%r11d
	incq	%r10
	cmpb	$95,%r11b
	je	2b
	leal	-48(%r11),%esi
	cmpb	$10,%sil
	jb	2b
	andb	$-33,%r11b
	addb	$-65,%r11b
	cmpb	$26,%r11b
	jb	2b
8:
	movl	$9,%eax
9:
	addq	$64,%rsp
	popq	%rbx
	popq	%rdi
	popq	%rsi
	retq
1:
	movzbl	78(%rcx),%r10d
	movl	$9,%eax
	testb	%r10b,%r10b
	js	9b
	movzbl	79(%rcx),%r11d
	cmpq	$15,%r11
	ja	9b
	leaq	12(,%r11,4),%rsi
	movl	$8,%eax
	cmpq	%rsi,%r8
	jb	9b
	cmpb	$0,80(%rcx)
	setne	%al
	cmpb	$0,81(%rcx)
	setne	%r8b
	movzwl	76(%rcx),%esi
	movl	8(%rcx),%edi
	movl	12(%rcx),%ebx
	shlb	$5,%r8b
	orb	%r11b,%r8b
	orb	$-128,%r8b
	shlb	$7,%al
	orb	%r10b,%al
	rolw	$8,%si
	bswapl	%edi
	bswapl	%ebx
	movb	%r8b,(%rdx)
	movb	%al,1(%rdx)
	movw	%si,2(%rdx)
	movl	%edi,4(%rdx)
	movl	%ebx,8(%rdx)
	movzbl	79(%rcx),%eax
	testq	%rax,%rax
	je	1f
	movdqu	16(%rcx),%xmm0
	movdqu	32(%rcx),%xmm1
	movdqu	48(%rcx),%xmm2
	movdqu	60(%rcx),%xmm3
	movdqu	%xmm3,44(%rsp)
	movdqa	%xmm2,32(%rsp)
	movdqa	%xmm1,16(%rsp)
	movdqa	%xmm0,(%rsp)
	cmpb	$8,%al
	jae	2f
	movl	$12,%r8d
	xorl	%ecx,%ecx
	jmp	3f
1:
	movl	$12,%r8d
	jmp	1f
2:
	movl	%eax,%ecx
	andl	$-8,%ecx
	leal	(,%rcx,4),%r10d
	leaq	12(%r10),%r8
	xorl	%r11d,%r11d
2:
	movdqu	(%rsp,%r11),%xmm0
	movdqu	16(%rsp,%r11),%xmm1
	pxor	%xmm2,%xmm2
	movdqa	%xmm0,%xmm3
	punpckhbw	%xmm2,%xmm3
	pshuflw	$27,%xmm3,%xmm3
	pshufhw	$27,%xmm3,%xmm3
	punpcklbw	%xmm2,%xmm0
	pshuflw	$27,%xmm0,%xmm0
	pshufhw	$27,%xmm0,%xmm0
	packuswb	%xmm3,%xmm0
	movdqa	%xmm1,%xmm3
	punpckhbw	%xmm2,%xmm3
	pshuflw	$27,%xmm3,%xmm3
	pshufhw	$27,%xmm3,%xmm3
	punpcklbw	%xmm2,%xmm1
	pshuflw	$27,%xmm1,%xmm1
	pshufhw	$27,%xmm1,%xmm1
	packuswb	%xmm3,%xmm1
	movdqu	%xmm0,12(%rdx,%r11)
	movdqu	%xmm1,28(%rdx,%r11)
	addq	$32,%r11
	cmpq	%r11,%r10
	jne	2b
	cmpl	%eax,%ecx
	je	1f
	.p2align	4
3:
	movl	(%rsp,%rcx,4),%r10d
	bswapl	%r10d
	movl	%r10d,(%rdx,%r8)
	addq	$4,%r8
	incq	%rcx
	cmpq	%rcx,%rax
	jne	3b
1:
	movq	%r8,(%r9)
	xorl	%eax,%eax
	jmp	9b
	.seh_endproc

	.def	rtp_ext.block_elements.write_values.16f98aa29e959305;
	.scl	3;
	.type	32;
	.endef
	.section	.text$rtp_ext.block_elements.write_values.16f98aa29e959305,"xr"
	.p2align	4
rtp_ext.block_elements.write_values.16f98aa29e959305:
.seh_proc rtp_ext.block_elements.write_values.16f98aa29e959305
	pushq	%r15
	.seh_pushreg %r15
	pushq	%r14
	.seh_pushreg %r14
	pushq	%r13
	.seh_pushreg %r13
	pushq	%r12
	.seh_pushreg %r12
	pushq	%rsi
	.seh_pushreg %rsi
	pushq	%rdi
	.seh_pushreg %rdi
	pushq	%rbp
	.seh_pushreg %rbp
	pushq	%rbx
	.seh_pushreg %rbx
	subq	$40,%rsp
	.seh_stackalloc 40
	.seh_endprologue
	movq	%r8,%rsi
	movq	152(%rsp),%r8
	movb	%r9b,39(%rsp)
	cmpb	$1,%r9b
	movl	$2,%ebx
	sbbq	$0,%rbx
	cmpq	%rbx,%r8
	jae	1f
	xorl	%r14d,%r14d
2:
	movq	%r14,%rax
	addq	$40,%rsp
	popq	%rbx
	popq	%rbp
	popq	%rdi
	popq	%rsi
	popq	%r12
	popq	%r13
	popq	%r14
	popq	%r15
	retq
1:
	movq	%rdx,%r15
	movq	%rcx,%rdi
	movq	144(%rsp),%r13
	xorl	%r14d,%r14d
	movq	%rbx,%rbp
	xorl	%r12d,%r12d
	jmp	1f
3:
	movb	%r12b,(%r13,%r14)
	movb	%dl,1(%r13,%r14)
4:
	addq	%rbp,%rdx
	movq	%rdx,%r14
5:
	leaq	(%r14,%rbx),%rbp
	cmpq	%rbp,%r8
	jb	2b
1:
	cmpq	%r15,%r12
	jae	6f
	movzbl	1(%rdi,%r12),%eax
	incq	%r12
	decl	%eax
	cmpl	$14,%eax
	ja	1b
	leaq	7f(%rip),%rcx
	movslq	(%rcx,%rax,4),%rax
	addq	%rcx,%rax
	jmpq	*%rax
8:
	cmpb	$0,115(%rsi)
	je	5b
	movq	(%rsi),%rcx
	movabsq	$4835703278458516699,%rdx
	movq	%rcx,%rax
	mulq	%rdx
	shrq	$24,%rdx
	imulq	$64000000,%rdx,%rax
	subq	%rax,%rcx
	shlq	$18,%rcx
	movabsq	$18446744073710,%rdx
	movq	%rcx,%rax
	mulq	%rdx
	bswapl	%edx
	movl	%edx,%eax
	shrl	$8,%eax
	shrl	$24,%edx
	movb	%dl,2(%r13,%rbp)
	movw	%ax,(%r13,%rbp)
	movl	$3,%edx
	cmpb	$0,39(%rsp)
	jne	3b
	jmp	9f
6:
	cmpq	$15,%r15
	jb	2b
	cmpq	$254,%r12
	ja	2b
	movq	%rdi,%rcx
	movq	%r12,%rdx
	callq	rtp_c.kinds.StoredMap.past_unmapped
	movq	152(%rsp),%r8
	movq	%rax,%r12
	addq	$16,%rax
	cmpq	$255,%rax
	movl	$255,%r15d
	cmovbq	%rax,%r15
	jmp	1b
1:
	cmpb	$0,119(%rsi)
	je	5b
	movl	60(%rsi),%eax
	jmp	2f
6:
	cmpb	$0,121(%rsi)
	je	5b
	movzwl	66(%rsi),%eax
	cmpl	$179,%eax
	jg	10f
	testl	%eax,%eax
	je	11f
	cmpl	$90,%eax
	jne	5b
	movb	$3,%al
	jmp	12f
13:
	cmpb	$0,129(%rsi)
	je	5b
	movq	%r13,%rcx
	addq	%rbp,%rcx
	movq	%rsi,%rdx
	callq	rtp_values.value.stream_id.write.7ba4d078ccf006bf
	cmpb	$1,%al
	movq	152(%rsp),%r8
	jne	5b
	jmp	14f
15:
	cmpb	$0,118(%rsi)
	je	5b
	movl	56(%rsi),%eax
2:
	bswapl	%eax
	movl	%eax,(%r13,%rbp)
	movl	$4,%edx
	cmpb	$0,39(%rsp)
	jne	3b
	jmp	9f
2:
	cmpb	$0,130(%rsi)
	je	5b
	movq	%r13,%rcx
	addq	%rbp,%rcx
	movq	%rsi,%rdx
	callq	rtp_values.value.stream_id.write_repaired.7ba4d078ccf006bf
	cmpb	$1,%al
	movq	152(%rsp),%r8
	jne	5b
	jmp	14f
16:
	cmpb	$0,122(%rsi)
	je	5b
	movzbl	77(%rsi),%eax
	movb	%al,(%r13,%rbp)
	movl	$1,%edx
	cmpb	$0,39(%rsp)
	jne	3b
	jmp	9f
17:
	movq	%r13,%rcx
	addq	%rbp,%rcx
	movq	%rsi,%rdx
	callq	rtp_values.value.abs_capture_time.write.7ba4d078ccf006bf
	cmpb	$1,%al
	movq	152(%rsp),%r8
	jne	5b
	jmp	14f
18:
	cmpb	$0,123(%rsi)
	je	5b
	cmpb	$0,124(%rsi)
	je	5b
	movzbl	78(%rsi),%eax
	cmpb	$0,79(%rsi)
	setne	%cl
	movl	%eax,%edx
	sarb	$7,%dl
	xorb	%dl,%al
	subb	%dl,%al
	andb	$127,%al
	shlb	$7,%cl
	orb	%al,%cl
	movb	%cl,(%r13,%rbp)
	movl	$1,%edx
	cmpb	$0,39(%rsp)
	jne	3b
	jmp	9f
19:
	cmpb	$0,120(%rsi)
	je	5b
	movzwl	64(%rsi),%eax
	rolw	$8,%ax
	movw	%ax,(%r13,%rbp)
	movl	$2,%edx
	cmpb	$0,39(%rsp)
	jne	3b
	jmp	9f
20:
	movq	%r13,%rcx
	addq	%rbp,%rcx
	movq	%rsi,%rdx
	callq	rtp_values.value.mid.write.7ba4d078ccf006bf
	cmpb	$1,%al
	movq	152(%rsp),%r8
	jne	5b
	jmp	14f
21:
	movq	%r13,%rcx
	addq	%rbp,%rcx
	movq	%rsi,%rdx
	callq	rtp_values.value.video_timing.write.7ba4d078ccf006bf
	cmpb	$1,%al
	movq	152(%rsp),%r8
	jne	5b
14:
	cmpb	$0,39(%rsp)
	jne	3b
9:
	movl	%r12d,%eax
	rolb	$4,%al
	addb	%dl,%al
	decb	%al
	movb	%al,(%r13,%r14)
	jmp	4b
4:
	movq	%r13,%rcx
	addq	%rbp,%rcx
	movq	%rsi,%rdx
	callq	rtp_values.value.playout_delay.write.7ba4d078ccf006bf
	cmpb	$1,%al
	movq	152(%rsp),%r8
	jne	5b
	jmp	14b
10:
	cmpl	$180,%eax
	je	10f
	cmpl	$270,%eax
	jne	5b
	movb	$1,%al
	jmp	12f
11:
	xorl	%eax,%eax
	jmp	12f
10:
	movb	$2,%al
12:
	movb	%al,(%r13,%rbp)
	movl	$1,%edx
	cmpb	$0,39(%rsp)
	jne	3b
	jmp	9b
	.section	.rdata,"dr"
	.p2align	2,0x0
7:
	.long	8b-7b
	.long	17b-7b
	.long	18b-7b
	.long	15b-7b
	.long	6b-7b
	.long	19b-7b
	.long	4b-7b
	.long	16b-7b
	.long	21b-7b
	.long	13b-7b
	.long	2b-7b
	.long	20b-7b
	.long	1b-7b
	.long	5b-7b
	.long	5b-7b
	.section	.text$rtp_ext.block_elements.write_values.16f98aa29e959305,"xr"
	.seh_endproc

	.def	rtp_c.writing_values.write_with_block;
	.scl	3;
	.type	32;
	.endef
	.section	.rdata,"dr"
	.p2align	4,0x0
1:
	.zero	16,15
2:
	.zero	16,14
	.section	.text$rtp_c.writing_values.write_with_block,"xr"
	.p2align	4
rtp_c.writing_values.write_with_block:
.seh_proc rtp_c.writing_values.write_with_block
	pushq	%r15
	.seh_pushreg %r15
	pushq	%r14
	.seh_pushreg %r14
	pushq	%r13
	.seh_pushreg %r13
	pushq	%r12
	.seh_pushreg %r12
	pushq	%rsi
	.seh_pushreg %rsi
	pushq	%rdi
	.seh_pushreg %rdi
	pushq	%rbp
	.seh_pushreg %rbp
	pushq	%rbx
	.seh_pushreg %rbx
	subq	$168,%rsp
	.seh_stackalloc 168
	movdqa	%xmm7,144(%rsp)
	.seh_savexmm %xmm7,144
	movdqa	%xmm6,128(%rsp)
	.seh_savexmm %xmm6,128
	.seh_endprologue
	movq	280(%rsp),%rsi
	movq	%rsi,56(%rsp)
	movzbl	78(%rdx),%ebp
	movl	$9,%eax
	testb	%bpl,%bpl
	js	3f
	movzbl	79(%rdx),%r15d
	cmpq	$15,%r15
	ja	3f
	leal	(,%r15,4),%r14d
	leaq	16(%r14),%r10
	movl	$8,%eax
	cmpq	%r10,%r9
	jb	3f
	movdqu	16(%rcx),%xmm0
	movdqu	32(%rcx),%xmm1
	movdqu	48(%rcx),%xmm2
	movdqu	64(%rcx),%xmm3
	por	%xmm1,%xmm3
	movdqu	80(%rcx),%xmm1
	por	%xmm2,%xmm1
	movdqu	96(%rcx),%xmm2
	movdqu	112(%rcx),%xmm4
	movdqu	128(%rcx),%xmm5
	por	%xmm2,%xmm5
	por	%xmm3,%xmm5
	movdqu	144(%rcx),%xmm2
	por	%xmm4,%xmm2
	por	%xmm1,%xmm2
	movdqu	160(%rcx),%xmm1
	movdqu	176(%rcx),%xmm3
	movdqu	192(%rcx),%xmm4
	por	%xmm1,%xmm4
	movdqu	208(%rcx),%xmm1
	por	%xmm3,%xmm1
	movdqu	224(%rcx),%xmm3
	por	%xmm4,%xmm3
	por	%xmm5,%xmm3
	por	%xmm0,%xmm3
	movdqu	240(%rcx),%xmm4
	por	%xmm1,%xmm4
	por	%xmm2,%xmm4
	por	%xmm3,%xmm4
	pxor	%xmm0,%xmm0
	pcmpeqb	%xmm0,%xmm4
	pmovmskb	%xmm4,%r10d
	xorl	$65535,%r10d
	movl	$15,%r13d
	je	4f
	cmpb	$0,128(%rsi)
	je	5f
6:
	cmpb	$0,80(%rsi)
	sete	%r10b
	cmpb	$0,129(%rsi)
	je	7f
8:
	cmpb	$0,97(%rsi)
	sete	%bl
	cmpb	$0,130(%rsi)
	je	9f
10:
	cmpb	$0,106(%rsi)
	sete	%r11b
	jmp	11f
4:
	movdqu	(%rcx),%xmm1
	pcmpeqb	%xmm0,%xmm1
	pmovmskb	%xmm1,%r10d
	xorl	$65534,%r10d
	orl	$1,%r10d
	bsrq	%r10,%r13
	cmpb	$0,128(%rsi)
	jne	6b
5:
	xorl	%r10d,%r10d
	cmpb	$0,129(%rsi)
	jne	8b
7:
	xorl	%ebx,%ebx
	cmpb	$0,130(%rsi)
	jne	10b
9:
	xorl	%r11d,%r11d
11:
	movzbl	80(%rdx),%edi
	movb	%dil,50(%rsp)
	movzbl	81(%rdx),%edi
	movb	%dil,51(%rsp)
	movdqu	1(%rcx),%xmm0
	pcmpeqb	1b(%rip),%xmm0
	pmovmskb	%xmm0,%edi
	testl	%edi,%edi
	je	1f
4:
	leal	(,%r13,2),%r10d
	cmpq	$15,%r13
	leaq	(%r10,%r10,8),%r11
	movl	$4590,%r10d
	cmovbq	%r11,%r10
	movb	$1,%r11b
	movl	%r11d,52(%rsp)
5:
	movq	%r9,%r12
	subq	%r14,%r12
	addq	$-12,%r12
	addq	$7,%r10
	cmpq	%r12,%r10
	jbe	6f
	testq	%r13,%r13
	je	7f
	leaq	56(%rsp),%rax
	movq	%rcx,%r14
	movq	%rdx,%rsi
	movq	%r13,%rdx
	movq	%r8,%rdi
	movq	%rax,%r8
	movq	%r9,%rbx
	movl	52(%rsp),%r9d
	callq	rtp_ext.block_elements.values_len.16f98aa29e959305
	movq	%rsi,%rdx
	movq	280(%rsp),%rsi
	movq	%r14,%rcx
	movq	%rbx,%r9
	movq	%rdi,%r8
	movq	%rax,%r10
	movl	$8,%eax
	addq	$3,%r10
	andq	$-4,%r10
	addq	$4,%r10
	cmpq	%r12,%r10
	jbe	6f
	jmp	3f
1:
	orb	%bl,%r10b
	cmpl	$15,%r13d
	jb	1f
	pcmpeqd	%xmm1,%xmm1
	movdqu	15(%rcx),%xmm3
	movdqu	31(%rcx),%xmm4
	movdqu	47(%rcx),%xmm2
	movdqu	63(%rcx),%xmm5
	paddb	%xmm1,%xmm4
	movdqa	2b(%rip),%xmm0
	movdqa	%xmm4,%xmm6
	pminub	%xmm0,%xmm6
	pcmpeqb	%xmm4,%xmm6
	paddb	%xmm1,%xmm5
	movdqa	%xmm5,%xmm4
	pminub	%xmm0,%xmm4
	pcmpeqb	%xmm5,%xmm4
	por	%xmm6,%xmm4
	movdqu	95(%rcx),%xmm5
	paddb	%xmm1,%xmm5
	movdqa	%xmm5,%xmm6
	pminub	%xmm0,%xmm6
	pcmpeqb	%xmm5,%xmm6
	movdqu	127(%rcx),%xmm7
	paddb	%xmm1,%xmm7
	movdqa	%xmm7,%xmm5
	pminub	%xmm0,%xmm5
	pcmpeqb	%xmm7,%xmm5
	por	%xmm6,%xmm5
	por	%xmm4,%xmm5
	movdqu	159(%rcx),%xmm4
	paddb	%xmm1,%xmm4
	movdqa	%xmm4,%xmm6
	pminub	%xmm0,%xmm6
	pcmpeqb	%xmm4,%xmm6
	movdqu	191(%rcx),%xmm4
	paddb	%xmm1,%xmm4
	movdqa	%xmm4,%xmm7
	pminub	%xmm0,%xmm7
	pcmpeqb	%xmm4,%xmm7
	por	%xmm6,%xmm7
	movdqu	223(%rcx),%xmm6
	paddb	%xmm1,%xmm6
	movdqa	%xmm6,%xmm4
	pminub	%xmm0,%xmm4
	pcmpeqb	%xmm6,%xmm4
	por	%xmm7,%xmm4
	por	%xmm5,%xmm4
	paddb	%xmm1,%xmm3
	movdqa	%xmm3,%xmm5
	pminub	%xmm0,%xmm5
	pcmpeqb	%xmm3,%xmm5
	paddb	%xmm1,%xmm2
	movdqa	%xmm2,%xmm3
	pminub	%xmm0,%xmm3
	pcmpeqb	%xmm2,%xmm3
	por	%xmm5,%xmm3
	movdqu	79(%rcx),%xmm2
	paddb	%xmm1,%xmm2
	movdqa	%xmm2,%xmm5
	pminub	%xmm0,%xmm5
	pcmpeqb	%xmm2,%xmm5
	movdqu	111(%rcx),%xmm6
	paddb	%xmm1,%xmm6
	movdqa	%xmm6,%xmm2
	pminub	%xmm0,%xmm2
	pcmpeqb	%xmm6,%xmm2
	por	%xmm5,%xmm2
	por	%xmm3,%xmm2
	movdqu	143(%rcx),%xmm3
	paddb	%xmm1,%xmm3
	movdqa	%xmm3,%xmm5
	pminub	%xmm0,%xmm5
	pcmpeqb	%xmm3,%xmm5
	movdqu	175(%rcx),%xmm3
	paddb	%xmm1,%xmm3
	movdqa	%xmm3,%xmm6
	pminub	%xmm0,%xmm6
	pcmpeqb	%xmm3,%xmm6
	por	%xmm5,%xmm6
	movdqu	207(%rcx),%xmm3
	paddb	%xmm1,%xmm3
	movdqa	%xmm3,%xmm5
	pminub	%xmm0,%xmm5
	pcmpeqb	%xmm3,%xmm5
	por	%xmm6,%xmm5
	por	%xmm2,%xmm5
	por	%xmm4,%xmm5
	psllw	$7,%xmm5
	pmovmskb	%xmm5,%edi
	xorl	%ebx,%ebx
	testl	%edi,%edi
	setne	%bl
	movd	%ebx,%xmm2
	movdqu	239(%rcx),%xmm3
	paddb	%xmm1,%xmm3
	pminub	%xmm3,%xmm0
	pcmpeqb	%xmm3,%xmm0
	por	%xmm2,%xmm0
	psllw	$7,%xmm0
	pmovmskb	%xmm0,%edi
	testl	%edi,%edi
	setne	%dil
	movzbl	255(%rcx),%ebx
	decb	%bl
	cmpb	$15,%bl
	setb	%bl
	orb	%dil,%bl
	jmp	2f
7:
	movl	$4,%r10d
	cmpq	%r12,%r10
	ja	3f
6:
	movq	272(%rsp),%r14
	cmpb	$0,50(%rsp)
	setne	%al
	cmpb	$0,51(%rsp)
	setne	%r10b
	movzwl	76(%rdx),%r11d
	movl	8(%rdx),%edi
	movl	12(%rdx),%ebx
	shlb	$5,%r10b
	orb	%r15b,%r10b
	orb	$-112,%r10b
	shlb	$7,%al
	orb	%bpl,%al
	rolw	$8,%r11w
	bswapl	%edi
	bswapl	%ebx
	movb	%r10b,(%r8)
	movb	%al,1(%r8)
	movw	%r11w,2(%r8)
	movl	%edi,4(%r8)
	movl	%ebx,8(%r8)
	movzbl	79(%rdx),%eax
	testq	%rax,%rax
	je	6f
	movdqu	16(%rdx),%xmm0
	movdqu	32(%rdx),%xmm1
	movdqu	48(%rdx),%xmm2
	movdqu	60(%rdx),%xmm3
	movdqu	%xmm3,108(%rsp)
	movdqa	%xmm2,96(%rsp)
	movdqa	%xmm1,80(%rsp)
	movdqa	%xmm0,64(%rsp)
	cmpb	$8,%al
	jae	7f
	movl	$12,%r15d
	xorl	%edx,%edx
	jmp	8f
6:
	movl	$12,%r15d
	jmp	6f
7:
	movl	%eax,%edx
	andl	$-8,%edx
	leal	(,%rdx,4),%r10d
	leaq	12(%r10),%r15
	xorl	%r11d,%r11d
	.p2align	4
7:
	movdqu	64(%rsp,%r11),%xmm0
	movdqu	80(%rsp,%r11),%xmm1
	pxor	%xmm2,%xmm2
	movdqa	%xmm0,%xmm3
	punpckhbw	%xmm2,%xmm3
	pshuflw	$27,%xmm3,%xmm3
	pshufhw	$27,%xmm3,%xmm3
	punpcklbw	%xmm2,%xmm0
	pshuflw	$27,%xmm0,%xmm0
	pshufhw	$27,%xmm0,%xmm0
	packuswb	%xmm3,%xmm0
	movdqa	%xmm1,%xmm3
	punpckhbw	%xmm2,%xmm3
	pshuflw	$27,%xmm3,%xmm3
	pshufhw	$27,%xmm3,%xmm3
	punpcklbw	%xmm2,%xmm1
	pshuflw	$27,%xmm1,%xmm1
	pshufhw	$27,%xmm1,%xmm1
	packuswb	%xmm3,%xmm1
	movdqu	%xmm0,12(%r8,%r11)
	movdqu	%xmm1,28(%r8,%r11)
	addq	$32,%r11
	cmpq	%r11,%r10
	jne	7b
	cmpl	%eax,%edx
	je	6f
	.p2align	4
8:
	movl	64(%rsp,%rdx,4),%r10d
	bswapl	%r10d
	movl	%r10d,(%r8,%r15)
	addq	$4,%r15
	incq	%rdx
	cmpq	%rdx,%rax
	jne	8b
6:
	subq	%r15,%r9
	leaq	(%r8,%r15),%rax
	addq	$4,%rax
	addq	%r15,%r8
	addq	$-4,%r9
	movq	%r9,40(%rsp)
	movq	%rax,32(%rsp)
	movq	%r13,%rdx
	movq	%r8,%rdi
	movq	%rsi,%r8
	movl	52(%rsp),%esi
	movl	%esi,%r9d
	callq	rtp_ext.block_elements.write_values.16f98aa29e959305
	movq	%rdi,%rcx
	movl	%esi,%edx
	movq	%rax,%r8
	callq	rtp_wire.header.block.close_block
	addq	%r15,%rax
	movq	%rax,(%r14)
	xorl	%eax,%eax
3:
	movaps	128(%rsp),%xmm6
	movaps	144(%rsp),%xmm7
	addq	$168,%rsp
	popq	%rbx
	popq	%rbp
	popq	%rdi
	popq	%rsi
	popq	%r12
	popq	%r13
	popq	%r14
	popq	%r15
	retq
1:
	xorl	%ebx,%ebx
2:
	orb	%r11b,%r10b
	testb	%bl,%bl
	jne	1f
	movl	%r10d,%r11d
	xorb	$1,%r11b
	jne	1f
	leaq	56(%rsp),%rax
	movq	%rcx,%rbx
	movq	%rdx,%rdi
	movq	%r13,%rdx
	movq	%r8,%r12
	movq	%rax,%r8
	movq	%r13,%rsi
	movq	%r9,%r13
	callq	rtp_ext.block_form.has_empty_data.16f98aa29e959305
	movq	%rdi,%rdx
	movq	%rbx,%rcx
	movq	%r13,%r9
	movq	%rsi,%r13
	movq	280(%rsp),%rsi
	movq	%r12,%r8
	movl	%eax,%r10d
	movl	$8,%eax
	testb	%r10b,%r10b
	jne	4b
	jmp	2f
1:
	orb	%bl,%r10b
	jne	4b
2:
	movl	%r13d,%r11d
	shll	$4,%r11d
	addq	%r13,%r11
	cmpq	$15,%r13
	movl	$4335,%r10d
	cmovbq	%r11,%r10
	movl	$0,52(%rsp)
	jmp	5b
	.seh_endproc

	.def	rtpw_data_of;
	.scl	2;
	.type	32;
	.endef
	.section	.rdata,"dr"
	.p2align	4,0x0
1:
	.zero	16,32
2:
	.zero	16,133
3:
	.zero	16,229
4:
	.zero	16,198
5:
	.zero	16,245
6:
	.zero	16,95
	.section	.text$rtpw_data_of,"xr"
	.globl	rtpw_data_of
	.p2align	4
rtpw_data_of:
.seh_proc rtpw_data_of
	pushq	%r15
	.seh_pushreg %r15
	pushq	%r14
	.seh_pushreg %r14
	pushq	%r13
	.seh_pushreg %r13
	pushq	%r12
	.seh_pushreg %r12
	pushq	%rsi
	.seh_pushreg %rsi
	pushq	%rdi
	.seh_pushreg %rdi
	pushq	%rbp
	.seh_pushreg %rbp
	pushq	%rbx
	.seh_pushreg %rbx
	subq	$40,%rsp
	.seh_stackalloc 40
	.seh_endprologue
	xorl	%edi,%edi
	testq	%r8,%r8
	sete	%bl
	movl	$9,%eax
	cmpb	$15,%cl
	ja	7f
	movb	$1,%r10b
	movzbl	%cl,%ecx
	leaq	8f(%rip),%r11
	movslq	(%r11,%rcx,4),%rcx
	addq	%r11,%rcx
	jmpq	*%rcx
9:
	xorl	%r11d,%r11d
	jmp	10f
11:
	movb	$13,%r11b
	jmp	10f
12:
	movb	$10,%r11b
	jmp	10f
13:
	movb	$3,%r11b
	jmp	10f
14:
	movb	$11,%r11b
	jmp	10f
15:
	movb	$8,%r11b
	jmp	10f
16:
	movb	$1,%r10b
	movb	$1,%r11b
	jmp	10f
17:
	movb	$14,%r11b
	jmp	10f
18:
	movb	$2,%r11b
	jmp	10f
19:
	movb	$6,%r11b
	jmp	10f
20:
	movb	$4,%r11b
	jmp	10f
21:
	movb	$12,%r11b
	jmp	10f
22:
	movb	$5,%r11b
	jmp	10f
23:
	movb	$9,%r11b
	jmp	10f
24:
	movb	$7,%r11b
	jmp	10f
7:
	xorl	%r10d,%r10d
	movl	$0,%r11d
	cmpb	$20,%cl
	jg	7f
10:
	movzbl	121(%rdx),%ebp
	testb	%bpl,%bpl
	je	10f
	movzwl	66(%rdx),%ecx
	cmpl	$179,%ecx
	jg	25f
	testl	%ecx,%ecx
	je	10f
	cmpl	$90,%ecx
	je	10f
	jmp	7f
25:
	cmpl	$270,%ecx
	je	10f
	cmpl	$180,%ecx
	jne	7f
10:
	movzbl	125(%rdx),%ecx
	testb	%cl,%cl
	je	10f
	cmpl	$0,32(%rdx)
	je	7f
10:
	movzbl	126(%rdx),%esi
	testb	%sil,%sil
	je	10f
	cmpl	$0,48(%rdx)
	je	7f
10:
	movzbl	123(%rdx),%r14d
	testb	%r14b,%r14b
	je	10f
	movzbl	78(%rdx),%r15d
	addb	$127,%r15b
	js	7f
10:
	cmpb	$0,128(%rdx)
	je	10f
	movdqu	80(%rdx),%xmm0
	movdqa	1b(%rip),%xmm1
	por	%xmm0,%xmm1
	paddb	2b(%rip),%xmm1
	movdqa	3b(%rip),%xmm2
	pminub	%xmm1,%xmm2
	pcmpeqb	%xmm1,%xmm2
	movdqa	4b(%rip),%xmm1
	paddb	%xmm0,%xmm1
	movdqa	5b(%rip),%xmm3
	pminub	%xmm1,%xmm3
	pcmpeqb	%xmm1,%xmm3
	pand	%xmm2,%xmm3
	pcmpeqb	6b(%rip),%xmm0
	pandn	%xmm3,%xmm0
	pmovmskb	%xmm0,%r15d
	orl	$65536,%r15d
	rep		bsfl	%r15d,%r15d
	cmpb	$0,80(%rdx,%r15)
	jne	7f
10:
	movb	%bl,39(%rsp)
	cmpb	$0,129(%rdx)
	je	1f
	cmpb	$0,97(%rdx)
	je	2f
	cmpb	$0,98(%rdx)
	je	3f
	cmpb	$0,99(%rdx)
	je	4f
	cmpb	$0,100(%rdx)
	je	5f
	cmpb	$0,101(%rdx)
	je	6f
	cmpb	$0,102(%rdx)
	je	10f
	cmpb	$0,103(%rdx)
	je	25f
	cmpb	$0,104(%rdx)
	je	26f
	cmpb	$0,105(%rdx)
	jne	7f
	movl	$8,%r15d
	jmp	27f
2:
	xorl	%r15d,%r15d
	jmp	27f
3:
	movl	$1,%r15d
	jmp	27f
4:
	movl	$2,%r15d
	jmp	27f
5:
	movl	$3,%r15d
	jmp	27f
6:
	movl	$4,%r15d
	jmp	27f
10:
	movl	$5,%r15d
	jmp	27f
25:
	movl	$6,%r15d
	jmp	27f
26:
	movl	$7,%r15d
27:
	xorl	%r12d,%r12d
	.p2align	4
2:
	cmpq	%r12,%r15
	je	1f
	movzbl	97(%rdx,%r12),%r13d
	incq	%r12
	cmpb	$95,%r13b
	je	2b
	leal	-48(%r13),%ebx
	cmpb	$10,%bl
	jb	2b
	andb	$-33,%r13b
	addb	$-65,%r13b
	cmpb	$26,%r13b
	jb	2b
	jmp	7f
1:
	cmpb	$0,130(%rdx)
	je	1f
	cmpb	$0,106(%rdx)
	je	2f
	cmpb	$0,107(%rdx)
	je	3f
	cmpb	$0,108(%rdx)
	je	4f
	cmpb	$0,109(%rdx)
	je	5f
	cmpb	$0,110(%rdx)
	je	6f
	cmpb	$0,111(%rdx)
	je	10f
	cmpb	$0,112(%rdx)
	je	25f
	cmpb	$0,113(%rdx)
	je	26f
	cmpb	$0,114(%rdx)
	jne	7f
	movl	$8,%r15d
	jmp	27f
2:
	xorl	%r15d,%r15d
	jmp	27f
3:
	movl	$1,%r15d
	jmp	27f
4:
	movl	$2,%r15d
	jmp	27f
5:
	movl	$3,%r15d
	jmp	27f
6:
	movl	$4,%r15d
	jmp	27f
10:
	movl	$5,%r15d
	jmp	27f
25:
	movl	$6,%r15d
	jmp	27f
26:
	movl	$7,%r15d
27:
	xorl	%r12d,%r12d
	.p2align	4
2:
	cmpq	%r12,%r15
	je	1f
	movzbl	106(%rdx,%r12),%r13d
	incq	%r12
	cmpb	$95,%r13b
	je	2b
	leal	-48(%r13),%ebx
	cmpb	$10,%bl
	jb	2b
	andb	$-33,%r13b
	addb	$-65,%r13b
	cmpb	$26,%r13b
	jb	2b
	jmp	7f
1:
	movl	$11,%eax
	testb	%r10b,%r10b
	je	7f
	movzbl	%r11b,%r15d
	leaq	1f(%rip),%r10
	movslq	(%r10,%r15,4),%r11
	addq	%r10,%r11
	jmpq	*%r11
2:
	xorl	%ecx,%ecx
	cmpb	$0,115(%rdx)
	setne	%cl
	leaq	(%rcx,%rcx,2),%rsi
	jmp	3f
4:
	xorl	%ecx,%ecx
	cmpb	$0,119(%rdx)
	jmp	5f
6:
	testb	%bpl,%bpl
	je	10f
	movzwl	66(%rdx),%r10d
	movb	$1,%cl
	cmpl	$179,%r10d
	jg	25f
	testl	%r10d,%r10d
	je	26f
	cmpl	$90,%r10d
	je	26f
	jmp	10f
27:
	movq	%rdx,%rcx
	movq	%r8,%rsi
	movq	%rdx,%r12
	movq	%r9,%r13
	callq	rtp_values.value.lengths.rid_len.7ba4d078ccf006bf
	jmp	28f
29:
	xorl	%ecx,%ecx
	cmpb	$0,118(%rdx)
5:
	setne	%cl
	movl	%ecx,%esi
	shll	$2,%esi
	jmp	3f
5:
	movq	%rdx,%rcx
	movq	%r8,%rsi
	movq	%rdx,%r12
	movq	%r9,%r13
	callq	rtp_values.value.lengths.repaired_rid_len.7ba4d078ccf006bf
	jmp	28f
30:
	xorl	%esi,%esi
	cmpb	$0,122(%rdx)
	setne	%sil
	movl	%esi,%ecx
	jmp	3f
31:
	cmpb	$0,116(%rdx)
	je	7f
	xorl	%eax,%eax
	cmpb	$0,117(%rdx)
	setne	%al
	leaq	8(,%rax,8),%rsi
	jmp	32f
33:
	testb	%r14b,%r14b
	setne	%r10b
	cmpb	$0,124(%rdx)
	setne	%cl
	andb	%r10b,%cl
	jmp	26f
34:
	xorl	%ecx,%ecx
	cmpb	$0,120(%rdx)
	setne	%cl
	movl	%ecx,%esi
	addl	%esi,%esi
	jmp	3f
35:
	movq	%rdx,%rcx
	movq	%r8,%rsi
	movq	%rdx,%r12
	movq	%r9,%r13
	callq	rtp_values.value.lengths.mid_len.7ba4d078ccf006bf
28:
	movq	%r13,%r9
	movq	%rsi,%r8
	movl	%eax,%ecx
	movl	$11,%eax
	movq	%rdx,%rsi
	movq	%r12,%rdx
	jmp	3f
28:
	xorl	%r10d,%r10d
	cmpb	$0,127(%rdx)
	setne	%cl
	movl	$13,%esi
	cmoveq	%r10,%rsi
	jmp	3f
36:
	testb	%cl,%cl
	je	37f
	cmpl	$0,32(%rdx)
	setne	%cl
	jmp	38f
37:
	xorl	%ecx,%ecx
38:
	testb	%sil,%sil
	je	37f
	cmpl	$0,48(%rdx)
	setne	%r10b
	jmp	38f
37:
	xorl	%r10d,%r10d
38:
	andb	%r10b,%cl
	movzbl	%cl,%r10d
	leaq	(%r10,%r10,2),%rsi
	jmp	3f
25:
	cmpl	$180,%r10d
	je	26f
	cmpl	$270,%r10d
	je	26f
10:
	xorl	%ecx,%ecx
26:
	movzbl	%cl,%esi
3:
	cmpb	$1,%cl
	jne	7f
32:
	movl	$8,%eax
	cmpq	%rsi,%r9
	jb	7f
	movq	144(%rsp),%r12
	movzbl	39(%rsp),%eax
	movb	%al,%dil
	shll	$12,%edi
	addq	%rdi,%r8
	leaq	3f(%rip),%rax
	movslq	(%rax,%r15,4),%rcx
	addq	%rax,%rcx
	jmpq	*%rcx
10:
	cmpb	$0,115(%rdx)
	je	25f
	movq	(%rdx),%rcx
	movabsq	$4835703278458516699,%rdx
	movq	%rcx,%rax
	mulq	%rdx
	shrq	$24,%rdx
	imulq	$64000000,%rdx,%rax
	subq	%rax,%rcx
	shlq	$18,%rcx
	movabsq	$18446744073710,%rdx
	movq	%rcx,%rax
	mulq	%rdx
	bswapl	%edx
	movl	%edx,%eax
	shrl	$8,%eax
	shrl	$24,%edx
	movb	%dl,2(%r8)
	movw	%ax,(%r8)
	jmp	25f
26:
	movq	%r8,%rcx
	callq	rtp_values.value.mid.write.7ba4d078ccf006bf
	jmp	25f
32:
	testb	%bpl,%bpl
	je	25f
	movzwl	66(%rdx),%eax
	cmpl	$179,%eax
	jg	37f
	testl	%eax,%eax
	je	38f
	cmpl	$90,%eax
	jne	25f
	movb	$3,%al
	movb	%al,(%r8)
	jmp	25f
39:
	cmpb	$0,119(%rdx)
	je	25f
	movl	60(%rdx),%eax
	jmp	40f
41:
	movq	%r8,%rcx
	callq	rtp_values.value.stream_id.write.7ba4d078ccf006bf
	jmp	25f
42:
	testb	%r14b,%r14b
	je	25f
	cmpb	$0,124(%rdx)
	je	25f
	movzbl	78(%rdx),%eax
	cmpb	$0,79(%rdx)
	setne	%cl
	movl	%eax,%edx
	sarb	$7,%dl
	xorb	%dl,%al
	subb	%dl,%al
	andb	$127,%al
	shlb	$7,%cl
	orb	%al,%cl
	movb	%cl,(%r8)
	jmp	25f
43:
	cmpb	$0,118(%rdx)
	je	25f
	movl	56(%rdx),%eax
40:
	bswapl	%eax
	movl	%eax,(%r8)
	jmp	25f
40:
	cmpb	$0,122(%rdx)
	je	25f
	movzbl	77(%rdx),%eax
	movb	%al,(%r8)
	jmp	25f
44:
	movq	%r8,%rcx
	callq	rtp_values.value.abs_capture_time.write.7ba4d078ccf006bf
	jmp	25f
45:
	cmpb	$0,120(%rdx)
	je	25f
	movzwl	64(%rdx),%eax
	rolw	$8,%ax
	movw	%ax,(%r8)
	jmp	25f
46:
	movq	%r8,%rcx
	callq	rtp_values.value.playout_delay.write.7ba4d078ccf006bf
	jmp	25f
47:
	movq	%r8,%rcx
	callq	rtp_values.value.stream_id.write_repaired.7ba4d078ccf006bf
	jmp	25f
48:
	movq	%r8,%rcx
	callq	rtp_values.value.video_timing.write.7ba4d078ccf006bf
25:
	movq	%rsi,(%r12)
	xorl	%eax,%eax
7:
	addq	$40,%rsp
	popq	%rbx
	popq	%rbp
	popq	%rdi
	popq	%rsi
	popq	%r12
	popq	%r13
	popq	%r14
	popq	%r15
	retq
37:
	cmpl	$180,%eax
	je	37f
	cmpl	$270,%eax
	jne	25b
	movb	$1,%al
	movb	%al,(%r8)
	jmp	25b
38:
	xorl	%eax,%eax
	movb	%al,(%r8)
	jmp	25b
37:
	movb	$2,%al
	movb	%al,(%r8)
	jmp	25b
	.section	.rdata,"dr"
	.p2align	2,0x0
8:
	.long	7b-8b
	.long	9b-8b
	.long	16b-8b
	.long	18b-8b
	.long	13b-8b
	.long	20b-8b
	.long	22b-8b
	.long	19b-8b
	.long	24b-8b
	.long	15b-8b
	.long	23b-8b
	.long	12b-8b
	.long	14b-8b
	.long	21b-8b
	.long	11b-8b
	.long	17b-8b
1:
	.long	2b-1b
	.long	31b-1b
	.long	33b-1b
	.long	29b-1b
	.long	6b-1b
	.long	34b-1b
	.long	36b-1b
	.long	30b-1b
	.long	28b-1b
	.long	27b-1b
	.long	5b-1b
	.long	35b-1b
	.long	4b-1b
	.long	7b-1b
	.long	7b-1b
3:
	.long	10b-3b
	.long	44b-3b
	.long	42b-3b
	.long	43b-3b
	.long	32b-3b
	.long	45b-3b
	.long	46b-3b
	.long	40b-3b
	.long	48b-3b
	.long	41b-3b
	.long	47b-3b
	.long	26b-3b
	.long	39b-3b
	.section	.text$rtpw_data_of,"xr"
	.seh_endproc

	.def	rtpw_extend_ntp_56;
	.scl	2;
	.type	32;
	.endef
	.section	.text$rtpw_extend_ntp_56,"xr"
	.globl	rtpw_extend_ntp_56
	.p2align	4
rtpw_extend_ntp_56:
	subq	%rcx,%rdx
	movabsq	$72057594037927935,%r8
	andq	%rdx,%r8
	addq	%r8,%rcx
	movabsq	$-72057594037927936,%rax
	addq	%rcx,%rax
	movabsq	$36028797018963968,%rdx
	cmpq	%rdx,%r8
	cmovbeq	%rcx,%rax
	retq

	.def	rtpw_extend_send_time;
	.scl	2;
	.type	32;
	.endef
	.section	.text$rtpw_extend_send_time,"xr"
	.globl	rtpw_extend_send_time
	.p2align	4
rtpw_extend_send_time:
	shlq	$14,%rdx
	subq	%rcx,%rdx
	movabsq	$274877906943,%r8
	andq	%rdx,%r8
	addq	%r8,%rcx
	movabsq	$-274877906944,%rax
	addq	%rcx,%rax
	movabsq	$137438953472,%rdx
	cmpq	%rdx,%r8
	cmovbeq	%rcx,%rax
	retq

	.def	rtpw_extend_u15;
	.scl	2;
	.type	32;
	.endef
	.section	.text$rtpw_extend_u15,"xr"
	.globl	rtpw_extend_u15
	.p2align	4
rtpw_extend_u15:
	subl	%ecx,%edx
	andl	$32767,%edx
	leaq	(%rdx,%rcx),%rax
	cmpl	$16384,%edx
	jb	1f
	xorq	$16384,%rdx
	andl	$16384,%ecx
	xorl	%r8d,%r8d
	orq	%rdx,%rcx
	sete	%r8b
	shll	$15,%r8d
	addq	%r8,%rax
	addq	$-32768,%rax
1:
	retq

	.def	rtpw_extend_u16;
	.scl	2;
	.type	32;
	.endef
	.section	.text$rtpw_extend_u16,"xr"
	.globl	rtpw_extend_u16
	.p2align	4
rtpw_extend_u16:
	subl	%ecx,%edx
	movzwl	%dx,%r8d
	leaq	(%r8,%rcx),%rax
	testw	%r8w,%r8w
	js	1f
	retq
1:
	xorl	%r8d,%r8d
	negw	%dx
	seto	%r8b
	shll	$16,%r8d
	addq	$-65536,%r8
	testw	%cx,%cx
	movq	$-65536,%rcx
	cmovnsq	%r8,%rcx
	addq	%rcx,%rax
	retq

	.def	rtpw_extend_u32;
	.scl	2;
	.type	32;
	.endef
	.section	.text$rtpw_extend_u32,"xr"
	.globl	rtpw_extend_u32
	.p2align	4
rtpw_extend_u32:
	subl	%ecx,%edx
	leaq	(%rdx,%rcx),%rax
	testl	%edx,%edx
	js	1f
	retq
1:
	xorl	%r8d,%r8d
	negl	%edx
	seto	%r8b
	shlq	$32,%r8
	movabsq	$-4294967296,%rdx
	addq	%rdx,%r8
	testl	%ecx,%ecx
	cmovsq	%rdx,%r8
	addq	%r8,%rax
	retq

	.def	rtpw_extend_u8;
	.scl	2;
	.type	32;
	.endef
	.section	.text$rtpw_extend_u8,"xr"
	.globl	rtpw_extend_u8
	.p2align	4
rtpw_extend_u8:
	subb	%cl,%dl
	movzbl	%dl,%r8d
	leaq	(%r8,%rcx),%rax
	testb	%r8b,%r8b
	js	1f
	retq
1:
	xorl	%r8d,%r8d
	negb	%dl
	seto	%r8b
	shll	$8,%r8d
	addq	$-256,%r8
	testb	%cl,%cl
	movq	$-256,%rcx
	cmovnsq	%r8,%rcx
	addq	%rcx,%rax
	retq

	.def	rtpw_has_structure;
	.scl	2;
	.type	32;
	.endef
	.section	.text$rtpw_has_structure,"xr"
	.globl	rtpw_has_structure
	.p2align	4
rtpw_has_structure:
	cmpq	$4,%rdx
	jb	1f
	xorl	%eax,%eax
	testq	%rcx,%rcx
	sete	%al
	shll	$12,%eax
	movzbl	3(%rcx,%rax),%eax
	shrb	$7,%al
	retq
1:
	xorl	%eax,%eax
	retq

	.def	rtpw_id_of;
	.scl	2;
	.type	32;
	.endef
	.section	.text$rtpw_id_of,"xr"
	.globl	rtpw_id_of
	.p2align	4
rtpw_id_of:
	testb	%dl,%dl
	sete	%al
	cmpb	$21,%dl
	setge	%r8b
	orb	%al,%r8b
	jne	1f
	movq	$-255,%rax
	.p2align	4
2:
	cmpb	%dl,256(%rcx,%rax)
	je	3f
	cmpb	%dl,257(%rcx,%rax)
	je	4f
	cmpb	%dl,258(%rcx,%rax)
	je	5f
	cmpb	%dl,259(%rcx,%rax)
	je	6f
	cmpb	%dl,260(%rcx,%rax)
	je	7f
	addq	$5,%rax
	jne	2b
1:
	xorl	%eax,%eax
	retq
3:
	decb	%al
4:
	incb	%al
	retq
5:
	incb	%al
	incb	%al
	retq
6:
	addb	$2,%al
	incb	%al
	retq
7:
	addb	$3,%al
	incb	%al
	retq

	.def	rtpw_is_rtcp;
	.scl	2;
	.type	32;
	.endef
	.section	.text$rtpw_is_rtcp,"xr"
	.globl	rtpw_is_rtcp
	.p2align	4
rtpw_is_rtcp:
	cmpq	$2,%rdx
	jb	1f
	xorl	%eax,%eax
	testq	%rcx,%rcx
	sete	%al
	shll	$12,%eax
	movzbl	1(%rcx,%rax),%edx
	cmpb	$-64,(%rcx,%rax)
	setl	%cl
	andb	$-32,%dl
	cmpb	$-64,%dl
	sete	%al
	andb	%cl,%al
	retq
1:
	xorl	%eax,%eax
	retq

	.def	rtpw_is_stream_id;
	.scl	2;
	.type	32;
	.endef
	.section	.text$rtpw_is_stream_id,"xr"
	.globl	rtpw_is_stream_id
	.p2align	4
rtpw_is_stream_id:
	leaq	-1(%rdx),%rax
	cmpq	$254,%rax
	ja	1f
	xorl	%r8d,%r8d
	testq	%rcx,%rcx
	sete	%r8b
	shll	$12,%r8d
	addq	%rcx,%r8
	xorl	%ecx,%ecx
	.p2align	4
2:
	cmpq	%rcx,%rdx
	sete	%al
	je	3f
	movzbl	(%r8,%rcx),%r9d
	leal	-48(%r9),%r10d
	incq	%rcx
	cmpb	$10,%r10b
	jb	2b
	andb	$-33,%r9b
	addb	$-65,%r9b
	cmpb	$26,%r9b
	jb	2b
3:
	retq
1:
	xorl	%eax,%eax
	retq

	.def	rtpw_is_token;
	.scl	2;
	.type	32;
	.endef
	.section	.text$rtpw_is_token,"xr"
	.globl	rtpw_is_token
	.p2align	4
rtpw_is_token:
	leaq	-1(%rdx),%rax
	cmpq	$254,%rax
	ja	1f
	xorl	%r8d,%r8d
	testq	%rcx,%rcx
	sete	%r8b
	shll	$12,%r8d
	addq	%rcx,%r8
	xorl	%ecx,%ecx
	jmp	2f
	.p2align	4
3:
	incq	%rcx
	cmpq	%rcx,%rdx
	je	4f
2:
	movzbl	(%r8,%rcx),%r9d
	cmpl	$33,%r9d
	je	3b
	cmpb	$47,%r9b
	ja	2f
	cmpb	$35,%r9b
	jb	1f
	cmpb	$40,%r9b
	jb	3b
	cmpb	$42,%r9b
	jb	1f
	cmpb	$44,%r9b
	jb	3b
	xorl	%eax,%eax
	cmpl	$47,%r9d
	je	5f
	cmpl	$44,%r9d
	jne	3b
	jmp	5f
	.p2align	4
2:
	cmpb	$58,%r9b
	jb	3b
	cmpb	$65,%r9b
	jb	1f
	cmpb	$91,%r9b
	setae	%al
	addb	$-94,%r9b
	cmpb	$33,%r9b
	setae	%r9b
	testb	%r9b,%al
	je	3b
1:
	xorl	%eax,%eax
	retq
4:
	movb	$1,%al
	retq
5:
	retq

	.def	rtpw_last_element;
	.scl	2;
	.type	32;
	.endef
	.section	.text$rtpw_last_element,"xr"
	.globl	rtpw_last_element
	.p2align	4
rtpw_last_element:
.seh_proc rtpw_last_element
	pushq	%r15
	.seh_pushreg %r15
	pushq	%r14
	.seh_pushreg %r14
	pushq	%rsi
	.seh_pushreg %rsi
	pushq	%rdi
	.seh_pushreg %rdi
	pushq	%rbx
	.seh_pushreg %rbx
	subq	$32,%rsp
	.seh_stackalloc 32
	.seh_endprologue
	movl	%r9d,%ebx
	movq	%rdx,%rsi
	xorl	%eax,%eax
	testq	%rcx,%rcx
	sete	%al
	shll	$12,%eax
	addq	%rcx,%rax
	cmpb	$1,%r8b
	je	1f
	movzbl	%r8b,%edx
	movl	$9,%ecx
	cmpl	$2,%edx
	jne	2f
	testq	%rsi,%rsi
	je	3f
	xorl	%r15d,%r15d
	movq	%rsi,%rdx
	xorl	%edi,%edi
	xorl	%r14d,%r14d
4:
	cmpb	$0,(%rax)
	jne	5f
	cmpq	$2,%rdx
	je	6f
	cmpq	$1,%rdx
	je	7f
	cmpq	$3,%rdx
	ja	8f
	cmpb	$0,1(%rax)
	jne	8f
	cmpb	$0,2(%rax)
	jne	8f
	jmp	7f
6:
	cmpb	$0,1(%rax)
	je	7f
8:
	decq	%rdx
	incq	%rax
	movq	%rax,%rcx
	callq	rtp_ext.elements.skip_zeros
	testq	%rdx,%rdx
	je	7f
5:
	movq	%rax,%rcx
	cmpq	$2,%rdx
	jb	7f
	movzbl	1(%rcx),%r8d
	leaq	2(%r8),%rax
	subq	%rax,%rdx
	jb	7f
	addq	%rcx,%rax
	cmpb	%bl,(%rcx)
	je	5f
	testq	%rdx,%rdx
	jne	4b
	jmp	7f
5:
	movq	%rsi,%rdi
	subq	%rdx,%rdi
	movq	%rdi,%r14
	subq	%r8,%r14
	movb	$1,%r15b
	testq	%rdx,%rdx
	jne	4b
	jmp	4f
1:
	testq	%rsi,%rsi
	je	3f
	xorl	%r15d,%r15d
	movq	%rsi,%rdx
	xorl	%edi,%edi
	xorl	%r14d,%r14d
1:
	movzbl	(%rax),%ecx
	testb	%cl,%cl
	jne	5f
	cmpq	$2,%rdx
	je	6f
	cmpq	$1,%rdx
	je	7f
	cmpq	$3,%rdx
	ja	8f
	cmpb	$0,1(%rax)
	jne	8f
	cmpb	$0,2(%rax)
	jne	8f
	jmp	7f
6:
	cmpb	$0,1(%rax)
	je	7f
8:
	decq	%rdx
	incq	%rax
	movq	%rax,%rcx
	callq	rtp_ext.elements.skip_zeros
	testq	%rdx,%rdx
	je	7f
	movzbl	(%rax),%ecx
5:
	cmpb	$-17,%cl
	ja	7f
	movl	%ecx,%r8d
	andb	$15,%r8b
	addb	$2,%r8b
	movzbl	%r8b,%r8d
	subq	%r8,%rdx
	jb	7f
	addq	%r8,%rax
	shrb	$4,%cl
	cmpb	%bl,%cl
	je	5f
	testq	%rdx,%rdx
	jne	1b
	jmp	7f
5:
	movq	%rsi,%rdi
	subq	%rdx,%rdi
	negq	%r8
	leaq	(%rdi,%r8),%r14
	incq	%r14
	movb	$1,%r15b
	testq	%rdx,%rdx
	jne	1b
	jmp	4f
7:
	movl	$11,%ecx
	cmpb	$1,%r15b
	jne	2f
4:
	movq	112(%rsp),%rax
	movq	%rdi,%rcx
	subq	%r14,%rcx
	movq	%r14,(%rax)
	movq	%rcx,8(%rax)
	movq	%rdi,16(%rax)
	movb	%bl,24(%rax)
	movl	$0,25(%rax)
	movl	$0,28(%rax)
	xorl	%ecx,%ecx
	jmp	2f
3:
	movl	$11,%ecx
2:
	movl	%ecx,%eax
	addq	$32,%rsp
	popq	%rbx
	popq	%rdi
	popq	%rsi
	popq	%r14
	popq	%r15
	retq
	.seh_endproc

	.def	rtpw_map_get;
	.scl	2;
	.type	32;
	.endef
	.section	.text$rtpw_map_get,"xr"
	.globl	rtpw_map_get
	.p2align	4
rtpw_map_get:
	movzbl	%dl,%edx
	movzbl	(%rcx,%rdx),%eax
	movl	%eax,%ecx
	xorl	%r8d,%r8d
	testb	%al,%al
	cmovel	%r8d,%eax
	testb	%dl,%dl
	cmovel	%r8d,%eax
	cmpb	$21,%cl
	cmovgel	%r8d,%eax
	retq

	.def	rtpw_map_remove;
	.scl	2;
	.type	32;
	.endef
	.section	.text$rtpw_map_remove,"xr"
	.globl	rtpw_map_remove
	.p2align	4
rtpw_map_remove:
	movzbl	%dl,%eax
	movb	$0,(%rcx,%rax)
	retq

	.def	rtpw_map_set;
	.scl	2;
	.type	32;
	.endef
	.section	.text$rtpw_map_set,"xr"
	.globl	rtpw_map_set
	.p2align	4
rtpw_map_set:
	movl	$9,%eax
	cmpb	$20,%r8b
	jg	1f
	testb	%dl,%dl
	je	1f
	testb	%r8b,%r8b
	je	1f
	movzbl	%dl,%eax
	movb	%r8b,(%rcx,%rax)
	xorl	%eax,%eax
1:
	retq

	.def	rtpw_map_standard;
	.scl	2;
	.type	32;
	.endef
	.section	.text$rtpw_map_standard,"xr"
	.globl	rtpw_map_standard
	.p2align	4
rtpw_map_standard:
	movl	$100729600,(%rcx)
	movb	$12,4(%rcx)
	movl	$0,5(%rcx)
	movb	$0,9(%rcx)
	movl	$83888906,10(%rcx)
	xorps	%xmm0,%xmm0
	movups	%xmm0,14(%rcx)
	movups	%xmm0,30(%rcx)
	movups	%xmm0,46(%rcx)
	movups	%xmm0,62(%rcx)
	movups	%xmm0,78(%rcx)
	movups	%xmm0,94(%rcx)
	movups	%xmm0,110(%rcx)
	movups	%xmm0,126(%rcx)
	movups	%xmm0,142(%rcx)
	movups	%xmm0,158(%rcx)
	movups	%xmm0,174(%rcx)
	movups	%xmm0,190(%rcx)
	movups	%xmm0,206(%rcx)
	movups	%xmm0,222(%rcx)
	movups	%xmm0,238(%rcx)
	movw	$0,254(%rcx)
	retq

	.def	rtpw_new_ids_between;
	.scl	2;
	.type	32;
	.endef
	.section	.text$rtpw_new_ids_between,"xr"
	.globl	rtpw_new_ids_between
	.p2align	4
rtpw_new_ids_between:
.seh_proc rtpw_new_ids_between
	subq	$24,%rsp
	.seh_stackalloc 24
	movaps	%xmm6,(%rsp)
	.seh_savexmm %xmm6,0
	.seh_endprologue
	pxor	%xmm0,%xmm0
	movdqu	%xmm0,240(%r8)
	movdqu	%xmm0,224(%r8)
	movdqu	%xmm0,208(%r8)
	movdqu	%xmm0,192(%r8)
	movdqu	%xmm0,176(%r8)
	movdqu	%xmm0,160(%r8)
	movdqu	%xmm0,144(%r8)
	movdqu	%xmm0,128(%r8)
	movdqu	%xmm0,112(%r8)
	movdqu	%xmm0,96(%r8)
	movdqu	%xmm0,80(%r8)
	movdqu	%xmm0,64(%r8)
	movdqu	%xmm0,48(%r8)
	movdqu	%xmm0,32(%r8)
	movdqu	%xmm0,16(%r8)
	movdqu	%xmm0,(%r8)
	movdqu	16(%rcx),%xmm1
	movdqu	32(%rcx),%xmm2
	movdqu	48(%rcx),%xmm3
	movdqu	64(%rcx),%xmm4
	por	%xmm2,%xmm4
	movdqu	80(%rcx),%xmm2
	por	%xmm3,%xmm2
	movdqu	96(%rcx),%xmm3
	movdqu	112(%rcx),%xmm5
	movdqu	128(%rcx),%xmm6
	por	%xmm3,%xmm6
	por	%xmm4,%xmm6
	movdqu	144(%rcx),%xmm3
	por	%xmm5,%xmm3
	por	%xmm2,%xmm3
	movdqu	160(%rcx),%xmm2
	movdqu	176(%rcx),%xmm4
	movdqu	192(%rcx),%xmm5
	por	%xmm2,%xmm5
	movdqu	208(%rcx),%xmm2
	por	%xmm4,%xmm2
	movdqu	224(%rcx),%xmm4
	por	%xmm5,%xmm4
	por	%xmm6,%xmm4
	por	%xmm1,%xmm4
	movdqu	240(%rcx),%xmm1
	por	%xmm2,%xmm1
	por	%xmm3,%xmm1
	por	%xmm4,%xmm1
	pcmpeqb	%xmm0,%xmm1
	pmovmskb	%xmm1,%eax
	xorl	$65535,%eax
	movl	$16,%r9d
	movl	$256,%eax
	cmoveq	%r9,%rax
	xorl	%r9d,%r9d
	jmp	1f
2:
	decb	%r10b
3:
	incb	%r10b
4:
	movb	%r10b,(%r8,%r9)
5:
	incq	%r9
	cmpq	%rax,%r9
	je	6f
1:
	movzbl	%r9b,%r10d
	movzbl	(%rcx,%r10),%r11d
	cmpb	$20,%r11b
	jg	5b
	testq	%r9,%r9
	je	5b
	testb	%r11b,%r11b
	je	5b
	movq	$-255,%r10
	.p2align	4
1:
	cmpb	%r11b,256(%rdx,%r10)
	je	2b
	cmpb	%r11b,257(%rdx,%r10)
	je	3b
	cmpb	%r11b,258(%rdx,%r10)
	je	2f
	cmpb	%r11b,259(%rdx,%r10)
	je	5f
	cmpb	%r11b,260(%rdx,%r10)
	je	7f
	addq	$5,%r10
	jne	1b
	xorl	%r10d,%r10d
	jmp	4b
2:
	incb	%r10b
	jmp	3b
5:
	addb	$2,%r10b
	jmp	3b
7:
	addb	$3,%r10b
	jmp	3b
6:
	movaps	(%rsp),%xmm6
	addq	$24,%rsp
	retq
	.seh_endproc

	.def	rtpw_new_ids_from_retransmission;
	.scl	2;
	.type	32;
	.endef
	.section	.rdata,"dr"
	.p2align	4,0x0
1:
	.byte	0
	.byte	1
	.byte	2
	.byte	3
	.byte	4
	.byte	5
	.byte	6
	.byte	7
	.byte	8
	.byte	9
	.byte	10
	.byte	11
	.byte	12
	.byte	13
	.byte	14
	.byte	15
2:
	.byte	16
	.byte	17
	.byte	18
	.byte	19
	.byte	20
	.byte	21
	.byte	22
	.byte	23
	.byte	24
	.byte	25
	.byte	26
	.byte	27
	.byte	28
	.byte	29
	.byte	30
	.byte	31
3:
	.byte	32
	.byte	33
	.byte	34
	.byte	35
	.byte	36
	.byte	37
	.byte	38
	.byte	39
	.byte	40
	.byte	41
	.byte	42
	.byte	43
	.byte	44
	.byte	45
	.byte	46
	.byte	47
4:
	.byte	48
	.byte	49
	.byte	50
	.byte	51
	.byte	52
	.byte	53
	.byte	54
	.byte	55
	.byte	56
	.byte	57
	.byte	58
	.byte	59
	.byte	60
	.byte	61
	.byte	62
	.byte	63
5:
	.byte	64
	.byte	65
	.byte	66
	.byte	67
	.byte	68
	.byte	69
	.byte	70
	.byte	71
	.byte	72
	.byte	73
	.byte	74
	.byte	75
	.byte	76
	.byte	77
	.byte	78
	.byte	79
6:
	.byte	80
	.byte	81
	.byte	82
	.byte	83
	.byte	84
	.byte	85
	.byte	86
	.byte	87
	.byte	88
	.byte	89
	.byte	90
	.byte	91
	.byte	92
	.byte	93
	.byte	94
	.byte	95
7:
	.byte	96
	.byte	97
	.byte	98
	.byte	99
	.byte	100
	.byte	101
	.byte	102
	.byte	103
	.byte	104
	.byte	105
	.byte	106
	.byte	107
	.byte	108
	.byte	109
	.byte	110
	.byte	111
8:
	.byte	112
	.byte	113
	.byte	114
	.byte	115
	.byte	116
	.byte	117
	.byte	118
	.byte	119
	.byte	120
	.byte	121
	.byte	122
	.byte	123
	.byte	124
	.byte	125
	.byte	126
	.byte	127
9:
	.byte	128
	.byte	129
	.byte	130
	.byte	131
	.byte	132
	.byte	133
	.byte	134
	.byte	135
	.byte	136
	.byte	137
	.byte	138
	.byte	139
	.byte	140
	.byte	141
	.byte	142
	.byte	143
10:
	.byte	144
	.byte	145
	.byte	146
	.byte	147
	.byte	148
	.byte	149
	.byte	150
	.byte	151
	.byte	152
	.byte	153
	.byte	154
	.byte	155
	.byte	156
	.byte	157
	.byte	158
	.byte	159
11:
	.byte	160
	.byte	161
	.byte	162
	.byte	163
	.byte	164
	.byte	165
	.byte	166
	.byte	167
	.byte	168
	.byte	169
	.byte	170
	.byte	171
	.byte	172
	.byte	173
	.byte	174
	.byte	175
12:
	.byte	176
	.byte	177
	.byte	178
	.byte	179
	.byte	180
	.byte	181
	.byte	182
	.byte	183
	.byte	184
	.byte	185
	.byte	186
	.byte	187
	.byte	188
	.byte	189
	.byte	190
	.byte	191
13:
	.byte	192
	.byte	193
	.byte	194
	.byte	195
	.byte	196
	.byte	197
	.byte	198
	.byte	199
	.byte	200
	.byte	201
	.byte	202
	.byte	203
	.byte	204
	.byte	205
	.byte	206
	.byte	207
14:
	.byte	208
	.byte	209
	.byte	210
	.byte	211
	.byte	212
	.byte	213
	.byte	214
	.byte	215
	.byte	216
	.byte	217
	.byte	218
	.byte	219
	.byte	220
	.byte	221
	.byte	222
	.byte	223
15:
	.byte	224
	.byte	225
	.byte	226
	.byte	227
	.byte	228
	.byte	229
	.byte	230
	.byte	231
	.byte	232
	.byte	233
	.byte	234
	.byte	235
	.byte	236
	.byte	237
	.byte	238
	.byte	239
16:
	.byte	240
	.byte	241
	.byte	242
	.byte	243
	.byte	244
	.byte	245
	.byte	246
	.byte	247
	.byte	248
	.byte	249
	.byte	250
	.byte	251
	.byte	252
	.byte	253
	.byte	254
	.byte	255
17:
	.zero	16,11
18:
	.zero	16,10
19:
	.byte	11
	.byte	11
	.byte	11
	.byte	11
	.byte	11
	.byte	11
	.byte	11
	.byte	11
	.zero	1
	.zero	1
	.zero	1
	.zero	1
	.zero	1
	.zero	1
	.zero	1
	.zero	1
20:
	.byte	10
	.byte	10
	.byte	10
	.byte	10
	.byte	10
	.byte	10
	.byte	10
	.byte	10
	.zero	1
	.zero	1
	.zero	1
	.zero	1
	.zero	1
	.zero	1
	.zero	1
	.zero	1
	.section	.text$rtpw_new_ids_from_retransmission,"xr"
	.globl	rtpw_new_ids_from_retransmission
	.p2align	4
rtpw_new_ids_from_retransmission:
.seh_proc rtpw_new_ids_from_retransmission
	pushq	%rsi
	.seh_pushreg %rsi
	pushq	%rdi
	.seh_pushreg %rdi
	subq	$392,%rsp
	.seh_stackalloc 392
	movdqa	%xmm11,368(%rsp)
	.seh_savexmm %xmm11,368
	movdqa	%xmm10,352(%rsp)
	.seh_savexmm %xmm10,352
	movdqa	%xmm9,336(%rsp)
	.seh_savexmm %xmm9,336
	movdqa	%xmm8,320(%rsp)
	.seh_savexmm %xmm8,320
	movdqa	%xmm7,304(%rsp)
	.seh_savexmm %xmm7,304
	movdqa	%xmm6,288(%rsp)
	.seh_savexmm %xmm6,288
	.seh_endprologue
	movq	%rdx,%rsi
	movq	%rcx,%rdi
	movaps	1b(%rip),%xmm0
	movaps	%xmm0,32(%rsp)
	movaps	2b(%rip),%xmm0
	movaps	%xmm0,48(%rsp)
	movaps	3b(%rip),%xmm0
	movaps	%xmm0,64(%rsp)
	movaps	4b(%rip),%xmm0
	movaps	%xmm0,80(%rsp)
	movaps	5b(%rip),%xmm0
	movaps	%xmm0,96(%rsp)
	movaps	6b(%rip),%xmm0
	movaps	%xmm0,112(%rsp)
	movaps	7b(%rip),%xmm0
	movaps	%xmm0,128(%rsp)
	movaps	8b(%rip),%xmm0
	movaps	%xmm0,144(%rsp)
	movaps	9b(%rip),%xmm0
	movaps	%xmm0,160(%rsp)
	movaps	10b(%rip),%xmm0
	movaps	%xmm0,176(%rsp)
	movaps	11b(%rip),%xmm0
	movaps	%xmm0,192(%rsp)
	movaps	12b(%rip),%xmm0
	movaps	%xmm0,208(%rsp)
	movaps	13b(%rip),%xmm0
	movaps	%xmm0,224(%rsp)
	movaps	14b(%rip),%xmm0
	movaps	%xmm0,240(%rsp)
	movaps	15b(%rip),%xmm0
	movaps	%xmm0,256(%rsp)
	movaps	16b(%rip),%xmm0
	movaps	%xmm0,272(%rsp)
	movdqu	16(%rcx),%xmm0
	movdqu	32(%rcx),%xmm1
	movdqu	48(%rcx),%xmm2
	movdqu	64(%rcx),%xmm3
	por	%xmm1,%xmm3
	movdqu	80(%rcx),%xmm1
	por	%xmm2,%xmm1
	movdqu	96(%rcx),%xmm2
	movdqu	112(%rcx),%xmm4
	movdqu	128(%rcx),%xmm5
	por	%xmm2,%xmm5
	por	%xmm3,%xmm5
	movdqu	144(%rcx),%xmm2
	por	%xmm4,%xmm2
	por	%xmm1,%xmm2
	movdqu	160(%rcx),%xmm1
	movdqu	176(%rcx),%xmm3
	movdqu	192(%rcx),%xmm4
	por	%xmm1,%xmm4
	movdqu	208(%rcx),%xmm1
	por	%xmm3,%xmm1
	movdqu	224(%rcx),%xmm3
	por	%xmm4,%xmm3
	por	%xmm5,%xmm3
	por	%xmm0,%xmm3
	movdqu	240(%rcx),%xmm4
	por	%xmm1,%xmm4
	por	%xmm2,%xmm4
	por	%xmm3,%xmm4
	pxor	%xmm0,%xmm0
	pcmpeqb	%xmm0,%xmm4
	pmovmskb	%xmm4,%eax
	xorl	$65535,%eax
	movl	$15,%edx
	jne	1f
	movdqu	(%rdi),%xmm1
	pcmpeqb	%xmm0,%xmm1
	pmovmskb	%xmm1,%eax
	xorl	$65534,%eax
	orl	$1,%eax
	bsrq	%rax,%rdx
1:
	movq	%rdi,%rcx
	movb	$10,%r8b
	movb	$9,%r9b
	callq	rtp_ext.renamed_ids.lowest_beside.d4d397b1ff315637
	cmpb	$1,%al
	jne	1f
	movzbl	%dl,%eax
	movd	%eax,%xmm0
	punpcklbw	%xmm0,%xmm0
	pshuflw	$0,%xmm0,%xmm0
	pshufd	$68,%xmm0,%xmm1
	movdqu	1(%rdi),%xmm6
	movdqu	17(%rdi),%xmm7
	movdqu	33(%rsp),%xmm8
	movdqu	49(%rsp),%xmm9
	movdqu	65(%rsp),%xmm5
	movdqu	81(%rsp),%xmm4
	movdqa	17b(%rip),%xmm2
	movdqa	%xmm6,%xmm10
	pcmpeqb	%xmm2,%xmm10
	movdqa	%xmm7,%xmm11
	pcmpeqb	%xmm2,%xmm11
	movdqa	18b(%rip),%xmm3
	pcmpeqb	%xmm3,%xmm6
	pandn	%xmm8,%xmm6
	pcmpeqb	%xmm3,%xmm7
	pandn	%xmm9,%xmm7
	movdqa	%xmm1,%xmm8
	pand	%xmm10,%xmm8
	pandn	%xmm6,%xmm10
	por	%xmm8,%xmm10
	movdqa	%xmm1,%xmm6
	pand	%xmm11,%xmm6
	pandn	%xmm7,%xmm11
	por	%xmm6,%xmm11
	movdqu	%xmm10,33(%rsp)
	movdqu	%xmm11,49(%rsp)
	movdqu	33(%rdi),%xmm6
	movdqu	49(%rdi),%xmm7
	movdqa	%xmm6,%xmm8
	pcmpeqb	%xmm2,%xmm8
	movdqa	%xmm7,%xmm9
	pcmpeqb	%xmm2,%xmm9
	pcmpeqb	%xmm3,%xmm6
	pandn	%xmm5,%xmm6
	pcmpeqb	%xmm3,%xmm7
	pandn	%xmm4,%xmm7
	movdqa	%xmm1,%xmm4
	pand	%xmm8,%xmm4
	pandn	%xmm6,%xmm8
	por	%xmm4,%xmm8
	movdqa	%xmm1,%xmm4
	pand	%xmm9,%xmm4
	pandn	%xmm7,%xmm9
	por	%xmm4,%xmm9
	movdqu	%xmm8,65(%rsp)
	movdqu	%xmm9,81(%rsp)
	movdqu	65(%rdi),%xmm4
	movdqu	81(%rdi),%xmm5
	movdqu	97(%rsp),%xmm6
	movdqu	113(%rsp),%xmm7
	movdqa	%xmm4,%xmm8
	pcmpeqb	%xmm2,%xmm8
	movdqa	%xmm5,%xmm9
	pcmpeqb	%xmm2,%xmm9
	pcmpeqb	%xmm3,%xmm4
	pandn	%xmm6,%xmm4
	pcmpeqb	%xmm3,%xmm5
	pandn	%xmm7,%xmm5
	movdqa	%xmm1,%xmm6
	pand	%xmm8,%xmm6
	pandn	%xmm4,%xmm8
	por	%xmm6,%xmm8
	movdqa	%xmm1,%xmm4
	pand	%xmm9,%xmm4
	pandn	%xmm5,%xmm9
	por	%xmm4,%xmm9
	movdqu	%xmm8,97(%rsp)
	movdqu	%xmm9,113(%rsp)
	movdqu	97(%rdi),%xmm4
	movdqu	113(%rdi),%xmm5
	movdqu	129(%rsp),%xmm6
	movdqu	145(%rsp),%xmm7
	movdqa	%xmm4,%xmm8
	pcmpeqb	%xmm2,%xmm8
	movdqa	%xmm5,%xmm9
	pcmpeqb	%xmm2,%xmm9
	pcmpeqb	%xmm3,%xmm4
	pandn	%xmm6,%xmm4
	pcmpeqb	%xmm3,%xmm5
	pandn	%xmm7,%xmm5
	movdqa	%xmm1,%xmm6
	pand	%xmm8,%xmm6
	pandn	%xmm4,%xmm8
	por	%xmm6,%xmm8
	movdqa	%xmm1,%xmm4
	pand	%xmm9,%xmm4
	pandn	%xmm5,%xmm9
	por	%xmm4,%xmm9
	movdqu	%xmm8,129(%rsp)
	movdqu	%xmm9,145(%rsp)
	movdqu	129(%rdi),%xmm4
	movdqu	145(%rdi),%xmm5
	movdqu	161(%rsp),%xmm6
	movdqu	177(%rsp),%xmm7
	movdqa	%xmm4,%xmm8
	pcmpeqb	%xmm2,%xmm8
	movdqa	%xmm5,%xmm9
	pcmpeqb	%xmm2,%xmm9
	pcmpeqb	%xmm3,%xmm4
	pandn	%xmm6,%xmm4
	pcmpeqb	%xmm3,%xmm5
	pandn	%xmm7,%xmm5
	movdqa	%xmm1,%xmm6
	pand	%xmm8,%xmm6
	pandn	%xmm4,%xmm8
	por	%xmm6,%xmm8
	movdqa	%xmm1,%xmm4
	pand	%xmm9,%xmm4
	pandn	%xmm5,%xmm9
	por	%xmm4,%xmm9
	movdqu	%xmm8,161(%rsp)
	movdqu	%xmm9,177(%rsp)
	movdqu	161(%rdi),%xmm4
	movdqu	177(%rdi),%xmm5
	movdqu	193(%rsp),%xmm6
	movdqu	209(%rsp),%xmm7
	movdqa	%xmm4,%xmm8
	pcmpeqb	%xmm2,%xmm8
	movdqa	%xmm5,%xmm9
	pcmpeqb	%xmm2,%xmm9
	pcmpeqb	%xmm3,%xmm4
	pandn	%xmm6,%xmm4
	pcmpeqb	%xmm3,%xmm5
	pandn	%xmm7,%xmm5
	movdqa	%xmm1,%xmm6
	pand	%xmm8,%xmm6
	pandn	%xmm4,%xmm8
	por	%xmm6,%xmm8
	movdqa	%xmm1,%xmm4
	pand	%xmm9,%xmm4
	pandn	%xmm5,%xmm9
	por	%xmm4,%xmm9
	movdqu	%xmm8,193(%rsp)
	movdqu	%xmm9,209(%rsp)
	movdqu	193(%rdi),%xmm4
	movdqu	209(%rdi),%xmm5
	movdqu	225(%rsp),%xmm6
	movdqu	241(%rsp),%xmm7
	movdqa	%xmm4,%xmm8
	pcmpeqb	%xmm2,%xmm8
	pcmpeqb	%xmm5,%xmm2
	pcmpeqb	%xmm3,%xmm4
	pandn	%xmm6,%xmm4
	pcmpeqb	%xmm3,%xmm5
	pandn	%xmm7,%xmm5
	movdqa	%xmm1,%xmm3
	pand	%xmm8,%xmm3
	pandn	%xmm4,%xmm8
	por	%xmm3,%xmm8
	pand	%xmm2,%xmm1
	pandn	%xmm5,%xmm2
	por	%xmm1,%xmm2
	movdqu	%xmm8,225(%rsp)
	movdqu	%xmm2,241(%rsp)
	movq	225(%rdi),%xmm2
	movq	257(%rsp),%xmm3
	movdqa	19b(%rip),%xmm1
	movdqa	%xmm2,%xmm4
	pcmpeqb	%xmm1,%xmm4
	movdqa	20b(%rip),%xmm5
	pcmpeqb	%xmm5,%xmm2
	pandn	%xmm3,%xmm2
	movdqa	%xmm0,%xmm3
	pand	%xmm4,%xmm3
	pandn	%xmm2,%xmm4
	por	%xmm3,%xmm4
	movq	%xmm4,257(%rsp)
	movq	233(%rdi),%xmm2
	movq	265(%rsp),%xmm3
	movdqa	%xmm2,%xmm4
	pcmpeqb	%xmm1,%xmm4
	pcmpeqb	%xmm5,%xmm2
	pandn	%xmm3,%xmm2
	movdqa	%xmm0,%xmm3
	pand	%xmm4,%xmm3
	pandn	%xmm2,%xmm4
	por	%xmm3,%xmm4
	movq	%xmm4,265(%rsp)
	movq	241(%rdi),%xmm2
	movq	273(%rsp),%xmm3
	pcmpeqb	%xmm2,%xmm1
	pcmpeqb	%xmm5,%xmm2
	pandn	%xmm3,%xmm2
	pand	%xmm1,%xmm0
	pandn	%xmm2,%xmm1
	por	%xmm0,%xmm1
	movq	%xmm1,273(%rsp)
	movzbl	249(%rdi),%edx
	xorl	%ecx,%ecx
	cmpb	$10,%dl
	movzbl	281(%rsp),%r8d
	cmovel	%ecx,%r8d
	cmpb	$11,%dl
	cmovel	%eax,%r8d
	movb	%r8b,281(%rsp)
	movzbl	250(%rdi),%edx
	cmpb	$10,%dl
	movzbl	282(%rsp),%r8d
	cmovel	%ecx,%r8d
	cmpb	$11,%dl
	cmovel	%eax,%r8d
	movb	%r8b,282(%rsp)
	movzbl	251(%rdi),%edx
	cmpb	$10,%dl
	movzbl	283(%rsp),%r8d
	cmovel	%ecx,%r8d
	cmpb	$11,%dl
	cmovel	%eax,%r8d
	movb	%r8b,283(%rsp)
	movzbl	252(%rdi),%r8d
	movl	$0,%edx
	cmpb	$10,%r8b
	je	2f
	movl	284(%rsp),%edx
2:
	cmpb	$11,%r8b
	cmovel	%eax,%edx
	movb	%dl,284(%rsp)
	movzbl	253(%rdi),%edx
	cmpb	$10,%dl
	movzbl	285(%rsp),%r8d
	cmovel	%ecx,%r8d
	cmpb	$11,%dl
	cmovel	%eax,%r8d
	movb	%r8b,285(%rsp)
	movzbl	254(%rdi),%edx
	cmpb	$10,%dl
	movzbl	286(%rsp),%r8d
	cmovel	%ecx,%r8d
	cmpb	$11,%dl
	cmovel	%eax,%r8d
	movb	%r8b,286(%rsp)
	movzbl	255(%rdi),%edx
	cmpb	$10,%dl
	movzbl	287(%rsp),%r8d
	cmovel	%ecx,%r8d
	cmpb	$11,%dl
	cmovel	%eax,%r8d
	movb	%r8b,287(%rsp)
1:
	leaq	32(%rsp),%rdx
	movl	$256,%r8d
	movq	%rsi,%rcx
	callq	memcpy
	movaps	288(%rsp),%xmm6
	movaps	304(%rsp),%xmm7
	movaps	320(%rsp),%xmm8
	movaps	336(%rsp),%xmm9
	movaps	352(%rsp),%xmm10
	movaps	368(%rsp),%xmm11
	addq	$392,%rsp
	popq	%rdi
	popq	%rsi
	retq
	.seh_endproc

	.def	rtpw_new_ids_to_retransmission;
	.scl	2;
	.type	32;
	.endef
	.section	.rdata,"dr"
	.p2align	4,0x0
1:
	.byte	0
	.byte	1
	.byte	2
	.byte	3
	.byte	4
	.byte	5
	.byte	6
	.byte	7
	.byte	8
	.byte	9
	.byte	10
	.byte	11
	.byte	12
	.byte	13
	.byte	14
	.byte	15
2:
	.byte	16
	.byte	17
	.byte	18
	.byte	19
	.byte	20
	.byte	21
	.byte	22
	.byte	23
	.byte	24
	.byte	25
	.byte	26
	.byte	27
	.byte	28
	.byte	29
	.byte	30
	.byte	31
3:
	.byte	32
	.byte	33
	.byte	34
	.byte	35
	.byte	36
	.byte	37
	.byte	38
	.byte	39
	.byte	40
	.byte	41
	.byte	42
	.byte	43
	.byte	44
	.byte	45
	.byte	46
	.byte	47
4:
	.byte	48
	.byte	49
	.byte	50
	.byte	51
	.byte	52
	.byte	53
	.byte	54
	.byte	55
	.byte	56
	.byte	57
	.byte	58
	.byte	59
	.byte	60
	.byte	61
	.byte	62
	.byte	63
5:
	.byte	64
	.byte	65
	.byte	66
	.byte	67
	.byte	68
	.byte	69
	.byte	70
	.byte	71
	.byte	72
	.byte	73
	.byte	74
	.byte	75
	.byte	76
	.byte	77
	.byte	78
	.byte	79
6:
	.byte	80
	.byte	81
	.byte	82
	.byte	83
	.byte	84
	.byte	85
	.byte	86
	.byte	87
	.byte	88
	.byte	89
	.byte	90
	.byte	91
	.byte	92
	.byte	93
	.byte	94
	.byte	95
7:
	.byte	96
	.byte	97
	.byte	98
	.byte	99
	.byte	100
	.byte	101
	.byte	102
	.byte	103
	.byte	104
	.byte	105
	.byte	106
	.byte	107
	.byte	108
	.byte	109
	.byte	110
	.byte	111
8:
	.byte	112
	.byte	113
	.byte	114
	.byte	115
	.byte	116
	.byte	117
	.byte	118
	.byte	119
	.byte	120
	.byte	121
	.byte	122
	.byte	123
	.byte	124
	.byte	125
	.byte	126
	.byte	127
9:
	.byte	128
	.byte	129
	.byte	130
	.byte	131
	.byte	132
	.byte	133
	.byte	134
	.byte	135
	.byte	136
	.byte	137
	.byte	138
	.byte	139
	.byte	140
	.byte	141
	.byte	142
	.byte	143
10:
	.byte	144
	.byte	145
	.byte	146
	.byte	147
	.byte	148
	.byte	149
	.byte	150
	.byte	151
	.byte	152
	.byte	153
	.byte	154
	.byte	155
	.byte	156
	.byte	157
	.byte	158
	.byte	159
11:
	.byte	160
	.byte	161
	.byte	162
	.byte	163
	.byte	164
	.byte	165
	.byte	166
	.byte	167
	.byte	168
	.byte	169
	.byte	170
	.byte	171
	.byte	172
	.byte	173
	.byte	174
	.byte	175
12:
	.byte	176
	.byte	177
	.byte	178
	.byte	179
	.byte	180
	.byte	181
	.byte	182
	.byte	183
	.byte	184
	.byte	185
	.byte	186
	.byte	187
	.byte	188
	.byte	189
	.byte	190
	.byte	191
13:
	.byte	192
	.byte	193
	.byte	194
	.byte	195
	.byte	196
	.byte	197
	.byte	198
	.byte	199
	.byte	200
	.byte	201
	.byte	202
	.byte	203
	.byte	204
	.byte	205
	.byte	206
	.byte	207
14:
	.byte	208
	.byte	209
	.byte	210
	.byte	211
	.byte	212
	.byte	213
	.byte	214
	.byte	215
	.byte	216
	.byte	217
	.byte	218
	.byte	219
	.byte	220
	.byte	221
	.byte	222
	.byte	223
15:
	.byte	224
	.byte	225
	.byte	226
	.byte	227
	.byte	228
	.byte	229
	.byte	230
	.byte	231
	.byte	232
	.byte	233
	.byte	234
	.byte	235
	.byte	236
	.byte	237
	.byte	238
	.byte	239
16:
	.byte	240
	.byte	241
	.byte	242
	.byte	243
	.byte	244
	.byte	245
	.byte	246
	.byte	247
	.byte	248
	.byte	249
	.byte	250
	.byte	251
	.byte	252
	.byte	253
	.byte	254
	.byte	255
17:
	.zero	16,10
18:
	.zero	16,11
19:
	.byte	10
	.byte	10
	.byte	10
	.byte	10
	.byte	10
	.byte	10
	.byte	10
	.byte	10
	.zero	1
	.zero	1
	.zero	1
	.zero	1
	.zero	1
	.zero	1
	.zero	1
	.zero	1
20:
	.byte	11
	.byte	11
	.byte	11
	.byte	11
	.byte	11
	.byte	11
	.byte	11
	.byte	11
	.zero	1
	.zero	1
	.zero	1
	.zero	1
	.zero	1
	.zero	1
	.zero	1
	.zero	1
	.section	.text$rtpw_new_ids_to_retransmission,"xr"
	.globl	rtpw_new_ids_to_retransmission
	.p2align	4
rtpw_new_ids_to_retransmission:
.seh_proc rtpw_new_ids_to_retransmission
	pushq	%rsi
	.seh_pushreg %rsi
	pushq	%rdi
	.seh_pushreg %rdi
	subq	$392,%rsp
	.seh_stackalloc 392
	movdqa	%xmm11,368(%rsp)
	.seh_savexmm %xmm11,368
	movdqa	%xmm10,352(%rsp)
	.seh_savexmm %xmm10,352
	movdqa	%xmm9,336(%rsp)
	.seh_savexmm %xmm9,336
	movdqa	%xmm8,320(%rsp)
	.seh_savexmm %xmm8,320
	movdqa	%xmm7,304(%rsp)
	.seh_savexmm %xmm7,304
	movdqa	%xmm6,288(%rsp)
	.seh_savexmm %xmm6,288
	.seh_endprologue
	movq	%rdx,%rsi
	movq	%rcx,%rdi
	movaps	1b(%rip),%xmm0
	movaps	%xmm0,32(%rsp)
	movaps	2b(%rip),%xmm0
	movaps	%xmm0,48(%rsp)
	movaps	3b(%rip),%xmm0
	movaps	%xmm0,64(%rsp)
	movaps	4b(%rip),%xmm0
	movaps	%xmm0,80(%rsp)
	movaps	5b(%rip),%xmm0
	movaps	%xmm0,96(%rsp)
	movaps	6b(%rip),%xmm0
	movaps	%xmm0,112(%rsp)
	movaps	7b(%rip),%xmm0
	movaps	%xmm0,128(%rsp)
	movaps	8b(%rip),%xmm0
	movaps	%xmm0,144(%rsp)
	movaps	9b(%rip),%xmm0
	movaps	%xmm0,160(%rsp)
	movaps	10b(%rip),%xmm0
	movaps	%xmm0,176(%rsp)
	movaps	11b(%rip),%xmm0
	movaps	%xmm0,192(%rsp)
	movaps	12b(%rip),%xmm0
	movaps	%xmm0,208(%rsp)
	movaps	13b(%rip),%xmm0
	movaps	%xmm0,224(%rsp)
	movaps	14b(%rip),%xmm0
	movaps	%xmm0,240(%rsp)
	movaps	15b(%rip),%xmm0
	movaps	%xmm0,256(%rsp)
	movaps	16b(%rip),%xmm0
	movaps	%xmm0,272(%rsp)
	movdqu	16(%rcx),%xmm0
	movdqu	32(%rcx),%xmm1
	movdqu	48(%rcx),%xmm2
	movdqu	64(%rcx),%xmm3
	por	%xmm1,%xmm3
	movdqu	80(%rcx),%xmm1
	por	%xmm2,%xmm1
	movdqu	96(%rcx),%xmm2
	movdqu	112(%rcx),%xmm4
	movdqu	128(%rcx),%xmm5
	por	%xmm2,%xmm5
	por	%xmm3,%xmm5
	movdqu	144(%rcx),%xmm2
	por	%xmm4,%xmm2
	por	%xmm1,%xmm2
	movdqu	160(%rcx),%xmm1
	movdqu	176(%rcx),%xmm3
	movdqu	192(%rcx),%xmm4
	por	%xmm1,%xmm4
	movdqu	208(%rcx),%xmm1
	por	%xmm3,%xmm1
	movdqu	224(%rcx),%xmm3
	por	%xmm4,%xmm3
	por	%xmm5,%xmm3
	por	%xmm0,%xmm3
	movdqu	240(%rcx),%xmm4
	por	%xmm1,%xmm4
	por	%xmm2,%xmm4
	por	%xmm3,%xmm4
	pxor	%xmm0,%xmm0
	pcmpeqb	%xmm0,%xmm4
	pmovmskb	%xmm4,%eax
	xorl	$65535,%eax
	movl	$15,%edx
	jne	1f
	movdqu	(%rdi),%xmm1
	pcmpeqb	%xmm0,%xmm1
	pmovmskb	%xmm1,%eax
	xorl	$65534,%eax
	orl	$1,%eax
	bsrq	%rax,%rdx
1:
	movq	%rdi,%rcx
	movb	$9,%r8b
	movb	$10,%r9b
	callq	rtp_ext.renamed_ids.lowest_beside.d4d397b1ff315637
	cmpb	$1,%al
	jne	1f
	movzbl	%dl,%eax
	movd	%eax,%xmm0
	punpcklbw	%xmm0,%xmm0
	pshuflw	$0,%xmm0,%xmm0
	pshufd	$68,%xmm0,%xmm1
	movdqu	1(%rdi),%xmm6
	movdqu	17(%rdi),%xmm7
	movdqu	33(%rsp),%xmm8
	movdqu	49(%rsp),%xmm9
	movdqu	65(%rsp),%xmm5
	movdqu	81(%rsp),%xmm4
	movdqa	17b(%rip),%xmm2
	movdqa	%xmm6,%xmm10
	pcmpeqb	%xmm2,%xmm10
	movdqa	%xmm7,%xmm11
	pcmpeqb	%xmm2,%xmm11
	movdqa	18b(%rip),%xmm3
	pcmpeqb	%xmm3,%xmm6
	pandn	%xmm8,%xmm6
	pcmpeqb	%xmm3,%xmm7
	pandn	%xmm9,%xmm7
	movdqa	%xmm1,%xmm8
	pand	%xmm10,%xmm8
	pandn	%xmm6,%xmm10
	por	%xmm8,%xmm10
	movdqa	%xmm1,%xmm6
	pand	%xmm11,%xmm6
	pandn	%xmm7,%xmm11
	por	%xmm6,%xmm11
	movdqu	%xmm10,33(%rsp)
	movdqu	%xmm11,49(%rsp)
	movdqu	33(%rdi),%xmm6
	movdqu	49(%rdi),%xmm7
	movdqa	%xmm6,%xmm8
	pcmpeqb	%xmm2,%xmm8
	movdqa	%xmm7,%xmm9
	pcmpeqb	%xmm2,%xmm9
	pcmpeqb	%xmm3,%xmm6
	pandn	%xmm5,%xmm6
	pcmpeqb	%xmm3,%xmm7
	pandn	%xmm4,%xmm7
	movdqa	%xmm1,%xmm4
	pand	%xmm8,%xmm4
	pandn	%xmm6,%xmm8
	por	%xmm4,%xmm8
	movdqa	%xmm1,%xmm4
	pand	%xmm9,%xmm4
	pandn	%xmm7,%xmm9
	por	%xmm4,%xmm9
	movdqu	%xmm8,65(%rsp)
	movdqu	%xmm9,81(%rsp)
	movdqu	65(%rdi),%xmm4
	movdqu	81(%rdi),%xmm5
	movdqu	97(%rsp),%xmm6
	movdqu	113(%rsp),%xmm7
	movdqa	%xmm4,%xmm8
	pcmpeqb	%xmm2,%xmm8
	movdqa	%xmm5,%xmm9
	pcmpeqb	%xmm2,%xmm9
	pcmpeqb	%xmm3,%xmm4
	pandn	%xmm6,%xmm4
	pcmpeqb	%xmm3,%xmm5
	pandn	%xmm7,%xmm5
	movdqa	%xmm1,%xmm6
	pand	%xmm8,%xmm6
	pandn	%xmm4,%xmm8
	por	%xmm6,%xmm8
	movdqa	%xmm1,%xmm4
	pand	%xmm9,%xmm4
	pandn	%xmm5,%xmm9
	por	%xmm4,%xmm9
	movdqu	%xmm8,97(%rsp)
	movdqu	%xmm9,113(%rsp)
	movdqu	97(%rdi),%xmm4
	movdqu	113(%rdi),%xmm5
	movdqu	129(%rsp),%xmm6
	movdqu	145(%rsp),%xmm7
	movdqa	%xmm4,%xmm8
	pcmpeqb	%xmm2,%xmm8
	movdqa	%xmm5,%xmm9
	pcmpeqb	%xmm2,%xmm9
	pcmpeqb	%xmm3,%xmm4
	pandn	%xmm6,%xmm4
	pcmpeqb	%xmm3,%xmm5
	pandn	%xmm7,%xmm5
	movdqa	%xmm1,%xmm6
	pand	%xmm8,%xmm6
	pandn	%xmm4,%xmm8
	por	%xmm6,%xmm8
	movdqa	%xmm1,%xmm4
	pand	%xmm9,%xmm4
	pandn	%xmm5,%xmm9
	por	%xmm4,%xmm9
	movdqu	%xmm8,129(%rsp)
	movdqu	%xmm9,145(%rsp)
	movdqu	129(%rdi),%xmm4
	movdqu	145(%rdi),%xmm5
	movdqu	161(%rsp),%xmm6
	movdqu	177(%rsp),%xmm7
	movdqa	%xmm4,%xmm8
	pcmpeqb	%xmm2,%xmm8
	movdqa	%xmm5,%xmm9
	pcmpeqb	%xmm2,%xmm9
	pcmpeqb	%xmm3,%xmm4
	pandn	%xmm6,%xmm4
	pcmpeqb	%xmm3,%xmm5
	pandn	%xmm7,%xmm5
	movdqa	%xmm1,%xmm6
	pand	%xmm8,%xmm6
	pandn	%xmm4,%xmm8
	por	%xmm6,%xmm8
	movdqa	%xmm1,%xmm4
	pand	%xmm9,%xmm4
	pandn	%xmm5,%xmm9
	por	%xmm4,%xmm9
	movdqu	%xmm8,161(%rsp)
	movdqu	%xmm9,177(%rsp)
	movdqu	161(%rdi),%xmm4
	movdqu	177(%rdi),%xmm5
	movdqu	193(%rsp),%xmm6
	movdqu	209(%rsp),%xmm7
	movdqa	%xmm4,%xmm8
	pcmpeqb	%xmm2,%xmm8
	movdqa	%xmm5,%xmm9
	pcmpeqb	%xmm2,%xmm9
	pcmpeqb	%xmm3,%xmm4
	pandn	%xmm6,%xmm4
	pcmpeqb	%xmm3,%xmm5
	pandn	%xmm7,%xmm5
	movdqa	%xmm1,%xmm6
	pand	%xmm8,%xmm6
	pandn	%xmm4,%xmm8
	por	%xmm6,%xmm8
	movdqa	%xmm1,%xmm4
	pand	%xmm9,%xmm4
	pandn	%xmm5,%xmm9
	por	%xmm4,%xmm9
	movdqu	%xmm8,193(%rsp)
	movdqu	%xmm9,209(%rsp)
	movdqu	193(%rdi),%xmm4
	movdqu	209(%rdi),%xmm5
	movdqu	225(%rsp),%xmm6
	movdqu	241(%rsp),%xmm7
	movdqa	%xmm4,%xmm8
	pcmpeqb	%xmm2,%xmm8
	pcmpeqb	%xmm5,%xmm2
	pcmpeqb	%xmm3,%xmm4
	pandn	%xmm6,%xmm4
	pcmpeqb	%xmm3,%xmm5
	pandn	%xmm7,%xmm5
	movdqa	%xmm1,%xmm3
	pand	%xmm8,%xmm3
	pandn	%xmm4,%xmm8
	por	%xmm3,%xmm8
	pand	%xmm2,%xmm1
	pandn	%xmm5,%xmm2
	por	%xmm1,%xmm2
	movdqu	%xmm8,225(%rsp)
	movdqu	%xmm2,241(%rsp)
	movq	225(%rdi),%xmm2
	movq	257(%rsp),%xmm3
	movdqa	19b(%rip),%xmm1
	movdqa	%xmm2,%xmm4
	pcmpeqb	%xmm1,%xmm4
	movdqa	20b(%rip),%xmm5
	pcmpeqb	%xmm5,%xmm2
	pandn	%xmm3,%xmm2
	movdqa	%xmm0,%xmm3
	pand	%xmm4,%xmm3
	pandn	%xmm2,%xmm4
	por	%xmm3,%xmm4
	movq	%xmm4,257(%rsp)
	movq	233(%rdi),%xmm2
	movq	265(%rsp),%xmm3
	movdqa	%xmm2,%xmm4
	pcmpeqb	%xmm1,%xmm4
	pcmpeqb	%xmm5,%xmm2
	pandn	%xmm3,%xmm2
	movdqa	%xmm0,%xmm3
	pand	%xmm4,%xmm3
	pandn	%xmm2,%xmm4
	por	%xmm3,%xmm4
	movq	%xmm4,265(%rsp)
	movq	241(%rdi),%xmm2
	movq	273(%rsp),%xmm3
	pcmpeqb	%xmm2,%xmm1
	pcmpeqb	%xmm5,%xmm2
	pandn	%xmm3,%xmm2
	pand	%xmm1,%xmm0
	pandn	%xmm2,%xmm1
	por	%xmm0,%xmm1
	movq	%xmm1,273(%rsp)
	movzbl	249(%rdi),%edx
	xorl	%ecx,%ecx
	cmpb	$11,%dl
	movzbl	281(%rsp),%r8d
	cmovel	%ecx,%r8d
	cmpb	$10,%dl
	cmovel	%eax,%r8d
	movb	%r8b,281(%rsp)
	movzbl	250(%rdi),%edx
	cmpb	$11,%dl
	movzbl	282(%rsp),%r8d
	cmovel	%ecx,%r8d
	cmpb	$10,%dl
	cmovel	%eax,%r8d
	movb	%r8b,282(%rsp)
	movzbl	251(%rdi),%edx
	cmpb	$11,%dl
	movzbl	283(%rsp),%r8d
	cmovel	%ecx,%r8d
	cmpb	$10,%dl
	cmovel	%eax,%r8d
	movb	%r8b,283(%rsp)
	movzbl	252(%rdi),%r8d
	movl	$0,%edx
	cmpb	$11,%r8b
	je	2f
	movl	284(%rsp),%edx
2:
	cmpb	$10,%r8b
	cmovel	%eax,%edx
	movb	%dl,284(%rsp)
	movzbl	253(%rdi),%edx
	cmpb	$11,%dl
	movzbl	285(%rsp),%r8d
	cmovel	%ecx,%r8d
	cmpb	$10,%dl
	cmovel	%eax,%r8d
	movb	%r8b,285(%rsp)
	movzbl	254(%rdi),%edx
	cmpb	$11,%dl
	movzbl	286(%rsp),%r8d
	cmovel	%ecx,%r8d
	cmpb	$10,%dl
	cmovel	%eax,%r8d
	movb	%r8b,286(%rsp)
	movzbl	255(%rdi),%edx
	cmpb	$11,%dl
	movzbl	287(%rsp),%r8d
	cmovel	%ecx,%r8d
	cmpb	$10,%dl
	cmovel	%eax,%r8d
	movb	%r8b,287(%rsp)
1:
	leaq	32(%rsp),%rdx
	movl	$256,%r8d
	movq	%rsi,%rcx
	callq	memcpy
	movaps	288(%rsp),%xmm6
	movaps	304(%rsp),%xmm7
	movaps	320(%rsp),%xmm8
	movaps	336(%rsp),%xmm9
	movaps	352(%rsp),%xmm10
	movaps	368(%rsp),%xmm11
	addq	$392,%rsp
	popq	%rdi
	popq	%rsi
	retq
	.seh_endproc

	.def	rtpw_next_element;
	.scl	2;
	.type	32;
	.endef
	.section	.text$rtpw_next_element,"xr"
	.globl	rtpw_next_element
	.p2align	4
rtpw_next_element:
.seh_proc rtpw_next_element
	pushq	%rsi
	.seh_pushreg %rsi
	pushq	%rdi
	.seh_pushreg %rdi
	subq	$40,%rsp
	.seh_stackalloc 40
	.seh_endprologue
	xorl	%r10d,%r10d
	testq	%rcx,%rcx
	sete	%r11b
	movl	$9,%eax
	cmpb	$1,%r8b
	je	1f
	movzbl	%r8b,%r8d
	cmpl	$2,%r8d
	jne	2f
	xorl	%esi,%esi
	cmpq	%r9,%rdx
	jae	3f
2:
	addq	$40,%rsp
	popq	%rdi
	popq	%rsi
	retq
1:
	movb	$1,%sil
	cmpq	%r9,%rdx
	jb	2b
3:
	movq	%rdx,%r8
	movl	$11,%eax
	subq	%r9,%r8
	je	2b
	movb	%r11b,%r10b
	shll	$12,%r10d
	addq	%r10,%rcx
	addq	%r9,%rcx
	cmpb	$0,(%rcx)
	je	1f
	testb	%sil,%sil
	je	3f
4:
	movzbl	(%rcx),%ecx
	cmpq	$239,%rcx
	ja	2b
	movl	%ecx,%r9d
	andl	$15,%r9d
	addq	$2,%r9
	cmpq	%r9,%r8
	jb	2b
	shrb	$4,%cl
	leaq	-1(%r9),%r10
	jmp	5f
1:
	cmpq	$1,%r8
	je	2b
	cmpq	$2,%r8
	jne	1f
	cmpb	$0,1(%rcx)
	je	2b
	jmp	6f
1:
	cmpq	$3,%r8
	ja	6f
	cmpb	$0,1(%rcx)
	jne	6f
	cmpb	$0,2(%rcx)
	je	2b
6:
	movq	%rdx,%rdi
	decq	%r8
	incq	%rcx
	movq	%r8,%rdx
	callq	rtp_ext.elements.skip_zeros
	testq	%rdx,%rdx
	je	1f
	movq	%rax,%rcx
	movq	%rdx,%r8
	movq	%rdi,%rdx
	movl	$11,%eax
	testb	%sil,%sil
	jne	4b
3:
	cmpq	$2,%r8
	jb	2b
	movzbl	1(%rcx),%r10d
	leaq	2(%r10),%r9
	cmpq	%r9,%r8
	jb	2b
	movzbl	(%rcx),%ecx
5:
	movq	96(%rsp),%rax
	subq	%r8,%r9
	addq	%rdx,%r9
	movq	%r9,%rdx
	subq	%r10,%rdx
	movq	%rdx,(%rax)
	movq	%r10,8(%rax)
	movq	%r9,16(%rax)
	movb	%cl,24(%rax)
	movl	$0,25(%rax)
	movl	$0,28(%rax)
	xorl	%eax,%eax
	addq	$40,%rsp
	popq	%rdi
	popq	%rsi
	retq
1:
	movl	$11,%eax
	addq	$40,%rsp
	popq	%rdi
	popq	%rsi
	retq
	.seh_endproc

	.def	rtpw_next_elements;
	.scl	2;
	.type	32;
	.endef
	.section	.text$rtpw_next_elements,"xr"
	.globl	rtpw_next_elements
	.p2align	4
rtpw_next_elements:
.seh_proc rtpw_next_elements
	pushq	%r15
	.seh_pushreg %r15
	pushq	%r14
	.seh_pushreg %r14
	pushq	%rsi
	.seh_pushreg %rsi
	pushq	%rdi
	.seh_pushreg %rdi
	pushq	%rbx
	.seh_pushreg %rbx
	subq	$32,%rsp
	.seh_stackalloc 32
	.seh_endprologue
	movq	120(%rsp),%rsi
	movq	112(%rsp),%rax
	xorl	%edi,%edi
	testq	%rcx,%rcx
	sete	%dil
	shll	$12,%edi
	addq	%rcx,%rdi
	xorl	%ecx,%ecx
	testq	%rax,%rax
	sete	%cl
	shll	$12,%ecx
	cmpb	$2,%r8b
	je	1f
	movzbl	%r8b,%r8d
	cmpl	$1,%r8d
	jne	2f
	cmpq	%rdx,%r9
	seta	%r8b
	testq	%rsi,%rsi
	sete	%r10b
	orb	%r8b,%r10b
	jne	2f
	leaq	(%rcx,%rax),%rbx
	addq	$24,%rbx
	xorl	%eax,%eax
3:
	movq	%rdx,%r8
	subq	%r9,%r8
	je	4f
	movzbl	(%rdi,%r9),%ecx
	testb	%cl,%cl
	jne	5f
	cmpq	$2,%r8
	je	6f
	cmpq	$1,%r8
	je	4f
	cmpq	$3,%r8
	ja	7f
	cmpb	$0,1(%rdi,%r9)
	jne	7f
	cmpb	$0,2(%rdi,%r9)
	jne	7f
	jmp	4f
6:
	cmpb	$0,1(%rdi,%r9)
	je	4f
7:
	movq	%rdx,%r15
	movq	%rax,%r14
	decq	%r8
	leaq	(%rdi,%r9),%rcx
	incq	%rcx
	movq	%r8,%rdx
	callq	rtp_ext.elements.skip_zeros
	testq	%rdx,%rdx
	je	6f
	movq	%rdx,%r8
	movzbl	(%rax),%ecx
	movq	%r14,%rax
	movq	%r15,%rdx
5:
	cmpb	$-17,%cl
	ja	4f
	movl	%ecx,%r9d
	andb	$15,%r9b
	addb	$2,%r9b
	movzbl	%r9b,%r10d
	movq	%r10,%r9
	subq	%r8,%r9
	ja	4f
	shrb	$4,%cl
	decq	%r10
	addq	%rdx,%r9
	movq	%r9,%r8
	subq	%r10,%r8
	movq	%r8,-24(%rbx)
	movq	%r10,-16(%rbx)
	movq	%r9,-8(%rbx)
	movb	%cl,(%rbx)
	incq	%rax
	addq	$32,%rbx
	cmpq	%rax,%rsi
	jne	3b
	jmp	3f
1:
	cmpq	%rdx,%r9
	seta	%r8b
	testq	%rsi,%rsi
	sete	%r10b
	orb	%r8b,%r10b
	je	1f
2:
	xorl	%eax,%eax
4:
	addq	$32,%rsp
	popq	%rbx
	popq	%rdi
	popq	%rsi
	popq	%r14
	popq	%r15
	retq
1:
	leaq	(%rcx,%rax),%rbx
	addq	$24,%rbx
	xorl	%eax,%eax
1:
	movq	%rdx,%r8
	subq	%r9,%r8
	je	4b
	addq	%rdi,%r9
	cmpb	$0,(%r9)
	jne	2f
	cmpq	$2,%r8
	je	5f
	cmpq	$1,%r8
	je	4b
	cmpq	$3,%r8
	ja	7f
	cmpb	$0,1(%r9)
	jne	7f
	cmpb	$0,2(%r9)
	jne	7f
	jmp	4b
5:
	cmpb	$0,1(%r9)
	je	4b
7:
	movq	%rdx,%r15
	movq	%rax,%r14
	decq	%r8
	incq	%r9
	movq	%r9,%rcx
	movq	%r8,%rdx
	callq	rtp_ext.elements.skip_zeros
	testq	%rdx,%rdx
	je	6f
	movq	%rax,%r9
	movq	%rdx,%r8
	movq	%r14,%rax
	movq	%r15,%rdx
2:
	cmpq	$2,%r8
	jb	4b
	movzbl	1(%r9),%r10d
	leaq	2(%r10),%rcx
	subq	%r8,%rcx
	ja	4b
	movzbl	(%r9),%r8d
	addq	%rdx,%rcx
	movq	%rcx,%r9
	subq	%r10,%r9
	movq	%r9,-24(%rbx)
	movq	%r10,-16(%rbx)
	movq	%rcx,-8(%rbx)
	movb	%r8b,(%rbx)
	incq	%rax
	addq	$32,%rbx
	movq	%rcx,%r9
	cmpq	%rax,%rsi
	jne	1b
3:
	movq	%rsi,%rax
	jmp	4b
6:
	movq	%r14,%rax
	jmp	4b
	.seh_endproc

	.def	rtpw_pad;
	.scl	2;
	.type	32;
	.endef
	.section	.text$rtpw_pad,"xr"
	.globl	rtpw_pad
	.p2align	4
rtpw_pad:
.seh_proc rtpw_pad
	pushq	%r15
	.seh_pushreg %r15
	pushq	%r14
	.seh_pushreg %r14
	pushq	%r12
	.seh_pushreg %r12
	pushq	%rsi
	.seh_pushreg %rsi
	pushq	%rdi
	.seh_pushreg %rdi
	pushq	%rbx
	.seh_pushreg %rbx
	subq	$40,%rsp
	.seh_stackalloc 40
	.seh_endprologue
	movq	128(%rsp),%rsi
	xorl	%r10d,%r10d
	testq	%rcx,%rcx
	sete	%r11b
	testq	%rsi,%rsi
	je	1f
	xorl	%ebx,%ebx
	testb	%r9b,%r9b
	je	2f
	movl	$240,%ebx
	cmpq	$240,%rsi
	ja	3f
	movzbl	%r9b,%edi
	movzbl	%r9b,%eax
	divb	%sil
	movzbl	%ah,%eax
	subq	%rax,%rsi
	xorl	%r9d,%r9d
	testb	%al,%al
	cmovneq	%rsi,%r9
	addq	%rdi,%r9
	cmpq	$240,%r9
	cmovbq	%r9,%rbx
3:
	movq	%rbx,%rax
	addq	%r8,%rax
	setb	%r9b
	cmpq	%rdx,%rax
	seta	%al
	orb	%r9b,%al
	movl	$8,%eax
	jne	3f
	movb	%r11b,%r10b
	shll	$12,%r10d
	addq	%r10,%rcx
	orb	$32,(%rcx)
	movq	%rbx,%r14
	decq	%r14
	je	4f
	leaq	(%rcx,%r8),%rsi
	movq	%rbx,%rdi
	addq	$-2,%rdi
	je	5f
	movq	%rcx,%r15
	movq	%rsi,%rcx
	xorl	%edx,%edx
	movq	%r8,%r12
	movq	%rdi,%r8
	callq	memset
	movq	%r15,%rcx
	movq	%r12,%r8
5:
	movb	$0,(%rsi,%rdi)
4:
	addq	%r14,%rcx
	movb	%bl,(%r8,%rcx)
2:
	movq	136(%rsp),%rax
	movq	%rbx,(%rax)
	xorl	%eax,%eax
	jmp	3f
1:
	movl	$9,%eax
3:
	addq	$40,%rsp
	popq	%rbx
	popq	%rdi
	popq	%rsi
	popq	%r12
	popq	%r14
	popq	%r15
	retq
	.seh_endproc

	.def	rtpw_read_dependency_descriptor;
	.scl	2;
	.type	32;
	.endef
	.section	.text$rtpw_read_dependency_descriptor,"xr"
	.globl	rtpw_read_dependency_descriptor
	.p2align	4
rtpw_read_dependency_descriptor:
	movl	$9,%eax
	cmpq	$3,%rdx
	jb	1f
	xorl	%eax,%eax
	testq	%rcx,%rcx
	sete	%al
	shll	$12,%eax
	movzbl	(%rcx,%rax),%edx
	movzwl	1(%rcx,%rax),%eax
	movl	%edx,%ecx
	andb	$63,%cl
	rolw	$8,%ax
	movl	%edx,%r9d
	shrb	$7,%r9b
	shrb	$6,%dl
	andb	$1,%dl
	movw	%ax,(%r8)
	movb	%r9b,2(%r8)
	movb	%dl,3(%r8)
	movb	%cl,4(%r8)
	movb	$0,5(%r8)
	xorl	%eax,%eax
1:
	retq

	.def	rtpw_read_orientation;
	.scl	2;
	.type	32;
	.endef
	.section	.text$rtpw_read_orientation,"xr"
	.globl	rtpw_read_orientation
	.p2align	4
rtpw_read_orientation:
	movl	$9,%eax
	cmpq	$1,%rdx
	jne	1f
	xorl	%eax,%eax
	testq	%rcx,%rcx
	sete	%al
	shll	$12,%eax
	movzbl	(%rcx,%rax),%eax
	movl	%eax,%edx
	movl	%eax,%ecx
	shll	$4,%ecx
	movabsq	$25333521015767040,%r9
	shrq	%cl,%r9
	shrb	$3,%dl
	andb	$1,%dl
	shrb	$2,%al
	andb	$1,%al
	movw	%r9w,(%r8)
	movb	%dl,2(%r8)
	movb	%al,3(%r8)
	xorl	%eax,%eax
1:
	retq

	.def	rtpw_read_original;
	.scl	2;
	.type	32;
	.endef
	.section	.text$rtpw_read_original,"xr"
	.globl	rtpw_read_original
	.p2align	4
rtpw_read_original:
	movl	$8,%eax
	cmpq	$2,%rdx
	jb	1f
	xorl	%eax,%eax
	testq	%rcx,%rcx
	sete	%al
	shll	$12,%eax
	movzwl	(%rcx,%rax),%eax
	rolw	$8,%ax
	movw	%ax,(%r8)
	xorl	%eax,%eax
1:
	retq

	.def	rtpw_read_transport_number;
	.scl	2;
	.type	32;
	.endef
	.section	.text$rtpw_read_transport_number,"xr"
	.globl	rtpw_read_transport_number
	.p2align	4
rtpw_read_transport_number:
	xorl	%r9d,%r9d
	testq	%rcx,%rcx
	sete	%r10b
	movl	$9,%eax
	cmpq	$2,%rdx
	jb	1f
	movb	%r10b,%r9b
	shll	$12,%r9d
	cmpq	$4,%rdx
	je	2f
	cmpq	$2,%rdx
	jne	1f
	movzwl	(%rcx,%r9),%eax
	rolw	$8,%ax
	xorl	%ecx,%ecx
	xorl	%r9d,%r9d
	xorl	%edx,%edx
	jmp	3f
2:
	movzwl	2(%rcx,%r9),%edx
	rolw	$8,%dx
	movzwl	(%rcx,%r9),%eax
	movzwl	%dx,%ecx
	rolw	$8,%ax
	movl	%ecx,%edx
	andl	$32767,%edx
	shrl	$15,%ecx
	movb	$1,%r9b
3:
	movw	%ax,(%r8)
	movw	%dx,2(%r8)
	movb	%r9b,4(%r8)
	movb	%cl,5(%r8)
	xorl	%eax,%eax
1:
	retq

	.def	rtpw_receiver_accepts;
	.scl	2;
	.type	32;
	.endef
	.section	.text$rtpw_receiver_accepts,"xr"
	.globl	rtpw_receiver_accepts
	.p2align	4
rtpw_receiver_accepts:
	movb	$1,%al
	cmpb	$0,24(%rcx)
	je	1f
	movq	%rcx,%r8
	movq	(%rcx),%rcx
	subq	%rdx,%rcx
	jb	1f
	cmpq	$127,%rcx
	ja	2f
	movq	8(%r8),%rax
	orq	$1,%rax
	movl	$1,%edx
	xorl	%r9d,%r9d
	shldq	%cl,%rdx,%r9
	shlq	%cl,%rdx
	xorl	%r10d,%r10d
	testb	$64,%cl
	cmovneq	%rdx,%r9
	cmovneq	%r10,%rdx
	andq	16(%r8),%r9
	andq	%rax,%rdx
	orq	%r9,%rdx
	sete	%al
1:
	retq
2:
	xorl	%eax,%eax
	retq

	.def	rtpw_receiver_number_of;
	.scl	2;
	.type	32;
	.endef
	.section	.text$rtpw_receiver_number_of,"xr"
	.globl	rtpw_receiver_number_of
	.p2align	4
rtpw_receiver_number_of:
	cmpb	$0,24(%rcx)
	movq	(%rcx),%rcx
	je	1f
	subl	%ecx,%edx
	movzwl	%dx,%r8d
	leaq	(%r8,%rcx),%rax
	testw	%r8w,%r8w
	js	2f
	retq
1:
	andq	$-65536,%rcx
	movzwl	%dx,%eax
	orq	%rcx,%rax
	retq
2:
	xorl	%r8d,%r8d
	negw	%dx
	seto	%r8b
	shll	$16,%r8d
	addq	$-65536,%r8
	testw	%cx,%cx
	movq	$-65536,%rcx
	cmovnsq	%r8,%rcx
	addq	%rcx,%rax
	retq

	.def	rtpw_receiver_standing_of;
	.scl	2;
	.type	32;
	.endef
	.section	.text$rtpw_receiver_standing_of,"xr"
	.globl	rtpw_receiver_standing_of
	.p2align	4
rtpw_receiver_standing_of:
.seh_proc rtpw_receiver_standing_of
	pushq	%rsi
	.seh_pushreg %rsi
	.seh_endprologue
	cmpb	$0,24(%rcx)
	je	1f
	movq	%rcx,%rax
	movq	(%rcx),%r8
	movq	%r8,%rcx
	subq	%rdx,%rcx
	jae	2f
1:
	xorl	%eax,%eax
1:
	popq	%rsi
	retq
2:
	cmpq	$127,%rcx
	ja	2f
	movl	$1,%r9d
	xorl	%r10d,%r10d
	movq	%rax,%r11
	shldq	%cl,%r9,%r10
	movq	8(%rax),%rsi
	orq	$1,%rsi
	xorl	%eax,%eax
	shlq	%cl,%r9
	testb	$64,%cl
	cmovneq	%r9,%r10
	cmovneq	%rax,%r9
	andq	16(%r11),%r10
	andq	%rsi,%r9
	orq	%r10,%r9
	je	1b
2:
	xorl	%eax,%eax
	subq	%rdx,%r8
	cmovaeq	%r8,%rax
	cmpq	$128,%rax
	movb	$2,%al
	sbbb	$0,%al
	popq	%rsi
	retq
	.seh_endproc

	.def	rtpw_reception_record;
	.scl	2;
	.type	32;
	.endef
	.section	.text$rtpw_reception_record,"xr"
	.globl	rtpw_reception_record
	.p2align	4
rtpw_reception_record:
	subl	%r8d,%r9d
	movq	16(%rcx),%rax
	testq	%rax,%rax
	je	1f
	movq	8(%rcx),%r8
	movq	40(%rcx),%r10
	cmpq	%r8,%rdx
	cmovaq	%rdx,%r8
	movq	%r8,8(%rcx)
	movl	%r9d,%edx
	subl	48(%rcx),%edx
	movl	%edx,%r8d
	negl	%r8d
	cmovsl	%edx,%r8d
	movq	%r10,%rdx
	addq	$8,%rdx
	movq	$-1,%r11
	cmovaeq	%rdx,%r11
	shrq	$4,%r11
	subq	%r11,%r10
	addq	%r10,%r8
	movq	%r8,40(%rcx)
	jmp	2f
1:
	movq	%rdx,(%rcx)
	movq	%rdx,8(%rcx)
2:
	movl	%r9d,48(%rcx)
	incq	%rax
	movq	$-1,%rdx
	cmovneq	%rax,%rdx
	movq	%rdx,16(%rcx)
	retq

	.def	rtpw_reception_report;
	.scl	2;
	.type	32;
	.endef
	.section	.text$rtpw_reception_report,"xr"
	.globl	rtpw_reception_report
	.p2align	4
rtpw_reception_report:
.seh_proc rtpw_reception_report
	pushq	%r15
	.seh_pushreg %r15
	pushq	%r14
	.seh_pushreg %r14
	pushq	%r13
	.seh_pushreg %r13
	pushq	%r12
	.seh_pushreg %r12
	pushq	%rsi
	.seh_pushreg %rsi
	pushq	%rdi
	.seh_pushreg %rdi
	pushq	%rbx
	.seh_pushreg %rbx
	.seh_endprologue
	movq	16(%rcx),%r9
	movl	$11,%eax
	movq	%r9,%r8
	subq	24(%rcx),%r8
	je	1f
	movq	(%rcx),%rsi
	movq	8(%rcx),%r10
	movq	%r10,%rax
	subq	%rsi,%rax
	incq	%rax
	movq	$-1,%r11
	cmovneq	%rax,%r11
	movq	%r11,%rdi
	subq	32(%rcx),%rdi
	movq	%rdi,%rbx
	subq	%r8,%rbx
	jbe	2f
	movq	%rdx,%r14
	movq	%rbx,%r15
	shrq	$56,%r15
	shlq	$8,%rbx
	movw	$256,%r12w
	xorl	%r13d,%r13d
	.p2align	4
3:
	leal	(%r12,%r13),%eax
	movzwl	%ax,%r8d
	shrl	%r8d
	movq	%r8,%rax
	mulq	%rdi
	cmpq	%rax,%rbx
	movq	%r15,%rax
	sbbq	%rdx,%rax
	cmovbl	%r8d,%r12d
	cmovbl	%r13d,%r8d
	movl	%r12d,%eax
	subl	%r8d,%eax
	movl	%r8d,%r13d
	cmpw	$1,%ax
	ja	3b
	movq	%r14,%rdx
	movq	%r9,%rdi
	subq	%r11,%rdi
	ja	3f
4:
	movq	%r11,%rdi
	subq	%r9,%rdi
	cmpq	$8388607,%rdi
	movl	$8388607,%eax
	cmovbq	%rdi,%rax
	jmp	5f
2:
	xorl	%r8d,%r8d
	movq	%r9,%rdi
	subq	%r11,%rdi
	jbe	4b
3:
	cmpq	$8388608,%rdi
	movl	$8388608,%eax
	cmovbq	%rdi,%rax
	negl	%eax
5:
	andl	$-65536,%esi
	subl	%esi,%r10d
	movq	40(%rcx),%rsi
	shrq	$4,%rsi
	movl	$4294967295,%edi
	cmpq	%rdi,%rsi
	cmovaeq	%rdi,%rsi
	movq	%r9,24(%rcx)
	movq	%r11,32(%rcx)
	movb	%r8b,(%rdx)
	movw	$0,1(%rdx)
	movb	$0,3(%rdx)
	movl	%eax,4(%rdx)
	movl	%r10d,8(%rdx)
	movl	%esi,12(%rdx)
	xorl	%eax,%eax
1:
	popq	%rbx
	popq	%rdi
	popq	%rsi
	popq	%r12
	popq	%r13
	popq	%r14
	popq	%r15
	retq
	.seh_endproc

	.def	rtpw_values_read;
	.scl	2;
	.type	32;
	.endef
	.section	.text$rtpw_values_read,"xr"
	.globl	rtpw_values_read
	.p2align	4
rtpw_values_read:
.seh_proc rtpw_values_read
	subq	$40,%rsp
	.seh_stackalloc 40
	.seh_endprologue
	movq	%rdx,%r10
	movq	%rcx,%rdx
	xorl	%ecx,%ecx
	testq	%rdx,%rdx
	sete	%r11b
	xorl	%eax,%eax
	cmpb	$1,%r8b
	je	1f
	movzbl	%r8b,%r8d
	movl	$9,%eax
	cmpl	$2,%r8d
	jne	2f
	movb	$1,%al
1:
	movq	80(%rsp),%r8
	movb	%r11b,%cl
	shll	$12,%ecx
	addq	%rcx,%rdx
	xorps	%xmm0,%xmm0
	movups	%xmm0,112(%r8)
	movups	%xmm0,96(%r8)
	movups	%xmm0,80(%r8)
	movups	%xmm0,64(%r8)
	movups	%xmm0,48(%r8)
	movups	%xmm0,32(%r8)
	movups	%xmm0,16(%r8)
	movups	%xmm0,(%r8)
	movq	$0,128(%r8)
	movq	%r8,32(%rsp)
	movq	%r9,%rcx
	movq	%r10,%r8
	movl	%eax,%r9d
	callq	rtp_ext.block_values.read_values.9a3a19c0cce455e9
	xorl	%eax,%eax
2:
	addq	$40,%rsp
	retq
	.seh_endproc

	.def	rtpw_version;
	.scl	2;
	.type	32;
	.endef
	.section	.text$rtpw_version,"xr"
	.globl	rtpw_version
	.p2align	4
rtpw_version:
	movl	$65792,%eax
	retq

	.def	rtpw_wide_receiver_accepts;
	.scl	2;
	.type	32;
	.endef
	.section	.text$rtpw_wide_receiver_accepts,"xr"
	.globl	rtpw_wide_receiver_accepts
	.p2align	4
rtpw_wide_receiver_accepts:
	xorl	%r10d,%r10d
	testq	%rdx,%rdx
	sete	%r11b
	leaq	-1(%r8),%rax
	cmpq	$511,%rax
	ja	1f
	movb	$1,%al
	cmpb	$0,8(%rcx)
	je	2f
	movb	%r11b,%r10b
	shll	$12,%r10d
	addq	%r10,%rdx
	movq	(%rcx),%rcx
	subq	%r9,%rcx
	jne	3f
1:
	xorl	%eax,%eax
	retq
3:
	jb	2f
	shrq	$6,%rcx
	cmpq	%r8,%rcx
	jae	1b
	movq	%r9,%rax
	shrq	$6,%rax
	cmpq	$16,%r8
	jne	1f
	andl	$15,%eax
	jmp	3f
1:
	movq	%rdx,%rcx
	movq	%rax,%rdx
	orq	%r8,%rdx
	shrq	$32,%rdx
	je	1f
	xorl	%edx,%edx
	divq	%r8
	movq	%rdx,%rax
	jmp	4f
1:
	xorl	%edx,%edx
	divl	%r8d
	movl	%edx,%eax
4:
	movq	%rcx,%rdx
3:
	movq	(%rdx,%rax,8),%rax
	btq	%r9,%rax
	setae	%al
2:
	retq

	.def	rtpw_wide_receiver_number_of;
	.scl	2;
	.type	32;
	.endef
	.section	.text$rtpw_wide_receiver_number_of,"xr"
	.globl	rtpw_wide_receiver_number_of
	.p2align	4
rtpw_wide_receiver_number_of:
	cmpb	$0,8(%rcx)
	movq	(%rcx),%rcx
	je	1f
	subl	%ecx,%edx
	movzwl	%dx,%r8d
	leaq	(%r8,%rcx),%rax
	testw	%r8w,%r8w
	js	2f
	retq
1:
	andq	$-65536,%rcx
	movzwl	%dx,%eax
	orq	%rcx,%rax
	retq
2:
	xorl	%r8d,%r8d
	negw	%dx
	seto	%r8b
	shll	$16,%r8d
	addq	$-65536,%r8
	testw	%cx,%cx
	movq	$-65536,%rcx
	cmovnsq	%r8,%rcx
	addq	%rcx,%rax
	retq

	.def	rtpw_wide_receiver_start;
	.scl	2;
	.type	32;
	.endef
	.section	.text$rtpw_wide_receiver_start,"xr"
	.globl	rtpw_wide_receiver_start
	.p2align	4
rtpw_wide_receiver_start:
	movq	%rdx,%rax
	shrq	$48,%rax
	movl	$9,%eax
	jne	1f
	shlq	$16,%rdx
	movq	%rdx,(%rcx)
	movq	$0,8(%rcx)
	xorl	%eax,%eax
1:
	retq

	.def	rtpw_write_data_elements;
	.scl	2;
	.type	32;
	.endef
	.section	.text$rtpw_write_data_elements,"xr"
	.globl	rtpw_write_data_elements
	.p2align	4
rtpw_write_data_elements:
.seh_proc rtpw_write_data_elements
	pushq	%r15
	.seh_pushreg %r15
	pushq	%r14
	.seh_pushreg %r14
	pushq	%r13
	.seh_pushreg %r13
	pushq	%r12
	.seh_pushreg %r12
	pushq	%rsi
	.seh_pushreg %rsi
	pushq	%rdi
	.seh_pushreg %rdi
	pushq	%rbp
	.seh_pushreg %rbp
	pushq	%rbx
	.seh_pushreg %rbx
	subq	$56,%rsp
	.seh_stackalloc 56
	.seh_endprologue
	movq	%r8,%rsi
	movq	%rdx,%rdi
	movq	160(%rsp),%rdx
	xorl	%r10d,%r10d
	testq	%rdi,%rdi
	sete	%bl
	xorl	%r8d,%r8d
	testq	%rdx,%rdx
	sete	%r11b
	cmpb	$1,%r9b
	je	1f
	movzbl	%r9b,%r9d
	movl	$9,%eax
	cmpl	$2,%r9d
	jne	2f
	movb	$1,%r14b
	xorl	%r9d,%r9d
	jmp	3f
1:
	movb	$1,%r9b
	xorl	%r14d,%r14d
3:
	movb	%bl,%r10b
	shll	$12,%r10d
	movzbl	4(%rcx),%eax
	testb	%al,%al
	js	1f
	movq	168(%rsp),%rbx
	xorl	%r12d,%r12d
	subq	$12,%rbx
	cmovaeq	%rbx,%r12
	shrq	$2,%r12
	je	1f
	movzbl	1(%rcx),%ebx
	movzbl	3(%rcx),%r13d
	testq	%rsi,%rsi
	je	3f
	movb	%r13b,36(%rsp)
	movb	%bl,40(%rsp)
	decq	%r12
	cmpq	$65535,%r12
	movl	$65535,%r15d
	cmovbq	%r12,%r15
	shll	$2,%r15d
	leaq	(%r10,%rdi),%r12
	addq	$16,%r12
	movq	%rsi,%r13
	testb	%r9b,%r9b
	je	4f
	.p2align	4
5:
	movzbl	-16(%r12),%ebx
	decb	%bl
	cmpb	$13,%bl
	ja	1f
	movq	(%r12),%rbx
	leaq	-1(%rbx),%rbp
	cmpq	$15,%rbp
	ja	1f
	cmpq	%rbx,%r15
	jbe	1f
	incq	%rbx
	movq	%r15,%rbp
	subq	%rbx,%rbp
	movl	$0,%r15d
	cmovaeq	%rbp,%r15
	addq	$32,%r12
	decq	%r13
	jne	5b
	cmpq	%r15,%rsi
	seta	%bpl
	xorl	%r14d,%r14d
	movzbl	40(%rsp),%ebx
	movzbl	36(%rsp),%r13d
	jmp	5f
	.p2align	4
4:
	cmpb	$0,-16(%r12)
	je	1f
	movq	(%r12),%rbx
	cmpq	$255,%rbx
	ja	1f
	cmpq	%rbx,%r15
	jbe	1f
	incq	%rbx
	movq	%r15,%rbp
	subq	%rbx,%rbp
	movl	$0,%r15d
	cmovaeq	%rbp,%r15
	addq	$32,%r12
	decq	%r13
	jne	4b
	cmpq	%r15,%rsi
	movzbl	36(%rsp),%r13d
	ja	4f
	movb	$1,%r14b
	xorl	%ebp,%ebp
	movzbl	40(%rsp),%ebx
	jmp	5f
1:
	testq	%rsi,%rsi
	je	1f
4:
	leaq	(%r10,%rdi),%r8
	addq	$16,%r8
	movl	$262140,%ecx
	testb	%r9b,%r9b
	je	4f
	movq	%rsi,%r9
	.p2align	4
6:
	movzbl	-16(%r8),%r10d
	decb	%r10b
	movl	$9,%edx
	cmpb	$13,%r10b
	ja	7f
	movq	(%r8),%r10
	leaq	-1(%r10),%r11
	cmpq	$15,%r11
	ja	7f
	cmpq	%r10,%rcx
	jbe	7f
	incq	%r10
	xorl	%r14d,%r14d
	movq	%rcx,%rdx
	subq	%r10,%rdx
	movl	$0,%ecx
	cmovaeq	%rdx,%rcx
	addq	$32,%r8
	decq	%r9
	jne	6b
	jmp	6f
1:
	movl	$262140,%ecx
	jmp	6f
4:
	movq	%rsi,%r9
	.p2align	4
1:
	cmpb	$0,-16(%r8)
	movl	$9,%edx
	je	7f
	movq	(%r8),%r10
	cmpq	$255,%r10
	ja	7f
	cmpq	%r10,%rcx
	jbe	7f
	incq	%r10
	movq	%rcx,%rdx
	subq	%r10,%rdx
	movl	$0,%ecx
	cmovaeq	%rdx,%rcx
	addq	$32,%r8
	decq	%r9
	jne	1b
	movb	$1,%r14b
6:
	cmpq	%rcx,%rsi
	seta	%cl
	andb	%r14b,%cl
	movzbl	%cl,%edx
	orl	$8,%edx
7:
	testb	%al,%al
	movl	$9,%eax
	cmovnsl	%edx,%eax
	jmp	2f
3:
	xorl	%ebp,%ebp
5:
	movb	%r11b,%r8b
	shll	$12,%r8d
	leaq	(%rdx,%r8),%r15
	testb	%r13b,%r13b
	setne	%r9b
	testb	%bl,%bl
	setne	%r11b
	movzwl	6(%rcx),%ebx
	shlb	$5,%r11b
	orb	$-112,%r11b
	shlb	$7,%r9b
	orb	%al,%r9b
	rolw	$8,%bx
	movl	8(%rcx),%eax
	movl	12(%rcx),%ecx
	bswapl	%eax
	bswapl	%ecx
	movb	%r11b,(%r15)
	movb	%r9b,1(%r15)
	movw	%bx,2(%r15)
	movl	%eax,4(%r15)
	movl	%ecx,8(%r15)
	testq	%rsi,%rsi
	movl	%ebp,36(%rsp)
	je	1f
	addq	%r10,%rdi
	leaq	16(%r15),%r12
	testb	%r14b,%r14b
	sete	%al
	orb	%bpl,%al
	testb	$1,%al
	je	3f
	leaq	(%r8,%rdx),%rax
	addq	$33,%rax
	movq	%rax,48(%rsp)
	leaq	(%r8,%rdx),%rax
	addq	$20,%rax
	movq	%rax,40(%rsp)
	xorl	%eax,%eax
	xorl	%ebp,%ebp
	jmp	4f
	.p2align	4
5:
	movzbl	(%rdx),%eax
	movb	%al,(%r12,%r13)
6:
	addq	%r13,%rbx
	incq	%rbp
	movq	%rbx,%rax
	cmpq	%rsi,%rbp
	je	7f
4:
	movq	%rbp,%rcx
	shlq	$5,%rcx
	movzbl	(%rdi,%rcx),%r8d
	movq	8(%rdi,%rcx),%rdx
	movq	16(%rdi,%rcx),%rbx
	rolb	$4,%r8b
	addb	%bl,%r8b
	decb	%r8b
	movb	%r8b,(%r12,%rax)
	leaq	1(%rax),%r13
	testq	%rbx,%rbx
	je	4f
	cmpq	$1,%rbx
	je	5b
	cmpq	$3,%rbx
	jae	5f
	movzbl	(%rdx),%eax
	movb	%al,(%r12,%r13)
	movzbl	1(%rdx),%eax
	movb	%al,1(%r12,%r13)
	jmp	6b
5:
	jne	4f
	movzbl	(%rdx),%eax
	movb	%al,(%r12,%r13)
	movzbl	1(%rdx),%eax
	movb	%al,1(%r12,%r13)
	movzbl	2(%rdx),%eax
	movb	%al,2(%r12,%r13)
	jmp	6b
	.p2align	4
4:
	leaq	(%r12,%r13),%rcx
	movq	%rcx,%r8
	subq	%rdx,%r8
	cmpq	%rbx,%r8
	jae	4f
	cmpq	$4,%rbx
	jb	5f
	leaq	17(%r15),%r8
	addq	%rax,%r8
	subq	%rdx,%r8
	cmpq	$32,%r8
	jae	8f
5:
	xorl	%r8d,%r8d
5:
	movq	%rbx,%r10
	movq	%r8,%r9
	andq	$3,%r10
	je	9f
	movq	%r8,%r9
	.p2align	4
10:
	movzbl	(%rdx,%r9),%r11d
	movb	%r11b,(%rcx,%r9)
	incq	%r9
	decq	%r10
	jne	10b
9:
	subq	%rbx,%r8
	cmpq	$-4,%r8
	ja	6b
	addq	40(%rsp),%rax
	.p2align	4
9:
	movzbl	(%rdx,%r9),%ecx
	movb	%cl,-3(%rax,%r9)
	movzbl	1(%rdx,%r9),%ecx
	movb	%cl,-2(%rax,%r9)
	movzbl	2(%rdx,%r9),%ecx
	movb	%cl,-1(%rax,%r9)
	movzbl	3(%rdx,%r9),%ecx
	movb	%cl,(%rax,%r9)
	addq	$4,%r9
	cmpq	%r9,%rbx
	jne	9b
	jmp	6b
	.p2align	4
4:
	movq	%rbx,%r8
	callq	memmove
	jmp	6b
8:
	cmpq	$32,%rbx
	jae	4f
	xorl	%r8d,%r8d
	jmp	8f
4:
	movq	%rbx,%r8
	andq	$-32,%r8
	movq	48(%rsp),%r9
	addq	%rax,%r9
	xorl	%r10d,%r10d
	.p2align	4
4:
	movups	(%rdx,%r10),%xmm0
	movups	16(%rdx,%r10),%xmm1
	movups	%xmm0,-16(%r9,%r10)
	movups	%xmm1,(%r9,%r10)
	addq	$32,%r10
	cmpq	%r10,%r8
	jne	4b
	cmpq	%r8,%rbx
	je	6b
	testb	$28,%bl
	je	5b
8:
	movq	%r8,%r9
	movq	%rbx,%r8
	andq	$-4,%r8
	.p2align	4
4:
	movl	(%rdx,%r9),%r10d
	movl	%r10d,(%rcx,%r9)
	addq	$4,%r9
	cmpq	%r9,%r8
	jne	4b
	cmpq	%r8,%rbx
	je	6b
	jmp	5b
1:
	xorl	%ebx,%ebx
7:
	movq	176(%rsp),%rax
	addq	$12,%r15
	leaq	3(%rbx),%rcx
	movq	%rcx,%r8
	andq	$-4,%r8
	leaq	4(%rbx),%rdx
	subq	%rbx,%r8
	je	1f
	cmpq	$2,%r8
	movl	36(%rsp),%r9d
	je	4f
	cmpq	$1,%r8
	jne	5f
	movb	$0,4(%r15,%rbx)
	addq	$5,%rbx
	jmp	6f
3:
	leaq	(%r8,%rdx),%rax
	addq	$34,%rax
	movq	%rax,48(%rsp)
	leaq	(%r8,%rdx),%rax
	addq	$21,%rax
	movq	%rax,40(%rsp)
	xorl	%eax,%eax
	xorl	%ebp,%ebp
	jmp	3f
	.p2align	4
8:
	movzbl	(%rdx),%eax
	movb	%al,(%r12,%r13)
9:
	addq	%r13,%rbx
	incq	%rbp
	movq	%rbx,%rax
	cmpq	%rsi,%rbp
	je	7b
3:
	movq	%rbp,%rcx
	shlq	$5,%rcx
	movzbl	(%rdi,%rcx),%r8d
	movq	8(%rdi,%rcx),%rdx
	movq	16(%rdi,%rcx),%rbx
	movb	%r8b,(%r12,%rax)
	movb	%bl,1(%r12,%rax)
	leaq	2(%rax),%r13
	testq	%rbx,%rbx
	je	3f
	cmpq	$1,%rbx
	je	8b
	cmpq	$2,%rbx
	ja	7f
	movzbl	(%rdx),%eax
	movb	%al,(%r12,%r13)
	movzbl	1(%rdx),%eax
	movb	%al,1(%r12,%r13)
	jmp	9b
7:
	cmpq	$3,%rbx
	jne	3f
	movzbl	(%rdx),%eax
	movb	%al,(%r12,%r13)
	movzbl	1(%rdx),%eax
	movb	%al,1(%r12,%r13)
	movzbl	2(%rdx),%eax
	movb	%al,2(%r12,%r13)
	jmp	9b
	.p2align	4
3:
	leaq	(%r12,%r13),%rcx
	movq	%rcx,%r8
	subq	%rdx,%r8
	cmpq	%rbx,%r8
	jae	3f
	cmpq	$4,%rbx
	jb	7f
	leaq	18(%r15),%r8
	addq	%rax,%r8
	subq	%rdx,%r8
	cmpq	$32,%r8
	jae	8f
7:
	xorl	%r8d,%r8d
7:
	movq	%rbx,%r10
	movq	%r8,%r9
	andq	$3,%r10
	je	10f
	movq	%r8,%r9
	.p2align	4
11:
	movzbl	(%rdx,%r9),%r11d
	movb	%r11b,(%rcx,%r9)
	incq	%r9
	decq	%r10
	jne	11b
10:
	subq	%rbx,%r8
	cmpq	$-4,%r8
	ja	9b
	addq	40(%rsp),%rax
	.p2align	4
10:
	movzbl	(%rdx,%r9),%ecx
	movb	%cl,-3(%rax,%r9)
	movzbl	1(%rdx,%r9),%ecx
	movb	%cl,-2(%rax,%r9)
	movzbl	2(%rdx,%r9),%ecx
	movb	%cl,-1(%rax,%r9)
	movzbl	3(%rdx,%r9),%ecx
	movb	%cl,(%rax,%r9)
	addq	$4,%r9
	cmpq	%r9,%rbx
	jne	10b
	jmp	9b
	.p2align	4
3:
	movq	%rbx,%r8
	callq	memmove
	jmp	9b
8:
	cmpq	$32,%rbx
	jae	3f
	xorl	%r8d,%r8d
	jmp	8f
3:
	movq	%rbx,%r8
	andq	$-32,%r8
	movq	48(%rsp),%r9
	addq	%rax,%r9
	xorl	%r10d,%r10d
	.p2align	4
3:
	movups	(%rdx,%r10),%xmm0
	movups	16(%rdx,%r10),%xmm1
	movups	%xmm0,-16(%r9,%r10)
	movups	%xmm1,(%r9,%r10)
	addq	$32,%r10
	cmpq	%r10,%r8
	jne	3b
	cmpq	%r8,%rbx
	je	9b
	testb	$28,%bl
	je	7b
8:
	movq	%r8,%r9
	movq	%rbx,%r8
	andq	$-4,%r8
	.p2align	4
3:
	movl	(%rdx,%r9),%r10d
	movl	%r10d,(%rcx,%r9)
	addq	$4,%r9
	cmpq	%r9,%r8
	jne	3b
	cmpq	%r8,%rbx
	je	9b
	jmp	7b
4:
	movw	$0,4(%r15,%rbx)
	addq	$6,%rbx
	jmp	6f
1:
	movl	36(%rsp),%r9d
	jmp	1f
5:
	movb	$0,2(%r15,%rdx)
	movw	$0,(%r15,%rdx)
	addq	$7,%rbx
6:
	movq	%rbx,%rdx
1:
	movl	%ecx,%r8d
	andl	$-4,%r8d
	shll	$22,%r8d
	shll	$6,%ecx
	andl	$16711680,%ecx
	testb	$1,%r9b
	movl	$57022,%r9d
	movl	$16,%r10d
	cmovnel	%r9d,%r10d
	testb	%r14b,%r14b
	cmovel	%r9d,%r10d
	orl	%ecx,%r10d
	orl	%r8d,%r10d
	movl	%r10d,(%r15)
	addq	$12,%rdx
	movq	%rdx,(%rax)
	xorl	%eax,%eax
2:
	addq	$56,%rsp
	popq	%rbx
	popq	%rbp
	popq	%rdi
	popq	%rsi
	popq	%r12
	popq	%r13
	popq	%r14
	popq	%r15
	retq
	.seh_endproc

	.def	rtpw_write_dependency_descriptor;
	.scl	2;
	.type	32;
	.endef
	.section	.text$rtpw_write_dependency_descriptor,"xr"
	.globl	rtpw_write_dependency_descriptor
	.p2align	4
rtpw_write_dependency_descriptor:
.seh_proc rtpw_write_dependency_descriptor
	pushq	%rsi
	.seh_pushreg %rsi
	.seh_endprologue
	xorl	%esi,%esi
	testq	%rdx,%rdx
	sete	%r11b
	movzbl	4(%rcx),%r10d
	movl	$9,%eax
	cmpb	$63,%r10b
	ja	1f
	movl	$8,%eax
	cmpq	$3,%r8
	jb	1f
	movb	%r11b,%sil
	shll	$12,%esi
	cmpb	$0,3(%rcx)
	setne	%al
	shlb	$6,%al
	cmpb	$0,2(%rcx)
	setne	%r8b
	shlb	$7,%r8b
	orb	%al,%r8b
	orb	%r10b,%r8b
	movzwl	(%rcx),%eax
	movb	%r8b,(%rdx,%rsi)
	movb	%ah,1(%rdx,%rsi)
	movb	%al,2(%rdx,%rsi)
	movq	$3,(%r9)
	xorl	%eax,%eax
1:
	popq	%rsi
	retq
	.seh_endproc

	.def	rtp_proved_write_elements;
	.scl	3;
	.type	32;
	.endef
	.section	.text$rtp_proved_write_elements,"xr"
	.p2align	4
rtp_proved_write_elements:
.seh_proc rtp_proved_write_elements
	pushq	%r15
	.seh_pushreg %r15
	pushq	%r14
	.seh_pushreg %r14
	pushq	%r13
	.seh_pushreg %r13
	pushq	%r12
	.seh_pushreg %r12
	pushq	%rsi
	.seh_pushreg %rsi
	pushq	%rdi
	.seh_pushreg %rdi
	pushq	%rbp
	.seh_pushreg %rbp
	pushq	%rbx
	.seh_pushreg %rbx
	subq	$72,%rsp
	.seh_stackalloc 72
	.seh_endprologue
	movq	%rdx,%r10
	movq	%rcx,%r11
	movzbl	176(%rsp),%edx
	movq	184(%rsp),%rcx
	xorl	%r15d,%r15d
	testq	%r11,%r11
	sete	%bl
	xorl	%esi,%esi
	testq	%r8,%r8
	sete	%r13b
	xorl	%r12d,%r12d
	testq	%rcx,%rcx
	sete	%bpl
	movl	$9,%eax
	cmpl	$1,%edx
	je	1f
	cmpl	$2,%edx
	jne	2f
	movb	$1,%dl
	xorl	%edi,%edi
	jmp	3f
1:
	xorl	%edx,%edx
	movb	$1,%dil
3:
	movq	192(%rsp),%r14
	movb	%bl,%r15b
	shll	$12,%r15d
	addq	%r15,%r11
	movb	%r13b,%sil
	shll	$12,%esi
	leaq	(%r8,%rsi),%r15
	movb	%bpl,%r12b
	shll	$12,%r12d
	addq	%r12,%rcx
	movq	$-1,%rbx
	movq	%r15,%r12
	.p2align	4
1:
	incq	%rbx
	cmpq	%rbx,%r9
	je	3f
	movq	%r10,%r13
	subq	(%r12),%r13
	jb	2f
	cmpq	%r13,8(%r12)
	leaq	32(%r12),%r12
	jbe	1b
	jmp	2f
3:
	movq	%r11,40(%rsp)
	movq	%r10,48(%rsp)
	movq	%r15,56(%rsp)
	movq	%r9,64(%rsp)
	testq	%r9,%r9
	je	1f
	leaq	(%rsi,%r8),%r10
	addq	$24,%r10
	movq	%r9,%r11
	testb	%dil,%dil
	je	3f
	.p2align	4
4:
	movq	-16(%r10),%rbx
	leaq	-1(%rbx),%r12
	cmpq	$15,%r12
	ja	5f
	movzbl	(%r10),%ebp
	decb	%bpl
	cmpb	$13,%bpl
	ja	5f
	cmpq	%rbx,%r14
	jbe	5f
	incq	%rbx
	xorl	%r12d,%r12d
	subq	%rbx,%r14
	cmovbq	%r12,%r14
	addq	$32,%r10
	decq	%r11
	jne	4b
	jmp	1f
	.p2align	4
3:
	movq	-16(%r10),%rbx
	cmpq	$255,%rbx
	ja	5f
	cmpb	$0,(%r10)
	je	5f
	addq	$2,%rbx
	subq	%rbx,%r14
	jb	5f
	addq	$32,%r10
	decq	%r11
	jne	3b
1:
	leaq	40(%rsp),%r8
	callq	rtp_ext.raw_writing.put_elements.d57726891005992a
	movq	200(%rsp),%rcx
	movq	%rax,(%rcx)
	xorl	%eax,%eax
2:
	addq	$72,%rsp
	popq	%rbx
	popq	%rbp
	popq	%rdi
	popq	%rsi
	popq	%r12
	popq	%r13
	popq	%r14
	popq	%r15
	retq
5:
	movq	8(%r15),%rcx
	movzbl	24(%r15),%edx
	testb	%dil,%dil
	je	1f
	decb	%dl
	cmpb	$14,%dl
	setae	%dl
	decq	%rcx
	cmpq	$16,%rcx
	setae	%cl
	orb	%dl,%cl
	jne	2b
	leaq	(%rsi,%r8),%rcx
	addq	$56,%rcx
	.p2align	4
3:
	decq	%r9
	je	4f
	movq	-16(%rcx),%rdx
	decq	%rdx
	cmpq	$15,%rdx
	ja	2b
	movzbl	(%rcx),%edx
	addq	$32,%rcx
	decb	%dl
	cmpb	$13,%dl
	jbe	3b
	jmp	2b
1:
	testb	%dl,%dl
	sete	%dl
	cmpq	$256,%rcx
	setae	%cl
	orb	%dl,%cl
	jne	2b
	leaq	(%rsi,%r8),%rcx
	addq	$56,%rcx
	.p2align	4
1:
	decq	%r9
	je	4f
	cmpq	$255,-16(%rcx)
	ja	2b
	cmpb	$0,(%rcx)
	leaq	32(%rcx),%rcx
	jne	1b
	jmp	2b
4:
	movl	$8,%eax
	jmp	2b
	.seh_endproc

	.def	rtpw_write_fixed_part;
	.scl	2;
	.type	32;
	.endef
	.section	.text$rtpw_write_fixed_part,"xr"
	.globl	rtpw_write_fixed_part
	.p2align	4
rtpw_write_fixed_part:
.seh_proc rtpw_write_fixed_part
	pushq	%rsi
	.seh_pushreg %rsi
	.seh_endprologue
	xorl	%r9d,%r9d
	testq	%rdx,%rdx
	sete	%r11b
	movzbl	4(%rcx),%r10d
	testb	%r10b,%r10b
	js	1f
	movl	$8,%eax
	cmpq	$12,%r8
	jb	2f
	movb	%r11b,%r9b
	shll	$12,%r9d
	cmpb	$0,1(%rcx)
	setne	%al
	cmpb	$0,3(%rcx)
	setne	%r8b
	movzwl	6(%rcx),%r11d
	movl	8(%rcx),%esi
	movl	12(%rcx),%ecx
	shlb	$5,%al
	orb	$-128,%al
	shlb	$7,%r8b
	orb	%r10b,%r8b
	rolw	$8,%r11w
	bswapl	%esi
	bswapl	%ecx
	movb	%al,(%rdx,%r9)
	movb	%r8b,1(%rdx,%r9)
	movw	%r11w,2(%rdx,%r9)
	movl	%esi,4(%rdx,%r9)
	movl	%ecx,8(%rdx,%r9)
	xorl	%eax,%eax
2:
	popq	%rsi
	retq
1:
	movl	$9,%eax
	popq	%rsi
	retq
	.seh_endproc

	.def	rtpw_write_frame_marking;
	.scl	2;
	.type	32;
	.endef
	.section	.text$rtpw_write_frame_marking,"xr"
	.globl	rtpw_write_frame_marking
	.p2align	4
rtpw_write_frame_marking:
.seh_proc rtpw_write_frame_marking
	pushq	%r15
	.seh_pushreg %r15
	pushq	%r14
	.seh_pushreg %r14
	pushq	%rsi
	.seh_pushreg %rsi
	pushq	%rdi
	.seh_pushreg %rdi
	pushq	%rbp
	.seh_pushreg %rbp
	pushq	%rbx
	.seh_pushreg %rbx
	subq	$40,%rsp
	.seh_stackalloc 40
	.seh_endprologue
	xorl	%r10d,%r10d
	testq	%rdx,%rdx
	sete	%r11b
	movb	$0,38(%rsp)
	movw	$0,36(%rsp)
	movzbl	(%rcx),%edi
	movzbl	1(%rcx),%ebp
	movzbl	2(%rcx),%r14d
	movzbl	3(%rcx),%r15d
	cmpb	$0,4(%rcx)
	je	1f
	movzbl	6(%rcx),%esi
	movl	$9,%eax
	cmpb	$7,%sil
	ja	2f
	movzbl	7(%rcx),%ebx
	testb	%dil,%dil
	setne	%al
	testb	%bpl,%bpl
	setne	%dil
	testb	%r14b,%r14b
	setne	%bpl
	testb	%r15b,%r15b
	setne	%r14b
	cmpb	$0,5(%rcx)
	setne	%r15b
	shlb	$3,%r15b
	shlb	$4,%r14b
	shlb	$5,%bpl
	shlb	$6,%dil
	shlb	$7,%al
	orb	%dil,%al
	orb	%bpl,%al
	orb	%r14b,%al
	orb	%r15b,%al
	orb	%sil,%al
	cmpb	$0,8(%rcx)
	je	3f
	movzbl	9(%rcx),%ecx
	movb	%al,36(%rsp)
	movb	%bl,37(%rsp)
	movb	%cl,38(%rsp)
	movl	$3,%esi
	movl	$8,%eax
	cmpq	%rsi,%r8
	jae	4f
	jmp	2f
1:
	testb	%r15b,%r15b
	setne	%al
	testb	%r14b,%r14b
	setne	%cl
	testb	%bpl,%bpl
	setne	%bl
	testb	%dil,%dil
	setne	%sil
	shlb	$4,%al
	shlb	$5,%cl
	shlb	$6,%bl
	shlb	$7,%sil
	orb	%bl,%sil
	orb	%cl,%sil
	orb	%al,%sil
	movb	%sil,36(%rsp)
	movl	$1,%esi
	movl	$8,%eax
	cmpq	%rsi,%r8
	jb	2f
4:
	movb	%r11b,%r10b
	shll	$12,%r10d
	addq	%r10,%rdx
	leaq	36(%rsp),%rax
	movq	%rdx,%rcx
	movq	%rax,%rdx
	movq	%rsi,%r8
	movq	%r9,%rdi
	callq	memcpy
	movq	%rsi,(%rdi)
	xorl	%eax,%eax
2:
	addq	$40,%rsp
	popq	%rbx
	popq	%rbp
	popq	%rdi
	popq	%rsi
	popq	%r14
	popq	%r15
	retq
3:
	movzbl	%bl,%ecx
	movzwl	%cx,%ecx
	shll	$8,%ecx
	movzbl	%al,%eax
	orl	%ecx,%eax
	movw	%ax,36(%rsp)
	movl	$2,%esi
	movl	$8,%eax
	cmpq	%rsi,%r8
	jae	4b
	jmp	2b
	.seh_endproc

	.def	rtpw_write_mixer_levels;
	.scl	2;
	.type	32;
	.endef
	.section	.text$rtpw_write_mixer_levels,"xr"
	.globl	rtpw_write_mixer_levels
	.p2align	4
rtpw_write_mixer_levels:
.seh_proc rtpw_write_mixer_levels
	pushq	%rsi
	.seh_pushreg %rsi
	pushq	%rdi
	.seh_pushreg %rdi
	pushq	%rbp
	.seh_pushreg %rbp
	pushq	%rbx
	.seh_pushreg %rbx
	.seh_endprologue
	xorl	%esi,%esi
	testq	%rcx,%rcx
	sete	%r10b
	xorl	%edi,%edi
	testq	%r8,%r8
	sete	%r11b
	movl	$9,%eax
	cmpq	$15,%rdx
	ja	1f
	movb	%r10b,%sil
	shll	$12,%esi
	leaq	(%rcx,%rsi),%r10
	cmpq	%rdx,%r9
	jae	2f
	xorl	%ecx,%ecx
	.p2align	4
3:
	cmpq	%rcx,%rdx
	je	4f
	movzbl	(%r10,%rcx),%r8d
	incq	%rcx
	addb	$127,%r8b
	jns	3b
	jmp	1f
2:
	movq	72(%rsp),%r9
	movb	%r11b,%dil
	shll	$12,%edi
	leaq	(%r8,%rdi),%r11
	xorl	%ebx,%ebx
	.p2align	4
2:
	cmpq	%rbx,%rdx
	je	3f
	movzbl	(%r10,%rbx),%ebp
	incq	%rbx
	addb	$127,%bpl
	jns	2b
	jmp	1f
4:
	movl	$8,%eax
	jmp	1f
3:
	testq	%rdx,%rdx
	je	2f
	cmpq	$1,%rdx
	jne	3f
	xorl	%eax,%eax
	jmp	4f
3:
	movl	%edx,%ebx
	andl	$14,%ebx
	addq	%rsi,%rcx
	incq	%rcx
	addq	%rdi,%r8
	incq	%r8
	xorl	%eax,%eax
	.p2align	4
3:
	movzbl	-1(%rcx,%rax),%esi
	movl	%esi,%edi
	sarb	$7,%dil
	xorb	%dil,%sil
	subb	%dil,%sil
	movb	%sil,-1(%r8,%rax)
	movzbl	(%rcx,%rax),%esi
	movl	%esi,%edi
	sarb	$7,%dil
	xorb	%dil,%sil
	subb	%dil,%sil
	movb	%sil,(%r8,%rax)
	addq	$2,%rax
	cmpq	%rax,%rbx
	jne	3b
	testb	$1,%dl
	je	2f
4:
	movzbl	(%r10,%rax),%ecx
	movl	%ecx,%r8d
	sarb	$7,%r8b
	xorb	%r8b,%cl
	subb	%r8b,%cl
	movb	%cl,(%r11,%rax)
2:
	movq	%rdx,(%r9)
	xorl	%eax,%eax
1:
	popq	%rbx
	popq	%rbp
	popq	%rdi
	popq	%rsi
	retq
	.seh_endproc

	.def	rtpw_write_ntp_56;
	.scl	2;
	.type	32;
	.endef
	.section	.text$rtpw_write_ntp_56,"xr"
	.globl	rtpw_write_ntp_56
	.p2align	4
rtpw_write_ntp_56:
.seh_proc rtpw_write_ntp_56
	pushq	%rsi
	.seh_pushreg %rsi
	pushq	%rdi
	.seh_pushreg %rdi
	.seh_endprologue
	movl	$8,%eax
	cmpq	$7,%r8
	jb	1f
	movl	%ecx,%r8d
	shrl	$16,%r8d
	movl	%ecx,%r10d
	shrl	$24,%r10d
	movq	%rcx,%r11
	shrq	$32,%r11
	movq	%rcx,%rsi
	shrq	$40,%rsi
	movq	%rcx,%rdi
	shrq	$48,%rdi
	xorl	%eax,%eax
	testq	%rdx,%rdx
	sete	%al
	shll	$12,%eax
	movb	%dil,(%rdx,%rax)
	movb	%sil,1(%rdx,%rax)
	movb	%r11b,2(%rdx,%rax)
	movb	%r10b,3(%rdx,%rax)
	movb	%r8b,4(%rdx,%rax)
	movb	%ch,5(%rdx,%rax)
	movb	%cl,6(%rdx,%rax)
	movq	$7,(%r9)
	xorl	%eax,%eax
1:
	popq	%rdi
	popq	%rsi
	retq
	.seh_endproc

	.def	rtpw_write_ntp_64;
	.scl	2;
	.type	32;
	.endef
	.section	.text$rtpw_write_ntp_64,"xr"
	.globl	rtpw_write_ntp_64
	.p2align	4
rtpw_write_ntp_64:
	movl	$8,%eax
	cmpq	$8,%r8
	jb	1f
	bswapq	%rcx
	xorl	%eax,%eax
	testq	%rdx,%rdx
	sete	%al
	shll	$12,%eax
	movq	%rcx,(%rdx,%rax)
	movq	$8,(%r9)
	xorl	%eax,%eax
1:
	retq

	.def	rtpw_write_orientation;
	.scl	2;
	.type	32;
	.endef
	.section	.text$rtpw_write_orientation,"xr"
	.globl	rtpw_write_orientation
	.p2align	4
rtpw_write_orientation:
.seh_proc rtpw_write_orientation
	pushq	%rsi
	.seh_pushreg %rsi
	pushq	%rbx
	.seh_pushreg %rbx
	.seh_endprologue
	xorl	%r10d,%r10d
	testq	%rdx,%rdx
	sete	%sil
	movzbl	2(%rcx),%r11d
	movl	$9,%eax
	cmpb	$1,%r11b
	ja	1f
	movzbl	3(%rcx),%ebx
	movzwl	(%rcx),%ecx
	cmpl	$179,%ecx
	jg	2f
	testl	%ecx,%ecx
	je	3f
	cmpl	$90,%ecx
	jne	1f
	movb	$3,%al
	testq	%r8,%r8
	je	4f
5:
	movb	%sil,%r10b
	shll	$12,%r10d
	shlb	$3,%r11b
	orb	%r11b,%al
	testb	%bl,%bl
	setne	%cl
	shlb	$2,%cl
	orb	%al,%cl
	movb	%cl,(%rdx,%r10)
	movq	$1,(%r9)
	xorl	%eax,%eax
1:
	popq	%rbx
	popq	%rsi
	retq
2:
	cmpl	$180,%ecx
	je	2f
	cmpl	$270,%ecx
	jne	1b
	movb	$1,%al
	testq	%r8,%r8
	jne	5b
4:
	movl	$8,%eax
	popq	%rbx
	popq	%rsi
	retq
3:
	xorl	%eax,%eax
	testq	%r8,%r8
	jne	5b
	jmp	4b
2:
	movb	$2,%al
	testq	%r8,%r8
	jne	5b
	jmp	4b
	.seh_endproc

	.def	rtpw_write_original;
	.scl	2;
	.type	32;
	.endef
	.section	.text$rtpw_write_original,"xr"
	.globl	rtpw_write_original
	.p2align	4
rtpw_write_original:
	movl	$8,%eax
	cmpq	$2,%rdx
	jb	1f
	xorl	%eax,%eax
	testq	%rcx,%rcx
	sete	%al
	shll	$12,%eax
	rolw	$8,%r8w
	movw	%r8w,(%rcx,%rax)
	xorl	%eax,%eax
1:
	retq

	.def	rtpw_write_report;
	.scl	2;
	.type	32;
	.endef
	.section	.text$rtpw_write_report,"xr"
	.globl	rtpw_write_report
	.p2align	4
rtpw_write_report:
.seh_proc rtpw_write_report
	pushq	%r15
	.seh_pushreg %r15
	pushq	%r14
	.seh_pushreg %r14
	pushq	%r13
	.seh_pushreg %r13
	pushq	%r12
	.seh_pushreg %r12
	pushq	%rsi
	.seh_pushreg %rsi
	pushq	%rdi
	.seh_pushreg %rdi
	pushq	%rbp
	.seh_pushreg %rbp
	pushq	%rbx
	.seh_pushreg %rbx
	subq	$24,%rsp
	.seh_stackalloc 24
	.seh_endprologue
	movl	$8,%eax
	cmpq	$24,136(%rsp)
	jb	1f
	movl	%r9d,%eax
	shrl	$16,%eax
	movl	%eax,20(%rsp)
	movl	%r9d,%eax
	shrl	$24,%eax
	movl	%eax,16(%rsp)
	movl	%r8d,%r11d
	shrl	$16,%r11d
	movl	%r8d,%r10d
	shrl	$24,%r10d
	movl	12(%rcx),%edi
	movl	%edi,8(%rsp)
	movl	%edi,%r15d
	shrl	$16,%r15d
	shrl	$24,%edi
	movl	%r9d,12(%rsp)
	movl	%r8d,4(%rsp)
	movl	8(%rcx),%r9d
	movl	%r9d,%ebp
	shrl	$16,%ebp
	movl	%r9d,%r14d
	shrl	$24,%r14d
	movl	4(%rcx),%eax
	cmpl	$-8388607,%eax
	movl	$-8388608,%esi
	cmovgel	%eax,%esi
	cmpl	$8388607,%esi
	movl	%edx,%ebx
	movl	$8388607,%edx
	cmovll	%esi,%edx
	movzbl	(%rcx),%r12d
	movl	%edx,%r13d
	shrl	$16,%r13d
	movl	%ebx,%r8d
	shrl	$16,%r8d
	movl	%ebx,%eax
	shrl	$24,%eax
	movq	128(%rsp),%rcx
	xorl	%esi,%esi
	testq	%rcx,%rcx
	sete	%sil
	shll	$12,%esi
	movb	%al,(%rcx,%rsi)
	movb	%r8b,1(%rcx,%rsi)
	movb	%bh,2(%rcx,%rsi)
	movb	%bl,3(%rcx,%rsi)
	movb	%r12b,4(%rcx,%rsi)
	movb	%r13b,5(%rcx,%rsi)
	movb	%dh,6(%rcx,%rsi)
	movb	%dl,7(%rcx,%rsi)
	movb	%r14b,8(%rcx,%rsi)
	movb	%bpl,9(%rcx,%rsi)
	movl	%r9d,%eax
	movb	%ah,10(%rcx,%rsi)
	movb	%al,11(%rcx,%rsi)
	movb	%dil,12(%rcx,%rsi)
	movb	%r15b,13(%rcx,%rsi)
	movl	8(%rsp),%eax
	movb	%ah,14(%rcx,%rsi)
	movb	%al,15(%rcx,%rsi)
	movb	%r10b,16(%rcx,%rsi)
	movb	%r11b,17(%rcx,%rsi)
	movl	4(%rsp),%eax
	movb	%ah,18(%rcx,%rsi)
	movb	%al,19(%rcx,%rsi)
	movl	16(%rsp),%eax
	movb	%al,20(%rcx,%rsi)
	movl	20(%rsp),%eax
	movb	%al,21(%rcx,%rsi)
	movl	12(%rsp),%eax
	movb	%ah,22(%rcx,%rsi)
	movb	%al,23(%rcx,%rsi)
	movq	144(%rsp),%rax
	movq	$24,(%rax)
	xorl	%eax,%eax
1:
	addq	$24,%rsp
	popq	%rbx
	popq	%rbp
	popq	%rdi
	popq	%rsi
	popq	%r12
	popq	%r13
	popq	%r14
	popq	%r15
	retq
	.seh_endproc

	.def	rtpw_write_send_time;
	.scl	2;
	.type	32;
	.endef
	.section	.text$rtpw_write_send_time,"xr"
	.globl	rtpw_write_send_time
	.p2align	4
rtpw_write_send_time:
.seh_proc rtpw_write_send_time
	pushq	%rsi
	.seh_pushreg %rsi
	.seh_endprologue
	xorl	%esi,%esi
	testq	%rdx,%rdx
	sete	%r10b
	movl	$9,%eax
	cmpl	$16777215,%ecx
	ja	1f
	movl	$8,%eax
	cmpq	$3,%r8
	jb	1f
	movb	%r10b,%sil
	shll	$12,%esi
	movl	%ecx,%eax
	shrl	$16,%eax
	movb	%al,(%rdx,%rsi)
	movb	%ch,1(%rdx,%rsi)
	movb	%cl,2(%rdx,%rsi)
	movq	$3,(%r9)
	xorl	%eax,%eax
1:
	popq	%rsi
	retq
	.seh_endproc

	.def	rtpw_write_transmission_offset;
	.scl	2;
	.type	32;
	.endef
	.section	.text$rtpw_write_transmission_offset,"xr"
	.globl	rtpw_write_transmission_offset
	.p2align	4
rtpw_write_transmission_offset:
.seh_proc rtpw_write_transmission_offset
	pushq	%rsi
	.seh_pushreg %rsi
	.seh_endprologue
	xorl	%esi,%esi
	testq	%rdx,%rdx
	sete	%r10b
	leal	8388608(%rcx),%r11d
	movl	$9,%eax
	cmpl	$16777215,%r11d
	ja	1f
	movl	$8,%eax
	cmpq	$3,%r8
	jb	1f
	movb	%r10b,%sil
	shll	$12,%esi
	movl	%ecx,%eax
	shrl	$16,%eax
	movb	%al,(%rdx,%rsi)
	movb	%ch,1(%rdx,%rsi)
	movb	%cl,2(%rdx,%rsi)
	movq	$3,(%r9)
	xorl	%eax,%eax
1:
	popq	%rsi
	retq
	.seh_endproc

	.def	rtpw_write_transport_number;
	.scl	2;
	.type	32;
	.endef
	.section	.text$rtpw_write_transport_number,"xr"
	.globl	rtpw_write_transport_number
	.p2align	4
rtpw_write_transport_number:
.seh_proc rtpw_write_transport_number
	pushq	%rsi
	.seh_pushreg %rsi
	.seh_endprologue
	xorl	%r10d,%r10d
	testq	%rdx,%rdx
	sete	%r10b
	shll	$12,%r10d
	movzwl	(%rcx),%r11d
	cmpb	$0,4(%rcx)
	je	1f
	movzwl	2(%rcx),%esi
	testw	%si,%si
	js	2f
	movl	$8,%eax
	cmpq	$4,%r8
	jb	3f
	movl	%esi,%eax
	orl	$-32768,%eax
	cmpb	$0,5(%rcx)
	cmovel	%esi,%eax
	movzwl	%ax,%eax
	bswapl	%eax
	rolw	$8,%r11w
	movzwl	%r11w,%ecx
	orl	%eax,%ecx
	movl	%ecx,(%rdx,%r10)
	movq	$4,(%r9)
	jmp	4f
1:
	movl	$8,%eax
	cmpq	$2,%r8
	jb	3f
	rolw	$8,%r11w
	movw	%r11w,(%rdx,%r10)
	movq	$2,(%r9)
4:
	xorl	%eax,%eax
3:
	popq	%rsi
	retq
2:
	movl	$9,%eax
	popq	%rsi
	retq
	.seh_endproc

	.def	rtpw_write_color_space;
	.scl	2;
	.type	32;
	.endef
	.section	.text$rtpw_write_color_space,"xr"
	.globl	rtpw_write_color_space
	.p2align	4
rtpw_write_color_space:
.seh_proc rtpw_write_color_space
	pushq	%r14
	.seh_pushreg %r14
	pushq	%rsi
	.seh_pushreg %rsi
	pushq	%rdi
	.seh_pushreg %rdi
	pushq	%rbp
	.seh_pushreg %rbp
	pushq	%rbx
	.seh_pushreg %rbx
	subq	$64,%rsp
	.seh_stackalloc 64
	.seh_endprologue
	xorl	%r10d,%r10d
	testq	%rdx,%rdx
	sete	%r11b
	movzbl	27(%rcx),%ebx
	movl	$9,%eax
	cmpb	$3,%bl
	ja	1f
	movzbl	28(%rcx),%edi
	cmpb	$2,%dil
	ja	1f
	movzbl	29(%rcx),%r14d
	cmpb	$2,%r14b
	ja	1f
	movzwl	24(%rcx),%ebp
	movzbl	26(%rcx),%esi
	movzbl	30(%rcx),%eax
	xorps	%xmm0,%xmm0
	testb	%al,%al
	je	2f
	movq	16(%rcx),%xmm1
	movdqu	(%rcx),%xmm2
	movdqa	%xmm2,%xmm3
	psrlw	$8,%xmm3
	psllw	$8,%xmm2
	por	%xmm3,%xmm2
	movdqa	%xmm1,%xmm3
	psrlw	$8,%xmm3
	psllw	$8,%xmm1
	por	%xmm3,%xmm1
	jmp	3f
2:
	pxor	%xmm2,%xmm2
	pxor	%xmm1,%xmm1
3:
	shlb	$4,%bl
	shlb	$2,%dil
	orb	%bl,%dil
	orb	%r14b,%dil
	movzbl	%dil,%ecx
	shll	$24,%ecx
	shll	$16,%esi
	orl	%ebp,%esi
	orl	%ecx,%esi
	movups	%xmm0,40(%rsp)
	movq	$0,56(%rsp)
	movl	%esi,36(%rsp)
	testb	%al,%al
	je	2f
	movdqu	%xmm2,40(%rsp)
	movq	%xmm1,56(%rsp)
	movl	$28,%esi
	movl	$8,%eax
	cmpq	%rsi,%r8
	jb	1f
3:
	movb	%r11b,%r10b
	shll	$12,%r10d
	addq	%r10,%rdx
	leaq	36(%rsp),%rax
	movq	%rdx,%rcx
	movq	%rax,%rdx
	movq	%rsi,%r8
	movq	%r9,%rdi
	callq	memcpy
	movq	%rsi,(%rdi)
	xorl	%eax,%eax
1:
	addq	$64,%rsp
	popq	%rbx
	popq	%rbp
	popq	%rdi
	popq	%rsi
	popq	%r14
	retq
2:
	movl	$4,%esi
	movl	$8,%eax
	cmpq	%rsi,%r8
	jae	3b
	jmp	1b
	.seh_endproc

	.def	rtpw_wide_receiver_standing_of;
	.scl	2;
	.type	32;
	.endef
	.section	.text$rtpw_wide_receiver_standing_of,"xr"
	.globl	rtpw_wide_receiver_standing_of
	.p2align	4
rtpw_wide_receiver_standing_of:
.seh_proc rtpw_wide_receiver_standing_of
	pushq	%rsi
	.seh_pushreg %rsi
	.seh_endprologue
	xorl	%r10d,%r10d
	testq	%rdx,%rdx
	sete	%r11b
	leaq	-1(%r8),%rsi
	movb	$3,%al
	cmpq	$511,%rsi
	ja	1f
	cmpb	$0,8(%rcx)
	je	2f
	movq	(%rcx),%rcx
	cmpq	%r9,%rcx
	jne	3f
4:
	xorl	%eax,%eax
	subq	%r9,%rcx
	cmovaeq	%rcx,%rax
	shrq	$6,%rax
	cmpq	%r8,%rax
	movb	$2,%al
	sbbb	$0,%al
1:
	popq	%rsi
	retq
3:
	movq	%rcx,%rax
	subq	%r9,%rax
	jae	1f
2:
	xorl	%eax,%eax
	popq	%rsi
	retq
1:
	shrq	$6,%rax
	cmpq	%r8,%rax
	jae	4b
	movb	%r11b,%r10b
	shll	$12,%r10d
	addq	%r10,%rdx
	movq	%r9,%rax
	shrq	$6,%rax
	cmpq	$16,%r8
	jne	1f
	andl	$15,%eax
	jmp	3f
1:
	movq	%rdx,%r10
	movq	%rax,%rdx
	orq	%r8,%rdx
	shrq	$32,%rdx
	je	1f
	xorl	%edx,%edx
	divq	%r8
	movq	%rdx,%rax
	jmp	5f
1:
	xorl	%edx,%edx
	divl	%r8d
	movl	%edx,%eax
5:
	movq	%r10,%rdx
3:
	movq	(%rdx,%rax,8),%rax
	btq	%r9,%rax
	jb	4b
	jmp	2b
	.seh_endproc

	.def	rtp_proved_add_element;
	.scl	3;
	.type	32;
	.endef
	.section	.text$rtp_proved_add_element,"xr"
	.p2align	4
rtp_proved_add_element:
.seh_proc rtp_proved_add_element
	pushq	%r15
	.seh_pushreg %r15
	pushq	%r14
	.seh_pushreg %r14
	pushq	%r13
	.seh_pushreg %r13
	pushq	%r12
	.seh_pushreg %r12
	pushq	%rsi
	.seh_pushreg %rsi
	pushq	%rdi
	.seh_pushreg %rdi
	pushq	%rbp
	.seh_pushreg %rbp
	pushq	%rbx
	.seh_pushreg %rbx
	subq	$184,%rsp
	.seh_stackalloc 184
	.seh_endprologue
	movl	%r9d,%r12d
	movq	%rdx,72(%rsp)
	movzbl	304(%rsp),%ebx
	movq	288(%rsp),%rdi
	xorl	%r11d,%r11d
	testq	%rcx,%rcx
	sete	%r9b
	testq	%rdi,%rdi
	sete	%bpl
	movl	$9,%eax
	cmpb	$2,%bl
	ja	1f
	movq	(%r8),%r15
	cmpq	%r15,72(%rsp)
	jb	2f
	testb	%r12b,%r12b
	je	3f
	movq	296(%rsp),%rax
	movq	%rax,120(%rsp)
	cmpq	$255,%rax
	ja	4f
	movq	%rcx,%r10
	movb	$3,%cl
	cmpq	$12,%r15
	jb	5f
	movb	%r9b,%r11b
	shll	$12,%r11d
	leaq	(%r10,%r11),%r13
	movzbl	(%r13),%r14d
	cmpb	$-65,%r14b
	jg	6f
	movb	%bpl,88(%rsp)
	movq	%r11,152(%rsp)
	movq	%r10,56(%rsp)
	leal	(,%r14,4),%eax
	andl	$60,%eax
	leaq	12(%rax),%rbp
	movq	%r15,%r9
	subq	%rbp,%r9
	jb	7f
	movq	%r13,%rcx
	addq	%rbp,%rcx
	movq	%rcx,176(%rsp)
	testb	$16,%r14b
	jne	8f
	movb	$1,%cl
	xorl	%r10d,%r10d
	movq	%rbp,%rdx
	jmp	9f
8:
	movb	$3,%cl
	cmpq	$4,%r9
	jb	8f
	movq	%r13,%r11
	addq	%rbp,%r11
	movzwl	2(%r11),%r10d
	rolw	$8,%r10w
	addq	$-4,%r9
	movzwl	%r10w,%r10d
	shll	$2,%r10d
	cmpq	%r10,%r9
	jb	10f
	movzwl	(%r11),%r11d
	movl	%r11d,%r9d
	andl	$61695,%r9d
	cmpw	$16,%r9w
	movq	%rbp,%rdx
	sete	%bpl
	setne	%cl
	addq	%r10,%rdx
	addq	$4,%rdx
	cmpl	$57022,%r11d
	je	11f
	cmpw	$16,%r9w
	movl	%ebp,%r10d
	leaq	12(%rax),%rbp
	je	9f
	xorl	%edx,%edx
	movb	$4,%cl
	jmp	12f
11:
	movl	%ebp,%r10d
	leaq	12(%rax),%rbp
9:
	movq	%r13,112(%rsp)
	movq	120(%rsp),%r9
	decq	%r9
	cmpq	$16,%r9
	movzbl	%r10b,%r9d
	movl	$1,%r13d
	cmovael	%r13d,%r9d
	cmpb	$15,%r12b
	cmovael	%r13d,%r9d
	testb	%bl,%bl
	cmovel	%r9d,%r13d
	testb	$-3,%bl
	je	9f
	testb	%r9b,%r9b
	jne	11f
	xorl	%r13d,%r13d
9:
	movq	%rdi,128(%rsp)
	movq	%r8,168(%rsp)
	movq	%r14,64(%rsp)
	testb	$16,%r14b
	movb	%r12b,55(%rsp)
	movl	%r13d,100(%rsp)
	jne	9f
	movq	120(%rsp),%r12
	movq	112(%rsp),%rax
	addq	%rdx,%rax
	movq	%rax,104(%rsp)
	xorl	%esi,%esi
	xorl	%edi,%edi
	movl	%r13d,%r10d
	jmp	13f
9:
	movzbl	%al,%eax
	movq	112(%rsp),%r8
	addq	%rax,%r8
	addq	$16,%r8
	addq	$16,%rax
	movq	%rdx,%rdi
	subq	%rax,%rdi
	testb	%cl,%cl
	movq	%r8,104(%rsp)
	je	9f
	testq	%rdi,%rdi
	je	14f
	movq	$0,80(%rsp)
	movq	%r8,%rax
	movq	%rdi,%rcx
15:
	movq	%rcx,%r13
	.p2align	4
16:
	movzbl	(%rax),%r8d
	leal	16(%r8),%ecx
	cmpb	$32,%cl
	jae	17f
	testb	%r8b,%r8b
	je	18f
	movq	%r13,%rcx
	cmpb	$-17,%r8b
	jbe	19f
	jmp	20f
17:
	movzbl	%r8b,%r9d
	andl	$15,%r9d
	addq	$2,%r9
	movq	%r13,%rcx
	subq	%r9,%rcx
	jae	17f
	movq	%r13,%rcx
	subq	%r9,%rcx
	jae	21f
	jmp	20f
18:
	cmpq	$2,%r13
	je	18f
	cmpq	$1,%r13
	je	20f
	cmpq	$3,%r13
	ja	22f
	cmpb	$0,1(%rax)
	jne	22f
	cmpb	$0,2(%rax)
	jne	22f
	jmp	23f
18:
	cmpb	$0,1(%rax)
	je	18f
22:
	movq	%rdi,%rsi
	movq	%rdx,%rdi
	movl	%r10d,%r14d
	leaq	-1(%r13),%rdx
	incq	%rax
	movq	%rax,%rcx
	callq	rtp_ext.elements.skip_zeros
	testq	%rdx,%rdx
	je	22f
	movq	%rdx,%rcx
	movzbl	(%rax),%r8d
	movl	%r14d,%r10d
	movq	%rdi,%rdx
	movq	%rsi,%rdi
	cmpb	$-17,%r8b
	ja	20f
19:
	movl	%r8d,%r9d
	andb	$15,%r9b
	addb	$2,%r9b
	movzbl	%r9b,%r9d
	subq	%r9,%rcx
	jb	20f
21:
	addq	%r9,%rax
	cmpb	$16,%r8b
	jae	19f
	movq	%rcx,%r13
	testq	%rcx,%rcx
	jne	16b
	jmp	16f
17:
	addq	%r9,%rax
19:
	addq	%r9,80(%rsp)
	xorl	%r13d,%r13d
	testq	%rcx,%rcx
	jne	15b
	jmp	20f
9:
	testq	%rdi,%rdi
	je	14f
	movq	$0,80(%rsp)
	movq	%r8,%rcx
	movq	%rdi,%r8
9:
	movq	%r8,%r13
15:
	cmpb	$0,(%rcx)
	je	17f
	movq	%r13,%r8
	movq	%rcx,%rax
	cmpq	$2,%r8
	jae	19f
	jmp	20f
17:
	cmpq	$2,%r13
	je	17f
	cmpq	$1,%r13
	je	20f
	cmpq	$3,%r13
	ja	21f
	cmpb	$0,1(%rcx)
	jne	21f
	cmpb	$0,2(%rcx)
	jne	21f
	jmp	23f
17:
	cmpb	$0,1(%rcx)
	je	18f
21:
	movq	%rdi,%rsi
	movq	%rdx,%rdi
	movl	%r10d,%r14d
	leaq	-1(%r13),%rdx
	incq	%rcx
	callq	rtp_ext.elements.skip_zeros
	testq	%rdx,%rdx
	je	22f
	movq	%rdx,%r8
	movl	%r14d,%r10d
	movq	%rdi,%rdx
	movq	%rsi,%rdi
	cmpq	$2,%r8
	jb	20f
19:
	movzbl	1(%rax),%r9d
	leaq	2(%r9),%rcx
	subq	%rcx,%r8
	jb	20f
	addq	%rax,%rcx
	cmpb	$0,(%rax)
	jne	17f
	movq	%r8,%r13
	testq	%r8,%r8
	jne	15b
	jmp	16f
17:
	movq	80(%rsp),%rax
	addq	%r9,%rax
	addq	$2,%rax
	movq	%rax,80(%rsp)
	xorl	%r13d,%r13d
	testq	%r8,%r8
	jne	9b
	jmp	20f
14:
	movq	120(%rsp),%r12
	cmpb	%r10b,%r13b
	sete	%sil
	xorl	%edi,%edi
13:
	xorl	%r9d,%r9d
	xorl	%ecx,%ecx
9:
	movb	$1,%al
	xorl	%ebx,%ebx
	movq	%rcx,80(%rsp)
	cmpb	$1,%al
	jne	13f
14:
	cmpb	$1,%r13b
	movl	$2,%r11d
	sbbq	$0,%r11
	leaq	(%r12,%r11),%rax
	movq	%rax,104(%rsp)
	leaq	(%rcx,%rax),%r8
	addq	$3,%r8
	andq	$-4,%r8
	cmpq	%r8,%rdi
	cmovaq	%rdi,%r8
	cmpq	$262140,%r8
	ja	15f
	leaq	(%r8,%rbp),%rax
	movq	%r15,%rcx
	subq	%rdx,%rcx
	addq	%rcx,%rax
	addq	$4,%rax
	cmpq	%rax,72(%rsp)
	jb	17f
	movq	%rdi,%r14
	movq	%r11,160(%rsp)
	movl	%r10d,140(%rsp)
	movq	%r9,%r13
	movq	%rax,144(%rsp)
	xorl	%eax,%eax
	movzbl	88(%rsp),%ecx
	movb	%cl,%al
	shll	$12,%eax
	movq	%rax,88(%rsp)
	leaq	(%r8,%rbp),%r9
	addq	$4,%r9
	movq	%r8,%rdi
	movq	112(%rsp),%rbp
	movq	%rbp,%rcx
	movq	%r15,%r8
	callq	rtp_wire.packet.resizing.move_bytes
	movl	%edi,%eax
	shrl	$10,%eax
	movq	%rdi,120(%rsp)
	movl	%edi,%ecx
	andl	$-4,%ecx
	shll	$6,%ecx
	orl	%eax,%ecx
	movq	176(%rsp),%rdx
	movw	%cx,2(%rdx)
	testb	%sil,%sil
	jne	19f
	orb	$16,(%rbp)
	cmpb	$0,100(%rsp)
	movl	$57022,%eax
	movl	$16,%ecx
	cmovel	%eax,%ecx
	movw	%cx,(%rdx)
19:
	movq	128(%rsp),%rax
	movq	88(%rsp),%rcx
	addq	%rcx,%rax
	movq	%rax,112(%rsp)
	leaq	4(%rdx),%rax
	movq	%rax,72(%rsp)
	testq	%r14,%r14
	movq	152(%rsp),%r15
	je	19f
	movq	%r13,%r11
	cmpq	%r13,80(%rsp)
	jne	21f
	xorl	%esi,%esi
	movq	%r11,%rax
	movq	72(%rsp),%rbp
	testb	%bl,%bl
	jne	24f
	jmp	25f
19:
	cmpb	$0,100(%rsp)
	je	19f
	movb	%r12b,5(%rdx)
	movl	$2,%eax
	movzbl	55(%rsp),%ecx
	jmp	26f
21:
	movq	%r14,32(%rsp)
	movb	$0,40(%rsp)
	movl	140(%rsp),%ecx
	movq	72(%rsp),%rbp
	movq	%rbp,%rdx
	movq	%r11,%r8
	movq	%r11,%r9
	callq	rtp_ext.gathering.gather_around
	movq	%r13,%r11
	movq	%rdx,%rsi
	testb	%bl,%bl
	je	25f
24:
	movq	%rsi,40(%rsp)
	movq	%r11,32(%rsp)
	movl	140(%rsp),%ecx
	movq	%rbp,%rdx
	movq	120(%rsp),%r8
	movq	%rax,%r9
	callq	rtp_ext.form_change.change_rows
	movq	%rdx,%rsi
	movq	%rax,%r11
25:
	movq	104(%rsp),%rdi
	movq	160(%rsp),%r14
	addq	%rax,%rdi
	movq	%r11,%rdx
	subq	%rdi,%rdx
	jae	21f
	testq	%rsi,%rsi
	je	24f
	movq	%rsi,%rcx
	cmpq	$8,%rsi
	jb	25f
	movq	%rsi,%rcx
	cmpq	$32,%rdx
	jb	25f
	cmpq	$32,%rsi
	jae	27f
	xorl	%edx,%edx
	jmp	28f
21:
	testq	%rsi,%rsi
	je	24f
	cmpq	$4,%rsi
	jb	21f
	leaq	(%r14,%rax),%rcx
	addq	%r12,%rcx
	subq	%r11,%rcx
	cmpq	$32,%rcx
	jae	29f
21:
	xorl	%ecx,%ecx
21:
	movq	%rsi,%r8
	movq	%rcx,%rdx
	andq	$3,%r8
	je	30f
	leaq	(%r15,%rcx),%rdx
	leaq	(%rdx,%r14),%r9
	addq	%rax,%r9
	addq	%r12,%r9
	movq	64(%rsp),%r10
	andl	$15,%r10d
	shll	$2,%r10d
	addq	%r10,%r9
	movq	%r11,%rbx
	movq	56(%rsp),%r11
	addq	%r11,%r9
	addq	$16,%r9
	movq	%rbx,%r13
	addq	%rbx,%rdx
	addq	%r10,%rdx
	leaq	(%r11,%rdx),%r10
	addq	$16,%r10
	leaq	(%rcx,%r8),%rdx
	xorl	%r11d,%r11d
	.p2align	4
31:
	movzbl	(%r10,%r11),%ebx
	movb	%bl,(%r9,%r11)
	incq	%r11
	cmpq	%r11,%r8
	jne	31b
	movq	72(%rsp),%rbp
	movq	%r13,%r11
30:
	subq	%rsi,%rcx
	cmpq	$-4,%rcx
	ja	24f
	movq	%rsi,%rcx
	subq	%rdx,%rcx
	addq	%r15,%r14
	addq	%rax,%r14
	addq	%rdx,%r14
	addq	%r12,%r14
	movq	64(%rsp),%r9
	andl	$15,%r9d
	shll	$2,%r9d
	addq	%r9,%r14
	movq	56(%rsp),%r10
	leaq	(%r10,%r14),%r8
	addq	$19,%r8
	addq	%r15,%r11
	addq	%rdx,%r11
	addq	%r9,%r11
	leaq	(%r10,%r11),%rdx
	addq	$19,%rdx
	xorl	%r9d,%r9d
	.p2align	4
30:
	movzbl	-3(%rdx,%r9),%r10d
	movb	%r10b,-3(%r8,%r9)
	movzbl	-2(%rdx,%r9),%r10d
	movb	%r10b,-2(%r8,%r9)
	movzbl	-1(%rdx,%r9),%r10d
	movb	%r10b,-1(%r8,%r9)
	movzbl	(%rdx,%r9),%r10d
	movb	%r10b,(%r8,%r9)
	addq	$4,%r9
	cmpq	%r9,%rcx
	jne	30b
	jmp	24f
19:
	movzbl	55(%rsp),%ecx
	rolb	$4,%cl
	addb	%r12b,%cl
	decb	%cl
	movl	$1,%eax
26:
	movq	104(%rsp),%rdi
	movq	72(%rsp),%rbx
	movq	112(%rsp),%rsi
	movb	%cl,(%rbx)
	testb	%r12b,%r12b
	movq	120(%rsp),%r14
	je	19f
	movzbl	%r12b,%ecx
	cmpl	$1,%ecx
	jne	26f
	movzbl	(%rsi),%ecx
	movb	%cl,(%rbx,%rax)
	jmp	30f
26:
	cmpq	$2,%r12
	ja	26f
	movzbl	(%rsi),%ecx
	movb	%cl,(%rbx,%rax)
	movzbl	1(%rsi),%ecx
	movb	%cl,1(%rbx,%rax)
	jmp	30f
2:
	xorl	%ecx,%ecx
	jmp	5f
3:
	movb	$1,%cl
	jmp	5f
4:
	movb	$2,%cl
	jmp	5f
18:
	movl	$2,%r13d
	jmp	20f
6:
	movb	$1,%dl
	jmp	12f
23:
	movl	$3,%r13d
	jmp	20f
7:
	movb	$2,%dl
	jmp	12f
15:
	movb	$7,%cl
	jmp	5f
26:
	cmpq	$3,%r12
	jne	19f
	movzbl	(%rsi),%ecx
	movb	%cl,(%rbx,%rax)
	movzbl	1(%rsi),%ecx
	movb	%cl,1(%rbx,%rax)
	movzbl	2(%rsi),%ecx
	movb	%cl,2(%rbx,%rax)
	jmp	30f
19:
	leaq	(%rbx,%rax),%rcx
	movq	%rcx,%rdx
	subq	%rsi,%rdx
	cmpq	%r12,%rdx
	jae	2f
	cmpq	$4,%r12
	jb	3f
	movq	%r15,%rcx
	orq	%rax,%rcx
	addq	56(%rsp),%rcx
	movq	64(%rsp),%rdx
	leal	(,%rdx,4),%edx
	andl	$60,%edx
	addq	%rdx,%rcx
	subq	%rsi,%rcx
	addq	$16,%rcx
	cmpq	$32,%rcx
	jae	4f
3:
	xorl	%ecx,%ecx
3:
	movq	%r12,%rdx
	movq	%rcx,%r8
	andq	$3,%rdx
	je	6f
	leaq	(%r15,%rcx),%r8
	addq	%rax,%r8
	movq	64(%rsp),%r9
	andl	$15,%r9d
	leaq	(%r8,%r9,4),%r8
	movq	56(%rsp),%r9
	addq	%r8,%r9
	addq	$16,%r9
	xorl	%r10d,%r10d
	movq	%rcx,%r8
	.p2align	4
7:
	movzbl	(%rsi,%r8),%r11d
	movb	%r11b,(%r9,%r10)
	incq	%r8
	incq	%r10
	cmpq	%r10,%rdx
	jne	7b
6:
	subq	%r12,%rcx
	cmpq	$-4,%rcx
	ja	30f
	subq	%r8,%r12
	movq	88(%rsp),%rdx
	addq	%r8,%rdx
	movq	128(%rsp),%rcx
	addq	%rdx,%rcx
	addq	$3,%rcx
	addq	%r8,%r15
	addq	%rax,%r15
	movq	64(%rsp),%rax
	andl	$15,%eax
	leaq	(%r15,%rax,4),%rax
	movq	56(%rsp),%rdx
	addq	%rdx,%rax
	addq	$19,%rax
	xorl	%edx,%edx
	.p2align	4
6:
	movzbl	-3(%rcx,%rdx),%r8d
	movb	%r8b,-3(%rax,%rdx)
	movzbl	-2(%rcx,%rdx),%r8d
	movb	%r8b,-2(%rax,%rdx)
	movzbl	-1(%rcx,%rdx),%r8d
	movb	%r8b,-1(%rax,%rdx)
	movzbl	(%rcx,%rdx),%r8d
	movb	%r8b,(%rax,%rdx)
	addq	$4,%rdx
	cmpq	%rdx,%r12
	jne	6b
	jmp	30f
2:
	movq	%rsi,%rdx
	movq	%r12,%r8
	callq	memmove
30:
	subq	%rdi,%r14
	jbe	2f
	cmpq	$4,%r14
	ja	6f
	leaq	7f(%rip),%rax
	movslq	(%rax,%r14,4),%rcx
	addq	%rax,%rcx
	jmpq	*%rcx
15:
	movb	$0,(%rbx,%rdi)
	jmp	2f
17:
	movb	$8,%cl
	jmp	5f
16:
	xorl	%r13d,%r13d
20:
	movq	120(%rsp),%r12
	movq	%rdi,%r9
	subq	%r13,%r9
	movl	100(%rsp),%r13d
	cmpb	%r10b,%r13b
	sete	%sil
	je	16f
	movq	80(%rsp),%rcx
	testq	%rcx,%rcx
	je	9b
	movb	$0,32(%rsp)
	movl	%r10d,%ecx
	movq	%rdx,144(%rsp)
	movl	%r13d,%edx
	movq	104(%rsp),%r8
	movq	%r9,%r14
	movq	%rbp,%rsi
	movl	%r10d,%ebp
	callq	rtp_ext.form_change.row_len
	movl	%ebp,%r10d
	movq	%rsi,%rbp
	movq	%r14,%r9
	movq	%rdx,%rcx
	movq	144(%rsp),%rdx
	movb	$1,%bl
	xorl	%esi,%esi
	cmpb	$1,%al
	je	14b
13:
	movl	%r10d,%ecx
	movq	104(%rsp),%rdx
	movq	%rdi,%r8
	callq	rtp_wire.packet.rewriting.has_long_id
	movb	$6,%cl
	subb	%al,%cl
5:
	xorl	%edx,%edx
12:
	addq	$184,%rsp
	popq	%rbx
	popq	%rbp
	popq	%rdi
	popq	%rsi
	popq	%r12
	popq	%r13
	popq	%r14
	popq	%r15
	jmp	rtp_c.growing.put_status_of
16:
	movq	80(%rsp),%rcx
	jmp	9b
29:
	cmpq	$32,%rsi
	jae	5f
	xorl	%ecx,%ecx
	jmp	9f
27:
	movq	%rsi,%rdx
	andq	$-32,%rdx
	leaq	(%r15,%rsi),%r9
	movq	64(%rsp),%rcx
	andl	$15,%ecx
	shll	$2,%ecx
	movq	%r11,%r13
	leaq	(%r11,%rcx),%r8
	addq	%r9,%r8
	movq	56(%rsp),%r11
	addq	%r11,%r8
	leaq	(%rax,%rsi),%r10
	addq	%r14,%r10
	addq	%r15,%r10
	addq	%r12,%r10
	addq	%r11,%rcx
	addq	%r10,%rcx
	movq	%rdx,%r9
	negq	%r9
	xorl	%r10d,%r10d
	.p2align	4
13:
	movups	-16(%r8,%r10),%xmm0
	movups	(%r8,%r10),%xmm1
	movups	%xmm1,(%rcx,%r10)
	movups	%xmm0,-16(%rcx,%r10)
	addq	$-32,%r10
	cmpq	%r10,%r9
	jne	13b
	cmpq	%rdx,%rsi
	je	24f
	movq	%r13,%r11
	testb	$24,%sil
	je	13f
28:
	movq	%rdi,%rbx
	movq	%rsi,%r8
	andq	$-8,%r8
	movl	%esi,%ecx
	andl	$7,%ecx
	leaq	(%r15,%rsi),%r10
	movq	%r11,%r13
	leaq	(%r10,%r11),%r9
	movq	64(%rsp),%r11
	andl	$15,%r11d
	shll	$2,%r11d
	addq	%r11,%r9
	subq	%rdx,%r9
	movq	56(%rsp),%rdi
	addq	%rdi,%r9
	addq	$8,%r9
	addq	%r14,%r10
	addq	%rax,%r10
	addq	%r12,%r10
	addq	%r11,%r10
	subq	%rdx,%r10
	addq	%rdi,%r10
	addq	$8,%r10
	subq	%r8,%rdx
	xorl	%r11d,%r11d
	.p2align	4
14:
	movq	(%r9,%r11),%rdi
	movq	%rdi,(%r10,%r11)
	addq	$-8,%r11
	cmpq	%r11,%rdx
	jne	14b
	cmpq	%r8,%rsi
	movq	%rbx,%rdi
	movq	72(%rsp),%rbp
	movq	%r13,%r11
	je	24f
25:
	leaq	-1(%rcx),%rdx
	movq	%rcx,%r8
	andq	$3,%r8
	je	14f
16:
	leaq	(%r15,%rcx),%r10
	leaq	(%r10,%r14),%r9
	addq	%rax,%r9
	addq	%r12,%r9
	movq	%r11,%r13
	movq	64(%rsp),%r11
	andl	$15,%r11d
	shll	$2,%r11d
	addq	%r11,%r9
	movq	56(%rsp),%rbx
	addq	%rbx,%r9
	addq	$15,%r9
	movq	%r13,%r15
	addq	%r13,%r10
	addq	%r11,%r10
	addq	%rbx,%r10
	addq	$15,%r10
	negq	%r8
	andq	$-4,%rcx
	xorl	%r11d,%r11d
	.p2align	4
17:
	movzbl	(%r10,%r11),%ebx
	movb	%bl,(%r9,%r11)
	decq	%r11
	cmpq	%r11,%r8
	jne	17b
	movq	72(%rsp),%rbp
	movq	%r15,%r11
	movq	152(%rsp),%r15
14:
	cmpq	$3,%rdx
	jb	24f
	movq	%rcx,%rdx
	negq	%rdx
	addq	%r15,%r14
	addq	%rax,%r14
	addq	%rcx,%r14
	addq	%r12,%r14
	movq	64(%rsp),%r9
	andl	$15,%r9d
	shll	$2,%r9d
	addq	%r9,%r14
	movq	56(%rsp),%r10
	leaq	(%r10,%r14),%r8
	addq	$15,%r8
	addq	%r15,%r11
	addq	%rcx,%r11
	addq	%r9,%r11
	leaq	(%r10,%r11),%rcx
	addq	$15,%rcx
	xorl	%r9d,%r9d
	.p2align	4
17:
	movzbl	(%rcx,%r9),%r10d
	movb	%r10b,(%r8,%r9)
	movzbl	-1(%rcx,%r9),%r10d
	movb	%r10b,-1(%r8,%r9)
	movzbl	-2(%rcx,%r9),%r10d
	movb	%r10b,-2(%r8,%r9)
	movzbl	-3(%rcx,%r9),%r10d
	movb	%r10b,-3(%r8,%r9)
	addq	$-4,%r9
	cmpq	%r9,%rdx
	jne	17b
	jmp	24f
8:
	movb	$3,%dl
	jmp	12b
10:
	movb	$4,%dl
	jmp	12b
8:
	movl	$0,(%rbx,%rdi)
	jmp	2f
10:
	movw	$0,(%rbx,%rdi)
	jmp	2f
17:
	movb	$0,2(%rbx,%rdi)
	movw	$0,(%rbx,%rdi)
	jmp	2f
6:
	movq	%r14,%rsi
	addq	%rdi,%rbx
	decq	%r14
	movq	%rbx,%rcx
	xorl	%edx,%edx
	movq	%r14,%r8
	callq	memset
	movb	$0,-1(%rsi,%rbx)
	jmp	2f
5:
	movq	%rsi,%rcx
	andq	$-32,%rcx
	leaq	(%r15,%r14),%rdx
	addq	%rax,%rdx
	addq	%r12,%rdx
	movq	64(%rsp),%r8
	andl	$15,%r8d
	shll	$2,%r8d
	addq	%r8,%rdx
	movq	56(%rsp),%r10
	addq	%r10,%rdx
	addq	$32,%rdx
	leaq	(%r15,%r11),%r9
	addq	%r8,%r9
	leaq	(%r10,%r9),%r8
	addq	$32,%r8
	xorl	%r9d,%r9d
	.p2align	4
5:
	movups	-16(%r8,%r9),%xmm0
	movups	(%r8,%r9),%xmm1
	movups	%xmm0,-16(%rdx,%r9)
	movups	%xmm1,(%rdx,%r9)
	addq	$32,%r9
	cmpq	%r9,%rcx
	jne	5b
	cmpq	%rcx,%rsi
	je	24f
	testb	$28,%sil
	je	21b
9:
	movq	%rcx,%rbx
	movq	%rsi,%rcx
	andq	$-4,%rcx
	movq	%rcx,%rdx
	subq	%rbx,%rdx
	leaq	(%r15,%r14),%r8
	addq	%rax,%r8
	addq	%rbx,%r8
	addq	%r12,%r8
	movq	64(%rsp),%r10
	andl	$15,%r10d
	shll	$2,%r10d
	addq	%r10,%r8
	movq	56(%rsp),%r9
	addq	%r9,%r8
	addq	$16,%r8
	movq	%r11,80(%rsp)
	addq	%r15,%r11
	addq	%rbx,%r11
	addq	%r10,%r11
	addq	%r11,%r9
	addq	$16,%r9
	xorl	%r10d,%r10d
	.p2align	4
5:
	movl	(%r9,%r10),%r11d
	movl	%r11d,(%r8,%r10)
	addq	$4,%r10
	cmpq	%r10,%rdx
	jne	5b
	cmpq	%rcx,%rsi
	movq	152(%rsp),%r15
	movq	80(%rsp),%r11
	jne	21b
24:
	cmpb	$0,100(%rsp)
	je	5f
	movzbl	55(%rsp),%ecx
	movb	%cl,(%rbp,%rax)
	movb	%r12b,1(%rbp,%rax)
	movl	$2,%r13d
	jmp	6f
5:
	movzbl	55(%rsp),%ecx
	rolb	$4,%cl
	addb	%r12b,%cl
	decb	%cl
	movb	%cl,(%rbp,%rax)
	movl	$1,%r13d
6:
	movq	112(%rsp),%rdx
	leaq	(%rax,%r13),%rcx
	testb	%r12b,%r12b
	movq	120(%rsp),%r14
	je	5f
	movzbl	%r12b,%r8d
	cmpl	$1,%r8d
	jne	6f
	movzbl	(%rdx),%eax
	movb	%al,(%rbp,%rcx)
	jmp	9f
6:
	cmpq	$2,%r12
	ja	6f
	movzbl	(%rdx),%eax
	movb	%al,(%rbp,%rcx)
	movzbl	1(%rdx),%eax
	movb	%al,1(%rbp,%rcx)
	jmp	9f
6:
	cmpq	$3,%r12
	jne	5f
	movzbl	(%rdx),%eax
	movb	%al,(%rbp,%rcx)
	movzbl	1(%rdx),%eax
	movb	%al,1(%rbp,%rcx)
	movzbl	2(%rdx),%eax
	movb	%al,2(%rbp,%rcx)
	jmp	9f
5:
	addq	%rbp,%rcx
	movq	%rcx,%r8
	subq	%rdx,%r8
	cmpq	%r12,%r8
	jae	5f
	cmpq	$4,%r12
	jb	6f
	leaq	(%r15,%rax),%r8
	leaq	(%r8,%r13),%r9
	movq	56(%rsp),%rcx
	addq	%r9,%rcx
	movq	64(%rsp),%r10
	leal	(,%r10,4),%r10d
	andl	$60,%r10d
	addq	%r10,%rcx
	subq	%rdx,%rcx
	addq	$16,%rcx
	cmpq	$32,%rcx
	jae	18f
6:
	xorl	%ecx,%ecx
6:
	movq	%r12,%r8
	movq	%rcx,%r9
	andq	$3,%r8
	je	19f
	leaq	(%r15,%rcx),%r9
	addq	%rax,%r9
	addq	%r13,%r9
	movq	64(%rsp),%r10
	andl	$15,%r10d
	leaq	(%r9,%r10,4),%r9
	movq	56(%rsp),%r10
	addq	%r9,%r10
	addq	$16,%r10
	xorl	%r11d,%r11d
	movq	%rcx,%r9
	.p2align	4
21:
	movzbl	(%rdx,%r9),%ebx
	movb	%bl,(%r10,%r11)
	incq	%r9
	incq	%r11
	cmpq	%r11,%r8
	jne	21b
19:
	subq	%r12,%rcx
	cmpq	$-4,%rcx
	movq	72(%rsp),%rbp
	ja	9f
	subq	%r9,%r12
	movq	88(%rsp),%r8
	addq	%r9,%r8
	movq	128(%rsp),%rcx
	addq	%r8,%rcx
	addq	$3,%rcx
	addq	%rax,%r15
	addq	%r9,%r15
	addq	%r13,%r15
	movq	64(%rsp),%rax
	andl	$15,%eax
	leaq	(%r15,%rax,4),%rax
	movq	56(%rsp),%rdx
	addq	%rdx,%rax
	addq	$19,%rax
	xorl	%edx,%edx
	.p2align	4
19:
	movzbl	-3(%rcx,%rdx),%r8d
	movb	%r8b,-3(%rax,%rdx)
	movzbl	-2(%rcx,%rdx),%r8d
	movb	%r8b,-2(%rax,%rdx)
	movzbl	-1(%rcx,%rdx),%r8d
	movb	%r8b,-1(%rax,%rdx)
	movzbl	(%rcx,%rdx),%r8d
	movb	%r8b,(%rax,%rdx)
	addq	$4,%rdx
	cmpq	%rdx,%r12
	jne	19b
	jmp	9f
5:
	movq	%r12,%r8
	callq	memmove
9:
	addq	%rdi,%rsi
	subq	%rsi,%r14
	jbe	2f
	cmpq	$4,%r14
	ja	5f
	leaq	19f(%rip),%rax
	movslq	(%rax,%r14,4),%rcx
	addq	%rax,%rcx
	jmpq	*%rcx
21:
	movb	$0,(%rbp,%rsi)
	jmp	2f
23:
	movl	$0,(%rbp,%rsi)
	jmp	2f
24:
	movw	$0,(%rbp,%rsi)
	jmp	2f
25:
	movb	$0,2(%rbp,%rsi)
	movw	$0,(%rbp,%rsi)
	jmp	2f
5:
	movq	%r14,%rdi
	addq	%rsi,%rbp
	decq	%r14
	movq	%rbp,%rcx
	xorl	%edx,%edx
	movq	%r14,%r8
	callq	memset
	movb	$0,-1(%rdi,%rbp)
2:
	movq	168(%rsp),%rax
	movq	144(%rsp),%rcx
	movq	%rcx,(%rax)
	xorl	%eax,%eax
1:
	addq	$184,%rsp
	popq	%rbx
	popq	%rbp
	popq	%rdi
	popq	%rsi
	popq	%r12
	popq	%r13
	popq	%r14
	popq	%r15
	retq
18:
	cmpq	$32,%r12
	jae	1f
	xorl	%ecx,%ecx
	jmp	5f
11:
	xorl	%edx,%edx
	cmpb	$15,%r12b
	movl	$0,%ecx
	adcb	$5,%cl
	jmp	12b
4:
	cmpq	$32,%r12
	jae	4f
	xorl	%ecx,%ecx
	jmp	11f
1:
	movq	%rdi,%rbx
	movl	%r12d,%ecx
	andl	$224,%ecx
	movq	128(%rsp),%r11
	movq	88(%rsp),%rdi
	addq	%rdi,%r11
	addq	$16,%r11
	addq	%r10,%r9
	movq	56(%rsp),%r10
	addq	%r10,%r9
	addq	$32,%r9
	xorl	%r10d,%r10d
1:
	movups	-16(%r11,%r10),%xmm0
	movups	(%r11,%r10),%xmm1
	movups	%xmm0,-16(%r9,%r10)
	movups	%xmm1,(%r9,%r10)
	addq	$32,%r10
	cmpq	%r10,%rcx
	jne	1b
	cmpq	%rcx,%r12
	movq	%rbx,%rdi
	movq	72(%rsp),%rbp
	je	9b
	testb	$28,%r12b
	je	6b
5:
	movq	%rdi,%rbx
	movq	%rcx,%r11
	movl	%r12d,%ecx
	andl	$252,%ecx
	movq	%rcx,%r9
	subq	%r11,%r9
	movq	88(%rsp),%r10
	addq	%r11,%r10
	addq	128(%rsp),%r10
	addq	%r11,%r8
	addq	%r13,%r8
	movq	64(%rsp),%r11
	andl	$15,%r11d
	leaq	(%r8,%r11,4),%r8
	movq	56(%rsp),%r11
	addq	%r11,%r8
	addq	$16,%r8
	xorl	%r11d,%r11d
1:
	movl	(%r10,%r11),%edi
	movl	%edi,(%r8,%r11)
	addq	$4,%r11
	cmpq	%r11,%r9
	jne	1b
	cmpq	%rcx,%r12
	movq	%rbx,%rdi
	movq	72(%rsp),%rbp
	je	9b
	jmp	6b
22:
	movl	%r14d,%r10d
	movq	%rdi,%rdx
	movq	%rsi,%rdi
	jmp	20b
4:
	movl	%r12d,%ecx
	andl	$224,%ecx
	movq	128(%rsp),%r8
	movq	88(%rsp),%r9
	addq	%r9,%r8
	addq	$16,%r8
	addq	%r15,%rdx
	addq	%rax,%rdx
	movq	56(%rsp),%r9
	addq	%r9,%rdx
	addq	$32,%rdx
	xorl	%r9d,%r9d
1:
	movups	-16(%r8,%r9),%xmm0
	movups	(%r8,%r9),%xmm1
	movups	%xmm0,-16(%rdx,%r9)
	movups	%xmm1,(%rdx,%r9)
	addq	$32,%r9
	cmpq	%r9,%rcx
	jne	1b
	cmpq	%rcx,%r12
	je	30b
	testb	$28,%r12b
	je	3b
11:
	movq	%rcx,%r9
	movl	%r12d,%ecx
	andl	$252,%ecx
	movq	%rcx,%rdx
	subq	%r9,%rdx
	movq	88(%rsp),%r8
	addq	%r9,%r8
	addq	128(%rsp),%r8
	addq	%r15,%r9
	addq	%rax,%r9
	movq	64(%rsp),%r10
	andl	$15,%r10d
	leaq	(%r9,%r10,4),%r9
	movq	56(%rsp),%r10
	addq	%r10,%r9
	addq	$16,%r9
	xorl	%r10d,%r10d
1:
	movl	(%r8,%r10),%r11d
	movl	%r11d,(%r9,%r10)
	addq	$4,%r10
	cmpq	%r10,%rdx
	jne	1b
	cmpq	%rcx,%r12
	je	30b
	jmp	3b
13:
	movl	%esi,%ecx
	andl	$31,%ecx
	leaq	-1(%rcx),%rdx
	movq	%rcx,%r8
	andq	$3,%r8
	jne	16b
	jmp	14b
	.section	.rdata,"dr"
	.p2align	2,0x0
19:
	.long	2b-19b
	.long	21b-19b
	.long	24b-19b
	.long	25b-19b
	.long	23b-19b
7:
	.long	2b-7b
	.long	15b-7b
	.long	10b-7b
	.long	17b-7b
	.long	8b-7b
	.section	.text$rtp_proved_add_element,"xr"
	.seh_endproc

	.def	rtpw_change_form;
	.scl	2;
	.type	32;
	.endef
	.section	.text$rtpw_change_form,"xr"
	.globl	rtpw_change_form
	.p2align	4
rtpw_change_form:
.seh_proc rtpw_change_form
	pushq	%rsi
	.seh_pushreg %rsi
	pushq	%rdi
	.seh_pushreg %rdi
	pushq	%rbx
	.seh_pushreg %rbx
	subq	$112,%rsp
	.seh_stackalloc 112
	.seh_endprologue
	movq	%r8,%rsi
	xorl	%r10d,%r10d
	testq	%rcx,%rcx
	sete	%r11b
	cmpb	$1,%r9b
	je	1f
	movzbl	%r9b,%r8d
	movl	$9,%eax
	cmpl	$2,%r8d
	jne	2f
	movb	$1,%r8b
	jmp	3f
1:
	xorl	%r8d,%r8d
3:
	movq	(%rsi),%rax
	xorps	%xmm0,%xmm0
	movaps	%xmm0,80(%rsp)
	movq	$0,96(%rsp)
	cmpq	%rax,%rdx
	jb	1f
	cmpq	$12,%rax
	jb	3f
	movb	%r11b,%r10b
	shll	$12,%r10d
	addq	%r10,%rcx
	movzbl	(%rcx),%r11d
	cmpb	$-65,%r11b
	jg	4f
	movl	%r11d,%r9d
	andl	$15,%r9d
	leaq	12(,%r9,4),%r9
	movq	%rax,%r10
	subq	%r9,%r10
	jb	5f
	testb	$16,%r11b
	jne	6f
	xorl	%r10d,%r10d
	jmp	7f
6:
	cmpq	$4,%r10
	jb	6f
	movzwl	2(%rcx,%r9),%r11d
	rolw	$8,%r11w
	addq	$-4,%r10
	movzwl	%r11w,%r11d
	shll	$2,%r11d
	cmpq	%r11,%r10
	jb	8f
	movzwl	(%rcx,%r9),%edi
	cmpl	$57022,%edi
	sete	%bl
	andl	$61695,%edi
	xorl	%r10d,%r10d
	cmpw	$16,%di
	sete	%r10b
	addq	%r11,%r9
	addq	$4,%r9
	orb	%r10b,%bl
	movzbl	%bl,%r11d
	shll	$8,%r10d
	orl	%r11d,%r10d
7:
	movq	%rcx,40(%rsp)
	movq	%rdx,48(%rsp)
	movq	%rax,56(%rsp)
	movq	%r9,64(%rsp)
	movw	%r10w,72(%rsp)
	movl	$0,74(%rsp)
	movw	$0,78(%rsp)
	leaq	80(%rsp),%rcx
	leaq	40(%rsp),%rdx
	callq	rtp_wire.packet.rtp_packet_buf.RtpPacketBuf.change_form
	cmpb	$0,80(%rsp)
	jne	7f
	movq	56(%rsp),%rax
	movq	%rax,(%rsi)
	xorl	%eax,%eax
2:
	addq	$112,%rsp
	popq	%rbx
	popq	%rdi
	popq	%rsi
	retq
1:
	xorl	%ecx,%ecx
	jmp	1f
3:
	movl	$3,%ecx
	jmp	1f
4:
	movl	$259,%ecx
	jmp	1f
5:
	movl	$515,%ecx
	jmp	1f
7:
	movzwl	88(%rsp),%ecx
	jmp	1f
6:
	movl	$771,%ecx
	jmp	1f
8:
	movl	$1027,%ecx
1:
	movl	%ecx,%edx
	shrl	$8,%edx
	addq	$112,%rsp
	popq	%rbx
	popq	%rdi
	popq	%rsi
	jmp	rtp_c.growing.put_status_of
	.seh_endproc

	.def	rtpw_compact;
	.scl	2;
	.type	32;
	.endef
	.section	.text$rtpw_compact,"xr"
	.globl	rtpw_compact
	.p2align	4
rtpw_compact:
.seh_proc rtpw_compact
	pushq	%r15
	.seh_pushreg %r15
	pushq	%r14
	.seh_pushreg %r14
	pushq	%r13
	.seh_pushreg %r13
	pushq	%r12
	.seh_pushreg %r12
	pushq	%rsi
	.seh_pushreg %rsi
	pushq	%rdi
	.seh_pushreg %rdi
	pushq	%rbx
	.seh_pushreg %rbx
	subq	$32,%rsp
	.seh_stackalloc 32
	.seh_endprologue
	xorl	%r9d,%r9d
	testq	%rcx,%rcx
	sete	%r10b
	movq	(%r8),%rsi
	movl	$9,%eax
	cmpq	%rsi,%rdx
	jb	1f
	movl	$1,%eax
	cmpq	$12,%rsi
	jb	1f
	movb	%r10b,%r9b
	shll	$12,%r9d
	addq	%r9,%rcx
	movzbl	(%rcx),%r9d
	movl	$2,%eax
	cmpb	$-65,%r9b
	jg	1f
	movl	%r9d,%eax
	andl	$15,%eax
	leaq	12(,%rax,4),%r12
	movl	$3,%eax
	movq	%rsi,%rdx
	subq	%r12,%rdx
	jb	1f
	testb	$16,%r9b
	jne	2f
3:
	movq	%rsi,(%r8)
	xorl	%eax,%eax
	jmp	1f
2:
	movl	$4,%eax
	cmpq	$4,%rdx
	jb	1f
	addq	$-4,%rdx
	movzwl	2(%rcx,%r12),%eax
	rolw	$8,%ax
	movzwl	%ax,%r9d
	shll	$2,%r9d
	movl	$6,%eax
	cmpq	%r9,%rdx
	jae	2f
1:
	addq	$32,%rsp
	popq	%rbx
	popq	%rdi
	popq	%rsi
	popq	%r12
	popq	%r13
	popq	%r14
	popq	%r15
	retq
2:
	movzwl	(%rcx,%r12),%edx
	movl	%edx,%eax
	andl	$61695,%eax
	cmpl	$57022,%edx
	je	1f
	cmpw	$16,%ax
	jne	3b
1:
	cmpw	$16,%ax
	sete	%al
	leaq	(%r9,%r12),%rdi
	addq	$4,%rdi
	leaq	4(%rcx,%r12),%rdx
	movq	%rcx,%rbx
	movl	%eax,%ecx
	movq	%r8,%r13
	movq	%r9,%r8
	callq	rtp_ext.gathering.compact_body
	movq	%rax,%r14
	addq	$3,%r14
	movq	%r14,%rax
	andq	$-4,%rax
	leaq	(%rax,%r12),%r15
	addq	$4,%r15
	movq	%rbx,%rcx
	movq	%rdi,%rdx
	movq	%rsi,%r8
	movq	%r15,%r9
	callq	rtp_wire.packet.resizing.move_bytes
	movq	%r13,%r8
	movl	%r14d,%eax
	shrl	$10,%eax
	andl	$-4,%r14d
	shll	$6,%r14d
	movzbl	%al,%eax
	orl	%r14d,%eax
	movw	%ax,2(%rbx,%r12)
	subq	%rdi,%rsi
	addq	%r15,%rsi
	jmp	3b
	.seh_endproc

	.def	rtpw_from_retransmission;
	.scl	2;
	.type	32;
	.endef
	.section	.text$rtpw_from_retransmission,"xr"
	.globl	rtpw_from_retransmission
	.p2align	4
rtpw_from_retransmission:
.seh_proc rtpw_from_retransmission
	pushq	%r15
	.seh_pushreg %r15
	pushq	%r14
	.seh_pushreg %r14
	pushq	%r13
	.seh_pushreg %r13
	pushq	%r12
	.seh_pushreg %r12
	pushq	%rsi
	.seh_pushreg %rsi
	pushq	%rdi
	.seh_pushreg %rdi
	pushq	%rbp
	.seh_pushreg %rbp
	pushq	%rbx
	.seh_pushreg %rbx
	subq	$328,%rsp
	.seh_stackalloc 328
	.seh_endprologue
	movzbl	432(%rsp),%ebp
	xorl	%r12d,%r12d
	testq	%rcx,%rcx
	sete	%r14b
	movl	$9,%edi
	testb	%bpl,%bpl
	js	1f
	movq	%rdx,%rbx
	movq	%rcx,%rsi
	movl	%r9d,%r15d
	movq	440(%rsp),%rdx
	movq	%r8,32(%rsp)
	movq	(%r8),%r13
	incq	%rdx
	movb	$0,72(%rsp)
	leaq	73(%rsp),%rcx
	movl	$255,%r8d
	callq	memcpy
	cmpq	%r13,%rbx
	jb	1f
	movl	$1,%edi
	cmpq	$12,%r13
	jb	1f
	movb	%r14b,%r12b
	shll	$12,%r12d
	addq	%r12,%rsi
	movzbl	(%rsi),%eax
	movl	$2,%edi
	cmpb	$-65,%al
	jg	1f
	movl	%eax,%ecx
	andl	$15,%ecx
	leaq	12(,%rcx,4),%rbx
	movl	$3,%edi
	movq	%r13,%r12
	subq	%rbx,%r12
	jae	2f
1:
	movl	%edi,%eax
	addq	$328,%rsp
	popq	%rbx
	popq	%rbp
	popq	%rdi
	popq	%rsi
	popq	%r12
	popq	%r13
	popq	%r14
	popq	%r15
	retq
2:
	testb	$16,%al
	jne	2f
	xorl	%edx,%edx
	xorl	%ecx,%ecx
	testb	$32,%al
	je	3f
4:
	movl	$11,%edi
	cmpq	%rbx,%r13
	je	1b
	movzbl	-1(%rsi,%r13),%eax
	movl	$9,%edi
	subq	%rax,%r12
	jb	1b
	jmp	3f
2:
	movl	$4,%edi
	cmpq	$4,%r12
	jb	1b
	addq	$-4,%r12
	movzwl	2(%rsi,%rbx),%ecx
	rolw	$8,%cx
	movzwl	%cx,%r8d
	shll	$2,%r8d
	movl	$6,%edi
	cmpq	%r8,%r12
	jb	1b
	movzwl	(%rsi,%rbx),%edx
	movl	%edx,%r9d
	andl	$61695,%r9d
	xorl	%ecx,%ecx
	cmpw	$16,%r9w
	sete	%cl
	cmpl	$57022,%edx
	movl	$1,%edx
	cmovnel	%ecx,%edx
	addq	%r8,%rbx
	addq	$4,%rbx
	movq	%r13,%r12
	subq	%rbx,%r12
	testb	$32,%al
	jne	4b
3:
	movl	$11,%edi
	cmpq	$2,%r12
	jb	1b
	movzwl	(%rsi,%rbx),%edi
	movq	$0,64(%rsp)
	movq	%rsi,40(%rsp)
	movq	%rbx,48(%rsp)
	movq	%rbx,56(%rsp)
	movb	%dl,64(%rsp)
	movb	%cl,65(%rsp)
	leaq	40(%rsp),%rcx
	leaq	72(%rsp),%rdx
	callq	rtp_wire.packet.rtp_packet_mut.RtpPacketMut.renumber
	testb	%al,%al
	je	2f
	movzbl	(%rsi),%eax
	movzbl	1(%rsi),%ecx
	andb	$31,%al
	orb	$-128,%al
	movb	%al,(%rsi)
	andb	$-128,%cl
	orb	%bpl,%cl
	movb	%cl,1(%rsi)
	movw	%di,2(%rsi)
	bswapl	%r15d
	movl	%r15d,8(%rsi)
	cmpq	$2,%r12
	je	3f
	addq	%rbx,%rsi
	leaq	2(%rsi),%rdx
	leaq	-2(%r12),%r8
	movq	%rsi,%rcx
	callq	memmove
3:
	leaq	(%rbx,%r12),%rcx
	addq	$-2,%rcx
	movq	32(%rsp),%rax
	movq	%rcx,(%rax)
	xorl	%edi,%edi
	jmp	1b
2:
	movl	$16,%edi
	jmp	1b
	.seh_endproc

	.def	rtpw_parse;
	.scl	2;
	.type	32;
	.endef
	.section	.text$rtpw_parse,"xr"
	.globl	rtpw_parse
	.p2align	4
rtpw_parse:
.seh_proc rtpw_parse
	pushq	%rsi
	.seh_pushreg %rsi
	pushq	%rdi
	.seh_pushreg %rdi
	pushq	%rbp
	.seh_pushreg %rbp
	pushq	%rbx
	.seh_pushreg %rbx
	subq	$40,%rsp
	.seh_stackalloc 40
	.seh_endprologue
	xorl	%r10d,%r10d
	testq	%rcx,%rcx
	sete	%r11b
	movl	$1,%eax
	cmpq	$12,%rdx
	jb	1f
	movb	%r11b,%r10b
	shll	$12,%r10d
	addq	%r10,%rcx
	movzbl	(%rcx),%esi
	movl	$2,%eax
	cmpb	$-65,%sil
	jg	1f
	leal	(,%rsi,4),%r10d
	andl	$60,%r10d
	leaq	12(%r10),%r11
	movl	$3,%eax
	subq	%r11,%rdx
	jb	1f
	testb	$16,%sil
	jne	2f
	xorl	%r10d,%r10d
3:
	movq	%r11,(%r9)
	movl	4(%rcx),%eax
	bswapl	%eax
	movl	%eax,8(%r9)
	movl	8(%rcx),%eax
	bswapl	%eax
	movl	%eax,12(%r9)
	movzbl	(%rcx),%edi
	xorps	%xmm0,%xmm0
	movups	%xmm0,60(%r9)
	movups	%xmm0,48(%r9)
	movups	%xmm0,32(%r9)
	movups	%xmm0,16(%r9)
	andl	$15,%edi
	je	4f
	leaq	12(%rcx),%rdx
	cmpb	$1,%dil
	jne	5f
	xorl	%eax,%eax
	jmp	6f
2:
	movl	$4,%eax
	cmpq	$4,%rdx
	jb	1f
	movzwl	2(%rcx,%r11),%eax
	rolw	$8,%ax
	addq	$-4,%rdx
	movzwl	%ax,%edi
	shll	$2,%edi
	cmpq	%rdi,%rdx
	jae	2f
	movzwl	12(%rcx,%r10),%eax
	cmpl	$57022,%eax
	sete	%cl
	andl	$61695,%eax
	cmpw	$16,%ax
	sete	%al
	orb	%cl,%al
	movzbl	%al,%eax
	addl	$5,%eax
	jmp	1f
4:
	xorl	%eax,%eax
	jmp	4f
5:
	movl	%edi,%ebx
	andl	$-2,%ebx
	xorl	%eax,%eax
	.p2align	4
5:
	movl	(%rdx),%ebp
	bswapl	%ebp
	movl	%ebp,16(%r9,%rax,4)
	movl	4(%rdx),%ebp
	addq	$8,%rdx
	bswapl	%ebp
	movl	%ebp,20(%r9,%rax,4)
	addq	$2,%rax
	cmpq	%rax,%rbx
	jne	5b
	testb	$1,%dil
	je	4f
6:
	leaq	16(%r9),%rdi
	movl	(%rdx),%edx
	bswapl	%edx
	movl	%edx,(%rdi,%rax,4)
	incq	%rax
4:
	movb	%al,79(%r9)
	movzwl	2(%rcx),%eax
	rolw	$8,%ax
	movw	%ax,76(%r9)
	movzbl	1(%rcx),%eax
	andb	$127,%al
	movb	%al,78(%r9)
	movzbl	1(%rcx),%eax
	shrb	$7,%al
	movb	%al,80(%r9)
	movzbl	(%rcx),%eax
	shrb	$5,%al
	andb	$1,%al
	movb	%al,81(%r9)
	movzbl	(%rcx),%eax
	shrb	$4,%al
	andb	$1,%al
	movb	%al,82(%r9)
	testb	$16,%sil
	jne	4f
	xorps	%xmm0,%xmm0
	movups	%xmm0,200(%r9)
	movups	%xmm0,184(%r9)
	movups	%xmm0,168(%r9)
	movups	%xmm0,152(%r9)
	movups	%xmm0,136(%r9)
	movups	%xmm0,120(%r9)
	movups	%xmm0,104(%r9)
	movups	%xmm0,88(%r9)
	movq	$0,216(%r9)
	jmp	5f
4:
	movzbl	(%rcx),%eax
	andl	$15,%eax
	leaq	16(,%rax,4),%rsi
	leaq	(%rcx,%rax,4),%rdx
	addq	$16,%rdx
	subq	%rsi,%r11
	leaq	88(%r9),%rax
	xorps	%xmm0,%xmm0
	movups	%xmm0,200(%r9)
	movups	%xmm0,184(%r9)
	movups	%xmm0,168(%r9)
	movups	%xmm0,152(%r9)
	movups	%xmm0,136(%r9)
	movups	%xmm0,120(%r9)
	movups	%xmm0,104(%r9)
	movups	%xmm0,88(%r9)
	movq	$0,216(%r9)
	movq	%rax,32(%rsp)
	movq	%r8,%rcx
	movq	%r11,%r8
	movl	%r10d,%r9d
	callq	rtp_ext.block_values.read_values.9a3a19c0cce455e9
5:
	xorl	%eax,%eax
1:
	addq	$40,%rsp
	popq	%rbx
	popq	%rbp
	popq	%rdi
	popq	%rsi
	retq
2:
	movzwl	(%rcx,%r11),%eax
	cmpl	$57022,%eax
	setne	%dl
	andl	$61695,%eax
	cmpw	$16,%ax
	sete	%r10b
	xorb	%r10b,%dl
	movl	$5,%eax
	jne	1b
	addq	%rdi,%r11
	addq	$4,%r11
	jmp	3b
	.seh_endproc

	.def	rtpw_parse_layers;
	.scl	2;
	.type	32;
	.endef
	.section	.text$rtpw_parse_layers,"xr"
	.globl	rtpw_parse_layers
	.p2align	4
rtpw_parse_layers:
.seh_proc rtpw_parse_layers
	pushq	%rsi
	.seh_pushreg %rsi
	pushq	%rdi
	.seh_pushreg %rdi
	pushq	%rbp
	.seh_pushreg %rbp
	pushq	%rbx
	.seh_pushreg %rbx
	subq	$56,%rsp
	.seh_stackalloc 56
	.seh_endprologue
	xorl	%eax,%eax
	testq	%rcx,%rcx
	sete	%r10b
	movl	$1,%edi
	cmpq	$12,%rdx
	jb	1f
	movb	%r10b,%al
	shll	$12,%eax
	addq	%rax,%rcx
	movzbl	(%rcx),%r11d
	movl	$2,%edi
	cmpb	$-65,%r11b
	jg	1f
	leal	(,%r11,4),%r10d
	andl	$60,%r10d
	leaq	12(%r10),%rax
	movl	$3,%edi
	subq	%rax,%rdx
	jb	1f
	testb	$16,%r11b
	jne	2f
	xorl	%r10d,%r10d
3:
	movq	%rax,(%r9)
	movl	4(%rcx),%edx
	bswapl	%edx
	movl	%edx,8(%r9)
	movl	8(%rcx),%edx
	bswapl	%edx
	movl	%edx,12(%r9)
	movzbl	(%rcx),%edi
	xorps	%xmm0,%xmm0
	movups	%xmm0,60(%r9)
	movups	%xmm0,48(%r9)
	movups	%xmm0,32(%r9)
	movups	%xmm0,16(%r9)
	andl	$15,%edi
	je	4f
	leaq	12(%rcx),%rsi
	cmpb	$1,%dil
	jne	5f
	xorl	%edx,%edx
	jmp	6f
2:
	movl	$4,%edi
	cmpq	$4,%rdx
	jb	1f
	movzwl	2(%rcx,%rax),%esi
	rolw	$8,%si
	addq	$-4,%rdx
	movzwl	%si,%esi
	shll	$2,%esi
	cmpq	%rsi,%rdx
	jae	2f
	movzwl	12(%rcx,%r10),%eax
	cmpl	$57022,%eax
	sete	%cl
	andl	$61695,%eax
	cmpw	$16,%ax
	sete	%al
	orb	%cl,%al
	movzbl	%al,%edi
	addl	$5,%edi
	jmp	1f
4:
	xorl	%edx,%edx
	jmp	4f
5:
	movl	%edi,%ebx
	andl	$-2,%ebx
	xorl	%edx,%edx
	.p2align	4
5:
	movl	(%rsi),%ebp
	bswapl	%ebp
	movl	%ebp,16(%r9,%rdx,4)
	movl	4(%rsi),%ebp
	addq	$8,%rsi
	bswapl	%ebp
	movl	%ebp,20(%r9,%rdx,4)
	addq	$2,%rdx
	cmpq	%rdx,%rbx
	jne	5b
	testb	$1,%dil
	je	4f
6:
	leaq	16(%r9),%rdi
	movl	(%rsi),%esi
	bswapl	%esi
	movl	%esi,(%rdi,%rdx,4)
	incq	%rdx
4:
	movq	128(%rsp),%rsi
	movb	%dl,79(%r9)
	movzwl	2(%rcx),%edx
	rolw	$8,%dx
	movw	%dx,76(%r9)
	movzbl	1(%rcx),%edx
	andb	$127,%dl
	movb	%dl,78(%r9)
	movzbl	1(%rcx),%edx
	shrb	$7,%dl
	movb	%dl,80(%r9)
	movzbl	(%rcx),%edx
	shrb	$5,%dl
	andb	$1,%dl
	movb	%dl,81(%r9)
	movzbl	(%rcx),%edx
	shrb	$4,%dl
	andb	$1,%dl
	movb	%dl,82(%r9)
	movups	%xmm0,88(%r9)
	movups	%xmm0,104(%r9)
	movups	%xmm0,120(%r9)
	movups	%xmm0,136(%r9)
	movups	%xmm0,152(%r9)
	movups	%xmm0,168(%r9)
	movups	%xmm0,184(%r9)
	movups	%xmm0,200(%r9)
	movq	$0,216(%r9)
	testb	$16,%r11b
	je	4f
	movq	%r9,%rdi
	addq	$88,%r9
	movzbl	(%rcx),%edx
	andl	$15,%edx
	leaq	16(,%rdx,4),%r11
	leaq	(%rcx,%rdx,4),%rdx
	addq	$16,%rdx
	subq	%r11,%rax
	movq	%rsi,40(%rsp)
	movq	%r9,32(%rsp)
	movq	%r8,%rcx
	movq	%rax,%r8
	movl	%r10d,%r9d
	callq	rtp_ext.block_values.read_apart.203c5bf9b6d6d505
	testb	%al,%al
	je	4f
	movb	$1,219(%rdi)
	xorl	%edi,%edi
	jmp	1f
4:
	xorl	%edi,%edi
	movl	$680,%r8d
	movq	%rsi,%rcx
	xorl	%edx,%edx
	callq	memset
1:
	movl	%edi,%eax
	addq	$56,%rsp
	popq	%rbx
	popq	%rbp
	popq	%rdi
	popq	%rsi
	retq
2:
	movzwl	(%rcx,%rax),%edx
	cmpl	$57022,%edx
	setne	%bl
	andl	$61695,%edx
	cmpw	$16,%dx
	sete	%r10b
	xorb	%r10b,%bl
	movl	$5,%edi
	jne	1b
	addq	%rsi,%rax
	addq	$4,%rax
	jmp	3b
	.seh_endproc

	.def	rtpw_parse_many;
	.scl	2;
	.type	32;
	.endef
	.section	.text$rtpw_parse_many,"xr"
	.globl	rtpw_parse_many
	.p2align	4
rtpw_parse_many:
.seh_proc rtpw_parse_many
	pushq	%r15
	.seh_pushreg %r15
	pushq	%r14
	.seh_pushreg %r14
	pushq	%r13
	.seh_pushreg %r13
	pushq	%r12
	.seh_pushreg %r12
	pushq	%rsi
	.seh_pushreg %rsi
	pushq	%rdi
	.seh_pushreg %rdi
	pushq	%rbp
	.seh_pushreg %rbp
	pushq	%rbx
	.seh_pushreg %rbx
	subq	$72,%rsp
	.seh_stackalloc 72
	.seh_endprologue
	movq	%r8,64(%rsp)
	movq	176(%rsp),%rsi
	xorl	%r8d,%r8d
	testq	%rcx,%rcx
	sete	%r11b
	xorl	%eax,%eax
	testq	%r9,%r9
	sete	%r10b
	testq	%rsi,%rsi
	je	1f
	movb	%r11b,%r8b
	shll	$12,%r8d
	addq	%r8,%rcx
	movb	%r10b,%al
	shll	$12,%eax
	leaq	(%r9,%rax),%rdi
	leaq	(%rax,%r9),%rbx
	addq	$36,%rbx
	xorl	%r14d,%r14d
	jmp	2f
	.p2align	4
3:
	movl	$9,240(%r15)
	movb	$0,244(%r15)
4:
	incq	%r14
	addq	$248,%rbx
	cmpq	%rsi,%r14
	je	1f
2:
	imulq	$248,%r14,%rax
	leaq	(%rdi,%rax),%r15
	movq	(%rdi,%rax),%r12
	movq	%rdx,%rax
	subq	%r12,%rax
	jb	3b
	movq	8(%r15),%r9
	cmpq	%r9,%rax
	jb	3b
	addq	%rcx,%r12
	cmpq	$12,%r9
	jae	2f
	movl	$1,240(%r15)
	cmpq	$2,%r9
	jae	3f
	xorl	%eax,%eax
	movb	%al,244(%r15)
	jmp	4b
2:
	movzbl	(%r12),%r10d
	movl	$2,%eax
	cmpb	$-65,%r10b
	jg	2f
	leal	(,%r10,4),%r11d
	andl	$60,%r11d
	leaq	12(%r11),%rbp
	movl	$3,%eax
	subq	%rbp,%r9
	jae	5f
2:
	movl	%eax,240(%r15)
3:
	movzbl	1(%r12),%eax
	cmpb	$-64,(%r12)
	setl	%r8b
	andb	$-32,%al
	cmpb	$-64,%al
	sete	%al
	andb	%r8b,%al
	movb	%al,244(%r15)
	jmp	4b
5:
	testb	$16,%r10b
	jne	4f
	xorl	%r9d,%r9d
5:
	movq	%rbp,16(%r15)
	movl	4(%r12),%eax
	bswapl	%eax
	movl	%eax,24(%r15)
	movl	8(%r12),%eax
	bswapl	%eax
	movl	%eax,28(%r15)
	movzbl	(%r12),%r8d
	xorps	%xmm0,%xmm0
	movups	%xmm0,76(%r15)
	movups	%xmm0,64(%r15)
	movups	%xmm0,48(%r15)
	movups	%xmm0,32(%r15)
	andl	$15,%r8d
	je	6f
	leaq	12(%r12),%r13
	cmpb	$1,%r8b
	jne	7f
	xorl	%r11d,%r11d
	jmp	8f
4:
	movl	$4,%eax
	cmpq	$4,%r9
	jb	2b
	movzwl	2(%r12,%rbp),%eax
	rolw	$8,%ax
	addq	$-4,%r9
	movzwl	%ax,%r13d
	shll	$2,%r13d
	cmpq	%r13,%r9
	jae	4f
	movzwl	12(%r12,%r11),%eax
	cmpl	$57022,%eax
	sete	%r8b
	andl	$61695,%eax
	cmpw	$16,%ax
	sete	%al
	orb	%r8b,%al
	movzbl	%al,%eax
	addl	$5,%eax
	jmp	2b
6:
	xorl	%r11d,%r11d
	jmp	6f
7:
	movl	%r9d,52(%rsp)
	movq	%rbp,56(%rsp)
	movl	%r8d,%ebp
	andl	$-2,%ebp
	xorl	%r11d,%r11d
	xorl	%eax,%eax
	.p2align	4
7:
	movl	(%r13,%r11,4),%r9d
	bswapl	%r9d
	movl	%r9d,-4(%rbx,%r11,4)
	movl	4(%r13,%r11,4),%r9d
	bswapl	%r9d
	movl	%r9d,(%rbx,%r11,4)
	addq	$2,%r11
	addq	$-8,%rax
	cmpq	%r11,%rbp
	jne	7b
	testb	$1,%r8b
	jne	7f
	movq	56(%rsp),%rbp
	movl	52(%rsp),%r9d
	jmp	6f
4:
	movzwl	(%r12,%rbp),%eax
	cmpl	$57022,%eax
	setne	%r9b
	andl	$61695,%eax
	cmpw	$16,%ax
	sete	%al
	movl	%eax,%r8d
	xorb	%al,%r9b
	movl	$5,%eax
	jne	2b
	addq	%r13,%rbp
	addq	$4,%rbp
	movl	%r8d,%r9d
	jmp	5b
7:
	subq	%rax,%r13
	movq	56(%rsp),%rbp
	movl	52(%rsp),%r9d
8:
	leaq	32(%r15),%rax
	movl	(%r13),%r8d
	bswapl	%r8d
	movl	%r8d,(%rax,%r11,4)
	incq	%r11
6:
	movb	%r11b,95(%r15)
	movzwl	2(%r12),%eax
	rolw	$8,%ax
	movw	%ax,92(%r15)
	movzbl	1(%r12),%eax
	andb	$127,%al
	movb	%al,94(%r15)
	movzbl	1(%r12),%eax
	shrb	$7,%al
	movb	%al,96(%r15)
	movzbl	(%r12),%eax
	shrb	$5,%al
	andb	$1,%al
	movb	%al,97(%r15)
	movzbl	(%r12),%eax
	shrb	$4,%al
	andb	$1,%al
	movb	%al,98(%r15)
	testb	$16,%r10b
	jne	2f
	xorps	%xmm0,%xmm0
	movups	%xmm0,216(%r15)
	movups	%xmm0,200(%r15)
	movups	%xmm0,184(%r15)
	movups	%xmm0,168(%r15)
	movups	%xmm0,152(%r15)
	movups	%xmm0,136(%r15)
	movups	%xmm0,120(%r15)
	movups	%xmm0,104(%r15)
	movq	$0,232(%r15)
	jmp	4f
2:
	movzbl	(%r12),%eax
	andl	$15,%eax
	leaq	16(,%rax,4),%r8
	leaq	(%r12,%rax,4),%r10
	addq	$16,%r10
	subq	%r8,%rbp
	leaq	104(%r15),%rax
	xorps	%xmm0,%xmm0
	movups	%xmm0,216(%r15)
	movups	%xmm0,200(%r15)
	movups	%xmm0,184(%r15)
	movups	%xmm0,168(%r15)
	movups	%xmm0,152(%r15)
	movups	%xmm0,136(%r15)
	movups	%xmm0,120(%r15)
	movups	%xmm0,104(%r15)
	movq	$0,232(%r15)
	movq	%rax,32(%rsp)
	movq	%rcx,%r13
	movq	64(%rsp),%rcx
	movq	%rbp,%r8
	movq	%rdx,%rbp
	movq	%r10,%rdx
	callq	rtp_ext.block_values.read_values.9a3a19c0cce455e9
	movq	%r13,%rcx
	movq	%rbp,%rdx
4:
	movl	$0,240(%r15)
	jmp	3b
1:
	addq	$72,%rsp
	popq	%rbx
	popq	%rbp
	popq	%rdi
	popq	%rsi
	popq	%r12
	popq	%r13
	popq	%r14
	popq	%r15
	retq
	.seh_endproc

	.def	rtpw_prepare_group;
	.scl	2;
	.type	32;
	.endef
	.section	.text$rtpw_prepare_group,"xr"
	.globl	rtpw_prepare_group
	.p2align	4
rtpw_prepare_group:
.seh_proc rtpw_prepare_group
	pushq	%r15
	.seh_pushreg %r15
	pushq	%r14
	.seh_pushreg %r14
	pushq	%r13
	.seh_pushreg %r13
	pushq	%r12
	.seh_pushreg %r12
	pushq	%rsi
	.seh_pushreg %rsi
	pushq	%rdi
	.seh_pushreg %rdi
	pushq	%rbp
	.seh_pushreg %rbp
	pushq	%rbx
	.seh_pushreg %rbx
	subq	$1432,%rsp
	.seh_stackalloc 1432
	.seh_endprologue
	movl	%r9d,%ebx
	movq	%r8,%rsi
	xorl	%r9d,%r9d
	testq	%rdx,%rdx
	sete	%r8b
	movq	$0,80(%rsp)
	cmpb	$3,%bl
	setae	%al
	cmpq	$17,%rsi
	setae	%r10b
	orb	%al,%r10b
	movl	$9,%eax
	jne	1f
	movb	%r8b,%r9b
	shll	$12,%r9d
	leaq	(%rdx,%r9),%r8
	leaq	(%r9,%rdx),%r11
	addq	$8,%r11
	movq	$-1,%r10
	.p2align	4
2:
	incq	%r10
	cmpq	%r10,%rsi
	je	3f
	cmpq	$256,(%r11)
	leaq	32(%r11),%r11
	jb	2b
	jmp	1f
3:
	movw	$0,908(%rsp)
	xorps	%xmm0,%xmm0
	movaps	%xmm0,96(%rsp)
	movaps	%xmm0,112(%rsp)
	movaps	%xmm0,128(%rsp)
	movaps	%xmm0,144(%rsp)
	movaps	%xmm0,160(%rsp)
	movaps	%xmm0,176(%rsp)
	movaps	%xmm0,192(%rsp)
	movaps	%xmm0,208(%rsp)
	movaps	%xmm0,224(%rsp)
	movaps	%xmm0,240(%rsp)
	movaps	%xmm0,256(%rsp)
	movaps	%xmm0,272(%rsp)
	movaps	%xmm0,288(%rsp)
	movaps	%xmm0,304(%rsp)
	movaps	%xmm0,320(%rsp)
	movaps	%xmm0,336(%rsp)
	testq	%rsi,%rsi
	je	2f
	leaq	(%r9,%rdx),%rax
	addq	$24,%rax
	xorl	%r10d,%r10d
	.p2align	4
3:
	movzbl	(%rax),%r11d
	cmpb	$0,96(%rsp,%r11)
	jne	4f
	incq	%r10
	movb	%r10b,96(%rsp,%r11)
	addq	$32,%rax
	cmpq	%r10,%rsi
	jne	3b
	leaq	(%r9,%rdx),%r10
	addq	$24,%r10
	movq	%rsi,%r11
	.p2align	4
3:
	movl	$3,%eax
	cmpb	$0,(%r10)
	je	5f
	cmpq	$255,-16(%r10)
	ja	6f
	addq	$32,%r10
	decq	%r11
	jne	3b
	xorps	%xmm0,%xmm0
	movaps	%xmm0,48(%rsp)
	movaps	%xmm0,32(%rsp)
	cmpq	$1,%rsi
	jne	3f
	xorl	%eax,%eax
	jmp	7f
2:
	movaps	%xmm0,48(%rsp)
	movaps	%xmm0,32(%rsp)
	jmp	2f
3:
	movl	%esi,%r10d
	andl	$30,%r10d
	addq	%r9,%rdx
	addq	$56,%rdx
	xorl	%eax,%eax
	.p2align	4
3:
	movzbl	-48(%rdx),%r9d
	movzbl	-32(%rdx),%r11d
	movb	%r11b,48(%rsp,%rax)
	movb	%r9b,32(%rsp,%rax)
	movzbl	-16(%rdx),%r9d
	movzbl	(%rdx),%r11d
	movb	%r11b,49(%rsp,%rax)
	movb	%r9b,33(%rsp,%rax)
	addq	$2,%rax
	addq	$64,%rdx
	cmpq	%rax,%r10
	jne	3b
	testb	$1,%sil
	je	2f
7:
	movq	%rax,%rdx
	shlq	$5,%rdx
	movzbl	8(%r8,%rdx),%r9d
	movzbl	24(%r8,%rdx),%edx
	movb	%dl,48(%rsp,%rax)
	movb	%r9b,32(%rsp,%rax)
2:
	movq	%rcx,%r15
	leaq	1(%rcx),%rdx
	leaq	361(%rsp),%rcx
	movl	$255,%r8d
	movq	%rdx,64(%rsp)
	callq	memcpy
	leaq	616(%rsp),%rcx
	leaq	96(%rsp),%rdx
	movl	$256,%r8d
	callq	memcpy
	movaps	48(%rsp),%xmm0
	movups	%xmm0,872(%rsp)
	movaps	32(%rsp),%xmm0
	movups	%xmm0,888(%rsp)
	movw	$0,904(%rsp)
	movb	%sil,906(%rsp)
	movb	%bl,907(%rsp)
	movb	$1,%bpl
	xorl	%r12d,%r12d
	testq	%rsi,%rsi
	je	2f
	xorl	%r8d,%r8d
	.p2align	4
3:
	movzbl	872(%rsp,%r8),%edx
	movzbl	616(%rsp,%rdx),%ecx
	leaq	1(%r8),%r9
	cmpq	%rcx,%r9
	jne	7f
	movzbl	888(%rsp,%r8),%r8d
	addl	%r8d,%r12d
	decb	%dl
	decl	%r8d
	xorl	%r9d,%r9d
	cmpb	$16,%r8b
	movzbl	%bpl,%ebp
	cmovael	%r9d,%ebp
	cmpb	$14,%dl
	cmovael	%r9d,%ebp
	movq	%rcx,%r8
	cmpq	%rcx,%rsi
	jne	3b
2:
	movq	366(%rsp),%rdi
	movzwl	374(%rsp),%r14d
	movq	382(%rsp),%r13
	leaq	30(%r15),%rdx
	leaq	912(%rsp),%rcx
	movl	$226,%r8d
	callq	memcpy
	leaq	1138(%rsp),%rcx
	leaq	96(%rsp),%rdx
	movl	$256,%r8d
	callq	memcpy
	movaps	48(%rsp),%xmm0
	movups	%xmm0,1394(%rsp)
	movaps	32(%rsp),%xmm0
	movups	%xmm0,1410(%rsp)
	movq	64(%rsp),%rcx
	movl	(%rcx),%eax
	movl	%eax,96(%rsp)
	movzbl	4(%rcx),%eax
	movb	%al,100(%rsp)
	movl	16(%r15),%eax
	movl	%eax,360(%rsp)
	movzwl	20(%r15),%eax
	movw	%ax,364(%rsp)
	movq	1536(%rsp),%r15
	movb	$0,(%r15)
	movl	96(%rsp),%eax
	movl	%eax,1(%r15)
	movzbl	100(%rsp),%eax
	movb	%al,5(%r15)
	movq	%rdi,6(%r15)
	movw	%r14w,14(%r15)
	movl	360(%rsp),%eax
	movl	%eax,16(%r15)
	movzwl	364(%rsp),%eax
	movw	%ax,20(%r15)
	movq	%r13,22(%r15)
	leaq	30(%r15),%rcx
	movl	$514,%r8d
	leaq	912(%rsp),%rdx
	callq	memcpy
	movw	%r12w,544(%r15)
	movb	%sil,546(%r15)
	movb	%bl,547(%r15)
	movb	%bpl,548(%r15)
	movb	$0,549(%r15)
	xorl	%eax,%eax
1:
	addq	$1432,%rsp
	popq	%rbx
	popq	%rbp
	popq	%rdi
	popq	%rsi
	popq	%r12
	popq	%r13
	popq	%r14
	popq	%r15
	retq
4:
	movl	$1,%eax
	xorl	%ecx,%ecx
	jmp	2f
5:
	movb	$1,%cl
	jmp	2f
6:
	movb	$2,%cl
2:
	movq	%rax,72(%rsp)
	movb	%cl,80(%rsp)
	movb	$0,81(%rsp)
	movq	$0,88(%rsp)
	leaq	72(%rsp),%rcx
	callq	rtp_c.template.not_routed_status
	jmp	1b
7:
	ud2
	.seh_endproc

	.def	rtp_proved_put_block;
	.scl	3;
	.type	32;
	.endef
	.section	.text$rtp_proved_put_block,"xr"
	.p2align	4
rtp_proved_put_block:
.seh_proc rtp_proved_put_block
	pushq	%r15
	.seh_pushreg %r15
	pushq	%r14
	.seh_pushreg %r14
	pushq	%r13
	.seh_pushreg %r13
	pushq	%r12
	.seh_pushreg %r12
	pushq	%rsi
	.seh_pushreg %rsi
	pushq	%rdi
	.seh_pushreg %rdi
	pushq	%rbp
	.seh_pushreg %rbp
	pushq	%rbx
	.seh_pushreg %rbx
	subq	$72,%rsp
	.seh_stackalloc 72
	.seh_endprologue
	movq	184(%rsp),%rsi
	movq	176(%rsp),%r12
	xorl	%r13d,%r13d
	testq	%rcx,%rcx
	sete	%r10b
	testq	%r12,%r12
	sete	%dil
	movq	(%r8),%r11
	cmpq	%r11,%rdx
	setb	%bl
	testb	$3,%sil
	setne	%bpl
	movl	$9,%eax
	orb	%bl,%bpl
	jne	1f
	movl	$15,%eax
	cmpq	$262140,%rsi
	ja	1f
	cmpq	$12,%r11
	jb	2f
	movb	%r10b,%r13b
	shll	$12,%r13d
	leaq	(%rcx,%r13),%r10
	movzbl	(%r10),%ebx
	cmpb	$-65,%bl
	jg	3f
	movl	%ebx,%eax
	andl	$15,%eax
	leaq	12(,%rax,4),%r15
	movq	%r11,%rbp
	subq	%r15,%rbp
	jb	4f
	testb	$16,%bl
	movq	%rbx,56(%rsp)
	jne	5f
	movq	%r10,%rbx
	leaq	4(%r15),%r14
	movq	%r15,%r10
	jmp	6f
5:
	cmpq	$4,%rbp
	jb	5f
	movzwl	2(%r10,%r15),%eax
	rolw	$8,%ax
	addq	$-4,%rbp
	movzwl	%ax,%eax
	shll	$2,%eax
	cmpq	%rax,%rbp
	jb	7f
	movq	%r10,%rbx
	leaq	4(%r15),%r14
	leaq	(%rax,%r15),%r10
	addq	$4,%r10
	movq	%r11,%rbp
	subq	%r10,%rbp
6:
	addq	%r14,%rbp
	addq	%rsi,%rbp
	movl	$8,%eax
	cmpq	%rbp,%rdx
	jb	1f
	movq	%rcx,48(%rsp)
	movq	%r8,32(%rsp)
	xorl	%eax,%eax
	movb	%dil,%al
	shll	$12,%eax
	movq	%rax,40(%rsp)
	addq	%r12,%rax
	movq	%rax,64(%rsp)
	movq	%rbx,%rcx
	movq	%r10,%rdx
	movq	%r11,%r8
	movl	%r9d,%edi
	leaq	(%r14,%rsi),%r9
	callq	rtp_wire.packet.resizing.move_bytes
	rolw	$8,%di
	movw	%di,(%rbx,%r15)
	movq	64(%rsp),%rdx
	movl	%esi,%eax
	shrl	$10,%eax
	movl	%esi,%ecx
	shll	$6,%ecx
	orl	%eax,%ecx
	movw	%cx,2(%rbx,%r15)
	addq	%rbx,%r14
	movq	%r14,%rax
	subq	%rdx,%rax
	cmpq	%rsi,%rax
	jae	6f
	cmpq	$4,%rsi
	jae	8f
	xorl	%r11d,%r11d
	movq	32(%rsp),%rax
	movq	48(%rsp),%rdi
	jmp	9f
6:
	movq	%r14,%rcx
	movq	%rsi,%r8
	callq	memmove
	movq	32(%rsp),%rax
	jmp	6f
8:
	movq	56(%rsp),%rax
	leal	(,%rax,4),%r8d
	andl	$60,%r8d
	leaq	(%rbx,%r8),%rax
	subq	%rdx,%rax
	addq	$16,%rax
	cmpq	$32,%rax
	movq	32(%rsp),%rax
	movq	48(%rsp),%rdi
	jae	8f
	xorl	%r11d,%r11d
9:
	movq	%r11,%r8
	subq	%rsi,%r8
	cmpq	$-4,%r8
	ja	6f
	movq	56(%rsp),%r8
	andl	$15,%r8d
	leaq	(,%r8,4),%r8
	addq	%r13,%r8
	leaq	(%rdi,%r8),%rdx
	addq	$19,%rdx
	movq	40(%rsp),%rcx
	leaq	(%rcx,%r12),%r8
	addq	$3,%r8
	.p2align	4
10:
	movzbl	-3(%r8,%r11),%r9d
	movb	%r9b,-3(%rdx,%r11)
	movzbl	-2(%r8,%r11),%r9d
	movb	%r9b,-2(%rdx,%r11)
	movzbl	-1(%r8,%r11),%r9d
	movb	%r9b,-1(%rdx,%r11)
	movzbl	(%r8,%r11),%r9d
	movb	%r9b,(%rdx,%r11)
	addq	$4,%r11
	cmpq	%r11,%rsi
	jne	10b
	jmp	6f
2:
	xorl	%edx,%edx
	jmp	2f
3:
	movb	$1,%dl
	jmp	2f
4:
	movb	$2,%dl
	jmp	2f
8:
	cmpq	$32,%rsi
	jae	3f
	xorl	%r11d,%r11d
	jmp	4f
3:
	movl	%esi,%r11d
	andl	$262112,%r11d
	movq	40(%rsp),%r9
	addq	%r12,%r9
	addq	$16,%r9
	addq	%r13,%r8
	addq	%rdi,%r8
	addq	$32,%r8
	xorl	%r10d,%r10d
3:
	movups	-16(%r9,%r10),%xmm0
	movups	(%r9,%r10),%xmm1
	movups	%xmm0,-16(%r8,%r10)
	movups	%xmm1,(%r8,%r10)
	addq	$32,%r10
	cmpq	%r10,%r11
	jne	3b
	cmpq	%r11,%rsi
	je	6f
	testb	$28,%sil
	je	9b
	.p2align	4
4:
	movl	(%rdx,%r11),%r8d
	movl	%r8d,(%r14,%r11)
	addq	$4,%r11
	cmpq	%r11,%rsi
	jne	4b
6:
	orb	$16,(%rbx)
	movq	%rbp,(%rax)
	xorl	%eax,%eax
1:
	addq	$72,%rsp
	popq	%rbx
	popq	%rbp
	popq	%rdi
	popq	%rsi
	popq	%r12
	popq	%r13
	popq	%r14
	popq	%r15
	retq
5:
	movb	$3,%dl
	jmp	2f
7:
	movb	$4,%dl
2:
	movb	$3,%cl
	addq	$72,%rsp
	popq	%rbx
	popq	%rbp
	popq	%rdi
	popq	%rsi
	popq	%r12
	popq	%r13
	popq	%r14
	popq	%r15
	jmp	rtp_c.growing.put_status_of
	.seh_endproc

	.def	rtp_proved_put_element;
	.scl	3;
	.type	32;
	.endef
	.section	.text$rtp_proved_put_element,"xr"
	.p2align	4
rtp_proved_put_element:
.seh_proc rtp_proved_put_element
	pushq	%r15
	.seh_pushreg %r15
	pushq	%r14
	.seh_pushreg %r14
	pushq	%r13
	.seh_pushreg %r13
	pushq	%r12
	.seh_pushreg %r12
	pushq	%rsi
	.seh_pushreg %rsi
	pushq	%rdi
	.seh_pushreg %rdi
	pushq	%rbp
	.seh_pushreg %rbp
	pushq	%rbx
	.seh_pushreg %rbx
	subq	$232,%rsp
	.seh_stackalloc 232
	.seh_endprologue
	movb	%r9b,63(%rsp)
	movzbl	352(%rsp),%r14d
	movq	336(%rsp),%r13
	xorl	%r12d,%r12d
	testq	%rcx,%rcx
	sete	%r9b
	xorl	%ebp,%ebp
	testq	%r13,%r13
	sete	%dil
	movl	$9,%eax
	cmpb	$2,%r14b
	ja	1f
	movq	(%r8),%rax
	cmpq	%rax,%rdx
	jb	2f
	cmpb	$0,63(%rsp)
	je	3f
	movq	344(%rsp),%rsi
	cmpq	$255,%rsi
	ja	4f
	cmpq	$12,%rax
	jb	5f
	movb	%r9b,%r12b
	shll	$12,%r12d
	leaq	(%rcx,%r12),%r15
	movzbl	(%r15),%r10d
	cmpb	$-65,%r10b
	jg	6f
	movq	%rdx,160(%rsp)
	leal	(,%r10,4),%r11d
	andl	$60,%r11d
	leaq	12(%r11),%rbx
	movq	%rax,112(%rsp)
	subq	%rbx,%rax
	jb	7f
	leaq	(%r15,%rbx),%r9
	movq	%r9,168(%rsp)
	testb	$16,%r10b
	movq	%r10,64(%rsp)
	movq	%r15,176(%rsp)
	jne	8f
	xorl	%r15d,%r15d
	movq	%rbx,%rdx
9:
	movq	%rbx,152(%rsp)
	leaq	-1(%rsi),%rax
	cmpq	$16,%rax
	movzbl	%r15b,%eax
	movl	$1,%r9d
	cmovael	%r9d,%eax
	cmpb	$15,63(%rsp)
	cmovael	%r9d,%eax
	testb	%r14b,%r14b
	cmovel	%eax,%r9d
	movl	%r9d,84(%rsp)
	testb	$-3,%r14b
	movq	%rdx,136(%rsp)
	je	10f
	testb	%al,%al
	jne	11f
	movl	$0,84(%rsp)
10:
	movb	%dil,%bpl
	shll	$12,%ebp
	movq	%rbp,192(%rsp)
	movq	%r13,%rax
	addq	%rbp,%rax
	movq	%rax,184(%rsp)
	testb	$16,%r10b
	movq	%r13,144(%rsp)
	leaq	12(%r11),%r9
	movq	%r8,128(%rsp)
	movq	%rsi,208(%rsp)
	movq	%rcx,200(%rsp)
	movq	%r12,96(%rsp)
	jne	10f
	movq	176(%rsp),%rax
	movq	136(%rsp),%rcx
	leaq	(%rax,%rcx),%rdi
	xorl	%r13d,%r13d
	xorl	%r11d,%r11d
	movq	$0,120(%rsp)
	xorl	%r12d,%r12d
	movq	$0,104(%rsp)
	movl	84(%rsp),%r14d
	movl	%r14d,%eax
	movl	%eax,88(%rsp)
	xorl	%ebx,%ebx
	xorl	%esi,%esi
12:
	movb	$1,%al
	xorl	%ebp,%ebp
	movq	%r12,%rdx
	cmpb	$1,%al
	jne	13f
14:
	movq	%r12,224(%rsp)
	movq	%r13,%r12
	cmpb	$1,%r14b
	movl	$2,%r13d
	sbbq	$0,%r13
	movq	208(%rsp),%rax
	leaq	(%rax,%r13),%r10
	leaq	(%rdx,%r10),%r15
	addq	$3,%r15
	andq	$-4,%r15
	cmpq	%r15,%rbx
	cmovaq	%rbx,%r15
	cmpq	$262140,%r15
	ja	15f
	leaq	(%r9,%r15),%rax
	movq	112(%rsp),%r8
	movq	%r8,%rcx
	subq	136(%rsp),%rcx
	addq	%rcx,%rax
	addq	$4,%rax
	cmpq	%rax,160(%rsp)
	jb	16f
	movl	%ebp,220(%rsp)
	movq	%rbx,%rbp
	movq	%r10,160(%rsp)
	movq	%rax,72(%rsp)
	movq	%r11,%rbx
	leaq	4(%r9,%r15),%r9
	movq	176(%rsp),%rdi
	movq	%rdi,%rcx
	movq	136(%rsp),%rdx
	callq	rtp_wire.packet.resizing.move_bytes
	movl	%r15d,%eax
	shrl	$10,%eax
	movq	%r15,136(%rsp)
	movl	%r15d,%ecx
	andl	$-4,%ecx
	shll	$6,%ecx
	orl	%eax,%ecx
	movq	168(%rsp),%rdx
	movw	%cx,2(%rdx)
	testb	%sil,%sil
	jne	17f
	orb	$16,(%rdi)
	testb	%r14b,%r14b
	movl	$57022,%eax
	movl	$16,%ecx
	cmovel	%eax,%ecx
	movw	%cx,(%rdx)
17:
	leaq	4(%rdx),%r9
	testq	%rbp,%rbp
	movq	208(%rsp),%rsi
	movq	64(%rsp),%r8
	movzbl	63(%rsp),%ecx
	movq	104(%rsp),%r15
	je	17f
	movq	%rbx,%r11
	testb	%r12b,%r12b
	cmoveq	%r15,%r11
	movq	120(%rsp),%r12
	cmoveq	%r15,%r12
	movq	224(%rsp),%rax
	subq	%r11,%rax
	addq	%r12,%rax
	cmpq	%r15,%rax
	jne	18f
	subq	%r12,%r15
	movq	200(%rsp),%rbx
	movq	%r9,%r14
	cmpb	$0,220(%rsp)
	movq	128(%rsp),%rdi
	jne	19f
	jmp	20f
8:
	cmpq	$4,%rax
	jb	8f
	leaq	(%r15,%rbx),%r10
	movzwl	2(%r10),%r9d
	rolw	$8,%r9w
	addq	$-4,%rax
	movzwl	%r9w,%r9d
	shll	$2,%r9d
	cmpq	%r9,%rax
	jb	21f
	movzwl	(%r10),%eax
	movl	%eax,%r10d
	andl	$61695,%r10d
	cmpw	$16,%r10w
	sete	%r15b
	leaq	(%rbx,%r9),%rdx
	addq	$4,%rdx
	cmpl	$57022,%eax
	je	22f
	movl	$5,%eax
	cmpw	$16,%r10w
	movq	64(%rsp),%r10
	jne	1f
	jmp	9b
10:
	movzbl	%r11b,%eax
	leaq	(%rcx,%r12),%rdx
	leaq	(%rdx,%rax),%r13
	addq	$16,%r13
	addq	$16,%rax
	movq	136(%rsp),%rbx
	subq	%rax,%rbx
	testb	%r15b,%r15b
	movl	84(%rsp),%r14d
	movq	%r13,72(%rsp)
	je	10f
	testq	%rbx,%rbx
	je	23f
	movq	$0,104(%rsp)
	movq	%r13,%rcx
	xorl	%r12d,%r12d
	movq	$0,88(%rsp)
	movq	%rbx,%rdx
	movq	$0,120(%rsp)
	xorl	%edi,%edi
	xorl	%r11d,%r11d
24:
	movq	%rdx,%rbp
25:
	cmpb	$0,(%rcx)
	je	26f
	movq	%rbp,%rdx
	movq	%rcx,%rax
	cmpq	$2,%rdx
	jae	27f
	jmp	28f
26:
	cmpq	$2,%rbp
	je	26f
	cmpq	$1,%rbp
	je	28f
	cmpq	$3,%rbp
	ja	29f
	cmpb	$0,1(%rcx)
	jne	29f
	cmpb	$0,2(%rcx)
	jne	29f
	jmp	30f
26:
	cmpb	$0,1(%rcx)
	je	26f
29:
	movq	%r11,%rsi
	leaq	-1(%rbp),%rdx
	incq	%rcx
	callq	rtp_ext.elements.skip_zeros
	testq	%rdx,%rdx
	je	29f
	movq	64(%rsp),%r10
	movq	%rsi,%r11
	movq	152(%rsp),%r9
	cmpq	$2,%rdx
	jb	28f
27:
	movzbl	1(%rax),%r8d
	leaq	2(%r8),%rcx
	subq	%rcx,%rdx
	jb	28f
	addq	%rax,%rcx
	movzbl	63(%rsp),%esi
	cmpb	%sil,(%rax)
	je	27f
	addq	%r8,%r12
	addq	$2,%r12
	movq	%rdx,%rbp
	testq	%rdx,%rdx
	jne	25b
	jmp	25f
27:
	incq	88(%rsp)
	movq	%rbx,%r9
	subq	%rdx,%r9
	movq	%r9,%rdi
	subq	%r8,%rdi
	negq	%r8
	movq	%r9,120(%rsp)
	leaq	(%r9,%r8),%r11
	addq	$-2,%r11
	movq	152(%rsp),%r9
	movb	$1,%al
	movq	%rax,104(%rsp)
	xorl	%ebp,%ebp
	testq	%rdx,%rdx
	jne	24b
	jmp	28f
17:
	testb	%r14b,%r14b
	je	17f
	movb	%sil,5(%rdx)
	movl	$2,%eax
	jmp	24f
18:
	movb	%cl,40(%rsp)
	movq	%rbp,32(%rsp)
	movl	88(%rsp),%ecx
	movq	%r9,%r14
	movq	%r9,%rdx
	movq	%r11,%r8
	movq	%r12,%r9
	callq	rtp_ext.gathering.gather_around
	movq	%rax,%r11
	movq	%rdx,%r15
	movq	200(%rsp),%rbx
	cmpb	$0,220(%rsp)
	movq	128(%rsp),%rdi
	je	20f
19:
	movq	%r15,40(%rsp)
	movq	%r12,32(%rsp)
	movl	88(%rsp),%ecx
	movq	%r14,%rdx
	movq	136(%rsp),%r8
	movq	%r11,%r9
	callq	rtp_ext.form_change.change_rows
	movq	%rax,%r11
	movq	%rdx,%r15
	movq	%rax,%r12
20:
	movq	64(%rsp),%r10
	movq	160(%rsp),%rax
	addq	%r11,%rax
	movq	%r12,%rcx
	movq	%rax,160(%rsp)
	subq	%rax,%rcx
	jae	18f
	testq	%r15,%r15
	je	19f
	movq	%r15,%rax
	cmpq	$8,%r15
	jb	20f
	movq	%r15,%rax
	cmpq	$32,%rcx
	jb	20f
	cmpq	$32,%r15
	jae	27f
	xorl	%ecx,%ecx
	jmp	31f
18:
	testq	%r15,%r15
	je	19f
	cmpq	$4,%r15
	jb	18f
	leaq	(%r11,%r13),%rax
	addq	%rsi,%rax
	subq	%r12,%rax
	cmpq	$32,%rax
	jae	32f
18:
	xorl	%eax,%eax
18:
	movq	%r15,%rdx
	movq	%rax,%rcx
	andq	$3,%rdx
	je	33f
	movq	%r14,176(%rsp)
	movq	%r15,104(%rsp)
	movq	96(%rsp),%rcx
	addq	%rax,%rcx
	leaq	(%rcx,%r13),%r8
	movq	%r11,%r15
	addq	%r11,%r8
	addq	%rsi,%r8
	movl	%r10d,%r9d
	andl	$15,%r9d
	shll	$2,%r9d
	addq	%r9,%r8
	addq	%rbx,%r8
	addq	$16,%r8
	movq	%r12,%rdi
	addq	%r12,%rcx
	addq	%r9,%rcx
	movq	%rbx,%r14
	leaq	(%rbx,%rcx),%r9
	addq	$16,%r9
	leaq	(%rax,%rdx),%rcx
	xorl	%r10d,%r10d
	.p2align	4
34:
	movzbl	(%r9,%r10),%r11d
	movb	%r11b,(%r8,%r10)
	incq	%r10
	cmpq	%r10,%rdx
	jne	34b
	movq	64(%rsp),%r10
	movq	%r15,%r11
	movq	%rdi,%r12
	movq	128(%rsp),%rdi
	movq	104(%rsp),%r15
	movq	%r14,%rbx
	movq	176(%rsp),%r14
33:
	subq	%r15,%rax
	cmpq	$-4,%rax
	ja	19f
	movq	%r15,%rax
	subq	%rcx,%rax
	movq	96(%rsp),%r9
	addq	%r9,%r13
	addq	%r11,%r13
	addq	%rcx,%r13
	addq	%rsi,%r13
	movl	%r10d,%r8d
	andl	$15,%r8d
	shll	$2,%r8d
	addq	%r8,%r13
	leaq	(%rbx,%r13),%rdx
	addq	$19,%rdx
	addq	%r9,%r12
	addq	%rcx,%r12
	addq	%r8,%r12
	leaq	(%rbx,%r12),%rcx
	addq	$19,%rcx
	xorl	%r8d,%r8d
	.p2align	4
33:
	movzbl	-3(%rcx,%r8),%r9d
	movb	%r9b,-3(%rdx,%r8)
	movzbl	-2(%rcx,%r8),%r9d
	movb	%r9b,-2(%rdx,%r8)
	movzbl	-1(%rcx,%r8),%r9d
	movb	%r9b,-1(%rdx,%r8)
	movzbl	(%rcx,%r8),%r9d
	movb	%r9b,(%rdx,%r8)
	addq	$4,%r8
	cmpq	%r8,%rax
	jne	33b
	jmp	19f
10:
	testq	%rbx,%rbx
	je	23f
	movq	$0,104(%rsp)
	xorl	%r12d,%r12d
	movq	$0,88(%rsp)
	movq	%rbx,%rsi
	movq	$0,120(%rsp)
	xorl	%edi,%edi
	xorl	%r11d,%r11d
	.p2align	4
10:
	movzbl	(%r13),%eax
	leal	16(%rax),%ecx
	cmpb	$32,%cl
	jae	33f
	testb	%al,%al
	je	34f
	movq	%rsi,%rdx
	cmpb	$-17,%al
	jbe	35f
	jmp	36f
33:
	movzbl	%al,%ecx
	andl	$15,%ecx
	addq	$2,%rcx
	movq	%rsi,%rdx
	subq	%rcx,%rdx
	jae	33f
	movq	%rsi,%rdx
	jmp	37f
34:
	cmpq	$2,%rsi
	je	34f
	cmpq	$1,%rsi
	je	36f
	cmpq	$3,%rsi
	ja	38f
	cmpb	$0,1(%r13)
	jne	38f
	cmpb	$0,2(%r13)
	jne	38f
	jmp	30f
34:
	cmpb	$0,1(%r13)
	je	26f
38:
	movq	%rdi,%r14
	movq	%r11,%rdi
	leaq	-1(%rsi),%rdx
	incq	%r13
	movq	%r13,%rcx
	callq	rtp_ext.elements.skip_zeros
	testq	%rdx,%rdx
	je	34f
	movq	%rax,%r13
	movzbl	(%rax),%eax
	movq	64(%rsp),%r10
	movq	%rdi,%r11
	movl	84(%rsp),%ecx
	movq	152(%rsp),%r9
	movq	%r14,%rdi
	movl	%ecx,%r14d
	cmpb	$-17,%al
	ja	36f
35:
	movl	%eax,%ecx
	andb	$15,%cl
	addb	$2,%cl
	movzbl	%cl,%ecx
37:
	subq	%rcx,%rdx
	jb	36f
33:
	addq	%rcx,%r13
	movq	%rdx,%rsi
	shrb	$4,%al
	cmpb	63(%rsp),%al
	je	33f
	testb	%al,%al
	je	35f
	addq	%rcx,%r12
	testq	%rsi,%rsi
	jne	10b
	jmp	25f
35:
	movq	88(%rsp),%rcx
	movq	%rdi,%r14
	movq	%r11,%rdi
	callq	rtp_ext.survey.one_more
	movq	152(%rsp),%r9
	movq	%rdi,%r11
	movq	%r14,%rdi
	movl	84(%rsp),%r14d
	movq	64(%rsp),%r10
	movq	%rax,88(%rsp)
	testq	%rsi,%rsi
	jne	10b
	jmp	25f
33:
	incq	88(%rsp)
	movq	%rbx,%rdx
	subq	%rsi,%rdx
	movq	%rdx,%r11
	subq	%rcx,%r11
	negq	%rcx
	movq	%rdx,120(%rsp)
	leaq	(%rdx,%rcx),%rdi
	incq	%rdi
	movb	$1,%al
	movq	%rax,104(%rsp)
	xorl	%ebp,%ebp
	testq	%rsi,%rsi
	jne	10b
	jmp	28f
23:
	xorl	%r11d,%r11d
	xorl	%edi,%edi
	movq	$0,120(%rsp)
	movq	$0,104(%rsp)
	movq	$0,88(%rsp)
	xorl	%r12d,%r12d
	xorl	%ebp,%ebp
	jmp	28f
22:
	movq	64(%rsp),%r10
	jmp	9b
2:
	xorl	%ecx,%ecx
	jmp	2f
3:
	movl	$1,%ecx
	jmp	2f
4:
	movl	$2,%ecx
	jmp	2f
17:
	rolb	$4,%cl
	addb	%sil,%cl
	decb	%cl
	movl	$1,%eax
24:
	movq	128(%rsp),%rdi
	movq	200(%rsp),%rbx
	movq	96(%rsp),%r15
	movq	192(%rsp),%r12
	movq	184(%rsp),%rdx
	movq	%r9,%r14
	movb	%cl,(%r9)
	testb	%sil,%sil
	je	3f
	movzbl	%sil,%ecx
	cmpl	$1,%ecx
	jne	4f
	movzbl	(%rdx),%ecx
	movb	%cl,(%r14,%rax)
	jmp	9f
5:
	movl	$3,%ecx
	jmp	2f
6:
	movl	$259,%ecx
	jmp	2f
4:
	cmpq	$2,%rsi
	ja	4f
	movzbl	(%rdx),%ecx
	movb	%cl,(%r14,%rax)
	movzbl	1(%rdx),%ecx
	movb	%cl,1(%r14,%rax)
	jmp	9f
7:
	movl	$515,%ecx
	jmp	2f
26:
	movl	$2,%ebp
	jmp	28f
30:
	movl	$3,%ebp
	jmp	28f
15:
	movl	$7,%ecx
	jmp	2f
25:
	xorl	%ebp,%ebp
	jmp	28f
4:
	cmpq	$3,%rsi
	jne	3f
	movzbl	(%rdx),%ecx
	movb	%cl,(%r14,%rax)
	movzbl	1(%rdx),%ecx
	movb	%cl,1(%r14,%rax)
	movzbl	2(%rdx),%ecx
	movb	%cl,2(%r14,%rax)
	jmp	9f
3:
	leaq	(%r14,%rax),%rcx
	movq	%rcx,%r9
	subq	%rdx,%r9
	cmpq	%rsi,%r9
	jae	3f
	cmpq	$4,%rsi
	jb	4f
	movq	%r15,%rcx
	orq	%rax,%rcx
	addq	%rbx,%rcx
	leal	(,%r8,4),%r10d
	andl	$60,%r10d
	addq	%r10,%rcx
	subq	%rdx,%rcx
	addq	$16,%rcx
	cmpq	$32,%rcx
	jae	5f
4:
	xorl	%ecx,%ecx
4:
	movq	%rsi,%rbp
	movq	%rcx,%r8
	andq	$3,%rbp
	je	6f
	leaq	(%r15,%rcx),%r8
	addq	%rax,%r8
	movq	64(%rsp),%r9
	andl	$15,%r9d
	leaq	(%r8,%r9,4),%r8
	leaq	(%rbx,%r8),%r9
	addq	$16,%r9
	xorl	%r10d,%r10d
	movq	%rcx,%r8
	.p2align	4
7:
	movzbl	(%rdx,%r8),%r11d
	movb	%r11b,(%r9,%r10)
	incq	%r8
	incq	%r10
	cmpq	%r10,%rbp
	jne	7b
6:
	subq	%rsi,%rcx
	cmpq	$-4,%rcx
	ja	9f
	subq	%r8,%rsi
	addq	%r8,%r12
	movq	144(%rsp),%rcx
	addq	%r12,%rcx
	addq	$3,%rcx
	addq	%r8,%r15
	addq	%rax,%r15
	movq	64(%rsp),%rax
	andl	$15,%eax
	leaq	(%r15,%rax,4),%rax
	addq	%rbx,%rax
	addq	$19,%rax
	xorl	%edx,%edx
6:
	movzbl	-3(%rcx,%rdx),%r8d
	movb	%r8b,-3(%rax,%rdx)
	movzbl	-2(%rcx,%rdx),%r8d
	movb	%r8b,-2(%rax,%rdx)
	movzbl	-1(%rcx,%rdx),%r8d
	movb	%r8b,-1(%rax,%rdx)
	movzbl	(%rcx,%rdx),%r8d
	movb	%r8b,(%rax,%rdx)
	addq	$4,%rdx
	cmpq	%rdx,%rsi
	jne	6b
	jmp	9f
3:
	movq	%rsi,%r8
	callq	memmove
9:
	movq	160(%rsp),%rdx
	movq	136(%rsp),%r8
	subq	%rdx,%r8
	jbe	3f
	cmpq	$4,%r8
	ja	6f
	leaq	7f(%rip),%rax
	movslq	(%rax,%r8,4),%rcx
	addq	%rax,%rcx
	jmpq	*%rcx
10:
	movb	$0,(%r14,%rdx)
	movq	72(%rsp),%rax
	jmp	15f
16:
	movl	$8,%ecx
	jmp	2f
8:
	movl	$771,%ecx
	jmp	2f
21:
	movl	$1027,%ecx
2:
	movl	%ecx,%edx
	shrl	$8,%edx
2:
	addq	$232,%rsp
	popq	%rbx
	popq	%rbp
	popq	%rdi
	popq	%rsi
	popq	%r12
	popq	%r13
	popq	%r14
	popq	%r15
	jmp	rtp_c.growing.put_status_of
32:
	cmpq	$32,%r15
	jae	8f
	xorl	%eax,%eax
	jmp	16f
27:
	movq	%r15,%rcx
	andq	$-32,%rcx
	movq	96(%rsp),%r9
	leaq	(%r9,%r15),%r8
	movl	%r10d,%eax
	andl	$15,%eax
	shll	$2,%eax
	leaq	(%r12,%rax),%rdx
	addq	%rbx,%rdx
	addq	%r8,%rdx
	leaq	(%r9,%r13),%r8
	addq	%r11,%r8
	addq	%r15,%r8
	addq	%rsi,%r8
	addq	%rbx,%rax
	addq	%r8,%rax
	movq	%rcx,%r8
	negq	%r8
	xorl	%r9d,%r9d
	.p2align	4
17:
	movups	-16(%rdx,%r9),%xmm0
	movups	(%rdx,%r9),%xmm1
	movups	%xmm1,(%rax,%r9)
	movups	%xmm0,-16(%rax,%r9)
	addq	$-32,%r9
	cmpq	%r9,%r8
	jne	17b
	cmpq	%rcx,%r15
	je	19f
	testb	$24,%r15b
	je	17f
31:
	movq	%r14,176(%rsp)
	movq	%r15,%rdx
	andq	$-8,%rdx
	movl	%r15d,%eax
	andl	$7,%eax
	movq	96(%rsp),%r8
	leaq	(%r8,%r15),%r9
	movq	%r12,%rdi
	leaq	(%r9,%r12),%r8
	andl	$15,%r10d
	shll	$2,%r10d
	addq	%r10,%r8
	subq	%rcx,%r8
	addq	%rbx,%r8
	addq	$8,%r8
	addq	%r13,%r9
	movq	%r11,%r12
	addq	%r11,%r9
	addq	%rsi,%r9
	addq	%r10,%r9
	subq	%rcx,%r9
	addq	%rbx,%r9
	addq	$8,%r9
	subq	%rdx,%rcx
	xorl	%r10d,%r10d
	.p2align	4
21:
	movq	(%r8,%r10),%r11
	movq	%r11,(%r9,%r10)
	addq	$-8,%r10
	cmpq	%r10,%rcx
	jne	21b
	cmpq	%rdx,%r15
	movq	64(%rsp),%r10
	movq	%r12,%r11
	movq	%rdi,%r12
	movq	128(%rsp),%rdi
	movq	176(%rsp),%r14
	je	19f
20:
	leaq	-1(%rax),%rcx
	movq	%rax,%rdx
	andq	$3,%rdx
	je	20f
21:
	movq	%r15,104(%rsp)
	movq	96(%rsp),%r8
	leaq	(%r8,%rax),%r9
	leaq	(%r9,%r13),%r8
	movq	%rbx,%r15
	movq	%r12,%rbx
	movq	%r11,%r12
	addq	%r11,%r8
	addq	%rsi,%r8
	andl	$15,%r10d
	shll	$2,%r10d
	addq	%r10,%r8
	addq	%r15,%r8
	addq	$15,%r8
	movq	%rbx,%rdi
	addq	%rbx,%r9
	movq	%r15,%rbx
	addq	%r10,%r9
	addq	%r15,%r9
	addq	$15,%r9
	negq	%rdx
	andq	$-4,%rax
	xorl	%r10d,%r10d
	.p2align	4
22:
	movzbl	(%r9,%r10),%r11d
	movb	%r11b,(%r8,%r10)
	decq	%r10
	cmpq	%r10,%rdx
	jne	22b
	movq	64(%rsp),%r10
	movq	%r12,%r11
	movq	%rdi,%r12
	movq	128(%rsp),%rdi
	movq	104(%rsp),%r15
20:
	cmpq	$3,%rcx
	jb	19f
	movq	%rax,%rcx
	negq	%rcx
	movq	96(%rsp),%r9
	addq	%r9,%r13
	addq	%r11,%r13
	addq	%rax,%r13
	addq	%rsi,%r13
	movl	%r10d,%r8d
	andl	$15,%r8d
	shll	$2,%r8d
	addq	%r8,%r13
	leaq	(%rbx,%r13),%rdx
	addq	$15,%rdx
	addq	%r9,%r12
	addq	%rax,%r12
	addq	%r8,%r12
	leaq	(%rbx,%r12),%rax
	addq	$15,%rax
	xorl	%r8d,%r8d
	.p2align	4
22:
	movzbl	(%rax,%r8),%r9d
	movb	%r9b,(%rdx,%r8)
	movzbl	-1(%rax,%r8),%r9d
	movb	%r9b,-1(%rdx,%r8)
	movzbl	-2(%rax,%r8),%r9d
	movb	%r9b,-2(%rdx,%r8)
	movzbl	-3(%rax,%r8),%r9d
	movb	%r9b,-3(%rdx,%r8)
	addq	$-4,%r8
	cmpq	%r8,%rcx
	jne	22b
	jmp	19f
36:
	movq	%rsi,%rbp
28:
	movq	104(%rsp),%rax
	cmpb	$1,%al
	sete	%r13b
	cmpb	%r14b,%r15b
	sete	%sil
	jne	22f
	cmpb	$1,%al
	jne	22f
	cmpq	$1,88(%rsp)
	jne	22f
	movq	120(%rsp),%rax
	subq	%rdi,%rax
	cmpq	208(%rsp),%rax
	jne	22f
	movq	%rdi,%r14
	addq	$4,168(%rsp)
	movq	208(%rsp),%r8
	testq	%r8,%r8
	movq	128(%rsp),%rdi
	movq	200(%rsp),%rsi
	movq	96(%rsp),%rbx
	movq	144(%rsp),%r15
	movq	192(%rsp),%r12
	movq	184(%rsp),%rdx
	je	23f
	cmpl	$1,%r8d
	jne	24f
	movzbl	(%rdx),%eax
	movq	168(%rsp),%rcx
	movb	%al,(%rcx,%r14)
	jmp	25f
22:
	movl	%r15d,%eax
	movq	%rbx,%rcx
	subq	%rbp,%rcx
	movq	%rcx,104(%rsp)
	movl	%r15d,88(%rsp)
	cmpb	%al,%r14b
	je	22f
	testq	%r12,%r12
	movq	72(%rsp),%rdi
	je	12b
	movzbl	63(%rsp),%eax
	movb	%al,32(%rsp)
	movl	88(%rsp),%ecx
	movl	%r14d,%edx
	movq	%rdi,%r8
	movq	104(%rsp),%r9
	movq	%r11,%rsi
	callq	rtp_ext.form_change.row_len
	movq	152(%rsp),%r9
	movq	%rsi,%r11
	movb	$1,%bpl
	xorl	%esi,%esi
	cmpb	$1,%al
	je	14b
13:
	movl	88(%rsp),%ecx
	movq	%rdi,%rdx
	movq	%rbx,%r8
	callq	rtp_wire.packet.rewriting.has_long_id
	movb	$6,%cl
	subb	%al,%cl
	xorl	%edx,%edx
	jmp	2b
22:
	movq	72(%rsp),%rdi
	jmp	12b
24:
	cmpq	$2,%r8
	ja	12f
	movzbl	(%rdx),%eax
	movq	168(%rsp),%rcx
	movb	%al,(%rcx,%r14)
	movzbl	1(%rdx),%eax
	movb	%al,1(%rcx,%r14)
	jmp	25f
13:
	movl	$0,(%r14,%rdx)
	movq	72(%rsp),%rax
	jmp	15f
14:
	movb	$0,2(%r14,%rdx)
22:
	movw	$0,(%r14,%rdx)
	movq	72(%rsp),%rax
	jmp	15f
6:
	movq	%r8,%rsi
	addq	%rdx,%r14
	jmp	6f
12:
	cmpq	$3,%r8
	jne	23f
	movzbl	(%rdx),%eax
	movq	168(%rsp),%rcx
	movb	%al,(%rcx,%r14)
	movzbl	1(%rdx),%eax
	movb	%al,1(%rcx,%r14)
	movzbl	2(%rdx),%eax
	movb	%al,2(%rcx,%r14)
	jmp	25f
23:
	movq	168(%rsp),%rcx
	addq	%r14,%rcx
	movq	%rcx,%rax
	subq	%rdx,%rax
	cmpq	%r8,%rax
	jae	12f
	cmpq	$4,%r8
	jb	23f
	leaq	(%rbx,%r14),%rcx
	leaq	(%rcx,%rsi),%rax
	leal	(,%r10,4),%r9d
	andl	$60,%r9d
	addq	%r9,%rax
	subq	%rdx,%rax
	addq	$16,%rax
	cmpq	$32,%rax
	jae	24f
23:
	xorl	%eax,%eax
23:
	movq	%r8,%r13
	movq	%rax,%rcx
	andq	$3,%r13
	je	26f
	leaq	(%rbx,%r14),%rcx
	addq	%rax,%rcx
	movq	64(%rsp),%r9
	andl	$15,%r9d
	leaq	(%rcx,%r9,4),%rcx
	leaq	(%rsi,%rcx),%r11
	addq	$16,%r11
	xorl	%r9d,%r9d
	movq	%rax,%rcx
27:
	movzbl	(%rdx,%rcx),%r10d
	movb	%r10b,(%r11,%r9)
	incq	%rcx
	incq	%r9
	cmpq	%r9,%r13
	jne	27b
26:
	subq	%r8,%rax
	cmpq	$-4,%rax
	ja	25f
	subq	%rcx,%r8
	addq	%rcx,%r12
	leaq	(%r15,%r12),%rax
	addq	$3,%rax
	addq	%r14,%rbx
	addq	%rcx,%rbx
	movq	64(%rsp),%rcx
	andl	$15,%ecx
	leaq	(%rbx,%rcx,4),%rcx
	addq	%rsi,%rcx
	addq	$19,%rcx
	xorl	%edx,%edx
26:
	movzbl	-3(%rax,%rdx),%r9d
	movb	%r9b,-3(%rcx,%rdx)
	movzbl	-2(%rax,%rdx),%r9d
	movb	%r9b,-2(%rcx,%rdx)
	movzbl	-1(%rax,%rdx),%r9d
	movb	%r9b,-1(%rcx,%rdx)
	movzbl	(%rax,%rdx),%r9d
	movb	%r9b,(%rcx,%rdx)
	addq	$4,%rdx
	cmpq	%rdx,%r8
	jne	26b
	jmp	25f
12:
	callq	memmove
25:
	movq	112(%rsp),%rax
	jmp	15f
11:
	xorl	%edx,%edx
	cmpb	$15,63(%rsp)
	movl	$0,%ecx
	adcb	$5,%cl
	jmp	2b
8:
	movq	%r15,%rax
	andq	$-32,%rax
	movq	96(%rsp),%r8
	leaq	(%r8,%r13),%rcx
	addq	%rsi,%rcx
	movl	%r10d,%edx
	andl	$15,%edx
	shll	$2,%edx
	addq	%rdx,%rcx
	addq	%r11,%rcx
	addq	%rbx,%rcx
	addq	$32,%rcx
	addq	%r12,%r8
	addq	%rdx,%r8
	leaq	(%rbx,%r8),%rdx
	addq	$32,%rdx
	xorl	%r8d,%r8d
2:
	movups	-16(%rdx,%r8),%xmm0
	movups	(%rdx,%r8),%xmm1
	movups	%xmm0,-16(%rcx,%r8)
	movups	%xmm1,(%rcx,%r8)
	addq	$32,%r8
	cmpq	%r8,%rax
	jne	2b
	cmpq	%rax,%r15
	je	19f
	testb	$28,%r15b
	je	18b
16:
	movq	%rax,%r8
	movq	%r15,%rax
	andq	$-4,%rax
	movq	%rax,%rcx
	subq	%r8,%rcx
	movq	96(%rsp),%rdi
	leaq	(%rdi,%r13),%rdx
	addq	%r11,%rdx
	addq	%r8,%rdx
	addq	%rsi,%rdx
	movl	%r10d,%r9d
	andl	$15,%r9d
	shll	$2,%r9d
	addq	%r9,%rdx
	addq	%rbx,%rdx
	addq	$16,%rdx
	leaq	(%rdi,%r12),%r10
	addq	%r8,%r10
	addq	%r9,%r10
	leaq	(%rbx,%r10),%r8
	addq	$16,%r8
	xorl	%r9d,%r9d
	.p2align	4
2:
	movl	(%r8,%r9),%r10d
	movl	%r10d,(%rdx,%r9)
	addq	$4,%r9
	cmpq	%r9,%rcx
	jne	2b
	cmpq	%rax,%r15
	movq	64(%rsp),%r10
	movq	128(%rsp),%rdi
	jne	18b
19:
	cmpb	$0,84(%rsp)
	je	2f
	movzbl	63(%rsp),%eax
	movb	%al,(%r14,%r11)
	movb	%sil,1(%r14,%r11)
	movl	$2,%eax
	jmp	8f
2:
	movzbl	63(%rsp),%eax
	rolb	$4,%al
	addb	%sil,%al
	decb	%al
	movb	%al,(%r14,%r11)
	movl	$1,%eax
8:
	movq	192(%rsp),%r12
	movq	184(%rsp),%rdx
	leaq	(%rax,%r11),%rcx
	testb	%sil,%sil
	je	2f
	movzbl	%sil,%r8d
	cmpl	$1,%r8d
	jne	8f
	movzbl	(%rdx),%eax
	movb	%al,(%r14,%rcx)
	jmp	11f
8:
	cmpq	$2,%rsi
	ja	8f
	movzbl	(%rdx),%eax
	movb	%al,(%r14,%rcx)
	movzbl	1(%rdx),%eax
	movb	%al,1(%r14,%rcx)
	jmp	11f
8:
	cmpq	$3,%rsi
	jne	2f
	movzbl	(%rdx),%eax
	movb	%al,(%r14,%rcx)
	movzbl	1(%rdx),%eax
	movb	%al,1(%r14,%rcx)
	movzbl	2(%rdx),%eax
	movb	%al,2(%r14,%rcx)
	jmp	11f
2:
	addq	%r14,%rcx
	movq	%rcx,%r8
	subq	%rdx,%r8
	cmpq	%rsi,%r8
	jae	2f
	cmpq	$4,%rsi
	movq	%r11,112(%rsp)
	jb	8f
	movq	96(%rsp),%rcx
	addq	%rcx,%r11
	leaq	(%r11,%rax),%r8
	leaq	(%r8,%rbx),%rcx
	leal	(,%r10,4),%r9d
	andl	$60,%r9d
	addq	%r9,%rcx
	subq	%rdx,%rcx
	addq	$16,%rcx
	cmpq	$32,%rcx
	jae	12f
8:
	xorl	%ecx,%ecx
8:
	movq	%rsi,%rbp
	movq	%rcx,%r8
	andq	$3,%rbp
	je	16f
	movq	96(%rsp),%r8
	addq	%rcx,%r8
	addq	112(%rsp),%r8
	addq	%rax,%r8
	movq	64(%rsp),%r9
	andl	$15,%r9d
	leaq	(%r8,%r9,4),%r8
	leaq	(%rbx,%r8),%r9
	addq	$16,%r9
	xorl	%r10d,%r10d
	movq	%rcx,%r8
	.p2align	4
18:
	movzbl	(%rdx,%r8),%r11d
	movb	%r11b,(%r9,%r10)
	incq	%r8
	incq	%r10
	cmpq	%r10,%rbp
	jne	18b
16:
	subq	%rsi,%rcx
	cmpq	$-4,%rcx
	ja	11f
	subq	%r8,%rsi
	addq	%r8,%r12
	movq	144(%rsp),%rcx
	addq	%r12,%rcx
	addq	$3,%rcx
	movq	96(%rsp),%rdx
	addq	112(%rsp),%rdx
	addq	%r8,%rdx
	addq	%rax,%rdx
	movq	64(%rsp),%rax
	andl	$15,%eax
	leaq	(%rdx,%rax,4),%rax
	addq	%rbx,%rax
	addq	$19,%rax
	xorl	%edx,%edx
	.p2align	4
16:
	movzbl	-3(%rcx,%rdx),%r8d
	movb	%r8b,-3(%rax,%rdx)
	movzbl	-2(%rcx,%rdx),%r8d
	movb	%r8b,-2(%rax,%rdx)
	movzbl	-1(%rcx,%rdx),%r8d
	movb	%r8b,-1(%rax,%rdx)
	movzbl	(%rcx,%rdx),%r8d
	movb	%r8b,(%rax,%rdx)
	addq	$4,%rdx
	cmpq	%rdx,%rsi
	jne	16b
	jmp	11f
2:
	movq	%rsi,%r8
	callq	memmove
11:
	addq	160(%rsp),%r15
	movq	136(%rsp),%r8
	subq	%r15,%r8
	jbe	3f
	cmpq	$4,%r8
	ja	2f
	leaq	16f(%rip),%rax
	movslq	(%rax,%r8,4),%rcx
	addq	%rax,%rcx
	jmpq	*%rcx
3:
	movq	72(%rsp),%rax
15:
	movq	%rax,(%rdi)
	xorl	%eax,%eax
1:
	addq	$232,%rsp
	popq	%rbx
	popq	%rbp
	popq	%rdi
	popq	%rsi
	popq	%r12
	popq	%r13
	popq	%r14
	popq	%r15
	retq
1:
	movl	$0,(%r14,%r15)
	movq	72(%rsp),%rax
	jmp	15b
18:
	movb	$0,2(%r14,%r15)
19:
	movw	$0,(%r14,%r15)
	movq	72(%rsp),%rax
	jmp	15b
26:
	movb	$0,(%r14,%r15)
	movq	72(%rsp),%rax
	jmp	15b
2:
	movq	%r8,%rsi
	addq	%r15,%r14
6:
	decq	%r8
	movq	%r14,%rcx
	xorl	%edx,%edx
	callq	memset
	movb	$0,-1(%rsi,%r14)
	movq	72(%rsp),%rax
	jmp	15b
12:
	cmpq	$32,%rsi
	jae	2f
	xorl	%ecx,%ecx
	jmp	6f
5:
	cmpq	$32,%rsi
	jae	5f
	xorl	%ecx,%ecx
	jmp	12f
2:
	movl	%esi,%ecx
	andl	$224,%ecx
	movq	144(%rsp),%r10
	addq	%r12,%r10
	addq	$16,%r10
	addq	%r9,%r8
	addq	%rbx,%r8
	addq	$32,%r8
	xorl	%r9d,%r9d
2:
	movups	-16(%r10,%r9),%xmm0
	movups	(%r10,%r9),%xmm1
	movups	%xmm0,-16(%r8,%r9)
	movups	%xmm1,(%r8,%r9)
	addq	$32,%r9
	cmpq	%r9,%rcx
	jne	2b
	cmpq	%rcx,%rsi
	je	11b
	testb	$28,%sil
	je	8b
6:
	movq	%rcx,%r10
	movl	%esi,%ecx
	andl	$252,%ecx
	movq	%rcx,%r8
	subq	%r10,%r8
	leaq	(%r12,%r10),%r9
	addq	144(%rsp),%r9
	addq	%r10,%r11
	addq	%rax,%r11
	movq	64(%rsp),%r10
	andl	$15,%r10d
	leaq	(%r11,%r10,4),%r10
	leaq	(%rbx,%r10),%rbp
	addq	$16,%rbp
	xorl	%r10d,%r10d
2:
	movl	(%r9,%r10),%r11d
	movl	%r11d,(%rbp,%r10)
	addq	$4,%r10
	cmpq	%r10,%r8
	jne	2b
	cmpq	%rcx,%rsi
	je	11b
	jmp	8b
29:
	movq	64(%rsp),%r10
	movq	%rsi,%r11
	movq	152(%rsp),%r9
	jmp	28b
5:
	movl	%esi,%ecx
	andl	$224,%ecx
	movq	144(%rsp),%r8
	addq	%r12,%r8
	addq	$16,%r8
	addq	%r15,%r10
	addq	%rax,%r10
	addq	%rbx,%r10
	addq	$32,%r10
	xorl	%r9d,%r9d
2:
	movups	-16(%r8,%r9),%xmm0
	movups	(%r8,%r9),%xmm1
	movups	%xmm0,-16(%r10,%r9)
	movups	%xmm1,(%r10,%r9)
	addq	$32,%r9
	cmpq	%r9,%rcx
	jne	2b
	cmpq	%rcx,%rsi
	je	9b
	testb	$28,%sil
	je	4b
12:
	movq	%rcx,%r9
	movl	%esi,%ecx
	andl	$252,%ecx
	movq	%rcx,%rbp
	subq	%r9,%rbp
	leaq	(%r12,%r9),%r8
	addq	144(%rsp),%r8
	addq	%r15,%r9
	addq	%rax,%r9
	movq	64(%rsp),%r10
	andl	$15,%r10d
	leaq	(%r9,%r10,4),%r9
	addq	%rbx,%r9
	addq	$16,%r9
	xorl	%r10d,%r10d
2:
	movl	(%r8,%r10),%r11d
	movl	%r11d,(%r9,%r10)
	addq	$4,%r10
	cmpq	%r10,%rbp
	jne	2b
	cmpq	%rcx,%rsi
	je	9b
	jmp	4b
24:
	cmpq	$32,%r8
	jae	2f
	xorl	%eax,%eax
	jmp	4f
17:
	movl	%r15d,%eax
	andl	$31,%eax
	leaq	-1(%rax),%rcx
	movq	%rax,%rdx
	andq	$3,%rdx
	jne	21b
	jmp	20b
34:
	movq	%rsi,%rbp
	movq	64(%rsp),%r10
	movq	%rdi,%r11
	movl	84(%rsp),%eax
	movq	152(%rsp),%r9
	movq	%r14,%rdi
	movl	%eax,%r14d
	jmp	28b
2:
	movl	%r8d,%eax
	andl	$224,%eax
	leaq	(%r12,%r15),%r10
	addq	$16,%r10
	addq	%rcx,%r9
	leaq	(%rsi,%r9),%r11
	addq	$32,%r11
	xorl	%r9d,%r9d
2:
	movups	-16(%r10,%r9),%xmm0
	movups	(%r10,%r9),%xmm1
	movups	%xmm0,-16(%r11,%r9)
	movups	%xmm1,(%r11,%r9)
	addq	$32,%r9
	cmpq	%r9,%rax
	jne	2b
	cmpq	%rax,%r8
	movq	64(%rsp),%r10
	je	25b
	testb	$28,%r8b
	je	23b
4:
	movq	%rax,%r9
	movl	%r8d,%eax
	andl	$252,%eax
	movq	%rax,%r13
	subq	%r9,%r13
	leaq	(%r12,%r9),%r11
	addq	%r15,%r11
	addq	%r9,%rcx
	movl	%r10d,%r9d
	andl	$15,%r9d
	leaq	(%rcx,%r9,4),%rcx
	addq	%rsi,%rcx
	addq	$16,%rcx
	xorl	%r9d,%r9d
2:
	movl	(%r11,%r9),%r10d
	movl	%r10d,(%rcx,%r9)
	addq	$4,%r9
	cmpq	%r9,%r13
	jne	2b
	cmpq	%rax,%r8
	jne	23b
	jmp	25b
	.section	.rdata,"dr"
	.p2align	2,0x0
16:
	.long	3b-16b
	.long	26b-16b
	.long	19b-16b
	.long	18b-16b
	.long	1b-16b
7:
	.long	3b-7b
	.long	10b-7b
	.long	22b-7b
	.long	14b-7b
	.long	13b-7b
	.section	.text$rtp_proved_put_element,"xr"
	.seh_endproc

	.def	rtpw_remove_block;
	.scl	2;
	.type	32;
	.endef
	.section	.text$rtpw_remove_block,"xr"
	.globl	rtpw_remove_block
	.p2align	4
rtpw_remove_block:
.seh_proc rtpw_remove_block
	pushq	%r14
	.seh_pushreg %r14
	pushq	%rsi
	.seh_pushreg %rsi
	pushq	%rdi
	.seh_pushreg %rdi
	pushq	%rbx
	.seh_pushreg %rbx
	subq	$40,%rsp
	.seh_stackalloc 40
	.seh_endprologue
	movq	%r8,%rsi
	xorl	%r9d,%r9d
	testq	%rcx,%rcx
	sete	%r10b
	movq	(%r8),%r8
	cmpq	%r8,%rdx
	jb	1f
	movq	%rcx,%rbx
	movb	$3,%cl
	cmpq	$12,%r8
	jb	2f
	movb	%r10b,%r9b
	shll	$12,%r9d
	addq	%r9,%rbx
	movzbl	(%rbx),%edx
	cmpb	$-65,%dl
	jg	3f
	movl	%edx,%r9d
	andl	$15,%r9d
	leaq	12(,%r9,4),%rdi
	movq	%r8,%r14
	subq	%rdi,%r14
	jb	4f
	testb	$16,%dl
	jne	5f
	movq	%rdi,%rdx
	jmp	6f
5:
	movb	$3,%cl
	cmpq	$4,%r14
	jb	5f
	movzwl	2(%rbx,%rdi),%edx
	rolw	$8,%dx
	addq	$-4,%r14
	movzwl	%dx,%edx
	shll	$2,%edx
	cmpq	%rdx,%r14
	jb	7f
	addq	%rdi,%rdx
	addq	$4,%rdx
	movq	%r8,%r14
	subq	%rdx,%r14
6:
	movq	%rbx,%rcx
	movq	%rdi,%r9
	callq	rtp_wire.packet.resizing.move_bytes
	andb	$-17,(%rbx)
	addq	%rdi,%r14
	movq	%r14,(%rsi)
	xorl	%eax,%eax
	addq	$40,%rsp
	popq	%rbx
	popq	%rdi
	popq	%rsi
	popq	%r14
	retq
1:
	xorl	%ecx,%ecx
2:
	xorl	%edx,%edx
	jmp	1f
3:
	movb	$1,%dl
	jmp	1f
4:
	movb	$2,%dl
	jmp	1f
5:
	movb	$3,%dl
	jmp	1f
7:
	movb	$4,%dl
1:
	addq	$40,%rsp
	popq	%rbx
	popq	%rdi
	popq	%rsi
	popq	%r14
	jmp	rtp_c.growing.put_status_of
	.seh_endproc

	.def	rtpw_remove_element;
	.scl	2;
	.type	32;
	.endef
	.section	.text$rtpw_remove_element,"xr"
	.globl	rtpw_remove_element
	.p2align	4
rtpw_remove_element:
.seh_proc rtpw_remove_element
	pushq	%rsi
	.seh_pushreg %rsi
	subq	$32,%rsp
	.seh_stackalloc 32
	.seh_endprologue
	movl	%r8d,%r9d
	xorl	%eax,%eax
	testq	%rcx,%rcx
	sete	%r8b
	cmpq	$12,%rdx
	jb	1f
	movb	%r8b,%al
	shll	$12,%eax
	addq	%rax,%rcx
	movzbl	(%rcx),%r11d
	cmpb	$-65,%r11b
	jg	2f
	leal	(,%r11,4),%r10d
	andl	$60,%r10d
	leaq	12(%r10),%r8
	subq	%r8,%rdx
	jb	3f
	movl	$11,%eax
	testb	$16,%r11b
	je	4f
	cmpq	$4,%rdx
	jb	5f
	movzwl	2(%rcx,%r8),%r11d
	rolw	$8,%r11w
	addq	$-4,%rdx
	movzwl	%r11w,%r11d
	shll	$2,%r11d
	cmpq	%r11,%rdx
	jb	6f
	movzwl	(%rcx,%r8),%esi
	movl	%esi,%edx
	andl	$61695,%edx
	cmpl	$57022,%esi
	je	7f
	cmpw	$16,%dx
	je	7f
4:
	addq	$32,%rsp
	popq	%rsi
	retq
7:
	cmpw	$16,%dx
	sete	%al
	movzbl	%r10b,%r10d
	leaq	(%rcx,%r10),%rdx
	addq	$16,%rdx
	addq	$16,%r10
	subq	%r10,%r8
	addq	%r11,%r8
	addq	$4,%r8
	movl	%eax,%ecx
	callq	rtp_ext.place.remove_element
	xorl	%ecx,%ecx
	testb	%al,%al
	movl	$11,%eax
	cmovnel	%ecx,%eax
	addq	$32,%rsp
	popq	%rsi
	retq
1:
	xorl	%ecx,%ecx
	addq	$32,%rsp
	popq	%rsi
	jmp	rtp_c.status.refusal_status
2:
	movb	$1,%cl
	addq	$32,%rsp
	popq	%rsi
	jmp	rtp_c.status.refusal_status
3:
	movb	$2,%cl
	addq	$32,%rsp
	popq	%rsi
	jmp	rtp_c.status.refusal_status
5:
	movb	$3,%cl
	addq	$32,%rsp
	popq	%rsi
	jmp	rtp_c.status.refusal_status
6:
	movb	$4,%cl
	addq	$32,%rsp
	popq	%rsi
	jmp	rtp_c.status.refusal_status
	.seh_endproc

	.def	rtpw_remove_padding;
	.scl	2;
	.type	32;
	.endef
	.section	.text$rtpw_remove_padding,"xr"
	.globl	rtpw_remove_padding
	.p2align	4
rtpw_remove_padding:
	xorl	%eax,%eax
	testq	%rcx,%rcx
	sete	%r9b
	cmpq	$12,%rdx
	jb	1f
	movb	%r9b,%al
	shll	$12,%eax
	addq	%rax,%rcx
	movzbl	(%rcx),%r9d
	cmpb	$-65,%r9b
	jg	2f
	movl	%r9d,%eax
	andl	$15,%eax
	leaq	12(,%rax,4),%r10
	movq	%rdx,%r11
	subq	%r10,%r11
	jb	3f
	testb	$16,%r9b
	je	4f
	cmpq	$4,%r11
	jb	5f
	movzwl	2(%rcx,%r10),%eax
	rolw	$8,%ax
	addq	$-4,%r11
	movzwl	%ax,%eax
	shll	$2,%eax
	cmpq	%rax,%r11
	jb	6f
	addq	%rax,%r10
	addq	$4,%r10
	movq	%rdx,%r11
	subq	%r10,%r11
4:
	testb	$32,%r9b
	je	4f
	cmpq	%r10,%rdx
	jne	7f
	xorl	%r11d,%r11d
	jmp	4f
7:
	movzbl	-1(%rcx,%rdx),%edx
	movl	$9,%eax
	subq	%rdx,%r11
	jb	7f
4:
	addq	%r10,%r11
	andb	$-97,%r9b
	movb	%r9b,(%rcx)
	movq	%r11,(%r8)
	xorl	%eax,%eax
7:
	retq
1:
	xorl	%ecx,%ecx
	jmp	rtp_c.status.refusal_status
2:
	movb	$1,%cl
	jmp	rtp_c.status.refusal_status
3:
	movb	$2,%cl
	jmp	rtp_c.status.refusal_status
5:
	movb	$3,%cl
	jmp	rtp_c.status.refusal_status
6:
	movb	$4,%cl
	jmp	rtp_c.status.refusal_status

	.def	rtpw_renumber;
	.scl	2;
	.type	32;
	.endef
	.section	.text$rtpw_renumber,"xr"
	.globl	rtpw_renumber
	.p2align	4
rtpw_renumber:
.seh_proc rtpw_renumber
	pushq	%rsi
	.seh_pushreg %rsi
	subq	$320,%rsp
	.seh_stackalloc 320
	.seh_endprologue
	movq	%r8,%rax
	xorl	%r8d,%r8d
	testq	%rcx,%rcx
	sete	%r9b
	movq	$0,56(%rsp)
	cmpq	$12,%rdx
	jb	1f
	movb	%r9b,%r8b
	shll	$12,%r8d
	addq	%r8,%rcx
	movzbl	(%rcx),%r10d
	cmpb	$-65,%r10b
	jg	2f
	movl	%r10d,%r8d
	andl	$15,%r8d
	leaq	12(,%r8,4),%r8
	movq	%rdx,%r9
	subq	%r8,%r9
	jb	3f
	testb	$16,%r10b
	jne	4f
	xorl	%r10d,%r10d
	xorl	%r9d,%r9d
	jmp	5f
4:
	cmpq	$4,%r9
	jb	4f
	movzwl	2(%rcx,%r8),%r10d
	rolw	$8,%r10w
	addq	$-4,%r9
	movzwl	%r10w,%r11d
	shll	$2,%r11d
	cmpq	%r11,%r9
	jb	6f
	movzwl	(%rcx,%r8),%r10d
	movl	%r10d,%esi
	andl	$61695,%esi
	xorl	%r9d,%r9d
	cmpw	$16,%si
	sete	%r9b
	cmpl	$57022,%r10d
	movl	$1,%r10d
	cmovnel	%r9d,%r10d
	addq	%r11,%r8
	addq	$4,%r8
5:
	movq	%rcx,32(%rsp)
	movq	%rdx,40(%rsp)
	movq	%r8,48(%rsp)
	movb	%r10b,56(%rsp)
	movb	%r9b,57(%rsp)
	incq	%rax
	movb	$0,64(%rsp)
	leaq	65(%rsp),%rcx
	movl	$255,%r8d
	movq	%rax,%rdx
	callq	memcpy
	leaq	32(%rsp),%rcx
	leaq	64(%rsp),%rdx
	callq	rtp_wire.packet.rtp_packet_mut.RtpPacketMut.renumber
	xorb	$1,%al
	movzbl	%al,%eax
	shll	$4,%eax
	addq	$320,%rsp
	popq	%rsi
	retq
1:
	xorl	%ecx,%ecx
	addq	$320,%rsp
	popq	%rsi
	jmp	rtp_c.status.refusal_status
2:
	movb	$1,%cl
	addq	$320,%rsp
	popq	%rsi
	jmp	rtp_c.status.refusal_status
3:
	movb	$2,%cl
	addq	$320,%rsp
	popq	%rsi
	jmp	rtp_c.status.refusal_status
4:
	movb	$3,%cl
	addq	$320,%rsp
	popq	%rsi
	jmp	rtp_c.status.refusal_status
6:
	movb	$4,%cl
	addq	$320,%rsp
	popq	%rsi
	jmp	rtp_c.status.refusal_status
	.seh_endproc

	.def	rtpw_set_csrc;
	.scl	2;
	.type	32;
	.endef
	.section	.text$rtpw_set_csrc,"xr"
	.globl	rtpw_set_csrc
	.p2align	4
rtpw_set_csrc:
	xorl	%eax,%eax
	testq	%rcx,%rcx
	sete	%r10b
	cmpq	$12,%rdx
	jb	1f
	movb	%r10b,%al
	shll	$12,%eax
	addq	%rax,%rcx
	movzbl	(%rcx),%r10d
	cmpb	$-65,%r10b
	jg	2f
	movl	%r10d,%eax
	andl	$15,%eax
	leaq	12(,%rax,4),%rax
	subq	%rax,%rdx
	jb	3f
	testb	$16,%r10b
	je	4f
	cmpq	$4,%rdx
	jb	5f
	movzwl	2(%rcx,%rax),%eax
	rolw	$8,%ax
	addq	$-4,%rdx
	movzwl	%ax,%eax
	shll	$2,%eax
	cmpq	%rax,%rdx
	jb	6f
4:
	andl	$15,%r10d
	movl	$11,%eax
	cmpq	%r10,%r8
	jae	4f
	bswapl	%r9d
	movl	%r9d,12(%rcx,%r8,4)
	xorl	%eax,%eax
4:
	retq
1:
	xorl	%ecx,%ecx
	jmp	rtp_c.status.refusal_status
2:
	movb	$1,%cl
	jmp	rtp_c.status.refusal_status
3:
	movb	$2,%cl
	jmp	rtp_c.status.refusal_status
5:
	movb	$3,%cl
	jmp	rtp_c.status.refusal_status
6:
	movb	$4,%cl
	jmp	rtp_c.status.refusal_status

	.def	rtp_proved_set_element;
	.scl	3;
	.type	32;
	.endef
	.section	.text$rtp_proved_set_element,"xr"
	.p2align	4
rtp_proved_set_element:
.seh_proc rtp_proved_set_element
	pushq	%r15
	.seh_pushreg %r15
	pushq	%r14
	.seh_pushreg %r14
	pushq	%r13
	.seh_pushreg %r13
	pushq	%r12
	.seh_pushreg %r12
	pushq	%rsi
	.seh_pushreg %rsi
	pushq	%rdi
	.seh_pushreg %rdi
	pushq	%rbp
	.seh_pushreg %rbp
	pushq	%rbx
	.seh_pushreg %rbx
	subq	$72,%rsp
	.seh_stackalloc 72
	.seh_endprologue
	xorl	%ebx,%ebx
	testq	%rcx,%rcx
	sete	%al
	xorl	%r14d,%r14d
	testq	%r9,%r9
	sete	%bpl
	cmpq	$12,%rdx
	jb	1f
	movb	%al,%bl
	shll	$12,%ebx
	leaq	(%rcx,%rbx),%r10
	movzbl	(%r10),%r15d
	cmpb	$-65,%r15b
	jg	2f
	leal	(,%r15,4),%edi
	andl	$60,%edi
	leaq	12(%rdi),%r11
	subq	%r11,%rdx
	jb	3f
	movl	$11,%eax
	testb	$16,%r15b
	je	4f
	cmpq	$4,%rdx
	jb	5f
	movzwl	2(%r10,%r11),%esi
	rolw	$8,%si
	addq	$-4,%rdx
	movzwl	%si,%r12d
	shll	$2,%r12d
	cmpq	%r12,%rdx
	jb	6f
	movq	176(%rsp),%r13
	movzwl	(%r10,%r11),%esi
	movl	%esi,%edx
	andl	$61695,%edx
	cmpl	$57022,%esi
	je	7f
	cmpw	$16,%dx
	jne	4f
7:
	movq	%r13,64(%rsp)
	movzbl	%dil,%esi
	leaq	16(%rsi),%rdi
	subq	%rdi,%r11
	addq	%rsi,%r10
	addq	$16,%r10
	leaq	(%r11,%r12),%r13
	addq	$4,%r13
	cmpw	$16,%dx
	jne	7f
	testq	%r13,%r13
	je	4f
	movq	$0,48(%rsp)
	movq	%r13,%rdx
	movq	%r10,56(%rsp)
	movq	$0,32(%rsp)
	movq	$0,40(%rsp)
8:
	cmpb	$0,(%r10)
	je	9f
	movq	%r10,%r11
	cmpq	$2,%rdx
	jae	10f
	jmp	11f
9:
	cmpq	$2,%rdx
	je	9f
	cmpq	$1,%rdx
	je	11f
	cmpq	$3,%rdx
	ja	12f
	cmpb	$0,1(%r10)
	jne	12f
	cmpb	$0,2(%r10)
	jne	12f
	jmp	11f
9:
	cmpb	$0,1(%r10)
	je	11f
12:
	movl	%r8d,%r12d
	movq	%r9,%rsi
	movq	%rcx,%rdi
	decq	%rdx
	incq	%r10
	movq	%r10,%rcx
	callq	rtp_ext.elements.skip_zeros
	testq	%rdx,%rdx
	je	9f
	movq	%rax,%r11
	movq	%rdi,%rcx
	movq	%rsi,%r9
	movl	$11,%eax
	movl	%r12d,%r8d
	cmpq	$2,%rdx
	jb	11f
10:
	movzbl	1(%r11),%esi
	leaq	2(%rsi),%r10
	subq	%r10,%rdx
	jb	11f
	addq	%r11,%r10
	cmpb	%r8b,(%r11)
	je	10f
	testq	%rdx,%rdx
	jne	8b
	jmp	11f
10:
	movq	%r13,%r11
	subq	%rdx,%r11
	movq	%r11,32(%rsp)
	subq	%rsi,%r11
	movq	%r11,40(%rsp)
	movb	$1,%r11b
	movq	%r11,48(%rsp)
	testq	%rdx,%rdx
	jne	8b
	jmp	11f
7:
	testq	%r13,%r13
	je	4f
	movq	$0,48(%rsp)
	movq	%r13,%rdx
	movq	%r10,56(%rsp)
	movq	$0,32(%rsp)
	movq	$0,40(%rsp)
7:
	movzbl	(%r10),%r11d
	testb	%r11b,%r11b
	jne	8f
	cmpq	$2,%rdx
	je	10f
	cmpq	$1,%rdx
	je	11f
	cmpq	$3,%rdx
	ja	12f
	cmpb	$0,1(%r10)
	jne	12f
	cmpb	$0,2(%r10)
	jne	12f
	jmp	11f
10:
	cmpb	$0,1(%r10)
	je	11f
12:
	movl	%r8d,%r12d
	movq	%r9,%rdi
	movq	%rcx,%rsi
	decq	%rdx
	incq	%r10
	movq	%r10,%rcx
	callq	rtp_ext.elements.skip_zeros
	testq	%rdx,%rdx
	je	10f
	movq	%rax,%r10
	movzbl	(%rax),%r11d
	movq	%rsi,%rcx
	movq	%rdi,%r9
	movl	$11,%eax
	movl	%r12d,%r8d
8:
	cmpb	$-17,%r11b
	ja	11f
	movl	%r11d,%esi
	andb	$15,%sil
	addb	$2,%sil
	movzbl	%sil,%esi
	subq	%rsi,%rdx
	jb	11f
	addq	%rsi,%r10
	shrb	$4,%r11b
	cmpb	%r8b,%r11b
	je	8f
	testq	%rdx,%rdx
	jne	7b
	jmp	11f
8:
	movq	%r13,%r11
	subq	%rdx,%r11
	negq	%rsi
	movq	%r11,32(%rsp)
	addq	%rsi,%r11
	incq	%r11
	movq	%r11,40(%rsp)
	movb	$1,%r11b
	movq	%r11,48(%rsp)
	testq	%rdx,%rdx
	jne	7b
	jmp	11f
1:
	xorl	%ecx,%ecx
	jmp	1f
2:
	movb	$1,%cl
	jmp	1f
3:
	movb	$2,%cl
	jmp	1f
5:
	movb	$3,%cl
	jmp	1f
6:
	movb	$4,%cl
1:
	addq	$72,%rsp
	popq	%rbx
	popq	%rbp
	popq	%rdi
	popq	%rsi
	popq	%r12
	popq	%r13
	popq	%r14
	popq	%r15
	jmp	rtp_c.status.refusal_status
9:
	movq	%rdi,%rcx
	movq	%rsi,%r9
	jmp	1f
10:
	movq	%rsi,%rcx
	movq	%rdi,%r9
1:
	movl	$11,%eax
11:
	cmpb	$1,48(%rsp)
	jne	4f
	movq	40(%rsp),%r13
	movq	32(%rsp),%rdx
	subq	%r13,%rdx
	movq	64(%rsp),%r8
	cmpq	%r8,%rdx
	jne	4f
	movb	%bpl,%r14b
	shll	$12,%r14d
	leaq	(%r9,%r14),%rdx
	testq	%r8,%r8
	movq	56(%rsp),%r10
	je	1f
	cmpq	$1,%r8
	jne	2f
	movzbl	(%rdx),%eax
	movb	%al,(%r10,%r13)
	jmp	3f
2:
	cmpq	$2,%r8
	ja	2f
	movzbl	(%rdx),%eax
	movb	%al,(%r10,%r13)
	movzbl	1(%rdx),%eax
	movb	%al,1(%r10,%r13)
	jmp	3f
2:
	cmpq	$3,%r8
	jne	1f
	movzbl	(%rdx),%eax
	movb	%al,(%r10,%r13)
	movzbl	1(%rdx),%eax
	movb	%al,1(%r10,%r13)
	movzbl	2(%rdx),%eax
	movb	%al,2(%r10,%r13)
	jmp	3f
1:
	addq	%r13,%r10
	movq	%r10,%rax
	subq	%rdx,%rax
	cmpq	%r8,%rax
	jae	1f
	cmpq	$4,%r8
	jb	2f
	leaq	(%rbx,%r13),%rdi
	leaq	(%rdi,%rcx),%rax
	leal	(,%r15,4),%r10d
	andl	$60,%r10d
	addq	%r10,%rax
	subq	%rdx,%rax
	addq	$16,%rax
	cmpq	$32,%rax
	jae	5f
2:
	xorl	%eax,%eax
2:
	movq	%r8,%r10
	movq	%rax,%r12
	andq	$3,%r10
	je	6f
	leaq	(%rbx,%r13),%rsi
	addq	%rax,%rsi
	movl	%r15d,%r11d
	andl	$15,%r11d
	leaq	(%rsi,%r11,4),%r11
	addq	%rcx,%r11
	addq	$16,%r11
	xorl	%esi,%esi
	movq	%rax,%r12
	.p2align	4
7:
	movzbl	(%rdx,%r12),%edi
	movb	%dil,(%r11,%rsi)
	incq	%r12
	incq	%rsi
	cmpq	%rsi,%r10
	jne	7b
6:
	subq	%r8,%rax
	cmpq	$-4,%rax
	ja	3f
	subq	%r12,%r8
	addq	%r12,%r14
	leaq	(%r9,%r14),%rdx
	addq	$3,%rdx
	addq	%r13,%rbx
	addq	%r12,%rbx
	andl	$15,%r15d
	leaq	(%rbx,%r15,4),%rax
	addq	%rax,%rcx
	addq	$19,%rcx
	xorl	%eax,%eax
	xorl	%r10d,%r10d
6:
	movzbl	-3(%rdx,%r10),%r9d
	movb	%r9b,-3(%rcx,%r10)
	movzbl	-2(%rdx,%r10),%r9d
	movb	%r9b,-2(%rcx,%r10)
	movzbl	-1(%rdx,%r10),%r9d
	movb	%r9b,-1(%rcx,%r10)
	movzbl	(%rdx,%r10),%r9d
	movb	%r9b,(%rcx,%r10)
	addq	$4,%r10
	cmpq	%r10,%r8
	jne	6b
	jmp	4f
1:
	movq	%r10,%rcx
	callq	memmove
3:
	xorl	%eax,%eax
4:
	addq	$72,%rsp
	popq	%rbx
	popq	%rbp
	popq	%rdi
	popq	%rsi
	popq	%r12
	popq	%r13
	popq	%r14
	popq	%r15
	retq
5:
	cmpq	$32,%r8
	jae	1f
	xorl	%eax,%eax
	jmp	4f
1:
	movq	%r8,%rax
	andq	$-32,%rax
	leaq	(%r14,%r9),%r11
	addq	$16,%r11
	addq	%rdi,%r10
	addq	%rcx,%r10
	addq	$32,%r10
	xorl	%esi,%esi
1:
	movups	-16(%r11,%rsi),%xmm0
	movups	(%r11,%rsi),%xmm1
	movups	%xmm0,-16(%r10,%rsi)
	movups	%xmm1,(%r10,%rsi)
	addq	$32,%rsi
	cmpq	%rsi,%rax
	jne	1b
	cmpq	%rax,%r8
	je	3b
	testb	$28,%r8b
	je	2b
4:
	movq	%rax,%rsi
	movq	%r8,%rax
	andq	$-4,%rax
	movq	%rax,%r10
	subq	%rsi,%r10
	leaq	(%r14,%rsi),%r11
	addq	%r9,%r11
	addq	%rsi,%rdi
	movl	%r15d,%esi
	andl	$15,%esi
	leaq	(%rdi,%rsi,4),%rsi
	leaq	(%rcx,%rsi),%r12
	addq	$16,%r12
	xorl	%esi,%esi
1:
	movl	(%r11,%rsi),%edi
	movl	%edi,(%r12,%rsi)
	addq	$4,%rsi
	cmpq	%rsi,%r10
	jne	1b
	cmpq	%rax,%r8
	jne	2b
	jmp	3b
	.seh_endproc

	.def	rtpw_set_padding;
	.scl	2;
	.type	32;
	.endef
	.section	.text$rtpw_set_padding,"xr"
	.globl	rtpw_set_padding
	.p2align	4
rtpw_set_padding:
	xorl	%eax,%eax
	testq	%rcx,%rcx
	sete	%r9b
	cmpq	$12,%rdx
	jb	1f
	movb	%r9b,%al
	shll	$12,%eax
	addq	%rax,%rcx
	movzbl	(%rcx),%eax
	cmpb	$-65,%al
	jg	2f
	movl	%eax,%r9d
	andl	$15,%r9d
	leaq	12(,%r9,4),%r9
	subq	%r9,%rdx
	jb	3f
	testb	$16,%al
	je	4f
	cmpq	$4,%rdx
	jb	5f
	movzwl	2(%rcx,%r9),%r9d
	rolw	$8,%r9w
	addq	$-4,%rdx
	movzwl	%r9w,%r9d
	shll	$2,%r9d
	cmpq	%r9,%rdx
	jb	6f
4:
	andb	$1,%r8b
	shlb	$5,%r8b
	andb	$31,%al
	orb	%r8b,%al
	orb	$-128,%al
	movb	%al,(%rcx)
	xorl	%eax,%eax
	retq
1:
	xorl	%ecx,%ecx
	jmp	rtp_c.status.refusal_status
2:
	movb	$1,%cl
	jmp	rtp_c.status.refusal_status
3:
	movb	$2,%cl
	jmp	rtp_c.status.refusal_status
5:
	movb	$3,%cl
	jmp	rtp_c.status.refusal_status
6:
	movb	$4,%cl
	jmp	rtp_c.status.refusal_status

	.def	rtpw_to_retransmission;
	.scl	2;
	.type	32;
	.endef
	.section	.rdata,"dr"
	.p2align	4,0x0
1:
	.byte	14
	.byte	14
	.byte	14
	.byte	14
	.byte	14
	.byte	14
	.byte	14
	.byte	14
	.zero	1
	.zero	1
	.zero	1
	.zero	1
	.zero	1
	.zero	1
	.zero	1
	.zero	1
	.section	.text$rtpw_to_retransmission,"xr"
	.globl	rtpw_to_retransmission
	.p2align	4
rtpw_to_retransmission:
.seh_proc rtpw_to_retransmission
	pushq	%r15
	.seh_pushreg %r15
	pushq	%r14
	.seh_pushreg %r14
	pushq	%r13
	.seh_pushreg %r13
	pushq	%r12
	.seh_pushreg %r12
	pushq	%rsi
	.seh_pushreg %rsi
	pushq	%rdi
	.seh_pushreg %rdi
	pushq	%rbp
	.seh_pushreg %rbp
	pushq	%rbx
	.seh_pushreg %rbx
	subq	$328,%rsp
	.seh_stackalloc 328
	.seh_endprologue
	movzbl	432(%rsp),%r12d
	xorl	%esi,%esi
	testq	%rcx,%rcx
	sete	%r15b
	movl	$9,%ebp
	testb	%r12b,%r12b
	js	2f
	movq	%rdx,%rbx
	movq	%rcx,%rdi
	movl	%r9d,%r13d
	movq	448(%rsp),%rdx
	movq	%r8,32(%rsp)
	movq	(%r8),%r14
	incq	%rdx
	movb	$0,72(%rsp)
	leaq	73(%rsp),%rcx
	movl	$255,%r8d
	callq	memcpy
	cmpq	%r14,%rbx
	jb	2f
	movl	$1,%ebp
	cmpq	$12,%r14
	jb	2f
	movb	%r15b,%sil
	shll	$12,%esi
	addq	%rsi,%rdi
	movzbl	(%rdi),%ecx
	movl	$2,%ebp
	cmpb	$-65,%cl
	jg	2f
	leal	(,%rcx,4),%eax
	andl	$60,%eax
	leaq	12(%rax),%r15
	movl	$3,%ebp
	movq	%r14,%rsi
	subq	%r15,%rsi
	jb	2f
	testb	$16,%cl
	jne	3f
	xorl	%r8d,%r8d
	xorl	%edx,%edx
	testb	$32,%cl
	je	4f
5:
	cmpq	%r15,%r14
	jne	6f
	xorl	%esi,%esi
	jmp	4f
3:
	movl	$4,%ebp
	cmpq	$4,%rsi
	jb	2f
	addq	$-4,%rsi
	movzwl	2(%rdi,%r15),%edx
	rolw	$8,%dx
	movzwl	%dx,%r9d
	shll	$2,%r9d
	movl	$6,%ebp
	cmpq	%r9,%rsi
	jb	2f
	movzwl	(%rdi,%r15),%r8d
	movl	%r8d,%r10d
	andl	$61695,%r10d
	xorl	%edx,%edx
	cmpw	$16,%r10w
	sete	%dl
	cmpl	$57022,%r8d
	movl	$1,%r8d
	cmovnel	%edx,%r8d
	addq	%r9,%r15
	addq	$4,%r15
	movq	%r14,%rsi
	subq	%r15,%rsi
	testb	$32,%cl
	jne	5b
	jmp	4f
6:
	movzbl	-1(%rdi,%r14),%ecx
	movl	$9,%ebp
	subq	%rcx,%rsi
	jb	2f
4:
	leaq	(%rsi,%r15),%r14
	subq	%r14,%rbx
	cmpq	$1,%rbx
	ja	3f
	testb	%r8b,%r8b
	je	4f
	testb	%dl,%dl
	je	5f
4:
	movl	$8,%ebp
	jmp	2f
3:
	movzwl	2(%rdi),%ebx
	movq	$0,64(%rsp)
	movq	%rdi,40(%rsp)
	movq	%r15,48(%rsp)
	movq	%r15,56(%rsp)
	movb	%r8b,64(%rsp)
	movb	%dl,65(%rsp)
	leaq	40(%rsp),%rcx
	leaq	72(%rsp),%rdx
	callq	rtp_wire.packet.rtp_packet_mut.RtpPacketMut.renumber
	testb	%al,%al
	je	3f
	movzwl	440(%rsp),%eax
	movzbl	(%rdi),%ecx
	movzbl	1(%rdi),%edx
	andb	$31,%cl
	orb	$-128,%cl
	movb	%cl,(%rdi)
	andb	$-128,%dl
	orb	%r12b,%dl
	movb	%dl,1(%rdi)
	rolw	$8,%ax
	movw	%ax,2(%rdi)
	bswapl	%r13d
	movl	%r13d,8(%rdi)
	testq	%rsi,%rsi
	je	6f
	leaq	(%rdi,%r15),%rdx
	leaq	(%rdi,%r15),%rcx
	addq	$2,%rcx
	movq	%rsi,%r8
	callq	memmove
6:
	movw	%bx,(%rdi,%r15)
	addq	$2,%r14
	movq	32(%rsp),%rax
	movq	%r14,(%rax)
	xorl	%ebp,%ebp
	jmp	2f
3:
	movl	$16,%ebp
2:
	movl	%ebp,%eax
	addq	$328,%rsp
	popq	%rbx
	popq	%rbp
	popq	%rdi
	popq	%rsi
	popq	%r12
	popq	%r13
	popq	%r14
	popq	%r15
	retq
5:
	movq	72(%rsp),%xmm0
	movdqa	1b(%rip),%xmm1
	pminub	%xmm0,%xmm1
	pcmpeqb	%xmm0,%xmm1
	pmovmskb	%xmm1,%ecx
	xorb	$-1,%cl
	jne	3f
	movq	79(%rsp),%xmm0
	movdqa	1b(%rip),%xmm1
	pminub	%xmm0,%xmm1
	pcmpeqb	%xmm0,%xmm1
	pmovmskb	%xmm1,%ecx
	xorb	$-1,%cl
	je	4b
3:
	movzbl	%al,%ecx
	leaq	(%rdi,%rcx),%rax
	addq	$16,%rax
	addq	$16,%rcx
	subq	%rcx,%r15
1:
	testq	%r15,%r15
	je	4b
	movzbl	(%rax),%ecx
	testb	%cl,%cl
	jne	3f
	cmpq	$2,%r15
	je	5f
	cmpq	$1,%r15
	je	4b
	cmpq	$3,%r15
	ja	6f
	cmpb	$0,1(%rax)
	jne	6f
	cmpb	$0,2(%rax)
	jne	6f
	jmp	4b
5:
	cmpb	$0,1(%rax)
	je	4b
6:
	decq	%r15
	incq	%rax
	movq	%rax,%rcx
	movq	%r15,%rdx
	callq	rtp_ext.elements.skip_zeros
	testq	%rdx,%rdx
	je	4b
	movq	%rdx,%r15
	movzbl	(%rax),%ecx
3:
	cmpb	$-17,%cl
	ja	4b
	movl	%ecx,%edx
	andb	$15,%dl
	addb	$2,%dl
	movzbl	%dl,%edx
	subq	%rdx,%r15
	jb	4b
	movzbl	%cl,%ecx
	shrl	$4,%ecx
	addq	%rdx,%rax
	movl	$16,%ebp
	cmpb	$15,72(%rsp,%rcx)
	jb	1b
	jmp	2b
	.seh_endproc

	.def	rtpw_set_fields;
	.scl	2;
	.type	32;
	.endef
	.section	.text$rtpw_set_fields,"xr"
	.globl	rtpw_set_fields
	.p2align	4
rtpw_set_fields:
.seh_proc rtpw_set_fields
	pushq	%r15
	.seh_pushreg %r15
	pushq	%r14
	.seh_pushreg %r14
	pushq	%r12
	.seh_pushreg %r12
	pushq	%rsi
	.seh_pushreg %rsi
	pushq	%rdi
	.seh_pushreg %rdi
	pushq	%rbp
	.seh_pushreg %rbp
	pushq	%rbx
	.seh_pushreg %rbx
	.seh_endprologue
	xorl	%r11d,%r11d
	testq	%rcx,%rcx
	sete	%bl
	movzbl	10(%r8),%r9d
	movzbl	15(%r8),%r10d
	testb	%r10b,%r10b
	setne	%sil
	testb	%r9b,%r9b
	sets	%dil
	movl	$9,%eax
	testb	%dil,%sil
	jne	1f
	cmpq	$12,%rdx
	jb	2f
	movb	%bl,%r11b
	shll	$12,%r11d
	addq	%r11,%rcx
	movzbl	(%rcx),%r15d
	cmpb	$-65,%r15b
	jg	3f
	movl	%r15d,%eax
	andl	$15,%eax
	leaq	12(,%rax,4),%r12
	subq	%r12,%rdx
	jb	4f
	movzbl	16(%r8),%r14d
	movzbl	11(%r8),%ebp
	movzbl	14(%r8),%edi
	movzwl	8(%r8),%esi
	movzbl	12(%r8),%ebx
	movl	(%r8),%eax
	movl	4(%r8),%r11d
	movzbl	13(%r8),%r8d
	testb	$16,%r15b
	je	5f
	cmpq	$4,%rdx
	jb	6f
	movzwl	2(%rcx,%r12),%r15d
	rolw	$8,%r15w
	addq	$-4,%rdx
	movzwl	%r15w,%r15d
	shll	$2,%r15d
	cmpq	%r15,%rdx
	jb	7f
5:
	testb	%r14b,%r14b
	je	5f
	testb	%bpl,%bpl
	setne	%dl
	shlb	$7,%dl
	movzbl	1(%rcx),%ebp
	andb	$127,%bpl
	orb	%dl,%bpl
	movb	%bpl,1(%rcx)
5:
	testb	%r10b,%r10b
	je	5f
	movzbl	1(%rcx),%edx
	andb	$-128,%dl
	addb	%r9b,%dl
	movb	%dl,1(%rcx)
5:
	testb	%dil,%dil
	je	5f
	rolw	$8,%si
	movw	%si,2(%rcx)
5:
	testb	%bl,%bl
	je	5f
	bswapl	%eax
	movl	%eax,4(%rcx)
5:
	xorl	%eax,%eax
	testb	%r8b,%r8b
	je	1f
	bswapl	%r11d
	movl	%r11d,8(%rcx)
1:
	popq	%rbx
	popq	%rbp
	popq	%rdi
	popq	%rsi
	popq	%r12
	popq	%r14
	popq	%r15
	retq
2:
	xorl	%ecx,%ecx
	jmp	1f
3:
	movb	$1,%cl
	jmp	1f
4:
	movb	$2,%cl
	jmp	1f
6:
	movb	$3,%cl
	jmp	1f
7:
	movb	$4,%cl
1:
	popq	%rbx
	popq	%rbp
	popq	%rdi
	popq	%rsi
	popq	%r12
	popq	%r14
	popq	%r15
	jmp	rtp_c.status.refusal_status
	.seh_endproc

	.def	rtpw_set_marker;
	.scl	2;
	.type	32;
	.endef
	.section	.text$rtpw_set_marker,"xr"
	.globl	rtpw_set_marker
	.p2align	4
rtpw_set_marker:
	xorl	%eax,%eax
	testq	%rcx,%rcx
	sete	%r9b
	cmpq	$12,%rdx
	jb	1f
	movb	%r9b,%al
	shll	$12,%eax
	addq	%rax,%rcx
	movzbl	(%rcx),%eax
	cmpb	$-65,%al
	jg	2f
	movl	%eax,%r9d
	andl	$15,%r9d
	leaq	12(,%r9,4),%r9
	subq	%r9,%rdx
	jb	3f
	testb	$16,%al
	je	4f
	cmpq	$4,%rdx
	jb	5f
	movzwl	2(%rcx,%r9),%eax
	rolw	$8,%ax
	addq	$-4,%rdx
	movzwl	%ax,%eax
	shll	$2,%eax
	cmpq	%rax,%rdx
	jb	6f
4:
	shlb	$7,%r8b
	movzbl	1(%rcx),%eax
	andb	$127,%al
	orb	%r8b,%al
	movb	%al,1(%rcx)
	xorl	%eax,%eax
	retq
1:
	xorl	%ecx,%ecx
	jmp	rtp_c.status.refusal_status
2:
	movb	$1,%cl
	jmp	rtp_c.status.refusal_status
3:
	movb	$2,%cl
	jmp	rtp_c.status.refusal_status
5:
	movb	$3,%cl
	jmp	rtp_c.status.refusal_status
6:
	movb	$4,%cl
	jmp	rtp_c.status.refusal_status

	.def	rtpw_set_payload_type;
	.scl	2;
	.type	32;
	.endef
	.section	.text$rtpw_set_payload_type,"xr"
	.globl	rtpw_set_payload_type
	.p2align	4
rtpw_set_payload_type:
	xorl	%eax,%eax
	testq	%rcx,%rcx
	sete	%r9b
	testb	%r8b,%r8b
	js	1f
	cmpq	$12,%rdx
	jb	2f
	movb	%r9b,%al
	shll	$12,%eax
	addq	%rax,%rcx
	movzbl	(%rcx),%eax
	cmpb	$-65,%al
	jg	3f
	movl	%eax,%r9d
	andl	$15,%r9d
	leaq	12(,%r9,4),%r9
	subq	%r9,%rdx
	jb	4f
	testb	$16,%al
	je	5f
	cmpq	$4,%rdx
	jb	6f
	movzwl	2(%rcx,%r9),%eax
	rolw	$8,%ax
	addq	$-4,%rdx
	movzwl	%ax,%eax
	shll	$2,%eax
	cmpq	%rax,%rdx
	jb	7f
5:
	movzbl	1(%rcx),%eax
	andb	$-128,%al
	orb	%r8b,%al
	movb	%al,1(%rcx)
	xorl	%eax,%eax
	retq
1:
	movl	$9,%eax
	retq
2:
	xorl	%ecx,%ecx
	jmp	rtp_c.status.refusal_status
3:
	movb	$1,%cl
	jmp	rtp_c.status.refusal_status
4:
	movb	$2,%cl
	jmp	rtp_c.status.refusal_status
6:
	movb	$3,%cl
	jmp	rtp_c.status.refusal_status
7:
	movb	$4,%cl
	jmp	rtp_c.status.refusal_status

	.def	rtpw_set_sequence_number;
	.scl	2;
	.type	32;
	.endef
	.section	.text$rtpw_set_sequence_number,"xr"
	.globl	rtpw_set_sequence_number
	.p2align	4
rtpw_set_sequence_number:
	xorl	%eax,%eax
	testq	%rcx,%rcx
	sete	%r9b
	cmpq	$12,%rdx
	jb	1f
	movb	%r9b,%al
	shll	$12,%eax
	addq	%rax,%rcx
	movzbl	(%rcx),%eax
	cmpb	$-65,%al
	jg	2f
	movl	%eax,%r9d
	andl	$15,%r9d
	leaq	12(,%r9,4),%r9
	subq	%r9,%rdx
	jb	3f
	testb	$16,%al
	je	4f
	cmpq	$4,%rdx
	jb	5f
	movzwl	2(%rcx,%r9),%eax
	rolw	$8,%ax
	addq	$-4,%rdx
	movzwl	%ax,%eax
	shll	$2,%eax
	cmpq	%rax,%rdx
	jb	6f
4:
	rolw	$8,%r8w
	movw	%r8w,2(%rcx)
	xorl	%eax,%eax
	retq
1:
	xorl	%ecx,%ecx
	jmp	rtp_c.status.refusal_status
2:
	movb	$1,%cl
	jmp	rtp_c.status.refusal_status
3:
	movb	$2,%cl
	jmp	rtp_c.status.refusal_status
5:
	movb	$3,%cl
	jmp	rtp_c.status.refusal_status
6:
	movb	$4,%cl
	jmp	rtp_c.status.refusal_status

	.def	rtpw_set_ssrc;
	.scl	2;
	.type	32;
	.endef
	.section	.text$rtpw_set_ssrc,"xr"
	.globl	rtpw_set_ssrc
	.p2align	4
rtpw_set_ssrc:
	xorl	%eax,%eax
	testq	%rcx,%rcx
	sete	%r9b
	cmpq	$12,%rdx
	jb	1f
	movb	%r9b,%al
	shll	$12,%eax
	addq	%rax,%rcx
	movzbl	(%rcx),%eax
	cmpb	$-65,%al
	jg	2f
	movl	%eax,%r9d
	andl	$15,%r9d
	leaq	12(,%r9,4),%r9
	subq	%r9,%rdx
	jb	3f
	testb	$16,%al
	je	4f
	cmpq	$4,%rdx
	jb	5f
	movzwl	2(%rcx,%r9),%eax
	rolw	$8,%ax
	addq	$-4,%rdx
	movzwl	%ax,%eax
	shll	$2,%eax
	cmpq	%rax,%rdx
	jb	6f
4:
	bswapl	%r8d
	movl	%r8d,8(%rcx)
	xorl	%eax,%eax
	retq
1:
	xorl	%ecx,%ecx
	jmp	rtp_c.status.refusal_status
2:
	movb	$1,%cl
	jmp	rtp_c.status.refusal_status
3:
	movb	$2,%cl
	jmp	rtp_c.status.refusal_status
5:
	movb	$3,%cl
	jmp	rtp_c.status.refusal_status
6:
	movb	$4,%cl
	jmp	rtp_c.status.refusal_status

	.def	rtpw_set_timestamp;
	.scl	2;
	.type	32;
	.endef
	.section	.text$rtpw_set_timestamp,"xr"
	.globl	rtpw_set_timestamp
	.p2align	4
rtpw_set_timestamp:
	xorl	%eax,%eax
	testq	%rcx,%rcx
	sete	%r9b
	cmpq	$12,%rdx
	jb	1f
	movb	%r9b,%al
	shll	$12,%eax
	addq	%rax,%rcx
	movzbl	(%rcx),%eax
	cmpb	$-65,%al
	jg	2f
	movl	%eax,%r9d
	andl	$15,%r9d
	leaq	12(,%r9,4),%r9
	subq	%r9,%rdx
	jb	3f
	testb	$16,%al
	je	4f
	cmpq	$4,%rdx
	jb	5f
	movzwl	2(%rcx,%r9),%eax
	rolw	$8,%ax
	addq	$-4,%rdx
	movzwl	%ax,%eax
	shll	$2,%eax
	cmpq	%rax,%rdx
	jb	6f
4:
	bswapl	%r8d
	movl	%r8d,4(%rcx)
	xorl	%eax,%eax
	retq
1:
	xorl	%ecx,%ecx
	jmp	rtp_c.status.refusal_status
2:
	movb	$1,%cl
	jmp	rtp_c.status.refusal_status
3:
	movb	$2,%cl
	jmp	rtp_c.status.refusal_status
5:
	movb	$3,%cl
	jmp	rtp_c.status.refusal_status
6:
	movb	$4,%cl
	jmp	rtp_c.status.refusal_status

	.def	rtpw_receiver_record;
	.scl	2;
	.type	32;
	.endef
	.section	.text$rtpw_receiver_record,"xr"
	.globl	rtpw_receiver_record
	.p2align	4
rtpw_receiver_record:
.seh_proc rtpw_receiver_record
	pushq	%rsi
	.seh_pushreg %rsi
	pushq	%rdi
	.seh_pushreg %rdi
	pushq	%rbx
	.seh_pushreg %rbx
	.seh_endprologue
	movzbl	24(%rcx),%r8d
	testb	%r8b,%r8b
	je	1f
	movq	16(%rcx),%r9
	movq	(%rcx),%rsi
	movq	8(%rcx),%r10
	orq	$1,%r10
	movq	%rsi,%rax
	subq	%rdx,%rax
	jae	2f
	movq	%rdx,%rax
	subq	%rsi,%rax
	cmpq	$1,%rax
	jne	3f
	leaq	1(,%r10,2),%r11
	shldq	$1,%r10,%r9
	jmp	4f
1:
	movq	%rdx,(%rcx)
	movq	$1,8(%rcx)
	movq	$0,16(%rcx)
	jmp	1f
2:
	cmpq	$127,%rax
	jbe	2f
	movq	%rsi,%rdx
	movq	%r10,%r11
	jmp	4f
3:
	cmpq	$127,%rax
	ja	3f
	movq	%rcx,%r11
	movl	%eax,%ecx
	shldq	%cl,%r10,%r9
	shlq	%cl,%r10
	movq	%r11,%rcx
	xorl	%r11d,%r11d
	testb	$64,%al
	cmovneq	%r10,%r9
	cmoveq	%r10,%r11
	orq	$1,%r11
	jmp	4f
2:
	movl	$1,%r11d
	xorl	%edi,%edi
	movq	%rcx,%rdx
	movl	%eax,%ecx
	shldq	%cl,%r11,%rdi
	shlq	%cl,%r11
	movq	%rdx,%rcx
	xorl	%edx,%edx
	testb	$64,%al
	cmovneq	%r11,%rdi
	cmovneq	%rdx,%r11
	movq	%rdi,%rax
	andq	%r9,%rax
	movq	%r11,%rbx
	andq	%r10,%rbx
	orq	%rax,%rbx
	cmovneq	%rdx,%rdi
	cmovneq	%rdx,%r11
	orq	%rdi,%r9
	orq	%r10,%r11
	movq	%rsi,%rdx
	jmp	4f
3:
	movl	$1,%r11d
	xorl	%r9d,%r9d
4:
	movq	%rdx,(%rcx)
	movq	%r11,8(%rcx)
	movq	%r9,16(%rcx)
	cmpb	$1,%r8b
	je	2f
1:
	movb	$1,24(%rcx)
2:
	popq	%rbx
	popq	%rdi
	popq	%rsi
	retq
	.seh_endproc

	.def	rtpw_receiver_start;
	.scl	2;
	.type	32;
	.endef
	.section	.text$rtpw_receiver_start,"xr"
	.globl	rtpw_receiver_start
	.p2align	4
rtpw_receiver_start:
	movq	%rdx,%rax
	shrq	$48,%rax
	movl	$9,%eax
	jne	1f
	shlq	$16,%rdx
	movq	%rdx,(%rcx)
	xorps	%xmm0,%xmm0
	movups	%xmm0,8(%rcx)
	movb	$0,24(%rcx)
	xorl	%eax,%eax
1:
	retq

	.def	rtpw_make_from_group;
	.scl	2;
	.type	32;
	.endef
	.section	.rdata,"dr"
	.p2align	4,0x0
1:
	.short	255
	.short	0
	.short	0
	.short	0
	.short	255
	.short	0
	.short	0
	.short	0
	.section	.text$rtpw_make_from_group,"xr"
	.globl	rtpw_make_from_group
	.p2align	4
rtpw_make_from_group:
.seh_proc rtpw_make_from_group
	pushq	%r15
	.seh_pushreg %r15
	pushq	%r14
	.seh_pushreg %r14
	pushq	%r13
	.seh_pushreg %r13
	pushq	%r12
	.seh_pushreg %r12
	pushq	%rsi
	.seh_pushreg %rsi
	pushq	%rdi
	.seh_pushreg %rdi
	pushq	%rbp
	.seh_pushreg %rbp
	pushq	%rbx
	.seh_pushreg %rbx
	subq	$456,%rsp
	.seh_stackalloc 456
	.seh_endprologue
	xorl	%r14d,%r14d
	testq	%rdx,%rdx
	sete	%bpl
	xorl	%edi,%edi
	movq	%r9,80(%rsp)
	testq	%r9,%r9
	sete	%bl
	pxor	%xmm0,%xmm0
	movdqa	%xmm0,144(%rsp)
	movq	$0,160(%rsp)
	movzbl	546(%rcx),%r11d
	movl	$9,%eax
	cmpq	$16,%r11
	ja	2f
	movzbl	547(%rcx),%r9d
	cmpl	$2,%r9d
	ja	2f
	cmpb	$0,(%rcx)
	jne	2f
	cmpb	$0,256(%rcx)
	je	3f
2:
	addq	$456,%rsp
	popq	%rbx
	popq	%rbp
	popq	%rdi
	popq	%rsi
	popq	%r12
	popq	%r13
	popq	%r14
	popq	%r15
	retq
3:
	movl	%r9d,92(%rsp)
	movq	%r8,112(%rsp)
	testq	%r11,%r11
	je	3f
	movb	$1,%r15b
	xorl	%esi,%esi
	xorl	%r13d,%r13d
	.p2align	4
4:
	movzbl	512(%rcx,%r13),%r10d
	movzbl	256(%rcx,%r10),%r12d
	movzbl	%r12b,%r8d
	leaq	1(%r13),%r9
	cmpq	%r8,%r9
	jne	2b
	movzbl	528(%rcx,%r13),%r9d
	addl	%r9d,%esi
	decb	%r10b
	decl	%r9d
	xorl	%r13d,%r13d
	cmpb	$16,%r9b
	movzbl	%r15b,%r15d
	cmovael	%r13d,%r15d
	cmpb	$14,%r10b
	cmovael	%r13d,%r15d
	movq	%r8,%r13
	cmpb	%r11b,%r12b
	jne	4b
	testb	%r15b,%r15b
	setne	%r8b
	jmp	4f
3:
	movb	$1,%r8b
	xorl	%esi,%esi
4:
	cmpw	%si,544(%rcx)
	jne	2b
	movzbl	548(%rcx),%r15d
	testb	%r15b,%r15b
	setne	%r9b
	xorb	%r9b,%r8b
	jne	2b
	movl	$1,%eax
	cmpq	$12,112(%rsp)
	jb	2b
	movb	%bpl,%r14b
	shll	$12,%r14d
	addq	%r14,%rdx
	movzbl	(%rdx),%r14d
	movl	$2,%eax
	cmpb	$-65,%r14b
	jg	2b
	leal	(,%r14,4),%r13d
	andl	$60,%r13d
	leaq	12(%r13),%r12
	movl	$3,%eax
	movq	112(%rsp),%r10
	subq	%r12,%r10
	jb	2b
	testb	$16,%r14b
	jne	3f
	xorl	%r10d,%r10d
	xorl	%ebp,%ebp
4:
	movq	560(%rsp),%r9
	movb	%bl,%dil
	shll	$12,%edi
	addq	%rdi,80(%rsp)
	pxor	%xmm0,%xmm0
	movdqu	%xmm0,224(%rsp)
	movq	$0,200(%rsp)
	movdqa	%xmm0,240(%rsp)
	movq	$0,256(%rsp)
	movq	$1,296(%rsp)
	movdqa	%xmm0,304(%rsp)
	movdqa	%xmm0,320(%rsp)
	movdqa	%xmm0,336(%rsp)
	movdqa	%xmm0,352(%rsp)
	movdqa	%xmm0,368(%rsp)
	movdqa	%xmm0,384(%rsp)
	movdqa	%xmm0,400(%rsp)
	movdqa	%xmm0,416(%rsp)
	testb	%r10b,%r10b
	movq	%rcx,96(%rsp)
	je	5f
	movzbl	%r13b,%r8d
	addq	$16,%r8
	movq	%r12,%rax
	subq	%r8,%rax
	cmpq	$256,%rax
	ja	5f
	cmpq	$262140,%r9
	movl	$262140,%r14d
	cmovbq	%r9,%r14
	leaq	3(,%r12,2),%r9
	movq	%r14,%rdi
	subq	%r9,%rdi
	jb	6f
	movzwl	%si,%r9d
	leaq	(%r9,%r11,2),%r9
	cmpq	%r9,%rdi
	jb	6f
	movl	%ebp,%esi
	testq	%r11,%r11
	je	7f
	testb	%r15b,%r15b
	movzbl	%bpl,%r9d
	movl	$1,%r11d
	cmovnel	%r9d,%r11d
	movl	92(%rsp),%r9d
	cmpl	$1,%r9d
	je	8f
	movb	$1,%sil
	testl	%r9d,%r9d
	jne	7f
	movl	%r11d,%esi
	jmp	7f
3:
	movl	$4,%eax
	cmpq	$4,%r10
	jb	2b
	addq	$-4,%r10
	movzwl	2(%rdx,%r12),%eax
	rolw	$8,%ax
	movzwl	%ax,%r8d
	shll	$2,%r8d
	movl	$6,%eax
	cmpq	%r8,%r10
	jb	2b
	movzwl	(%rdx,%r12),%eax
	movl	%eax,%r9d
	andl	$61695,%r9d
	xorl	%ebp,%ebp
	cmpw	$16,%r9w
	sete	%bpl
	cmpl	$57022,%eax
	leaq	4(%r12,%r8),%r12
	movl	$1,%r10d
	cmovnel	%ebp,%r10d
	jmp	4b
8:
	testb	%r11b,%r11b
	jne	5f
	xorl	%esi,%esi
7:
	movl	%r10d,124(%rsp)
	movq	%rdx,136(%rsp)
	addq	%r8,%rdx
	leaq	304(%rsp),%r9
	movq	%r9,64(%rsp)
	movq	%rcx,56(%rsp)
	movq	%rax,48(%rsp)
	movq	%rdx,40(%rsp)
	movl	%esi,92(%rsp)
	movb	%sil,32(%rsp)
	movq	80(%rsp),%rcx
	movq	%r14,%rdx
	movq	%r8,128(%rsp)
	movl	%ebp,108(%rsp)
	movl	%ebp,%r9d
	callq	rtp_route.walk.write_kept.82187cbc7fdfa14b
	movq	96(%rsp),%rcx
	cmpb	$1,%al
	jne	3f
	movzbl	546(%rcx),%esi
	testq	%rsi,%rsi
	je	4f
	cmpb	$0,92(%rsp)
	je	7f
	xorl	%ebp,%ebp
	jmp	8f
9:
	movq	%rdx,%rdi
	incq	%rbp
	cmpq	%rbp,%rsi
	je	10f
8:
	cmpl	$0,304(%rsp,%rbp,8)
	jne	9b
	movzbl	528(%rcx,%rbp),%eax
	movzbl	%al,%r15d
	leaq	(%rdx,%r15),%rdi
	addq	$2,%rdi
	cmpq	%rdi,%r14
	jb	3f
	leaq	2(%rdx),%rbx
	movzbl	512(%rcx,%rbp),%r8d
	movq	80(%rsp),%r9
	movb	%r8b,(%r9,%rdx)
	movb	%r15b,1(%r9,%rdx)
	testl	%r15d,%r15d
	je	9f
	cmpl	$1,%r15d
	jne	11f
	movq	80(%rsp),%rax
	movb	$0,(%rax,%rbx)
	jmp	12f
11:
	cmpb	$2,%al
	ja	11f
	movq	80(%rsp),%rax
	movw	$0,(%rax,%rbx)
	jmp	12f
11:
	cmpb	$3,%al
	jne	9f
	movq	80(%rsp),%rax
	movw	$0,(%rax,%rbx)
	movb	$0,2(%rax,%rbx)
	jmp	12f
9:
	movq	80(%rsp),%rax
	leaq	(%rax,%rbx),%rcx
	xorl	%edx,%edx
	movq	%r15,%r8
	callq	memset
	movq	96(%rsp),%rcx
12:
	movl	%ebx,304(%rsp,%rbp,8)
	movl	%r15d,308(%rsp,%rbp,8)
	movq	%rdi,%rdx
	incq	%rbp
	cmpq	%rbp,%rsi
	jne	8b
	jmp	10f
4:
	movq	%rdx,%rdi
10:
	leaq	3(%rdi),%r15
	andq	$-4,%r15
	cmpq	%r15,%r14
	jb	3f
	movq	%r15,%rax
	subq	%rdi,%rax
	movq	136(%rsp),%rdx
	je	4f
	cmpq	$2,%rax
	je	8f
	cmpq	$1,%rax
	jne	9f
	movq	80(%rsp),%rax
	movb	$0,(%rax,%rdi)
	jmp	4f
7:
	xorl	%ebp,%ebp
	movq	%rdx,%rdi
	jmp	7f
11:
	movq	80(%rsp),%rax
	leaq	(%rax,%rdi),%rcx
	xorl	%edx,%edx
	movq	%r15,%r8
	callq	memset
	movq	96(%rsp),%rcx
12:
	movq	%r15,%rax
	addq	%rdi,%rax
	movl	%edi,304(%rsp,%rbp,8)
	movl	%r15d,308(%rsp,%rbp,8)
	movq	%rax,%rdi
13:
	incq	%rbp
	cmpq	%rbp,%rsi
	je	10b
7:
	cmpl	$0,304(%rsp,%rbp,8)
	jne	13b
	movzbl	528(%rcx,%rbp),%r15d
	leaq	(%rdi,%r15),%rax
	addq	$2,%rax
	cmpq	%rax,%r14
	jb	3f
	movzbl	512(%rcx,%rbp),%edx
	rolb	$4,%dl
	addb	%r15b,%dl
	decb	%dl
	movq	80(%rsp),%rax
	movb	%dl,(%rax,%rdi)
	incq	%rdi
	testl	%r15d,%r15d
	je	11b
	cmpl	$1,%r15d
	jne	7f
	movq	80(%rsp),%rax
	movb	$0,(%rax,%rdi)
	jmp	12b
7:
	cmpb	$3,%r15b
	jae	7f
	movq	80(%rsp),%rax
	movw	$0,(%rax,%rdi)
	jmp	12b
7:
	cmpl	$3,%r15d
	jne	11b
	movq	80(%rsp),%rax
	movw	$0,(%rax,%rdi)
	movb	$0,2(%rax,%rdi)
	jmp	12b
8:
	movq	80(%rsp),%rax
	jmp	7f
9:
	movq	80(%rsp),%rax
	movb	$0,2(%rax,%rdi)
7:
	movw	$0,(%rax,%rdi)
4:
	cmpb	$33,%r13b
	jb	4f
	movq	80(%rsp),%rcx
	movq	128(%rsp),%rsi
	movq	%rsi,%r8
	callq	rtp_route.copying.put_any
	movq	96(%rsp),%rcx
	movl	108(%rsp),%r8d
	movl	92(%rsp),%r9d
	jmp	7f
4:
	movups	(%rdx),%xmm0
	movq	80(%rsp),%rax
	movups	%xmm0,(%rax)
	cmpb	$17,%r13b
	movl	108(%rsp),%r8d
	movq	128(%rsp),%rsi
	movl	92(%rsp),%r9d
	jb	4f
	movups	16(%rdx),%xmm0
	movq	80(%rsp),%rax
	movups	%xmm0,16(%rax)
4:
	movdqu	(%rdx,%r13),%xmm0
	movq	80(%rsp),%rax
	movdqu	%xmm0,(%rax,%r13)
7:
	movq	%r15,%rax
	subq	%rsi,%rax
	cmpb	%r8b,%r9b
	je	4f
	testb	%r9b,%r9b
	movl	$57022,%edx
	movl	$16,%r8d
	cmovel	%edx,%r8d
	movq	80(%rsp),%rdx
	movw	%r8w,-4(%rdx,%rsi)
4:
	movl	%eax,%edx
	shrl	$10,%edx
	andl	$-4,%eax
	shll	$6,%eax
	movzbl	%dl,%edx
	orl	%eax,%edx
	movq	80(%rsp),%rax
	movw	%dx,-2(%rax,%rsi)
	jmp	4f
3:
	movzbl	547(%rcx),%eax
	movl	%eax,92(%rsp)
	movq	136(%rsp),%rdx
	movl	108(%rsp),%ebp
	movl	124(%rsp),%r10d
6:
	cmpb	$1,92(%rsp)
	jne	3f
5:
	movq	112(%rsp),%rdi
5:
	movq	%rdx,176(%rsp)
	movq	%rdi,184(%rsp)
	movq	%r12,192(%rsp)
	movb	%r10b,200(%rsp)
	movb	%bpl,201(%rsp)
	leaq	304(%rsp),%rax
	movq	%rax,40(%rsp)
	movq	560(%rsp),%rax
	movq	%rax,32(%rsp)
	leaq	208(%rsp),%rcx
	leaq	176(%rsp),%rdx
	movq	96(%rsp),%r8
	movq	80(%rsp),%r9
	callq	rtp_route.making.make_by_calls_of.82187cbc7fdfa14b
	movq	216(%rsp),%r15
	cmpb	$0,208(%rsp)
	je	6f
	movzbl	224(%rsp),%eax
	movzbl	225(%rsp),%ecx
	movq	232(%rsp),%rdx
	movzbl	%r15b,%r8d
	movq	%r8,144(%rsp)
	movb	%al,152(%rsp)
	movb	%cl,153(%rsp)
	movq	%rdx,160(%rsp)
	leaq	144(%rsp),%rcx
	callq	rtp_c.template.not_routed_status
	jmp	2b
3:
	movq	%rdx,272(%rsp)
	movq	112(%rsp),%rdi
	movq	%rdi,280(%rsp)
	movq	%r12,288(%rsp)
	movb	%bpl,297(%rsp)
	pxor	%xmm0,%xmm0
	movdqa	%xmm0,432(%rsp)
	movq	$0,448(%rsp)
	leaq	304(%rsp),%rax
	movq	%rax,48(%rsp)
	movq	560(%rsp),%rax
	movq	%rax,40(%rsp)
	movq	80(%rsp),%rax
	movq	%rax,32(%rsp)
	leaq	240(%rsp),%rax
	leaq	272(%rsp),%r11
	movl	%r10d,%ebx
	leaq	432(%rsp),%r8
	movq	%rcx,%r9
	movq	%rax,%rcx
	movq	%rdx,%rsi
	movq	%r11,%rdx
	callq	rtp_route.by_walk.write_in_two_byte_form.82187cbc7fdfa14b
	movl	%ebx,%r10d
	movq	%rsi,%rdx
	cmpb	$1,240(%rsp)
	jne	5b
	movq	248(%rsp),%r15
6:
	movq	96(%rsp),%rcx
4:
	movq	568(%rsp),%rdx
	movzbl	546(%rcx),%ecx
	xorl	%eax,%eax
	pxor	%xmm0,%xmm0
	movdqu	%xmm0,52(%rdx)
	movdqu	%xmm0,36(%rdx)
	movdqu	%xmm0,20(%rdx)
	movdqu	%xmm0,4(%rdx)
	movdqu	%xmm0,71(%rdx)
	testq	%rcx,%rcx
	je	3f
	leaq	4(%rdx),%r10
	leaq	71(%rdx),%r8
	cmpb	$12,%cl
	jb	4f
	leaq	(%rdx,%rcx,4),%r9
	addq	$4,%r9
	leaq	(%rdx,%rcx),%r11
	addq	$71,%r11
	cmpq	%r11,%r10
	setb	%r11b
	cmpq	%r9,%r8
	setb	%r9b
	testb	%r9b,%r11b
	je	5f
4:
	xorl	%r11d,%r11d
	xorl	%r9d,%r9d
4:
	testb	$1,%cl
	jne	6f
	movq	%r9,%rdi
	jmp	7f
3:
	xorl	%esi,%esi
	jmp	3f
6:
	movq	304(%rsp,%r9,8),%rsi
	movl	%esi,%edi
	shrq	$32,%rsi
	movl	%edi,(%r10,%r9,4)
	movb	%sil,(%r8,%r9)
	addl	%esi,%r11d
	movq	%r9,%rdi
	orq	$1,%rdi
	movl	%r11d,%esi
7:
	leal	-1(%rcx),%r8d
	cmpl	%r8d,%r9d
	je	3f
	movq	%rcx,%r8
	subq	%rdi,%r8
	leaq	(%rdi,%rdx),%r9
	addq	$72,%r9
	leaq	(%rdx,%rdi,4),%r10
	addq	$8,%r10
	leaq	(%rsp,%rdi,8),%rdi
	addq	$312,%rdi
	xorl	%ebx,%ebx
6:
	movq	-8(%rdi,%rbx,8),%rsi
	movl	%esi,%ebp
	shrq	$32,%rsi
	movl	%ebp,-4(%r10,%rbx,4)
	movb	%sil,-1(%r9,%rbx)
	addl	%esi,%r11d
	movq	(%rdi,%rbx,8),%rsi
	movl	%esi,%ebp
	shrq	$32,%rsi
	movl	%ebp,(%r10,%rbx,4)
	movb	%sil,(%r9,%rbx)
	addl	%r11d,%esi
	addq	$2,%rbx
	movl	%esi,%r11d
	cmpq	%rbx,%r8
	jne	6b
	jmp	3f
5:
	movl	%ecx,%r9d
	andl	$-4,%r9d
	xorl	%r11d,%r11d
	pxor	%xmm1,%xmm1
5:
	movdqu	304(%rsp,%r11,8),%xmm3
	movdqu	320(%rsp,%r11,8),%xmm2
	pshufd	$232,%xmm3,%xmm4
	pshufd	$232,%xmm2,%xmm5
	punpcklqdq	%xmm5,%xmm4
	psrlq	$32,%xmm3
	psrlq	$32,%xmm2
	movdqu	%xmm4,4(%rdx,%r11,4)
	movdqa	1b(%rip),%xmm4
	pshufd	$232,%xmm3,%xmm5
	pand	%xmm4,%xmm3
	packuswb	%xmm3,%xmm3
	packuswb	%xmm3,%xmm3
	packuswb	%xmm3,%xmm3
	pand	%xmm2,%xmm4
	packuswb	%xmm4,%xmm4
	packuswb	%xmm4,%xmm4
	packuswb	%xmm4,%xmm4
	movd	%xmm3,%esi
	movw	%si,71(%rdx,%r11)
	movd	%xmm4,%esi
	movw	%si,73(%rdx,%r11)
	pshuflw	$232,%xmm5,%xmm3
	paddw	%xmm3,%xmm1
	pshufd	$232,%xmm2,%xmm2
	pshuflw	$232,%xmm2,%xmm2
	paddw	%xmm2,%xmm0
	addq	$4,%r11
	cmpq	%r11,%r9
	jne	5b
	paddw	%xmm1,%xmm0
	movdqa	%xmm0,%xmm1
	psrld	$16,%xmm1
	paddw	%xmm0,%xmm1
	movd	%xmm1,%r11d
	movl	%r11d,%esi
	cmpl	%ecx,%r9d
	jne	4b
3:
	movl	%r15d,(%rdx)
	movw	%si,68(%rdx)
	movb	%cl,70(%rdx)
	jmp	2b
	.seh_endproc

	.def	rtpw_make_template;
	.scl	2;
	.type	32;
	.endef
	.section	.rdata,"dr"
	.p2align	4,0x0
1:
	.short	255
	.short	0
	.short	0
	.short	0
	.short	255
	.short	0
	.short	0
	.short	0
	.section	.text$rtpw_make_template,"xr"
	.globl	rtpw_make_template
	.p2align	4
rtpw_make_template:
.seh_proc rtpw_make_template
	pushq	%r15
	.seh_pushreg %r15
	pushq	%r14
	.seh_pushreg %r14
	pushq	%r13
	.seh_pushreg %r13
	pushq	%r12
	.seh_pushreg %r12
	pushq	%rsi
	.seh_pushreg %rsi
	pushq	%rdi
	.seh_pushreg %rdi
	pushq	%rbp
	.seh_pushreg %rbp
	pushq	%rbx
	.seh_pushreg %rbx
	subq	$1240,%rsp
	.seh_stackalloc 1240
	.seh_endprologue
	movq	%rcx,%r12
	movzbl	1368(%rsp),%ecx
	xorl	%ebx,%ebx
	testq	%r12,%r12
	sete	%bpl
	xorl	%r10d,%r10d
	testq	%r9,%r9
	sete	%r15b
	xorl	%r13d,%r13d
	cmpq	$0,1352(%rsp)
	sete	%sil
	xorl	%r14d,%r14d
	cmpq	$0,1376(%rsp)
	sete	%r11b
	movq	$0,200(%rsp)
	pxor	%xmm0,%xmm0
	movdqa	%xmm0,208(%rsp)
	movq	$0,224(%rsp)
	movl	$9,%eax
	cmpb	$2,%cl
	ja	2f
	leal	(,%rcx,8),%ecx
	movl	$65792,%edi
	shrl	%cl,%edi
	movl	%edi,96(%rsp)
	movl	$65536,%edi
	shrl	%cl,%edi
	cmpq	$16,1360(%rsp)
	ja	2f
	movq	%r12,%rcx
	movq	1344(%rsp),%r12
	movb	%bpl,%bl
	shll	$12,%ebx
	addq	%rbx,%rcx
	movq	%rcx,%rbx
	movb	%r15b,%r10b
	shll	$12,%r10d
	addq	%r10,%r9
	movb	%sil,%r13b
	shll	$12,%r13d
	movq	1352(%rsp),%rcx
	leaq	(%rcx,%r13),%rsi
	movb	%r11b,%r14b
	shll	$12,%r14d
	movq	1376(%rsp),%rcx
	leaq	(%rcx,%r14),%rbp
	movq	$-1,%rcx
	movq	%rsi,%r10
	movq	1360(%rsp),%r15
	.p2align	4
3:
	incq	%rcx
	cmpq	%rcx,%r15
	je	4f
	movq	%r12,%r11
	subq	(%r10),%r11
	jb	2f
	cmpq	%r11,8(%r10)
	leaq	32(%r10),%r10
	jbe	3b
	jmp	2f
4:
	movl	$1,%eax
	cmpq	$12,%rdx
	jb	2f
	movzbl	(%rbx),%r10d
	movl	$2,%eax
	cmpb	$-65,%r10b
	jg	2f
	leal	(,%r10,4),%eax
	andl	$60,%eax
	movq	%rax,152(%rsp)
	leaq	12(%rax),%r11
	movl	$3,%eax
	movq	%rdx,%rcx
	subq	%r11,%rcx
	jb	2f
	testb	$16,%r10b
	movq	%rdx,120(%rsp)
	jne	3f
	movq	%rsi,80(%rsp)
	movq	%r11,104(%rsp)
	movq	%r9,%rsi
	movl	$0,92(%rsp)
	movl	$0,76(%rsp)
4:
	incq	%r8
	movb	$0,984(%rsp)
	leaq	985(%rsp),%rcx
	movq	%r8,%rdx
	movl	$255,%r8d
	callq	memcpy
	leaq	984(%rsp),%rax
	movq	%rax,160(%rsp)
	movq	%rsi,168(%rsp)
	movq	%r12,176(%rsp)
	movq	80(%rsp),%rax
	movq	%rax,184(%rsp)
	movq	%r15,192(%rsp)
	movl	96(%rsp),%eax
	movb	%al,200(%rsp)
	movb	%dil,201(%rsp)
	pxor	%xmm0,%xmm0
	movdqa	%xmm0,496(%rsp)
	movdqa	%xmm0,512(%rsp)
	movdqa	%xmm0,528(%rsp)
	movdqa	%xmm0,544(%rsp)
	movdqa	%xmm0,560(%rsp)
	movdqa	%xmm0,576(%rsp)
	movdqa	%xmm0,592(%rsp)
	movdqa	%xmm0,608(%rsp)
	movdqa	%xmm0,304(%rsp)
	movdqa	%xmm0,320(%rsp)
	movq	$0,392(%rsp)
	movdqa	%xmm0,720(%rsp)
	movdqa	%xmm0,736(%rsp)
	movdqa	%xmm0,752(%rsp)
	movdqa	%xmm0,768(%rsp)
	movdqa	%xmm0,784(%rsp)
	movdqa	%xmm0,800(%rsp)
	movdqa	%xmm0,816(%rsp)
	movdqa	%xmm0,832(%rsp)
	movdqa	%xmm0,848(%rsp)
	movdqa	%xmm0,864(%rsp)
	movdqa	%xmm0,880(%rsp)
	movdqa	%xmm0,896(%rsp)
	movdqa	%xmm0,912(%rsp)
	movdqa	%xmm0,928(%rsp)
	movdqa	%xmm0,944(%rsp)
	movdqa	%xmm0,960(%rsp)
	testq	%r15,%r15
	je	5f
	movq	1352(%rsp),%rax
	leaq	(%rax,%r13),%rcx
	addq	$24,%rcx
	xorl	%edx,%edx
	movq	120(%rsp),%rax
	movq	%rbx,%r12
6:
	movzbl	(%rcx),%r8d
	cmpb	$0,720(%rsp,%r8)
	jne	7f
	incq	%rdx
	movb	%dl,720(%rsp,%r8)
	addq	$32,%rcx
	cmpq	%rdx,%r15
	jne	6b
	movq	1352(%rsp),%rcx
	leaq	(%rcx,%r13),%r8
	addq	$24,%r8
	movb	$1,%cl
	xorl	%edx,%edx
	movq	%r15,%r9
6:
	movq	-16(%r8),%r10
	cmpq	$255,%r10
	ja	8f
	movzbl	(%r8),%r11d
	testb	%r11b,%r11b
	je	8f
	leaq	-1(%r10),%rsi
	movl	%edi,%r13d
	xorl	%edi,%edi
	cmpq	$16,%rsi
	movzbl	%cl,%ecx
	cmovael	%edi,%ecx
	cmpb	$15,%r11b
	cmovael	%edi,%ecx
	movl	%r13d,%edi
	addq	%r10,%rdx
	addq	$2,%rdx
	addq	$32,%r8
	decq	%r9
	jne	6b
	jmp	6f
3:
	movl	$4,%eax
	cmpq	$4,%rcx
	jb	2f
	addq	$-4,%rcx
	movzwl	2(%rbx,%r11),%eax
	rolw	$8,%ax
	movzwl	%ax,%edx
	shll	$2,%edx
	movl	$6,%eax
	cmpq	%rdx,%rcx
	jb	2f
	movq	%rsi,80(%rsp)
	movq	%r9,%rsi
	movzwl	(%rbx,%r11),%eax
	movl	%eax,%ecx
	andl	$61695,%ecx
	xorl	%r9d,%r9d
	cmpw	$16,%cx
	sete	%r9b
	cmpl	$57022,%eax
	movl	$1,%eax
	movl	%r9d,76(%rsp)
	cmovnel	%r9d,%eax
	movl	%eax,92(%rsp)
	addq	%rdx,%r11
	addq	$4,%r11
	movq	%r11,104(%rsp)
	jmp	4b
5:
	movb	$1,%cl
	xorl	%edx,%edx
	movq	120(%rsp),%rax
	movq	%rbx,%r12
6:
	leaq	160(%rsp),%r8
	movq	%r8,272(%rsp)
	leaq	720(%rsp),%r8
	movq	%r8,280(%rsp)
	movq	%rdx,288(%rsp)
	movb	%cl,296(%rsp)
	movl	$0,297(%rsp)
	movl	$0,300(%rsp)
	movdqu	%xmm0,448(%rsp)
	movq	$0,424(%rsp)
	movdqa	%xmm0,240(%rsp)
	movq	$0,256(%rsp)
	movq	$1,648(%rsp)
	movdqa	%xmm0,608(%rsp)
	movdqa	%xmm0,592(%rsp)
	movdqa	%xmm0,576(%rsp)
	movdqa	%xmm0,560(%rsp)
	movdqa	%xmm0,544(%rsp)
	movdqa	%xmm0,528(%rsp)
	movdqa	%xmm0,512(%rsp)
	movdqa	%xmm0,496(%rsp)
	cmpb	$0,92(%rsp)
	je	3f
	movzbl	152(%rsp),%edx
	addq	$16,%rdx
	movq	104(%rsp),%r11
	movq	%r11,%rcx
	movq	%rdx,136(%rsp)
	subq	%rdx,%rcx
	cmpq	$256,%rcx
	ja	4f
	leaq	280(%rsp),%rdx
	movdqu	(%rdx),%xmm0
	movdqu	%xmm0,472(%rsp)
	movq	16(%rdx),%rdx
	movq	%rdx,488(%rsp)
	movq	1384(%rsp),%r8
	cmpq	$262140,%r8
	movl	$262140,%esi
	cmovbq	%r8,%rsi
	leaq	3(,%r11,2),%r9
	xorl	%r8d,%r8d
	movq	%rsi,%r10
	subq	%r9,%r10
	cmovaeq	%r10,%r8
	jb	5f
	cmpq	480(%rsp),%r8
	movl	76(%rsp),%r9d
	jb	6f
	movdqu	472(%rsp),%xmm0
	movl	%r9d,%r13d
	testq	%r15,%r15
	je	9f
	movzbl	%r9b,%r8d
	testb	$1,%dl
	movl	$1,%r13d
	cmovnel	%r8d,%r13d
	movzbl	1368(%rsp),%r8d
	testb	%r8b,%r8b
	je	9f
	cmpb	$2,%r8b
	je	10f
	testb	%r13b,%r13b
	movl	%edi,%r13d
	je	9f
	jmp	6f
10:
	movl	%edi,%r13d
9:
	movq	136(%rsp),%r8
	leaq	(%r12,%r8),%rax
	leaq	160(%rsp),%r10
	movq	%r10,688(%rsp)
	movdqu	%xmm0,696(%rsp)
	movq	%rdx,712(%rsp)
	leaq	496(%rsp),%rdx
	movq	%rdx,64(%rsp)
	leaq	688(%rsp),%rdx
	movq	%rdx,56(%rsp)
	movq	%rcx,48(%rsp)
	movq	%rax,40(%rsp)
	movb	%r13b,32(%rsp)
	movq	%rbp,80(%rsp)
	movq	%rbp,%rcx
	movq	%rsi,%rdx
	callq	rtp_route.walk.write_kept.687967002a58489c
	cmpb	$1,%al
	jne	9f
	movq	192(%rsp),%r15
	testq	%r15,%r15
	je	10f
	movq	168(%rsp),%r11
	movq	184(%rsp),%rbp
	leaq	16(%r11),%rax
	movq	%rax,344(%rsp)
	movq	1376(%rsp),%rax
	leaq	16(%r14,%rax),%rcx
	movq	%rcx,336(%rsp)
	leaq	3(%r11),%rcx
	movq	%rcx,360(%rsp)
	addq	%r14,%rax
	addq	$3,%rax
	movq	%rax,352(%rsp)
	xorl	%r14d,%r14d
	movl	%r13d,116(%rsp)
	movq	%rsi,128(%rsp)
	movq	%r15,144(%rsp)
	movq	%r11,96(%rsp)
	jmp	11f
12:
	movzbl	(%rax),%eax
	movq	80(%rsp),%rcx
	movb	%al,(%rcx,%rdi)
13:
	leaq	(%rdi,%r12),%rdx
	movl	%edi,496(%rsp,%r14,8)
	movl	%r12d,500(%rsp,%r14,8)
14:
	incq	%r14
	cmpq	%r15,%r14
	je	10f
11:
	cmpl	$0,496(%rsp,%r14,8)
	jne	14b
	movq	%r14,%rax
	shlq	$5,%rax
	movq	8(%rbp,%rax),%r12
	leaq	(%rdx,%r12),%rcx
	addq	$2,%rcx
	cmpq	%rcx,%rsi
	jb	9f
	movq	(%rbp,%rax),%r8
	movzbl	24(%rbp,%rax),%eax
	testb	%r13b,%r13b
	je	11f
	movq	80(%rsp),%rcx
	movb	%al,(%rcx,%rdx)
	movb	%r12b,1(%rcx,%rdx)
	movl	$2,%r9d
	jmp	14f
11:
	rolb	$4,%al
	addb	%r12b,%al
	decb	%al
	movq	80(%rsp),%rcx
	movb	%al,(%rcx,%rdx)
	movl	$1,%r9d
14:
	leaq	(%r11,%r8),%rax
	leaq	(%r9,%rdx),%rdi
	testq	%r12,%r12
	je	11f
	cmpq	$1,%r12
	je	12b
	cmpq	$2,%r12
	ja	12f
	movzbl	(%rax),%ecx
	movq	80(%rsp),%rdx
	movb	%cl,(%rdx,%rdi)
	movzbl	1(%rax),%eax
	movb	%al,1(%rdx,%rdi)
	jmp	13b
12:
	cmpq	$3,%r12
	jne	11f
	movzbl	(%rax),%ecx
	movq	80(%rsp),%rdx
	movb	%cl,(%rdx,%rdi)
	movzbl	1(%rax),%ecx
	movb	%cl,1(%rdx,%rdi)
	movzbl	2(%rax),%eax
	movb	%al,2(%rdx,%rdi)
	jmp	13b
11:
	movq	80(%rsp),%rcx
	addq	%rdi,%rcx
	movq	%rcx,%r10
	subq	%rax,%r10
	cmpq	%r12,%r10
	jae	11f
	cmpq	$4,%r12
	jb	12f
	movq	80(%rsp),%rcx
	addq	%rdx,%rcx
	addq	%r9,%rcx
	subq	%rax,%rcx
	cmpq	$32,%rcx
	jae	14f
12:
	xorl	%ecx,%ecx
12:
	movq	%r12,%r11
	movq	%rcx,%r10
	andq	$3,%r11
	je	15f
	leaq	(%rcx,%rdx),%rsi
	movq	80(%rsp),%r10
	addq	%r9,%r10
	addq	%r10,%rsi
	xorl	%r13d,%r13d
	movq	%rcx,%r10
16:
	movzbl	(%rax,%r10),%r15d
	movb	%r15b,(%rsi,%r13)
	incq	%r10
	incq	%r13
	cmpq	%r13,%r11
	jne	16b
15:
	subq	%r12,%rcx
	cmpq	$-4,%rcx
	movl	116(%rsp),%r13d
	movq	128(%rsp),%rsi
	movq	144(%rsp),%r15
	movq	96(%rsp),%r11
	ja	13b
	movq	%r12,%rax
	subq	%r10,%rax
	addq	%r10,%r8
	addq	360(%rsp),%r8
	addq	%r10,%rdx
	addq	352(%rsp),%r9
	addq	%rdx,%r9
	xorl	%ecx,%ecx
15:
	movzbl	-3(%r8,%rcx),%edx
	movb	%dl,-3(%r9,%rcx)
	movzbl	-2(%r8,%rcx),%edx
	movb	%dl,-2(%r9,%rcx)
	movzbl	-1(%r8,%rcx),%edx
	movb	%dl,-1(%r9,%rcx)
	movzbl	(%r8,%rcx),%edx
	movb	%dl,(%r9,%rcx)
	addq	$4,%rcx
	cmpq	%rcx,%rax
	jne	15b
	jmp	13b
11:
	movq	%rax,%rdx
	movq	%r12,%r8
	callq	memmove
	movq	96(%rsp),%r11
	jmp	13b
14:
	cmpq	$32,%r12
	jae	11f
	xorl	%ecx,%ecx
	jmp	14f
11:
	movq	%r12,%rcx
	andq	$-32,%rcx
	movq	344(%rsp),%r10
	addq	%r8,%r10
	movq	336(%rsp),%r11
	addq	%rdi,%r11
	xorl	%esi,%esi
11:
	movdqu	-16(%r10,%rsi),%xmm0
	movdqu	(%r10,%rsi),%xmm1
	movdqu	%xmm0,-16(%r11,%rsi)
	movdqu	%xmm1,(%r11,%rsi)
	addq	$32,%rsi
	cmpq	%rsi,%rcx
	jne	11b
	cmpq	%rcx,%r12
	movq	128(%rsp),%rsi
	movq	96(%rsp),%r11
	je	13b
	testb	$28,%r12b
	je	12b
14:
	movq	%rcx,%r10
	movq	%r12,%rcx
	andq	$-4,%rcx
	movq	%r11,%r15
	movq	%rcx,%r11
	subq	%r10,%r11
	leaq	(%r10,%r8),%rsi
	addq	%r15,%rsi
	addq	%rdx,%r10
	addq	%r9,%r10
	addq	80(%rsp),%r10
	xorl	%r13d,%r13d
11:
	movl	(%rsi,%r13),%r15d
	movl	%r15d,(%r10,%r13)
	addq	$4,%r13
	cmpq	%r13,%r11
	jne	11b
	cmpq	%rcx,%r12
	movl	116(%rsp),%r13d
	movq	128(%rsp),%rsi
	movq	144(%rsp),%r15
	movq	96(%rsp),%r11
	je	13b
	jmp	12b
10:
	leaq	3(%rdx),%r12
	andq	$-4,%r12
	cmpq	%r12,%rsi
	jb	9f
	movq	%r12,%rax
	subq	%rdx,%rax
	movq	1392(%rsp),%r14
	movq	80(%rsp),%rsi
	je	10f
	cmpq	$2,%rax
	je	11f
	cmpq	$1,%rax
	jne	12f
	movb	$0,(%rsi,%rdx)
	jmp	10f
12:
	movb	$0,2(%rsi,%rdx)
11:
	movw	$0,(%rsi,%rdx)
10:
	movq	152(%rsp),%rax
	cmpb	$33,%al
	jb	10f
	movq	%rsi,%rcx
	movq	%rbx,%rdx
	movq	136(%rsp),%rdi
	movq	%rdi,%r8
	callq	rtp_route.copying.put_any
	jmp	11f
10:
	movups	(%rbx),%xmm0
	movups	%xmm0,(%rsi)
	cmpb	$17,%al
	movq	136(%rsp),%rdi
	jb	10f
	movups	16(%rbx),%xmm0
	movups	%xmm0,16(%rsi)
10:
	movdqu	(%rbx,%rax),%xmm0
	movdqu	%xmm0,(%rsi,%rax)
11:
	movq	1360(%rsp),%r15
	movl	76(%rsp),%ecx
	movq	%r12,%rax
	subq	%rdi,%rax
	cmpb	%cl,%r13b
	je	10f
	testb	%r13b,%r13b
	movl	$57022,%ecx
	movl	$16,%edx
	cmovel	%ecx,%edx
	movw	%dx,-4(%rsi,%rdi)
10:
	movl	%eax,%ecx
	shrl	$10,%ecx
	andl	$-4,%eax
	shll	$6,%eax
	movzbl	%cl,%ecx
	orl	%eax,%ecx
	movw	%cx,-2(%rsi,%rdi)
	movb	$1,%cl
10:
	xorl	%eax,%eax
	xorl	%edx,%edx
	jmp	11f
9:
	movzbl	200(%rsp),%eax
	movl	%eax,96(%rsp)
	movzbl	201(%rsp),%edi
	movq	120(%rsp),%rax
	movq	1360(%rsp),%r15
	movq	%rbx,%r12
	movq	80(%rsp),%rbp
	movl	76(%rsp),%r9d
	movq	104(%rsp),%r11
	jmp	6f
3:
	movq	1392(%rsp),%r14
	movl	76(%rsp),%r9d
	movq	104(%rsp),%r11
	jmp	3f
4:
	movq	1392(%rsp),%r14
	movl	76(%rsp),%r9d
	jmp	3f
7:
	movl	$1,%r12d
	xorl	%eax,%eax
	xorl	%r13d,%r13d
	xorl	%ecx,%ecx
	jmp	4f
8:
	movq	%r12,368(%rsp)
	movq	%rax,376(%rsp)
	movq	104(%rsp),%rax
	movq	%rax,384(%rsp)
	movl	92(%rsp),%eax
	movb	%al,392(%rsp)
	movl	76(%rsp),%eax
	movb	%al,393(%rsp)
	leaq	496(%rsp),%rax
	movq	%rax,40(%rsp)
	movq	1384(%rsp),%rax
	movq	%rax,32(%rsp)
	leaq	304(%rsp),%rcx
	leaq	368(%rsp),%rdx
	leaq	160(%rsp),%r8
	movq	%rbp,%r9
	callq	rtp_route.making.make_by_calls.d57726891005992a
	movq	312(%rsp),%r12
	movzbl	320(%rsp),%ecx
	movzbl	321(%rsp),%r13d
	movq	328(%rsp),%rax
	movzbl	304(%rsp),%edx
	movq	1392(%rsp),%r14
	jmp	11f
5:
	movl	76(%rsp),%r9d
6:
	cmpb	$1,96(%rsp)
	jne	5f
	testb	%dil,%dil
	jne	5f
	movq	1392(%rsp),%r14
3:
	movq	%r12,400(%rsp)
	movq	%rax,408(%rsp)
	movq	%r11,416(%rsp)
	movl	92(%rsp),%eax
	movb	%al,424(%rsp)
	movb	%r9b,425(%rsp)
	leaq	496(%rsp),%rax
	movq	%rax,40(%rsp)
	movq	1384(%rsp),%rax
	movq	%rax,32(%rsp)
	leaq	432(%rsp),%rcx
	leaq	400(%rsp),%rdx
	leaq	272(%rsp),%r8
	movq	%rbp,%r9
	callq	rtp_route.making.make_by_calls_of.687967002a58489c
	movzbl	432(%rsp),%edx
	movq	440(%rsp),%r12
	movzbl	448(%rsp),%ecx
	movzbl	449(%rsp),%r13d
	movq	456(%rsp),%rax
11:
	testb	%dl,%dl
	jne	4f
	xorl	%eax,%eax
	pxor	%xmm0,%xmm0
	movdqu	%xmm0,52(%r14)
	movdqu	%xmm0,36(%r14)
	movdqu	%xmm0,20(%r14)
	movdqu	%xmm0,4(%r14)
	movdqu	%xmm0,71(%r14)
	testq	%r15,%r15
	je	6f
	leaq	4(%r14),%rdx
	leaq	71(%r14),%rcx
	cmpq	$12,%r15
	jb	7f
	leaq	(%r14,%r15,4),%r8
	addq	$4,%r8
	leaq	(%r14,%r15),%r9
	addq	$71,%r9
	cmpq	%r9,%rdx
	setb	%r9b
	cmpq	%r8,%rcx
	setb	%r8b
	testb	%r8b,%r9b
	je	8f
7:
	xorl	%r9d,%r9d
	xorl	%r8d,%r8d
7:
	movq	%r8,%r11
	orq	$1,%r11
	testb	$1,%r15b
	jne	9f
	jmp	11f
6:
	xorl	%r10d,%r10d
	jmp	6f
9:
	movq	496(%rsp,%r8,8),%r10
	movl	%r10d,%esi
	shrq	$32,%r10
	movl	%esi,(%rdx,%r8,4)
	movb	%r10b,(%rcx,%r8)
	addl	%r10d,%r9d
	movl	%r9d,%r10d
	movq	%r11,%r8
11:
	cmpq	%r11,%r15
	je	6f
	movq	%r15,%rcx
	subq	%r8,%rcx
	leaq	(%r8,%r14),%rdx
	addq	$72,%rdx
	leaq	(%r14,%r8,4),%r11
	addq	$8,%r11
	leaq	(%rsp,%r8,8),%r8
	addq	$504,%r8
	xorl	%esi,%esi
9:
	movq	-8(%r8,%rsi,8),%r10
	movl	%r10d,%edi
	shrq	$32,%r10
	movl	%edi,-4(%r11,%rsi,4)
	movb	%r10b,-1(%rdx,%rsi)
	addl	%r10d,%r9d
	movq	(%r8,%rsi,8),%r10
	movl	%r10d,%edi
	shrq	$32,%r10
	movl	%edi,(%r11,%rsi,4)
	movb	%r10b,(%rdx,%rsi)
	addl	%r9d,%r10d
	addq	$2,%rsi
	movl	%r10d,%r9d
	cmpq	%rsi,%rcx
	jne	9b
	jmp	6f
8:
	movl	%r15d,%r8d
	andl	$28,%r8d
	xorl	%r9d,%r9d
	pxor	%xmm1,%xmm1
8:
	movdqu	496(%rsp,%r9,8),%xmm3
	movdqu	512(%rsp,%r9,8),%xmm2
	pshufd	$232,%xmm3,%xmm4
	pshufd	$232,%xmm2,%xmm5
	punpcklqdq	%xmm5,%xmm4
	psrlq	$32,%xmm3
	psrlq	$32,%xmm2
	movdqu	%xmm4,4(%r14,%r9,4)
	movdqa	1b(%rip),%xmm4
	pshufd	$232,%xmm3,%xmm5
	pand	%xmm4,%xmm3
	packuswb	%xmm3,%xmm3
	packuswb	%xmm3,%xmm3
	packuswb	%xmm3,%xmm3
	pand	%xmm2,%xmm4
	packuswb	%xmm4,%xmm4
	packuswb	%xmm4,%xmm4
	packuswb	%xmm4,%xmm4
	movd	%xmm3,%r10d
	movw	%r10w,71(%r14,%r9)
	movd	%xmm4,%r10d
	movw	%r10w,73(%r14,%r9)
	pshuflw	$232,%xmm5,%xmm3
	paddw	%xmm3,%xmm1
	pshufd	$232,%xmm2,%xmm2
	pshuflw	$232,%xmm2,%xmm2
	paddw	%xmm2,%xmm0
	addq	$4,%r9
	cmpq	%r9,%r8
	jne	8b
	paddw	%xmm1,%xmm0
	movdqa	%xmm0,%xmm1
	psrld	$16,%xmm1
	paddw	%xmm0,%xmm1
	movd	%xmm1,%r9d
	movl	%r9d,%r10d
	cmpq	%r8,%r15
	jne	7b
6:
	movl	%r12d,(%r14)
	movw	%r10w,68(%r14)
	movb	%r15b,70(%r14)
2:
	addq	$1240,%rsp
	popq	%rbx
	popq	%rbp
	popq	%rdi
	popq	%rsi
	popq	%r12
	popq	%r13
	popq	%r14
	popq	%r15
	retq
4:
	movzbl	%r12b,%edx
	movq	%rdx,208(%rsp)
	movb	%cl,216(%rsp)
	movb	%r13b,217(%rsp)
	movq	%rax,224(%rsp)
	leaq	208(%rsp),%rcx
	callq	rtp_c.template.not_routed_status
	jmp	2b
5:
	leaq	472(%rsp),%rcx
	movq	%r12,624(%rsp)
	movq	%rax,632(%rsp)
	movq	%r11,640(%rsp)
	movb	%r9b,649(%rsp)
	pxor	%xmm0,%xmm0
	movdqa	%xmm0,656(%rsp)
	movq	$0,672(%rsp)
	leaq	160(%rsp),%rax
	movq	%rax,464(%rsp)
	leaq	280(%rsp),%rdx
	movq	16(%rdx),%rax
	movq	%rax,16(%rcx)
	movdqu	(%rdx),%xmm0
	movdqu	%xmm0,(%rcx)
	leaq	496(%rsp),%rax
	movq	%rax,48(%rsp)
	movq	1384(%rsp),%rax
	movq	%rax,40(%rsp)
	movq	%rbp,32(%rsp)
	leaq	240(%rsp),%rcx
	leaq	624(%rsp),%rdx
	leaq	656(%rsp),%r8
	leaq	464(%rsp),%r9
	callq	rtp_route.by_walk.write_in_two_byte_form.687967002a58489c
	movq	104(%rsp),%r11
	movl	76(%rsp),%r9d
	movq	120(%rsp),%rax
	cmpb	$1,240(%rsp)
	movq	1392(%rsp),%r14
	jne	3b
	movq	248(%rsp),%r12
	movzbl	256(%rsp),%ecx
	movzbl	257(%rsp),%r13d
	jmp	10b
	.seh_endproc

	.def	rtpw_receiver_receive;
	.scl	2;
	.type	32;
	.endef
	.section	.text$rtpw_receiver_receive,"xr"
	.globl	rtpw_receiver_receive
	.p2align	4
rtpw_receiver_receive:
	movq	(%rcx),%rax
	cmpq	$-1,%rax
	je	rtp_c.receiver.receive_any
	cmpb	$1,24(%rcx)
	jne	rtp_c.receiver.receive_any
	incq	%rax
	cmpw	%ax,%dx
	jne	rtp_c.receiver.receive_any
	movq	8(%rcx),%rdx
	leaq	(%rdx,%rdx),%r9
	orq	$3,%r9
	movq	%rax,(%rcx)
	movq	%r9,8(%rcx)
	shldq	$1,%rdx,16(%rcx)
	movq	%rax,(%r8)
	xorl	%eax,%eax
	retq

	.def	rtpw_receive_many;
	.scl	2;
	.type	32;
	.endef
	.section	.text$rtpw_receive_many,"xr"
	.globl	rtpw_receive_many
	.p2align	4
rtpw_receive_many:
.seh_proc rtpw_receive_many
	pushq	%r14
	.seh_pushreg %r14
	pushq	%rsi
	.seh_pushreg %rsi
	pushq	%rdi
	.seh_pushreg %rdi
	pushq	%rbx
	.seh_pushreg %rbx
	subq	$40,%rsp
	.seh_stackalloc 40
	.seh_endprologue
	movq	%r9,%rsi
	movq	%rdx,%rdi
	movq	%rcx,%rbx
	xorl	%ecx,%ecx
	testq	%rbx,%rbx
	sete	%r9b
	xorl	%eax,%eax
	testq	%r8,%r8
	sete	%dl
	testq	%rsi,%rsi
	je	1f
	movb	%r9b,%cl
	shll	$12,%ecx
	addq	%rcx,%rbx
	movb	%dl,%al
	shll	$12,%eax
	leaq	(%rax,%r8),%r14
	addq	$20,%r14
	jmp	2f
	.p2align	4
3:
	movl	$9,(%r14)
	addq	$24,%r14
	decq	%rsi
	je	1f
2:
	movq	-20(%r14),%r9
	cmpq	%r9,%rdi
	jbe	3b
	shlq	$5,%r9
	leaq	(%rbx,%r9),%rcx
	movzwl	-4(%r14),%edx
	leaq	-12(%r14),%r8
	movq	(%rbx,%r9),%rax
	cmpq	$-1,%rax
	je	3f
	cmpb	$1,24(%rbx,%r9)
	jne	3f
	incq	%rax
	cmpw	%ax,%dx
	jne	3f
	movq	8(%rcx),%rdx
	leaq	(%rdx,%rdx),%r9
	orq	$3,%r9
	movq	%rax,(%rcx)
	movq	%r9,8(%rcx)
	shldq	$1,%rdx,16(%rcx)
	movq	%rax,(%r8)
	xorl	%eax,%eax
	jmp	4f
	.p2align	4
3:
	callq	rtp_c.receiver.receive_any
4:
	movl	%eax,(%r14)
	addq	$24,%r14
	decq	%rsi
	jne	2b
1:
	addq	$40,%rsp
	popq	%rbx
	popq	%rdi
	popq	%rsi
	popq	%r14
	retq
	.seh_endproc

	.def	rtpw_wide_receiver_receive;
	.scl	2;
	.type	32;
	.endef
	.section	.text$rtpw_wide_receiver_receive,"xr"
	.globl	rtpw_wide_receiver_receive
	.p2align	4
rtpw_wide_receiver_receive:
.seh_proc rtpw_wide_receiver_receive
	pushq	%rsi
	.seh_pushreg %rsi
	.seh_endprologue
	xorl	%r10d,%r10d
	testq	%rdx,%rdx
	sete	%r11b
	leaq	-1(%r8),%rsi
	movl	$9,%eax
	cmpq	$511,%rsi
	ja	1f
	movb	%r11b,%r10b
	shll	$12,%r10d
	addq	%r10,%rdx
	cmpb	$0,8(%rcx)
	movq	%rcx,%r10
	movq	(%rcx),%rcx
	je	2f
	subl	%ecx,%r9d
	movl	%r9d,%eax
	movzwl	%r9w,%r11d
	leaq	(%r11,%rcx),%r9
	testw	%r11w,%r11w
	jns	3f
	xorl	%r11d,%r11d
	negw	%ax
	seto	%r11b
	shll	$16,%r11d
	addq	$-65536,%r11
	testw	%cx,%cx
	movq	$-65536,%rax
	cmovnsq	%r11,%rax
	addq	%rax,%r9
3:
	movq	%r9,%rax
	xorq	%rcx,%rax
	cmpq	$63,%rax
	ja	3f
	cmpq	%rcx,%r9
	jbe	3f
	movq	%r9,%rax
	subq	%rcx,%rax
	cmpq	$1,%rax
	jne	3f
	movq	48(%rsp),%r11
	cmpq	$16,%r8
	jne	4f
	movl	$1,%eax
	shlq	%cl,%rax
	shrl	$3,%ecx
	andl	$120,%ecx
	orq	%rax,(%rdx,%rcx)
	movl	%r9d,%eax
	shrl	$6,%eax
	andl	$15,%eax
	jmp	5f
2:
	andq	$-65536,%rcx
	movzwl	%r9w,%r9d
	orq	%rcx,%r9
3:
	movq	%r10,%rcx
	popq	%rsi
	jmp	rtp_c.wide_receiver.receive_other
4:
	movq	%rdx,%rsi
	movq	%rcx,%rax
	shrq	$6,%rax
	movq	%rax,%rdx
	orq	%r8,%rdx
	shrq	$32,%rdx
	je	2f
	xorl	%edx,%edx
	divq	%r8
	jmp	3f
2:
	xorl	%edx,%edx
	divl	%r8d
3:
	movl	$1,%eax
	shlq	%cl,%rax
	orq	%rax,(%rsi,%rdx,8)
	movq	%r9,%rax
	shrq	$6,%rax
	movq	%rax,%rcx
	orq	%r8,%rcx
	shrq	$32,%rcx
	je	2f
	xorl	%edx,%edx
	divq	%r8
	movq	%rdx,%rax
	jmp	3f
2:
	xorl	%edx,%edx
	divl	%r8d
	movl	%edx,%eax
3:
	movq	%rsi,%rdx
5:
	movl	$1,%r8d
	movl	%r9d,%ecx
	shlq	%cl,%r8
	orq	%r8,(%rdx,%rax,8)
	movq	%r9,(%r10)
	movb	$1,8(%r10)
	movq	%r9,(%r11)
	xorl	%eax,%eax
1:
	popq	%rsi
	retq
	.seh_endproc

	.def	rtpw_wide_receiver_record;
	.scl	2;
	.type	32;
	.endef
	.section	.text$rtpw_wide_receiver_record,"xr"
	.globl	rtpw_wide_receiver_record
	.p2align	4
rtpw_wide_receiver_record:
.seh_proc rtpw_wide_receiver_record
	pushq	%r14
	.seh_pushreg %r14
	pushq	%rsi
	.seh_pushreg %rsi
	pushq	%rdi
	.seh_pushreg %rdi
	pushq	%rbx
	.seh_pushreg %rbx
	subq	$40,%rsp
	.seh_stackalloc 40
	.seh_endprologue
	xorl	%r10d,%r10d
	testq	%rdx,%rdx
	sete	%r11b
	leaq	-1(%r8),%rsi
	movl	$9,%eax
	cmpq	$511,%rsi
	ja	1f
	movb	%r11b,%r10b
	shll	$12,%r10d
	addq	%r10,%rdx
	cmpb	$0,8(%rcx)
	je	2f
	movq	(%rcx),%r10
	movl	$10,%eax
	movq	%r10,%r11
	subq	%r9,%r11
	je	1f
	jae	3f
4:
	movq	%r10,%rax
	shrq	$6,%rax
	cmpq	$16,%r8
	jne	5f
	movq	%rcx,%rdi
	andl	$15,%eax
	jmp	6f
2:
	movq	%rcx,%rdi
	movq	%rdx,%rcx
	movq	%r8,%rdx
	movq	%r9,%r8
	movq	%r9,%rsi
	callq	rtp_base.ring.ring_start
	movq	%rsi,%r9
2:
	movq	%r9,(%rdi)
	movb	$1,8(%rdi)
	xorl	%eax,%eax
1:
	addq	$40,%rsp
	popq	%rbx
	popq	%rdi
	popq	%rsi
	popq	%r14
	retq
3:
	shrq	$6,%r11
	cmpq	%r8,%r11
	jae	1b
	movq	%r9,%r11
	shrq	$6,%r11
	cmpq	$16,%r8
	jne	3f
	andl	$15,%r11d
	jmp	7f
5:
	movq	%rdx,%r11
	movq	%rax,%rdx
	orq	%r8,%rdx
	movq	%rcx,%rdi
	shrq	$32,%rdx
	je	5f
	xorl	%edx,%edx
	divq	%r8
	movq	%rdx,%rax
	jmp	8f
3:
	movq	%rdx,%rsi
	movq	%r11,%rax
	orq	%r8,%rax
	shrq	$32,%rax
	je	3f
	movq	%r11,%rax
	xorl	%edx,%edx
	divq	%r8
	movq	%rdx,%r11
	jmp	9f
5:
	xorl	%edx,%edx
	divl	%r8d
	movl	%edx,%eax
8:
	movq	%r11,%rdx
6:
	movl	$1,%r11d
	movl	%r10d,%ecx
	shlq	%cl,%r11
	orq	%r11,(%rdx,%rax,8)
	movq	%r10,%rax
	subq	%r9,%rax
	jae	5f
	movq	%r9,%rax
	subq	%r10,%rax
	cmpq	$2,%rax
	jb	6f
	incq	%r10
	movq	%rdx,%rcx
	movq	%rdx,%rbx
	movq	%r8,%rdx
	movq	%r8,%r14
	movq	%r10,%r8
	movq	%r9,%rsi
	callq	rtp_base.ring.clear
	movq	%r14,%r8
	movq	%rsi,%r9
	movq	%rbx,%rdx
6:
	movq	%r9,%rax
	shrq	$6,%rax
	cmpq	$16,%r8
	jne	6f
	andl	$15,%eax
	jmp	8f
5:
	shrq	$6,%rax
	cmpq	%r8,%rax
	jae	5f
	movq	%r9,%rax
	shrq	$6,%rax
	movl	$1,%r11d
	movl	%r9d,%ecx
	shlq	%cl,%r11
	cmpq	$16,%r8
	jne	10f
	shll	$3,%eax
	andl	$120,%eax
	movq	(%rdx,%rax),%rcx
	testq	%r11,%rcx
	jne	5f
	jmp	11f
6:
	movq	%rdx,%rcx
	movq	%rax,%rdx
	orq	%r8,%rdx
	shrq	$32,%rdx
	je	6f
	xorl	%edx,%edx
	divq	%r8
	movq	%rdx,%rax
	jmp	12f
10:
	movq	%rdx,%rcx
	movq	%rax,%rdx
	orq	%r8,%rdx
	shrq	$32,%rdx
	je	10f
	xorl	%edx,%edx
	divq	%r8
	movq	%rdx,%rax
	jmp	13f
6:
	xorl	%edx,%edx
	divl	%r8d
	movl	%edx,%eax
12:
	movq	%rcx,%rdx
8:
	movl	$1,%r8d
	movl	%r9d,%ecx
	shlq	%cl,%r8
	orq	%r8,(%rdx,%rax,8)
	jmp	2b
3:
	movl	%r11d,%eax
	xorl	%edx,%edx
	divl	%r8d
	movl	%edx,%r11d
9:
	movq	%rsi,%rdx
	movl	$10,%eax
7:
	movq	(%rdx,%r11,8),%r11
	btq	%r9,%r11
	jb	1b
	jmp	4b
10:
	xorl	%edx,%edx
	divl	%r8d
	movl	%edx,%eax
13:
	movq	%rcx,%rdx
	movq	(%rcx,%rax,8),%rcx
	testq	%r11,%rcx
	jne	5f
	shlq	$3,%rax
11:
	orq	%r11,%rcx
	movq	%rcx,(%rdx,%rax)
5:
	movq	%r10,%r9
	jmp	2b
	.seh_endproc

	.def	rtpw_restarting_receive;
	.scl	2;
	.type	32;
	.endef
	.section	.text$rtpw_restarting_receive,"xr"
	.globl	rtpw_restarting_receive
	.p2align	4
rtpw_restarting_receive:
.seh_proc rtpw_restarting_receive
	pushq	%r15
	.seh_pushreg %r15
	pushq	%r14
	.seh_pushreg %r14
	pushq	%r12
	.seh_pushreg %r12
	pushq	%rsi
	.seh_pushreg %rsi
	pushq	%rdi
	.seh_pushreg %rdi
	pushq	%rbp
	.seh_pushreg %rbp
	pushq	%rbx
	.seh_pushreg %rbx
	subq	$128,%rsp
	.seh_stackalloc 128
	.seh_endprologue
	movq	%r8,%rsi
	movq	%rcx,%rdi
	movq	$0,72(%rsp)
	movzbl	30(%rcx),%r10d
	testb	%r10b,%r10b
	je	1f
	movq	(%rdi),%rbx
	movups	8(%rdi),%xmm0
	movl	$1,%r8d
	movl	%ebx,%ecx
	shlq	%cl,%r8
	movaps	%xmm0,80(%rsp)
	movl	$1,%eax
	movl	%ebx,%ecx
	shrl	$3,%ecx
	andl	$8,%ecx
	orq	%r8,80(%rsp,%rcx)
	jmp	2f
1:
	xorps	%xmm0,%xmm0
	movaps	%xmm0,80(%rsp)
	movl	$1,%ebx
	xorl	%eax,%eax
2:
	movzwl	24(%rdi),%ecx
	testw	%cx,%cx
	movl	$3000,%r9d
	cmovnel	%ecx,%r9d
	movzbl	29(%rdi),%ecx
	movzwl	26(%rdi),%r8d
	movzbl	28(%rdi),%r11d
	movq	%rax,32(%rsp)
	movq	%rbx,40(%rsp)
	leaq	48(%rsp),%r14
	movaps	80(%rsp),%xmm0
	movups	%xmm0,48(%rsp)
	movw	%r9w,64(%rsp)
	movl	$0,66(%rsp)
	movb	%r11b,70(%rsp)
	movb	$0,71(%rsp)
	movw	%r8w,74(%rsp)
	testb	%r10b,%r10b
	je	1f
	movl	%edx,%r10d
	subl	%ebx,%r10d
	movzwl	%r10w,%r11d
	leaq	(%r11,%rbx),%r15
	testw	%r11w,%r11w
	jns	2f
	xorl	%r11d,%r11d
	negw	%r10w
	seto	%r11b
	shll	$16,%r11d
	addq	$-65536,%r11
	testw	%bx,%bx
	movq	$-65536,%r10
	cmovnsq	%r11,%r10
	addq	%r10,%r15
2:
	movq	%r15,%r10
	subq	%rbx,%r10
	setb	%r11b
	movzwl	%r9w,%r9d
	cmpq	%r9,%r10
	setb	%bpl
	orb	%r11b,%bpl
	movq	%rbx,%r9
	subq	%r15,%r9
	setb	%r11b
	cmpq	$128,%r9
	setb	%r12b
	orb	%r11b,%r12b
	testb	%r12b,%bpl
	je	2f
	movb	$0,72(%rsp)
	cmpq	%r15,%rbx
	jae	3f
	movb	$1,%al
	cmpq	$2,%r10
	jb	4f
	incq	%rbx
	movl	$2,%edx
	movq	%r14,%rcx
	movq	%rbx,%r8
	movq	%r15,%r9
	callq	rtp_base.ring.clear
	movzbl	32(%rsp),%eax
4:
	movl	$1,%edx
	movl	%r15d,%ecx
	shlq	%cl,%rdx
	movl	%r15d,%ecx
	shrl	$3,%ecx
	andl	$8,%ecx
	orq	%rdx,48(%rsp,%rcx)
	movq	%r15,%rbx
	xorl	%ecx,%ecx
	testb	%al,%al
	jne	4f
	jmp	5f
1:
	cmpb	$1,%r11b
	adcb	$-1,%r11b
	movq	%rbx,%r9
	cmpw	%r8w,%dx
	jne	1f
6:
	movq	%r9,%r8
	shrq	$48,%r8
	sete	%r8b
	cmpb	%r11b,%cl
	setae	%r10b
	testb	%r8b,%r10b
	jne	7f
	incb	%cl
	movzbl	%cl,%r8d
	movl	$255,%ecx
	cmovnel	%r8d,%ecx
	jmp	8f
2:
	movq	%rbx,%r9
	shrq	$16,%r9
	addq	$2,%r9
	movb	$1,%r11b
	cmpw	%r8w,%dx
	je	6b
1:
	movq	%r9,%rcx
	shrq	$48,%rcx
	sete	%r8b
	testb	%r11b,%r11b
	sete	%r10b
	movb	$1,%cl
	testb	%r8b,%r10b
	je	8f
7:
	shlq	$16,%r9
	movzwl	%dx,%ebx
	orq	%r9,%rbx
	movb	$0,72(%rsp)
	xorps	%xmm0,%xmm0
	testq	%rax,%rax
	je	1f
	movaps	%xmm0,112(%rsp)
	leaq	112(%rsp),%rcx
	movl	$2,%edx
	movq	%rbx,%r8
	callq	rtp_base.ring.ring_start
	movaps	112(%rsp),%xmm0
	movups	%xmm0,(%r14)
	movb	$1,%cl
	movq	%rbx,%r15
	jmp	4f
8:
	movb	%cl,72(%rsp)
	incl	%edx
	movw	%dx,74(%rsp)
	movb	$2,%cl
	xorl	%r15d,%r15d
	testb	%al,%al
	jne	4f
	jmp	5f
1:
	movaps	%xmm0,96(%rsp)
	leaq	96(%rsp),%rcx
	movl	$2,%edx
	movq	%rbx,%r8
	callq	rtp_base.ring.ring_start
	movaps	96(%rsp),%xmm0
	movups	%xmm0,(%r14)
	movb	$1,%al
	movq	%rbx,%r15
	xorl	%ecx,%ecx
	testb	%al,%al
	jne	4f
5:
	xorl	%eax,%eax
	jmp	1f
3:
	cmpq	$127,%r9
	ja	2f
	movl	$1,%eax
	movl	%r15d,%ecx
	shlq	%cl,%rax
	movl	%r15d,%ecx
	shrl	$3,%ecx
	andl	$8,%ecx
	movq	48(%rsp,%rcx),%rdx
	btq	%r15,%rdx
	jae	3f
2:
	movb	$2,%cl
	xorl	%r15d,%r15d
4:
	movq	%rbx,(%rdi)
	movups	(%r14),%xmm0
	movups	%xmm0,8(%rdi)
	movb	$1,%al
1:
	movb	%al,30(%rdi)
	movzbl	72(%rsp),%eax
	movzwl	74(%rsp),%edx
	movb	%al,29(%rdi)
	movw	%dx,26(%rdi)
	cmpb	$2,%cl
	je	1f
	movzbl	%cl,%eax
	cmpl	$1,%eax
	jne	2f
	movq	%r15,(%rsi)
	movl	$12,%eax
	jmp	6f
1:
	movl	$10,%eax
	jmp	6f
2:
	movq	%r15,(%rsi)
	xorl	%eax,%eax
6:
	addq	$128,%rsp
	popq	%rbx
	popq	%rbp
	popq	%rdi
	popq	%rsi
	popq	%r12
	popq	%r14
	popq	%r15
	retq
3:
	orq	%rax,%rdx
	movq	%rdx,48(%rsp,%rcx)
	movb	$1,%al
	xorl	%ecx,%ecx
	testb	%al,%al
	jne	4b
	jmp	5b
	.seh_endproc

	.def	rtpw_wide_restarting_receive;
	.scl	2;
	.type	32;
	.endef
	.section	.text$rtpw_wide_restarting_receive,"xr"
	.globl	rtpw_wide_restarting_receive
	.p2align	4
rtpw_wide_restarting_receive:
.seh_proc rtpw_wide_restarting_receive
	pushq	%r15
	.seh_pushreg %r15
	pushq	%r14
	.seh_pushreg %r14
	pushq	%r13
	.seh_pushreg %r13
	pushq	%r12
	.seh_pushreg %r12
	pushq	%rsi
	.seh_pushreg %rsi
	pushq	%rdi
	.seh_pushreg %rdi
	pushq	%rbp
	.seh_pushreg %rbp
	pushq	%rbx
	.seh_pushreg %rbx
	subq	$40,%rsp
	.seh_stackalloc 40
	.seh_endprologue
	xorl	%r10d,%r10d
	testq	%rdx,%rdx
	sete	%r11b
	leaq	-1(%r8),%rsi
	movl	$9,%eax
	cmpq	$511,%rsi
	ja	1f
	movq	144(%rsp),%rdi
	movb	%r11b,%r10b
	shll	$12,%r10d
	addq	%r10,%rdx
	movzwl	8(%rcx),%eax
	testw	%ax,%ax
	movl	$3000,%r15d
	cmovnel	%eax,%r15d
	movq	%r8,%rax
	shlq	$6,%rax
	cmpq	$3001,%rax
	movl	$3000,%r14d
	cmovaeq	%rax,%r14
	movzwl	10(%rcx),%eax
	testq	%rax,%rax
	cmovneq	%rax,%r14
	movzbl	15(%rcx),%eax
	movzwl	12(%rcx),%ebx
	movzbl	16(%rcx),%ebp
	testb	%bpl,%bpl
	je	2f
	movq	(%rcx),%r10
	movl	%r9d,%r11d
	subl	%r10d,%r11d
	movzwl	%r11w,%r12d
	leaq	(%r12,%r10),%rsi
	testw	%r12w,%r12w
	jns	3f
	xorl	%r12d,%r12d
	negw	%r11w
	seto	%r12b
	shll	$16,%r12d
	addq	$-65536,%r12
	testw	%r10w,%r10w
	movq	$-65536,%r11
	cmovnsq	%r12,%r11
	addq	%r11,%rsi
3:
	movq	%rsi,%r11
	subq	%r10,%r11
	setb	%r12b
	movzwl	%r15w,%r15d
	cmpq	%r15,%r11
	setb	%r13b
	orb	%r12b,%r13b
	movq	%r10,%r15
	subq	%rsi,%r15
	setb	%r12b
	cmpq	%r15,%r14
	seta	%r14b
	cmpb	$1,%r13b
	jne	3f
	orb	%r14b,%r12b
	je	3f
	cmpq	%rsi,%r10
	jne	4f
5:
	xorl	%eax,%eax
	jmp	6f
2:
	movzbl	14(%rcx),%r11d
	cmpb	$1,%r11b
	adcb	$-1,%r11b
	movl	$1,%r10d
	cmpw	%bx,%r9w
	jne	2f
7:
	movq	%r10,%rsi
	shrq	$48,%rsi
	sete	%sil
	cmpb	%r11b,%al
	setae	%r11b
	testb	%sil,%r11b
	jne	8f
	incb	%al
	movzbl	%al,%edx
	movl	$255,%eax
	cmovnel	%edx,%eax
	jmp	9f
3:
	shrq	$16,%r10
	addq	$2,%r10
	movb	$1,%r11b
	cmpw	%bx,%r9w
	je	7b
2:
	movq	%r10,%rax
	shrq	$48,%rax
	sete	%sil
	testb	%r11b,%r11b
	sete	%r11b
	movb	$1,%al
	testb	%sil,%r11b
	je	9f
8:
	movq	%rcx,%r14
	shlq	$16,%r10
	movzwl	%r9w,%esi
	orq	%r10,%rsi
	movq	%rdx,%rcx
	movq	%r8,%rdx
	movq	%rsi,%r8
	callq	rtp_base.ring.ring_start
	testb	%bpl,%bpl
	je	2f
	movw	$256,15(%r14)
	movw	%bx,12(%r14)
	movq	%rsi,(%r14)
	movq	%rsi,(%rdi)
	movl	$12,%eax
	jmp	1f
9:
	incl	%r9d
	movl	%r9d,%ebx
6:
	movb	%al,15(%rcx)
	movw	%bx,12(%rcx)
	movl	$10,%eax
	jmp	1f
4:
	jae	3f
4:
	movq	%r10,%rax
	shrq	$6,%rax
	cmpq	$16,%r8
	jne	6f
	movq	%rcx,%r14
	andl	$15,%eax
	jmp	7f
3:
	movq	%r15,%rax
	shrq	$6,%rax
	cmpq	%r8,%rax
	jae	5b
	movq	%rsi,%rax
	shrq	$6,%rax
	cmpq	$16,%r8
	jne	3f
	andl	$15,%eax
	jmp	8f
6:
	movq	%rdx,%r9
	movq	%rax,%rdx
	orq	%r8,%rdx
	movq	%rcx,%r14
	shrq	$32,%rdx
	je	6f
	xorl	%edx,%edx
	divq	%r8
	movq	%rdx,%rax
	jmp	9f
3:
	movq	%rdx,%r9
	movq	%rax,%rdx
	orq	%r8,%rdx
	shrq	$32,%rdx
	je	3f
	xorl	%edx,%edx
	divq	%r8
	movq	%rdx,%rax
	jmp	10f
6:
	xorl	%edx,%edx
	divl	%r8d
	movl	%edx,%eax
9:
	movq	%r9,%rdx
7:
	movl	$1,%r9d
	movl	%r10d,%ecx
	shlq	%cl,%r9
	orq	%r9,(%rdx,%rax,8)
	cmpq	%rsi,%r10
	jae	6f
	cmpq	$2,%r11
	jb	7f
	incq	%r10
	movq	%rdx,%rcx
	movq	%rdx,%r15
	movq	%r8,%rdx
	movq	%r8,%r12
	movq	%r10,%r8
	movq	%rsi,%r9
	callq	rtp_base.ring.clear
	movq	%r12,%r8
	movq	%r15,%rdx
7:
	movq	%rsi,%rax
	shrq	$6,%rax
	cmpq	$16,%r8
	jne	7f
	andl	$15,%eax
	jmp	9f
6:
	shrq	$6,%r15
	cmpq	%r8,%r15
	jae	6f
	movq	%rsi,%rax
	shrq	$6,%rax
	movl	$1,%r9d
	movl	%esi,%ecx
	shlq	%cl,%r9
	cmpq	$16,%r8
	jne	11f
	shll	$3,%eax
	andl	$120,%eax
	movq	(%rdx,%rax),%rcx
	testq	%r9,%rcx
	jne	6f
	jmp	12f
7:
	movq	%rdx,%rcx
	movq	%rax,%rdx
	orq	%r8,%rdx
	shrq	$32,%rdx
	je	7f
	xorl	%edx,%edx
	divq	%r8
	movq	%rdx,%rax
	jmp	13f
11:
	movq	%rdx,%rcx
	movq	%rax,%rdx
	orq	%r8,%rdx
	shrq	$32,%rdx
	je	11f
	xorl	%edx,%edx
	divq	%r8
	movq	%rdx,%rax
	jmp	14f
7:
	xorl	%edx,%edx
	divl	%r8d
	movl	%edx,%eax
13:
	movq	%rcx,%rdx
9:
	movl	$1,%r8d
	movl	%esi,%ecx
	shlq	%cl,%r8
	orq	%r8,(%rdx,%rax,8)
2:
	movq	%rsi,%r10
6:
	movw	$256,15(%r14)
	movw	%bx,12(%r14)
	movq	%r10,(%r14)
	movq	%rsi,(%rdi)
	xorl	%eax,%eax
1:
	addq	$40,%rsp
	popq	%rbx
	popq	%rbp
	popq	%rdi
	popq	%rsi
	popq	%r12
	popq	%r13
	popq	%r14
	popq	%r15
	retq
3:
	xorl	%edx,%edx
	divl	%r8d
	movl	%edx,%eax
10:
	movq	%r9,%rdx
8:
	movq	(%rdx,%rax,8),%rax
	btq	%rsi,%rax
	jb	5b
	jmp	4b
11:
	xorl	%edx,%edx
	divl	%r8d
	movl	%edx,%eax
14:
	movq	%rcx,%rdx
	movq	(%rcx,%rax,8),%rcx
	testq	%r9,%rcx
	jne	6b
	shlq	$3,%rax
12:
	orq	%r9,%rcx
	movq	%rcx,(%rdx,%rax)
	jmp	6b
	.seh_endproc

	.def	rtpw_read_mixer_level;
	.scl	2;
	.type	32;
	.endef
	.section	.text$rtpw_read_mixer_level,"xr"
	.globl	rtpw_read_mixer_level
	.p2align	4
rtpw_read_mixer_level:
	cmpq	%r9,%r8
	setbe	%r8b
	cmpq	%rdx,%r9
	setae	%dl
	movl	$9,%eax
	orb	%r8b,%dl
	jne	1f
	movq	40(%rsp),%rax
	xorl	%edx,%edx
	testq	%rcx,%rcx
	sete	%dl
	shll	$12,%edx
	addq	%rcx,%rdx
	movzbl	(%r9,%rdx),%ecx
	andb	$127,%cl
	negb	%cl
	movb	%cl,(%rax)
	xorl	%eax,%eax
1:
	retq

	.def	rtpw_read_ntp_56;
	.scl	2;
	.type	32;
	.endef
	.section	.text$rtpw_read_ntp_56,"xr"
	.globl	rtpw_read_ntp_56
	.p2align	4
rtpw_read_ntp_56:
	movl	$9,%eax
	cmpq	$7,%rdx
	jne	1f
	xorl	%eax,%eax
	testq	%rcx,%rcx
	sete	%al
	shll	$12,%eax
	movzwl	(%rcx,%rax),%edx
	shll	$8,%edx
	movl	3(%rcx,%rax),%r9d
	shlq	$32,%r9
	movzbl	2(%rcx,%rax),%eax
	shll	$24,%eax
	orl	%edx,%eax
	orq	%r9,%rax
	bswapq	%rax
	movq	%rax,(%r8)
	xorl	%eax,%eax
1:
	retq

	.def	rtpw_read_ntp_64;
	.scl	2;
	.type	32;
	.endef
	.section	.text$rtpw_read_ntp_64,"xr"
	.globl	rtpw_read_ntp_64
	.p2align	4
rtpw_read_ntp_64:
	movl	$9,%eax
	cmpq	$8,%rdx
	jne	1f
	xorl	%eax,%eax
	testq	%rcx,%rcx
	sete	%al
	shll	$12,%eax
	movq	(%rcx,%rax),%rax
	bswapq	%rax
	movq	%rax,(%r8)
	xorl	%eax,%eax
1:
	retq

	.def	rtpw_read_send_time;
	.scl	2;
	.type	32;
	.endef
	.section	.text$rtpw_read_send_time,"xr"
	.globl	rtpw_read_send_time
	.p2align	4
rtpw_read_send_time:
	movl	$9,%eax
	cmpq	$3,%rdx
	jne	1f
	xorl	%eax,%eax
	testq	%rcx,%rcx
	sete	%al
	shll	$12,%eax
	movzbl	(%rcx,%rax),%edx
	movzwl	1(%rcx,%rax),%eax
	shll	$16,%eax
	shll	$8,%edx
	orl	%eax,%edx
	bswapl	%edx
	movl	%edx,(%r8)
	xorl	%eax,%eax
1:
	retq

	.def	rtpw_read_transmission_offset;
	.scl	2;
	.type	32;
	.endef
	.section	.text$rtpw_read_transmission_offset,"xr"
	.globl	rtpw_read_transmission_offset
	.p2align	4
rtpw_read_transmission_offset:
	movl	$9,%eax
	cmpq	$3,%rdx
	jne	1f
	xorl	%eax,%eax
	testq	%rcx,%rcx
	sete	%al
	shll	$12,%eax
	movzbl	(%rcx,%rax),%edx
	movzwl	1(%rcx,%rax),%eax
	shll	$16,%eax
	shll	$8,%edx
	orl	%eax,%edx
	bswapl	%edx
	leal	-16777216(%rdx),%eax
	cmpl	$8388608,%edx
	cmovbl	%edx,%eax
	movl	%eax,(%r8)
	xorl	%eax,%eax
1:
	retq

	.def	rtpw_write_timing;
	.scl	2;
	.type	32;
	.endef
	.section	.text$rtpw_write_timing,"xr"
	.globl	rtpw_write_timing
	.p2align	4
rtpw_write_timing:
.seh_proc rtpw_write_timing
	pushq	%rsi
	.seh_pushreg %rsi
	pushq	%rdi
	.seh_pushreg %rdi
	subq	$56,%rsp
	.seh_stackalloc 56
	.seh_endprologue
	movq	%r9,%rsi
	xorl	%r9d,%r9d
	testq	%rdx,%rdx
	sete	%r10b
	movq	$0,45(%rsp)
	movq	$0,40(%rsp)
	movzwl	8(%rcx),%r11d
	movzwl	10(%rcx),%eax
	rolw	$8,%r11w
	rolw	$8,%ax
	cmpb	$0,13(%rcx)
	movq	(%rcx),%xmm0
	movdqa	%xmm0,%xmm1
	psrlw	$8,%xmm1
	psllw	$8,%xmm0
	por	%xmm1,%xmm0
	je	1f
	movzbl	12(%rcx),%ecx
	movb	%cl,40(%rsp)
	movq	%xmm0,41(%rsp)
	movw	%r11w,49(%rsp)
	movw	%ax,51(%rsp)
	movl	$13,%edi
	movl	$8,%eax
	cmpq	%rdi,%r8
	jb	2f
3:
	movb	%r10b,%r9b
	shll	$12,%r9d
	addq	%r9,%rdx
	leaq	40(%rsp),%rax
	movq	%rdx,%rcx
	movq	%rax,%rdx
	movq	%rdi,%r8
	callq	memcpy
	movq	%rdi,(%rsi)
	xorl	%eax,%eax
2:
	addq	$56,%rsp
	popq	%rdi
	popq	%rsi
	retq
1:
	movq	%xmm0,40(%rsp)
	movw	%r11w,48(%rsp)
	movw	%ax,50(%rsp)
	movl	$12,%edi
	movl	$8,%eax
	cmpq	%rdi,%r8
	jae	3b
	jmp	2b
	.seh_endproc

	.def	rtpw_packet_parse;
	.scl	2;
	.type	32;
	.endef
	.section	.text$rtpw_packet_parse,"xr"
	.globl	rtpw_packet_parse
	.p2align	4
rtpw_packet_parse:
.seh_proc rtpw_packet_parse
	pushq	%rsi
	.seh_pushreg %rsi
	pushq	%rdi
	.seh_pushreg %rdi
	.seh_endprologue
	xorl	%eax,%eax
	testq	%rcx,%rcx
	sete	%r9b
	cmpq	$12,%rdx
	jb	1f
	movb	%r9b,%al
	shll	$12,%eax
	addq	%rax,%rcx
	movzbl	(%rcx),%r11d
	cmpb	$-65,%r11b
	jg	2f
	leal	(,%r11,4),%r9d
	andl	$60,%r9d
	leaq	12(%r9),%rax
	movq	%rdx,%r10
	subq	%rax,%r10
	jb	3f
	testb	$16,%r11b
	jne	4f
	movb	$0,55(%r8)
	movw	$0,56(%r8)
	movq	%rax,24(%r8)
	movq	$0,32(%r8)
	jmp	5f
4:
	cmpq	$4,%r10
	jb	4f
	movzwl	2(%rcx,%rax),%r11d
	rolw	$8,%r11w
	addq	$-4,%r10
	movzwl	%r11w,%r11d
	shll	$2,%r11d
	cmpq	%r11,%r10
	jb	6f
	movzwl	12(%rcx,%r9),%esi
	movl	%esi,%r10d
	andl	$61695,%r10d
	addq	%r11,%rax
	addq	$4,%rax
	movl	%esi,%r11d
	rolw	$8,%r11w
	addb	$16,%r9b
	movzbl	%r9b,%r9d
	movq	%rax,%rdi
	subq	%r9,%rdi
	movw	%r11w,56(%r8)
	movq	%r9,24(%r8)
	movq	%rdi,32(%r8)
	cmpl	$57022,%esi
	je	7f
	cmpw	$16,%r10w
	je	7f
	movb	$3,55(%r8)
	jmp	5f
7:
	cmpw	$16,%r10w
	sete	%r9b
	incb	%r9b
	movb	%r9b,55(%r8)
5:
	movq	%rax,(%r8)
	movq	%rdx,%r9
	subq	%rax,%r9
	testb	$32,(%rcx)
	movb	$1,%r10b
	jne	5f
	movq	%r9,%rax
	jmp	7f
5:
	cmpq	%rax,%rdx
	jne	5f
	xorl	%eax,%eax
	jmp	7f
5:
	movzbl	-1(%rcx,%rdx),%edx
	xorl	%r11d,%r11d
	movq	%r9,%rax
	subq	%rdx,%rax
	setae	%r10b
	cmovbq	%r11,%rax
	cmovbq	%r11,%rax
7:
	movq	%r9,8(%r8)
	movq	%rax,16(%r8)
	movb	%r10b,54(%r8)
	movl	4(%rcx),%eax
	bswapl	%eax
	movl	%eax,40(%r8)
	movl	8(%rcx),%eax
	bswapl	%eax
	movl	%eax,44(%r8)
	movzwl	2(%rcx),%eax
	rolw	$8,%ax
	movw	%ax,48(%r8)
	movzbl	1(%rcx),%eax
	andb	$127,%al
	movb	%al,50(%r8)
	movzbl	(%rcx),%eax
	andb	$15,%al
	movb	%al,51(%r8)
	movzbl	1(%rcx),%eax
	shrb	$7,%al
	movb	%al,52(%r8)
	movzbl	(%rcx),%eax
	shrb	$5,%al
	andb	$1,%al
	movb	%al,53(%r8)
	xorl	%eax,%eax
	popq	%rdi
	popq	%rsi
	retq
1:
	xorl	%ecx,%ecx
	popq	%rdi
	popq	%rsi
	jmp	rtp_c.status.refusal_status
2:
	movb	$1,%cl
	popq	%rdi
	popq	%rsi
	jmp	rtp_c.status.refusal_status
3:
	movb	$2,%cl
	popq	%rdi
	popq	%rsi
	jmp	rtp_c.status.refusal_status
4:
	movb	$3,%cl
	popq	%rdi
	popq	%rsi
	jmp	rtp_c.status.refusal_status
6:
	movb	$4,%cl
	popq	%rdi
	popq	%rsi
	jmp	rtp_c.status.refusal_status
	.seh_endproc

	.def	rtpw_packet_parse_many;
	.scl	2;
	.type	32;
	.endef
	.section	.text$rtpw_packet_parse_many,"xr"
	.globl	rtpw_packet_parse_many
	.p2align	4
rtpw_packet_parse_many:
.seh_proc rtpw_packet_parse_many
	pushq	%r15
	.seh_pushreg %r15
	pushq	%r14
	.seh_pushreg %r14
	pushq	%r12
	.seh_pushreg %r12
	pushq	%rsi
	.seh_pushreg %rsi
	pushq	%rdi
	.seh_pushreg %rdi
	pushq	%rbp
	.seh_pushreg %rbp
	pushq	%rbx
	.seh_pushreg %rbx
	subq	$32,%rsp
	.seh_stackalloc 32
	.seh_endprologue
	movq	%r9,%rsi
	movq	%rdx,%rdi
	movq	%rcx,%rbx
	xorl	%ecx,%ecx
	testq	%rbx,%rbx
	sete	%r9b
	xorl	%eax,%eax
	testq	%r8,%r8
	sete	%dl
	testq	%rsi,%rsi
	je	1f
	movb	%r9b,%cl
	shll	$12,%ecx
	addq	%rcx,%rbx
	movb	%dl,%al
	shll	$12,%eax
	leaq	(%rax,%r8),%r14
	addq	$84,%r14
	jmp	2f
	.p2align	4
3:
	movl	$9,-4(%r14)
	movb	$0,(%r14)
	addq	$88,%r14
	decq	%rsi
	je	1f
2:
	movq	-84(%r14),%r15
	movq	%rdi,%rax
	subq	%r15,%rax
	jb	3b
	movq	-76(%r14),%r12
	cmpq	%r12,%rax
	jb	3b
	addq	%rbx,%r15
	cmpq	$12,%r12
	jb	3f
	movzbl	(%r15),%r8d
	cmpb	$-65,%r8b
	jg	4f
	leal	(,%r8,4),%ecx
	andl	$60,%ecx
	leaq	12(%rcx),%rax
	movq	%r12,%rdx
	subq	%rax,%rdx
	jb	5f
	testb	$16,%r8b
	jne	6f
	movb	$0,-13(%r14)
	movw	$0,-12(%r14)
	movq	%rax,-44(%r14)
	movq	$0,-36(%r14)
	jmp	7f
6:
	cmpq	$4,%rdx
	jb	6f
	movzwl	2(%r15,%rax),%r8d
	rolw	$8,%r8w
	addq	$-4,%rdx
	movzwl	%r8w,%r8d
	shll	$2,%r8d
	cmpq	%r8,%rdx
	jb	8f
	movzwl	12(%r15,%rcx),%r9d
	movl	%r9d,%edx
	andl	$61695,%edx
	addq	%r8,%rax
	addq	$4,%rax
	movl	%r9d,%r8d
	rolw	$8,%r8w
	addb	$16,%cl
	movzbl	%cl,%ecx
	movq	%rax,%r10
	subq	%rcx,%r10
	movw	%r8w,-12(%r14)
	movq	%rcx,-44(%r14)
	movq	%r10,-36(%r14)
	cmpl	$57022,%r9d
	je	9f
	cmpw	$16,%dx
	je	9f
	movb	$3,-13(%r14)
	jmp	7f
9:
	cmpw	$16,%dx
	sete	%cl
	incb	%cl
	movb	%cl,-13(%r14)
7:
	movq	%rax,-68(%r14)
	movq	%r12,%rcx
	subq	%rax,%rcx
	testb	$32,(%r15)
	movb	$1,%dl
	jne	7f
	movq	%rcx,%rax
	jmp	9f
7:
	cmpq	%rax,%r12
	jne	7f
	xorl	%eax,%eax
	jmp	9f
7:
	movzbl	-1(%r15,%r12),%edx
	xorl	%r8d,%r8d
	movq	%rcx,%rax
	subq	%rdx,%rax
	setae	%dl
	cmovbq	%r8,%rax
	cmovbq	%r8,%rax
9:
	movq	%rcx,-60(%r14)
	movq	%rax,-52(%r14)
	movb	%dl,-14(%r14)
	movl	4(%r15),%eax
	bswapl	%eax
	movl	%eax,-28(%r14)
	movl	8(%r15),%eax
	bswapl	%eax
	movl	%eax,-24(%r14)
	movzwl	2(%r15),%eax
	rolw	$8,%ax
	movw	%ax,-20(%r14)
	movzbl	1(%r15),%eax
	andb	$127,%al
	movb	%al,-18(%r14)
	movzbl	(%r15),%eax
	andb	$15,%al
	movb	%al,-17(%r14)
	movzbl	1(%r15),%eax
	shrb	$7,%al
	movb	%al,-16(%r14)
	movzbl	(%r15),%eax
	shrb	$5,%al
	andb	$1,%al
	movb	%al,-15(%r14)
	movl	$0,-4(%r14)
7:
	movzbl	1(%r15),%eax
	cmpb	$-64,(%r15)
	setl	%cl
	andb	$-32,%al
	cmpb	$-64,%al
	sete	%bpl
	andb	%cl,%bpl
9:
	movb	%bpl,(%r14)
	addq	$88,%r14
	decq	%rsi
	jne	2b
	jmp	1f
3:
	xorl	%ebp,%ebp
	xorl	%ecx,%ecx
	callq	rtp_c.status.refusal_status
	movl	%eax,-4(%r14)
	cmpq	$2,%r12
	jae	7b
	jmp	9b
4:
	movb	$1,%cl
	jmp	2f
5:
	movb	$2,%cl
	jmp	2f
6:
	movb	$3,%cl
	jmp	2f
8:
	movb	$4,%cl
2:
	callq	rtp_c.status.refusal_status
	movl	%eax,-4(%r14)
	jmp	7b
1:
	addq	$32,%rsp
	popq	%rbx
	popq	%rbp
	popq	%rdi
	popq	%rsi
	popq	%r12
	popq	%r14
	popq	%r15
	retq
	.seh_endproc

	.def	rtpw_read;
	.scl	2;
	.type	32;
	.endef
	.section	.text$rtpw_read,"xr"
	.globl	rtpw_read
	.p2align	4
rtpw_read:
.seh_proc rtpw_read
	pushq	%r14
	.seh_pushreg %r14
	pushq	%rsi
	.seh_pushreg %rsi
	pushq	%rdi
	.seh_pushreg %rdi
	pushq	%rbp
	.seh_pushreg %rbp
	pushq	%rbx
	.seh_pushreg %rbx
	subq	$48,%rsp
	.seh_stackalloc 48
	.seh_endprologue
	movq	%rcx,%rax
	xorl	%ecx,%ecx
	testq	%rax,%rax
	sete	%cl
	shll	$12,%ecx
	addq	%rax,%rcx
	cmpq	$12,%rdx
	jb	1f
	movzbl	(%rcx),%edi
	cmpb	$-65,%dil
	jg	2f
	movl	%edi,%eax
	andl	$15,%eax
	leaq	12(,%rax,4),%r11
	movq	%rdx,%rax
	subq	%r11,%rax
	jb	3f
	xorl	%r10d,%r10d
	xorl	%esi,%esi
	testb	$16,%dil
	je	4f
	cmpq	$4,%rax
	jb	5f
	movzwl	2(%rcx,%r11),%r10d
	rolw	$8,%r10w
	addq	$-4,%rax
	movzwl	%r10w,%edi
	shll	$2,%edi
	cmpq	%rdi,%rax
	jb	6f
	movzwl	(%rcx,%r11),%eax
	cmpl	$57022,%eax
	sete	%sil
	andl	$61695,%eax
	cmpw	$16,%ax
	sete	%r10b
	addq	%rdi,%r11
	addq	$4,%r11
	orb	%r10b,%sil
4:
	movzbl	1(%rcx),%ebx
	andb	$-32,%bl
	movl	$17,%eax
	cmpb	$-64,%bl
	je	4f
	movq	%r11,(%r9)
	movl	4(%rcx),%eax
	bswapl	%eax
	movl	%eax,8(%r9)
	movl	8(%rcx),%eax
	bswapl	%eax
	movl	%eax,12(%r9)
	movzbl	(%rcx),%ebx
	xorps	%xmm0,%xmm0
	movups	%xmm0,60(%r9)
	movups	%xmm0,48(%r9)
	movups	%xmm0,32(%r9)
	movups	%xmm0,16(%r9)
	andl	$15,%ebx
	je	7f
	leaq	12(%rcx),%rdi
	cmpb	$1,%bl
	jne	8f
	xorl	%eax,%eax
	jmp	9f
7:
	xorl	%eax,%eax
	jmp	7f
8:
	movl	%ebx,%r14d
	andl	$-2,%r14d
	xorl	%eax,%eax
	.p2align	4
8:
	movl	(%rdi),%ebp
	bswapl	%ebp
	movl	%ebp,16(%r9,%rax,4)
	movl	4(%rdi),%ebp
	addq	$8,%rdi
	bswapl	%ebp
	movl	%ebp,20(%r9,%rax,4)
	addq	$2,%rax
	cmpq	%rax,%r14
	jne	8b
	testb	$1,%bl
	je	7f
9:
	leaq	16(%r9),%rbx
	movl	(%rdi),%edi
	bswapl	%edi
	movl	%edi,(%rbx,%rax,4)
	incq	%rax
7:
	movb	%al,79(%r9)
	movzwl	2(%rcx),%eax
	rolw	$8,%ax
	movw	%ax,76(%r9)
	movzbl	1(%rcx),%eax
	andb	$127,%al
	movb	%al,78(%r9)
	movzbl	1(%rcx),%eax
	shrb	$7,%al
	movb	%al,80(%r9)
	movzbl	(%rcx),%eax
	shrb	$5,%al
	andb	$1,%al
	movb	%al,81(%r9)
	movzbl	(%rcx),%eax
	shrb	$4,%al
	andb	$1,%al
	movb	%al,82(%r9)
	movq	%rdx,%rax
	subq	%r11,%rax
	testb	$32,(%rcx)
	movb	$1,%bl
	je	7f
	cmpq	%r11,%rdx
	jne	8f
	xorl	%eax,%eax
	jmp	7f
8:
	movzbl	-1(%rcx,%rdx),%edx
	xorl	%edi,%edi
	subq	%rdx,%rax
	setae	%bl
	cmovbq	%rdi,%rax
	cmovbq	%rdi,%rax
7:
	movq	%rax,224(%r9)
	movb	%bl,251(%r9)
	movzbl	(%rcx),%eax
	testb	$16,%al
	jne	7f
	movb	$0,250(%r9)
	movw	$0,248(%r9)
	movq	%r11,232(%r9)
	movq	$0,240(%r9)
	jmp	8f
7:
	shll	$2,%eax
	andl	$60,%eax
	movzwl	12(%rcx,%rax),%edx
	rolw	$8,%dx
	addb	$16,%al
	movzbl	%al,%eax
	subq	%rax,%r11
	movw	%dx,248(%r9)
	movq	%rax,232(%r9)
	movq	%r11,240(%r9)
	testb	%sil,%sil
	je	7f
	addq	%rax,%rcx
	leal	1(%r10),%eax
	movb	%al,250(%r9)
	leaq	88(%r9),%rax
	xorps	%xmm0,%xmm0
	movups	%xmm0,88(%r9)
	movups	%xmm0,104(%r9)
	movups	%xmm0,120(%r9)
	movups	%xmm0,136(%r9)
	movups	%xmm0,152(%r9)
	movups	%xmm0,168(%r9)
	movups	%xmm0,184(%r9)
	movups	%xmm0,200(%r9)
	movq	$0,216(%r9)
	movq	%rax,32(%rsp)
	movq	%rcx,%rdx
	movq	%r8,%rcx
	movq	%r11,%r8
	movl	%r10d,%r9d
	callq	rtp_ext.block_values.read_values.9a3a19c0cce455e9
	jmp	9f
7:
	movb	$3,250(%r9)
8:
	xorps	%xmm0,%xmm0
	movups	%xmm0,200(%r9)
	movups	%xmm0,184(%r9)
	movups	%xmm0,168(%r9)
	movups	%xmm0,152(%r9)
	movups	%xmm0,136(%r9)
	movups	%xmm0,120(%r9)
	movups	%xmm0,104(%r9)
	movups	%xmm0,88(%r9)
	movq	$0,216(%r9)
9:
	xorl	%eax,%eax
4:
	addq	$48,%rsp
	popq	%rbx
	popq	%rbp
	popq	%rdi
	popq	%rsi
	popq	%r14
	retq
1:
	xorl	%r8d,%r8d
	jmp	1f
2:
	movb	$1,%r8b
	jmp	1f
3:
	movb	$2,%r8b
	jmp	1f
5:
	movb	$3,%r8b
	jmp	1f
6:
	movb	$4,%r8b
1:
	addq	$48,%rsp
	popq	%rbx
	popq	%rbp
	popq	%rdi
	popq	%rsi
	popq	%r14
	jmp	rtp_c.whole_packet.status_of_no_packet
	.seh_endproc

	.def	rtpw_read_fixed_part;
	.scl	2;
	.type	32;
	.endef
	.section	.text$rtpw_read_fixed_part,"xr"
	.globl	rtpw_read_fixed_part
	.p2align	4
rtpw_read_fixed_part:
.seh_proc rtpw_read_fixed_part
	pushq	%r15
	.seh_pushreg %r15
	pushq	%r14
	.seh_pushreg %r14
	pushq	%r13
	.seh_pushreg %r13
	pushq	%r12
	.seh_pushreg %r12
	pushq	%rsi
	.seh_pushreg %rsi
	pushq	%rdi
	.seh_pushreg %rdi
	pushq	%rbp
	.seh_pushreg %rbp
	pushq	%rbx
	.seh_pushreg %rbx
	.seh_endprologue
	xorl	%eax,%eax
	testq	%rcx,%rcx
	sete	%r10b
	cmpq	$12,%rdx
	jb	1f
	movb	%r10b,%al
	shll	$12,%eax
	addq	%rax,%rcx
	movzbl	(%rcx),%eax
	cmpb	$-65,%al
	jg	2f
	leal	(,%rax,4),%ebx
	andl	$60,%ebx
	leaq	12(%rbx),%r10
	movq	%rdx,%rsi
	subq	%r10,%rsi
	jb	3f
	testb	$16,%al
	jne	4f
	xorl	%r11d,%r11d
	movq	%r10,%rbx
	xorl	%edi,%edi
	movl	%eax,%r14d
	movb	$1,%bpl
	andb	$32,%r14b
	jne	5f
	jmp	6f
4:
	cmpq	$4,%rsi
	jb	4f
	movzwl	2(%rcx,%r10),%r11d
	rolw	$8,%r11w
	addq	$-4,%rsi
	movzwl	%r11w,%edi
	shll	$2,%edi
	cmpq	%rdi,%rsi
	jb	7f
	movzwl	12(%rcx,%rbx),%r11d
	cmpl	$57022,%r11d
	setne	%sil
	movl	%r11d,%ebp
	andl	$61695,%ebp
	addb	%sil,%sil
	incb	%sil
	cmpw	$16,%bp
	leaq	4(%r10,%rdi),%r10
	movzbl	%sil,%esi
	movl	$2,%edi
	cmovnel	%esi,%edi
	rolw	$8,%r11w
	addb	$16,%bl
	movzbl	%bl,%ebx
	movq	%rdx,%rsi
	subq	%r10,%rsi
	movl	%eax,%r14d
	movb	$1,%bpl
	andb	$32,%r14b
	je	6f
5:
	cmpq	%r10,%rdx
	jne	5f
	xorl	%esi,%esi
	jmp	6f
5:
	movzbl	-1(%rcx,%rdx),%edx
	xorl	%r15d,%r15d
	subq	%rdx,%rsi
	setae	%bpl
	cmovbq	%r15,%rsi
	cmovbq	%r15,%rsi
6:
	movl	4(%rcx),%edx
	bswapl	%edx
	movl	8(%rcx),%r15d
	bswapl	%r15d
	movzwl	2(%rcx),%r12d
	rolw	$8,%r12w
	movzbl	1(%rcx),%ecx
	movl	%ecx,%r13d
	andb	$127,%r13b
	andb	$15,%al
	shrb	$7,%cl
	shrb	$5,%r14b
	movb	$2,(%r8)
	movb	%r14b,1(%r8)
	testb	%dil,%dil
	setne	2(%r8)
	movb	%cl,3(%r8)
	movb	%r13b,4(%r8)
	movw	%r12w,6(%r8)
	movl	%edx,8(%r8)
	movl	%r15d,12(%r8)
	movq	%r10,(%r9)
	movq	%rsi,8(%r9)
	movq	%rbx,16(%r9)
	movw	%r11w,24(%r9)
	movb	%dil,26(%r9)
	movb	%al,27(%r9)
	movb	%bpl,28(%r9)
	xorl	%eax,%eax
	popq	%rbx
	popq	%rbp
	popq	%rdi
	popq	%rsi
	popq	%r12
	popq	%r13
	popq	%r14
	popq	%r15
	retq
1:
	xorl	%ecx,%ecx
	jmp	1f
2:
	movb	$1,%cl
	jmp	1f
3:
	movb	$2,%cl
	jmp	1f
4:
	movb	$3,%cl
	jmp	1f
7:
	movb	$4,%cl
1:
	popq	%rbx
	popq	%rbp
	popq	%rdi
	popq	%rsi
	popq	%r12
	popq	%r13
	popq	%r14
	popq	%r15
	jmp	rtp_c.status.refusal_status
	.seh_endproc

	.def	rtpw_read_many;
	.scl	2;
	.type	32;
	.endef
	.section	.text$rtpw_read_many,"xr"
	.globl	rtpw_read_many
	.p2align	4
rtpw_read_many:
.seh_proc rtpw_read_many
	pushq	%r15
	.seh_pushreg %r15
	pushq	%r14
	.seh_pushreg %r14
	pushq	%r13
	.seh_pushreg %r13
	pushq	%r12
	.seh_pushreg %r12
	pushq	%rsi
	.seh_pushreg %rsi
	pushq	%rdi
	.seh_pushreg %rdi
	pushq	%rbp
	.seh_pushreg %rbp
	pushq	%rbx
	.seh_pushreg %rbx
	subq	$72,%rsp
	.seh_stackalloc 72
	.seh_endprologue
	movq	%r8,%rsi
	movq	%rdx,%rdi
	movq	%rcx,%rbx
	movq	176(%rsp),%r14
	xorl	%ecx,%ecx
	testq	%rbx,%rbx
	sete	%r8b
	xorl	%eax,%eax
	testq	%r9,%r9
	sete	%dl
	testq	%r14,%r14
	je	1f
	movb	%r8b,%cl
	shll	$12,%ecx
	addq	%rcx,%rbx
	movb	%dl,%al
	shll	$12,%eax
	leaq	(%r9,%rax),%r15
	leaq	(%rax,%r9),%r12
	addq	$36,%r12
	xorl	%r13d,%r13d
	jmp	2f
	.p2align	4
3:
	movl	$9,272(%rbp)
4:
	incq	%r13
	addq	$280,%r12
	cmpq	%r14,%r13
	je	1f
2:
	imulq	$280,%r13,%rax
	leaq	(%r15,%rax),%rbp
	movq	(%r15,%rax),%rcx
	movq	%rdi,%r8
	subq	%rcx,%r8
	jb	3b
	movq	8(%r15,%rax),%rdx
	cmpq	%rdx,%r8
	jb	3b
	addq	%rbx,%rcx
	cmpq	$12,%rdx
	jb	2f
	movzbl	(%rcx),%r11d
	cmpb	$-65,%r11b
	jg	3f
	movl	%r11d,%eax
	andl	$15,%eax
	leaq	12(,%rax,4),%r8
	movq	%rdx,%rax
	subq	%r8,%rax
	jb	5f
	xorl	%r9d,%r9d
	xorl	%r10d,%r10d
	testb	$16,%r11b
	je	6f
	cmpq	$4,%rax
	jb	7f
	movzwl	2(%rcx,%r8),%r9d
	rolw	$8,%r9w
	addq	$-4,%rax
	movzwl	%r9w,%r11d
	shll	$2,%r11d
	cmpq	%r11,%rax
	jb	8f
	movzwl	(%rcx,%r8),%eax
	cmpl	$57022,%eax
	sete	%r10b
	andl	$61695,%eax
	cmpw	$16,%ax
	sete	%r9b
	addq	%r11,%r8
	addq	$4,%r8
	orb	%r9b,%r10b
6:
	movzbl	1(%rcx),%r11d
	andb	$-32,%r11b
	movl	$17,%eax
	cmpb	$-64,%r11b
	je	6f
	movq	%r8,16(%rbp)
	movl	4(%rcx),%eax
	bswapl	%eax
	movl	%eax,24(%rbp)
	movl	8(%rcx),%eax
	bswapl	%eax
	movl	%eax,28(%rbp)
	movzbl	(%rcx),%r14d
	xorps	%xmm0,%xmm0
	movups	%xmm0,76(%rbp)
	movups	%xmm0,64(%rbp)
	movups	%xmm0,48(%rbp)
	movups	%xmm0,32(%rbp)
	andl	$15,%r14d
	je	9f
	movl	%r10d,52(%rsp)
	leaq	12(%rcx),%r11
	cmpb	$1,%r14b
	jne	10f
	xorl	%eax,%eax
	jmp	11f
9:
	xorl	%eax,%eax
	movq	176(%rsp),%r14
	jmp	9f
10:
	movq	%rbx,56(%rsp)
	movq	%rsi,64(%rsp)
	movl	%r14d,%esi
	andl	$-2,%esi
	xorl	%eax,%eax
	xorl	%ebx,%ebx
	.p2align	4
10:
	movl	(%r11,%rax,4),%r10d
	bswapl	%r10d
	movl	%r10d,-4(%r12,%rax,4)
	movl	4(%r11,%rax,4),%r10d
	bswapl	%r10d
	movl	%r10d,(%r12,%rax,4)
	addq	$2,%rax
	addq	$-8,%rbx
	cmpq	%rax,%rsi
	jne	10b
	testb	$1,%r14b
	jne	10f
	movq	64(%rsp),%rsi
	movq	56(%rsp),%rbx
	movq	176(%rsp),%r14
	jmp	12f
10:
	subq	%rbx,%r11
	movq	64(%rsp),%rsi
	movq	56(%rsp),%rbx
11:
	movq	176(%rsp),%r14
	leaq	32(%rbp),%r10
	movl	(%r11),%r11d
	bswapl	%r11d
	movl	%r11d,(%r10,%rax,4)
	incq	%rax
12:
	movl	52(%rsp),%r10d
9:
	movb	%al,95(%rbp)
	movzwl	2(%rcx),%eax
	rolw	$8,%ax
	movw	%ax,92(%rbp)
	movzbl	1(%rcx),%eax
	andb	$127,%al
	movb	%al,94(%rbp)
	movzbl	1(%rcx),%eax
	shrb	$7,%al
	movb	%al,96(%rbp)
	movzbl	(%rcx),%eax
	shrb	$5,%al
	andb	$1,%al
	movb	%al,97(%rbp)
	movzbl	(%rcx),%eax
	shrb	$4,%al
	andb	$1,%al
	movb	%al,98(%rbp)
	movq	%rdx,%rax
	subq	%r8,%rax
	testb	$32,(%rcx)
	movb	$1,%r11b
	je	9f
	cmpq	%r8,%rdx
	jne	10f
	xorl	%eax,%eax
	jmp	9f
10:
	movzbl	-1(%rcx,%rdx),%edx
	subq	%rdx,%rax
	setae	%r11b
	movl	$0,%edx
	cmovbq	%rdx,%rax
	movl	$0,%edx
	cmovbq	%rdx,%rax
9:
	movq	%rax,240(%rbp)
	movb	%r11b,267(%rbp)
	movzbl	(%rcx),%eax
	testb	$16,%al
	jne	9f
	movb	$0,266(%rbp)
	movw	$0,264(%rbp)
	movq	%r8,248(%rbp)
	movq	$0,256(%rbp)
	jmp	10f
9:
	shll	$2,%eax
	andl	$60,%eax
	movzwl	12(%rcx,%rax),%edx
	rolw	$8,%dx
	addb	$16,%al
	movzbl	%al,%eax
	subq	%rax,%r8
	movw	%dx,264(%rbp)
	movq	%rax,248(%rbp)
	movq	%r8,256(%rbp)
	testb	%r10b,%r10b
	je	9f
	addq	%rax,%rcx
	leal	1(%r9),%eax
	movb	%al,266(%rbp)
	leaq	104(%rbp),%rax
	xorps	%xmm0,%xmm0
	movups	%xmm0,104(%rbp)
	movups	%xmm0,120(%rbp)
	movups	%xmm0,136(%rbp)
	movups	%xmm0,152(%rbp)
	movups	%xmm0,168(%rbp)
	movups	%xmm0,184(%rbp)
	movups	%xmm0,200(%rbp)
	movups	%xmm0,216(%rbp)
	movq	$0,232(%rbp)
	movq	%rax,32(%rsp)
	movq	%rcx,%rdx
	movq	%rsi,%rcx
	callq	rtp_ext.block_values.read_values.9a3a19c0cce455e9
	jmp	11f
9:
	movb	$3,266(%rbp)
10:
	xorps	%xmm0,%xmm0
	movups	%xmm0,216(%rbp)
	movups	%xmm0,200(%rbp)
	movups	%xmm0,184(%rbp)
	movups	%xmm0,168(%rbp)
	movups	%xmm0,152(%rbp)
	movups	%xmm0,136(%rbp)
	movups	%xmm0,120(%rbp)
	movups	%xmm0,104(%rbp)
	movq	$0,232(%rbp)
11:
	xorl	%eax,%eax
6:
	movl	%eax,272(%rbp)
	jmp	4b
2:
	xorl	%r8d,%r8d
	callq	rtp_c.whole_packet.status_of_no_packet
	movl	%eax,272(%rbp)
	jmp	4b
3:
	movb	$1,%r8b
	callq	rtp_c.whole_packet.status_of_no_packet
	movl	%eax,272(%rbp)
	jmp	4b
5:
	movb	$2,%r8b
	callq	rtp_c.whole_packet.status_of_no_packet
	movl	%eax,272(%rbp)
	jmp	4b
7:
	movb	$3,%r8b
	callq	rtp_c.whole_packet.status_of_no_packet
	movl	%eax,272(%rbp)
	jmp	4b
8:
	movb	$4,%r8b
	callq	rtp_c.whole_packet.status_of_no_packet
	movl	%eax,272(%rbp)
	jmp	4b
1:
	addq	$72,%rsp
	popq	%rbx
	popq	%rbp
	popq	%rdi
	popq	%rsi
	popq	%r12
	popq	%r13
	popq	%r14
	popq	%r15
	retq
	.seh_endproc

	.def	rtpw_kind_of_uri;
	.scl	2;
	.type	32;
	.endef
	.section	.rdata,"dr"
	.p2align	4,0x0
1:
	.byte	117
	.byte	114
	.byte	110
	.byte	58
	.byte	105
	.byte	101
	.byte	116
	.byte	102
	.byte	58
	.byte	112
	.byte	97
	.byte	114
	.byte	97
	.byte	109
	.byte	115
	.byte	58
2:
	.byte	114
	.byte	116
	.byte	112
	.byte	45
	.byte	104
	.byte	100
	.byte	114
	.byte	101
	.byte	120
	.byte	116
	.byte	58
	.byte	110
	.byte	116
	.byte	112
	.byte	45
	.byte	53
3:
	.byte	116
	.byte	112
	.byte	45
	.byte	104
	.byte	100
	.byte	114
	.byte	101
	.byte	120
	.byte	116
	.byte	58
	.byte	110
	.byte	116
	.byte	112
	.byte	45
	.byte	53
	.byte	54
4:
	.byte	104
	.byte	116
	.byte	116
	.byte	112
	.byte	58
	.byte	47
	.byte	47
	.byte	119
	.byte	119
	.byte	119
	.byte	46
	.byte	119
	.byte	101
	.byte	98
	.byte	114
	.byte	116
5:
	.byte	99
	.byte	46
	.byte	111
	.byte	114
	.byte	103
	.byte	47
	.byte	101
	.byte	120
	.byte	112
	.byte	101
	.byte	114
	.byte	105
	.byte	109
	.byte	101
	.byte	110
	.byte	116
6:
	.byte	115
	.byte	47
	.byte	114
	.byte	116
	.byte	112
	.byte	45
	.byte	104
	.byte	100
	.byte	114
	.byte	101
	.byte	120
	.byte	116
	.byte	47
	.byte	112
	.byte	108
	.byte	97
7:
	.byte	120
	.byte	116
	.byte	47
	.byte	112
	.byte	108
	.byte	97
	.byte	121
	.byte	111
	.byte	117
	.byte	116
	.byte	45
	.byte	100
	.byte	101
	.byte	108
	.byte	97
	.byte	121
	.section	.text$rtpw_kind_of_uri,"xr"
	.globl	rtpw_kind_of_uri
	.p2align	4
rtpw_kind_of_uri:
.seh_proc rtpw_kind_of_uri
	pushq	%rsi
	.seh_pushreg %rsi
	pushq	%rdi
	.seh_pushreg %rdi
	subq	$56,%rsp
	.seh_stackalloc 56
	.seh_endprologue
	movq	%rdx,%r8
	xorl	%edx,%edx
	testq	%rcx,%rcx
	sete	%dl
	shll	$12,%edx
	addq	%rcx,%rdx
	pxor	%xmm0,%xmm0
	movdqa	%xmm0,32(%rsp)
	movq	$0,48(%rsp)
	leaq	32(%rsp),%rcx
	callq	rtp_core.str.utf8.from_utf8
	cmpb	$0,32(%rsp)
	je	8f
9:
	xorl	%eax,%eax
10:
	addq	$56,%rsp
	popq	%rdi
	popq	%rsi
	retq
8:
	movq	48(%rsp),%rdx
	xorl	%eax,%eax
	leaq	-26(%rdx),%r10
	cmpq	$61,%r10
	ja	10b
	movq	40(%rsp),%rcx
	leaq	rtp_static.39(%rip),%r9
	movb	$1,%r8b
	leaq	8f(%rip),%r11
	movslq	(%r11,%r10,4),%r10
	addq	%r11,%r10
	jmpq	*%r10
11:
	xorl	%eax,%eax
	movabsq	$8102089199360832117,%rdx
	cmpq	%rdx,(%rcx)
	jne	10b
	movabsq	$8011181793428993594,%rdx
	cmpq	%rdx,8(%rcx)
	jne	10b
	movabsq	$7598805623977109874,%rdx
	cmpq	%rdx,16(%rcx)
	jne	10b
	movb	$4,%r10b
	movabsq	$7957695015159098981,%rdx
	cmpq	%rdx,18(%rcx)
	je	12f
	jmp	10b
13:
	leaq	rtp_static.11(%rip),%rax
	movb	$1,%r10b
	jmp	14f
15:
	leaq	rtp_static.25(%rip),%rax
	movb	$8,%r10b
	jmp	14f
16:
	leaq	rtp_static.15(%rip),%rax
	movb	$3,%r10b
	jmp	14f
17:
	leaq	rtp_static.33(%rip),%rax
	movb	$12,%r10b
	jmp	14f
18:
	leaq	rtp_static.31(%rip),%rax
	movb	$11,%r10b
	jmp	14f
19:
	leaq	rtp_static.9(%rip),%rax
	xorl	%r10d,%r10d
	jmp	14f
20:
	leaq	rtp_static.13(%rip),%rax
	movb	$2,%r10b
	jmp	14f
21:
	leaq	rtp_static.27(%rip),%rax
	movb	$9,%r10b
	jmp	14f
22:
	leaq	rtp_static.23(%rip),%rax
	movb	$7,%r10b
	jmp	14f
23:
	leaq	rtp_static.37(%rip),%rax
	movb	$14,%r10b
	jmp	24f
25:
	leaq	rtp_static.35(%rip),%rax
	movb	$13,%r10b
	jmp	14f
26:
	leaq	rtp_static.29(%rip),%rax
	movb	$10,%r10b
14:
	leaq	-16(%rdx),%r11
	movdqu	(%rax),%xmm0
	movdqu	16(%rax),%xmm1
	movdqu	(%rcx),%xmm2
	pcmpeqb	%xmm0,%xmm2
	movdqu	16(%rcx),%xmm3
	pcmpeqb	%xmm1,%xmm3
	pcmpeqd	%xmm1,%xmm1
	pxor	%xmm1,%xmm2
	pxor	%xmm1,%xmm3
	por	%xmm2,%xmm3
	cmpq	$32,%r11
	movl	$32,%esi
	cmovbq	%r11,%rsi
	movdqu	(%rax,%rsi),%xmm0
	movdqu	(%rcx,%rsi),%xmm2
	pcmpeqb	%xmm0,%xmm2
	pxor	%xmm1,%xmm2
	movdqu	-16(%rax,%rdx),%xmm4
	movdqu	-16(%rcx,%rdx),%xmm0
	pcmpeqb	%xmm4,%xmm0
	pxor	%xmm1,%xmm0
	por	%xmm3,%xmm0
	por	%xmm2,%xmm0
	psllw	$7,%xmm0
	pmovmskb	%xmm0,%eax
	testl	%eax,%eax
	je	12f
14:
	xorl	%eax,%eax
	leaq	-33(%rdx),%r10
	cmpq	$32,%r10
	ja	27f
	leaq	28f(%rip),%r11
	movslq	(%r11,%r10,4),%r10
	addq	%r11,%r10
	jmpq	*%r10
29:
	leaq	rtp_static.41(%rip),%r8
	movb	$3,%al
	jmp	30f
27:
	cmpq	$87,%rdx
	jne	10b
27:
	leaq	rtp_static.40(%rip),%r9
	movb	$2,%r8b
31:
	xorl	%eax,%eax
	movq	%rdx,%r10
	.p2align	4
32:
	movdqu	(%r9,%rax),%xmm0
	movdqu	16(%r9,%rax),%xmm1
	movdqu	32(%r9,%rax),%xmm2
	movdqu	48(%r9,%rax),%xmm3
	movdqu	(%rcx,%rax),%xmm4
	pcmpeqb	%xmm0,%xmm4
	movdqu	16(%rcx,%rax),%xmm0
	pcmpeqb	%xmm1,%xmm0
	pand	%xmm4,%xmm0
	movdqu	32(%rcx,%rax),%xmm1
	pcmpeqb	%xmm2,%xmm1
	movdqu	48(%rcx,%rax),%xmm2
	pcmpeqb	%xmm3,%xmm2
	pand	%xmm1,%xmm2
	pand	%xmm0,%xmm2
	pmovmskb	%xmm2,%r11d
	cmpl	$65535,%r11d
	jne	33f
	addq	$64,%rax
	addq	$-64,%r10
	cmpq	$65,%r10
	jae	32b
	movdqu	-64(%r9,%rdx),%xmm0
	movdqu	-48(%r9,%rdx),%xmm1
	movdqu	-32(%r9,%rdx),%xmm2
	movdqu	-16(%r9,%rdx),%xmm3
	movdqu	-64(%rcx,%rdx),%xmm4
	pcmpeqb	%xmm0,%xmm4
	movdqu	-48(%rcx,%rdx),%xmm5
	pcmpeqb	%xmm1,%xmm5
	movdqu	-32(%rcx,%rdx),%xmm0
	pcmpeqb	%xmm2,%xmm0
	movdqu	-16(%rcx,%rdx),%xmm1
	pcmpeqb	%xmm3,%xmm1
	pcmpeqd	%xmm2,%xmm2
	pxor	%xmm2,%xmm1
	pxor	%xmm2,%xmm0
	por	%xmm1,%xmm0
	pxor	%xmm2,%xmm4
	pxor	%xmm2,%xmm5
	por	%xmm4,%xmm5
	por	%xmm0,%xmm5
	pxor	%xmm0,%xmm0
	pcmpgtb	%xmm5,%xmm0
	psllw	$7,%xmm0
	pmovmskb	%xmm0,%eax
	testl	%eax,%eax
	jne	33f
	jmp	32f
34:
	leaq	rtp_static.38(%rip),%r8
30:
	movdqu	(%r8),%xmm0
	movdqu	16(%r8),%xmm1
	movdqu	(%rcx),%xmm2
	pcmpeqb	%xmm0,%xmm2
	movdqu	16(%rcx),%xmm3
	pcmpeqb	%xmm1,%xmm3
	pcmpeqd	%xmm1,%xmm1
	pxor	%xmm1,%xmm2
	pxor	%xmm1,%xmm3
	por	%xmm2,%xmm3
	movdqu	-16(%r8,%rdx),%xmm2
	movdqu	-16(%rcx,%rdx),%xmm0
	pcmpeqb	%xmm2,%xmm0
	pxor	%xmm1,%xmm0
	por	%xmm3,%xmm0
	movl	%eax,%r8d
	psllw	$7,%xmm0
	pmovmskb	%xmm0,%eax
	testl	%eax,%eax
	je	32f
33:
	cmpq	$33,%rdx
	jne	9b
	movdqu	(%rcx),%xmm0
	movdqu	16(%rcx),%xmm1
	movdqu	17(%rcx),%xmm2
	pcmpeqb	1b(%rip),%xmm0
	pcmpeqb	2b(%rip),%xmm1
	pcmpeqb	3b(%rip),%xmm2
	pand	%xmm0,%xmm1
	pand	%xmm1,%xmm2
	pmovmskb	%xmm2,%eax
	cmpl	$65535,%eax
	jne	9b
	movb	$4,%r8b
32:
	orb	$16,%r8b
	movl	%r8d,%eax
	addq	$56,%rsp
	popq	%rdi
	popq	%rsi
	retq
1:
	movdqu	(%rcx),%xmm0
	movdqu	16(%rcx),%xmm1
	movdqu	32(%rcx),%xmm2
	pcmpeqb	4b(%rip),%xmm0
	movdqu	42(%rcx),%xmm3
	pcmpeqb	5b(%rip),%xmm1
	pand	%xmm0,%xmm1
	pcmpeqb	6b(%rip),%xmm2
	pcmpeqb	7b(%rip),%xmm3
	pand	%xmm2,%xmm3
	pand	%xmm1,%xmm3
	pmovmskb	%xmm3,%eax
	cmpl	$65535,%eax
	jne	9b
	movb	$6,%r10b
	jmp	12f
2:
	leaq	rtp_static.19(%rip),%rax
	movb	$5,%r10b
24:
	xorl	%r11d,%r11d
	movq	%rdx,%rsi
	.p2align	4
3:
	movdqu	(%rax,%r11),%xmm0
	movdqu	16(%rax,%r11),%xmm1
	movdqu	32(%rax,%r11),%xmm2
	movdqu	48(%rax,%r11),%xmm3
	movdqu	(%rcx,%r11),%xmm4
	pcmpeqb	%xmm0,%xmm4
	movdqu	16(%rcx,%r11),%xmm0
	pcmpeqb	%xmm1,%xmm0
	pand	%xmm4,%xmm0
	movdqu	32(%rcx,%r11),%xmm1
	pcmpeqb	%xmm2,%xmm1
	movdqu	48(%rcx,%r11),%xmm2
	pcmpeqb	%xmm3,%xmm2
	pand	%xmm1,%xmm2
	pand	%xmm0,%xmm2
	pmovmskb	%xmm2,%edi
	cmpl	$65535,%edi
	jne	14b
	addq	$64,%r11
	addq	$-64,%rsi
	cmpq	$65,%rsi
	jae	3b
	movdqu	-64(%rax,%rdx),%xmm0
	movdqu	-48(%rax,%rdx),%xmm1
	movdqu	-32(%rax,%rdx),%xmm2
	movdqu	-16(%rax,%rdx),%xmm3
	movdqu	-64(%rcx,%rdx),%xmm4
	pcmpeqb	%xmm0,%xmm4
	movdqu	-48(%rcx,%rdx),%xmm5
	pcmpeqb	%xmm1,%xmm5
	movdqu	-32(%rcx,%rdx),%xmm0
	pcmpeqb	%xmm2,%xmm0
	movdqu	-16(%rcx,%rdx),%xmm1
	pcmpeqb	%xmm3,%xmm1
	pcmpeqd	%xmm2,%xmm2
	pxor	%xmm2,%xmm1
	pxor	%xmm2,%xmm0
	por	%xmm1,%xmm0
	pxor	%xmm2,%xmm4
	pxor	%xmm2,%xmm5
	por	%xmm4,%xmm5
	por	%xmm0,%xmm5
	pxor	%xmm0,%xmm0
	pcmpgtb	%xmm5,%xmm0
	psllw	$7,%xmm0
	pmovmskb	%xmm0,%eax
	testl	%eax,%eax
	jne	14b
12:
	incb	%r10b
	movl	%r10d,%eax
	addq	$56,%rsp
	popq	%rdi
	popq	%rsi
	retq
	.section	.rdata,"dr"
	.p2align	2,0x0
8:
	.long	11b-8b
	.long	10b-8b
	.long	10b-8b
	.long	10b-8b
	.long	10b-8b
	.long	10b-8b
	.long	10b-8b
	.long	29b-8b
	.long	16b-8b
	.long	18b-8b
	.long	10b-8b
	.long	10b-8b
	.long	10b-8b
	.long	10b-8b
	.long	10b-8b
	.long	10b-8b
	.long	10b-8b
	.long	20b-8b
	.long	10b-8b
	.long	21b-8b
	.long	10b-8b
	.long	10b-8b
	.long	10b-8b
	.long	10b-8b
	.long	10b-8b
	.long	10b-8b
	.long	10b-8b
	.long	10b-8b
	.long	26b-8b
	.long	10b-8b
	.long	25b-8b
	.long	15b-8b
	.long	19b-8b
	.long	10b-8b
	.long	17b-8b
	.long	13b-8b
	.long	10b-8b
	.long	22b-8b
	.long	10b-8b
	.long	31b-8b
	.long	10b-8b
	.long	10b-8b
	.long	10b-8b
	.long	10b-8b
	.long	23b-8b
	.long	10b-8b
	.long	10b-8b
	.long	2b-8b
	.long	10b-8b
	.long	10b-8b
	.long	10b-8b
	.long	10b-8b
	.long	10b-8b
	.long	10b-8b
	.long	10b-8b
	.long	10b-8b
	.long	10b-8b
	.long	10b-8b
	.long	10b-8b
	.long	10b-8b
	.long	10b-8b
	.long	27b-8b
28:
	.long	29b-28b
	.long	10b-28b
	.long	10b-28b
	.long	10b-28b
	.long	10b-28b
	.long	10b-28b
	.long	10b-28b
	.long	10b-28b
	.long	10b-28b
	.long	10b-28b
	.long	34b-28b
	.long	10b-28b
	.long	10b-28b
	.long	10b-28b
	.long	10b-28b
	.long	10b-28b
	.long	10b-28b
	.long	10b-28b
	.long	10b-28b
	.long	10b-28b
	.long	10b-28b
	.long	10b-28b
	.long	10b-28b
	.long	10b-28b
	.long	10b-28b
	.long	1b-28b
	.long	10b-28b
	.long	10b-28b
	.long	10b-28b
	.long	10b-28b
	.long	10b-28b
	.long	10b-28b
	.long	31b-28b
	.section	.text$rtpw_kind_of_uri,"xr"
	.seh_endproc

	.def	rtpw_uri_of_kind;
	.scl	2;
	.type	32;
	.endef
	.section	.text$rtpw_uri_of_kind,"xr"
	.globl	rtpw_uri_of_kind
	.p2align	4
rtpw_uri_of_kind:
.seh_proc rtpw_uri_of_kind
	pushq	%r14
	.seh_pushreg %r14
	pushq	%rsi
	.seh_pushreg %rsi
	pushq	%rdi
	.seh_pushreg %rdi
	pushq	%rbx
	.seh_pushreg %rbx
	subq	$40,%rsp
	.seh_stackalloc 40
	.seh_endprologue
	movl	%ecx,%r10d
	xorl	%r11d,%r11d
	testq	%rdx,%rdx
	sete	%r11b
	shll	$12,%r11d
	leaq	(%rdx,%r11),%rcx
	leal	-1(%r10),%eax
	cmpb	$14,%al
	ja	1f
	movzbl	%al,%edi
	shll	$3,%edi
	leaq	rtp_switch.table.rtpw_uri_of_kind.247(%rip),%rax
	movq	(%rdi,%rax),%rsi
	movl	$8,%eax
	cmpq	%rsi,%r8
	jb	2f
	leaq	rtp_switch.table.rtpw_uri_of_kind(%rip),%rax
	movq	(%rdi,%rax),%r8
	movq	%rcx,%rax
	subq	%r8,%rax
	cmpq	%rsi,%rax
	jae	3f
	cmpq	$16,%rax
	jae	4f
	xorl	%eax,%eax
5:
	addb	$-13,%r10b
	movq	%rax,%rdi
	cmpb	$2,%r10b
	jb	6f
	movl	%esi,%r10d
	andl	$3,%r10d
	movq	%rax,%rdi
	.p2align	4
7:
	movzbl	(%r8,%rdi),%ebx
	movb	%bl,(%rcx,%rdi)
	incq	%rdi
	decq	%r10
	jne	7b
6:
	subq	%rsi,%rax
	cmpq	$-4,%rax
	ja	6f
	leaq	(%r11,%rdx),%rax
	addq	$3,%rax
	.p2align	4
7:
	movzbl	(%r8,%rdi),%ecx
	movb	%cl,-3(%rax,%rdi)
	movzbl	1(%r8,%rdi),%ecx
	movb	%cl,-2(%rax,%rdi)
	movzbl	2(%r8,%rdi),%ecx
	movb	%cl,-1(%rax,%rdi)
	movzbl	3(%r8,%rdi),%ecx
	movb	%cl,(%rax,%rdi)
	addq	$4,%rdi
	cmpq	%rdi,%rsi
	jne	7b
	jmp	6f
1:
	leal	-16(%r10),%edi
	movl	$11,%eax
	cmpb	$4,%dil
	ja	2f
	movzbl	%dil,%ebx
	shll	$3,%ebx
	leaq	rtp_switch.table.rtpw_uri_of_kind.248(%rip),%rax
	movq	(%rbx,%rax),%rsi
	movl	$8,%eax
	cmpq	%rsi,%r8
	jb	2f
	leaq	rtp_switch.table.rtpw_uri_of_kind.249(%rip),%rax
	movq	(%rbx,%rax),%r8
	movq	%rcx,%rax
	subq	%r8,%rax
	cmpq	%rsi,%rax
	jae	1f
	cmpq	$32,%rax
	jae	7f
	xorl	%eax,%eax
	jmp	8f
3:
	movq	%r8,%rdx
	movq	%rsi,%r8
	movq	%r9,%rdi
	callq	memmove
	jmp	3f
4:
	movl	%esi,%edi
	andl	$112,%edi
	leaq	(%r11,%rdx),%rax
	addq	$8,%rax
	xorl	%ebx,%ebx
	.p2align	4
4:
	movups	(%r8,%rbx),%xmm0
	movups	%xmm0,-8(%rax,%rbx)
	addq	$16,%rbx
	cmpq	%rbx,%rdi
	jne	4b
	cmpq	%rdi,%rsi
	je	6f
	movl	%r10d,%eax
	andb	$7,%al
	cmpb	$4,%al
	je	4f
	movl	%esi,%eax
	andl	$124,%eax
	.p2align	4
9:
	movl	(%r8,%rdi),%ebx
	movl	%ebx,(%rcx,%rdi)
	addq	$4,%rdi
	cmpq	%rdi,%rax
	jne	9b
	cmpq	%rax,%rsi
	jne	5b
	jmp	6f
1:
	movq	%r8,%rdx
	movq	%rsi,%r8
	movq	%r9,%rdi
	callq	memcpy
3:
	movq	%rdi,%r9
6:
	movq	%rsi,(%r9)
	xorl	%eax,%eax
2:
	addq	$40,%rsp
	popq	%rbx
	popq	%rdi
	popq	%rsi
	popq	%r14
	retq
7:
	movl	%esi,%eax
	andl	$96,%eax
	leaq	(%r11,%rdx),%rbx
	addq	$16,%rbx
	xorl	%r14d,%r14d
	.p2align	4
1:
	movups	(%r8,%r14),%xmm0
	movups	16(%r8,%r14),%xmm1
	movups	%xmm0,-16(%rbx,%r14)
	movups	%xmm1,(%rbx,%r14)
	addq	$32,%r14
	cmpq	%r14,%rax
	jne	1b
	andb	$2,%r10b
	cmpb	%dil,%r10b
	jne	8f
	movl	%esi,%r10d
	andl	$124,%r10d
	.p2align	4
1:
	movl	(%r8,%rax),%edi
	movl	%edi,(%rcx,%rax)
	addq	$4,%rax
	cmpq	%rax,%r10
	jne	1b
	movq	%r10,%rax
8:
	movl	%esi,%edi
	andl	$3,%edi
	movq	%rax,%r10
	.p2align	4
1:
	movzbl	(%r8,%r10),%ebx
	movb	%bl,(%rcx,%r10)
	incq	%r10
	decq	%rdi
	jne	1b
	subq	%rsi,%rax
	cmpq	$-4,%rax
	ja	6b
	leaq	(%r11,%rdx),%rax
	addq	$3,%rax
	.p2align	4
1:
	movzbl	(%r8,%r10),%ecx
	movb	%cl,-3(%rax,%r10)
	movzbl	1(%r8,%r10),%ecx
	movb	%cl,-2(%rax,%r10)
	movzbl	2(%r8,%r10),%ecx
	movb	%cl,-1(%rax,%r10)
	movzbl	3(%r8,%r10),%ecx
	movb	%cl,(%rax,%r10)
	addq	$4,%r10
	cmpq	%r10,%rsi
	jne	1b
	jmp	6b
4:
	movq	%rdi,%rax
	jmp	5b
	.seh_endproc

	.def	rtpw_read_color_space;
	.scl	2;
	.type	32;
	.endef
	.section	.text$rtpw_read_color_space,"xr"
	.globl	rtpw_read_color_space
	.p2align	4
rtpw_read_color_space:
.seh_proc rtpw_read_color_space
	pushq	%rbx
	.seh_pushreg %rbx
	.seh_endprologue
	xorl	%r9d,%r9d
	testq	%rcx,%rcx
	sete	%r9b
	shll	$12,%r9d
	movl	$9,%eax
	cmpq	$28,%rdx
	je	1f
	cmpq	$4,%rdx
	jne	2f
	movzbl	3(%rcx,%r9),%edx
	movl	%edx,%r10d
	andb	$3,%r10b
	cmpb	$3,%r10b
	je	2f
	movl	%edx,%r11d
	shrb	$2,%r11b
	andb	$3,%r11b
	cmpb	$3,%r11b
	je	2f
	xorl	%eax,%eax
	pxor	%xmm0,%xmm0
	pxor	%xmm1,%xmm1
	jmp	3f
1:
	movzbl	3(%rcx,%r9),%edx
	movl	%edx,%r10d
	andb	$3,%r10b
	cmpb	$3,%r10b
	je	2f
	movl	%edx,%r11d
	shrb	$2,%r11b
	andb	$3,%r11b
	cmpb	$3,%r11b
	je	2f
	movdqu	4(%rcx,%r9),%xmm0
	movdqa	%xmm0,%xmm1
	psrlw	$8,%xmm1
	psllw	$8,%xmm0
	por	%xmm1,%xmm0
	movq	20(%rcx,%r9),%xmm1
	movdqa	%xmm1,%xmm2
	psrlw	$8,%xmm2
	psllw	$8,%xmm1
	por	%xmm2,%xmm1
	movb	$1,%al
3:
	shrb	$4,%dl
	andb	$3,%dl
	movzbl	2(%rcx,%r9),%ebx
	movzwl	(%rcx,%r9),%ecx
	movdqu	%xmm0,(%r8)
	movq	%xmm1,16(%r8)
	movw	%cx,24(%r8)
	movb	%bl,26(%r8)
	movb	%dl,27(%r8)
	movb	%r11b,28(%r8)
	movb	%r10b,29(%r8)
	movb	%al,30(%r8)
	movb	$0,31(%r8)
	xorl	%eax,%eax
2:
	popq	%rbx
	retq
	.seh_endproc

	.def	rtpw_read_frame_marking;
	.scl	2;
	.type	32;
	.endef
	.section	.text$rtpw_read_frame_marking,"xr"
	.globl	rtpw_read_frame_marking
	.p2align	4
rtpw_read_frame_marking:
.seh_proc rtpw_read_frame_marking
	pushq	%r15
	.seh_pushreg %r15
	pushq	%r14
	.seh_pushreg %r14
	pushq	%r13
	.seh_pushreg %r13
	pushq	%r12
	.seh_pushreg %r12
	pushq	%rsi
	.seh_pushreg %rsi
	pushq	%rdi
	.seh_pushreg %rdi
	pushq	%rbp
	.seh_pushreg %rbp
	pushq	%rbx
	.seh_pushreg %rbx
	subq	$16,%rsp
	.seh_stackalloc 16
	.seh_endprologue
	xorl	%r10d,%r10d
	testq	%rcx,%rcx
	sete	%r9b
	movl	$9,%eax
	testq	%rdx,%rdx
	je	1f
	movb	%r9b,%r10b
	shll	$12,%r10d
	cmpq	$1,%rdx
	jne	2f
	movzbl	(%rcx,%r10),%edx
	xorl	%ecx,%ecx
	xorl	%r11d,%r11d
	movl	$0,12(%rsp)
	movl	$0,8(%rsp)
	movl	$0,4(%rsp)
	xorl	%edi,%edi
	jmp	3f
2:
	cmpq	$2,%rdx
	ja	2f
	movzbl	(%rcx,%r10),%edx
	movzbl	1(%rcx,%r10),%eax
	movl	%eax,12(%rsp)
	movl	%edx,%ecx
	shrb	$3,%cl
	andb	$1,%cl
	movl	%edx,%r11d
	andb	$7,%r11b
	movb	$1,%dil
	movl	$0,8(%rsp)
	movl	$0,4(%rsp)
	jmp	3f
2:
	cmpq	$3,%rdx
	jne	1f
	movzbl	(%rcx,%r10),%edx
	movzbl	1(%rcx,%r10),%eax
	movl	%eax,12(%rsp)
	movzbl	2(%rcx,%r10),%eax
	movl	%eax,8(%rsp)
	movl	%edx,%ecx
	shrb	$3,%cl
	andb	$1,%cl
	movl	%edx,%r11d
	andb	$7,%r11b
	movb	$1,%al
	movl	%eax,4(%rsp)
	movb	$1,%dil
3:
	movl	%edx,%ebx
	shrb	$7,%bl
	movl	%edx,%ebp
	shrb	$6,%bpl
	andb	$1,%bpl
	movl	%edx,%r14d
	shrb	$5,%r14b
	andb	$1,%r14b
	shrb	$4,%dl
	andb	$1,%dl
	xorl	%eax,%eax
	movl	$0,%r15d
	movl	$0,%r12d
	movl	$0,%r13d
	movl	$0,%r9d
	movl	$0,%esi
	movl	$0,%r10d
	testb	%dil,%dil
	je	2f
	movb	$1,%r15b
	movl	%ecx,%r12d
	movl	%r11d,%r13d
	movl	12(%rsp),%r9d
	movl	4(%rsp),%esi
	movl	8(%rsp),%r10d
2:
	movb	%bl,(%r8)
	movb	%bpl,1(%r8)
	movb	%r14b,2(%r8)
	movb	%dl,3(%r8)
	movb	%r15b,4(%r8)
	movb	%r12b,5(%r8)
	movb	%r13b,6(%r8)
	movb	%r9b,7(%r8)
	movb	%sil,8(%r8)
	movb	%r10b,9(%r8)
1:
	addq	$16,%rsp
	popq	%rbx
	popq	%rbp
	popq	%rdi
	popq	%rsi
	popq	%r12
	popq	%r13
	popq	%r14
	popq	%r15
	retq
	.seh_endproc

	.def	rtpw_read_timing;
	.scl	2;
	.type	32;
	.endef
	.section	.text$rtpw_read_timing,"xr"
	.globl	rtpw_read_timing
	.p2align	4
rtpw_read_timing:
	xorl	%r9d,%r9d
	testq	%rcx,%rcx
	sete	%r9b
	shll	$12,%r9d
	cmpq	$13,%rdx
	je	1f
	movl	$9,%eax
	cmpq	$12,%rdx
	jne	2f
	movq	(%rcx,%r9),%xmm0
	movdqa	%xmm0,%xmm1
	psrlw	$8,%xmm1
	psllw	$8,%xmm0
	por	%xmm1,%xmm0
	movzwl	8(%rcx,%r9),%edx
	movzwl	10(%rcx,%r9),%ecx
	rolw	$8,%dx
	rolw	$8,%cx
	xorl	%eax,%eax
	xorl	%r9d,%r9d
	jmp	3f
1:
	movzbl	(%rcx,%r9),%eax
	movq	1(%rcx,%r9),%xmm0
	movdqa	%xmm0,%xmm1
	psrlw	$8,%xmm1
	psllw	$8,%xmm0
	por	%xmm1,%xmm0
	movzwl	9(%rcx,%r9),%edx
	rolw	$8,%dx
	movzwl	11(%rcx,%r9),%ecx
	rolw	$8,%cx
	movb	$1,%r9b
3:
	movq	%xmm0,(%r8)
	movw	%dx,8(%r8)
	movw	%cx,10(%r8)
	movb	%al,12(%r8)
	movb	%r9b,13(%r8)
	xorl	%eax,%eax
2:
	retq

	.def	rtpw_left_out;
	.scl	2;
	.type	32;
	.endef
	.section	.rdata,"dr"
	.p2align	4,0x0
1:
	.zero	16,32
2:
	.zero	16,133
3:
	.zero	16,229
4:
	.zero	16,198
5:
	.zero	16,245
6:
	.zero	16,95
	.section	.text$rtpw_left_out,"xr"
	.globl	rtpw_left_out
	.p2align	4
rtpw_left_out:
.seh_proc rtpw_left_out
	pushq	%r15
	.seh_pushreg %r15
	pushq	%r14
	.seh_pushreg %r14
	pushq	%r13
	.seh_pushreg %r13
	pushq	%r12
	.seh_pushreg %r12
	pushq	%rsi
	.seh_pushreg %rsi
	pushq	%rdi
	.seh_pushreg %rdi
	pushq	%rbp
	.seh_pushreg %rbp
	pushq	%rbx
	.seh_pushreg %rbx
	subq	$72,%rsp
	.seh_stackalloc 72
	.seh_endprologue
	movq	%rdx,%rsi
	movq	%rcx,%rdi
	movzbl	209(%rdx),%ebx
	testb	%bl,%bl
	je	7f
	movzwl	154(%rsi),%ecx
	movl	$9,%eax
	cmpl	$179,%ecx
	jg	8f
	testl	%ecx,%ecx
	je	7f
	cmpl	$90,%ecx
	je	7f
	jmp	9f
8:
	cmpl	$270,%ecx
	je	7f
	cmpl	$180,%ecx
	jne	9f
7:
	movzbl	213(%rsi),%ebp
	testb	%bpl,%bpl
	je	7f
	cmpl	$0,120(%rsi)
	je	8f
7:
	movzbl	214(%rsi),%r14d
	testb	%r14b,%r14b
	je	7f
	cmpl	$0,136(%rsi)
	je	8f
7:
	movzbl	211(%rsi),%ecx
	testb	%cl,%cl
	je	7f
	movzbl	166(%rsi),%eax
	addb	$127,%al
	js	8f
7:
	movzbl	216(%rsi),%r15d
	testb	%r15b,%r15b
	je	7f
	movdqu	168(%rsi),%xmm0
	movdqa	1b(%rip),%xmm1
	por	%xmm0,%xmm1
	paddb	2b(%rip),%xmm1
	movdqa	3b(%rip),%xmm2
	pminub	%xmm1,%xmm2
	pcmpeqb	%xmm1,%xmm2
	movdqa	4b(%rip),%xmm1
	paddb	%xmm0,%xmm1
	movdqa	5b(%rip),%xmm3
	pminub	%xmm1,%xmm3
	pcmpeqb	%xmm1,%xmm3
	pcmpeqb	6b(%rip),%xmm0
	pand	%xmm2,%xmm3
	pandn	%xmm3,%xmm0
	pmovmskb	%xmm0,%eax
	orl	$65536,%eax
	rep		bsfl	%eax,%edx
	movl	$9,%eax
	cmpb	$0,168(%rsi,%rdx)
	jne	9f
7:
	movzbl	217(%rsi),%r12d
	testb	%r12b,%r12b
	je	1f
	cmpb	$0,185(%rsi)
	je	2f
	cmpb	$0,186(%rsi)
	je	3f
	cmpb	$0,187(%rsi)
	je	4f
	cmpb	$0,188(%rsi)
	je	5f
	cmpb	$0,189(%rsi)
	je	6f
	cmpb	$0,190(%rsi)
	je	7f
	cmpb	$0,191(%rsi)
	je	10f
	cmpb	$0,192(%rsi)
	je	11f
	movl	$9,%eax
	cmpb	$0,193(%rsi)
	jne	9f
	movl	$8,%eax
	jmp	12f
2:
	xorl	%eax,%eax
	jmp	12f
3:
	movl	$1,%eax
	jmp	12f
4:
	movl	$2,%eax
	jmp	12f
5:
	movl	$3,%eax
	jmp	12f
6:
	movl	$4,%eax
	jmp	12f
7:
	movl	$5,%eax
	jmp	12f
10:
	movl	$6,%eax
	jmp	12f
11:
	movl	$7,%eax
12:
	xorl	%edx,%edx
	.p2align	4
2:
	cmpq	%rdx,%rax
	je	1f
	movzbl	185(%rsi,%rdx),%r9d
	incq	%rdx
	cmpb	$95,%r9b
	je	2b
	leal	-48(%r9),%r10d
	cmpb	$10,%r10b
	jb	2b
	andb	$-33,%r9b
	addb	$-65,%r9b
	cmpb	$26,%r9b
	jb	2b
	jmp	8f
1:
	movzbl	218(%rsi),%eax
	movb	%al,42(%rsp)
	testb	%al,%al
	je	1f
	cmpb	$0,194(%rsi)
	je	2f
	cmpb	$0,195(%rsi)
	je	3f
	cmpb	$0,196(%rsi)
	je	4f
	cmpb	$0,197(%rsi)
	je	5f
	cmpb	$0,198(%rsi)
	je	6f
	cmpb	$0,199(%rsi)
	je	7f
	cmpb	$0,200(%rsi)
	je	10f
	cmpb	$0,201(%rsi)
	je	11f
	movl	$9,%eax
	cmpb	$0,202(%rsi)
	jne	9f
	movl	$8,%eax
	jmp	12f
2:
	xorl	%eax,%eax
	jmp	12f
3:
	movl	$1,%eax
	jmp	12f
4:
	movl	$2,%eax
	jmp	12f
5:
	movl	$3,%eax
	jmp	12f
6:
	movl	$4,%eax
	jmp	12f
7:
	movl	$5,%eax
	jmp	12f
10:
	movl	$6,%eax
	jmp	12f
11:
	movl	$7,%eax
12:
	xorl	%edx,%edx
	.p2align	4
2:
	cmpq	%rdx,%rax
	je	1f
	movzbl	194(%rsi,%rdx),%r9d
	incq	%rdx
	cmpb	$95,%r9b
	je	2b
	leal	-48(%r9),%r10d
	cmpb	$10,%r10b
	jb	2b
	andb	$-33,%r9b
	addb	$-65,%r9b
	cmpb	$26,%r9b
	jb	2b
8:
	movl	$9,%eax
9:
	addq	$72,%rsp
	popq	%rbx
	popq	%rbp
	popq	%rdi
	popq	%rsi
	popq	%r12
	popq	%r13
	popq	%r14
	popq	%r15
	retq
1:
	movl	$9,%eax
	cmpb	$0,78(%rsi)
	js	9b
	cmpb	$15,79(%rsi)
	ja	9b
	cmpb	$0,82(%rsi)
	je	1f
	movb	%r12b,57(%rsp)
	movq	%r8,64(%rsp)
	movdqu	16(%rdi),%xmm0
	movdqu	32(%rdi),%xmm1
	movdqu	48(%rdi),%xmm2
	movdqu	64(%rdi),%xmm3
	por	%xmm1,%xmm3
	movdqu	80(%rdi),%xmm1
	por	%xmm2,%xmm1
	movdqu	96(%rdi),%xmm2
	movdqu	112(%rdi),%xmm4
	movdqu	128(%rdi),%xmm5
	por	%xmm2,%xmm5
	por	%xmm3,%xmm5
	movdqu	144(%rdi),%xmm2
	por	%xmm4,%xmm2
	por	%xmm1,%xmm2
	movdqu	160(%rdi),%xmm1
	movdqu	176(%rdi),%xmm3
	movdqu	192(%rdi),%xmm4
	por	%xmm1,%xmm4
	movdqu	208(%rdi),%xmm1
	por	%xmm3,%xmm1
	movdqu	224(%rdi),%xmm3
	por	%xmm4,%xmm3
	por	%xmm5,%xmm3
	por	%xmm0,%xmm3
	movdqu	240(%rdi),%xmm4
	por	%xmm1,%xmm4
	por	%xmm2,%xmm4
	por	%xmm3,%xmm4
	pxor	%xmm0,%xmm0
	pcmpeqb	%xmm0,%xmm4
	pmovmskb	%xmm4,%eax
	xorl	$65535,%eax
	movl	$15,%edx
	jne	2f
	movdqu	(%rdi),%xmm1
	pcmpeqb	%xmm0,%xmm1
	pmovmskb	%xmm1,%eax
	xorl	$65534,%eax
	orl	$1,%eax
	bsrq	%rax,%rdx
2:
	movzbl	203(%rsi),%eax
	movzbl	204(%rsi),%r9d
	movb	%al,63(%rsp)
	testb	%al,%al
	movzbl	212(%rsi),%eax
	movzbl	206(%rsi),%r10d
	movzbl	208(%rsi),%r11d
	movzbl	210(%rsi),%r13d
	movzbl	215(%rsi),%r12d
	movzbl	207(%rsi),%r8d
	movb	%r8b,43(%rsp)
	setne	56(%rsp)
	testb	%r9b,%r9b
	setne	55(%rsp)
	movl	%eax,%r8d
	orb	%cl,%r8b
	setne	54(%rsp)
	movb	%r10b,62(%rsp)
	testb	%r10b,%r10b
	setne	53(%rsp)
	testb	%bl,%bl
	setne	52(%rsp)
	movb	%r11b,61(%rsp)
	testb	%r11b,%r11b
	setne	51(%rsp)
	movl	%r14d,%r8d
	orb	%bpl,%r8b
	setne	50(%rsp)
	movb	%r13b,60(%rsp)
	testb	%r13b,%r13b
	setne	49(%rsp)
	movb	%r12b,59(%rsp)
	testb	%r12b,%r12b
	setne	48(%rsp)
	movzbl	57(%rsp),%r12d
	testb	%r12b,%r12b
	setne	47(%rsp)
	cmpb	$0,42(%rsp)
	setne	46(%rsp)
	testb	%r15b,%r15b
	setne	45(%rsp)
	cmpb	$0,43(%rsp)
	setne	44(%rsp)
	testb	%cl,%cl
	setne	%cl
	testb	%al,%al
	setne	%al
	andb	%cl,%al
	movb	%al,58(%rsp)
	xorl	%eax,%eax
	jmp	2f
3:
	testb	%r9b,%r9b
	je	2f
	leaq	55(%rsp),%rcx
4:
	movb	$0,(%rcx)
	.p2align	4
2:
	cmpq	%rdx,%rax
	jae	5f
	movzbl	1(%rdi,%rax),%ecx
	incq	%rax
	decl	%ecx
	cmpl	$12,%ecx
	ja	2b
	leaq	6f(%rip),%r8
	movslq	(%r8,%rcx,4),%rcx
	addq	%r8,%rcx
	jmpq	*%rcx
7:
	cmpb	$0,63(%rsp)
	je	2b
	leaq	56(%rsp),%rcx
	movb	$0,(%rcx)
	jmp	2b
	.p2align	4
5:
	movl	%r9d,%r13d
	cmpq	$15,%rdx
	jb	5f
	cmpq	$254,%rax
	ja	5f
	movq	%rdi,%rcx
	movq	%rax,%rdx
	callq	rtp_c.kinds.StoredMap.past_unmapped
	movq	%rax,%rcx
	addq	$16,%rcx
	cmpq	$255,%rcx
	movl	$255,%edx
	cmovbq	%rcx,%rdx
	movl	%r13d,%r9d
	jmp	2b
8:
	testb	%r15b,%r15b
	je	2b
	leaq	45(%rsp),%rcx
	movb	$0,(%rcx)
	jmp	2b
10:
	testb	%bl,%bl
	je	2b
	movzwl	154(%rsi),%r8d
	leaq	52(%rsp),%rcx
	cmpl	$179,%r8d
	jg	11f
	testl	%r8d,%r8d
	je	4b
	cmpl	$90,%r8d
	je	4b
	jmp	2b
12:
	cmpb	$0,43(%rsp)
	je	2b
	leaq	44(%rsp),%rcx
	movb	$0,(%rcx)
	jmp	2b
13:
	testb	%r12b,%r12b
	je	2b
	leaq	47(%rsp),%rcx
	movb	$0,(%rcx)
	jmp	2b
14:
	cmpb	$0,58(%rsp)
	je	2b
	leaq	54(%rsp),%rcx
	movb	$0,(%rcx)
	jmp	2b
15:
	cmpb	$0,62(%rsp)
	je	2b
	leaq	53(%rsp),%rcx
	movb	$0,(%rcx)
	jmp	2b
16:
	cmpb	$0,60(%rsp)
	je	2b
	leaq	49(%rsp),%rcx
	movb	$0,(%rcx)
	jmp	2b
17:
	cmpb	$0,61(%rsp)
	je	2b
	leaq	51(%rsp),%rcx
	movb	$0,(%rcx)
	jmp	2b
18:
	testb	%bpl,%bpl
	je	19f
	cmpl	$0,120(%rsi)
	setne	%cl
	jmp	20f
21:
	cmpb	$0,42(%rsp)
	je	2b
	leaq	46(%rsp),%rcx
	movb	$0,(%rcx)
	jmp	2b
22:
	cmpb	$0,59(%rsp)
	je	2b
	leaq	48(%rsp),%rcx
	movb	$0,(%rcx)
	jmp	2b
19:
	xorl	%ecx,%ecx
20:
	testb	%r14b,%r14b
	je	2b
	cmpl	$0,136(%rsi)
	setne	%r8b
	testb	%r8b,%cl
	je	2b
	leaq	50(%rsp),%rcx
	movb	$0,(%rcx)
	jmp	2b
11:
	cmpl	$180,%r8d
	je	4b
	cmpl	$270,%r8d
	je	4b
	jmp	2b
5:
	movzbl	56(%rsp),%r10d
	movzbl	55(%rsp),%edx
	movzbl	54(%rsp),%r11d
	movzbl	53(%rsp),%ecx
	movzbl	52(%rsp),%ebx
	movzbl	51(%rsp),%r9d
	movzbl	50(%rsp),%edi
	movzbl	49(%rsp),%r14d
	movzbl	48(%rsp),%ebp
	movzbl	47(%rsp),%r12d
	movzbl	46(%rsp),%eax
	movb	%al,42(%rsp)
	movzbl	45(%rsp),%eax
	movb	%al,43(%rsp)
	movzbl	44(%rsp),%r15d
	movq	64(%rsp),%r8
	movl	%r13d,%eax
	movl	%r15d,%r13d
	jmp	2f
1:
	cmpb	$0,203(%rsi)
	setne	%r10b
	movzbl	204(%rsi),%eax
	testb	%al,%al
	setne	%dl
	orb	212(%rsi),%cl
	setne	%r11b
	cmpb	$0,206(%rsi)
	setne	%cl
	testb	%bl,%bl
	setne	%bl
	cmpb	$0,208(%rsi)
	setne	%r9b
	orb	%bpl,%r14b
	setne	%dil
	cmpb	$0,210(%rsi)
	setne	%r14b
	cmpb	$0,215(%rsi)
	setne	%bpl
	testb	%r12b,%r12b
	setne	%r12b
	cmpb	$0,42(%rsp)
	setne	42(%rsp)
	testb	%r15b,%r15b
	setne	43(%rsp)
	cmpb	$0,207(%rsi)
	setne	%r13b
2:
	testb	%al,%al
	movzbl	%dl,%edx
	movl	$1,%r15d
	cmovnel	%edx,%r15d
	cmpb	$0,205(%rsi)
	cmovel	%edx,%r15d
	xorl	%edx,%edx
	cmpb	$0,219(%rsi)
	setne	%dl
	addb	%r10b,%r10b
	shlb	$2,%r15b
	shlb	$3,%r11b
	addb	%r10b,%r11b
	shlb	$4,%cl
	shlb	$5,%bl
	addb	%cl,%bl
	addb	%r11b,%bl
	addb	%r15b,%bl
	shlb	$6,%r9b
	orb	%bl,%r9b
	shlb	$7,%dil
	orb	%r9b,%dil
	movzbl	%dil,%ecx
	movzbl	%r14b,%r9d
	shll	$8,%r9d
	movzbl	%bpl,%eax
	shll	$9,%eax
	addl	%r9d,%eax
	movzbl	%r12b,%r9d
	shll	$10,%r9d
	addl	%eax,%r9d
	orl	%ecx,%r9d
	movzbl	42(%rsp),%eax
	shll	$11,%eax
	movzbl	43(%rsp),%ecx
	shll	$12,%ecx
	orl	%eax,%ecx
	movzbl	%r13b,%eax
	shll	$13,%eax
	orl	%ecx,%eax
	shll	$15,%edx
	orl	%eax,%edx
	orl	%r9d,%edx
	movl	%edx,(%r8)
	xorl	%eax,%eax
	jmp	9b
	.section	.rdata,"dr"
	.p2align	2,0x0
6:
	.long	7b-6b
	.long	3b-6b
	.long	14b-6b
	.long	15b-6b
	.long	10b-6b
	.long	17b-6b
	.long	18b-6b
	.long	16b-6b
	.long	22b-6b
	.long	13b-6b
	.long	21b-6b
	.long	8b-6b
	.long	12b-6b
	.section	.text$rtpw_left_out,"xr"
	.seh_endproc

	.def	rtpw_left_out_layers;
	.scl	2;
	.type	32;
	.endef
	.section	.rdata,"dr"
	.p2align	4,0x0
1:
	.zero	16,32
2:
	.zero	16,133
3:
	.zero	16,229
4:
	.zero	16,198
5:
	.zero	16,245
6:
	.zero	16,95
	.section	.text$rtpw_left_out_layers,"xr"
	.globl	rtpw_left_out_layers
	.p2align	4
rtpw_left_out_layers:
.seh_proc rtpw_left_out_layers
	pushq	%r15
	.seh_pushreg %r15
	pushq	%r14
	.seh_pushreg %r14
	pushq	%r13
	.seh_pushreg %r13
	pushq	%r12
	.seh_pushreg %r12
	pushq	%rsi
	.seh_pushreg %rsi
	pushq	%rdi
	.seh_pushreg %rdi
	pushq	%rbp
	.seh_pushreg %rbp
	pushq	%rbx
	.seh_pushreg %rbx
	subq	$152,%rsp
	.seh_stackalloc 152
	.seh_endprologue
	movq	%rcx,%rsi
	pxor	%xmm0,%xmm0
	movdqa	%xmm0,128(%rsp)
	movdqa	%xmm0,112(%rsp)
	movdqa	%xmm0,96(%rsp)
	cmpb	$0,209(%rdx)
	je	7f
	movzwl	154(%rdx),%ecx
	movl	$9,%eax
	cmpl	$179,%ecx
	jg	8f
	testl	%ecx,%ecx
	je	7f
	cmpl	$90,%ecx
	je	7f
	jmp	9f
8:
	cmpl	$270,%ecx
	je	7f
	cmpl	$180,%ecx
	jne	9f
7:
	cmpb	$0,213(%rdx)
	je	7f
	cmpl	$0,120(%rdx)
	je	8f
7:
	cmpb	$0,214(%rdx)
	je	7f
	cmpl	$0,136(%rdx)
	je	8f
7:
	cmpb	$0,211(%rdx)
	je	7f
	movzbl	166(%rdx),%eax
	addb	$127,%al
	js	8f
7:
	cmpb	$0,216(%rdx)
	je	7f
	movdqu	168(%rdx),%xmm0
	movdqa	1b(%rip),%xmm1
	por	%xmm0,%xmm1
	paddb	2b(%rip),%xmm1
	movdqa	3b(%rip),%xmm2
	pminub	%xmm1,%xmm2
	pcmpeqb	%xmm1,%xmm2
	movdqa	4b(%rip),%xmm1
	paddb	%xmm0,%xmm1
	movdqa	5b(%rip),%xmm3
	pminub	%xmm1,%xmm3
	pcmpeqb	%xmm1,%xmm3
	pcmpeqb	6b(%rip),%xmm0
	pand	%xmm2,%xmm3
	pandn	%xmm3,%xmm0
	pmovmskb	%xmm0,%eax
	orl	$65536,%eax
	rep		bsfl	%eax,%ecx
	movl	$9,%eax
	cmpb	$0,168(%rdx,%rcx)
	jne	9f
7:
	cmpb	$0,217(%rdx)
	je	1f
	cmpb	$0,185(%rdx)
	je	2f
	cmpb	$0,186(%rdx)
	je	3f
	cmpb	$0,187(%rdx)
	je	4f
	cmpb	$0,188(%rdx)
	je	5f
	cmpb	$0,189(%rdx)
	je	6f
	cmpb	$0,190(%rdx)
	je	7f
	cmpb	$0,191(%rdx)
	je	10f
	cmpb	$0,192(%rdx)
	je	11f
	movl	$9,%eax
	cmpb	$0,193(%rdx)
	jne	9f
	movl	$8,%eax
	jmp	12f
2:
	xorl	%eax,%eax
	jmp	12f
3:
	movl	$1,%eax
	jmp	12f
4:
	movl	$2,%eax
	jmp	12f
5:
	movl	$3,%eax
	jmp	12f
6:
	movl	$4,%eax
	jmp	12f
7:
	movl	$5,%eax
	jmp	12f
10:
	movl	$6,%eax
	jmp	12f
11:
	movl	$7,%eax
12:
	xorl	%ecx,%ecx
	.p2align	4
2:
	cmpq	%rcx,%rax
	je	1f
	movzbl	185(%rdx,%rcx),%r10d
	incq	%rcx
	cmpb	$95,%r10b
	je	2b
	leal	-48(%r10),%r11d
	cmpb	$10,%r11b
	jb	2b
	andb	$-33,%r10b
	addb	$-65,%r10b
	cmpb	$26,%r10b
	jb	2b
	jmp	8f
1:
	cmpb	$0,218(%rdx)
	je	1f
	cmpb	$0,194(%rdx)
	je	2f
	cmpb	$0,195(%rdx)
	je	3f
	cmpb	$0,196(%rdx)
	je	4f
	cmpb	$0,197(%rdx)
	je	5f
	cmpb	$0,198(%rdx)
	je	6f
	cmpb	$0,199(%rdx)
	je	7f
	cmpb	$0,200(%rdx)
	je	10f
	cmpb	$0,201(%rdx)
	je	11f
	movl	$9,%eax
	cmpb	$0,202(%rdx)
	jne	9f
	movl	$8,%eax
	jmp	12f
2:
	xorl	%eax,%eax
	jmp	12f
3:
	movl	$1,%eax
	jmp	12f
4:
	movl	$2,%eax
	jmp	12f
5:
	movl	$3,%eax
	jmp	12f
6:
	movl	$4,%eax
	jmp	12f
7:
	movl	$5,%eax
	jmp	12f
10:
	movl	$6,%eax
	jmp	12f
11:
	movl	$7,%eax
12:
	xorl	%ecx,%ecx
	.p2align	4
2:
	cmpq	%rcx,%rax
	je	1f
	movzbl	194(%rdx,%rcx),%r10d
	incq	%rcx
	cmpb	$95,%r10b
	je	2b
	leal	-48(%r10),%r11d
	cmpb	$10,%r11b
	jb	2b
	andb	$-33,%r10b
	addb	$-65,%r10b
	cmpb	$26,%r10b
	jb	2b
8:
	movl	$9,%eax
9:
	addq	$152,%rsp
	popq	%rbx
	popq	%rbp
	popq	%rdi
	popq	%rsi
	popq	%r12
	popq	%r13
	popq	%r14
	popq	%r15
	retq
1:
	movl	$9,%eax
	cmpb	$0,78(%rdx)
	js	9b
	cmpb	$15,79(%rdx)
	ja	9b
	leaq	88(%rdx),%rax
	movzbl	82(%rdx),%ebx
	movq	%rax,88(%rsp)
	leaq	96(%rsp),%rcx
	leaq	88(%rsp),%rax
	movq	%rdx,80(%rsp)
	movq	%rax,%rdx
	movq	%r9,72(%rsp)
	callq	rtp_c.given_layers.with_given_layers.6444109e7f8c5753
	movl	$9,%eax
	movq	80(%rsp),%r8
	movq	72(%rsp),%rcx
	cmpb	$1,96(%rsp)
	jne	9b
	movq	104(%rsp),%rax
	testb	%bl,%bl
	je	1f
	movdqu	16(%rsi),%xmm0
	movdqu	32(%rsi),%xmm1
	movdqu	48(%rsi),%xmm2
	movdqu	64(%rsi),%xmm3
	por	%xmm1,%xmm3
	movdqu	80(%rsi),%xmm1
	por	%xmm2,%xmm1
	movdqu	96(%rsi),%xmm2
	movdqu	112(%rsi),%xmm4
	movdqu	128(%rsi),%xmm5
	por	%xmm2,%xmm5
	por	%xmm3,%xmm5
	movdqu	144(%rsi),%xmm2
	por	%xmm4,%xmm2
	por	%xmm1,%xmm2
	movdqu	160(%rsi),%xmm1
	movdqu	176(%rsi),%xmm3
	movdqu	192(%rsi),%xmm4
	por	%xmm1,%xmm4
	movdqu	208(%rsi),%xmm1
	por	%xmm3,%xmm1
	movdqu	224(%rsi),%xmm3
	por	%xmm4,%xmm3
	por	%xmm5,%xmm3
	por	%xmm0,%xmm3
	movdqu	240(%rsi),%xmm4
	por	%xmm1,%xmm4
	por	%xmm2,%xmm4
	por	%xmm3,%xmm4
	pxor	%xmm0,%xmm0
	pcmpeqb	%xmm0,%xmm4
	pmovmskb	%xmm4,%ecx
	xorl	$65535,%ecx
	movl	$15,%ecx
	jne	2f
	movdqu	(%rsi),%xmm1
	pcmpeqb	%xmm0,%xmm1
	pmovmskb	%xmm1,%ecx
	xorl	$65534,%ecx
	orl	$1,%ecx
	bsrq	%rcx,%rcx
2:
	movq	(%rax),%r14
	movzbl	115(%r14),%eax
	movb	%al,66(%rsp)
	movzbl	116(%r14),%r8d
	movb	%r8b,65(%rsp)
	testb	%al,%al
	movzbl	123(%r14),%edx
	movzbl	124(%r14),%eax
	movzbl	118(%r14),%r9d
	movzbl	121(%r14),%r10d
	movzbl	120(%r14),%r11d
	movzbl	125(%r14),%r15d
	movzbl	126(%r14),%ebx
	movzbl	122(%r14),%edi
	movb	%dil,47(%rsp)
	movzbl	127(%r14),%ebp
	movzbl	129(%r14),%r12d
	movzbl	130(%r14),%r13d
	movzbl	128(%r14),%edi
	movb	%dil,63(%rsp)
	movzbl	119(%r14),%edi
	movb	%dil,62(%rsp)
	setne	61(%rsp)
	testb	%r8b,%r8b
	setne	60(%rsp)
	movl	%eax,%r8d
	orb	%dl,%r8b
	setne	59(%rsp)
	movb	%r9b,71(%rsp)
	testb	%r9b,%r9b
	setne	58(%rsp)
	movb	%r10b,70(%rsp)
	testb	%r10b,%r10b
	setne	57(%rsp)
	movb	%r11b,69(%rsp)
	testb	%r11b,%r11b
	setne	56(%rsp)
	movb	%bl,67(%rsp)
	movb	%r15b,68(%rsp)
	orb	%r15b,%bl
	setne	55(%rsp)
	cmpb	$0,47(%rsp)
	setne	54(%rsp)
	testb	%bpl,%bpl
	setne	53(%rsp)
	testb	%r12b,%r12b
	setne	52(%rsp)
	movb	%r13b,64(%rsp)
	testb	%r13b,%r13b
	movzbl	63(%rsp),%r13d
	movzbl	62(%rsp),%ebx
	setne	51(%rsp)
	testb	%r13b,%r13b
	setne	50(%rsp)
	testb	%bl,%bl
	setne	49(%rsp)
	movb	$1,48(%rsp)
	testb	%dl,%dl
	setne	%dl
	testb	%al,%al
	setne	%r15b
	andb	%dl,%r15b
	xorl	%eax,%eax
	jmp	2f
3:
	leaq	48(%rsp),%rdx
	movb	$0,(%rdx)
	.p2align	4
2:
	cmpq	%rcx,%rax
	jae	4f
	movzbl	1(%rsi,%rax),%edx
	incq	%rax
	decl	%edx
	cmpl	$14,%edx
	ja	2b
	leaq	5f(%rip),%r8
	movslq	(%r8,%rdx,4),%rdx
	addq	%r8,%rdx
	jmpq	*%rdx
6:
	cmpb	$0,66(%rsp)
	je	2b
	leaq	61(%rsp),%rdx
	movb	$0,(%rdx)
	jmp	2b
	.p2align	4
4:
	cmpq	$15,%rcx
	jb	4f
	cmpq	$254,%rax
	ja	4f
	movq	%rsi,%rcx
	movq	%rax,%rdx
	callq	rtp_c.kinds.StoredMap.past_unmapped
	movq	%rax,%rdx
	addq	$16,%rdx
	cmpq	$255,%rdx
	movl	$255,%ecx
	cmovbq	%rdx,%rcx
	jmp	2b
7:
	testb	%r13b,%r13b
	je	2b
	leaq	50(%rsp),%rdx
	movb	$0,(%rdx)
	jmp	2b
8:
	cmpb	$0,70(%rsp)
	je	2b
	movzwl	66(%r14),%r8d
	leaq	57(%rsp),%rdx
	cmpl	$179,%r8d
	jg	10f
	testl	%r8d,%r8d
	je	11f
	cmpl	$90,%r8d
	je	11f
	jmp	2b
12:
	testb	%bl,%bl
	je	2b
	leaq	49(%rsp),%rdx
	movb	$0,(%rdx)
	jmp	2b
13:
	testb	%r12b,%r12b
	je	2b
	leaq	52(%rsp),%rdx
	movb	$0,(%rdx)
	jmp	2b
14:
	testb	%r15b,%r15b
	je	2b
	leaq	59(%rsp),%rdx
	movb	$0,(%rdx)
	jmp	2b
15:
	cmpb	$0,71(%rsp)
	je	2b
	leaq	58(%rsp),%rdx
	movb	$0,(%rdx)
	jmp	2b
16:
	cmpb	$0,47(%rsp)
	je	2b
	leaq	54(%rsp),%rdx
	movb	$0,(%rdx)
	jmp	2b
17:
	cmpb	$0,65(%rsp)
	je	2b
	leaq	60(%rsp),%rdx
11:
	movb	$0,(%rdx)
	jmp	2b
18:
	cmpb	$0,69(%rsp)
	je	2b
	leaq	56(%rsp),%rdx
	movb	$0,(%rdx)
	jmp	2b
19:
	cmpb	$0,68(%rsp)
	je	20f
	cmpl	$0,32(%r14)
	setne	%dl
	jmp	21f
22:
	cmpb	$0,64(%rsp)
	je	2b
	leaq	51(%rsp),%rdx
	movb	$0,(%rdx)
	jmp	2b
23:
	testb	%bpl,%bpl
	je	2b
	leaq	53(%rsp),%rdx
	movb	$0,(%rdx)
	jmp	2b
20:
	xorl	%edx,%edx
21:
	cmpb	$0,67(%rsp)
	je	2b
	cmpl	$0,48(%r14)
	setne	%r8b
	testb	%r8b,%dl
	je	2b
	leaq	55(%rsp),%rdx
	movb	$0,(%rdx)
	jmp	2b
10:
	cmpl	$180,%r8d
	je	11b
	cmpl	$270,%r8d
	je	11b
	jmp	2b
4:
	movzbl	61(%rsp),%r9d
	movzbl	60(%rsp),%edx
	movzbl	59(%rsp),%esi
	movzbl	58(%rsp),%r13d
	movzbl	57(%rsp),%ebp
	movzbl	56(%rsp),%r14d
	movzbl	55(%rsp),%r15d
	movzbl	54(%rsp),%edi
	movzbl	53(%rsp),%ebx
	movzbl	52(%rsp),%r12d
	movzbl	51(%rsp),%r10d
	movzbl	50(%rsp),%r11d
	movzbl	49(%rsp),%eax
	movb	%al,47(%rsp)
	movzbl	48(%rsp),%eax
	shll	$15,%eax
	movq	72(%rsp),%rcx
	movq	80(%rsp),%r8
	jmp	4f
1:
	movq	(%rax),%rax
	cmpb	$0,115(%rax)
	setne	%r9b
	cmpb	$0,116(%rax)
	setne	%dl
	movzbl	124(%rax),%r10d
	orb	123(%rax),%r10b
	setne	%sil
	cmpb	$0,118(%rax)
	setne	%r13b
	cmpb	$0,121(%rax)
	setne	%bpl
	cmpb	$0,120(%rax)
	movzbl	126(%rax),%r10d
	setne	%r14b
	orb	125(%rax),%r10b
	setne	%r15b
	cmpb	$0,122(%rax)
	setne	%dil
	cmpb	$0,127(%rax)
	setne	%bl
	cmpb	$0,129(%rax)
	setne	%r12b
	cmpb	$0,130(%rax)
	setne	%r10b
	cmpb	$0,128(%rax)
	setne	%r11b
	cmpb	$0,119(%rax)
	setne	47(%rsp)
	movl	$32768,%eax
4:
	cmpb	$0,205(%r8)
	je	1f
	cmpb	$0,204(%r8)
	movzbl	%dl,%r8d
	movl	$1,%edx
	cmovnel	%r8d,%edx
1:
	addb	%r9b,%r9b
	shlb	$2,%dl
	shlb	$3,%sil
	addb	%r9b,%sil
	shlb	$4,%r13b
	shlb	$5,%bpl
	addb	%r13b,%bpl
	addb	%sil,%bpl
	addb	%dl,%bpl
	shlb	$6,%r14b
	orb	%bpl,%r14b
	shlb	$7,%r15b
	orb	%r14b,%r15b
	movzbl	%r15b,%edx
	movzbl	%dil,%r8d
	shll	$8,%r8d
	movzbl	%bl,%r9d
	shll	$9,%r9d
	addl	%r8d,%r9d
	movzbl	%r12b,%r8d
	shll	$10,%r8d
	addl	%r9d,%r8d
	orl	%edx,%r8d
	movzbl	%r10b,%edx
	shll	$11,%edx
	movzbl	%r11b,%r9d
	shll	$12,%r9d
	orl	%edx,%r9d
	movzbl	47(%rsp),%edx
	shll	$13,%edx
	orl	%edx,%eax
	orl	%r9d,%eax
	orl	%r8d,%eax
	movl	%eax,(%rcx)
	xorl	%eax,%eax
	jmp	9b
	.section	.rdata,"dr"
	.p2align	2,0x0
5:
	.long	6b-5b
	.long	17b-5b
	.long	14b-5b
	.long	15b-5b
	.long	8b-5b
	.long	18b-5b
	.long	19b-5b
	.long	16b-5b
	.long	23b-5b
	.long	13b-5b
	.long	22b-5b
	.long	7b-5b
	.long	12b-5b
	.long	2b-5b
	.long	3b-5b
	.section	.text$rtpw_left_out_layers,"xr"
	.seh_endproc

	.def	rtpw_wire_len;
	.scl	2;
	.type	32;
	.endef
	.section	.rdata,"dr"
	.p2align	4,0x0
1:
	.zero	16,32
2:
	.zero	16,133
3:
	.zero	16,229
4:
	.zero	16,198
5:
	.zero	16,245
6:
	.zero	16,95
7:
	.zero	16,15
8:
	.zero	16,14
	.section	.text$rtpw_wire_len,"xr"
	.globl	rtpw_wire_len
	.p2align	4
rtpw_wire_len:
.seh_proc rtpw_wire_len
	pushq	%r14
	.seh_pushreg %r14
	pushq	%rsi
	.seh_pushreg %rsi
	pushq	%rdi
	.seh_pushreg %rdi
	pushq	%rbx
	.seh_pushreg %rbx
	subq	$88,%rsp
	.seh_stackalloc 88
	movdqa	%xmm7,64(%rsp)
	.seh_savexmm %xmm7,64
	movdqa	%xmm6,48(%rsp)
	.seh_savexmm %xmm6,48
	.seh_endprologue
	cmpb	$0,209(%rdx)
	je	9f
	movzwl	154(%rdx),%r9d
	movl	$9,%eax
	cmpl	$179,%r9d
	jg	10f
	testl	%r9d,%r9d
	je	9f
	cmpl	$90,%r9d
	je	9f
	jmp	11f
10:
	cmpl	$270,%r9d
	je	9f
	cmpl	$180,%r9d
	jne	11f
9:
	cmpb	$0,213(%rdx)
	je	9f
	cmpl	$0,120(%rdx)
	je	10f
9:
	cmpb	$0,214(%rdx)
	je	9f
	cmpl	$0,136(%rdx)
	je	10f
9:
	cmpb	$0,211(%rdx)
	je	9f
	movzbl	166(%rdx),%eax
	addb	$127,%al
	js	10f
9:
	movzbl	216(%rdx),%r9d
	testb	%r9b,%r9b
	je	9f
	movdqu	168(%rdx),%xmm0
	movdqa	1b(%rip),%xmm1
	por	%xmm0,%xmm1
	paddb	2b(%rip),%xmm1
	movdqa	3b(%rip),%xmm2
	pminub	%xmm1,%xmm2
	pcmpeqb	%xmm1,%xmm2
	movdqa	4b(%rip),%xmm1
	paddb	%xmm0,%xmm1
	movdqa	5b(%rip),%xmm3
	pminub	%xmm1,%xmm3
	pcmpeqb	%xmm1,%xmm3
	pcmpeqb	6b(%rip),%xmm0
	pand	%xmm2,%xmm3
	pandn	%xmm3,%xmm0
	pmovmskb	%xmm0,%eax
	orl	$65536,%eax
	rep		bsfl	%eax,%r10d
	movl	$9,%eax
	cmpb	$0,168(%rdx,%r10)
	jne	11f
9:
	movzbl	217(%rdx),%r10d
	testb	%r10b,%r10b
	je	1f
	cmpb	$0,185(%rdx)
	je	2f
	cmpb	$0,186(%rdx)
	je	3f
	cmpb	$0,187(%rdx)
	je	4f
	cmpb	$0,188(%rdx)
	je	5f
	cmpb	$0,189(%rdx)
	je	6f
	cmpb	$0,190(%rdx)
	je	9f
	cmpb	$0,191(%rdx)
	je	12f
	cmpb	$0,192(%rdx)
	je	13f
	movl	$9,%eax
	cmpb	$0,193(%rdx)
	jne	11f
	movl	$8,%eax
	jmp	14f
2:
	xorl	%eax,%eax
	jmp	14f
3:
	movl	$1,%eax
	jmp	14f
4:
	movl	$2,%eax
	jmp	14f
5:
	movl	$3,%eax
	jmp	14f
6:
	movl	$4,%eax
	jmp	14f
9:
	movl	$5,%eax
	jmp	14f
12:
	movl	$6,%eax
	jmp	14f
13:
	movl	$7,%eax
14:
	xorl	%r11d,%r11d
	.p2align	4
2:
	cmpq	%r11,%rax
	je	1f
	movzbl	185(%rdx,%r11),%esi
	incq	%r11
	cmpb	$95,%sil
	je	2b
	leal	-48(%rsi),%edi
	cmpb	$10,%dil
	jb	2b
	andb	$-33,%sil
	addb	$-65,%sil
	cmpb	$26,%sil
	jb	2b
	jmp	10f
1:
	movzbl	218(%rdx),%r11d
	testb	%r11b,%r11b
	je	1f
	cmpb	$0,194(%rdx)
	je	2f
	cmpb	$0,195(%rdx)
	je	3f
	cmpb	$0,196(%rdx)
	je	4f
	cmpb	$0,197(%rdx)
	je	5f
	cmpb	$0,198(%rdx)
	je	6f
	cmpb	$0,199(%rdx)
	je	9f
	cmpb	$0,200(%rdx)
	je	12f
	cmpb	$0,201(%rdx)
	je	13f
	movl	$9,%eax
	cmpb	$0,202(%rdx)
	jne	11f
	movl	$8,%eax
	jmp	14f
2:
	xorl	%eax,%eax
	jmp	14f
3:
	movl	$1,%eax
	jmp	14f
4:
	movl	$2,%eax
	jmp	14f
5:
	movl	$3,%eax
	jmp	14f
6:
	movl	$4,%eax
	jmp	14f
9:
	movl	$5,%eax
	jmp	14f
12:
	movl	$6,%eax
	jmp	14f
13:
	movl	$7,%eax
14:
	xorl	%esi,%esi
	.p2align	4
2:
	cmpq	%rsi,%rax
	je	1f
	movzbl	194(%rdx,%rsi),%edi
	incq	%rsi
	cmpb	$95,%dil
	je	2b
	leal	-48(%rdi),%ebx
	cmpb	$10,%bl
	jb	2b
	andb	$-33,%dil
	addb	$-65,%dil
	cmpb	$26,%dil
	jb	2b
10:
	movl	$9,%eax
11:
	movaps	48(%rsp),%xmm6
	movaps	64(%rsp),%xmm7
	addq	$88,%rsp
	popq	%rbx
	popq	%rdi
	popq	%rsi
	popq	%r14
	retq
1:
	movl	$9,%eax
	cmpb	$0,78(%rdx)
	js	11b
	movzbl	79(%rdx),%esi
	cmpq	$15,%rsi
	ja	11b
	leaq	88(%rdx),%rax
	cmpb	$0,82(%rdx)
	movq	%rax,40(%rsp)
	leaq	12(,%rsi,4),%rbx
	je	1f
	movdqu	16(%rcx),%xmm0
	movdqu	32(%rcx),%xmm1
	movdqu	48(%rcx),%xmm2
	movdqu	64(%rcx),%xmm3
	por	%xmm1,%xmm3
	movdqu	80(%rcx),%xmm1
	por	%xmm2,%xmm1
	movdqu	96(%rcx),%xmm2
	movdqu	112(%rcx),%xmm4
	movdqu	128(%rcx),%xmm5
	por	%xmm2,%xmm5
	por	%xmm3,%xmm5
	movdqu	144(%rcx),%xmm2
	por	%xmm4,%xmm2
	por	%xmm1,%xmm2
	movdqu	160(%rcx),%xmm1
	movdqu	176(%rcx),%xmm3
	movdqu	192(%rcx),%xmm4
	por	%xmm1,%xmm4
	movdqu	208(%rcx),%xmm1
	por	%xmm3,%xmm1
	movdqu	224(%rcx),%xmm3
	por	%xmm4,%xmm3
	por	%xmm5,%xmm3
	por	%xmm0,%xmm3
	movdqu	240(%rcx),%xmm4
	por	%xmm1,%xmm4
	por	%xmm2,%xmm4
	por	%xmm3,%xmm4
	pxor	%xmm0,%xmm0
	pcmpeqb	%xmm0,%xmm4
	pmovmskb	%xmm4,%eax
	xorl	$65535,%eax
	movl	$15,%esi
	jne	2f
	movdqu	(%rcx),%xmm1
	pcmpeqb	%xmm0,%xmm1
	pmovmskb	%xmm1,%eax
	xorl	$65534,%eax
	orl	$1,%eax
	bsrq	%rax,%rsi
2:
	testb	%r9b,%r9b
	je	2f
	cmpb	$0,168(%rdx)
	sete	%al
	jmp	3f
2:
	xorl	%eax,%eax
3:
	testb	%r10b,%r10b
	je	2f
	cmpb	$0,185(%rdx)
	sete	%r9b
	jmp	3f
2:
	xorl	%r9d,%r9d
3:
	testb	%r11b,%r11b
	je	2f
	cmpb	$0,194(%rdx)
	sete	%dl
	jmp	3f
2:
	xorl	%edx,%edx
3:
	movdqu	1(%rcx),%xmm0
	pcmpeqb	7b(%rip),%xmm0
	pmovmskb	%xmm0,%r10d
	testl	%r10d,%r10d
	je	2f
3:
	movb	$1,%r9b
	testq	%rsi,%rsi
	je	4f
5:
	leaq	40(%rsp),%rax
	movq	%rsi,%rdx
	movq	%r8,%rsi
	movq	%rax,%r8
	callq	rtp_ext.block_elements.values_len.16f98aa29e959305
	movq	%rsi,%r8
	addq	$3,%rax
	andq	$-4,%rax
	addq	$4,%rax
	jmp	6f
2:
	orb	%r9b,%al
	cmpl	$15,%esi
	jb	2f
	pcmpeqd	%xmm1,%xmm1
	movdqu	15(%rcx),%xmm3
	movdqu	31(%rcx),%xmm4
	movdqu	47(%rcx),%xmm2
	movdqu	63(%rcx),%xmm5
	paddb	%xmm1,%xmm4
	movdqa	8b(%rip),%xmm0
	movdqa	%xmm4,%xmm6
	pminub	%xmm0,%xmm6
	pcmpeqb	%xmm4,%xmm6
	paddb	%xmm1,%xmm5
	movdqa	%xmm5,%xmm4
	pminub	%xmm0,%xmm4
	pcmpeqb	%xmm5,%xmm4
	por	%xmm6,%xmm4
	movdqu	95(%rcx),%xmm5
	paddb	%xmm1,%xmm5
	movdqa	%xmm5,%xmm6
	pminub	%xmm0,%xmm6
	pcmpeqb	%xmm5,%xmm6
	movdqu	127(%rcx),%xmm7
	paddb	%xmm1,%xmm7
	movdqa	%xmm7,%xmm5
	pminub	%xmm0,%xmm5
	pcmpeqb	%xmm7,%xmm5
	por	%xmm6,%xmm5
	por	%xmm4,%xmm5
	movdqu	159(%rcx),%xmm4
	paddb	%xmm1,%xmm4
	movdqa	%xmm4,%xmm6
	pminub	%xmm0,%xmm6
	pcmpeqb	%xmm4,%xmm6
	movdqu	191(%rcx),%xmm4
	paddb	%xmm1,%xmm4
	movdqa	%xmm4,%xmm7
	pminub	%xmm0,%xmm7
	pcmpeqb	%xmm4,%xmm7
	por	%xmm6,%xmm7
	movdqu	223(%rcx),%xmm6
	paddb	%xmm1,%xmm6
	movdqa	%xmm6,%xmm4
	pminub	%xmm0,%xmm4
	pcmpeqb	%xmm6,%xmm4
	por	%xmm7,%xmm4
	por	%xmm5,%xmm4
	paddb	%xmm1,%xmm3
	movdqa	%xmm3,%xmm5
	pminub	%xmm0,%xmm5
	pcmpeqb	%xmm3,%xmm5
	paddb	%xmm1,%xmm2
	movdqa	%xmm2,%xmm3
	pminub	%xmm0,%xmm3
	pcmpeqb	%xmm2,%xmm3
	por	%xmm5,%xmm3
	movdqu	79(%rcx),%xmm2
	paddb	%xmm1,%xmm2
	movdqa	%xmm2,%xmm5
	pminub	%xmm0,%xmm5
	pcmpeqb	%xmm2,%xmm5
	movdqu	111(%rcx),%xmm6
	paddb	%xmm1,%xmm6
	movdqa	%xmm6,%xmm2
	pminub	%xmm0,%xmm2
	pcmpeqb	%xmm6,%xmm2
	por	%xmm5,%xmm2
	por	%xmm3,%xmm2
	movdqu	143(%rcx),%xmm3
	paddb	%xmm1,%xmm3
	movdqa	%xmm3,%xmm5
	pminub	%xmm0,%xmm5
	pcmpeqb	%xmm3,%xmm5
	movdqu	175(%rcx),%xmm3
	paddb	%xmm1,%xmm3
	movdqa	%xmm3,%xmm6
	pminub	%xmm0,%xmm6
	pcmpeqb	%xmm3,%xmm6
	por	%xmm5,%xmm6
	movdqu	207(%rcx),%xmm3
	paddb	%xmm1,%xmm3
	movdqa	%xmm3,%xmm5
	pminub	%xmm0,%xmm5
	pcmpeqb	%xmm3,%xmm5
	por	%xmm6,%xmm5
	por	%xmm2,%xmm5
	por	%xmm4,%xmm5
	psllw	$7,%xmm5
	pmovmskb	%xmm5,%r9d
	xorl	%r10d,%r10d
	testl	%r9d,%r9d
	setne	%r10b
	movd	%r10d,%xmm2
	movdqu	239(%rcx),%xmm3
	paddb	%xmm1,%xmm3
	pminub	%xmm3,%xmm0
	pcmpeqb	%xmm3,%xmm0
	por	%xmm2,%xmm0
	psllw	$7,%xmm0
	pmovmskb	%xmm0,%r9d
	testl	%r9d,%r9d
	setne	%r10b
	movzbl	255(%rcx),%r9d
	decb	%r9b
	cmpb	$15,%r9b
	setb	%r9b
	orb	%r10b,%r9b
	jmp	7f
2:
	xorl	%r9d,%r9d
7:
	orb	%dl,%al
	testb	%r9b,%r9b
	jne	2f
	movl	%eax,%edx
	xorb	$1,%dl
	jne	2f
	leaq	40(%rsp),%rax
	movq	%rcx,%rdi
	movq	%rsi,%rdx
	movq	%r8,%r14
	movq	%rax,%r8
	callq	rtp_ext.block_form.has_empty_data.16f98aa29e959305
	movq	%rdi,%rcx
	movq	%r14,%r8
	testb	%al,%al
	jne	3b
	jmp	7f
2:
	orb	%r9b,%al
	cmpb	$1,%al
	je	3b
7:
	xorl	%r9d,%r9d
	testq	%rsi,%rsi
	jne	5b
4:
	movl	$4,%eax
6:
	addq	%rax,%rbx
1:
	movq	%rbx,(%r8)
	xorl	%eax,%eax
	jmp	11b
	.seh_endproc

	.def	rtpw_wire_len_layers;
	.scl	2;
	.type	32;
	.endef
	.section	.rdata,"dr"
	.p2align	4,0x0
1:
	.zero	16,32
2:
	.zero	16,133
3:
	.zero	16,229
4:
	.zero	16,198
5:
	.zero	16,245
6:
	.zero	16,95
7:
	.zero	16,15
8:
	.zero	16,14
	.section	.text$rtpw_wire_len_layers,"xr"
	.globl	rtpw_wire_len_layers
	.p2align	4
rtpw_wire_len_layers:
.seh_proc rtpw_wire_len_layers
	pushq	%r14
	.seh_pushreg %r14
	pushq	%rsi
	.seh_pushreg %rsi
	pushq	%rdi
	.seh_pushreg %rdi
	pushq	%rbx
	.seh_pushreg %rbx
	subq	$184,%rsp
	.seh_stackalloc 184
	movdqa	%xmm7,160(%rsp)
	.seh_savexmm %xmm7,160
	movdqa	%xmm6,144(%rsp)
	.seh_savexmm %xmm6,144
	.seh_endprologue
	pxor	%xmm0,%xmm0
	movdqa	%xmm0,80(%rsp)
	movdqa	%xmm0,64(%rsp)
	movdqa	%xmm0,48(%rsp)
	cmpb	$0,209(%rdx)
	je	9f
	movzwl	154(%rdx),%r10d
	movl	$9,%eax
	cmpl	$179,%r10d
	jg	10f
	testl	%r10d,%r10d
	je	9f
	cmpl	$90,%r10d
	je	9f
	jmp	11f
10:
	cmpl	$270,%r10d
	je	9f
	cmpl	$180,%r10d
	jne	11f
9:
	cmpb	$0,213(%rdx)
	je	9f
	cmpl	$0,120(%rdx)
	je	10f
9:
	cmpb	$0,214(%rdx)
	je	9f
	cmpl	$0,136(%rdx)
	je	10f
9:
	cmpb	$0,211(%rdx)
	je	9f
	movzbl	166(%rdx),%eax
	addb	$127,%al
	js	10f
9:
	cmpb	$0,216(%rdx)
	je	9f
	movdqu	168(%rdx),%xmm0
	movdqa	1b(%rip),%xmm1
	por	%xmm0,%xmm1
	paddb	2b(%rip),%xmm1
	movdqa	3b(%rip),%xmm2
	pminub	%xmm1,%xmm2
	pcmpeqb	%xmm1,%xmm2
	movdqa	4b(%rip),%xmm1
	paddb	%xmm0,%xmm1
	movdqa	5b(%rip),%xmm3
	pminub	%xmm1,%xmm3
	pcmpeqb	%xmm1,%xmm3
	pcmpeqb	6b(%rip),%xmm0
	pand	%xmm2,%xmm3
	pandn	%xmm3,%xmm0
	pmovmskb	%xmm0,%eax
	orl	$65536,%eax
	rep		bsfl	%eax,%r10d
	movl	$9,%eax
	cmpb	$0,168(%rdx,%r10)
	jne	11f
9:
	cmpb	$0,217(%rdx)
	je	1f
	cmpb	$0,185(%rdx)
	je	2f
	cmpb	$0,186(%rdx)
	je	3f
	cmpb	$0,187(%rdx)
	je	4f
	cmpb	$0,188(%rdx)
	je	5f
	cmpb	$0,189(%rdx)
	je	6f
	cmpb	$0,190(%rdx)
	je	9f
	cmpb	$0,191(%rdx)
	je	12f
	cmpb	$0,192(%rdx)
	je	13f
	movl	$9,%eax
	cmpb	$0,193(%rdx)
	jne	11f
	movl	$8,%eax
	jmp	14f
2:
	xorl	%eax,%eax
	jmp	14f
3:
	movl	$1,%eax
	jmp	14f
4:
	movl	$2,%eax
	jmp	14f
5:
	movl	$3,%eax
	jmp	14f
6:
	movl	$4,%eax
	jmp	14f
9:
	movl	$5,%eax
	jmp	14f
12:
	movl	$6,%eax
	jmp	14f
13:
	movl	$7,%eax
14:
	xorl	%r10d,%r10d
	.p2align	4
2:
	cmpq	%r10,%rax
	je	1f
	movzbl	185(%rdx,%r10),%r11d
	incq	%r10
	cmpb	$95,%r11b
	je	2b
	leal	-48(%r11),%esi
	cmpb	$10,%sil
	jb	2b
	andb	$-33,%r11b
	addb	$-65,%r11b
	cmpb	$26,%r11b
	jb	2b
	jmp	10f
1:
	cmpb	$0,218(%rdx)
	je	1f
	cmpb	$0,194(%rdx)
	je	2f
	cmpb	$0,195(%rdx)
	je	3f
	cmpb	$0,196(%rdx)
	je	4f
	cmpb	$0,197(%rdx)
	je	5f
	cmpb	$0,198(%rdx)
	je	6f
	cmpb	$0,199(%rdx)
	je	9f
	cmpb	$0,200(%rdx)
	je	12f
	cmpb	$0,201(%rdx)
	je	13f
	movl	$9,%eax
	cmpb	$0,202(%rdx)
	jne	11f
	movl	$8,%eax
	jmp	14f
2:
	xorl	%eax,%eax
	jmp	14f
3:
	movl	$1,%eax
	jmp	14f
4:
	movl	$2,%eax
	jmp	14f
5:
	movl	$3,%eax
	jmp	14f
6:
	movl	$4,%eax
	jmp	14f
9:
	movl	$5,%eax
	jmp	14f
12:
	movl	$6,%eax
	jmp	14f
13:
	movl	$7,%eax
14:
	xorl	%r10d,%r10d
	.p2align	4
2:
	cmpq	%r10,%rax
	je	1f
	movzbl	194(%rdx,%r10),%r11d
	incq	%r10
	cmpb	$95,%r11b
	je	2b
	leal	-48(%r11),%esi
	cmpb	$10,%sil
	jb	2b
	andb	$-33,%r11b
	addb	$-65,%r11b
	cmpb	$26,%r11b
	jb	2b
10:
	movl	$9,%eax
11:
	movaps	144(%rsp),%xmm6
	movaps	160(%rsp),%xmm7
	addq	$184,%rsp
	popq	%rbx
	popq	%rdi
	popq	%rsi
	popq	%r14
	retq
1:
	movl	$9,%eax
	cmpb	$0,78(%rdx)
	js	11b
	cmpb	$15,79(%rdx)
	ja	11b
	leaq	88(%rdx),%rax
	movzbl	82(%rdx),%edi
	movq	%rax,40(%rsp)
	leaq	48(%rsp),%rax
	leaq	40(%rsp),%r10
	movq	%rcx,%rsi
	movq	%rax,%rcx
	movq	%rdx,%rbx
	movq	%r10,%rdx
	movq	%r9,%r14
	callq	rtp_c.given_layers.with_given_layers.6444109e7f8c5753
	movl	$9,%eax
	cmpb	$1,48(%rsp)
	jne	11b
	movq	%r14,%r8
	movq	88(%rsp),%rax
	movq	%rax,128(%rsp)
	movdqu	56(%rsp),%xmm0
	movdqu	72(%rsp),%xmm1
	movdqa	%xmm1,112(%rsp)
	movdqa	%xmm0,96(%rsp)
	movzbl	79(%rbx),%eax
	leaq	12(,%rax,4),%rbx
	testb	%dil,%dil
	je	1f
	movq	%rsi,%rcx
	movdqu	16(%rsi),%xmm0
	movdqu	32(%rsi),%xmm1
	movdqu	48(%rsi),%xmm2
	movdqu	64(%rsi),%xmm3
	por	%xmm1,%xmm3
	movdqu	80(%rsi),%xmm1
	por	%xmm2,%xmm1
	movdqu	96(%rsi),%xmm2
	movdqu	112(%rsi),%xmm4
	movdqu	128(%rsi),%xmm5
	por	%xmm2,%xmm5
	por	%xmm3,%xmm5
	movdqu	144(%rsi),%xmm2
	por	%xmm4,%xmm2
	por	%xmm1,%xmm2
	movdqu	160(%rsi),%xmm1
	movdqu	176(%rsi),%xmm3
	movdqu	192(%rsi),%xmm4
	por	%xmm1,%xmm4
	movdqu	208(%rsi),%xmm1
	por	%xmm3,%xmm1
	movdqu	224(%rsi),%xmm3
	por	%xmm4,%xmm3
	por	%xmm5,%xmm3
	por	%xmm0,%xmm3
	movdqu	240(%rsi),%xmm4
	por	%xmm1,%xmm4
	por	%xmm2,%xmm4
	por	%xmm3,%xmm4
	pxor	%xmm0,%xmm0
	pcmpeqb	%xmm0,%xmm4
	pmovmskb	%xmm4,%eax
	xorl	$65535,%eax
	movl	$15,%edx
	jne	2f
	movdqu	(%rcx),%xmm1
	pcmpeqb	%xmm0,%xmm1
	pmovmskb	%xmm1,%eax
	xorl	$65534,%eax
	orl	$1,%eax
	bsrq	%rax,%rdx
2:
	movq	96(%rsp),%rax
	movq	(%rax),%r9
	cmpb	$0,128(%r9)
	je	2f
	cmpb	$0,80(%r9)
	sete	%al
	jmp	3f
2:
	xorl	%eax,%eax
3:
	cmpb	$0,129(%r9)
	je	2f
	cmpb	$0,97(%r9)
	sete	%r10b
	jmp	3f
2:
	xorl	%r10d,%r10d
3:
	cmpb	$0,130(%r9)
	je	2f
	cmpb	$0,106(%r9)
	sete	%r9b
	jmp	3f
2:
	xorl	%r9d,%r9d
3:
	movdqu	1(%rcx),%xmm0
	pcmpeqb	7b(%rip),%xmm0
	pmovmskb	%xmm0,%r11d
	testl	%r11d,%r11d
	je	2f
3:
	movb	$1,%r9b
	testq	%rdx,%rdx
	je	4f
5:
	leaq	96(%rsp),%r8
	callq	rtp_ext.block_elements.values_len.defbc6cea7b2a850
	movq	%r14,%r8
	addq	$3,%rax
	andq	$-4,%rax
	addq	$4,%rax
	jmp	6f
2:
	orb	%r10b,%al
	cmpl	$15,%edx
	jb	2f
	pcmpeqd	%xmm1,%xmm1
	movdqu	15(%rcx),%xmm3
	movdqu	31(%rcx),%xmm4
	movdqu	47(%rcx),%xmm2
	movdqu	63(%rcx),%xmm5
	paddb	%xmm1,%xmm4
	movdqa	8b(%rip),%xmm0
	movdqa	%xmm4,%xmm6
	pminub	%xmm0,%xmm6
	pcmpeqb	%xmm4,%xmm6
	paddb	%xmm1,%xmm5
	movdqa	%xmm5,%xmm4
	pminub	%xmm0,%xmm4
	pcmpeqb	%xmm5,%xmm4
	por	%xmm6,%xmm4
	movdqu	95(%rcx),%xmm5
	paddb	%xmm1,%xmm5
	movdqa	%xmm5,%xmm6
	pminub	%xmm0,%xmm6
	pcmpeqb	%xmm5,%xmm6
	movdqu	127(%rcx),%xmm7
	paddb	%xmm1,%xmm7
	movdqa	%xmm7,%xmm5
	pminub	%xmm0,%xmm5
	pcmpeqb	%xmm7,%xmm5
	por	%xmm6,%xmm5
	por	%xmm4,%xmm5
	movdqu	159(%rcx),%xmm4
	paddb	%xmm1,%xmm4
	movdqa	%xmm4,%xmm6
	pminub	%xmm0,%xmm6
	pcmpeqb	%xmm4,%xmm6
	movdqu	191(%rcx),%xmm4
	paddb	%xmm1,%xmm4
	movdqa	%xmm4,%xmm7
	pminub	%xmm0,%xmm7
	pcmpeqb	%xmm4,%xmm7
	por	%xmm6,%xmm7
	movdqu	223(%rcx),%xmm6
	paddb	%xmm1,%xmm6
	movdqa	%xmm6,%xmm4
	pminub	%xmm0,%xmm4
	pcmpeqb	%xmm6,%xmm4
	por	%xmm7,%xmm4
	por	%xmm5,%xmm4
	paddb	%xmm1,%xmm3
	movdqa	%xmm3,%xmm5
	pminub	%xmm0,%xmm5
	pcmpeqb	%xmm3,%xmm5
	paddb	%xmm1,%xmm2
	movdqa	%xmm2,%xmm3
	pminub	%xmm0,%xmm3
	pcmpeqb	%xmm2,%xmm3
	por	%xmm5,%xmm3
	movdqu	79(%rcx),%xmm2
	paddb	%xmm1,%xmm2
	movdqa	%xmm2,%xmm5
	pminub	%xmm0,%xmm5
	pcmpeqb	%xmm2,%xmm5
	movdqu	111(%rcx),%xmm6
	paddb	%xmm1,%xmm6
	movdqa	%xmm6,%xmm2
	pminub	%xmm0,%xmm2
	pcmpeqb	%xmm6,%xmm2
	por	%xmm5,%xmm2
	por	%xmm3,%xmm2
	movdqu	143(%rcx),%xmm3
	paddb	%xmm1,%xmm3
	movdqa	%xmm3,%xmm5
	pminub	%xmm0,%xmm5
	pcmpeqb	%xmm3,%xmm5
	movdqu	175(%rcx),%xmm3
	paddb	%xmm1,%xmm3
	movdqa	%xmm3,%xmm6
	pminub	%xmm0,%xmm6
	pcmpeqb	%xmm3,%xmm6
	por	%xmm5,%xmm6
	movdqu	207(%rcx),%xmm3
	paddb	%xmm1,%xmm3
	movdqa	%xmm3,%xmm5
	pminub	%xmm0,%xmm5
	pcmpeqb	%xmm3,%xmm5
	por	%xmm6,%xmm5
	por	%xmm2,%xmm5
	por	%xmm4,%xmm5
	psllw	$7,%xmm5
	pmovmskb	%xmm5,%r10d
	xorl	%r11d,%r11d
	testl	%r10d,%r10d
	setne	%r11b
	movd	%r11d,%xmm2
	movdqu	239(%rcx),%xmm3
	paddb	%xmm1,%xmm3
	pminub	%xmm3,%xmm0
	pcmpeqb	%xmm3,%xmm0
	por	%xmm2,%xmm0
	psllw	$7,%xmm0
	pmovmskb	%xmm0,%r10d
	testl	%r10d,%r10d
	setne	%r11b
	movzbl	255(%rcx),%r10d
	decb	%r10b
	cmpb	$15,%r10b
	setb	%r10b
	orb	%r11b,%r10b
	jmp	7f
2:
	xorl	%r10d,%r10d
7:
	orb	%r9b,%al
	testb	%r10b,%r10b
	jne	2f
	movl	%eax,%r9d
	xorb	$1,%r9b
	jne	2f
	leaq	96(%rsp),%r8
	movq	%rsi,%rcx
	movq	%rdx,%rdi
	callq	rtp_ext.block_form.has_empty_data.defbc6cea7b2a850
	movq	%rdi,%rdx
	movq	%rsi,%rcx
	movq	%r14,%r8
	testb	%al,%al
	jne	3b
	jmp	7f
2:
	orb	%r10b,%al
	cmpb	$1,%al
	je	3b
7:
	xorl	%r9d,%r9d
	testq	%rdx,%rdx
	jne	5b
4:
	movl	$4,%eax
6:
	addq	%rax,%rbx
1:
	movq	%rbx,(%r8)
	xorl	%eax,%eax
	jmp	11b
	.seh_endproc

	.def	rtpw_write_layers;
	.scl	2;
	.type	32;
	.endef
	.section	.rdata,"dr"
	.p2align	4,0x0
1:
	.zero	16,32
2:
	.zero	16,133
3:
	.zero	16,229
4:
	.zero	16,198
5:
	.zero	16,245
6:
	.zero	16,95
7:
	.zero	16,15
8:
	.zero	16,14
	.section	.text$rtpw_write_layers,"xr"
	.globl	rtpw_write_layers
	.p2align	4
rtpw_write_layers:
.seh_proc rtpw_write_layers
	pushq	%r15
	.seh_pushreg %r15
	pushq	%r14
	.seh_pushreg %r14
	pushq	%r13
	.seh_pushreg %r13
	pushq	%r12
	.seh_pushreg %r12
	pushq	%rsi
	.seh_pushreg %rsi
	pushq	%rdi
	.seh_pushreg %rdi
	pushq	%rbp
	.seh_pushreg %rbp
	pushq	%rbx
	.seh_pushreg %rbx
	subq	$296,%rsp
	.seh_stackalloc 296
	movdqa	%xmm7,272(%rsp)
	.seh_savexmm %xmm7,272
	movdqa	%xmm6,256(%rsp)
	.seh_savexmm %xmm6,256
	.seh_endprologue
	xorl	%r14d,%r14d
	testq	%r9,%r9
	sete	%sil
	pxor	%xmm0,%xmm0
	movdqa	%xmm0,192(%rsp)
	movdqa	%xmm0,176(%rsp)
	movdqa	%xmm0,160(%rsp)
	cmpb	$0,209(%rdx)
	je	9f
	movzwl	154(%rdx),%r10d
	movl	$9,%eax
	cmpl	$179,%r10d
	jg	10f
	testl	%r10d,%r10d
	je	9f
	cmpl	$90,%r10d
	je	9f
	jmp	11f
10:
	cmpl	$270,%r10d
	je	9f
	cmpl	$180,%r10d
	jne	11f
9:
	cmpb	$0,213(%rdx)
	je	9f
	cmpl	$0,120(%rdx)
	je	10f
9:
	cmpb	$0,214(%rdx)
	je	9f
	cmpl	$0,136(%rdx)
	je	10f
9:
	cmpb	$0,211(%rdx)
	je	9f
	movzbl	166(%rdx),%eax
	addb	$127,%al
	js	10f
9:
	cmpb	$0,216(%rdx)
	je	9f
	movdqu	168(%rdx),%xmm0
	movdqa	1b(%rip),%xmm1
	por	%xmm0,%xmm1
	paddb	2b(%rip),%xmm1
	movdqa	3b(%rip),%xmm2
	pminub	%xmm1,%xmm2
	pcmpeqb	%xmm1,%xmm2
	movdqa	4b(%rip),%xmm1
	paddb	%xmm0,%xmm1
	movdqa	5b(%rip),%xmm3
	pminub	%xmm1,%xmm3
	pcmpeqb	%xmm1,%xmm3
	pcmpeqb	6b(%rip),%xmm0
	pand	%xmm2,%xmm3
	pandn	%xmm3,%xmm0
	pmovmskb	%xmm0,%eax
	orl	$65536,%eax
	rep		bsfl	%eax,%r10d
	movl	$9,%eax
	cmpb	$0,168(%rdx,%r10)
	jne	11f
9:
	cmpb	$0,217(%rdx)
	je	1f
	cmpb	$0,185(%rdx)
	je	2f
	cmpb	$0,186(%rdx)
	je	3f
	cmpb	$0,187(%rdx)
	je	4f
	cmpb	$0,188(%rdx)
	je	5f
	cmpb	$0,189(%rdx)
	je	6f
	cmpb	$0,190(%rdx)
	je	9f
	cmpb	$0,191(%rdx)
	je	12f
	cmpb	$0,192(%rdx)
	je	13f
	movl	$9,%eax
	cmpb	$0,193(%rdx)
	jne	11f
	movl	$8,%eax
	jmp	14f
2:
	xorl	%eax,%eax
	jmp	14f
3:
	movl	$1,%eax
	jmp	14f
4:
	movl	$2,%eax
	jmp	14f
5:
	movl	$3,%eax
	jmp	14f
6:
	movl	$4,%eax
	jmp	14f
9:
	movl	$5,%eax
	jmp	14f
12:
	movl	$6,%eax
	jmp	14f
13:
	movl	$7,%eax
14:
	xorl	%r10d,%r10d
	.p2align	4
2:
	cmpq	%r10,%rax
	je	1f
	movzbl	185(%rdx,%r10),%r11d
	incq	%r10
	cmpb	$95,%r11b
	je	2b
	leal	-48(%r11),%edi
	cmpb	$10,%dil
	jb	2b
	andb	$-33,%r11b
	addb	$-65,%r11b
	cmpb	$26,%r11b
	jb	2b
	jmp	10f
1:
	cmpb	$0,218(%rdx)
	je	1f
	cmpb	$0,194(%rdx)
	je	2f
	cmpb	$0,195(%rdx)
	je	3f
	cmpb	$0,196(%rdx)
	je	4f
	cmpb	$0,197(%rdx)
	je	5f
	cmpb	$0,198(%rdx)
	je	6f
	cmpb	$0,199(%rdx)
	je	9f
	cmpb	$0,200(%rdx)
	je	12f
	cmpb	$0,201(%rdx)
	je	13f
	movl	$9,%eax
	cmpb	$0,202(%rdx)
	jne	11f
	movl	$8,%eax
	jmp	14f
2:
	xorl	%eax,%eax
	jmp	14f
3:
	movl	$1,%eax
	jmp	14f
4:
	movl	$2,%eax
	jmp	14f
5:
	movl	$3,%eax
	jmp	14f
6:
	movl	$4,%eax
	jmp	14f
9:
	movl	$5,%eax
	jmp	14f
12:
	movl	$6,%eax
	jmp	14f
13:
	movl	$7,%eax
14:
	xorl	%r10d,%r10d
	.p2align	4
2:
	cmpq	%r10,%rax
	je	1f
	movzbl	194(%rdx,%r10),%r11d
	incq	%r10
	cmpb	$95,%r11b
	je	2b
	leal	-48(%r11),%edi
	cmpb	$10,%dil
	jb	2b
	andb	$-33,%r11b
	addb	$-65,%r11b
	cmpb	$26,%r11b
	jb	2b
10:
	movl	$9,%eax
11:
	movaps	256(%rsp),%xmm6
	movaps	272(%rsp),%xmm7
	addq	$296,%rsp
	popq	%rbx
	popq	%rbp
	popq	%rdi
	popq	%rsi
	popq	%r12
	popq	%r13
	popq	%r14
	popq	%r15
	retq
1:
	movl	$9,%eax
	cmpb	$0,78(%rdx)
	js	11b
	cmpb	$15,79(%rdx)
	ja	11b
	leaq	88(%rdx),%rax
	movzbl	82(%rdx),%r15d
	movq	%rax,152(%rsp)
	leaq	160(%rsp),%rax
	leaq	152(%rsp),%r10
	movq	%rcx,%rbx
	movq	%rax,%rcx
	movq	%rdx,%rdi
	movq	%r10,%rdx
	movq	%r9,%rbp
	callq	rtp_c.given_layers.with_given_layers.6444109e7f8c5753
	movl	$9,%eax
	cmpb	$1,160(%rsp)
	jne	11b
	movq	%rdi,%r10
	movq	200(%rsp),%rax
	movq	%rax,240(%rsp)
	movdqu	168(%rsp),%xmm0
	movdqu	184(%rsp),%xmm1
	movdqa	%xmm1,224(%rsp)
	movdqa	%xmm0,208(%rsp)
	movzbl	79(%rdi),%r13d
	cmpq	$16,%r13
	setae	%al
	movzbl	78(%rdi),%r12d
	testb	%r12b,%r12b
	sets	%dl
	orb	%al,%dl
	movl	$8,%eax
	jne	11b
	xorl	%edx,%edx
	testb	%r15b,%r15b
	setne	%dl
	leal	(,%r13,4),%r8d
	leaq	(%r8,%rdx,4),%rdx
	addq	$12,%rdx
	cmpq	%rdx,400(%rsp)
	jb	11b
	movq	%rbp,%r9
	movb	%sil,%r14b
	shll	$12,%r14d
	leaq	(%r14,%rbp),%rsi
	testb	%r15b,%r15b
	je	1f
	movq	%rbx,%rcx
	movq	%r8,56(%rsp)
	movdqu	16(%rbx),%xmm0
	movdqu	32(%rbx),%xmm1
	movdqu	48(%rbx),%xmm2
	movdqu	64(%rbx),%xmm3
	por	%xmm1,%xmm3
	movdqu	80(%rbx),%xmm1
	por	%xmm2,%xmm1
	movdqu	96(%rbx),%xmm2
	movdqu	112(%rbx),%xmm4
	movdqu	128(%rbx),%xmm5
	por	%xmm2,%xmm5
	por	%xmm3,%xmm5
	movdqu	144(%rbx),%xmm2
	por	%xmm4,%xmm2
	por	%xmm1,%xmm2
	movdqu	160(%rbx),%xmm1
	movdqu	176(%rbx),%xmm3
	movdqu	192(%rbx),%xmm4
	por	%xmm1,%xmm4
	movdqu	208(%rbx),%xmm1
	por	%xmm3,%xmm1
	movdqu	224(%rbx),%xmm3
	por	%xmm4,%xmm3
	por	%xmm5,%xmm3
	por	%xmm0,%xmm3
	movdqu	240(%rbx),%xmm4
	por	%xmm1,%xmm4
	por	%xmm2,%xmm4
	por	%xmm3,%xmm4
	pxor	%xmm0,%xmm0
	pcmpeqb	%xmm0,%xmm4
	pmovmskb	%xmm4,%edx
	xorl	$65535,%edx
	movl	$15,%edx
	jne	2f
	movdqu	(%rcx),%xmm1
	pcmpeqb	%xmm0,%xmm1
	pmovmskb	%xmm1,%edx
	xorl	$65534,%edx
	orl	$1,%edx
	bsrq	%rdx,%rdx
2:
	movq	%rdx,64(%rsp)
	movq	208(%rsp),%rdx
	movq	(%rdx),%r8
	cmpb	$0,128(%r8)
	je	2f
	cmpb	$0,80(%r8)
	sete	%dl
	jmp	3f
1:
	cmpb	$0,81(%r10)
	setne	%al
	cmpb	$0,80(%r10)
	setne	%cl
	movzwl	76(%r10),%edx
	movl	8(%r10),%r8d
	movl	12(%r10),%r11d
	shlb	$5,%al
	orb	%r13b,%al
	orb	$-128,%al
	shlb	$7,%cl
	orb	%r12b,%cl
	rolw	$8,%dx
	bswapl	%r8d
	bswapl	%r11d
	movb	%al,(%rsi)
	movb	%cl,1(%rsi)
	movw	%dx,2(%rsi)
	movl	%r8d,4(%rsi)
	movl	%r11d,8(%rsi)
	movzbl	79(%r10),%ecx
	testq	%rcx,%rcx
	je	1f
	movdqu	16(%r10),%xmm0
	movdqu	32(%r10),%xmm1
	movdqu	48(%r10),%xmm2
	movdqu	60(%r10),%xmm3
	movdqu	%xmm3,124(%rsp)
	movdqa	%xmm2,112(%rsp)
	movdqa	%xmm1,96(%rsp)
	movdqa	%xmm0,80(%rsp)
	cmpb	$8,%cl
	jae	4f
	movl	$12,%eax
	xorl	%edx,%edx
	jmp	5f
2:
	xorl	%edx,%edx
3:
	cmpb	$0,129(%r8)
	je	2f
	cmpb	$0,97(%r8)
	sete	%r11b
	jmp	3f
2:
	xorl	%r11d,%r11d
3:
	cmpb	$0,130(%r8)
	je	2f
	cmpb	$0,106(%r8)
	sete	%r8b
	jmp	3f
2:
	xorl	%r8d,%r8d
3:
	movdqu	1(%rcx),%xmm0
	pcmpeqb	7b(%rip),%xmm0
	pmovmskb	%xmm0,%r15d
	testl	%r15d,%r15d
	je	2f
3:
	movb	%r12b,55(%rsp)
	movq	400(%rsp),%r15
	subq	56(%rsp),%r15
	addq	$-12,%r15
	movzwl	246(%rsp),%r8d
	testw	%r8w,%r8w
	setne	%dl
	cmpq	$261,%r15
	setb	%r11b
	movb	$1,%r12b
	movl	%r12d,56(%rsp)
	testb	%dl,%r11b
	je	6f
	movzbl	55(%rsp),%r12d
	jmp	7f
6:
	movq	%r9,72(%rsp)
	cmpw	$17,%r8w
	movl	$16,%edx
	cmovael	%r8d,%edx
	movzwl	%dx,%r11d
	addq	$2,%r11
	movq	64(%rsp),%r9
	cmpq	$15,%r9
	movl	$255,%edx
	cmovbq	%r9,%rdx
	imulq	%r11,%rdx
	movb	$1,%r9b
	movl	%r9d,56(%rsp)
	testw	%r8w,%r8w
	movzbl	55(%rsp),%r12d
	je	6f
	cmpl	$1025,%edx
	movq	72(%rsp),%r9
	jb	9f
	movq	%rcx,80(%rsp)
	movq	$0,88(%rsp)
	movq	64(%rsp),%rax
	movq	%rax,96(%rsp)
	leaq	80(%rsp),%rcx
	callq	rtp_ext.block_elements.most_in_two_byte_form.d4d397b1ff315637
	movq	%rdi,%r10
	movq	%rbp,%r9
	movq	%rbx,%rcx
	movq	%rax,%rdx
	movl	$8,%eax
	jmp	9f
2:
	orb	%r11b,%dl
	cmpl	$15,64(%rsp)
	jb	2f
	pcmpeqd	%xmm1,%xmm1
	movdqu	15(%rcx),%xmm3
	movdqu	31(%rcx),%xmm4
	movdqu	47(%rcx),%xmm2
	movdqu	63(%rcx),%xmm5
	paddb	%xmm1,%xmm4
	movdqa	8b(%rip),%xmm0
	movdqa	%xmm4,%xmm6
	pminub	%xmm0,%xmm6
	pcmpeqb	%xmm4,%xmm6
	paddb	%xmm1,%xmm5
	movdqa	%xmm5,%xmm4
	pminub	%xmm0,%xmm4
	pcmpeqb	%xmm5,%xmm4
	por	%xmm6,%xmm4
	movdqu	95(%rcx),%xmm5
	paddb	%xmm1,%xmm5
	movdqa	%xmm5,%xmm6
	pminub	%xmm0,%xmm6
	pcmpeqb	%xmm5,%xmm6
	movdqu	127(%rcx),%xmm7
	paddb	%xmm1,%xmm7
	movdqa	%xmm7,%xmm5
	pminub	%xmm0,%xmm5
	pcmpeqb	%xmm7,%xmm5
	por	%xmm6,%xmm5
	por	%xmm4,%xmm5
	movdqu	159(%rcx),%xmm4
	paddb	%xmm1,%xmm4
	movdqa	%xmm4,%xmm6
	pminub	%xmm0,%xmm6
	pcmpeqb	%xmm4,%xmm6
	movdqu	191(%rcx),%xmm4
	paddb	%xmm1,%xmm4
	movdqa	%xmm4,%xmm7
	pminub	%xmm0,%xmm7
	pcmpeqb	%xmm4,%xmm7
	por	%xmm6,%xmm7
	movdqu	223(%rcx),%xmm6
	paddb	%xmm1,%xmm6
	movdqa	%xmm6,%xmm4
	pminub	%xmm0,%xmm4
	pcmpeqb	%xmm6,%xmm4
	por	%xmm7,%xmm4
	por	%xmm5,%xmm4
	paddb	%xmm1,%xmm3
	movdqa	%xmm3,%xmm5
	pminub	%xmm0,%xmm5
	pcmpeqb	%xmm3,%xmm5
	paddb	%xmm1,%xmm2
	movdqa	%xmm2,%xmm3
	pminub	%xmm0,%xmm3
	pcmpeqb	%xmm2,%xmm3
	por	%xmm5,%xmm3
	movdqu	79(%rcx),%xmm2
	paddb	%xmm1,%xmm2
	movdqa	%xmm2,%xmm5
	pminub	%xmm0,%xmm5
	pcmpeqb	%xmm2,%xmm5
	movdqu	111(%rcx),%xmm6
	paddb	%xmm1,%xmm6
	movdqa	%xmm6,%xmm2
	pminub	%xmm0,%xmm2
	pcmpeqb	%xmm6,%xmm2
	por	%xmm5,%xmm2
	por	%xmm3,%xmm2
	movdqu	143(%rcx),%xmm3
	paddb	%xmm1,%xmm3
	movdqa	%xmm3,%xmm5
	pminub	%xmm0,%xmm5
	pcmpeqb	%xmm3,%xmm5
	movdqu	175(%rcx),%xmm3
	paddb	%xmm1,%xmm3
	movdqa	%xmm3,%xmm6
	pminub	%xmm0,%xmm6
	pcmpeqb	%xmm3,%xmm6
	por	%xmm5,%xmm6
	movdqu	207(%rcx),%xmm3
	paddb	%xmm1,%xmm3
	movdqa	%xmm3,%xmm5
	pminub	%xmm0,%xmm5
	pcmpeqb	%xmm3,%xmm5
	por	%xmm6,%xmm5
	por	%xmm2,%xmm5
	por	%xmm4,%xmm5
	psllw	$7,%xmm5
	pmovmskb	%xmm5,%r11d
	xorl	%r15d,%r15d
	testl	%r11d,%r11d
	setne	%r15b
	movd	%r15d,%xmm2
	movdqu	239(%rcx),%xmm3
	paddb	%xmm1,%xmm3
	pminub	%xmm3,%xmm0
	pcmpeqb	%xmm3,%xmm0
	por	%xmm2,%xmm0
	psllw	$7,%xmm0
	pmovmskb	%xmm0,%r11d
	testl	%r11d,%r11d
	setne	%r15b
	movzbl	255(%rcx),%r11d
	decb	%r11b
	cmpb	$15,%r11b
	setb	%r11b
	orb	%r15b,%r11b
	jmp	8f
1:
	movl	$12,%eax
	jmp	1f
4:
	movl	%ecx,%edx
	andl	$-8,%edx
	leal	(,%rdx,4),%r8d
	leaq	12(%r8),%rax
	addq	%r14,%r9
	addq	$28,%r9
	xorl	%r10d,%r10d
4:
	movdqu	80(%rsp,%r10),%xmm0
	movdqu	96(%rsp,%r10),%xmm1
	pxor	%xmm2,%xmm2
	movdqa	%xmm0,%xmm3
	punpckhbw	%xmm2,%xmm3
	pshuflw	$27,%xmm3,%xmm3
	pshufhw	$27,%xmm3,%xmm3
	punpcklbw	%xmm2,%xmm0
	pshuflw	$27,%xmm0,%xmm0
	pshufhw	$27,%xmm0,%xmm0
	packuswb	%xmm3,%xmm0
	movdqa	%xmm1,%xmm3
	punpckhbw	%xmm2,%xmm3
	pshuflw	$27,%xmm3,%xmm3
	pshufhw	$27,%xmm3,%xmm3
	punpcklbw	%xmm2,%xmm1
	pshuflw	$27,%xmm1,%xmm1
	pshufhw	$27,%xmm1,%xmm1
	packuswb	%xmm3,%xmm1
	movdqu	%xmm0,-16(%r9,%r10)
	movdqu	%xmm1,(%r9,%r10)
	addq	$32,%r10
	cmpq	%r10,%r8
	jne	4b
	cmpl	%ecx,%edx
	je	1f
5:
	movl	80(%rsp,%rdx,4),%r8d
	bswapl	%r8d
	movl	%r8d,(%rsi,%rax)
	addq	$4,%rax
	incq	%rdx
	cmpq	%rdx,%rcx
	jne	5b
	jmp	1f
2:
	xorl	%r11d,%r11d
8:
	orb	%r8b,%dl
	testb	%r11b,%r11b
	jne	2f
	movl	%edx,%r8d
	xorb	$1,%r8b
	jne	2f
	leaq	208(%rsp),%r8
	movq	%rbx,%rcx
	movq	64(%rsp),%rdx
	callq	rtp_ext.block_form.has_empty_data.defbc6cea7b2a850
	movq	%rdi,%r10
	movq	%rbp,%r9
	movq	%rbx,%rcx
	movl	%eax,%edx
	movl	$8,%eax
	testb	%dl,%dl
	jne	3b
	jmp	4f
2:
	orb	%r11b,%dl
	cmpb	$1,%dl
	je	3b
4:
	movq	400(%rsp),%r15
	subq	56(%rsp),%r15
	addq	$-12,%r15
	movq	64(%rsp),%rdx
	movl	%edx,%r8d
	shll	$4,%r8d
	addq	%rdx,%r8
	cmpq	$15,%rdx
	movl	$4335,%edx
	cmovbq	%r8,%rdx
	movl	$0,56(%rsp)
	jmp	9f
6:
	movq	72(%rsp),%r9
9:
	addq	$7,%rdx
	cmpq	%r15,%rdx
	jbe	2f
7:
	movq	64(%rsp),%rdx
	testq	%rdx,%rdx
	je	3f
	leaq	208(%rsp),%r8
	movq	%rbx,%rcx
	movl	56(%rsp),%r9d
	callq	rtp_ext.block_elements.values_len.defbc6cea7b2a850
	movq	%rdi,%r10
	movq	%rbp,%r9
	movq	%rbx,%rcx
	movq	%rax,%rdx
	movl	$8,%eax
	addq	$3,%rdx
	andq	$-4,%rdx
	addq	$4,%rdx
	jmp	4f
3:
	movl	$4,%edx
4:
	cmpq	%r15,%rdx
	ja	11b
2:
	cmpb	$0,81(%r10)
	leaq	168(%rsp),%r8
	setne	%al
	cmpb	$0,80(%r10)
	setne	%dl
	movzwl	76(%r10),%r11d
	movl	8(%r10),%edi
	movl	12(%r10),%ebx
	shlb	$5,%al
	orb	%r13b,%al
	orb	$-112,%al
	shlb	$7,%dl
	orb	%r12b,%dl
	rolw	$8,%r11w
	bswapl	%edi
	bswapl	%ebx
	movb	%al,(%rsi)
	movb	%dl,1(%rsi)
	movw	%r11w,2(%rsi)
	movl	%edi,4(%rsi)
	movl	%ebx,8(%rsi)
	movzbl	79(%r10),%eax
	testq	%rax,%rax
	je	2f
	movdqu	16(%r10),%xmm0
	movdqu	32(%r10),%xmm1
	movdqu	48(%r10),%xmm2
	movdqu	60(%r10),%xmm3
	movdqu	%xmm3,124(%rsp)
	movdqa	%xmm2,112(%rsp)
	movdqa	%xmm1,96(%rsp)
	movdqa	%xmm0,80(%rsp)
	cmpb	$8,%al
	jae	3f
	movl	$12,%edi
	xorl	%edx,%edx
	jmp	4f
2:
	movl	$12,%edi
	jmp	2f
3:
	movl	%eax,%edx
	andl	$-8,%edx
	leal	(,%rdx,4),%r10d
	leaq	12(%r10),%rdi
	addq	%r14,%r9
	addq	$28,%r9
	xorl	%r11d,%r11d
3:
	movdqu	80(%rsp,%r11),%xmm0
	movdqu	96(%rsp,%r11),%xmm1
	pxor	%xmm2,%xmm2
	movdqa	%xmm0,%xmm3
	punpckhbw	%xmm2,%xmm3
	pshuflw	$27,%xmm3,%xmm3
	pshufhw	$27,%xmm3,%xmm3
	punpcklbw	%xmm2,%xmm0
	pshuflw	$27,%xmm0,%xmm0
	pshufhw	$27,%xmm0,%xmm0
	packuswb	%xmm3,%xmm0
	movdqa	%xmm1,%xmm3
	punpckhbw	%xmm2,%xmm3
	pshuflw	$27,%xmm3,%xmm3
	pshufhw	$27,%xmm3,%xmm3
	punpcklbw	%xmm2,%xmm1
	pshuflw	$27,%xmm1,%xmm1
	pshufhw	$27,%xmm1,%xmm1
	packuswb	%xmm3,%xmm1
	movdqu	%xmm0,-16(%r9,%r11)
	movdqu	%xmm1,(%r9,%r11)
	addq	$32,%r11
	cmpq	%r11,%r10
	jne	3b
	cmpl	%eax,%edx
	je	2f
4:
	movl	80(%rsp,%rdx,4),%r9d
	bswapl	%r9d
	movl	%r9d,(%rsi,%rdi)
	addq	$4,%rdi
	incq	%rdx
	cmpq	%rdx,%rax
	jne	4b
2:
	movq	400(%rsp),%rdx
	subq	%rdi,%rdx
	leaq	(%rsi,%rdi),%rax
	addq	$4,%rax
	addq	%rdi,%rsi
	addq	$-4,%rdx
	movq	%rdx,40(%rsp)
	movq	%rax,32(%rsp)
	movq	64(%rsp),%rdx
	movl	56(%rsp),%ebx
	movl	%ebx,%r9d
	callq	rtp_ext.block_elements.write_values.defbc6cea7b2a850
	movq	%rsi,%rcx
	movl	%ebx,%edx
	movq	%rax,%r8
	callq	rtp_wire.header.block.close_block
	addq	%rdi,%rax
1:
	movq	408(%rsp),%rcx
	movq	%rax,(%rcx)
	xorl	%eax,%eax
	jmp	11b
	.seh_endproc

	.def	rtp_proved_write_with;
	.scl	3;
	.type	32;
	.endef
	.section	.text$rtp_proved_write_with,"xr"
	.p2align	4
rtp_proved_write_with:
.seh_proc rtp_proved_write_with
	subq	$88,%rsp
	.seh_stackalloc 88
	.seh_endprologue
	movq	128(%rsp),%rax
	movaps	144(%rsp),%xmm0
	movq	136(%rsp),%r10
	xorl	%r11d,%r11d
	testq	%rdx,%rdx
	sete	%r11b
	shll	$12,%r11d
	addq	%r11,%rdx
	xorl	%r11d,%r11d
	testq	%r9,%r9
	sete	%r11b
	shll	$12,%r11d
	addq	%r11,%r9
	xorl	%r11d,%r11d
	testq	%r10,%r10
	sete	%r11b
	shll	$12,%r11d
	addq	%r10,%r11
	movups	%xmm0,64(%rsp)
	movq	%rax,32(%rsp)
	movq	%r11,56(%rsp)
	movb	$0,48(%rsp)
	movb	$0,40(%rsp)
	callq	rtp_c.writing.write_header_with
	nop
	addq	$88,%rsp
	retq
	.seh_endproc

	.def	rtp_proved_write_with_form;
	.scl	3;
	.type	32;
	.endef
	.section	.text$rtp_proved_write_with_form,"xr"
	.p2align	4
rtp_proved_write_with_form:
.seh_proc rtp_proved_write_with_form
	pushq	%rsi
	.seh_pushreg %rsi
	pushq	%rdi
	.seh_pushreg %rdi
	pushq	%rbp
	.seh_pushreg %rbp
	pushq	%rbx
	.seh_pushreg %rbx
	subq	$88,%rsp
	.seh_stackalloc 88
	.seh_endprologue
	movq	%rcx,%rax
	movzbl	168(%rsp),%ecx
	cmpb	$2,%cl
	ja	1f
	movq	%r9,%r10
	movq	192(%rsp),%rdi
	movq	184(%rsp),%rsi
	movq	176(%rsp),%r9
	movq	160(%rsp),%rbx
	xorl	%r11d,%r11d
	testq	%r9,%r9
	sete	%r11b
	shll	$12,%r11d
	addq	%r9,%r11
	xorl	%r9d,%r9d
	testq	%r10,%r10
	sete	%r9b
	shll	$12,%r9d
	addq	%r10,%r9
	xorl	%r10d,%r10d
	testq	%rdx,%rdx
	sete	%r10b
	shll	$12,%r10d
	addq	%rdx,%r10
	shlb	$3,%cl
	movl	$65792,%edx
	shrl	%cl,%edx
	movl	$65536,%ebp
	shrl	%cl,%ebp
	movq	%rdi,72(%rsp)
	movq	%rsi,64(%rsp)
	movq	%rbx,32(%rsp)
	movb	%bpl,48(%rsp)
	movb	%dl,40(%rsp)
	movq	%r11,56(%rsp)
	movq	%rax,%rcx
	movq	%r10,%rdx
	callq	rtp_c.writing.write_header_with
	jmp	2f
1:
	movl	$9,%eax
2:
	addq	$88,%rsp
	popq	%rbx
	popq	%rbp
	popq	%rdi
	popq	%rsi
	retq
	.seh_endproc

	.def	rtpw_write_headers;
	.scl	2;
	.type	32;
	.endef
	.section	.text$rtpw_write_headers,"xr"
	.globl	rtpw_write_headers
	.p2align	4
rtpw_write_headers:
.seh_proc rtpw_write_headers
	pushq	%r15
	.seh_pushreg %r15
	pushq	%r14
	.seh_pushreg %r14
	pushq	%r13
	.seh_pushreg %r13
	pushq	%r12
	.seh_pushreg %r12
	pushq	%rsi
	.seh_pushreg %rsi
	pushq	%rdi
	.seh_pushreg %rdi
	pushq	%rbp
	.seh_pushreg %rbp
	pushq	%rbx
	.seh_pushreg %rbx
	subq	$136,%rsp
	.seh_stackalloc 136
	.seh_endprologue
	movq	%rcx,%rbx
	movq	264(%rsp),%rcx
	movq	248(%rsp),%rax
	xorl	%r15d,%r15d
	testq	%rdx,%rdx
	sete	%r12b
	xorl	%r10d,%r10d
	testq	%r9,%r9
	sete	%bpl
	movq	%rax,80(%rsp)
	testq	%rax,%rax
	sete	%r11b
	testq	%rcx,%rcx
	sete	%dil
	movl	(%rbx),%r14d
	movzbl	70(%rbx),%esi
	cmpq	$17,%rsi
	setae	%al
	cmpq	%r14,%r8
	setb	%r8b
	orb	%al,%r8b
	movl	$9,%eax
	jne	1f
	movb	%dil,64(%rsp)
	movq	%rcx,72(%rsp)
	movq	%r9,96(%rsp)
	xorl	%edi,%edi
	testq	%rsi,%rsi
	je	2f
	xorl	%r8d,%r8d
	.p2align	4
3:
	movzbl	71(%rbx,%r8),%r13d
	movl	4(%rbx,%r8,4),%ecx
	addq	%r13,%rcx
	cmpq	%r14,%rcx
	ja	1f
	addq	%r13,%rdi
	incq	%r8
	cmpq	%r8,%rsi
	jne	3b
2:
	movzwl	68(%rbx),%ecx
	xorl	%r8d,%r8d
	cmpq	%rcx,%rdi
	cmoveq	%rbx,%r8
	jne	1f
	movq	%r8,112(%rsp)
	movl	$1,%eax
	cmpl	$12,%r14d
	jb	1f
	movq	%rdx,%r13
	movb	%r12b,%r15b
	shll	$12,%r15d
	addq	%r15,%r13
	movzbl	(%r13),%esi
	movl	$2,%eax
	cmpb	$-65,%sil
	jg	1f
	movl	%esi,%eax
	andl	$15,%eax
	leaq	12(,%rax,4),%r8
	movl	$3,%eax
	cmpl	%r8d,%r14d
	jb	1f
	testb	$16,%sil
	jne	2f
	movl	$9,%eax
	cmpl	%r14d,%r8d
	jne	1f
3:
	cmpq	$0,256(%rsp)
	je	4f
	movb	%bpl,%r10b
	shll	$12,%r10d
	addq	%r10,96(%rsp)
	xorl	%eax,%eax
	movb	%r11b,%al
	shll	$12,%eax
	addq	%rax,80(%rsp)
	xorl	%eax,%eax
	movzbl	64(%rsp),%ecx
	movb	%cl,%al
	shll	$12,%eax
	addq	%rax,72(%rsp)
	leal	-49(%r14),%eax
	movl	%eax,92(%rsp)
	xorl	%r15d,%r15d
	xorl	%r12d,%r12d
	movq	%r13,104(%rsp)
	jmp	5f
2:
	movq	%r14,%rsi
	subq	%r8,%rsi
	movl	$4,%eax
	cmpl	$4,%esi
	jb	1f
	addq	$-4,%rsi
	movzwl	2(%r13,%r8),%eax
	rolw	$8,%ax
	movzwl	%ax,%r15d
	shll	$2,%r15d
	movl	$6,%eax
	cmpq	%r15,%rsi
	jb	1f
	addq	%r15,%r8
	addq	$4,%r8
	movl	$9,%eax
	cmpl	%r14d,%r8d
	je	3b
	jmp	1f
2:
	leaq	(%rsi,%rcx),%rax
	movq	272(%rsp),%rcx
	movq	%rcx,56(%rsp)
	movq	72(%rsp),%rcx
	movq	%rcx,48(%rsp)
	movq	%r12,40(%rsp)
	movq	%rax,32(%rsp)
	movq	%r13,%rcx
	movq	%r14,%rdx
	movq	112(%rsp),%r8
	movq	%rbp,%r9
	callq	rtp_c.routed_headers.write_again
	cmpb	$1,%al
	jne	3f
	movq	64(%rsp),%rax
6:
	movq	128(%rsp),%r12
	movq	%r12,8(%rsi,%rax)
	movl	$0,40(%rsi,%rax)
	movl	%edx,44(%rsi,%rax)
	addq	%rdx,%r12
	incq	%r15
	xorl	%eax,%eax
	cmpq	256(%rsp),%r15
	je	1f
5:
	movq	%r15,%rax
	shlq	$4,%rax
	leaq	(%rax,%rax,2),%rcx
	movq	80(%rsp),%rsi
	cmpb	$0,31(%rsi,%rcx)
	je	7f
	cmpb	$0,26(%rsi,%rcx)
	js	8f
7:
	movq	(%rsi,%rcx),%rbp
	movl	$9,%r8d
	movq	240(%rsp),%rax
	subq	%rbp,%rax
	jb	7f
	cmpq	%rdi,%rax
	jb	7f
	addq	96(%rsp),%rbp
	cmpb	$0,38(%rsi,%rcx)
	movq	%rcx,64(%rsp)
	movq	%r12,128(%rsp)
	jne	2b
	movq	272(%rsp),%rax
	subq	%r12,%rax
	cmpq	%r14,%rax
	jb	2f
	movq	72(%rsp),%rax
	addq	%rax,%r12
	cmpl	$-34,92(%rsp)
	ja	9f
	movq	%r12,%rcx
	movq	%r13,%rdx
	movq	%r14,%r8
	callq	rtp_route.copying.put_any
	movq	64(%rsp),%rcx
	jmp	10f
9:
	movups	(%r13),%xmm0
	movups	%xmm0,(%r12)
	cmpl	$33,%r14d
	jb	9f
	movups	16(%r13),%xmm0
	movups	%xmm0,16(%r12)
9:
	movups	-16(%r13,%r14),%xmm0
	movups	%xmm0,-16(%r12,%r14)
10:
	cmpb	$0,32(%rsi,%rcx)
	je	9f
	cmpb	$0,27(%rsi,%rcx)
	setne	%al
	shlb	$7,%al
	movzbl	1(%r12),%ecx
	andb	$127,%cl
	orb	%al,%cl
	movb	%cl,1(%r12)
	movq	64(%rsp),%rcx
9:
	cmpb	$0,31(%rsi,%rcx)
	je	9f
	movzbl	1(%r12),%eax
	andb	$-128,%al
	addb	26(%rsi,%rcx),%al
	movb	%al,1(%r12)
9:
	cmpb	$0,30(%rsi,%rcx)
	je	9f
	movzwl	24(%rsi,%rcx),%eax
	rolw	$8,%ax
	movw	%ax,2(%r12)
9:
	movq	%r15,120(%rsp)
	cmpb	$0,28(%rsi,%rcx)
	je	9f
	movl	16(%rsi,%rcx),%eax
	bswapl	%eax
	movl	%eax,4(%r12)
9:
	cmpb	$0,29(%rsi,%rcx)
	je	9f
	movl	20(%rsi,%rcx),%eax
	bswapl	%eax
	movl	%eax,8(%r12)
9:
	movzbl	70(%rbx),%r13d
	testq	%r13,%r13
	je	9f
	xorl	%esi,%esi
	jmp	10f
	.p2align	4
11:
	addq	%r12,%rcx
	movq	%rbp,%rdx
	movq	%r15,%r8
	callq	rtp_route.slots.copy_long
12:
	addq	%r15,%rbp
	incq	%rsi
	cmpq	%rsi,%r13
	je	9f
10:
	movl	4(%rbx,%rsi,4),%ecx
	movzbl	71(%rbx,%rsi),%r15d
	testl	%r15d,%r15d
	je	11b
	cmpl	$1,%r15d
	jne	10f
	movzbl	(%rbp),%eax
	movb	%al,(%r12,%rcx)
	jmp	12b
	.p2align	4
10:
	cmpb	$2,%r15b
	ja	10f
	movzwl	(%rbp),%eax
	movw	%ax,(%r12,%rcx)
	jmp	12b
10:
	cmpl	$3,%r15d
	jne	10f
	movzwl	(%rbp),%eax
	movw	%ax,(%r12,%rcx)
	movzbl	2(%rbp),%eax
	movb	%al,2(%r12,%rcx)
	jmp	12b
10:
	cmpb	$4,%r15b
	ja	11b
	movl	(%rbp),%eax
	movl	%eax,(%r12,%rcx)
	jmp	12b
9:
	movq	80(%rsp),%rsi
	movq	64(%rsp),%rax
	cmpb	$0,39(%rsi,%rax)
	movq	%r14,%rdx
	movq	104(%rsp),%r13
	movq	120(%rsp),%r15
	je	6b
	andb	$-33,(%r12)
	movq	%r14,%rdx
	jmp	6b
2:
	movl	$8,%r8d
	jmp	7f
8:
	movl	$9,%r8d
7:
	addq	%rsi,%rcx
	movq	%r12,%rdx
	callq	rtp_c.routed_headers.refuse
	incq	%r15
	xorl	%eax,%eax
	cmpq	256(%rsp),%r15
	jne	5b
	jmp	1f
3:
	movl	$8,%r8d
	movq	64(%rsp),%rcx
	jmp	7b
4:
	xorl	%eax,%eax
1:
	addq	$136,%rsp
	popq	%rbx
	popq	%rbp
	popq	%rdi
	popq	%rsi
	popq	%r12
	popq	%r13
	popq	%r14
	popq	%r15
	retq
	.seh_endproc

	.def	rtpw_write;
	.scl	2;
	.type	32;
	.endef
	.section	.rdata,"dr"
	.p2align	4,0x0
1:
	.zero	16,32
2:
	.zero	16,133
3:
	.zero	16,229
4:
	.zero	16,198
5:
	.zero	16,245
6:
	.zero	16,95
	.section	.text$rtpw_write,"xr"
	.globl	rtpw_write
	.p2align	4
rtpw_write:
.seh_proc rtpw_write
	pushq	%rsi
	.seh_pushreg %rsi
	pushq	%rdi
	.seh_pushreg %rdi
	subq	$56,%rsp
	.seh_stackalloc 56
	.seh_endprologue
	movq	112(%rsp),%rax
	xorl	%r10d,%r10d
	testq	%r8,%r8
	sete	%r10b
	shll	$12,%r10d
	addq	%r8,%r10
	cmpb	$0,82(%rdx)
	je	7f
	cmpb	$0,209(%rdx)
	je	8f
	movzwl	154(%rdx),%r8d
	cmpl	$179,%r8d
	jg	9f
	testl	%r8d,%r8d
	je	8f
	cmpl	$90,%r8d
	je	8f
	jmp	10f
7:
	movq	%rdx,%rcx
	movq	%r10,%rdx
	movq	%r9,%r8
	movq	%rax,%r9
	addq	$56,%rsp
	popq	%rdi
	popq	%rsi
	jmp	rtp_c.writing_values.write_without_block
9:
	cmpl	$270,%r8d
	je	8f
	cmpl	$180,%r8d
	jne	10f
8:
	cmpb	$0,213(%rdx)
	je	7f
	cmpl	$0,120(%rdx)
	je	10f
7:
	cmpb	$0,214(%rdx)
	je	7f
	cmpl	$0,136(%rdx)
	je	10f
7:
	cmpb	$0,211(%rdx)
	je	7f
	movzbl	166(%rdx),%r8d
	addb	$127,%r8b
	js	10f
7:
	cmpb	$0,216(%rdx)
	je	7f
	movdqu	168(%rdx),%xmm0
	movdqa	1b(%rip),%xmm1
	por	%xmm0,%xmm1
	paddb	2b(%rip),%xmm1
	movdqa	3b(%rip),%xmm2
	pminub	%xmm1,%xmm2
	pcmpeqb	%xmm1,%xmm2
	movdqa	4b(%rip),%xmm1
	paddb	%xmm0,%xmm1
	movdqa	5b(%rip),%xmm3
	pminub	%xmm1,%xmm3
	pcmpeqb	%xmm1,%xmm3
	pand	%xmm2,%xmm3
	pcmpeqb	6b(%rip),%xmm0
	pandn	%xmm3,%xmm0
	pmovmskb	%xmm0,%r8d
	orl	$65536,%r8d
	rep		bsfl	%r8d,%r8d
	cmpb	$0,168(%rdx,%r8)
	jne	10f
7:
	cmpb	$0,217(%rdx)
	je	1f
	cmpb	$0,185(%rdx)
	je	2f
	cmpb	$0,186(%rdx)
	je	3f
	cmpb	$0,187(%rdx)
	je	4f
	cmpb	$0,188(%rdx)
	je	5f
	cmpb	$0,189(%rdx)
	je	6f
	cmpb	$0,190(%rdx)
	je	7f
	cmpb	$0,191(%rdx)
	je	8f
	cmpb	$0,192(%rdx)
	je	9f
	cmpb	$0,193(%rdx)
	jne	10f
	movl	$8,%r8d
	jmp	11f
2:
	xorl	%r8d,%r8d
	jmp	11f
3:
	movl	$1,%r8d
	jmp	11f
4:
	movl	$2,%r8d
	jmp	11f
5:
	movl	$3,%r8d
	jmp	11f
6:
	movl	$4,%r8d
	jmp	11f
7:
	movl	$5,%r8d
	jmp	11f
8:
	movl	$6,%r8d
	jmp	11f
9:
	movl	$7,%r8d
11:
	xorl	%r11d,%r11d
	.p2align	4
2:
	cmpq	%r11,%r8
	je	1f
	movzbl	185(%rdx,%r11),%esi
	incq	%r11
	cmpb	$95,%sil
	je	2b
	leal	-48(%rsi),%edi
	cmpb	$10,%dil
	jb	2b
	andb	$-33,%sil
	addb	$-65,%sil
	cmpb	$26,%sil
	jb	2b
	jmp	10f
1:
	cmpb	$0,218(%rdx)
	je	1f
	cmpb	$0,194(%rdx)
	je	2f
	cmpb	$0,195(%rdx)
	je	3f
	cmpb	$0,196(%rdx)
	je	4f
	cmpb	$0,197(%rdx)
	je	5f
	cmpb	$0,198(%rdx)
	je	6f
	cmpb	$0,199(%rdx)
	je	7f
	cmpb	$0,200(%rdx)
	je	8f
	cmpb	$0,201(%rdx)
	je	9f
	cmpb	$0,202(%rdx)
	jne	10f
	movl	$8,%r8d
	jmp	11f
2:
	xorl	%r8d,%r8d
	jmp	11f
3:
	movl	$1,%r8d
	jmp	11f
4:
	movl	$2,%r8d
	jmp	11f
5:
	movl	$3,%r8d
	jmp	11f
6:
	movl	$4,%r8d
	jmp	11f
7:
	movl	$5,%r8d
	jmp	11f
8:
	movl	$6,%r8d
	jmp	11f
9:
	movl	$7,%r8d
11:
	xorl	%r11d,%r11d
	.p2align	4
2:
	cmpq	%r11,%r8
	je	1f
	movzbl	194(%rdx,%r11),%esi
	incq	%r11
	cmpb	$95,%sil
	je	2b
	leal	-48(%rsi),%edi
	cmpb	$10,%dil
	jb	2b
	andb	$-33,%sil
	addb	$-65,%sil
	cmpb	$26,%sil
	jb	2b
10:
	movl	$9,%eax
	addq	$56,%rsp
	popq	%rdi
	popq	%rsi
	retq
1:
	leaq	88(%rdx),%r8
	movq	%r8,40(%rsp)
	movq	%rax,32(%rsp)
	movq	%r10,%r8
	callq	rtp_c.writing_values.write_with_block
	nop
	addq	$56,%rsp
	popq	%rdi
	popq	%rsi
	retq
	.seh_endproc

	.section	.rdata,"dr"
rtp_static.0:

	.section	.rdata,"dr"
rtp_static.2:
	.ascii	"________________________________________________0123456789_______ABCDEFGHIJKLMNOPQRSTUVWXYZ______abcdefghijklmnopqrstuvwxyz_____________________________________________________________________________________________________________________________________"

	.section	.rdata,"dr"
rtp_static.8:
	.zero	255

	.section	.rdata,"dr"
rtp_static.9:
	.ascii	"http://www.webrtc.org/experiments/rtp-hdrext/abs-send-time"

	.section	.rdata,"dr"
rtp_static.11:
	.ascii	"http://www.webrtc.org/experiments/rtp-hdrext/abs-capture-time"

	.section	.rdata,"dr"
rtp_static.13:
	.ascii	"urn:ietf:params:rtp-hdrext:ssrc-audio-level"

	.section	.rdata,"dr"
rtp_static.15:
	.ascii	"urn:ietf:params:rtp-hdrext:toffset"

	.section	.rdata,"dr"
rtp_static.17:
	.ascii	"urn:3gpp:video-orientation"

	.section	.rdata,"dr"
rtp_static.19:
	.ascii	"http://www.ietf.org/id/draft-holmer-rmcat-transport-wide-cc-extensions-01"

	.section	.rdata,"dr"
rtp_static.21:
	.ascii	"http://www.webrtc.org/experiments/rtp-hdrext/playout-delay"

	.section	.rdata,"dr"
rtp_static.23:
	.ascii	"http://www.webrtc.org/experiments/rtp-hdrext/video-content-type"

	.section	.rdata,"dr"
rtp_static.25:
	.ascii	"http://www.webrtc.org/experiments/rtp-hdrext/video-timing"

	.section	.rdata,"dr"
rtp_static.27:
	.ascii	"urn:ietf:params:rtp-hdrext:sdes:rtp-stream-id"

	.section	.rdata,"dr"
rtp_static.29:
	.ascii	"urn:ietf:params:rtp-hdrext:sdes:repaired-rtp-stream-id"

	.section	.rdata,"dr"
rtp_static.31:
	.ascii	"urn:ietf:params:rtp-hdrext:sdes:mid"

	.section	.rdata,"dr"
rtp_static.33:
	.ascii	"http://tools.ietf.org/html/draft-ietf-avtext-framemarking-07"

	.section	.rdata,"dr"
rtp_static.35:
	.ascii	"http://www.webrtc.org/experiments/rtp-hdrext/color-space"

	.section	.rdata,"dr"
rtp_static.37:
	.ascii	"http://www.webrtc.org/experiments/rtp-hdrext/video-layers-allocation00"

	.section	.rdata,"dr"
rtp_static.38:
	.ascii	"urn:ietf:params:rtp-hdrext:csrc-audio-level"

	.section	.rdata,"dr"
rtp_static.39:
	.ascii	"http://www.webrtc.org/experiments/rtp-hdrext/transport-wide-cc-02"

	.section	.rdata,"dr"
rtp_static.40:
	.ascii	"https://aomediacodec.github.io/av1-rtp-spec/#dependency-descriptor-rtp-header-extension"

	.section	.rdata,"dr"
rtp_static.41:
	.ascii	"urn:ietf:params:rtp-hdrext:ntp-64"

	.section	.rdata,"dr"
rtp_static.42:
	.ascii	"urn:ietf:params:rtp-hdrext:ntp-56"

	.section	.rdata,"dr"
	.p2align	2,0x0
rtp_switch.table.rtp_c.whole_packet.status_of_no_packet:
	.long	1
	.long	2
	.long	3
	.long	4
	.long	6

	.section	.rdata,"dr"
	.p2align	3,0x0
rtp_switch.table.rtp_ext.block_elements.most_in_two_byte_form.d4d397b1ff315637:
	.quad	18
	.quad	18
	.quad	18
	.quad	18
	.quad	18
	.quad	18
	.quad	18
	.quad	18
	.quad	18
	.quad	18
	.quad	18
	.quad	18
	.quad	18
	.quad	18
	.quad	257

	.section	.rdata,"dr"
	.p2align	3,0x0
rtp_switch.table.rtpw_uri_of_kind:
	.quad	rtp_static.9
	.quad	rtp_static.11
	.quad	rtp_static.13
	.quad	rtp_static.15
	.quad	rtp_static.17
	.quad	rtp_static.19
	.quad	rtp_static.21
	.quad	rtp_static.23
	.quad	rtp_static.25
	.quad	rtp_static.27
	.quad	rtp_static.29
	.quad	rtp_static.31
	.quad	rtp_static.33
	.quad	rtp_static.35
	.quad	rtp_static.37

	.section	.rdata,"dr"
	.p2align	3,0x0
rtp_switch.table.rtpw_uri_of_kind.247:
	.quad	58
	.quad	61
	.quad	43
	.quad	34
	.quad	26
	.quad	73
	.quad	58
	.quad	63
	.quad	57
	.quad	45
	.quad	54
	.quad	35
	.quad	60
	.quad	56
	.quad	70

	.section	.rdata,"dr"
	.p2align	3,0x0
rtp_switch.table.rtpw_uri_of_kind.248:
	.quad	43
	.quad	65
	.quad	87
	.quad	33
	.quad	33

	.section	.rdata,"dr"
	.p2align	3,0x0
rtp_switch.table.rtpw_uri_of_kind.249:
	.quad	rtp_static.38
	.quad	rtp_static.39
	.quad	rtp_static.40
	.quad	rtp_static.41
	.quad	rtp_static.42

/* What follows is of generated/apart.c, in front of the functions rtp_proved_*, and is not proved. */
	.def	rtpw_set_element;
	.scl	2;
	.type	32;
	.endef
	.section	.text$rtpw_set_element,"xr"
	.globl	rtpw_set_element
	.p2align	4
rtpw_set_element:
	movq	40(%rsp),%rax
	leaq	(%rax,%r9),%r10
	cmpq	%rcx,%r10
	jbe	rtp_proved_set_element
	leaq	(%rdx,%rcx),%r10
	cmpq	%r9,%r10
	jbe	rtp_proved_set_element
	testq	%rax,%rax
	setne	%al
	testq	%rdx,%rdx
	setne	%r10b
	testb	%al,%r10b
	je	rtp_proved_set_element
	movl	$9,%eax
	retq

	.def	rtpw_put_element;
	.scl	2;
	.type	32;
	.endef
	.section	.text$rtpw_put_element,"xr"
	.globl	rtpw_put_element
	.p2align	4
rtpw_put_element:
	movq	48(%rsp),%rax
	movq	40(%rsp),%r10
	leaq	(%rax,%r10),%r11
	cmpq	%rcx,%r11
	jbe	rtp_proved_put_element
	leaq	(%rdx,%rcx),%r11
	cmpq	%r10,%r11
	jbe	rtp_proved_put_element
	testq	%rax,%rax
	setne	%al
	testq	%rdx,%rdx
	setne	%r10b
	testb	%al,%r10b
	je	rtp_proved_put_element
	movl	$9,%eax
	retq

	.def	rtpw_add_element;
	.scl	2;
	.type	32;
	.endef
	.section	.text$rtpw_add_element,"xr"
	.globl	rtpw_add_element
	.p2align	4
rtpw_add_element:
	movq	48(%rsp),%rax
	movq	40(%rsp),%r10
	leaq	(%rax,%r10),%r11
	cmpq	%rcx,%r11
	jbe	rtp_proved_add_element
	leaq	(%rdx,%rcx),%r11
	cmpq	%r10,%r11
	jbe	rtp_proved_add_element
	testq	%rax,%rax
	setne	%al
	testq	%rdx,%rdx
	setne	%r10b
	testb	%al,%r10b
	je	rtp_proved_add_element
	movl	$9,%eax
	retq

	.def	rtpw_put_block;
	.scl	2;
	.type	32;
	.endef
	.section	.text$rtpw_put_block,"xr"
	.globl	rtpw_put_block
	.p2align	4
rtpw_put_block:
	movq	48(%rsp),%rax
	movq	40(%rsp),%r10
	leaq	(%rax,%r10),%r11
	cmpq	%rcx,%r11
	jbe	rtp_proved_put_block
	leaq	(%rdx,%rcx),%r11
	cmpq	%r10,%r11
	jbe	rtp_proved_put_block
	testq	%rax,%rax
	setne	%al
	testq	%rdx,%rdx
	setne	%r10b
	testb	%al,%r10b
	je	rtp_proved_put_block
	movl	$9,%eax
	retq

	.def	rtpw_write_with;
	.scl	2;
	.type	32;
	.endef
	.section	.text$rtpw_write_with,"xr"
	.globl	rtpw_write_with
	.p2align	4
rtpw_write_with:
	movq	48(%rsp),%r10
	leaq	(%r8,%rdx),%rax
	cmpq	%r10,%rax
	jbe	rtp_proved_write_with
	movq	56(%rsp),%rax
	addq	%rax,%r10
	cmpq	%rdx,%r10
	jbe	rtp_proved_write_with
	testq	%r8,%r8
	setne	%r10b
	testq	%rax,%rax
	setne	%al
	testb	%al,%r10b
	je	rtp_proved_write_with
	movl	$9,%eax
	retq

	.def	rtpw_write_with_form;
	.scl	2;
	.type	32;
	.endef
	.section	.text$rtpw_write_with_form,"xr"
	.globl	rtpw_write_with_form
	.p2align	4
rtpw_write_with_form:
	movq	56(%rsp),%r10
	leaq	(%r8,%rdx),%rax
	cmpq	%r10,%rax
	jbe	rtp_proved_write_with_form
	movq	64(%rsp),%rax
	addq	%rax,%r10
	cmpq	%rdx,%r10
	jbe	rtp_proved_write_with_form
	testq	%r8,%r8
	setne	%r10b
	testq	%rax,%rax
	setne	%al
	testb	%al,%r10b
	je	rtp_proved_write_with_form
	movl	$9,%eax
	retq

	.def	rtpw_write_elements;
	.scl	2;
	.type	32;
	.endef
	.section	.text$rtpw_write_elements,"xr"
	.globl	rtpw_write_elements
	.p2align	4
rtpw_write_elements:
	movq	48(%rsp),%r10
	leaq	(%rdx,%rcx),%rax
	cmpq	%r10,%rax
	jbe	rtp_proved_write_elements
	movq	56(%rsp),%rax
	addq	%rax,%r10
	cmpq	%rcx,%r10
	jbe	rtp_proved_write_elements
	testq	%rdx,%rdx
	setne	%r10b
	testq	%rax,%rax
	setne	%al
	testb	%al,%r10b
	je	rtp_proved_write_elements
	movl	$9,%eax
	retq

	.section	.debug$S,"dr"
	.p2align	2,0x0
	.long	4
	.long	241
	.long	1f-2f
2:
	.short	2f-3f
3:
	.short	4353
	.long	0
	.byte	0
	.p2align	2,0x0
2:
	.short	2f-3f
3:
	.short	4412
	.long	0
	.short	208
	.short	22
	.short	1
	.short	8
	.short	0
	.short	22018
	.short	0
	.short	0
	.short	0
	.asciz	"clang version 22.1.8"
	.p2align	2,0x0
2:
1:
	.p2align	2,0x0
