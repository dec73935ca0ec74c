/*
 * rtp_wire for Darwin on arm64: the assembly text that Rattle's compiler makes of the library for C, each function of which but those at its end is proved.
 * Made anew by: generated/make
 * kit: rattle-kit-13b logic dac8208d650f15bf
 * proved for: x86_64-unknown-linux-gnu
 * compiled for: arm64-apple-macosx11.0.0
 * sources: 9bd27186c7d38e855bb0763b0c5f497dd31cb39700025263f1556f2423a7dcad
 * text: f1abf35b145363f924f61cdf453b2ab1e8a54667804f30e9952d765d3f4a64c8
 * SPDX-License-Identifier: MIT OR Apache-2.0
 * Copyright (c) 2026 The rtp-wire developers (NOTICE)
 */
	.ifdef	.gasversion.
	.error	"this text is for Darwin on arm64: the folder generated has those for other systems"
	.end
	.endif
	.ifdef	.text
	.error	"this text is for Darwin on arm64: the folder generated has those for other systems"
	.end
	.endif
	.set	Lrtp_92408dd3_comment, 1 ; .set Lrtp_92408dd3_comment, 0
	.if	Lrtp_92408dd3_comment == 0
	.error	"this text is for Darwin on arm64: the folder generated has those for other systems"
	.end
	.endif
	.build_version macos, 11, 0 // this text is for Darwin on arm64
	.section	__TEXT,__text,regular,pure_instructions
	.p2align	2
_rtp_92408dd3_rtp_values.value.lengths.rid_len.7ba4d078ccf006bf:
	.cfi_startproc
	ldrb	w8,[x0,#129]
	cbz	w8,1f
	ldrb	w8,[x0,#97]
	cbz	w8,2f
	ldrb	w8,[x0,#98]
	cbz	w8,3f
	ldrb	w8,[x0,#99]
	cbz	w8,4f
	ldrb	w8,[x0,#100]
	cbz	w8,5f
	ldrb	w8,[x0,#101]
	cbz	w8,6f
	ldrb	w8,[x0,#102]
	cbz	w8,7f
	ldrb	w8,[x0,#103]
	cbz	w8,8f
	ldrb	w8,[x0,#104]
	cbz	w8,9f
	ldrb	w8,[x0,#105]
	cmp	w8,#0
	mov	w8,#8
	cinc	x1,x8,ne
	mov	w0,#1
	ret
1:
	mov	x1,#0
	mov	w0,#0
	ret
2:
	mov	x1,#0
	mov	w0,#1
	ret
3:
	mov	w1,#1
	mov	w0,#1
	ret
4:
	mov	w0,#1
	mov	w1,#2
	ret
5:
	mov	w0,#1
	mov	w1,#3
	ret
6:
	mov	w0,#1
	mov	w1,#4
	ret
7:
	mov	w0,#1
	mov	w1,#5
	ret
8:
	mov	w0,#1
	mov	w1,#6
	ret
9:
	mov	w0,#1
	mov	w1,#7
	ret
	.cfi_endproc

	.p2align	2
_rtp_92408dd3_rtp_values.value.lengths.repaired_rid_len.7ba4d078ccf006bf:
	.cfi_startproc
	ldrb	w8,[x0,#130]
	cbz	w8,1f
	ldrb	w8,[x0,#106]
	cbz	w8,2f
	ldrb	w8,[x0,#107]
	cbz	w8,3f
	ldrb	w8,[x0,#108]
	cbz	w8,4f
	ldrb	w8,[x0,#109]
	cbz	w8,5f
	ldrb	w8,[x0,#110]
	cbz	w8,6f
	ldrb	w8,[x0,#111]
	cbz	w8,7f
	ldrb	w8,[x0,#112]
	cbz	w8,8f
	ldrb	w8,[x0,#113]
	cbz	w8,9f
	ldrb	w8,[x0,#114]
	cmp	w8,#0
	mov	w8,#8
	cinc	x1,x8,ne
	mov	w0,#1
	ret
1:
	mov	x1,#0
	mov	w0,#0
	ret
2:
	mov	x1,#0
	mov	w0,#1
	ret
3:
	mov	w1,#1
	mov	w0,#1
	ret
4:
	mov	w0,#1
	mov	w1,#2
	ret
5:
	mov	w0,#1
	mov	w1,#3
	ret
6:
	mov	w0,#1
	mov	w1,#4
	ret
7:
	mov	w0,#1
	mov	w1,#5
	ret
8:
	mov	w0,#1
	mov	w1,#6
	ret
9:
	mov	w0,#1
	mov	w1,#7
	ret
	.cfi_endproc

	.p2align	2
_rtp_92408dd3_rtp_values.value.lengths.mid_len.7ba4d078ccf006bf:
	.cfi_startproc
	ldrb	w8,[x0,#128]
	cbz	w8,1f
	ldrb	w8,[x0,#80]
	cbz	w8,2f
	ldrb	w8,[x0,#81]
	cbz	w8,3f
	ldrb	w8,[x0,#82]
	cbz	w8,4f
	ldrb	w8,[x0,#83]
	cbz	w8,5f
	ldrb	w8,[x0,#84]
	cbz	w8,6f
	ldrb	w8,[x0,#85]
	cbz	w8,7f
	ldrb	w8,[x0,#86]
	cbz	w8,8f
	ldrb	w8,[x0,#87]
	cbz	w8,9f
	ldrb	w8,[x0,#88]
	cbz	w8,10f
	ldrb	w8,[x0,#89]
	cbz	w8,11f
	ldrb	w8,[x0,#90]
	cbz	w8,12f
	ldrb	w8,[x0,#91]
	cbz	w8,13f
	ldrb	w8,[x0,#92]
	cbz	w8,14f
	ldrb	w8,[x0,#93]
	cbz	w8,15f
	ldrb	w8,[x0,#94]
	cbz	w8,16f
	ldrb	w8,[x0,#95]
	cbz	w8,17f
	ldrb	w8,[x0,#96]
	cmp	w8,#0
	mov	w8,#16
	cinc	x1,x8,ne
	mov	w0,#1
	ret
1:
	mov	x1,#0
	mov	w0,#0
	ret
2:
	mov	x1,#0
	mov	w0,#1
	ret
3:
	mov	w1,#1
	mov	w0,#1
	ret
4:
	mov	w0,#1
	mov	w1,#2
	ret
5:
	mov	w0,#1
	mov	w1,#3
	ret
6:
	mov	w0,#1
	mov	w1,#4
	ret
7:
	mov	w0,#1
	mov	w1,#5
	ret
8:
	mov	w0,#1
	mov	w1,#6
	ret
9:
	mov	w0,#1
	mov	w1,#7
	ret
10:
	mov	w0,#1
	mov	w1,#8
	ret
11:
	mov	w0,#1
	mov	w1,#9
	ret
12:
	mov	w0,#1
	mov	w1,#10
	ret
13:
	mov	w0,#1
	mov	w1,#11
	ret
14:
	mov	w0,#1
	mov	w1,#12
	ret
15:
	mov	w0,#1
	mov	w1,#13
	ret
16:
	mov	w0,#1
	mov	w1,#14
	ret
17:
	mov	w0,#1
	mov	w1,#15
	ret
	.cfi_endproc

	.p2align	2
_rtp_92408dd3_rtp_values.value.abs_capture_time.write.7ba4d078ccf006bf:
	.cfi_startproc
	ldrb	w8,[x1,#116]
	cbz	w8,1f
	ldr	x8,[x1,#8]
	ldrb	w9,[x1,#117]
	cbz	w9,2f
	ldr	x9,[x1,#16]
	rev	x8,x8
	rev	x9,x9
	stp	x8,x9,[x0]
	mov	w0,#1
	mov	w1,#16
	ret
1:
	mov	x1,#0
	mov	w0,#0
	ret
2:
	rev	x8,x8
	str	x8,[x0]
	mov	w0,#1
	mov	w1,#8
	ret
	.cfi_endproc

	.p2align	2
_rtp_92408dd3_rtp_values.value.playout_delay.write.7ba4d078ccf006bf:
	.cfi_startproc
	ldrb	w8,[x1,#125]
	cbz	w8,1f
	ldr	w8,[x1,#32]
	cbz	w8,1f
	ldrb	w9,[x1,#126]
	cbz	w9,1f
	ldr	w9,[x1,#48]
	cbz	w9,1f
	ldr	x10,[x1,#24]
	ldr	x11,[x1,#40]
	udiv	x12,x10,x8
	msub	x10,x12,x8,x10
	mov	w13,#100
	mul	x10,x10,x13
	udiv	x8,x10,x8
	madd	w8,w12,w13,w8
	udiv	x10,x11,x9
	msub	x11,x10,x9,x11
	mul	x11,x11,x13
	udiv	x9,x11,x9
	madd	w9,w10,w13,w9
	and	w9,w9,#0xfff
	bfi	w9,w8,#12,#12
	rev	w8,w9
	lsr	w9,w8,#8
	lsr	w8,w8,#24
	strb	w8,[x0,#2]
	strh	w9,[x0]
	mov	w0,#1
	mov	w1,#3
	ret
1:
	mov	x1,#0
	mov	w0,#0
	ret
	.cfi_endproc

	.p2align	2
_rtp_92408dd3_rtp_values.value.video_timing.write.7ba4d078ccf006bf:
	.cfi_startproc
	ldrb	w8,[x1,#127]
	cbz	w8,1f
	ldrb	w8,[x1,#76]
	ldur	d0,[x1,#68]
	rev16.8b	v0,v0
	zip1.8h	v0,v0,v0
	mvni.4s	v1,#7,msl #16
	ushl.8h	v0,v0,v1
	strb	w8,[x0]
	xtn.8b	v0,v0
	stur	d0,[x0,#1]
	stur	wzr,[x0,#9]
	mov	w0,#1
	mov	w1,#13
	ret
1:
	mov	x1,#0
	mov	w0,#0
	ret
	.cfi_endproc

	.p2align	2
_rtp_92408dd3_rtp_values.value.stream_id.write.7ba4d078ccf006bf:
	.cfi_startproc
	stp	x20,x19,[sp,#-32]!
	stp	x29,x30,[sp,#16]
	.cfi_def_cfa_offset 32
	.cfi_offset w30,-8
	.cfi_offset w29,-16
	.cfi_offset w19,-24
	.cfi_offset w20,-32
	ldrb	w9,[x1,#129]
	cbz	w9,1f
	mov	x8,x1
	ldrb	w9,[x1,#97]!
	cbz	w9,2f
	ldrb	w10,[x8,#98]
	cbz	w10,3f
	ldrb	w10,[x8,#99]
	cbz	w10,4f
	ldrb	w10,[x8,#100]
	cbz	w10,5f
	ldrb	w9,[x8,#101]
	cbz	w9,6f
	ldrb	w9,[x8,#102]
	cbz	w9,7f
	ldrb	w9,[x8,#103]
	cbz	w9,8f
	ldrb	w9,[x8,#104]
	cbz	w9,9f
	ldrb	w8,[x8,#105]
	cmp	w8,#0
	mov	w8,#8
	cinc	x19,x8,ne
	b	10f
1:
	mov	x19,#0
	mov	w0,#0
	mov	x1,x19
	ldp	x29,x30,[sp,#16]
	ldp	x20,x19,[sp],#32
	ret
2:
	mov	x19,#0
1:
	mov	x2,x19
	bl	_memmove
2:
	mov	w0,#1
	mov	x1,x19
	ldp	x29,x30,[sp,#16]
	ldp	x20,x19,[sp],#32
	ret
3:
	strb	w9,[x0]
	mov	w19,#1
	mov	w0,#1
	mov	x1,x19
	ldp	x29,x30,[sp,#16]
	ldp	x20,x19,[sp],#32
	ret
4:
	strb	w9,[x0]
	ldrb	w8,[x8,#98]
	strb	w8,[x0,#1]
	mov	w0,#1
	mov	w19,#2
	mov	x1,x19
	ldp	x29,x30,[sp,#16]
	ldp	x20,x19,[sp],#32
	ret
5:
	strb	w9,[x0]
	ldrb	w9,[x8,#98]
	strb	w9,[x0,#1]
	ldrb	w8,[x8,#99]
	strb	w8,[x0,#2]
	mov	w0,#1
	mov	w19,#3
	mov	x1,x19
	ldp	x29,x30,[sp,#16]
	ldp	x20,x19,[sp],#32
	ret
6:
	mov	w19,#4
	b	10f
7:
	mov	w19,#5
	b	10f
8:
	mov	w19,#6
	b	10f
9:
	mov	w19,#7
10:
	sub	x8,x0,x1
	cmp	x8,x19
	b.hs	1b
	mov	x8,#0
1:
	ldrb	w9,[x1,x8]
	strb	w9,[x0,x8]
	add	x8,x8,#1
	cmp	x19,x8
	b.ne	1b
	b	2b
	.cfi_endproc

	.p2align	2
_rtp_92408dd3_rtp_values.value.stream_id.write_repaired.7ba4d078ccf006bf:
	.cfi_startproc
	stp	x20,x19,[sp,#-32]!
	stp	x29,x30,[sp,#16]
	.cfi_def_cfa_offset 32
	.cfi_offset w30,-8
	.cfi_offset w29,-16
	.cfi_offset w19,-24
	.cfi_offset w20,-32
	ldrb	w9,[x1,#130]
	cbz	w9,1f
	mov	x8,x1
	ldrb	w9,[x1,#106]!
	cbz	w9,2f
	ldrb	w10,[x8,#107]
	cbz	w10,3f
	ldrb	w10,[x8,#108]
	cbz	w10,4f
	ldrb	w10,[x8,#109]
	cbz	w10,5f
	ldrb	w9,[x8,#110]
	cbz	w9,6f
	ldrb	w9,[x8,#111]
	cbz	w9,7f
	ldrb	w9,[x8,#112]
	cbz	w9,8f
	ldrb	w9,[x8,#113]
	cbz	w9,9f
	ldrb	w8,[x8,#114]
	cmp	w8,#0
	mov	w8,#8
	cinc	x19,x8,ne
	b	10f
1:
	mov	x19,#0
	mov	w0,#0
	mov	x1,x19
	ldp	x29,x30,[sp,#16]
	ldp	x20,x19,[sp],#32
	ret
2:
	mov	x19,#0
1:
	mov	x2,x19
	bl	_memmove
2:
	mov	w0,#1
	mov	x1,x19
	ldp	x29,x30,[sp,#16]
	ldp	x20,x19,[sp],#32
	ret
3:
	strb	w9,[x0]
	mov	w19,#1
	mov	w0,#1
	mov	x1,x19
	ldp	x29,x30,[sp,#16]
	ldp	x20,x19,[sp],#32
	ret
4:
	strb	w9,[x0]
	ldrb	w8,[x8,#107]
	strb	w8,[x0,#1]
	mov	w0,#1
	mov	w19,#2
	mov	x1,x19
	ldp	x29,x30,[sp,#16]
	ldp	x20,x19,[sp],#32
	ret
5:
	strb	w9,[x0]
	ldrb	w9,[x8,#107]
	strb	w9,[x0,#1]
	ldrb	w8,[x8,#108]
	strb	w8,[x0,#2]
	mov	w0,#1
	mov	w19,#3
	mov	x1,x19
	ldp	x29,x30,[sp,#16]
	ldp	x20,x19,[sp],#32
	ret
6:
	mov	w19,#4
	b	10f
7:
	mov	w19,#5
	b	10f
8:
	mov	w19,#6
	b	10f
9:
	mov	w19,#7
10:
	sub	x8,x0,x1
	cmp	x8,x19
	b.hs	1b
	mov	x8,#0
1:
	ldrb	w9,[x1,x8]
	strb	w9,[x0,x8]
	add	x8,x8,#1
	cmp	x19,x8
	b.ne	1b
	b	2b
	.cfi_endproc

	.p2align	2
_rtp_92408dd3_rtp_values.value.mid.write.7ba4d078ccf006bf:
	.cfi_startproc
	stp	x20,x19,[sp,#-32]!
	stp	x29,x30,[sp,#16]
	.cfi_def_cfa_offset 32
	.cfi_offset w30,-8
	.cfi_offset w29,-16
	.cfi_offset w19,-24
	.cfi_offset w20,-32
	ldrb	w9,[x1,#128]
	cbz	w9,1f
	mov	x8,x1
	ldrb	w9,[x1,#80]!
	cbz	w9,2f
	ldrb	w10,[x8,#81]
	cbz	w10,3f
	ldrb	w10,[x8,#82]
	cbz	w10,4f
	ldrb	w10,[x8,#83]
	cbz	w10,5f
	ldrb	w9,[x8,#84]
	cbz	w9,6f
	ldrb	w9,[x8,#85]
	cbz	w9,7f
	ldrb	w9,[x8,#86]
	cbz	w9,8f
	ldrb	w9,[x8,#87]
	cbz	w9,9f
	ldrb	w9,[x8,#88]
	cbz	w9,10f
	ldrb	w9,[x8,#89]
	cbz	w9,11f
	ldrb	w9,[x8,#90]
	cbz	w9,12f
	ldrb	w9,[x8,#91]
	cbz	w9,13f
	ldrb	w9,[x8,#92]
	cbz	w9,14f
	ldrb	w9,[x8,#93]
	cbz	w9,15f
	ldrb	w9,[x8,#94]
	cbz	w9,16f
	ldrb	w9,[x8,#95]
	cbz	w9,17f
	ldrb	w9,[x8,#96]
	cmp	w9,#0
	mov	w9,#16
	cinc	x19,x9,ne
	b	18f
1:
	mov	x19,#0
	mov	w0,#0
	mov	x1,x19
	ldp	x29,x30,[sp,#16]
	ldp	x20,x19,[sp],#32
	ret
2:
	mov	x19,#0
1:
	mov	x2,x19
	bl	_memmove
2:
	mov	w0,#1
	mov	x1,x19
	ldp	x29,x30,[sp,#16]
	ldp	x20,x19,[sp],#32
	ret
3:
	strb	w9,[x0]
	mov	w19,#1
	mov	w0,#1
	mov	x1,x19
	ldp	x29,x30,[sp,#16]
	ldp	x20,x19,[sp],#32
	ret
4:
	strb	w9,[x0]
	ldrb	w8,[x8,#81]
	strb	w8,[x0,#1]
	mov	w0,#1
	mov	w19,#2
	mov	x1,x19
	ldp	x29,x30,[sp,#16]
	ldp	x20,x19,[sp],#32
	ret
5:
	strb	w9,[x0]
	ldrb	w9,[x8,#81]
	strb	w9,[x0,#1]
	ldrb	w8,[x8,#82]
	strb	w8,[x0,#2]
	mov	w0,#1
	mov	w19,#3
	mov	x1,x19
	ldp	x29,x30,[sp,#16]
	ldp	x20,x19,[sp],#32
	ret
6:
	mov	w19,#4
	b	18f
7:
	mov	w19,#5
	b	18f
8:
	mov	w19,#6
	b	18f
9:
	mov	w19,#7
	b	18f
10:
	mov	w19,#8
	b	18f
11:
	mov	w19,#9
	b	18f
12:
	mov	w19,#10
	b	18f
13:
	mov	w19,#11
	b	18f
14:
	mov	w19,#12
	b	18f
15:
	mov	w19,#13
	b	18f
16:
	mov	w19,#14
	b	18f
17:
	mov	w19,#15
18:
	sub	x9,x0,x1
	cmp	x9,x19
	b.hs	1b
	sub	x9,x0,x8
	sub	x9,x9,#80
	cmp	x9,#16
	b.hs	1f
	mov	x9,#0
	b	3f
1:
	cmp	x19,#16
	b.hs	1f
	mov	x9,#0
	b	4f
1:
	and	x10,x19,#0xc
	and	x9,x19,#0x10
	mov	x11,x0
	add	x12,x8,#80
	and	x13,x19,#0x10
1:
	ldr	q0,[x12],#16
	str	q0,[x11],#16
	subs	x13,x13,#16
	b.ne	1b
	cmp	x19,x9
	b.eq	2b
	cbz	x10,3f
4:
	mov	x11,x9
	and	x9,x19,#0x1c
	sub	x10,x11,x9
	add	x8,x11,x8
	add	x8,x8,#80
	add	x11,x0,x11
1:
	ldr	w12,[x8],#4
	str	w12,[x11],#4
	adds	x10,x10,#4
	b.ne	1b
	b	1f
3:
	ldrb	w8,[x1,x9]
	strb	w8,[x0,x9]
	add	x9,x9,#1
1:
	cmp	x19,x9
	b.ne	3b
	b	2b
	.cfi_endproc

	.p2align	2
_rtp_92408dd3_rtp_ext.elements.skip_zeros:
	.cfi_startproc
	mov	x11,x0
	mov	x10,x1
1:
	mov	x9,x10
	mov	x8,x11
	subs	x10,x10,#16
	b.lo	2f
	ldp	x12,x13,[x8]
	add	x11,x8,#16
	orr	x12,x13,x12
	cbz	x12,1b
2:
	mov	x10,#0
	add	x0,x0,x1
1:
	subs	x1,x9,x10
	b.eq	2f
	ldrb	w11,[x8,x10]
	add	x10,x10,#1
	cbz	w11,1b
	add	x8,x8,x10
	sub	x0,x8,#1
2:
	ret
	.cfi_endproc

	.p2align	2
_rtp_92408dd3_rtp_ext.survey.one_more:
	.cfi_startproc
	add	x0,x0,#1
	ret
	.cfi_endproc

	.p2align	2
_rtp_92408dd3_rtp_ext.renamed_ids.lowest_beside.d4d397b1ff315637:
	.cfi_startproc
	stp	x22,x21,[sp,#-48]!
	stp	x20,x19,[sp,#16]
	stp	x29,x30,[sp,#32]
	.cfi_def_cfa_offset 48
	.cfi_offset w30,-8
	.cfi_offset w29,-16
	.cfi_offset w19,-24
	.cfi_offset w20,-32
	.cfi_offset w21,-40
	.cfi_offset w22,-48
	mov	x19,x3
	mov	x22,x2
	mov	x21,x1
	mov	x20,x0
	mov	x8,#0
	mov	x9,x1
1:
	cmp	x8,x9
	b.hs	2f
	add	x10,x20,x8
	add	x8,x8,#1
	ldrb	w10,[x10,#1]
	sub	w10,w10,#1
	and	w10,w10,#0xff
	cmp	w10,w22,uxtb
	b.ne	1b
	b	3f
2:
	mov	w1,#0
	mov	w0,#0
	cmp	x9,#15
	b.lo	2f
	cmp	x8,#254
	b.hi	2f
	mov	x0,x20
	mov	x1,x8
	bl	_rtp_92408dd3_rtp_c.kinds.StoredMap.past_unmapped
	mov	x8,x0
	add	x9,x0,#16
	mov	w10,#255
	cmp	x9,#255
	csel	x9,x9,x10,lo
	b	1b
3:
	mov	x8,#0
1:
	cmp	x8,x21
	b.hs	3f
	add	x1,x8,#1
	add	x8,x20,x8
	ldrb	w8,[x8,#1]
	sub	w8,w8,#1
	and	w8,w8,#0xff
	cmp	w8,w19,uxtb
	mov	x8,x1
	b.ne	1b
	b	4f
3:
	mov	w1,#0
	mov	w0,#0
	cmp	x21,#15
	b.lo	2f
	cmp	x8,#254
	b.hi	2f
	mov	x0,x20
	mov	x1,x8
	bl	_rtp_92408dd3_rtp_c.kinds.StoredMap.past_unmapped
	mov	x8,x0
	add	x9,x0,#16
	mov	w10,#255
	cmp	x9,#255
	csel	x21,x9,x10,lo
	b	1b
4:
	mov	w0,#1
2:
	ldp	x29,x30,[sp,#32]
	ldp	x20,x19,[sp,#16]
	ldp	x22,x21,[sp],#48
	ret
	.cfi_endproc

	.p2align	2
_rtp_92408dd3_rtp_c.kinds.StoredMap.past_unmapped:
	.cfi_startproc
	add	x8,x0,#1
1:
	mov	x0,x1
	add	x1,x1,#16
	cmp	x1,#255
	b.hi	2f
	ldr	q0,[x8,x0]
	movi.2d	v1,#0xffffffffffffffff
	add.16b	v0,v0,v1
	movi.16b	v1,#15
	cmhi.16b	v0,v1,v0
	umaxv.16b	b0,v0
	fmov	w9,s0
	tbz	w9,#0,1b
2:
	ret
	.cfi_endproc

	.section	__TEXT,__literal8,8byte_literals
	.p2align	3,0x0
lrtp_92408dd3_CPI13_0:
	.long	100
	.long	0
	.section	__TEXT,__text,regular,pure_instructions
	.p2align	2
_rtp_92408dd3_rtp_ext.block_values.read_values.9a3a19c0cce455e9:
	.cfi_startproc
	sub	sp,sp,#160
	str	x27,[sp,#64]
	stp	x26,x25,[sp,#80]
	stp	x24,x23,[sp,#96]
	stp	x22,x21,[sp,#112]
	stp	x20,x19,[sp,#128]
	stp	x29,x30,[sp,#144]
	.cfi_def_cfa_offset 160
	.cfi_offset w30,-8
	.cfi_offset w29,-16
	.cfi_offset w19,-24
	.cfi_offset w20,-32
	.cfi_offset w21,-40
	.cfi_offset w22,-48
	.cfi_offset w23,-56
	.cfi_offset w24,-64
	.cfi_offset w25,-72
	.cfi_offset w26,-80
	.cfi_offset w27,-96
	mov	x19,x4
	mov	x21,x2
	mov	x8,x1
	mov	x20,x0
	tst	w3,#0xff
	b.eq	1f
	cbnz	x21,2f
	b	3f
1:
	cbnz	x21,1f
3:
	ldp	x29,x30,[sp,#144]
	ldp	x20,x19,[sp,#128]
	ldp	x22,x21,[sp,#112]
	ldp	x24,x23,[sp,#96]
	ldp	x26,x25,[sp,#80]
	ldr	x27,[sp,#64]
	add	sp,sp,#160
	ret
4:
	mov	x0,x22
	mov	x1,x23
	mov	x2,x19
	bl	_rtp_92408dd3_rtp_values.value.stream_id.read_repaired.a6b2bc1c138ab33f
5:
	mov	x8,x26
	cbz	x21,3b
2:
	ldrb	w9,[x8]
	cbz	w9,2f
	cmp	x21,#2
	b.hs	6f
	b	3b
2:
	cmp	x21,#2
	b.eq	2f
	cmp	x21,#1
	b.eq	3b
	cmp	x21,#3
	b.hi	7f
	ldrb	w9,[x8,#1]
	cbnz	w9,7f
	ldrb	w9,[x8,#2]
	cbnz	w9,7f
	b	3b
2:
	ldrb	w9,[x8,#1]
	cbz	w9,3b
7:
	sub	x1,x21,#1
	add	x0,x8,#1
	bl	_rtp_92408dd3_rtp_ext.elements.skip_zeros
	cbz	x1,3b
	mov	x8,x0
	mov	x21,x1
	cmp	x1,#2
	b.lo	3b
6:
	ldrb	w23,[x8,#1]
	add	x9,x23,#2
	subs	x21,x21,x9
	b.lo	3b
	mov	x22,x8
	ldrb	w10,[x22],#2
	add	x26,x8,x9
	cbz	x10,5b
	ldrb	w9,[x20,x10]
	sub	w9,w9,#1
	cmp	w9,#14
	b.hi	5b
Lrtp_92408dd3_loh0:
	adrp	x10,2f@PAGE
Lrtp_92408dd3_loh1:
	add	x10,x10,2f@PAGEOFF
	adr	x11,4b
	ldrb	w12,[x10,x9]
	add	x11,x11,x12,lsl #2
	br	x11
6:
	cmp	w23,#3
	b.lo	5b
	ldrb	w9,[x8,#2]
	ldrb	w10,[x8,#3]
	ldrb	w8,[x8,#4]
	lsl	w9,w9,#8
	orr	w9,w9,w10,lsl #16
	orr	w8,w9,w8,lsl #24
	rev	w8,w8
	mov	w9,#16960
	movk	w9,#15,lsl #16
	umull	x8,w8,w9
	lsr	x8,x8,#18
	mov	w9,#1
	strb	w9,[x19,#115]
	str	x8,[x19]
	b	5b
7:
	cmp	w23,#2
	b.lo	8f
	cbz	x21,9f
10:
	ldrb	w8,[x26]
	mov	x0,x26
	mov	x1,x21
	cbnz	w8,11f
	cmp	x21,#2
	b.eq	12f
	cmp	x21,#1
	b.eq	13f
	cmp	x21,#3
	b.hi	14f
	ldrb	w8,[x26,#1]
	cbnz	w8,14f
	ldrb	w8,[x26,#2]
	cbnz	w8,14f
	b	13f
12:
	ldrb	w8,[x26,#1]
	cbz	w8,13f
14:
	add	x0,x26,#1
	sub	x1,x21,#1
	bl	_rtp_92408dd3_rtp_ext.elements.skip_zeros
	cbz	x1,13f
11:
	cmp	x1,#2
	b.lo	13f
	ldrb	w24,[x0,#1]
	add	x8,x24,#2
	subs	x27,x1,x8
	b.lo	13f
	mov	x25,x0
	ldrb	w9,[x25],#2
	cbz	x9,8f
	ldrb	w9,[x20,x9]
	cmp	w9,#15
	b.ne	8f
	add	x26,x0,x8
	mov	x0,x25
	mov	x1,x24
	bl	_rtp_92408dd3_rtp_ext.block_values.is_another_allocation
	cmp	w0,#0
	csel	x23,x24,x23,ne
	csel	x22,x25,x22,ne
	mov	x21,x27
	cbnz	x27,10b
	b	9f
10:
	cbz	w23,5b
	ldrb	w8,[x22]
	mov	w9,#1
	strb	w9,[x19,#121]
	ubfiz	x8,x8,#4,#2
	mov	x9,#17694720
	movk	x9,#180,lsl #32
	movk	x9,#90,lsl #48
	lsr	x8,x9,x8
	strh	w8,[x19,#66]
	b	5b
11:
	cmp	w23,#4
	b.lo	5b
	ldr	w8,[x22]
	rev	w8,w8
	mov	w9,#1
	strb	w9,[x19,#119]
	str	w8,[x19,#60]
	b	5b
12:
	cmp	w23,#2
	b.lo	5b
	ldrh	w8,[x22]
	rev	w8,w8
	lsr	w8,w8,#16
	mov	w9,#1
	strb	w9,[x19,#120]
	strh	w8,[x19,#64]
	b	5b
14:
	stp	xzr,xzr,[sp,#8]
	mov	x8,#2314885530818453536
Lrtp_92408dd3_loh2:
	adrp	x24,lrtp_92408dd3__static.2@PAGE
Lrtp_92408dd3_loh3:
	add	x24,x24,lrtp_92408dd3__static.2@PAGEOFF
	stp	xzr,x8,[sp,#24]
	str	x8,[sp,#40]
	cmp	w23,#16
	b.hi	15f
	cbz	w23,16f
	mov	x8,#0
17:
	ldrsb	x9,[x22,x8]
	tbnz	x9,#63,15f
	ldrb	w9,[x24,x9]
	add	x10,sp,#32
	strb	w9,[x10,x8]
	add	x8,x8,#1
	cmp	x23,x8
	b.ne	17b
	ldr	q0,[sp,#32]
	b	17f
18:
	cmp	w23,#4
	b.lo	5b
	ldr	w8,[x22]
	rev	w8,w8
	mov	w9,#1
	strb	w9,[x19,#118]
	str	w8,[x19,#56]
	b	5b
19:
	cbz	w23,5b
	ldrb	w8,[x22]
	and	w9,w8,#0x7f
	neg	w9,w9
	mov	w10,#257
	sturh	w10,[x19,#123]
	strb	w9,[x19,#78]
	lsr	w8,w8,#7
	strb	w8,[x19,#79]
	b	5b
20:
	cmp	w23,#8
	b.lo	5b
	cmp	w23,#16
	b.lo	21f
	ldur	x8,[x8,#10]
	rev	x8,x8
	b	22f
23:
	cmp	w23,#3
	b.lo	5b
	ldrb	w9,[x8,#2]
	ldrb	w10,[x8,#3]
	ldrb	w8,[x8,#4]
	lsl	w9,w9,#8
	orr	w9,w9,w10,lsl #16
	orr	w8,w9,w8,lsl #24
	rev	w8,w8
	lsr	w9,w8,#12
	mov	w10,#257
	sturh	w10,[x19,#125]
	str	x9,[x19,#24]
Lrtp_92408dd3_loh4:
	adrp	x9,lrtp_92408dd3_CPI13_0@PAGE
Lrtp_92408dd3_loh5:
	ldr	d0,[x9,lrtp_92408dd3_CPI13_0@PAGEOFF]
	and	w8,w8,#0xfff
	str	d0,[x19,#32]
	str	x8,[x19,#40]
	str	d0,[x19,#48]
	b	5b
24:
	cbz	w23,5b
	ldrb	w8,[x22]
	mov	w9,#1
	strb	w9,[x19,#122]
	strb	w8,[x19,#77]
	b	5b
25:
	mov	x0,x22
	mov	x1,x23
	mov	x2,x19
	bl	_rtp_92408dd3_rtp_values.value.stream_id.read.a6b2bc1c138ab33f
	b	5b
26:
	cmp	w23,#9
	b.lo	5b
	ldrb	w9,[x8,#2]
	ldurh	w10,[x8,#3]
	rev	w10,w10
	lsr	w10,w10,#16
	ldurh	w11,[x8,#5]
	rev	w11,w11
	lsr	w11,w11,#16
	ldurh	w12,[x8,#7]
	rev	w12,w12
	lsr	w12,w12,#16
	ldurh	w8,[x8,#9]
	rev	w8,w8
	lsr	w8,w8,#16
	mov	w13,#1
	strb	w13,[x19,#127]
	strb	w9,[x19,#76]
	strh	w10,[x19,#68]
	strh	w11,[x19,#70]
	strh	w12,[x19,#72]
	strh	w8,[x19,#74]
	b	5b
15:
	add	x0,sp,#8
	mov	x1,x22
	mov	x2,x23
	bl	_rtp_92408dd3_rtp_core.str.utf8.from_utf8
	ldrb	w8,[sp,#8]
	cbnz	w8,5b
	ldp	x8,x9,[sp,#16]
	mov	x10,#2314885530818453536
	stp	x10,x10,[sp,#48]
	cbz	x9,15f
	mov	x10,#0
	mov	x11,#0
27:
	ldrsb	w12,[x8,x11]
	cmn	w12,#64
	b.lt	28f
	and	x12,x12,#0xff
	ldrb	w12,[x24,x12]
	add	x13,sp,#48
	strb	w12,[x13,x10]
	add	x10,x10,#1
28:
	add	x11,x11,#1
	cmp	x11,x9
	b.hs	28f
	cmp	x10,#16
	b.ne	27b
28:
	ldr	q0,[sp,#48]
	b	17f
21:
	mov	x8,#0
22:
	ldr	x9,[x22]
	rev	x9,x9
	cmp	w23,#15
	mov	w10,#1
	strb	w10,[x19,#116]
	cset	w10,hi
	strb	w10,[x19,#117]
	stp	x9,x8,[x19,#8]
	b	5b
13:
	mov	x21,#0
9:
Lrtp_92408dd3_loh6:
	adrp	x26,lrtp_92408dd3__static.0@PAGE
Lrtp_92408dd3_loh7:
	add	x26,x26,lrtp_92408dd3__static.0@PAGEOFF
8:
	cbz	x23,5b
	subs	x9,x23,#1
	b.ne	8f
	ldrb	w8,[x22]
	cbnz	w8,5b
	b	9f
8:
	mov	x8,x22
	ldrb	w12,[x8],#1
	ubfx	x11,x12,#4,#2
	add	w10,w11,#1
	ands	w12,w12,#0xf
	b.eq	8f
	mov	x13,x12
	mov	x14,x12
	mov	x15,x12
	b	13f
16:
	mov	w8,#1
	strb	w8,[x19,#128]
	movi.2d	v0,#0000000000000000
	b	16f
8:
	add	x13,x11,#2
	lsr	x16,x13,#1
	subs	x9,x9,x16
	b.lo	5b
	cbz	w11,8f
	ldrb	w13,[x8]
	and	w13,w13,#0xf
	cmp	w10,#2
	b.ne	21f
	mov	x14,x12
	b	22f
15:
	movi.16b	v0,#32
17:
	mov	w8,#1
	strb	w8,[x19,#128]
	movi.16b	v1,#32
	cmeq.16b	v1,v0,v1
	bic.16b	v0,v0,v1
16:
	str	q0,[x19,#80]
	strb	wzr,[x19,#96]
	b	5b
8:
	mov	x13,x12
	mov	x14,x12
	b	22f
21:
	ldrb	w14,[x22,#2]
	lsr	w14,w14,#4
	cmp	w10,#3
	b.eq	22f
	ldrb	w12,[x22,#2]
	and	w12,w12,#0xf
22:
	mov	x15,x12
	ldrb	w12,[x8]
	lsr	w12,w12,#4
	add	x8,x8,x16
13:
	ldrb	w16,[x22]
	ands	w16,w16,#0xf
	b.eq	8f
	fmov	s0,w16
	cnt.8b	v0,v0
	fmov	w11,s0
	mul	w10,w11,w10
	b	13f
8:
	fmov	s0,w12
	cnt.8b	v0,v0
	fmov	w12,s0
	fmov	s0,w13
	cnt.8b	v0,v0
	fmov	w13,s0
	fmov	s0,w14
	cnt.8b	v0,v0
	fmov	w14,s0
	add	w13,w12,w13
	add	w14,w13,w14
	fmov	s0,w15
	cnt.8b	v0,v0
	fmov	w15,s0
	add	w15,w14,w15
	cmp	w10,#3
	csel	w14,w14,w15,eq
	cmp	w10,#2
	csel	w10,w13,w14,eq
	cmp	w11,#0
	csel	w10,w12,w10,eq
13:
	and	x24,x10,#0xff
	add	x10,x24,#3
	lsr	x10,x10,#2
	subs	x22,x9,x10
	b.lo	5b
	cbz	x10,8f
	cmp	x10,#1
	b.ne	13f
	ldrb	w9,[x8]
	lsl	w9,w9,#24
	cbnz	w24,15f
	b	9f
8:
	mov	w9,#0
	cbnz	w24,15f
	b	9f
13:
	cmp	w24,#8
	b.hi	8f
	ldrh	w9,[x8]
	rev	w9,w9
	cbnz	w24,15f
	b	9f
8:
	cmp	x10,#3
	b.ne	8f
	ldrb	w9,[x8,#2]
	ldrh	w11,[x8]
	orr	w9,w11,w9,lsl #16
	b	13f
8:
	ldr	w9,[x8]
13:
	rev	w9,w9
15:
	add	x23,x8,x10
	mov	w8,w9
	mov	w9,#32
	sub	x9,x9,x24,lsl #1
	lsr	x8,x8,x9
	mov	w9,#-1431655766
	and	w9,w8,w9
	fmov	d0,x8
	cnt.8b	v0,v0
	addv.8b	b0,v0
	fmov	w8,s0
	fmov	s0,w9
	cnt.8b	v0,v0
	addv.8b	b0,v0
	fmov	w9,s0
	add	x8,x8,x24
	adds	x25,x8,x9
	b.ne	8f
13:
	subs	x8,x22,#5
	b.hs	15f
9:
	mov	w8,#1
	strb	w8,[x19,#131]
	b	5b
16:
	sub	x22,x22,#1
	add	x23,x23,#1
17:
	subs	x25,x25,#1
	b.eq	13b
8:
	cbz	x22,17b
	ldrsb	w8,[x23]
	tbz	w8,#31,16b
	cmp	x22,#1
	b.eq	8f
	ldrsb	w8,[x23,#1]
	tbnz	w8,#31,8f
	mov	w8,#2
	b	13f
8:
	add	x0,sp,#8
	mov	x1,x23
	mov	x2,x22
	bl	_rtp_92408dd3_rtp_vla.leb.long_number_at
	ldrb	w8,[sp,#8]
	cmp	w8,#1
	b.ne	17b
	ldr	x8,[sp,#24]
13:
	add	x23,x23,x8
	sub	x22,x22,x8
	b	17b
15:
	mov	w9,#1
8:
	ldrh	w10,[x23]
	rev	w11,w10
	mov	w10,#65535
	cmp	w10,w11,lsr #16
	b.eq	5b
	ldrh	w11,[x23,#2]
	rev	w11,w11
	cmp	w10,w11,lsr #16
	b.eq	5b
	cmp	x9,x24
	b.hs	9b
	add	x9,x9,#1
	add	x23,x23,#5
	cmp	x8,#5
	sub	x8,x8,#5
	b.hs	8b
	b	9b
8:
	mov	x0,x22
	mov	x1,x23
	mov	x2,x19
	bl	_rtp_92408dd3_rtp_values.value.stream_id.read_repaired.a6b2bc1c138ab33f
9:
	mov	x8,x25
	cbz	x21,3b
1:
	ldrb	w10,[x8]
	cbz	w10,1f
	cmp	w10,#239
	and	w9,w10,#0xf
	add	w11,w9,#2
	ccmp	x21,x11,#0,ls
	b.hs	13f
	b	3b
1:
	cmp	x21,#2
	b.eq	1f
	cmp	x21,#1
	b.eq	3b
	cmp	x21,#3
	b.hi	15f
	ldrb	w9,[x8,#1]
	cbnz	w9,15f
	ldrb	w9,[x8,#2]
	cbnz	w9,15f
	b	3b
1:
	ldrb	w9,[x8,#1]
	cbz	w9,3b
15:
	sub	x1,x21,#1
	add	x0,x8,#1
	bl	_rtp_92408dd3_rtp_ext.elements.skip_zeros
	cbz	x1,3b
	mov	x8,x0
	mov	x21,x1
	ldrb	w10,[x0]
	cmp	w10,#239
	and	w9,w10,#0xf
	add	w11,w9,#2
	ccmp	x1,x11,#0,ls
	b.lo	3b
13:
	mov	w10,w10
	lsr	x10,x10,#4
	sub	x21,x21,x11
	add	x25,x8,x11
	cbz	w10,9b
	ldrb	w10,[x20,x10]
	sub	w10,w10,#1
	cmp	w10,#14
	b.hi	9b
	add	x22,x8,#1
	sub	x23,x11,#1
Lrtp_92408dd3_loh8:
	adrp	x11,1f@PAGE
Lrtp_92408dd3_loh9:
	add	x11,x11,1f@PAGEOFF
	adr	x12,8b
	ldrb	w13,[x11,x10]
	add	x12,x12,x13,lsl #2
	br	x12
3:
	cmp	w9,#2
	b.lo	9b
	ldrb	w9,[x8,#1]
	ldrb	w10,[x8,#2]
	ldrb	w8,[x8,#3]
	lsl	w9,w9,#8
	orr	w9,w9,w10,lsl #16
	orr	w8,w9,w8,lsl #24
	rev	w8,w8
	mov	w9,#16960
	movk	w9,#15,lsl #16
	umull	x8,w8,w9
	lsr	x8,x8,#18
	mov	w9,#1
	strb	w9,[x19,#115]
	str	x8,[x19]
	b	9b
13:
	cbz	w9,15f
	cbz	x21,16f
17:
	ldrb	w8,[x25]
	mov	x0,x25
	mov	x1,x21
	cbnz	w8,21f
	cmp	x21,#2
	b.eq	22f
	cmp	x21,#1
	b.eq	27f
	cmp	x21,#3
	b.hi	28f
	ldrb	w8,[x25,#1]
	cbnz	w8,28f
	ldrb	w8,[x25,#2]
	cbnz	w8,28f
	b	27f
22:
	ldrb	w8,[x25,#1]
	cbz	w8,27f
28:
	add	x0,x25,#1
	sub	x1,x21,#1
	bl	_rtp_92408dd3_rtp_ext.elements.skip_zeros
	cbz	x1,27f
	ldrb	w8,[x0]
21:
	cmp	w8,#239
	b.hi	27f
	and	w9,w8,#0xf
	add	w9,w9,#2
	subs	x26,x1,x9
	b.lo	27f
	mov	w8,w8
	lsr	x8,x8,#4
	cbz	w8,21f
	ldrb	w8,[x20,x8]
	cmp	w8,#15
	b.ne	21f
	add	x21,x0,#1
	sub	x24,x9,#1
	add	x25,x0,x9
	mov	x0,x21
	mov	x1,x24
	bl	_rtp_92408dd3_rtp_ext.block_values.is_another_allocation
	cmp	w0,#0
	csel	x23,x24,x23,ne
	csel	x22,x21,x22,ne
	mov	x21,x26
	cbnz	x26,17b
	b	16f
17:
	ldrb	w8,[x22]
	mov	w9,#1
	strb	w9,[x19,#121]
	ubfiz	x8,x8,#4,#2
	mov	x9,#17694720
	movk	x9,#180,lsl #32
	movk	x9,#90,lsl #48
	lsr	x8,x9,x8
	strh	w8,[x19,#66]
	b	9b
22:
	cmp	w9,#3
	b.lo	9b
	ldr	w8,[x22]
	rev	w8,w8
	mov	w9,#1
	strb	w9,[x19,#119]
	str	w8,[x19,#60]
	b	9b
28:
	cbz	w9,9b
	ldrh	w8,[x22]
	rev	w8,w8
	lsr	w8,w8,#16
	mov	w9,#1
	strb	w9,[x19,#120]
	strh	w8,[x19,#64]
	b	9b
29:
	mov	x8,#0
	stp	xzr,xzr,[sp,#8]
	mov	x9,#2314885530818453536
	stp	xzr,x9,[sp,#24]
	str	x9,[sp,#40]
30:
	ldrsb	x9,[x22,x8]
	tbnz	x9,#63,31f
Lrtp_92408dd3_loh10:
	adrp	x10,lrtp_92408dd3__static.2@PAGE
Lrtp_92408dd3_loh11:
	add	x10,x10,lrtp_92408dd3__static.2@PAGEOFF
	ldrb	w9,[x10,x9]
	add	x10,sp,#32
	strb	w9,[x10,x8]
	add	x8,x8,#1
	cmp	x23,x8
	b.ne	30b
	ldr	q0,[sp,#32]
30:
	mov	w8,#1
	strb	w8,[x19,#128]
	movi.16b	v1,#32
	cmeq.16b	v1,v0,v1
	bic.16b	v0,v0,v1
	str	q0,[x19,#80]
	strb	wzr,[x19,#96]
	b	9b
32:
	cmp	w9,#3
	b.lo	9b
	ldr	w8,[x22]
	rev	w8,w8
	mov	w9,#1
	strb	w9,[x19,#118]
	str	w8,[x19,#56]
	b	9b
33:
	ldrb	w8,[x22]
	and	w9,w8,#0x7f
	neg	w9,w9
	mov	w10,#257
	sturh	w10,[x19,#123]
	strb	w9,[x19,#78]
	lsr	w8,w8,#7
	strb	w8,[x19,#79]
	b	9b
34:
	cmp	w9,#7
	b.lo	9b
	cmp	w9,#15
	b.ne	35f
	ldur	x8,[x8,#9]
	rev	x8,x8
	b	36f
37:
	cmp	w9,#2
	b.lo	9b
	ldrb	w9,[x8,#1]
	ldrb	w10,[x8,#2]
	ldrb	w8,[x8,#3]
	lsl	w9,w9,#8
	orr	w9,w9,w10,lsl #16
	orr	w8,w9,w8,lsl #24
	rev	w8,w8
	lsr	w9,w8,#12
	mov	w10,#257
	sturh	w10,[x19,#125]
	str	x9,[x19,#24]
Lrtp_92408dd3_loh12:
	adrp	x9,lrtp_92408dd3_CPI13_0@PAGE
Lrtp_92408dd3_loh13:
	ldr	d0,[x9,lrtp_92408dd3_CPI13_0@PAGEOFF]
	and	w8,w8,#0xfff
	str	d0,[x19,#32]
	str	x8,[x19,#40]
	str	d0,[x19,#48]
	b	9b
38:
	ldrb	w8,[x22]
	mov	w9,#1
	strb	w9,[x19,#122]
	strb	w8,[x19,#77]
	b	9b
39:
	mov	x0,x22
	mov	x1,x23
	mov	x2,x19
	bl	_rtp_92408dd3_rtp_values.value.stream_id.read.a6b2bc1c138ab33f
	b	9b
40:
	cmp	w9,#8
	b.lo	9b
	ldrb	w9,[x8,#1]
	ldrh	w10,[x8,#2]
	rev	w10,w10
	lsr	w10,w10,#16
	ldrh	w11,[x8,#4]
	rev	w11,w11
	lsr	w11,w11,#16
	ldrh	w12,[x8,#6]
	rev	w12,w12
	lsr	w12,w12,#16
	ldrh	w8,[x8,#8]
	rev	w8,w8
	lsr	w8,w8,#16
	mov	w13,#1
	strb	w13,[x19,#127]
	strb	w9,[x19,#76]
	strh	w10,[x19,#68]
	strh	w11,[x19,#70]
	strh	w12,[x19,#72]
	strh	w8,[x19,#74]
	b	9b
31:
	add	x0,sp,#8
	mov	x1,x22
	mov	x2,x23
	bl	_rtp_92408dd3_rtp_core.str.utf8.from_utf8
	ldrb	w8,[sp,#8]
	cbnz	w8,9b
	ldp	x8,x9,[sp,#16]
	mov	x10,#2314885530818453536
	stp	x10,x10,[sp,#48]
	cbz	x9,31f
	mov	x10,#0
	mov	x11,#0
41:
	ldrsb	w12,[x8,x11]
	cmn	w12,#64
	b.lt	42f
	and	x12,x12,#0xff
Lrtp_92408dd3_loh14:
	adrp	x13,lrtp_92408dd3__static.2@PAGE
Lrtp_92408dd3_loh15:
	add	x13,x13,lrtp_92408dd3__static.2@PAGEOFF
	ldrb	w12,[x13,x12]
	add	x13,sp,#48
	strb	w12,[x13,x10]
	add	x10,x10,#1
42:
	add	x11,x11,#1
	cmp	x11,x9
	b.hs	42f
	cmp	x10,#16
	b.ne	41b
42:
	ldr	q0,[sp,#48]
	b	30b
27:
	mov	x21,#0
16:
Lrtp_92408dd3_loh16:
	adrp	x25,lrtp_92408dd3__static.0@PAGE
Lrtp_92408dd3_loh17:
	add	x25,x25,lrtp_92408dd3__static.0@PAGEOFF
21:
	subs	x9,x23,#1
	b.ne	16f
15:
	ldrb	w8,[x22]
	cbnz	w8,9b
15:
	mov	w8,#1
	strb	w8,[x19,#131]
	b	9b
16:
	mov	x8,x22
	ldrb	w12,[x8],#1
	ubfx	x11,x12,#4,#2
	add	w10,w11,#1
	ands	w12,w12,#0xf
	b.eq	16f
	mov	x13,x12
	mov	x14,x12
	mov	x15,x12
	b	21f
35:
	mov	x8,#0
36:
	ldr	x10,[x22]
	rev	x10,x10
	cmp	w9,#15
	mov	w9,#1
	strb	w9,[x19,#116]
	cset	w9,eq
	strb	w9,[x19,#117]
	stp	x10,x8,[x19,#8]
	b	9b
16:
	add	x13,x11,#2
	lsr	x16,x13,#1
	subs	x9,x9,x16
	b.lo	9b
	cbz	w11,16f
	ldrb	w13,[x8]
	and	w13,w13,#0xf
	cmp	w10,#2
	b.ne	27f
	mov	x14,x12
	b	35f
31:
	movi.16b	v0,#32
	b	30b
16:
	mov	x13,x12
	mov	x14,x12
	b	35f
27:
	ldrb	w14,[x22,#2]
	lsr	w14,w14,#4
	cmp	w10,#3
	b.eq	35f
	ldrb	w12,[x22,#2]
	and	w12,w12,#0xf
35:
	mov	x15,x12
	ldrb	w12,[x8]
	lsr	w12,w12,#4
	add	x8,x8,x16
21:
	ldrb	w16,[x22]
	ands	w16,w16,#0xf
	b.eq	16f
	fmov	s0,w16
	cnt.8b	v0,v0
	fmov	w11,s0
	mul	w10,w11,w10
	b	21f
16:
	fmov	s0,w12
	cnt.8b	v0,v0
	fmov	w12,s0
	fmov	s0,w13
	cnt.8b	v0,v0
	fmov	w13,s0
	fmov	s0,w14
	cnt.8b	v0,v0
	fmov	w14,s0
	add	w13,w12,w13
	add	w14,w13,w14
	fmov	s0,w15
	cnt.8b	v0,v0
	fmov	w15,s0
	add	w15,w14,w15
	cmp	w10,#3
	csel	w14,w14,w15,eq
	cmp	w10,#2
	csel	w10,w13,w14,eq
	cmp	w11,#0
	csel	w10,w12,w10,eq
21:
	and	x24,x10,#0xff
	add	x10,x24,#3
	lsr	x10,x10,#2
	subs	x22,x9,x10
	b.lo	9b
	cbz	x10,16f
	cmp	x10,#1
	b.ne	21f
	ldrb	w9,[x8]
	lsl	w9,w9,#24
	cbnz	w24,27f
	b	15b
16:
	mov	w9,#0
	cbnz	w24,27f
	b	15b
21:
	cmp	w24,#8
	b.hi	16f
	ldrh	w9,[x8]
	rev	w9,w9
	cbnz	w24,27f
	b	15b
16:
	cmp	x10,#3
	b.ne	16f
	ldrb	w9,[x8,#2]
	ldrh	w11,[x8]
	orr	w9,w11,w9,lsl #16
	b	21f
16:
	ldr	w9,[x8]
21:
	rev	w9,w9
27:
	add	x23,x8,x10
	mov	w8,w9
	mov	w9,#32
	sub	x9,x9,x24,lsl #1
	lsr	x8,x8,x9
	mov	w9,#-1431655766
	and	w9,w8,w9
	fmov	d0,x8
	cnt.8b	v0,v0
	addv.8b	b0,v0
	fmov	w8,s0
	fmov	s0,w9
	cnt.8b	v0,v0
	addv.8b	b0,v0
	fmov	w9,s0
	add	x8,x8,x24
	adds	x26,x8,x9
	b.ne	16f
21:
	subs	x8,x22,#5
	b.lo	15b
	mov	w9,#1
27:
	ldrh	w10,[x23]
	rev	w11,w10
	mov	w10,#65535
	cmp	w10,w11,lsr #16
	b.eq	9b
	ldrh	w11,[x23,#2]
	rev	w11,w11
	cmp	w10,w11,lsr #16
	b.eq	9b
	cmp	x9,x24
	b.hs	15b
	add	x9,x9,#1
	add	x23,x23,#5
	cmp	x8,#5
	sub	x8,x8,#5
	b.hs	27b
	b	15b
15:
	sub	x22,x22,#1
	add	x23,x23,#1
27:
	subs	x26,x26,#1
	b.eq	21b
16:
	cbz	x22,27b
	ldrsb	w8,[x23]
	tbz	w8,#31,15b
	cmp	x22,#1
	b.eq	15f
	ldrsb	w8,[x23,#1]
	tbnz	w8,#31,15f
	mov	w8,#2
	b	16f
15:
	add	x0,sp,#8
	mov	x1,x23
	mov	x2,x22
	bl	_rtp_92408dd3_rtp_vla.leb.long_number_at
	ldrb	w8,[sp,#8]
	cmp	w8,#1
	b.ne	27b
	ldr	x8,[sp,#24]
16:
	add	x23,x23,x8
	sub	x22,x22,x8
	b	27b
	.loh AdrpAdd	Lrtp_92408dd3_loh0,Lrtp_92408dd3_loh1
	.loh AdrpAdd	Lrtp_92408dd3_loh2,Lrtp_92408dd3_loh3
	.loh AdrpLdr	Lrtp_92408dd3_loh4,Lrtp_92408dd3_loh5
	.loh AdrpAdd	Lrtp_92408dd3_loh6,Lrtp_92408dd3_loh7
	.loh AdrpAdd	Lrtp_92408dd3_loh8,Lrtp_92408dd3_loh9
	.loh AdrpAdd	Lrtp_92408dd3_loh10,Lrtp_92408dd3_loh11
	.loh AdrpLdr	Lrtp_92408dd3_loh12,Lrtp_92408dd3_loh13
	.loh AdrpAdd	Lrtp_92408dd3_loh14,Lrtp_92408dd3_loh15
	.loh AdrpAdd	Lrtp_92408dd3_loh16,Lrtp_92408dd3_loh17
	.cfi_endproc
	.section	__TEXT,__const
2:
	.byte	(6b-4b)>>2
	.byte	(20b-4b)>>2
	.byte	(19b-4b)>>2
	.byte	(18b-4b)>>2
	.byte	(10b-4b)>>2
	.byte	(12b-4b)>>2
	.byte	(23b-4b)>>2
	.byte	(24b-4b)>>2
	.byte	(26b-4b)>>2
	.byte	(25b-4b)>>2
	.byte	(4b-4b)>>2
	.byte	(14b-4b)>>2
	.byte	(11b-4b)>>2
	.byte	(5b-4b)>>2
	.byte	(7b-4b)>>2
1:
	.byte	(3b-8b)>>2
	.byte	(34b-8b)>>2
	.byte	(33b-8b)>>2
	.byte	(32b-8b)>>2
	.byte	(17b-8b)>>2
	.byte	(28b-8b)>>2
	.byte	(37b-8b)>>2
	.byte	(38b-8b)>>2
	.byte	(40b-8b)>>2
	.byte	(39b-8b)>>2
	.byte	(8b-8b)>>2
	.byte	(29b-8b)>>2
	.byte	(22b-8b)>>2
	.byte	(9b-8b)>>2
	.byte	(13b-8b)>>2

	.section	__TEXT,__text,regular,pure_instructions
	.p2align	2
_rtp_92408dd3_rtp_ext.block_values.is_another_allocation:
	.cfi_startproc
	cbz	x1,1f
	subs	x9,x1,#1
	b.ne	2f
	ldrb	w8,[x0]
	cmp	w8,#0
	cset	w0,eq
	ret
2:
	mov	x8,x0
	ldrb	w12,[x8],#1
	ubfx	x11,x12,#4,#2
	add	w10,w11,#1
	ands	w12,w12,#0xf
	b.eq	2f
	fmov	s0,w12
	cnt.8b	v0,v0
	fmov	w11,s0
	mul	w10,w11,w10
	b	3f
2:
	add	x13,x11,#2
	lsr	x13,x13,#1
	subs	x9,x9,x13
	b.hs	2f
1:
	mov	w0,#0
	ret
2:
	ldrb	w14,[x8]
	lsr	w14,w14,#4
	cbz	w11,1f
	ldrb	w15,[x8]
	and	w15,w15,#0xf
	cmp	w10,#2
	b.ne	2f
	mov	x16,x12
	b	4f
1:
	mov	x15,x12
	mov	x16,x12
	b	4f
2:
	ldrb	w16,[x0,#2]
	lsr	w16,w16,#4
	cmp	w10,#3
	b.eq	4f
	ldrb	w12,[x0,#2]
	and	w12,w12,#0xf
	fmov	s0,w12
	cnt.8b	v0,v0
	fmov	w12,s0
4:
	add	x8,x8,x13
	fmov	s0,w14
	cnt.8b	v0,v0
	fmov	w13,s0
	fmov	s0,w15
	cnt.8b	v0,v0
	fmov	w14,s0
	fmov	s0,w16
	cnt.8b	v0,v0
	fmov	w15,s0
	add	w14,w13,w14
	add	w15,w14,w15
	add	w12,w15,w12
	cmp	w10,#3
	csel	w12,w15,w12,eq
	cmp	w10,#2
	csel	w10,w14,w12,eq
	cmp	w11,#0
	csel	w10,w13,w10,eq
3:
	sub	sp,sp,#80
	stp	x22,x21,[sp,#32]
	stp	x20,x19,[sp,#48]
	stp	x29,x30,[sp,#64]
	.cfi_def_cfa_offset 80
	.cfi_offset w30,-8
	.cfi_offset w29,-16
	.cfi_offset w19,-24
	.cfi_offset w20,-32
	.cfi_offset w21,-40
	.cfi_offset w22,-48
	and	x21,x10,#0xff
	add	x10,x21,#3
	lsr	x10,x10,#2
	subs	x19,x9,x10
	b.hs	1f
2:
	mov	w0,#0
3:
	ldp	x29,x30,[sp,#64]
	ldp	x20,x19,[sp,#48]
	ldp	x22,x21,[sp,#32]
	add	sp,sp,#80
	ret
1:
	cbz	x10,1f
	cmp	x10,#1
	b.ne	4f
	ldrb	w9,[x8]
	lsl	w9,w9,#24
	cbnz	w21,5f
	b	6f
1:
	mov	w9,#0
	cbnz	w21,5f
	b	6f
4:
	cmp	w21,#8
	b.hi	1f
	ldrh	w9,[x8]
	rev	w9,w9
	cbnz	w21,5f
6:
	mov	w0,#1
	ldp	x29,x30,[sp,#64]
	ldp	x20,x19,[sp,#48]
	ldp	x22,x21,[sp,#32]
	add	sp,sp,#80
	ret
1:
	cmp	x10,#3
	b.ne	1f
	ldrb	w9,[x8,#2]
	ldrh	w11,[x8]
	orr	w9,w11,w9,lsl #16
	b	4f
1:
	ldr	w9,[x8]
4:
	rev	w9,w9
5:
	add	x20,x8,x10
	mov	w8,w9
	mov	w9,#32
	sub	x9,x9,x21,lsl #1
	lsr	x8,x8,x9
	and	w9,w8,#0xaaaaaaaa
	fmov	d0,x8
	cnt.8b	v0,v0
	addv.8b	b0,v0
	fmov	w8,s0
	fmov	s0,w9
	cnt.8b	v0,v0
	addv.8b	b0,v0
	fmov	w9,s0
	add	x8,x8,x21
	adds	x22,x8,x9
	b.ne	1f
4:
	subs	x8,x19,#5
	b.hs	5f
	mov	w0,#1
	ldp	x29,x30,[sp,#64]
	ldp	x20,x19,[sp,#48]
	ldp	x22,x21,[sp,#32]
	add	sp,sp,#80
	ret
6:
	sub	x19,x19,#1
	add	x20,x20,#1
7:
	subs	x22,x22,#1
	b.eq	4b
1:
	cbz	x19,7b
	ldrsb	w8,[x20]
	tbz	w8,#31,6b
	cmp	x19,#1
	b.eq	1f
	ldrsb	w8,[x20,#1]
	tbnz	w8,#31,1f
	mov	w8,#2
	b	4f
1:
	add	x0,sp,#8
	mov	x1,x20
	mov	x2,x19
	bl	_rtp_92408dd3_rtp_vla.leb.long_number_at
	ldrb	w8,[sp,#8]
	cmp	w8,#1
	b.ne	7b
	ldr	x8,[sp,#24]
4:
	add	x20,x20,x8
	sub	x19,x19,x8
	b	7b
5:
	mov	w9,#1
1:
	ldrh	w10,[x20]
	rev	w11,w10
	mov	w10,#65535
	cmp	w10,w11,lsr #16
	b.eq	2b
	ldrh	w11,[x20,#2]
	rev	w11,w11
	cmp	w10,w11,lsr #16
	b.eq	2b
	mov	w0,#1
	cmp	x9,x21
	b.hs	3b
	add	x9,x9,#1
	add	x20,x20,#5
	cmp	x8,#5
	sub	x8,x8,#5
	b.hs	1b
	b	3b
	.cfi_endproc

	.p2align	2
_rtp_92408dd3_rtp_vla.leb.long_number_at:
	.cfi_startproc
	cbz	x2,1f
	ldrb	w9,[x1]
	and	x8,x9,#0x7f
	tbnz	w9,#7,2f
	mov	w9,#1
	mov	w10,#1
	stp	x10,x8,[x0]
	str	x9,[x0,#16]
	ret
2:
	cmp	x2,#1
	b.ne	2f
1:
	stp	xzr,xzr,[x0]
	str	xzr,[x0,#16]
	ret
2:
	ldrsb	w9,[x1,#1]
	and	w10,w9,#0x7f
	orr	x8,x8,x10,lsl #7
	tbnz	w9,#31,2f
	mov	w9,#2
	mov	w10,#1
	stp	x10,x8,[x0]
	str	x9,[x0,#16]
	ret
2:
	cmp	x2,#2
	b.eq	1b
	ldrsb	w9,[x1,#2]
	and	w10,w9,#0x7f
	orr	x8,x8,x10,lsl #14
	tbnz	w9,#31,2f
	mov	w9,#3
	mov	w10,#1
	stp	x10,x8,[x0]
	str	x9,[x0,#16]
	ret
2:
	cmp	x2,#3
	b.eq	1b
	ldrsb	w9,[x1,#3]
	and	w10,w9,#0x7f
	orr	x8,x8,x10,lsl #21
	tbnz	w9,#31,2f
	mov	w9,#4
	mov	w10,#1
	stp	x10,x8,[x0]
	str	x9,[x0,#16]
	ret
2:
	cmp	x2,#4
	b.eq	1b
	ldrsb	w9,[x1,#4]
	and	w10,w9,#0x7f
	orr	x8,x8,x10,lsl #28
	tbnz	w9,#31,2f
	mov	w9,#5
	mov	w10,#1
	stp	x10,x8,[x0]
	str	x9,[x0,#16]
	ret
2:
	cmp	x2,#5
	b.eq	1b
	ldrsb	w9,[x1,#5]
	and	w10,w9,#0x7f
	orr	x8,x8,x10,lsl #35
	tbnz	w9,#31,2f
	mov	w9,#6
	mov	w10,#1
	stp	x10,x8,[x0]
	str	x9,[x0,#16]
	ret
2:
	cmp	x2,#6
	b.eq	1b
	ldrsb	w9,[x1,#6]
	and	w10,w9,#0x7f
	orr	x8,x8,x10,lsl #42
	tbnz	w9,#31,2f
	mov	w9,#7
	mov	w10,#1
	stp	x10,x8,[x0]
	str	x9,[x0,#16]
	ret
2:
	cmp	x2,#7
	b.eq	1b
	ldrsb	w9,[x1,#7]
	and	w10,w9,#0x7f
	orr	x8,x8,x10,lsl #49
	tbnz	w9,#31,2f
	mov	w9,#8
	mov	w10,#1
	stp	x10,x8,[x0]
	str	x9,[x0,#16]
	ret
2:
	cmp	x2,#8
	b.eq	1b
	ldrsb	w9,[x1,#8]
	and	w10,w9,#0x7f
	orr	x8,x8,x10,lsl #56
	tbnz	w9,#31,1f
	mov	w9,#9
	mov	w10,#1
	stp	x10,x8,[x0]
	str	x9,[x0,#16]
	ret
1:
	mov	w9,#1
	stp	x9,x8,[x0]
	mov	w8,#9
	str	x8,[x0,#16]
	ret
	.cfi_endproc

	.p2align	2
_rtp_92408dd3_rtp_values.value.stream_id.read.a6b2bc1c138ab33f:
	.cfi_startproc
	sub	sp,sp,#64
	stp	x20,x19,[sp,#32]
	stp	x29,x30,[sp,#48]
	.cfi_def_cfa_offset 64
	.cfi_offset w30,-8
	.cfi_offset w29,-16
	.cfi_offset w19,-24
	.cfi_offset w20,-32
	mov	x19,x2
	mov	x2,x1
	mov	x1,x0
	stp	xzr,xzr,[sp]
	str	xzr,[sp,#16]
Lrtp_92408dd3_loh18:
	adrp	x20,lrtp_92408dd3__static.2@PAGE
Lrtp_92408dd3_loh19:
	add	x20,x20,lrtp_92408dd3__static.2@PAGEOFF
	cmp	x2,#8
	b.hi	1f
	cbz	x2,2f
	ldrsb	x8,[x1]
	tbnz	x8,#63,1f
	ldrb	w8,[x20,x8]
	cmp	x2,#1
	b.ne	3f
	mov	w12,#32
	mov	x15,#2305843009213693952
	mov	x14,x12
	mov	x13,x12
	mov	w11,#32
	mov	w10,#32
	mov	w9,#32
	b	4f
2:
	mov	x10,#2314885530818453536
	b	2f
3:
	ldrsb	x9,[x1,#1]
	tbnz	x9,#63,1f
	ldrb	w9,[x20,x9]
	cmp	x2,#2
	b.ne	3f
	mov	w12,#32
	mov	x15,#2305843009213693952
	mov	x14,x12
	mov	x13,x12
	mov	w11,#32
	mov	w10,#32
	b	4f
3:
	ldrsb	x10,[x1,#2]
	tbnz	x10,#63,1f
	ldrb	w10,[x20,x10]
	cmp	x2,#3
	b.ne	3f
	mov	w12,#32
	mov	x15,#2305843009213693952
	mov	x14,x12
	mov	x13,x12
	mov	w11,#32
	b	4f
3:
	ldrsb	x11,[x1,#3]
	tbnz	x11,#63,1f
	ldrb	w11,[x20,x11]
	cmp	x2,#4
	b.ne	3f
	mov	w12,#32
	mov	x15,#2305843009213693952
	mov	x14,x12
	mov	x13,x12
	b	4f
3:
	ldrsb	x12,[x1,#4]
	tbnz	x12,#63,1f
	ldrb	w13,[x20,x12]
	cmp	x2,#5
	b.ne	3f
	mov	w12,#32
	mov	x15,#2305843009213693952
	mov	x14,x12
	b	4f
3:
	ldrsb	x12,[x1,#5]
	tbnz	x12,#63,1f
	ldrb	w14,[x20,x12]
	cmp	x2,#6
	b.ne	3f
	mov	w12,#32
	mov	x15,#2305843009213693952
	b	4f
3:
	ldrsb	x12,[x1,#6]
	tbnz	x12,#63,1f
	ldrb	w12,[x20,x12]
	cmp	x2,#7
	b.ne	3f
	mov	x15,#2305843009213693952
	b	4f
3:
	ldrsb	x15,[x1,#7]
	tbnz	x15,#63,1f
	ldrb	w15,[x20,x15]
	lsl	x15,x15,#56
4:
	orr	x12,x15,x12,lsl #48
	orr	x12,x12,x14,lsl #40
	orr	x12,x12,x13,lsl #32
	mov	w11,w11
	mov	w10,w10
	orr	x11,x12,x11,lsl #24
	mov	w9,w9
	orr	x10,x11,x10,lsl #16
	orr	x9,x10,x9,lsl #8
	orr	x10,x9,x8
	b	2f
1:
	mov	x0,sp
	bl	_rtp_92408dd3_rtp_core.str.utf8.from_utf8
	ldrb	w8,[sp]
	cbz	w8,1f
	ldp	x29,x30,[sp,#48]
	ldp	x20,x19,[sp,#32]
	add	sp,sp,#64
	ret
1:
	ldp	x8,x9,[sp,#8]
	mov	x10,#2314885530818453536
	str	x10,[sp,#24]
	cbz	x9,2f
	mov	x10,#0
	mov	x11,#0
1:
	ldrsb	w12,[x8,x11]
	cmn	w12,#64
	b.lt	3f
	and	x12,x12,#0xff
	ldrb	w12,[x20,x12]
	add	x13,sp,#24
	strb	w12,[x13,x10]
	add	x10,x10,#1
3:
	add	x11,x11,#1
	cmp	x11,x9
	b.hs	3f
	cmp	x10,#8
	b.ne	1b
3:
	ldr	x10,[sp,#24]
2:
	mov	w8,#1
	and	x9,x10,#0xff
	strb	w8,[x19,#129]
	and	x8,x10,#0xff00
	and	x11,x10,#0xff0000
	and	x12,x10,#0xff000000
	and	x13,x10,#0xff00000000
	and	x14,x10,#0xff0000000000
	and	x15,x10,#0xff000000000000
	and	x10,x10,#0xff00000000000000
	mov	x16,#2305843009213693952
	cmp	x10,x16
	csel	x10,xzr,x10,eq
	mov	x16,#9007199254740992
	cmp	x15,x16
	csel	x15,xzr,x15,eq
	orr	x10,x10,x15
	mov	x15,#35184372088832
	cmp	x14,x15
	csel	x14,xzr,x14,eq
	mov	x15,#137438953472
	cmp	x13,x15
	csel	x13,xzr,x13,eq
	orr	x13,x14,x13
	orr	x10,x10,x13
	mov	w13,#536870912
	cmp	x12,x13
	csel	x12,xzr,x12,eq
	cmp	x11,#512,lsl #12
	csel	x11,xzr,x11,eq
	cmp	x8,#2,lsl #12
	csel	x8,xzr,x8,eq
	cmp	x9,#32
	csel	x9,xzr,x9,eq
	orr	x11,x12,x11
	orr	x8,x11,x8
	orr	x8,x10,x8
	orr	x8,x8,x9
	stur	x8,[x19,#97]
	strb	wzr,[x19,#105]
	ldp	x29,x30,[sp,#48]
	ldp	x20,x19,[sp,#32]
	add	sp,sp,#64
	ret
	.loh AdrpAdd	Lrtp_92408dd3_loh18,Lrtp_92408dd3_loh19
	.cfi_endproc

	.p2align	2
_rtp_92408dd3_rtp_core.str.utf8.from_utf8:
	.cfi_startproc
	sub	sp,sp,#64
	stp	x22,x21,[sp,#16]
	stp	x20,x19,[sp,#32]
	stp	x29,x30,[sp,#48]
	.cfi_def_cfa_offset 64
	.cfi_offset w30,-8
	.cfi_offset w29,-16
	.cfi_offset w19,-24
	.cfi_offset w20,-32
	.cfi_offset w21,-40
	.cfi_offset w22,-48
	mov	x20,x2
	mov	x21,x1
	mov	x19,x0
	cbz	x2,1f
	mov	x9,#0
	sub	x22,x20,#8
	b	2f
3:
	and	w11,w11,#0xff
	tbnz	w11,#7,4f
5:
	mov	w12,#1
6:
	add	x8,x12,x9
7:
	mov	x9,x8
	cmp	x8,x20
	b.hs	1f
2:
	add	x8,x21,x9
	ldrsb	w11,[x8]
	sub	x10,x20,x9
	cmp	x10,#2
	b.lo	3b
	tbnz	w11,#31,3b
	ldrsb	w11,[x8,#1]
	tbnz	w11,#31,5b
	stp	x21,x20,[sp]
	cmp	x10,#7
	b.hi	2f
	ldrsb	w8,[x21,x9]
	tbnz	w8,#31,3f
	add	x8,x9,#1
	cmp	x8,x20
	b.eq	1f
	ldrsb	w10,[x21,x8]
	tbnz	w10,#31,7b
	add	x8,x9,#2
	cmp	x8,x20
	b.eq	1f
	ldrsb	w10,[x21,x8]
	tbnz	w10,#31,7b
	add	x8,x9,#3
	cmp	x8,x20
	b.eq	1f
	ldrsb	w10,[x21,x8]
	tbnz	w10,#31,7b
	add	x8,x9,#4
	cmp	x8,x20
	b.eq	1f
	ldrsb	w10,[x21,x8]
	tbnz	w10,#31,7b
	add	x8,x9,#5
	cmp	x8,x20
	b.eq	1f
	ldrsb	w10,[x21,x8]
	tbnz	w10,#31,7b
	add	x8,x9,#6
	cmp	x8,x20
	b.eq	1f
	ldrsb	w9,[x21,x8]
	tbnz	w9,#31,7b
	b	1f
4:
	cmp	w11,#194
	b.lo	4f
	cmp	w11,#223
	b.hi	5f
	cmp	x10,#2
	b.lo	8f
	ldrsb	w12,[x8,#1]
	cmn	w12,#65
	b.gt	9f
	mov	w12,#2
	b	6b
2:
	ldr	x8,[x8]
	ands	x8,x8,#0x8080808080808080
	rbit	x8,x8
	clz	x8,x8
	lsr	x8,x8,#3
	mov	w10,#8
	csel	x8,x10,x8,eq
	add	x10,x9,#8
	add	x8,x8,x9
	cmp	x8,x10
	b.lo	7b
	sub	x9,x20,x8
	cmp	x9,#32
	b.lo	2f
10:
	add	x9,x21,x8
	ldp	q1,q0,[x9]
	orr.16b	v0,v1,v0
	ext.16b	v1,v0,v0,#8
	orr.8b	v0,v0,v1
	fmov	x9,d0
	tst	x9,#0x8080808080808080
	b.ne	2f
	mov	x0,sp
	add	x1,x8,#32
	mov	x2,x20
	bl	_rtp_92408dd3_rtp_core.slice.words.skip_far.52f9edcae2f82f51
	mov	x8,x0
	sub	x9,x20,x0
	cmp	x9,#31
	b.hi	10b
2:
	sub	x9,x20,x8
2:
	cmp	x9,#9
	b.lo	10f
	ldr	x10,[x21,x8]
	ands	x10,x10,#0x8080808080808080
	rbit	x10,x10
	clz	x10,x10
	lsr	x10,x10,#3
	mov	w11,#8
	csel	x10,x11,x10,eq
	add	x11,x10,x8
	add	x8,x8,#8
	sub	x9,x9,#8
	cmp	x11,x8
	b.hs	2b
	add	x8,x10,x8
	sub	x8,x8,#8
	b	7b
5:
	cmp	w11,#239
	b.hi	2f
	cmp	x10,#3
	b.lo	5f
	ldrsb	w12,[x8,#1]
	cmn	w12,#65
	b.gt	9f
	ldrsb	w13,[x8,#2]
	cmn	w13,#65
	b.gt	9f
	and	w13,w12,#0xff
	add	w13,w13,w11,lsl #6
	mov	w14,#-14464
	add	w13,w13,w14
	cmp	w13,#32
	b.lo	9f
	cmp	w13,#896
	mov	w12,#3
	csel	x14,xzr,x12,lo
	cmp	w13,#864
	b.lo	6b
	mov	x12,x14
	b	11f
3:
	mov	x8,x9
	b	7b
2:
	cmp	x10,#4
	b.lo	2f
	ldrsb	w12,[x8,#1]
	cmn	w12,#65
	b.gt	2f
	ldrsb	w13,[x8,#2]
	cmn	w13,#65
	b.gt	2f
	ldrsb	w13,[x8,#3]
	cmn	w13,#65
	b.gt	2f
	and	w12,w12,#0xff
	add	w12,w12,w11,lsl #6
	mov	w13,#-15488
	add	w13,w12,w13
	cmp	w13,#272
	mov	w12,#4
	csel	x12,x12,xzr,lo
	cmp	w13,#16
	b.lo	2f
11:
	cbnz	x12,6b
	b	2f
10:
	ldr	x8,[x21,x22]
	ands	x8,x8,#0x8080808080808080
	rbit	x8,x8
	clz	x8,x8
	lsr	x8,x8,#3
	mov	w9,#8
	csel	x8,x9,x8,eq
	add	x8,x8,x22
	b	7b
1:
	stp	xzr,x21,[x19]
	str	x20,[x19,#16]
	ldp	x29,x30,[sp,#48]
	ldp	x20,x19,[sp,#32]
	ldp	x22,x21,[sp,#16]
	add	sp,sp,#64
	ret
2:
	cmp	w11,#244
	b.hi	4f
5:
	cmp	x10,#2
	b.lo	8f
	ldrb	w12,[x8,#1]
9:
	mov	w13,#-128
	mov	w14,#-112
	cmp	w11,#240
	csel	w13,w14,w13,eq
	mov	w14,#-96
	cmp	w11,#224
	csel	w13,w14,w13,eq
	and	w14,w13,#0xf0
	mov	w13,#-65
	mov	w15,#-113
	cmp	w11,#244
	csel	w13,w15,w13,eq
	mov	w15,#-97
	cmp	w11,#237
	csel	w13,w15,w13,eq
	mov	w11,#257
	cmp	w14,w12,uxtb
	b.hi	1f
	and	w12,w12,#0xff
	cmp	w12,w13,uxtb
	b.hi	1f
	cmp	x10,#2
	b.ne	2f
8:
	mov	x11,#0
	b	1f
4:
	mov	w11,#257
1:
	mov	w8,#1
	stp	x8,x9,[x19]
	str	x11,[x19,#16]
	ldp	x29,x30,[sp,#48]
	ldp	x20,x19,[sp,#32]
	ldp	x22,x21,[sp,#16]
	add	sp,sp,#64
	ret
2:
	ldrsb	w8,[x8,#2]
	cmn	w8,#65
	b.gt	2f
	mov	w8,#769
	cmp	x10,#3
	csel	x11,x8,xzr,hi
	b	1b
2:
	mov	w11,#513
	b	1b
	.cfi_endproc

	.p2align	2
_rtp_92408dd3_rtp_core.slice.words.skip_far.52f9edcae2f82f51:
	.cfi_startproc
	sub	x8,x2,x1
	cmp	x8,#64
	b.lo	1f
	ldr	x9,[x0]
2:
	add	x10,x9,x1
	ldp	q0,q1,[x10,#32]
	ldp	q2,q3,[x10]
	orr.16b	v1,v3,v1
	orr.16b	v0,v2,v0
	orr.16b	v0,v0,v1
	ext.16b	v1,v0,v0,#8
	orr.8b	v0,v0,v1
	fmov	x10,d0
	tst	x10,#0x8080808080808080
	b.ne	1f
	add	x1,x1,#64
	sub	x8,x8,#64
	cmp	x8,#63
	b.hi	2b
1:
	mov	x0,x1
	ret
	.cfi_endproc

	.p2align	2
_rtp_92408dd3_rtp_values.value.stream_id.read_repaired.a6b2bc1c138ab33f:
	.cfi_startproc
	sub	sp,sp,#64
	stp	x20,x19,[sp,#32]
	stp	x29,x30,[sp,#48]
	.cfi_def_cfa_offset 64
	.cfi_offset w30,-8
	.cfi_offset w29,-16
	.cfi_offset w19,-24
	.cfi_offset w20,-32
	mov	x19,x2
	mov	x2,x1
	mov	x1,x0
	stp	xzr,xzr,[sp]
	str	xzr,[sp,#16]
Lrtp_92408dd3_loh20:
	adrp	x20,lrtp_92408dd3__static.2@PAGE
Lrtp_92408dd3_loh21:
	add	x20,x20,lrtp_92408dd3__static.2@PAGEOFF
	cmp	x2,#8
	b.hi	1f
	cbz	x2,2f
	ldrsb	x8,[x1]
	tbnz	x8,#63,1f
	ldrb	w8,[x20,x8]
	cmp	x2,#1
	b.ne	3f
	mov	w12,#32
	mov	x15,#2305843009213693952
	mov	x14,x12
	mov	x13,x12
	mov	w11,#32
	mov	w10,#32
	mov	w9,#32
	b	4f
2:
	mov	x10,#2314885530818453536
	b	2f
3:
	ldrsb	x9,[x1,#1]
	tbnz	x9,#63,1f
	ldrb	w9,[x20,x9]
	cmp	x2,#2
	b.ne	3f
	mov	w12,#32
	mov	x15,#2305843009213693952
	mov	x14,x12
	mov	x13,x12
	mov	w11,#32
	mov	w10,#32
	b	4f
3:
	ldrsb	x10,[x1,#2]
	tbnz	x10,#63,1f
	ldrb	w10,[x20,x10]
	cmp	x2,#3
	b.ne	3f
	mov	w12,#32
	mov	x15,#2305843009213693952
	mov	x14,x12
	mov	x13,x12
	mov	w11,#32
	b	4f
3:
	ldrsb	x11,[x1,#3]
	tbnz	x11,#63,1f
	ldrb	w11,[x20,x11]
	cmp	x2,#4
	b.ne	3f
	mov	w12,#32
	mov	x15,#2305843009213693952
	mov	x14,x12
	mov	x13,x12
	b	4f
3:
	ldrsb	x12,[x1,#4]
	tbnz	x12,#63,1f
	ldrb	w13,[x20,x12]
	cmp	x2,#5
	b.ne	3f
	mov	w12,#32
	mov	x15,#2305843009213693952
	mov	x14,x12
	b	4f
3:
	ldrsb	x12,[x1,#5]
	tbnz	x12,#63,1f
	ldrb	w14,[x20,x12]
	cmp	x2,#6
	b.ne	3f
	mov	w12,#32
	mov	x15,#2305843009213693952
	b	4f
3:
	ldrsb	x12,[x1,#6]
	tbnz	x12,#63,1f
	ldrb	w12,[x20,x12]
	cmp	x2,#7
	b.ne	3f
	mov	x15,#2305843009213693952
	b	4f
3:
	ldrsb	x15,[x1,#7]
	tbnz	x15,#63,1f
	ldrb	w15,[x20,x15]
	lsl	x15,x15,#56
4:
	orr	x12,x15,x12,lsl #48
	orr	x12,x12,x14,lsl #40
	orr	x12,x12,x13,lsl #32
	mov	w11,w11
	mov	w10,w10
	orr	x11,x12,x11,lsl #24
	mov	w9,w9
	orr	x10,x11,x10,lsl #16
	orr	x9,x10,x9,lsl #8
	orr	x10,x9,x8
	b	2f
1:
	mov	x0,sp
	bl	_rtp_92408dd3_rtp_core.str.utf8.from_utf8
	ldrb	w8,[sp]
	cbz	w8,1f
	ldp	x29,x30,[sp,#48]
	ldp	x20,x19,[sp,#32]
	add	sp,sp,#64
	ret
1:
	ldp	x8,x9,[sp,#8]
	mov	x10,#2314885530818453536
	str	x10,[sp,#24]
	cbz	x9,2f
	mov	x10,#0
	mov	x11,#0
1:
	ldrsb	w12,[x8,x11]
	cmn	w12,#64
	b.lt	3f
	and	x12,x12,#0xff
	ldrb	w12,[x20,x12]
	add	x13,sp,#24
	strb	w12,[x13,x10]
	add	x10,x10,#1
3:
	add	x11,x11,#1
	cmp	x11,x9
	b.hs	3f
	cmp	x10,#8
	b.ne	1b
3:
	ldr	x10,[sp,#24]
2:
	mov	w8,#1
	and	x9,x10,#0xff
	strb	w8,[x19,#130]
	and	x8,x10,#0xff00
	and	x11,x10,#0xff0000
	and	x12,x10,#0xff000000
	and	x13,x10,#0xff00000000
	and	x14,x10,#0xff0000000000
	and	x15,x10,#0xff000000000000
	and	x10,x10,#0xff00000000000000
	mov	x16,#2305843009213693952
	cmp	x10,x16
	csel	x10,xzr,x10,eq
	mov	x16,#9007199254740992
	cmp	x15,x16
	csel	x15,xzr,x15,eq
	orr	x10,x10,x15
	mov	x15,#35184372088832
	cmp	x14,x15
	csel	x14,xzr,x14,eq
	mov	x15,#137438953472
	cmp	x13,x15
	csel	x13,xzr,x13,eq
	orr	x13,x14,x13
	orr	x10,x10,x13
	mov	w13,#536870912
	cmp	x12,x13
	csel	x12,xzr,x12,eq
	cmp	x11,#512,lsl #12
	csel	x11,xzr,x11,eq
	cmp	x8,#2,lsl #12
	csel	x8,xzr,x8,eq
	cmp	x9,#32
	csel	x9,xzr,x9,eq
	orr	x11,x12,x11
	orr	x8,x11,x8
	orr	x8,x10,x8
	orr	x8,x8,x9
	stur	x8,[x19,#106]
	strb	wzr,[x19,#114]
	ldp	x29,x30,[sp,#48]
	ldp	x20,x19,[sp,#32]
	add	sp,sp,#64
	ret
	.loh AdrpAdd	Lrtp_92408dd3_loh20,Lrtp_92408dd3_loh21
	.cfi_endproc

	.p2align	2
_rtp_92408dd3_rtp_wire.header.block.close_block:
	.cfi_startproc
	add	x9,x2,#3
	and	x10,x9,#0xfffffffffffffffc
	add	x8,x2,#4
	subs	x10,x10,x2
	b.eq	1f
	cmp	x10,#2
	b.eq	2f
	cmp	x10,#1
	b.ne	3f
	strb	wzr,[x0,x8]
	add	x8,x2,#5
	b	1f
2:
	strh	wzr,[x0,x8]
	add	x8,x2,#6
	b	1f
3:
	add	x8,x0,x8
	strb	wzr,[x8,#2]
	strh	wzr,[x8]
	add	x8,x2,#7
1:
	lsr	w10,w9,#2
	lsr	w9,w9,#10
	tst	w1,#0xff
	mov	w11,#16
	mov	w12,#57022
	csel	w11,w12,w11,eq
	bfi	w11,w9,#16,#8
	bfi	w11,w10,#24,#8
	str	w11,[x0]
	mov	x0,x8
	ret
	.cfi_endproc

	.p2align	2
_rtp_92408dd3_rtp_ext.raw_writing.put_elements.d57726891005992a:
	.cfi_startproc
	str	x27,[sp,#-96]!
	stp	x26,x25,[sp,#16]
	stp	x24,x23,[sp,#32]
	stp	x22,x21,[sp,#48]
	stp	x20,x19,[sp,#64]
	stp	x29,x30,[sp,#80]
	.cfi_def_cfa_offset 96
	.cfi_offset w30,-8
	.cfi_offset w29,-16
	.cfi_offset w19,-24
	.cfi_offset w20,-32
	.cfi_offset w21,-40
	.cfi_offset w22,-48
	.cfi_offset w23,-56
	.cfi_offset w24,-64
	.cfi_offset w25,-72
	.cfi_offset w26,-80
	.cfi_offset w27,-96
	ldr	x21,[x2,#24]
	cbz	x21,1f
	mov	x19,x0
	ldr	x22,[x2]
	ldr	x23,[x2,#16]
	tst	w1,#0xff
	b.eq	2f
	mov	x0,#0
	mov	x24,#0
	add	x25,x19,#2
	add	x27,x22,#32
	b	3f
4:
	ldrb	w8,[x1]
	strb	w8,[x19,x26]
5:
	add	x0,x26,x20
	add	x24,x24,#1
	cmp	x24,x21
	b.eq	6f
3:
	add	x9,x23,x24,lsl #5
	ldp	x8,x20,[x9]
	ldrb	w9,[x9,#24]
	add	x1,x22,x8
	add	x10,x19,x0
	strb	w9,[x10]
	strb	w20,[x10,#1]
	add	x26,x0,#2
	cbz	x20,3f
	cmp	x20,#1
	b.eq	4b
	cmp	x20,#2
	b.hi	4f
	ldrb	w8,[x1]
	add	x9,x19,x26
	strb	w8,[x9]
	ldrb	w8,[x1,#1]
	strb	w8,[x9,#1]
	b	5b
4:
	cmp	x20,#3
	b.ne	3f
	ldrb	w8,[x1]
	add	x9,x19,x26
	strb	w8,[x9]
	ldrb	w8,[x1,#1]
	strb	w8,[x9,#1]
	ldrb	w8,[x1,#2]
	strb	w8,[x9,#2]
	b	5b
3:
	add	x9,x19,x26
	sub	x9,x9,x1
	cmp	x9,x20
	b.hs	3f
	cmp	x20,#8
	b.lo	4f
	add	x9,x25,x0
	sub	x9,x9,x22
	sub	x9,x9,x8
	cmp	x9,#64
	b.hs	7f
4:
	mov	x9,#0
4:
	sub	x10,x20,x9
	add	x8,x9,x8
	add	x8,x22,x8
	add	x9,x9,x0
	add	x9,x25,x9
8:
	ldrb	w11,[x8],#1
	strb	w11,[x9],#1
	subs	x10,x10,#1
	b.ne	8b
	b	5b
3:
	add	x0,x19,x26
	mov	x2,x20
	bl	_memmove
	b	5b
7:
	cmp	x20,#64
	b.hs	3f
	mov	x9,#0
	b	7f
3:
	and	x10,x20,#0x38
	and	x9,x20,#0xffffffffffffffc0
	add	x11,x19,#34
	add	x11,x11,x0
	add	x12,x27,x8
	and	x13,x20,#0xffffffffffffffc0
3:
	ldp	q0,q1,[x12,#-32]
	ldp	q2,q3,[x12],#64
	stp	q0,q1,[x11,#-32]
	stp	q2,q3,[x11],#64
	subs	x13,x13,#64
	b.ne	3b
	cmp	x20,x9
	b.eq	5b
	cbz	x10,4b
7:
	mov	x12,x9
	and	x9,x20,#0xfffffffffffffff8
	sub	x10,x12,x9
	add	x11,x12,x8
	add	x11,x22,x11
	add	x12,x12,x0
	add	x12,x25,x12
3:
	ldr	d0,[x11],#8
	str	d0,[x12],#8
	adds	x10,x10,#8
	b.ne	3b
	cmp	x20,x9
	b.eq	5b
	b	4b
1:
	mov	x0,#0
6:
	ldp	x29,x30,[sp,#80]
	ldp	x20,x19,[sp,#64]
	ldp	x22,x21,[sp,#48]
	ldp	x24,x23,[sp,#32]
	ldp	x26,x25,[sp,#16]
	ldr	x27,[sp],#96
	ret
2:
	mov	x0,#0
	mov	x24,#0
	add	x25,x19,#1
	add	x27,x22,#32
	b	1f
2:
	ldrb	w8,[x1]
	strb	w8,[x19,x26]
3:
	add	x0,x26,x20
	add	x24,x24,#1
	cmp	x24,x21
	b.eq	6b
1:
	add	x9,x23,x24,lsl #5
	ldp	x8,x20,[x9]
	ldrb	w9,[x9,#24]
	add	x1,x22,x8
	lsr	w10,w9,#4
	orr	w9,w10,w9,lsl #4
	add	w9,w20,w9
	sub	w9,w9,#1
	strb	w9,[x19,x0]
	add	x26,x0,#1
	cbz	x20,1f
	cmp	x20,#1
	b.eq	2b
	cmp	x20,#3
	b.hs	2f
	ldrb	w8,[x1]
	add	x9,x19,x26
	strb	w8,[x9]
	ldrb	w8,[x1,#1]
	strb	w8,[x9,#1]
	b	3b
2:
	b.ne	1f
	ldrb	w8,[x1]
	add	x9,x19,x26
	strb	w8,[x9]
	ldrb	w8,[x1,#1]
	strb	w8,[x9,#1]
	ldrb	w8,[x1,#2]
	strb	w8,[x9,#2]
	b	3b
1:
	add	x9,x19,x26
	sub	x9,x9,x1
	cmp	x9,x20
	b.hs	1f
	cmp	x20,#8
	b.lo	2f
	add	x9,x25,x0
	sub	x9,x9,x22
	sub	x9,x9,x8
	cmp	x9,#64
	b.hs	4f
2:
	mov	x9,#0
2:
	sub	x10,x20,x9
	add	x8,x9,x8
	add	x8,x22,x8
	add	x9,x9,x0
	add	x9,x25,x9
5:
	ldrb	w11,[x8],#1
	strb	w11,[x9],#1
	subs	x10,x10,#1
	b.ne	5b
	b	3b
1:
	add	x0,x19,x26
	mov	x2,x20
	bl	_memmove
	b	3b
4:
	cmp	x20,#64
	b.hs	1f
	mov	x9,#0
	b	4f
1:
	and	x10,x20,#0x38
	and	x9,x20,#0xffffffffffffffc0
	add	x11,x19,#33
	add	x11,x11,x0
	add	x12,x27,x8
	and	x13,x20,#0xffffffffffffffc0
1:
	ldp	q0,q1,[x12,#-32]
	ldp	q2,q3,[x12],#64
	stp	q0,q1,[x11,#-32]
	stp	q2,q3,[x11],#64
	subs	x13,x13,#64
	b.ne	1b
	cmp	x20,x9
	b.eq	3b
	cbz	x10,2b
4:
	mov	x12,x9
	and	x9,x20,#0xfffffffffffffff8
	sub	x10,x12,x9
	add	x11,x12,x8
	add	x11,x22,x11
	add	x12,x12,x0
	add	x12,x25,x12
1:
	ldr	d0,[x11],#8
	str	d0,[x12],#8
	adds	x10,x10,#8
	b.ne	1b
	cmp	x20,x9
	b.eq	3b
	b	2b
	.cfi_endproc

	.p2align	2
_rtp_92408dd3_rtp_ext.form_change.row_len:
	.cfi_startproc
	stp	x24,x23,[sp,#-64]!
	stp	x22,x21,[sp,#16]
	stp	x20,x19,[sp,#32]
	stp	x29,x30,[sp,#48]
	.cfi_def_cfa_offset 64
	.cfi_offset w30,-8
	.cfi_offset w29,-16
	.cfi_offset w19,-24
	.cfi_offset w20,-32
	.cfi_offset w21,-40
	.cfi_offset w22,-48
	.cfi_offset w23,-56
	.cfi_offset w24,-64
	mov	x20,x3
	mov	x21,x2
	and	w22,w4,#0xff
	tst	w0,#0xff
	b.eq	1f
	tst	w1,#0xff
	b.eq	2f
	mov	x19,#0
	mov	x8,#0
3:
	subs	x1,x20,x8
	b.eq	4f
	add	x0,x21,x8
	ldrb	w8,[x0]
	cbnz	w8,5f
	cmp	x1,#2
	b.eq	6f
	cmp	x1,#1
	b.eq	4f
	cmp	x1,#3
	b.hi	7f
	ldrb	w8,[x0,#1]
	cbnz	w8,7f
	ldrb	w8,[x0,#2]
	cbnz	w8,7f
	b	4f
6:
	ldrb	w8,[x0,#1]
	cbz	w8,4f
7:
	sub	x1,x1,#1
	add	x0,x0,#1
	bl	_rtp_92408dd3_rtp_ext.elements.skip_zeros
	cbz	x1,4f
5:
	cmp	x1,#2
	b.lo	4f
	ldrb	w9,[x0,#1]
	add	x8,x9,#2
	subs	x8,x8,x1
	b.hi	4f
	ldrb	w10,[x0]
	add	x8,x8,x20
	cmp	w10,w22
	ccmp	w10,#0,#4,ne
	b.eq	3b
	add	x9,x19,x9
	add	x19,x9,#2
	b	3b
1:
	tst	w1,#0xff
	b.eq	1f
	mov	x19,#0
	mov	x8,#0
3:
	subs	x1,x20,x8
	b.eq	4f
	add	x8,x21,x8
	ldrb	w9,[x8]
	cbnz	w9,5f
	cmp	x1,#2
	b.eq	6f
	cmp	x1,#1
	b.eq	4f
	cmp	x1,#3
	b.hi	7f
	ldrb	w9,[x8,#1]
	cbnz	w9,7f
	ldrb	w9,[x8,#2]
	cbnz	w9,7f
	b	4f
6:
	ldrb	w9,[x8,#1]
	cbz	w9,4f
7:
	sub	x1,x1,#1
	add	x0,x8,#1
	bl	_rtp_92408dd3_rtp_ext.elements.skip_zeros
	cbz	x1,4f
	ldrb	w9,[x0]
5:
	cmp	w9,#239
	b.hi	4f
	and	w8,w9,#0xf
	add	w10,w8,#2
	subs	x8,x10,x1
	b.hi	4f
	lsr	w9,w9,#4
	add	x8,x8,x20
	cmp	w9,w22
	ccmp	w9,#0,#4,ne
	b.eq	3b
	add	x9,x19,x10
	add	x19,x9,#1
	b	3b
2:
	mov	x23,#0
	mov	x8,#0
2:
	subs	x1,x20,x8
	b.eq	3f
	add	x0,x21,x8
	ldrb	w8,[x0]
	cbnz	w8,5f
	cmp	x1,#2
	b.eq	6f
	cmp	x1,#1
	b.eq	3f
	cmp	x1,#3
	b.hi	7f
	ldrb	w8,[x0,#1]
	cbnz	w8,7f
	ldrb	w8,[x0,#2]
	cbnz	w8,7f
	b	3f
6:
	ldrb	w8,[x0,#1]
	cbz	w8,3f
7:
	sub	x1,x1,#1
	add	x0,x0,#1
	bl	_rtp_92408dd3_rtp_ext.elements.skip_zeros
	cbz	x1,3f
5:
	cmp	x1,#2
	b.lo	3f
	ldrb	w9,[x0,#1]
	add	x8,x9,#2
	subs	x8,x8,x1
	b.hi	3f
	ldrb	w10,[x0]
	add	x8,x8,x20
	cmp	w10,w22
	b.eq	2b
	cbz	w10,2b
	mov	w0,#0
	mov	x19,#0
	cmp	w10,#14
	b.hi	5f
	sub	w10,w9,#1
	cmp	w10,#15
	b.hi	5f
	add	x9,x23,x9
	add	x23,x9,#1
	b	2b
3:
	mov	w0,#1
	mov	x19,x23
5:
	mov	x1,x19
	ldp	x29,x30,[sp,#48]
	ldp	x20,x19,[sp,#32]
	ldp	x22,x21,[sp,#16]
	ldp	x24,x23,[sp],#64
	ret
1:
	mov	x19,#0
	mov	x8,#0
1:
	subs	x1,x20,x8
	b.eq	4f
	add	x8,x21,x8
	ldrb	w9,[x8]
	cbnz	w9,2f
	cmp	x1,#2
	b.eq	3f
	cmp	x1,#1
	b.eq	4f
	cmp	x1,#3
	b.hi	5f
	ldrb	w9,[x8,#1]
	cbnz	w9,5f
	ldrb	w9,[x8,#2]
	cbnz	w9,5f
	b	4f
3:
	ldrb	w9,[x8,#1]
	cbz	w9,4f
5:
	sub	x1,x1,#1
	add	x0,x8,#1
	bl	_rtp_92408dd3_rtp_ext.elements.skip_zeros
	cbz	x1,4f
	ldrb	w9,[x0]
2:
	cmp	w9,#239
	b.hi	4f
	and	w8,w9,#0xf
	add	w10,w8,#2
	subs	x8,x10,x1
	b.hi	4f
	lsr	w9,w9,#4
	add	x8,x8,x20
	cmp	w9,w22
	ccmp	w9,#0,#4,ne
	b.eq	1b
	add	x19,x19,x10
	b	1b
4:
	mov	w0,#1
	mov	x1,x19
	ldp	x29,x30,[sp,#48]
	ldp	x20,x19,[sp,#32]
	ldp	x22,x21,[sp,#16]
	ldp	x24,x23,[sp],#64
	ret
	.cfi_endproc

	.p2align	2
_rtp_92408dd3_rtp_wire.packet.rewriting.has_long_id:
	.cfi_startproc
	stp	x29,x30,[sp,#-16]!
	.cfi_def_cfa_offset 16
	.cfi_offset w30,-8
	.cfi_offset w29,-16
	mov	x8,x1
	tst	w0,#0xff
	b.eq	1f
2:
	cbz	x2,3f
	ldrb	w9,[x8]
	cbz	w9,4f
	cmp	x2,#2
	b.hs	5f
	b	3f
4:
	cmp	x2,#2
	b.eq	4f
	cmp	x2,#1
	b.eq	3f
	cmp	x2,#3
	b.hi	6f
	ldrb	w9,[x8,#1]
	cbnz	w9,6f
	ldrb	w9,[x8,#2]
	cbnz	w9,6f
	b	3f
4:
	ldrb	w9,[x8,#1]
	cbz	w9,3f
6:
	sub	x1,x2,#1
	add	x0,x8,#1
	bl	_rtp_92408dd3_rtp_ext.elements.skip_zeros
	cbz	x1,3f
	mov	x8,x0
	mov	x2,x1
	cmp	x1,#2
	b.lo	3f
5:
	ldrb	w9,[x8,#1]
	add	x9,x9,#2
	subs	x2,x2,x9
	b.lo	3f
	ldrb	w10,[x8]
	add	x8,x8,x9
	cmp	w10,#15
	b.lo	2b
	mov	w0,#1
	ldp	x29,x30,[sp],#16
	ret
1:
	cbz	x2,3f
1:
	ldrb	w9,[x8]
	cbnz	w9,2f
	cmp	x2,#2
	b.eq	4f
	cmp	x2,#1
	b.eq	3f
	cmp	x2,#3
	b.hi	5f
	ldrb	w9,[x8,#1]
	cbnz	w9,5f
	ldrb	w9,[x8,#2]
	cbnz	w9,5f
	b	3f
4:
	ldrb	w9,[x8,#1]
	cbz	w9,3f
5:
	sub	x1,x2,#1
	add	x0,x8,#1
	bl	_rtp_92408dd3_rtp_ext.elements.skip_zeros
	cbz	x1,3f
	mov	x8,x0
	mov	x2,x1
	ldrb	w9,[x0]
2:
	cmp	w9,#239
	b.hi	3f
	and	w9,w9,#0xf
	add	w9,w9,#2
	subs	x2,x2,x9
	add	x8,x8,x9
	ccmp	x2,#0,#4,hs
	b.ne	1b
3:
	mov	w0,#0
	ldp	x29,x30,[sp],#16
	ret
	.cfi_endproc

	.p2align	2
_rtp_92408dd3_rtp_wire.packet.resizing.move_bytes:
	.cfi_startproc
	subs	x8,x3,x1
	b.ne	1f
2:
	ret
1:
	b.ls	1f
	cmp	x8,#8
	b.eq	3f
	cmp	x8,#4
	b.ne	4f
	subs	x2,x2,x1
	b.eq	2b
	add	x1,x0,x1
	add	x0,x1,#4
	b	_memmove
1:
	sub	x9,x1,x3
	cmp	x9,#8
	b.eq	1f
	cmp	x9,#4
	b.ne	5f
	subs	x2,x2,x1
	b.eq	2b
	add	x1,x0,x1
	sub	x0,x1,#4
	b	_memmove
3:
	subs	x2,x2,x1
	b.eq	2b
	add	x1,x0,x1
	add	x0,x1,#8
	b	_memmove
1:
	subs	x2,x2,x1
	b.eq	2b
	add	x1,x0,x1
	sub	x0,x1,#8
	b	_memmove
4:
	subs	x9,x2,x1
	b.eq	2b
	cmp	x9,#8
	b.lo	1f
	sub	x10,x1,x3
	cmp	x10,#64
	b.lo	1f
	cmp	x9,#64
	b.hs	3f
	mov	x10,#0
	b	4f
5:
	subs	x9,x2,x1
	b.eq	2b
	mov	x10,#0
	cmp	x9,#8
	b.lo	5f
	cmp	x8,#64
	b.lo	5f
	cmp	x9,#64
	b.hs	6f
	mov	x10,#0
	b	7f
3:
	and	x11,x9,#0x38
	and	x10,x9,#0xffffffffffffffc0
	add	x12,x3,x2
	sub	x12,x12,x1
	add	x12,x12,x0
	sub	x12,x12,#64
	add	x13,x2,x0
	sub	x13,x13,#32
	and	x14,x9,#0xffffffffffffffc0
3:
	ldp	q1,q0,[x13]
	ldp	q3,q2,[x13,#-32]
	stp	q1,q0,[x12,#32]
	stp	q3,q2,[x12],#-64
	sub	x13,x13,#64
	sub	x14,x14,#64
	cbnz	x14,3b
	cmp	x9,x10
	b.eq	2b
	cbz	x11,3f
4:
	and	x12,x9,#0xfffffffffffffff8
	and	x11,x9,#0x7
	sub	x13,x2,x10
	add	x13,x13,x0
	sub	x13,x13,#8
	sub	x10,x10,x12
4:
	ldr	d0,[x13]
	str	d0,[x13,x8]
	sub	x13,x13,#8
	adds	x10,x10,#8
	b.ne	4b
	cmp	x9,x12
	mov	x9,x11
	b.eq	2b
1:
	add	x8,x3,x0
	sub	x8,x8,#1
	add	x10,x1,x0
	sub	x10,x10,#1
4:
	ldrb	w11,[x10,x9]
	strb	w11,[x8,x9]
	subs	x9,x9,#1
	b.ne	4b
	b	2b
6:
	and	x8,x9,#0x38
	and	x10,x9,#0xffffffffffffffc0
	add	x11,x1,x0
	add	x11,x11,#32
	add	x12,x3,x0
	add	x12,x12,#32
	and	x13,x9,#0xffffffffffffffc0
4:
	ldp	q0,q1,[x11,#-32]
	ldp	q2,q3,[x11],#64
	stp	q0,q1,[x12,#-32]
	stp	q2,q3,[x12],#64
	subs	x13,x13,#64
	b.ne	4b
	cmp	x9,x10
	b.eq	2b
	cbz	x8,5f
7:
	mov	x12,x10
	and	x10,x9,#0xfffffffffffffff8
	sub	x8,x12,x10
	add	x11,x12,x3
	add	x11,x0,x11
	add	x12,x12,x1
	add	x12,x0,x12
4:
	ldr	d0,[x12],#8
	str	d0,[x11],#8
	adds	x8,x8,#8
	b.ne	4b
	cmp	x9,x10
	b.eq	2b
5:
	add	x11,x10,x1
	sub	x8,x11,x2
	add	x9,x10,x3
	add	x9,x0,x9
	add	x10,x0,x11
4:
	ldrb	w11,[x10],#1
	strb	w11,[x9],#1
	adds	x8,x8,#1
	b.lo	4b
	b	2b
3:
	and	x9,x9,#0x3f
	b	1b
	.cfi_endproc

	.p2align	2
_rtp_92408dd3_rtp_ext.gathering.gather_around:
	.cfi_startproc
	stp	x24,x23,[sp,#-64]!
	stp	x22,x21,[sp,#16]
	stp	x20,x19,[sp,#32]
	stp	x29,x30,[sp,#48]
	.cfi_def_cfa_offset 64
	.cfi_offset w30,-8
	.cfi_offset w29,-16
	.cfi_offset w19,-24
	.cfi_offset w20,-32
	.cfi_offset w21,-40
	.cfi_offset w22,-48
	.cfi_offset w23,-56
	.cfi_offset w24,-64
	mov	x19,x5
	mov	x20,x4
	mov	x21,x3
	mov	x22,x1
	mov	x23,x0
	mov	x3,x5
	bl	_rtp_92408dd3_rtp_ext.gathering.gather
	mov	x24,x0
	sub	x2,x20,x21
	add	x1,x22,x21
	mov	x0,x23
	mov	x3,x19
	bl	_rtp_92408dd3_rtp_ext.gathering.gather
	mov	x1,x0
	mov	x0,x24
	ldp	x29,x30,[sp,#48]
	ldp	x20,x19,[sp,#32]
	ldp	x22,x21,[sp,#16]
	ldp	x24,x23,[sp],#64
	ret
	.cfi_endproc

	.p2align	2
_rtp_92408dd3_rtp_ext.gathering.gather:
	.cfi_startproc
	stp	x26,x25,[sp,#-80]!
	stp	x24,x23,[sp,#16]
	stp	x22,x21,[sp,#32]
	stp	x20,x19,[sp,#48]
	stp	x29,x30,[sp,#64]
	.cfi_def_cfa_offset 80
	.cfi_offset w30,-8
	.cfi_offset w29,-16
	.cfi_offset w19,-24
	.cfi_offset w20,-32
	.cfi_offset w21,-40
	.cfi_offset w22,-48
	.cfi_offset w23,-56
	.cfi_offset w24,-64
	.cfi_offset w25,-72
	.cfi_offset w26,-80
	mov	x20,x2
	mov	x21,x1
	and	w22,w3,#0xff
	tst	w0,#0xff
	b.eq	1f
	mov	x19,#0
	mov	x8,#0
	add	x23,x21,#32
	add	x24,x23,x20
	add	x25,x21,x20
2:
	subs	x1,x20,x8
	b.eq	3f
	add	x0,x21,x8
	ldrb	w8,[x0]
	cbnz	w8,4f
	cmp	x1,#2
	b.eq	5f
	cmp	x1,#1
	b.eq	3f
	cmp	x1,#3
	b.hi	6f
	ldrb	w8,[x0,#1]
	cbnz	w8,6f
	ldrb	w8,[x0,#2]
	cbnz	w8,6f
	b	3f
5:
	ldrb	w8,[x0,#1]
	cbz	w8,3f
6:
	sub	x1,x1,#1
	add	x0,x0,#1
	bl	_rtp_92408dd3_rtp_ext.elements.skip_zeros
	cbz	x1,3f
4:
	cmp	x1,#2
	b.lo	3f
	ldrb	w10,[x0,#1]
	add	x8,x10,#2
	subs	x8,x8,x1
	b.hi	3f
	ldrb	w9,[x0]
	add	x8,x8,x20
	cmp	w9,w22
	b.eq	2b
	sub	x9,x8,x10
	sub	x11,x9,#2
	cmp	x19,x11
	b.hs	4f
	subs	x11,x8,x11
	b.eq	4f
	cmp	x11,#8
	b.lo	5f
	sub	x12,x19,x20
	add	x12,x12,x1
	cmp	x12,#64
	b.hs	6f
5:
	mov	x12,#0
5:
	sub	x10,x10,x12
	add	x10,x10,#2
	add	x11,x12,x19
	add	x11,x21,x11
	add	x12,x25,x12
	sub	x12,x12,x1
7:
	ldrb	w13,[x12],#1
	strb	w13,[x11],#1
	subs	x10,x10,#1
	b.ne	7b
4:
	add	x10,x8,x19
	sub	x9,x10,x9
	add	x19,x9,#2
	b	2b
6:
	cmp	x11,#64
	b.hs	2f
	mov	x12,#0
	b	6f
2:
	and	x13,x11,#0x38
	and	x12,x11,#0xffffffffffffffc0
	sub	x14,x24,x1
	add	x15,x23,x19
	and	x16,x11,#0xffffffffffffffc0
2:
	ldp	q0,q1,[x14,#-32]
	ldp	q2,q3,[x14],#64
	stp	q0,q1,[x15,#-32]
	stp	q2,q3,[x15],#64
	subs	x16,x16,#64
	b.ne	2b
	cmp	x11,x12
	b.eq	4b
	cbz	x13,5b
6:
	mov	x15,x12
	and	x12,x11,#0xfffffffffffffff8
	sub	x13,x15,x12
	add	x14,x15,x19
	add	x14,x21,x14
	add	x15,x25,x15
	sub	x15,x15,x1
2:
	ldr	d0,[x15],#8
	str	d0,[x14],#8
	adds	x13,x13,#8
	b.ne	2b
	cmp	x11,x12
	b.eq	4b
	b	5b
1:
	mov	x9,#0
	mov	x19,#0
	add	x23,x21,x20
	subs	x1,x20,x9
	b.ne	1f
3:
	mov	x0,x19
	ldp	x29,x30,[sp,#64]
	ldp	x20,x19,[sp,#48]
	ldp	x22,x21,[sp,#32]
	ldp	x24,x23,[sp,#16]
	ldp	x26,x25,[sp],#80
	ret
2:
	cbz	w9,4f
	cmp	w9,#239
	b.hi	3b
5:
	and	w8,w9,#0xf
	add	w8,w8,#2
	subs	x10,x8,x1
	b.hi	3b
6:
	lsr	w11,w9,#4
	add	x9,x10,x20
	cmp	w11,w22
	ccmp	w11,#0,#4,ne
	b.ne	7f
	subs	x1,x20,x9
	b.eq	3b
1:
	add	x8,x21,x9
	ldrb	w9,[x8]
	sub	w10,w9,#240
	cmn	w10,#224
	b.lo	2b
	and	x8,x9,#0xf
	add	x8,x8,#2
	subs	x10,x8,x1
	b.hi	5b
	b	6b
4:
	cmp	x1,#2
	b.eq	2f
	cmp	x1,#1
	b.eq	3b
	cmp	x1,#3
	b.hi	4f
	ldrb	w9,[x8,#1]
	cbnz	w9,4f
	ldrb	w9,[x8,#2]
	cbnz	w9,4f
	b	3b
2:
	ldrb	w9,[x8,#1]
	cbz	w9,3b
4:
	sub	x1,x1,#1
	add	x0,x8,#1
	bl	_rtp_92408dd3_rtp_ext.elements.skip_zeros
	cbz	x1,3b
	ldrb	w9,[x0]
	cmp	w9,#239
	b.ls	5b
	b	3b
7:
	sub	x12,x9,x8
	cmp	x19,x12
	b.hs	2f
	cmp	x8,#4
	b.lo	4f
	add	x11,x19,x8
	sub	x11,x11,x9
	cmp	x11,#16
	b.hs	5f
4:
	mov	x11,#0
4:
	sub	x12,x11,x8
	add	x11,x11,x19
	add	x11,x21,x11
	add	x10,x23,x10
6:
	ldrb	w13,[x10,x12]
	strb	w13,[x11],#1
	adds	x12,x12,#1
	b.lo	6b
2:
	add	x19,x19,x8
	subs	x1,x20,x9
	b.ne	1b
	b	3b
5:
	cmp	x8,#16
	b.hs	1f
	mov	x11,#0
	b	3f
1:
	and	x11,x8,#0x10
	ldr	q0,[x21,x12]
	str	q0,[x21,x19]
	cmp	x8,x11
	b.eq	2b
	and	x12,x8,#0xc
	cbz	x12,4b
3:
	mov	x14,x11
	and	x11,x8,#0x1c
	sub	x12,x14,x11
	add	x13,x14,x19
	add	x13,x21,x13
	add	x14,x23,x14
	sub	x15,x10,x8
	add	x14,x14,x15
1:
	ldr	w15,[x14],#4
	str	w15,[x13],#4
	adds	x12,x12,#4
	b.ne	1b
	cmp	x8,x11
	b.eq	2b
	b	4b
	.cfi_endproc

	.p2align	2
_rtp_92408dd3_rtp_ext.form_change.change_rows:
	.cfi_startproc
	stp	x24,x23,[sp,#-64]!
	stp	x22,x21,[sp,#16]
	stp	x20,x19,[sp,#32]
	stp	x29,x30,[sp,#48]
	.cfi_def_cfa_offset 64
	.cfi_offset w30,-8
	.cfi_offset w29,-16
	.cfi_offset w19,-24
	.cfi_offset w20,-32
	.cfi_offset w21,-40
	.cfi_offset w22,-48
	.cfi_offset w23,-56
	.cfi_offset w24,-64
	mov	x19,x5
	mov	x21,x2
	mov	x20,x1
	mov	x22,x0
	sub	x8,x2,x5
	cmp	x8,x4
	b.ls	1f
	cbz	x19,2f
	mov	x9,x19
	cmp	x19,#8
	b.lo	3f
	add	x9,x19,x4
	sub	x10,x9,x21
	mov	x9,x19
	cmp	x10,#64
	b.lo	3f
	cmp	x19,#64
	b.hs	4f
	mov	x10,#0
	b	5f
1:
	cbz	x19,2f
	cmp	x19,#8
	b.lo	1f
	add	x9,x19,x4
	sub	x9,x21,x9
	cmp	x9,#64
	b.hs	6f
1:
	mov	x9,#0
1:
	sub	x10,x9,x19
	add	x11,x20,x21
	add	x9,x9,x4
	add	x9,x20,x9
7:
	ldrb	w12,[x9],#1
	strb	w12,[x11,x10]
	adds	x10,x10,#1
	b.lo	7b
	b	2f
6:
	cmp	x19,#64
	b.hs	6f
	mov	x9,#0
	b	7f
4:
	and	x9,x19,#0x38
	and	x10,x19,#0xffffffffffffffc0
	add	x11,x19,x4
	add	x11,x11,x20
	sub	x11,x11,#32
	add	x12,x21,x20
	sub	x12,x12,#32
	and	x13,x19,#0xffffffffffffffc0
4:
	ldp	q1,q0,[x11]
	ldp	q3,q2,[x11,#-32]
	stp	q1,q0,[x12]
	stp	q3,q2,[x12,#-32]
	sub	x11,x11,#64
	sub	x12,x12,#64
	sub	x13,x13,#64
	cbnz	x13,4b
	cmp	x19,x10
	b.eq	2f
	cbz	x9,4f
5:
	and	x11,x19,#0xfffffffffffffff8
	and	x9,x19,#0x7
	sub	x12,x4,x10
	add	x12,x12,x20
	sub	x12,x12,#8
	sub	x13,x21,x10
	add	x13,x13,x20
	sub	x13,x13,#8
	sub	x10,x10,x11
5:
	ldr	d0,[x12,x19]
	str	d0,[x13],#-8
	sub	x12,x12,#8
	adds	x10,x10,#8
	b.ne	5b
	cmp	x19,x11
	b.eq	2f
3:
	neg	x10,x9
	mvn	x11,x19
	add	x12,x9,x21
	add	x11,x11,x12
	add	x11,x20,x11
	add	x9,x9,x4
	add	x9,x9,x20
	sub	x9,x9,#1
5:
	ldrb	w12,[x9],#-1
	strb	w12,[x11],#-1
	adds	x10,x10,#1
	b.lo	5b
2:
	subs	x9,x8,x3
	b.eq	5f
	cbz	x3,5f
	mov	x10,x3
	cmp	x3,#8
	b.lo	8f
	add	x10,x19,x3
	sub	x11,x10,x21
	mov	x10,x3
	cmp	x11,#64
	b.lo	8f
	cmp	x3,#64
	b.hs	9f
	mov	x11,#0
	b	10f
9:
	and	x10,x3,#0x38
	and	x11,x3,#0xffffffffffffffc0
	add	x12,x3,x20
	sub	x12,x12,#32
	add	x8,x8,x20
	sub	x8,x8,#32
	and	x13,x3,#0xffffffffffffffc0
9:
	ldp	q1,q0,[x12]
	ldp	q3,q2,[x12,#-32]
	stp	q1,q0,[x8]
	stp	q3,q2,[x8,#-32]
	sub	x12,x12,#64
	sub	x8,x8,#64
	sub	x13,x13,#64
	cbnz	x13,9b
	cmp	x3,x11
	b.eq	5f
	cbz	x10,9f
10:
	and	x8,x3,#0xfffffffffffffff8
	and	x10,x3,#0x7
	sub	x12,x20,x11
	sub	x12,x12,#8
	add	x13,x11,x19
	sub	x13,x21,x13
	add	x13,x13,x20
	sub	x13,x13,#8
	sub	x11,x11,x8
10:
	ldr	d0,[x12,x3]
	str	d0,[x13],#-8
	sub	x12,x12,#8
	adds	x11,x11,#8
	b.ne	10b
	cmp	x3,x8
	b.eq	5f
8:
	add	x8,x10,x20
	sub	x8,x8,#1
10:
	ldrb	w11,[x8]
	strb	w11,[x8,x9]
	sub	x8,x8,#1
	sub	x10,x10,#1
	cbnz	x10,10b
5:
	sub	x2,x21,x19
	mov	x0,x22
	mov	x1,x20
	bl	_rtp_92408dd3_rtp_ext.form_change.change_row
	mov	x23,x0
	sub	x2,x21,x0
	add	x1,x20,x0
	mov	x0,x22
	mov	x3,x19
	bl	_rtp_92408dd3_rtp_ext.form_change.change_row
	mov	x1,x0
	mov	x0,x23
	ldp	x29,x30,[sp,#48]
	ldp	x20,x19,[sp,#32]
	ldp	x22,x21,[sp,#16]
	ldp	x24,x23,[sp],#64
	ret
6:
	and	x10,x19,#0x38
	and	x9,x19,#0xffffffffffffffc0
	add	x11,x4,x20
	add	x11,x11,#32
	add	x12,x8,x20
	add	x12,x12,#32
	and	x13,x19,#0xffffffffffffffc0
5:
	ldp	q0,q1,[x11,#-32]
	ldp	q2,q3,[x11],#64
	stp	q0,q1,[x12,#-32]
	stp	q2,q3,[x12],#64
	subs	x13,x13,#64
	b.ne	5b
	cmp	x19,x9
	b.eq	2b
	cbz	x10,1b
7:
	mov	x12,x9
	and	x9,x19,#0xfffffffffffffff8
	sub	x10,x12,x9
	add	x11,x12,x21
	sub	x11,x11,x19
	add	x11,x20,x11
	add	x12,x12,x4
	add	x12,x20,x12
5:
	ldr	d0,[x12],#8
	str	d0,[x11],#8
	adds	x10,x10,#8
	b.ne	5b
	cmp	x19,x9
	b.eq	2b
	b	1b
9:
	and	x10,x3,#0x3f
	b	8b
4:
	and	x9,x19,#0x3f
	b	3b
	.cfi_endproc

	.p2align	2
_rtp_92408dd3_rtp_ext.form_change.change_row:
	.cfi_startproc
	str	x27,[sp,#-96]!
	stp	x26,x25,[sp,#16]
	stp	x24,x23,[sp,#32]
	stp	x22,x21,[sp,#48]
	stp	x20,x19,[sp,#64]
	stp	x29,x30,[sp,#80]
	.cfi_def_cfa_offset 96
	.cfi_offset w30,-8
	.cfi_offset w29,-16
	.cfi_offset w19,-24
	.cfi_offset w20,-32
	.cfi_offset w21,-40
	.cfi_offset w22,-48
	.cfi_offset w23,-56
	.cfi_offset w24,-64
	.cfi_offset w25,-72
	.cfi_offset w26,-80
	.cfi_offset w27,-96
	mov	x20,x2
	mov	x21,x1
	tst	w0,#0xff
	b.eq	1f
	mov	x19,#0
	cbz	x3,2f
	sub	x8,x20,x3
	add	x22,x20,#1
	add	x23,x21,#1
	add	x9,x20,x21
	add	x24,x9,#2
	sub	x25,x9,#6
	sub	x26,x21,#7
	add	x27,x21,x22
	b	3f
4:
	lsr	w14,w13,#4
	orr	w13,w14,w13,lsl #4
	add	w13,w11,w13
	sub	w13,w13,#1
	strb	w13,[x21,x19]
	add	x19,x12,x11
	cmp	x9,x3
	neg	x3,x10
	b.eq	2f
3:
	add	x0,x21,x8
	ldrb	w8,[x0]
	cbz	w8,3f
	cmp	x3,#2
	b.hs	5f
	b	2f
3:
	cmp	x3,#2
	b.eq	3f
	cmp	x3,#1
	b.eq	2f
	cmp	x3,#3
	b.hi	6f
	ldrb	w8,[x0,#1]
	cbnz	w8,6f
	ldrb	w8,[x0,#2]
	cbnz	w8,6f
	b	2f
3:
	ldrb	w8,[x0,#1]
	cbz	w8,2f
6:
	sub	x1,x3,#1
	add	x0,x0,#1
	bl	_rtp_92408dd3_rtp_ext.elements.skip_zeros
	cbz	x1,2f
	mov	x3,x1
	cmp	x1,#2
	b.lo	2f
5:
	ldrb	w11,[x0,#1]
	add	x9,x11,#2
	subs	x10,x9,x3
	b.hi	2f
	ldrb	w13,[x0]
	add	x8,x10,x20
	sub	x16,x8,x11
	add	x12,x19,#1
	cmp	x12,x16
	b.ls	3f
	cbz	w11,4b
	mov	x15,x11
	cmp	w11,#8
	b.lo	5f
	add	x14,x3,x19
	sub	x14,x22,x14
	mov	x15,x11
	cmp	x14,#64
	b.lo	5f
	cmp	w11,#64
	b.hs	6f
	mov	x14,#0
	b	7f
3:
	cbz	w11,4b
	cmp	w11,#8
	b.lo	3f
	add	x14,x3,x19
	sub	x14,x20,x14
	cmn	x14,#65
	b.ls	8f
3:
	mov	x14,#0
3:
	sub	x15,x11,x14
	add	x16,x14,x19
	add	x16,x23,x16
	sub	x14,x14,x3
	add	x14,x24,x14
9:
	ldrb	w17,[x14],#1
	strb	w17,[x16],#1
	subs	x15,x15,#1
	b.ne	9b
	b	4b
8:
	cmp	w11,#64
	b.hs	8f
	mov	x14,#0
	b	9f
6:
	and	x14,x11,#0xc0
	sub	x17,x11,#1
	add	x15,x21,x16
	add	x16,x15,x17
	ldur	q0,[x16,#-15]
	ldur	q1,[x16,#-31]
	ldur	q2,[x16,#-47]
	ldur	q3,[x16,#-63]
	add	x16,x21,x12
	add	x17,x16,x17
	stur	q0,[x17,#-15]
	stur	q1,[x17,#-31]
	stur	q2,[x17,#-47]
	stur	q3,[x17,#-63]
	cmp	x14,#64
	b.eq	6f
	sub	x17,x11,#65
	add	x0,x15,x17
	ldur	q0,[x0,#-15]
	ldur	q1,[x0,#-31]
	ldur	q2,[x0,#-47]
	ldur	q3,[x0,#-63]
	add	x17,x16,x17
	stur	q0,[x17,#-15]
	stur	q1,[x17,#-31]
	stur	q2,[x17,#-47]
	stur	q3,[x17,#-63]
	cmp	x14,#128
	b.eq	6f
	sub	x17,x11,#129
	add	x15,x15,x17
	ldur	q0,[x15,#-15]
	ldur	q1,[x15,#-31]
	ldur	q2,[x15,#-47]
	ldur	q3,[x15,#-63]
	add	x15,x16,x17
	stur	q0,[x15,#-15]
	stur	q1,[x15,#-31]
	stur	q2,[x15,#-47]
	stur	q3,[x15,#-63]
6:
	cmp	x14,x11
	b.eq	4b
	and	x15,x11,#0x38
	cbz	x15,6f
7:
	and	x16,x11,#0xf8
	and	x15,x11,#0x7
	sub	x17,x11,x3
	sub	x17,x17,x14
	add	x17,x25,x17
	add	x0,x19,x11
	sub	x0,x0,x14
	add	x0,x26,x0
	sub	x14,x14,x16
7:
	ldr	d0,[x17],#-8
	str	d0,[x0],#-8
	adds	x14,x14,#8
	b.ne	7b
	cmp	x16,x11
	b.eq	4b
5:
	neg	x14,x15
	add	x16,x15,x19
	add	x16,x21,x16
	sub	x15,x15,x3
	add	x15,x27,x15
7:
	ldrb	w17,[x15],#-1
	strb	w17,[x16],#-1
	adds	x14,x14,#1
	b.lo	7b
	b	4b
8:
	add	x16,x21,x16
	add	x15,x21,x12
	and	x14,x11,#0xc0
	ldp	q0,q1,[x16]
	ldp	q2,q3,[x16,#32]
	stp	q0,q1,[x15]
	stp	q2,q3,[x15,#32]
	cmp	x14,#64
	b.eq	7f
	ldp	q0,q1,[x16,#64]
	ldp	q2,q3,[x16,#96]
	stp	q0,q1,[x15,#64]
	stp	q2,q3,[x15,#96]
	cmp	x14,#128
	b.eq	7f
	ldp	q0,q1,[x16,#128]
	ldp	q2,q3,[x16,#160]
	stp	q0,q1,[x15,#128]
	stp	q2,q3,[x15,#160]
7:
	cmp	x14,x11
	b.eq	4b
	and	x15,x11,#0x38
	cbz	x15,3b
9:
	mov	x17,x14
	and	x14,x11,#0xf8
	sub	x15,x17,x14
	add	x16,x17,x19
	add	x16,x23,x16
	sub	x17,x17,x3
	add	x17,x24,x17
7:
	ldr	d0,[x17],#8
	str	d0,[x16],#8
	adds	x15,x15,#8
	b.ne	7b
	cmp	x14,x11
	b.eq	4b
	b	3b
6:
	and	x15,x11,#0x3f
	b	5b
1:
	mov	x19,#0
	cbz	x3,2f
	sub	x8,x20,x3
	add	x22,x21,#2
	add	x23,x21,#1
	add	x24,x23,x20
	add	x25,x21,x20
	b	1f
3:
	ldr	q0,[x15]
	str	q0,[x14]
4:
	lsr	w9,w9,#4
	add	x14,x21,x19
	strb	w9,[x14]
	strb	w12,[x14,#1]
	add	x19,x12,x13
	cmp	x10,x3
	neg	x3,x11
	b.eq	2f
1:
	add	x8,x21,x8
	ldrb	w9,[x8]
	cbz	w9,1f
	cmp	w9,#239
	and	w16,w9,#0xf
	add	w10,w16,#2
	ccmp	x10,x3,#2,ls
	b.ls	5f
	b	2f
1:
	cmp	x3,#2
	b.eq	1f
	cmp	x3,#1
	b.eq	2f
	cmp	x3,#3
	b.hi	6f
	ldrb	w9,[x8,#1]
	cbnz	w9,6f
	ldrb	w9,[x8,#2]
	cbnz	w9,6f
	b	2f
1:
	ldrb	w9,[x8,#1]
	cbz	w9,2f
6:
	sub	x1,x3,#1
	add	x0,x8,#1
	bl	_rtp_92408dd3_rtp_ext.elements.skip_zeros
	cbz	x1,2f
	mov	x3,x1
	ldrb	w9,[x0]
	cmp	w9,#239
	and	w16,w9,#0xf
	add	w10,w16,#2
	ccmp	x10,x1,#2,ls
	b.hi	2f
5:
	sub	x12,x10,#1
	sub	x11,x10,x3
	add	x8,x11,x20
	add	x13,x19,#2
	sub	x17,x8,x12
	add	x15,x21,x17
	add	x14,x21,x13
	cmp	x13,x17
	b.ls	1f
	cmp	w16,#3
	b.hs	5f
	sub	x17,x10,#1
	b	6f
1:
	cmp	w16,#3
	b.lo	1f
	sub	x17,x3,x20
	add	x17,x17,x19
	add	x17,x17,#1
	cmp	x17,#16
	b.hs	7f
1:
	mov	x16,#0
1:
	and	w14,w9,#0xf
	sub	x14,x14,x16
	add	x14,x14,#1
	add	x15,x16,x19
	add	x15,x22,x15
	sub	x16,x16,x3
	add	x16,x24,x16
8:
	ldrb	w17,[x16],#1
	strb	w17,[x15],#1
	subs	x14,x14,#1
	b.ne	8b
	b	4b
5:
	add	x17,x3,x19
	sub	x0,x17,x20
	sub	x17,x10,#1
	cmn	x0,#17
	b.ls	5f
6:
	add	x14,x23,x19
	sub	x15,x25,x3
8:
	ldrb	w16,[x15,x17]
	strb	w16,[x14,x17]
	subs	x17,x17,#1
	b.ne	8b
	b	4b
7:
	cmp	w16,#15
	b.eq	3b
	and	x16,x12,#0xfffffffffffffffc
	ldr	w17,[x15]
	str	w17,[x14]
	cmp	x16,#4
	b.eq	3f
	ldr	w17,[x15,#4]
	str	w17,[x14,#4]
	cmp	x16,#8
	b.eq	3f
	ldr	w17,[x15,#8]
	str	w17,[x14,#8]
	cmp	x16,#12
	b.eq	3f
	ldr	w15,[x15,#12]
	str	w15,[x14,#12]
3:
	cmp	x12,x16
	b.eq	4b
	b	1b
5:
	cmp	w16,#15
	b.ne	1f
	add	x15,x15,x16
	ldur	q0,[x15,#-15]
	add	x14,x14,x16
	stur	q0,[x14,#-15]
	b	4b
1:
	and	x17,x12,#0xfffffffffffffffc
	add	x0,x15,x16
	add	x16,x14,x16
	ldur	w0,[x0,#-3]
	stur	w0,[x16,#-3]
	cmp	x17,#4
	b.eq	1f
	sub	x16,x10,#6
	add	x0,x15,x16
	add	x16,x14,x16
	ldur	w0,[x0,#-3]
	stur	w0,[x16,#-3]
	cmp	x17,#8
	b.eq	1f
	sub	x16,x10,#10
	add	x0,x15,x16
	add	x16,x14,x16
	ldur	w0,[x0,#-3]
	stur	w0,[x16,#-3]
	cmp	x17,#12
	b.eq	1f
	sub	x16,x10,#14
	add	x15,x15,x16
	add	x14,x14,x16
	ldur	w15,[x15,#-3]
	stur	w15,[x14,#-3]
1:
	cmp	x12,x17
	b.eq	4b
	and	x17,x12,#0x3
	b	6b
2:
	mov	x0,x19
	ldp	x29,x30,[sp,#80]
	ldp	x20,x19,[sp,#64]
	ldp	x22,x21,[sp,#48]
	ldp	x24,x23,[sp,#32]
	ldp	x26,x25,[sp,#16]
	ldr	x27,[sp],#96
	ret
	.cfi_endproc

	.p2align	2
_rtp_92408dd3_rtp_ext.rewriting.put_between:
	.cfi_startproc
	stp	x20,x19,[sp,#-32]!
	stp	x29,x30,[sp,#16]
	.cfi_def_cfa_offset 32
	.cfi_offset w30,-8
	.cfi_offset w29,-16
	.cfi_offset w19,-24
	.cfi_offset w20,-32
	mov	x8,x1
	ldrb	w11,[x5]
	ldrb	w10,[x5,#8]
	ldp	x1,x9,[x5,#16]
	tst	w0,#0xff
	mov	w12,#1
	cinc	x12,x12,ne
	add	x12,x9,x12
	cmp	w11,#1
	csel	x12,x12,xzr,eq
	add	x19,x12,x2
	subs	x14,x3,x19
	b.hs	1f
	cbz	x4,2f
	mov	x13,x4
	cmp	x4,#8
	b.lo	3f
	mov	x13,x4
	cmp	x14,#64
	b.lo	3f
	cmp	x4,#64
	b.hs	4f
	mov	x14,#0
	b	5f
1:
	cbz	x4,2f
	cmp	x4,#8
	b.lo	1f
	add	x13,x12,x2
	sub	x13,x13,x3
	cmp	x13,#64
	b.hs	6f
1:
	mov	x13,#0
1:
	sub	x14,x4,x13
	add	x12,x12,x13
	add	x15,x8,x2
	add	x12,x15,x12
	add	x13,x13,x3
	add	x13,x8,x13
7:
	ldrb	w15,[x13],#1
	strb	w15,[x12],#1
	subs	x14,x14,#1
	b.ne	7b
	b	2f
6:
	cmp	x4,#64
	b.hs	6f
	mov	x13,#0
	b	7f
4:
	add	x15,x8,x3
	and	x13,x4,#0x38
	and	x14,x4,#0xffffffffffffffc0
	sub	x16,x4,#32
	add	x17,x12,x4
	add	x5,x2,x8
	add	x17,x17,x5
	sub	x17,x17,#32
	and	x5,x4,#0xffffffffffffffc0
4:
	add	x6,x15,x16
	ldp	q1,q0,[x6]
	ldp	q3,q2,[x6,#-32]
	stp	q1,q0,[x17]
	stp	q3,q2,[x17,#-32]
	sub	x15,x15,#64
	sub	x17,x17,#64
	sub	x5,x5,#64
	cbnz	x5,4b
	cmp	x4,x14
	b.eq	2f
	cbz	x13,4f
5:
	and	x15,x4,#0xfffffffffffffff8
	and	x13,x4,#0x7
	sub	x16,x3,x14
	add	x16,x16,x8
	sub	x16,x16,#8
	add	x17,x12,x2
	sub	x17,x17,x14
	add	x17,x17,x8
	sub	x17,x17,#8
	sub	x14,x14,x15
5:
	ldr	d0,[x16,x4]
	str	d0,[x17,x4]
	sub	x16,x16,#8
	sub	x17,x17,#8
	adds	x14,x14,#8
	b.ne	5b
	cmp	x4,x15
	b.eq	2f
3:
	neg	x14,x13
	add	x12,x12,x13
	add	x15,x2,x8
	add	x12,x12,x15
	sub	x12,x12,#1
	add	x13,x13,x3
	add	x13,x13,x8
	sub	x13,x13,#1
5:
	ldrb	w15,[x13],#-1
	strb	w15,[x12],#-1
	adds	x14,x14,#1
	b.lo	5b
2:
	cmp	w11,#1
	b.ne	5f
	tst	w0,#0xff
	b.eq	8f
	add	x11,x8,x2
	strb	w10,[x11]
	strb	w9,[x11,#1]
	mov	w10,#2
	add	x11,x10,x2
	cbnz	x9,9f
	b	10f
8:
	lsr	w11,w10,#4
	orr	w10,w11,w10,lsl #4
	add	w10,w10,w9
	sub	w10,w10,#1
	strb	w10,[x8,x2]
	mov	w10,#1
	add	x11,x10,x2
	cbz	x9,10f
9:
	cmp	x9,#1
	b.ne	8f
	ldrb	w9,[x1]
	strb	w9,[x8,x11]
	add	x0,x19,x4
	ldp	x29,x30,[sp,#16]
	ldp	x20,x19,[sp],#32
	ret
8:
	cmp	x9,#2
	b.hi	8f
	ldrb	w9,[x1]
	add	x8,x8,x11
	strb	w9,[x8]
	ldrb	w9,[x1,#1]
	strb	w9,[x8,#1]
	add	x0,x19,x4
	ldp	x29,x30,[sp,#16]
	ldp	x20,x19,[sp],#32
	ret
8:
	cmp	x9,#3
	b.ne	10f
	ldrb	w9,[x1]
	add	x8,x8,x11
	strb	w9,[x8]
	ldrb	w9,[x1,#1]
	strb	w9,[x8,#1]
	ldrb	w9,[x1,#2]
	strb	w9,[x8,#2]
	add	x0,x19,x4
	ldp	x29,x30,[sp,#16]
	ldp	x20,x19,[sp],#32
	ret
10:
	add	x0,x8,x11
	sub	x11,x0,x1
	cmp	x11,x9
	b.hs	8f
	cmp	x9,#8
	b.lo	9f
	add	x11,x10,x2
	add	x11,x11,x8
	sub	x11,x11,x1
	cmp	x11,#64
	b.hs	10f
9:
	mov	x11,#0
9:
	sub	x9,x9,x11
	add	x12,x1,x11
	add	x10,x11,x10
	add	x8,x8,x2
	add	x8,x8,x10
11:
	ldrb	w10,[x12],#1
	strb	w10,[x8],#1
	subs	x9,x9,#1
	b.ne	11b
5:
	add	x0,x19,x4
	ldp	x29,x30,[sp,#16]
	ldp	x20,x19,[sp],#32
	ret
8:
	mov	x2,x9
	mov	x20,x4
	bl	_memmove
	add	x0,x19,x20
	ldp	x29,x30,[sp,#16]
	ldp	x20,x19,[sp],#32
	ret
6:
	and	x14,x4,#0x38
	and	x13,x4,#0xffffffffffffffc0
	add	x15,x3,x8
	add	x15,x15,#32
	add	x16,x12,x2
	add	x16,x16,x8
	add	x16,x16,#32
	and	x17,x4,#0xffffffffffffffc0
6:
	ldp	q0,q1,[x15,#-32]
	ldp	q2,q3,[x15],#64
	stp	q0,q1,[x16,#-32]
	stp	q2,q3,[x16],#64
	subs	x17,x17,#64
	b.ne	6b
	cmp	x4,x13
	b.eq	2b
	cbz	x14,1b
7:
	mov	x16,x13
	and	x13,x4,#0xfffffffffffffff8
	sub	x14,x16,x13
	add	x15,x12,x16
	add	x17,x8,x2
	add	x15,x17,x15
	add	x16,x16,x3
	add	x16,x8,x16
6:
	ldr	d0,[x16],#8
	str	d0,[x15],#8
	adds	x14,x14,#8
	b.ne	6b
	cmp	x4,x13
	b.eq	2b
	b	1b
10:
	cmp	x9,#64
	b.hs	1f
	mov	x11,#0
	b	2f
1:
	and	x12,x9,#0x38
	and	x11,x9,#0xffffffffffffffc0
	add	x13,x10,x2
	add	x13,x13,x8
	add	x13,x13,#32
	add	x14,x1,#32
	and	x15,x9,#0xffffffffffffffc0
1:
	ldp	q0,q1,[x14,#-32]
	ldp	q2,q3,[x14],#64
	stp	q0,q1,[x13,#-32]
	stp	q2,q3,[x13],#64
	subs	x15,x15,#64
	b.ne	1b
	cmp	x9,x11
	b.eq	5b
	cbz	x12,9b
2:
	mov	x14,x11
	and	x11,x9,#0xfffffffffffffff8
	sub	x12,x14,x11
	add	x13,x1,x14
	add	x14,x14,x10
	add	x15,x8,x2
	add	x14,x15,x14
1:
	ldr	d0,[x13],#8
	str	d0,[x14],#8
	adds	x12,x12,#8
	b.ne	1b
	cmp	x9,x11
	b.eq	5b
	b	9b
4:
	and	x13,x4,#0x3f
	b	3b
	.cfi_endproc

	.p2align	2
_rtp_92408dd3_rtp_c.growing.put_status_of:
	.cfi_startproc
	and	w8,w0,#0xff
	cmp	w8,#3
	b.le	1f
	mov	w9,#14
	mov	w10,#15
	mov	w11,#8
	cmp	w8,#7
	csel	w10,w10,w11,eq
	cmp	w8,#6
	csel	w9,w9,w10,eq
	mov	w10,#5
	mov	w11,#16
	cmp	w8,#4
	csel	w10,w10,w11,eq
	cmp	w8,#5
	csel	w0,w9,w10,gt
	ret
1:
	mov	w0,#9
	cmp	w8,#1
	b.gt	1f
	mov	w9,#13
	cmp	w8,#0
	csel	w0,w0,w9,eq
	ret
1:
	cmp	w8,#2
	b.eq	1f
	and	x8,x1,#0xff
Lrtp_92408dd3_loh22:
	adrp	x9,lrtp_92408dd3__switch.table.rtp_92408dd3_rtp_c.whole_packet.status_of_no_packet@PAGE
Lrtp_92408dd3_loh23:
	add	x9,x9,lrtp_92408dd3__switch.table.rtp_92408dd3_rtp_c.whole_packet.status_of_no_packet@PAGEOFF
	ldr	w0,[x9,x8,lsl #2]
1:
	ret
	.loh AdrpAdd	Lrtp_92408dd3_loh22,Lrtp_92408dd3_loh23
	.cfi_endproc

	.p2align	2
_rtp_92408dd3_rtp_wire.packet.rtp_92408dd3_rtp_packet_buf.RtpPacketBuf.change_form:
	.cfi_startproc
	sub	sp,sp,#160
	str	x27,[sp,#64]
	stp	x26,x25,[sp,#80]
	stp	x24,x23,[sp,#96]
	stp	x22,x21,[sp,#112]
	stp	x20,x19,[sp,#128]
	stp	x29,x30,[sp,#144]
	.cfi_def_cfa_offset 160
	.cfi_offset w30,-8
	.cfi_offset w29,-16
	.cfi_offset w19,-24
	.cfi_offset w20,-32
	.cfi_offset w21,-40
	.cfi_offset w22,-48
	.cfi_offset w23,-56
	.cfi_offset w24,-64
	.cfi_offset w25,-72
	.cfi_offset w26,-80
	.cfi_offset w27,-96
	mov	x19,x0
	ldr	x21,[x1]
	ldrb	w8,[x1,#32]
	cmp	w8,#1
	b.ne	1f
	ldrb	w23,[x1,#33]
	cmp	w23,#0
	cset	w8,eq
	and	w9,w2,#0x1
	cmp	w8,w9
	b.ne	2f
	ldr	x9,[x1,#24]
	ldrb	w8,[x21]
	str	x8,[sp,#24]
	ubfiz	x8,x8,#2,#4
	stp	x8,x9,[sp,#40]
	add	x8,x8,#16
	add	x0,x21,x8
	sub	x26,x9,x8
	str	w2,[sp,#72]
	str	x0,[sp,#56]
	cbz	w23,3f
	cbz	x26,4f
	mov	x20,#0
	mov	x9,x0
	mov	x24,x26
5:
	ldrb	w8,[x9]
	cbz	w8,6f
	mov	x8,x24
	mov	x0,x9
	cmp	x24,#2
	b.hs	7f
	b	8f
6:
	cmp	x24,#2
	b.eq	6f
	cmp	x24,#1
	b.eq	8f
	cmp	x24,#3
	b.hi	9f
	ldrb	w8,[x9,#1]
	cbnz	w8,9f
	ldrb	w8,[x9,#2]
	cbnz	w8,9f
	b	10f
6:
	ldrb	w8,[x9,#1]
	cbz	w8,6f
9:
	mov	x22,x1
	add	x0,x9,#1
	sub	x1,x24,#1
	bl	_rtp_92408dd3_rtp_ext.elements.skip_zeros
	cbz	x1,9f
	mov	x8,x1
	ldr	w2,[sp,#72]
	mov	x1,x22
	cmp	x8,#2
	b.lo	8f
7:
	ldrb	w10,[x0,#1]
	add	x9,x10,#2
	subs	x8,x8,x9
	b.lo	8f
	add	x9,x0,x9
	ldrb	w11,[x0]
	cbnz	w11,7f
	mov	x24,x8
	cbnz	x8,5b
	b	8f
7:
	mov	x24,#0
	add	x10,x20,x10
	add	x20,x10,#2
	cbz	x8,8f
	mov	x24,x8
	b	5b
1:
	ldrb	w8,[x21]
	tbnz	w8,#4,1f
2:
	strb	wzr,[x19]
	strh	wzr,[x19,#8]
	b	2f
1:
	mov	w8,#1
	strb	w8,[x19]
	mov	w8,#4
	strh	w8,[x19,#8]
2:
	str	xzr,[x19,#16]
	b	1f
3:
	cbz	x26,4f
	mov	x20,#0
	mov	x8,x26
2:
	mov	x24,x8
3:
	ldrb	w9,[x0]
	sub	w8,w9,#240
	cmn	w8,#224
	b.hs	5f
	cbz	w9,7f
	mov	x8,x24
	cmp	w9,#239
	b.ls	11f
	b	8f
5:
	and	x8,x9,#0xf
	add	x10,x8,#2
	subs	x8,x24,x10
	b.hs	5f
	mov	x8,x24
11:
	and	w10,w9,#0xf
	add	w10,w10,#2
	subs	x8,x8,x10
	b.lo	8f
	add	x0,x0,x10
	cmp	w9,#16
	b.hs	12f
	mov	x24,x8
	cbnz	x8,3b
	b	8f
7:
	cmp	x24,#2
	b.eq	3f
	cmp	x24,#1
	b.eq	8f
	cmp	x24,#3
	b.hi	7f
	ldrb	w8,[x0,#1]
	cbnz	w8,7f
	ldrb	w8,[x0,#2]
	cbnz	w8,7f
	b	10f
3:
	ldrb	w8,[x0,#1]
	cbz	w8,6f
7:
	mov	x22,x1
	add	x0,x0,#1
	sub	x1,x24,#1
	bl	_rtp_92408dd3_rtp_ext.elements.skip_zeros
	cbz	x1,9f
	mov	x8,x1
	ldrb	w9,[x0]
	ldr	w2,[sp,#72]
	mov	x1,x22
	cmp	w9,#239
	b.ls	11b
	b	8f
5:
	add	x0,x0,x10
12:
	mov	x24,#0
	add	x20,x10,x20
	cbnz	x8,2b
	b	8f
4:
	mov	x20,#0
	mov	x24,#0
	b	8f
6:
	mov	w24,#2
	b	8f
10:
	mov	w24,#3
8:
	sub	x27,x26,x24
	ldr	x22,[x1,#16]
	cmp	w23,w2,uxtb
	ccmp	x20,#0,#4,ne
	cset	w8,ne
	str	w8,[sp,#36]
	b.eq	2f
	sub	x3,x26,x24
	mov	x0,x23
	mov	x25,x1
	mov	x1,x2
	ldr	x2,[sp,#56]
	mov	w4,#0
	bl	_rtp_92408dd3_rtp_ext.form_change.row_len
	mov	x8,x1
	mov	x1,x25
	b	3f
2:
	mov	w0,#1
	mov	x8,x20
3:
	and	w9,w0,#0xff
	add	x8,x8,#3
	and	x8,x8,#0xfffffffffffffffc
	cmp	x26,x8
	csel	x10,x26,x8,hi
	cmp	w9,#1
	b.ne	2f
	mov	w8,#262140
	cmp	x10,x8
	b.ls	3f
	mov	x12,#0
	mov	w10,#7
	mov	w11,#1
	b	4f
3:
	ldp	x8,x9,[sp,#40]
	add	w25,w8,#12
	add	x8,x25,x10
	add	x3,x8,#4
	sub	x8,x22,x9
	add	x12,x3,x8
	ldr	x8,[x1,#8]
	cmp	x8,x12
	b.hs	3f
	mov	w10,#8
	mov	w11,#1
	b	4f
3:
	stp	x12,x1,[sp,#8]
	mov	x0,x21
	mov	x1,x9
	str	x10,[sp,#56]
	mov	x2,x22
	bl	_rtp_92408dd3_rtp_wire.packet.resizing.move_bytes
	ldr	x2,[sp,#56]
	lsl	w8,w2,#6
	and	w8,w8,#0xff00
	orr	w8,w8,w2,lsr #10
	add	x9,x21,x25
	strh	w8,[x9,#2]
	ldr	w8,[sp,#72]
	cmp	w23,w8,uxtb
	b.eq	3f
	ldrb	w10,[x21]
	orr	w10,w10,#0x10
	strb	w10,[x21]
	tst	w8,#0xff
	mov	w10,#16
	mov	w11,#-8514
	csel	w10,w11,w10,eq
	strh	w10,[x9]
3:
	add	x22,x9,#4
	cbz	x26,3f
	cmp	x20,x27
	b.ne	5f
	mov	x5,#0
	b	6f
3:
	subs	x20,x2,#1
	ldr	x9,[sp,#16]
	b.le	3f
	cmp	x2,#2
	b.eq	7f
	cmp	x2,#3
	b.eq	10f
	cmp	x2,#4
	b.ne	11f
	str	wzr,[x22]
	b	12f
5:
	sub	x2,x26,x24
	sub	x3,x26,x24
	mov	x0,x23
	mov	x1,x22
	mov	x4,x26
	mov	w5,#0
	bl	_rtp_92408dd3_rtp_ext.gathering.gather_around
	ldr	x2,[sp,#56]
	mov	x20,x0
	mov	x5,x1
6:
	ldr	w8,[sp,#36]
	cbz	w8,5f
	mov	x0,x23
	mov	x1,x22
	mov	x3,x20
	mov	x4,x27
	bl	_rtp_92408dd3_rtp_ext.form_change.change_rows
	mov	x20,x0
	mov	x5,x1
	cbz	x1,6f
	mov	x27,x20
	ldr	w8,[sp,#72]
	ldr	x9,[sp,#16]
	ldr	x2,[sp,#56]
	b	13f
5:
	cmp	x20,x27
	b.ls	5f
	ldr	w8,[sp,#72]
	ldr	x9,[sp,#16]
	cbz	x5,14f
	cmp	x5,#8
	b.lo	15f
	add	x10,x20,x24
	ldp	x12,x11,[sp,#40]
	sub	x11,x11,x12
	sub	x10,x11,x10
	sub	x10,x10,#16
	cmp	x10,#64
	b.hs	16f
15:
	mov	x11,x5
15:
	neg	x10,x11
	ldr	x12,[sp,#24]
	and	x12,x12,#0xf
	add	x12,x11,x12,lsl #2
	add	x12,x12,x21
	add	x12,x12,#15
	mvn	x13,x24
	ldr	x14,[sp,#48]
	add	x11,x11,x14
	add	x11,x13,x11
	add	x11,x21,x11
17:
	ldrb	w13,[x11],#-1
	strb	w13,[x12,x20]
	sub	x12,x12,#1
	adds	x10,x10,#1
	b.lo	17b
	b	14f
2:
	mov	x0,x23
	ldr	x1,[sp,#56]
	mov	x2,x26
	bl	_rtp_92408dd3_rtp_wire.packet.rewriting.has_long_id
	mov	x12,#0
	cmp	w0,#0
	mov	w8,#5
	cinc	w10,w8,eq
	mov	w11,#1
	b	4f
5:
	ldr	w8,[sp,#72]
	ldr	x9,[sp,#16]
	cbz	x5,14f
13:
	mov	x10,#0
	cmp	x5,#8
	b.lo	2f
	sub	x11,x20,x27
	cmp	x11,#64
	b.lo	2f
	cmp	x5,#64
	b.hs	5f
	mov	x10,#0
	b	13f
3:
	cbz	x2,12f
	cmp	x2,#1
	b.ne	11f
	strb	wzr,[x22]
	b	12f
6:
	ldr	w8,[sp,#72]
	ldr	x9,[sp,#16]
	ldr	x2,[sp,#56]
	b	14f
9:
	ldr	w2,[sp,#72]
	mov	x1,x22
	b	8b
5:
	and	x11,x5,#0x38
	and	x10,x5,#0xffffffffffffffc0
	ldr	x12,[sp,#40]
	add	x13,x12,x21
	add	x12,x27,x13
	add	x12,x12,#64
	add	x13,x20,x13
	add	x13,x13,#32
	and	x14,x5,#0xffffffffffffffc0
3:
	ldp	q0,q1,[x12,#-48]
	ldp	q2,q3,[x12,#-16]
	stp	q0,q1,[x13,#-16]
	stp	q2,q3,[x13,#16]
	add	x12,x12,#64
	add	x13,x13,#64
	subs	x14,x14,#64
	b.ne	3b
	cmp	x5,x10
	b.eq	14f
	cbz	x11,2f
13:
	mov	x12,x10
	and	x10,x5,#0xfffffffffffffff8
	sub	x11,x12,x10
	ldr	x13,[sp,#24]
	and	x13,x13,#0xf
	add	x12,x12,x13,lsl #2
	add	x12,x12,x21
	add	x12,x12,#16
3:
	ldr	d0,[x12,x27]
	str	d0,[x12,x20]
	add	x12,x12,#8
	adds	x11,x11,#8
	b.ne	3b
	cmp	x5,x10
	b.eq	14f
2:
	sub	x11,x5,x10
	ldr	x12,[sp,#24]
	and	x12,x12,#0xf
	add	x10,x10,x12,lsl #2
	add	x10,x10,x21
	add	x10,x10,#16
2:
	ldrb	w12,[x10,x27]
	strb	w12,[x10,x20]
	add	x10,x10,#1
	subs	x11,x11,#1
	b.ne	2b
14:
	add	x10,x20,x5
	subs	x11,x2,x10
	b.ls	12f
	subs	x20,x11,#1
	b.le	2f
	cmp	x11,#2
	b.eq	3f
	cmp	x11,#3
	b.eq	5f
	cmp	x11,#4
	b.ne	6f
	str	wzr,[x22,x10]
	b	12f
2:
	cbz	x11,12f
	cmp	x11,#1
	b.ne	6f
	strb	wzr,[x22,x10]
	b	12f
7:
	strh	wzr,[x22]
	b	12f
10:
	strb	wzr,[x22,#2]
	strh	wzr,[x22]
	b	12f
11:
	mov	x0,x22
	mov	x1,x20
	bl	_bzero
	ldr	x9,[sp,#16]
	ldr	w8,[sp,#72]
	strb	wzr,[x22,x20]
	b	12f
3:
	strh	wzr,[x22,x10]
	b	12f
5:
	add	x10,x22,x10
	strb	wzr,[x10,#2]
	strh	wzr,[x10]
	b	12f
6:
	add	x21,x22,x10
	mov	x0,x21
	mov	x1,x20
	bl	_bzero
	ldr	x9,[sp,#16]
	ldr	w8,[sp,#72]
	strb	wzr,[x21,x20]
12:
	mov	w11,#0
	mov	w10,#0
	ldp	x12,x13,[x9,#16]
	ldr	x14,[sp,#8]
	sub	x12,x14,x12
	add	x12,x12,x13
	stp	x14,x12,[x9,#16]
	mov	w12,#1
	strb	w12,[x9,#32]
	strb	w8,[x9,#33]
	mov	x12,#0
4:
	strb	w11,[x19]
	strb	w10,[x19,#8]
	strb	wzr,[x19,#9]
	str	x12,[x19,#16]
1:
	ldp	x29,x30,[sp,#144]
	ldp	x20,x19,[sp,#128]
	ldp	x22,x21,[sp,#112]
	ldp	x24,x23,[sp,#96]
	ldp	x26,x25,[sp,#80]
	ldr	x27,[sp,#64]
	add	sp,sp,#160
	ret
16:
	cmp	x5,#64
	b.hs	1f
	mov	x10,#0
	b	2f
1:
	add	x12,x22,x27
	and	x11,x5,#0x38
	and	x10,x5,#0xffffffffffffffc0
	sub	x13,x5,#32
	add	x14,x20,x5
	ldr	x15,[sp,#40]
	add	x15,x15,x21
	add	x14,x14,x15
	sub	x14,x14,#16
	and	x15,x5,#0xffffffffffffffc0
1:
	add	x16,x12,x13
	ldp	q1,q0,[x16]
	ldp	q3,q2,[x16,#-32]
	stp	q1,q0,[x14]
	stp	q3,q2,[x14,#-32]
	sub	x12,x12,#64
	sub	x14,x14,#64
	sub	x15,x15,#64
	cbnz	x15,1b
	cmp	x5,x10
	b.eq	14b
	cbz	x11,1f
2:
	and	x12,x5,#0xfffffffffffffff8
	and	x11,x5,#0x7
	ldr	x13,[sp,#48]
	sub	x13,x13,x24
	sub	x13,x13,x10
	add	x13,x13,x21
	sub	x13,x13,#8
	ldr	x14,[sp,#24]
	and	x14,x14,#0xf
	add	x14,x20,x14,lsl #2
	sub	x14,x14,x10
	add	x14,x14,x21
	add	x14,x14,#8
	sub	x10,x10,x12
2:
	ldr	d0,[x13,x5]
	str	d0,[x14,x5]
	sub	x13,x13,#8
	sub	x14,x14,#8
	adds	x10,x10,#8
	b.ne	2b
	cmp	x5,x12
	b.eq	14b
	b	15b
1:
	and	x11,x5,#0x3f
	b	15b
	.cfi_endproc

	.p2align	2
_rtp_92408dd3_rtp_ext.gathering.compact_body:
	.cfi_startproc
	stp	x24,x23,[sp,#-64]!
	stp	x22,x21,[sp,#16]
	stp	x20,x19,[sp,#32]
	stp	x29,x30,[sp,#48]
	.cfi_def_cfa_offset 64
	.cfi_offset w30,-8
	.cfi_offset w29,-16
	.cfi_offset w19,-24
	.cfi_offset w20,-32
	.cfi_offset w21,-40
	.cfi_offset w22,-48
	.cfi_offset w23,-56
	.cfi_offset w24,-64
	mov	x21,x2
	mov	x20,x1
	tst	w0,#0xff
	b.eq	1f
	mov	x19,#0
	mov	x8,#0
	add	x22,x20,#32
	add	x23,x22,x21
	add	x24,x20,x21
2:
	subs	x1,x21,x8
	b.eq	3f
	add	x0,x20,x8
	ldrb	w8,[x0]
	cbnz	w8,4f
	cmp	x1,#2
	b.eq	5f
	cmp	x1,#1
	b.eq	3f
	cmp	x1,#3
	b.hi	6f
	ldrb	w8,[x0,#1]
	cbnz	w8,6f
	ldrb	w8,[x0,#2]
	cbnz	w8,6f
	b	3f
5:
	ldrb	w8,[x0,#1]
	cbz	w8,3f
6:
	sub	x1,x1,#1
	add	x0,x0,#1
	bl	_rtp_92408dd3_rtp_ext.elements.skip_zeros
	cbz	x1,3f
4:
	cmp	x1,#2
	b.lo	3f
	ldrb	w10,[x0,#1]
	add	x8,x10,#2
	subs	x8,x8,x1
	b.hi	3f
	ldrb	w9,[x0]
	add	x8,x8,x21
	cbz	w9,2b
	sub	x9,x8,x10
	sub	x11,x9,#2
	cmp	x19,x11
	b.hs	4f
	subs	x11,x8,x11
	b.eq	4f
	cmp	x11,#8
	b.lo	5f
	sub	x12,x19,x21
	add	x12,x12,x1
	cmp	x12,#64
	b.hs	6f
5:
	mov	x12,#0
5:
	sub	x10,x10,x12
	add	x10,x10,#2
	add	x11,x12,x19
	add	x11,x20,x11
	add	x12,x24,x12
	sub	x12,x12,x1
7:
	ldrb	w13,[x12],#1
	strb	w13,[x11],#1
	subs	x10,x10,#1
	b.ne	7b
4:
	add	x10,x19,x8
	sub	x9,x10,x9
	add	x19,x9,#2
	b	2b
6:
	cmp	x11,#64
	b.hs	2f
	mov	x12,#0
	b	6f
2:
	and	x13,x11,#0x38
	and	x12,x11,#0xffffffffffffffc0
	sub	x14,x23,x1
	add	x15,x22,x19
	and	x16,x11,#0xffffffffffffffc0
2:
	ldp	q0,q1,[x14,#-32]
	ldp	q2,q3,[x14],#64
	stp	q0,q1,[x15,#-32]
	stp	q2,q3,[x15],#64
	subs	x16,x16,#64
	b.ne	2b
	cmp	x11,x12
	b.eq	4b
	cbz	x13,5b
6:
	mov	x15,x12
	and	x12,x11,#0xfffffffffffffff8
	sub	x13,x15,x12
	add	x14,x15,x19
	add	x14,x20,x14
	add	x15,x24,x15
	sub	x15,x15,x1
2:
	ldr	d0,[x15],#8
	str	d0,[x14],#8
	adds	x13,x13,#8
	b.ne	2b
	cmp	x11,x12
	b.eq	4b
	b	5b
1:
	mov	x8,#0
	mov	x19,#0
	add	x22,x20,x21
1:
	subs	x1,x21,x8
	b.eq	3f
	add	x8,x20,x8
	ldrb	w10,[x8]
	cbz	w10,2f
	cmp	w10,#239
	and	w11,w10,#0xf
	add	w9,w11,#2
	ccmp	x9,x1,#2,ls
	b.ls	4f
	b	3f
2:
	cmp	x1,#2
	b.eq	2f
	cmp	x1,#1
	b.eq	3f
	cmp	x1,#3
	b.hi	5f
	ldrb	w9,[x8,#1]
	cbnz	w9,5f
	ldrb	w9,[x8,#2]
	cbnz	w9,5f
	b	3f
2:
	ldrb	w9,[x8,#1]
	cbz	w9,3f
5:
	sub	x1,x1,#1
	add	x0,x8,#1
	bl	_rtp_92408dd3_rtp_ext.elements.skip_zeros
	cbz	x1,3f
	ldrb	w10,[x0]
	cmp	w10,#239
	and	w11,w10,#0xf
	add	w9,w11,#2
	ccmp	x9,x1,#2,ls
	b.hi	3f
4:
	sub	x8,x9,x1
	add	x8,x8,x21
	cmp	w10,#16
	b.lo	1b
	sub	x12,x8,x9
	cmp	x19,x12
	b.hs	2f
	cmp	w11,#2
	b.lo	4f
	sub	x13,x19,x21
	add	x13,x13,x1
	cmp	x13,#16
	b.hs	5f
4:
	mov	x11,#0
4:
	and	w10,w10,#0xf
	sub	x10,x10,x11
	add	x10,x10,#2
	add	x12,x11,x19
	add	x12,x20,x12
	add	x11,x22,x11
	sub	x11,x11,x1
6:
	ldrb	w13,[x11],#1
	strb	w13,[x12],#1
	subs	x10,x10,#1
	b.ne	6b
2:
	add	x19,x19,x9
	b	1b
5:
	cmp	w11,#14
	b.hs	1f
	mov	x11,#0
	b	5f
1:
	and	x11,x9,#0x10
	ldr	q0,[x20,x12]
	str	q0,[x20,x19]
	cmp	x11,x9
	b.eq	2b
	and	x12,x9,#0xc
	cbz	x12,4b
5:
	mov	x14,x11
	and	x11,x9,#0x1c
	sub	x12,x14,x11
	add	x13,x14,x19
	add	x13,x20,x13
	add	x14,x22,x14
	sub	x14,x14,x1
1:
	ldr	w15,[x14],#4
	str	w15,[x13],#4
	adds	x12,x12,#4
	b.ne	1b
	cmp	x11,x9
	b.eq	2b
	b	4b
3:
	subs	x8,x21,x19
	b.ls	1f
	subs	x21,x8,#1
	b.le	2f
	cmp	x8,#2
	b.eq	3f
	cmp	x8,#3
	b.eq	4f
	cmp	x8,#4
	b.ne	5f
	str	wzr,[x20,x19]
	b	1f
2:
	cbz	x8,1f
	cmp	x8,#1
	b.ne	5f
	strb	wzr,[x20,x19]
	mov	x0,x19
	ldp	x29,x30,[sp,#48]
	ldp	x20,x19,[sp,#32]
	ldp	x22,x21,[sp,#16]
	ldp	x24,x23,[sp],#64
	ret
1:
	mov	x0,x19
	ldp	x29,x30,[sp,#48]
	ldp	x20,x19,[sp,#32]
	ldp	x22,x21,[sp,#16]
	ldp	x24,x23,[sp],#64
	ret
3:
	strh	wzr,[x20,x19]
	mov	x0,x19
	ldp	x29,x30,[sp,#48]
	ldp	x20,x19,[sp,#32]
	ldp	x22,x21,[sp,#16]
	ldp	x24,x23,[sp],#64
	ret
4:
	add	x8,x20,x19
	strb	wzr,[x8,#2]
	strh	wzr,[x8]
	mov	x0,x19
	ldp	x29,x30,[sp,#48]
	ldp	x20,x19,[sp,#32]
	ldp	x22,x21,[sp,#16]
	ldp	x24,x23,[sp],#64
	ret
5:
	add	x20,x20,x19
	mov	x0,x20
	mov	x1,x21
	bl	_bzero
	strb	wzr,[x20,x21]
	mov	x0,x19
	ldp	x29,x30,[sp,#48]
	ldp	x20,x19,[sp,#32]
	ldp	x22,x21,[sp,#16]
	ldp	x24,x23,[sp],#64
	ret
	.cfi_endproc

	.p2align	2
_rtp_92408dd3_rtp_wire.packet.rtp_92408dd3_rtp_packet_mut.RtpPacketMut.renumber:
	.cfi_startproc
	ldrb	w8,[x0,#24]
	cmp	w8,#1
	b.ne	1f
	str	x27,[sp,#-96]!
	stp	x26,x25,[sp,#16]
	stp	x24,x23,[sp,#32]
	stp	x22,x21,[sp,#48]
	stp	x20,x19,[sp,#64]
	stp	x29,x30,[sp,#80]
	.cfi_def_cfa_offset 96
	.cfi_offset w30,-8
	.cfi_offset w29,-16
	.cfi_offset w19,-24
	.cfi_offset w20,-32
	.cfi_offset w21,-40
	.cfi_offset w22,-48
	.cfi_offset w23,-56
	.cfi_offset w24,-64
	.cfi_offset w25,-72
	.cfi_offset w26,-80
	.cfi_offset w27,-96
	mov	x19,x1
	ldrb	w20,[x0,#25]
	ldr	x8,[x0]
	ldrb	w9,[x8]
	ubfiz	x9,x9,#2,#4
	add	x9,x9,#16
	ldr	x10,[x0,#16]
	add	x22,x8,x9
	sub	x23,x10,x9
	cmp	w20,#1
	b.eq	2f
	cbnz	w20,3f
	ldr	d1,[x19]
	movi.8b	v0,#14
	cmhi.8b	v1,v1,v0
	umaxv.8b	b1,v1
	fmov	w8,s1
	tbnz	w8,#0,3f
	ldur	d1,[x19,#7]
	cmhi.8b	v0,v1,v0
	umaxv.8b	b0,v0
	fmov	w8,s0
	tbz	w8,#0,4f
3:
	mov	x0,x22
	mov	x1,x23
3:
	cbz	x1,5f
	ldrb	w8,[x0]
	cbz	w8,6f
	cmp	w8,#239
	and	w9,w8,#0xf
	add	w9,w9,#2
	ccmp	x1,x9,#0,ls
	b.hs	7f
	b	5f
6:
	cmp	x1,#2
	b.eq	6f
	cmp	x1,#1
	b.eq	5f
	cmp	x1,#3
	b.hi	8f
	ldrb	w8,[x0,#1]
	cbnz	w8,8f
	ldrb	w8,[x0,#2]
	cbnz	w8,8f
	b	5f
6:
	ldrb	w8,[x0,#1]
	cbz	w8,5f
8:
	sub	x1,x1,#1
	add	x0,x0,#1
	bl	_rtp_92408dd3_rtp_ext.elements.skip_zeros
	cbz	x1,5f
	ldrb	w8,[x0]
	cmp	w8,#239
	and	w9,w8,#0xf
	add	w9,w9,#2
	ccmp	x1,x9,#0,ls
	b.lo	5f
7:
	mov	w8,w8
	lsr	x8,x8,#4
	sub	x1,x1,x9
	add	x0,x0,x9
	ldrb	w8,[x19,x8]
	cmp	w8,#15
	b.lo	3b
	mov	w0,#0
	b	3f
1:
	mov	w0,#1
	ret
5:
	cbz	w20,4f
2:
	cbz	x23,1f
	mov	x1,x23
	mov	x0,x22
	b	2f
4:
	cbz	x23,1f
	mov	x1,x23
	mov	x8,x22
	b	4f
5:
	strh	wzr,[x22,x8]
6:
	add	x0,x22,x26
	cmp	x24,x1
	neg	x1,x25
	b.eq	1f
2:
	ldrb	w8,[x0]
	cbnz	w8,2f
	cmp	x1,#2
	b.eq	7f
	cmp	x1,#1
	b.eq	1f
	cmp	x1,#3
	b.hi	8f
	ldrb	w8,[x0,#1]
	cbnz	w8,8f
	ldrb	w8,[x0,#2]
	cbnz	w8,8f
	b	1f
7:
	ldrb	w8,[x0,#1]
	cbz	w8,1f
8:
	sub	x1,x1,#1
	add	x0,x0,#1
	bl	_rtp_92408dd3_rtp_ext.elements.skip_zeros
	cbz	x1,1f
2:
	cmp	x1,#2
	b.lo	1f
	ldrb	w9,[x0,#1]
	add	x24,x9,#2
	subs	x25,x24,x1
	b.hi	1f
	ldrb	w11,[x0]
	add	x26,x25,x23
	sub	x8,x26,x9
	sub	x8,x8,#2
	ldrb	w10,[x19,w11,uxtw]
	cbz	w10,2f
	cmp	w10,w11
	b.eq	6b
	add	x8,x22,x8
	strb	w10,[x8]
	strb	w9,[x8,#1]
	b	6b
2:
	sub	x9,x26,x8
	subs	x20,x9,#1
	b.le	2f
	cmp	x9,#2
	b.eq	5b
	cmp	x9,#3
	b.eq	5f
	cmp	x9,#4
	b.ne	7f
	str	wzr,[x22,x8]
	b	6b
2:
	cbz	x9,6b
	cmp	x9,#1
	b.ne	7f
	strb	wzr,[x22,x8]
	b	6b
5:
	add	x8,x22,x8
	strb	wzr,[x8,#2]
	strh	wzr,[x8]
	b	6b
7:
	add	x21,x22,x8
	mov	x0,x21
	mov	x27,x1
	mov	x1,x20
	bl	_bzero
	mov	x1,x27
	strb	wzr,[x21,x20]
	b	6b
2:
	str	wzr,[x20]
5:
	add	x8,x24,x23
	add	x8,x22,x8
	mov	w0,#1
	cmp	x21,x1
	neg	x1,x24
	b.eq	3f
4:
	ldrb	w9,[x8]
	cbnz	w9,4f
	cmp	x1,#2
	b.eq	6f
	cmp	x1,#1
	b.eq	1f
	cmp	x1,#3
	b.hi	7f
	ldrb	w9,[x8,#1]
	cbnz	w9,7f
	ldrb	w9,[x8,#2]
	cbnz	w9,7f
	b	1f
6:
	ldrb	w9,[x8,#1]
	cbz	w9,1f
7:
	sub	x1,x1,#1
	add	x0,x8,#1
	bl	_rtp_92408dd3_rtp_ext.elements.skip_zeros
	cbz	x1,1f
	ldrb	w9,[x0]
4:
	cmp	w9,#239
	b.hi	1f
	and	w8,w9,#0xf
	add	w21,w8,#2
	subs	x24,x21,x1
	b.hi	1f
	mov	w9,w9
	lsr	x11,x9,#4
	sub	x9,x23,x1
	ldrb	w10,[x19,x11]
	cbz	w10,4f
	cmp	w10,w11
	b.eq	5b
	lsr	w11,w10,#4
	orr	w10,w11,w10,lsl #4
	add	w8,w10,w8
	strb	w8,[x22,x9]
	b	5b
4:
	add	x20,x22,x9
	cmp	w8,#2
	b.eq	2b
	cmp	w8,#1
	b.eq	2f
	cbz	w8,4f
	sub	x26,x21,#1
	mov	x25,x1
	sub	x1,x21,#1
	mov	x0,x20
	bl	_bzero
	mov	x1,x25
	strb	wzr,[x20,x26]
	b	5b
2:
	strb	wzr,[x20,#2]
4:
	strh	wzr,[x20]
	b	5b
1:
	mov	w0,#1
3:
	ldp	x29,x30,[sp,#80]
	ldp	x20,x19,[sp,#64]
	ldp	x22,x21,[sp,#48]
	ldp	x24,x23,[sp,#32]
	ldp	x26,x25,[sp,#16]
	ldr	x27,[sp],#96
	ret
	.cfi_endproc

	.section	__TEXT,__literal8,8byte_literals
	.p2align	3,0x0
lrtp_92408dd3_CPI34_0:
	.long	100
	.long	0
	.section	__TEXT,__text,regular,pure_instructions
	.p2align	2
_rtp_92408dd3_rtp_ext.block_values.read_apart.203c5bf9b6d6d505:
	.cfi_startproc
	sub	sp,sp,#160
	str	x27,[sp,#64]
	stp	x26,x25,[sp,#80]
	stp	x24,x23,[sp,#96]
	stp	x22,x21,[sp,#112]
	stp	x20,x19,[sp,#128]
	stp	x29,x30,[sp,#144]
	.cfi_def_cfa_offset 160
	.cfi_offset w30,-8
	.cfi_offset w29,-16
	.cfi_offset w19,-24
	.cfi_offset w20,-32
	.cfi_offset w21,-40
	.cfi_offset w22,-48
	.cfi_offset w23,-56
	.cfi_offset w24,-64
	.cfi_offset w25,-72
	.cfi_offset w26,-80
	.cfi_offset w27,-96
	mov	x26,x5
	mov	x20,x4
	mov	x22,x2
	mov	x8,x1
	mov	x21,x0
	tst	w3,#0xff
	b.eq	1f
	mov	w27,#0
	cbnz	x22,2f
	b	3f
1:
	mov	w27,#0
	cbnz	x22,1f
3:
	and	w0,w27,#0x1
	ldp	x29,x30,[sp,#144]
	ldp	x20,x19,[sp,#128]
	ldp	x22,x21,[sp,#112]
	ldp	x24,x23,[sp,#96]
	ldp	x26,x25,[sp,#80]
	ldr	x27,[sp,#64]
	add	sp,sp,#160
	ret
4:
	mov	x0,x24
	mov	x1,x23
	mov	x2,x20
	bl	_rtp_92408dd3_rtp_values.value.stream_id.read_repaired.a6b2bc1c138ab33f
5:
	mov	x8,x19
	cbz	x22,3b
2:
	ldrb	w9,[x8]
	cbz	w9,2f
	cmp	x22,#2
	b.hs	6f
	b	3b
2:
	cmp	x22,#2
	b.eq	2f
	cmp	x22,#1
	b.eq	3b
	cmp	x22,#3
	b.hi	7f
	ldrb	w9,[x8,#1]
	cbnz	w9,7f
	ldrb	w9,[x8,#2]
	cbnz	w9,7f
	b	3b
2:
	ldrb	w9,[x8,#1]
	cbz	w9,3b
7:
	sub	x1,x22,#1
	add	x0,x8,#1
	bl	_rtp_92408dd3_rtp_ext.elements.skip_zeros
	cbz	x1,3b
	mov	x8,x0
	mov	x22,x1
	cmp	x1,#2
	b.lo	3b
6:
	ldrb	w23,[x8,#1]
	add	x9,x23,#2
	subs	x22,x22,x9
	b.lo	3b
	mov	x24,x8
	ldrb	w10,[x24],#2
	add	x19,x8,x9
	cbz	x10,5b
	ldrb	w9,[x21,x10]
	sub	w9,w9,#1
	cmp	w9,#14
	b.hi	5b
Lrtp_92408dd3_loh24:
	adrp	x10,2f@PAGE
Lrtp_92408dd3_loh25:
	add	x10,x10,2f@PAGEOFF
	adr	x11,4b
	ldrb	w12,[x10,x9]
	add	x11,x11,x12,lsl #2
	br	x11
6:
	cmp	w23,#3
	b.lo	5b
	ldrb	w9,[x8,#2]
	ldrb	w10,[x8,#3]
	ldrb	w8,[x8,#4]
	lsl	w9,w9,#8
	orr	w9,w9,w10,lsl #16
	orr	w8,w9,w8,lsl #24
	rev	w8,w8
	mov	w9,#16960
	movk	w9,#15,lsl #16
	umull	x8,w8,w9
	lsr	x8,x8,#18
	mov	w9,#1
	strb	w9,[x20,#115]
	str	x8,[x20]
	b	5b
7:
	cmp	w23,#2
	b.lo	8f
	cbz	x22,9f
	str	w27,[sp]
	str	x20,[sp,#72]
10:
	ldrb	w8,[x19]
	mov	x0,x19
	mov	x1,x22
	cbnz	w8,11f
	cmp	x22,#2
	b.eq	12f
	cmp	x22,#1
	ldr	w27,[sp]
	b.eq	13f
	cmp	x22,#3
	b.hi	14f
	ldrb	w8,[x19,#1]
	cbnz	w8,14f
	ldrb	w8,[x19,#2]
	cbnz	w8,14f
	b	13f
12:
	ldrb	w8,[x19,#1]
	ldr	w27,[sp]
	cbz	w8,13f
14:
	add	x0,x19,#1
	sub	x1,x22,#1
	bl	_rtp_92408dd3_rtp_ext.elements.skip_zeros
	cbz	x1,13f
11:
	cmp	x1,#2
	b.lo	11f
	ldrb	w25,[x0,#1]
	add	x8,x25,#2
	subs	x27,x1,x8
	b.lo	11f
	mov	x20,x26
	mov	x26,x0
	ldrb	w9,[x26],#2
	cbz	x9,12f
	ldrb	w9,[x21,x9]
	cmp	w9,#15
	b.ne	12f
	add	x19,x0,x8
	mov	x0,x26
	mov	x1,x25
	bl	_rtp_92408dd3_rtp_ext.block_values.is_another_allocation
	cmp	w0,#0
	csel	x23,x25,x23,ne
	csel	x24,x26,x24,ne
	mov	x22,x27
	mov	x26,x20
	ldr	x20,[sp,#72]
	cbnz	x27,10b
	b	10f
14:
	cbz	w23,5b
	ldrb	w8,[x24]
	mov	w9,#1
	strb	w9,[x20,#121]
	ubfiz	x8,x8,#4,#2
	mov	x9,#17694720
	movk	x9,#180,lsl #32
	movk	x9,#90,lsl #48
	lsr	x8,x9,x8
	strh	w8,[x20,#66]
	b	5b
15:
	cmp	w23,#4
	b.lo	5b
	ldr	w8,[x24]
	rev	w8,w8
	mov	w9,#1
	strb	w9,[x20,#119]
	str	w8,[x20,#60]
	b	5b
16:
	cmp	w23,#2
	b.lo	5b
	ldrh	w8,[x24]
	rev	w8,w8
	lsr	w8,w8,#16
	mov	w9,#1
	strb	w9,[x20,#120]
	strh	w8,[x20,#64]
	b	5b
17:
	stp	xzr,xzr,[sp,#8]
	mov	x8,#2314885530818453536
Lrtp_92408dd3_loh26:
	adrp	x25,lrtp_92408dd3__static.2@PAGE
Lrtp_92408dd3_loh27:
	add	x25,x25,lrtp_92408dd3__static.2@PAGEOFF
	stp	xzr,x8,[sp,#24]
	str	x8,[sp,#40]
	cmp	w23,#16
	b.hi	18f
	cbz	w23,19f
	mov	x8,#0
20:
	ldrsb	x9,[x24,x8]
	tbnz	x9,#63,18f
	ldrb	w9,[x25,x9]
	add	x10,sp,#32
	strb	w9,[x10,x8]
	add	x8,x8,#1
	cmp	x23,x8
	b.ne	20b
	ldr	q0,[sp,#32]
	b	20f
21:
	cmp	w23,#4
	b.lo	5b
	ldr	w8,[x24]
	rev	w8,w8
	mov	w9,#1
	strb	w9,[x20,#118]
	str	w8,[x20,#56]
	b	5b
22:
	cbz	w23,5b
	ldrb	w8,[x24]
	and	w9,w8,#0x7f
	neg	w9,w9
	mov	w10,#257
	sturh	w10,[x20,#123]
	strb	w9,[x20,#78]
	lsr	w8,w8,#7
	strb	w8,[x20,#79]
	b	5b
23:
	cmp	w23,#8
	b.lo	5b
	cmp	w23,#16
	b.lo	24f
	ldur	x8,[x8,#10]
	rev	x8,x8
	b	25f
26:
	cmp	w23,#3
	b.lo	5b
	ldrb	w9,[x8,#2]
	ldrb	w10,[x8,#3]
	ldrb	w8,[x8,#4]
	lsl	w9,w9,#8
	orr	w9,w9,w10,lsl #16
	orr	w8,w9,w8,lsl #24
	rev	w8,w8
	lsr	w9,w8,#12
	mov	w10,#257
	sturh	w10,[x20,#125]
	str	x9,[x20,#24]
Lrtp_92408dd3_loh28:
	adrp	x9,lrtp_92408dd3_CPI34_0@PAGE
Lrtp_92408dd3_loh29:
	ldr	d0,[x9,lrtp_92408dd3_CPI34_0@PAGEOFF]
	and	w8,w8,#0xfff
	str	d0,[x20,#32]
	str	x8,[x20,#40]
	str	d0,[x20,#48]
	b	5b
27:
	cbz	w23,5b
	ldrb	w8,[x24]
	mov	w9,#1
	strb	w9,[x20,#122]
	strb	w8,[x20,#77]
	b	5b
28:
	mov	x0,x24
	mov	x1,x23
	mov	x2,x20
	bl	_rtp_92408dd3_rtp_values.value.stream_id.read.a6b2bc1c138ab33f
	b	5b
29:
	cmp	w23,#9
	b.lo	5b
	ldrb	w9,[x8,#2]
	ldurh	w10,[x8,#3]
	rev	w10,w10
	lsr	w10,w10,#16
	ldurh	w11,[x8,#5]
	rev	w11,w11
	lsr	w11,w11,#16
	ldurh	w12,[x8,#7]
	rev	w12,w12
	lsr	w12,w12,#16
	ldurh	w8,[x8,#9]
	rev	w8,w8
	lsr	w8,w8,#16
	mov	w13,#1
	strb	w13,[x20,#127]
	strb	w9,[x20,#76]
	strh	w10,[x20,#68]
	strh	w11,[x20,#70]
	strh	w12,[x20,#72]
	strh	w8,[x20,#74]
	b	5b
18:
	add	x0,sp,#8
	mov	x1,x24
	mov	x2,x23
	bl	_rtp_92408dd3_rtp_core.str.utf8.from_utf8
	ldrb	w8,[sp,#8]
	cbnz	w8,5b
	ldp	x8,x9,[sp,#16]
	mov	x10,#2314885530818453536
	stp	x10,x10,[sp,#48]
	cbz	x9,18f
	mov	x10,#0
	mov	x11,#0
30:
	ldrsb	w12,[x8,x11]
	cmn	w12,#64
	b.lt	31f
	and	x12,x12,#0xff
	ldrb	w12,[x25,x12]
	add	x13,sp,#48
	strb	w12,[x13,x10]
	add	x10,x10,#1
31:
	add	x11,x11,#1
	cmp	x11,x9
	b.hs	31f
	cmp	x10,#16
	b.ne	30b
31:
	ldr	q0,[sp,#48]
	b	20f
24:
	mov	x8,#0
25:
	ldr	x9,[x24]
	rev	x9,x9
	cmp	w23,#15
	mov	w10,#1
	strb	w10,[x20,#116]
	cset	w10,hi
	strb	w10,[x20,#117]
	stp	x9,x8,[x20,#8]
	b	5b
9:
Lrtp_92408dd3_loh30:
	adrp	x19,lrtp_92408dd3__static.0@PAGE
Lrtp_92408dd3_loh31:
	add	x19,x19,lrtp_92408dd3__static.0@PAGEOFF
	b	8f
19:
	mov	w8,#1
	strb	w8,[x20,#128]
	movi.2d	v0,#0000000000000000
	b	9f
13:
	mov	x22,#0
Lrtp_92408dd3_loh32:
	adrp	x19,lrtp_92408dd3__static.0@PAGE
Lrtp_92408dd3_loh33:
	add	x19,x19,lrtp_92408dd3__static.0@PAGEOFF
	b	8f
18:
	movi.16b	v0,#32
20:
	mov	w8,#1
	strb	w8,[x20,#128]
	movi.16b	v1,#32
	cmeq.16b	v1,v0,v1
	bic.16b	v0,v0,v1
9:
	str	q0,[x20,#80]
	strb	wzr,[x20,#96]
	b	5b
11:
	mov	x22,#0
10:
Lrtp_92408dd3_loh34:
	adrp	x19,lrtp_92408dd3__static.0@PAGE
Lrtp_92408dd3_loh35:
	add	x19,x19,lrtp_92408dd3__static.0@PAGEOFF
	ldr	w27,[sp]
	b	8f
12:
	ldr	w27,[sp]
	mov	x26,x20
	ldr	x20,[sp,#72]
8:
	cbz	x23,5b
	cmp	x23,#1
	b.ne	8f
	ldrb	w8,[x24]
	cbnz	w8,5b
8:
	mov	x0,x24
	mov	x1,x23
	mov	x2,x26
	bl	_rtp_92408dd3_rtp_ext.block_values.read_long.1839c04a795dab0b
	orr	w27,w0,w27
	b	5b
8:
	mov	x0,x23
	mov	x1,x24
	mov	x2,x20
	bl	_rtp_92408dd3_rtp_values.value.stream_id.read_repaired.a6b2bc1c138ab33f
9:
	mov	x8,x19
	cbz	x22,3b
1:
	ldrb	w10,[x8]
	cbz	w10,1f
	cmp	w10,#239
	and	w9,w10,#0xf
	add	w11,w9,#2
	ccmp	x22,x11,#0,ls
	b.hs	10f
	b	3b
1:
	cmp	x22,#2
	b.eq	1f
	cmp	x22,#1
	b.eq	3b
	cmp	x22,#3
	b.hi	11f
	ldrb	w9,[x8,#1]
	cbnz	w9,11f
	ldrb	w9,[x8,#2]
	cbnz	w9,11f
	b	3b
1:
	ldrb	w9,[x8,#1]
	cbz	w9,3b
11:
	sub	x1,x22,#1
	add	x0,x8,#1
	bl	_rtp_92408dd3_rtp_ext.elements.skip_zeros
	cbz	x1,3b
	mov	x8,x0
	mov	x22,x1
	ldrb	w10,[x0]
	cmp	w10,#239
	and	w9,w10,#0xf
	add	w11,w9,#2
	ccmp	x1,x11,#0,ls
	b.lo	3b
10:
	mov	w10,w10
	lsr	x10,x10,#4
	sub	x22,x22,x11
	add	x19,x8,x11
	cbz	w10,9b
	ldrb	w10,[x21,x10]
	sub	w10,w10,#1
	cmp	w10,#14
	b.hi	9b
	add	x23,x8,#1
	sub	x24,x11,#1
Lrtp_92408dd3_loh36:
	adrp	x11,1f@PAGE
Lrtp_92408dd3_loh37:
	add	x11,x11,1f@PAGEOFF
	adr	x12,8b
	ldrb	w13,[x11,x10]
	add	x12,x12,x13,lsl #2
	br	x12
3:
	cmp	w9,#2
	b.lo	9b
	ldrb	w9,[x8,#1]
	ldrb	w10,[x8,#2]
	ldrb	w8,[x8,#3]
	lsl	w9,w9,#8
	orr	w9,w9,w10,lsl #16
	orr	w8,w9,w8,lsl #24
	rev	w8,w8
	mov	w9,#16960
	movk	w9,#15,lsl #16
	umull	x8,w8,w9
	lsr	x8,x8,#18
	mov	w9,#1
	strb	w9,[x20,#115]
	str	x8,[x20]
	b	9b
10:
	cbz	w9,11f
	cbz	x22,12f
	str	x26,[sp]
13:
	ldrb	w8,[x19]
	mov	x0,x19
	mov	x1,x22
	ldr	x26,[sp]
	cbnz	w8,18f
	cmp	x22,#2
	b.eq	19f
	cmp	x22,#1
	b.eq	20f
	cmp	x22,#3
	b.hi	24f
	ldrb	w8,[x19,#1]
	cbnz	w8,24f
	ldrb	w8,[x19,#2]
	cbnz	w8,24f
	b	20f
19:
	ldrb	w8,[x19,#1]
	cbz	w8,20f
24:
	add	x0,x19,#1
	sub	x1,x22,#1
	bl	_rtp_92408dd3_rtp_ext.elements.skip_zeros
	cbz	x1,20f
	ldrb	w8,[x0]
18:
	cmp	w8,#239
	b.hi	20f
	and	w9,w8,#0xf
	add	w9,w9,#2
	subs	x26,x1,x9
	b.lo	18f
	mov	w8,w8
	lsr	x8,x8,#4
	cbz	w8,19f
	ldrb	w8,[x21,x8]
	cmp	w8,#15
	b.ne	19f
	add	x22,x0,#1
	sub	x25,x9,#1
	add	x19,x0,x9
	mov	x0,x22
	mov	x1,x25
	bl	_rtp_92408dd3_rtp_ext.block_values.is_another_allocation
	cmp	w0,#0
	csel	x24,x25,x24,ne
	csel	x23,x22,x23,ne
	mov	x22,x26
	cbnz	x26,13b
	b	13f
24:
	ldrb	w8,[x23]
	mov	w9,#1
	strb	w9,[x20,#121]
	ubfiz	x8,x8,#4,#2
	mov	x9,#17694720
	movk	x9,#180,lsl #32
	movk	x9,#90,lsl #48
	lsr	x8,x9,x8
	strh	w8,[x20,#66]
	b	9b
25:
	cmp	w9,#3
	b.lo	9b
	ldr	w8,[x23]
	rev	w8,w8
	mov	w9,#1
	strb	w9,[x20,#119]
	str	w8,[x20,#60]
	b	9b
30:
	cbz	w9,9b
	ldrh	w8,[x23]
	rev	w8,w8
	lsr	w8,w8,#16
	mov	w9,#1
	strb	w9,[x20,#120]
	strh	w8,[x20,#64]
	b	9b
31:
	mov	x8,#0
	stp	xzr,xzr,[sp,#8]
	mov	x9,#2314885530818453536
	stp	xzr,x9,[sp,#24]
	str	x9,[sp,#40]
32:
	ldrsb	x9,[x23,x8]
	tbnz	x9,#63,33f
Lrtp_92408dd3_loh38:
	adrp	x10,lrtp_92408dd3__static.2@PAGE
Lrtp_92408dd3_loh39:
	add	x10,x10,lrtp_92408dd3__static.2@PAGEOFF
	ldrb	w9,[x10,x9]
	add	x10,sp,#32
	strb	w9,[x10,x8]
	add	x8,x8,#1
	cmp	x24,x8
	b.ne	32b
	ldr	q0,[sp,#32]
32:
	mov	w8,#1
	strb	w8,[x20,#128]
	movi.16b	v1,#32
	cmeq.16b	v1,v0,v1
	bic.16b	v0,v0,v1
	str	q0,[x20,#80]
	strb	wzr,[x20,#96]
	b	9b
34:
	cmp	w9,#3
	b.lo	9b
	ldr	w8,[x23]
	rev	w8,w8
	mov	w9,#1
	strb	w9,[x20,#118]
	str	w8,[x20,#56]
	b	9b
35:
	ldrb	w8,[x23]
	and	w9,w8,#0x7f
	neg	w9,w9
	mov	w10,#257
	sturh	w10,[x20,#123]
	strb	w9,[x20,#78]
	lsr	w8,w8,#7
	strb	w8,[x20,#79]
	b	9b
36:
	cmp	w9,#7
	b.lo	9b
	cmp	w9,#15
	b.ne	37f
	ldur	x8,[x8,#9]
	rev	x8,x8
	b	38f
39:
	cmp	w9,#2
	b.lo	9b
	ldrb	w9,[x8,#1]
	ldrb	w10,[x8,#2]
	ldrb	w8,[x8,#3]
	lsl	w9,w9,#8
	orr	w9,w9,w10,lsl #16
	orr	w8,w9,w8,lsl #24
	rev	w8,w8
	lsr	w9,w8,#12
	mov	w10,#257
	sturh	w10,[x20,#125]
	str	x9,[x20,#24]
Lrtp_92408dd3_loh40:
	adrp	x9,lrtp_92408dd3_CPI34_0@PAGE
Lrtp_92408dd3_loh41:
	ldr	d0,[x9,lrtp_92408dd3_CPI34_0@PAGEOFF]
	and	w8,w8,#0xfff
	str	d0,[x20,#32]
	str	x8,[x20,#40]
	str	d0,[x20,#48]
	b	9b
40:
	ldrb	w8,[x23]
	mov	w9,#1
	strb	w9,[x20,#122]
	strb	w8,[x20,#77]
	b	9b
41:
	mov	x0,x23
	mov	x1,x24
	mov	x2,x20
	bl	_rtp_92408dd3_rtp_values.value.stream_id.read.a6b2bc1c138ab33f
	b	9b
42:
	cmp	w9,#8
	b.lo	9b
	ldrb	w9,[x8,#1]
	ldrh	w10,[x8,#2]
	rev	w10,w10
	lsr	w10,w10,#16
	ldrh	w11,[x8,#4]
	rev	w11,w11
	lsr	w11,w11,#16
	ldrh	w12,[x8,#6]
	rev	w12,w12
	lsr	w12,w12,#16
	ldrh	w8,[x8,#8]
	rev	w8,w8
	lsr	w8,w8,#16
	mov	w13,#1
	strb	w13,[x20,#127]
	strb	w9,[x20,#76]
	strh	w10,[x20,#68]
	strh	w11,[x20,#70]
	strh	w12,[x20,#72]
	strh	w8,[x20,#74]
	b	9b
33:
	add	x0,sp,#8
	mov	x1,x23
	mov	x2,x24
	bl	_rtp_92408dd3_rtp_core.str.utf8.from_utf8
	ldrb	w8,[sp,#8]
	cbnz	w8,9b
	ldp	x8,x9,[sp,#16]
	mov	x10,#2314885530818453536
	stp	x10,x10,[sp,#48]
	cbz	x9,33f
	mov	x10,#0
	mov	x11,#0
43:
	ldrsb	w12,[x8,x11]
	cmn	w12,#64
	b.lt	44f
	and	x12,x12,#0xff
Lrtp_92408dd3_loh42:
	adrp	x13,lrtp_92408dd3__static.2@PAGE
Lrtp_92408dd3_loh43:
	add	x13,x13,lrtp_92408dd3__static.2@PAGEOFF
	ldrb	w12,[x13,x12]
	add	x13,sp,#48
	strb	w12,[x13,x10]
	add	x10,x10,#1
44:
	add	x11,x11,#1
	cmp	x11,x9
	b.hs	44f
	cmp	x10,#16
	b.ne	43b
44:
	ldr	q0,[sp,#48]
	b	32b
37:
	mov	x8,#0
38:
	ldr	x10,[x23]
	rev	x10,x10
	cmp	w9,#15
	mov	w9,#1
	strb	w9,[x20,#116]
	cset	w9,eq
	strb	w9,[x20,#117]
	stp	x10,x8,[x20,#8]
	b	9b
20:
	mov	x22,#0
12:
Lrtp_92408dd3_loh44:
	adrp	x19,lrtp_92408dd3__static.0@PAGE
Lrtp_92408dd3_loh45:
	add	x19,x19,lrtp_92408dd3__static.0@PAGEOFF
	b	12f
33:
	movi.16b	v0,#32
	b	32b
18:
	mov	x22,#0
13:
Lrtp_92408dd3_loh46:
	adrp	x19,lrtp_92408dd3__static.0@PAGE
Lrtp_92408dd3_loh47:
	add	x19,x19,lrtp_92408dd3__static.0@PAGEOFF
19:
	ldr	x26,[sp]
12:
	cmp	x24,#1
	b.ne	12f
11:
	ldrb	w8,[x23]
	cbnz	w8,9b
	mov	w24,#1
12:
	mov	x0,x23
	mov	x1,x24
	mov	x2,x26
	bl	_rtp_92408dd3_rtp_ext.block_values.read_long.1839c04a795dab0b
	orr	w27,w0,w27
	b	9b
	.loh AdrpAdd	Lrtp_92408dd3_loh24,Lrtp_92408dd3_loh25
	.loh AdrpAdd	Lrtp_92408dd3_loh26,Lrtp_92408dd3_loh27
	.loh AdrpLdr	Lrtp_92408dd3_loh28,Lrtp_92408dd3_loh29
	.loh AdrpAdd	Lrtp_92408dd3_loh30,Lrtp_92408dd3_loh31
	.loh AdrpAdd	Lrtp_92408dd3_loh32,Lrtp_92408dd3_loh33
	.loh AdrpAdd	Lrtp_92408dd3_loh34,Lrtp_92408dd3_loh35
	.loh AdrpAdd	Lrtp_92408dd3_loh36,Lrtp_92408dd3_loh37
	.loh AdrpAdd	Lrtp_92408dd3_loh38,Lrtp_92408dd3_loh39
	.loh AdrpLdr	Lrtp_92408dd3_loh40,Lrtp_92408dd3_loh41
	.loh AdrpAdd	Lrtp_92408dd3_loh42,Lrtp_92408dd3_loh43
	.loh AdrpAdd	Lrtp_92408dd3_loh44,Lrtp_92408dd3_loh45
	.loh AdrpAdd	Lrtp_92408dd3_loh46,Lrtp_92408dd3_loh47
	.cfi_endproc
	.section	__TEXT,__const
2:
	.byte	(6b-4b)>>2
	.byte	(23b-4b)>>2
	.byte	(22b-4b)>>2
	.byte	(21b-4b)>>2
	.byte	(14b-4b)>>2
	.byte	(16b-4b)>>2
	.byte	(26b-4b)>>2
	.byte	(27b-4b)>>2
	.byte	(29b-4b)>>2
	.byte	(28b-4b)>>2
	.byte	(4b-4b)>>2
	.byte	(17b-4b)>>2
	.byte	(15b-4b)>>2
	.byte	(5b-4b)>>2
	.byte	(7b-4b)>>2
1:
	.byte	(3b-8b)>>2
	.byte	(36b-8b)>>2
	.byte	(35b-8b)>>2
	.byte	(34b-8b)>>2
	.byte	(24b-8b)>>2
	.byte	(30b-8b)>>2
	.byte	(39b-8b)>>2
	.byte	(40b-8b)>>2
	.byte	(42b-8b)>>2
	.byte	(41b-8b)>>2
	.byte	(8b-8b)>>2
	.byte	(31b-8b)>>2
	.byte	(25b-8b)>>2
	.byte	(9b-8b)>>2
	.byte	(10b-8b)>>2

	.section	__TEXT,__text,regular,pure_instructions
	.p2align	2
_rtp_92408dd3_rtp_ext.block_values.read_long.1839c04a795dab0b:
	.cfi_startproc
	cbz	x1,1f
	sub	sp,sp,#160
	str	x27,[sp,#64]
	stp	x26,x25,[sp,#80]
	stp	x24,x23,[sp,#96]
	stp	x22,x21,[sp,#112]
	stp	x20,x19,[sp,#128]
	stp	x29,x30,[sp,#144]
	.cfi_def_cfa_offset 160
	.cfi_offset w30,-8
	.cfi_offset w29,-16
	.cfi_offset w19,-24
	.cfi_offset w20,-32
	.cfi_offset w21,-40
	.cfi_offset w22,-48
	.cfi_offset w23,-56
	.cfi_offset w24,-64
	.cfi_offset w25,-72
	.cfi_offset w26,-80
	.cfi_offset w27,-96
	mov	x19,x2
	subs	x9,x1,#1
	b.ne	2f
	ldrb	w8,[x0]
	cbz	w8,3f
2:
	mov	x8,x0
	ldrb	w13,[x8],#1
	ubfx	x11,x13,#4,#2
	add	x26,x11,#1
	ands	w10,w13,#0xf
	mov	w12,#16843009
	mul	w12,w10,w12
	str	w12,[sp,#76]
	b.eq	2f
	fmov	s0,w10
	cnt.8b	v0,v0
	fmov	w10,s0
	mul	w10,w10,w26
4:
	and	x22,x10,#0xff
	add	x10,x22,#3
	lsr	x10,x10,#2
	subs	x21,x9,x10
	b.lo	5f
	add	x20,x8,x10
	cbz	x10,6f
	cmp	x10,#1
	b.ne	7f
	ldrb	w8,[x8]
	lsl	w25,w8,#24
	mov	x2,x21
	mov	x1,x20
	cbnz	w22,8f
	b	9f
1:
	mov	w0,#0
	ret
2:
	add	x10,x26,#1
	lsr	x10,x10,#1
	subs	x9,x9,x10
	b.hs	1f
5:
	mov	w0,#0
	b	2f
3:
	mov	x0,x19
	mov	w1,#680
	bl	_bzero
3:
	mov	w0,#1
2:
	ldp	x29,x30,[sp,#144]
	ldp	x20,x19,[sp,#128]
	ldp	x22,x21,[sp,#112]
	ldp	x24,x23,[sp,#96]
	ldp	x26,x25,[sp,#80]
	ldr	x27,[sp,#64]
	add	sp,sp,#160
	ret
1:
	ldrb	w12,[x8]
	lsr	w12,w12,#4
	strb	w12,[sp,#76]
	cbz	w11,1f
	ldrb	w12,[x8]
	and	w12,w12,#0xf
	strb	w12,[sp,#77]
	cmp	w26,#2
	b.eq	1f
	ldrb	w12,[x0,#2]
	lsr	w12,w12,#4
	strb	w12,[sp,#78]
	cmp	w26,#3
	b.eq	1f
	ldrb	w12,[x0,#2]
	and	w12,w12,#0xf
	strb	w12,[sp,#79]
1:
	add	x8,x8,x10
	ldrb	w10,[sp,#76]
	fmov	d0,x10
	cnt.8b	v0,v0
	fmov	w10,s0
	cbz	w11,4b
	ldrb	w11,[sp,#77]
	fmov	d0,x11
	cnt.8b	v0,v0
	fmov	w11,s0
	add	w10,w10,w11
	cmp	w26,#2
	b.eq	4b
	ldrb	w11,[sp,#78]
	fmov	d0,x11
	cnt.8b	v0,v0
	fmov	w11,s0
	add	w10,w10,w11
	cmp	w26,#3
	b.eq	4b
	ldrb	w11,[sp,#79]
	fmov	d0,x11
	cnt.8b	v0,v0
	fmov	w11,s0
	add	w10,w10,w11
	b	4b
6:
	mov	w25,#0
	mov	x2,x21
	mov	x1,x20
	cbnz	w22,8f
	b	9f
7:
	cmp	w22,#8
	b.hi	1f
	ldrh	w8,[x8]
	rev	w25,w8
	mov	x2,x21
	mov	x1,x20
	cbnz	w22,8f
	b	9f
1:
	cmp	x10,#3
	b.ne	1f
	ldrb	w9,[x8,#2]
	ldrh	w8,[x8]
	orr	w8,w8,w9,lsl #16
	b	2f
1:
	ldr	w8,[x8]
2:
	rev	w25,w8
8:
	str	x13,[sp,#32]
	mov	w8,w25
	mov	w9,#32
	sub	x9,x9,x22,lsl #1
	lsr	x8,x8,x9
	and	w9,w8,#0xaaaaaaaa
	fmov	d0,x8
	cnt.8b	v0,v0
	addv.8b	b0,v0
	fmov	w8,s0
	fmov	s0,w9
	cnt.8b	v0,v0
	addv.8b	b0,v0
	fmov	w9,s0
	add	x8,x8,x22
	adds	x24,x8,x9
	mov	x1,x20
	mov	x2,x21
	b.eq	1f
	mov	x2,x21
	mov	x1,x20
	b	2f
4:
	sub	x2,x2,#1
	add	x1,x1,#1
6:
	subs	x24,x24,#1
	b.eq	1f
2:
	cbz	x2,6b
	ldrsb	w8,[x1]
	tbz	w8,#31,4b
	cmp	x2,#1
	b.eq	2f
	ldrsb	w8,[x1,#1]
	tbnz	w8,#31,2f
	mov	w8,#2
	b	4f
2:
	mov	x23,x25
	add	x0,sp,#40
	mov	x27,x1
	mov	x25,x2
	bl	_rtp_92408dd3_rtp_vla.leb.long_number_at
	ldrb	w8,[sp,#40]
	cmp	w8,#1
	b.ne	2f
	ldr	x8,[sp,#56]
	mov	x1,x27
	mov	x2,x25
	mov	x25,x23
4:
	add	x1,x1,x8
	sub	x2,x2,x8
	b	6b
2:
	mov	x1,x27
	mov	x2,x25
	mov	x25,x23
	b	6b
1:
	subs	x8,x2,#5
	b.hs	1f
	ldr	x13,[sp,#32]
9:
	lsr	w22,w13,#6
	mov	x0,x19
	mov	x23,x1
	mov	w1,#680
	mov	x24,x2
	bl	_bzero
	mov	x17,x24
	mov	x16,x23
	mov	x10,#0
	strb	w22,[x19,#673]
	str	x26,[sp,#8]
	b	2f
4:
	ldr	x10,[sp,#24]
	add	x10,x10,#1
	ldr	x26,[sp,#8]
	cmp	x10,x26
	b.eq	3b
2:
	ldrb	w8,[x19,#672]
	mov	w9,#168
	umaddl	x9,w8,w9,x19
	strb	wzr,[x9,#160]
	add	w8,w8,#1
	strb	w8,[x19,#672]
	add	x8,sp,#76
	str	x10,[sp,#24]
	ldrb	w27,[x8,x10]
	cbnz	w27,2f
	b	4b
3:
	ldurb	w8,[x13,#-8]
	add	w8,w8,#1
	sturb	w8,[x13,#-8]
	lsr	w27,w27,#1
	cbz	w27,4b
2:
	tbnz	w27,#0,2f
	mov	x24,#0
	mov	x23,#0
	mov	x22,#0
	mov	x8,#0
	mov	w26,#0
	b	4f
2:
	cbz	x21,2f
	ldrsb	x24,[x20]
	tbnz	x24,#63,6f
	sub	x21,x21,#1
	add	x20,x20,#1
	lsr	w8,w25,#30
	add	w26,w8,#1
	cbz	w8,7f
8:
	cbz	x21,10f
	ldrsb	w8,[x20]
	and	x23,x8,#0xff
	tbnz	w8,#31,11f
	sub	x21,x21,#1
	add	x20,x20,#1
	cmp	w26,#2
	b.eq	12f
	b	13f
2:
	mov	x24,#0
	lsr	w8,w25,#30
	add	w26,w8,#1
	cbnz	w8,8b
7:
	mov	x23,#0
	b	12f
6:
	cmp	x21,#1
	b.eq	2f
	ldrsb	x8,[x20,#1]
	tbnz	x8,#63,2f
	and	x9,x24,#0x7f
	orr	x24,x9,x8,lsl #7
	mov	w8,#2
	add	x20,x20,x8
	sub	x21,x21,x8
	lsr	w8,w25,#30
	add	w26,w8,#1
	cbnz	w8,8b
	b	7b
10:
	mov	x23,#0
	cmp	w26,#2
	b.ne	13f
12:
	mov	x22,#0
6:
	mov	x8,#0
10:
	lsl	w25,w25,#2
	subs	x13,x17,#5
	b.hs	14f
4:
	mov	w12,#0
	mov	w9,#0
	mov	w10,#0
	mov	w11,#0
	b	4f
14:
	ldrh	w10,[x16]
	ldrh	w12,[x16,#2]
	ldrb	w9,[x16,#4]
	add	x16,x16,#5
	rev	w10,w10
	lsr	w10,w10,#16
	add	w11,w10,#1
	rev	w10,w12
	lsr	w10,w10,#16
	add	w10,w10,#1
	mov	w12,#1
	mov	x17,x13
4:
	ldrb	w13,[x19,#672]
	mov	w14,#168
	umaddl	x13,w13,w14,x19
	ldurb	w14,[x13,#-8]
	mov	w15,#40
	umaddl	x14,w14,w15,x13
	stp	x24,x23,[x14,#-168]!
	stp	x22,x8,[x14,#16]
	strb	w26,[x14,#38]
	cbz	w12,3b
	strh	w11,[x14,#32]
	strh	w10,[x14,#34]
	strb	w9,[x14,#36]
	mov	w8,#1
	strb	w8,[x14,#37]
	b	3b
2:
	mov	x23,x17
	mov	x22,x16
	add	x0,sp,#40
	mov	x1,x20
	mov	x2,x21
	bl	_rtp_92408dd3_rtp_vla.leb.long_number_at
	ldrb	w8,[sp,#40]
	cmp	w8,#1
	b.ne	2f
	ldp	x24,x8,[sp,#48]
	mov	x16,x22
	mov	x17,x23
	add	x20,x20,x8
	sub	x21,x21,x8
	lsr	w8,w25,#30
	add	w26,w8,#1
	cbnz	w8,8b
	b	7b
11:
	cmp	x21,#1
	b.eq	3f
	ldrsb	x8,[x20,#1]
	tbnz	x8,#63,3f
	and	x9,x23,#0x7f
	orr	x23,x9,x8,lsl #7
	mov	w8,#2
	add	x20,x20,x8
	sub	x21,x21,x8
	cmp	w26,#2
	b.eq	12b
	b	13f
3:
	str	w25,[sp,#32]
	mov	x25,x17
	mov	x22,x16
	add	x0,sp,#40
	mov	x1,x20
	mov	x2,x21
	bl	_rtp_92408dd3_rtp_vla.leb.long_number_at
	ldrb	w8,[sp,#40]
	cmp	w8,#1
	b.ne	3f
	ldp	x23,x8,[sp,#48]
	mov	x16,x22
	mov	x17,x25
	ldr	w25,[sp,#32]
	add	x20,x20,x8
	sub	x21,x21,x8
	cmp	w26,#2
	b.eq	12b
	b	13f
2:
	mov	x24,#0
	mov	x16,x22
	mov	x17,x23
	lsr	w8,w25,#30
	add	w26,w8,#1
	cbnz	w8,8b
	b	7b
3:
	mov	x23,#0
	mov	x16,x22
	mov	x17,x25
	ldr	w25,[sp,#32]
	cmp	w26,#2
	b.eq	12b
13:
	cbz	x21,2f
	ldrsb	w8,[x20]
	and	x22,x8,#0xff
	tbnz	w8,#31,3f
	sub	x21,x21,#1
	add	x20,x20,#1
	cmp	w26,#3
	b.eq	6b
	b	4f
2:
	mov	x22,#0
	cmp	w26,#3
	b.eq	6b
4:
	cbz	x21,6b
	ldrsb	w9,[x20]
	and	x8,x9,#0xff
	tbnz	w9,#31,2f
	sub	x21,x21,#1
	add	x20,x20,#1
	b	10b
3:
	cmp	x21,#1
	b.eq	3f
	ldrsb	x8,[x20,#1]
	tbnz	x8,#63,3f
	and	x9,x22,#0x7f
	orr	x22,x9,x8,lsl #7
	mov	w8,#2
	add	x20,x20,x8
	sub	x21,x21,x8
	cmp	w26,#3
	b.eq	6b
	b	4b
3:
	str	w25,[sp,#32]
	mov	x25,x17
	str	x16,[sp,#16]
	add	x0,sp,#40
	mov	x1,x20
	mov	x2,x21
	bl	_rtp_92408dd3_rtp_vla.leb.long_number_at
	ldrb	w8,[sp,#40]
	cmp	w8,#1
	b.ne	3f
	ldp	x22,x8,[sp,#48]
	ldr	x16,[sp,#16]
	mov	x17,x25
	ldr	w25,[sp,#32]
	add	x20,x20,x8
	sub	x21,x21,x8
	cmp	w26,#3
	b.eq	6b
	b	4b
2:
	cmp	x21,#1
	b.eq	2f
	ldrsb	x9,[x20,#1]
	tbnz	x9,#63,2f
	and	x8,x8,#0x7f
	orr	x8,x8,x9,lsl #7
	mov	w9,#2
	b	7f
3:
	mov	x22,#0
	ldr	x16,[sp,#16]
	mov	x17,x25
	ldr	w25,[sp,#32]
	cmp	w26,#3
	b.eq	6b
	b	4b
2:
	str	x17,[sp,#32]
	str	x16,[sp,#16]
	add	x0,sp,#40
	mov	x1,x20
	mov	x2,x21
	bl	_rtp_92408dd3_rtp_vla.leb.long_number_at
	ldrb	w8,[sp,#40]
	cmp	w8,#1
	b.ne	2f
	ldp	x8,x9,[sp,#48]
	ldr	x16,[sp,#16]
	ldr	x17,[sp,#32]
7:
	add	x20,x20,x9
	sub	x21,x21,x9
	b	10b
2:
	mov	x8,#0
	ldr	x16,[sp,#16]
	ldr	x17,[sp,#32]
	b	10b
1:
	mov	w9,#1
	mov	x10,x1
	ldr	x13,[sp,#32]
1:
	ldrh	w11,[x10]
	rev	w12,w11
	mov	w11,#65535
	cmp	w11,w12,lsr #16
	b.eq	5b
	ldrh	w12,[x10,#2]
	rev	w12,w12
	cmp	w11,w12,lsr #16
	b.eq	5b
	cmp	x9,x22
	b.hs	9b
	add	x9,x9,#1
	add	x10,x10,#5
	cmp	x8,#5
	sub	x8,x8,#5
	b.hs	1b
	b	9b
	.cfi_endproc

	.p2align	2
_rtp_92408dd3_rtp_c.template.not_routed_status:
	.cfi_startproc
	ldrb	w8,[x0]
	cmp	w8,#2
	b.hs	1f
	mov	w0,#9
	ret
1:
	b.ne	1f
	mov	w0,#16
	ret
1:
	ldrb	w8,[x0,#8]
	ldrb	w1,[x0,#9]
	mov	x0,x8
	b	_rtp_92408dd3_rtp_c.growing.put_status_of
	.cfi_endproc

	.p2align	2
_rtp_92408dd3_rtp_c.status.refusal_status:
	.cfi_startproc
	and	x8,x0,#0xff
Lrtp_92408dd3_loh48:
	adrp	x9,lrtp_92408dd3__switch.table.rtp_92408dd3_rtp_c.whole_packet.status_of_no_packet@PAGE
Lrtp_92408dd3_loh49:
	add	x9,x9,lrtp_92408dd3__switch.table.rtp_92408dd3_rtp_c.whole_packet.status_of_no_packet@PAGEOFF
	ldr	w0,[x9,x8,lsl #2]
	ret
	.loh AdrpAdd	Lrtp_92408dd3_loh48,Lrtp_92408dd3_loh49
	.cfi_endproc

	.p2align	2
_rtp_92408dd3_rtp_ext.place.remove_element:
	.cfi_startproc
	sub	sp,sp,#112
	str	x27,[sp,#16]
	stp	x26,x25,[sp,#32]
	stp	x24,x23,[sp,#48]
	stp	x22,x21,[sp,#64]
	stp	x20,x19,[sp,#80]
	stp	x29,x30,[sp,#96]
	.cfi_def_cfa_offset 112
	.cfi_offset w30,-8
	.cfi_offset w29,-16
	.cfi_offset w19,-24
	.cfi_offset w20,-32
	.cfi_offset w21,-40
	.cfi_offset w22,-48
	.cfi_offset w23,-56
	.cfi_offset w24,-64
	.cfi_offset w25,-72
	.cfi_offset w26,-80
	.cfi_offset w27,-96
	mov	x19,x2
	mov	x20,x1
	and	w24,w3,#0xff
	tst	w0,#0xff
	b.eq	1f
	mov	w23,#0
	cbz	x19,2f
	mov	x1,x19
	mov	x0,x20
	b	3f
1:
	mov	w23,#0
	cbz	x19,2f
	mov	x21,x19
	mov	x8,x20
	b	1f
4:
	strh	wzr,[x20,x8]
5:
	cmp	w22,w24
	cset	w8,eq
	orr	w23,w23,w8
	add	x0,x20,x27
	cmp	x25,x1
	neg	x1,x26
	b.eq	2f
3:
	ldrb	w8,[x0]
	cbnz	w8,3f
	cmp	x1,#2
	b.eq	6f
	cmp	x1,#1
	b.eq	2f
	cmp	x1,#3
	b.hi	7f
	ldrb	w8,[x0,#1]
	cbnz	w8,7f
	ldrb	w8,[x0,#2]
	cbnz	w8,7f
	b	2f
6:
	ldrb	w8,[x0,#1]
	cbz	w8,2f
7:
	sub	x1,x1,#1
	add	x0,x0,#1
	bl	_rtp_92408dd3_rtp_ext.elements.skip_zeros
	cbz	x1,2f
3:
	cmp	x1,#2
	b.lo	2f
	ldrb	w8,[x0,#1]
	add	x25,x8,#2
	subs	x26,x25,x1
	b.hi	2f
	ldrb	w22,[x0]
	add	x27,x26,x19
	cmp	w22,w24
	b.ne	5b
	sub	x8,x27,x8
	sub	x8,x8,#2
	sub	x9,x27,x8
	subs	x21,x9,#1
	b.le	3f
	cmp	x9,#2
	b.eq	4b
	cmp	x9,#3
	b.eq	4f
	cmp	x9,#4
	b.ne	6f
	str	wzr,[x20,x8]
	b	5b
3:
	cbz	x9,5b
	cmp	x9,#1
	b.ne	6f
	strb	wzr,[x20,x8]
	b	5b
4:
	add	x8,x20,x8
	strb	wzr,[x8,#2]
	strh	wzr,[x8]
	b	5b
6:
	add	x0,x20,x8
	str	x0,[sp,#8]
	str	x1,[sp,#24]
	mov	x1,x21
	bl	_bzero
	ldr	x1,[sp,#24]
	ldr	x8,[sp,#8]
	strb	wzr,[x8,x21]
	b	5b
3:
	str	wzr,[x22]
4:
	cmp	w27,w24
	cset	w8,eq
	orr	w23,w23,w8
	add	x8,x20,x10
	cmp	x25,x21
	neg	x21,x26
	b.eq	2f
1:
	ldrb	w9,[x8]
	cbz	w9,1f
	cmp	w9,#239
	and	w8,w9,#0xf
	add	w25,w8,#2
	ccmp	x25,x21,#2,ls
	b.ls	5f
	b	2f
1:
	cmp	x21,#2
	b.eq	1f
	cmp	x21,#1
	b.eq	2f
	cmp	x21,#3
	b.hi	6f
	ldrb	w9,[x8,#1]
	cbnz	w9,6f
	ldrb	w9,[x8,#2]
	cbnz	w9,6f
	b	2f
1:
	ldrb	w9,[x8,#1]
	cbz	w9,2f
6:
	sub	x1,x21,#1
	add	x0,x8,#1
	bl	_rtp_92408dd3_rtp_ext.elements.skip_zeros
	cbz	x1,2f
	mov	x21,x1
	ldrb	w9,[x0]
	cmp	w9,#239
	and	w8,w9,#0xf
	add	w25,w8,#2
	ccmp	x25,x1,#2,ls
	b.hi	2f
5:
	lsr	w27,w9,#4
	sub	x26,x25,x21
	add	x10,x26,x19
	cmp	w27,w24
	b.ne	4b
	sub	x9,x10,x25
	add	x22,x20,x9
	cmp	w8,#2
	b.eq	3b
	cmp	w8,#1
	b.eq	1f
	cbz	w8,3f
	sub	x1,x25,#1
	mov	x0,x22
	bl	_bzero
	add	x10,x26,x19
	sub	x8,x25,#1
	strb	wzr,[x22,x8]
	b	4b
1:
	strb	wzr,[x22,#2]
3:
	strh	wzr,[x22]
	b	4b
2:
	and	w0,w23,#0x1
	ldp	x29,x30,[sp,#96]
	ldp	x20,x19,[sp,#80]
	ldp	x22,x21,[sp,#64]
	ldp	x24,x23,[sp,#48]
	ldp	x26,x25,[sp,#32]
	ldr	x27,[sp,#16]
	add	sp,sp,#112
	ret
	.cfi_endproc

	.p2align	2
_rtp_92408dd3_rtp_route.walk.write_kept.82187cbc7fdfa14b:
	.cfi_startproc
	sub	sp,sp,#128
	stp	x26,x25,[sp,#48]
	stp	x24,x23,[sp,#64]
	stp	x22,x21,[sp,#80]
	stp	x20,x19,[sp,#96]
	stp	x29,x30,[sp,#112]
	.cfi_def_cfa_offset 128
	.cfi_offset w30,-8
	.cfi_offset w29,-16
	.cfi_offset w19,-24
	.cfi_offset w20,-32
	.cfi_offset w21,-40
	.cfi_offset w22,-48
	.cfi_offset w23,-56
	.cfi_offset w24,-64
	.cfi_offset w25,-72
	.cfi_offset w26,-80
	.cfi_offset w27,-96
	mov	x19,x7
	mov	x23,x6
	mov	x24,x5
	mov	x22,x2
	mov	x14,x0
	ldr	x8,[sp,#128]
	stp	x27,x8,[sp,#32]
	orr	w8,w4,w3
	tst	w8,#0xff
	b.eq	1f
	cbz	x23,2f
	mov	x25,x4
	mov	x26,x3
	add	x8,x14,#32
	str	x8,[sp,#24]
	b	3f
1:
	cbz	x23,2f
	add	x12,x19,#256
	add	x8,x14,#1
	str	x8,[sp,#24]
	b	1f
4:
	ldrb	w8,[x24]
	strb	w8,[x14,x20]
5:
	add	x22,x20,x27
6:
	mov	x24,x21
	cbz	x23,2f
3:
	ldrb	w8,[x24]
	cbz	w8,3f
	tst	w26,#0xff
	b.eq	7f
8:
	cmp	x23,#2
	b.lo	2f
	ldrb	w27,[x24,#1]
	add	x8,x27,#2
	subs	x23,x23,x8
	b.lo	2f
	add	x21,x24,x8
	ldrb	w8,[x24],#2
	ldrb	w20,[x19,x8]
	cbnz	w20,9f
	b	6b
3:
	cmp	x23,#2
	b.eq	3f
	cmp	x23,#1
	b.eq	2f
	cmp	x23,#3
	b.hi	10f
	ldrb	w8,[x24,#1]
	cbnz	w8,10f
	ldrb	w8,[x24,#2]
	cbnz	w8,10f
	b	2f
3:
	ldrb	w8,[x24,#1]
	cbz	w8,2f
10:
	mov	x21,x14
	mov	x20,x1
	sub	x1,x23,#1
	add	x0,x24,#1
	bl	_rtp_92408dd3_rtp_ext.elements.skip_zeros
	cbz	x1,2f
	mov	x24,x0
	mov	x23,x1
	mov	x1,x20
	mov	x14,x21
	tst	w26,#0xff
	b.ne	8b
7:
	ldrb	w9,[x24]
	cmp	w9,#239
	b.hi	2f
	and	x8,x9,#0xf
	add	x8,x8,#2
	subs	x23,x23,x8
	b.lo	2f
	lsr	x9,x9,#4
	add	x21,x24,x8
	ldrb	w20,[x19,x9]
	cbz	w20,6b
	add	x24,x24,#1
	sub	x27,x8,#1
	cmp	w20,#15
	b.hs	3f
9:
	add	x8,x19,#256
	ldrb	w8,[x8,w20,uxtw]
	cbz	w8,7f
	ldrb	w9,[x19,#546]
	cmp	w9,w8
	b.lo	7f
	sub	x8,x8,#1
	add	x9,x19,#512
	ldrb	w9,[x9,x8]
	cmp	w9,w20
	b.ne	7f
	ldr	x9,[sp,#40]
	add	x27,x9,x8,lsl #3
	ldr	w9,[x27]
	cbnz	w9,8f
	add	x9,x19,#528
	ldrb	w24,[x9,x8]
	add	x8,x22,x24
	add	x8,x8,#2
	cmp	x1,x8
	b.lo	8f
	tst	w25,#0xff
	b.eq	10f
	add	x8,x14,x22
	strb	w20,[x8]
	strb	w24,[x8,#1]
	mov	w8,#2
	add	x20,x8,x22
	cbnz	w24,11f
	b	12f
7:
	add	x8,x22,x27
	add	x8,x8,#2
	cmp	x1,x8
	b.lo	8f
	tst	w25,#0xff
	b.eq	7f
	add	x8,x14,x22
	strb	w20,[x8]
	strb	w27,[x8,#1]
	mov	w8,#2
	add	x20,x8,x22
	cbnz	x27,13f
	b	14f
7:
	lsr	w8,w20,#4
	orr	w8,w8,w20,lsl #4
	add	w8,w27,w8
	sub	w8,w8,#1
	strb	w8,[x14,x22]
	mov	w8,#1
	add	x20,x8,x22
	cbz	x27,14f
13:
	cmp	x27,#1
	b.eq	4b
	cmp	x27,#2
	b.hi	4f
	ldrb	w8,[x24]
	add	x9,x14,x20
	strb	w8,[x9]
	ldrb	w8,[x24,#1]
	strb	w8,[x9,#1]
	b	5b
4:
	cmp	x27,#3
	b.ne	14f
	ldrb	w8,[x24]
	add	x9,x14,x20
	strb	w8,[x9]
	ldrb	w8,[x24,#1]
	strb	w8,[x9,#1]
	ldrb	w8,[x24,#2]
	strb	w8,[x9,#2]
	b	5b
14:
	add	x9,x14,x20
	sub	x9,x9,x24
	cmp	x9,x27
	b.hs	4f
	cmp	x27,#8
	b.lo	7f
	add	x9,x22,x14
	add	x9,x9,x8
	sub	x9,x9,x24
	cmp	x9,#64
	b.hs	13f
7:
	mov	x9,#0
7:
	sub	x10,x27,x9
	add	x11,x24,x9
	add	x9,x9,x22
	add	x8,x14,x8
	add	x8,x8,x9
14:
	ldrb	w9,[x11],#1
	strb	w9,[x8],#1
	subs	x10,x10,#1
	b.ne	14b
	b	5b
4:
	add	x0,x14,x20
	mov	x22,x1
	mov	x1,x24
	mov	x2,x27
	mov	x24,x14
	bl	_memmove
	mov	x14,x24
	mov	x1,x22
	b	5b
10:
	lsr	w8,w20,#4
	orr	w8,w8,w20,lsl #4
	add	w8,w24,w8
	sub	w8,w8,#1
	strb	w8,[x14,x22]
	mov	w8,#1
	add	x20,x8,x22
	cbz	w24,12f
11:
	cmp	w24,#1
	b.ne	4f
	strb	wzr,[x14,x20]
	b	10f
4:
	cmp	w24,#2
	b.hi	4f
	strh	wzr,[x14,x20]
	b	10f
13:
	cmp	x27,#64
	b.hs	11f
	mov	x9,#0
	b	13f
4:
	cmp	w24,#3
	b.ne	12f
	add	x8,x14,x20
	strh	wzr,[x8]
	strb	wzr,[x8,#2]
	b	10f
12:
	add	x0,x14,x20
	str	x1,[sp,#16]
	mov	x1,x24
	mov	x22,x14
	bl	_bzero
	mov	x14,x22
	ldr	x1,[sp,#16]
10:
	add	x22,x20,x24
	stp	w20,w24,[x27]
	b	6b
3:
	mov	x0,x25
	stp	x14,x1,[sp,#8]
	mov	x1,x20
	mov	x2,x27
	bl	_rtp_92408dd3_rtp_route.walk.is_carried
	ldp	x14,x1,[sp,#8]
	cbnz	w0,9b
	b	3f
11:
	and	x10,x27,#0x38
	and	x9,x27,#0xffffffffffffffc0
	ldr	x11,[sp,#24]
	add	x11,x11,x20
	add	x12,x24,#32
	and	x13,x27,#0xffffffffffffffc0
4:
	ldp	q0,q1,[x12,#-32]
	ldp	q2,q3,[x12],#64
	stp	q0,q1,[x11,#-32]
	stp	q2,q3,[x11],#64
	subs	x13,x13,#64
	b.ne	4b
	cmp	x27,x9
	b.eq	5b
	cbz	x10,7b
13:
	mov	x12,x9
	and	x9,x27,#0xfffffffffffffff8
	sub	x10,x12,x9
	add	x11,x24,x12
	add	x12,x12,x22
	add	x13,x14,x8
	add	x12,x13,x12
4:
	ldr	d0,[x11],#8
	str	d0,[x12],#8
	adds	x10,x10,#8
	b.ne	4b
	cmp	x27,x9
	b.eq	5b
	b	7b
4:
	ldrb	w8,[x8]
	strb	w8,[x14,x9]
5:
	add	x22,x22,x27
6:
	add	x24,x24,x27
	cbz	x23,2f
1:
	ldrb	w25,[x24]
	cbnz	w25,1f
	cmp	x23,#2
	b.eq	7f
	cmp	x23,#1
	b.eq	2f
	cmp	x23,#3
	b.hi	9f
	ldrb	w8,[x24,#1]
	cbnz	w8,9f
	ldrb	w8,[x24,#2]
	cbnz	w8,9f
	b	2f
7:
	ldrb	w8,[x24,#1]
	cbz	w8,2f
9:
	mov	x21,x14
	mov	x20,x1
	sub	x1,x23,#1
	add	x0,x24,#1
	bl	_rtp_92408dd3_rtp_ext.elements.skip_zeros
	cbz	x1,2f
	mov	x24,x0
	mov	x23,x1
	ldrb	w25,[x0]
	mov	x1,x20
	mov	x14,x21
	add	x12,x19,#256
1:
	cmp	w25,#239
	b.hi	2f
	and	w21,w25,#0xf
	add	w27,w21,#2
	subs	x23,x23,x27
	b.lo	2f
	mov	w8,w25
	lsr	x8,x8,#4
	ldrb	w20,[x19,x8]
	cbz	x20,6b
	sub	x26,x27,#1
	cmp	w20,#15
	b.hs	1f
7:
	ldrb	w8,[x12,x20]
	cbz	w8,9f
	ldrb	w9,[x19,#546]
	cmp	w9,w8
	b.lo	9f
	sub	x8,x8,#1
	add	x9,x19,#512
	ldrb	w9,[x9,x8]
	cmp	w9,w20
	b.ne	9f
	ldr	x9,[sp,#40]
	add	x21,x9,x8,lsl #3
	ldr	w9,[x21]
	cbnz	w9,8f
	add	x9,x19,#528
	ldrb	w25,[x9,x8]
	add	x8,x22,x25
	add	x8,x8,#2
	cmp	x1,x8
	b.lo	8f
	lsr	w8,w20,#4
	orr	w8,w8,w20,lsl #4
	add	w8,w25,w8
	sub	w8,w8,#1
	strb	w8,[x14,x22]
	add	x20,x22,#1
	cbz	w25,10f
	cmp	w25,#1
	b.ne	11f
	strb	wzr,[x14,x20]
	b	12f
9:
	add	x8,x22,x26
	add	x8,x8,#2
	cmp	x1,x8
	b.lo	8f
	add	x8,x24,#1
	lsr	w9,w20,#4
	orr	w9,w9,w20,lsl #4
	add	w9,w26,w9
	sub	w9,w9,#1
	strb	w9,[x14,x22]
	add	x9,x22,#1
	cmp	x26,#1
	b.eq	4b
	cmp	w21,#1
	b.hi	4f
	ldrb	w8,[x24,#1]
	add	x9,x14,x9
	strb	w8,[x9]
	ldrb	w8,[x24,#2]
	strb	w8,[x9,#1]
	b	5b
4:
	cmp	x26,#3
	b.ne	4f
	ldrb	w8,[x24,#1]
	add	x9,x14,x9
	strb	w8,[x9]
	ldrb	w8,[x24,#2]
	strb	w8,[x9,#1]
	ldrb	w8,[x24,#3]
	strb	w8,[x9,#2]
	b	5b
4:
	add	x0,x14,x9
	sub	x9,x0,x8
	cmp	x9,x26
	b.hs	4f
	cmp	w21,#2
	b.eq	9f
	add	x9,x22,x14
	sub	x9,x9,x24
	cmp	x9,#16
	b.hs	13f
9:
	mov	x9,#0
9:
	and	w8,w25,#0xf
	sub	x8,x8,x9
	add	x8,x8,#1
	add	x10,x24,x9
	add	x10,x10,#1
	add	x9,x9,x22
	ldr	x11,[sp,#24]
	add	x9,x11,x9
14:
	ldrb	w11,[x10],#1
	strb	w11,[x9],#1
	subs	x8,x8,#1
	b.ne	14b
	b	5b
1:
	sub	x2,x27,#1
	mov	w0,#0
	stp	x14,x1,[sp,#8]
	mov	x1,x20
	bl	_rtp_92408dd3_rtp_route.walk.is_carried
	add	x12,x19,#256
	ldp	x14,x1,[sp,#8]
	cbnz	w0,7b
	b	3f
4:
	mov	x20,x1
	add	x1,x24,#1
	sub	x2,x27,#1
	mov	x21,x14
	bl	_memmove
	add	x12,x19,#256
	mov	x14,x21
	mov	x1,x20
	b	5b
11:
	cmp	w25,#2
	b.hi	1f
	strh	wzr,[x14,x20]
	b	12f
1:
	cmp	w25,#3
	b.ne	10f
	add	x8,x14,x20
	strh	wzr,[x8]
	strb	wzr,[x8,#2]
	b	12f
10:
	add	x0,x14,x20
	mov	x22,x1
	mov	x1,x25
	mov	x26,x14
	bl	_bzero
	add	x12,x19,#256
	mov	x14,x26
	mov	x1,x22
12:
	add	x22,x20,x25
	stp	w20,w25,[x21]
	b	6b
13:
	cmp	w21,#15
	b.ne	1f
	ldr	q0,[x8]
	str	q0,[x0]
	b	5b
1:
	and	x9,x26,#0xfffffffffffffffc
	and	x10,x26,#0xfffffffffffffffc
1:
	ldr	w11,[x8],#4
	str	w11,[x0],#4
	subs	x10,x10,#4
	b.ne	1b
	cmp	x26,x9
	b.eq	5b
	b	9b
2:
	mov	w0,#1
1:
	mov	x1,x22
	ldp	x29,x30,[sp,#112]
	ldp	x20,x19,[sp,#96]
	ldp	x22,x21,[sp,#80]
	ldp	x24,x23,[sp,#64]
	ldp	x26,x25,[sp,#48]
	ldr	x27,[sp,#32]
	add	sp,sp,#128
	ret
8:
	mov	w0,#0
3:
	mov	x22,#0
	b	1b
	.cfi_endproc

	.p2align	2
_rtp_92408dd3_rtp_route.walk.is_carried:
	.cfi_startproc
	and	w8,w1,#0xff
	tst	w0,#0xff
	b.eq	1f
	cmp	w8,#0
	mov	w8,#256
	ccmp	x2,x8,#2,ne
	cset	w0,lo
	ret
1:
	sub	w8,w8,#1
	sub	x9,x2,#1
	cmp	w8,#14
	ccmp	x9,#16,#2,lo
	cset	w0,lo
	ret
	.cfi_endproc

	.p2align	2
_rtp_92408dd3_rtp_route.copying.put_any:
	.cfi_startproc
	sub	x9,x0,x1
	cmp	x9,x2
	b.hs	1f
	mov	x8,#0
	cmp	x2,#8
	b.lo	2f
	cmp	x9,#64
	b.lo	2f
	cmp	x2,#64
	b.hs	3f
	mov	x8,#0
	b	4f
1:
	b	_memmove
3:
	and	x9,x2,#0x38
	and	x8,x2,#0xffffffffffffffc0
	add	x10,x0,#32
	add	x11,x1,#32
	and	x12,x2,#0xffffffffffffffc0
1:
	ldp	q0,q1,[x11,#-32]
	ldp	q2,q3,[x11],#64
	stp	q0,q1,[x10,#-32]
	stp	q2,q3,[x10],#64
	subs	x12,x12,#64
	b.ne	1b
	cmp	x2,x8
	b.eq	1f
	cbz	x9,2f
4:
	mov	x11,x8
	and	x8,x2,#0xfffffffffffffff8
	sub	x9,x11,x8
	add	x10,x1,x11
	add	x11,x0,x11
3:
	ldr	d0,[x10],#8
	str	d0,[x11],#8
	adds	x9,x9,#8
	b.ne	3b
	cmp	x2,x8
	b.eq	1f
2:
	sub	x9,x2,x8
	add	x10,x1,x8
	add	x8,x0,x8
2:
	ldrb	w11,[x10],#1
	strb	w11,[x8],#1
	subs	x9,x9,#1
	b.ne	2b
1:
	ret
	.cfi_endproc

	.p2align	2
_rtp_92408dd3_rtp_route.by_walk.write_in_two_byte_form.82187cbc7fdfa14b:
	.cfi_startproc
	sub	sp,sp,#432
	str	x27,[sp,#336]
	stp	x26,x25,[sp,#352]
	stp	x24,x23,[sp,#368]
	stp	x22,x21,[sp,#384]
	stp	x20,x19,[sp,#400]
	stp	x29,x30,[sp,#416]
	.cfi_def_cfa_offset 432
	.cfi_offset w30,-8
	.cfi_offset w29,-16
	.cfi_offset w19,-24
	.cfi_offset w20,-32
	.cfi_offset w21,-40
	.cfi_offset w22,-48
	.cfi_offset w23,-56
	.cfi_offset w24,-64
	.cfi_offset w25,-72
	.cfi_offset w26,-80
	.cfi_offset w27,-96
	ldrb	w8,[x1,#24]
	cmp	w8,#1
	b.ne	1f
	add	x9,sp,#72
	ldr	x20,[x1]
	ldr	x23,[x1,#16]
	ldrb	w19,[x1,#25]
	ldrb	w10,[x2]
	ldrb	w11,[x2,#1]
	ldrb	w8,[x2,#2]
	stp	w10,w8,[sp,#64]
	ldrb	w8,[x2,#3]
	stp	w11,w8,[sp,#44]
	ldrb	w8,[x2,#4]
	str	w8,[sp,#344]
	ldrh	w10,[x2,#6]
	ldrb	w8,[x2,#8]
	str	w8,[sp,#348]
	ldr	w8,[x2,#12]
	stp	w10,w8,[sp,#52]
	ldrb	w27,[x2,#16]
	ldr	w8,[x2,#20]
	str	w8,[sp,#60]
	ldrb	w8,[x20]
	strb	wzr,[sp,#72]
	ldur	q0,[x3,#193]
	stur	q0,[x9,#193]
	ldur	q0,[x3,#209]
	stur	q0,[x9,#209]
	ldur	q0,[x3,#225]
	stur	q0,[x9,#225]
	ldr	q0,[x3,#240]
	add	x10,sp,#57
	stur	q0,[x10,#255]
	ldur	q0,[x3,#129]
	stur	q0,[x9,#129]
	ldur	q0,[x3,#145]
	stur	q0,[x9,#145]
	ldur	q0,[x3,#161]
	stur	q0,[x9,#161]
	ldur	q0,[x3,#177]
	stur	q0,[x9,#177]
	ldur	q0,[x3,#65]
	stur	q0,[sp,#137]
	ldur	q0,[x3,#81]
	stur	q0,[sp,#153]
	ldur	q0,[x3,#97]
	stur	q0,[sp,#169]
	ldur	q0,[x3,#113]
	stur	q0,[sp,#185]
	ldur	q0,[x3,#1]
	stur	q0,[sp,#73]
	ldur	q0,[x3,#17]
	stur	q0,[sp,#89]
	ldur	q0,[x3,#33]
	stur	q0,[sp,#105]
	ldur	q0,[x3,#49]
	stur	q0,[sp,#121]
	cmp	w19,#1
	b.eq	1f
	cbnz	w19,2f
	ldr	d1,[sp,#72]
	movi.8b	v0,#14
	cmhi.8b	v1,v1,v0
	umaxv.8b	b1,v1
	fmov	w9,s1
	tbnz	w9,#0,2f
	ldur	d1,[sp,#79]
	cmhi.8b	v0,v1,v0
	umaxv.8b	b0,v0
	fmov	w9,s0
	tbz	w9,#0,1f
2:
	ubfiz	x8,x8,#2,#4
	add	x9,x8,#16
	add	x8,x20,x9
	sub	x1,x23,x9
	mov	x21,x4
	mov	x22,x6
	mov	x24,x3
2:
	cbz	x1,1f
	ldrb	w9,[x8]
	cbz	w9,3f
	cmp	w9,#239
	and	w10,w9,#0xf
	add	w10,w10,#2
	ccmp	x1,x10,#0,ls
	b.hs	4f
	b	1f
3:
	cmp	x1,#2
	b.eq	3f
	cmp	x1,#1
	b.eq	1f
	cmp	x1,#3
	b.hi	5f
	ldrb	w9,[x8,#1]
	cbnz	w9,5f
	ldrb	w9,[x8,#2]
	cbnz	w9,5f
	b	1f
3:
	ldrb	w9,[x8,#1]
	cbz	w9,1f
5:
	sub	x1,x1,#1
	mov	x25,x0
	add	x0,x8,#1
	mov	x26,x5
	bl	_rtp_92408dd3_rtp_ext.elements.skip_zeros
	mov	x8,x0
	mov	x0,x25
	cbz	x1,1f
	mov	x5,x26
	mov	x3,x24
	mov	x6,x22
	mov	x4,x21
	ldrb	w9,[x8]
	cmp	w9,#239
	and	w10,w9,#0xf
	add	w10,w10,#2
	ccmp	x1,x10,#0,ls
	b.lo	1f
4:
	mov	w9,w9
	lsr	x9,x9,#4
	sub	x1,x1,x10
	add	x8,x8,x10
	add	x10,sp,#72
	ldrb	w9,[x10,x9]
	cmp	w9,#15
	b.lo	2b
	movi.2d	v0,#0000000000000000
	stp	q0,q0,[x6,#96]
	stp	q0,q0,[x6,#64]
	stp	q0,q0,[x6,#32]
	mov	w8,#262140
	cmp	x5,x8
	csel	x1,x5,x8,lo
	lsl	x8,x23,#1
	add	x8,x8,#3
	stp	q0,q0,[x6]
	subs	x8,x1,x8
	b.lo	2f
	ldrb	w9,[x3,#546]
	ldrh	w10,[x3,#544]
	add	x10,x10,x9,lsl #1
	cmp	x8,x10
	b.lo	2f
	ldrb	w8,[x20]
	cbz	w9,3f
	ldrb	w9,[x3,#547]
	cmp	w9,#1
	b.eq	2f
3:
	stp	x1,x0,[sp,#24]
	ubfiz	x25,x8,#2,#4
	add	x9,x25,#16
	sub	x8,x23,x9
	str	x6,[sp]
	add	x2,x25,#16
	add	x5,x20,x9
	mov	x0,x4
	mov	x7,x3
	mov	x3,x19
	mov	w4,#1
	mov	x6,x8
	bl	_rtp_92408dd3_rtp_route.walk.write_kept.82187cbc7fdfa14b
	tbz	w0,#0,3f
	str	x25,[sp,#16]
	mov	x8,x24
	ldrb	w24,[x24,#546]
	ldr	x0,[sp,#32]
	cbz	x24,4f
	add	x25,x8,#528
	mov	x8,x21
	ldr	x11,[sp,#24]
	b	5f
1:
	stp	xzr,xzr,[x0]
	strh	wzr,[x0,#16]
1:
	ldp	x29,x30,[sp,#416]
	ldp	x20,x19,[sp,#400]
	ldp	x22,x21,[sp,#384]
	ldp	x24,x23,[sp,#368]
	ldp	x26,x25,[sp,#352]
	ldr	x27,[sp,#336]
	add	sp,sp,#432
	ret
6:
	add	x0,x8,x26
	mov	x1,x23
	bl	_bzero
	add	x12,x26,x23
	ldp	x11,x0,[sp,#24]
	mov	x8,x21
7:
	stp	w26,w23,[x22]
	mov	x1,x12
8:
	add	x22,x22,#8
	add	x25,x25,#1
	subs	x24,x24,#1
	b.eq	9f
5:
	ldr	w9,[x22]
	cbnz	w9,8b
	ldrb	w23,[x25]
	add	x26,x1,#2
	add	x12,x26,x23
	cmp	x11,x12
	b.lo	2f
	ldurb	w9,[x25,#-16]
	add	x10,x8,x1
	strb	w9,[x10]
	strb	w23,[x10,#1]
	cbz	w23,6b
	cmp	w23,#1
	b.ne	5f
	strb	wzr,[x8,x26]
	b	7b
5:
	cmp	w23,#2
	b.hi	5f
	strh	wzr,[x8,x26]
	b	7b
5:
	cmp	w23,#3
	b.ne	6b
	add	x9,x8,x26
	strh	wzr,[x9]
	strb	wzr,[x9,#2]
	b	7b
3:
	mov	w8,#0
	mov	x22,#0
	ldr	x0,[sp,#32]
	b	3f
4:
	mov	x8,x21
	ldr	x11,[sp,#24]
9:
	add	x9,x1,#3
	and	x22,x9,#0xfffffffffffffffc
	cmp	x11,x22
	ldr	x10,[sp,#16]
	add	x24,x10,#16
	b.hs	4f
2:
	mov	w8,#0
	mov	x22,#0
3:
	mov	w9,w8
	stp	x9,x22,[x0]
	strb	w8,[x0,#16]
	strb	w8,[x0,#17]
	b	1b
4:
	subs	x9,x22,x1
	b.eq	1f
	cmp	x9,#2
	b.eq	2f
	cmp	x9,#1
	b.ne	4f
	strb	wzr,[x8,x1]
	b	1f
2:
	strh	wzr,[x8,x1]
	b	1f
4:
	add	x9,x8,x1
	strb	wzr,[x9,#2]
	strh	wzr,[x9]
1:
	sub	x23,x22,x24
	cmp	w10,#33
	b.lo	1f
	mov	x0,x8
	mov	x1,x20
	mov	x2,x24
	bl	_rtp_92408dd3_rtp_route.copying.put_any
	mov	x8,x21
	ldr	x0,[sp,#32]
	b	2f
1:
	ldr	q0,[x20]
	str	q0,[x8]
	cmp	w10,#17
	b.lo	1f
	ldr	q0,[x20,#16]
	str	q0,[x8,#16]
1:
	ldr	q0,[x20,x10]
	str	q0,[x8,x10]
2:
	ldr	w12,[sp,#348]
	ldr	w13,[sp,#344]
	ldp	w15,w14,[sp,#64]
	cmp	w19,#1
	b.ne	1f
	lsl	w9,w23,#6
	bfxil	w9,w23,#10,#8
	add	x10,x8,x24
	sturh	w9,[x10,#-2]
	cmp	w15,#1
	b.eq	2f
4:
	cmp	w14,#1
	b.eq	5f
6:
	cmp	w13,#1
	b.eq	7f
8:
	cmp	w12,#1
	b.eq	9f
10:
	cmp	w27,#1
	b.ne	11f
12:
	ldr	w9,[sp,#60]
	rev	w9,w9
	str	w9,[x8,#8]
11:
	mov	w8,#1
	b	3b
1:
	mov	w9,#16
	strh	w9,[sp,#334]
	add	x10,x8,x24
	sub	x10,x10,#4
	add	x11,sp,#334
	sub	x11,x10,x11
	cmp	x11,#1
	b.hi	1f
	ldrh	w9,[sp,#334]
1:
	strh	w9,[x10]
	lsl	w9,w23,#6
	bfxil	w9,w23,#10,#8
	add	x10,x8,x24
	sturh	w9,[x10,#-2]
	cmp	w15,#1
	b.ne	4b
2:
	ldrb	w9,[x8,#1]
	ldr	w10,[sp,#44]
	bfi	w9,w10,#7,#8
	strb	w9,[x8,#1]
	cmp	w14,#1
	b.ne	6b
5:
	ldrb	w9,[x8,#1]
	and	w9,w9,#0x80
	ldr	w10,[sp,#48]
	add	w9,w9,w10
	strb	w9,[x8,#1]
	cmp	w13,#1
	b.ne	8b
7:
	ldr	w9,[sp,#52]
	rev16	w9,w9
	strh	w9,[x8,#2]
	cmp	w12,#1
	b.ne	10b
9:
	ldr	w9,[sp,#56]
	rev	w9,w9
	str	w9,[x8,#4]
	cmp	w27,#1
	b.eq	12b
	b	11b
	.cfi_endproc

	.p2align	2
_rtp_92408dd3_rtp_route.making.make_by_calls_of.82187cbc7fdfa14b:
	.cfi_startproc
	sub	sp,sp,#384
	stp	x20,x19,[sp,#352]
	stp	x29,x30,[sp,#368]
	.cfi_def_cfa_offset 384
	.cfi_offset w30,-8
	.cfi_offset w29,-16
	.cfi_offset w19,-24
	.cfi_offset w20,-32
	mov	x19,x0
	ldr	x8,[x1,#16]
	ldrb	w9,[x1,#24]
	ldrb	w10,[x1,#25]
	add	x11,sp,#64
	movi.2d	v0,#0000000000000000
	stp	q0,q0,[sp,#320]
	str	xzr,[sp,#56]
	str	xzr,[sp,#24]
	ldur	q0,[x2,#193]
	stur	q0,[x11,#193]
	ldur	q0,[x2,#209]
	stur	q0,[x11,#209]
	ldur	q0,[x2,#225]
	stur	q0,[x11,#225]
	ldr	q0,[x2,#240]
	str	q0,[sp,#304]
	ldur	q0,[x2,#129]
	stur	q0,[x11,#129]
	ldur	q0,[x2,#145]
	stur	q0,[x11,#145]
	ldur	q0,[x2,#161]
	stur	q0,[x11,#161]
	ldur	q0,[x2,#177]
	stur	q0,[x11,#177]
	ldur	q0,[x2,#65]
	stur	q0,[x11,#65]
	ldur	q0,[x2,#81]
	stur	q0,[x11,#81]
	ldur	q0,[x2,#97]
	stur	q0,[x11,#97]
	ldur	q0,[x2,#113]
	stur	q0,[x11,#113]
	ldur	q0,[x2,#1]
	stur	q0,[sp,#65]
	ldur	q0,[x2,#17]
	stur	q0,[sp,#81]
	ldur	q0,[x2,#33]
	stur	q0,[sp,#97]
	ldur	q0,[x2,#49]
	stur	q0,[sp,#113]
	strb	wzr,[sp,#64]
	ldrb	w12,[x2,#547]
	cbz	w12,1f
	cmp	w12,#1
	b.ne	2f
	mov	w13,#0
	b	3f
1:
	mov	x13,x12
	b	3f
2:
	mov	w12,#1
	mov	w13,#1
3:
	stp	x11,x2,[sp,#40]
	strb	w12,[sp,#56]
	strb	w13,[sp,#57]
	ldr	q0,[x1]
	str	q0,[sp]
	str	x8,[sp,#16]
	strb	w9,[sp,#24]
	strb	w10,[sp,#25]
	add	x0,sp,#320
	mov	x1,sp
	add	x2,sp,#40
	bl	_rtp_92408dd3_rtp_route.making.make_by_calls.7cdc9bd62dfc103a
	ldrb	w8,[sp,#320]
	ldr	x9,[sp,#328]
	stp	x8,x9,[x19]
	ldrh	w8,[sp,#336]
	strh	w8,[x19,#16]
	ldr	x8,[sp,#344]
	str	x8,[x19,#24]
	ldp	x29,x30,[sp,#368]
	ldp	x20,x19,[sp,#352]
	add	sp,sp,#384
	ret
	.cfi_endproc

	.p2align	2
_rtp_92408dd3_rtp_route.making.make_by_calls.7cdc9bd62dfc103a:
	.cfi_startproc
	sub	sp,sp,#464
	str	x27,[sp,#368]
	stp	x26,x25,[sp,#384]
	stp	x24,x23,[sp,#400]
	stp	x22,x21,[sp,#416]
	stp	x20,x19,[sp,#432]
	stp	x29,x30,[sp,#448]
	.cfi_def_cfa_offset 464
	.cfi_offset w30,-8
	.cfi_offset w29,-16
	.cfi_offset w19,-24
	.cfi_offset w20,-32
	.cfi_offset w21,-40
	.cfi_offset w22,-48
	.cfi_offset w23,-56
	.cfi_offset w24,-64
	.cfi_offset w25,-72
	.cfi_offset w26,-80
	.cfi_offset w27,-96
	mov	x20,x2
	mov	x8,x1
	mov	x19,x0
	ldr	x1,[x1]
	ldr	x2,[x8,#16]
	ldrb	w26,[x8,#24]
	ldrb	w27,[x8,#25]
	movi.2d	v0,#0000000000000000
	stp	q0,q0,[sp,#160]
	stp	q0,q0,[sp,#32]
	stp	q0,q0,[sp,#64]
	stp	q0,q0,[sp,#96]
	stp	q0,q0,[sp,#128]
	stp	xzr,xzr,[sp,#200]
	cmp	x4,x2
	b.hs	1f
	mov	w8,#0
	mov	w9,#8
	mov	w10,#3
	b	2f
1:
	mov	x22,x4
	mov	x21,x3
	sub	x8,x2,#49
	cmn	x8,#34
	str	x2,[sp,#376]
	str	x5,[sp,#24]
	b.hi	1f
	mov	x0,x21
	bl	_rtp_92408dd3_rtp_route.copying.put_any
	ldr	x2,[sp,#376]
	b	3f
1:
	ldr	q0,[x1]
	str	q0,[x21]
	cmp	x2,#33
	b.lo	1f
	ldr	q0,[x1,#16]
	str	q0,[x21,#16]
1:
	sub	x8,x2,#16
	ldr	q0,[x1,x8]
	str	q0,[x21,x8]
3:
	ldr	x24,[x20]
	ldrb	w23,[x20,#16]
	ldrb	w25,[x20,#17]
	stp	x21,x2,[sp,#240]
	stp	x2,xzr,[sp,#256]
	strb	w26,[sp,#264]
	strb	w27,[sp,#265]
	add	x0,sp,#240
	mov	x1,x24
	bl	_rtp_92408dd3_rtp_wire.packet.rtp_92408dd3_rtp_packet_mut.RtpPacketMut.renumber
	tbz	w0,#0,1f
	stp	xzr,xzr,[sp,#240]
	str	xzr,[sp,#256]
	ldr	x8,[x20,#8]
	ldrb	w24,[x8,#546]
	cbz	x24,3f
4:
	add	x26,x8,#528
	ldr	x3,[sp,#376]
5:
	ldrb	w6,[x26]
	ldrb	w8,[x20,#17]
	ldrb	w7,[x20,#16]
	ldurb	w4,[x26,#-16]
	strb	w8,[sp]
Lrtp_92408dd3_loh50:
	adrp	x5,lrtp_92408dd3__static.8@PAGE
Lrtp_92408dd3_loh51:
	add	x5,x5,lrtp_92408dd3__static.8@PAGEOFF
	add	x0,sp,#240
	mov	x1,x21
	mov	x2,x22
	bl	_rtp_92408dd3_rtp_wire.packet.putting.put_element_copy.1
	ldrb	w8,[sp,#240]
	ldr	x3,[sp,#248]
	cbnz	w8,6f
	add	x26,x26,#1
	subs	x24,x24,#1
	b.ne	5b
	b	5f
1:
	cmp	w23,#1
	b.ne	1f
	cbnz	w25,1f
	mov	w9,#0
	mov	w8,#0
	mov	x2,#0
	mov	w10,#2
	b	2f
6:
	lsr	x8,x3,#8
	mov	x9,x3
	ldr	x2,[sp,#256]
	mov	w10,#3
2:
	mov	w11,#1
	stp	x11,x10,[x19]
	strb	w9,[x19,#16]
	strb	w8,[x19,#17]
	str	x2,[x19,#24]
6:
	ldp	x29,x30,[sp,#448]
	ldp	x20,x19,[sp,#432]
	ldp	x22,x21,[sp,#416]
	ldp	x24,x23,[sp,#400]
	ldp	x26,x25,[sp,#384]
	ldr	x27,[sp,#368]
	add	sp,sp,#464
	ret
1:
	add	x0,sp,#216
	mov	x1,x21
	mov	x2,x22
	ldr	x3,[sp,#376]
	bl	_rtp_92408dd3_rtp_route.in_place.change_form
	ldrb	w8,[sp,#216]
	ldr	x9,[sp,#224]
	cbz	w8,1f
	lsr	x8,x9,#8
	ldr	x2,[sp,#232]
	mov	w10,#3
	b	2b
1:
	mov	w8,#257
	stp	x21,x9,[sp,#240]
	stp	x9,x8,[sp,#256]
	str	x9,[sp,#376]
	add	x0,sp,#240
	mov	x1,x24
	bl	_rtp_92408dd3_rtp_wire.packet.rtp_92408dd3_rtp_packet_mut.RtpPacketMut.renumber
	stp	xzr,xzr,[sp,#240]
	str	xzr,[sp,#256]
	ldr	x8,[x20,#8]
	ldrb	w24,[x8,#546]
	cbnz	x24,4b
3:
	ldr	x3,[sp,#376]
5:
	add	x0,sp,#200
	mov	x1,x21
	mov	x2,x3
	bl	_rtp_92408dd3_rtp_wire.packet.compacting.compact_copy.1
	ldrb	w8,[sp,#200]
	cbnz	w8,1f
	ldr	x22,[sp,#208]
	cmp	x22,#12
	b.lo	1f
	ldrsb	w8,[x21]
	cmn	w8,#65
	b.gt	1f
	and	x9,x8,#0xff
	ubfiz	x8,x9,#2,#4
	add	x8,x8,#12
	subs	x10,x22,x8
	b.lo	1f
	tbnz	w9,#4,2f
	mov	w24,#0
	mov	w23,#0
	b	3f
2:
	subs	x11,x10,#4
	b.lo	1f
	add	x10,x21,x8
	ldrb	w9,[x10,#2]
	ldrb	w12,[x10,#3]
	lsl	x9,x9,#10
	orr	x9,x9,x12,lsl #2
	cmp	x11,x9
	b.lo	1f
	ldrh	w10,[x10]
	and	w11,w10,#0xfffff0ff
	cmp	w11,#16
	cset	w23,eq
	mov	w11,#57022
	cmp	w10,w11
	csinc	w24,w23,wzr,ne
	add	x8,x8,x9
	add	x8,x8,#4
3:
	stp	x21,x22,[sp,#160]
	str	x8,[sp,#176]
	strb	w24,[sp,#184]
	strb	w23,[sp,#185]
	ldr	x8,[x20,#8]
	str	wzr,[sp,#224]
	str	xzr,[sp,#216]
	movi.2d	v0,#0000000000000000
	stp	q0,q0,[sp,#240]
	stp	q0,q0,[sp,#272]
	stp	q0,q0,[sp,#304]
	stp	q0,q0,[sp,#336]
	ldrb	w20,[x8,#546]
	cbz	x20,2f
	add	x21,x8,#512
	add	x26,sp,#240
3:
	ldrb	w2,[x21],#1
	add	x0,sp,#216
	add	x1,sp,#160
	bl	_rtp_92408dd3_rtp_route.slots.slot_of
	ldrb	w8,[sp,#216]
	cmp	w8,#1
	b.ne	1f
	ldur	x8,[sp,#220]
	str	x8,[x26],#8
	subs	x20,x20,#1
	b.ne	3b
2:
	ldp	q0,q1,[sp,#304]
	stp	q0,q1,[sp,#96]
	ldp	q2,q3,[sp,#336]
	stp	q2,q3,[sp,#128]
	ldp	q4,q5,[sp,#240]
	stp	q4,q5,[sp,#32]
	ldp	q6,q7,[sp,#272]
	stp	q6,q7,[sp,#64]
	ldr	x8,[sp,#24]
	stp	q0,q1,[x8,#64]
	stp	q2,q3,[x8,#96]
	stp	q4,q5,[x8]
	stp	q6,q7,[x8,#32]
	stp	xzr,x22,[x19]
	strb	w24,[x19,#16]
	strb	w23,[x19,#17]
	str	xzr,[x19,#24]
	b	6b
1:
	brk	#0x1
	.loh AdrpAdd	Lrtp_92408dd3_loh50,Lrtp_92408dd3_loh51
	.cfi_endproc

	.p2align	2
_rtp_92408dd3_rtp_route.in_place.change_form:
	.cfi_startproc
	sub	sp,sp,#96
	stp	x20,x19,[sp,#64]
	stp	x29,x30,[sp,#80]
	.cfi_def_cfa_offset 96
	.cfi_offset w30,-8
	.cfi_offset w29,-16
	.cfi_offset w19,-24
	.cfi_offset w20,-32
	mov	x19,x0
	stp	xzr,xzr,[sp]
	stp	xzr,x1,[sp,#16]
	stp	x2,x3,[sp,#32]
	str	x3,[sp,#48]
	mov	w8,#1
	strb	w8,[sp,#56]
	stur	wzr,[sp,#57]
	str	wzr,[sp,#60]
	mov	x0,sp
	add	x1,sp,#24
	mov	w2,#1
	bl	_rtp_92408dd3_rtp_wire.packet.rtp_92408dd3_rtp_packet_buf.RtpPacketBuf.change_form
	ldrb	w8,[sp]
	cbz	w8,1f
	ldr	x8,[sp,#16]
	ldrh	w10,[sp,#8]
	mov	w9,#1
	stp	x9,x10,[x19]
	str	x8,[x19,#16]
	ldp	x29,x30,[sp,#80]
	ldp	x20,x19,[sp,#64]
	add	sp,sp,#96
	ret
1:
	mov	x9,#0
	mov	x8,#0
	ldr	x10,[sp,#40]
	stp	x9,x10,[x19]
	str	x8,[x19,#16]
	ldp	x29,x30,[sp,#80]
	ldp	x20,x19,[sp,#64]
	add	sp,sp,#96
	ret
	.cfi_endproc

	.p2align	2
_rtp_92408dd3_rtp_wire.packet.putting.put_element_copy.1:
	.cfi_startproc
	cmp	x2,x3
	b.hs	1f
	mov	w8,#1
	stp	xzr,xzr,[x0,#8]
	str	x8,[x0]
	ret
1:
	tst	w4,#0xff
	b.eq	1f
	cmp	x6,#255
	b.ls	2f
	mov	w8,#2
	mov	w9,#1
	stp	x9,x8,[x0]
	str	xzr,[x0,#16]
	ret
1:
	mov	w8,#1
	mov	w9,#1
	stp	x9,x8,[x0]
	str	xzr,[x0,#16]
	ret
2:
	sub	sp,sp,#272
	str	x27,[sp,#176]
	stp	x26,x25,[sp,#192]
	stp	x24,x23,[sp,#208]
	stp	x22,x21,[sp,#224]
	stp	x20,x19,[sp,#240]
	stp	x29,x30,[sp,#256]
	.cfi_def_cfa_offset 272
	.cfi_offset w30,-8
	.cfi_offset w29,-16
	.cfi_offset w19,-24
	.cfi_offset w20,-32
	.cfi_offset w21,-40
	.cfi_offset w22,-48
	.cfi_offset w23,-56
	.cfi_offset w24,-64
	.cfi_offset w25,-72
	.cfi_offset w26,-80
	.cfi_offset w27,-96
	cmp	x3,#12
	b.hs	1f
	mov	w8,#3
	b	2f
1:
	ldrsb	w8,[x1]
	cmn	w8,#65
	b.gt	1f
	and	x26,x8,#0xff
	ubfiz	x27,x26,#2,#4
	add	x13,x27,#12
	subs	x8,x3,x13
	b.hs	3f
	mov	w8,#515
	b	2f
1:
	mov	w8,#259
2:
	mov	w9,#1
	stp	x9,x8,[x0]
1:
	str	xzr,[x0,#16]
4:
	ldp	x29,x30,[sp,#256]
	ldp	x20,x19,[sp,#240]
	ldp	x22,x21,[sp,#224]
	ldp	x24,x23,[sp,#208]
	ldp	x26,x25,[sp,#192]
	ldr	x27,[sp,#176]
	add	sp,sp,#272
	ret
3:
	add	x24,x1,x13
	tbnz	w26,#4,3f
	mov	w12,#0
	add	x14,x27,#12
5:
	and	w8,w4,#0xff
	sub	x9,x6,#1
	cmp	x9,#16
	ccmp	w8,#15,#2,lo
	csinc	w22,w12,wzr,lo
	tst	w7,#0xff
	b.eq	6f
	ldrb	w8,[sp,#272]
	and	w8,w8,#0xff
	cmp	w8,#1
	b.ne	7f
	mov	w22,#1
	b	6f
3:
	subs	x8,x8,#4
	b.hs	3f
	mov	w8,#771
	b	2b
3:
	ldrb	w9,[x24,#2]
	ldrb	w10,[x24,#3]
	lsl	x9,x9,#10
	orr	x9,x9,x10,lsl #2
	cmp	x8,x9
	b.hs	3f
	mov	w8,#1027
	b	2b
7:
	cbz	w22,6f
	mov	x10,#0
	and	w8,w4,#0xff
	cmp	w8,#14
	mov	w8,#5
	cinc	x8,x8,ls
	b	2f
6:
	str	w22,[sp,#188]
	tbnz	w26,#4,6f
	mov	w11,#0
	str	xzr,[sp,#128]
	mov	x16,#0
	mov	x7,#0
	mov	x15,#0
	mov	w19,#0
	add	x8,x1,x14
	stp	xzr,x8,[sp,#112]
	mov	x12,x22
7:
	mov	w21,#0
	mov	w8,#1
	mov	x9,x16
	b	8f
6:
	add	w8,w27,#16
	add	x10,x1,x8
	sub	x15,x14,x8
	str	x3,[sp,#104]
	str	x10,[sp,#120]
	add	x8,x1,x13
	cbz	w12,6f
	str	x8,[sp,#136]
	cbz	x15,9f
	mov	w8,#0
	mov	x16,#0
	mov	x20,#0
	str	xzr,[sp,#128]
	mov	x7,#0
	str	xzr,[sp,#112]
	mov	x9,x15
	str	x27,[sp,#80]
	str	w12,[sp,#184]
	stp	x15,x13,[sp,#48]
	str	x14,[sp,#24]
10:
	str	w8,[sp,#36]
	mov	x23,x9
	str	x7,[sp,#64]
	str	x20,[sp,#40]
11:
	ldrb	w8,[x10]
	cbz	w8,12f
	mov	x9,x23
	mov	x8,x10
	b	13f
12:
	cmp	x23,#2
	str	x16,[sp,#88]
	b.eq	12f
	cmp	x23,#1
	b.eq	14f
	cmp	x23,#3
	b.hi	15f
	ldrb	w8,[x10,#1]
	cbnz	w8,15f
	ldrb	w8,[x10,#2]
	cbnz	w8,15f
	b	16f
12:
	ldrb	w8,[x10,#1]
	cbz	w8,12f
15:
	mov	x27,x26
	mov	x26,x22
	mov	x20,x2
	mov	x19,x4
	mov	x21,x1
	mov	x24,x5
	mov	x25,x6
	mov	x22,x0
	add	x0,x10,#1
	sub	x1,x23,#1
	bl	_rtp_92408dd3_rtp_ext.elements.skip_zeros
	cbz	x1,15f
	mov	x8,x0
	mov	x9,x1
	mov	x0,x22
	mov	x6,x25
	mov	x5,x24
	mov	x1,x21
	ldr	x3,[sp,#104]
	mov	x4,x19
	mov	x2,x20
	mov	x22,x26
	mov	x26,x27
	ldp	x27,x16,[sp,#80]
	ldr	w12,[sp,#184]
	ldp	x15,x13,[sp,#48]
	ldr	x14,[sp,#24]
	ldr	x7,[sp,#64]
	ldr	x20,[sp,#40]
13:
	cmp	x9,#2
	b.lo	13f
	ldrb	w11,[x8,#1]
	add	x10,x11,#2
	subs	x9,x9,x10
	b.lo	13f
	add	x10,x8,x10
	ldrb	w8,[x8]
	cmp	w8,w4,uxtb
	b.eq	17f
	add	x8,x16,x11
	add	x16,x8,#2
	mov	x23,x9
	cbnz	x9,11b
	b	13f
17:
	mov	x23,#0
	add	x20,x20,#1
	sub	x17,x15,x9
	sub	x8,x15,x9
	str	x8,[sp,#128]
	sub	x7,x17,x11
	sub	x8,x7,#2
	str	x8,[sp,#112]
	mov	w8,#1
	cbnz	x9,10b
	b	10f
3:
	ldrh	w10,[x24]
	and	w8,w10,#0xfffff0ff
	cmp	w8,#16
	cset	w12,eq
	add	x9,x13,x9
	add	x14,x9,#4
	mov	w9,#57022
	cmp	w10,w9
	b.eq	5b
	cmp	w8,#16
	b.eq	5b
	mov	x10,#0
	mov	w8,#4
	b	2f
6:
	str	x8,[sp,#136]
	cbz	x15,9f
	mov	w8,#0
	mov	x16,#0
	mov	x20,#0
	str	xzr,[sp,#128]
	mov	x7,#0
	str	xzr,[sp,#112]
	mov	x25,x10
	mov	x24,x15
	str	w4,[sp,#76]
	stp	x15,x13,[sp,#48]
3:
	str	w8,[sp,#36]
	str	x7,[sp,#64]
5:
	ldrb	w9,[x25]
	add	w8,w9,#16
	and	w8,w8,#0xff
	cmp	w8,#32
	b.hs	6f
	cbz	w9,11f
	mov	x8,x24
	b	17f
6:
	and	x8,x9,#0xf
	add	x10,x8,#2
	subs	x8,x24,x10
	b.hs	6f
	mov	x8,x24
	b	18f
11:
	cmp	x24,#2
	b.eq	11f
	cmp	x24,#1
	b.eq	19f
	cmp	x24,#3
	b.hi	20f
	ldrb	w8,[x25,#1]
	cbnz	w8,20f
	ldrb	w8,[x25,#2]
	cbnz	w8,20f
	b	21f
11:
	ldrb	w8,[x25,#1]
	cbz	w8,11f
20:
	str	x20,[sp,#40]
	stp	x16,x1,[sp,#88]
	stp	x2,x14,[sp,#16]
	str	w12,[sp,#184]
	mov	x19,x5
	mov	x20,x6
	mov	x21,x0
	add	x0,x25,#1
	sub	x1,x24,#1
	bl	_rtp_92408dd3_rtp_ext.elements.skip_zeros
	cbz	x1,20f
	mov	x25,x0
	mov	x8,x1
	ldrb	w9,[x0]
	mov	x0,x21
	mov	x6,x20
	mov	x5,x19
	ldp	x1,x3,[sp,#96]
	ldr	w4,[sp,#76]
	ldp	x2,x14,[sp,#16]
	ldr	w12,[sp,#184]
	ldp	x15,x13,[sp,#48]
	ldr	x16,[sp,#88]
	ldr	x7,[sp,#64]
	ldr	x20,[sp,#40]
17:
	cmp	w9,#239
	b.hi	19f
	and	w10,w9,#0xf
	add	w10,w10,#2
18:
	subs	x8,x8,x10
	b.lo	19f
6:
	add	x25,x25,x10
	mov	x24,x8
	lsr	w8,w9,#4
	cmp	w8,w4,uxtb
	b.eq	6f
	cbz	w8,17f
	add	x16,x10,x16
	cbnz	x24,5b
	b	18f
17:
	stp	x27,x0,[sp,#80]
	mov	x0,x20
	mov	x21,x6
	mov	x19,x5
	str	x26,[sp,#40]
	mov	x22,x1
	mov	x23,x2
	mov	x27,x12
	mov	x20,x14
	mov	x26,x16
	bl	_rtp_92408dd3_rtp_ext.survey.one_more
	ldp	x13,x7,[sp,#56]
	mov	x16,x26
	ldp	x26,x15,[sp,#40]
	mov	x14,x20
	mov	x12,x27
	mov	x2,x23
	ldr	w4,[sp,#76]
	ldr	x3,[sp,#104]
	mov	x1,x22
	ldr	w22,[sp,#188]
	mov	x5,x19
	mov	x6,x21
	mov	x20,x0
	ldp	x27,x0,[sp,#80]
	cbnz	x24,5b
	b	18f
6:
	mov	x23,#0
	add	x20,x20,#1
	sub	x9,x15,x24
	sub	x8,x15,x24
	str	x8,[sp,#128]
	sub	x8,x9,x10
	str	x8,[sp,#112]
	add	x7,x8,#1
	mov	w8,#1
	cbnz	x24,3b
	b	10f
9:
	str	xzr,[sp,#112]
	mov	x7,#0
	str	xzr,[sp,#128]
	mov	w8,#0
	mov	x20,#0
	mov	x16,#0
	mov	x23,#0
	b	10f
12:
	mov	w23,#2
	b	14f
16:
	mov	w23,#3
14:
	ldr	x16,[sp,#88]
	b	13f
19:
	mov	x23,x24
	b	13f
11:
	mov	w23,#2
	b	13f
21:
	mov	w23,#3
	b	13f
18:
	mov	x23,#0
	b	13f
15:
	mov	x0,x22
	mov	x6,x25
	mov	x5,x24
	mov	x1,x21
	ldr	x3,[sp,#104]
	mov	x4,x19
	mov	x2,x20
	mov	x22,x26
	mov	x26,x27
	ldr	x27,[sp,#80]
	b	3f
20:
	mov	x23,x24
	mov	x0,x21
	mov	x6,x20
	mov	x5,x19
	ldp	x1,x3,[sp,#96]
	ldr	w4,[sp,#76]
	ldr	x2,[sp,#16]
3:
	ldr	w12,[sp,#184]
	ldp	x15,x13,[sp,#48]
	ldr	x14,[sp,#24]
	ldr	x16,[sp,#88]
	ldr	x7,[sp,#64]
	ldr	x20,[sp,#40]
13:
	ldr	w8,[sp,#36]
10:
	cmp	w8,#1
	cset	w11,eq
	cmp	w12,w22
	cset	w19,eq
	b.ne	3f
	cmp	w8,#1
	b.ne	3f
	cmp	x20,#1
	b.ne	3f
	ldr	x8,[sp,#128]
	sub	x8,x8,x7
	cmp	x8,x6
	b.ne	3f
	ldr	x8,[sp,#136]
	add	x8,x8,#4
	cbz	x6,5f
	cmp	w6,#1
	b.ne	6f
	ldrb	w9,[x5]
	strb	w9,[x8,x7]
	b	9f
3:
	sub	x7,x15,x23
	cmp	w22,w12
	ldr	x24,[sp,#136]
	b.eq	7b
	cbz	x16,7b
	stp	x0,x1,[sp,#88]
	mov	x0,x12
	str	x24,[sp,#136]
	mov	x1,x22
	str	x2,[sp,#16]
	ldr	x2,[sp,#120]
	mov	x3,x7
	mov	x25,x4
	mov	x22,x6
	mov	x23,x5
	mov	x19,x12
	mov	x24,x13
	str	x27,[sp,#80]
	mov	x27,x14
	str	w11,[sp,#64]
	mov	x21,x15
	str	x26,[sp,#40]
	mov	x26,x16
	mov	x20,x7
	bl	_rtp_92408dd3_rtp_ext.form_change.row_len
	mov	x7,x20
	mov	x16,x26
	ldr	x26,[sp,#40]
	mov	x15,x21
	ldr	w11,[sp,#64]
	mov	x14,x27
	mov	x13,x24
	mov	x12,x19
	ldr	x2,[sp,#16]
	mov	x4,x25
	mov	x5,x23
	mov	x6,x22
	mov	x8,x0
	ldp	x27,x0,[sp,#80]
	mov	x9,x1
	ldp	x1,x3,[sp,#96]
	ldr	x24,[sp,#136]
	mov	w19,#0
	mov	w21,#1
8:
	and	w8,w8,#0xff
	cmp	w8,#1
	b.ne	3f
	ldr	w20,[sp,#188]
	cmp	w20,#0
	mov	w8,#1
	cinc	x17,x8,ne
	add	x8,x6,x9
	add	x8,x8,x17
	add	x8,x8,#3
	and	x8,x8,#0xfffffffffffffffc
	cmp	x15,x8
	csel	x23,x15,x8,hi
	mov	w8,#262140
	cmp	x23,x8
	b.ls	7f
	mov	x10,#0
	mov	w8,#7
	b	2f
7:
	add	x8,x13,x23
	add	x8,x8,#4
	sub	x9,x3,x14
	add	x10,x8,x9
	cmp	x2,x10
	b.hs	7f
	mov	w8,#8
2:
	mov	w9,#1
	stp	x9,x8,[x0]
	str	x10,[x0,#16]
	b	4b
7:
	str	w21,[sp,#56]
	mov	x25,x7
	str	x17,[sp,#48]
	str	w11,[sp,#64]
	stp	x1,x10,[sp,#96]
	mov	x21,x16
	mov	x22,x15
	str	w12,[sp,#184]
	str	w4,[sp,#76]
	str	x5,[sp,#120]
	str	x6,[sp,#136]
	str	x0,[sp,#88]
	mov	x0,x1
	mov	x1,x14
	mov	x2,x3
	mov	x3,x8
	bl	_rtp_92408dd3_rtp_wire.packet.resizing.move_bytes
	ldr	x10,[sp,#96]
	lsl	w8,w23,#6
	and	w8,w8,#0xff00
	orr	w8,w8,w23,lsr #10
	strh	w8,[x24,#2]
	tbnz	w19,#0,4f
	ldrb	w8,[x10]
	orr	w8,w8,#0x10
	strb	w8,[x10]
	mov	w8,#16
	mov	w9,#-8514
	cmp	w20,#0
	csel	w8,w9,w8,eq
	strh	w8,[x24]
4:
	add	x19,x24,#4
	ldr	x2,[sp,#136]
	ldr	x1,[sp,#120]
	ldr	w5,[sp,#76]
	ldr	w0,[sp,#184]
	cbz	x22,4f
	mov	x9,x25
	ldr	w8,[sp,#64]
	cmp	w8,#0
	ldr	x8,[sp,#112]
	csel	x3,x8,x25,ne
	ldr	x8,[sp,#128]
	csel	x25,x8,x25,ne
	sub	x8,x21,x3
	add	x8,x8,x25
	cmp	x8,x9
	b.ne	7f
	sub	x8,x9,x25
	b	8f
4:
	ldr	x0,[sp,#88]
	tbz	w20,#0,4f
	strb	w2,[x24,#5]
	mov	w9,#2
	b	10f
7:
	mov	x1,x19
	mov	x2,x3
	mov	x3,x25
	mov	x4,x22
	bl	_rtp_92408dd3_rtp_ext.gathering.gather_around
	mov	x3,x0
	mov	x8,x1
8:
	ldr	x21,[sp,#104]
	ldr	w9,[sp,#56]
	cbz	w9,7f
	ldr	w0,[sp,#184]
	mov	x1,x19
	mov	x2,x23
	mov	x4,x25
	mov	x5,x8
	bl	_rtp_92408dd3_rtp_ext.form_change.change_rows
	mov	x3,x0
	mov	x8,x1
	mov	x25,x0
7:
	ldr	x9,[sp,#136]
	ldr	x10,[sp,#120]
	ldr	w11,[sp,#76]
	mov	w12,#1
	str	x12,[sp,#144]
	strb	w11,[sp,#152]
	stur	wzr,[sp,#153]
	str	wzr,[sp,#156]
	stp	x10,x9,[sp,#160]
	add	x5,sp,#144
	mov	x0,x20
	mov	x20,x19
	mov	x1,x19
	mov	x2,x3
	mov	x3,x25
	mov	x4,x8
	bl	_rtp_92408dd3_rtp_ext.rewriting.put_between
	mov	x8,x0
	subs	x9,x23,x0
	ldr	x0,[sp,#88]
	b.ls	7f
	subs	x19,x9,#1
	b.le	8f
	cmp	x9,#2
	b.eq	11f
	cmp	x9,#3
	b.eq	12f
	cmp	x9,#4
	b.eq	13f
	b	14f
3:
	mov	x19,x0
	mov	x0,x12
	ldr	x1,[sp,#120]
	mov	x2,x15
	bl	_rtp_92408dd3_rtp_wire.packet.rewriting.has_long_id
	mov	x8,x0
	mov	x0,x19
	mov	x10,#0
	cmp	w8,#0
	mov	w8,#5
	cinc	x8,x8,eq
	b	2b
6:
	cmp	x6,#2
	b.hi	2f
	ldrb	w9,[x5]
	add	x8,x8,x7
	strb	w9,[x8]
	ldrb	w9,[x5,#1]
	strb	w9,[x8,#1]
	b	9f
4:
	ubfx	w8,w5,#4,#4
	orr	w8,w8,w5,lsl #4
	add	w8,w8,w2
	sub	w5,w8,#1
	mov	w9,#1
10:
	ldr	x21,[sp,#104]
	strb	w5,[x19]
	ands	w8,w2,#0xff
	b.eq	3f
	cmp	w8,#1
	b.ne	4f
	ldrb	w8,[x1]
	mov	x20,x19
	strb	w8,[x19,x9]
	b	6f
4:
	cmp	x2,#2
	b.hi	4f
	ldrb	w8,[x1]
	mov	x20,x19
	add	x9,x19,x9
	strb	w8,[x9]
	ldrb	w8,[x1,#1]
	strb	w8,[x9,#1]
	b	6f
2:
	cmp	x6,#3
	b.ne	5f
	ldrb	w9,[x5]
	add	x8,x8,x7
	strb	w9,[x8]
	ldrb	w9,[x5,#1]
	strb	w9,[x8,#1]
	ldrb	w9,[x5,#2]
	strb	w9,[x8,#2]
	b	9f
5:
	add	x8,x8,x7
	sub	x9,x8,x5
	cmp	x9,x6
	b.hs	2f
	cmp	x6,#8
	b.lo	5f
	add	x8,x7,x1
	add	x8,x8,x27
	sub	x8,x8,x5
	add	x8,x8,#16
	cmp	x8,#64
	b.hs	10f
5:
	mov	x8,#0
5:
	sub	x9,x6,x8
	add	x10,x5,x8
	add	x8,x7,x8
	and	x11,x26,#0xf
	add	x8,x8,x11,lsl #2
	add	x8,x8,x1
	add	x8,x8,#16
15:
	ldrb	w11,[x10],#1
	strb	w11,[x8],#1
	subs	x9,x9,#1
	b.ne	15b
9:
	mov	x21,x3
	b	7f
2:
	mov	x19,x0
	mov	x0,x8
	mov	x1,x5
	mov	x2,x6
	mov	x21,x3
	bl	_memmove
	mov	x0,x19
	b	7f
4:
	cmp	x2,#3
	b.ne	3f
	ldrb	w8,[x1]
	mov	x20,x19
	add	x9,x19,x9
	strb	w8,[x9]
	ldrb	w8,[x1,#1]
	strb	w8,[x9,#1]
	ldrb	w8,[x1,#2]
	strb	w8,[x9,#2]
	b	6f
3:
	add	x8,x19,x9
	sub	x11,x8,x1
	mov	x20,x19
	cmp	x11,x2
	b.hs	2f
	cmp	x2,#8
	b.hs	3f
	mov	x8,#0
	b	4f
2:
	mov	x0,x8
	bl	_memmove
	ldr	x2,[sp,#136]
	ldr	x0,[sp,#88]
	b	6f
3:
	mov	x15,x26
	add	x8,x9,x10
	add	x8,x8,x27
	sub	x8,x8,x1
	add	x8,x8,#16
	cmp	x8,#64
	b.hs	2f
	mov	x8,#0
	ldp	x0,x10,[sp,#88]
	ldr	x1,[sp,#120]
	mov	x26,x15
	ldr	x21,[sp,#104]
	b	4f
10:
	mov	x2,x7
	mov	x17,x26
	mov	x10,x1
	mov	x11,x5
	mov	x9,x0
	mov	x12,x6
	cmp	x6,#64
	b.hs	3f
	mov	x8,#0
	mov	x6,x12
	mov	x5,x11
	mov	x1,x10
	mov	x26,x17
	mov	x7,x2
	b	10f
2:
	cmp	x2,#64
	b.hs	2f
	mov	x8,#0
	ldr	x2,[sp,#136]
	ldr	x1,[sp,#120]
	ldr	x10,[sp,#96]
	mov	x26,x15
	b	15f
3:
	and	x13,x12,#0x38
	and	x8,x12,#0xc0
	add	x14,x2,x27
	add	x14,x14,x10
	add	x14,x14,#64
	add	x15,x11,#32
	and	x16,x12,#0xc0
3:
	ldp	q0,q1,[x15,#-32]
	ldp	q2,q3,[x15],#64
	stp	q0,q1,[x14,#-48]
	stp	q2,q3,[x14,#-16]
	add	x14,x14,#64
	subs	x16,x16,#64
	b.ne	3b
	cmp	x12,x8
	b.ne	3f
	ldr	x21,[sp,#104]
	mov	x0,x9
	b	7f
2:
	ldr	x13,[sp,#136]
	and	x11,x13,#0x38
	and	x8,x13,#0xc0
	add	x12,x9,x27
	ldr	x10,[sp,#96]
	add	x10,x12,x10
	add	x10,x10,#64
	ldr	x12,[sp,#120]
	add	x12,x12,#32
	and	x13,x13,#0xc0
2:
	ldp	q0,q1,[x12,#-32]
	ldp	q2,q3,[x12],#64
	stp	q0,q1,[x10,#-48]
	stp	q2,q3,[x10,#-16]
	add	x10,x10,#64
	subs	x13,x13,#64
	b.ne	2b
	ldr	x2,[sp,#136]
	cmp	x2,x8
	ldp	x0,x10,[sp,#88]
	ldr	x1,[sp,#120]
	ldr	x21,[sp,#104]
	b.eq	6f
	mov	x26,x15
	cbz	x11,4f
15:
	mov	x13,x8
	and	x8,x2,#0xf8
	sub	x11,x13,x8
	add	x12,x1,x13
	add	x13,x13,x9
	and	x14,x26,#0xf
	add	x13,x13,x14,lsl #2
	add	x10,x13,x10
	add	x10,x10,#16
2:
	ldr	d0,[x12],#8
	str	d0,[x10],#8
	adds	x11,x11,#8
	b.ne	2b
	ldr	x2,[sp,#136]
	cmp	x2,x8
	ldp	x0,x10,[sp,#88]
	ldr	x1,[sp,#120]
	mov	x26,x15
	ldr	x21,[sp,#104]
	b.eq	6f
4:
	sub	x11,x2,x8
	add	x12,x1,x8
	add	x8,x8,x9
	and	x9,x26,#0xf
	add	x8,x8,x9,lsl #2
	add	x8,x8,x10
	add	x8,x8,#16
2:
	ldrb	w9,[x12],#1
	strb	w9,[x8],#1
	subs	x11,x11,#1
	b.ne	2b
6:
	ldr	x8,[sp,#48]
	add	x8,x8,x2
	subs	x9,x23,x8
	b.ls	7f
	subs	x19,x9,#1
	b.le	8f
	cmp	x9,#2
	b.eq	11f
	cmp	x9,#3
	b.eq	12f
	cmp	x9,#4
	b.ne	14f
13:
	str	wzr,[x20,x8]
	b	7f
8:
	cbz	x9,7f
	cmp	x9,#1
	b.ne	14f
	strb	wzr,[x20,x8]
	b	7f
11:
	strh	wzr,[x20,x8]
	b	7f
12:
	add	x8,x20,x8
	strb	wzr,[x8,#2]
	strh	wzr,[x8]
	b	7f
14:
	add	x20,x20,x8
	mov	x0,x20
	mov	x1,x19
	bl	_bzero
	ldr	x0,[sp,#88]
	strb	wzr,[x20,x19]
7:
	stp	xzr,x21,[x0]
	b	1b
3:
	mov	x0,x9
	mov	x6,x12
	mov	x5,x11
	mov	x1,x10
	ldr	x3,[sp,#104]
	mov	x26,x17
	mov	x7,x2
	cbz	x13,5b
10:
	mov	x15,x8
	and	x8,x6,#0xf8
	sub	x13,x15,x8
	add	x14,x5,x15
	add	x15,x7,x15
	and	x16,x26,#0xf
	add	x15,x15,x16,lsl #2
	add	x15,x15,x1
	add	x15,x15,#16
1:
	ldr	d0,[x14],#8
	str	d0,[x15],#8
	adds	x13,x13,#8
	b.ne	1b
	mov	x6,x12
	cmp	x12,x8
	mov	x0,x9
	mov	x5,x11
	mov	x1,x10
	ldr	x3,[sp,#104]
	mov	x26,x17
	mov	x7,x2
	b.ne	5b
	b	9b
	.cfi_endproc

	.p2align	2
_rtp_92408dd3_rtp_wire.packet.compacting.compact_copy.1:
	.cfi_startproc
	stp	x26,x25,[sp,#-80]!
	stp	x24,x23,[sp,#16]
	stp	x22,x21,[sp,#32]
	stp	x20,x19,[sp,#48]
	stp	x29,x30,[sp,#64]
	.cfi_def_cfa_offset 80
	.cfi_offset w30,-8
	.cfi_offset w29,-16
	.cfi_offset w19,-24
	.cfi_offset w20,-32
	.cfi_offset w21,-40
	.cfi_offset w22,-48
	.cfi_offset w23,-56
	.cfi_offset w24,-64
	.cfi_offset w25,-72
	.cfi_offset w26,-80
	cmp	x2,#12
	b.hs	1f
	mov	w8,#0
	b	2f
1:
	ldrsb	w8,[x1]
	cmn	w8,#65
	b.gt	1f
	and	x8,x8,#0xff
	ubfiz	x9,x8,#2,#4
	add	x10,x9,#12
	subs	x9,x2,x10
	b.hs	3f
	mov	w8,#2
	b	2f
1:
	mov	w8,#1
2:
	mov	w9,#1
	strb	w9,[x0]
	strb	w8,[x0,#1]
	str	xzr,[x0,#8]
	ldp	x29,x30,[sp,#64]
	ldp	x20,x19,[sp,#48]
	ldp	x22,x21,[sp,#32]
	ldp	x24,x23,[sp,#16]
	ldp	x26,x25,[sp],#80
	ret
3:
	tbnz	w8,#4,1f
3:
	strh	wzr,[x0]
	str	x2,[x0,#8]
	ldp	x29,x30,[sp,#64]
	ldp	x20,x19,[sp,#48]
	ldp	x22,x21,[sp,#32]
	ldp	x24,x23,[sp,#16]
	ldp	x26,x25,[sp],#80
	ret
1:
	subs	x9,x9,#4
	b.hs	1f
	mov	w8,#3
	b	2b
1:
	add	x23,x1,x10
	ldrb	w8,[x23,#2]
	ldrb	w11,[x23,#3]
	lsl	x8,x8,#10
	orr	x8,x8,x11,lsl #2
	cmp	x9,x8
	b.hs	1f
	mov	w8,#4
	b	2b
1:
	ldrh	w11,[x23]
	and	w9,w11,#0xfffff0ff
	mov	w12,#57022
	cmp	w11,w12
	ccmp	w9,#16,#4,ne
	b.ne	3b
	cmp	w9,#16
	cset	w9,eq
	add	x22,x10,#4
	add	x19,x22,x8
	mov	x20,x1
	add	x1,x1,x22
	mov	x24,x0
	mov	x0,x9
	mov	x21,x2
	mov	x2,x8
	bl	_rtp_92408dd3_rtp_ext.gathering.compact_body
	add	x25,x0,#3
	and	x8,x25,#0xfffffffffffffffc
	add	x22,x22,x8
	mov	x0,x20
	mov	x1,x19
	mov	x2,x21
	mov	x3,x22
	bl	_rtp_92408dd3_rtp_wire.packet.resizing.move_bytes
	lsl	w8,w25,#6
	bfxil	w8,w25,#10,#8
	strh	w8,[x23,#2]
	sub	x8,x21,x19
	add	x8,x8,x22
	strh	wzr,[x24]
	str	x8,[x24,#8]
	ldp	x29,x30,[sp,#64]
	ldp	x20,x19,[sp,#48]
	ldp	x22,x21,[sp,#32]
	ldp	x24,x23,[sp,#16]
	ldp	x26,x25,[sp],#80
	ret
	.cfi_endproc

	.p2align	2
_rtp_92408dd3_rtp_route.slots.slot_of:
	.cfi_startproc
	ldrb	w8,[x1,#24]
	cmp	w8,#1
	b.ne	1f
	stp	x26,x25,[sp,#-80]!
	stp	x24,x23,[sp,#16]
	stp	x22,x21,[sp,#32]
	stp	x20,x19,[sp,#48]
	stp	x29,x30,[sp,#64]
	.cfi_def_cfa_offset 80
	.cfi_offset w30,-8
	.cfi_offset w29,-16
	.cfi_offset w19,-24
	.cfi_offset w20,-32
	.cfi_offset w21,-40
	.cfi_offset w22,-48
	.cfi_offset w23,-56
	.cfi_offset w24,-64
	.cfi_offset w25,-72
	.cfi_offset w26,-80
	and	w24,w2,#0xff
	ldrb	w9,[x1,#25]
	ldr	x8,[x1]
	ldrb	w10,[x8]
	ubfiz	x10,x10,#2,#4
	add	x10,x10,#16
	ldr	x19,[x1,#16]
	add	x8,x8,x10
	sub	x20,x19,x10
	cbz	w9,2f
	cbz	x20,3f
	mov	w23,#0
	mov	x21,#0
	mov	x22,#0
	mov	x1,x20
4:
	ldrb	w9,[x8]
	cbz	w9,5f
	mov	x9,x8
	cmp	x1,#2
	b.hs	6f
	b	7f
5:
	cmp	x1,#2
	b.eq	5f
	cmp	x1,#1
	b.eq	7f
	cmp	x1,#3
	b.hi	8f
	ldrb	w9,[x8,#1]
	cbnz	w9,8f
	ldrb	w9,[x8,#2]
	cbnz	w9,8f
	b	7f
5:
	ldrb	w9,[x8,#1]
	cbz	w9,7f
8:
	mov	x25,x0
	sub	x1,x1,#1
	add	x0,x8,#1
	bl	_rtp_92408dd3_rtp_ext.elements.skip_zeros
	cbz	x1,5f
	mov	x9,x0
	mov	x0,x25
	cmp	x1,#2
	b.lo	7f
6:
	ldrb	w10,[x9,#1]
	add	x8,x10,#2
	subs	x1,x1,x8
	b.lo	7f
	add	x8,x9,x8
	ldrb	w9,[x9]
	cmp	w9,w24
	b.eq	6f
	cbnz	x1,4b
	b	7f
6:
	sub	x21,x20,x1
	sub	x22,x21,x10
	mov	w23,#1
	cbnz	x1,4b
	b	4f
1:
	str	wzr,[x0]
	stur	xzr,[x0,#4]
	ret
2:
	cbz	x20,3f
	mov	w23,#0
	mov	x21,#0
	mov	x22,#0
	mov	x1,x20
1:
	ldrb	w9,[x8]
	cbnz	w9,2f
	cmp	x1,#2
	b.eq	6f
	cmp	x1,#1
	b.eq	7f
	cmp	x1,#3
	b.hi	8f
	ldrb	w9,[x8,#1]
	cbnz	w9,8f
	ldrb	w9,[x8,#2]
	cbnz	w9,8f
	b	7f
6:
	ldrb	w9,[x8,#1]
	cbz	w9,7f
8:
	mov	x25,x0
	sub	x1,x1,#1
	add	x0,x8,#1
	bl	_rtp_92408dd3_rtp_ext.elements.skip_zeros
	cbz	x1,5f
	mov	x8,x0
	ldrb	w9,[x0]
	mov	x0,x25
2:
	cmp	w9,#239
	and	w10,w9,#0xf
	add	w10,w10,#2
	ccmp	x1,x10,#0,ls
	b.lo	7f
	add	x8,x8,x10
	sub	x1,x1,x10
	cmp	w24,w9,lsr #4
	b.eq	2f
	cbnz	x1,1b
	b	7f
2:
	sub	x21,x20,x1
	sub	x9,x21,x10
	add	x22,x9,#1
	mov	w23,#1
	cbnz	x1,1b
	b	4f
5:
	mov	x0,x25
7:
	cmp	w23,#1
	b.ne	3f
4:
	sub	w8,w22,w20
	add	w8,w8,w19
	sub	w9,w21,w22
	orr	x8,x8,x9,lsl #32
	mov	w9,#1
	str	w9,[x0]
	stur	x8,[x0,#4]
	ldp	x29,x30,[sp,#64]
	ldp	x20,x19,[sp,#48]
	ldp	x22,x21,[sp,#32]
	ldp	x24,x23,[sp,#16]
	ldp	x26,x25,[sp],#80
	ret
3:
	str	wzr,[x0]
	stur	xzr,[x0,#4]
	ldp	x29,x30,[sp,#64]
	ldp	x20,x19,[sp,#48]
	ldp	x22,x21,[sp,#32]
	ldp	x24,x23,[sp,#16]
	ldp	x26,x25,[sp],#80
	ret
	.cfi_endproc

	.p2align	2
_rtp_92408dd3_rtp_route.making.make_by_calls.d57726891005992a:
	.cfi_startproc
	sub	sp,sp,#464
	str	x27,[sp,#368]
	stp	x26,x25,[sp,#384]
	stp	x24,x23,[sp,#400]
	stp	x22,x21,[sp,#416]
	stp	x20,x19,[sp,#432]
	stp	x29,x30,[sp,#448]
	.cfi_def_cfa_offset 464
	.cfi_offset w30,-8
	.cfi_offset w29,-16
	.cfi_offset w19,-24
	.cfi_offset w20,-32
	.cfi_offset w21,-40
	.cfi_offset w22,-48
	.cfi_offset w23,-56
	.cfi_offset w24,-64
	.cfi_offset w25,-72
	.cfi_offset w26,-80
	.cfi_offset w27,-96
	mov	x20,x2
	mov	x8,x1
	mov	x19,x0
	ldr	x1,[x1]
	ldr	x2,[x8,#16]
	ldrb	w26,[x8,#24]
	ldrb	w27,[x8,#25]
	movi.2d	v0,#0000000000000000
	stp	q0,q0,[sp,#160]
	stp	q0,q0,[sp,#32]
	stp	q0,q0,[sp,#64]
	stp	q0,q0,[sp,#96]
	stp	q0,q0,[sp,#128]
	stp	xzr,xzr,[sp,#200]
	cmp	x4,x2
	b.hs	1f
	mov	w8,#0
	mov	w9,#8
	mov	w10,#3
	b	2f
1:
	mov	x22,x4
	mov	x21,x3
	sub	x8,x2,#49
	cmn	x8,#34
	str	x2,[sp,#376]
	str	x5,[sp,#24]
	b.hi	1f
	mov	x0,x21
	bl	_rtp_92408dd3_rtp_route.copying.put_any
	ldr	x2,[sp,#376]
	b	3f
1:
	ldr	q0,[x1]
	str	q0,[x21]
	cmp	x2,#33
	b.lo	1f
	ldr	q0,[x1,#16]
	str	q0,[x21,#16]
1:
	sub	x8,x2,#16
	ldr	q0,[x1,x8]
	str	q0,[x21,x8]
3:
	ldr	x24,[x20]
	ldrb	w23,[x20,#40]
	ldrb	w25,[x20,#41]
	stp	x21,x2,[sp,#240]
	stp	x2,xzr,[sp,#256]
	strb	w26,[sp,#264]
	strb	w27,[sp,#265]
	add	x0,sp,#240
	mov	x1,x24
	bl	_rtp_92408dd3_rtp_wire.packet.rtp_92408dd3_rtp_packet_mut.RtpPacketMut.renumber
	tbz	w0,#0,1f
	stp	xzr,xzr,[sp,#240]
	str	xzr,[sp,#256]
	ldr	x24,[x20,#32]
	cbz	x24,3f
4:
	ldr	x26,[x20,#8]
	ldr	x27,[x20,#24]
	ldr	x3,[sp,#376]
5:
	ldp	x8,x6,[x27]
	ldrb	w9,[x20,#41]
	ldrb	w7,[x20,#40]
	ldrb	w4,[x27,#24]
	strb	w9,[sp]
	add	x0,sp,#240
	add	x5,x26,x8
	mov	x1,x21
	mov	x2,x22
	bl	_rtp_92408dd3_rtp_wire.packet.putting.put_element_copy.1
	ldrb	w8,[sp,#240]
	ldr	x3,[sp,#248]
	cbnz	w8,6f
	add	x27,x27,#32
	subs	x24,x24,#1
	b.ne	5b
	b	5f
1:
	cmp	w23,#1
	b.ne	1f
	cbnz	w25,1f
	mov	w9,#0
	mov	w8,#0
	mov	x2,#0
	mov	w10,#2
	b	2f
6:
	lsr	x8,x3,#8
	mov	x9,x3
	ldr	x2,[sp,#256]
	mov	w10,#3
2:
	mov	w11,#1
	stp	x11,x10,[x19]
	strb	w9,[x19,#16]
	strb	w8,[x19,#17]
	str	x2,[x19,#24]
6:
	ldp	x29,x30,[sp,#448]
	ldp	x20,x19,[sp,#432]
	ldp	x22,x21,[sp,#416]
	ldp	x24,x23,[sp,#400]
	ldp	x26,x25,[sp,#384]
	ldr	x27,[sp,#368]
	add	sp,sp,#464
	ret
1:
	add	x0,sp,#216
	mov	x1,x21
	mov	x2,x22
	ldr	x3,[sp,#376]
	bl	_rtp_92408dd3_rtp_route.in_place.change_form
	ldrb	w8,[sp,#216]
	ldr	x9,[sp,#224]
	cbz	w8,1f
	lsr	x8,x9,#8
	ldr	x2,[sp,#232]
	mov	w10,#3
	b	2b
1:
	mov	w8,#257
	stp	x21,x9,[sp,#240]
	stp	x9,x8,[sp,#256]
	str	x9,[sp,#376]
	add	x0,sp,#240
	mov	x1,x24
	bl	_rtp_92408dd3_rtp_wire.packet.rtp_92408dd3_rtp_packet_mut.RtpPacketMut.renumber
	stp	xzr,xzr,[sp,#240]
	str	xzr,[sp,#256]
	ldr	x24,[x20,#32]
	cbnz	x24,4b
3:
	ldr	x3,[sp,#376]
5:
	add	x0,sp,#200
	mov	x1,x21
	mov	x2,x3
	bl	_rtp_92408dd3_rtp_wire.packet.compacting.compact_copy.1
	ldrb	w8,[sp,#200]
	cbnz	w8,1f
	ldr	x22,[sp,#208]
	cmp	x22,#12
	b.lo	1f
	ldrsb	w8,[x21]
	cmn	w8,#65
	b.gt	1f
	and	x9,x8,#0xff
	ubfiz	x8,x9,#2,#4
	add	x8,x8,#12
	subs	x10,x22,x8
	b.lo	1f
	tbnz	w9,#4,2f
	mov	w24,#0
	mov	w23,#0
	b	3f
2:
	subs	x11,x10,#4
	b.lo	1f
	add	x10,x21,x8
	ldrb	w9,[x10,#2]
	ldrb	w12,[x10,#3]
	lsl	x9,x9,#10
	orr	x9,x9,x12,lsl #2
	cmp	x11,x9
	b.lo	1f
	ldrh	w10,[x10]
	and	w11,w10,#0xfffff0ff
	cmp	w11,#16
	cset	w23,eq
	mov	w11,#57022
	cmp	w10,w11
	csinc	w24,w23,wzr,ne
	add	x8,x8,x9
	add	x8,x8,#4
3:
	stp	x21,x22,[sp,#160]
	str	x8,[sp,#176]
	strb	w24,[sp,#184]
	strb	w23,[sp,#185]
	ldp	x8,x20,[x20,#24]
	str	wzr,[sp,#224]
	str	xzr,[sp,#216]
	movi.2d	v0,#0000000000000000
	stp	q0,q0,[sp,#240]
	stp	q0,q0,[sp,#272]
	stp	q0,q0,[sp,#304]
	stp	q0,q0,[sp,#336]
	cbz	x20,2f
	add	x21,x8,#24
	add	x26,sp,#240
3:
	ldrb	w2,[x21],#32
	add	x0,sp,#216
	add	x1,sp,#160
	bl	_rtp_92408dd3_rtp_route.slots.slot_of
	ldrb	w8,[sp,#216]
	cmp	w8,#1
	b.ne	1f
	ldur	x8,[sp,#220]
	str	x8,[x26],#8
	subs	x20,x20,#1
	b.ne	3b
2:
	ldp	q0,q1,[sp,#304]
	stp	q0,q1,[sp,#96]
	ldp	q2,q3,[sp,#336]
	stp	q2,q3,[sp,#128]
	ldp	q4,q5,[sp,#240]
	stp	q4,q5,[sp,#32]
	ldp	q6,q7,[sp,#272]
	stp	q6,q7,[sp,#64]
	ldr	x8,[sp,#24]
	stp	q0,q1,[x8,#64]
	stp	q2,q3,[x8,#96]
	stp	q4,q5,[x8]
	stp	q6,q7,[x8,#32]
	stp	xzr,x22,[x19]
	strb	w24,[x19,#16]
	strb	w23,[x19,#17]
	str	xzr,[x19,#24]
	b	6b
1:
	brk	#0x1
	.cfi_endproc

	.p2align	2
_rtp_92408dd3_rtp_route.walk.write_kept.687967002a58489c:
	.cfi_startproc
	sub	sp,sp,#144
	stp	x27,x0,[sp,#48]
	stp	x26,x25,[sp,#64]
	stp	x24,x23,[sp,#80]
	stp	x22,x21,[sp,#96]
	stp	x20,x19,[sp,#112]
	stp	x29,x30,[sp,#128]
	.cfi_def_cfa_offset 144
	.cfi_offset w30,-8
	.cfi_offset w29,-16
	.cfi_offset w19,-24
	.cfi_offset w20,-32
	.cfi_offset w21,-40
	.cfi_offset w22,-48
	.cfi_offset w23,-56
	.cfi_offset w24,-64
	.cfi_offset w25,-72
	.cfi_offset w26,-80
	.cfi_offset w27,-96
	mov	x21,x6
	mov	x23,x5
	mov	x22,x2
	mov	x16,x1
	ldr	x8,[sp,#144]
	str	x8,[sp,#40]
	ldp	x17,x2,[x7]
	orr	w8,w4,w3
	tst	w8,#0xff
	b.eq	1f
	cbz	x21,2f
	mov	x20,x4
	mov	x25,x3
	ldr	x8,[sp,#56]
	add	x8,x8,#32
	str	x8,[sp,#32]
	b	3f
1:
	cbz	x21,2f
	ldr	x8,[sp,#56]
	add	x20,x8,#1
	add	x8,x8,#33
	str	x8,[sp,#32]
	b	1f
4:
	ldrb	w8,[x1]
	ldr	x9,[sp,#56]
	strb	w8,[x9,x27]
5:
	add	x22,x27,x23
	stp	w27,w23,[x26]
6:
	mov	x23,x24
	cbz	x21,2f
3:
	ldrb	w8,[x23]
	cbz	w8,3f
	tst	w25,#0xff
	b.eq	7f
8:
	cmp	x21,#2
	b.lo	2f
	ldrb	w26,[x23,#1]
	add	x8,x26,#2
	subs	x21,x21,x8
	b.lo	2f
	add	x24,x23,x8
	ldrb	w8,[x23],#2
	ldr	x9,[x17]
	ldrb	w27,[x9,x8]
	cbnz	w27,9f
	b	6b
3:
	cmp	x21,#2
	b.eq	3f
	cmp	x21,#1
	b.eq	2f
	cmp	x21,#3
	b.hi	10f
	ldrb	w8,[x23,#1]
	cbnz	w8,10f
	ldrb	w8,[x23,#2]
	cbnz	w8,10f
	b	2f
3:
	ldrb	w8,[x23,#1]
	cbz	w8,2f
10:
	mov	x24,x2
	mov	x26,x17
	mov	x19,x16
	sub	x1,x21,#1
	add	x0,x23,#1
	bl	_rtp_92408dd3_rtp_ext.elements.skip_zeros
	cbz	x1,2f
	mov	x23,x0
	mov	x21,x1
	mov	x16,x19
	mov	x17,x26
	mov	x2,x24
	tst	w25,#0xff
	b.ne	8b
7:
	ldrb	w9,[x23]
	cmp	w9,#239
	b.hi	2f
	and	x8,x9,#0xf
	add	x8,x8,#2
	subs	x21,x21,x8
	b.lo	2f
	lsr	x9,x9,#4
	add	x24,x23,x8
	ldr	x10,[x17]
	ldrb	w27,[x10,x9]
	cbz	w27,6b
	add	x23,x23,#1
	sub	x26,x8,#1
	cmp	w27,#15
	b.hs	3f
9:
	ldrb	w8,[x2,w27,uxtw]
	cbz	x8,7f
	sub	x8,x8,#1
	ldr	x9,[sp,#40]
	add	x26,x9,x8,lsl #3
	ldr	w9,[x26]
	cbnz	w9,8f
	ldr	x9,[x17,#24]
	add	x10,x9,x8,lsl #5
	ldr	x23,[x10,#8]
	add	x8,x22,x23
	add	x8,x8,#2
	cmp	x16,x8
	b.lo	8f
	ldr	x8,[x17,#8]
	ldr	x9,[x10]
	ldrb	w10,[x10,#24]
	tst	w20,#0xff
	b.eq	10f
	ldr	x11,[sp,#56]
	add	x11,x11,x22
	strb	w10,[x11]
	strb	w23,[x11,#1]
	mov	w10,#2
	add	x1,x8,x9
	add	x27,x10,x22
	cbnz	x23,11f
	b	12f
7:
	add	x8,x22,x26
	add	x8,x8,#2
	cmp	x16,x8
	b.lo	8f
	tst	w20,#0xff
	b.eq	7f
	ldr	x8,[sp,#56]
	add	x8,x8,x22
	strb	w27,[x8]
	strb	w26,[x8,#1]
	mov	w8,#2
	add	x27,x8,x22
	cbnz	x26,13f
	b	14f
10:
	lsr	w11,w10,#4
	orr	w10,w11,w10,lsl #4
	add	w10,w23,w10
	sub	w10,w10,#1
	ldr	x11,[sp,#56]
	strb	w10,[x11,x22]
	mov	w10,#1
	add	x1,x8,x9
	add	x27,x10,x22
	cbz	x23,12f
11:
	cmp	x23,#1
	b.eq	4b
	cmp	x23,#2
	b.hi	4f
	ldrb	w8,[x1]
	ldr	x9,[sp,#56]
	add	x9,x9,x27
	strb	w8,[x9]
	ldrb	w8,[x1,#1]
	strb	w8,[x9,#1]
	b	5b
7:
	lsr	w8,w27,#4
	orr	w8,w8,w27,lsl #4
	add	w8,w26,w8
	sub	w8,w8,#1
	ldr	x9,[sp,#56]
	strb	w8,[x9,x22]
	mov	w8,#1
	add	x27,x8,x22
	cbz	x26,14f
13:
	cmp	x26,#1
	b.ne	7f
	ldrb	w8,[x23]
	ldr	x9,[sp,#56]
	strb	w8,[x9,x27]
	add	x22,x27,x26
	b	6b
7:
	cmp	x26,#2
	b.hi	7f
	ldrb	w8,[x23]
	ldr	x9,[sp,#56]
	add	x9,x9,x27
	strb	w8,[x9]
	ldrb	w8,[x23,#1]
	strb	w8,[x9,#1]
	add	x22,x27,x26
	b	6b
4:
	cmp	x23,#3
	b.ne	12f
	ldrb	w8,[x1]
	ldr	x9,[sp,#56]
	add	x9,x9,x27
	strb	w8,[x9]
	ldrb	w8,[x1,#1]
	strb	w8,[x9,#1]
	ldrb	w8,[x1,#2]
	strb	w8,[x9,#2]
	b	5b
12:
	ldr	x11,[sp,#56]
	add	x11,x11,x27
	sub	x11,x11,x1
	cmp	x11,x23
	b.hs	4f
	cmp	x23,#8
	b.lo	10f
	ldr	x11,[sp,#56]
	add	x11,x22,x11
	add	x11,x11,x10
	sub	x11,x11,x8
	sub	x11,x11,x9
	cmp	x11,#64
	b.hs	11f
10:
	mov	x11,#0
10:
	sub	x12,x23,x11
	add	x9,x11,x9
	add	x8,x8,x9
	add	x9,x11,x22
	add	x9,x9,x10
	ldr	x10,[sp,#56]
	add	x9,x10,x9
12:
	ldrb	w10,[x8],#1
	strb	w10,[x9],#1
	subs	x12,x12,#1
	b.ne	12b
	b	5b
4:
	ldr	x8,[sp,#56]
	add	x0,x8,x27
	mov	x19,x2
	mov	x2,x23
	mov	x22,x16
	str	w25,[sp,#24]
	mov	x25,x24
	mov	x24,x20
	mov	x20,x17
	bl	_memmove
	mov	x2,x19
	mov	x17,x20
	mov	x20,x24
	mov	x24,x25
	ldr	w25,[sp,#24]
	mov	x16,x22
	b	5b
7:
	cmp	x26,#3
	b.ne	14f
	ldrb	w8,[x23]
	ldr	x9,[sp,#56]
	add	x9,x9,x27
	strb	w8,[x9]
	ldrb	w8,[x23,#1]
	strb	w8,[x9,#1]
	ldrb	w8,[x23,#2]
	strb	w8,[x9,#2]
	add	x22,x27,x26
	b	6b
14:
	ldr	x9,[sp,#56]
	add	x9,x9,x27
	sub	x9,x9,x23
	cmp	x9,x26
	b.hs	4f
	cmp	x26,#8
	b.lo	7f
	ldr	x9,[sp,#56]
	add	x9,x22,x9
	add	x9,x9,x8
	sub	x9,x9,x23
	cmp	x9,#64
	b.hs	12f
7:
	mov	x9,#0
7:
	sub	x10,x26,x9
	add	x11,x23,x9
	add	x9,x9,x22
	ldr	x12,[sp,#56]
	add	x8,x12,x8
	add	x8,x8,x9
13:
	ldrb	w9,[x11],#1
	strb	w9,[x8],#1
	subs	x10,x10,#1
	b.ne	13b
13:
	add	x22,x27,x26
	b	6b
4:
	ldr	x8,[sp,#56]
	add	x0,x8,x27
	mov	x1,x23
	mov	x19,x2
	mov	x2,x26
	mov	x22,x16
	mov	x23,x17
	bl	_memmove
	mov	x2,x19
	mov	x17,x23
	mov	x16,x22
	add	x22,x27,x26
	b	6b
11:
	cmp	x23,#64
	b.hs	4f
	mov	x11,#0
	b	6f
3:
	mov	x0,x20
	mov	x1,x27
	mov	x19,x2
	mov	x2,x26
	stp	x17,x16,[sp,#16]
	bl	_rtp_92408dd3_rtp_route.walk.is_carried
	mov	x2,x19
	ldp	x17,x16,[sp,#16]
	cbnz	w0,9b
	b	3f
12:
	cmp	x26,#64
	b.hs	9f
	mov	x9,#0
	b	11f
4:
	and	x12,x23,#0x38
	and	x11,x23,#0xffffffffffffffc0
	ldr	x13,[sp,#32]
	add	x13,x13,x27
	add	x14,x8,x9
	add	x14,x14,#32
	and	x15,x23,#0xffffffffffffffc0
4:
	ldp	q0,q1,[x14,#-32]
	ldp	q2,q3,[x14],#64
	stp	q0,q1,[x13,#-32]
	stp	q2,q3,[x13],#64
	subs	x15,x15,#64
	b.ne	4b
	cmp	x23,x11
	b.eq	5b
	cbz	x12,10b
6:
	mov	x14,x11
	and	x11,x23,#0xfffffffffffffff8
	sub	x12,x14,x11
	add	x13,x14,x9
	add	x13,x8,x13
	add	x14,x14,x22
	add	x14,x14,x10
	ldr	x15,[sp,#56]
	add	x14,x15,x14
4:
	ldr	d0,[x13],#8
	str	d0,[x14],#8
	adds	x12,x12,#8
	b.ne	4b
	cmp	x23,x11
	b.eq	5b
	b	10b
9:
	and	x10,x26,#0x38
	and	x9,x26,#0xffffffffffffffc0
	ldr	x11,[sp,#32]
	add	x11,x11,x27
	add	x12,x23,#32
	and	x13,x26,#0xffffffffffffffc0
4:
	ldp	q0,q1,[x12,#-32]
	ldp	q2,q3,[x12],#64
	stp	q0,q1,[x11,#-32]
	stp	q2,q3,[x11],#64
	subs	x13,x13,#64
	b.ne	4b
	cmp	x26,x9
	b.eq	13b
	cbz	x10,7b
11:
	mov	x12,x9
	and	x9,x26,#0xfffffffffffffff8
	sub	x10,x12,x9
	add	x11,x23,x12
	add	x12,x12,x22
	ldr	x13,[sp,#56]
	add	x13,x13,x8
	add	x12,x13,x12
4:
	ldr	d0,[x11],#8
	str	d0,[x12],#8
	adds	x10,x10,#8
	b.ne	4b
	cmp	x26,x9
	b.eq	13b
	b	7b
4:
	ldrb	w8,[x1]
	ldr	x9,[sp,#56]
	strb	w8,[x9,x25]
5:
	add	x22,x24,x25
	stp	w25,w24,[x27]
6:
	add	x23,x23,x26
	mov	w0,#1
	cbz	x21,7f
1:
	ldrb	w25,[x23]
	cbnz	w25,1f
	cmp	x21,#2
	b.eq	9f
	cmp	x21,#1
	b.eq	2f
	cmp	x21,#3
	b.hi	10f
	ldrb	w8,[x23,#1]
	cbnz	w8,10f
	ldrb	w8,[x23,#2]
	cbnz	w8,10f
	b	2f
9:
	ldrb	w8,[x23,#1]
	cbz	w8,2f
10:
	mov	x26,x2
	mov	x24,x17
	mov	x19,x16
	sub	x1,x21,#1
	add	x0,x23,#1
	bl	_rtp_92408dd3_rtp_ext.elements.skip_zeros
	cbz	x1,2f
	mov	x23,x0
	mov	x21,x1
	ldrb	w25,[x0]
	mov	x16,x19
	mov	x17,x24
	mov	x2,x26
1:
	cmp	w25,#239
	b.hi	2f
	and	w19,w25,#0xf
	add	w26,w19,#2
	subs	x21,x21,x26
	b.lo	2f
	mov	w8,w25
	lsr	x8,x8,#4
	ldr	x9,[x17]
	ldrb	w24,[x9,x8]
	cbz	x24,6b
	sub	x27,x26,#1
	cmp	w24,#15
	b.hs	1f
9:
	ldrb	w8,[x2,x24]
	cbz	x8,10f
	sub	x8,x8,#1
	ldr	x9,[sp,#40]
	add	x27,x9,x8,lsl #3
	ldr	w9,[x27]
	cbnz	w9,8f
	ldr	x9,[x17,#24]
	add	x10,x9,x8,lsl #5
	ldr	x24,[x10,#8]
	add	x8,x22,x24
	add	x8,x8,#2
	cmp	x16,x8
	b.lo	8f
	ldr	x8,[x17,#8]
	ldr	x9,[x10]
	add	x1,x8,x9
	ldrb	w10,[x10,#24]
	lsr	w11,w10,#4
	orr	w10,w11,w10,lsl #4
	add	w10,w24,w10
	sub	w10,w10,#1
	ldr	x11,[sp,#56]
	strb	w10,[x11,x22]
	add	x25,x22,#1
	cbz	x24,11f
	cmp	x24,#1
	b.eq	4b
	cmp	x24,#2
	b.hi	4f
	ldrb	w8,[x1]
	ldr	x9,[sp,#56]
	add	x9,x9,x25
	strb	w8,[x9]
	ldrb	w8,[x1,#1]
	strb	w8,[x9,#1]
	b	5b
10:
	add	x8,x22,x27
	add	x8,x8,#2
	cmp	x16,x8
	b.lo	8f
	add	x8,x23,#1
	lsr	w9,w24,#4
	orr	w9,w9,w24,lsl #4
	add	w9,w27,w9
	sub	w9,w9,#1
	ldr	x10,[sp,#56]
	strb	w9,[x10,x22]
	add	x9,x22,#1
	cmp	x27,#1
	b.ne	10f
	ldrb	w8,[x8]
	ldr	x10,[sp,#56]
	strb	w8,[x10,x9]
	add	x22,x22,x26
	b	6b
10:
	cmp	w19,#1
	b.hi	10f
	ldrb	w8,[x23,#1]
	ldr	x10,[sp,#56]
	add	x9,x10,x9
	strb	w8,[x9]
	ldrb	w8,[x23,#2]
	strb	w8,[x9,#1]
	add	x22,x22,x26
	b	6b
4:
	cmp	x24,#3
	b.ne	11f
	ldrb	w8,[x1]
	ldr	x9,[sp,#56]
	add	x9,x9,x25
	strb	w8,[x9]
	ldrb	w8,[x1,#1]
	strb	w8,[x9,#1]
	ldrb	w8,[x1,#2]
	strb	w8,[x9,#2]
	b	5b
11:
	ldr	x10,[sp,#56]
	add	x10,x10,x25
	sub	x10,x10,x1
	cmp	x10,x24
	b.hs	4f
	cmp	x24,#8
	b.lo	11f
	add	x10,x20,x22
	add	x11,x9,x8
	sub	x10,x10,x11
	cmp	x10,#64
	b.hs	12f
11:
	mov	x10,#0
11:
	sub	x11,x24,x10
	add	x9,x10,x9
	add	x8,x8,x9
	add	x9,x10,x22
	add	x9,x20,x9
13:
	ldrb	w10,[x8],#1
	strb	w10,[x9],#1
	subs	x11,x11,#1
	b.ne	13b
	b	5b
4:
	ldr	x8,[sp,#56]
	add	x0,x8,x25
	str	x20,[sp,#24]
	mov	x20,x2
	mov	x2,x24
	mov	x19,x16
	mov	x22,x17
	bl	_memmove
	mov	x2,x20
	ldr	x20,[sp,#24]
	mov	x17,x22
	mov	x16,x19
	b	5b
10:
	cmp	x27,#3
	b.ne	4f
	ldrb	w8,[x23,#1]
	ldr	x10,[sp,#56]
	add	x9,x10,x9
	strb	w8,[x9]
	ldrb	w8,[x23,#2]
	strb	w8,[x9,#1]
	ldrb	w8,[x23,#3]
	strb	w8,[x9,#2]
	add	x22,x22,x26
	b	6b
1:
	stp	x2,x17,[sp,#8]
	sub	x2,x26,#1
	mov	w0,#0
	mov	x1,x24
	str	x16,[sp,#24]
	bl	_rtp_92408dd3_rtp_route.walk.is_carried
	ldp	x2,x17,[sp,#8]
	ldr	x16,[sp,#24]
	cbnz	w0,9b
	b	3f
4:
	ldr	x10,[sp,#56]
	add	x0,x10,x9
	sub	x9,x0,x8
	cmp	x9,x27
	b.hs	1f
	cmp	w19,#2
	b.eq	4f
	ldr	x9,[sp,#56]
	add	x9,x22,x9
	sub	x9,x9,x23
	cmp	x9,#16
	b.hs	9f
4:
	mov	x9,#0
4:
	and	w8,w25,#0xf
	sub	x8,x8,x9
	add	x8,x8,#1
	add	x10,x23,x9
	add	x10,x10,#1
	add	x9,x9,x22
	add	x9,x20,x9
10:
	ldrb	w11,[x10],#1
	strb	w11,[x9],#1
	subs	x8,x8,#1
	b.ne	10b
10:
	add	x22,x22,x26
	b	6b
12:
	cmp	x24,#64
	b.hs	12f
	mov	x10,#0
	b	13f
1:
	add	x1,x23,#1
	mov	x25,x2
	sub	x2,x26,#1
	mov	x19,x16
	mov	x24,x17
	bl	_memmove
	mov	x2,x25
	mov	x17,x24
	mov	x16,x19
	add	x22,x22,x26
	b	6b
12:
	and	x11,x24,#0x38
	and	x10,x24,#0xffffffffffffffc0
	ldr	x12,[sp,#32]
	add	x12,x12,x22
	add	x13,x8,x9
	add	x13,x13,#32
	and	x14,x24,#0xffffffffffffffc0
1:
	ldp	q0,q1,[x13,#-32]
	ldp	q2,q3,[x13],#64
	stp	q0,q1,[x12,#-32]
	stp	q2,q3,[x12],#64
	subs	x14,x14,#64
	b.ne	1b
	cmp	x24,x10
	b.eq	5b
	cbz	x11,11b
13:
	mov	x13,x10
	and	x10,x24,#0xfffffffffffffff8
	sub	x11,x13,x10
	add	x12,x13,x9
	add	x12,x8,x12
	add	x13,x13,x22
	add	x13,x20,x13
1:
	ldr	d0,[x12],#8
	str	d0,[x13],#8
	adds	x11,x11,#8
	b.ne	1b
	cmp	x24,x10
	b.eq	5b
	b	11b
9:
	cmp	w19,#15
	b.ne	1f
	ldr	q0,[x8]
	str	q0,[x0]
	add	x22,x22,x26
	b	6b
1:
	and	x9,x27,#0xfffffffffffffffc
	and	x10,x27,#0xfffffffffffffffc
1:
	ldr	w11,[x8],#4
	str	w11,[x0],#4
	subs	x10,x10,#4
	b.ne	1b
	cmp	x27,x9
	b.ne	4b
	b	10b
2:
	mov	w0,#1
7:
	mov	x1,x22
	ldp	x29,x30,[sp,#128]
	ldp	x20,x19,[sp,#112]
	ldp	x22,x21,[sp,#96]
	ldp	x24,x23,[sp,#80]
	ldp	x26,x25,[sp,#64]
	ldr	x27,[sp,#48]
	add	sp,sp,#144
	ret
8:
	mov	w0,#0
3:
	mov	x22,#0
	b	7b
	.cfi_endproc

	.p2align	2
_rtp_92408dd3_rtp_route.by_walk.write_in_two_byte_form.687967002a58489c:
	.cfi_startproc
	sub	sp,sp,#496
	str	x27,[sp,#400]
	stp	x26,x25,[sp,#416]
	stp	x24,x23,[sp,#432]
	stp	x22,x21,[sp,#448]
	stp	x20,x19,[sp,#464]
	stp	x29,x30,[sp,#480]
	.cfi_def_cfa_offset 496
	.cfi_offset w30,-8
	.cfi_offset w29,-16
	.cfi_offset w19,-24
	.cfi_offset w20,-32
	.cfi_offset w21,-40
	.cfi_offset w22,-48
	.cfi_offset w23,-56
	.cfi_offset w24,-64
	.cfi_offset w25,-72
	.cfi_offset w26,-80
	.cfi_offset w27,-96
	ldrb	w8,[x1,#24]
	cmp	w8,#1
	b.ne	1f
	ldr	x20,[x1]
	ldr	x23,[x1,#16]
	ldrb	w19,[x1,#25]
	ldrb	w9,[x2]
	ldrb	w10,[x2,#1]
	ldrb	w8,[x2,#2]
	stp	w9,w8,[sp,#80]
	ldrb	w8,[x2,#3]
	stp	w10,w8,[sp,#60]
	ldrb	w9,[x2,#4]
	ldrh	w10,[x2,#6]
	ldrb	w8,[x2,#8]
	stp	w9,w8,[sp,#88]
	ldr	w8,[x2,#12]
	stp	w10,w8,[sp,#68]
	ldrb	w8,[x2,#16]
	str	w8,[sp,#408]
	ldr	w8,[x2,#20]
	str	w8,[sp,#76]
	ldp	x21,x26,[x3]
	ldp	x25,x27,[x3,#16]
	ldrb	w8,[x20]
	ldr	x9,[x21]
	ldp	q0,q1,[x9,#192]
	stp	q0,q1,[sp,#304]
	ldp	q0,q1,[x9,#224]
	stp	q0,q1,[sp,#336]
	ldp	q0,q1,[x9,#128]
	stp	q0,q1,[sp,#240]
	ldp	q0,q1,[x9,#160]
	stp	q0,q1,[sp,#272]
	ldp	q0,q1,[x9,#64]
	stp	q0,q1,[sp,#176]
	ldp	q0,q1,[x9,#96]
	stp	q0,q1,[sp,#208]
	ldp	q0,q1,[x9]
	stp	q0,q1,[sp,#112]
	ldp	q0,q1,[x9,#32]
	stp	q0,q1,[sp,#144]
	cmp	w19,#1
	b.eq	1f
	cbnz	w19,2f
	ldr	d1,[sp,#112]
	movi.8b	v0,#14
	cmhi.8b	v1,v1,v0
	umaxv.8b	b1,v1
	fmov	w9,s1
	tbnz	w9,#0,2f
	ldur	d1,[sp,#119]
	cmhi.8b	v0,v1,v0
	umaxv.8b	b0,v0
	fmov	w9,s0
	tbz	w9,#0,1f
2:
	ubfiz	x8,x8,#2,#4
	add	x9,x8,#16
	add	x8,x20,x9
	sub	x1,x23,x9
	stp	x6,x4,[sp,#96]
2:
	cbz	x1,1f
	ldrb	w9,[x8]
	cbz	w9,3f
	cmp	w9,#239
	and	w10,w9,#0xf
	add	w10,w10,#2
	ccmp	x1,x10,#0,ls
	b.hs	4f
	b	1f
3:
	cmp	x1,#2
	b.eq	3f
	cmp	x1,#1
	b.eq	1f
	cmp	x1,#3
	b.hi	5f
	ldrb	w9,[x8,#1]
	cbnz	w9,5f
	ldrb	w9,[x8,#2]
	cbnz	w9,5f
	b	1f
3:
	ldrb	w9,[x8,#1]
	cbz	w9,1f
5:
	sub	x1,x1,#1
	mov	x22,x0
	add	x0,x8,#1
	mov	x24,x5
	bl	_rtp_92408dd3_rtp_ext.elements.skip_zeros
	ldp	x6,x4,[sp,#96]
	mov	x8,x0
	mov	x0,x22
	cbz	x1,1f
	mov	x5,x24
	ldrb	w9,[x8]
	cmp	w9,#239
	and	w10,w9,#0xf
	add	w10,w10,#2
	ccmp	x1,x10,#0,ls
	b.lo	1f
4:
	mov	w9,w9
	sub	x1,x1,x10
	add	x8,x8,x10
	add	x10,sp,#112
	orr	x9,x10,x9,lsr #4
	ldrb	w9,[x9]
	cmp	w9,#15
	b.lo	2b
	mov	x2,#0
	mov	w8,#0
	movi.2d	v0,#0000000000000000
	stp	q0,q0,[x6,#96]
	stp	q0,q0,[x6,#64]
	stp	q0,q0,[x6,#32]
	mov	w9,#262140
	stp	q0,q0,[x6]
	cmp	x5,x9
	csel	x1,x5,x9,lo
	lsl	x9,x23,#1
	add	x9,x9,#3
	subs	x9,x1,x9
	csel	x9,xzr,x9,lo
	b.lo	2f
	cmp	x9,x25
	b.lo	2f
	ldrb	w8,[x20]
	ldr	x9,[x21,#32]
	cbz	x9,3f
	ldrb	w9,[x21,#40]
	cmp	w9,#1
	b.ne	3f
	ldrb	w9,[x21,#41]
	cmp	w9,#1
	b.ne	4f
3:
	ubfiz	x24,x8,#2,#4
	add	x22,x24,#16
	sub	x8,x23,x22
	stp	x21,x26,[sp,#368]
	stp	x25,x27,[sp,#384]
	str	x6,[sp]
	add	x2,x24,#16
	add	x5,x20,x22
	add	x7,sp,#368
	stp	x1,x0,[sp,#40]
	mov	x0,x4
	mov	x3,x19
	mov	w4,#1
	mov	x6,x8
	bl	_rtp_92408dd3_rtp_route.walk.write_kept.687967002a58489c
	ldp	x10,x8,[sp,#96]
	mov	x9,x0
	ldp	x17,x0,[sp,#40]
	tbz	w9,#0,4f
	ldr	x27,[x21,#32]
	cbz	x27,3f
	mov	x25,#0
	add	x3,x8,#2
	add	x9,x8,#34
	stp	x9,x24,[sp,#24]
	b	5f
1:
	stp	xzr,xzr,[x0]
	strh	wzr,[x0,#16]
1:
	ldp	x29,x30,[sp,#480]
	ldp	x20,x19,[sp,#464]
	ldp	x22,x21,[sp,#448]
	ldp	x24,x23,[sp,#432]
	ldp	x26,x25,[sp,#416]
	ldr	x27,[sp,#400]
	add	sp,sp,#496
	ret
6:
	ldrb	w9,[x9]
	strb	w9,[x8,x26]
7:
	add	x1,x26,x23
	stp	w26,w23,[x4]
8:
	add	x25,x25,#1
	cmp	x25,x27
	b.eq	3f
5:
	add	x4,x10,x25,lsl #3
	ldr	w9,[x4]
	cbnz	w9,8b
	ldr	x9,[x21,#24]
	add	x13,x9,x25,lsl #5
	ldr	x23,[x13,#8]
	add	x9,x1,x23
	add	x9,x9,#2
	cmp	x17,x9
	b.lo	4f
	ldr	x11,[x21,#8]
	ldr	x12,[x13]
	add	x9,x11,x12
	ldrb	w13,[x13,#24]
	add	x14,x8,x1
	strb	w13,[x14]
	strb	w23,[x14,#1]
	add	x26,x1,#2
	cbz	x23,5f
	cmp	x23,#1
	b.eq	6b
	cmp	x23,#2
	b.hi	6f
	ldrb	w11,[x9]
	add	x12,x8,x26
	strb	w11,[x12]
	ldrb	w9,[x9,#1]
	strb	w9,[x12,#1]
	b	7b
6:
	cmp	x23,#3
	b.ne	5f
	ldrb	w11,[x9]
	add	x12,x8,x26
	strb	w11,[x12]
	ldrb	w11,[x9,#1]
	strb	w11,[x12,#1]
	ldrb	w9,[x9,#2]
	strb	w9,[x12,#2]
	b	7b
5:
	add	x13,x8,x26
	sub	x13,x13,x9
	cmp	x13,x23
	b.hs	5f
	cmp	x23,#8
	b.lo	6f
	add	x9,x3,x1
	sub	x9,x9,x11
	sub	x9,x9,x12
	cmp	x9,#64
	b.hs	8f
6:
	mov	x9,#0
6:
	sub	x13,x23,x9
	add	x12,x9,x12
	add	x11,x11,x12
	add	x9,x9,x1
	add	x9,x3,x9
9:
	ldrb	w12,[x11],#1
	strb	w12,[x9],#1
	subs	x13,x13,#1
	b.ne	9b
	b	7b
5:
	add	x0,x8,x26
	mov	x1,x9
	mov	x2,x23
	mov	x22,x3
	mov	x24,x4
	bl	_memmove
	mov	x4,x24
	ldp	x24,x17,[sp,#32]
	mov	x3,x22
	add	x22,x24,#16
	ldp	x10,x8,[sp,#96]
	ldr	x0,[sp,#48]
	b	7b
8:
	cmp	x23,#64
	b.hs	5f
	mov	x9,#0
	b	8f
5:
	and	x13,x23,#0x38
	and	x9,x23,#0xffffffffffffffc0
	ldr	x14,[sp,#24]
	add	x14,x14,x1
	add	x15,x11,x12
	add	x15,x15,#32
	and	x16,x23,#0xffffffffffffffc0
5:
	ldp	q0,q1,[x15,#-32]
	ldp	q2,q3,[x15],#64
	stp	q0,q1,[x14,#-32]
	stp	q2,q3,[x14],#64
	subs	x16,x16,#64
	b.ne	5b
	cmp	x23,x9
	b.eq	7b
	cbz	x13,6b
8:
	mov	x15,x9
	and	x9,x23,#0xfffffffffffffff8
	sub	x13,x15,x9
	add	x14,x15,x12
	add	x14,x11,x14
	add	x15,x1,x15
	add	x15,x3,x15
5:
	ldr	d0,[x14],#8
	str	d0,[x15],#8
	adds	x13,x13,#8
	b.ne	5b
	cmp	x23,x9
	b.eq	7b
	b	6b
3:
	add	x9,x1,#3
	and	x2,x9,#0xfffffffffffffffc
	cmp	x17,x2
	b.hs	3f
4:
	mov	w8,#0
	mov	x2,#0
2:
	mov	w9,w8
	stp	x9,x2,[x0]
	strb	w8,[x0,#16]
	strb	w8,[x0,#17]
	b	1b
3:
	subs	x9,x2,x1
	b.eq	1f
	cmp	x9,#2
	b.eq	3f
	cmp	x9,#1
	b.ne	4f
	strb	wzr,[x8,x1]
	b	1f
3:
	strh	wzr,[x8,x1]
	b	1f
4:
	add	x9,x8,x1
	strb	wzr,[x9,#2]
	strh	wzr,[x9]
1:
	sub	x21,x2,x22
	cmp	w24,#33
	b.lo	1f
	mov	x0,x8
	mov	x1,x20
	mov	x20,x2
	mov	x2,x22
	bl	_rtp_92408dd3_rtp_route.copying.put_any
	mov	x2,x20
	ldr	x8,[sp,#104]
	ldr	x0,[sp,#48]
	b	3f
1:
	ldr	q0,[x20]
	str	q0,[x8]
	cmp	w24,#17
	b.lo	1f
	ldr	q0,[x20,#16]
	str	q0,[x8,#16]
1:
	ldr	q0,[x20,x24]
	str	q0,[x8,x24]
3:
	ldr	w12,[sp,#408]
	ldp	w14,w13,[sp,#88]
	ldp	w16,w15,[sp,#80]
	cmp	w19,#1
	b.ne	1f
	lsl	w9,w21,#6
	bfxil	w9,w21,#10,#8
	add	x10,x8,x22
	sturh	w9,[x10,#-2]
	cmp	w16,#1
	b.ne	3f
4:
	ldrb	w9,[x8,#1]
	ldr	w10,[sp,#60]
	bfi	w9,w10,#7,#8
	strb	w9,[x8,#1]
	cmp	w15,#1
	b.eq	5f
6:
	cmp	w14,#1
	b.ne	7f
8:
	ldr	w9,[sp,#68]
	rev16	w9,w9
	strh	w9,[x8,#2]
	cmp	w13,#1
	b.eq	9f
10:
	cmp	w12,#1
	b.ne	11f
12:
	ldr	w9,[sp,#76]
	rev	w9,w9
	str	w9,[x8,#8]
11:
	mov	w8,#1
	b	2b
1:
	mov	w9,#16
	strh	w9,[sp,#368]
	add	x10,x8,x22
	sub	x10,x10,#4
	add	x11,sp,#368
	sub	x11,x10,x11
	cmp	x11,#1
	b.hi	1f
	ldrh	w9,[sp,#368]
1:
	strh	w9,[x10]
	lsl	w9,w21,#6
	bfxil	w9,w21,#10,#8
	add	x10,x8,x22
	sturh	w9,[x10,#-2]
	cmp	w16,#1
	b.eq	4b
3:
	cmp	w15,#1
	b.ne	6b
5:
	ldrb	w9,[x8,#1]
	and	w9,w9,#0x80
	ldr	w10,[sp,#64]
	add	w9,w9,w10
	strb	w9,[x8,#1]
	cmp	w14,#1
	b.eq	8b
7:
	cmp	w13,#1
	b.ne	10b
9:
	ldr	w9,[sp,#72]
	rev	w9,w9
	str	w9,[x8,#4]
	cmp	w12,#1
	b.eq	12b
	b	11b
	.cfi_endproc

	.p2align	2
_rtp_92408dd3_rtp_route.making.make_by_calls_of.687967002a58489c:
	.cfi_startproc
	sub	sp,sp,#400
	stp	x20,x19,[sp,#368]
	stp	x29,x30,[sp,#384]
	.cfi_def_cfa_offset 400
	.cfi_offset w30,-8
	.cfi_offset w29,-16
	.cfi_offset w19,-24
	.cfi_offset w20,-32
	mov	x19,x0
	ldr	x8,[x1,#16]
	ldrh	w9,[x1,#24]
	ldr	x10,[x2]
	movi.2d	v0,#0000000000000000
	stp	q0,q0,[sp,#336]
	ldur	q0,[x2,#8]
	str	q0,[sp,#48]
	ldr	x11,[x2,#24]
	stp	x11,xzr,[sp,#64]
	ldr	x11,[x10]
	ldp	q0,q1,[x11]
	ldp	q2,q3,[x11,#32]
	stp	q2,q3,[sp,#112]
	stp	q0,q1,[sp,#80]
	ldp	q0,q1,[x11,#64]
	ldp	q2,q3,[x11,#96]
	stp	q2,q3,[sp,#176]
	stp	q0,q1,[sp,#144]
	ldp	q0,q1,[x11,#128]
	ldp	q2,q3,[x11,#160]
	stp	q2,q3,[sp,#240]
	stp	q0,q1,[sp,#208]
	ldp	q0,q1,[x11,#192]
	ldp	q2,q3,[x11,#224]
	stp	q2,q3,[sp,#304]
	stp	q0,q1,[sp,#272]
	ldrh	w11,[x10,#40]
	add	x12,sp,#80
	stp	x12,x10,[sp,#32]
	strh	w11,[sp,#72]
	ldr	q0,[x1]
	str	q0,[sp]
	stp	x8,xzr,[sp,#16]
	strh	w9,[sp,#24]
	add	x0,sp,#336
	mov	x1,sp
	add	x2,sp,#32
	bl	_rtp_92408dd3_rtp_route.making.make_by_calls.2b2c45b9ae55a838
	ldrb	w8,[sp,#336]
	ldr	x9,[sp,#344]
	stp	x8,x9,[x19]
	ldrh	w8,[sp,#352]
	strh	w8,[x19,#16]
	ldr	x8,[sp,#360]
	str	x8,[x19,#24]
	ldp	x29,x30,[sp,#384]
	ldp	x20,x19,[sp,#368]
	add	sp,sp,#400
	ret
	.cfi_endproc

	.p2align	2
_rtp_92408dd3_rtp_route.making.make_by_calls.2b2c45b9ae55a838:
	.cfi_startproc
	sub	sp,sp,#464
	str	x27,[sp,#368]
	stp	x26,x25,[sp,#384]
	stp	x24,x23,[sp,#400]
	stp	x22,x21,[sp,#416]
	stp	x20,x19,[sp,#432]
	stp	x29,x30,[sp,#448]
	.cfi_def_cfa_offset 464
	.cfi_offset w30,-8
	.cfi_offset w29,-16
	.cfi_offset w19,-24
	.cfi_offset w20,-32
	.cfi_offset w21,-40
	.cfi_offset w22,-48
	.cfi_offset w23,-56
	.cfi_offset w24,-64
	.cfi_offset w25,-72
	.cfi_offset w26,-80
	.cfi_offset w27,-96
	mov	x20,x2
	mov	x8,x1
	mov	x19,x0
	ldr	x1,[x1]
	ldr	x2,[x8,#16]
	ldrb	w26,[x8,#24]
	ldrb	w27,[x8,#25]
	movi.2d	v0,#0000000000000000
	stp	q0,q0,[sp,#160]
	stp	q0,q0,[sp,#32]
	stp	q0,q0,[sp,#64]
	stp	q0,q0,[sp,#96]
	stp	q0,q0,[sp,#128]
	stp	xzr,xzr,[sp,#200]
	cmp	x4,x2
	b.hs	1f
	mov	w8,#0
	mov	w9,#8
	mov	w10,#3
	b	2f
1:
	mov	x22,x4
	mov	x21,x3
	sub	x8,x2,#49
	cmn	x8,#34
	str	x2,[sp,#376]
	str	x5,[sp,#24]
	b.hi	1f
	mov	x0,x21
	bl	_rtp_92408dd3_rtp_route.copying.put_any
	ldr	x2,[sp,#376]
	b	3f
1:
	ldr	q0,[x1]
	str	q0,[x21]
	cmp	x2,#33
	b.lo	1f
	ldr	q0,[x1,#16]
	str	q0,[x21,#16]
1:
	sub	x8,x2,#16
	ldr	q0,[x1,x8]
	str	q0,[x21,x8]
3:
	ldr	x24,[x20]
	ldrb	w23,[x20,#40]
	ldrb	w25,[x20,#41]
	stp	x21,x2,[sp,#240]
	stp	x2,xzr,[sp,#256]
	strb	w26,[sp,#264]
	strb	w27,[sp,#265]
	add	x0,sp,#240
	mov	x1,x24
	bl	_rtp_92408dd3_rtp_wire.packet.rtp_92408dd3_rtp_packet_mut.RtpPacketMut.renumber
	tbz	w0,#0,1f
	stp	xzr,xzr,[sp,#240]
	str	xzr,[sp,#256]
	ldr	x24,[x20,#8]
	ldr	x26,[x24,#32]
	cbz	x26,3f
4:
	mov	x27,#0
	ldr	x3,[sp,#376]
5:
	ldr	x8,[x24,#8]
	ldr	x9,[x24,#24]
	add	x9,x9,x27
	ldp	x10,x6,[x9]
	ldrb	w11,[x20,#41]
	ldrb	w4,[x9,#24]
	ldrb	w7,[x20,#40]
	strb	w11,[sp]
	add	x0,sp,#240
	add	x5,x8,x10
	mov	x1,x21
	mov	x2,x22
	bl	_rtp_92408dd3_rtp_wire.packet.putting.put_element_copy.1
	ldrb	w8,[sp,#240]
	ldr	x3,[sp,#248]
	cbnz	w8,6f
	add	x27,x27,#32
	subs	x26,x26,#1
	b.ne	5b
	b	5f
1:
	cmp	w23,#1
	b.ne	1f
	cbnz	w25,1f
	mov	w9,#0
	mov	w8,#0
	mov	x2,#0
	mov	w10,#2
	b	2f
6:
	lsr	x8,x3,#8
	mov	x9,x3
	ldr	x2,[sp,#256]
	mov	w10,#3
2:
	mov	w11,#1
	stp	x11,x10,[x19]
	strb	w9,[x19,#16]
	strb	w8,[x19,#17]
	str	x2,[x19,#24]
6:
	ldp	x29,x30,[sp,#448]
	ldp	x20,x19,[sp,#432]
	ldp	x22,x21,[sp,#416]
	ldp	x24,x23,[sp,#400]
	ldp	x26,x25,[sp,#384]
	ldr	x27,[sp,#368]
	add	sp,sp,#464
	ret
1:
	add	x0,sp,#216
	mov	x1,x21
	mov	x2,x22
	ldr	x3,[sp,#376]
	bl	_rtp_92408dd3_rtp_route.in_place.change_form
	ldrb	w8,[sp,#216]
	ldr	x9,[sp,#224]
	cbz	w8,1f
	lsr	x8,x9,#8
	ldr	x2,[sp,#232]
	mov	w10,#3
	b	2b
1:
	mov	w8,#257
	stp	x21,x9,[sp,#240]
	stp	x9,x8,[sp,#256]
	str	x9,[sp,#376]
	add	x0,sp,#240
	mov	x1,x24
	bl	_rtp_92408dd3_rtp_wire.packet.rtp_92408dd3_rtp_packet_mut.RtpPacketMut.renumber
	stp	xzr,xzr,[sp,#240]
	str	xzr,[sp,#256]
	ldr	x24,[x20,#8]
	ldr	x26,[x24,#32]
	cbnz	x26,4b
3:
	ldr	x3,[sp,#376]
5:
	add	x0,sp,#200
	mov	x1,x21
	mov	x2,x3
	bl	_rtp_92408dd3_rtp_wire.packet.compacting.compact_copy.1
	ldrb	w8,[sp,#200]
	cbnz	w8,1f
	ldr	x22,[sp,#208]
	cmp	x22,#12
	b.lo	1f
	ldrsb	w8,[x21]
	cmn	w8,#65
	b.gt	1f
	and	x9,x8,#0xff
	ubfiz	x8,x9,#2,#4
	add	x8,x8,#12
	subs	x10,x22,x8
	b.lo	1f
	tbnz	w9,#4,2f
	mov	w24,#0
	mov	w23,#0
	b	3f
2:
	subs	x11,x10,#4
	b.lo	1f
	add	x10,x21,x8
	ldrb	w9,[x10,#2]
	ldrb	w12,[x10,#3]
	lsl	x9,x9,#10
	orr	x9,x9,x12,lsl #2
	cmp	x11,x9
	b.lo	1f
	ldrh	w10,[x10]
	and	w11,w10,#0xfffff0ff
	cmp	w11,#16
	cset	w23,eq
	mov	w11,#57022
	cmp	w10,w11
	csinc	w24,w23,wzr,ne
	add	x8,x8,x9
	add	x8,x8,#4
3:
	stp	x21,x22,[sp,#160]
	str	x8,[sp,#176]
	strb	w24,[sp,#184]
	strb	w23,[sp,#185]
	ldr	x8,[x20,#8]
	str	wzr,[sp,#224]
	str	xzr,[sp,#216]
	movi.2d	v0,#0000000000000000
	stp	q0,q0,[sp,#240]
	stp	q0,q0,[sp,#272]
	stp	q0,q0,[sp,#304]
	stp	q0,q0,[sp,#336]
	ldr	x20,[x8,#32]
	cbz	x20,2f
	ldr	x8,[x8,#24]
	add	x21,x8,#24
	add	x26,sp,#240
3:
	ldrb	w2,[x21],#32
	add	x0,sp,#216
	add	x1,sp,#160
	bl	_rtp_92408dd3_rtp_route.slots.slot_of
	ldrb	w8,[sp,#216]
	cmp	w8,#1
	b.ne	1f
	ldur	x8,[sp,#220]
	str	x8,[x26],#8
	subs	x20,x20,#1
	b.ne	3b
2:
	ldp	q0,q1,[sp,#304]
	stp	q0,q1,[sp,#96]
	ldp	q2,q3,[sp,#336]
	stp	q2,q3,[sp,#128]
	ldp	q4,q5,[sp,#240]
	stp	q4,q5,[sp,#32]
	ldp	q6,q7,[sp,#272]
	stp	q6,q7,[sp,#64]
	ldr	x8,[sp,#24]
	stp	q0,q1,[x8,#64]
	stp	q2,q3,[x8,#96]
	stp	q4,q5,[x8]
	stp	q6,q7,[x8,#32]
	stp	xzr,x22,[x19]
	strb	w24,[x19,#16]
	strb	w23,[x19,#17]
	str	xzr,[x19,#24]
	b	6b
1:
	brk	#0x1
	.cfi_endproc

	.section	__TEXT,__literal16,16byte_literals
	.p2align	4,0x0
lrtp_92408dd3_CPI54_0:
	.quad	1
	.quad	0
	.section	__TEXT,__text,regular,pure_instructions
	.p2align	2
_rtp_92408dd3_rtp_c.receiver.receive_any:
	.cfi_startproc
	ldrb	w8,[x0,#24]
	ldr	x10,[x0]
	cbz	w8,1f
	sub	w9,w1,w10
	sxth	w11,w9
	add	x12,x10,w9,uxth
	cmn	w11,#8,lsl #12
	and	x11,x10,#0x8000
	ccmp	x11,#0,#0,eq
	mov	x11,#-65536
	csel	x11,xzr,x11,eq
	add	x11,x11,x12
	tst	w9,#0x8000
	csel	x9,x12,x11,eq
	ldp	x12,x11,[x0,#8]
	orr	x12,x12,#0x1
	subs	x13,x10,x9
	b.hs	2f
	sub	x10,x9,x10
	mvn	w13,w10
	lsl	x14,x11,x10
	lsr	x15,x12,#1
	lsr	x13,x15,x13
	orr	x13,x14,x13
	lsl	x14,x12,x10
	tst	x10,#0x40
	csel	x13,x14,x13,ne
	csel	x14,xzr,x14,ne
	orr	x14,x14,#0x1
	cmp	x10,#127
	csel	x13,xzr,x13,hi
	csinc	x14,x14,xzr,ls
	mov	w15,#1
	orr	x15,x15,x12,lsl #1
	extr	x11,x11,x12,#63
	cmp	x10,#1
	csel	x12,x14,x15,ne
	csel	x11,x13,x11,ne
	stp	x9,x12,[x0]
	str	x11,[x0,#16]
	cmp	w8,#1
	b.ne	3f
4:
	mov	w0,#0
	str	x9,[x2]
	ret
1:
	bfxil	x10,x1,#0,#16
	str	x10,[x0]
Lrtp_92408dd3_loh52:
	adrp	x8,lrtp_92408dd3_CPI54_0@PAGE
Lrtp_92408dd3_loh53:
	ldr	q0,[x8,lrtp_92408dd3_CPI54_0@PAGEOFF]
	stur	q0,[x0,#8]
	mov	x9,x10
3:
	mov	w8,#1
	strb	w8,[x0,#24]
	mov	w0,#0
	str	x9,[x2]
	ret
2:
	cmp	x13,#127
	b.ls	1f
	mov	w0,#10
	ret
1:
	mov	w14,#1
	lsl	x14,x14,x13
	tst	x13,#0x40
	csel	x13,xzr,x14,ne
	csel	x14,x14,xzr,ne
	and	x15,x11,x14
	and	x16,x12,x13
	orr	x15,x16,x15
	cbz	x15,1f
	mov	w0,#10
	ret
1:
	orr	x12,x12,x13
	orr	x11,x11,x14
	stp	x10,x12,[x0]
	str	x11,[x0,#16]
	cmp	w8,#1
	b.eq	4b
	b	3b
	.loh AdrpLdr	Lrtp_92408dd3_loh52,Lrtp_92408dd3_loh53
	.cfi_endproc

	.p2align	2
_rtp_92408dd3_rtp_base.ring.ring_start:
	.cfi_startproc
	cbz	x1,1f
	stp	x22,x21,[sp,#-48]!
	stp	x20,x19,[sp,#16]
	stp	x29,x30,[sp,#32]
	.cfi_def_cfa_offset 48
	.cfi_offset w30,-8
	.cfi_offset w29,-16
	.cfi_offset w19,-24
	.cfi_offset w20,-32
	.cfi_offset w21,-40
	.cfi_offset w22,-48
	mov	x20,x2
	mov	x21,x1
	mov	x19,x0
	subs	x22,x1,#1
	b.eq	2f
	lsl	x8,x21,#3
	sub	x1,x8,#8
	mov	x0,x19
	bl	_bzero
	str	xzr,[x19,x22,lsl #3]
	cmp	x21,#16
	b.ne	3f
	ubfx	x8,x20,#6,#4
	b	4f
2:
	str	xzr,[x19]
3:
	lsr	x8,x20,#6
	udiv	x9,x8,x21
	msub	x8,x9,x21,x8
4:
	mov	w9,#1
	lsl	x9,x9,x20
	ldr	x10,[x19,x8,lsl #3]
	orr	x9,x10,x9
	str	x9,[x19,x8,lsl #3]
	ldp	x29,x30,[sp,#32]
	ldp	x20,x19,[sp,#16]
	ldp	x22,x21,[sp],#48
	ret
1:
	brk	#0x1
	.cfi_endproc

	.p2align	2
_rtp_92408dd3_rtp_base.ring.clear:
	.cfi_startproc
	sub	x8,x3,x2
	cmp	x1,x8,lsr #6
	b.ls	1f
	cmp	x3,x2
	b.ls	2f
	cmp	x1,#16
	b.ne	3f
4:
	and	x8,x2,#0x3f
	mov	w9,#64
	sub	x9,x9,x8
	sub	x10,x3,x2
	cmp	x10,x9
	csel	x9,x10,x9,lo
	neg	x8,x8
	sub	x8,x8,x9
	mov	x10,#-1
	lsr	x8,x10,x8
	lsr	x8,x8,x2
	lsr	x10,x2,#3
	and	x10,x10,#0x78
	ldr	x11,[x0,x10]
	lsl	x8,x8,x2
	bic	x8,x11,x8
	str	x8,[x0,x10]
	add	x2,x9,x2
	cmp	x2,x3
	b.lo	4b
2:
	ret
3:
	and	x8,x2,#0x3f
	mov	w9,#64
	sub	x9,x9,x8
	sub	x10,x3,x2
	cmp	x10,x9
	csel	x9,x10,x9,lo
	lsr	x10,x2,#6
	udiv	x11,x10,x1
	msub	x10,x11,x1,x10
	neg	x8,x8
	sub	x8,x8,x9
	mov	x11,#-1
	lsr	x8,x11,x8
	lsr	x8,x8,x2
	ldr	x11,[x0,x10,lsl #3]
	lsl	x8,x8,x2
	bic	x8,x11,x8
	str	x8,[x0,x10,lsl #3]
	add	x2,x9,x2
	cmp	x2,x3
	b.lo	3b
	b	2b
1:
	cbz	x1,2b
	stp	x20,x19,[sp,#-32]!
	stp	x29,x30,[sp,#16]
	.cfi_def_cfa_offset 32
	.cfi_offset w30,-8
	.cfi_offset w29,-16
	.cfi_offset w19,-24
	.cfi_offset w20,-32
	subs	x20,x1,#1
	b.eq	1f
	lsl	x8,x1,#3
	sub	x1,x8,#8
	mov	x19,x0
	bl	_bzero
	mov	x0,x19
1:
	str	xzr,[x0,x20,lsl #3]
	ldp	x29,x30,[sp,#16]
	ldp	x20,x19,[sp],#32
	ret
	.cfi_endproc

	.p2align	2
_rtp_92408dd3_rtp_c.wide_receiver.receive_other:
	.cfi_startproc
	stp	x24,x23,[sp,#-64]!
	stp	x22,x21,[sp,#16]
	stp	x20,x19,[sp,#32]
	stp	x29,x30,[sp,#48]
	.cfi_def_cfa_offset 64
	.cfi_offset w30,-8
	.cfi_offset w29,-16
	.cfi_offset w19,-24
	.cfi_offset w20,-32
	.cfi_offset w21,-40
	.cfi_offset w22,-48
	.cfi_offset w23,-56
	.cfi_offset w24,-64
	mov	x19,x4
	mov	x20,x3
	mov	x21,x0
	ldrb	w8,[x0,#8]
	cbz	w8,1f
	ldr	x8,[x21]
	subs	x9,x8,x20
	b.ne	2f
3:
	mov	w0,#10
	ldp	x29,x30,[sp,#48]
	ldp	x20,x19,[sp,#32]
	ldp	x22,x21,[sp,#16]
	ldp	x24,x23,[sp],#64
	ret
1:
	mov	x0,x1
	mov	x1,x2
	mov	x2,x20
	bl	_rtp_92408dd3_rtp_base.ring.ring_start
1:
	mov	x8,x20
4:
	mov	w0,#0
	str	x8,[x21]
	mov	w8,#1
	strb	w8,[x21,#8]
	str	x20,[x19]
	ldp	x29,x30,[sp,#48]
	ldp	x20,x19,[sp,#32]
	ldp	x22,x21,[sp,#16]
	ldp	x24,x23,[sp],#64
	ret
2:
	b.hs	2f
5:
	cmp	x2,#16
	b.eq	6f
	cbz	x2,7f
	lsr	x9,x8,#6
	udiv	x10,x9,x2
	msub	x9,x10,x2,x9
	b	8f
2:
	cmp	x2,x9,lsr #6
	b.ls	3b
	lsr	x9,x20,#6
	udiv	x10,x9,x2
	msub	x9,x10,x2,x9
	ubfx	x10,x20,#6,#4
	cmp	x2,#16
	csel	x9,x9,x10,ne
	ldr	x9,[x1,x9,lsl #3]
	lsr	x9,x9,x20
	tbnz	w9,#0,3b
	b	5b
6:
	ubfx	x9,x8,#6,#4
8:
	mov	w10,#1
	lsl	x10,x10,x8
	ldr	x11,[x1,x9,lsl #3]
	orr	x10,x11,x10
	str	x10,[x1,x9,lsl #3]
	subs	x9,x8,x20
	b.hs	2f
	sub	x9,x20,x8
	cmp	x9,#2
	b.lo	3f
	mov	x22,x2
	add	x2,x8,#1
	mov	x0,x1
	mov	x23,x1
	mov	x1,x22
	mov	x3,x20
	bl	_rtp_92408dd3_rtp_base.ring.clear
	mov	x2,x22
	mov	x1,x23
3:
	lsr	x8,x20,#6
	udiv	x9,x8,x2
	msub	x8,x9,x2,x8
	ubfx	x9,x20,#6,#4
	cmp	x2,#16
	csel	x8,x8,x9,ne
	mov	w9,#1
	lsl	x9,x9,x20
	ldr	x10,[x1,x8,lsl #3]
	orr	x9,x10,x9
	str	x9,[x1,x8,lsl #3]
	b	1b
2:
	cmp	x2,x9,lsr #6
	b.ls	4b
	lsr	x10,x20,#6
	mov	w9,#1
	lsl	x9,x9,x20
	cmp	x2,#16
	b.ne	1f
	ubfiz	x10,x10,#3,#4
	ldr	x11,[x1,x10]
	tst	x11,x9
	b.ne	4b
	ldr	x11,[x1,x10]
	b	2f
1:
	udiv	x11,x10,x2
	msub	x10,x11,x2,x10
	lsl	x10,x10,#3
	ldr	x11,[x1,x10]
	tst	x11,x9
	b.ne	4b
2:
	orr	x9,x11,x9
	str	x9,[x1,x10]
	b	4b
7:
	brk	#0x1
	.cfi_endproc

	.p2align	2
_rtp_92408dd3_rtp_c.whole_packet.status_of_no_packet:
	.cfi_startproc
	cmp	x1,#2
	b.lo	1f
	ldrsb	w8,[x0]
	cmn	w8,#65
	b.gt	1f
	ldrb	w8,[x0,#1]
	and	w8,w8,#0xe0
	cmp	w8,#192
	b.ne	1f
	mov	w0,#17
	ret
1:
	and	x8,x2,#0xff
Lrtp_92408dd3_loh54:
	adrp	x9,lrtp_92408dd3__switch.table.rtp_92408dd3_rtp_c.whole_packet.status_of_no_packet@PAGE
Lrtp_92408dd3_loh55:
	add	x9,x9,lrtp_92408dd3__switch.table.rtp_92408dd3_rtp_c.whole_packet.status_of_no_packet@PAGEOFF
	ldr	w0,[x9,x8,lsl #2]
	ret
	.loh AdrpAdd	Lrtp_92408dd3_loh54,Lrtp_92408dd3_loh55
	.cfi_endproc

	.p2align	2
_rtp_92408dd3_rtp_core.cmp.text.RefStrPartialEq.eq:
	.cfi_startproc
	cmp	x1,x3
	b.ne	1f
	cmp	x1,#7
	b.hi	2f
	subs	x9,x1,#4
	b.lo	3f
	ldr	w8,[x0]
	ldr	w10,[x0,x9]
	orr	x8,x8,x10,lsl #32
	rev	x8,x8
	ldr	w10,[x2]
	ldr	w9,[x2,x9]
	orr	x9,x10,x9,lsl #32
	rev	x9,x9
	cmp	x8,x9
	cset	w0,eq
	ret
1:
	mov	w0,#0
	ret
2:
	cmp	x1,#32
	b.hi	1f
	sub	x8,x1,#8
	ldr	x9,[x0]
	ldr	x10,[x2]
	mov	w11,#8
	cmp	x8,#8
	csel	x11,x8,x11,lo
	mov	w12,#16
	cmp	x8,#16
	csel	x12,x8,x12,lo
	cmp	x9,x10
	ldr	x9,[x0,x11]
	ldr	x10,[x2,x11]
	ccmp	x9,x10,#0,eq
	ldr	x9,[x0,x12]
	ldr	x10,[x2,x12]
	ccmp	x9,x10,#0,eq
	ldr	x9,[x0,x8]
	ldr	x8,[x2,x8]
	ccmp	x9,x8,#0,eq
	cset	w0,eq
	ret
3:
	cbz	x1,2f
	ldrb	w8,[x0]
	lsr	x9,x1,#1
	ldrb	w10,[x0,x9]
	lsl	x8,x8,#16
	orr	x8,x8,x10,lsl #8
	sub	x10,x1,#1
	ldrb	w11,[x0,x10]
	orr	x8,x8,x11
	ldrb	w9,[x2,x9]
	ldrb	w11,[x2]
	lsl	x11,x11,#16
	orr	x9,x11,x9,lsl #8
	ldrb	w10,[x2,x10]
	orr	x9,x9,x10
	cmp	x8,x9
	cset	w0,eq
	ret
1:
	mov	x8,x0
	mov	x9,x2
	mov	x10,x1
	cmp	x1,#65
	b.hs	1f
	sub	x8,x1,#16
	ldp	q0,q1,[x0]
	ldp	q2,q3,[x2]
	cmeq.16b	v0,v0,v2
	mvn.16b	v0,v0
	cmeq.16b	v1,v1,v3
	mov	w9,#32
	cmp	x8,#32
	csel	x9,x8,x9,lo
	ldr	q2,[x0,x9]
	ldr	q3,[x2,x9]
	orn.16b	v0,v0,v1
	cmeq.16b	v1,v2,v3
	ldr	q2,[x0,x8]
	ldr	q3,[x2,x8]
	orn.16b	v0,v0,v1
	cmeq.16b	v1,v2,v3
	orn.16b	v0,v0,v1
	umaxv.16b	b0,v0
	fmov	w8,s0
	and	w8,w8,#0x1
	eor	w0,w8,#0x1
	ret
1:
	ldp	q1,q0,[x8]
	ldp	q2,q3,[x8,#32]
	ldp	q5,q4,[x9]
	ldp	q6,q7,[x9,#32]
	cmeq.16b	v3,v3,v7
	cmeq.16b	v2,v2,v6
	cmeq.16b	v1,v1,v5
	cmeq.16b	v0,v0,v4
	mvn.16b	v0,v0
	orn.16b	v0,v0,v1
	orn.16b	v0,v0,v2
	orn.16b	v0,v0,v3
	cmlt.16b	v0,v0,#0
	umaxv.16b	b0,v0
	fmov	w11,s0
	tbnz	w11,#0,3f
	sub	x10,x10,#64
	add	x9,x9,#64
	add	x8,x8,#64
	cmp	x10,#65
	b.hs	1b
	sub	x8,x1,#64
	add	x9,x0,x8
	ldp	q1,q0,[x9]
	ldp	q2,q3,[x9,#32]
	add	x8,x2,x8
	ldp	q5,q4,[x8]
	ldp	q6,q7,[x8,#32]
	cmeq.16b	v3,v3,v7
	cmeq.16b	v2,v2,v6
	cmeq.16b	v1,v1,v5
	cmeq.16b	v0,v0,v4
	mvn.16b	v0,v0
	orn.16b	v0,v0,v1
	orn.16b	v0,v0,v2
	orn.16b	v0,v0,v3
	cmlt.16b	v0,v0,#0
	umaxv.16b	b0,v0
	fmov	w8,s0
	and	w8,w8,#0x1
	eor	w0,w8,#0x1
	ret
2:
	cmp	xzr,xzr
	cset	w0,eq
	ret
3:
	mov	w8,#1
	eor	w0,w8,#0x1
	ret
	.cfi_endproc

	.p2align	2
_rtp_92408dd3_rtp_c.given_layers.with_given_layers.6444109e7f8c5753:
	.cfi_startproc
	sub	sp,sp,#48
	stp	x22,x21,[sp,#16]
	stp	x20,x19,[sp,#32]
	.cfi_def_cfa_offset 48
	.cfi_offset w19,-8
	.cfi_offset w20,-16
	.cfi_offset w21,-24
	.cfi_offset w22,-32
	ldrb	w8,[x2,#672]
	cmp	w8,#4
	b.hi	1f
	cbz	w8,2f
	ldrb	w9,[x2,#160]
	cmp	w9,#5
	b.hs	1f
	cbz	w9,3f
	ldrb	w10,[x2,#38]
	cmp	w10,#4
	b.hi	1f
	cmp	w9,#1
	b.ne	4f
3:
	cmp	w8,#1
	b.ne	5f
6:
	ldrb	w9,[x2,#673]
	str	wzr,[sp,#12]
	cmp	x9,#3
	b.hi	7f
	mov	w13,#0
	mov	x11,#0
	mov	x10,#0
	mov	x12,x8
8:
	sub	x12,x12,#1
	mov	w14,#168
	madd	x15,x12,x14,x2
	ldrb	w16,[x15,#160]
	cbz	w16,9f
	mov	w14,#0
	mov	w17,#4
	cmp	w16,#4
	csel	w16,w16,w17,lo
	b	10f
11:
	tbnz	w13,#0,7f
12:
	add	x11,x5,x11
	add	x10,x10,#1
	mov	w13,#1
	orr	w14,w13,w14,lsl #1
	mov	x13,x17
	cbz	x16,13f
10:
	sub	x16,x16,#1
	mov	w17,#40
	madd	x6,x16,x17,x15
	ldrb	w3,[x6,#37]
	cmp	w3,#0
	cset	w17,ne
	cbz	w3,14f
	ldrh	w4,[x6,#32]
	ldrh	w5,[x6,#34]
	cmp	w4,#0
	ccmp	w5,#0,#4,ne
	cset	w4,ne
	cmp	w14,#7
	b.ls	15f
	b	7f
14:
	mov	w4,#0
	cmp	w14,#7
	b.hi	7f
15:
	ldrb	w7,[x6,#38]
	cbz	w7,14f
	ldr	x5,[x6]
	cmp	x5,#4,lsl #12
	b.lo	15f
	tbnz	x5,#63,7f
	cmp	x5,#512,lsl #12
	b.lo	16f
	lsr	x19,x5,#14
	mov	w5,#3
17:
	lsr	x20,x19,#14
	lsr	x19,x19,#7
	add	x5,x5,#1
	cbnz	x20,17b
	b	17f
14:
	cbnz	w3,7f
	lsl	w14,w14,#1
	cbnz	x16,10b
	b	13f
15:
	cmp	x5,#128
	mov	w5,#1
	cinc	x5,x5,hs
17:
	cmp	w7,#1
	b.eq	10f
14:
	ldr	x19,[x6,#8]
	lsr	x20,x19,#14
	cbz	x20,15f
	tbnz	x19,#63,7f
	cmp	x19,#512,lsl #12
	b.lo	17f
	mov	w19,#3
18:
	lsr	x21,x20,#14
	lsr	x20,x20,#7
	add	x19,x19,#1
	cbnz	x21,18b
	b	18f
15:
	cmp	x19,#128
	mov	w19,#1
	cinc	x19,x19,hs
18:
	add	x5,x19,x5
	cmp	w7,#2
	b.eq	10f
15:
	ldr	x19,[x6,#16]
	lsr	x20,x19,#14
	cbz	x20,18f
	tbnz	x19,#63,7f
	cmp	x19,#512,lsl #12
	b.lo	19f
	mov	w19,#3
20:
	lsr	x21,x20,#14
	lsr	x20,x20,#7
	add	x19,x19,#1
	cbnz	x21,20b
	b	20f
16:
	mov	w5,#3
	cmp	w7,#1
	b.ne	14b
	b	10f
18:
	cmp	x19,#128
	mov	w19,#1
	cinc	x19,x19,hs
20:
	add	x5,x19,x5
	cmp	w7,#3
	b.eq	10f
14:
	ldr	x6,[x6,#24]
	lsr	x7,x6,#14
	cbz	x7,16f
	tbnz	x6,#63,7f
	cmp	x6,#512,lsl #12
	b.lo	18f
	mov	w6,#3
20:
	lsr	x19,x7,#14
	lsr	x7,x7,#7
	add	x6,x6,#1
	cbnz	x19,20b
	b	20f
17:
	mov	w19,#3
	add	x5,x19,x5
	cmp	w7,#2
	b.ne	15b
	b	10f
16:
	cmp	x6,#128
	mov	w6,#1
	cinc	x6,x6,hs
	b	20f
19:
	mov	w19,#3
	add	x5,x19,x5
	cmp	w7,#3
	b.ne	14b
	b	10f
18:
	mov	w6,#3
20:
	add	x5,x6,x5
10:
	cbz	w3,11b
	cbz	w4,7f
	add	x5,x5,#5
	b	12b
9:
	mov	w14,#0
13:
	add	x15,sp,#12
	strb	w14,[x15,x12]
	cbnz	x12,8b
	ldrb	w12,[sp,#12]
	mov	w13,#1
8:
	cmp	x8,x13
	b.eq	9f
	add	x14,sp,#12
	ldrb	w14,[x14,x13]
	add	x13,x13,#1
	cmp	w14,w12
	b.eq	8b
	mov	x12,#0
	add	x13,x8,#1
	lsr	x13,x13,#1
	b	8f
2:
	ldrb	w8,[x2,#673]
	cbz	w8,2f
7:
	mov	x11,#0
	mov	x1,#0
	mov	x9,#0
	mov	x2,#0
	mov	x8,#0
	mov	x10,#0
	b	10f
2:
	mov	x9,#0
	mov	x8,#0
	mov	x10,#281474976710656
2:
	mov	w11,#1
10:
	stp	x11,x1,[x0]
	stp	x9,x2,[x0,#16]
	stp	x8,x10,[x0,#32]
	ldp	x20,x19,[sp,#32]
	ldp	x22,x21,[sp,#16]
	add	sp,sp,#48
	ret
5:
	ldrb	w9,[x2,#328]
	cmp	w9,#4
	b.hi	1f
	cbz	w9,5f
	ldrb	w10,[x2,#206]
	cmp	w10,#4
	b.hi	1f
	cmp	w9,#1
	b.ne	10f
5:
	cmp	w8,#2
	b.eq	6b
	ldrb	w9,[x2,#496]
	cmp	w9,#4
	b.hi	1f
	cbz	w9,11f
	ldrb	w10,[x2,#374]
	cmp	w10,#4
	b.hi	1f
	cmp	w9,#1
	b.ne	12f
11:
	cmp	w8,#3
	b.eq	6b
	ldrb	w9,[x2,#664]
	cmp	w9,#4
	b.hi	1f
	cbz	w9,6b
	ldrb	w10,[x2,#542]
	cmp	w10,#4
	b.hi	1f
	cmp	w9,#1
	b.eq	6b
	ldrb	w10,[x2,#582]
	cmp	w10,#4
	b.hi	1f
	cmp	w9,#2
	b.eq	6b
	ldrb	w10,[x2,#622]
	cmp	w10,#4
	b.hi	1f
	cmp	w9,#3
	b.eq	6b
	ldrb	w10,[x2,#662]
	cmp	w10,#4
	b.hi	1f
	cmp	w9,#4
	b.eq	6b
	b	1f
4:
	ldrb	w10,[x2,#78]
	cmp	w10,#4
	b.hi	1f
	cmp	w9,#2
	b.eq	3b
	ldrb	w10,[x2,#118]
	cmp	w10,#4
	b.hi	1f
	cmp	w9,#3
	b.eq	3b
	ldrb	w10,[x2,#158]
	cmp	w10,#4
	b.hi	1f
	cmp	w9,#4
	b.eq	3b
	b	1f
10:
	ldrb	w10,[x2,#246]
	cmp	w10,#4
	b.hi	1f
	cmp	w9,#2
	b.eq	5b
	ldrb	w10,[x2,#286]
	cmp	w10,#4
	b.hi	1f
	cmp	w9,#3
	b.eq	5b
	ldrb	w10,[x2,#326]
	cmp	w10,#4
	b.hi	1f
	cmp	w9,#4
	b.eq	5b
	b	1f
12:
	ldrb	w10,[x2,#414]
	cmp	w10,#4
	b.hi	1f
	cmp	w9,#2
	b.eq	11b
	ldrb	w10,[x2,#454]
	cmp	w10,#4
	b.hi	1f
	cmp	w9,#3
	b.eq	11b
	ldrb	w10,[x2,#494]
	cmp	w10,#4
	b.hi	1f
	cmp	w9,#4
	b.eq	11b
1:
	movi.2d	v0,#0000000000000000
	stp	q0,q0,[x0,#16]
	str	q0,[x0]
	ldp	x20,x19,[sp,#32]
	ldp	x22,x21,[sp,#16]
	add	sp,sp,#48
	ret
9:
	add	x13,x8,#1
	lsr	x13,x13,#1
	cmp	w12,#0
	csel	x13,x13,xzr,eq
	lsl	x12,x12,#32
8:
	add	w14,w10,#3
	add	w11,w11,w14,lsr #2
	add	w11,w11,w13
	add	w11,w11,#1
	ubfx	x13,x11,#8,#8
	cbnz	x13,7b
	ldr	w13,[sp,#12]
	bfi	x12,x10,#40,#8
	orr	x10,x12,x13
	bfi	x10,x11,#48,#16
	b	2b
	.cfi_endproc

	.p2align	2
_rtp_92408dd3_rtp_ext.block_form.has_empty_data.16f98aa29e959305:
	.cfi_startproc
	cbz	x1,1f
	stp	x20,x19,[sp,#-32]!
	stp	x29,x30,[sp,#16]
	.cfi_def_cfa_offset 32
	.cfi_offset w30,-8
	.cfi_offset w29,-16
	.cfi_offset w19,-24
	.cfi_offset w20,-32
	mov	x19,x2
	mov	x20,x0
	mov	x8,#0
2:
	cmp	x8,x1
	cset	w0,lo
	b.hs	3f
	add	x8,x8,#1
	ldrb	w9,[x20,x8]
	cmp	w9,#10
	b.eq	4f
	cmp	w9,#11
	b.eq	5f
	cmp	w9,#12
	b.ne	2b
	ldr	x9,[x19]
	ldrb	w10,[x9,#128]
	cbz	w10,2b
	ldrb	w9,[x9,#80]
	cbnz	w9,2b
	b	6f
3:
	cmp	x1,#15
	b.lo	6f
	cmp	x8,#254
	b.hi	6f
	mov	x0,x20
	mov	x1,x8
	bl	_rtp_92408dd3_rtp_c.kinds.StoredMap.past_unmapped
	mov	x8,x0
	add	x9,x0,#16
	mov	w10,#255
	cmp	x9,#255
	csel	x1,x9,x10,lo
	b	2b
5:
	ldr	x9,[x19]
	ldrb	w10,[x9,#130]
	cbz	w10,2b
	ldrb	w9,[x9,#106]
	cbnz	w9,2b
	b	6f
4:
	ldr	x9,[x19]
	ldrb	w10,[x9,#129]
	cbz	w10,2b
	ldrb	w9,[x9,#97]
	cbnz	w9,2b
6:
	ldp	x29,x30,[sp,#16]
	ldp	x20,x19,[sp],#32
	ret
1:
	mov	w0,#0
	ret
	.cfi_endproc

	.p2align	2
_rtp_92408dd3_rtp_ext.block_elements.values_len.16f98aa29e959305:
	.cfi_startproc
	stp	x22,x21,[sp,#-48]!
	stp	x20,x19,[sp,#16]
	stp	x29,x30,[sp,#32]
	.cfi_def_cfa_offset 48
	.cfi_offset w30,-8
	.cfi_offset w29,-16
	.cfi_offset w19,-24
	.cfi_offset w20,-32
	.cfi_offset w21,-40
	.cfi_offset w22,-48
	mov	x19,x2
	mov	x20,x0
	mov	x9,#0
	mov	x21,#0
	tst	w3,#0xff
	mov	w8,#1
	cinc	x22,x8,ne
	b	1f
2:
	ldr	x8,[x19]
	ldrb	w8,[x8,#122]
	cbz	w8,1f
3:
	mov	w8,#1
4:
	add	x10,x21,x22
	add	x21,x10,x8
1:
	mov	x8,x9
5:
	cmp	x8,x1
	b.hs	6f
	add	x9,x8,#1
	add	x8,x20,x8
	ldrb	w8,[x8,#1]
	sub	w10,w8,#1
	mov	x8,x9
	cmp	w10,#14
	b.hi	5b
	b	7f
6:
	cmp	x1,#15
	b.lo	6f
	cmp	x8,#254
	b.hi	6f
	mov	x0,x20
	mov	x1,x8
	bl	_rtp_92408dd3_rtp_c.kinds.StoredMap.past_unmapped
	mov	x8,x0
	add	x9,x0,#16
	mov	w10,#255
	cmp	x9,#255
	csel	x1,x9,x10,lo
	b	5b
7:
Lrtp_92408dd3_loh56:
	adrp	x8,5f@PAGE
Lrtp_92408dd3_loh57:
	add	x8,x8,5f@PAGEOFF
	adr	x11,2b
	ldrb	w12,[x8,x10]
	add	x11,x11,x12,lsl #2
	br	x11
7:
	ldr	x8,[x19]
	ldrb	w8,[x8,#115]
	cbnz	w8,8f
	b	1b
9:
	ldr	x8,[x19]
	ldrb	w10,[x8,#128]
	cbz	w10,1b
	ldrb	w10,[x8,#80]
	cbz	w10,10f
	ldrb	w10,[x8,#81]
	cbz	w10,3b
	ldrb	w10,[x8,#82]
	cbz	w10,11f
	ldrb	w10,[x8,#83]
	cbz	w10,8f
	ldrb	w10,[x8,#84]
	cbz	w10,12f
	ldrb	w10,[x8,#85]
	cbz	w10,13f
	ldrb	w10,[x8,#86]
	cbz	w10,14f
	ldrb	w10,[x8,#87]
	cbz	w10,15f
	ldrb	w10,[x8,#88]
	cbz	w10,16f
	ldrb	w10,[x8,#89]
	cbz	w10,17f
	ldrb	w10,[x8,#90]
	cbz	w10,18f
	ldrb	w10,[x8,#91]
	cbz	w10,19f
	ldrb	w10,[x8,#92]
	cbz	w10,20f
	ldrb	w10,[x8,#93]
	cbz	w10,21f
	ldrb	w10,[x8,#94]
	cbz	w10,22f
	ldrb	w10,[x8,#95]
	cbz	w10,23f
	ldrb	w8,[x8,#96]
	cmp	w8,#0
	mov	w8,#16
	cinc	x8,x8,ne
	b	4b
24:
	ldr	x8,[x19]
	ldrb	w10,[x8,#121]
	cbz	w10,1b
	ldrh	w10,[x8,#66]
	mov	w8,#1
	cmp	w10,#179
	b.gt	25f
	cbz	w10,4b
	cmp	w10,#90
	b.eq	4b
	b	1b
26:
	ldr	x8,[x19]
	ldrb	w8,[x8,#119]
	cbnz	w8,12f
	b	1b
27:
	ldr	x8,[x19]
	ldrb	w10,[x8,#129]
	cbz	w10,1b
	ldrb	w10,[x8,#97]
	cbz	w10,10f
	ldrb	w10,[x8,#98]
	cbz	w10,3b
	ldrb	w10,[x8,#99]
	cbz	w10,11f
	ldrb	w10,[x8,#100]
	cbz	w10,8f
	ldrb	w10,[x8,#101]
	cbz	w10,12f
	ldrb	w10,[x8,#102]
	cbz	w10,13f
	ldrb	w10,[x8,#103]
	cbz	w10,14f
	ldrb	w10,[x8,#104]
	cbz	w10,15f
	ldrb	w8,[x8,#105]
	b	28f
29:
	ldr	x8,[x19]
	ldrb	w10,[x8,#123]
	ldrb	w8,[x8,#124]
	cmp	w10,#0
	ccmp	w8,#0,#4,ne
	b.eq	1b
	b	3b
30:
	ldr	x8,[x19]
	ldrb	w8,[x8,#118]
	cbz	w8,1b
12:
	mov	w8,#4
	b	4b
31:
	ldr	x8,[x19]
	ldrb	w10,[x8,#116]
	cbz	w10,1b
	ldrb	w8,[x8,#117]
	cmp	w8,#0
	mov	w8,#16
	mov	w10,#8
	csel	x8,x10,x8,eq
	b	4b
32:
	ldr	x8,[x19]
	ldrb	w8,[x8,#120]
	cbz	w8,1b
11:
	mov	w8,#2
	b	4b
33:
	ldr	x8,[x19]
	ldrb	w10,[x8,#125]
	cbz	w10,34f
	ldr	w10,[x8,#32]
	cmp	w10,#0
	cset	w10,ne
34:
	ldrb	w11,[x8,#126]
	cbz	w11,1b
	ldr	w8,[x8,#48]
	cmp	w8,#0
	csel	w8,wzr,w10,eq
	tbz	w8,#0,1b
8:
	mov	w8,#3
	b	4b
34:
	ldr	x8,[x19]
	ldrb	w10,[x8,#130]
	cbz	w10,1b
	ldrb	w10,[x8,#106]
	cbz	w10,10f
	ldrb	w10,[x8,#107]
	cbz	w10,3b
	ldrb	w10,[x8,#108]
	cbz	w10,11b
	ldrb	w10,[x8,#109]
	cbz	w10,8b
	ldrb	w10,[x8,#110]
	cbz	w10,12b
	ldrb	w10,[x8,#111]
	cbz	w10,13f
	ldrb	w10,[x8,#112]
	cbz	w10,14f
	ldrb	w10,[x8,#113]
	cbz	w10,15f
	ldrb	w8,[x8,#114]
28:
	cmp	w8,#0
	mov	w8,#8
	cinc	x8,x8,ne
	b	4b
3:
	ldr	x8,[x19]
	ldrb	w8,[x8,#127]
	cbz	w8,1b
21:
	mov	w8,#13
	b	4b
10:
	mov	x8,#0
	b	4b
25:
	cmp	w10,#180
	b.eq	4b
	cmp	w10,#270
	b.eq	4b
	b	1b
13:
	mov	w8,#5
	b	4b
14:
	mov	w8,#6
	b	4b
15:
	mov	w8,#7
	b	4b
16:
	mov	w8,#8
	b	4b
17:
	mov	w8,#9
	b	4b
18:
	mov	w8,#10
	b	4b
19:
	mov	w8,#11
	b	4b
20:
	mov	w8,#12
	b	4b
22:
	mov	w8,#14
	b	4b
23:
	mov	w8,#15
	b	4b
6:
	mov	x0,x21
	ldp	x29,x30,[sp,#32]
	ldp	x20,x19,[sp,#16]
	ldp	x22,x21,[sp],#48
	ret
	.loh AdrpAdd	Lrtp_92408dd3_loh56,Lrtp_92408dd3_loh57
	.cfi_endproc
	.section	__TEXT,__const
5:
	.byte	(7b-2b)>>2
	.byte	(31b-2b)>>2
	.byte	(29b-2b)>>2
	.byte	(30b-2b)>>2
	.byte	(24b-2b)>>2
	.byte	(32b-2b)>>2
	.byte	(33b-2b)>>2
	.byte	(2b-2b)>>2
	.byte	(3b-2b)>>2
	.byte	(27b-2b)>>2
	.byte	(34b-2b)>>2
	.byte	(9b-2b)>>2
	.byte	(26b-2b)>>2
	.byte	(1b-2b)>>2
	.byte	(1b-2b)>>2

	.section	__TEXT,__text,regular,pure_instructions
	.p2align	2
_rtp_92408dd3_rtp_ext.block_form.has_empty_data.defbc6cea7b2a850:
	.cfi_startproc
	cbz	x1,1f
	stp	x20,x19,[sp,#-32]!
	stp	x29,x30,[sp,#16]
	.cfi_def_cfa_offset 32
	.cfi_offset w30,-8
	.cfi_offset w29,-16
	.cfi_offset w19,-24
	.cfi_offset w20,-32
	mov	x19,x2
	mov	x20,x0
	mov	x8,#0
2:
	cmp	x8,x1
	cset	w0,lo
	b.hs	3f
	add	x8,x8,#1
	ldrb	w9,[x20,x8]
	cmp	w9,#10
	b.eq	4f
	cmp	w9,#11
	b.eq	5f
	cmp	w9,#12
	b.ne	2b
	ldr	x9,[x19]
	ldr	x9,[x9]
	ldrb	w10,[x9,#128]
	cbz	w10,2b
	ldrb	w9,[x9,#80]
	cbnz	w9,2b
	b	6f
3:
	cmp	x1,#15
	b.lo	6f
	cmp	x8,#254
	b.hi	6f
	mov	x0,x20
	mov	x1,x8
	bl	_rtp_92408dd3_rtp_c.kinds.StoredMap.past_unmapped
	mov	x8,x0
	add	x9,x0,#16
	mov	w10,#255
	cmp	x9,#255
	csel	x1,x9,x10,lo
	b	2b
5:
	ldr	x9,[x19]
	ldr	x9,[x9]
	ldrb	w10,[x9,#130]
	cbz	w10,2b
	ldrb	w9,[x9,#106]
	cbnz	w9,2b
	b	6f
4:
	ldr	x9,[x19]
	ldr	x9,[x9]
	ldrb	w10,[x9,#129]
	cbz	w10,2b
	ldrb	w9,[x9,#97]
	cbnz	w9,2b
6:
	ldp	x29,x30,[sp,#16]
	ldp	x20,x19,[sp],#32
	ret
1:
	mov	w0,#0
	ret
	.cfi_endproc

	.p2align	2
_rtp_92408dd3_rtp_ext.block_elements.values_len.defbc6cea7b2a850:
	.cfi_startproc
	stp	x22,x21,[sp,#-48]!
	stp	x20,x19,[sp,#16]
	stp	x29,x30,[sp,#32]
	.cfi_def_cfa_offset 48
	.cfi_offset w30,-8
	.cfi_offset w29,-16
	.cfi_offset w19,-24
	.cfi_offset w20,-32
	.cfi_offset w21,-40
	.cfi_offset w22,-48
	mov	x19,x2
	mov	x20,x0
	mov	x9,#0
	mov	x21,#0
	tst	w3,#0xff
	mov	w8,#1
	cinc	x22,x8,ne
	b	1f
2:
	ldr	x8,[x19]
	ldr	x8,[x8]
	ldrb	w8,[x8,#122]
	cbz	w8,1f
3:
	mov	w8,#1
4:
	add	x10,x21,x22
	add	x21,x10,x8
1:
	mov	x8,x9
5:
	cmp	x8,x1
	b.hs	6f
	add	x9,x8,#1
	add	x8,x20,x8
	ldrb	w8,[x8,#1]
	sub	w10,w8,#1
	mov	x8,x9
	cmp	w10,#14
	b.hi	5b
	b	7f
6:
	cmp	x1,#15
	b.lo	6f
	cmp	x8,#254
	b.hi	6f
	mov	x0,x20
	mov	x1,x8
	bl	_rtp_92408dd3_rtp_c.kinds.StoredMap.past_unmapped
	mov	x8,x0
	add	x9,x0,#16
	mov	w10,#255
	cmp	x9,#255
	csel	x1,x9,x10,lo
	b	5b
7:
Lrtp_92408dd3_loh58:
	adrp	x8,5f@PAGE
Lrtp_92408dd3_loh59:
	add	x8,x8,5f@PAGEOFF
	adr	x11,2b
	ldrb	w12,[x8,x10]
	add	x11,x11,x12,lsl #2
	br	x11
7:
	ldr	x8,[x19]
	ldr	x8,[x8]
	ldrb	w8,[x8,#115]
	cbnz	w8,8f
	b	1b
9:
	ldr	x8,[x19]
	ldr	x8,[x8]
	ldrb	w10,[x8,#128]
	cbz	w10,1b
	ldrb	w10,[x8,#80]
	cbz	w10,10f
	ldrb	w10,[x8,#81]
	cbz	w10,3b
	ldrb	w10,[x8,#82]
	cbz	w10,11f
	ldrb	w10,[x8,#83]
	cbz	w10,8f
	ldrb	w10,[x8,#84]
	cbz	w10,12f
	ldrb	w10,[x8,#85]
	cbz	w10,13f
	ldrb	w10,[x8,#86]
	cbz	w10,14f
	ldrb	w10,[x8,#87]
	cbz	w10,15f
	ldrb	w10,[x8,#88]
	cbz	w10,16f
	ldrb	w10,[x8,#89]
	cbz	w10,17f
	ldrb	w10,[x8,#90]
	cbz	w10,18f
	ldrb	w10,[x8,#91]
	cbz	w10,19f
	ldrb	w10,[x8,#92]
	cbz	w10,20f
	ldrb	w10,[x8,#93]
	cbz	w10,21f
	ldrb	w10,[x8,#94]
	cbz	w10,22f
	ldrb	w10,[x8,#95]
	cbz	w10,23f
	ldrb	w8,[x8,#96]
	cmp	w8,#0
	mov	w8,#16
	cinc	x8,x8,ne
	b	4b
24:
	ldr	x8,[x19]
	ldr	x8,[x8]
	ldrb	w10,[x8,#121]
	cbz	w10,1b
	ldrh	w10,[x8,#66]
	mov	w8,#1
	cmp	w10,#179
	b.gt	25f
	cbz	w10,4b
	cmp	w10,#90
	b.eq	4b
	b	1b
26:
	ldr	x8,[x19]
	ldr	x8,[x8]
	ldrb	w8,[x8,#119]
	cbnz	w8,12f
	b	1b
27:
	ldr	x8,[x19]
	ldr	x8,[x8]
	ldrb	w10,[x8,#129]
	cbz	w10,1b
	ldrb	w10,[x8,#97]
	cbz	w10,10f
	ldrb	w10,[x8,#98]
	cbz	w10,3b
	ldrb	w10,[x8,#99]
	cbz	w10,11f
	ldrb	w10,[x8,#100]
	cbz	w10,8f
	ldrb	w10,[x8,#101]
	cbz	w10,12f
	ldrb	w10,[x8,#102]
	cbz	w10,13f
	ldrb	w10,[x8,#103]
	cbz	w10,14f
	ldrb	w10,[x8,#104]
	cbz	w10,15f
	ldrb	w8,[x8,#105]
	b	28f
29:
	ldr	x8,[x19]
	ldr	x8,[x8]
	ldrb	w10,[x8,#123]
	ldrb	w8,[x8,#124]
	cmp	w10,#0
	ccmp	w8,#0,#4,ne
	b.eq	1b
	b	3b
30:
	ldr	x8,[x19]
	ldr	x8,[x8]
	ldrb	w8,[x8,#118]
	cbz	w8,1b
12:
	mov	w8,#4
	b	4b
31:
	ldr	x8,[x19]
	ldr	x8,[x8]
	ldrb	w10,[x8,#116]
	cbz	w10,1b
	ldrb	w8,[x8,#117]
	cmp	w8,#0
	mov	w8,#16
	mov	w10,#8
	csel	x8,x10,x8,eq
	b	4b
32:
	ldr	x8,[x19]
	ldr	x8,[x8]
	ldrb	w8,[x8,#120]
	cbz	w8,1b
11:
	mov	w8,#2
	b	4b
33:
	ldrh	w8,[x19,#38]
	b	4b
34:
	ldr	x8,[x19]
	ldr	x8,[x8]
	ldrb	w10,[x8,#125]
	cbz	w10,35f
	ldr	w10,[x8,#32]
	cmp	w10,#0
	cset	w10,ne
35:
	ldrb	w11,[x8,#126]
	cbz	w11,1b
	ldr	w8,[x8,#48]
	cmp	w8,#0
	csel	w8,wzr,w10,eq
	tbz	w8,#0,1b
8:
	mov	w8,#3
	b	4b
35:
	ldr	x8,[x19]
	ldr	x8,[x8]
	ldrb	w10,[x8,#130]
	cbz	w10,1b
	ldrb	w10,[x8,#106]
	cbz	w10,10f
	ldrb	w10,[x8,#107]
	cbz	w10,3b
	ldrb	w10,[x8,#108]
	cbz	w10,11b
	ldrb	w10,[x8,#109]
	cbz	w10,8b
	ldrb	w10,[x8,#110]
	cbz	w10,12b
	ldrb	w10,[x8,#111]
	cbz	w10,13f
	ldrb	w10,[x8,#112]
	cbz	w10,14f
	ldrb	w10,[x8,#113]
	cbz	w10,15f
	ldrb	w8,[x8,#114]
28:
	cmp	w8,#0
	mov	w8,#8
	cinc	x8,x8,ne
	b	4b
3:
	ldr	x8,[x19]
	ldr	x8,[x8]
	ldrb	w8,[x8,#127]
	cbz	w8,1b
21:
	mov	w8,#13
	b	4b
10:
	mov	x8,#0
	b	4b
25:
	cmp	w10,#180
	b.eq	4b
	cmp	w10,#270
	b.eq	4b
	b	1b
13:
	mov	w8,#5
	b	4b
14:
	mov	w8,#6
	b	4b
15:
	mov	w8,#7
	b	4b
16:
	mov	w8,#8
	b	4b
17:
	mov	w8,#9
	b	4b
18:
	mov	w8,#10
	b	4b
19:
	mov	w8,#11
	b	4b
20:
	mov	w8,#12
	b	4b
22:
	mov	w8,#14
	b	4b
23:
	mov	w8,#15
	b	4b
6:
	mov	x0,x21
	ldp	x29,x30,[sp,#32]
	ldp	x20,x19,[sp,#16]
	ldp	x22,x21,[sp],#48
	ret
	.loh AdrpAdd	Lrtp_92408dd3_loh58,Lrtp_92408dd3_loh59
	.cfi_endproc
	.section	__TEXT,__const
5:
	.byte	(7b-2b)>>2
	.byte	(31b-2b)>>2
	.byte	(29b-2b)>>2
	.byte	(30b-2b)>>2
	.byte	(24b-2b)>>2
	.byte	(32b-2b)>>2
	.byte	(34b-2b)>>2
	.byte	(2b-2b)>>2
	.byte	(3b-2b)>>2
	.byte	(27b-2b)>>2
	.byte	(35b-2b)>>2
	.byte	(9b-2b)>>2
	.byte	(26b-2b)>>2
	.byte	(1b-2b)>>2
	.byte	(33b-2b)>>2

	.section	__TEXT,__text,regular,pure_instructions
	.p2align	2
_rtp_92408dd3_rtp_ext.block_elements.most_in_two_byte_form.d4d397b1ff315637:
	.cfi_startproc
	stp	x20,x19,[sp,#-32]!
	stp	x29,x30,[sp,#16]
	.cfi_def_cfa_offset 32
	.cfi_offset w30,-8
	.cfi_offset w29,-16
	.cfi_offset w19,-24
	.cfi_offset w20,-32
	mov	x19,#0
	ldp	x20,x9,[x0]
	ldr	x8,[x0,#16]
	b	1f
2:
	and	x10,x10,#0xff
Lrtp_92408dd3_loh60:
	adrp	x11,lrtp_92408dd3__switch.table.rtp_92408dd3_rtp_ext.block_elements.most_in_two_byte_form.d4d397b1ff315637@PAGE
Lrtp_92408dd3_loh61:
	add	x11,x11,lrtp_92408dd3__switch.table.rtp_92408dd3_rtp_ext.block_elements.most_in_two_byte_form.d4d397b1ff315637@PAGEOFF
	ldr	x10,[x11,x10,lsl #3]
	add	x19,x10,x19
1:
	mov	x1,x9
1:
	cmp	x1,x8
	b.hs	3f
	add	x9,x1,#1
	add	x10,x20,x1
	ldrb	w10,[x10,#1]
	sub	w10,w10,#1
	mov	x1,x9
	cmp	w10,#15
	b.hs	1b
	b	2b
3:
	cmp	x8,#15
	b.lo	2f
	cmp	x1,#254
	b.hi	2f
	mov	x0,x20
	bl	_rtp_92408dd3_rtp_c.kinds.StoredMap.past_unmapped
	mov	x1,x0
	add	x8,x0,#16
	mov	w9,#255
	cmp	x8,#255
	csel	x8,x8,x9,lo
	b	1b
2:
	mov	x0,x19
	ldp	x29,x30,[sp,#16]
	ldp	x20,x19,[sp],#32
	ret
	.loh AdrpAdd	Lrtp_92408dd3_loh60,Lrtp_92408dd3_loh61
	.cfi_endproc

	.p2align	2
_rtp_92408dd3_rtp_ext.block_elements.write_values.defbc6cea7b2a850:
	.cfi_startproc
	str	x27,[sp,#-96]!
	stp	x26,x25,[sp,#16]
	stp	x24,x23,[sp,#32]
	stp	x22,x21,[sp,#48]
	stp	x20,x19,[sp,#64]
	stp	x29,x30,[sp,#80]
	.cfi_def_cfa_offset 96
	.cfi_offset w30,-8
	.cfi_offset w29,-16
	.cfi_offset w19,-24
	.cfi_offset w20,-32
	.cfi_offset w21,-40
	.cfi_offset w22,-48
	.cfi_offset w23,-56
	.cfi_offset w24,-64
	.cfi_offset w25,-72
	.cfi_offset w26,-80
	.cfi_offset w27,-96
	str	w3,[sp,#12]
	tst	w3,#0xff
	mov	w8,#1
	cinc	x26,x8,ne
	cmp	x5,x26
	b.hs	1f
	mov	x24,#0
2:
	mov	x0,x24
	ldp	x29,x30,[sp,#80]
	ldp	x20,x19,[sp,#64]
	ldp	x22,x21,[sp,#48]
	ldp	x24,x23,[sp,#32]
	ldp	x26,x25,[sp,#16]
	ldr	x27,[sp],#96
	ret
1:
	mov	x19,x5
	mov	x20,x4
	mov	x22,x2
	mov	x25,x1
	mov	x23,x0
	mov	x24,#0
	mov	x21,#0
	mov	x27,x26
	b	1f
3:
	ubfx	w8,w21,#4,#4
	orr	w8,w8,w21,lsl #4
	add	w8,w8,w1
	sub	w8,w8,#1
	strb	w8,[x20,x24]
4:
	add	x24,x1,x27
5:
	add	x27,x24,x26
	cmp	x19,x27
	b.lo	2b
1:
	mov	x1,x21
1:
	cmp	x1,x25
	b.hs	6f
	add	x21,x1,#1
	add	x8,x23,x1
	ldrb	w8,[x8,#1]
	sub	w8,w8,#1
	mov	x1,x21
	cmp	w8,#14
	b.hi	1b
	b	7f
6:
	cmp	x25,#15
	b.lo	2b
	cmp	x1,#254
	b.hi	2b
	mov	x0,x23
	bl	_rtp_92408dd3_rtp_c.kinds.StoredMap.past_unmapped
	mov	x1,x0
	add	x8,x0,#16
	mov	w9,#255
	cmp	x8,#255
	csel	x25,x8,x9,lo
	b	1b
7:
Lrtp_92408dd3_loh62:
	adrp	x9,1f@PAGE
Lrtp_92408dd3_loh63:
	add	x9,x9,1f@PAGEOFF
	adr	x10,5b
	ldrb	w11,[x9,x8]
	add	x10,x10,x11,lsl #2
	br	x10
2:
	ldr	x8,[x22]
	ldr	x8,[x8]
	ldrb	w9,[x8,#115]
	cbz	w9,6f
	add	x9,x20,x27
	ldr	x8,[x8]
	mov	x10,#13531
	movk	x10,#55222,lsl #16
	movk	x10,#56962,lsl #32
	movk	x10,#17179,lsl #48
	umulh	x10,x8,x10
	lsr	x10,x10,#24
	mov	w11,#36864
	movk	w11,#976,lsl #16
	msub	x8,x10,x11,x8
	lsl	x8,x8,#18
	mov	x10,#46574
	movk	x10,#63392,lsl #16
	movk	x10,#4294,lsl #32
	umulh	x8,x8,x10
	rev	w8,w8
	lsr	w10,w8,#8
	lsr	w8,w8,#24
	strb	w8,[x9,#2]
	strh	w10,[x9]
	mov	w0,#1
	mov	w1,#3
	b	7f
8:
	ldr	x3,[x22,#24]
	cbz	x3,9f
	ldp	x1,x2,[x22,#8]
	add	x0,x20,x27
	add	x4,x22,#32
	bl	_rtp_92408dd3_rtp_vla.writing.put_streams.0e5569fdf2589307
	mov	x1,x0
	b	10f
11:
	ldr	x8,[x22]
	ldr	x1,[x8]
	ldrb	w8,[x1,#130]
	cbz	w8,5b
	add	x0,x20,x27
	bl	_rtp_92408dd3_rtp_values.value.stream_id.write_repaired.7ba4d078ccf006bf
	b	7f
12:
	ldr	x8,[x22]
	ldr	x8,[x8]
	ldrb	w9,[x8,#118]
	cbz	w9,6f
	ldr	w8,[x8,#56]
	b	13f
14:
	ldr	x8,[x22]
	ldr	x1,[x8]
	add	x0,x20,x27
	bl	_rtp_92408dd3_rtp_values.value.mid.write.7ba4d078ccf006bf
	b	7f
15:
	ldr	x8,[x22]
	ldr	x1,[x8]
	add	x0,x20,x27
	bl	_rtp_92408dd3_rtp_values.value.video_timing.write.7ba4d078ccf006bf
	b	7f
16:
	ldr	x8,[x22]
	ldr	x1,[x8]
	add	x0,x20,x27
	bl	_rtp_92408dd3_rtp_values.value.abs_capture_time.write.7ba4d078ccf006bf
	b	7f
17:
	ldr	x8,[x22]
	ldr	x8,[x8]
	ldrb	w9,[x8,#123]
	cbz	w9,6f
	ldrb	w9,[x8,#124]
	cbz	w9,6f
	ldrb	w9,[x8,#78]
	ldrb	w8,[x8,#79]
	sxtb	w9,w9
	cmp	w9,#0
	cneg	w9,w9,mi
	mov	w10,#-128
	cmp	w8,#0
	csel	w8,wzr,w10,eq
	bfxil	w8,w9,#0,#7
	strb	w8,[x20,x27]
	b	18f
19:
	ldr	x8,[x22]
	ldr	x1,[x8]
	add	x0,x20,x27
	bl	_rtp_92408dd3_rtp_values.value.playout_delay.write.7ba4d078ccf006bf
	b	7f
20:
	ldr	x8,[x22]
	ldr	x8,[x8]
	ldrb	w9,[x8,#121]
	cbz	w9,6f
	mov	w0,#0
	mov	x1,#0
	ldrh	w8,[x8,#66]
	cmp	w8,#179
	b.gt	21f
	cbz	w8,22f
	cmp	w8,#90
	b.ne	7f
	mov	w0,#3
	b	22f
23:
	ldr	x8,[x22]
	ldr	x8,[x8]
	ldrb	w9,[x8,#119]
	cbz	w9,6f
	ldr	w8,[x8,#60]
13:
	rev	w8,w8
	str	w8,[x20,x27]
	mov	w0,#1
	mov	w1,#4
	b	7f
13:
	ldr	x8,[x22]
	ldr	x8,[x8]
	ldrb	w9,[x8,#120]
	cbz	w9,6f
	ldrh	w8,[x8,#64]
	rev	w8,w8
	lsr	w8,w8,#16
	strh	w8,[x20,x27]
	mov	w0,#1
	mov	w1,#2
	b	7f
24:
	ldr	x8,[x22]
	ldr	x1,[x8]
	ldrb	w8,[x1,#129]
	cbz	w8,5b
	add	x0,x20,x27
	bl	_rtp_92408dd3_rtp_values.value.stream_id.write.7ba4d078ccf006bf
	b	7f
25:
	ldr	x8,[x22]
	ldr	x8,[x8]
	ldrb	w9,[x8,#122]
	cbz	w9,6f
	ldrb	w8,[x8,#77]
	strb	w8,[x20,x27]
	b	18f
6:
	mov	x1,#0
	mov	w0,#0
	b	7f
9:
	strb	wzr,[x20,x27]
	mov	w1,#1
	b	10f
21:
	cmp	w8,#180
	b.eq	6f
	cmp	w8,#270
	b.ne	7f
	mov	w0,#1
	b	22f
6:
	mov	w0,#2
22:
	strb	w0,[x20,x27]
18:
	mov	w1,#1
	mov	w0,#1
7:
	and	w8,w0,#0xff
	cmp	w8,#1
	b.ne	5b
10:
	ldr	w8,[sp,#12]
	tst	w8,#0xff
	b.eq	3b
	add	x8,x20,x24
	strb	w21,[x8]
	strb	w1,[x8,#1]
	b	4b
	.loh AdrpAdd	Lrtp_92408dd3_loh62,Lrtp_92408dd3_loh63
	.cfi_endproc
	.section	__TEXT,__const
1:
	.byte	(2b-5b)>>2
	.byte	(16b-5b)>>2
	.byte	(17b-5b)>>2
	.byte	(12b-5b)>>2
	.byte	(20b-5b)>>2
	.byte	(13b-5b)>>2
	.byte	(19b-5b)>>2
	.byte	(25b-5b)>>2
	.byte	(15b-5b)>>2
	.byte	(24b-5b)>>2
	.byte	(11b-5b)>>2
	.byte	(14b-5b)>>2
	.byte	(23b-5b)>>2
	.byte	(5b-5b)>>2
	.byte	(8b-5b)>>2

	.section	__TEXT,__text,regular,pure_instructions
	.p2align	2
_rtp_92408dd3_rtp_vla.writing.put_streams.0e5569fdf2589307:
	.cfi_startproc
	lsl	w8,w1,#6
	add	w8,w8,w3,lsl #4
	ldrb	w9,[x4,#4]
	add	w8,w8,w9
	sub	w8,w8,#16
	strb	w8,[x0]
	ldrb	w8,[x4,#4]
	cbz	w8,1f
	ldrb	w8,[x4,#5]
	add	x8,x8,#3
	lsr	x10,x8,#2
	add	x8,x10,#1
	mov	w9,#1
	cbnz	x3,2f
	mov	w11,#0
	mov	x12,x9
	cmp	x10,#1
	b.le	3f
4:
	cmp	x10,#2
	b.eq	5f
	cmp	x10,#3
	b.ne	6f
	lsr	w10,w11,#8
	add	x9,x0,x9
	strb	w11,[x9]
	lsr	w11,w11,#16
	strb	w10,[x9,#1]
	strb	w11,[x9,#2]
	ldrh	w9,[x4,#6]
	cmp	x8,x9
	csinc	w9,w12,wzr,ne
	tbnz	w9,#0,7f
	b	8f
1:
	cmp	x3,#1
	b.eq	1f
	cbnz	x3,9f
	mov	w11,#0
	ldrb	w8,[x4,#5]
	add	x8,x8,#3
	lsr	x10,x8,#2
	add	x8,x10,#1
	mov	w12,#1
	mov	w9,#1
	cmp	x10,#1
	b.le	3f
	b	4b
5:
	strh	w11,[x0,x9]
	ldrh	w9,[x4,#6]
	cmp	x8,x9
	csinc	w9,w12,wzr,ne
	tbnz	w9,#0,7f
	b	8f
1:
	ldrb	w8,[x4]
	lsl	w8,w8,#4
	b	1f
9:
	cmp	x3,#2
	b.hi	5f
	ldrb	w8,[x4]
	ldrb	w9,[x4,#1]
	add	w8,w9,w8,lsl #4
1:
	strb	w8,[x0,#1]
	mov	w9,#2
	b	1f
5:
	cmp	x3,#3
	b.ne	5f
	ldrb	w8,[x4]
	ldrb	w9,[x4,#1]
	add	w8,w9,w8,lsl #4
	ldrb	w9,[x4,#2]
	and	w8,w8,#0xff
	orr	w8,w8,w9,lsl #12
	orr	w8,w8,#0xf00
	b	9f
5:
	ldrb	w8,[x4]
	ldrb	w9,[x4,#1]
	add	w8,w9,w8,lsl #4
	ldrb	w9,[x4,#2]
	ldrb	w10,[x4,#3]
	add	w9,w10,w9,lsl #4
	bfi	w8,w9,#8,#24
9:
	sturh	w8,[x0,#1]
	mov	w9,#3
1:
	ldrb	w8,[x4,#5]
	add	x8,x8,#3
	lsr	x10,x8,#2
	add	x8,x10,x9
2:
	mov	w11,#0
	mov	x12,#0
	mov	w13,#1073741824
	b	1f
2:
	add	x12,x12,#1
	cmp	x12,x3
	b.eq	5f
1:
	mov	w14,#168
	madd	x14,x12,x14,x2
	ldrb	w15,[x14,#160]
	mov	w16,#4
	cmp	w15,#4
	csel	w15,w15,w16,lo
1:
	neg	x15,x15
	mov	x16,x14
9:
	add	x15,x15,#1
	cmp	x15,#1
	b.eq	2b
	add	x14,x16,#40
	ldrb	w17,[x16,#38]
	mov	x16,x14
	cbz	w17,9b
	mov	w16,#4
	cmp	w17,#4
	csel	w16,w17,w16,lo
	ldur	x1,[x14,#-40]
	cmp	x1,#127
	b.hi	2f
	strb	w1,[x0,x8]
	add	x8,x8,#1
	cmp	w17,#1
	b.eq	9f
	b	10f
2:
	cmp	x1,#4,lsl #12
	b.hs	2f
	and	w5,w1,#0x3f80
	add	w1,w5,w1
	add	w1,w1,#128
	strh	w1,[x0,x8]
	add	x8,x8,#2
	cmp	w17,#1
	b.ne	10f
	b	9f
2:
	orr	w5,w1,#0x80
	strb	w5,[x0,x8]
	lsr	x5,x1,#7
	add	x8,x8,#1
	lsr	x6,x1,#14
	mov	x1,x5
	cbnz	x6,2b
	strb	w5,[x0,x8]
	add	x8,x8,#1
	cmp	w17,#1
	b.eq	9f
10:
	ldur	x1,[x14,#-32]
	cmp	x1,#128
	b.hs	2f
	strb	w1,[x0,x8]
	add	x8,x8,#1
	cmp	w17,#2
	b.eq	9f
	b	10f
2:
	cmp	x1,#4,lsl #12
	b.hs	2f
	and	w5,w1,#0x3f80
	add	w1,w5,w1
	add	w1,w1,#128
	strh	w1,[x0,x8]
	add	x8,x8,#2
	cmp	w17,#2
	b.ne	10f
	b	9f
2:
	orr	w5,w1,#0x80
	strb	w5,[x0,x8]
	lsr	x5,x1,#7
	add	x8,x8,#1
	lsr	x6,x1,#14
	mov	x1,x5
	cbnz	x6,2b
	strb	w5,[x0,x8]
	add	x8,x8,#1
	cmp	w17,#2
	b.eq	9f
10:
	ldur	x1,[x14,#-24]
	cmp	x1,#128
	b.hs	2f
	strb	w1,[x0,x8]
	add	x8,x8,#1
	cmp	w17,#3
	b.eq	9f
	b	10f
2:
	cmp	x1,#4,lsl #12
	b.hs	2f
	and	w5,w1,#0x3f80
	add	w1,w5,w1
	add	w1,w1,#128
	strh	w1,[x0,x8]
	add	x8,x8,#2
	cmp	w17,#3
	b.ne	10f
	b	9f
2:
	orr	w5,w1,#0x80
	strb	w5,[x0,x8]
	lsr	x5,x1,#7
	add	x8,x8,#1
	lsr	x6,x1,#14
	mov	x1,x5
	cbnz	x6,2b
	strb	w5,[x0,x8]
	add	x8,x8,#1
	cmp	w17,#3
	b.eq	9f
10:
	ldur	x17,[x14,#-16]
	cmp	x17,#128
	b.hs	2f
	strb	w17,[x0,x8]
	b	10f
2:
	cmp	x17,#4,lsl #12
	b.hs	2f
	and	w1,w17,#0x3f80
	add	w17,w1,w17
	add	w17,w17,#128
	strh	w17,[x0,x8]
	add	x8,x8,#2
	b	9f
2:
	orr	w1,w17,#0x80
	strb	w1,[x0,x8]
	lsr	x1,x17,#7
	add	x8,x8,#1
	lsr	x5,x17,#14
	mov	x17,x1
	cbnz	x5,2b
	strb	w1,[x0,x8]
10:
	add	x8,x8,#1
9:
	neg	x15,x15
	sub	w16,w16,#1
	madd	w11,w16,w13,w11
	lsr	w13,w13,#2
	b	1b
5:
	mov	w12,#0
	rev	w11,w11
	cmp	x10,#1
	b.gt	4b
3:
	cbz	x10,1f
	cmp	x10,#1
	b.ne	6f
	strb	w11,[x0,x9]
1:
	ldrh	w9,[x4,#6]
	cmp	x8,x9
	csinc	w9,w12,wzr,ne
	tbz	w9,#0,8f
7:
	mov	x0,x8
	ret
6:
	str	w11,[x0,x9]
	ldrh	w9,[x4,#6]
	cmp	x8,x9
	csinc	w9,w12,wzr,ne
	tbnz	w9,#0,7b
8:
	mov	x9,#0
	b	1f
2:
	add	x9,x9,#1
	cmp	x9,x3
	b.eq	7b
1:
	mov	w10,#168
	madd	x11,x9,x10,x2
	ldrb	w10,[x11,#160]
	cbz	w10,2b
	mov	w12,#4
	cmp	w10,#4
	csel	w12,w10,w12,lo
1:
	mov	w10,#1
	sub	x10,x10,x12
	add	x11,x11,#32
	b	3f
4:
	cbnz	w12,5f
6:
	add	x10,x10,#1
	add	x11,x11,#40
	cmp	x10,#1
	b.eq	2b
3:
	ldrb	w12,[x11,#6]
	ldrb	w13,[x11,#5]
	cbz	w13,4b
	cbz	w12,6b
	ldrh	w12,[x11]
	ldrh	w13,[x11,#2]
	ldrb	w14,[x11,#4]
	sub	w12,w12,#1
	rev	w12,w12
	lsr	w15,w12,#16
	lsr	w12,w12,#24
	sub	w13,w13,#1
	rev	w13,w13
	add	x16,x0,x8
	strb	w15,[x16]
	lsr	w15,w13,#16
	lsr	w13,w13,#24
	strb	w12,[x16,#1]
	strb	w15,[x16,#2]
	strb	w13,[x16,#3]
	strb	w14,[x16,#4]
	add	x8,x8,#5
5:
	neg	x12,x10
	add	x11,x11,#8
	cbnz	x10,1b
	b	2b
	.cfi_endproc

	.p2align	2
_rtp_92408dd3_rtp_c.writing.write_header_with:
	.cfi_startproc
	ldrsb	w9,[x0,#78]
	tbnz	w9,#31,1f
	ldrb	w10,[x0,#79]
	cmp	w10,#15
	b.ls	2f
1:
	mov	w0,#9
	ret
2:
	sub	sp,sp,#112
	stp	x22,x21,[sp,#64]
	stp	x20,x19,[sp,#80]
	stp	x29,x30,[sp,#96]
	.cfi_def_cfa_offset 112
	.cfi_offset w30,-8
	.cfi_offset w29,-16
	.cfi_offset w19,-24
	.cfi_offset w20,-32
	.cfi_offset w21,-40
	.cfi_offset w22,-48
	ldp	x8,x20,[sp,#112]
	add	x11,x4,#1
	mov	x12,x3
1:
	subs	x11,x11,#1
	b.eq	2f
	ldr	x13,[x12]
	subs	x13,x2,x13
	b.lo	3f
	ldr	x14,[x12,#8]
	add	x12,x12,#32
	cmp	x14,x13
	b.ls	1b
3:
	mov	w0,#9
	ldp	x29,x30,[sp,#96]
	ldp	x20,x19,[sp,#80]
	ldp	x22,x21,[sp,#64]
	add	sp,sp,#112
	ret
2:
	lsl	x11,x10,#2
	add	x11,x11,#12
	subs	x8,x8,x11
	csel	x8,xzr,x8,lo
	lsr	x8,x8,#2
	cbz	x8,1f
	ldrb	w12,[x0,#81]
	ldrb	w11,[x0,#80]
	sub	x8,x8,#1
	mov	w13,#65535
	cmp	x8,x13
	csel	x8,x8,x13,lo
	lsl	x14,x8,#2
	and	w15,w5,#0xff
	cmp	w15,#1
	csel	w8,w6,wzr,eq
	cset	w13,eq
	cbz	x4,2f
	cmp	w15,#1
	b.ne	4f
	tst	w6,#0xff
	b.ne	4f
	add	x15,x3,#24
	mov	x16,x4
5:
	ldur	x17,[x15,#-16]
	ldrb	w19,[x15],#32
	sub	w19,w19,#1
	sub	x21,x17,#1
	cmp	x21,#15
	ccmp	w19,#13,#2,ls
	ccmp	x14,x17,#0,ls
	b.ls	1f
	add	x17,x17,#1
	subs	x14,x14,x17
	csel	x14,xzr,x14,lo
	subs	x16,x16,#1
	b.ne	5b
2:
	mov	x19,x8
	b	2f
4:
	add	x15,x3,#24
	mov	x16,x4
	mov	x19,x8
4:
	ldur	x17,[x15,#-16]
	ldrb	w21,[x15],#32
	cmp	x17,#255
	ccmp	w21,#0,#4,ls
	ccmp	x14,x17,#0,ne
	b.ls	1f
	add	x22,x17,#1
	subs	x14,x14,x22
	csel	x14,xzr,x14,lo
	sub	x17,x17,#1
	cmp	w21,#15
	ccmp	x17,#16,#2,lo
	csinc	w19,w19,wzr,lo
	subs	x16,x16,#1
	b.ne	4b
2:
	and	w15,w19,#0xff
	cmp	w15,#0
	ccmp	x4,x14,#0,ne
	b.hi	2f
	ldrh	w8,[x0,#76]
	mov	w13,#176
	mov	w14,#144
	cmp	w12,#0
	csel	w12,w14,w13,eq
	orr	w10,w12,w10
	mov	w12,#-128
	cmp	w11,#0
	csel	w11,wzr,w12,eq
	orr	w9,w11,w9
	rev	w8,w8
	lsr	w8,w8,#16
	ldr	d0,[x0,#8]
	rev32.8b	v0,v0
	strb	w10,[x7]
	strb	w9,[x7,#1]
	strh	w8,[x7,#2]
	stur	d0,[x7,#4]
	ldrb	w8,[x0,#79]
	cbz	w8,4f
	ldp	q0,q1,[x0,#16]
	stp	q0,q1,[sp]
	ldr	q0,[x0,#48]
	str	q0,[sp,#32]
	ldur	q0,[x0,#60]
	stur	q0,[sp,#44]
	cmp	w8,#16
	b.hs	5f
	mov	x9,#0
	mov	w21,#12
	b	6f
1:
	and	w8,w5,#0xff
	cmp	w8,#1
	csel	w8,w6,wzr,eq
	cset	w13,eq
	cbz	x4,1f
2:
	cbz	w13,2f
	tst	w6,#0xff
	b.ne	2f
	add	x10,x3,#24
	mov	w9,#262140
	mov	x11,x4
7:
	ldur	x12,[x10,#-16]
	ldrb	w13,[x10],#32
	sub	w13,w13,#1
	sub	x14,x12,#1
	cmp	x14,#15
	ccmp	w13,#13,#2,ls
	ccmp	x9,x12,#0,ls
	b.ls	3b
	add	x12,x12,#1
	subs	x9,x9,x12
	csel	x9,xzr,x9,lo
	subs	x11,x11,#1
	b.ne	7b
	b	7f
2:
	add	x10,x3,#24
	mov	w9,#262140
	mov	x11,x4
2:
	ldur	x12,[x10,#-16]
	ldrb	w13,[x10],#32
	cmp	x12,#255
	ccmp	w13,#0,#4,ls
	ccmp	x9,x12,#0,ne
	b.ls	3b
	add	x14,x12,#1
	subs	x9,x9,x14
	csel	x9,xzr,x9,lo
	sub	x12,x12,#1
	cmp	w13,#15
	ccmp	x12,#16,#2,lo
	csinc	w8,w8,wzr,lo
	subs	x11,x11,#1
	b.ne	2b
7:
	and	w8,w8,#0xff
	cmp	x4,x9
	ccmp	w8,#0,#4,hi
	b.ne	3b
1:
	mov	w0,#8
	ldp	x29,x30,[sp,#96]
	ldp	x20,x19,[sp,#80]
	ldp	x22,x21,[sp,#64]
	add	sp,sp,#112
	ret
4:
	mov	w21,#12
	b	1f
5:
	and	x9,x8,#0xf0
	lsr	x10,x9,#4
	mov	w21,#12
	bfi	x21,x10,#6,#4
	mov	x10,sp
	add	x10,x10,#32
	add	x11,x7,#44
	and	x12,x8,#0xf0
2:
	ldp	q0,q1,[x10,#-32]
	rev32.16b	v0,v0
	rev32.16b	v1,v1
	ldp	q2,q3,[x10],#64
	rev32.16b	v2,v2
	rev32.16b	v3,v3
	stp	q0,q1,[x11,#-32]
	stp	q2,q3,[x11],#64
	subs	x12,x12,#16
	b.ne	2b
	cmp	x9,x8
	b.eq	1f
6:
	sub	x8,x8,x9
	mov	x10,sp
	add	x9,x10,x9,lsl #2
2:
	ldr	w10,[x9],#4
	rev	w10,w10
	str	w10,[x7,x21]
	add	x21,x21,#4
	subs	x8,x8,#1
	b.ne	2b
1:
	add	x22,x7,x21
	stp	x1,x2,[sp]
	stp	x3,x4,[sp,#16]
	add	x0,x22,#4
	mov	x2,sp
	mov	x1,x19
	bl	_rtp_92408dd3_rtp_ext.raw_writing.put_elements.d57726891005992a
	add	x9,x0,#3
	and	x10,x9,#0xfffffffffffffffc
	add	x8,x0,#4
	subs	x10,x10,x0
	b.eq	1f
	cmp	x10,#2
	b.eq	2f
	cmp	x10,#1
	b.ne	3f
	strb	wzr,[x22,x8]
	add	x8,x0,#5
	b	1f
2:
	strh	wzr,[x22,x8]
	add	x8,x0,#6
	b	1f
3:
	add	x8,x22,x8
	strb	wzr,[x8,#2]
	strh	wzr,[x8]
	add	x8,x0,#7
1:
	mov	w0,#0
	lsr	w10,w9,#2
	lsr	w9,w9,#10
	tst	w19,#0xff
	mov	w11,#16
	mov	w12,#57022
	csel	w11,w12,w11,eq
	bfi	w11,w9,#16,#8
	bfi	w11,w10,#24,#8
	str	w11,[x22]
	add	x8,x8,x21
	str	x8,[x20]
	ldp	x29,x30,[sp,#96]
	ldp	x20,x19,[sp,#80]
	ldp	x22,x21,[sp,#64]
	add	sp,sp,#112
	ret
	.cfi_endproc

	.p2align	2
_rtp_92408dd3_rtp_c.routed_headers.write_again:
	.cfi_startproc
	sub	sp,sp,#128
	str	x27,[sp,#32]
	stp	x26,x25,[sp,#48]
	stp	x24,x23,[sp,#64]
	stp	x22,x21,[sp,#80]
	stp	x20,x19,[sp,#96]
	stp	x29,x30,[sp,#112]
	.cfi_def_cfa_offset 128
	.cfi_offset w30,-8
	.cfi_offset w29,-16
	.cfi_offset w19,-24
	.cfi_offset w20,-32
	.cfi_offset w21,-40
	.cfi_offset w22,-48
	.cfi_offset w23,-56
	.cfi_offset w24,-64
	.cfi_offset w25,-72
	.cfi_offset w26,-80
	.cfi_offset w27,-96
	mov	x20,x1
	add	x19,x1,#2
	sub	x8,x7,x5
	cmp	x8,x19
	b.hs	1f
	mov	x19,#0
	mov	w0,#0
	b	2f
1:
	mov	x21,x3
	mov	x1,x0
	ldrb	w0,[x4,#32]
	ldrb	w17,[x4,#27]
	ldrb	w26,[x4,#31]
	ldrb	w8,[x4,#26]
	str	w8,[sp,#28]
	ldrb	w15,[x4,#30]
	ldrh	w14,[x4,#24]
	ldrb	w24,[x4,#28]
	ldrb	w23,[x4,#29]
	ldp	w25,w27,[x4,#16]
	add	x22,x6,x5
	sub	x8,x20,#49
	ldrh	w9,[x4,#36]
	cmn	x8,#34
	stp	w15,w9,[sp,#40]
	b.hi	1f
	str	w0,[sp,#4]
	mov	x0,x22
	stp	x20,x2,[sp,#8]
	mov	x2,x20
	mov	x19,x14
	mov	x20,x17
	bl	_rtp_92408dd3_rtp_route.copying.put_any
	ldr	w0,[sp,#4]
	mov	x17,x20
	ldp	x20,x2,[sp,#8]
	mov	x14,x19
	add	x19,x20,#2
	cbnz	w0,3f
	b	4f
1:
	ldr	q0,[x1]
	str	q0,[x22]
	cmp	x20,#33
	b.lo	1f
	ldr	q0,[x1,#16]
	str	q0,[x22,#16]
1:
	sub	x8,x20,#16
	ldr	q0,[x1,x8]
	str	q0,[x22,x8]
	cbz	w0,4f
3:
	mov	w8,#-128
	cmp	w17,#0
	csel	w8,wzr,w8,eq
	ldrb	w9,[x22,#1]
	bfxil	w8,w9,#0,#7
	strb	w8,[x22,#1]
4:
	ldr	w9,[sp,#40]
	cbz	w26,1f
	ldrb	w8,[x22,#1]
	and	w8,w8,#0x80
	ldr	w15,[sp,#28]
	add	w8,w8,w15
	strb	w8,[x22,#1]
1:
	cbz	w9,1f
	rev16	w8,w14
	strh	w8,[x22,#2]
1:
	cbz	w24,1f
	rev	w8,w25
	str	w8,[x22,#4]
1:
	cbz	w23,1f
	rev	w8,w27
	str	w8,[x22,#8]
1:
	ldrb	w25,[x2,#70]
	cbz	x25,1f
	add	x26,x2,#4
	add	x27,x2,#71
	b	3f
4:
	add	x0,x22,x8
	mov	x1,x21
	mov	x2,x23
	bl	_rtp_92408dd3_rtp_route.slots.copy_long
5:
	add	x21,x21,x23
	subs	x25,x25,#1
	b.eq	1f
3:
	ldr	w8,[x26],#4
	ldrb	w23,[x27],#1
	cbz	w23,4b
	cmp	w23,#1
	b.ne	3f
	ldrb	w9,[x21]
	strb	w9,[x22,x8]
	b	5b
3:
	cmp	w23,#2
	b.hi	3f
	ldrh	w9,[x21]
	strh	w9,[x22,x8]
	b	5b
3:
	cmp	w23,#3
	b.ne	3f
	add	x8,x22,x8
	ldrh	w9,[x21]
	strh	w9,[x8]
	ldrb	w9,[x21,#2]
	strb	w9,[x8,#2]
	b	5b
3:
	cmp	w23,#4
	b.hi	4b
	ldr	w9,[x21]
	str	w9,[x22,x8]
	b	5b
1:
	ldrb	w8,[x22]
	and	w8,w8,#0xffffffdf
	strb	w8,[x22]
	ldr	w8,[sp,#44]
	rev16	w8,w8
	strh	w8,[x22,x20]
	mov	w0,#1
2:
	mov	x1,x19
	ldp	x29,x30,[sp,#112]
	ldp	x20,x19,[sp,#96]
	ldp	x22,x21,[sp,#80]
	ldp	x24,x23,[sp,#64]
	ldp	x26,x25,[sp,#48]
	ldr	x27,[sp,#32]
	add	sp,sp,#128
	ret
	.cfi_endproc

	.p2align	2
_rtp_92408dd3_rtp_route.slots.copy_long:
	.cfi_startproc
	sub	x9,x0,x1
	cmp	x9,x2
	b.hs	1f
	mov	x8,#0
	cmp	x2,#8
	b.lo	2f
	cmp	x9,#64
	b.lo	2f
	cmp	x2,#64
	b.hs	3f
	mov	x8,#0
	b	4f
1:
	b	_memmove
3:
	and	x9,x2,#0x38
	and	x8,x2,#0xffffffffffffffc0
	add	x10,x0,#32
	add	x11,x1,#32
	and	x12,x2,#0xffffffffffffffc0
1:
	ldp	q0,q1,[x11,#-32]
	ldp	q2,q3,[x11],#64
	stp	q0,q1,[x10,#-32]
	stp	q2,q3,[x10],#64
	subs	x12,x12,#64
	b.ne	1b
	cmp	x2,x8
	b.eq	1f
	cbz	x9,2f
4:
	mov	x11,x8
	and	x8,x2,#0xfffffffffffffff8
	sub	x9,x11,x8
	add	x10,x1,x11
	add	x11,x0,x11
3:
	ldr	d0,[x10],#8
	str	d0,[x11],#8
	adds	x9,x9,#8
	b.ne	3b
	cmp	x2,x8
	b.eq	1f
2:
	sub	x9,x2,x8
	add	x10,x1,x8
	add	x8,x0,x8
2:
	ldrb	w11,[x10],#1
	strb	w11,[x8],#1
	subs	x9,x9,#1
	b.ne	2b
1:
	ret
	.cfi_endproc

	.p2align	2
_rtp_92408dd3_rtp_c.routed_headers.refuse:
	.cfi_startproc
	str	x1,[x0,#8]
	stp	w2,wzr,[x0,#40]
	mov	x0,x1
	ret
	.cfi_endproc

	.section	__TEXT,__literal16,16byte_literals
	.p2align	4,0x0
lrtp_92408dd3_CPI72_0:
	.byte	1
	.byte	2
	.byte	4
	.byte	8
	.byte	16
	.byte	32
	.byte	64
	.byte	128
	.byte	1
	.byte	2
	.byte	4
	.byte	8
	.byte	16
	.byte	32
	.byte	64
	.byte	128
	.section	__TEXT,__text,regular,pure_instructions
	.p2align	2
_rtp_92408dd3_rtp_c.writing_values.write_without_block:
	.cfi_startproc
	sub	sp,sp,#64
	.cfi_def_cfa_offset 64
	ldrb	w8,[x0,#209]
	cbz	w8,1f
	ldrh	w9,[x0,#154]
	mov	w8,#9
	cmp	w9,#179
	b.gt	2f
	cbz	w9,1f
	cmp	w9,#90
	b.eq	1f
	b	3f
2:
	cmp	w9,#270
	b.eq	1f
	cmp	w9,#180
	b.ne	3f
1:
	ldrb	w8,[x0,#213]
	cbz	w8,1f
	ldr	w8,[x0,#120]
	cbz	w8,2f
1:
	ldrb	w8,[x0,#214]
	cbz	w8,1f
	ldr	w8,[x0,#136]
	cbz	w8,2f
1:
	ldrb	w8,[x0,#211]
	cbz	w8,1f
	ldrb	w8,[x0,#166]
	add	w8,w8,#127
	tbnz	w8,#7,2f
1:
	ldrb	w8,[x0,#216]
	cbz	w8,1f
	mov	x8,x0
	ldr	q0,[x8,#168]!
	movi.16b	v1,#32
	orr.16b	v1,v0,v1
	movi.16b	v2,#133
	add.16b	v1,v1,v2
	movi.16b	v2,#230
	cmhi.16b	v1,v2,v1
	movi.16b	v2,#198
	add.16b	v2,v0,v2
	movi.16b	v3,#246
	cmhi.16b	v2,v3,v2
	and.16b	v1,v2,v1
	movi.16b	v2,#95
	cmeq.16b	v0,v0,v2
	bic.16b	v0,v1,v0
Lrtp_92408dd3_loh64:
	adrp	x9,lrtp_92408dd3_CPI72_0@PAGE
Lrtp_92408dd3_loh65:
	ldr	q1,[x9,lrtp_92408dd3_CPI72_0@PAGEOFF]
	and.16b	v0,v0,v1
	ext.16b	v1,v0,v0,#8
	zip1.16b	v0,v0,v1
	addv.8h	h0,v0
	fmov	w9,s0
	orr	w9,w9,#0x10000
	rbit	w9,w9
	clz	w9,w9
	ldrb	w8,[x8,w9,uxtw]
	cbnz	w8,2f
1:
	ldrb	w8,[x0,#217]
	cbz	w8,1f
	mov	x8,x0
	ldrb	w9,[x8,#185]!
	cbz	w9,4f
	ldrb	w9,[x0,#186]
	cbz	w9,5f
	ldrb	w9,[x0,#187]
	cbz	w9,6f
	ldrb	w9,[x0,#188]
	cbz	w9,7f
	ldrb	w9,[x0,#189]
	cbz	w9,8f
	ldrb	w9,[x0,#190]
	cbz	w9,9f
	ldrb	w9,[x0,#191]
	cbz	w9,10f
	ldrb	w9,[x0,#192]
	cbz	w9,11f
	ldrb	w9,[x0,#193]
	cbnz	w9,2f
	mov	w9,#8
	b	12f
3:
	mov	x0,x8
	add	sp,sp,#64
	ret
4:
	mov	x9,#0
	b	12f
5:
	mov	w9,#1
	b	12f
6:
	mov	w9,#2
	b	12f
7:
	mov	w9,#3
	b	12f
8:
	mov	w9,#4
	b	12f
9:
	mov	w9,#5
	b	12f
10:
	mov	w9,#6
	b	12f
11:
	mov	w9,#7
12:
	cbz	x9,1f
	ldrb	w10,[x8],#1
	sub	x9,x9,#1
	sub	w11,w10,#48
	and	w12,w10,#0xffffffdf
	sub	w12,w12,#65
	cmp	w10,#95
	ccmp	w11,#10,#0,ne
	ccmp	w12,#26,#0,hs
	b.lo	12b
	b	2f
1:
	ldrb	w8,[x0,#218]
	cbz	w8,1f
	mov	x8,x0
	ldrb	w9,[x8,#194]!
	cbz	w9,3f
	ldrb	w9,[x0,#195]
	cbz	w9,4f
	ldrb	w9,[x0,#196]
	cbz	w9,5f
	ldrb	w9,[x0,#197]
	cbz	w9,6f
	ldrb	w9,[x0,#198]
	cbz	w9,7f
	ldrb	w9,[x0,#199]
	cbz	w9,8f
	ldrb	w9,[x0,#200]
	cbz	w9,9f
	ldrb	w9,[x0,#201]
	cbz	w9,10f
	ldrb	w9,[x0,#202]
	cbnz	w9,2f
	mov	w9,#8
	b	11f
3:
	mov	x9,#0
	b	11f
4:
	mov	w9,#1
	b	11f
5:
	mov	w9,#2
	b	11f
6:
	mov	w9,#3
	b	11f
7:
	mov	w9,#4
	b	11f
8:
	mov	w9,#5
	b	11f
9:
	mov	w9,#6
	b	11f
10:
	mov	w9,#7
11:
	cbz	x9,1f
	ldrb	w10,[x8],#1
	sub	x9,x9,#1
	sub	w11,w10,#48
	and	w12,w10,#0xffffffdf
	sub	w12,w12,#65
	cmp	w10,#95
	ccmp	w11,#10,#0,ne
	ccmp	w12,#26,#0,hs
	b.lo	11b
	b	2f
1:
	ldrsb	w8,[x0,#78]
	tbnz	w8,#31,2f
	ldrb	w9,[x0,#79]
	cmp	w9,#15
	b.ls	1f
2:
	mov	w8,#9
	mov	x0,x8
	add	sp,sp,#64
	ret
1:
	lsl	x10,x9,#2
	add	x10,x10,#12
	cmp	x2,x10
	b.hs	1f
	mov	w8,#8
	mov	x0,x8
	add	sp,sp,#64
	ret
1:
	ldrb	w10,[x0,#80]
	ldrb	w11,[x0,#81]
	ldrh	w12,[x0,#76]
	mov	w13,#160
	mov	w14,#128
	cmp	w11,#0
	csel	w11,w14,w13,eq
	orr	w9,w11,w9
	mov	w11,#-128
	cmp	w10,#0
	csel	w10,wzr,w11,eq
	orr	w8,w10,w8
	rev	w10,w12
	lsr	w10,w10,#16
	ldr	d0,[x0,#8]
	rev32.8b	v0,v0
	strb	w9,[x1]
	strb	w8,[x1,#1]
	strh	w10,[x1,#2]
	stur	d0,[x1,#4]
	ldrb	w8,[x0,#79]
	cbz	w8,1f
	ldp	q0,q1,[x0,#16]
	stp	q0,q1,[sp]
	ldr	q0,[x0,#48]
	str	q0,[sp,#32]
	ldur	q0,[x0,#60]
	stur	q0,[sp,#44]
	cmp	w8,#16
	b.hs	2f
	mov	x10,#0
	mov	w9,#12
	b	3f
1:
	mov	w9,#12
	mov	w8,#0
	str	x9,[x3]
	mov	x0,x8
	add	sp,sp,#64
	ret
2:
	and	x10,x8,#0xf0
	lsr	x11,x10,#4
	mov	w9,#12
	bfi	x9,x11,#6,#4
	mov	x11,sp
	add	x11,x11,#32
	add	x12,x1,#44
	and	x13,x8,#0xf0
1:
	ldp	q0,q1,[x11,#-32]
	rev32.16b	v0,v0
	rev32.16b	v1,v1
	ldp	q2,q3,[x11],#64
	rev32.16b	v2,v2
	rev32.16b	v3,v3
	stp	q0,q1,[x12,#-32]
	stp	q2,q3,[x12],#64
	subs	x13,x13,#16
	b.ne	1b
	cmp	x10,x8
	b.eq	1f
3:
	sub	x8,x8,x10
	mov	x11,sp
	add	x10,x11,x10,lsl #2
2:
	ldr	w11,[x10],#4
	rev	w11,w11
	str	w11,[x1,x9]
	add	x9,x9,#4
	subs	x8,x8,#1
	b.ne	2b
1:
	mov	w8,#0
	str	x9,[x3]
	mov	x0,x8
	add	sp,sp,#64
	ret
	.loh AdrpLdr	Lrtp_92408dd3_loh64,Lrtp_92408dd3_loh65
	.cfi_endproc

	.p2align	2
_rtp_92408dd3_rtp_ext.block_elements.write_values.16f98aa29e959305:
	.cfi_startproc
	str	x27,[sp,#-96]!
	stp	x26,x25,[sp,#16]
	stp	x24,x23,[sp,#32]
	stp	x22,x21,[sp,#48]
	stp	x20,x19,[sp,#64]
	stp	x29,x30,[sp,#80]
	.cfi_def_cfa_offset 96
	.cfi_offset w30,-8
	.cfi_offset w29,-16
	.cfi_offset w19,-24
	.cfi_offset w20,-32
	.cfi_offset w21,-40
	.cfi_offset w22,-48
	.cfi_offset w23,-56
	.cfi_offset w24,-64
	.cfi_offset w25,-72
	.cfi_offset w26,-80
	.cfi_offset w27,-96
	str	w3,[sp,#12]
	tst	w3,#0xff
	mov	w8,#1
	cinc	x21,x8,ne
	cmp	x5,x21
	b.hs	1f
	mov	x24,#0
2:
	mov	x0,x24
	ldp	x29,x30,[sp,#80]
	ldp	x20,x19,[sp,#64]
	ldp	x22,x21,[sp,#48]
	ldp	x24,x23,[sp,#32]
	ldp	x26,x25,[sp,#16]
	ldr	x27,[sp],#96
	ret
1:
	mov	x19,x5
	mov	x20,x4
	mov	x22,x2
	mov	x25,x1
	mov	x23,x0
	mov	x24,#0
	mov	x27,#0
	mov	x26,x21
	b	1f
3:
	ubfx	w8,w27,#4,#4
	orr	w8,w8,w27,lsl #4
	add	w8,w8,w1
	sub	w8,w8,#1
	strb	w8,[x20,x24]
4:
	add	x24,x1,x26
5:
	add	x26,x24,x21
	cmp	x19,x26
	b.lo	2b
1:
	mov	x1,x27
1:
	cmp	x1,x25
	b.hs	6f
	add	x27,x1,#1
	add	x8,x23,x1
	ldrb	w8,[x8,#1]
	sub	w8,w8,#1
	mov	x1,x27
	cmp	w8,#14
	b.hi	1b
	b	7f
6:
	cmp	x25,#15
	b.lo	2b
	cmp	x1,#254
	b.hi	2b
	mov	x0,x23
	bl	_rtp_92408dd3_rtp_c.kinds.StoredMap.past_unmapped
	mov	x1,x0
	add	x8,x0,#16
	mov	w9,#255
	cmp	x8,#255
	csel	x25,x8,x9,lo
	b	1b
7:
Lrtp_92408dd3_loh66:
	adrp	x9,1f@PAGE
Lrtp_92408dd3_loh67:
	add	x9,x9,1f@PAGEOFF
	adr	x10,5b
	ldrb	w11,[x9,x8]
	add	x10,x10,x11,lsl #2
	br	x10
2:
	ldrb	w8,[x22,#115]
	cbz	w8,5b
	add	x8,x20,x26
	ldr	x9,[x22]
	mov	x10,#13531
	movk	x10,#55222,lsl #16
	movk	x10,#56962,lsl #32
	movk	x10,#17179,lsl #48
	umulh	x10,x9,x10
	lsr	x10,x10,#24
	mov	w11,#36864
	movk	w11,#976,lsl #16
	msub	x9,x10,x11,x9
	lsl	x9,x9,#18
	mov	x10,#46574
	movk	x10,#63392,lsl #16
	movk	x10,#4294,lsl #32
	umulh	x9,x9,x10
	rev	w9,w9
	lsr	w10,w9,#8
	lsr	w9,w9,#24
	strb	w9,[x8,#2]
	strh	w10,[x8]
	mov	w1,#3
	b	6f
7:
	ldrb	w8,[x22,#119]
	cbz	w8,5b
	ldr	w8,[x22,#60]
	b	8f
9:
	ldrb	w8,[x22,#121]
	cbz	w8,5b
	ldrh	w8,[x22,#66]
	cmp	w8,#179
	b.gt	10f
	cbz	w8,11f
	cmp	w8,#90
	b.ne	5b
	mov	w8,#3
	b	11f
12:
	ldrb	w8,[x22,#129]
	cbz	w8,5b
	add	x0,x20,x26
	mov	x1,x22
	bl	_rtp_92408dd3_rtp_values.value.stream_id.write.7ba4d078ccf006bf
	and	w8,w0,#0xff
	cmp	w8,#1
	b.ne	5b
	b	6f
13:
	ldrb	w8,[x22,#118]
	cbz	w8,5b
	ldr	w8,[x22,#56]
8:
	rev	w8,w8
	str	w8,[x20,x26]
	mov	w1,#4
	b	6f
8:
	ldrb	w8,[x22,#130]
	cbz	w8,5b
	add	x0,x20,x26
	mov	x1,x22
	bl	_rtp_92408dd3_rtp_values.value.stream_id.write_repaired.7ba4d078ccf006bf
	and	w8,w0,#0xff
	cmp	w8,#1
	b.ne	5b
	b	6f
14:
	ldrb	w8,[x22,#122]
	cbz	w8,5b
	ldrb	w8,[x22,#77]
11:
	strb	w8,[x20,x26]
	mov	w1,#1
	b	6f
15:
	add	x0,x20,x26
	mov	x1,x22
	bl	_rtp_92408dd3_rtp_values.value.abs_capture_time.write.7ba4d078ccf006bf
	and	w8,w0,#0xff
	cmp	w8,#1
	b.ne	5b
	b	6f
16:
	ldrb	w8,[x22,#123]
	cbz	w8,5b
	ldrb	w8,[x22,#124]
	cbz	w8,5b
	ldrb	w8,[x22,#78]
	ldrb	w9,[x22,#79]
	sxtb	w8,w8
	cmp	w8,#0
	cneg	w8,w8,mi
	mov	w10,#-128
	cmp	w9,#0
	csel	w9,wzr,w10,eq
	bfxil	w9,w8,#0,#7
	strb	w9,[x20,x26]
	mov	w1,#1
	b	6f
17:
	ldrb	w8,[x22,#120]
	cbz	w8,5b
	ldrh	w8,[x22,#64]
	rev	w8,w8
	lsr	w8,w8,#16
	strh	w8,[x20,x26]
	mov	w1,#2
	b	6f
18:
	add	x0,x20,x26
	mov	x1,x22
	bl	_rtp_92408dd3_rtp_values.value.mid.write.7ba4d078ccf006bf
	and	w8,w0,#0xff
	cmp	w8,#1
	b.ne	5b
	b	6f
19:
	add	x0,x20,x26
	mov	x1,x22
	bl	_rtp_92408dd3_rtp_values.value.video_timing.write.7ba4d078ccf006bf
	and	w8,w0,#0xff
	cmp	w8,#1
	b.ne	5b
	b	6f
20:
	add	x0,x20,x26
	mov	x1,x22
	bl	_rtp_92408dd3_rtp_values.value.playout_delay.write.7ba4d078ccf006bf
	and	w8,w0,#0xff
	cmp	w8,#1
	b.ne	5b
6:
	ldr	w8,[sp,#12]
	tst	w8,#0xff
	b.eq	3b
	add	x8,x20,x24
	strb	w27,[x8]
	strb	w1,[x8,#1]
	b	4b
10:
	cmp	w8,#180
	b.eq	3f
	cmp	w8,#270
	b.ne	5b
	mov	w8,#1
	b	11b
3:
	mov	w8,#2
	b	11b
	.loh AdrpAdd	Lrtp_92408dd3_loh66,Lrtp_92408dd3_loh67
	.cfi_endproc
	.section	__TEXT,__const
1:
	.byte	(2b-5b)>>2
	.byte	(15b-5b)>>2
	.byte	(16b-5b)>>2
	.byte	(13b-5b)>>2
	.byte	(9b-5b)>>2
	.byte	(17b-5b)>>2
	.byte	(20b-5b)>>2
	.byte	(14b-5b)>>2
	.byte	(19b-5b)>>2
	.byte	(12b-5b)>>2
	.byte	(8b-5b)>>2
	.byte	(18b-5b)>>2
	.byte	(7b-5b)>>2
	.byte	(5b-5b)>>2
	.byte	(5b-5b)>>2

	.section	__TEXT,__literal16,16byte_literals
	.p2align	4,0x0
lrtp_92408dd3_CPI74_0:
	.byte	1
	.byte	2
	.byte	4
	.byte	8
	.byte	16
	.byte	32
	.byte	64
	.byte	128
	.byte	1
	.byte	2
	.byte	4
	.byte	8
	.byte	16
	.byte	32
	.byte	64
	.byte	128
	.section	__TEXT,__text,regular,pure_instructions
	.p2align	2
_rtp_92408dd3_rtp_c.writing_values.write_with_block:
	.cfi_startproc
	sub	sp,sp,#192
	stp	x27,x5,[sp,#96]
	stp	x26,x25,[sp,#112]
	stp	x24,x23,[sp,#128]
	stp	x22,x21,[sp,#144]
	stp	x20,x19,[sp,#160]
	stp	x29,x30,[sp,#176]
	.cfi_def_cfa_offset 192
	.cfi_offset w30,-8
	.cfi_offset w29,-16
	.cfi_offset w19,-24
	.cfi_offset w20,-32
	.cfi_offset w21,-40
	.cfi_offset w22,-48
	.cfi_offset w23,-56
	.cfi_offset w24,-64
	.cfi_offset w25,-72
	.cfi_offset w26,-80
	.cfi_offset w27,-96
	ldrsb	w22,[x1,#78]
	tbnz	w22,#31,1f
	ldrb	w23,[x1,#79]
	cmp	w23,#15
	b.ls	2f
1:
	mov	w0,#9
	b	1f
2:
	lsl	x21,x23,#2
	add	x8,x21,#16
	cmp	x3,x8
	b.hs	2f
3:
	mov	w0,#8
	b	1f
2:
	ldp	q0,q1,[x0,#144]
	ldp	q2,q3,[x0,#80]
	orr.16b	v0,v0,v2
	ldp	q2,q4,[x0,#208]
	orr.16b	v0,v2,v0
	ldp	q5,q2,[x0,#112]
	ldp	q7,q6,[x0,#48]
	orr.16b	v2,v2,v6
	ldp	q16,q6,[x0,#176]
	orr.16b	v2,v6,v2
	orr.16b	v5,v5,v7
	orr.16b	v5,v16,v5
	ldp	q6,q7,[x0,#16]
	orr.16b	v3,v3,v7
	orr.16b	v1,v1,v3
	orr.16b	v1,v5,v1
	orr.16b	v1,v2,v1
	orr.16b	v0,v0,v1
	ext.16b	v1,v0,v0,#8
	orr.8b	v0,v0,v1
	fmov	x8,d0
	orr	x8,x8,x8,lsr #32
	lsr	x9,x8,#16
	orr	w8,w8,w9
	orr	w8,w8,w8,lsr #8
	movi.2d	v0,#0000000000000000
	mov.b	v0[0],w8
	ldr	q1,[x0,#240]
	orr.16b	v1,v1,v4
	orr.16b	v1,v6,v1
	orr.16b	v0,v1,v0
	ext.16b	v1,v0,v0,#8
	orr.8b	v0,v0,v1
	fmov	x8,d0
	orr	x8,x8,x8,lsr #32
	lsr	x9,x8,#16
	orr	w8,w8,w9
	orr	w8,w8,w8,lsr #8
	tst	w8,#0xff
	b.eq	2f
	mov	w19,#15
	ldrb	w8,[x5,#128]
	cbz	w8,4f
5:
	ldrb	w8,[x5,#80]
	cmp	w8,#0
	cset	w9,eq
	ldrb	w8,[x5,#129]
	cbz	w8,6f
7:
	ldrb	w8,[x5,#97]
	cmp	w8,#0
	cset	w10,eq
	ldrb	w8,[x5,#130]
	cbz	w8,8f
9:
	ldrb	w8,[x5,#106]
	cmp	w8,#0
	cset	w8,eq
8:
	ldrb	w13,[x1,#81]
	ldrb	w24,[x1,#80]
	ldur	q0,[x0,#1]
	movi.16b	v1,#15
	cmeq.16b	v0,v0,v1
	umaxv.16b	b0,v0
	fmov	w11,s0
	str	x4,[sp,#24]
	tbz	w11,#0,10f
11:
	add	x8,x19,x19,lsl #3
	lsl	x8,x8,#1
	mov	w9,#4590
	cmp	x19,#15
	csel	x8,x8,x9,lo
	mov	w20,#1
	sub	x9,x3,x21
	sub	x27,x9,#12
	add	x8,x8,#7
	cmp	x8,x27
	b.ls	12f
13:
	cbz	x19,14f
	stp	x19,x2,[sp,#8]
	add	x2,sp,#104
	mov	x21,x0
	mov	x25,x1
	mov	x1,x19
	mov	x26,x3
	mov	x3,x20
	str	w20,[sp,#4]
	mov	x20,x5
	mov	x19,x13
	bl	_rtp_92408dd3_rtp_ext.block_elements.values_len.16f98aa29e959305
	mov	x13,x19
	mov	x1,x25
	ldp	x19,x2,[sp,#8]
	mov	x3,x26
	mov	x5,x20
	ldr	w20,[sp,#4]
	mov	x8,x0
	mov	x0,x21
	add	x8,x8,#3
	and	x8,x8,#0xfffffffffffffffc
	add	x8,x8,#4
	cmp	x8,x27
	b.hi	3b
	b	12f
2:
	ldr	q0,[x0]
Lrtp_92408dd3_loh68:
	adrp	x8,lrtp_92408dd3_CPI74_0@PAGE
Lrtp_92408dd3_loh69:
	ldr	q1,[x8,lrtp_92408dd3_CPI74_0@PAGEOFF]
	cmeq.16b	v0,v0,#0
	bic.16b	v0,v1,v0
	ext.16b	v1,v0,v0,#8
	zip1.16b	v0,v0,v1
	addv.8h	h0,v0
	fmov	w8,s0
	orr	w8,w8,#0x1
	and	x8,x8,#0xffff
	clz	x8,x8
	eor	x19,x8,#0x3f
	ldrb	w8,[x5,#128]
	cbnz	w8,5b
4:
	mov	w9,#0
	ldrb	w8,[x5,#129]
	cbnz	w8,7b
6:
	mov	w10,#0
	ldrb	w8,[x5,#130]
	cbnz	w8,9b
	b	8b
10:
	orr	w9,w9,w10
	cmp	x19,#15
	b.lo	2f
	ldur	q0,[x0,#63]
	movi.2d	v1,#0xffffffffffffffff
	add.16b	v0,v0,v1
	movi.16b	v2,#15
	ldur	q3,[x0,#127]
	add.16b	v3,v3,v1
	umin.16b	v0,v0,v3
	ldur	q3,[x0,#191]
	add.16b	v3,v3,v1
	umin.16b	v0,v0,v3
	ldur	q3,[x0,#47]
	add.16b	v3,v3,v1
	ldur	q4,[x0,#111]
	add.16b	v4,v4,v1
	umin.16b	v3,v3,v4
	ldur	q4,[x0,#175]
	add.16b	v4,v4,v1
	umin.16b	v3,v3,v4
	ldur	q4,[x0,#31]
	add.16b	v4,v4,v1
	ldur	q5,[x0,#95]
	add.16b	v5,v5,v1
	umin.16b	v4,v4,v5
	ldur	q5,[x0,#159]
	add.16b	v5,v5,v1
	umin.16b	v4,v4,v5
	ldur	q5,[x0,#15]
	add.16b	v5,v5,v1
	ldur	q6,[x0,#79]
	add.16b	v6,v6,v1
	umin.16b	v5,v5,v6
	ldur	q6,[x0,#143]
	add.16b	v6,v6,v1
	umin.16b	v5,v5,v6
	umin.16b	v4,v4,v5
	umin.16b	v3,v3,v4
	umin.16b	v0,v0,v3
	cmhi.16b	v0,v2,v0
	umaxv.16b	b0,v0
	movi.2d	v3,#0000000000000000
	mov.b	v3[0],v0[0]
	ldur	q0,[x0,#207]
	add.16b	v0,v0,v1
	cmhi.16b	v0,v2,v0
	ldur	q4,[x0,#223]
	add.16b	v4,v4,v1
	cmhi.16b	v4,v2,v4
	orr.16b	v0,v0,v4
	ldur	q4,[x0,#239]
	add.16b	v1,v4,v1
	cmhi.16b	v1,v2,v1
	orr.16b	v0,v0,v1
	orr.16b	v0,v3,v0
	shl.16b	v0,v0,#7
	cmlt.16b	v0,v0,#0
	umaxv.16b	b0,v0
	fmov	w10,s0
	ldrb	w11,[x0,#255]
	sub	w11,w11,#1
	cmp	w11,#15
	cset	w11,lo
	orr	w10,w10,w11
	b	4f
14:
	mov	w8,#4
	cmp	x8,x27
	b.hi	3b
	b	12f
2:
	mov	w10,#0
4:
	orr	w8,w9,w8
	tbnz	w10,#0,2f
	eor	w9,w8,#0x1
	tbnz	w9,#0,2f
	stp	x1,x2,[sp,#8]
	add	x2,sp,#104
	mov	x20,x0
	mov	x1,x19
	mov	x27,x5
	mov	x26,x3
	mov	x25,x13
	bl	_rtp_92408dd3_rtp_ext.block_form.has_empty_data.16f98aa29e959305
	mov	x13,x25
	ldp	x1,x2,[sp,#8]
	mov	x3,x26
	mov	x5,x27
	mov	x8,x0
	mov	x0,x20
	tbnz	w8,#0,11b
	b	3f
2:
	orr	w8,w8,w10
	tbnz	w8,#0,11b
3:
	mov	w20,#0
	add	x8,x19,x19,lsl #4
	mov	w9,#4335
	cmp	x19,#15
	csel	x8,x8,x9,lo
	sub	x9,x3,x21
	sub	x27,x9,#12
	add	x8,x8,#7
	cmp	x8,x27
	b.hi	13b
12:
	ldrh	w8,[x1,#76]
	mov	w9,#176
	mov	w10,#144
	cmp	w13,#0
	csel	w9,w10,w9,eq
	orr	w9,w9,w23
	mov	w10,#-128
	cmp	w24,#0
	csel	w10,wzr,w10,eq
	orr	w10,w10,w22
	rev	w8,w8
	lsr	w8,w8,#16
	ldr	d0,[x1,#8]
	rev32.8b	v0,v0
	strb	w9,[x2]
	strb	w10,[x2,#1]
	strh	w8,[x2,#2]
	stur	d0,[x2,#4]
	ldrb	w8,[x1,#79]
	cbz	w8,2f
	ldp	q0,q1,[x1,#16]
	stp	q0,q1,[sp,#32]
	ldr	q0,[x1,#48]
	str	q0,[sp,#64]
	ldur	q0,[x1,#60]
	stur	q0,[sp,#76]
	cmp	w8,#16
	b.hs	3f
	mov	x9,#0
	mov	w22,#12
	b	4f
2:
	mov	w22,#12
	b	2f
3:
	and	x9,x8,#0xf0
	lsr	x10,x9,#4
	mov	w22,#12
	bfi	x22,x10,#6,#4
	add	x10,sp,#32
	add	x10,x10,#32
	add	x11,x2,#44
	and	x12,x8,#0xf0
3:
	ldp	q0,q1,[x10,#-32]
	rev32.16b	v0,v0
	rev32.16b	v1,v1
	ldp	q2,q3,[x10],#64
	rev32.16b	v2,v2
	rev32.16b	v3,v3
	stp	q0,q1,[x11,#-32]
	stp	q2,q3,[x11],#64
	subs	x12,x12,#16
	b.ne	3b
	cmp	x9,x8
	b.eq	2f
4:
	sub	x8,x8,x9
	add	x10,sp,#32
	add	x9,x10,x9,lsl #2
3:
	ldr	w10,[x9],#4
	rev	w10,w10
	str	w10,[x2,x22]
	add	x22,x22,#4
	subs	x8,x8,#1
	b.ne	3b
2:
	add	x21,x2,x22
	sub	x8,x3,x22
	sub	x8,x8,#4
	add	x4,x21,#4
	mov	x1,x19
	mov	x2,x5
	mov	x3,x20
	mov	x5,x8
	bl	_rtp_92408dd3_rtp_ext.block_elements.write_values.16f98aa29e959305
	mov	x2,x0
	mov	x0,x21
	mov	x1,x20
	bl	_rtp_92408dd3_rtp_wire.header.block.close_block
	mov	x8,x0
	mov	w0,#0
	add	x9,x8,x22
	ldr	x8,[sp,#24]
	str	x9,[x8]
1:
	ldp	x29,x30,[sp,#176]
	ldp	x20,x19,[sp,#160]
	ldp	x22,x21,[sp,#144]
	ldp	x24,x23,[sp,#128]
	ldp	x26,x25,[sp,#112]
	ldr	x27,[sp,#96]
	add	sp,sp,#192
	ret
	.loh AdrpLdr	Lrtp_92408dd3_loh68,Lrtp_92408dd3_loh69
	.cfi_endproc

	.section	__TEXT,__literal16,16byte_literals
	.p2align	4,0x0
lrtp_92408dd3_CPI75_0:
	.byte	1
	.byte	2
	.byte	4
	.byte	8
	.byte	16
	.byte	32
	.byte	64
	.byte	128
	.byte	1
	.byte	2
	.byte	4
	.byte	8
	.byte	16
	.byte	32
	.byte	64
	.byte	128
	.section	__TEXT,__text,regular,pure_instructions
	.globl	_rtp_92408dd3_rtpw_data_of
	.p2align	2
_rtp_92408dd3_rtpw_data_of:
	.cfi_startproc
	stp	x26,x25,[sp,#-80]!
	stp	x24,x23,[sp,#16]
	stp	x22,x21,[sp,#32]
	stp	x20,x19,[sp,#48]
	stp	x29,x30,[sp,#64]
	.cfi_def_cfa_offset 80
	.cfi_offset w30,-8
	.cfi_offset w29,-16
	.cfi_offset w19,-24
	.cfi_offset w20,-32
	.cfi_offset w21,-40
	.cfi_offset w22,-48
	.cfi_offset w23,-56
	.cfi_offset w24,-64
	.cfi_offset w25,-72
	.cfi_offset w26,-80
	mov	x8,x0
	and	w10,w0,#0xff
	mov	w9,#4096
	cmp	x2,#0
	csel	x9,x9,xzr,eq
	cmp	w10,#15
	b.hi	1f
	mov	w10,#0
	mov	w0,#9
	mov	w11,#1
	and	x8,x8,#0xff
Lrtp_92408dd3_loh70:
	adrp	x12,2f@PAGE
Lrtp_92408dd3_loh71:
	add	x12,x12,2f@PAGEOFF
	adr	x13,3f
	ldrb	w14,[x12,x8]
	add	x13,x13,x14,lsl #2
	br	x13
3:
	mov	w10,#1
	ldrb	w21,[x1,#121]
	cbnz	w21,4f
	b	5f
6:
	mov	w10,#13
	ldrb	w21,[x1,#121]
	cbnz	w21,4f
	b	5f
7:
	mov	w10,#10
	ldrb	w21,[x1,#121]
	cbnz	w21,4f
	b	5f
8:
	mov	w10,#3
	ldrb	w21,[x1,#121]
	cbnz	w21,4f
	b	5f
9:
	mov	w10,#11
	ldrb	w21,[x1,#121]
	cbnz	w21,4f
	b	5f
10:
	mov	w10,#8
	ldrb	w21,[x1,#121]
	cbnz	w21,4f
	b	5f
11:
	mov	w10,#14
	ldrb	w21,[x1,#121]
	cbnz	w21,4f
	b	5f
12:
	mov	w10,#2
	ldrb	w21,[x1,#121]
	cbnz	w21,4f
	b	5f
13:
	mov	w10,#6
	ldrb	w21,[x1,#121]
	cbnz	w21,4f
	b	5f
14:
	mov	w10,#4
	ldrb	w21,[x1,#121]
	cbnz	w21,4f
	b	5f
15:
	mov	w10,#12
	ldrb	w21,[x1,#121]
	cbnz	w21,4f
	b	5f
16:
	mov	w10,#5
	ldrb	w21,[x1,#121]
	cbnz	w21,4f
	b	5f
17:
	mov	w10,#9
	ldrb	w21,[x1,#121]
	cbnz	w21,4f
	b	5f
18:
	mov	w10,#7
19:
	ldrb	w21,[x1,#121]
	cbz	w21,5f
4:
	ldrh	w8,[x1,#66]
	mov	w0,#9
	cmp	w8,#179
	b.gt	20f
	cbz	w8,5f
	cmp	w8,#90
	b.eq	5f
	b	21f
20:
	cmp	w8,#270
	b.eq	5f
	cmp	w8,#180
	b.ne	21f
5:
	ldrb	w12,[x1,#125]
	cbz	w12,20f
	ldr	w8,[x1,#32]
	cbz	w8,22f
20:
	ldrb	w8,[x1,#126]
	cbz	w8,20f
	ldr	w13,[x1,#48]
	cbz	w13,22f
20:
	ldrb	w22,[x1,#123]
	cbz	w22,20f
	ldrb	w13,[x1,#78]
	add	w13,w13,#127
	tbnz	w13,#7,22f
20:
	ldrb	w13,[x1,#128]
	cbz	w13,20f
	mov	x13,x1
	ldr	q0,[x13,#80]!
	movi.16b	v1,#32
	orr.16b	v1,v0,v1
	movi.16b	v2,#133
	add.16b	v1,v1,v2
	movi.16b	v2,#230
	cmhi.16b	v1,v2,v1
	movi.16b	v2,#198
	add.16b	v2,v0,v2
	movi.16b	v3,#246
	cmhi.16b	v2,v3,v2
	and.16b	v1,v2,v1
	movi.16b	v2,#95
	cmeq.16b	v0,v0,v2
	bic.16b	v0,v1,v0
Lrtp_92408dd3_loh72:
	adrp	x14,lrtp_92408dd3_CPI75_0@PAGE
Lrtp_92408dd3_loh73:
	ldr	q1,[x14,lrtp_92408dd3_CPI75_0@PAGEOFF]
	and.16b	v0,v0,v1
	ext.16b	v1,v0,v0,#8
	zip1.16b	v0,v0,v1
	addv.8h	h0,v0
	fmov	w14,s0
	orr	w14,w14,#0x10000
	rbit	w14,w14
	clz	w14,w14
	ldrb	w13,[x13,w14,uxtw]
	cbnz	w13,22f
20:
	ldrb	w13,[x1,#129]
	cbz	w13,20f
	mov	x13,x1
	ldrb	w14,[x13,#97]!
	cbz	w14,23f
	ldrb	w14,[x1,#98]
	cbz	w14,24f
	ldrb	w14,[x1,#99]
	cbz	w14,25f
	ldrb	w14,[x1,#100]
	cbz	w14,26f
	ldrb	w14,[x1,#101]
	cbz	w14,27f
	ldrb	w14,[x1,#102]
	cbz	w14,28f
	ldrb	w14,[x1,#103]
	cbz	w14,29f
	ldrb	w14,[x1,#104]
	cbz	w14,30f
	ldrb	w14,[x1,#105]
	cbnz	w14,22f
	mov	w14,#8
	b	31f
1:
	sxtb	w8,w8
	cmp	w8,#20
	b.gt	22f
	mov	w11,#0
	mov	w10,#0
	ldrb	w21,[x1,#121]
	cbnz	w21,4b
	b	5b
23:
	mov	x14,#0
	b	31f
24:
	mov	w14,#1
	b	31f
25:
	mov	w14,#2
	b	31f
26:
	mov	w14,#3
	b	31f
27:
	mov	w14,#4
	b	31f
28:
	mov	w14,#5
	b	31f
29:
	mov	w14,#6
	b	31f
30:
	mov	w14,#7
31:
	cbz	x14,20f
	ldrb	w15,[x13],#1
	sub	x14,x14,#1
	sub	w16,w15,#48
	and	w17,w15,#0xffffffdf
	sub	w17,w17,#65
	cmp	w15,#95
	ccmp	w16,#10,#0,ne
	ccmp	w17,#26,#0,hs
	b.lo	31b
	b	22f
20:
	ldrb	w13,[x1,#130]
	cbz	w13,1f
	mov	x13,x1
	ldrb	w14,[x13,#106]!
	cbz	w14,4f
	ldrb	w14,[x1,#107]
	cbz	w14,5f
	ldrb	w14,[x1,#108]
	cbz	w14,20f
	ldrb	w14,[x1,#109]
	cbz	w14,23f
	ldrb	w14,[x1,#110]
	cbz	w14,24f
	ldrb	w14,[x1,#111]
	cbz	w14,25f
	ldrb	w14,[x1,#112]
	cbz	w14,26f
	ldrb	w14,[x1,#113]
	cbz	w14,27f
	ldrb	w14,[x1,#114]
	cbnz	w14,22f
	mov	w14,#8
	b	28f
4:
	mov	x14,#0
	b	28f
5:
	mov	w14,#1
	b	28f
20:
	mov	w14,#2
	b	28f
23:
	mov	w14,#3
	b	28f
24:
	mov	w14,#4
	b	28f
25:
	mov	w14,#5
	b	28f
26:
	mov	w14,#6
	b	28f
27:
	mov	w14,#7
28:
	cbz	x14,1f
	ldrb	w15,[x13],#1
	sub	x14,x14,#1
	sub	w16,w15,#48
	and	w17,w15,#0xffffffdf
	sub	w17,w17,#65
	cmp	w15,#95
	ccmp	w16,#10,#0,ne
	ccmp	w17,#26,#0,hs
	b.lo	28b
22:
	mov	w0,#9
	ldp	x29,x30,[sp,#64]
	ldp	x20,x19,[sp,#48]
	ldp	x22,x21,[sp,#32]
	ldp	x24,x23,[sp,#16]
	ldp	x26,x25,[sp],#80
	ret
1:
	cbz	w11,1f
	add	x19,x2,x9
	mov	w0,#11
	mov	w23,w10
Lrtp_92408dd3_loh74:
	adrp	x9,4f@PAGE
Lrtp_92408dd3_loh75:
	add	x9,x9,4f@PAGEOFF
	adr	x10,21f
	ldrb	w11,[x9,x23]
	add	x10,x10,x11,lsl #2
	br	x10
21:
	ldp	x29,x30,[sp,#64]
	ldp	x20,x19,[sp,#48]
	ldp	x22,x21,[sp,#32]
	ldp	x24,x23,[sp,#16]
	ldp	x26,x25,[sp],#80
	ret
5:
	ldrb	w8,[x1,#119]
	b	20f
22:
	cbz	w21,23f
	ldrh	w8,[x1,#66]
	mov	w0,#1
	cmp	w8,#179
	b.gt	24f
	cbz	w8,25f
	cmp	w8,#90
	b.eq	25f
	b	23f
26:
	mov	x0,x1
	mov	x20,x4
	mov	x24,x1
	mov	x25,x3
	bl	_rtp_92408dd3_rtp_values.value.lengths.rid_len.7ba4d078ccf006bf
	b	27f
28:
	ldrb	w8,[x1,#118]
20:
	cmp	w8,#0
	cset	w0,ne
	mov	w8,#4
	csel	x20,x8,xzr,ne
	and	w8,w0,#0xff
	cmp	w8,#1
	b.ne	1f
	b	20f
29:
	mov	x0,x1
	mov	x20,x4
	mov	x24,x1
	mov	x25,x3
	bl	_rtp_92408dd3_rtp_values.value.lengths.repaired_rid_len.7ba4d078ccf006bf
	b	27f
30:
	ldrb	w8,[x1,#122]
	cmp	w8,#0
	b	31f
32:
	ldrb	w8,[x1,#116]
	cbz	w8,21b
	ldrb	w8,[x1,#117]
	cmp	w8,#0
	mov	w8,#16
	mov	w9,#8
	csel	x20,x9,x8,eq
	b	20f
33:
	ldrb	w8,[x1,#115]
	cmp	w8,#0
	cset	w0,ne
	mov	w8,#3
	csel	x20,x8,xzr,ne
	and	w8,w0,#0xff
	cmp	w8,#1
	b.ne	1f
	b	20f
34:
	cmp	w22,#0
	ldrb	w8,[x1,#124]
	ccmp	w8,#0,#4,ne
31:
	cset	w20,ne
	mov	x0,x20
	and	w8,w0,#0xff
	cmp	w8,#1
	b.eq	20f
1:
	mov	w0,#11
	ldp	x29,x30,[sp,#64]
	ldp	x20,x19,[sp,#48]
	ldp	x22,x21,[sp,#32]
	ldp	x24,x23,[sp,#16]
	ldp	x26,x25,[sp],#80
	ret
31:
	ldrb	w8,[x1,#120]
	cmp	w8,#0
	cset	w0,ne
	mov	w8,#2
	csel	x20,x8,xzr,ne
	and	w8,w0,#0xff
	cmp	w8,#1
	b.ne	1b
	b	20f
35:
	mov	x0,x1
	mov	x20,x4
	mov	x24,x1
	mov	x25,x3
	bl	_rtp_92408dd3_rtp_values.value.lengths.mid_len.7ba4d078ccf006bf
27:
	mov	x3,x25
	mov	x4,x20
	mov	x20,x1
	mov	x1,x24
	and	w8,w0,#0xff
	cmp	w8,#1
	b.ne	1b
20:
	cmp	x3,x20
	b.hs	27f
	mov	w0,#8
	ldp	x29,x30,[sp,#64]
	ldp	x20,x19,[sp,#48]
	ldp	x22,x21,[sp,#32]
	ldp	x24,x23,[sp,#16]
	ldp	x26,x25,[sp],#80
	ret
27:
Lrtp_92408dd3_loh76:
	adrp	x8,27f@PAGE
Lrtp_92408dd3_loh77:
	add	x8,x8,27f@PAGEOFF
	adr	x9,36f
	ldrb	w10,[x8,x23]
	add	x9,x9,x10,lsl #2
	br	x9
36:
	ldrb	w8,[x1,#115]
	cbz	w8,37f
	ldr	x8,[x1]
	mov	x9,#13531
	movk	x9,#55222,lsl #16
	movk	x9,#56962,lsl #32
	movk	x9,#17179,lsl #48
	umulh	x9,x8,x9
	lsr	x9,x9,#24
	mov	w10,#36864
	movk	w10,#976,lsl #16
	msub	x8,x9,x10,x8
	lsl	x8,x8,#18
	mov	x9,#46574
	movk	x9,#63392,lsl #16
	movk	x9,#4294,lsl #32
	umulh	x8,x8,x9
	rev	w8,w8
	lsr	w9,w8,#8
	lsr	w8,w8,#24
	strb	w8,[x19,#2]
	strh	w9,[x19]
	b	37f
38:
	ldrb	w8,[x1,#127]
	cmp	w8,#0
	cset	w0,ne
	mov	w8,#13
	csel	x20,x8,xzr,ne
	and	w8,w0,#0xff
	cmp	w8,#1
	b.ne	1b
	b	20b
39:
	cbz	w12,40f
	ldr	w9,[x1,#32]
	cmp	w9,#0
	cset	w9,ne
	b	41f
40:
	mov	w9,#0
41:
	cbz	w8,40f
	ldr	w8,[x1,#48]
	cmp	w8,#0
	cset	w8,ne
40:
	ands	w0,w9,w8
	mov	w8,#3
	csel	x20,x8,xzr,ne
	and	w8,w0,#0xff
	cmp	w8,#1
	b.eq	20b
	b	1b
24:
	cmp	w8,#180
	b.eq	25f
	cmp	w8,#270
	b.eq	25f
23:
	mov	w0,#0
25:
	mov	w20,w0
	and	w8,w0,#0xff
	cmp	w8,#1
	b.ne	1b
	b	20b
1:
	mov	x0,x19
	mov	x19,x4
	bl	_rtp_92408dd3_rtp_values.value.mid.write.7ba4d078ccf006bf
	mov	x4,x19
	b	37f
20:
	cbz	w21,37f
	ldrh	w8,[x1,#66]
	cmp	w8,#179
	b.gt	23f
	cbz	w8,24f
	cmp	w8,#90
	b.ne	37f
	mov	w8,#3
	b	24f
25:
	ldrb	w8,[x1,#119]
	cbz	w8,37f
	ldr	w8,[x1,#60]
	b	40f
41:
	mov	x0,x19
	mov	x19,x4
	bl	_rtp_92408dd3_rtp_values.value.stream_id.write.7ba4d078ccf006bf
	mov	x4,x19
	b	37f
42:
	cbz	w22,37f
	ldrb	w8,[x1,#124]
	cbz	w8,37f
	ldrb	w8,[x1,#78]
	ldrb	w9,[x1,#79]
	sxtb	w8,w8
	cmp	w8,#0
	cneg	w8,w8,mi
	mov	w10,#-128
	cmp	w9,#0
	csel	w9,wzr,w10,eq
	bfxil	w9,w8,#0,#7
	strb	w9,[x19]
	b	37f
43:
	ldrb	w8,[x1,#118]
	cbz	w8,37f
	ldr	w8,[x1,#56]
40:
	rev	w8,w8
	str	w8,[x19]
	b	37f
40:
	ldrb	w8,[x1,#122]
	cbz	w8,37f
	ldrb	w8,[x1,#77]
24:
	strb	w8,[x19]
	b	37f
44:
	mov	x0,x19
	mov	x19,x4
	bl	_rtp_92408dd3_rtp_values.value.abs_capture_time.write.7ba4d078ccf006bf
	mov	x4,x19
	b	37f
45:
	ldrb	w8,[x1,#120]
	cbz	w8,37f
	ldrh	w8,[x1,#64]
	rev	w8,w8
	lsr	w8,w8,#16
	strh	w8,[x19]
	b	37f
46:
	mov	x0,x19
	mov	x19,x4
	bl	_rtp_92408dd3_rtp_values.value.playout_delay.write.7ba4d078ccf006bf
	mov	x4,x19
	b	37f
47:
	mov	x0,x19
	mov	x19,x4
	bl	_rtp_92408dd3_rtp_values.value.stream_id.write_repaired.7ba4d078ccf006bf
	mov	x4,x19
	b	37f
48:
	mov	x0,x19
	mov	x19,x4
	bl	_rtp_92408dd3_rtp_values.value.video_timing.write.7ba4d078ccf006bf
	mov	x4,x19
37:
	mov	w0,#0
	str	x20,[x4]
	ldp	x29,x30,[sp,#64]
	ldp	x20,x19,[sp,#48]
	ldp	x22,x21,[sp,#32]
	ldp	x24,x23,[sp,#16]
	ldp	x26,x25,[sp],#80
	ret
23:
	cmp	w8,#180
	b.eq	23f
	cmp	w8,#270
	b.ne	37b
	mov	w8,#1
	b	24b
23:
	mov	w8,#2
	b	24b
	.loh AdrpAdd	Lrtp_92408dd3_loh70,Lrtp_92408dd3_loh71
	.loh AdrpLdr	Lrtp_92408dd3_loh72,Lrtp_92408dd3_loh73
	.loh AdrpAdd	Lrtp_92408dd3_loh74,Lrtp_92408dd3_loh75
	.loh AdrpAdd	Lrtp_92408dd3_loh76,Lrtp_92408dd3_loh77
	.cfi_endproc
	.section	__TEXT,__const
2:
	.byte	(21b-3b)>>2
	.byte	(19b-3b)>>2
	.byte	(3b-3b)>>2
	.byte	(12b-3b)>>2
	.byte	(8b-3b)>>2
	.byte	(14b-3b)>>2
	.byte	(16b-3b)>>2
	.byte	(13b-3b)>>2
	.byte	(18b-3b)>>2
	.byte	(10b-3b)>>2
	.byte	(17b-3b)>>2
	.byte	(7b-3b)>>2
	.byte	(9b-3b)>>2
	.byte	(15b-3b)>>2
	.byte	(6b-3b)>>2
	.byte	(11b-3b)>>2
4:
	.byte	(33b-21b)>>2
	.byte	(32b-21b)>>2
	.byte	(34b-21b)>>2
	.byte	(28b-21b)>>2
	.byte	(22b-21b)>>2
	.byte	(31b-21b)>>2
	.byte	(39b-21b)>>2
	.byte	(30b-21b)>>2
	.byte	(38b-21b)>>2
	.byte	(26b-21b)>>2
	.byte	(29b-21b)>>2
	.byte	(35b-21b)>>2
	.byte	(5b-21b)>>2
	.byte	(21b-21b)>>2
	.byte	(21b-21b)>>2
27:
	.byte	(36b-36b)>>2
	.byte	(44b-36b)>>2
	.byte	(42b-36b)>>2
	.byte	(43b-36b)>>2
	.byte	(20b-36b)>>2
	.byte	(45b-36b)>>2
	.byte	(46b-36b)>>2
	.byte	(40b-36b)>>2
	.byte	(48b-36b)>>2
	.byte	(41b-36b)>>2
	.byte	(47b-36b)>>2
	.byte	(1b-36b)>>2
	.byte	(25b-36b)>>2

	.section	__TEXT,__text,regular,pure_instructions
	.globl	_rtp_92408dd3_rtpw_extend_ntp_56
	.p2align	2
_rtp_92408dd3_rtpw_extend_ntp_56:
	.cfi_startproc
	sub	x8,x1,x0
	and	x8,x8,#0xffffffffffffff
	mov	x9,#-72057594037927936
	add	x10,x8,x0
	add	x9,x10,x9
	mov	x11,#36028797018963968
	cmp	x8,x11
	csel	x0,x9,x10,hi
	ret
	.cfi_endproc

	.globl	_rtp_92408dd3_rtpw_extend_send_time
	.p2align	2
_rtp_92408dd3_rtpw_extend_send_time:
	.cfi_startproc
	lsl	x8,x1,#14
	sub	x8,x8,x0
	and	x8,x8,#0x3fffffffff
	mov	x9,#-274877906944
	add	x10,x8,x0
	add	x9,x10,x9
	mov	x11,#137438953472
	cmp	x8,x11
	csel	x0,x9,x10,hi
	ret
	.cfi_endproc

	.globl	_rtp_92408dd3_rtpw_extend_u15
	.p2align	2
_rtp_92408dd3_rtpw_extend_u15:
	.cfi_startproc
	sub	w8,w1,w0
	and	x8,x8,#0x7fff
	cmp	x8,#4,lsl #12
	and	x9,x0,#0x4000
	ccmp	x9,#0,#0,eq
	mov	x9,#-32768
	csel	x9,xzr,x9,eq
	add	x10,x8,x0
	add	x9,x9,x10
	cmp	x8,#4,lsl #12
	csel	x0,x10,x9,lo
	ret
	.cfi_endproc

	.globl	_rtp_92408dd3_rtpw_extend_u16
	.p2align	2
_rtp_92408dd3_rtpw_extend_u16:
	.cfi_startproc
	sub	w8,w1,w0
	sxth	w9,w8
	add	x10,x0,w8,uxth
	cmn	w9,#8,lsl #12
	and	x9,x0,#0x8000
	ccmp	x9,#0,#0,eq
	mov	x9,#-65536
	csel	x9,xzr,x9,eq
	add	x9,x9,x10
	tst	w8,#0x8000
	csel	x0,x10,x9,eq
	ret
	.cfi_endproc

	.globl	_rtp_92408dd3_rtpw_extend_u32
	.p2align	2
_rtp_92408dd3_rtpw_extend_u32:
	.cfi_startproc
	mov	x8,x0
	subs	w9,w1,w8
	add	x0,x0,x9
	b.mi	1f
	ret
1:
	mov	w10,#-2147483648
	cmp	w9,w10
	ccmn	w8,#1,#4,eq
	mov	x8,#-4294967296
	csel	x8,xzr,x8,gt
	add	x0,x8,x0
	ret
	.cfi_endproc

	.globl	_rtp_92408dd3_rtpw_extend_u8
	.p2align	2
_rtp_92408dd3_rtpw_extend_u8:
	.cfi_startproc
	sub	w8,w1,w0
	sxtb	w9,w8
	add	x10,x0,w8,uxtb
	cmn	w9,#128
	and	x9,x0,#0x80
	ccmp	x9,#0,#0,eq
	mov	x9,#-256
	csel	x9,xzr,x9,eq
	add	x9,x9,x10
	tst	w8,#0x80
	csel	x0,x10,x9,eq
	ret
	.cfi_endproc

	.globl	_rtp_92408dd3_rtpw_has_structure
	.p2align	2
_rtp_92408dd3_rtpw_has_structure:
	.cfi_startproc
	cmp	x1,#4
	b.lo	1f
	mov	w8,#4096
	cmp	x0,#0
	csel	x8,x8,xzr,eq
	add	x8,x0,x8
	ldrsb	w8,[x8,#3]
	cmp	w8,#0
	cset	w0,mi
	ret
1:
	mov	w0,#0
	ret
	.cfi_endproc

	.globl	_rtp_92408dd3_rtpw_id_of
	.p2align	2
_rtp_92408dd3_rtpw_id_of:
	.cfi_startproc
	mov	w9,#0
	ands	w8,w1,#0xff
	b.eq	1f
	sxtb	w10,w1
	cmp	w10,#20
	b.gt	1f
	mov	x9,#0
	add	x10,x0,#1
2:
	ldrb	w11,[x10,x9]
	cmp	w11,w8
	b.eq	3f
	add	x9,x9,#1
	cmp	x9,#255
	b.ne	2b
	and	w0,wzr,#0xff
	ret
3:
	add	w9,w9,#1
1:
	and	w0,w9,#0xff
	ret
	.cfi_endproc

	.globl	_rtp_92408dd3_rtpw_is_rtcp
	.p2align	2
_rtp_92408dd3_rtpw_is_rtcp:
	.cfi_startproc
	cmp	x1,#2
	b.lo	1f
	mov	w8,#4096
	cmp	x0,#0
	csel	x8,x8,xzr,eq
	add	x8,x0,x8
	ldrsb	w9,[x8]
	ldrb	w8,[x8,#1]
	cmn	w9,#64
	and	w8,w8,#0xe0
	mov	w9,#192
	ccmp	w8,w9,#0,lt
	cset	w0,eq
	ret
1:
	mov	w0,#0
	ret
	.cfi_endproc

	.globl	_rtp_92408dd3_rtpw_is_stream_id
	.p2align	2
_rtp_92408dd3_rtpw_is_stream_id:
	.cfi_startproc
	sub	x8,x1,#1
	cmp	x8,#254
	b.hi	1f
	mov	w8,#4096
	cmp	x0,#0
	csel	x8,x8,xzr,eq
	add	x8,x0,x8
2:
	cmp	x1,#0
	cset	w0,eq
	cbz	x1,3f
	ldrb	w9,[x8],#1
	sub	x1,x1,#1
	sub	w10,w9,#48
	and	w9,w9,#0xffffffdf
	sub	w9,w9,#65
	cmp	w10,#10
	ccmp	w9,#26,#0,hs
	b.lo	2b
3:
	ret
1:
	mov	w0,#0
	ret
	.cfi_endproc

	.globl	_rtp_92408dd3_rtpw_is_token
	.p2align	2
_rtp_92408dd3_rtpw_is_token:
	.cfi_startproc
	sub	x8,x1,#1
	cmp	x8,#254
	b.hi	1f
	mov	w8,#4096
	cmp	x0,#0
	csel	x8,x8,xzr,eq
	add	x8,x0,x8
	b	2f
3:
	sub	x1,x1,#1
	cbz	x1,4f
2:
	ldrb	w9,[x8],#1
	cmp	w9,#33
	b.eq	3b
	cmp	w9,#47
	b.hi	2f
	cmp	w9,#35
	b.lo	1f
	cmp	w9,#40
	b.lo	3b
	cmp	w9,#42
	b.lo	1f
	cmp	w9,#44
	b.lo	3b
	mov	w0,#0
	cmp	w9,#47
	b.eq	5f
	cmp	w9,#44
	b.ne	3b
	b	5f
2:
	cmp	w9,#58
	b.lo	3b
	cmp	w9,#65
	b.lo	1f
	cmp	w9,#91
	b.lo	3b
	sub	w9,w9,#94
	cmp	w9,#32
	b.ls	3b
1:
	mov	w0,#0
5:
	ret
4:
	mov	w0,#1
	ret
	.cfi_endproc

	.globl	_rtp_92408dd3_rtpw_last_element
	.p2align	2
_rtp_92408dd3_rtpw_last_element:
	.cfi_startproc
	stp	x24,x23,[sp,#-64]!
	stp	x22,x21,[sp,#16]
	stp	x20,x19,[sp,#32]
	stp	x29,x30,[sp,#48]
	.cfi_def_cfa_offset 64
	.cfi_offset w30,-8
	.cfi_offset w29,-16
	.cfi_offset w19,-24
	.cfi_offset w20,-32
	.cfi_offset w21,-40
	.cfi_offset w22,-48
	.cfi_offset w23,-56
	.cfi_offset w24,-64
	mov	x19,x4
	mov	x20,x1
	and	w21,w3,#0xff
	mov	w8,#4096
	cmp	x0,#0
	csel	x8,x8,xzr,eq
	add	x0,x0,x8
	and	w8,w2,#0xff
	cmp	w8,#1
	b.eq	1f
	cmp	w8,#2
	b.ne	2f
	cbz	x20,3f
	mov	w24,#0
	mov	x22,#0
	mov	x23,#0
	mov	x1,x20
4:
	ldrb	w8,[x0]
	cbnz	w8,5f
	cmp	x1,#2
	b.eq	6f
	cmp	x1,#1
	b.eq	7f
	cmp	x1,#3
	b.hi	8f
	ldrb	w8,[x0,#1]
	cbnz	w8,8f
	ldrb	w8,[x0,#2]
	cbnz	w8,8f
	b	7f
6:
	ldrb	w8,[x0,#1]
	cbz	w8,7f
8:
	sub	x1,x1,#1
	add	x0,x0,#1
	bl	_rtp_92408dd3_rtp_ext.elements.skip_zeros
	cbz	x1,7f
5:
	mov	x8,x0
	cmp	x1,#2
	b.lo	7f
	ldrb	w9,[x8,#1]
	add	x10,x9,#2
	subs	x1,x1,x10
	b.lo	7f
	add	x0,x8,x10
	ldrb	w8,[x8]
	cmp	w8,w21
	b.eq	5f
	cbnz	x1,4b
	b	7f
5:
	sub	x22,x20,x1
	sub	x23,x22,x9
	mov	w24,#1
	cbnz	x1,4b
	b	4f
1:
	cbz	x20,3f
	mov	w24,#0
	mov	x22,#0
	mov	x23,#0
	mov	x1,x20
1:
	ldrb	w8,[x0]
	cbz	w8,5f
	cmp	w8,#239
	and	w9,w8,#0xf
	add	w9,w9,#2
	ccmp	x1,x9,#0,ls
	b.hs	6f
	b	7f
5:
	cmp	x1,#2
	b.eq	5f
	cmp	x1,#1
	b.eq	7f
	cmp	x1,#3
	b.hi	8f
	ldrb	w8,[x0,#1]
	cbnz	w8,8f
	ldrb	w8,[x0,#2]
	cbnz	w8,8f
	b	7f
5:
	ldrb	w8,[x0,#1]
	cbz	w8,7f
8:
	sub	x1,x1,#1
	add	x0,x0,#1
	bl	_rtp_92408dd3_rtp_ext.elements.skip_zeros
	cbz	x1,7f
	ldrb	w8,[x0]
	cmp	w8,#239
	and	w9,w8,#0xf
	add	w9,w9,#2
	ccmp	x1,x9,#0,ls
	b.lo	7f
6:
	add	x0,x0,x9
	sub	x1,x1,x9
	cmp	w21,w8,lsr #4
	b.eq	5f
	cbnz	x1,1b
	b	7f
5:
	sub	x22,x20,x1
	sub	x8,x22,x9
	add	x23,x8,#1
	mov	w24,#1
	cbnz	x1,1b
	b	4f
7:
	cmp	w24,#1
	b.ne	3f
4:
	mov	w0,#0
	sub	x8,x22,x23
	stp	x23,x8,[x19]
	str	x22,[x19,#16]
	strb	w21,[x19,#24]
	stur	wzr,[x19,#25]
	str	wzr,[x19,#28]
	ldp	x29,x30,[sp,#48]
	ldp	x20,x19,[sp,#32]
	ldp	x22,x21,[sp,#16]
	ldp	x24,x23,[sp],#64
	ret
3:
	mov	w0,#11
	ldp	x29,x30,[sp,#48]
	ldp	x20,x19,[sp,#32]
	ldp	x22,x21,[sp,#16]
	ldp	x24,x23,[sp],#64
	ret
2:
	mov	w0,#9
	ldp	x29,x30,[sp,#48]
	ldp	x20,x19,[sp,#32]
	ldp	x22,x21,[sp,#16]
	ldp	x24,x23,[sp],#64
	ret
	.cfi_endproc

	.globl	_rtp_92408dd3_rtpw_map_get
	.p2align	2
_rtp_92408dd3_rtpw_map_get:
	.cfi_startproc
	and	x8,x1,#0xff
	ldrsb	w8,[x0,x8]
	and	w9,w1,#0xff
	tst	w8,#0xff
	ccmp	w9,#0,#4,ne
	ccmp	w8,#21,#0,ne
	csel	w8,w8,wzr,lt
	and	w0,w8,#0xff
	ret
	.cfi_endproc

	.globl	_rtp_92408dd3_rtpw_map_remove
	.p2align	2
_rtp_92408dd3_rtpw_map_remove:
	.cfi_startproc
	and	x8,x1,#0xff
	strb	wzr,[x0,x8]
	ret
	.cfi_endproc

	.globl	_rtp_92408dd3_rtpw_map_set
	.p2align	2
_rtp_92408dd3_rtpw_map_set:
	.cfi_startproc
	sxtb	w9,w2
	cmp	w9,#20
	and	w9,w1,#0xff
	ccmp	w9,#0,#4,le
	and	w9,w2,#0xff
	ccmp	w9,#0,#4,ne
	b.ne	1f
	mov	w0,#9
	ret
1:
	mov	x8,x0
	mov	w0,#0
	and	x9,x1,#0xff
	strb	w2,[x8,x9]
	ret
	.cfi_endproc

	.section	__TEXT,__literal8,8byte_literals
	.p2align	3,0x0
lrtp_92408dd3_CPI91_0:
	.byte	0
	.byte	3
	.byte	1
	.byte	6
	.space	1
	.space	1
	.space	1
	.space	1
lrtp_92408dd3_CPI91_1:
	.byte	10
	.byte	11
	.byte	0
	.byte	5
	.space	1
	.space	1
	.space	1
	.space	1
	.section	__TEXT,__text,regular,pure_instructions
	.globl	_rtp_92408dd3_rtpw_map_standard
	.p2align	2
_rtp_92408dd3_rtpw_map_standard:
	.cfi_startproc
Lrtp_92408dd3_loh78:
	adrp	x8,lrtp_92408dd3_CPI91_0@PAGE
Lrtp_92408dd3_loh79:
	ldr	d0,[x8,lrtp_92408dd3_CPI91_0@PAGEOFF]
	str	s0,[x0]
	mov	w8,#12
	strb	w8,[x0,#4]
	stur	wzr,[x0,#5]
	strb	wzr,[x0,#9]
Lrtp_92408dd3_loh80:
	adrp	x8,lrtp_92408dd3_CPI91_1@PAGE
Lrtp_92408dd3_loh81:
	ldr	d0,[x8,lrtp_92408dd3_CPI91_1@PAGEOFF]
	stur	s0,[x0,#10]
	movi.2d	v0,#0000000000000000
	stur	q0,[x0,#14]
	stur	q0,[x0,#30]
	stur	q0,[x0,#46]
	stur	q0,[x0,#62]
	stur	q0,[x0,#78]
	stur	q0,[x0,#94]
	stur	q0,[x0,#110]
	stur	q0,[x0,#126]
	stur	q0,[x0,#142]
	stur	q0,[x0,#158]
	stur	q0,[x0,#174]
	stur	q0,[x0,#190]
	stur	q0,[x0,#206]
	stur	q0,[x0,#222]
	stur	q0,[x0,#238]
	strh	wzr,[x0,#254]
	ret
	.loh AdrpLdr	Lrtp_92408dd3_loh80,Lrtp_92408dd3_loh81
	.loh AdrpLdr	Lrtp_92408dd3_loh78,Lrtp_92408dd3_loh79
	.cfi_endproc

	.globl	_rtp_92408dd3_rtpw_new_ids_between
	.p2align	2
_rtp_92408dd3_rtpw_new_ids_between:
	.cfi_startproc
	mov	x8,#0
	movi.2d	v0,#0000000000000000
	stp	q0,q0,[x2,#224]
	stp	q0,q0,[x2,#192]
	stp	q0,q0,[x2,#160]
	stp	q0,q0,[x2,#128]
	stp	q0,q0,[x2,#96]
	stp	q0,q0,[x2,#64]
	stp	q0,q0,[x2,#32]
	stp	q0,q0,[x2]
	ldp	q1,q2,[x0,#144]
	ldp	q3,q4,[x0,#80]
	orr.16b	v1,v1,v3
	ldp	q3,q5,[x0,#208]
	orr.16b	v1,v3,v1
	ldp	q6,q3,[x0,#112]
	ldp	q16,q7,[x0,#48]
	orr.16b	v3,v3,v7
	ldp	q17,q7,[x0,#176]
	orr.16b	v3,v7,v3
	orr.16b	v6,v6,v16
	orr.16b	v6,v17,v6
	ldp	q7,q16,[x0,#16]
	orr.16b	v4,v4,v16
	orr.16b	v2,v2,v4
	orr.16b	v2,v6,v2
	orr.16b	v2,v3,v2
	orr.16b	v1,v1,v2
	ext.16b	v2,v1,v1,#8
	orr.8b	v1,v1,v2
	fmov	x9,d1
	orr	x9,x9,x9,lsr #32
	lsr	x10,x9,#16
	orr	w9,w9,w10
	orr	w9,w9,w9,lsr #8
	mov.b	v0[0],w9
	ldr	q1,[x0,#240]
	orr.16b	v1,v1,v5
	orr.16b	v1,v7,v1
	orr.16b	v0,v1,v0
	ext.16b	v1,v0,v0,#8
	orr.8b	v0,v0,v1
	fmov	x9,d0
	orr	x9,x9,x9,lsr #32
	lsr	x10,x9,#16
	orr	w9,w9,w10
	orr	w9,w9,w9,lsr #8
	tst	w9,#0xff
	mov	w9,#256
	mov	w10,#16
	csel	x9,x10,x9,eq
	add	x10,x1,#1
	b	1f
2:
	add	w11,w12,#1
3:
	strb	w11,[x2,x8]
4:
	add	x8,x8,#1
	cmp	x8,x9
	b.eq	5f
1:
	and	x11,x8,#0xff
	ldrsb	w12,[x0,x11]
	and	w11,w12,#0xff
	cmp	w12,#20
	ccmp	x8,#0,#4,le
	ccmp	w11,#0,#4,ne
	b.eq	4b
	mov	x12,#0
1:
	ldrb	w13,[x10,x12]
	cmp	w13,w11
	b.eq	2b
	add	x12,x12,#1
	cmp	x12,#255
	b.ne	1b
	mov	w11,#0
	b	3b
5:
	ret
	.cfi_endproc

	.section	__TEXT,__literal16,16byte_literals
	.p2align	4,0x0
lrtp_92408dd3_CPI93_0:
	.byte	0
	.byte	1
	.byte	2
	.byte	3
	.byte	4
	.byte	5
	.byte	6
	.byte	7
	.byte	8
	.byte	9
	.byte	10
	.byte	11
	.byte	12
	.byte	13
	.byte	14
	.byte	15
lrtp_92408dd3_CPI93_1:
	.byte	16
	.byte	17
	.byte	18
	.byte	19
	.byte	20
	.byte	21
	.byte	22
	.byte	23
	.byte	24
	.byte	25
	.byte	26
	.byte	27
	.byte	28
	.byte	29
	.byte	30
	.byte	31
lrtp_92408dd3_CPI93_2:
	.byte	32
	.byte	33
	.byte	34
	.byte	35
	.byte	36
	.byte	37
	.byte	38
	.byte	39
	.byte	40
	.byte	41
	.byte	42
	.byte	43
	.byte	44
	.byte	45
	.byte	46
	.byte	47
lrtp_92408dd3_CPI93_3:
	.byte	48
	.byte	49
	.byte	50
	.byte	51
	.byte	52
	.byte	53
	.byte	54
	.byte	55
	.byte	56
	.byte	57
	.byte	58
	.byte	59
	.byte	60
	.byte	61
	.byte	62
	.byte	63
lrtp_92408dd3_CPI93_4:
	.byte	64
	.byte	65
	.byte	66
	.byte	67
	.byte	68
	.byte	69
	.byte	70
	.byte	71
	.byte	72
	.byte	73
	.byte	74
	.byte	75
	.byte	76
	.byte	77
	.byte	78
	.byte	79
lrtp_92408dd3_CPI93_5:
	.byte	80
	.byte	81
	.byte	82
	.byte	83
	.byte	84
	.byte	85
	.byte	86
	.byte	87
	.byte	88
	.byte	89
	.byte	90
	.byte	91
	.byte	92
	.byte	93
	.byte	94
	.byte	95
lrtp_92408dd3_CPI93_6:
	.byte	96
	.byte	97
	.byte	98
	.byte	99
	.byte	100
	.byte	101
	.byte	102
	.byte	103
	.byte	104
	.byte	105
	.byte	106
	.byte	107
	.byte	108
	.byte	109
	.byte	110
	.byte	111
lrtp_92408dd3_CPI93_7:
	.byte	112
	.byte	113
	.byte	114
	.byte	115
	.byte	116
	.byte	117
	.byte	118
	.byte	119
	.byte	120
	.byte	121
	.byte	122
	.byte	123
	.byte	124
	.byte	125
	.byte	126
	.byte	127
lrtp_92408dd3_CPI93_8:
	.byte	128
	.byte	129
	.byte	130
	.byte	131
	.byte	132
	.byte	133
	.byte	134
	.byte	135
	.byte	136
	.byte	137
	.byte	138
	.byte	139
	.byte	140
	.byte	141
	.byte	142
	.byte	143
lrtp_92408dd3_CPI93_9:
	.byte	144
	.byte	145
	.byte	146
	.byte	147
	.byte	148
	.byte	149
	.byte	150
	.byte	151
	.byte	152
	.byte	153
	.byte	154
	.byte	155
	.byte	156
	.byte	157
	.byte	158
	.byte	159
lrtp_92408dd3_CPI93_10:
	.byte	160
	.byte	161
	.byte	162
	.byte	163
	.byte	164
	.byte	165
	.byte	166
	.byte	167
	.byte	168
	.byte	169
	.byte	170
	.byte	171
	.byte	172
	.byte	173
	.byte	174
	.byte	175
lrtp_92408dd3_CPI93_11:
	.byte	176
	.byte	177
	.byte	178
	.byte	179
	.byte	180
	.byte	181
	.byte	182
	.byte	183
	.byte	184
	.byte	185
	.byte	186
	.byte	187
	.byte	188
	.byte	189
	.byte	190
	.byte	191
lrtp_92408dd3_CPI93_12:
	.byte	192
	.byte	193
	.byte	194
	.byte	195
	.byte	196
	.byte	197
	.byte	198
	.byte	199
	.byte	200
	.byte	201
	.byte	202
	.byte	203
	.byte	204
	.byte	205
	.byte	206
	.byte	207
lrtp_92408dd3_CPI93_13:
	.byte	208
	.byte	209
	.byte	210
	.byte	211
	.byte	212
	.byte	213
	.byte	214
	.byte	215
	.byte	216
	.byte	217
	.byte	218
	.byte	219
	.byte	220
	.byte	221
	.byte	222
	.byte	223
lrtp_92408dd3_CPI93_14:
	.byte	224
	.byte	225
	.byte	226
	.byte	227
	.byte	228
	.byte	229
	.byte	230
	.byte	231
	.byte	232
	.byte	233
	.byte	234
	.byte	235
	.byte	236
	.byte	237
	.byte	238
	.byte	239
lrtp_92408dd3_CPI93_15:
	.byte	240
	.byte	241
	.byte	242
	.byte	243
	.byte	244
	.byte	245
	.byte	246
	.byte	247
	.byte	248
	.byte	249
	.byte	250
	.byte	251
	.byte	252
	.byte	253
	.byte	254
	.byte	255
lrtp_92408dd3_CPI93_16:
	.byte	1
	.byte	2
	.byte	4
	.byte	8
	.byte	16
	.byte	32
	.byte	64
	.byte	128
	.byte	1
	.byte	2
	.byte	4
	.byte	8
	.byte	16
	.byte	32
	.byte	64
	.byte	128
	.section	__TEXT,__text,regular,pure_instructions
	.globl	_rtp_92408dd3_rtpw_new_ids_from_retransmission
	.p2align	2
_rtp_92408dd3_rtpw_new_ids_from_retransmission:
	.cfi_startproc
	sub	sp,sp,#304
	stp	x28,x27,[sp,#256]
	stp	x20,x19,[sp,#272]
	stp	x29,x30,[sp,#288]
	.cfi_def_cfa_offset 304
	.cfi_offset w30,-8
	.cfi_offset w29,-16
	.cfi_offset w19,-24
	.cfi_offset w20,-32
	.cfi_offset w27,-40
	.cfi_offset w28,-48
	mov	x19,x1
	mov	x20,x0
Lrtp_92408dd3_loh82:
	adrp	x8,lrtp_92408dd3_CPI93_0@PAGE
Lrtp_92408dd3_loh83:
	ldr	q0,[x8,lrtp_92408dd3_CPI93_0@PAGEOFF]
Lrtp_92408dd3_loh84:
	adrp	x8,lrtp_92408dd3_CPI93_1@PAGE
Lrtp_92408dd3_loh85:
	ldr	q1,[x8,lrtp_92408dd3_CPI93_1@PAGEOFF]
	stp	q0,q1,[sp]
Lrtp_92408dd3_loh86:
	adrp	x8,lrtp_92408dd3_CPI93_2@PAGE
Lrtp_92408dd3_loh87:
	ldr	q0,[x8,lrtp_92408dd3_CPI93_2@PAGEOFF]
Lrtp_92408dd3_loh88:
	adrp	x8,lrtp_92408dd3_CPI93_3@PAGE
Lrtp_92408dd3_loh89:
	ldr	q1,[x8,lrtp_92408dd3_CPI93_3@PAGEOFF]
	stp	q0,q1,[sp,#32]
Lrtp_92408dd3_loh90:
	adrp	x8,lrtp_92408dd3_CPI93_4@PAGE
Lrtp_92408dd3_loh91:
	ldr	q0,[x8,lrtp_92408dd3_CPI93_4@PAGEOFF]
Lrtp_92408dd3_loh92:
	adrp	x8,lrtp_92408dd3_CPI93_5@PAGE
Lrtp_92408dd3_loh93:
	ldr	q1,[x8,lrtp_92408dd3_CPI93_5@PAGEOFF]
	stp	q0,q1,[sp,#64]
Lrtp_92408dd3_loh94:
	adrp	x8,lrtp_92408dd3_CPI93_6@PAGE
Lrtp_92408dd3_loh95:
	ldr	q0,[x8,lrtp_92408dd3_CPI93_6@PAGEOFF]
Lrtp_92408dd3_loh96:
	adrp	x8,lrtp_92408dd3_CPI93_7@PAGE
Lrtp_92408dd3_loh97:
	ldr	q1,[x8,lrtp_92408dd3_CPI93_7@PAGEOFF]
	stp	q0,q1,[sp,#96]
Lrtp_92408dd3_loh98:
	adrp	x8,lrtp_92408dd3_CPI93_8@PAGE
Lrtp_92408dd3_loh99:
	ldr	q0,[x8,lrtp_92408dd3_CPI93_8@PAGEOFF]
Lrtp_92408dd3_loh100:
	adrp	x8,lrtp_92408dd3_CPI93_9@PAGE
Lrtp_92408dd3_loh101:
	ldr	q1,[x8,lrtp_92408dd3_CPI93_9@PAGEOFF]
	stp	q0,q1,[sp,#128]
Lrtp_92408dd3_loh102:
	adrp	x8,lrtp_92408dd3_CPI93_10@PAGE
Lrtp_92408dd3_loh103:
	ldr	q0,[x8,lrtp_92408dd3_CPI93_10@PAGEOFF]
Lrtp_92408dd3_loh104:
	adrp	x8,lrtp_92408dd3_CPI93_11@PAGE
Lrtp_92408dd3_loh105:
	ldr	q1,[x8,lrtp_92408dd3_CPI93_11@PAGEOFF]
	stp	q0,q1,[sp,#160]
Lrtp_92408dd3_loh106:
	adrp	x8,lrtp_92408dd3_CPI93_12@PAGE
Lrtp_92408dd3_loh107:
	ldr	q0,[x8,lrtp_92408dd3_CPI93_12@PAGEOFF]
Lrtp_92408dd3_loh108:
	adrp	x8,lrtp_92408dd3_CPI93_13@PAGE
Lrtp_92408dd3_loh109:
	ldr	q1,[x8,lrtp_92408dd3_CPI93_13@PAGEOFF]
	stp	q0,q1,[sp,#192]
Lrtp_92408dd3_loh110:
	adrp	x8,lrtp_92408dd3_CPI93_14@PAGE
Lrtp_92408dd3_loh111:
	ldr	q0,[x8,lrtp_92408dd3_CPI93_14@PAGEOFF]
Lrtp_92408dd3_loh112:
	adrp	x8,lrtp_92408dd3_CPI93_15@PAGE
Lrtp_92408dd3_loh113:
	ldr	q1,[x8,lrtp_92408dd3_CPI93_15@PAGEOFF]
	stp	q0,q1,[sp,#224]
	ldp	q0,q1,[x0,#144]
	ldp	q2,q3,[x0,#80]
	orr.16b	v0,v0,v2
	ldp	q2,q4,[x0,#208]
	orr.16b	v0,v2,v0
	ldp	q5,q2,[x0,#112]
	ldp	q7,q6,[x0,#48]
	orr.16b	v2,v2,v6
	ldp	q16,q6,[x0,#176]
	orr.16b	v2,v6,v2
	orr.16b	v5,v5,v7
	orr.16b	v5,v16,v5
	ldp	q6,q7,[x0,#16]
	orr.16b	v3,v3,v7
	orr.16b	v1,v1,v3
	orr.16b	v1,v5,v1
	orr.16b	v1,v2,v1
	orr.16b	v0,v0,v1
	ext.16b	v1,v0,v0,#8
	orr.8b	v0,v0,v1
	fmov	x8,d0
	orr	x8,x8,x8,lsr #32
	lsr	x9,x8,#16
	orr	w8,w8,w9
	orr	w8,w8,w8,lsr #8
	movi.2d	v0,#0000000000000000
	mov.b	v0[0],w8
	ldr	q1,[x0,#240]
	orr.16b	v1,v1,v4
	orr.16b	v1,v6,v1
	orr.16b	v0,v1,v0
	ext.16b	v1,v0,v0,#8
	orr.8b	v0,v0,v1
	fmov	x8,d0
	orr	x8,x8,x8,lsr #32
	lsr	x9,x8,#16
	orr	w8,w8,w9
	orr	w8,w8,w8,lsr #8
	tst	w8,#0xff
	b.eq	1f
	mov	w1,#15
	b	2f
1:
	ldr	q0,[x20]
Lrtp_92408dd3_loh114:
	adrp	x8,lrtp_92408dd3_CPI93_16@PAGE
Lrtp_92408dd3_loh115:
	ldr	q1,[x8,lrtp_92408dd3_CPI93_16@PAGEOFF]
	cmeq.16b	v0,v0,#0
	bic.16b	v0,v1,v0
	ext.16b	v1,v0,v0,#8
	zip1.16b	v0,v0,v1
	addv.8h	h0,v0
	fmov	w8,s0
	orr	w8,w8,#0x1
	and	x8,x8,#0xffff
	clz	x8,x8
	eor	x1,x8,#0x3f
2:
	mov	x0,x20
	mov	w2,#10
	mov	w3,#9
	bl	_rtp_92408dd3_rtp_ext.renamed_ids.lowest_beside.d4d397b1ff315637
	and	w8,w0,#0xff
	cmp	w8,#1
	b.ne	1f
	dup.16b	v0,w1
	mov	x8,sp
	ldur	q3,[x20,#1]
	ldur	q4,[x20,#17]
	ldur	q5,[x20,#33]
	ldur	q6,[x20,#49]
	ldur	q7,[sp,#1]
	ldur	q16,[sp,#17]
	ldur	q17,[sp,#33]
	ldur	q18,[sp,#49]
	movi.16b	v2,#11
	cmeq.16b	v19,v3,v2
	cmeq.16b	v20,v4,v2
	cmeq.16b	v21,v5,v2
	cmeq.16b	v22,v6,v2
	movi.16b	v1,#10
	cmeq.16b	v3,v3,v1
	bic.16b	v3,v7,v3
	cmeq.16b	v4,v4,v1
	bic.16b	v4,v16,v4
	cmeq.16b	v5,v5,v1
	bic.16b	v5,v17,v5
	cmeq.16b	v6,v6,v1
	bit.16b	v3,v0,v19
	stur	q3,[sp,#1]
	mov.16b	v3,v20
	bsl.16b	v3,v0,v4
	stur	q3,[sp,#17]
	bic.16b	v3,v18,v6
	mov.16b	v4,v21
	bsl.16b	v4,v0,v5
	stur	q4,[sp,#33]
	bit.16b	v3,v0,v22
	stur	q3,[sp,#49]
	ldur	q3,[x20,#65]
	ldur	q4,[x20,#81]
	ldur	q5,[x20,#97]
	ldur	q6,[x20,#113]
	ldur	q7,[sp,#65]
	ldur	q16,[sp,#81]
	ldur	q17,[sp,#97]
	ldur	q18,[sp,#113]
	cmeq.16b	v19,v3,v2
	cmeq.16b	v20,v4,v2
	cmeq.16b	v21,v5,v2
	cmeq.16b	v22,v6,v2
	cmeq.16b	v3,v3,v1
	bic.16b	v3,v7,v3
	cmeq.16b	v4,v4,v1
	bic.16b	v4,v16,v4
	cmeq.16b	v5,v5,v1
	bic.16b	v5,v17,v5
	cmeq.16b	v6,v6,v1
	bic.16b	v6,v18,v6
	bit.16b	v3,v0,v19
	bit.16b	v4,v0,v20
	stur	q3,[sp,#65]
	mov.16b	v3,v21
	bsl.16b	v3,v0,v5
	stur	q4,[sp,#81]
	mov.16b	v4,v22
	bsl.16b	v4,v0,v6
	stur	q3,[sp,#97]
	stur	q4,[sp,#113]
	ldur	q3,[x20,#129]
	ldur	q4,[x20,#145]
	ldur	q5,[x20,#161]
	ldur	q6,[x20,#177]
	ldur	q7,[x8,#129]
	ldur	q16,[x8,#145]
	ldur	q17,[x8,#161]
	ldur	q18,[x8,#177]
	cmeq.16b	v19,v3,v2
	cmeq.16b	v20,v4,v2
	cmeq.16b	v21,v5,v2
	cmeq.16b	v2,v6,v2
	cmeq.16b	v3,v3,v1
	bic.16b	v3,v7,v3
	cmeq.16b	v4,v4,v1
	bic.16b	v4,v16,v4
	cmeq.16b	v5,v5,v1
	bic.16b	v5,v17,v5
	cmeq.16b	v1,v6,v1
	bic.16b	v1,v18,v1
	bit.16b	v3,v0,v19
	bit.16b	v4,v0,v20
	bit.16b	v5,v0,v21
	bit.16b	v1,v0,v2
	stur	q3,[x8,#129]
	stur	q4,[x8,#145]
	stur	q5,[x8,#161]
	stur	q1,[x8,#177]
	ldur	d1,[x20,#193]
	ldur	d2,[x8,#193]
	movi.8b	v3,#11
	cmeq.8b	v4,v1,v3
	movi.8b	v5,#10
	cmeq.8b	v1,v1,v5
	bic.8b	v1,v2,v1
	bit.8b	v1,v0,v4
	stur	d1,[x8,#193]
	ldur	d1,[x20,#201]
	ldur	d2,[x8,#201]
	cmeq.8b	v4,v1,v3
	cmeq.8b	v1,v1,v5
	bic.8b	v1,v2,v1
	bit.8b	v1,v0,v4
	stur	d1,[x8,#201]
	ldur	d1,[x20,#209]
	ldur	d2,[x8,#209]
	cmeq.8b	v4,v1,v3
	cmeq.8b	v1,v1,v5
	bic.8b	v1,v2,v1
	bit.8b	v1,v0,v4
	stur	d1,[x8,#209]
	ldur	d1,[x20,#217]
	ldur	d2,[x8,#217]
	cmeq.8b	v4,v1,v3
	cmeq.8b	v1,v1,v5
	bic.8b	v1,v2,v1
	bit.8b	v1,v0,v4
	stur	d1,[x8,#217]
	ldur	d1,[x20,#225]
	ldur	d2,[x8,#225]
	cmeq.8b	v4,v1,v3
	cmeq.8b	v1,v1,v5
	bic.8b	v1,v2,v1
	bit.8b	v1,v0,v4
	stur	d1,[x8,#225]
	ldur	d1,[x20,#233]
	ldur	d2,[x8,#233]
	cmeq.8b	v4,v1,v3
	cmeq.8b	v1,v1,v5
	bic.8b	v1,v2,v1
	bit.8b	v1,v0,v4
	stur	d1,[x8,#233]
	ldur	d1,[x20,#241]
	ldur	d2,[x8,#241]
	cmeq.8b	v3,v1,v3
	cmeq.8b	v1,v1,v5
	bic.8b	v1,v2,v1
	bif.8b	v0,v1,v3
	stur	d0,[x8,#241]
	ldrb	w8,[x20,#249]
	ldrb	w9,[sp,#249]
	cmp	w8,#10
	csel	w9,wzr,w9,eq
	cmp	w8,#11
	csel	w8,w1,w9,eq
	strb	w8,[sp,#249]
	ldrb	w8,[x20,#250]
	ldrb	w9,[sp,#250]
	cmp	w8,#10
	csel	w9,wzr,w9,eq
	cmp	w8,#11
	csel	w8,w1,w9,eq
	strb	w8,[sp,#250]
	ldrb	w8,[x20,#251]
	ldrb	w9,[sp,#251]
	cmp	w8,#10
	csel	w9,wzr,w9,eq
	cmp	w8,#11
	csel	w8,w1,w9,eq
	strb	w8,[sp,#251]
	ldrb	w8,[x20,#252]
	ldrb	w9,[sp,#252]
	cmp	w8,#10
	csel	w9,wzr,w9,eq
	cmp	w8,#11
	csel	w8,w1,w9,eq
	strb	w8,[sp,#252]
	ldrb	w8,[x20,#253]
	ldrb	w9,[sp,#253]
	cmp	w8,#10
	csel	w9,wzr,w9,eq
	cmp	w8,#11
	csel	w8,w1,w9,eq
	strb	w8,[sp,#253]
	ldrb	w8,[x20,#254]
	ldrb	w9,[sp,#254]
	cmp	w8,#10
	csel	w9,wzr,w9,eq
	cmp	w8,#11
	csel	w8,w1,w9,eq
	strb	w8,[sp,#254]
	ldrb	w8,[x20,#255]
	ldrb	w9,[sp,#255]
	cmp	w8,#10
	csel	w9,wzr,w9,eq
	cmp	w8,#11
	csel	w8,w1,w9,eq
	strb	w8,[sp,#255]
1:
	ldp	q0,q1,[sp,#192]
	stp	q0,q1,[x19,#192]
	ldp	q0,q1,[sp,#224]
	stp	q0,q1,[x19,#224]
	ldp	q0,q1,[sp,#128]
	stp	q0,q1,[x19,#128]
	ldp	q0,q1,[sp,#160]
	stp	q0,q1,[x19,#160]
	ldp	q0,q1,[sp,#64]
	stp	q0,q1,[x19,#64]
	ldp	q0,q1,[sp,#96]
	stp	q0,q1,[x19,#96]
	ldp	q0,q1,[sp]
	stp	q0,q1,[x19]
	ldp	q0,q1,[sp,#32]
	stp	q0,q1,[x19,#32]
	ldp	x29,x30,[sp,#288]
	ldp	x20,x19,[sp,#272]
	ldp	x28,x27,[sp,#256]
	add	sp,sp,#304
	ret
	.loh AdrpLdr	Lrtp_92408dd3_loh112,Lrtp_92408dd3_loh113
	.loh AdrpAdrp	Lrtp_92408dd3_loh110,Lrtp_92408dd3_loh112
	.loh AdrpLdr	Lrtp_92408dd3_loh110,Lrtp_92408dd3_loh111
	.loh AdrpAdrp	Lrtp_92408dd3_loh108,Lrtp_92408dd3_loh110
	.loh AdrpLdr	Lrtp_92408dd3_loh108,Lrtp_92408dd3_loh109
	.loh AdrpAdrp	Lrtp_92408dd3_loh106,Lrtp_92408dd3_loh108
	.loh AdrpLdr	Lrtp_92408dd3_loh106,Lrtp_92408dd3_loh107
	.loh AdrpAdrp	Lrtp_92408dd3_loh104,Lrtp_92408dd3_loh106
	.loh AdrpLdr	Lrtp_92408dd3_loh104,Lrtp_92408dd3_loh105
	.loh AdrpAdrp	Lrtp_92408dd3_loh102,Lrtp_92408dd3_loh104
	.loh AdrpLdr	Lrtp_92408dd3_loh102,Lrtp_92408dd3_loh103
	.loh AdrpAdrp	Lrtp_92408dd3_loh100,Lrtp_92408dd3_loh102
	.loh AdrpLdr	Lrtp_92408dd3_loh100,Lrtp_92408dd3_loh101
	.loh AdrpAdrp	Lrtp_92408dd3_loh98,Lrtp_92408dd3_loh100
	.loh AdrpLdr	Lrtp_92408dd3_loh98,Lrtp_92408dd3_loh99
	.loh AdrpAdrp	Lrtp_92408dd3_loh96,Lrtp_92408dd3_loh98
	.loh AdrpLdr	Lrtp_92408dd3_loh96,Lrtp_92408dd3_loh97
	.loh AdrpAdrp	Lrtp_92408dd3_loh94,Lrtp_92408dd3_loh96
	.loh AdrpLdr	Lrtp_92408dd3_loh94,Lrtp_92408dd3_loh95
	.loh AdrpAdrp	Lrtp_92408dd3_loh92,Lrtp_92408dd3_loh94
	.loh AdrpLdr	Lrtp_92408dd3_loh92,Lrtp_92408dd3_loh93
	.loh AdrpAdrp	Lrtp_92408dd3_loh90,Lrtp_92408dd3_loh92
	.loh AdrpLdr	Lrtp_92408dd3_loh90,Lrtp_92408dd3_loh91
	.loh AdrpAdrp	Lrtp_92408dd3_loh88,Lrtp_92408dd3_loh90
	.loh AdrpLdr	Lrtp_92408dd3_loh88,Lrtp_92408dd3_loh89
	.loh AdrpAdrp	Lrtp_92408dd3_loh86,Lrtp_92408dd3_loh88
	.loh AdrpLdr	Lrtp_92408dd3_loh86,Lrtp_92408dd3_loh87
	.loh AdrpAdrp	Lrtp_92408dd3_loh84,Lrtp_92408dd3_loh86
	.loh AdrpLdr	Lrtp_92408dd3_loh84,Lrtp_92408dd3_loh85
	.loh AdrpAdrp	Lrtp_92408dd3_loh82,Lrtp_92408dd3_loh84
	.loh AdrpLdr	Lrtp_92408dd3_loh82,Lrtp_92408dd3_loh83
	.loh AdrpLdr	Lrtp_92408dd3_loh114,Lrtp_92408dd3_loh115
	.cfi_endproc

	.section	__TEXT,__literal16,16byte_literals
	.p2align	4,0x0
lrtp_92408dd3_CPI94_0:
	.byte	0
	.byte	1
	.byte	2
	.byte	3
	.byte	4
	.byte	5
	.byte	6
	.byte	7
	.byte	8
	.byte	9
	.byte	10
	.byte	11
	.byte	12
	.byte	13
	.byte	14
	.byte	15
lrtp_92408dd3_CPI94_1:
	.byte	16
	.byte	17
	.byte	18
	.byte	19
	.byte	20
	.byte	21
	.byte	22
	.byte	23
	.byte	24
	.byte	25
	.byte	26
	.byte	27
	.byte	28
	.byte	29
	.byte	30
	.byte	31
lrtp_92408dd3_CPI94_2:
	.byte	32
	.byte	33
	.byte	34
	.byte	35
	.byte	36
	.byte	37
	.byte	38
	.byte	39
	.byte	40
	.byte	41
	.byte	42
	.byte	43
	.byte	44
	.byte	45
	.byte	46
	.byte	47
lrtp_92408dd3_CPI94_3:
	.byte	48
	.byte	49
	.byte	50
	.byte	51
	.byte	52
	.byte	53
	.byte	54
	.byte	55
	.byte	56
	.byte	57
	.byte	58
	.byte	59
	.byte	60
	.byte	61
	.byte	62
	.byte	63
lrtp_92408dd3_CPI94_4:
	.byte	64
	.byte	65
	.byte	66
	.byte	67
	.byte	68
	.byte	69
	.byte	70
	.byte	71
	.byte	72
	.byte	73
	.byte	74
	.byte	75
	.byte	76
	.byte	77
	.byte	78
	.byte	79
lrtp_92408dd3_CPI94_5:
	.byte	80
	.byte	81
	.byte	82
	.byte	83
	.byte	84
	.byte	85
	.byte	86
	.byte	87
	.byte	88
	.byte	89
	.byte	90
	.byte	91
	.byte	92
	.byte	93
	.byte	94
	.byte	95
lrtp_92408dd3_CPI94_6:
	.byte	96
	.byte	97
	.byte	98
	.byte	99
	.byte	100
	.byte	101
	.byte	102
	.byte	103
	.byte	104
	.byte	105
	.byte	106
	.byte	107
	.byte	108
	.byte	109
	.byte	110
	.byte	111
lrtp_92408dd3_CPI94_7:
	.byte	112
	.byte	113
	.byte	114
	.byte	115
	.byte	116
	.byte	117
	.byte	118
	.byte	119
	.byte	120
	.byte	121
	.byte	122
	.byte	123
	.byte	124
	.byte	125
	.byte	126
	.byte	127
lrtp_92408dd3_CPI94_8:
	.byte	128
	.byte	129
	.byte	130
	.byte	131
	.byte	132
	.byte	133
	.byte	134
	.byte	135
	.byte	136
	.byte	137
	.byte	138
	.byte	139
	.byte	140
	.byte	141
	.byte	142
	.byte	143
lrtp_92408dd3_CPI94_9:
	.byte	144
	.byte	145
	.byte	146
	.byte	147
	.byte	148
	.byte	149
	.byte	150
	.byte	151
	.byte	152
	.byte	153
	.byte	154
	.byte	155
	.byte	156
	.byte	157
	.byte	158
	.byte	159
lrtp_92408dd3_CPI94_10:
	.byte	160
	.byte	161
	.byte	162
	.byte	163
	.byte	164
	.byte	165
	.byte	166
	.byte	167
	.byte	168
	.byte	169
	.byte	170
	.byte	171
	.byte	172
	.byte	173
	.byte	174
	.byte	175
lrtp_92408dd3_CPI94_11:
	.byte	176
	.byte	177
	.byte	178
	.byte	179
	.byte	180
	.byte	181
	.byte	182
	.byte	183
	.byte	184
	.byte	185
	.byte	186
	.byte	187
	.byte	188
	.byte	189
	.byte	190
	.byte	191
lrtp_92408dd3_CPI94_12:
	.byte	192
	.byte	193
	.byte	194
	.byte	195
	.byte	196
	.byte	197
	.byte	198
	.byte	199
	.byte	200
	.byte	201
	.byte	202
	.byte	203
	.byte	204
	.byte	205
	.byte	206
	.byte	207
lrtp_92408dd3_CPI94_13:
	.byte	208
	.byte	209
	.byte	210
	.byte	211
	.byte	212
	.byte	213
	.byte	214
	.byte	215
	.byte	216
	.byte	217
	.byte	218
	.byte	219
	.byte	220
	.byte	221
	.byte	222
	.byte	223
lrtp_92408dd3_CPI94_14:
	.byte	224
	.byte	225
	.byte	226
	.byte	227
	.byte	228
	.byte	229
	.byte	230
	.byte	231
	.byte	232
	.byte	233
	.byte	234
	.byte	235
	.byte	236
	.byte	237
	.byte	238
	.byte	239
lrtp_92408dd3_CPI94_15:
	.byte	240
	.byte	241
	.byte	242
	.byte	243
	.byte	244
	.byte	245
	.byte	246
	.byte	247
	.byte	248
	.byte	249
	.byte	250
	.byte	251
	.byte	252
	.byte	253
	.byte	254
	.byte	255
lrtp_92408dd3_CPI94_16:
	.byte	1
	.byte	2
	.byte	4
	.byte	8
	.byte	16
	.byte	32
	.byte	64
	.byte	128
	.byte	1
	.byte	2
	.byte	4
	.byte	8
	.byte	16
	.byte	32
	.byte	64
	.byte	128
	.section	__TEXT,__text,regular,pure_instructions
	.globl	_rtp_92408dd3_rtpw_new_ids_to_retransmission
	.p2align	2
_rtp_92408dd3_rtpw_new_ids_to_retransmission:
	.cfi_startproc
	sub	sp,sp,#304
	stp	x28,x27,[sp,#256]
	stp	x20,x19,[sp,#272]
	stp	x29,x30,[sp,#288]
	.cfi_def_cfa_offset 304
	.cfi_offset w30,-8
	.cfi_offset w29,-16
	.cfi_offset w19,-24
	.cfi_offset w20,-32
	.cfi_offset w27,-40
	.cfi_offset w28,-48
	mov	x19,x1
	mov	x20,x0
Lrtp_92408dd3_loh116:
	adrp	x8,lrtp_92408dd3_CPI94_0@PAGE
Lrtp_92408dd3_loh117:
	ldr	q0,[x8,lrtp_92408dd3_CPI94_0@PAGEOFF]
Lrtp_92408dd3_loh118:
	adrp	x8,lrtp_92408dd3_CPI94_1@PAGE
Lrtp_92408dd3_loh119:
	ldr	q1,[x8,lrtp_92408dd3_CPI94_1@PAGEOFF]
	stp	q0,q1,[sp]
Lrtp_92408dd3_loh120:
	adrp	x8,lrtp_92408dd3_CPI94_2@PAGE
Lrtp_92408dd3_loh121:
	ldr	q0,[x8,lrtp_92408dd3_CPI94_2@PAGEOFF]
Lrtp_92408dd3_loh122:
	adrp	x8,lrtp_92408dd3_CPI94_3@PAGE
Lrtp_92408dd3_loh123:
	ldr	q1,[x8,lrtp_92408dd3_CPI94_3@PAGEOFF]
	stp	q0,q1,[sp,#32]
Lrtp_92408dd3_loh124:
	adrp	x8,lrtp_92408dd3_CPI94_4@PAGE
Lrtp_92408dd3_loh125:
	ldr	q0,[x8,lrtp_92408dd3_CPI94_4@PAGEOFF]
Lrtp_92408dd3_loh126:
	adrp	x8,lrtp_92408dd3_CPI94_5@PAGE
Lrtp_92408dd3_loh127:
	ldr	q1,[x8,lrtp_92408dd3_CPI94_5@PAGEOFF]
	stp	q0,q1,[sp,#64]
Lrtp_92408dd3_loh128:
	adrp	x8,lrtp_92408dd3_CPI94_6@PAGE
Lrtp_92408dd3_loh129:
	ldr	q0,[x8,lrtp_92408dd3_CPI94_6@PAGEOFF]
Lrtp_92408dd3_loh130:
	adrp	x8,lrtp_92408dd3_CPI94_7@PAGE
Lrtp_92408dd3_loh131:
	ldr	q1,[x8,lrtp_92408dd3_CPI94_7@PAGEOFF]
	stp	q0,q1,[sp,#96]
Lrtp_92408dd3_loh132:
	adrp	x8,lrtp_92408dd3_CPI94_8@PAGE
Lrtp_92408dd3_loh133:
	ldr	q0,[x8,lrtp_92408dd3_CPI94_8@PAGEOFF]
Lrtp_92408dd3_loh134:
	adrp	x8,lrtp_92408dd3_CPI94_9@PAGE
Lrtp_92408dd3_loh135:
	ldr	q1,[x8,lrtp_92408dd3_CPI94_9@PAGEOFF]
	stp	q0,q1,[sp,#128]
Lrtp_92408dd3_loh136:
	adrp	x8,lrtp_92408dd3_CPI94_10@PAGE
Lrtp_92408dd3_loh137:
	ldr	q0,[x8,lrtp_92408dd3_CPI94_10@PAGEOFF]
Lrtp_92408dd3_loh138:
	adrp	x8,lrtp_92408dd3_CPI94_11@PAGE
Lrtp_92408dd3_loh139:
	ldr	q1,[x8,lrtp_92408dd3_CPI94_11@PAGEOFF]
	stp	q0,q1,[sp,#160]
Lrtp_92408dd3_loh140:
	adrp	x8,lrtp_92408dd3_CPI94_12@PAGE
Lrtp_92408dd3_loh141:
	ldr	q0,[x8,lrtp_92408dd3_CPI94_12@PAGEOFF]
Lrtp_92408dd3_loh142:
	adrp	x8,lrtp_92408dd3_CPI94_13@PAGE
Lrtp_92408dd3_loh143:
	ldr	q1,[x8,lrtp_92408dd3_CPI94_13@PAGEOFF]
	stp	q0,q1,[sp,#192]
Lrtp_92408dd3_loh144:
	adrp	x8,lrtp_92408dd3_CPI94_14@PAGE
Lrtp_92408dd3_loh145:
	ldr	q0,[x8,lrtp_92408dd3_CPI94_14@PAGEOFF]
Lrtp_92408dd3_loh146:
	adrp	x8,lrtp_92408dd3_CPI94_15@PAGE
Lrtp_92408dd3_loh147:
	ldr	q1,[x8,lrtp_92408dd3_CPI94_15@PAGEOFF]
	stp	q0,q1,[sp,#224]
	ldp	q0,q1,[x0,#144]
	ldp	q2,q3,[x0,#80]
	orr.16b	v0,v0,v2
	ldp	q2,q4,[x0,#208]
	orr.16b	v0,v2,v0
	ldp	q5,q2,[x0,#112]
	ldp	q7,q6,[x0,#48]
	orr.16b	v2,v2,v6
	ldp	q16,q6,[x0,#176]
	orr.16b	v2,v6,v2
	orr.16b	v5,v5,v7
	orr.16b	v5,v16,v5
	ldp	q6,q7,[x0,#16]
	orr.16b	v3,v3,v7
	orr.16b	v1,v1,v3
	orr.16b	v1,v5,v1
	orr.16b	v1,v2,v1
	orr.16b	v0,v0,v1
	ext.16b	v1,v0,v0,#8
	orr.8b	v0,v0,v1
	fmov	x8,d0
	orr	x8,x8,x8,lsr #32
	lsr	x9,x8,#16
	orr	w8,w8,w9
	orr	w8,w8,w8,lsr #8
	movi.2d	v0,#0000000000000000
	mov.b	v0[0],w8
	ldr	q1,[x0,#240]
	orr.16b	v1,v1,v4
	orr.16b	v1,v6,v1
	orr.16b	v0,v1,v0
	ext.16b	v1,v0,v0,#8
	orr.8b	v0,v0,v1
	fmov	x8,d0
	orr	x8,x8,x8,lsr #32
	lsr	x9,x8,#16
	orr	w8,w8,w9
	orr	w8,w8,w8,lsr #8
	tst	w8,#0xff
	b.eq	1f
	mov	w1,#15
	b	2f
1:
	ldr	q0,[x20]
Lrtp_92408dd3_loh148:
	adrp	x8,lrtp_92408dd3_CPI94_16@PAGE
Lrtp_92408dd3_loh149:
	ldr	q1,[x8,lrtp_92408dd3_CPI94_16@PAGEOFF]
	cmeq.16b	v0,v0,#0
	bic.16b	v0,v1,v0
	ext.16b	v1,v0,v0,#8
	zip1.16b	v0,v0,v1
	addv.8h	h0,v0
	fmov	w8,s0
	orr	w8,w8,#0x1
	and	x8,x8,#0xffff
	clz	x8,x8
	eor	x1,x8,#0x3f
2:
	mov	x0,x20
	mov	w2,#9
	mov	w3,#10
	bl	_rtp_92408dd3_rtp_ext.renamed_ids.lowest_beside.d4d397b1ff315637
	and	w8,w0,#0xff
	cmp	w8,#1
	b.ne	1f
	dup.16b	v0,w1
	mov	x8,sp
	ldur	q3,[x20,#1]
	ldur	q4,[x20,#17]
	ldur	q5,[x20,#33]
	ldur	q6,[x20,#49]
	ldur	q7,[sp,#1]
	ldur	q16,[sp,#17]
	ldur	q17,[sp,#33]
	ldur	q18,[sp,#49]
	movi.16b	v2,#10
	cmeq.16b	v19,v3,v2
	cmeq.16b	v20,v4,v2
	cmeq.16b	v21,v5,v2
	cmeq.16b	v22,v6,v2
	movi.16b	v1,#11
	cmeq.16b	v3,v3,v1
	bic.16b	v3,v7,v3
	cmeq.16b	v4,v4,v1
	bic.16b	v4,v16,v4
	cmeq.16b	v5,v5,v1
	bic.16b	v5,v17,v5
	cmeq.16b	v6,v6,v1
	bit.16b	v3,v0,v19
	stur	q3,[sp,#1]
	mov.16b	v3,v20
	bsl.16b	v3,v0,v4
	stur	q3,[sp,#17]
	bic.16b	v3,v18,v6
	mov.16b	v4,v21
	bsl.16b	v4,v0,v5
	stur	q4,[sp,#33]
	bit.16b	v3,v0,v22
	stur	q3,[sp,#49]
	ldur	q3,[x20,#65]
	ldur	q4,[x20,#81]
	ldur	q5,[x20,#97]
	ldur	q6,[x20,#113]
	ldur	q7,[sp,#65]
	ldur	q16,[sp,#81]
	ldur	q17,[sp,#97]
	ldur	q18,[sp,#113]
	cmeq.16b	v19,v3,v2
	cmeq.16b	v20,v4,v2
	cmeq.16b	v21,v5,v2
	cmeq.16b	v22,v6,v2
	cmeq.16b	v3,v3,v1
	bic.16b	v3,v7,v3
	cmeq.16b	v4,v4,v1
	bic.16b	v4,v16,v4
	cmeq.16b	v5,v5,v1
	bic.16b	v5,v17,v5
	cmeq.16b	v6,v6,v1
	bic.16b	v6,v18,v6
	bit.16b	v3,v0,v19
	bit.16b	v4,v0,v20
	stur	q3,[sp,#65]
	mov.16b	v3,v21
	bsl.16b	v3,v0,v5
	stur	q4,[sp,#81]
	mov.16b	v4,v22
	bsl.16b	v4,v0,v6
	stur	q3,[sp,#97]
	stur	q4,[sp,#113]
	ldur	q3,[x20,#129]
	ldur	q4,[x20,#145]
	ldur	q5,[x20,#161]
	ldur	q6,[x20,#177]
	ldur	q7,[x8,#129]
	ldur	q16,[x8,#145]
	ldur	q17,[x8,#161]
	ldur	q18,[x8,#177]
	cmeq.16b	v19,v3,v2
	cmeq.16b	v20,v4,v2
	cmeq.16b	v21,v5,v2
	cmeq.16b	v2,v6,v2
	cmeq.16b	v3,v3,v1
	bic.16b	v3,v7,v3
	cmeq.16b	v4,v4,v1
	bic.16b	v4,v16,v4
	cmeq.16b	v5,v5,v1
	bic.16b	v5,v17,v5
	cmeq.16b	v1,v6,v1
	bic.16b	v1,v18,v1
	bit.16b	v3,v0,v19
	bit.16b	v4,v0,v20
	bit.16b	v5,v0,v21
	bit.16b	v1,v0,v2
	stur	q3,[x8,#129]
	stur	q4,[x8,#145]
	stur	q5,[x8,#161]
	stur	q1,[x8,#177]
	ldur	d1,[x20,#193]
	ldur	d2,[x8,#193]
	movi.8b	v3,#10
	cmeq.8b	v4,v1,v3
	movi.8b	v5,#11
	cmeq.8b	v1,v1,v5
	bic.8b	v1,v2,v1
	bit.8b	v1,v0,v4
	stur	d1,[x8,#193]
	ldur	d1,[x20,#201]
	ldur	d2,[x8,#201]
	cmeq.8b	v4,v1,v3
	cmeq.8b	v1,v1,v5
	bic.8b	v1,v2,v1
	bit.8b	v1,v0,v4
	stur	d1,[x8,#201]
	ldur	d1,[x20,#209]
	ldur	d2,[x8,#209]
	cmeq.8b	v4,v1,v3
	cmeq.8b	v1,v1,v5
	bic.8b	v1,v2,v1
	bit.8b	v1,v0,v4
	stur	d1,[x8,#209]
	ldur	d1,[x20,#217]
	ldur	d2,[x8,#217]
	cmeq.8b	v4,v1,v3
	cmeq.8b	v1,v1,v5
	bic.8b	v1,v2,v1
	bit.8b	v1,v0,v4
	stur	d1,[x8,#217]
	ldur	d1,[x20,#225]
	ldur	d2,[x8,#225]
	cmeq.8b	v4,v1,v3
	cmeq.8b	v1,v1,v5
	bic.8b	v1,v2,v1
	bit.8b	v1,v0,v4
	stur	d1,[x8,#225]
	ldur	d1,[x20,#233]
	ldur	d2,[x8,#233]
	cmeq.8b	v4,v1,v3
	cmeq.8b	v1,v1,v5
	bic.8b	v1,v2,v1
	bit.8b	v1,v0,v4
	stur	d1,[x8,#233]
	ldur	d1,[x20,#241]
	ldur	d2,[x8,#241]
	cmeq.8b	v3,v1,v3
	cmeq.8b	v1,v1,v5
	bic.8b	v1,v2,v1
	bif.8b	v0,v1,v3
	stur	d0,[x8,#241]
	ldrb	w8,[x20,#249]
	ldrb	w9,[sp,#249]
	cmp	w8,#11
	csel	w9,wzr,w9,eq
	cmp	w8,#10
	csel	w8,w1,w9,eq
	strb	w8,[sp,#249]
	ldrb	w8,[x20,#250]
	ldrb	w9,[sp,#250]
	cmp	w8,#11
	csel	w9,wzr,w9,eq
	cmp	w8,#10
	csel	w8,w1,w9,eq
	strb	w8,[sp,#250]
	ldrb	w8,[x20,#251]
	ldrb	w9,[sp,#251]
	cmp	w8,#11
	csel	w9,wzr,w9,eq
	cmp	w8,#10
	csel	w8,w1,w9,eq
	strb	w8,[sp,#251]
	ldrb	w8,[x20,#252]
	ldrb	w9,[sp,#252]
	cmp	w8,#11
	csel	w9,wzr,w9,eq
	cmp	w8,#10
	csel	w8,w1,w9,eq
	strb	w8,[sp,#252]
	ldrb	w8,[x20,#253]
	ldrb	w9,[sp,#253]
	cmp	w8,#11
	csel	w9,wzr,w9,eq
	cmp	w8,#10
	csel	w8,w1,w9,eq
	strb	w8,[sp,#253]
	ldrb	w8,[x20,#254]
	ldrb	w9,[sp,#254]
	cmp	w8,#11
	csel	w9,wzr,w9,eq
	cmp	w8,#10
	csel	w8,w1,w9,eq
	strb	w8,[sp,#254]
	ldrb	w8,[x20,#255]
	ldrb	w9,[sp,#255]
	cmp	w8,#11
	csel	w9,wzr,w9,eq
	cmp	w8,#10
	csel	w8,w1,w9,eq
	strb	w8,[sp,#255]
1:
	ldp	q0,q1,[sp,#192]
	stp	q0,q1,[x19,#192]
	ldp	q0,q1,[sp,#224]
	stp	q0,q1,[x19,#224]
	ldp	q0,q1,[sp,#128]
	stp	q0,q1,[x19,#128]
	ldp	q0,q1,[sp,#160]
	stp	q0,q1,[x19,#160]
	ldp	q0,q1,[sp,#64]
	stp	q0,q1,[x19,#64]
	ldp	q0,q1,[sp,#96]
	stp	q0,q1,[x19,#96]
	ldp	q0,q1,[sp]
	stp	q0,q1,[x19]
	ldp	q0,q1,[sp,#32]
	stp	q0,q1,[x19,#32]
	ldp	x29,x30,[sp,#288]
	ldp	x20,x19,[sp,#272]
	ldp	x28,x27,[sp,#256]
	add	sp,sp,#304
	ret
	.loh AdrpLdr	Lrtp_92408dd3_loh146,Lrtp_92408dd3_loh147
	.loh AdrpAdrp	Lrtp_92408dd3_loh144,Lrtp_92408dd3_loh146
	.loh AdrpLdr	Lrtp_92408dd3_loh144,Lrtp_92408dd3_loh145
	.loh AdrpAdrp	Lrtp_92408dd3_loh142,Lrtp_92408dd3_loh144
	.loh AdrpLdr	Lrtp_92408dd3_loh142,Lrtp_92408dd3_loh143
	.loh AdrpAdrp	Lrtp_92408dd3_loh140,Lrtp_92408dd3_loh142
	.loh AdrpLdr	Lrtp_92408dd3_loh140,Lrtp_92408dd3_loh141
	.loh AdrpAdrp	Lrtp_92408dd3_loh138,Lrtp_92408dd3_loh140
	.loh AdrpLdr	Lrtp_92408dd3_loh138,Lrtp_92408dd3_loh139
	.loh AdrpAdrp	Lrtp_92408dd3_loh136,Lrtp_92408dd3_loh138
	.loh AdrpLdr	Lrtp_92408dd3_loh136,Lrtp_92408dd3_loh137
	.loh AdrpAdrp	Lrtp_92408dd3_loh134,Lrtp_92408dd3_loh136
	.loh AdrpLdr	Lrtp_92408dd3_loh134,Lrtp_92408dd3_loh135
	.loh AdrpAdrp	Lrtp_92408dd3_loh132,Lrtp_92408dd3_loh134
	.loh AdrpLdr	Lrtp_92408dd3_loh132,Lrtp_92408dd3_loh133
	.loh AdrpAdrp	Lrtp_92408dd3_loh130,Lrtp_92408dd3_loh132
	.loh AdrpLdr	Lrtp_92408dd3_loh130,Lrtp_92408dd3_loh131
	.loh AdrpAdrp	Lrtp_92408dd3_loh128,Lrtp_92408dd3_loh130
	.loh AdrpLdr	Lrtp_92408dd3_loh128,Lrtp_92408dd3_loh129
	.loh AdrpAdrp	Lrtp_92408dd3_loh126,Lrtp_92408dd3_loh128
	.loh AdrpLdr	Lrtp_92408dd3_loh126,Lrtp_92408dd3_loh127
	.loh AdrpAdrp	Lrtp_92408dd3_loh124,Lrtp_92408dd3_loh126
	.loh AdrpLdr	Lrtp_92408dd3_loh124,Lrtp_92408dd3_loh125
	.loh AdrpAdrp	Lrtp_92408dd3_loh122,Lrtp_92408dd3_loh124
	.loh AdrpLdr	Lrtp_92408dd3_loh122,Lrtp_92408dd3_loh123
	.loh AdrpAdrp	Lrtp_92408dd3_loh120,Lrtp_92408dd3_loh122
	.loh AdrpLdr	Lrtp_92408dd3_loh120,Lrtp_92408dd3_loh121
	.loh AdrpAdrp	Lrtp_92408dd3_loh118,Lrtp_92408dd3_loh120
	.loh AdrpLdr	Lrtp_92408dd3_loh118,Lrtp_92408dd3_loh119
	.loh AdrpAdrp	Lrtp_92408dd3_loh116,Lrtp_92408dd3_loh118
	.loh AdrpLdr	Lrtp_92408dd3_loh116,Lrtp_92408dd3_loh117
	.loh AdrpLdr	Lrtp_92408dd3_loh148,Lrtp_92408dd3_loh149
	.cfi_endproc

	.globl	_rtp_92408dd3_rtpw_next_element
	.p2align	2
_rtp_92408dd3_rtpw_next_element:
	.cfi_startproc
	stp	x22,x21,[sp,#-48]!
	stp	x20,x19,[sp,#16]
	stp	x29,x30,[sp,#32]
	.cfi_def_cfa_offset 48
	.cfi_offset w30,-8
	.cfi_offset w29,-16
	.cfi_offset w19,-24
	.cfi_offset w20,-32
	.cfi_offset w21,-40
	.cfi_offset w22,-48
	mov	w8,#4096
	cmp	x0,#0
	csel	x9,x8,xzr,eq
	and	w8,w2,#0xff
	cmp	w8,#1
	b.eq	1f
	cmp	w8,#2
	b.ne	2f
	mov	w19,#0
	subs	x8,x1,x3
	b.hs	3f
2:
	mov	w0,#9
	ldp	x29,x30,[sp,#32]
	ldp	x20,x19,[sp,#16]
	ldp	x22,x21,[sp],#48
	ret
1:
	mov	w19,#1
	subs	x8,x1,x3
	b.lo	2b
3:
	b.eq	1f
	add	x9,x0,x9
	add	x0,x9,x3
	ldrb	w9,[x0]
	cbz	w9,2f
	cbz	w19,3f
4:
	ldrb	w10,[x0]
	cmp	w10,#239
	b.hi	1f
	and	x9,x10,#0xf
	add	x9,x9,#2
	cmp	x8,x9
	b.lo	1f
	lsr	w11,w10,#4
	sub	x10,x9,#1
	b	5f
2:
	cmp	x8,#1
	b.eq	1f
	cmp	x8,#2
	b.ne	2f
	ldrb	w9,[x0,#1]
	cbz	w9,1f
	b	6f
2:
	cmp	x8,#3
	b.hi	6f
	ldrb	w9,[x0,#1]
	cbnz	w9,6f
	ldrb	w9,[x0,#2]
	cbz	w9,1f
6:
	mov	x20,x1
	mov	x21,x4
	sub	x1,x8,#1
	add	x0,x0,#1
	bl	_rtp_92408dd3_rtp_ext.elements.skip_zeros
	cbz	x1,1f
	mov	x8,x1
	mov	x4,x21
	mov	x1,x20
	cbnz	w19,4b
3:
	cmp	x8,#2
	b.lo	1f
	ldrb	w10,[x0,#1]
	add	x9,x10,#2
	cmp	x8,x9
	b.hs	2f
1:
	mov	w0,#11
	ldp	x29,x30,[sp,#32]
	ldp	x20,x19,[sp,#16]
	ldp	x22,x21,[sp],#48
	ret
2:
	ldrb	w11,[x0]
5:
	mov	w0,#0
	sub	x8,x9,x8
	add	x8,x8,x1
	sub	x9,x8,x10
	stp	x9,x10,[x4]
	str	x8,[x4,#16]
	strb	w11,[x4,#24]
	stur	wzr,[x4,#25]
	str	wzr,[x4,#28]
	ldp	x29,x30,[sp,#32]
	ldp	x20,x19,[sp,#16]
	ldp	x22,x21,[sp],#48
	ret
	.cfi_endproc

	.globl	_rtp_92408dd3_rtpw_next_elements
	.p2align	2
_rtp_92408dd3_rtpw_next_elements:
	.cfi_startproc
	stp	x24,x23,[sp,#-64]!
	stp	x22,x21,[sp,#16]
	stp	x20,x19,[sp,#32]
	stp	x29,x30,[sp,#48]
	.cfi_def_cfa_offset 64
	.cfi_offset w30,-8
	.cfi_offset w29,-16
	.cfi_offset w19,-24
	.cfi_offset w20,-32
	.cfi_offset w21,-40
	.cfi_offset w22,-48
	.cfi_offset w23,-56
	.cfi_offset w24,-64
	mov	w8,#4096
	cmp	x0,#0
	csel	x9,x8,xzr,eq
	add	x19,x0,x9
	cmp	x4,#0
	csel	x8,x8,xzr,eq
	and	w9,w2,#0xff
	cmp	w9,#2
	b.eq	1f
	mov	x0,#0
	cmp	w9,#1
	b.ne	2f
	mov	x0,#0
	cmp	x3,x1
	b.hi	2f
	cbz	x5,2f
	mov	x0,#0
	add	x8,x8,x4
	add	x20,x8,#16
3:
	subs	x8,x1,x3
	b.eq	2f
	add	x9,x19,x3
	ldrb	w10,[x9]
	cbnz	w10,4f
	cmp	x8,#2
	b.eq	5f
	cmp	x8,#1
	b.eq	2f
	cmp	x8,#3
	b.hi	6f
	ldrb	w10,[x9,#1]
	cbnz	w10,6f
	ldrb	w10,[x9,#2]
	cbnz	w10,6f
	b	2f
5:
	ldrb	w10,[x9,#1]
	cbz	w10,2f
6:
	mov	x22,x1
	mov	x23,x5
	mov	x21,x0
	sub	x1,x8,#1
	add	x0,x9,#1
	bl	_rtp_92408dd3_rtp_ext.elements.skip_zeros
	cbz	x1,5f
	mov	x8,x1
	ldrb	w10,[x0]
	mov	x0,x21
	mov	x5,x23
	mov	x1,x22
4:
	cmp	w10,#239
	and	w9,w10,#0xf
	add	w9,w9,#2
	ccmp	x9,x8,#2,ls
	b.hi	2f
	lsr	w10,w10,#4
	sub	x11,x9,#1
	sub	x8,x9,x8
	add	x3,x8,x1
	sub	x8,x3,x11
	stp	x8,x11,[x20,#-16]
	str	x3,[x20]
	strb	w10,[x20,#8]
	add	x0,x0,#1
	add	x20,x20,#32
	cmp	x5,x0
	b.ne	3b
	b	3f
1:
	mov	x0,#0
	cmp	x3,x1
	b.hi	2f
	cbz	x5,2f
	mov	x0,#0
	add	x8,x8,x4
	add	x20,x8,#16
1:
	subs	x9,x1,x3
	b.eq	2f
	add	x8,x19,x3
	ldrb	w10,[x8]
	cbnz	w10,4f
	cmp	x9,#2
	b.eq	6f
	cmp	x9,#1
	b.eq	2f
	cmp	x9,#3
	b.hi	7f
	ldrb	w10,[x8,#1]
	cbnz	w10,7f
	ldrb	w10,[x8,#2]
	cbnz	w10,7f
	b	2f
6:
	ldrb	w10,[x8,#1]
	cbz	w10,2f
7:
	mov	x22,x1
	mov	x23,x5
	mov	x21,x0
	sub	x1,x9,#1
	add	x0,x8,#1
	bl	_rtp_92408dd3_rtp_ext.elements.skip_zeros
	cbz	x1,5f
	mov	x8,x0
	mov	x9,x1
	mov	x0,x21
	mov	x5,x23
	mov	x1,x22
4:
	cmp	x9,#2
	b.lo	2f
	ldrb	w10,[x8,#1]
	add	x11,x10,#2
	subs	x9,x11,x9
	b.hi	2f
	ldrb	w8,[x8]
	add	x3,x9,x1
	sub	x9,x3,x10
	stp	x9,x10,[x20,#-16]
	str	x3,[x20]
	strb	w8,[x20,#8]
	add	x0,x0,#1
	add	x20,x20,#32
	cmp	x5,x0
	b.ne	1b
3:
	mov	x0,x5
2:
	ldp	x29,x30,[sp,#48]
	ldp	x20,x19,[sp,#32]
	ldp	x22,x21,[sp,#16]
	ldp	x24,x23,[sp],#64
	ret
5:
	mov	x0,x21
	ldp	x29,x30,[sp,#48]
	ldp	x20,x19,[sp,#32]
	ldp	x22,x21,[sp,#16]
	ldp	x24,x23,[sp],#64
	ret
	.cfi_endproc

	.globl	_rtp_92408dd3_rtpw_pad
	.p2align	2
_rtp_92408dd3_rtpw_pad:
	.cfi_startproc
	mov	w8,#4096
	cmp	x0,#0
	csel	x9,x8,xzr,eq
	cbz	x4,1f
	stp	x26,x25,[sp,#-80]!
	stp	x24,x23,[sp,#16]
	stp	x22,x21,[sp,#32]
	stp	x20,x19,[sp,#48]
	stp	x29,x30,[sp,#64]
	.cfi_def_cfa_offset 80
	.cfi_offset w30,-8
	.cfi_offset w29,-16
	.cfi_offset w19,-24
	.cfi_offset w20,-32
	.cfi_offset w21,-40
	.cfi_offset w22,-48
	.cfi_offset w23,-56
	.cfi_offset w24,-64
	.cfi_offset w25,-72
	.cfi_offset w26,-80
	and	w8,w3,#0xff
	cbz	w8,2f
	cmp	x4,#240
	b.ls	3f
	mov	w20,#240
	mov	w8,#8
	adds	x10,x20,x2
	b.lo	4f
	b	5f
1:
	mov	w0,#9
	ret
2:
	mov	x20,#0
	b	1f
3:
	udiv	w10,w8,w4
	msub	w10,w10,w4,w8
	sub	x11,x4,x10
	cmp	w10,#0
	csel	x10,xzr,x11,eq
	add	x8,x10,w8,uxtw
	mov	w10,#240
	cmp	x8,#240
	csel	x20,x8,x10,lo
	mov	w8,#8
	adds	x10,x20,x2
	b.hs	5f
4:
	cmp	x10,x1
	b.hi	5f
	add	x21,x0,x9
	ldrb	w8,[x21]
	orr	w8,w8,#0x20
	strb	w8,[x21]
	subs	x22,x20,#1
	b.eq	2f
	add	x23,x21,x2
	subs	x19,x20,#2
	b.eq	3f
	add	x0,x21,x2
	mov	x1,x19
	mov	x24,x5
	mov	x25,x2
	bl	_bzero
	mov	x2,x25
	mov	x5,x24
3:
	strb	wzr,[x23,x19]
2:
	add	x8,x21,x22
	strb	w20,[x8,x2]
1:
	mov	w8,#0
	str	x20,[x5]
5:
	ldp	x29,x30,[sp,#64]
	ldp	x20,x19,[sp,#48]
	ldp	x22,x21,[sp,#32]
	ldp	x24,x23,[sp,#16]
	ldp	x26,x25,[sp],#80
	mov	x0,x8
	ret
	.cfi_endproc

	.section	__TEXT,__literal8,8byte_literals
	.p2align	3,0x0
lrtp_92408dd3_CPI98_0:
	.short	65529
	.short	65530
	.short	0
	.short	0
lrtp_92408dd3_CPI98_1:
	.short	255
	.short	1
	.short	63
	.short	0
	.section	__TEXT,__text,regular,pure_instructions
	.globl	_rtp_92408dd3_rtpw_read_dependency_descriptor
	.p2align	2
_rtp_92408dd3_rtpw_read_dependency_descriptor:
	.cfi_startproc
	cmp	x1,#3
	b.hs	1f
	mov	w0,#9
	ret
1:
	mov	x8,x0
	mov	w0,#0
	mov	w9,#4096
	cmp	x8,#0
	csel	x9,x9,xzr,eq
	add	x8,x8,x9
	movi	d0,#0xff00ff00ff00ff
	ld1.b	{ v0 }[0],[x8]
	zip1.4h	v1,v0,v0
	mov.h	v1[2],v0[0]
	bic.4h	v1,#255,lsl #8
Lrtp_92408dd3_loh150:
	adrp	x9,lrtp_92408dd3_CPI98_0@PAGE
Lrtp_92408dd3_loh151:
	ldr	d0,[x9,lrtp_92408dd3_CPI98_0@PAGEOFF]
	ushl.4h	v0,v1,v0
Lrtp_92408dd3_loh152:
	adrp	x9,lrtp_92408dd3_CPI98_1@PAGE
Lrtp_92408dd3_loh153:
	ldr	d1,[x9,lrtp_92408dd3_CPI98_1@PAGEOFF]
	ldurh	w8,[x8,#1]
	rev	w8,w8
	lsr	w8,w8,#16
	and.8b	v0,v0,v1
	strh	w8,[x2]
	uzp1.8b	v0,v0,v0
	stur	s0,[x2,#2]
	ret
	.loh AdrpLdr	Lrtp_92408dd3_loh152,Lrtp_92408dd3_loh153
	.loh AdrpAdrp	Lrtp_92408dd3_loh150,Lrtp_92408dd3_loh152
	.loh AdrpLdr	Lrtp_92408dd3_loh150,Lrtp_92408dd3_loh151
	.cfi_endproc

	.globl	_rtp_92408dd3_rtpw_read_orientation
	.p2align	2
_rtp_92408dd3_rtpw_read_orientation:
	.cfi_startproc
	cmp	x1,#1
	b.ne	1f
	mov	x8,x0
	mov	w0,#0
	mov	w9,#4096
	cmp	x8,#0
	csel	x9,x9,xzr,eq
	ldrb	w8,[x8,x9]
	ubfx	w9,w8,#3,#1
	ubfiz	x10,x8,#4,#2
	mov	x11,#17694720
	movk	x11,#180,lsl #32
	movk	x11,#90,lsl #48
	lsr	x10,x11,x10
	strh	w10,[x2]
	ubfx	w8,w8,#2,#1
	strb	w9,[x2,#2]
	strb	w8,[x2,#3]
	ret
1:
	mov	w0,#9
	ret
	.cfi_endproc

	.globl	_rtp_92408dd3_rtpw_read_original
	.p2align	2
_rtp_92408dd3_rtpw_read_original:
	.cfi_startproc
	cmp	x1,#2
	b.lo	1f
	mov	x8,x0
	mov	w0,#0
	mov	w9,#4096
	cmp	x8,#0
	csel	x9,x9,xzr,eq
	ldrh	w8,[x8,x9]
	rev	w8,w8
	lsr	w8,w8,#16
	strh	w8,[x2]
	ret
1:
	mov	w0,#8
	ret
	.cfi_endproc

	.globl	_rtp_92408dd3_rtpw_read_transport_number
	.p2align	2
_rtp_92408dd3_rtpw_read_transport_number:
	.cfi_startproc
	mov	w8,#4096
	cmp	x0,#0
	csel	x8,x8,xzr,eq
	cmp	x1,#2
	b.lo	1f
	add	x10,x0,x8
	cmp	x1,#4
	b.eq	2f
	cmp	x1,#2
	b.ne	1f
	mov	w9,#0
	mov	w11,#0
	mov	w8,#0
	ldrh	w10,[x10]
	rev16	w10,w10
	mov	w0,#0
	strh	w10,[x2]
	strh	w8,[x2,#2]
	strb	w11,[x2,#4]
	strb	w9,[x2,#5]
	ret
1:
	mov	w0,#9
	ret
2:
	ldrb	w8,[x10,#3]
	ldrb	w9,[x10,#2]
	ldrh	w10,[x10]
	rev16	w10,w10
	bfi	w8,w9,#8,#7
	lsr	w9,w9,#7
	mov	w11,#1
	mov	w0,#0
	strh	w10,[x2]
	strh	w8,[x2,#2]
	strb	w11,[x2,#4]
	strb	w9,[x2,#5]
	ret
	.cfi_endproc

	.globl	_rtp_92408dd3_rtpw_receiver_accepts
	.p2align	2
_rtp_92408dd3_rtpw_receiver_accepts:
	.cfi_startproc
	ldrb	w8,[x0,#24]
	cbz	w8,1f
	ldr	x8,[x0]
	subs	x8,x8,x1
	b.hs	2f
1:
	mov	w0,#1
	ret
2:
	cmp	x8,#127
	b.hi	1f
	ldp	x10,x9,[x0,#8]
	orr	x10,x10,#0x1
	lsr	x10,x10,x8
	mvn	w11,w8
	lsl	x12,x9,#1
	lsl	x11,x12,x11
	orr	x10,x11,x10
	lsr	x9,x9,x8
	tst	x8,#0x40
	csel	x8,x9,x10,ne
	tst	x8,#0x1
	cset	w0,eq
	ret
1:
	mov	w0,#0
	ret
	.cfi_endproc

	.globl	_rtp_92408dd3_rtpw_receiver_number_of
	.p2align	2
_rtp_92408dd3_rtpw_receiver_number_of:
	.cfi_startproc
	ldrb	w8,[x0,#24]
	ldr	x9,[x0]
	sub	w10,w1,w9
	sxth	w11,w10
	add	x12,x9,w10,uxth
	cmn	w11,#8,lsl #12
	and	x11,x9,#0x8000
	ccmp	x11,#0,#0,eq
	mov	x11,#-65536
	csel	x11,xzr,x11,eq
	add	x11,x11,x12
	tst	w10,#0x8000
	csel	x10,x12,x11,eq
	bfxil	x9,x1,#0,#16
	cmp	w8,#0
	csel	x0,x10,x9,ne
	ret
	.cfi_endproc

	.globl	_rtp_92408dd3_rtpw_receiver_standing_of
	.p2align	2
_rtp_92408dd3_rtpw_receiver_standing_of:
	.cfi_startproc
	ldrb	w8,[x0,#24]
	cbz	w8,1f
	ldr	x8,[x0]
	subs	x9,x8,x1
	b.hs	2f
1:
	mov	w0,#0
	ret
2:
	cmp	x9,#127
	b.hi	2f
	ldp	x11,x10,[x0,#8]
	orr	x11,x11,#0x1
	lsr	x11,x11,x9
	mvn	w12,w9
	lsl	x13,x10,#1
	lsl	x12,x13,x12
	orr	x11,x12,x11
	lsr	x10,x10,x9
	tst	x9,#0x40
	csel	x9,x10,x11,ne
	tbz	w9,#0,1b
2:
	subs	x8,x8,x1
	csel	x8,xzr,x8,lo
	cmp	x8,#128
	mov	w8,#1
	cinc	w0,w8,hs
	ret
	.cfi_endproc

	.globl	_rtp_92408dd3_rtpw_reception_record
	.p2align	2
_rtp_92408dd3_rtpw_reception_record:
	.cfi_startproc
	sub	w8,w3,w2
	ldr	x9,[x0,#16]
	cbz	x9,1f
	ldr	x10,[x0,#8]
	cmp	x1,x10
	csel	x10,x1,x10,hi
	str	x10,[x0,#8]
	ldr	x10,[x0,#40]
	ldr	w11,[x0,#48]
	subs	w11,w8,w11
	cneg	w11,w11,mi
	adds	x12,x10,#8
	csinv	x12,x12,xzr,lo
	sub	x10,x10,x12,lsr #4
	add	x10,x10,x11
	str	x10,[x0,#40]
	str	w8,[x0,#48]
	adds	x8,x9,#1
	csinv	x8,x8,xzr,lo
	str	x8,[x0,#16]
	ret
1:
	stp	x1,x1,[x0]
	str	w8,[x0,#48]
	adds	x8,x9,#1
	csinv	x8,x8,xzr,lo
	str	x8,[x0,#16]
	ret
	.cfi_endproc

	.globl	_rtp_92408dd3_rtpw_reception_report
	.p2align	2
_rtp_92408dd3_rtpw_reception_report:
	.cfi_startproc
	ldp	x9,x8,[x0,#16]
	subs	x13,x9,x8
	b.ne	1f
	mov	w0,#11
	ret
1:
	ldp	x11,x10,[x0]
	sub	x8,x10,x11
	adds	x8,x8,#1
	csinv	x12,x8,xzr,lo
	ldr	x8,[x0,#32]
	sub	x8,x12,x8
	subs	x15,x8,x13
	b.ls	1f
	mov	w13,#0
	lsr	x14,x15,#56
	lsl	x15,x15,#8
	mov	w16,#256
2:
	add	w17,w16,w13
	ubfx	w17,w17,#1,#15
	umulh	x2,x17,x8
	mul	x3,x17,x8
	cmp	x15,x3
	sbcs	xzr,x14,x2
	csel	w16,w17,w16,lo
	csel	w13,w13,w17,lo
	sub	w17,w16,w13
	and	w17,w17,#0xffff
	cmp	w17,#1
	b.hi	2b
	b	2f
1:
	mov	w13,#0
2:
	sub	x14,x9,x12
	mov	w15,#8388608
	cmp	x14,#2048,lsl #12
	csel	x14,x14,x15,lo
	mov	w15,#8388607
	sub	x16,x12,x9
	cmp	x16,x15
	csel	x15,x16,x15,lo
	stp	x9,x12,[x0,#24]
	ldr	x16,[x0,#40]
	cmp	x9,x12
	csneg	w9,w15,w14,ls
	and	w11,w11,#0xffff0000
	sub	w10,w10,w11
	lsr	x11,x16,#4
	strb	w13,[x1]
	sturh	wzr,[x1,#1]
	mov	w12,#-1
	strb	wzr,[x1,#3]
	cmp	x11,x12
	csel	x11,x11,x12,lo
	stp	w9,w10,[x1,#4]
	str	w11,[x1,#12]
	mov	w0,#0
	ret
	.cfi_endproc

	.globl	_rtp_92408dd3_rtpw_values_read
	.p2align	2
_rtp_92408dd3_rtpw_values_read:
	.cfi_startproc
	mov	x9,x1
	mov	w8,#4096
	cmp	x0,#0
	csel	x10,x8,xzr,eq
	and	w8,w2,#0xff
	cmp	w8,#1
	b.eq	1f
	cmp	w8,#2
	b.ne	2f
	mov	w8,#1
	b	3f
1:
	mov	w8,#0
3:
	stp	x29,x30,[sp,#-16]!
	.cfi_def_cfa_offset 16
	.cfi_offset w30,-8
	.cfi_offset w29,-16
	str	xzr,[x4,#128]
	movi.2d	v0,#0000000000000000
	stp	q0,q0,[x4,#96]
	stp	q0,q0,[x4,#64]
	stp	q0,q0,[x4,#32]
	stp	q0,q0,[x4]
	add	x1,x0,x10
	mov	x0,x3
	mov	x2,x9
	mov	x3,x8
	bl	_rtp_92408dd3_rtp_ext.block_values.read_values.9a3a19c0cce455e9
	mov	w0,#0
	ldp	x29,x30,[sp],#16
	ret
2:
	mov	w0,#9
	ret
	.cfi_endproc

	.globl	_rtp_92408dd3_rtpw_version
	.p2align	2
_rtp_92408dd3_rtpw_version:
	.cfi_startproc
	mov	w0,#256
	movk	w0,#1,lsl #16
	ret
	.cfi_endproc

	.globl	_rtp_92408dd3_rtpw_wide_receiver_accepts
	.p2align	2
_rtp_92408dd3_rtpw_wide_receiver_accepts:
	.cfi_startproc
	mov	w8,#4096
	cmp	x1,#0
	csel	x8,x8,xzr,eq
	sub	x9,x2,#1
	cmp	x9,#511
	b.hi	1f
	ldrb	w9,[x0,#8]
	cbz	w9,2f
	ldr	x9,[x0]
	subs	x9,x9,x3
	b.ne	3f
1:
	mov	w0,#0
	ret
3:
	b.hs	3f
2:
	mov	w0,#1
	ret
3:
	cmp	x2,x9,lsr #6
	b.ls	1b
	add	x8,x1,x8
	lsr	x9,x3,#6
	udiv	x10,x9,x2
	msub	x9,x10,x2,x9
	ubfx	x10,x3,#6,#4
	cmp	x2,#16
	csel	x9,x9,x10,ne
	ldr	x8,[x8,x9,lsl #3]
	lsr	x8,x8,x3
	tst	x8,#0x1
	cset	w0,eq
	ret
	.cfi_endproc

	.globl	_rtp_92408dd3_rtpw_wide_receiver_number_of
	.p2align	2
_rtp_92408dd3_rtpw_wide_receiver_number_of:
	.cfi_startproc
	ldrb	w8,[x0,#8]
	ldr	x9,[x0]
	sub	w10,w1,w9
	sxth	w11,w10
	add	x12,x9,w10,uxth
	cmn	w11,#8,lsl #12
	and	x11,x9,#0x8000
	ccmp	x11,#0,#0,eq
	mov	x11,#-65536
	csel	x11,xzr,x11,eq
	add	x11,x11,x12
	tst	w10,#0x8000
	csel	x10,x12,x11,eq
	bfxil	x9,x1,#0,#16
	cmp	w8,#0
	csel	x0,x10,x9,ne
	ret
	.cfi_endproc

	.globl	_rtp_92408dd3_rtpw_wide_receiver_start
	.p2align	2
_rtp_92408dd3_rtpw_wide_receiver_start:
	.cfi_startproc
	lsr	x9,x1,#48
	cbz	x9,1f
	mov	w0,#9
	ret
1:
	mov	x8,x0
	mov	w0,#0
	lsl	x9,x1,#16
	stp	x9,xzr,[x8]
	ret
	.cfi_endproc

	.globl	_rtp_92408dd3_rtpw_write_data_elements
	.p2align	2
_rtp_92408dd3_rtpw_write_data_elements:
	.cfi_startproc
	sub	sp,sp,#112
	str	x27,[sp,#16]
	stp	x26,x25,[sp,#32]
	stp	x24,x23,[sp,#48]
	stp	x22,x21,[sp,#64]
	stp	x20,x19,[sp,#80]
	stp	x29,x30,[sp,#96]
	.cfi_def_cfa_offset 112
	.cfi_offset w30,-8
	.cfi_offset w29,-16
	.cfi_offset w19,-24
	.cfi_offset w20,-32
	.cfi_offset w21,-40
	.cfi_offset w22,-48
	.cfi_offset w23,-56
	.cfi_offset w24,-64
	.cfi_offset w25,-72
	.cfi_offset w26,-80
	.cfi_offset w27,-96
	mov	x20,x6
	mov	x19,x2
	mov	w8,#4096
	cmp	x1,#0
	csel	x9,x8,xzr,eq
	cmp	x4,#0
	csel	x10,x8,xzr,eq
	and	w8,w3,#0xff
	cmp	w8,#1
	b.eq	1f
	cmp	w8,#2
	b.ne	2f
	mov	w22,#0
	mov	w11,#1
	ldrsb	w8,[x0,#4]
	tbz	w8,#31,3f
	b	4f
1:
	mov	w11,#0
	mov	w22,#1
	ldrsb	w8,[x0,#4]
	tbnz	w8,#31,4f
3:
	subs	x12,x5,#12
	csel	x12,xzr,x12,lo
	lsr	x14,x12,#2
	cbz	x14,4f
	ldrb	w13,[x0,#1]
	ldrb	w12,[x0,#3]
	cbz	x19,1f
	sub	x14,x14,#1
	mov	w15,#65535
	cmp	x14,x15
	csel	x14,x14,x15,lo
	lsl	x14,x14,#2
	add	x15,x9,x1
	add	x15,x15,#16
	mov	x16,x19
	tbz	w22,#0,3f
5:
	ldurb	w2,[x15,#-16]
	ldr	x17,[x15],#32
	sub	w2,w2,#1
	sub	x3,x17,#1
	cmp	w2,#13
	ccmp	x3,#15,#2,ls
	ccmp	x14,x17,#0,ls
	b.ls	4f
	add	x17,x17,#1
	subs	x14,x14,x17
	csel	x14,xzr,x14,lo
	subs	x16,x16,#1
	b.ne	5b
	mov	w22,#1
	b	1f
3:
	ldurb	w17,[x15,#-16]
	cbz	w17,4f
	ldr	x17,[x15],#32
	cmp	x17,#255
	ccmp	x14,x17,#0,ls
	b.ls	4f
	add	x17,x17,#1
	subs	x14,x14,x17
	csel	x14,xzr,x14,lo
	subs	x16,x16,#1
	b.ne	3b
	cmp	x19,x14
	b.hi	3f
	mov	w22,#0
1:
	add	x11,x4,x10
	ldrh	w14,[x0,#6]
	mov	w15,#-80
	mov	w16,#-112
	cmp	w13,#0
	csel	w13,w16,w15,eq
	mov	w15,#-128
	cmp	w12,#0
	csel	w12,wzr,w15,eq
	orr	w8,w12,w8
	rev	w12,w14
	lsr	w12,w12,#16
	ldr	d0,[x0,#8]
	strb	w13,[x11]
	strb	w8,[x11,#1]
	rev32.8b	v0,v0
	strh	w12,[x11,#2]
	stur	d0,[x11,#4]
	add	x8,x11,#12
	str	x8,[sp,#24]
	cbz	x19,1f
	add	x24,x1,x9
	add	x25,x11,#16
	add	x9,x10,x4
	mov	x8,#0
	mov	x26,#0
	tbz	w22,#0,5f
	add	x27,x9,#17
	add	x9,x9,#65
	str	x9,[sp,#8]
	b	6f
7:
	ldrb	w8,[x1]
	strb	w8,[x25,x23]
8:
	add	x8,x21,x23
	add	x26,x26,#1
	cmp	x26,x19
	b.eq	9f
6:
	add	x9,x24,x26,lsl #5
	ldrb	w10,[x9]
	ldp	x1,x21,[x9,#8]
	lsr	w9,w10,#4
	orr	w9,w9,w10,lsl #4
	add	w9,w9,w21
	sub	w9,w9,#1
	strb	w9,[x25,x8]
	add	x23,x8,#1
	cbz	x21,6f
	cmp	x21,#1
	b.eq	7b
	cmp	x21,#3
	b.hs	7f
	ldrb	w8,[x1]
	add	x9,x25,x23
	strb	w8,[x9]
	ldrb	w8,[x1,#1]
	strb	w8,[x9,#1]
	b	8b
7:
	b.ne	6f
	ldrb	w8,[x1]
	add	x9,x25,x23
	strb	w8,[x9]
	ldrb	w8,[x1,#1]
	strb	w8,[x9,#1]
	ldrb	w8,[x1,#2]
	strb	w8,[x9,#2]
	b	8b
6:
	add	x9,x25,x23
	sub	x9,x9,x1
	cmp	x9,x21
	b.hs	6f
	cmp	x21,#8
	b.lo	7f
	add	x9,x27,x8
	sub	x9,x9,x1
	cmp	x9,#64
	b.hs	10f
7:
	mov	x9,#0
7:
	sub	x10,x21,x9
	add	x11,x1,x9
	add	x8,x9,x8
	add	x8,x27,x8
11:
	ldrb	w9,[x11],#1
	strb	w9,[x8],#1
	subs	x10,x10,#1
	b.ne	11b
	b	8b
6:
	add	x0,x25,x23
	mov	x2,x21
	bl	_memmove
	b	8b
10:
	cmp	x21,#64
	b.hs	6f
	mov	x9,#0
	b	10f
6:
	and	x10,x21,#0x38
	and	x9,x21,#0xffffffffffffffc0
	ldr	x11,[sp,#8]
	add	x11,x11,x8
	add	x12,x1,#32
	and	x13,x21,#0xffffffffffffffc0
6:
	ldp	q0,q1,[x12,#-32]
	ldp	q2,q3,[x12],#64
	stp	q0,q1,[x11,#-48]
	stp	q2,q3,[x11,#-16]
	add	x11,x11,#64
	subs	x13,x13,#64
	b.ne	6b
	cmp	x21,x9
	b.eq	8b
	cbz	x10,7b
10:
	mov	x12,x9
	and	x9,x21,#0xfffffffffffffff8
	sub	x10,x12,x9
	add	x11,x1,x12
	add	x12,x12,x8
	add	x12,x27,x12
6:
	ldr	d0,[x11],#8
	str	d0,[x12],#8
	adds	x10,x10,#8
	b.ne	6b
	cmp	x21,x9
	b.eq	8b
	b	7b
4:
	cbz	x19,4f
3:
	add	x9,x9,x1
	add	x10,x9,#16
	mov	w9,#262140
	mov	x11,x19
	tbz	w22,#0,3f
6:
	ldurb	w13,[x10,#-16]
	ldr	x12,[x10],#32
	sub	w13,w13,#1
	sub	x14,x12,#1
	cmp	w13,#13
	ccmp	x14,#15,#2,ls
	ccmp	x9,x12,#0,ls
	b.ls	7f
	add	x12,x12,#1
	subs	x9,x9,x12
	csel	x9,xzr,x9,lo
	subs	x11,x11,#1
	b.ne	6b
	b	6f
3:
	ldurb	w13,[x10,#-16]
	mov	w12,#9
	cbz	w13,8f
	ldr	x13,[x10],#32
	cmp	x13,#255
	ccmp	x9,x13,#0,ls
	b.ls	8f
	add	x12,x13,#1
	subs	x9,x9,x12
	csel	x9,xzr,x9,lo
	subs	x11,x11,#1
	b.ne	3b
	mov	w11,#1
	b	6f
2:
	mov	w0,#9
	b	2f
4:
	mov	w9,#262140
6:
	cmp	x19,x9
	cset	w9,hi
	tst	w11,w9
	mov	w9,#8
	cinc	w12,w9,ne
8:
	mov	w9,#9
	cmp	w8,#0
	csel	w0,w9,w12,mi
	b	2f
7:
	mov	w12,#9
	b	8b
1:
	mov	x8,#0
9:
	add	x10,x8,#3
	and	x11,x10,#0xfffffffffffffffc
	add	x9,x8,#4
	subs	x11,x11,x8
	b.eq	1f
	cmp	x11,#2
	ldr	x13,[sp,#24]
	b.eq	3f
	cmp	x11,#1
	b.ne	4f
	strb	wzr,[x13,x9]
	add	x9,x8,#5
	b	6f
5:
	add	x27,x9,#18
	add	x9,x9,#66
	str	x9,[sp,#8]
	b	5f
7:
	ldrb	w8,[x1]
	strb	w8,[x25,x23]
8:
	add	x8,x21,x23
	add	x26,x26,#1
	cmp	x26,x19
	b.eq	9b
5:
	add	x9,x24,x26,lsl #5
	ldrb	w10,[x9]
	ldp	x1,x21,[x9,#8]
	add	x9,x25,x8
	strb	w10,[x9]
	strb	w21,[x9,#1]
	add	x23,x8,#2
	cbz	x21,5f
	cmp	x21,#1
	b.eq	7b
	cmp	x21,#2
	b.hi	7f
	ldrb	w8,[x1]
	add	x9,x25,x23
	strb	w8,[x9]
	ldrb	w8,[x1,#1]
	strb	w8,[x9,#1]
	b	8b
7:
	cmp	x21,#3
	b.ne	5f
	ldrb	w8,[x1]
	add	x9,x25,x23
	strb	w8,[x9]
	ldrb	w8,[x1,#1]
	strb	w8,[x9,#1]
	ldrb	w8,[x1,#2]
	strb	w8,[x9,#2]
	b	8b
5:
	add	x9,x25,x23
	sub	x9,x9,x1
	cmp	x9,x21
	b.hs	5f
	cmp	x21,#8
	b.lo	7f
	add	x9,x27,x8
	sub	x9,x9,x1
	cmp	x9,#64
	b.hs	9f
7:
	mov	x9,#0
7:
	sub	x10,x21,x9
	add	x11,x1,x9
	add	x8,x9,x8
	add	x8,x27,x8
10:
	ldrb	w9,[x11],#1
	strb	w9,[x8],#1
	subs	x10,x10,#1
	b.ne	10b
	b	8b
5:
	add	x0,x25,x23
	mov	x2,x21
	bl	_memmove
	b	8b
9:
	cmp	x21,#64
	b.hs	5f
	mov	x9,#0
	b	9f
5:
	and	x10,x21,#0x38
	and	x9,x21,#0xffffffffffffffc0
	ldr	x11,[sp,#8]
	add	x11,x11,x8
	add	x12,x1,#32
	and	x13,x21,#0xffffffffffffffc0
5:
	ldp	q0,q1,[x12,#-32]
	ldp	q2,q3,[x12],#64
	stp	q0,q1,[x11,#-48]
	stp	q2,q3,[x11,#-16]
	add	x11,x11,#64
	subs	x13,x13,#64
	b.ne	5b
	cmp	x21,x9
	b.eq	8b
	cbz	x10,7b
9:
	mov	x12,x9
	and	x9,x21,#0xfffffffffffffff8
	sub	x10,x12,x9
	add	x11,x1,x12
	add	x12,x12,x8
	add	x12,x27,x12
5:
	ldr	d0,[x11],#8
	str	d0,[x12],#8
	adds	x10,x10,#8
	b.ne	5b
	cmp	x21,x9
	b.eq	8b
	b	7b
3:
	strh	wzr,[x13,x9]
	add	x9,x8,#6
	b	6f
1:
	ldr	x13,[sp,#24]
	b	6f
4:
	add	x9,x13,x9
	strb	wzr,[x9,#2]
	strh	wzr,[x9]
	add	x9,x8,#7
6:
	mov	w0,#0
	lsr	w8,w10,#2
	lsr	w10,w10,#10
	mov	w11,#16
	mov	w12,#57022
	cmp	w22,#0
	csel	w11,w12,w11,ne
	bfi	w11,w10,#16,#8
	bfi	w11,w8,#24,#8
	str	w11,[x13]
	add	x8,x9,#12
	str	x8,[x20]
2:
	ldp	x29,x30,[sp,#96]
	ldp	x20,x19,[sp,#80]
	ldp	x22,x21,[sp,#64]
	ldp	x24,x23,[sp,#48]
	ldp	x26,x25,[sp,#32]
	ldr	x27,[sp,#16]
	add	sp,sp,#112
	ret
	.cfi_endproc

	.globl	_rtp_92408dd3_rtpw_write_dependency_descriptor
	.p2align	2
_rtp_92408dd3_rtpw_write_dependency_descriptor:
	.cfi_startproc
	mov	w8,#4096
	cmp	x1,#0
	csel	x9,x8,xzr,eq
	ldrb	w8,[x0,#4]
	cmp	w8,#63
	b.ls	1f
	mov	w0,#9
	ret
1:
	cmp	x2,#3
	b.hs	1f
	mov	w0,#8
	ret
1:
	mov	x10,x0
	mov	w0,#0
	add	x9,x1,x9
	ldrb	w11,[x10,#3]
	mov	w12,#64
	cmp	w11,#0
	csel	w11,wzr,w12,eq
	ldrb	w12,[x10,#2]
	mov	w13,#128
	cmp	w12,#0
	csel	w12,wzr,w13,eq
	orr	w11,w11,w12
	ldrh	w10,[x10]
	orr	w8,w11,w8
	lsr	w11,w10,#8
	strb	w8,[x9]
	strb	w11,[x9,#1]
	strb	w10,[x9,#2]
	mov	w8,#3
	str	x8,[x3]
	ret
	.cfi_endproc

	.p2align	2
_rtp_92408dd3_rtp_proved_write_elements:
	.cfi_startproc
	mov	x8,x1
	mov	w10,#4096
	cmp	x0,#0
	csel	x12,x10,xzr,eq
	cmp	x2,#0
	csel	x9,x10,xzr,eq
	cmp	x5,#0
	csel	x10,x10,xzr,eq
	and	w11,w4,#0xff
	cmp	w11,#1
	b.eq	1f
	cmp	w11,#2
	b.ne	2f
	mov	w11,#0
	mov	w1,#1
	b	3f
1:
	mov	w1,#0
3:
	sub	sp,sp,#64
	stp	x20,x19,[sp,#32]
	stp	x29,x30,[sp,#48]
	.cfi_def_cfa_offset 64
	.cfi_offset w30,-8
	.cfi_offset w29,-16
	.cfi_offset w19,-24
	.cfi_offset w20,-32
	add	x13,x0,x12
	add	x12,x2,x9
	add	x14,x3,#1
	add	x15,x2,x9
1:
	subs	x14,x14,#1
	b.eq	3f
	ldr	x16,[x15]
	subs	x16,x8,x16
	b.lo	4f
	ldr	x17,[x15,#8]
	add	x15,x15,#32
	cmp	x17,x16
	b.ls	1b
	mov	w0,#9
1:
	ldp	x29,x30,[sp,#48]
	ldp	x20,x19,[sp,#32]
	add	sp,sp,#64
	ret
2:
	mov	w0,#9
	ret
3:
	stp	x13,x8,[sp]
	stp	x12,x3,[sp,#16]
	cbz	x3,2f
	add	x8,x9,x2
	add	x8,x8,#24
	mov	x13,x3
	tbz	w11,#0,3f
5:
	ldur	x14,[x8,#-16]
	ldrb	w15,[x8],#32
	sub	w15,w15,#1
	sub	x16,x14,#1
	cmp	x16,#15
	ccmp	w15,#13,#2,ls
	ccmp	x6,x14,#0,ls
	b.ls	6f
	add	x14,x14,#1
	subs	x14,x6,x14
	csel	x6,xzr,x14,lo
	subs	x13,x13,#1
	b.ne	5b
	b	2f
3:
	ldur	x14,[x8,#-16]
	ldrb	w15,[x8],#32
	cmp	x14,#255
	ccmp	w15,#0,#4,ls
	add	x14,x14,#2
	ccmp	x6,x14,#0,ne
	b.lo	6f
	sub	x6,x6,x14
	subs	x13,x13,#1
	b.ne	3b
2:
	add	x0,x5,x10
	mov	x2,sp
	mov	x19,x7
	bl	_rtp_92408dd3_rtp_ext.raw_writing.put_elements.d57726891005992a
	mov	x8,x0
	mov	w0,#0
	str	x8,[x19]
	ldp	x29,x30,[sp,#48]
	ldp	x20,x19,[sp,#32]
	add	sp,sp,#64
	ret
6:
	ldr	x8,[x12,#8]
	ldrb	w10,[x12,#24]
	cbz	w11,2f
	sub	w10,w10,#1
	sub	x8,x8,#1
	cmp	x8,#15
	ccmp	w10,#13,#2,ls
	b.hi	4f
	add	x8,x9,x2
	add	x8,x8,#56
3:
	subs	x3,x3,#1
	b.eq	5f
	ldur	x9,[x8,#-16]
	ldrb	w10,[x8],#32
	sub	w10,w10,#1
	sub	x9,x9,#1
	mov	w0,#9
	cmp	x9,#15
	ccmp	w10,#13,#2,ls
	b.ls	3b
	b	1b
2:
	cmp	x8,#255
	ccmp	w10,#0,#4,ls
	b.ne	2f
4:
	mov	w0,#9
	ldp	x29,x30,[sp,#48]
	ldp	x20,x19,[sp,#32]
	add	sp,sp,#64
	ret
2:
	add	x8,x9,x2
	add	x8,x8,#56
2:
	subs	x3,x3,#1
	b.eq	5f
	ldur	x9,[x8,#-16]
	ldrb	w10,[x8],#32
	mov	w0,#9
	cmp	x9,#255
	ccmp	w10,#0,#4,ls
	b.ne	2b
	b	1b
5:
	mov	w0,#8
	ldp	x29,x30,[sp,#48]
	ldp	x20,x19,[sp,#32]
	add	sp,sp,#64
	ret
	.cfi_endproc

	.globl	_rtp_92408dd3_rtpw_write_fixed_part
	.p2align	2
_rtp_92408dd3_rtpw_write_fixed_part:
	.cfi_startproc
	mov	w8,#4096
	cmp	x1,#0
	csel	x9,x8,xzr,eq
	ldrsb	w8,[x0,#4]
	tbnz	w8,#31,1f
	cmp	x2,#12
	b.hs	2f
	mov	w0,#8
	ret
1:
	mov	w0,#9
	ret
2:
	mov	x10,x0
	mov	w0,#0
	add	x9,x1,x9
	ldrb	w11,[x10,#1]
	ldrb	w12,[x10,#3]
	ldrh	w13,[x10,#6]
	mov	w14,#-96
	mov	w15,#-128
	cmp	w11,#0
	csel	w11,w15,w14,eq
	cmp	w12,#0
	csel	w12,wzr,w15,eq
	orr	w8,w12,w8
	rev	w12,w13
	lsr	w12,w12,#16
	ldr	d0,[x10,#8]
	strb	w11,[x9]
	strb	w8,[x9,#1]
	rev32.8b	v0,v0
	strh	w12,[x9,#2]
	stur	d0,[x9,#4]
	ret
	.cfi_endproc

	.globl	_rtp_92408dd3_rtpw_write_frame_marking
	.p2align	2
_rtp_92408dd3_rtpw_write_frame_marking:
	.cfi_startproc
	sub	sp,sp,#48
	stp	x20,x19,[sp,#16]
	stp	x29,x30,[sp,#32]
	.cfi_def_cfa_offset 48
	.cfi_offset w30,-8
	.cfi_offset w29,-16
	.cfi_offset w19,-24
	.cfi_offset w20,-32
	mov	w8,#4096
	cmp	x1,#0
	csel	x8,x8,xzr,eq
	strb	wzr,[sp,#14]
	strh	wzr,[sp,#12]
	ldrb	w9,[x0]
	ldrb	w10,[x0,#1]
	ldrb	w12,[x0,#2]
	ldrb	w14,[x0,#3]
	ldrb	w11,[x0,#4]
	cbz	w11,1f
	ldrb	w13,[x0,#6]
	cmp	w13,#7
	b.ls	2f
	mov	w0,#9
	ldp	x29,x30,[sp,#32]
	ldp	x20,x19,[sp,#16]
	add	sp,sp,#48
	ret
1:
	mov	w11,#16
	cmp	w14,#0
	csel	w11,wzr,w11,eq
	mov	w13,#32
	cmp	w12,#0
	csel	w12,wzr,w13,eq
	mov	w13,#64
	cmp	w10,#0
	csel	w10,wzr,w13,eq
	mov	w13,#-128
	cmp	w9,#0
	csel	w9,wzr,w13,eq
	orr	w9,w10,w9
	orr	w10,w12,w11
	orr	w9,w9,w10
	strb	w9,[sp,#12]
	mov	w19,#1
	cmp	x2,x19
	b.lo	1f
	b	3f
2:
	ldrb	w11,[x0,#7]
	ldrb	w15,[x0,#8]
	ldrb	w16,[x0,#5]
	mov	w17,#8
	cmp	w16,#0
	csel	w16,wzr,w17,eq
	mov	w17,#16
	cmp	w14,#0
	csel	w14,wzr,w17,eq
	mov	w17,#32
	cmp	w12,#0
	csel	w12,wzr,w17,eq
	mov	w17,#64
	cmp	w10,#0
	csel	w10,wzr,w17,eq
	mov	w17,#128
	cmp	w9,#0
	csel	w9,wzr,w17,eq
	orr	w9,w10,w9
	orr	w10,w12,w14
	orr	w9,w9,w10
	orr	w10,w16,w13
	orr	w9,w9,w10
	cbz	w15,2f
	ldrb	w10,[x0,#9]
	strb	w9,[sp,#12]
	strb	w11,[sp,#13]
	strb	w10,[sp,#14]
	mov	w19,#3
	cmp	x2,x19
	b.hs	3f
1:
	mov	w0,#8
	ldp	x29,x30,[sp,#32]
	ldp	x20,x19,[sp,#16]
	add	sp,sp,#48
	ret
2:
	orr	w9,w9,w11,lsl #8
	strh	w9,[sp,#12]
	mov	w19,#2
	cmp	x2,x19
	b.lo	1b
3:
	add	x0,x1,x8
	add	x1,sp,#12
	mov	x2,x19
	mov	x20,x3
	bl	_memcpy
	mov	w0,#0
	str	x19,[x20]
	ldp	x29,x30,[sp,#32]
	ldp	x20,x19,[sp,#16]
	add	sp,sp,#48
	ret
	.cfi_endproc

	.globl	_rtp_92408dd3_rtpw_write_mixer_levels
	.p2align	2
_rtp_92408dd3_rtpw_write_mixer_levels:
	.cfi_startproc
	mov	w9,#4096
	cmp	x0,#0
	csel	x8,x9,xzr,eq
	cmp	x2,#0
	csel	x9,x9,xzr,eq
	cmp	x1,#15
	b.ls	1f
2:
	mov	w0,#9
	ret
1:
	add	x8,x0,x8
	cmp	x3,x1
	b.hs	1f
3:
	cbz	x1,4f
	ldrb	w9,[x8],#1
	sub	x1,x1,#1
	add	w9,w9,#127
	tbz	w9,#7,3b
	b	2b
1:
	mov	x10,#0
	add	x9,x2,x9
1:
	cmp	x1,x10
	b.eq	3f
	ldrb	w11,[x8,x10]
	add	w11,w11,#127
	add	x10,x10,#1
	tbz	w11,#7,1b
	b	2b
4:
	mov	w0,#8
	ret
3:
	mov	x10,x1
	cbz	x1,1f
2:
	ldrsb	w11,[x8],#1
	cmp	w11,#0
	cneg	w11,w11,mi
	strb	w11,[x9],#1
	subs	x10,x10,#1
	b.ne	2b
1:
	mov	w0,#0
	str	x1,[x4]
	ret
	.cfi_endproc

	.globl	_rtp_92408dd3_rtpw_write_ntp_56
	.p2align	2
_rtp_92408dd3_rtpw_write_ntp_56:
	.cfi_startproc
	cmp	x2,#7
	b.hs	1f
	mov	w0,#8
	ret
1:
	mov	x8,x0
	mov	w0,#0
	lsr	x9,x8,#48
	mov	w10,#4096
	cmp	x1,#0
	csel	x10,x10,xzr,eq
	add	x10,x1,x10
	strb	w9,[x10]
	lsr	x9,x8,#40
	strb	w9,[x10,#1]
	lsr	x9,x8,#32
	strb	w9,[x10,#2]
	lsr	x9,x8,#24
	strb	w9,[x10,#3]
	lsr	x9,x8,#8
	lsr	x11,x8,#16
	strb	w11,[x10,#4]
	strb	w9,[x10,#5]
	strb	w8,[x10,#6]
	mov	w8,#7
	str	x8,[x3]
	ret
	.cfi_endproc

	.globl	_rtp_92408dd3_rtpw_write_ntp_64
	.p2align	2
_rtp_92408dd3_rtpw_write_ntp_64:
	.cfi_startproc
	cmp	x2,#8
	b.hs	1f
	mov	w0,#8
	ret
1:
	mov	x8,x0
	mov	w0,#0
	rev	x8,x8
	mov	w9,#4096
	cmp	x1,#0
	csel	x9,x9,xzr,eq
	str	x8,[x1,x9]
	mov	w8,#8
	str	x8,[x3]
	ret
	.cfi_endproc

	.globl	_rtp_92408dd3_rtpw_write_orientation
	.p2align	2
_rtp_92408dd3_rtpw_write_orientation:
	.cfi_startproc
	mov	w8,#4096
	cmp	x1,#0
	csel	x8,x8,xzr,eq
	ldrb	w9,[x0,#2]
	cmp	w9,#1
	b.hi	1f
	ldrb	w10,[x0,#3]
	ldrh	w11,[x0]
	mov	w0,#9
	cmp	w11,#179
	b.gt	2f
	cbz	w11,3f
	cmp	w11,#90
	b.ne	4f
	mov	w11,#3
	cbnz	x2,5f
	b	6f
1:
	mov	w0,#9
	ret
2:
	cmp	w11,#180
	b.eq	1f
	cmp	w11,#270
	b.ne	4f
	mov	w11,#1
3:
	cbz	x2,6f
5:
	mov	w0,#0
	orr	w9,w11,w9,lsl #3
	mov	w11,#4
	cmp	w10,#0
	csel	w10,wzr,w11,eq
	orr	w9,w9,w10
	strb	w9,[x1,x8]
	mov	w8,#1
	str	x8,[x3]
4:
	ret
1:
	mov	w11,#2
	cbnz	x2,5b
6:
	mov	w0,#8
	ret
	.cfi_endproc

	.globl	_rtp_92408dd3_rtpw_write_original
	.p2align	2
_rtp_92408dd3_rtpw_write_original:
	.cfi_startproc
	cmp	x1,#2
	b.hs	1f
	mov	w0,#8
	ret
1:
	mov	x8,x0
	mov	w0,#0
	mov	w9,#4096
	cmp	x8,#0
	csel	x9,x9,xzr,eq
	rev	w10,w2
	lsr	w10,w10,#16
	strh	w10,[x8,x9]
	ret
	.cfi_endproc

	.section	__TEXT,__literal16,16byte_literals
	.p2align	4,0x0
lrtp_92408dd3_CPI122_0:
	.long	4294967272
	.long	4294967280
	.long	4294967288
	.long	0
lrtp_92408dd3_CPI122_1:
	.long	4294967280
	.long	4294967288
	.long	0
	.long	4294967272
	.section	__TEXT,__text,regular,pure_instructions
	.globl	_rtp_92408dd3_rtpw_write_report
	.p2align	2
_rtp_92408dd3_rtpw_write_report:
	.cfi_startproc
	cmp	x5,#24
	b.hs	1f
	mov	w0,#8
	ret
1:
	mov	x8,x0
	mov	w0,#0
	ldr	w9,[x8,#4]
	cmn	w9,#2048,lsl #12
	mov	w10,#-8388608
	csel	w9,w9,w10,gt
	ldrb	w10,[x8]
	mov	w11,#4096
	cmp	x4,#0
	csel	x11,x11,xzr,eq
	add	x11,x4,x11
	dup.4s	v0,w1
Lrtp_92408dd3_loh154:
	adrp	x12,lrtp_92408dd3_CPI122_0@PAGE
Lrtp_92408dd3_loh155:
	ldr	q1,[x12,lrtp_92408dd3_CPI122_0@PAGEOFF]
	ushl.4s	v0,v0,v1
	ldr	d1,[x8,#8]
	zip1.4s	v2,v1,v1
	mov.s	v2[2],v1[0]
	xtn.4h	v0,v0
	mov	w8,#8388607
	cmp	w9,w8
	csel	w8,w9,w8,lt
	dup.4s	v3,v1[1]
	fmov	s4,w8
	mov.s	v3[3],w2
	dup.4s	v4,v4[0]
	ext.16b	v1,v4,v1,#4
	dup.4s	v4,v3[3]
	mov.s	v4[3],w3
Lrtp_92408dd3_loh156:
	adrp	x8,lrtp_92408dd3_CPI122_1@PAGE
Lrtp_92408dd3_loh157:
	ldr	q5,[x8,lrtp_92408dd3_CPI122_1@PAGEOFF]
	ushl.4s	v1,v1,v5
	ushl.4s	v2,v2,v5
	ushl.4s	v3,v3,v5
	ushl.4s	v4,v4,v5
	uzp1.8h	v1,v1,v2
	uzp1.8b	v0,v0,v0
	str	s0,[x11]
	uzp1.8h	v0,v3,v4
	strb	w10,[x11,#4]
	uzp1.16b	v0,v1,v0
	stur	q0,[x11,#5]
	lsr	w8,w3,#8
	lsr	w9,w3,#16
	strb	w9,[x11,#21]
	strb	w8,[x11,#22]
	strb	w3,[x11,#23]
	mov	w8,#24
	str	x8,[x6]
	ret
	.loh AdrpLdr	Lrtp_92408dd3_loh156,Lrtp_92408dd3_loh157
	.loh AdrpLdr	Lrtp_92408dd3_loh154,Lrtp_92408dd3_loh155
	.cfi_endproc

	.globl	_rtp_92408dd3_rtpw_write_send_time
	.p2align	2
_rtp_92408dd3_rtpw_write_send_time:
	.cfi_startproc
	mov	w8,#4096
	cmp	x1,#0
	csel	x8,x8,xzr,eq
	lsr	w9,w0,#24
	cbz	w9,1f
	mov	w0,#9
	ret
1:
	cmp	x2,#3
	b.hs	1f
	mov	w0,#8
	ret
1:
	mov	x9,x0
	mov	w0,#0
	add	x8,x1,x8
	lsr	w10,w9,#8
	lsr	w11,w9,#16
	strb	w11,[x8]
	strb	w10,[x8,#1]
	strb	w9,[x8,#2]
	mov	w8,#3
	str	x8,[x3]
	ret
	.cfi_endproc

	.globl	_rtp_92408dd3_rtpw_write_transmission_offset
	.p2align	2
_rtp_92408dd3_rtpw_write_transmission_offset:
	.cfi_startproc
	mov	w8,#4096
	cmp	x1,#0
	csel	x8,x8,xzr,eq
	add	w9,w0,#2048,lsl #12
	lsr	w9,w9,#24
	cbnz	w9,1f
	cmp	x2,#3
	b.hs	2f
	mov	w0,#8
	ret
1:
	mov	w0,#9
	ret
2:
	mov	x9,x0
	mov	w0,#0
	add	x8,x1,x8
	lsr	w10,w9,#8
	lsr	w11,w9,#16
	strb	w11,[x8]
	strb	w10,[x8,#1]
	strb	w9,[x8,#2]
	mov	w8,#3
	str	x8,[x3]
	ret
	.cfi_endproc

	.globl	_rtp_92408dd3_rtpw_write_transport_number
	.p2align	2
_rtp_92408dd3_rtpw_write_transport_number:
	.cfi_startproc
	mov	w8,#4096
	cmp	x1,#0
	csel	x8,x8,xzr,eq
	ldrh	w9,[x0]
	ldrb	w10,[x0,#4]
	cbz	w10,1f
	ldrsh	w10,[x0,#2]
	tbnz	w10,#31,2f
	cmp	x2,#4
	b.hs	3f
	mov	w0,#8
	ret
1:
	cmp	x2,#2
	b.hs	1f
	mov	w0,#8
	ret
2:
	mov	w0,#9
	ret
3:
	mov	x11,x0
	mov	w0,#0
	ldrb	w11,[x11,#5]
	orr	w12,w10,#0x8000
	cmp	w11,#0
	csel	w10,w10,w12,eq
	and	w10,w10,#0xffff
	rev	w10,w10
	rev	w9,w9
	bfxil	w10,w9,#16,#16
	str	w10,[x1,x8]
	mov	w8,#4
	str	x8,[x3]
	ret
1:
	mov	w0,#0
	rev16	w9,w9
	strh	w9,[x1,x8]
	mov	w8,#2
	str	x8,[x3]
	ret
	.cfi_endproc

	.globl	_rtp_92408dd3_rtpw_write_color_space
	.p2align	2
_rtp_92408dd3_rtpw_write_color_space:
	.cfi_startproc
	mov	w8,#4096
	cmp	x1,#0
	csel	x8,x8,xzr,eq
	ldrb	w9,[x0,#27]
	cmp	w9,#3
	b.hi	1f
	ldrb	w10,[x0,#28]
	cmp	w10,#2
	b.hi	1f
	ldrb	w11,[x0,#29]
	cmp	w11,#2
	b.hi	1f
	ldrb	w13,[x0,#24]
	ldrb	w14,[x0,#25]
	ldrb	w15,[x0,#26]
	ldrb	w12,[x0,#30]
	cbz	w12,2f
	ldr	q0,[x0]
	rev16.16b	v0,v0
	ldr	d1,[x0,#16]
	rev16.8b	v1,v1
	b	3f
1:
	mov	w0,#9
	ret
2:
	movi.2d	v0,#0000000000000000
	movi.2d	v1,#0000000000000000
3:
	sub	sp,sp,#64
	stp	x20,x19,[sp,#32]
	stp	x29,x30,[sp,#48]
	.cfi_def_cfa_offset 64
	.cfi_offset w30,-8
	.cfi_offset w29,-16
	.cfi_offset w19,-24
	.cfi_offset w20,-32
	stp	xzr,xzr,[sp,#8]
	stur	xzr,[sp,#24]
	lsl	w10,w10,#2
	orr	w9,w10,w9,lsl #4
	orr	w9,w9,w11
	orr	w10,w13,w14,lsl #8
	orr	w10,w10,w15,lsl #16
	orr	w9,w10,w9,lsl #24
	str	w9,[sp,#4]
	cbz	w12,1f
	stur	q0,[sp,#8]
	stur	d1,[sp,#24]
	mov	w19,#28
	cmp	x2,x19
	b.hs	2f
3:
	mov	w0,#8
	ldp	x29,x30,[sp,#48]
	ldp	x20,x19,[sp,#32]
	add	sp,sp,#64
	ret
1:
	mov	w19,#4
	cmp	x2,x19
	b.lo	3b
2:
	add	x0,x1,x8
	add	x1,sp,#4
	mov	x2,x19
	mov	x20,x3
	bl	_memcpy
	mov	w0,#0
	str	x19,[x20]
	ldp	x29,x30,[sp,#48]
	ldp	x20,x19,[sp,#32]
	add	sp,sp,#64
	ret
	.cfi_endproc

	.globl	_rtp_92408dd3_rtpw_wide_receiver_standing_of
	.p2align	2
_rtp_92408dd3_rtpw_wide_receiver_standing_of:
	.cfi_startproc
	mov	w8,#4096
	cmp	x1,#0
	csel	x9,x8,xzr,eq
	sub	x8,x2,#1
	cmp	x8,#511
	b.hi	1f
	ldrb	w8,[x0,#8]
	cbz	w8,2f
	ldr	x8,[x0]
	subs	x10,x8,x3
	b.ne	3f
4:
	subs	x8,x8,x3
	csel	x8,xzr,x8,lo
	cmp	x2,x8,lsr #6
	mov	w8,#1
	cinc	w0,w8,ls
	ret
1:
	mov	w0,#3
	ret
3:
	b.hs	1f
2:
	mov	w0,#0
	ret
1:
	cmp	x2,x10,lsr #6
	b.ls	4b
	add	x9,x1,x9
	lsr	x10,x3,#6
	udiv	x11,x10,x2
	msub	x10,x11,x2,x10
	ubfx	x11,x3,#6,#4
	cmp	x2,#16
	csel	x10,x10,x11,ne
	ldr	x9,[x9,x10,lsl #3]
	lsr	x9,x9,x3
	tbnz	w9,#0,4b
	b	2b
	.cfi_endproc

	.p2align	2
_rtp_92408dd3_rtp_proved_add_element:
	.cfi_startproc
	sub	sp,sp,#208
	stp	x27,x5,[sp,#112]
	stp	x26,x25,[sp,#128]
	stp	x24,x23,[sp,#144]
	stp	x22,x21,[sp,#160]
	stp	x20,x19,[sp,#176]
	stp	x29,x30,[sp,#192]
	.cfi_def_cfa_offset 208
	.cfi_offset w30,-8
	.cfi_offset w29,-16
	.cfi_offset w19,-24
	.cfi_offset w20,-32
	.cfi_offset w21,-40
	.cfi_offset w22,-48
	.cfi_offset w23,-56
	.cfi_offset w24,-64
	.cfi_offset w25,-72
	.cfi_offset w26,-80
	.cfi_offset w27,-96
	and	w8,w6,#0xff
	mov	w9,#4096
	cmp	x0,#0
	csel	x7,x9,xzr,eq
	cmp	x4,#0
	csel	x15,x9,xzr,eq
	cmp	w8,#2
	b.hi	1f
	ldr	x17,[x2]
	cmp	x1,x17
	b.lo	2f
	mov	x23,x3
	tst	w3,#0xff
	b.eq	3f
	ldr	x8,[sp,#120]
	cmp	x8,#255
	b.hi	4f
	cmp	x17,#12
	b.lo	5f
	mov	x12,x0
	add	x16,x0,x7
	ldrsb	w8,[x16]
	cmn	w8,#65
	b.gt	6f
	and	x13,x8,#0xff
	ubfiz	x14,x13,#2,#4
	add	x3,x14,#12
	subs	x8,x17,x3
	b.lo	7f
	add	x11,x16,x3
	tbnz	w13,#4,8f
	str	wzr,[sp,#108]
	mov	w8,#1
	add	x5,x14,#12
	b	9f
1:
	mov	w0,#9
	b	1f
8:
	subs	x8,x8,#4
	b.lo	8f
	ldrb	w9,[x11,#2]
	ldrb	w10,[x11,#3]
	lsl	x9,x9,#10
	orr	x10,x9,x10,lsl #2
	cmp	x8,x10
	b.lo	10f
	ldrh	w11,[x11]
	and	w9,w11,#0xfffff0ff
	cmp	w9,#16
	cset	w8,eq
	str	w8,[sp,#108]
	cset	w8,ne
	add	x10,x3,x10
	add	x5,x10,#4
	mov	w10,#57022
	cmp	w11,w10
	b.eq	9f
	cmp	w9,#16
	b.ne	11f
9:
	and	w9,w23,#0xff
	ldr	x10,[sp,#120]
	sub	x10,x10,#1
	cmp	x10,#16
	ccmp	w9,#15,#2,lo
	ldr	w9,[sp,#108]
	csinc	w9,w9,wzr,lo
	tst	w6,#0xff
	csinc	w21,w9,wzr,eq
	mov	w10,#253
	tst	w6,w10
	b.ne	9f
	str	x2,[sp,#80]
	stp	x13,x16,[sp,#24]
	str	x14,[sp,#40]
	tbnz	w13,#4,12f
13:
	add	x8,x16,x3
	str	x8,[sp,#72]
	mov	w13,#0
	mov	x27,#0
	mov	x10,#0
	mov	x9,#0
	add	x8,x16,x5
	str	x8,[sp,#96]
	mov	x20,x21
	str	w21,[sp,#108]
	b	14f
9:
	cbnz	w9,9f
	mov	w21,#0
	str	x2,[sp,#80]
	stp	x13,x16,[sp,#24]
	str	x14,[sp,#40]
	tbz	w13,#4,13b
12:
	add	w9,w14,#16
	add	x0,x16,x9
	sub	x27,x5,x9
	str	x0,[sp,#96]
	tbz	w8,#0,12f
	cbz	x27,13f
	add	x8,x14,#12
	str	x8,[sp,#56]
	add	x8,x16,x3
	str	x8,[sp,#72]
	str	xzr,[sp,#88]
	mov	x8,x27
15:
	mov	x22,x8
16:
	ldrb	w9,[x0]
	sub	w8,w9,#240
	cmn	w8,#224
	b.hs	17f
	cbz	w9,18f
	mov	x8,x22
	cmp	w9,#239
	b.ls	19f
	b	20f
17:
	and	x8,x9,#0xf
	add	x10,x8,#2
	subs	x8,x22,x10
	b.hs	17f
	subs	x8,x22,x10
	b.hs	21f
	b	20f
18:
	cmp	x22,#2
	b.eq	18f
	cmp	x22,#1
	b.eq	20f
	cmp	x22,#3
	b.hi	22f
	ldrb	w8,[x0,#1]
	cbnz	w8,22f
	ldrb	w8,[x0,#2]
	cbnz	w8,22f
	b	23f
18:
	ldrb	w8,[x0,#1]
	cbz	w8,18f
22:
	str	w21,[sp,#12]
	str	x27,[sp,#64]
	mov	x24,x5
	mov	x26,x17
	str	w23,[sp,#48]
	mov	x19,x15
	mov	x27,x7
	mov	x20,x12
	mov	x21,x4
	mov	x25,x2
	mov	x23,x1
	add	x0,x0,#1
	sub	x1,x22,#1
	bl	_rtp_92408dd3_rtp_ext.elements.skip_zeros
	cbz	x1,22f
	mov	x8,x1
	ldrb	w9,[x0]
	mov	x1,x23
	mov	x2,x25
	mov	x4,x21
	mov	x12,x20
	mov	x7,x27
	mov	x15,x19
	ldr	w23,[sp,#48]
	mov	x17,x26
	mov	x5,x24
	ldr	x27,[sp,#64]
	ldr	w21,[sp,#12]
	cmp	w9,#239
	b.hi	20f
19:
	and	w10,w9,#0xf
	add	w10,w10,#2
	subs	x8,x8,x10
	b.lo	20f
21:
	add	x0,x0,x10
	cmp	w9,#16
	b.hs	19f
	mov	x22,x8
	cbnz	x8,16b
	b	20f
17:
	add	x0,x0,x10
19:
	ldr	x9,[sp,#88]
	mov	x22,#0
	add	x9,x10,x9
	str	x9,[sp,#88]
	cbnz	x8,15b
	b	20f
12:
	cbz	x27,13f
	add	x8,x14,#12
	stp	x8,x27,[sp,#56]
	add	x8,x16,x3
	str	x8,[sp,#72]
	str	xzr,[sp,#88]
	mov	x9,x0
	str	w21,[sp,#12]
	str	x5,[sp]
	mov	x22,x27
12:
	ldrb	w8,[x9]
	cbz	w8,15f
	mov	x8,x22
	mov	x0,x9
	cmp	x22,#2
	b.hs	16f
	b	20f
15:
	cmp	x22,#2
	b.eq	15f
	cmp	x22,#1
	b.eq	20f
	cmp	x22,#3
	b.hi	17f
	ldrb	w8,[x9,#1]
	cbnz	w8,17f
	ldrb	w8,[x9,#2]
	cbnz	w8,17f
	b	23f
15:
	ldrb	w8,[x9,#1]
	cbz	w8,18f
17:
	mov	x26,x17
	mov	x24,x23
	mov	x19,x15
	mov	x20,x7
	mov	x27,x12
	mov	x21,x4
	mov	x25,x2
	mov	x23,x1
	add	x0,x9,#1
	sub	x1,x22,#1
	bl	_rtp_92408dd3_rtp_ext.elements.skip_zeros
	cbz	x1,15f
	mov	x8,x1
	mov	x1,x23
	mov	x2,x25
	mov	x4,x21
	mov	x12,x27
	mov	x7,x20
	mov	x15,x19
	mov	x23,x24
	ldr	w21,[sp,#12]
	mov	x17,x26
	ldr	x5,[sp]
	ldr	x27,[sp,#64]
	cmp	x8,#2
	b.lo	20f
16:
	ldrb	w10,[x0,#1]
	add	x9,x10,#2
	subs	x8,x8,x9
	b.lo	20f
	add	x9,x0,x9
	ldrb	w11,[x0]
	cbnz	w11,16f
	mov	x22,x8
	cbnz	x8,12b
	b	20f
16:
	mov	x22,#0
	ldr	x11,[sp,#88]
	add	x10,x11,x10
	add	x10,x10,#2
	str	x10,[sp,#88]
	cbz	x8,20f
	mov	x22,x8
	b	12b
13:
	add	x8,x16,x3
	str	x8,[sp,#72]
	mov	x27,#0
	mov	x10,#0
	mov	x9,#0
	ldr	w8,[sp,#108]
	mov	x20,x21
	cmp	w21,w8
	cset	w13,eq
	b	14f
2:
	mov	w0,#0
	mov	w1,#0
	b	2f
3:
	mov	w1,#0
	mov	w0,#1
	b	2f
4:
	mov	w1,#0
	mov	w0,#2
	b	2f
18:
	mov	w22,#2
	b	20f
5:
	mov	w1,#0
	mov	w0,#3
	b	2f
6:
	mov	w1,#1
	mov	w0,#3
	b	2f
23:
	mov	w22,#3
20:
	sub	x10,x27,x22
	ldr	w8,[sp,#108]
	cmp	w21,w8
	cset	w13,eq
	b.eq	3f
	ldr	x9,[sp,#88]
	cbz	x9,4f
	ldr	w0,[sp,#108]
	str	x1,[sp,#48]
	mov	x20,x21
	mov	x1,x21
	ldr	x2,[sp,#96]
	mov	x3,x10
	str	x4,[sp,#16]
	mov	w4,#0
	mov	x22,x12
	mov	x25,x15
	mov	x21,x17
	mov	x24,x5
	mov	x19,x7
	mov	x26,x10
	bl	_rtp_92408dd3_rtp_ext.form_change.row_len
	mov	x10,x26
	mov	x7,x19
	mov	x5,x24
	mov	x17,x21
	mov	x15,x25
	mov	x12,x22
	ldr	x4,[sp,#16]
	mov	x8,x1
	ldp	x1,x3,[sp,#48]
	mov	w13,#0
	mov	w21,#1
	b	5f
4:
	mov	x20,x21
	ldr	x3,[sp,#56]
	b	14f
3:
	mov	x20,x21
	ldr	x3,[sp,#56]
	ldr	x9,[sp,#88]
14:
	mov	w21,#0
	mov	w0,#1
	str	x9,[sp,#88]
	mov	x8,x9
5:
	and	w9,w0,#0xff
	cmp	w9,#1
	b.ne	3f
	mov	x26,x20
	cmp	w20,#0
	mov	w9,#1
	cinc	x20,x9,ne
	ldr	x9,[sp,#120]
	add	x8,x9,x8
	add	x8,x8,x20
	add	x8,x8,#3
	and	x8,x8,#0xfffffffffffffffc
	cmp	x27,x8
	csel	x9,x27,x8,hi
	mov	w8,#262140
	cmp	x9,x8
	b.hi	4f
	add	x8,x3,x9
	add	x3,x8,#4
	sub	x8,x17,x5
	add	x24,x3,x8
	cmp	x1,x24
	b.lo	5f
	mov	x25,x10
	stp	x24,x20,[sp,#56]
	mov	x24,x4
	str	x15,[sp,#16]
	add	x8,x4,x15
	str	x8,[sp,#48]
	mov	x22,x12
	mov	x19,x7
	add	x0,x12,x7
	mov	x1,x5
	str	x9,[sp,#96]
	mov	x2,x17
	mov	x20,x13
	bl	_rtp_92408dd3_rtp_wire.packet.resizing.move_bytes
	ldr	x2,[sp,#96]
	lsl	w8,w2,#6
	and	w8,w8,#0xff00
	orr	w8,w8,w2,lsr #10
	ldr	x10,[sp,#72]
	strh	w8,[x10,#2]
	tbnz	w20,#0,6f
	ldr	x9,[sp,#32]
	ldrb	w8,[x9]
	orr	w8,w8,#0x10
	strb	w8,[x9]
	mov	w8,#16
	mov	w9,#-8514
	cmp	w26,#0
	csel	w8,w9,w8,eq
	strh	w8,[x10]
6:
	add	x5,x10,#4
	cbz	x27,6f
	mov	x6,x25
	str	x19,[sp,#72]
	ldr	x8,[sp,#88]
	cmp	x8,x25
	b.ne	12f
	mov	x27,x5
	mov	x5,#0
	mov	x3,x6
	mov	x19,x23
	cbnz	w21,13f
	b	14f
6:
	mov	x15,x22
	ldr	x17,[sp,#64]
	ldr	x1,[sp,#48]
	tbz	w26,#0,6f
	ldr	x8,[sp,#120]
	strb	w8,[x10,#5]
	mov	w8,#2
	ldr	x22,[sp,#80]
	ldr	x21,[sp,#56]
	strb	w23,[x5]
	ldr	x9,[sp,#120]
	ands	w9,w9,#0xff
	b.ne	16f
	b	17f
12:
	mov	x4,x27
	ldr	w0,[sp,#108]
	mov	x27,x5
	mov	x1,x5
	mov	x2,x6
	mov	x3,x6
	mov	w5,#0
	bl	_rtp_92408dd3_rtp_ext.gathering.gather_around
	mov	x6,x25
	ldr	x2,[sp,#96]
	mov	x3,x0
	mov	x5,x1
	mov	x19,x23
	cbz	w21,14f
13:
	ldr	w0,[sp,#108]
	mov	x1,x27
	ldr	x2,[sp,#96]
	mov	x4,x6
	bl	_rtp_92408dd3_rtp_ext.form_change.change_rows
	ldr	x2,[sp,#96]
	mov	x3,x0
	mov	x5,x1
	mov	x6,x0
14:
	mov	x15,x22
	ldr	x16,[sp,#40]
	ldp	x21,x0,[sp,#56]
	ldr	x8,[sp,#120]
	add	x8,x0,x8
	add	x23,x8,x3
	subs	x9,x6,x23
	ldr	x22,[sp,#80]
	b.hs	12f
	cbz	x5,13f
	mov	x8,x5
	cmp	x5,#8
	b.lo	14f
	mov	x8,x5
	cmp	x9,#64
	b.lo	14f
	cmp	x5,#64
	b.hs	18f
	mov	x9,#0
	b	19f
12:
	cbz	x5,13f
	cmp	x5,#8
	b.lo	12f
	add	x8,x0,x3
	ldr	x9,[sp,#120]
	add	x8,x8,x9
	sub	x8,x8,x6
	cmp	x8,#64
	b.hs	21f
12:
	mov	x8,#0
12:
	sub	x9,x5,x8
	ldr	x10,[sp,#72]
	add	x10,x10,x8
	add	x8,x10,x0
	ldr	x11,[sp,#120]
	add	x11,x11,x16
	add	x11,x11,x15
	add	x8,x8,x3
	add	x8,x8,x11
	add	x8,x8,#16
	add	x10,x10,x6
	add	x11,x16,x15
	add	x10,x10,x11
	add	x10,x10,#16
23:
	ldrb	w11,[x10],#1
	strb	w11,[x8],#1
	subs	x9,x9,#1
	b.ne	23b
	b	13f
6:
	ubfx	w8,w23,#4,#4
	orr	w8,w8,w23,lsl #4
	ldr	x9,[sp,#120]
	add	w8,w8,w9
	sub	w23,w8,#1
	mov	w8,#1
	ldr	x22,[sp,#80]
	ldr	x21,[sp,#56]
	strb	w23,[x5]
	ldr	x9,[sp,#120]
	ands	w9,w9,#0xff
	b.eq	17f
16:
	cmp	w9,#1
	b.ne	6f
	ldrb	w9,[x1]
	strb	w9,[x5,x8]
	b	16f
6:
	ldr	x9,[sp,#120]
	cmp	x9,#2
	b.hi	6f
	ldrb	w9,[x1]
	add	x8,x5,x8
	strb	w9,[x8]
	ldrb	w9,[x1,#1]
	strb	w9,[x8,#1]
	b	16f
7:
	mov	w1,#2
	mov	w0,#3
	b	2f
3:
	ldr	w0,[sp,#108]
	ldr	x1,[sp,#96]
	mov	x2,x27
	bl	_rtp_92408dd3_rtp_wire.packet.rewriting.has_long_id
	mov	w1,#0
	cmp	w0,#0
	mov	w8,#5
	cinc	w0,w8,eq
	b	2f
4:
	mov	w1,#0
	mov	w0,#7
	b	2f
6:
	ldr	x9,[sp,#120]
	cmp	x9,#3
	b.ne	17f
	ldrb	w9,[x1]
	add	x8,x5,x8
	strb	w9,[x8]
	ldrb	w9,[x1,#1]
	strb	w9,[x8,#1]
	ldrb	w9,[x1,#2]
	strb	w9,[x8,#2]
	b	16f
17:
	add	x0,x5,x8
	sub	x9,x0,x1
	ldr	x10,[sp,#120]
	cmp	x9,x10
	b.hs	3f
	ldr	x9,[sp,#120]
	cmp	x9,#8
	b.hs	4f
	mov	x9,#0
	ldr	x16,[sp,#24]
	b	6f
3:
	ldr	x2,[sp,#120]
	mov	x19,x5
	bl	_memmove
	mov	x5,x19
	ldr	x17,[sp,#64]
	ldr	x2,[sp,#96]
	b	16f
5:
	mov	w1,#0
	mov	w0,#8
	b	2f
21:
	cmp	x5,#64
	b.hs	3f
	mov	x8,#0
	b	5f
18:
	and	x8,x5,#0x38
	and	x9,x5,#0xffffffffffffffc0
	ldr	x12,[sp,#72]
	add	x10,x0,x12
	add	x11,x3,x5
	add	x10,x10,x11
	ldr	x11,[sp,#120]
	add	x11,x11,x16
	add	x11,x11,x15
	add	x10,x10,x11
	sub	x10,x10,#16
	add	x11,x6,x16
	add	x11,x11,x15
	add	x12,x12,x5
	add	x11,x12,x11
	sub	x11,x11,#16
	and	x12,x5,#0xffffffffffffffc0
7:
	ldp	q1,q0,[x11]
	ldp	q3,q2,[x11,#-32]
	stp	q1,q0,[x10]
	stp	q3,q2,[x10,#-32]
	sub	x10,x10,#64
	sub	x11,x11,#64
	sub	x12,x12,#64
	cbnz	x12,7b
	cmp	x5,x9
	b.eq	13f
	cbz	x8,7f
19:
	and	x10,x5,#0xfffffffffffffff8
	and	x8,x5,#0x7
	ldr	x12,[sp,#72]
	add	x11,x12,x6
	add	x11,x11,x16
	sub	x11,x11,x9
	add	x11,x11,x15
	add	x11,x11,#8
	add	x12,x0,x12
	add	x12,x12,x3
	ldr	x13,[sp,#120]
	add	x13,x13,x16
	add	x12,x12,x13
	sub	x12,x12,x9
	add	x12,x12,x15
	add	x12,x12,#8
	sub	x9,x9,x10
17:
	ldr	d0,[x11,x5]
	str	d0,[x12,x5]
	sub	x11,x11,#8
	sub	x12,x12,#8
	adds	x9,x9,#8
	b.ne	17b
	cmp	x5,x10
	b.eq	13f
14:
	ldr	x9,[sp,#72]
	add	x10,x9,x8
	add	x9,x10,x0
	ldr	x11,[sp,#120]
	add	x11,x11,x16
	add	x11,x11,x15
	add	x9,x9,x3
	add	x9,x9,x11
	add	x9,x9,#15
	add	x10,x10,x6
	add	x11,x16,x15
	add	x10,x10,x11
	add	x10,x10,#15
17:
	ldrb	w11,[x10],#-1
	strb	w11,[x9],#-1
	subs	x8,x8,#1
	b.ne	17b
13:
	tbz	w26,#0,17f
	add	x8,x27,x3
	strb	w19,[x8]
	ldr	x9,[sp,#120]
	strb	w9,[x8,#1]
	mov	w8,#2
	ldr	x1,[sp,#48]
	add	x9,x8,x3
	ldr	x10,[sp,#120]
	ands	w10,w10,#0xff
	b.ne	18f
	b	19f
17:
	ubfx	w8,w19,#4,#4
	orr	w8,w8,w19,lsl #4
	ldr	x9,[sp,#120]
	add	w8,w8,w9
	sub	w8,w8,#1
	strb	w8,[x27,x3]
	mov	w8,#1
	ldr	x1,[sp,#48]
	add	x9,x8,x3
	ldr	x10,[sp,#120]
	ands	w10,w10,#0xff
	b.eq	19f
18:
	cmp	w10,#1
	b.ne	17f
	ldrb	w8,[x1]
	strb	w8,[x27,x9]
	b	18f
17:
	ldr	x10,[sp,#120]
	cmp	x10,#2
	b.hi	17f
	ldrb	w8,[x1]
	add	x9,x27,x9
	strb	w8,[x9]
	ldrb	w8,[x1,#1]
	strb	w8,[x9,#1]
	b	18f
17:
	ldr	x10,[sp,#120]
	cmp	x10,#3
	b.ne	19f
	ldrb	w8,[x1]
	add	x9,x27,x9
	strb	w8,[x9]
	ldrb	w8,[x1,#1]
	strb	w8,[x9,#1]
	ldrb	w8,[x1,#2]
	strb	w8,[x9,#2]
	b	18f
19:
	add	x0,x27,x9
	sub	x9,x0,x1
	ldr	x10,[sp,#120]
	cmp	x9,x10
	b.hs	17f
	ldr	x9,[sp,#120]
	cmp	x9,#8
	b.hs	19f
	mov	x9,#0
	ldr	x16,[sp,#24]
	b	21f
17:
	ldr	x2,[sp,#120]
	mov	x19,x5
	bl	_memmove
	mov	x5,x19
	ldr	x2,[sp,#96]
	b	18f
19:
	ldr	x9,[sp,#72]
	add	x9,x9,x3
	add	x9,x9,x8
	mov	x12,x16
	add	x10,x15,x16
	add	x9,x9,x10
	ldp	x10,x16,[sp,#16]
	add	x10,x10,x24
	sub	x9,x9,x10
	add	x9,x9,#16
	cmp	x9,#64
	b.hs	17f
	mov	x9,#0
	b	21f
8:
	mov	w0,#3
	mov	w1,#3
	b	2f
4:
	orr	x9,x19,x8
	ldr	x12,[sp,#40]
	add	x10,x15,x12
	add	x9,x9,x10
	ldp	x10,x16,[sp,#16]
	add	x10,x10,x24
	sub	x9,x9,x10
	add	x9,x9,#16
	cmp	x9,#64
	b.hs	4f
	mov	x9,#0
	b	6f
10:
	mov	w1,#4
	mov	w0,#3
	b	2f
11:
	mov	w1,#0
	mov	w0,#4
	b	2f
17:
	ldr	x9,[sp,#120]
	cmp	x9,#64
	b.hs	8f
	mov	x9,#0
	b	10f
3:
	and	x9,x5,#0x38
	and	x8,x5,#0xffffffffffffffc0
	ldr	x12,[sp,#72]
	add	x10,x12,x6
	add	x11,x16,x15
	add	x10,x10,x11
	add	x10,x10,#64
	add	x12,x0,x12
	ldr	x13,[sp,#120]
	add	x13,x3,x13
	add	x12,x12,x13
	add	x11,x12,x11
	add	x11,x11,#32
	and	x12,x5,#0xffffffffffffffc0
3:
	ldp	q0,q1,[x10,#-48]
	ldp	q2,q3,[x10,#-16]
	stp	q0,q1,[x11,#-16]
	stp	q2,q3,[x11,#16]
	add	x10,x10,#64
	add	x11,x11,#64
	subs	x12,x12,#64
	b.ne	3b
	cmp	x5,x8
	b.eq	13b
	cbz	x9,12b
5:
	mov	x11,x8
	and	x8,x5,#0xfffffffffffffff8
	sub	x9,x11,x8
	ldr	x13,[sp,#72]
	add	x10,x0,x13
	add	x10,x10,x3
	ldr	x12,[sp,#120]
	add	x12,x11,x12
	add	x12,x12,x16
	add	x10,x10,x12
	add	x10,x10,x15
	add	x10,x10,#16
	add	x12,x13,x6
	add	x11,x12,x11
	add	x12,x16,x15
	add	x11,x11,x12
	add	x11,x11,#16
3:
	ldr	d0,[x11],#8
	str	d0,[x10],#8
	adds	x9,x9,#8
	b.ne	3b
	cmp	x5,x8
	b.eq	13b
	b	12b
9:
	mov	w1,#0
	and	w8,w23,#0xff
	cmp	w8,#14
	mov	w8,#5
	cinc	w0,w8,ls
2:
	ldp	x29,x30,[sp,#192]
	ldp	x20,x19,[sp,#176]
	ldp	x22,x21,[sp,#160]
	ldp	x24,x23,[sp,#144]
	ldp	x26,x25,[sp,#128]
	ldr	x27,[sp,#112]
	add	sp,sp,#208
	b	_rtp_92408dd3_rtp_c.growing.put_status_of
4:
	ldr	x9,[sp,#120]
	cmp	x9,#64
	b.hs	2f
	mov	x9,#0
	b	3f
8:
	ldr	x13,[sp,#120]
	and	x10,x13,#0x38
	and	x9,x13,#0xc0
	ldr	x11,[sp,#72]
	add	x11,x11,x3
	add	x11,x11,x8
	add	x12,x12,x15
	add	x11,x11,x12
	add	x11,x11,#64
	ldr	x12,[sp,#16]
	add	x12,x12,x24
	add	x12,x12,#32
	and	x13,x13,#0xc0
4:
	ldp	q0,q1,[x12,#-32]
	ldp	q2,q3,[x12],#64
	stp	q0,q1,[x11,#-48]
	stp	q2,q3,[x11,#-16]
	add	x11,x11,#64
	subs	x13,x13,#64
	b.ne	4b
	ldr	x11,[sp,#120]
	cmp	x11,x9
	b.eq	18f
	cbz	x10,21f
10:
	mov	x12,x9
	ldr	x9,[sp,#120]
	and	x9,x9,#0xf8
	sub	x10,x12,x9
	ldr	x11,[sp,#16]
	add	x11,x11,x12
	add	x11,x24,x11
	ldr	x13,[sp,#72]
	add	x13,x13,x3
	add	x12,x13,x12
	add	x12,x12,x8
	and	x13,x16,#0xf
	add	x12,x12,x13,lsl #2
	add	x12,x12,x15
	add	x12,x12,#16
4:
	ldr	d0,[x11],#8
	str	d0,[x12],#8
	adds	x10,x10,#8
	b.ne	4b
	ldr	x10,[sp,#120]
	cmp	x10,x9
	b.eq	18f
21:
	ldr	x10,[sp,#120]
	sub	x10,x10,x9
	ldr	x11,[sp,#16]
	add	x11,x11,x9
	add	x11,x24,x11
	ldr	x12,[sp,#72]
	add	x9,x12,x9
	add	x9,x9,x3
	add	x8,x9,x8
	and	x9,x16,#0xf
	add	x8,x8,x9,lsl #2
	add	x8,x8,x15
	add	x8,x8,#16
4:
	ldrb	w9,[x11],#1
	strb	w9,[x8],#1
	subs	x10,x10,#1
	b.ne	4b
18:
	add	x8,x5,x23
	subs	x9,x2,x8
	b.ls	4f
	subs	x19,x9,#1
	b.le	5f
	cmp	x9,#2
	b.eq	8f
	cmp	x9,#3
	b.eq	9f
	cmp	x9,#4
	b.ne	10f
	str	wzr,[x27,x8]
	b	4f
5:
	cbz	x9,4f
	cmp	x9,#1
	b.ne	10f
	strb	wzr,[x27,x8]
	b	4f
8:
	strh	wzr,[x27,x8]
	b	4f
9:
	add	x8,x27,x8
	b	5f
10:
	add	x20,x27,x8
	b	8f
2:
	ldr	x13,[sp,#120]
	and	x10,x13,#0x38
	and	x9,x13,#0xc0
	add	x11,x19,x8
	add	x12,x12,x15
	add	x11,x11,x12
	add	x11,x11,#64
	ldr	x12,[sp,#16]
	add	x12,x12,x24
	add	x12,x12,#32
	and	x13,x13,#0xc0
2:
	ldp	q0,q1,[x12,#-32]
	ldp	q2,q3,[x12],#64
	stp	q0,q1,[x11,#-48]
	stp	q2,q3,[x11,#-16]
	add	x11,x11,#64
	subs	x13,x13,#64
	b.ne	2b
	ldr	x11,[sp,#120]
	cmp	x11,x9
	b.eq	16f
	cbz	x10,6f
3:
	mov	x12,x9
	ldr	x9,[sp,#120]
	and	x9,x9,#0xf8
	sub	x10,x12,x9
	ldr	x11,[sp,#16]
	add	x11,x11,x12
	add	x11,x24,x11
	add	x12,x19,x12
	add	x12,x12,x8
	and	x13,x16,#0xf
	add	x12,x12,x13,lsl #2
	add	x12,x12,x15
	add	x12,x12,#16
2:
	ldr	d0,[x11],#8
	str	d0,[x12],#8
	adds	x10,x10,#8
	b.ne	2b
	ldr	x10,[sp,#120]
	cmp	x10,x9
	b.eq	16f
6:
	ldr	x10,[sp,#120]
	sub	x10,x10,x9
	ldr	x11,[sp,#16]
	add	x11,x11,x9
	add	x11,x24,x11
	add	x9,x19,x9
	add	x8,x9,x8
	and	x9,x16,#0xf
	add	x8,x8,x9,lsl #2
	add	x8,x8,x15
	add	x8,x8,#16
2:
	ldrb	w9,[x11],#1
	strb	w9,[x8],#1
	subs	x10,x10,#1
	b.ne	2b
16:
	ldr	x8,[sp,#120]
	add	x8,x17,x8
	subs	x9,x2,x8
	b.ls	4f
	subs	x19,x9,#1
	b.le	2f
	cmp	x9,#2
	b.eq	3f
	cmp	x9,#3
	b.eq	6f
	cmp	x9,#4
	b.ne	9f
	str	wzr,[x5,x8]
	b	4f
2:
	cbz	x9,4f
	cmp	x9,#1
	b.ne	9f
	strb	wzr,[x5,x8]
	b	4f
3:
	strh	wzr,[x5,x8]
	b	4f
6:
	add	x8,x5,x8
5:
	strb	wzr,[x8,#2]
	strh	wzr,[x8]
	b	4f
9:
	add	x20,x5,x8
8:
	mov	x0,x20
	mov	x1,x19
	bl	_bzero
	strb	wzr,[x20,x19]
4:
	mov	w0,#0
	str	x21,[x22]
1:
	ldp	x29,x30,[sp,#192]
	ldp	x20,x19,[sp,#176]
	ldp	x22,x21,[sp,#160]
	ldp	x24,x23,[sp,#144]
	ldp	x26,x25,[sp,#128]
	ldr	x27,[sp,#112]
	add	sp,sp,#208
	ret
15:
	mov	x1,x23
	mov	x4,x21
	mov	x12,x27
	mov	x7,x20
	mov	x15,x19
	mov	x23,x24
	ldr	w21,[sp,#12]
	mov	x17,x26
	ldr	x5,[sp]
	ldr	x27,[sp,#64]
	b	20b
22:
	mov	x1,x23
	mov	x4,x21
	mov	x12,x20
	mov	x7,x27
	mov	x15,x19
	ldr	w23,[sp,#48]
	mov	x17,x26
	mov	x5,x24
	ldr	x27,[sp,#64]
	ldr	w21,[sp,#12]
	b	20b
7:
	and	x8,x5,#0x3f
	b	14b
	.cfi_endproc

	.globl	_rtp_92408dd3_rtpw_change_form
	.p2align	2
_rtp_92408dd3_rtpw_change_form:
	.cfi_startproc
	sub	sp,sp,#96
	stp	x20,x19,[sp,#64]
	stp	x29,x30,[sp,#80]
	.cfi_def_cfa_offset 96
	.cfi_offset w30,-8
	.cfi_offset w29,-16
	.cfi_offset w19,-24
	.cfi_offset w20,-32
	mov	x19,x2
	mov	w8,#4096
	cmp	x0,#0
	csel	x9,x8,xzr,eq
	and	w8,w3,#0xff
	cmp	w8,#1
	b.eq	1f
	cmp	w8,#2
	b.ne	2f
	mov	w2,#1
	ldr	x8,[x19]
	stp	xzr,xzr,[sp]
	str	xzr,[sp,#16]
	cmp	x1,x8
	b.lo	3f
4:
	cmp	x8,#12
	b.lo	5f
	add	x9,x0,x9
	ldrsb	w10,[x9]
	cmn	w10,#65
	b.gt	6f
	and	x11,x10,#0xff
	ubfiz	x10,x11,#2,#4
	add	x10,x10,#12
	subs	x12,x8,x10
	b.lo	7f
	tbnz	w11,#4,8f
	mov	x11,#0
	b	9f
1:
	mov	w2,#0
	ldr	x8,[x19]
	stp	xzr,xzr,[sp]
	str	xzr,[sp,#16]
	cmp	x1,x8
	b.hs	4b
3:
	mov	x0,#0
	lsr	x1,xzr,#8
	ldp	x29,x30,[sp,#80]
	ldp	x20,x19,[sp,#64]
	add	sp,sp,#96
	b	_rtp_92408dd3_rtp_c.growing.put_status_of
2:
	mov	w0,#9
	ldp	x29,x30,[sp,#80]
	ldp	x20,x19,[sp,#64]
	add	sp,sp,#96
	ret
8:
	subs	x12,x12,#4
	b.lo	1f
	add	x11,x9,x10
	ldrb	w13,[x11,#2]
	ldrb	w14,[x11,#3]
	lsl	x13,x13,#10
	orr	x13,x13,x14,lsl #2
	cmp	x12,x13
	b.lo	2f
	ldrh	w11,[x11]
	mov	w12,#57022
	cmp	w11,w12
	cset	w12,eq
	and	w11,w11,#0xfffff0ff
	add	x10,x10,x13
	add	x10,x10,#4
	cmp	w11,#16
	csinc	w11,w12,wzr,ne
	mov	w12,#256
	csel	x12,x12,xzr,eq
	orr	x11,x12,x11
9:
	lsr	x12,x11,#8
	stp	x9,x1,[sp,#24]
	stp	x8,x10,[sp,#40]
	strb	w11,[sp,#56]
	strb	w12,[sp,#57]
	stur	wzr,[sp,#58]
	strh	wzr,[sp,#62]
	mov	x0,sp
	add	x1,sp,#24
	bl	_rtp_92408dd3_rtp_wire.packet.rtp_92408dd3_rtp_packet_buf.RtpPacketBuf.change_form
	ldrb	w8,[sp]
	cbnz	w8,3f
	mov	w0,#0
	ldr	x8,[sp,#40]
	str	x8,[x19]
	ldp	x29,x30,[sp,#80]
	ldp	x20,x19,[sp,#64]
	add	sp,sp,#96
	ret
5:
	mov	w0,#3
	lsr	x1,x0,#8
	ldp	x29,x30,[sp,#80]
	ldp	x20,x19,[sp,#64]
	add	sp,sp,#96
	b	_rtp_92408dd3_rtp_c.growing.put_status_of
6:
	mov	w0,#259
	lsr	x1,x0,#8
	ldp	x29,x30,[sp,#80]
	ldp	x20,x19,[sp,#64]
	add	sp,sp,#96
	b	_rtp_92408dd3_rtp_c.growing.put_status_of
7:
	mov	w0,#515
	lsr	x1,x0,#8
	ldp	x29,x30,[sp,#80]
	ldp	x20,x19,[sp,#64]
	add	sp,sp,#96
	b	_rtp_92408dd3_rtp_c.growing.put_status_of
3:
	ldrb	w1,[sp,#9]
	ldrb	w0,[sp,#8]
	ldp	x29,x30,[sp,#80]
	ldp	x20,x19,[sp,#64]
	add	sp,sp,#96
	b	_rtp_92408dd3_rtp_c.growing.put_status_of
1:
	mov	w0,#771
	lsr	x1,x0,#8
	ldp	x29,x30,[sp,#80]
	ldp	x20,x19,[sp,#64]
	add	sp,sp,#96
	b	_rtp_92408dd3_rtp_c.growing.put_status_of
2:
	mov	w0,#1027
	lsr	x1,x0,#8
	ldp	x29,x30,[sp,#80]
	ldp	x20,x19,[sp,#64]
	add	sp,sp,#96
	b	_rtp_92408dd3_rtp_c.growing.put_status_of
	.cfi_endproc

	.globl	_rtp_92408dd3_rtpw_compact
	.p2align	2
_rtp_92408dd3_rtpw_compact:
	.cfi_startproc
	stp	x26,x25,[sp,#-80]!
	stp	x24,x23,[sp,#16]
	stp	x22,x21,[sp,#32]
	stp	x20,x19,[sp,#48]
	stp	x29,x30,[sp,#64]
	.cfi_def_cfa_offset 80
	.cfi_offset w30,-8
	.cfi_offset w29,-16
	.cfi_offset w19,-24
	.cfi_offset w20,-32
	.cfi_offset w21,-40
	.cfi_offset w22,-48
	.cfi_offset w23,-56
	.cfi_offset w24,-64
	.cfi_offset w25,-72
	.cfi_offset w26,-80
	mov	w8,#4096
	cmp	x0,#0
	csel	x8,x8,xzr,eq
	ldr	x19,[x2]
	cmp	x1,x19
	b.hs	1f
	mov	w0,#9
	ldp	x29,x30,[sp,#64]
	ldp	x20,x19,[sp,#48]
	ldp	x22,x21,[sp,#32]
	ldp	x24,x23,[sp,#16]
	ldp	x26,x25,[sp],#80
	ret
1:
	cmp	x19,#12
	b.hs	1f
	mov	w0,#1
	ldp	x29,x30,[sp,#64]
	ldp	x20,x19,[sp,#48]
	ldp	x22,x21,[sp,#32]
	ldp	x24,x23,[sp,#16]
	ldp	x26,x25,[sp],#80
	ret
1:
	add	x20,x0,x8
	ldrsb	w8,[x20]
	cmn	w8,#65
	b.gt	1f
	and	x8,x8,#0xff
	ubfiz	x9,x8,#2,#4
	add	x9,x9,#12
	subs	x10,x19,x9
	b.hs	2f
	mov	w0,#3
	ldp	x29,x30,[sp,#64]
	ldp	x20,x19,[sp,#48]
	ldp	x22,x21,[sp,#32]
	ldp	x24,x23,[sp,#16]
	ldp	x26,x25,[sp],#80
	ret
1:
	mov	w0,#2
	ldp	x29,x30,[sp,#64]
	ldp	x20,x19,[sp,#48]
	ldp	x22,x21,[sp,#32]
	ldp	x24,x23,[sp,#16]
	ldp	x26,x25,[sp],#80
	ret
2:
	tbnz	w8,#4,1f
2:
	mov	w0,#0
	str	x19,[x2]
	ldp	x29,x30,[sp,#64]
	ldp	x20,x19,[sp,#48]
	ldp	x22,x21,[sp,#32]
	ldp	x24,x23,[sp,#16]
	ldp	x26,x25,[sp],#80
	ret
1:
	subs	x10,x10,#4
	b.hs	1f
	mov	w0,#4
	ldp	x29,x30,[sp,#64]
	ldp	x20,x19,[sp,#48]
	ldp	x22,x21,[sp,#32]
	ldp	x24,x23,[sp,#16]
	ldp	x26,x25,[sp],#80
	ret
1:
	add	x23,x20,x9
	ldrb	w8,[x23,#2]
	ldrb	w11,[x23,#3]
	lsl	x8,x8,#10
	orr	x8,x8,x11,lsl #2
	cmp	x10,x8
	b.hs	1f
	mov	w0,#6
	ldp	x29,x30,[sp,#64]
	ldp	x20,x19,[sp,#48]
	ldp	x22,x21,[sp,#32]
	ldp	x24,x23,[sp,#16]
	ldp	x26,x25,[sp],#80
	ret
1:
	ldrh	w11,[x23]
	and	w10,w11,#0xfffff0ff
	mov	w12,#57022
	cmp	w11,w12
	ccmp	w10,#16,#4,ne
	b.ne	2b
	cmp	w10,#16
	cset	w0,eq
	add	x22,x9,#4
	add	x21,x8,x22
	add	x1,x20,x22
	mov	x24,x2
	mov	x2,x8
	bl	_rtp_92408dd3_rtp_ext.gathering.compact_body
	add	x25,x0,#3
	and	x8,x25,#0xfffffffffffffffc
	add	x22,x8,x22
	mov	x0,x20
	mov	x1,x21
	mov	x2,x19
	mov	x3,x22
	bl	_rtp_92408dd3_rtp_wire.packet.resizing.move_bytes
	mov	x2,x24
	lsl	w8,w25,#6
	bfxil	w8,w25,#10,#8
	strh	w8,[x23,#2]
	sub	x8,x19,x21
	add	x19,x8,x22
	b	2b
	.cfi_endproc

	.globl	_rtp_92408dd3_rtpw_from_retransmission
	.p2align	2
_rtp_92408dd3_rtpw_from_retransmission:
	.cfi_startproc
	mov	w8,#4096
	cmp	x0,#0
	csel	x9,x8,xzr,eq
	tbnz	w4,#7,1f
	sub	sp,sp,#368
	stp	x26,x25,[sp,#288]
	stp	x24,x23,[sp,#304]
	stp	x22,x21,[sp,#320]
	stp	x20,x19,[sp,#336]
	stp	x29,x30,[sp,#352]
	.cfi_def_cfa_offset 368
	.cfi_offset w30,-8
	.cfi_offset w29,-16
	.cfi_offset w19,-24
	.cfi_offset w20,-32
	.cfi_offset w21,-40
	.cfi_offset w22,-48
	.cfi_offset w23,-56
	.cfi_offset w24,-64
	.cfi_offset w25,-72
	.cfi_offset w26,-80
	mov	x10,sp
	ldr	x8,[x2]
	strb	wzr,[sp]
	ldur	q0,[x5,#193]
	stur	q0,[x10,#193]
	ldur	q0,[x5,#209]
	stur	q0,[x10,#209]
	ldur	q0,[x5,#225]
	stur	q0,[x10,#225]
	ldr	q0,[x5,#240]
	str	q0,[sp,#240]
	ldur	q0,[x5,#129]
	stur	q0,[x10,#129]
	ldur	q0,[x5,#145]
	stur	q0,[x10,#145]
	ldur	q0,[x5,#161]
	stur	q0,[x10,#161]
	ldur	q0,[x5,#177]
	stur	q0,[x10,#177]
	ldur	q0,[x5,#65]
	stur	q0,[sp,#65]
	ldur	q0,[x5,#81]
	stur	q0,[sp,#81]
	ldur	q0,[x5,#97]
	stur	q0,[sp,#97]
	ldur	q0,[x5,#113]
	stur	q0,[sp,#113]
	ldur	q0,[x5,#1]
	stur	q0,[sp,#1]
	ldur	q0,[x5,#17]
	stur	q0,[sp,#17]
	ldur	q0,[x5,#33]
	stur	q0,[sp,#33]
	ldur	q0,[x5,#49]
	stur	q0,[sp,#49]
	cmp	x1,x8
	b.hs	2f
3:
	mov	w0,#9
	b	4f
1:
	mov	w0,#9
	ret
2:
	cmp	x8,#12
	b.hs	1f
	mov	w0,#1
	b	4f
1:
	add	x20,x0,x9
	ldrsb	w9,[x20]
	cmn	w9,#65
	b.gt	1f
	and	x9,x9,#0xff
	ubfiz	x10,x9,#2,#4
	add	x19,x10,#12
	subs	x21,x8,x19
	b.hs	2f
	mov	w0,#3
	b	4f
1:
	mov	w0,#2
4:
	ldp	x29,x30,[sp,#352]
	ldp	x20,x19,[sp,#336]
	ldp	x22,x21,[sp,#320]
	ldp	x24,x23,[sp,#304]
	ldp	x26,x25,[sp,#288]
	add	sp,sp,#368
	ret
2:
	tbnz	w9,#4,1f
	mov	w11,#0
	mov	w10,#0
	tbz	w9,#5,2f
5:
	cmp	x8,x19
	b.eq	6f
	add	x8,x20,x8
	ldurb	w8,[x8,#-1]
	subs	x21,x21,x8
	b.lo	3b
	b	2f
1:
	subs	x11,x21,#4
	b.hs	1f
	mov	w0,#4
	b	4b
1:
	add	x10,x20,x19
	ldrb	w12,[x10,#2]
	ldrb	w13,[x10,#3]
	lsl	x12,x12,#10
	orr	x12,x12,x13,lsl #2
	cmp	x11,x12
	b.hs	1f
	mov	w0,#6
	b	4b
1:
	ldrh	w11,[x10]
	and	w10,w11,#0xfffff0ff
	cmp	w10,#16
	cset	w10,eq
	mov	w13,#57022
	cmp	w11,w13
	csinc	w11,w10,wzr,ne
	add	x12,x19,x12
	add	x19,x12,#4
	sub	x21,x8,x19
	tbnz	w9,#5,5b
2:
	cmp	x21,#2
	b.lo	6f
	mov	x25,x4
	mov	x23,x3
	mov	x22,x2
	ldrh	w24,[x20,x19]
	stp	x20,x19,[sp,#256]
	stp	x19,xzr,[sp,#272]
	strb	w11,[sp,#280]
	strb	w10,[sp,#281]
	add	x0,sp,#256
	mov	x1,sp
	bl	_rtp_92408dd3_rtp_wire.packet.rtp_92408dd3_rtp_packet_mut.RtpPacketMut.renumber
	cbz	w0,1f
	ldrb	w8,[x20]
	mov	w9,#128
	bfxil	w9,w8,#0,#5
	strb	w9,[x20]
	ldrb	w8,[x20,#1]
	and	w8,w8,#0x80
	orr	w8,w8,w25
	strb	w8,[x20,#1]
	strh	w24,[x20,#2]
	rev	w8,w23
	str	w8,[x20,#8]
	subs	x2,x21,#2
	b.eq	2f
	add	x0,x20,x19
	add	x1,x0,#2
	bl	_memmove
2:
	mov	w0,#0
	add	x8,x19,x21
	sub	x8,x8,#2
	str	x8,[x22]
	b	4b
6:
	mov	w0,#11
	b	4b
1:
	mov	w0,#16
	b	4b
	.cfi_endproc

	.globl	_rtp_92408dd3_rtpw_parse
	.p2align	2
_rtp_92408dd3_rtpw_parse:
	.cfi_startproc
	mov	w8,#4096
	cmp	x0,#0
	csel	x8,x8,xzr,eq
	cmp	x1,#12
	b.hs	1f
	mov	w0,#1
	ret
1:
	add	x9,x0,x8
	ldrsb	w8,[x9]
	cmn	w8,#65
	b.gt	1f
	and	x10,x8,#0xff
	ubfiz	x11,x10,#2,#4
	add	x8,x11,#12
	subs	x12,x1,x8
	b.hs	2f
	mov	w0,#3
	ret
1:
	mov	w0,#2
	ret
2:
	mov	x4,x3
	tbnz	w10,#4,1f
	mov	w3,#0
2:
	str	x8,[x4]
	ldr	w11,[x9,#4]
	rev	w11,w11
	str	w11,[x4,#8]
	ldr	w11,[x9,#8]
	rev	w11,w11
	str	w11,[x4,#12]
	ldrb	w12,[x9]
	movi.2d	v0,#0000000000000000
	mov	x11,x4
	str	q0,[x11,#16]!
	stur	q0,[x11,#44]
	stp	q0,q0,[x11,#16]
	and	x13,x12,#0xf
	cbz	w13,3f
	mov	x12,#0
	add	x14,x9,#12
4:
	ldr	w15,[x14,x12,lsl #2]
	rev	w15,w15
	str	w15,[x11,x12,lsl #2]
	add	x12,x12,#1
	cmp	x13,x12
	b.ne	4b
	b	4f
1:
	subs	x14,x12,#4
	b.hs	1f
	mov	w0,#4
	ret
1:
	add	x13,x9,x8
	ldrb	w12,[x13,#2]
	ldrb	w15,[x13,#3]
	lsl	x12,x12,#10
	orr	x12,x12,x15,lsl #2
	cmp	x14,x12
	b.hs	1f
	add	x8,x9,w11,uxtw
	ldrh	w8,[x8,#12]
	and	w9,w8,#0xfffff0ff
	cmp	w9,#16
	mov	w9,#57022
	ccmp	w8,w9,#4,ne
	mov	w8,#5
	cinc	w0,w8,eq
	ret
3:
	mov	w12,#0
4:
	strb	w12,[x4,#79]
	ldrh	w11,[x9,#2]
	rev	w11,w11
	lsr	w11,w11,#16
	strh	w11,[x4,#76]
	ldrb	w11,[x9,#1]
	and	w11,w11,#0x7f
	strb	w11,[x4,#78]
	ldrb	w11,[x9,#1]
	lsr	w11,w11,#7
	strb	w11,[x4,#80]
	ldrb	w11,[x9]
	ubfx	w11,w11,#5,#1
	strb	w11,[x4,#81]
	ldrb	w11,[x9]
	ubfx	w11,w11,#4,#1
	strb	w11,[x4,#82]
	tbnz	w10,#4,3f
	mov	w0,#0
	str	xzr,[x4,#216]
	movi.2d	v0,#0000000000000000
	stur	q0,[x4,#200]
	stur	q0,[x4,#184]
	stur	q0,[x4,#168]
	stur	q0,[x4,#152]
	stur	q0,[x4,#136]
	stur	q0,[x4,#120]
	stur	q0,[x4,#104]
	stur	q0,[x4,#88]
	ret
3:
	stp	x29,x30,[sp,#-16]!
	.cfi_def_cfa_offset 16
	.cfi_offset w30,-8
	.cfi_offset w29,-16
	ldrb	w10,[x9]
	ubfiz	x10,x10,#2,#4
	movi.2d	v0,#0000000000000000
	str	q0,[x4,#88]!
	add	x10,x10,#16
	sub	x8,x8,x10
	str	xzr,[x4,#128]
	stp	q0,q0,[x4,#96]
	stp	q0,q0,[x4,#64]
	stp	q0,q0,[x4,#32]
	str	q0,[x4,#16]
	add	x1,x9,x10
	mov	x0,x2
	mov	x2,x8
	bl	_rtp_92408dd3_rtp_ext.block_values.read_values.9a3a19c0cce455e9
	mov	w0,#0
	ldp	x29,x30,[sp],#16
	ret
1:
	ldrh	w11,[x13]
	mov	w13,#57022
	cmp	w11,w13
	cset	w13,ne
	and	w11,w11,#0xfffff0ff
	cmp	w11,#16
	cset	w3,eq
	eor	w11,w13,w3
	tbz	w11,#0,1f
	mov	w0,#5
	ret
1:
	add	x8,x8,x12
	add	x8,x8,#4
	b	2b
	.cfi_endproc

	.globl	_rtp_92408dd3_rtpw_parse_layers
	.p2align	2
_rtp_92408dd3_rtpw_parse_layers:
	.cfi_startproc
	mov	w8,#4096
	cmp	x0,#0
	csel	x8,x8,xzr,eq
	cmp	x1,#12
	b.hs	1f
	mov	w0,#1
	ret
1:
	add	x11,x0,x8
	ldrsb	w8,[x11]
	cmn	w8,#65
	b.gt	1f
	and	x12,x8,#0xff
	ubfiz	x8,x12,#2,#4
	add	x10,x8,#12
	subs	x9,x1,x10
	b.hs	2f
	mov	w0,#3
	ret
1:
	mov	w0,#2
	ret
2:
	tbnz	w12,#4,1f
	mov	w8,#0
2:
	str	x10,[x3]
	ldr	w9,[x11,#4]
	rev	w9,w9
	str	w9,[x3,#8]
	ldr	w9,[x11,#8]
	rev	w9,w9
	str	w9,[x3,#12]
	ldrb	w13,[x11]
	movi.2d	v0,#0000000000000000
	mov	x9,x3
	str	q0,[x9,#16]!
	stur	q0,[x9,#44]
	stp	q0,q0,[x9,#16]
	and	x14,x13,#0xf
	cbz	w14,3f
	mov	x13,#0
	add	x15,x11,#12
4:
	ldr	w16,[x15,x13,lsl #2]
	rev	w16,w16
	str	w16,[x9,x13,lsl #2]
	add	x13,x13,#1
	cmp	x14,x13
	b.ne	4b
	b	4f
1:
	subs	x14,x9,#4
	b.hs	1f
	mov	w0,#4
	ret
1:
	add	x13,x11,x10
	ldrb	w9,[x13,#2]
	ldrb	w15,[x13,#3]
	lsl	x9,x9,#10
	orr	x9,x9,x15,lsl #2
	cmp	x14,x9
	b.hs	1f
	add	x8,x11,w8,uxtw
	ldrh	w8,[x8,#12]
	and	w9,w8,#0xfffff0ff
	cmp	w9,#16
	mov	w9,#57022
	ccmp	w8,w9,#4,ne
	mov	w8,#5
	cinc	w0,w8,eq
	ret
3:
	mov	w13,#0
4:
	stp	x20,x19,[sp,#-32]!
	stp	x29,x30,[sp,#16]
	.cfi_def_cfa_offset 32
	.cfi_offset w30,-8
	.cfi_offset w29,-16
	.cfi_offset w19,-24
	.cfi_offset w20,-32
	strb	w13,[x3,#79]
	ldrh	w9,[x11,#2]
	rev	w9,w9
	lsr	w9,w9,#16
	strh	w9,[x3,#76]
	ldrb	w9,[x11,#1]
	and	w9,w9,#0x7f
	strb	w9,[x3,#78]
	ldrb	w9,[x11,#1]
	lsr	w9,w9,#7
	strb	w9,[x3,#80]
	ldrb	w9,[x11]
	ubfx	w9,w9,#5,#1
	strb	w9,[x3,#81]
	ldrb	w9,[x11]
	ubfx	w13,w9,#4,#1
	mov	x9,x3
	str	q0,[x9,#88]!
	sturb	w13,[x9,#-6]
	stp	q0,q0,[x9,#16]
	stp	q0,q0,[x9,#48]
	stp	q0,q0,[x9,#80]
	str	q0,[x9,#112]
	str	xzr,[x9,#128]
	tbnz	w12,#4,3f
	mov	x0,x4
	mov	w1,#680
	bl	_bzero
	mov	w0,#0
	ldp	x29,x30,[sp,#16]
	ldp	x20,x19,[sp],#32
	ret
3:
	mov	x20,x3
	ldrb	w12,[x11]
	ubfiz	x12,x12,#2,#4
	add	x12,x12,#16
	sub	x10,x10,x12
	add	x1,x11,x12
	mov	x0,x2
	mov	x2,x10
	mov	x3,x8
	mov	x5,x4
	mov	x4,x9
	mov	x19,x5
	bl	_rtp_92408dd3_rtp_ext.block_values.read_apart.203c5bf9b6d6d505
	tbz	w0,#0,3f
	mov	w0,#0
	mov	w8,#1
	strb	w8,[x20,#219]
	ldp	x29,x30,[sp,#16]
	ldp	x20,x19,[sp],#32
	ret
3:
	mov	x0,x19
	mov	w1,#680
	bl	_bzero
	mov	w0,#0
	ldp	x29,x30,[sp,#16]
	ldp	x20,x19,[sp],#32
	ret
1:
	ldrh	w8,[x13]
	mov	w13,#57022
	cmp	w8,w13
	cset	w13,ne
	and	w8,w8,#0xfffff0ff
	cmp	w8,#16
	cset	w8,eq
	eor	w13,w13,w8
	tbz	w13,#0,1f
	mov	w0,#5
	ret
1:
	add	x9,x10,x9
	add	x10,x9,#4
	b	2b
	.cfi_endproc

	.globl	_rtp_92408dd3_rtpw_parse_many
	.p2align	2
_rtp_92408dd3_rtpw_parse_many:
	.cfi_startproc
	mov	w9,#4096
	cmp	x0,#0
	csel	x8,x9,xzr,eq
	cmp	x3,#0
	csel	x9,x9,xzr,eq
	cbz	x4,1f
	str	x27,[sp,#-96]!
	stp	x26,x25,[sp,#16]
	stp	x24,x23,[sp,#32]
	stp	x22,x21,[sp,#48]
	stp	x20,x19,[sp,#64]
	stp	x29,x30,[sp,#80]
	.cfi_def_cfa_offset 96
	.cfi_offset w30,-8
	.cfi_offset w29,-16
	.cfi_offset w19,-24
	.cfi_offset w20,-32
	.cfi_offset w21,-40
	.cfi_offset w22,-48
	.cfi_offset w23,-56
	.cfi_offset w24,-64
	.cfi_offset w25,-72
	.cfi_offset w26,-80
	.cfi_offset w27,-96
	mov	x19,#0
	add	x20,x0,x8
	add	x21,x3,x9
	add	x8,x9,x3
	add	x22,x8,#32
	b	2f
3:
	mov	w8,#2
	str	w8,[x23,#240]
4:
	ldrsb	w8,[x24]
	ldrb	w9,[x24,#1]
	cmn	w8,#64
	and	w8,w9,#0xe0
	mov	w9,#192
	ccmp	w8,w9,#0,lt
	cset	w8,eq
	strb	w8,[x23,#244]
	add	x19,x19,#1
	add	x22,x22,#248
	cmp	x19,x4
	b.ne	2f
	b	5f
6:
	mov	w8,#9
	str	w8,[x23,#240]
7:
	strb	wzr,[x23,#244]
	add	x19,x19,#1
	add	x22,x22,#248
	cmp	x19,x4
	b.eq	5f
2:
	mov	w8,#248
	madd	x23,x19,x8,x21
	ldp	x8,x11,[x23]
	subs	x9,x1,x8
	ccmp	x9,x11,#0,hs
	b.lo	6b
	add	x24,x20,x8
	cmp	x11,#12
	b.hs	2f
	mov	w8,#1
	str	w8,[x23,#240]
	cmp	x11,#2
	b.lo	7b
	b	4b
2:
	ldrsb	w8,[x24]
	cmn	w8,#65
	b.gt	3b
	and	x8,x8,#0xff
	ubfiz	x10,x8,#2,#4
	add	x9,x10,#12
	subs	x11,x11,x9
	b.hs	2f
	mov	w8,#3
	str	w8,[x23,#240]
	b	4b
2:
	tbnz	w8,#4,2f
	mov	w3,#0
3:
	str	x9,[x23,#16]
	ldr	w10,[x24,#4]
	rev	w10,w10
	str	w10,[x23,#24]
	ldr	w10,[x24,#8]
	rev	w10,w10
	str	w10,[x23,#28]
	ldrb	w10,[x24]
	movi.2d	v0,#0000000000000000
	stur	q0,[x23,#76]
	stp	q0,q0,[x23,#48]
	str	q0,[x23,#32]
	and	x11,x10,#0xf
	cbz	w11,6f
	mov	x10,#0
	add	x12,x24,#12
7:
	ldr	w13,[x12,x10,lsl #2]
	rev	w13,w13
	str	w13,[x22,x10,lsl #2]
	add	x10,x10,#1
	cmp	x11,x10
	b.ne	7b
	b	7f
2:
	subs	x13,x11,#4
	b.hs	2f
	mov	w8,#4
	str	w8,[x23,#240]
	b	4b
2:
	add	x12,x24,x9
	ldrb	w11,[x12,#2]
	ldrb	w14,[x12,#3]
	lsl	x11,x11,#10
	orr	x11,x11,x14,lsl #2
	cmp	x13,x11
	b.hs	2f
	add	x8,x24,w10,uxtw
	ldrh	w8,[x8,#12]
	and	w9,w8,#0xfffff0ff
	cmp	w9,#16
	mov	w9,#57022
	ccmp	w8,w9,#4,ne
	mov	w8,#5
	cinc	w8,w8,eq
	str	w8,[x23,#240]
	b	4b
6:
	mov	w10,#0
7:
	strb	w10,[x23,#95]
	ldrh	w10,[x24,#2]
	rev	w10,w10
	lsr	w10,w10,#16
	strh	w10,[x23,#92]
	ldrb	w10,[x24,#1]
	and	w10,w10,#0x7f
	strb	w10,[x23,#94]
	ldrb	w10,[x24,#1]
	lsr	w10,w10,#7
	strb	w10,[x23,#96]
	ldrb	w10,[x24]
	ubfx	w10,w10,#5,#1
	strb	w10,[x23,#97]
	ldrb	w10,[x24]
	ubfx	w10,w10,#4,#1
	strb	w10,[x23,#98]
	tbnz	w8,#4,6f
	str	xzr,[x23,#232]
	movi.2d	v0,#0000000000000000
	stur	q0,[x23,#216]
	stur	q0,[x23,#200]
	stur	q0,[x23,#184]
	stur	q0,[x23,#168]
	stur	q0,[x23,#152]
	stur	q0,[x23,#136]
	stur	q0,[x23,#120]
	stur	q0,[x23,#104]
	b	7f
6:
	ldrb	w10,[x24]
	movi.2d	v0,#0000000000000000
	mov	x8,x23
	str	q0,[x8,#104]!
	ubfiz	x10,x10,#2,#4
	add	x10,x10,#16
	str	xzr,[x8,#128]
	sub	x9,x9,x10
	stp	q0,q0,[x8,#96]
	stp	q0,q0,[x8,#64]
	stp	q0,q0,[x8,#32]
	str	q0,[x8,#16]
	mov	x25,x1
	add	x1,x24,x10
	mov	x0,x2
	mov	x26,x2
	mov	x2,x9
	mov	x27,x4
	mov	x4,x8
	bl	_rtp_92408dd3_rtp_ext.block_values.read_values.9a3a19c0cce455e9
	mov	x1,x25
	mov	x2,x26
	mov	x4,x27
7:
	str	wzr,[x23,#240]
	b	4b
2:
	ldrh	w10,[x12]
	mov	w12,#57022
	cmp	w10,w12
	cset	w12,ne
	and	w10,w10,#0xfffff0ff
	cmp	w10,#16
	cset	w3,eq
	eor	w10,w12,w3
	tbz	w10,#0,2f
	mov	w8,#5
	str	w8,[x23,#240]
	b	4b
2:
	add	x9,x9,x11
	add	x9,x9,#4
	b	3b
5:
	ldp	x29,x30,[sp,#80]
	ldp	x20,x19,[sp,#64]
	ldp	x22,x21,[sp,#48]
	ldp	x24,x23,[sp,#32]
	ldp	x26,x25,[sp,#16]
	ldr	x27,[sp],#96
1:
	ret
	.cfi_endproc

	.section	__TEXT,__literal16,16byte_literals
	.p2align	4,0x0
lrtp_92408dd3_CPI135_0:
	.byte	0
	.byte	8
	.byte	16
	.byte	24
	.byte	32
	.byte	40
	.byte	48
	.byte	56
	.byte	255
	.byte	255
	.byte	255
	.byte	255
	.byte	255
	.byte	255
	.byte	255
	.byte	255
	.section	__TEXT,__text,regular,pure_instructions
	.globl	_rtp_92408dd3_rtpw_prepare_group
	.p2align	2
_rtp_92408dd3_rtpw_prepare_group:
	.cfi_startproc
	stp	x24,x23,[sp,#-64]!
	stp	x22,x21,[sp,#16]
	stp	x20,x19,[sp,#32]
	stp	x29,x30,[sp,#48]
	sub	sp,sp,#1392
	str	xzr,[sp]
	.cfi_def_cfa_offset 1456
	.cfi_offset w30,-8
	.cfi_offset w29,-16
	.cfi_offset w19,-24
	.cfi_offset w20,-32
	.cfi_offset w21,-40
	.cfi_offset w22,-48
	.cfi_offset w23,-56
	.cfi_offset w24,-64
	mov	w8,#4096
	cmp	x1,#0
	csel	x11,x8,xzr,eq
	str	xzr,[sp,#16]
	mov	w8,#9
	cmp	x2,#16
	b.hi	1f
	and	w9,w3,#0xff
	cmp	w9,#2
	b.hi	1f
	add	x9,sp,#1104
	add	x8,sp,#552
	add	x10,sp,#32
	add	x12,x11,x1
	add	x13,x12,#8
	add	x12,x2,#1
2:
	subs	x12,x12,#1
	b.eq	3f
	ldr	x14,[x13],#32
	cmp	x14,#256
	b.lo	2b
	mov	w8,#9
	b	1f
3:
	strh	wzr,[sp,#1100]
	movi.2d	v0,#0000000000000000
	stp	q0,q0,[x9,#32]
	stp	q0,q0,[x9,#64]
	stp	q0,q0,[x9,#96]
	stp	q0,q0,[x9,#128]
	stp	q0,q0,[x9,#160]
	stp	q0,q0,[x9,#192]
	stp	q0,q0,[x9,#224]
	stp	q0,q0,[x9,#256]
	cbz	x2,2f
	mov	x12,#0
	add	x13,x11,x1
	add	x13,x13,#24
3:
	ldrb	w14,[x13],#32
	add	x15,sp,#1136
	ldrb	w16,[x15,x14]
	cbnz	w16,4f
	add	w16,w12,#1
	strb	w16,[x15,x14]
	add	x12,x12,#1
	cmp	x2,x12
	b.ne	3b
	add	x12,x11,x1
	add	x12,x12,#24
	mov	x13,x2
3:
	ldrb	w14,[x12]
	cbz	w14,5f
	ldur	x14,[x12,#-16]
	cmp	x14,#255
	b.hi	6f
	add	x12,x12,#32
	subs	x13,x13,#1
	b.ne	3b
	mov	x12,#0
	str	xzr,[sp,#1128]
	str	xzr,[sp,#1120]
	str	xzr,[sp,#1112]
	str	xzr,[sp,#1104]
	cmp	x2,#9
	b.lo	3f
	ands	x12,x2,#0x7
	mov	w13,#8
	csel	x12,x13,x12,eq
	sub	x12,x2,x12
	add	x13,x11,x1
	add	x13,x13,#152
	add	x14,sp,#1104
	add	x15,sp,#1120
	mov	x16,x12
7:
	sub	x17,x13,#96
	sub	x5,x13,#64
	sub	x6,x13,#32
	add	x7,x13,#32
	add	x19,x13,#64
	add	x20,x13,#96
	ldur	b0,[x13,#-128]
	ld1.b	{ v0 }[1],[x17]
	ld1.b	{ v0 }[2],[x5]
	ld1.b	{ v0 }[3],[x6]
	ld1.b	{ v0 }[4],[x13]
	ld1.b	{ v0 }[5],[x7]
	ld1.b	{ v0 }[6],[x19]
	ld1.b	{ v0 }[7],[x20]
	add	x17,x13,#80
	ldr	q4,[x13,#48]
	ldr	q5,[x13,#16]
	ldur	q6,[x13,#-16]
	ldur	q7,[x13,#-48]
	ldur	q16,[x13,#-80]
	ldur	q17,[x13,#-112]
	ldur	q18,[x13,#-144]
	str	d0,[x15],#8
	zip1.2d	v1,v18,v17
	zip1.2d	v2,v16,v7
	zip1.2d	v3,v6,v5
	ld1.d	{ v4 }[1],[x17]
Lrtp_92408dd3_loh158:
	adrp	x17,lrtp_92408dd3_CPI135_0@PAGE
Lrtp_92408dd3_loh159:
	ldr	q0,[x17,lrtp_92408dd3_CPI135_0@PAGEOFF]
	tbl.16b	v0,{ v1,v2,v3,v4 },v0
	str	d0,[x14],#8
	add	x13,x13,#256
	subs	x16,x16,#8
	b.ne	7b
3:
	sub	x13,x2,x12
	add	x14,sp,#1104
	add	x14,x14,x12
	add	x15,sp,#1120
	add	x15,x15,x12
	add	x11,x11,x12,lsl #5
	add	x11,x11,x1
	add	x11,x11,#24
3:
	ldrb	w12,[x11]
	ldur	x16,[x11,#-16]
	strb	w12,[x15],#1
	strb	w16,[x14],#1
	add	x11,x11,#32
	subs	x13,x13,#1
	b.ne	3b
	b	3f
2:
	str	xzr,[sp,#1128]
	str	xzr,[sp,#1120]
	str	xzr,[sp,#1112]
	str	xzr,[sp,#1104]
3:
	ldur	q0,[x0,#193]
	stur	q0,[x8,#193]
	ldur	q0,[x0,#209]
	stur	q0,[x8,#209]
	ldur	q0,[x0,#225]
	stur	q0,[x8,#225]
	ldur	q0,[x0,#129]
	stur	q0,[x8,#129]
	ldur	q0,[x0,#145]
	stur	q0,[x8,#145]
	ldur	q0,[x0,#161]
	stur	q0,[x8,#161]
	ldur	q0,[x0,#177]
	stur	q0,[x8,#177]
	ldur	q0,[x0,#65]
	stur	q0,[x8,#65]
	ldur	q0,[x0,#81]
	stur	q0,[x8,#81]
	ldur	q0,[x0,#97]
	stur	q0,[x8,#97]
	ldur	q0,[x0,#113]
	stur	q0,[x8,#113]
	ldur	q0,[x0,#1]
	stur	q0,[x8,#1]
	ldur	q0,[x0,#17]
	stur	q0,[x8,#17]
	ldur	q0,[x0,#33]
	stur	q0,[x8,#33]
	ldur	q0,[x0,#49]
	stur	q0,[x8,#49]
	ldp	q0,q1,[x9,#224]
	ldp	q2,q3,[x9,#256]
	add	x11,sp,#761
	stur	q1,[x11,#255]
	add	x11,sp,#777
	stur	q2,[x11,#255]
	ldp	q1,q2,[x9,#160]
	ldp	q4,q5,[x9,#192]
	add	x11,sp,#697
	stur	q2,[x11,#255]
	add	x11,sp,#713
	stur	q4,[x11,#255]
	add	x11,sp,#745
	stur	q0,[x11,#255]
	add	x11,sp,#729
	stur	q5,[x11,#255]
	ldp	q0,q2,[x9,#96]
	ldp	q4,q5,[x9,#128]
	add	x11,sp,#633
	stur	q2,[x11,#255]
	add	x11,sp,#649
	stur	q4,[x11,#255]
	ldur	q2,[x0,#240]
	add	x11,sp,#681
	stur	q1,[x11,#255]
	add	x11,sp,#665
	stur	q5,[x11,#255]
	ldp	q1,q4,[x9,#32]
	add	x11,sp,#537
	stur	q2,[x11,#255]
	add	x11,sp,#553
	stur	q1,[x11,#255]
	ldp	q1,q2,[x9,#64]
	add	x11,sp,#569
	stur	q4,[x11,#255]
	add	x11,sp,#585
	stur	q1,[x11,#255]
	add	x11,sp,#617
	stur	q0,[x11,#255]
	add	x11,sp,#601
	stur	q2,[x11,#255]
	ldp	q1,q0,[x9]
	add	x11,sp,#793
	stur	q3,[x11,#255]
	add	x11,sp,#809
	stur	q0,[x11,#255]
	add	x11,sp,#825
	stur	q1,[x11,#255]
	strh	wzr,[sp,#1096]
	strb	w2,[sp,#1098]
	strb	w3,[sp,#1099]
	mov	x19,x3
	mov	w20,#0
	cbz	x2,2f
	mov	x14,#0
	add	x13,sp,#552
	add	x11,x13,#256
	add	x12,x13,#512
	add	x13,x13,#528
	mov	w21,#1
3:
	ldrb	w16,[x12,x14]
	ldrb	w15,[x11,w16,uxtw]
	add	x17,x14,#1
	cmp	x17,x15
	b.ne	7f
	ldrb	w14,[x13,x14]
	add	w20,w20,w14
	sub	w16,w16,#1
	sub	w14,w14,#1
	cmp	w16,#14
	ccmp	w14,#16,#2,lo
	cset	w14,lo
	and	w21,w14,w21
	mov	x14,x15
	cmp	x2,x15
	b.ne	3b
	b	3f
2:
	mov	w21,#1
3:
	ldur	q0,[x0,#206]
	ldur	q1,[x0,#222]
	stp	q0,q1,[x10,#176]
	ldur	q0,[x0,#238]
	str	q0,[x10,#208]
	ldur	q0,[x0,#142]
	ldur	q1,[x0,#158]
	stp	q0,q1,[x10,#112]
	ldur	q0,[x0,#174]
	ldur	q1,[x0,#190]
	stp	q0,q1,[x10,#144]
	ldur	q0,[x0,#78]
	ldur	q1,[x0,#94]
	ldur	q2,[x0,#110]
	stp	q1,q2,[sp,#96]
	ldur	q1,[x0,#126]
	str	q1,[sp,#128]
	ldur	q1,[x0,#30]
	ldur	q2,[x0,#46]
	stp	q1,q2,[sp,#32]
	ldur	q1,[x0,#62]
	stp	q1,q0,[sp,#64]
	add	x11,sp,#32
	add	x12,x11,#226
	ldp	q0,q1,[x9,#224]
	stp	q0,q1,[x12,#192]
	ldp	q0,q1,[x9,#256]
	stp	q0,q1,[x12,#224]
	ldp	q0,q1,[x9,#160]
	stp	q0,q1,[x12,#128]
	ldp	q0,q1,[x9,#192]
	stp	q0,q1,[x12,#160]
	ldp	q0,q1,[x9,#96]
	stp	q0,q1,[x12,#64]
	ldp	q0,q1,[x9,#128]
	stp	q0,q1,[x12,#96]
	ldp	q0,q1,[x9,#64]
	stp	q0,q1,[x12,#32]
	ldp	q0,q1,[x9,#32]
	stur	q0,[x10,#226]
	stur	q1,[x10,#242]
	add	x10,x11,#482
	ldp	q1,q0,[x9]
	str	q0,[x10]
	ldur	x9,[x8,#6]
	ldrh	w10,[sp,#566]
	ldur	x8,[x8,#22]
	ldrh	w12,[x0,#254]
	strh	w12,[sp,#256]
	add	x11,x11,#498
	str	q1,[x11]
	ldur	w11,[x0,#1]
	str	w11,[sp,#1136]
	ldurb	w11,[x0,#5]
	strb	w11,[sp,#1140]
	ldr	w12,[x0,#16]
	str	w12,[sp,#552]
	ldrh	w12,[x0,#20]
	strh	w12,[sp,#556]
	strb	wzr,[x4]
	strb	w11,[x4,#5]
	ldr	w11,[sp,#1136]
	stur	w11,[x4,#1]
	stur	x9,[x4,#6]
	strh	w10,[x4,#14]
	ldr	w9,[sp,#552]
	str	w9,[x4,#16]
	and	w9,w12,#0xffff
	strh	w9,[x4,#20]
	stur	x8,[x4,#22]
	add	x0,x4,#30
	add	x1,sp,#32
	mov	x22,x2
	mov	w2,#514
	mov	x23,x4
	bl	_memcpy
	mov	w8,#0
	strh	w20,[x23,#544]
	strb	w22,[x23,#546]
	strb	w19,[x23,#547]
	strb	w21,[x23,#548]
	strb	wzr,[x23,#549]
1:
	mov	x0,x8
	add	sp,sp,#1392
	ldp	x29,x30,[sp,#48]
	ldp	x20,x19,[sp,#32]
	ldp	x22,x21,[sp,#16]
	ldp	x24,x23,[sp],#64
	ret
4:
	mov	w8,#0
	mov	w9,#1
	b	2f
5:
	mov	w8,#1
	b	3f
6:
	mov	w8,#2
3:
	mov	w9,#3
2:
	str	x9,[sp,#8]
	strb	w8,[sp,#16]
	strb	wzr,[sp,#17]
	str	xzr,[sp,#24]
	add	x0,sp,#8
	bl	_rtp_92408dd3_rtp_c.template.not_routed_status
	mov	x8,x0
	b	1b
7:
	brk	#0x1
	.loh AdrpLdr	Lrtp_92408dd3_loh158,Lrtp_92408dd3_loh159
	.cfi_endproc

	.p2align	2
_rtp_92408dd3_rtp_proved_put_block:
	.cfi_startproc
	sub	sp,sp,#128
	str	x27,[sp,#32]
	stp	x26,x25,[sp,#48]
	stp	x24,x23,[sp,#64]
	stp	x22,x21,[sp,#80]
	stp	x20,x19,[sp,#96]
	stp	x29,x30,[sp,#112]
	.cfi_def_cfa_offset 128
	.cfi_offset w30,-8
	.cfi_offset w29,-16
	.cfi_offset w19,-24
	.cfi_offset w20,-32
	.cfi_offset w21,-40
	.cfi_offset w22,-48
	.cfi_offset w23,-56
	.cfi_offset w24,-64
	.cfi_offset w25,-72
	.cfi_offset w26,-80
	.cfi_offset w27,-96
	mov	w8,#4096
	cmp	x0,#0
	csel	x21,x8,xzr,eq
	cmp	x4,#0
	csel	x22,x8,xzr,eq
	mov	w9,#9
	tst	x5,#0x3
	b.ne	1f
	ldr	x8,[x2]
	cmp	x1,x8
	b.lo	1f
	mov	w9,#262140
	cmp	x5,x9
	b.ls	2f
	mov	w9,#15
	b	1f
2:
	cmp	x8,#12
	b.lo	2f
	add	x20,x0,x21
	ldrsb	w9,[x20]
	cmn	w9,#65
	b.gt	3f
	and	x13,x9,#0xff
	ubfiz	x25,x13,#2,#4
	add	x9,x25,#12
	subs	x10,x8,x9
	b.lo	4f
	add	x26,x20,x9
	tbnz	w13,#4,5f
	add	x27,x9,#4
	add	x11,x27,x5
	add	x10,x11,x10
	cmp	x1,x10
	b.hs	6f
7:
	mov	w9,#8
	b	1f
5:
	subs	x10,x10,#4
	b.lo	5f
	ldrb	w11,[x26,#2]
	ldrb	w12,[x26,#3]
	lsl	x11,x11,#10
	orr	x11,x11,x12,lsl #2
	cmp	x10,x11
	b.lo	8f
	add	x27,x9,#4
	add	x9,x11,x27
	sub	x10,x8,x9
	add	x11,x27,x5
	add	x10,x11,x10
	cmp	x1,x10
	b.lo	7b
6:
	stp	x4,x10,[sp,#16]
	stp	x13,x0,[sp]
	str	x2,[sp,#40]
	add	x19,x4,x22
	add	x0,x0,x21
	mov	x24,x3
	add	x3,x27,x5
	mov	x1,x9
	mov	x2,x8
	mov	x23,x5
	bl	_rtp_92408dd3_rtp_wire.packet.resizing.move_bytes
	rev	w8,w24
	lsr	w8,w8,#16
	strh	w8,[x26]
	lsl	w8,w23,#6
	orr	w8,w8,w23,lsr #10
	strh	w8,[x26,#2]
	add	x0,x20,x27
	sub	x8,x0,x19
	cmp	x8,x23
	b.hs	6f
	cmp	x23,#8
	ldr	x8,[sp,#40]
	b.hs	7f
	mov	x11,#0
	ldp	x9,x10,[sp,#8]
	ldr	x16,[sp]
	ldr	x17,[sp,#24]
	b	9f
6:
	mov	x1,x19
	mov	x2,x23
	bl	_memmove
	ldr	x8,[sp,#40]
	ldr	x17,[sp,#24]
	b	6f
7:
	ldp	x16,x9,[sp]
	add	x10,x21,x9
	add	x11,x10,x25
	ldp	x10,x17,[sp,#16]
	add	x12,x22,x10
	sub	x11,x11,x12
	add	x11,x11,#16
	cmp	x11,#64
	b.hs	7f
	mov	x11,#0
	b	9f
2:
	mov	w1,#0
	b	2f
3:
	mov	w1,#1
	b	2f
4:
	mov	w1,#2
	b	2f
7:
	cmp	x23,#64
	b.hs	3f
	mov	x11,#0
	b	4f
3:
	and	x12,x23,#0x38
	and	x11,x23,#0x3ffc0
	add	x13,x21,x25
	add	x13,x13,x9
	add	x13,x13,#64
	add	x14,x22,x10
	add	x14,x14,#32
	and	x15,x23,#0x3ffc0
3:
	ldp	q0,q1,[x14,#-32]
	ldp	q2,q3,[x14],#64
	stp	q0,q1,[x13,#-48]
	stp	q2,q3,[x13,#-16]
	add	x13,x13,#64
	subs	x15,x15,#64
	b.ne	3b
	cmp	x23,x11
	b.eq	6f
	cbz	x12,9f
4:
	mov	x14,x11
	and	x11,x23,#0x3fff8
	sub	x12,x14,x11
	add	x13,x22,x14
	add	x13,x10,x13
	add	x14,x21,x14
	and	x15,x16,#0xf
	add	x14,x14,x15,lsl #2
	add	x14,x14,x9
	add	x14,x14,#16
3:
	ldr	d0,[x13],#8
	str	d0,[x14],#8
	adds	x12,x12,#8
	b.ne	3b
	cmp	x23,x11
	b.eq	6f
9:
	sub	x12,x23,x11
	add	x13,x22,x11
	add	x10,x10,x13
	add	x11,x21,x11
	and	x13,x16,#0xf
	add	x11,x11,x13,lsl #2
	add	x9,x11,x9
	add	x9,x9,#16
3:
	ldrb	w11,[x10],#1
	strb	w11,[x9],#1
	subs	x12,x12,#1
	b.ne	3b
6:
	mov	w9,#0
	ldrb	w10,[x20]
	orr	w10,w10,#0x10
	strb	w10,[x20]
	str	x17,[x8]
1:
	mov	x0,x9
	ldp	x29,x30,[sp,#112]
	ldp	x20,x19,[sp,#96]
	ldp	x22,x21,[sp,#80]
	ldp	x24,x23,[sp,#64]
	ldp	x26,x25,[sp,#48]
	ldr	x27,[sp,#32]
	add	sp,sp,#128
	ret
5:
	mov	w1,#3
	b	2f
8:
	mov	w1,#4
2:
	mov	w0,#3
	ldp	x29,x30,[sp,#112]
	ldp	x20,x19,[sp,#96]
	ldp	x22,x21,[sp,#80]
	ldp	x24,x23,[sp,#64]
	ldp	x26,x25,[sp,#48]
	ldr	x27,[sp,#32]
	add	sp,sp,#128
	b	_rtp_92408dd3_rtp_c.growing.put_status_of
	.cfi_endproc

	.p2align	2
_rtp_92408dd3_rtp_proved_put_element:
	.cfi_startproc
	sub	sp,sp,#272
	stp	x27,x4,[sp,#176]
	stp	x26,x25,[sp,#192]
	stp	x24,x23,[sp,#208]
	stp	x22,x21,[sp,#224]
	stp	x20,x19,[sp,#240]
	stp	x29,x30,[sp,#256]
	.cfi_def_cfa_offset 272
	.cfi_offset w30,-8
	.cfi_offset w29,-16
	.cfi_offset w19,-24
	.cfi_offset w20,-32
	.cfi_offset w21,-40
	.cfi_offset w22,-48
	.cfi_offset w23,-56
	.cfi_offset w24,-64
	.cfi_offset w25,-72
	.cfi_offset w26,-80
	.cfi_offset w27,-96
	and	w8,w6,#0xff
	mov	w9,#4096
	cmp	x0,#0
	csel	x13,x9,xzr,eq
	cmp	x4,#0
	csel	x11,x9,xzr,eq
	cmp	w8,#2
	b.hi	1f
	ldr	x16,[x2]
	cmp	x1,x16
	b.lo	2f
	tst	w3,#0xff
	b.eq	3f
	cmp	x5,#255
	b.hi	4f
	cmp	x16,#12
	b.lo	5f
	add	x20,x0,x13
	ldrsb	w8,[x20]
	cmn	w8,#65
	b.gt	6f
	and	x12,x8,#0xff
	ubfiz	x23,x12,#2,#4
	add	x17,x23,#12
	subs	x8,x16,x17
	b.lo	7f
	add	x14,x20,x17
	tbnz	w12,#4,8f
	mov	w27,#0
	add	x8,x23,#12
	str	x8,[sp,#168]
9:
	add	x8,x20,x17
	str	x8,[sp,#136]
	and	w8,w3,#0xff
	sub	x9,x5,#1
	cmp	x9,#16
	ccmp	w8,#15,#2,lo
	csinc	w8,w27,wzr,lo
	tst	w6,#0xff
	csinc	w14,w8,wzr,eq
	mov	w9,#253
	tst	w6,w9
	b.eq	10f
	cbnz	w8,11f
	mov	w14,#0
10:
	ldr	x8,[sp,#184]
	add	x9,x8,x11
	stp	w3,w14,[sp,#160]
	stp	x5,x23,[sp,#144]
	str	x11,[sp,#104]
	str	x12,[sp,#88]
	str	x9,[sp,#128]
	tbnz	w12,#4,10f
	stp	x2,xzr,[sp,#112]
	str	wzr,[sp,#64]
	str	xzr,[sp,#96]
	mov	x12,#0
	mov	x24,#0
	mov	x6,#0
	mov	w25,#0
	ldr	x8,[sp,#168]
	add	x8,x20,x8
	str	x8,[sp,#80]
	mov	x27,x14
	mov	w26,#0
	mov	w8,#1
	mov	x9,x12
	and	w8,w8,#0xff
	cmp	w8,#1
	b.ne	12f
13:
	ldr	w8,[sp,#164]
	cmp	w8,#0
	mov	w8,#1
	cinc	x10,x8,ne
	add	x8,x5,x9
	add	x8,x8,x10
	add	x8,x8,#3
	and	x8,x8,#0xfffffffffffffffc
	cmp	x6,x8
	csel	x9,x6,x8,hi
	mov	w8,#262140
	cmp	x9,x8
	b.hi	14f
	add	x8,x17,x9
	add	x3,x8,#4
	ldr	x8,[sp,#168]
	sub	x8,x16,x8
	add	x8,x3,x8
	cmp	x1,x8
	b.lo	15f
	stp	x10,x8,[sp,#72]
	mov	x22,x12
	mov	x21,x6
	mov	x19,x20
	mov	x20,x0
	mov	x23,x13
	add	x0,x0,x13
	ldr	x1,[sp,#168]
	mov	x2,x16
	str	x9,[sp,#168]
	bl	_rtp_92408dd3_rtp_wire.packet.resizing.move_bytes
	ldr	x6,[sp,#168]
	lsl	w8,w6,#6
	and	w8,w8,#0xff00
	orr	w8,w8,w6,lsr #10
	ldr	x11,[sp,#136]
	strh	w8,[x11,#2]
	tbnz	w25,#0,16f
	ldrb	w8,[x19]
	orr	w8,w8,#0x10
	strb	w8,[x19]
	mov	w8,#16
	mov	w9,#-8514
	ldr	w10,[sp,#164]
	cmp	w10,#0
	csel	w8,w9,w8,eq
	strh	w8,[x11]
16:
	add	x5,x11,#4
	cbz	x21,16f
	ldr	w8,[sp,#64]
	cmp	w8,#0
	ldr	x8,[sp,#96]
	csel	x3,x8,x24,ne
	ldr	x8,[sp,#120]
	csel	x7,x8,x24,ne
	sub	x8,x22,x3
	add	x8,x8,x7
	cmp	x8,x24
	b.ne	17f
	mov	x21,x5
	sub	x19,x24,x7
	ldr	x22,[sp,#72]
	ldr	x24,[sp,#128]
	cbnz	w26,18f
	b	19f
1:
	mov	w0,#9
	b	1f
8:
	subs	x8,x8,#4
	b.lo	8f
	ldrb	w9,[x14,#2]
	ldrb	w10,[x14,#3]
	lsl	x9,x9,#10
	orr	x9,x9,x10,lsl #2
	cmp	x8,x9
	b.lo	20f
	ldrh	w10,[x14]
	and	w8,w10,#0xfffff0ff
	cmp	w8,#16
	cset	w27,eq
	add	x9,x17,x9
	add	x9,x9,#4
	str	x9,[sp,#168]
	mov	w9,#57022
	cmp	w10,w9
	b.eq	9b
	cmp	w8,#16
	b.eq	9b
	mov	w0,#5
	b	1f
10:
	add	w8,w23,#16
	add	x26,x20,x8
	ldr	x10,[sp,#168]
	sub	x6,x10,x8
	str	x26,[sp,#80]
	add	x8,x23,#12
	cbz	w27,9f
	cbz	x6,10f
	str	x8,[sp,#72]
	mov	w8,#0
	mov	x12,#0
	mov	x4,#0
	str	xzr,[sp,#120]
	mov	x21,#0
	str	xzr,[sp,#96]
	mov	x9,x6
	mov	x10,x26
	str	x6,[sp,#32]
21:
	str	w8,[sp,#44]
	mov	x24,x9
	stp	x4,x21,[sp,#48]
22:
	ldrb	w8,[x10]
	cbz	w8,23f
	mov	x9,x24
	mov	x8,x10
	cmp	x24,#2
	b.hs	24f
	b	25f
23:
	cmp	x24,#2
	b.eq	23f
	cmp	x24,#1
	b.eq	25f
	cmp	x24,#3
	b.hi	26f
	ldrb	w8,[x10,#1]
	cbnz	w8,26f
	ldrb	w8,[x10,#2]
	cbnz	w8,26f
	b	27f
23:
	ldrb	w8,[x10,#1]
	cbz	w8,23f
26:
	str	x12,[sp,#64]
	mov	x21,x16
	mov	x25,x27
	mov	x27,x20
	mov	x26,x13
	mov	x23,x5
	mov	x22,x2
	mov	x19,x1
	mov	x20,x0
	add	x0,x10,#1
	sub	x1,x24,#1
	bl	_rtp_92408dd3_rtp_ext.elements.skip_zeros
	cbz	x1,26f
	mov	x8,x0
	mov	x9,x1
	mov	x0,x20
	mov	x1,x19
	mov	x2,x22
	mov	x5,x23
	mov	x13,x26
	ldp	w3,w14,[sp,#160]
	mov	x20,x27
	mov	x27,x25
	mov	x16,x21
	ldr	x23,[sp,#152]
	ldr	x6,[sp,#32]
	ldp	x21,x12,[sp,#56]
	ldr	x4,[sp,#48]
	cmp	x9,#2
	b.lo	25f
24:
	ldrb	w11,[x8,#1]
	add	x10,x11,#2
	subs	x9,x9,x10
	b.lo	25f
	add	x10,x8,x10
	ldrb	w8,[x8]
	cmp	w8,w3,uxtb
	b.eq	24f
	add	x8,x12,x11
	add	x12,x8,#2
	mov	x24,x9
	cbnz	x9,22b
	b	25f
24:
	mov	x24,#0
	add	x4,x4,#1
	sub	x17,x6,x9
	sub	x8,x6,x9
	str	x8,[sp,#120]
	sub	x21,x17,x11
	sub	x8,x21,#2
	str	x8,[sp,#96]
	mov	w8,#1
	cbnz	x9,21b
	b	21f
16:
	mov	x8,x20
	ldr	w9,[sp,#164]
	tbz	w9,#0,16f
	ldp	x20,x22,[sp,#144]
	strb	w20,[x11,#5]
	mov	w9,#2
	ldp	x16,x2,[sp,#104]
	ldr	x17,[sp,#88]
	ldr	x1,[sp,#128]
	ldr	w10,[sp,#160]
	strb	w10,[x5]
	ands	w10,w20,#0xff
	b.ne	22f
	b	24f
17:
	mov	x4,x21
	mov	x0,x27
	mov	x21,x5
	mov	x1,x5
	mov	x2,x3
	mov	x3,x7
	ldr	w5,[sp,#160]
	mov	x19,x7
	bl	_rtp_92408dd3_rtp_ext.gathering.gather_around
	mov	x7,x19
	ldr	x6,[sp,#168]
	mov	x3,x0
	mov	x19,x1
	ldr	x22,[sp,#72]
	ldr	x24,[sp,#128]
	cbz	w26,19f
18:
	mov	x0,x27
	mov	x1,x21
	mov	x2,x6
	mov	x4,x7
	mov	x5,x19
	bl	_rtp_92408dd3_rtp_ext.form_change.change_rows
	ldr	x6,[sp,#168]
	mov	x3,x0
	mov	x19,x1
	mov	x7,x0
19:
	mov	x16,x23
	ldr	x8,[sp,#144]
	add	x9,x22,x8
	add	x23,x9,x3
	subs	x10,x7,x23
	ldr	x2,[sp,#112]
	ldp	w0,w1,[sp,#160]
	b.hs	17f
	ldr	x17,[sp,#152]
	cbz	x19,18f
	mov	x9,x19
	cmp	x19,#8
	b.lo	19f
	mov	x9,x19
	cmp	x10,#64
	b.lo	19f
	cmp	x19,#64
	b.hs	28f
	mov	x10,#0
	b	29f
17:
	ldr	x17,[sp,#152]
	cbz	x19,18f
	cmp	x19,#8
	b.lo	17f
	add	x9,x22,x3
	add	x9,x9,x8
	sub	x9,x9,x7
	cmp	x9,#64
	b.hs	30f
17:
	mov	x9,#0
17:
	sub	x10,x19,x9
	add	x11,x16,x9
	add	x9,x11,x22
	add	x12,x8,x17
	add	x12,x12,x20
	add	x9,x9,x3
	add	x9,x9,x12
	add	x9,x9,#16
	add	x11,x11,x7
	add	x12,x17,x20
	add	x11,x11,x12
	add	x11,x11,#16
31:
	ldrb	w12,[x11],#1
	strb	w12,[x9],#1
	subs	x10,x10,#1
	b.ne	31b
	b	18f
9:
	str	x8,[sp,#72]
	cbz	x6,9f
	mov	w8,#0
	mov	x12,#0
	mov	x4,#0
	str	xzr,[sp,#120]
	mov	x21,#0
	str	xzr,[sp,#96]
	mov	x19,x6
	str	x16,[sp,#24]
31:
	str	w8,[sp,#44]
32:
	ldrb	w9,[x26]
	add	w8,w9,#16
	and	w8,w8,#0xff
	cmp	w8,#32
	b.hs	33f
	cbz	w9,34f
	mov	x8,x19
	cmp	w9,#239
	b.ls	35f
	b	36f
33:
	and	x8,x9,#0xf
	add	x10,x8,#2
	subs	x8,x19,x10
	b.hs	33f
	mov	x8,x19
	b	37f
34:
	cmp	x19,#2
	b.eq	34f
	cmp	x19,#1
	b.eq	36f
	cmp	x19,#3
	b.hi	38f
	ldrb	w8,[x26,#1]
	cbnz	w8,38f
	ldrb	w8,[x26,#2]
	cbnz	w8,38f
	b	27f
34:
	ldrb	w8,[x26,#1]
	cbz	w8,23f
38:
	stp	x4,x21,[sp,#48]
	str	x12,[sp,#64]
	mov	x21,x6
	mov	x25,x27
	str	x20,[sp,#16]
	mov	x23,x13
	mov	x22,x2
	mov	x20,x1
	mov	x27,x0
	add	x0,x26,#1
	sub	x1,x19,#1
	bl	_rtp_92408dd3_rtp_ext.elements.skip_zeros
	cbz	x1,34f
	mov	x26,x0
	mov	x8,x1
	ldrb	w9,[x0]
	mov	x0,x27
	mov	x1,x20
	mov	x2,x22
	mov	x13,x23
	ldp	x5,x23,[sp,#144]
	ldp	w3,w14,[sp,#160]
	ldp	x20,x16,[sp,#16]
	mov	x27,x25
	mov	x6,x21
	ldp	x21,x12,[sp,#56]
	ldr	x4,[sp,#48]
	cmp	w9,#239
	b.hi	36f
35:
	and	w10,w9,#0xf
	add	w10,w10,#2
37:
	subs	x8,x8,x10
	b.lo	36f
33:
	add	x26,x26,x10
	mov	x19,x8
	lsr	w8,w9,#4
	cmp	w8,w3,uxtb
	b.eq	33f
	cbz	w8,35f
	add	x12,x10,x12
	cbnz	x19,32b
	b	37f
35:
	str	x0,[sp,#56]
	mov	x0,x4
	mov	x24,x1
	mov	x22,x2
	str	w27,[sp,#64]
	mov	x27,x13
	mov	x23,x6
	mov	x25,x12
	bl	_rtp_92408dd3_rtp_ext.survey.one_more
	mov	x12,x25
	mov	x6,x23
	ldr	x16,[sp,#24]
	mov	x13,x27
	ldr	w27,[sp,#64]
	ldp	x5,x23,[sp,#144]
	ldp	w3,w14,[sp,#160]
	mov	x2,x22
	mov	x1,x24
	mov	x4,x0
	ldr	x0,[sp,#56]
	cbnz	x19,32b
	b	37f
33:
	mov	x24,#0
	add	x4,x4,#1
	sub	x9,x6,x19
	sub	x8,x6,x19
	str	x8,[sp,#120]
	sub	x8,x9,x10
	str	x8,[sp,#96]
	add	x21,x8,#1
	mov	w8,#1
	cbnz	x19,31b
	b	21f
2:
	mov	x0,#0
	lsr	x1,xzr,#8
	b	2f
10:
	str	x8,[sp,#72]
9:
	str	xzr,[sp,#96]
	mov	x21,#0
	str	xzr,[sp,#120]
	mov	w8,#0
	mov	x4,#0
	mov	x12,#0
	mov	x24,#0
21:
	cmp	w8,#1
	cset	w9,eq
	cmp	w27,w14
	cset	w25,eq
	b.ne	9f
	b	10f
3:
	mov	w0,#1
	lsr	x1,x0,#8
	b	2f
4:
	mov	w0,#2
	lsr	x1,x0,#8
	b	2f
16:
	ldr	w10,[sp,#160]
	ubfx	w9,w10,#4,#4
	orr	w9,w9,w10,lsl #4
	ldp	x20,x22,[sp,#144]
	add	w9,w9,w20
	sub	w10,w9,#1
	mov	w9,#1
	ldp	x16,x2,[sp,#104]
	ldr	x17,[sp,#88]
	ldr	x1,[sp,#128]
	strb	w10,[x5]
	ands	w10,w20,#0xff
	b.eq	24f
22:
	cmp	w10,#1
	b.ne	3f
	ldrb	w8,[x1]
	strb	w8,[x5,x9]
	b	4f
5:
	mov	w0,#3
	lsr	x1,x0,#8
	b	2f
6:
	mov	w0,#259
	lsr	x1,x0,#8
	b	2f
3:
	cmp	x20,#2
	b.hi	3f
	ldrb	w8,[x1]
	add	x9,x5,x9
	strb	w8,[x9]
	ldrb	w8,[x1,#1]
	strb	w8,[x9,#1]
	b	4f
7:
	mov	w0,#515
	lsr	x1,x0,#8
	b	2f
23:
	mov	w24,#2
	b	25f
27:
	mov	w24,#3
	b	25f
14:
	mov	w0,#7
	lsr	x1,x0,#8
	b	2f
3:
	cmp	x20,#3
	b.ne	24f
	ldrb	w8,[x1]
	add	x9,x5,x9
	strb	w8,[x9]
	ldrb	w8,[x1,#1]
	strb	w8,[x9,#1]
	ldrb	w8,[x1,#2]
	strb	w8,[x9,#2]
	b	4f
24:
	add	x0,x5,x9
	sub	x10,x0,x1
	cmp	x10,x20
	b.hs	3f
	cmp	x20,#8
	b.lo	5f
	orr	x10,x23,x9
	add	x11,x8,x22
	add	x10,x10,x11
	ldr	x11,[sp,#184]
	add	x11,x16,x11
	sub	x10,x10,x11
	add	x10,x10,#16
	cmp	x10,#64
	b.hs	6f
5:
	mov	x10,#0
	ldr	x0,[sp,#72]
5:
	sub	x11,x20,x10
	add	x12,x16,x10
	ldr	x13,[sp,#184]
	add	x12,x13,x12
	add	x10,x23,x10
	add	x9,x10,x9
	and	x10,x17,#0xf
	add	x9,x9,x10,lsl #2
	add	x8,x9,x8
	add	x8,x8,#16
7:
	ldrb	w9,[x12],#1
	strb	w9,[x8],#1
	subs	x11,x11,#1
	b.ne	7b
	b	7f
3:
	mov	x19,x2
	mov	x2,x20
	mov	x21,x5
	bl	_memmove
	mov	x5,x21
	ldr	x6,[sp,#168]
	mov	x2,x19
4:
	ldr	x0,[sp,#72]
7:
	add	x8,x0,x20
	subs	x9,x6,x8
	b.ls	3f
	subs	x19,x9,#1
	b.le	4f
	cmp	x9,#2
	b.eq	14f
	cmp	x9,#3
	b.eq	16f
	cmp	x9,#4
	b.ne	21f
	str	wzr,[x5,x8]
	b	3f
4:
	cbz	x9,3f
	cmp	x9,#1
	b.ne	21f
	strb	wzr,[x5,x8]
	ldr	x16,[sp,#80]
	b	4f
15:
	mov	w0,#8
	lsr	x1,x0,#8
	b	2f
8:
	mov	w0,#771
	lsr	x1,x0,#8
	b	2f
20:
	mov	w0,#1027
	lsr	x1,x0,#8
	b	2f
30:
	cmp	x19,#64
	b.hs	8f
	mov	x9,#0
	b	15f
28:
	and	x9,x19,#0x38
	and	x10,x19,#0xffffffffffffffc0
	add	x11,x22,x16
	add	x11,x11,x3
	add	x12,x19,x8
	add	x11,x11,x12
	add	x12,x17,x20
	add	x11,x11,x12
	sub	x11,x11,#16
	add	x12,x7,x17
	add	x12,x12,x20
	add	x13,x16,x19
	add	x12,x13,x12
	sub	x12,x12,#16
	and	x13,x19,#0xffffffffffffffc0
20:
	ldp	q1,q0,[x12]
	ldp	q3,q2,[x12,#-32]
	stp	q1,q0,[x11]
	stp	q3,q2,[x11,#-32]
	sub	x11,x11,#64
	sub	x12,x12,#64
	sub	x13,x13,#64
	cbnz	x13,20b
	cmp	x19,x10
	b.eq	18f
	cbz	x9,20f
29:
	and	x11,x19,#0xfffffffffffffff8
	and	x9,x19,#0x7
	add	x12,x16,x7
	add	x12,x12,x17
	sub	x12,x12,x10
	add	x12,x12,x20
	add	x12,x12,#8
	add	x13,x22,x16
	add	x13,x13,x3
	add	x14,x8,x17
	add	x13,x13,x14
	sub	x13,x13,x10
	add	x13,x13,x20
	add	x13,x13,#8
	sub	x10,x10,x11
22:
	ldr	d0,[x12,x19]
	str	d0,[x13,x19]
	sub	x12,x12,#8
	sub	x13,x13,#8
	adds	x10,x10,#8
	b.ne	22b
	cmp	x19,x11
	b.eq	18f
19:
	add	x11,x16,x9
	add	x10,x11,x22
	add	x12,x8,x17
	add	x12,x12,x20
	add	x10,x10,x3
	add	x10,x10,x12
	add	x10,x10,#15
	add	x11,x11,x7
	add	x12,x17,x20
	add	x11,x11,x12
	add	x11,x11,#15
22:
	ldrb	w12,[x11],#-1
	strb	w12,[x10],#-1
	subs	x9,x9,#1
	b.ne	22b
18:
	tbz	w1,#0,22f
	add	x9,x21,x3
	strb	w0,[x9]
	strb	w8,[x9,#1]
	mov	w9,#2
	add	x10,x9,x3
	ands	w11,w8,#0xff
	b.ne	23f
	b	24f
22:
	ubfx	w9,w0,#4,#4
	orr	w9,w9,w0,lsl #4
	add	w9,w9,w8
	sub	w9,w9,#1
	strb	w9,[x21,x3]
	mov	w9,#1
	add	x10,x9,x3
	ands	w11,w8,#0xff
	b.eq	24f
23:
	cmp	w11,#1
	b.ne	22f
	ldrb	w8,[x24]
	strb	w8,[x21,x10]
	b	23f
22:
	cmp	x8,#2
	b.hi	22f
	ldrb	w8,[x24]
	add	x9,x21,x10
	strb	w8,[x9]
	ldrb	w8,[x24,#1]
	strb	w8,[x9,#1]
	b	23f
22:
	cmp	x8,#3
	b.ne	24f
	ldrb	w8,[x24]
	add	x9,x21,x10
	strb	w8,[x9]
	ldrb	w8,[x24,#1]
	strb	w8,[x9,#1]
	ldrb	w8,[x24,#2]
	strb	w8,[x9,#2]
	b	23f
24:
	add	x0,x21,x10
	sub	x10,x0,x24
	cmp	x10,x8
	b.hs	22f
	cmp	x8,#8
	b.lo	24f
	add	x10,x16,x3
	add	x10,x10,x9
	add	x11,x20,x17
	add	x10,x10,x11
	ldr	x11,[sp,#184]
	ldr	x12,[sp,#104]
	add	x11,x12,x11
	sub	x10,x10,x11
	add	x10,x10,#16
	cmp	x10,#64
	b.hs	27f
24:
	mov	x10,#0
24:
	sub	x11,x8,x10
	ldr	x12,[sp,#104]
	add	x12,x12,x10
	ldr	x13,[sp,#184]
	add	x12,x13,x12
	add	x10,x16,x10
	add	x10,x10,x3
	add	x9,x10,x9
	ldr	x10,[sp,#88]
	and	x10,x10,#0xf
	add	x9,x9,x10,lsl #2
	add	x8,x9,x20
	add	x8,x8,#16
28:
	ldrb	w9,[x12],#1
	strb	w9,[x8],#1
	subs	x11,x11,#1
	b.ne	28b
	b	23f
22:
	mov	x1,x24
	mov	x20,x2
	mov	x2,x8
	bl	_memmove
	ldr	x6,[sp,#168]
	mov	x2,x20
23:
	add	x8,x19,x23
	subs	x9,x6,x8
	b.ls	3f
	subs	x19,x9,#1
	b.le	22f
	cmp	x9,#2
	b.eq	28f
	cmp	x9,#3
	b.eq	29f
	cmp	x9,#4
	b.ne	30f
	str	wzr,[x21,x8]
	b	3f
22:
	cbz	x9,3f
	cmp	x9,#1
	b.ne	30f
	strb	wzr,[x21,x8]
	ldr	x16,[sp,#80]
	b	4f
28:
	strh	wzr,[x21,x8]
	ldr	x16,[sp,#80]
	b	4f
29:
	add	x8,x21,x8
	b	22f
30:
	add	x20,x21,x8
	b	28f
36:
	mov	x24,x19
	b	25f
37:
	mov	x24,#0
	b	25f
27:
	cmp	x8,#64
	b.hs	27f
	mov	x10,#0
	b	29f
14:
	strh	wzr,[x5,x8]
	ldr	x16,[sp,#80]
	b	4f
16:
	add	x8,x5,x8
22:
	strb	wzr,[x8,#2]
	strh	wzr,[x8]
3:
	ldr	x16,[sp,#80]
4:
	mov	w0,#0
	str	x16,[x2]
1:
	ldp	x29,x30,[sp,#256]
	ldp	x20,x19,[sp,#240]
	ldp	x22,x21,[sp,#224]
	ldp	x24,x23,[sp,#208]
	ldp	x26,x25,[sp,#192]
	ldr	x27,[sp,#176]
	add	sp,sp,#272
	ret
21:
	add	x20,x5,x8
28:
	mov	x0,x20
	mov	x1,x19
	mov	x21,x2
	bl	_bzero
	mov	x2,x21
	strb	wzr,[x20,x19]
	ldr	x16,[sp,#80]
	b	4b
11:
	mov	w1,#0
	and	w8,w3,#0xff
	cmp	w8,#14
	mov	w8,#5
	cinc	w0,w8,ls
	b	2f
8:
	and	x10,x19,#0x38
	and	x9,x19,#0xffffffffffffffc0
	add	x11,x16,x7
	add	x12,x17,x20
	add	x11,x11,x12
	add	x11,x11,#64
	add	x12,x22,x16
	add	x12,x12,x8
	add	x12,x12,x17
	add	x12,x12,x3
	add	x12,x12,x20
	add	x12,x12,#32
	and	x13,x19,#0xffffffffffffffc0
1:
	ldp	q0,q1,[x11,#-48]
	ldp	q2,q3,[x11,#-16]
	stp	q0,q1,[x12,#-16]
	stp	q2,q3,[x12,#16]
	add	x11,x11,#64
	add	x12,x12,#64
	subs	x13,x13,#64
	b.ne	1b
	cmp	x19,x9
	b.eq	18b
	cbz	x10,17b
15:
	mov	x12,x9
	and	x9,x19,#0xfffffffffffffff8
	sub	x10,x12,x9
	add	x11,x22,x16
	add	x11,x11,x3
	add	x13,x12,x8
	add	x13,x13,x17
	add	x11,x11,x13
	add	x11,x11,x20
	add	x11,x11,#16
	add	x13,x16,x7
	add	x12,x13,x12
	add	x13,x17,x20
	add	x12,x12,x13
	add	x12,x12,#16
1:
	ldr	d0,[x12],#8
	str	d0,[x11],#8
	adds	x10,x10,#8
	b.ne	1b
	cmp	x19,x9
	b.eq	18b
	b	17b
6:
	cmp	x20,#64
	b.hs	1f
	mov	x10,#0
	ldr	x0,[sp,#72]
	b	3f
27:
	and	x11,x8,#0x38
	and	x10,x8,#0xc0
	add	x12,x16,x3
	add	x12,x12,x9
	add	x13,x17,x20
	add	x12,x12,x13
	add	x12,x12,#64
	ldr	x13,[sp,#184]
	ldr	x14,[sp,#104]
	add	x13,x14,x13
	add	x13,x13,#32
	and	x14,x8,#0xc0
6:
	ldp	q0,q1,[x13,#-32]
	ldp	q2,q3,[x13],#64
	stp	q0,q1,[x12,#-48]
	stp	q2,q3,[x12,#-16]
	add	x12,x12,#64
	subs	x14,x14,#64
	b.ne	6b
	cmp	x8,x10
	b.eq	23b
	cbz	x11,24b
29:
	mov	x13,x10
	and	x10,x8,#0xf8
	sub	x11,x13,x10
	ldr	x12,[sp,#104]
	add	x12,x12,x13
	ldr	x14,[sp,#184]
	add	x12,x14,x12
	add	x14,x16,x3
	add	x13,x14,x13
	add	x13,x13,x9
	ldr	x14,[sp,#88]
	and	x14,x14,#0xf
	add	x13,x13,x14,lsl #2
	add	x13,x13,x20
	add	x13,x13,#16
6:
	ldr	d0,[x12],#8
	str	d0,[x13],#8
	adds	x11,x11,#8
	b.ne	6b
	cmp	x8,x10
	b.eq	23b
	b	24b
26:
	mov	x0,x20
	mov	x1,x19
	mov	x2,x22
	mov	x5,x23
	mov	x13,x26
	ldp	w3,w14,[sp,#160]
	mov	x20,x27
	mov	x27,x25
	mov	x16,x21
	ldr	x23,[sp,#152]
	ldr	x6,[sp,#32]
	b	6f
1:
	and	x11,x20,#0x38
	and	x10,x20,#0xc0
	add	x12,x23,x9
	add	x13,x22,x8
	add	x12,x12,x13
	add	x12,x12,#64
	ldr	x13,[sp,#184]
	add	x13,x16,x13
	add	x13,x13,#32
	and	x14,x20,#0xc0
1:
	ldp	q0,q1,[x13,#-32]
	ldp	q2,q3,[x13],#64
	stp	q0,q1,[x12,#-48]
	stp	q2,q3,[x12,#-16]
	add	x12,x12,#64
	subs	x14,x14,#64
	b.ne	1b
	cmp	x20,x10
	ldr	x0,[sp,#72]
	b.eq	7b
	cbz	x11,5b
3:
	mov	x13,x10
	and	x10,x20,#0xf8
	sub	x11,x13,x10
	add	x12,x16,x13
	ldr	x14,[sp,#184]
	add	x12,x14,x12
	add	x13,x23,x13
	add	x13,x13,x9
	and	x14,x17,#0xf
	add	x13,x13,x14,lsl #2
	add	x13,x13,x8
	add	x13,x13,#16
1:
	ldr	d0,[x12],#8
	str	d0,[x13],#8
	adds	x11,x11,#8
	b.ne	1b
	cmp	x20,x10
	b.ne	5b
	b	7b
34:
	mov	x24,x19
	mov	x0,x27
	mov	x1,x20
	mov	x2,x22
	mov	x13,x23
	ldp	x5,x23,[sp,#144]
	ldp	w3,w14,[sp,#160]
	ldp	x20,x16,[sp,#16]
	mov	x27,x25
	mov	x6,x21
6:
	ldp	x21,x12,[sp,#56]
	ldr	x4,[sp,#48]
25:
	ldr	w8,[sp,#44]
	cmp	w8,#1
	cset	w9,eq
	cmp	w27,w14
	cset	w25,eq
	b.ne	9f
10:
	cmp	w8,#1
	b.ne	9f
	cmp	x4,#1
	b.ne	9f
	ldr	x8,[sp,#120]
	sub	x8,x8,x21
	cmp	x8,x5
	b.ne	9f
	ldp	x1,x8,[sp,#128]
	add	x8,x8,#4
	ldr	x14,[sp,#104]
	ldr	x15,[sp,#88]
	cbz	x5,1f
	cmp	w5,#1
	b.ne	3f
	ldrb	w9,[x1]
	strb	w9,[x8,x21]
	b	4b
9:
	sub	x24,x6,x24
	cmp	w14,w27
	str	x2,[sp,#112]
	str	w9,[sp,#64]
	b.eq	5f
	cbz	x12,5f
	str	x0,[sp,#56]
	mov	x0,x27
	mov	x26,x1
	mov	x1,x14
	ldr	x2,[sp,#80]
	mov	x22,x12
	mov	x4,x3
	mov	x3,x24
	mov	x23,x13
	mov	x19,x20
	mov	x21,x16
	mov	x20,x27
	mov	x27,x6
	bl	_rtp_92408dd3_rtp_ext.form_change.row_len
	mov	x12,x22
	mov	x6,x27
	mov	x27,x20
	mov	x16,x21
	mov	x20,x19
	mov	x13,x23
	mov	x8,x0
	ldr	x0,[sp,#56]
	ldr	x5,[sp,#144]
	mov	x9,x1
	mov	x1,x26
	mov	w25,#0
	mov	w26,#1
	ldr	x17,[sp,#72]
	and	w8,w8,#0xff
	cmp	w8,#1
	b.eq	13b
	b	12f
5:
	ldr	x17,[sp,#72]
	mov	w26,#0
	mov	w8,#1
	mov	x9,x12
	and	w8,w8,#0xff
	cmp	w8,#1
	b.eq	13b
12:
	mov	x0,x27
	ldr	x1,[sp,#80]
	mov	x2,x6
	bl	_rtp_92408dd3_rtp_wire.packet.rewriting.has_long_id
	mov	w1,#0
	cmp	w0,#0
	mov	w8,#5
	cinc	w0,w8,eq
2:
	ldp	x29,x30,[sp,#256]
	ldp	x20,x19,[sp,#240]
	ldp	x22,x21,[sp,#224]
	ldp	x24,x23,[sp,#208]
	ldp	x26,x25,[sp,#192]
	ldr	x27,[sp,#176]
	add	sp,sp,#272
	b	_rtp_92408dd3_rtp_c.growing.put_status_of
3:
	cmp	x5,#2
	b.hi	2f
	ldrb	w9,[x1]
	add	x8,x8,x21
	strb	w9,[x8]
	ldrb	w9,[x1,#1]
	strb	w9,[x8,#1]
	b	4b
2:
	cmp	x5,#3
	b.ne	1f
	ldrb	w9,[x1]
	add	x8,x8,x21
	strb	w9,[x8]
	ldrb	w9,[x1,#1]
	strb	w9,[x8,#1]
	ldrb	w9,[x1,#2]
	strb	w9,[x8,#2]
	b	4b
1:
	add	x8,x8,x21
	sub	x9,x8,x1
	cmp	x9,x5
	b.hs	1f
	cmp	x5,#8
	b.lo	2f
	add	x8,x13,x21
	add	x8,x8,x0
	add	x8,x8,x23
	ldr	x9,[sp,#184]
	add	x9,x14,x9
	sub	x8,x8,x9
	add	x8,x8,#16
	cmp	x8,#64
	b.hs	3f
2:
	mov	x8,#0
2:
	sub	x9,x5,x8
	add	x10,x14,x8
	ldr	x11,[sp,#184]
	add	x10,x11,x10
	add	x11,x13,x21
	add	x8,x11,x8
	and	x11,x15,#0xf
	add	x8,x8,x11,lsl #2
	add	x8,x8,x0
	add	x8,x8,#16
5:
	ldrb	w11,[x10],#1
	strb	w11,[x8],#1
	subs	x9,x9,#1
	b.ne	5b
	b	4b
1:
	mov	x0,x8
	mov	x19,x2
	mov	x2,x5
	mov	x25,x16
	bl	_memmove
	mov	x2,x19
	mov	x16,x25
	b	4b
3:
	cmp	x5,#64
	b.hs	1f
	mov	x8,#0
	b	3f
1:
	and	x9,x5,#0x38
	and	x8,x5,#0xc0
	add	x10,x13,x21
	add	x10,x10,x23
	add	x10,x10,x0
	add	x10,x10,#64
	ldr	x11,[sp,#184]
	add	x11,x14,x11
	add	x11,x11,#32
	and	x12,x5,#0xc0
1:
	ldp	q0,q1,[x11,#-32]
	ldp	q2,q3,[x11],#64
	stp	q0,q1,[x10,#-48]
	stp	q2,q3,[x10,#-16]
	add	x10,x10,#64
	subs	x12,x12,#64
	b.ne	1b
	cmp	x5,x8
	b.eq	4b
	cbz	x9,2b
3:
	mov	x11,x8
	and	x8,x5,#0xf8
	sub	x9,x11,x8
	add	x10,x14,x11
	ldr	x12,[sp,#184]
	add	x10,x12,x10
	add	x12,x13,x21
	add	x11,x12,x11
	and	x12,x15,#0xf
	add	x11,x11,x12,lsl #2
	add	x11,x11,x0
	add	x11,x11,#16
1:
	ldr	d0,[x10],#8
	str	d0,[x11],#8
	adds	x9,x9,#8
	b.ne	1b
	cmp	x5,x8
	b.eq	4b
	b	2b
20:
	and	x9,x19,#0x3f
	b	19b
	.cfi_endproc

	.globl	_rtp_92408dd3_rtpw_remove_block
	.p2align	2
_rtp_92408dd3_rtpw_remove_block:
	.cfi_startproc
	stp	x22,x21,[sp,#-48]!
	stp	x20,x19,[sp,#16]
	stp	x29,x30,[sp,#32]
	.cfi_def_cfa_offset 48
	.cfi_offset w30,-8
	.cfi_offset w29,-16
	.cfi_offset w19,-24
	.cfi_offset w20,-32
	.cfi_offset w21,-40
	.cfi_offset w22,-48
	mov	x19,x2
	mov	w8,#4096
	cmp	x0,#0
	csel	x8,x8,xzr,eq
	ldr	x2,[x2]
	cmp	x1,x2
	b.lo	1f
	cmp	x2,#12
	b.lo	2f
	add	x20,x0,x8
	ldrsb	w8,[x20]
	cmn	w8,#65
	b.gt	3f
	and	x8,x8,#0xff
	ubfiz	x9,x8,#2,#4
	add	x21,x9,#12
	subs	x22,x2,x21
	b.lo	4f
	mov	x1,x21
	tbz	w8,#4,5f
	subs	x8,x22,#4
	b.lo	6f
	add	x9,x20,x21
	ldrb	w10,[x9,#2]
	ldrb	w9,[x9,#3]
	lsl	x10,x10,#10
	orr	x9,x10,x9,lsl #2
	cmp	x8,x9
	b.lo	7f
	add	x8,x21,x9
	add	x1,x8,#4
	sub	x22,x2,x1
5:
	mov	x0,x20
	mov	x3,x21
	bl	_rtp_92408dd3_rtp_wire.packet.resizing.move_bytes
	ldrb	w8,[x20]
	and	w8,w8,#0xffffffef
	strb	w8,[x20]
	add	x8,x22,x21
	str	x8,[x19]
	mov	w0,#0
	ldp	x29,x30,[sp,#32]
	ldp	x20,x19,[sp,#16]
	ldp	x22,x21,[sp],#48
	ret
1:
	mov	w0,#0
	mov	w1,#0
	ldp	x29,x30,[sp,#32]
	ldp	x20,x19,[sp,#16]
	ldp	x22,x21,[sp],#48
	b	_rtp_92408dd3_rtp_c.growing.put_status_of
2:
	mov	w1,#0
	mov	w0,#3
	ldp	x29,x30,[sp,#32]
	ldp	x20,x19,[sp,#16]
	ldp	x22,x21,[sp],#48
	b	_rtp_92408dd3_rtp_c.growing.put_status_of
3:
	mov	w1,#1
	mov	w0,#3
	ldp	x29,x30,[sp,#32]
	ldp	x20,x19,[sp,#16]
	ldp	x22,x21,[sp],#48
	b	_rtp_92408dd3_rtp_c.growing.put_status_of
4:
	mov	w1,#2
	mov	w0,#3
	ldp	x29,x30,[sp,#32]
	ldp	x20,x19,[sp,#16]
	ldp	x22,x21,[sp],#48
	b	_rtp_92408dd3_rtp_c.growing.put_status_of
6:
	mov	w0,#3
	mov	w1,#3
	ldp	x29,x30,[sp,#32]
	ldp	x20,x19,[sp,#16]
	ldp	x22,x21,[sp],#48
	b	_rtp_92408dd3_rtp_c.growing.put_status_of
7:
	mov	w1,#4
	mov	w0,#3
	ldp	x29,x30,[sp,#32]
	ldp	x20,x19,[sp,#16]
	ldp	x22,x21,[sp],#48
	b	_rtp_92408dd3_rtp_c.growing.put_status_of
	.cfi_endproc

	.globl	_rtp_92408dd3_rtpw_remove_element
	.p2align	2
_rtp_92408dd3_rtpw_remove_element:
	.cfi_startproc
	mov	w8,#4096
	cmp	x0,#0
	csel	x8,x8,xzr,eq
	cmp	x1,#12
	b.lo	1f
	add	x8,x0,x8
	ldrsb	w9,[x8]
	cmn	w9,#65
	b.gt	2f
	and	x11,x9,#0xff
	ubfiz	x10,x11,#2,#4
	add	x9,x10,#12
	subs	x12,x1,x9
	b.lo	3f
	tbnz	w11,#4,4f
	mov	w0,#11
	ret
4:
	subs	x13,x12,#4
	b.lo	4f
	add	x12,x8,x9
	ldrb	w11,[x12,#2]
	ldrb	w14,[x12,#3]
	lsl	x11,x11,#10
	orr	x11,x11,x14,lsl #2
	cmp	x13,x11
	b.lo	5f
	ldrh	w13,[x12]
	and	w12,w13,#0xfffff0ff
	mov	w0,#11
	mov	w14,#57022
	cmp	w13,w14
	ccmp	w12,#16,#4,ne
	b.ne	6f
	stp	x29,x30,[sp,#-16]!
	.cfi_def_cfa_offset 16
	.cfi_offset w30,-8
	.cfi_offset w29,-16
	mov	x3,x2
	cmp	w12,#16
	cset	w0,eq
	add	w10,w10,#16
	sub	x9,x9,x10
	add	x9,x9,x11
	add	x1,x8,x10
	add	x2,x9,#4
	bl	_rtp_92408dd3_rtp_ext.place.remove_element
	mov	x8,x0
	mov	w0,#11
	cmp	w8,#0
	csel	w0,wzr,w0,ne
	ldp	x29,x30,[sp],#16
6:
	ret
1:
	mov	w0,#0
	b	_rtp_92408dd3_rtp_c.status.refusal_status
2:
	mov	w0,#1
	b	_rtp_92408dd3_rtp_c.status.refusal_status
3:
	mov	w0,#2
	b	_rtp_92408dd3_rtp_c.status.refusal_status
4:
	mov	w0,#3
	b	_rtp_92408dd3_rtp_c.status.refusal_status
5:
	mov	w0,#4
	b	_rtp_92408dd3_rtp_c.status.refusal_status
	.cfi_endproc

	.globl	_rtp_92408dd3_rtpw_remove_padding
	.p2align	2
_rtp_92408dd3_rtpw_remove_padding:
	.cfi_startproc
	mov	w8,#4096
	cmp	x0,#0
	csel	x8,x8,xzr,eq
	cmp	x1,#12
	b.lo	1f
	add	x8,x0,x8
	ldrsb	w9,[x8]
	cmn	w9,#65
	b.gt	2f
	and	x9,x9,#0xff
	ubfiz	x10,x9,#2,#4
	add	x10,x10,#12
	subs	x11,x1,x10
	b.lo	3f
	tbz	w9,#4,4f
	subs	x11,x11,#4
	b.lo	5f
	add	x12,x8,x10
	ldrb	w13,[x12,#2]
	ldrb	w12,[x12,#3]
	lsl	x13,x13,#10
	orr	x12,x13,x12,lsl #2
	cmp	x11,x12
	b.lo	6f
	add	x10,x10,x12
	add	x10,x10,#4
	sub	x11,x1,x10
4:
	tbz	w9,#5,4f
	cmp	x1,x10
	b.ne	7f
	mov	x11,#0
	b	4f
7:
	add	x12,x8,x1
	ldurb	w12,[x12,#-1]
	subs	x11,x11,x12
	b.hs	4f
	mov	w0,#9
	ret
4:
	mov	w0,#0
	add	x10,x11,x10
	and	w9,w9,#0xffffff9f
	strb	w9,[x8]
	str	x10,[x2]
	ret
1:
	mov	w0,#0
	b	_rtp_92408dd3_rtp_c.status.refusal_status
2:
	mov	w0,#1
	b	_rtp_92408dd3_rtp_c.status.refusal_status
3:
	mov	w0,#2
	b	_rtp_92408dd3_rtp_c.status.refusal_status
5:
	mov	w0,#3
	b	_rtp_92408dd3_rtp_c.status.refusal_status
6:
	mov	w0,#4
	b	_rtp_92408dd3_rtp_c.status.refusal_status
	.cfi_endproc

	.globl	_rtp_92408dd3_rtpw_renumber
	.p2align	2
_rtp_92408dd3_rtpw_renumber:
	.cfi_startproc
	sub	sp,sp,#320
	stp	x28,x27,[sp,#288]
	stp	x29,x30,[sp,#304]
	.cfi_def_cfa_offset 320
	.cfi_offset w30,-8
	.cfi_offset w29,-16
	.cfi_offset w27,-24
	.cfi_offset w28,-32
	mov	w8,#4096
	cmp	x0,#0
	csel	x8,x8,xzr,eq
	str	xzr,[sp,#280]
	cmp	x1,#12
	b.lo	1f
	add	x8,x0,x8
	ldrsb	w9,[x8]
	cmn	w9,#65
	b.gt	2f
	and	x10,x9,#0xff
	ubfiz	x9,x10,#2,#4
	add	x9,x9,#12
	subs	x11,x1,x9
	b.lo	3f
	tbnz	w10,#4,4f
	mov	w11,#0
	mov	w10,#0
	b	5f
4:
	subs	x11,x11,#4
	b.lo	4f
	add	x10,x8,x9
	ldrb	w12,[x10,#2]
	ldrb	w13,[x10,#3]
	lsl	x12,x12,#10
	orr	x12,x12,x13,lsl #2
	cmp	x11,x12
	b.lo	6f
	ldrh	w11,[x10]
	and	w10,w11,#0xfffff0ff
	cmp	w10,#16
	cset	w10,eq
	mov	w13,#57022
	cmp	w11,w13
	csinc	w11,w10,wzr,ne
	add	x9,x9,x12
	add	x9,x9,#4
5:
	mov	x12,sp
	stp	x8,x1,[sp,#256]
	str	x9,[sp,#272]
	strb	w11,[sp,#280]
	strb	w10,[sp,#281]
	strb	wzr,[sp]
	ldur	q0,[x2,#193]
	stur	q0,[x12,#193]
	ldur	q0,[x2,#209]
	stur	q0,[x12,#209]
	ldur	q0,[x2,#225]
	stur	q0,[x12,#225]
	ldr	q0,[x2,#240]
	str	q0,[sp,#240]
	ldur	q0,[x2,#129]
	stur	q0,[x12,#129]
	ldur	q0,[x2,#145]
	stur	q0,[x12,#145]
	ldur	q0,[x2,#161]
	stur	q0,[x12,#161]
	ldur	q0,[x2,#177]
	stur	q0,[x12,#177]
	ldur	q0,[x2,#65]
	stur	q0,[sp,#65]
	ldur	q0,[x2,#81]
	stur	q0,[sp,#81]
	ldur	q0,[x2,#97]
	stur	q0,[sp,#97]
	ldur	q0,[x2,#113]
	stur	q0,[sp,#113]
	ldur	q0,[x2,#1]
	stur	q0,[sp,#1]
	ldur	q0,[x2,#17]
	stur	q0,[sp,#17]
	ldur	q0,[x2,#33]
	stur	q0,[sp,#33]
	ldur	q0,[x2,#49]
	stur	q0,[sp,#49]
	add	x0,sp,#256
	mov	x1,sp
	bl	_rtp_92408dd3_rtp_wire.packet.rtp_92408dd3_rtp_packet_mut.RtpPacketMut.renumber
	mov	w8,#16
	cmp	w0,#0
	csel	w0,wzr,w8,ne
	ldp	x29,x30,[sp,#304]
	ldp	x28,x27,[sp,#288]
	add	sp,sp,#320
	ret
1:
	mov	w0,#0
	ldp	x29,x30,[sp,#304]
	ldp	x28,x27,[sp,#288]
	add	sp,sp,#320
	b	_rtp_92408dd3_rtp_c.status.refusal_status
2:
	mov	w0,#1
	ldp	x29,x30,[sp,#304]
	ldp	x28,x27,[sp,#288]
	add	sp,sp,#320
	b	_rtp_92408dd3_rtp_c.status.refusal_status
3:
	mov	w0,#2
	ldp	x29,x30,[sp,#304]
	ldp	x28,x27,[sp,#288]
	add	sp,sp,#320
	b	_rtp_92408dd3_rtp_c.status.refusal_status
4:
	mov	w0,#3
	ldp	x29,x30,[sp,#304]
	ldp	x28,x27,[sp,#288]
	add	sp,sp,#320
	b	_rtp_92408dd3_rtp_c.status.refusal_status
6:
	mov	w0,#4
	ldp	x29,x30,[sp,#304]
	ldp	x28,x27,[sp,#288]
	add	sp,sp,#320
	b	_rtp_92408dd3_rtp_c.status.refusal_status
	.cfi_endproc

	.globl	_rtp_92408dd3_rtpw_set_csrc
	.p2align	2
_rtp_92408dd3_rtpw_set_csrc:
	.cfi_startproc
	mov	w8,#4096
	cmp	x0,#0
	csel	x8,x8,xzr,eq
	cmp	x1,#12
	b.lo	1f
	add	x8,x0,x8
	ldrsb	w9,[x8]
	cmn	w9,#65
	b.gt	2f
	and	x9,x9,#0xff
	ubfiz	x10,x9,#2,#4
	add	x10,x10,#12
	subs	x11,x1,x10
	b.lo	3f
	tbz	w9,#4,4f
	subs	x11,x11,#4
	b.lo	5f
	add	x10,x8,x10
	ldrb	w12,[x10,#2]
	ldrb	w10,[x10,#3]
	lsl	x12,x12,#10
	orr	x10,x12,x10,lsl #2
	cmp	x11,x10
	b.lo	6f
4:
	and	x9,x9,#0xf
	cmp	x2,x9
	b.hs	4f
	mov	w0,#0
	rev	w9,w3
	add	x8,x8,x2,lsl #2
	str	w9,[x8,#12]
	ret
4:
	mov	w0,#11
	ret
1:
	mov	w0,#0
	b	_rtp_92408dd3_rtp_c.status.refusal_status
2:
	mov	w0,#1
	b	_rtp_92408dd3_rtp_c.status.refusal_status
3:
	mov	w0,#2
	b	_rtp_92408dd3_rtp_c.status.refusal_status
5:
	mov	w0,#3
	b	_rtp_92408dd3_rtp_c.status.refusal_status
6:
	mov	w0,#4
	b	_rtp_92408dd3_rtp_c.status.refusal_status
	.cfi_endproc

	.p2align	2
_rtp_92408dd3_rtp_proved_set_element:
	.cfi_startproc
	sub	sp,sp,#128
	str	x27,[sp,#32]
	stp	x26,x25,[sp,#48]
	stp	x24,x23,[sp,#64]
	stp	x22,x21,[sp,#80]
	stp	x20,x19,[sp,#96]
	stp	x29,x30,[sp,#112]
	.cfi_def_cfa_offset 128
	.cfi_offset w30,-8
	.cfi_offset w29,-16
	.cfi_offset w19,-24
	.cfi_offset w20,-32
	.cfi_offset w21,-40
	.cfi_offset w22,-48
	.cfi_offset w23,-56
	.cfi_offset w24,-64
	.cfi_offset w25,-72
	.cfi_offset w26,-80
	.cfi_offset w27,-96
	mov	w8,#4096
	cmp	x0,#0
	csel	x19,x8,xzr,eq
	cmp	x3,#0
	csel	x20,x8,xzr,eq
	cmp	x1,#12
	b.lo	1f
	add	x8,x0,x19
	ldrsb	w9,[x8]
	cmn	w9,#65
	b.gt	2f
	and	x21,x9,#0xff
	ubfiz	x23,x21,#2,#4
	add	x9,x23,#12
	subs	x10,x1,x9
	b.lo	3f
	tbz	w21,#4,4f
	subs	x12,x10,#4
	b.lo	5f
	add	x11,x8,x9
	ldrb	w10,[x11,#2]
	ldrb	w13,[x11,#3]
	lsl	x10,x10,#10
	orr	x10,x10,x13,lsl #2
	cmp	x12,x10
	b.lo	6f
	ldrh	w12,[x11]
	and	w11,w12,#0xfffff0ff
	mov	w13,#57022
	cmp	w12,w13
	ccmp	w11,#16,#4,ne
	b.ne	4f
	and	w27,w2,#0xff
	add	w12,w23,#16
	add	x22,x8,x12
	sub	x8,x9,x12
	add	x8,x8,x10
	add	x1,x8,#4
	cmp	w11,#16
	b.ne	7f
	cbz	x1,4f
	str	wzr,[sp,#44]
	stp	xzr,xzr,[sp,#16]
	str	x1,[sp,#8]
	mov	x9,x22
8:
	ldrb	w8,[x9]
	cbz	w8,9f
	mov	x8,x9
	cmp	x1,#2
	b.hs	10f
	b	11f
9:
	cmp	x1,#2
	b.eq	9f
	cmp	x1,#1
	b.eq	11f
	cmp	x1,#3
	b.hi	12f
	ldrb	w8,[x9,#1]
	cbnz	w8,12f
	ldrb	w8,[x9,#2]
	cbnz	w8,12f
	b	11f
9:
	ldrb	w8,[x9,#1]
	cbz	w8,11f
12:
	mov	x24,x3
	mov	x25,x0
	mov	x26,x4
	sub	x1,x1,#1
	add	x0,x9,#1
	bl	_rtp_92408dd3_rtp_ext.elements.skip_zeros
	cbz	x1,9f
	mov	x8,x0
	mov	x4,x26
	mov	x0,x25
	mov	x3,x24
	cmp	x1,#2
	b.lo	11f
10:
	ldrb	w10,[x8,#1]
	add	x9,x10,#2
	subs	x1,x1,x9
	b.lo	11f
	add	x9,x8,x9
	ldrb	w8,[x8]
	cmp	w8,w27
	b.eq	10f
	cbnz	x1,8b
	b	11f
10:
	ldr	x8,[sp,#8]
	sub	x11,x8,x1
	sub	x8,x8,x1
	str	x8,[sp,#16]
	sub	x8,x11,x10
	str	x8,[sp,#24]
	mov	w8,#1
	str	w8,[sp,#44]
	cbnz	x1,8b
	b	11f
7:
	cbz	x1,4f
	str	wzr,[sp,#44]
	stp	xzr,xzr,[sp,#16]
	str	x1,[sp,#8]
	mov	x8,x22
7:
	ldrb	w9,[x8]
	cbnz	w9,8f
	cmp	x1,#2
	b.eq	10f
	cmp	x1,#1
	b.eq	11f
	cmp	x1,#3
	b.hi	12f
	ldrb	w9,[x8,#1]
	cbnz	w9,12f
	ldrb	w9,[x8,#2]
	cbnz	w9,12f
	b	11f
10:
	ldrb	w9,[x8,#1]
	cbz	w9,11f
12:
	mov	x25,x3
	mov	x26,x0
	mov	x24,x4
	sub	x1,x1,#1
	add	x0,x8,#1
	bl	_rtp_92408dd3_rtp_ext.elements.skip_zeros
	cbz	x1,10f
	mov	x8,x0
	ldrb	w9,[x0]
	mov	x4,x24
	mov	x0,x26
	mov	x3,x25
8:
	cmp	w9,#239
	and	w10,w9,#0xf
	add	w10,w10,#2
	ccmp	x1,x10,#0,ls
	b.lo	11f
	add	x8,x8,x10
	sub	x1,x1,x10
	cmp	w27,w9,lsr #4
	b.eq	8f
	cbnz	x1,7b
	b	11f
8:
	ldr	x9,[sp,#8]
	sub	x11,x9,x1
	sub	x9,x9,x1
	str	x9,[sp,#16]
	sub	x9,x11,x10
	add	x9,x9,#1
	str	x9,[sp,#24]
	mov	w9,#1
	str	w9,[sp,#44]
	cbnz	x1,7b
	b	11f
4:
	mov	w8,#11
4:
	mov	x0,x8
	ldp	x29,x30,[sp,#112]
	ldp	x20,x19,[sp,#96]
	ldp	x22,x21,[sp,#80]
	ldp	x24,x23,[sp,#64]
	ldp	x26,x25,[sp,#48]
	ldr	x27,[sp,#32]
	add	sp,sp,#128
	ret
1:
	mov	w0,#0
	b	1f
2:
	mov	w0,#1
	b	1f
3:
	mov	w0,#2
	b	1f
5:
	mov	w0,#3
	b	1f
6:
	mov	w0,#4
1:
	ldp	x29,x30,[sp,#112]
	ldp	x20,x19,[sp,#96]
	ldp	x22,x21,[sp,#80]
	ldp	x24,x23,[sp,#64]
	ldp	x26,x25,[sp,#48]
	ldr	x27,[sp,#32]
	add	sp,sp,#128
	b	_rtp_92408dd3_rtp_c.status.refusal_status
9:
	mov	x4,x26
	mov	x0,x25
	mov	x3,x24
	b	11f
10:
	mov	x4,x24
	mov	x0,x26
	mov	x3,x25
11:
	mov	w8,#11
	ldr	w9,[sp,#44]
	cmp	w9,#1
	b.ne	4b
	ldp	x9,x13,[sp,#16]
	sub	x9,x9,x13
	cmp	x9,x4
	b.ne	4b
	add	x1,x3,x20
	cbz	x4,1f
	cmp	x4,#1
	b.ne	2f
	mov	w8,#0
	ldrb	w9,[x1]
	strb	w9,[x22,x13]
	b	4b
2:
	cmp	x4,#2
	b.hi	2f
	mov	w8,#0
	ldrb	w9,[x1]
	add	x10,x22,x13
	strb	w9,[x10]
	ldrb	w9,[x1,#1]
	strb	w9,[x10,#1]
	b	4b
2:
	cmp	x4,#3
	b.ne	1f
	mov	w8,#0
	ldrb	w9,[x1]
	add	x10,x22,x13
	strb	w9,[x10]
	ldrb	w9,[x1,#1]
	strb	w9,[x10,#1]
	ldrb	w9,[x1,#2]
	strb	w9,[x10,#2]
	b	4b
1:
	add	x8,x22,x13
	sub	x9,x8,x1
	cmp	x9,x4
	b.hs	1f
	cmp	x4,#8
	b.lo	2f
	add	x8,x19,x13
	add	x8,x8,x0
	add	x8,x8,x23
	add	x9,x20,x3
	sub	x8,x8,x9
	add	x8,x8,#16
	cmp	x8,#64
	b.hs	3f
2:
	mov	x8,#0
2:
	sub	x9,x4,x8
	add	x10,x20,x8
	add	x10,x3,x10
	add	x8,x19,x8
	add	x8,x8,x13
	and	x11,x21,#0xf
	add	x8,x8,x11,lsl #2
	add	x8,x8,x0
	add	x11,x8,#16
5:
	mov	w8,#0
	ldrb	w12,[x10],#1
	strb	w12,[x11],#1
	subs	x9,x9,#1
	b.ne	5b
	b	4b
1:
	mov	x0,x8
	mov	x2,x4
	bl	_memmove
1:
	mov	w8,#0
	b	4b
3:
	cmp	x4,#64
	b.hs	3f
	mov	x8,#0
	b	4f
3:
	and	x9,x4,#0x38
	and	x8,x4,#0xffffffffffffffc0
	add	x10,x19,x13
	add	x10,x10,x23
	add	x10,x10,x0
	add	x10,x10,#64
	add	x11,x20,x3
	add	x11,x11,#32
	and	x12,x4,#0xffffffffffffffc0
3:
	ldp	q0,q1,[x11,#-32]
	ldp	q2,q3,[x11],#64
	stp	q0,q1,[x10,#-48]
	stp	q2,q3,[x10,#-16]
	add	x10,x10,#64
	subs	x12,x12,#64
	b.ne	3b
	cmp	x4,x8
	b.eq	1b
	cbz	x9,2b
4:
	mov	x11,x8
	and	x8,x4,#0xfffffffffffffff8
	sub	x9,x11,x8
	add	x10,x20,x11
	add	x10,x3,x10
	add	x12,x19,x13
	add	x11,x12,x11
	and	x12,x21,#0xf
	add	x11,x11,x12,lsl #2
	add	x11,x11,x0
	add	x11,x11,#16
3:
	ldr	d0,[x10],#8
	str	d0,[x11],#8
	adds	x9,x9,#8
	b.ne	3b
	cmp	x4,x8
	b.ne	2b
	b	1b
	.cfi_endproc

	.globl	_rtp_92408dd3_rtpw_set_padding
	.p2align	2
_rtp_92408dd3_rtpw_set_padding:
	.cfi_startproc
	mov	w8,#4096
	cmp	x0,#0
	csel	x8,x8,xzr,eq
	cmp	x1,#12
	b.lo	1f
	add	x8,x0,x8
	ldrsb	w9,[x8]
	cmn	w9,#65
	b.gt	2f
	and	x9,x9,#0xff
	ubfiz	x10,x9,#2,#4
	add	x10,x10,#12
	subs	x11,x1,x10
	b.lo	3f
	tbz	w9,#4,4f
	subs	x11,x11,#4
	b.lo	5f
	add	x10,x8,x10
	ldrb	w12,[x10,#2]
	ldrb	w10,[x10,#3]
	lsl	x12,x12,#10
	orr	x10,x12,x10,lsl #2
	cmp	x11,x10
	b.lo	6f
4:
	tst	w2,#0x1
	mov	w10,#-128
	mov	w11,#-96
	csel	w10,w11,w10,ne
	bfxil	w10,w9,#0,#5
	strb	w10,[x8]
	mov	w0,#0
	ret
1:
	mov	w0,#0
	b	_rtp_92408dd3_rtp_c.status.refusal_status
2:
	mov	w0,#1
	b	_rtp_92408dd3_rtp_c.status.refusal_status
3:
	mov	w0,#2
	b	_rtp_92408dd3_rtp_c.status.refusal_status
5:
	mov	w0,#3
	b	_rtp_92408dd3_rtp_c.status.refusal_status
6:
	mov	w0,#4
	b	_rtp_92408dd3_rtp_c.status.refusal_status
	.cfi_endproc

	.globl	_rtp_92408dd3_rtpw_to_retransmission
	.p2align	2
_rtp_92408dd3_rtpw_to_retransmission:
	.cfi_startproc
	mov	w8,#4096
	cmp	x0,#0
	csel	x9,x8,xzr,eq
	tbnz	w4,#7,1f
	sub	sp,sp,#400
	str	x27,[sp,#304]
	stp	x26,x25,[sp,#320]
	stp	x24,x23,[sp,#336]
	stp	x22,x21,[sp,#352]
	stp	x20,x19,[sp,#368]
	stp	x29,x30,[sp,#384]
	.cfi_def_cfa_offset 400
	.cfi_offset w30,-8
	.cfi_offset w29,-16
	.cfi_offset w19,-24
	.cfi_offset w20,-32
	.cfi_offset w21,-40
	.cfi_offset w22,-48
	.cfi_offset w23,-56
	.cfi_offset w24,-64
	.cfi_offset w25,-72
	.cfi_offset w26,-80
	.cfi_offset w27,-96
	add	x10,sp,#16
	ldr	x8,[x2]
	strb	wzr,[sp,#16]
	ldur	q0,[x6,#193]
	stur	q0,[x10,#193]
	ldur	q0,[x6,#209]
	stur	q0,[x10,#209]
	ldur	q0,[x6,#225]
	stur	q0,[x10,#225]
	ldr	q0,[x6,#240]
	str	q0,[sp,#256]
	ldur	q0,[x6,#129]
	stur	q0,[x10,#129]
	ldur	q0,[x6,#145]
	stur	q0,[x10,#145]
	ldur	q0,[x6,#161]
	stur	q0,[x10,#161]
	ldur	q0,[x6,#177]
	stur	q0,[x10,#177]
	ldur	q0,[x6,#65]
	stur	q0,[sp,#81]
	ldur	q0,[x6,#81]
	stur	q0,[sp,#97]
	ldur	q0,[x6,#97]
	stur	q0,[sp,#113]
	ldur	q0,[x6,#113]
	stur	q0,[sp,#129]
	ldur	q0,[x6,#1]
	stur	q0,[sp,#17]
	ldur	q0,[x6,#17]
	stur	q0,[sp,#33]
	ldur	q0,[x6,#33]
	stur	q0,[sp,#49]
	ldur	q0,[x6,#49]
	stur	q0,[sp,#65]
	cmp	x1,x8
	b.hs	2f
3:
	mov	w0,#9
	b	4f
1:
	mov	w0,#9
	ret
2:
	cmp	x8,#12
	b.hs	1f
	mov	w0,#1
	b	4f
1:
	add	x20,x0,x9
	ldrsb	w9,[x20]
	cmn	w9,#65
	b.gt	1f
	and	x12,x9,#0xff
	ubfiz	x9,x12,#2,#4
	add	x21,x9,#12
	subs	x19,x8,x21
	b.hs	2f
	mov	w0,#3
	b	4f
1:
	mov	w0,#2
4:
	ldp	x29,x30,[sp,#384]
	ldp	x20,x19,[sp,#368]
	ldp	x22,x21,[sp,#352]
	ldp	x24,x23,[sp,#336]
	ldp	x26,x25,[sp,#320]
	ldr	x27,[sp,#304]
	add	sp,sp,#400
	ret
2:
	tbnz	w12,#4,1f
	mov	w11,#0
	mov	w10,#0
	tbz	w12,#5,2f
5:
	cmp	x8,x21
	b.ne	6f
	mov	x19,#0
	b	2f
1:
	subs	x11,x19,#4
	b.hs	1f
	mov	w0,#4
	b	4b
1:
	add	x10,x20,x21
	ldrb	w13,[x10,#2]
	ldrb	w14,[x10,#3]
	lsl	x13,x13,#10
	orr	x13,x13,x14,lsl #2
	cmp	x11,x13
	b.hs	1f
	mov	w0,#6
	b	4b
6:
	add	x8,x20,x8
	ldurb	w8,[x8,#-1]
	subs	x19,x19,x8
	b.lo	3b
	b	2f
1:
	ldrh	w11,[x10]
	and	w10,w11,#0xfffff0ff
	cmp	w10,#16
	cset	w10,eq
	mov	w14,#57022
	cmp	w11,w14
	csinc	w11,w10,wzr,ne
	add	x13,x21,x13
	add	x21,x13,#4
	sub	x19,x8,x21
	tbnz	w12,#5,5b
2:
	add	x22,x19,x21
	sub	x8,x1,x22
	cmp	x8,#1
	b.hi	1f
	cbz	w11,2f
	tbz	w10,#0,3f
2:
	mov	w0,#8
	b	4b
1:
	mov	x23,x4
	mov	x27,x5
	mov	x26,x3
	str	x2,[sp,#312]
	ldrb	w24,[x20,#2]
	ldrb	w25,[x20,#3]
	stp	x20,x21,[sp,#272]
	stp	x21,xzr,[sp,#288]
	strb	w11,[sp,#296]
	strb	w10,[sp,#297]
	add	x0,sp,#272
	add	x1,sp,#16
	bl	_rtp_92408dd3_rtp_wire.packet.rtp_92408dd3_rtp_packet_mut.RtpPacketMut.renumber
	tbz	w0,#0,1f
	ldrb	w8,[x20]
	mov	w9,#128
	bfxil	w9,w8,#0,#5
	strb	w9,[x20]
	ldrb	w8,[x20,#1]
	and	w8,w8,#0x80
	orr	w8,w8,w23
	strb	w8,[x20,#1]
	rev	w8,w27
	lsr	w8,w8,#16
	strh	w8,[x20,#2]
	rev	w8,w26
	str	w8,[x20,#8]
	cbz	x19,5f
	add	x8,x20,x21
	add	x0,x8,#2
	add	x1,x20,x21
	mov	x2,x19
	bl	_memmove
5:
	mov	w0,#0
	orr	w8,w24,w25,lsl #8
	strh	w8,[x20,x21]
	add	x9,x22,#2
	ldr	x8,[sp,#312]
	str	x9,[x8]
	b	4b
1:
	mov	w0,#16
	b	4b
3:
	ldr	d1,[sp,#16]
	movi.8b	v0,#14
	cmhi.8b	v1,v1,v0
	umaxv.8b	b1,v1
	fmov	w8,s1
	tbnz	w8,#0,1f
	ldur	d1,[sp,#23]
	cmhi.8b	v0,v1,v0
	umaxv.8b	b0,v0
	fmov	w8,s0
	tbz	w8,#0,2b
1:
	add	w9,w9,#16
	add	x8,x20,x9
	sub	x1,x21,x9
1:
	cbz	x1,2b
	ldrb	w9,[x8]
	cbnz	w9,3f
	cmp	x1,#2
	b.eq	5f
	cmp	x1,#1
	b.eq	2b
	cmp	x1,#3
	b.hi	6f
	ldrb	w9,[x8,#1]
	cbnz	w9,6f
	ldrb	w9,[x8,#2]
	cbnz	w9,6f
	b	2b
5:
	ldrb	w9,[x8,#1]
	cbz	w9,2b
6:
	sub	x1,x1,#1
	add	x0,x8,#1
	bl	_rtp_92408dd3_rtp_ext.elements.skip_zeros
	cbz	x1,2b
	mov	x8,x0
	ldrb	w9,[x0]
3:
	cmp	w9,#239
	b.hi	2b
	and	w10,w9,#0xf
	add	w10,w10,#2
	subs	x1,x1,x10
	b.lo	2b
	mov	w9,w9
	lsr	x9,x9,#4
	add	x8,x8,x10
	add	x10,sp,#16
	ldrb	w9,[x10,x9]
	mov	w0,#16
	cmp	w9,#15
	b.lo	1b
	b	4b
	.cfi_endproc

	.globl	_rtp_92408dd3_rtpw_set_fields
	.p2align	2
_rtp_92408dd3_rtpw_set_fields:
	.cfi_startproc
	mov	w8,#4096
	cmp	x0,#0
	csel	x8,x8,xzr,eq
	ldrb	w10,[x2,#15]
	ldrsb	w9,[x2,#10]
	cbz	w10,1f
	tbz	w9,#31,1f
	mov	w0,#9
	ret
1:
	cmp	x1,#12
	b.lo	1f
	add	x8,x0,x8
	ldrsb	w11,[x8]
	cmn	w11,#65
	b.gt	2f
	and	x4,x11,#0xff
	ubfiz	x11,x4,#2,#4
	add	x3,x11,#12
	subs	x1,x1,x3
	b.lo	3f
	ldrb	w0,[x2,#16]
	ldrb	w17,[x2,#11]
	ldrb	w16,[x2,#14]
	ldrh	w15,[x2,#8]
	ldrb	w13,[x2,#12]
	ldrb	w12,[x2,#13]
	ldp	w14,w11,[x2]
	tbz	w4,#4,4f
	subs	x1,x1,#4
	b.lo	5f
	add	x2,x8,x3
	ldrb	w3,[x2,#2]
	ldrb	w2,[x2,#3]
	lsl	x3,x3,#10
	orr	x2,x3,x2,lsl #2
	cmp	x1,x2
	b.lo	6f
4:
	cbz	w0,4f
	mov	w0,#-128
	cmp	w17,#0
	csel	w17,wzr,w0,eq
	ldrb	w0,[x8,#1]
	bfxil	w17,w0,#0,#7
	strb	w17,[x8,#1]
4:
	cbz	w10,4f
	ldrb	w10,[x8,#1]
	and	w10,w10,#0x80
	add	w9,w10,w9
	strb	w9,[x8,#1]
4:
	cbz	w16,4f
	rev16	w9,w15
	strh	w9,[x8,#2]
4:
	cbz	w13,4f
	rev	w9,w14
	str	w9,[x8,#4]
4:
	mov	w0,#0
	cbz	w12,4f
	rev	w9,w11
	str	w9,[x8,#8]
4:
	ret
1:
	mov	w0,#0
	b	_rtp_92408dd3_rtp_c.status.refusal_status
2:
	mov	w0,#1
	b	_rtp_92408dd3_rtp_c.status.refusal_status
3:
	mov	w0,#2
	b	_rtp_92408dd3_rtp_c.status.refusal_status
5:
	mov	w0,#3
	b	_rtp_92408dd3_rtp_c.status.refusal_status
6:
	mov	w0,#4
	b	_rtp_92408dd3_rtp_c.status.refusal_status
	.cfi_endproc

	.globl	_rtp_92408dd3_rtpw_set_marker
	.p2align	2
_rtp_92408dd3_rtpw_set_marker:
	.cfi_startproc
	mov	w8,#4096
	cmp	x0,#0
	csel	x8,x8,xzr,eq
	cmp	x1,#12
	b.lo	1f
	add	x8,x0,x8
	ldrsb	w9,[x8]
	cmn	w9,#65
	b.gt	2f
	and	x10,x9,#0xff
	ubfiz	x9,x10,#2,#4
	add	x9,x9,#12
	subs	x11,x1,x9
	b.lo	3f
	tbz	w10,#4,4f
	subs	x10,x11,#4
	b.lo	5f
	add	x9,x8,x9
	ldrb	w11,[x9,#2]
	ldrb	w9,[x9,#3]
	lsl	x11,x11,#10
	orr	x9,x11,x9,lsl #2
	cmp	x10,x9
	b.lo	6f
4:
	tst	w2,#0x1
	mov	w9,#-128
	csel	w9,w9,wzr,ne
	ldrb	w10,[x8,#1]
	bfxil	w9,w10,#0,#7
	strb	w9,[x8,#1]
	mov	w0,#0
	ret
1:
	mov	w0,#0
	b	_rtp_92408dd3_rtp_c.status.refusal_status
2:
	mov	w0,#1
	b	_rtp_92408dd3_rtp_c.status.refusal_status
3:
	mov	w0,#2
	b	_rtp_92408dd3_rtp_c.status.refusal_status
5:
	mov	w0,#3
	b	_rtp_92408dd3_rtp_c.status.refusal_status
6:
	mov	w0,#4
	b	_rtp_92408dd3_rtp_c.status.refusal_status
	.cfi_endproc

	.globl	_rtp_92408dd3_rtpw_set_payload_type
	.p2align	2
_rtp_92408dd3_rtpw_set_payload_type:
	.cfi_startproc
	mov	w8,#4096
	cmp	x0,#0
	csel	x8,x8,xzr,eq
	tbnz	w2,#7,1f
	cmp	x1,#12
	b.lo	2f
	add	x8,x0,x8
	ldrsb	w9,[x8]
	cmn	w9,#65
	b.gt	3f
	and	x10,x9,#0xff
	ubfiz	x9,x10,#2,#4
	add	x9,x9,#12
	subs	x11,x1,x9
	b.lo	4f
	tbz	w10,#4,5f
	subs	x10,x11,#4
	b.lo	6f
	add	x9,x8,x9
	ldrb	w11,[x9,#2]
	ldrb	w9,[x9,#3]
	lsl	x11,x11,#10
	orr	x9,x11,x9,lsl #2
	cmp	x10,x9
	b.lo	7f
5:
	mov	w0,#0
	ldrb	w9,[x8,#1]
	and	w9,w9,#0x80
	orr	w9,w9,w2
	strb	w9,[x8,#1]
	ret
1:
	mov	w0,#9
	ret
2:
	mov	w0,#0
	b	_rtp_92408dd3_rtp_c.status.refusal_status
3:
	mov	w0,#1
	b	_rtp_92408dd3_rtp_c.status.refusal_status
4:
	mov	w0,#2
	b	_rtp_92408dd3_rtp_c.status.refusal_status
6:
	mov	w0,#3
	b	_rtp_92408dd3_rtp_c.status.refusal_status
7:
	mov	w0,#4
	b	_rtp_92408dd3_rtp_c.status.refusal_status
	.cfi_endproc

	.globl	_rtp_92408dd3_rtpw_set_sequence_number
	.p2align	2
_rtp_92408dd3_rtpw_set_sequence_number:
	.cfi_startproc
	mov	w8,#4096
	cmp	x0,#0
	csel	x8,x8,xzr,eq
	cmp	x1,#12
	b.lo	1f
	add	x8,x0,x8
	ldrsb	w9,[x8]
	cmn	w9,#65
	b.gt	2f
	and	x10,x9,#0xff
	ubfiz	x9,x10,#2,#4
	add	x9,x9,#12
	subs	x11,x1,x9
	b.lo	3f
	tbz	w10,#4,4f
	subs	x10,x11,#4
	b.lo	5f
	add	x9,x8,x9
	ldrb	w11,[x9,#2]
	ldrb	w9,[x9,#3]
	lsl	x11,x11,#10
	orr	x9,x11,x9,lsl #2
	cmp	x10,x9
	b.lo	6f
4:
	rev	w9,w2
	lsr	w9,w9,#16
	strh	w9,[x8,#2]
	mov	w0,#0
	ret
1:
	mov	w0,#0
	b	_rtp_92408dd3_rtp_c.status.refusal_status
2:
	mov	w0,#1
	b	_rtp_92408dd3_rtp_c.status.refusal_status
3:
	mov	w0,#2
	b	_rtp_92408dd3_rtp_c.status.refusal_status
5:
	mov	w0,#3
	b	_rtp_92408dd3_rtp_c.status.refusal_status
6:
	mov	w0,#4
	b	_rtp_92408dd3_rtp_c.status.refusal_status
	.cfi_endproc

	.globl	_rtp_92408dd3_rtpw_set_ssrc
	.p2align	2
_rtp_92408dd3_rtpw_set_ssrc:
	.cfi_startproc
	mov	w8,#4096
	cmp	x0,#0
	csel	x8,x8,xzr,eq
	cmp	x1,#12
	b.lo	1f
	add	x8,x0,x8
	ldrsb	w9,[x8]
	cmn	w9,#65
	b.gt	2f
	and	x10,x9,#0xff
	ubfiz	x9,x10,#2,#4
	add	x9,x9,#12
	subs	x11,x1,x9
	b.lo	3f
	tbz	w10,#4,4f
	subs	x10,x11,#4
	b.lo	5f
	add	x9,x8,x9
	ldrb	w11,[x9,#2]
	ldrb	w9,[x9,#3]
	lsl	x11,x11,#10
	orr	x9,x11,x9,lsl #2
	cmp	x10,x9
	b.lo	6f
4:
	rev	w9,w2
	str	w9,[x8,#8]
	mov	w0,#0
	ret
1:
	mov	w0,#0
	b	_rtp_92408dd3_rtp_c.status.refusal_status
2:
	mov	w0,#1
	b	_rtp_92408dd3_rtp_c.status.refusal_status
3:
	mov	w0,#2
	b	_rtp_92408dd3_rtp_c.status.refusal_status
5:
	mov	w0,#3
	b	_rtp_92408dd3_rtp_c.status.refusal_status
6:
	mov	w0,#4
	b	_rtp_92408dd3_rtp_c.status.refusal_status
	.cfi_endproc

	.globl	_rtp_92408dd3_rtpw_set_timestamp
	.p2align	2
_rtp_92408dd3_rtpw_set_timestamp:
	.cfi_startproc
	mov	w8,#4096
	cmp	x0,#0
	csel	x8,x8,xzr,eq
	cmp	x1,#12
	b.lo	1f
	add	x8,x0,x8
	ldrsb	w9,[x8]
	cmn	w9,#65
	b.gt	2f
	and	x10,x9,#0xff
	ubfiz	x9,x10,#2,#4
	add	x9,x9,#12
	subs	x11,x1,x9
	b.lo	3f
	tbz	w10,#4,4f
	subs	x10,x11,#4
	b.lo	5f
	add	x9,x8,x9
	ldrb	w11,[x9,#2]
	ldrb	w9,[x9,#3]
	lsl	x11,x11,#10
	orr	x9,x11,x9,lsl #2
	cmp	x10,x9
	b.lo	6f
4:
	rev	w9,w2
	str	w9,[x8,#4]
	mov	w0,#0
	ret
1:
	mov	w0,#0
	b	_rtp_92408dd3_rtp_c.status.refusal_status
2:
	mov	w0,#1
	b	_rtp_92408dd3_rtp_c.status.refusal_status
3:
	mov	w0,#2
	b	_rtp_92408dd3_rtp_c.status.refusal_status
5:
	mov	w0,#3
	b	_rtp_92408dd3_rtp_c.status.refusal_status
6:
	mov	w0,#4
	b	_rtp_92408dd3_rtp_c.status.refusal_status
	.cfi_endproc

	.section	__TEXT,__literal16,16byte_literals
	.p2align	4,0x0
lrtp_92408dd3_CPI152_0:
	.quad	1
	.quad	0
	.section	__TEXT,__text,regular,pure_instructions
	.globl	_rtp_92408dd3_rtpw_receiver_record
	.p2align	2
_rtp_92408dd3_rtpw_receiver_record:
	.cfi_startproc
	ldrb	w8,[x0,#24]
	cbz	w8,1f
	ldp	x10,x9,[x0,#8]
	ldr	x11,[x0]
	orr	x10,x10,#0x1
	subs	x12,x11,x1
	b.hs	2f
	sub	x11,x1,x11
	mvn	w12,w11
	lsl	x13,x9,x11
	lsr	x14,x10,#1
	lsr	x12,x14,x12
	orr	x12,x13,x12
	lsl	x13,x10,x11
	tst	x11,#0x40
	csel	x12,x13,x12,ne
	csel	x13,xzr,x13,ne
	orr	x13,x13,#0x1
	cmp	x11,#127
	csel	x12,xzr,x12,hi
	csinc	x13,x13,xzr,ls
	mov	w14,#1
	orr	x14,x14,x10,lsl #1
	extr	x9,x9,x10,#63
	cmp	x11,#1
	csel	x10,x13,x14,ne
	csel	x9,x12,x9,ne
	stp	x1,x10,[x0]
	str	x9,[x0,#16]
	cmp	w8,#1
	b.ne	3f
4:
	ret
1:
	str	x1,[x0]
Lrtp_92408dd3_loh160:
	adrp	x8,lrtp_92408dd3_CPI152_0@PAGE
Lrtp_92408dd3_loh161:
	ldr	q0,[x8,lrtp_92408dd3_CPI152_0@PAGEOFF]
	stur	q0,[x0,#8]
	mov	w8,#1
	strb	w8,[x0,#24]
	ret
2:
	mov	w13,#1
	lsl	x13,x13,x12
	tst	x12,#0x40
	csel	x14,xzr,x13,ne
	csel	x13,x13,xzr,ne
	and	x15,x13,x9
	and	x16,x14,x10
	orr	x15,x16,x15
	cmp	x15,#0
	csel	x13,x13,xzr,eq
	csel	x14,x14,xzr,eq
	orr	x14,x14,x10
	orr	x13,x13,x9
	cmp	x12,#127
	csel	x10,x10,x14,hi
	csel	x9,x9,x13,hi
	stp	x11,x10,[x0]
	str	x9,[x0,#16]
	cmp	w8,#1
	b.eq	4b
3:
	mov	w8,#1
	strb	w8,[x0,#24]
	ret
	.loh AdrpLdr	Lrtp_92408dd3_loh160,Lrtp_92408dd3_loh161
	.cfi_endproc

	.globl	_rtp_92408dd3_rtpw_receiver_start
	.p2align	2
_rtp_92408dd3_rtpw_receiver_start:
	.cfi_startproc
	lsr	x9,x1,#48
	cbz	x9,1f
	mov	w0,#9
	ret
1:
	mov	x8,x0
	mov	w0,#0
	stp	xzr,xzr,[x8,#8]
	lsl	x9,x1,#16
	str	x9,[x8]
	strb	wzr,[x8,#24]
	ret
	.cfi_endproc

	.section	__TEXT,__literal16,16byte_literals
	.p2align	4,0x0
lrtp_92408dd3_CPI154_0:
	.byte	0
	.byte	8
	.byte	16
	.byte	24
	.byte	32
	.byte	40
	.byte	48
	.byte	56
	.byte	255
	.byte	255
	.byte	255
	.byte	255
	.byte	255
	.byte	255
	.byte	255
	.byte	255
	.section	__TEXT,__text,regular,pure_instructions
	.globl	_rtp_92408dd3_rtpw_make_from_group
	.p2align	2
_rtp_92408dd3_rtpw_make_from_group:
	.cfi_startproc
	stp	d11,d10,[sp,#-128]!
	stp	d9,d8,[sp,#16]
	str	x27,[sp,#32]
	stp	x26,x25,[sp,#48]
	stp	x24,x23,[sp,#64]
	stp	x22,x21,[sp,#80]
	stp	x20,x19,[sp,#96]
	stp	x29,x30,[sp,#112]
	sub	sp,sp,#384
	.cfi_def_cfa_offset 512
	.cfi_offset w30,-8
	.cfi_offset w29,-16
	.cfi_offset w19,-24
	.cfi_offset w20,-32
	.cfi_offset w21,-40
	.cfi_offset w22,-48
	.cfi_offset w23,-56
	.cfi_offset w24,-64
	.cfi_offset w25,-72
	.cfi_offset w26,-80
	.cfi_offset w27,-96
	.cfi_offset b8,-104
	.cfi_offset b9,-112
	.cfi_offset b10,-120
	.cfi_offset b11,-128
	mov	w8,#4096
	cmp	x1,#0
	csel	x13,x8,xzr,eq
	cmp	x3,#0
	csel	x11,x8,xzr,eq
	stp	xzr,xzr,[sp,#88]
	str	xzr,[sp,#104]
	ldrb	w9,[x0,#546]
	cmp	w9,#16
	b.hi	1f
	ldrb	w8,[x0,#547]
	cmp	w8,#2
	b.hi	1f
	ldrb	w10,[x0]
	cbnz	w10,1f
	ldrb	w10,[x0,#256]
	cbz	w10,2f
1:
	mov	w0,#9
3:
	add	sp,sp,#384
	ldp	x29,x30,[sp,#112]
	ldp	x20,x19,[sp,#96]
	ldp	x22,x21,[sp,#80]
	ldp	x24,x23,[sp,#64]
	ldp	x26,x25,[sp,#48]
	ldr	x27,[sp,#32]
	ldp	d9,d8,[sp,#16]
	ldp	d11,d10,[sp],#128
	ret
2:
	mov	w10,#0
	cbz	w9,2f
	mov	x17,#0
	add	x12,x0,#256
	add	x15,x0,#512
	add	x16,x0,#528
	mov	w14,#1
4:
	ldrb	w7,[x15,x17]
	ldrb	w6,[x12,w7,uxtw]
	add	x19,x17,#1
	cmp	x19,x6
	b.ne	1b
	ldrb	w17,[x16,x17]
	add	w10,w10,w17
	sub	w7,w7,#1
	sub	w17,w17,#1
	cmp	w7,#14
	ccmp	w17,#16,#2,lo
	cset	w17,lo
	and	w14,w17,w14
	mov	x17,x6
	cmp	w6,w9
	b.ne	4b
	b	4f
2:
	mov	w14,#1
4:
	ldrh	w12,[x0,#544]
	cmp	w12,w10,uxth
	b.ne	1b
	ldrb	w12,[x0,#548]
	cmp	w12,#0
	cset	w15,ne
	eor	w14,w14,w15
	tbnz	w14,#0,1b
	cmp	x2,#12
	b.hs	1f
	mov	w0,#1
	b	3b
1:
	add	x19,x1,x13
	ldrsb	w13,[x19]
	cmn	w13,#65
	b.gt	1f
	and	x13,x13,#0xff
	ubfiz	x17,x13,#2,#4
	add	x23,x17,#12
	subs	x14,x2,x23
	b.hs	2f
	mov	w0,#3
	b	3b
1:
	mov	w0,#2
	b	3b
2:
	tbnz	w13,#4,1f
	mov	w24,#0
	mov	w22,#0
2:
	add	x13,sp,#112
	add	x20,x3,x11
	stp	xzr,xzr,[sp,#288]
	str	xzr,[sp,#264]
	stp	xzr,xzr,[sp,#368]
	mov	w11,#1
	stp	x11,xzr,[sp,#352]
	movi.2d	v0,#0000000000000000
	stp	q0,q0,[sp,#112]
	stp	q0,q0,[sp,#144]
	stp	q0,q0,[sp,#176]
	str	q0,[sp,#208]
	str	q0,[x13,#112]
	str	x5,[sp,#80]
	str	x0,[sp,#424]
	str	x4,[sp,#48]
	cbz	w24,4f
	add	w14,w17,#16
	sub	x11,x23,x14
	cmp	x11,#256
	b.hi	4f
	mov	w11,#262140
	cmp	x4,x11
	csel	x26,x4,x11,lo
	lsl	x11,x23,#1
	add	x11,x11,#3
	subs	x11,x26,x11
	stp	x23,x2,[sp,#32]
	str	w22,[sp,#72]
	str	w24,[sp,#28]
	b.lo	5f
	lsl	x13,x9,#1
	add	x10,x13,w10,uxth
	cmp	x11,x10
	b.lo	5f
	mov	x4,x22
	cbz	w9,6f
	cmp	w12,#0
	csinc	w4,w22,wzr,ne
	cmp	w8,#1
	b.eq	7f
	cbz	w8,6f
	mov	w4,#1
	b	6f
1:
	subs	x14,x14,#4
	b.hs	1f
	mov	w0,#4
	b	3b
1:
	add	x13,x19,x23
	ldrb	w15,[x13,#2]
	ldrb	w16,[x13,#3]
	lsl	x15,x15,#10
	orr	x15,x15,x16,lsl #2
	cmp	x14,x15
	b.hs	1f
	mov	w0,#6
	b	3b
1:
	ldrh	w13,[x13]
	and	w14,w13,#0xfffff0ff
	cmp	w14,#16
	cset	w22,eq
	add	x14,x23,x15
	add	x23,x14,#4
	mov	w14,#57022
	cmp	w13,w14
	csinc	w24,w22,wzr,ne
	b	2b
7:
	tbnz	w4,#0,4f
	mov	w4,#0
6:
	add	x8,sp,#112
	str	x8,[sp]
	stp	x14,x17,[sp,#56]
	add	w2,w17,#16
	add	x5,x19,x14
	sub	x6,x23,x14
	mov	x0,x20
	mov	x1,x26
	mov	x3,x22
	str	w4,[sp,#76]
	ldr	x27,[sp,#424]
	mov	x7,x27
	bl	_rtp_92408dd3_rtp_route.walk.write_kept.82187cbc7fdfa14b
	mov	x8,x27
	tbz	w0,#0,1f
	ldrb	w22,[x8,#546]
	cbz	x22,2f
	add	x25,x8,#528
	ldr	w9,[sp,#76]
	cbz	w9,6f
	add	x24,sp,#112
	b	7f
8:
	add	x0,x20,x23
	mov	x1,x27
	bl	_bzero
	ldr	x8,[sp,#424]
9:
	stp	w23,w27,[x24]
	mov	x1,x21
10:
	add	x25,x25,#1
	add	x24,x24,#8
	subs	x22,x22,#1
	b.eq	2f
7:
	ldr	w9,[x24]
	cbnz	w9,10b
	ldrb	w27,[x25]
	add	x23,x1,#2
	add	x21,x23,x27
	cmp	x26,x21
	b.lo	1f
	ldurb	w9,[x25,#-16]
	add	x10,x20,x1
	strb	w9,[x10]
	strb	w27,[x10,#1]
	cbz	w27,8b
	cmp	w27,#1
	b.ne	7f
	strb	wzr,[x20,x23]
	b	9b
7:
	cmp	w27,#2
	b.hi	7f
	strh	wzr,[x20,x23]
	b	9b
7:
	cmp	w27,#3
	b.ne	8b
	add	x9,x20,x23
	strh	wzr,[x9]
	strb	wzr,[x9,#2]
	b	9b
6:
	add	x24,sp,#112
	b	6f
7:
	add	x0,x20,x21
	mov	x1,x27
	bl	_bzero
	ldr	x8,[sp,#424]
8:
	add	x1,x21,x27
	stp	w21,w27,[x24]
9:
	add	x25,x25,#1
	add	x24,x24,#8
	subs	x22,x22,#1
	b.eq	2f
6:
	ldr	w9,[x24]
	cbnz	w9,9b
	ldrb	w27,[x25]
	add	x9,x1,x27
	add	x9,x9,#2
	cmp	x26,x9
	b.lo	1f
	ldurb	w9,[x25,#-16]
	lsr	w10,w9,#4
	orr	w9,w10,w9,lsl #4
	add	w9,w27,w9
	sub	w9,w9,#1
	strb	w9,[x20,x1]
	add	x21,x1,#1
	cbz	w27,7b
	cmp	w27,#1
	b.ne	6f
	strb	wzr,[x20,x21]
	b	8b
6:
	cmp	w27,#3
	b.hs	6f
	strh	wzr,[x20,x21]
	b	8b
6:
	cmp	w27,#3
	b.ne	7b
	add	x9,x20,x21
	strh	wzr,[x9]
	strb	wzr,[x9,#2]
	b	8b
2:
	add	x9,x1,#3
	and	x27,x9,#0xfffffffffffffffc
	cmp	x26,x27
	b.lo	1f
	subs	x9,x27,x1
	ldp	x22,x10,[sp,#56]
	b.eq	2f
	cmp	x9,#2
	b.eq	6f
	cmp	x9,#1
	b.ne	7f
	strb	wzr,[x20,x1]
	b	2f
6:
	strh	wzr,[x20,x1]
	b	2f
7:
	add	x9,x20,x1
	strb	wzr,[x9,#2]
	strh	wzr,[x9]
2:
	sub	x21,x27,x22
	cmp	w10,#33
	b.lo	2f
	mov	x0,x20
	mov	x1,x19
	mov	x2,x22
	bl	_rtp_92408dd3_rtp_route.copying.put_any
	ldr	x8,[sp,#424]
	ldr	x11,[sp,#80]
	ldp	w9,w12,[sp,#72]
	b	6f
2:
	ldr	q0,[x19]
	str	q0,[x20]
	cmp	w10,#17
	ldp	w9,w12,[sp,#72]
	b.lo	2f
	ldr	q0,[x19,#16]
	str	q0,[x20,#16]
2:
	ldr	q0,[x19,x10]
	str	q0,[x20,x10]
	ldr	x11,[sp,#80]
6:
	cmp	w12,w9
	b.eq	2f
	mov	w9,#16
	mov	w10,#-8514
	cmp	w12,#0
	csel	w9,w10,w9,eq
	add	x10,x20,x22
	sturh	w9,[x10,#-4]
2:
	lsl	w9,w21,#6
	bfxil	w9,w21,#10,#8
	add	x10,x20,x22
	sturh	w9,[x10,#-2]
	b	2f
1:
	ldrb	w8,[x8,#547]
5:
	cmp	w8,#1
	ldp	x23,x2,[sp,#32]
	ldr	w22,[sp,#72]
	ldr	w24,[sp,#28]
	b.ne	1f
4:
	stp	x19,x2,[sp,#240]
	str	x23,[sp,#256]
	strb	w24,[sp,#264]
	strb	w22,[sp,#265]
	add	x0,sp,#272
	add	x1,sp,#240
	add	x5,sp,#112
	ldr	x22,[sp,#424]
	mov	x2,x22
	mov	x3,x20
	ldr	x4,[sp,#48]
	bl	_rtp_92408dd3_rtp_route.making.make_by_calls_of.82187cbc7fdfa14b
	mov	x8,x22
	ldrb	w9,[sp,#272]
	ldr	x27,[sp,#280]
	ldr	x11,[sp,#80]
	cbz	w9,2f
	ldrb	w8,[sp,#288]
	ldrb	w9,[sp,#289]
	ldr	x10,[sp,#296]
	and	x11,x27,#0xff
	str	x11,[sp,#88]
	strb	w8,[sp,#96]
	strb	w9,[sp,#97]
	str	x10,[sp,#104]
	add	x0,sp,#88
	bl	_rtp_92408dd3_rtp_c.template.not_routed_status
	b	3b
1:
	stp	x19,x2,[sp,#328]
	str	x23,[sp,#344]
	strb	w22,[sp,#353]
	stp	xzr,xzr,[sp,#312]
	str	xzr,[sp,#304]
	add	x0,sp,#360
	add	x1,sp,#328
	mov	x21,x2
	add	x2,sp,#304
	add	x6,sp,#112
	ldr	x3,[sp,#424]
	mov	x4,x20
	ldr	x5,[sp,#48]
	bl	_rtp_92408dd3_rtp_route.by_walk.write_in_two_byte_form.82187cbc7fdfa14b
	mov	x2,x21
	ldrb	w8,[sp,#360]
	cmp	w8,#1
	b.ne	4b
	ldr	x27,[sp,#368]
	ldr	x11,[sp,#80]
	ldr	x8,[sp,#424]
2:
	ldrb	w8,[x8,#546]
	movi.2d	v0,#0000000000000000
	mov	x9,x11
	str	xzr,[x9,#71]!
	mov	x10,x9
	str	q0,[x10,#-67]!
	stur	q0,[x9,#-19]
	stur	q0,[x9,#-35]
	stur	q0,[x9,#-51]
	str	xzr,[x9,#8]
	cbz	w8,1f
	cmp	w8,#8
	b.lo	2f
	add	x12,x11,x8
	add	x12,x12,#71
	cmp	x10,x12
	b.hs	4f
	add	x10,x11,x8,lsl #2
	add	x10,x10,#4
	cmp	x9,x10
	b.hs	4f
2:
	mov	w12,#0
	mov	x10,#0
2:
	add	x13,sp,#112
	ldr	x13,[x13,x10,lsl #3]
	lsr	x14,x13,#32
	add	x15,x9,x10,lsl #2
	stur	w13,[x15,#-67]
	strb	w14,[x9,x10]
	add	w12,w12,w14
	add	x10,x10,#1
	cmp	x8,x10
	b.ne	2b
	b	5f
1:
	mov	w12,#0
5:
	mov	w0,#0
	str	w27,[x11]
	strh	w12,[x11,#68]
	strb	w8,[x11,#70]
	b	3b
4:
	cmp	w8,#32
	b.hs	1f
	mov	x10,#0
	mov	w12,#0
	b	3f
1:
	and	x10,x8,#0xe0
	ldp	q1,q0,[sp,#192]
	ldp	q3,q2,[sp,#160]
	ldp	q5,q4,[sp,#128]
	ldr	q6,[sp,#112]
	add	x12,sp,#112
	ldp	q7,q16,[x12,#112]
	ldp	q17,q18,[x12,#176]
	ldp	q24,q19,[x12,#224]
	uzp1.4s	v20,v6,v5
	uzp1.4s	v21,v4,v3
	uzp1.4s	v22,v2,v1
	ldr	q23,[x12,#208]
	uzp1.4s	v25,v0,v7
	uzp1.4s	v26,v24,v19
	uzp1.4s	v27,v18,v23
	ldp	q29,q28,[x12,#144]
	uzp1.4s	v30,v16,v29
	uzp1.4s	v31,v28,v17
	stur	q25,[x11,#52]
	uzp2.4s	v3,v4,v3
	stur	q22,[x11,#36]
	uzp2.4s	v4,v6,v5
	uzp2.4s	v0,v0,v7
	stur	q21,[x11,#20]
	uzp2.4s	v1,v2,v1
	stur	q20,[x11,#4]
	uzp1.8h	v0,v1,v0
	uzp1.8h	v1,v4,v3
	stur	q31,[x11,#84]
	uzp1.16b	v4,v1,v0
	stur	q30,[x11,#68]
	uzp2.4s	v3,v28,v17
	uzp2.4s	v5,v16,v29
	stur	q27,[x11,#100]
	uzp2.4s	v2,v24,v19
	stur	q26,[x11,#116]
	uzp2.4s	v6,v18,v23
	uzp1.8h	v2,v6,v2
	uzp1.8h	v3,v5,v3
	uzp1.16b	v5,v3,v2
	stur	q4,[x11,#71]
	stur	q5,[x11,#87]
	cmp	x10,#32
	b.eq	1f
	add	x11,sp,#112
	ldp	q5,q4,[x11,#256]
	ldp	q7,q6,[x11,#352]
	ldp	q17,q16,[x11,#320]
	ldp	q19,q18,[x11,#288]
	ldp	q21,q20,[x11,#448]
	ldp	q23,q22,[x11,#416]
	uzp1.4s	v24,v19,v18
	uzp1.4s	v25,v17,v16
	uzp1.4s	v26,v7,v6
	ldp	q28,q27,[x11,#384]
	uzp1.4s	v29,v5,v4
	uzp1.4s	v30,v28,v27
	uzp1.4s	v31,v23,v22
	uzp1.4s	v8,v21,v20
	ldp	q10,q9,[x11,#480]
	uzp1.4s	v11,v10,v9
	uzp2.4s	v18,v19,v18
	uzp2.4s	v4,v5,v4
	uzp2.4s	v5,v7,v6
	ldr	x11,[sp,#80]
	stur	q29,[x11,#132]
	stur	q26,[x11,#180]
	uzp2.4s	v6,v17,v16
	uzp1.8h	v5,v6,v5
	uzp1.8h	v4,v4,v18
	uzp1.16b	v6,v4,v5
	stur	q25,[x11,#164]
	uzp2.4s	v7,v23,v22
	stur	q24,[x11,#148]
	uzp2.4s	v16,v28,v27
	uzp2.4s	v17,v10,v9
	stur	q11,[x11,#244]
	uzp2.4s	v18,v21,v20
	stur	q8,[x11,#228]
	uzp1.8h	v17,v18,v17
	uzp1.8h	v7,v16,v7
	stur	q31,[x11,#212]
	uzp1.16b	v16,v7,v17
	stur	q30,[x11,#196]
	add.8h	v0,v0,v5
	add.8h	v1,v1,v4
	stur	q6,[x11,#103]
	add.8h	v2,v2,v17
	add.8h	v3,v3,v7
	stur	q16,[x11,#119]
	cmp	x10,#64
	b.eq	1f
	ldr	x12,[sp,#80]
	add	x11,x12,#260
	add	x13,sp,#112
	ldp	q5,q4,[x13,#608]
	ldp	q7,q6,[x13,#576]
	ldp	q17,q16,[x13,#544]
	ldp	q19,q18,[x13,#512]
	ldp	q21,q20,[x13,#704]
	ldp	q23,q22,[x13,#672]
	uzp1.4s	v24,v19,v18
	uzp1.4s	v25,v17,v16
	uzp1.4s	v26,v7,v6
	ldp	q28,q27,[x13,#640]
	uzp1.4s	v29,v5,v4
	uzp1.4s	v30,v28,v27
	uzp1.4s	v31,v23,v22
	uzp1.4s	v8,v21,v20
	ldp	q10,q9,[x13,#736]
	uzp1.4s	v11,v10,v9
	uzp2.4s	v16,v17,v16
	uzp2.4s	v17,v19,v18
	uzp2.4s	v4,v5,v4
	stp	q26,q29,[x11,#32]
	uzp2.4s	v5,v7,v6
	uzp1.8h	v4,v5,v4
	uzp1.8h	v5,v17,v16
	uzp1.16b	v6,v5,v4
	uzp2.4s	v7,v23,v22
	stp	q24,q25,[x11]
	uzp2.4s	v16,v28,v27
	uzp2.4s	v17,v10,v9
	uzp2.4s	v18,v21,v20
	stp	q8,q11,[x11,#96]
	uzp1.8h	v17,v18,v17
	uzp1.8h	v7,v16,v7
	uzp1.16b	v16,v7,v17
	stp	q30,q31,[x11,#64]
	add.8h	v0,v0,v4
	add.8h	v1,v1,v5
	stur	q6,[x12,#135]
	add.8h	v2,v2,v17
	add.8h	v3,v3,v7
	stur	q16,[x12,#151]
	cmp	x10,#96
	b.eq	1f
	add	x12,sp,#112
	ldp	q5,q4,[x12,#864]
	ldp	q7,q6,[x12,#832]
	ldp	q17,q16,[x12,#800]
	ldp	q19,q18,[x12,#768]
	ldp	q21,q20,[x12,#960]
	ldp	q23,q22,[x12,#928]
	uzp1.4s	v24,v19,v18
	uzp1.4s	v25,v17,v16
	uzp1.4s	v26,v7,v6
	ldp	q28,q27,[x12,#896]
	uzp1.4s	v29,v5,v4
	uzp1.4s	v30,v28,v27
	uzp1.4s	v31,v23,v22
	uzp1.4s	v8,v21,v20
	ldp	q10,q9,[x12,#992]
	uzp1.4s	v11,v10,v9
	uzp2.4s	v16,v17,v16
	uzp2.4s	v17,v19,v18
	uzp2.4s	v4,v5,v4
	stp	q26,q29,[x11,#160]
	uzp2.4s	v5,v7,v6
	uzp1.8h	v4,v5,v4
	uzp1.8h	v5,v17,v16
	uzp1.16b	v6,v5,v4
	uzp2.4s	v7,v23,v22
	stp	q24,q25,[x11,#128]
	uzp2.4s	v16,v28,v27
	uzp2.4s	v17,v10,v9
	uzp2.4s	v18,v21,v20
	stp	q8,q11,[x11,#224]
	uzp1.8h	v17,v18,v17
	uzp1.8h	v7,v16,v7
	uzp1.16b	v16,v7,v17
	stp	q30,q31,[x11,#192]
	add.8h	v0,v0,v4
	add.8h	v1,v1,v5
	ldr	x12,[sp,#80]
	stur	q6,[x12,#167]
	add.8h	v2,v2,v17
	add.8h	v3,v3,v7
	stur	q16,[x12,#183]
	cmp	x10,#128
	b.eq	1f
	add	x12,sp,#112
	ldr	q4,[x12,#1136]
	ldr	q5,[x12,#1120]
	ldr	q6,[x12,#1104]
	ldr	q7,[x12,#1088]
	ldr	q16,[x12,#1072]
	ldr	q17,[x12,#1056]
	ldr	q18,[x12,#1040]
	ldr	q19,[x12,#1024]
	ldr	q20,[x12,#1232]
	ldr	q21,[x12,#1216]
	ldr	q22,[x12,#1200]
	ldr	q23,[x12,#1184]
	uzp1.4s	v24,v19,v18
	uzp1.4s	v25,v17,v16
	uzp1.4s	v26,v7,v6
	ldr	q27,[x12,#1168]
	ldr	q28,[x12,#1152]
	uzp1.4s	v29,v5,v4
	uzp1.4s	v30,v28,v27
	uzp1.4s	v31,v23,v22
	uzp1.4s	v8,v21,v20
	ldr	q9,[x12,#1264]
	ldr	q10,[x12,#1248]
	uzp1.4s	v11,v10,v9
	uzp2.4s	v16,v17,v16
	uzp2.4s	v17,v19,v18
	uzp2.4s	v4,v5,v4
	stp	q26,q29,[x11,#288]
	uzp2.4s	v5,v7,v6
	uzp1.8h	v4,v5,v4
	uzp1.8h	v5,v17,v16
	uzp1.16b	v6,v5,v4
	uzp2.4s	v7,v23,v22
	stp	q24,q25,[x11,#256]
	uzp2.4s	v16,v28,v27
	uzp2.4s	v17,v10,v9
	uzp2.4s	v18,v21,v20
	stp	q8,q11,[x11,#352]
	uzp1.8h	v17,v18,v17
	uzp1.8h	v7,v16,v7
	uzp1.16b	v16,v7,v17
	stp	q30,q31,[x11,#320]
	add.8h	v0,v0,v4
	add.8h	v1,v1,v5
	ldr	x12,[sp,#80]
	stur	q6,[x12,#199]
	add.8h	v2,v2,v17
	add.8h	v3,v3,v7
	stur	q16,[x12,#215]
	cmp	x10,#160
	b.eq	1f
	add	x12,sp,#112
	ldr	q4,[x12,#1392]
	ldr	q5,[x12,#1376]
	ldr	q6,[x12,#1360]
	ldr	q7,[x12,#1344]
	ldr	q16,[x12,#1328]
	ldr	q17,[x12,#1312]
	ldr	q18,[x12,#1296]
	ldr	q19,[x12,#1280]
	ldr	q20,[x12,#1488]
	ldr	q21,[x12,#1472]
	ldr	q22,[x12,#1456]
	ldr	q23,[x12,#1440]
	uzp1.4s	v24,v19,v18
	uzp1.4s	v25,v17,v16
	uzp1.4s	v26,v7,v6
	ldr	q27,[x12,#1424]
	ldr	q28,[x12,#1408]
	uzp1.4s	v29,v5,v4
	uzp1.4s	v30,v28,v27
	uzp1.4s	v31,v23,v22
	uzp1.4s	v8,v21,v20
	ldr	q9,[x12,#1520]
	ldr	q10,[x12,#1504]
	uzp1.4s	v11,v10,v9
	uzp2.4s	v16,v17,v16
	uzp2.4s	v17,v19,v18
	uzp2.4s	v4,v5,v4
	stp	q26,q29,[x11,#416]
	uzp2.4s	v5,v7,v6
	uzp1.8h	v4,v5,v4
	uzp1.8h	v5,v17,v16
	uzp1.16b	v6,v5,v4
	uzp2.4s	v7,v23,v22
	stp	q24,q25,[x11,#384]
	uzp2.4s	v16,v28,v27
	uzp2.4s	v17,v10,v9
	uzp2.4s	v18,v21,v20
	stp	q8,q11,[x11,#480]
	uzp1.8h	v17,v18,v17
	uzp1.8h	v7,v16,v7
	uzp1.16b	v16,v7,v17
	stp	q30,q31,[x11,#448]
	add.8h	v0,v0,v4
	add.8h	v1,v1,v5
	ldr	x12,[sp,#80]
	stur	q6,[x12,#231]
	add.8h	v2,v2,v17
	add.8h	v3,v3,v7
	stur	q16,[x12,#247]
	cmp	x10,#192
	b.eq	1f
	add	x12,sp,#112
	ldr	q4,[x12,#1648]
	ldr	q5,[x12,#1632]
	ldr	q6,[x12,#1616]
	ldr	q7,[x12,#1600]
	ldr	q16,[x12,#1584]
	ldr	q17,[x12,#1568]
	ldr	q18,[x12,#1552]
	ldr	q19,[x12,#1536]
	ldr	q20,[x12,#1776]
	ldr	q21,[x12,#1760]
	ldr	q22,[x12,#1712]
	ldr	q23,[x12,#1696]
	uzp1.4s	v24,v19,v18
	uzp1.4s	v25,v17,v16
	ldr	q26,[x12,#1680]
	ldr	q27,[x12,#1664]
	uzp1.4s	v28,v7,v6
	uzp1.4s	v29,v5,v4
	uzp1.4s	v30,v27,v26
	uzp1.4s	v31,v23,v22
	ldr	q8,[x12,#1744]
	ldr	q9,[x12,#1728]
	uzp1.4s	v10,v9,v8
	uzp1.4s	v11,v21,v20
	uzp2.4s	v16,v17,v16
	uzp2.4s	v17,v19,v18
	stp	q28,q29,[x11,#544]
	uzp2.4s	v4,v5,v4
	uzp2.4s	v5,v7,v6
	uzp1.8h	v4,v5,v4
	uzp1.8h	v5,v17,v16
	uzp1.16b	v6,v5,v4
	uzp2.4s	v7,v23,v22
	stp	q24,q25,[x11,#512]
	uzp2.4s	v16,v27,v26
	uzp2.4s	v17,v21,v20
	uzp2.4s	v18,v9,v8
	stp	q10,q11,[x11,#608]
	uzp1.8h	v17,v18,v17
	uzp1.8h	v7,v16,v7
	uzp1.16b	v16,v7,v17
	stp	q30,q31,[x11,#576]
	add.8h	v0,v0,v4
	add.8h	v1,v1,v5
	stur	q6,[x11,#3]
	add.8h	v2,v2,v17
	add.8h	v3,v3,v7
	stur	q16,[x11,#19]
1:
	add.8h	v1,v3,v1
	add.8h	v0,v2,v0
	add.8h	v0,v1,v0
	addv.8h	h0,v0
	fmov	w12,s0
	cmp	x10,x8
	b.ne	1f
	ldr	x11,[sp,#80]
	b	5b
1:
	and	x13,x8,#0x18
	ldr	x11,[sp,#80]
	cbz	x13,2b
3:
	mov	x14,x10
	and	x10,x8,#0xf8
	movi.2d	v0,#0000000000000000
	mov.h	v0[0],w12
	sub	x12,x14,x10
	add	x13,x14,x11
	add	x13,x13,#71
	add	x11,x11,x14,lsl #2
	add	x11,x11,#4
	add	x15,sp,#112
	add	x14,x15,x14,lsl #3
1:
	ldp	q2,q1,[x14,#32]
	ldp	q4,q3,[x14],#64
	uzp1.4s	v5,v4,v3
	uzp1.4s	v6,v2,v1
	ushr.2d	v19,v1,#32
	ushr.2d	v18,v2,#32
	ushr.2d	v17,v3,#32
	ushr.2d	v16,v4,#32
	stp	q5,q6,[x11],#32
Lrtp_92408dd3_loh162:
	adrp	x15,lrtp_92408dd3_CPI154_0@PAGE
Lrtp_92408dd3_loh163:
	ldr	q5,[x15,lrtp_92408dd3_CPI154_0@PAGEOFF]
	tbl.16b	v5,{ v16,v17,v18,v19 },v5
	str	d5,[x13],#8
	uzp2.4s	v1,v2,v1
	uzp2.4s	v2,v4,v3
	uzp1.8h	v1,v2,v1
	add.8h	v0,v0,v1
	adds	x12,x12,#8
	b.ne	1b
	addv.8h	h0,v0
	fmov	w12,s0
	cmp	x10,x8
	ldr	x11,[sp,#80]
	b.ne	2b
	b	5b
	.loh AdrpLdr	Lrtp_92408dd3_loh162,Lrtp_92408dd3_loh163
	.cfi_endproc

	.section	__TEXT,__literal16,16byte_literals
	.p2align	4,0x0
lrtp_92408dd3_CPI155_0:
	.byte	0
	.byte	8
	.byte	16
	.byte	24
	.byte	32
	.byte	40
	.byte	48
	.byte	56
	.byte	255
	.byte	255
	.byte	255
	.byte	255
	.byte	255
	.byte	255
	.byte	255
	.byte	255
	.section	__TEXT,__text,regular,pure_instructions
	.globl	_rtp_92408dd3_rtpw_make_template
	.p2align	2
_rtp_92408dd3_rtpw_make_template:
	.cfi_startproc
	str	x27,[sp,#-96]!
	stp	x26,x25,[sp,#16]
	stp	x24,x23,[sp,#32]
	stp	x22,x21,[sp,#48]
	stp	x20,x19,[sp,#64]
	stp	x29,x30,[sp,#80]
	sub	sp,sp,#1136
	str	xzr,[sp]
	.cfi_def_cfa_offset 1232
	.cfi_offset w30,-8
	.cfi_offset w29,-16
	.cfi_offset w19,-24
	.cfi_offset w20,-32
	.cfi_offset w21,-40
	.cfi_offset w22,-48
	.cfi_offset w23,-56
	.cfi_offset w24,-64
	.cfi_offset w25,-72
	.cfi_offset w26,-80
	.cfi_offset w27,-96
	and	w8,w7,#0xff
	ldr	x26,[sp,#1232]
	mov	w11,#4096
	cmp	x0,#0
	csel	x9,x11,xzr,eq
	cmp	x3,#0
	csel	x10,x11,xzr,eq
	str	xzr,[sp,#312]
	stp	xzr,xzr,[sp,#128]
	cmp	x5,#0
	csel	x12,x11,xzr,eq
	cmp	x26,#0
	csel	x22,x11,xzr,eq
	str	xzr,[sp,#120]
	cmp	w8,#2
	b.hi	1f
	cmp	x6,#16
	b.hi	1f
	add	x8,sp,#960
	add	x13,sp,#320
	add	x11,sp,#144
	ldr	x25,[sp,#1248]
	ldr	x21,[sp,#1240]
	add	x20,x0,x9
	add	x15,x3,x10
	add	x14,x5,x12
	add	x19,x26,x22
	ubfiz	x10,x7,#3,#5
	mov	w9,#256
	movk	w9,#1,lsl #16
	lsr	w9,w9,w10
	and	w9,w9,#0x1
	mov	w16,#65536
	lsr	w10,w16,w10
	add	x16,x6,#1
	add	x17,x5,x12
2:
	subs	x16,x16,#1
	b.eq	3f
	ldr	x0,[x17]
	subs	x0,x4,x0
	b.lo	1f
	ldr	x3,[x17,#8]
	add	x17,x17,#32
	cmp	x3,x0
	b.ls	2b
1:
	mov	w0,#9
1:
	add	sp,sp,#1136
	ldp	x29,x30,[sp,#80]
	ldp	x20,x19,[sp,#64]
	ldp	x22,x21,[sp,#48]
	ldp	x24,x23,[sp,#32]
	ldp	x26,x25,[sp,#16]
	ldr	x27,[sp],#96
	ret
3:
	cmp	x1,#12
	b.hs	2f
	mov	w0,#1
	b	1b
2:
	ldrsb	w16,[x20]
	cmn	w16,#65
	b.gt	2f
	and	x16,x16,#0xff
	ubfiz	x23,x16,#2,#4
	add	x24,x23,#12
	subs	x17,x1,x24
	b.hs	3f
	mov	w0,#3
	b	1b
2:
	mov	w0,#2
	b	1b
3:
	tbnz	w16,#4,2f
	str	x25,[sp,#96]
	mov	w30,#0
	mov	w3,#0
3:
	strb	wzr,[sp,#320]
	ldur	q0,[x2,#193]
	stur	q0,[x13,#193]
	ldur	q0,[x2,#209]
	stur	q0,[x13,#209]
	ldur	q0,[x2,#225]
	stur	q0,[x13,#225]
	ldr	q0,[x2,#240]
	str	q0,[x13,#240]
	ldur	q0,[x2,#129]
	stur	q0,[x13,#129]
	ldur	q0,[x2,#145]
	stur	q0,[x13,#145]
	ldur	q0,[x2,#161]
	stur	q0,[x13,#161]
	ldur	q0,[x2,#177]
	stur	q0,[x13,#177]
	ldur	q0,[x2,#65]
	stur	q0,[x13,#65]
	ldur	q0,[x2,#81]
	stur	q0,[x13,#81]
	ldur	q0,[x2,#97]
	stur	q0,[x13,#97]
	ldur	q0,[x2,#113]
	stur	q0,[x13,#113]
	ldur	q0,[x2,#1]
	stur	q0,[x13,#1]
	ldur	q0,[x2,#17]
	stur	q0,[x13,#17]
	ldur	q0,[x2,#33]
	stur	q0,[x13,#33]
	ldur	q0,[x2,#49]
	stur	q0,[x13,#49]
	add	x16,sp,#320
	stp	x16,x15,[sp,#272]
	stp	x4,x14,[sp,#288]
	str	x6,[sp,#304]
	strb	w9,[sp,#312]
	strb	w10,[sp,#313]
	movi.2d	v0,#0000000000000000
	stp	q0,q0,[sp,#144]
	stp	q0,q0,[sp,#176]
	stp	q0,q0,[sp,#208]
	str	q0,[sp,#240]
	str	q0,[x11,#112]
	stp	q0,q0,[x13,#544]
	str	xzr,[sp,#600]
	stp	q0,q0,[x13,#288]
	stp	q0,q0,[x13,#320]
	stp	q0,q0,[x13,#352]
	stp	q0,q0,[x13,#384]
	stp	q0,q0,[x13,#416]
	stp	q0,q0,[x13,#448]
	stp	q0,q0,[x13,#480]
	stp	q0,q0,[x13,#512]
	mov	x13,#0
	cbz	x6,4f
	add	x14,x12,x5
	add	x14,x14,#24
5:
	ldrb	w15,[x14],#32
	add	x16,sp,#608
	ldrb	w17,[x16,x15]
	cbnz	w17,6f
	add	w17,w13,#1
	strb	w17,[x16,x15]
	add	x13,x13,#1
	cmp	x6,x13
	b.ne	5b
	mov	x13,#0
	add	x12,x12,x5
	add	x14,x12,#24
	mov	w12,#1
	mov	x15,x6
5:
	ldur	x16,[x14,#-16]
	ldrb	w17,[x14],#32
	cmp	x16,#255
	ccmp	w17,#0,#4,ls
	b.eq	7f
	sub	x0,x16,#1
	cmp	w17,#15
	ccmp	x0,#16,#2,lo
	cset	w17,lo
	and	w12,w17,w12
	add	x13,x13,x16
	add	x13,x13,#2
	subs	x15,x15,#1
	b.ne	5b
	b	5f
2:
	subs	x0,x17,#4
	b.hs	2f
	mov	w0,#4
	b	1b
2:
	add	x17,x20,x24
	ldrb	w16,[x17,#2]
	ldrb	w3,[x17,#3]
	lsl	x16,x16,#10
	orr	x16,x16,x3,lsl #2
	cmp	x0,x16
	b.hs	2f
	mov	w0,#6
	b	1b
4:
	mov	w12,#1
5:
	add	x14,sp,#272
	add	x15,sp,#608
	str	x14,[sp,#960]
	str	x15,[sp,#968]
	str	x13,[sp,#976]
	strb	w12,[sp,#984]
	stur	wzr,[x8,#25]
	str	wzr,[sp,#988]
	str	xzr,[sp,#952]
	str	xzr,[sp,#944]
	str	xzr,[sp,#920]
	str	xzr,[sp,#1096]
	str	xzr,[sp,#1080]
	str	xzr,[sp,#1088]
	mov	w12,#1
	str	x12,[sp,#1040]
	str	q0,[x11,#112]
	stp	q0,q0,[sp,#224]
	stp	q0,q0,[sp,#192]
	stp	q0,q0,[sp,#160]
	str	q0,[sp,#144]
	cbz	w30,4f
	add	w14,w23,#16
	sub	x11,x24,x14
	cmp	x11,#256
	b.hi	4f
	add	x15,sp,#960
	ldur	q0,[x15,#8]
	stur	q0,[x8,#96]
	ldur	x11,[x15,#24]
	str	x11,[sp,#1072]
	mov	w12,#262140
	cmp	x21,x12
	csel	x16,x21,x12,lo
	lsl	x12,x24,#1
	add	x12,x12,#3
	subs	x12,x16,x12
	csel	x12,xzr,x12,lo
	str	x1,[sp,#56]
	b.lo	5f
	ldr	x13,[sp,#1064]
	cmp	x12,x13
	b.lo	5f
	ldur	q0,[x8,#96]
	mov	x13,x3
	cbz	x6,8f
	tst	w11,#0x1
	csinc	w13,w3,wzr,ne
	and	w12,w7,#0xff
	cbz	w12,8f
	cmp	w12,#2
	b.eq	9f
	mov	x12,x13
	mov	x13,x10
	tbz	w12,#0,8f
	b	5f
2:
	str	x25,[sp,#96]
	ldrh	w17,[x17]
	and	w0,w17,#0xfffff0ff
	cmp	w0,#16
	cset	w3,eq
	mov	w0,#57022
	cmp	w17,w0
	csinc	w30,w3,wzr,ne
	add	x16,x24,x16
	add	x24,x16,#4
	b	3b
9:
	mov	x13,x10
8:
	str	w13,[sp,#1148]
	str	w30,[sp,#44]
	stp	x23,x6,[sp,#64]
	add	x9,sp,#272
	stur	q0,[x8,#152]
	str	x9,[sp,#1104]
	str	x11,[sp,#1128]
	add	x8,sp,#144
	str	x8,[sp]
	add	x0,x26,x22
	add	w2,w23,#16
	add	x5,x20,x14
	str	x24,[sp,#48]
	str	x14,[sp,#88]
	sub	x6,x24,x14
	add	x7,sp,#1104
	mov	x1,x16
	str	w3,[sp,#1144]
	mov	w4,w13
	str	x16,[sp,#112]
	bl	_rtp_92408dd3_rtp_route.walk.write_kept.687967002a58489c
	ldr	x16,[sp,#112]
	ldr	w15,[sp,#1148]
	tbz	w0,#0,2f
	ldr	x2,[sp,#304]
	cbz	x2,3f
	mov	x23,#0
	ldr	x27,[sp,#280]
	ldr	x0,[sp,#296]
	add	x8,x22,x26
	str	x8,[sp,#104]
	add	x9,x8,#32
	add	x8,x27,#32
	stp	x8,x9,[sp,#24]
	str	x21,[sp,#80]
	b	8f
9:
	ldrb	w8,[x8]
	strb	w8,[x19,x25]
10:
	add	x1,x25,x26
	stp	w25,w26,[x22]
11:
	add	x23,x23,#1
	cmp	x23,x2
	b.eq	3f
8:
	add	x8,sp,#144
	add	x22,x8,x23,lsl #3
	ldr	w8,[x22]
	cbnz	w8,11b
	add	x8,x0,x23,lsl #5
	ldr	x26,[x8,#8]
	add	x9,x1,x26
	add	x9,x9,#2
	cmp	x16,x9
	b.lo	2f
	ldr	x9,[x8]
	ldrb	w8,[x8,#24]
	tst	w15,#0xff
	b.eq	8f
	add	x10,x19,x1
	strb	w8,[x10]
	strb	w26,[x10,#1]
	mov	w10,#2
	b	11f
8:
	lsr	w10,w8,#4
	orr	w8,w10,w8,lsl #4
	add	w8,w26,w8
	sub	w8,w8,#1
	strb	w8,[x19,x1]
	mov	w10,#1
11:
	add	x8,x27,x9
	add	x25,x10,x1
	cbz	x26,8f
	cmp	x26,#1
	b.eq	9b
	cmp	x26,#2
	b.hi	9f
	ldrb	w9,[x8]
	add	x10,x19,x25
	strb	w9,[x10]
	ldrb	w8,[x8,#1]
	strb	w8,[x10,#1]
	b	10b
9:
	cmp	x26,#3
	b.ne	8f
	ldrb	w9,[x8]
	add	x10,x19,x25
	strb	w9,[x10]
	ldrb	w9,[x8,#1]
	strb	w9,[x10,#1]
	ldrb	w8,[x8,#2]
	strb	w8,[x10,#2]
	b	10b
8:
	add	x11,x19,x25
	sub	x11,x11,x8
	cmp	x11,x26
	b.hs	8f
	cmp	x26,#8
	b.lo	9f
	ldr	x8,[sp,#104]
	add	x8,x8,x1
	add	x8,x8,x10
	sub	x8,x8,x27
	sub	x8,x8,x9
	cmp	x8,#64
	b.hs	11f
9:
	mov	x8,#0
9:
	sub	x11,x26,x8
	add	x9,x8,x9
	add	x9,x27,x9
	add	x8,x8,x1
	add	x8,x8,x10
	ldr	x10,[sp,#104]
	add	x8,x10,x8
12:
	ldrb	w10,[x9],#1
	strb	w10,[x8],#1
	subs	x11,x11,#1
	b.ne	12b
	b	10b
8:
	mov	x21,x0
	add	x0,x19,x25
	mov	x1,x8
	mov	x24,x19
	mov	x19,x20
	mov	x20,x2
	mov	x2,x26
	bl	_memmove
	mov	x2,x20
	mov	x20,x19
	mov	x19,x24
	mov	x0,x21
	ldr	x21,[sp,#80]
	ldr	x16,[sp,#112]
	ldr	w15,[sp,#1148]
	b	10b
11:
	cmp	x26,#64
	b.hs	8f
	mov	x8,#0
	b	11f
8:
	and	x11,x26,#0x38
	and	x8,x26,#0xffffffffffffffc0
	ldp	x13,x12,[sp,#24]
	add	x12,x12,x25
	add	x13,x13,x9
	and	x14,x26,#0xffffffffffffffc0
8:
	ldp	q0,q1,[x13,#-32]
	ldp	q2,q3,[x13],#64
	stp	q0,q1,[x12,#-32]
	stp	q2,q3,[x12],#64
	subs	x14,x14,#64
	b.ne	8b
	cmp	x26,x8
	b.eq	10b
	cbz	x11,9b
11:
	mov	x13,x8
	and	x8,x26,#0xfffffffffffffff8
	sub	x11,x13,x8
	add	x12,x13,x9
	add	x12,x27,x12
	add	x13,x1,x13
	add	x13,x13,x10
	ldr	x14,[sp,#104]
	add	x13,x14,x13
8:
	ldr	d0,[x12],#8
	str	d0,[x13],#8
	adds	x11,x11,#8
	b.ne	8b
	cmp	x26,x8
	b.eq	10b
	b	9b
3:
	add	x8,x1,#3
	and	x22,x8,#0xfffffffffffffffc
	cmp	x16,x22
	b.lo	2f
	subs	x8,x22,x1
	ldr	x10,[sp,#64]
	ldr	x2,[sp,#88]
	b.eq	3f
	cmp	x8,#2
	b.eq	8f
	cmp	x8,#1
	b.ne	9f
	strb	wzr,[x19,x1]
	b	3f
8:
	strh	wzr,[x19,x1]
	b	3f
9:
	add	x8,x19,x1
	strb	wzr,[x8,#2]
	strh	wzr,[x8]
3:
	sub	x21,x22,x2
	cmp	w10,#33
	b.lo	3f
	mov	x0,x19
	mov	x1,x20
	bl	_rtp_92408dd3_rtp_route.copying.put_any
	ldr	x2,[sp,#88]
	ldr	w15,[sp,#1148]
	ldr	x8,[sp,#72]
	ldr	w9,[sp,#1144]
	b	8f
3:
	ldr	q0,[x20]
	str	q0,[x19]
	cmp	w10,#17
	ldr	w9,[sp,#1144]
	b.lo	3f
	ldr	q0,[x20,#16]
	str	q0,[x19,#16]
3:
	ldr	q0,[x20,x10]
	str	q0,[x19,x10]
	ldr	x8,[sp,#72]
8:
	ldr	x16,[sp,#96]
	cmp	w9,w15,uxtb
	b.eq	3f
	tst	w15,#0xff
	mov	w9,#16
	mov	w10,#-8514
	csel	w9,w10,w9,eq
	add	x10,x19,x2
	sturh	w9,[x10,#-4]
3:
	mov	x9,#0
	mov	w11,#0
	lsl	w10,w21,#6
	bfxil	w10,w21,#10,#8
	add	x12,x19,x2
	sturh	w10,[x12,#-2]
	mov	w10,#1
	b	3f
4:
	mov	x23,x6
	b	4f
2:
	ldrb	w9,[sp,#312]
	ldrb	w10,[sp,#313]
	ldr	x6,[sp,#72]
	ldr	w3,[sp,#1144]
	ldr	x24,[sp,#48]
	ldr	w30,[sp,#44]
	add	x15,sp,#960
5:
	cmp	w9,#1
	and	w8,w10,#0xff
	mov	x23,x6
	ccmp	w8,#0,#0,eq
	b.eq	2f
	add	x8,sp,#1048
	str	x20,[sp,#1016]
	ldr	x22,[sp,#56]
	str	x22,[sp,#1024]
	str	x24,[sp,#1032]
	strb	w3,[sp,#1041]
	str	xzr,[sp,#1008]
	str	xzr,[sp,#992]
	str	xzr,[sp,#1000]
	add	x9,sp,#272
	str	x9,[sp,#1048]
	ldur	q0,[x15,#8]
	stur	q0,[x8,#8]
	ldur	x9,[x15,#24]
	stur	x9,[x8,#24]
	add	x0,sp,#1080
	add	x1,sp,#1016
	add	x2,sp,#992
	mov	x25,x24
	mov	x24,x3
	add	x3,sp,#1048
	add	x6,sp,#144
	mov	x4,x19
	mov	x5,x21
	mov	x26,x30
	bl	_rtp_92408dd3_rtp_route.by_walk.write_in_two_byte_form.687967002a58489c
	mov	x30,x26
	mov	x3,x24
	mov	x24,x25
	mov	x1,x22
	ldrb	w8,[sp,#1080]
	cmp	w8,#1
	b.ne	4f
	mov	x9,#0
	mov	w11,#0
	ldr	x22,[sp,#1088]
	ldrb	w10,[sp,#1096]
	ldrb	w15,[sp,#1097]
	b	5f
2:
	ldr	x1,[sp,#56]
4:
	str	x20,[sp,#896]
	str	x1,[sp,#904]
	str	x24,[sp,#912]
	strb	w30,[sp,#920]
	strb	w3,[sp,#921]
	add	x0,sp,#928
	add	x1,sp,#896
	add	x2,sp,#960
	add	x5,sp,#144
	mov	x3,x19
	mov	x4,x21
	bl	_rtp_92408dd3_rtp_route.making.make_by_calls_of.687967002a58489c
	ldrb	w11,[sp,#928]
	ldr	x22,[sp,#936]
	ldrb	w10,[sp,#944]
	ldrb	w15,[sp,#945]
	ldr	x9,[sp,#952]
5:
	mov	x8,x23
2:
	ldr	x16,[sp,#96]
3:
	cbnz	w11,3f
	movi.2d	v0,#0000000000000000
	mov	x11,x16
	str	q0,[x11,#4]!
	stp	q0,q0,[x11,#32]
	str	q0,[x11,#16]
	mov	x9,x11
	str	xzr,[x9,#67]!
	stur	xzr,[x11,#75]
	cbz	x8,4f
	cmp	x8,#8
	b.lo	5f
	add	x10,x16,x8
	add	x10,x10,#71
	cmp	x11,x10
	b.hs	8f
	add	x10,x16,x8,lsl #2
	add	x10,x10,#4
	cmp	x9,x10
	b.hs	8f
5:
	mov	w11,#0
	mov	x10,#0
	b	5f
4:
	mov	w11,#0
	b	4f
8:
	and	x10,x8,#0x18
	add	x12,sp,#144
	mov	x13,x9
	and	x14,x8,#0x18
8:
	ldp	q2,q1,[x12,#32]
	ldp	q4,q3,[x12],#64
	uzp1.4s	v5,v4,v3
	uzp1.4s	v6,v2,v1
	ushr.2d	v19,v1,#32
	ushr.2d	v18,v2,#32
	ushr.2d	v17,v3,#32
	ushr.2d	v16,v4,#32
	stp	q5,q6,[x11],#32
Lrtp_92408dd3_loh164:
	adrp	x15,lrtp_92408dd3_CPI155_0@PAGE
Lrtp_92408dd3_loh165:
	ldr	q5,[x15,lrtp_92408dd3_CPI155_0@PAGEOFF]
	tbl.16b	v5,{ v16,v17,v18,v19 },v5
	str	d5,[x13],#8
	uzp2.4s	v1,v2,v1
	uzp2.4s	v2,v4,v3
	uzp1.8h	v1,v2,v1
	add.8h	v0,v0,v1
	subs	x14,x14,#8
	b.ne	8b
	addv.8h	h0,v0
	fmov	w11,s0
	b	8f
6:
	mov	x9,#0
	mov	w15,#0
	mov	w10,#0
	mov	w22,#1
3:
	and	x8,x22,#0xff
	str	x8,[sp,#120]
	strb	w10,[sp,#128]
	strb	w15,[sp,#129]
	str	x9,[sp,#136]
	add	x0,sp,#120
	bl	_rtp_92408dd3_rtp_c.template.not_routed_status
	b	1b
7:
	str	x20,[sp,#576]
	str	x1,[sp,#584]
	str	x24,[sp,#592]
	strb	w30,[sp,#600]
	strb	w3,[sp,#601]
	add	x0,sp,#864
	add	x1,sp,#576
	add	x2,sp,#272
	add	x5,sp,#144
	mov	x3,x19
	mov	x4,x21
	mov	x19,x6
	bl	_rtp_92408dd3_rtp_route.making.make_by_calls.d57726891005992a
	mov	x8,x19
	ldr	x22,[sp,#872]
	ldrb	w10,[sp,#880]
	ldrb	w15,[sp,#881]
	ldr	x9,[sp,#888]
	ldrb	w11,[sp,#864]
	b	2b
5:
	add	x12,sp,#144
	ldr	x12,[x12,x10,lsl #3]
	lsr	x13,x12,#32
	add	x14,x9,x10,lsl #2
	stur	w12,[x14,#-67]
	strb	w13,[x9,x10]
	add	w11,w11,w13
	add	x10,x10,#1
8:
	cmp	x8,x10
	b.ne	5b
4:
	mov	w0,#0
	str	w22,[x16]
	strh	w11,[x16,#68]
	strb	w8,[x16,#70]
	b	1b
	.loh AdrpLdr	Lrtp_92408dd3_loh164,Lrtp_92408dd3_loh165
	.cfi_endproc

	.globl	_rtp_92408dd3_rtpw_receiver_receive
	.p2align	2
_rtp_92408dd3_rtpw_receiver_receive:
	.cfi_startproc
	ldr	x8,[x0]
	ldrb	w9,[x0,#24]
	cmn	x8,#1
	ccmp	w9,#1,#0,ne
	b.ne	1f
	add	x8,x8,#1
	and	w9,w1,#0xffff
	cmp	w9,w8,uxth
	b.ne	1f
	ldp	x10,x9,[x0,#8]
	lsl	x11,x10,#1
	extr	x9,x9,x10,#63
	orr	x10,x11,#0x3
	stp	x8,x10,[x0]
	str	x9,[x0,#16]
	str	x8,[x2]
	mov	w0,#0
	ret
1:
	b	_rtp_92408dd3_rtp_c.receiver.receive_any
	.cfi_endproc

	.globl	_rtp_92408dd3_rtpw_receive_many
	.p2align	2
_rtp_92408dd3_rtpw_receive_many:
	.cfi_startproc
	mov	w9,#4096
	cmp	x0,#0
	csel	x8,x9,xzr,eq
	cmp	x2,#0
	csel	x9,x9,xzr,eq
	cbz	x3,1f
	stp	x22,x21,[sp,#-48]!
	stp	x20,x19,[sp,#16]
	stp	x29,x30,[sp,#32]
	.cfi_def_cfa_offset 48
	.cfi_offset w30,-8
	.cfi_offset w29,-16
	.cfi_offset w19,-24
	.cfi_offset w20,-32
	.cfi_offset w21,-40
	.cfi_offset w22,-48
	mov	x19,x3
	mov	x20,x1
	add	x21,x0,x8
	add	x8,x9,x2
	add	x22,x8,#20
	b	2f
3:
	mov	w8,#9
	str	w8,[x22],#24
	subs	x19,x19,#1
	b.eq	4f
2:
	ldur	x8,[x22,#-20]
	cmp	x20,x8
	b.ls	3b
	add	x0,x21,x8,lsl #5
	ldurh	w1,[x22,#-4]
	sub	x8,x22,#12
	ldr	x9,[x0]
	ldrb	w10,[x0,#24]
	cmn	x9,#1
	ccmp	w10,#1,#0,ne
	b.ne	3f
	add	x9,x9,#1
	cmp	w1,w9,uxth
	b.ne	3f
	ldp	x12,x11,[x0,#8]
	extr	x11,x11,x12,#63
	lsl	x12,x12,#1
	orr	x12,x12,#0x3
	stp	x9,x12,[x0]
	str	x11,[x0,#16]
	mov	w0,#0
	str	x9,[x8]
	str	w0,[x22],#24
	subs	x19,x19,#1
	b.ne	2b
	b	4f
3:
	sub	x2,x22,#12
	bl	_rtp_92408dd3_rtp_c.receiver.receive_any
	str	w0,[x22],#24
	subs	x19,x19,#1
	b.ne	2b
4:
	ldp	x29,x30,[sp,#32]
	ldp	x20,x19,[sp,#16]
	ldp	x22,x21,[sp],#48
1:
	ret
	.cfi_endproc

	.globl	_rtp_92408dd3_rtpw_wide_receiver_receive
	.p2align	2
_rtp_92408dd3_rtpw_wide_receiver_receive:
	.cfi_startproc
	mov	w8,#4096
	cmp	x1,#0
	csel	x8,x8,xzr,eq
	sub	x9,x2,#1
	cmp	x9,#511
	b.hi	1f
	add	x1,x1,x8
	ldrb	w9,[x0,#8]
	ldr	x8,[x0]
	cbz	w9,2f
	sub	w9,w3,w8
	sxth	w10,w9
	add	x11,x8,w9,uxth
	cmn	w10,#8,lsl #12
	and	x10,x8,#0x8000
	ccmp	x10,#0,#0,eq
	mov	x10,#-65536
	csel	x10,xzr,x10,eq
	add	x10,x10,x11
	tst	w9,#0x8000
	csel	x3,x11,x10,eq
	sub	x9,x3,x8
	eor	x10,x3,x8
	cmp	x10,#63
	ccmp	x3,x8,#0,ls
	ccmp	x9,#1,#0,hi
	b.ne	3f
	cmp	x2,#16
	b.ne	4f
	mov	w9,#1
	lsl	x9,x9,x8
	lsr	x8,x8,#3
	and	x8,x8,#0x78
	ldr	x10,[x1,x8]
	orr	x9,x10,x9
	str	x9,[x1,x8]
	ubfx	x8,x3,#6,#4
	b	5f
1:
	mov	w0,#9
	ret
2:
	bfxil	x8,x3,#0,#16
	mov	x3,x8
3:
	b	_rtp_92408dd3_rtp_c.wide_receiver.receive_other
4:
	lsr	x9,x8,#6
	udiv	x10,x9,x2
	msub	x9,x10,x2,x9
	mov	w10,#1
	lsl	x8,x10,x8
	ldr	x10,[x1,x9,lsl #3]
	orr	x8,x10,x8
	str	x8,[x1,x9,lsl #3]
	lsr	x8,x3,#6
	udiv	x9,x8,x2
	msub	x8,x9,x2,x8
5:
	mov	w10,#1
	ldr	x11,[x1,x8,lsl #3]
	lsl	x12,x10,x3
	orr	x11,x11,x12
	str	x11,[x1,x8,lsl #3]
	str	x3,[x0]
	strb	w10,[x0,#8]
	mov	w0,#0
	str	x3,[x4]
	ret
	.cfi_endproc

	.globl	_rtp_92408dd3_rtpw_wide_receiver_record
	.p2align	2
_rtp_92408dd3_rtpw_wide_receiver_record:
	.cfi_startproc
	mov	w8,#4096
	cmp	x1,#0
	csel	x8,x8,xzr,eq
	sub	x9,x2,#1
	cmp	x9,#511
	b.hi	1f
	stp	x22,x21,[sp,#-48]!
	stp	x20,x19,[sp,#16]
	stp	x29,x30,[sp,#32]
	.cfi_def_cfa_offset 48
	.cfi_offset w30,-8
	.cfi_offset w29,-16
	.cfi_offset w19,-24
	.cfi_offset w20,-32
	.cfi_offset w21,-40
	.cfi_offset w22,-48
	add	x19,x1,x8
	ldrb	w8,[x0,#8]
	cbz	w8,2f
	ldr	x8,[x0]
	subs	x9,x8,x3
	b.ne	3f
4:
	mov	w0,#10
	ldp	x29,x30,[sp,#32]
	ldp	x20,x19,[sp,#16]
	ldp	x22,x21,[sp],#48
	ret
1:
	mov	w0,#9
	ret
2:
	mov	x20,x0
	mov	x0,x19
	mov	x1,x2
	mov	x2,x3
	mov	x19,x3
	bl	_rtp_92408dd3_rtp_base.ring.ring_start
	mov	x3,x19
	mov	x0,x20
1:
	str	x3,[x0]
	mov	w9,#1
	strb	w9,[x0,#8]
	mov	w0,#0
	ldp	x29,x30,[sp,#32]
	ldp	x20,x19,[sp,#16]
	ldp	x22,x21,[sp],#48
	ret
3:
	b.hs	2f
3:
	lsr	x9,x8,#6
	udiv	x10,x9,x2
	msub	x9,x10,x2,x9
	ubfx	x10,x8,#6,#4
	cmp	x2,#16
	csel	x9,x9,x10,ne
	mov	w10,#1
	lsl	x10,x10,x8
	ldr	x11,[x19,x9,lsl #3]
	orr	x10,x11,x10
	str	x10,[x19,x9,lsl #3]
	subs	x9,x8,x3
	b.hs	5f
	sub	x9,x3,x8
	cmp	x9,#2
	b.lo	6f
	mov	x20,x2
	add	x2,x8,#1
	mov	x22,x0
	mov	x0,x19
	mov	x1,x20
	mov	x21,x3
	bl	_rtp_92408dd3_rtp_base.ring.clear
	mov	x2,x20
	mov	x3,x21
	mov	x0,x22
6:
	cmp	x2,#16
	b.ne	6f
	ubfx	x8,x3,#6,#4
	b	7f
2:
	cmp	x2,x9,lsr #6
	b.ls	4b
	lsr	x9,x3,#6
	udiv	x10,x9,x2
	msub	x9,x10,x2,x9
	ubfx	x10,x3,#6,#4
	cmp	x2,#16
	csel	x9,x9,x10,ne
	ldr	x9,[x19,x9,lsl #3]
	lsr	x9,x9,x3
	tbnz	w9,#0,4b
	b	3b
5:
	cmp	x2,x9,lsr #6
	b.ls	2f
	lsr	x10,x3,#6
	mov	w9,#1
	lsl	x9,x9,x3
	cmp	x2,#16
	b.ne	3f
	ubfiz	x10,x10,#3,#4
	b	4f
6:
	lsr	x8,x3,#6
	udiv	x9,x8,x2
	msub	x8,x9,x2,x8
7:
	mov	w9,#1
	lsl	x9,x9,x3
	ldr	x10,[x19,x8,lsl #3]
	orr	x9,x10,x9
	str	x9,[x19,x8,lsl #3]
	b	1b
3:
	udiv	x11,x10,x2
	msub	x10,x11,x2,x10
	lsl	x10,x10,#3
4:
	ldr	x11,[x19,x10]
	tst	x11,x9
	b.ne	2f
	orr	x9,x11,x9
	str	x9,[x19,x10]
2:
	mov	x3,x8
	b	1b
	.cfi_endproc

	.globl	_rtp_92408dd3_rtpw_restarting_receive
	.p2align	2
_rtp_92408dd3_rtpw_restarting_receive:
	.cfi_startproc
	sub	sp,sp,#160
	stp	x24,x23,[sp,#96]
	stp	x22,x21,[sp,#112]
	stp	x20,x19,[sp,#128]
	stp	x29,x30,[sp,#144]
	.cfi_def_cfa_offset 160
	.cfi_offset w30,-8
	.cfi_offset w29,-16
	.cfi_offset w19,-24
	.cfi_offset w20,-32
	.cfi_offset w21,-40
	.cfi_offset w22,-48
	.cfi_offset w23,-56
	.cfi_offset w24,-64
	mov	x19,x2
	mov	x20,x0
	str	xzr,[sp,#40]
	ldrb	w11,[x0,#30]
	cbz	w11,1f
	ldr	x21,[x20]
	ldur	q0,[x20,#8]
	str	q0,[sp,#48]
	mov	w8,#1
	lsl	x9,x8,x21
	lsr	x10,x21,#3
	and	x10,x10,#0x8
	add	x12,sp,#48
	orr	x10,x12,x10
	ldr	x12,[x10]
	orr	x9,x12,x9
	str	x9,[x10]
	b	2f
1:
	mov	x8,#0
	stp	xzr,xzr,[sp,#48]
	mov	w21,#1
2:
	ldrh	w9,[x20,#24]
	mov	w10,#3000
	cmp	w9,#0
	csel	w12,w10,w9,eq
	ldrb	w9,[x20,#29]
	ldrh	w10,[x20,#26]
	ldrb	w13,[x20,#28]
	stp	x8,x21,[sp]
	mov	x14,sp
	add	x22,x14,#16
	ldr	q0,[sp,#48]
	str	q0,[sp,#16]
	strh	w12,[sp,#32]
	stur	wzr,[sp,#34]
	strb	w13,[sp,#38]
	strb	wzr,[sp,#39]
	strh	w10,[sp,#42]
	cbz	w11,1f
	sub	w11,w1,w21
	sxth	w13,w11
	add	x14,x21,w11,uxth
	cmn	w13,#8,lsl #12
	and	x13,x21,#0x8000
	ccmp	x13,#0,#0,eq
	mov	x13,#-65536
	csel	x13,xzr,x13,eq
	add	x13,x13,x14
	tst	w11,#0x8000
	csel	x23,x14,x13,eq
	subs	x11,x21,x23
	cset	w13,lo
	cmp	x11,#128
	csinc	w14,w13,wzr,hs
	subs	x13,x23,x21
	mov	w12,w12
	ccmp	x13,x12,#0,hs
	b.hs	2f
	tbz	w14,#0,2f
	strb	wzr,[sp,#40]
	cmp	x21,x23
	b.hs	3f
	cmp	x13,#2
	b.lo	4f
	add	x2,x21,#1
	mov	x0,x22
	mov	w1,#2
	mov	x3,x23
	bl	_rtp_92408dd3_rtp_base.ring.clear
	ldrb	w8,[sp]
	b	5f
1:
	cmp	w13,#0
	cset	w11,ne
	sub	w12,w13,w11
	mov	x11,x21
	cmp	w10,w1,uxth
	b.ne	1f
6:
	cmp	w9,w12,uxtb
	b.lo	7f
	lsr	x10,x11,#48
	cbz	x10,8f
7:
	add	w10,w9,#1
	cmp	w10,#255
	mov	w10,#255
	csinc	w9,w10,w9,hs
	b	7f
2:
	lsr	x11,x21,#16
	add	x11,x11,#2
	mov	w12,#1
	cmp	w10,w1,uxth
	b.eq	6b
1:
	mov	w9,#1
	tst	w12,#0xff
	b.ne	7f
	lsr	x10,x11,#48
	cbnz	x10,7f
8:
	bfi	x1,x11,#16,#48
	mov	x21,x1
	strb	wzr,[sp,#40]
	tbz	w8,#0,1f
	stp	xzr,xzr,[sp,#80]
	add	x0,sp,#80
	mov	w1,#2
	mov	x2,x21
	bl	_rtp_92408dd3_rtp_base.ring.ring_start
	ldr	q0,[sp,#80]
	str	q0,[x22]
	mov	w9,#1
	mov	x23,x21
	b	2f
7:
	mov	x23,#0
	strb	w9,[sp,#40]
	add	w9,w1,#1
	strh	w9,[sp,#42]
	mov	w9,#2
	cbnz	w8,2f
	b	6f
1:
	stp	xzr,xzr,[sp,#64]
	add	x0,sp,#64
	mov	w1,#2
	mov	x2,x21
	bl	_rtp_92408dd3_rtp_base.ring.ring_start
	ldr	q0,[sp,#64]
	str	q0,[x22]
	mov	w8,#1
	mov	x23,x21
	mov	w9,#0
	cbnz	w8,2f
	b	6f
3:
	cmp	x11,#127
	b.hi	1f
	mov	w8,#1
	lsl	x8,x8,x23
	lsr	x9,x23,#3
	and	x9,x9,#0x8
	ldr	x10,[x22,x9]
	tst	x10,x8
	b.eq	3f
1:
	mov	x23,#0
	mov	w9,#2
	b	2f
4:
	mov	w8,#1
5:
	mov	w9,#1
	lsl	x9,x9,x23
	lsr	x10,x23,#3
	and	x10,x10,#0x8
	ldr	x11,[x22,x10]
	orr	x9,x11,x9
	str	x9,[x22,x10]
	mov	x21,x23
	mov	w9,#0
	cbz	w8,6f
2:
	str	x21,[x20]
	ldr	q0,[x22]
	stur	q0,[x20,#8]
	mov	w8,#1
6:
	strb	w8,[x20,#30]
	ldrb	w8,[sp,#40]
	ldrh	w10,[sp,#42]
	strb	w8,[x20,#29]
	strh	w10,[x20,#26]
	cmp	w9,#2
	b.eq	1f
	cmp	w9,#1
	b.ne	4f
	str	x23,[x19]
	mov	w0,#12
	ldp	x29,x30,[sp,#144]
	ldp	x20,x19,[sp,#128]
	ldp	x22,x21,[sp,#112]
	ldp	x24,x23,[sp,#96]
	add	sp,sp,#160
	ret
1:
	mov	w0,#10
	ldp	x29,x30,[sp,#144]
	ldp	x20,x19,[sp,#128]
	ldp	x22,x21,[sp,#112]
	ldp	x24,x23,[sp,#96]
	add	sp,sp,#160
	ret
4:
	mov	w0,#0
	str	x23,[x19]
	ldp	x29,x30,[sp,#144]
	ldp	x20,x19,[sp,#128]
	ldp	x22,x21,[sp,#112]
	ldp	x24,x23,[sp,#96]
	add	sp,sp,#160
	ret
3:
	orr	x8,x10,x8
	str	x8,[x22,x9]
	mov	w8,#1
	mov	w9,#0
	cbnz	w8,2b
	b	6b
	.cfi_endproc

	.globl	_rtp_92408dd3_rtpw_wide_restarting_receive
	.p2align	2
_rtp_92408dd3_rtpw_wide_restarting_receive:
	.cfi_startproc
	mov	w8,#4096
	cmp	x1,#0
	csel	x8,x8,xzr,eq
	sub	x9,x2,#1
	cmp	x9,#511
	b.hi	1f
	stp	x24,x23,[sp,#-64]!
	stp	x22,x21,[sp,#16]
	stp	x20,x19,[sp,#32]
	stp	x29,x30,[sp,#48]
	.cfi_def_cfa_offset 64
	.cfi_offset w30,-8
	.cfi_offset w29,-16
	.cfi_offset w19,-24
	.cfi_offset w20,-32
	.cfi_offset w21,-40
	.cfi_offset w22,-48
	.cfi_offset w23,-56
	.cfi_offset w24,-64
	add	x19,x1,x8
	ldrh	w8,[x0,#8]
	mov	w9,#3000
	cmp	w8,#0
	csel	w12,w9,w8,eq
	ldrh	w8,[x0,#10]
	lsl	x10,x2,#6
	cmp	x10,#3000
	csel	x9,x10,x9,hi
	cmp	w8,#0
	csel	x11,x9,x8,eq
	ldrb	w9,[x0,#15]
	ldrh	w22,[x0,#12]
	ldrb	w21,[x0,#16]
	cbz	w21,2f
	ldr	x8,[x0]
	sub	w10,w3,w8
	sxth	w13,w10
	add	x14,x8,w10,uxth
	cmn	w13,#8,lsl #12
	and	x13,x8,#0x8000
	ccmp	x13,#0,#0,eq
	mov	x13,#-65536
	csel	x13,xzr,x13,eq
	add	x13,x13,x14
	tst	w10,#0x8000
	csel	x20,x14,x13,eq
	subs	x10,x8,x20
	cset	w13,lo
	cmp	x11,x10
	csinc	w13,w13,wzr,ls
	subs	x11,x20,x8
	ccmp	x11,x12,#0,hs
	b.hs	3f
	tbz	w13,#0,3f
	cmp	x20,x8
	b.ne	4f
5:
	mov	w9,#0
	b	6f
1:
	mov	w0,#9
	ret
2:
	ldrb	w8,[x0,#14]
	cmp	w8,#0
	cset	w10,ne
	sub	w10,w8,w10
	mov	w8,#1
	cmp	w22,w3,uxth
	b.ne	1f
2:
	cmp	w9,w10,uxtb
	b.lo	7f
	lsr	x10,x8,#48
	cbz	x10,8f
7:
	add	w8,w9,#1
	cmp	w8,#255
	mov	w8,#255
	csinc	w9,w8,w9,hs
	b	7f
3:
	lsr	x8,x8,#16
	add	x8,x8,#2
	mov	w10,#1
	cmp	w22,w3,uxth
	b.eq	2b
1:
	mov	w9,#1
	tst	w10,#0xff
	b.ne	7f
	lsr	x10,x8,#48
	cbnz	x10,7f
8:
	mov	x23,x4
	mov	x24,x0
	bfi	x3,x8,#16,#48
	mov	x20,x3
	mov	x0,x19
	mov	x1,x2
	mov	x2,x3
	bl	_rtp_92408dd3_rtp_base.ring.ring_start
	cbz	w21,1f
	mov	w8,#256
	sturh	w8,[x24,#15]
	strh	w22,[x24,#12]
	str	x20,[x24]
	str	x20,[x23]
	mov	w0,#12
	ldp	x29,x30,[sp,#48]
	ldp	x20,x19,[sp,#32]
	ldp	x22,x21,[sp,#16]
	ldp	x24,x23,[sp],#64
	ret
7:
	add	w22,w3,#1
6:
	strb	w9,[x0,#15]
	strh	w22,[x0,#12]
	mov	w0,#10
	ldp	x29,x30,[sp,#48]
	ldp	x20,x19,[sp,#32]
	ldp	x22,x21,[sp,#16]
	ldp	x24,x23,[sp],#64
	ret
4:
	cmp	x8,x20
	b.hs	2f
3:
	lsr	x9,x8,#6
	udiv	x12,x9,x2
	msub	x9,x12,x2,x9
	ubfx	x12,x8,#6,#4
	cmp	x2,#16
	csel	x9,x9,x12,ne
	mov	w12,#1
	lsl	x12,x12,x8
	ldr	x13,[x19,x9,lsl #3]
	orr	x12,x13,x12
	str	x12,[x19,x9,lsl #3]
	cmp	x8,x20
	b.hs	4f
	cmp	x11,#2
	b.lo	6f
	mov	x21,x2
	add	x2,x8,#1
	mov	x23,x0
	mov	x0,x19
	mov	x1,x21
	mov	x3,x20
	mov	x24,x4
	bl	_rtp_92408dd3_rtp_base.ring.clear
	mov	x2,x21
	mov	x4,x24
	mov	x0,x23
6:
	cmp	x2,#16
	b.ne	6f
	ubfx	x8,x20,#6,#4
	b	7f
1:
	mov	x8,x20
	mov	x0,x24
	mov	x4,x23
	b	1f
2:
	cmp	x2,x10,lsr #6
	b.ls	5b
	lsr	x9,x20,#6
	udiv	x12,x9,x2
	msub	x9,x12,x2,x9
	ubfx	x12,x20,#6,#4
	cmp	x2,#16
	csel	x9,x9,x12,ne
	ldr	x9,[x19,x9,lsl #3]
	lsr	x9,x9,x20
	tbnz	w9,#0,5b
	b	3b
4:
	cmp	x2,x10,lsr #6
	b.ls	1f
	lsr	x10,x20,#6
	mov	w9,#1
	lsl	x9,x9,x20
	cmp	x2,#16
	b.ne	2f
	ubfiz	x10,x10,#3,#4
	b	3f
6:
	lsr	x8,x20,#6
	udiv	x9,x8,x2
	msub	x8,x9,x2,x8
7:
	mov	w9,#1
	lsl	x9,x9,x20
	ldr	x10,[x19,x8,lsl #3]
	orr	x9,x10,x9
	str	x9,[x19,x8,lsl #3]
	mov	x8,x20
	b	1f
2:
	udiv	x11,x10,x2
	msub	x10,x11,x2,x10
	lsl	x10,x10,#3
3:
	ldr	x11,[x19,x10]
	tst	x11,x9
	b.ne	1f
	orr	x9,x11,x9
	str	x9,[x19,x10]
1:
	mov	w10,#256
	sturh	w10,[x0,#15]
	strh	w22,[x0,#12]
	str	x8,[x0]
	mov	w0,#0
	str	x20,[x4]
	ldp	x29,x30,[sp,#48]
	ldp	x20,x19,[sp,#32]
	ldp	x22,x21,[sp,#16]
	ldp	x24,x23,[sp],#64
	ret
	.cfi_endproc

	.globl	_rtp_92408dd3_rtpw_read_mixer_level
	.p2align	2
_rtp_92408dd3_rtpw_read_mixer_level:
	.cfi_startproc
	mov	x8,x0
	mov	w0,#9
	cmp	x2,x3
	b.ls	1f
	cmp	x3,x1
	b.hs	1f
	mov	w0,#0
	mov	w9,#4096
	cmp	x8,#0
	csel	x9,x9,xzr,eq
	add	x8,x8,x9
	ldrb	w8,[x8,x3]
	and	w8,w8,#0x7f
	neg	w8,w8
	strb	w8,[x4]
1:
	ret
	.cfi_endproc

	.globl	_rtp_92408dd3_rtpw_read_ntp_56
	.p2align	2
_rtp_92408dd3_rtpw_read_ntp_56:
	.cfi_startproc
	cmp	x1,#7
	b.ne	1f
	mov	x8,x0
	mov	w0,#0
	mov	w9,#4096
	cmp	x8,#0
	csel	x9,x9,xzr,eq
	add	x8,x8,x9
	ldrb	w9,[x8]
	ldrb	w10,[x8,#1]
	lsl	x9,x9,#8
	orr	x9,x9,x10,lsl #16
	ldrb	w10,[x8,#2]
	ldur	w8,[x8,#3]
	orr	x9,x9,x10,lsl #24
	orr	x8,x9,x8,lsl #32
	rev	x8,x8
	str	x8,[x2]
	ret
1:
	mov	w0,#9
	ret
	.cfi_endproc

	.globl	_rtp_92408dd3_rtpw_read_ntp_64
	.p2align	2
_rtp_92408dd3_rtpw_read_ntp_64:
	.cfi_startproc
	cmp	x1,#8
	b.ne	1f
	mov	x8,x0
	mov	w0,#0
	mov	w9,#4096
	cmp	x8,#0
	csel	x9,x9,xzr,eq
	ldr	x8,[x8,x9]
	rev	x8,x8
	str	x8,[x2]
	ret
1:
	mov	w0,#9
	ret
	.cfi_endproc

	.globl	_rtp_92408dd3_rtpw_read_send_time
	.p2align	2
_rtp_92408dd3_rtpw_read_send_time:
	.cfi_startproc
	cmp	x1,#3
	b.ne	1f
	mov	x8,x0
	mov	w0,#0
	mov	w9,#4096
	cmp	x8,#0
	csel	x9,x9,xzr,eq
	add	x8,x8,x9
	ldrb	w9,[x8]
	ldrb	w10,[x8,#1]
	ldrb	w8,[x8,#2]
	lsl	w9,w9,#8
	orr	w9,w9,w10,lsl #16
	orr	w8,w9,w8,lsl #24
	rev	w8,w8
	str	w8,[x2]
	ret
1:
	mov	w0,#9
	ret
	.cfi_endproc

	.globl	_rtp_92408dd3_rtpw_read_transmission_offset
	.p2align	2
_rtp_92408dd3_rtpw_read_transmission_offset:
	.cfi_startproc
	cmp	x1,#3
	b.ne	1f
	mov	x8,x0
	mov	w0,#0
	mov	w9,#4096
	cmp	x8,#0
	csel	x9,x9,xzr,eq
	add	x8,x8,x9
	ldrb	w9,[x8]
	ldrb	w10,[x8,#1]
	lsl	w9,w9,#8
	orr	w9,w9,w10,lsl #16
	ldrb	w8,[x8,#2]
	orr	w8,w9,w8,lsl #24
	rev	w8,w8
	orr	w9,w8,#0xff000000
	cmp	w8,#2048,lsl #12
	csel	w8,w8,w9,lo
	str	w8,[x2]
	ret
1:
	mov	w0,#9
	ret
	.cfi_endproc

	.globl	_rtp_92408dd3_rtpw_write_timing
	.p2align	2
_rtp_92408dd3_rtpw_write_timing:
	.cfi_startproc
	sub	sp,sp,#48
	stp	x20,x19,[sp,#16]
	stp	x29,x30,[sp,#32]
	.cfi_def_cfa_offset 48
	.cfi_offset w30,-8
	.cfi_offset w29,-16
	.cfi_offset w19,-24
	.cfi_offset w20,-32
	mov	x19,x3
	mov	w8,#4096
	cmp	x1,#0
	csel	x8,x8,xzr,eq
	strb	wzr,[sp,#15]
	ldrb	w6,[x0,#13]
	ldrh	w5,[x0]
	rev16	w9,w5
	ldrh	w4,[x0,#2]
	rev16	w10,w4
	ldrh	w3,[x0,#4]
	rev16	w11,w3
	ldrh	w16,[x0,#6]
	rev16	w12,w16
	ldrh	w15,[x0,#8]
	rev16	w14,w15
	ldrh	w13,[x0,#10]
	rev16	w17,w13
	cbz	w6,1f
	lsr	w6,w17,#8
	mov	x13,x17
	ubfx	w17,w14,#8,#8
	mov	x15,x14
	ubfx	w14,w12,#8,#8
	mov	x16,x12
	ubfx	w12,w11,#8,#8
	mov	x3,x11
	ubfx	w11,w10,#8,#8
	mov	x4,x10
	ubfx	w10,w9,#8,#8
	mov	x5,x9
	ldrb	w9,[x0,#12]
	strb	w6,[sp,#15]
	mov	w20,#13
	b	2f
1:
	and	w5,w5,#0xff
	and	w4,w4,#0xff
	and	w3,w3,#0xff
	and	w16,w16,#0xff
	and	w15,w15,#0xff
	and	w13,w13,#0xff
	mov	w20,#12
2:
	strb	w9,[sp,#3]
	strb	w5,[sp,#4]
	strb	w10,[sp,#5]
	strb	w4,[sp,#6]
	strb	w11,[sp,#7]
	strb	w3,[sp,#8]
	strb	w12,[sp,#9]
	strb	w16,[sp,#10]
	strb	w14,[sp,#11]
	strb	w15,[sp,#12]
	strb	w17,[sp,#13]
	strb	w13,[sp,#14]
	cmp	x2,x20
	b.hs	1f
	mov	w0,#8
	ldp	x29,x30,[sp,#32]
	ldp	x20,x19,[sp,#16]
	add	sp,sp,#48
	ret
1:
	add	x0,x1,x8
	add	x1,sp,#3
	mov	x2,x20
	bl	_memcpy
	mov	w0,#0
	str	x20,[x19]
	ldp	x29,x30,[sp,#32]
	ldp	x20,x19,[sp,#16]
	add	sp,sp,#48
	ret
	.cfi_endproc

	.globl	_rtp_92408dd3_rtpw_packet_parse
	.p2align	2
_rtp_92408dd3_rtpw_packet_parse:
	.cfi_startproc
	mov	w8,#4096
	cmp	x0,#0
	csel	x8,x8,xzr,eq
	cmp	x1,#12
	b.lo	1f
	add	x8,x0,x8
	ldrsb	w9,[x8]
	cmn	w9,#65
	b.gt	2f
	and	x11,x9,#0xff
	ubfiz	x10,x11,#2,#4
	add	x9,x10,#12
	subs	x12,x1,x9
	b.lo	3f
	tbnz	w11,#4,4f
	strb	wzr,[x2,#55]
	strh	wzr,[x2,#56]
	stp	x9,xzr,[x2,#24]
	str	x9,[x2]
	ldrb	w11,[x8]
	sub	x10,x1,x9
	tbnz	w11,#5,5f
6:
	mov	w9,#1
	mov	x11,x10
	b	7f
4:
	subs	x12,x12,#4
	b.lo	4f
	add	x11,x8,x9
	ldrb	w13,[x11,#2]
	ldrb	w14,[x11,#3]
	lsl	x13,x13,#10
	orr	x13,x13,x14,lsl #2
	cmp	x12,x13
	b.lo	8f
	ldrh	w11,[x11]
	and	w12,w11,#0xfffff0ff
	add	x9,x9,x13
	add	x9,x9,#4
	rev16	w13,w11
	add	w10,w10,#16
	sub	x14,x9,x10
	strh	w13,[x2,#56]
	stp	x10,x14,[x2,#24]
	mov	w10,#57022
	cmp	w11,w10
	and	w10,w12,#0xffff
	ccmp	w10,#16,#4,ne
	b.ne	9f
	cmp	w10,#16
	mov	w10,#1
	cinc	w10,w10,eq
	strb	w10,[x2,#55]
	str	x9,[x2]
	ldrb	w11,[x8]
	sub	x10,x1,x9
	tbz	w11,#5,6b
	b	5f
9:
	mov	w10,#3
	strb	w10,[x2,#55]
	str	x9,[x2]
	ldrb	w11,[x8]
	sub	x10,x1,x9
	tbz	w11,#5,6b
5:
	cmp	x1,x9
	b.ne	5f
	mov	x11,#0
	mov	w9,#1
	b	7f
5:
	add	x9,x8,x1
	ldurb	w9,[x9,#-1]
	subs	x11,x10,x9
	cset	w9,hs
	csel	x11,xzr,x11,lo
	csel	x11,x11,xzr,hs
7:
	stp	x10,x11,[x2,#8]
	strb	w9,[x2,#54]
	ldr	w9,[x8,#4]
	rev	w9,w9
	str	w9,[x2,#40]
	ldr	w9,[x8,#8]
	rev	w9,w9
	str	w9,[x2,#44]
	ldrh	w9,[x8,#2]
	rev	w9,w9
	lsr	w9,w9,#16
	strh	w9,[x2,#48]
	ldrb	w9,[x8,#1]
	and	w9,w9,#0x7f
	strb	w9,[x2,#50]
	ldrb	w9,[x8]
	and	w9,w9,#0xf
	strb	w9,[x2,#51]
	ldrb	w9,[x8,#1]
	lsr	w9,w9,#7
	strb	w9,[x2,#52]
	ldrb	w8,[x8]
	ubfx	w8,w8,#5,#1
	strb	w8,[x2,#53]
	mov	w0,#0
	ret
1:
	mov	w0,#0
	b	_rtp_92408dd3_rtp_c.status.refusal_status
2:
	mov	w0,#1
	b	_rtp_92408dd3_rtp_c.status.refusal_status
3:
	mov	w0,#2
	b	_rtp_92408dd3_rtp_c.status.refusal_status
4:
	mov	w0,#3
	b	_rtp_92408dd3_rtp_c.status.refusal_status
8:
	mov	w0,#4
	b	_rtp_92408dd3_rtp_c.status.refusal_status
	.cfi_endproc

	.globl	_rtp_92408dd3_rtpw_packet_parse_many
	.p2align	2
_rtp_92408dd3_rtpw_packet_parse_many:
	.cfi_startproc
	mov	w9,#4096
	cmp	x0,#0
	csel	x8,x9,xzr,eq
	cmp	x2,#0
	csel	x9,x9,xzr,eq
	cbz	x3,1f
	stp	x24,x23,[sp,#-64]!
	stp	x22,x21,[sp,#16]
	stp	x20,x19,[sp,#32]
	stp	x29,x30,[sp,#48]
	.cfi_def_cfa_offset 64
	.cfi_offset w30,-8
	.cfi_offset w29,-16
	.cfi_offset w19,-24
	.cfi_offset w20,-32
	.cfi_offset w21,-40
	.cfi_offset w22,-48
	.cfi_offset w23,-56
	.cfi_offset w24,-64
	mov	x19,x3
	mov	x20,x1
	add	x21,x0,x8
	add	x8,x9,x2
	add	x22,x8,#48
	b	2f
3:
	mov	w8,#9
	str	w8,[x22,#32]
	strb	wzr,[x22,#36]
	add	x22,x22,#88
	subs	x19,x19,#1
	b.eq	4f
2:
	ldp	x8,x24,[x22,#-48]
	subs	x9,x20,x8
	ccmp	x9,x24,#0,hs
	b.lo	3b
	add	x23,x21,x8
	cmp	x24,#12
	b.lo	3f
	ldrsb	w8,[x23]
	cmn	w8,#65
	b.gt	5f
	and	x10,x8,#0xff
	ubfiz	x9,x10,#2,#4
	add	x8,x9,#12
	subs	x11,x24,x8
	b.lo	6f
	tbnz	w10,#4,7f
	strb	wzr,[x22,#23]
	strh	wzr,[x22,#24]
	stp	x8,xzr,[x22,#-8]
	stur	x8,[x22,#-32]
	ldrb	w10,[x23]
	sub	x9,x24,x8
	tbnz	w10,#5,8f
9:
	mov	w8,#1
	mov	x10,x9
	b	10f
7:
	subs	x11,x11,#4
	b.lo	7f
	add	x10,x23,x8
	ldrb	w12,[x10,#2]
	ldrb	w13,[x10,#3]
	lsl	x12,x12,#10
	orr	x12,x12,x13,lsl #2
	cmp	x11,x12
	b.lo	11f
	ldrh	w10,[x10]
	and	w11,w10,#0xfffff0ff
	add	x8,x8,x12
	add	x8,x8,#4
	rev16	w12,w10
	add	w9,w9,#16
	sub	x13,x8,x9
	strh	w12,[x22,#24]
	stp	x9,x13,[x22,#-8]
	mov	w9,#57022
	cmp	w10,w9
	and	w9,w11,#0xffff
	ccmp	w9,#16,#4,ne
	b.ne	12f
	cmp	w9,#16
	mov	w9,#1
	cinc	w9,w9,eq
	strb	w9,[x22,#23]
	stur	x8,[x22,#-32]
	ldrb	w10,[x23]
	sub	x9,x24,x8
	tbz	w10,#5,9b
	b	8f
12:
	mov	w9,#3
	strb	w9,[x22,#23]
	stur	x8,[x22,#-32]
	ldrb	w10,[x23]
	sub	x9,x24,x8
	tbz	w10,#5,9b
8:
	cmp	x24,x8
	b.ne	8f
	mov	x10,#0
	mov	w8,#1
	b	10f
8:
	add	x8,x23,x24
	ldurb	w8,[x8,#-1]
	subs	x10,x9,x8
	cset	w8,hs
	csel	x10,xzr,x10,lo
	csel	x10,x10,xzr,hs
10:
	stp	x9,x10,[x22,#-24]
	strb	w8,[x22,#22]
	ldr	w8,[x23,#4]
	rev	w8,w8
	str	w8,[x22,#8]
	ldr	w8,[x23,#8]
	rev	w8,w8
	str	w8,[x22,#12]
	ldrh	w8,[x23,#2]
	rev	w8,w8
	lsr	w8,w8,#16
	strh	w8,[x22,#16]
	ldrb	w8,[x23,#1]
	and	w8,w8,#0x7f
	strb	w8,[x22,#18]
	ldrb	w8,[x23]
	and	w8,w8,#0xf
	strb	w8,[x22,#19]
	ldrb	w8,[x23,#1]
	lsr	w8,w8,#7
	strb	w8,[x22,#20]
	ldrb	w8,[x23]
	ubfx	w8,w8,#5,#1
	strb	w8,[x22,#21]
	str	wzr,[x22,#32]
8:
	ldrsb	w8,[x23]
	ldrb	w9,[x23,#1]
	cmn	w8,#64
	and	w8,w9,#0xe0
	mov	w9,#192
	ccmp	w8,w9,#0,lt
	cset	w8,eq
9:
	strb	w8,[x22,#36]
	add	x22,x22,#88
	subs	x19,x19,#1
	b.ne	2b
	b	4f
3:
	mov	w0,#0
	bl	_rtp_92408dd3_rtp_c.status.refusal_status
	mov	w8,#0
	str	w0,[x22,#32]
	cmp	x24,#2
	b.hs	8b
	b	9b
5:
	mov	w0,#1
	b	2f
6:
	mov	w0,#2
	b	2f
7:
	mov	w0,#3
	b	2f
11:
	mov	w0,#4
2:
	bl	_rtp_92408dd3_rtp_c.status.refusal_status
	str	w0,[x22,#32]
	b	8b
4:
	ldp	x29,x30,[sp,#48]
	ldp	x20,x19,[sp,#32]
	ldp	x22,x21,[sp,#16]
	ldp	x24,x23,[sp],#64
1:
	ret
	.cfi_endproc

	.globl	_rtp_92408dd3_rtpw_read
	.p2align	2
_rtp_92408dd3_rtpw_read:
	.cfi_startproc
	mov	w8,#4096
	cmp	x0,#0
	csel	x8,x8,xzr,eq
	add	x0,x0,x8
	cmp	x1,#12
	b.lo	1f
	ldrsb	w8,[x0]
	cmn	w8,#65
	b.gt	2f
	and	x9,x8,#0xff
	ubfiz	x8,x9,#2,#4
	add	x8,x8,#12
	subs	x10,x1,x8
	b.lo	3f
	mov	x4,x3
	tbnz	w9,#4,4f
	mov	w9,#0
	mov	w3,#0
	ldrb	w10,[x0,#1]
	and	w10,w10,#0xe0
	cmp	w10,#192
	b.ne	5f
6:
	mov	w0,#17
	ret
4:
	subs	x11,x10,#4
	b.lo	4f
	add	x10,x0,x8
	ldrb	w9,[x10,#2]
	ldrb	w12,[x10,#3]
	lsl	x9,x9,#10
	orr	x9,x9,x12,lsl #2
	cmp	x11,x9
	b.lo	7f
	ldrh	w10,[x10]
	mov	w11,#57022
	cmp	w10,w11
	cset	w11,eq
	and	w10,w10,#0xfffff0ff
	cmp	w10,#16
	cset	w3,eq
	add	x8,x8,x9
	add	x8,x8,#4
	csinc	w9,w11,wzr,ne
	ldrb	w10,[x0,#1]
	and	w10,w10,#0xe0
	cmp	w10,#192
	b.eq	6b
5:
	str	x8,[x4]
	ldr	w10,[x0,#4]
	rev	w10,w10
	str	w10,[x4,#8]
	ldr	w10,[x0,#8]
	rev	w10,w10
	str	w10,[x4,#12]
	ldrb	w11,[x0]
	movi.2d	v0,#0000000000000000
	mov	x10,x4
	str	q0,[x10,#16]!
	stur	q0,[x10,#44]
	stp	q0,q0,[x10,#16]
	and	x12,x11,#0xf
	cbz	w12,5f
	mov	x11,#0
	add	x13,x0,#12
6:
	ldr	w14,[x13,x11,lsl #2]
	rev	w14,w14
	str	w14,[x10,x11,lsl #2]
	add	x11,x11,#1
	cmp	x12,x11
	b.ne	6b
	b	6f
5:
	mov	w11,#0
6:
	strb	w11,[x4,#79]
	ldrh	w10,[x0,#2]
	rev	w10,w10
	lsr	w10,w10,#16
	strh	w10,[x4,#76]
	ldrb	w10,[x0,#1]
	and	w10,w10,#0x7f
	strb	w10,[x4,#78]
	ldrb	w10,[x0,#1]
	lsr	w10,w10,#7
	strb	w10,[x4,#80]
	ldrb	w10,[x0]
	ubfx	w10,w10,#5,#1
	strb	w10,[x4,#81]
	ldrb	w10,[x0]
	ubfx	w10,w10,#4,#1
	strb	w10,[x4,#82]
	ldrb	w11,[x0]
	sub	x10,x1,x8
	tbnz	w11,#5,5f
	mov	w11,#1
	str	x10,[x4,#224]
	strb	w11,[x4,#251]
	ldrb	w10,[x0]
	tbnz	w10,#4,6f
	b	8f
5:
	cmp	x1,x8
	b.ne	5f
	mov	x10,#0
	mov	w11,#1
	str	x10,[x4,#224]
	strb	w11,[x4,#251]
	ldrb	w10,[x0]
	tbz	w10,#4,8f
6:
	ubfiz	x10,x10,#2,#4
	add	x11,x0,x10
	ldrh	w11,[x11,#12]
	rev	w11,w11
	lsr	w11,w11,#16
	add	w10,w10,#16
	strh	w11,[x4,#248]
	sub	x8,x8,x10
	stp	x10,x8,[x4,#232]
	tbz	w9,#0,9f
	stp	x29,x30,[sp,#-16]!
	.cfi_def_cfa_offset 16
	.cfi_offset w30,-8
	.cfi_offset w29,-16
	movi.2d	v0,#0000000000000000
	str	q0,[x4,#88]!
	add	w9,w3,#1
	strb	w9,[x4,#162]
	stp	q0,q0,[x4,#16]
	stp	q0,q0,[x4,#48]
	stp	q0,q0,[x4,#80]
	str	q0,[x4,#112]
	str	xzr,[x4,#128]
	add	x1,x0,x10
	mov	x0,x2
	mov	x2,x8
	bl	_rtp_92408dd3_rtp_ext.block_values.read_values.9a3a19c0cce455e9
	mov	w0,#0
	ldp	x29,x30,[sp],#16
	ret
5:
	add	x11,x0,x1
	ldurb	w11,[x11,#-1]
	subs	x10,x10,x11
	cset	w11,hs
	csel	x10,xzr,x10,lo
	csel	x10,x10,xzr,hs
	str	x10,[x4,#224]
	strb	w11,[x4,#251]
	ldrb	w10,[x0]
	tbnz	w10,#4,6b
8:
	strb	wzr,[x4,#250]
	strh	wzr,[x4,#248]
	stp	x8,xzr,[x4,#232]
	b	5f
9:
	mov	w8,#3
	strb	w8,[x4,#250]
5:
	mov	w0,#0
	str	xzr,[x4,#216]
	movi.2d	v0,#0000000000000000
	stur	q0,[x4,#200]
	stur	q0,[x4,#184]
	stur	q0,[x4,#168]
	stur	q0,[x4,#152]
	stur	q0,[x4,#136]
	stur	q0,[x4,#120]
	stur	q0,[x4,#104]
	stur	q0,[x4,#88]
	ret
1:
	mov	w2,#0
	b	_rtp_92408dd3_rtp_c.whole_packet.status_of_no_packet
2:
	mov	w2,#1
	b	_rtp_92408dd3_rtp_c.whole_packet.status_of_no_packet
3:
	mov	w2,#2
	b	_rtp_92408dd3_rtp_c.whole_packet.status_of_no_packet
4:
	mov	w2,#3
	b	_rtp_92408dd3_rtp_c.whole_packet.status_of_no_packet
7:
	mov	w2,#4
	b	_rtp_92408dd3_rtp_c.whole_packet.status_of_no_packet
	.cfi_endproc

	.globl	_rtp_92408dd3_rtpw_read_fixed_part
	.p2align	2
_rtp_92408dd3_rtpw_read_fixed_part:
	.cfi_startproc
	mov	w8,#4096
	cmp	x0,#0
	csel	x8,x8,xzr,eq
	cmp	x1,#12
	b.lo	1f
	add	x9,x0,x8
	ldrsb	w8,[x9]
	cmn	w8,#65
	b.gt	2f
	and	x10,x8,#0xff
	ubfiz	x14,x10,#2,#4
	add	x8,x14,#12
	subs	x11,x1,x8
	b.lo	3f
	tbnz	w10,#4,4f
	mov	w12,#0
	mov	w13,#0
	ands	w15,w10,#0x10
	add	w14,w14,#16
	csel	x14,x8,x14,eq
	and	w17,w10,#0x20
	tbnz	w10,#5,5f
6:
	mov	w16,#1
	b	7f
4:
	subs	x12,x11,#4
	b.lo	4f
	add	x11,x9,x8
	ldrb	w13,[x11,#2]
	ldrb	w15,[x11,#3]
	lsl	x13,x13,#10
	orr	x13,x13,x15,lsl #2
	cmp	x12,x13
	b.lo	8f
	ldrh	w11,[x11]
	and	w12,w11,#0xfffff0ff
	add	x8,x8,x13
	add	x8,x8,#4
	mov	w13,#57022
	cmp	w11,w13
	mov	w13,#3
	csinc	w13,w13,wzr,ne
	mov	w15,#2
	cmp	w12,#16
	csel	w12,w15,w13,eq
	rev16	w13,w11
	sub	x11,x1,x8
	ands	w15,w10,#0x10
	add	w14,w14,#16
	csel	x14,x8,x14,eq
	and	w17,w10,#0x20
	tbz	w10,#5,6b
5:
	cmp	x1,x8
	b.ne	5f
	mov	x11,#0
	mov	w16,#1
	b	7f
5:
	add	x16,x9,x1
	ldurb	w16,[x16,#-1]
	subs	x11,x11,x16
	cset	w16,hs
	csel	x11,xzr,x11,lo
	csel	x11,x11,xzr,hs
7:
	ldrh	w0,[x9,#2]
	rev	w0,w0
	lsr	w0,w0,#16
	ldrb	w1,[x9,#1]
	and	w4,w1,#0x7f
	and	w10,w10,#0xf
	lsr	w1,w1,#7
	ldur	d0,[x9,#4]
	lsr	w9,w17,#5
	mov	w17,#2
	strb	w17,[x2]
	lsr	w15,w15,#4
	rev32.8b	v0,v0
	strb	w9,[x2,#1]
	strb	w15,[x2,#2]
	strb	w1,[x2,#3]
	strb	w4,[x2,#4]
	strh	w0,[x2,#6]
	str	d0,[x2,#8]
	stp	x8,x11,[x3]
	str	x14,[x3,#16]
	strh	w13,[x3,#24]
	strb	w12,[x3,#26]
	strb	w10,[x3,#27]
	strb	w16,[x3,#28]
	mov	w0,#0
	ret
1:
	mov	w0,#0
	b	_rtp_92408dd3_rtp_c.status.refusal_status
2:
	mov	w0,#1
	b	_rtp_92408dd3_rtp_c.status.refusal_status
3:
	mov	w0,#2
	b	_rtp_92408dd3_rtp_c.status.refusal_status
4:
	mov	w0,#3
	b	_rtp_92408dd3_rtp_c.status.refusal_status
8:
	mov	w0,#4
	b	_rtp_92408dd3_rtp_c.status.refusal_status
	.cfi_endproc

	.globl	_rtp_92408dd3_rtpw_read_many
	.p2align	2
_rtp_92408dd3_rtpw_read_many:
	.cfi_startproc
	mov	w9,#4096
	cmp	x0,#0
	csel	x8,x9,xzr,eq
	cmp	x3,#0
	csel	x9,x9,xzr,eq
	cbz	x4,1f
	stp	x26,x25,[sp,#-80]!
	stp	x24,x23,[sp,#16]
	stp	x22,x21,[sp,#32]
	stp	x20,x19,[sp,#48]
	stp	x29,x30,[sp,#64]
	.cfi_def_cfa_offset 80
	.cfi_offset w30,-8
	.cfi_offset w29,-16
	.cfi_offset w19,-24
	.cfi_offset w20,-32
	.cfi_offset w21,-40
	.cfi_offset w22,-48
	.cfi_offset w23,-56
	.cfi_offset w24,-64
	.cfi_offset w25,-72
	.cfi_offset w26,-80
	mov	x19,x4
	mov	x20,x2
	mov	x21,x1
	mov	x22,#0
	add	x23,x0,x8
	add	x24,x3,x9
	add	x8,x9,x3
	add	x25,x8,#32
	b	2f
3:
	mov	w8,#9
	str	w8,[x26,#272]
4:
	add	x22,x22,#1
	add	x25,x25,#280
	cmp	x22,x19
	b.eq	5f
2:
	mov	w8,#280
	madd	x26,x22,x8,x24
	ldp	x8,x1,[x26]
	subs	x9,x21,x8
	ccmp	x9,x1,#0,hs
	b.lo	3b
	add	x0,x23,x8
	cmp	x1,#12
	b.lo	2f
	ldrsb	w8,[x0]
	cmn	w8,#65
	b.gt	3f
	and	x9,x8,#0xff
	ubfiz	x8,x9,#2,#4
	add	x8,x8,#12
	subs	x10,x1,x8
	b.lo	6f
	tbnz	w9,#4,7f
	mov	w9,#0
	mov	w3,#0
	ldrb	w10,[x0,#1]
	and	w10,w10,#0xe0
	cmp	w10,#192
	b.ne	8f
9:
	mov	w0,#17
	str	w0,[x26,#272]
	b	4b
7:
	subs	x11,x10,#4
	b.lo	7f
	add	x10,x0,x8
	ldrb	w9,[x10,#2]
	ldrb	w12,[x10,#3]
	lsl	x9,x9,#10
	orr	x9,x9,x12,lsl #2
	cmp	x11,x9
	b.lo	10f
	ldrh	w10,[x10]
	mov	w11,#57022
	cmp	w10,w11
	cset	w11,eq
	and	w10,w10,#0xfffff0ff
	cmp	w10,#16
	cset	w3,eq
	add	x8,x8,x9
	add	x8,x8,#4
	csinc	w9,w11,wzr,ne
	ldrb	w10,[x0,#1]
	and	w10,w10,#0xe0
	cmp	w10,#192
	b.eq	9b
8:
	str	x8,[x26,#16]
	ldr	w10,[x0,#4]
	rev	w10,w10
	str	w10,[x26,#24]
	ldr	w10,[x0,#8]
	rev	w10,w10
	str	w10,[x26,#28]
	ldrb	w10,[x0]
	movi.2d	v0,#0000000000000000
	stur	q0,[x26,#76]
	stp	q0,q0,[x26,#48]
	str	q0,[x26,#32]
	and	x11,x10,#0xf
	cbz	w11,8f
	mov	x10,#0
	add	x12,x0,#12
9:
	ldr	w13,[x12,x10,lsl #2]
	rev	w13,w13
	str	w13,[x25,x10,lsl #2]
	add	x10,x10,#1
	cmp	x11,x10
	b.ne	9b
	b	9f
8:
	mov	w10,#0
9:
	strb	w10,[x26,#95]
	ldrh	w10,[x0,#2]
	rev	w10,w10
	lsr	w10,w10,#16
	strh	w10,[x26,#92]
	ldrb	w10,[x0,#1]
	and	w10,w10,#0x7f
	strb	w10,[x26,#94]
	ldrb	w10,[x0,#1]
	lsr	w10,w10,#7
	strb	w10,[x26,#96]
	ldrb	w10,[x0]
	ubfx	w10,w10,#5,#1
	strb	w10,[x26,#97]
	ldrb	w10,[x0]
	ubfx	w10,w10,#4,#1
	strb	w10,[x26,#98]
	ldrb	w11,[x0]
	sub	x10,x1,x8
	tbnz	w11,#5,8f
	mov	w11,#1
	str	x10,[x26,#240]
	strb	w11,[x26,#267]
	ldrb	w10,[x0]
	tbnz	w10,#4,9f
	b	11f
8:
	cmp	x1,x8
	b.ne	8f
	mov	x10,#0
	mov	w11,#1
	str	x10,[x26,#240]
	strb	w11,[x26,#267]
	ldrb	w10,[x0]
	tbz	w10,#4,11f
9:
	ubfiz	x10,x10,#2,#4
	add	x11,x0,x10
	ldrh	w11,[x11,#12]
	rev	w11,w11
	lsr	w11,w11,#16
	add	w10,w10,#16
	strh	w11,[x26,#264]
	sub	x2,x8,x10
	stp	x10,x2,[x26,#248]
	tbz	w9,#0,12f
	movi.2d	v0,#0000000000000000
	mov	x4,x26
	str	q0,[x4,#104]!
	add	w8,w3,#1
	strb	w8,[x4,#162]
	stp	q0,q0,[x4,#16]
	stp	q0,q0,[x4,#48]
	stp	q0,q0,[x4,#80]
	str	q0,[x4,#112]
	str	xzr,[x4,#128]
	add	x1,x0,x10
	mov	x0,x20
	bl	_rtp_92408dd3_rtp_ext.block_values.read_values.9a3a19c0cce455e9
	str	wzr,[x26,#272]
	b	4b
8:
	add	x11,x0,x1
	ldurb	w11,[x11,#-1]
	subs	x10,x10,x11
	cset	w11,hs
	csel	x10,xzr,x10,lo
	csel	x10,x10,xzr,hs
	str	x10,[x26,#240]
	strb	w11,[x26,#267]
	ldrb	w10,[x0]
	tbnz	w10,#4,9b
11:
	strb	wzr,[x26,#266]
	strh	wzr,[x26,#264]
	stp	x8,xzr,[x26,#248]
	b	8f
12:
	mov	w8,#3
	strb	w8,[x26,#266]
8:
	str	xzr,[x26,#232]
	movi.2d	v0,#0000000000000000
	stur	q0,[x26,#216]
	stur	q0,[x26,#200]
	stur	q0,[x26,#184]
	stur	q0,[x26,#168]
	stur	q0,[x26,#152]
	stur	q0,[x26,#136]
	stur	q0,[x26,#120]
	stur	q0,[x26,#104]
	str	wzr,[x26,#272]
	b	4b
2:
	mov	w2,#0
	bl	_rtp_92408dd3_rtp_c.whole_packet.status_of_no_packet
	str	w0,[x26,#272]
	b	4b
3:
	mov	w2,#1
	bl	_rtp_92408dd3_rtp_c.whole_packet.status_of_no_packet
	str	w0,[x26,#272]
	b	4b
6:
	mov	w2,#2
	bl	_rtp_92408dd3_rtp_c.whole_packet.status_of_no_packet
	str	w0,[x26,#272]
	b	4b
7:
	mov	w2,#3
	bl	_rtp_92408dd3_rtp_c.whole_packet.status_of_no_packet
	str	w0,[x26,#272]
	b	4b
10:
	mov	w2,#4
	bl	_rtp_92408dd3_rtp_c.whole_packet.status_of_no_packet
	str	w0,[x26,#272]
	b	4b
5:
	ldp	x29,x30,[sp,#64]
	ldp	x20,x19,[sp,#48]
	ldp	x22,x21,[sp,#32]
	ldp	x24,x23,[sp,#16]
	ldp	x26,x25,[sp],#80
1:
	ret
	.cfi_endproc

	.section	__TEXT,__literal16,16byte_literals
	.p2align	4,0x0
lrtp_92408dd3_CPI173_0:
	.byte	104
	.byte	116
	.byte	116
	.byte	112
	.byte	58
	.byte	47
	.byte	47
	.byte	119
	.byte	119
	.byte	119
	.byte	46
	.byte	119
	.byte	101
	.byte	98
	.byte	114
	.byte	116
lrtp_92408dd3_CPI173_1:
	.byte	99
	.byte	46
	.byte	111
	.byte	114
	.byte	103
	.byte	47
	.byte	101
	.byte	120
	.byte	112
	.byte	101
	.byte	114
	.byte	105
	.byte	109
	.byte	101
	.byte	110
	.byte	116
lrtp_92408dd3_CPI173_2:
	.byte	115
	.byte	47
	.byte	114
	.byte	116
	.byte	112
	.byte	45
	.byte	104
	.byte	100
	.byte	114
	.byte	101
	.byte	120
	.byte	116
	.byte	47
	.byte	97
	.byte	98
	.byte	115
lrtp_92408dd3_CPI173_3:
	.byte	120
	.byte	116
	.byte	47
	.byte	97
	.byte	98
	.byte	115
	.byte	45
	.byte	115
	.byte	101
	.byte	110
	.byte	100
	.byte	45
	.byte	116
	.byte	105
	.byte	109
	.byte	101
lrtp_92408dd3_CPI173_4:
	.byte	117
	.byte	114
	.byte	110
	.byte	58
	.byte	105
	.byte	101
	.byte	116
	.byte	102
	.byte	58
	.byte	112
	.byte	97
	.byte	114
	.byte	97
	.byte	109
	.byte	115
	.byte	58
lrtp_92408dd3_CPI173_5:
	.byte	114
	.byte	116
	.byte	112
	.byte	45
	.byte	104
	.byte	100
	.byte	114
	.byte	101
	.byte	120
	.byte	116
	.byte	58
	.byte	110
	.byte	116
	.byte	112
	.byte	45
	.byte	54
lrtp_92408dd3_CPI173_6:
	.byte	116
	.byte	112
	.byte	45
	.byte	104
	.byte	100
	.byte	114
	.byte	101
	.byte	120
	.byte	116
	.byte	58
	.byte	110
	.byte	116
	.byte	112
	.byte	45
	.byte	54
	.byte	52
lrtp_92408dd3_CPI173_7:
	.byte	114
	.byte	116
	.byte	112
	.byte	45
	.byte	104
	.byte	100
	.byte	114
	.byte	101
	.byte	120
	.byte	116
	.byte	58
	.byte	110
	.byte	116
	.byte	112
	.byte	45
	.byte	53
lrtp_92408dd3_CPI173_8:
	.byte	116
	.byte	112
	.byte	45
	.byte	104
	.byte	100
	.byte	114
	.byte	101
	.byte	120
	.byte	116
	.byte	58
	.byte	110
	.byte	116
	.byte	112
	.byte	45
	.byte	53
	.byte	54
lrtp_92408dd3_CPI173_9:
	.byte	115
	.byte	47
	.byte	114
	.byte	116
	.byte	112
	.byte	45
	.byte	104
	.byte	100
	.byte	114
	.byte	101
	.byte	120
	.byte	116
	.byte	47
	.byte	112
	.byte	108
	.byte	97
lrtp_92408dd3_CPI173_10:
	.byte	120
	.byte	116
	.byte	47
	.byte	112
	.byte	108
	.byte	97
	.byte	121
	.byte	111
	.byte	117
	.byte	116
	.byte	45
	.byte	100
	.byte	101
	.byte	108
	.byte	97
	.byte	121
	.section	__TEXT,__text,regular,pure_instructions
	.globl	_rtp_92408dd3_rtpw_kind_of_uri
	.p2align	2
_rtp_92408dd3_rtpw_kind_of_uri:
	.cfi_startproc
	sub	sp,sp,#80
	stp	x22,x21,[sp,#32]
	stp	x20,x19,[sp,#48]
	stp	x29,x30,[sp,#64]
	.cfi_def_cfa_offset 80
	.cfi_offset w30,-8
	.cfi_offset w29,-16
	.cfi_offset w19,-24
	.cfi_offset w20,-32
	.cfi_offset w21,-40
	.cfi_offset w22,-48
	mov	x2,x1
	mov	x8,x0
	mov	w9,#4096
	cmp	x0,#0
	csel	x9,x9,xzr,eq
	stp	xzr,xzr,[sp,#8]
	str	xzr,[sp,#24]
	add	x0,sp,#8
	add	x1,x8,x9
	bl	_rtp_92408dd3_rtp_core.str.utf8.from_utf8
	ldrb	w8,[sp,#8]
	cbz	w8,1f
	mov	w8,#0
2:
	mov	x0,x8
	ldp	x29,x30,[sp,#64]
	ldp	x20,x19,[sp,#48]
	ldp	x22,x21,[sp,#32]
	add	sp,sp,#80
	ret
1:
	ldr	x20,[sp,#24]
	sub	x10,x20,#26
	cmp	x10,#61
	b.hi	2b
	ldr	x19,[sp,#16]
Lrtp_92408dd3_loh166:
	adrp	x9,lrtp_92408dd3__static.39@PAGE
Lrtp_92408dd3_loh167:
	add	x9,x9,lrtp_92408dd3__static.39@PAGEOFF
Lrtp_92408dd3_loh168:
	adrp	x0,lrtp_92408dd3__static.11@PAGE
Lrtp_92408dd3_loh169:
	add	x0,x0,lrtp_92408dd3__static.11@PAGEOFF
	mov	w21,#1
Lrtp_92408dd3_loh170:
	adrp	x11,1f@PAGE
Lrtp_92408dd3_loh171:
	add	x11,x11,1f@PAGEOFF
	adr	x12,2b
	ldrb	w13,[x11,x10]
	add	x12,x12,x13,lsl #2
	br	x12
3:
Lrtp_92408dd3_loh172:
	adrp	x0,lrtp_92408dd3__static.17@PAGE
Lrtp_92408dd3_loh173:
	add	x0,x0,lrtp_92408dd3__static.17@PAGEOFF
	mov	w21,#4
	mov	x1,x20
	mov	x2,x19
	mov	x3,x20
	bl	_rtp_92408dd3_rtp_core.cmp.text.RefStrPartialEq.eq
	tbnz	w0,#0,4f
	b	5f
6:
Lrtp_92408dd3_loh174:
	adrp	x0,lrtp_92408dd3__static.23@PAGE
Lrtp_92408dd3_loh175:
	add	x0,x0,lrtp_92408dd3__static.23@PAGEOFF
	mov	w21,#7
	mov	x1,x20
	mov	x2,x19
	mov	x3,x20
	bl	_rtp_92408dd3_rtp_core.cmp.text.RefStrPartialEq.eq
	tbnz	w0,#0,4f
	b	5f
7:
Lrtp_92408dd3_loh176:
	adrp	x0,lrtp_92408dd3__static.25@PAGE
Lrtp_92408dd3_loh177:
	add	x0,x0,lrtp_92408dd3__static.25@PAGEOFF
	mov	w21,#8
	mov	x1,x20
	mov	x2,x19
	mov	x3,x20
	bl	_rtp_92408dd3_rtp_core.cmp.text.RefStrPartialEq.eq
	tbnz	w0,#0,4f
	b	5f
8:
Lrtp_92408dd3_loh178:
	adrp	x0,lrtp_92408dd3__static.15@PAGE
Lrtp_92408dd3_loh179:
	add	x0,x0,lrtp_92408dd3__static.15@PAGEOFF
	mov	w21,#3
	mov	x1,x20
	mov	x2,x19
	mov	x3,x20
	bl	_rtp_92408dd3_rtp_core.cmp.text.RefStrPartialEq.eq
	tbnz	w0,#0,4f
	b	5f
9:
Lrtp_92408dd3_loh180:
	adrp	x0,lrtp_92408dd3__static.33@PAGE
Lrtp_92408dd3_loh181:
	add	x0,x0,lrtp_92408dd3__static.33@PAGEOFF
	mov	w21,#12
	mov	x1,x20
	mov	x2,x19
	mov	x3,x20
	bl	_rtp_92408dd3_rtp_core.cmp.text.RefStrPartialEq.eq
	tbnz	w0,#0,4f
	b	5f
10:
Lrtp_92408dd3_loh182:
	adrp	x0,lrtp_92408dd3__static.31@PAGE
Lrtp_92408dd3_loh183:
	add	x0,x0,lrtp_92408dd3__static.31@PAGEOFF
	mov	w21,#11
	mov	x1,x20
	mov	x2,x19
	mov	x3,x20
	bl	_rtp_92408dd3_rtp_core.cmp.text.RefStrPartialEq.eq
	tbnz	w0,#0,4f
	b	5f
11:
Lrtp_92408dd3_loh184:
	adrp	x8,lrtp_92408dd3_CPI173_0@PAGE
Lrtp_92408dd3_loh185:
	ldr	q2,[x8,lrtp_92408dd3_CPI173_0@PAGEOFF]
	ldp	q0,q1,[x19]
	cmeq.16b	v2,v0,v2
	mvn.16b	v2,v2
Lrtp_92408dd3_loh186:
	adrp	x8,lrtp_92408dd3_CPI173_1@PAGE
Lrtp_92408dd3_loh187:
	ldr	q3,[x8,lrtp_92408dd3_CPI173_1@PAGEOFF]
	cmeq.16b	v3,v1,v3
	orn.16b	v3,v2,v3
	ldr	q2,[x19,#32]
Lrtp_92408dd3_loh188:
	adrp	x8,lrtp_92408dd3_CPI173_2@PAGE
Lrtp_92408dd3_loh189:
	ldr	q4,[x8,lrtp_92408dd3_CPI173_2@PAGEOFF]
	cmeq.16b	v4,v2,v4
	orn.16b	v4,v3,v4
	ldur	q3,[x19,#42]
Lrtp_92408dd3_loh190:
	adrp	x8,lrtp_92408dd3_CPI173_3@PAGE
Lrtp_92408dd3_loh191:
	ldr	q5,[x8,lrtp_92408dd3_CPI173_3@PAGEOFF]
	cmeq.16b	v5,v3,v5
	orn.16b	v4,v4,v5
	umaxv.16b	b4,v4
	fmov	w8,s4
	tbnz	w8,#0,12f
	mov	w21,#0
	b	4f
13:
Lrtp_92408dd3_loh192:
	adrp	x0,lrtp_92408dd3__static.13@PAGE
Lrtp_92408dd3_loh193:
	add	x0,x0,lrtp_92408dd3__static.13@PAGEOFF
	mov	w21,#2
	mov	x1,x20
	mov	x2,x19
	mov	x3,x20
	bl	_rtp_92408dd3_rtp_core.cmp.text.RefStrPartialEq.eq
	tbnz	w0,#0,4f
	b	5f
14:
Lrtp_92408dd3_loh194:
	adrp	x0,lrtp_92408dd3__static.27@PAGE
Lrtp_92408dd3_loh195:
	add	x0,x0,lrtp_92408dd3__static.27@PAGEOFF
	mov	w21,#9
	mov	x1,x20
	mov	x2,x19
	mov	x3,x20
	bl	_rtp_92408dd3_rtp_core.cmp.text.RefStrPartialEq.eq
	tbnz	w0,#0,4f
	b	5f
15:
Lrtp_92408dd3_loh196:
	adrp	x0,lrtp_92408dd3__static.37@PAGE
Lrtp_92408dd3_loh197:
	add	x0,x0,lrtp_92408dd3__static.37@PAGEOFF
	mov	w21,#14
	mov	x1,x20
	mov	x2,x19
	mov	x3,x20
	bl	_rtp_92408dd3_rtp_core.cmp.text.RefStrPartialEq.eq
	tbnz	w0,#0,4f
	b	5f
16:
Lrtp_92408dd3_loh198:
	adrp	x0,lrtp_92408dd3__static.19@PAGE
Lrtp_92408dd3_loh199:
	add	x0,x0,lrtp_92408dd3__static.19@PAGEOFF
	mov	w21,#5
	mov	x1,x20
	mov	x2,x19
	mov	x3,x20
	bl	_rtp_92408dd3_rtp_core.cmp.text.RefStrPartialEq.eq
	tbnz	w0,#0,4f
	b	5f
17:
Lrtp_92408dd3_loh200:
	adrp	x0,lrtp_92408dd3__static.35@PAGE
Lrtp_92408dd3_loh201:
	add	x0,x0,lrtp_92408dd3__static.35@PAGEOFF
	mov	w21,#13
18:
	mov	x1,x20
	mov	x2,x19
	mov	x3,x20
	bl	_rtp_92408dd3_rtp_core.cmp.text.RefStrPartialEq.eq
	tbz	w0,#0,5f
4:
	add	w8,w21,#1
	mov	x0,x8
	ldp	x29,x30,[sp,#64]
	ldp	x20,x19,[sp,#48]
	ldp	x22,x21,[sp,#32]
	add	sp,sp,#80
	ret
19:
Lrtp_92408dd3_loh202:
	adrp	x0,lrtp_92408dd3__static.29@PAGE
Lrtp_92408dd3_loh203:
	add	x0,x0,lrtp_92408dd3__static.29@PAGEOFF
	mov	w21,#10
	mov	x1,x20
	mov	x2,x19
	mov	x3,x20
	bl	_rtp_92408dd3_rtp_core.cmp.text.RefStrPartialEq.eq
	tbnz	w0,#0,4b
5:
	mov	w8,#0
	cmp	x20,#57
	b.gt	5f
	cmp	x20,#33
	b.eq	20f
	cmp	x20,#43
	b.ne	2b
	mov	w21,#0
Lrtp_92408dd3_loh204:
	adrp	x9,lrtp_92408dd3__static.38@PAGE
Lrtp_92408dd3_loh205:
	add	x9,x9,lrtp_92408dd3__static.38@PAGEOFF
	mov	x0,x9
	mov	x1,x20
	mov	x2,x19
	mov	x3,x20
	bl	_rtp_92408dd3_rtp_core.cmp.text.RefStrPartialEq.eq
	tbz	w0,#0,21f
	b	22f
5:
	cmp	x20,#65
	b.eq	5f
	cmp	x20,#58
	b.ne	2b
	ldp	q0,q1,[x19]
	ldr	q2,[x19,#32]
	ldur	q3,[x19,#42]
12:
Lrtp_92408dd3_loh206:
	adrp	x8,lrtp_92408dd3_CPI173_0@PAGE
Lrtp_92408dd3_loh207:
	ldr	q4,[x8,lrtp_92408dd3_CPI173_0@PAGEOFF]
	cmeq.16b	v0,v0,v4
Lrtp_92408dd3_loh208:
	adrp	x8,lrtp_92408dd3_CPI173_1@PAGE
Lrtp_92408dd3_loh209:
	ldr	q4,[x8,lrtp_92408dd3_CPI173_1@PAGEOFF]
	cmeq.16b	v1,v1,v4
	mvn.16b	v1,v1
	orn.16b	v0,v1,v0
Lrtp_92408dd3_loh210:
	adrp	x8,lrtp_92408dd3_CPI173_9@PAGE
Lrtp_92408dd3_loh211:
	ldr	q1,[x8,lrtp_92408dd3_CPI173_9@PAGEOFF]
	cmeq.16b	v1,v2,v1
	orn.16b	v0,v0,v1
Lrtp_92408dd3_loh212:
	adrp	x8,lrtp_92408dd3_CPI173_10@PAGE
Lrtp_92408dd3_loh213:
	ldr	q1,[x8,lrtp_92408dd3_CPI173_10@PAGEOFF]
	cmeq.16b	v1,v3,v1
	orn.16b	v0,v0,v1
	umaxv.16b	b0,v0
	fmov	w8,s0
	tbnz	w8,#0,21f
	mov	w21,#6
	b	4b
20:
Lrtp_92408dd3_loh214:
	adrp	x8,lrtp_92408dd3_CPI173_4@PAGE
Lrtp_92408dd3_loh215:
	ldr	q0,[x8,lrtp_92408dd3_CPI173_4@PAGEOFF]
	ldp	q2,q1,[x19]
	cmeq.16b	v0,v2,v0
Lrtp_92408dd3_loh216:
	adrp	x8,lrtp_92408dd3_CPI173_5@PAGE
Lrtp_92408dd3_loh217:
	ldr	q2,[x8,lrtp_92408dd3_CPI173_5@PAGEOFF]
	cmeq.16b	v2,v1,v2
	mvn.16b	v3,v2
	ldur	q2,[x19,#17]
Lrtp_92408dd3_loh218:
	adrp	x8,lrtp_92408dd3_CPI173_6@PAGE
Lrtp_92408dd3_loh219:
	ldr	q4,[x8,lrtp_92408dd3_CPI173_6@PAGEOFF]
	cmeq.16b	v4,v2,v4
	orn.16b	v3,v3,v4
	orn.16b	v3,v3,v0
	umaxv.16b	b3,v3
	fmov	w8,s3
	tbz	w8,#0,4f
Lrtp_92408dd3_loh220:
	adrp	x8,lrtp_92408dd3_CPI173_7@PAGE
Lrtp_92408dd3_loh221:
	ldr	q3,[x8,lrtp_92408dd3_CPI173_7@PAGEOFF]
	cmeq.16b	v1,v1,v3
	mvn.16b	v1,v1
Lrtp_92408dd3_loh222:
	adrp	x8,lrtp_92408dd3_CPI173_8@PAGE
Lrtp_92408dd3_loh223:
	ldr	q3,[x8,lrtp_92408dd3_CPI173_8@PAGEOFF]
	cmeq.16b	v2,v2,v3
	orn.16b	v1,v1,v2
	orn.16b	v0,v1,v0
	umaxv.16b	b0,v0
	fmov	w8,s0
	tbnz	w8,#0,21f
	mov	w21,#4
	b	22f
5:
Lrtp_92408dd3_loh224:
	adrp	x9,lrtp_92408dd3__static.39@PAGE
Lrtp_92408dd3_loh225:
	add	x9,x9,lrtp_92408dd3__static.39@PAGEOFF
	mov	w21,#1
5:
	mov	x0,x9
	mov	x1,x20
	mov	x2,x19
	mov	x3,x20
	bl	_rtp_92408dd3_rtp_core.cmp.text.RefStrPartialEq.eq
	tbnz	w0,#0,22f
21:
	mov	w8,#0
	mov	x0,x8
	ldp	x29,x30,[sp,#64]
	ldp	x20,x19,[sp,#48]
	ldp	x22,x21,[sp,#32]
	add	sp,sp,#80
	ret
12:
Lrtp_92408dd3_loh226:
	adrp	x9,lrtp_92408dd3__static.40@PAGE
Lrtp_92408dd3_loh227:
	add	x9,x9,lrtp_92408dd3__static.40@PAGEOFF
	mov	w21,#2
	mov	x0,x9
	mov	x1,x20
	mov	x2,x19
	mov	x3,x20
	bl	_rtp_92408dd3_rtp_core.cmp.text.RefStrPartialEq.eq
	tbz	w0,#0,21b
	b	22f
4:
	mov	w21,#3
22:
	orr	w8,w21,#0x10
	mov	x0,x8
	ldp	x29,x30,[sp,#64]
	ldp	x20,x19,[sp,#48]
	ldp	x22,x21,[sp,#32]
	add	sp,sp,#80
	ret
	.loh AdrpAdd	Lrtp_92408dd3_loh170,Lrtp_92408dd3_loh171
	.loh AdrpAdd	Lrtp_92408dd3_loh168,Lrtp_92408dd3_loh169
	.loh AdrpAdd	Lrtp_92408dd3_loh166,Lrtp_92408dd3_loh167
	.loh AdrpAdd	Lrtp_92408dd3_loh172,Lrtp_92408dd3_loh173
	.loh AdrpAdd	Lrtp_92408dd3_loh174,Lrtp_92408dd3_loh175
	.loh AdrpAdd	Lrtp_92408dd3_loh176,Lrtp_92408dd3_loh177
	.loh AdrpAdd	Lrtp_92408dd3_loh178,Lrtp_92408dd3_loh179
	.loh AdrpAdd	Lrtp_92408dd3_loh180,Lrtp_92408dd3_loh181
	.loh AdrpAdd	Lrtp_92408dd3_loh182,Lrtp_92408dd3_loh183
	.loh AdrpLdr	Lrtp_92408dd3_loh190,Lrtp_92408dd3_loh191
	.loh AdrpAdrp	Lrtp_92408dd3_loh188,Lrtp_92408dd3_loh190
	.loh AdrpLdr	Lrtp_92408dd3_loh188,Lrtp_92408dd3_loh189
	.loh AdrpAdrp	Lrtp_92408dd3_loh186,Lrtp_92408dd3_loh188
	.loh AdrpLdr	Lrtp_92408dd3_loh186,Lrtp_92408dd3_loh187
	.loh AdrpAdrp	Lrtp_92408dd3_loh184,Lrtp_92408dd3_loh186
	.loh AdrpLdr	Lrtp_92408dd3_loh184,Lrtp_92408dd3_loh185
	.loh AdrpAdd	Lrtp_92408dd3_loh192,Lrtp_92408dd3_loh193
	.loh AdrpAdd	Lrtp_92408dd3_loh194,Lrtp_92408dd3_loh195
	.loh AdrpAdd	Lrtp_92408dd3_loh196,Lrtp_92408dd3_loh197
	.loh AdrpAdd	Lrtp_92408dd3_loh198,Lrtp_92408dd3_loh199
	.loh AdrpAdd	Lrtp_92408dd3_loh200,Lrtp_92408dd3_loh201
	.loh AdrpAdd	Lrtp_92408dd3_loh202,Lrtp_92408dd3_loh203
	.loh AdrpAdd	Lrtp_92408dd3_loh204,Lrtp_92408dd3_loh205
	.loh AdrpLdr	Lrtp_92408dd3_loh212,Lrtp_92408dd3_loh213
	.loh AdrpAdrp	Lrtp_92408dd3_loh210,Lrtp_92408dd3_loh212
	.loh AdrpLdr	Lrtp_92408dd3_loh210,Lrtp_92408dd3_loh211
	.loh AdrpAdrp	Lrtp_92408dd3_loh208,Lrtp_92408dd3_loh210
	.loh AdrpLdr	Lrtp_92408dd3_loh208,Lrtp_92408dd3_loh209
	.loh AdrpAdrp	Lrtp_92408dd3_loh206,Lrtp_92408dd3_loh208
	.loh AdrpLdr	Lrtp_92408dd3_loh206,Lrtp_92408dd3_loh207
	.loh AdrpLdr	Lrtp_92408dd3_loh218,Lrtp_92408dd3_loh219
	.loh AdrpAdrp	Lrtp_92408dd3_loh216,Lrtp_92408dd3_loh218
	.loh AdrpLdr	Lrtp_92408dd3_loh216,Lrtp_92408dd3_loh217
	.loh AdrpAdrp	Lrtp_92408dd3_loh214,Lrtp_92408dd3_loh216
	.loh AdrpLdr	Lrtp_92408dd3_loh214,Lrtp_92408dd3_loh215
	.loh AdrpLdr	Lrtp_92408dd3_loh222,Lrtp_92408dd3_loh223
	.loh AdrpAdrp	Lrtp_92408dd3_loh220,Lrtp_92408dd3_loh222
	.loh AdrpLdr	Lrtp_92408dd3_loh220,Lrtp_92408dd3_loh221
	.loh AdrpAdd	Lrtp_92408dd3_loh224,Lrtp_92408dd3_loh225
	.loh AdrpAdd	Lrtp_92408dd3_loh226,Lrtp_92408dd3_loh227
	.cfi_endproc
	.section	__TEXT,__const
1:
	.byte	(3b-2b)>>2
	.byte	(2b-2b)>>2
	.byte	(2b-2b)>>2
	.byte	(2b-2b)>>2
	.byte	(2b-2b)>>2
	.byte	(2b-2b)>>2
	.byte	(2b-2b)>>2
	.byte	(20b-2b)>>2
	.byte	(8b-2b)>>2
	.byte	(10b-2b)>>2
	.byte	(2b-2b)>>2
	.byte	(2b-2b)>>2
	.byte	(2b-2b)>>2
	.byte	(2b-2b)>>2
	.byte	(2b-2b)>>2
	.byte	(2b-2b)>>2
	.byte	(2b-2b)>>2
	.byte	(13b-2b)>>2
	.byte	(2b-2b)>>2
	.byte	(14b-2b)>>2
	.byte	(2b-2b)>>2
	.byte	(2b-2b)>>2
	.byte	(2b-2b)>>2
	.byte	(2b-2b)>>2
	.byte	(2b-2b)>>2
	.byte	(2b-2b)>>2
	.byte	(2b-2b)>>2
	.byte	(2b-2b)>>2
	.byte	(19b-2b)>>2
	.byte	(2b-2b)>>2
	.byte	(17b-2b)>>2
	.byte	(7b-2b)>>2
	.byte	(11b-2b)>>2
	.byte	(2b-2b)>>2
	.byte	(9b-2b)>>2
	.byte	(18b-2b)>>2
	.byte	(2b-2b)>>2
	.byte	(6b-2b)>>2
	.byte	(2b-2b)>>2
	.byte	(5b-2b)>>2
	.byte	(2b-2b)>>2
	.byte	(2b-2b)>>2
	.byte	(2b-2b)>>2
	.byte	(2b-2b)>>2
	.byte	(15b-2b)>>2
	.byte	(2b-2b)>>2
	.byte	(2b-2b)>>2
	.byte	(16b-2b)>>2
	.byte	(2b-2b)>>2
	.byte	(2b-2b)>>2
	.byte	(2b-2b)>>2
	.byte	(2b-2b)>>2
	.byte	(2b-2b)>>2
	.byte	(2b-2b)>>2
	.byte	(2b-2b)>>2
	.byte	(2b-2b)>>2
	.byte	(2b-2b)>>2
	.byte	(2b-2b)>>2
	.byte	(2b-2b)>>2
	.byte	(2b-2b)>>2
	.byte	(2b-2b)>>2
	.byte	(12b-2b)>>2

	.section	__TEXT,__text,regular,pure_instructions
	.globl	_rtp_92408dd3_rtpw_uri_of_kind
	.p2align	2
_rtp_92408dd3_rtpw_uri_of_kind:
	.cfi_startproc
	stp	x20,x19,[sp,#-32]!
	stp	x29,x30,[sp,#16]
	.cfi_def_cfa_offset 32
	.cfi_offset w30,-8
	.cfi_offset w29,-16
	.cfi_offset w19,-24
	.cfi_offset w20,-32
	mov	x9,x0
	mov	w8,#4096
	cmp	x1,#0
	csel	x10,x8,xzr,eq
	add	x0,x1,x10
	and	w8,w9,#0xff
	sub	w11,w8,#1
	cmp	w11,#14
	b.hi	1f
	mov	w9,#0
Lrtp_92408dd3_loh228:
	adrp	x8,lrtp_92408dd3__static.11@PAGE
Lrtp_92408dd3_loh229:
	add	x8,x8,lrtp_92408dd3__static.11@PAGEOFF
	mov	w19,#61
Lrtp_92408dd3_loh230:
	adrp	x12,2f@PAGE
Lrtp_92408dd3_loh231:
	add	x12,x12,2f@PAGEOFF
	adr	x13,3f
	ldrb	w14,[x12,x11]
	add	x13,x13,x14,lsl #2
	br	x13
3:
	mov	w9,#0
Lrtp_92408dd3_loh232:
	adrp	x8,lrtp_92408dd3__static.9@PAGE
Lrtp_92408dd3_loh233:
	add	x8,x8,lrtp_92408dd3__static.9@PAGEOFF
	mov	w19,#58
	cmp	x2,x19
	b.lo	4f
	b	5f
6:
	mov	w9,#0
Lrtp_92408dd3_loh234:
	adrp	x8,lrtp_92408dd3__static.37@PAGE
Lrtp_92408dd3_loh235:
	add	x8,x8,lrtp_92408dd3__static.37@PAGEOFF
	mov	w19,#70
	cmp	x2,x19
	b.lo	4f
	b	5f
7:
	mov	w9,#0
Lrtp_92408dd3_loh236:
	adrp	x8,lrtp_92408dd3__static.31@PAGE
Lrtp_92408dd3_loh237:
	add	x8,x8,lrtp_92408dd3__static.31@PAGEOFF
	mov	w19,#35
	cmp	x2,x19
	b.lo	4f
	b	5f
8:
	mov	w9,#1
Lrtp_92408dd3_loh238:
	adrp	x8,lrtp_92408dd3__static.17@PAGE
Lrtp_92408dd3_loh239:
	add	x8,x8,lrtp_92408dd3__static.17@PAGEOFF
	mov	w19,#26
	cmp	x2,x19
	b.lo	4f
	b	5f
9:
	mov	w9,#0
Lrtp_92408dd3_loh240:
	adrp	x8,lrtp_92408dd3__static.33@PAGE
Lrtp_92408dd3_loh241:
	add	x8,x8,lrtp_92408dd3__static.33@PAGEOFF
	mov	w19,#60
	cmp	x2,x19
	b.lo	4f
	b	5f
10:
	mov	w9,#0
Lrtp_92408dd3_loh242:
	adrp	x8,lrtp_92408dd3__static.27@PAGE
Lrtp_92408dd3_loh243:
	add	x8,x8,lrtp_92408dd3__static.27@PAGEOFF
	mov	w19,#45
	cmp	x2,x19
	b.lo	4f
	b	5f
11:
	mov	w9,#0
Lrtp_92408dd3_loh244:
	adrp	x8,lrtp_92408dd3__static.13@PAGE
Lrtp_92408dd3_loh245:
	add	x8,x8,lrtp_92408dd3__static.13@PAGEOFF
	mov	w19,#43
	cmp	x2,x19
	b.lo	4f
	b	5f
1:
	sub	w11,w9,#16
	and	w8,w11,#0xff
	cmp	w8,#4
	b.hi	1f
	ubfiz	x8,x11,#3,#8
Lrtp_92408dd3_loh246:
	adrp	x12,lrtp_92408dd3__switch.table.rtp_92408dd3_rtpw_uri_of_kind@PAGE
Lrtp_92408dd3_loh247:
	add	x12,x12,lrtp_92408dd3__switch.table.rtp_92408dd3_rtpw_uri_of_kind@PAGEOFF
	ldr	x19,[x12,x8]
	cmp	x2,x19
	b.hs	12f
	mov	w0,#8
	ldp	x29,x30,[sp,#16]
	ldp	x20,x19,[sp],#32
	ret
13:
	mov	w9,#0
Lrtp_92408dd3_loh248:
	adrp	x8,lrtp_92408dd3__static.15@PAGE
Lrtp_92408dd3_loh249:
	add	x8,x8,lrtp_92408dd3__static.15@PAGEOFF
	mov	w19,#34
	cmp	x2,x19
	b.lo	4f
	b	5f
14:
	mov	w9,#0
Lrtp_92408dd3_loh250:
	adrp	x8,lrtp_92408dd3__static.23@PAGE
Lrtp_92408dd3_loh251:
	add	x8,x8,lrtp_92408dd3__static.23@PAGEOFF
	mov	w19,#63
	cmp	x2,x19
	b.lo	4f
	b	5f
15:
	mov	w9,#0
Lrtp_92408dd3_loh252:
	adrp	x8,lrtp_92408dd3__static.19@PAGE
Lrtp_92408dd3_loh253:
	add	x8,x8,lrtp_92408dd3__static.19@PAGEOFF
	mov	w19,#73
	cmp	x2,x19
	b.lo	4f
	b	5f
16:
	mov	w9,#0
Lrtp_92408dd3_loh254:
	adrp	x8,lrtp_92408dd3__static.35@PAGE
Lrtp_92408dd3_loh255:
	add	x8,x8,lrtp_92408dd3__static.35@PAGEOFF
	mov	w19,#56
	cmp	x2,x19
	b.lo	4f
	b	5f
17:
	mov	w9,#0
Lrtp_92408dd3_loh256:
	adrp	x8,lrtp_92408dd3__static.21@PAGE
Lrtp_92408dd3_loh257:
	add	x8,x8,lrtp_92408dd3__static.21@PAGEOFF
	mov	w19,#58
	cmp	x2,x19
	b.lo	4f
	b	5f
18:
	mov	w9,#0
Lrtp_92408dd3_loh258:
	adrp	x8,lrtp_92408dd3__static.29@PAGE
Lrtp_92408dd3_loh259:
	add	x8,x8,lrtp_92408dd3__static.29@PAGEOFF
	mov	w19,#54
19:
	cmp	x2,x19
	b.hs	5f
4:
	mov	w0,#8
	ldp	x29,x30,[sp,#16]
	ldp	x20,x19,[sp],#32
	ret
20:
	mov	w9,#0
Lrtp_92408dd3_loh260:
	adrp	x8,lrtp_92408dd3__static.25@PAGE
Lrtp_92408dd3_loh261:
	add	x8,x8,lrtp_92408dd3__static.25@PAGEOFF
	mov	w19,#57
	cmp	x2,x19
	b.lo	4b
5:
	sub	x11,x0,x8
	cmp	x11,x19
	b.hs	4f
	add	x11,x10,x1
	sub	x11,x11,x8
	cmp	x11,#32
	b.hs	5f
	mov	x9,#0
	b	21f
4:
	mov	x1,x8
	mov	x2,x19
	mov	x20,x3
	bl	_memmove
4:
	mov	w0,#0
	str	x19,[x20]
	ldp	x29,x30,[sp,#16]
	ldp	x20,x19,[sp],#32
	ret
5:
	tbz	w9,#0,5f
	mov	x9,#0
	b	22f
5:
	and	x11,x19,#0x18
	and	x9,x19,#0x60
	add	x12,x10,x1
	add	x12,x12,#16
	add	x13,x8,#16
	and	x14,x19,#0x60
5:
	ldur	q0,[x13,#-16]
	ldp	d1,d2,[x13],#32
	stur	q0,[x12,#-16]
	stp	d1,d2,[x12],#32
	subs	x14,x14,#32
	b.ne	5b
	cmp	x19,x9
	b.eq	5f
	cbz	x11,21f
22:
	mov	x13,x9
	and	x9,x19,#0x78
	sub	x11,x13,x9
	add	x12,x8,x13
	add	x13,x10,x13
	add	x13,x1,x13
22:
	ldr	d0,[x12],#8
	str	d0,[x13],#8
	adds	x11,x11,#8
	b.ne	22b
	cmp	x19,x9
	b.eq	5f
21:
	sub	x11,x19,x9
	add	x8,x8,x9
	add	x9,x10,x9
	add	x9,x1,x9
21:
	ldrb	w10,[x8],#1
	strb	w10,[x9],#1
	subs	x11,x11,#1
	b.ne	21b
5:
	mov	w0,#0
	str	x19,[x3]
	ldp	x29,x30,[sp,#16]
	ldp	x20,x19,[sp],#32
	ret
1:
	mov	w0,#11
	ldp	x29,x30,[sp,#16]
	ldp	x20,x19,[sp],#32
	ret
12:
Lrtp_92408dd3_loh262:
	adrp	x12,lrtp_92408dd3__switch.table.rtp_92408dd3_rtpw_uri_of_kind.247@PAGE
Lrtp_92408dd3_loh263:
	add	x12,x12,lrtp_92408dd3__switch.table.rtp_92408dd3_rtpw_uri_of_kind.247@PAGEOFF
	ldr	x8,[x12,x8]
	sub	x12,x0,x8
	cmp	x12,x19
	b.hs	1f
	add	x14,x10,x1
	sub	x12,x14,x8
	cmp	x12,#32
	b.hs	12f
	mov	x12,#0
	b	21f
1:
	mov	x1,x8
	mov	x2,x19
	mov	x20,x3
	bl	_memcpy
	b	4b
12:
	and	x12,x19,#0x60
	add	x13,x8,#16
	add	x14,x14,#16
	and	x15,x19,#0x60
1:
	ldp	q0,q1,[x13,#-16]
	stp	q0,q1,[x14,#-16]
	add	x13,x13,#32
	add	x14,x14,#32
	subs	x15,x15,#32
	b.ne	1b
	and	w9,w9,#0x2
	cmp	w9,w11,uxtb
	b.ne	21f
	and	x9,x19,#0x78
	sub	x9,x9,x12
	add	x11,x8,x12
	add	x12,x10,x12
	add	x12,x1,x12
1:
	ldr	d0,[x11],#8
	str	d0,[x12],#8
	subs	x9,x9,#8
	b.ne	1b
	and	x12,x19,#0x78
21:
	sub	x9,x19,x12
	add	x8,x8,x12
	add	x10,x10,x12
	add	x10,x1,x10
1:
	ldrb	w11,[x8],#1
	strb	w11,[x10],#1
	subs	x9,x9,#1
	b.ne	1b
	b	5b
	.loh AdrpAdd	Lrtp_92408dd3_loh230,Lrtp_92408dd3_loh231
	.loh AdrpAdd	Lrtp_92408dd3_loh228,Lrtp_92408dd3_loh229
	.loh AdrpAdd	Lrtp_92408dd3_loh232,Lrtp_92408dd3_loh233
	.loh AdrpAdd	Lrtp_92408dd3_loh234,Lrtp_92408dd3_loh235
	.loh AdrpAdd	Lrtp_92408dd3_loh236,Lrtp_92408dd3_loh237
	.loh AdrpAdd	Lrtp_92408dd3_loh238,Lrtp_92408dd3_loh239
	.loh AdrpAdd	Lrtp_92408dd3_loh240,Lrtp_92408dd3_loh241
	.loh AdrpAdd	Lrtp_92408dd3_loh242,Lrtp_92408dd3_loh243
	.loh AdrpAdd	Lrtp_92408dd3_loh244,Lrtp_92408dd3_loh245
	.loh AdrpAdd	Lrtp_92408dd3_loh246,Lrtp_92408dd3_loh247
	.loh AdrpAdd	Lrtp_92408dd3_loh248,Lrtp_92408dd3_loh249
	.loh AdrpAdd	Lrtp_92408dd3_loh250,Lrtp_92408dd3_loh251
	.loh AdrpAdd	Lrtp_92408dd3_loh252,Lrtp_92408dd3_loh253
	.loh AdrpAdd	Lrtp_92408dd3_loh254,Lrtp_92408dd3_loh255
	.loh AdrpAdd	Lrtp_92408dd3_loh256,Lrtp_92408dd3_loh257
	.loh AdrpAdd	Lrtp_92408dd3_loh258,Lrtp_92408dd3_loh259
	.loh AdrpAdd	Lrtp_92408dd3_loh260,Lrtp_92408dd3_loh261
	.loh AdrpAdd	Lrtp_92408dd3_loh262,Lrtp_92408dd3_loh263
	.cfi_endproc
	.section	__TEXT,__const
2:
	.byte	(3b-3b)>>2
	.byte	(19b-3b)>>2
	.byte	(11b-3b)>>2
	.byte	(13b-3b)>>2
	.byte	(8b-3b)>>2
	.byte	(15b-3b)>>2
	.byte	(17b-3b)>>2
	.byte	(14b-3b)>>2
	.byte	(20b-3b)>>2
	.byte	(10b-3b)>>2
	.byte	(18b-3b)>>2
	.byte	(7b-3b)>>2
	.byte	(9b-3b)>>2
	.byte	(16b-3b)>>2
	.byte	(6b-3b)>>2

	.section	__TEXT,__text,regular,pure_instructions
	.globl	_rtp_92408dd3_rtpw_read_color_space
	.p2align	2
_rtp_92408dd3_rtpw_read_color_space:
	.cfi_startproc
	mov	w8,#4096
	cmp	x0,#0
	csel	x8,x8,xzr,eq
	add	x8,x0,x8
	cmp	x1,#28
	b.eq	1f
	cmp	x1,#4
	b.ne	2f
	ldrb	w11,[x8,#3]
	ubfx	w9,w11,#2,#2
	and	w10,w11,#0x3
	cmp	w10,#3
	ccmp	w9,#3,#4,ne
	b.ne	3f
	mov	w0,#9
	ret
1:
	ldrb	w11,[x8,#3]
	ubfx	w9,w11,#2,#2
	and	w10,w11,#0x3
	cmp	w10,#3
	ccmp	w9,#3,#4,ne
	b.ne	1f
2:
	mov	w0,#9
	ret
3:
	mov	w14,#0
	mov	w12,#0
	mov	w13,#0
	mov	w15,#0
	mov	w16,#0
	movi.2d	v0,#0000000000000000
	b	2f
1:
	add	x12,x8,#4
	ld2.8b	{ v0,v1 },[x12]
	shll.8h	v2,v0,#8
	ushll.8h	v0,v1,#0
	orr.16b	v0,v2,v0
	ldrh	w12,[x8,#20]
	rev16	w12,w12
	ldrh	w13,[x8,#22]
	rev16	w13,w13
	ldrh	w14,[x8,#24]
	rev16	w15,w14
	ldrh	w14,[x8,#26]
	rev16	w16,w14
	mov	w14,#1
2:
	mov	w0,#0
	ldrh	w17,[x8]
	ldrb	w8,[x8,#2]
	strh	w12,[x2,#16]
	ubfx	w11,w11,#4,#2
	str	q0,[x2]
	strh	w13,[x2,#18]
	strh	w15,[x2,#20]
	strh	w16,[x2,#22]
	strh	w17,[x2,#24]
	strb	w8,[x2,#26]
	strb	w11,[x2,#27]
	strb	w9,[x2,#28]
	strb	w10,[x2,#29]
	strb	w14,[x2,#30]
	strb	wzr,[x2,#31]
	ret
	.cfi_endproc

	.section	__TEXT,__literal8,8byte_literals
	.p2align	3,0x0
lrtp_92408dd3_CPI176_0:
	.short	0
	.short	65530
	.short	65531
	.short	65532
	.section	__TEXT,__text,regular,pure_instructions
	.globl	_rtp_92408dd3_rtpw_read_frame_marking
	.p2align	2
_rtp_92408dd3_rtpw_read_frame_marking:
	.cfi_startproc
	mov	w8,#4096
	cmp	x0,#0
	csel	x8,x8,xzr,eq
	cbz	x1,1f
	add	x15,x0,x8
	cmp	x1,#1
	b.ne	2f
	mov	w13,#0
	mov	w11,#0
	mov	w9,#0
	mov	w8,#0
	mov	w10,#0
	mov	w12,#0
	ldrb	w14,[x15]
	b	3f
2:
	cmp	x1,#2
	b.hi	2f
	mov	w8,#0
	mov	w10,#0
	ldrb	w14,[x15]
	ldrb	w9,[x15,#1]
	ubfx	w13,w14,#3,#1
	and	w11,w14,#0x7
	b	4f
2:
	cmp	x1,#3
	b.ne	1f
	ldrb	w14,[x15]
	ldrb	w9,[x15,#1]
	ldrb	w8,[x15,#2]
	ubfx	w13,w14,#3,#1
	and	w11,w14,#0x7
	mov	w10,#1
4:
	mov	w12,#1
3:
	mov	w0,#0
	fmov	s0,w14
	umov.b	w14,v0[0]
	dup.4h	v1,w14
Lrtp_92408dd3_loh264:
	adrp	x14,lrtp_92408dd3_CPI176_0@PAGE
Lrtp_92408dd3_loh265:
	ldr	d2,[x14,lrtp_92408dd3_CPI176_0@PAGEOFF]
	cmp	w12,#0
	csel	w13,wzr,w13,eq
	cset	w14,ne
	strb	w14,[x2,#4]
	zip1.8b	v0,v0,v0
	bic.4h	v0,#255,lsl #8
	bic.4h	v1,#255,lsl #8
	ushl.4h	v1,v1,v2
	ushr.4h	v0,v0,#7
	bic.4h	v1,#254
	mov.h	v1[0],v0[0]
	uzp1.8b	v0,v1,v0
	str	s0,[x2]
	strb	w13,[x2,#5]
	csel	w11,wzr,w11,eq
	csel	w9,wzr,w9,eq
	csel	w10,wzr,w10,eq
	strb	w11,[x2,#6]
	strb	w9,[x2,#7]
	cmp	w12,#0
	csel	w8,wzr,w8,eq
	strb	w10,[x2,#8]
	strb	w8,[x2,#9]
	ret
1:
	mov	w0,#9
	ret
	.loh AdrpLdr	Lrtp_92408dd3_loh264,Lrtp_92408dd3_loh265
	.cfi_endproc

	.globl	_rtp_92408dd3_rtpw_read_timing
	.p2align	2
_rtp_92408dd3_rtpw_read_timing:
	.cfi_startproc
	mov	w8,#4096
	cmp	x0,#0
	csel	x8,x8,xzr,eq
	add	x15,x0,x8
	cmp	x1,#13
	b.eq	1f
	cmp	x1,#12
	b.ne	2f
	mov	w8,#0
	mov	w11,#0
	ldrh	w9,[x15]
	rev16	w9,w9
	ldrh	w10,[x15,#2]
	rev16	w10,w10
	ldrh	w12,[x15,#4]
	rev16	w12,w12
	ldrh	w13,[x15,#6]
	rev16	w13,w13
	ldrh	w14,[x15,#8]
	rev16	w14,w14
	ldrh	w15,[x15,#10]
	rev16	w15,w15
	b	3f
1:
	ldrb	w8,[x15]
	ldurh	w9,[x15,#1]
	rev16	w9,w9
	ldurh	w10,[x15,#3]
	rev16	w10,w10
	ldurh	w11,[x15,#5]
	rev16	w12,w11
	ldurh	w11,[x15,#7]
	rev16	w13,w11
	ldurh	w11,[x15,#9]
	rev16	w14,w11
	ldurh	w11,[x15,#11]
	rev16	w15,w11
	mov	w11,#1
3:
	mov	w0,#0
	strh	w9,[x2]
	strh	w10,[x2,#2]
	strh	w12,[x2,#4]
	strh	w13,[x2,#6]
	strh	w14,[x2,#8]
	strh	w15,[x2,#10]
	strb	w8,[x2,#12]
	strb	w11,[x2,#13]
	ret
2:
	mov	w0,#9
	ret
	.cfi_endproc

	.section	__TEXT,__literal16,16byte_literals
	.p2align	4,0x0
lrtp_92408dd3_CPI178_0:
	.byte	1
	.byte	2
	.byte	4
	.byte	8
	.byte	16
	.byte	32
	.byte	64
	.byte	128
	.byte	1
	.byte	2
	.byte	4
	.byte	8
	.byte	16
	.byte	32
	.byte	64
	.byte	128
	.section	__TEXT,__text,regular,pure_instructions
	.globl	_rtp_92408dd3_rtpw_left_out
	.p2align	2
_rtp_92408dd3_rtpw_left_out:
	.cfi_startproc
	sub	sp,sp,#144
	str	x27,[sp,#48]
	stp	x26,x25,[sp,#64]
	stp	x24,x23,[sp,#80]
	stp	x22,x21,[sp,#96]
	stp	x20,x19,[sp,#112]
	stp	x29,x30,[sp,#128]
	.cfi_def_cfa_offset 144
	.cfi_offset w30,-8
	.cfi_offset w29,-16
	.cfi_offset w19,-24
	.cfi_offset w20,-32
	.cfi_offset w21,-40
	.cfi_offset w22,-48
	.cfi_offset w23,-56
	.cfi_offset w24,-64
	.cfi_offset w25,-72
	.cfi_offset w26,-80
	.cfi_offset w27,-96
	mov	x19,x1
	mov	x20,x0
	ldrb	w21,[x1,#209]
	cbz	w21,1f
	ldrh	w8,[x19,#154]
	mov	w0,#9
	cmp	w8,#179
	b.gt	2f
	cbz	w8,1f
	cmp	w8,#90
	b.eq	1f
	b	3f
2:
	cmp	w8,#270
	b.eq	1f
	cmp	w8,#180
	b.ne	3f
1:
	ldrb	w22,[x19,#213]
	cbz	w22,1f
	ldr	w8,[x19,#120]
	cbz	w8,2f
1:
	ldrb	w24,[x19,#214]
	cbz	w24,1f
	ldr	w8,[x19,#136]
	cbz	w8,2f
1:
	ldrb	w8,[x19,#211]
	cbz	w8,1f
	ldrb	w9,[x19,#166]
	add	w9,w9,#127
	tbnz	w9,#7,2f
1:
	ldrb	w23,[x19,#216]
	cbz	w23,1f
	mov	x9,x19
	ldr	q0,[x9,#168]!
	movi.16b	v1,#32
	orr.16b	v1,v0,v1
	movi.16b	v2,#133
	add.16b	v1,v1,v2
	movi.16b	v2,#230
	cmhi.16b	v1,v2,v1
	movi.16b	v2,#198
	add.16b	v2,v0,v2
	movi.16b	v3,#246
	cmhi.16b	v2,v3,v2
	and.16b	v1,v2,v1
	movi.16b	v2,#95
	cmeq.16b	v0,v0,v2
	bic.16b	v0,v1,v0
Lrtp_92408dd3_loh266:
	adrp	x10,lrtp_92408dd3_CPI178_0@PAGE
Lrtp_92408dd3_loh267:
	ldr	q1,[x10,lrtp_92408dd3_CPI178_0@PAGEOFF]
	and.16b	v0,v0,v1
	ext.16b	v1,v0,v0,#8
	zip1.16b	v0,v0,v1
	addv.8h	h0,v0
	fmov	w10,s0
	orr	w10,w10,#0x10000
	rbit	w10,w10
	clz	w10,w10
	ldrb	w9,[x9,w10,uxtw]
	cbnz	w9,2f
1:
	ldrb	w25,[x19,#217]
	cbz	w25,1f
	mov	x9,x19
	ldrb	w10,[x9,#185]!
	cbz	w10,4f
	ldrb	w10,[x19,#186]
	cbz	w10,5f
	ldrb	w10,[x19,#187]
	cbz	w10,6f
	ldrb	w10,[x19,#188]
	cbz	w10,7f
	ldrb	w10,[x19,#189]
	cbz	w10,8f
	ldrb	w10,[x19,#190]
	cbz	w10,9f
	ldrb	w10,[x19,#191]
	cbz	w10,10f
	ldrb	w10,[x19,#192]
	cbz	w10,11f
	ldrb	w10,[x19,#193]
	cbnz	w10,2f
	mov	w10,#8
	b	12f
4:
	mov	x10,#0
	b	12f
5:
	mov	w10,#1
	b	12f
6:
	mov	w10,#2
	b	12f
7:
	mov	w10,#3
	b	12f
8:
	mov	w10,#4
	b	12f
9:
	mov	w10,#5
	b	12f
10:
	mov	w10,#6
	b	12f
11:
	mov	w10,#7
12:
	cbz	x10,1f
	ldrb	w11,[x9],#1
	sub	x10,x10,#1
	sub	w12,w11,#48
	and	w13,w11,#0xffffffdf
	sub	w13,w13,#65
	cmp	w11,#95
	ccmp	w12,#10,#0,ne
	ccmp	w13,#26,#0,hs
	b.lo	12b
	b	2f
1:
	ldrb	w26,[x19,#218]
	cbz	w26,1f
	mov	x9,x19
	ldrb	w10,[x9,#194]!
	cbz	w10,4f
	ldrb	w10,[x19,#195]
	cbz	w10,5f
	ldrb	w10,[x19,#196]
	cbz	w10,6f
	ldrb	w10,[x19,#197]
	cbz	w10,7f
	ldrb	w10,[x19,#198]
	cbz	w10,8f
	ldrb	w10,[x19,#199]
	cbz	w10,9f
	ldrb	w10,[x19,#200]
	cbz	w10,10f
	ldrb	w10,[x19,#201]
	cbz	w10,11f
	ldrb	w10,[x19,#202]
	cbnz	w10,2f
	mov	w10,#8
	b	12f
4:
	mov	x10,#0
	b	12f
5:
	mov	w10,#1
	b	12f
6:
	mov	w10,#2
	b	12f
7:
	mov	w10,#3
	b	12f
8:
	mov	w10,#4
	b	12f
9:
	mov	w10,#5
	b	12f
10:
	mov	w10,#6
	b	12f
11:
	mov	w10,#7
12:
	cbz	x10,1f
	ldrb	w11,[x9],#1
	sub	x10,x10,#1
	sub	w12,w11,#48
	and	w13,w11,#0xffffffdf
	sub	w13,w13,#65
	cmp	w11,#95
	ccmp	w12,#10,#0,ne
	ccmp	w13,#26,#0,hs
	b.lo	12b
	b	2f
1:
	ldrsb	w9,[x19,#78]
	tbnz	w9,#31,2f
	ldrb	w9,[x19,#79]
	cmp	w9,#15
	b.ls	1f
2:
	mov	w0,#9
3:
	ldp	x29,x30,[sp,#128]
	ldp	x20,x19,[sp,#112]
	ldp	x22,x21,[sp,#96]
	ldp	x24,x23,[sp,#80]
	ldp	x26,x25,[sp,#64]
	ldr	x27,[sp,#48]
	add	sp,sp,#144
	ret
1:
	ldrb	w9,[x19,#82]
	cbz	w9,1f
	ldp	q0,q1,[x20,#144]
	ldp	q2,q3,[x20,#80]
	orr.16b	v0,v0,v2
	ldp	q2,q4,[x20,#208]
	orr.16b	v0,v2,v0
	ldp	q5,q2,[x20,#112]
	ldp	q7,q6,[x20,#48]
	orr.16b	v2,v2,v6
	ldp	q16,q6,[x20,#176]
	orr.16b	v2,v6,v2
	orr.16b	v5,v5,v7
	orr.16b	v5,v16,v5
	ldp	q6,q7,[x20,#16]
	orr.16b	v3,v3,v7
	orr.16b	v1,v1,v3
	orr.16b	v1,v5,v1
	orr.16b	v1,v2,v1
	orr.16b	v0,v0,v1
	ext.16b	v1,v0,v0,#8
	orr.8b	v0,v0,v1
	fmov	x9,d0
	orr	x9,x9,x9,lsr #32
	lsr	x10,x9,#16
	orr	w9,w9,w10
	orr	w9,w9,w9,lsr #8
	movi.2d	v0,#0000000000000000
	mov.b	v0[0],w9
	ldr	q1,[x20,#240]
	orr.16b	v1,v1,v4
	orr.16b	v1,v6,v1
	orr.16b	v0,v1,v0
	ext.16b	v1,v0,v0,#8
	orr.8b	v0,v0,v1
	fmov	x9,d0
	orr	x9,x9,x9,lsr #32
	lsr	x10,x9,#16
	orr	w9,w9,w10
	orr	w9,w9,w9,lsr #8
	tst	w9,#0xff
	str	x2,[sp]
	b.eq	2f
	mov	w9,#15
	b	4f
1:
	ldrb	w9,[x19,#203]
	cmp	w9,#0
	cset	w9,ne
	ldrb	w27,[x19,#204]
	cmp	w27,#0
	cset	w10,ne
	ldrb	w11,[x19,#212]
	orr	w8,w11,w8
	cmp	w8,#0
	cset	w8,ne
	ldrb	w11,[x19,#206]
	cmp	w11,#0
	cset	w11,ne
	cmp	w21,#0
	cset	w12,ne
	ldrb	w13,[x19,#208]
	cmp	w13,#0
	cset	w13,ne
	orr	w14,w24,w22
	cmp	w14,#0
	cset	w14,ne
	ldrb	w15,[x19,#210]
	cmp	w15,#0
	cset	w15,ne
	ldrb	w16,[x19,#215]
	cmp	w16,#0
	cset	w17,ne
	cmp	w25,#0
	cset	w1,ne
	cmp	w26,#0
	cset	w16,ne
	cmp	w23,#0
	cset	w4,ne
	ldrb	w0,[x19,#207]
	cmp	w0,#0
	cset	w3,ne
	b	1f
2:
	ldr	q0,[x20]
Lrtp_92408dd3_loh268:
	adrp	x9,lrtp_92408dd3_CPI178_0@PAGE
Lrtp_92408dd3_loh269:
	ldr	q1,[x9,lrtp_92408dd3_CPI178_0@PAGEOFF]
	cmeq.16b	v0,v0,#0
	bic.16b	v0,v1,v0
	ext.16b	v1,v0,v0,#8
	zip1.16b	v0,v0,v1
	addv.8h	h0,v0
	fmov	w9,s0
	orr	w9,w9,#0x1
	and	x9,x9,#0xffff
	clz	x9,x9
	eor	x9,x9,#0x3f
4:
	mov	x1,#0
	ldrb	w10,[x19,#203]
	str	w10,[sp,#36]
	cmp	w10,#0
	cset	w11,ne
	ldrb	w27,[x19,#204]
	cmp	w27,#0
	cset	w12,ne
	ldrb	w10,[x19,#212]
	orr	w13,w10,w8
	cmp	w13,#0
	cset	w13,ne
	ldrb	w14,[x19,#206]
	str	w14,[sp,#32]
	cmp	w14,#0
	cset	w14,ne
	cmp	w21,#0
	cset	w15,ne
	ldrb	w16,[x19,#208]
	str	w16,[sp,#28]
	cmp	w16,#0
	cset	w16,ne
	orr	w17,w24,w22
	cmp	w17,#0
	cset	w17,ne
	ldrb	w0,[x19,#210]
	str	w0,[sp,#24]
	cmp	w0,#0
	cset	w0,ne
	ldrb	w2,[x19,#215]
	str	w2,[sp,#20]
	cmp	w2,#0
	cset	w2,ne
	ldrb	w3,[x19,#207]
	strb	w11,[sp,#63]
	cmp	w25,#0
	cset	w11,ne
	strb	w12,[sp,#62]
	strb	w13,[sp,#61]
	cmp	w26,#0
	cset	w12,ne
	strb	w14,[sp,#60]
	strb	w15,[sp,#59]
	cmp	w23,#0
	cset	w13,ne
	strb	w16,[sp,#58]
	cmp	w3,#0
	cset	w14,ne
	strb	w17,[sp,#57]
	strb	w0,[sp,#56]
	strb	w2,[sp,#47]
	strb	w11,[sp,#46]
	strb	w12,[sp,#45]
	strb	w13,[sp,#44]
	strb	w14,[sp,#43]
	cmp	w8,#0
	ccmp	w10,#0,#4,ne
	cset	w8,ne
	stp	w8,w3,[sp,#12]
	b	2f
4:
	cbz	w27,2f
	add	x8,sp,#62
5:
	strb	wzr,[x8]
2:
	cmp	x1,x9
	b.hs	6f
	add	x1,x1,#1
	ldrb	w8,[x20,x1]
	sub	w8,w8,#1
	cmp	w8,#12
	b.hi	2b
Lrtp_92408dd3_loh270:
	adrp	x10,7f@PAGE
Lrtp_92408dd3_loh271:
	add	x10,x10,7f@PAGEOFF
	adr	x11,4b
	ldrb	w12,[x10,x8]
	add	x11,x11,x12,lsl #2
	br	x11
8:
	ldr	w8,[sp,#36]
	cbz	w8,2b
	add	x8,sp,#63
	strb	wzr,[x8]
	b	2b
6:
	cmp	x9,#15
	b.lo	6f
	cmp	x1,#254
	b.hi	6f
	mov	x0,x20
	bl	_rtp_92408dd3_rtp_c.kinds.StoredMap.past_unmapped
	mov	x1,x0
	add	x8,x0,#16
	mov	w9,#255
	cmp	x8,#255
	csel	x9,x8,x9,lo
	b	2b
9:
	cbz	w23,2b
	add	x8,sp,#44
	strb	wzr,[x8]
	b	2b
10:
	cbz	w21,2b
	ldrh	w10,[x19,#154]
	add	x8,sp,#59
	cmp	w10,#179
	b.gt	11f
	cbz	w10,5b
	cmp	w10,#90
	b.eq	5b
	b	2b
12:
	ldr	w8,[sp,#16]
	cbz	w8,2b
	add	x8,sp,#43
	strb	wzr,[x8]
	b	2b
13:
	cbz	w25,2b
	add	x8,sp,#46
	strb	wzr,[x8]
	b	2b
14:
	ldr	w8,[sp,#12]
	tbz	w8,#0,2b
	add	x8,sp,#61
	strb	wzr,[x8]
	b	2b
15:
	ldr	w8,[sp,#32]
	cbz	w8,2b
	add	x8,sp,#60
	strb	wzr,[x8]
	b	2b
16:
	ldr	w8,[sp,#24]
	cbz	w8,2b
	add	x8,sp,#56
	strb	wzr,[x8]
	b	2b
17:
	ldr	w8,[sp,#28]
	cbz	w8,2b
	add	x8,sp,#58
	strb	wzr,[x8]
	b	2b
18:
	cbz	w22,19f
	ldr	w8,[x19,#120]
	cmp	w8,#0
	cset	w8,ne
	b	20f
21:
	cbz	w26,2b
	add	x8,sp,#45
	strb	wzr,[x8]
	b	2b
22:
	ldr	w8,[sp,#20]
	cbz	w8,2b
	add	x8,sp,#47
	strb	wzr,[x8]
	b	2b
19:
	mov	w8,#0
20:
	cbz	w24,2b
	ldr	w10,[x19,#136]
	cmp	w10,#0
	csel	w8,wzr,w8,eq
	tbz	w8,#0,2b
	add	x8,sp,#57
	strb	wzr,[x8]
	b	2b
11:
	cmp	w10,#180
	b.eq	5b
	cmp	w10,#270
	b.eq	5b
	b	2b
6:
	ldrb	w9,[sp,#63]
	ldrb	w10,[sp,#62]
	ldrb	w8,[sp,#61]
	ldrb	w11,[sp,#60]
	ldrb	w12,[sp,#59]
	ldrb	w13,[sp,#58]
	ldrb	w14,[sp,#57]
	ldrb	w15,[sp,#56]
	ldrb	w17,[sp,#47]
	ldrb	w1,[sp,#46]
	ldrb	w16,[sp,#45]
	ldrb	w4,[sp,#44]
	ldrb	w3,[sp,#43]
	ldr	x2,[sp]
1:
	mov	w0,#0
	ldrb	w5,[x19,#205]
	cmp	w27,#0
	csinc	w6,w10,wzr,ne
	cmp	w5,#0
	csel	w10,w10,w6,eq
	ldrb	w5,[x19,#219]
	lsl	w8,w8,#3
	add	w8,w8,w9,lsl #1
	add	w8,w8,w11,lsl #4
	add	w8,w8,w12,lsl #5
	add	w8,w8,w10,lsl #2
	orr	w8,w8,w13,lsl #6
	orr	w8,w8,w14,lsl #7
	lsl	w9,w17,#9
	add	w9,w9,w15,lsl #8
	add	w9,w9,w1,lsl #10
	bfxil	w9,w8,#0,#8
	lsl	w8,w4,#12
	mov	w10,#32768
	cmp	w5,#0
	csel	w10,wzr,w10,eq
	orr	w8,w8,w16,lsl #11
	orr	w8,w8,w3,lsl #13
	orr	w8,w8,w10
	orr	w8,w8,w9
	str	w8,[x2]
	b	3b
	.loh AdrpLdr	Lrtp_92408dd3_loh266,Lrtp_92408dd3_loh267
	.loh AdrpLdr	Lrtp_92408dd3_loh268,Lrtp_92408dd3_loh269
	.loh AdrpAdd	Lrtp_92408dd3_loh270,Lrtp_92408dd3_loh271
	.cfi_endproc
	.section	__TEXT,__const
7:
	.byte	(8b-4b)>>2
	.byte	(4b-4b)>>2
	.byte	(14b-4b)>>2
	.byte	(15b-4b)>>2
	.byte	(10b-4b)>>2
	.byte	(17b-4b)>>2
	.byte	(18b-4b)>>2
	.byte	(16b-4b)>>2
	.byte	(22b-4b)>>2
	.byte	(13b-4b)>>2
	.byte	(21b-4b)>>2
	.byte	(9b-4b)>>2
	.byte	(12b-4b)>>2

	.section	__TEXT,__literal16,16byte_literals
	.p2align	4,0x0
lrtp_92408dd3_CPI179_0:
	.byte	1
	.byte	2
	.byte	4
	.byte	8
	.byte	16
	.byte	32
	.byte	64
	.byte	128
	.byte	1
	.byte	2
	.byte	4
	.byte	8
	.byte	16
	.byte	32
	.byte	64
	.byte	128
	.section	__TEXT,__text,regular,pure_instructions
	.globl	_rtp_92408dd3_rtpw_left_out_layers
	.p2align	2
_rtp_92408dd3_rtpw_left_out_layers:
	.cfi_startproc
	sub	sp,sp,#208
	str	x27,[sp,#112]
	stp	x26,x25,[sp,#128]
	stp	x24,x23,[sp,#144]
	stp	x22,x21,[sp,#160]
	stp	x20,x19,[sp,#176]
	stp	x29,x30,[sp,#192]
	.cfi_def_cfa_offset 208
	.cfi_offset w30,-8
	.cfi_offset w29,-16
	.cfi_offset w19,-24
	.cfi_offset w20,-32
	.cfi_offset w21,-40
	.cfi_offset w22,-48
	.cfi_offset w23,-56
	.cfi_offset w24,-64
	.cfi_offset w25,-72
	.cfi_offset w26,-80
	.cfi_offset w27,-96
	movi.2d	v0,#0000000000000000
	stp	q0,q0,[sp,#64]
	str	q0,[sp,#48]
	ldrb	w8,[x1,#209]
	cbz	w8,1f
	ldrh	w9,[x1,#154]
	mov	w8,#9
	cmp	w9,#179
	b.gt	2f
	cbz	w9,1f
	cmp	w9,#90
	b.eq	1f
	b	3f
2:
	cmp	w9,#270
	b.eq	1f
	cmp	w9,#180
	b.ne	3f
1:
	ldrb	w8,[x1,#213]
	cbz	w8,1f
	ldr	w8,[x1,#120]
	cbz	w8,2f
1:
	ldrb	w8,[x1,#214]
	cbz	w8,1f
	ldr	w8,[x1,#136]
	cbz	w8,2f
1:
	ldrb	w8,[x1,#211]
	cbz	w8,1f
	ldrb	w8,[x1,#166]
	add	w8,w8,#127
	tbnz	w8,#7,2f
1:
	ldrb	w8,[x1,#216]
	cbz	w8,1f
	mov	x8,x1
	ldr	q0,[x8,#168]!
	movi.16b	v1,#32
	orr.16b	v1,v0,v1
	movi.16b	v2,#133
	add.16b	v1,v1,v2
	movi.16b	v2,#230
	cmhi.16b	v1,v2,v1
	movi.16b	v2,#198
	add.16b	v2,v0,v2
	movi.16b	v3,#246
	cmhi.16b	v2,v3,v2
	and.16b	v1,v2,v1
	movi.16b	v2,#95
	cmeq.16b	v0,v0,v2
	bic.16b	v0,v1,v0
Lrtp_92408dd3_loh272:
	adrp	x9,lrtp_92408dd3_CPI179_0@PAGE
Lrtp_92408dd3_loh273:
	ldr	q1,[x9,lrtp_92408dd3_CPI179_0@PAGEOFF]
	and.16b	v0,v0,v1
	ext.16b	v1,v0,v0,#8
	zip1.16b	v0,v0,v1
	addv.8h	h0,v0
	fmov	w9,s0
	orr	w9,w9,#0x10000
	rbit	w9,w9
	clz	w9,w9
	ldrb	w8,[x8,w9,uxtw]
	cbnz	w8,2f
1:
	ldrb	w8,[x1,#217]
	cbz	w8,1f
	mov	x8,x1
	ldrb	w9,[x8,#185]!
	cbz	w9,4f
	ldrb	w9,[x1,#186]
	cbz	w9,5f
	ldrb	w9,[x1,#187]
	cbz	w9,6f
	ldrb	w9,[x1,#188]
	cbz	w9,7f
	ldrb	w9,[x1,#189]
	cbz	w9,8f
	ldrb	w9,[x1,#190]
	cbz	w9,9f
	ldrb	w9,[x1,#191]
	cbz	w9,10f
	ldrb	w9,[x1,#192]
	cbz	w9,11f
	ldrb	w9,[x1,#193]
	cbnz	w9,2f
	mov	w9,#8
	b	12f
4:
	mov	x9,#0
	b	12f
5:
	mov	w9,#1
	b	12f
6:
	mov	w9,#2
	b	12f
7:
	mov	w9,#3
	b	12f
8:
	mov	w9,#4
	b	12f
9:
	mov	w9,#5
	b	12f
10:
	mov	w9,#6
	b	12f
11:
	mov	w9,#7
12:
	cbz	x9,1f
	ldrb	w10,[x8],#1
	sub	x9,x9,#1
	sub	w11,w10,#48
	and	w12,w10,#0xffffffdf
	sub	w12,w12,#65
	cmp	w10,#95
	ccmp	w11,#10,#0,ne
	ccmp	w12,#26,#0,hs
	b.lo	12b
	b	2f
1:
	ldrb	w8,[x1,#218]
	cbz	w8,1f
	mov	x8,x1
	ldrb	w9,[x8,#194]!
	cbz	w9,4f
	ldrb	w9,[x1,#195]
	cbz	w9,5f
	ldrb	w9,[x1,#196]
	cbz	w9,6f
	ldrb	w9,[x1,#197]
	cbz	w9,7f
	ldrb	w9,[x1,#198]
	cbz	w9,8f
	ldrb	w9,[x1,#199]
	cbz	w9,9f
	ldrb	w9,[x1,#200]
	cbz	w9,10f
	ldrb	w9,[x1,#201]
	cbz	w9,11f
	ldrb	w9,[x1,#202]
	cbnz	w9,2f
	mov	w9,#8
	b	12f
4:
	mov	x9,#0
	b	12f
5:
	mov	w9,#1
	b	12f
6:
	mov	w9,#2
	b	12f
7:
	mov	w9,#3
	b	12f
8:
	mov	w9,#4
	b	12f
9:
	mov	w9,#5
	b	12f
10:
	mov	w9,#6
	b	12f
11:
	mov	w9,#7
12:
	cbz	x9,1f
	ldrb	w10,[x8],#1
	sub	x9,x9,#1
	sub	w11,w10,#48
	and	w12,w10,#0xffffffdf
	sub	w12,w12,#65
	cmp	w10,#95
	ccmp	w11,#10,#0,ne
	ccmp	w12,#26,#0,hs
	b.lo	12b
	b	2f
1:
	ldrsb	w8,[x1,#78]
	tbnz	w8,#31,2f
	ldrb	w8,[x1,#79]
	cmp	w8,#15
	b.hi	2f
	mov	x19,x0
	stp	x1,x3,[sp,#32]
	add	x8,x1,#88
	ldrb	w20,[x1,#82]
	str	x8,[sp,#96]
	add	x0,sp,#48
	add	x1,sp,#96
	bl	_rtp_92408dd3_rtp_c.given_layers.with_given_layers.6444109e7f8c5753
	ldrb	w8,[sp,#48]
	cmp	w8,#1
	b.ne	2f
	ldr	x10,[sp,#56]
	cbz	w20,1f
	mov	x8,x19
	ldp	q0,q1,[x19,#144]
	ldp	q2,q3,[x19,#80]
	orr.16b	v0,v0,v2
	ldp	q2,q4,[x19,#208]
	orr.16b	v0,v2,v0
	ldp	q5,q2,[x19,#112]
	ldp	q7,q6,[x19,#48]
	orr.16b	v2,v2,v6
	ldp	q16,q6,[x19,#176]
	orr.16b	v2,v6,v2
	orr.16b	v5,v5,v7
	orr.16b	v5,v16,v5
	ldp	q6,q7,[x19,#16]
	orr.16b	v3,v3,v7
	orr.16b	v1,v1,v3
	orr.16b	v1,v5,v1
	orr.16b	v1,v2,v1
	orr.16b	v0,v0,v1
	ext.16b	v1,v0,v0,#8
	orr.8b	v0,v0,v1
	fmov	x9,d0
	orr	x9,x9,x9,lsr #32
	lsr	x11,x9,#16
	orr	w9,w9,w11
	orr	w9,w9,w9,lsr #8
	movi.2d	v0,#0000000000000000
	mov.b	v0[0],w9
	ldr	q1,[x19,#240]
	orr.16b	v1,v1,v4
	orr.16b	v1,v6,v1
	orr.16b	v0,v1,v0
	ext.16b	v1,v0,v0,#8
	orr.8b	v0,v0,v1
	fmov	x9,d0
	orr	x9,x9,x9,lsr #32
	lsr	x11,x9,#16
	orr	w9,w9,w11
	orr	w9,w9,w9,lsr #8
	tst	w9,#0xff
	b.eq	4f
	mov	w9,#15
	b	5f
2:
	mov	w8,#9
3:
	mov	x0,x8
	ldp	x29,x30,[sp,#192]
	ldp	x20,x19,[sp,#176]
	ldp	x22,x21,[sp,#160]
	ldp	x24,x23,[sp,#144]
	ldp	x26,x25,[sp,#128]
	ldr	x27,[sp,#112]
	add	sp,sp,#208
	ret
1:
	ldr	x8,[x10]
	ldrb	w9,[x8,#115]
	cmp	w9,#0
	cset	w9,ne
	ldrb	w10,[x8,#116]
	cmp	w10,#0
	cset	w10,ne
	ldrb	w11,[x8,#123]
	ldrb	w12,[x8,#124]
	orr	w11,w12,w11
	cmp	w11,#0
	cset	w11,ne
	ldrb	w12,[x8,#118]
	cmp	w12,#0
	cset	w12,ne
	ldrb	w13,[x8,#121]
	cmp	w13,#0
	cset	w13,ne
	ldrb	w14,[x8,#120]
	cmp	w14,#0
	cset	w14,ne
	ldrb	w15,[x8,#125]
	ldrb	w16,[x8,#126]
	orr	w15,w16,w15
	cmp	w15,#0
	cset	w15,ne
	ldrb	w16,[x8,#122]
	cmp	w16,#0
	cset	w16,ne
	ldrb	w17,[x8,#127]
	cmp	w17,#0
	cset	w17,ne
	ldrb	w0,[x8,#129]
	cmp	w0,#0
	cset	w0,ne
	ldrb	w1,[x8,#130]
	cmp	w1,#0
	cset	w1,ne
	ldrb	w2,[x8,#128]
	cmp	w2,#0
	cset	w2,ne
	ldrb	w8,[x8,#119]
	cmp	w8,#0
	cset	w3,ne
	mov	w4,#32768
	b	1f
4:
	ldr	q0,[x8]
Lrtp_92408dd3_loh274:
	adrp	x9,lrtp_92408dd3_CPI179_0@PAGE
Lrtp_92408dd3_loh275:
	ldr	q1,[x9,lrtp_92408dd3_CPI179_0@PAGEOFF]
	cmeq.16b	v0,v0,#0
	bic.16b	v0,v1,v0
	ext.16b	v1,v0,v0,#8
	zip1.16b	v0,v0,v1
	addv.8h	h0,v0
	fmov	w9,s0
	orr	w9,w9,#0x1
	and	x9,x9,#0xffff
	clz	x9,x9
	eor	x9,x9,#0x3f
5:
	mov	x1,#0
	ldr	x22,[x10]
	ldrb	w10,[x22,#115]
	str	w10,[sp,#28]
	cmp	w10,#0
	cset	w12,ne
	ldrb	w10,[x22,#116]
	str	w10,[sp,#24]
	cmp	w10,#0
	cset	w13,ne
	ldrb	w10,[x22,#123]
	ldrb	w11,[x22,#124]
	orr	w14,w11,w10
	tst	w14,#0xff
	cset	w14,ne
	ldrb	w15,[x22,#118]
	str	w15,[sp,#20]
	cmp	w15,#0
	cset	w15,ne
	ldrb	w16,[x22,#121]
	str	w16,[sp,#16]
	cmp	w16,#0
	cset	w16,ne
	ldrb	w17,[x22,#120]
	str	w17,[sp,#12]
	cmp	w17,#0
	cset	w17,ne
	ldrb	w0,[x22,#125]
	ldrb	w21,[x22,#126]
	str	w0,[sp,#8]
	orr	w0,w21,w0
	cmp	w0,#0
	cset	w0,ne
	ldrb	w23,[x22,#122]
	cmp	w23,#0
	cset	w2,ne
	ldrb	w24,[x22,#127]
	cmp	w24,#0
	cset	w3,ne
	ldrb	w25,[x22,#129]
	cmp	w25,#0
	cset	w4,ne
	ldrb	w26,[x22,#130]
	cmp	w26,#0
	cset	w5,ne
	ldrb	w27,[x22,#128]
	cmp	w27,#0
	cset	w6,ne
	ldrb	w20,[x22,#119]
	cmp	w20,#0
	strb	w12,[sp,#127]
	cset	w12,ne
	strb	w13,[sp,#126]
	strb	w14,[sp,#125]
	strb	w15,[sp,#124]
	strb	w16,[sp,#123]
	strb	w17,[sp,#122]
	strb	w0,[sp,#121]
	strb	w2,[sp,#120]
	strb	w3,[sp,#111]
	strb	w4,[sp,#110]
	strb	w5,[sp,#109]
	strb	w6,[sp,#108]
	strb	w12,[sp,#107]
	mov	w12,#1
	strb	w12,[sp,#106]
	cmp	w10,#0
	ccmp	w11,#0,#4,ne
	cset	w10,ne
	str	w10,[sp,#4]
	b	2f
4:
	ldr	w10,[sp,#24]
	cbz	w10,2f
	add	x10,sp,#126
5:
	strb	wzr,[x10]
2:
	cmp	x1,x9
	b.hs	6f
	add	x1,x1,#1
	ldrb	w10,[x8,x1]
	sub	w11,w10,#1
	cmp	w11,#14
	b.hi	2b
	add	x10,sp,#106
Lrtp_92408dd3_loh276:
	adrp	x12,7f@PAGE
Lrtp_92408dd3_loh277:
	add	x12,x12,7f@PAGEOFF
	adr	x13,4b
	ldrb	w14,[x12,x11]
	add	x13,x13,x14,lsl #2
	br	x13
8:
	ldr	w10,[sp,#28]
	cbz	w10,2b
	add	x10,sp,#127
	strb	wzr,[x10]
	b	2b
6:
	cmp	x9,#15
	b.lo	6f
	cmp	x1,#254
	b.hi	6f
	mov	x0,x19
	bl	_rtp_92408dd3_rtp_c.kinds.StoredMap.past_unmapped
	mov	x1,x0
	mov	x8,x19
	add	x9,x0,#16
	mov	w10,#255
	cmp	x9,#255
	csel	x9,x9,x10,lo
	b	2b
9:
	cbz	w26,2b
	add	x10,sp,#109
	strb	wzr,[x10]
	b	2b
10:
	ldr	w10,[sp,#20]
	cbz	w10,2b
	add	x10,sp,#124
	strb	wzr,[x10]
	b	2b
11:
	cbz	w27,2b
	add	x10,sp,#108
	strb	wzr,[x10]
	b	2b
12:
	cbz	w24,2b
	add	x10,sp,#111
	strb	wzr,[x10]
	b	2b
13:
	ldr	w10,[sp,#4]
	tbz	w10,#0,2b
	add	x10,sp,#125
	strb	wzr,[x10]
	b	2b
14:
	ldr	w10,[sp,#8]
	cbz	w10,15f
	ldr	w10,[x22,#32]
	cmp	w10,#0
	cset	w10,ne
15:
	cbz	w21,2b
	ldr	w11,[x22,#48]
	cmp	w11,#0
	csel	w10,wzr,w10,eq
	tbz	w10,#0,2b
	add	x10,sp,#121
	strb	wzr,[x10]
	b	2b
15:
	ldr	w10,[sp,#16]
	cbz	w10,2b
	ldrh	w11,[x22,#66]
	add	x10,sp,#123
	cmp	w11,#179
	b.gt	16f
	cbz	w11,5b
	cmp	w11,#90
	b.eq	5b
	b	2b
17:
	cbz	w20,2b
	add	x10,sp,#107
	strb	wzr,[x10]
	b	2b
18:
	ldr	w10,[sp,#12]
	cbz	w10,2b
	add	x10,sp,#122
	strb	wzr,[x10]
	b	2b
19:
	cbz	w25,2b
	add	x10,sp,#110
	strb	wzr,[x10]
	b	2b
20:
	cbz	w23,2b
	add	x10,sp,#120
	strb	wzr,[x10]
	b	2b
16:
	cmp	w11,#180
	b.eq	5b
	cmp	w11,#270
	b.eq	5b
	b	2b
6:
	ldrb	w9,[sp,#127]
	ldrb	w10,[sp,#126]
	ldrb	w11,[sp,#125]
	ldrb	w12,[sp,#124]
	ldrb	w13,[sp,#123]
	ldrb	w14,[sp,#122]
	ldrb	w15,[sp,#121]
	ldrb	w16,[sp,#120]
	ldrb	w17,[sp,#111]
	ldrb	w0,[sp,#110]
	ldrb	w1,[sp,#109]
	ldrb	w2,[sp,#108]
	ldrb	w8,[sp,#106]
	lsl	w4,w8,#15
	ldrb	w3,[sp,#107]
1:
	ldp	x8,x5,[sp,#32]
	ldrb	w6,[x8,#205]
	cbz	w6,1f
	ldrb	w8,[x8,#204]
	cmp	w8,#0
	csinc	w10,w10,wzr,ne
1:
	mov	w8,#0
	lsl	w11,w11,#3
	add	w9,w11,w9,lsl #1
	add	w9,w9,w12,lsl #4
	add	w9,w9,w13,lsl #5
	add	w9,w9,w10,lsl #2
	orr	w9,w9,w14,lsl #6
	orr	w9,w9,w15,lsl #7
	lsl	w10,w17,#9
	add	w10,w10,w16,lsl #8
	add	w10,w10,w0,lsl #10
	bfxil	w10,w9,#0,#8
	lsl	w9,w2,#12
	orr	w9,w9,w1,lsl #11
	orr	w9,w9,w4
	orr	w9,w9,w3,lsl #13
	orr	w9,w9,w10
	str	w9,[x5]
	b	3b
	.loh AdrpLdr	Lrtp_92408dd3_loh272,Lrtp_92408dd3_loh273
	.loh AdrpLdr	Lrtp_92408dd3_loh274,Lrtp_92408dd3_loh275
	.loh AdrpAdd	Lrtp_92408dd3_loh276,Lrtp_92408dd3_loh277
	.cfi_endproc
	.section	__TEXT,__const
7:
	.byte	(8b-4b)>>2
	.byte	(4b-4b)>>2
	.byte	(13b-4b)>>2
	.byte	(10b-4b)>>2
	.byte	(15b-4b)>>2
	.byte	(18b-4b)>>2
	.byte	(14b-4b)>>2
	.byte	(20b-4b)>>2
	.byte	(12b-4b)>>2
	.byte	(19b-4b)>>2
	.byte	(9b-4b)>>2
	.byte	(11b-4b)>>2
	.byte	(17b-4b)>>2
	.byte	(2b-4b)>>2
	.byte	(5b-4b)>>2

	.section	__TEXT,__literal16,16byte_literals
	.p2align	4,0x0
lrtp_92408dd3_CPI180_0:
	.byte	1
	.byte	2
	.byte	4
	.byte	8
	.byte	16
	.byte	32
	.byte	64
	.byte	128
	.byte	1
	.byte	2
	.byte	4
	.byte	8
	.byte	16
	.byte	32
	.byte	64
	.byte	128
	.section	__TEXT,__text,regular,pure_instructions
	.globl	_rtp_92408dd3_rtpw_wire_len
	.p2align	2
_rtp_92408dd3_rtpw_wire_len:
	.cfi_startproc
	sub	sp,sp,#64
	stp	x22,x21,[sp,#16]
	stp	x20,x19,[sp,#32]
	stp	x29,x30,[sp,#48]
	.cfi_def_cfa_offset 64
	.cfi_offset w30,-8
	.cfi_offset w29,-16
	.cfi_offset w19,-24
	.cfi_offset w20,-32
	.cfi_offset w21,-40
	.cfi_offset w22,-48
	ldrb	w8,[x1,#209]
	cbz	w8,1f
	ldrh	w9,[x1,#154]
	mov	w8,#9
	cmp	w9,#179
	b.gt	2f
	cbz	w9,1f
	cmp	w9,#90
	b.eq	1f
	b	3f
2:
	cmp	w9,#270
	b.eq	1f
	cmp	w9,#180
	b.ne	3f
1:
	ldrb	w8,[x1,#213]
	cbz	w8,1f
	ldr	w8,[x1,#120]
	cbz	w8,2f
1:
	ldrb	w8,[x1,#214]
	cbz	w8,1f
	ldr	w8,[x1,#136]
	cbz	w8,2f
1:
	ldrb	w8,[x1,#211]
	cbz	w8,1f
	ldrb	w8,[x1,#166]
	add	w8,w8,#127
	tbnz	w8,#7,2f
1:
	ldrb	w8,[x1,#216]
	cbz	w8,1f
	mov	x9,x1
	ldr	q0,[x9,#168]!
	movi.16b	v1,#32
	orr.16b	v1,v0,v1
	movi.16b	v2,#133
	add.16b	v1,v1,v2
	movi.16b	v2,#230
	cmhi.16b	v1,v2,v1
	movi.16b	v2,#198
	add.16b	v2,v0,v2
	movi.16b	v3,#246
	cmhi.16b	v2,v3,v2
	and.16b	v1,v2,v1
	movi.16b	v2,#95
	cmeq.16b	v0,v0,v2
	bic.16b	v0,v1,v0
Lrtp_92408dd3_loh278:
	adrp	x10,lrtp_92408dd3_CPI180_0@PAGE
Lrtp_92408dd3_loh279:
	ldr	q1,[x10,lrtp_92408dd3_CPI180_0@PAGEOFF]
	and.16b	v0,v0,v1
	ext.16b	v1,v0,v0,#8
	zip1.16b	v0,v0,v1
	addv.8h	h0,v0
	fmov	w10,s0
	orr	w10,w10,#0x10000
	rbit	w10,w10
	clz	w10,w10
	ldrb	w9,[x9,w10,uxtw]
	cbnz	w9,2f
1:
	ldrb	w9,[x1,#217]
	cbz	w9,1f
	mov	x10,x1
	ldrb	w11,[x10,#185]!
	cbz	w11,4f
	ldrb	w11,[x1,#186]
	cbz	w11,5f
	ldrb	w11,[x1,#187]
	cbz	w11,6f
	ldrb	w11,[x1,#188]
	cbz	w11,7f
	ldrb	w11,[x1,#189]
	cbz	w11,8f
	ldrb	w11,[x1,#190]
	cbz	w11,9f
	ldrb	w11,[x1,#191]
	cbz	w11,10f
	ldrb	w11,[x1,#192]
	cbz	w11,11f
	ldrb	w11,[x1,#193]
	cbnz	w11,2f
	mov	w11,#8
	b	12f
3:
	mov	x0,x8
	ldp	x29,x30,[sp,#48]
	ldp	x20,x19,[sp,#32]
	ldp	x22,x21,[sp,#16]
	add	sp,sp,#64
	ret
4:
	mov	x11,#0
	b	12f
5:
	mov	w11,#1
	b	12f
6:
	mov	w11,#2
	b	12f
7:
	mov	w11,#3
	b	12f
8:
	mov	w11,#4
	b	12f
9:
	mov	w11,#5
	b	12f
10:
	mov	w11,#6
	b	12f
11:
	mov	w11,#7
12:
	cbz	x11,1f
	ldrb	w12,[x10],#1
	sub	x11,x11,#1
	sub	w13,w12,#48
	and	w14,w12,#0xffffffdf
	sub	w14,w14,#65
	cmp	w12,#95
	ccmp	w13,#10,#0,ne
	ccmp	w14,#26,#0,hs
	b.lo	12b
	b	2f
1:
	ldrb	w10,[x1,#218]
	cbz	w10,1f
	mov	x11,x1
	ldrb	w12,[x11,#194]!
	cbz	w12,3f
	ldrb	w12,[x1,#195]
	cbz	w12,4f
	ldrb	w12,[x1,#196]
	cbz	w12,5f
	ldrb	w12,[x1,#197]
	cbz	w12,6f
	ldrb	w12,[x1,#198]
	cbz	w12,7f
	ldrb	w12,[x1,#199]
	cbz	w12,8f
	ldrb	w12,[x1,#200]
	cbz	w12,9f
	ldrb	w12,[x1,#201]
	cbz	w12,10f
	ldrb	w12,[x1,#202]
	cbnz	w12,2f
	mov	w12,#8
	b	11f
3:
	mov	x12,#0
	b	11f
4:
	mov	w12,#1
	b	11f
5:
	mov	w12,#2
	b	11f
6:
	mov	w12,#3
	b	11f
7:
	mov	w12,#4
	b	11f
8:
	mov	w12,#5
	b	11f
9:
	mov	w12,#6
	b	11f
10:
	mov	w12,#7
11:
	cbz	x12,1f
	ldrb	w13,[x11],#1
	sub	x12,x12,#1
	sub	w14,w13,#48
	and	w15,w13,#0xffffffdf
	sub	w15,w15,#65
	cmp	w13,#95
	ccmp	w14,#10,#0,ne
	ccmp	w15,#26,#0,hs
	b.lo	11b
	b	2f
1:
	ldrsb	w11,[x1,#78]
	tbnz	w11,#31,2f
	ldrb	w11,[x1,#79]
	cmp	w11,#15
	b.ls	1f
2:
	mov	w8,#9
	mov	x0,x8
	ldp	x29,x30,[sp,#48]
	ldp	x20,x19,[sp,#32]
	ldp	x22,x21,[sp,#16]
	add	sp,sp,#64
	ret
1:
	add	x12,x1,#88
	ldrb	w13,[x1,#82]
	str	x12,[sp,#8]
	lsl	x11,x11,#2
	add	x21,x11,#12
	cbz	w13,1f
	ldp	q0,q1,[x0,#144]
	ldp	q2,q3,[x0,#80]
	orr.16b	v0,v0,v2
	ldp	q2,q4,[x0,#208]
	orr.16b	v0,v2,v0
	ldp	q5,q2,[x0,#112]
	ldp	q7,q6,[x0,#48]
	orr.16b	v2,v2,v6
	ldp	q16,q6,[x0,#176]
	orr.16b	v2,v6,v2
	orr.16b	v5,v5,v7
	orr.16b	v5,v16,v5
	ldp	q6,q7,[x0,#16]
	orr.16b	v3,v3,v7
	orr.16b	v1,v1,v3
	orr.16b	v1,v5,v1
	orr.16b	v1,v2,v1
	orr.16b	v0,v0,v1
	ext.16b	v1,v0,v0,#8
	orr.8b	v0,v0,v1
	fmov	x11,d0
	orr	x11,x11,x11,lsr #32
	lsr	x12,x11,#16
	orr	w11,w11,w12
	orr	w11,w11,w11,lsr #8
	movi.2d	v0,#0000000000000000
	mov.b	v0[0],w11
	ldr	q1,[x0,#240]
	orr.16b	v1,v1,v4
	orr.16b	v1,v6,v1
	orr.16b	v0,v1,v0
	ext.16b	v1,v0,v0,#8
	orr.8b	v0,v0,v1
	fmov	x11,d0
	orr	x11,x11,x11,lsr #32
	lsr	x12,x11,#16
	orr	w11,w11,w12
	orr	w11,w11,w11,lsr #8
	tst	w11,#0xff
	b.eq	2f
	mov	w19,#15
	b	3f
2:
	ldr	q0,[x0]
Lrtp_92408dd3_loh280:
	adrp	x11,lrtp_92408dd3_CPI180_0@PAGE
Lrtp_92408dd3_loh281:
	ldr	q1,[x11,lrtp_92408dd3_CPI180_0@PAGEOFF]
	cmeq.16b	v0,v0,#0
	bic.16b	v0,v1,v0
	ext.16b	v1,v0,v0,#8
	zip1.16b	v0,v0,v1
	addv.8h	h0,v0
	fmov	w11,s0
	orr	w11,w11,#0x1
	and	x11,x11,#0xffff
	clz	x11,x11
	eor	x19,x11,#0x3f
3:
	cbz	w8,2f
	ldrb	w8,[x1,#168]
	cmp	w8,#0
	cset	w11,eq
	b	3f
2:
	mov	w11,#0
3:
	cbz	w9,2f
	ldrb	w8,[x1,#185]
	cmp	w8,#0
	cset	w9,eq
2:
	cbz	w10,2f
	ldrb	w8,[x1,#194]
	cmp	w8,#0
	cset	w8,eq
	b	3f
2:
	mov	w8,#0
3:
	ldur	q0,[x0,#1]
	movi.16b	v1,#15
	cmeq.16b	v0,v0,v1
	umaxv.16b	b0,v0
	fmov	w10,s0
	tbz	w10,#0,2f
3:
	mov	w3,#1
	cbz	x19,4f
5:
	mov	x20,x2
	add	x2,sp,#8
	mov	x1,x19
	bl	_rtp_92408dd3_rtp_ext.block_elements.values_len.16f98aa29e959305
	mov	x2,x20
	add	x8,x0,#3
	and	x8,x8,#0xfffffffffffffffc
	add	x8,x8,#4
	b	6f
2:
	orr	w9,w11,w9
	cmp	x19,#15
	b.lo	2f
	ldur	q0,[x0,#63]
	movi.2d	v1,#0xffffffffffffffff
	add.16b	v0,v0,v1
	movi.16b	v2,#15
	ldur	q3,[x0,#127]
	add.16b	v3,v3,v1
	umin.16b	v0,v0,v3
	ldur	q3,[x0,#191]
	add.16b	v3,v3,v1
	umin.16b	v0,v0,v3
	ldur	q3,[x0,#47]
	add.16b	v3,v3,v1
	ldur	q4,[x0,#111]
	add.16b	v4,v4,v1
	umin.16b	v3,v3,v4
	ldur	q4,[x0,#175]
	add.16b	v4,v4,v1
	umin.16b	v3,v3,v4
	ldur	q4,[x0,#31]
	add.16b	v4,v4,v1
	ldur	q5,[x0,#95]
	add.16b	v5,v5,v1
	umin.16b	v4,v4,v5
	ldur	q5,[x0,#159]
	add.16b	v5,v5,v1
	umin.16b	v4,v4,v5
	ldur	q5,[x0,#15]
	add.16b	v5,v5,v1
	ldur	q6,[x0,#79]
	add.16b	v6,v6,v1
	umin.16b	v5,v5,v6
	ldur	q6,[x0,#143]
	add.16b	v6,v6,v1
	umin.16b	v5,v5,v6
	umin.16b	v4,v4,v5
	umin.16b	v3,v3,v4
	umin.16b	v0,v0,v3
	cmhi.16b	v0,v2,v0
	umaxv.16b	b0,v0
	movi.2d	v3,#0000000000000000
	mov.b	v3[0],v0[0]
	ldur	q0,[x0,#207]
	add.16b	v0,v0,v1
	cmhi.16b	v0,v2,v0
	ldur	q4,[x0,#223]
	add.16b	v4,v4,v1
	cmhi.16b	v4,v2,v4
	orr.16b	v0,v0,v4
	ldur	q4,[x0,#239]
	add.16b	v1,v4,v1
	cmhi.16b	v1,v2,v1
	orr.16b	v0,v0,v1
	orr.16b	v0,v3,v0
	shl.16b	v0,v0,#7
	cmlt.16b	v0,v0,#0
	umaxv.16b	b0,v0
	fmov	w10,s0
	ldrb	w11,[x0,#255]
	sub	w11,w11,#1
	cmp	w11,#15
	cset	w11,lo
	orr	w10,w10,w11
	b	7f
2:
	mov	w10,#0
7:
	orr	w8,w9,w8
	tbnz	w10,#0,2f
	eor	w9,w8,#0x1
	tbnz	w9,#0,2f
	mov	x22,x2
	add	x2,sp,#8
	mov	x20,x0
	mov	x1,x19
	bl	_rtp_92408dd3_rtp_ext.block_form.has_empty_data.16f98aa29e959305
	mov	x2,x22
	mov	x8,x0
	mov	x0,x20
	tbnz	w8,#0,3b
	b	7f
2:
	orr	w8,w8,w10
	tbnz	w8,#0,3b
7:
	mov	w3,#0
	cbnz	x19,5b
4:
	mov	w8,#4
6:
	add	x21,x8,x21
1:
	mov	w8,#0
	str	x21,[x2]
	mov	x0,x8
	ldp	x29,x30,[sp,#48]
	ldp	x20,x19,[sp,#32]
	ldp	x22,x21,[sp,#16]
	add	sp,sp,#64
	ret
	.loh AdrpLdr	Lrtp_92408dd3_loh278,Lrtp_92408dd3_loh279
	.loh AdrpLdr	Lrtp_92408dd3_loh280,Lrtp_92408dd3_loh281
	.cfi_endproc

	.section	__TEXT,__literal16,16byte_literals
	.p2align	4,0x0
lrtp_92408dd3_CPI181_0:
	.byte	1
	.byte	2
	.byte	4
	.byte	8
	.byte	16
	.byte	32
	.byte	64
	.byte	128
	.byte	1
	.byte	2
	.byte	4
	.byte	8
	.byte	16
	.byte	32
	.byte	64
	.byte	128
	.section	__TEXT,__text,regular,pure_instructions
	.globl	_rtp_92408dd3_rtpw_wire_len_layers
	.p2align	2
_rtp_92408dd3_rtpw_wire_len_layers:
	.cfi_startproc
	sub	sp,sp,#144
	stp	x22,x21,[sp,#96]
	stp	x20,x19,[sp,#112]
	stp	x29,x30,[sp,#128]
	.cfi_def_cfa_offset 144
	.cfi_offset w30,-8
	.cfi_offset w29,-16
	.cfi_offset w19,-24
	.cfi_offset w20,-32
	.cfi_offset w21,-40
	.cfi_offset w22,-48
	movi.2d	v0,#0000000000000000
	stp	q0,q0,[sp,#16]
	str	q0,[sp]
	ldrb	w8,[x1,#209]
	cbz	w8,1f
	ldrh	w9,[x1,#154]
	mov	w8,#9
	cmp	w9,#179
	b.gt	2f
	cbz	w9,1f
	cmp	w9,#90
	b.eq	1f
	b	3f
2:
	cmp	w9,#270
	b.eq	1f
	cmp	w9,#180
	b.ne	3f
1:
	ldrb	w8,[x1,#213]
	cbz	w8,1f
	ldr	w8,[x1,#120]
	cbz	w8,2f
1:
	ldrb	w8,[x1,#214]
	cbz	w8,1f
	ldr	w8,[x1,#136]
	cbz	w8,2f
1:
	ldrb	w8,[x1,#211]
	cbz	w8,1f
	ldrb	w8,[x1,#166]
	add	w8,w8,#127
	tbnz	w8,#7,2f
1:
	ldrb	w8,[x1,#216]
	cbz	w8,1f
	mov	x8,x1
	ldr	q0,[x8,#168]!
	movi.16b	v1,#32
	orr.16b	v1,v0,v1
	movi.16b	v2,#133
	add.16b	v1,v1,v2
	movi.16b	v2,#230
	cmhi.16b	v1,v2,v1
	movi.16b	v2,#198
	add.16b	v2,v0,v2
	movi.16b	v3,#246
	cmhi.16b	v2,v3,v2
	and.16b	v1,v2,v1
	movi.16b	v2,#95
	cmeq.16b	v0,v0,v2
	bic.16b	v0,v1,v0
Lrtp_92408dd3_loh282:
	adrp	x9,lrtp_92408dd3_CPI181_0@PAGE
Lrtp_92408dd3_loh283:
	ldr	q1,[x9,lrtp_92408dd3_CPI181_0@PAGEOFF]
	and.16b	v0,v0,v1
	ext.16b	v1,v0,v0,#8
	zip1.16b	v0,v0,v1
	addv.8h	h0,v0
	fmov	w9,s0
	orr	w9,w9,#0x10000
	rbit	w9,w9
	clz	w9,w9
	ldrb	w8,[x8,w9,uxtw]
	cbnz	w8,2f
1:
	ldrb	w8,[x1,#217]
	cbz	w8,1f
	mov	x8,x1
	ldrb	w9,[x8,#185]!
	cbz	w9,4f
	ldrb	w9,[x1,#186]
	cbz	w9,5f
	ldrb	w9,[x1,#187]
	cbz	w9,6f
	ldrb	w9,[x1,#188]
	cbz	w9,7f
	ldrb	w9,[x1,#189]
	cbz	w9,8f
	ldrb	w9,[x1,#190]
	cbz	w9,9f
	ldrb	w9,[x1,#191]
	cbz	w9,10f
	ldrb	w9,[x1,#192]
	cbz	w9,11f
	ldrb	w9,[x1,#193]
	cbnz	w9,2f
	mov	w9,#8
	b	12f
3:
	mov	x0,x8
	ldp	x29,x30,[sp,#128]
	ldp	x20,x19,[sp,#112]
	ldp	x22,x21,[sp,#96]
	add	sp,sp,#144
	ret
4:
	mov	x9,#0
	b	12f
5:
	mov	w9,#1
	b	12f
6:
	mov	w9,#2
	b	12f
7:
	mov	w9,#3
	b	12f
8:
	mov	w9,#4
	b	12f
9:
	mov	w9,#5
	b	12f
10:
	mov	w9,#6
	b	12f
11:
	mov	w9,#7
12:
	cbz	x9,1f
	ldrb	w10,[x8],#1
	sub	x9,x9,#1
	sub	w11,w10,#48
	and	w12,w10,#0xffffffdf
	sub	w12,w12,#65
	cmp	w10,#95
	ccmp	w11,#10,#0,ne
	ccmp	w12,#26,#0,hs
	b.lo	12b
	b	2f
1:
	ldrb	w8,[x1,#218]
	cbz	w8,1f
	mov	x8,x1
	ldrb	w9,[x8,#194]!
	cbz	w9,3f
	ldrb	w9,[x1,#195]
	cbz	w9,4f
	ldrb	w9,[x1,#196]
	cbz	w9,5f
	ldrb	w9,[x1,#197]
	cbz	w9,6f
	ldrb	w9,[x1,#198]
	cbz	w9,7f
	ldrb	w9,[x1,#199]
	cbz	w9,8f
	ldrb	w9,[x1,#200]
	cbz	w9,9f
	ldrb	w9,[x1,#201]
	cbz	w9,10f
	ldrb	w9,[x1,#202]
	cbnz	w9,2f
	mov	w9,#8
	b	11f
3:
	mov	x9,#0
	b	11f
4:
	mov	w9,#1
	b	11f
5:
	mov	w9,#2
	b	11f
6:
	mov	w9,#3
	b	11f
7:
	mov	w9,#4
	b	11f
8:
	mov	w9,#5
	b	11f
9:
	mov	w9,#6
	b	11f
10:
	mov	w9,#7
11:
	cbz	x9,1f
	ldrb	w10,[x8],#1
	sub	x9,x9,#1
	sub	w11,w10,#48
	and	w12,w10,#0xffffffdf
	sub	w12,w12,#65
	cmp	w10,#95
	ccmp	w11,#10,#0,ne
	ccmp	w12,#26,#0,hs
	b.lo	11b
	b	2f
1:
	ldrsb	w8,[x1,#78]
	tbnz	w8,#31,2f
	ldrb	w8,[x1,#79]
	cmp	w8,#15
	b.hi	2f
	mov	x19,x0
	mov	x21,x3
	add	x8,x1,#88
	mov	x22,x1
	ldrb	w20,[x1,#82]
	str	x8,[sp,#88]
	mov	x0,sp
	add	x1,sp,#88
	bl	_rtp_92408dd3_rtp_c.given_layers.with_given_layers.6444109e7f8c5753
	ldrb	w8,[sp]
	cmp	w8,#1
	b.ne	2f
	ldur	q0,[sp,#8]
	ldur	q1,[sp,#24]
	stp	q0,q1,[sp,#48]
	ldr	x8,[sp,#40]
	str	x8,[sp,#80]
	ldrb	w8,[x22,#79]
	lsl	x8,x8,#2
	add	x22,x8,#12
	cbz	w20,1f
	mov	x0,x19
	ldp	q0,q1,[x19,#144]
	ldp	q2,q3,[x19,#80]
	orr.16b	v0,v0,v2
	ldp	q2,q4,[x19,#208]
	orr.16b	v0,v2,v0
	ldp	q5,q2,[x19,#112]
	ldp	q7,q6,[x19,#48]
	orr.16b	v2,v2,v6
	ldp	q16,q6,[x19,#176]
	orr.16b	v2,v6,v2
	orr.16b	v5,v5,v7
	orr.16b	v5,v16,v5
	ldp	q6,q7,[x19,#16]
	orr.16b	v3,v3,v7
	orr.16b	v1,v1,v3
	orr.16b	v1,v5,v1
	orr.16b	v1,v2,v1
	orr.16b	v0,v0,v1
	ext.16b	v1,v0,v0,#8
	orr.8b	v0,v0,v1
	fmov	x8,d0
	orr	x8,x8,x8,lsr #32
	lsr	x9,x8,#16
	orr	w8,w8,w9
	orr	w8,w8,w8,lsr #8
	movi.2d	v0,#0000000000000000
	mov.b	v0[0],w8
	ldr	q1,[x19,#240]
	orr.16b	v1,v1,v4
	orr.16b	v1,v6,v1
	orr.16b	v0,v1,v0
	ext.16b	v1,v0,v0,#8
	orr.8b	v0,v0,v1
	fmov	x8,d0
	orr	x8,x8,x8,lsr #32
	lsr	x9,x8,#16
	orr	w8,w8,w9
	orr	w8,w8,w8,lsr #8
	tst	w8,#0xff
	mov	x9,x21
	b.eq	3f
	mov	w1,#15
	b	4f
2:
	mov	w8,#9
	mov	x0,x8
	ldp	x29,x30,[sp,#128]
	ldp	x20,x19,[sp,#112]
	ldp	x22,x21,[sp,#96]
	add	sp,sp,#144
	ret
1:
	mov	x9,x21
	b	1f
3:
	ldr	q0,[x0]
Lrtp_92408dd3_loh284:
	adrp	x8,lrtp_92408dd3_CPI181_0@PAGE
Lrtp_92408dd3_loh285:
	ldr	q1,[x8,lrtp_92408dd3_CPI181_0@PAGEOFF]
	cmeq.16b	v0,v0,#0
	bic.16b	v0,v1,v0
	ext.16b	v1,v0,v0,#8
	zip1.16b	v0,v0,v1
	addv.8h	h0,v0
	fmov	w8,s0
	orr	w8,w8,#0x1
	and	x8,x8,#0xffff
	clz	x8,x8
	eor	x1,x8,#0x3f
4:
	ldr	x8,[sp,#48]
	ldr	x8,[x8]
	ldrb	w10,[x8,#128]
	cbz	w10,2f
	ldrb	w10,[x8,#80]
	cmp	w10,#0
	cset	w10,eq
2:
	ldrb	w11,[x8,#129]
	cbz	w11,2f
	ldrb	w11,[x8,#97]
	cmp	w11,#0
	cset	w11,eq
2:
	ldrb	w12,[x8,#130]
	cbz	w12,2f
	ldrb	w8,[x8,#106]
	cmp	w8,#0
	cset	w8,eq
	b	3f
2:
	mov	w8,#0
3:
	ldur	q0,[x0,#1]
	movi.16b	v1,#15
	cmeq.16b	v0,v0,v1
	umaxv.16b	b0,v0
	fmov	w12,s0
	tbz	w12,#0,2f
3:
	mov	w3,#1
	cbz	x1,4f
5:
	add	x2,sp,#48
	bl	_rtp_92408dd3_rtp_ext.block_elements.values_len.defbc6cea7b2a850
	mov	x9,x21
	add	x8,x0,#3
	and	x8,x8,#0xfffffffffffffffc
	add	x8,x8,#4
	b	6f
2:
	orr	w10,w10,w11
	cmp	x1,#15
	b.lo	2f
	ldur	q0,[x0,#63]
	movi.2d	v1,#0xffffffffffffffff
	add.16b	v0,v0,v1
	movi.16b	v2,#15
	ldur	q3,[x0,#127]
	add.16b	v3,v3,v1
	umin.16b	v0,v0,v3
	ldur	q3,[x0,#191]
	add.16b	v3,v3,v1
	umin.16b	v0,v0,v3
	ldur	q3,[x0,#47]
	add.16b	v3,v3,v1
	ldur	q4,[x0,#111]
	add.16b	v4,v4,v1
	umin.16b	v3,v3,v4
	ldur	q4,[x0,#175]
	add.16b	v4,v4,v1
	umin.16b	v3,v3,v4
	ldur	q4,[x0,#31]
	add.16b	v4,v4,v1
	ldur	q5,[x0,#95]
	add.16b	v5,v5,v1
	umin.16b	v4,v4,v5
	ldur	q5,[x0,#159]
	add.16b	v5,v5,v1
	umin.16b	v4,v4,v5
	ldur	q5,[x0,#15]
	add.16b	v5,v5,v1
	ldur	q6,[x0,#79]
	add.16b	v6,v6,v1
	umin.16b	v5,v5,v6
	ldur	q6,[x0,#143]
	add.16b	v6,v6,v1
	umin.16b	v5,v5,v6
	umin.16b	v4,v4,v5
	umin.16b	v3,v3,v4
	umin.16b	v0,v0,v3
	cmhi.16b	v0,v2,v0
	umaxv.16b	b0,v0
	movi.2d	v3,#0000000000000000
	mov.b	v3[0],v0[0]
	ldur	q0,[x0,#207]
	add.16b	v0,v0,v1
	cmhi.16b	v0,v2,v0
	ldur	q4,[x0,#223]
	add.16b	v4,v4,v1
	cmhi.16b	v4,v2,v4
	orr.16b	v0,v0,v4
	ldur	q4,[x0,#239]
	add.16b	v1,v4,v1
	cmhi.16b	v1,v2,v1
	orr.16b	v0,v0,v1
	orr.16b	v0,v3,v0
	shl.16b	v0,v0,#7
	cmlt.16b	v0,v0,#0
	umaxv.16b	b0,v0
	fmov	w11,s0
	ldrb	w12,[x0,#255]
	sub	w12,w12,#1
	cmp	w12,#15
	cset	w12,lo
	orr	w11,w11,w12
	b	7f
2:
	mov	w11,#0
7:
	orr	w8,w10,w8
	tbnz	w11,#0,2f
	eor	w10,w8,#0x1
	tbnz	w10,#0,2f
	add	x2,sp,#48
	mov	x0,x19
	mov	x20,x1
	bl	_rtp_92408dd3_rtp_ext.block_form.has_empty_data.defbc6cea7b2a850
	mov	x1,x20
	mov	x9,x21
	mov	x8,x0
	mov	x0,x19
	tbnz	w8,#0,3b
	b	7f
2:
	orr	w8,w8,w11
	tbnz	w8,#0,3b
7:
	mov	w3,#0
	cbnz	x1,5b
4:
	mov	w8,#4
6:
	add	x22,x8,x22
1:
	mov	w8,#0
	str	x22,[x9]
	mov	x0,x8
	ldp	x29,x30,[sp,#128]
	ldp	x20,x19,[sp,#112]
	ldp	x22,x21,[sp,#96]
	add	sp,sp,#144
	ret
	.loh AdrpLdr	Lrtp_92408dd3_loh282,Lrtp_92408dd3_loh283
	.loh AdrpLdr	Lrtp_92408dd3_loh284,Lrtp_92408dd3_loh285
	.cfi_endproc

	.section	__TEXT,__literal16,16byte_literals
	.p2align	4,0x0
lrtp_92408dd3_CPI182_0:
	.byte	1
	.byte	2
	.byte	4
	.byte	8
	.byte	16
	.byte	32
	.byte	64
	.byte	128
	.byte	1
	.byte	2
	.byte	4
	.byte	8
	.byte	16
	.byte	32
	.byte	64
	.byte	128
	.section	__TEXT,__text,regular,pure_instructions
	.globl	_rtp_92408dd3_rtpw_write_layers
	.p2align	2
_rtp_92408dd3_rtpw_write_layers:
	.cfi_startproc
	sub	sp,sp,#288
	str	x27,[sp,#192]
	stp	x26,x25,[sp,#208]
	stp	x24,x23,[sp,#224]
	stp	x22,x21,[sp,#240]
	stp	x20,x19,[sp,#256]
	stp	x29,x30,[sp,#272]
	.cfi_def_cfa_offset 288
	.cfi_offset w30,-8
	.cfi_offset w29,-16
	.cfi_offset w19,-24
	.cfi_offset w20,-32
	.cfi_offset w21,-40
	.cfi_offset w22,-48
	.cfi_offset w23,-56
	.cfi_offset w24,-64
	.cfi_offset w25,-72
	.cfi_offset w26,-80
	.cfi_offset w27,-96
	mov	w8,#4096
	cmp	x3,#0
	csel	x22,x8,xzr,eq
	movi.2d	v0,#0000000000000000
	stp	q0,q0,[sp,#48]
	str	q0,[sp,#32]
	ldrb	w8,[x1,#209]
	cbz	w8,1f
	ldrh	w9,[x1,#154]
	mov	w8,#9
	cmp	w9,#179
	b.gt	2f
	cbz	w9,1f
	cmp	w9,#90
	b.eq	1f
	b	3f
2:
	cmp	w9,#270
	b.eq	1f
	cmp	w9,#180
	b.ne	3f
1:
	ldrb	w8,[x1,#213]
	cbz	w8,1f
	ldr	w8,[x1,#120]
	cbz	w8,2f
1:
	ldrb	w8,[x1,#214]
	cbz	w8,1f
	ldr	w8,[x1,#136]
	cbz	w8,2f
1:
	ldrb	w8,[x1,#211]
	cbz	w8,1f
	ldrb	w8,[x1,#166]
	add	w8,w8,#127
	tbnz	w8,#7,2f
1:
	ldrb	w8,[x1,#216]
	cbz	w8,1f
	mov	x8,x1
	ldr	q0,[x8,#168]!
	movi.16b	v1,#32
	orr.16b	v1,v0,v1
	movi.16b	v2,#133
	add.16b	v1,v1,v2
	movi.16b	v2,#230
	cmhi.16b	v1,v2,v1
	movi.16b	v2,#198
	add.16b	v2,v0,v2
	movi.16b	v3,#246
	cmhi.16b	v2,v3,v2
	and.16b	v1,v2,v1
	movi.16b	v2,#95
	cmeq.16b	v0,v0,v2
	bic.16b	v0,v1,v0
Lrtp_92408dd3_loh286:
	adrp	x9,lrtp_92408dd3_CPI182_0@PAGE
Lrtp_92408dd3_loh287:
	ldr	q1,[x9,lrtp_92408dd3_CPI182_0@PAGEOFF]
	and.16b	v0,v0,v1
	ext.16b	v1,v0,v0,#8
	zip1.16b	v0,v0,v1
	addv.8h	h0,v0
	fmov	w9,s0
	orr	w9,w9,#0x10000
	rbit	w9,w9
	clz	w9,w9
	ldrb	w8,[x8,w9,uxtw]
	cbnz	w8,2f
1:
	ldrb	w8,[x1,#217]
	cbz	w8,1f
	mov	x8,x1
	ldrb	w9,[x8,#185]!
	cbz	w9,4f
	ldrb	w9,[x1,#186]
	cbz	w9,5f
	ldrb	w9,[x1,#187]
	cbz	w9,6f
	ldrb	w9,[x1,#188]
	cbz	w9,7f
	ldrb	w9,[x1,#189]
	cbz	w9,8f
	ldrb	w9,[x1,#190]
	cbz	w9,9f
	ldrb	w9,[x1,#191]
	cbz	w9,10f
	ldrb	w9,[x1,#192]
	cbz	w9,11f
	ldrb	w9,[x1,#193]
	cbnz	w9,2f
	mov	w9,#8
	b	12f
4:
	mov	x9,#0
	b	12f
5:
	mov	w9,#1
	b	12f
6:
	mov	w9,#2
	b	12f
7:
	mov	w9,#3
	b	12f
8:
	mov	w9,#4
	b	12f
9:
	mov	w9,#5
	b	12f
10:
	mov	w9,#6
	b	12f
11:
	mov	w9,#7
12:
	cbz	x9,1f
	ldrb	w10,[x8],#1
	sub	x9,x9,#1
	sub	w11,w10,#48
	and	w12,w10,#0xffffffdf
	sub	w12,w12,#65
	cmp	w10,#95
	ccmp	w11,#10,#0,ne
	ccmp	w12,#26,#0,hs
	b.lo	12b
	b	2f
1:
	ldrb	w8,[x1,#218]
	cbz	w8,1f
	mov	x8,x1
	ldrb	w9,[x8,#194]!
	cbz	w9,4f
	ldrb	w9,[x1,#195]
	cbz	w9,5f
	ldrb	w9,[x1,#196]
	cbz	w9,6f
	ldrb	w9,[x1,#197]
	cbz	w9,7f
	ldrb	w9,[x1,#198]
	cbz	w9,8f
	ldrb	w9,[x1,#199]
	cbz	w9,9f
	ldrb	w9,[x1,#200]
	cbz	w9,10f
	ldrb	w9,[x1,#201]
	cbz	w9,11f
	ldrb	w9,[x1,#202]
	cbnz	w9,2f
	mov	w9,#8
	b	12f
4:
	mov	x9,#0
	b	12f
5:
	mov	w9,#1
	b	12f
6:
	mov	w9,#2
	b	12f
7:
	mov	w9,#3
	b	12f
8:
	mov	w9,#4
	b	12f
9:
	mov	w9,#5
	b	12f
10:
	mov	w9,#6
	b	12f
11:
	mov	w9,#7
12:
	cbz	x9,1f
	ldrb	w10,[x8],#1
	sub	x9,x9,#1
	sub	w11,w10,#48
	and	w12,w10,#0xffffffdf
	sub	w12,w12,#65
	cmp	w10,#95
	ccmp	w11,#10,#0,ne
	ccmp	w12,#26,#0,hs
	b.lo	12b
	b	2f
1:
	ldrsb	w8,[x1,#78]
	tbnz	w8,#31,2f
	ldrb	w8,[x1,#79]
	cmp	w8,#15
	b.hi	2f
	mov	x19,x3
	mov	x25,x4
	mov	x20,x0
	str	x5,[sp,#200]
	add	x8,x1,#88
	mov	x21,x1
	ldrb	w27,[x1,#82]
	str	x8,[sp,#120]
	add	x0,sp,#32
	add	x1,sp,#120
	bl	_rtp_92408dd3_rtp_c.given_layers.with_given_layers.6444109e7f8c5753
	ldrb	w8,[sp,#32]
	cmp	w8,#1
	b.ne	2f
	ldur	q0,[sp,#40]
	ldur	q1,[sp,#56]
	stp	q0,q1,[sp,#80]
	ldr	x8,[sp,#72]
	str	x8,[sp,#112]
	ldrb	w26,[x21,#79]
	mov	w8,#8
	cmp	w26,#15
	b.hi	3f
	mov	x11,x21
	ldrsb	w17,[x21,#78]
	ldr	x12,[sp,#200]
	tbnz	w17,#31,3f
	mov	x9,x25
	lsl	x24,x26,#2
	cmp	w27,#0
	mov	w8,#16
	mov	w13,#12
	csel	x8,x13,x8,eq
	add	x8,x8,x24
	cmp	x25,x8
	b.hs	1f
4:
	mov	w8,#8
	b	3f
2:
	mov	w8,#9
3:
	mov	x0,x8
	ldp	x29,x30,[sp,#272]
	ldp	x20,x19,[sp,#256]
	ldp	x22,x21,[sp,#240]
	ldp	x24,x23,[sp,#224]
	ldp	x26,x25,[sp,#208]
	ldr	x27,[sp,#192]
	add	sp,sp,#288
	ret
1:
	mov	x10,x19
	add	x16,sp,#128
	add	x23,x19,x22
	cbz	w27,1f
	mov	x0,x20
	ldp	q0,q1,[x20,#144]
	ldp	q2,q3,[x20,#80]
	orr.16b	v0,v0,v2
	ldp	q2,q4,[x20,#208]
	orr.16b	v0,v2,v0
	ldp	q5,q2,[x20,#112]
	ldp	q7,q6,[x20,#48]
	orr.16b	v2,v2,v6
	ldp	q16,q6,[x20,#176]
	orr.16b	v2,v6,v2
	orr.16b	v5,v5,v7
	orr.16b	v5,v16,v5
	ldp	q6,q7,[x20,#16]
	orr.16b	v3,v3,v7
	orr.16b	v1,v1,v3
	orr.16b	v1,v5,v1
	orr.16b	v1,v2,v1
	orr.16b	v0,v0,v1
	ext.16b	v1,v0,v0,#8
	orr.8b	v0,v0,v1
	fmov	x8,d0
	orr	x8,x8,x8,lsr #32
	lsr	x12,x8,#16
	orr	w8,w8,w12
	orr	w8,w8,w8,lsr #8
	movi.2d	v0,#0000000000000000
	mov.b	v0[0],w8
	ldr	q1,[x20,#240]
	orr.16b	v1,v1,v4
	orr.16b	v1,v6,v1
	orr.16b	v0,v1,v0
	ext.16b	v1,v0,v0,#8
	orr.8b	v0,v0,v1
	fmov	x8,d0
	orr	x8,x8,x8,lsr #32
	lsr	x12,x8,#16
	orr	w8,w8,w12
	orr	w8,w8,w8,lsr #8
	tst	w8,#0xff
	b.eq	2f
	mov	w27,#15
	b	5f
1:
	ldrb	w8,[x11,#81]
	ldrb	w9,[x11,#80]
	ldrh	w13,[x11,#76]
	mov	w14,#160
	mov	w15,#128
	cmp	w8,#0
	csel	w8,w15,w14,eq
	orr	w8,w8,w26
	mov	w14,#-128
	cmp	w9,#0
	csel	w9,wzr,w14,eq
	orr	w9,w9,w17
	rev	w13,w13
	lsr	w13,w13,#16
	ldr	d0,[x11,#8]
	rev32.8b	v0,v0
	strb	w8,[x23]
	strb	w9,[x23,#1]
	strh	w13,[x23,#2]
	stur	d0,[x23,#4]
	ldrb	w8,[x11,#79]
	cbz	w8,1f
	ldp	q0,q1,[x11,#16]
	stp	q0,q1,[sp,#128]
	ldr	q0,[x11,#48]
	str	q0,[sp,#160]
	ldur	q0,[x11,#60]
	stur	q0,[x16,#44]
	cmp	w8,#16
	b.hs	6f
	mov	x11,#0
	mov	w9,#12
	b	7f
2:
	ldr	q0,[x0]
Lrtp_92408dd3_loh288:
	adrp	x8,lrtp_92408dd3_CPI182_0@PAGE
Lrtp_92408dd3_loh289:
	ldr	q1,[x8,lrtp_92408dd3_CPI182_0@PAGEOFF]
	cmeq.16b	v0,v0,#0
	bic.16b	v0,v1,v0
	ext.16b	v1,v0,v0,#8
	zip1.16b	v0,v0,v1
	addv.8h	h0,v0
	fmov	w8,s0
	orr	w8,w8,#0x1
	and	x8,x8,#0xffff
	clz	x8,x8
	eor	x27,x8,#0x3f
5:
	ldr	x8,[sp,#80]
	ldr	x8,[x8]
	ldrb	w12,[x8,#128]
	cbz	w12,2f
	ldrb	w12,[x8,#80]
	cmp	w12,#0
	cset	w12,eq
2:
	ldrb	w13,[x8,#129]
	cbz	w13,2f
	ldrb	w13,[x8,#97]
	cmp	w13,#0
	cset	w13,eq
2:
	ldrb	w14,[x8,#130]
	cbz	w14,2f
	ldrb	w8,[x8,#106]
	cmp	w8,#0
	cset	w8,eq
	b	5f
2:
	mov	w8,#0
5:
	ldur	q0,[x0,#1]
	movi.16b	v1,#15
	cmeq.16b	v0,v0,v1
	umaxv.16b	b0,v0
	fmov	w14,s0
	tbz	w14,#0,2f
5:
	sub	x8,x9,x24
	sub	x14,x8,#12
	ldrh	w12,[sp,#118]
	cmp	x14,#260
	b.hi	8f
	cbz	w12,8f
	mov	w24,#1
	b	9f
8:
	mov	w8,#16
	cmp	w12,#16
	csel	w8,w12,w8,hi
	add	x8,x8,#2
	mov	w13,#255
	cmp	x27,#15
	csel	x13,x27,x13,lo
	umull	x8,w8,w13
	mov	w24,#1
	cbz	w12,8f
	cmp	x8,#1025
	b.lo	8f
	stp	x0,xzr,[sp,#128]
	str	x27,[sp,#144]
	add	x0,sp,#128
	str	w17,[sp,#24]
	mov	x24,x14
	bl	_rtp_92408dd3_rtp_ext.block_elements.most_in_two_byte_form.d4d397b1ff315637
	mov	x14,x24
	ldr	w17,[sp,#24]
	add	x16,sp,#128
	mov	x11,x21
	mov	x10,x19
	mov	x9,x25
	mov	x8,x0
	mov	x0,x20
	mov	w24,#1
	b	8f
2:
	orr	w12,w12,w13
	cmp	x27,#15
	b.lo	2f
	ldur	q0,[x0,#63]
	movi.2d	v1,#0xffffffffffffffff
	add.16b	v0,v0,v1
	movi.16b	v2,#15
	ldur	q3,[x0,#127]
	add.16b	v3,v3,v1
	umin.16b	v0,v0,v3
	ldur	q3,[x0,#191]
	add.16b	v3,v3,v1
	umin.16b	v0,v0,v3
	ldur	q3,[x0,#47]
	add.16b	v3,v3,v1
	ldur	q4,[x0,#111]
	add.16b	v4,v4,v1
	umin.16b	v3,v3,v4
	ldur	q4,[x0,#175]
	add.16b	v4,v4,v1
	umin.16b	v3,v3,v4
	ldur	q4,[x0,#31]
	add.16b	v4,v4,v1
	ldur	q5,[x0,#95]
	add.16b	v5,v5,v1
	umin.16b	v4,v4,v5
	ldur	q5,[x0,#159]
	add.16b	v5,v5,v1
	umin.16b	v4,v4,v5
	ldur	q5,[x0,#15]
	add.16b	v5,v5,v1
	ldur	q6,[x0,#79]
	add.16b	v6,v6,v1
	umin.16b	v5,v5,v6
	ldur	q6,[x0,#143]
	add.16b	v6,v6,v1
	umin.16b	v5,v5,v6
	umin.16b	v4,v4,v5
	umin.16b	v3,v3,v4
	umin.16b	v0,v0,v3
	cmhi.16b	v0,v2,v0
	umaxv.16b	b0,v0
	movi.2d	v3,#0000000000000000
	mov.b	v3[0],v0[0]
	ldur	q0,[x0,#207]
	add.16b	v0,v0,v1
	cmhi.16b	v0,v2,v0
	ldur	q4,[x0,#223]
	add.16b	v4,v4,v1
	cmhi.16b	v4,v2,v4
	orr.16b	v0,v0,v4
	ldur	q4,[x0,#239]
	add.16b	v1,v4,v1
	cmhi.16b	v1,v2,v1
	orr.16b	v0,v0,v1
	orr.16b	v0,v3,v0
	shl.16b	v0,v0,#7
	cmlt.16b	v0,v0,#0
	umaxv.16b	b0,v0
	fmov	w13,s0
	ldrb	w14,[x0,#255]
	sub	w14,w14,#1
	cmp	w14,#15
	cset	w14,lo
	orr	w13,w13,w14
	b	10f
1:
	mov	w9,#12
	b	1f
6:
	and	x11,x8,#0xf0
	lsr	x13,x11,#4
	mov	w9,#12
	bfi	x9,x13,#6,#4
	add	x13,sp,#128
	add	x13,x13,#32
	add	x10,x22,x10
	add	x10,x10,#44
	and	x14,x8,#0xf0
6:
	ldp	q0,q1,[x13,#-32]
	rev32.16b	v0,v0
	rev32.16b	v1,v1
	ldp	q2,q3,[x13],#64
	rev32.16b	v2,v2
	rev32.16b	v3,v3
	stp	q0,q1,[x10,#-32]
	stp	q2,q3,[x10],#64
	subs	x14,x14,#16
	b.ne	6b
	cmp	x11,x8
	b.eq	1f
7:
	sub	x8,x8,x11
	add	x10,sp,#128
	add	x10,x10,x11,lsl #2
6:
	ldr	w11,[x10],#4
	rev	w11,w11
	str	w11,[x23,x9]
	add	x9,x9,#4
	subs	x8,x8,#1
	b.ne	6b
	b	1f
2:
	mov	w13,#0
10:
	orr	w8,w12,w8
	tbnz	w13,#0,2f
	eor	w12,w8,#0x1
	tbnz	w12,#0,2f
	add	x2,sp,#80
	mov	x0,x20
	mov	x1,x27
	str	x27,[sp,#24]
	mov	x27,x17
	bl	_rtp_92408dd3_rtp_ext.block_form.has_empty_data.defbc6cea7b2a850
	mov	x17,x27
	ldr	x27,[sp,#24]
	add	x16,sp,#128
	mov	x11,x21
	mov	x10,x19
	mov	x9,x25
	mov	x8,x0
	mov	x0,x20
	tbnz	w8,#0,5b
	b	6f
2:
	orr	w8,w8,w13
	tbnz	w8,#0,5b
6:
	sub	x8,x9,x24
	mov	w24,#0
	sub	x14,x8,#12
	add	x8,x27,x27,lsl #4
	mov	w12,#4335
	cmp	x27,#15
	csel	x8,x8,x12,lo
8:
	add	x8,x8,#7
	cmp	x8,x14
	b.ls	2f
9:
	cbz	x27,5f
	add	x2,sp,#80
	mov	x0,x20
	mov	x1,x27
	mov	x3,x24
	str	w24,[sp,#20]
	str	x27,[sp,#24]
	mov	x27,x17
	mov	x24,x14
	bl	_rtp_92408dd3_rtp_ext.block_elements.values_len.defbc6cea7b2a850
	mov	x14,x24
	mov	x17,x27
	ldr	x27,[sp,#24]
	ldr	w24,[sp,#20]
	add	x16,sp,#128
	mov	x11,x21
	mov	x10,x19
	mov	x9,x25
	mov	x8,x0
	mov	x0,x20
	add	x8,x8,#3
	and	x8,x8,#0xfffffffffffffffc
	add	x8,x8,#4
	b	6f
5:
	mov	w8,#4
6:
	cmp	x8,x14
	b.hi	4b
2:
	ldrb	w8,[x11,#81]
	ldrb	w12,[x11,#80]
	ldrh	w13,[x11,#76]
	mov	w14,#176
	mov	w15,#144
	cmp	w8,#0
	csel	w8,w15,w14,eq
	orr	w8,w8,w26
	mov	w14,#-128
	cmp	w12,#0
	csel	w12,wzr,w14,eq
	orr	w12,w12,w17
	rev	w13,w13
	lsr	w13,w13,#16
	ldr	d0,[x11,#8]
	rev32.8b	v0,v0
	strb	w8,[x23]
	strb	w12,[x23,#1]
	strh	w13,[x23,#2]
	stur	d0,[x23,#4]
	ldrb	w8,[x11,#79]
	cbz	w8,2f
	ldp	q0,q1,[x11,#16]
	stp	q0,q1,[sp,#128]
	ldr	q0,[x11,#48]
	str	q0,[sp,#160]
	ldur	q0,[x11,#60]
	stur	q0,[x16,#44]
	cmp	w8,#16
	b.hs	4f
	mov	x11,#0
	mov	w19,#12
	b	5f
2:
	mov	w19,#12
	b	2f
4:
	and	x11,x8,#0xf0
	lsr	x12,x11,#4
	mov	w19,#12
	bfi	x19,x12,#6,#4
	add	x12,sp,#128
	add	x12,x12,#32
	add	x10,x22,x10
	add	x10,x10,#44
	and	x13,x8,#0xf0
4:
	ldp	q0,q1,[x12,#-32]
	rev32.16b	v0,v0
	rev32.16b	v1,v1
	ldp	q2,q3,[x12],#64
	rev32.16b	v2,v2
	rev32.16b	v3,v3
	stp	q0,q1,[x10,#-32]
	stp	q2,q3,[x10],#64
	subs	x13,x13,#16
	b.ne	4b
	cmp	x11,x8
	b.eq	2f
5:
	sub	x8,x8,x11
	add	x10,sp,#128
	add	x10,x10,x11,lsl #2
4:
	ldr	w11,[x10],#4
	rev	w11,w11
	str	w11,[x23,x19]
	add	x19,x19,#4
	subs	x8,x8,#1
	b.ne	4b
2:
	add	x20,x23,x19
	sub	x8,x9,x19
	sub	x5,x8,#4
	add	x8,sp,#32
	orr	x2,x8,#0x8
	add	x4,x20,#4
	mov	x1,x27
	mov	x3,x24
	bl	_rtp_92408dd3_rtp_ext.block_elements.write_values.defbc6cea7b2a850
	mov	x2,x0
	mov	x0,x20
	mov	x1,x24
	bl	_rtp_92408dd3_rtp_wire.header.block.close_block
	add	x9,x0,x19
	ldr	x12,[sp,#200]
1:
	mov	w8,#0
	str	x9,[x12]
	b	3b
	.loh AdrpLdr	Lrtp_92408dd3_loh286,Lrtp_92408dd3_loh287
	.loh AdrpLdr	Lrtp_92408dd3_loh288,Lrtp_92408dd3_loh289
	.cfi_endproc

	.p2align	2
_rtp_92408dd3_rtp_proved_write_with:
	.cfi_startproc
	sub	sp,sp,#32
	stp	x29,x30,[sp,#16]
	.cfi_def_cfa_offset 32
	.cfi_offset w30,-8
	.cfi_offset w29,-16
	mov	w8,#4096
	cmp	x1,#0
	csel	x9,x8,xzr,eq
	cmp	x3,#0
	csel	x10,x8,xzr,eq
	cmp	x5,#0
	csel	x8,x8,xzr,eq
	stp	x6,x7,[sp]
	add	x1,x1,x9
	add	x3,x3,x10
	add	x7,x5,x8
	mov	w5,#0
	mov	w6,#0
	bl	_rtp_92408dd3_rtp_c.writing.write_header_with
	ldp	x29,x30,[sp,#16]
	add	sp,sp,#32
	ret
	.cfi_endproc

	.p2align	2
_rtp_92408dd3_rtp_proved_write_with_form:
	.cfi_startproc
	and	w8,w5,#0xff
	cmp	w8,#2
	b.hi	1f
	sub	sp,sp,#32
	stp	x29,x30,[sp,#16]
	.cfi_def_cfa_offset 32
	.cfi_offset w30,-8
	.cfi_offset w29,-16
	mov	w8,#4096
	ldr	x9,[sp,#32]
	cmp	x6,#0
	csel	x10,x8,xzr,eq
	cmp	x3,#0
	csel	x11,x8,xzr,eq
	cmp	x1,#0
	csel	x12,x8,xzr,eq
	ubfiz	x8,x5,#3,#5
	mov	w13,#256
	movk	w13,#1,lsl #16
	lsr	w5,w13,w8
	mov	w13,#65536
	lsr	w8,w13,w8
	stp	x7,x9,[sp]
	add	x1,x1,x12
	add	x3,x3,x11
	add	x7,x6,x10
	mov	x6,x8
	bl	_rtp_92408dd3_rtp_c.writing.write_header_with
	ldp	x29,x30,[sp,#16]
	add	sp,sp,#32
	ret
1:
	mov	w0,#9
	ret
	.cfi_endproc

	.globl	_rtp_92408dd3_rtpw_write_headers
	.p2align	2
_rtp_92408dd3_rtpw_write_headers:
	.cfi_startproc
	sub	sp,sp,#176
	str	x27,[sp,#80]
	stp	x26,x25,[sp,#96]
	stp	x24,x23,[sp,#112]
	stp	x22,x21,[sp,#128]
	stp	x20,x19,[sp,#144]
	stp	x29,x30,[sp,#160]
	.cfi_def_cfa_offset 176
	.cfi_offset w30,-8
	.cfi_offset w29,-16
	.cfi_offset w19,-24
	.cfi_offset w20,-32
	.cfi_offset w21,-40
	.cfi_offset w22,-48
	.cfi_offset w23,-56
	.cfi_offset w24,-64
	.cfi_offset w25,-72
	.cfi_offset w26,-80
	.cfi_offset w27,-96
	mov	x21,x0
	mov	w10,#4096
	cmp	x1,#0
	csel	x11,x10,xzr,eq
	cmp	x3,#0
	csel	x8,x10,xzr,eq
	cmp	x5,#0
	csel	x9,x10,xzr,eq
	cmp	x7,#0
	csel	x10,x10,xzr,eq
	ldrb	w12,[x0,#70]
	mov	w0,#9
	cmp	w12,#16
	b.hi	1f
	ldr	w22,[x21]
	cmp	x2,x22
	b.lo	1f
	mov	x24,#0
	cbz	w12,2f
	add	x13,x21,#71
	add	x14,x21,#4
3:
	ldrb	w15,[x13],#1
	ldr	w16,[x14],#4
	add	x16,x16,x15
	cmp	x16,x22
	b.hi	4f
	add	x24,x24,x15
	subs	x12,x12,#1
	b.ne	3b
2:
	ldrh	w12,[x21,#68]
	cmp	x24,x12
	csel	x15,x21,xzr,eq
	b.ne	4f
	cmp	w22,#12
	b.hs	2f
	mov	w0,#1
	b	1f
2:
	add	x23,x1,x11
	ldrsb	w11,[x23]
	cmn	w11,#65
	b.gt	2f
	and	x12,x11,#0xff
	ubfiz	x11,x12,#2,#4
	add	x11,x11,#12
	subs	x13,x22,x11
	b.hs	3f
	mov	w0,#3
	b	1f
2:
	mov	w0,#2
	b	1f
3:
	tbnz	w12,#4,2f
	cmp	x11,x22
	b.ne	4f
3:
	cbz	x6,5f
	stp	x15,x23,[sp]
	mov	x25,#0
	mov	x26,#0
	ldr	x11,[sp,#176]
	add	x8,x3,x8
	stp	x8,x11,[sp,#40]
	add	x8,x5,x9
	str	x8,[sp,#56]
	add	x8,x7,x10
	stp	x6,x8,[sp,#24]
	str	x4,[sp,#16]
	b	6f
2:
	subs	x12,x13,#4
	b.hs	2f
	mov	w0,#4
	b	1f
7:
	mov	x20,x4
	mov	x4,x10
	mov	x19,x6
	mov	x0,x23
	mov	x1,x22
	ldr	x2,[sp]
	mov	x3,x27
	mov	x5,x26
	ldr	x6,[sp,#32]
	ldr	x7,[sp,#48]
	bl	_rtp_92408dd3_rtp_c.routed_headers.write_again
	and	w8,w0,#0xff
	cmp	w8,#1
	b.ne	8f
	mov	x6,x19
	mov	x4,x20
	ldr	x9,[sp,#88]
9:
	str	x26,[x9,#8]
	add	x26,x1,x26
	stp	wzr,w1,[x9,#40]
	mov	w0,#0
	add	x25,x25,#1
	cmp	x25,x6
	b.eq	1f
6:
	mov	w8,#48
	ldr	x9,[sp,#56]
	madd	x10,x25,x8,x9
	ldrb	w8,[x10,#31]
	str	x10,[sp,#88]
	cbz	w8,10f
	ldrsb	w8,[x10,#26]
	tbnz	w8,#31,11f
10:
	ldr	x8,[x10]
	subs	x9,x4,x8
	ccmp	x9,x24,#0,hs
	b.lo	11f
	ldr	x9,[sp,#40]
	add	x27,x9,x8
	ldrb	w8,[x10,#38]
	cbnz	w8,7b
	ldr	x8,[sp,#48]
	sub	x8,x8,x26
	cmp	x8,x22
	b.lo	7f
	ldr	x8,[sp,#32]
	add	x20,x8,x26
	sub	w9,w22,#49
	cmn	w9,#34
	b.hi	10f
	add	x0,x8,x26
	mov	x1,x23
	mov	x2,x22
	bl	_rtp_92408dd3_rtp_route.copying.put_any
	ldr	x10,[sp,#88]
	ldrb	w8,[x10,#32]
	cbnz	w8,12f
	b	13f
10:
	ldr	q0,[x23]
	str	q0,[x20]
	cmp	w22,#33
	b.lo	10f
	ldr	q0,[x23,#16]
	str	q0,[x20,#16]
10:
	sub	x8,x22,#16
	ldr	q0,[x23,x8]
	str	q0,[x20,x8]
	ldrb	w8,[x10,#32]
	cbz	w8,13f
12:
	ldrb	w8,[x10,#27]
	mov	w9,#-128
	cmp	w8,#0
	csel	w8,wzr,w9,eq
	ldrb	w9,[x20,#1]
	bfxil	w8,w9,#0,#7
	strb	w8,[x20,#1]
13:
	ldrb	w8,[x10,#31]
	cbz	w8,10f
	ldrb	w8,[x10,#26]
	ldrb	w9,[x20,#1]
	and	w9,w9,#0x80
	add	w8,w9,w8
	strb	w8,[x20,#1]
10:
	ldrb	w8,[x10,#30]
	cbz	w8,10f
	ldrh	w8,[x10,#24]
	rev	w8,w8
	lsr	w8,w8,#16
	strh	w8,[x20,#2]
10:
	stp	x26,x25,[sp,#64]
	ldrb	w8,[x10,#28]
	cbz	w8,10f
	ldr	w8,[x10,#16]
	rev	w8,w8
	str	w8,[x20,#4]
10:
	ldrb	w8,[x10,#29]
	cbz	w8,10f
	ldr	w8,[x10,#20]
	rev	w8,w8
	str	w8,[x20,#8]
10:
	ldrb	w19,[x21,#70]
	cbz	x19,10f
	add	x25,x21,#4
	add	x26,x21,#71
	b	12f
13:
	add	x0,x20,x8
	mov	x1,x27
	mov	x2,x23
	bl	_rtp_92408dd3_rtp_route.slots.copy_long
14:
	add	x27,x27,x23
	subs	x19,x19,#1
	b.eq	10f
12:
	ldr	w8,[x25],#4
	ldrb	w23,[x26],#1
	cbz	w23,13b
	cmp	w23,#1
	b.ne	12f
	ldrb	w9,[x27]
	strb	w9,[x20,x8]
	b	14b
12:
	cmp	w23,#2
	b.hi	12f
	ldrh	w9,[x27]
	strh	w9,[x20,x8]
	b	14b
12:
	cmp	w23,#3
	b.ne	12f
	add	x8,x20,x8
	ldrh	w9,[x27]
	strh	w9,[x8]
	ldrb	w9,[x27,#2]
	strb	w9,[x8,#2]
	b	14b
12:
	cmp	w23,#4
	b.hi	13b
	ldr	w9,[x27]
	str	w9,[x20,x8]
	b	14b
10:
	ldr	x9,[sp,#88]
	ldrb	w8,[x9,#39]
	mov	x1,x22
	ldp	x4,x6,[sp,#16]
	ldr	x23,[sp,#8]
	ldp	x26,x25,[sp,#64]
	cbz	w8,9b
	ldrb	w8,[x20]
	and	w8,w8,#0xffffffdf
	strb	w8,[x20]
	mov	x1,x22
	b	9b
11:
	mov	x20,x4
	mov	x19,x6
	mov	w2,#9
	b	9f
7:
	mov	x20,x4
	mov	x19,x6
8:
	mov	w2,#8
9:
	ldr	x0,[sp,#88]
	mov	x1,x26
	bl	_rtp_92408dd3_rtp_c.routed_headers.refuse
	mov	x6,x19
	mov	x4,x20
	mov	w0,#0
	add	x25,x25,#1
	cmp	x25,x19
	b.ne	6b
	b	1f
2:
	add	x13,x23,x11
	ldrb	w14,[x13,#2]
	ldrb	w13,[x13,#3]
	lsl	x14,x14,#10
	orr	x13,x14,x13,lsl #2
	cmp	x12,x13
	b.hs	2f
	mov	w0,#6
	b	1f
2:
	add	x11,x11,x13
	add	x11,x11,#4
	cmp	x11,x22
	b.eq	3b
4:
	mov	w0,#9
1:
	ldp	x29,x30,[sp,#160]
	ldp	x20,x19,[sp,#144]
	ldp	x22,x21,[sp,#128]
	ldp	x24,x23,[sp,#112]
	ldp	x26,x25,[sp,#96]
	ldr	x27,[sp,#80]
	add	sp,sp,#176
	ret
5:
	mov	w0,#0
	b	1b
	.cfi_endproc

	.section	__TEXT,__literal16,16byte_literals
	.p2align	4,0x0
lrtp_92408dd3_CPI186_0:
	.byte	1
	.byte	2
	.byte	4
	.byte	8
	.byte	16
	.byte	32
	.byte	64
	.byte	128
	.byte	1
	.byte	2
	.byte	4
	.byte	8
	.byte	16
	.byte	32
	.byte	64
	.byte	128
	.section	__TEXT,__text,regular,pure_instructions
	.globl	_rtp_92408dd3_rtpw_write
	.p2align	2
_rtp_92408dd3_rtpw_write:
	.cfi_startproc
	mov	w8,#4096
	cmp	x2,#0
	csel	x8,x8,xzr,eq
	ldrb	w9,[x1,#82]
	cbz	w9,1f
	ldrb	w9,[x1,#209]
	cbz	w9,2f
	ldrh	w9,[x1,#154]
	cmp	w9,#179
	b.gt	3f
	cbz	w9,2f
	cmp	w9,#90
	b.eq	2f
	b	4f
1:
	mov	x0,x1
	add	x1,x2,x8
	mov	x2,x3
	mov	x3,x4
	b	_rtp_92408dd3_rtp_c.writing_values.write_without_block
3:
	cmp	w9,#270
	b.eq	2f
	cmp	w9,#180
	b.ne	4f
2:
	ldrb	w9,[x1,#213]
	cbz	w9,1f
	ldr	w9,[x1,#120]
	cbz	w9,4f
1:
	ldrb	w9,[x1,#214]
	cbz	w9,1f
	ldr	w9,[x1,#136]
	cbz	w9,4f
1:
	ldrb	w9,[x1,#211]
	cbz	w9,1f
	ldrb	w9,[x1,#166]
	add	w9,w9,#127
	tbnz	w9,#7,4f
1:
	ldrb	w9,[x1,#216]
	cbz	w9,1f
	mov	x9,x1
	ldr	q0,[x9,#168]!
	movi.16b	v1,#32
	orr.16b	v1,v0,v1
	movi.16b	v2,#133
	add.16b	v1,v1,v2
	movi.16b	v2,#230
	cmhi.16b	v1,v2,v1
	movi.16b	v2,#198
	add.16b	v2,v0,v2
	movi.16b	v3,#246
	cmhi.16b	v2,v3,v2
	and.16b	v1,v2,v1
	movi.16b	v2,#95
	cmeq.16b	v0,v0,v2
	bic.16b	v0,v1,v0
Lrtp_92408dd3_loh290:
	adrp	x10,lrtp_92408dd3_CPI186_0@PAGE
Lrtp_92408dd3_loh291:
	ldr	q1,[x10,lrtp_92408dd3_CPI186_0@PAGEOFF]
	and.16b	v0,v0,v1
	ext.16b	v1,v0,v0,#8
	zip1.16b	v0,v0,v1
	addv.8h	h0,v0
	fmov	w10,s0
	orr	w10,w10,#0x10000
	rbit	w10,w10
	clz	w10,w10
	ldrb	w9,[x9,w10,uxtw]
	cbnz	w9,4f
1:
	ldrb	w9,[x1,#217]
	cbz	w9,1f
	mov	x9,x1
	ldrb	w10,[x9,#185]!
	cbz	w10,2f
	ldrb	w10,[x1,#186]
	cbz	w10,3f
	ldrb	w10,[x1,#187]
	cbz	w10,5f
	ldrb	w10,[x1,#188]
	cbz	w10,6f
	ldrb	w10,[x1,#189]
	cbz	w10,7f
	ldrb	w10,[x1,#190]
	cbz	w10,8f
	ldrb	w10,[x1,#191]
	cbz	w10,9f
	ldrb	w10,[x1,#192]
	cbz	w10,10f
	ldrb	w10,[x1,#193]
	cbnz	w10,4f
	mov	w10,#8
	b	11f
2:
	mov	x10,#0
	b	11f
3:
	mov	w10,#1
	b	11f
5:
	mov	w10,#2
	b	11f
6:
	mov	w10,#3
	b	11f
7:
	mov	w10,#4
	b	11f
8:
	mov	w10,#5
	b	11f
9:
	mov	w10,#6
	b	11f
10:
	mov	w10,#7
11:
	cbz	x10,1f
	ldrb	w11,[x9],#1
	sub	x10,x10,#1
	sub	w12,w11,#48
	and	w13,w11,#0xffffffdf
	sub	w13,w13,#65
	cmp	w11,#95
	ccmp	w12,#10,#0,ne
	ccmp	w13,#26,#0,hs
	b.lo	11b
	b	4f
1:
	ldrb	w9,[x1,#218]
	cbz	w9,1f
	mov	x9,x1
	ldrb	w10,[x9,#194]!
	cbz	w10,2f
	ldrb	w10,[x1,#195]
	cbz	w10,3f
	ldrb	w10,[x1,#196]
	cbz	w10,5f
	ldrb	w10,[x1,#197]
	cbz	w10,6f
	ldrb	w10,[x1,#198]
	cbz	w10,7f
	ldrb	w10,[x1,#199]
	cbz	w10,8f
	ldrb	w10,[x1,#200]
	cbz	w10,9f
	ldrb	w10,[x1,#201]
	cbz	w10,10f
	ldrb	w10,[x1,#202]
	cbnz	w10,4f
	mov	w10,#8
	b	11f
2:
	mov	x10,#0
	b	11f
3:
	mov	w10,#1
	b	11f
5:
	mov	w10,#2
	b	11f
6:
	mov	w10,#3
	b	11f
7:
	mov	w10,#4
	b	11f
8:
	mov	w10,#5
	b	11f
9:
	mov	w10,#6
	b	11f
10:
	mov	w10,#7
11:
	cbz	x10,1f
	ldrb	w11,[x9],#1
	sub	x10,x10,#1
	sub	w12,w11,#48
	and	w13,w11,#0xffffffdf
	sub	w13,w13,#65
	cmp	w11,#95
	ccmp	w12,#10,#0,ne
	ccmp	w13,#26,#0,hs
	b.lo	11b
4:
	mov	w0,#9
	ret
1:
	add	x2,x2,x8
	add	x5,x1,#88
	b	_rtp_92408dd3_rtp_c.writing_values.write_with_block
	.loh AdrpLdr	Lrtp_92408dd3_loh290,Lrtp_92408dd3_loh291
	.cfi_endproc

	.section	__TEXT,__const
lrtp_92408dd3__static.0:
	.byte	0

lrtp_92408dd3__static.2:
	.ascii	"________________________________________________0123456789_______ABCDEFGHIJKLMNOPQRSTUVWXYZ______abcdefghijklmnopqrstuvwxyz_____________________________________________________________________________________________________________________________________"

lrtp_92408dd3__static.8:
	.space	255

lrtp_92408dd3__static.9:
	.ascii	"http://www.webrtc.org/experiments/rtp-hdrext/abs-send-time"

lrtp_92408dd3__static.11:
	.ascii	"http://www.webrtc.org/experiments/rtp-hdrext/abs-capture-time"

lrtp_92408dd3__static.13:
	.ascii	"urn:ietf:params:rtp-hdrext:ssrc-audio-level"

lrtp_92408dd3__static.15:
	.ascii	"urn:ietf:params:rtp-hdrext:toffset"

lrtp_92408dd3__static.17:
	.ascii	"urn:3gpp:video-orientation"

lrtp_92408dd3__static.19:
	.ascii	"http://www.ietf.org/id/draft-holmer-rmcat-transport-wide-cc-extensions-01"

lrtp_92408dd3__static.21:
	.ascii	"http://www.webrtc.org/experiments/rtp-hdrext/playout-delay"

lrtp_92408dd3__static.23:
	.ascii	"http://www.webrtc.org/experiments/rtp-hdrext/video-content-type"

lrtp_92408dd3__static.25:
	.ascii	"http://www.webrtc.org/experiments/rtp-hdrext/video-timing"

lrtp_92408dd3__static.27:
	.ascii	"urn:ietf:params:rtp-hdrext:sdes:rtp-stream-id"

lrtp_92408dd3__static.29:
	.ascii	"urn:ietf:params:rtp-hdrext:sdes:repaired-rtp-stream-id"

lrtp_92408dd3__static.31:
	.ascii	"urn:ietf:params:rtp-hdrext:sdes:mid"

lrtp_92408dd3__static.33:
	.ascii	"http://tools.ietf.org/html/draft-ietf-avtext-framemarking-07"

lrtp_92408dd3__static.35:
	.ascii	"http://www.webrtc.org/experiments/rtp-hdrext/color-space"

lrtp_92408dd3__static.37:
	.ascii	"http://www.webrtc.org/experiments/rtp-hdrext/video-layers-allocation00"

lrtp_92408dd3__static.38:
	.ascii	"urn:ietf:params:rtp-hdrext:csrc-audio-level"

lrtp_92408dd3__static.39:
	.ascii	"http://www.webrtc.org/experiments/rtp-hdrext/transport-wide-cc-02"

lrtp_92408dd3__static.40:
	.ascii	"https://aomediacodec.github.io/av1-rtp-spec/#dependency-descriptor-rtp-header-extension"

lrtp_92408dd3__static.41:
	.ascii	"urn:ietf:params:rtp-hdrext:ntp-64"

lrtp_92408dd3__static.42:
	.ascii	"urn:ietf:params:rtp-hdrext:ntp-56"

	.p2align	2,0x0
lrtp_92408dd3__switch.table.rtp_92408dd3_rtp_c.whole_packet.status_of_no_packet:
	.long	1
	.long	2
	.long	3
	.long	4
	.long	6

	.p2align	3,0x0
lrtp_92408dd3__switch.table.rtp_92408dd3_rtp_ext.block_elements.most_in_two_byte_form.d4d397b1ff315637:
	.quad	18
	.quad	18
	.quad	18
	.quad	18
	.quad	18
	.quad	18
	.quad	18
	.quad	18
	.quad	18
	.quad	18
	.quad	18
	.quad	18
	.quad	18
	.quad	18
	.quad	257

	.p2align	3,0x0
lrtp_92408dd3__switch.table.rtp_92408dd3_rtpw_uri_of_kind:
	.quad	43
	.quad	65
	.quad	87
	.quad	33
	.quad	33

	.section	__DATA,__const
	.p2align	3,0x0
lrtp_92408dd3__switch.table.rtp_92408dd3_rtpw_uri_of_kind.247:
	.quad	lrtp_92408dd3__static.38
	.quad	lrtp_92408dd3__static.39
	.quad	lrtp_92408dd3__static.40
	.quad	lrtp_92408dd3__static.41
	.quad	lrtp_92408dd3__static.42

/* What follows is of generated/apart.c, in front of the functions rtp_92408dd3_rtp_proved_*, and is not proved. */
	.section	__TEXT,__text,regular,pure_instructions
	.globl	_rtp_92408dd3_rtpw_set_element
	.p2align	2
_rtp_92408dd3_rtpw_set_element:
	.cfi_startproc
	add	x8,x4,x3
	cmp	x8,x0
	add	x8,x1,x0
	ccmp	x8,x3,#0,hi
	ccmp	x1,#0,#4,hi
	ccmp	x4,#0,#4,ne
	b.ne	1f
	b	_rtp_92408dd3_rtp_proved_set_element
1:
	mov	w0,#9
	ret
	.cfi_endproc

	.globl	_rtp_92408dd3_rtpw_put_element
	.p2align	2
_rtp_92408dd3_rtpw_put_element:
	.cfi_startproc
	add	x8,x5,x4
	cmp	x8,x0
	add	x8,x1,x0
	ccmp	x8,x4,#0,hi
	ccmp	x1,#0,#4,hi
	ccmp	x5,#0,#4,ne
	b.ne	1f
	b	_rtp_92408dd3_rtp_proved_put_element
1:
	mov	w0,#9
	ret
	.cfi_endproc

	.globl	_rtp_92408dd3_rtpw_add_element
	.p2align	2
_rtp_92408dd3_rtpw_add_element:
	.cfi_startproc
	add	x8,x5,x4
	cmp	x8,x0
	add	x8,x1,x0
	ccmp	x8,x4,#0,hi
	ccmp	x1,#0,#4,hi
	ccmp	x5,#0,#4,ne
	b.ne	1f
	b	_rtp_92408dd3_rtp_proved_add_element
1:
	mov	w0,#9
	ret
	.cfi_endproc

	.globl	_rtp_92408dd3_rtpw_put_block
	.p2align	2
_rtp_92408dd3_rtpw_put_block:
	.cfi_startproc
	add	x8,x5,x4
	cmp	x8,x0
	add	x8,x1,x0
	ccmp	x8,x4,#0,hi
	ccmp	x1,#0,#4,hi
	ccmp	x5,#0,#4,ne
	b.ne	1f
	b	_rtp_92408dd3_rtp_proved_put_block
1:
	mov	w0,#9
	ret
	.cfi_endproc

	.globl	_rtp_92408dd3_rtpw_write_with
	.p2align	2
_rtp_92408dd3_rtpw_write_with:
	.cfi_startproc
	add	x8,x2,x1
	cmp	x8,x5
	add	x8,x6,x5
	ccmp	x8,x1,#0,hi
	ccmp	x2,#0,#4,hi
	ccmp	x6,#0,#4,ne
	b.ne	1f
	b	_rtp_92408dd3_rtp_proved_write_with
1:
	mov	w0,#9
	ret
	.cfi_endproc

	.globl	_rtp_92408dd3_rtpw_write_with_form
	.p2align	2
_rtp_92408dd3_rtpw_write_with_form:
	.cfi_startproc
	add	x8,x2,x1
	cmp	x8,x6
	add	x8,x7,x6
	ccmp	x8,x1,#0,hi
	ccmp	x2,#0,#4,hi
	ccmp	x7,#0,#4,ne
	b.ne	1f
	ldr	x8,[sp]
	str	x8,[sp]
	b	_rtp_92408dd3_rtp_proved_write_with_form
1:
	mov	w0,#9
	ret
	.cfi_endproc

	.globl	_rtp_92408dd3_rtpw_write_elements
	.p2align	2
_rtp_92408dd3_rtpw_write_elements:
	.cfi_startproc
	add	x8,x1,x0
	cmp	x8,x5
	add	x8,x6,x5
	ccmp	x8,x0,#0,hi
	ccmp	x1,#0,#4,hi
	ccmp	x6,#0,#4,ne
	b.ne	1f
	b	_rtp_92408dd3_rtp_proved_write_elements
1:
	mov	w0,#9
	ret
	.cfi_endproc

	.subsections_via_symbols
