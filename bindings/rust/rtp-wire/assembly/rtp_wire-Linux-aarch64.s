/*
 * rtp_wire for Linux on aarch64: the assembly text that Rattle's compiler makes of the library for C, each function of which but those at its end is proved.
 * Made anew by: generated/make
 * kit: rattle-kit-13b logic dac8208d650f15bf
 * proved for: x86_64-unknown-linux-gnu
 * compiled for: aarch64-unknown-linux-gnu
 * sources: 9bd27186c7d38e855bb0763b0c5f497dd31cb39700025263f1556f2423a7dcad
 * text: fdc280301902628236664b3269f25751d1686d6f039850f8f62ec6b86cc1cdfc
 * SPDX-License-Identifier: MIT OR Apache-2.0
 * Copyright (c) 2026 The rtp-wire developers (NOTICE)
 */
	.ifdef	.gasversion.
	.ifndef	.text
	.error	"rtp_841016a0_this text is for Linux on aarch64: the folder generated has those for other systems"
	.end
	.endif
	.section	.rtp_system,"e",@progbits
.Lrtp_841016a0_nop:
	nop
.Lrtp_841016a0_nop_end:
	.if	.Lrtp_841016a0_nop_end - .Lrtp_841016a0_nop == 1
	.error	"rtp_841016a0_this text is for Linux on aarch64: the folder generated has those for other systems"
	.end
	.endif
	.endif
	.macro	rtp_given rest:vararg
	.ifb	\rest
	.error	"rtp_841016a0_this text is for Linux on aarch64: the folder generated has those for other systems"
	.end
	.endif
	.endm
	rtp_given # a comment
	.purgem	rtp_given
	.section	.this_text_is_for_Linux_on_aarch64,"e",@progbits
	.section	".text.rtp_values::value::lengths::rid_len::<#7ba4d078ccf006bf>","ax",@progbits
	.p2align	2
	.type	"rtp_841016a0_rtp_values::value::lengths::rid_len::<#7ba4d078ccf006bf>",@function
"rtp_841016a0_rtp_values::value::lengths::rid_len::<#7ba4d078ccf006bf>":
	.cfi_startproc
	ldrb	w8,[x0,#129]
	cbz	w8,1f
	ldrb	w8,[x0,#97]
	cbz	w8,2f
	ldrb	w8,[x0,#98]
	cbz	w8,3f
	ldrb	w8,[x0,#99]
	cbz	w8,4f
	ldrb	w8,[x0,#100]
	cbz	w8,5f
	ldrb	w8,[x0,#101]
	cbz	w8,6f
	ldrb	w8,[x0,#102]
	cbz	w8,7f
	ldrb	w8,[x0,#103]
	cbz	w8,8f
	ldrb	w8,[x0,#104]
	cbz	w8,9f
	ldrb	w8,[x0,#105]
	mov	w0,#1
	cmp	w8,#0
	mov	w8,#8
	cinc	x1,x8,ne
	ret
1:
	mov	x1,xzr
	mov	w0,wzr
	ret
2:
	mov	x1,xzr
	mov	w0,#1
	ret
3:
	mov	w1,#1
	mov	w0,#1
	ret
4:
	mov	w0,#1
	mov	w1,#2
	ret
5:
	mov	w0,#1
	mov	w1,#3
	ret
6:
	mov	w0,#1
	mov	w1,#4
	ret
7:
	mov	w0,#1
	mov	w1,#5
	ret
8:
	mov	w0,#1
	mov	w1,#6
	ret
9:
	mov	w0,#1
	mov	w1,#7
	ret
	.size	"rtp_841016a0_rtp_values::value::lengths::rid_len::<#7ba4d078ccf006bf>", .-"rtp_841016a0_rtp_values::value::lengths::rid_len::<#7ba4d078ccf006bf>"
	.cfi_endproc

	.section	".text.rtp_values::value::lengths::repaired_rid_len::<#7ba4d078ccf006bf>","ax",@progbits
	.p2align	2
	.type	"rtp_841016a0_rtp_values::value::lengths::repaired_rid_len::<#7ba4d078ccf006bf>",@function
"rtp_841016a0_rtp_values::value::lengths::repaired_rid_len::<#7ba4d078ccf006bf>":
	.cfi_startproc
	ldrb	w8,[x0,#130]
	cbz	w8,1f
	ldrb	w8,[x0,#106]
	cbz	w8,2f
	ldrb	w8,[x0,#107]
	cbz	w8,3f
	ldrb	w8,[x0,#108]
	cbz	w8,4f
	ldrb	w8,[x0,#109]
	cbz	w8,5f
	ldrb	w8,[x0,#110]
	cbz	w8,6f
	ldrb	w8,[x0,#111]
	cbz	w8,7f
	ldrb	w8,[x0,#112]
	cbz	w8,8f
	ldrb	w8,[x0,#113]
	cbz	w8,9f
	ldrb	w8,[x0,#114]
	mov	w0,#1
	cmp	w8,#0
	mov	w8,#8
	cinc	x1,x8,ne
	ret
1:
	mov	x1,xzr
	mov	w0,wzr
	ret
2:
	mov	x1,xzr
	mov	w0,#1
	ret
3:
	mov	w1,#1
	mov	w0,#1
	ret
4:
	mov	w0,#1
	mov	w1,#2
	ret
5:
	mov	w0,#1
	mov	w1,#3
	ret
6:
	mov	w0,#1
	mov	w1,#4
	ret
7:
	mov	w0,#1
	mov	w1,#5
	ret
8:
	mov	w0,#1
	mov	w1,#6
	ret
9:
	mov	w0,#1
	mov	w1,#7
	ret
	.size	"rtp_841016a0_rtp_values::value::lengths::repaired_rid_len::<#7ba4d078ccf006bf>", .-"rtp_841016a0_rtp_values::value::lengths::repaired_rid_len::<#7ba4d078ccf006bf>"
	.cfi_endproc

	.section	".text.rtp_values::value::lengths::mid_len::<#7ba4d078ccf006bf>","ax",@progbits
	.p2align	2
	.type	"rtp_841016a0_rtp_values::value::lengths::mid_len::<#7ba4d078ccf006bf>",@function
"rtp_841016a0_rtp_values::value::lengths::mid_len::<#7ba4d078ccf006bf>":
	.cfi_startproc
	ldrb	w8,[x0,#128]
	cbz	w8,1f
	ldrb	w8,[x0,#80]
	cbz	w8,2f
	ldrb	w8,[x0,#81]
	cbz	w8,3f
	ldrb	w8,[x0,#82]
	cbz	w8,4f
	ldrb	w8,[x0,#83]
	cbz	w8,5f
	ldrb	w8,[x0,#84]
	cbz	w8,6f
	ldrb	w8,[x0,#85]
	cbz	w8,7f
	ldrb	w8,[x0,#86]
	cbz	w8,8f
	ldrb	w8,[x0,#87]
	cbz	w8,9f
	ldrb	w8,[x0,#88]
	cbz	w8,10f
	ldrb	w8,[x0,#89]
	cbz	w8,11f
	ldrb	w8,[x0,#90]
	cbz	w8,12f
	ldrb	w8,[x0,#91]
	cbz	w8,13f
	ldrb	w8,[x0,#92]
	cbz	w8,14f
	ldrb	w8,[x0,#93]
	cbz	w8,15f
	ldrb	w8,[x0,#94]
	cbz	w8,16f
	ldrb	w8,[x0,#95]
	cbz	w8,17f
	ldrb	w8,[x0,#96]
	mov	w0,#1
	cmp	w8,#0
	mov	w8,#16
	cinc	x1,x8,ne
	ret
1:
	mov	x1,xzr
	mov	w0,wzr
	ret
2:
	mov	x1,xzr
	mov	w0,#1
	ret
3:
	mov	w1,#1
	mov	w0,#1
	ret
4:
	mov	w0,#1
	mov	w1,#2
	ret
5:
	mov	w0,#1
	mov	w1,#3
	ret
6:
	mov	w0,#1
	mov	w1,#4
	ret
7:
	mov	w0,#1
	mov	w1,#5
	ret
8:
	mov	w0,#1
	mov	w1,#6
	ret
9:
	mov	w0,#1
	mov	w1,#7
	ret
10:
	mov	w0,#1
	mov	w1,#8
	ret
11:
	mov	w0,#1
	mov	w1,#9
	ret
12:
	mov	w0,#1
	mov	w1,#10
	ret
13:
	mov	w0,#1
	mov	w1,#11
	ret
14:
	mov	w0,#1
	mov	w1,#12
	ret
15:
	mov	w0,#1
	mov	w1,#13
	ret
16:
	mov	w0,#1
	mov	w1,#14
	ret
17:
	mov	w0,#1
	mov	w1,#15
	ret
	.size	"rtp_841016a0_rtp_values::value::lengths::mid_len::<#7ba4d078ccf006bf>", .-"rtp_841016a0_rtp_values::value::lengths::mid_len::<#7ba4d078ccf006bf>"
	.cfi_endproc

	.section	".text.rtp_values::value::abs_capture_time::write::<#7ba4d078ccf006bf>","ax",@progbits
	.p2align	2
	.type	"rtp_841016a0_rtp_values::value::abs_capture_time::write::<#7ba4d078ccf006bf>",@function
"rtp_841016a0_rtp_values::value::abs_capture_time::write::<#7ba4d078ccf006bf>":
	.cfi_startproc
	ldrb	w8,[x1,#116]
	cbz	w8,1f
	ldrb	w9,[x1,#117]
	ldr	x8,[x1,#8]
	cbz	w9,2f
	ldr	x9,[x1,#16]
	rev	x8,x8
	mov	w1,#16
	rev	x9,x9
	stp	x8,x9,[x0]
	mov	w0,#1
	ret
1:
	mov	x1,xzr
	mov	w0,wzr
	ret
2:
	rev	x8,x8
	mov	w1,#8
	str	x8,[x0]
	mov	w0,#1
	ret
	.size	"rtp_841016a0_rtp_values::value::abs_capture_time::write::<#7ba4d078ccf006bf>", .-"rtp_841016a0_rtp_values::value::abs_capture_time::write::<#7ba4d078ccf006bf>"
	.cfi_endproc

	.section	".text.rtp_values::value::playout_delay::write::<#7ba4d078ccf006bf>","ax",@progbits
	.p2align	2
	.type	"rtp_841016a0_rtp_values::value::playout_delay::write::<#7ba4d078ccf006bf>",@function
"rtp_841016a0_rtp_values::value::playout_delay::write::<#7ba4d078ccf006bf>":
	.cfi_startproc
	ldrb	w8,[x1,#125]
	cbz	w8,1f
	ldr	w8,[x1,#32]
	cbz	w8,1f
	ldrb	w9,[x1,#126]
	cbz	w9,1f
	ldr	w9,[x1,#48]
	cbz	w9,1f
	ldr	x10,[x1,#40]
	ldr	x12,[x1,#24]
	mov	w14,#100
	mov	w1,#3
	udiv	x11,x10,x9
	udiv	x13,x12,x8
	msub	x10,x11,x9,x10
	mul	x10,x10,x14
	udiv	x9,x10,x9
	msub	x10,x13,x8,x12
	mul	x10,x10,x14
	madd	w9,w11,w14,w9
	udiv	x8,x10,x8
	and	w9,w9,#0xfff
	madd	w8,w13,w14,w8
	bfi	w9,w8,#12,#12
	rev	w8,w9
	lsr	w9,w8,#24
	lsr	w8,w8,#8
	strb	w9,[x0,#2]
	strh	w8,[x0]
	mov	w0,#1
	ret
1:
	mov	x1,xzr
	mov	w0,wzr
	ret
	.size	"rtp_841016a0_rtp_values::value::playout_delay::write::<#7ba4d078ccf006bf>", .-"rtp_841016a0_rtp_values::value::playout_delay::write::<#7ba4d078ccf006bf>"
	.cfi_endproc

	.section	".text.rtp_values::value::video_timing::write::<#7ba4d078ccf006bf>","ax",@progbits
	.p2align	2
	.type	"rtp_841016a0_rtp_values::value::video_timing::write::<#7ba4d078ccf006bf>",@function
"rtp_841016a0_rtp_values::value::video_timing::write::<#7ba4d078ccf006bf>":
	.cfi_startproc
	ldrb	w8,[x1,#127]
	cbz	w8,1f
	ldur	d0,[x1,#68]
	mvni	v1.4s,#7,msl #16
	ldrb	w8,[x1,#76]
	stur	wzr,[x0,#9]
	mov	w1,#13
	rev16	v0.8b,v0.8b
	strb	w8,[x0]
	zip1	v0.8h,v0.8h,v0.8h
	ushl	v0.8h,v0.8h,v1.8h
	xtn	v0.8b,v0.8h
	stur	d0,[x0,#1]
	mov	w0,#1
	ret
1:
	mov	x1,xzr
	mov	w0,wzr
	ret
	.size	"rtp_841016a0_rtp_values::value::video_timing::write::<#7ba4d078ccf006bf>", .-"rtp_841016a0_rtp_values::value::video_timing::write::<#7ba4d078ccf006bf>"
	.cfi_endproc

	.section	".text.rtp_values::value::stream_id::write::<#7ba4d078ccf006bf>","ax",@progbits
	.p2align	2
	.type	"rtp_841016a0_rtp_values::value::stream_id::write::<#7ba4d078ccf006bf>",@function
"rtp_841016a0_rtp_values::value::stream_id::write::<#7ba4d078ccf006bf>":
	.cfi_startproc
	stp	x30,x19,[sp,#-16]!
	.cfi_def_cfa_offset 16
	.cfi_offset w19,-8
	.cfi_offset w30,-16
	ldrb	w9,[x1,#129]
	cbz	w9,1f
	mov	x8,x1
	ldrb	w9,[x1,#97]!
	cbz	w9,2f
	ldrb	w10,[x8,#98]
	cbz	w10,3f
	ldrb	w10,[x8,#99]
	cbz	w10,4f
	ldrb	w10,[x8,#100]
	cbz	w10,5f
	ldrb	w9,[x8,#101]
	cbz	w9,6f
	ldrb	w9,[x8,#102]
	cbz	w9,7f
	ldrb	w9,[x8,#103]
	cbz	w9,8f
	ldrb	w9,[x8,#104]
	cbz	w9,9f
	ldrb	w8,[x8,#105]
	cmp	w8,#0
	mov	w8,#8
	cinc	x19,x8,ne
	b	10f
1:
	mov	x19,xzr
	mov	w0,wzr
	mov	x1,x19
	ldp	x30,x19,[sp],#16
	ret
2:
	mov	x19,xzr
1:
	mov	x2,x19
	bl	memmove
2:
	mov	w0,#1
	mov	x1,x19
	ldp	x30,x19,[sp],#16
	ret
3:
	strb	w9,[x0]
	mov	w19,#1
	mov	w0,#1
	mov	x1,x19
	ldp	x30,x19,[sp],#16
	ret
4:
	strb	w9,[x0]
	mov	w19,#2
	ldrb	w8,[x8,#98]
	strb	w8,[x0,#1]
	mov	w0,#1
	mov	x1,x19
	ldp	x30,x19,[sp],#16
	ret
5:
	strb	w9,[x0]
	mov	w19,#3
	ldrb	w9,[x8,#98]
	strb	w9,[x0,#1]
	ldrb	w8,[x8,#99]
	strb	w8,[x0,#2]
	mov	w0,#1
	mov	x1,x19
	ldp	x30,x19,[sp],#16
	ret
6:
	mov	w19,#4
	b	10f
7:
	mov	w19,#5
	b	10f
8:
	mov	w19,#6
	b	10f
9:
	mov	w19,#7
10:
	sub	x8,x0,x1
	cmp	x8,x19
	b.hs	1b
	mov	x8,xzr
1:
	ldrb	w9,[x1,x8]
	strb	w9,[x0,x8]
	add	x8,x8,#1
	cmp	x19,x8
	b.ne	1b
	b	2b
	.size	"rtp_841016a0_rtp_values::value::stream_id::write::<#7ba4d078ccf006bf>", .-"rtp_841016a0_rtp_values::value::stream_id::write::<#7ba4d078ccf006bf>"
	.cfi_endproc

	.section	".text.rtp_values::value::stream_id::write_repaired::<#7ba4d078ccf006bf>","ax",@progbits
	.p2align	2
	.type	"rtp_841016a0_rtp_values::value::stream_id::write_repaired::<#7ba4d078ccf006bf>",@function
"rtp_841016a0_rtp_values::value::stream_id::write_repaired::<#7ba4d078ccf006bf>":
	.cfi_startproc
	stp	x30,x19,[sp,#-16]!
	.cfi_def_cfa_offset 16
	.cfi_offset w19,-8
	.cfi_offset w30,-16
	ldrb	w9,[x1,#130]
	cbz	w9,1f
	mov	x8,x1
	ldrb	w9,[x1,#106]!
	cbz	w9,2f
	ldrb	w10,[x8,#107]
	cbz	w10,3f
	ldrb	w10,[x8,#108]
	cbz	w10,4f
	ldrb	w10,[x8,#109]
	cbz	w10,5f
	ldrb	w9,[x8,#110]
	cbz	w9,6f
	ldrb	w9,[x8,#111]
	cbz	w9,7f
	ldrb	w9,[x8,#112]
	cbz	w9,8f
	ldrb	w9,[x8,#113]
	cbz	w9,9f
	ldrb	w8,[x8,#114]
	cmp	w8,#0
	mov	w8,#8
	cinc	x19,x8,ne
	b	10f
1:
	mov	x19,xzr
	mov	w0,wzr
	mov	x1,x19
	ldp	x30,x19,[sp],#16
	ret
2:
	mov	x19,xzr
1:
	mov	x2,x19
	bl	memmove
2:
	mov	w0,#1
	mov	x1,x19
	ldp	x30,x19,[sp],#16
	ret
3:
	strb	w9,[x0]
	mov	w19,#1
	mov	w0,#1
	mov	x1,x19
	ldp	x30,x19,[sp],#16
	ret
4:
	strb	w9,[x0]
	mov	w19,#2
	ldrb	w8,[x8,#107]
	strb	w8,[x0,#1]
	mov	w0,#1
	mov	x1,x19
	ldp	x30,x19,[sp],#16
	ret
5:
	strb	w9,[x0]
	mov	w19,#3
	ldrb	w9,[x8,#107]
	strb	w9,[x0,#1]
	ldrb	w8,[x8,#108]
	strb	w8,[x0,#2]
	mov	w0,#1
	mov	x1,x19
	ldp	x30,x19,[sp],#16
	ret
6:
	mov	w19,#4
	b	10f
7:
	mov	w19,#5
	b	10f
8:
	mov	w19,#6
	b	10f
9:
	mov	w19,#7
10:
	sub	x8,x0,x1
	cmp	x8,x19
	b.hs	1b
	mov	x8,xzr
1:
	ldrb	w9,[x1,x8]
	strb	w9,[x0,x8]
	add	x8,x8,#1
	cmp	x19,x8
	b.ne	1b
	b	2b
	.size	"rtp_841016a0_rtp_values::value::stream_id::write_repaired::<#7ba4d078ccf006bf>", .-"rtp_841016a0_rtp_values::value::stream_id::write_repaired::<#7ba4d078ccf006bf>"
	.cfi_endproc

	.section	".text.rtp_values::value::mid::write::<#7ba4d078ccf006bf>","ax",@progbits
	.p2align	2
	.type	"rtp_841016a0_rtp_values::value::mid::write::<#7ba4d078ccf006bf>",@function
"rtp_841016a0_rtp_values::value::mid::write::<#7ba4d078ccf006bf>":
	.cfi_startproc
	stp	x30,x19,[sp,#-16]!
	.cfi_def_cfa_offset 16
	.cfi_offset w19,-8
	.cfi_offset w30,-16
	ldrb	w9,[x1,#128]
	cbz	w9,1f
	mov	x8,x1
	ldrb	w9,[x1,#80]!
	cbz	w9,2f
	ldrb	w10,[x8,#81]
	cbz	w10,3f
	ldrb	w10,[x8,#82]
	cbz	w10,4f
	ldrb	w10,[x8,#83]
	cbz	w10,5f
	ldrb	w9,[x8,#84]
	cbz	w9,6f
	ldrb	w9,[x8,#85]
	cbz	w9,7f
	ldrb	w9,[x8,#86]
	cbz	w9,8f
	ldrb	w9,[x8,#87]
	cbz	w9,9f
	ldrb	w9,[x8,#88]
	cbz	w9,10f
	ldrb	w9,[x8,#89]
	cbz	w9,11f
	ldrb	w9,[x8,#90]
	cbz	w9,12f
	ldrb	w9,[x8,#91]
	cbz	w9,13f
	ldrb	w9,[x8,#92]
	cbz	w9,14f
	ldrb	w9,[x8,#93]
	cbz	w9,15f
	ldrb	w9,[x8,#94]
	cbz	w9,16f
	ldrb	w9,[x8,#95]
	cbz	w9,17f
	ldrb	w9,[x8,#96]
	cmp	w9,#0
	mov	w9,#16
	cinc	x19,x9,ne
	b	18f
1:
	mov	x19,xzr
	mov	w0,wzr
	mov	x1,x19
	ldp	x30,x19,[sp],#16
	ret
2:
	mov	x19,xzr
1:
	mov	x2,x19
	bl	memmove
2:
	mov	w0,#1
	mov	x1,x19
	ldp	x30,x19,[sp],#16
	ret
3:
	strb	w9,[x0]
	mov	w19,#1
	mov	w0,#1
	mov	x1,x19
	ldp	x30,x19,[sp],#16
	ret
4:
	strb	w9,[x0]
	mov	w19,#2
	ldrb	w8,[x8,#81]
	strb	w8,[x0,#1]
	mov	w0,#1
	mov	x1,x19
	ldp	x30,x19,[sp],#16
	ret
5:
	strb	w9,[x0]
	mov	w19,#3
	ldrb	w9,[x8,#81]
	strb	w9,[x0,#1]
	ldrb	w8,[x8,#82]
	strb	w8,[x0,#2]
	mov	w0,#1
	mov	x1,x19
	ldp	x30,x19,[sp],#16
	ret
6:
	mov	w19,#4
	b	18f
7:
	mov	w19,#5
	b	18f
8:
	mov	w19,#6
	b	18f
9:
	mov	w19,#7
	b	18f
10:
	mov	w19,#8
	b	18f
11:
	mov	w19,#9
	b	18f
12:
	mov	w19,#10
	b	18f
13:
	mov	w19,#11
	b	18f
14:
	mov	w19,#12
	b	18f
15:
	mov	w19,#13
	b	18f
16:
	mov	w19,#14
	b	18f
17:
	mov	w19,#15
18:
	sub	x9,x0,x1
	cmp	x9,x19
	b.hs	1b
	sub	x9,x0,x8
	sub	x9,x9,#80
	cmp	x9,#16
	b.hs	1f
	mov	x9,xzr
	b	3f
1:
	cmp	x19,#16
	b.hs	1f
	mov	x9,xzr
	b	4f
1:
	and	x10,x19,#0xc
	and	x9,x19,#0x10
	mov	x11,x0
	add	x12,x8,#80
	and	x13,x19,#0x10
1:
	ldr	q0,[x12],#16
	subs	x13,x13,#16
	str	q0,[x11],#16
	b.ne	1b
	cmp	x19,x9
	b.eq	2b
	cbz	x10,3f
4:
	mov	x11,x9
	and	x9,x19,#0x1c
	add	x10,x11,x8
	sub	x8,x11,x9
	add	x11,x0,x11
	add	x10,x10,#80
1:
	ldr	w12,[x10],#4
	adds	x8,x8,#4
	str	w12,[x11],#4
	b.ne	1b
	b	1f
3:
	ldrb	w8,[x1,x9]
	strb	w8,[x0,x9]
	add	x9,x9,#1
1:
	cmp	x19,x9
	b.ne	3b
	b	2b
	.size	"rtp_841016a0_rtp_values::value::mid::write::<#7ba4d078ccf006bf>", .-"rtp_841016a0_rtp_values::value::mid::write::<#7ba4d078ccf006bf>"
	.cfi_endproc

	.section	".text.unlikely.rtp_ext::elements::skip_zeros","ax",@progbits
	.p2align	2
	.type	"rtp_841016a0_rtp_ext::elements::skip_zeros",@function
"rtp_841016a0_rtp_ext::elements::skip_zeros":
	.cfi_startproc
	mov	x11,x0
	mov	x10,x1
1:
	mov	x8,x10
	subs	x10,x10,#16
	mov	x9,x11
	b.lo	2f
	ldp	x11,x12,[x9]
	orr	x12,x12,x11
	add	x11,x9,#16
	cbz	x12,1b
2:
	mov	x10,xzr
	add	x0,x0,x1
1:
	subs	x1,x8,x10
	b.eq	2f
	ldrb	w11,[x9,x10]
	add	x10,x10,#1
	cbz	w11,1b
	add	x8,x9,x10
	sub	x0,x8,#1
2:
	ret
	.size	"rtp_841016a0_rtp_ext::elements::skip_zeros", .-"rtp_841016a0_rtp_ext::elements::skip_zeros"
	.cfi_endproc

	.section	".text.unlikely.rtp_ext::survey::one_more","ax",@progbits
	.p2align	2
	.type	"rtp_841016a0_rtp_ext::survey::one_more",@function
"rtp_841016a0_rtp_ext::survey::one_more":
	.cfi_startproc
	add	x0,x0,#1
	ret
	.size	"rtp_841016a0_rtp_ext::survey::one_more", .-"rtp_841016a0_rtp_ext::survey::one_more"
	.cfi_endproc

	.section	".text.rtp_ext::renamed_ids::lowest_beside::<#d4d397b1ff315637>","ax",@progbits
	.p2align	2
	.type	"rtp_841016a0_rtp_ext::renamed_ids::lowest_beside::<#d4d397b1ff315637>",@function
"rtp_841016a0_rtp_ext::renamed_ids::lowest_beside::<#d4d397b1ff315637>":
	.cfi_startproc
	str	x30,[sp,#-48]!
	stp	x22,x21,[sp,#16]
	stp	x20,x19,[sp,#32]
	.cfi_def_cfa_offset 48
	.cfi_offset w19,-8
	.cfi_offset w20,-16
	.cfi_offset w21,-24
	.cfi_offset w22,-32
	.cfi_offset w30,-48
	mov	w19,w3
	mov	w22,w2
	mov	x21,x1
	mov	x20,x0
	mov	x8,xzr
	mov	x9,x1
1:
	cmp	x8,x9
	b.hs	2f
	add	x10,x20,x8
	add	x8,x8,#1
	ldrb	w10,[x10,#1]
	sub	w10,w10,#1
	and	w10,w10,#0xff
	cmp	w10,w22,uxtb
	b.ne	1b
	b	3f
2:
	cmp	x9,#15
	mov	w1,wzr
	b.lo	2f
	cmp	x8,#254
	mov	w0,w1
	b.hi	4f
	mov	x0,x20
	mov	x1,x8
	bl	"rtp_841016a0_rtp_c::kinds::StoredMap::past_unmapped"
	add	x10,x0,#16
	mov	w9,#255
	mov	x8,x0
	cmp	x10,#255
	csel	x9,x10,x9,lo
	b	1b
3:
	mov	x8,xzr
1:
	cmp	x8,x21
	b.hs	3f
	add	x9,x20,x8
	add	x1,x8,#1
	ldrb	w9,[x9,#1]
	mov	x8,x1
	sub	w9,w9,#1
	and	w9,w9,#0xff
	cmp	w9,w19,uxtb
	b.ne	1b
	b	5f
3:
	cmp	x21,#15
	mov	w1,wzr
	b.lo	2f
	cmp	x8,#254
	mov	w0,w1
	b.hi	4f
	mov	x0,x20
	mov	x1,x8
	bl	"rtp_841016a0_rtp_c::kinds::StoredMap::past_unmapped"
	add	x10,x0,#16
	mov	w9,#255
	mov	x8,x0
	cmp	x10,#255
	csel	x21,x10,x9,lo
	b	1b
5:
	mov	w0,#1
4:
	ldp	x20,x19,[sp,#32]
	ldp	x22,x21,[sp,#16]
	ldr	x30,[sp],#48
	ret
2:
	mov	w0,w1
	ldp	x20,x19,[sp,#32]
	ldp	x22,x21,[sp,#16]
	ldr	x30,[sp],#48
	ret
	.size	"rtp_841016a0_rtp_ext::renamed_ids::lowest_beside::<#d4d397b1ff315637>", .-"rtp_841016a0_rtp_ext::renamed_ids::lowest_beside::<#d4d397b1ff315637>"
	.cfi_endproc

	.section	".text.rtp_c::kinds::StoredMap::past_unmapped","ax",@progbits
	.p2align	2
	.type	"rtp_841016a0_rtp_c::kinds::StoredMap::past_unmapped",@function
"rtp_841016a0_rtp_c::kinds::StoredMap::past_unmapped":
	.cfi_startproc
	add	x8,x0,#1
1:
	mov	x0,x1
	add	x1,x1,#16
	cmp	x1,#255
	b.hi	2f
	movi	v0.2d,#0xffffffffffffffff
	ldr	q1,[x8,x0]
	movi	v2.16b,#15
	add	v0.16b,v1.16b,v0.16b
	cmhi	v0.16b,v2.16b,v0.16b
	umaxv	b0,v0.16b
	fmov	w9,s0
	tbz	w9,#0,1b
2:
	ret
	.size	"rtp_841016a0_rtp_c::kinds::StoredMap::past_unmapped", .-"rtp_841016a0_rtp_c::kinds::StoredMap::past_unmapped"
	.cfi_endproc

	.section	.rodata.cst8,"aM",@progbits,8
	.p2align	3,0x0
.Lrtp_841016a0_CPI13_0:
	.word	100
	.word	0
	.section	".text.rtp_ext::block_values::read_values::<#9a3a19c0cce455e9>","ax",@progbits
	.p2align	2
	.type	"rtp_841016a0_rtp_ext::block_values::read_values::<#9a3a19c0cce455e9>",@function
"rtp_841016a0_rtp_ext::block_values::read_values::<#9a3a19c0cce455e9>":
	.cfi_startproc
	sub	sp,sp,#144
	stp	x30,x27,[sp,#64]
	stp	x26,x25,[sp,#80]
	stp	x24,x23,[sp,#96]
	stp	x22,x21,[sp,#112]
	stp	x20,x19,[sp,#128]
	.cfi_def_cfa_offset 144
	.cfi_offset w19,-8
	.cfi_offset w20,-16
	.cfi_offset w21,-24
	.cfi_offset w22,-32
	.cfi_offset w23,-40
	.cfi_offset w24,-48
	.cfi_offset w25,-56
	.cfi_offset w26,-64
	.cfi_offset w27,-72
	.cfi_offset w30,-80
	mov	x19,x4
	mov	x21,x2
	mov	x8,x1
	tst	w3,#0xff
	mov	x20,x0
	b.eq	1f
	cbnz	x21,2f
	b	3f
1:
	cbnz	x21,1f
3:
	ldp	x20,x19,[sp,#128]
	ldp	x22,x21,[sp,#112]
	ldp	x24,x23,[sp,#96]
	ldp	x26,x25,[sp,#80]
	ldp	x30,x27,[sp,#64]
	add	sp,sp,#144
	ret
4:
	mov	x0,x22
	mov	x1,x23
	mov	x2,x19
	bl	"rtp_841016a0_rtp_values::value::stream_id::read_repaired::<#a6b2bc1c138ab33f>"
5:
	mov	x8,x26
	cbz	x21,3b
2:
	ldrb	w9,[x8]
	cbz	w9,2f
	cmp	x21,#2
	b.hs	6f
	b	3b
2:
	cmp	x21,#2
	b.eq	2f
	cmp	x21,#1
	b.eq	3b
	cmp	x21,#3
	b.hi	7f
	ldrb	w9,[x8,#1]
	cbnz	w9,7f
	ldrb	w9,[x8,#2]
	cbnz	w9,7f
	b	3b
2:
	ldrb	w9,[x8,#1]
	cbz	w9,3b
7:
	sub	x1,x21,#1
	add	x0,x8,#1
	bl	"rtp_841016a0_rtp_ext::elements::skip_zeros"
	cbz	x1,3b
	mov	x21,x1
	mov	x8,x0
	cmp	x1,#2
	b.lo	3b
6:
	ldrb	w23,[x8,#1]
	add	x9,x23,#2
	subs	x21,x21,x9
	b.lo	3b
	mov	x22,x8
	add	x26,x8,x9
	ldrb	w10,[x22],#2
	cbz	x10,5b
	ldrb	w9,[x20,x10]
	sub	w9,w9,#1
	cmp	w9,#14
	b.hi	5b
	adrp	x10,2f
	add	x10,x10,:lo12:2f
	adr	x11,4b
	ldrb	w12,[x10,x9]
	add	x11,x11,x12,lsl #2
	br	x11
6:
	cmp	w23,#3
	b.lo	5b
	ldrb	w9,[x8,#2]
	ldrb	w10,[x8,#3]
	ldrb	w8,[x8,#4]
	lsl	w9,w9,#8
	orr	w9,w9,w10,lsl #16
	orr	w8,w9,w8,lsl #24
	mov	w9,#16960
	movk	w9,#15,lsl #16
	rev	w8,w8
	umull	x8,w8,w9
	mov	w9,#1
	strb	w9,[x19,#115]
	lsr	x8,x8,#18
	str	x8,[x19]
	b	5b
7:
	cmp	w23,#2
	b.lo	8f
	cbz	x21,9f
10:
	ldrb	w8,[x26]
	mov	x0,x26
	mov	x1,x21
	cbnz	w8,11f
	cmp	x21,#2
	b.eq	12f
	cmp	x21,#1
	b.eq	13f
	cmp	x21,#3
	b.hi	14f
	ldrb	w8,[x26,#1]
	cbnz	w8,14f
	ldrb	w8,[x26,#2]
	cbnz	w8,14f
	b	13f
12:
	ldrb	w8,[x26,#1]
	cbz	w8,13f
14:
	add	x0,x26,#1
	sub	x1,x21,#1
	bl	"rtp_841016a0_rtp_ext::elements::skip_zeros"
	cbz	x1,13f
11:
	cmp	x1,#2
	b.lo	13f
	ldrb	w24,[x0,#1]
	add	x8,x24,#2
	subs	x27,x1,x8
	b.lo	13f
	mov	x25,x0
	ldrb	w9,[x25],#2
	cbz	x9,8f
	ldrb	w9,[x20,x9]
	cmp	w9,#15
	b.ne	8f
	add	x26,x0,x8
	mov	x0,x25
	mov	x1,x24
	bl	"rtp_841016a0_rtp_ext::block_values::is_another_allocation"
	cmp	w0,#0
	mov	x21,x27
	csel	x23,x24,x23,ne
	csel	x22,x25,x22,ne
	cbnz	x27,10b
	b	9f
10:
	cbz	w23,5b
	ldrb	w8,[x22]
	mov	x9,#17694720
	mov	w10,#1
	movk	x9,#180,lsl #32
	strb	w10,[x19,#121]
	ubfiz	x8,x8,#4,#2
	movk	x9,#90,lsl #48
	lsr	x8,x9,x8
	strh	w8,[x19,#66]
	b	5b
11:
	cmp	w23,#4
	b.lo	5b
	ldr	w8,[x22]
	mov	w9,#1
	strb	w9,[x19,#119]
	rev	w8,w8
	str	w8,[x19,#60]
	b	5b
12:
	cmp	w23,#2
	b.lo	5b
	ldrh	w8,[x22]
	mov	w9,#1
	strb	w9,[x19,#120]
	rev	w8,w8
	lsr	w8,w8,#16
	strh	w8,[x19,#64]
	b	5b
14:
	mov	x8,#2314885530818453536
	cmp	w23,#16
	adrp	x24,.Lrtp_841016a0_static.2
	add	x24,x24,:lo12:.Lrtp_841016a0_static.2
	stp	xzr,xzr,[sp,#8]
	stp	xzr,x8,[sp,#24]
	str	x8,[sp,#40]
	b.hi	15f
	cbz	w23,16f
	mov	x8,xzr
17:
	ldrsb	x9,[x22,x8]
	tbnz	x9,#63,15f
	ldrb	w9,[x24,x9]
	add	x10,sp,#32
	strb	w9,[x10,x8]
	add	x8,x8,#1
	cmp	x23,x8
	b.ne	17b
	ldr	q0,[sp,#32]
	b	17f
18:
	cmp	w23,#4
	b.lo	5b
	ldr	w8,[x22]
	mov	w9,#1
	strb	w9,[x19,#118]
	rev	w8,w8
	str	w8,[x19,#56]
	b	5b
19:
	cbz	w23,5b
	ldrb	w8,[x22]
	mov	w9,#257
	sturh	w9,[x19,#123]
	and	w10,w8,#0x7f
	lsr	w8,w8,#7
	neg	w9,w10
	strb	w9,[x19,#78]
	strb	w8,[x19,#79]
	b	5b
20:
	cmp	w23,#8
	b.lo	5b
	cmp	w23,#16
	b.lo	21f
	ldur	x8,[x8,#10]
	rev	x8,x8
	b	22f
23:
	cmp	w23,#3
	b.lo	5b
	ldrb	w9,[x8,#2]
	ldrb	w10,[x8,#3]
	ldrb	w8,[x8,#4]
	lsl	w9,w9,#8
	orr	w9,w9,w10,lsl #16
	adrp	x10,.Lrtp_841016a0_CPI13_0
	ldr	d0,[x10,:lo12:.Lrtp_841016a0_CPI13_0]
	orr	w8,w9,w8,lsl #24
	mov	w9,#257
	sturh	w9,[x19,#125]
	rev	w8,w8
	str	d0,[x19,#32]
	lsr	w9,w8,#12
	and	w8,w8,#0xfff
	str	d0,[x19,#48]
	str	x8,[x19,#40]
	str	x9,[x19,#24]
	b	5b
24:
	cbz	w23,5b
	ldrb	w8,[x22]
	mov	w9,#1
	strb	w9,[x19,#122]
	strb	w8,[x19,#77]
	b	5b
25:
	mov	x0,x22
	mov	x1,x23
	mov	x2,x19
	bl	"rtp_841016a0_rtp_values::value::stream_id::read::<#a6b2bc1c138ab33f>"
	b	5b
26:
	cmp	w23,#9
	b.lo	5b
	ldurh	w9,[x8,#3]
	ldrb	w10,[x8,#2]
	mov	w13,#1
	ldurh	w11,[x8,#5]
	ldurh	w12,[x8,#7]
	ldurh	w8,[x8,#9]
	rev	w9,w9
	strb	w10,[x19,#76]
	rev	w11,w11
	rev	w12,w12
	rev	w8,w8
	lsr	w9,w9,#16
	lsr	w10,w11,#16
	lsr	w11,w12,#16
	lsr	w8,w8,#16
	strb	w13,[x19,#127]
	strh	w9,[x19,#68]
	strh	w10,[x19,#70]
	strh	w11,[x19,#72]
	strh	w8,[x19,#74]
	b	5b
15:
	add	x0,sp,#8
	mov	x1,x22
	mov	x2,x23
	bl	"rtp_841016a0_core::str::utf8::from_utf8"
	ldrb	w8,[sp,#8]
	cbnz	w8,5b
	ldp	x9,x8,[sp,#16]
	mov	x10,#2314885530818453536
	stp	x10,x10,[sp,#48]
	cbz	x8,15f
	mov	x10,xzr
	mov	x11,xzr
27:
	ldrsb	w12,[x9,x11]
	cmn	w12,#64
	b.lt	28f
	and	x12,x12,#0xff
	add	x13,sp,#48
	ldrb	w12,[x24,x12]
	strb	w12,[x13,x10]
	add	x10,x10,#1
28:
	add	x11,x11,#1
	cmp	x11,x8
	b.hs	28f
	cmp	x10,#16
	b.ne	27b
28:
	ldr	q0,[sp,#48]
	b	17f
21:
	mov	x8,xzr
22:
	ldr	x9,[x22]
	cmp	w23,#15
	mov	w10,#1
	cset	w11,hi
	strb	w10,[x19,#116]
	rev	x9,x9
	strb	w11,[x19,#117]
	stp	x9,x8,[x19,#8]
	b	5b
13:
	mov	x21,xzr
9:
	adrp	x26,.Lrtp_841016a0_static.0
	add	x26,x26,:lo12:.Lrtp_841016a0_static.0
8:
	cbz	x23,5b
	subs	x9,x23,#1
	b.ne	8f
	ldrb	w8,[x22]
	cbnz	w8,5b
	b	9f
8:
	mov	x8,x22
	ldrb	w10,[x8],#1
	ubfx	x11,x10,#4,#2
	ands	w12,w10,#0xf
	add	w10,w11,#1
	b.eq	8f
	mov	w14,w12
	mov	w13,w12
	mov	w15,w12
	b	13f
16:
	movi	v0.2d,#0000000000000000
	b	16f
8:
	add	x13,x11,#2
	lsr	x16,x13,#1
	subs	x9,x9,x16
	b.lo	5b
	cbz	w11,8f
	ldrb	w13,[x8]
	cmp	w10,#2
	and	w14,w13,#0xf
	b.ne	21f
	mov	w13,w12
	b	22f
15:
	movi	v0.16b,#32
17:
	movi	v1.16b,#32
	cmeq	v1.16b,v0.16b,v1.16b
	bic	v0.16b,v0.16b,v1.16b
16:
	mov	w8,#1
	str	q0,[x19,#80]
	strb	w8,[x19,#128]
	strb	wzr,[x19,#96]
	b	5b
8:
	mov	w14,w12
	mov	w13,w12
	b	22f
21:
	ldrb	w13,[x22,#2]
	cmp	w10,#3
	lsr	w13,w13,#4
	b.eq	22f
	ldrb	w12,[x22,#2]
	and	w12,w12,#0xf
22:
	ldrb	w17,[x8]
	mov	w15,w12
	add	x8,x8,x16
	lsr	w12,w17,#4
13:
	ldrb	w16,[x22]
	ands	w16,w16,#0xf
	b.eq	8f
	fmov	s0,w16
	cnt	v0.8b,v0.8b
	fmov	w11,s0
	mul	w12,w11,w10
13:
	and	x24,x12,#0xff
	add	x10,x24,#3
	lsr	x10,x10,#2
	subs	x22,x9,x10
	b.lo	5b
	cbz	x10,15f
	cmp	x10,#1
	b.ne	16f
	ldrb	w9,[x8]
	lsl	w9,w9,#24
	cbnz	w24,17f
	b	9f
8:
	fmov	s0,w12
	cnt	v0.8b,v0.8b
	fmov	w12,s0
	cbz	w11,13b
	fmov	s0,w14
	cmp	w10,#2
	cnt	v0.8b,v0.8b
	fmov	w11,s0
	add	w12,w12,w11
	b.eq	13b
	fmov	s0,w13
	cmp	w10,#3
	cnt	v0.8b,v0.8b
	fmov	w11,s0
	add	w12,w12,w11
	b.eq	13b
	fmov	s0,w15
	cnt	v0.8b,v0.8b
	fmov	w10,s0
	add	w12,w12,w10
	b	13b
15:
	mov	w9,wzr
	cbnz	w24,17f
	b	9f
16:
	cmp	w24,#8
	b.hi	8f
	ldrh	w9,[x8]
	rev	w9,w9
	cbnz	w24,17f
	b	9f
8:
	cmp	x10,#3
	b.ne	8f
	ldrb	w9,[x8,#2]
	ldrh	w11,[x8]
	orr	w9,w11,w9,lsl #16
	b	13f
8:
	ldr	w9,[x8]
13:
	rev	w9,w9
17:
	mov	w11,#32
	mov	w9,w9
	add	x23,x8,x10
	sub	x11,x11,x24,lsl #1
	lsr	x9,x9,x11
	mov	w11,#-1431655766
	and	w11,w9,w11
	fmov	d1,x9
	fmov	s0,w11
	cnt	v1.8b,v1.8b
	cnt	v0.8b,v0.8b
	addv	b1,v1.8b
	addv	b0,v0.8b
	fmov	w9,s1
	fmov	w11,s0
	add	x9,x9,x24
	adds	x25,x9,x11
	b.ne	8f
13:
	subs	x9,x22,#5
	b.hs	15f
9:
	mov	w8,#1
	strb	w8,[x19,#131]
	b	5b
16:
	sub	x22,x22,#1
	add	x23,x23,#1
17:
	subs	x25,x25,#1
	b.eq	13b
8:
	cbz	x22,17b
	ldrsb	w8,[x23]
	tbz	w8,#31,16b
	cmp	x22,#1
	b.eq	8f
	ldrsb	w8,[x23,#1]
	tbnz	w8,#31,8f
	mov	w8,#2
	b	13f
8:
	add	x0,sp,#8
	mov	x1,x23
	mov	x2,x22
	bl	"rtp_841016a0_rtp_vla::leb::long_number_at"
	ldrb	w8,[sp,#8]
	cmp	w8,#1
	b.ne	17b
	ldr	x8,[sp,#24]
13:
	add	x23,x23,x8
	sub	x22,x22,x8
	b	17b
15:
	mov	w8,#1
8:
	ldrh	w10,[x23]
	rev	w11,w10
	mov	w10,#65535
	cmp	w10,w11,lsr #16
	b.eq	5b
	ldrh	w11,[x23,#2]
	rev	w11,w11
	cmp	w10,w11,lsr #16
	b.eq	5b
	cmp	x8,x24
	b.hs	9b
	cmp	x9,#5
	sub	x9,x9,#5
	add	x8,x8,#1
	add	x23,x23,#5
	b.hs	8b
	b	9b
8:
	mov	x0,x22
	mov	x1,x23
	mov	x2,x19
	bl	"rtp_841016a0_rtp_values::value::stream_id::read_repaired::<#a6b2bc1c138ab33f>"
9:
	mov	x8,x26
	cbz	x21,3b
1:
	ldrb	w11,[x8]
	cbnz	w11,1f
	cmp	x21,#2
	b.eq	13f
	cmp	x21,#1
	b.eq	3b
	cmp	x21,#3
	b.hi	15f
	ldrb	w9,[x8,#1]
	cbnz	w9,15f
	ldrb	w9,[x8,#2]
	cbnz	w9,15f
	b	3b
13:
	ldrb	w9,[x8,#1]
	cbz	w9,3b
15:
	sub	x1,x21,#1
	add	x0,x8,#1
	bl	"rtp_841016a0_rtp_ext::elements::skip_zeros"
	cbz	x1,3b
	ldrb	w11,[x0]
	mov	x21,x1
	mov	x8,x0
1:
	cmp	w11,#239
	b.hi	3b
	and	w9,w11,#0xf
	add	w10,w9,#2
	subs	x21,x21,x10
	b.lo	3b
	mov	w11,w11
	add	x26,x8,x10
	lsr	x11,x11,#4
	cbz	w11,9b
	ldrb	w11,[x20,x11]
	sub	w11,w11,#1
	cmp	w11,#14
	b.hi	9b
	adrp	x12,1f
	add	x12,x12,:lo12:1f
	add	x22,x8,#1
	adr	x13,8b
	ldrb	w14,[x12,x11]
	add	x13,x13,x14,lsl #2
	sub	x23,x10,#1
	br	x13
3:
	cmp	w9,#2
	b.lo	9b
	ldrb	w9,[x8,#1]
	ldrb	w10,[x8,#2]
	ldrb	w8,[x8,#3]
	lsl	w9,w9,#8
	orr	w9,w9,w10,lsl #16
	orr	w8,w9,w8,lsl #24
	mov	w9,#16960
	movk	w9,#15,lsl #16
	rev	w8,w8
	umull	x8,w8,w9
	mov	w9,#1
	strb	w9,[x19,#115]
	lsr	x8,x8,#18
	str	x8,[x19]
	b	9b
13:
	cbz	w9,15f
	cbz	x21,16f
17:
	ldrb	w8,[x26]
	mov	x0,x26
	mov	x1,x21
	cbnz	w8,21f
	cmp	x21,#2
	b.eq	22f
	cmp	x21,#1
	b.eq	27f
	cmp	x21,#3
	b.hi	28f
	ldrb	w8,[x26,#1]
	cbnz	w8,28f
	ldrb	w8,[x26,#2]
	cbnz	w8,28f
	b	27f
22:
	ldrb	w8,[x26,#1]
	cbz	w8,27f
28:
	add	x0,x26,#1
	sub	x1,x21,#1
	bl	"rtp_841016a0_rtp_ext::elements::skip_zeros"
	cbz	x1,27f
	ldrb	w8,[x0]
21:
	cmp	w8,#239
	b.hi	27f
	and	w9,w8,#0xf
	add	w9,w9,#2
	subs	x27,x1,x9
	b.lo	27f
	mov	w8,w8
	lsr	x8,x8,#4
	cbz	w8,21f
	ldrb	w8,[x20,x8]
	cmp	w8,#15
	b.ne	21f
	add	x24,x0,#1
	sub	x25,x9,#1
	add	x26,x0,x9
	mov	x0,x24
	mov	x1,x25
	bl	"rtp_841016a0_rtp_ext::block_values::is_another_allocation"
	cmp	w0,#0
	mov	x21,x27
	csel	x23,x25,x23,ne
	csel	x22,x24,x22,ne
	cbnz	x27,17b
	b	16f
17:
	ldrb	w8,[x22]
	mov	x9,#17694720
	mov	w10,#1
	movk	x9,#180,lsl #32
	strb	w10,[x19,#121]
	ubfiz	x8,x8,#4,#2
	movk	x9,#90,lsl #48
	lsr	x8,x9,x8
	strh	w8,[x19,#66]
	b	9b
22:
	cmp	w9,#3
	b.lo	9b
	ldr	w8,[x22]
	mov	w9,#1
	strb	w9,[x19,#119]
	rev	w8,w8
	str	w8,[x19,#60]
	b	9b
28:
	cbz	w9,9b
	ldrh	w8,[x22]
	mov	w9,#1
	strb	w9,[x19,#120]
	rev	w8,w8
	lsr	w8,w8,#16
	strh	w8,[x19,#64]
	b	9b
29:
	mov	x8,xzr
	mov	x9,#2314885530818453536
	stp	xzr,xzr,[sp,#8]
	stp	xzr,x9,[sp,#24]
	str	x9,[sp,#40]
30:
	ldrsb	x9,[x22,x8]
	tbnz	x9,#63,31f
	adrp	x10,.Lrtp_841016a0_static.2
	add	x10,x10,:lo12:.Lrtp_841016a0_static.2
	ldrb	w9,[x10,x9]
	add	x10,sp,#32
	strb	w9,[x10,x8]
	add	x8,x8,#1
	cmp	x23,x8
	b.ne	30b
	ldr	q0,[sp,#32]
30:
	movi	v1.16b,#32
	mov	w8,#1
	strb	wzr,[x19,#96]
	strb	w8,[x19,#128]
	cmeq	v1.16b,v0.16b,v1.16b
	bic	v0.16b,v0.16b,v1.16b
	str	q0,[x19,#80]
	b	9b
32:
	cmp	w9,#3
	b.lo	9b
	ldr	w8,[x22]
	mov	w9,#1
	strb	w9,[x19,#118]
	rev	w8,w8
	str	w8,[x19,#56]
	b	9b
33:
	ldrb	w8,[x22]
	mov	w9,#257
	sturh	w9,[x19,#123]
	and	w10,w8,#0x7f
	lsr	w8,w8,#7
	neg	w9,w10
	strb	w9,[x19,#78]
	strb	w8,[x19,#79]
	b	9b
34:
	cmp	w9,#7
	b.lo	9b
	cmp	w9,#15
	b.ne	35f
	ldur	x8,[x8,#9]
	rev	x8,x8
	b	36f
37:
	cmp	w9,#2
	b.lo	9b
	ldrb	w9,[x8,#1]
	ldrb	w10,[x8,#2]
	ldrb	w8,[x8,#3]
	lsl	w9,w9,#8
	orr	w9,w9,w10,lsl #16
	adrp	x10,.Lrtp_841016a0_CPI13_0
	ldr	d0,[x10,:lo12:.Lrtp_841016a0_CPI13_0]
	orr	w8,w9,w8,lsl #24
	mov	w9,#257
	sturh	w9,[x19,#125]
	rev	w8,w8
	str	d0,[x19,#32]
	lsr	w9,w8,#12
	and	w8,w8,#0xfff
	str	d0,[x19,#48]
	str	x8,[x19,#40]
	str	x9,[x19,#24]
	b	9b
38:
	ldrb	w8,[x22]
	mov	w9,#1
	strb	w9,[x19,#122]
	strb	w8,[x19,#77]
	b	9b
39:
	mov	x0,x22
	mov	x1,x23
	mov	x2,x19
	bl	"rtp_841016a0_rtp_values::value::stream_id::read::<#a6b2bc1c138ab33f>"
	b	9b
40:
	cmp	w9,#8
	b.lo	9b
	ldrh	w9,[x8,#2]
	ldrb	w10,[x8,#1]
	mov	w13,#1
	ldrh	w11,[x8,#4]
	ldrh	w12,[x8,#6]
	ldrh	w8,[x8,#8]
	rev	w9,w9
	strb	w10,[x19,#76]
	rev	w11,w11
	rev	w12,w12
	rev	w8,w8
	lsr	w9,w9,#16
	lsr	w10,w11,#16
	lsr	w11,w12,#16
	lsr	w8,w8,#16
	strb	w13,[x19,#127]
	strh	w9,[x19,#68]
	strh	w10,[x19,#70]
	strh	w11,[x19,#72]
	strh	w8,[x19,#74]
	b	9b
31:
	add	x0,sp,#8
	mov	x1,x22
	mov	x2,x23
	bl	"rtp_841016a0_core::str::utf8::from_utf8"
	ldrb	w8,[sp,#8]
	cbnz	w8,9b
	ldp	x9,x8,[sp,#16]
	mov	x10,#2314885530818453536
	stp	x10,x10,[sp,#48]
	cbz	x8,31f
	mov	x10,xzr
	mov	x11,xzr
41:
	ldrsb	w12,[x9,x11]
	cmn	w12,#64
	b.lt	42f
	and	x12,x12,#0xff
	adrp	x13,.Lrtp_841016a0_static.2
	add	x13,x13,:lo12:.Lrtp_841016a0_static.2
	ldrb	w12,[x13,x12]
	add	x13,sp,#48
	strb	w12,[x13,x10]
	add	x10,x10,#1
42:
	add	x11,x11,#1
	cmp	x11,x8
	b.hs	42f
	cmp	x10,#16
	b.ne	41b
42:
	ldr	q0,[sp,#48]
	b	30b
27:
	mov	x21,xzr
16:
	adrp	x26,.Lrtp_841016a0_static.0
	add	x26,x26,:lo12:.Lrtp_841016a0_static.0
21:
	subs	x9,x23,#1
	b.ne	16f
15:
	ldrb	w8,[x22]
	cbnz	w8,9b
15:
	mov	w8,#1
	strb	w8,[x19,#131]
	b	9b
16:
	mov	x8,x22
	ldrb	w10,[x8],#1
	ubfx	x11,x10,#4,#2
	ands	w12,w10,#0xf
	add	w10,w11,#1
	b.eq	16f
	mov	w13,w12
	mov	w14,w12
	mov	w16,w12
	b	21f
35:
	mov	x8,xzr
36:
	ldr	x10,[x22]
	cmp	w9,#15
	mov	w9,#1
	cset	w11,eq
	strb	w9,[x19,#116]
	rev	x9,x10
	strb	w11,[x19,#117]
	stp	x9,x8,[x19,#8]
	b	9b
16:
	add	x13,x11,#2
	lsr	x15,x13,#1
	subs	x9,x9,x15
	b.lo	9b
	cbz	w11,16f
	ldrb	w13,[x8]
	cmp	w10,#2
	and	w13,w13,#0xf
	b.ne	27f
	mov	w14,w12
	b	35f
31:
	movi	v0.16b,#32
	b	30b
16:
	mov	w13,w12
	mov	w14,w12
	b	35f
27:
	ldrb	w14,[x22,#2]
	cmp	w10,#3
	lsr	w14,w14,#4
	b.eq	35f
	ldrb	w12,[x22,#2]
	and	w12,w12,#0xf
35:
	ldrb	w17,[x8]
	mov	w16,w12
	add	x8,x8,x15
	lsr	w12,w17,#4
21:
	ldrb	w15,[x22]
	ands	w15,w15,#0xf
	b.eq	16f
	fmov	s0,w15
	cnt	v0.8b,v0.8b
	fmov	w11,s0
	mul	w10,w11,w10
	b	21f
16:
	fmov	s0,w12
	fmov	s1,w13
	cmp	w10,#3
	fmov	s2,w14
	fmov	s3,w16
	cnt	v0.8b,v0.8b
	cnt	v1.8b,v1.8b
	cnt	v2.8b,v2.8b
	cnt	v3.8b,v3.8b
	fmov	w12,s0
	fmov	w13,s1
	fmov	w14,s2
	fmov	w15,s3
	add	w13,w12,w13
	add	w14,w13,w14
	add	w15,w14,w15
	csel	w14,w14,w15,eq
	cmp	w10,#2
	csel	w10,w13,w14,eq
	cmp	w11,#0
	csel	w10,w12,w10,eq
21:
	and	x24,x10,#0xff
	add	x10,x24,#3
	lsr	x10,x10,#2
	subs	x22,x9,x10
	b.lo	9b
	cbz	x10,16f
	cmp	x10,#1
	b.ne	21f
	ldrb	w9,[x8]
	lsl	w9,w9,#24
	cbnz	w24,27f
	b	15b
16:
	mov	w9,wzr
	cbnz	w24,27f
	b	15b
21:
	cmp	w24,#8
	b.hi	16f
	ldrh	w9,[x8]
	rev	w9,w9
	cbnz	w24,27f
	b	15b
16:
	cmp	x10,#3
	b.ne	16f
	ldrb	w9,[x8,#2]
	ldrh	w11,[x8]
	orr	w9,w11,w9,lsl #16
	b	21f
16:
	ldr	w9,[x8]
21:
	rev	w9,w9
27:
	mov	w11,#32
	mov	w9,w9
	add	x23,x8,x10
	sub	x11,x11,x24,lsl #1
	lsr	x9,x9,x11
	mov	w11,#-1431655766
	and	w11,w9,w11
	fmov	d1,x9
	fmov	s0,w11
	cnt	v1.8b,v1.8b
	cnt	v0.8b,v0.8b
	addv	b1,v1.8b
	addv	b0,v0.8b
	fmov	w9,s1
	fmov	w11,s0
	add	x9,x9,x24
	adds	x25,x9,x11
	b.ne	16f
21:
	subs	x9,x22,#5
	b.lo	15b
	mov	w8,#1
27:
	ldrh	w10,[x23]
	rev	w11,w10
	mov	w10,#65535
	cmp	w10,w11,lsr #16
	b.eq	9b
	ldrh	w11,[x23,#2]
	rev	w11,w11
	cmp	w10,w11,lsr #16
	b.eq	9b
	cmp	x8,x24
	b.hs	15b
	cmp	x9,#5
	sub	x9,x9,#5
	add	x8,x8,#1
	add	x23,x23,#5
	b.hs	27b
	b	15b
15:
	sub	x22,x22,#1
	add	x23,x23,#1
27:
	subs	x25,x25,#1
	b.eq	21b
16:
	cbz	x22,27b
	ldrsb	w8,[x23]
	tbz	w8,#31,15b
	cmp	x22,#1
	b.eq	15f
	ldrsb	w8,[x23,#1]
	tbnz	w8,#31,15f
	mov	w8,#2
	b	16f
15:
	add	x0,sp,#8
	mov	x1,x23
	mov	x2,x22
	bl	"rtp_841016a0_rtp_vla::leb::long_number_at"
	ldrb	w8,[sp,#8]
	cmp	w8,#1
	b.ne	27b
	ldr	x8,[sp,#24]
16:
	add	x23,x23,x8
	sub	x22,x22,x8
	b	27b
	.size	"rtp_841016a0_rtp_ext::block_values::read_values::<#9a3a19c0cce455e9>", .-"rtp_841016a0_rtp_ext::block_values::read_values::<#9a3a19c0cce455e9>"
	.cfi_endproc
	.section	".rodata.rtp_ext::block_values::read_values::<#9a3a19c0cce455e9>","a",@progbits
2:
	.byte	(6b-4b)>>2
	.byte	(20b-4b)>>2
	.byte	(19b-4b)>>2
	.byte	(18b-4b)>>2
	.byte	(10b-4b)>>2
	.byte	(12b-4b)>>2
	.byte	(23b-4b)>>2
	.byte	(24b-4b)>>2
	.byte	(26b-4b)>>2
	.byte	(25b-4b)>>2
	.byte	(4b-4b)>>2
	.byte	(14b-4b)>>2
	.byte	(11b-4b)>>2
	.byte	(5b-4b)>>2
	.byte	(7b-4b)>>2
1:
	.byte	(3b-8b)>>2
	.byte	(34b-8b)>>2
	.byte	(33b-8b)>>2
	.byte	(32b-8b)>>2
	.byte	(17b-8b)>>2
	.byte	(28b-8b)>>2
	.byte	(37b-8b)>>2
	.byte	(38b-8b)>>2
	.byte	(40b-8b)>>2
	.byte	(39b-8b)>>2
	.byte	(8b-8b)>>2
	.byte	(29b-8b)>>2
	.byte	(22b-8b)>>2
	.byte	(9b-8b)>>2
	.byte	(13b-8b)>>2

	.section	".text.rtp_ext::block_values::is_another_allocation","ax",@progbits
	.p2align	2
	.type	"rtp_841016a0_rtp_ext::block_values::is_another_allocation",@function
"rtp_841016a0_rtp_ext::block_values::is_another_allocation":
	.cfi_startproc
	cbz	x1,1f
	subs	x9,x1,#1
	b.ne	2f
	ldrb	w8,[x0]
	cmp	w8,#0
	cset	w0,eq
	ret
2:
	mov	x8,x0
	ldrb	w10,[x8],#1
	ubfx	x11,x10,#4,#2
	ands	w13,w10,#0xf
	add	w10,w11,#1
	b.eq	2f
	fmov	s0,w13
	cnt	v0.8b,v0.8b
	fmov	w11,s0
	mul	w10,w11,w10
	b	3f
2:
	add	x12,x11,#2
	lsr	x12,x12,#1
	subs	x9,x9,x12
	b.hs	2f
1:
	mov	w0,wzr
	ret
2:
	ldrb	w14,[x8]
	lsr	w14,w14,#4
	cbz	w11,1f
	ldrb	w15,[x8]
	cmp	w10,#2
	and	w15,w15,#0xf
	b.ne	2f
	mov	w16,w13
	b	4f
1:
	mov	w15,w13
	mov	w16,w13
	b	4f
2:
	ldrb	w16,[x0,#2]
	cmp	w10,#3
	lsr	w16,w16,#4
	b.eq	4f
	ldrb	w13,[x0,#2]
	and	w13,w13,#0xf
	fmov	s0,w13
	cnt	v0.8b,v0.8b
	fmov	w13,s0
4:
	fmov	s0,w14
	fmov	s1,w15
	cmp	w10,#3
	fmov	s2,w16
	add	x8,x8,x12
	cnt	v0.8b,v0.8b
	cnt	v1.8b,v1.8b
	cnt	v2.8b,v2.8b
	fmov	w14,s0
	fmov	w15,s1
	fmov	w16,s2
	add	w15,w14,w15
	add	w16,w15,w16
	add	w13,w16,w13
	csel	w13,w16,w13,eq
	cmp	w10,#2
	csel	w10,w15,w13,eq
	cmp	w11,#0
	csel	w10,w14,w10,eq
3:
	sub	sp,sp,#80
	str	x30,[sp,#32]
	stp	x22,x21,[sp,#48]
	stp	x20,x19,[sp,#64]
	.cfi_def_cfa_offset 80
	.cfi_offset w19,-8
	.cfi_offset w20,-16
	.cfi_offset w21,-24
	.cfi_offset w22,-32
	.cfi_offset w30,-48
	and	x21,x10,#0xff
	add	x10,x21,#3
	lsr	x10,x10,#2
	subs	x19,x9,x10
	b.hs	1f
2:
	mov	w0,wzr
3:
	ldp	x20,x19,[sp,#64]
	ldr	x30,[sp,#32]
	ldp	x22,x21,[sp,#48]
	add	sp,sp,#80
	ret
1:
	cbz	x10,1f
	cmp	x10,#1
	b.ne	4f
	ldrb	w9,[x8]
	lsl	w9,w9,#24
	cbnz	w21,5f
	b	6f
1:
	mov	w9,wzr
	cbnz	w21,5f
	b	6f
4:
	cmp	w21,#8
	b.hi	1f
	ldrh	w9,[x8]
	rev	w9,w9
	cbnz	w21,5f
6:
	mov	w0,#1
	ldp	x20,x19,[sp,#64]
	ldr	x30,[sp,#32]
	ldp	x22,x21,[sp,#48]
	add	sp,sp,#80
	ret
1:
	cmp	x10,#3
	b.ne	1f
	ldrb	w9,[x8,#2]
	ldrh	w11,[x8]
	orr	w9,w11,w9,lsl #16
	b	4f
1:
	ldr	w9,[x8]
4:
	rev	w9,w9
5:
	mov	w11,#32
	mov	w9,w9
	add	x20,x8,x10
	sub	x11,x11,x21,lsl #1
	lsr	x9,x9,x11
	and	w11,w9,#0xaaaaaaaa
	fmov	d1,x9
	fmov	s0,w11
	cnt	v1.8b,v1.8b
	cnt	v0.8b,v0.8b
	addv	b1,v1.8b
	addv	b0,v0.8b
	fmov	w9,s1
	fmov	w11,s0
	add	x9,x9,x21
	adds	x22,x9,x11
	b.ne	1f
4:
	subs	x9,x19,#5
	b.hs	5f
	mov	w0,#1
	ldp	x20,x19,[sp,#64]
	ldr	x30,[sp,#32]
	ldp	x22,x21,[sp,#48]
	add	sp,sp,#80
	ret
6:
	sub	x19,x19,#1
	add	x20,x20,#1
7:
	subs	x22,x22,#1
	b.eq	4b
1:
	cbz	x19,7b
	ldrsb	w8,[x20]
	tbz	w8,#31,6b
	cmp	x19,#1
	b.eq	1f
	ldrsb	w8,[x20,#1]
	tbnz	w8,#31,1f
	mov	w8,#2
	b	4f
1:
	add	x0,sp,#8
	mov	x1,x20
	mov	x2,x19
	bl	"rtp_841016a0_rtp_vla::leb::long_number_at"
	ldrb	w8,[sp,#8]
	cmp	w8,#1
	b.ne	7b
	ldr	x8,[sp,#24]
4:
	add	x20,x20,x8
	sub	x19,x19,x8
	b	7b
5:
	mov	w8,#1
1:
	ldrh	w10,[x20]
	rev	w11,w10
	mov	w10,#65535
	cmp	w10,w11,lsr #16
	b.eq	2b
	ldrh	w11,[x20,#2]
	rev	w11,w11
	cmp	w10,w11,lsr #16
	b.eq	2b
	cmp	x8,x21
	mov	w0,#1
	b.hs	3b
	cmp	x9,#5
	sub	x9,x9,#5
	add	x8,x8,#1
	add	x20,x20,#5
	b.hs	1b
	b	3b
	.size	"rtp_841016a0_rtp_ext::block_values::is_another_allocation", .-"rtp_841016a0_rtp_ext::block_values::is_another_allocation"
	.cfi_endproc

	.section	".text.rtp_vla::leb::long_number_at","ax",@progbits
	.p2align	2
	.type	"rtp_841016a0_rtp_vla::leb::long_number_at",@function
"rtp_841016a0_rtp_vla::leb::long_number_at":
	.cfi_startproc
	cbz	x2,1f
	ldrb	w9,[x1]
	and	x8,x9,#0x7f
	tbnz	w9,#7,2f
	mov	w9,#1
	mov	w10,#1
	str	x10,[x0]
	stp	x8,x9,[x0,#8]
	ret
2:
	cmp	x2,#1
	b.ne	2f
1:
	stp	xzr,xzr,[x0]
	str	xzr,[x0,#16]
	ret
2:
	ldrsb	w9,[x1,#1]
	and	w10,w9,#0x7f
	orr	x8,x8,x10,lsl #7
	tbnz	w9,#31,2f
	mov	w9,#2
	mov	w10,#1
	str	x10,[x0]
	stp	x8,x9,[x0,#8]
	ret
2:
	cmp	x2,#2
	b.eq	1b
	ldrsb	w9,[x1,#2]
	and	w10,w9,#0x7f
	orr	x8,x8,x10,lsl #14
	tbnz	w9,#31,2f
	mov	w9,#3
	mov	w10,#1
	str	x10,[x0]
	stp	x8,x9,[x0,#8]
	ret
2:
	cmp	x2,#3
	b.eq	1b
	ldrsb	w9,[x1,#3]
	and	w10,w9,#0x7f
	orr	x8,x8,x10,lsl #21
	tbnz	w9,#31,2f
	mov	w9,#4
	mov	w10,#1
	str	x10,[x0]
	stp	x8,x9,[x0,#8]
	ret
2:
	cmp	x2,#4
	b.eq	1b
	ldrsb	w9,[x1,#4]
	and	w10,w9,#0x7f
	orr	x8,x8,x10,lsl #28
	tbnz	w9,#31,2f
	mov	w9,#5
	mov	w10,#1
	str	x10,[x0]
	stp	x8,x9,[x0,#8]
	ret
2:
	cmp	x2,#5
	b.eq	1b
	ldrsb	w9,[x1,#5]
	and	w10,w9,#0x7f
	orr	x8,x8,x10,lsl #35
	tbnz	w9,#31,2f
	mov	w9,#6
	mov	w10,#1
	str	x10,[x0]
	stp	x8,x9,[x0,#8]
	ret
2:
	cmp	x2,#6
	b.eq	1b
	ldrsb	w9,[x1,#6]
	and	w10,w9,#0x7f
	orr	x8,x8,x10,lsl #42
	tbnz	w9,#31,2f
	mov	w9,#7
	mov	w10,#1
	str	x10,[x0]
	stp	x8,x9,[x0,#8]
	ret
2:
	cmp	x2,#7
	b.eq	1b
	ldrsb	w9,[x1,#7]
	and	w10,w9,#0x7f
	orr	x8,x8,x10,lsl #49
	tbnz	w9,#31,2f
	mov	w9,#8
	mov	w10,#1
	str	x10,[x0]
	stp	x8,x9,[x0,#8]
	ret
2:
	cmp	x2,#8
	b.eq	1b
	ldrsb	w9,[x1,#8]
	and	w10,w9,#0x7f
	orr	x8,x8,x10,lsl #56
	tbnz	w9,#31,1f
	mov	w9,#9
	mov	w10,#1
	str	x10,[x0]
	stp	x8,x9,[x0,#8]
	ret
1:
	mov	w9,#1
	str	x9,[x0]
	mov	w9,#9
	stp	x8,x9,[x0,#8]
	ret
	.size	"rtp_841016a0_rtp_vla::leb::long_number_at", .-"rtp_841016a0_rtp_vla::leb::long_number_at"
	.cfi_endproc

	.section	".text.rtp_values::value::stream_id::read::<#a6b2bc1c138ab33f>","ax",@progbits
	.p2align	2
	.type	"rtp_841016a0_rtp_values::value::stream_id::read::<#a6b2bc1c138ab33f>",@function
"rtp_841016a0_rtp_values::value::stream_id::read::<#a6b2bc1c138ab33f>":
	.cfi_startproc
	sub	sp,sp,#64
	stp	xzr,x30,[sp,#24]
	stp	x20,x19,[sp,#48]
	.cfi_def_cfa_offset 64
	.cfi_offset w19,-8
	.cfi_offset w20,-16
	.cfi_offset w30,-32
	mov	x19,x2
	mov	x2,x1
	mov	x1,x0
	cmp	x2,#8
	adrp	x20,.Lrtp_841016a0_static.2
	add	x20,x20,:lo12:.Lrtp_841016a0_static.2
	stp	xzr,xzr,[sp,#8]
	b.hi	1f
	cbz	x2,2f
	ldrsb	x8,[x1]
	tbnz	x8,#63,1f
	ldrb	w8,[x20,x8]
	cmp	x2,#1
	b.ne	3f
	mov	w12,#32
	mov	x15,#2305843009213693952
	mov	w11,#32
	mov	w14,w12
	mov	w13,w12
	mov	w10,#32
	mov	w9,#32
	b	4f
2:
	mov	x8,#2314885530818453536
	b	2f
3:
	ldrsb	x9,[x1,#1]
	tbnz	x9,#63,1f
	ldrb	w9,[x20,x9]
	cmp	x2,#2
	b.ne	3f
	mov	w12,#32
	mov	x15,#2305843009213693952
	mov	w11,#32
	mov	w14,w12
	mov	w13,w12
	mov	w10,#32
	b	4f
3:
	ldrsb	x10,[x1,#2]
	tbnz	x10,#63,1f
	ldrb	w10,[x20,x10]
	cmp	x2,#3
	b.ne	3f
	mov	w12,#32
	mov	x15,#2305843009213693952
	mov	w11,#32
	mov	w14,w12
	mov	w13,w12
	b	4f
3:
	ldrsb	x11,[x1,#3]
	tbnz	x11,#63,1f
	ldrb	w11,[x20,x11]
	cmp	x2,#4
	b.ne	3f
	mov	w12,#32
	mov	x15,#2305843009213693952
	mov	w14,w12
	mov	w13,w12
	b	4f
3:
	ldrsb	x12,[x1,#4]
	tbnz	x12,#63,1f
	ldrb	w13,[x20,x12]
	cmp	x2,#5
	b.ne	3f
	mov	w12,#32
	mov	x15,#2305843009213693952
	mov	w14,w12
	b	4f
3:
	ldrsb	x12,[x1,#5]
	tbnz	x12,#63,1f
	ldrb	w14,[x20,x12]
	cmp	x2,#6
	b.ne	3f
	mov	w12,#32
	mov	x15,#2305843009213693952
	b	4f
3:
	ldrsb	x12,[x1,#6]
	tbnz	x12,#63,1f
	ldrb	w12,[x20,x12]
	cmp	x2,#7
	b.ne	3f
	mov	x15,#2305843009213693952
	b	4f
3:
	ldrsb	x15,[x1,#7]
	tbnz	x15,#63,1f
	ldrb	w15,[x20,x15]
	lsl	x15,x15,#56
4:
	orr	x12,x15,x12,lsl #48
	mov	w11,w11
	mov	w10,w10
	mov	w9,w9
	orr	x12,x12,x14,lsl #40
	orr	x12,x12,x13,lsl #32
	orr	x11,x12,x11,lsl #24
	orr	x10,x11,x10,lsl #16
	orr	x9,x10,x9,lsl #8
	orr	x8,x9,x8
	b	2f
1:
	add	x0,sp,#8
	bl	"rtp_841016a0_core::str::utf8::from_utf8"
	ldrb	w8,[sp,#8]
	cbz	w8,1f
	ldp	x20,x19,[sp,#48]
	ldr	x30,[sp,#32]
	add	sp,sp,#64
	ret
1:
	ldp	x10,x9,[sp,#16]
	mov	x8,#2314885530818453536
	str	x8,[sp,#40]
	cbz	x9,2f
	mov	x8,xzr
	mov	x11,xzr
1:
	ldrsb	w12,[x10,x11]
	cmn	w12,#64
	b.lt	3f
	and	x12,x12,#0xff
	add	x13,sp,#40
	ldrb	w12,[x20,x12]
	strb	w12,[x13,x8]
	add	x8,x8,#1
3:
	add	x11,x11,#1
	cmp	x11,x9
	b.hs	3f
	cmp	x8,#8
	b.ne	1b
3:
	ldr	x8,[sp,#40]
2:
	and	x13,x8,#0xff00000000000000
	mov	x14,#2305843009213693952
	and	x15,x8,#0xff000000000000
	cmp	x13,x14
	mov	x14,#9007199254740992
	and	x12,x8,#0xff0000000000
	csel	x13,xzr,x13,eq
	cmp	x15,x14
	mov	x14,#35184372088832
	and	x11,x8,#0xff00000000
	csel	x15,xzr,x15,eq
	cmp	x12,x14
	mov	x14,#137438953472
	and	x10,x8,#0xff000000
	csel	x12,xzr,x12,eq
	cmp	x11,x14
	mov	w14,#536870912
	and	x16,x8,#0xff0000
	csel	x11,xzr,x11,eq
	cmp	x10,x14
	and	x9,x8,#0xff
	and	x8,x8,#0xff00
	csel	x10,xzr,x10,eq
	cmp	x16,#512,lsl #12
	csel	x14,xzr,x16,eq
	cmp	x8,#2,lsl #12
	orr	x13,x13,x15
	orr	x11,x12,x11
	csel	x8,xzr,x8,eq
	orr	x10,x10,x14
	orr	x11,x13,x11
	cmp	x9,#32
	orr	x8,x10,x8
	csel	x9,xzr,x9,eq
	orr	x8,x11,x8
	mov	w10,#1
	orr	x8,x8,x9
	strb	w10,[x19,#129]
	stur	x8,[x19,#97]
	strb	wzr,[x19,#105]
	ldp	x20,x19,[sp,#48]
	ldr	x30,[sp,#32]
	add	sp,sp,#64
	ret
	.size	"rtp_841016a0_rtp_values::value::stream_id::read::<#a6b2bc1c138ab33f>", .-"rtp_841016a0_rtp_values::value::stream_id::read::<#a6b2bc1c138ab33f>"
	.cfi_endproc

	.section	".text.core::str::utf8::from_utf8","ax",@progbits
	.p2align	2
	.type	"rtp_841016a0_core::str::utf8::from_utf8",@function
"rtp_841016a0_core::str::utf8::from_utf8":
	.cfi_startproc
	sub	sp,sp,#64
	str	x30,[sp,#16]
	stp	x22,x21,[sp,#32]
	stp	x20,x19,[sp,#48]
	.cfi_def_cfa_offset 64
	.cfi_offset w19,-8
	.cfi_offset w20,-16
	.cfi_offset w21,-24
	.cfi_offset w22,-32
	.cfi_offset w30,-48
	mov	x20,x2
	mov	x21,x1
	mov	x19,x0
	cbz	x2,1f
	mov	x9,xzr
	sub	x22,x20,#8
	b	2f
3:
	and	w11,w11,#0xff
	tbnz	w11,#7,4f
5:
	mov	w12,#1
6:
	add	x8,x12,x9
7:
	cmp	x8,x20
	mov	x9,x8
	b.hs	1f
2:
	add	x8,x21,x9
	sub	x10,x20,x9
	ldrsb	w11,[x8]
	cmp	x10,#2
	b.lo	3b
	tbnz	w11,#31,3b
	ldrsb	w11,[x8,#1]
	tbnz	w11,#31,5b
	cmp	x10,#7
	stp	x21,x20,[sp]
	b.hi	2f
	ldrsb	w8,[x21,x9]
	tbnz	w8,#31,3f
	add	x8,x9,#1
	cmp	x8,x20
	b.eq	1f
	ldrsb	w10,[x21,x8]
	tbnz	w10,#31,7b
	add	x8,x9,#2
	cmp	x8,x20
	b.eq	1f
	ldrsb	w10,[x21,x8]
	tbnz	w10,#31,7b
	add	x8,x9,#3
	cmp	x8,x20
	b.eq	1f
	ldrsb	w10,[x21,x8]
	tbnz	w10,#31,7b
	add	x8,x9,#4
	cmp	x8,x20
	b.eq	1f
	ldrsb	w10,[x21,x8]
	tbnz	w10,#31,7b
	add	x8,x9,#5
	cmp	x8,x20
	b.eq	1f
	ldrsb	w10,[x21,x8]
	tbnz	w10,#31,7b
	add	x8,x9,#6
	cmp	x8,x20
	b.eq	1f
	ldrsb	w9,[x21,x8]
	tbnz	w9,#31,7b
	b	1f
4:
	cmp	w11,#194
	b.lo	4f
	cmp	w11,#223
	b.hi	5f
	cmp	x10,#2
	b.lo	8f
	ldrsb	w12,[x8,#1]
	cmn	w12,#65
	b.gt	9f
	mov	w12,#2
	b	6b
2:
	ldr	x8,[x8]
	mov	w10,#8
	ands	x8,x8,#0x8080808080808080
	rbit	x8,x8
	clz	x8,x8
	lsr	x8,x8,#3
	csel	x8,x10,x8,eq
	add	x8,x8,x9
	add	x9,x9,#8
	cmp	x8,x9
	b.lo	7b
	sub	x9,x20,x8
	cmp	x9,#32
	b.lo	2f
10:
	add	x9,x21,x8
	ldp	q1,q0,[x9]
	orr	v0.16b,v1.16b,v0.16b
	ext	v1.16b,v0.16b,v0.16b,#8
	orr	v0.8b,v0.8b,v1.8b
	fmov	x9,d0
	tst	x9,#0x8080808080808080
	b.ne	2f
	mov	x0,sp
	add	x1,x8,#32
	mov	x2,x20
	bl	"rtp_841016a0_core::slice::words::skip_far::<#52f9edcae2f82f51>"
	sub	x9,x20,x0
	mov	x8,x0
	cmp	x9,#31
	b.hi	10b
2:
	sub	x9,x20,x8
2:
	cmp	x9,#9
	b.lo	10f
	ldr	x10,[x21,x8]
	mov	w11,#8
	sub	x9,x9,#8
	ands	x10,x10,#0x8080808080808080
	rbit	x10,x10
	clz	x10,x10
	lsr	x10,x10,#3
	csel	x10,x11,x10,eq
	add	x11,x10,x8
	add	x8,x8,#8
	cmp	x11,x8
	b.hs	2b
	add	x8,x10,x8
	sub	x8,x8,#8
	b	7b
5:
	cmp	w11,#239
	b.hi	2f
	cmp	x10,#3
	b.lo	5f
	ldrsb	w12,[x8,#1]
	cmn	w12,#65
	b.gt	9f
	ldrsb	w13,[x8,#2]
	cmn	w13,#65
	b.gt	9f
	and	w13,w12,#0xff
	mov	w14,#-14464
	add	w13,w13,w11,lsl #6
	add	w13,w13,w14
	cmp	w13,#32
	b.lo	9f
	cmp	w13,#896
	mov	w12,#3
	csel	x14,xzr,x12,lo
	cmp	w13,#864
	b.lo	6b
	mov	x12,x14
	b	11f
3:
	mov	x8,x9
	b	7b
2:
	cmp	x10,#4
	b.lo	2f
	ldrsb	w12,[x8,#1]
	cmn	w12,#65
	b.gt	2f
	ldrsb	w13,[x8,#2]
	cmn	w13,#65
	b.gt	2f
	ldrsb	w13,[x8,#3]
	cmn	w13,#65
	b.gt	2f
	and	w12,w12,#0xff
	mov	w13,#-15488
	add	w12,w12,w11,lsl #6
	add	w13,w12,w13
	mov	w12,#4
	cmp	w13,#272
	csel	x12,x12,xzr,lo
	cmp	w13,#16
	b.lo	2f
11:
	cbnz	x12,6b
	b	2f
10:
	ldr	x8,[x21,x22]
	mov	w9,#8
	ands	x8,x8,#0x8080808080808080
	rbit	x8,x8
	clz	x8,x8
	lsr	x8,x8,#3
	csel	x8,x9,x8,eq
	add	x8,x8,x22
	b	7b
1:
	stp	xzr,x21,[x19]
	str	x20,[x19,#16]
	ldp	x20,x19,[sp,#48]
	ldr	x30,[sp,#16]
	ldp	x22,x21,[sp,#32]
	add	sp,sp,#64
	ret
2:
	cmp	w11,#244
	b.hi	4f
5:
	cmp	x10,#2
	b.lo	8f
	ldrb	w12,[x8,#1]
9:
	cmp	w11,#240
	mov	w13,#-128
	mov	w14,#-112
	mov	w15,#-96
	csel	w13,w14,w13,eq
	cmp	w11,#224
	mov	w14,#-65
	csel	w13,w15,w13,eq
	mov	w15,#-113
	cmp	w11,#244
	and	w16,w13,#0xf0
	csel	w13,w15,w14,eq
	cmp	w11,#237
	mov	w11,#-97
	csel	w13,w11,w13,eq
	cmp	w16,w12,uxtb
	mov	w11,#257
	b.hi	1f
	and	w12,w12,#0xff
	cmp	w12,w13,uxtb
	b.hi	1f
	cmp	x10,#2
	b.ne	2f
8:
	mov	x11,xzr
	b	1f
4:
	mov	w11,#257
1:
	mov	w8,#1
	str	x11,[x19,#16]
	stp	x8,x9,[x19]
	ldp	x20,x19,[sp,#48]
	ldr	x30,[sp,#16]
	ldp	x22,x21,[sp,#32]
	add	sp,sp,#64
	ret
2:
	ldrsb	w8,[x8,#2]
	cmn	w8,#65
	b.gt	2f
	cmp	x10,#3
	mov	w8,#769
	csel	x11,x8,xzr,hi
	b	1b
2:
	mov	w11,#513
	b	1b
	.size	"rtp_841016a0_core::str::utf8::from_utf8", .-"rtp_841016a0_core::str::utf8::from_utf8"
	.cfi_endproc

	.section	".text.core::slice::words::skip_far::<#52f9edcae2f82f51>","ax",@progbits
	.p2align	2
	.type	"rtp_841016a0_core::slice::words::skip_far::<#52f9edcae2f82f51>",@function
"rtp_841016a0_core::slice::words::skip_far::<#52f9edcae2f82f51>":
	.cfi_startproc
	sub	x8,x2,x1
	cmp	x8,#64
	b.lo	1f
	ldr	x9,[x0]
2:
	add	x10,x9,x1
	ldp	q0,q1,[x10,#32]
	ldp	q2,q3,[x10]
	orr	v1.16b,v3.16b,v1.16b
	orr	v0.16b,v2.16b,v0.16b
	orr	v0.16b,v0.16b,v1.16b
	ext	v1.16b,v0.16b,v0.16b,#8
	orr	v0.8b,v0.8b,v1.8b
	fmov	x10,d0
	tst	x10,#0x8080808080808080
	b.ne	1f
	sub	x8,x8,#64
	add	x1,x1,#64
	cmp	x8,#63
	b.hi	2b
1:
	mov	x0,x1
	ret
	.size	"rtp_841016a0_core::slice::words::skip_far::<#52f9edcae2f82f51>", .-"rtp_841016a0_core::slice::words::skip_far::<#52f9edcae2f82f51>"
	.cfi_endproc

	.section	".text.rtp_values::value::stream_id::read_repaired::<#a6b2bc1c138ab33f>","ax",@progbits
	.p2align	2
	.type	"rtp_841016a0_rtp_values::value::stream_id::read_repaired::<#a6b2bc1c138ab33f>",@function
"rtp_841016a0_rtp_values::value::stream_id::read_repaired::<#a6b2bc1c138ab33f>":
	.cfi_startproc
	sub	sp,sp,#64
	stp	xzr,x30,[sp,#24]
	stp	x20,x19,[sp,#48]
	.cfi_def_cfa_offset 64
	.cfi_offset w19,-8
	.cfi_offset w20,-16
	.cfi_offset w30,-32
	mov	x19,x2
	mov	x2,x1
	mov	x1,x0
	cmp	x2,#8
	adrp	x20,.Lrtp_841016a0_static.2
	add	x20,x20,:lo12:.Lrtp_841016a0_static.2
	stp	xzr,xzr,[sp,#8]
	b.hi	1f
	cbz	x2,2f
	ldrsb	x8,[x1]
	tbnz	x8,#63,1f
	ldrb	w8,[x20,x8]
	cmp	x2,#1
	b.ne	3f
	mov	w12,#32
	mov	x15,#2305843009213693952
	mov	w11,#32
	mov	w14,w12
	mov	w13,w12
	mov	w10,#32
	mov	w9,#32
	b	4f
2:
	mov	x8,#2314885530818453536
	b	2f
3:
	ldrsb	x9,[x1,#1]
	tbnz	x9,#63,1f
	ldrb	w9,[x20,x9]
	cmp	x2,#2
	b.ne	3f
	mov	w12,#32
	mov	x15,#2305843009213693952
	mov	w11,#32
	mov	w14,w12
	mov	w13,w12
	mov	w10,#32
	b	4f
3:
	ldrsb	x10,[x1,#2]
	tbnz	x10,#63,1f
	ldrb	w10,[x20,x10]
	cmp	x2,#3
	b.ne	3f
	mov	w12,#32
	mov	x15,#2305843009213693952
	mov	w11,#32
	mov	w14,w12
	mov	w13,w12
	b	4f
3:
	ldrsb	x11,[x1,#3]
	tbnz	x11,#63,1f
	ldrb	w11,[x20,x11]
	cmp	x2,#4
	b.ne	3f
	mov	w12,#32
	mov	x15,#2305843009213693952
	mov	w14,w12
	mov	w13,w12
	b	4f
3:
	ldrsb	x12,[x1,#4]
	tbnz	x12,#63,1f
	ldrb	w13,[x20,x12]
	cmp	x2,#5
	b.ne	3f
	mov	w12,#32
	mov	x15,#2305843009213693952
	mov	w14,w12
	b	4f
3:
	ldrsb	x12,[x1,#5]
	tbnz	x12,#63,1f
	ldrb	w14,[x20,x12]
	cmp	x2,#6
	b.ne	3f
	mov	w12,#32
	mov	x15,#2305843009213693952
	b	4f
3:
	ldrsb	x12,[x1,#6]
	tbnz	x12,#63,1f
	ldrb	w12,[x20,x12]
	cmp	x2,#7
	b.ne	3f
	mov	x15,#2305843009213693952
	b	4f
3:
	ldrsb	x15,[x1,#7]
	tbnz	x15,#63,1f
	ldrb	w15,[x20,x15]
	lsl	x15,x15,#56
4:
	orr	x12,x15,x12,lsl #48
	mov	w11,w11
	mov	w10,w10
	mov	w9,w9
	orr	x12,x12,x14,lsl #40
	orr	x12,x12,x13,lsl #32
	orr	x11,x12,x11,lsl #24
	orr	x10,x11,x10,lsl #16
	orr	x9,x10,x9,lsl #8
	orr	x8,x9,x8
	b	2f
1:
	add	x0,sp,#8
	bl	"rtp_841016a0_core::str::utf8::from_utf8"
	ldrb	w8,[sp,#8]
	cbz	w8,1f
	ldp	x20,x19,[sp,#48]
	ldr	x30,[sp,#32]
	add	sp,sp,#64
	ret
1:
	ldp	x10,x9,[sp,#16]
	mov	x8,#2314885530818453536
	str	x8,[sp,#40]
	cbz	x9,2f
	mov	x8,xzr
	mov	x11,xzr
1:
	ldrsb	w12,[x10,x11]
	cmn	w12,#64
	b.lt	3f
	and	x12,x12,#0xff
	add	x13,sp,#40
	ldrb	w12,[x20,x12]
	strb	w12,[x13,x8]
	add	x8,x8,#1
3:
	add	x11,x11,#1
	cmp	x11,x9
	b.hs	3f
	cmp	x8,#8
	b.ne	1b
3:
	ldr	x8,[sp,#40]
2:
	and	x13,x8,#0xff00000000000000
	mov	x14,#2305843009213693952
	and	x15,x8,#0xff000000000000
	cmp	x13,x14
	mov	x14,#9007199254740992
	and	x12,x8,#0xff0000000000
	csel	x13,xzr,x13,eq
	cmp	x15,x14
	mov	x14,#35184372088832
	and	x11,x8,#0xff00000000
	csel	x15,xzr,x15,eq
	cmp	x12,x14
	mov	x14,#137438953472
	and	x10,x8,#0xff000000
	csel	x12,xzr,x12,eq
	cmp	x11,x14
	mov	w14,#536870912
	and	x16,x8,#0xff0000
	csel	x11,xzr,x11,eq
	cmp	x10,x14
	and	x9,x8,#0xff
	and	x8,x8,#0xff00
	csel	x10,xzr,x10,eq
	cmp	x16,#512,lsl #12
	csel	x14,xzr,x16,eq
	cmp	x8,#2,lsl #12
	orr	x13,x13,x15
	orr	x11,x12,x11
	csel	x8,xzr,x8,eq
	orr	x10,x10,x14
	orr	x11,x13,x11
	cmp	x9,#32
	orr	x8,x10,x8
	csel	x9,xzr,x9,eq
	orr	x8,x11,x8
	mov	w10,#1
	orr	x8,x8,x9
	strb	w10,[x19,#130]
	stur	x8,[x19,#106]
	strb	wzr,[x19,#114]
	ldp	x20,x19,[sp,#48]
	ldr	x30,[sp,#32]
	add	sp,sp,#64
	ret
	.size	"rtp_841016a0_rtp_values::value::stream_id::read_repaired::<#a6b2bc1c138ab33f>", .-"rtp_841016a0_rtp_values::value::stream_id::read_repaired::<#a6b2bc1c138ab33f>"
	.cfi_endproc

	.section	".text.rtp_wire::header::block::close_block","ax",@progbits
	.p2align	2
	.type	"rtp_841016a0_rtp_wire::header::block::close_block",@function
"rtp_841016a0_rtp_wire::header::block::close_block":
	.cfi_startproc
	add	x9,x2,#3
	mov	x8,x0
	add	x0,x2,#4
	and	x10,x9,#0xfffffffffffffffc
	subs	x10,x10,x2
	b.eq	1f
	cmp	x10,#2
	b.eq	2f
	cmp	x10,#1
	b.ne	3f
	strb	wzr,[x8,x0]
	add	x0,x2,#5
	b	1f
2:
	strh	wzr,[x8,x0]
	add	x0,x2,#6
	b	1f
3:
	add	x10,x8,x0
	add	x0,x2,#7
	strb	wzr,[x10,#2]
	strh	wzr,[x10]
1:
	lsr	w10,w9,#10
	tst	w1,#0xff
	mov	w11,#16
	mov	w12,#57022
	lsr	w9,w9,#2
	csel	w11,w12,w11,eq
	bfi	w11,w10,#16,#8
	bfi	w11,w9,#24,#8
	str	w11,[x8]
	ret
	.size	"rtp_841016a0_rtp_wire::header::block::close_block", .-"rtp_841016a0_rtp_wire::header::block::close_block"
	.cfi_endproc

	.section	".text.rtp_ext::raw_writing::put_elements::<#d57726891005992a>","ax",@progbits
	.p2align	2
	.type	"rtp_841016a0_rtp_ext::raw_writing::put_elements::<#d57726891005992a>",@function
"rtp_841016a0_rtp_ext::raw_writing::put_elements::<#d57726891005992a>":
	.cfi_startproc
	str	x29,[sp,#-96]!
	stp	x30,x27,[sp,#16]
	stp	x26,x25,[sp,#32]
	stp	x24,x23,[sp,#48]
	stp	x22,x21,[sp,#64]
	stp	x20,x19,[sp,#80]
	.cfi_def_cfa_offset 96
	.cfi_offset w19,-8
	.cfi_offset w20,-16
	.cfi_offset w21,-24
	.cfi_offset w22,-32
	.cfi_offset w23,-40
	.cfi_offset w24,-48
	.cfi_offset w25,-56
	.cfi_offset w26,-64
	.cfi_offset w27,-72
	.cfi_offset w30,-80
	.cfi_offset w29,-96
	ldr	x21,[x2,#24]
	cbz	x21,1f
	ldr	x22,[x2]
	ldr	x23,[x2,#16]
	mov	x19,x0
	tst	w1,#0xff
	b.eq	2f
	mov	x0,xzr
	mov	x24,xzr
	add	x25,x19,#2
	add	x26,x22,#16
	add	x27,x19,#18
	b	3f
4:
	ldrb	w8,[x1]
	strb	w8,[x19,x29]
5:
	add	x24,x24,#1
	add	x0,x29,x20
	cmp	x24,x21
	b.eq	6f
3:
	add	x9,x23,x24,lsl #5
	add	x11,x19,x0
	add	x29,x0,#2
	ldp	x8,x20,[x9]
	ldrb	w10,[x9,#24]
	strb	w10,[x11]
	add	x1,x22,x8
	strb	w20,[x11,#1]
	cbz	x20,3f
	cmp	x20,#1
	b.eq	4b
	cmp	x20,#2
	b.hi	4f
	ldrb	w8,[x1]
	add	x9,x19,x29
	strb	w8,[x9]
	ldrb	w8,[x1,#1]
	strb	w8,[x9,#1]
	b	5b
4:
	cmp	x20,#3
	b.ne	3f
	ldrb	w8,[x1]
	add	x9,x19,x29
	strb	w8,[x9]
	ldrb	w8,[x1,#1]
	strb	w8,[x9,#1]
	ldrb	w8,[x1,#2]
	strb	w8,[x9,#2]
	b	5b
3:
	add	x9,x19,x29
	sub	x9,x9,x1
	cmp	x9,x20
	b.hs	3f
	cmp	x20,#8
	b.lo	4f
	add	x9,x25,x0
	sub	x9,x9,x22
	sub	x9,x9,x8
	cmp	x9,#32
	b.hs	7f
4:
	mov	x9,xzr
4:
	add	x10,x9,x8
	add	x11,x9,x0
	sub	x8,x20,x9
	add	x9,x22,x10
	add	x10,x25,x11
8:
	ldrb	w11,[x9],#1
	subs	x8,x8,#1
	strb	w11,[x10],#1
	b.ne	8b
	b	5b
3:
	add	x0,x19,x29
	mov	x2,x20
	bl	memmove
	b	5b
7:
	cmp	x20,#32
	b.hs	3f
	mov	x9,xzr
	b	7f
3:
	and	x10,x20,#0x18
	and	x9,x20,#0xffffffffffffffe0
	add	x11,x26,x8
	add	x12,x27,x0
	and	x13,x20,#0xffffffffffffffe0
3:
	ldp	q0,q1,[x11,#-16]
	subs	x13,x13,#32
	add	x11,x11,#32
	stp	q0,q1,[x12,#-16]
	add	x12,x12,#32
	b.ne	3b
	cmp	x20,x9
	b.eq	5b
	cbz	x10,4b
7:
	mov	x10,x9
	and	x9,x20,#0xfffffffffffffff8
	add	x11,x10,x8
	add	x12,x10,x0
	sub	x10,x10,x9
	add	x11,x22,x11
	add	x12,x25,x12
3:
	ldr	d0,[x11],#8
	adds	x10,x10,#8
	str	d0,[x12],#8
	b.ne	3b
	cmp	x20,x9
	b.eq	5b
	b	4b
1:
	mov	x0,xzr
6:
	ldp	x20,x19,[sp,#80]
	ldp	x22,x21,[sp,#64]
	ldp	x24,x23,[sp,#48]
	ldp	x26,x25,[sp,#32]
	ldp	x30,x27,[sp,#16]
	ldr	x29,[sp],#96
	ret
2:
	mov	x0,xzr
	mov	x24,xzr
	add	x25,x19,#1
	add	x26,x22,#16
	add	x27,x19,#17
	b	1f
2:
	ldrb	w8,[x1]
	strb	w8,[x19,x29]
3:
	add	x24,x24,#1
	add	x0,x29,x20
	cmp	x24,x21
	b.eq	6b
1:
	add	x9,x23,x24,lsl #5
	add	x29,x0,#1
	ldrb	w10,[x9,#24]
	ldp	x8,x20,[x9]
	lsr	w11,w10,#4
	add	x1,x22,x8
	orr	w9,w11,w10,lsl #4
	add	w9,w20,w9
	sub	w9,w9,#1
	strb	w9,[x19,x0]
	cbz	x20,1f
	cmp	x20,#1
	b.eq	2b
	cmp	x20,#3
	b.hs	2f
	ldrb	w8,[x1]
	add	x9,x19,x29
	strb	w8,[x9]
	ldrb	w8,[x1,#1]
	strb	w8,[x9,#1]
	b	3b
2:
	b.ne	1f
	ldrb	w8,[x1]
	add	x9,x19,x29
	strb	w8,[x9]
	ldrb	w8,[x1,#1]
	strb	w8,[x9,#1]
	ldrb	w8,[x1,#2]
	strb	w8,[x9,#2]
	b	3b
1:
	add	x9,x19,x29
	sub	x9,x9,x1
	cmp	x9,x20
	b.hs	1f
	cmp	x20,#8
	b.lo	2f
	add	x9,x25,x0
	sub	x9,x9,x22
	sub	x9,x9,x8
	cmp	x9,#32
	b.hs	4f
2:
	mov	x9,xzr
2:
	add	x10,x9,x8
	add	x11,x9,x0
	sub	x8,x20,x9
	add	x9,x22,x10
	add	x10,x25,x11
5:
	ldrb	w11,[x9],#1
	subs	x8,x8,#1
	strb	w11,[x10],#1
	b.ne	5b
	b	3b
1:
	add	x0,x19,x29
	mov	x2,x20
	bl	memmove
	b	3b
4:
	cmp	x20,#32
	b.hs	1f
	mov	x9,xzr
	b	4f
1:
	and	x10,x20,#0x18
	and	x9,x20,#0xffffffffffffffe0
	add	x11,x26,x8
	add	x12,x27,x0
	and	x13,x20,#0xffffffffffffffe0
1:
	ldp	q0,q1,[x11,#-16]
	subs	x13,x13,#32
	add	x11,x11,#32
	stp	q0,q1,[x12,#-16]
	add	x12,x12,#32
	b.ne	1b
	cmp	x20,x9
	b.eq	3b
	cbz	x10,2b
4:
	mov	x10,x9
	and	x9,x20,#0xfffffffffffffff8
	add	x11,x10,x8
	add	x12,x10,x0
	sub	x10,x10,x9
	add	x11,x22,x11
	add	x12,x25,x12
1:
	ldr	d0,[x11],#8
	adds	x10,x10,#8
	str	d0,[x12],#8
	b.ne	1b
	cmp	x20,x9
	b.eq	3b
	b	2b
	.size	"rtp_841016a0_rtp_ext::raw_writing::put_elements::<#d57726891005992a>", .-"rtp_841016a0_rtp_ext::raw_writing::put_elements::<#d57726891005992a>"
	.cfi_endproc

	.section	".text.rtp_ext::form_change::row_len","ax",@progbits
	.p2align	2
	.type	"rtp_841016a0_rtp_ext::form_change::row_len",@function
"rtp_841016a0_rtp_ext::form_change::row_len":
	.cfi_startproc
	stp	x30,x23,[sp,#-48]!
	stp	x22,x21,[sp,#16]
	stp	x20,x19,[sp,#32]
	.cfi_def_cfa_offset 48
	.cfi_offset w19,-8
	.cfi_offset w20,-16
	.cfi_offset w21,-24
	.cfi_offset w22,-32
	.cfi_offset w23,-40
	.cfi_offset w30,-48
	mov	x20,x3
	mov	x21,x2
	tst	w0,#0xff
	and	w22,w4,#0xff
	b.eq	1f
	tst	w1,#0xff
	b.eq	2f
	mov	x19,xzr
	mov	x8,xzr
3:
	subs	x1,x20,x8
	b.eq	4f
	add	x0,x21,x8
	ldrb	w8,[x0]
	cbnz	w8,5f
	cmp	x1,#2
	b.eq	6f
	cmp	x1,#1
	b.eq	4f
	cmp	x1,#3
	b.hi	7f
	ldrb	w8,[x0,#1]
	cbnz	w8,7f
	ldrb	w8,[x0,#2]
	cbnz	w8,7f
	b	4f
6:
	ldrb	w8,[x0,#1]
	cbz	w8,4f
7:
	sub	x1,x1,#1
	add	x0,x0,#1
	bl	"rtp_841016a0_rtp_ext::elements::skip_zeros"
	cbz	x1,4f
5:
	cmp	x1,#2
	b.lo	4f
	ldrb	w9,[x0,#1]
	add	x8,x9,#2
	subs	x8,x8,x1
	b.hi	4f
	ldrb	w10,[x0]
	add	x8,x8,x20
	cmp	w10,w22
	b.eq	3b
	cbz	w10,3b
	add	x9,x19,x9
	add	x19,x9,#2
	b	3b
1:
	tst	w1,#0xff
	b.eq	1f
	mov	x19,xzr
	mov	x8,xzr
3:
	subs	x1,x20,x8
	b.eq	4f
	add	x8,x21,x8
	ldrb	w9,[x8]
	cbnz	w9,5f
	cmp	x1,#2
	b.eq	6f
	cmp	x1,#1
	b.eq	4f
	cmp	x1,#3
	b.hi	7f
	ldrb	w9,[x8,#1]
	cbnz	w9,7f
	ldrb	w9,[x8,#2]
	cbnz	w9,7f
	b	4f
6:
	ldrb	w9,[x8,#1]
	cbz	w9,4f
7:
	sub	x1,x1,#1
	add	x0,x8,#1
	bl	"rtp_841016a0_rtp_ext::elements::skip_zeros"
	cbz	x1,4f
	ldrb	w9,[x0]
5:
	cmp	w9,#239
	b.hi	4f
	and	w8,w9,#0xf
	add	w10,w8,#2
	subs	x8,x10,x1
	b.hi	4f
	lsr	w9,w9,#4
	add	x8,x8,x20
	cmp	w9,w22
	b.eq	3b
	cbz	w9,3b
	add	x9,x19,x10
	add	x19,x9,#1
	b	3b
2:
	mov	x23,xzr
	mov	x8,xzr
2:
	subs	x1,x20,x8
	b.eq	3f
	add	x0,x21,x8
	ldrb	w8,[x0]
	cbnz	w8,5f
	cmp	x1,#2
	b.eq	6f
	cmp	x1,#1
	b.eq	3f
	cmp	x1,#3
	b.hi	7f
	ldrb	w8,[x0,#1]
	cbnz	w8,7f
	ldrb	w8,[x0,#2]
	cbnz	w8,7f
	b	3f
6:
	ldrb	w8,[x0,#1]
	cbz	w8,3f
7:
	sub	x1,x1,#1
	add	x0,x0,#1
	bl	"rtp_841016a0_rtp_ext::elements::skip_zeros"
	cbz	x1,3f
5:
	cmp	x1,#2
	b.lo	3f
	ldrb	w9,[x0,#1]
	add	x8,x9,#2
	subs	x8,x8,x1
	b.hi	3f
	ldrb	w10,[x0]
	add	x8,x8,x20
	cmp	w10,w22
	b.eq	2b
	cbz	w10,2b
	mov	w0,wzr
	cmp	w10,#14
	mov	x19,xzr
	b.hi	5f
	sub	w10,w9,#1
	cmp	w10,#15
	b.hi	5f
	add	x9,x23,x9
	add	x23,x9,#1
	b	2b
3:
	mov	w0,#1
	mov	x19,x23
5:
	mov	x1,x19
	ldp	x20,x19,[sp,#32]
	ldp	x22,x21,[sp,#16]
	ldp	x30,x23,[sp],#48
	ret
1:
	mov	x19,xzr
	mov	x8,xzr
1:
	subs	x1,x20,x8
	b.eq	4f
	add	x8,x21,x8
	ldrb	w9,[x8]
	cbnz	w9,2f
	cmp	x1,#2
	b.eq	3f
	cmp	x1,#1
	b.eq	4f
	cmp	x1,#3
	b.hi	5f
	ldrb	w9,[x8,#1]
	cbnz	w9,5f
	ldrb	w9,[x8,#2]
	cbnz	w9,5f
	b	4f
3:
	ldrb	w9,[x8,#1]
	cbz	w9,4f
5:
	sub	x1,x1,#1
	add	x0,x8,#1
	bl	"rtp_841016a0_rtp_ext::elements::skip_zeros"
	cbz	x1,4f
	ldrb	w9,[x0]
2:
	cmp	w9,#239
	b.hi	4f
	and	w8,w9,#0xf
	add	w10,w8,#2
	subs	x8,x10,x1
	b.hi	4f
	lsr	w9,w9,#4
	add	x8,x8,x20
	cmp	w9,w22
	b.eq	1b
	cbz	w9,1b
	add	x19,x19,x10
	b	1b
4:
	mov	w0,#1
	mov	x1,x19
	ldp	x20,x19,[sp,#32]
	ldp	x22,x21,[sp,#16]
	ldp	x30,x23,[sp],#48
	ret
	.size	"rtp_841016a0_rtp_ext::form_change::row_len", .-"rtp_841016a0_rtp_ext::form_change::row_len"
	.cfi_endproc

	.section	".text.unlikely.rtp_wire::packet::rewriting::has_long_id","ax",@progbits
	.p2align	2
	.type	"rtp_841016a0_rtp_wire::packet::rewriting::has_long_id",@function
"rtp_841016a0_rtp_wire::packet::rewriting::has_long_id":
	.cfi_startproc
	str	x30,[sp,#-16]!
	.cfi_def_cfa_offset 16
	.cfi_offset w30,-16
	tst	w0,#0xff
	mov	x0,x1
	b.eq	1f
2:
	cbz	x2,3f
	ldrb	w8,[x0]
	cbz	w8,4f
	cmp	x2,#2
	b.hs	5f
	b	3f
4:
	cmp	x2,#2
	b.eq	4f
	cmp	x2,#1
	b.eq	3f
	cmp	x2,#3
	b.hi	6f
	ldrb	w8,[x0,#1]
	cbnz	w8,6f
	ldrb	w8,[x0,#2]
	cbnz	w8,6f
	b	7f
4:
	ldrb	w8,[x0,#1]
	cbz	w8,7f
6:
	sub	x1,x2,#1
	add	x0,x0,#1
	bl	"rtp_841016a0_rtp_ext::elements::skip_zeros"
	cbz	x1,3f
	mov	x2,x1
	cmp	x1,#2
	b.lo	3f
5:
	ldrb	w8,[x0,#1]
	add	x8,x8,#2
	subs	x2,x2,x8
	b.lo	3f
	ldrb	w9,[x0]
	add	x0,x0,x8
	cmp	w9,#15
	b.lo	2b
	mov	w8,#1
	mov	w0,w8
	ldr	x30,[sp],#16
	ret
1:
	cbz	x2,3f
1:
	ldrb	w8,[x0]
	cbnz	w8,2f
	cmp	x2,#2
	b.eq	4f
	cmp	x2,#1
	b.eq	3f
	cmp	x2,#3
	b.hi	5f
	ldrb	w8,[x0,#1]
	cbnz	w8,5f
	ldrb	w8,[x0,#2]
	cbnz	w8,5f
	b	7f
4:
	ldrb	w8,[x0,#1]
	cbz	w8,7f
5:
	sub	x1,x2,#1
	add	x0,x0,#1
	bl	"rtp_841016a0_rtp_ext::elements::skip_zeros"
	cbz	x1,3f
	ldrb	w8,[x0]
	mov	x2,x1
2:
	cmp	w8,#239
	b.hi	3f
	and	w8,w8,#0xf
	add	w9,w8,#2
	mov	w8,wzr
	subs	x2,x2,x9
	b.lo	7f
	add	x0,x0,x9
	cbnz	x2,1b
7:
	mov	w0,w8
	ldr	x30,[sp],#16
	ret
3:
	mov	w8,wzr
	mov	w0,w8
	ldr	x30,[sp],#16
	ret
	.size	"rtp_841016a0_rtp_wire::packet::rewriting::has_long_id", .-"rtp_841016a0_rtp_wire::packet::rewriting::has_long_id"
	.cfi_endproc

	.section	".text.rtp_wire::packet::resizing::move_bytes","ax",@progbits
	.p2align	2
	.type	"rtp_841016a0_rtp_wire::packet::resizing::move_bytes",@function
"rtp_841016a0_rtp_wire::packet::resizing::move_bytes":
	.cfi_startproc
	subs	x8,x3,x1
	b.ne	1f
2:
	ret
1:
	b.ls	1f
	cmp	x8,#8
	b.eq	3f
	cmp	x8,#4
	b.ne	4f
	subs	x2,x2,x1
	b.eq	2b
	add	x1,x0,x1
	add	x0,x1,#4
	b	memmove
1:
	sub	x9,x1,x3
	cmp	x9,#8
	b.eq	1f
	cmp	x9,#4
	b.ne	5f
	subs	x2,x2,x1
	b.eq	2b
	add	x1,x0,x1
	sub	x0,x1,#4
	b	memmove
3:
	subs	x2,x2,x1
	b.eq	2b
	add	x1,x0,x1
	add	x0,x1,#8
	b	memmove
1:
	subs	x2,x2,x1
	b.eq	2b
	add	x1,x0,x1
	sub	x0,x1,#8
	b	memmove
4:
	subs	x9,x2,x1
	b.eq	2b
	cmp	x9,#8
	b.lo	1f
	sub	x10,x1,x3
	cmp	x10,#32
	b.lo	1f
	cmp	x9,#32
	b.hs	3f
	mov	x10,xzr
	b	4f
5:
	subs	x9,x2,x1
	b.eq	2b
	cmp	x9,#8
	mov	x10,xzr
	b.lo	5f
	cmp	x8,#32
	b.lo	5f
	cmp	x9,#32
	b.hs	6f
	mov	x10,xzr
	b	7f
3:
	add	x12,x2,x0
	and	x11,x9,#0x18
	and	x10,x9,#0xffffffffffffffe0
	sub	x12,x12,#16
	and	x13,x9,#0xffffffffffffffe0
3:
	ldp	q1,q0,[x12,#-16]
	add	x14,x12,x8
	sub	x13,x13,#32
	sub	x12,x12,#32
	stp	q1,q0,[x14,#-16]
	cbnz	x13,3b
	cmp	x9,x10
	b.eq	2b
	cbz	x11,3f
4:
	sub	x12,x2,x10
	and	x11,x9,#0xfffffffffffffff8
	add	x13,x12,x0
	and	x12,x9,#0x7
	sub	x10,x10,x11
	sub	x13,x13,#8
4:
	ldr	d0,[x13]
	adds	x10,x10,#8
	str	d0,[x13,x8]
	sub	x13,x13,#8
	b.ne	4b
	cmp	x9,x11
	mov	x9,x12
	b.eq	2b
1:
	add	x8,x3,x0
	add	x10,x1,x0
	sub	x8,x8,#1
	sub	x10,x10,#1
4:
	mov	x11,x9
	ldrb	w12,[x10,x9]
	subs	x9,x9,#1
	strb	w12,[x8,x11]
	b.ne	4b
	b	2b
6:
	add	x11,x3,x0
	add	x12,x1,x0
	and	x8,x9,#0x18
	and	x10,x9,#0xffffffffffffffe0
	add	x11,x11,#16
	add	x12,x12,#16
	and	x13,x9,#0xffffffffffffffe0
4:
	ldp	q0,q1,[x12,#-16]
	subs	x13,x13,#32
	add	x12,x12,#32
	stp	q0,q1,[x11,#-16]
	add	x11,x11,#32
	b.ne	4b
	cmp	x9,x10
	b.eq	2b
	cbz	x8,5f
7:
	mov	x8,x10
	and	x10,x9,#0xfffffffffffffff8
	add	x11,x8,x3
	add	x12,x8,x1
	sub	x8,x8,x10
	add	x11,x0,x11
	add	x12,x0,x12
4:
	ldr	d0,[x12],#8
	adds	x8,x8,#8
	str	d0,[x11],#8
	b.ne	4b
	cmp	x9,x10
	b.eq	2b
5:
	add	x11,x10,x1
	add	x9,x10,x3
	sub	x8,x11,x2
	add	x9,x0,x9
	add	x10,x0,x11
4:
	ldrb	w11,[x10],#1
	adds	x8,x8,#1
	strb	w11,[x9],#1
	b.lo	4b
	b	2b
3:
	and	x9,x9,#0x1f
	b	1b
	.size	"rtp_841016a0_rtp_wire::packet::resizing::move_bytes", .-"rtp_841016a0_rtp_wire::packet::resizing::move_bytes"
	.cfi_endproc

	.section	".text.rtp_ext::gathering::gather_around","ax",@progbits
	.p2align	2
	.type	"rtp_841016a0_rtp_ext::gathering::gather_around",@function
"rtp_841016a0_rtp_ext::gathering::gather_around":
	.cfi_startproc
	str	x30,[sp,#-64]!
	stp	x24,x23,[sp,#16]
	stp	x22,x21,[sp,#32]
	stp	x20,x19,[sp,#48]
	.cfi_def_cfa_offset 64
	.cfi_offset w19,-8
	.cfi_offset w20,-16
	.cfi_offset w21,-24
	.cfi_offset w22,-32
	.cfi_offset w23,-40
	.cfi_offset w24,-48
	.cfi_offset w30,-64
	mov	x21,x3
	mov	w3,w5
	mov	w19,w5
	mov	x20,x4
	mov	x22,x1
	mov	w23,w0
	bl	"rtp_841016a0_rtp_ext::gathering::gather"
	mov	x24,x0
	sub	x2,x20,x21
	add	x1,x22,x21
	mov	w0,w23
	mov	w3,w19
	bl	"rtp_841016a0_rtp_ext::gathering::gather"
	mov	x1,x0
	mov	x0,x24
	ldp	x20,x19,[sp,#48]
	ldp	x22,x21,[sp,#32]
	ldp	x24,x23,[sp,#16]
	ldr	x30,[sp],#64
	ret
	.size	"rtp_841016a0_rtp_ext::gathering::gather_around", .-"rtp_841016a0_rtp_ext::gathering::gather_around"
	.cfi_endproc

	.section	".text.rtp_ext::gathering::gather","ax",@progbits
	.p2align	2
	.type	"rtp_841016a0_rtp_ext::gathering::gather",@function
"rtp_841016a0_rtp_ext::gathering::gather":
	.cfi_startproc
	stp	x30,x25,[sp,#-64]!
	stp	x24,x23,[sp,#16]
	stp	x22,x21,[sp,#32]
	stp	x20,x19,[sp,#48]
	.cfi_def_cfa_offset 64
	.cfi_offset w19,-8
	.cfi_offset w20,-16
	.cfi_offset w21,-24
	.cfi_offset w22,-32
	.cfi_offset w23,-40
	.cfi_offset w24,-48
	.cfi_offset w25,-56
	.cfi_offset w30,-64
	mov	x20,x2
	mov	x21,x1
	tst	w0,#0xff
	and	w22,w3,#0xff
	b.eq	1f
	add	x23,x21,#16
	mov	x19,xzr
	mov	x8,xzr
	add	x24,x23,x20
	add	x25,x21,x20
2:
	subs	x1,x20,x8
	b.eq	3f
	add	x0,x21,x8
	ldrb	w8,[x0]
	cbnz	w8,4f
	cmp	x1,#2
	b.eq	5f
	cmp	x1,#1
	b.eq	3f
	cmp	x1,#3
	b.hi	6f
	ldrb	w8,[x0,#1]
	cbnz	w8,6f
	ldrb	w8,[x0,#2]
	cbnz	w8,6f
	b	3f
5:
	ldrb	w8,[x0,#1]
	cbz	w8,3f
6:
	sub	x1,x1,#1
	add	x0,x0,#1
	bl	"rtp_841016a0_rtp_ext::elements::skip_zeros"
	cbz	x1,3f
4:
	cmp	x1,#2
	b.lo	3f
	ldrb	w10,[x0,#1]
	add	x8,x10,#2
	subs	x8,x8,x1
	b.hi	3f
	ldrb	w9,[x0]
	add	x8,x8,x20
	cmp	w9,w22
	b.eq	2b
	sub	x9,x8,x10
	sub	x11,x9,#2
	cmp	x19,x11
	b.hs	4f
	subs	x11,x8,x11
	b.eq	4f
	cmp	x11,#8
	b.lo	5f
	sub	x12,x19,x20
	add	x12,x12,x1
	cmp	x12,#32
	b.hs	6f
5:
	mov	x12,xzr
5:
	sub	x10,x10,x12
	add	x11,x12,x19
	add	x12,x25,x12
	add	x10,x10,#2
	add	x11,x21,x11
	sub	x12,x12,x1
7:
	ldrb	w13,[x12],#1
	subs	x10,x10,#1
	strb	w13,[x11],#1
	b.ne	7b
4:
	add	x10,x8,x19
	sub	x9,x10,x9
	add	x19,x9,#2
	b	2b
6:
	cmp	x11,#32
	b.hs	2f
	mov	x12,xzr
	b	6f
2:
	and	x13,x11,#0x18
	and	x12,x11,#0xffffffffffffffe0
	sub	x14,x24,x1
	add	x15,x23,x19
	and	x16,x11,#0xffffffffffffffe0
2:
	ldp	q0,q1,[x14,#-16]
	subs	x16,x16,#32
	add	x14,x14,#32
	stp	q0,q1,[x15,#-16]
	add	x15,x15,#32
	b.ne	2b
	cmp	x11,x12
	b.eq	4b
	cbz	x13,5b
6:
	mov	x13,x12
	and	x12,x11,#0xfffffffffffffff8
	add	x14,x13,x19
	add	x15,x25,x13
	sub	x13,x13,x12
	add	x14,x21,x14
	sub	x15,x15,x1
2:
	ldr	d0,[x15],#8
	adds	x13,x13,#8
	str	d0,[x14],#8
	b.ne	2b
	cmp	x11,x12
	b.eq	4b
	b	5b
1:
	mov	x9,xzr
	mov	x19,xzr
	add	x23,x21,x20
1:
	subs	x1,x20,x9
	b.eq	3f
	add	x8,x21,x9
	ldrb	w9,[x8]
	sub	w10,w9,#240
	cmn	w10,#224
	b.hs	2f
	cbz	w9,4f
	cmp	w9,#239
	b.ls	5f
	b	3f
2:
	and	x8,x9,#0xf
	add	x8,x8,#2
	subs	x10,x8,x1
	b.hi	5f
	b	2f
4:
	cmp	x1,#2
	b.eq	4f
	cmp	x1,#1
	b.eq	3f
	cmp	x1,#3
	b.hi	6f
	ldrb	w9,[x8,#1]
	cbnz	w9,6f
	ldrb	w9,[x8,#2]
	cbnz	w9,6f
	b	3f
4:
	ldrb	w9,[x8,#1]
	cbz	w9,3f
6:
	sub	x1,x1,#1
	add	x0,x8,#1
	bl	"rtp_841016a0_rtp_ext::elements::skip_zeros"
	cbz	x1,3f
	ldrb	w9,[x0]
	cmp	w9,#239
	b.hi	3f
5:
	and	w8,w9,#0xf
	add	w8,w8,#2
	subs	x10,x8,x1
	b.hi	3f
2:
	lsr	w11,w9,#4
	add	x9,x10,x20
	cmp	w11,w22
	b.eq	1b
	cbz	w11,1b
	sub	x12,x9,x8
	cmp	x19,x12
	b.hs	2f
	cmp	x8,#4
	b.lo	4f
	add	x11,x19,x8
	sub	x11,x11,x9
	cmp	x11,#16
	b.hs	5f
4:
	mov	x11,xzr
4:
	add	x12,x11,x19
	sub	x11,x11,x8
	add	x10,x23,x10
	add	x12,x21,x12
6:
	ldrb	w13,[x10,x11]
	adds	x11,x11,#1
	strb	w13,[x12],#1
	b.lo	6b
2:
	add	x19,x19,x8
	b	1b
5:
	cmp	x8,#16
	b.hs	1f
	mov	x11,xzr
	b	5f
1:
	and	x11,x8,#0x10
	ldr	q0,[x21,x12]
	cmp	x8,x11
	str	q0,[x21,x19]
	b.eq	2b
	and	x12,x8,#0xc
	cbz	x12,4b
5:
	mov	x12,x11
	and	x11,x8,#0x1c
	sub	x15,x10,x8
	add	x13,x12,x19
	add	x14,x23,x12
	sub	x12,x12,x11
	add	x13,x21,x13
	add	x14,x14,x15
1:
	ldr	w15,[x14],#4
	adds	x12,x12,#4
	str	w15,[x13],#4
	b.ne	1b
	cmp	x8,x11
	b.eq	2b
	b	4b
3:
	mov	x0,x19
	ldp	x20,x19,[sp,#48]
	ldp	x22,x21,[sp,#32]
	ldp	x24,x23,[sp,#16]
	ldp	x30,x25,[sp],#64
	ret
	.size	"rtp_841016a0_rtp_ext::gathering::gather", .-"rtp_841016a0_rtp_ext::gathering::gather"
	.cfi_endproc

	.section	".text.rtp_ext::form_change::change_rows","ax",@progbits
	.p2align	2
	.type	"rtp_841016a0_rtp_ext::form_change::change_rows",@function
"rtp_841016a0_rtp_ext::form_change::change_rows":
	.cfi_startproc
	stp	x30,x23,[sp,#-48]!
	stp	x22,x21,[sp,#16]
	stp	x20,x19,[sp,#32]
	.cfi_def_cfa_offset 48
	.cfi_offset w19,-8
	.cfi_offset w20,-16
	.cfi_offset w21,-24
	.cfi_offset w22,-32
	.cfi_offset w23,-40
	.cfi_offset w30,-48
	sub	x8,x2,x5
	mov	x19,x5
	mov	x21,x2
	mov	x20,x1
	cmp	x8,x4
	mov	w22,w0
	b.ls	1f
	cbz	x19,2f
	cmp	x19,#8
	mov	x10,x19
	b.lo	3f
	add	x9,x19,x4
	mov	x10,x19
	sub	x9,x9,x21
	cmp	x9,#32
	b.lo	3f
	cmp	x19,#32
	b.hs	4f
	mov	x9,xzr
	b	5f
1:
	cbz	x19,2f
	cmp	x19,#8
	b.lo	1f
	add	x9,x19,x4
	sub	x9,x21,x9
	cmp	x9,#32
	b.hs	6f
1:
	mov	x9,xzr
1:
	add	x11,x9,x4
	sub	x9,x9,x19
	add	x10,x20,x21
	add	x11,x20,x11
7:
	ldrb	w12,[x11],#1
	strb	w12,[x10,x9]
	adds	x9,x9,#1
	b.lo	7b
	b	2f
6:
	cmp	x19,#32
	b.hs	6f
	mov	x9,xzr
	b	7f
4:
	add	x11,x19,x4
	add	x12,x21,x20
	and	x10,x19,#0x18
	add	x11,x11,x20
	and	x9,x19,#0xffffffffffffffe0
	sub	x12,x12,#16
	sub	x11,x11,#16
	and	x13,x19,#0xffffffffffffffe0
4:
	ldp	q1,q0,[x11,#-16]
	sub	x13,x13,#32
	sub	x11,x11,#32
	stp	q1,q0,[x12,#-16]
	sub	x12,x12,#32
	cbnz	x13,4b
	cmp	x19,x9
	b.eq	2f
	cbz	x10,4f
5:
	sub	x12,x4,x9
	sub	x13,x21,x9
	and	x11,x19,#0xfffffffffffffff8
	add	x12,x12,x20
	add	x13,x13,x20
	and	x10,x19,#0x7
	sub	x12,x12,#8
	sub	x13,x13,#8
	sub	x9,x9,x11
5:
	ldr	d0,[x12,x19]
	adds	x9,x9,#8
	sub	x12,x12,#8
	str	d0,[x13],#-8
	b.ne	5b
	cmp	x19,x11
	b.eq	2f
3:
	add	x9,x10,x21
	mvn	x11,x19
	add	x12,x10,x4
	add	x11,x11,x9
	add	x12,x12,x20
	neg	x9,x10
	add	x10,x20,x11
	sub	x11,x12,#1
5:
	ldrb	w12,[x11],#-1
	adds	x9,x9,#1
	strb	w12,[x10],#-1
	b.lo	5b
2:
	subs	x9,x8,x3
	b.eq	5f
	cbz	x3,5f
	cmp	x3,#8
	mov	x10,x3
	b.lo	8f
	add	x10,x19,x3
	sub	x10,x10,x21
	cmp	x10,#32
	mov	x10,x3
	b.lo	8f
	cmp	x3,#32
	b.hs	9f
	mov	x11,xzr
	b	10f
9:
	add	x12,x3,x20
	add	x13,x8,x20
	and	x10,x3,#0x18
	and	x11,x3,#0xffffffffffffffe0
	sub	x8,x12,#16
	sub	x12,x13,#16
	and	x13,x3,#0xffffffffffffffe0
9:
	ldp	q1,q0,[x8,#-16]
	sub	x13,x13,#32
	sub	x8,x8,#32
	stp	q1,q0,[x12,#-16]
	sub	x12,x12,#32
	cbnz	x13,9b
	cmp	x3,x11
	b.eq	5f
	cbz	x10,9f
10:
	add	x10,x11,x19
	and	x8,x3,#0xfffffffffffffff8
	sub	x13,x20,x11
	sub	x12,x21,x10
	and	x10,x3,#0x7
	sub	x11,x11,x8
	add	x14,x12,x20
	sub	x12,x13,#8
	sub	x13,x14,#8
10:
	ldr	d0,[x12,x3]
	adds	x11,x11,#8
	sub	x12,x12,#8
	str	d0,[x13],#-8
	b.ne	10b
	cmp	x3,x8
	b.eq	5f
8:
	add	x8,x10,x20
	sub	x8,x8,#1
10:
	ldrb	w11,[x8]
	sub	x10,x10,#1
	strb	w11,[x8,x9]
	sub	x8,x8,#1
	cbnz	x10,10b
5:
	sub	x2,x21,x19
	mov	w0,w22
	mov	x1,x20
	bl	"rtp_841016a0_rtp_ext::form_change::change_row"
	mov	x23,x0
	sub	x2,x21,x0
	add	x1,x20,x0
	mov	w0,w22
	mov	x3,x19
	bl	"rtp_841016a0_rtp_ext::form_change::change_row"
	ldp	x20,x19,[sp,#32]
	mov	x1,x0
	ldp	x22,x21,[sp,#16]
	mov	x0,x23
	ldp	x30,x23,[sp],#48
	ret
6:
	add	x11,x8,x20
	add	x12,x4,x20
	and	x10,x19,#0x18
	and	x9,x19,#0xffffffffffffffe0
	add	x11,x11,#16
	add	x12,x12,#16
	and	x13,x19,#0xffffffffffffffe0
5:
	ldp	q0,q1,[x12,#-16]
	subs	x13,x13,#32
	add	x12,x12,#32
	stp	q0,q1,[x11,#-16]
	add	x11,x11,#32
	b.ne	5b
	cmp	x19,x9
	b.eq	2b
	cbz	x10,1b
7:
	mov	x10,x9
	and	x9,x19,#0xfffffffffffffff8
	add	x11,x10,x21
	add	x12,x10,x4
	sub	x10,x10,x9
	sub	x11,x11,x19
	add	x12,x20,x12
	add	x11,x20,x11
5:
	ldr	d0,[x12],#8
	adds	x10,x10,#8
	str	d0,[x11],#8
	b.ne	5b
	cmp	x19,x9
	b.eq	2b
	b	1b
9:
	and	x10,x3,#0x1f
	b	8b
4:
	and	x10,x19,#0x1f
	b	3b
	.size	"rtp_841016a0_rtp_ext::form_change::change_rows", .-"rtp_841016a0_rtp_ext::form_change::change_rows"
	.cfi_endproc

	.section	".text.rtp_ext::form_change::change_row","ax",@progbits
	.p2align	2
	.type	"rtp_841016a0_rtp_ext::form_change::change_row",@function
"rtp_841016a0_rtp_ext::form_change::change_row":
	.cfi_startproc
	stp	x30,x27,[sp,#-80]!
	stp	x26,x25,[sp,#16]
	stp	x24,x23,[sp,#32]
	stp	x22,x21,[sp,#48]
	stp	x20,x19,[sp,#64]
	.cfi_def_cfa_offset 80
	.cfi_offset w19,-8
	.cfi_offset w20,-16
	.cfi_offset w21,-24
	.cfi_offset w22,-32
	.cfi_offset w23,-40
	.cfi_offset w24,-48
	.cfi_offset w25,-56
	.cfi_offset w26,-64
	.cfi_offset w27,-72
	.cfi_offset w30,-80
	mov	x20,x2
	tst	w0,#0xff
	mov	x21,x1
	mov	x19,xzr
	b.eq	1f
	cbz	x3,2f
	add	x9,x20,x21
	add	x22,x20,#1
	sub	x8,x20,x3
	add	x23,x21,#1
	add	x24,x9,#2
	sub	x25,x9,#6
	sub	x26,x21,#7
	add	x27,x21,x22
	b	3f
4:
	lsr	w14,w13,#4
	cmp	x10,x3
	neg	x3,x11
	orr	w13,w14,w13,lsl #4
	add	w13,w9,w13
	sub	w10,w13,#1
	strb	w10,[x21,x19]
	add	x19,x12,x9
	b.eq	2f
3:
	add	x0,x21,x8
	ldrb	w8,[x0]
	cbz	w8,3f
	cmp	x3,#2
	b.hs	5f
	b	2f
3:
	cmp	x3,#2
	b.eq	3f
	cmp	x3,#1
	b.eq	2f
	cmp	x3,#3
	b.hi	6f
	ldrb	w8,[x0,#1]
	cbnz	w8,6f
	ldrb	w8,[x0,#2]
	cbnz	w8,6f
	b	2f
3:
	ldrb	w8,[x0,#1]
	cbz	w8,2f
6:
	sub	x1,x3,#1
	add	x0,x0,#1
	bl	"rtp_841016a0_rtp_ext::elements::skip_zeros"
	cbz	x1,2f
	mov	x3,x1
	cmp	x1,#2
	b.lo	2f
5:
	ldrb	w9,[x0,#1]
	add	x10,x9,#2
	subs	x11,x10,x3
	b.hi	2f
	add	x8,x11,x20
	add	x12,x19,#1
	ldrb	w13,[x0]
	sub	x14,x8,x9
	cmp	x12,x14
	b.ls	3f
	cbz	w9,4b
	cmp	w9,#8
	mov	x15,x9
	b.lo	5f
	add	x15,x3,x19
	sub	x15,x22,x15
	cmp	x15,#32
	mov	x15,x9
	b.lo	5f
	cmp	w9,#32
	b.hs	6f
	mov	x14,xzr
	b	7f
3:
	cbz	w9,4b
	cmp	w9,#8
	b.lo	3f
	add	x15,x3,x19
	sub	x15,x20,x15
	cmn	x15,#33
	b.ls	8f
3:
	mov	x14,xzr
3:
	add	x15,x14,x19
	sub	x16,x14,x3
	sub	x14,x9,x14
	add	x15,x23,x15
	add	x16,x24,x16
9:
	ldrb	w17,[x16],#1
	subs	x14,x14,#1
	strb	w17,[x15],#1
	b.ne	9b
	b	4b
8:
	cmp	w9,#32
	b.hs	8f
	mov	x14,xzr
	b	9f
6:
	add	x15,x21,x14
	sub	x17,x9,#1
	add	x16,x21,x12
	add	x0,x15,x17
	and	x14,x9,#0xe0
	add	x17,x16,x17
	ldur	q0,[x0,#-15]
	ldur	q1,[x0,#-31]
	cmp	x14,#32
	stur	q0,[x17,#-15]
	stur	q1,[x17,#-31]
	b.eq	6f
	sub	x17,x9,#33
	cmp	x14,#64
	add	x0,x15,x17
	add	x17,x16,x17
	ldur	q0,[x0,#-15]
	ldur	q1,[x0,#-31]
	stur	q0,[x17,#-15]
	stur	q1,[x17,#-31]
	b.eq	6f
	sub	x17,x9,#65
	cmp	x14,#96
	add	x0,x15,x17
	add	x17,x16,x17
	ldur	q0,[x0,#-15]
	ldur	q1,[x0,#-31]
	stur	q0,[x17,#-15]
	stur	q1,[x17,#-31]
	b.eq	6f
	sub	x17,x9,#97
	cmp	x14,#128
	add	x0,x15,x17
	add	x17,x16,x17
	ldur	q0,[x0,#-15]
	ldur	q1,[x0,#-31]
	stur	q0,[x17,#-15]
	stur	q1,[x17,#-31]
	b.eq	6f
	sub	x17,x9,#129
	cmp	x14,#160
	add	x0,x15,x17
	add	x17,x16,x17
	ldur	q0,[x0,#-15]
	ldur	q1,[x0,#-31]
	stur	q0,[x17,#-15]
	stur	q1,[x17,#-31]
	b.eq	6f
	sub	x17,x9,#161
	cmp	x14,#192
	add	x0,x15,x17
	add	x17,x16,x17
	ldur	q0,[x0,#-15]
	ldur	q1,[x0,#-31]
	stur	q0,[x17,#-15]
	stur	q1,[x17,#-31]
	b.eq	6f
	sub	x17,x9,#193
	add	x15,x15,x17
	add	x16,x16,x17
	ldur	q0,[x15,#-15]
	ldur	q1,[x15,#-31]
	stur	q0,[x16,#-15]
	stur	q1,[x16,#-31]
6:
	cmp	x14,x9
	b.eq	4b
	and	x15,x9,#0x18
	cbz	x15,6f
7:
	sub	x17,x9,x3
	add	x0,x19,x9
	and	x16,x9,#0xf8
	sub	x17,x17,x14
	sub	x0,x0,x14
	and	x15,x9,#0x7
	add	x17,x25,x17
	add	x0,x26,x0
	sub	x14,x14,x16
7:
	ldr	d0,[x17],#-8
	adds	x14,x14,#8
	str	d0,[x0],#-8
	b.ne	7b
	cmp	x16,x9
	b.eq	4b
5:
	add	x16,x15,x19
	sub	x17,x15,x3
	neg	x14,x15
	add	x15,x21,x16
	add	x16,x27,x17
7:
	ldrb	w17,[x16],#-1
	adds	x14,x14,#1
	strb	w17,[x15],#-1
	b.lo	7b
	b	4b
8:
	add	x15,x21,x14
	and	x14,x9,#0xe0
	add	x16,x21,x12
	ldp	q0,q1,[x15]
	cmp	x14,#32
	stp	q0,q1,[x16]
	b.eq	7f
	ldp	q0,q1,[x15,#32]
	cmp	x14,#64
	stp	q0,q1,[x16,#32]
	b.eq	7f
	ldp	q0,q1,[x15,#64]
	cmp	x14,#96
	stp	q0,q1,[x16,#64]
	b.eq	7f
	ldp	q0,q1,[x15,#96]
	cmp	x14,#128
	stp	q0,q1,[x16,#96]
	b.eq	7f
	ldp	q0,q1,[x15,#128]
	cmp	x14,#160
	stp	q0,q1,[x16,#128]
	b.eq	7f
	ldp	q0,q1,[x15,#160]
	cmp	x14,#192
	stp	q0,q1,[x16,#160]
	b.eq	7f
	ldp	q0,q1,[x15,#192]
	stp	q0,q1,[x16,#192]
7:
	cmp	x14,x9
	b.eq	4b
	and	x15,x9,#0x18
	cbz	x15,3b
9:
	mov	x15,x14
	and	x14,x9,#0xf8
	add	x16,x15,x19
	sub	x17,x15,x3
	sub	x15,x15,x14
	add	x16,x23,x16
	add	x17,x24,x17
7:
	ldr	d0,[x17],#8
	adds	x15,x15,#8
	str	d0,[x16],#8
	b.ne	7b
	cmp	x14,x9
	b.eq	4b
	b	3b
6:
	and	x15,x9,#0x1f
	b	5b
1:
	cbz	x3,2f
	add	x22,x21,#1
	sub	x8,x20,x3
	add	x23,x21,#2
	add	x24,x22,x20
	add	x25,x21,x20
	b	1f
3:
	ldr	q0,[x15]
	str	q0,[x14]
4:
	lsr	w9,w9,#4
	add	x14,x21,x19
	cmp	x10,x3
	neg	x3,x12
	add	x19,x11,x13
	strb	w11,[x14,#1]
	strb	w9,[x14]
	b.eq	2f
1:
	add	x8,x21,x8
	ldrb	w9,[x8]
	cbnz	w9,1f
	cmp	x3,#2
	b.eq	5f
	cmp	x3,#1
	b.eq	2f
	cmp	x3,#3
	b.hi	6f
	ldrb	w9,[x8,#1]
	cbnz	w9,6f
	ldrb	w9,[x8,#2]
	cbnz	w9,6f
	b	2f
5:
	ldrb	w9,[x8,#1]
	cbz	w9,2f
6:
	sub	x1,x3,#1
	add	x0,x8,#1
	bl	"rtp_841016a0_rtp_ext::elements::skip_zeros"
	cbz	x1,2f
	ldrb	w9,[x0]
	mov	x3,x1
1:
	cmp	w9,#239
	b.hi	2f
	and	w16,w9,#0xf
	add	w10,w16,#2
	subs	x12,x10,x3
	b.hi	2f
	sub	x11,x10,#1
	add	x8,x12,x20
	add	x13,x19,#2
	sub	x14,x8,x11
	cmp	x13,x14
	add	x15,x21,x14
	add	x14,x21,x13
	b.ls	1f
	cmp	w16,#3
	b.hs	5f
	sub	x17,x10,#1
	b	6f
1:
	cmp	w16,#3
	b.lo	1f
	sub	x17,x3,x20
	add	x17,x17,x19
	add	x17,x17,#1
	cmp	x17,#16
	b.hs	7f
1:
	mov	x16,xzr
1:
	and	w14,w9,#0xf
	add	x15,x16,x19
	sub	x14,x14,x16
	sub	x16,x16,x3
	add	x15,x23,x15
	add	x14,x14,#1
	add	x16,x24,x16
8:
	ldrb	w17,[x16],#1
	subs	x14,x14,#1
	strb	w17,[x15],#1
	b.ne	8b
	b	4b
5:
	add	x17,x3,x19
	sub	x17,x17,x20
	cmn	x17,#17
	sub	x17,x10,#1
	b.ls	5f
6:
	add	x14,x22,x19
	sub	x15,x25,x3
8:
	mov	x16,x17
	ldrb	w0,[x15,x17]
	subs	x17,x17,#1
	strb	w0,[x14,x16]
	b.ne	8b
	b	4b
7:
	cmp	w16,#15
	b.eq	3b
	and	x16,x11,#0xfffffffffffffffc
	ldr	w17,[x15]
	cmp	x16,#4
	str	w17,[x14]
	b.eq	3f
	ldr	w17,[x15,#4]
	cmp	x16,#8
	str	w17,[x14,#4]
	b.eq	3f
	ldr	w17,[x15,#8]
	cmp	x16,#12
	str	w17,[x14,#8]
	b.eq	3f
	ldr	w15,[x15,#12]
	str	w15,[x14,#12]
3:
	cmp	x11,x16
	b.eq	4b
	b	1b
5:
	cmp	w16,#15
	b.ne	1f
	add	x15,x15,x16
	add	x14,x14,x16
	ldur	q0,[x15,#-15]
	stur	q0,[x14,#-15]
	b	4b
1:
	add	x0,x15,x16
	and	x17,x11,#0xfffffffffffffffc
	add	x16,x14,x16
	ldur	w0,[x0,#-3]
	cmp	x17,#4
	stur	w0,[x16,#-3]
	b.eq	1f
	sub	x16,x10,#6
	cmp	x17,#8
	add	x0,x15,x16
	add	x16,x14,x16
	ldur	w0,[x0,#-3]
	stur	w0,[x16,#-3]
	b.eq	1f
	sub	x16,x10,#10
	cmp	x17,#12
	add	x0,x15,x16
	add	x16,x14,x16
	ldur	w0,[x0,#-3]
	stur	w0,[x16,#-3]
	b.eq	1f
	sub	x16,x10,#14
	add	x15,x15,x16
	add	x14,x14,x16
	ldur	w15,[x15,#-3]
	stur	w15,[x14,#-3]
1:
	cmp	x11,x17
	b.eq	4b
	and	x17,x11,#0x3
	b	6b
2:
	mov	x0,x19
	ldp	x20,x19,[sp,#64]
	ldp	x22,x21,[sp,#48]
	ldp	x24,x23,[sp,#32]
	ldp	x26,x25,[sp,#16]
	ldp	x30,x27,[sp],#80
	ret
	.size	"rtp_841016a0_rtp_ext::form_change::change_row", .-"rtp_841016a0_rtp_ext::form_change::change_row"
	.cfi_endproc

	.section	".text.rtp_ext::rewriting::put_between","ax",@progbits
	.p2align	2
	.type	"rtp_841016a0_rtp_ext::rewriting::put_between",@function
"rtp_841016a0_rtp_ext::rewriting::put_between":
	.cfi_startproc
	str	x30,[sp,#-32]!
	stp	x20,x19,[sp,#16]
	.cfi_def_cfa_offset 32
	.cfi_offset w19,-8
	.cfi_offset w20,-16
	.cfi_offset w30,-32
	mov	x9,x2
	ldrb	w11,[x5]
	ldr	x2,[x5,#24]
	tst	w0,#0xff
	mov	w8,#1
	ldrb	w10,[x5,#8]
	cinc	x8,x8,ne
	cmp	w11,#1
	add	x8,x2,x8
	csel	x12,x8,xzr,eq
	ldr	x8,[x5,#16]
	add	x19,x12,x9
	subs	x13,x3,x19
	b.hs	1f
	cbz	x4,2f
	cmp	x4,#8
	mov	x14,x4
	b.lo	3f
	cmp	x13,#32
	mov	x14,x4
	b.lo	3f
	cmp	x4,#32
	b.hs	4f
	mov	x13,xzr
	b	5f
1:
	cbz	x4,2f
	cmp	x4,#8
	b.lo	1f
	add	x13,x12,x9
	sub	x13,x13,x3
	cmp	x13,#32
	b.hs	6f
1:
	mov	x13,xzr
1:
	add	x14,x12,x13
	add	x15,x1,x9
	add	x16,x13,x3
	sub	x12,x4,x13
	add	x13,x15,x14
	add	x14,x1,x16
7:
	ldrb	w15,[x14],#1
	subs	x12,x12,#1
	strb	w15,[x13],#1
	b.ne	7b
	b	2f
6:
	cmp	x4,#32
	b.hs	6f
	mov	x13,xzr
	b	7f
4:
	add	x15,x4,x3
	add	x16,x12,x4
	add	x17,x9,x1
	add	x15,x15,x1
	add	x16,x16,x17
	and	x14,x4,#0x18
	and	x13,x4,#0xffffffffffffffe0
	sub	x15,x15,#16
	sub	x16,x16,#16
	and	x17,x4,#0xffffffffffffffe0
4:
	ldp	q1,q0,[x15,#-16]
	sub	x17,x17,#32
	sub	x15,x15,#32
	stp	q1,q0,[x16,#-16]
	sub	x16,x16,#32
	cbnz	x17,4b
	cmp	x4,x13
	b.eq	2f
	cbz	x14,4f
5:
	add	x14,x12,x9
	sub	x16,x3,x13
	and	x15,x4,#0xfffffffffffffff8
	sub	x17,x14,x13
	add	x16,x16,x1
	and	x14,x4,#0x7
	add	x17,x17,x1
	sub	x16,x16,#8
	sub	x13,x13,x15
	sub	x17,x17,#8
5:
	ldr	d0,[x16,x4]
	adds	x13,x13,#8
	sub	x16,x16,#8
	str	d0,[x17,x4]
	sub	x17,x17,#8
	b.ne	5b
	cmp	x4,x15
	b.eq	2f
3:
	add	x12,x12,x14
	add	x13,x9,x1
	add	x15,x14,x3
	add	x13,x12,x13
	add	x15,x15,x1
	neg	x12,x14
	sub	x13,x13,#1
	sub	x14,x15,#1
5:
	ldrb	w15,[x14],#-1
	adds	x12,x12,#1
	strb	w15,[x13],#-1
	b.lo	5b
2:
	cmp	w11,#1
	b.ne	5f
	tst	w0,#0xff
	b.eq	8f
	add	x11,x1,x9
	strb	w10,[x11]
	mov	w10,#2
	strb	w2,[x11,#1]
	add	x11,x10,x9
	cbnz	x2,9f
	b	10f
8:
	lsr	w11,w10,#4
	orr	w10,w11,w10,lsl #4
	add	w10,w10,w2
	sub	w10,w10,#1
	strb	w10,[x1,x9]
	mov	w10,#1
	add	x11,x10,x9
	cbz	x2,10f
9:
	cmp	x2,#1
	b.ne	8f
	ldrb	w8,[x8]
	strb	w8,[x1,x11]
	add	x0,x19,x4
	ldp	x20,x19,[sp,#16]
	ldr	x30,[sp],#32
	ret
8:
	cmp	x2,#2
	b.hi	8f
	ldrb	w9,[x8]
	add	x10,x1,x11
	strb	w9,[x10]
	ldrb	w8,[x8,#1]
	strb	w8,[x10,#1]
	add	x0,x19,x4
	ldp	x20,x19,[sp,#16]
	ldr	x30,[sp],#32
	ret
8:
	cmp	x2,#3
	b.ne	10f
	ldrb	w9,[x8]
	add	x10,x1,x11
	strb	w9,[x10]
	ldrb	w9,[x8,#1]
	strb	w9,[x10,#1]
	ldrb	w8,[x8,#2]
	strb	w8,[x10,#2]
	add	x0,x19,x4
	ldp	x20,x19,[sp,#16]
	ldr	x30,[sp],#32
	ret
10:
	add	x0,x1,x11
	sub	x11,x0,x8
	cmp	x11,x2
	b.hs	8f
	cmp	x2,#8
	b.lo	9f
	add	x11,x10,x9
	add	x11,x11,x1
	sub	x11,x11,x8
	cmp	x11,#32
	b.hs	10f
9:
	mov	x11,xzr
9:
	add	x10,x11,x10
	add	x12,x1,x9
	sub	x9,x2,x11
	add	x8,x8,x11
	add	x10,x12,x10
11:
	ldrb	w11,[x8],#1
	subs	x9,x9,#1
	strb	w11,[x10],#1
	b.ne	11b
5:
	add	x0,x19,x4
	ldp	x20,x19,[sp,#16]
	ldr	x30,[sp],#32
	ret
8:
	mov	x1,x8
	mov	x20,x4
	bl	memmove
	add	x0,x19,x20
	ldp	x20,x19,[sp,#16]
	ldr	x30,[sp],#32
	ret
6:
	add	x15,x12,x9
	add	x16,x3,x1
	and	x14,x4,#0x18
	add	x15,x15,x1
	and	x13,x4,#0xffffffffffffffe0
	add	x16,x16,#16
	add	x15,x15,#16
	and	x17,x4,#0xffffffffffffffe0
6:
	ldp	q0,q1,[x16,#-16]
	subs	x17,x17,#32
	add	x16,x16,#32
	stp	q0,q1,[x15,#-16]
	add	x15,x15,#32
	b.ne	6b
	cmp	x4,x13
	b.eq	2b
	cbz	x14,1b
7:
	mov	x14,x13
	and	x13,x4,#0xfffffffffffffff8
	add	x16,x1,x9
	add	x15,x12,x14
	add	x17,x14,x3
	sub	x14,x14,x13
	add	x15,x16,x15
	add	x16,x1,x17
6:
	ldr	d0,[x16],#8
	adds	x14,x14,#8
	str	d0,[x15],#8
	b.ne	6b
	cmp	x4,x13
	b.eq	2b
	b	1b
10:
	cmp	x2,#32
	b.hs	1f
	mov	x11,xzr
	b	2f
1:
	add	x13,x10,x9
	and	x12,x2,#0x18
	and	x11,x2,#0xffffffffffffffe0
	add	x14,x13,x1
	add	x13,x8,#16
	and	x15,x2,#0xffffffffffffffe0
	add	x14,x14,#16
1:
	ldp	q0,q1,[x13,#-16]
	subs	x15,x15,#32
	add	x13,x13,#32
	stp	q0,q1,[x14,#-16]
	add	x14,x14,#32
	b.ne	1b
	cmp	x2,x11
	b.eq	5b
	cbz	x12,9b
2:
	mov	x13,x11
	and	x11,x2,#0xfffffffffffffff8
	add	x15,x1,x9
	add	x14,x13,x10
	sub	x12,x13,x11
	add	x13,x8,x13
	add	x14,x15,x14
1:
	ldr	d0,[x13],#8
	adds	x12,x12,#8
	str	d0,[x14],#8
	b.ne	1b
	cmp	x2,x11
	b.eq	5b
	b	9b
4:
	and	x14,x4,#0x1f
	b	3b
	.size	"rtp_841016a0_rtp_ext::rewriting::put_between", .-"rtp_841016a0_rtp_ext::rewriting::put_between"
	.cfi_endproc

	.section	".text.unlikely.rtp_c::growing::put_status_of","ax",@progbits
	.p2align	2
	.type	"rtp_841016a0_rtp_c::growing::put_status_of",@function
"rtp_841016a0_rtp_c::growing::put_status_of":
	.cfi_startproc
	and	w8,w0,#0xff
	cmp	w8,#3
	b.le	1f
	cmp	w8,#5
	b.le	2f
	cmp	w8,#6
	b.eq	3f
	cmp	w8,#7
	b.ne	4f
	mov	w0,#15
	ret
1:
	cmp	w8,#1
	mov	w0,#9
	b.gt	1f
	cbz	w8,5f
	mov	w0,#13
	ret
1:
	cmp	w8,#2
	b.eq	5f
	and	x8,x1,#0xff
	adrp	x9, "rtp_841016a0_.Lrtp_841016a0_switch.table.rtp_c::whole_packet::status_of_no_packet"
	add	x9, x9, :lo12:"rtp_841016a0_.Lrtp_841016a0_switch.table.rtp_c::whole_packet::status_of_no_packet"
	ldr	w0,[x9,x8,lsl #2]
5:
	ret
2:
	cmp	w8,#4
	b.ne	1f
	mov	w0,#5
	ret
3:
	mov	w0,#14
	ret
4:
	mov	w0,#8
	ret
1:
	mov	w0,#16
	ret
	.size	"rtp_841016a0_rtp_c::growing::put_status_of", .-"rtp_841016a0_rtp_c::growing::put_status_of"
	.cfi_endproc

	.section	".text.rtp_wire::packet::rtp_packet_buf::RtpPacketBuf::change_form","ax",@progbits
	.p2align	2
	.type	"rtp_841016a0_rtp_wire::packet::rtp_packet_buf::RtpPacketBuf::change_form",@function
"rtp_841016a0_rtp_wire::packet::rtp_packet_buf::RtpPacketBuf::change_form":
	.cfi_startproc
	sub	sp,sp,#144
	str	x29,[sp,#48]
	stp	x30,x27,[sp,#64]
	stp	x26,x25,[sp,#80]
	stp	x24,x23,[sp,#96]
	stp	x22,x21,[sp,#112]
	stp	x20,x19,[sp,#128]
	.cfi_def_cfa_offset 144
	.cfi_offset w19,-8
	.cfi_offset w20,-16
	.cfi_offset w21,-24
	.cfi_offset w22,-32
	.cfi_offset w23,-40
	.cfi_offset w24,-48
	.cfi_offset w25,-56
	.cfi_offset w26,-64
	.cfi_offset w27,-72
	.cfi_offset w30,-80
	.cfi_offset w29,-96
	ldrb	w8,[x1,#32]
	ldr	x21,[x1]
	mov	x19,x0
	cmp	w8,#1
	b.ne	1f
	ldrb	w24,[x1,#33]
	and	w9,w2,#0x1
	cmp	w24,#0
	cset	w8,eq
	cmp	w8,w9
	b.ne	2f
	ldrb	w8,[x21]
	ldr	x9,[x1,#24]
	str	w2,[sp,#56]
	str	x8,[sp,#16]
	ubfiz	x8,x8,#2,#4
	str	x8,[sp,#24]
	add	x8,x8,#16
	add	x0,x21,x8
	sub	x26,x9,x8
	stp	x0,x9,[sp,#32]
	cbz	w24,3f
	cbz	x26,4f
	mov	x20,xzr
	mov	x22,x26
5:
	ldrb	w8,[x0]
	cbz	w8,6f
	mov	x8,x22
	cmp	x22,#2
	b.hs	7f
	b	8f
6:
	cmp	x22,#2
	b.eq	6f
	cmp	x22,#1
	b.eq	8f
	cmp	x22,#3
	b.hi	9f
	ldrb	w8,[x0,#1]
	cbnz	w8,9f
	ldrb	w8,[x0,#2]
	cbnz	w8,9f
	b	10f
6:
	ldrb	w8,[x0,#1]
	cbz	w8,6f
9:
	mov	x23,x1
	add	x0,x0,#1
	sub	x1,x22,#1
	bl	"rtp_841016a0_rtp_ext::elements::skip_zeros"
	cbz	x1,9f
	ldr	w2,[sp,#56]
	mov	x8,x1
	mov	x1,x23
	cmp	x8,#2
	b.lo	8f
7:
	ldrb	w9,[x0,#1]
	add	x10,x9,#2
	subs	x8,x8,x10
	b.lo	8f
	ldrb	w11,[x0]
	add	x0,x0,x10
	cbnz	w11,7f
	mov	x22,x8
	cbnz	x8,5b
	b	8f
7:
	add	x9,x20,x9
	mov	x22,xzr
	add	x20,x9,#2
	cbz	x8,8f
	mov	x22,x8
	b	5b
1:
	ldrb	w8,[x21]
	tbnz	w8,#4,1f
2:
	strb	wzr,[x19]
	strh	wzr,[x19,#8]
	b	2f
1:
	mov	w8,#1
	mov	w9,#4
	strb	w8,[x19]
	strh	w9,[x19,#8]
2:
	str	xzr,[x19,#16]
	b	1f
3:
	cbz	x26,4f
	mov	x20,xzr
	mov	x8,x26
2:
	mov	x22,x8
3:
	ldrb	w9,[x0]
	sub	w8,w9,#240
	cmn	w8,#224
	b.hs	5f
	cbz	w9,7f
	mov	x8,x22
	cmp	w9,#239
	b.ls	11f
	b	8f
5:
	and	x8,x9,#0xf
	add	x10,x8,#2
	subs	x8,x22,x10
	b.hs	5f
	mov	x8,x22
11:
	and	w10,w9,#0xf
	add	w10,w10,#2
	subs	x8,x8,x10
	b.lo	8f
	cmp	w9,#16
	add	x0,x0,x10
	b.hs	12f
	mov	x22,x8
	cbnz	x8,3b
	b	8f
7:
	cmp	x22,#2
	b.eq	3f
	cmp	x22,#1
	b.eq	8f
	cmp	x22,#3
	b.hi	7f
	ldrb	w8,[x0,#1]
	cbnz	w8,7f
	ldrb	w8,[x0,#2]
	cbnz	w8,7f
	b	10f
3:
	ldrb	w8,[x0,#1]
	cbz	w8,6f
7:
	mov	x23,x1
	add	x0,x0,#1
	sub	x1,x22,#1
	bl	"rtp_841016a0_rtp_ext::elements::skip_zeros"
	cbz	x1,9f
	ldrb	w9,[x0]
	ldr	w2,[sp,#56]
	mov	x8,x1
	mov	x1,x23
	cmp	w9,#239
	b.ls	11b
	b	8f
5:
	add	x0,x0,x10
12:
	mov	x22,xzr
	add	x20,x10,x20
	cbnz	x8,2b
	b	8f
4:
	mov	x20,xzr
	mov	x22,xzr
	cmp	w24,w2,uxtb
	ldr	x29,[x1,#16]
	sub	x27,x26,xzr
	ccmp	xzr,#0,#4,ne
	cset	w23,ne
	b.eq	2f
	b	3f
6:
	mov	w22,#2
	cmp	w24,w2,uxtb
	ldr	x29,[x1,#16]
	sub	x27,x26,x22
	ccmp	x20,#0,#4,ne
	cset	w23,ne
	b.eq	2f
	b	3f
10:
	mov	w22,#3
8:
	cmp	w24,w2,uxtb
	ldr	x29,[x1,#16]
	sub	x27,x26,x22
	ccmp	x20,#0,#4,ne
	cset	w23,ne
	b.eq	2f
3:
	mov	x25,x1
	mov	w1,w2
	ldr	x2,[sp,#32]
	sub	x3,x26,x22
	mov	w0,w24
	mov	w4,wzr
	bl	"rtp_841016a0_rtp_ext::form_change::row_len"
	mov	x8,x1
	mov	x1,x25
	b	4f
9:
	ldr	w2,[sp,#56]
	mov	x1,x23
	cmp	w24,w2,uxtb
	ldr	x29,[x23,#16]
	sub	x27,x26,x22
	ccmp	x20,#0,#4,ne
	cset	w23,ne
	b.ne	3b
2:
	mov	w0,#1
	mov	x8,x20
4:
	add	x8,x8,#3
	and	w9,w0,#0xff
	and	x8,x8,#0xfffffffffffffffc
	cmp	x26,x8
	csel	x11,x26,x8,hi
	cmp	w9,#1
	b.ne	2f
	mov	w8,#262140
	cmp	x11,x8
	b.ls	3f
	mov	x12,xzr
	mov	w10,#7
	mov	w11,#1
	b	4f
3:
	ldr	x8,[sp,#24]
	ldr	x10,[sp,#40]
	ldr	x9,[x1,#8]
	add	w25,w8,#12
	add	x8,x25,x11
	add	x3,x8,#4
	sub	x8,x29,x10
	add	x12,x3,x8
	cmp	x9,x12
	b.hs	3f
	mov	w10,#8
	mov	w11,#1
	b	4f
3:
	stp	x12,x1,[sp]
	mov	x1,x10
	mov	x0,x21
	mov	x2,x29
	str	x11,[sp,#32]
	bl	"rtp_841016a0_rtp_wire::packet::resizing::move_bytes"
	ldr	x2,[sp,#32]
	add	x9,x21,x25
	lsl	w8,w2,#6
	and	w8,w8,#0xff00
	orr	w10,w8,w2,lsr #10
	ldr	w8,[sp,#56]
	cmp	w24,w8,uxtb
	strh	w10,[x9,#2]
	b.eq	3f
	ldrb	w10,[x21]
	tst	w8,#0xff
	mov	w11,#16
	mov	w12,#-8514
	orr	w10,w10,#0x10
	csel	w11,w12,w11,eq
	strb	w10,[x21]
	strh	w11,[x9]
3:
	add	x29,x9,#4
	cbz	x26,3f
	cmp	x20,x27
	b.ne	5f
	mov	x5,xzr
	b	6f
3:
	ldr	x9,[sp,#8]
	subs	x20,x2,#1
	b.le	3f
	cmp	x2,#2
	b.eq	7f
	cmp	x2,#3
	b.eq	8f
	cmp	x2,#4
	b.ne	9f
	str	wzr,[x29]
	b	10f
5:
	sub	x2,x26,x22
	sub	x3,x26,x22
	mov	w0,w24
	mov	x1,x29
	mov	x4,x26
	mov	w5,wzr
	bl	"rtp_841016a0_rtp_ext::gathering::gather_around"
	ldr	x2,[sp,#32]
	mov	x20,x0
	mov	x5,x1
6:
	ldr	x15,[sp,#40]
	cbz	w23,5f
	mov	w0,w24
	mov	x1,x29
	mov	x3,x20
	mov	x4,x27
	bl	"rtp_841016a0_rtp_ext::form_change::change_rows"
	mov	x5,x1
	mov	x20,x0
	cbz	x1,6f
	ldr	w8,[sp,#56]
	ldr	x9,[sp,#8]
	mov	x27,x20
	ldr	x2,[sp,#32]
	b	11f
5:
	cmp	x20,x27
	b.ls	5f
	ldr	w8,[sp,#56]
	ldr	x9,[sp,#8]
	cbz	x5,12f
	cmp	x5,#8
	b.lo	13f
	ldr	x11,[sp,#24]
	add	x10,x20,x22
	sub	x11,x15,x11
	sub	x10,x11,x10
	sub	x10,x10,#16
	cmp	x10,#32
	b.hs	14f
13:
	mov	x11,x5
13:
	ldr	x10,[sp,#16]
	add	x12,x11,x15
	mvn	x13,x22
	add	x12,x13,x12
	and	x10,x10,#0xf
	add	x12,x21,x12
	add	x10,x11,x10,lsl #2
	add	x14,x10,x21
	neg	x10,x11
	add	x11,x14,#15
15:
	ldrb	w13,[x12],#-1
	adds	x10,x10,#1
	strb	w13,[x11,x20]
	sub	x11,x11,#1
	b.lo	15b
	b	12f
2:
	ldr	x1,[sp,#32]
	mov	w0,w24
	mov	x2,x26
	bl	"rtp_841016a0_rtp_wire::packet::rewriting::has_long_id"
	mov	w8,#5
	cmp	w0,#0
	mov	x12,xzr
	cinc	w10,w8,eq
	mov	w11,#1
	b	4f
5:
	ldr	w8,[sp,#56]
	ldr	x9,[sp,#8]
	cbz	x5,12f
11:
	cmp	x5,#8
	mov	x10,xzr
	b.lo	2f
	sub	x11,x20,x27
	cmp	x11,#32
	b.lo	2f
	cmp	x5,#32
	b.hs	5f
	mov	x10,xzr
	b	11f
3:
	cbz	x2,10f
	cmp	x2,#1
	b.ne	9f
	strb	wzr,[x29]
	b	10f
6:
	ldr	w8,[sp,#56]
	ldr	x9,[sp,#8]
	ldr	x2,[sp,#32]
	b	12f
5:
	ldr	x10,[sp,#24]
	and	x11,x5,#0x18
	add	x12,x10,x21
	and	x10,x5,#0xffffffffffffffe0
	add	x13,x20,x12
	add	x14,x27,x12
	add	x12,x13,#32
	add	x13,x14,#32
	and	x14,x5,#0xffffffffffffffe0
3:
	ldp	q0,q1,[x13,#-16]
	subs	x14,x14,#32
	add	x13,x13,#32
	stp	q0,q1,[x12,#-16]
	add	x12,x12,#32
	b.ne	3b
	cmp	x5,x10
	b.eq	12f
	cbz	x11,2f
11:
	mov	x11,x10
	ldr	x10,[sp,#16]
	and	x10,x10,#0xf
	add	x12,x11,x10,lsl #2
	and	x10,x5,#0xfffffffffffffff8
	sub	x11,x11,x10
	add	x12,x12,x21
	add	x12,x12,#16
3:
	ldr	d0,[x12,x27]
	adds	x11,x11,#8
	str	d0,[x12,x20]
	add	x12,x12,#8
	b.ne	3b
	cmp	x5,x10
	b.eq	12f
2:
	ldr	x11,[sp,#16]
	and	x11,x11,#0xf
	add	x11,x10,x11,lsl #2
	sub	x10,x5,x10
	add	x11,x11,x21
	add	x11,x11,#16
2:
	ldrb	w12,[x11,x27]
	subs	x10,x10,#1
	strb	w12,[x11,x20]
	add	x11,x11,#1
	b.ne	2b
12:
	add	x10,x20,x5
	subs	x11,x2,x10
	b.ls	10f
	subs	x20,x11,#1
	b.le	2f
	cmp	x11,#2
	b.eq	3f
	cmp	x11,#3
	b.eq	5f
	cmp	x11,#4
	b.ne	6f
	str	wzr,[x29,x10]
	b	10f
2:
	cbz	x11,10f
	cmp	x11,#1
	b.ne	6f
	strb	wzr,[x29,x10]
	b	10f
7:
	strh	wzr,[x29]
	b	10f
8:
	strb	wzr,[x29,#2]
	strh	wzr,[x29]
	b	10f
9:
	mov	x0,x29
	mov	w1,wzr
	mov	x2,x20
	bl	memset
	ldr	x9,[sp,#8]
	ldr	w8,[sp,#56]
	strb	wzr,[x29,x20]
	b	10f
3:
	strh	wzr,[x29,x10]
	b	10f
5:
	add	x10,x29,x10
	strb	wzr,[x10,#2]
	strh	wzr,[x10]
	b	10f
6:
	add	x21,x29,x10
	mov	w1,wzr
	mov	x2,x20
	mov	x0,x21
	bl	memset
	ldr	x9,[sp,#8]
	ldr	w8,[sp,#56]
	strb	wzr,[x21,x20]
10:
	ldp	x12,x13,[x9,#16]
	mov	w11,wzr
	ldr	x15,[sp]
	mov	w10,wzr
	mov	w14,#1
	strb	w14,[x9,#32]
	sub	x12,x15,x12
	strb	w8,[x9,#33]
	add	x12,x12,x13
	stp	x15,x12,[x9,#16]
	mov	x12,xzr
4:
	strb	w11,[x19]
	strb	w10,[x19,#8]
	strb	wzr,[x19,#9]
	str	x12,[x19,#16]
1:
	ldp	x20,x19,[sp,#128]
	ldr	x29,[sp,#48]
	ldp	x22,x21,[sp,#112]
	ldp	x24,x23,[sp,#96]
	ldp	x26,x25,[sp,#80]
	ldp	x30,x27,[sp,#64]
	add	sp,sp,#144
	ret
14:
	cmp	x5,#32
	b.hs	1f
	mov	x10,xzr
	b	2f
1:
	add	x12,x5,x15
	ldr	x14,[sp,#24]
	add	x13,x20,x5
	sub	x12,x12,x22
	and	x11,x5,#0x18
	and	x10,x5,#0xffffffffffffffe0
	add	x12,x12,x21
	add	x14,x21,x14
	sub	x12,x12,#16
	add	x13,x14,x13
	and	x14,x5,#0xffffffffffffffe0
1:
	ldp	q1,q0,[x12,#-16]
	subs	x14,x14,#32
	sub	x12,x12,#32
	stp	q1,q0,[x13,#-16]
	sub	x13,x13,#32
	b.ne	1b
	cmp	x5,x10
	b.eq	12b
	cbz	x11,1f
2:
	ldr	x11,[sp,#16]
	sub	x13,x15,x22
	and	x12,x5,#0xfffffffffffffff8
	sub	x13,x13,x10
	and	x11,x11,#0xf
	add	x13,x13,x21
	add	x11,x20,x11,lsl #2
	sub	x13,x13,#8
	sub	x14,x11,x10
	and	x11,x5,#0x7
	sub	x10,x10,x12
	add	x14,x14,x21
	add	x14,x14,#8
2:
	ldr	d0,[x13,x5]
	adds	x10,x10,#8
	sub	x13,x13,#8
	str	d0,[x14,x5]
	sub	x14,x14,#8
	b.ne	2b
	cmp	x5,x12
	b.eq	12b
	b	13b
1:
	and	x11,x5,#0x1f
	b	13b
	.size	"rtp_841016a0_rtp_wire::packet::rtp_packet_buf::RtpPacketBuf::change_form", .-"rtp_841016a0_rtp_wire::packet::rtp_packet_buf::RtpPacketBuf::change_form"
	.cfi_endproc

	.section	".text.rtp_ext::gathering::compact_body","ax",@progbits
	.p2align	2
	.type	"rtp_841016a0_rtp_ext::gathering::compact_body",@function
"rtp_841016a0_rtp_ext::gathering::compact_body":
	.cfi_startproc
	str	x30,[sp,#-64]!
	stp	x24,x23,[sp,#16]
	stp	x22,x21,[sp,#32]
	stp	x20,x19,[sp,#48]
	.cfi_def_cfa_offset 64
	.cfi_offset w19,-8
	.cfi_offset w20,-16
	.cfi_offset w21,-24
	.cfi_offset w22,-32
	.cfi_offset w23,-40
	.cfi_offset w24,-48
	.cfi_offset w30,-64
	mov	x21,x2
	tst	w0,#0xff
	mov	x20,x1
	b.eq	1f
	add	x22,x20,#16
	mov	x19,xzr
	mov	x8,xzr
	add	x23,x22,x21
	add	x24,x20,x21
2:
	subs	x1,x21,x8
	b.eq	3f
	add	x0,x20,x8
	ldrb	w8,[x0]
	cbnz	w8,4f
	cmp	x1,#2
	b.eq	5f
	cmp	x1,#1
	b.eq	3f
	cmp	x1,#3
	b.hi	6f
	ldrb	w8,[x0,#1]
	cbnz	w8,6f
	ldrb	w8,[x0,#2]
	cbnz	w8,6f
	b	3f
5:
	ldrb	w8,[x0,#1]
	cbz	w8,3f
6:
	sub	x1,x1,#1
	add	x0,x0,#1
	bl	"rtp_841016a0_rtp_ext::elements::skip_zeros"
	cbz	x1,3f
4:
	cmp	x1,#2
	b.lo	3f
	ldrb	w10,[x0,#1]
	add	x8,x10,#2
	subs	x8,x8,x1
	b.hi	3f
	ldrb	w9,[x0]
	add	x8,x8,x21
	cbz	w9,2b
	sub	x9,x8,x10
	sub	x11,x9,#2
	cmp	x19,x11
	b.hs	4f
	subs	x11,x8,x11
	b.eq	4f
	cmp	x11,#8
	b.lo	5f
	sub	x12,x19,x21
	add	x12,x12,x1
	cmp	x12,#32
	b.hs	6f
5:
	mov	x12,xzr
5:
	sub	x10,x10,x12
	add	x11,x12,x19
	add	x12,x24,x12
	add	x10,x10,#2
	add	x11,x20,x11
	sub	x12,x12,x1
7:
	ldrb	w13,[x12],#1
	subs	x10,x10,#1
	strb	w13,[x11],#1
	b.ne	7b
4:
	add	x10,x19,x8
	sub	x9,x10,x9
	add	x19,x9,#2
	b	2b
6:
	cmp	x11,#32
	b.hs	2f
	mov	x12,xzr
	b	6f
2:
	and	x13,x11,#0x18
	and	x12,x11,#0xffffffffffffffe0
	sub	x14,x23,x1
	add	x15,x22,x19
	and	x16,x11,#0xffffffffffffffe0
2:
	ldp	q0,q1,[x14,#-16]
	subs	x16,x16,#32
	add	x14,x14,#32
	stp	q0,q1,[x15,#-16]
	add	x15,x15,#32
	b.ne	2b
	cmp	x11,x12
	b.eq	4b
	cbz	x13,5b
6:
	mov	x13,x12
	and	x12,x11,#0xfffffffffffffff8
	add	x14,x13,x19
	add	x15,x24,x13
	sub	x13,x13,x12
	add	x14,x20,x14
	sub	x15,x15,x1
2:
	ldr	d0,[x15],#8
	adds	x13,x13,#8
	str	d0,[x14],#8
	b.ne	2b
	cmp	x11,x12
	b.eq	4b
	b	5b
1:
	mov	x8,xzr
	mov	x19,xzr
	add	x22,x20,x21
1:
	subs	x1,x21,x8
	b.eq	3f
	add	x8,x20,x8
	ldrb	w10,[x8]
	cbz	w10,2f
	cmp	w10,#239
	b.ls	4f
	b	3f
2:
	cmp	x1,#2
	b.eq	2f
	cmp	x1,#1
	b.eq	3f
	cmp	x1,#3
	b.hi	5f
	ldrb	w9,[x8,#1]
	cbnz	w9,5f
	ldrb	w9,[x8,#2]
	cbnz	w9,5f
	b	3f
2:
	ldrb	w9,[x8,#1]
	cbz	w9,3f
5:
	sub	x1,x1,#1
	add	x0,x8,#1
	bl	"rtp_841016a0_rtp_ext::elements::skip_zeros"
	cbz	x1,3f
	ldrb	w10,[x0]
	cmp	w10,#239
	b.hi	3f
4:
	and	w11,w10,#0xf
	add	w9,w11,#2
	subs	x8,x9,x1
	b.hi	3f
	cmp	w10,#16
	add	x8,x8,x21
	b.lo	1b
	sub	x12,x8,x9
	cmp	x19,x12
	b.hs	2f
	cmp	w11,#2
	b.lo	4f
	sub	x13,x19,x21
	add	x13,x13,x1
	cmp	x13,#16
	b.hs	5f
4:
	mov	x11,xzr
4:
	and	w10,w10,#0xf
	add	x12,x11,x19
	add	x13,x22,x11
	sub	x10,x10,x11
	add	x11,x20,x12
	sub	x12,x13,x1
	add	x10,x10,#2
6:
	ldrb	w13,[x12],#1
	subs	x10,x10,#1
	strb	w13,[x11],#1
	b.ne	6b
2:
	add	x19,x19,x9
	b	1b
5:
	cmp	w11,#14
	b.hs	1f
	mov	x11,xzr
	b	5f
1:
	and	x11,x9,#0x10
	ldr	q0,[x20,x12]
	cmp	x11,x9
	str	q0,[x20,x19]
	b.eq	2b
	and	x12,x9,#0xc
	cbz	x12,4b
5:
	mov	x12,x11
	and	x11,x9,#0x1c
	add	x13,x12,x19
	add	x14,x22,x12
	sub	x12,x12,x11
	add	x13,x20,x13
	sub	x14,x14,x1
1:
	ldr	w15,[x14],#4
	adds	x12,x12,#4
	str	w15,[x13],#4
	b.ne	1b
	cmp	x11,x9
	b.eq	2b
	b	4b
3:
	subs	x8,x21,x19
	b.ls	1f
	subs	x21,x8,#1
	b.le	2f
	cmp	x8,#2
	b.eq	3f
	cmp	x8,#3
	b.eq	4f
	cmp	x8,#4
	b.ne	5f
	str	wzr,[x20,x19]
	b	1f
2:
	cbz	x8,1f
	cmp	x8,#1
	b.ne	5f
	strb	wzr,[x20,x19]
	mov	x0,x19
	ldp	x20,x19,[sp,#48]
	ldp	x22,x21,[sp,#32]
	ldp	x24,x23,[sp,#16]
	ldr	x30,[sp],#64
	ret
1:
	mov	x0,x19
	ldp	x20,x19,[sp,#48]
	ldp	x22,x21,[sp,#32]
	ldp	x24,x23,[sp,#16]
	ldr	x30,[sp],#64
	ret
3:
	strh	wzr,[x20,x19]
	mov	x0,x19
	ldp	x20,x19,[sp,#48]
	ldp	x22,x21,[sp,#32]
	ldp	x24,x23,[sp,#16]
	ldr	x30,[sp],#64
	ret
4:
	add	x8,x20,x19
	strb	wzr,[x8,#2]
	strh	wzr,[x8]
	mov	x0,x19
	ldp	x20,x19,[sp,#48]
	ldp	x22,x21,[sp,#32]
	ldp	x24,x23,[sp,#16]
	ldr	x30,[sp],#64
	ret
5:
	add	x20,x20,x19
	mov	w1,wzr
	mov	x2,x21
	mov	x0,x20
	bl	memset
	strb	wzr,[x20,x21]
	mov	x0,x19
	ldp	x20,x19,[sp,#48]
	ldp	x22,x21,[sp,#32]
	ldp	x24,x23,[sp,#16]
	ldr	x30,[sp],#64
	ret
	.size	"rtp_841016a0_rtp_ext::gathering::compact_body", .-"rtp_841016a0_rtp_ext::gathering::compact_body"
	.cfi_endproc

	.section	".text.rtp_wire::packet::rtp_packet_mut::RtpPacketMut::renumber","ax",@progbits
	.p2align	2
	.type	"rtp_841016a0_rtp_wire::packet::rtp_packet_mut::RtpPacketMut::renumber",@function
"rtp_841016a0_rtp_wire::packet::rtp_packet_mut::RtpPacketMut::renumber":
	.cfi_startproc
	ldrb	w8,[x0,#24]
	cmp	w8,#1
	b.ne	1f
	stp	x30,x27,[sp,#-80]!
	stp	x26,x25,[sp,#16]
	stp	x24,x23,[sp,#32]
	stp	x22,x21,[sp,#48]
	stp	x20,x19,[sp,#64]
	.cfi_def_cfa_offset 80
	.cfi_offset w19,-8
	.cfi_offset w20,-16
	.cfi_offset w21,-24
	.cfi_offset w22,-32
	.cfi_offset w23,-40
	.cfi_offset w24,-48
	.cfi_offset w25,-56
	.cfi_offset w26,-64
	.cfi_offset w27,-72
	.cfi_offset w30,-80
	ldr	x8,[x0]
	ldrb	w20,[x0,#25]
	mov	x19,x1
	ldr	x10,[x0,#16]
	ldrb	w9,[x8]
	cmp	w20,#1
	ubfiz	x9,x9,#2,#4
	add	x9,x9,#16
	add	x22,x8,x9
	sub	x23,x10,x9
	b.eq	2f
	cbnz	w20,3f
	movi	v0.8b,#14
	ldr	d1,[x19]
	cmhi	v1.8b,v1.8b,v0.8b
	umaxv	b1,v1.8b
	fmov	w8,s1
	tbnz	w8,#0,3f
	ldur	d1,[x19,#7]
	cmhi	v0.8b,v1.8b,v0.8b
	umaxv	b0,v0.8b
	fmov	w8,s0
	tbz	w8,#0,4f
3:
	mov	x0,x22
	mov	x1,x23
3:
	cbz	x1,5f
	ldrb	w8,[x0]
	cbnz	w8,6f
	cmp	x1,#2
	b.eq	7f
	cmp	x1,#1
	b.eq	5f
	cmp	x1,#3
	b.hi	8f
	ldrb	w8,[x0,#1]
	cbnz	w8,8f
	ldrb	w8,[x0,#2]
	cbnz	w8,8f
	b	5f
7:
	ldrb	w8,[x0,#1]
	cbz	w8,5f
8:
	sub	x1,x1,#1
	add	x0,x0,#1
	bl	"rtp_841016a0_rtp_ext::elements::skip_zeros"
	cbz	x1,5f
	ldrb	w8,[x0]
6:
	cmp	w8,#239
	b.hi	5f
	and	w9,w8,#0xf
	add	w9,w9,#2
	subs	x1,x1,x9
	b.lo	5f
	mov	w8,w8
	add	x0,x0,x9
	lsr	x8,x8,#4
	ldrb	w8,[x19,x8]
	cmp	w8,#15
	b.lo	3b
	mov	w0,wzr
3:
	ldp	x20,x19,[sp,#64]
	ldp	x22,x21,[sp,#48]
	ldp	x24,x23,[sp,#32]
	ldp	x26,x25,[sp,#16]
	ldp	x30,x27,[sp],#80
	ret
1:
	mov	w0,#1
	ret
5:
	cbz	w20,4f
2:
	cbz	x23,1f
	mov	x1,x23
	mov	x0,x22
	b	2f
4:
	cbz	x23,1f
	mov	x1,x23
	mov	x8,x22
	b	4f
5:
	strh	wzr,[x22,x8]
6:
	cmp	x24,x1
	neg	x1,x25
	add	x0,x22,x26
	b.eq	1f
2:
	ldrb	w8,[x0]
	cbnz	w8,2f
	cmp	x1,#2
	b.eq	7f
	cmp	x1,#1
	b.eq	1f
	cmp	x1,#3
	b.hi	8f
	ldrb	w8,[x0,#1]
	cbnz	w8,8f
	ldrb	w8,[x0,#2]
	cbnz	w8,8f
	b	1f
7:
	ldrb	w8,[x0,#1]
	cbz	w8,1f
8:
	sub	x1,x1,#1
	add	x0,x0,#1
	bl	"rtp_841016a0_rtp_ext::elements::skip_zeros"
	cbz	x1,1f
2:
	cmp	x1,#2
	b.lo	1f
	ldrb	w9,[x0,#1]
	add	x24,x9,#2
	subs	x25,x24,x1
	b.hi	1f
	ldrb	w11,[x0]
	add	x26,x25,x23
	sub	x8,x26,x9
	ldrb	w10,[x19,w11,uxtw]
	sub	x8,x8,#2
	cbz	w10,2f
	cmp	w10,w11
	b.eq	6b
	add	x8,x22,x8
	strb	w10,[x8]
	strb	w9,[x8,#1]
	b	6b
2:
	sub	x9,x26,x8
	subs	x20,x9,#1
	b.le	2f
	cmp	x9,#2
	b.eq	5b
	cmp	x9,#3
	b.eq	5f
	cmp	x9,#4
	b.ne	7f
	str	wzr,[x22,x8]
	b	6b
2:
	cbz	x9,6b
	cmp	x9,#1
	b.ne	7f
	strb	wzr,[x22,x8]
	b	6b
5:
	add	x8,x22,x8
	strb	wzr,[x8,#2]
	strh	wzr,[x8]
	b	6b
7:
	add	x21,x22,x8
	mov	x27,x1
	mov	w1,wzr
	mov	x0,x21
	mov	x2,x20
	bl	memset
	mov	x1,x27
	strb	wzr,[x21,x20]
	b	6b
2:
	str	wzr,[x20]
5:
	add	x8,x24,x23
	cmp	x21,x1
	neg	x1,x24
	add	x8,x22,x8
	mov	w0,#1
	b.eq	3b
4:
	ldrb	w9,[x8]
	cbnz	w9,3f
	cmp	x1,#2
	b.eq	4f
	cmp	x1,#1
	b.eq	1f
	cmp	x1,#3
	b.hi	6f
	ldrb	w9,[x8,#1]
	cbnz	w9,6f
	ldrb	w9,[x8,#2]
	cbnz	w9,6f
	b	1f
4:
	ldrb	w9,[x8,#1]
	cbz	w9,1f
6:
	sub	x1,x1,#1
	add	x0,x8,#1
	bl	"rtp_841016a0_rtp_ext::elements::skip_zeros"
	cbz	x1,1f
	ldrb	w9,[x0]
3:
	cmp	w9,#239
	b.hi	1f
	and	w8,w9,#0xf
	add	w21,w8,#2
	subs	x24,x21,x1
	b.hi	1f
	mov	w9,w9
	lsr	x11,x9,#4
	sub	x9,x23,x1
	ldrb	w10,[x19,x11]
	cbz	w10,3f
	cmp	w10,w11
	b.eq	5b
	lsr	w11,w10,#4
	orr	w10,w11,w10,lsl #4
	add	w8,w10,w8
	strb	w8,[x22,x9]
	b	5b
3:
	cmp	w8,#2
	add	x20,x22,x9
	b.eq	2b
	cmp	w8,#1
	b.eq	2f
	cbz	w8,3f
	sub	x2,x21,#1
	mov	x0,x20
	mov	x25,x1
	mov	w1,wzr
	sub	x26,x21,#1
	bl	memset
	mov	x1,x25
	strb	wzr,[x20,x26]
	b	5b
2:
	strb	wzr,[x20,#2]
3:
	strh	wzr,[x20]
	b	5b
1:
	mov	w0,#1
	ldp	x20,x19,[sp,#64]
	ldp	x22,x21,[sp,#48]
	ldp	x24,x23,[sp,#32]
	ldp	x26,x25,[sp,#16]
	ldp	x30,x27,[sp],#80
	ret
	.size	"rtp_841016a0_rtp_wire::packet::rtp_packet_mut::RtpPacketMut::renumber", .-"rtp_841016a0_rtp_wire::packet::rtp_packet_mut::RtpPacketMut::renumber"
	.cfi_endproc

	.section	.rodata.cst8,"aM",@progbits,8
	.p2align	3,0x0
.Lrtp_841016a0_CPI34_0:
	.word	100
	.word	0
	.section	".text.rtp_ext::block_values::read_apart::<#203c5bf9b6d6d505>","ax",@progbits
	.p2align	2
	.type	"rtp_841016a0_rtp_ext::block_values::read_apart::<#203c5bf9b6d6d505>",@function
"rtp_841016a0_rtp_ext::block_values::read_apart::<#203c5bf9b6d6d505>":
	.cfi_startproc
	sub	sp,sp,#160
	str	x29,[sp,#64]
	stp	x30,x27,[sp,#80]
	stp	x26,x25,[sp,#96]
	stp	x24,x23,[sp,#112]
	stp	x22,x21,[sp,#128]
	stp	x20,x19,[sp,#144]
	.cfi_def_cfa_offset 160
	.cfi_offset w19,-8
	.cfi_offset w20,-16
	.cfi_offset w21,-24
	.cfi_offset w22,-32
	.cfi_offset w23,-40
	.cfi_offset w24,-48
	.cfi_offset w25,-56
	.cfi_offset w26,-64
	.cfi_offset w27,-72
	.cfi_offset w30,-80
	.cfi_offset w29,-96
	mov	x19,x5
	mov	x20,x4
	mov	x22,x2
	mov	x8,x1
	tst	w3,#0xff
	mov	x21,x0
	mov	w27,wzr
	b.eq	1f
	cbnz	x22,2f
	b	3f
1:
	cbnz	x22,1f
3:
	and	w0,w27,#0x1
	ldp	x20,x19,[sp,#144]
	ldp	x22,x21,[sp,#128]
	ldr	x29,[sp,#64]
	ldp	x24,x23,[sp,#112]
	ldp	x26,x25,[sp,#96]
	ldp	x30,x27,[sp,#80]
	add	sp,sp,#160
	ret
4:
	mov	x0,x24
	mov	x1,x23
	mov	x2,x20
	bl	"rtp_841016a0_rtp_values::value::stream_id::read_repaired::<#a6b2bc1c138ab33f>"
5:
	mov	x8,x29
	cbz	x22,3b
2:
	ldrb	w9,[x8]
	cbz	w9,2f
	cmp	x22,#2
	b.hs	6f
	b	3b
2:
	cmp	x22,#2
	b.eq	2f
	cmp	x22,#1
	b.eq	3b
	cmp	x22,#3
	b.hi	7f
	ldrb	w9,[x8,#1]
	cbnz	w9,7f
	ldrb	w9,[x8,#2]
	cbnz	w9,7f
	b	3b
2:
	ldrb	w9,[x8,#1]
	cbz	w9,3b
7:
	sub	x1,x22,#1
	add	x0,x8,#1
	bl	"rtp_841016a0_rtp_ext::elements::skip_zeros"
	cbz	x1,3b
	mov	x22,x1
	mov	x8,x0
	cmp	x1,#2
	b.lo	3b
6:
	ldrb	w23,[x8,#1]
	add	x9,x23,#2
	subs	x22,x22,x9
	b.lo	3b
	mov	x24,x8
	add	x29,x8,x9
	ldrb	w10,[x24],#2
	cbz	x10,5b
	ldrb	w9,[x21,x10]
	sub	w9,w9,#1
	cmp	w9,#14
	b.hi	5b
	adrp	x10,2f
	add	x10,x10,:lo12:2f
	adr	x11,4b
	ldrb	w12,[x10,x9]
	add	x11,x11,x12,lsl #2
	br	x11
6:
	cmp	w23,#3
	b.lo	5b
	ldrb	w9,[x8,#2]
	ldrb	w10,[x8,#3]
	ldrb	w8,[x8,#4]
	lsl	w9,w9,#8
	orr	w9,w9,w10,lsl #16
	orr	w8,w9,w8,lsl #24
	mov	w9,#16960
	movk	w9,#15,lsl #16
	rev	w8,w8
	umull	x8,w8,w9
	mov	w9,#1
	strb	w9,[x20,#115]
	lsr	x8,x8,#18
	str	x8,[x20]
	b	5b
7:
	cmp	w23,#2
	b.lo	8f
	cbz	x22,9f
	str	x19,[sp,#72]
10:
	ldrb	w8,[x29]
	mov	x0,x29
	mov	x1,x22
	cbnz	w8,11f
	cmp	x22,#2
	b.eq	12f
	ldr	x19,[sp,#72]
	cmp	x22,#1
	b.eq	13f
	cmp	x22,#3
	b.hi	14f
	ldrb	w8,[x29,#1]
	cbnz	w8,14f
	ldrb	w8,[x29,#2]
	cbnz	w8,14f
	b	13f
12:
	ldrb	w8,[x29,#1]
	ldr	x19,[sp,#72]
	cbz	w8,13f
14:
	add	x0,x29,#1
	sub	x1,x22,#1
	bl	"rtp_841016a0_rtp_ext::elements::skip_zeros"
	cbz	x1,13f
11:
	cmp	x1,#2
	b.lo	11f
	ldrb	w25,[x0,#1]
	add	x8,x25,#2
	subs	x19,x1,x8
	b.lo	11f
	mov	x26,x0
	ldrb	w9,[x26],#2
	cbz	x9,12f
	ldrb	w9,[x21,x9]
	cmp	w9,#15
	b.ne	12f
	add	x29,x0,x8
	mov	x0,x26
	mov	x1,x25
	bl	"rtp_841016a0_rtp_ext::block_values::is_another_allocation"
	cmp	w0,#0
	mov	x22,x19
	csel	x23,x25,x23,ne
	csel	x24,x26,x24,ne
	cbnz	x19,10b
	b	10f
14:
	cbz	w23,5b
	ldrb	w8,[x24]
	mov	x9,#17694720
	mov	w10,#1
	movk	x9,#180,lsl #32
	strb	w10,[x20,#121]
	ubfiz	x8,x8,#4,#2
	movk	x9,#90,lsl #48
	lsr	x8,x9,x8
	strh	w8,[x20,#66]
	b	5b
15:
	cmp	w23,#4
	b.lo	5b
	ldr	w8,[x24]
	mov	w9,#1
	strb	w9,[x20,#119]
	rev	w8,w8
	str	w8,[x20,#60]
	b	5b
16:
	cmp	w23,#2
	b.lo	5b
	ldrh	w8,[x24]
	mov	w9,#1
	strb	w9,[x20,#120]
	rev	w8,w8
	lsr	w8,w8,#16
	strh	w8,[x20,#64]
	b	5b
17:
	mov	x8,#2314885530818453536
	cmp	w23,#16
	adrp	x25,.Lrtp_841016a0_static.2
	add	x25,x25,:lo12:.Lrtp_841016a0_static.2
	stp	xzr,xzr,[sp,#8]
	stp	xzr,x8,[sp,#24]
	str	x8,[sp,#40]
	b.hi	18f
	cbz	w23,19f
	mov	x8,xzr
20:
	ldrsb	x9,[x24,x8]
	tbnz	x9,#63,18f
	ldrb	w9,[x25,x9]
	add	x10,sp,#32
	strb	w9,[x10,x8]
	add	x8,x8,#1
	cmp	x23,x8
	b.ne	20b
	ldr	q0,[sp,#32]
	b	20f
21:
	cmp	w23,#4
	b.lo	5b
	ldr	w8,[x24]
	mov	w9,#1
	strb	w9,[x20,#118]
	rev	w8,w8
	str	w8,[x20,#56]
	b	5b
22:
	cbz	w23,5b
	ldrb	w8,[x24]
	mov	w9,#257
	sturh	w9,[x20,#123]
	and	w10,w8,#0x7f
	lsr	w8,w8,#7
	neg	w9,w10
	strb	w9,[x20,#78]
	strb	w8,[x20,#79]
	b	5b
23:
	cmp	w23,#8
	b.lo	5b
	cmp	w23,#16
	b.lo	24f
	ldur	x8,[x8,#10]
	rev	x8,x8
	b	25f
26:
	cmp	w23,#3
	b.lo	5b
	ldrb	w9,[x8,#2]
	ldrb	w10,[x8,#3]
	ldrb	w8,[x8,#4]
	lsl	w9,w9,#8
	orr	w9,w9,w10,lsl #16
	adrp	x10,.Lrtp_841016a0_CPI34_0
	ldr	d0,[x10,:lo12:.Lrtp_841016a0_CPI34_0]
	orr	w8,w9,w8,lsl #24
	mov	w9,#257
	sturh	w9,[x20,#125]
	rev	w8,w8
	str	d0,[x20,#32]
	lsr	w9,w8,#12
	and	w8,w8,#0xfff
	str	d0,[x20,#48]
	str	x8,[x20,#40]
	str	x9,[x20,#24]
	b	5b
27:
	cbz	w23,5b
	ldrb	w8,[x24]
	mov	w9,#1
	strb	w9,[x20,#122]
	strb	w8,[x20,#77]
	b	5b
28:
	mov	x0,x24
	mov	x1,x23
	mov	x2,x20
	bl	"rtp_841016a0_rtp_values::value::stream_id::read::<#a6b2bc1c138ab33f>"
	b	5b
29:
	cmp	w23,#9
	b.lo	5b
	ldurh	w9,[x8,#3]
	ldrb	w10,[x8,#2]
	mov	w13,#1
	ldurh	w11,[x8,#5]
	ldurh	w12,[x8,#7]
	ldurh	w8,[x8,#9]
	rev	w9,w9
	strb	w10,[x20,#76]
	rev	w11,w11
	rev	w12,w12
	rev	w8,w8
	lsr	w9,w9,#16
	lsr	w10,w11,#16
	lsr	w11,w12,#16
	lsr	w8,w8,#16
	strb	w13,[x20,#127]
	strh	w9,[x20,#68]
	strh	w10,[x20,#70]
	strh	w11,[x20,#72]
	strh	w8,[x20,#74]
	b	5b
18:
	add	x0,sp,#8
	mov	x1,x24
	mov	x2,x23
	bl	"rtp_841016a0_core::str::utf8::from_utf8"
	ldrb	w8,[sp,#8]
	cbnz	w8,5b
	ldp	x9,x8,[sp,#16]
	mov	x10,#2314885530818453536
	stp	x10,x10,[sp,#48]
	cbz	x8,18f
	mov	x10,xzr
	mov	x11,xzr
30:
	ldrsb	w12,[x9,x11]
	cmn	w12,#64
	b.lt	31f
	and	x12,x12,#0xff
	add	x13,sp,#48
	ldrb	w12,[x25,x12]
	strb	w12,[x13,x10]
	add	x10,x10,#1
31:
	add	x11,x11,#1
	cmp	x11,x8
	b.hs	31f
	cmp	x10,#16
	b.ne	30b
31:
	ldr	q0,[sp,#48]
	b	20f
24:
	mov	x8,xzr
25:
	ldr	x9,[x24]
	cmp	w23,#15
	mov	w10,#1
	cset	w11,hi
	strb	w10,[x20,#116]
	rev	x9,x9
	strb	w11,[x20,#117]
	stp	x9,x8,[x20,#8]
	b	5b
9:
	adrp	x29,.Lrtp_841016a0_static.0
	add	x29,x29,:lo12:.Lrtp_841016a0_static.0
	b	8f
19:
	movi	v0.2d,#0000000000000000
	b	9f
13:
	mov	x22,xzr
	adrp	x29,.Lrtp_841016a0_static.0
	add	x29,x29,:lo12:.Lrtp_841016a0_static.0
	b	8f
18:
	movi	v0.16b,#32
20:
	movi	v1.16b,#32
	cmeq	v1.16b,v0.16b,v1.16b
	bic	v0.16b,v0.16b,v1.16b
9:
	mov	w8,#1
	str	q0,[x20,#80]
	strb	w8,[x20,#128]
	strb	wzr,[x20,#96]
	b	5b
11:
	mov	x22,xzr
10:
	adrp	x29,.Lrtp_841016a0_static.0
	add	x29,x29,:lo12:.Lrtp_841016a0_static.0
12:
	ldr	x19,[sp,#72]
8:
	cbz	x23,5b
	cmp	x23,#1
	b.ne	8f
	ldrb	w8,[x24]
	cbnz	w8,5b
8:
	mov	x0,x24
	mov	x1,x23
	mov	x2,x19
	bl	"rtp_841016a0_rtp_ext::block_values::read_long::<#1839c04a795dab0b>"
	orr	w27,w0,w27
	b	5b
8:
	mov	x0,x23
	mov	x1,x24
	mov	x2,x20
	bl	"rtp_841016a0_rtp_values::value::stream_id::read_repaired::<#a6b2bc1c138ab33f>"
9:
	mov	x8,x29
	cbz	x22,3b
1:
	ldrb	w11,[x8]
	cbnz	w11,1f
	cmp	x22,#2
	b.eq	10f
	cmp	x22,#1
	b.eq	3b
	cmp	x22,#3
	b.hi	11f
	ldrb	w9,[x8,#1]
	cbnz	w9,11f
	ldrb	w9,[x8,#2]
	cbnz	w9,11f
	b	3b
10:
	ldrb	w9,[x8,#1]
	cbz	w9,3b
11:
	sub	x1,x22,#1
	add	x0,x8,#1
	bl	"rtp_841016a0_rtp_ext::elements::skip_zeros"
	cbz	x1,3b
	ldrb	w11,[x0]
	mov	x22,x1
	mov	x8,x0
1:
	cmp	w11,#239
	b.hi	3b
	and	w9,w11,#0xf
	add	w10,w9,#2
	subs	x22,x22,x10
	b.lo	3b
	mov	w11,w11
	add	x29,x8,x10
	lsr	x11,x11,#4
	cbz	w11,9b
	ldrb	w11,[x21,x11]
	sub	w11,w11,#1
	cmp	w11,#14
	b.hi	9b
	adrp	x12,1f
	add	x12,x12,:lo12:1f
	add	x23,x8,#1
	adr	x13,8b
	ldrb	w14,[x12,x11]
	add	x13,x13,x14,lsl #2
	sub	x24,x10,#1
	br	x13
3:
	cmp	w9,#2
	b.lo	9b
	ldrb	w9,[x8,#1]
	ldrb	w10,[x8,#2]
	ldrb	w8,[x8,#3]
	lsl	w9,w9,#8
	orr	w9,w9,w10,lsl #16
	orr	w8,w9,w8,lsl #24
	mov	w9,#16960
	movk	w9,#15,lsl #16
	rev	w8,w8
	umull	x8,w8,w9
	mov	w9,#1
	strb	w9,[x20,#115]
	lsr	x8,x8,#18
	str	x8,[x20]
	b	9b
10:
	cbz	w9,11f
	cbz	x22,12f
	str	x19,[sp,#72]
13:
	ldrb	w8,[x29]
	ldr	x19,[sp,#72]
	mov	x0,x29
	mov	x1,x22
	cbnz	w8,18f
	cmp	x22,#2
	b.eq	19f
	cmp	x22,#1
	b.eq	20f
	cmp	x22,#3
	b.hi	24f
	ldrb	w8,[x29,#1]
	cbnz	w8,24f
	ldrb	w8,[x29,#2]
	cbnz	w8,24f
	b	20f
19:
	ldrb	w8,[x29,#1]
	cbz	w8,20f
24:
	add	x0,x29,#1
	sub	x1,x22,#1
	bl	"rtp_841016a0_rtp_ext::elements::skip_zeros"
	cbz	x1,20f
	ldrb	w8,[x0]
18:
	cmp	w8,#239
	b.hi	20f
	and	w9,w8,#0xf
	add	w9,w9,#2
	subs	x19,x1,x9
	b.lo	18f
	mov	w8,w8
	lsr	x8,x8,#4
	cbz	w8,19f
	ldrb	w8,[x21,x8]
	cmp	w8,#15
	b.ne	19f
	add	x25,x0,#1
	sub	x26,x9,#1
	add	x29,x0,x9
	mov	x0,x25
	mov	x1,x26
	bl	"rtp_841016a0_rtp_ext::block_values::is_another_allocation"
	cmp	w0,#0
	mov	x22,x19
	csel	x24,x26,x24,ne
	csel	x23,x25,x23,ne
	cbnz	x19,13b
	b	13f
24:
	ldrb	w8,[x23]
	mov	x9,#17694720
	mov	w10,#1
	movk	x9,#180,lsl #32
	strb	w10,[x20,#121]
	ubfiz	x8,x8,#4,#2
	movk	x9,#90,lsl #48
	lsr	x8,x9,x8
	strh	w8,[x20,#66]
	b	9b
25:
	cmp	w9,#3
	b.lo	9b
	ldr	w8,[x23]
	mov	w9,#1
	strb	w9,[x20,#119]
	rev	w8,w8
	str	w8,[x20,#60]
	b	9b
30:
	cbz	w9,9b
	ldrh	w8,[x23]
	mov	w9,#1
	strb	w9,[x20,#120]
	rev	w8,w8
	lsr	w8,w8,#16
	strh	w8,[x20,#64]
	b	9b
31:
	mov	x8,xzr
	mov	x9,#2314885530818453536
	stp	xzr,xzr,[sp,#8]
	stp	xzr,x9,[sp,#24]
	str	x9,[sp,#40]
32:
	ldrsb	x9,[x23,x8]
	tbnz	x9,#63,33f
	adrp	x10,.Lrtp_841016a0_static.2
	add	x10,x10,:lo12:.Lrtp_841016a0_static.2
	ldrb	w9,[x10,x9]
	add	x10,sp,#32
	strb	w9,[x10,x8]
	add	x8,x8,#1
	cmp	x24,x8
	b.ne	32b
	ldr	q0,[sp,#32]
32:
	movi	v1.16b,#32
	mov	w8,#1
	strb	wzr,[x20,#96]
	strb	w8,[x20,#128]
	cmeq	v1.16b,v0.16b,v1.16b
	bic	v0.16b,v0.16b,v1.16b
	str	q0,[x20,#80]
	b	9b
34:
	cmp	w9,#3
	b.lo	9b
	ldr	w8,[x23]
	mov	w9,#1
	strb	w9,[x20,#118]
	rev	w8,w8
	str	w8,[x20,#56]
	b	9b
35:
	ldrb	w8,[x23]
	mov	w9,#257
	sturh	w9,[x20,#123]
	and	w10,w8,#0x7f
	lsr	w8,w8,#7
	neg	w9,w10
	strb	w9,[x20,#78]
	strb	w8,[x20,#79]
	b	9b
36:
	cmp	w9,#7
	b.lo	9b
	cmp	w9,#15
	b.ne	37f
	ldur	x8,[x8,#9]
	rev	x8,x8
	b	38f
39:
	cmp	w9,#2
	b.lo	9b
	ldrb	w9,[x8,#1]
	ldrb	w10,[x8,#2]
	ldrb	w8,[x8,#3]
	lsl	w9,w9,#8
	orr	w9,w9,w10,lsl #16
	adrp	x10,.Lrtp_841016a0_CPI34_0
	ldr	d0,[x10,:lo12:.Lrtp_841016a0_CPI34_0]
	orr	w8,w9,w8,lsl #24
	mov	w9,#257
	sturh	w9,[x20,#125]
	rev	w8,w8
	str	d0,[x20,#32]
	lsr	w9,w8,#12
	and	w8,w8,#0xfff
	str	d0,[x20,#48]
	str	x8,[x20,#40]
	str	x9,[x20,#24]
	b	9b
40:
	ldrb	w8,[x23]
	mov	w9,#1
	strb	w9,[x20,#122]
	strb	w8,[x20,#77]
	b	9b
41:
	mov	x0,x23
	mov	x1,x24
	mov	x2,x20
	bl	"rtp_841016a0_rtp_values::value::stream_id::read::<#a6b2bc1c138ab33f>"
	b	9b
42:
	cmp	w9,#8
	b.lo	9b
	ldrh	w9,[x8,#2]
	ldrb	w10,[x8,#1]
	mov	w13,#1
	ldrh	w11,[x8,#4]
	ldrh	w12,[x8,#6]
	ldrh	w8,[x8,#8]
	rev	w9,w9
	strb	w10,[x20,#76]
	rev	w11,w11
	rev	w12,w12
	rev	w8,w8
	lsr	w9,w9,#16
	lsr	w10,w11,#16
	lsr	w11,w12,#16
	lsr	w8,w8,#16
	strb	w13,[x20,#127]
	strh	w9,[x20,#68]
	strh	w10,[x20,#70]
	strh	w11,[x20,#72]
	strh	w8,[x20,#74]
	b	9b
33:
	add	x0,sp,#8
	mov	x1,x23
	mov	x2,x24
	bl	"rtp_841016a0_core::str::utf8::from_utf8"
	ldrb	w8,[sp,#8]
	cbnz	w8,9b
	ldp	x9,x8,[sp,#16]
	mov	x10,#2314885530818453536
	stp	x10,x10,[sp,#48]
	cbz	x8,33f
	mov	x10,xzr
	mov	x11,xzr
43:
	ldrsb	w12,[x9,x11]
	cmn	w12,#64
	b.lt	44f
	and	x12,x12,#0xff
	adrp	x13,.Lrtp_841016a0_static.2
	add	x13,x13,:lo12:.Lrtp_841016a0_static.2
	ldrb	w12,[x13,x12]
	add	x13,sp,#48
	strb	w12,[x13,x10]
	add	x10,x10,#1
44:
	add	x11,x11,#1
	cmp	x11,x8
	b.hs	44f
	cmp	x10,#16
	b.ne	43b
44:
	ldr	q0,[sp,#48]
	b	32b
37:
	mov	x8,xzr
38:
	ldr	x10,[x23]
	cmp	w9,#15
	mov	w9,#1
	cset	w11,eq
	strb	w9,[x20,#116]
	rev	x9,x10
	strb	w11,[x20,#117]
	stp	x9,x8,[x20,#8]
	b	9b
20:
	mov	x22,xzr
12:
	adrp	x29,.Lrtp_841016a0_static.0
	add	x29,x29,:lo12:.Lrtp_841016a0_static.0
	b	12f
33:
	movi	v0.16b,#32
	b	32b
18:
	mov	x22,xzr
13:
	adrp	x29,.Lrtp_841016a0_static.0
	add	x29,x29,:lo12:.Lrtp_841016a0_static.0
19:
	ldr	x19,[sp,#72]
12:
	cmp	x24,#1
	b.ne	12f
11:
	ldrb	w8,[x23]
	cbnz	w8,9b
	mov	w24,#1
12:
	mov	x0,x23
	mov	x1,x24
	mov	x2,x19
	bl	"rtp_841016a0_rtp_ext::block_values::read_long::<#1839c04a795dab0b>"
	orr	w27,w0,w27
	b	9b
	.size	"rtp_841016a0_rtp_ext::block_values::read_apart::<#203c5bf9b6d6d505>", .-"rtp_841016a0_rtp_ext::block_values::read_apart::<#203c5bf9b6d6d505>"
	.cfi_endproc
	.section	".rodata.rtp_ext::block_values::read_apart::<#203c5bf9b6d6d505>","a",@progbits
2:
	.byte	(6b-4b)>>2
	.byte	(23b-4b)>>2
	.byte	(22b-4b)>>2
	.byte	(21b-4b)>>2
	.byte	(14b-4b)>>2
	.byte	(16b-4b)>>2
	.byte	(26b-4b)>>2
	.byte	(27b-4b)>>2
	.byte	(29b-4b)>>2
	.byte	(28b-4b)>>2
	.byte	(4b-4b)>>2
	.byte	(17b-4b)>>2
	.byte	(15b-4b)>>2
	.byte	(5b-4b)>>2
	.byte	(7b-4b)>>2
1:
	.byte	(3b-8b)>>2
	.byte	(36b-8b)>>2
	.byte	(35b-8b)>>2
	.byte	(34b-8b)>>2
	.byte	(24b-8b)>>2
	.byte	(30b-8b)>>2
	.byte	(39b-8b)>>2
	.byte	(40b-8b)>>2
	.byte	(42b-8b)>>2
	.byte	(41b-8b)>>2
	.byte	(8b-8b)>>2
	.byte	(31b-8b)>>2
	.byte	(25b-8b)>>2
	.byte	(9b-8b)>>2
	.byte	(10b-8b)>>2

	.section	".text.rtp_ext::block_values::read_long::<#1839c04a795dab0b>","ax",@progbits
	.p2align	2
	.type	"rtp_841016a0_rtp_ext::block_values::read_long::<#1839c04a795dab0b>",@function
"rtp_841016a0_rtp_ext::block_values::read_long::<#1839c04a795dab0b>":
	.cfi_startproc
	cbz	x1,1f
	sub	sp,sp,#144
	str	x29,[sp,#48]
	stp	x30,x27,[sp,#64]
	stp	x26,x25,[sp,#80]
	stp	x24,x23,[sp,#96]
	stp	x22,x21,[sp,#112]
	stp	x20,x19,[sp,#128]
	.cfi_def_cfa_offset 144
	.cfi_offset w19,-8
	.cfi_offset w20,-16
	.cfi_offset w21,-24
	.cfi_offset w22,-32
	.cfi_offset w23,-40
	.cfi_offset w24,-48
	.cfi_offset w25,-56
	.cfi_offset w26,-64
	.cfi_offset w27,-72
	.cfi_offset w30,-80
	.cfi_offset w29,-96
	mov	x19,x2
	subs	x9,x1,#1
	b.ne	2f
	ldrb	w8,[x0]
	cbz	w8,3f
2:
	mov	x8,x0
	mov	w11,#16843009
	ldrb	w24,[x8],#1
	ands	w10,w24,#0xf
	mul	w12,w10,w11
	ubfx	x11,x24,#4,#2
	add	x27,x11,#1
	str	w12,[sp,#60]
	b.eq	2f
	fmov	s0,w10
	cnt	v0.8b,v0.8b
	fmov	w10,s0
	mul	w10,w10,w27
4:
	and	x23,x10,#0xff
	add	x10,x23,#3
	lsr	x10,x10,#2
	subs	x21,x9,x10
	b.lo	5f
	add	x20,x8,x10
	cbz	x10,6f
	cmp	x10,#1
	b.ne	7f
	ldrb	w8,[x8]
	lsl	w25,w8,#24
	mov	x2,x21
	mov	x22,x20
	cbnz	w23,8f
	b	9f
1:
	mov	w0,wzr
	ret
2:
	add	x10,x27,#1
	lsr	x10,x10,#1
	subs	x9,x9,x10
	b.hs	1f
5:
	mov	w0,wzr
	b	2f
3:
	mov	x0,x19
	mov	w1,wzr
	mov	w2,#680
	bl	memset
3:
	mov	w0,#1
2:
	ldp	x20,x19,[sp,#128]
	ldr	x29,[sp,#48]
	ldp	x22,x21,[sp,#112]
	ldp	x24,x23,[sp,#96]
	ldp	x26,x25,[sp,#80]
	ldp	x30,x27,[sp,#64]
	add	sp,sp,#144
	ret
1:
	ldrb	w12,[x8]
	lsr	w12,w12,#4
	strb	w12,[sp,#60]
	cbz	w11,1f
	ldrb	w12,[x8]
	cmp	w27,#2
	and	w12,w12,#0xf
	strb	w12,[sp,#61]
	b.eq	1f
	ldrb	w12,[x0,#2]
	cmp	w27,#3
	lsr	w12,w12,#4
	strb	w12,[sp,#62]
	b.eq	1f
	ldrb	w12,[x0,#2]
	and	w12,w12,#0xf
	strb	w12,[sp,#63]
1:
	ldrb	w12,[sp,#60]
	add	x8,x8,x10
	fmov	d0,x12
	cnt	v0.8b,v0.8b
	fmov	w10,s0
	cbz	w11,4b
	ldrb	w11,[sp,#61]
	cmp	w27,#2
	fmov	d0,x11
	cnt	v0.8b,v0.8b
	fmov	w11,s0
	add	w10,w10,w11
	b.eq	4b
	ldrb	w11,[sp,#62]
	cmp	w27,#3
	fmov	d0,x11
	cnt	v0.8b,v0.8b
	fmov	w11,s0
	add	w10,w10,w11
	b.eq	4b
	ldrb	w11,[sp,#63]
	fmov	d0,x11
	cnt	v0.8b,v0.8b
	fmov	w11,s0
	add	w10,w10,w11
	b	4b
6:
	mov	w25,wzr
	mov	x2,x21
	mov	x22,x20
	cbnz	w23,8f
	b	9f
7:
	cmp	w23,#8
	b.hi	1f
	ldrh	w8,[x8]
	rev	w25,w8
	mov	x2,x21
	mov	x22,x20
	cbnz	w23,8f
	b	9f
1:
	cmp	x10,#3
	b.ne	1f
	ldrb	w9,[x8,#2]
	ldrh	w8,[x8]
	orr	w8,w8,w9,lsl #16
	b	2f
1:
	ldr	w8,[x8]
2:
	rev	w25,w8
8:
	mov	w8,#32
	mov	w9,w25
	mov	x22,x20
	sub	x8,x8,x23,lsl #1
	mov	x2,x21
	lsr	x8,x9,x8
	and	w9,w8,#0xaaaaaaaa
	fmov	d1,x8
	fmov	s0,w9
	cnt	v1.8b,v1.8b
	cnt	v0.8b,v0.8b
	addv	b1,v1.8b
	addv	b0,v0.8b
	fmov	w8,s1
	fmov	w9,s0
	add	x8,x8,x23
	adds	x26,x8,x9
	b.eq	1f
	mov	x2,x21
	mov	x22,x20
	b	2f
4:
	sub	x2,x2,#1
	add	x22,x22,#1
6:
	subs	x26,x26,#1
	b.eq	1f
2:
	cbz	x2,6b
	ldrsb	w8,[x22]
	tbz	w8,#31,4b
	cmp	x2,#1
	b.eq	2f
	ldrsb	w8,[x22,#1]
	tbnz	w8,#31,2f
	mov	w8,#2
	b	4f
2:
	add	x0,sp,#24
	mov	x1,x22
	mov	x29,x2
	bl	"rtp_841016a0_rtp_vla::leb::long_number_at"
	ldrb	w8,[sp,#24]
	cmp	w8,#1
	b.ne	2f
	ldr	x8,[sp,#40]
	mov	x2,x29
4:
	add	x22,x22,x8
	sub	x2,x2,x8
	b	6b
2:
	mov	x2,x29
	b	6b
1:
	subs	x9,x2,#5
	b.hs	1f
9:
	lsr	w23,w24,#6
	mov	x0,x19
	mov	w1,wzr
	mov	x24,x2
	mov	w2,#680
	bl	memset
	mov	x16,x24
	mov	x8,xzr
	strb	w23,[x19,#673]
	str	x27,[sp]
	b	2f
4:
	ldr	x8,[sp,#16]
	ldr	x27,[sp]
	add	x8,x8,#1
	cmp	x8,x27
	b.eq	3b
2:
	mov	x11,x8
	ldrb	w8,[x19,#672]
	mov	w9,#168
	add	x10,sp,#60
	str	x11,[sp,#16]
	umaddl	x9,w8,w9,x19
	ldrb	w27,[x10,x11]
	add	w8,w8,#1
	strb	w8,[x19,#672]
	strb	wzr,[x9,#160]
	cbnz	w27,2f
	b	4b
3:
	ldurb	w8,[x13,#-8]
	lsr	w27,w27,#1
	add	w8,w8,#1
	sturb	w8,[x13,#-8]
	cbz	w27,4b
2:
	tbnz	w27,#0,2f
	mov	x29,xzr
	mov	x26,xzr
	mov	x23,xzr
	mov	x8,xzr
	mov	w24,wzr
	b	4f
2:
	cbz	x21,2f
	ldrsb	x29,[x20]
	tbnz	x29,#63,6f
	sub	x21,x21,#1
	add	x20,x20,#1
	lsr	w8,w25,#30
	add	w24,w8,#1
	cbz	w8,7f
8:
	cbz	x21,10f
	ldrsb	w8,[x20]
	and	x26,x8,#0xff
	tbnz	w8,#31,11f
	sub	x21,x21,#1
	add	x20,x20,#1
	cmp	w24,#2
	b.eq	12f
	b	13f
2:
	mov	x29,xzr
	lsr	w8,w25,#30
	add	w24,w8,#1
	cbnz	w8,8b
7:
	mov	x26,xzr
	b	12f
6:
	cmp	x21,#1
	b.eq	2f
	ldrsb	x8,[x20,#1]
	tbnz	x8,#63,2f
	and	x9,x29,#0x7f
	orr	x29,x9,x8,lsl #7
	mov	w8,#2
	add	x20,x20,x8
	sub	x21,x21,x8
	lsr	w8,w25,#30
	add	w24,w8,#1
	cbnz	w8,8b
	b	7b
10:
	mov	x26,xzr
	cmp	w24,#2
	b.ne	13f
12:
	mov	x23,xzr
6:
	mov	x8,xzr
10:
	lsl	w25,w25,#2
	subs	x13,x16,#5
	b.hs	14f
4:
	mov	w11,wzr
	mov	w9,wzr
	mov	w10,wzr
	mov	w12,wzr
	b	4f
14:
	ldrh	w9,[x22]
	ldrh	w10,[x22,#2]
	mov	x16,x13
	rev	w9,w9
	rev	w10,w10
	lsr	w11,w9,#16
	lsr	w10,w10,#16
	ldrb	w9,[x22,#4]
	add	x22,x22,#5
	add	w12,w11,#1
	add	w10,w10,#1
	mov	w11,#1
4:
	ldrb	w13,[x19,#672]
	mov	w14,#168
	mov	w15,#40
	umaddl	x13,w13,w14,x19
	ldurb	w14,[x13,#-8]
	umaddl	x14,w14,w15,x13
	stp	x29,x26,[x14,#-168]!
	stp	x23,x8,[x14,#16]
	strb	w24,[x14,#38]
	cbz	w11,3b
	mov	w8,#1
	strh	w12,[x14,#32]
	strh	w10,[x14,#34]
	strb	w9,[x14,#36]
	strb	w8,[x14,#37]
	b	3b
2:
	add	x0,sp,#24
	mov	x1,x20
	mov	x2,x21
	mov	x23,x16
	bl	"rtp_841016a0_rtp_vla::leb::long_number_at"
	ldrb	w8,[sp,#24]
	cmp	w8,#1
	b.ne	2f
	ldp	x29,x8,[sp,#32]
	mov	x16,x23
	add	x20,x20,x8
	sub	x21,x21,x8
	lsr	w8,w25,#30
	add	w24,w8,#1
	cbnz	w8,8b
	b	7b
11:
	cmp	x21,#1
	b.eq	3f
	ldrsb	x8,[x20,#1]
	tbnz	x8,#63,3f
	and	x9,x26,#0x7f
	orr	x26,x9,x8,lsl #7
	mov	w8,#2
	add	x20,x20,x8
	sub	x21,x21,x8
	cmp	w24,#2
	b.eq	12b
	b	13f
3:
	add	x0,sp,#24
	mov	x1,x20
	mov	x2,x21
	mov	x23,x16
	bl	"rtp_841016a0_rtp_vla::leb::long_number_at"
	ldrb	w8,[sp,#24]
	cmp	w8,#1
	b.ne	3f
	ldp	x26,x8,[sp,#32]
	mov	x16,x23
	add	x20,x20,x8
	sub	x21,x21,x8
	cmp	w24,#2
	b.eq	12b
	b	13f
2:
	mov	x29,xzr
	mov	x16,x23
	lsr	w8,w25,#30
	add	w24,w8,#1
	cbnz	w8,8b
	b	7b
3:
	mov	x26,xzr
	mov	x16,x23
	cmp	w24,#2
	b.eq	12b
13:
	cbz	x21,2f
	ldrsb	w8,[x20]
	and	x23,x8,#0xff
	tbnz	w8,#31,3f
	sub	x21,x21,#1
	add	x20,x20,#1
	cmp	w24,#3
	b.eq	6b
	b	4f
2:
	mov	x23,xzr
	cmp	w24,#3
	b.eq	6b
4:
	cbz	x21,6b
	ldrsb	w9,[x20]
	and	x8,x9,#0xff
	tbnz	w9,#31,2f
	sub	x21,x21,#1
	add	x20,x20,#1
	b	10b
3:
	cmp	x21,#1
	b.eq	3f
	ldrsb	x8,[x20,#1]
	tbnz	x8,#63,3f
	and	x9,x23,#0x7f
	orr	x23,x9,x8,lsl #7
	mov	w8,#2
	add	x20,x20,x8
	sub	x21,x21,x8
	cmp	w24,#3
	b.eq	6b
	b	4b
3:
	add	x0,sp,#24
	mov	x1,x20
	mov	x2,x21
	str	x16,[sp,#8]
	bl	"rtp_841016a0_rtp_vla::leb::long_number_at"
	ldrb	w8,[sp,#24]
	cmp	w8,#1
	b.ne	3f
	ldp	x23,x8,[sp,#32]
	ldr	x16,[sp,#8]
	add	x20,x20,x8
	sub	x21,x21,x8
	cmp	w24,#3
	b.eq	6b
	b	4b
2:
	cmp	x21,#1
	b.eq	2f
	ldrsb	x9,[x20,#1]
	tbnz	x9,#63,2f
	and	x8,x8,#0x7f
	orr	x8,x8,x9,lsl #7
	mov	w9,#2
	b	7f
3:
	ldr	x16,[sp,#8]
	mov	x23,xzr
	cmp	w24,#3
	b.eq	6b
	b	4b
2:
	add	x0,sp,#24
	mov	x1,x20
	mov	x2,x21
	str	x16,[sp,#8]
	bl	"rtp_841016a0_rtp_vla::leb::long_number_at"
	ldrb	w8,[sp,#24]
	cmp	w8,#1
	b.ne	2f
	ldp	x8,x9,[sp,#32]
	ldr	x16,[sp,#8]
7:
	add	x20,x20,x9
	sub	x21,x21,x9
	b	10b
2:
	ldr	x16,[sp,#8]
	b	6b
1:
	mov	w8,#1
	mov	x10,x22
1:
	ldrh	w11,[x10]
	rev	w12,w11
	mov	w11,#65535
	cmp	w11,w12,lsr #16
	b.eq	5b
	ldrh	w12,[x10,#2]
	rev	w12,w12
	cmp	w11,w12,lsr #16
	b.eq	5b
	cmp	x8,x23
	b.hs	9b
	cmp	x9,#5
	sub	x9,x9,#5
	add	x8,x8,#1
	add	x10,x10,#5
	b.hs	1b
	b	9b
	.size	"rtp_841016a0_rtp_ext::block_values::read_long::<#1839c04a795dab0b>", .-"rtp_841016a0_rtp_ext::block_values::read_long::<#1839c04a795dab0b>"
	.cfi_endproc

	.section	".text.unlikely.rtp_c::template::not_routed_status","ax",@progbits
	.p2align	2
	.type	"rtp_841016a0_rtp_c::template::not_routed_status",@function
"rtp_841016a0_rtp_c::template::not_routed_status":
	.cfi_startproc
	ldrb	w8,[x0]
	cmp	w8,#2
	b.hs	1f
	mov	w0,#9
	ret
1:
	b.ne	1f
	mov	w0,#16
	ret
1:
	ldrb	w8,[x0,#8]
	ldrb	w1,[x0,#9]
	mov	w0,w8
	b	"rtp_841016a0_rtp_c::growing::put_status_of"
	.size	"rtp_841016a0_rtp_c::template::not_routed_status", .-"rtp_841016a0_rtp_c::template::not_routed_status"
	.cfi_endproc

	.section	".text.unlikely.rtp_c::status::refusal_status","ax",@progbits
	.p2align	2
	.type	"rtp_841016a0_rtp_c::status::refusal_status",@function
"rtp_841016a0_rtp_c::status::refusal_status":
	.cfi_startproc
	and	x8,x0,#0xff
	adrp	x9, "rtp_841016a0_.Lrtp_841016a0_switch.table.rtp_c::whole_packet::status_of_no_packet"
	add	x9, x9, :lo12:"rtp_841016a0_.Lrtp_841016a0_switch.table.rtp_c::whole_packet::status_of_no_packet"
	ldr	w0,[x9,x8,lsl #2]
	ret
	.size	"rtp_841016a0_rtp_c::status::refusal_status", .-"rtp_841016a0_rtp_c::status::refusal_status"
	.cfi_endproc

	.section	".text.rtp_ext::place::remove_element","ax",@progbits
	.p2align	2
	.type	"rtp_841016a0_rtp_ext::place::remove_element",@function
"rtp_841016a0_rtp_ext::place::remove_element":
	.cfi_startproc
	str	x29,[sp,#-96]!
	stp	x30,x27,[sp,#16]
	stp	x26,x25,[sp,#32]
	stp	x24,x23,[sp,#48]
	stp	x22,x21,[sp,#64]
	stp	x20,x19,[sp,#80]
	.cfi_def_cfa_offset 96
	.cfi_offset w19,-8
	.cfi_offset w20,-16
	.cfi_offset w21,-24
	.cfi_offset w22,-32
	.cfi_offset w23,-40
	.cfi_offset w24,-48
	.cfi_offset w25,-56
	.cfi_offset w26,-64
	.cfi_offset w27,-72
	.cfi_offset w30,-80
	.cfi_offset w29,-96
	mov	x19,x2
	mov	x20,x1
	tst	w0,#0xff
	and	w24,w3,#0xff
	mov	w23,wzr
	b.eq	1f
	cbz	x19,2f
	mov	x1,x19
	mov	x0,x20
	b	3f
1:
	cbz	x19,2f
	mov	x21,x19
	mov	x8,x20
	b	1f
4:
	strh	wzr,[x20,x8]
5:
	cmp	w29,w24
	add	x0,x20,x27
	cset	w8,eq
	cmp	x25,x1
	neg	x1,x26
	orr	w23,w23,w8
	b.eq	2f
3:
	ldrb	w8,[x0]
	cbnz	w8,3f
	cmp	x1,#2
	b.eq	6f
	cmp	x1,#1
	b.eq	2f
	cmp	x1,#3
	b.hi	7f
	ldrb	w8,[x0,#1]
	cbnz	w8,7f
	ldrb	w8,[x0,#2]
	cbnz	w8,7f
	b	2f
6:
	ldrb	w8,[x0,#1]
	cbz	w8,2f
7:
	sub	x1,x1,#1
	add	x0,x0,#1
	bl	"rtp_841016a0_rtp_ext::elements::skip_zeros"
	cbz	x1,2f
3:
	cmp	x1,#2
	b.lo	2f
	ldrb	w8,[x0,#1]
	add	x25,x8,#2
	subs	x26,x25,x1
	b.hi	2f
	ldrb	w29,[x0]
	add	x27,x26,x19
	cmp	w29,w24
	b.ne	5b
	sub	x8,x27,x8
	sub	x8,x8,#2
	sub	x9,x27,x8
	subs	x21,x9,#1
	b.le	3f
	cmp	x9,#2
	b.eq	4b
	cmp	x9,#3
	b.eq	4f
	cmp	x9,#4
	b.ne	6f
	str	wzr,[x20,x8]
	b	5b
3:
	cbz	x9,5b
	cmp	x9,#1
	b.ne	6f
	strb	wzr,[x20,x8]
	b	5b
4:
	add	x8,x20,x8
	strb	wzr,[x8,#2]
	strh	wzr,[x8]
	b	5b
6:
	add	x22,x20,x8
	str	x1,[sp,#8]
	mov	w1,wzr
	mov	x0,x22
	mov	x2,x21
	bl	memset
	ldr	x1,[sp,#8]
	strb	wzr,[x22,x21]
	b	5b
3:
	str	wzr,[x22]
4:
	cmp	w29,w24
	cset	w8,eq
	cmp	x25,x21
	neg	x21,x26
	orr	w23,w23,w8
	add	x8,x20,x27
	b.eq	2f
1:
	ldrb	w9,[x8]
	cbnz	w9,1f
	cmp	x21,#2
	b.eq	5f
	cmp	x21,#1
	b.eq	2f
	cmp	x21,#3
	b.hi	6f
	ldrb	w9,[x8,#1]
	cbnz	w9,6f
	ldrb	w9,[x8,#2]
	cbnz	w9,6f
	b	2f
5:
	ldrb	w9,[x8,#1]
	cbz	w9,2f
6:
	sub	x1,x21,#1
	add	x0,x8,#1
	bl	"rtp_841016a0_rtp_ext::elements::skip_zeros"
	cbz	x1,2f
	ldrb	w9,[x0]
	mov	x21,x1
1:
	cmp	w9,#239
	b.hi	2f
	and	w8,w9,#0xf
	add	w25,w8,#2
	subs	x26,x25,x21
	b.hi	2f
	lsr	w29,w9,#4
	add	x27,x26,x19
	cmp	w29,w24
	b.ne	4b
	sub	x9,x27,x25
	cmp	w8,#2
	add	x22,x20,x9
	b.eq	3b
	cmp	w8,#1
	b.eq	1f
	cbz	w8,3f
	sub	x2,x25,#1
	mov	x0,x22
	mov	w1,wzr
	bl	memset
	sub	x8,x25,#1
	strb	wzr,[x22,x8]
	b	4b
1:
	strb	wzr,[x22,#2]
3:
	strh	wzr,[x22]
	b	4b
2:
	and	w0,w23,#0x1
	ldp	x20,x19,[sp,#80]
	ldp	x22,x21,[sp,#64]
	ldp	x24,x23,[sp,#48]
	ldp	x26,x25,[sp,#32]
	ldp	x30,x27,[sp,#16]
	ldr	x29,[sp],#96
	ret
	.size	"rtp_841016a0_rtp_ext::place::remove_element", .-"rtp_841016a0_rtp_ext::place::remove_element"
	.cfi_endproc

	.section	".text.rtp_route::walk::write_kept::<#82187cbc7fdfa14b>","ax",@progbits
	.p2align	2
	.type	"rtp_841016a0_rtp_route::walk::write_kept::<#82187cbc7fdfa14b>",@function
"rtp_841016a0_rtp_route::walk::write_kept::<#82187cbc7fdfa14b>":
	.cfi_startproc
	sub	sp,sp,#112
	stp	x30,x27,[sp,#32]
	stp	x26,x25,[sp,#48]
	stp	x24,x23,[sp,#64]
	stp	x22,x21,[sp,#80]
	stp	x20,x19,[sp,#96]
	.cfi_def_cfa_offset 112
	.cfi_offset w19,-8
	.cfi_offset w20,-16
	.cfi_offset w21,-24
	.cfi_offset w22,-32
	.cfi_offset w23,-40
	.cfi_offset w24,-48
	.cfi_offset w25,-56
	.cfi_offset w26,-64
	.cfi_offset w27,-72
	.cfi_offset w30,-80
	.cfi_offset w29,-96
	orr	w8,w4,w3
	ldr	x9,[sp,#112]
	mov	x19,x7
	mov	x22,x6
	mov	x24,x5
	mov	x23,x2
	tst	w8,#0xff
	mov	x21,x0
	stp	x29,x9,[sp,#16]
	b.eq	1f
	cbz	x22,2f
	mov	w25,w4
	mov	w26,w3
	b	3f
1:
	cbz	x22,2f
	add	x12,x19,#256
	b	1f
4:
	ldrb	w8,[x24]
	add	x23,x29,x27
	strb	w8,[x21,x29]
5:
	mov	x24,x20
	cbz	x22,2f
3:
	ldrb	w8,[x24]
	cbz	w8,3f
	tst	w26,#0xff
	b.eq	6f
7:
	cmp	x22,#2
	b.lo	2f
	ldrb	w27,[x24,#1]
	add	x8,x27,#2
	subs	x22,x22,x8
	b.lo	2f
	add	x20,x24,x8
	ldrb	w8,[x24],#2
	ldrb	w29,[x19,x8]
	cbnz	w29,8f
	b	5b
3:
	cmp	x22,#2
	b.eq	3f
	cmp	x22,#1
	b.eq	2f
	cmp	x22,#3
	b.hi	9f
	ldrb	w8,[x24,#1]
	cbnz	w8,9f
	ldrb	w8,[x24,#2]
	cbnz	w8,9f
	b	2f
3:
	ldrb	w8,[x24,#1]
	cbz	w8,2f
9:
	mov	x20,x1
	sub	x1,x22,#1
	add	x0,x24,#1
	bl	"rtp_841016a0_rtp_ext::elements::skip_zeros"
	cbz	x1,2f
	mov	x22,x1
	mov	x24,x0
	mov	x1,x20
	tst	w26,#0xff
	b.ne	7b
6:
	ldrb	w9,[x24]
	cmp	w9,#239
	b.hi	2f
	and	x8,x9,#0xf
	add	x8,x8,#2
	subs	x22,x22,x8
	b.lo	2f
	lsr	x9,x9,#4
	add	x20,x24,x8
	ldrb	w29,[x19,x9]
	cbz	w29,5b
	cmp	w29,#15
	add	x24,x24,#1
	sub	x27,x8,#1
	b.hs	3f
8:
	add	x8,x19,#256
	ldrb	w8,[x8,w29,uxtw]
	cbz	w8,6f
	ldrb	w9,[x19,#546]
	cmp	w9,w8
	b.lo	6f
	sub	x8,x8,#1
	add	x9,x19,#512
	ldrb	w9,[x9,x8]
	cmp	w9,w29
	b.ne	6f
	ldr	x9,[sp,#24]
	add	x27,x9,x8,lsl #3
	ldr	w9,[x27]
	cbnz	w9,7f
	add	x9,x19,#528
	ldrb	w24,[x9,x8]
	add	x8,x23,x24
	add	x8,x8,#2
	cmp	x1,x8
	b.lo	7f
	tst	w25,#0xff
	b.eq	9f
	add	x8,x21,x23
	strb	w29,[x8]
	strb	w24,[x8,#1]
	mov	w8,#2
	add	x23,x8,x23
	cbnz	w24,10f
	b	11f
6:
	add	x8,x23,x27
	add	x8,x8,#2
	cmp	x1,x8
	b.lo	7f
	tst	w25,#0xff
	b.eq	6f
	add	x8,x21,x23
	strb	w29,[x8]
	strb	w27,[x8,#1]
	mov	w8,#2
	add	x29,x8,x23
	cbnz	x27,12f
	b	13f
6:
	lsr	w8,w29,#4
	orr	w8,w8,w29,lsl #4
	add	w8,w27,w8
	sub	w8,w8,#1
	strb	w8,[x21,x23]
	mov	w8,#1
	add	x29,x8,x23
	cbz	x27,13f
12:
	cmp	x27,#1
	b.eq	4b
	cmp	x27,#2
	b.hi	4f
	ldrb	w8,[x24]
	add	x9,x21,x29
	add	x23,x29,x27
	strb	w8,[x9]
	ldrb	w8,[x24,#1]
	strb	w8,[x9,#1]
	b	5b
4:
	cmp	x27,#3
	b.ne	13f
	ldrb	w8,[x24]
	add	x9,x21,x29
	add	x23,x29,x27
	strb	w8,[x9]
	ldrb	w8,[x24,#1]
	strb	w8,[x9,#1]
	ldrb	w8,[x24,#2]
	strb	w8,[x9,#2]
	b	5b
13:
	add	x9,x21,x29
	sub	x9,x9,x24
	cmp	x9,x27
	b.hs	4f
	cmp	x27,#8
	b.lo	6f
	add	x9,x23,x21
	add	x9,x9,x8
	sub	x9,x9,x24
	cmp	x9,#32
	b.hs	12f
6:
	mov	x9,xzr
6:
	add	x10,x9,x23
	add	x11,x21,x8
	sub	x8,x27,x9
	add	x9,x24,x9
	add	x10,x11,x10
13:
	ldrb	w11,[x9],#1
	subs	x8,x8,#1
	strb	w11,[x10],#1
	b.ne	13b
13:
	add	x23,x29,x27
	b	5b
4:
	add	x0,x21,x29
	mov	x23,x1
	mov	x1,x24
	mov	x2,x27
	bl	memmove
	mov	x1,x23
	add	x23,x29,x27
	b	5b
9:
	lsr	w8,w29,#4
	orr	w8,w8,w29,lsl #4
	add	w8,w24,w8
	sub	w8,w8,#1
	strb	w8,[x21,x23]
	mov	w8,#1
	add	x23,x8,x23
	cbz	w24,11f
10:
	cmp	w24,#1
	b.ne	4f
	strb	wzr,[x21,x23]
	b	9f
4:
	cmp	w24,#2
	b.hi	4f
	strh	wzr,[x21,x23]
	b	9f
12:
	cmp	x27,#32
	b.hs	10f
	mov	x9,xzr
	b	12f
4:
	cmp	w24,#3
	b.ne	11f
	add	x8,x21,x23
	strh	wzr,[x8]
	strb	wzr,[x8,#2]
	b	9f
11:
	add	x0,x21,x23
	mov	x29,x1
	mov	w1,wzr
	mov	x2,x24
	bl	memset
	mov	x1,x29
9:
	stp	w23,w24,[x27]
	add	x23,x23,x24
	b	5b
3:
	mov	w0,w25
	str	x1,[sp,#8]
	mov	w1,w29
	mov	x2,x27
	bl	"rtp_841016a0_rtp_route::walk::is_carried"
	ldr	x1,[sp,#8]
	cbnz	w0,8b
	b	3f
10:
	add	x12,x21,#16
	and	x10,x27,#0x18
	and	x9,x27,#0xffffffffffffffe0
	add	x11,x24,#16
	add	x12,x12,x29
	and	x13,x27,#0xffffffffffffffe0
4:
	ldp	q0,q1,[x11,#-16]
	subs	x13,x13,#32
	add	x11,x11,#32
	stp	q0,q1,[x12,#-16]
	add	x12,x12,#32
	b.ne	4b
	cmp	x27,x9
	b.eq	13b
	cbz	x10,6b
12:
	mov	x11,x9
	and	x9,x27,#0xfffffffffffffff8
	add	x13,x21,x8
	add	x12,x11,x23
	sub	x10,x11,x9
	add	x11,x24,x11
	add	x12,x13,x12
4:
	ldr	d0,[x11],#8
	adds	x10,x10,#8
	str	d0,[x12],#8
	b.ne	4b
	cmp	x27,x9
	b.eq	13b
	b	6b
4:
	ldrb	w8,[x8]
	add	x23,x23,x29
	strb	w8,[x21,x9]
5:
	add	x24,x24,x29
	cbz	x22,2f
1:
	ldrb	w26,[x24]
	cbnz	w26,1f
	cmp	x22,#2
	b.eq	6f
	cmp	x22,#1
	b.eq	2f
	cmp	x22,#3
	b.hi	8f
	ldrb	w8,[x24,#1]
	cbnz	w8,8f
	ldrb	w8,[x24,#2]
	cbnz	w8,8f
	b	2f
6:
	ldrb	w8,[x24,#1]
	cbz	w8,2f
8:
	mov	x20,x1
	sub	x1,x22,#1
	add	x0,x24,#1
	bl	"rtp_841016a0_rtp_ext::elements::skip_zeros"
	cbz	x1,2f
	ldrb	w26,[x0]
	mov	x22,x1
	mov	x24,x0
	mov	x1,x20
	add	x12,x19,#256
1:
	cmp	w26,#239
	b.hi	2f
	and	w20,w26,#0xf
	add	w29,w20,#2
	subs	x22,x22,x29
	b.lo	2f
	mov	w8,w26
	lsr	x8,x8,#4
	ldrb	w25,[x19,x8]
	cbz	x25,5b
	cmp	w25,#15
	sub	x27,x29,#1
	b.hs	1f
6:
	ldrb	w8,[x12,x25]
	cbz	w8,8f
	ldrb	w9,[x19,#546]
	cmp	w9,w8
	b.lo	8f
	sub	x8,x8,#1
	add	x9,x19,#512
	ldrb	w9,[x9,x8]
	cmp	w9,w25
	b.ne	8f
	ldr	x9,[sp,#24]
	add	x20,x9,x8,lsl #3
	ldr	w9,[x20]
	cbnz	w9,7f
	add	x9,x19,#528
	ldrb	w26,[x9,x8]
	add	x8,x23,x26
	add	x8,x8,#2
	cmp	x1,x8
	b.lo	7f
	lsr	w8,w25,#4
	orr	w8,w8,w25,lsl #4
	add	w8,w26,w8
	sub	w8,w8,#1
	strb	w8,[x21,x23]
	add	x23,x23,#1
	cbz	w26,9f
	cmp	w26,#1
	b.ne	10f
	strb	wzr,[x21,x23]
	b	11f
8:
	add	x8,x23,x27
	add	x8,x8,#2
	cmp	x1,x8
	b.lo	7f
	lsr	w8,w25,#4
	cmp	x27,#1
	orr	w9,w8,w25,lsl #4
	add	x8,x24,#1
	add	w9,w27,w9
	sub	w9,w9,#1
	strb	w9,[x21,x23]
	add	x9,x23,#1
	b.eq	4b
	cmp	w20,#1
	b.hi	4f
	ldrb	w8,[x24,#1]
	add	x9,x21,x9
	add	x23,x23,x29
	strb	w8,[x9]
	ldrb	w8,[x24,#2]
	strb	w8,[x9,#1]
	b	5b
4:
	cmp	x27,#3
	b.ne	4f
	ldrb	w8,[x24,#1]
	add	x9,x21,x9
	add	x23,x23,x29
	strb	w8,[x9]
	ldrb	w8,[x24,#2]
	strb	w8,[x9,#1]
	ldrb	w8,[x24,#3]
	strb	w8,[x9,#2]
	b	5b
4:
	add	x0,x21,x9
	sub	x9,x0,x8
	cmp	x9,x27
	b.hs	4f
	cmp	w20,#2
	b.eq	8f
	add	x9,x23,x21
	sub	x9,x9,x24
	cmp	x9,#16
	b.hs	12f
8:
	mov	x9,xzr
8:
	and	w8,w26,#0xf
	add	x10,x24,x9
	add	x11,x9,x23
	sub	x8,x8,x9
	add	x9,x10,#1
	add	x10,x21,#1
	add	x8,x8,#1
	add	x10,x10,x11
13:
	ldrb	w11,[x9],#1
	subs	x8,x8,#1
	strb	w11,[x10],#1
	b.ne	13b
13:
	add	x23,x23,x29
	b	5b
1:
	sub	x2,x29,#1
	mov	w0,wzr
	str	x1,[sp,#8]
	mov	w1,w25
	bl	"rtp_841016a0_rtp_route::walk::is_carried"
	ldr	x1,[sp,#8]
	add	x12,x19,#256
	cbnz	w0,6b
	b	3f
4:
	mov	x20,x1
	add	x1,x24,#1
	sub	x2,x29,#1
	bl	memmove
	add	x12,x19,#256
	mov	x1,x20
	add	x23,x23,x29
	b	5b
10:
	cmp	w26,#2
	b.hi	1f
	strh	wzr,[x21,x23]
	b	11f
1:
	cmp	w26,#3
	b.ne	9f
	add	x8,x21,x23
	strh	wzr,[x8]
	strb	wzr,[x8,#2]
	b	11f
9:
	add	x0,x21,x23
	mov	x25,x1
	mov	w1,wzr
	mov	x2,x26
	bl	memset
	add	x12,x19,#256
	mov	x1,x25
11:
	stp	w23,w26,[x20]
	add	x23,x23,x26
	b	5b
12:
	cmp	w20,#15
	b.ne	1f
	ldr	q0,[x8]
	add	x23,x23,x29
	str	q0,[x0]
	b	5b
1:
	and	x9,x27,#0xfffffffffffffffc
	and	x10,x27,#0xfffffffffffffffc
1:
	ldr	w11,[x8],#4
	subs	x10,x10,#4
	str	w11,[x0],#4
	b.ne	1b
	cmp	x27,x9
	b.ne	8b
	b	13b
2:
	mov	w0,#1
1:
	mov	x1,x23
	ldp	x20,x19,[sp,#96]
	ldp	x22,x21,[sp,#80]
	ldr	x29,[sp,#16]
	ldp	x24,x23,[sp,#64]
	ldp	x26,x25,[sp,#48]
	ldp	x30,x27,[sp,#32]
	add	sp,sp,#112
	ret
7:
	mov	w0,wzr
3:
	mov	x23,xzr
	b	1b
	.size	"rtp_841016a0_rtp_route::walk::write_kept::<#82187cbc7fdfa14b>", .-"rtp_841016a0_rtp_route::walk::write_kept::<#82187cbc7fdfa14b>"
	.cfi_endproc

	.section	".text.unlikely.rtp_route::walk::is_carried","ax",@progbits
	.p2align	2
	.type	"rtp_841016a0_rtp_route::walk::is_carried",@function
"rtp_841016a0_rtp_route::walk::is_carried":
	.cfi_startproc
	tst	w0,#0xff
	and	w8,w1,#0xff
	b.eq	1f
	cmp	w8,#0
	mov	w8,#256
	ccmp	x2,x8,#2,ne
	cset	w0,lo
	ret
1:
	sub	w8,w8,#1
	sub	x9,x2,#1
	cmp	w8,#14
	ccmp	x9,#16,#2,lo
	cset	w0,lo
	ret
	.size	"rtp_841016a0_rtp_route::walk::is_carried", .-"rtp_841016a0_rtp_route::walk::is_carried"
	.cfi_endproc

	.section	".text.rtp_route::copying::put_any","ax",@progbits
	.p2align	2
	.type	"rtp_841016a0_rtp_route::copying::put_any",@function
"rtp_841016a0_rtp_route::copying::put_any":
	.cfi_startproc
	sub	x9,x0,x1
	cmp	x9,x2
	b.hs	1f
	cmp	x2,#8
	mov	x8,xzr
	b.lo	2f
	cmp	x9,#32
	b.lo	2f
	cmp	x2,#32
	b.hs	3f
	mov	x8,xzr
	b	4f
1:
	b	memmove
3:
	and	x9,x2,#0x18
	and	x8,x2,#0xffffffffffffffe0
	add	x10,x1,#16
	add	x11,x0,#16
	and	x12,x2,#0xffffffffffffffe0
1:
	ldp	q0,q1,[x10,#-16]
	subs	x12,x12,#32
	add	x10,x10,#32
	stp	q0,q1,[x11,#-16]
	add	x11,x11,#32
	b.ne	1b
	cmp	x2,x8
	b.eq	1f
	cbz	x9,2f
4:
	mov	x11,x8
	and	x8,x2,#0xfffffffffffffff8
	sub	x9,x11,x8
	add	x10,x1,x11
	add	x11,x0,x11
3:
	ldr	d0,[x10],#8
	adds	x9,x9,#8
	str	d0,[x11],#8
	b.ne	3b
	cmp	x2,x8
	b.eq	1f
2:
	sub	x9,x2,x8
	add	x10,x1,x8
	add	x8,x0,x8
2:
	ldrb	w11,[x10],#1
	subs	x9,x9,#1
	strb	w11,[x8],#1
	b.ne	2b
1:
	ret
	.size	"rtp_841016a0_rtp_route::copying::put_any", .-"rtp_841016a0_rtp_route::copying::put_any"
	.cfi_endproc

	.section	".text.unlikely.rtp_route::by_walk::write_in_two_byte_form::<#82187cbc7fdfa14b>","ax",@progbits
	.p2align	2
	.type	"rtp_841016a0_rtp_route::by_walk::write_in_two_byte_form::<#82187cbc7fdfa14b>",@function
"rtp_841016a0_rtp_route::by_walk::write_in_two_byte_form::<#82187cbc7fdfa14b>":
	.cfi_startproc
	sub	sp,sp,#432
	str	x29,[sp,#336]
	stp	x30,x27,[sp,#352]
	stp	x26,x25,[sp,#368]
	stp	x24,x23,[sp,#384]
	stp	x22,x21,[sp,#400]
	stp	x20,x19,[sp,#416]
	.cfi_def_cfa_offset 432
	.cfi_offset w19,-8
	.cfi_offset w20,-16
	.cfi_offset w21,-24
	.cfi_offset w22,-32
	.cfi_offset w23,-40
	.cfi_offset w24,-48
	.cfi_offset w25,-56
	.cfi_offset w26,-64
	.cfi_offset w27,-72
	.cfi_offset w30,-80
	.cfi_offset w29,-96
	ldrb	w8,[x1,#24]
	cmp	w8,#1
	b.ne	1f
	ldur	q0,[x3,#193]
	ldur	q1,[x3,#209]
	add	x8,sp,#72
	add	x9,sp,#57
	ldrb	w10,[x2,#1]
	ldr	x20,[x1]
	stur	q0,[x8,#193]
	ldur	q0,[x3,#225]
	ldrb	w19,[x1,#25]
	stur	q1,[x8,#209]
	ldr	q1,[x3,#240]
	ldr	x23,[x1,#16]
	cmp	w19,#1
	stur	q0,[x8,#225]
	ldur	q0,[x3,#129]
	stur	q1,[x9,#255]
	ldur	q1,[x3,#145]
	ldrb	w9,[x2]
	stur	q0,[x8,#129]
	ldur	q0,[x3,#161]
	ldrb	w26,[x2,#8]
	stur	q1,[x8,#145]
	ldur	q1,[x3,#177]
	ldrb	w25,[x2,#16]
	stur	q0,[x8,#161]
	ldur	q0,[x3,#65]
	stur	q1,[x8,#177]
	ldrb	w8,[x2,#2]
	ldur	q1,[x3,#81]
	stur	q0,[sp,#137]
	ldur	q0,[x3,#97]
	str	w8,[sp,#344]
	ldrb	w8,[x2,#3]
	stur	q0,[sp,#169]
	ldur	q0,[x3,#1]
	stp	w10,w8,[sp,#48]
	ldrb	w8,[x2,#4]
	ldrh	w10,[x2,#6]
	stur	q0,[sp,#73]
	ldur	q0,[x3,#17]
	str	w8,[sp,#348]
	ldr	w8,[x2,#12]
	stur	q0,[sp,#89]
	ldur	q0,[x3,#33]
	stp	w8,w9,[sp,#64]
	ldr	w8,[x2,#20]
	stur	q1,[sp,#153]
	ldur	q1,[x3,#113]
	stur	q0,[sp,#105]
	ldur	q0,[x3,#49]
	stp	w10,w8,[sp,#56]
	ldrb	w8,[x20]
	stur	q1,[sp,#185]
	strb	wzr,[sp,#72]
	stur	q0,[sp,#121]
	b.eq	1f
	cbnz	w19,2f
	movi	v0.8b,#14
	ldr	d1,[sp,#72]
	cmhi	v1.8b,v1.8b,v0.8b
	umaxv	b1,v1.8b
	fmov	w9,s1
	tbnz	w9,#0,2f
	ldur	d1,[sp,#79]
	cmhi	v0.8b,v1.8b,v0.8b
	umaxv	b0,v0.8b
	fmov	w9,s0
	tbz	w9,#0,1f
2:
	ubfiz	x8,x8,#2,#4
	mov	x27,x4
	mov	x29,x6
	mov	x21,x3
	add	x9,x8,#16
	add	x8,x20,x9
	sub	x1,x23,x9
2:
	cbz	x1,1f
	ldrb	w9,[x8]
	cbnz	w9,3f
	cmp	x1,#2
	b.eq	4f
	cmp	x1,#1
	b.eq	1f
	cmp	x1,#3
	b.hi	5f
	ldrb	w9,[x8,#1]
	cbnz	w9,5f
	ldrb	w9,[x8,#2]
	cbnz	w9,5f
	b	1f
4:
	ldrb	w9,[x8,#1]
	cbz	w9,1f
5:
	sub	x1,x1,#1
	mov	x22,x0
	add	x0,x8,#1
	mov	x24,x5
	bl	"rtp_841016a0_rtp_ext::elements::skip_zeros"
	mov	x8,x0
	mov	x0,x22
	cbz	x1,1f
	ldrb	w9,[x8]
	mov	x5,x24
	mov	x3,x21
	mov	x6,x29
	mov	x4,x27
3:
	cmp	w9,#239
	b.hi	1f
	and	w10,w9,#0xf
	add	w10,w10,#2
	subs	x1,x1,x10
	b.lo	1f
	mov	w9,w9
	add	x11,sp,#72
	add	x8,x8,x10
	lsr	x9,x9,#4
	ldrb	w9,[x11,x9]
	cmp	w9,#15
	b.lo	2b
	movi	v0.2d,#0000000000000000
	mov	w8,#262140
	lsl	x9,x23,#1
	cmp	x5,x8
	csel	x1,x5,x8,lo
	add	x8,x9,#3
	subs	x8,x1,x8
	stp	q0,q0,[x6]
	stp	q0,q0,[x6,#32]
	stp	q0,q0,[x6,#64]
	stp	q0,q0,[x6,#96]
	b.lo	2f
	ldrb	w9,[x3,#546]
	ldrh	w10,[x3,#544]
	add	x10,x10,x9,lsl #1
	cmp	x8,x10
	b.lo	2f
	ldrb	w8,[x20]
	cbz	w9,3f
	ldrb	w9,[x3,#547]
	cmp	w9,#1
	b.eq	2f
3:
	ubfiz	x10,x8,#2,#4
	stp	x1,x0,[sp,#32]
	mov	x0,x4
	mov	x7,x3
	mov	w3,w19
	mov	w4,#1
	add	x9,x10,#16
	add	x2,x10,#16
	str	x10,[sp,#24]
	sub	x8,x23,x9
	add	x5,x20,x9
	mov	x9,x6
	mov	x6,x8
	str	x9,[sp]
	bl	"rtp_841016a0_rtp_route::walk::write_kept::<#82187cbc7fdfa14b>"
	tbz	w0,#0,3f
	mov	x8,x21
	ldrb	w21,[x21,#546]
	ldr	x0,[sp,#40]
	cbz	x21,4f
	ldr	x11,[sp,#32]
	add	x22,x8,#528
	mov	x8,x27
	b	5f
1:
	stp	xzr,xzr,[x0]
	strh	wzr,[x0,#16]
1:
	ldp	x20,x19,[sp,#416]
	ldr	x29,[sp,#336]
	ldp	x22,x21,[sp,#400]
	ldp	x24,x23,[sp,#384]
	ldp	x26,x25,[sp,#368]
	ldp	x30,x27,[sp,#352]
	add	sp,sp,#432
	ret
6:
	add	x0,x8,x24
	mov	w1,wzr
	mov	x2,x23
	bl	memset
	ldp	x11,x0,[sp,#32]
	add	x12,x24,x23
	mov	x8,x27
7:
	mov	x1,x12
	stp	w24,w23,[x29]
8:
	subs	x21,x21,#1
	add	x29,x29,#8
	add	x22,x22,#1
	b.eq	9f
5:
	ldr	w9,[x29]
	cbnz	w9,8b
	ldrb	w23,[x22]
	add	x24,x1,#2
	add	x12,x24,x23
	cmp	x11,x12
	b.lo	2f
	ldurb	w9,[x22,#-16]
	add	x10,x8,x1
	strb	w23,[x10,#1]
	strb	w9,[x10]
	cbz	w23,6b
	cmp	w23,#1
	b.ne	5f
	strb	wzr,[x8,x24]
	b	7b
5:
	cmp	w23,#2
	b.hi	5f
	strh	wzr,[x8,x24]
	b	7b
5:
	cmp	w23,#3
	b.ne	6b
	add	x9,x8,x24
	strh	wzr,[x9]
	strb	wzr,[x9,#2]
	b	7b
3:
	ldr	x0,[sp,#40]
	b	2f
4:
	ldr	x11,[sp,#32]
	mov	x8,x27
9:
	add	x9,x1,#3
	and	x21,x9,#0xfffffffffffffffc
	cmp	x11,x21
	b.hs	3f
2:
	mov	w8,wzr
	mov	x21,xzr
2:
	mov	w9,w8
	strb	w8,[x0,#16]
	stp	x9,x21,[x0]
	strb	w8,[x0,#17]
	b	1b
3:
	ldr	x10,[sp,#24]
	subs	x9,x21,x1
	add	x23,x10,#16
	b.eq	1f
	cmp	x9,#2
	b.eq	3f
	cmp	x9,#1
	b.ne	4f
	strb	wzr,[x8,x1]
	b	1f
3:
	strh	wzr,[x8,x1]
	b	1f
4:
	add	x9,x8,x1
	strb	wzr,[x9,#2]
	strh	wzr,[x9]
1:
	cmp	w10,#33
	sub	x22,x21,x23
	b.lo	1f
	mov	x0,x8
	mov	x1,x20
	mov	x2,x23
	bl	"rtp_841016a0_rtp_route::copying::put_any"
	ldr	x0,[sp,#40]
	mov	x8,x27
	b	3f
1:
	ldr	q0,[x20]
	cmp	w10,#17
	str	q0,[x8]
	b.lo	1f
	ldr	q0,[x20,#16]
	str	q0,[x8,#16]
1:
	ldr	q0,[x20,x10]
	str	q0,[x8,x10]
3:
	ldr	w12,[sp,#348]
	ldr	w13,[sp,#344]
	cmp	w19,#1
	ldr	w14,[sp,#68]
	b.ne	1f
	lsl	w9,w22,#6
	add	x10,x8,x23
	cmp	w14,#1
	bfxil	w9,w22,#10,#8
	sturh	w9,[x10,#-2]
	b.ne	3f
4:
	ldrb	w9,[x8,#1]
	ldr	w10,[sp,#48]
	bfi	w9,w10,#7,#8
	strb	w9,[x8,#1]
	cmp	w13,#1
	b.eq	5f
6:
	cmp	w12,#1
	b.ne	7f
8:
	ldr	w9,[sp,#56]
	rev16	w9,w9
	strh	w9,[x8,#2]
	cmp	w26,#1
	b.eq	9f
10:
	cmp	w25,#1
	b.ne	11f
12:
	ldr	w9,[sp,#60]
	rev	w9,w9
	str	w9,[x8,#8]
11:
	mov	w8,#1
	b	2b
1:
	add	x9,x8,x23
	add	x10,sp,#332
	sub	x9,x9,#4
	sub	x11,x9,x10
	mov	w10,#16
	cmp	x11,#1
	strh	w10,[sp,#332]
	b.hi	1f
	ldrh	w10,[sp,#332]
1:
	strh	w10,[x9]
	lsl	w9,w22,#6
	add	x10,x8,x23
	cmp	w14,#1
	bfxil	w9,w22,#10,#8
	sturh	w9,[x10,#-2]
	b.eq	4b
3:
	cmp	w13,#1
	b.ne	6b
5:
	ldrb	w9,[x8,#1]
	ldr	w10,[sp,#52]
	and	w9,w9,#0x80
	add	w9,w9,w10
	strb	w9,[x8,#1]
	cmp	w12,#1
	b.eq	8b
7:
	cmp	w26,#1
	b.ne	10b
9:
	ldr	w9,[sp,#64]
	rev	w9,w9
	str	w9,[x8,#4]
	cmp	w25,#1
	b.eq	12b
	b	11b
	.size	"rtp_841016a0_rtp_route::by_walk::write_in_two_byte_form::<#82187cbc7fdfa14b>", .-"rtp_841016a0_rtp_route::by_walk::write_in_two_byte_form::<#82187cbc7fdfa14b>"
	.cfi_endproc

	.section	".text.unlikely.rtp_route::making::make_by_calls_of::<#82187cbc7fdfa14b>","ax",@progbits
	.p2align	2
	.type	"rtp_841016a0_rtp_route::making::make_by_calls_of::<#82187cbc7fdfa14b>",@function
"rtp_841016a0_rtp_route::making::make_by_calls_of::<#82187cbc7fdfa14b>":
	.cfi_startproc
	sub	sp,sp,#384
	str	x29,[sp,#352]
	stp	x30,x19,[sp,#368]
	.cfi_def_cfa_offset 384
	.cfi_offset w19,-8
	.cfi_offset w30,-16
	.cfi_offset w29,-32
	movi	v0.2d,#0000000000000000
	ldur	q1,[x2,#193]
	add	x8,sp,#64
	ldur	q2,[x2,#209]
	ldr	x9,[x1,#16]
	ldrb	w12,[x2,#547]
	stur	q1,[x8,#193]
	ldur	q1,[x2,#225]
	mov	x19,x0
	ldrb	w10,[x1,#24]
	ldrb	w11,[x1,#25]
	stur	q2,[x8,#209]
	stp	q0,q0,[sp,#320]
	ldr	q0,[x2,#240]
	stur	q1,[x8,#225]
	ldur	q1,[x2,#129]
	str	q0,[sp,#304]
	ldur	q0,[x2,#145]
	stur	q1,[x8,#129]
	ldur	q1,[x2,#161]
	stur	q0,[x8,#145]
	ldur	q0,[x2,#177]
	stur	q1,[x8,#161]
	ldur	q1,[x2,#65]
	stur	q0,[x8,#177]
	ldur	q0,[x2,#81]
	stur	q1,[x8,#65]
	ldur	q1,[x2,#97]
	stur	q0,[x8,#81]
	ldur	q0,[x2,#113]
	stur	q1,[x8,#97]
	ldur	q1,[x2,#1]
	stur	q0,[x8,#113]
	ldur	q0,[x2,#17]
	stur	q1,[sp,#65]
	stur	q0,[sp,#81]
	ldur	q0,[x2,#33]
	str	xzr,[sp,#56]
	stur	q0,[sp,#97]
	ldur	q0,[x2,#49]
	str	xzr,[sp,#24]
	strb	wzr,[sp,#64]
	stur	q0,[sp,#113]
	cbz	w12,1f
	cmp	w12,#1
	b.ne	2f
	mov	w13,wzr
	b	3f
1:
	mov	w13,w12
	b	3f
2:
	mov	w12,#1
	mov	w13,#1
3:
	ldr	q0,[x1]
	stp	x8,x2,[sp,#40]
	add	x0,sp,#320
	mov	x1,sp
	add	x2,sp,#40
	strb	w12,[sp,#56]
	strb	w13,[sp,#57]
	str	q0,[sp]
	str	x9,[sp,#16]
	strb	w10,[sp,#24]
	strb	w11,[sp,#25]
	bl	"rtp_841016a0_rtp_route::making::make_by_calls::<#7cdc9bd62dfc103a>"
	ldrb	w8,[sp,#320]
	ldr	x9,[sp,#328]
	ldrh	w10,[sp,#336]
	stp	x8,x9,[x19]
	ldp	x8,x29,[sp,#344]
	strh	w10,[x19,#16]
	str	x8,[x19,#24]
	ldp	x30,x19,[sp,#368]
	add	sp,sp,#384
	ret
	.size	"rtp_841016a0_rtp_route::making::make_by_calls_of::<#82187cbc7fdfa14b>", .-"rtp_841016a0_rtp_route::making::make_by_calls_of::<#82187cbc7fdfa14b>"
	.cfi_endproc

	.section	".text.unlikely.rtp_route::making::make_by_calls::<#7cdc9bd62dfc103a>","ax",@progbits
	.p2align	2
	.type	"rtp_841016a0_rtp_route::making::make_by_calls::<#7cdc9bd62dfc103a>",@function
"rtp_841016a0_rtp_route::making::make_by_calls::<#7cdc9bd62dfc103a>":
	.cfi_startproc
	sub	sp,sp,#448
	str	x29,[sp,#352]
	stp	x30,x27,[sp,#368]
	stp	x26,x25,[sp,#384]
	stp	x24,x23,[sp,#400]
	stp	x22,x21,[sp,#416]
	stp	x20,x19,[sp,#432]
	.cfi_def_cfa_offset 448
	.cfi_offset w19,-8
	.cfi_offset w20,-16
	.cfi_offset w21,-24
	.cfi_offset w22,-32
	.cfi_offset w23,-40
	.cfi_offset w24,-48
	.cfi_offset w25,-56
	.cfi_offset w26,-64
	.cfi_offset w27,-72
	.cfi_offset w30,-80
	.cfi_offset w29,-96
	movi	v0.2d,#0000000000000000
	mov	x20,x2
	mov	x8,x1
	ldr	x2,[x1,#16]
	ldr	x1,[x1]
	ldrb	w26,[x8,#24]
	ldrb	w27,[x8,#25]
	mov	x19,x0
	stp	xzr,xzr,[sp,#184]
	cmp	x4,x2
	stp	q0,q0,[sp,#16]
	stp	q0,q0,[sp,#48]
	stp	q0,q0,[sp,#80]
	stp	q0,q0,[sp,#112]
	stp	q0,q0,[sp,#144]
	b.hs	1f
	mov	w8,wzr
	mov	w9,#8
	mov	w10,#3
	b	2f
1:
	sub	x8,x2,#49
	mov	x22,x4
	mov	x21,x3
	cmn	x8,#34
	mov	x23,x2
	str	x5,[sp,#360]
	b.hi	1f
	mov	x0,x21
	bl	"rtp_841016a0_rtp_route::copying::put_any"
	mov	x2,x23
	b	3f
1:
	ldr	q0,[x1]
	cmp	x2,#33
	str	q0,[x21]
	b.lo	1f
	ldr	q0,[x1,#16]
	str	q0,[x21,#16]
1:
	sub	x8,x2,#16
	ldr	q0,[x1,x8]
	str	q0,[x21,x8]
3:
	ldr	x24,[x20]
	ldrb	w25,[x20,#16]
	add	x0,sp,#224
	ldrb	w29,[x20,#17]
	stp	x2,xzr,[sp,#240]
	mov	x1,x24
	stp	x21,x2,[sp,#224]
	strb	w26,[sp,#248]
	strb	w27,[sp,#249]
	bl	"rtp_841016a0_rtp_wire::packet::rtp_packet_mut::RtpPacketMut::renumber"
	tbz	w0,#0,1f
	ldr	x8,[x20,#8]
	stp	xzr,xzr,[sp,#224]
	str	xzr,[sp,#240]
	ldrb	w24,[x8,#546]
	cbz	x24,3f
4:
	add	x26,x8,#528
	mov	x3,x23
5:
	ldrb	w6,[x26]
	ldrb	w8,[x20,#17]
	adrp	x5,.Lrtp_841016a0_static.8
	add	x5,x5,:lo12:.Lrtp_841016a0_static.8
	ldrb	w7,[x20,#16]
	ldurb	w4,[x26,#-16]
	add	x0,sp,#224
	mov	x1,x21
	mov	x2,x22
	strb	w8,[sp]
	bl	"rtp_841016a0_rtp_wire::packet::putting::put_element_copy::<=1>"
	ldrb	w8,[sp,#224]
	ldr	x3,[sp,#232]
	cbnz	w8,6f
	subs	x24,x24,#1
	add	x26,x26,#1
	b.ne	5b
	b	5f
1:
	cmp	w25,#1
	b.ne	1f
	cbnz	w29,1f
	mov	w9,wzr
	mov	w8,wzr
	mov	x2,xzr
	mov	w10,#2
	b	2f
6:
	ldr	x2,[sp,#240]
	lsr	x8,x3,#8
	mov	w9,w3
	mov	w10,#3
2:
	mov	w11,#1
	strb	w9,[x19,#16]
	stp	x11,x10,[x19]
	strb	w8,[x19,#17]
	str	x2,[x19,#24]
6:
	ldp	x20,x19,[sp,#432]
	ldr	x29,[sp,#352]
	ldp	x22,x21,[sp,#416]
	ldp	x24,x23,[sp,#400]
	ldp	x26,x25,[sp,#384]
	ldp	x30,x27,[sp,#368]
	add	sp,sp,#448
	ret
1:
	add	x0,sp,#200
	mov	x1,x21
	mov	x2,x22
	mov	x3,x23
	bl	"rtp_841016a0_rtp_route::in_place::change_form"
	ldrb	w8,[sp,#200]
	ldr	x9,[sp,#208]
	cbz	w8,1f
	ldr	x2,[sp,#216]
	lsr	x8,x9,#8
	mov	w10,#3
	b	2b
1:
	mov	w8,#257
	add	x0,sp,#224
	mov	x1,x24
	stp	x21,x9,[sp,#224]
	mov	x23,x9
	stp	x9,x8,[sp,#240]
	bl	"rtp_841016a0_rtp_wire::packet::rtp_packet_mut::RtpPacketMut::renumber"
	ldr	x8,[x20,#8]
	stp	xzr,xzr,[sp,#224]
	str	xzr,[sp,#240]
	ldrb	w24,[x8,#546]
	cbnz	x24,4b
3:
	mov	x3,x23
5:
	add	x0,sp,#184
	mov	x1,x21
	mov	x2,x3
	bl	"rtp_841016a0_rtp_wire::packet::compacting::compact_copy::<=1>"
	ldrb	w8,[sp,#184]
	cbnz	w8,1f
	ldr	x22,[sp,#192]
	cmp	x22,#12
	b.lo	1f
	ldrsb	w8,[x21]
	cmn	w8,#65
	b.gt	1f
	and	x9,x8,#0xff
	ubfiz	x8,x9,#2,#4
	add	x8,x8,#12
	subs	x10,x22,x8
	b.lo	1f
	tbnz	w9,#4,2f
	mov	w24,wzr
	mov	w23,wzr
	b	3f
2:
	subs	x11,x10,#4
	b.lo	1f
	add	x10,x21,x8
	ldrb	w9,[x10,#2]
	ldrb	w12,[x10,#3]
	lsl	x9,x9,#10
	orr	x9,x9,x12,lsl #2
	cmp	x11,x9
	b.lo	1f
	ldrh	w10,[x10]
	add	x8,x8,x9
	add	x8,x8,#4
	and	w11,w10,#0xfffff0ff
	cmp	w11,#16
	mov	w11,#57022
	cset	w23,eq
	cmp	w10,w11
	csinc	w24,w23,wzr,ne
3:
	str	x8,[sp,#160]
	movi	v0.2d,#0000000000000000
	ldr	x8,[x20,#8]
	stp	x21,x22,[sp,#144]
	ldrb	w20,[x8,#546]
	strb	w24,[sp,#168]
	strb	w23,[sp,#169]
	str	wzr,[sp,#208]
	str	xzr,[sp,#200]
	stp	q0,q0,[sp,#224]
	stp	q0,q0,[sp,#256]
	stp	q0,q0,[sp,#288]
	stp	q0,q0,[sp,#320]
	cbz	x20,2f
	add	x21,x8,#512
	add	x26,sp,#224
3:
	ldrb	w2,[x21],#1
	add	x0,sp,#200
	add	x1,sp,#144
	bl	"rtp_841016a0_rtp_route::slots::slot_of"
	ldrb	w8,[sp,#200]
	cmp	w8,#1
	b.ne	1f
	ldur	x8,[sp,#204]
	subs	x20,x20,#1
	str	x8,[x26],#8
	b.ne	3b
2:
	ldp	q0,q1,[sp,#288]
	ldr	x8,[sp,#360]
	ldp	q2,q3,[sp,#320]
	ldp	q4,q5,[sp,#224]
	ldp	q6,q7,[sp,#256]
	stp	q0,q1,[sp,#80]
	stp	q2,q3,[sp,#112]
	stp	q4,q5,[sp,#16]
	stp	q6,q7,[sp,#48]
	stp	q4,q5,[x8]
	stp	q6,q7,[x8,#32]
	stp	q0,q1,[x8,#64]
	stp	q2,q3,[x8,#96]
	stp	xzr,x22,[x19]
	strb	w24,[x19,#16]
	strb	w23,[x19,#17]
	str	xzr,[x19,#24]
	b	6b
1:
	brk	#0x1
	.size	"rtp_841016a0_rtp_route::making::make_by_calls::<#7cdc9bd62dfc103a>", .-"rtp_841016a0_rtp_route::making::make_by_calls::<#7cdc9bd62dfc103a>"
	.cfi_endproc

	.section	".text.unlikely.rtp_route::in_place::change_form","ax",@progbits
	.p2align	2
	.type	"rtp_841016a0_rtp_route::in_place::change_form",@function
"rtp_841016a0_rtp_route::in_place::change_form":
	.cfi_startproc
	sub	sp,sp,#80
	stp	x30,x19,[sp,#64]
	.cfi_def_cfa_offset 80
	.cfi_offset w19,-8
	.cfi_offset w30,-16
	mov	x19,x0
	stp	xzr,x1,[sp,#16]
	mov	w8,#1
	stp	x2,x3,[sp,#32]
	mov	x0,sp
	add	x1,sp,#24
	mov	w2,#1
	stp	xzr,xzr,[sp]
	str	x3,[sp,#48]
	strb	w8,[sp,#56]
	stur	wzr,[sp,#57]
	str	wzr,[sp,#60]
	bl	"rtp_841016a0_rtp_wire::packet::rtp_packet_buf::RtpPacketBuf::change_form"
	ldrb	w8,[sp]
	cbz	w8,1f
	ldr	x10,[sp,#16]
	ldrh	w9,[sp,#8]
	mov	w8,#1
	stp	x8,x9,[x19]
	str	x10,[x19,#16]
	ldp	x30,x19,[sp,#64]
	add	sp,sp,#80
	ret
1:
	ldr	x9,[sp,#40]
	stp	xzr,x9,[x19]
	str	xzr,[x19,#16]
	ldp	x30,x19,[sp,#64]
	add	sp,sp,#80
	ret
	.size	"rtp_841016a0_rtp_route::in_place::change_form", .-"rtp_841016a0_rtp_route::in_place::change_form"
	.cfi_endproc

	.section	".text.rtp_wire::packet::putting::put_element_copy::<=1>","ax",@progbits
	.p2align	2
	.type	"rtp_841016a0_rtp_wire::packet::putting::put_element_copy::<=1>",@function
"rtp_841016a0_rtp_wire::packet::putting::put_element_copy::<=1>":
	.cfi_startproc
	cmp	x2,x3
	b.hs	1f
	mov	w8,#1
	stp	xzr,xzr,[x0,#8]
	str	x8,[x0]
	ret
1:
	tst	w4,#0xff
	b.eq	1f
	cmp	x6,#255
	b.ls	2f
	mov	w8,#2
	mov	w9,#1
	str	xzr,[x0,#16]
	stp	x9,x8,[x0]
	ret
1:
	mov	w8,#1
	mov	w9,#1
	str	xzr,[x0,#16]
	stp	x9,x8,[x0]
	ret
2:
	sub	sp,sp,#240
	str	x29,[sp,#144]
	stp	x30,x27,[sp,#160]
	stp	x26,x25,[sp,#176]
	stp	x24,x23,[sp,#192]
	stp	x22,x21,[sp,#208]
	stp	x20,x19,[sp,#224]
	.cfi_def_cfa_offset 240
	.cfi_offset w19,-8
	.cfi_offset w20,-16
	.cfi_offset w21,-24
	.cfi_offset w22,-32
	.cfi_offset w23,-40
	.cfi_offset w24,-48
	.cfi_offset w25,-56
	.cfi_offset w26,-64
	.cfi_offset w27,-72
	.cfi_offset w30,-80
	.cfi_offset w29,-96
	cmp	x3,#12
	b.hs	1f
	mov	w8,#3
	b	2f
1:
	ldrsb	w8,[x1]
	cmn	w8,#65
	b.gt	1f
	and	x27,x8,#0xff
	ubfiz	x29,x27,#2,#4
	add	x14,x29,#12
	subs	x8,x3,x14
	b.hs	3f
	mov	w8,#515
	b	2f
1:
	mov	w8,#259
2:
	mov	w9,#1
	str	xzr,[x0,#16]
1:
	stp	x9,x8,[x0]
4:
	ldp	x20,x19,[sp,#224]
	ldr	x29,[sp,#144]
	ldp	x22,x21,[sp,#208]
	ldp	x24,x23,[sp,#192]
	ldp	x26,x25,[sp,#176]
	ldp	x30,x27,[sp,#160]
	add	sp,sp,#240
	ret
3:
	add	x9,x1,x14
	str	x9,[sp,#152]
	tbnz	w27,#4,3f
	mov	w20,wzr
	add	x15,x29,#12
5:
	sub	x8,x6,#1
	and	w9,w4,#0xff
	cmp	x8,#16
	ccmp	w9,#15,#2,lo
	csinc	w13,w20,wzr,lo
	tst	w7,#0xff
	b.eq	6f
	ldrb	w8,[sp,#240]
	and	w8,w8,#0xff
	cmp	w8,#1
	b.ne	7f
	mov	w13,#1
	b	6f
3:
	subs	x9,x8,#4
	b.hs	3f
	mov	w8,#771
	b	2b
3:
	add	x11,x1,x14
	ldrb	w8,[x11,#2]
	ldrb	w10,[x11,#3]
	lsl	x8,x8,#10
	orr	x8,x8,x10,lsl #2
	cmp	x9,x8
	b.hs	3f
	mov	w8,#1027
	b	2b
7:
	cbz	w13,6f
	and	w8,w4,#0xff
	mov	x13,xzr
	cmp	w8,#14
	mov	w8,#5
	cinc	x8,x8,ls
	b	2f
6:
	str	w13,[sp,#108]
	tbnz	w27,#4,6f
	mov	w10,wzr
	mov	x26,xzr
	mov	x12,xzr
	mov	x24,xzr
	mov	w22,wzr
	add	x8,x1,x15
	mov	w20,w13
	str	xzr,[sp,#96]
	stp	xzr,x8,[sp,#80]
7:
	mov	w16,wzr
	mov	w8,#1
	mov	x9,x26
	b	8f
6:
	add	w8,w29,#16
	add	x25,x1,x8
	sub	x24,x15,x8
	stp	x24,x3,[sp,#64]
	str	x25,[sp,#88]
	cbz	w20,6f
	cbz	x24,9f
	mov	w7,wzr
	mov	x26,xzr
	mov	x17,xzr
	mov	x16,xzr
	mov	x9,x24
	mov	x8,x25
	str	xzr,[sp,#96]
	str	xzr,[sp,#80]
	str	x29,[sp]
	stp	x15,x14,[sp,#16]
10:
	mov	x23,x9
	str	x16,[sp,#48]
	str	x17,[sp,#32]
	str	w7,[sp,#40]
11:
	ldrb	w9,[x8]
	cbz	w9,12f
	mov	x9,x23
	b	13f
12:
	cmp	x23,#2
	str	x26,[sp,#56]
	b.eq	12f
	cmp	x23,#1
	b.eq	14f
	cmp	x23,#3
	b.hi	15f
	ldrb	w9,[x8,#1]
	cbnz	w9,15f
	ldrb	w9,[x8,#2]
	cbnz	w9,15f
	b	16f
12:
	ldrb	w9,[x8,#1]
	cbz	w9,12f
15:
	mov	x21,x1
	mov	x25,x0
	add	x0,x8,#1
	sub	x1,x23,#1
	mov	w26,w20
	mov	w29,w13
	mov	x20,x2
	mov	w19,w4
	mov	x22,x5
	mov	x24,x6
	bl	"rtp_841016a0_rtp_ext::elements::skip_zeros"
	cbz	x1,15f
	mov	x6,x24
	ldp	x24,x3,[sp,#64]
	mov	x2,x20
	mov	w20,w26
	mov	w13,w29
	ldp	x15,x14,[sp,#16]
	ldr	x29,[sp]
	ldp	x16,x26,[sp,#48]
	ldr	x17,[sp,#32]
	ldr	w7,[sp,#40]
	mov	x9,x1
	mov	x8,x0
	mov	x0,x25
	mov	x5,x22
	mov	x1,x21
	mov	w4,w19
13:
	cmp	x9,#2
	b.lo	13f
	ldrb	w10,[x8,#1]
	add	x11,x10,#2
	subs	x9,x9,x11
	b.lo	13f
	ldrb	w12,[x8]
	add	x8,x8,x11
	cmp	w12,w4,uxtb
	b.eq	17f
	add	x10,x26,x10
	mov	x23,x9
	add	x26,x10,#2
	cbnz	x9,11b
	b	13f
17:
	sub	x12,x24,x9
	mov	x23,xzr
	sub	x11,x24,x9
	sub	x16,x12,x10
	add	x17,x17,#1
	mov	w7,#1
	sub	x10,x16,#2
	str	x11,[sp,#96]
	str	x10,[sp,#80]
	cbnz	x9,10b
	b	13f
3:
	add	x9,x1,x14
	mov	w11,#57022
	add	x8,x14,x8
	ldrh	w10,[x9]
	add	x15,x8,#4
	and	w9,w10,#0xfffff0ff
	cmp	w9,#16
	cset	w20,eq
	cmp	w10,w11
	b.eq	5b
	cmp	w9,#16
	b.eq	5b
	mov	x13,xzr
	mov	w8,#4
	b	2f
6:
	cbz	x24,9f
	mov	w7,wzr
	mov	x26,xzr
	mov	x17,xzr
	mov	x16,xzr
	mov	x22,x24
	str	xzr,[sp,#96]
	str	xzr,[sp,#80]
3:
	str	w7,[sp,#40]
5:
	ldrb	w9,[x25]
	add	w8,w9,#16
	and	w8,w8,#0xff
	cmp	w8,#32
	b.hs	6f
	cbz	w9,10f
	mov	x8,x22
	b	11f
6:
	and	x8,x9,#0xf
	add	x10,x8,#2
	subs	x8,x22,x10
	b.hs	6f
	mov	x8,x22
	b	17f
10:
	cmp	x22,#2
	b.eq	10f
	cmp	x22,#1
	b.eq	18f
	cmp	x22,#3
	b.hi	19f
	ldrb	w8,[x25,#1]
	cbnz	w8,19f
	ldrb	w8,[x25,#2]
	cbnz	w8,19f
	b	20f
10:
	ldrb	w8,[x25,#1]
	cbz	w8,10f
19:
	stp	x16,x26,[sp,#48]
	mov	w26,w20
	mov	x20,x1
	mov	x24,x0
	add	x0,x25,#1
	sub	x1,x22,#1
	stp	x14,x17,[sp,#24]
	mov	x21,x5
	mov	x19,x6
	stp	x2,x15,[sp,#8]
	str	w4,[sp,#44]
	bl	"rtp_841016a0_rtp_ext::elements::skip_zeros"
	cbz	x1,19f
	mov	x8,x1
	mov	x25,x0
	ldrb	w9,[x0]
	mov	x0,x24
	mov	x1,x20
	mov	w20,w26
	ldp	x24,x3,[sp,#64]
	ldr	w13,[sp,#108]
	ldp	w7,w4,[sp,#40]
	ldp	x2,x15,[sp,#8]
	mov	x6,x19
	ldp	x14,x17,[sp,#24]
	mov	x5,x21
	ldp	x16,x26,[sp,#48]
11:
	cmp	w9,#239
	b.hi	18f
	and	w10,w9,#0xf
	add	w10,w10,#2
17:
	subs	x8,x8,x10
	b.lo	18f
6:
	mov	x22,x8
	lsr	w8,w9,#4
	add	x25,x25,x10
	cmp	w8,w4,uxtb
	b.eq	6f
	cbz	w8,11f
	add	x26,x10,x26
	cbnz	x22,5b
	b	17f
11:
	stp	x0,x26,[sp,#48]
	mov	x0,x17
	mov	x21,x6
	str	x29,[sp]
	mov	x19,x5
	mov	x23,x1
	str	x27,[sp,#32]
	mov	x24,x2
	mov	x29,x14
	str	w20,[sp,#44]
	mov	w20,w4
	mov	x27,x15
	mov	x26,x16
	bl	"rtp_841016a0_rtp_ext::survey::one_more"
	mov	x16,x26
	mov	x2,x24
	mov	w4,w20
	ldp	x26,x24,[sp,#56]
	mov	x15,x27
	ldp	w7,w20,[sp,#40]
	mov	x14,x29
	ldr	x3,[sp,#72]
	ldr	w13,[sp,#108]
	ldr	x27,[sp,#32]
	ldr	x29,[sp]
	mov	x17,x0
	ldr	x0,[sp,#48]
	mov	x1,x23
	mov	x5,x19
	mov	x6,x21
	cbnz	x22,5b
	b	17f
6:
	sub	x9,x24,x22
	sub	x8,x24,x22
	mov	x23,xzr
	str	x8,[sp,#96]
	sub	x8,x9,x10
	add	x17,x17,#1
	add	x16,x8,#1
	mov	w7,#1
	str	x8,[sp,#80]
	cbnz	x22,3b
	b	13f
9:
	str	xzr,[sp,#80]
	mov	x16,xzr
	mov	w7,wzr
	str	xzr,[sp,#96]
	mov	x17,xzr
	mov	x26,xzr
	mov	x23,xzr
	b	13f
12:
	ldr	x26,[sp,#56]
10:
	mov	w23,#2
	b	13f
16:
	ldr	x26,[sp,#56]
	mov	w23,#3
	b	13f
18:
	mov	x23,x22
	b	13f
20:
	mov	w23,#3
	b	13f
17:
	mov	x23,xzr
	b	13f
15:
	ldr	x3,[sp,#72]
	mov	w13,w29
	ldr	x29,[sp]
	mov	x0,x25
	mov	x6,x24
	mov	x5,x22
	mov	x1,x21
	mov	w4,w19
	mov	x2,x20
	b	3f
14:
	ldr	x26,[sp,#56]
	b	13f
19:
	ldr	x3,[sp,#72]
	ldr	w4,[sp,#44]
	mov	x23,x22
	ldr	x2,[sp,#8]
	ldr	w13,[sp,#108]
	mov	x0,x24
	mov	x6,x19
	mov	x5,x21
	mov	x1,x20
3:
	mov	w20,w26
	ldp	x15,x14,[sp,#16]
	ldp	x26,x24,[sp,#56]
	ldr	x16,[sp,#48]
	ldr	x17,[sp,#32]
	ldr	w7,[sp,#40]
13:
	cmp	w7,#1
	cset	w10,eq
	cmp	w20,w13
	cset	w22,eq
	b.ne	3f
	cmp	w7,#1
	b.ne	3f
	cmp	x17,#1
	b.ne	3f
	ldr	x8,[sp,#96]
	sub	x8,x8,x16
	cmp	x8,x6
	b.ne	3f
	ldr	x8,[sp,#152]
	add	x8,x8,#4
	cbz	x6,5f
	cmp	w6,#1
	b.ne	6f
	ldrb	w9,[x5]
	mov	x21,x3
	strb	w9,[x8,x16]
	b	9f
3:
	cmp	w13,w20
	sub	x12,x24,x23
	b.eq	7b
	cbz	x26,7b
	str	x2,[sp,#8]
	ldr	x2,[sp,#88]
	mov	x3,x12
	stp	x0,x1,[sp,#48]
	mov	w0,w20
	mov	w1,w13
	str	w20,[sp,#44]
	mov	w25,w4
	mov	x22,x6
	mov	x23,x5
	mov	x24,x26
	mov	x26,x14
	mov	x20,x15
	mov	x21,x29
	mov	w29,w10
	mov	x19,x12
	bl	"rtp_841016a0_rtp_ext::form_change::row_len"
	mov	x14,x26
	mov	x26,x24
	mov	w8,w0
	ldp	x24,x3,[sp,#64]
	mov	x9,x1
	ldp	x0,x1,[sp,#48]
	mov	x15,x20
	ldr	x2,[sp,#8]
	ldr	w20,[sp,#44]
	mov	x12,x19
	mov	w10,w29
	mov	x29,x21
	mov	w4,w25
	mov	x5,x23
	mov	x6,x22
	mov	w22,wzr
	mov	w16,#1
8:
	and	w8,w8,#0xff
	cmp	w8,#1
	b.ne	3f
	ldr	w19,[sp,#108]
	mov	w8,#1
	cmp	w19,#0
	cinc	x11,x8,ne
	add	x8,x6,x9
	add	x8,x8,x11
	add	x8,x8,#3
	and	x8,x8,#0xfffffffffffffffc
	cmp	x24,x8
	csel	x23,x24,x8,hi
	mov	w8,#262140
	cmp	x23,x8
	b.ls	7f
	mov	x13,xzr
	mov	w8,#7
	b	2f
7:
	add	x8,x14,x23
	sub	x9,x3,x15
	add	x8,x8,#4
	add	x13,x8,x9
	cmp	x2,x13
	b.hs	7f
	mov	w8,#8
2:
	mov	w9,#1
	str	x13,[x0,#16]
	b	1b
7:
	stp	x0,x1,[sp,#48]
	mov	x0,x1
	mov	x1,x15
	mov	x2,x3
	mov	x3,x8
	stp	w16,w4,[sp,#40]
	stp	x13,x5,[sp,#64]
	mov	x21,x12
	mov	w25,w10
	str	x11,[sp,#32]
	str	x6,[sp,#88]
	bl	"rtp_841016a0_rtp_wire::packet::resizing::move_bytes"
	lsl	w8,w23,#6
	ldr	x10,[sp,#56]
	ldr	x9,[sp,#152]
	and	w8,w8,#0xff00
	orr	w8,w8,w23,lsr #10
	strh	w8,[x9,#2]
	tbnz	w22,#0,1f
	ldrb	w8,[x10]
	cmp	w19,#0
	mov	w9,#16
	mov	w11,#-8514
	orr	w8,w8,#0x10
	csel	w9,w11,w9,eq
	strb	w8,[x10]
	ldr	x8,[sp,#152]
	strh	w9,[x8]
1:
	ldr	x8,[sp,#152]
	ldr	x2,[sp,#88]
	ldr	x1,[sp,#72]
	ldr	w5,[sp,#44]
	add	x22,x8,#4
	cbz	x24,1f
	ldr	x8,[sp,#80]
	cmp	w25,#0
	csel	x3,x8,x21,ne
	ldr	x8,[sp,#96]
	csel	x25,x8,x21,ne
	sub	x8,x26,x3
	add	x8,x8,x25
	cmp	x8,x21
	b.ne	7f
	sub	x8,x21,x25
	b	8f
1:
	ldr	x0,[sp,#48]
	tbz	w19,#0,1f
	ldr	x8,[sp,#152]
	mov	w9,#2
	strb	w2,[x8,#5]
	b	10f
7:
	mov	w0,w20
	mov	x1,x22
	mov	x2,x3
	mov	x3,x25
	mov	x4,x24
	bl	"rtp_841016a0_rtp_ext::gathering::gather_around"
	mov	x3,x0
	mov	x8,x1
8:
	ldr	x21,[sp,#64]
	ldr	w9,[sp,#40]
	cbz	w9,7f
	mov	w0,w20
	mov	x1,x22
	mov	x2,x23
	mov	x4,x25
	mov	x5,x8
	bl	"rtp_841016a0_rtp_ext::form_change::change_rows"
	mov	x3,x0
	mov	x8,x1
	mov	x25,x0
7:
	ldr	x9,[sp,#88]
	ldr	x10,[sp,#72]
	mov	w12,#1
	ldr	w11,[sp,#44]
	add	x5,sp,#112
	mov	w0,w19
	mov	x1,x22
	mov	x2,x3
	mov	x3,x25
	mov	x4,x8
	strb	w11,[sp,#120]
	str	x12,[sp,#112]
	stur	wzr,[sp,#121]
	str	wzr,[sp,#124]
	stp	x10,x9,[sp,#128]
	bl	"rtp_841016a0_rtp_ext::rewriting::put_between"
	mov	x8,x0
	subs	x9,x23,x0
	ldr	x0,[sp,#48]
	b.ls	9f
	subs	x19,x9,#1
	b.le	7f
	cmp	x9,#2
	b.eq	8f
	cmp	x9,#3
	b.eq	11f
	cmp	x9,#4
	b.eq	12f
	b	13f
3:
	ldr	x1,[sp,#88]
	mov	x19,x0
	mov	w0,w20
	mov	x2,x24
	bl	"rtp_841016a0_rtp_wire::packet::rewriting::has_long_id"
	mov	w8,w0
	mov	w9,#5
	mov	x0,x19
	cmp	w8,#0
	mov	x13,xzr
	cinc	x8,x9,eq
	b	2b
6:
	cmp	x6,#2
	b.hi	2f
	ldrb	w9,[x5]
	add	x8,x8,x16
	mov	x21,x3
	strb	w9,[x8]
	ldrb	w9,[x5,#1]
	strb	w9,[x8,#1]
	b	9f
1:
	ubfx	w8,w5,#4,#4
	mov	w9,#1
	orr	w8,w8,w5,lsl #4
	add	w8,w8,w2
	sub	w5,w8,#1
10:
	ldr	x21,[sp,#64]
	ands	w8,w2,#0xff
	strb	w5,[x22]
	b.eq	1f
	cmp	w8,#1
	b.ne	3f
	ldrb	w8,[x1]
	strb	w8,[x22,x9]
	b	6f
3:
	cmp	x2,#2
	b.hi	3f
	ldrb	w8,[x1]
	add	x9,x22,x9
	strb	w8,[x9]
	ldrb	w8,[x1,#1]
	strb	w8,[x9,#1]
	b	6f
2:
	cmp	x6,#3
	b.ne	5f
	ldrb	w9,[x5]
	add	x8,x8,x16
	mov	x21,x3
	strb	w9,[x8]
	ldrb	w9,[x5,#1]
	strb	w9,[x8,#1]
	ldrb	w9,[x5,#2]
	strb	w9,[x8,#2]
	b	9f
5:
	add	x8,x8,x16
	sub	x9,x8,x5
	cmp	x9,x6
	b.hs	2f
	cmp	x6,#8
	b.lo	5f
	add	x8,x16,x1
	add	x8,x8,x29
	sub	x8,x8,x5
	add	x8,x8,#16
	cmp	x8,#32
	b.hs	10f
5:
	mov	x12,xzr
5:
	add	x8,x16,x12
	and	x9,x27,#0xf
	add	x8,x8,x9,lsl #2
	add	x9,x5,x12
	add	x10,x8,x1
	sub	x8,x6,x12
	add	x10,x10,#16
14:
	ldrb	w11,[x9],#1
	subs	x8,x8,#1
	strb	w11,[x10],#1
	b.ne	14b
14:
	mov	x21,x3
	b	9f
2:
	mov	x19,x0
	mov	x0,x8
	mov	x1,x5
	mov	x2,x6
	mov	x21,x3
	bl	memmove
	mov	x0,x19
	b	9f
3:
	cmp	x2,#3
	b.ne	1f
	ldrb	w8,[x1]
	add	x9,x22,x9
	strb	w8,[x9]
	ldrb	w8,[x1,#1]
	strb	w8,[x9,#1]
	ldrb	w8,[x1,#2]
	strb	w8,[x9,#2]
	b	6f
1:
	add	x8,x22,x9
	sub	x11,x8,x1
	cmp	x11,x2
	b.hs	1f
	cmp	x2,#8
	b.hs	2f
	mov	x8,xzr
	b	3f
1:
	mov	x0,x8
	bl	memmove
	ldr	x2,[sp,#88]
	ldr	x0,[sp,#48]
	b	6f
2:
	add	x8,x9,x10
	mov	x14,x27
	add	x8,x8,x29
	sub	x8,x8,x1
	add	x8,x8,#16
	cmp	x8,#32
	b.hs	1f
	ldp	x0,x10,[sp,#48]
	mov	x8,xzr
	ldp	x21,x1,[sp,#64]
	mov	x27,x14
	b	3f
10:
	mov	x2,x16
	mov	x17,x27
	mov	x9,x1
	mov	x10,x5
	mov	x8,x0
	mov	x11,x6
	cmp	x6,#32
	b.hs	2f
	mov	x12,xzr
	mov	x6,x11
	mov	x5,x10
	mov	x1,x9
	mov	x27,x17
	mov	x16,x2
	b	10f
1:
	cmp	x2,#32
	b.hs	1f
	ldr	x2,[sp,#88]
	ldr	x1,[sp,#72]
	mov	x8,xzr
	ldr	x10,[sp,#56]
	mov	x27,x14
	b	15f
2:
	add	x14,x2,x29
	and	x13,x11,#0x18
	and	x12,x11,#0xe0
	add	x15,x14,x9
	add	x14,x10,#16
	and	x16,x11,#0xe0
	add	x15,x15,#32
2:
	ldp	q0,q1,[x14,#-16]
	subs	x16,x16,#32
	add	x14,x14,#32
	stp	q0,q1,[x15,#-16]
	add	x15,x15,#32
	b.ne	2b
	cmp	x11,x12
	b.ne	2f
	ldr	x21,[sp,#72]
	mov	x0,x8
	b	9f
1:
	ldr	x10,[sp,#56]
	add	x12,x9,x29
	ldr	x13,[sp,#88]
	add	x12,x12,x10
	ldr	x10,[sp,#72]
	and	x11,x13,#0x18
	and	x8,x13,#0xe0
	add	x12,x12,#32
	and	x13,x13,#0xe0
	add	x10,x10,#16
1:
	ldp	q0,q1,[x10,#-16]
	subs	x13,x13,#32
	add	x10,x10,#32
	stp	q0,q1,[x12,#-16]
	add	x12,x12,#32
	b.ne	1b
	ldr	x2,[sp,#88]
	ldp	x0,x10,[sp,#48]
	ldp	x21,x1,[sp,#64]
	cmp	x2,x8
	b.eq	6f
	mov	x27,x14
	cbz	x11,3f
15:
	mov	x11,x8
	add	x8,x8,x9
	and	x12,x27,#0xf
	add	x12,x8,x12,lsl #2
	and	x8,x2,#0xf8
	add	x12,x12,x10
	sub	x10,x11,x8
	add	x11,x1,x11
	add	x12,x12,#16
1:
	ldr	d0,[x11],#8
	adds	x10,x10,#8
	str	d0,[x12],#8
	b.ne	1b
	ldr	x2,[sp,#88]
	ldp	x0,x10,[sp,#48]
	ldp	x21,x1,[sp,#64]
	mov	x27,x14
	cmp	x2,x8
	b.eq	6f
3:
	add	x9,x8,x9
	and	x11,x27,#0xf
	add	x9,x9,x11,lsl #2
	add	x10,x9,x10
	sub	x9,x2,x8
	add	x8,x1,x8
	add	x10,x10,#16
1:
	ldrb	w11,[x8],#1
	subs	x9,x9,#1
	strb	w11,[x10],#1
	b.ne	1b
6:
	ldr	x8,[sp,#32]
	add	x8,x8,x2
	subs	x9,x23,x8
	b.ls	9f
	subs	x19,x9,#1
	b.le	7f
	cmp	x9,#2
	b.eq	8f
	cmp	x9,#3
	b.eq	11f
	cmp	x9,#4
	b.ne	13f
12:
	str	wzr,[x22,x8]
	b	9f
7:
	cbz	x9,9f
	cmp	x9,#1
	b.ne	13f
	strb	wzr,[x22,x8]
	b	9f
8:
	strh	wzr,[x22,x8]
	b	9f
11:
	add	x8,x22,x8
	strb	wzr,[x8,#2]
	strh	wzr,[x8]
	b	9f
13:
	add	x20,x22,x8
	mov	w1,wzr
	mov	x2,x19
	mov	x0,x20
	bl	memset
	ldr	x0,[sp,#48]
	strb	wzr,[x20,x19]
9:
	stp	xzr,x21,[x0]
	str	xzr,[x0,#16]
	b	4b
2:
	ldr	x3,[sp,#72]
	mov	x0,x8
	mov	x6,x11
	mov	x5,x10
	mov	x1,x9
	mov	x27,x17
	mov	x16,x2
	cbz	x13,5b
10:
	mov	x14,x12
	add	x12,x16,x12
	and	x13,x27,#0xf
	add	x13,x12,x13,lsl #2
	and	x12,x6,#0xf8
	add	x15,x13,x1
	sub	x13,x14,x12
	add	x14,x5,x14
	add	x15,x15,#16
1:
	ldr	d0,[x14],#8
	adds	x13,x13,#8
	str	d0,[x15],#8
	b.ne	1b
	ldr	x3,[sp,#72]
	mov	x6,x11
	cmp	x11,x12
	mov	x0,x8
	mov	x5,x10
	mov	x1,x9
	mov	x27,x17
	mov	x16,x2
	b.ne	5b
	b	14b
	.size	"rtp_841016a0_rtp_wire::packet::putting::put_element_copy::<=1>", .-"rtp_841016a0_rtp_wire::packet::putting::put_element_copy::<=1>"
	.cfi_endproc

	.section	".text.rtp_wire::packet::compacting::compact_copy::<=1>","ax",@progbits
	.p2align	2
	.type	"rtp_841016a0_rtp_wire::packet::compacting::compact_copy::<=1>",@function
"rtp_841016a0_rtp_wire::packet::compacting::compact_copy::<=1>":
	.cfi_startproc
	stp	x30,x25,[sp,#-64]!
	stp	x24,x23,[sp,#16]
	stp	x22,x21,[sp,#32]
	stp	x20,x19,[sp,#48]
	.cfi_def_cfa_offset 64
	.cfi_offset w19,-8
	.cfi_offset w20,-16
	.cfi_offset w21,-24
	.cfi_offset w22,-32
	.cfi_offset w23,-40
	.cfi_offset w24,-48
	.cfi_offset w25,-56
	.cfi_offset w30,-64
	cmp	x2,#12
	b.hs	1f
	mov	w8,wzr
	b	2f
1:
	ldrsb	w8,[x1]
	cmn	w8,#65
	b.gt	1f
	and	x8,x8,#0xff
	ubfiz	x9,x8,#2,#4
	add	x9,x9,#12
	subs	x10,x2,x9
	b.hs	3f
	mov	w8,#2
	b	2f
1:
	mov	w8,#1
2:
	mov	w9,#1
	strb	w8,[x0,#1]
	strb	w9,[x0]
	str	xzr,[x0,#8]
	ldp	x20,x19,[sp,#48]
	ldp	x22,x21,[sp,#32]
	ldp	x24,x23,[sp,#16]
	ldp	x30,x25,[sp],#64
	ret
3:
	tbnz	w8,#4,1f
3:
	strh	wzr,[x0]
	str	x2,[x0,#8]
	ldp	x20,x19,[sp,#48]
	ldp	x22,x21,[sp,#32]
	ldp	x24,x23,[sp,#16]
	ldp	x30,x25,[sp],#64
	ret
1:
	subs	x10,x10,#4
	b.hs	1f
	mov	w8,#3
	b	2b
1:
	add	x23,x1,x9
	ldrb	w8,[x23,#2]
	ldrb	w11,[x23,#3]
	lsl	x8,x8,#10
	orr	x8,x8,x11,lsl #2
	cmp	x10,x8
	b.hs	1f
	mov	w8,#4
	b	2b
1:
	ldrh	w10,[x23]
	mov	w11,#57022
	cmp	w10,w11
	and	w10,w10,#0xfffff0ff
	b.eq	1f
	cmp	w10,#16
	b.ne	3b
1:
	cmp	w10,#16
	add	x22,x9,#4
	mov	x20,x1
	cset	w9,eq
	add	x1,x1,x22
	mov	x24,x0
	mov	w0,w9
	mov	x21,x2
	mov	x2,x8
	add	x19,x22,x8
	bl	"rtp_841016a0_rtp_ext::gathering::compact_body"
	add	x25,x0,#3
	mov	x0,x20
	mov	x1,x19
	and	x8,x25,#0xfffffffffffffffc
	mov	x2,x21
	add	x22,x22,x8
	mov	x3,x22
	bl	"rtp_841016a0_rtp_wire::packet::resizing::move_bytes"
	lsl	w8,w25,#6
	sub	x9,x21,x19
	bfxil	w8,w25,#10,#8
	strh	w8,[x23,#2]
	add	x8,x9,x22
	strh	wzr,[x24]
	str	x8,[x24,#8]
	ldp	x20,x19,[sp,#48]
	ldp	x22,x21,[sp,#32]
	ldp	x24,x23,[sp,#16]
	ldp	x30,x25,[sp],#64
	ret
	.size	"rtp_841016a0_rtp_wire::packet::compacting::compact_copy::<=1>", .-"rtp_841016a0_rtp_wire::packet::compacting::compact_copy::<=1>"
	.cfi_endproc

	.section	".text.rtp_route::slots::slot_of","ax",@progbits
	.p2align	2
	.type	"rtp_841016a0_rtp_route::slots::slot_of",@function
"rtp_841016a0_rtp_route::slots::slot_of":
	.cfi_startproc
	ldrb	w8,[x1,#24]
	cmp	w8,#1
	b.ne	1f
	stp	x30,x25,[sp,#-64]!
	stp	x24,x23,[sp,#16]
	stp	x22,x21,[sp,#32]
	stp	x20,x19,[sp,#48]
	.cfi_def_cfa_offset 64
	.cfi_offset w19,-8
	.cfi_offset w20,-16
	.cfi_offset w21,-24
	.cfi_offset w22,-32
	.cfi_offset w23,-40
	.cfi_offset w24,-48
	.cfi_offset w25,-56
	.cfi_offset w30,-64
	ldr	x8,[x1]
	ldr	x19,[x1,#16]
	and	w24,w2,#0xff
	ldrb	w10,[x1,#25]
	ldrb	w9,[x8]
	ubfiz	x9,x9,#2,#4
	add	x9,x9,#16
	add	x8,x8,x9
	sub	x20,x19,x9
	cbz	w10,2f
	cbz	x20,3f
	mov	w23,wzr
	mov	x21,xzr
	mov	x22,xzr
	mov	x1,x20
4:
	ldrb	w9,[x8]
	cbnz	w9,5f
	cmp	x1,#2
	b.eq	6f
	cmp	x1,#1
	b.eq	7f
	cmp	x1,#3
	b.hi	8f
	ldrb	w9,[x8,#1]
	cbnz	w9,8f
	ldrb	w9,[x8,#2]
	cbnz	w9,8f
	b	7f
6:
	ldrb	w9,[x8,#1]
	cbz	w9,7f
8:
	mov	x25,x0
	sub	x1,x1,#1
	add	x0,x8,#1
	bl	"rtp_841016a0_rtp_ext::elements::skip_zeros"
	cbz	x1,6f
	mov	x8,x0
	mov	x0,x25
5:
	cmp	x1,#2
	b.lo	7f
	ldrb	w9,[x8,#1]
	add	x10,x9,#2
	subs	x1,x1,x10
	b.lo	7f
	ldrb	w11,[x8]
	add	x8,x8,x10
	cmp	w11,w24
	b.eq	5f
	cbnz	x1,4b
	b	7f
5:
	sub	x21,x20,x1
	mov	w23,#1
	sub	x22,x21,x9
	cbnz	x1,4b
	b	4f
1:
	str	wzr,[x0]
	stur	xzr,[x0,#4]
	ret
2:
	cbz	x20,3f
	mov	w23,wzr
	mov	x21,xzr
	mov	x22,xzr
	mov	x1,x20
1:
	ldrb	w9,[x8]
	cbnz	w9,2f
	cmp	x1,#2
	b.eq	5f
	cmp	x1,#1
	b.eq	7f
	cmp	x1,#3
	b.hi	8f
	ldrb	w9,[x8,#1]
	cbnz	w9,8f
	ldrb	w9,[x8,#2]
	cbnz	w9,8f
	b	7f
5:
	ldrb	w9,[x8,#1]
	cbz	w9,7f
8:
	mov	x25,x0
	sub	x1,x1,#1
	add	x0,x8,#1
	bl	"rtp_841016a0_rtp_ext::elements::skip_zeros"
	cbz	x1,6f
	ldrb	w9,[x0]
	mov	x8,x0
	mov	x0,x25
2:
	cmp	w9,#239
	b.hi	7f
	and	w10,w9,#0xf
	add	w10,w10,#2
	subs	x1,x1,x10
	b.lo	7f
	cmp	w24,w9,lsr #4
	add	x8,x8,x10
	b.eq	2f
	cbnz	x1,1b
	b	7f
2:
	sub	x21,x20,x1
	mov	w23,#1
	sub	x9,x21,x10
	add	x22,x9,#1
	cbnz	x1,1b
	b	4f
6:
	mov	x0,x25
7:
	cmp	w23,#1
	b.ne	3f
4:
	sub	w8,w22,w20
	sub	w9,w21,w22
	add	w8,w8,w19
	orr	x8,x8,x9,lsl #32
	mov	w9,#1
	str	w9,[x0]
	stur	x8,[x0,#4]
	ldp	x20,x19,[sp,#48]
	ldp	x22,x21,[sp,#32]
	ldp	x24,x23,[sp,#16]
	ldp	x30,x25,[sp],#64
	ret
3:
	str	wzr,[x0]
	stur	xzr,[x0,#4]
	ldp	x20,x19,[sp,#48]
	ldp	x22,x21,[sp,#32]
	ldp	x24,x23,[sp,#16]
	ldp	x30,x25,[sp],#64
	ret
	.size	"rtp_841016a0_rtp_route::slots::slot_of", .-"rtp_841016a0_rtp_route::slots::slot_of"
	.cfi_endproc

	.section	".text.unlikely.rtp_route::making::make_by_calls::<#d57726891005992a>","ax",@progbits
	.p2align	2
	.type	"rtp_841016a0_rtp_route::making::make_by_calls::<#d57726891005992a>",@function
"rtp_841016a0_rtp_route::making::make_by_calls::<#d57726891005992a>":
	.cfi_startproc
	sub	sp,sp,#448
	str	x29,[sp,#352]
	stp	x30,x27,[sp,#368]
	stp	x26,x25,[sp,#384]
	stp	x24,x23,[sp,#400]
	stp	x22,x21,[sp,#416]
	stp	x20,x19,[sp,#432]
	.cfi_def_cfa_offset 448
	.cfi_offset w19,-8
	.cfi_offset w20,-16
	.cfi_offset w21,-24
	.cfi_offset w22,-32
	.cfi_offset w23,-40
	.cfi_offset w24,-48
	.cfi_offset w25,-56
	.cfi_offset w26,-64
	.cfi_offset w27,-72
	.cfi_offset w30,-80
	.cfi_offset w29,-96
	movi	v0.2d,#0000000000000000
	mov	x20,x2
	mov	x8,x1
	ldr	x2,[x1,#16]
	ldr	x1,[x1]
	ldrb	w26,[x8,#24]
	ldrb	w27,[x8,#25]
	mov	x19,x0
	stp	xzr,xzr,[sp,#184]
	cmp	x4,x2
	stp	q0,q0,[sp,#16]
	stp	q0,q0,[sp,#48]
	stp	q0,q0,[sp,#80]
	stp	q0,q0,[sp,#112]
	stp	q0,q0,[sp,#144]
	b.hs	1f
	mov	w8,wzr
	mov	w9,#8
	mov	w10,#3
	b	2f
1:
	sub	x8,x2,#49
	mov	x22,x4
	mov	x21,x3
	cmn	x8,#34
	mov	x23,x2
	str	x5,[sp,#360]
	b.hi	1f
	mov	x0,x21
	bl	"rtp_841016a0_rtp_route::copying::put_any"
	mov	x2,x23
	b	3f
1:
	ldr	q0,[x1]
	cmp	x2,#33
	str	q0,[x21]
	b.lo	1f
	ldr	q0,[x1,#16]
	str	q0,[x21,#16]
1:
	sub	x8,x2,#16
	ldr	q0,[x1,x8]
	str	q0,[x21,x8]
3:
	ldr	x24,[x20]
	ldrb	w25,[x20,#40]
	add	x0,sp,#224
	ldrb	w29,[x20,#41]
	stp	x2,xzr,[sp,#240]
	mov	x1,x24
	stp	x21,x2,[sp,#224]
	strb	w26,[sp,#248]
	strb	w27,[sp,#249]
	bl	"rtp_841016a0_rtp_wire::packet::rtp_packet_mut::RtpPacketMut::renumber"
	tbz	w0,#0,1f
	ldr	x24,[x20,#32]
	stp	xzr,xzr,[sp,#224]
	str	xzr,[sp,#240]
	cbz	x24,3f
4:
	ldr	x26,[x20,#8]
	ldr	x27,[x20,#24]
	mov	x3,x23
5:
	ldp	x8,x6,[x27]
	add	x0,sp,#224
	ldrb	w9,[x20,#41]
	ldrb	w7,[x20,#40]
	mov	x1,x21
	ldrb	w4,[x27,#24]
	mov	x2,x22
	add	x5,x26,x8
	strb	w9,[sp]
	bl	"rtp_841016a0_rtp_wire::packet::putting::put_element_copy::<=1>"
	ldrb	w8,[sp,#224]
	ldr	x3,[sp,#232]
	cbnz	w8,6f
	subs	x24,x24,#1
	add	x27,x27,#32
	b.ne	5b
	b	5f
1:
	cmp	w25,#1
	b.ne	1f
	cbnz	w29,1f
	mov	w9,wzr
	mov	w8,wzr
	mov	x2,xzr
	mov	w10,#2
	b	2f
6:
	ldr	x2,[sp,#240]
	lsr	x8,x3,#8
	mov	w9,w3
	mov	w10,#3
2:
	mov	w11,#1
	strb	w9,[x19,#16]
	stp	x11,x10,[x19]
	strb	w8,[x19,#17]
	str	x2,[x19,#24]
6:
	ldp	x20,x19,[sp,#432]
	ldr	x29,[sp,#352]
	ldp	x22,x21,[sp,#416]
	ldp	x24,x23,[sp,#400]
	ldp	x26,x25,[sp,#384]
	ldp	x30,x27,[sp,#368]
	add	sp,sp,#448
	ret
1:
	add	x0,sp,#200
	mov	x1,x21
	mov	x2,x22
	mov	x3,x23
	bl	"rtp_841016a0_rtp_route::in_place::change_form"
	ldrb	w8,[sp,#200]
	ldr	x9,[sp,#208]
	cbz	w8,1f
	ldr	x2,[sp,#216]
	lsr	x8,x9,#8
	mov	w10,#3
	b	2b
1:
	mov	w8,#257
	add	x0,sp,#224
	mov	x1,x24
	stp	x21,x9,[sp,#224]
	mov	x23,x9
	stp	x9,x8,[sp,#240]
	bl	"rtp_841016a0_rtp_wire::packet::rtp_packet_mut::RtpPacketMut::renumber"
	ldr	x24,[x20,#32]
	stp	xzr,xzr,[sp,#224]
	str	xzr,[sp,#240]
	cbnz	x24,4b
3:
	mov	x3,x23
5:
	add	x0,sp,#184
	mov	x1,x21
	mov	x2,x3
	bl	"rtp_841016a0_rtp_wire::packet::compacting::compact_copy::<=1>"
	ldrb	w8,[sp,#184]
	cbnz	w8,1f
	ldr	x22,[sp,#192]
	cmp	x22,#12
	b.lo	1f
	ldrsb	w8,[x21]
	cmn	w8,#65
	b.gt	1f
	and	x9,x8,#0xff
	ubfiz	x8,x9,#2,#4
	add	x8,x8,#12
	subs	x10,x22,x8
	b.lo	1f
	tbnz	w9,#4,2f
	mov	w24,wzr
	mov	w23,wzr
	b	3f
2:
	subs	x11,x10,#4
	b.lo	1f
	add	x10,x21,x8
	ldrb	w9,[x10,#2]
	ldrb	w12,[x10,#3]
	lsl	x9,x9,#10
	orr	x9,x9,x12,lsl #2
	cmp	x11,x9
	b.lo	1f
	ldrh	w10,[x10]
	add	x8,x8,x9
	add	x8,x8,#4
	and	w11,w10,#0xfffff0ff
	cmp	w11,#16
	mov	w11,#57022
	cset	w23,eq
	cmp	w10,w11
	csinc	w24,w23,wzr,ne
3:
	movi	v0.2d,#0000000000000000
	stp	x21,x22,[sp,#144]
	str	x8,[sp,#160]
	ldp	x8,x21,[x20,#24]
	strb	w24,[sp,#168]
	strb	w23,[sp,#169]
	str	wzr,[sp,#208]
	str	xzr,[sp,#200]
	stp	q0,q0,[sp,#224]
	stp	q0,q0,[sp,#256]
	stp	q0,q0,[sp,#288]
	stp	q0,q0,[sp,#320]
	cbz	x21,2f
	add	x20,x8,#24
	add	x26,sp,#224
3:
	ldrb	w2,[x20],#32
	add	x0,sp,#200
	add	x1,sp,#144
	bl	"rtp_841016a0_rtp_route::slots::slot_of"
	ldrb	w8,[sp,#200]
	cmp	w8,#1
	b.ne	1f
	ldur	x8,[sp,#204]
	subs	x21,x21,#1
	str	x8,[x26],#8
	b.ne	3b
2:
	ldp	q0,q1,[sp,#288]
	ldr	x8,[sp,#360]
	ldp	q2,q3,[sp,#320]
	ldp	q4,q5,[sp,#224]
	ldp	q6,q7,[sp,#256]
	stp	q0,q1,[sp,#80]
	stp	q2,q3,[sp,#112]
	stp	q4,q5,[sp,#16]
	stp	q6,q7,[sp,#48]
	stp	q4,q5,[x8]
	stp	q6,q7,[x8,#32]
	stp	q0,q1,[x8,#64]
	stp	q2,q3,[x8,#96]
	stp	xzr,x22,[x19]
	strb	w24,[x19,#16]
	strb	w23,[x19,#17]
	str	xzr,[x19,#24]
	b	6b
1:
	brk	#0x1
	.size	"rtp_841016a0_rtp_route::making::make_by_calls::<#d57726891005992a>", .-"rtp_841016a0_rtp_route::making::make_by_calls::<#d57726891005992a>"
	.cfi_endproc

	.section	".text.rtp_route::walk::write_kept::<#687967002a58489c>","ax",@progbits
	.p2align	2
	.type	"rtp_841016a0_rtp_route::walk::write_kept::<#687967002a58489c>",@function
"rtp_841016a0_rtp_route::walk::write_kept::<#687967002a58489c>":
	.cfi_startproc
	sub	sp,sp,#128
	stp	x30,x27,[sp,#48]
	stp	x26,x25,[sp,#64]
	stp	x24,x23,[sp,#80]
	stp	x22,x21,[sp,#96]
	stp	x20,x19,[sp,#112]
	.cfi_def_cfa_offset 128
	.cfi_offset w19,-8
	.cfi_offset w20,-16
	.cfi_offset w21,-24
	.cfi_offset w22,-32
	.cfi_offset w23,-40
	.cfi_offset w24,-48
	.cfi_offset w25,-56
	.cfi_offset w26,-64
	.cfi_offset w27,-72
	.cfi_offset w30,-80
	.cfi_offset w29,-96
	ldr	x8,[sp,#128]
	mov	x20,x6
	mov	x23,x5
	mov	x22,x2
	mov	x16,x1
	mov	x21,x0
	stp	x29,x8,[sp,#32]
	ldp	x29,x17,[x7]
	orr	w8,w4,w3
	tst	w8,#0xff
	b.eq	1f
	cbz	x20,2f
	mov	w24,w4
	mov	w25,w3
	add	x8,x21,#16
	str	x8,[sp,#24]
	b	3f
1:
	cbnz	x20,1f
2:
	mov	w0,#1
4:
	mov	x1,x22
	ldp	x20,x19,[sp,#112]
	ldp	x22,x21,[sp,#96]
	ldr	x29,[sp,#32]
	ldp	x24,x23,[sp,#80]
	ldp	x26,x25,[sp,#64]
	ldp	x30,x27,[sp,#48]
	add	sp,sp,#128
	ret
5:
	ldrb	w8,[x1]
	strb	w8,[x21,x27]
6:
	add	x22,x27,x23
	stp	w27,w23,[x26]
7:
	mov	x23,x19
	cbz	x20,2b
3:
	ldrb	w8,[x23]
	cbz	w8,3f
	tst	w25,#0xff
	b.eq	8f
9:
	cmp	x20,#2
	b.lo	2b
	ldrb	w26,[x23,#1]
	add	x8,x26,#2
	subs	x20,x20,x8
	b.lo	2b
	add	x19,x23,x8
	ldrb	w8,[x23],#2
	ldr	x9,[x29]
	ldrb	w27,[x9,x8]
	cbnz	w27,10f
	b	7b
3:
	cmp	x20,#2
	b.eq	3f
	cmp	x20,#1
	b.eq	2b
	cmp	x20,#3
	b.hi	11f
	ldrb	w8,[x23,#1]
	cbnz	w8,11f
	ldrb	w8,[x23,#2]
	cbnz	w8,11f
	b	2b
3:
	ldrb	w8,[x23,#1]
	cbz	w8,2b
11:
	sub	x1,x20,#1
	add	x0,x23,#1
	mov	x26,x17
	mov	x19,x16
	bl	"rtp_841016a0_rtp_ext::elements::skip_zeros"
	cbz	x1,2b
	mov	x20,x1
	mov	x23,x0
	mov	x16,x19
	mov	x17,x26
	tst	w25,#0xff
	b.ne	9b
8:
	ldrb	w9,[x23]
	cmp	w9,#239
	b.hi	2b
	and	x8,x9,#0xf
	add	x8,x8,#2
	subs	x20,x20,x8
	b.lo	2b
	lsr	x9,x9,#4
	ldr	x10,[x29]
	add	x19,x23,x8
	ldrb	w27,[x10,x9]
	cbz	w27,7b
	cmp	w27,#15
	add	x23,x23,#1
	sub	x26,x8,#1
	b.hs	3f
10:
	ldrb	w8,[x17,w27,uxtw]
	cbz	x8,8f
	ldr	x9,[sp,#40]
	sub	x8,x8,#1
	add	x26,x9,x8,lsl #3
	ldr	w9,[x26]
	cbnz	w9,9f
	ldr	x9,[x29,#24]
	add	x10,x9,x8,lsl #5
	ldr	x23,[x10,#8]
	add	x8,x22,x23
	add	x8,x8,#2
	cmp	x16,x8
	b.lo	9f
	ldr	x8,[x29,#8]
	ldr	x9,[x10]
	tst	w24,#0xff
	ldrb	w10,[x10,#24]
	b.eq	11f
	add	x11,x21,x22
	strb	w10,[x11]
	mov	w10,#2
	strb	w23,[x11,#1]
	add	x1,x8,x9
	add	x27,x10,x22
	cbnz	x23,12f
	b	13f
8:
	add	x8,x22,x26
	add	x8,x8,#2
	cmp	x16,x8
	b.lo	9f
	tst	w24,#0xff
	b.eq	8f
	add	x8,x21,x22
	strb	w27,[x8]
	strb	w26,[x8,#1]
	mov	w8,#2
	add	x27,x8,x22
	cbnz	x26,14f
	b	15f
11:
	lsr	w11,w10,#4
	orr	w10,w11,w10,lsl #4
	add	w10,w23,w10
	sub	w10,w10,#1
	strb	w10,[x21,x22]
	mov	w10,#1
	add	x1,x8,x9
	add	x27,x10,x22
	cbz	x23,13f
12:
	cmp	x23,#1
	b.eq	5b
	cmp	x23,#2
	b.hi	5f
	ldrb	w8,[x1]
	add	x9,x21,x27
	strb	w8,[x9]
	ldrb	w8,[x1,#1]
	strb	w8,[x9,#1]
	b	6b
8:
	lsr	w8,w27,#4
	orr	w8,w8,w27,lsl #4
	add	w8,w26,w8
	sub	w8,w8,#1
	strb	w8,[x21,x22]
	mov	w8,#1
	add	x27,x8,x22
	cbz	x26,15f
14:
	cmp	x26,#1
	b.ne	8f
	ldrb	w8,[x23]
	add	x22,x27,x26
	strb	w8,[x21,x27]
	b	7b
8:
	cmp	x26,#2
	b.hi	8f
	ldrb	w8,[x23]
	add	x9,x21,x27
	add	x22,x27,x26
	strb	w8,[x9]
	ldrb	w8,[x23,#1]
	strb	w8,[x9,#1]
	b	7b
5:
	cmp	x23,#3
	b.ne	13f
	ldrb	w8,[x1]
	add	x9,x21,x27
	strb	w8,[x9]
	ldrb	w8,[x1,#1]
	strb	w8,[x9,#1]
	ldrb	w8,[x1,#2]
	strb	w8,[x9,#2]
	b	6b
13:
	add	x11,x21,x27
	sub	x11,x11,x1
	cmp	x11,x23
	b.hs	5f
	cmp	x23,#8
	b.lo	11f
	add	x11,x22,x21
	add	x11,x11,x10
	sub	x11,x11,x8
	sub	x11,x11,x9
	cmp	x11,#32
	b.hs	12f
11:
	mov	x11,xzr
11:
	add	x12,x11,x22
	add	x13,x11,x9
	sub	x9,x23,x11
	add	x10,x12,x10
	add	x8,x8,x13
	add	x10,x21,x10
13:
	ldrb	w11,[x8],#1
	subs	x9,x9,#1
	strb	w11,[x10],#1
	b.ne	13b
	b	6b
5:
	add	x0,x21,x27
	mov	x2,x23
	mov	x22,x16
	str	w25,[sp,#16]
	mov	x25,x19
	mov	x19,x21
	mov	w21,w24
	mov	x24,x29
	mov	x29,x17
	bl	memmove
	mov	x17,x29
	mov	x29,x24
	mov	w24,w21
	mov	x21,x19
	mov	x19,x25
	ldr	w25,[sp,#16]
	mov	x16,x22
	b	6b
8:
	cmp	x26,#3
	b.ne	15f
	ldrb	w8,[x23]
	add	x9,x21,x27
	add	x22,x27,x26
	strb	w8,[x9]
	ldrb	w8,[x23,#1]
	strb	w8,[x9,#1]
	ldrb	w8,[x23,#2]
	strb	w8,[x9,#2]
	b	7b
15:
	add	x9,x21,x27
	sub	x9,x9,x23
	cmp	x9,x26
	b.hs	5f
	cmp	x26,#8
	b.lo	8f
	add	x9,x22,x21
	add	x9,x9,x8
	sub	x9,x9,x23
	cmp	x9,#32
	b.hs	13f
8:
	mov	x9,xzr
8:
	add	x10,x9,x22
	add	x11,x21,x8
	sub	x8,x26,x9
	add	x9,x23,x9
	add	x10,x11,x10
14:
	ldrb	w11,[x9],#1
	subs	x8,x8,#1
	strb	w11,[x10],#1
	b.ne	14b
14:
	add	x22,x27,x26
	b	7b
5:
	add	x0,x21,x27
	mov	x1,x23
	mov	x2,x26
	mov	x22,x16
	mov	x23,x17
	bl	memmove
	mov	x17,x23
	mov	x16,x22
	add	x22,x27,x26
	b	7b
12:
	cmp	x23,#32
	b.hs	5f
	mov	x11,xzr
	b	7f
3:
	mov	w0,w24
	mov	w1,w27
	mov	x2,x26
	stp	x17,x16,[sp,#8]
	bl	"rtp_841016a0_rtp_route::walk::is_carried"
	ldp	x17,x16,[sp,#8]
	cbnz	w0,10b
	b	3f
13:
	cmp	x26,#32
	b.hs	10f
	mov	x9,xzr
	b	12f
5:
	ldr	x14,[sp,#24]
	add	x13,x8,x9
	and	x12,x23,#0x18
	and	x11,x23,#0xffffffffffffffe0
	add	x13,x13,#16
	and	x15,x23,#0xffffffffffffffe0
	add	x14,x14,x27
5:
	ldp	q0,q1,[x13,#-16]
	subs	x15,x15,#32
	add	x13,x13,#32
	stp	q0,q1,[x14,#-16]
	add	x14,x14,#32
	b.ne	5b
	cmp	x23,x11
	b.eq	6b
	cbz	x12,11b
7:
	mov	x12,x11
	and	x11,x23,#0xfffffffffffffff8
	add	x13,x12,x22
	add	x14,x12,x9
	sub	x12,x12,x11
	add	x15,x13,x10
	add	x13,x8,x14
	add	x14,x21,x15
5:
	ldr	d0,[x13],#8
	adds	x12,x12,#8
	str	d0,[x14],#8
	b.ne	5b
	cmp	x23,x11
	b.eq	6b
	b	11b
10:
	ldr	x12,[sp,#24]
	and	x10,x26,#0x18
	and	x9,x26,#0xffffffffffffffe0
	add	x11,x23,#16
	and	x13,x26,#0xffffffffffffffe0
	add	x12,x12,x27
5:
	ldp	q0,q1,[x11,#-16]
	subs	x13,x13,#32
	add	x11,x11,#32
	stp	q0,q1,[x12,#-16]
	add	x12,x12,#32
	b.ne	5b
	cmp	x26,x9
	b.eq	14b
	cbz	x10,8b
12:
	mov	x11,x9
	and	x9,x26,#0xfffffffffffffff8
	add	x13,x21,x8
	add	x12,x11,x22
	sub	x10,x11,x9
	add	x11,x23,x11
	add	x12,x13,x12
5:
	ldr	d0,[x11],#8
	adds	x10,x10,#8
	str	d0,[x12],#8
	b.ne	5b
	cmp	x26,x9
	b.eq	14b
	b	8b
5:
	ldrb	w8,[x1]
	strb	w8,[x21,x25]
6:
	add	x22,x24,x25
	stp	w25,w24,[x27]
7:
	add	x23,x23,x26
	mov	w0,#1
	cbz	x20,4b
1:
	ldrb	w25,[x23]
	cbnz	w25,1f
	cmp	x20,#2
	b.eq	8f
	cmp	x20,#1
	b.eq	2b
	cmp	x20,#3
	b.hi	10f
	ldrb	w8,[x23,#1]
	cbnz	w8,10f
	ldrb	w8,[x23,#2]
	cbnz	w8,10f
	b	2b
8:
	ldrb	w8,[x23,#1]
	cbz	w8,2b
10:
	sub	x1,x20,#1
	add	x0,x23,#1
	mov	x24,x17
	mov	x19,x16
	bl	"rtp_841016a0_rtp_ext::elements::skip_zeros"
	cbz	x1,2b
	ldrb	w25,[x0]
	mov	x20,x1
	mov	x23,x0
	mov	x16,x19
	mov	x17,x24
1:
	cmp	w25,#239
	b.hi	2b
	and	w19,w25,#0xf
	add	w26,w19,#2
	subs	x20,x20,x26
	b.lo	2b
	mov	w8,w25
	ldr	x9,[x29]
	lsr	x8,x8,#4
	ldrb	w24,[x9,x8]
	cbz	x24,7b
	cmp	w24,#15
	sub	x27,x26,#1
	b.hs	1f
2:
	ldrb	w8,[x17,x24]
	cbz	x8,8f
	ldr	x9,[sp,#40]
	sub	x8,x8,#1
	add	x27,x9,x8,lsl #3
	ldr	w9,[x27]
	cbnz	w9,9f
	ldr	x9,[x29,#24]
	add	x9,x9,x8,lsl #5
	ldr	x24,[x9,#8]
	add	x8,x22,x24
	add	x8,x8,#2
	cmp	x16,x8
	b.lo	9f
	ldrb	w10,[x9,#24]
	ldr	x8,[x29,#8]
	add	x25,x22,#1
	ldr	x9,[x9]
	lsr	w11,w10,#4
	add	x1,x8,x9
	orr	w10,w11,w10,lsl #4
	add	w10,w24,w10
	sub	w10,w10,#1
	strb	w10,[x21,x22]
	cbz	x24,10f
	cmp	x24,#1
	b.eq	5b
	cmp	x24,#2
	b.hi	5f
	ldrb	w8,[x1]
	add	x9,x21,x25
	strb	w8,[x9]
	ldrb	w8,[x1,#1]
	strb	w8,[x9,#1]
	b	6b
8:
	add	x8,x22,x27
	add	x8,x8,#2
	cmp	x16,x8
	b.lo	9f
	lsr	w8,w24,#4
	cmp	x27,#1
	orr	w9,w8,w24,lsl #4
	add	x8,x23,#1
	add	w9,w27,w9
	sub	w9,w9,#1
	strb	w9,[x21,x22]
	add	x9,x22,#1
	b.ne	8f
	ldrb	w8,[x8]
	add	x22,x22,x26
	strb	w8,[x21,x9]
	b	7b
8:
	cmp	w19,#1
	b.hi	8f
	ldrb	w8,[x23,#1]
	add	x9,x21,x9
	add	x22,x22,x26
	strb	w8,[x9]
	ldrb	w8,[x23,#2]
	strb	w8,[x9,#1]
	b	7b
5:
	cmp	x24,#3
	b.ne	10f
	ldrb	w8,[x1]
	add	x9,x21,x25
	strb	w8,[x9]
	ldrb	w8,[x1,#1]
	strb	w8,[x9,#1]
	ldrb	w8,[x1,#2]
	strb	w8,[x9,#2]
	b	6b
10:
	add	x10,x21,x25
	sub	x10,x10,x1
	cmp	x10,x24
	b.hs	5f
	cmp	x24,#8
	b.lo	10f
	add	x10,x21,#1
	add	x10,x10,x22
	sub	x10,x10,x8
	sub	x10,x10,x9
	cmp	x10,#32
	b.hs	11f
10:
	mov	x10,xzr
10:
	add	x11,x10,x9
	add	x12,x10,x22
	sub	x9,x24,x10
	add	x10,x21,#1
	add	x8,x8,x11
	add	x10,x10,x12
12:
	ldrb	w11,[x8],#1
	subs	x9,x9,#1
	strb	w11,[x10],#1
	b.ne	12b
	b	6b
5:
	add	x0,x21,x25
	mov	x2,x24
	mov	x19,x16
	mov	x22,x17
	bl	memmove
	mov	x17,x22
	mov	x16,x19
	b	6b
8:
	cmp	x27,#3
	b.ne	5f
	ldrb	w8,[x23,#1]
	add	x9,x21,x9
	add	x22,x22,x26
	strb	w8,[x9]
	ldrb	w8,[x23,#2]
	strb	w8,[x9,#1]
	ldrb	w8,[x23,#3]
	strb	w8,[x9,#2]
	b	7b
1:
	sub	x2,x26,#1
	mov	w0,wzr
	mov	w1,w24
	stp	x17,x16,[sp,#8]
	bl	"rtp_841016a0_rtp_route::walk::is_carried"
	ldp	x17,x16,[sp,#8]
	cbnz	w0,2b
	b	3f
5:
	add	x0,x21,x9
	sub	x9,x0,x8
	cmp	x9,x27
	b.hs	1f
	cmp	w19,#2
	b.eq	2f
	add	x9,x22,x21
	sub	x9,x9,x23
	cmp	x9,#16
	b.hs	5f
2:
	mov	x9,xzr
2:
	and	w8,w25,#0xf
	add	x10,x23,x9
	add	x11,x9,x22
	sub	x8,x8,x9
	add	x9,x10,#1
	add	x10,x21,#1
	add	x8,x8,#1
	add	x10,x10,x11
8:
	ldrb	w11,[x9],#1
	subs	x8,x8,#1
	strb	w11,[x10],#1
	b.ne	8b
8:
	add	x22,x22,x26
	b	7b
11:
	cmp	x24,#32
	b.hs	11f
	mov	x10,xzr
	b	12f
1:
	add	x1,x23,#1
	sub	x2,x26,#1
	mov	x19,x16
	mov	x24,x17
	bl	memmove
	mov	x17,x24
	mov	x16,x19
	add	x22,x22,x26
	b	7b
11:
	add	x12,x8,x9
	add	x13,x21,#17
	and	x11,x24,#0x18
	and	x10,x24,#0xffffffffffffffe0
	add	x12,x12,#16
	add	x13,x13,x22
	and	x14,x24,#0xffffffffffffffe0
1:
	ldp	q0,q1,[x12,#-16]
	subs	x14,x14,#32
	add	x12,x12,#32
	stp	q0,q1,[x13,#-16]
	add	x13,x13,#32
	b.ne	1b
	cmp	x24,x10
	b.eq	6b
	cbz	x11,10b
12:
	mov	x11,x10
	and	x10,x24,#0xfffffffffffffff8
	add	x14,x21,#1
	add	x12,x11,x9
	add	x13,x11,x22
	sub	x11,x11,x10
	add	x12,x8,x12
	add	x13,x14,x13
1:
	ldr	d0,[x12],#8
	adds	x11,x11,#8
	str	d0,[x13],#8
	b.ne	1b
	cmp	x24,x10
	b.eq	6b
	b	10b
5:
	cmp	w19,#15
	b.ne	1f
	ldr	q0,[x8]
	add	x22,x22,x26
	str	q0,[x0]
	b	7b
1:
	and	x9,x27,#0xfffffffffffffffc
	and	x10,x27,#0xfffffffffffffffc
1:
	ldr	w11,[x8],#4
	subs	x10,x10,#4
	str	w11,[x0],#4
	b.ne	1b
	cmp	x27,x9
	b.ne	2b
	b	8b
9:
	mov	w0,wzr
	mov	x22,xzr
	b	4b
3:
	mov	x22,xzr
	b	4b
	.size	"rtp_841016a0_rtp_route::walk::write_kept::<#687967002a58489c>", .-"rtp_841016a0_rtp_route::walk::write_kept::<#687967002a58489c>"
	.cfi_endproc

	.section	".text.unlikely.rtp_route::by_walk::write_in_two_byte_form::<#687967002a58489c>","ax",@progbits
	.p2align	2
	.type	"rtp_841016a0_rtp_route::by_walk::write_in_two_byte_form::<#687967002a58489c>",@function
"rtp_841016a0_rtp_route::by_walk::write_in_two_byte_form::<#687967002a58489c>":
	.cfi_startproc
	sub	sp,sp,#480
	str	x29,[sp,#384]
	stp	x30,x27,[sp,#400]
	stp	x26,x25,[sp,#416]
	stp	x24,x23,[sp,#432]
	stp	x22,x21,[sp,#448]
	stp	x20,x19,[sp,#464]
	.cfi_def_cfa_offset 480
	.cfi_offset w19,-8
	.cfi_offset w20,-16
	.cfi_offset w21,-24
	.cfi_offset w22,-32
	.cfi_offset w23,-40
	.cfi_offset w24,-48
	.cfi_offset w25,-56
	.cfi_offset w26,-64
	.cfi_offset w27,-72
	.cfi_offset w30,-80
	.cfi_offset w29,-96
	ldrb	w8,[x1,#24]
	cmp	w8,#1
	b.ne	1f
	ldp	x21,x23,[x3]
	ldrb	w9,[x2]
	ldrb	w10,[x2,#1]
	ldrb	w11,[x2,#2]
	ldr	x19,[x1]
	str	w9,[sp,#72]
	ldrb	w9,[x2,#3]
	ldrb	w20,[x1,#25]
	ldr	x8,[x21]
	ldr	x29,[x1,#16]
	cmp	w20,#1
	stp	w10,w9,[sp,#60]
	ldrb	w9,[x2,#4]
	ldrh	w10,[x2,#6]
	ldp	q0,q1,[x8,#192]
	stp	w11,w9,[sp,#80]
	ldrb	w9,[x2,#8]
	ldp	x24,x22,[x3,#16]
	stp	q0,q1,[sp,#288]
	ldp	q2,q0,[x8,#224]
	str	w9,[sp,#76]
	ldr	w9,[x2,#12]
	stp	q2,q0,[sp,#320]
	ldp	q1,q0,[x8,#128]
	stp	w9,w10,[sp,#52]
	ldrb	w9,[x2,#16]
	stp	q1,q0,[sp,#224]
	ldp	q1,q0,[x8,#160]
	str	w9,[sp,#392]
	ldr	w9,[x2,#20]
	stp	q1,q0,[sp,#256]
	ldp	q1,q0,[x8,#64]
	str	w9,[sp,#68]
	stp	q1,q0,[sp,#160]
	ldp	q1,q0,[x8,#96]
	stp	q1,q0,[sp,#192]
	ldp	q1,q0,[x8]
	stp	q1,q0,[sp,#96]
	ldp	q0,q1,[x8,#32]
	ldrb	w8,[x19]
	stp	q0,q1,[sp,#128]
	b.eq	1f
	cbnz	w20,2f
	movi	v0.8b,#14
	ldr	d1,[sp,#96]
	cmhi	v1.8b,v1.8b,v0.8b
	umaxv	b1,v1.8b
	fmov	w9,s1
	tbnz	w9,#0,2f
	ldur	d1,[sp,#103]
	cmhi	v0.8b,v1.8b,v0.8b
	umaxv	b0,v0.8b
	fmov	w9,s0
	tbz	w9,#0,1f
2:
	ubfiz	x8,x8,#2,#4
	mov	x26,x6
	str	x4,[sp,#88]
	add	x9,x8,#16
	add	x8,x19,x9
	sub	x1,x29,x9
2:
	cbz	x1,1f
	ldrb	w9,[x8]
	cbnz	w9,3f
	cmp	x1,#2
	b.eq	4f
	cmp	x1,#1
	b.eq	1f
	cmp	x1,#3
	b.hi	5f
	ldrb	w9,[x8,#1]
	cbnz	w9,5f
	ldrb	w9,[x8,#2]
	cbnz	w9,5f
	b	1f
4:
	ldrb	w9,[x8,#1]
	cbz	w9,1f
5:
	sub	x1,x1,#1
	mov	x25,x0
	add	x0,x8,#1
	mov	x27,x5
	bl	"rtp_841016a0_rtp_ext::elements::skip_zeros"
	ldr	x4,[sp,#88]
	mov	x8,x0
	mov	x0,x25
	cbz	x1,1f
	ldrb	w9,[x8]
	mov	x5,x27
	mov	x6,x26
3:
	cmp	w9,#239
	b.hi	1f
	and	w10,w9,#0xf
	add	w10,w10,#2
	subs	x1,x1,x10
	b.lo	1f
	mov	w9,w9
	add	x11,sp,#96
	add	x8,x8,x10
	orr	x9,x11,x9,lsr #4
	ldrb	w9,[x9]
	cmp	w9,#15
	b.lo	2b
	mov	w9,#262140
	lsl	x10,x29,#1
	movi	v0.2d,#0000000000000000
	cmp	x5,x9
	mov	x2,xzr
	mov	w8,wzr
	csel	x1,x5,x9,lo
	add	x9,x10,#3
	subs	x9,x1,x9
	csel	x9,xzr,x9,lo
	stp	q0,q0,[x6]
	stp	q0,q0,[x6,#32]
	stp	q0,q0,[x6,#64]
	stp	q0,q0,[x6,#96]
	b.lo	2f
	cmp	x9,x24
	b.lo	2f
	ldr	x9,[x21,#32]
	ldrb	w8,[x19]
	cbz	x9,3f
	ldrb	w9,[x21,#40]
	cmp	w9,#1
	b.ne	3f
	ldrb	w9,[x21,#41]
	cmp	w9,#1
	b.ne	4f
3:
	ubfiz	x27,x8,#2,#4
	add	x7,sp,#352
	stp	x1,x0,[sp,#32]
	mov	x0,x4
	mov	w3,w20
	mov	w4,#1
	add	x25,x27,#16
	add	x2,x27,#16
	stp	x21,x23,[sp,#352]
	sub	x6,x29,x25
	add	x5,x19,x25
	stp	x24,x22,[sp,#368]
	str	x26,[sp]
	bl	"rtp_841016a0_rtp_route::walk::write_kept::<#687967002a58489c>"
	mov	w9,w0
	ldp	x17,x0,[sp,#32]
	ldr	x8,[sp,#88]
	tbz	w9,#0,4f
	ldr	x24,[x21,#32]
	cbz	x24,3f
	mov	x10,x26
	mov	x29,xzr
	add	x22,x8,#2
	add	x9,x8,#18
	stp	x9,x27,[sp,#16]
	b	5f
1:
	stp	xzr,xzr,[x0]
	strh	wzr,[x0,#16]
1:
	ldp	x20,x19,[sp,#464]
	ldr	x29,[sp,#384]
	ldp	x22,x21,[sp,#448]
	ldp	x24,x23,[sp,#432]
	ldp	x26,x25,[sp,#416]
	ldp	x30,x27,[sp,#400]
	add	sp,sp,#480
	ret
6:
	ldrb	w9,[x9]
	strb	w9,[x8,x4]
7:
	add	x1,x4,x23
	stp	w4,w23,[x3]
8:
	add	x29,x29,#1
	cmp	x29,x24
	b.eq	3f
5:
	add	x3,x10,x29,lsl #3
	ldr	w9,[x3]
	cbnz	w9,8b
	ldr	x9,[x21,#24]
	add	x9,x9,x29,lsl #5
	ldr	x23,[x9,#8]
	add	x11,x1,x23
	add	x11,x11,#2
	cmp	x17,x11
	b.lo	4f
	ldr	x11,[x21,#8]
	ldr	x12,[x9]
	add	x14,x8,x1
	ldrb	w13,[x9,#24]
	add	x4,x1,#2
	strb	w23,[x14,#1]
	add	x9,x11,x12
	strb	w13,[x14]
	cbz	x23,5f
	cmp	x23,#1
	b.eq	6b
	cmp	x23,#2
	b.hi	6f
	ldrb	w11,[x9]
	add	x12,x8,x4
	strb	w11,[x12]
	ldrb	w9,[x9,#1]
	strb	w9,[x12,#1]
	b	7b
6:
	cmp	x23,#3
	b.ne	5f
	ldrb	w11,[x9]
	add	x12,x8,x4
	strb	w11,[x12]
	ldrb	w11,[x9,#1]
	strb	w11,[x12,#1]
	ldrb	w9,[x9,#2]
	strb	w9,[x12,#2]
	b	7b
5:
	add	x13,x8,x4
	sub	x13,x13,x9
	cmp	x13,x23
	b.hs	5f
	cmp	x23,#8
	b.lo	6f
	add	x9,x22,x1
	sub	x9,x9,x11
	sub	x9,x9,x12
	cmp	x9,#32
	b.hs	8f
6:
	mov	x9,xzr
6:
	add	x12,x9,x12
	add	x13,x9,x1
	sub	x9,x23,x9
	add	x11,x11,x12
	add	x12,x22,x13
9:
	ldrb	w13,[x11],#1
	subs	x9,x9,#1
	strb	w13,[x12],#1
	b.ne	9b
	b	7b
5:
	add	x0,x8,x4
	mov	x1,x9
	mov	x2,x23
	mov	x25,x3
	mov	x27,x4
	bl	memmove
	mov	x4,x27
	ldp	x27,x17,[sp,#24]
	ldr	x8,[sp,#88]
	ldr	x0,[sp,#40]
	mov	x3,x25
	mov	x10,x26
	add	x25,x27,#16
	b	7b
8:
	cmp	x23,#32
	b.hs	5f
	mov	x9,xzr
	b	8f
5:
	ldr	x15,[sp,#16]
	add	x14,x11,x12
	and	x13,x23,#0x18
	and	x9,x23,#0xffffffffffffffe0
	add	x14,x14,#16
	and	x16,x23,#0xffffffffffffffe0
	add	x15,x15,x1
5:
	ldp	q0,q1,[x14,#-16]
	subs	x16,x16,#32
	add	x14,x14,#32
	stp	q0,q1,[x15,#-16]
	add	x15,x15,#32
	b.ne	5b
	cmp	x23,x9
	b.eq	7b
	cbz	x13,6b
8:
	mov	x13,x9
	and	x9,x23,#0xfffffffffffffff8
	add	x14,x13,x12
	add	x15,x1,x13
	sub	x13,x13,x9
	add	x14,x11,x14
	add	x15,x22,x15
5:
	ldr	d0,[x14],#8
	adds	x13,x13,#8
	str	d0,[x15],#8
	b.ne	5b
	cmp	x23,x9
	b.eq	7b
	b	6b
3:
	add	x9,x1,#3
	and	x2,x9,#0xfffffffffffffffc
	cmp	x17,x2
	b.hs	3f
4:
	mov	w8,wzr
	mov	x2,xzr
2:
	mov	w9,w8
	strb	w8,[x0,#16]
	stp	x9,x2,[x0]
	strb	w8,[x0,#17]
	b	1b
3:
	subs	x9,x2,x1
	b.eq	1f
	cmp	x9,#2
	b.eq	3f
	cmp	x9,#1
	b.ne	4f
	strb	wzr,[x8,x1]
	b	1f
3:
	strh	wzr,[x8,x1]
	b	1f
4:
	add	x9,x8,x1
	strb	wzr,[x9,#2]
	strh	wzr,[x9]
1:
	cmp	w27,#33
	sub	x21,x2,x25
	b.lo	1f
	mov	x0,x8
	mov	x1,x19
	mov	x19,x2
	mov	x2,x25
	bl	"rtp_841016a0_rtp_route::copying::put_any"
	ldr	x8,[sp,#88]
	ldr	x0,[sp,#40]
	mov	x2,x19
	b	3f
1:
	ldr	q0,[x19]
	cmp	w27,#17
	str	q0,[x8]
	b.lo	1f
	ldr	q0,[x19,#16]
	str	q0,[x8,#16]
1:
	ldr	q0,[x19,x27]
	str	q0,[x8,x27]
3:
	ldp	w14,w13,[sp,#80]
	ldp	w16,w15,[sp,#72]
	ldr	w12,[sp,#392]
	cmp	w20,#1
	b.ne	1f
	lsl	w9,w21,#6
	add	x10,x8,x25
	cmp	w16,#1
	bfxil	w9,w21,#10,#8
	sturh	w9,[x10,#-2]
	b.ne	3f
4:
	ldrb	w9,[x8,#1]
	ldr	w10,[sp,#60]
	bfi	w9,w10,#7,#8
	strb	w9,[x8,#1]
	cmp	w14,#1
	b.eq	5f
6:
	cmp	w13,#1
	b.ne	7f
8:
	ldr	w9,[sp,#56]
	rev16	w9,w9
	strh	w9,[x8,#2]
	cmp	w15,#1
	b.eq	9f
10:
	cmp	w12,#1
	b.ne	11f
12:
	ldr	w9,[sp,#68]
	rev	w9,w9
	str	w9,[x8,#8]
11:
	mov	w8,#1
	b	2b
1:
	add	x9,x8,x25
	add	x10,sp,#352
	sub	x9,x9,#4
	sub	x11,x9,x10
	mov	w10,#16
	cmp	x11,#1
	strh	w10,[sp,#352]
	b.hi	1f
	ldrh	w10,[sp,#352]
1:
	strh	w10,[x9]
	lsl	w9,w21,#6
	add	x10,x8,x25
	cmp	w16,#1
	bfxil	w9,w21,#10,#8
	sturh	w9,[x10,#-2]
	b.eq	4b
3:
	cmp	w14,#1
	b.ne	6b
5:
	ldrb	w9,[x8,#1]
	ldr	w10,[sp,#64]
	and	w9,w9,#0x80
	add	w9,w9,w10
	strb	w9,[x8,#1]
	cmp	w13,#1
	b.eq	8b
7:
	cmp	w15,#1
	b.ne	10b
9:
	ldr	w9,[sp,#52]
	rev	w9,w9
	str	w9,[x8,#4]
	cmp	w12,#1
	b.eq	12b
	b	11b
	.size	"rtp_841016a0_rtp_route::by_walk::write_in_two_byte_form::<#687967002a58489c>", .-"rtp_841016a0_rtp_route::by_walk::write_in_two_byte_form::<#687967002a58489c>"
	.cfi_endproc

	.section	".text.unlikely.rtp_route::making::make_by_calls_of::<#687967002a58489c>","ax",@progbits
	.p2align	2
	.type	"rtp_841016a0_rtp_route::making::make_by_calls_of::<#687967002a58489c>",@function
"rtp_841016a0_rtp_route::making::make_by_calls_of::<#687967002a58489c>":
	.cfi_startproc
	sub	sp,sp,#400
	str	x29,[sp,#368]
	stp	x30,x19,[sp,#384]
	.cfi_def_cfa_offset 400
	.cfi_offset w19,-8
	.cfi_offset w30,-16
	.cfi_offset w29,-32
	ldr	x8,[x2]
	ldr	x10,[x2,#24]
	mov	x19,x0
	add	x0,sp,#336
	stp	x10,xzr,[sp,#64]
	ldr	x9,[x8]
	ldp	q1,q0,[x9,#32]
	ldp	q2,q3,[x9]
	stp	q1,q0,[sp,#112]
	stp	q2,q3,[sp,#80]
	movi	v2.2d,#0000000000000000
	ldp	q0,q1,[x9,#96]
	ldp	q3,q4,[x9,#64]
	stp	q0,q1,[sp,#176]
	stp	q3,q4,[sp,#144]
	ldp	q1,q0,[x9,#160]
	stp	q2,q2,[sp,#336]
	ldp	q2,q3,[x9,#128]
	stp	q1,q0,[sp,#240]
	ldur	q0,[x2,#8]
	add	x2,sp,#32
	stp	q2,q3,[sp,#208]
	str	q0,[sp,#48]
	ldp	q1,q0,[x9,#224]
	ldp	q2,q3,[x9,#192]
	add	x9,sp,#80
	stp	x9,x8,[sp,#32]
	ldrh	w9,[x1,#24]
	stp	q1,q0,[sp,#304]
	ldr	q0,[x1]
	stp	q2,q3,[sp,#272]
	ldrh	w10,[x8,#40]
	ldr	x8,[x1,#16]
	mov	x1,sp
	str	q0,[sp]
	strh	w10,[sp,#72]
	stp	x8,xzr,[sp,#16]
	strh	w9,[sp,#24]
	bl	"rtp_841016a0_rtp_route::making::make_by_calls::<#2b2c45b9ae55a838>"
	ldrb	w8,[sp,#336]
	ldr	x9,[sp,#344]
	ldrh	w10,[sp,#352]
	stp	x8,x9,[x19]
	ldp	x8,x29,[sp,#360]
	strh	w10,[x19,#16]
	str	x8,[x19,#24]
	ldp	x30,x19,[sp,#384]
	add	sp,sp,#400
	ret
	.size	"rtp_841016a0_rtp_route::making::make_by_calls_of::<#687967002a58489c>", .-"rtp_841016a0_rtp_route::making::make_by_calls_of::<#687967002a58489c>"
	.cfi_endproc

	.section	".text.unlikely.rtp_route::making::make_by_calls::<#2b2c45b9ae55a838>","ax",@progbits
	.p2align	2
	.type	"rtp_841016a0_rtp_route::making::make_by_calls::<#2b2c45b9ae55a838>",@function
"rtp_841016a0_rtp_route::making::make_by_calls::<#2b2c45b9ae55a838>":
	.cfi_startproc
	sub	sp,sp,#448
	str	x29,[sp,#352]
	stp	x30,x27,[sp,#368]
	stp	x26,x25,[sp,#384]
	stp	x24,x23,[sp,#400]
	stp	x22,x21,[sp,#416]
	stp	x20,x19,[sp,#432]
	.cfi_def_cfa_offset 448
	.cfi_offset w19,-8
	.cfi_offset w20,-16
	.cfi_offset w21,-24
	.cfi_offset w22,-32
	.cfi_offset w23,-40
	.cfi_offset w24,-48
	.cfi_offset w25,-56
	.cfi_offset w26,-64
	.cfi_offset w27,-72
	.cfi_offset w30,-80
	.cfi_offset w29,-96
	movi	v0.2d,#0000000000000000
	mov	x20,x2
	mov	x8,x1
	ldr	x2,[x1,#16]
	ldr	x1,[x1]
	ldrb	w26,[x8,#24]
	ldrb	w27,[x8,#25]
	mov	x19,x0
	stp	xzr,xzr,[sp,#184]
	cmp	x4,x2
	stp	q0,q0,[sp,#16]
	stp	q0,q0,[sp,#48]
	stp	q0,q0,[sp,#80]
	stp	q0,q0,[sp,#112]
	stp	q0,q0,[sp,#144]
	b.hs	1f
	mov	w8,wzr
	mov	w9,#8
	mov	w10,#3
	b	2f
1:
	sub	x8,x2,#49
	mov	x22,x4
	mov	x21,x3
	cmn	x8,#34
	mov	x23,x2
	str	x5,[sp,#360]
	b.hi	1f
	mov	x0,x21
	bl	"rtp_841016a0_rtp_route::copying::put_any"
	mov	x2,x23
	b	3f
1:
	ldr	q0,[x1]
	cmp	x2,#33
	str	q0,[x21]
	b.lo	1f
	ldr	q0,[x1,#16]
	str	q0,[x21,#16]
1:
	sub	x8,x2,#16
	ldr	q0,[x1,x8]
	str	q0,[x21,x8]
3:
	ldr	x24,[x20]
	ldrb	w25,[x20,#40]
	add	x0,sp,#224
	ldrb	w29,[x20,#41]
	stp	x2,xzr,[sp,#240]
	mov	x1,x24
	stp	x21,x2,[sp,#224]
	strb	w26,[sp,#248]
	strb	w27,[sp,#249]
	bl	"rtp_841016a0_rtp_wire::packet::rtp_packet_mut::RtpPacketMut::renumber"
	tbz	w0,#0,1f
	ldr	x24,[x20,#8]
	stp	xzr,xzr,[sp,#224]
	str	xzr,[sp,#240]
	ldr	x26,[x24,#32]
	cbz	x26,3f
4:
	mov	x27,xzr
	mov	x3,x23
5:
	ldr	x8,[x24,#24]
	ldr	x9,[x24,#8]
	add	x0,sp,#224
	ldrb	w11,[x20,#41]
	ldrb	w7,[x20,#40]
	mov	x1,x21
	add	x8,x8,x27
	mov	x2,x22
	ldp	x10,x6,[x8]
	ldrb	w4,[x8,#24]
	strb	w11,[sp]
	add	x5,x9,x10
	bl	"rtp_841016a0_rtp_wire::packet::putting::put_element_copy::<=1>"
	ldrb	w8,[sp,#224]
	ldr	x3,[sp,#232]
	cbnz	w8,6f
	subs	x26,x26,#1
	add	x27,x27,#32
	b.ne	5b
	b	5f
1:
	cmp	w25,#1
	b.ne	1f
	cbnz	w29,1f
	mov	w9,wzr
	mov	w8,wzr
	mov	x2,xzr
	mov	w10,#2
	b	2f
6:
	ldr	x2,[sp,#240]
	lsr	x8,x3,#8
	mov	w9,w3
	mov	w10,#3
2:
	mov	w11,#1
	strb	w9,[x19,#16]
	stp	x11,x10,[x19]
	strb	w8,[x19,#17]
	str	x2,[x19,#24]
6:
	ldp	x20,x19,[sp,#432]
	ldr	x29,[sp,#352]
	ldp	x22,x21,[sp,#416]
	ldp	x24,x23,[sp,#400]
	ldp	x26,x25,[sp,#384]
	ldp	x30,x27,[sp,#368]
	add	sp,sp,#448
	ret
1:
	add	x0,sp,#200
	mov	x1,x21
	mov	x2,x22
	mov	x3,x23
	bl	"rtp_841016a0_rtp_route::in_place::change_form"
	ldrb	w8,[sp,#200]
	ldr	x9,[sp,#208]
	cbz	w8,1f
	ldr	x2,[sp,#216]
	lsr	x8,x9,#8
	mov	w10,#3
	b	2b
1:
	mov	w8,#257
	add	x0,sp,#224
	mov	x1,x24
	stp	x21,x9,[sp,#224]
	mov	x23,x9
	stp	x9,x8,[sp,#240]
	bl	"rtp_841016a0_rtp_wire::packet::rtp_packet_mut::RtpPacketMut::renumber"
	ldr	x24,[x20,#8]
	stp	xzr,xzr,[sp,#224]
	str	xzr,[sp,#240]
	ldr	x26,[x24,#32]
	cbnz	x26,4b
3:
	mov	x3,x23
5:
	add	x0,sp,#184
	mov	x1,x21
	mov	x2,x3
	bl	"rtp_841016a0_rtp_wire::packet::compacting::compact_copy::<=1>"
	ldrb	w8,[sp,#184]
	cbnz	w8,1f
	ldr	x22,[sp,#192]
	cmp	x22,#12
	b.lo	1f
	ldrsb	w8,[x21]
	cmn	w8,#65
	b.gt	1f
	and	x9,x8,#0xff
	ubfiz	x8,x9,#2,#4
	add	x8,x8,#12
	subs	x10,x22,x8
	b.lo	1f
	tbnz	w9,#4,2f
	mov	w24,wzr
	mov	w23,wzr
	b	3f
2:
	subs	x11,x10,#4
	b.lo	1f
	add	x10,x21,x8
	ldrb	w9,[x10,#2]
	ldrb	w12,[x10,#3]
	lsl	x9,x9,#10
	orr	x9,x9,x12,lsl #2
	cmp	x11,x9
	b.lo	1f
	ldrh	w10,[x10]
	add	x8,x8,x9
	add	x8,x8,#4
	and	w11,w10,#0xfffff0ff
	cmp	w11,#16
	mov	w11,#57022
	cset	w23,eq
	cmp	w10,w11
	csinc	w24,w23,wzr,ne
3:
	str	x8,[sp,#160]
	movi	v0.2d,#0000000000000000
	ldr	x8,[x20,#8]
	stp	x21,x22,[sp,#144]
	ldr	x20,[x8,#32]
	strb	w24,[sp,#168]
	strb	w23,[sp,#169]
	str	wzr,[sp,#208]
	str	xzr,[sp,#200]
	stp	q0,q0,[sp,#224]
	stp	q0,q0,[sp,#256]
	stp	q0,q0,[sp,#288]
	stp	q0,q0,[sp,#320]
	cbz	x20,2f
	ldr	x8,[x8,#24]
	add	x26,sp,#224
	add	x21,x8,#24
3:
	ldrb	w2,[x21],#32
	add	x0,sp,#200
	add	x1,sp,#144
	bl	"rtp_841016a0_rtp_route::slots::slot_of"
	ldrb	w8,[sp,#200]
	cmp	w8,#1
	b.ne	1f
	ldur	x8,[sp,#204]
	subs	x20,x20,#1
	str	x8,[x26],#8
	b.ne	3b
2:
	ldp	q0,q1,[sp,#288]
	ldr	x8,[sp,#360]
	ldp	q2,q3,[sp,#320]
	ldp	q4,q5,[sp,#224]
	ldp	q6,q7,[sp,#256]
	stp	q0,q1,[sp,#80]
	stp	q2,q3,[sp,#112]
	stp	q4,q5,[sp,#16]
	stp	q6,q7,[sp,#48]
	stp	q4,q5,[x8]
	stp	q6,q7,[x8,#32]
	stp	q0,q1,[x8,#64]
	stp	q2,q3,[x8,#96]
	stp	xzr,x22,[x19]
	strb	w24,[x19,#16]
	strb	w23,[x19,#17]
	str	xzr,[x19,#24]
	b	6b
1:
	brk	#0x1
	.size	"rtp_841016a0_rtp_route::making::make_by_calls::<#2b2c45b9ae55a838>", .-"rtp_841016a0_rtp_route::making::make_by_calls::<#2b2c45b9ae55a838>"
	.cfi_endproc

	.section	.rodata.cst16,"aM",@progbits,16
	.p2align	4,0x0
.Lrtp_841016a0_CPI54_0:
	.xword	1
	.xword	0
	.section	".text.rtp_c::receiver::receive_any","ax",@progbits
	.p2align	2
	.type	"rtp_841016a0_rtp_c::receiver::receive_any",@function
"rtp_841016a0_rtp_c::receiver::receive_any":
	.cfi_startproc
	ldrb	w8,[x0,#24]
	ldr	x10,[x0]
	cbz	w8,1f
	sub	w9,w1,w10
	sxth	w11,w9
	add	x12,x10,w9,uxth
	cmn	w11,#8,lsl #12
	and	x11,x10,#0x8000
	ccmp	x11,#0,#0,eq
	mov	x11,#-65536
	csel	x11,xzr,x11,eq
	tst	w9,#0x8000
	add	x11,x11,x12
	csel	x9,x12,x11,eq
	ldp	x12,x11,[x0,#8]
	subs	x13,x10,x9
	orr	x12,x12,#0x1
	b.hs	2f
	sub	x10,x9,x10
	cmp	x10,#1
	b.ne	3f
	orr	x13,x10,x12,lsl #1
	extr	x11,x11,x12,#63
	cmp	w8,#1
	stp	x9,x13,[x0]
	str	x11,[x0,#16]
	b.ne	4f
	b	5f
1:
	adrp	x8,.Lrtp_841016a0_CPI54_0
	bfxil	x10,x1,#0,#16
	ldr	q0,[x8,:lo12:.Lrtp_841016a0_CPI54_0]
	str	x10,[x0]
	mov	x9,x10
	stur	q0,[x0,#8]
	b	4f
2:
	cmp	x13,#127
	b.ls	1f
	mov	w0,#10
	ret
3:
	cmp	x10,#127
	b.hi	2f
	lsr	x13,x12,#1
	mvn	w14,w10
	lsl	x11,x11,x10
	lsl	x12,x12,x10
	tst	x10,#0x40
	lsr	x13,x13,x14
	orr	x10,x11,x13
	csel	x13,xzr,x12,ne
	csel	x11,x12,x10,ne
	orr	x13,x13,#0x1
	cmp	w8,#1
	stp	x9,x13,[x0]
	str	x11,[x0,#16]
	b.ne	4f
	b	5f
1:
	mov	w14,#1
	tst	x13,#0x40
	lsl	x14,x14,x13
	csel	x13,xzr,x14,ne
	csel	x14,x14,xzr,ne
	and	x15,x11,x14
	and	x16,x12,x13
	orr	x15,x16,x15
	cbz	x15,1f
	mov	w0,#10
	ret
2:
	mov	w13,#1
	cmp	w8,#1
	stp	x9,x13,[x0]
	str	xzr,[x0,#16]
	b.eq	5f
4:
	mov	w8,#1
	strb	w8,[x0,#24]
5:
	mov	w0,wzr
	str	x9,[x2]
	ret
1:
	orr	x13,x12,x13
	orr	x11,x11,x14
	cmp	w8,#1
	stp	x10,x13,[x0]
	str	x11,[x0,#16]
	b.ne	4b
	b	5b
	.size	"rtp_841016a0_rtp_c::receiver::receive_any", .-"rtp_841016a0_rtp_c::receiver::receive_any"
	.cfi_endproc

	.section	".text.rtp_base::ring::ring_start","ax",@progbits
	.p2align	2
	.type	"rtp_841016a0_rtp_base::ring::ring_start",@function
"rtp_841016a0_rtp_base::ring::ring_start":
	.cfi_startproc
	cbz	x1,1f
	str	x30,[sp,#-48]!
	stp	x22,x21,[sp,#16]
	stp	x20,x19,[sp,#32]
	.cfi_def_cfa_offset 48
	.cfi_offset w19,-8
	.cfi_offset w20,-16
	.cfi_offset w21,-24
	.cfi_offset w22,-32
	.cfi_offset w30,-48
	mov	x20,x2
	mov	x21,x1
	mov	x19,x0
	subs	x22,x1,#1
	b.eq	2f
	lsl	x8,x21,#3
	mov	x0,x19
	mov	w1,wzr
	sub	x2,x8,#8
	bl	memset
	cmp	x21,#16
	str	xzr,[x19,x22,lsl #3]
	b.ne	3f
	ubfx	x8,x20,#6,#4
	b	4f
2:
	str	xzr,[x19]
3:
	lsr	x8,x20,#6
	udiv	x9,x8,x21
	msub	x8,x9,x21,x8
4:
	mov	w9,#1
	ldr	x10,[x19,x8,lsl #3]
	lsl	x9,x9,x20
	ldp	x22,x21,[sp,#16]
	orr	x9,x10,x9
	str	x9,[x19,x8,lsl #3]
	ldp	x20,x19,[sp,#32]
	ldr	x30,[sp],#48
	ret
1:
	brk	#0x1
	.size	"rtp_841016a0_rtp_base::ring::ring_start", .-"rtp_841016a0_rtp_base::ring::ring_start"
	.cfi_endproc

	.section	".text.rtp_base::ring::clear","ax",@progbits
	.p2align	2
	.type	"rtp_841016a0_rtp_base::ring::clear",@function
"rtp_841016a0_rtp_base::ring::clear":
	.cfi_startproc
	sub	x8,x3,x2
	cmp	x1,x8,lsr #6
	b.ls	1f
	cmp	x3,x2
	b.ls	2f
	cmp	x1,#16
	b.ne	3f
4:
	and	x8,x2,#0x3f
	mov	w9,#64
	sub	x10,x3,x2
	sub	x9,x9,x8
	neg	x8,x8
	cmp	x10,x9
	csel	x9,x10,x9,lo
	mov	x10,#-1
	sub	x8,x8,x9
	lsr	x8,x10,x8
	lsr	x10,x2,#3
	lsr	x8,x8,x2
	and	x10,x10,#0x78
	ldr	x11,[x0,x10]
	lsl	x8,x8,x2
	add	x2,x9,x2
	cmp	x2,x3
	bic	x8,x11,x8
	str	x8,[x0,x10]
	b.lo	4b
2:
	ret
3:
	lsr	x8,x2,#6
	and	x10,x2,#0x3f
	mov	w11,#64
	sub	x11,x11,x10
	sub	x12,x3,x2
	neg	x10,x10
	udiv	x9,x8,x1
	cmp	x12,x11
	csel	x11,x12,x11,lo
	msub	x8,x9,x1,x8
	sub	x9,x10,x11
	mov	x10,#-1
	lsr	x9,x10,x9
	lsr	x9,x9,x2
	lsl	x9,x9,x2
	ldr	x10,[x0,x8,lsl #3]
	add	x2,x11,x2
	cmp	x2,x3
	bic	x9,x10,x9
	str	x9,[x0,x8,lsl #3]
	b.lo	3b
	b	2b
1:
	cbz	x1,2b
	str	x30,[sp,#-32]!
	stp	x20,x19,[sp,#16]
	.cfi_def_cfa_offset 32
	.cfi_offset w19,-8
	.cfi_offset w20,-16
	.cfi_offset w30,-32
	subs	x20,x1,#1
	b.eq	1f
	lsl	x8,x1,#3
	mov	w1,wzr
	mov	x19,x0
	sub	x2,x8,#8
	bl	memset
	mov	x0,x19
1:
	str	xzr,[x0,x20,lsl #3]
	ldp	x20,x19,[sp,#16]
	ldr	x30,[sp],#32
	ret
	.size	"rtp_841016a0_rtp_base::ring::clear", .-"rtp_841016a0_rtp_base::ring::clear"
	.cfi_endproc

	.section	".text.rtp_c::wide_receiver::receive_other","ax",@progbits
	.p2align	2
	.type	"rtp_841016a0_rtp_c::wide_receiver::receive_other",@function
"rtp_841016a0_rtp_c::wide_receiver::receive_other":
	.cfi_startproc
	stp	x30,x23,[sp,#-48]!
	stp	x22,x21,[sp,#16]
	stp	x20,x19,[sp,#32]
	.cfi_def_cfa_offset 48
	.cfi_offset w19,-8
	.cfi_offset w20,-16
	.cfi_offset w21,-24
	.cfi_offset w22,-32
	.cfi_offset w23,-40
	.cfi_offset w30,-48
	ldrb	w8,[x0,#8]
	mov	x19,x4
	mov	x20,x3
	mov	x21,x0
	cbz	w8,1f
	ldr	x8,[x21]
	subs	x9,x8,x20
	b.ne	2f
3:
	mov	w0,#10
	ldp	x20,x19,[sp,#32]
	ldp	x22,x21,[sp,#16]
	ldp	x30,x23,[sp],#48
	ret
1:
	mov	x0,x1
	mov	x1,x2
	mov	x2,x20
	bl	"rtp_841016a0_rtp_base::ring::ring_start"
1:
	mov	x8,x20
4:
	mov	w0,wzr
	str	x8,[x21]
	mov	w8,#1
	strb	w8,[x21,#8]
	str	x20,[x19]
	ldp	x20,x19,[sp,#32]
	ldp	x22,x21,[sp,#16]
	ldp	x30,x23,[sp],#48
	ret
2:
	b.hs	2f
5:
	cmp	x2,#16
	b.eq	6f
	cbz	x2,7f
	lsr	x9,x8,#6
	udiv	x10,x9,x2
	msub	x9,x10,x2,x9
	b	8f
2:
	cmp	x2,x9,lsr #6
	b.ls	3b
	cmp	x2,#16
	b.ne	2f
	ubfx	x9,x20,#6,#4
	ldr	x9,[x1,x9,lsl #3]
	lsr	x9,x9,x20
	tbnz	w9,#0,3b
	b	5b
6:
	ubfx	x9,x8,#6,#4
8:
	mov	w10,#1
	ldr	x12,[x1,x9,lsl #3]
	lsl	x11,x10,x8
	subs	x10,x8,x20
	orr	x11,x12,x11
	str	x11,[x1,x9,lsl #3]
	b.hs	6f
	sub	x9,x20,x8
	cmp	x9,#2
	b.lo	8f
	mov	x22,x2
	add	x2,x8,#1
	mov	x0,x1
	mov	x23,x1
	mov	x1,x22
	mov	x3,x20
	bl	"rtp_841016a0_rtp_base::ring::clear"
	mov	x2,x22
	mov	x1,x23
8:
	cmp	x2,#16
	b.ne	8f
	ubfx	x8,x20,#6,#4
	b	9f
6:
	cmp	x2,x10,lsr #6
	b.ls	4b
	mov	w9,#1
	lsr	x10,x20,#6
	cmp	x2,#16
	lsl	x9,x9,x20
	b.ne	6f
	ubfiz	x10,x10,#3,#4
	ldr	x11,[x1,x10]
	tst	x11,x9
	b.ne	4b
	ldr	x11,[x1,x10]
	b	10f
8:
	lsr	x8,x20,#6
	udiv	x9,x8,x2
	msub	x8,x9,x2,x8
9:
	mov	w9,#1
	ldr	x10,[x1,x8,lsl #3]
	lsl	x9,x9,x20
	orr	x9,x10,x9
	str	x9,[x1,x8,lsl #3]
	b	1b
2:
	lsr	x9,x20,#6
	udiv	x10,x9,x2
	msub	x9,x10,x2,x9
	ldr	x9,[x1,x9,lsl #3]
	lsr	x9,x9,x20
	tbnz	w9,#0,3b
	b	5b
6:
	udiv	x11,x10,x2
	msub	x10,x11,x2,x10
	lsl	x10,x10,#3
	ldr	x11,[x1,x10]
	tst	x11,x9
	b.ne	4b
10:
	orr	x9,x11,x9
	str	x9,[x1,x10]
	b	4b
7:
	brk	#0x1
	.size	"rtp_841016a0_rtp_c::wide_receiver::receive_other", .-"rtp_841016a0_rtp_c::wide_receiver::receive_other"
	.cfi_endproc

	.section	".text.unlikely.rtp_c::whole_packet::status_of_no_packet","ax",@progbits
	.p2align	2
	.type	"rtp_841016a0_rtp_c::whole_packet::status_of_no_packet",@function
"rtp_841016a0_rtp_c::whole_packet::status_of_no_packet":
	.cfi_startproc
	cmp	x1,#2
	b.lo	1f
	ldrsb	w8,[x0]
	cmn	w8,#65
	b.gt	1f
	ldrb	w8,[x0,#1]
	and	w8,w8,#0xe0
	cmp	w8,#192
	b.ne	1f
	mov	w0,#17
	ret
1:
	and	x8,x2,#0xff
	adrp	x9, "rtp_841016a0_.Lrtp_841016a0_switch.table.rtp_c::whole_packet::status_of_no_packet"
	add	x9, x9, :lo12:"rtp_841016a0_.Lrtp_841016a0_switch.table.rtp_c::whole_packet::status_of_no_packet"
	ldr	w0,[x9,x8,lsl #2]
	ret
	.size	"rtp_841016a0_rtp_c::whole_packet::status_of_no_packet", .-"rtp_841016a0_rtp_c::whole_packet::status_of_no_packet"
	.cfi_endproc

	.section	".text.core::cmp::text::RefStrPartialEq::eq","ax",@progbits
	.p2align	2
	.type	"rtp_841016a0_core::cmp::text::RefStrPartialEq::eq",@function
"rtp_841016a0_core::cmp::text::RefStrPartialEq::eq":
	.cfi_startproc
	cmp	x1,x3
	b.ne	1f
	cmp	x1,#7
	b.hi	2f
	subs	x8,x1,#4
	b.lo	3f
	ldr	w9,[x0]
	ldr	w10,[x0,x8]
	ldr	w11,[x2]
	ldr	w8,[x2,x8]
	orr	x9,x9,x10,lsl #32
	orr	x10,x11,x8,lsl #32
	rev	x8,x9
	rev	x9,x10
	cmp	x8,x9
	cset	w0,eq
	ret
1:
	mov	w0,wzr
	ret
2:
	cmp	x1,#32
	b.hi	1f
	sub	x8,x1,#8
	mov	w11,#8
	ldr	x9,[x0]
	cmp	x8,#8
	ldr	x10,[x2]
	mov	w12,#16
	csel	x11,x8,x11,lo
	cmp	x8,#16
	csel	x12,x8,x12,lo
	ldr	x13,[x0,x11]
	ldr	x11,[x2,x11]
	cmp	x9,x10
	ldr	x9,[x0,x12]
	ldr	x10,[x2,x12]
	ccmp	x13,x11,#0,eq
	ldr	x11,[x0,x8]
	ldr	x8,[x2,x8]
	ccmp	x9,x10,#0,eq
	ccmp	x11,x8,#0,eq
	cset	w0,eq
	ret
3:
	cbz	x1,2f
	ldrb	w8,[x0]
	lsr	x9,x1,#1
	ldrb	w10,[x2]
	sub	x12,x1,#1
	ldrb	w11,[x0,x9]
	lsl	x8,x8,#16
	ldrb	w9,[x2,x9]
	lsl	x10,x10,#16
	orr	x8,x8,x11,lsl #8
	ldrb	w11,[x0,x12]
	orr	x9,x10,x9,lsl #8
	ldrb	w10,[x2,x12]
	orr	x8,x8,x11
	orr	x9,x9,x10
	cmp	x8,x9
	cset	w0,eq
	ret
1:
	cmp	x1,#65
	mov	x8,x0
	mov	x9,x2
	mov	x10,x1
	b.hs	1f
	ldp	q0,q3,[x2]
	sub	x8,x1,#16
	ldp	q1,q2,[x0]
	cmp	x8,#32
	mov	w9,#32
	csel	x9,x8,x9,lo
	cmeq	v0.16b,v1.16b,v0.16b
	cmeq	v1.16b,v2.16b,v3.16b
	ldr	q2,[x0,x9]
	ldr	q3,[x2,x9]
	mvn	v0.16b,v0.16b
	orn	v0.16b,v0.16b,v1.16b
	cmeq	v1.16b,v2.16b,v3.16b
	ldr	q2,[x0,x8]
	ldr	q3,[x2,x8]
	orn	v0.16b,v0.16b,v1.16b
	cmeq	v1.16b,v2.16b,v3.16b
	orn	v0.16b,v0.16b,v1.16b
	umaxv	b0,v0.16b
	fmov	w8,s0
	and	w8,w8,#0x1
	eor	w0,w8,#0x1
	ret
1:
	ldp	q3,q0,[x9]
	ldp	q2,q1,[x8]
	cmeq	v0.16b,v1.16b,v0.16b
	cmeq	v1.16b,v2.16b,v3.16b
	ldp	q2,q5,[x9,#32]
	ldp	q3,q4,[x8,#32]
	mvn	v0.16b,v0.16b
	cmeq	v2.16b,v3.16b,v2.16b
	orn	v0.16b,v0.16b,v1.16b
	cmeq	v1.16b,v4.16b,v5.16b
	orn	v0.16b,v0.16b,v2.16b
	orn	v0.16b,v0.16b,v1.16b
	cmlt	v0.16b,v0.16b,#0
	umaxv	b0,v0.16b
	fmov	w11,s0
	tbnz	w11,#0,3f
	sub	x10,x10,#64
	add	x9,x9,#64
	add	x8,x8,#64
	cmp	x10,#65
	b.hs	1b
	sub	x8,x1,#64
	add	x9,x0,x8
	add	x8,x2,x8
	ldp	q3,q0,[x8]
	ldp	q2,q1,[x9]
	cmeq	v0.16b,v1.16b,v0.16b
	cmeq	v1.16b,v2.16b,v3.16b
	ldp	q2,q5,[x8,#32]
	ldp	q3,q4,[x9,#32]
	mvn	v0.16b,v0.16b
	cmeq	v2.16b,v3.16b,v2.16b
	orn	v0.16b,v0.16b,v1.16b
	cmeq	v1.16b,v4.16b,v5.16b
	orn	v0.16b,v0.16b,v2.16b
	orn	v0.16b,v0.16b,v1.16b
	cmlt	v0.16b,v0.16b,#0
	umaxv	b0,v0.16b
	fmov	w8,s0
	and	w8,w8,#0x1
	eor	w0,w8,#0x1
	ret
2:
	cmp	xzr,xzr
	cset	w0,eq
	ret
3:
	mov	w8,#1
	eor	w0,w8,#0x1
	ret
	.size	"rtp_841016a0_core::cmp::text::RefStrPartialEq::eq", .-"rtp_841016a0_core::cmp::text::RefStrPartialEq::eq"
	.cfi_endproc

	.section	".text.rtp_c::given_layers::with_given_layers::<#6444109e7f8c5753>","ax",@progbits
	.p2align	2
	.type	"rtp_841016a0_rtp_c::given_layers::with_given_layers::<#6444109e7f8c5753>",@function
"rtp_841016a0_rtp_c::given_layers::with_given_layers::<#6444109e7f8c5753>":
	.cfi_startproc
	str	x21,[sp,#-32]!
	stp	x20,x19,[sp,#16]
	.cfi_def_cfa_offset 32
	.cfi_offset w19,-8
	.cfi_offset w20,-16
	.cfi_offset w21,-32
	ldrb	w8,[x2,#672]
	cmp	w8,#4
	b.hi	1f
	cbz	w8,2f
	ldrb	w9,[x2,#160]
	cmp	w9,#5
	b.hs	1f
	cbz	w9,3f
	ldrb	w10,[x2,#38]
	cmp	w10,#4
	b.hi	1f
	cmp	w9,#1
	b.ne	4f
3:
	cmp	w8,#1
	b.ne	5f
6:
	ldrb	w9,[x2,#673]
	str	wzr,[sp,#12]
	cmp	x9,#3
	b.hi	7f
	mov	w13,wzr
	mov	x11,xzr
	mov	x10,xzr
	mov	x12,x8
8:
	sub	x12,x12,#1
	mov	w14,#168
	madd	x15,x12,x14,x2
	ldrb	w16,[x15,#160]
	cbz	w16,9f
	cmp	w16,#4
	mov	w17,#4
	mov	w14,wzr
	csel	w16,w16,w17,lo
	b	10f
11:
	tbnz	w13,#0,7f
12:
	mov	w13,#1
	add	x11,x5,x11
	add	x10,x10,#1
	orr	w14,w13,w14,lsl #1
	mov	w13,w17
	cbz	x16,13f
10:
	sub	x16,x16,#1
	mov	w17,#40
	madd	x6,x16,x17,x15
	ldrb	w3,[x6,#37]
	cmp	w3,#0
	cset	w17,ne
	cbz	w3,14f
	ldrh	w4,[x6,#32]
	ldrh	w5,[x6,#34]
	cmp	w4,#0
	ccmp	w5,#0,#4,ne
	cset	w4,ne
	cmp	w14,#7
	b.ls	15f
	b	7f
14:
	mov	w4,wzr
	cmp	w14,#7
	b.hi	7f
15:
	ldrb	w7,[x6,#38]
	cbz	w7,14f
	ldr	x5,[x6]
	cmp	x5,#4,lsl #12
	b.lo	15f
	tbnz	x5,#63,7f
	cmp	x5,#512,lsl #12
	b.lo	16f
	lsr	x19,x5,#14
	mov	w5,#3
17:
	lsr	x20,x19,#14
	lsr	x19,x19,#7
	add	x5,x5,#1
	cbnz	x20,17b
	b	17f
14:
	cbnz	w3,7f
	lsl	w14,w14,#1
	cbnz	x16,10b
	b	13f
15:
	cmp	x5,#128
	mov	w5,#1
	cinc	x5,x5,hs
17:
	cmp	w7,#1
	b.eq	10f
14:
	ldr	x19,[x6,#8]
	lsr	x20,x19,#14
	cbz	x20,15f
	tbnz	x19,#63,7f
	cmp	x19,#512,lsl #12
	b.lo	17f
	mov	w19,#3
18:
	lsr	x21,x20,#14
	lsr	x20,x20,#7
	add	x19,x19,#1
	cbnz	x21,18b
	b	18f
15:
	cmp	x19,#128
	mov	w19,#1
	cinc	x19,x19,hs
18:
	cmp	w7,#2
	add	x5,x19,x5
	b.eq	10f
15:
	ldr	x19,[x6,#16]
	lsr	x20,x19,#14
	cbz	x20,18f
	tbnz	x19,#63,7f
	cmp	x19,#512,lsl #12
	b.lo	19f
	mov	w19,#3
20:
	lsr	x21,x20,#14
	lsr	x20,x20,#7
	add	x19,x19,#1
	cbnz	x21,20b
	b	20f
16:
	mov	w5,#3
	cmp	w7,#1
	b.ne	14b
	b	10f
18:
	cmp	x19,#128
	mov	w19,#1
	cinc	x19,x19,hs
20:
	cmp	w7,#3
	add	x5,x19,x5
	b.eq	10f
14:
	ldr	x6,[x6,#24]
	lsr	x7,x6,#14
	cbz	x7,16f
	tbnz	x6,#63,7f
	cmp	x6,#512,lsl #12
	b.lo	18f
	mov	w6,#3
20:
	lsr	x19,x7,#14
	lsr	x7,x7,#7
	add	x6,x6,#1
	cbnz	x19,20b
	b	20f
17:
	mov	w19,#3
	cmp	w7,#2
	add	x5,x19,x5
	b.ne	15b
	b	10f
16:
	cmp	x6,#128
	mov	w6,#1
	cinc	x6,x6,hs
	b	20f
19:
	mov	w19,#3
	cmp	w7,#3
	add	x5,x19,x5
	b.ne	14b
	b	10f
18:
	mov	w6,#3
20:
	add	x5,x6,x5
10:
	cbz	w3,11b
	cbz	w4,7f
	add	x5,x5,#5
	b	12b
9:
	mov	w14,wzr
13:
	add	x15,sp,#12
	strb	w14,[x15,x12]
	cbnz	x12,8b
	ldrb	w12,[sp,#12]
	mov	w13,#1
8:
	cmp	x8,x13
	b.eq	9f
	add	x14,sp,#12
	ldrb	w14,[x14,x13]
	add	x13,x13,#1
	cmp	w14,w12
	b.eq	8b
	add	x12,x8,#1
	lsr	x13,x12,#1
	mov	x12,xzr
	b	8f
2:
	ldrb	w8,[x2,#673]
	cbz	w8,2f
7:
	stp	xzr,xzr,[x0]
	stp	xzr,xzr,[x0,#16]
	stp	xzr,xzr,[x0,#32]
	ldp	x20,x19,[sp,#16]
	ldr	x21,[sp],#32
	ret
2:
	mov	x9,xzr
	mov	x8,xzr
	mov	x10,#281474976710656
2:
	mov	w11,#1
	stp	x11,x1,[x0]
	stp	x9,x2,[x0,#16]
	stp	x8,x10,[x0,#32]
	ldp	x20,x19,[sp,#16]
	ldr	x21,[sp],#32
	ret
5:
	ldrb	w9,[x2,#328]
	cmp	w9,#4
	b.hi	1f
	cbz	w9,5f
	ldrb	w10,[x2,#206]
	cmp	w10,#4
	b.hi	1f
	cmp	w9,#1
	b.ne	10f
5:
	cmp	w8,#2
	b.eq	6b
	ldrb	w9,[x2,#496]
	cmp	w9,#4
	b.hi	1f
	cbz	w9,11f
	ldrb	w10,[x2,#374]
	cmp	w10,#4
	b.hi	1f
	cmp	w9,#1
	b.ne	12f
11:
	cmp	w8,#3
	b.eq	6b
	ldrb	w9,[x2,#664]
	cmp	w9,#4
	b.hi	1f
	cbz	w9,6b
	ldrb	w10,[x2,#542]
	cmp	w10,#4
	b.hi	1f
	cmp	w9,#1
	b.eq	6b
	ldrb	w10,[x2,#582]
	cmp	w10,#4
	b.hi	1f
	cmp	w9,#2
	b.eq	6b
	ldrb	w10,[x2,#622]
	cmp	w10,#4
	b.hi	1f
	cmp	w9,#3
	b.eq	6b
	ldrb	w10,[x2,#662]
	cmp	w10,#4
	b.hi	1f
	cmp	w9,#4
	b.eq	6b
	b	1f
4:
	ldrb	w10,[x2,#78]
	cmp	w10,#4
	b.hi	1f
	cmp	w9,#2
	b.eq	3b
	ldrb	w10,[x2,#118]
	cmp	w10,#4
	b.hi	1f
	cmp	w9,#3
	b.eq	3b
	ldrb	w10,[x2,#158]
	cmp	w10,#4
	b.hi	1f
	cmp	w9,#4
	b.eq	3b
	b	1f
10:
	ldrb	w10,[x2,#246]
	cmp	w10,#4
	b.hi	1f
	cmp	w9,#2
	b.eq	5b
	ldrb	w10,[x2,#286]
	cmp	w10,#4
	b.hi	1f
	cmp	w9,#3
	b.eq	5b
	ldrb	w10,[x2,#326]
	cmp	w10,#4
	b.hi	1f
	cmp	w9,#4
	b.eq	5b
	b	1f
12:
	ldrb	w10,[x2,#414]
	cmp	w10,#4
	b.hi	1f
	cmp	w9,#2
	b.eq	11b
	ldrb	w10,[x2,#454]
	cmp	w10,#4
	b.hi	1f
	cmp	w9,#3
	b.eq	11b
	ldrb	w10,[x2,#494]
	cmp	w10,#4
	b.hi	1f
	cmp	w9,#4
	b.eq	11b
1:
	movi	v0.2d,#0000000000000000
	stp	q0,q0,[x0,#16]
	str	q0,[x0]
	ldp	x20,x19,[sp,#16]
	ldr	x21,[sp],#32
	ret
9:
	add	x13,x8,#1
	cmp	w12,#0
	lsl	x12,x12,#32
	lsr	x13,x13,#1
	csel	x13,x13,xzr,eq
8:
	add	w14,w10,#3
	add	w11,w11,w14,lsr #2
	add	w11,w11,w13
	add	w11,w11,#1
	ubfx	x13,x11,#8,#8
	cbnz	x13,7b
	ldr	w13,[sp,#12]
	bfi	x12,x10,#40,#8
	orr	x10,x12,x13
	bfi	x10,x11,#48,#16
	b	2b
	.size	"rtp_841016a0_rtp_c::given_layers::with_given_layers::<#6444109e7f8c5753>", .-"rtp_841016a0_rtp_c::given_layers::with_given_layers::<#6444109e7f8c5753>"
	.cfi_endproc

	.section	".text.rtp_ext::block_form::has_empty_data::<#16f98aa29e959305>","ax",@progbits
	.p2align	2
	.type	"rtp_841016a0_rtp_ext::block_form::has_empty_data::<#16f98aa29e959305>",@function
"rtp_841016a0_rtp_ext::block_form::has_empty_data::<#16f98aa29e959305>":
	.cfi_startproc
	cbz	x1,1f
	str	x30,[sp,#-32]!
	stp	x20,x19,[sp,#16]
	.cfi_def_cfa_offset 32
	.cfi_offset w19,-8
	.cfi_offset w20,-16
	.cfi_offset w30,-32
	mov	x19,x2
	mov	x20,x0
	mov	x8,xzr
2:
	cmp	x8,x1
	cset	w0,lo
	b.hs	3f
	add	x8,x8,#1
	ldrb	w9,[x20,x8]
	cmp	w9,#10
	b.eq	4f
	cmp	w9,#11
	b.eq	5f
	cmp	w9,#12
	b.ne	2b
	ldr	x9,[x19]
	ldrb	w10,[x9,#128]
	cbz	w10,2b
	ldrb	w9,[x9,#80]
	cbnz	w9,2b
	b	6f
3:
	cmp	x1,#15
	b.lo	6f
	cmp	x8,#254
	b.hi	6f
	mov	x0,x20
	mov	x1,x8
	bl	"rtp_841016a0_rtp_c::kinds::StoredMap::past_unmapped"
	add	x10,x0,#16
	mov	w9,#255
	mov	x8,x0
	cmp	x10,#255
	csel	x1,x10,x9,lo
	b	2b
5:
	ldr	x9,[x19]
	ldrb	w10,[x9,#130]
	cbz	w10,2b
	ldrb	w9,[x9,#106]
	cbnz	w9,2b
	b	6f
4:
	ldr	x9,[x19]
	ldrb	w10,[x9,#129]
	cbz	w10,2b
	ldrb	w9,[x9,#97]
	cbnz	w9,2b
6:
	ldp	x20,x19,[sp,#16]
	ldr	x30,[sp],#32
	ret
1:
	mov	w0,wzr
	ret
	.size	"rtp_841016a0_rtp_ext::block_form::has_empty_data::<#16f98aa29e959305>", .-"rtp_841016a0_rtp_ext::block_form::has_empty_data::<#16f98aa29e959305>"
	.cfi_endproc

	.section	".text.rtp_ext::block_elements::values_len::<#16f98aa29e959305>","ax",@progbits
	.p2align	2
	.type	"rtp_841016a0_rtp_ext::block_elements::values_len::<#16f98aa29e959305>",@function
"rtp_841016a0_rtp_ext::block_elements::values_len::<#16f98aa29e959305>":
	.cfi_startproc
	str	x30,[sp,#-48]!
	stp	x22,x21,[sp,#16]
	stp	x20,x19,[sp,#32]
	.cfi_def_cfa_offset 48
	.cfi_offset w19,-8
	.cfi_offset w20,-16
	.cfi_offset w21,-24
	.cfi_offset w22,-32
	.cfi_offset w30,-48
	tst	w3,#0xff
	mov	w8,#1
	mov	x19,x2
	mov	x20,x0
	mov	x9,xzr
	mov	x21,xzr
	cinc	x22,x8,ne
	b	1f
2:
	ldr	x8,[x19]
	ldrb	w8,[x8,#122]
	cbz	w8,1f
3:
	mov	w8,#1
4:
	add	x10,x21,x22
	add	x21,x10,x8
1:
	mov	x8,x9
5:
	cmp	x8,x1
	b.hs	6f
	add	x9,x20,x8
	ldrb	w9,[x9,#1]
	sub	w10,w9,#1
	add	x9,x8,#1
	cmp	w10,#14
	mov	x8,x9
	b.hi	5b
	b	7f
6:
	cmp	x1,#15
	b.lo	6f
	cmp	x8,#254
	b.hi	6f
	mov	x0,x20
	mov	x1,x8
	bl	"rtp_841016a0_rtp_c::kinds::StoredMap::past_unmapped"
	add	x10,x0,#16
	mov	w9,#255
	mov	x8,x0
	cmp	x10,#255
	csel	x1,x10,x9,lo
	b	5b
7:
	adrp	x8,5f
	add	x8,x8,:lo12:5f
	adr	x11,2b
	ldrb	w12,[x8,x10]
	add	x11,x11,x12,lsl #2
	br	x11
7:
	ldr	x8,[x19]
	ldrb	w8,[x8,#115]
	cbnz	w8,8f
	b	1b
9:
	ldr	x8,[x19]
	ldrb	w10,[x8,#128]
	cbz	w10,1b
	ldrb	w10,[x8,#80]
	cbz	w10,10f
	ldrb	w10,[x8,#81]
	cbz	w10,3b
	ldrb	w10,[x8,#82]
	cbz	w10,11f
	ldrb	w10,[x8,#83]
	cbz	w10,8f
	ldrb	w10,[x8,#84]
	cbz	w10,12f
	ldrb	w10,[x8,#85]
	cbz	w10,13f
	ldrb	w10,[x8,#86]
	cbz	w10,14f
	ldrb	w10,[x8,#87]
	cbz	w10,15f
	ldrb	w10,[x8,#88]
	cbz	w10,16f
	ldrb	w10,[x8,#89]
	cbz	w10,17f
	ldrb	w10,[x8,#90]
	cbz	w10,18f
	ldrb	w10,[x8,#91]
	cbz	w10,19f
	ldrb	w10,[x8,#92]
	cbz	w10,20f
	ldrb	w10,[x8,#93]
	cbz	w10,21f
	ldrb	w10,[x8,#94]
	cbz	w10,22f
	ldrb	w10,[x8,#95]
	cbz	w10,23f
	ldrb	w8,[x8,#96]
	cmp	w8,#0
	mov	w8,#16
	cinc	x8,x8,ne
	b	4b
24:
	ldr	x8,[x19]
	ldrb	w10,[x8,#121]
	cbz	w10,1b
	ldrh	w10,[x8,#66]
	mov	w8,#1
	cmp	w10,#179
	b.gt	25f
	cbz	w10,4b
	cmp	w10,#90
	b.eq	4b
	b	1b
26:
	ldr	x8,[x19]
	ldrb	w8,[x8,#119]
	cbnz	w8,12f
	b	1b
27:
	ldr	x8,[x19]
	ldrb	w10,[x8,#129]
	cbz	w10,1b
	ldrb	w10,[x8,#97]
	cbz	w10,10f
	ldrb	w10,[x8,#98]
	cbz	w10,3b
	ldrb	w10,[x8,#99]
	cbz	w10,11f
	ldrb	w10,[x8,#100]
	cbz	w10,8f
	ldrb	w10,[x8,#101]
	cbz	w10,12f
	ldrb	w10,[x8,#102]
	cbz	w10,13f
	ldrb	w10,[x8,#103]
	cbz	w10,14f
	ldrb	w10,[x8,#104]
	cbz	w10,15f
	ldrb	w8,[x8,#105]
	b	28f
29:
	ldr	x8,[x19]
	ldrb	w10,[x8,#123]
	cbz	w10,1b
	ldrb	w8,[x8,#124]
	cbnz	w8,3b
	b	1b
30:
	ldr	x8,[x19]
	ldrb	w8,[x8,#118]
	cbz	w8,1b
12:
	mov	w8,#4
	b	4b
31:
	ldr	x8,[x19]
	ldrb	w10,[x8,#116]
	cbz	w10,1b
	ldrb	w8,[x8,#117]
	mov	w10,#8
	cmp	w8,#0
	mov	w8,#16
	csel	x8,x10,x8,eq
	b	4b
32:
	ldr	x8,[x19]
	ldrb	w8,[x8,#120]
	cbz	w8,1b
11:
	mov	w8,#2
	b	4b
33:
	ldr	x8,[x19]
	ldrb	w10,[x8,#125]
	cbz	w10,34f
	ldr	w10,[x8,#32]
	cmp	w10,#0
	cset	w10,ne
34:
	ldrb	w11,[x8,#126]
	cbz	w11,1b
	ldr	w8,[x8,#48]
	cmp	w8,#0
	csel	w8,wzr,w10,eq
	tbz	w8,#0,1b
8:
	mov	w8,#3
	b	4b
34:
	ldr	x8,[x19]
	ldrb	w10,[x8,#130]
	cbz	w10,1b
	ldrb	w10,[x8,#106]
	cbz	w10,10f
	ldrb	w10,[x8,#107]
	cbz	w10,3b
	ldrb	w10,[x8,#108]
	cbz	w10,11b
	ldrb	w10,[x8,#109]
	cbz	w10,8b
	ldrb	w10,[x8,#110]
	cbz	w10,12b
	ldrb	w10,[x8,#111]
	cbz	w10,13f
	ldrb	w10,[x8,#112]
	cbz	w10,14f
	ldrb	w10,[x8,#113]
	cbz	w10,15f
	ldrb	w8,[x8,#114]
28:
	cmp	w8,#0
	mov	w8,#8
	cinc	x8,x8,ne
	b	4b
3:
	ldr	x8,[x19]
	ldrb	w8,[x8,#127]
	cbz	w8,1b
21:
	mov	w8,#13
	b	4b
10:
	mov	x8,xzr
	b	4b
25:
	cmp	w10,#180
	b.eq	4b
	cmp	w10,#270
	b.eq	4b
	b	1b
13:
	mov	w8,#5
	b	4b
14:
	mov	w8,#6
	b	4b
15:
	mov	w8,#7
	b	4b
16:
	mov	w8,#8
	b	4b
17:
	mov	w8,#9
	b	4b
18:
	mov	w8,#10
	b	4b
19:
	mov	w8,#11
	b	4b
20:
	mov	w8,#12
	b	4b
22:
	mov	w8,#14
	b	4b
23:
	mov	w8,#15
	b	4b
6:
	mov	x0,x21
	ldp	x20,x19,[sp,#32]
	ldp	x22,x21,[sp,#16]
	ldr	x30,[sp],#48
	ret
	.size	"rtp_841016a0_rtp_ext::block_elements::values_len::<#16f98aa29e959305>", .-"rtp_841016a0_rtp_ext::block_elements::values_len::<#16f98aa29e959305>"
	.cfi_endproc
	.section	".rodata.rtp_ext::block_elements::values_len::<#16f98aa29e959305>","a",@progbits
5:
	.byte	(7b-2b)>>2
	.byte	(31b-2b)>>2
	.byte	(29b-2b)>>2
	.byte	(30b-2b)>>2
	.byte	(24b-2b)>>2
	.byte	(32b-2b)>>2
	.byte	(33b-2b)>>2
	.byte	(2b-2b)>>2
	.byte	(3b-2b)>>2
	.byte	(27b-2b)>>2
	.byte	(34b-2b)>>2
	.byte	(9b-2b)>>2
	.byte	(26b-2b)>>2
	.byte	(1b-2b)>>2
	.byte	(1b-2b)>>2

	.section	".text.rtp_ext::block_form::has_empty_data::<#defbc6cea7b2a850>","ax",@progbits
	.p2align	2
	.type	"rtp_841016a0_rtp_ext::block_form::has_empty_data::<#defbc6cea7b2a850>",@function
"rtp_841016a0_rtp_ext::block_form::has_empty_data::<#defbc6cea7b2a850>":
	.cfi_startproc
	cbz	x1,1f
	str	x30,[sp,#-32]!
	stp	x20,x19,[sp,#16]
	.cfi_def_cfa_offset 32
	.cfi_offset w19,-8
	.cfi_offset w20,-16
	.cfi_offset w30,-32
	mov	x19,x2
	mov	x20,x0
	mov	x8,xzr
2:
	cmp	x8,x1
	cset	w0,lo
	b.hs	3f
	add	x8,x8,#1
	ldrb	w9,[x20,x8]
	cmp	w9,#10
	b.eq	4f
	cmp	w9,#11
	b.eq	5f
	cmp	w9,#12
	b.ne	2b
	ldr	x9,[x19]
	ldr	x9,[x9]
	ldrb	w10,[x9,#128]
	cbz	w10,2b
	ldrb	w9,[x9,#80]
	cbnz	w9,2b
	b	6f
3:
	cmp	x1,#15
	b.lo	6f
	cmp	x8,#254
	b.hi	6f
	mov	x0,x20
	mov	x1,x8
	bl	"rtp_841016a0_rtp_c::kinds::StoredMap::past_unmapped"
	add	x10,x0,#16
	mov	w9,#255
	mov	x8,x0
	cmp	x10,#255
	csel	x1,x10,x9,lo
	b	2b
5:
	ldr	x9,[x19]
	ldr	x9,[x9]
	ldrb	w10,[x9,#130]
	cbz	w10,2b
	ldrb	w9,[x9,#106]
	cbnz	w9,2b
	b	6f
4:
	ldr	x9,[x19]
	ldr	x9,[x9]
	ldrb	w10,[x9,#129]
	cbz	w10,2b
	ldrb	w9,[x9,#97]
	cbnz	w9,2b
6:
	ldp	x20,x19,[sp,#16]
	ldr	x30,[sp],#32
	ret
1:
	mov	w0,wzr
	ret
	.size	"rtp_841016a0_rtp_ext::block_form::has_empty_data::<#defbc6cea7b2a850>", .-"rtp_841016a0_rtp_ext::block_form::has_empty_data::<#defbc6cea7b2a850>"
	.cfi_endproc

	.section	".text.rtp_ext::block_elements::values_len::<#defbc6cea7b2a850>","ax",@progbits
	.p2align	2
	.type	"rtp_841016a0_rtp_ext::block_elements::values_len::<#defbc6cea7b2a850>",@function
"rtp_841016a0_rtp_ext::block_elements::values_len::<#defbc6cea7b2a850>":
	.cfi_startproc
	str	x30,[sp,#-48]!
	stp	x22,x21,[sp,#16]
	stp	x20,x19,[sp,#32]
	.cfi_def_cfa_offset 48
	.cfi_offset w19,-8
	.cfi_offset w20,-16
	.cfi_offset w21,-24
	.cfi_offset w22,-32
	.cfi_offset w30,-48
	tst	w3,#0xff
	mov	w8,#1
	mov	x19,x2
	mov	x20,x0
	mov	x9,xzr
	mov	x21,xzr
	cinc	x22,x8,ne
	b	1f
2:
	ldr	x8,[x19]
	ldr	x8,[x8]
	ldrb	w8,[x8,#122]
	cbz	w8,1f
3:
	mov	w8,#1
4:
	add	x10,x21,x22
	add	x21,x10,x8
1:
	mov	x8,x9
5:
	cmp	x8,x1
	b.hs	6f
	add	x9,x20,x8
	ldrb	w9,[x9,#1]
	sub	w10,w9,#1
	add	x9,x8,#1
	cmp	w10,#14
	mov	x8,x9
	b.hi	5b
	b	7f
6:
	cmp	x1,#15
	b.lo	6f
	cmp	x8,#254
	b.hi	6f
	mov	x0,x20
	mov	x1,x8
	bl	"rtp_841016a0_rtp_c::kinds::StoredMap::past_unmapped"
	add	x10,x0,#16
	mov	w9,#255
	mov	x8,x0
	cmp	x10,#255
	csel	x1,x10,x9,lo
	b	5b
7:
	adrp	x8,5f
	add	x8,x8,:lo12:5f
	adr	x11,2b
	ldrb	w12,[x8,x10]
	add	x11,x11,x12,lsl #2
	br	x11
7:
	ldr	x8,[x19]
	ldr	x8,[x8]
	ldrb	w8,[x8,#115]
	cbnz	w8,8f
	b	1b
9:
	ldr	x8,[x19]
	ldr	x8,[x8]
	ldrb	w10,[x8,#128]
	cbz	w10,1b
	ldrb	w10,[x8,#80]
	cbz	w10,10f
	ldrb	w10,[x8,#81]
	cbz	w10,3b
	ldrb	w10,[x8,#82]
	cbz	w10,11f
	ldrb	w10,[x8,#83]
	cbz	w10,8f
	ldrb	w10,[x8,#84]
	cbz	w10,12f
	ldrb	w10,[x8,#85]
	cbz	w10,13f
	ldrb	w10,[x8,#86]
	cbz	w10,14f
	ldrb	w10,[x8,#87]
	cbz	w10,15f
	ldrb	w10,[x8,#88]
	cbz	w10,16f
	ldrb	w10,[x8,#89]
	cbz	w10,17f
	ldrb	w10,[x8,#90]
	cbz	w10,18f
	ldrb	w10,[x8,#91]
	cbz	w10,19f
	ldrb	w10,[x8,#92]
	cbz	w10,20f
	ldrb	w10,[x8,#93]
	cbz	w10,21f
	ldrb	w10,[x8,#94]
	cbz	w10,22f
	ldrb	w10,[x8,#95]
	cbz	w10,23f
	ldrb	w8,[x8,#96]
	cmp	w8,#0
	mov	w8,#16
	cinc	x8,x8,ne
	b	4b
24:
	ldr	x8,[x19]
	ldr	x8,[x8]
	ldrb	w10,[x8,#121]
	cbz	w10,1b
	ldrh	w10,[x8,#66]
	mov	w8,#1
	cmp	w10,#179
	b.gt	25f
	cbz	w10,4b
	cmp	w10,#90
	b.eq	4b
	b	1b
26:
	ldr	x8,[x19]
	ldr	x8,[x8]
	ldrb	w8,[x8,#119]
	cbnz	w8,12f
	b	1b
27:
	ldr	x8,[x19]
	ldr	x8,[x8]
	ldrb	w10,[x8,#129]
	cbz	w10,1b
	ldrb	w10,[x8,#97]
	cbz	w10,10f
	ldrb	w10,[x8,#98]
	cbz	w10,3b
	ldrb	w10,[x8,#99]
	cbz	w10,11f
	ldrb	w10,[x8,#100]
	cbz	w10,8f
	ldrb	w10,[x8,#101]
	cbz	w10,12f
	ldrb	w10,[x8,#102]
	cbz	w10,13f
	ldrb	w10,[x8,#103]
	cbz	w10,14f
	ldrb	w10,[x8,#104]
	cbz	w10,15f
	ldrb	w8,[x8,#105]
	b	28f
29:
	ldr	x8,[x19]
	ldr	x8,[x8]
	ldrb	w10,[x8,#123]
	cbz	w10,1b
	ldrb	w8,[x8,#124]
	cbnz	w8,3b
	b	1b
30:
	ldr	x8,[x19]
	ldr	x8,[x8]
	ldrb	w8,[x8,#118]
	cbz	w8,1b
12:
	mov	w8,#4
	b	4b
31:
	ldr	x8,[x19]
	ldr	x8,[x8]
	ldrb	w10,[x8,#116]
	cbz	w10,1b
	ldrb	w8,[x8,#117]
	mov	w10,#8
	cmp	w8,#0
	mov	w8,#16
	csel	x8,x10,x8,eq
	b	4b
32:
	ldr	x8,[x19]
	ldr	x8,[x8]
	ldrb	w8,[x8,#120]
	cbz	w8,1b
11:
	mov	w8,#2
	b	4b
33:
	ldrh	w8,[x19,#38]
	b	4b
34:
	ldr	x8,[x19]
	ldr	x8,[x8]
	ldrb	w10,[x8,#125]
	cbz	w10,35f
	ldr	w10,[x8,#32]
	cmp	w10,#0
	cset	w10,ne
35:
	ldrb	w11,[x8,#126]
	cbz	w11,1b
	ldr	w8,[x8,#48]
	cmp	w8,#0
	csel	w8,wzr,w10,eq
	tbz	w8,#0,1b
8:
	mov	w8,#3
	b	4b
35:
	ldr	x8,[x19]
	ldr	x8,[x8]
	ldrb	w10,[x8,#130]
	cbz	w10,1b
	ldrb	w10,[x8,#106]
	cbz	w10,10f
	ldrb	w10,[x8,#107]
	cbz	w10,3b
	ldrb	w10,[x8,#108]
	cbz	w10,11b
	ldrb	w10,[x8,#109]
	cbz	w10,8b
	ldrb	w10,[x8,#110]
	cbz	w10,12b
	ldrb	w10,[x8,#111]
	cbz	w10,13f
	ldrb	w10,[x8,#112]
	cbz	w10,14f
	ldrb	w10,[x8,#113]
	cbz	w10,15f
	ldrb	w8,[x8,#114]
28:
	cmp	w8,#0
	mov	w8,#8
	cinc	x8,x8,ne
	b	4b
3:
	ldr	x8,[x19]
	ldr	x8,[x8]
	ldrb	w8,[x8,#127]
	cbz	w8,1b
21:
	mov	w8,#13
	b	4b
10:
	mov	x8,xzr
	b	4b
25:
	cmp	w10,#180
	b.eq	4b
	cmp	w10,#270
	b.eq	4b
	b	1b
13:
	mov	w8,#5
	b	4b
14:
	mov	w8,#6
	b	4b
15:
	mov	w8,#7
	b	4b
16:
	mov	w8,#8
	b	4b
17:
	mov	w8,#9
	b	4b
18:
	mov	w8,#10
	b	4b
19:
	mov	w8,#11
	b	4b
20:
	mov	w8,#12
	b	4b
22:
	mov	w8,#14
	b	4b
23:
	mov	w8,#15
	b	4b
6:
	mov	x0,x21
	ldp	x20,x19,[sp,#32]
	ldp	x22,x21,[sp,#16]
	ldr	x30,[sp],#48
	ret
	.size	"rtp_841016a0_rtp_ext::block_elements::values_len::<#defbc6cea7b2a850>", .-"rtp_841016a0_rtp_ext::block_elements::values_len::<#defbc6cea7b2a850>"
	.cfi_endproc
	.section	".rodata.rtp_ext::block_elements::values_len::<#defbc6cea7b2a850>","a",@progbits
5:
	.byte	(7b-2b)>>2
	.byte	(31b-2b)>>2
	.byte	(29b-2b)>>2
	.byte	(30b-2b)>>2
	.byte	(24b-2b)>>2
	.byte	(32b-2b)>>2
	.byte	(34b-2b)>>2
	.byte	(2b-2b)>>2
	.byte	(3b-2b)>>2
	.byte	(27b-2b)>>2
	.byte	(35b-2b)>>2
	.byte	(9b-2b)>>2
	.byte	(26b-2b)>>2
	.byte	(1b-2b)>>2
	.byte	(33b-2b)>>2

	.section	".text.rtp_ext::block_elements::most_in_two_byte_form::<#d4d397b1ff315637>","ax",@progbits
	.p2align	2
	.type	"rtp_841016a0_rtp_ext::block_elements::most_in_two_byte_form::<#d4d397b1ff315637>",@function
"rtp_841016a0_rtp_ext::block_elements::most_in_two_byte_form::<#d4d397b1ff315637>":
	.cfi_startproc
	str	x30,[sp,#-32]!
	stp	x20,x19,[sp,#16]
	.cfi_def_cfa_offset 32
	.cfi_offset w19,-8
	.cfi_offset w20,-16
	.cfi_offset w30,-32
	ldp	x19,x9,[x0]
	mov	x20,xzr
	ldr	x8,[x0,#16]
	b	1f
2:
	and	x10,x10,#0xff
	adrp	x11, "rtp_841016a0_.Lrtp_841016a0_switch.table.rtp_ext::block_elements::most_in_two_byte_form::<#d4d397b1ff315637>"
	add	x11, x11, :lo12:"rtp_841016a0_.Lrtp_841016a0_switch.table.rtp_ext::block_elements::most_in_two_byte_form::<#d4d397b1ff315637>"
	ldr	x10,[x11,x10,lsl #3]
	add	x20,x10,x20
1:
	mov	x1,x9
1:
	cmp	x1,x8
	b.hs	3f
	add	x9,x19,x1
	ldrb	w9,[x9,#1]
	sub	w10,w9,#1
	add	x9,x1,#1
	cmp	w10,#15
	mov	x1,x9
	b.hs	1b
	b	2b
3:
	cmp	x8,#15
	b.lo	2f
	cmp	x1,#254
	b.hi	2f
	mov	x0,x19
	bl	"rtp_841016a0_rtp_c::kinds::StoredMap::past_unmapped"
	add	x9,x0,#16
	mov	w8,#255
	mov	x1,x0
	cmp	x9,#255
	csel	x8,x9,x8,lo
	b	1b
2:
	mov	x0,x20
	ldp	x20,x19,[sp,#16]
	ldr	x30,[sp],#32
	ret
	.size	"rtp_841016a0_rtp_ext::block_elements::most_in_two_byte_form::<#d4d397b1ff315637>", .-"rtp_841016a0_rtp_ext::block_elements::most_in_two_byte_form::<#d4d397b1ff315637>"
	.cfi_endproc

	.section	".text.rtp_ext::block_elements::write_values::<#defbc6cea7b2a850>","ax",@progbits
	.p2align	2
	.type	"rtp_841016a0_rtp_ext::block_elements::write_values::<#defbc6cea7b2a850>",@function
"rtp_841016a0_rtp_ext::block_elements::write_values::<#defbc6cea7b2a850>":
	.cfi_startproc
	str	x29,[sp,#-96]!
	stp	x30,x27,[sp,#16]
	stp	x26,x25,[sp,#32]
	stp	x24,x23,[sp,#48]
	stp	x22,x21,[sp,#64]
	stp	x20,x19,[sp,#80]
	.cfi_def_cfa_offset 96
	.cfi_offset w19,-8
	.cfi_offset w20,-16
	.cfi_offset w21,-24
	.cfi_offset w22,-32
	.cfi_offset w23,-40
	.cfi_offset w24,-48
	.cfi_offset w25,-56
	.cfi_offset w26,-64
	.cfi_offset w27,-72
	.cfi_offset w30,-80
	.cfi_offset w29,-96
	tst	w3,#0xff
	mov	w8,#1
	cinc	x26,x8,ne
	cmp	x5,x26
	b.hs	1f
	mov	x23,xzr
2:
	mov	x0,x23
	ldp	x20,x19,[sp,#80]
	ldp	x22,x21,[sp,#64]
	ldp	x24,x23,[sp,#48]
	ldp	x26,x25,[sp,#32]
	ldp	x30,x27,[sp,#16]
	ldr	x29,[sp],#96
	ret
1:
	mov	x19,x5
	mov	x20,x4
	mov	w21,w3
	mov	x22,x2
	mov	x25,x1
	mov	x24,x0
	mov	x23,xzr
	mov	x29,xzr
	mov	x27,x26
	b	1f
3:
	ubfx	w8,w29,#4,#4
	orr	w8,w8,w29,lsl #4
	add	w8,w8,w1
	sub	w8,w8,#1
	strb	w8,[x20,x23]
4:
	add	x23,x1,x27
5:
	add	x27,x23,x26
	cmp	x19,x27
	b.lo	2b
1:
	mov	x1,x29
1:
	cmp	x1,x25
	b.hs	6f
	add	x8,x24,x1
	add	x29,x1,#1
	ldrb	w8,[x8,#1]
	mov	x1,x29
	sub	w8,w8,#1
	cmp	w8,#14
	b.hi	1b
	b	7f
6:
	cmp	x25,#15
	b.lo	2b
	cmp	x1,#254
	b.hi	2b
	mov	x0,x24
	bl	"rtp_841016a0_rtp_c::kinds::StoredMap::past_unmapped"
	add	x9,x0,#16
	mov	w8,#255
	mov	x1,x0
	cmp	x9,#255
	csel	x25,x9,x8,lo
	b	1b
7:
	adrp	x9,1f
	add	x9,x9,:lo12:1f
	adr	x10,5b
	ldrb	w11,[x9,x8]
	add	x10,x10,x11,lsl #2
	br	x10
2:
	ldr	x8,[x22]
	ldr	x8,[x8]
	ldrb	w9,[x8,#115]
	cbz	w9,6f
	mov	x9,#13531
	ldr	x8,[x8]
	mov	w10,#36864
	movk	x9,#55222,lsl #16
	movk	w10,#976,lsl #16
	mov	w0,#1
	movk	x9,#56962,lsl #32
	mov	w1,#3
	movk	x9,#17179,lsl #48
	umulh	x9,x8,x9
	lsr	x9,x9,#24
	msub	x8,x9,x10,x8
	mov	x9,#46574
	add	x10,x20,x27
	movk	x9,#63392,lsl #16
	movk	x9,#4294,lsl #32
	lsl	x8,x8,#18
	umulh	x8,x8,x9
	rev	w8,w8
	lsr	w9,w8,#24
	lsr	w8,w8,#8
	strb	w9,[x10,#2]
	strh	w8,[x10]
	b	7f
8:
	ldr	x3,[x22,#24]
	cbz	x3,9f
	ldp	x1,x2,[x22,#8]
	add	x0,x20,x27
	add	x4,x22,#32
	bl	"rtp_841016a0_rtp_vla::writing::put_streams::<#0e5569fdf2589307>"
	mov	x1,x0
	b	10f
11:
	ldr	x8,[x22]
	ldr	x1,[x8]
	ldrb	w8,[x1,#130]
	cbz	w8,5b
	add	x0,x20,x27
	bl	"rtp_841016a0_rtp_values::value::stream_id::write_repaired::<#7ba4d078ccf006bf>"
	b	7f
12:
	ldr	x8,[x22]
	ldr	x8,[x8]
	ldrb	w9,[x8,#118]
	cbz	w9,6f
	ldr	w8,[x8,#56]
	b	13f
14:
	ldr	x8,[x22]
	add	x0,x20,x27
	ldr	x1,[x8]
	bl	"rtp_841016a0_rtp_values::value::mid::write::<#7ba4d078ccf006bf>"
	b	7f
15:
	ldr	x8,[x22]
	add	x0,x20,x27
	ldr	x1,[x8]
	bl	"rtp_841016a0_rtp_values::value::video_timing::write::<#7ba4d078ccf006bf>"
	b	7f
16:
	ldr	x8,[x22]
	add	x0,x20,x27
	ldr	x1,[x8]
	bl	"rtp_841016a0_rtp_values::value::abs_capture_time::write::<#7ba4d078ccf006bf>"
	b	7f
17:
	ldr	x8,[x22]
	ldr	x8,[x8]
	ldrb	w9,[x8,#123]
	cbz	w9,6f
	ldrb	w9,[x8,#124]
	cbz	w9,6f
	ldrb	w9,[x8,#78]
	ldrb	w8,[x8,#79]
	sxtb	w9,w9
	cmp	w9,#0
	cneg	w9,w9,mi
	cmp	w8,#0
	mov	w8,#-128
	csel	w8,wzr,w8,eq
	bfxil	w8,w9,#0,#7
	strb	w8,[x20,x27]
	b	18f
19:
	ldr	x8,[x22]
	add	x0,x20,x27
	ldr	x1,[x8]
	bl	"rtp_841016a0_rtp_values::value::playout_delay::write::<#7ba4d078ccf006bf>"
	b	7f
20:
	ldr	x8,[x22]
	ldr	x8,[x8]
	ldrb	w9,[x8,#121]
	cbz	w9,6f
	ldrh	w8,[x8,#66]
	mov	w0,wzr
	mov	x1,xzr
	cmp	w8,#179
	b.gt	21f
	cbz	w8,22f
	cmp	w8,#90
	b.ne	7f
	mov	w0,#3
	b	22f
23:
	ldr	x8,[x22]
	ldr	x8,[x8]
	ldrb	w9,[x8,#119]
	cbz	w9,6f
	ldr	w8,[x8,#60]
13:
	mov	w0,#1
	mov	w1,#4
	rev	w8,w8
	str	w8,[x20,x27]
	b	7f
13:
	ldr	x8,[x22]
	ldr	x8,[x8]
	ldrb	w9,[x8,#120]
	cbz	w9,6f
	ldrh	w8,[x8,#64]
	mov	w0,#1
	mov	w1,#2
	rev	w8,w8
	lsr	w8,w8,#16
	strh	w8,[x20,x27]
	b	7f
24:
	ldr	x8,[x22]
	ldr	x1,[x8]
	ldrb	w8,[x1,#129]
	cbz	w8,5b
	add	x0,x20,x27
	bl	"rtp_841016a0_rtp_values::value::stream_id::write::<#7ba4d078ccf006bf>"
	b	7f
25:
	ldr	x8,[x22]
	ldr	x8,[x8]
	ldrb	w9,[x8,#122]
	cbz	w9,6f
	ldrb	w8,[x8,#77]
	strb	w8,[x20,x27]
	b	18f
6:
	mov	x1,xzr
	mov	w0,wzr
	b	7f
9:
	strb	wzr,[x20,x27]
	mov	w1,#1
	b	10f
21:
	cmp	w8,#180
	b.eq	6f
	cmp	w8,#270
	b.ne	7f
	mov	w0,#1
	b	22f
6:
	mov	w0,#2
22:
	strb	w0,[x20,x27]
18:
	mov	w1,#1
	mov	w0,#1
7:
	and	w8,w0,#0xff
	cmp	w8,#1
	b.ne	5b
10:
	tst	w21,#0xff
	b.eq	3b
	add	x8,x20,x23
	strb	w29,[x8]
	strb	w1,[x8,#1]
	b	4b
	.size	"rtp_841016a0_rtp_ext::block_elements::write_values::<#defbc6cea7b2a850>", .-"rtp_841016a0_rtp_ext::block_elements::write_values::<#defbc6cea7b2a850>"
	.cfi_endproc
	.section	".rodata.rtp_ext::block_elements::write_values::<#defbc6cea7b2a850>","a",@progbits
1:
	.byte	(2b-5b)>>2
	.byte	(16b-5b)>>2
	.byte	(17b-5b)>>2
	.byte	(12b-5b)>>2
	.byte	(20b-5b)>>2
	.byte	(13b-5b)>>2
	.byte	(19b-5b)>>2
	.byte	(25b-5b)>>2
	.byte	(15b-5b)>>2
	.byte	(24b-5b)>>2
	.byte	(11b-5b)>>2
	.byte	(14b-5b)>>2
	.byte	(23b-5b)>>2
	.byte	(5b-5b)>>2
	.byte	(8b-5b)>>2

	.section	".text.rtp_vla::writing::put_streams::<#0e5569fdf2589307>","ax",@progbits
	.p2align	2
	.type	"rtp_841016a0_rtp_vla::writing::put_streams::<#0e5569fdf2589307>",@function
"rtp_841016a0_rtp_vla::writing::put_streams::<#0e5569fdf2589307>":
	.cfi_startproc
	lsl	w8,w1,#6
	ldrb	w9,[x4,#4]
	add	w8,w8,w3,lsl #4
	add	w8,w8,w9
	sub	w8,w8,#16
	strb	w8,[x0]
	ldrb	w8,[x4,#4]
	cbz	w8,1f
	ldrb	w8,[x4,#5]
	mov	w9,#1
	add	x8,x8,#3
	lsr	x10,x8,#2
	add	x8,x10,#1
	cbnz	x3,2f
	mov	w11,wzr
	mov	w12,w9
	cmp	x10,#1
	b.le	3f
4:
	cmp	x10,#2
	b.eq	5f
	cmp	x10,#3
	b.ne	6f
	lsr	w10,w11,#8
	lsr	w13,w11,#16
	add	x9,x0,x9
	strb	w11,[x9]
	strb	w10,[x9,#1]
	strb	w13,[x9,#2]
	ldrh	w9,[x4,#6]
	cmp	x8,x9
	csinc	w9,w12,wzr,ne
	tbnz	w9,#0,7f
	b	8f
1:
	cmp	x3,#1
	b.eq	1f
	cbnz	x3,9f
	ldrb	w8,[x4,#5]
	mov	w11,wzr
	mov	w12,#1
	mov	w9,#1
	add	x8,x8,#3
	lsr	x10,x8,#2
	add	x8,x10,#1
	cmp	x10,#1
	b.le	3f
	b	4b
5:
	strh	w11,[x0,x9]
	ldrh	w9,[x4,#6]
	cmp	x8,x9
	csinc	w9,w12,wzr,ne
	tbnz	w9,#0,7f
	b	8f
1:
	ldrb	w8,[x4]
	lsl	w8,w8,#4
	b	1f
9:
	cmp	x3,#2
	b.hi	5f
	ldrb	w8,[x4]
	ldrb	w9,[x4,#1]
	add	w8,w9,w8,lsl #4
1:
	strb	w8,[x0,#1]
	mov	w9,#2
	b	1f
5:
	cmp	x3,#3
	b.ne	5f
	ldrb	w8,[x4]
	ldrb	w9,[x4,#1]
	add	w8,w9,w8,lsl #4
	ldrb	w9,[x4,#2]
	and	w8,w8,#0xff
	orr	w8,w8,w9,lsl #12
	orr	w8,w8,#0xf00
	b	9f
5:
	ldrb	w8,[x4]
	ldrb	w9,[x4,#1]
	ldrb	w10,[x4,#2]
	ldrb	w11,[x4,#3]
	add	w8,w9,w8,lsl #4
	add	w9,w11,w10,lsl #4
	bfi	w8,w9,#8,#24
9:
	mov	w9,#3
	sturh	w8,[x0,#1]
1:
	ldrb	w8,[x4,#5]
	add	x8,x8,#3
	lsr	x10,x8,#2
	add	x8,x10,x9
2:
	mov	w11,wzr
	mov	x12,xzr
	mov	w13,#1073741824
	b	1f
2:
	add	x12,x12,#1
	cmp	x12,x3
	b.eq	5f
1:
	mov	w14,#168
	mov	w16,#4
	madd	x14,x12,x14,x2
	ldrb	w15,[x14,#160]
	cmp	w15,#4
	csel	w15,w15,w16,lo
1:
	neg	x15,x15
	mov	x16,x14
9:
	add	x15,x15,#1
	cmp	x15,#1
	b.eq	2b
	ldrb	w17,[x16,#38]
	add	x14,x16,#40
	mov	x16,x14
	cbz	w17,9b
	ldur	x1,[x14,#-40]
	cmp	w17,#4
	mov	w16,#4
	csel	w16,w17,w16,lo
	cmp	x1,#127
	b.hi	2f
	strb	w1,[x0,x8]
	add	x8,x8,#1
	cmp	w17,#1
	b.eq	9f
	b	10f
2:
	cmp	x1,#4,lsl #12
	b.hs	2f
	and	w5,w1,#0x3f80
	add	w1,w5,w1
	add	w1,w1,#128
	strh	w1,[x0,x8]
	add	x8,x8,#2
	cmp	w17,#1
	b.ne	10f
	b	9f
2:
	lsr	x5,x1,#7
	lsr	x6,x1,#14
	orr	w1,w1,#0x80
	strb	w1,[x0,x8]
	add	x8,x8,#1
	mov	x1,x5
	cbnz	x6,2b
	strb	w5,[x0,x8]
	add	x8,x8,#1
	cmp	w17,#1
	b.eq	9f
10:
	ldur	x1,[x14,#-32]
	cmp	x1,#128
	b.hs	2f
	strb	w1,[x0,x8]
	add	x8,x8,#1
	cmp	w17,#2
	b.eq	9f
	b	10f
2:
	cmp	x1,#4,lsl #12
	b.hs	2f
	and	w5,w1,#0x3f80
	add	w1,w5,w1
	add	w1,w1,#128
	strh	w1,[x0,x8]
	add	x8,x8,#2
	cmp	w17,#2
	b.ne	10f
	b	9f
2:
	lsr	x5,x1,#7
	lsr	x6,x1,#14
	orr	w1,w1,#0x80
	strb	w1,[x0,x8]
	add	x8,x8,#1
	mov	x1,x5
	cbnz	x6,2b
	strb	w5,[x0,x8]
	add	x8,x8,#1
	cmp	w17,#2
	b.eq	9f
10:
	ldur	x1,[x14,#-24]
	cmp	x1,#128
	b.hs	2f
	strb	w1,[x0,x8]
	add	x8,x8,#1
	cmp	w17,#3
	b.eq	9f
	b	10f
2:
	cmp	x1,#4,lsl #12
	b.hs	2f
	and	w5,w1,#0x3f80
	add	w1,w5,w1
	add	w1,w1,#128
	strh	w1,[x0,x8]
	add	x8,x8,#2
	cmp	w17,#3
	b.ne	10f
	b	9f
2:
	lsr	x5,x1,#7
	lsr	x6,x1,#14
	orr	w1,w1,#0x80
	strb	w1,[x0,x8]
	add	x8,x8,#1
	mov	x1,x5
	cbnz	x6,2b
	strb	w5,[x0,x8]
	add	x8,x8,#1
	cmp	w17,#3
	b.eq	9f
10:
	ldur	x17,[x14,#-16]
	cmp	x17,#128
	b.hs	2f
	strb	w17,[x0,x8]
	b	10f
2:
	cmp	x17,#4,lsl #12
	b.hs	2f
	and	w1,w17,#0x3f80
	add	w17,w1,w17
	add	w17,w17,#128
	strh	w17,[x0,x8]
	add	x8,x8,#2
	b	9f
2:
	lsr	x1,x17,#7
	lsr	x5,x17,#14
	orr	w17,w17,#0x80
	strb	w17,[x0,x8]
	add	x8,x8,#1
	mov	x17,x1
	cbnz	x5,2b
	strb	w1,[x0,x8]
10:
	add	x8,x8,#1
9:
	sub	w16,w16,#1
	neg	x15,x15
	madd	w11,w16,w13,w11
	lsr	w13,w13,#2
	b	1b
5:
	mov	w12,wzr
	rev	w11,w11
	cmp	x10,#1
	b.gt	4b
3:
	cbz	x10,1f
	cmp	x10,#1
	b.ne	6f
	strb	w11,[x0,x9]
1:
	ldrh	w9,[x4,#6]
	cmp	x8,x9
	csinc	w9,w12,wzr,ne
	tbz	w9,#0,8f
7:
	mov	x0,x8
	ret
6:
	str	w11,[x0,x9]
	ldrh	w9,[x4,#6]
	cmp	x8,x9
	csinc	w9,w12,wzr,ne
	tbnz	w9,#0,7b
8:
	mov	x9,xzr
	b	1f
2:
	add	x9,x9,#1
	cmp	x9,x3
	b.eq	7b
1:
	mov	w10,#168
	madd	x11,x9,x10,x2
	ldrb	w10,[x11,#160]
	cbz	w10,2b
	cmp	w10,#4
	mov	w12,#4
	csel	w12,w10,w12,lo
1:
	mov	w10,#1
	add	x11,x11,#32
	sub	x10,x10,x12
	b	3f
4:
	cbnz	w12,5f
6:
	add	x10,x10,#1
	add	x11,x11,#40
	cmp	x10,#1
	b.eq	2b
3:
	ldrb	w13,[x11,#5]
	ldrb	w12,[x11,#6]
	cbz	w13,4b
	cbz	w12,6b
	ldrh	w12,[x11]
	ldrh	w13,[x11,#2]
	add	x15,x0,x8
	ldrb	w16,[x11,#4]
	add	x8,x8,#5
	sub	w12,w12,#1
	sub	w13,w13,#1
	rev	w12,w12
	rev	w13,w13
	strb	w16,[x15,#4]
	lsr	w14,w12,#16
	lsr	w12,w12,#24
	lsr	w17,w13,#16
	lsr	w13,w13,#24
	strb	w14,[x15]
	strb	w12,[x15,#1]
	strb	w17,[x15,#2]
	strb	w13,[x15,#3]
5:
	neg	x12,x10
	add	x11,x11,#8
	cbnz	x10,1b
	b	2b
	.size	"rtp_841016a0_rtp_vla::writing::put_streams::<#0e5569fdf2589307>", .-"rtp_841016a0_rtp_vla::writing::put_streams::<#0e5569fdf2589307>"
	.cfi_endproc

	.section	".text.rtp_c::writing::write_header_with","ax",@progbits
	.p2align	2
	.type	"rtp_841016a0_rtp_c::writing::write_header_with",@function
"rtp_841016a0_rtp_c::writing::write_header_with":
	.cfi_startproc
	ldrsb	w9,[x0,#78]
	tbnz	w9,#31,1f
	ldrb	w10,[x0,#79]
	cmp	w10,#15
	b.ls	2f
1:
	mov	w0,#9
	ret
2:
	sub	sp,sp,#112
	str	x30,[sp,#64]
	stp	x22,x21,[sp,#80]
	stp	x20,x19,[sp,#96]
	.cfi_def_cfa_offset 112
	.cfi_offset w19,-8
	.cfi_offset w20,-16
	.cfi_offset w21,-24
	.cfi_offset w22,-32
	.cfi_offset w30,-48
	ldp	x8,x20,[sp,#112]
	add	x11,x4,#1
	mov	x12,x3
1:
	subs	x11,x11,#1
	b.eq	2f
	ldr	x13,[x12]
	subs	x13,x2,x13
	b.lo	3f
	ldr	x14,[x12,#8]
	add	x12,x12,#32
	cmp	x14,x13
	b.ls	1b
3:
	mov	w0,#9
	ldp	x20,x19,[sp,#96]
	ldr	x30,[sp,#64]
	ldp	x22,x21,[sp,#80]
	add	sp,sp,#112
	ret
2:
	lsl	x11,x10,#2
	add	x11,x11,#12
	subs	x8,x8,x11
	csel	x8,xzr,x8,lo
	lsr	x8,x8,#2
	cbz	x8,1f
	sub	x8,x8,#1
	mov	w11,#65535
	and	w15,w5,#0xff
	cmp	x8,x11
	ldrb	w13,[x0,#81]
	csel	x8,x8,x11,lo
	ldrb	w11,[x0,#80]
	cmp	w15,#1
	lsl	x14,x8,#2
	cset	w12,eq
	csel	w8,w6,wzr,eq
	cbz	x4,2f
	cmp	w15,#1
	b.ne	4f
	tst	w6,#0xff
	b.ne	4f
	add	x15,x3,#24
	mov	x16,x4
5:
	ldur	x17,[x15,#-16]
	ldrb	w19,[x15],#32
	sub	x21,x17,#1
	sub	w19,w19,#1
	cmp	x21,#15
	ccmp	w19,#13,#2,ls
	ccmp	x14,x17,#0,ls
	b.ls	1f
	add	x17,x17,#1
	subs	x14,x14,x17
	csel	x14,xzr,x14,lo
	subs	x16,x16,#1
	b.ne	5b
2:
	mov	w19,w8
	b	2f
4:
	add	x15,x3,#24
	mov	x16,x4
	mov	w19,w8
4:
	ldur	x17,[x15,#-16]
	cmp	x17,#255
	b.hi	1f
	ldrb	w21,[x15],#32
	cbz	w21,1f
	cmp	x14,x17
	b.ls	1f
	add	x22,x17,#1
	sub	x17,x17,#1
	subs	x14,x14,x22
	csel	x14,xzr,x14,lo
	cmp	w21,#15
	ccmp	x17,#16,#2,lo
	csinc	w19,w19,wzr,lo
	subs	x16,x16,#1
	b.ne	4b
2:
	tst	w19,#0xff
	b.eq	2f
	cmp	x4,x14
	b.hi	4f
2:
	ldr	d0,[x0,#8]
	cmp	w13,#0
	mov	w8,#176
	mov	w12,#144
	ldrh	w13,[x0,#76]
	csel	w8,w12,w8,eq
	mov	w12,#-128
	cmp	w11,#0
	rev32	v0.8b,v0.8b
	orr	w8,w8,w10
	csel	w10,wzr,w12,eq
	rev	w11,w13
	orr	w9,w10,w9
	strb	w8,[x7]
	lsr	w10,w11,#16
	strb	w9,[x7,#1]
	strh	w10,[x7,#2]
	stur	d0,[x7,#4]
	ldrb	w8,[x0,#79]
	cbz	w8,2f
	ldp	q0,q1,[x0,#16]
	cmp	w8,#8
	ldr	q2,[x0,#48]
	stp	q0,q1,[sp]
	ldur	q0,[x0,#60]
	str	q2,[sp,#32]
	stur	q0,[sp,#44]
	b.hs	5f
	mov	x9,xzr
	mov	w21,#12
	b	6f
1:
	and	w8,w5,#0xff
	cmp	w8,#1
	cset	w12,eq
	csel	w8,w6,wzr,eq
	cbz	x4,1f
4:
	cbz	w12,4f
	tst	w6,#0xff
	b.ne	4f
	add	x10,x3,#24
	mov	w9,#262140
	mov	x11,x4
7:
	ldur	x12,[x10,#-16]
	ldrb	w13,[x10],#32
	sub	x14,x12,#1
	sub	w13,w13,#1
	cmp	x14,#15
	ccmp	w13,#13,#2,ls
	ccmp	x9,x12,#0,ls
	b.ls	3b
	add	x12,x12,#1
	subs	x9,x9,x12
	csel	x9,xzr,x9,lo
	subs	x11,x11,#1
	b.ne	7b
	b	7f
4:
	add	x10,x3,#24
	mov	w9,#262140
	mov	x11,x4
4:
	ldur	x12,[x10,#-16]
	cmp	x12,#255
	b.hi	3b
	ldrb	w13,[x10],#32
	cbz	w13,3b
	cmp	x9,x12
	b.ls	3b
	add	x14,x12,#1
	sub	x12,x12,#1
	subs	x9,x9,x14
	csel	x9,xzr,x9,lo
	cmp	w13,#15
	ccmp	x12,#16,#2,lo
	csinc	w8,w8,wzr,lo
	subs	x11,x11,#1
	b.ne	4b
7:
	and	w8,w8,#0xff
	cmp	x4,x9
	ccmp	w8,#0,#4,hi
	b.ne	3b
1:
	mov	w0,#8
	ldp	x20,x19,[sp,#96]
	ldr	x30,[sp,#64]
	ldp	x22,x21,[sp,#80]
	add	sp,sp,#112
	ret
2:
	mov	w21,#12
	b	1f
5:
	and	x9,x8,#0xf8
	mov	w21,#12
	mov	x11,sp
	lsr	x10,x9,#3
	add	x11,x11,#16
	and	x12,x8,#0xf8
	bfi	x21,x10,#5,#5
	add	x10,x7,#28
2:
	ldp	q0,q1,[x11,#-16]
	subs	x12,x12,#8
	add	x11,x11,#32
	rev32	v0.16b,v0.16b
	rev32	v1.16b,v1.16b
	stp	q0,q1,[x10,#-16]
	add	x10,x10,#32
	b.ne	2b
	cmp	x9,x8
	b.eq	1f
6:
	mov	x10,sp
	sub	x8,x8,x9
	add	x10,x10,x9,lsl #2
2:
	ldr	w9,[x10],#4
	subs	x8,x8,#1
	rev	w9,w9
	str	w9,[x7,x21]
	add	x21,x21,#4
	b.ne	2b
1:
	add	x22,x7,x21
	stp	x1,x2,[sp]
	mov	x2,sp
	add	x0,x22,#4
	mov	w1,w19
	stp	x3,x4,[sp,#16]
	bl	"rtp_841016a0_rtp_ext::raw_writing::put_elements::<#d57726891005992a>"
	add	x8,x0,#3
	and	x9,x8,#0xfffffffffffffffc
	subs	x10,x9,x0
	add	x9,x0,#4
	b.eq	1f
	cmp	x10,#2
	b.eq	2f
	cmp	x10,#1
	b.ne	3f
	strb	wzr,[x22,x9]
	add	x9,x0,#5
	b	1f
2:
	strh	wzr,[x22,x9]
	add	x9,x0,#6
	b	1f
3:
	add	x10,x22,x9
	add	x9,x0,#7
	strb	wzr,[x10,#2]
	strh	wzr,[x10]
1:
	lsr	w10,w8,#10
	tst	w19,#0xff
	mov	w11,#16
	mov	w12,#57022
	lsr	w8,w8,#2
	mov	w0,wzr
	csel	w11,w12,w11,eq
	bfi	w11,w10,#16,#8
	bfi	w11,w8,#24,#8
	add	x8,x9,x21
	str	w11,[x22]
	str	x8,[x20]
	ldp	x20,x19,[sp,#96]
	ldr	x30,[sp,#64]
	ldp	x22,x21,[sp,#80]
	add	sp,sp,#112
	ret
	.size	"rtp_841016a0_rtp_c::writing::write_header_with", .-"rtp_841016a0_rtp_c::writing::write_header_with"
	.cfi_endproc

	.section	".text.unlikely.rtp_c::routed_headers::write_again","ax",@progbits
	.p2align	2
	.type	"rtp_841016a0_rtp_c::routed_headers::write_again",@function
"rtp_841016a0_rtp_c::routed_headers::write_again":
	.cfi_startproc
	sub	sp,sp,#128
	str	x29,[sp,#32]
	stp	x30,x27,[sp,#48]
	stp	x26,x25,[sp,#64]
	stp	x24,x23,[sp,#80]
	stp	x22,x21,[sp,#96]
	stp	x20,x19,[sp,#112]
	.cfi_def_cfa_offset 128
	.cfi_offset w19,-8
	.cfi_offset w20,-16
	.cfi_offset w21,-24
	.cfi_offset w22,-32
	.cfi_offset w23,-40
	.cfi_offset w24,-48
	.cfi_offset w25,-56
	.cfi_offset w26,-64
	.cfi_offset w27,-72
	.cfi_offset w30,-80
	.cfi_offset w29,-96
	add	x19,x1,#2
	sub	x8,x7,x5
	cmp	x8,x19
	b.hs	1f
	mov	x19,xzr
	mov	w0,wzr
	b	2f
1:
	mov	x20,x1
	ldrb	w16,[x4,#32]
	ldrb	w25,[x4,#27]
	ldp	w14,w26,[x4,#16]
	ldrb	w15,[x4,#31]
	ldrb	w9,[x4,#26]
	sub	x8,x1,#49
	ldrb	w23,[x4,#30]
	ldrh	w27,[x4,#24]
	mov	x21,x3
	ldrb	w13,[x4,#28]
	ldrb	w24,[x4,#29]
	mov	x1,x0
	ldrh	w29,[x4,#36]
	cmn	x8,#34
	add	x22,x6,x5
	stp	w9,w23,[sp,#40]
	b.hi	1f
	mov	x0,x22
	stp	x2,x20,[sp,#8]
	mov	x2,x20
	str	w29,[sp,#28]
	mov	w19,w13
	mov	w20,w14
	mov	w23,w15
	mov	w29,w16
	bl	"rtp_841016a0_rtp_route::copying::put_any"
	mov	w14,w20
	ldp	x2,x20,[sp,#8]
	mov	w16,w29
	ldr	w29,[sp,#28]
	mov	w15,w23
	mov	w13,w19
	add	x19,x20,#2
	cbnz	w16,3f
	b	4f
1:
	ldr	q0,[x1]
	cmp	x20,#33
	str	q0,[x22]
	b.lo	1f
	ldr	q0,[x1,#16]
	str	q0,[x22,#16]
1:
	sub	x8,x20,#16
	ldr	q0,[x1,x8]
	str	q0,[x22,x8]
	cbz	w16,4f
3:
	cmp	w25,#0
	mov	w8,#-128
	ldrb	w9,[x22,#1]
	csel	w8,wzr,w8,eq
	bfxil	w8,w9,#0,#7
	strb	w8,[x22,#1]
4:
	ldr	w23,[sp,#44]
	cbz	w15,1f
	ldrb	w8,[x22,#1]
	ldr	w9,[sp,#40]
	and	w8,w8,#0x80
	add	w8,w8,w9
	strb	w8,[x22,#1]
1:
	cbz	w23,1f
	rev16	w8,w27
	strh	w8,[x22,#2]
1:
	cbz	w13,1f
	rev	w8,w14
	str	w8,[x22,#4]
1:
	cbz	w24,1f
	rev	w8,w26
	str	w8,[x22,#8]
1:
	ldrb	w25,[x2,#70]
	cbz	x25,1f
	add	x26,x2,#4
	add	x27,x2,#71
	b	3f
4:
	add	x0,x22,x8
	mov	x1,x21
	mov	x2,x23
	bl	"rtp_841016a0_rtp_route::slots::copy_long"
5:
	subs	x25,x25,#1
	add	x21,x21,x23
	b.eq	1f
3:
	ldrb	w23,[x27],#1
	ldr	w8,[x26],#4
	cbz	w23,4b
	cmp	w23,#1
	b.ne	3f
	ldrb	w9,[x21]
	strb	w9,[x22,x8]
	b	5b
3:
	cmp	w23,#2
	b.hi	3f
	ldrh	w9,[x21]
	strh	w9,[x22,x8]
	b	5b
3:
	cmp	w23,#3
	b.ne	3f
	ldrh	w9,[x21]
	add	x8,x22,x8
	strh	w9,[x8]
	ldrb	w9,[x21,#2]
	strb	w9,[x8,#2]
	b	5b
3:
	cmp	w23,#4
	b.hi	4b
	ldr	w9,[x21]
	str	w9,[x22,x8]
	b	5b
1:
	ldrb	w8,[x22]
	mov	w0,#1
	and	w8,w8,#0xffffffdf
	strb	w8,[x22]
	rev16	w8,w29
	strh	w8,[x22,x20]
2:
	mov	x1,x19
	ldp	x20,x19,[sp,#112]
	ldp	x22,x21,[sp,#96]
	ldr	x29,[sp,#32]
	ldp	x24,x23,[sp,#80]
	ldp	x26,x25,[sp,#64]
	ldp	x30,x27,[sp,#48]
	add	sp,sp,#128
	ret
	.size	"rtp_841016a0_rtp_c::routed_headers::write_again", .-"rtp_841016a0_rtp_c::routed_headers::write_again"
	.cfi_endproc

	.section	".text.rtp_route::slots::copy_long","ax",@progbits
	.p2align	2
	.type	"rtp_841016a0_rtp_route::slots::copy_long",@function
"rtp_841016a0_rtp_route::slots::copy_long":
	.cfi_startproc
	sub	x9,x0,x1
	cmp	x9,x2
	b.hs	1f
	cmp	x2,#8
	mov	x8,xzr
	b.lo	2f
	cmp	x9,#32
	b.lo	2f
	cmp	x2,#32
	b.hs	3f
	mov	x8,xzr
	b	4f
1:
	b	memmove
3:
	and	x9,x2,#0x18
	and	x8,x2,#0xffffffffffffffe0
	add	x10,x1,#16
	add	x11,x0,#16
	and	x12,x2,#0xffffffffffffffe0
1:
	ldp	q0,q1,[x10,#-16]
	subs	x12,x12,#32
	add	x10,x10,#32
	stp	q0,q1,[x11,#-16]
	add	x11,x11,#32
	b.ne	1b
	cmp	x2,x8
	b.eq	1f
	cbz	x9,2f
4:
	mov	x11,x8
	and	x8,x2,#0xfffffffffffffff8
	sub	x9,x11,x8
	add	x10,x1,x11
	add	x11,x0,x11
3:
	ldr	d0,[x10],#8
	adds	x9,x9,#8
	str	d0,[x11],#8
	b.ne	3b
	cmp	x2,x8
	b.eq	1f
2:
	sub	x9,x2,x8
	add	x10,x1,x8
	add	x8,x0,x8
2:
	ldrb	w11,[x10],#1
	subs	x9,x9,#1
	strb	w11,[x8],#1
	b.ne	2b
1:
	ret
	.size	"rtp_841016a0_rtp_route::slots::copy_long", .-"rtp_841016a0_rtp_route::slots::copy_long"
	.cfi_endproc

	.section	".text.unlikely.rtp_c::routed_headers::refuse","ax",@progbits
	.p2align	2
	.type	"rtp_841016a0_rtp_c::routed_headers::refuse",@function
"rtp_841016a0_rtp_c::routed_headers::refuse":
	.cfi_startproc
	mov	x8,x0
	str	x1,[x0,#8]
	str	w2,[x0,#40]
	mov	x0,x1
	str	wzr,[x8,#44]
	ret
	.size	"rtp_841016a0_rtp_c::routed_headers::refuse", .-"rtp_841016a0_rtp_c::routed_headers::refuse"
	.cfi_endproc

	.section	.rodata.cst16,"aM",@progbits,16
	.p2align	4,0x0
.Lrtp_841016a0_CPI72_0:
	.byte	1
	.byte	2
	.byte	4
	.byte	8
	.byte	16
	.byte	32
	.byte	64
	.byte	128
	.byte	1
	.byte	2
	.byte	4
	.byte	8
	.byte	16
	.byte	32
	.byte	64
	.byte	128
	.section	".text.rtp_c::writing_values::write_without_block","ax",@progbits
	.p2align	2
	.type	"rtp_841016a0_rtp_c::writing_values::write_without_block",@function
"rtp_841016a0_rtp_c::writing_values::write_without_block":
	.cfi_startproc
	sub	sp,sp,#64
	.cfi_def_cfa_offset 64
	ldrb	w8,[x0,#209]
	cbz	w8,1f
	ldrh	w9,[x0,#154]
	mov	w8,#9
	cmp	w9,#179
	b.gt	2f
	cbz	w9,1f
	cmp	w9,#90
	b.eq	1f
	b	3f
2:
	cmp	w9,#270
	b.eq	1f
	cmp	w9,#180
	b.ne	3f
1:
	ldrb	w8,[x0,#213]
	cbz	w8,1f
	ldr	w8,[x0,#120]
	cbz	w8,2f
1:
	ldrb	w8,[x0,#214]
	cbz	w8,1f
	ldr	w8,[x0,#136]
	cbz	w8,2f
1:
	ldrb	w8,[x0,#211]
	cbz	w8,1f
	ldrb	w8,[x0,#166]
	add	w8,w8,#127
	tbnz	w8,#7,2f
1:
	ldrb	w8,[x0,#216]
	cbz	w8,1f
	movi	v0.16b,#32
	mov	x8,x0
	movi	v2.16b,#133
	ldr	q1,[x8,#168]!
	movi	v3.16b,#198
	movi	v4.16b,#230
	movi	v5.16b,#246
	adrp	x9,.Lrtp_841016a0_CPI72_0
	orr	v0.16b,v1.16b,v0.16b
	add	v0.16b,v0.16b,v2.16b
	add	v2.16b,v1.16b,v3.16b
	movi	v3.16b,#95
	cmhi	v0.16b,v4.16b,v0.16b
	cmhi	v2.16b,v5.16b,v2.16b
	cmeq	v1.16b,v1.16b,v3.16b
	and	v0.16b,v2.16b,v0.16b
	bic	v0.16b,v0.16b,v1.16b
	ldr	q1,[x9,:lo12:.Lrtp_841016a0_CPI72_0]
	and	v0.16b,v0.16b,v1.16b
	ext	v1.16b,v0.16b,v0.16b,#8
	zip1	v0.16b,v0.16b,v1.16b
	addv	h0,v0.8h
	fmov	w9,s0
	orr	w9,w9,#0x10000
	rbit	w9,w9
	clz	w9,w9
	ldrb	w8,[x8,w9,uxtw]
	cbnz	w8,2f
1:
	ldrb	w8,[x0,#217]
	cbz	w8,1f
	mov	x8,x0
	ldrb	w9,[x8,#185]!
	cbz	w9,4f
	ldrb	w9,[x0,#186]
	cbz	w9,5f
	ldrb	w9,[x0,#187]
	cbz	w9,6f
	ldrb	w9,[x0,#188]
	cbz	w9,7f
	ldrb	w9,[x0,#189]
	cbz	w9,8f
	ldrb	w9,[x0,#190]
	cbz	w9,9f
	ldrb	w9,[x0,#191]
	cbz	w9,10f
	ldrb	w9,[x0,#192]
	cbz	w9,11f
	ldrb	w9,[x0,#193]
	cbnz	w9,2f
	mov	w9,#8
	b	12f
3:
	mov	w0,w8
	add	sp,sp,#64
	ret
4:
	mov	x9,xzr
	b	12f
5:
	mov	w9,#1
	b	12f
6:
	mov	w9,#2
	b	12f
7:
	mov	w9,#3
	b	12f
8:
	mov	w9,#4
	b	12f
9:
	mov	w9,#5
	b	12f
10:
	mov	w9,#6
	b	12f
11:
	mov	w9,#7
12:
	cbz	x9,1f
	ldrb	w10,[x8],#1
	sub	x9,x9,#1
	cmp	w10,#95
	b.eq	12b
	sub	w11,w10,#48
	cmp	w11,#10
	b.lo	12b
	and	w10,w10,#0xffffffdf
	sub	w10,w10,#65
	cmp	w10,#26
	b.lo	12b
	b	2f
1:
	ldrb	w8,[x0,#218]
	cbz	w8,1f
	mov	x8,x0
	ldrb	w9,[x8,#194]!
	cbz	w9,3f
	ldrb	w9,[x0,#195]
	cbz	w9,4f
	ldrb	w9,[x0,#196]
	cbz	w9,5f
	ldrb	w9,[x0,#197]
	cbz	w9,6f
	ldrb	w9,[x0,#198]
	cbz	w9,7f
	ldrb	w9,[x0,#199]
	cbz	w9,8f
	ldrb	w9,[x0,#200]
	cbz	w9,9f
	ldrb	w9,[x0,#201]
	cbz	w9,10f
	ldrb	w9,[x0,#202]
	cbnz	w9,2f
	mov	w9,#8
	b	11f
3:
	mov	x9,xzr
	b	11f
4:
	mov	w9,#1
	b	11f
5:
	mov	w9,#2
	b	11f
6:
	mov	w9,#3
	b	11f
7:
	mov	w9,#4
	b	11f
8:
	mov	w9,#5
	b	11f
9:
	mov	w9,#6
	b	11f
10:
	mov	w9,#7
11:
	cbz	x9,1f
	ldrb	w10,[x8],#1
	sub	x9,x9,#1
	cmp	w10,#95
	b.eq	11b
	sub	w11,w10,#48
	cmp	w11,#10
	b.lo	11b
	and	w10,w10,#0xffffffdf
	sub	w10,w10,#65
	cmp	w10,#26
	b.lo	11b
	b	2f
1:
	ldrsb	w8,[x0,#78]
	tbnz	w8,#31,2f
	ldrb	w9,[x0,#79]
	cmp	w9,#15
	b.ls	1f
2:
	mov	w8,#9
	mov	w0,w8
	add	sp,sp,#64
	ret
1:
	lsl	x10,x9,#2
	add	x10,x10,#12
	cmp	x2,x10
	b.hs	1f
	mov	w8,#8
	mov	w0,w8
	add	sp,sp,#64
	ret
1:
	ldrb	w10,[x0,#81]
	ldr	d0,[x0,#8]
	mov	w12,#160
	ldrh	w11,[x0,#76]
	mov	w13,#128
	cmp	w10,#0
	ldrb	w10,[x0,#80]
	rev32	v0.8b,v0.8b
	csel	w12,w13,w12,eq
	mov	w13,#-128
	rev	w11,w11
	cmp	w10,#0
	lsr	w10,w11,#16
	orr	w9,w12,w9
	csel	w11,wzr,w13,eq
	strb	w9,[x1]
	orr	w8,w11,w8
	strh	w10,[x1,#2]
	strb	w8,[x1,#1]
	stur	d0,[x1,#4]
	ldrb	w8,[x0,#79]
	cbz	w8,1f
	ldp	q0,q1,[x0,#16]
	cmp	w8,#8
	ldr	q2,[x0,#48]
	stp	q0,q1,[sp]
	ldur	q0,[x0,#60]
	str	q2,[sp,#32]
	stur	q0,[sp,#44]
	b.hs	2f
	mov	x10,xzr
	mov	w9,#12
	b	3f
1:
	mov	w9,#12
	mov	w8,wzr
	str	x9,[x3]
	mov	w0,w8
	add	sp,sp,#64
	ret
2:
	and	x10,x8,#0xf8
	mov	w9,#12
	mov	x12,sp
	lsr	x11,x10,#3
	add	x12,x12,#16
	and	x13,x8,#0xf8
	bfi	x9,x11,#5,#5
	add	x11,x1,#28
1:
	ldp	q0,q1,[x12,#-16]
	subs	x13,x13,#8
	add	x12,x12,#32
	rev32	v0.16b,v0.16b
	rev32	v1.16b,v1.16b
	stp	q0,q1,[x11,#-16]
	add	x11,x11,#32
	b.ne	1b
	cmp	x10,x8
	b.eq	1f
3:
	mov	x11,sp
	sub	x8,x8,x10
	add	x11,x11,x10,lsl #2
2:
	ldr	w10,[x11],#4
	subs	x8,x8,#1
	rev	w10,w10
	str	w10,[x1,x9]
	add	x9,x9,#4
	b.ne	2b
1:
	mov	w8,wzr
	str	x9,[x3]
	mov	w0,w8
	add	sp,sp,#64
	ret
	.size	"rtp_841016a0_rtp_c::writing_values::write_without_block", .-"rtp_841016a0_rtp_c::writing_values::write_without_block"
	.cfi_endproc

	.section	".text.rtp_ext::block_elements::write_values::<#16f98aa29e959305>","ax",@progbits
	.p2align	2
	.type	"rtp_841016a0_rtp_ext::block_elements::write_values::<#16f98aa29e959305>",@function
"rtp_841016a0_rtp_ext::block_elements::write_values::<#16f98aa29e959305>":
	.cfi_startproc
	str	x29,[sp,#-96]!
	stp	x30,x27,[sp,#16]
	stp	x26,x25,[sp,#32]
	stp	x24,x23,[sp,#48]
	stp	x22,x21,[sp,#64]
	stp	x20,x19,[sp,#80]
	.cfi_def_cfa_offset 96
	.cfi_offset w19,-8
	.cfi_offset w20,-16
	.cfi_offset w21,-24
	.cfi_offset w22,-32
	.cfi_offset w23,-40
	.cfi_offset w24,-48
	.cfi_offset w25,-56
	.cfi_offset w26,-64
	.cfi_offset w27,-72
	.cfi_offset w30,-80
	.cfi_offset w29,-96
	tst	w3,#0xff
	mov	w8,#1
	cinc	x26,x8,ne
	cmp	x5,x26
	b.hs	1f
	mov	x23,xzr
2:
	mov	x0,x23
	ldp	x20,x19,[sp,#80]
	ldp	x22,x21,[sp,#64]
	ldp	x24,x23,[sp,#48]
	ldp	x26,x25,[sp,#32]
	ldp	x30,x27,[sp,#16]
	ldr	x29,[sp],#96
	ret
1:
	mov	x19,x5
	mov	x20,x4
	mov	w21,w3
	mov	x22,x2
	mov	x25,x1
	mov	x24,x0
	mov	x23,xzr
	mov	x27,xzr
	mov	x29,x26
	b	1f
3:
	ubfx	w8,w27,#4,#4
	orr	w8,w8,w27,lsl #4
	add	w8,w8,w1
	sub	w8,w8,#1
	strb	w8,[x20,x23]
4:
	add	x23,x1,x29
5:
	add	x29,x23,x26
	cmp	x19,x29
	b.lo	2b
1:
	mov	x1,x27
1:
	cmp	x1,x25
	b.hs	6f
	add	x8,x24,x1
	add	x27,x1,#1
	ldrb	w8,[x8,#1]
	mov	x1,x27
	sub	w8,w8,#1
	cmp	w8,#14
	b.hi	1b
	b	7f
6:
	cmp	x25,#15
	b.lo	2b
	cmp	x1,#254
	b.hi	2b
	mov	x0,x24
	bl	"rtp_841016a0_rtp_c::kinds::StoredMap::past_unmapped"
	add	x9,x0,#16
	mov	w8,#255
	mov	x1,x0
	cmp	x9,#255
	csel	x25,x9,x8,lo
	b	1b
7:
	adrp	x9,1f
	add	x9,x9,:lo12:1f
	adr	x10,5b
	ldrb	w11,[x9,x8]
	add	x10,x10,x11,lsl #2
	br	x10
2:
	ldrb	w8,[x22,#115]
	cbz	w8,5b
	mov	x9,#13531
	ldr	x8,[x22]
	mov	w10,#36864
	movk	x9,#55222,lsl #16
	movk	w10,#976,lsl #16
	mov	w1,#3
	movk	x9,#56962,lsl #32
	movk	x9,#17179,lsl #48
	umulh	x9,x8,x9
	lsr	x9,x9,#24
	msub	x8,x9,x10,x8
	mov	x9,#46574
	add	x10,x20,x29
	movk	x9,#63392,lsl #16
	movk	x9,#4294,lsl #32
	lsl	x8,x8,#18
	umulh	x8,x8,x9
	rev	w8,w8
	lsr	w9,w8,#24
	lsr	w8,w8,#8
	strb	w9,[x10,#2]
	strh	w8,[x10]
	b	6f
7:
	ldrb	w8,[x22,#119]
	cbz	w8,5b
	ldr	w8,[x22,#60]
	b	8f
9:
	ldrb	w8,[x22,#121]
	cbz	w8,5b
	ldrh	w8,[x22,#66]
	cmp	w8,#179
	b.gt	10f
	cbz	w8,11f
	cmp	w8,#90
	b.ne	5b
	mov	w8,#3
	b	11f
12:
	ldrb	w8,[x22,#129]
	cbz	w8,5b
	add	x0,x20,x29
	mov	x1,x22
	bl	"rtp_841016a0_rtp_values::value::stream_id::write::<#7ba4d078ccf006bf>"
	and	w8,w0,#0xff
	cmp	w8,#1
	b.ne	5b
	b	6f
13:
	ldrb	w8,[x22,#118]
	cbz	w8,5b
	ldr	w8,[x22,#56]
8:
	rev	w8,w8
	str	w8,[x20,x29]
	mov	w1,#4
	b	6f
8:
	ldrb	w8,[x22,#130]
	cbz	w8,5b
	add	x0,x20,x29
	mov	x1,x22
	bl	"rtp_841016a0_rtp_values::value::stream_id::write_repaired::<#7ba4d078ccf006bf>"
	and	w8,w0,#0xff
	cmp	w8,#1
	b.ne	5b
	b	6f
14:
	ldrb	w8,[x22,#122]
	cbz	w8,5b
	ldrb	w8,[x22,#77]
11:
	strb	w8,[x20,x29]
	mov	w1,#1
	b	6f
15:
	add	x0,x20,x29
	mov	x1,x22
	bl	"rtp_841016a0_rtp_values::value::abs_capture_time::write::<#7ba4d078ccf006bf>"
	and	w8,w0,#0xff
	cmp	w8,#1
	b.ne	5b
	b	6f
16:
	ldrb	w8,[x22,#123]
	cbz	w8,5b
	ldrb	w8,[x22,#124]
	cbz	w8,5b
	ldrb	w8,[x22,#78]
	ldrb	w9,[x22,#79]
	mov	w1,#1
	sxtb	w8,w8
	cmp	w8,#0
	cneg	w8,w8,mi
	cmp	w9,#0
	mov	w9,#-128
	csel	w9,wzr,w9,eq
	bfxil	w9,w8,#0,#7
	strb	w9,[x20,x29]
	b	6f
17:
	ldrb	w8,[x22,#120]
	cbz	w8,5b
	ldrh	w8,[x22,#64]
	mov	w1,#2
	rev	w8,w8
	lsr	w8,w8,#16
	strh	w8,[x20,x29]
	b	6f
18:
	add	x0,x20,x29
	mov	x1,x22
	bl	"rtp_841016a0_rtp_values::value::mid::write::<#7ba4d078ccf006bf>"
	and	w8,w0,#0xff
	cmp	w8,#1
	b.ne	5b
	b	6f
19:
	add	x0,x20,x29
	mov	x1,x22
	bl	"rtp_841016a0_rtp_values::value::video_timing::write::<#7ba4d078ccf006bf>"
	and	w8,w0,#0xff
	cmp	w8,#1
	b.ne	5b
	b	6f
20:
	add	x0,x20,x29
	mov	x1,x22
	bl	"rtp_841016a0_rtp_values::value::playout_delay::write::<#7ba4d078ccf006bf>"
	and	w8,w0,#0xff
	cmp	w8,#1
	b.ne	5b
6:
	tst	w21,#0xff
	b.eq	3b
	add	x8,x20,x23
	strb	w27,[x8]
	strb	w1,[x8,#1]
	b	4b
10:
	cmp	w8,#180
	b.eq	3f
	cmp	w8,#270
	b.ne	5b
	mov	w8,#1
	b	11b
3:
	mov	w8,#2
	b	11b
	.size	"rtp_841016a0_rtp_ext::block_elements::write_values::<#16f98aa29e959305>", .-"rtp_841016a0_rtp_ext::block_elements::write_values::<#16f98aa29e959305>"
	.cfi_endproc
	.section	".rodata.rtp_ext::block_elements::write_values::<#16f98aa29e959305>","a",@progbits
1:
	.byte	(2b-5b)>>2
	.byte	(15b-5b)>>2
	.byte	(16b-5b)>>2
	.byte	(13b-5b)>>2
	.byte	(9b-5b)>>2
	.byte	(17b-5b)>>2
	.byte	(20b-5b)>>2
	.byte	(14b-5b)>>2
	.byte	(19b-5b)>>2
	.byte	(12b-5b)>>2
	.byte	(8b-5b)>>2
	.byte	(18b-5b)>>2
	.byte	(7b-5b)>>2
	.byte	(5b-5b)>>2
	.byte	(5b-5b)>>2

	.section	.rodata.cst16,"aM",@progbits,16
	.p2align	4,0x0
.Lrtp_841016a0_CPI74_0:
	.byte	1
	.byte	2
	.byte	4
	.byte	8
	.byte	16
	.byte	32
	.byte	64
	.byte	128
	.byte	1
	.byte	2
	.byte	4
	.byte	8
	.byte	16
	.byte	32
	.byte	64
	.byte	128
	.section	".text.rtp_c::writing_values::write_with_block","ax",@progbits
	.p2align	2
	.type	"rtp_841016a0_rtp_c::writing_values::write_with_block",@function
"rtp_841016a0_rtp_c::writing_values::write_with_block":
	.cfi_startproc
	sub	sp,sp,#192
	stp	x29,x5,[sp,#96]
	stp	x30,x27,[sp,#112]
	stp	x26,x25,[sp,#128]
	stp	x24,x23,[sp,#144]
	stp	x22,x21,[sp,#160]
	stp	x20,x19,[sp,#176]
	.cfi_def_cfa_offset 192
	.cfi_offset w19,-8
	.cfi_offset w20,-16
	.cfi_offset w21,-24
	.cfi_offset w22,-32
	.cfi_offset w23,-40
	.cfi_offset w24,-48
	.cfi_offset w25,-56
	.cfi_offset w26,-64
	.cfi_offset w27,-72
	.cfi_offset w30,-80
	.cfi_offset w29,-96
	ldrsb	w22,[x1,#78]
	tbnz	w22,#31,1f
	ldrb	w24,[x1,#79]
	cmp	w24,#15
	b.ls	2f
1:
	mov	w0,#9
	b	1f
2:
	lsl	x21,x24,#2
	add	x8,x21,#16
	cmp	x3,x8
	b.hs	2f
3:
	mov	w0,#8
	b	1f
2:
	ldp	q0,q4,[x0,#32]
	ldr	q3,[x0,#64]
	ldp	q7,q1,[x0,#80]
	ldr	q2,[x0,#128]
	ldr	q17,[x0,#224]
	ldp	q6,q16,[x0,#192]
	orr	v0.16b,v3.16b,v0.16b
	ldp	q3,q5,[x0,#144]
	orr	v1.16b,v2.16b,v1.16b
	orr	v4.16b,v7.16b,v4.16b
	ldr	q2,[x0,#112]
	orr	v5.16b,v6.16b,v5.16b
	ldr	q6,[x0,#176]
	orr	v0.16b,v1.16b,v0.16b
	orr	v1.16b,v3.16b,v2.16b
	orr	v2.16b,v16.16b,v6.16b
	orr	v3.16b,v17.16b,v5.16b
	ldr	q5,[x0,#240]
	orr	v1.16b,v1.16b,v4.16b
	orr	v2.16b,v5.16b,v2.16b
	orr	v0.16b,v3.16b,v0.16b
	ldr	q3,[x0,#16]
	orr	v1.16b,v2.16b,v1.16b
	orr	v0.16b,v0.16b,v3.16b
	orr	v0.16b,v0.16b,v1.16b
	ext	v1.16b,v0.16b,v0.16b,#8
	orr	v0.8b,v0.8b,v1.8b
	fmov	x8,d0
	orr	x8,x8,x8,lsr #32
	lsr	x9,x8,#16
	orr	w8,w8,w9
	orr	w8,w8,w8,lsr #8
	tst	w8,#0xff
	b.eq	2f
	mov	w19,#15
	ldrb	w8,[x5,#128]
	cbz	w8,4f
5:
	ldrb	w8,[x5,#80]
	cmp	w8,#0
	cset	w9,eq
	ldrb	w8,[x5,#129]
	cbz	w8,6f
7:
	ldrb	w8,[x5,#97]
	cmp	w8,#0
	cset	w10,eq
	ldrb	w8,[x5,#130]
	cbz	w8,8f
9:
	ldrb	w8,[x5,#106]
	cmp	w8,#0
	cset	w8,eq
8:
	movi	v0.16b,#15
	ldur	q1,[x0,#1]
	ldrb	w11,[x1,#80]
	ldrb	w12,[x1,#81]
	str	x4,[sp,#24]
	str	w11,[sp,#20]
	cmeq	v0.16b,v1.16b,v0.16b
	umaxv	b0,v0.16b
	fmov	w11,s0
	tbz	w11,#0,10f
11:
	add	x8,x19,x19,lsl #3
	cmp	x19,#15
	mov	w9,#4590
	mov	w20,#1
	lsl	x8,x8,#1
	csel	x8,x8,x9,lo
	sub	x9,x3,x21
	add	x8,x8,#7
	sub	x27,x9,#12
	cmp	x8,x27
	b.ls	12f
13:
	cbz	x19,14f
	str	x2,[sp,#8]
	add	x2,sp,#104
	mov	x23,x1
	mov	x1,x19
	mov	x25,x3
	mov	w3,w20
	mov	x21,x0
	mov	x29,x19
	mov	w19,w20
	mov	x26,x5
	mov	w20,w12
	bl	"rtp_841016a0_rtp_ext::block_elements::values_len::<#16f98aa29e959305>"
	ldr	x2,[sp,#8]
	mov	w12,w20
	add	x8,x0,#3
	mov	x1,x23
	mov	x3,x25
	and	x8,x8,#0xfffffffffffffffc
	mov	x5,x26
	mov	w20,w19
	mov	x19,x29
	mov	x0,x21
	add	x8,x8,#4
	cmp	x8,x27
	b.hi	3b
	b	12f
2:
	ldr	q0,[x0]
	adrp	x8,.Lrtp_841016a0_CPI74_0
	ldr	q1,[x8,:lo12:.Lrtp_841016a0_CPI74_0]
	cmeq	v0.16b,v0.16b,#0
	bic	v0.16b,v1.16b,v0.16b
	ext	v1.16b,v0.16b,v0.16b,#8
	zip1	v0.16b,v0.16b,v1.16b
	addv	h0,v0.8h
	fmov	w8,s0
	orr	w8,w8,#0x1
	and	x8,x8,#0xffff
	clz	x8,x8
	eor	x19,x8,#0x3f
	ldrb	w8,[x5,#128]
	cbnz	w8,5b
4:
	mov	w9,wzr
	ldrb	w8,[x5,#129]
	cbnz	w8,7b
6:
	mov	w10,wzr
	ldrb	w8,[x5,#130]
	cbnz	w8,9b
	b	8b
10:
	cmp	x19,#15
	orr	w9,w9,w10
	b.lo	2f
	movi	v0.2d,#0xffffffffffffffff
	ldur	q1,[x0,#31]
	ldur	q2,[x0,#63]
	ldur	q3,[x0,#15]
	ldur	q4,[x0,#47]
	ldur	q5,[x0,#95]
	ldur	q6,[x0,#79]
	ldrb	w10,[x0,#255]
	add	v1.16b,v1.16b,v0.16b
	add	v2.16b,v2.16b,v0.16b
	add	v3.16b,v3.16b,v0.16b
	add	v4.16b,v4.16b,v0.16b
	add	v5.16b,v5.16b,v0.16b
	add	v6.16b,v6.16b,v0.16b
	sub	w10,w10,#1
	umin	v1.16b,v1.16b,v2.16b
	ldur	q2,[x0,#127]
	cmp	w10,#15
	umin	v3.16b,v3.16b,v4.16b
	ldur	q4,[x0,#111]
	cset	w11,lo
	add	v2.16b,v2.16b,v0.16b
	umin	v1.16b,v1.16b,v5.16b
	add	v4.16b,v4.16b,v0.16b
	ldur	q5,[x0,#159]
	umin	v3.16b,v3.16b,v6.16b
	ldur	q6,[x0,#143]
	add	v5.16b,v5.16b,v0.16b
	umin	v1.16b,v1.16b,v2.16b
	add	v6.16b,v6.16b,v0.16b
	ldur	q2,[x0,#191]
	umin	v3.16b,v3.16b,v4.16b
	ldur	q4,[x0,#175]
	add	v2.16b,v2.16b,v0.16b
	umin	v1.16b,v1.16b,v5.16b
	add	v4.16b,v4.16b,v0.16b
	ldur	q5,[x0,#223]
	umin	v3.16b,v3.16b,v6.16b
	ldur	q6,[x0,#207]
	umin	v1.16b,v1.16b,v2.16b
	umin	v2.16b,v3.16b,v4.16b
	add	v3.16b,v5.16b,v0.16b
	add	v4.16b,v6.16b,v0.16b
	umin	v1.16b,v1.16b,v3.16b
	umin	v2.16b,v2.16b,v4.16b
	movi	v3.16b,#15
	ldur	q4,[x0,#239]
	umin	v1.16b,v1.16b,v2.16b
	movi	v2.2d,#0000000000000000
	add	v0.16b,v4.16b,v0.16b
	cmhi	v1.16b,v3.16b,v1.16b
	cmhi	v0.16b,v3.16b,v0.16b
	umaxv	b1,v1.16b
	mov	v2.b[0],v1.b[0]
	orr	v0.16b,v2.16b,v0.16b
	shl	v0.16b,v0.16b,#7
	cmlt	v0.16b,v0.16b,#0
	umaxv	b0,v0.16b
	fmov	w10,s0
	orr	w10,w10,w11
	b	4f
14:
	mov	w8,#4
	cmp	x8,x27
	b.hi	3b
	b	12f
2:
	mov	w10,wzr
4:
	orr	w8,w9,w8
	tbnz	w10,#0,2f
	eor	w9,w8,#0x1
	tbnz	w9,#0,2f
	mov	x27,x2
	add	x2,sp,#104
	mov	x23,x1
	mov	x1,x19
	mov	x20,x0
	mov	x29,x5
	mov	x25,x3
	mov	w26,w12
	bl	"rtp_841016a0_rtp_ext::block_form::has_empty_data::<#16f98aa29e959305>"
	mov	w12,w26
	mov	x1,x23
	mov	x2,x27
	mov	x3,x25
	mov	x5,x29
	mov	w8,w0
	mov	x0,x20
	tbnz	w8,#0,11b
	b	3f
2:
	orr	w8,w8,w10
	tbnz	w8,#0,11b
3:
	add	x8,x19,x19,lsl #4
	cmp	x19,#15
	mov	w9,#4335
	mov	w20,wzr
	csel	x8,x8,x9,lo
	sub	x9,x3,x21
	add	x8,x8,#7
	sub	x27,x9,#12
	cmp	x8,x27
	b.hi	13b
12:
	ldr	d0,[x1,#8]
	ldrh	w10,[x1,#76]
	cmp	w12,#0
	ldr	w11,[sp,#20]
	mov	w8,#176
	mov	w9,#144
	rev32	v0.8b,v0.8b
	csel	w8,w9,w8,eq
	mov	w9,#-128
	cmp	w11,#0
	rev	w10,w10
	orr	w8,w8,w24
	csel	w9,wzr,w9,eq
	lsr	w10,w10,#16
	strb	w8,[x2]
	orr	w9,w9,w22
	strb	w9,[x2,#1]
	strh	w10,[x2,#2]
	stur	d0,[x2,#4]
	ldrb	w8,[x1,#79]
	cbz	w8,2f
	ldp	q0,q1,[x1,#16]
	cmp	w8,#8
	ldr	q2,[x1,#48]
	stp	q0,q1,[sp,#32]
	ldur	q0,[x1,#60]
	str	q2,[sp,#64]
	stur	q0,[sp,#76]
	b.hs	3f
	mov	x9,xzr
	mov	w22,#12
	b	4f
2:
	mov	w22,#12
	b	2f
3:
	and	x9,x8,#0xf8
	mov	w22,#12
	add	x11,sp,#32
	lsr	x10,x9,#3
	add	x11,x11,#16
	and	x12,x8,#0xf8
	bfi	x22,x10,#5,#5
	add	x10,x2,#28
3:
	ldp	q0,q1,[x11,#-16]
	subs	x12,x12,#8
	add	x11,x11,#32
	rev32	v0.16b,v0.16b
	rev32	v1.16b,v1.16b
	stp	q0,q1,[x10,#-16]
	add	x10,x10,#32
	b.ne	3b
	cmp	x9,x8
	b.eq	2f
4:
	add	x10,sp,#32
	sub	x8,x8,x9
	add	x10,x10,x9,lsl #2
3:
	ldr	w9,[x10],#4
	subs	x8,x8,#1
	rev	w9,w9
	str	w9,[x2,x22]
	add	x22,x22,#4
	b.ne	3b
2:
	sub	x8,x3,x22
	add	x21,x2,x22
	mov	x1,x19
	sub	x8,x8,#4
	add	x4,x21,#4
	mov	x2,x5
	mov	w3,w20
	mov	x5,x8
	bl	"rtp_841016a0_rtp_ext::block_elements::write_values::<#16f98aa29e959305>"
	mov	x2,x0
	mov	x0,x21
	mov	w1,w20
	bl	"rtp_841016a0_rtp_wire::header::block::close_block"
	mov	x8,x0
	mov	w0,wzr
	add	x9,x8,x22
	ldr	x8,[sp,#24]
	str	x9,[x8]
1:
	ldp	x20,x19,[sp,#176]
	ldr	x29,[sp,#96]
	ldp	x22,x21,[sp,#160]
	ldp	x24,x23,[sp,#144]
	ldp	x26,x25,[sp,#128]
	ldp	x30,x27,[sp,#112]
	add	sp,sp,#192
	ret
	.size	"rtp_841016a0_rtp_c::writing_values::write_with_block", .-"rtp_841016a0_rtp_c::writing_values::write_with_block"
	.cfi_endproc

	.section	.rodata.cst16,"aM",@progbits,16
	.p2align	4,0x0
.Lrtp_841016a0_CPI75_0:
	.byte	1
	.byte	2
	.byte	4
	.byte	8
	.byte	16
	.byte	32
	.byte	64
	.byte	128
	.byte	1
	.byte	2
	.byte	4
	.byte	8
	.byte	16
	.byte	32
	.byte	64
	.byte	128
	.section	.text.rtpw_data_of,"ax",@progbits
	.globl	rtp_841016a0_rtpw_data_of
	.p2align	2
	.type	rtp_841016a0_rtpw_data_of,@function
rtp_841016a0_rtpw_data_of:
	.cfi_startproc
	stp	x30,x25,[sp,#-64]!
	stp	x24,x23,[sp,#16]
	stp	x22,x21,[sp,#32]
	stp	x20,x19,[sp,#48]
	.cfi_def_cfa_offset 64
	.cfi_offset w19,-8
	.cfi_offset w20,-16
	.cfi_offset w21,-24
	.cfi_offset w22,-32
	.cfi_offset w23,-40
	.cfi_offset w24,-48
	.cfi_offset w25,-56
	.cfi_offset w30,-64
	cmp	x2,#0
	and	w9,w0,#0xff
	mov	w8,#4096
	csel	x8,x8,xzr,eq
	cmp	w9,#15
	b.hi	1f
	and	x10,x0,#0xff
	adrp	x11,2f
	add	x11,x11,:lo12:2f
	adr	x12,3f
	ldrb	w13,[x11,x10]
	add	x12,x12,x13,lsl #2
	mov	w9,wzr
	mov	w0,#9
	mov	w10,#1
	br	x12
3:
	mov	w9,#1
	ldrb	w21,[x1,#121]
	cbnz	w21,4f
	b	5f
6:
	mov	w9,#13
	ldrb	w21,[x1,#121]
	cbnz	w21,4f
	b	5f
7:
	mov	w9,#10
	ldrb	w21,[x1,#121]
	cbnz	w21,4f
	b	5f
8:
	mov	w9,#3
	ldrb	w21,[x1,#121]
	cbnz	w21,4f
	b	5f
9:
	mov	w9,#11
	ldrb	w21,[x1,#121]
	cbnz	w21,4f
	b	5f
10:
	mov	w9,#8
	ldrb	w21,[x1,#121]
	cbnz	w21,4f
	b	5f
11:
	mov	w9,#14
	ldrb	w21,[x1,#121]
	cbnz	w21,4f
	b	5f
12:
	mov	w9,#2
	ldrb	w21,[x1,#121]
	cbnz	w21,4f
	b	5f
13:
	mov	w9,#6
	ldrb	w21,[x1,#121]
	cbnz	w21,4f
	b	5f
14:
	mov	w9,#4
	ldrb	w21,[x1,#121]
	cbnz	w21,4f
	b	5f
15:
	mov	w9,#12
	ldrb	w21,[x1,#121]
	cbnz	w21,4f
	b	5f
16:
	mov	w9,#5
	ldrb	w21,[x1,#121]
	cbnz	w21,4f
	b	5f
17:
	mov	w9,#9
	ldrb	w21,[x1,#121]
	cbnz	w21,4f
	b	5f
18:
	mov	w9,#7
19:
	ldrb	w21,[x1,#121]
	cbz	w21,5f
4:
	ldrh	w11,[x1,#66]
	mov	w0,#9
	cmp	w11,#179
	b.gt	20f
	cbz	w11,5f
	cmp	w11,#90
	b.eq	5f
	b	21f
20:
	cmp	w11,#270
	b.eq	5f
	cmp	w11,#180
	b.ne	21f
5:
	ldrb	w12,[x1,#125]
	cbz	w12,20f
	ldr	w11,[x1,#32]
	cbz	w11,22f
20:
	ldrb	w11,[x1,#126]
	cbz	w11,20f
	ldr	w13,[x1,#48]
	cbz	w13,22f
20:
	ldrb	w22,[x1,#123]
	cbz	w22,20f
	ldrb	w13,[x1,#78]
	add	w13,w13,#127
	tbnz	w13,#7,22f
20:
	ldrb	w13,[x1,#128]
	cbz	w13,20f
	movi	v0.16b,#32
	mov	x13,x1
	movi	v2.16b,#133
	ldr	q1,[x13,#80]!
	movi	v3.16b,#198
	movi	v4.16b,#230
	movi	v5.16b,#246
	adrp	x14,.Lrtp_841016a0_CPI75_0
	orr	v0.16b,v1.16b,v0.16b
	add	v0.16b,v0.16b,v2.16b
	add	v2.16b,v1.16b,v3.16b
	movi	v3.16b,#95
	cmhi	v0.16b,v4.16b,v0.16b
	cmhi	v2.16b,v5.16b,v2.16b
	cmeq	v1.16b,v1.16b,v3.16b
	and	v0.16b,v2.16b,v0.16b
	bic	v0.16b,v0.16b,v1.16b
	ldr	q1,[x14,:lo12:.Lrtp_841016a0_CPI75_0]
	and	v0.16b,v0.16b,v1.16b
	ext	v1.16b,v0.16b,v0.16b,#8
	zip1	v0.16b,v0.16b,v1.16b
	addv	h0,v0.8h
	fmov	w14,s0
	orr	w14,w14,#0x10000
	rbit	w14,w14
	clz	w14,w14
	ldrb	w13,[x13,w14,uxtw]
	cbnz	w13,22f
20:
	ldrb	w13,[x1,#129]
	cbz	w13,20f
	mov	x13,x1
	ldrb	w14,[x13,#97]!
	cbz	w14,23f
	ldrb	w14,[x1,#98]
	cbz	w14,24f
	ldrb	w14,[x1,#99]
	cbz	w14,25f
	ldrb	w14,[x1,#100]
	cbz	w14,26f
	ldrb	w14,[x1,#101]
	cbz	w14,27f
	ldrb	w14,[x1,#102]
	cbz	w14,28f
	ldrb	w14,[x1,#103]
	cbz	w14,29f
	ldrb	w14,[x1,#104]
	cbz	w14,30f
	ldrb	w14,[x1,#105]
	cbnz	w14,22f
	mov	w14,#8
	b	31f
1:
	sxtb	w9,w0
	cmp	w9,#20
	b.gt	22f
	mov	w10,wzr
	mov	w9,wzr
	ldrb	w21,[x1,#121]
	cbnz	w21,4b
	b	5b
23:
	mov	x14,xzr
	b	31f
24:
	mov	w14,#1
	b	31f
25:
	mov	w14,#2
	b	31f
26:
	mov	w14,#3
	b	31f
27:
	mov	w14,#4
	b	31f
28:
	mov	w14,#5
	b	31f
29:
	mov	w14,#6
	b	31f
30:
	mov	w14,#7
31:
	cbz	x14,20f
	ldrb	w15,[x13],#1
	sub	x14,x14,#1
	cmp	w15,#95
	b.eq	31b
	sub	w16,w15,#48
	cmp	w16,#10
	b.lo	31b
	and	w15,w15,#0xffffffdf
	sub	w15,w15,#65
	cmp	w15,#26
	b.lo	31b
	b	22f
20:
	ldrb	w13,[x1,#130]
	cbz	w13,1f
	mov	x13,x1
	ldrb	w14,[x13,#106]!
	cbz	w14,4f
	ldrb	w14,[x1,#107]
	cbz	w14,5f
	ldrb	w14,[x1,#108]
	cbz	w14,20f
	ldrb	w14,[x1,#109]
	cbz	w14,23f
	ldrb	w14,[x1,#110]
	cbz	w14,24f
	ldrb	w14,[x1,#111]
	cbz	w14,25f
	ldrb	w14,[x1,#112]
	cbz	w14,26f
	ldrb	w14,[x1,#113]
	cbz	w14,27f
	ldrb	w14,[x1,#114]
	cbnz	w14,22f
	mov	w14,#8
	b	28f
4:
	mov	x14,xzr
	b	28f
5:
	mov	w14,#1
	b	28f
20:
	mov	w14,#2
	b	28f
23:
	mov	w14,#3
	b	28f
24:
	mov	w14,#4
	b	28f
25:
	mov	w14,#5
	b	28f
26:
	mov	w14,#6
	b	28f
27:
	mov	w14,#7
28:
	cbz	x14,1f
	ldrb	w15,[x13],#1
	sub	x14,x14,#1
	cmp	w15,#95
	b.eq	28b
	sub	w16,w15,#48
	cmp	w16,#10
	b.lo	28b
	and	w15,w15,#0xffffffdf
	sub	w15,w15,#65
	cmp	w15,#26
	b.lo	28b
22:
	mov	w0,#9
	ldp	x20,x19,[sp,#48]
	ldp	x22,x21,[sp,#32]
	ldp	x24,x23,[sp,#16]
	ldp	x30,x25,[sp],#64
	ret
1:
	cbz	w10,1f
	add	x19,x2,x8
	mov	w23,w9
	adrp	x8,4f
	add	x8,x8,:lo12:4f
	mov	w0,#11
	adr	x9,21f
	ldrb	w10,[x8,x23]
	add	x9,x9,x10,lsl #2
	br	x9
21:
	ldp	x20,x19,[sp,#48]
	ldp	x22,x21,[sp,#32]
	ldp	x24,x23,[sp,#16]
	ldp	x30,x25,[sp],#64
	ret
5:
	ldrb	w8,[x1,#119]
	b	20f
22:
	cbz	w21,23f
	ldrh	w8,[x1,#66]
	mov	w0,#1
	cmp	w8,#179
	b.gt	24f
	cbz	w8,25f
	cmp	w8,#90
	b.eq	25f
	b	23f
26:
	mov	x0,x1
	mov	x20,x4
	mov	x24,x1
	mov	x25,x3
	bl	"rtp_841016a0_rtp_values::value::lengths::rid_len::<#7ba4d078ccf006bf>"
	b	27f
28:
	ldrb	w8,[x1,#118]
20:
	cmp	w8,#0
	mov	w8,#4
	cset	w0,ne
	csel	x20,x8,xzr,ne
	and	w8,w0,#0xff
	cmp	w8,#1
	b.ne	1f
	b	20f
29:
	mov	x0,x1
	mov	x20,x4
	mov	x24,x1
	mov	x25,x3
	bl	"rtp_841016a0_rtp_values::value::lengths::repaired_rid_len::<#7ba4d078ccf006bf>"
	b	27f
30:
	ldrb	w8,[x1,#122]
	cmp	w8,#0
	b	31f
32:
	ldrb	w8,[x1,#116]
	cbz	w8,21b
	ldrb	w8,[x1,#117]
	mov	w9,#8
	cmp	w8,#0
	mov	w8,#16
	csel	x20,x9,x8,eq
	b	20f
33:
	ldrb	w8,[x1,#115]
	cmp	w8,#0
	mov	w8,#3
	cset	w0,ne
	csel	x20,x8,xzr,ne
	and	w8,w0,#0xff
	cmp	w8,#1
	b.ne	1f
	b	20f
34:
	ldrb	w8,[x1,#124]
	cmp	w22,#0
	ccmp	w8,#0,#4,ne
31:
	cset	w20,ne
	and	w8,w20,#0xff
	cmp	w8,#1
	b.eq	20f
1:
	mov	w0,#11
	ldp	x20,x19,[sp,#48]
	ldp	x22,x21,[sp,#32]
	ldp	x24,x23,[sp,#16]
	ldp	x30,x25,[sp],#64
	ret
31:
	ldrb	w8,[x1,#120]
	cmp	w8,#0
	mov	w8,#2
	cset	w0,ne
	csel	x20,x8,xzr,ne
	and	w8,w0,#0xff
	cmp	w8,#1
	b.ne	1b
	b	20f
35:
	mov	x0,x1
	mov	x20,x4
	mov	x24,x1
	mov	x25,x3
	bl	"rtp_841016a0_rtp_values::value::lengths::mid_len::<#7ba4d078ccf006bf>"
27:
	mov	x3,x25
	mov	x4,x20
	mov	x20,x1
	mov	x1,x24
	and	w8,w0,#0xff
	cmp	w8,#1
	b.ne	1b
20:
	cmp	x3,x20
	b.hs	27f
	mov	w0,#8
	ldp	x20,x19,[sp,#48]
	ldp	x22,x21,[sp,#32]
	ldp	x24,x23,[sp,#16]
	ldp	x30,x25,[sp],#64
	ret
27:
	adrp	x8,27f
	add	x8,x8,:lo12:27f
	adr	x9,36f
	ldrb	w10,[x8,x23]
	add	x9,x9,x10,lsl #2
	br	x9
36:
	ldrb	w8,[x1,#115]
	cbz	w8,37f
	mov	x9,#13531
	ldr	x8,[x1]
	mov	w10,#36864
	movk	x9,#55222,lsl #16
	movk	w10,#976,lsl #16
	movk	x9,#56962,lsl #32
	movk	x9,#17179,lsl #48
	umulh	x9,x8,x9
	lsr	x9,x9,#24
	msub	x8,x9,x10,x8
	mov	x9,#46574
	movk	x9,#63392,lsl #16
	movk	x9,#4294,lsl #32
	lsl	x8,x8,#18
	umulh	x8,x8,x9
	rev	w8,w8
	lsr	w9,w8,#24
	lsr	w8,w8,#8
	strb	w9,[x19,#2]
	strh	w8,[x19]
	b	37f
38:
	ldrb	w8,[x1,#127]
	cmp	w8,#0
	mov	w8,#13
	cset	w0,ne
	csel	x20,x8,xzr,ne
	and	w8,w0,#0xff
	cmp	w8,#1
	b.eq	20b
	b	1b
39:
	cbz	w12,40f
	ldr	w8,[x1,#32]
	cmp	w8,#0
	cset	w8,ne
	b	41f
40:
	mov	w8,wzr
41:
	cbz	w11,40f
	ldr	w9,[x1,#48]
	cmp	w9,#0
	cset	w9,ne
	b	41f
40:
	mov	w9,wzr
41:
	ands	w0,w8,w9
	mov	w8,#3
	csel	x20,x8,xzr,ne
	and	w8,w0,#0xff
	cmp	w8,#1
	b.ne	1b
	b	20b
24:
	cmp	w8,#180
	b.eq	25f
	cmp	w8,#270
	b.eq	25f
23:
	mov	w0,wzr
25:
	mov	w20,w0
	and	w8,w0,#0xff
	cmp	w8,#1
	b.ne	1b
	b	20b
1:
	mov	x0,x19
	mov	x19,x4
	bl	"rtp_841016a0_rtp_values::value::mid::write::<#7ba4d078ccf006bf>"
	mov	x4,x19
	b	37f
20:
	cbz	w21,37f
	ldrh	w8,[x1,#66]
	cmp	w8,#179
	b.gt	23f
	cbz	w8,24f
	cmp	w8,#90
	b.ne	37f
	mov	w8,#3
	b	24f
25:
	ldrb	w8,[x1,#119]
	cbz	w8,37f
	ldr	w8,[x1,#60]
	b	40f
41:
	mov	x0,x19
	mov	x19,x4
	bl	"rtp_841016a0_rtp_values::value::stream_id::write::<#7ba4d078ccf006bf>"
	mov	x4,x19
	b	37f
42:
	cbz	w22,37f
	ldrb	w8,[x1,#124]
	cbz	w8,37f
	ldrb	w8,[x1,#78]
	ldrb	w9,[x1,#79]
	sxtb	w8,w8
	cmp	w8,#0
	cneg	w8,w8,mi
	cmp	w9,#0
	mov	w9,#-128
	csel	w9,wzr,w9,eq
	bfxil	w9,w8,#0,#7
	strb	w9,[x19]
	b	37f
43:
	ldrb	w8,[x1,#118]
	cbz	w8,37f
	ldr	w8,[x1,#56]
40:
	rev	w8,w8
	str	w8,[x19]
	b	37f
40:
	ldrb	w8,[x1,#122]
	cbz	w8,37f
	ldrb	w8,[x1,#77]
24:
	strb	w8,[x19]
	b	37f
44:
	mov	x0,x19
	mov	x19,x4
	bl	"rtp_841016a0_rtp_values::value::abs_capture_time::write::<#7ba4d078ccf006bf>"
	mov	x4,x19
	b	37f
45:
	ldrb	w8,[x1,#120]
	cbz	w8,37f
	ldrh	w8,[x1,#64]
	rev	w8,w8
	lsr	w8,w8,#16
	strh	w8,[x19]
	b	37f
46:
	mov	x0,x19
	mov	x19,x4
	bl	"rtp_841016a0_rtp_values::value::playout_delay::write::<#7ba4d078ccf006bf>"
	mov	x4,x19
	b	37f
47:
	mov	x0,x19
	mov	x19,x4
	bl	"rtp_841016a0_rtp_values::value::stream_id::write_repaired::<#7ba4d078ccf006bf>"
	mov	x4,x19
	b	37f
48:
	mov	x0,x19
	mov	x19,x4
	bl	"rtp_841016a0_rtp_values::value::video_timing::write::<#7ba4d078ccf006bf>"
	mov	x4,x19
37:
	mov	w0,wzr
	str	x20,[x4]
	ldp	x20,x19,[sp,#48]
	ldp	x22,x21,[sp,#32]
	ldp	x24,x23,[sp,#16]
	ldp	x30,x25,[sp],#64
	ret
23:
	cmp	w8,#180
	b.eq	23f
	cmp	w8,#270
	b.ne	37b
	mov	w8,#1
	b	24b
23:
	mov	w8,#2
	b	24b
	.size	rtp_841016a0_rtpw_data_of,.-rtp_841016a0_rtpw_data_of
	.cfi_endproc
	.section	.rodata.rtpw_data_of,"a",@progbits
2:
	.byte	(21b-3b)>>2
	.byte	(19b-3b)>>2
	.byte	(3b-3b)>>2
	.byte	(12b-3b)>>2
	.byte	(8b-3b)>>2
	.byte	(14b-3b)>>2
	.byte	(16b-3b)>>2
	.byte	(13b-3b)>>2
	.byte	(18b-3b)>>2
	.byte	(10b-3b)>>2
	.byte	(17b-3b)>>2
	.byte	(7b-3b)>>2
	.byte	(9b-3b)>>2
	.byte	(15b-3b)>>2
	.byte	(6b-3b)>>2
	.byte	(11b-3b)>>2
4:
	.byte	(33b-21b)>>2
	.byte	(32b-21b)>>2
	.byte	(34b-21b)>>2
	.byte	(28b-21b)>>2
	.byte	(22b-21b)>>2
	.byte	(31b-21b)>>2
	.byte	(39b-21b)>>2
	.byte	(30b-21b)>>2
	.byte	(38b-21b)>>2
	.byte	(26b-21b)>>2
	.byte	(29b-21b)>>2
	.byte	(35b-21b)>>2
	.byte	(5b-21b)>>2
	.byte	(21b-21b)>>2
	.byte	(21b-21b)>>2
27:
	.byte	(36b-36b)>>2
	.byte	(44b-36b)>>2
	.byte	(42b-36b)>>2
	.byte	(43b-36b)>>2
	.byte	(20b-36b)>>2
	.byte	(45b-36b)>>2
	.byte	(46b-36b)>>2
	.byte	(40b-36b)>>2
	.byte	(48b-36b)>>2
	.byte	(41b-36b)>>2
	.byte	(47b-36b)>>2
	.byte	(1b-36b)>>2
	.byte	(25b-36b)>>2

	.section	.text.rtpw_extend_ntp_56,"ax",@progbits
	.globl	rtp_841016a0_rtpw_extend_ntp_56
	.p2align	2
	.type	rtp_841016a0_rtpw_extend_ntp_56,@function
rtp_841016a0_rtpw_extend_ntp_56:
	.cfi_startproc
	sub	x9,x1,x0
	mov	x8,#-72057594037927936
	mov	x11,#36028797018963968
	and	x9,x9,#0xffffffffffffff
	add	x10,x9,x0
	cmp	x9,x11
	add	x8,x10,x8
	csel	x0,x8,x10,hi
	ret
	.size	rtp_841016a0_rtpw_extend_ntp_56,.-rtp_841016a0_rtpw_extend_ntp_56
	.cfi_endproc

	.section	.text.rtpw_extend_send_time,"ax",@progbits
	.globl	rtp_841016a0_rtpw_extend_send_time
	.p2align	2
	.type	rtp_841016a0_rtpw_extend_send_time,@function
rtp_841016a0_rtpw_extend_send_time:
	.cfi_startproc
	lsl	x9,x1,#14
	mov	x8,#-274877906944
	mov	x11,#137438953472
	sub	x9,x9,x0
	and	x9,x9,#0x3fffffffff
	add	x10,x9,x0
	cmp	x9,x11
	add	x8,x10,x8
	csel	x0,x8,x10,hi
	ret
	.size	rtp_841016a0_rtpw_extend_send_time,.-rtp_841016a0_rtpw_extend_send_time
	.cfi_endproc

	.section	.text.rtpw_extend_u15,"ax",@progbits
	.globl	rtp_841016a0_rtpw_extend_u15
	.p2align	2
	.type	rtp_841016a0_rtpw_extend_u15,@function
rtp_841016a0_rtpw_extend_u15:
	.cfi_startproc
	sub	w9,w1,w0
	and	x10,x0,#0x4000
	mov	x8,#-32768
	and	x9,x9,#0x7fff
	cmp	x9,#4,lsl #12
	ccmp	x10,#0,#0,eq
	add	x10,x9,x0
	csel	x8,xzr,x8,eq
	cmp	x9,#4,lsl #12
	add	x8,x8,x10
	csel	x0,x10,x8,lo
	ret
	.size	rtp_841016a0_rtpw_extend_u15,.-rtp_841016a0_rtpw_extend_u15
	.cfi_endproc

	.section	.text.rtpw_extend_u16,"ax",@progbits
	.globl	rtp_841016a0_rtpw_extend_u16
	.p2align	2
	.type	rtp_841016a0_rtpw_extend_u16,@function
rtp_841016a0_rtpw_extend_u16:
	.cfi_startproc
	sub	w9,w1,w0
	mov	x8,#-65536
	sxth	w10,w9
	add	x11,x0,w9,uxth
	cmn	w10,#8,lsl #12
	and	x10,x0,#0x8000
	ccmp	x10,#0,#0,eq
	csel	x8,xzr,x8,eq
	tst	w9,#0x8000
	add	x8,x8,x11
	csel	x0,x11,x8,eq
	ret
	.size	rtp_841016a0_rtpw_extend_u16,.-rtp_841016a0_rtpw_extend_u16
	.cfi_endproc

	.section	.text.rtpw_extend_u32,"ax",@progbits
	.globl	rtp_841016a0_rtpw_extend_u32
	.p2align	2
	.type	rtp_841016a0_rtpw_extend_u32,@function
rtp_841016a0_rtpw_extend_u32:
	.cfi_startproc
	mov	x8,x0
	subs	w9,w1,w8
	add	x0,x0,x9
	b.mi	1f
	ret
1:
	mov	w10,#-2147483648
	cmp	w9,w10
	ccmn	w8,#1,#4,eq
	mov	x8,#-4294967296
	csel	x8,xzr,x8,gt
	add	x0,x8,x0
	ret
	.size	rtp_841016a0_rtpw_extend_u32,.-rtp_841016a0_rtpw_extend_u32
	.cfi_endproc

	.section	.text.rtpw_extend_u8,"ax",@progbits
	.globl	rtp_841016a0_rtpw_extend_u8
	.p2align	2
	.type	rtp_841016a0_rtpw_extend_u8,@function
rtp_841016a0_rtpw_extend_u8:
	.cfi_startproc
	sub	w9,w1,w0
	mov	x8,#-256
	sxtb	w10,w9
	add	x11,x0,w9,uxtb
	cmn	w10,#128
	and	x10,x0,#0x80
	ccmp	x10,#0,#0,eq
	csel	x8,xzr,x8,eq
	tst	w9,#0x80
	add	x8,x8,x11
	csel	x0,x11,x8,eq
	ret
	.size	rtp_841016a0_rtpw_extend_u8,.-rtp_841016a0_rtpw_extend_u8
	.cfi_endproc

	.section	.text.rtpw_has_structure,"ax",@progbits
	.globl	rtp_841016a0_rtpw_has_structure
	.p2align	2
	.type	rtp_841016a0_rtpw_has_structure,@function
rtp_841016a0_rtpw_has_structure:
	.cfi_startproc
	cmp	x1,#4
	b.lo	1f
	cmp	x0,#0
	mov	w8,#4096
	csel	x8,x8,xzr,eq
	add	x8,x0,x8
	ldrsb	w8,[x8,#3]
	cmp	w8,#0
	cset	w0,mi
	ret
1:
	mov	w0,wzr
	ret
	.size	rtp_841016a0_rtpw_has_structure,.-rtp_841016a0_rtpw_has_structure
	.cfi_endproc

	.section	.text.rtpw_id_of,"ax",@progbits
	.globl	rtp_841016a0_rtpw_id_of
	.p2align	2
	.type	rtp_841016a0_rtpw_id_of,@function
rtp_841016a0_rtpw_id_of:
	.cfi_startproc
	ands	w8,w1,#0xff
	mov	w9,wzr
	b.eq	1f
	sxtb	w10,w1
	cmp	w10,#20
	b.gt	1f
	mov	x9,xzr
	add	x10,x0,#1
2:
	ldrb	w11,[x10,x9]
	cmp	w11,w8
	b.eq	3f
	add	x9,x9,#1
	cmp	x9,#255
	b.ne	2b
	and	w0,wzr,#0xff
	ret
3:
	add	w9,w9,#1
1:
	and	w0,w9,#0xff
	ret
	.size	rtp_841016a0_rtpw_id_of,.-rtp_841016a0_rtpw_id_of
	.cfi_endproc

	.section	.text.rtpw_is_rtcp,"ax",@progbits
	.globl	rtp_841016a0_rtpw_is_rtcp
	.p2align	2
	.type	rtp_841016a0_rtpw_is_rtcp,@function
rtp_841016a0_rtpw_is_rtcp:
	.cfi_startproc
	cmp	x1,#2
	b.lo	1f
	cmp	x0,#0
	mov	w8,#4096
	csel	x8,x8,xzr,eq
	add	x8,x0,x8
	ldrsb	w9,[x8]
	ldrb	w8,[x8,#1]
	cmn	w9,#64
	and	w8,w8,#0xe0
	mov	w9,#192
	ccmp	w8,w9,#0,lt
	cset	w0,eq
	ret
1:
	mov	w0,wzr
	ret
	.size	rtp_841016a0_rtpw_is_rtcp,.-rtp_841016a0_rtpw_is_rtcp
	.cfi_endproc

	.section	.text.rtpw_is_stream_id,"ax",@progbits
	.globl	rtp_841016a0_rtpw_is_stream_id
	.p2align	2
	.type	rtp_841016a0_rtpw_is_stream_id,@function
rtp_841016a0_rtpw_is_stream_id:
	.cfi_startproc
	sub	x8,x1,#1
	cmp	x8,#254
	b.hi	1f
	cmp	x0,#0
	mov	w8,#4096
	csel	x8,x8,xzr,eq
	add	x8,x0,x8
2:
	cmp	x1,#0
	cset	w0,eq
	cbz	x1,3f
	ldrb	w9,[x8],#1
	sub	x1,x1,#1
	sub	w10,w9,#48
	cmp	w10,#10
	b.lo	2b
	and	w9,w9,#0xffffffdf
	sub	w9,w9,#65
	cmp	w9,#26
	b.lo	2b
3:
	ret
1:
	mov	w0,wzr
	ret
	.size	rtp_841016a0_rtpw_is_stream_id,.-rtp_841016a0_rtpw_is_stream_id
	.cfi_endproc

	.section	.text.rtpw_is_token,"ax",@progbits
	.globl	rtp_841016a0_rtpw_is_token
	.p2align	2
	.type	rtp_841016a0_rtpw_is_token,@function
rtp_841016a0_rtpw_is_token:
	.cfi_startproc
	sub	x8,x1,#1
	cmp	x8,#254
	b.hi	1f
	cmp	x0,#0
	mov	w8,#4096
	csel	x8,x8,xzr,eq
	add	x8,x0,x8
	b	2f
3:
	sub	x1,x1,#1
	cbz	x1,4f
2:
	ldrb	w9,[x8],#1
	cmp	w9,#33
	b.eq	3b
	cmp	w9,#47
	b.hi	2f
	cmp	w9,#35
	b.lo	1f
	cmp	w9,#40
	b.lo	3b
	cmp	w9,#42
	b.lo	1f
	cmp	w9,#44
	b.lo	3b
	cmp	w9,#47
	mov	w0,wzr
	b.eq	5f
	cmp	w9,#44
	b.ne	3b
	b	5f
2:
	cmp	w9,#58
	b.lo	3b
	cmp	w9,#65
	b.lo	1f
	cmp	w9,#91
	b.lo	3b
	sub	w9,w9,#94
	cmp	w9,#32
	b.ls	3b
1:
	mov	w0,wzr
5:
	ret
4:
	mov	w0,#1
	ret
	.size	rtp_841016a0_rtpw_is_token,.-rtp_841016a0_rtpw_is_token
	.cfi_endproc

	.section	.text.rtpw_last_element,"ax",@progbits
	.globl	rtp_841016a0_rtpw_last_element
	.p2align	2
	.type	rtp_841016a0_rtpw_last_element,@function
rtp_841016a0_rtpw_last_element:
	.cfi_startproc
	str	x30,[sp,#-64]!
	stp	x24,x23,[sp,#16]
	stp	x22,x21,[sp,#32]
	stp	x20,x19,[sp,#48]
	.cfi_def_cfa_offset 64
	.cfi_offset w19,-8
	.cfi_offset w20,-16
	.cfi_offset w21,-24
	.cfi_offset w22,-32
	.cfi_offset w23,-40
	.cfi_offset w24,-48
	.cfi_offset w30,-64
	mov	w9,#4096
	cmp	x0,#0
	and	w8,w2,#0xff
	csel	x9,x9,xzr,eq
	mov	x19,x4
	mov	x20,x1
	cmp	w8,#1
	and	w21,w3,#0xff
	add	x0,x0,x9
	b.eq	1f
	cmp	w8,#2
	b.ne	2f
	cbz	x20,3f
	mov	w24,wzr
	mov	x22,xzr
	mov	x23,xzr
	mov	x1,x20
4:
	ldrb	w8,[x0]
	cbnz	w8,5f
	cmp	x1,#2
	b.eq	6f
	cmp	x1,#1
	b.eq	7f
	cmp	x1,#3
	b.hi	8f
	ldrb	w8,[x0,#1]
	cbnz	w8,8f
	ldrb	w8,[x0,#2]
	cbnz	w8,8f
	b	7f
6:
	ldrb	w8,[x0,#1]
	cbz	w8,7f
8:
	sub	x1,x1,#1
	add	x0,x0,#1
	bl	"rtp_841016a0_rtp_ext::elements::skip_zeros"
	cbz	x1,7f
5:
	cmp	x1,#2
	b.lo	7f
	ldrb	w8,[x0,#1]
	add	x9,x8,#2
	subs	x1,x1,x9
	b.lo	7f
	ldrb	w10,[x0]
	add	x0,x0,x9
	cmp	w10,w21
	b.eq	5f
	cbnz	x1,4b
	b	7f
5:
	sub	x22,x20,x1
	mov	w24,#1
	sub	x23,x22,x8
	cbnz	x1,4b
	b	4f
1:
	cbz	x20,3f
	mov	w24,wzr
	mov	x22,xzr
	mov	x23,xzr
	mov	x1,x20
1:
	ldrb	w8,[x0]
	cbnz	w8,5f
	cmp	x1,#2
	b.eq	6f
	cmp	x1,#1
	b.eq	7f
	cmp	x1,#3
	b.hi	8f
	ldrb	w8,[x0,#1]
	cbnz	w8,8f
	ldrb	w8,[x0,#2]
	cbnz	w8,8f
	b	7f
6:
	ldrb	w8,[x0,#1]
	cbz	w8,7f
8:
	sub	x1,x1,#1
	add	x0,x0,#1
	bl	"rtp_841016a0_rtp_ext::elements::skip_zeros"
	cbz	x1,7f
	ldrb	w8,[x0]
5:
	cmp	w8,#239
	b.hi	7f
	and	w9,w8,#0xf
	add	w9,w9,#2
	subs	x1,x1,x9
	b.lo	7f
	cmp	w21,w8,lsr #4
	add	x0,x0,x9
	b.eq	5f
	cbnz	x1,1b
	b	7f
5:
	sub	x22,x20,x1
	mov	w24,#1
	sub	x8,x22,x9
	add	x23,x8,#1
	cbnz	x1,1b
	b	4f
7:
	cmp	w24,#1
	b.ne	3f
4:
	mov	w0,wzr
	sub	x8,x22,x23
	str	x22,[x19,#16]
	stp	x23,x8,[x19]
	strb	w21,[x19,#24]
	stur	wzr,[x19,#25]
	str	wzr,[x19,#28]
	ldp	x20,x19,[sp,#48]
	ldp	x22,x21,[sp,#32]
	ldp	x24,x23,[sp,#16]
	ldr	x30,[sp],#64
	ret
3:
	mov	w0,#11
	ldp	x20,x19,[sp,#48]
	ldp	x22,x21,[sp,#32]
	ldp	x24,x23,[sp,#16]
	ldr	x30,[sp],#64
	ret
2:
	mov	w0,#9
	ldp	x20,x19,[sp,#48]
	ldp	x22,x21,[sp,#32]
	ldp	x24,x23,[sp,#16]
	ldr	x30,[sp],#64
	ret
	.size	rtp_841016a0_rtpw_last_element,.-rtp_841016a0_rtpw_last_element
	.cfi_endproc

	.section	.text.rtpw_map_get,"ax",@progbits
	.globl	rtp_841016a0_rtpw_map_get
	.p2align	2
	.type	rtp_841016a0_rtpw_map_get,@function
rtp_841016a0_rtpw_map_get:
	.cfi_startproc
	and	x8,x1,#0xff
	and	w9,w1,#0xff
	ldrsb	w8,[x0,x8]
	tst	w8,#0xff
	ccmp	w9,#0,#4,ne
	ccmp	w8,#21,#0,ne
	csel	w8,w8,wzr,lt
	and	w0,w8,#0xff
	ret
	.size	rtp_841016a0_rtpw_map_get,.-rtp_841016a0_rtpw_map_get
	.cfi_endproc

	.section	.text.rtpw_map_remove,"ax",@progbits
	.globl	rtp_841016a0_rtpw_map_remove
	.p2align	2
	.type	rtp_841016a0_rtpw_map_remove,@function
rtp_841016a0_rtpw_map_remove:
	.cfi_startproc
	and	x8,x1,#0xff
	strb	wzr,[x0,x8]
	ret
	.size	rtp_841016a0_rtpw_map_remove,.-rtp_841016a0_rtpw_map_remove
	.cfi_endproc

	.section	.text.rtpw_map_set,"ax",@progbits
	.globl	rtp_841016a0_rtpw_map_set
	.p2align	2
	.type	rtp_841016a0_rtpw_map_set,@function
rtp_841016a0_rtpw_map_set:
	.cfi_startproc
	sxtb	w9,w2
	mov	x8,x0
	mov	w0,#9
	cmp	w9,#20
	b.gt	1f
	tst	w1,#0xff
	b.eq	1f
	tst	w2,#0xff
	b.eq	1f
	mov	w0,wzr
	and	x9,x1,#0xff
	strb	w2,[x8,x9]
1:
	ret
	.size	rtp_841016a0_rtpw_map_set,.-rtp_841016a0_rtpw_map_set
	.cfi_endproc

	.section	.rodata.cst8,"aM",@progbits,8
	.p2align	3,0x0
.Lrtp_841016a0_CPI91_0:
	.byte	0
	.byte	3
	.byte	1
	.byte	6
	.zero	1
	.zero	1
	.zero	1
	.zero	1
.Lrtp_841016a0_CPI91_1:
	.byte	10
	.byte	11
	.byte	0
	.byte	5
	.zero	1
	.zero	1
	.zero	1
	.zero	1
	.section	.text.rtpw_map_standard,"ax",@progbits
	.globl	rtp_841016a0_rtpw_map_standard
	.p2align	2
	.type	rtp_841016a0_rtpw_map_standard,@function
rtp_841016a0_rtpw_map_standard:
	.cfi_startproc
	adrp	x8,.Lrtp_841016a0_CPI91_0
	stur	wzr,[x0,#5]
	ldr	d0,[x8,:lo12:.Lrtp_841016a0_CPI91_0]
	adrp	x8,.Lrtp_841016a0_CPI91_1
	strb	wzr,[x0,#9]
	ldr	d1,[x8,:lo12:.Lrtp_841016a0_CPI91_1]
	mov	w8,#12
	strh	wzr,[x0,#254]
	str	s0,[x0]
	movi	v0.2d,#0000000000000000
	stur	s1,[x0,#10]
	strb	w8,[x0,#4]
	stur	q0,[x0,#14]
	stur	q0,[x0,#30]
	stur	q0,[x0,#46]
	stur	q0,[x0,#62]
	stur	q0,[x0,#78]
	stur	q0,[x0,#94]
	stur	q0,[x0,#110]
	stur	q0,[x0,#126]
	stur	q0,[x0,#142]
	stur	q0,[x0,#158]
	stur	q0,[x0,#174]
	stur	q0,[x0,#190]
	stur	q0,[x0,#206]
	stur	q0,[x0,#222]
	stur	q0,[x0,#238]
	ret
	.size	rtp_841016a0_rtpw_map_standard,.-rtp_841016a0_rtpw_map_standard
	.cfi_endproc

	.section	.text.rtpw_new_ids_between,"ax",@progbits
	.globl	rtp_841016a0_rtpw_new_ids_between
	.p2align	2
	.type	rtp_841016a0_rtpw_new_ids_between,@function
rtp_841016a0_rtpw_new_ids_between:
	.cfi_startproc
	movi	v0.2d,#0000000000000000
	mov	x8,xzr
	stp	q0,q0,[x2]
	stp	q0,q0,[x2,#32]
	stp	q0,q0,[x2,#64]
	stp	q0,q0,[x2,#96]
	stp	q0,q0,[x2,#128]
	stp	q0,q0,[x2,#160]
	stp	q0,q0,[x2,#192]
	stp	q0,q0,[x2,#224]
	ldp	q0,q4,[x0,#32]
	ldr	q3,[x0,#64]
	ldp	q7,q1,[x0,#80]
	ldr	q2,[x0,#128]
	ldp	q6,q16,[x0,#192]
	ldr	q17,[x0,#224]
	orr	v0.16b,v3.16b,v0.16b
	ldp	q3,q5,[x0,#144]
	orr	v1.16b,v2.16b,v1.16b
	ldr	q2,[x0,#112]
	orr	v4.16b,v7.16b,v4.16b
	orr	v5.16b,v6.16b,v5.16b
	ldr	q6,[x0,#176]
	orr	v0.16b,v1.16b,v0.16b
	orr	v1.16b,v3.16b,v2.16b
	orr	v2.16b,v16.16b,v6.16b
	orr	v3.16b,v17.16b,v5.16b
	ldr	q5,[x0,#240]
	orr	v1.16b,v1.16b,v4.16b
	orr	v2.16b,v5.16b,v2.16b
	orr	v0.16b,v3.16b,v0.16b
	ldr	q3,[x0,#16]
	orr	v1.16b,v2.16b,v1.16b
	orr	v0.16b,v0.16b,v3.16b
	orr	v0.16b,v0.16b,v1.16b
	ext	v1.16b,v0.16b,v0.16b,#8
	orr	v0.8b,v0.8b,v1.8b
	fmov	x9,d0
	orr	x9,x9,x9,lsr #32
	lsr	x10,x9,#16
	orr	w9,w9,w10
	mov	w10,#16
	orr	w9,w9,w9,lsr #8
	tst	w9,#0xff
	mov	w9,#256
	csel	x9,x10,x9,eq
	add	x10,x1,#1
	b	1f
2:
	add	w11,w12,#1
3:
	strb	w11,[x2,x8]
4:
	add	x8,x8,#1
	cmp	x8,x9
	b.eq	5f
1:
	and	x11,x8,#0xff
	ldrsb	w11,[x0,x11]
	cmp	w11,#20
	and	w11,w11,#0xff
	ccmp	x8,#0,#4,le
	ccmp	w11,#0,#4,ne
	b.eq	4b
	mov	x12,xzr
1:
	ldrb	w13,[x10,x12]
	cmp	w13,w11
	b.eq	2b
	add	x12,x12,#1
	cmp	x12,#255
	b.ne	1b
	mov	w11,wzr
	b	3b
5:
	ret
	.size	rtp_841016a0_rtpw_new_ids_between,.-rtp_841016a0_rtpw_new_ids_between
	.cfi_endproc

	.section	.rodata.cst16,"aM",@progbits,16
	.p2align	4,0x0
.Lrtp_841016a0_CPI93_0:
	.byte	0
	.byte	1
	.byte	2
	.byte	3
	.byte	4
	.byte	5
	.byte	6
	.byte	7
	.byte	8
	.byte	9
	.byte	10
	.byte	11
	.byte	12
	.byte	13
	.byte	14
	.byte	15
.Lrtp_841016a0_CPI93_1:
	.byte	16
	.byte	17
	.byte	18
	.byte	19
	.byte	20
	.byte	21
	.byte	22
	.byte	23
	.byte	24
	.byte	25
	.byte	26
	.byte	27
	.byte	28
	.byte	29
	.byte	30
	.byte	31
.Lrtp_841016a0_CPI93_2:
	.byte	32
	.byte	33
	.byte	34
	.byte	35
	.byte	36
	.byte	37
	.byte	38
	.byte	39
	.byte	40
	.byte	41
	.byte	42
	.byte	43
	.byte	44
	.byte	45
	.byte	46
	.byte	47
.Lrtp_841016a0_CPI93_3:
	.byte	48
	.byte	49
	.byte	50
	.byte	51
	.byte	52
	.byte	53
	.byte	54
	.byte	55
	.byte	56
	.byte	57
	.byte	58
	.byte	59
	.byte	60
	.byte	61
	.byte	62
	.byte	63
.Lrtp_841016a0_CPI93_4:
	.byte	64
	.byte	65
	.byte	66
	.byte	67
	.byte	68
	.byte	69
	.byte	70
	.byte	71
	.byte	72
	.byte	73
	.byte	74
	.byte	75
	.byte	76
	.byte	77
	.byte	78
	.byte	79
.Lrtp_841016a0_CPI93_5:
	.byte	80
	.byte	81
	.byte	82
	.byte	83
	.byte	84
	.byte	85
	.byte	86
	.byte	87
	.byte	88
	.byte	89
	.byte	90
	.byte	91
	.byte	92
	.byte	93
	.byte	94
	.byte	95
.Lrtp_841016a0_CPI93_6:
	.byte	96
	.byte	97
	.byte	98
	.byte	99
	.byte	100
	.byte	101
	.byte	102
	.byte	103
	.byte	104
	.byte	105
	.byte	106
	.byte	107
	.byte	108
	.byte	109
	.byte	110
	.byte	111
.Lrtp_841016a0_CPI93_7:
	.byte	112
	.byte	113
	.byte	114
	.byte	115
	.byte	116
	.byte	117
	.byte	118
	.byte	119
	.byte	120
	.byte	121
	.byte	122
	.byte	123
	.byte	124
	.byte	125
	.byte	126
	.byte	127
.Lrtp_841016a0_CPI93_8:
	.byte	128
	.byte	129
	.byte	130
	.byte	131
	.byte	132
	.byte	133
	.byte	134
	.byte	135
	.byte	136
	.byte	137
	.byte	138
	.byte	139
	.byte	140
	.byte	141
	.byte	142
	.byte	143
.Lrtp_841016a0_CPI93_9:
	.byte	144
	.byte	145
	.byte	146
	.byte	147
	.byte	148
	.byte	149
	.byte	150
	.byte	151
	.byte	152
	.byte	153
	.byte	154
	.byte	155
	.byte	156
	.byte	157
	.byte	158
	.byte	159
.Lrtp_841016a0_CPI93_10:
	.byte	160
	.byte	161
	.byte	162
	.byte	163
	.byte	164
	.byte	165
	.byte	166
	.byte	167
	.byte	168
	.byte	169
	.byte	170
	.byte	171
	.byte	172
	.byte	173
	.byte	174
	.byte	175
.Lrtp_841016a0_CPI93_11:
	.byte	176
	.byte	177
	.byte	178
	.byte	179
	.byte	180
	.byte	181
	.byte	182
	.byte	183
	.byte	184
	.byte	185
	.byte	186
	.byte	187
	.byte	188
	.byte	189
	.byte	190
	.byte	191
.Lrtp_841016a0_CPI93_12:
	.byte	192
	.byte	193
	.byte	194
	.byte	195
	.byte	196
	.byte	197
	.byte	198
	.byte	199
	.byte	200
	.byte	201
	.byte	202
	.byte	203
	.byte	204
	.byte	205
	.byte	206
	.byte	207
.Lrtp_841016a0_CPI93_13:
	.byte	208
	.byte	209
	.byte	210
	.byte	211
	.byte	212
	.byte	213
	.byte	214
	.byte	215
	.byte	216
	.byte	217
	.byte	218
	.byte	219
	.byte	220
	.byte	221
	.byte	222
	.byte	223
.Lrtp_841016a0_CPI93_14:
	.byte	224
	.byte	225
	.byte	226
	.byte	227
	.byte	228
	.byte	229
	.byte	230
	.byte	231
	.byte	232
	.byte	233
	.byte	234
	.byte	235
	.byte	236
	.byte	237
	.byte	238
	.byte	239
.Lrtp_841016a0_CPI93_15:
	.byte	240
	.byte	241
	.byte	242
	.byte	243
	.byte	244
	.byte	245
	.byte	246
	.byte	247
	.byte	248
	.byte	249
	.byte	250
	.byte	251
	.byte	252
	.byte	253
	.byte	254
	.byte	255
.Lrtp_841016a0_CPI93_16:
	.byte	1
	.byte	2
	.byte	4
	.byte	8
	.byte	16
	.byte	32
	.byte	64
	.byte	128
	.byte	1
	.byte	2
	.byte	4
	.byte	8
	.byte	16
	.byte	32
	.byte	64
	.byte	128
	.section	.text.rtpw_new_ids_from_retransmission,"ax",@progbits
	.globl	rtp_841016a0_rtpw_new_ids_from_retransmission
	.p2align	2
	.type	rtp_841016a0_rtpw_new_ids_from_retransmission,@function
rtp_841016a0_rtpw_new_ids_from_retransmission:
	.cfi_startproc
	sub	sp,sp,#288
	stp	x29,x30,[sp,#256]
	stp	x20,x19,[sp,#272]
	.cfi_def_cfa_offset 288
	.cfi_offset w19,-8
	.cfi_offset w20,-16
	.cfi_offset w30,-24
	.cfi_offset w29,-32
	ldp	q0,q4,[x0,#32]
	adrp	x8,.Lrtp_841016a0_CPI93_0
	ldr	q3,[x0,#64]
	ldp	q7,q1,[x0,#80]
	ldp	q6,q16,[x0,#192]
	adrp	x9,.Lrtp_841016a0_CPI93_4
	orr	v0.16b,v3.16b,v0.16b
	ldp	q3,q5,[x0,#144]
	ldr	q2,[x0,#128]
	orr	v4.16b,v7.16b,v4.16b
	adrp	x10,.Lrtp_841016a0_CPI93_11
	ldr	q17,[x0,#224]
	mov	x19,x1
	mov	x20,x0
	orr	v1.16b,v2.16b,v1.16b
	orr	v5.16b,v6.16b,v5.16b
	ldr	q2,[x0,#112]
	ldr	q6,[x0,#176]
	orr	v0.16b,v1.16b,v0.16b
	orr	v1.16b,v3.16b,v2.16b
	orr	v2.16b,v16.16b,v6.16b
	orr	v3.16b,v17.16b,v5.16b
	ldr	q5,[x0,#240]
	orr	v1.16b,v1.16b,v4.16b
	orr	v2.16b,v5.16b,v2.16b
	ldr	q4,[x8,:lo12:.Lrtp_841016a0_CPI93_0]
	orr	v0.16b,v3.16b,v0.16b
	ldr	q3,[x0,#16]
	adrp	x8,.Lrtp_841016a0_CPI93_1
	orr	v1.16b,v2.16b,v1.16b
	ldr	q2,[x8,:lo12:.Lrtp_841016a0_CPI93_1]
	adrp	x8,.Lrtp_841016a0_CPI93_2
	orr	v0.16b,v0.16b,v3.16b
	ldr	q3,[x9,:lo12:.Lrtp_841016a0_CPI93_4]
	adrp	x9,.Lrtp_841016a0_CPI93_6
	stp	q4,q2,[sp]
	orr	v0.16b,v0.16b,v1.16b
	ldr	q1,[x8,:lo12:.Lrtp_841016a0_CPI93_2]
	adrp	x8,.Lrtp_841016a0_CPI93_3
	ldr	q2,[x8,:lo12:.Lrtp_841016a0_CPI93_3]
	adrp	x8,.Lrtp_841016a0_CPI93_5
	ext	v4.16b,v0.16b,v0.16b,#8
	stp	q1,q2,[sp,#32]
	ldr	q1,[x8,:lo12:.Lrtp_841016a0_CPI93_5]
	adrp	x8,.Lrtp_841016a0_CPI93_7
	ldr	q2,[x9,:lo12:.Lrtp_841016a0_CPI93_6]
	adrp	x9,.Lrtp_841016a0_CPI93_8
	stp	q3,q1,[sp,#64]
	ldr	q1,[x8,:lo12:.Lrtp_841016a0_CPI93_7]
	adrp	x8,.Lrtp_841016a0_CPI93_9
	ldr	q3,[x9,:lo12:.Lrtp_841016a0_CPI93_8]
	adrp	x9,.Lrtp_841016a0_CPI93_10
	orr	v0.8b,v0.8b,v4.8b
	stp	q2,q1,[sp,#96]
	ldr	q1,[x8,:lo12:.Lrtp_841016a0_CPI93_9]
	stp	q3,q1,[sp,#128]
	ldr	q1,[x10,:lo12:.Lrtp_841016a0_CPI93_11]
	fmov	x8,d0
	ldr	q0,[x9,:lo12:.Lrtp_841016a0_CPI93_10]
	adrp	x9,.Lrtp_841016a0_CPI93_12
	ldr	q2,[x9,:lo12:.Lrtp_841016a0_CPI93_12]
	adrp	x9,.Lrtp_841016a0_CPI93_13
	stp	q0,q1,[sp,#160]
	ldr	q0,[x9,:lo12:.Lrtp_841016a0_CPI93_13]
	adrp	x9,.Lrtp_841016a0_CPI93_14
	orr	x8,x8,x8,lsr #32
	ldr	q3,[x9,:lo12:.Lrtp_841016a0_CPI93_14]
	adrp	x9,.Lrtp_841016a0_CPI93_15
	stp	q2,q0,[sp,#192]
	ldr	q0,[x9,:lo12:.Lrtp_841016a0_CPI93_15]
	lsr	x10,x8,#16
	stp	q3,q0,[sp,#224]
	orr	w8,w8,w10
	orr	w8,w8,w8,lsr #8
	tst	w8,#0xff
	b.eq	1f
	mov	w1,#15
	b	2f
1:
	ldr	q0,[x20]
	adrp	x8,.Lrtp_841016a0_CPI93_16
	ldr	q1,[x8,:lo12:.Lrtp_841016a0_CPI93_16]
	cmeq	v0.16b,v0.16b,#0
	bic	v0.16b,v1.16b,v0.16b
	ext	v1.16b,v0.16b,v0.16b,#8
	zip1	v0.16b,v0.16b,v1.16b
	addv	h0,v0.8h
	fmov	w8,s0
	orr	w8,w8,#0x1
	and	x8,x8,#0xffff
	clz	x8,x8
	eor	x1,x8,#0x3f
2:
	mov	x0,x20
	mov	w2,#10
	mov	w3,#9
	bl	"rtp_841016a0_rtp_ext::renamed_ids::lowest_beside::<#d4d397b1ff315637>"
	and	w8,w0,#0xff
	cmp	w8,#1
	b.ne	1f
	movi	v2.16b,#10
	ldur	q6,[x20,#1]
	ldur	q7,[x20,#17]
	movi	v1.16b,#11
	ldur	q18,[x20,#33]
	ldur	q16,[sp,#1]
	ldur	q17,[sp,#17]
	dup	v0.16b,w1
	ldur	q20,[sp,#33]
	ldur	q23,[x20,#129]
	ldur	q4,[x20,#49]
	mov	x8,sp
	cmeq	v19.16b,v6.16b,v2.16b
	cmeq	v21.16b,v7.16b,v2.16b
	cmeq	v22.16b,v18.16b,v2.16b
	cmeq	v6.16b,v6.16b,v1.16b
	cmeq	v7.16b,v7.16b,v1.16b
	cmeq	v18.16b,v18.16b,v1.16b
	cmeq	v25.16b,v23.16b,v2.16b
	cmeq	v24.16b,v4.16b,v2.16b
	ldur	q5,[sp,#49]
	bic	v16.16b,v16.16b,v19.16b
	bic	v17.16b,v17.16b,v21.16b
	ldur	q19,[x20,#145]
	bic	v20.16b,v20.16b,v22.16b
	ldur	q21,[x20,#161]
	cmeq	v4.16b,v4.16b,v1.16b
	cmeq	v26.16b,v19.16b,v2.16b
	bic	v5.16b,v5.16b,v24.16b
	ldur	q22,[x20,#177]
	bsl	v6.16b,v0.16b,v16.16b
	ldur	q16,[x8,#129]
	bsl	v7.16b,v0.16b,v17.16b
	ldur	q17,[x8,#145]
	bsl	v18.16b,v0.16b,v20.16b
	cmeq	v20.16b,v23.16b,v1.16b
	bic	v16.16b,v16.16b,v25.16b
	cmeq	v19.16b,v19.16b,v1.16b
	ldur	q3,[x20,#65]
	bic	v17.16b,v17.16b,v26.16b
	bit	v5.16b,v0.16b,v4.16b
	ldur	q4,[x20,#81]
	stur	q6,[sp,#1]
	cmeq	v6.16b,v21.16b,v2.16b
	cmeq	v21.16b,v21.16b,v1.16b
	stur	q7,[sp,#17]
	ldur	q7,[x8,#161]
	bit	v16.16b,v0.16b,v20.16b
	stur	q18,[sp,#33]
	cmeq	v18.16b,v22.16b,v2.16b
	cmeq	v22.16b,v22.16b,v1.16b
	ldur	q20,[x8,#177]
	bic	v6.16b,v7.16b,v6.16b
	cmeq	v23.16b,v3.16b,v2.16b
	bit	v17.16b,v0.16b,v19.16b
	ldur	q7,[sp,#65]
	cmeq	v19.16b,v4.16b,v2.16b
	bic	v18.16b,v20.16b,v18.16b
	stur	q16,[x8,#129]
	mov	v16.16b,v22.16b
	stur	q5,[sp,#49]
	bsl	v21.16b,v0.16b,v6.16b
	bic	v5.16b,v7.16b,v23.16b
	ldur	q7,[x20,#193]
	ldur	q20,[sp,#81]
	ldur	d23,[x20,#225]
	stur	q17,[x8,#145]
	ldur	q17,[x20,#209]
	bsl	v16.16b,v0.16b,v18.16b
	cmeq	v18.16b,v7.16b,v2.16b
	bic	v6.16b,v20.16b,v19.16b
	movi	v19.8b,#10
	ldur	q20,[x8,#193]
	cmeq	v22.16b,v17.16b,v2.16b
	stur	q21,[x8,#161]
	ldur	q21,[x8,#209]
	cmeq	v7.16b,v7.16b,v1.16b
	cmeq	v17.16b,v17.16b,v1.16b
	bic	v18.16b,v20.16b,v18.16b
	movi	v20.8b,#11
	ldur	d24,[x20,#233]
	bic	v21.16b,v21.16b,v22.16b
	cmeq	v25.8b,v23.8b,v19.8b
	ldur	d26,[x20,#241]
	ldur	d22,[x8,#225]
	cmeq	v27.8b,v24.8b,v19.8b
	stur	q16,[x8,#177]
	bsl	v7.16b,v0.16b,v18.16b
	cmeq	v19.8b,v26.8b,v19.8b
	ldur	d18,[x8,#233]
	cmeq	v23.8b,v23.8b,v20.8b
	bsl	v17.16b,v0.16b,v21.16b
	cmeq	v21.8b,v24.8b,v20.8b
	cmeq	v20.8b,v26.8b,v20.8b
	bic	v22.8b,v22.8b,v25.8b
	ldur	d25,[x8,#241]
	bic	v18.8b,v18.8b,v27.8b
	ldrb	w9,[x20,#249]
	cmeq	v3.16b,v3.16b,v1.16b
	bic	v19.8b,v25.8b,v19.8b
	mov	v16.8b,v23.8b
	stur	q7,[x8,#193]
	mov	v7.8b,v20.8b
	stur	q17,[x8,#209]
	cmeq	v4.16b,v4.16b,v1.16b
	bit	v18.8b,v0.8b,v21.8b
	cmp	w9,#10
	ldrb	w10,[x20,#250]
	bsl	v16.8b,v0.8b,v22.8b
	bit	v5.16b,v0.16b,v3.16b
	ldur	q24,[x20,#97]
	bsl	v7.8b,v0.8b,v19.8b
	mov	v3.16b,v4.16b
	ldrb	w11,[x20,#253]
	cmeq	v21.16b,v24.16b,v2.16b
	ldur	q19,[sp,#97]
	stur	d18,[x8,#233]
	stur	d16,[x8,#225]
	bsl	v3.16b,v0.16b,v6.16b
	ldur	q6,[x20,#113]
	stur	d7,[x8,#241]
	ldrb	w8,[sp,#249]
	ldur	q7,[sp,#113]
	cmeq	v2.16b,v6.16b,v2.16b
	bic	v4.16b,v19.16b,v21.16b
	cmeq	v16.16b,v24.16b,v1.16b
	csel	w8,wzr,w8,eq
	cmp	w9,#11
	ldrb	w9,[sp,#250]
	csel	w8,w1,w8,eq
	cmp	w10,#10
	cmeq	v1.16b,v6.16b,v1.16b
	csel	w9,wzr,w9,eq
	cmp	w10,#11
	ldrb	w10,[x20,#251]
	strb	w8,[sp,#249]
	csel	w8,w1,w9,eq
	ldrb	w9,[sp,#251]
	strb	w8,[sp,#250]
	cmp	w10,#10
	ldrb	w8,[x20,#252]
	csel	w9,wzr,w9,eq
	cmp	w10,#11
	ldrb	w10,[sp,#252]
	csel	w9,w1,w9,eq
	cmp	w8,#10
	bic	v2.16b,v7.16b,v2.16b
	csel	w10,wzr,w10,eq
	cmp	w8,#11
	ldrb	w8,[sp,#253]
	strb	w9,[sp,#251]
	csel	w9,w1,w10,eq
	cmp	w11,#10
	csel	w8,wzr,w8,eq
	cmp	w11,#11
	strb	w9,[sp,#252]
	csel	w8,w1,w8,eq
	ldrb	w9,[x20,#254]
	ldrb	w10,[x20,#255]
	strb	w8,[sp,#253]
	ldrb	w8,[sp,#254]
	bit	v4.16b,v0.16b,v16.16b
	cmp	w9,#10
	bif	v0.16b,v2.16b,v1.16b
	stur	q5,[sp,#65]
	csel	w8,wzr,w8,eq
	cmp	w9,#11
	ldrb	w9,[sp,#255]
	csel	w8,w1,w8,eq
	cmp	w10,#10
	stur	q3,[sp,#81]
	csel	w9,wzr,w9,eq
	cmp	w10,#11
	strb	w8,[sp,#254]
	csel	w8,w1,w9,eq
	stur	q4,[sp,#97]
	stur	q0,[sp,#113]
	strb	w8,[sp,#255]
1:
	ldp	q0,q1,[sp,#192]
	ldp	x29,x30,[sp,#256]
	stp	q0,q1,[x19,#192]
	ldp	q0,q2,[sp,#224]
	stp	q0,q2,[x19,#224]
	ldp	q1,q0,[sp,#128]
	stp	q1,q0,[x19,#128]
	ldp	q2,q0,[sp,#160]
	stp	q2,q0,[x19,#160]
	ldp	q1,q0,[sp,#64]
	stp	q1,q0,[x19,#64]
	ldp	q2,q0,[sp,#96]
	stp	q2,q0,[x19,#96]
	ldp	q1,q0,[sp]
	stp	q1,q0,[x19]
	ldp	q2,q0,[sp,#32]
	stp	q2,q0,[x19,#32]
	ldp	x20,x19,[sp,#272]
	add	sp,sp,#288
	ret
	.size	rtp_841016a0_rtpw_new_ids_from_retransmission,.-rtp_841016a0_rtpw_new_ids_from_retransmission
	.cfi_endproc

	.section	.rodata.cst16,"aM",@progbits,16
	.p2align	4,0x0
.Lrtp_841016a0_CPI94_0:
	.byte	0
	.byte	1
	.byte	2
	.byte	3
	.byte	4
	.byte	5
	.byte	6
	.byte	7
	.byte	8
	.byte	9
	.byte	10
	.byte	11
	.byte	12
	.byte	13
	.byte	14
	.byte	15
.Lrtp_841016a0_CPI94_1:
	.byte	16
	.byte	17
	.byte	18
	.byte	19
	.byte	20
	.byte	21
	.byte	22
	.byte	23
	.byte	24
	.byte	25
	.byte	26
	.byte	27
	.byte	28
	.byte	29
	.byte	30
	.byte	31
.Lrtp_841016a0_CPI94_2:
	.byte	32
	.byte	33
	.byte	34
	.byte	35
	.byte	36
	.byte	37
	.byte	38
	.byte	39
	.byte	40
	.byte	41
	.byte	42
	.byte	43
	.byte	44
	.byte	45
	.byte	46
	.byte	47
.Lrtp_841016a0_CPI94_3:
	.byte	48
	.byte	49
	.byte	50
	.byte	51
	.byte	52
	.byte	53
	.byte	54
	.byte	55
	.byte	56
	.byte	57
	.byte	58
	.byte	59
	.byte	60
	.byte	61
	.byte	62
	.byte	63
.Lrtp_841016a0_CPI94_4:
	.byte	64
	.byte	65
	.byte	66
	.byte	67
	.byte	68
	.byte	69
	.byte	70
	.byte	71
	.byte	72
	.byte	73
	.byte	74
	.byte	75
	.byte	76
	.byte	77
	.byte	78
	.byte	79
.Lrtp_841016a0_CPI94_5:
	.byte	80
	.byte	81
	.byte	82
	.byte	83
	.byte	84
	.byte	85
	.byte	86
	.byte	87
	.byte	88
	.byte	89
	.byte	90
	.byte	91
	.byte	92
	.byte	93
	.byte	94
	.byte	95
.Lrtp_841016a0_CPI94_6:
	.byte	96
	.byte	97
	.byte	98
	.byte	99
	.byte	100
	.byte	101
	.byte	102
	.byte	103
	.byte	104
	.byte	105
	.byte	106
	.byte	107
	.byte	108
	.byte	109
	.byte	110
	.byte	111
.Lrtp_841016a0_CPI94_7:
	.byte	112
	.byte	113
	.byte	114
	.byte	115
	.byte	116
	.byte	117
	.byte	118
	.byte	119
	.byte	120
	.byte	121
	.byte	122
	.byte	123
	.byte	124
	.byte	125
	.byte	126
	.byte	127
.Lrtp_841016a0_CPI94_8:
	.byte	128
	.byte	129
	.byte	130
	.byte	131
	.byte	132
	.byte	133
	.byte	134
	.byte	135
	.byte	136
	.byte	137
	.byte	138
	.byte	139
	.byte	140
	.byte	141
	.byte	142
	.byte	143
.Lrtp_841016a0_CPI94_9:
	.byte	144
	.byte	145
	.byte	146
	.byte	147
	.byte	148
	.byte	149
	.byte	150
	.byte	151
	.byte	152
	.byte	153
	.byte	154
	.byte	155
	.byte	156
	.byte	157
	.byte	158
	.byte	159
.Lrtp_841016a0_CPI94_10:
	.byte	160
	.byte	161
	.byte	162
	.byte	163
	.byte	164
	.byte	165
	.byte	166
	.byte	167
	.byte	168
	.byte	169
	.byte	170
	.byte	171
	.byte	172
	.byte	173
	.byte	174
	.byte	175
.Lrtp_841016a0_CPI94_11:
	.byte	176
	.byte	177
	.byte	178
	.byte	179
	.byte	180
	.byte	181
	.byte	182
	.byte	183
	.byte	184
	.byte	185
	.byte	186
	.byte	187
	.byte	188
	.byte	189
	.byte	190
	.byte	191
.Lrtp_841016a0_CPI94_12:
	.byte	192
	.byte	193
	.byte	194
	.byte	195
	.byte	196
	.byte	197
	.byte	198
	.byte	199
	.byte	200
	.byte	201
	.byte	202
	.byte	203
	.byte	204
	.byte	205
	.byte	206
	.byte	207
.Lrtp_841016a0_CPI94_13:
	.byte	208
	.byte	209
	.byte	210
	.byte	211
	.byte	212
	.byte	213
	.byte	214
	.byte	215
	.byte	216
	.byte	217
	.byte	218
	.byte	219
	.byte	220
	.byte	221
	.byte	222
	.byte	223
.Lrtp_841016a0_CPI94_14:
	.byte	224
	.byte	225
	.byte	226
	.byte	227
	.byte	228
	.byte	229
	.byte	230
	.byte	231
	.byte	232
	.byte	233
	.byte	234
	.byte	235
	.byte	236
	.byte	237
	.byte	238
	.byte	239
.Lrtp_841016a0_CPI94_15:
	.byte	240
	.byte	241
	.byte	242
	.byte	243
	.byte	244
	.byte	245
	.byte	246
	.byte	247
	.byte	248
	.byte	249
	.byte	250
	.byte	251
	.byte	252
	.byte	253
	.byte	254
	.byte	255
.Lrtp_841016a0_CPI94_16:
	.byte	1
	.byte	2
	.byte	4
	.byte	8
	.byte	16
	.byte	32
	.byte	64
	.byte	128
	.byte	1
	.byte	2
	.byte	4
	.byte	8
	.byte	16
	.byte	32
	.byte	64
	.byte	128
	.section	.text.rtpw_new_ids_to_retransmission,"ax",@progbits
	.globl	rtp_841016a0_rtpw_new_ids_to_retransmission
	.p2align	2
	.type	rtp_841016a0_rtpw_new_ids_to_retransmission,@function
rtp_841016a0_rtpw_new_ids_to_retransmission:
	.cfi_startproc
	sub	sp,sp,#288
	stp	x29,x30,[sp,#256]
	stp	x20,x19,[sp,#272]
	.cfi_def_cfa_offset 288
	.cfi_offset w19,-8
	.cfi_offset w20,-16
	.cfi_offset w30,-24
	.cfi_offset w29,-32
	ldp	q0,q4,[x0,#32]
	adrp	x8,.Lrtp_841016a0_CPI94_0
	ldr	q3,[x0,#64]
	ldp	q7,q1,[x0,#80]
	ldp	q6,q16,[x0,#192]
	adrp	x9,.Lrtp_841016a0_CPI94_4
	orr	v0.16b,v3.16b,v0.16b
	ldp	q3,q5,[x0,#144]
	ldr	q2,[x0,#128]
	orr	v4.16b,v7.16b,v4.16b
	adrp	x10,.Lrtp_841016a0_CPI94_11
	ldr	q17,[x0,#224]
	mov	x19,x1
	mov	x20,x0
	orr	v1.16b,v2.16b,v1.16b
	orr	v5.16b,v6.16b,v5.16b
	ldr	q2,[x0,#112]
	ldr	q6,[x0,#176]
	orr	v0.16b,v1.16b,v0.16b
	orr	v1.16b,v3.16b,v2.16b
	orr	v2.16b,v16.16b,v6.16b
	orr	v3.16b,v17.16b,v5.16b
	ldr	q5,[x0,#240]
	orr	v1.16b,v1.16b,v4.16b
	orr	v2.16b,v5.16b,v2.16b
	ldr	q4,[x8,:lo12:.Lrtp_841016a0_CPI94_0]
	orr	v0.16b,v3.16b,v0.16b
	ldr	q3,[x0,#16]
	adrp	x8,.Lrtp_841016a0_CPI94_1
	orr	v1.16b,v2.16b,v1.16b
	ldr	q2,[x8,:lo12:.Lrtp_841016a0_CPI94_1]
	adrp	x8,.Lrtp_841016a0_CPI94_2
	orr	v0.16b,v0.16b,v3.16b
	ldr	q3,[x9,:lo12:.Lrtp_841016a0_CPI94_4]
	adrp	x9,.Lrtp_841016a0_CPI94_6
	stp	q4,q2,[sp]
	orr	v0.16b,v0.16b,v1.16b
	ldr	q1,[x8,:lo12:.Lrtp_841016a0_CPI94_2]
	adrp	x8,.Lrtp_841016a0_CPI94_3
	ldr	q2,[x8,:lo12:.Lrtp_841016a0_CPI94_3]
	adrp	x8,.Lrtp_841016a0_CPI94_5
	ext	v4.16b,v0.16b,v0.16b,#8
	stp	q1,q2,[sp,#32]
	ldr	q1,[x8,:lo12:.Lrtp_841016a0_CPI94_5]
	adrp	x8,.Lrtp_841016a0_CPI94_7
	ldr	q2,[x9,:lo12:.Lrtp_841016a0_CPI94_6]
	adrp	x9,.Lrtp_841016a0_CPI94_8
	stp	q3,q1,[sp,#64]
	ldr	q1,[x8,:lo12:.Lrtp_841016a0_CPI94_7]
	adrp	x8,.Lrtp_841016a0_CPI94_9
	ldr	q3,[x9,:lo12:.Lrtp_841016a0_CPI94_8]
	adrp	x9,.Lrtp_841016a0_CPI94_10
	orr	v0.8b,v0.8b,v4.8b
	stp	q2,q1,[sp,#96]
	ldr	q1,[x8,:lo12:.Lrtp_841016a0_CPI94_9]
	stp	q3,q1,[sp,#128]
	ldr	q1,[x10,:lo12:.Lrtp_841016a0_CPI94_11]
	fmov	x8,d0
	ldr	q0,[x9,:lo12:.Lrtp_841016a0_CPI94_10]
	adrp	x9,.Lrtp_841016a0_CPI94_12
	ldr	q2,[x9,:lo12:.Lrtp_841016a0_CPI94_12]
	adrp	x9,.Lrtp_841016a0_CPI94_13
	stp	q0,q1,[sp,#160]
	ldr	q0,[x9,:lo12:.Lrtp_841016a0_CPI94_13]
	adrp	x9,.Lrtp_841016a0_CPI94_14
	orr	x8,x8,x8,lsr #32
	ldr	q3,[x9,:lo12:.Lrtp_841016a0_CPI94_14]
	adrp	x9,.Lrtp_841016a0_CPI94_15
	stp	q2,q0,[sp,#192]
	ldr	q0,[x9,:lo12:.Lrtp_841016a0_CPI94_15]
	lsr	x10,x8,#16
	stp	q3,q0,[sp,#224]
	orr	w8,w8,w10
	orr	w8,w8,w8,lsr #8
	tst	w8,#0xff
	b.eq	1f
	mov	w1,#15
	b	2f
1:
	ldr	q0,[x20]
	adrp	x8,.Lrtp_841016a0_CPI94_16
	ldr	q1,[x8,:lo12:.Lrtp_841016a0_CPI94_16]
	cmeq	v0.16b,v0.16b,#0
	bic	v0.16b,v1.16b,v0.16b
	ext	v1.16b,v0.16b,v0.16b,#8
	zip1	v0.16b,v0.16b,v1.16b
	addv	h0,v0.8h
	fmov	w8,s0
	orr	w8,w8,#0x1
	and	x8,x8,#0xffff
	clz	x8,x8
	eor	x1,x8,#0x3f
2:
	mov	x0,x20
	mov	w2,#9
	mov	w3,#10
	bl	"rtp_841016a0_rtp_ext::renamed_ids::lowest_beside::<#d4d397b1ff315637>"
	and	w8,w0,#0xff
	cmp	w8,#1
	b.ne	1f
	movi	v2.16b,#11
	ldur	q6,[x20,#1]
	ldur	q7,[x20,#17]
	movi	v1.16b,#10
	ldur	q18,[x20,#33]
	ldur	q16,[sp,#1]
	ldur	q17,[sp,#17]
	dup	v0.16b,w1
	ldur	q20,[sp,#33]
	ldur	q23,[x20,#129]
	ldur	q4,[x20,#49]
	mov	x8,sp
	cmeq	v19.16b,v6.16b,v2.16b
	cmeq	v21.16b,v7.16b,v2.16b
	cmeq	v22.16b,v18.16b,v2.16b
	cmeq	v6.16b,v6.16b,v1.16b
	cmeq	v7.16b,v7.16b,v1.16b
	cmeq	v18.16b,v18.16b,v1.16b
	cmeq	v25.16b,v23.16b,v2.16b
	cmeq	v24.16b,v4.16b,v2.16b
	ldur	q5,[sp,#49]
	bic	v16.16b,v16.16b,v19.16b
	bic	v17.16b,v17.16b,v21.16b
	ldur	q19,[x20,#145]
	bic	v20.16b,v20.16b,v22.16b
	ldur	q21,[x20,#161]
	cmeq	v4.16b,v4.16b,v1.16b
	cmeq	v26.16b,v19.16b,v2.16b
	bic	v5.16b,v5.16b,v24.16b
	ldur	q22,[x20,#177]
	bsl	v6.16b,v0.16b,v16.16b
	ldur	q16,[x8,#129]
	bsl	v7.16b,v0.16b,v17.16b
	ldur	q17,[x8,#145]
	bsl	v18.16b,v0.16b,v20.16b
	cmeq	v20.16b,v23.16b,v1.16b
	bic	v16.16b,v16.16b,v25.16b
	cmeq	v19.16b,v19.16b,v1.16b
	ldur	q3,[x20,#65]
	bic	v17.16b,v17.16b,v26.16b
	bit	v5.16b,v0.16b,v4.16b
	ldur	q4,[x20,#81]
	stur	q6,[sp,#1]
	cmeq	v6.16b,v21.16b,v2.16b
	cmeq	v21.16b,v21.16b,v1.16b
	stur	q7,[sp,#17]
	ldur	q7,[x8,#161]
	bit	v16.16b,v0.16b,v20.16b
	stur	q18,[sp,#33]
	cmeq	v18.16b,v22.16b,v2.16b
	cmeq	v22.16b,v22.16b,v1.16b
	ldur	q20,[x8,#177]
	bic	v6.16b,v7.16b,v6.16b
	cmeq	v23.16b,v3.16b,v2.16b
	bit	v17.16b,v0.16b,v19.16b
	ldur	q7,[sp,#65]
	cmeq	v19.16b,v4.16b,v2.16b
	bic	v18.16b,v20.16b,v18.16b
	stur	q16,[x8,#129]
	mov	v16.16b,v22.16b
	stur	q5,[sp,#49]
	bsl	v21.16b,v0.16b,v6.16b
	bic	v5.16b,v7.16b,v23.16b
	ldur	q7,[x20,#193]
	ldur	q20,[sp,#81]
	ldur	d23,[x20,#225]
	stur	q17,[x8,#145]
	ldur	q17,[x20,#209]
	bsl	v16.16b,v0.16b,v18.16b
	cmeq	v18.16b,v7.16b,v2.16b
	bic	v6.16b,v20.16b,v19.16b
	movi	v19.8b,#11
	ldur	q20,[x8,#193]
	cmeq	v22.16b,v17.16b,v2.16b
	stur	q21,[x8,#161]
	ldur	q21,[x8,#209]
	cmeq	v7.16b,v7.16b,v1.16b
	cmeq	v17.16b,v17.16b,v1.16b
	bic	v18.16b,v20.16b,v18.16b
	movi	v20.8b,#10
	ldur	d24,[x20,#233]
	bic	v21.16b,v21.16b,v22.16b
	cmeq	v25.8b,v23.8b,v19.8b
	ldur	d26,[x20,#241]
	ldur	d22,[x8,#225]
	cmeq	v27.8b,v24.8b,v19.8b
	stur	q16,[x8,#177]
	bsl	v7.16b,v0.16b,v18.16b
	cmeq	v19.8b,v26.8b,v19.8b
	ldur	d18,[x8,#233]
	cmeq	v23.8b,v23.8b,v20.8b
	bsl	v17.16b,v0.16b,v21.16b
	cmeq	v21.8b,v24.8b,v20.8b
	cmeq	v20.8b,v26.8b,v20.8b
	bic	v22.8b,v22.8b,v25.8b
	ldur	d25,[x8,#241]
	bic	v18.8b,v18.8b,v27.8b
	ldrb	w9,[x20,#249]
	cmeq	v3.16b,v3.16b,v1.16b
	bic	v19.8b,v25.8b,v19.8b
	mov	v16.8b,v23.8b
	stur	q7,[x8,#193]
	mov	v7.8b,v20.8b
	stur	q17,[x8,#209]
	cmeq	v4.16b,v4.16b,v1.16b
	bit	v18.8b,v0.8b,v21.8b
	cmp	w9,#11
	ldrb	w10,[x20,#250]
	bsl	v16.8b,v0.8b,v22.8b
	bit	v5.16b,v0.16b,v3.16b
	ldur	q24,[x20,#97]
	bsl	v7.8b,v0.8b,v19.8b
	mov	v3.16b,v4.16b
	ldrb	w11,[x20,#253]
	cmeq	v21.16b,v24.16b,v2.16b
	ldur	q19,[sp,#97]
	stur	d18,[x8,#233]
	stur	d16,[x8,#225]
	bsl	v3.16b,v0.16b,v6.16b
	ldur	q6,[x20,#113]
	stur	d7,[x8,#241]
	ldrb	w8,[sp,#249]
	ldur	q7,[sp,#113]
	cmeq	v2.16b,v6.16b,v2.16b
	bic	v4.16b,v19.16b,v21.16b
	cmeq	v16.16b,v24.16b,v1.16b
	csel	w8,wzr,w8,eq
	cmp	w9,#10
	ldrb	w9,[sp,#250]
	csel	w8,w1,w8,eq
	cmp	w10,#11
	cmeq	v1.16b,v6.16b,v1.16b
	csel	w9,wzr,w9,eq
	cmp	w10,#10
	ldrb	w10,[x20,#251]
	strb	w8,[sp,#249]
	csel	w8,w1,w9,eq
	ldrb	w9,[sp,#251]
	strb	w8,[sp,#250]
	cmp	w10,#11
	ldrb	w8,[x20,#252]
	csel	w9,wzr,w9,eq
	cmp	w10,#10
	ldrb	w10,[sp,#252]
	csel	w9,w1,w9,eq
	cmp	w8,#11
	bic	v2.16b,v7.16b,v2.16b
	csel	w10,wzr,w10,eq
	cmp	w8,#10
	ldrb	w8,[sp,#253]
	strb	w9,[sp,#251]
	csel	w9,w1,w10,eq
	cmp	w11,#11
	csel	w8,wzr,w8,eq
	cmp	w11,#10
	strb	w9,[sp,#252]
	csel	w8,w1,w8,eq
	ldrb	w9,[x20,#254]
	ldrb	w10,[x20,#255]
	strb	w8,[sp,#253]
	ldrb	w8,[sp,#254]
	bit	v4.16b,v0.16b,v16.16b
	cmp	w9,#11
	bif	v0.16b,v2.16b,v1.16b
	stur	q5,[sp,#65]
	csel	w8,wzr,w8,eq
	cmp	w9,#10
	ldrb	w9,[sp,#255]
	csel	w8,w1,w8,eq
	cmp	w10,#11
	stur	q3,[sp,#81]
	csel	w9,wzr,w9,eq
	cmp	w10,#10
	strb	w8,[sp,#254]
	csel	w8,w1,w9,eq
	stur	q4,[sp,#97]
	stur	q0,[sp,#113]
	strb	w8,[sp,#255]
1:
	ldp	q0,q1,[sp,#192]
	ldp	x29,x30,[sp,#256]
	stp	q0,q1,[x19,#192]
	ldp	q0,q2,[sp,#224]
	stp	q0,q2,[x19,#224]
	ldp	q1,q0,[sp,#128]
	stp	q1,q0,[x19,#128]
	ldp	q2,q0,[sp,#160]
	stp	q2,q0,[x19,#160]
	ldp	q1,q0,[sp,#64]
	stp	q1,q0,[x19,#64]
	ldp	q2,q0,[sp,#96]
	stp	q2,q0,[x19,#96]
	ldp	q1,q0,[sp]
	stp	q1,q0,[x19]
	ldp	q2,q0,[sp,#32]
	stp	q2,q0,[x19,#32]
	ldp	x20,x19,[sp,#272]
	add	sp,sp,#288
	ret
	.size	rtp_841016a0_rtpw_new_ids_to_retransmission,.-rtp_841016a0_rtpw_new_ids_to_retransmission
	.cfi_endproc

	.section	.text.rtpw_next_element,"ax",@progbits
	.globl	rtp_841016a0_rtpw_next_element
	.p2align	2
	.type	rtp_841016a0_rtpw_next_element,@function
rtp_841016a0_rtpw_next_element:
	.cfi_startproc
	stp	x30,x21,[sp,#-32]!
	stp	x20,x19,[sp,#16]
	.cfi_def_cfa_offset 32
	.cfi_offset w19,-8
	.cfi_offset w20,-16
	.cfi_offset w21,-24
	.cfi_offset w30,-32
	mov	w9,#4096
	cmp	x0,#0
	and	w8,w2,#0xff
	csel	x9,x9,xzr,eq
	cmp	w8,#1
	b.eq	1f
	cmp	w8,#2
	b.ne	2f
	mov	w19,wzr
	subs	x8,x1,x3
	b.hs	3f
2:
	mov	w0,#9
	ldp	x20,x19,[sp,#16]
	ldp	x30,x21,[sp],#32
	ret
1:
	mov	w19,#1
	subs	x8,x1,x3
	b.lo	2b
3:
	b.eq	1f
	add	x9,x0,x9
	add	x0,x9,x3
	ldrb	w9,[x0]
	cbz	w9,2f
	cbz	w19,3f
4:
	ldrb	w9,[x0]
	cmp	w9,#239
	b.hi	1f
	and	x10,x9,#0xf
	add	x10,x10,#2
	cmp	x8,x10
	b.lo	1f
	lsr	w11,w9,#4
	sub	x9,x10,#1
	b	5f
2:
	cmp	x8,#1
	b.eq	1f
	cmp	x8,#2
	b.ne	2f
	ldrb	w9,[x0,#1]
	cbz	w9,1f
	b	6f
2:
	cmp	x8,#3
	b.hi	6f
	ldrb	w9,[x0,#1]
	cbnz	w9,6f
	ldrb	w9,[x0,#2]
	cbz	w9,1f
6:
	mov	x20,x1
	sub	x1,x8,#1
	add	x0,x0,#1
	mov	x21,x4
	bl	"rtp_841016a0_rtp_ext::elements::skip_zeros"
	cbz	x1,1f
	mov	x8,x1
	mov	x4,x21
	mov	x1,x20
	cbnz	w19,4b
3:
	cmp	x8,#2
	b.lo	1f
	ldrb	w9,[x0,#1]
	add	x10,x9,#2
	cmp	x8,x10
	b.hs	2f
1:
	mov	w0,#11
	ldp	x20,x19,[sp,#16]
	ldp	x30,x21,[sp],#32
	ret
2:
	ldrb	w11,[x0]
5:
	sub	x8,x10,x8
	mov	w0,wzr
	strb	w11,[x4,#24]
	add	x8,x8,x1
	stur	wzr,[x4,#25]
	sub	x10,x8,x9
	stp	x9,x8,[x4,#8]
	str	x10,[x4]
	str	wzr,[x4,#28]
	ldp	x20,x19,[sp,#16]
	ldp	x30,x21,[sp],#32
	ret
	.size	rtp_841016a0_rtpw_next_element,.-rtp_841016a0_rtpw_next_element
	.cfi_endproc

	.section	.text.rtpw_next_elements,"ax",@progbits
	.globl	rtp_841016a0_rtpw_next_elements
	.p2align	2
	.type	rtp_841016a0_rtpw_next_elements,@function
rtp_841016a0_rtpw_next_elements:
	.cfi_startproc
	stp	x30,x23,[sp,#-48]!
	stp	x22,x21,[sp,#16]
	stp	x20,x19,[sp,#32]
	.cfi_def_cfa_offset 48
	.cfi_offset w19,-8
	.cfi_offset w20,-16
	.cfi_offset w21,-24
	.cfi_offset w22,-32
	.cfi_offset w23,-40
	.cfi_offset w30,-48
	cmp	x0,#0
	mov	w8,#4096
	and	w9,w2,#0xff
	csel	x10,x8,xzr,eq
	cmp	x4,#0
	csel	x8,x8,xzr,eq
	cmp	w9,#2
	add	x19,x0,x10
	b.eq	1f
	cmp	w9,#1
	mov	x0,xzr
	b.ne	2f
	cmp	x3,x1
	mov	x0,xzr
	b.hi	2f
	cbz	x5,2f
	add	x8,x8,x4
	mov	x0,xzr
	add	x20,x8,#16
3:
	subs	x8,x1,x3
	b.eq	2f
	add	x10,x19,x3
	ldrb	w9,[x10]
	cbnz	w9,4f
	cmp	x8,#2
	b.eq	5f
	cmp	x8,#1
	b.eq	2f
	cmp	x8,#3
	b.hi	6f
	ldrb	w9,[x10,#1]
	cbnz	w9,6f
	ldrb	w9,[x10,#2]
	cbnz	w9,6f
	b	2f
5:
	ldrb	w9,[x10,#1]
	cbz	w9,2f
6:
	mov	x22,x1
	mov	x21,x0
	sub	x1,x8,#1
	add	x0,x10,#1
	mov	x23,x5
	bl	"rtp_841016a0_rtp_ext::elements::skip_zeros"
	cbz	x1,5f
	ldrb	w9,[x0]
	mov	x8,x1
	mov	x0,x21
	mov	x5,x23
	mov	x1,x22
4:
	cmp	w9,#239
	b.hi	2f
	and	w10,w9,#0xf
	add	w10,w10,#2
	subs	x8,x10,x8
	b.hi	2f
	sub	x10,x10,#1
	add	x3,x8,x1
	lsr	w9,w9,#4
	sub	x8,x3,x10
	add	x0,x0,#1
	stp	x10,x3,[x20,#-8]
	stur	x8,[x20,#-16]
	cmp	x5,x0
	strb	w9,[x20,#8]
	add	x20,x20,#32
	b.ne	3b
	b	3f
1:
	cmp	x3,x1
	mov	x0,xzr
	b.hi	2f
	cbz	x5,2f
	add	x8,x8,x4
	mov	x0,xzr
	add	x20,x8,#16
1:
	subs	x9,x1,x3
	b.eq	2f
	add	x8,x19,x3
	ldrb	w10,[x8]
	cbnz	w10,4f
	cmp	x9,#2
	b.eq	6f
	cmp	x9,#1
	b.eq	2f
	cmp	x9,#3
	b.hi	7f
	ldrb	w10,[x8,#1]
	cbnz	w10,7f
	ldrb	w10,[x8,#2]
	cbnz	w10,7f
	b	2f
6:
	ldrb	w10,[x8,#1]
	cbz	w10,2f
7:
	mov	x22,x1
	mov	x21,x0
	sub	x1,x9,#1
	add	x0,x8,#1
	mov	x23,x5
	bl	"rtp_841016a0_rtp_ext::elements::skip_zeros"
	cbz	x1,5f
	mov	x9,x1
	mov	x8,x0
	mov	x0,x21
	mov	x5,x23
	mov	x1,x22
4:
	cmp	x9,#2
	b.lo	2f
	ldrb	w10,[x8,#1]
	add	x11,x10,#2
	subs	x9,x11,x9
	b.hi	2f
	add	x3,x9,x1
	ldrb	w8,[x8]
	add	x0,x0,#1
	sub	x9,x3,x10
	stp	x10,x3,[x20,#-8]
	cmp	x5,x0
	stur	x9,[x20,#-16]
	strb	w8,[x20,#8]
	add	x20,x20,#32
	b.ne	1b
3:
	mov	x0,x5
2:
	ldp	x20,x19,[sp,#32]
	ldp	x22,x21,[sp,#16]
	ldp	x30,x23,[sp],#48
	ret
5:
	mov	x0,x21
	ldp	x20,x19,[sp,#32]
	ldp	x22,x21,[sp,#16]
	ldp	x30,x23,[sp],#48
	ret
	.size	rtp_841016a0_rtpw_next_elements,.-rtp_841016a0_rtpw_next_elements
	.cfi_endproc

	.section	.text.rtpw_pad,"ax",@progbits
	.globl	rtp_841016a0_rtpw_pad
	.p2align	2
	.type	rtp_841016a0_rtpw_pad,@function
rtp_841016a0_rtpw_pad:
	.cfi_startproc
	cmp	x0,#0
	mov	w8,#4096
	csel	x9,x8,xzr,eq
	cbz	x4,1f
	stp	x30,x25,[sp,#-64]!
	stp	x24,x23,[sp,#16]
	stp	x22,x21,[sp,#32]
	stp	x20,x19,[sp,#48]
	.cfi_def_cfa_offset 64
	.cfi_offset w19,-8
	.cfi_offset w20,-16
	.cfi_offset w21,-24
	.cfi_offset w22,-32
	.cfi_offset w23,-40
	.cfi_offset w24,-48
	.cfi_offset w25,-56
	.cfi_offset w30,-64
	and	w8,w3,#0xff
	cbz	w8,2f
	cmp	x4,#240
	b.ls	3f
	mov	w20,#240
	adds	x10,x20,x2
	mov	w8,#8
	b.lo	4f
5:
	ldp	x20,x19,[sp,#48]
	ldp	x22,x21,[sp,#32]
	ldp	x24,x23,[sp,#16]
	ldp	x30,x25,[sp],#64
	mov	w0,w8
	ret
1:
	mov	w0,#9
	ret
2:
	mov	x20,xzr
	b	1f
3:
	udiv	w10,w8,w4
	msub	w10,w10,w4,w8
	sub	x11,x4,x10
	cmp	w10,#0
	csel	x10,xzr,x11,eq
	add	x8,x10,w8,uxtw
	mov	w10,#240
	cmp	x8,#240
	csel	x20,x8,x10,lo
	adds	x10,x20,x2
	mov	w8,#8
	b.hs	5b
4:
	cmp	x10,x1
	b.hi	5b
	add	x21,x0,x9
	subs	x22,x20,#1
	ldrb	w8,[x21]
	orr	w8,w8,#0x20
	strb	w8,[x21]
	b.eq	2f
	subs	x19,x20,#2
	add	x23,x21,x2
	b.eq	3f
	add	x0,x21,x2
	mov	w1,wzr
	mov	x24,x2
	mov	x2,x19
	mov	x25,x5
	bl	memset
	mov	x2,x24
	mov	x5,x25
3:
	strb	wzr,[x23,x19]
2:
	add	x8,x21,x22
	strb	w20,[x8,x2]
1:
	mov	w8,wzr
	str	x20,[x5]
	ldp	x20,x19,[sp,#48]
	ldp	x22,x21,[sp,#32]
	ldp	x24,x23,[sp,#16]
	ldp	x30,x25,[sp],#64
	mov	w0,w8
	ret
	.size	rtp_841016a0_rtpw_pad,.-rtp_841016a0_rtpw_pad
	.cfi_endproc

	.section	.rodata.cst8,"aM",@progbits,8
	.p2align	3,0x0
.Lrtp_841016a0_CPI98_0:
	.hword	65529
	.hword	65530
	.hword	0
	.hword	0
.Lrtp_841016a0_CPI98_1:
	.hword	255
	.hword	1
	.hword	63
	.hword	0
	.section	.text.rtpw_read_dependency_descriptor,"ax",@progbits
	.globl	rtp_841016a0_rtpw_read_dependency_descriptor
	.p2align	2
	.type	rtp_841016a0_rtpw_read_dependency_descriptor,@function
rtp_841016a0_rtpw_read_dependency_descriptor:
	.cfi_startproc
	cmp	x1,#3
	b.hs	1f
	mov	w0,#9
	ret
1:
	mov	x8,x0
	movi	d0,#0xff00ff00ff00ff
	mov	w9,#4096
	cmp	x0,#0
	mov	w0,wzr
	csel	x9,x9,xzr,eq
	add	x8,x8,x9
	adrp	x9,.Lrtp_841016a0_CPI98_0
	ld1	{ v0.b }[0],[x8]
	ldurh	w8,[x8,#1]
	rev	w8,w8
	zip1	v1.4h,v0.4h,v0.4h
	lsr	w8,w8,#16
	strh	w8,[x2]
	mov	v1.h[2],v0.h[0]
	ldr	d0,[x9,:lo12:.Lrtp_841016a0_CPI98_0]
	adrp	x9,.Lrtp_841016a0_CPI98_1
	bic	v1.4h,#255,lsl #8
	ushl	v0.4h,v1.4h,v0.4h
	ldr	d1,[x9,:lo12:.Lrtp_841016a0_CPI98_1]
	and	v0.8b,v0.8b,v1.8b
	uzp1	v0.8b,v0.8b,v0.8b
	stur	s0,[x2,#2]
	ret
	.size	rtp_841016a0_rtpw_read_dependency_descriptor,.-rtp_841016a0_rtpw_read_dependency_descriptor
	.cfi_endproc

	.section	.text.rtpw_read_orientation,"ax",@progbits
	.globl	rtp_841016a0_rtpw_read_orientation
	.p2align	2
	.type	rtp_841016a0_rtpw_read_orientation,@function
rtp_841016a0_rtpw_read_orientation:
	.cfi_startproc
	cmp	x1,#1
	b.ne	1f
	mov	x8,x0
	mov	w9,#4096
	mov	x10,#17694720
	cmp	x0,#0
	movk	x10,#180,lsl #32
	mov	w0,wzr
	csel	x9,x9,xzr,eq
	movk	x10,#90,lsl #48
	ldrb	w8,[x8,x9]
	ubfiz	x9,x8,#4,#2
	ubfx	w11,w8,#3,#1
	ubfx	w8,w8,#2,#1
	lsr	x9,x10,x9
	strb	w11,[x2,#2]
	strb	w8,[x2,#3]
	strh	w9,[x2]
	ret
1:
	mov	w0,#9
	ret
	.size	rtp_841016a0_rtpw_read_orientation,.-rtp_841016a0_rtpw_read_orientation
	.cfi_endproc

	.section	.text.rtpw_read_original,"ax",@progbits
	.globl	rtp_841016a0_rtpw_read_original
	.p2align	2
	.type	rtp_841016a0_rtpw_read_original,@function
rtp_841016a0_rtpw_read_original:
	.cfi_startproc
	cmp	x1,#2
	b.lo	1f
	mov	x8,x0
	mov	w9,#4096
	mov	w0,wzr
	cmp	x8,#0
	csel	x9,x9,xzr,eq
	ldrh	w8,[x8,x9]
	rev	w8,w8
	lsr	w8,w8,#16
	strh	w8,[x2]
	ret
1:
	mov	w0,#8
	ret
	.size	rtp_841016a0_rtpw_read_original,.-rtp_841016a0_rtpw_read_original
	.cfi_endproc

	.section	.text.rtpw_read_transport_number,"ax",@progbits
	.globl	rtp_841016a0_rtpw_read_transport_number
	.p2align	2
	.type	rtp_841016a0_rtpw_read_transport_number,@function
rtp_841016a0_rtpw_read_transport_number:
	.cfi_startproc
	mov	w8,#4096
	cmp	x0,#0
	csel	x8,x8,xzr,eq
	cmp	x1,#2
	b.lo	1f
	cmp	x1,#4
	add	x11,x0,x8
	b.eq	2f
	cmp	x1,#2
	b.ne	1f
	ldrh	w11,[x11]
	rev16	w11,w11
	mov	w0,wzr
	strh	w11,[x2]
	strh	wzr,[x2,#2]
	strb	wzr,[x2,#4]
	strb	wzr,[x2,#5]
	ret
1:
	mov	w0,#9
	ret
2:
	ldrb	w8,[x11,#3]
	ldrb	w9,[x11,#2]
	ldrh	w10,[x11]
	bfi	w8,w9,#8,#7
	lsr	w9,w9,#7
	rev16	w11,w10
	mov	w10,#1
	mov	w0,wzr
	strh	w11,[x2]
	strh	w8,[x2,#2]
	strb	w10,[x2,#4]
	strb	w9,[x2,#5]
	ret
	.size	rtp_841016a0_rtpw_read_transport_number,.-rtp_841016a0_rtpw_read_transport_number
	.cfi_endproc

	.section	.text.rtpw_receiver_accepts,"ax",@progbits
	.globl	rtp_841016a0_rtpw_receiver_accepts
	.p2align	2
	.type	rtp_841016a0_rtpw_receiver_accepts,@function
rtp_841016a0_rtpw_receiver_accepts:
	.cfi_startproc
	ldrb	w8,[x0,#24]
	cbz	w8,1f
	ldr	x8,[x0]
	subs	x8,x8,x1
	b.hs	2f
1:
	mov	w0,#1
	ret
2:
	cmp	x8,#127
	b.hi	1f
	ldp	x10,x9,[x0,#8]
	mvn	w12,w8
	tst	x8,#0x40
	lsl	x11,x9,#1
	orr	x10,x10,#0x1
	lsr	x9,x9,x8
	lsr	x10,x10,x8
	lsl	x11,x11,x12
	orr	x10,x11,x10
	csel	x8,x9,x10,ne
	tst	x8,#0x1
	cset	w0,eq
	ret
1:
	mov	w0,wzr
	ret
	.size	rtp_841016a0_rtpw_receiver_accepts,.-rtp_841016a0_rtpw_receiver_accepts
	.cfi_endproc

	.section	.text.rtpw_receiver_number_of,"ax",@progbits
	.globl	rtp_841016a0_rtpw_receiver_number_of
	.p2align	2
	.type	rtp_841016a0_rtpw_receiver_number_of,@function
rtp_841016a0_rtpw_receiver_number_of:
	.cfi_startproc
	ldrb	w8,[x0,#24]
	ldr	x0,[x0]
	cbz	w8,1f
	sub	w8,w1,w0
	sxth	w9,w8
	add	x10,x0,w8,uxth
	cmn	w9,#8,lsl #12
	and	x9,x0,#0x8000
	ccmp	x9,#0,#0,eq
	mov	x9,#-65536
	csel	x9,xzr,x9,eq
	tst	w8,#0x8000
	add	x9,x9,x10
	csel	x0,x10,x9,eq
	ret
1:
	bfxil	x0,x1,#0,#16
	ret
	.size	rtp_841016a0_rtpw_receiver_number_of,.-rtp_841016a0_rtpw_receiver_number_of
	.cfi_endproc

	.section	.text.rtpw_receiver_standing_of,"ax",@progbits
	.globl	rtp_841016a0_rtpw_receiver_standing_of
	.p2align	2
	.type	rtp_841016a0_rtpw_receiver_standing_of,@function
rtp_841016a0_rtpw_receiver_standing_of:
	.cfi_startproc
	ldrb	w8,[x0,#24]
	cbz	w8,1f
	ldr	x8,[x0]
	subs	x9,x8,x1
	b.hs	2f
1:
	mov	w0,wzr
	ret
2:
	cmp	x9,#127
	b.hi	2f
	ldp	x11,x10,[x0,#8]
	mvn	w13,w9
	tst	x9,#0x40
	lsl	x12,x10,#1
	orr	x11,x11,#0x1
	lsr	x10,x10,x9
	lsr	x11,x11,x9
	lsl	x12,x12,x13
	orr	x11,x12,x11
	csel	x9,x10,x11,ne
	tbz	w9,#0,1b
2:
	subs	x8,x8,x1
	csel	x8,xzr,x8,lo
	cmp	x8,#128
	mov	w8,#1
	cinc	w0,w8,hs
	ret
	.size	rtp_841016a0_rtpw_receiver_standing_of,.-rtp_841016a0_rtpw_receiver_standing_of
	.cfi_endproc

	.section	.text.rtpw_reception_record,"ax",@progbits
	.globl	rtp_841016a0_rtpw_reception_record
	.p2align	2
	.type	rtp_841016a0_rtpw_reception_record,@function
rtp_841016a0_rtpw_reception_record:
	.cfi_startproc
	ldr	x9,[x0,#16]
	sub	w8,w3,w2
	cbz	x9,1f
	ldr	x10,[x0,#8]
	ldr	w11,[x0,#48]
	ldr	x12,[x0,#40]
	cmp	x1,x10
	csel	x10,x1,x10,hi
	subs	w11,w8,w11
	cneg	w11,w11,mi
	adds	x13,x12,#8
	str	x10,[x0,#8]
	csinv	x13,x13,xzr,lo
	sub	x12,x12,x13,lsr #4
	add	x10,x12,x11
	str	x10,[x0,#40]
	adds	x9,x9,#1
	str	w8,[x0,#48]
	csinv	x8,x9,xzr,lo
	str	x8,[x0,#16]
	ret
1:
	stp	x1,x1,[x0]
	adds	x9,x9,#1
	str	w8,[x0,#48]
	csinv	x8,x9,xzr,lo
	str	x8,[x0,#16]
	ret
	.size	rtp_841016a0_rtpw_reception_record,.-rtp_841016a0_rtpw_reception_record
	.cfi_endproc

	.section	.text.rtpw_reception_report,"ax",@progbits
	.globl	rtp_841016a0_rtpw_reception_report
	.p2align	2
	.type	rtp_841016a0_rtpw_reception_report,@function
rtp_841016a0_rtpw_reception_report:
	.cfi_startproc
	ldp	x10,x8,[x0,#16]
	subs	x13,x10,x8
	b.ne	1f
	mov	w0,#11
	ret
1:
	ldp	x11,x9,[x0]
	ldr	x14,[x0,#32]
	sub	x8,x9,x11
	adds	x8,x8,#1
	csinv	x12,x8,xzr,lo
	sub	x8,x12,x14
	subs	x15,x8,x13
	b.ls	1f
	lsr	x14,x15,#56
	lsl	x15,x15,#8
	mov	w13,wzr
	mov	w16,#256
	b	2f
3:
	mov	w13,w17
	sub	w17,w16,w17
	and	w17,w17,#0xffff
	cmp	w17,#1
	b.ls	4f
2:
	add	w17,w16,w13
	ubfx	w17,w17,#1,#15
	mul	x2,x17,x8
	umulh	x3,x17,x8
	cmp	x15,x2
	sbcs	xzr,x14,x3
	b.hs	3b
	mov	w16,w17
	sub	w17,w17,w13
	and	w17,w17,#0xffff
	cmp	w17,#1
	b.hi	2b
4:
	subs	x8,x10,x12
	b.ls	2f
3:
	cmp	x8,#2048,lsl #12
	mov	w14,#8388608
	csel	x8,x8,x14,lo
	neg	w14,w8
	b	4f
1:
	mov	w13,wzr
	subs	x8,x10,x12
	b.hi	3b
2:
	sub	x8,x12,x10
	mov	w14,#8388607
	cmp	x8,x14
	csel	x14,x8,x14,lo
4:
	stp	x10,x12,[x0,#24]
	ldr	x10,[x0,#40]
	mov	w12,#-1
	and	w11,w11,#0xffff0000
	mov	w0,wzr
	strb	w13,[x1]
	lsr	x10,x10,#4
	sub	w9,w9,w11
	sturh	wzr,[x1,#1]
	strb	wzr,[x1,#3]
	cmp	x10,x12
	stp	w14,w9,[x1,#4]
	csel	x10,x10,x12,lo
	str	w10,[x1,#12]
	ret
	.size	rtp_841016a0_rtpw_reception_report,.-rtp_841016a0_rtpw_reception_report
	.cfi_endproc

	.section	.text.rtpw_values_read,"ax",@progbits
	.globl	rtp_841016a0_rtpw_values_read
	.p2align	2
	.type	rtp_841016a0_rtpw_values_read,@function
rtp_841016a0_rtpw_values_read:
	.cfi_startproc
	mov	w9,#4096
	cmp	x0,#0
	and	w8,w2,#0xff
	csel	x9,x9,xzr,eq
	cmp	w8,#1
	mov	x2,x1
	b.eq	1f
	cmp	w8,#2
	b.ne	2f
	mov	w8,#1
	b	3f
1:
	mov	w8,wzr
3:
	str	x30,[sp,#-16]!
	.cfi_def_cfa_offset 16
	.cfi_offset w30,-16
	movi	v0.2d,#0000000000000000
	add	x1,x0,x9
	mov	x0,x3
	mov	w3,w8
	str	xzr,[x4,#128]
	stp	q0,q0,[x4]
	stp	q0,q0,[x4,#32]
	stp	q0,q0,[x4,#64]
	stp	q0,q0,[x4,#96]
	bl	"rtp_841016a0_rtp_ext::block_values::read_values::<#9a3a19c0cce455e9>"
	mov	w0,wzr
	ldr	x30,[sp],#16
	ret
2:
	mov	w0,#9
	ret
	.size	rtp_841016a0_rtpw_values_read,.-rtp_841016a0_rtpw_values_read
	.cfi_endproc

	.section	.text.rtpw_version,"ax",@progbits
	.globl	rtp_841016a0_rtpw_version
	.p2align	2
	.type	rtp_841016a0_rtpw_version,@function
rtp_841016a0_rtpw_version:
	.cfi_startproc
	mov	w0,#256
	movk	w0,#1,lsl #16
	ret
	.size	rtp_841016a0_rtpw_version,.-rtp_841016a0_rtpw_version
	.cfi_endproc

	.section	.text.rtpw_wide_receiver_accepts,"ax",@progbits
	.globl	rtp_841016a0_rtpw_wide_receiver_accepts
	.p2align	2
	.type	rtp_841016a0_rtpw_wide_receiver_accepts,@function
rtp_841016a0_rtpw_wide_receiver_accepts:
	.cfi_startproc
	cmp	x1,#0
	mov	w8,#4096
	sub	x9,x2,#1
	csel	x8,x8,xzr,eq
	cmp	x9,#511
	b.hi	1f
	ldrb	w9,[x0,#8]
	cbz	w9,2f
	ldr	x9,[x0]
	subs	x9,x9,x3
	b.ne	3f
1:
	mov	w0,wzr
	ret
3:
	b.hs	3f
2:
	mov	w0,#1
	ret
3:
	cmp	x2,x9,lsr #6
	b.ls	1b
	cmp	x2,#16
	add	x8,x1,x8
	b.ne	1f
	ubfx	x9,x3,#6,#4
	ldr	x8,[x8,x9,lsl #3]
	lsr	x8,x8,x3
	tst	x8,#0x1
	cset	w0,eq
	ret
1:
	lsr	x9,x3,#6
	udiv	x10,x9,x2
	msub	x9,x10,x2,x9
	ldr	x8,[x8,x9,lsl #3]
	lsr	x8,x8,x3
	tst	x8,#0x1
	cset	w0,eq
	ret
	.size	rtp_841016a0_rtpw_wide_receiver_accepts,.-rtp_841016a0_rtpw_wide_receiver_accepts
	.cfi_endproc

	.section	.text.rtpw_wide_receiver_number_of,"ax",@progbits
	.globl	rtp_841016a0_rtpw_wide_receiver_number_of
	.p2align	2
	.type	rtp_841016a0_rtpw_wide_receiver_number_of,@function
rtp_841016a0_rtpw_wide_receiver_number_of:
	.cfi_startproc
	ldrb	w8,[x0,#8]
	ldr	x0,[x0]
	cbz	w8,1f
	sub	w8,w1,w0
	sxth	w9,w8
	add	x10,x0,w8,uxth
	cmn	w9,#8,lsl #12
	and	x9,x0,#0x8000
	ccmp	x9,#0,#0,eq
	mov	x9,#-65536
	csel	x9,xzr,x9,eq
	tst	w8,#0x8000
	add	x9,x9,x10
	csel	x0,x10,x9,eq
	ret
1:
	bfxil	x0,x1,#0,#16
	ret
	.size	rtp_841016a0_rtpw_wide_receiver_number_of,.-rtp_841016a0_rtpw_wide_receiver_number_of
	.cfi_endproc

	.section	.text.rtpw_wide_receiver_start,"ax",@progbits
	.globl	rtp_841016a0_rtpw_wide_receiver_start
	.p2align	2
	.type	rtp_841016a0_rtpw_wide_receiver_start,@function
rtp_841016a0_rtpw_wide_receiver_start:
	.cfi_startproc
	lsr	x9,x1,#48
	cbz	x9,1f
	mov	w0,#9
	ret
1:
	lsl	x9,x1,#16
	mov	x8,x0
	mov	w0,wzr
	stp	x9,xzr,[x8]
	ret
	.size	rtp_841016a0_rtpw_wide_receiver_start,.-rtp_841016a0_rtpw_wide_receiver_start
	.cfi_endproc

	.section	.text.rtpw_write_data_elements,"ax",@progbits
	.globl	rtp_841016a0_rtpw_write_data_elements
	.p2align	2
	.type	rtp_841016a0_rtpw_write_data_elements,@function
rtp_841016a0_rtpw_write_data_elements:
	.cfi_startproc
	str	x29,[sp,#-96]!
	stp	x30,x27,[sp,#16]
	stp	x26,x25,[sp,#32]
	stp	x24,x23,[sp,#48]
	stp	x22,x21,[sp,#64]
	stp	x20,x19,[sp,#80]
	.cfi_def_cfa_offset 96
	.cfi_offset w19,-8
	.cfi_offset w20,-16
	.cfi_offset w21,-24
	.cfi_offset w22,-32
	.cfi_offset w23,-40
	.cfi_offset w24,-48
	.cfi_offset w25,-56
	.cfi_offset w26,-64
	.cfi_offset w27,-72
	.cfi_offset w30,-80
	.cfi_offset w29,-96
	cmp	x1,#0
	mov	w10,#4096
	and	w8,w3,#0xff
	csel	x9,x10,xzr,eq
	cmp	x4,#0
	mov	x20,x6
	mov	x19,x2
	csel	x10,x10,xzr,eq
	cmp	w8,#1
	b.eq	1f
	cmp	w8,#2
	b.ne	2f
	mov	w22,wzr
	mov	w11,#1
	ldrsb	w8,[x0,#4]
	tbz	w8,#31,3f
	b	4f
1:
	mov	w11,wzr
	mov	w22,#1
	ldrsb	w8,[x0,#4]
	tbnz	w8,#31,4f
3:
	subs	x12,x5,#12
	csel	x12,xzr,x12,lo
	lsr	x14,x12,#2
	cbz	x14,4f
	ldrb	w13,[x0,#1]
	ldrb	w12,[x0,#3]
	cbz	x19,1f
	sub	x14,x14,#1
	mov	w15,#65535
	mov	x16,x19
	cmp	x14,x15
	csel	x14,x14,x15,lo
	add	x15,x9,x1
	lsl	x14,x14,#2
	add	x15,x15,#16
	tbz	w22,#0,3f
5:
	ldurb	w2,[x15,#-16]
	ldr	x17,[x15],#32
	sub	w2,w2,#1
	sub	x3,x17,#1
	cmp	w2,#13
	ccmp	x3,#15,#2,ls
	ccmp	x14,x17,#0,ls
	b.ls	4f
	add	x17,x17,#1
	subs	x14,x14,x17
	csel	x14,xzr,x14,lo
	subs	x16,x16,#1
	b.ne	5b
	mov	w22,#1
	b	1f
3:
	ldurb	w17,[x15,#-16]
	cbz	w17,4f
	ldr	x17,[x15],#32
	cmp	x17,#255
	b.hi	4f
	cmp	x14,x17
	b.ls	4f
	add	x17,x17,#1
	subs	x14,x14,x17
	csel	x14,xzr,x14,lo
	subs	x16,x16,#1
	b.ne	3b
	cmp	x19,x14
	b.hi	3f
	mov	w22,wzr
1:
	ldr	d0,[x0,#8]
	ldrh	w14,[x0,#6]
	cmp	w13,#0
	mov	w13,#-80
	mov	w15,#-112
	add	x11,x4,x10
	csel	w13,w15,w13,eq
	cmp	w12,#0
	mov	w12,#-128
	rev32	v0.8b,v0.8b
	csel	w12,wzr,w12,eq
	rev	w14,w14
	orr	w8,w12,w8
	lsr	w12,w14,#16
	add	x23,x11,#12
	strb	w13,[x11]
	strb	w8,[x11,#1]
	strh	w12,[x11,#2]
	stur	d0,[x11,#4]
	cbz	x19,1f
	add	x24,x1,x9
	add	x25,x11,#16
	add	x9,x10,x4
	mov	x8,xzr
	mov	x26,xzr
	tbz	w22,#0,5f
	add	x27,x9,#17
	add	x9,x9,#33
	str	x9,[sp,#8]
	b	6f
7:
	ldrb	w8,[x1]
	strb	w8,[x25,x29]
8:
	add	x26,x26,#1
	add	x8,x21,x29
	cmp	x26,x19
	b.eq	9f
6:
	add	x9,x24,x26,lsl #5
	add	x29,x8,#1
	ldrb	w10,[x9]
	ldp	x1,x21,[x9,#8]
	lsr	w11,w10,#4
	orr	w10,w11,w10,lsl #4
	add	w9,w10,w21
	sub	w9,w9,#1
	strb	w9,[x25,x8]
	cbz	x21,6f
	cmp	x21,#1
	b.eq	7b
	cmp	x21,#3
	b.hs	7f
	ldrb	w8,[x1]
	add	x9,x25,x29
	strb	w8,[x9]
	ldrb	w8,[x1,#1]
	strb	w8,[x9,#1]
	b	8b
7:
	b.ne	6f
	ldrb	w8,[x1]
	add	x9,x25,x29
	strb	w8,[x9]
	ldrb	w8,[x1,#1]
	strb	w8,[x9,#1]
	ldrb	w8,[x1,#2]
	strb	w8,[x9,#2]
	b	8b
6:
	add	x9,x25,x29
	sub	x9,x9,x1
	cmp	x9,x21
	b.hs	6f
	cmp	x21,#8
	b.lo	7f
	add	x9,x27,x8
	sub	x9,x9,x1
	cmp	x9,#32
	b.hs	10f
7:
	mov	x9,xzr
7:
	add	x10,x9,x8
	sub	x8,x21,x9
	add	x9,x1,x9
	add	x10,x27,x10
11:
	ldrb	w11,[x9],#1
	subs	x8,x8,#1
	strb	w11,[x10],#1
	b.ne	11b
	b	8b
6:
	add	x0,x25,x29
	mov	x2,x21
	bl	memmove
	b	8b
10:
	cmp	x21,#32
	b.hs	6f
	mov	x9,xzr
	b	10f
6:
	ldr	x12,[sp,#8]
	and	x10,x21,#0x18
	and	x9,x21,#0xffffffffffffffe0
	add	x11,x1,#16
	and	x13,x21,#0xffffffffffffffe0
	add	x12,x12,x8
6:
	ldp	q0,q1,[x11,#-16]
	subs	x13,x13,#32
	add	x11,x11,#32
	stp	q0,q1,[x12,#-16]
	add	x12,x12,#32
	b.ne	6b
	cmp	x21,x9
	b.eq	8b
	cbz	x10,7b
10:
	mov	x11,x9
	and	x9,x21,#0xfffffffffffffff8
	add	x12,x11,x8
	sub	x10,x11,x9
	add	x11,x1,x11
	add	x12,x27,x12
6:
	ldr	d0,[x11],#8
	adds	x10,x10,#8
	str	d0,[x12],#8
	b.ne	6b
	cmp	x21,x9
	b.eq	8b
	b	7b
4:
	cbz	x19,4f
3:
	add	x9,x9,x1
	mov	x11,x19
	add	x10,x9,#16
	mov	w9,#262140
	tbz	w22,#0,3f
6:
	ldurb	w13,[x10,#-16]
	ldr	x12,[x10],#32
	sub	w13,w13,#1
	sub	x14,x12,#1
	cmp	w13,#13
	ccmp	x14,#15,#2,ls
	ccmp	x9,x12,#0,ls
	b.ls	7f
	add	x12,x12,#1
	subs	x9,x9,x12
	csel	x9,xzr,x9,lo
	subs	x11,x11,#1
	b.ne	6b
	b	6f
3:
	ldurb	w13,[x10,#-16]
	mov	w12,#9
	cbz	w13,8f
	ldr	x13,[x10],#32
	cmp	x13,#255
	b.hi	8f
	cmp	x9,x13
	b.ls	8f
	add	x12,x13,#1
	subs	x9,x9,x12
	csel	x9,xzr,x9,lo
	subs	x11,x11,#1
	b.ne	3b
	mov	w11,#1
	b	6f
2:
	mov	w0,#9
	b	2f
4:
	mov	w9,#262140
6:
	cmp	x19,x9
	cset	w9,hi
	tst	w11,w9
	mov	w9,#8
	cinc	w12,w9,ne
8:
	cmp	w8,#0
	mov	w8,#9
	csel	w0,w8,w12,mi
	b	2f
7:
	mov	w12,#9
	b	8b
1:
	mov	x8,xzr
9:
	add	x9,x8,#3
	and	x10,x9,#0xfffffffffffffffc
	subs	x11,x10,x8
	add	x10,x8,#4
	b.eq	1f
	cmp	x11,#2
	b.eq	3f
	cmp	x11,#1
	b.ne	4f
	strb	wzr,[x23,x10]
	add	x10,x8,#5
	b	1f
5:
	add	x27,x9,#18
	add	x9,x9,#34
	str	x9,[sp,#8]
	b	5f
6:
	ldrb	w8,[x1]
	strb	w8,[x25,x29]
7:
	add	x26,x26,#1
	add	x8,x21,x29
	cmp	x26,x19
	b.eq	9b
5:
	add	x9,x24,x26,lsl #5
	add	x11,x25,x8
	add	x29,x8,#2
	ldp	x1,x21,[x9,#8]
	ldrb	w10,[x9]
	strb	w10,[x11]
	strb	w21,[x11,#1]
	cbz	x21,5f
	cmp	x21,#1
	b.eq	6b
	cmp	x21,#2
	b.hi	6f
	ldrb	w8,[x1]
	add	x9,x25,x29
	strb	w8,[x9]
	ldrb	w8,[x1,#1]
	strb	w8,[x9,#1]
	b	7b
6:
	cmp	x21,#3
	b.ne	5f
	ldrb	w8,[x1]
	add	x9,x25,x29
	strb	w8,[x9]
	ldrb	w8,[x1,#1]
	strb	w8,[x9,#1]
	ldrb	w8,[x1,#2]
	strb	w8,[x9,#2]
	b	7b
5:
	add	x9,x25,x29
	sub	x9,x9,x1
	cmp	x9,x21
	b.hs	5f
	cmp	x21,#8
	b.lo	6f
	add	x9,x27,x8
	sub	x9,x9,x1
	cmp	x9,#32
	b.hs	8f
6:
	mov	x9,xzr
6:
	add	x10,x9,x8
	sub	x8,x21,x9
	add	x9,x1,x9
	add	x10,x27,x10
9:
	ldrb	w11,[x9],#1
	subs	x8,x8,#1
	strb	w11,[x10],#1
	b.ne	9b
	b	7b
5:
	add	x0,x25,x29
	mov	x2,x21
	bl	memmove
	b	7b
8:
	cmp	x21,#32
	b.hs	5f
	mov	x9,xzr
	b	8f
5:
	ldr	x12,[sp,#8]
	and	x10,x21,#0x18
	and	x9,x21,#0xffffffffffffffe0
	add	x11,x1,#16
	and	x13,x21,#0xffffffffffffffe0
	add	x12,x12,x8
5:
	ldp	q0,q1,[x11,#-16]
	subs	x13,x13,#32
	add	x11,x11,#32
	stp	q0,q1,[x12,#-16]
	add	x12,x12,#32
	b.ne	5b
	cmp	x21,x9
	b.eq	7b
	cbz	x10,6b
8:
	mov	x11,x9
	and	x9,x21,#0xfffffffffffffff8
	add	x12,x11,x8
	sub	x10,x11,x9
	add	x11,x1,x11
	add	x12,x27,x12
5:
	ldr	d0,[x11],#8
	adds	x10,x10,#8
	str	d0,[x12],#8
	b.ne	5b
	cmp	x21,x9
	b.eq	7b
	b	6b
3:
	strh	wzr,[x23,x10]
	add	x10,x8,#6
	b	1f
4:
	add	x11,x23,x10
	add	x10,x8,#7
	strb	wzr,[x11,#2]
	strh	wzr,[x11]
1:
	lsr	w8,w9,#10
	cmp	w22,#0
	mov	w11,#16
	mov	w12,#57022
	lsr	w9,w9,#2
	mov	w0,wzr
	csel	w11,w12,w11,ne
	bfi	w11,w8,#16,#8
	add	x8,x10,#12
	bfi	w11,w9,#24,#8
	str	w11,[x23]
	str	x8,[x20]
2:
	ldp	x20,x19,[sp,#80]
	ldp	x22,x21,[sp,#64]
	ldp	x24,x23,[sp,#48]
	ldp	x26,x25,[sp,#32]
	ldp	x30,x27,[sp,#16]
	ldr	x29,[sp],#96
	ret
	.size	rtp_841016a0_rtpw_write_data_elements,.-rtp_841016a0_rtpw_write_data_elements
	.cfi_endproc

	.section	.text.rtpw_write_dependency_descriptor,"ax",@progbits
	.globl	rtp_841016a0_rtpw_write_dependency_descriptor
	.p2align	2
	.type	rtp_841016a0_rtpw_write_dependency_descriptor,@function
rtp_841016a0_rtpw_write_dependency_descriptor:
	.cfi_startproc
	ldrb	w8,[x0,#4]
	cmp	x1,#0
	mov	w9,#4096
	csel	x9,x9,xzr,eq
	cmp	w8,#63
	b.ls	1f
	mov	w0,#9
	ret
1:
	cmp	x2,#3
	b.hs	1f
	mov	w0,#8
	ret
1:
	mov	x10,x0
	add	x9,x1,x9
	mov	w0,wzr
	ldrb	w11,[x10,#3]
	ldrb	w12,[x10,#2]
	ldrh	w10,[x10]
	cmp	w11,#0
	mov	w11,#64
	lsr	w13,w10,#8
	csel	w11,wzr,w11,eq
	cmp	w12,#0
	mov	w12,#128
	csel	w12,wzr,w12,eq
	strb	w10,[x9,#2]
	orr	w10,w11,w12
	strb	w13,[x9,#1]
	orr	w8,w10,w8
	mov	w10,#3
	strb	w8,[x9]
	str	x10,[x3]
	ret
	.size	rtp_841016a0_rtpw_write_dependency_descriptor,.-rtp_841016a0_rtpw_write_dependency_descriptor
	.cfi_endproc

	.section	.text.rtp_proved_write_elements,"ax",@progbits
	.p2align	2
	.type	rtp_841016a0_rtp_proved_write_elements,@function
rtp_841016a0_rtp_proved_write_elements:
	.cfi_startproc
	cmp	x0,#0
	mov	w8,#4096
	and	w11,w4,#0xff
	csel	x12,x8,xzr,eq
	cmp	x2,#0
	csel	x9,x8,xzr,eq
	cmp	x5,#0
	csel	x10,x8,xzr,eq
	cmp	w11,#1
	mov	x8,x1
	b.eq	1f
	cmp	w11,#2
	b.ne	2f
	mov	w11,wzr
	mov	w1,#1
	b	3f
1:
	mov	w1,wzr
3:
	sub	sp,sp,#48
	stp	x30,x19,[sp,#32]
	.cfi_def_cfa_offset 48
	.cfi_offset w19,-8
	.cfi_offset w30,-16
	add	x13,x0,x12
	add	x12,x2,x9
	add	x14,x3,#1
	add	x15,x2,x9
1:
	subs	x14,x14,#1
	b.eq	3f
	ldr	x16,[x15]
	subs	x16,x8,x16
	b.lo	4f
	ldr	x17,[x15,#8]
	add	x15,x15,#32
	cmp	x17,x16
	b.ls	1b
	mov	w0,#9
1:
	ldp	x30,x19,[sp,#32]
	add	sp,sp,#48
	ret
2:
	mov	w0,#9
	ret
3:
	stp	x13,x8,[sp]
	stp	x12,x3,[sp,#16]
	cbz	x3,2f
	add	x8,x9,x2
	mov	x13,x3
	add	x8,x8,#24
	tbz	w11,#0,3f
5:
	ldur	x14,[x8,#-16]
	ldrb	w15,[x8],#32
	sub	x16,x14,#1
	sub	w15,w15,#1
	cmp	x16,#15
	ccmp	w15,#13,#2,ls
	ccmp	x6,x14,#0,ls
	b.ls	6f
	add	x14,x14,#1
	subs	x14,x6,x14
	csel	x6,xzr,x14,lo
	subs	x13,x13,#1
	b.ne	5b
	b	2f
3:
	ldur	x14,[x8,#-16]
	cmp	x14,#255
	b.hi	6f
	ldrb	w15,[x8],#32
	cbz	w15,6f
	add	x14,x14,#2
	subs	x6,x6,x14
	b.lo	6f
	subs	x13,x13,#1
	b.ne	3b
2:
	add	x0,x5,x10
	mov	x2,sp
	mov	x19,x7
	bl	"rtp_841016a0_rtp_ext::raw_writing::put_elements::<#d57726891005992a>"
	mov	x8,x0
	mov	w0,wzr
	str	x8,[x19]
	ldp	x30,x19,[sp,#32]
	add	sp,sp,#48
	ret
4:
	mov	w0,#9
	ldp	x30,x19,[sp,#32]
	add	sp,sp,#48
	ret
6:
	ldr	x10,[x12,#8]
	ldrb	w8,[x12,#24]
	cbz	w11,2f
	sub	x10,x10,#1
	mov	w0,#9
	cmp	x10,#15
	b.hi	1b
	sub	w8,w8,#1
	cmp	w8,#13
	b.hi	1b
	add	x8,x9,x2
	add	x8,x8,#56
3:
	subs	x3,x3,#1
	b.eq	4f
	ldur	x9,[x8,#-16]
	mov	w0,#9
	sub	x9,x9,#1
	cmp	x9,#15
	b.hi	1b
	ldrb	w9,[x8],#32
	sub	w9,w9,#1
	cmp	w9,#13
	b.ls	3b
	b	1b
2:
	cmp	x10,#255
	mov	w0,#9
	b.hi	1b
	cbz	w8,1b
	add	x8,x9,x2
	add	x8,x8,#56
2:
	subs	x3,x3,#1
	b.eq	4f
	ldur	x9,[x8,#-16]
	mov	w0,#9
	cmp	x9,#255
	b.hi	1b
	ldrb	w9,[x8],#32
	cbnz	w9,2b
	b	1b
4:
	mov	w0,#8
	ldp	x30,x19,[sp,#32]
	add	sp,sp,#48
	ret
	.size	rtp_841016a0_rtp_proved_write_elements,.-rtp_841016a0_rtp_proved_write_elements
	.cfi_endproc

	.section	.text.rtpw_write_fixed_part,"ax",@progbits
	.globl	rtp_841016a0_rtpw_write_fixed_part
	.p2align	2
	.type	rtp_841016a0_rtpw_write_fixed_part,@function
rtp_841016a0_rtpw_write_fixed_part:
	.cfi_startproc
	ldrsb	w8,[x0,#4]
	cmp	x1,#0
	mov	w9,#4096
	csel	x9,x9,xzr,eq
	tbnz	w8,#31,1f
	cmp	x2,#12
	b.hs	2f
	mov	w0,#8
	ret
1:
	mov	w0,#9
	ret
2:
	mov	x10,x0
	mov	w0,wzr
	add	x9,x1,x9
	ldrb	w11,[x10,#1]
	ldr	d0,[x10,#8]
	ldrb	w12,[x10,#3]
	ldrh	w13,[x10,#6]
	mov	w10,#-96
	cmp	w11,#0
	mov	w11,#-128
	rev32	v0.8b,v0.8b
	rev	w13,w13
	csel	w10,w11,w10,eq
	cmp	w12,#0
	lsr	w12,w13,#16
	csel	w11,wzr,w11,eq
	strb	w10,[x9]
	orr	w8,w11,w8
	strh	w12,[x9,#2]
	strb	w8,[x9,#1]
	stur	d0,[x9,#4]
	ret
	.size	rtp_841016a0_rtpw_write_fixed_part,.-rtp_841016a0_rtpw_write_fixed_part
	.cfi_endproc

	.section	.text.rtpw_write_frame_marking,"ax",@progbits
	.globl	rtp_841016a0_rtpw_write_frame_marking
	.p2align	2
	.type	rtp_841016a0_rtpw_write_frame_marking,@function
rtp_841016a0_rtpw_write_frame_marking:
	.cfi_startproc
	str	x30,[sp,#-32]!
	stp	x20,x19,[sp,#16]
	.cfi_def_cfa_offset 32
	.cfi_offset w19,-8
	.cfi_offset w20,-16
	.cfi_offset w30,-32
	cmp	x1,#0
	mov	w8,#4096
	ldrb	w9,[x0]
	ldrb	w11,[x0,#4]
	ldrb	w10,[x0,#1]
	ldrb	w12,[x0,#2]
	ldrb	w13,[x0,#3]
	csel	x8,x8,xzr,eq
	strb	wzr,[sp,#14]
	strh	wzr,[sp,#12]
	cbz	w11,1f
	ldrb	w11,[x0,#6]
	cmp	w11,#7
	b.ls	2f
	mov	w0,#9
	ldp	x20,x19,[sp,#16]
	ldr	x30,[sp],#32
	ret
1:
	cmp	w13,#0
	mov	w11,#16
	mov	w19,#1
	csel	w11,wzr,w11,eq
	cmp	w12,#0
	mov	w12,#32
	csel	w12,wzr,w12,eq
	cmp	w10,#0
	mov	w10,#64
	csel	w10,wzr,w10,eq
	cmp	w9,#0
	mov	w9,#-128
	csel	w9,wzr,w9,eq
	orr	w9,w10,w9
	orr	w10,w12,w11
	orr	w9,w9,w10
	strb	w9,[sp,#12]
	cmp	x2,x19
	b.lo	1f
	b	3f
2:
	ldrb	w14,[x0,#5]
	ldrb	w15,[x0,#8]
	cmp	w14,#0
	mov	w14,#8
	csel	w14,wzr,w14,eq
	cmp	w13,#0
	mov	w13,#16
	csel	w13,wzr,w13,eq
	cmp	w12,#0
	mov	w12,#32
	csel	w12,wzr,w12,eq
	cmp	w10,#0
	mov	w10,#64
	csel	w10,wzr,w10,eq
	cmp	w9,#0
	mov	w9,#128
	csel	w9,wzr,w9,eq
	orr	w12,w12,w13
	orr	w11,w14,w11
	orr	w10,w10,w9
	ldrb	w9,[x0,#7]
	orr	w10,w10,w12
	orr	w10,w10,w11
	cbz	w15,2f
	ldrb	w11,[x0,#9]
	strb	w10,[sp,#12]
	mov	w19,#3
	strb	w9,[sp,#13]
	strb	w11,[sp,#14]
	cmp	x2,x19
	b.hs	3f
1:
	mov	w0,#8
	ldp	x20,x19,[sp,#16]
	ldr	x30,[sp],#32
	ret
2:
	orr	w9,w10,w9,lsl #8
	mov	w19,#2
	strh	w9,[sp,#12]
	cmp	x2,x19
	b.lo	1b
3:
	add	x0,x1,x8
	add	x1,sp,#12
	mov	x2,x19
	mov	x20,x3
	bl	memcpy
	mov	w0,wzr
	str	x19,[x20]
	ldp	x20,x19,[sp,#16]
	ldr	x30,[sp],#32
	ret
	.size	rtp_841016a0_rtpw_write_frame_marking,.-rtp_841016a0_rtpw_write_frame_marking
	.cfi_endproc

	.section	.text.rtpw_write_mixer_levels,"ax",@progbits
	.globl	rtp_841016a0_rtpw_write_mixer_levels
	.p2align	2
	.type	rtp_841016a0_rtpw_write_mixer_levels,@function
rtp_841016a0_rtpw_write_mixer_levels:
	.cfi_startproc
	mov	w9,#4096
	cmp	x0,#0
	csel	x8,x9,xzr,eq
	cmp	x2,#0
	csel	x9,x9,xzr,eq
	cmp	x1,#15
	b.ls	1f
2:
	mov	w0,#9
	ret
1:
	cmp	x3,x1
	add	x8,x0,x8
	b.hs	1f
3:
	cbz	x1,4f
	ldrb	w9,[x8],#1
	sub	x1,x1,#1
	add	w9,w9,#127
	tbz	w9,#7,3b
	b	2b
1:
	mov	x10,xzr
	add	x9,x2,x9
1:
	cmp	x1,x10
	b.eq	3f
	ldrb	w11,[x8,x10]
	add	x10,x10,#1
	add	w11,w11,#127
	tbz	w11,#7,1b
	b	2b
4:
	mov	w0,#8
	ret
3:
	mov	x10,x1
	cbz	x1,1f
2:
	ldrsb	w11,[x8],#1
	cmp	w11,#0
	cneg	w11,w11,mi
	subs	x10,x10,#1
	strb	w11,[x9],#1
	b.ne	2b
1:
	mov	w0,wzr
	str	x1,[x4]
	ret
	.size	rtp_841016a0_rtpw_write_mixer_levels,.-rtp_841016a0_rtpw_write_mixer_levels
	.cfi_endproc

	.section	.text.rtpw_write_ntp_56,"ax",@progbits
	.globl	rtp_841016a0_rtpw_write_ntp_56
	.p2align	2
	.type	rtp_841016a0_rtpw_write_ntp_56,@function
rtp_841016a0_rtpw_write_ntp_56:
	.cfi_startproc
	cmp	x2,#7
	b.hs	1f
	mov	w0,#8
	ret
1:
	mov	x8,x0
	cmp	x1,#0
	mov	w9,#4096
	lsr	x10,x0,#48
	csel	x9,x9,xzr,eq
	lsr	x11,x0,#40
	lsr	x12,x0,#32
	add	x9,x1,x9
	mov	w0,wzr
	strb	w10,[x9]
	lsr	x10,x8,#24
	strb	w11,[x9,#1]
	lsr	x11,x8,#16
	strb	w12,[x9,#2]
	lsr	x12,x8,#8
	strb	w8,[x9,#6]
	mov	w8,#7
	strb	w10,[x9,#3]
	strb	w11,[x9,#4]
	strb	w12,[x9,#5]
	str	x8,[x3]
	ret
	.size	rtp_841016a0_rtpw_write_ntp_56,.-rtp_841016a0_rtpw_write_ntp_56
	.cfi_endproc

	.section	.text.rtpw_write_ntp_64,"ax",@progbits
	.globl	rtp_841016a0_rtpw_write_ntp_64
	.p2align	2
	.type	rtp_841016a0_rtpw_write_ntp_64,@function
rtp_841016a0_rtpw_write_ntp_64:
	.cfi_startproc
	cmp	x2,#8
	b.hs	1f
	mov	w0,#8
	ret
1:
	cmp	x1,#0
	mov	w9,#4096
	mov	x8,x0
	mov	w0,wzr
	csel	x9,x9,xzr,eq
	mov	w10,#8
	rev	x8,x8
	str	x8,[x1,x9]
	str	x10,[x3]
	ret
	.size	rtp_841016a0_rtpw_write_ntp_64,.-rtp_841016a0_rtpw_write_ntp_64
	.cfi_endproc

	.section	.text.rtpw_write_orientation,"ax",@progbits
	.globl	rtp_841016a0_rtpw_write_orientation
	.p2align	2
	.type	rtp_841016a0_rtpw_write_orientation,@function
rtp_841016a0_rtpw_write_orientation:
	.cfi_startproc
	ldrb	w9,[x0,#2]
	cmp	x1,#0
	mov	w8,#4096
	csel	x8,x8,xzr,eq
	cmp	w9,#1
	b.hi	1f
	ldrh	w11,[x0]
	ldrb	w10,[x0,#3]
	mov	w0,#9
	cmp	w11,#179
	b.gt	2f
	cbz	w11,3f
	cmp	w11,#90
	b.ne	4f
	mov	w11,#3
	cbnz	x2,5f
	b	6f
1:
	mov	w0,#9
	ret
2:
	cmp	w11,#180
	b.eq	1f
	cmp	w11,#270
	b.ne	4f
	mov	w11,#1
3:
	cbz	x2,6f
5:
	orr	w9,w11,w9,lsl #3
	cmp	w10,#0
	mov	w10,#4
	mov	w0,wzr
	csel	w10,wzr,w10,eq
	mov	w11,#1
	orr	w9,w9,w10
	strb	w9,[x1,x8]
	str	x11,[x3]
4:
	ret
1:
	mov	w11,#2
	cbnz	x2,5b
6:
	mov	w0,#8
	ret
	.size	rtp_841016a0_rtpw_write_orientation,.-rtp_841016a0_rtpw_write_orientation
	.cfi_endproc

	.section	.text.rtpw_write_original,"ax",@progbits
	.globl	rtp_841016a0_rtpw_write_original
	.p2align	2
	.type	rtp_841016a0_rtpw_write_original,@function
rtp_841016a0_rtpw_write_original:
	.cfi_startproc
	cmp	x1,#2
	b.hs	1f
	mov	w0,#8
	ret
1:
	mov	x8,x0
	mov	w9,#4096
	rev	w10,w2
	cmp	x0,#0
	mov	w0,wzr
	lsr	w10,w10,#16
	csel	x9,x9,xzr,eq
	strh	w10,[x8,x9]
	ret
	.size	rtp_841016a0_rtpw_write_original,.-rtp_841016a0_rtpw_write_original
	.cfi_endproc

	.section	.rodata.cst16,"aM",@progbits,16
	.p2align	4,0x0
.Lrtp_841016a0_CPI122_0:
	.word	4294967272
	.word	4294967280
	.word	4294967288
	.word	0
.Lrtp_841016a0_CPI122_1:
	.word	4294967280
	.word	4294967288
	.word	0
	.word	4294967272
	.section	.text.rtpw_write_report,"ax",@progbits
	.globl	rtp_841016a0_rtpw_write_report
	.p2align	2
	.type	rtp_841016a0_rtpw_write_report,@function
rtp_841016a0_rtpw_write_report:
	.cfi_startproc
	cmp	x5,#24
	b.hs	1f
	mov	w0,#8
	ret
1:
	mov	w10,#-8388608
	mov	w11,#4096
	ldr	d0,[x0,#8]
	ldr	w9,[x0,#4]
	mov	w12,#8388607
	dup	v5.4s,w1
	ldrb	w8,[x0]
	mov	w0,wzr
	dup	v1.4s,v0.s[1]
	cmn	w9,#2048,lsl #12
	zip1	v2.4s,v0.4s,v0.4s
	csel	w9,w9,w10,gt
	cmp	x4,#0
	csel	x10,x11,xzr,eq
	cmp	w9,w12
	adrp	x11,.Lrtp_841016a0_CPI122_1
	mov	v1.s[3],w2
	csel	w9,w9,w12,lt
	ldr	q6,[x11,:lo12:.Lrtp_841016a0_CPI122_1]
	fmov	s3,w9
	mov	v2.s[2],v0.s[0]
	adrp	x9,.Lrtp_841016a0_CPI122_0
	add	x10,x4,x10
	lsr	w11,w3,#8
	strb	w8,[x10,#4]
	mov	w8,#24
	dup	v3.4s,v3.s[0]
	dup	v4.4s,v1.s[3]
	ushl	v1.4s,v1.4s,v6.4s
	ushl	v2.4s,v2.4s,v6.4s
	strb	w11,[x10,#22]
	strb	w3,[x10,#23]
	ext	v0.16b,v3.16b,v0.16b,#4
	mov	v4.s[3],w3
	ldr	q3,[x9,:lo12:.Lrtp_841016a0_CPI122_0]
	lsr	w9,w3,#16
	ushl	v3.4s,v5.4s,v3.4s
	strb	w9,[x10,#21]
	ushl	v0.4s,v0.4s,v6.4s
	ushl	v4.4s,v4.4s,v6.4s
	xtn	v3.4h,v3.4s
	uzp1	v0.8h,v0.8h,v2.8h
	uzp1	v1.8h,v1.8h,v4.8h
	uzp1	v2.8b,v3.8b,v0.8b
	uzp1	v0.16b,v0.16b,v1.16b
	str	s2,[x10]
	stur	q0,[x10,#5]
	str	x8,[x6]
	ret
	.size	rtp_841016a0_rtpw_write_report,.-rtp_841016a0_rtpw_write_report
	.cfi_endproc

	.section	.text.rtpw_write_send_time,"ax",@progbits
	.globl	rtp_841016a0_rtpw_write_send_time
	.p2align	2
	.type	rtp_841016a0_rtpw_write_send_time,@function
rtp_841016a0_rtpw_write_send_time:
	.cfi_startproc
	lsr	w9,w0,#24
	cmp	x1,#0
	mov	w8,#4096
	csel	x8,x8,xzr,eq
	cbz	w9,1f
	mov	w0,#9
	ret
1:
	cmp	x2,#3
	b.hs	1f
	mov	w0,#8
	ret
1:
	mov	w9,w0
	add	x8,x1,x8
	mov	w0,wzr
	lsr	w10,w9,#16
	lsr	w11,w9,#8
	strb	w9,[x8,#2]
	mov	w9,#3
	strb	w10,[x8]
	strb	w11,[x8,#1]
	str	x9,[x3]
	ret
	.size	rtp_841016a0_rtpw_write_send_time,.-rtp_841016a0_rtpw_write_send_time
	.cfi_endproc

	.section	.text.rtpw_write_transmission_offset,"ax",@progbits
	.globl	rtp_841016a0_rtpw_write_transmission_offset
	.p2align	2
	.type	rtp_841016a0_rtpw_write_transmission_offset,@function
rtp_841016a0_rtpw_write_transmission_offset:
	.cfi_startproc
	add	w8,w0,#2048,lsl #12
	cmp	x1,#0
	lsr	w9,w8,#24
	mov	w8,#4096
	csel	x8,x8,xzr,eq
	cbnz	w9,1f
	cmp	x2,#3
	b.hs	2f
	mov	w0,#8
	ret
1:
	mov	w0,#9
	ret
2:
	mov	w9,w0
	add	x8,x1,x8
	mov	w0,wzr
	lsr	w10,w9,#16
	lsr	w11,w9,#8
	strb	w9,[x8,#2]
	mov	w9,#3
	strb	w10,[x8]
	strb	w11,[x8,#1]
	str	x9,[x3]
	ret
	.size	rtp_841016a0_rtpw_write_transmission_offset,.-rtp_841016a0_rtpw_write_transmission_offset
	.cfi_endproc

	.section	.text.rtpw_write_transport_number,"ax",@progbits
	.globl	rtp_841016a0_rtpw_write_transport_number
	.p2align	2
	.type	rtp_841016a0_rtpw_write_transport_number,@function
rtp_841016a0_rtpw_write_transport_number:
	.cfi_startproc
	ldrb	w10,[x0,#4]
	cmp	x1,#0
	mov	w8,#4096
	ldrh	w9,[x0]
	csel	x8,x8,xzr,eq
	cbz	w10,1f
	ldrsh	w10,[x0,#2]
	tbnz	w10,#31,2f
	cmp	x2,#4
	b.hs	3f
	mov	w0,#8
	ret
1:
	cmp	x2,#2
	b.hs	1f
	mov	w0,#8
	ret
2:
	mov	w0,#9
	ret
3:
	orr	w12,w10,#0x8000
	rev	w9,w9
	ldrb	w11,[x0,#5]
	mov	w0,wzr
	cmp	w11,#0
	csel	w10,w10,w12,eq
	and	w10,w10,#0xffff
	rev	w10,w10
	bfxil	w10,w9,#16,#16
	mov	w9,#4
	str	w10,[x1,x8]
	str	x9,[x3]
	ret
1:
	mov	w0,wzr
	rev16	w9,w9
	strh	w9,[x1,x8]
	mov	w8,#2
	str	x8,[x3]
	ret
	.size	rtp_841016a0_rtpw_write_transport_number,.-rtp_841016a0_rtpw_write_transport_number
	.cfi_endproc

	.section	.text.rtpw_write_color_space,"ax",@progbits
	.globl	rtp_841016a0_rtpw_write_color_space
	.p2align	2
	.type	rtp_841016a0_rtpw_write_color_space,@function
rtp_841016a0_rtpw_write_color_space:
	.cfi_startproc
	ldrb	w9,[x0,#27]
	cmp	x1,#0
	mov	w8,#4096
	csel	x8,x8,xzr,eq
	cmp	w9,#3
	b.hi	1f
	ldrb	w12,[x0,#28]
	cmp	w12,#2
	b.hi	1f
	ldrb	w10,[x0,#29]
	cmp	w10,#2
	b.hi	1f
	ldrb	w11,[x0,#30]
	ldrb	w13,[x0,#24]
	ldrb	w15,[x0,#25]
	ldrb	w14,[x0,#26]
	cbz	w11,2f
	ldr	q0,[x0]
	ldr	d1,[x0,#16]
	rev16	v0.16b,v0.16b
	rev16	v1.8b,v1.8b
	b	3f
1:
	mov	w0,#9
	ret
2:
	movi	v0.2d,#0000000000000000
	movi	v1.2d,#0000000000000000
3:
	sub	sp,sp,#64
	stp	xzr,x30,[sp,#24]
	stp	x20,x19,[sp,#48]
	.cfi_def_cfa_offset 64
	.cfi_offset w19,-8
	.cfi_offset w20,-16
	.cfi_offset w30,-32
	lsl	w12,w12,#2
	orr	w13,w13,w15,lsl #8
	stp	xzr,xzr,[sp,#8]
	orr	w9,w12,w9,lsl #4
	orr	w12,w13,w14,lsl #16
	orr	w9,w9,w10
	orr	w9,w12,w9,lsl #24
	str	w9,[sp,#4]
	cbz	w11,1f
	mov	w19,#28
	stur	q0,[sp,#8]
	stur	d1,[sp,#24]
	cmp	x2,x19
	b.hs	2f
3:
	mov	w0,#8
	ldp	x20,x19,[sp,#48]
	ldr	x30,[sp,#32]
	add	sp,sp,#64
	ret
1:
	mov	w19,#4
	cmp	x2,x19
	b.lo	3b
2:
	add	x0,x1,x8
	add	x1,sp,#4
	mov	x2,x19
	mov	x20,x3
	bl	memcpy
	mov	w0,wzr
	str	x19,[x20]
	ldp	x20,x19,[sp,#48]
	ldr	x30,[sp,#32]
	add	sp,sp,#64
	ret
	.size	rtp_841016a0_rtpw_write_color_space,.-rtp_841016a0_rtpw_write_color_space
	.cfi_endproc

	.section	.text.rtpw_wide_receiver_standing_of,"ax",@progbits
	.globl	rtp_841016a0_rtpw_wide_receiver_standing_of
	.p2align	2
	.type	rtp_841016a0_rtpw_wide_receiver_standing_of,@function
rtp_841016a0_rtpw_wide_receiver_standing_of:
	.cfi_startproc
	cmp	x1,#0
	mov	w8,#4096
	sub	x10,x2,#1
	csel	x9,x8,xzr,eq
	cmp	x10,#511
	b.hi	1f
	ldrb	w8,[x0,#8]
	cbz	w8,2f
	ldr	x8,[x0]
	subs	x10,x8,x3
	b.ne	3f
4:
	subs	x8,x8,x3
	csel	x8,xzr,x8,lo
	cmp	x2,x8,lsr #6
	mov	w8,#1
	cinc	w0,w8,ls
	ret
1:
	mov	w0,#3
	ret
3:
	b.hs	1f
2:
	mov	w0,wzr
	ret
1:
	cmp	x2,x10,lsr #6
	b.ls	4b
	cmp	x2,#16
	add	x9,x1,x9
	b.ne	1f
	ubfx	x10,x3,#6,#4
	b	3f
1:
	lsr	x10,x3,#6
	udiv	x11,x10,x2
	msub	x10,x11,x2,x10
3:
	ldr	x9,[x9,x10,lsl #3]
	lsr	x9,x9,x3
	tbnz	w9,#0,4b
	b	2b
	.size	rtp_841016a0_rtpw_wide_receiver_standing_of,.-rtp_841016a0_rtpw_wide_receiver_standing_of
	.cfi_endproc

	.section	.text.rtp_proved_add_element,"ax",@progbits
	.p2align	2
	.type	rtp_841016a0_rtp_proved_add_element,@function
rtp_841016a0_rtp_proved_add_element:
	.cfi_startproc
	sub	sp,sp,#192
	stp	x29,x0,[sp,#96]
	stp	x30,x27,[sp,#112]
	stp	x26,x25,[sp,#128]
	stp	x24,x23,[sp,#144]
	stp	x22,x21,[sp,#160]
	stp	x20,x19,[sp,#176]
	.cfi_def_cfa_offset 192
	.cfi_offset w19,-8
	.cfi_offset w20,-16
	.cfi_offset w21,-24
	.cfi_offset w22,-32
	.cfi_offset w23,-40
	.cfi_offset w24,-48
	.cfi_offset w25,-56
	.cfi_offset w26,-64
	.cfi_offset w27,-72
	.cfi_offset w30,-80
	.cfi_offset w29,-96
	cmp	x0,#0
	mov	w8,#4096
	and	w9,w6,#0xff
	csel	x14,x8,xzr,eq
	cmp	x4,#0
	csel	x13,x8,xzr,eq
	cmp	w9,#2
	b.hi	1f
	ldr	x24,[x2]
	cmp	x1,x24
	b.lo	2f
	tst	w3,#0xff
	b.eq	3f
	cmp	x5,#255
	b.hi	4f
	cmp	x24,#12
	b.lo	5f
	ldr	x8,[sp,#104]
	add	x17,x8,x14
	ldrsb	w8,[x17]
	cmn	w8,#65
	b.gt	6f
	and	x15,x8,#0xff
	ubfiz	x16,x15,#2,#4
	add	x27,x16,#12
	subs	x8,x24,x27
	b.lo	7f
	add	x0,x17,x27
	tbnz	w15,#4,8f
	mov	w20,wzr
	mov	w8,#1
	add	x12,x16,#12
	b	9f
1:
	mov	w0,#9
	b	1f
8:
	subs	x8,x8,#4
	b.lo	8f
	ldrb	w9,[x0,#2]
	ldrb	w10,[x0,#3]
	lsl	x9,x9,#10
	orr	x9,x9,x10,lsl #2
	cmp	x8,x9
	b.lo	10f
	ldrh	w11,[x0]
	mov	w12,#57022
	add	x9,x27,x9
	and	w10,w11,#0xfffff0ff
	cmp	w10,#16
	cset	w20,eq
	cset	w8,ne
	cmp	w11,w12
	add	x12,x9,#4
	b.eq	9f
	cmp	w10,#16
	b.ne	11f
9:
	sub	x9,x5,#1
	and	w10,w3,#0xff
	cmp	x9,#16
	ccmp	w10,#15,#2,lo
	mov	w10,#253
	csinc	w9,w20,wzr,lo
	tst	w6,#0xff
	csinc	w11,w9,wzr,eq
	tst	w6,w10
	str	w11,[sp,#92]
	b.eq	9f
	cbnz	w9,12f
	str	wzr,[sp,#92]
9:
	str	x2,[sp,#72]
	str	x15,[sp,#8]
	str	x16,[sp,#40]
	str	w3,[sp,#68]
	str	x17,[sp,#24]
	str	x0,[sp,#56]
	tbnz	w15,#4,9f
	add	x8,x17,x12
	ldr	w20,[sp,#92]
	mov	w16,wzr
	mov	x6,xzr
	mov	x10,xzr
	mov	x25,xzr
	str	x8,[sp,#80]
	b	13f
9:
	add	w9,w16,#16
	add	x10,x17,x9
	sub	x6,x12,x9
	str	x10,[sp,#80]
	tbz	w8,#0,9f
	cbz	x6,14f
	ldr	x0,[sp,#80]
	mov	x25,xzr
	mov	x8,x6
15:
	mov	x19,x8
16:
	ldrb	w9,[x0]
	sub	w8,w9,#240
	cmn	w8,#224
	b.hs	17f
	cbz	w9,18f
	mov	x8,x19
	cmp	w9,#239
	b.ls	19f
	b	20f
17:
	and	x8,x9,#0xf
	add	x10,x8,#2
	subs	x8,x19,x10
	b.hs	17f
	subs	x8,x19,x10
	b.hs	21f
	b	20f
18:
	cmp	x19,#2
	b.eq	18f
	cmp	x19,#1
	b.eq	20f
	cmp	x19,#3
	b.hi	22f
	ldrb	w8,[x0,#1]
	cbnz	w8,22f
	ldrb	w8,[x0,#2]
	cbnz	w8,22f
	b	23f
18:
	ldrb	w8,[x0,#1]
	cbz	w8,18f
22:
	str	x25,[sp,#48]
	mov	x25,x1
	add	x0,x0,#1
	sub	x1,x19,#1
	str	x6,[sp,#32]
	mov	x26,x27
	mov	x21,x12
	mov	w22,w20
	mov	x20,x5
	mov	x27,x14
	mov	x29,x13
	mov	x23,x4
	bl	"rtp_841016a0_rtp_ext::elements::skip_zeros"
	cbz	x1,22f
	mov	x8,x1
	ldrb	w9,[x0]
	mov	x1,x25
	ldr	x6,[sp,#32]
	ldr	x25,[sp,#48]
	mov	x4,x23
	mov	x13,x29
	mov	x14,x27
	mov	x5,x20
	mov	w20,w22
	mov	x12,x21
	mov	x27,x26
	cmp	w9,#239
	b.hi	20f
19:
	and	w10,w9,#0xf
	add	w10,w10,#2
	subs	x8,x8,x10
	b.lo	20f
21:
	cmp	w9,#16
	add	x0,x0,x10
	b.hs	19f
	mov	x19,x8
	cbnz	x8,16b
	b	20f
17:
	add	x0,x0,x10
19:
	mov	x19,xzr
	add	x25,x10,x25
	cbnz	x8,15b
	b	20f
9:
	cbz	x6,14f
	ldr	x0,[sp,#80]
	mov	x25,xzr
	mov	x8,x6
	str	x24,[sp]
9:
	mov	x19,x8
	str	x25,[sp,#48]
15:
	ldrb	w8,[x0]
	cbz	w8,16f
	mov	x8,x19
	cmp	x19,#2
	b.hs	17f
	b	20f
16:
	cmp	x19,#2
	b.eq	16f
	cmp	x19,#1
	b.eq	20f
	cmp	x19,#3
	b.hi	19f
	ldrb	w8,[x0,#1]
	cbnz	w8,19f
	ldrb	w8,[x0,#2]
	cbnz	w8,19f
	b	23f
16:
	ldrb	w8,[x0,#1]
	cbz	w8,18f
19:
	mov	x25,x1
	add	x0,x0,#1
	sub	x1,x19,#1
	mov	x24,x6
	mov	x26,x27
	mov	x21,x12
	mov	w27,w20
	mov	x20,x5
	mov	x22,x14
	mov	x29,x13
	mov	x23,x4
	bl	"rtp_841016a0_rtp_ext::elements::skip_zeros"
	cbz	x1,16f
	mov	x8,x1
	mov	x1,x25
	mov	x6,x24
	ldr	x24,[sp]
	ldr	x25,[sp,#48]
	mov	x4,x23
	mov	x13,x29
	mov	x14,x22
	mov	x5,x20
	mov	w20,w27
	mov	x12,x21
	mov	x27,x26
	cmp	x8,#2
	b.lo	20f
17:
	ldrb	w9,[x0,#1]
	add	x10,x9,#2
	subs	x8,x8,x10
	b.lo	20f
	ldrb	w11,[x0]
	add	x0,x0,x10
	cbnz	w11,17f
	mov	x19,x8
	cbnz	x8,15b
	b	20f
17:
	add	x9,x25,x9
	mov	x19,xzr
	add	x25,x9,#2
	cbnz	x8,9b
	b	20f
14:
	ldr	w8,[sp,#92]
	mov	x6,xzr
	mov	x10,xzr
	mov	x25,xzr
	cmp	w8,w20
	cset	w16,eq
	b	13f
2:
	mov	w0,wzr
	mov	w1,wzr
	b	2f
3:
	mov	w1,wzr
	mov	w0,#1
	b	2f
4:
	mov	w1,wzr
	mov	w0,#2
	b	2f
18:
	mov	w19,#2
	b	20f
5:
	mov	w1,wzr
	mov	w0,#3
	b	2f
6:
	mov	w1,#1
	mov	w0,#3
	b	2f
23:
	mov	w19,#3
20:
	ldr	w8,[sp,#92]
	sub	x10,x6,x19
	cmp	w8,w20
	cset	w16,eq
	b.eq	13f
	cbz	x25,13f
	str	x1,[sp,#48]
	ldr	w1,[sp,#92]
	ldr	x2,[sp,#80]
	mov	w0,w20
	mov	x3,x10
	mov	x23,x4
	mov	w4,wzr
	mov	x19,x5
	mov	x29,x13
	mov	x22,x14
	str	w20,[sp,#32]
	mov	x20,x25
	mov	x21,x12
	mov	x25,x10
	mov	x26,x24
	mov	x24,x6
	bl	"rtp_841016a0_rtp_ext::form_change::row_len"
	mov	x10,x25
	mov	x25,x20
	ldr	w20,[sp,#32]
	mov	x8,x1
	ldr	x1,[sp,#48]
	mov	x6,x24
	mov	x24,x26
	mov	x12,x21
	mov	x14,x22
	mov	x13,x29
	mov	x4,x23
	mov	x5,x19
	mov	w16,wzr
	mov	w22,#1
	b	3f
13:
	mov	w22,wzr
	mov	w0,#1
	mov	x8,x25
3:
	and	w9,w0,#0xff
	cmp	w9,#1
	b.ne	3f
	ldr	w9,[sp,#92]
	add	x8,x5,x8
	cmp	w9,#0
	mov	w9,#1
	cinc	x19,x9,ne
	add	x8,x8,x19
	add	x8,x8,#3
	and	x8,x8,#0xfffffffffffffffc
	cmp	x6,x8
	csel	x9,x6,x8,hi
	mov	w8,#262140
	cmp	x9,x8
	b.hi	4f
	add	x8,x27,x9
	add	x3,x8,#4
	sub	x8,x24,x12
	add	x29,x3,x8
	cmp	x1,x29
	b.lo	5f
	ldr	x8,[sp,#104]
	mov	x1,x12
	mov	x2,x24
	mov	x27,x10
	mov	x26,x6
	str	x5,[sp,#48]
	add	x0,x8,x14
	mov	x23,x4
	str	x13,[sp,#16]
	add	x21,x4,x13
	str	x14,[sp,#32]
	mov	w24,w16
	str	x9,[sp,#80]
	bl	"rtp_841016a0_rtp_wire::packet::resizing::move_bytes"
	ldr	x17,[sp,#80]
	ldr	x12,[sp,#56]
	lsl	w8,w17,#6
	and	w8,w8,#0xff00
	orr	w8,w8,w17,lsr #10
	strh	w8,[x12,#2]
	tbnz	w24,#0,6f
	ldr	x11,[sp,#24]
	ldr	w9,[sp,#92]
	mov	w10,#-8514
	ldrb	w8,[x11]
	cmp	w9,#0
	mov	w9,#16
	csel	w9,w10,w9,eq
	orr	w8,w8,#0x10
	strh	w9,[x12]
	strb	w8,[x11]
6:
	add	x24,x12,#4
	cbz	x26,6f
	mov	x4,x26
	mov	x26,x27
	cmp	x25,x27
	b.ne	9f
	mov	x27,xzr
	mov	x3,x26
	cbnz	w22,13f
	b	14f
6:
	ldr	x15,[sp,#16]
	ldr	w8,[sp,#92]
	tbz	w8,#0,6f
	ldr	x20,[sp,#48]
	ldr	w10,[sp,#68]
	mov	w8,#2
	strb	w20,[x12,#5]
	ands	w9,w20,#0xff
	strb	w10,[x24]
	b.ne	15f
	b	17f
9:
	mov	w0,w20
	mov	x1,x24
	mov	x2,x26
	mov	x3,x26
	mov	w5,wzr
	bl	"rtp_841016a0_rtp_ext::gathering::gather_around"
	ldr	x17,[sp,#80]
	mov	x3,x0
	mov	x27,x1
	cbz	w22,14f
13:
	ldr	x2,[sp,#80]
	mov	w0,w20
	mov	x1,x24
	mov	x4,x26
	mov	x5,x27
	bl	"rtp_841016a0_rtp_ext::form_change::change_rows"
	ldr	x17,[sp,#80]
	mov	x3,x0
	mov	x27,x1
	mov	x26,x0
14:
	ldr	x2,[sp,#48]
	ldp	x14,x16,[sp,#32]
	mov	x1,x21
	add	x8,x19,x2
	add	x21,x8,x3
	subs	x9,x26,x21
	b.hs	9f
	cbz	x27,13f
	cmp	x27,#8
	mov	x8,x27
	b.lo	14f
	cmp	x9,#32
	mov	x8,x27
	b.lo	14f
	cmp	x27,#32
	b.hs	18f
	mov	x9,xzr
	b	19f
9:
	cbz	x27,13f
	cmp	x27,#8
	b.lo	9f
	add	x8,x19,x3
	add	x8,x8,x2
	sub	x8,x8,x26
	cmp	x8,#32
	b.hs	21f
9:
	mov	x8,xzr
9:
	add	x9,x14,x8
	add	x11,x2,x16
	sub	x8,x27,x8
	add	x10,x9,x19
	add	x9,x9,x26
	add	x10,x10,x3
	add	x9,x9,x16
	add	x10,x10,x11
	ldr	x11,[sp,#104]
	add	x10,x10,x11
	add	x11,x9,x11
	add	x9,x10,#16
	add	x10,x11,#16
23:
	ldrb	w11,[x10],#1
	subs	x8,x8,#1
	strb	w11,[x9],#1
	b.ne	23b
	b	13f
6:
	ldr	w9,[sp,#68]
	ldr	x20,[sp,#48]
	ubfx	w8,w9,#4,#4
	orr	w8,w8,w9,lsl #4
	add	w8,w8,w20
	sub	w10,w8,#1
	mov	w8,#1
	ands	w9,w20,#0xff
	strb	w10,[x24]
	b.eq	17f
15:
	cmp	w9,#1
	b.ne	6f
	ldrb	w9,[x21]
	strb	w9,[x24,x8]
	b	15f
6:
	cmp	x20,#2
	b.hi	6f
	ldrb	w9,[x21]
	add	x8,x24,x8
	strb	w9,[x8]
	ldrb	w9,[x21,#1]
	strb	w9,[x8,#1]
	b	15f
7:
	mov	w1,#2
	mov	w0,#3
	b	2f
3:
	ldr	x1,[sp,#80]
	mov	w0,w20
	mov	x2,x6
	bl	"rtp_841016a0_rtp_wire::packet::rewriting::has_long_id"
	mov	w8,#5
	cmp	w0,#0
	mov	w1,wzr
	cinc	w0,w8,eq
	b	2f
4:
	mov	w1,wzr
	mov	w0,#7
	b	2f
6:
	cmp	x20,#3
	b.ne	17f
	ldrb	w9,[x21]
	add	x8,x24,x8
	strb	w9,[x8]
	ldrb	w9,[x21,#1]
	strb	w9,[x8,#1]
	ldrb	w9,[x21,#2]
	strb	w9,[x8,#2]
	b	15f
17:
	add	x0,x24,x8
	sub	x9,x0,x21
	cmp	x9,x20
	b.hs	3f
	cmp	x20,#8
	b.hs	4f
	ldr	x16,[sp,#8]
	mov	x9,xzr
	b	6f
3:
	mov	x1,x21
	mov	x2,x20
	bl	memmove
	ldr	x17,[sp,#80]
	b	15f
5:
	mov	w1,wzr
	mov	w0,#8
	b	2f
21:
	cmp	x27,#32
	b.hs	3f
	mov	x8,xzr
	b	5f
18:
	add	x10,x14,x27
	add	x11,x26,x16
	add	x12,x19,x14
	add	x13,x3,x27
	add	x10,x10,x11
	add	x14,x2,x16
	add	x11,x12,x13
	ldr	x13,[sp,#104]
	and	x8,x27,#0x18
	and	x9,x27,#0xffffffffffffffe0
	add	x12,x13,x14
	add	x10,x13,x10
	add	x11,x12,x11
	and	x12,x27,#0xffffffffffffffe0
7:
	ldp	q1,q0,[x10,#-16]
	sub	x12,x12,#32
	sub	x10,x10,#32
	stp	q1,q0,[x11,#-16]
	sub	x11,x11,#32
	cbnz	x12,7b
	ldr	x14,[sp,#32]
	cmp	x27,x9
	b.eq	13f
	cbz	x8,7f
19:
	add	x8,x19,x14
	add	x10,x14,x26
	ldr	x13,[sp,#104]
	add	x8,x8,x3
	add	x11,x10,x16
	and	x10,x27,#0xfffffffffffffff8
	add	x8,x8,x2
	sub	x11,x11,x9
	add	x8,x8,x16
	add	x11,x11,x13
	sub	x12,x8,x9
	and	x8,x27,#0x7
	add	x11,x11,#8
	add	x12,x12,x13
	sub	x9,x9,x10
	add	x12,x12,#8
17:
	ldr	d0,[x11,x27]
	adds	x9,x9,#8
	sub	x11,x11,#8
	str	d0,[x12,x27]
	sub	x12,x12,#8
	b.ne	17b
	cmp	x27,x10
	b.eq	13f
14:
	add	x9,x14,x8
	add	x11,x2,x16
	add	x10,x9,x19
	add	x9,x9,x26
	add	x10,x10,x3
	add	x9,x9,x16
	add	x10,x10,x11
	ldr	x11,[sp,#104]
	add	x10,x10,x11
	add	x11,x9,x11
	add	x9,x10,#15
	add	x10,x11,#15
17:
	ldrb	w11,[x10],#-1
	subs	x8,x8,#1
	strb	w11,[x9],#-1
	b.ne	17b
13:
	ldr	w8,[sp,#92]
	tbz	w8,#0,17f
	ldr	w9,[sp,#68]
	add	x8,x24,x3
	strb	w2,[x8,#1]
	strb	w9,[x8]
	mov	w8,#2
	ands	w10,w2,#0xff
	add	x9,x8,x3
	b.ne	18f
	b	19f
17:
	ldr	w9,[sp,#68]
	ubfx	w8,w9,#4,#4
	orr	w8,w8,w9,lsl #4
	add	w8,w8,w2
	sub	w8,w8,#1
	strb	w8,[x24,x3]
	mov	w8,#1
	ands	w10,w2,#0xff
	add	x9,x8,x3
	b.eq	19f
18:
	cmp	w10,#1
	b.ne	17f
	ldrb	w8,[x1]
	strb	w8,[x24,x9]
	b	18f
17:
	cmp	x2,#2
	b.hi	17f
	ldrb	w8,[x1]
	add	x9,x24,x9
	strb	w8,[x9]
	ldrb	w8,[x1,#1]
	strb	w8,[x9,#1]
	b	18f
17:
	cmp	x2,#3
	b.ne	19f
	ldrb	w8,[x1]
	add	x9,x24,x9
	strb	w8,[x9]
	ldrb	w8,[x1,#1]
	strb	w8,[x9,#1]
	ldrb	w8,[x1,#2]
	strb	w8,[x9,#2]
	b	18f
19:
	add	x0,x24,x9
	sub	x9,x0,x1
	cmp	x9,x2
	b.hs	17f
	cmp	x2,#8
	b.hs	19f
	ldr	x16,[sp,#8]
	mov	x9,xzr
	b	21f
17:
	bl	memmove
	ldr	x17,[sp,#80]
	b	18f
19:
	add	x9,x14,x3
	ldr	x10,[sp,#104]
	mov	x11,x16
	add	x9,x9,x8
	add	x9,x9,x10
	add	x9,x9,x16
	ldp	x16,x10,[sp,#8]
	add	x10,x10,x23
	sub	x9,x9,x10
	add	x9,x9,#16
	cmp	x9,#32
	b.hs	17f
	mov	x9,xzr
	b	21f
8:
	mov	w0,#3
	mov	w1,#3
	b	2f
4:
	ldp	x9,x11,[sp,#32]
	ldr	x10,[sp,#104]
	ldr	x16,[sp,#8]
	orr	x9,x9,x8
	add	x9,x9,x10
	add	x10,x15,x23
	add	x9,x9,x11
	sub	x9,x9,x10
	add	x9,x9,#16
	cmp	x9,#32
	b.hs	4f
	mov	x9,xzr
	b	6f
10:
	mov	w1,#4
	mov	w0,#3
	b	2f
11:
	mov	w1,wzr
	mov	w0,#4
	b	2f
17:
	cmp	x2,#32
	b.hs	8f
	mov	x9,xzr
	b	10f
3:
	ldr	x13,[sp,#104]
	add	x8,x19,x14
	add	x10,x3,x2
	add	x11,x14,x26
	add	x10,x8,x10
	and	x9,x27,#0x18
	add	x12,x16,x13
	add	x11,x11,x16
	and	x8,x27,#0xffffffffffffffe0
	add	x10,x10,x12
	add	x11,x11,x13
	and	x12,x27,#0xffffffffffffffe0
	add	x10,x10,#32
	add	x11,x11,#32
3:
	ldp	q0,q1,[x11,#-16]
	subs	x12,x12,#32
	add	x11,x11,#32
	stp	q0,q1,[x10,#-16]
	add	x10,x10,#32
	b.ne	3b
	cmp	x27,x8
	b.eq	13b
	cbz	x9,9b
5:
	mov	x9,x8
	add	x8,x19,x14
	add	x10,x14,x26
	ldr	x13,[sp,#104]
	add	x8,x8,x3
	add	x11,x9,x2
	add	x10,x10,x9
	add	x11,x8,x11
	and	x8,x27,#0xfffffffffffffff8
	add	x12,x16,x13
	add	x10,x10,x16
	sub	x9,x9,x8
	add	x11,x11,x12
	add	x12,x10,x13
	add	x10,x11,#16
	add	x11,x12,#16
3:
	ldr	d0,[x11],#8
	adds	x9,x9,#8
	str	d0,[x10],#8
	b.ne	3b
	cmp	x27,x8
	b.eq	13b
	b	9b
12:
	and	w8,w3,#0xff
	mov	w1,wzr
	cmp	w8,#14
	mov	w8,#5
	cinc	w0,w8,ls
2:
	ldp	x20,x19,[sp,#176]
	ldr	x29,[sp,#96]
	ldp	x22,x21,[sp,#160]
	ldp	x24,x23,[sp,#144]
	ldp	x26,x25,[sp,#128]
	ldp	x30,x27,[sp,#112]
	add	sp,sp,#192
	b	"rtp_841016a0_rtp_c::growing::put_status_of"
4:
	cmp	x20,#32
	b.hs	2f
	mov	x9,xzr
	b	3f
8:
	add	x9,x14,x3
	ldr	x12,[sp,#16]
	ldr	x13,[sp,#104]
	add	x9,x9,x8
	and	x10,x2,#0x18
	add	x11,x9,x11
	add	x12,x12,x23
	and	x9,x2,#0xe0
	add	x13,x11,x13
	add	x11,x12,#16
	add	x12,x13,#32
	and	x13,x2,#0xe0
4:
	ldp	q0,q1,[x11,#-16]
	subs	x13,x13,#32
	add	x11,x11,#32
	stp	q0,q1,[x12,#-16]
	add	x12,x12,#32
	b.ne	4b
	cmp	x2,x9
	b.eq	18f
	cbz	x10,21f
10:
	mov	x10,x9
	add	x9,x14,x3
	and	x11,x16,#0xf
	add	x9,x9,x10
	ldr	x12,[sp,#16]
	ldr	x13,[sp,#104]
	add	x9,x9,x8
	add	x11,x9,x11,lsl #2
	and	x9,x2,#0xf8
	add	x12,x12,x10
	sub	x10,x10,x9
	add	x13,x11,x13
	add	x11,x23,x12
	add	x12,x13,#16
4:
	ldr	d0,[x11],#8
	adds	x10,x10,#8
	str	d0,[x12],#8
	b.ne	4b
	cmp	x2,x9
	b.eq	18f
21:
	add	x10,x14,x9
	ldr	x11,[sp,#104]
	add	x10,x10,x3
	add	x8,x10,x8
	and	x10,x16,#0xf
	add	x8,x8,x10,lsl #2
	ldr	x10,[sp,#16]
	add	x10,x10,x9
	add	x11,x8,x11
	sub	x8,x2,x9
	add	x9,x23,x10
	add	x10,x11,#16
4:
	ldrb	w11,[x9],#1
	subs	x8,x8,#1
	strb	w11,[x10],#1
	b.ne	4b
18:
	add	x8,x27,x21
	subs	x9,x17,x8
	b.ls	4f
	subs	x19,x9,#1
	b.le	5f
	cmp	x9,#2
	b.eq	8f
	cmp	x9,#3
	b.eq	9f
10:
	cmp	x9,#4
	b.ne	11f
	str	wzr,[x24,x8]
	b	4f
5:
	cbz	x9,4f
	cmp	x9,#1
	b.ne	11f
5:
	strb	wzr,[x24,x8]
	b	4f
2:
	ldr	x9,[sp,#32]
	ldr	x13,[sp,#104]
	add	x12,x15,x23
	and	x10,x20,#0x18
	add	x9,x9,x8
	add	x11,x9,x11
	and	x9,x20,#0xe0
	add	x13,x11,x13
	add	x11,x12,#16
	add	x12,x13,#32
	and	x13,x20,#0xe0
2:
	ldp	q0,q1,[x11,#-16]
	subs	x13,x13,#32
	add	x11,x11,#32
	stp	q0,q1,[x12,#-16]
	add	x12,x12,#32
	b.ne	2b
	cmp	x20,x9
	b.eq	15f
	cbz	x10,6f
3:
	mov	x10,x9
	ldr	x9,[sp,#32]
	and	x11,x16,#0xf
	ldr	x13,[sp,#104]
	add	x12,x15,x10
	add	x9,x9,x10
	add	x9,x9,x8
	add	x11,x9,x11,lsl #2
	and	x9,x20,#0xf8
	sub	x10,x10,x9
	add	x13,x11,x13
	add	x11,x23,x12
	add	x12,x13,#16
2:
	ldr	d0,[x11],#8
	adds	x10,x10,#8
	str	d0,[x12],#8
	b.ne	2b
	cmp	x20,x9
	b.eq	15f
6:
	ldr	x10,[sp,#32]
	ldr	x11,[sp,#104]
	add	x10,x10,x9
	add	x8,x10,x8
	and	x10,x16,#0xf
	add	x8,x8,x10,lsl #2
	add	x10,x15,x9
	add	x11,x8,x11
	sub	x8,x20,x9
	add	x9,x23,x10
	add	x10,x11,#16
2:
	ldrb	w11,[x9],#1
	subs	x8,x8,#1
	strb	w11,[x10],#1
	b.ne	2b
15:
	add	x8,x19,x20
	subs	x9,x17,x8
	b.ls	4f
	subs	x19,x9,#1
	b.le	2f
	cmp	x9,#2
	b.eq	8f
	cmp	x9,#3
	b.ne	10b
9:
	add	x8,x24,x8
	strb	wzr,[x8,#2]
	strh	wzr,[x8]
	b	4f
8:
	strh	wzr,[x24,x8]
	b	4f
2:
	cbz	x9,4f
	cmp	x9,#1
	b.eq	5b
11:
	add	x20,x24,x8
	mov	w1,wzr
	mov	x2,x19
	mov	x0,x20
	bl	memset
	strb	wzr,[x20,x19]
4:
	ldr	x8,[sp,#72]
	mov	w0,wzr
	str	x29,[x8]
1:
	ldp	x20,x19,[sp,#176]
	ldr	x29,[sp,#96]
	ldp	x22,x21,[sp,#160]
	ldp	x24,x23,[sp,#144]
	ldp	x26,x25,[sp,#128]
	ldp	x30,x27,[sp,#112]
	add	sp,sp,#192
	ret
16:
	mov	x1,x25
	mov	x6,x24
	ldr	x24,[sp]
	ldr	x25,[sp,#48]
	mov	x4,x23
	mov	x13,x29
	mov	x14,x22
	mov	x5,x20
	mov	w20,w27
	mov	x12,x21
	mov	x27,x26
	b	20b
7:
	and	x8,x27,#0x1f
	b	14b
22:
	mov	x1,x25
	ldr	x6,[sp,#32]
	ldr	x25,[sp,#48]
	mov	x4,x23
	mov	x13,x29
	mov	x14,x27
	mov	x5,x20
	mov	w20,w22
	mov	x12,x21
	mov	x27,x26
	b	20b
	.size	rtp_841016a0_rtp_proved_add_element,.-rtp_841016a0_rtp_proved_add_element
	.cfi_endproc

	.section	.text.rtpw_change_form,"ax",@progbits
	.globl	rtp_841016a0_rtpw_change_form
	.p2align	2
	.type	rtp_841016a0_rtpw_change_form,@function
rtp_841016a0_rtpw_change_form:
	.cfi_startproc
	sub	sp,sp,#80
	stp	x30,x19,[sp,#64]
	.cfi_def_cfa_offset 80
	.cfi_offset w19,-8
	.cfi_offset w30,-16
	cmp	x0,#0
	mov	w9,#4096
	and	w8,w3,#0xff
	mov	x19,x2
	csel	x9,x9,xzr,eq
	cmp	w8,#1
	b.eq	1f
	cmp	w8,#2
	b.ne	2f
	mov	w2,#1
	ldr	x8,[x19]
	stp	xzr,xzr,[sp]
	str	xzr,[sp,#16]
	cmp	x1,x8
	b.lo	3f
4:
	cmp	x8,#12
	b.lo	5f
	add	x9,x0,x9
	ldrsb	w10,[x9]
	cmn	w10,#65
	b.gt	6f
	and	x11,x10,#0xff
	ubfiz	x10,x11,#2,#4
	add	x10,x10,#12
	subs	x12,x8,x10
	b.lo	7f
	tbnz	w11,#4,8f
	mov	x11,xzr
	b	9f
1:
	mov	w2,wzr
	ldr	x8,[x19]
	stp	xzr,xzr,[sp]
	str	xzr,[sp,#16]
	cmp	x1,x8
	b.hs	4b
3:
	mov	x0,xzr
	lsr	x1,xzr,#8
	ldp	x30,x19,[sp,#64]
	add	sp,sp,#80
	b	"rtp_841016a0_rtp_c::growing::put_status_of"
2:
	mov	w0,#9
	ldp	x30,x19,[sp,#64]
	add	sp,sp,#80
	ret
8:
	subs	x13,x12,#4
	b.lo	1f
	add	x12,x9,x10
	ldrb	w11,[x12,#2]
	ldrb	w14,[x12,#3]
	lsl	x11,x11,#10
	orr	x11,x11,x14,lsl #2
	cmp	x13,x11
	b.lo	2f
	ldrh	w12,[x12]
	mov	w13,#57022
	add	x10,x10,x11
	add	x10,x10,#4
	cmp	w12,w13
	and	w12,w12,#0xfffff0ff
	cset	w13,eq
	cmp	w12,#16
	mov	w12,#256
	csinc	w11,w13,wzr,ne
	csel	x12,x12,xzr,eq
	orr	x11,x12,x11
9:
	stp	x8,x10,[sp,#40]
	lsr	x8,x11,#8
	mov	x0,sp
	stp	x9,x1,[sp,#24]
	add	x1,sp,#24
	strb	w11,[sp,#56]
	strb	w8,[sp,#57]
	stur	wzr,[sp,#58]
	strh	wzr,[sp,#62]
	bl	"rtp_841016a0_rtp_wire::packet::rtp_packet_buf::RtpPacketBuf::change_form"
	ldrb	w8,[sp]
	cbnz	w8,3f
	ldr	x8,[sp,#40]
	mov	w0,wzr
	str	x8,[x19]
	ldp	x30,x19,[sp,#64]
	add	sp,sp,#80
	ret
5:
	mov	w0,#3
	lsr	x1,x0,#8
	ldp	x30,x19,[sp,#64]
	add	sp,sp,#80
	b	"rtp_841016a0_rtp_c::growing::put_status_of"
6:
	mov	w0,#259
	lsr	x1,x0,#8
	ldp	x30,x19,[sp,#64]
	add	sp,sp,#80
	b	"rtp_841016a0_rtp_c::growing::put_status_of"
7:
	mov	w0,#515
	lsr	x1,x0,#8
	ldp	x30,x19,[sp,#64]
	add	sp,sp,#80
	b	"rtp_841016a0_rtp_c::growing::put_status_of"
3:
	ldrb	w1,[sp,#9]
	ldrb	w0,[sp,#8]
	ldp	x30,x19,[sp,#64]
	add	sp,sp,#80
	b	"rtp_841016a0_rtp_c::growing::put_status_of"
1:
	mov	w0,#771
	lsr	x1,x0,#8
	ldp	x30,x19,[sp,#64]
	add	sp,sp,#80
	b	"rtp_841016a0_rtp_c::growing::put_status_of"
2:
	mov	w0,#1027
	lsr	x1,x0,#8
	ldp	x30,x19,[sp,#64]
	add	sp,sp,#80
	b	"rtp_841016a0_rtp_c::growing::put_status_of"
	.size	rtp_841016a0_rtpw_change_form,.-rtp_841016a0_rtpw_change_form
	.cfi_endproc

	.section	.text.rtpw_compact,"ax",@progbits
	.globl	rtp_841016a0_rtpw_compact
	.p2align	2
	.type	rtp_841016a0_rtpw_compact,@function
rtp_841016a0_rtpw_compact:
	.cfi_startproc
	stp	x30,x25,[sp,#-64]!
	stp	x24,x23,[sp,#16]
	stp	x22,x21,[sp,#32]
	stp	x20,x19,[sp,#48]
	.cfi_def_cfa_offset 64
	.cfi_offset w19,-8
	.cfi_offset w20,-16
	.cfi_offset w21,-24
	.cfi_offset w22,-32
	.cfi_offset w23,-40
	.cfi_offset w24,-48
	.cfi_offset w25,-56
	.cfi_offset w30,-64
	ldr	x19,[x2]
	cmp	x0,#0
	mov	w8,#4096
	csel	x8,x8,xzr,eq
	cmp	x1,x19
	b.hs	1f
	mov	w0,#9
	ldp	x20,x19,[sp,#48]
	ldp	x22,x21,[sp,#32]
	ldp	x24,x23,[sp,#16]
	ldp	x30,x25,[sp],#64
	ret
1:
	cmp	x19,#12
	b.hs	1f
	mov	w0,#1
	ldp	x20,x19,[sp,#48]
	ldp	x22,x21,[sp,#32]
	ldp	x24,x23,[sp,#16]
	ldp	x30,x25,[sp],#64
	ret
1:
	add	x20,x0,x8
	ldrsb	w8,[x20]
	cmn	w8,#65
	b.gt	1f
	and	x8,x8,#0xff
	ubfiz	x9,x8,#2,#4
	add	x9,x9,#12
	subs	x10,x19,x9
	b.hs	2f
	mov	w0,#3
	ldp	x20,x19,[sp,#48]
	ldp	x22,x21,[sp,#32]
	ldp	x24,x23,[sp,#16]
	ldp	x30,x25,[sp],#64
	ret
1:
	mov	w0,#2
	ldp	x20,x19,[sp,#48]
	ldp	x22,x21,[sp,#32]
	ldp	x24,x23,[sp,#16]
	ldp	x30,x25,[sp],#64
	ret
2:
	tbnz	w8,#4,1f
2:
	mov	w0,wzr
	str	x19,[x2]
	ldp	x20,x19,[sp,#48]
	ldp	x22,x21,[sp,#32]
	ldp	x24,x23,[sp,#16]
	ldp	x30,x25,[sp],#64
	ret
1:
	subs	x10,x10,#4
	b.hs	1f
	mov	w0,#4
	ldp	x20,x19,[sp,#48]
	ldp	x22,x21,[sp,#32]
	ldp	x24,x23,[sp,#16]
	ldp	x30,x25,[sp],#64
	ret
1:
	add	x23,x20,x9
	ldrb	w8,[x23,#2]
	ldrb	w11,[x23,#3]
	lsl	x8,x8,#10
	orr	x8,x8,x11,lsl #2
	cmp	x10,x8
	b.hs	1f
	mov	w0,#6
	ldp	x20,x19,[sp,#48]
	ldp	x22,x21,[sp,#32]
	ldp	x24,x23,[sp,#16]
	ldp	x30,x25,[sp],#64
	ret
1:
	ldrh	w10,[x23]
	mov	w11,#57022
	cmp	w10,w11
	and	w10,w10,#0xfffff0ff
	b.eq	1f
	cmp	w10,#16
	b.ne	2b
1:
	cmp	w10,#16
	add	x22,x9,#4
	mov	x24,x2
	cset	w0,eq
	add	x1,x20,x22
	mov	x2,x8
	add	x21,x8,x22
	bl	"rtp_841016a0_rtp_ext::gathering::compact_body"
	add	x25,x0,#3
	mov	x0,x20
	mov	x1,x21
	and	x8,x25,#0xfffffffffffffffc
	mov	x2,x19
	add	x22,x8,x22
	mov	x3,x22
	bl	"rtp_841016a0_rtp_wire::packet::resizing::move_bytes"
	lsl	w8,w25,#6
	sub	x9,x19,x21
	mov	x2,x24
	add	x19,x9,x22
	bfxil	w8,w25,#10,#8
	strh	w8,[x23,#2]
	b	2b
	.size	rtp_841016a0_rtpw_compact,.-rtp_841016a0_rtpw_compact
	.cfi_endproc

	.section	.text.rtpw_from_retransmission,"ax",@progbits
	.globl	rtp_841016a0_rtpw_from_retransmission
	.p2align	2
	.type	rtp_841016a0_rtpw_from_retransmission,@function
rtp_841016a0_rtpw_from_retransmission:
	.cfi_startproc
	cmp	x0,#0
	mov	w8,#4096
	csel	x9,x8,xzr,eq
	tbnz	w4,#7,1f
	sub	sp,sp,#368
	str	x29,[sp,#288]
	stp	x30,x25,[sp,#304]
	stp	x24,x23,[sp,#320]
	stp	x22,x21,[sp,#336]
	stp	x20,x19,[sp,#352]
	.cfi_def_cfa_offset 368
	.cfi_offset w19,-8
	.cfi_offset w20,-16
	.cfi_offset w21,-24
	.cfi_offset w22,-32
	.cfi_offset w23,-40
	.cfi_offset w24,-48
	.cfi_offset w25,-56
	.cfi_offset w30,-64
	.cfi_offset w29,-80
	ldur	q0,[x5,#193]
	mov	x8,sp
	ldur	q1,[x5,#209]
	strb	wzr,[sp]
	stur	q0,[x8,#193]
	ldur	q0,[x5,#225]
	stur	q1,[x8,#209]
	ldr	q1,[x5,#240]
	stur	q0,[x8,#225]
	ldur	q0,[x5,#129]
	str	q1,[sp,#240]
	ldur	q1,[x5,#145]
	stur	q0,[x8,#129]
	ldur	q0,[x5,#161]
	stur	q1,[x8,#145]
	ldur	q1,[x5,#177]
	stur	q0,[x8,#161]
	ldur	q0,[x5,#65]
	stur	q1,[x8,#177]
	ldur	q1,[x5,#81]
	ldr	x8,[x2]
	stur	q0,[sp,#65]
	ldur	q0,[x5,#97]
	stur	q1,[sp,#81]
	ldur	q1,[x5,#113]
	cmp	x1,x8
	stur	q0,[sp,#97]
	ldur	q0,[x5,#1]
	stur	q1,[sp,#113]
	ldur	q1,[x5,#17]
	stur	q0,[sp,#1]
	ldur	q0,[x5,#33]
	stur	q1,[sp,#17]
	stur	q0,[sp,#33]
	ldur	q0,[x5,#49]
	stur	q0,[sp,#49]
	b.hs	2f
3:
	mov	w0,#9
	b	4f
1:
	mov	w0,#9
	ret
2:
	cmp	x8,#12
	b.hs	1f
	mov	w0,#1
	b	4f
1:
	add	x19,x0,x9
	ldrsb	w9,[x19]
	cmn	w9,#65
	b.gt	1f
	and	x9,x9,#0xff
	ubfiz	x10,x9,#2,#4
	add	x20,x10,#12
	subs	x21,x8,x20
	b.hs	2f
	mov	w0,#3
	b	4f
1:
	mov	w0,#2
4:
	ldp	x20,x19,[sp,#352]
	ldr	x29,[sp,#288]
	ldp	x22,x21,[sp,#336]
	ldp	x24,x23,[sp,#320]
	ldp	x30,x25,[sp,#304]
	add	sp,sp,#368
	ret
2:
	tbnz	w9,#4,1f
	mov	w11,wzr
	mov	w10,wzr
	tbz	w9,#5,2f
5:
	cmp	x8,x20
	b.eq	6f
	add	x8,x19,x8
	ldurb	w8,[x8,#-1]
	subs	x21,x21,x8
	b.lo	3b
	b	2f
1:
	subs	x12,x21,#4
	b.hs	1f
	mov	w0,#4
	b	4b
1:
	add	x11,x19,x20
	ldrb	w10,[x11,#2]
	ldrb	w13,[x11,#3]
	lsl	x10,x10,#10
	orr	x10,x10,x13,lsl #2
	cmp	x12,x10
	b.hs	1f
	mov	w0,#6
	b	4b
1:
	ldrh	w11,[x11]
	add	x13,x20,x10
	add	x20,x13,#4
	and	w12,w11,#0xfffff0ff
	sub	x21,x8,x20
	cmp	w12,#16
	mov	w12,#57022
	cset	w10,eq
	cmp	w11,w12
	csinc	w11,w10,wzr,ne
	tbnz	w9,#5,5b
2:
	cmp	x21,#2
	b.lo	6f
	ldrh	w25,[x19,x20]
	add	x0,sp,#256
	mov	x1,sp
	mov	w24,w4
	mov	w23,w3
	mov	x22,x2
	stp	x19,x20,[sp,#256]
	stp	x20,xzr,[sp,#272]
	strb	w11,[sp,#280]
	strb	w10,[sp,#281]
	bl	"rtp_841016a0_rtp_wire::packet::rtp_packet_mut::RtpPacketMut::renumber"
	cbz	w0,1f
	ldrb	w8,[x19]
	mov	w9,#128
	ldrb	w10,[x19,#1]
	subs	x2,x21,#2
	strh	w25,[x19,#2]
	bfxil	w9,w8,#0,#5
	and	w8,w10,#0x80
	orr	w8,w8,w24
	strb	w9,[x19]
	rev	w9,w23
	strb	w8,[x19,#1]
	str	w9,[x19,#8]
	b.eq	2f
	add	x0,x19,x20
	add	x1,x0,#2
	bl	memmove
2:
	add	x8,x20,x21
	mov	w0,wzr
	sub	x8,x8,#2
	str	x8,[x22]
	b	4b
6:
	mov	w0,#11
	b	4b
1:
	mov	w0,#16
	b	4b
	.size	rtp_841016a0_rtpw_from_retransmission,.-rtp_841016a0_rtpw_from_retransmission
	.cfi_endproc

	.section	.text.rtpw_parse,"ax",@progbits
	.globl	rtp_841016a0_rtpw_parse
	.p2align	2
	.type	rtp_841016a0_rtpw_parse,@function
rtp_841016a0_rtpw_parse:
	.cfi_startproc
	cmp	x0,#0
	mov	w8,#4096
	csel	x8,x8,xzr,eq
	cmp	x1,#12
	b.hs	1f
	mov	w0,#1
	ret
1:
	add	x9,x0,x8
	ldrsb	w8,[x9]
	cmn	w8,#65
	b.gt	1f
	and	x10,x8,#0xff
	ubfiz	x11,x10,#2,#4
	add	x8,x11,#12
	subs	x12,x1,x8
	b.hs	2f
	mov	w0,#3
	ret
1:
	mov	w0,#2
	ret
2:
	mov	x4,x3
	tbnz	w10,#4,1f
	mov	w3,wzr
2:
	str	x8,[x4]
	movi	v0.2d,#0000000000000000
	ldr	w11,[x9,#4]
	rev	w11,w11
	str	w11,[x4,#8]
	ldr	w11,[x9,#8]
	rev	w11,w11
	str	w11,[x4,#12]
	mov	x11,x4
	ldrb	w12,[x9]
	str	q0,[x11,#16]!
	stur	q0,[x11,#44]
	and	x13,x12,#0xf
	stp	q0,q0,[x11,#16]
	cbz	w13,3f
	mov	x12,xzr
	add	x14,x9,#12
4:
	ldr	w15,[x14,x12,lsl #2]
	rev	w15,w15
	str	w15,[x11,x12,lsl #2]
	add	x12,x12,#1
	cmp	x13,x12
	b.ne	4b
	b	4f
1:
	subs	x14,x12,#4
	b.hs	1f
	mov	w0,#4
	ret
1:
	add	x13,x9,x8
	ldrb	w12,[x13,#2]
	ldrb	w15,[x13,#3]
	lsl	x12,x12,#10
	orr	x12,x12,x15,lsl #2
	cmp	x14,x12
	b.hs	1f
	add	x8,x9,w11,uxtw
	ldrh	w8,[x8,#12]
	and	w9,w8,#0xfffff0ff
	cmp	w9,#16
	mov	w9,#57022
	ccmp	w8,w9,#4,ne
	mov	w8,#5
	cinc	w0,w8,eq
	ret
3:
	mov	w12,wzr
4:
	strb	w12,[x4,#79]
	ldrh	w11,[x9,#2]
	rev	w11,w11
	lsr	w11,w11,#16
	strh	w11,[x4,#76]
	ldrb	w11,[x9,#1]
	and	w11,w11,#0x7f
	strb	w11,[x4,#78]
	ldrb	w11,[x9,#1]
	lsr	w11,w11,#7
	strb	w11,[x4,#80]
	ldrb	w11,[x9]
	ubfx	w11,w11,#5,#1
	strb	w11,[x4,#81]
	ldrb	w11,[x9]
	ubfx	w11,w11,#4,#1
	strb	w11,[x4,#82]
	tbnz	w10,#4,3f
	movi	v0.2d,#0000000000000000
	mov	w0,wzr
	str	xzr,[x4,#216]
	stur	q0,[x4,#200]
	stur	q0,[x4,#184]
	stur	q0,[x4,#168]
	stur	q0,[x4,#152]
	stur	q0,[x4,#136]
	stur	q0,[x4,#120]
	stur	q0,[x4,#104]
	stur	q0,[x4,#88]
	ret
3:
	str	x30,[sp,#-16]!
	.cfi_def_cfa_offset 16
	.cfi_offset w30,-16
	ldrb	w10,[x9]
	movi	v0.2d,#0000000000000000
	mov	x0,x2
	ubfiz	x10,x10,#2,#4
	add	x10,x10,#16
	str	q0,[x4,#88]!
	sub	x8,x8,x10
	add	x1,x9,x10
	str	xzr,[x4,#128]
	mov	x2,x8
	stp	q0,q0,[x4,#32]
	stp	q0,q0,[x4,#64]
	stp	q0,q0,[x4,#96]
	str	q0,[x4,#16]
	bl	"rtp_841016a0_rtp_ext::block_values::read_values::<#9a3a19c0cce455e9>"
	mov	w0,wzr
	ldr	x30,[sp],#16
	ret
1:
	ldrh	w11,[x13]
	mov	w13,#57022
	cmp	w11,w13
	and	w11,w11,#0xfffff0ff
	cset	w13,ne
	cmp	w11,#16
	cset	w3,eq
	eor	w11,w13,w3
	tbz	w11,#0,1f
	mov	w0,#5
	ret
1:
	add	x8,x8,x12
	add	x8,x8,#4
	b	2b
	.size	rtp_841016a0_rtpw_parse,.-rtp_841016a0_rtpw_parse
	.cfi_endproc

	.section	.text.rtpw_parse_layers,"ax",@progbits
	.globl	rtp_841016a0_rtpw_parse_layers
	.p2align	2
	.type	rtp_841016a0_rtpw_parse_layers,@function
rtp_841016a0_rtpw_parse_layers:
	.cfi_startproc
	mov	w8,#4096
	cmp	x0,#0
	csel	x8,x8,xzr,eq
	cmp	x1,#12
	b.hs	1f
	mov	w0,#1
	ret
1:
	add	x11,x0,x8
	ldrsb	w8,[x11]
	cmn	w8,#65
	b.gt	1f
	and	x12,x8,#0xff
	ubfiz	x8,x12,#2,#4
	add	x10,x8,#12
	subs	x9,x1,x10
	b.hs	2f
	mov	w0,#3
	ret
1:
	mov	w0,#2
	ret
2:
	tbnz	w12,#4,1f
	mov	w8,wzr
2:
	str	x10,[x3]
	movi	v0.2d,#0000000000000000
	ldr	w9,[x11,#4]
	rev	w9,w9
	str	w9,[x3,#8]
	ldr	w9,[x11,#8]
	rev	w9,w9
	str	w9,[x3,#12]
	mov	x9,x3
	ldrb	w13,[x11]
	str	q0,[x9,#16]!
	stur	q0,[x9,#44]
	and	x14,x13,#0xf
	stp	q0,q0,[x9,#16]
	cbz	w14,3f
	mov	x13,xzr
	add	x15,x11,#12
4:
	ldr	w16,[x15,x13,lsl #2]
	rev	w16,w16
	str	w16,[x9,x13,lsl #2]
	add	x13,x13,#1
	cmp	x14,x13
	b.ne	4b
	b	4f
1:
	subs	x14,x9,#4
	b.hs	1f
	mov	w0,#4
	ret
1:
	add	x13,x11,x10
	ldrb	w9,[x13,#2]
	ldrb	w15,[x13,#3]
	lsl	x9,x9,#10
	orr	x9,x9,x15,lsl #2
	cmp	x14,x9
	b.hs	1f
	add	x8,x11,w8,uxtw
	ldrh	w8,[x8,#12]
	and	w9,w8,#0xfffff0ff
	cmp	w9,#16
	mov	w9,#57022
	ccmp	w8,w9,#4,ne
	mov	w8,#5
	cinc	w0,w8,eq
	ret
3:
	mov	w13,wzr
4:
	str	x30,[sp,#-32]!
	stp	x20,x19,[sp,#16]
	.cfi_def_cfa_offset 32
	.cfi_offset w19,-8
	.cfi_offset w20,-16
	.cfi_offset w30,-32
	strb	w13,[x3,#79]
	ldrh	w9,[x11,#2]
	rev	w9,w9
	lsr	w9,w9,#16
	strh	w9,[x3,#76]
	ldrb	w9,[x11,#1]
	and	w9,w9,#0x7f
	strb	w9,[x3,#78]
	ldrb	w9,[x11,#1]
	lsr	w9,w9,#7
	strb	w9,[x3,#80]
	ldrb	w9,[x11]
	ubfx	w13,w9,#5,#1
	mov	x9,x3
	strb	w13,[x3,#81]
	ldrb	w13,[x11]
	str	q0,[x9,#88]!
	stp	q0,q0,[x9,#16]
	ubfx	w13,w13,#4,#1
	stp	q0,q0,[x9,#48]
	stp	q0,q0,[x9,#80]
	str	q0,[x9,#112]
	sturb	w13,[x9,#-6]
	str	xzr,[x9,#128]
	tbnz	w12,#4,3f
	mov	x0,x4
	b	4f
3:
	ldrb	w12,[x11]
	mov	x20,x3
	mov	x0,x2
	mov	w3,w8
	mov	x5,x4
	mov	x4,x9
	ubfiz	x12,x12,#2,#4
	mov	x19,x5
	add	x12,x12,#16
	sub	x10,x10,x12
	add	x1,x11,x12
	mov	x2,x10
	bl	"rtp_841016a0_rtp_ext::block_values::read_apart::<#203c5bf9b6d6d505>"
	tbz	w0,#0,3f
	mov	w0,wzr
	mov	w8,#1
	strb	w8,[x20,#219]
	ldp	x20,x19,[sp,#16]
	ldr	x30,[sp],#32
	ret
3:
	mov	x0,x19
4:
	mov	w1,wzr
	mov	w2,#680
	bl	memset
	mov	w0,wzr
	ldp	x20,x19,[sp,#16]
	ldr	x30,[sp],#32
	ret
1:
	ldrh	w8,[x13]
	mov	w13,#57022
	cmp	w8,w13
	and	w8,w8,#0xfffff0ff
	cset	w13,ne
	cmp	w8,#16
	cset	w8,eq
	eor	w13,w13,w8
	tbz	w13,#0,1f
	mov	w0,#5
	ret
1:
	add	x9,x10,x9
	add	x10,x9,#4
	b	2b
	.size	rtp_841016a0_rtpw_parse_layers,.-rtp_841016a0_rtpw_parse_layers
	.cfi_endproc

	.section	.text.rtpw_parse_many,"ax",@progbits
	.globl	rtp_841016a0_rtpw_parse_many
	.p2align	2
	.type	rtp_841016a0_rtpw_parse_many,@function
rtp_841016a0_rtpw_parse_many:
	.cfi_startproc
	mov	w9,#4096
	cmp	x0,#0
	csel	x8,x9,xzr,eq
	cmp	x3,#0
	csel	x9,x9,xzr,eq
	cbz	x4,1f
	stp	x30,x27,[sp,#-80]!
	stp	x26,x25,[sp,#16]
	stp	x24,x23,[sp,#32]
	stp	x22,x21,[sp,#48]
	stp	x20,x19,[sp,#64]
	.cfi_def_cfa_offset 80
	.cfi_offset w19,-8
	.cfi_offset w20,-16
	.cfi_offset w21,-24
	.cfi_offset w22,-32
	.cfi_offset w23,-40
	.cfi_offset w24,-48
	.cfi_offset w25,-56
	.cfi_offset w26,-64
	.cfi_offset w27,-72
	.cfi_offset w30,-80
	add	x10,x9,x3
	mov	x19,xzr
	add	x20,x0,x8
	add	x21,x3,x9
	add	x22,x10,#32
	b	2f
3:
	mov	w8,#9
	strb	wzr,[x23,#244]
	str	w8,[x23,#240]
4:
	add	x19,x19,#1
	add	x22,x22,#248
	cmp	x19,x4
	b.eq	5f
2:
	mov	w8,#248
	madd	x23,x19,x8,x21
	ldp	x8,x10,[x23]
	subs	x9,x1,x8
	ccmp	x9,x10,#0,hs
	b.lo	3b
	cmp	x10,#12
	add	x24,x20,x8
	b.hs	2f
	mov	w8,#1
	cmp	x10,#2
	str	w8,[x23,#240]
	b.hs	3f
	strb	wzr,[x23,#244]
	b	4b
2:
	ldrsb	w8,[x24]
	cmn	w8,#65
	b.gt	2f
	and	x8,x8,#0xff
	ubfiz	x11,x8,#2,#4
	add	x9,x11,#12
	subs	x10,x10,x9
	b.hs	6f
	mov	w8,#3
	str	w8,[x23,#240]
	b	3f
2:
	mov	w8,#2
	str	w8,[x23,#240]
	b	3f
6:
	tbnz	w8,#4,2f
	mov	w3,wzr
6:
	str	x9,[x23,#16]
	movi	v0.2d,#0000000000000000
	ldr	w10,[x24,#4]
	rev	w10,w10
	str	w10,[x23,#24]
	ldr	w10,[x24,#8]
	rev	w10,w10
	str	w10,[x23,#28]
	ldrb	w10,[x24]
	stur	q0,[x23,#76]
	stp	q0,q0,[x23,#48]
	and	x11,x10,#0xf
	str	q0,[x23,#32]
	cbz	w11,7f
	mov	x10,xzr
	add	x12,x24,#12
8:
	ldr	w13,[x12,x10,lsl #2]
	rev	w13,w13
	str	w13,[x22,x10,lsl #2]
	add	x10,x10,#1
	cmp	x11,x10
	b.ne	8b
	b	8f
2:
	subs	x13,x10,#4
	b.hs	2f
	mov	w8,#4
	str	w8,[x23,#240]
	b	3f
2:
	add	x12,x24,x9
	ldrb	w10,[x12,#2]
	ldrb	w14,[x12,#3]
	lsl	x10,x10,#10
	orr	x10,x10,x14,lsl #2
	cmp	x13,x10
	b.hs	2f
	add	x8,x24,w11,uxtw
	ldrh	w8,[x8,#12]
	and	w9,w8,#0xfffff0ff
	cmp	w9,#16
	mov	w9,#57022
	ccmp	w8,w9,#4,ne
	mov	w8,#5
	cinc	w8,w8,eq
	str	w8,[x23,#240]
	b	3f
7:
	mov	w10,wzr
8:
	strb	w10,[x23,#95]
	movi	v0.2d,#0000000000000000
	ldrh	w10,[x24,#2]
	rev	w10,w10
	lsr	w10,w10,#16
	strh	w10,[x23,#92]
	ldrb	w10,[x24,#1]
	and	w10,w10,#0x7f
	strb	w10,[x23,#94]
	ldrb	w10,[x24,#1]
	lsr	w10,w10,#7
	strb	w10,[x23,#96]
	ldrb	w10,[x24]
	ubfx	w10,w10,#5,#1
	strb	w10,[x23,#97]
	ldrb	w10,[x24]
	ubfx	w10,w10,#4,#1
	strb	w10,[x23,#98]
	tbnz	w8,#4,7f
	str	xzr,[x23,#232]
	stur	q0,[x23,#216]
	stur	q0,[x23,#200]
	stur	q0,[x23,#184]
	stur	q0,[x23,#168]
	stur	q0,[x23,#152]
	stur	q0,[x23,#136]
	stur	q0,[x23,#120]
	stur	q0,[x23,#104]
	b	8f
7:
	ldrb	w10,[x24]
	mov	x8,x23
	mov	x25,x1
	str	q0,[x8,#104]!
	mov	x0,x2
	ubfiz	x10,x10,#2,#4
	mov	x26,x2
	mov	x27,x4
	mov	x4,x8
	str	xzr,[x8,#128]
	add	x10,x10,#16
	stp	q0,q0,[x8,#32]
	sub	x9,x9,x10
	add	x1,x24,x10
	stp	q0,q0,[x8,#64]
	mov	x2,x9
	stp	q0,q0,[x8,#96]
	str	q0,[x8,#16]
	bl	"rtp_841016a0_rtp_ext::block_values::read_values::<#9a3a19c0cce455e9>"
	mov	x1,x25
	mov	x2,x26
	mov	x4,x27
8:
	str	wzr,[x23,#240]
3:
	ldrsb	w8,[x24]
	ldrb	w9,[x24,#1]
	cmn	w8,#64
	and	w8,w9,#0xe0
	mov	w9,#192
	ccmp	w8,w9,#0,lt
	cset	w8,eq
	strb	w8,[x23,#244]
	b	4b
2:
	ldrh	w11,[x12]
	mov	w12,#57022
	cmp	w11,w12
	and	w11,w11,#0xfffff0ff
	cset	w12,ne
	cmp	w11,#16
	cset	w3,eq
	eor	w11,w12,w3
	tbz	w11,#0,2f
	mov	w8,#5
	str	w8,[x23,#240]
	b	3b
2:
	add	x9,x9,x10
	add	x9,x9,#4
	b	6b
5:
	ldp	x20,x19,[sp,#64]
	ldp	x22,x21,[sp,#48]
	ldp	x24,x23,[sp,#32]
	ldp	x26,x25,[sp,#16]
	ldp	x30,x27,[sp],#80
1:
	ret
	.size	rtp_841016a0_rtpw_parse_many,.-rtp_841016a0_rtpw_parse_many
	.cfi_endproc

	.section	.rodata.cst16,"aM",@progbits,16
	.p2align	4,0x0
.Lrtp_841016a0_CPI135_0:
	.byte	0
	.byte	8
	.byte	16
	.byte	24
	.byte	32
	.byte	40
	.byte	48
	.byte	56
	.byte	255
	.byte	255
	.byte	255
	.byte	255
	.byte	255
	.byte	255
	.byte	255
	.byte	255
	.section	.text.rtpw_prepare_group,"ax",@progbits
	.globl	rtp_841016a0_rtpw_prepare_group
	.p2align	2
	.type	rtp_841016a0_rtpw_prepare_group,@function
rtp_841016a0_rtpw_prepare_group:
	.cfi_startproc
	str	x29,[sp,#-64]!
	stp	x30,x23,[sp,#16]
	stp	x22,x21,[sp,#32]
	stp	x20,x19,[sp,#48]
	sub	sp,sp,#1392
	str	xzr,[sp]
	.cfi_def_cfa_offset 1456
	.cfi_offset w19,-8
	.cfi_offset w20,-16
	.cfi_offset w21,-24
	.cfi_offset w22,-32
	.cfi_offset w23,-40
	.cfi_offset w30,-48
	.cfi_offset w29,-64
	mov	w8,#4096
	cmp	x1,#0
	str	xzr,[sp,#16]
	csel	x11,x8,xzr,eq
	cmp	x2,#16
	mov	w8,#9
	b.hi	1f
	and	w9,w3,#0xff
	cmp	w9,#2
	b.hi	1f
	add	x12,x11,x1
	add	x9,sp,#1104
	add	x8,sp,#552
	add	x10,sp,#32
	add	x13,x12,#8
	add	x12,x2,#1
2:
	subs	x12,x12,#1
	b.eq	3f
	ldr	x14,[x13],#32
	cmp	x14,#256
	b.lo	2b
	mov	w8,#9
	b	1f
3:
	movi	v0.2d,#0000000000000000
	strh	wzr,[sp,#1100]
	stp	q0,q0,[x9,#32]
	stp	q0,q0,[x9,#64]
	stp	q0,q0,[x9,#96]
	stp	q0,q0,[x9,#128]
	stp	q0,q0,[x9,#160]
	stp	q0,q0,[x9,#192]
	stp	q0,q0,[x9,#224]
	stp	q0,q0,[x9,#256]
	cbz	x2,2f
	add	x13,x11,x1
	mov	x12,xzr
	add	x13,x13,#24
3:
	ldrb	w14,[x13],#32
	add	x15,sp,#1136
	ldrb	w16,[x15,x14]
	cbnz	w16,4f
	add	w16,w12,#1
	add	x12,x12,#1
	strb	w16,[x15,x14]
	cmp	x2,x12
	b.ne	3b
	add	x12,x11,x1
	mov	x13,x2
	add	x12,x12,#24
3:
	ldrb	w14,[x12]
	cbz	w14,5f
	ldur	x14,[x12,#-16]
	cmp	x14,#255
	b.hi	6f
	subs	x13,x13,#1
	add	x12,x12,#32
	b.ne	3b
	mov	x12,xzr
	cmp	x2,#9
	str	xzr,[sp,#1128]
	str	xzr,[sp,#1120]
	str	xzr,[sp,#1112]
	str	xzr,[sp,#1104]
	b.lo	3f
	ands	x12,x2,#0x7
	mov	w13,#8
	add	x14,sp,#1104
	csel	x12,x13,x12,eq
	add	x13,x11,x1
	add	x15,sp,#1120
	sub	x12,x2,x12
	add	x13,x13,#152
	mov	x16,x12
7:
	ldur	b0,[x13,#-128]
	sub	x17,x13,#96
	ldur	q5,[x13,#-112]
	ldur	q6,[x13,#-144]
	ldr	q4,[x13,#48]
	add	x5,x13,#80
	ld1	{ v0.b }[1],[x17]
	sub	x17,x13,#64
	ldur	q16,[x13,#-48]
	ldur	q17,[x13,#-80]
	ldr	q7,[x13,#16]
	zip1	v1.2d,v6.2d,v5.2d
	ldur	q18,[x13,#-16]
	adrp	x6,.Lrtp_841016a0_CPI135_0
	subs	x16,x16,#8
	ld1	{ v0.b }[2],[x17]
	sub	x17,x13,#32
	zip1	v2.2d,v17.2d,v16.2d
	zip1	v3.2d,v18.2d,v7.2d
	ldr	q5,[x6,:lo12:.Lrtp_841016a0_CPI135_0]
	ld1	{ v4.d }[1],[x5]
	ld1	{ v0.b }[3],[x17]
	add	x17,x13,#32
	tbl	v1.16b,{ v1.16b,v2.16b,v3.16b,v4.16b },v5.16b
	ld1	{ v0.b }[4],[x13]
	ld1	{ v0.b }[5],[x17]
	add	x17,x13,#64
	str	d1,[x14],#8
	ld1	{ v0.b }[6],[x17]
	add	x17,x13,#96
	add	x13,x13,#256
	ld1	{ v0.b }[7],[x17]
	str	d0,[x15],#8
	b.ne	7b
3:
	add	x13,x11,x12,lsl #5
	add	x14,sp,#1104
	add	x15,sp,#1120
	sub	x11,x2,x12
	add	x16,x13,x1
	add	x13,x14,x12
	add	x12,x15,x12
	add	x14,x16,#24
3:
	ldrb	w15,[x14]
	ldur	x16,[x14,#-16]
	subs	x11,x11,#1
	add	x14,x14,#32
	strb	w15,[x12],#1
	strb	w16,[x13],#1
	b.ne	3b
	b	3f
2:
	str	xzr,[sp,#1128]
	str	xzr,[sp,#1120]
	str	xzr,[sp,#1112]
	str	xzr,[sp,#1104]
3:
	ldur	q0,[x0,#193]
	ldur	q1,[x0,#209]
	add	x11,sp,#761
	ldur	q2,[x0,#225]
	mov	w19,w3
	mov	w20,wzr
	stur	q0,[x8,#193]
	ldur	q0,[x0,#129]
	stur	q1,[x8,#209]
	ldur	q1,[x0,#145]
	stur	q0,[x8,#129]
	ldur	q0,[x0,#161]
	stur	q1,[x8,#145]
	ldur	q1,[x0,#177]
	stur	q0,[x8,#161]
	ldur	q0,[x0,#65]
	stur	q1,[x8,#177]
	ldur	q1,[x0,#81]
	stur	q0,[x8,#65]
	ldur	q0,[x0,#97]
	stur	q1,[x8,#81]
	ldur	q1,[x0,#113]
	stur	q0,[x8,#97]
	ldur	q0,[x0,#1]
	stur	q1,[x8,#113]
	ldur	q1,[x0,#17]
	stur	q0,[x8,#1]
	ldur	q0,[x0,#33]
	stur	q1,[x8,#17]
	ldur	q1,[x0,#49]
	stur	q0,[x8,#33]
	stur	q1,[x8,#49]
	ldp	q0,q1,[x9,#240]
	stur	q2,[x8,#225]
	ldr	q2,[x9,#272]
	strh	wzr,[sp,#1096]
	stur	q0,[x11,#255]
	ldp	q3,q0,[x9,#176]
	add	x11,sp,#777
	strb	w2,[sp,#1098]
	stur	q1,[x11,#255]
	ldp	q4,q1,[x9,#208]
	add	x11,sp,#697
	strb	w3,[sp,#1099]
	stur	q3,[x11,#255]
	add	x11,sp,#713
	stur	q0,[x11,#255]
	add	x11,sp,#745
	stur	q1,[x11,#255]
	ldp	q0,q1,[x9,#112]
	add	x11,sp,#729
	stur	q4,[x11,#255]
	ldp	q4,q3,[x9,#144]
	add	x11,sp,#633
	stur	q0,[x11,#255]
	add	x11,sp,#649
	ldur	q0,[x0,#240]
	stur	q1,[x11,#255]
	add	x11,sp,#681
	stur	q3,[x11,#255]
	add	x11,sp,#665
	ldp	q1,q3,[x9,#32]
	stur	q4,[x11,#255]
	add	x11,sp,#537
	stur	q0,[x11,#255]
	add	x11,sp,#553
	ldp	q0,q4,[x9,#64]
	stur	q1,[x11,#255]
	add	x11,sp,#569
	ldr	q1,[x9,#96]
	stur	q3,[x11,#255]
	add	x11,sp,#585
	stur	q0,[x11,#255]
	add	x11,sp,#617
	stur	q1,[x11,#255]
	add	x11,sp,#601
	ldp	q1,q0,[x9]
	stur	q4,[x11,#255]
	add	x11,sp,#793
	stur	q2,[x11,#255]
	add	x11,sp,#809
	stur	q0,[x11,#255]
	add	x11,sp,#825
	stur	q1,[x11,#255]
	cbz	x2,2f
	add	x13,sp,#552
	mov	x14,xzr
	mov	w21,#1
	add	x11,x13,#256
	add	x12,x13,#512
	add	x13,x13,#528
3:
	ldrb	w16,[x12,x14]
	add	x17,x14,#1
	ldrb	w15,[x11,w16,uxtw]
	cmp	x17,x15
	b.ne	7f
	ldrb	w14,[x13,x14]
	sub	w16,w16,#1
	cmp	w16,#14
	sub	w17,w14,#1
	add	w20,w20,w14
	mov	x14,x15
	ccmp	w17,#16,#2,lo
	cset	w16,lo
	cmp	x2,x15
	and	w21,w16,w21
	b.ne	3b
	b	3f
2:
	mov	w21,#1
3:
	ldur	q0,[x0,#206]
	ldur	q1,[x0,#222]
	add	x11,sp,#32
	ldur	q2,[x0,#238]
	ldur	q3,[x0,#126]
	add	x12,x11,#226
	stp	q0,q1,[x10,#176]
	ldur	q0,[x0,#142]
	add	x1,sp,#32
	ldur	q1,[x0,#158]
	str	q2,[x10,#208]
	mov	x22,x2
	ldur	q2,[x0,#174]
	ldrh	w13,[x0,#254]
	mov	w2,#514
	stp	q0,q1,[x10,#112]
	ldur	q0,[x0,#190]
	mov	x23,x4
	ldur	q1,[x0,#78]
	strh	w13,[sp,#256]
	stp	q2,q0,[x10,#144]
	ldur	q0,[x0,#94]
	ldur	q2,[x0,#62]
	stp	q1,q0,[sp,#80]
	ldur	q1,[x0,#110]
	ldur	q0,[x0,#30]
	str	q2,[sp,#64]
	stp	q1,q3,[sp,#112]
	ldur	q1,[x0,#46]
	stp	q0,q1,[sp,#32]
	ldp	q0,q1,[x9,#224]
	stp	q0,q1,[x12,#192]
	ldp	q2,q0,[x9,#256]
	stp	q2,q0,[x12,#224]
	ldp	q1,q0,[x9,#160]
	stp	q1,q0,[x12,#128]
	ldp	q2,q0,[x9,#192]
	stp	q2,q0,[x12,#160]
	ldp	q1,q0,[x9,#96]
	stp	q1,q0,[x12,#64]
	ldp	q2,q0,[x9,#128]
	stp	q2,q0,[x12,#96]
	ldp	q1,q0,[x9,#64]
	stp	q1,q0,[x12,#32]
	ldp	q2,q0,[x9,#32]
	add	x12,x11,#482
	stur	q0,[x10,#242]
	ldp	q0,q1,[x9]
	stur	q2,[x10,#226]
	ldur	w10,[x0,#1]
	add	x9,x11,#498
	ldrh	w11,[x0,#20]
	str	q0,[x9]
	ldurb	w9,[x0,#5]
	str	w10,[sp,#1136]
	ldr	w10,[x0,#16]
	add	x0,x4,#30
	strb	w9,[sp,#1140]
	str	w10,[sp,#552]
	ldr	w10,[sp,#1136]
	strb	w9,[x4,#5]
	ldrh	w9,[sp,#566]
	strh	w11,[sp,#556]
	ldur	x11,[x8,#6]
	ldur	x8,[x8,#22]
	stur	w10,[x4,#1]
	ldr	w10,[sp,#552]
	strh	w9,[x4,#14]
	ldrh	w9,[sp,#556]
	str	q1,[x12]
	strb	wzr,[x4]
	stur	x11,[x4,#6]
	str	w10,[x4,#16]
	strh	w9,[x4,#20]
	stur	x8,[x4,#22]
	bl	memcpy
	mov	w8,wzr
	strh	w20,[x23,#544]
	strb	w22,[x23,#546]
	strb	w19,[x23,#547]
	strb	w21,[x23,#548]
	strb	wzr,[x23,#549]
1:
	mov	w0,w8
	add	sp,sp,#1392
	ldp	x20,x19,[sp,#48]
	ldp	x22,x21,[sp,#32]
	ldp	x30,x23,[sp,#16]
	ldr	x29,[sp],#64
	ret
4:
	mov	w8,wzr
	mov	w9,#1
	b	2f
5:
	mov	w8,#1
	b	3f
6:
	mov	w8,#2
3:
	mov	w9,#3
2:
	add	x0,sp,#8
	str	x9,[sp,#8]
	strb	w8,[sp,#16]
	strb	wzr,[sp,#17]
	str	xzr,[sp,#24]
	bl	"rtp_841016a0_rtp_c::template::not_routed_status"
	mov	w8,w0
	b	1b
7:
	brk	#0x1
	.size	rtp_841016a0_rtpw_prepare_group,.-rtp_841016a0_rtpw_prepare_group
	.cfi_endproc

	.section	.text.rtp_proved_put_block,"ax",@progbits
	.p2align	2
	.type	rtp_841016a0_rtp_proved_put_block,@function
rtp_841016a0_rtp_proved_put_block:
	.cfi_startproc
	sub	sp,sp,#128
	str	x29,[sp,#32]
	stp	x30,x27,[sp,#48]
	stp	x26,x25,[sp,#64]
	stp	x24,x23,[sp,#80]
	stp	x22,x21,[sp,#96]
	stp	x20,x19,[sp,#112]
	.cfi_def_cfa_offset 128
	.cfi_offset w19,-8
	.cfi_offset w20,-16
	.cfi_offset w21,-24
	.cfi_offset w22,-32
	.cfi_offset w23,-40
	.cfi_offset w24,-48
	.cfi_offset w25,-56
	.cfi_offset w26,-64
	.cfi_offset w27,-72
	.cfi_offset w30,-80
	.cfi_offset w29,-96
	cmp	x0,#0
	mov	w8,#4096
	mov	w9,#9
	csel	x22,x8,xzr,eq
	cmp	x4,#0
	csel	x21,x8,xzr,eq
	tst	x5,#0x3
	b.ne	1f
	ldr	x8,[x2]
	cmp	x1,x8
	b.lo	1f
	mov	w9,#262140
	cmp	x5,x9
	b.ls	2f
	mov	w9,#15
	b	1f
2:
	cmp	x8,#12
	b.lo	2f
	add	x20,x0,x22
	ldrsb	w9,[x20]
	cmn	w9,#65
	b.gt	3f
	and	x13,x9,#0xff
	ubfiz	x25,x13,#2,#4
	add	x9,x25,#12
	subs	x10,x8,x9
	b.lo	4f
	add	x26,x20,x9
	tbnz	w13,#4,5f
	add	x27,x9,#4
	add	x11,x27,x5
	add	x10,x11,x10
	cmp	x1,x10
	b.hs	6f
7:
	mov	w9,#8
	b	1f
5:
	subs	x10,x10,#4
	b.lo	5f
	ldrb	w11,[x26,#2]
	ldrb	w12,[x26,#3]
	lsl	x11,x11,#10
	orr	x11,x11,x12,lsl #2
	cmp	x10,x11
	b.lo	8f
	add	x27,x9,#4
	add	x9,x11,x27
	sub	x10,x8,x9
	add	x11,x27,x5
	add	x10,x11,x10
	cmp	x1,x10
	b.lo	7b
6:
	stp	x13,x0,[sp,#8]
	mov	x29,x2
	add	x0,x0,x22
	mov	w23,w3
	add	x3,x27,x5
	mov	x1,x9
	mov	x2,x8
	str	x10,[sp,#40]
	add	x19,x4,x21
	str	x4,[sp,#24]
	mov	x24,x5
	bl	"rtp_841016a0_rtp_wire::packet::resizing::move_bytes"
	lsl	w9,w24,#6
	rev	w8,w23
	add	x0,x20,x27
	lsr	w8,w8,#16
	sub	x10,x0,x19
	orr	w9,w9,w24,lsr #10
	cmp	x10,x24
	strh	w8,[x26]
	strh	w9,[x26,#2]
	b.hs	6f
	cmp	x24,#8
	mov	x8,x29
	b.hs	7f
	ldp	x10,x9,[sp,#16]
	mov	x11,xzr
	ldr	x16,[sp,#8]
	ldr	x17,[sp,#40]
	b	9f
6:
	mov	x1,x19
	mov	x2,x24
	bl	memmove
	ldr	x17,[sp,#40]
	mov	x8,x29
	b	6f
7:
	ldp	x16,x10,[sp,#8]
	ldr	x17,[sp,#40]
	add	x9,x22,x10
	add	x11,x9,x25
	ldr	x9,[sp,#24]
	add	x12,x21,x9
	sub	x11,x11,x12
	add	x11,x11,#16
	cmp	x11,#32
	b.hs	7f
	mov	x11,xzr
	b	9f
2:
	mov	w1,wzr
	b	2f
3:
	mov	w1,#1
	b	2f
4:
	mov	w1,#2
	b	2f
7:
	cmp	x24,#32
	b.hs	3f
	mov	x11,xzr
	b	4f
3:
	add	x13,x22,x25
	add	x14,x21,x9
	and	x12,x24,#0x18
	add	x15,x13,x10
	and	x11,x24,#0x3ffe0
	add	x13,x14,#16
	add	x14,x15,#32
	and	x15,x24,#0x3ffe0
3:
	ldp	q0,q1,[x13,#-16]
	subs	x15,x15,#32
	add	x13,x13,#32
	stp	q0,q1,[x14,#-16]
	add	x14,x14,#32
	b.ne	3b
	cmp	x24,x11
	b.eq	6f
	cbz	x12,9f
4:
	mov	x12,x11
	add	x11,x22,x11
	and	x13,x16,#0xf
	add	x13,x11,x13,lsl #2
	and	x11,x24,#0x3fff8
	add	x14,x21,x12
	sub	x12,x12,x11
	add	x15,x13,x10
	add	x13,x9,x14
	add	x14,x15,#16
3:
	ldr	d0,[x13],#8
	adds	x12,x12,#8
	str	d0,[x14],#8
	b.ne	3b
	cmp	x24,x11
	b.eq	6f
9:
	add	x12,x22,x11
	and	x13,x16,#0xf
	add	x12,x12,x13,lsl #2
	add	x13,x21,x11
	add	x9,x9,x13
	add	x12,x12,x10
	sub	x10,x24,x11
	add	x11,x12,#16
3:
	ldrb	w12,[x9],#1
	subs	x10,x10,#1
	strb	w12,[x11],#1
	b.ne	3b
6:
	ldrb	w10,[x20]
	mov	w9,wzr
	orr	w10,w10,#0x10
	strb	w10,[x20]
	str	x17,[x8]
1:
	ldp	x20,x19,[sp,#112]
	mov	w0,w9
	ldp	x22,x21,[sp,#96]
	ldr	x29,[sp,#32]
	ldp	x24,x23,[sp,#80]
	ldp	x26,x25,[sp,#64]
	ldp	x30,x27,[sp,#48]
	add	sp,sp,#128
	ret
5:
	mov	w1,#3
	b	2f
8:
	mov	w1,#4
2:
	ldp	x20,x19,[sp,#112]
	mov	w0,#3
	ldp	x22,x21,[sp,#96]
	ldr	x29,[sp,#32]
	ldp	x24,x23,[sp,#80]
	ldp	x26,x25,[sp,#64]
	ldp	x30,x27,[sp,#48]
	add	sp,sp,#128
	b	"rtp_841016a0_rtp_c::growing::put_status_of"
	.size	rtp_841016a0_rtp_proved_put_block,.-rtp_841016a0_rtp_proved_put_block
	.cfi_endproc

	.section	.text.rtp_proved_put_element,"ax",@progbits
	.p2align	2
	.type	rtp_841016a0_rtp_proved_put_element,@function
rtp_841016a0_rtp_proved_put_element:
	.cfi_startproc
	sub	sp,sp,#240
	stp	x29,x5,[sp,#144]
	stp	x30,x27,[sp,#160]
	stp	x26,x25,[sp,#176]
	stp	x24,x23,[sp,#192]
	stp	x22,x21,[sp,#208]
	stp	x20,x19,[sp,#224]
	.cfi_def_cfa_offset 240
	.cfi_offset w19,-8
	.cfi_offset w20,-16
	.cfi_offset w21,-24
	.cfi_offset w22,-32
	.cfi_offset w23,-40
	.cfi_offset w24,-48
	.cfi_offset w25,-56
	.cfi_offset w26,-64
	.cfi_offset w27,-72
	.cfi_offset w30,-80
	.cfi_offset w29,-96
	cmp	x0,#0
	mov	w8,#4096
	and	w9,w6,#0xff
	csel	x13,x8,xzr,eq
	cmp	x4,#0
	csel	x12,x8,xzr,eq
	cmp	w9,#2
	b.hi	1f
	ldr	x23,[x2]
	cmp	x1,x23
	b.lo	2f
	tst	w3,#0xff
	b.eq	3f
	ldr	x8,[sp,#152]
	cmp	x8,#255
	b.hi	4f
	cmp	x23,#12
	b.lo	5f
	add	x15,x0,x13
	ldrsb	w8,[x15]
	cmn	w8,#65
	b.gt	6f
	and	x8,x8,#0xff
	str	x8,[sp,#128]
	ubfiz	x8,x8,#2,#4
	add	x17,x8,#12
	str	x8,[sp,#112]
	subs	x8,x23,x17
	b.lo	7f
	ldr	x9,[sp,#128]
	add	x14,x15,x17
	tbnz	w9,#4,8f
	ldr	x8,[sp,#112]
	mov	w16,wzr
	add	x5,x8,#12
9:
	ldr	x8,[sp,#152]
	and	w9,w3,#0xff
	sub	x8,x8,#1
	cmp	x8,#16
	ccmp	w9,#15,#2,lo
	mov	w9,#253
	csinc	w8,w16,wzr,lo
	tst	w6,#0xff
	csinc	w10,w8,wzr,eq
	tst	w6,w9
	str	w10,[sp,#140]
	b.eq	10f
	cbnz	w8,11f
	str	wzr,[sp,#140]
10:
	ldr	x8,[sp,#128]
	add	x9,x0,x13
	str	x2,[sp,#80]
	str	x9,[sp,#96]
	stp	x12,x4,[sp,#40]
	str	w3,[sp,#108]
	tbnz	w8,#4,10f
	add	x8,x4,x12
	mov	w22,wzr
	mov	x29,xzr
	stp	xzr,x8,[sp,#64]
	add	x8,x15,x5
	mov	x19,xzr
	str	x8,[sp,#32]
	ldr	w8,[sp,#140]
	mov	w21,wzr
	str	xzr,[sp,#56]
	str	xzr,[sp,#120]
	str	w8,[sp,#92]
12:
	mov	w26,wzr
	mov	w8,#1
	mov	x9,x29
	and	w8,w8,#0xff
	cmp	w8,#1
	b.ne	13f
14:
	ldr	w8,[sp,#140]
	cmp	w8,#0
	mov	w8,#1
	cinc	x20,x8,ne
	ldr	x8,[sp,#152]
	add	x8,x8,x9
	ldr	x9,[sp,#120]
	add	x8,x8,x20
	add	x8,x8,#3
	and	x8,x8,#0xfffffffffffffffc
	cmp	x9,x8
	csel	x24,x9,x8,hi
	mov	w8,#262140
	cmp	x24,x8
	b.hi	15f
	add	x8,x17,x24
	add	x3,x8,#4
	sub	x8,x23,x5
	add	x8,x3,x8
	cmp	x1,x8
	b.lo	16f
	mov	x27,x0
	add	x0,x0,x13
	mov	x1,x5
	mov	x2,x23
	stp	x13,x8,[sp,#24]
	mov	x25,x14
	bl	"rtp_841016a0_rtp_wire::packet::resizing::move_bytes"
	mov	x17,x24
	mov	x11,x25
	lsl	w8,w17,#6
	and	w8,w8,#0xff00
	orr	w8,w8,w17,lsr #10
	strh	w8,[x25,#2]
	tbnz	w21,#0,17f
	ldr	x12,[sp,#96]
	ldr	w9,[sp,#140]
	mov	w10,#-8514
	ldrb	w8,[x12]
	cmp	w9,#0
	mov	w9,#16
	csel	w9,w10,w9,eq
	orr	w8,w8,#0x10
	strh	w9,[x11]
	strb	w8,[x12]
17:
	ldr	x8,[sp,#120]
	add	x25,x11,#4
	cbz	x8,17f
	ldp	x9,x8,[sp,#56]
	cmp	w22,#0
	csel	x3,x9,x19,ne
	csel	x23,x8,x19,ne
	sub	x8,x29,x3
	add	x8,x8,x23
	cmp	x8,x19
	b.ne	18f
	sub	x22,x19,x23
	ldr	x21,[sp,#72]
	cbnz	w26,19f
	b	20f
1:
	mov	w0,#9
	b	1f
8:
	subs	x9,x8,#4
	b.lo	8f
	ldrb	w8,[x14,#2]
	ldrb	w10,[x14,#3]
	lsl	x8,x8,#10
	orr	x8,x8,x10,lsl #2
	cmp	x9,x8
	b.lo	21f
	ldrh	w10,[x14]
	mov	w11,#57022
	add	x8,x17,x8
	add	x5,x8,#4
	and	w9,w10,#0xfffff0ff
	cmp	w9,#16
	cset	w16,eq
	cmp	w10,w11
	b.eq	9b
	cmp	w9,#16
	b.eq	9b
	mov	w0,#5
	b	1f
10:
	ldr	x9,[sp,#112]
	str	w16,[sp,#92]
	add	w8,w9,#16
	add	x26,x15,x8
	sub	x8,x5,x8
	str	x8,[sp,#120]
	add	x8,x9,#12
	stp	x8,x26,[sp,#24]
	add	x8,x4,x12
	cbz	w16,9f
	str	x8,[sp,#72]
	ldr	x8,[sp,#120]
	cbz	x8,10f
	ldr	x9,[sp,#120]
	mov	w20,wzr
	mov	x29,xzr
	mov	x25,xzr
	mov	x8,x26
	stp	xzr,xzr,[sp,#56]
	str	xzr,[sp,#16]
22:
	mov	x19,x9
23:
	ldrb	w9,[x8]
	cbz	w9,24f
	mov	x9,x19
	cmp	x19,#2
	b.hs	25f
	b	26f
24:
	cmp	x19,#2
	b.eq	24f
	cmp	x19,#1
	b.eq	26f
	cmp	x19,#3
	b.hi	27f
	ldrb	w9,[x8,#1]
	cbnz	w9,27f
	ldrb	w9,[x8,#2]
	cbnz	w9,27f
	b	28f
24:
	ldrb	w9,[x8,#1]
	cbz	w9,24f
27:
	mov	x22,x1
	mov	x26,x0
	add	x0,x8,#1
	sub	x1,x19,#1
	mov	x21,x25
	mov	x25,x29
	mov	x27,x5
	mov	w29,w3
	mov	x24,x13
	bl	"rtp_841016a0_rtp_ext::elements::skip_zeros"
	cbz	x1,27f
	ldr	x10,[sp,#96]
	ldr	x17,[sp,#24]
	mov	x9,x1
	ldr	w16,[sp,#92]
	mov	x8,x0
	mov	x0,x26
	mov	x1,x22
	mov	x13,x24
	mov	w3,w29
	add	x14,x10,x17
	mov	x5,x27
	mov	x29,x25
	mov	x25,x21
	cmp	x9,#2
	b.lo	26f
25:
	ldrb	w10,[x8,#1]
	add	x11,x10,#2
	subs	x9,x9,x11
	b.lo	26f
	ldrb	w12,[x8]
	add	x8,x8,x11
	cmp	w12,w3,uxtb
	b.eq	25f
	add	x10,x29,x10
	mov	x19,x9
	add	x29,x10,#2
	cbnz	x9,23b
	b	26f
25:
	ldr	x11,[sp,#120]
	mov	x19,xzr
	add	x25,x25,#1
	mov	w20,#1
	sub	x12,x11,x9
	sub	x11,x11,x9
	sub	x10,x12,x10
	str	x10,[sp,#16]
	sub	x10,x10,#2
	stp	x10,x11,[sp,#56]
	cbnz	x9,22b
	b	26f
17:
	ldr	w9,[sp,#140]
	tbz	w9,#0,17f
	ldr	x9,[sp,#152]
	ldp	x16,x15,[sp,#40]
	ldr	x1,[sp,#72]
	strb	w9,[x11,#5]
	ldr	w11,[sp,#108]
	mov	w9,#2
	ldr	x10,[sp,#152]
	strb	w11,[x25]
	ands	w10,w10,#0xff
	b.ne	22f
	b	23f
18:
	ldr	w0,[sp,#92]
	ldr	x4,[sp,#120]
	mov	x1,x25
	ldr	w5,[sp,#108]
	mov	x2,x3
	mov	x3,x23
	bl	"rtp_841016a0_rtp_ext::gathering::gather_around"
	mov	x17,x24
	mov	x3,x0
	mov	x22,x1
	ldr	x21,[sp,#72]
	cbz	w26,20f
19:
	ldr	w0,[sp,#92]
	mov	x1,x25
	mov	x2,x24
	mov	x4,x23
	mov	x5,x22
	bl	"rtp_841016a0_rtp_ext::form_change::change_rows"
	mov	x17,x24
	mov	x3,x0
	mov	x22,x1
	mov	x23,x0
20:
	ldr	x9,[sp,#152]
	ldr	x15,[sp,#24]
	add	x9,x20,x9
	add	x19,x9,x3
	subs	x10,x23,x19
	b.hs	18f
	cbz	x22,19f
	cmp	x22,#8
	mov	x9,x22
	b.lo	20f
	cmp	x10,#32
	mov	x9,x22
	b.lo	20f
	cmp	x22,#32
	b.hs	25f
	mov	x10,xzr
	b	29f
18:
	cbz	x22,19f
	cmp	x22,#8
	b.lo	18f
	ldr	x10,[sp,#152]
	add	x9,x20,x3
	add	x9,x9,x10
	sub	x9,x9,x23
	cmp	x9,#32
	b.hs	30f
18:
	mov	x9,xzr
18:
	add	x10,x15,x9
	ldr	x13,[sp,#112]
	ldr	x12,[sp,#152]
	add	x11,x10,x20
	add	x10,x10,x23
	sub	x9,x22,x9
	add	x11,x11,x3
	add	x12,x12,x13
	add	x10,x10,x13
	add	x11,x11,x12
	add	x12,x10,x27
	add	x11,x11,x27
	add	x10,x11,#16
	add	x11,x12,#16
31:
	ldrb	w12,[x11],#1
	subs	x9,x9,#1
	strb	w12,[x10],#1
	b.ne	31b
	b	19f
9:
	str	x8,[sp,#72]
	ldr	x8,[sp,#120]
	cbz	x8,10f
	ldr	x22,[sp,#120]
	mov	w20,wzr
	mov	x29,xzr
	mov	x25,xzr
	stp	xzr,xzr,[sp,#56]
	str	xzr,[sp,#16]
9:
	ldrb	w9,[x26]
	add	w8,w9,#16
	and	w8,w8,#0xff
	cmp	w8,#32
	b.hs	31f
	cbz	w9,32f
	mov	x8,x22
	cmp	w9,#239
	b.ls	33f
	b	34f
31:
	and	x8,x9,#0xf
	add	x10,x8,#2
	subs	x8,x22,x10
	b.hs	31f
	mov	x8,x22
	b	35f
32:
	cmp	x22,#2
	b.eq	32f
	cmp	x22,#1
	b.eq	34f
	cmp	x22,#3
	b.hi	36f
	ldrb	w8,[x26,#1]
	cbnz	w8,36f
	ldrb	w8,[x26,#2]
	cbnz	w8,36f
	b	28f
32:
	ldrb	w8,[x26,#1]
	cbz	w8,24f
36:
	mov	x27,x1
	mov	x21,x0
	add	x0,x26,#1
	sub	x1,x22,#1
	str	w20,[sp,#8]
	mov	x20,x5
	mov	x24,x13
	bl	"rtp_841016a0_rtp_ext::elements::skip_zeros"
	cbz	x1,32f
	ldr	x10,[sp,#96]
	ldr	x17,[sp,#24]
	mov	x5,x20
	ldrb	w9,[x0]
	ldr	w3,[sp,#108]
	mov	x8,x1
	ldr	w16,[sp,#92]
	ldr	w20,[sp,#8]
	mov	x26,x0
	mov	x0,x21
	mov	x1,x27
	mov	x13,x24
	add	x14,x10,x17
	cmp	w9,#239
	b.hi	34f
33:
	and	w10,w9,#0xf
	add	w10,w10,#2
35:
	subs	x8,x8,x10
	b.lo	34f
31:
	mov	x22,x8
	lsr	w8,w9,#4
	add	x26,x26,x10
	cmp	w8,w3,uxtb
	b.eq	31f
	cbz	w8,33f
	add	x29,x10,x29
	cbnz	x22,9b
	b	35f
33:
	str	x0,[sp,#8]
	mov	x0,x25
	mov	x27,x1
	mov	w19,w3
	mov	x24,x13
	mov	w21,w20
	mov	x20,x5
	bl	"rtp_841016a0_rtp_ext::survey::one_more"
	ldr	x17,[sp,#24]
	ldr	x8,[sp,#96]
	mov	x25,x0
	ldr	w16,[sp,#92]
	ldr	x0,[sp,#8]
	mov	x5,x20
	mov	w20,w21
	add	x14,x8,x17
	mov	x13,x24
	mov	w3,w19
	mov	x1,x27
	cbnz	x22,9b
	b	35f
31:
	ldr	x8,[sp,#120]
	mov	x19,xzr
	add	x25,x25,#1
	mov	w20,#1
	sub	x9,x8,x22
	sub	x8,x8,x22
	str	x8,[sp,#64]
	sub	x8,x9,x10
	str	x8,[sp,#56]
	add	x8,x8,#1
	str	x8,[sp,#16]
	cbnz	x22,9b
	b	26f
10:
	stp	xzr,xzr,[sp,#56]
	mov	w20,wzr
	mov	x25,xzr
	str	xzr,[sp,#16]
	mov	x29,xzr
	mov	x19,xzr
	b	26f
2:
	mov	x0,xzr
	lsr	x1,xzr,#8
	b	2f
3:
	mov	w0,#1
	lsr	x1,x0,#8
	b	2f
4:
	mov	w0,#2
	lsr	x1,x0,#8
	b	2f
17:
	ldr	w10,[sp,#108]
	ldp	x16,x15,[sp,#40]
	ldr	x1,[sp,#72]
	ubfx	w9,w10,#4,#4
	orr	w9,w9,w10,lsl #4
	ldr	x10,[sp,#152]
	add	w9,w9,w10
	sub	w11,w9,#1
	mov	w9,#1
	ldr	x10,[sp,#152]
	strb	w11,[x25]
	ands	w10,w10,#0xff
	b.eq	23f
22:
	cmp	w10,#1
	b.ne	3f
	ldrb	w8,[x1]
	strb	w8,[x25,x9]
	b	4f
5:
	mov	w0,#3
	lsr	x1,x0,#8
	b	2f
6:
	mov	w0,#259
	lsr	x1,x0,#8
	b	2f
3:
	ldr	x10,[sp,#152]
	cmp	x10,#2
	b.hi	3f
	ldrb	w8,[x1]
	add	x9,x25,x9
	strb	w8,[x9]
	ldrb	w8,[x1,#1]
	strb	w8,[x9,#1]
	b	4f
7:
	mov	w0,#515
	lsr	x1,x0,#8
	b	2f
24:
	mov	w19,#2
	b	26f
28:
	mov	w19,#3
	b	26f
15:
	mov	w0,#7
	lsr	x1,x0,#8
	b	2f
3:
	ldr	x10,[sp,#152]
	cmp	x10,#3
	b.ne	23f
	ldrb	w8,[x1]
	add	x9,x25,x9
	strb	w8,[x9]
	ldrb	w8,[x1,#1]
	strb	w8,[x9,#1]
	ldrb	w8,[x1,#2]
	strb	w8,[x9,#2]
	b	4f
23:
	add	x0,x25,x9
	ldr	x11,[sp,#152]
	sub	x10,x0,x1
	cmp	x10,x11
	b.hs	3f
	ldr	x10,[sp,#152]
	cmp	x10,#8
	b.lo	5f
	ldr	x10,[sp,#24]
	ldr	x11,[sp,#112]
	orr	x10,x10,x9
	add	x10,x10,x27
	add	x10,x10,x11
	add	x11,x16,x15
	sub	x10,x10,x11
	add	x10,x10,#16
	cmp	x10,#32
	b.hs	6f
5:
	mov	x10,xzr
5:
	ldr	x11,[sp,#24]
	ldr	x8,[sp,#152]
	add	x11,x11,x10
	sub	x8,x8,x10
	add	x9,x11,x9
	ldr	x11,[sp,#128]
	and	x11,x11,#0xf
	add	x9,x9,x11,lsl #2
	add	x11,x16,x10
	add	x12,x9,x27
	add	x9,x15,x11
	add	x10,x12,#16
7:
	ldrb	w11,[x9],#1
	subs	x8,x8,#1
	strb	w11,[x10],#1
	b.ne	7b
	b	4f
3:
	ldr	x2,[sp,#152]
	bl	memmove
	mov	x17,x24
4:
	ldr	x8,[sp,#152]
	add	x8,x20,x8
	subs	x9,x17,x8
	b.ls	3f
	subs	x19,x9,#1
	b.gt	7f
9:
	cbz	x9,3f
	cmp	x9,#1
	b.ne	10f
	strb	wzr,[x25,x8]
	b	3f
16:
	mov	w0,#8
	lsr	x1,x0,#8
	b	2f
8:
	mov	w0,#771
	lsr	x1,x0,#8
	b	2f
21:
	mov	w0,#1027
	lsr	x1,x0,#8
	b	2f
30:
	cmp	x22,#32
	b.hs	8f
	mov	x9,xzr
	b	15f
25:
	ldr	x16,[sp,#112]
	ldr	x14,[sp,#152]
	add	x12,x20,x15
	add	x12,x12,x3
	add	x11,x15,x22
	and	x9,x22,#0x18
	add	x13,x23,x16
	add	x14,x22,x14
	and	x10,x22,#0xffffffffffffffe0
	add	x13,x27,x13
	add	x12,x12,x14
	add	x14,x27,x16
	add	x11,x13,x11
	add	x12,x14,x12
	and	x13,x22,#0xffffffffffffffe0
16:
	ldp	q1,q0,[x11,#-16]
	sub	x13,x13,#32
	sub	x11,x11,#32
	stp	q1,q0,[x12,#-16]
	sub	x12,x12,#32
	cbnz	x13,16b
	cmp	x22,x10
	b.eq	19f
	cbz	x9,16f
29:
	add	x9,x20,x15
	ldr	x12,[sp,#152]
	ldr	x13,[sp,#112]
	add	x9,x9,x3
	add	x11,x15,x23
	add	x9,x9,x12
	add	x12,x11,x13
	and	x11,x22,#0xfffffffffffffff8
	add	x9,x9,x13
	sub	x12,x12,x10
	sub	x13,x9,x10
	add	x12,x12,x27
	and	x9,x22,#0x7
	add	x13,x13,x27
	add	x12,x12,#8
	sub	x10,x10,x11
	add	x13,x13,#8
17:
	ldr	d0,[x12,x22]
	adds	x10,x10,#8
	sub	x12,x12,#8
	str	d0,[x13,x22]
	sub	x13,x13,#8
	b.ne	17b
	cmp	x22,x11
	b.eq	19f
20:
	add	x10,x15,x9
	ldr	x13,[sp,#112]
	ldr	x12,[sp,#152]
	add	x11,x10,x20
	add	x10,x10,x23
	add	x11,x11,x3
	add	x12,x12,x13
	add	x10,x10,x13
	add	x11,x11,x12
	add	x12,x10,x27
	add	x11,x11,x27
	add	x10,x11,#15
	add	x11,x12,#15
17:
	ldrb	w12,[x11],#-1
	subs	x9,x9,#1
	strb	w12,[x10],#-1
	b.ne	17b
19:
	ldr	w9,[sp,#140]
	tbz	w9,#0,17f
	ldr	w10,[sp,#108]
	add	x9,x25,x3
	strb	w10,[x9]
	ldr	x10,[sp,#152]
	strb	w10,[x9,#1]
	mov	w9,#2
	ldr	x10,[sp,#152]
	ands	w11,w10,#0xff
	add	x10,x9,x3
	b.ne	21f
	b	22f
17:
	ldr	w10,[sp,#108]
	ubfx	w9,w10,#4,#4
	orr	w9,w9,w10,lsl #4
	ldr	x10,[sp,#152]
	add	w9,w9,w10
	sub	w9,w9,#1
	strb	w9,[x25,x3]
	mov	w9,#1
	ldr	x10,[sp,#152]
	ands	w11,w10,#0xff
	add	x10,x9,x3
	b.eq	22f
21:
	cmp	w11,#1
	b.ne	17f
	ldrb	w8,[x21]
	strb	w8,[x25,x10]
	b	21f
17:
	ldr	x11,[sp,#152]
	cmp	x11,#2
	b.hi	17f
	ldrb	w8,[x21]
	add	x9,x25,x10
	strb	w8,[x9]
	ldrb	w8,[x21,#1]
	strb	w8,[x9,#1]
	b	21f
17:
	ldr	x11,[sp,#152]
	cmp	x11,#3
	b.ne	22f
	ldrb	w8,[x21]
	add	x9,x25,x10
	strb	w8,[x9]
	ldrb	w8,[x21,#1]
	strb	w8,[x9,#1]
	ldrb	w8,[x21,#2]
	strb	w8,[x9,#2]
	b	21f
22:
	add	x0,x25,x10
	ldr	x11,[sp,#152]
	sub	x10,x0,x21
	cmp	x10,x11
	b.hs	17f
	ldr	x10,[sp,#152]
	cmp	x10,#8
	b.lo	22f
	add	x10,x15,x3
	ldr	x11,[sp,#112]
	add	x10,x10,x9
	add	x10,x10,x27
	add	x10,x10,x11
	ldp	x12,x11,[sp,#40]
	add	x11,x12,x11
	sub	x10,x10,x11
	add	x10,x10,#16
	cmp	x10,#32
	b.hs	23f
22:
	mov	x10,xzr
22:
	add	x11,x15,x10
	ldr	x8,[sp,#152]
	add	x11,x11,x3
	add	x9,x11,x9
	ldr	x11,[sp,#128]
	sub	x8,x8,x10
	and	x11,x11,#0xf
	add	x9,x9,x11,lsl #2
	add	x12,x9,x27
	ldp	x11,x9,[sp,#40]
	add	x11,x11,x10
	add	x10,x12,#16
	add	x9,x9,x11
24:
	ldrb	w11,[x9],#1
	subs	x8,x8,#1
	strb	w11,[x10],#1
	b.ne	24b
	b	21f
17:
	ldr	x2,[sp,#152]
	mov	x1,x21
	bl	memmove
	mov	x17,x24
21:
	add	x8,x22,x19
	subs	x9,x17,x8
	b.ls	3f
	subs	x19,x9,#1
	b.le	9b
7:
	cmp	x9,#2
	b.eq	7f
	cmp	x9,#3
	b.eq	9f
	cmp	x9,#4
	b.ne	10f
	str	wzr,[x25,x8]
	b	3f
7:
	strh	wzr,[x25,x8]
	b	3f
9:
	add	x8,x25,x8
	strb	wzr,[x8,#2]
	strh	wzr,[x8]
	b	3f
10:
	add	x20,x25,x8
	mov	w1,wzr
	mov	x2,x19
	mov	x0,x20
	bl	memset
	strb	wzr,[x20,x19]
3:
	ldr	x19,[sp,#80]
	ldr	x23,[sp,#32]
3:
	mov	w0,wzr
	str	x23,[x19]
1:
	ldp	x20,x19,[sp,#224]
	ldr	x29,[sp,#144]
	ldp	x22,x21,[sp,#208]
	ldp	x24,x23,[sp,#192]
	ldp	x26,x25,[sp,#176]
	ldp	x30,x27,[sp,#160]
	add	sp,sp,#240
	ret
34:
	mov	x19,x22
	b	26f
35:
	mov	x19,xzr
	b	26f
23:
	ldr	x10,[sp,#152]
	cmp	x10,#32
	b.hs	1f
	mov	x10,xzr
	b	7f
11:
	and	w8,w3,#0xff
	mov	w1,wzr
	cmp	w8,#14
	mov	w8,#5
	cinc	w0,w8,ls
	b	2f
8:
	ldr	x10,[sp,#152]
	add	x9,x20,x15
	ldr	x13,[sp,#112]
	add	x12,x15,x23
	add	x9,x9,x10
	and	x10,x22,#0x18
	add	x9,x9,x13
	add	x13,x13,x27
	add	x11,x9,x3
	add	x12,x12,x13
	and	x9,x22,#0xffffffffffffffe0
	add	x11,x11,x27
	add	x12,x12,#32
	and	x13,x22,#0xffffffffffffffe0
	add	x11,x11,#32
8:
	ldp	q0,q1,[x12,#-16]
	subs	x13,x13,#32
	add	x12,x12,#32
	stp	q0,q1,[x11,#-16]
	add	x11,x11,#32
	b.ne	8b
	cmp	x22,x9
	b.eq	19b
	cbz	x10,18b
15:
	ldr	x12,[sp,#152]
	mov	x10,x9
	add	x9,x20,x15
	add	x9,x9,x3
	add	x11,x15,x23
	add	x12,x10,x12
	add	x11,x11,x10
	add	x12,x9,x12
	ldr	x9,[sp,#112]
	add	x13,x9,x27
	add	x11,x11,x9
	and	x9,x22,#0xfffffffffffffff8
	add	x12,x12,x13
	add	x13,x11,x27
	sub	x10,x10,x9
	add	x11,x12,#16
	add	x12,x13,#16
8:
	ldr	d0,[x12],#8
	adds	x10,x10,#8
	str	d0,[x11],#8
	b.ne	8b
	cmp	x22,x9
	b.eq	19b
	b	18b
6:
	ldr	x10,[sp,#152]
	cmp	x10,#32
	b.hs	6f
	mov	x10,xzr
	b	8f
1:
	add	x10,x15,x3
	ldr	x12,[sp,#112]
	ldr	x16,[sp,#152]
	ldp	x14,x13,[sp,#40]
	add	x10,x10,x9
	add	x12,x10,x12
	and	x11,x16,#0x18
	and	x10,x16,#0xe0
	add	x13,x14,x13
	add	x14,x12,x27
	add	x12,x13,#16
	add	x13,x14,#32
	and	x14,x16,#0xe0
1:
	ldp	q0,q1,[x12,#-16]
	subs	x14,x14,#32
	add	x12,x12,#32
	stp	q0,q1,[x13,#-16]
	add	x13,x13,#32
	b.ne	1b
	ldr	x12,[sp,#152]
	cmp	x12,x10
	b.eq	21b
	cbz	x11,22b
7:
	mov	x11,x10
	add	x10,x15,x3
	ldr	x12,[sp,#128]
	add	x10,x10,x11
	ldr	x13,[sp,#40]
	add	x10,x10,x9
	and	x12,x12,#0xf
	add	x12,x10,x12,lsl #2
	ldr	x10,[sp,#152]
	add	x13,x13,x11
	add	x14,x12,x27
	ldr	x12,[sp,#48]
	and	x10,x10,#0xf8
	sub	x11,x11,x10
	add	x12,x12,x13
	add	x13,x14,#16
1:
	ldr	d0,[x12],#8
	adds	x11,x11,#8
	str	d0,[x13],#8
	b.ne	1b
	ldr	x11,[sp,#152]
	cmp	x11,x10
	b.eq	21b
	b	22b
27:
	ldr	x8,[sp,#96]
	ldr	x17,[sp,#24]
	mov	x0,x26
	ldr	w16,[sp,#92]
	mov	x1,x22
	mov	x13,x24
	add	x14,x8,x17
	mov	x5,x27
	mov	x29,x25
	mov	x25,x21
	b	26f
6:
	ldr	x10,[sp,#24]
	ldr	x12,[sp,#112]
	add	x13,x16,x15
	ldr	x0,[sp,#152]
	add	x10,x10,x9
	add	x12,x10,x12
	and	x11,x0,#0x18
	and	x10,x0,#0xe0
	add	x14,x12,x27
	add	x12,x13,#16
	add	x13,x14,#32
	and	x14,x0,#0xe0
1:
	ldp	q0,q1,[x12,#-16]
	subs	x14,x14,#32
	add	x12,x12,#32
	stp	q0,q1,[x13,#-16]
	add	x13,x13,#32
	b.ne	1b
	ldr	x12,[sp,#152]
	cmp	x12,x10
	b.eq	4b
	cbz	x11,5b
8:
	mov	x11,x10
	ldr	x10,[sp,#24]
	ldr	x12,[sp,#128]
	add	x13,x16,x11
	add	x10,x10,x11
	and	x12,x12,#0xf
	add	x10,x10,x9
	add	x12,x10,x12,lsl #2
	ldr	x10,[sp,#152]
	and	x10,x10,#0xf8
	add	x14,x12,x27
	add	x12,x15,x13
	sub	x11,x11,x10
	add	x13,x14,#16
1:
	ldr	d0,[x12],#8
	adds	x11,x11,#8
	str	d0,[x13],#8
	b.ne	1b
	ldr	x11,[sp,#152]
	cmp	x11,x10
	b.eq	4b
	b	5b
16:
	and	x9,x22,#0x1f
	b	20b
32:
	ldr	x8,[sp,#96]
	ldr	x17,[sp,#24]
	mov	x5,x20
	ldr	w16,[sp,#92]
	ldr	w20,[sp,#8]
	mov	x19,x22
	mov	x0,x21
	mov	x1,x27
	mov	x13,x24
	add	x14,x8,x17
26:
	ldr	w8,[sp,#140]
	cmp	w20,#1
	cset	w22,eq
	cmp	w16,w8
	cset	w21,eq
	b.ne	1f
	cmp	w20,#1
	b.ne	1f
	cmp	x25,#1
	b.ne	1f
	ldr	x8,[sp,#64]
	ldr	x9,[sp,#16]
	sub	x8,x8,x9
	ldr	x9,[sp,#152]
	cmp	x8,x9
	b.ne	1f
	ldp	x1,x19,[sp,#72]
	add	x8,x14,#4
	ldr	x9,[sp,#152]
	cbz	x9,4f
	ldr	x9,[sp,#152]
	cmp	w9,#1
	b.ne	5f
	ldr	x10,[sp,#16]
	ldrb	w9,[x1]
	strb	w9,[x8,x10]
	b	3b
1:
	ldr	w8,[sp,#140]
	cmp	w8,w16
	ldr	x8,[sp,#120]
	sub	x19,x8,x19
	b.eq	12b
	cbz	x29,12b
	mov	x27,x1
	ldr	w1,[sp,#140]
	ldr	x2,[sp,#32]
	ldr	w4,[sp,#108]
	mov	x26,x0
	mov	w0,w16
	mov	x3,x19
	mov	x24,x13
	mov	x20,x5
	bl	"rtp_841016a0_rtp_ext::form_change::row_len"
	ldr	x17,[sp,#24]
	ldr	x8,[sp,#96]
	mov	x5,x20
	mov	x13,x24
	mov	x9,x1
	mov	x1,x27
	add	x14,x8,x17
	mov	w8,w0
	mov	x0,x26
	mov	w21,wzr
	mov	w26,#1
	and	w8,w8,#0xff
	cmp	w8,#1
	b.eq	14b
13:
	ldr	w0,[sp,#92]
	ldr	x1,[sp,#32]
	ldr	x2,[sp,#120]
	bl	"rtp_841016a0_rtp_wire::packet::rewriting::has_long_id"
	mov	w8,#5
	cmp	w0,#0
	mov	w1,wzr
	cinc	w0,w8,eq
2:
	ldp	x20,x19,[sp,#224]
	ldr	x29,[sp,#144]
	ldp	x22,x21,[sp,#208]
	ldp	x24,x23,[sp,#192]
	ldp	x26,x25,[sp,#176]
	ldp	x30,x27,[sp,#160]
	add	sp,sp,#240
	b	"rtp_841016a0_rtp_c::growing::put_status_of"
5:
	ldr	x9,[sp,#152]
	cmp	x9,#2
	b.hi	1f
	ldr	x10,[sp,#16]
	ldrb	w9,[x1]
	add	x8,x8,x10
	strb	w9,[x8]
	ldrb	w9,[x1,#1]
	strb	w9,[x8,#1]
	b	3b
1:
	ldr	x9,[sp,#152]
	cmp	x9,#3
	b.ne	4f
	ldr	x10,[sp,#16]
	ldrb	w9,[x1]
	add	x8,x8,x10
	strb	w9,[x8]
	ldrb	w9,[x1,#1]
	strb	w9,[x8,#1]
	ldrb	w9,[x1,#2]
	strb	w9,[x8,#2]
	b	3b
4:
	ldr	x9,[sp,#16]
	ldr	x10,[sp,#152]
	add	x8,x8,x9
	sub	x9,x8,x1
	cmp	x9,x10
	b.hs	1f
	ldr	x8,[sp,#152]
	cmp	x8,#8
	b.lo	2f
	ldr	x8,[sp,#16]
	ldr	x9,[sp,#112]
	add	x8,x13,x8
	add	x8,x8,x0
	add	x8,x8,x9
	ldp	x10,x9,[sp,#40]
	add	x9,x10,x9
	sub	x8,x8,x9
	add	x8,x8,#16
	cmp	x8,#32
	b.hs	4f
2:
	mov	x8,xzr
2:
	ldr	x9,[sp,#16]
	ldr	x10,[sp,#128]
	add	x9,x13,x9
	and	x10,x10,#0xf
	add	x9,x9,x8
	add	x9,x9,x10,lsl #2
	ldr	x10,[sp,#40]
	add	x11,x9,x0
	ldr	x9,[sp,#152]
	add	x10,x10,x8
	sub	x8,x9,x8
	ldr	x9,[sp,#48]
	add	x9,x9,x10
	add	x10,x11,#16
5:
	ldrb	w11,[x9],#1
	subs	x8,x8,#1
	strb	w11,[x10],#1
	b.ne	5b
	b	3b
1:
	ldr	x2,[sp,#152]
	mov	x0,x8
	bl	memmove
	b	3b
4:
	ldr	x8,[sp,#152]
	cmp	x8,#32
	b.hs	1f
	mov	x8,xzr
	b	4f
1:
	ldp	x12,x11,[sp,#40]
	ldr	x8,[sp,#16]
	ldr	x14,[sp,#152]
	add	x8,x13,x8
	add	x11,x12,x11
	ldr	x12,[sp,#112]
	add	x10,x8,x0
	and	x9,x14,#0x18
	and	x8,x14,#0xe0
	add	x12,x10,x12
	add	x10,x11,#16
	add	x11,x12,#32
	and	x12,x14,#0xe0
1:
	ldp	q0,q1,[x10,#-16]
	subs	x12,x12,#32
	add	x10,x10,#32
	stp	q0,q1,[x11,#-16]
	add	x11,x11,#32
	b.ne	1b
	ldr	x10,[sp,#152]
	cmp	x10,x8
	b.eq	3b
	cbz	x9,2b
4:
	mov	x9,x8
	ldr	x8,[sp,#16]
	ldr	x10,[sp,#128]
	ldr	x11,[sp,#40]
	add	x8,x13,x8
	and	x10,x10,#0xf
	add	x8,x8,x9
	add	x11,x11,x9
	add	x10,x8,x10,lsl #2
	ldr	x8,[sp,#152]
	add	x12,x10,x0
	ldr	x10,[sp,#48]
	and	x8,x8,#0xf8
	sub	x9,x9,x8
	add	x10,x10,x11
	add	x11,x12,#16
1:
	ldr	d0,[x10],#8
	adds	x9,x9,#8
	str	d0,[x11],#8
	b.ne	1b
	ldr	x9,[sp,#152]
	cmp	x9,x8
	b.eq	3b
	b	2b
	.size	rtp_841016a0_rtp_proved_put_element,.-rtp_841016a0_rtp_proved_put_element
	.cfi_endproc

	.section	.text.rtpw_remove_block,"ax",@progbits
	.globl	rtp_841016a0_rtpw_remove_block
	.p2align	2
	.type	rtp_841016a0_rtpw_remove_block,@function
rtp_841016a0_rtpw_remove_block:
	.cfi_startproc
	str	x30,[sp,#-48]!
	stp	x22,x21,[sp,#16]
	stp	x20,x19,[sp,#32]
	.cfi_def_cfa_offset 48
	.cfi_offset w19,-8
	.cfi_offset w20,-16
	.cfi_offset w21,-24
	.cfi_offset w22,-32
	.cfi_offset w30,-48
	mov	x19,x2
	ldr	x2,[x2]
	cmp	x0,#0
	mov	w8,#4096
	csel	x8,x8,xzr,eq
	cmp	x1,x2
	b.lo	1f
	cmp	x2,#12
	b.lo	2f
	add	x20,x0,x8
	ldrsb	w8,[x20]
	cmn	w8,#65
	b.gt	3f
	and	x8,x8,#0xff
	ubfiz	x9,x8,#2,#4
	add	x21,x9,#12
	subs	x22,x2,x21
	b.lo	4f
	mov	x1,x21
	tbz	w8,#4,5f
	subs	x8,x22,#4
	b.lo	6f
	add	x9,x20,x21
	ldrb	w10,[x9,#2]
	ldrb	w9,[x9,#3]
	lsl	x10,x10,#10
	orr	x9,x10,x9,lsl #2
	cmp	x8,x9
	b.lo	7f
	add	x8,x21,x9
	add	x1,x8,#4
	sub	x22,x2,x1
5:
	mov	x0,x20
	mov	x3,x21
	bl	"rtp_841016a0_rtp_wire::packet::resizing::move_bytes"
	ldrb	w8,[x20]
	add	x9,x22,x21
	mov	w0,wzr
	ldp	x22,x21,[sp,#16]
	and	w8,w8,#0xffffffef
	strb	w8,[x20]
	str	x9,[x19]
	ldp	x20,x19,[sp,#32]
	ldr	x30,[sp],#48
	ret
1:
	mov	w0,wzr
	mov	w1,wzr
	ldp	x20,x19,[sp,#32]
	ldp	x22,x21,[sp,#16]
	ldr	x30,[sp],#48
	b	"rtp_841016a0_rtp_c::growing::put_status_of"
2:
	mov	w1,wzr
	mov	w0,#3
	ldp	x20,x19,[sp,#32]
	ldp	x22,x21,[sp,#16]
	ldr	x30,[sp],#48
	b	"rtp_841016a0_rtp_c::growing::put_status_of"
3:
	mov	w1,#1
	mov	w0,#3
	ldp	x20,x19,[sp,#32]
	ldp	x22,x21,[sp,#16]
	ldr	x30,[sp],#48
	b	"rtp_841016a0_rtp_c::growing::put_status_of"
4:
	mov	w1,#2
	mov	w0,#3
	ldp	x20,x19,[sp,#32]
	ldp	x22,x21,[sp,#16]
	ldr	x30,[sp],#48
	b	"rtp_841016a0_rtp_c::growing::put_status_of"
6:
	mov	w0,#3
	mov	w1,#3
	ldp	x20,x19,[sp,#32]
	ldp	x22,x21,[sp,#16]
	ldr	x30,[sp],#48
	b	"rtp_841016a0_rtp_c::growing::put_status_of"
7:
	mov	w1,#4
	mov	w0,#3
	ldp	x20,x19,[sp,#32]
	ldp	x22,x21,[sp,#16]
	ldr	x30,[sp],#48
	b	"rtp_841016a0_rtp_c::growing::put_status_of"
	.size	rtp_841016a0_rtpw_remove_block,.-rtp_841016a0_rtpw_remove_block
	.cfi_endproc

	.section	.text.rtpw_remove_element,"ax",@progbits
	.globl	rtp_841016a0_rtpw_remove_element
	.p2align	2
	.type	rtp_841016a0_rtpw_remove_element,@function
rtp_841016a0_rtpw_remove_element:
	.cfi_startproc
	mov	w8,#4096
	cmp	x0,#0
	csel	x8,x8,xzr,eq
	cmp	x1,#12
	b.lo	1f
	add	x8,x0,x8
	ldrsb	w9,[x8]
	cmn	w9,#65
	b.gt	2f
	and	x11,x9,#0xff
	ubfiz	x10,x11,#2,#4
	add	x9,x10,#12
	subs	x12,x1,x9
	b.lo	3f
	tbnz	w11,#4,4f
	mov	w0,#11
	ret
4:
	subs	x13,x12,#4
	b.lo	4f
	add	x12,x8,x9
	ldrb	w11,[x12,#2]
	ldrb	w14,[x12,#3]
	lsl	x11,x11,#10
	orr	x11,x11,x14,lsl #2
	cmp	x13,x11
	b.lo	5f
	ldrh	w12,[x12]
	mov	w13,#57022
	mov	w3,w2
	mov	w0,#11
	cmp	w12,w13
	and	w12,w12,#0xfffff0ff
	b.eq	6f
	cmp	w12,#16
	b.eq	6f
	ret
6:
	str	x30,[sp,#-16]!
	.cfi_def_cfa_offset 16
	.cfi_offset w30,-16
	add	w10,w10,#16
	cmp	w12,#16
	sub	x9,x9,x10
	cset	w0,eq
	add	x1,x8,x10
	add	x9,x9,x11
	add	x2,x9,#4
	bl	"rtp_841016a0_rtp_ext::place::remove_element"
	mov	w8,w0
	mov	w0,#11
	cmp	w8,#0
	csel	w0,wzr,w0,ne
	ldr	x30,[sp],#16
	ret
1:
	mov	w0,wzr
	b	"rtp_841016a0_rtp_c::status::refusal_status"
2:
	mov	w0,#1
	b	"rtp_841016a0_rtp_c::status::refusal_status"
3:
	mov	w0,#2
	b	"rtp_841016a0_rtp_c::status::refusal_status"
4:
	mov	w0,#3
	b	"rtp_841016a0_rtp_c::status::refusal_status"
5:
	mov	w0,#4
	b	"rtp_841016a0_rtp_c::status::refusal_status"
	.size	rtp_841016a0_rtpw_remove_element,.-rtp_841016a0_rtpw_remove_element
	.cfi_endproc

	.section	.text.rtpw_remove_padding,"ax",@progbits
	.globl	rtp_841016a0_rtpw_remove_padding
	.p2align	2
	.type	rtp_841016a0_rtpw_remove_padding,@function
rtp_841016a0_rtpw_remove_padding:
	.cfi_startproc
	mov	w8,#4096
	cmp	x0,#0
	csel	x8,x8,xzr,eq
	cmp	x1,#12
	b.lo	1f
	add	x8,x0,x8
	ldrsb	w9,[x8]
	cmn	w9,#65
	b.gt	2f
	and	x9,x9,#0xff
	ubfiz	x10,x9,#2,#4
	add	x10,x10,#12
	subs	x11,x1,x10
	b.lo	3f
	tbz	w9,#4,4f
	subs	x11,x11,#4
	b.lo	5f
	add	x12,x8,x10
	ldrb	w13,[x12,#2]
	ldrb	w12,[x12,#3]
	lsl	x13,x13,#10
	orr	x12,x13,x12,lsl #2
	cmp	x11,x12
	b.lo	6f
	add	x10,x10,x12
	add	x10,x10,#4
	sub	x11,x1,x10
4:
	tbz	w9,#5,4f
	cmp	x1,x10
	b.ne	7f
	mov	x11,xzr
	b	4f
7:
	add	x12,x8,x1
	ldurb	w12,[x12,#-1]
	subs	x11,x11,x12
	b.hs	4f
	mov	w0,#9
	ret
4:
	mov	w0,wzr
	and	w9,w9,#0xffffff9f
	add	x10,x11,x10
	strb	w9,[x8]
	str	x10,[x2]
	ret
1:
	mov	w0,wzr
	b	"rtp_841016a0_rtp_c::status::refusal_status"
2:
	mov	w0,#1
	b	"rtp_841016a0_rtp_c::status::refusal_status"
3:
	mov	w0,#2
	b	"rtp_841016a0_rtp_c::status::refusal_status"
5:
	mov	w0,#3
	b	"rtp_841016a0_rtp_c::status::refusal_status"
6:
	mov	w0,#4
	b	"rtp_841016a0_rtp_c::status::refusal_status"
	.size	rtp_841016a0_rtpw_remove_padding,.-rtp_841016a0_rtpw_remove_padding
	.cfi_endproc

	.section	.text.rtpw_renumber,"ax",@progbits
	.globl	rtp_841016a0_rtpw_renumber
	.p2align	2
	.type	rtp_841016a0_rtpw_renumber,@function
rtp_841016a0_rtpw_renumber:
	.cfi_startproc
	sub	sp,sp,#304
	stp	x29,x30,[sp,#288]
	.cfi_def_cfa_offset 304
	.cfi_offset w30,-8
	.cfi_offset w29,-16
	cmp	x0,#0
	mov	w8,#4096
	str	xzr,[sp,#280]
	csel	x8,x8,xzr,eq
	cmp	x1,#12
	b.lo	1f
	add	x8,x0,x8
	ldrsb	w9,[x8]
	cmn	w9,#65
	b.gt	2f
	and	x10,x9,#0xff
	ubfiz	x9,x10,#2,#4
	add	x9,x9,#12
	subs	x11,x1,x9
	b.lo	3f
	tbnz	w10,#4,4f
	mov	w11,wzr
	mov	w10,wzr
	b	5f
4:
	subs	x12,x11,#4
	b.lo	4f
	add	x10,x8,x9
	ldrb	w11,[x10,#2]
	ldrb	w13,[x10,#3]
	lsl	x11,x11,#10
	orr	x11,x11,x13,lsl #2
	cmp	x12,x11
	b.lo	6f
	ldrh	w12,[x10]
	mov	w13,#57022
	add	x9,x9,x11
	add	x9,x9,#4
	and	w10,w12,#0xfffff0ff
	cmp	w10,#16
	cset	w10,eq
	cmp	w12,w13
	csinc	w11,w10,wzr,ne
5:
	ldur	q0,[x2,#193]
	mov	x12,sp
	ldur	q1,[x2,#209]
	stp	x8,x1,[sp,#256]
	add	x0,sp,#256
	mov	x1,sp
	stur	q0,[x12,#193]
	ldur	q0,[x2,#225]
	stur	q1,[x12,#209]
	ldr	q1,[x2,#240]
	stur	q0,[x12,#225]
	ldur	q0,[x2,#129]
	str	q1,[sp,#240]
	ldur	q1,[x2,#145]
	stur	q0,[x12,#129]
	ldur	q0,[x2,#161]
	stur	q1,[x12,#145]
	ldur	q1,[x2,#177]
	stur	q0,[x12,#161]
	ldur	q0,[x2,#65]
	stur	q1,[x12,#177]
	ldur	q1,[x2,#81]
	stur	q0,[sp,#65]
	ldur	q0,[x2,#97]
	stur	q1,[sp,#81]
	stur	q0,[sp,#97]
	ldur	q0,[x2,#113]
	str	x9,[sp,#272]
	stur	q0,[sp,#113]
	ldur	q0,[x2,#1]
	strb	w11,[sp,#280]
	stur	q0,[sp,#1]
	ldur	q0,[x2,#17]
	strb	w10,[sp,#281]
	stur	q0,[sp,#17]
	ldur	q0,[x2,#33]
	strb	wzr,[sp]
	stur	q0,[sp,#33]
	ldur	q0,[x2,#49]
	stur	q0,[sp,#49]
	bl	"rtp_841016a0_rtp_wire::packet::rtp_packet_mut::RtpPacketMut::renumber"
	ldp	x29,x30,[sp,#288]
	mov	w8,#16
	cmp	w0,#0
	csel	w0,wzr,w8,ne
	add	sp,sp,#304
	ret
1:
	mov	w0,wzr
	ldp	x29,x30,[sp,#288]
	add	sp,sp,#304
	b	"rtp_841016a0_rtp_c::status::refusal_status"
2:
	mov	w0,#1
	ldp	x29,x30,[sp,#288]
	add	sp,sp,#304
	b	"rtp_841016a0_rtp_c::status::refusal_status"
3:
	mov	w0,#2
	ldp	x29,x30,[sp,#288]
	add	sp,sp,#304
	b	"rtp_841016a0_rtp_c::status::refusal_status"
4:
	mov	w0,#3
	ldp	x29,x30,[sp,#288]
	add	sp,sp,#304
	b	"rtp_841016a0_rtp_c::status::refusal_status"
6:
	mov	w0,#4
	ldp	x29,x30,[sp,#288]
	add	sp,sp,#304
	b	"rtp_841016a0_rtp_c::status::refusal_status"
	.size	rtp_841016a0_rtpw_renumber,.-rtp_841016a0_rtpw_renumber
	.cfi_endproc

	.section	.text.rtpw_set_csrc,"ax",@progbits
	.globl	rtp_841016a0_rtpw_set_csrc
	.p2align	2
	.type	rtp_841016a0_rtpw_set_csrc,@function
rtp_841016a0_rtpw_set_csrc:
	.cfi_startproc
	cmp	x0,#0
	mov	w8,#4096
	csel	x8,x8,xzr,eq
	cmp	x1,#12
	b.lo	1f
	add	x8,x0,x8
	ldrsb	w9,[x8]
	cmn	w9,#65
	b.gt	2f
	and	x9,x9,#0xff
	ubfiz	x10,x9,#2,#4
	add	x10,x10,#12
	subs	x11,x1,x10
	b.lo	3f
	tbz	w9,#4,4f
	subs	x11,x11,#4
	b.lo	5f
	add	x10,x8,x10
	ldrb	w12,[x10,#2]
	ldrb	w10,[x10,#3]
	lsl	x12,x12,#10
	orr	x10,x12,x10,lsl #2
	cmp	x11,x10
	b.lo	6f
4:
	and	x9,x9,#0xf
	cmp	x2,x9
	b.hs	4f
	add	x8,x8,x2,lsl #2
	mov	w0,wzr
	rev	w9,w3
	str	w9,[x8,#12]
	ret
4:
	mov	w0,#11
	ret
1:
	mov	w0,wzr
	b	"rtp_841016a0_rtp_c::status::refusal_status"
2:
	mov	w0,#1
	b	"rtp_841016a0_rtp_c::status::refusal_status"
3:
	mov	w0,#2
	b	"rtp_841016a0_rtp_c::status::refusal_status"
5:
	mov	w0,#3
	b	"rtp_841016a0_rtp_c::status::refusal_status"
6:
	mov	w0,#4
	b	"rtp_841016a0_rtp_c::status::refusal_status"
	.size	rtp_841016a0_rtpw_set_csrc,.-rtp_841016a0_rtpw_set_csrc
	.cfi_endproc

	.section	.text.rtp_proved_set_element,"ax",@progbits
	.p2align	2
	.type	rtp_841016a0_rtp_proved_set_element,@function
rtp_841016a0_rtp_proved_set_element:
	.cfi_startproc
	sub	sp,sp,#112
	str	x29,[sp,#16]
	stp	x30,x27,[sp,#32]
	stp	x26,x25,[sp,#48]
	stp	x24,x23,[sp,#64]
	stp	x22,x21,[sp,#80]
	stp	x20,x19,[sp,#96]
	.cfi_def_cfa_offset 112
	.cfi_offset w19,-8
	.cfi_offset w20,-16
	.cfi_offset w21,-24
	.cfi_offset w22,-32
	.cfi_offset w23,-40
	.cfi_offset w24,-48
	.cfi_offset w25,-56
	.cfi_offset w26,-64
	.cfi_offset w27,-72
	.cfi_offset w30,-80
	.cfi_offset w29,-96
	mov	w8,#4096
	cmp	x0,#0
	csel	x20,x8,xzr,eq
	cmp	x3,#0
	csel	x19,x8,xzr,eq
	cmp	x1,#12
	b.lo	1f
	add	x8,x0,x20
	ldrsb	w9,[x8]
	cmn	w9,#65
	b.gt	2f
	and	x21,x9,#0xff
	ubfiz	x23,x21,#2,#4
	add	x9,x23,#12
	subs	x10,x1,x9
	b.lo	3f
	tbz	w21,#4,4f
	subs	x12,x10,#4
	b.lo	5f
	add	x11,x8,x9
	ldrb	w10,[x11,#2]
	ldrb	w13,[x11,#3]
	lsl	x10,x10,#10
	orr	x10,x10,x13,lsl #2
	cmp	x12,x10
	b.lo	6f
	ldrh	w11,[x11]
	mov	w12,#57022
	cmp	w11,w12
	and	w11,w11,#0xfffff0ff
	b.eq	7f
	cmp	w11,#16
	b.eq	7f
4:
	mov	w8,#11
8:
	ldp	x20,x19,[sp,#96]
	mov	w0,w8
	ldp	x22,x21,[sp,#80]
	ldr	x29,[sp,#16]
	ldp	x24,x23,[sp,#64]
	ldp	x26,x25,[sp,#48]
	ldp	x30,x27,[sp,#32]
	add	sp,sp,#112
	ret
7:
	add	w12,w23,#16
	cmp	w11,#16
	and	w27,w2,#0xff
	sub	x9,x9,x12
	add	x24,x8,x12
	add	x9,x9,x10
	add	x29,x9,#4
	b.ne	7f
	cbz	x29,4b
	mov	x1,x29
	mov	x8,x24
	str	wzr,[sp,#28]
	stp	xzr,xzr,[sp]
9:
	ldrb	w9,[x8]
	cbnz	w9,10f
	cmp	x1,#2
	b.eq	11f
	cmp	x1,#1
	b.eq	12f
	cmp	x1,#3
	b.hi	13f
	ldrb	w9,[x8,#1]
	cbnz	w9,13f
	ldrb	w9,[x8,#2]
	cbnz	w9,13f
	b	12f
11:
	ldrb	w9,[x8,#1]
	cbz	w9,12f
13:
	mov	x22,x0
	sub	x1,x1,#1
	add	x0,x8,#1
	mov	x25,x3
	mov	x26,x4
	bl	"rtp_841016a0_rtp_ext::elements::skip_zeros"
	cbz	x1,11f
	mov	x8,x0
	mov	x4,x26
	mov	x3,x25
	mov	x0,x22
10:
	cmp	x1,#2
	b.lo	12f
	ldrb	w9,[x8,#1]
	add	x10,x9,#2
	subs	x1,x1,x10
	b.lo	12f
	ldrb	w11,[x8]
	add	x8,x8,x10
	cmp	w11,w27
	b.eq	10f
	cbnz	x1,9b
	b	12f
10:
	sub	x11,x29,x1
	sub	x10,x29,x1
	sub	x9,x11,x9
	stp	x10,x9,[sp]
	mov	w9,#1
	str	w9,[sp,#28]
	cbnz	x1,9b
	b	12f
7:
	cbz	x29,4b
	mov	x1,x29
	mov	x8,x24
	str	wzr,[sp,#28]
	stp	xzr,xzr,[sp]
4:
	ldrb	w9,[x8]
	cbnz	w9,7f
	cmp	x1,#2
	b.eq	9f
	cmp	x1,#1
	b.eq	12f
	cmp	x1,#3
	b.hi	10f
	ldrb	w9,[x8,#1]
	cbnz	w9,10f
	ldrb	w9,[x8,#2]
	cbnz	w9,10f
	b	12f
9:
	ldrb	w9,[x8,#1]
	cbz	w9,12f
10:
	mov	x22,x0
	sub	x1,x1,#1
	add	x0,x8,#1
	mov	x25,x3
	mov	x26,x4
	bl	"rtp_841016a0_rtp_ext::elements::skip_zeros"
	cbz	x1,11f
	ldrb	w9,[x0]
	mov	x8,x0
	mov	x4,x26
	mov	x3,x25
	mov	x0,x22
7:
	cmp	w9,#239
	b.hi	12f
	and	w10,w9,#0xf
	add	w10,w10,#2
	subs	x1,x1,x10
	b.lo	12f
	cmp	w27,w9,lsr #4
	add	x8,x8,x10
	b.eq	7f
	cbnz	x1,4b
	b	12f
7:
	sub	x11,x29,x1
	sub	x9,x29,x1
	str	x9,[sp]
	sub	x9,x11,x10
	add	x9,x9,#1
	str	x9,[sp,#8]
	mov	w9,#1
	str	w9,[sp,#28]
	cbnz	x1,4b
	b	12f
1:
	mov	w0,wzr
	b	1f
2:
	mov	w0,#1
	b	1f
3:
	mov	w0,#2
	b	1f
5:
	mov	w0,#3
	b	1f
6:
	mov	w0,#4
1:
	ldp	x20,x19,[sp,#96]
	ldr	x29,[sp,#16]
	ldp	x22,x21,[sp,#80]
	ldp	x24,x23,[sp,#64]
	ldp	x26,x25,[sp,#48]
	ldp	x30,x27,[sp,#32]
	add	sp,sp,#112
	b	"rtp_841016a0_rtp_c::status::refusal_status"
11:
	mov	x4,x26
	mov	x3,x25
	mov	x0,x22
12:
	ldr	w8,[sp,#28]
	cmp	w8,#1
	mov	w8,#11
	b.ne	8b
	ldp	x9,x13,[sp]
	sub	x9,x9,x13
	cmp	x9,x4
	b.ne	8b
	add	x1,x3,x19
	cbz	x4,1f
	cmp	x4,#1
	b.ne	2f
	ldrb	w9,[x1]
	mov	w8,wzr
	strb	w9,[x24,x13]
	b	8b
2:
	cmp	x4,#2
	b.hi	2f
	ldrb	w9,[x1]
	add	x10,x24,x13
	mov	w8,wzr
	strb	w9,[x10]
	ldrb	w9,[x1,#1]
	strb	w9,[x10,#1]
	b	8b
2:
	cmp	x4,#3
	b.ne	1f
	ldrb	w9,[x1]
	add	x10,x24,x13
	mov	w8,wzr
	strb	w9,[x10]
	ldrb	w9,[x1,#1]
	strb	w9,[x10,#1]
	ldrb	w9,[x1,#2]
	strb	w9,[x10,#2]
	b	8b
1:
	add	x8,x24,x13
	sub	x9,x8,x1
	cmp	x9,x4
	b.hs	1f
	cmp	x4,#8
	b.lo	2f
	add	x8,x20,x13
	add	x9,x19,x3
	add	x8,x8,x0
	add	x8,x8,x23
	sub	x8,x8,x9
	add	x8,x8,#16
	cmp	x8,#32
	b.hs	3f
2:
	mov	x8,xzr
2:
	add	x9,x20,x8
	and	x10,x21,#0xf
	add	x9,x9,x13
	add	x9,x9,x10,lsl #2
	add	x10,x19,x8
	add	x10,x3,x10
	add	x11,x9,x0
	sub	x9,x4,x8
	add	x11,x11,#16
4:
	ldrb	w12,[x10],#1
	mov	w8,wzr
	subs	x9,x9,#1
	strb	w12,[x11],#1
	b.ne	4b
	b	8b
1:
	mov	x0,x8
	mov	x2,x4
	bl	memmove
1:
	mov	w8,wzr
	b	8b
3:
	cmp	x4,#32
	b.hs	3f
	mov	x8,xzr
	b	4f
3:
	add	x8,x20,x13
	add	x11,x19,x3
	and	x9,x4,#0x18
	add	x10,x8,x0
	and	x8,x4,#0xffffffffffffffe0
	add	x12,x10,x23
	add	x10,x11,#16
	add	x11,x12,#32
	and	x12,x4,#0xffffffffffffffe0
3:
	ldp	q0,q1,[x10,#-16]
	subs	x12,x12,#32
	add	x10,x10,#32
	stp	q0,q1,[x11,#-16]
	add	x11,x11,#32
	b.ne	3b
	cmp	x4,x8
	b.eq	1b
	cbz	x9,2b
4:
	mov	x9,x8
	add	x8,x20,x13
	and	x10,x21,#0xf
	add	x8,x8,x9
	add	x11,x19,x9
	add	x10,x8,x10,lsl #2
	and	x8,x4,#0xfffffffffffffff8
	sub	x9,x9,x8
	add	x12,x10,x0
	add	x10,x3,x11
	add	x11,x12,#16
3:
	ldr	d0,[x10],#8
	adds	x9,x9,#8
	str	d0,[x11],#8
	b.ne	3b
	cmp	x4,x8
	b.ne	2b
	b	1b
	.size	rtp_841016a0_rtp_proved_set_element,.-rtp_841016a0_rtp_proved_set_element
	.cfi_endproc

	.section	.text.rtpw_set_padding,"ax",@progbits
	.globl	rtp_841016a0_rtpw_set_padding
	.p2align	2
	.type	rtp_841016a0_rtpw_set_padding,@function
rtp_841016a0_rtpw_set_padding:
	.cfi_startproc
	mov	w8,#4096
	cmp	x0,#0
	csel	x8,x8,xzr,eq
	cmp	x1,#12
	b.lo	1f
	add	x8,x0,x8
	ldrsb	w9,[x8]
	cmn	w9,#65
	b.gt	2f
	and	x9,x9,#0xff
	ubfiz	x10,x9,#2,#4
	add	x10,x10,#12
	subs	x11,x1,x10
	b.lo	3f
	tbz	w9,#4,4f
	subs	x11,x11,#4
	b.lo	5f
	add	x10,x8,x10
	ldrb	w12,[x10,#2]
	ldrb	w10,[x10,#3]
	lsl	x12,x12,#10
	orr	x10,x12,x10,lsl #2
	cmp	x11,x10
	b.lo	6f
4:
	tst	w2,#0x1
	mov	w10,#-128
	mov	w11,#-96
	csel	w10,w11,w10,ne
	mov	w0,wzr
	bfxil	w10,w9,#0,#5
	strb	w10,[x8]
	ret
1:
	mov	w0,wzr
	b	"rtp_841016a0_rtp_c::status::refusal_status"
2:
	mov	w0,#1
	b	"rtp_841016a0_rtp_c::status::refusal_status"
3:
	mov	w0,#2
	b	"rtp_841016a0_rtp_c::status::refusal_status"
5:
	mov	w0,#3
	b	"rtp_841016a0_rtp_c::status::refusal_status"
6:
	mov	w0,#4
	b	"rtp_841016a0_rtp_c::status::refusal_status"
	.size	rtp_841016a0_rtpw_set_padding,.-rtp_841016a0_rtpw_set_padding
	.cfi_endproc

	.section	.text.rtpw_to_retransmission,"ax",@progbits
	.globl	rtp_841016a0_rtpw_to_retransmission
	.p2align	2
	.type	rtp_841016a0_rtpw_to_retransmission,@function
rtp_841016a0_rtpw_to_retransmission:
	.cfi_startproc
	cmp	x0,#0
	mov	w8,#4096
	csel	x8,x8,xzr,eq
	tbnz	w4,#7,1f
	sub	sp,sp,#400
	str	x29,[sp,#304]
	stp	x30,x27,[sp,#320]
	stp	x26,x25,[sp,#336]
	stp	x24,x23,[sp,#352]
	stp	x22,x21,[sp,#368]
	stp	x20,x19,[sp,#384]
	.cfi_def_cfa_offset 400
	.cfi_offset w19,-8
	.cfi_offset w20,-16
	.cfi_offset w21,-24
	.cfi_offset w22,-32
	.cfi_offset w23,-40
	.cfi_offset w24,-48
	.cfi_offset w25,-56
	.cfi_offset w26,-64
	.cfi_offset w27,-72
	.cfi_offset w30,-80
	.cfi_offset w29,-96
	ldur	q0,[x6,#193]
	add	x9,sp,#16
	ldur	q1,[x6,#209]
	strb	wzr,[sp,#16]
	stur	q0,[x9,#193]
	ldur	q0,[x6,#225]
	stur	q1,[x9,#209]
	ldr	q1,[x6,#240]
	stur	q0,[x9,#225]
	ldur	q0,[x6,#129]
	str	q1,[sp,#256]
	ldur	q1,[x6,#145]
	stur	q0,[x9,#129]
	ldur	q0,[x6,#161]
	stur	q1,[x9,#145]
	ldur	q1,[x6,#177]
	stur	q0,[x9,#161]
	ldur	q0,[x6,#65]
	stur	q1,[x9,#177]
	ldur	q1,[x6,#81]
	ldr	x9,[x2]
	stur	q0,[sp,#81]
	ldur	q0,[x6,#97]
	stur	q1,[sp,#97]
	ldur	q1,[x6,#113]
	cmp	x1,x9
	stur	q0,[sp,#113]
	ldur	q0,[x6,#1]
	stur	q1,[sp,#129]
	ldur	q1,[x6,#17]
	stur	q0,[sp,#17]
	ldur	q0,[x6,#33]
	stur	q1,[sp,#33]
	stur	q0,[sp,#49]
	ldur	q0,[x6,#49]
	stur	q0,[sp,#65]
	b.hs	2f
3:
	mov	w0,#9
	b	4f
1:
	mov	w0,#9
	ret
2:
	cmp	x9,#12
	b.hs	1f
	mov	w0,#1
	b	4f
1:
	add	x20,x0,x8
	ldrsb	w8,[x20]
	cmn	w8,#65
	b.gt	1f
	and	x11,x8,#0xff
	ubfiz	x8,x11,#2,#4
	add	x21,x8,#12
	subs	x19,x9,x21
	b.hs	2f
	mov	w0,#3
	b	4f
1:
	mov	w0,#2
4:
	ldp	x20,x19,[sp,#384]
	ldr	x29,[sp,#304]
	ldp	x22,x21,[sp,#368]
	ldp	x24,x23,[sp,#352]
	ldp	x26,x25,[sp,#336]
	ldp	x30,x27,[sp,#320]
	add	sp,sp,#400
	ret
2:
	tbnz	w11,#4,1f
	mov	w12,wzr
	mov	w10,wzr
	tbz	w11,#5,2f
5:
	cmp	x9,x21
	b.ne	6f
	mov	x19,xzr
	b	2f
1:
	subs	x13,x19,#4
	b.hs	1f
	mov	w0,#4
	b	4b
1:
	add	x12,x20,x21
	ldrb	w10,[x12,#2]
	ldrb	w14,[x12,#3]
	lsl	x10,x10,#10
	orr	x10,x10,x14,lsl #2
	cmp	x13,x10
	b.hs	1f
	mov	w0,#6
	b	4b
6:
	add	x9,x20,x9
	ldurb	w9,[x9,#-1]
	subs	x19,x19,x9
	b.lo	3b
	b	2f
1:
	ldrh	w12,[x12]
	add	x14,x21,x10
	add	x21,x14,#4
	and	w13,w12,#0xfffff0ff
	sub	x19,x9,x21
	cmp	w13,#16
	mov	w13,#57022
	cset	w10,eq
	cmp	w12,w13
	csinc	w12,w10,wzr,ne
	tbnz	w11,#5,5b
2:
	add	x22,x19,x21
	sub	x9,x1,x22
	cmp	x9,#1
	b.hi	1f
	cbz	w12,2f
	tbz	w10,#0,3f
2:
	mov	w0,#8
	b	4b
1:
	ldrb	w24,[x20,#2]
	ldrb	w25,[x20,#3]
	add	x0,sp,#272
	add	x1,sp,#16
	mov	w29,w5
	mov	w27,w4
	mov	w26,w3
	mov	x23,x2
	stp	x20,x21,[sp,#272]
	stp	x21,xzr,[sp,#288]
	strb	w12,[sp,#296]
	strb	w10,[sp,#297]
	bl	"rtp_841016a0_rtp_wire::packet::rtp_packet_mut::RtpPacketMut::renumber"
	tbz	w0,#0,1f
	ldrb	w8,[x20]
	rev	w9,w29
	ldrb	w11,[x20,#1]
	mov	w10,#128
	lsr	w9,w9,#16
	bfxil	w10,w8,#0,#5
	and	w8,w11,#0x80
	strh	w9,[x20,#2]
	orr	w8,w8,w27
	rev	w9,w26
	strb	w10,[x20]
	strb	w8,[x20,#1]
	str	w9,[x20,#8]
	cbz	x19,5f
	add	x8,x20,x21
	add	x1,x20,x21
	mov	x2,x19
	add	x0,x8,#2
	bl	memmove
5:
	orr	w8,w24,w25,lsl #8
	add	x9,x22,#2
	mov	w0,wzr
	strh	w8,[x20,x21]
	str	x9,[x23]
	b	4b
1:
	mov	w0,#16
	b	4b
3:
	movi	v0.8b,#14
	ldr	d1,[sp,#16]
	cmhi	v1.8b,v1.8b,v0.8b
	umaxv	b1,v1.8b
	fmov	w9,s1
	tbnz	w9,#0,1f
	ldur	d1,[sp,#23]
	cmhi	v0.8b,v1.8b,v0.8b
	umaxv	b0,v0.8b
	fmov	w9,s0
	tbz	w9,#0,2b
1:
	add	w9,w8,#16
	add	x8,x20,x9
	sub	x1,x21,x9
1:
	cbz	x1,2b
	ldrb	w9,[x8]
	cbnz	w9,3f
	cmp	x1,#2
	b.eq	5f
	cmp	x1,#1
	b.eq	2b
	cmp	x1,#3
	b.hi	6f
	ldrb	w9,[x8,#1]
	cbnz	w9,6f
	ldrb	w9,[x8,#2]
	cbnz	w9,6f
	b	2b
5:
	ldrb	w9,[x8,#1]
	cbz	w9,2b
6:
	sub	x1,x1,#1
	add	x0,x8,#1
	bl	"rtp_841016a0_rtp_ext::elements::skip_zeros"
	cbz	x1,2b
	ldrb	w9,[x0]
	mov	x8,x0
3:
	cmp	w9,#239
	b.hi	2b
	and	w10,w9,#0xf
	add	w10,w10,#2
	subs	x1,x1,x10
	b.lo	2b
	mov	w9,w9
	add	x11,sp,#16
	add	x8,x8,x10
	lsr	x9,x9,#4
	mov	w0,#16
	ldrb	w9,[x11,x9]
	cmp	w9,#15
	b.lo	1b
	b	4b
	.size	rtp_841016a0_rtpw_to_retransmission,.-rtp_841016a0_rtpw_to_retransmission
	.cfi_endproc

	.section	.text.rtpw_set_fields,"ax",@progbits
	.globl	rtp_841016a0_rtpw_set_fields
	.p2align	2
	.type	rtp_841016a0_rtpw_set_fields,@function
rtp_841016a0_rtpw_set_fields:
	.cfi_startproc
	ldrb	w10,[x2,#15]
	cmp	x0,#0
	mov	w8,#4096
	ldrsb	w9,[x2,#10]
	csel	x8,x8,xzr,eq
	cbz	w10,1f
	tbz	w9,#31,1f
	mov	w0,#9
	ret
1:
	cmp	x1,#12
	b.lo	1f
	add	x8,x0,x8
	ldrsb	w11,[x8]
	cmn	w11,#65
	b.gt	2f
	and	x4,x11,#0xff
	ubfiz	x11,x4,#2,#4
	add	x3,x11,#12
	subs	x1,x1,x3
	b.lo	3f
	ldp	w14,w11,[x2]
	ldrb	w0,[x2,#16]
	ldrb	w17,[x2,#11]
	ldrb	w16,[x2,#14]
	ldrh	w15,[x2,#8]
	ldrb	w13,[x2,#12]
	ldrb	w12,[x2,#13]
	tbz	w4,#4,4f
	subs	x1,x1,#4
	b.lo	5f
	add	x2,x8,x3
	ldrb	w3,[x2,#2]
	ldrb	w2,[x2,#3]
	lsl	x3,x3,#10
	orr	x2,x3,x2,lsl #2
	cmp	x1,x2
	b.lo	6f
4:
	cbz	w0,4f
	cmp	w17,#0
	mov	w17,#-128
	ldrb	w0,[x8,#1]
	csel	w17,wzr,w17,eq
	bfxil	w17,w0,#0,#7
	strb	w17,[x8,#1]
4:
	cbz	w10,4f
	ldrb	w10,[x8,#1]
	and	w10,w10,#0x80
	add	w9,w10,w9
	strb	w9,[x8,#1]
4:
	cbz	w16,4f
	rev16	w9,w15
	strh	w9,[x8,#2]
4:
	cbz	w13,4f
	rev	w9,w14
	str	w9,[x8,#4]
4:
	mov	w0,wzr
	cbz	w12,4f
	rev	w9,w11
	str	w9,[x8,#8]
4:
	ret
1:
	mov	w0,wzr
	b	"rtp_841016a0_rtp_c::status::refusal_status"
2:
	mov	w0,#1
	b	"rtp_841016a0_rtp_c::status::refusal_status"
3:
	mov	w0,#2
	b	"rtp_841016a0_rtp_c::status::refusal_status"
5:
	mov	w0,#3
	b	"rtp_841016a0_rtp_c::status::refusal_status"
6:
	mov	w0,#4
	b	"rtp_841016a0_rtp_c::status::refusal_status"
	.size	rtp_841016a0_rtpw_set_fields,.-rtp_841016a0_rtpw_set_fields
	.cfi_endproc

	.section	.text.rtpw_set_marker,"ax",@progbits
	.globl	rtp_841016a0_rtpw_set_marker
	.p2align	2
	.type	rtp_841016a0_rtpw_set_marker,@function
rtp_841016a0_rtpw_set_marker:
	.cfi_startproc
	mov	w8,#4096
	cmp	x0,#0
	csel	x8,x8,xzr,eq
	cmp	x1,#12
	b.lo	1f
	add	x8,x0,x8
	ldrsb	w9,[x8]
	cmn	w9,#65
	b.gt	2f
	and	x10,x9,#0xff
	ubfiz	x9,x10,#2,#4
	add	x9,x9,#12
	subs	x11,x1,x9
	b.lo	3f
	tbz	w10,#4,4f
	subs	x10,x11,#4
	b.lo	5f
	add	x9,x8,x9
	ldrb	w11,[x9,#2]
	ldrb	w9,[x9,#3]
	lsl	x11,x11,#10
	orr	x9,x11,x9,lsl #2
	cmp	x10,x9
	b.lo	6f
4:
	tst	w2,#0x1
	mov	w9,#-128
	ldrb	w10,[x8,#1]
	csel	w9,w9,wzr,ne
	mov	w0,wzr
	bfxil	w9,w10,#0,#7
	strb	w9,[x8,#1]
	ret
1:
	mov	w0,wzr
	b	"rtp_841016a0_rtp_c::status::refusal_status"
2:
	mov	w0,#1
	b	"rtp_841016a0_rtp_c::status::refusal_status"
3:
	mov	w0,#2
	b	"rtp_841016a0_rtp_c::status::refusal_status"
5:
	mov	w0,#3
	b	"rtp_841016a0_rtp_c::status::refusal_status"
6:
	mov	w0,#4
	b	"rtp_841016a0_rtp_c::status::refusal_status"
	.size	rtp_841016a0_rtpw_set_marker,.-rtp_841016a0_rtpw_set_marker
	.cfi_endproc

	.section	.text.rtpw_set_payload_type,"ax",@progbits
	.globl	rtp_841016a0_rtpw_set_payload_type
	.p2align	2
	.type	rtp_841016a0_rtpw_set_payload_type,@function
rtp_841016a0_rtpw_set_payload_type:
	.cfi_startproc
	cmp	x0,#0
	mov	w8,#4096
	csel	x8,x8,xzr,eq
	tbnz	w2,#7,1f
	cmp	x1,#12
	b.lo	2f
	add	x8,x0,x8
	ldrsb	w9,[x8]
	cmn	w9,#65
	b.gt	3f
	and	x10,x9,#0xff
	ubfiz	x9,x10,#2,#4
	add	x9,x9,#12
	subs	x11,x1,x9
	b.lo	4f
	tbz	w10,#4,5f
	subs	x10,x11,#4
	b.lo	6f
	add	x9,x8,x9
	ldrb	w11,[x9,#2]
	ldrb	w9,[x9,#3]
	lsl	x11,x11,#10
	orr	x9,x11,x9,lsl #2
	cmp	x10,x9
	b.lo	7f
5:
	ldrb	w9,[x8,#1]
	mov	w0,wzr
	and	w9,w9,#0x80
	orr	w9,w9,w2
	strb	w9,[x8,#1]
	ret
1:
	mov	w0,#9
	ret
2:
	mov	w0,wzr
	b	"rtp_841016a0_rtp_c::status::refusal_status"
3:
	mov	w0,#1
	b	"rtp_841016a0_rtp_c::status::refusal_status"
4:
	mov	w0,#2
	b	"rtp_841016a0_rtp_c::status::refusal_status"
6:
	mov	w0,#3
	b	"rtp_841016a0_rtp_c::status::refusal_status"
7:
	mov	w0,#4
	b	"rtp_841016a0_rtp_c::status::refusal_status"
	.size	rtp_841016a0_rtpw_set_payload_type,.-rtp_841016a0_rtpw_set_payload_type
	.cfi_endproc

	.section	.text.rtpw_set_sequence_number,"ax",@progbits
	.globl	rtp_841016a0_rtpw_set_sequence_number
	.p2align	2
	.type	rtp_841016a0_rtpw_set_sequence_number,@function
rtp_841016a0_rtpw_set_sequence_number:
	.cfi_startproc
	mov	w8,#4096
	cmp	x0,#0
	csel	x8,x8,xzr,eq
	cmp	x1,#12
	b.lo	1f
	add	x8,x0,x8
	ldrsb	w9,[x8]
	cmn	w9,#65
	b.gt	2f
	and	x10,x9,#0xff
	ubfiz	x9,x10,#2,#4
	add	x9,x9,#12
	subs	x11,x1,x9
	b.lo	3f
	tbz	w10,#4,4f
	subs	x10,x11,#4
	b.lo	5f
	add	x9,x8,x9
	ldrb	w11,[x9,#2]
	ldrb	w9,[x9,#3]
	lsl	x11,x11,#10
	orr	x9,x11,x9,lsl #2
	cmp	x10,x9
	b.lo	6f
4:
	rev	w9,w2
	mov	w0,wzr
	lsr	w9,w9,#16
	strh	w9,[x8,#2]
	ret
1:
	mov	w0,wzr
	b	"rtp_841016a0_rtp_c::status::refusal_status"
2:
	mov	w0,#1
	b	"rtp_841016a0_rtp_c::status::refusal_status"
3:
	mov	w0,#2
	b	"rtp_841016a0_rtp_c::status::refusal_status"
5:
	mov	w0,#3
	b	"rtp_841016a0_rtp_c::status::refusal_status"
6:
	mov	w0,#4
	b	"rtp_841016a0_rtp_c::status::refusal_status"
	.size	rtp_841016a0_rtpw_set_sequence_number,.-rtp_841016a0_rtpw_set_sequence_number
	.cfi_endproc

	.section	.text.rtpw_set_ssrc,"ax",@progbits
	.globl	rtp_841016a0_rtpw_set_ssrc
	.p2align	2
	.type	rtp_841016a0_rtpw_set_ssrc,@function
rtp_841016a0_rtpw_set_ssrc:
	.cfi_startproc
	mov	w8,#4096
	cmp	x0,#0
	csel	x8,x8,xzr,eq
	cmp	x1,#12
	b.lo	1f
	add	x8,x0,x8
	ldrsb	w9,[x8]
	cmn	w9,#65
	b.gt	2f
	and	x10,x9,#0xff
	ubfiz	x9,x10,#2,#4
	add	x9,x9,#12
	subs	x11,x1,x9
	b.lo	3f
	tbz	w10,#4,4f
	subs	x10,x11,#4
	b.lo	5f
	add	x9,x8,x9
	ldrb	w11,[x9,#2]
	ldrb	w9,[x9,#3]
	lsl	x11,x11,#10
	orr	x9,x11,x9,lsl #2
	cmp	x10,x9
	b.lo	6f
4:
	rev	w9,w2
	mov	w0,wzr
	str	w9,[x8,#8]
	ret
1:
	mov	w0,wzr
	b	"rtp_841016a0_rtp_c::status::refusal_status"
2:
	mov	w0,#1
	b	"rtp_841016a0_rtp_c::status::refusal_status"
3:
	mov	w0,#2
	b	"rtp_841016a0_rtp_c::status::refusal_status"
5:
	mov	w0,#3
	b	"rtp_841016a0_rtp_c::status::refusal_status"
6:
	mov	w0,#4
	b	"rtp_841016a0_rtp_c::status::refusal_status"
	.size	rtp_841016a0_rtpw_set_ssrc,.-rtp_841016a0_rtpw_set_ssrc
	.cfi_endproc

	.section	.text.rtpw_set_timestamp,"ax",@progbits
	.globl	rtp_841016a0_rtpw_set_timestamp
	.p2align	2
	.type	rtp_841016a0_rtpw_set_timestamp,@function
rtp_841016a0_rtpw_set_timestamp:
	.cfi_startproc
	mov	w8,#4096
	cmp	x0,#0
	csel	x8,x8,xzr,eq
	cmp	x1,#12
	b.lo	1f
	add	x8,x0,x8
	ldrsb	w9,[x8]
	cmn	w9,#65
	b.gt	2f
	and	x10,x9,#0xff
	ubfiz	x9,x10,#2,#4
	add	x9,x9,#12
	subs	x11,x1,x9
	b.lo	3f
	tbz	w10,#4,4f
	subs	x10,x11,#4
	b.lo	5f
	add	x9,x8,x9
	ldrb	w11,[x9,#2]
	ldrb	w9,[x9,#3]
	lsl	x11,x11,#10
	orr	x9,x11,x9,lsl #2
	cmp	x10,x9
	b.lo	6f
4:
	rev	w9,w2
	mov	w0,wzr
	str	w9,[x8,#4]
	ret
1:
	mov	w0,wzr
	b	"rtp_841016a0_rtp_c::status::refusal_status"
2:
	mov	w0,#1
	b	"rtp_841016a0_rtp_c::status::refusal_status"
3:
	mov	w0,#2
	b	"rtp_841016a0_rtp_c::status::refusal_status"
5:
	mov	w0,#3
	b	"rtp_841016a0_rtp_c::status::refusal_status"
6:
	mov	w0,#4
	b	"rtp_841016a0_rtp_c::status::refusal_status"
	.size	rtp_841016a0_rtpw_set_timestamp,.-rtp_841016a0_rtpw_set_timestamp
	.cfi_endproc

	.section	.rodata.cst16,"aM",@progbits,16
	.p2align	4,0x0
.Lrtp_841016a0_CPI152_0:
	.xword	1
	.xword	0
	.section	.text.rtpw_receiver_record,"ax",@progbits
	.globl	rtp_841016a0_rtpw_receiver_record
	.p2align	2
	.type	rtp_841016a0_rtpw_receiver_record,@function
rtp_841016a0_rtpw_receiver_record:
	.cfi_startproc
	ldrb	w8,[x0,#24]
	cbz	w8,1f
	ldp	x12,x10,[x0]
	ldr	x9,[x0,#16]
	subs	x11,x12,x1
	orr	x10,x10,#0x1
	b.hs	2f
	sub	x11,x1,x12
	cmp	x11,#1
	b.ne	3f
	orr	x11,x11,x10,lsl #1
	extr	x9,x9,x10,#63
	cmp	w8,#1
	stp	x1,x11,[x0]
	str	x9,[x0,#16]
	b.ne	4f
	b	5f
1:
	adrp	x8,.Lrtp_841016a0_CPI152_0
	str	x1,[x0]
	ldr	q0,[x8,:lo12:.Lrtp_841016a0_CPI152_0]
	stur	q0,[x0,#8]
	b	4f
2:
	cmp	x11,#127
	b.ls	1f
	cmp	w8,#1
	stp	x12,x10,[x0]
	str	x9,[x0,#16]
	b.ne	4f
	b	5f
3:
	cmp	x11,#127
	b.hi	2f
	lsr	x12,x10,#1
	mvn	w13,w11
	lsl	x9,x9,x11
	lsl	x10,x10,x11
	tst	x11,#0x40
	lsr	x12,x12,x13
	csel	x11,xzr,x10,ne
	orr	x9,x9,x12
	orr	x11,x11,#0x1
	csel	x9,x10,x9,ne
	cmp	w8,#1
	stp	x1,x11,[x0]
	str	x9,[x0,#16]
	b.ne	4f
	b	5f
1:
	mov	w13,#1
	tst	x11,#0x40
	lsl	x13,x13,x11
	csel	x11,xzr,x13,ne
	csel	x13,x13,xzr,ne
	and	x14,x13,x9
	and	x15,x11,x10
	orr	x14,x15,x14
	cmp	x14,#0
	csel	x13,x13,xzr,eq
	csel	x11,x11,xzr,eq
	orr	x11,x11,x10
	orr	x9,x13,x9
	cmp	w8,#1
	stp	x12,x11,[x0]
	str	x9,[x0,#16]
	b.eq	5f
4:
	mov	w8,#1
	strb	w8,[x0,#24]
5:
	ret
2:
	mov	w11,#1
	cmp	w8,#1
	stp	x1,x11,[x0]
	str	xzr,[x0,#16]
	b.ne	4b
	b	5b
	.size	rtp_841016a0_rtpw_receiver_record,.-rtp_841016a0_rtpw_receiver_record
	.cfi_endproc

	.section	.text.rtpw_receiver_start,"ax",@progbits
	.globl	rtp_841016a0_rtpw_receiver_start
	.p2align	2
	.type	rtp_841016a0_rtpw_receiver_start,@function
rtp_841016a0_rtpw_receiver_start:
	.cfi_startproc
	lsr	x9,x1,#48
	cbz	x9,1f
	mov	w0,#9
	ret
1:
	lsl	x9,x1,#16
	mov	x8,x0
	mov	w0,wzr
	stp	xzr,xzr,[x8,#8]
	str	x9,[x8]
	strb	wzr,[x8,#24]
	ret
	.size	rtp_841016a0_rtpw_receiver_start,.-rtp_841016a0_rtpw_receiver_start
	.cfi_endproc

	.section	.rodata.cst16,"aM",@progbits,16
	.p2align	4,0x0
.Lrtp_841016a0_CPI154_0:
	.byte	0
	.byte	8
	.byte	16
	.byte	24
	.byte	32
	.byte	40
	.byte	48
	.byte	56
	.byte	255
	.byte	255
	.byte	255
	.byte	255
	.byte	255
	.byte	255
	.byte	255
	.byte	255
	.section	.text.rtpw_make_from_group,"ax",@progbits
	.globl	rtp_841016a0_rtpw_make_from_group
	.p2align	2
	.type	rtp_841016a0_rtpw_make_from_group,@function
rtp_841016a0_rtpw_make_from_group:
	.cfi_startproc
	sub	sp,sp,#480
	str	d8,[sp,#384]
	str	x29,[sp,#392]
	stp	x30,x27,[sp,#400]
	stp	x26,x25,[sp,#416]
	stp	x24,x23,[sp,#432]
	stp	x22,x21,[sp,#448]
	stp	x20,x19,[sp,#464]
	.cfi_def_cfa_offset 480
	.cfi_offset w19,-8
	.cfi_offset w20,-16
	.cfi_offset w21,-24
	.cfi_offset w22,-32
	.cfi_offset w23,-40
	.cfi_offset w24,-48
	.cfi_offset w25,-56
	.cfi_offset w26,-64
	.cfi_offset w27,-72
	.cfi_offset w30,-80
	.cfi_offset w29,-88
	.cfi_offset b8,-96
	cmp	x1,#0
	mov	w8,#4096
	ldrb	w9,[x0,#546]
	csel	x13,x8,xzr,eq
	cmp	x3,#0
	stp	xzr,xzr,[sp,#88]
	csel	x11,x8,xzr,eq
	cmp	w9,#16
	str	xzr,[sp,#104]
	b.hi	1f
	ldrb	w8,[x0,#547]
	cmp	w8,#2
	b.hi	1f
	ldrb	w10,[x0]
	cbnz	w10,1f
	ldrb	w10,[x0,#256]
	cbz	w10,2f
1:
	mov	w0,#9
3:
	ldp	x20,x19,[sp,#464]
	ldr	x29,[sp,#392]
	ldp	x22,x21,[sp,#448]
	ldr	d8,[sp,#384]
	ldp	x24,x23,[sp,#432]
	ldp	x26,x25,[sp,#416]
	ldp	x30,x27,[sp,#400]
	add	sp,sp,#480
	ret
2:
	mov	w10,wzr
	cbz	w9,2f
	mov	x17,xzr
	add	x12,x0,#256
	add	x15,x0,#512
	add	x16,x0,#528
	mov	w14,#1
4:
	ldrb	w7,[x15,x17]
	add	x19,x17,#1
	ldrb	w6,[x12,w7,uxtw]
	cmp	x19,x6
	b.ne	1b
	ldrb	w17,[x16,x17]
	sub	w7,w7,#1
	cmp	w7,#14
	sub	w19,w17,#1
	add	w10,w10,w17
	mov	x17,x6
	ccmp	w19,#16,#2,lo
	cset	w7,lo
	cmp	w6,w9
	and	w14,w7,w14
	b.ne	4b
	b	4f
2:
	mov	w14,#1
4:
	ldrh	w12,[x0,#544]
	cmp	w12,w10,uxth
	b.ne	1b
	ldrb	w12,[x0,#548]
	cmp	w12,#0
	cset	w15,ne
	eor	w14,w14,w15
	tbnz	w14,#0,1b
	cmp	x2,#12
	b.hs	1f
	mov	w0,#1
	b	3b
1:
	add	x19,x1,x13
	ldrsb	w13,[x19]
	cmn	w13,#65
	b.gt	1f
	and	x13,x13,#0xff
	ubfiz	x17,x13,#2,#4
	add	x29,x17,#12
	subs	x14,x2,x29
	b.hs	2f
	mov	w0,#3
	b	3b
1:
	mov	w0,#2
	b	3b
2:
	tbnz	w13,#4,1f
	mov	w23,wzr
	mov	w22,wzr
2:
	movi	v0.2d,#0000000000000000
	mov	w13,#1
	add	x21,x3,x11
	stp	x13,xzr,[sp,#352]
	add	x13,sp,#112
	stp	xzr,xzr,[sp,#288]
	str	xzr,[sp,#264]
	stp	xzr,xzr,[sp,#368]
	stp	q0,q0,[sp,#112]
	stp	q0,q0,[sp,#144]
	stp	q0,q0,[sp,#176]
	str	q0,[sp,#208]
	str	q0,[x13,#112]
	stp	x5,x0,[sp,#72]
	str	x4,[sp,#40]
	cbz	w23,4f
	add	w14,w17,#16
	sub	x11,x29,x14
	cmp	x11,#256
	b.hi	4f
	mov	w11,#262140
	lsl	x13,x29,#1
	str	x2,[sp,#32]
	cmp	x4,x11
	str	w22,[sp,#64]
	csel	x26,x4,x11,lo
	add	x11,x13,#3
	str	w23,[sp,#28]
	subs	x11,x26,x11
	b.lo	5f
	lsl	x13,x9,#1
	add	x10,x13,w10,uxth
	cmp	x11,x10
	b.lo	5f
	mov	w4,w22
	cbz	w9,6f
	cmp	w12,#0
	csinc	w4,w22,wzr,ne
	cmp	w8,#1
	b.eq	7f
	cbz	w8,6f
	mov	w4,#1
	b	6f
1:
	subs	x15,x14,#4
	b.hs	1f
	mov	w0,#4
	b	3b
1:
	add	x14,x19,x29
	ldrb	w13,[x14,#2]
	ldrb	w16,[x14,#3]
	lsl	x13,x13,#10
	orr	x13,x13,x16,lsl #2
	cmp	x15,x13
	b.hs	1f
	mov	w0,#6
	b	3b
1:
	ldrh	w14,[x14]
	add	x13,x29,x13
	add	x29,x13,#4
	and	w15,w14,#0xfffff0ff
	cmp	w15,#16
	mov	w15,#57022
	cset	w22,eq
	cmp	w14,w15
	csinc	w23,w22,wzr,ne
	b	2b
7:
	tbnz	w4,#0,4f
	mov	w4,wzr
6:
	ldr	x27,[sp,#80]
	add	x8,sp,#112
	add	w2,w17,#16
	add	x5,x19,x14
	sub	x6,x29,x14
	mov	x0,x21
	mov	x1,x26
	mov	w3,w22
	mov	x7,x27
	stp	x14,x17,[sp,#48]
	str	w4,[sp,#68]
	str	x8,[sp]
	bl	"rtp_841016a0_rtp_route::walk::write_kept::<#82187cbc7fdfa14b>"
	mov	x8,x27
	tbz	w0,#0,1f
	ldrb	w20,[x8,#546]
	cbz	x20,2f
	ldr	w9,[sp,#68]
	add	x22,x8,#528
	cbz	w9,6f
	add	x25,sp,#112
	b	7f
8:
	add	x0,x21,x23
	mov	w1,wzr
	mov	x2,x27
	bl	memset
	ldr	x8,[sp,#80]
9:
	mov	x1,x24
	stp	w23,w27,[x25]
10:
	subs	x20,x20,#1
	add	x22,x22,#1
	add	x25,x25,#8
	b.eq	2f
7:
	ldr	w9,[x25]
	cbnz	w9,10b
	ldrb	w27,[x22]
	add	x23,x1,#2
	add	x24,x23,x27
	cmp	x26,x24
	b.lo	1f
	ldurb	w9,[x22,#-16]
	add	x10,x21,x1
	strb	w27,[x10,#1]
	strb	w9,[x10]
	cbz	w27,8b
	cmp	w27,#1
	b.ne	7f
	strb	wzr,[x21,x23]
	b	9b
7:
	cmp	w27,#2
	b.hi	7f
	strh	wzr,[x21,x23]
	b	9b
7:
	cmp	w27,#3
	b.ne	8b
	add	x9,x21,x23
	strh	wzr,[x9]
	strb	wzr,[x9,#2]
	b	9b
6:
	add	x25,sp,#112
	b	6f
7:
	add	x0,x21,x23
	mov	w1,wzr
	mov	x2,x27
	bl	memset
	ldr	x8,[sp,#80]
8:
	add	x1,x23,x27
	stp	w23,w27,[x25]
9:
	subs	x20,x20,#1
	add	x22,x22,#1
	add	x25,x25,#8
	b.eq	2f
6:
	ldr	w9,[x25]
	cbnz	w9,9b
	ldrb	w27,[x22]
	add	x9,x1,x27
	add	x9,x9,#2
	cmp	x26,x9
	b.lo	1f
	ldurb	w9,[x22,#-16]
	add	x23,x1,#1
	lsr	w10,w9,#4
	orr	w9,w10,w9,lsl #4
	add	w9,w27,w9
	sub	w9,w9,#1
	strb	w9,[x21,x1]
	cbz	w27,7b
	cmp	w27,#1
	b.ne	6f
	strb	wzr,[x21,x23]
	b	8b
6:
	cmp	w27,#3
	b.hs	6f
	strh	wzr,[x21,x23]
	b	8b
6:
	cmp	w27,#3
	b.ne	7b
	add	x9,x21,x23
	strh	wzr,[x9]
	strb	wzr,[x9,#2]
	b	8b
2:
	add	x9,x1,#3
	and	x27,x9,#0xfffffffffffffffc
	cmp	x26,x27
	b.lo	1f
	ldp	x22,x10,[sp,#48]
	subs	x9,x27,x1
	b.eq	2f
	cmp	x9,#2
	b.eq	6f
	cmp	x9,#1
	b.ne	7f
	strb	wzr,[x21,x1]
	b	2f
6:
	strh	wzr,[x21,x1]
	b	2f
7:
	add	x9,x21,x1
	strb	wzr,[x9,#2]
	strh	wzr,[x9]
2:
	cmp	w10,#33
	sub	x20,x27,x22
	b.lo	2f
	mov	x0,x21
	mov	x1,x19
	mov	x2,x22
	bl	"rtp_841016a0_rtp_route::copying::put_any"
	ldp	x11,x8,[sp,#72]
	ldp	w9,w12,[sp,#64]
	b	6f
2:
	ldp	w9,w12,[sp,#64]
	ldr	q0,[x19]
	cmp	w10,#17
	str	q0,[x21]
	b.lo	2f
	ldr	q0,[x19,#16]
	str	q0,[x21,#16]
2:
	ldr	x11,[sp,#72]
	ldr	q0,[x19,x10]
	str	q0,[x21,x10]
6:
	cmp	w12,w9
	b.eq	2f
	cmp	w12,#0
	mov	w9,#16
	mov	w10,#-8514
	csel	w9,w10,w9,eq
	add	x10,x21,x22
	sturh	w9,[x10,#-4]
2:
	lsl	w9,w20,#6
	add	x10,x21,x22
	bfxil	w9,w20,#10,#8
	sturh	w9,[x10,#-2]
	b	2f
1:
	ldrb	w8,[x8,#547]
5:
	ldr	x2,[sp,#32]
	ldr	w22,[sp,#64]
	cmp	w8,#1
	ldr	w23,[sp,#28]
	b.ne	1f
4:
	strb	w22,[sp,#265]
	ldr	x22,[sp,#80]
	ldr	x4,[sp,#40]
	stp	x19,x2,[sp,#240]
	add	x0,sp,#272
	add	x1,sp,#240
	add	x5,sp,#112
	mov	x2,x22
	mov	x3,x21
	str	x29,[sp,#256]
	strb	w23,[sp,#264]
	bl	"rtp_841016a0_rtp_route::making::make_by_calls_of::<#82187cbc7fdfa14b>"
	ldrb	w9,[sp,#272]
	ldr	x27,[sp,#280]
	mov	x8,x22
	ldr	x11,[sp,#72]
	cbz	w9,2f
	and	x9,x27,#0xff
	ldrb	w8,[sp,#288]
	ldrb	w10,[sp,#289]
	str	x9,[sp,#88]
	ldr	x9,[sp,#296]
	add	x0,sp,#88
	strb	w8,[sp,#96]
	strb	w10,[sp,#97]
	str	x9,[sp,#104]
	bl	"rtp_841016a0_rtp_c::template::not_routed_status"
	b	3b
1:
	ldr	x3,[sp,#80]
	ldr	x5,[sp,#40]
	add	x0,sp,#360
	stp	x19,x2,[sp,#328]
	add	x1,sp,#328
	mov	x20,x2
	add	x2,sp,#304
	add	x6,sp,#112
	mov	x4,x21
	str	x29,[sp,#344]
	strb	w22,[sp,#353]
	stp	xzr,xzr,[sp,#312]
	str	xzr,[sp,#304]
	bl	"rtp_841016a0_rtp_route::by_walk::write_in_two_byte_form::<#82187cbc7fdfa14b>"
	ldrb	w8,[sp,#360]
	mov	x2,x20
	cmp	w8,#1
	b.ne	4b
	ldp	x11,x8,[sp,#72]
	ldr	x27,[sp,#368]
2:
	movi	v0.2d,#0000000000000000
	ldrb	w8,[x8,#546]
	mov	x9,x11
	str	xzr,[x9,#71]!
	mov	x10,x9
	str	xzr,[x9,#8]
	str	q0,[x10,#-67]!
	stur	q0,[x9,#-19]
	stur	q0,[x9,#-35]
	stur	q0,[x9,#-51]
	cbz	w8,1f
	cmp	w8,#8
	b.lo	2f
	add	x12,x11,x8
	add	x12,x12,#71
	cmp	x10,x12
	b.hs	4f
	add	x10,x11,x8,lsl #2
	add	x10,x10,#4
	cmp	x9,x10
	b.hs	4f
2:
	mov	w12,wzr
	mov	x10,xzr
2:
	add	x13,sp,#112
	add	x14,x9,x10,lsl #2
	ldr	x13,[x13,x10,lsl #3]
	lsr	x15,x13,#32
	stur	w13,[x14,#-67]
	strb	w15,[x9,x10]
	add	x10,x10,#1
	cmp	x8,x10
	add	w12,w12,w15
	b.ne	2b
	b	5f
1:
	mov	w12,wzr
5:
	mov	w0,wzr
	str	w27,[x11]
	strh	w12,[x11,#68]
	strb	w8,[x11,#70]
	b	3b
4:
	cmp	w8,#32
	b.hs	1f
	mov	x10,xzr
	mov	w12,wzr
	b	3f
1:
	add	x10,sp,#112
	ldp	q2,q1,[sp,#192]
	ldp	q0,q17,[x10,#112]
	ldr	q7,[sp,#112]
	ldp	q4,q3,[sp,#160]
	ldr	q26,[x10,#208]
	ldp	q6,q5,[sp,#128]
	uzp1	v18.4s,v1.4s,v0.4s
	uzp2	v0.4s,v1.4s,v0.4s
	ldp	q22,q21,[x10,#144]
	uzp1	v16.4s,v3.4s,v2.4s
	ldp	q23,q24,[x10,#176]
	uzp2	v19.4s,v5.4s,v4.4s
	ldp	q27,q25,[x10,#224]
	uzp2	v20.4s,v7.4s,v6.4s
	uzp2	v1.4s,v3.4s,v2.4s
	uzp2	v28.4s,v17.4s,v22.4s
	uzp1	v4.4s,v5.4s,v4.4s
	uzp2	v3.4s,v21.4s,v23.4s
	uzp2	v29.4s,v24.4s,v26.4s
	uzp1	v5.4s,v7.4s,v6.4s
	uzp2	v2.4s,v27.4s,v25.4s
	uzp1	v6.4s,v17.4s,v22.4s
	uzp1	v7.4s,v21.4s,v23.4s
	stur	q16,[x11,#36]
	uzp1	v16.4s,v24.4s,v26.4s
	and	x10,x8,#0xe0
	uzp1	v0.8h,v1.8h,v0.8h
	uzp1	v1.8h,v20.8h,v19.8h
	stur	q4,[x11,#20]
	uzp1	v3.8h,v28.8h,v3.8h
	uzp1	v4.4s,v27.4s,v25.4s
	stur	q5,[x11,#4]
	uzp1	v2.8h,v29.8h,v2.8h
	stur	q6,[x11,#68]
	cmp	x10,#32
	stur	q18,[x11,#52]
	uzp1	v5.16b,v1.16b,v0.16b
	stur	q7,[x11,#84]
	stur	q16,[x11,#100]
	uzp1	v6.16b,v3.16b,v2.16b
	stur	q4,[x11,#116]
	stur	q5,[x11,#71]
	stur	q6,[x11,#87]
	b.eq	1f
	add	x11,sp,#112
	cmp	x10,#64
	ldp	q5,q4,[x11,#256]
	ldp	q7,q6,[x11,#320]
	ldp	q17,q16,[x11,#352]
	ldp	q19,q18,[x11,#288]
	uzp1	v22.4s,v5.4s,v4.4s
	ldp	q25,q24,[x11,#480]
	uzp2	v4.4s,v5.4s,v4.4s
	ldp	q26,q5,[x11,#416]
	uzp1	v20.4s,v7.4s,v6.4s
	ldp	q28,q27,[x11,#448]
	uzp1	v21.4s,v17.4s,v16.4s
	ldp	q30,q29,[x11,#384]
	uzp2	v23.4s,v19.4s,v18.4s
	uzp2	v16.4s,v17.4s,v16.4s
	uzp2	v6.4s,v7.4s,v6.4s
	uzp2	v7.4s,v26.4s,v5.4s
	uzp2	v31.4s,v25.4s,v24.4s
	uzp2	v8.4s,v28.4s,v27.4s
	uzp1	v18.4s,v19.4s,v18.4s
	uzp2	v17.4s,v30.4s,v29.4s
	uzp1	v5.4s,v26.4s,v5.4s
	ldr	x11,[sp,#72]
	uzp1	v4.8h,v4.8h,v23.8h
	uzp1	v19.4s,v28.4s,v27.4s
	uzp1	v24.4s,v25.4s,v24.4s
	uzp1	v6.8h,v6.8h,v16.8h
	stur	q22,[x11,#132]
	uzp1	v16.8h,v8.8h,v31.8h
	stur	q18,[x11,#148]
	uzp1	v7.8h,v17.8h,v7.8h
	uzp1	v17.4s,v30.4s,v29.4s
	stur	q5,[x11,#212]
	add	v1.8h,v1.8h,v4.8h
	stur	q21,[x11,#180]
	uzp1	v18.16b,v4.16b,v6.16b
	add	v0.8h,v0.8h,v6.8h
	stur	q20,[x11,#164]
	add	v2.8h,v2.8h,v16.8h
	stur	q24,[x11,#244]
	uzp1	v5.16b,v7.16b,v16.16b
	add	v3.8h,v3.8h,v7.8h
	stur	q19,[x11,#228]
	stur	q17,[x11,#196]
	stur	q18,[x11,#103]
	stur	q5,[x11,#119]
	b.eq	1f
	add	x11,sp,#112
	ldr	x12,[sp,#72]
	cmp	x10,#96
	ldp	q5,q4,[x11,#544]
	ldp	q7,q6,[x11,#608]
	ldp	q17,q16,[x11,#576]
	uzp1	v18.4s,v5.4s,v4.4s
	ldp	q20,q19,[x11,#512]
	uzp2	v4.4s,v5.4s,v4.4s
	ldp	q23,q5,[x11,#736]
	ldp	q26,q25,[x11,#672]
	uzp1	v21.4s,v17.4s,v16.4s
	ldp	q28,q27,[x11,#704]
	uzp1	v22.4s,v7.4s,v6.4s
	ldp	q30,q29,[x11,#640]
	uzp2	v24.4s,v20.4s,v19.4s
	uzp2	v6.4s,v7.4s,v6.4s
	uzp2	v7.4s,v17.4s,v16.4s
	uzp2	v16.4s,v26.4s,v25.4s
	uzp2	v31.4s,v23.4s,v5.4s
	uzp2	v8.4s,v28.4s,v27.4s
	uzp1	v19.4s,v20.4s,v19.4s
	uzp2	v17.4s,v30.4s,v29.4s
	uzp1	v20.4s,v26.4s,v25.4s
	uzp1	v25.4s,v28.4s,v27.4s
	uzp1	v5.4s,v23.4s,v5.4s
	uzp1	v4.8h,v24.8h,v4.8h
	add	x11,x12,#260
	uzp1	v6.8h,v7.8h,v6.8h
	stp	q21,q22,[x11,#32]
	uzp1	v7.8h,v8.8h,v31.8h
	stp	q19,q18,[x11]
	uzp1	v16.8h,v17.8h,v16.8h
	uzp1	v17.4s,v30.4s,v29.4s
	stp	q25,q5,[x11,#96]
	add	v1.8h,v1.8h,v4.8h
	uzp1	v5.16b,v4.16b,v6.16b
	add	v0.8h,v0.8h,v6.8h
	add	v2.8h,v2.8h,v7.8h
	uzp1	v18.16b,v16.16b,v7.16b
	add	v3.8h,v3.8h,v16.8h
	stp	q17,q20,[x11,#64]
	stur	q5,[x12,#135]
	stur	q18,[x12,#151]
	b.eq	1f
	add	x12,sp,#112
	cmp	x10,#128
	ldp	q5,q4,[x12,#800]
	ldp	q7,q6,[x12,#864]
	ldp	q17,q16,[x12,#832]
	uzp1	v18.4s,v5.4s,v4.4s
	ldp	q20,q19,[x12,#768]
	uzp2	v4.4s,v5.4s,v4.4s
	ldp	q23,q5,[x12,#992]
	ldp	q26,q25,[x12,#928]
	uzp1	v21.4s,v17.4s,v16.4s
	ldp	q28,q27,[x12,#960]
	uzp1	v22.4s,v7.4s,v6.4s
	ldp	q30,q29,[x12,#896]
	uzp2	v24.4s,v20.4s,v19.4s
	uzp2	v6.4s,v7.4s,v6.4s
	uzp2	v7.4s,v17.4s,v16.4s
	uzp2	v16.4s,v26.4s,v25.4s
	uzp2	v31.4s,v23.4s,v5.4s
	uzp2	v8.4s,v28.4s,v27.4s
	uzp1	v19.4s,v20.4s,v19.4s
	uzp2	v17.4s,v30.4s,v29.4s
	uzp1	v20.4s,v26.4s,v25.4s
	uzp1	v25.4s,v28.4s,v27.4s
	uzp1	v5.4s,v23.4s,v5.4s
	uzp1	v4.8h,v24.8h,v4.8h
	ldr	x12,[sp,#72]
	uzp1	v6.8h,v7.8h,v6.8h
	stp	q21,q22,[x11,#160]
	uzp1	v7.8h,v8.8h,v31.8h
	stp	q19,q18,[x11,#128]
	uzp1	v16.8h,v17.8h,v16.8h
	uzp1	v17.4s,v30.4s,v29.4s
	stp	q25,q5,[x11,#224]
	add	v1.8h,v1.8h,v4.8h
	uzp1	v5.16b,v4.16b,v6.16b
	add	v0.8h,v0.8h,v6.8h
	add	v2.8h,v2.8h,v7.8h
	uzp1	v18.16b,v16.16b,v7.16b
	add	v3.8h,v3.8h,v16.8h
	stp	q17,q20,[x11,#192]
	stur	q5,[x12,#167]
	stur	q18,[x12,#183]
	b.eq	1f
	add	x12,sp,#112
	cmp	x10,#160
	ldr	q5,[x12,#1072]
	ldr	q6,[x12,#1056]
	ldr	q4,[x12,#1136]
	ldr	q7,[x12,#1120]
	ldr	q16,[x12,#1104]
	ldr	q17,[x12,#1088]
	uzp1	v18.4s,v6.4s,v5.4s
	ldr	q19,[x12,#1040]
	ldr	q20,[x12,#1024]
	uzp2	v5.4s,v6.4s,v5.4s
	ldr	q6,[x12,#1264]
	ldr	q23,[x12,#1248]
	ldr	q25,[x12,#1232]
	ldr	q26,[x12,#1200]
	uzp1	v21.4s,v17.4s,v16.4s
	ldr	q27,[x12,#1184]
	ldr	q28,[x12,#1216]
	uzp1	v22.4s,v7.4s,v4.4s
	ldr	q29,[x12,#1168]
	ldr	q30,[x12,#1152]
	uzp2	v24.4s,v20.4s,v19.4s
	uzp2	v4.4s,v7.4s,v4.4s
	uzp2	v7.4s,v17.4s,v16.4s
	uzp2	v16.4s,v27.4s,v26.4s
	uzp2	v17.4s,v30.4s,v29.4s
	uzp2	v31.4s,v23.4s,v6.4s
	uzp2	v8.4s,v28.4s,v25.4s
	uzp1	v19.4s,v20.4s,v19.4s
	uzp1	v25.4s,v28.4s,v25.4s
	uzp1	v6.4s,v23.4s,v6.4s
	uzp1	v5.8h,v24.8h,v5.8h
	uzp1	v20.4s,v27.4s,v26.4s
	ldr	x12,[sp,#72]
	uzp1	v4.8h,v7.8h,v4.8h
	stp	q21,q22,[x11,#288]
	uzp1	v7.8h,v8.8h,v31.8h
	uzp1	v16.8h,v17.8h,v16.8h
	uzp1	v17.4s,v30.4s,v29.4s
	stp	q19,q18,[x11,#256]
	stp	q25,q6,[x11,#352]
	add	v1.8h,v1.8h,v5.8h
	uzp1	v6.16b,v5.16b,v4.16b
	add	v0.8h,v0.8h,v4.8h
	uzp1	v18.16b,v16.16b,v7.16b
	add	v2.8h,v2.8h,v7.8h
	add	v3.8h,v3.8h,v16.8h
	stp	q17,q20,[x11,#320]
	stur	q6,[x12,#199]
	stur	q18,[x12,#215]
	b.eq	1f
	add	x12,sp,#112
	cmp	x10,#192
	ldr	q5,[x12,#1328]
	ldr	q6,[x12,#1312]
	ldr	q4,[x12,#1392]
	ldr	q7,[x12,#1376]
	ldr	q16,[x12,#1360]
	ldr	q17,[x12,#1344]
	uzp1	v18.4s,v6.4s,v5.4s
	ldr	q19,[x12,#1296]
	ldr	q20,[x12,#1280]
	uzp2	v5.4s,v6.4s,v5.4s
	ldr	q6,[x12,#1520]
	ldr	q23,[x12,#1504]
	ldr	q25,[x12,#1488]
	ldr	q26,[x12,#1456]
	uzp1	v21.4s,v17.4s,v16.4s
	ldr	q27,[x12,#1440]
	ldr	q28,[x12,#1472]
	uzp1	v22.4s,v7.4s,v4.4s
	ldr	q29,[x12,#1424]
	ldr	q30,[x12,#1408]
	uzp2	v24.4s,v20.4s,v19.4s
	uzp2	v4.4s,v7.4s,v4.4s
	uzp2	v7.4s,v17.4s,v16.4s
	uzp2	v16.4s,v27.4s,v26.4s
	uzp2	v17.4s,v30.4s,v29.4s
	uzp2	v31.4s,v23.4s,v6.4s
	uzp2	v8.4s,v28.4s,v25.4s
	uzp1	v19.4s,v20.4s,v19.4s
	uzp1	v25.4s,v28.4s,v25.4s
	uzp1	v6.4s,v23.4s,v6.4s
	uzp1	v5.8h,v24.8h,v5.8h
	uzp1	v20.4s,v27.4s,v26.4s
	ldr	x12,[sp,#72]
	uzp1	v4.8h,v7.8h,v4.8h
	stp	q21,q22,[x11,#416]
	uzp1	v7.8h,v8.8h,v31.8h
	uzp1	v16.8h,v17.8h,v16.8h
	uzp1	v17.4s,v30.4s,v29.4s
	stp	q19,q18,[x11,#384]
	stp	q25,q6,[x11,#480]
	add	v1.8h,v1.8h,v5.8h
	uzp1	v6.16b,v5.16b,v4.16b
	add	v0.8h,v0.8h,v4.8h
	uzp1	v18.16b,v16.16b,v7.16b
	add	v2.8h,v2.8h,v7.8h
	add	v3.8h,v3.8h,v16.8h
	stp	q17,q20,[x11,#448]
	stur	q6,[x12,#231]
	stur	q18,[x12,#247]
	b.eq	1f
	add	x12,sp,#112
	ldr	q5,[x12,#1584]
	ldr	q6,[x12,#1568]
	ldr	q4,[x12,#1648]
	ldr	q7,[x12,#1632]
	ldr	q16,[x12,#1616]
	ldr	q17,[x12,#1600]
	uzp1	v18.4s,v6.4s,v5.4s
	ldr	q19,[x12,#1552]
	ldr	q20,[x12,#1536]
	uzp2	v5.4s,v6.4s,v5.4s
	ldr	q6,[x12,#1776]
	ldr	q23,[x12,#1760]
	ldr	q25,[x12,#1744]
	ldr	q26,[x12,#1712]
	uzp1	v21.4s,v17.4s,v16.4s
	ldr	q27,[x12,#1696]
	ldr	q28,[x12,#1728]
	uzp1	v22.4s,v7.4s,v4.4s
	ldr	q29,[x12,#1680]
	ldr	q30,[x12,#1664]
	uzp2	v24.4s,v20.4s,v19.4s
	uzp2	v4.4s,v7.4s,v4.4s
	uzp2	v7.4s,v17.4s,v16.4s
	uzp2	v16.4s,v27.4s,v26.4s
	uzp2	v17.4s,v30.4s,v29.4s
	uzp2	v31.4s,v23.4s,v6.4s
	uzp2	v8.4s,v28.4s,v25.4s
	uzp1	v19.4s,v20.4s,v19.4s
	uzp1	v25.4s,v28.4s,v25.4s
	uzp1	v6.4s,v23.4s,v6.4s
	uzp1	v5.8h,v24.8h,v5.8h
	uzp1	v20.4s,v27.4s,v26.4s
	stp	q21,q22,[x11,#544]
	uzp1	v4.8h,v7.8h,v4.8h
	uzp1	v7.8h,v8.8h,v31.8h
	uzp1	v16.8h,v17.8h,v16.8h
	uzp1	v17.4s,v30.4s,v29.4s
	stp	q19,q18,[x11,#512]
	stp	q25,q6,[x11,#608]
	add	v1.8h,v1.8h,v5.8h
	uzp1	v6.16b,v5.16b,v4.16b
	add	v0.8h,v0.8h,v4.8h
	uzp1	v18.16b,v16.16b,v7.16b
	add	v2.8h,v2.8h,v7.8h
	add	v3.8h,v3.8h,v16.8h
	stp	q17,q20,[x11,#576]
	stur	q6,[x11,#3]
	stur	q18,[x11,#19]
1:
	add	v1.8h,v3.8h,v1.8h
	add	v0.8h,v2.8h,v0.8h
	cmp	x10,x8
	add	v0.8h,v1.8h,v0.8h
	addv	h0,v0.8h
	fmov	w12,s0
	b.ne	1f
	ldr	x11,[sp,#72]
	b	5b
1:
	ldr	x11,[sp,#72]
	and	x13,x8,#0x18
	cbz	x13,2b
3:
	movi	v0.2d,#0000000000000000
	mov	x13,x10
	add	x14,x11,x10,lsl #2
	and	x10,x8,#0xf8
	add	x15,x13,x11
	add	x14,x14,#4
	mov	v0.h[0],w12
	add	x12,sp,#112
	add	x11,x12,x13,lsl #3
	sub	x12,x13,x10
	add	x13,x15,#71
1:
	ldp	q2,q1,[x11,#32]
	adrp	x15,.Lrtp_841016a0_CPI154_0
	ldp	q4,q3,[x11],#64
	ldr	q7,[x15,:lo12:.Lrtp_841016a0_CPI154_0]
	adds	x12,x12,#8
	uzp2	v5.4s,v2.4s,v1.4s
	ushr	v19.2d,v1.2d,#32
	uzp1	v1.4s,v2.4s,v1.4s
	uzp2	v6.4s,v4.4s,v3.4s
	ushr	v18.2d,v2.2d,#32
	uzp1	v2.4s,v4.4s,v3.4s
	ushr	v17.2d,v3.2d,#32
	ushr	v16.2d,v4.2d,#32
	uzp1	v5.8h,v6.8h,v5.8h
	stp	q2,q1,[x14],#32
	tbl	v6.16b,{ v16.16b,v17.16b,v18.16b,v19.16b },v7.16b
	add	v0.8h,v0.8h,v5.8h
	str	d6,[x13],#8
	b.ne	1b
	addv	h0,v0.8h
	ldr	x11,[sp,#72]
	cmp	x10,x8
	fmov	w12,s0
	b.ne	2b
	b	5b
	.size	rtp_841016a0_rtpw_make_from_group,.-rtp_841016a0_rtpw_make_from_group
	.cfi_endproc

	.section	.rodata.cst16,"aM",@progbits,16
	.p2align	4,0x0
.Lrtp_841016a0_CPI155_0:
	.byte	0
	.byte	8
	.byte	16
	.byte	24
	.byte	32
	.byte	40
	.byte	48
	.byte	56
	.byte	255
	.byte	255
	.byte	255
	.byte	255
	.byte	255
	.byte	255
	.byte	255
	.byte	255
	.section	.text.rtpw_make_template,"ax",@progbits
	.globl	rtp_841016a0_rtpw_make_template
	.p2align	2
	.type	rtp_841016a0_rtpw_make_template,@function
rtp_841016a0_rtpw_make_template:
	.cfi_startproc
	str	x29,[sp,#-96]!
	stp	x30,x27,[sp,#16]
	stp	x26,x25,[sp,#32]
	stp	x24,x23,[sp,#48]
	stp	x22,x21,[sp,#64]
	stp	x20,x19,[sp,#80]
	sub	sp,sp,#1120
	str	xzr,[sp]
	.cfi_def_cfa_offset 1216
	.cfi_offset w19,-8
	.cfi_offset w20,-16
	.cfi_offset w21,-24
	.cfi_offset w22,-32
	.cfi_offset w23,-40
	.cfi_offset w24,-48
	.cfi_offset w25,-56
	.cfi_offset w26,-64
	.cfi_offset w27,-72
	.cfi_offset w30,-80
	.cfi_offset w29,-96
	cmp	x0,#0
	mov	w11,#4096
	ldr	x26,[sp,#1216]
	csel	x10,x11,xzr,eq
	cmp	x3,#0
	and	w8,w7,#0xff
	csel	x9,x11,xzr,eq
	cmp	x5,#0
	str	xzr,[sp,#296]
	csel	x12,x11,xzr,eq
	cmp	x26,#0
	stp	xzr,xzr,[sp,#112]
	csel	x24,x11,xzr,eq
	cmp	w8,#2
	str	xzr,[sp,#104]
	b.hi	1f
	cmp	x6,#16
	b.hi	1f
	ubfiz	x16,x7,#3,#5
	add	x20,x0,x10
	mov	w10,#256
	movk	w10,#1,lsl #16
	add	x14,x3,x9
	mov	w9,#65536
	lsr	w10,w10,w16
	ldr	x23,[sp,#1232]
	ldr	x21,[sp,#1224]
	lsr	w9,w9,w16
	add	x8,sp,#944
	add	x13,sp,#304
	add	x11,sp,#128
	add	x15,x5,x12
	add	x19,x26,x24
	and	w10,w10,#0x1
	add	x16,x6,#1
	add	x17,x5,x12
2:
	subs	x16,x16,#1
	b.eq	3f
	ldr	x0,[x17]
	subs	x0,x4,x0
	b.lo	1f
	ldr	x3,[x17,#8]
	add	x17,x17,#32
	cmp	x3,x0
	b.ls	2b
1:
	mov	w0,#9
1:
	add	sp,sp,#1120
	ldp	x20,x19,[sp,#80]
	ldp	x22,x21,[sp,#64]
	ldp	x24,x23,[sp,#48]
	ldp	x26,x25,[sp,#32]
	ldp	x30,x27,[sp,#16]
	ldr	x29,[sp],#96
	ret
3:
	cmp	x1,#12
	b.hs	2f
	mov	w0,#1
	b	1b
2:
	ldrsb	w16,[x20]
	cmn	w16,#65
	b.gt	2f
	and	x16,x16,#0xff
	ubfiz	x22,x16,#2,#4
	add	x25,x22,#12
	subs	x17,x1,x25
	b.hs	3f
	mov	w0,#3
	b	1b
2:
	mov	w0,#2
	b	1b
3:
	tbnz	w16,#4,2f
	str	x23,[sp,#80]
	mov	w29,wzr
	mov	w3,wzr
3:
	ldur	q0,[x2,#193]
	ldur	q1,[x2,#209]
	add	x16,sp,#304
	strb	wzr,[sp,#304]
	stur	q0,[x13,#193]
	ldur	q0,[x2,#225]
	stur	q1,[x13,#209]
	ldr	q1,[x2,#240]
	stur	q0,[x13,#225]
	ldur	q0,[x2,#129]
	str	q1,[x13,#240]
	ldur	q1,[x2,#145]
	stur	q0,[x13,#129]
	ldur	q0,[x2,#161]
	stur	q1,[x13,#145]
	ldur	q1,[x2,#177]
	stur	q0,[x13,#161]
	ldur	q0,[x2,#65]
	stur	q1,[x13,#177]
	ldur	q1,[x2,#81]
	stur	q0,[x13,#65]
	ldur	q0,[x2,#97]
	stur	q1,[x13,#81]
	ldur	q1,[x2,#113]
	stur	q0,[x13,#97]
	ldur	q0,[x2,#1]
	stur	q1,[x13,#113]
	ldur	q1,[x2,#17]
	stur	q0,[x13,#1]
	ldur	q0,[x2,#33]
	stur	q1,[x13,#17]
	stur	q0,[x13,#33]
	ldur	q0,[x2,#49]
	stp	x16,x14,[sp,#256]
	stur	q0,[x13,#49]
	movi	v0.2d,#0000000000000000
	stp	x4,x15,[sp,#272]
	str	x6,[sp,#288]
	strb	w10,[sp,#296]
	stp	q0,q0,[x13,#288]
	stp	q0,q0,[x13,#320]
	stp	q0,q0,[x13,#352]
	stp	q0,q0,[x13,#384]
	stp	q0,q0,[x13,#416]
	stp	q0,q0,[x13,#448]
	stp	q0,q0,[x13,#480]
	stp	q0,q0,[x13,#512]
	stp	q0,q0,[x13,#544]
	mov	x13,xzr
	strb	w9,[sp,#297]
	stp	q0,q0,[sp,#128]
	stp	q0,q0,[sp,#160]
	stp	q0,q0,[sp,#192]
	str	q0,[sp,#224]
	str	q0,[x11,#112]
	str	xzr,[sp,#584]
	cbz	x6,4f
	add	x14,x12,x5
	add	x14,x14,#24
5:
	ldrb	w15,[x14],#32
	add	x16,sp,#592
	ldrb	w17,[x16,x15]
	cbnz	w17,6f
	add	w17,w13,#1
	add	x13,x13,#1
	strb	w17,[x16,x15]
	cmp	x6,x13
	b.ne	5b
	add	x12,x12,x5
	mov	x13,xzr
	mov	x15,x6
	add	x14,x12,#24
	mov	w12,#1
5:
	ldur	x16,[x14,#-16]
	cmp	x16,#255
	b.hi	7f
	ldrb	w17,[x14],#32
	cbz	w17,7f
	sub	x0,x16,#1
	cmp	w17,#15
	add	x13,x13,x16
	ccmp	x0,#16,#2,lo
	add	x13,x13,#2
	cset	w17,lo
	subs	x15,x15,#1
	and	w12,w17,w12
	b.ne	5b
	b	5f
2:
	subs	x0,x17,#4
	b.hs	2f
	mov	w0,#4
	b	1b
2:
	add	x17,x20,x25
	ldrb	w16,[x17,#2]
	ldrb	w3,[x17,#3]
	lsl	x16,x16,#10
	orr	x16,x16,x3,lsl #2
	cmp	x0,x16
	b.hs	2f
	mov	w0,#6
	b	1b
4:
	mov	w12,#1
5:
	add	x14,sp,#256
	add	x15,sp,#592
	strb	w12,[sp,#968]
	mov	w12,#1
	str	x14,[sp,#944]
	str	x15,[sp,#952]
	str	x13,[sp,#960]
	stur	wzr,[x8,#25]
	str	wzr,[sp,#972]
	str	xzr,[sp,#936]
	str	xzr,[sp,#928]
	str	xzr,[sp,#904]
	str	xzr,[sp,#1080]
	str	xzr,[sp,#1064]
	str	xzr,[sp,#1072]
	str	x12,[sp,#1024]
	str	q0,[x11,#112]
	stp	q0,q0,[sp,#144]
	stp	q0,q0,[sp,#176]
	stp	q0,q0,[sp,#208]
	str	q0,[sp,#128]
	cbz	w29,4f
	add	w14,w22,#16
	sub	x11,x25,x14
	cmp	x11,#256
	b.hi	4f
	mov	w12,#262140
	lsl	x13,x25,#1
	add	x15,sp,#944
	cmp	x21,x12
	ldur	q0,[x15,#8]
	ldur	x11,[x15,#24]
	csel	x16,x21,x12,lo
	add	x12,x13,#3
	str	x1,[sp,#48]
	subs	x12,x16,x12
	stur	q0,[x8,#96]
	csel	x12,xzr,x12,lo
	str	x11,[sp,#1056]
	b.lo	5f
	ldr	x13,[sp,#1048]
	cmp	x12,x13
	b.lo	5f
	ldur	q0,[x8,#96]
	mov	w13,w3
	cbz	x6,8f
	tst	w11,#0x1
	and	w12,w7,#0xff
	csinc	w13,w3,wzr,ne
	cbz	w12,8f
	cmp	w12,#2
	b.eq	9f
	mov	w12,w13
	mov	w13,w9
	tbz	w12,#0,8f
	b	5f
2:
	ldrh	w17,[x17]
	add	x16,x25,x16
	str	x23,[sp,#80]
	add	x25,x16,#4
	and	w0,w17,#0xfffff0ff
	cmp	w0,#16
	mov	w0,#57022
	cset	w3,eq
	cmp	w17,w0
	csinc	w29,w3,wzr,ne
	b	3b
9:
	mov	w13,w9
8:
	stp	x22,x6,[sp,#64]
	add	x9,sp,#256
	add	x0,x26,x24
	stur	q0,[x8,#152]
	add	x8,sp,#128
	add	w2,w22,#16
	add	x5,x20,x14
	sub	x6,x25,x14
	add	x7,sp,#1088
	mov	x1,x16
	mov	w4,w13
	str	w13,[sp,#1132]
	str	w29,[sp,#36]
	str	x9,[sp,#1088]
	str	x11,[sp,#1112]
	str	x25,[sp,#40]
	str	x14,[sp,#56]
	str	w3,[sp,#1128]
	str	x8,[sp]
	str	x16,[sp,#96]
	bl	"rtp_841016a0_rtp_route::walk::write_kept::<#687967002a58489c>"
	ldr	x16,[sp,#96]
	ldr	w15,[sp,#1132]
	tbz	w0,#0,2f
	ldr	x29,[sp,#288]
	cbz	x29,3f
	ldr	x27,[sp,#264]
	ldr	x23,[sp,#280]
	add	x8,x24,x26
	mov	x22,xzr
	str	x8,[sp,#88]
	add	x8,x8,#16
	add	x9,x27,#16
	stp	x8,x9,[sp,#16]
	b	8f
9:
	ldrb	w8,[x8]
	strb	w8,[x19,x25]
10:
	add	x1,x25,x26
	stp	w25,w26,[x24]
11:
	add	x22,x22,#1
	cmp	x22,x29
	b.eq	3f
8:
	add	x8,sp,#128
	add	x24,x8,x22,lsl #3
	ldr	w8,[x24]
	cbnz	w8,11b
	add	x8,x23,x22,lsl #5
	ldr	x26,[x8,#8]
	add	x9,x1,x26
	add	x9,x9,#2
	cmp	x16,x9
	b.lo	2f
	ldr	x9,[x8]
	ldrb	w8,[x8,#24]
	tst	w15,#0xff
	b.eq	8f
	add	x10,x19,x1
	strb	w8,[x10]
	strb	w26,[x10,#1]
	mov	w10,#2
	b	11f
8:
	lsr	w10,w8,#4
	orr	w8,w10,w8,lsl #4
	mov	w10,#1
	add	w8,w26,w8
	sub	w8,w8,#1
	strb	w8,[x19,x1]
11:
	add	x8,x27,x9
	add	x25,x10,x1
	cbz	x26,8f
	cmp	x26,#1
	b.eq	9b
	cmp	x26,#2
	b.hi	9f
	ldrb	w9,[x8]
	add	x10,x19,x25
	strb	w9,[x10]
	ldrb	w8,[x8,#1]
	strb	w8,[x10,#1]
	b	10b
9:
	cmp	x26,#3
	b.ne	8f
	ldrb	w9,[x8]
	add	x10,x19,x25
	strb	w9,[x10]
	ldrb	w9,[x8,#1]
	strb	w9,[x10,#1]
	ldrb	w8,[x8,#2]
	strb	w8,[x10,#2]
	b	10b
8:
	add	x11,x19,x25
	sub	x11,x11,x8
	cmp	x11,x26
	b.hs	8f
	cmp	x26,#8
	b.lo	9f
	ldr	x8,[sp,#88]
	add	x8,x8,x1
	add	x8,x8,x10
	sub	x8,x8,x27
	sub	x8,x8,x9
	cmp	x8,#32
	b.hs	11f
9:
	mov	x8,xzr
9:
	add	x11,x8,x1
	add	x9,x8,x9
	sub	x8,x26,x8
	add	x10,x11,x10
	ldr	x11,[sp,#88]
	add	x9,x27,x9
	add	x10,x11,x10
12:
	ldrb	w11,[x9],#1
	subs	x8,x8,#1
	strb	w11,[x10],#1
	b.ne	12b
	b	10b
8:
	add	x0,x19,x25
	mov	x1,x8
	mov	x2,x26
	bl	memmove
	ldr	x16,[sp,#96]
	ldr	w15,[sp,#1132]
	b	10b
11:
	cmp	x26,#32
	b.hs	8f
	mov	x8,xzr
	b	11f
8:
	ldp	x13,x12,[sp,#16]
	and	x11,x26,#0x18
	and	x8,x26,#0xffffffffffffffe0
	and	x14,x26,#0xffffffffffffffe0
	add	x12,x12,x9
	add	x13,x13,x25
8:
	ldp	q0,q1,[x12,#-16]
	subs	x14,x14,#32
	add	x12,x12,#32
	stp	q0,q1,[x13,#-16]
	add	x13,x13,#32
	b.ne	8b
	cmp	x26,x8
	b.eq	10b
	cbz	x11,9b
11:
	mov	x11,x8
	and	x8,x26,#0xfffffffffffffff8
	add	x12,x1,x11
	add	x13,x11,x9
	sub	x11,x11,x8
	add	x14,x12,x10
	add	x12,x27,x13
	ldr	x13,[sp,#88]
	add	x13,x13,x14
8:
	ldr	d0,[x12],#8
	adds	x11,x11,#8
	str	d0,[x13],#8
	b.ne	8b
	cmp	x26,x8
	b.eq	10b
	b	9b
3:
	add	x8,x1,#3
	and	x24,x8,#0xfffffffffffffffc
	cmp	x16,x24
	b.lo	2f
	ldp	x22,x10,[sp,#56]
	subs	x8,x24,x1
	ldr	x23,[sp,#80]
	b.eq	3f
	cmp	x8,#2
	b.eq	8f
	cmp	x8,#1
	b.ne	9f
	strb	wzr,[x19,x1]
	b	3f
8:
	strh	wzr,[x19,x1]
	b	3f
9:
	add	x8,x19,x1
	strb	wzr,[x8,#2]
	strh	wzr,[x8]
3:
	cmp	w10,#33
	sub	x21,x24,x22
	b.lo	3f
	mov	x0,x19
	mov	x1,x20
	mov	x2,x22
	bl	"rtp_841016a0_rtp_route::copying::put_any"
	ldr	w15,[sp,#1132]
	ldr	x8,[sp,#72]
	ldr	w9,[sp,#1128]
	b	8f
3:
	ldr	q0,[x20]
	ldr	w9,[sp,#1128]
	cmp	w10,#17
	str	q0,[x19]
	b.lo	3f
	ldr	q0,[x20,#16]
	str	q0,[x19,#16]
3:
	ldr	x8,[sp,#72]
	ldr	q0,[x20,x10]
	str	q0,[x19,x10]
8:
	cmp	w9,w15,uxtb
	b.eq	3f
	tst	w15,#0xff
	mov	w9,#16
	mov	w10,#-8514
	csel	w9,w10,w9,eq
	add	x10,x19,x22
	sturh	w9,[x10,#-4]
3:
	lsl	w10,w21,#6
	add	x12,x19,x22
	mov	x9,xzr
	mov	w11,wzr
	bfxil	w10,w21,#10,#8
	sturh	w10,[x12,#-2]
	mov	w10,#1
	b	3f
2:
	ldrb	w10,[sp,#296]
	ldrb	w9,[sp,#297]
	add	x15,sp,#944
	ldr	x6,[sp,#72]
	ldr	w3,[sp,#1128]
	ldr	x25,[sp,#40]
	ldr	w29,[sp,#36]
5:
	cmp	w10,#1
	b.ne	2f
	tst	w9,#0xff
	b.ne	2f
	ldr	x1,[sp,#48]
4:
	mov	x22,x6
4:
	str	x1,[sp,#888]
	add	x0,sp,#912
	add	x1,sp,#880
	strb	w3,[sp,#905]
	add	x2,sp,#944
	add	x5,sp,#128
	mov	x3,x19
	mov	x4,x21
	str	x20,[sp,#880]
	str	x25,[sp,#896]
	strb	w29,[sp,#904]
	bl	"rtp_841016a0_rtp_route::making::make_by_calls_of::<#687967002a58489c>"
	ldrb	w11,[sp,#912]
	ldr	x24,[sp,#920]
	mov	x8,x22
	ldrb	w10,[sp,#928]
	ldrb	w15,[sp,#929]
	ldr	x9,[sp,#936]
	b	5f
2:
	add	x8,sp,#256
	ldr	x23,[sp,#48]
	ldur	q0,[x15,#8]
	str	x8,[sp,#1032]
	ldur	x8,[x15,#24]
	mov	x22,x6
	strb	w3,[sp,#1025]
	add	x9,sp,#1032
	add	x0,sp,#1064
	add	x1,sp,#1000
	add	x2,sp,#976
	mov	w24,w3
	add	x3,sp,#1032
	add	x6,sp,#128
	mov	x4,x19
	mov	x5,x21
	str	x20,[sp,#1000]
	str	x23,[sp,#1008]
	str	x25,[sp,#1016]
	str	xzr,[sp,#992]
	str	xzr,[sp,#976]
	str	xzr,[sp,#984]
	stur	q0,[x9,#8]
	stur	x8,[x9,#24]
	bl	"rtp_841016a0_rtp_route::by_walk::write_in_two_byte_form::<#687967002a58489c>"
	ldrb	w8,[sp,#1064]
	mov	w3,w24
	mov	x1,x23
	cmp	w8,#1
	b.ne	4b
	ldr	x24,[sp,#1072]
	ldrb	w10,[sp,#1080]
	mov	x9,xzr
	ldrb	w15,[sp,#1081]
	mov	w11,wzr
	mov	x8,x22
	b	5f
6:
	mov	x9,xzr
	mov	w15,wzr
	mov	w10,wzr
	mov	w24,#1
	b	2f
7:
	str	x1,[sp,#568]
	add	x0,sp,#848
	add	x1,sp,#560
	strb	w3,[sp,#585]
	add	x2,sp,#256
	add	x5,sp,#128
	mov	x3,x19
	mov	x4,x21
	str	x20,[sp,#560]
	str	x25,[sp,#576]
	mov	x19,x6
	strb	w29,[sp,#584]
	bl	"rtp_841016a0_rtp_route::making::make_by_calls::<#d57726891005992a>"
	ldr	x24,[sp,#856]
	ldrb	w10,[sp,#864]
	mov	x8,x19
	ldrb	w15,[sp,#865]
	ldr	x9,[sp,#872]
	ldrb	w11,[sp,#848]
5:
	ldr	x23,[sp,#80]
3:
	cbnz	w11,2f
	movi	v0.2d,#0000000000000000
	mov	x11,x23
	str	q0,[x11,#4]!
	mov	x9,x11
	stp	q0,q0,[x11,#32]
	str	q0,[x11,#16]
	str	xzr,[x9,#67]!
	stur	xzr,[x11,#75]
	cbz	x8,3f
	cmp	x8,#8
	b.lo	4f
	add	x10,x23,x8
	add	x10,x10,#71
	cmp	x11,x10
	b.hs	5f
	add	x10,x23,x8,lsl #2
	add	x10,x10,#4
	cmp	x9,x10
	b.hs	5f
4:
	mov	w11,wzr
	mov	x10,xzr
4:
	add	x12,sp,#128
	add	x13,x9,x10,lsl #2
	ldr	x12,[x12,x10,lsl #3]
	lsr	x14,x12,#32
	stur	w12,[x13,#-67]
	strb	w14,[x9,x10]
	add	x10,x10,#1
	cmp	x8,x10
	add	w11,w11,w14
	b.ne	4b
	b	6f
3:
	mov	w11,wzr
6:
	mov	w0,wzr
	str	w24,[x23]
	strh	w11,[x23,#68]
	strb	w8,[x23,#70]
	b	1b
5:
	and	x10,x8,#0x18
	add	x12,sp,#128
	mov	x13,x9
	and	x14,x8,#0x18
3:
	ldp	q2,q1,[x12,#32]
	adrp	x15,.Lrtp_841016a0_CPI155_0
	ldp	q4,q3,[x12],#64
	ldr	q7,[x15,:lo12:.Lrtp_841016a0_CPI155_0]
	subs	x14,x14,#8
	uzp2	v5.4s,v2.4s,v1.4s
	ushr	v19.2d,v1.2d,#32
	uzp1	v1.4s,v2.4s,v1.4s
	uzp2	v6.4s,v4.4s,v3.4s
	ushr	v18.2d,v2.2d,#32
	uzp1	v2.4s,v4.4s,v3.4s
	ushr	v17.2d,v3.2d,#32
	ushr	v16.2d,v4.2d,#32
	uzp1	v5.8h,v6.8h,v5.8h
	stp	q2,q1,[x11],#32
	tbl	v6.16b,{ v16.16b,v17.16b,v18.16b,v19.16b },v7.16b
	add	v0.8h,v0.8h,v5.8h
	str	d6,[x13],#8
	b.ne	3b
	addv	h0,v0.8h
	cmp	x8,x10
	fmov	w11,s0
	b.ne	4b
	b	6b
2:
	and	x8,x24,#0xff
	add	x0,sp,#104
	strb	w10,[sp,#112]
	str	x8,[sp,#104]
	strb	w15,[sp,#113]
	str	x9,[sp,#120]
	bl	"rtp_841016a0_rtp_c::template::not_routed_status"
	b	1b
	.size	rtp_841016a0_rtpw_make_template,.-rtp_841016a0_rtpw_make_template
	.cfi_endproc

	.section	.text.rtpw_receiver_receive,"ax",@progbits
	.globl	rtp_841016a0_rtpw_receiver_receive
	.p2align	2
	.type	rtp_841016a0_rtpw_receiver_receive,@function
rtp_841016a0_rtpw_receiver_receive:
	.cfi_startproc
	ldr	x8,[x0]
	cmn	x8,#1
	b.eq	1f
	ldrb	w9,[x0,#24]
	cmp	w9,#1
	b.ne	1f
	add	x8,x8,#1
	and	w9,w1,#0xffff
	cmp	w9,w8,uxth
	b.ne	1f
	ldp	x10,x9,[x0,#8]
	str	x8,[x0]
	extr	x11,x9,x10,#63
	lsl	x10,x10,#1
	orr	x9,x10,#0x3
	stp	x9,x11,[x0,#8]
	mov	w0,wzr
	str	x8,[x2]
	ret
1:
	b	"rtp_841016a0_rtp_c::receiver::receive_any"
	.size	rtp_841016a0_rtpw_receiver_receive,.-rtp_841016a0_rtpw_receiver_receive
	.cfi_endproc

	.section	.text.rtpw_receive_many,"ax",@progbits
	.globl	rtp_841016a0_rtpw_receive_many
	.p2align	2
	.type	rtp_841016a0_rtpw_receive_many,@function
rtp_841016a0_rtpw_receive_many:
	.cfi_startproc
	mov	w9,#4096
	cmp	x0,#0
	csel	x8,x9,xzr,eq
	cmp	x2,#0
	csel	x9,x9,xzr,eq
	cbz	x3,1f
	str	x30,[sp,#-48]!
	stp	x22,x21,[sp,#16]
	stp	x20,x19,[sp,#32]
	.cfi_def_cfa_offset 48
	.cfi_offset w19,-8
	.cfi_offset w20,-16
	.cfi_offset w21,-24
	.cfi_offset w22,-32
	.cfi_offset w30,-48
	add	x9,x9,x2
	mov	x19,x3
	mov	x20,x1
	add	x21,x0,x8
	add	x22,x9,#20
	b	2f
3:
	mov	w8,#9
	str	w8,[x22],#24
	subs	x19,x19,#1
	b.eq	4f
2:
	ldur	x8,[x22,#-20]
	cmp	x20,x8
	b.ls	3b
	add	x0,x21,x8,lsl #5
	ldurh	w1,[x22,#-4]
	ldr	x9,[x0]
	ldrb	w8,[x0,#24]
	cmn	x9,#1
	ccmp	w8,#1,#0,ne
	sub	x8,x22,#12
	b.ne	3f
	add	x9,x9,#1
	cmp	w1,w9,uxth
	b.ne	3f
	ldp	x12,x11,[x0,#8]
	str	x9,[x0]
	extr	x10,x11,x12,#63
	lsl	x12,x12,#1
	orr	x11,x12,#0x3
	stp	x11,x10,[x0,#8]
	str	x9,[x8]
	str	wzr,[x22],#24
	subs	x19,x19,#1
	b.ne	2b
	b	4f
3:
	sub	x2,x22,#12
	bl	"rtp_841016a0_rtp_c::receiver::receive_any"
	str	w0,[x22],#24
	subs	x19,x19,#1
	b.ne	2b
4:
	ldp	x20,x19,[sp,#32]
	ldp	x22,x21,[sp,#16]
	ldr	x30,[sp],#48
1:
	ret
	.size	rtp_841016a0_rtpw_receive_many,.-rtp_841016a0_rtpw_receive_many
	.cfi_endproc

	.section	.text.rtpw_wide_receiver_receive,"ax",@progbits
	.globl	rtp_841016a0_rtpw_wide_receiver_receive
	.p2align	2
	.type	rtp_841016a0_rtpw_wide_receiver_receive,@function
rtp_841016a0_rtpw_wide_receiver_receive:
	.cfi_startproc
	mov	w8,#4096
	cmp	x1,#0
	sub	x10,x2,#1
	csel	x9,x8,xzr,eq
	cmp	x10,#511
	b.hi	1f
	ldrb	w10,[x0,#8]
	ldr	x8,[x0]
	add	x1,x1,x9
	cbz	w10,2f
	sub	w9,w3,w8
	sxth	w10,w9
	add	x11,x8,w9,uxth
	cmn	w10,#8,lsl #12
	and	x10,x8,#0x8000
	ccmp	x10,#0,#0,eq
	mov	x10,#-65536
	csel	x10,xzr,x10,eq
	tst	w9,#0x8000
	add	x10,x10,x11
	csel	x3,x11,x10,eq
	eor	x9,x3,x8
	cmp	x9,#63
	b.hi	3f
	cmp	x3,x8
	b.ls	3f
	sub	x9,x3,x8
	cmp	x9,#1
	b.ne	3f
	cmp	x2,#16
	b.ne	4f
	lsr	x9,x8,#3
	mov	w10,#1
	lsl	x8,x10,x8
	and	x11,x9,#0x78
	ubfx	x9,x3,#6,#4
	ldr	x10,[x1,x11]
	orr	x8,x10,x8
	str	x8,[x1,x11]
	b	5f
1:
	mov	w0,#9
	ret
2:
	bfxil	x8,x3,#0,#16
	mov	x3,x8
3:
	b	"rtp_841016a0_rtp_c::wide_receiver::receive_other"
4:
	lsr	x9,x8,#6
	lsr	x11,x3,#6
	udiv	x10,x9,x2
	udiv	x12,x11,x2
	msub	x10,x10,x2,x9
	msub	x9,x12,x2,x11
	mov	w11,#1
	lsl	x8,x11,x8
	ldr	x11,[x1,x10,lsl #3]
	orr	x8,x11,x8
	str	x8,[x1,x10,lsl #3]
5:
	mov	w10,#1
	ldr	x11,[x1,x9,lsl #3]
	lsl	x12,x10,x3
	orr	x11,x11,x12
	str	x11,[x1,x9,lsl #3]
	str	x3,[x0]
	strb	w10,[x0,#8]
	mov	w0,wzr
	str	x3,[x4]
	ret
	.size	rtp_841016a0_rtpw_wide_receiver_receive,.-rtp_841016a0_rtpw_wide_receiver_receive
	.cfi_endproc

	.section	.text.rtpw_wide_receiver_record,"ax",@progbits
	.globl	rtp_841016a0_rtpw_wide_receiver_record
	.p2align	2
	.type	rtp_841016a0_rtpw_wide_receiver_record,@function
rtp_841016a0_rtpw_wide_receiver_record:
	.cfi_startproc
	cmp	x1,#0
	mov	w8,#4096
	sub	x9,x2,#1
	csel	x8,x8,xzr,eq
	cmp	x9,#511
	b.hi	1f
	str	x30,[sp,#-48]!
	stp	x22,x21,[sp,#16]
	stp	x20,x19,[sp,#32]
	.cfi_def_cfa_offset 48
	.cfi_offset w19,-8
	.cfi_offset w20,-16
	.cfi_offset w21,-24
	.cfi_offset w22,-32
	.cfi_offset w30,-48
	ldrb	w9,[x0,#8]
	add	x19,x1,x8
	cbz	w9,2f
	ldr	x8,[x0]
	subs	x9,x8,x3
	b.ne	3f
4:
	mov	w0,#10
	ldp	x20,x19,[sp,#32]
	ldp	x22,x21,[sp,#16]
	ldr	x30,[sp],#48
	ret
1:
	mov	w0,#9
	ret
2:
	mov	x20,x0
	mov	x0,x19
	mov	x1,x2
	mov	x2,x3
	mov	x19,x3
	bl	"rtp_841016a0_rtp_base::ring::ring_start"
	mov	x3,x19
	mov	x0,x20
1:
	mov	w9,#1
	str	x3,[x0]
	strb	w9,[x0,#8]
	mov	w0,wzr
	ldp	x20,x19,[sp,#32]
	ldp	x22,x21,[sp,#16]
	ldr	x30,[sp],#48
	ret
3:
	b.hs	2f
3:
	cmp	x2,#16
	b.ne	5f
	ubfx	x9,x8,#6,#4
	b	6f
2:
	cmp	x2,x9,lsr #6
	b.ls	4b
	cmp	x2,#16
	b.ne	2f
	ubfx	x9,x3,#6,#4
	b	7f
5:
	lsr	x9,x8,#6
	udiv	x10,x9,x2
	msub	x9,x10,x2,x9
6:
	mov	w10,#1
	ldr	x12,[x19,x9,lsl #3]
	lsl	x11,x10,x8
	subs	x10,x8,x3
	orr	x11,x12,x11
	str	x11,[x19,x9,lsl #3]
	b.hs	5f
	sub	x9,x3,x8
	cmp	x9,#2
	b.lo	6f
	mov	x20,x2
	add	x2,x8,#1
	mov	x22,x0
	mov	x0,x19
	mov	x1,x20
	mov	x21,x3
	bl	"rtp_841016a0_rtp_base::ring::clear"
	mov	x2,x20
	mov	x3,x21
	mov	x0,x22
6:
	cmp	x2,#16
	b.ne	6f
	ubfx	x8,x3,#6,#4
	b	8f
5:
	cmp	x2,x10,lsr #6
	b.ls	5f
	mov	w9,#1
	lsr	x10,x3,#6
	cmp	x2,#16
	lsl	x9,x9,x3
	b.ne	9f
	ubfiz	x10,x10,#3,#4
	b	10f
6:
	lsr	x8,x3,#6
	udiv	x9,x8,x2
	msub	x8,x9,x2,x8
8:
	mov	w9,#1
	ldr	x10,[x19,x8,lsl #3]
	lsl	x9,x9,x3
	orr	x9,x10,x9
	str	x9,[x19,x8,lsl #3]
	b	1b
2:
	lsr	x9,x3,#6
	udiv	x10,x9,x2
	msub	x9,x10,x2,x9
7:
	ldr	x9,[x19,x9,lsl #3]
	lsr	x9,x9,x3
	tbnz	w9,#0,4b
	b	3b
9:
	udiv	x11,x10,x2
	msub	x10,x11,x2,x10
	lsl	x10,x10,#3
10:
	ldr	x11,[x19,x10]
	tst	x11,x9
	b.ne	5f
	orr	x9,x11,x9
	str	x9,[x19,x10]
5:
	mov	x3,x8
	b	1b
	.size	rtp_841016a0_rtpw_wide_receiver_record,.-rtp_841016a0_rtpw_wide_receiver_record
	.cfi_endproc

	.section	.text.rtpw_restarting_receive,"ax",@progbits
	.globl	rtp_841016a0_rtpw_restarting_receive
	.p2align	2
	.type	rtp_841016a0_rtpw_restarting_receive,@function
rtp_841016a0_rtpw_restarting_receive:
	.cfi_startproc
	sub	sp,sp,#144
	stp	x30,x23,[sp,#96]
	stp	x22,x21,[sp,#112]
	stp	x20,x19,[sp,#128]
	.cfi_def_cfa_offset 144
	.cfi_offset w19,-8
	.cfi_offset w20,-16
	.cfi_offset w21,-24
	.cfi_offset w22,-32
	.cfi_offset w23,-40
	.cfi_offset w30,-48
	ldrb	w10,[x0,#30]
	mov	x19,x2
	mov	x20,x0
	str	xzr,[sp,#40]
	cbz	w10,1f
	ldr	x21,[x20]
	ldur	q0,[x20,#8]
	add	x11,sp,#48
	lsr	x8,x21,#3
	str	q0,[sp,#48]
	and	x9,x8,#0x8
	mov	w8,#1
	orr	x9,x11,x9
	lsl	x11,x8,x21
	ldr	x12,[x9]
	orr	x11,x12,x11
	str	x11,[x9]
	b	2f
1:
	mov	x8,xzr
	stp	xzr,xzr,[sp,#48]
	mov	w21,#1
2:
	ldrh	w9,[x20,#24]
	mov	w11,#3000
	ldr	q0,[sp,#48]
	ldrb	w13,[x20,#28]
	mov	x14,sp
	stp	x8,x21,[sp]
	cmp	w9,#0
	add	x22,x14,#16
	stur	wzr,[sp,#34]
	csel	w12,w11,w9,eq
	ldrh	w11,[x20,#26]
	ldrb	w9,[x20,#29]
	str	q0,[sp,#16]
	strh	w12,[sp,#32]
	strb	w13,[sp,#38]
	strb	wzr,[sp,#39]
	strh	w11,[sp,#42]
	cbz	w10,1f
	sub	w10,w1,w21
	add	x23,x21,w10,uxth
	tbz	w10,#15,2f
	sxth	w10,w10
	cmn	w10,#8,lsl #12
	and	x10,x21,#0x8000
	ccmp	x10,#0,#0,eq
	mov	x10,#-65536
	csel	x10,xzr,x10,eq
	add	x23,x10,x23
2:
	subs	x10,x21,x23
	mov	w12,w12
	cset	w13,lo
	cmp	x10,#128
	csinc	w14,w13,wzr,hs
	subs	x13,x23,x21
	ccmp	x13,x12,#0,hs
	b.hs	2f
	tbz	w14,#0,2f
	cmp	x21,x23
	strb	wzr,[sp,#40]
	b.hs	3f
	cmp	x13,#2
	b.lo	4f
	add	x2,x21,#1
	mov	x0,x22
	mov	w1,#2
	mov	x3,x23
	bl	"rtp_841016a0_rtp_base::ring::clear"
	ldrb	w8,[sp]
	b	5f
1:
	cmp	w13,#0
	cset	w10,ne
	sub	w12,w13,w10
	mov	x10,x21
	cmp	w11,w1,uxth
	b.ne	1f
6:
	cmp	w9,w12,uxtb
	b.lo	7f
	lsr	x11,x10,#48
	cbz	x11,8f
7:
	add	w10,w9,#1
	cmp	w10,#255
	mov	w10,#255
	csinc	w9,w10,w9,hs
	b	7f
2:
	lsr	x10,x21,#16
	mov	w12,#1
	add	x10,x10,#2
	cmp	w11,w1,uxth
	b.eq	6b
1:
	tst	w12,#0xff
	mov	w9,#1
	b.ne	7f
	lsr	x11,x10,#48
	cbnz	x11,7f
8:
	bfi	x1,x10,#16,#48
	strb	wzr,[sp,#40]
	mov	x21,x1
	tbz	w8,#0,1f
	add	x0,sp,#80
	mov	w1,#2
	mov	x2,x21
	stp	xzr,xzr,[sp,#80]
	bl	"rtp_841016a0_rtp_base::ring::ring_start"
	ldr	q0,[sp,#80]
	mov	w9,#1
	mov	x23,x21
	str	q0,[x22]
	b	2f
7:
	strb	w9,[sp,#40]
	add	w9,w1,#1
	mov	x23,xzr
	strh	w9,[sp,#42]
	mov	w9,#2
	cbnz	w8,2f
	b	6f
1:
	add	x0,sp,#64
	mov	w1,#2
	mov	x2,x21
	stp	xzr,xzr,[sp,#64]
	bl	"rtp_841016a0_rtp_base::ring::ring_start"
	ldr	q0,[sp,#64]
	mov	w8,#1
	mov	x23,x21
	str	q0,[x22]
	mov	w9,wzr
	cbnz	w8,2f
	b	6f
3:
	cmp	x10,#127
	b.hi	1f
	lsr	x8,x23,#3
	mov	w9,#1
	lsl	x9,x9,x23
	and	x8,x8,#0x8
	ldr	x10,[x22,x8]
	tst	x10,x9
	b.eq	3f
1:
	mov	x23,xzr
	mov	w9,#2
	b	2f
4:
	mov	w8,#1
5:
	lsr	x9,x23,#3
	mov	w10,#1
	mov	x21,x23
	lsl	x10,x10,x23
	and	x9,x9,#0x8
	ldr	x11,[x22,x9]
	orr	x10,x11,x10
	str	x10,[x22,x9]
	mov	w9,wzr
	cbz	w8,6f
2:
	ldr	q0,[x22]
	mov	w8,#1
	str	x21,[x20]
	stur	q0,[x20,#8]
6:
	ldrb	w10,[sp,#40]
	strb	w8,[x20,#30]
	cmp	w9,#2
	ldrh	w8,[sp,#42]
	strb	w10,[x20,#29]
	strh	w8,[x20,#26]
	b.eq	1f
	cmp	w9,#1
	b.ne	4f
	mov	w0,#12
	str	x23,[x19]
	ldp	x20,x19,[sp,#128]
	ldp	x22,x21,[sp,#112]
	ldp	x30,x23,[sp,#96]
	add	sp,sp,#144
	ret
1:
	mov	w0,#10
	ldp	x20,x19,[sp,#128]
	ldp	x22,x21,[sp,#112]
	ldp	x30,x23,[sp,#96]
	add	sp,sp,#144
	ret
4:
	mov	w0,wzr
	str	x23,[x19]
	ldp	x20,x19,[sp,#128]
	ldp	x22,x21,[sp,#112]
	ldp	x30,x23,[sp,#96]
	add	sp,sp,#144
	ret
3:
	orr	x9,x10,x9
	str	x9,[x22,x8]
	mov	w8,#1
	mov	w9,wzr
	cbnz	w8,2b
	b	6b
	.size	rtp_841016a0_rtpw_restarting_receive,.-rtp_841016a0_rtpw_restarting_receive
	.cfi_endproc

	.section	.text.rtpw_wide_restarting_receive,"ax",@progbits
	.globl	rtp_841016a0_rtpw_wide_restarting_receive
	.p2align	2
	.type	rtp_841016a0_rtpw_wide_restarting_receive,@function
rtp_841016a0_rtpw_wide_restarting_receive:
	.cfi_startproc
	mov	w8,#4096
	cmp	x1,#0
	sub	x10,x2,#1
	csel	x9,x8,xzr,eq
	cmp	x10,#511
	b.hi	1f
	str	x30,[sp,#-64]!
	stp	x24,x23,[sp,#16]
	stp	x22,x21,[sp,#32]
	stp	x20,x19,[sp,#48]
	.cfi_def_cfa_offset 64
	.cfi_offset w19,-8
	.cfi_offset w20,-16
	.cfi_offset w21,-24
	.cfi_offset w22,-32
	.cfi_offset w23,-40
	.cfi_offset w24,-48
	.cfi_offset w30,-64
	ldrh	w8,[x0,#8]
	lsl	x10,x2,#6
	mov	w11,#3000
	ldrh	w13,[x0,#10]
	ldrb	w21,[x0,#16]
	ldrh	w22,[x0,#12]
	cmp	w8,#0
	add	x19,x1,x9
	csel	w12,w11,w8,eq
	cmp	x10,#3000
	ldrb	w8,[x0,#15]
	csel	x10,x10,x11,hi
	cmp	w13,#0
	csel	x11,x10,x13,eq
	cbz	w21,2f
	ldr	x9,[x0]
	sub	w10,w3,w9
	add	x20,x9,w10,uxth
	tbz	w10,#15,3f
	sxth	w10,w10
	cmn	w10,#8,lsl #12
	and	x10,x9,#0x8000
	ccmp	x10,#0,#0,eq
	mov	x10,#-65536
	csel	x10,xzr,x10,eq
	add	x20,x10,x20
3:
	subs	x10,x9,x20
	cset	w13,lo
	cmp	x11,x10
	csinc	w13,w13,wzr,ls
	subs	x11,x20,x9
	ccmp	x11,x12,#0,hs
	b.hs	3f
	tbz	w13,#0,3f
	cmp	x20,x9
	b.ne	4f
5:
	mov	w8,wzr
	b	6f
1:
	mov	w0,#9
	ret
2:
	ldrb	w9,[x0,#14]
	cmp	w9,#0
	cset	w10,ne
	sub	w10,w9,w10
	mov	w9,#1
	cmp	w22,w3,uxth
	b.ne	1f
2:
	cmp	w8,w10,uxtb
	b.lo	7f
	lsr	x10,x9,#48
	cbz	x10,8f
7:
	add	w9,w8,#1
	cmp	w9,#255
	mov	w9,#255
	csinc	w8,w9,w8,hs
	b	7f
3:
	lsr	x9,x9,#16
	mov	w10,#1
	add	x9,x9,#2
	cmp	w22,w3,uxth
	b.eq	2b
1:
	tst	w10,#0xff
	mov	w8,#1
	b.ne	7f
	lsr	x10,x9,#48
	cbnz	x10,7f
8:
	bfi	x3,x9,#16,#48
	mov	x24,x0
	mov	x0,x19
	mov	x1,x2
	mov	x23,x4
	mov	x2,x3
	mov	x20,x3
	bl	"rtp_841016a0_rtp_base::ring::ring_start"
	cbz	w21,1f
	mov	w8,#256
	strh	w22,[x24,#12]
	sturh	w8,[x24,#15]
	mov	w8,#12
	str	x20,[x24]
	str	x20,[x23]
	ldp	x20,x19,[sp,#48]
	ldp	x22,x21,[sp,#32]
	ldp	x24,x23,[sp,#16]
	ldr	x30,[sp],#64
	mov	w0,w8
	ret
7:
	add	w22,w3,#1
6:
	strb	w8,[x0,#15]
	mov	w8,#10
	strh	w22,[x0,#12]
	ldp	x20,x19,[sp,#48]
	ldp	x22,x21,[sp,#32]
	ldp	x24,x23,[sp,#16]
	ldr	x30,[sp],#64
	mov	w0,w8
	ret
4:
	cmp	x9,x20
	b.hs	2f
3:
	cmp	x2,#16
	b.ne	4f
	ubfx	x8,x9,#6,#4
	b	6f
1:
	mov	x9,x20
	mov	x0,x24
	mov	x4,x23
	b	1f
2:
	cmp	x2,x10,lsr #6
	b.ls	5b
	cmp	x2,#16
	b.ne	2f
	ubfx	x8,x20,#6,#4
	b	7f
4:
	lsr	x8,x9,#6
	udiv	x12,x8,x2
	msub	x8,x12,x2,x8
6:
	mov	w12,#1
	ldr	x13,[x19,x8,lsl #3]
	cmp	x9,x20
	lsl	x12,x12,x9
	orr	x12,x13,x12
	str	x12,[x19,x8,lsl #3]
	b.hs	4f
	cmp	x11,#2
	b.lo	6f
	mov	x21,x2
	add	x2,x9,#1
	mov	x23,x0
	mov	x0,x19
	mov	x1,x21
	mov	x3,x20
	mov	x24,x4
	bl	"rtp_841016a0_rtp_base::ring::clear"
	mov	x2,x21
	mov	x4,x24
	mov	x0,x23
6:
	cmp	x2,#16
	b.ne	6f
	ubfx	x8,x20,#6,#4
	b	8f
4:
	cmp	x2,x10,lsr #6
	b.ls	1f
	mov	w8,#1
	lsr	x10,x20,#6
	cmp	x2,#16
	lsl	x8,x8,x20
	b.ne	4f
	ubfiz	x10,x10,#3,#4
	b	9f
6:
	lsr	x8,x20,#6
	udiv	x9,x8,x2
	msub	x8,x9,x2,x8
8:
	mov	w9,#1
	ldr	x10,[x19,x8,lsl #3]
	lsl	x9,x9,x20
	orr	x9,x10,x9
	str	x9,[x19,x8,lsl #3]
	mov	x9,x20
	b	1f
2:
	lsr	x8,x20,#6
	udiv	x12,x8,x2
	msub	x8,x12,x2,x8
7:
	ldr	x8,[x19,x8,lsl #3]
	lsr	x8,x8,x20
	tbnz	w8,#0,5b
	b	3b
4:
	udiv	x11,x10,x2
	msub	x10,x11,x2,x10
	lsl	x10,x10,#3
9:
	ldr	x11,[x19,x10]
	tst	x11,x8
	b.ne	1f
	orr	x8,x11,x8
	str	x8,[x19,x10]
1:
	mov	w10,#256
	mov	w8,wzr
	strh	w22,[x0,#12]
	sturh	w10,[x0,#15]
	str	x9,[x0]
	str	x20,[x4]
	ldp	x20,x19,[sp,#48]
	ldp	x22,x21,[sp,#32]
	ldp	x24,x23,[sp,#16]
	ldr	x30,[sp],#64
	mov	w0,w8
	ret
	.size	rtp_841016a0_rtpw_wide_restarting_receive,.-rtp_841016a0_rtpw_wide_restarting_receive
	.cfi_endproc

	.section	.text.rtpw_read_mixer_level,"ax",@progbits
	.globl	rtp_841016a0_rtpw_read_mixer_level
	.p2align	2
	.type	rtp_841016a0_rtpw_read_mixer_level,@function
rtp_841016a0_rtpw_read_mixer_level:
	.cfi_startproc
	mov	x8,x0
	cmp	x2,x3
	mov	w0,#9
	b.ls	1f
	cmp	x3,x1
	b.hs	1f
	cmp	x8,#0
	mov	w9,#4096
	mov	w0,wzr
	csel	x9,x9,xzr,eq
	add	x8,x8,x9
	ldrb	w8,[x8,x3]
	and	w8,w8,#0x7f
	neg	w8,w8
	strb	w8,[x4]
1:
	ret
	.size	rtp_841016a0_rtpw_read_mixer_level,.-rtp_841016a0_rtpw_read_mixer_level
	.cfi_endproc

	.section	.text.rtpw_read_ntp_56,"ax",@progbits
	.globl	rtp_841016a0_rtpw_read_ntp_56
	.p2align	2
	.type	rtp_841016a0_rtpw_read_ntp_56,@function
rtp_841016a0_rtpw_read_ntp_56:
	.cfi_startproc
	cmp	x1,#7
	b.ne	1f
	mov	x8,x0
	mov	w9,#4096
	mov	w0,wzr
	cmp	x8,#0
	csel	x9,x9,xzr,eq
	add	x8,x8,x9
	ldrb	w9,[x8]
	ldrb	w10,[x8,#1]
	lsl	x9,x9,#8
	orr	x9,x9,x10,lsl #16
	ldrb	w10,[x8,#2]
	ldur	w8,[x8,#3]
	orr	x9,x9,x10,lsl #24
	orr	x8,x9,x8,lsl #32
	rev	x8,x8
	str	x8,[x2]
	ret
1:
	mov	w0,#9
	ret
	.size	rtp_841016a0_rtpw_read_ntp_56,.-rtp_841016a0_rtpw_read_ntp_56
	.cfi_endproc

	.section	.text.rtpw_read_ntp_64,"ax",@progbits
	.globl	rtp_841016a0_rtpw_read_ntp_64
	.p2align	2
	.type	rtp_841016a0_rtpw_read_ntp_64,@function
rtp_841016a0_rtpw_read_ntp_64:
	.cfi_startproc
	cmp	x1,#8
	b.ne	1f
	mov	x8,x0
	mov	w9,#4096
	mov	w0,wzr
	cmp	x8,#0
	csel	x9,x9,xzr,eq
	ldr	x8,[x8,x9]
	rev	x8,x8
	str	x8,[x2]
	ret
1:
	mov	w0,#9
	ret
	.size	rtp_841016a0_rtpw_read_ntp_64,.-rtp_841016a0_rtpw_read_ntp_64
	.cfi_endproc

	.section	.text.rtpw_read_send_time,"ax",@progbits
	.globl	rtp_841016a0_rtpw_read_send_time
	.p2align	2
	.type	rtp_841016a0_rtpw_read_send_time,@function
rtp_841016a0_rtpw_read_send_time:
	.cfi_startproc
	cmp	x1,#3
	b.ne	1f
	mov	x8,x0
	mov	w9,#4096
	mov	w0,wzr
	cmp	x8,#0
	csel	x9,x9,xzr,eq
	add	x8,x8,x9
	ldrb	w9,[x8]
	ldrb	w10,[x8,#1]
	ldrb	w8,[x8,#2]
	lsl	w9,w9,#8
	orr	w9,w9,w10,lsl #16
	orr	w8,w9,w8,lsl #24
	rev	w8,w8
	str	w8,[x2]
	ret
1:
	mov	w0,#9
	ret
	.size	rtp_841016a0_rtpw_read_send_time,.-rtp_841016a0_rtpw_read_send_time
	.cfi_endproc

	.section	.text.rtpw_read_transmission_offset,"ax",@progbits
	.globl	rtp_841016a0_rtpw_read_transmission_offset
	.p2align	2
	.type	rtp_841016a0_rtpw_read_transmission_offset,@function
rtp_841016a0_rtpw_read_transmission_offset:
	.cfi_startproc
	cmp	x1,#3
	b.ne	1f
	mov	x8,x0
	mov	w9,#4096
	mov	w0,wzr
	cmp	x8,#0
	csel	x9,x9,xzr,eq
	add	x8,x8,x9
	ldrb	w9,[x8]
	ldrb	w10,[x8,#1]
	ldrb	w8,[x8,#2]
	lsl	w9,w9,#8
	orr	w9,w9,w10,lsl #16
	orr	w8,w9,w8,lsl #24
	rev	w8,w8
	orr	w9,w8,#0xff000000
	cmp	w8,#2048,lsl #12
	csel	w8,w8,w9,lo
	str	w8,[x2]
	ret
1:
	mov	w0,#9
	ret
	.size	rtp_841016a0_rtpw_read_transmission_offset,.-rtp_841016a0_rtpw_read_transmission_offset
	.cfi_endproc

	.section	.text.rtpw_write_timing,"ax",@progbits
	.globl	rtp_841016a0_rtpw_write_timing
	.p2align	2
	.type	rtp_841016a0_rtpw_write_timing,@function
rtp_841016a0_rtpw_write_timing:
	.cfi_startproc
	sub	sp,sp,#48
	str	x30,[sp,#16]
	stp	x20,x19,[sp,#32]
	.cfi_def_cfa_offset 48
	.cfi_offset w19,-8
	.cfi_offset w20,-16
	.cfi_offset w30,-32
	mov	x19,x3
	ldrh	w5,[x0]
	ldrh	w4,[x0,#2]
	ldrh	w3,[x0,#4]
	ldrh	w16,[x0,#6]
	mov	w8,#4096
	ldrh	w15,[x0,#8]
	ldrh	w13,[x0,#10]
	cmp	x1,#0
	ldrb	w6,[x0,#13]
	csel	x8,x8,xzr,eq
	rev16	w9,w5
	rev16	w10,w4
	rev16	w11,w3
	rev16	w12,w16
	rev16	w14,w15
	rev16	w17,w13
	strb	wzr,[sp,#12]
	cbz	w6,1f
	lsr	w6,w17,#8
	mov	w13,w17
	ubfx	w17,w14,#8,#8
	mov	w15,w14
	ubfx	w14,w12,#8,#8
	mov	w16,w12
	ubfx	w12,w11,#8,#8
	mov	w3,w11
	ubfx	w11,w10,#8,#8
	mov	w4,w10
	ubfx	w10,w9,#8,#8
	mov	w5,w9
	ldrb	w9,[x0,#12]
	mov	w20,#13
	strb	w6,[sp,#12]
	b	2f
1:
	and	w5,w5,#0xff
	and	w4,w4,#0xff
	and	w3,w3,#0xff
	and	w16,w16,#0xff
	and	w15,w15,#0xff
	and	w13,w13,#0xff
	mov	w20,#12
2:
	cmp	x2,x20
	strb	w9,[sp]
	strb	w5,[sp,#1]
	strb	w10,[sp,#2]
	strb	w4,[sp,#3]
	strb	w11,[sp,#4]
	strb	w3,[sp,#5]
	strb	w12,[sp,#6]
	strb	w16,[sp,#7]
	strb	w14,[sp,#8]
	strb	w15,[sp,#9]
	strb	w17,[sp,#10]
	strb	w13,[sp,#11]
	b.hs	1f
	mov	w0,#8
	ldp	x20,x19,[sp,#32]
	ldr	x30,[sp,#16]
	add	sp,sp,#48
	ret
1:
	add	x0,x1,x8
	mov	x1,sp
	mov	x2,x20
	bl	memcpy
	mov	w0,wzr
	str	x20,[x19]
	ldp	x20,x19,[sp,#32]
	ldr	x30,[sp,#16]
	add	sp,sp,#48
	ret
	.size	rtp_841016a0_rtpw_write_timing,.-rtp_841016a0_rtpw_write_timing
	.cfi_endproc

	.section	.text.rtpw_packet_parse,"ax",@progbits
	.globl	rtp_841016a0_rtpw_packet_parse
	.p2align	2
	.type	rtp_841016a0_rtpw_packet_parse,@function
rtp_841016a0_rtpw_packet_parse:
	.cfi_startproc
	mov	w8,#4096
	cmp	x0,#0
	csel	x8,x8,xzr,eq
	cmp	x1,#12
	b.lo	1f
	add	x8,x0,x8
	ldrsb	w9,[x8]
	cmn	w9,#65
	b.gt	2f
	and	x11,x9,#0xff
	ubfiz	x10,x11,#2,#4
	add	x9,x10,#12
	subs	x12,x1,x9
	b.lo	3f
	tbnz	w11,#4,4f
	strb	wzr,[x2,#55]
	strh	wzr,[x2,#56]
	stp	x9,xzr,[x2,#24]
	str	x9,[x2]
	sub	x10,x1,x9
	ldrb	w11,[x8]
	tbnz	w11,#5,5f
6:
	mov	w9,#1
	mov	x11,x10
	b	7f
4:
	subs	x12,x12,#4
	b.lo	4f
	add	x11,x8,x9
	ldrb	w13,[x11,#2]
	ldrb	w14,[x11,#3]
	lsl	x13,x13,#10
	orr	x13,x13,x14,lsl #2
	cmp	x12,x13
	b.lo	8f
	add	x9,x9,x13
	ldrh	w11,[x11]
	add	w10,w10,#16
	add	x9,x9,#4
	mov	w12,#57022
	sub	x14,x9,x10
	rev16	w13,w11
	cmp	w11,w12
	stp	x10,x14,[x2,#24]
	and	w10,w11,#0xfffff0ff
	strh	w13,[x2,#56]
	b.eq	9f
	and	w11,w10,#0xffff
	cmp	w11,#16
	b.eq	9f
	mov	w10,#3
	strb	w10,[x2,#55]
	str	x9,[x2]
	sub	x10,x1,x9
	ldrb	w11,[x8]
	tbz	w11,#5,6b
	b	5f
9:
	and	w10,w10,#0xffff
	cmp	w10,#16
	mov	w10,#1
	cinc	w10,w10,eq
	strb	w10,[x2,#55]
	str	x9,[x2]
	sub	x10,x1,x9
	ldrb	w11,[x8]
	tbz	w11,#5,6b
5:
	cmp	x1,x9
	b.ne	5f
	mov	x11,xzr
	mov	w9,#1
	b	7f
5:
	add	x9,x8,x1
	ldurb	w9,[x9,#-1]
	subs	x9,x10,x9
	csel	x11,xzr,x9,lo
	cset	w9,hs
	csel	x11,x11,xzr,hs
7:
	stp	x10,x11,[x2,#8]
	mov	w0,wzr
	strb	w9,[x2,#54]
	ldr	w9,[x8,#4]
	rev	w9,w9
	str	w9,[x2,#40]
	ldr	w9,[x8,#8]
	rev	w9,w9
	str	w9,[x2,#44]
	ldrh	w9,[x8,#2]
	rev	w9,w9
	lsr	w9,w9,#16
	strh	w9,[x2,#48]
	ldrb	w9,[x8,#1]
	and	w9,w9,#0x7f
	strb	w9,[x2,#50]
	ldrb	w9,[x8]
	and	w9,w9,#0xf
	strb	w9,[x2,#51]
	ldrb	w9,[x8,#1]
	lsr	w9,w9,#7
	strb	w9,[x2,#52]
	ldrb	w8,[x8]
	ubfx	w8,w8,#5,#1
	strb	w8,[x2,#53]
	ret
1:
	mov	w0,wzr
	b	"rtp_841016a0_rtp_c::status::refusal_status"
2:
	mov	w0,#1
	b	"rtp_841016a0_rtp_c::status::refusal_status"
3:
	mov	w0,#2
	b	"rtp_841016a0_rtp_c::status::refusal_status"
4:
	mov	w0,#3
	b	"rtp_841016a0_rtp_c::status::refusal_status"
8:
	mov	w0,#4
	b	"rtp_841016a0_rtp_c::status::refusal_status"
	.size	rtp_841016a0_rtpw_packet_parse,.-rtp_841016a0_rtpw_packet_parse
	.cfi_endproc

	.section	.text.rtpw_packet_parse_many,"ax",@progbits
	.globl	rtp_841016a0_rtpw_packet_parse_many
	.p2align	2
	.type	rtp_841016a0_rtpw_packet_parse_many,@function
rtp_841016a0_rtpw_packet_parse_many:
	.cfi_startproc
	mov	w9,#4096
	cmp	x0,#0
	csel	x8,x9,xzr,eq
	cmp	x2,#0
	csel	x9,x9,xzr,eq
	cbz	x3,1f
	str	x30,[sp,#-64]!
	stp	x24,x23,[sp,#16]
	stp	x22,x21,[sp,#32]
	stp	x20,x19,[sp,#48]
	.cfi_def_cfa_offset 64
	.cfi_offset w19,-8
	.cfi_offset w20,-16
	.cfi_offset w21,-24
	.cfi_offset w22,-32
	.cfi_offset w23,-40
	.cfi_offset w24,-48
	.cfi_offset w30,-64
	add	x9,x9,x2
	mov	x19,x3
	mov	x20,x1
	add	x21,x0,x8
	add	x22,x9,#48
	b	2f
3:
	mov	w8,#9
	strb	wzr,[x22,#36]
	str	w8,[x22,#32]
	subs	x19,x19,#1
	add	x22,x22,#88
	b.eq	4f
2:
	ldur	x8,[x22,#-48]
	subs	x9,x20,x8
	b.lo	3b
	ldur	x24,[x22,#-40]
	cmp	x9,x24
	b.lo	3b
	cmp	x24,#12
	add	x23,x21,x8
	b.lo	3f
	ldrsb	w8,[x23]
	cmn	w8,#65
	b.gt	5f
	and	x10,x8,#0xff
	ubfiz	x9,x10,#2,#4
	add	x8,x9,#12
	subs	x11,x24,x8
	b.lo	6f
	tbnz	w10,#4,7f
	strb	wzr,[x22,#23]
	strh	wzr,[x22,#24]
	stp	x8,xzr,[x22,#-8]
	stur	x8,[x22,#-32]
	sub	x9,x24,x8
	ldrb	w10,[x23]
	tbnz	w10,#5,8f
9:
	mov	w8,#1
	mov	x10,x9
	b	10f
7:
	subs	x11,x11,#4
	b.lo	7f
	add	x10,x23,x8
	ldrb	w12,[x10,#2]
	ldrb	w13,[x10,#3]
	lsl	x12,x12,#10
	orr	x12,x12,x13,lsl #2
	cmp	x11,x12
	b.lo	11f
	add	x8,x8,x12
	ldrh	w10,[x10]
	add	w9,w9,#16
	add	x8,x8,#4
	mov	w11,#57022
	sub	x13,x8,x9
	rev16	w12,w10
	cmp	w10,w11
	stp	x9,x13,[x22,#-8]
	and	w9,w10,#0xfffff0ff
	strh	w12,[x22,#24]
	b.eq	12f
	and	w10,w9,#0xffff
	cmp	w10,#16
	b.eq	12f
	mov	w9,#3
	strb	w9,[x22,#23]
	stur	x8,[x22,#-32]
	sub	x9,x24,x8
	ldrb	w10,[x23]
	tbz	w10,#5,9b
	b	8f
12:
	and	w9,w9,#0xffff
	cmp	w9,#16
	mov	w9,#1
	cinc	w9,w9,eq
	strb	w9,[x22,#23]
	stur	x8,[x22,#-32]
	sub	x9,x24,x8
	ldrb	w10,[x23]
	tbz	w10,#5,9b
8:
	cmp	x24,x8
	b.ne	8f
	mov	x10,xzr
	mov	w8,#1
	b	10f
8:
	add	x8,x23,x24
	ldurb	w8,[x8,#-1]
	subs	x8,x9,x8
	csel	x10,xzr,x8,lo
	cset	w8,hs
	csel	x10,x10,xzr,hs
10:
	stp	x9,x10,[x22,#-24]
	strb	w8,[x22,#22]
	ldr	w8,[x23,#4]
	rev	w8,w8
	str	w8,[x22,#8]
	ldr	w8,[x23,#8]
	rev	w8,w8
	str	w8,[x22,#12]
	ldrh	w8,[x23,#2]
	rev	w8,w8
	lsr	w8,w8,#16
	strh	w8,[x22,#16]
	ldrb	w8,[x23,#1]
	and	w8,w8,#0x7f
	strb	w8,[x22,#18]
	ldrb	w8,[x23]
	and	w8,w8,#0xf
	strb	w8,[x22,#19]
	ldrb	w8,[x23,#1]
	lsr	w8,w8,#7
	strb	w8,[x22,#20]
	ldrb	w8,[x23]
	str	wzr,[x22,#32]
	ubfx	w8,w8,#5,#1
	strb	w8,[x22,#21]
8:
	ldrsb	w8,[x23]
	ldrb	w9,[x23,#1]
	cmn	w8,#64
	and	w8,w9,#0xe0
	mov	w9,#192
	ccmp	w8,w9,#0,lt
	cset	w8,eq
9:
	strb	w8,[x22,#36]
	subs	x19,x19,#1
	add	x22,x22,#88
	b.ne	2b
	b	4f
3:
	mov	w0,wzr
	bl	"rtp_841016a0_rtp_c::status::refusal_status"
	mov	w8,wzr
	cmp	x24,#2
	str	w0,[x22,#32]
	b.hs	8b
	b	9b
5:
	mov	w0,#1
	b	2f
6:
	mov	w0,#2
	b	2f
7:
	mov	w0,#3
	b	2f
11:
	mov	w0,#4
2:
	bl	"rtp_841016a0_rtp_c::status::refusal_status"
	str	w0,[x22,#32]
	b	8b
4:
	ldp	x20,x19,[sp,#48]
	ldp	x22,x21,[sp,#32]
	ldp	x24,x23,[sp,#16]
	ldr	x30,[sp],#64
1:
	ret
	.size	rtp_841016a0_rtpw_packet_parse_many,.-rtp_841016a0_rtpw_packet_parse_many
	.cfi_endproc

	.section	.text.rtpw_read,"ax",@progbits
	.globl	rtp_841016a0_rtpw_read
	.p2align	2
	.type	rtp_841016a0_rtpw_read,@function
rtp_841016a0_rtpw_read:
	.cfi_startproc
	mov	w8,#4096
	cmp	x0,#0
	csel	x8,x8,xzr,eq
	cmp	x1,#12
	add	x0,x0,x8
	b.lo	1f
	ldrsb	w8,[x0]
	cmn	w8,#65
	b.gt	2f
	and	x9,x8,#0xff
	ubfiz	x8,x9,#2,#4
	add	x8,x8,#12
	subs	x10,x1,x8
	b.lo	3f
	mov	x4,x3
	tbnz	w9,#4,4f
	mov	w9,wzr
	mov	w3,wzr
	ldrb	w10,[x0,#1]
	and	w10,w10,#0xe0
	cmp	w10,#192
	b.ne	5f
6:
	mov	w0,#17
	ret
4:
	subs	x11,x10,#4
	b.lo	4f
	add	x10,x0,x8
	ldrb	w9,[x10,#2]
	ldrb	w12,[x10,#3]
	lsl	x9,x9,#10
	orr	x9,x9,x12,lsl #2
	cmp	x11,x9
	b.lo	7f
	ldrh	w10,[x10]
	mov	w11,#57022
	add	x8,x8,x9
	add	x8,x8,#4
	cmp	w10,w11
	and	w10,w10,#0xfffff0ff
	cset	w11,eq
	cmp	w10,#16
	cset	w3,eq
	csinc	w9,w11,wzr,ne
	ldrb	w10,[x0,#1]
	and	w10,w10,#0xe0
	cmp	w10,#192
	b.eq	6b
5:
	str	x8,[x4]
	movi	v0.2d,#0000000000000000
	ldr	w10,[x0,#4]
	rev	w10,w10
	str	w10,[x4,#8]
	ldr	w10,[x0,#8]
	rev	w10,w10
	str	w10,[x4,#12]
	mov	x10,x4
	ldrb	w11,[x0]
	str	q0,[x10,#16]!
	stur	q0,[x10,#44]
	and	x12,x11,#0xf
	stp	q0,q0,[x10,#16]
	cbz	w12,5f
	mov	x11,xzr
	add	x13,x0,#12
6:
	ldr	w14,[x13,x11,lsl #2]
	rev	w14,w14
	str	w14,[x10,x11,lsl #2]
	add	x11,x11,#1
	cmp	x12,x11
	b.ne	6b
	b	6f
5:
	mov	w11,wzr
6:
	strb	w11,[x4,#79]
	ldrh	w10,[x0,#2]
	rev	w10,w10
	lsr	w10,w10,#16
	strh	w10,[x4,#76]
	ldrb	w10,[x0,#1]
	and	w10,w10,#0x7f
	strb	w10,[x4,#78]
	ldrb	w10,[x0,#1]
	lsr	w10,w10,#7
	strb	w10,[x4,#80]
	ldrb	w10,[x0]
	ubfx	w10,w10,#5,#1
	strb	w10,[x4,#81]
	ldrb	w10,[x0]
	ubfx	w10,w10,#4,#1
	strb	w10,[x4,#82]
	sub	x10,x1,x8
	ldrb	w11,[x0]
	tbnz	w11,#5,5f
	mov	w11,#1
	str	x10,[x4,#224]
	strb	w11,[x4,#251]
	ldrb	w10,[x0]
	tbnz	w10,#4,6f
	b	8f
5:
	cmp	x1,x8
	b.ne	5f
	mov	w11,#1
	str	xzr,[x4,#224]
	strb	w11,[x4,#251]
	ldrb	w10,[x0]
	tbz	w10,#4,8f
6:
	ubfiz	x10,x10,#2,#4
	add	x11,x0,x10
	add	w10,w10,#16
	ldrh	w11,[x11,#12]
	sub	x8,x8,x10
	stp	x10,x8,[x4,#232]
	rev	w11,w11
	lsr	w11,w11,#16
	strh	w11,[x4,#248]
	tbz	w9,#0,9f
	str	x30,[sp,#-16]!
	.cfi_def_cfa_offset 16
	.cfi_offset w30,-16
	movi	v0.2d,#0000000000000000
	add	w9,w3,#1
	add	x1,x0,x10
	mov	x0,x2
	mov	x2,x8
	str	q0,[x4,#88]!
	strb	w9,[x4,#162]
	stp	q0,q0,[x4,#16]
	stp	q0,q0,[x4,#48]
	stp	q0,q0,[x4,#80]
	str	q0,[x4,#112]
	str	xzr,[x4,#128]
	bl	"rtp_841016a0_rtp_ext::block_values::read_values::<#9a3a19c0cce455e9>"
	mov	w0,wzr
	ldr	x30,[sp],#16
	ret
5:
	add	x11,x0,x1
	ldurb	w11,[x11,#-1]
	subs	x10,x10,x11
	csel	x10,xzr,x10,lo
	cset	w11,hs
	csel	x10,x10,xzr,hs
	str	x10,[x4,#224]
	strb	w11,[x4,#251]
	ldrb	w10,[x0]
	tbnz	w10,#4,6b
8:
	strb	wzr,[x4,#250]
	strh	wzr,[x4,#248]
	stp	x8,xzr,[x4,#232]
	b	5f
9:
	mov	w8,#3
	strb	w8,[x4,#250]
5:
	movi	v0.2d,#0000000000000000
	mov	w0,wzr
	str	xzr,[x4,#216]
	stur	q0,[x4,#200]
	stur	q0,[x4,#184]
	stur	q0,[x4,#168]
	stur	q0,[x4,#152]
	stur	q0,[x4,#136]
	stur	q0,[x4,#120]
	stur	q0,[x4,#104]
	stur	q0,[x4,#88]
	ret
1:
	mov	w2,wzr
	b	"rtp_841016a0_rtp_c::whole_packet::status_of_no_packet"
2:
	mov	w2,#1
	b	"rtp_841016a0_rtp_c::whole_packet::status_of_no_packet"
3:
	mov	w2,#2
	b	"rtp_841016a0_rtp_c::whole_packet::status_of_no_packet"
4:
	mov	w2,#3
	b	"rtp_841016a0_rtp_c::whole_packet::status_of_no_packet"
7:
	mov	w2,#4
	b	"rtp_841016a0_rtp_c::whole_packet::status_of_no_packet"
	.size	rtp_841016a0_rtpw_read,.-rtp_841016a0_rtpw_read
	.cfi_endproc

	.section	.text.rtpw_read_fixed_part,"ax",@progbits
	.globl	rtp_841016a0_rtpw_read_fixed_part
	.p2align	2
	.type	rtp_841016a0_rtpw_read_fixed_part,@function
rtp_841016a0_rtpw_read_fixed_part:
	.cfi_startproc
	cmp	x0,#0
	mov	w8,#4096
	csel	x8,x8,xzr,eq
	cmp	x1,#12
	b.lo	1f
	add	x9,x0,x8
	ldrsb	w8,[x9]
	cmn	w8,#65
	b.gt	2f
	and	x8,x8,#0xff
	ubfiz	x14,x8,#2,#4
	add	x10,x14,#12
	subs	x12,x1,x10
	b.lo	3f
	tbnz	w8,#4,4f
	mov	w11,wzr
	mov	w13,wzr
	ands	w15,w8,#0x10
	add	w14,w14,#16
	and	w17,w8,#0x20
	csel	x14,x10,x14,eq
	tbnz	w8,#5,5f
6:
	mov	w16,#1
	b	7f
4:
	subs	x12,x12,#4
	b.lo	4f
	add	x11,x9,x10
	ldrb	w13,[x11,#2]
	ldrb	w15,[x11,#3]
	lsl	x13,x13,#10
	orr	x13,x13,x15,lsl #2
	cmp	x12,x13
	b.lo	8f
	ldrh	w12,[x11]
	mov	w11,#57022
	add	x10,x10,x13
	add	x10,x10,#4
	and	w13,w12,#0xfffff0ff
	cmp	w12,w11
	mov	w11,#3
	csinc	w11,w11,wzr,ne
	cmp	w13,#16
	mov	w13,#2
	csel	w11,w13,w11,eq
	rev16	w13,w12
	sub	x12,x1,x10
	ands	w15,w8,#0x10
	add	w14,w14,#16
	and	w17,w8,#0x20
	csel	x14,x10,x14,eq
	tbz	w8,#5,6b
5:
	cmp	x1,x10
	b.ne	5f
	mov	x12,xzr
	mov	w16,#1
	b	7f
5:
	add	x16,x9,x1
	ldurb	w16,[x16,#-1]
	subs	x12,x12,x16
	csel	x12,xzr,x12,lo
	cset	w16,hs
	csel	x12,x12,xzr,hs
7:
	ldur	d0,[x9,#4]
	ldrb	w1,[x9,#1]
	mov	w4,#2
	ldrh	w9,[x9,#2]
	lsr	w15,w15,#4
	lsr	w17,w17,#5
	rev32	v0.8b,v0.8b
	strb	w4,[x2]
	lsr	w4,w1,#7
	rev	w9,w9
	mov	w0,wzr
	strb	w15,[x2,#2]
	lsr	w9,w9,#16
	and	w15,w1,#0x7f
	and	w8,w8,#0xf
	strb	w17,[x2,#1]
	strb	w4,[x2,#3]
	strb	w15,[x2,#4]
	strh	w9,[x2,#6]
	str	d0,[x2,#8]
	stp	x10,x12,[x3]
	str	x14,[x3,#16]
	strh	w13,[x3,#24]
	strb	w11,[x3,#26]
	strb	w8,[x3,#27]
	strb	w16,[x3,#28]
	ret
1:
	mov	w0,wzr
	b	"rtp_841016a0_rtp_c::status::refusal_status"
2:
	mov	w0,#1
	b	"rtp_841016a0_rtp_c::status::refusal_status"
3:
	mov	w0,#2
	b	"rtp_841016a0_rtp_c::status::refusal_status"
4:
	mov	w0,#3
	b	"rtp_841016a0_rtp_c::status::refusal_status"
8:
	mov	w0,#4
	b	"rtp_841016a0_rtp_c::status::refusal_status"
	.size	rtp_841016a0_rtpw_read_fixed_part,.-rtp_841016a0_rtpw_read_fixed_part
	.cfi_endproc

	.section	.text.rtpw_read_many,"ax",@progbits
	.globl	rtp_841016a0_rtpw_read_many
	.p2align	2
	.type	rtp_841016a0_rtpw_read_many,@function
rtp_841016a0_rtpw_read_many:
	.cfi_startproc
	mov	w9,#4096
	cmp	x0,#0
	csel	x8,x9,xzr,eq
	cmp	x3,#0
	csel	x9,x9,xzr,eq
	cbz	x4,1f
	str	x30,[sp,#-80]!
	stp	x26,x25,[sp,#16]
	stp	x24,x23,[sp,#32]
	stp	x22,x21,[sp,#48]
	stp	x20,x19,[sp,#64]
	.cfi_def_cfa_offset 80
	.cfi_offset w19,-8
	.cfi_offset w20,-16
	.cfi_offset w21,-24
	.cfi_offset w22,-32
	.cfi_offset w23,-40
	.cfi_offset w24,-48
	.cfi_offset w25,-56
	.cfi_offset w26,-64
	.cfi_offset w30,-80
	add	x10,x9,x3
	mov	x19,x4
	mov	x20,x2
	mov	x21,x1
	mov	x22,xzr
	add	x23,x0,x8
	add	x24,x3,x9
	add	x25,x10,#32
	b	2f
3:
	mov	w8,#9
	str	w8,[x26,#272]
4:
	add	x22,x22,#1
	add	x25,x25,#280
	cmp	x22,x19
	b.eq	5f
2:
	mov	w8,#280
	madd	x26,x22,x8,x24
	ldp	x8,x1,[x26]
	subs	x9,x21,x8
	ccmp	x9,x1,#0,hs
	b.lo	3b
	cmp	x1,#12
	add	x0,x23,x8
	b.lo	2f
	ldrsb	w8,[x0]
	cmn	w8,#65
	b.gt	3f
	and	x9,x8,#0xff
	ubfiz	x8,x9,#2,#4
	add	x8,x8,#12
	subs	x10,x1,x8
	b.lo	6f
	tbnz	w9,#4,7f
	mov	w9,wzr
	mov	w3,wzr
	ldrb	w10,[x0,#1]
	and	w10,w10,#0xe0
	cmp	w10,#192
	b.ne	8f
9:
	mov	w0,#17
	str	w0,[x26,#272]
	b	4b
7:
	subs	x11,x10,#4
	b.lo	7f
	add	x10,x0,x8
	ldrb	w9,[x10,#2]
	ldrb	w12,[x10,#3]
	lsl	x9,x9,#10
	orr	x9,x9,x12,lsl #2
	cmp	x11,x9
	b.lo	10f
	ldrh	w10,[x10]
	mov	w11,#57022
	add	x8,x8,x9
	add	x8,x8,#4
	cmp	w10,w11
	and	w10,w10,#0xfffff0ff
	cset	w11,eq
	cmp	w10,#16
	cset	w3,eq
	csinc	w9,w11,wzr,ne
	ldrb	w10,[x0,#1]
	and	w10,w10,#0xe0
	cmp	w10,#192
	b.eq	9b
8:
	str	x8,[x26,#16]
	movi	v0.2d,#0000000000000000
	ldr	w10,[x0,#4]
	rev	w10,w10
	str	w10,[x26,#24]
	ldr	w10,[x0,#8]
	rev	w10,w10
	str	w10,[x26,#28]
	ldrb	w10,[x0]
	stur	q0,[x26,#76]
	stp	q0,q0,[x26,#48]
	and	x11,x10,#0xf
	str	q0,[x26,#32]
	cbz	w11,8f
	mov	x10,xzr
	add	x12,x0,#12
9:
	ldr	w13,[x12,x10,lsl #2]
	rev	w13,w13
	str	w13,[x25,x10,lsl #2]
	add	x10,x10,#1
	cmp	x11,x10
	b.ne	9b
	b	9f
8:
	mov	w10,wzr
9:
	strb	w10,[x26,#95]
	ldrh	w10,[x0,#2]
	rev	w10,w10
	lsr	w10,w10,#16
	strh	w10,[x26,#92]
	ldrb	w10,[x0,#1]
	and	w10,w10,#0x7f
	strb	w10,[x26,#94]
	ldrb	w10,[x0,#1]
	lsr	w10,w10,#7
	strb	w10,[x26,#96]
	ldrb	w10,[x0]
	ubfx	w10,w10,#5,#1
	strb	w10,[x26,#97]
	ldrb	w10,[x0]
	ubfx	w10,w10,#4,#1
	strb	w10,[x26,#98]
	sub	x10,x1,x8
	ldrb	w11,[x0]
	tbnz	w11,#5,8f
	mov	w11,#1
	str	x10,[x26,#240]
	strb	w11,[x26,#267]
	ldrb	w10,[x0]
	tbnz	w10,#4,9f
	b	11f
8:
	cmp	x1,x8
	b.ne	8f
	mov	w11,#1
	str	xzr,[x26,#240]
	strb	w11,[x26,#267]
	ldrb	w10,[x0]
	tbz	w10,#4,11f
9:
	ubfiz	x10,x10,#2,#4
	add	x11,x0,x10
	add	w10,w10,#16
	ldrh	w11,[x11,#12]
	sub	x2,x8,x10
	stp	x10,x2,[x26,#248]
	rev	w11,w11
	lsr	w11,w11,#16
	strh	w11,[x26,#264]
	tbz	w9,#0,12f
	movi	v0.2d,#0000000000000000
	mov	x4,x26
	add	w8,w3,#1
	add	x1,x0,x10
	mov	x0,x20
	str	q0,[x4,#104]!
	strb	w8,[x4,#162]
	stp	q0,q0,[x4,#16]
	stp	q0,q0,[x4,#48]
	stp	q0,q0,[x4,#80]
	str	q0,[x4,#112]
	str	xzr,[x4,#128]
	bl	"rtp_841016a0_rtp_ext::block_values::read_values::<#9a3a19c0cce455e9>"
	str	wzr,[x26,#272]
	b	4b
8:
	add	x11,x0,x1
	ldurb	w11,[x11,#-1]
	subs	x10,x10,x11
	csel	x10,xzr,x10,lo
	cset	w11,hs
	csel	x10,x10,xzr,hs
	str	x10,[x26,#240]
	strb	w11,[x26,#267]
	ldrb	w10,[x0]
	tbnz	w10,#4,9b
11:
	strb	wzr,[x26,#266]
	strh	wzr,[x26,#264]
	stp	x8,xzr,[x26,#248]
	b	8f
12:
	mov	w8,#3
	strb	w8,[x26,#266]
8:
	movi	v0.2d,#0000000000000000
	str	xzr,[x26,#232]
	str	wzr,[x26,#272]
	stur	q0,[x26,#216]
	stur	q0,[x26,#200]
	stur	q0,[x26,#184]
	stur	q0,[x26,#168]
	stur	q0,[x26,#152]
	stur	q0,[x26,#136]
	stur	q0,[x26,#120]
	stur	q0,[x26,#104]
	b	4b
2:
	mov	w2,wzr
	bl	"rtp_841016a0_rtp_c::whole_packet::status_of_no_packet"
	str	w0,[x26,#272]
	b	4b
3:
	mov	w2,#1
	bl	"rtp_841016a0_rtp_c::whole_packet::status_of_no_packet"
	str	w0,[x26,#272]
	b	4b
6:
	mov	w2,#2
	bl	"rtp_841016a0_rtp_c::whole_packet::status_of_no_packet"
	str	w0,[x26,#272]
	b	4b
7:
	mov	w2,#3
	bl	"rtp_841016a0_rtp_c::whole_packet::status_of_no_packet"
	str	w0,[x26,#272]
	b	4b
10:
	mov	w2,#4
	bl	"rtp_841016a0_rtp_c::whole_packet::status_of_no_packet"
	str	w0,[x26,#272]
	b	4b
5:
	ldp	x20,x19,[sp,#64]
	ldp	x22,x21,[sp,#48]
	ldp	x24,x23,[sp,#32]
	ldp	x26,x25,[sp,#16]
	ldr	x30,[sp],#80
1:
	ret
	.size	rtp_841016a0_rtpw_read_many,.-rtp_841016a0_rtpw_read_many
	.cfi_endproc

	.section	.rodata.cst16,"aM",@progbits,16
	.p2align	4,0x0
.Lrtp_841016a0_CPI173_0:
	.byte	104
	.byte	116
	.byte	116
	.byte	112
	.byte	58
	.byte	47
	.byte	47
	.byte	119
	.byte	119
	.byte	119
	.byte	46
	.byte	119
	.byte	101
	.byte	98
	.byte	114
	.byte	116
.Lrtp_841016a0_CPI173_1:
	.byte	99
	.byte	46
	.byte	111
	.byte	114
	.byte	103
	.byte	47
	.byte	101
	.byte	120
	.byte	112
	.byte	101
	.byte	114
	.byte	105
	.byte	109
	.byte	101
	.byte	110
	.byte	116
.Lrtp_841016a0_CPI173_2:
	.byte	115
	.byte	47
	.byte	114
	.byte	116
	.byte	112
	.byte	45
	.byte	104
	.byte	100
	.byte	114
	.byte	101
	.byte	120
	.byte	116
	.byte	47
	.byte	97
	.byte	98
	.byte	115
.Lrtp_841016a0_CPI173_3:
	.byte	120
	.byte	116
	.byte	47
	.byte	97
	.byte	98
	.byte	115
	.byte	45
	.byte	115
	.byte	101
	.byte	110
	.byte	100
	.byte	45
	.byte	116
	.byte	105
	.byte	109
	.byte	101
.Lrtp_841016a0_CPI173_4:
	.byte	117
	.byte	114
	.byte	110
	.byte	58
	.byte	105
	.byte	101
	.byte	116
	.byte	102
	.byte	58
	.byte	112
	.byte	97
	.byte	114
	.byte	97
	.byte	109
	.byte	115
	.byte	58
.Lrtp_841016a0_CPI173_5:
	.byte	114
	.byte	116
	.byte	112
	.byte	45
	.byte	104
	.byte	100
	.byte	114
	.byte	101
	.byte	120
	.byte	116
	.byte	58
	.byte	110
	.byte	116
	.byte	112
	.byte	45
	.byte	54
.Lrtp_841016a0_CPI173_6:
	.byte	116
	.byte	112
	.byte	45
	.byte	104
	.byte	100
	.byte	114
	.byte	101
	.byte	120
	.byte	116
	.byte	58
	.byte	110
	.byte	116
	.byte	112
	.byte	45
	.byte	54
	.byte	52
.Lrtp_841016a0_CPI173_7:
	.byte	114
	.byte	116
	.byte	112
	.byte	45
	.byte	104
	.byte	100
	.byte	114
	.byte	101
	.byte	120
	.byte	116
	.byte	58
	.byte	110
	.byte	116
	.byte	112
	.byte	45
	.byte	53
.Lrtp_841016a0_CPI173_8:
	.byte	116
	.byte	112
	.byte	45
	.byte	104
	.byte	100
	.byte	114
	.byte	101
	.byte	120
	.byte	116
	.byte	58
	.byte	110
	.byte	116
	.byte	112
	.byte	45
	.byte	53
	.byte	54
.Lrtp_841016a0_CPI173_9:
	.byte	115
	.byte	47
	.byte	114
	.byte	116
	.byte	112
	.byte	45
	.byte	104
	.byte	100
	.byte	114
	.byte	101
	.byte	120
	.byte	116
	.byte	47
	.byte	112
	.byte	108
	.byte	97
.Lrtp_841016a0_CPI173_10:
	.byte	120
	.byte	116
	.byte	47
	.byte	112
	.byte	108
	.byte	97
	.byte	121
	.byte	111
	.byte	117
	.byte	116
	.byte	45
	.byte	100
	.byte	101
	.byte	108
	.byte	97
	.byte	121
	.section	.text.rtpw_kind_of_uri,"ax",@progbits
	.globl	rtp_841016a0_rtpw_kind_of_uri
	.p2align	2
	.type	rtp_841016a0_rtpw_kind_of_uri,@function
rtp_841016a0_rtpw_kind_of_uri:
	.cfi_startproc
	sub	sp,sp,#64
	stp	x30,x21,[sp,#32]
	stp	x20,x19,[sp,#48]
	.cfi_def_cfa_offset 64
	.cfi_offset w19,-8
	.cfi_offset w20,-16
	.cfi_offset w21,-24
	.cfi_offset w30,-32
	cmp	x0,#0
	mov	w9,#4096
	mov	x8,x0
	csel	x9,x9,xzr,eq
	mov	x2,x1
	add	x0,sp,#8
	add	x1,x8,x9
	stp	xzr,xzr,[sp,#8]
	str	xzr,[sp,#24]
	bl	"rtp_841016a0_core::str::utf8::from_utf8"
	ldrb	w8,[sp,#8]
	cbz	w8,1f
	mov	w8,wzr
2:
	ldp	x20,x19,[sp,#48]
	mov	w0,w8
	ldp	x30,x21,[sp,#32]
	add	sp,sp,#64
	ret
1:
	ldr	x20,[sp,#24]
	sub	x10,x20,#26
	cmp	x10,#61
	b.hi	2b
	adrp	x11,1f
	add	x11,x11,:lo12:1f
	ldr	x19,[sp,#16]
	adr	x12,2b
	ldrh	w13,[x11,x10,lsl #1]
	add	x12,x12,x13,lsl #2
	adrp	x9,.Lrtp_841016a0_static.39
	add	x9,x9,:lo12:.Lrtp_841016a0_static.39
	adrp	x0,.Lrtp_841016a0_static.11
	add	x0,x0,:lo12:.Lrtp_841016a0_static.11
	mov	w21,#1
	br	x12
3:
	adrp	x0,.Lrtp_841016a0_static.17
	add	x0,x0,:lo12:.Lrtp_841016a0_static.17
	mov	w21,#4
	mov	x1,x20
	mov	x2,x19
	mov	x3,x20
	bl	"rtp_841016a0_core::cmp::text::RefStrPartialEq::eq"
	tbnz	w0,#0,4f
	b	5f
6:
	adrp	x0,.Lrtp_841016a0_static.23
	add	x0,x0,:lo12:.Lrtp_841016a0_static.23
	mov	w21,#7
	mov	x1,x20
	mov	x2,x19
	mov	x3,x20
	bl	"rtp_841016a0_core::cmp::text::RefStrPartialEq::eq"
	tbnz	w0,#0,4f
	b	5f
7:
	adrp	x0,.Lrtp_841016a0_static.25
	add	x0,x0,:lo12:.Lrtp_841016a0_static.25
	mov	w21,#8
	mov	x1,x20
	mov	x2,x19
	mov	x3,x20
	bl	"rtp_841016a0_core::cmp::text::RefStrPartialEq::eq"
	tbnz	w0,#0,4f
	b	5f
8:
	adrp	x0,.Lrtp_841016a0_static.15
	add	x0,x0,:lo12:.Lrtp_841016a0_static.15
	mov	w21,#3
	mov	x1,x20
	mov	x2,x19
	mov	x3,x20
	bl	"rtp_841016a0_core::cmp::text::RefStrPartialEq::eq"
	tbnz	w0,#0,4f
	b	5f
9:
	adrp	x0,.Lrtp_841016a0_static.33
	add	x0,x0,:lo12:.Lrtp_841016a0_static.33
	mov	w21,#12
	mov	x1,x20
	mov	x2,x19
	mov	x3,x20
	bl	"rtp_841016a0_core::cmp::text::RefStrPartialEq::eq"
	tbnz	w0,#0,4f
	b	5f
10:
	adrp	x0,.Lrtp_841016a0_static.31
	add	x0,x0,:lo12:.Lrtp_841016a0_static.31
	mov	w21,#11
	mov	x1,x20
	mov	x2,x19
	mov	x3,x20
	bl	"rtp_841016a0_core::cmp::text::RefStrPartialEq::eq"
	tbnz	w0,#0,4f
	b	5f
11:
	adrp	x8,.Lrtp_841016a0_CPI173_0
	ldp	q0,q1,[x19]
	ldr	q2,[x8,:lo12:.Lrtp_841016a0_CPI173_0]
	adrp	x8,.Lrtp_841016a0_CPI173_1
	ldr	q3,[x8,:lo12:.Lrtp_841016a0_CPI173_1]
	adrp	x8,.Lrtp_841016a0_CPI173_2
	cmeq	v2.16b,v0.16b,v2.16b
	ldr	q5,[x8,:lo12:.Lrtp_841016a0_CPI173_2]
	adrp	x8,.Lrtp_841016a0_CPI173_3
	cmeq	v3.16b,v1.16b,v3.16b
	ldr	q6,[x8,:lo12:.Lrtp_841016a0_CPI173_3]
	mvn	v4.16b,v2.16b
	ldr	q2,[x19,#32]
	cmeq	v5.16b,v2.16b,v5.16b
	orn	v4.16b,v4.16b,v3.16b
	ldur	q3,[x19,#42]
	orn	v4.16b,v4.16b,v5.16b
	cmeq	v5.16b,v3.16b,v6.16b
	orn	v4.16b,v4.16b,v5.16b
	umaxv	b4,v4.16b
	fmov	w8,s4
	tbnz	w8,#0,12f
	mov	w21,wzr
	add	w8,w21,#1
	ldp	x20,x19,[sp,#48]
	mov	w0,w8
	ldp	x30,x21,[sp,#32]
	add	sp,sp,#64
	ret
13:
	adrp	x0,.Lrtp_841016a0_static.13
	add	x0,x0,:lo12:.Lrtp_841016a0_static.13
	mov	w21,#2
	mov	x1,x20
	mov	x2,x19
	mov	x3,x20
	bl	"rtp_841016a0_core::cmp::text::RefStrPartialEq::eq"
	tbnz	w0,#0,4f
	b	5f
14:
	adrp	x0,.Lrtp_841016a0_static.27
	add	x0,x0,:lo12:.Lrtp_841016a0_static.27
	mov	w21,#9
	mov	x1,x20
	mov	x2,x19
	mov	x3,x20
	bl	"rtp_841016a0_core::cmp::text::RefStrPartialEq::eq"
	tbnz	w0,#0,4f
	b	5f
15:
	adrp	x0,.Lrtp_841016a0_static.37
	add	x0,x0,:lo12:.Lrtp_841016a0_static.37
	mov	w21,#14
	mov	x1,x20
	mov	x2,x19
	mov	x3,x20
	bl	"rtp_841016a0_core::cmp::text::RefStrPartialEq::eq"
	tbnz	w0,#0,4f
	b	5f
16:
	adrp	x0,.Lrtp_841016a0_static.19
	add	x0,x0,:lo12:.Lrtp_841016a0_static.19
	mov	w21,#5
	mov	x1,x20
	mov	x2,x19
	mov	x3,x20
	bl	"rtp_841016a0_core::cmp::text::RefStrPartialEq::eq"
	tbnz	w0,#0,4f
	b	5f
17:
	adrp	x0,.Lrtp_841016a0_static.35
	add	x0,x0,:lo12:.Lrtp_841016a0_static.35
	mov	w21,#13
18:
	mov	x1,x20
	mov	x2,x19
	mov	x3,x20
	bl	"rtp_841016a0_core::cmp::text::RefStrPartialEq::eq"
	tbz	w0,#0,5f
4:
	add	w8,w21,#1
	ldp	x20,x19,[sp,#48]
	mov	w0,w8
	ldp	x30,x21,[sp,#32]
	add	sp,sp,#64
	ret
19:
	adrp	x0,.Lrtp_841016a0_static.29
	add	x0,x0,:lo12:.Lrtp_841016a0_static.29
	mov	w21,#10
	mov	x1,x20
	mov	x2,x19
	mov	x3,x20
	bl	"rtp_841016a0_core::cmp::text::RefStrPartialEq::eq"
	tbnz	w0,#0,4b
5:
	cmp	x20,#57
	mov	w8,wzr
	b.gt	4f
	cmp	x20,#33
	b.eq	5f
	cmp	x20,#43
	b.ne	2b
	mov	w21,wzr
	adrp	x9,.Lrtp_841016a0_static.38
	add	x9,x9,:lo12:.Lrtp_841016a0_static.38
	mov	x0,x9
	mov	x1,x20
	mov	x2,x19
	mov	x3,x20
	bl	"rtp_841016a0_core::cmp::text::RefStrPartialEq::eq"
	tbz	w0,#0,20f
	b	21f
4:
	cmp	x20,#65
	b.eq	4f
	cmp	x20,#58
	b.ne	2b
	ldp	q0,q1,[x19]
	ldr	q2,[x19,#32]
	ldur	q3,[x19,#42]
12:
	adrp	x8,.Lrtp_841016a0_CPI173_1
	ldr	q4,[x8,:lo12:.Lrtp_841016a0_CPI173_1]
	adrp	x8,.Lrtp_841016a0_CPI173_0
	cmeq	v1.16b,v1.16b,v4.16b
	ldr	q4,[x8,:lo12:.Lrtp_841016a0_CPI173_0]
	adrp	x8,.Lrtp_841016a0_CPI173_9
	cmeq	v0.16b,v0.16b,v4.16b
	ldr	q4,[x8,:lo12:.Lrtp_841016a0_CPI173_9]
	adrp	x8,.Lrtp_841016a0_CPI173_10
	mvn	v1.16b,v1.16b
	orn	v0.16b,v1.16b,v0.16b
	cmeq	v1.16b,v2.16b,v4.16b
	ldr	q2,[x8,:lo12:.Lrtp_841016a0_CPI173_10]
	orn	v0.16b,v0.16b,v1.16b
	cmeq	v1.16b,v3.16b,v2.16b
	orn	v0.16b,v0.16b,v1.16b
	umaxv	b0,v0.16b
	fmov	w8,s0
	tbz	w8,#0,12f
	mov	w8,wzr
	ldp	x20,x19,[sp,#48]
	mov	w0,w8
	ldp	x30,x21,[sp,#32]
	add	sp,sp,#64
	ret
5:
	adrp	x8,.Lrtp_841016a0_CPI173_5
	ldr	q0,[x19,#16]
	ldr	q1,[x8,:lo12:.Lrtp_841016a0_CPI173_5]
	adrp	x8,.Lrtp_841016a0_CPI173_6
	ldr	q3,[x8,:lo12:.Lrtp_841016a0_CPI173_6]
	adrp	x8,.Lrtp_841016a0_CPI173_4
	cmeq	v2.16b,v0.16b,v1.16b
	ldur	q1,[x19,#17]
	ldr	q5,[x8,:lo12:.Lrtp_841016a0_CPI173_4]
	cmeq	v3.16b,v1.16b,v3.16b
	mvn	v4.16b,v2.16b
	ldr	q2,[x19]
	cmeq	v2.16b,v2.16b,v5.16b
	orn	v3.16b,v4.16b,v3.16b
	orn	v3.16b,v3.16b,v2.16b
	umaxv	b3,v3.16b
	fmov	w8,s3
	tbz	w8,#0,22f
	adrp	x8,.Lrtp_841016a0_CPI173_7
	ldr	q3,[x8,:lo12:.Lrtp_841016a0_CPI173_7]
	adrp	x8,.Lrtp_841016a0_CPI173_8
	cmeq	v0.16b,v0.16b,v3.16b
	ldr	q3,[x8,:lo12:.Lrtp_841016a0_CPI173_8]
	cmeq	v1.16b,v1.16b,v3.16b
	mvn	v0.16b,v0.16b
	orn	v0.16b,v0.16b,v1.16b
	orn	v0.16b,v0.16b,v2.16b
	umaxv	b0,v0.16b
	fmov	w8,s0
	tbz	w8,#0,23f
	mov	w8,wzr
	ldp	x20,x19,[sp,#48]
	mov	w0,w8
	ldp	x30,x21,[sp,#32]
	add	sp,sp,#64
	ret
4:
	adrp	x9,.Lrtp_841016a0_static.39
	add	x9,x9,:lo12:.Lrtp_841016a0_static.39
	mov	w21,#1
4:
	mov	x0,x9
	mov	x1,x20
	mov	x2,x19
	mov	x3,x20
	bl	"rtp_841016a0_core::cmp::text::RefStrPartialEq::eq"
	tbnz	w0,#0,21f
20:
	mov	w8,wzr
	ldp	x20,x19,[sp,#48]
	mov	w0,w8
	ldp	x30,x21,[sp,#32]
	add	sp,sp,#64
	ret
24:
	adrp	x9,.Lrtp_841016a0_static.40
	add	x9,x9,:lo12:.Lrtp_841016a0_static.40
	mov	w21,#2
	mov	x0,x9
	mov	x1,x20
	mov	x2,x19
	mov	x3,x20
	bl	"rtp_841016a0_core::cmp::text::RefStrPartialEq::eq"
	tbz	w0,#0,20b
	b	21f
22:
	mov	w21,#3
	orr	w8,w21,#0x10
	ldp	x20,x19,[sp,#48]
	mov	w0,w8
	ldp	x30,x21,[sp,#32]
	add	sp,sp,#64
	ret
12:
	mov	w21,#6
	add	w8,w21,#1
	ldp	x20,x19,[sp,#48]
	mov	w0,w8
	ldp	x30,x21,[sp,#32]
	add	sp,sp,#64
	ret
23:
	mov	w21,#4
21:
	orr	w8,w21,#0x10
	ldp	x20,x19,[sp,#48]
	mov	w0,w8
	ldp	x30,x21,[sp,#32]
	add	sp,sp,#64
	ret
	.size	rtp_841016a0_rtpw_kind_of_uri,.-rtp_841016a0_rtpw_kind_of_uri
	.cfi_endproc
	.section	.rodata.rtpw_kind_of_uri,"a",@progbits
	.p2align	1,0x0
1:
	.hword	(3b-2b)>>2
	.hword	(2b-2b)>>2
	.hword	(2b-2b)>>2
	.hword	(2b-2b)>>2
	.hword	(2b-2b)>>2
	.hword	(2b-2b)>>2
	.hword	(2b-2b)>>2
	.hword	(5b-2b)>>2
	.hword	(8b-2b)>>2
	.hword	(10b-2b)>>2
	.hword	(2b-2b)>>2
	.hword	(2b-2b)>>2
	.hword	(2b-2b)>>2
	.hword	(2b-2b)>>2
	.hword	(2b-2b)>>2
	.hword	(2b-2b)>>2
	.hword	(2b-2b)>>2
	.hword	(13b-2b)>>2
	.hword	(2b-2b)>>2
	.hword	(14b-2b)>>2
	.hword	(2b-2b)>>2
	.hword	(2b-2b)>>2
	.hword	(2b-2b)>>2
	.hword	(2b-2b)>>2
	.hword	(2b-2b)>>2
	.hword	(2b-2b)>>2
	.hword	(2b-2b)>>2
	.hword	(2b-2b)>>2
	.hword	(19b-2b)>>2
	.hword	(2b-2b)>>2
	.hword	(17b-2b)>>2
	.hword	(7b-2b)>>2
	.hword	(11b-2b)>>2
	.hword	(2b-2b)>>2
	.hword	(9b-2b)>>2
	.hword	(18b-2b)>>2
	.hword	(2b-2b)>>2
	.hword	(6b-2b)>>2
	.hword	(2b-2b)>>2
	.hword	(4b-2b)>>2
	.hword	(2b-2b)>>2
	.hword	(2b-2b)>>2
	.hword	(2b-2b)>>2
	.hword	(2b-2b)>>2
	.hword	(15b-2b)>>2
	.hword	(2b-2b)>>2
	.hword	(2b-2b)>>2
	.hword	(16b-2b)>>2
	.hword	(2b-2b)>>2
	.hword	(2b-2b)>>2
	.hword	(2b-2b)>>2
	.hword	(2b-2b)>>2
	.hword	(2b-2b)>>2
	.hword	(2b-2b)>>2
	.hword	(2b-2b)>>2
	.hword	(2b-2b)>>2
	.hword	(2b-2b)>>2
	.hword	(2b-2b)>>2
	.hword	(2b-2b)>>2
	.hword	(2b-2b)>>2
	.hword	(2b-2b)>>2
	.hword	(24b-2b)>>2

	.section	.text.rtpw_uri_of_kind,"ax",@progbits
	.globl	rtp_841016a0_rtpw_uri_of_kind
	.p2align	2
	.type	rtp_841016a0_rtpw_uri_of_kind,@function
rtp_841016a0_rtpw_uri_of_kind:
	.cfi_startproc
	str	x30,[sp,#-32]!
	stp	x20,x19,[sp,#16]
	.cfi_def_cfa_offset 32
	.cfi_offset w19,-8
	.cfi_offset w20,-16
	.cfi_offset w30,-32
	sub	w8,w0,#1
	cmp	x1,#0
	mov	w9,#4096
	and	w11,w8,#0xff
	csel	x10,x9,xzr,eq
	cmp	w11,#14
	add	x9,x1,x10
	b.hi	1f
	ubfiz	x8,x8,#3,#8
	adrp	x11,.Lrtp_841016a0_switch.table.rtp_841016a0_rtpw_uri_of_kind.247
	add	x11,x11,:lo12:.Lrtp_841016a0_switch.table.rtp_841016a0_rtpw_uri_of_kind.247
	ldr	x19,[x11,x8]
	cmp	x2,x19
	b.hs	2f
	mov	w0,#8
	ldp	x20,x19,[sp,#16]
	ldr	x30,[sp],#32
	ret
1:
	sub	w11,w0,#16
	and	w8,w11,#0xff
	cmp	w8,#4
	b.hi	1f
	ubfiz	x8,x11,#3,#8
	adrp	x12,.Lrtp_841016a0_switch.table.rtp_841016a0_rtpw_uri_of_kind.248
	add	x12,x12,:lo12:.Lrtp_841016a0_switch.table.rtp_841016a0_rtpw_uri_of_kind.248
	ldr	x19,[x12,x8]
	cmp	x2,x19
	b.hs	3f
	mov	w0,#8
	ldp	x20,x19,[sp,#16]
	ldr	x30,[sp],#32
	ret
2:
	adrp	x11,.Lrtp_841016a0_switch.table.rtp_841016a0_rtpw_uri_of_kind
	add	x11,x11,:lo12:.Lrtp_841016a0_switch.table.rtp_841016a0_rtpw_uri_of_kind
	ldr	x8,[x11,x8]
	sub	x11,x9,x8
	cmp	x11,x19
	b.hs	2f
	add	x13,x10,x1
	sub	x9,x13,x8
	cmp	x9,#16
	b.hs	4f
	mov	x9,xzr
5:
	add	x11,x10,x9
	sub	x10,x19,x9
	add	x8,x8,x9
	add	x9,x1,x11
6:
	ldrb	w11,[x8],#1
	subs	x10,x10,#1
	strb	w11,[x9],#1
	b.ne	6b
6:
	mov	w0,wzr
	str	x19,[x3]
	ldp	x20,x19,[sp,#16]
	ldr	x30,[sp],#32
	ret
1:
	mov	w0,#11
	ldp	x20,x19,[sp,#16]
	ldr	x30,[sp],#32
	ret
3:
	adrp	x12,.Lrtp_841016a0_switch.table.rtp_841016a0_rtpw_uri_of_kind.249
	add	x12,x12,:lo12:.Lrtp_841016a0_switch.table.rtp_841016a0_rtpw_uri_of_kind.249
	ldr	x8,[x12,x8]
	sub	x12,x9,x8
	cmp	x12,x19
	b.hs	1f
	add	x13,x10,x1
	sub	x9,x13,x8
	cmp	x9,#32
	b.hs	3f
	mov	x9,xzr
	b	7f
2:
	mov	x0,x9
	mov	x1,x8
	mov	x2,x19
	mov	x20,x3
	bl	memmove
	mov	w0,wzr
	str	x19,[x20]
	ldp	x20,x19,[sp,#16]
	ldr	x30,[sp],#32
	ret
4:
	and	x11,x19,#0x70
	and	x9,x19,#0x70
	add	x12,x8,#8
	add	x13,x13,#8
	and	x14,x19,#0x70
2:
	ldp	d0,d1,[x12,#-8]
	subs	x14,x14,#16
	add	x12,x12,#16
	stp	d0,d1,[x13,#-8]
	add	x13,x13,#16
	b.ne	2b
	cmp	x19,x11
	b.eq	6b
	and	w12,w0,#0x7
	cmp	w12,#4
	b.eq	5b
	and	x9,x19,#0x7c
	add	x13,x10,x11
	sub	x12,x9,x11
	add	x11,x8,x11
	add	x13,x1,x13
2:
	ldr	w14,[x11],#4
	subs	x12,x12,#4
	str	w14,[x13],#4
	b.ne	2b
	cmp	x19,x9
	b.ne	5b
	b	6b
1:
	mov	x0,x9
	mov	x1,x8
	mov	x2,x19
	mov	x20,x3
	bl	memcpy
	mov	w0,wzr
	str	x19,[x20]
	ldp	x20,x19,[sp,#16]
	ldr	x30,[sp],#32
	ret
3:
	and	x9,x19,#0x60
	add	x12,x8,#16
	add	x13,x13,#16
	and	x14,x19,#0x60
1:
	ldp	q0,q1,[x12,#-16]
	subs	x14,x14,#32
	add	x12,x12,#32
	stp	q0,q1,[x13,#-16]
	add	x13,x13,#32
	b.ne	1b
	and	w12,w0,#0x2
	cmp	w12,w11,uxtb
	b.ne	7f
	and	x11,x19,#0x78
	add	x12,x10,x9
	sub	x11,x11,x9
	add	x9,x8,x9
	add	x12,x1,x12
1:
	ldr	d0,[x9],#8
	subs	x11,x11,#8
	str	d0,[x12],#8
	b.ne	1b
	and	x9,x19,#0x78
7:
	add	x11,x10,x9
	sub	x10,x19,x9
	add	x8,x8,x9
	add	x9,x1,x11
1:
	ldrb	w11,[x8],#1
	subs	x10,x10,#1
	strb	w11,[x9],#1
	b.ne	1b
	b	6b
	.size	rtp_841016a0_rtpw_uri_of_kind,.-rtp_841016a0_rtpw_uri_of_kind
	.cfi_endproc

	.section	.text.rtpw_read_color_space,"ax",@progbits
	.globl	rtp_841016a0_rtpw_read_color_space
	.p2align	2
	.type	rtp_841016a0_rtpw_read_color_space,@function
rtp_841016a0_rtpw_read_color_space:
	.cfi_startproc
	cmp	x0,#0
	mov	w8,#4096
	csel	x8,x8,xzr,eq
	cmp	x1,#28
	add	x9,x0,x8
	b.eq	1f
	cmp	x1,#4
	b.ne	2f
	ldrb	w10,[x9,#3]
	mov	w0,#9
	and	w8,w10,#0x3
	cmp	w8,#3
	b.eq	3f
	ubfx	w11,w10,#2,#2
	cmp	w11,#3
	b.eq	3f
	mov	w12,wzr
	mov	w13,wzr
	mov	w14,wzr
	mov	w15,wzr
	movi	v0.2d,#0000000000000000
	mov	w16,wzr
	b	4f
1:
	ldrb	w10,[x9,#3]
	mov	w0,#9
	and	w8,w10,#0x3
	cmp	w8,#3
	b.eq	3f
	ubfx	w11,w10,#2,#2
	cmp	w11,#3
	b.eq	3f
	add	x12,x9,#4
	ldrh	w14,[x9,#22]
	ldrh	w15,[x9,#24]
	ld2	{ v0.8b,v1.8b },[x12]
	ldrh	w12,[x9,#20]
	ldrh	w16,[x9,#26]
	rev16	w14,w14
	rev16	w15,w15
	rev16	w13,w12
	rev16	w16,w16
	mov	w12,#1
	shll	v2.8h,v0.8b,#8
	ushll	v0.8h,v1.8b,#0
	orr	v0.16b,v2.16b,v0.16b
4:
	ldrh	w17,[x9]
	ldrb	w9,[x9,#2]
	ubfx	w10,w10,#4,#2
	mov	w0,wzr
	strh	w13,[x2,#16]
	str	q0,[x2]
	strh	w14,[x2,#18]
	strh	w15,[x2,#20]
	strh	w16,[x2,#22]
	strh	w17,[x2,#24]
	strb	w9,[x2,#26]
	strb	w10,[x2,#27]
	strb	w11,[x2,#28]
	strb	w8,[x2,#29]
	strb	w12,[x2,#30]
	strb	wzr,[x2,#31]
3:
	ret
2:
	mov	w0,#9
	ret
	.size	rtp_841016a0_rtpw_read_color_space,.-rtp_841016a0_rtpw_read_color_space
	.cfi_endproc

	.section	.rodata.cst8,"aM",@progbits,8
	.p2align	3,0x0
.Lrtp_841016a0_CPI176_0:
	.hword	0
	.hword	65530
	.hword	65531
	.hword	65532
	.section	.text.rtpw_read_frame_marking,"ax",@progbits
	.globl	rtp_841016a0_rtpw_read_frame_marking
	.p2align	2
	.type	rtp_841016a0_rtpw_read_frame_marking,@function
rtp_841016a0_rtpw_read_frame_marking:
	.cfi_startproc
	cmp	x0,#0
	mov	w8,#4096
	csel	x8,x8,xzr,eq
	cbz	x1,1f
	cmp	x1,#1
	add	x14,x0,x8
	b.ne	2f
	ldrb	w13,[x14]
	mov	w10,wzr
	mov	w12,wzr
	mov	w9,wzr
	mov	w8,wzr
	mov	w11,wzr
	mov	w14,wzr
	b	3f
2:
	cmp	x1,#2
	b.hi	2f
	ldrb	w13,[x14]
	ldrb	w9,[x14,#1]
	mov	w8,wzr
	mov	w11,wzr
	b	4f
2:
	cmp	x1,#3
	b.ne	1f
	ldrb	w13,[x14]
	ldrb	w9,[x14,#1]
	mov	w11,#1
	ldrb	w8,[x14,#2]
4:
	ubfx	w10,w13,#3,#1
	and	w12,w13,#0x7
	mov	w14,#1
3:
	fmov	s0,w13
	umov	w13,v0.b[0]
	zip1	v2.8b,v0.8b,v0.8b
	dup	v1.4h,w13
	adrp	x13,.Lrtp_841016a0_CPI176_0
	bic	v2.4h,#255,lsl #8
	ldr	d0,[x13,:lo12:.Lrtp_841016a0_CPI176_0]
	bic	v1.4h,#255,lsl #8
	ushl	v0.4h,v1.4h,v0.4h
	ushr	v1.4h,v2.4h,#7
	bic	v0.4h,#254
	mov	v0.h[0],v1.h[0]
	cbz	w14,2f
	mov	w13,#1
	b	3f
1:
	mov	w0,#9
	ret
2:
	mov	w13,wzr
	mov	w10,wzr
	mov	w12,wzr
	mov	w9,wzr
	mov	w11,wzr
	mov	w8,wzr
3:
	uzp1	v0.8b,v0.8b,v0.8b
	mov	w0,wzr
	strb	w13,[x2,#4]
	strb	w10,[x2,#5]
	strb	w12,[x2,#6]
	strb	w9,[x2,#7]
	str	s0,[x2]
	strb	w11,[x2,#8]
	strb	w8,[x2,#9]
	ret
	.size	rtp_841016a0_rtpw_read_frame_marking,.-rtp_841016a0_rtpw_read_frame_marking
	.cfi_endproc

	.section	.text.rtpw_read_timing,"ax",@progbits
	.globl	rtp_841016a0_rtpw_read_timing
	.p2align	2
	.type	rtp_841016a0_rtpw_read_timing,@function
rtp_841016a0_rtpw_read_timing:
	.cfi_startproc
	cmp	x0,#0
	mov	w8,#4096
	csel	x8,x8,xzr,eq
	cmp	x1,#13
	add	x10,x0,x8
	b.eq	1f
	cmp	x1,#12
	b.ne	2f
	ldrh	w11,[x10]
	ldrh	w12,[x10,#2]
	mov	w8,wzr
	ldrh	w13,[x10,#4]
	ldrh	w14,[x10,#6]
	mov	w9,wzr
	ldrh	w15,[x10,#8]
	ldrh	w16,[x10,#10]
	rev16	w11,w11
	rev16	w12,w12
	rev16	w13,w13
	rev16	w10,w14
	rev16	w14,w15
	rev16	w15,w16
	b	3f
1:
	ldurh	w8,[x10,#1]
	ldurh	w9,[x10,#3]
	ldurh	w13,[x10,#5]
	ldurh	w14,[x10,#7]
	ldurh	w15,[x10,#9]
	ldurh	w16,[x10,#11]
	rev16	w11,w8
	rev16	w12,w9
	rev16	w13,w13
	ldrb	w8,[x10]
	rev16	w10,w14
	rev16	w14,w15
	rev16	w15,w16
	mov	w9,#1
3:
	mov	w0,wzr
	strh	w11,[x2]
	strh	w12,[x2,#2]
	strh	w13,[x2,#4]
	strh	w10,[x2,#6]
	strh	w14,[x2,#8]
	strh	w15,[x2,#10]
	strb	w8,[x2,#12]
	strb	w9,[x2,#13]
	ret
2:
	mov	w0,#9
	ret
	.size	rtp_841016a0_rtpw_read_timing,.-rtp_841016a0_rtpw_read_timing
	.cfi_endproc

	.section	.rodata.cst16,"aM",@progbits,16
	.p2align	4,0x0
.Lrtp_841016a0_CPI178_0:
	.byte	1
	.byte	2
	.byte	4
	.byte	8
	.byte	16
	.byte	32
	.byte	64
	.byte	128
	.byte	1
	.byte	2
	.byte	4
	.byte	8
	.byte	16
	.byte	32
	.byte	64
	.byte	128
	.section	.text.rtpw_left_out,"ax",@progbits
	.globl	rtp_841016a0_rtpw_left_out
	.p2align	2
	.type	rtp_841016a0_rtpw_left_out,@function
rtp_841016a0_rtpw_left_out:
	.cfi_startproc
	sub	sp,sp,#176
	str	x29,[sp,#80]
	stp	x30,x27,[sp,#96]
	stp	x26,x25,[sp,#112]
	stp	x24,x23,[sp,#128]
	stp	x22,x21,[sp,#144]
	stp	x20,x19,[sp,#160]
	.cfi_def_cfa_offset 176
	.cfi_offset w19,-8
	.cfi_offset w20,-16
	.cfi_offset w21,-24
	.cfi_offset w22,-32
	.cfi_offset w23,-40
	.cfi_offset w24,-48
	.cfi_offset w25,-56
	.cfi_offset w26,-64
	.cfi_offset w27,-72
	.cfi_offset w30,-80
	.cfi_offset w29,-96
	ldrb	w21,[x1,#209]
	mov	x19,x1
	mov	x20,x0
	cbz	w21,1f
	ldrh	w8,[x19,#154]
	mov	w0,#9
	cmp	w8,#179
	b.gt	2f
	cbz	w8,1f
	cmp	w8,#90
	b.eq	1f
	b	3f
2:
	cmp	w8,#270
	b.eq	1f
	cmp	w8,#180
	b.ne	3f
1:
	ldrb	w23,[x19,#213]
	cbz	w23,1f
	ldr	w8,[x19,#120]
	cbz	w8,2f
1:
	ldrb	w24,[x19,#214]
	cbz	w24,1f
	ldr	w8,[x19,#136]
	cbz	w8,2f
1:
	ldrb	w8,[x19,#211]
	cbz	w8,1f
	ldrb	w9,[x19,#166]
	add	w9,w9,#127
	tbnz	w9,#7,2f
1:
	ldrb	w22,[x19,#216]
	cbz	w22,1f
	movi	v0.16b,#32
	mov	x9,x19
	movi	v2.16b,#133
	ldr	q1,[x9,#168]!
	movi	v3.16b,#198
	movi	v4.16b,#230
	movi	v5.16b,#246
	adrp	x10,.Lrtp_841016a0_CPI178_0
	orr	v0.16b,v1.16b,v0.16b
	add	v0.16b,v0.16b,v2.16b
	add	v2.16b,v1.16b,v3.16b
	movi	v3.16b,#95
	cmhi	v0.16b,v4.16b,v0.16b
	cmhi	v2.16b,v5.16b,v2.16b
	cmeq	v1.16b,v1.16b,v3.16b
	and	v0.16b,v2.16b,v0.16b
	bic	v0.16b,v0.16b,v1.16b
	ldr	q1,[x10,:lo12:.Lrtp_841016a0_CPI178_0]
	and	v0.16b,v0.16b,v1.16b
	ext	v1.16b,v0.16b,v0.16b,#8
	zip1	v0.16b,v0.16b,v1.16b
	addv	h0,v0.8h
	fmov	w10,s0
	orr	w10,w10,#0x10000
	rbit	w10,w10
	clz	w10,w10
	ldrb	w9,[x9,w10,uxtw]
	cbnz	w9,2f
1:
	ldrb	w25,[x19,#217]
	cbz	w25,1f
	mov	x9,x19
	ldrb	w10,[x9,#185]!
	cbz	w10,4f
	ldrb	w10,[x19,#186]
	cbz	w10,5f
	ldrb	w10,[x19,#187]
	cbz	w10,6f
	ldrb	w10,[x19,#188]
	cbz	w10,7f
	ldrb	w10,[x19,#189]
	cbz	w10,8f
	ldrb	w10,[x19,#190]
	cbz	w10,9f
	ldrb	w10,[x19,#191]
	cbz	w10,10f
	ldrb	w10,[x19,#192]
	cbz	w10,11f
	ldrb	w10,[x19,#193]
	cbnz	w10,2f
	mov	w10,#8
	b	12f
4:
	mov	x10,xzr
	b	12f
5:
	mov	w10,#1
	b	12f
6:
	mov	w10,#2
	b	12f
7:
	mov	w10,#3
	b	12f
8:
	mov	w10,#4
	b	12f
9:
	mov	w10,#5
	b	12f
10:
	mov	w10,#6
	b	12f
11:
	mov	w10,#7
12:
	cbz	x10,1f
	ldrb	w11,[x9],#1
	sub	x10,x10,#1
	cmp	w11,#95
	b.eq	12b
	sub	w12,w11,#48
	cmp	w12,#10
	b.lo	12b
	and	w11,w11,#0xffffffdf
	sub	w11,w11,#65
	cmp	w11,#26
	b.lo	12b
	b	2f
1:
	ldrb	w26,[x19,#218]
	cbz	w26,1f
	mov	x9,x19
	ldrb	w10,[x9,#194]!
	cbz	w10,4f
	ldrb	w10,[x19,#195]
	cbz	w10,5f
	ldrb	w10,[x19,#196]
	cbz	w10,6f
	ldrb	w10,[x19,#197]
	cbz	w10,7f
	ldrb	w10,[x19,#198]
	cbz	w10,8f
	ldrb	w10,[x19,#199]
	cbz	w10,9f
	ldrb	w10,[x19,#200]
	cbz	w10,10f
	ldrb	w10,[x19,#201]
	cbz	w10,11f
	ldrb	w10,[x19,#202]
	cbnz	w10,2f
	mov	w10,#8
	b	12f
4:
	mov	x10,xzr
	b	12f
5:
	mov	w10,#1
	b	12f
6:
	mov	w10,#2
	b	12f
7:
	mov	w10,#3
	b	12f
8:
	mov	w10,#4
	b	12f
9:
	mov	w10,#5
	b	12f
10:
	mov	w10,#6
	b	12f
11:
	mov	w10,#7
12:
	cbz	x10,1f
	ldrb	w11,[x9],#1
	sub	x10,x10,#1
	cmp	w11,#95
	b.eq	12b
	sub	w12,w11,#48
	cmp	w12,#10
	b.lo	12b
	and	w11,w11,#0xffffffdf
	sub	w11,w11,#65
	cmp	w11,#26
	b.lo	12b
	b	2f
1:
	ldrsb	w9,[x19,#78]
	tbnz	w9,#31,2f
	ldrb	w9,[x19,#79]
	cmp	w9,#15
	b.ls	1f
2:
	mov	w0,#9
3:
	ldp	x20,x19,[sp,#160]
	ldr	x29,[sp,#80]
	ldp	x22,x21,[sp,#144]
	ldp	x24,x23,[sp,#128]
	ldp	x26,x25,[sp,#112]
	ldp	x30,x27,[sp,#96]
	add	sp,sp,#176
	ret
1:
	ldrb	w9,[x19,#82]
	cbz	w9,1f
	ldp	q0,q4,[x20,#32]
	ldr	q3,[x20,#64]
	ldp	q7,q1,[x20,#80]
	ldp	q2,q5,[x20,#112]
	ldr	q17,[x20,#224]
	str	x2,[sp]
	orr	v0.16b,v3.16b,v0.16b
	ldp	q6,q16,[x20,#192]
	orr	v1.16b,v5.16b,v1.16b
	orr	v4.16b,v7.16b,v4.16b
	ldp	q3,q5,[x20,#144]
	orr	v0.16b,v1.16b,v0.16b
	orr	v5.16b,v6.16b,v5.16b
	ldr	q6,[x20,#176]
	orr	v1.16b,v3.16b,v2.16b
	orr	v2.16b,v16.16b,v6.16b
	orr	v3.16b,v17.16b,v5.16b
	ldr	q5,[x20,#240]
	orr	v1.16b,v1.16b,v4.16b
	orr	v2.16b,v5.16b,v2.16b
	orr	v0.16b,v3.16b,v0.16b
	ldr	q3,[x20,#16]
	orr	v1.16b,v2.16b,v1.16b
	orr	v0.16b,v0.16b,v3.16b
	orr	v0.16b,v0.16b,v1.16b
	ext	v1.16b,v0.16b,v0.16b,#8
	orr	v0.8b,v0.8b,v1.8b
	fmov	x9,d0
	orr	x9,x9,x9,lsr #32
	lsr	x10,x9,#16
	orr	w9,w9,w10
	orr	w9,w9,w9,lsr #8
	tst	w9,#0xff
	b.eq	2f
	mov	w9,#15
	b	4f
1:
	ldrb	w9,[x19,#203]
	ldrb	w27,[x19,#204]
	orr	w14,w24,w23
	ldrb	w10,[x19,#212]
	ldrb	w11,[x19,#206]
	ldrb	w13,[x19,#208]
	cmp	w9,#0
	ldrb	w15,[x19,#210]
	ldrb	w16,[x19,#215]
	orr	w10,w10,w8
	cset	w9,ne
	cmp	w27,#0
	cset	w8,ne
	cmp	w10,#0
	ldrb	w0,[x19,#207]
	cset	w10,ne
	cmp	w11,#0
	cset	w11,ne
	cmp	w21,#0
	cset	w12,ne
	cmp	w13,#0
	cset	w13,ne
	cmp	w14,#0
	cset	w14,ne
	cmp	w15,#0
	cset	w15,ne
	cmp	w16,#0
	cset	w17,ne
	cmp	w25,#0
	cset	w16,ne
	cmp	w26,#0
	cset	w1,ne
	cmp	w22,#0
	cset	w4,ne
	cmp	w0,#0
	cset	w3,ne
	b	1f
2:
	ldr	q0,[x20]
	adrp	x9,.Lrtp_841016a0_CPI178_0
	ldr	q1,[x9,:lo12:.Lrtp_841016a0_CPI178_0]
	cmeq	v0.16b,v0.16b,#0
	bic	v0.16b,v1.16b,v0.16b
	ext	v1.16b,v0.16b,v0.16b,#8
	zip1	v0.16b,v0.16b,v1.16b
	addv	h0,v0.8h
	fmov	w9,s0
	orr	w9,w9,#0x1
	and	x9,x9,#0xffff
	clz	x9,x9
	eor	x9,x9,#0x3f
4:
	ldrb	w12,[x19,#203]
	ldrb	w27,[x19,#204]
	orr	w11,w24,w23
	ldrb	w10,[x19,#212]
	ldrb	w15,[x19,#206]
	mov	x1,xzr
	cmp	w12,#0
	ldrb	w16,[x19,#208]
	ldrb	w17,[x19,#210]
	stp	w15,w12,[sp,#28]
	orr	w12,w10,w8
	cset	w13,ne
	cmp	w27,#0
	strb	w13,[sp,#92]
	ldrb	w0,[x19,#215]
	cset	w14,ne
	cmp	w12,#0
	ldrb	w29,[x19,#207]
	cset	w12,ne
	cmp	w15,#0
	strb	w14,[sp,#88]
	cset	w13,ne
	cmp	w21,#0
	strb	w12,[sp,#76]
	cset	w14,ne
	cmp	w16,#0
	strb	w13,[sp,#72]
	cset	w12,ne
	cmp	w11,#0
	stp	w17,w16,[sp,#20]
	cset	w11,ne
	cmp	w17,#0
	strb	w12,[sp,#64]
	cset	w13,ne
	cmp	w0,#0
	strb	w11,[sp,#60]
	cset	w12,ne
	cmp	w25,#0
	strb	w13,[sp,#56]
	cset	w11,ne
	cmp	w26,#0
	strb	w12,[sp,#52]
	cset	w13,ne
	cmp	w22,#0
	strb	w11,[sp,#48]
	cset	w12,ne
	cmp	w29,#0
	strb	w14,[sp,#68]
	cset	w11,ne
	cmp	w8,#0
	ccmp	w10,#0,#4,ne
	strb	w13,[sp,#44]
	cset	w8,ne
	strb	w12,[sp,#40]
	strb	w11,[sp,#36]
	stp	w8,w0,[sp,#12]
	b	2f
4:
	cbz	w27,2f
	add	x8,sp,#88
5:
	strb	wzr,[x8]
2:
	cmp	x1,x9
	b.hs	6f
	add	x1,x1,#1
	ldrb	w8,[x20,x1]
	sub	w8,w8,#1
	cmp	w8,#12
	b.hi	2b
	adrp	x10,7f
	add	x10,x10,:lo12:7f
	adr	x11,4b
	ldrb	w12,[x10,x8]
	add	x11,x11,x12,lsl #2
	br	x11
8:
	ldr	w8,[sp,#32]
	cbz	w8,2b
	add	x8,sp,#92
	strb	wzr,[x8]
	b	2b
6:
	cmp	x9,#15
	b.lo	6f
	cmp	x1,#254
	b.hi	6f
	mov	x0,x20
	bl	"rtp_841016a0_rtp_c::kinds::StoredMap::past_unmapped"
	add	x9,x0,#16
	mov	w8,#255
	mov	x1,x0
	cmp	x9,#255
	csel	x9,x9,x8,lo
	b	2b
9:
	cbz	w22,2b
	add	x8,sp,#40
	strb	wzr,[x8]
	b	2b
10:
	cbz	w21,2b
	ldrh	w10,[x19,#154]
	add	x8,sp,#68
	cmp	w10,#179
	b.gt	11f
	cbz	w10,5b
	cmp	w10,#90
	b.eq	5b
	b	2b
12:
	cbz	w29,2b
	add	x8,sp,#36
	strb	wzr,[x8]
	b	2b
13:
	cbz	w25,2b
	add	x8,sp,#48
	strb	wzr,[x8]
	b	2b
14:
	ldr	w8,[sp,#12]
	tbz	w8,#0,2b
	add	x8,sp,#76
	strb	wzr,[x8]
	b	2b
15:
	ldr	w8,[sp,#28]
	cbz	w8,2b
	add	x8,sp,#72
	strb	wzr,[x8]
	b	2b
16:
	ldr	w8,[sp,#20]
	cbz	w8,2b
	add	x8,sp,#56
	strb	wzr,[x8]
	b	2b
17:
	ldr	w8,[sp,#24]
	cbz	w8,2b
	add	x8,sp,#64
	strb	wzr,[x8]
	b	2b
18:
	cbz	w23,19f
	ldr	w8,[x19,#120]
	cmp	w8,#0
	cset	w8,ne
	b	20f
21:
	cbz	w26,2b
	add	x8,sp,#44
	strb	wzr,[x8]
	b	2b
22:
	ldr	w8,[sp,#16]
	cbz	w8,2b
	add	x8,sp,#52
	strb	wzr,[x8]
	b	2b
19:
	mov	w8,wzr
20:
	cbz	w24,2b
	ldr	w10,[x19,#136]
	cmp	w10,#0
	csel	w8,wzr,w8,eq
	tbz	w8,#0,2b
	add	x8,sp,#60
	strb	wzr,[x8]
	b	2b
11:
	cmp	w10,#180
	b.eq	5b
	cmp	w10,#270
	b.eq	5b
	b	2b
6:
	ldrb	w9,[sp,#92]
	ldrb	w8,[sp,#88]
	ldrb	w10,[sp,#76]
	ldrb	w11,[sp,#72]
	ldrb	w12,[sp,#68]
	ldrb	w13,[sp,#64]
	ldrb	w14,[sp,#60]
	ldrb	w15,[sp,#56]
	ldrb	w17,[sp,#52]
	ldrb	w16,[sp,#48]
	ldrb	w1,[sp,#44]
	ldrb	w4,[sp,#40]
	ldrb	w3,[sp,#36]
	ldr	x2,[sp]
1:
	lsl	w10,w10,#3
	cmp	w27,#0
	mov	w0,wzr
	add	w9,w10,w9,lsl #1
	ldrb	w10,[x19,#205]
	add	w9,w9,w11,lsl #4
	csinc	w11,w8,wzr,ne
	cmp	w10,#0
	csel	w8,w8,w11,eq
	lsl	w10,w4,#12
	ldrb	w11,[x19,#219]
	add	w9,w9,w12,lsl #5
	orr	w10,w10,w1,lsl #11
	cmp	w11,#0
	mov	w11,#32768
	add	w8,w9,w8,lsl #2
	lsl	w9,w17,#9
	orr	w10,w10,w3,lsl #13
	orr	w8,w8,w13,lsl #6
	add	w9,w9,w15,lsl #8
	orr	w8,w8,w14,lsl #7
	add	w9,w9,w16,lsl #10
	bfxil	w9,w8,#0,#8
	csel	w8,wzr,w11,eq
	orr	w8,w10,w8
	orr	w8,w8,w9
	str	w8,[x2]
	b	3b
	.size	rtp_841016a0_rtpw_left_out,.-rtp_841016a0_rtpw_left_out
	.cfi_endproc
	.section	.rodata.rtpw_left_out,"a",@progbits
7:
	.byte	(8b-4b)>>2
	.byte	(4b-4b)>>2
	.byte	(14b-4b)>>2
	.byte	(15b-4b)>>2
	.byte	(10b-4b)>>2
	.byte	(17b-4b)>>2
	.byte	(18b-4b)>>2
	.byte	(16b-4b)>>2
	.byte	(22b-4b)>>2
	.byte	(13b-4b)>>2
	.byte	(21b-4b)>>2
	.byte	(9b-4b)>>2
	.byte	(12b-4b)>>2

	.section	.rodata.cst16,"aM",@progbits,16
	.p2align	4,0x0
.Lrtp_841016a0_CPI179_0:
	.byte	1
	.byte	2
	.byte	4
	.byte	8
	.byte	16
	.byte	32
	.byte	64
	.byte	128
	.byte	1
	.byte	2
	.byte	4
	.byte	8
	.byte	16
	.byte	32
	.byte	64
	.byte	128
	.section	.text.rtpw_left_out_layers,"ax",@progbits
	.globl	rtp_841016a0_rtpw_left_out_layers
	.p2align	2
	.type	rtp_841016a0_rtpw_left_out_layers,@function
rtp_841016a0_rtpw_left_out_layers:
	.cfi_startproc
	sub	sp,sp,#256
	str	x29,[sp,#160]
	stp	x30,x27,[sp,#176]
	stp	x26,x25,[sp,#192]
	stp	x24,x23,[sp,#208]
	stp	x22,x21,[sp,#224]
	stp	x20,x19,[sp,#240]
	.cfi_def_cfa_offset 256
	.cfi_offset w19,-8
	.cfi_offset w20,-16
	.cfi_offset w21,-24
	.cfi_offset w22,-32
	.cfi_offset w23,-40
	.cfi_offset w24,-48
	.cfi_offset w25,-56
	.cfi_offset w26,-64
	.cfi_offset w27,-72
	.cfi_offset w30,-80
	.cfi_offset w29,-96
	movi	v0.2d,#0000000000000000
	ldrb	w8,[x1,#209]
	stp	q0,q0,[sp,#64]
	str	q0,[sp,#48]
	cbz	w8,1f
	ldrh	w9,[x1,#154]
	mov	w8,#9
	cmp	w9,#179
	b.gt	2f
	cbz	w9,1f
	cmp	w9,#90
	b.eq	1f
	b	3f
2:
	cmp	w9,#270
	b.eq	1f
	cmp	w9,#180
	b.ne	3f
1:
	ldrb	w8,[x1,#213]
	cbz	w8,1f
	ldr	w8,[x1,#120]
	cbz	w8,2f
1:
	ldrb	w8,[x1,#214]
	cbz	w8,1f
	ldr	w8,[x1,#136]
	cbz	w8,2f
1:
	ldrb	w8,[x1,#211]
	cbz	w8,1f
	ldrb	w8,[x1,#166]
	add	w8,w8,#127
	tbnz	w8,#7,2f
1:
	ldrb	w8,[x1,#216]
	cbz	w8,1f
	movi	v0.16b,#32
	mov	x8,x1
	movi	v2.16b,#133
	ldr	q1,[x8,#168]!
	movi	v3.16b,#198
	movi	v4.16b,#230
	movi	v5.16b,#246
	adrp	x9,.Lrtp_841016a0_CPI179_0
	orr	v0.16b,v1.16b,v0.16b
	add	v0.16b,v0.16b,v2.16b
	add	v2.16b,v1.16b,v3.16b
	movi	v3.16b,#95
	cmhi	v0.16b,v4.16b,v0.16b
	cmhi	v2.16b,v5.16b,v2.16b
	cmeq	v1.16b,v1.16b,v3.16b
	and	v0.16b,v2.16b,v0.16b
	bic	v0.16b,v0.16b,v1.16b
	ldr	q1,[x9,:lo12:.Lrtp_841016a0_CPI179_0]
	and	v0.16b,v0.16b,v1.16b
	ext	v1.16b,v0.16b,v0.16b,#8
	zip1	v0.16b,v0.16b,v1.16b
	addv	h0,v0.8h
	fmov	w9,s0
	orr	w9,w9,#0x10000
	rbit	w9,w9
	clz	w9,w9
	ldrb	w8,[x8,w9,uxtw]
	cbnz	w8,2f
1:
	ldrb	w8,[x1,#217]
	cbz	w8,1f
	mov	x8,x1
	ldrb	w9,[x8,#185]!
	cbz	w9,4f
	ldrb	w9,[x1,#186]
	cbz	w9,5f
	ldrb	w9,[x1,#187]
	cbz	w9,6f
	ldrb	w9,[x1,#188]
	cbz	w9,7f
	ldrb	w9,[x1,#189]
	cbz	w9,8f
	ldrb	w9,[x1,#190]
	cbz	w9,9f
	ldrb	w9,[x1,#191]
	cbz	w9,10f
	ldrb	w9,[x1,#192]
	cbz	w9,11f
	ldrb	w9,[x1,#193]
	cbnz	w9,2f
	mov	w9,#8
	b	12f
4:
	mov	x9,xzr
	b	12f
5:
	mov	w9,#1
	b	12f
6:
	mov	w9,#2
	b	12f
7:
	mov	w9,#3
	b	12f
8:
	mov	w9,#4
	b	12f
9:
	mov	w9,#5
	b	12f
10:
	mov	w9,#6
	b	12f
11:
	mov	w9,#7
12:
	cbz	x9,1f
	ldrb	w10,[x8],#1
	sub	x9,x9,#1
	cmp	w10,#95
	b.eq	12b
	sub	w11,w10,#48
	cmp	w11,#10
	b.lo	12b
	and	w10,w10,#0xffffffdf
	sub	w10,w10,#65
	cmp	w10,#26
	b.lo	12b
	b	2f
1:
	ldrb	w8,[x1,#218]
	cbz	w8,1f
	mov	x8,x1
	ldrb	w9,[x8,#194]!
	cbz	w9,4f
	ldrb	w9,[x1,#195]
	cbz	w9,5f
	ldrb	w9,[x1,#196]
	cbz	w9,6f
	ldrb	w9,[x1,#197]
	cbz	w9,7f
	ldrb	w9,[x1,#198]
	cbz	w9,8f
	ldrb	w9,[x1,#199]
	cbz	w9,9f
	ldrb	w9,[x1,#200]
	cbz	w9,10f
	ldrb	w9,[x1,#201]
	cbz	w9,11f
	ldrb	w9,[x1,#202]
	cbnz	w9,2f
	mov	w9,#8
	b	12f
4:
	mov	x9,xzr
	b	12f
5:
	mov	w9,#1
	b	12f
6:
	mov	w9,#2
	b	12f
7:
	mov	w9,#3
	b	12f
8:
	mov	w9,#4
	b	12f
9:
	mov	w9,#5
	b	12f
10:
	mov	w9,#6
	b	12f
11:
	mov	w9,#7
12:
	cbz	x9,1f
	ldrb	w10,[x8],#1
	sub	x9,x9,#1
	cmp	w10,#95
	b.eq	12b
	sub	w11,w10,#48
	cmp	w11,#10
	b.lo	12b
	and	w10,w10,#0xffffffdf
	sub	w10,w10,#65
	cmp	w10,#26
	b.lo	12b
	b	2f
1:
	ldrsb	w8,[x1,#78]
	tbnz	w8,#31,2f
	ldrb	w8,[x1,#79]
	cmp	w8,#15
	b.hi	2f
	mov	x19,x0
	stp	x1,x3,[sp,#32]
	add	x8,x1,#88
	ldrb	w20,[x1,#82]
	add	x0,sp,#48
	add	x1,sp,#104
	str	x8,[sp,#104]
	bl	"rtp_841016a0_rtp_c::given_layers::with_given_layers::<#6444109e7f8c5753>"
	ldrb	w8,[sp,#48]
	cmp	w8,#1
	b.ne	2f
	ldr	x10,[sp,#56]
	cbz	w20,1f
	ldp	q0,q4,[x19,#32]
	mov	x8,x19
	ldr	q3,[x19,#64]
	ldp	q7,q1,[x19,#80]
	ldp	q6,q16,[x19,#192]
	ldr	q2,[x19,#128]
	orr	v0.16b,v3.16b,v0.16b
	ldr	q17,[x19,#224]
	ldp	q3,q5,[x19,#144]
	orr	v1.16b,v2.16b,v1.16b
	ldr	q2,[x19,#112]
	orr	v4.16b,v7.16b,v4.16b
	orr	v5.16b,v6.16b,v5.16b
	ldr	q6,[x19,#176]
	orr	v0.16b,v1.16b,v0.16b
	orr	v1.16b,v3.16b,v2.16b
	orr	v2.16b,v16.16b,v6.16b
	orr	v3.16b,v17.16b,v5.16b
	ldr	q5,[x19,#240]
	orr	v1.16b,v1.16b,v4.16b
	orr	v2.16b,v5.16b,v2.16b
	orr	v0.16b,v3.16b,v0.16b
	ldr	q3,[x19,#16]
	orr	v1.16b,v2.16b,v1.16b
	orr	v0.16b,v0.16b,v3.16b
	orr	v0.16b,v0.16b,v1.16b
	ext	v1.16b,v0.16b,v0.16b,#8
	orr	v0.8b,v0.8b,v1.8b
	fmov	x9,d0
	orr	x9,x9,x9,lsr #32
	lsr	x11,x9,#16
	orr	w9,w9,w11
	orr	w9,w9,w9,lsr #8
	tst	w9,#0xff
	b.eq	4f
	mov	w9,#15
	b	5f
2:
	mov	w8,#9
3:
	ldp	x20,x19,[sp,#240]
	mov	w0,w8
	ldp	x22,x21,[sp,#224]
	ldr	x29,[sp,#160]
	ldp	x24,x23,[sp,#208]
	ldp	x26,x25,[sp,#192]
	ldp	x30,x27,[sp,#176]
	add	sp,sp,#256
	ret
1:
	ldr	x8,[x10]
	ldrb	w9,[x8,#115]
	ldrb	w10,[x8,#116]
	ldrb	w11,[x8,#123]
	ldrb	w12,[x8,#124]
	ldrb	w13,[x8,#118]
	ldrb	w14,[x8,#121]
	cmp	w9,#0
	ldrb	w15,[x8,#120]
	ldrb	w16,[x8,#125]
	orr	w11,w12,w11
	cset	w9,ne
	cmp	w10,#0
	cset	w10,ne
	cmp	w11,#0
	ldrb	w17,[x8,#127]
	cset	w11,ne
	cmp	w13,#0
	ldrb	w13,[x8,#126]
	cset	w12,ne
	cmp	w14,#0
	ldrb	w1,[x8,#129]
	cset	w14,ne
	cmp	w15,#0
	orr	w15,w13,w16
	ldrb	w16,[x8,#122]
	cset	w13,ne
	cmp	w15,#0
	cset	w15,ne
	ldrb	w2,[x8,#130]
	ldrb	w3,[x8,#128]
	cmp	w16,#0
	ldrb	w8,[x8,#119]
	cset	w16,ne
	cmp	w17,#0
	cset	w0,ne
	cmp	w1,#0
	cset	w17,ne
	cmp	w2,#0
	cset	w1,ne
	cmp	w3,#0
	mov	w3,#32768
	cset	w4,ne
	cmp	w8,#0
	cset	w2,ne
	b	1f
4:
	ldr	q0,[x8]
	adrp	x9,.Lrtp_841016a0_CPI179_0
	ldr	q1,[x9,:lo12:.Lrtp_841016a0_CPI179_0]
	cmeq	v0.16b,v0.16b,#0
	bic	v0.16b,v1.16b,v0.16b
	ext	v1.16b,v0.16b,v0.16b,#8
	zip1	v0.16b,v0.16b,v1.16b
	addv	h0,v0.8h
	fmov	w9,s0
	orr	w9,w9,#0x1
	and	x9,x9,#0xffff
	clz	x9,x9
	eor	x9,x9,#0x3f
5:
	ldr	x22,[x10]
	mov	x1,xzr
	ldrb	w12,[x22,#115]
	ldrb	w15,[x22,#116]
	ldrb	w11,[x22,#123]
	ldrb	w10,[x22,#124]
	ldrb	w16,[x22,#118]
	ldrb	w17,[x22,#121]
	cmp	w12,#0
	stp	w15,w12,[sp,#24]
	ldrb	w13,[x22,#125]
	orr	w12,w10,w11
	cset	w14,ne
	cmp	w15,#0
	cset	w15,ne
	tst	w12,#0xff
	ldrb	w29,[x22,#126]
	ldrb	w20,[x22,#120]
	cset	w12,ne
	cmp	w16,#0
	strb	w14,[sp,#172]
	cset	w14,ne
	cmp	w17,#0
	stp	w13,w17,[sp,#12]
	orr	w13,w29,w13
	ldrb	w21,[x22,#122]
	strb	w15,[sp,#168]
	cset	w15,ne
	cmp	w20,#0
	ldrb	w23,[x22,#127]
	strb	w12,[sp,#156]
	cset	w12,ne
	cmp	w13,#0
	ldrb	w24,[x22,#129]
	ldrb	w25,[x22,#130]
	cset	w13,ne
	cmp	w21,#0
	strb	w14,[sp,#152]
	cset	w14,ne
	cmp	w23,#0
	strb	w12,[sp,#144]
	cset	w12,ne
	cmp	w24,#0
	ldrb	w26,[x22,#128]
	strb	w13,[sp,#140]
	cset	w13,ne
	cmp	w25,#0
	ldrb	w27,[x22,#119]
	strb	w12,[sp,#132]
	cset	w12,ne
	cmp	w26,#0
	strb	w13,[sp,#128]
	cset	w13,ne
	cmp	w27,#0
	strb	w12,[sp,#124]
	cset	w12,ne
	cmp	w11,#0
	mov	w11,#1
	ccmp	w10,#0,#4,ne
	str	w16,[sp,#20]
	cset	w10,ne
	strb	w15,[sp,#148]
	strb	w14,[sp,#136]
	strb	w13,[sp,#120]
	strb	w12,[sp,#116]
	strb	w11,[sp,#112]
	str	w10,[sp,#8]
	b	2f
4:
	ldr	w10,[sp,#24]
	cbz	w10,2f
	add	x10,sp,#168
5:
	strb	wzr,[x10]
2:
	cmp	x1,x9
	b.hs	6f
	add	x1,x1,#1
	ldrb	w10,[x8,x1]
	sub	w10,w10,#1
	cmp	w10,#14
	b.hi	2b
	adrp	x11,7f
	add	x11,x11,:lo12:7f
	adr	x12,4b
	ldrb	w13,[x11,x10]
	add	x12,x12,x13,lsl #2
	add	x10,sp,#112
	br	x12
8:
	ldr	w10,[sp,#28]
	cbz	w10,2b
	add	x10,sp,#172
	strb	wzr,[x10]
	b	2b
6:
	cmp	x9,#15
	b.lo	6f
	cmp	x1,#254
	b.hi	6f
	mov	x0,x19
	bl	"rtp_841016a0_rtp_c::kinds::StoredMap::past_unmapped"
	add	x10,x0,#16
	mov	w9,#255
	mov	x1,x0
	cmp	x10,#255
	mov	x8,x19
	csel	x9,x10,x9,lo
	b	2b
9:
	cbz	w25,2b
	add	x10,sp,#124
	strb	wzr,[x10]
	b	2b
10:
	ldr	w10,[sp,#20]
	cbz	w10,2b
	add	x10,sp,#152
	strb	wzr,[x10]
	b	2b
11:
	cbz	w26,2b
	add	x10,sp,#120
	strb	wzr,[x10]
	b	2b
12:
	cbz	w23,2b
	add	x10,sp,#132
	strb	wzr,[x10]
	b	2b
13:
	ldr	w10,[sp,#8]
	tbz	w10,#0,2b
	add	x10,sp,#156
	strb	wzr,[x10]
	b	2b
14:
	ldr	w10,[sp,#12]
	cbz	w10,15f
	ldr	w10,[x22,#32]
	cmp	w10,#0
	cset	w10,ne
15:
	cbz	w29,2b
	ldr	w11,[x22,#48]
	cmp	w11,#0
	csel	w10,wzr,w10,eq
	tbz	w10,#0,2b
	add	x10,sp,#140
	strb	wzr,[x10]
	b	2b
15:
	ldr	w10,[sp,#16]
	cbz	w10,2b
	ldrh	w11,[x22,#66]
	add	x10,sp,#148
	cmp	w11,#179
	b.gt	16f
	cbz	w11,5b
	cmp	w11,#90
	b.eq	5b
	b	2b
17:
	cbz	w27,2b
	add	x10,sp,#116
	strb	wzr,[x10]
	b	2b
18:
	cbz	w20,2b
	add	x10,sp,#144
	strb	wzr,[x10]
	b	2b
19:
	cbz	w24,2b
	add	x10,sp,#128
	strb	wzr,[x10]
	b	2b
20:
	cbz	w21,2b
	add	x10,sp,#136
	strb	wzr,[x10]
	b	2b
16:
	cmp	w11,#180
	b.eq	5b
	cmp	w11,#270
	b.eq	5b
	b	2b
6:
	ldrb	w8,[sp,#112]
	ldrb	w9,[sp,#172]
	ldrb	w10,[sp,#168]
	ldrb	w11,[sp,#156]
	ldrb	w12,[sp,#152]
	ldrb	w14,[sp,#148]
	lsl	w3,w8,#15
	ldrb	w13,[sp,#144]
	ldrb	w15,[sp,#140]
	ldrb	w16,[sp,#136]
	ldrb	w0,[sp,#132]
	ldrb	w17,[sp,#128]
	ldrb	w1,[sp,#124]
	ldrb	w4,[sp,#120]
	ldrb	w2,[sp,#116]
1:
	ldp	x8,x5,[sp,#32]
	ldrb	w6,[x8,#205]
	cbz	w6,1f
	ldrb	w8,[x8,#204]
	cmp	w8,#0
	csinc	w10,w10,wzr,ne
1:
	lsl	w11,w11,#3
	mov	w8,wzr
	add	w9,w11,w9,lsl #1
	lsl	w11,w4,#12
	add	w9,w9,w12,lsl #4
	orr	w11,w11,w1,lsl #11
	add	w9,w9,w14,lsl #5
	orr	w11,w11,w3
	add	w9,w9,w10,lsl #2
	lsl	w10,w0,#9
	orr	w9,w9,w13,lsl #6
	add	w10,w10,w16,lsl #8
	orr	w9,w9,w15,lsl #7
	add	w10,w10,w17,lsl #10
	bfxil	w10,w9,#0,#8
	orr	w9,w11,w2,lsl #13
	orr	w9,w9,w10
	str	w9,[x5]
	b	3b
	.size	rtp_841016a0_rtpw_left_out_layers,.-rtp_841016a0_rtpw_left_out_layers
	.cfi_endproc
	.section	.rodata.rtpw_left_out_layers,"a",@progbits
7:
	.byte	(8b-4b)>>2
	.byte	(4b-4b)>>2
	.byte	(13b-4b)>>2
	.byte	(10b-4b)>>2
	.byte	(15b-4b)>>2
	.byte	(18b-4b)>>2
	.byte	(14b-4b)>>2
	.byte	(20b-4b)>>2
	.byte	(12b-4b)>>2
	.byte	(19b-4b)>>2
	.byte	(9b-4b)>>2
	.byte	(11b-4b)>>2
	.byte	(17b-4b)>>2
	.byte	(2b-4b)>>2
	.byte	(5b-4b)>>2

	.section	.rodata.cst16,"aM",@progbits,16
	.p2align	4,0x0
.Lrtp_841016a0_CPI180_0:
	.byte	1
	.byte	2
	.byte	4
	.byte	8
	.byte	16
	.byte	32
	.byte	64
	.byte	128
	.byte	1
	.byte	2
	.byte	4
	.byte	8
	.byte	16
	.byte	32
	.byte	64
	.byte	128
	.section	.text.rtpw_wire_len,"ax",@progbits
	.globl	rtp_841016a0_rtpw_wire_len
	.p2align	2
	.type	rtp_841016a0_rtpw_wire_len,@function
rtp_841016a0_rtpw_wire_len:
	.cfi_startproc
	str	x30,[sp,#-48]!
	stp	x22,x21,[sp,#16]
	stp	x20,x19,[sp,#32]
	.cfi_def_cfa_offset 48
	.cfi_offset w19,-8
	.cfi_offset w20,-16
	.cfi_offset w21,-24
	.cfi_offset w22,-32
	.cfi_offset w30,-48
	ldrb	w8,[x1,#209]
	cbz	w8,1f
	ldrh	w9,[x1,#154]
	mov	w8,#9
	cmp	w9,#179
	b.gt	2f
	cbz	w9,1f
	cmp	w9,#90
	b.eq	1f
	b	3f
2:
	cmp	w9,#270
	b.eq	1f
	cmp	w9,#180
	b.ne	3f
1:
	ldrb	w8,[x1,#213]
	cbz	w8,1f
	ldr	w8,[x1,#120]
	cbz	w8,2f
1:
	ldrb	w8,[x1,#214]
	cbz	w8,1f
	ldr	w8,[x1,#136]
	cbz	w8,2f
1:
	ldrb	w8,[x1,#211]
	cbz	w8,1f
	ldrb	w8,[x1,#166]
	add	w8,w8,#127
	tbnz	w8,#7,2f
1:
	ldrb	w8,[x1,#216]
	cbz	w8,1f
	movi	v0.16b,#32
	mov	x9,x1
	movi	v2.16b,#133
	ldr	q1,[x9,#168]!
	movi	v3.16b,#198
	movi	v4.16b,#230
	movi	v5.16b,#246
	adrp	x10,.Lrtp_841016a0_CPI180_0
	orr	v0.16b,v1.16b,v0.16b
	add	v0.16b,v0.16b,v2.16b
	add	v2.16b,v1.16b,v3.16b
	movi	v3.16b,#95
	cmhi	v0.16b,v4.16b,v0.16b
	cmhi	v2.16b,v5.16b,v2.16b
	cmeq	v1.16b,v1.16b,v3.16b
	and	v0.16b,v2.16b,v0.16b
	bic	v0.16b,v0.16b,v1.16b
	ldr	q1,[x10,:lo12:.Lrtp_841016a0_CPI180_0]
	and	v0.16b,v0.16b,v1.16b
	ext	v1.16b,v0.16b,v0.16b,#8
	zip1	v0.16b,v0.16b,v1.16b
	addv	h0,v0.8h
	fmov	w10,s0
	orr	w10,w10,#0x10000
	rbit	w10,w10
	clz	w10,w10
	ldrb	w9,[x9,w10,uxtw]
	cbnz	w9,2f
1:
	ldrb	w9,[x1,#217]
	cbz	w9,1f
	mov	x10,x1
	ldrb	w11,[x10,#185]!
	cbz	w11,4f
	ldrb	w11,[x1,#186]
	cbz	w11,5f
	ldrb	w11,[x1,#187]
	cbz	w11,6f
	ldrb	w11,[x1,#188]
	cbz	w11,7f
	ldrb	w11,[x1,#189]
	cbz	w11,8f
	ldrb	w11,[x1,#190]
	cbz	w11,9f
	ldrb	w11,[x1,#191]
	cbz	w11,10f
	ldrb	w11,[x1,#192]
	cbz	w11,11f
	ldrb	w11,[x1,#193]
	cbnz	w11,2f
	mov	w11,#8
	b	12f
3:
	ldp	x20,x19,[sp,#32]
	mov	w0,w8
	ldp	x22,x21,[sp,#16]
	ldr	x30,[sp],#48
	ret
4:
	mov	x11,xzr
	b	12f
5:
	mov	w11,#1
	b	12f
6:
	mov	w11,#2
	b	12f
7:
	mov	w11,#3
	b	12f
8:
	mov	w11,#4
	b	12f
9:
	mov	w11,#5
	b	12f
10:
	mov	w11,#6
	b	12f
11:
	mov	w11,#7
12:
	cbz	x11,1f
	ldrb	w12,[x10],#1
	sub	x11,x11,#1
	cmp	w12,#95
	b.eq	12b
	sub	w13,w12,#48
	cmp	w13,#10
	b.lo	12b
	and	w12,w12,#0xffffffdf
	sub	w12,w12,#65
	cmp	w12,#26
	b.lo	12b
	b	2f
1:
	ldrb	w10,[x1,#218]
	cbz	w10,1f
	mov	x11,x1
	ldrb	w12,[x11,#194]!
	cbz	w12,3f
	ldrb	w12,[x1,#195]
	cbz	w12,4f
	ldrb	w12,[x1,#196]
	cbz	w12,5f
	ldrb	w12,[x1,#197]
	cbz	w12,6f
	ldrb	w12,[x1,#198]
	cbz	w12,7f
	ldrb	w12,[x1,#199]
	cbz	w12,8f
	ldrb	w12,[x1,#200]
	cbz	w12,9f
	ldrb	w12,[x1,#201]
	cbz	w12,10f
	ldrb	w12,[x1,#202]
	cbnz	w12,2f
	mov	w12,#8
	b	11f
3:
	mov	x12,xzr
	b	11f
4:
	mov	w12,#1
	b	11f
5:
	mov	w12,#2
	b	11f
6:
	mov	w12,#3
	b	11f
7:
	mov	w12,#4
	b	11f
8:
	mov	w12,#5
	b	11f
9:
	mov	w12,#6
	b	11f
10:
	mov	w12,#7
11:
	cbz	x12,1f
	ldrb	w13,[x11],#1
	sub	x12,x12,#1
	cmp	w13,#95
	b.eq	11b
	sub	w14,w13,#48
	cmp	w14,#10
	b.lo	11b
	and	w13,w13,#0xffffffdf
	sub	w13,w13,#65
	cmp	w13,#26
	b.lo	11b
	b	2f
1:
	ldrsb	w11,[x1,#78]
	tbnz	w11,#31,2f
	ldrb	w11,[x1,#79]
	cmp	w11,#15
	b.ls	1f
2:
	mov	w8,#9
	ldp	x20,x19,[sp,#32]
	mov	w0,w8
	ldp	x22,x21,[sp,#16]
	ldr	x30,[sp],#48
	ret
1:
	lsl	x11,x11,#2
	ldrb	w12,[x1,#82]
	add	x13,x1,#88
	str	x13,[sp,#8]
	add	x21,x11,#12
	cbz	w12,1f
	ldp	q0,q4,[x0,#32]
	ldr	q3,[x0,#64]
	ldp	q7,q1,[x0,#80]
	ldr	q2,[x0,#128]
	ldr	q17,[x0,#224]
	ldp	q6,q16,[x0,#192]
	orr	v0.16b,v3.16b,v0.16b
	ldp	q3,q5,[x0,#144]
	orr	v1.16b,v2.16b,v1.16b
	orr	v4.16b,v7.16b,v4.16b
	ldr	q2,[x0,#112]
	orr	v5.16b,v6.16b,v5.16b
	ldr	q6,[x0,#176]
	orr	v0.16b,v1.16b,v0.16b
	orr	v1.16b,v3.16b,v2.16b
	orr	v2.16b,v16.16b,v6.16b
	orr	v3.16b,v17.16b,v5.16b
	ldr	q5,[x0,#240]
	orr	v1.16b,v1.16b,v4.16b
	orr	v2.16b,v5.16b,v2.16b
	orr	v0.16b,v3.16b,v0.16b
	ldr	q3,[x0,#16]
	orr	v1.16b,v2.16b,v1.16b
	orr	v0.16b,v0.16b,v3.16b
	orr	v0.16b,v0.16b,v1.16b
	ext	v1.16b,v0.16b,v0.16b,#8
	orr	v0.8b,v0.8b,v1.8b
	fmov	x11,d0
	orr	x11,x11,x11,lsr #32
	lsr	x12,x11,#16
	orr	w11,w11,w12
	orr	w11,w11,w11,lsr #8
	tst	w11,#0xff
	b.eq	2f
	mov	w19,#15
	b	3f
2:
	ldr	q0,[x0]
	adrp	x11,.Lrtp_841016a0_CPI180_0
	ldr	q1,[x11,:lo12:.Lrtp_841016a0_CPI180_0]
	cmeq	v0.16b,v0.16b,#0
	bic	v0.16b,v1.16b,v0.16b
	ext	v1.16b,v0.16b,v0.16b,#8
	zip1	v0.16b,v0.16b,v1.16b
	addv	h0,v0.8h
	fmov	w11,s0
	orr	w11,w11,#0x1
	and	x11,x11,#0xffff
	clz	x11,x11
	eor	x19,x11,#0x3f
3:
	cbz	w8,2f
	ldrb	w8,[x1,#168]
	cmp	w8,#0
	cset	w11,eq
	b	3f
2:
	mov	w11,wzr
3:
	cbz	w9,2f
	ldrb	w8,[x1,#185]
	cmp	w8,#0
	cset	w9,eq
2:
	cbz	w10,2f
	ldrb	w8,[x1,#194]
	cmp	w8,#0
	cset	w8,eq
	b	3f
2:
	mov	w8,wzr
3:
	movi	v0.16b,#15
	ldur	q1,[x0,#1]
	cmeq	v0.16b,v1.16b,v0.16b
	umaxv	b0,v0.16b
	fmov	w10,s0
	tbz	w10,#0,2f
3:
	mov	w3,#1
	cbz	x19,4f
5:
	mov	x20,x2
	add	x2,sp,#8
	mov	x1,x19
	bl	"rtp_841016a0_rtp_ext::block_elements::values_len::<#16f98aa29e959305>"
	add	x8,x0,#3
	mov	x2,x20
	and	x8,x8,#0xfffffffffffffffc
	add	x8,x8,#4
	b	6f
2:
	cmp	x19,#15
	orr	w9,w11,w9
	b.lo	2f
	movi	v0.2d,#0xffffffffffffffff
	ldur	q1,[x0,#31]
	ldur	q2,[x0,#63]
	ldur	q3,[x0,#15]
	ldur	q4,[x0,#47]
	ldur	q5,[x0,#95]
	ldur	q6,[x0,#79]
	ldrb	w10,[x0,#255]
	add	v1.16b,v1.16b,v0.16b
	add	v2.16b,v2.16b,v0.16b
	add	v3.16b,v3.16b,v0.16b
	add	v4.16b,v4.16b,v0.16b
	add	v5.16b,v5.16b,v0.16b
	add	v6.16b,v6.16b,v0.16b
	sub	w10,w10,#1
	umin	v1.16b,v1.16b,v2.16b
	ldur	q2,[x0,#127]
	cmp	w10,#15
	umin	v3.16b,v3.16b,v4.16b
	ldur	q4,[x0,#111]
	cset	w11,lo
	add	v2.16b,v2.16b,v0.16b
	umin	v1.16b,v1.16b,v5.16b
	add	v4.16b,v4.16b,v0.16b
	ldur	q5,[x0,#159]
	umin	v3.16b,v3.16b,v6.16b
	ldur	q6,[x0,#143]
	add	v5.16b,v5.16b,v0.16b
	umin	v1.16b,v1.16b,v2.16b
	add	v6.16b,v6.16b,v0.16b
	ldur	q2,[x0,#191]
	umin	v3.16b,v3.16b,v4.16b
	ldur	q4,[x0,#175]
	add	v2.16b,v2.16b,v0.16b
	umin	v1.16b,v1.16b,v5.16b
	add	v4.16b,v4.16b,v0.16b
	ldur	q5,[x0,#223]
	umin	v3.16b,v3.16b,v6.16b
	ldur	q6,[x0,#207]
	umin	v1.16b,v1.16b,v2.16b
	umin	v2.16b,v3.16b,v4.16b
	add	v3.16b,v5.16b,v0.16b
	add	v4.16b,v6.16b,v0.16b
	umin	v1.16b,v1.16b,v3.16b
	umin	v2.16b,v2.16b,v4.16b
	movi	v3.16b,#15
	ldur	q4,[x0,#239]
	umin	v1.16b,v1.16b,v2.16b
	movi	v2.2d,#0000000000000000
	add	v0.16b,v4.16b,v0.16b
	cmhi	v1.16b,v3.16b,v1.16b
	cmhi	v0.16b,v3.16b,v0.16b
	umaxv	b1,v1.16b
	mov	v2.b[0],v1.b[0]
	orr	v0.16b,v2.16b,v0.16b
	shl	v0.16b,v0.16b,#7
	cmlt	v0.16b,v0.16b,#0
	umaxv	b0,v0.16b
	fmov	w10,s0
	orr	w10,w10,w11
	b	7f
2:
	mov	w10,wzr
7:
	orr	w8,w9,w8
	tbnz	w10,#0,2f
	eor	w9,w8,#0x1
	tbnz	w9,#0,2f
	mov	x22,x2
	add	x2,sp,#8
	mov	x1,x19
	mov	x20,x0
	bl	"rtp_841016a0_rtp_ext::block_form::has_empty_data::<#16f98aa29e959305>"
	mov	x2,x22
	mov	w8,w0
	mov	x0,x20
	tbnz	w8,#0,3b
	b	7f
2:
	orr	w8,w8,w10
	tbnz	w8,#0,3b
7:
	mov	w3,wzr
	cbnz	x19,5b
4:
	mov	w8,#4
6:
	add	x21,x8,x21
1:
	mov	w8,wzr
	str	x21,[x2]
	ldp	x20,x19,[sp,#32]
	mov	w0,w8
	ldp	x22,x21,[sp,#16]
	ldr	x30,[sp],#48
	ret
	.size	rtp_841016a0_rtpw_wire_len,.-rtp_841016a0_rtpw_wire_len
	.cfi_endproc

	.section	.rodata.cst16,"aM",@progbits,16
	.p2align	4,0x0
.Lrtp_841016a0_CPI181_0:
	.byte	1
	.byte	2
	.byte	4
	.byte	8
	.byte	16
	.byte	32
	.byte	64
	.byte	128
	.byte	1
	.byte	2
	.byte	4
	.byte	8
	.byte	16
	.byte	32
	.byte	64
	.byte	128
	.section	.text.rtpw_wire_len_layers,"ax",@progbits
	.globl	rtp_841016a0_rtpw_wire_len_layers
	.p2align	2
	.type	rtp_841016a0_rtpw_wire_len_layers,@function
rtp_841016a0_rtpw_wire_len_layers:
	.cfi_startproc
	sub	sp,sp,#144
	str	x30,[sp,#96]
	stp	x22,x21,[sp,#112]
	stp	x20,x19,[sp,#128]
	.cfi_def_cfa_offset 144
	.cfi_offset w19,-8
	.cfi_offset w20,-16
	.cfi_offset w21,-24
	.cfi_offset w22,-32
	.cfi_offset w30,-48
	movi	v0.2d,#0000000000000000
	ldrb	w8,[x1,#209]
	stp	q0,q0,[sp,#16]
	str	q0,[sp]
	cbz	w8,1f
	ldrh	w9,[x1,#154]
	mov	w8,#9
	cmp	w9,#179
	b.gt	2f
	cbz	w9,1f
	cmp	w9,#90
	b.eq	1f
	b	3f
2:
	cmp	w9,#270
	b.eq	1f
	cmp	w9,#180
	b.ne	3f
1:
	ldrb	w8,[x1,#213]
	cbz	w8,1f
	ldr	w8,[x1,#120]
	cbz	w8,2f
1:
	ldrb	w8,[x1,#214]
	cbz	w8,1f
	ldr	w8,[x1,#136]
	cbz	w8,2f
1:
	ldrb	w8,[x1,#211]
	cbz	w8,1f
	ldrb	w8,[x1,#166]
	add	w8,w8,#127
	tbnz	w8,#7,2f
1:
	ldrb	w8,[x1,#216]
	cbz	w8,1f
	movi	v0.16b,#32
	mov	x8,x1
	movi	v2.16b,#133
	ldr	q1,[x8,#168]!
	movi	v3.16b,#198
	movi	v4.16b,#230
	movi	v5.16b,#246
	adrp	x9,.Lrtp_841016a0_CPI181_0
	orr	v0.16b,v1.16b,v0.16b
	add	v0.16b,v0.16b,v2.16b
	add	v2.16b,v1.16b,v3.16b
	movi	v3.16b,#95
	cmhi	v0.16b,v4.16b,v0.16b
	cmhi	v2.16b,v5.16b,v2.16b
	cmeq	v1.16b,v1.16b,v3.16b
	and	v0.16b,v2.16b,v0.16b
	bic	v0.16b,v0.16b,v1.16b
	ldr	q1,[x9,:lo12:.Lrtp_841016a0_CPI181_0]
	and	v0.16b,v0.16b,v1.16b
	ext	v1.16b,v0.16b,v0.16b,#8
	zip1	v0.16b,v0.16b,v1.16b
	addv	h0,v0.8h
	fmov	w9,s0
	orr	w9,w9,#0x10000
	rbit	w9,w9
	clz	w9,w9
	ldrb	w8,[x8,w9,uxtw]
	cbnz	w8,2f
1:
	ldrb	w8,[x1,#217]
	cbz	w8,1f
	mov	x8,x1
	ldrb	w9,[x8,#185]!
	cbz	w9,4f
	ldrb	w9,[x1,#186]
	cbz	w9,5f
	ldrb	w9,[x1,#187]
	cbz	w9,6f
	ldrb	w9,[x1,#188]
	cbz	w9,7f
	ldrb	w9,[x1,#189]
	cbz	w9,8f
	ldrb	w9,[x1,#190]
	cbz	w9,9f
	ldrb	w9,[x1,#191]
	cbz	w9,10f
	ldrb	w9,[x1,#192]
	cbz	w9,11f
	ldrb	w9,[x1,#193]
	cbnz	w9,2f
	mov	w9,#8
	b	12f
3:
	ldp	x20,x19,[sp,#128]
	mov	w0,w8
	ldp	x22,x21,[sp,#112]
	ldr	x30,[sp,#96]
	add	sp,sp,#144
	ret
4:
	mov	x9,xzr
	b	12f
5:
	mov	w9,#1
	b	12f
6:
	mov	w9,#2
	b	12f
7:
	mov	w9,#3
	b	12f
8:
	mov	w9,#4
	b	12f
9:
	mov	w9,#5
	b	12f
10:
	mov	w9,#6
	b	12f
11:
	mov	w9,#7
12:
	cbz	x9,1f
	ldrb	w10,[x8],#1
	sub	x9,x9,#1
	cmp	w10,#95
	b.eq	12b
	sub	w11,w10,#48
	cmp	w11,#10
	b.lo	12b
	and	w10,w10,#0xffffffdf
	sub	w10,w10,#65
	cmp	w10,#26
	b.lo	12b
	b	2f
1:
	ldrb	w8,[x1,#218]
	cbz	w8,1f
	mov	x8,x1
	ldrb	w9,[x8,#194]!
	cbz	w9,3f
	ldrb	w9,[x1,#195]
	cbz	w9,4f
	ldrb	w9,[x1,#196]
	cbz	w9,5f
	ldrb	w9,[x1,#197]
	cbz	w9,6f
	ldrb	w9,[x1,#198]
	cbz	w9,7f
	ldrb	w9,[x1,#199]
	cbz	w9,8f
	ldrb	w9,[x1,#200]
	cbz	w9,9f
	ldrb	w9,[x1,#201]
	cbz	w9,10f
	ldrb	w9,[x1,#202]
	cbnz	w9,2f
	mov	w9,#8
	b	11f
3:
	mov	x9,xzr
	b	11f
4:
	mov	w9,#1
	b	11f
5:
	mov	w9,#2
	b	11f
6:
	mov	w9,#3
	b	11f
7:
	mov	w9,#4
	b	11f
8:
	mov	w9,#5
	b	11f
9:
	mov	w9,#6
	b	11f
10:
	mov	w9,#7
11:
	cbz	x9,1f
	ldrb	w10,[x8],#1
	sub	x9,x9,#1
	cmp	w10,#95
	b.eq	11b
	sub	w11,w10,#48
	cmp	w11,#10
	b.lo	11b
	and	w10,w10,#0xffffffdf
	sub	w10,w10,#65
	cmp	w10,#26
	b.lo	11b
	b	2f
1:
	ldrsb	w8,[x1,#78]
	tbnz	w8,#31,2f
	ldrb	w8,[x1,#79]
	cmp	w8,#15
	b.hi	2f
	mov	x19,x0
	add	x8,x1,#88
	mov	x22,x1
	ldrb	w20,[x1,#82]
	mov	x0,sp
	add	x1,sp,#104
	mov	x21,x3
	str	x8,[sp,#104]
	bl	"rtp_841016a0_rtp_c::given_layers::with_given_layers::<#6444109e7f8c5753>"
	ldrb	w8,[sp]
	cmp	w8,#1
	b.ne	2f
	ldrb	w8,[x22,#79]
	ldur	q0,[sp,#8]
	ldur	q1,[sp,#24]
	ldr	x9,[sp,#40]
	lsl	x8,x8,#2
	stp	q0,q1,[sp,#48]
	str	x9,[sp,#80]
	add	x22,x8,#12
	cbz	w20,1f
	ldp	q0,q4,[x19,#32]
	mov	x0,x19
	ldr	q3,[x19,#64]
	ldp	q7,q1,[x19,#80]
	ldp	q6,q16,[x19,#192]
	ldr	q2,[x19,#128]
	orr	v0.16b,v3.16b,v0.16b
	ldr	q17,[x19,#224]
	ldp	q3,q5,[x19,#144]
	orr	v1.16b,v2.16b,v1.16b
	ldr	q2,[x19,#112]
	orr	v4.16b,v7.16b,v4.16b
	orr	v5.16b,v6.16b,v5.16b
	ldr	q6,[x19,#176]
	orr	v0.16b,v1.16b,v0.16b
	orr	v1.16b,v3.16b,v2.16b
	orr	v2.16b,v16.16b,v6.16b
	orr	v3.16b,v17.16b,v5.16b
	ldr	q5,[x19,#240]
	orr	v1.16b,v1.16b,v4.16b
	orr	v2.16b,v5.16b,v2.16b
	orr	v0.16b,v3.16b,v0.16b
	ldr	q3,[x19,#16]
	orr	v1.16b,v2.16b,v1.16b
	orr	v0.16b,v0.16b,v3.16b
	orr	v0.16b,v0.16b,v1.16b
	ext	v1.16b,v0.16b,v0.16b,#8
	orr	v0.8b,v0.8b,v1.8b
	fmov	x8,d0
	orr	x8,x8,x8,lsr #32
	lsr	x9,x8,#16
	orr	w8,w8,w9
	mov	x9,x21
	orr	w8,w8,w8,lsr #8
	tst	w8,#0xff
	b.eq	3f
	mov	w1,#15
	b	4f
2:
	mov	w8,#9
	ldp	x20,x19,[sp,#128]
	mov	w0,w8
	ldp	x22,x21,[sp,#112]
	ldr	x30,[sp,#96]
	add	sp,sp,#144
	ret
1:
	mov	x9,x21
	b	1f
3:
	ldr	q0,[x0]
	adrp	x8,.Lrtp_841016a0_CPI181_0
	ldr	q1,[x8,:lo12:.Lrtp_841016a0_CPI181_0]
	cmeq	v0.16b,v0.16b,#0
	bic	v0.16b,v1.16b,v0.16b
	ext	v1.16b,v0.16b,v0.16b,#8
	zip1	v0.16b,v0.16b,v1.16b
	addv	h0,v0.8h
	fmov	w8,s0
	orr	w8,w8,#0x1
	and	x8,x8,#0xffff
	clz	x8,x8
	eor	x1,x8,#0x3f
4:
	ldr	x8,[sp,#48]
	ldr	x8,[x8]
	ldrb	w10,[x8,#128]
	cbz	w10,2f
	ldrb	w10,[x8,#80]
	cmp	w10,#0
	cset	w10,eq
2:
	ldrb	w11,[x8,#129]
	cbz	w11,2f
	ldrb	w11,[x8,#97]
	cmp	w11,#0
	cset	w11,eq
2:
	ldrb	w12,[x8,#130]
	cbz	w12,2f
	ldrb	w8,[x8,#106]
	cmp	w8,#0
	cset	w8,eq
	b	3f
2:
	mov	w8,wzr
3:
	movi	v0.16b,#15
	ldur	q1,[x0,#1]
	cmeq	v0.16b,v1.16b,v0.16b
	umaxv	b0,v0.16b
	fmov	w12,s0
	tbz	w12,#0,2f
3:
	mov	w3,#1
	cbz	x1,4f
5:
	add	x2,sp,#48
	bl	"rtp_841016a0_rtp_ext::block_elements::values_len::<#defbc6cea7b2a850>"
	add	x8,x0,#3
	mov	x9,x21
	and	x8,x8,#0xfffffffffffffffc
	add	x8,x8,#4
	b	6f
2:
	cmp	x1,#15
	orr	w10,w10,w11
	b.lo	2f
	movi	v0.2d,#0xffffffffffffffff
	ldur	q1,[x0,#31]
	ldur	q2,[x0,#63]
	ldur	q3,[x0,#15]
	ldur	q4,[x0,#47]
	ldur	q5,[x0,#95]
	ldur	q6,[x0,#79]
	ldrb	w11,[x0,#255]
	add	v1.16b,v1.16b,v0.16b
	add	v2.16b,v2.16b,v0.16b
	add	v3.16b,v3.16b,v0.16b
	add	v4.16b,v4.16b,v0.16b
	add	v5.16b,v5.16b,v0.16b
	add	v6.16b,v6.16b,v0.16b
	sub	w11,w11,#1
	umin	v1.16b,v1.16b,v2.16b
	ldur	q2,[x0,#127]
	cmp	w11,#15
	umin	v3.16b,v3.16b,v4.16b
	ldur	q4,[x0,#111]
	cset	w12,lo
	add	v2.16b,v2.16b,v0.16b
	umin	v1.16b,v1.16b,v5.16b
	add	v4.16b,v4.16b,v0.16b
	ldur	q5,[x0,#159]
	umin	v3.16b,v3.16b,v6.16b
	ldur	q6,[x0,#143]
	add	v5.16b,v5.16b,v0.16b
	umin	v1.16b,v1.16b,v2.16b
	add	v6.16b,v6.16b,v0.16b
	ldur	q2,[x0,#191]
	umin	v3.16b,v3.16b,v4.16b
	ldur	q4,[x0,#175]
	add	v2.16b,v2.16b,v0.16b
	umin	v1.16b,v1.16b,v5.16b
	add	v4.16b,v4.16b,v0.16b
	ldur	q5,[x0,#223]
	umin	v3.16b,v3.16b,v6.16b
	ldur	q6,[x0,#207]
	umin	v1.16b,v1.16b,v2.16b
	umin	v2.16b,v3.16b,v4.16b
	add	v3.16b,v5.16b,v0.16b
	add	v4.16b,v6.16b,v0.16b
	umin	v1.16b,v1.16b,v3.16b
	umin	v2.16b,v2.16b,v4.16b
	movi	v3.16b,#15
	ldur	q4,[x0,#239]
	umin	v1.16b,v1.16b,v2.16b
	movi	v2.2d,#0000000000000000
	add	v0.16b,v4.16b,v0.16b
	cmhi	v1.16b,v3.16b,v1.16b
	cmhi	v0.16b,v3.16b,v0.16b
	umaxv	b1,v1.16b
	mov	v2.b[0],v1.b[0]
	orr	v0.16b,v2.16b,v0.16b
	shl	v0.16b,v0.16b,#7
	cmlt	v0.16b,v0.16b,#0
	umaxv	b0,v0.16b
	fmov	w11,s0
	orr	w11,w11,w12
	b	7f
2:
	mov	w11,wzr
7:
	orr	w8,w10,w8
	tbnz	w11,#0,2f
	eor	w10,w8,#0x1
	tbnz	w10,#0,2f
	add	x2,sp,#48
	mov	x0,x19
	mov	x20,x1
	bl	"rtp_841016a0_rtp_ext::block_form::has_empty_data::<#defbc6cea7b2a850>"
	mov	x1,x20
	mov	x9,x21
	mov	w8,w0
	mov	x0,x19
	tbnz	w8,#0,3b
	b	7f
2:
	orr	w8,w8,w11
	tbnz	w8,#0,3b
7:
	mov	w3,wzr
	cbnz	x1,5b
4:
	mov	w8,#4
6:
	add	x22,x8,x22
1:
	mov	w8,wzr
	str	x22,[x9]
	ldp	x20,x19,[sp,#128]
	mov	w0,w8
	ldp	x22,x21,[sp,#112]
	ldr	x30,[sp,#96]
	add	sp,sp,#144
	ret
	.size	rtp_841016a0_rtpw_wire_len_layers,.-rtp_841016a0_rtpw_wire_len_layers
	.cfi_endproc

	.section	.rodata.cst16,"aM",@progbits,16
	.p2align	4,0x0
.Lrtp_841016a0_CPI182_0:
	.byte	1
	.byte	2
	.byte	4
	.byte	8
	.byte	16
	.byte	32
	.byte	64
	.byte	128
	.byte	1
	.byte	2
	.byte	4
	.byte	8
	.byte	16
	.byte	32
	.byte	64
	.byte	128
	.section	.text.rtpw_write_layers,"ax",@progbits
	.globl	rtp_841016a0_rtpw_write_layers
	.p2align	2
	.type	rtp_841016a0_rtpw_write_layers,@function
rtp_841016a0_rtpw_write_layers:
	.cfi_startproc
	sub	sp,sp,#272
	str	x29,[sp,#176]
	stp	x30,x27,[sp,#192]
	stp	x26,x25,[sp,#208]
	stp	x24,x23,[sp,#224]
	stp	x22,x21,[sp,#240]
	stp	x20,x19,[sp,#256]
	.cfi_def_cfa_offset 272
	.cfi_offset w19,-8
	.cfi_offset w20,-16
	.cfi_offset w21,-24
	.cfi_offset w22,-32
	.cfi_offset w23,-40
	.cfi_offset w24,-48
	.cfi_offset w25,-56
	.cfi_offset w26,-64
	.cfi_offset w27,-72
	.cfi_offset w30,-80
	.cfi_offset w29,-96
	movi	v0.2d,#0000000000000000
	ldrb	w8,[x1,#209]
	mov	w9,#4096
	cmp	x3,#0
	csel	x22,x9,xzr,eq
	stp	q0,q0,[sp,#32]
	str	q0,[sp,#16]
	cbz	w8,1f
	ldrh	w9,[x1,#154]
	mov	w8,#9
	cmp	w9,#179
	b.gt	2f
	cbz	w9,1f
	cmp	w9,#90
	b.eq	1f
	b	3f
2:
	cmp	w9,#270
	b.eq	1f
	cmp	w9,#180
	b.ne	3f
1:
	ldrb	w8,[x1,#213]
	cbz	w8,1f
	ldr	w8,[x1,#120]
	cbz	w8,2f
1:
	ldrb	w8,[x1,#214]
	cbz	w8,1f
	ldr	w8,[x1,#136]
	cbz	w8,2f
1:
	ldrb	w8,[x1,#211]
	cbz	w8,1f
	ldrb	w8,[x1,#166]
	add	w8,w8,#127
	tbnz	w8,#7,2f
1:
	ldrb	w8,[x1,#216]
	cbz	w8,1f
	movi	v0.16b,#32
	mov	x8,x1
	movi	v2.16b,#133
	ldr	q1,[x8,#168]!
	movi	v3.16b,#198
	movi	v4.16b,#230
	movi	v5.16b,#246
	adrp	x9,.Lrtp_841016a0_CPI182_0
	orr	v0.16b,v1.16b,v0.16b
	add	v0.16b,v0.16b,v2.16b
	add	v2.16b,v1.16b,v3.16b
	movi	v3.16b,#95
	cmhi	v0.16b,v4.16b,v0.16b
	cmhi	v2.16b,v5.16b,v2.16b
	cmeq	v1.16b,v1.16b,v3.16b
	and	v0.16b,v2.16b,v0.16b
	bic	v0.16b,v0.16b,v1.16b
	ldr	q1,[x9,:lo12:.Lrtp_841016a0_CPI182_0]
	and	v0.16b,v0.16b,v1.16b
	ext	v1.16b,v0.16b,v0.16b,#8
	zip1	v0.16b,v0.16b,v1.16b
	addv	h0,v0.8h
	fmov	w9,s0
	orr	w9,w9,#0x10000
	rbit	w9,w9
	clz	w9,w9
	ldrb	w8,[x8,w9,uxtw]
	cbnz	w8,2f
1:
	ldrb	w8,[x1,#217]
	cbz	w8,1f
	mov	x8,x1
	ldrb	w9,[x8,#185]!
	cbz	w9,4f
	ldrb	w9,[x1,#186]
	cbz	w9,5f
	ldrb	w9,[x1,#187]
	cbz	w9,6f
	ldrb	w9,[x1,#188]
	cbz	w9,7f
	ldrb	w9,[x1,#189]
	cbz	w9,8f
	ldrb	w9,[x1,#190]
	cbz	w9,9f
	ldrb	w9,[x1,#191]
	cbz	w9,10f
	ldrb	w9,[x1,#192]
	cbz	w9,11f
	ldrb	w9,[x1,#193]
	cbnz	w9,2f
	mov	w9,#8
	b	12f
4:
	mov	x9,xzr
	b	12f
5:
	mov	w9,#1
	b	12f
6:
	mov	w9,#2
	b	12f
7:
	mov	w9,#3
	b	12f
8:
	mov	w9,#4
	b	12f
9:
	mov	w9,#5
	b	12f
10:
	mov	w9,#6
	b	12f
11:
	mov	w9,#7
12:
	cbz	x9,1f
	ldrb	w10,[x8],#1
	sub	x9,x9,#1
	cmp	w10,#95
	b.eq	12b
	sub	w11,w10,#48
	cmp	w11,#10
	b.lo	12b
	and	w10,w10,#0xffffffdf
	sub	w10,w10,#65
	cmp	w10,#26
	b.lo	12b
	b	2f
1:
	ldrb	w8,[x1,#218]
	cbz	w8,1f
	mov	x8,x1
	ldrb	w9,[x8,#194]!
	cbz	w9,4f
	ldrb	w9,[x1,#195]
	cbz	w9,5f
	ldrb	w9,[x1,#196]
	cbz	w9,6f
	ldrb	w9,[x1,#197]
	cbz	w9,7f
	ldrb	w9,[x1,#198]
	cbz	w9,8f
	ldrb	w9,[x1,#199]
	cbz	w9,9f
	ldrb	w9,[x1,#200]
	cbz	w9,10f
	ldrb	w9,[x1,#201]
	cbz	w9,11f
	ldrb	w9,[x1,#202]
	cbnz	w9,2f
	mov	w9,#8
	b	12f
4:
	mov	x9,xzr
	b	12f
5:
	mov	w9,#1
	b	12f
6:
	mov	w9,#2
	b	12f
7:
	mov	w9,#3
	b	12f
8:
	mov	w9,#4
	b	12f
9:
	mov	w9,#5
	b	12f
10:
	mov	w9,#6
	b	12f
11:
	mov	w9,#7
12:
	cbz	x9,1f
	ldrb	w10,[x8],#1
	sub	x9,x9,#1
	cmp	w10,#95
	b.eq	12b
	sub	w11,w10,#48
	cmp	w11,#10
	b.lo	12b
	and	w10,w10,#0xffffffdf
	sub	w10,w10,#65
	cmp	w10,#26
	b.lo	12b
	b	2f
1:
	ldrsb	w8,[x1,#78]
	tbnz	w8,#31,2f
	ldrb	w8,[x1,#79]
	cmp	w8,#15
	b.hi	2f
	mov	x20,x0
	add	x8,x1,#88
	mov	x21,x1
	ldrb	w29,[x1,#82]
	add	x0,sp,#16
	add	x1,sp,#104
	mov	x26,x3
	mov	x19,x4
	str	x5,[sp,#184]
	str	x8,[sp,#104]
	bl	"rtp_841016a0_rtp_c::given_layers::with_given_layers::<#6444109e7f8c5753>"
	ldrb	w8,[sp,#16]
	cmp	w8,#1
	b.ne	2f
	ldrb	w27,[x21,#79]
	ldur	q0,[sp,#24]
	mov	w8,#8
	ldur	q1,[sp,#40]
	ldr	x9,[sp,#56]
	cmp	w27,#15
	stp	q0,q1,[sp,#64]
	str	x9,[sp,#96]
	b.hi	3f
	ldrsb	w16,[x21,#78]
	ldr	x12,[sp,#184]
	mov	x11,x21
	tbnz	w16,#31,3f
	lsl	x25,x27,#2
	cmp	w29,#0
	mov	w8,#16
	mov	w13,#12
	mov	x9,x19
	csel	x8,x13,x8,eq
	add	x8,x8,x25
	cmp	x19,x8
	b.hs	1f
4:
	mov	w8,#8
	b	3f
2:
	mov	w8,#9
3:
	ldp	x20,x19,[sp,#256]
	mov	w0,w8
	ldp	x22,x21,[sp,#240]
	ldr	x29,[sp,#176]
	ldp	x24,x23,[sp,#224]
	ldp	x26,x25,[sp,#208]
	ldp	x30,x27,[sp,#192]
	add	sp,sp,#272
	ret
1:
	mov	x10,x26
	add	x15,sp,#112
	add	x23,x26,x22
	cbz	w29,1f
	ldp	q0,q4,[x20,#32]
	mov	x0,x20
	ldr	q3,[x20,#64]
	ldp	q7,q1,[x20,#80]
	ldp	q6,q16,[x20,#192]
	ldr	q2,[x20,#128]
	orr	v0.16b,v3.16b,v0.16b
	ldr	q17,[x20,#224]
	ldp	q3,q5,[x20,#144]
	orr	v1.16b,v2.16b,v1.16b
	ldr	q2,[x20,#112]
	orr	v4.16b,v7.16b,v4.16b
	orr	v5.16b,v6.16b,v5.16b
	ldr	q6,[x20,#176]
	orr	v0.16b,v1.16b,v0.16b
	orr	v1.16b,v3.16b,v2.16b
	orr	v2.16b,v16.16b,v6.16b
	orr	v3.16b,v17.16b,v5.16b
	ldr	q5,[x20,#240]
	orr	v1.16b,v1.16b,v4.16b
	orr	v2.16b,v5.16b,v2.16b
	orr	v0.16b,v3.16b,v0.16b
	ldr	q3,[x20,#16]
	orr	v1.16b,v2.16b,v1.16b
	orr	v0.16b,v0.16b,v3.16b
	orr	v0.16b,v0.16b,v1.16b
	ext	v1.16b,v0.16b,v0.16b,#8
	orr	v0.8b,v0.8b,v1.8b
	fmov	x8,d0
	orr	x8,x8,x8,lsr #32
	lsr	x12,x8,#16
	orr	w8,w8,w12
	orr	w8,w8,w8,lsr #8
	tst	w8,#0xff
	b.eq	2f
	mov	w1,#15
	b	5f
1:
	ldrb	w8,[x11,#81]
	ldr	d0,[x11,#8]
	mov	w13,#160
	ldrh	w9,[x11,#76]
	mov	w14,#128
	cmp	w8,#0
	ldrb	w8,[x11,#80]
	rev32	v0.8b,v0.8b
	csel	w13,w14,w13,eq
	mov	w14,#-128
	rev	w9,w9
	cmp	w8,#0
	lsr	w8,w9,#16
	orr	w9,w13,w27
	csel	w13,wzr,w14,eq
	strb	w9,[x23]
	orr	w9,w13,w16
	strh	w8,[x23,#2]
	strb	w9,[x23,#1]
	stur	d0,[x23,#4]
	ldrb	w8,[x11,#79]
	cbz	w8,1f
	ldp	q0,q1,[x11,#16]
	cmp	w8,#8
	ldr	q2,[x11,#48]
	stp	q0,q1,[sp,#112]
	ldur	q0,[x11,#60]
	str	q2,[sp,#144]
	stur	q0,[x15,#44]
	b.hs	6f
	mov	x11,xzr
	mov	w9,#12
	b	7f
2:
	ldr	q0,[x0]
	adrp	x8,.Lrtp_841016a0_CPI182_0
	ldr	q1,[x8,:lo12:.Lrtp_841016a0_CPI182_0]
	cmeq	v0.16b,v0.16b,#0
	bic	v0.16b,v1.16b,v0.16b
	ext	v1.16b,v0.16b,v0.16b,#8
	zip1	v0.16b,v0.16b,v1.16b
	addv	h0,v0.8h
	fmov	w8,s0
	orr	w8,w8,#0x1
	and	x8,x8,#0xffff
	clz	x8,x8
	eor	x1,x8,#0x3f
5:
	ldr	x8,[sp,#64]
	ldr	x8,[x8]
	ldrb	w12,[x8,#128]
	cbz	w12,2f
	ldrb	w12,[x8,#80]
	cmp	w12,#0
	cset	w12,eq
2:
	ldrb	w13,[x8,#129]
	cbz	w13,2f
	ldrb	w13,[x8,#97]
	cmp	w13,#0
	cset	w13,eq
2:
	ldrb	w14,[x8,#130]
	cbz	w14,2f
	ldrb	w8,[x8,#106]
	cmp	w8,#0
	cset	w8,eq
	b	5f
2:
	mov	w8,wzr
5:
	movi	v0.16b,#15
	ldur	q1,[x0,#1]
	cmeq	v0.16b,v1.16b,v0.16b
	umaxv	b0,v0.16b
	fmov	w14,s0
	tbz	w14,#0,2f
5:
	sub	x8,x9,x25
	ldrh	w12,[sp,#102]
	sub	x24,x8,#12
	cmp	x24,#260
	b.hi	8f
	cbz	w12,8f
	mov	w29,#1
	b	9f
8:
	cmp	w12,#16
	mov	w8,#16
	mov	w13,#255
	csel	w8,w12,w8,hi
	cmp	x1,#15
	mov	w29,#1
	add	x8,x8,#2
	csel	x13,x1,x13,lo
	umull	x8,w8,w13
	cbz	w12,8f
	cmp	x8,#1025
	b.lo	8f
	stp	x0,xzr,[sp,#112]
	add	x0,sp,#112
	mov	w29,w16
	str	x1,[sp,#128]
	mov	x25,x1
	bl	"rtp_841016a0_rtp_ext::block_elements::most_in_two_byte_form::<#d4d397b1ff315637>"
	mov	x1,x25
	mov	w16,w29
	add	x15,sp,#112
	mov	x11,x21
	mov	x10,x26
	mov	x9,x19
	mov	x8,x0
	mov	x0,x20
	mov	w29,#1
	b	8f
2:
	cmp	x1,#15
	orr	w12,w12,w13
	b.lo	2f
	movi	v0.2d,#0xffffffffffffffff
	ldur	q1,[x0,#31]
	ldur	q2,[x0,#63]
	ldur	q3,[x0,#15]
	ldur	q4,[x0,#47]
	ldur	q5,[x0,#95]
	ldur	q6,[x0,#79]
	ldrb	w13,[x0,#255]
	add	v1.16b,v1.16b,v0.16b
	add	v2.16b,v2.16b,v0.16b
	add	v3.16b,v3.16b,v0.16b
	add	v4.16b,v4.16b,v0.16b
	add	v5.16b,v5.16b,v0.16b
	add	v6.16b,v6.16b,v0.16b
	sub	w13,w13,#1
	umin	v1.16b,v1.16b,v2.16b
	ldur	q2,[x0,#127]
	cmp	w13,#15
	umin	v3.16b,v3.16b,v4.16b
	ldur	q4,[x0,#111]
	cset	w14,lo
	add	v2.16b,v2.16b,v0.16b
	umin	v1.16b,v1.16b,v5.16b
	add	v4.16b,v4.16b,v0.16b
	ldur	q5,[x0,#159]
	umin	v3.16b,v3.16b,v6.16b
	ldur	q6,[x0,#143]
	add	v5.16b,v5.16b,v0.16b
	umin	v1.16b,v1.16b,v2.16b
	add	v6.16b,v6.16b,v0.16b
	ldur	q2,[x0,#191]
	umin	v3.16b,v3.16b,v4.16b
	ldur	q4,[x0,#175]
	add	v2.16b,v2.16b,v0.16b
	umin	v1.16b,v1.16b,v5.16b
	add	v4.16b,v4.16b,v0.16b
	ldur	q5,[x0,#223]
	umin	v3.16b,v3.16b,v6.16b
	ldur	q6,[x0,#207]
	umin	v1.16b,v1.16b,v2.16b
	umin	v2.16b,v3.16b,v4.16b
	add	v3.16b,v5.16b,v0.16b
	add	v4.16b,v6.16b,v0.16b
	umin	v1.16b,v1.16b,v3.16b
	umin	v2.16b,v2.16b,v4.16b
	movi	v3.16b,#15
	ldur	q4,[x0,#239]
	umin	v1.16b,v1.16b,v2.16b
	movi	v2.2d,#0000000000000000
	add	v0.16b,v4.16b,v0.16b
	cmhi	v1.16b,v3.16b,v1.16b
	cmhi	v0.16b,v3.16b,v0.16b
	umaxv	b1,v1.16b
	mov	v2.b[0],v1.b[0]
	orr	v0.16b,v2.16b,v0.16b
	shl	v0.16b,v0.16b,#7
	cmlt	v0.16b,v0.16b,#0
	umaxv	b0,v0.16b
	fmov	w13,s0
	orr	w13,w13,w14
	b	10f
1:
	mov	w9,#12
	b	1f
6:
	and	x11,x8,#0xf8
	mov	w9,#12
	add	x10,x22,x10
	lsr	x13,x11,#3
	add	x10,x10,#28
	and	x14,x8,#0xf8
	bfi	x9,x13,#5,#5
	add	x13,sp,#112
	add	x13,x13,#16
6:
	ldp	q0,q1,[x13,#-16]
	subs	x14,x14,#8
	add	x13,x13,#32
	rev32	v0.16b,v0.16b
	rev32	v1.16b,v1.16b
	stp	q0,q1,[x10,#-16]
	add	x10,x10,#32
	b.ne	6b
	cmp	x11,x8
	b.eq	1f
7:
	add	x10,sp,#112
	sub	x8,x8,x11
	add	x10,x10,x11,lsl #2
6:
	ldr	w11,[x10],#4
	subs	x8,x8,#1
	rev	w11,w11
	str	w11,[x23,x9]
	add	x9,x9,#4
	b.ne	6b
	b	1f
2:
	mov	w13,wzr
10:
	orr	w8,w12,w8
	tbnz	w13,#0,2f
	eor	w12,w8,#0x1
	tbnz	w12,#0,2f
	add	x2,sp,#64
	mov	x0,x20
	mov	x29,x1
	str	w16,[sp,#8]
	bl	"rtp_841016a0_rtp_ext::block_form::has_empty_data::<#defbc6cea7b2a850>"
	ldr	w16,[sp,#8]
	mov	x1,x29
	add	x15,sp,#112
	mov	x11,x21
	mov	x10,x26
	mov	x9,x19
	mov	w8,w0
	mov	x0,x20
	tbnz	w8,#0,5b
	b	6f
2:
	orr	w8,w8,w13
	tbnz	w8,#0,5b
6:
	add	x8,x1,x1,lsl #4
	sub	x12,x9,x25
	cmp	x1,#15
	mov	w13,#4335
	mov	w29,wzr
	sub	x24,x12,#12
	csel	x8,x8,x13,lo
8:
	add	x8,x8,#7
	cmp	x8,x24
	b.ls	2f
9:
	cbz	x1,5f
	add	x2,sp,#64
	mov	x0,x20
	mov	w3,w29
	mov	x25,x1
	str	x24,[sp,#8]
	mov	w24,w29
	mov	w29,w16
	bl	"rtp_841016a0_rtp_ext::block_elements::values_len::<#defbc6cea7b2a850>"
	mov	w16,w29
	mov	w29,w24
	add	x8,x0,#3
	ldr	x24,[sp,#8]
	mov	x1,x25
	and	x8,x8,#0xfffffffffffffffc
	add	x15,sp,#112
	mov	x11,x21
	mov	x10,x26
	mov	x9,x19
	mov	x0,x20
	add	x8,x8,#4
	b	6f
5:
	mov	w8,#4
6:
	cmp	x8,x24
	b.hi	4b
2:
	ldrb	w8,[x11,#81]
	ldr	d0,[x11,#8]
	mov	w13,#176
	ldrh	w12,[x11,#76]
	mov	w14,#144
	cmp	w8,#0
	ldrb	w8,[x11,#80]
	rev32	v0.8b,v0.8b
	csel	w13,w14,w13,eq
	mov	w14,#-128
	rev	w12,w12
	cmp	w8,#0
	lsr	w8,w12,#16
	orr	w12,w13,w27
	csel	w13,wzr,w14,eq
	strb	w12,[x23]
	orr	w12,w13,w16
	strh	w8,[x23,#2]
	strb	w12,[x23,#1]
	stur	d0,[x23,#4]
	ldrb	w8,[x11,#79]
	cbz	w8,2f
	ldp	q0,q1,[x11,#16]
	cmp	w8,#8
	ldr	q2,[x11,#48]
	stp	q0,q1,[sp,#112]
	ldur	q0,[x11,#60]
	str	q2,[sp,#144]
	stur	q0,[x15,#44]
	b.hs	4f
	mov	x11,xzr
	mov	w19,#12
	b	5f
2:
	mov	w19,#12
	b	2f
4:
	and	x11,x8,#0xf8
	mov	w19,#12
	add	x10,x22,x10
	lsr	x12,x11,#3
	add	x10,x10,#28
	and	x13,x8,#0xf8
	bfi	x19,x12,#5,#5
	add	x12,sp,#112
	add	x12,x12,#16
4:
	ldp	q0,q1,[x12,#-16]
	subs	x13,x13,#8
	add	x12,x12,#32
	rev32	v0.16b,v0.16b
	rev32	v1.16b,v1.16b
	stp	q0,q1,[x10,#-16]
	add	x10,x10,#32
	b.ne	4b
	cmp	x11,x8
	b.eq	2f
5:
	add	x10,sp,#112
	sub	x8,x8,x11
	add	x10,x10,x11,lsl #2
4:
	ldr	w11,[x10],#4
	subs	x8,x8,#1
	rev	w11,w11
	str	w11,[x23,x19]
	add	x19,x19,#4
	b.ne	4b
2:
	sub	x8,x9,x19
	add	x20,x23,x19
	mov	w3,w29
	sub	x5,x8,#4
	add	x8,sp,#16
	add	x4,x20,#4
	orr	x2,x8,#0x8
	bl	"rtp_841016a0_rtp_ext::block_elements::write_values::<#defbc6cea7b2a850>"
	mov	x2,x0
	mov	x0,x20
	mov	w1,w29
	bl	"rtp_841016a0_rtp_wire::header::block::close_block"
	ldr	x12,[sp,#184]
	add	x9,x0,x19
1:
	mov	w8,wzr
	str	x9,[x12]
	b	3b
	.size	rtp_841016a0_rtpw_write_layers,.-rtp_841016a0_rtpw_write_layers
	.cfi_endproc

	.section	.text.rtp_proved_write_with,"ax",@progbits
	.p2align	2
	.type	rtp_841016a0_rtp_proved_write_with,@function
rtp_841016a0_rtp_proved_write_with:
	.cfi_startproc
	sub	sp,sp,#32
	stp	x7,x30,[sp,#8]
	.cfi_def_cfa_offset 32
	.cfi_offset w30,-16
	cmp	x1,#0
	mov	w10,#4096
	mov	x9,x5
	csel	x11,x10,xzr,eq
	cmp	x3,#0
	mov	x8,x6
	csel	x12,x10,xzr,eq
	cmp	x5,#0
	mov	w5,wzr
	csel	x10,x10,xzr,eq
	mov	w6,wzr
	add	x1,x1,x11
	add	x3,x3,x12
	add	x7,x9,x10
	str	x8,[sp]
	bl	"rtp_841016a0_rtp_c::writing::write_header_with"
	ldr	x30,[sp,#16]
	add	sp,sp,#32
	ret
	.size	rtp_841016a0_rtp_proved_write_with,.-rtp_841016a0_rtp_proved_write_with
	.cfi_endproc

	.section	.text.rtp_proved_write_with_form,"ax",@progbits
	.p2align	2
	.type	rtp_841016a0_rtp_proved_write_with_form,@function
rtp_841016a0_rtp_proved_write_with_form:
	.cfi_startproc
	and	w9,w5,#0xff
	cmp	w9,#2
	b.hi	1f
	sub	sp,sp,#32
	.cfi_def_cfa_offset 32
	.cfi_offset w30,-16
	cmp	x6,#0
	mov	w11,#4096
	ubfiz	x9,x5,#3,#5
	mov	w13,#256
	csel	x12,x11,xzr,eq
	cmp	x3,#0
	movk	w13,#1,lsl #16
	mov	w14,#65536
	csel	x15,x11,xzr,eq
	cmp	x1,#0
	lsr	w5,w13,w9
	lsr	w9,w14,w9
	ldr	x10,[sp,#32]
	csel	x11,x11,xzr,eq
	mov	x8,x7
	add	x1,x1,x11
	add	x3,x3,x15
	add	x7,x6,x12
	mov	w6,w9
	stp	x10,x30,[sp,#8]
	str	x8,[sp]
	bl	"rtp_841016a0_rtp_c::writing::write_header_with"
	ldr	x30,[sp,#16]
	add	sp,sp,#32
	ret
1:
	mov	w0,#9
	ret
	.size	rtp_841016a0_rtp_proved_write_with_form,.-rtp_841016a0_rtp_proved_write_with_form
	.cfi_endproc

	.section	.text.rtpw_write_headers,"ax",@progbits
	.globl	rtp_841016a0_rtpw_write_headers
	.p2align	2
	.type	rtp_841016a0_rtpw_write_headers,@function
rtp_841016a0_rtpw_write_headers:
	.cfi_startproc
	sub	sp,sp,#176
	str	x29,[sp,#80]
	stp	x30,x27,[sp,#96]
	stp	x26,x25,[sp,#112]
	stp	x24,x23,[sp,#128]
	stp	x22,x21,[sp,#144]
	stp	x20,x19,[sp,#160]
	.cfi_def_cfa_offset 176
	.cfi_offset w19,-8
	.cfi_offset w20,-16
	.cfi_offset w21,-24
	.cfi_offset w22,-32
	.cfi_offset w23,-40
	.cfi_offset w24,-48
	.cfi_offset w25,-56
	.cfi_offset w26,-64
	.cfi_offset w27,-72
	.cfi_offset w30,-80
	.cfi_offset w29,-96
	cmp	x1,#0
	mov	w10,#4096
	ldrb	w12,[x0,#70]
	csel	x11,x10,xzr,eq
	cmp	x3,#0
	mov	x20,x0
	csel	x8,x10,xzr,eq
	cmp	x5,#0
	mov	w0,#9
	csel	x9,x10,xzr,eq
	cmp	x7,#0
	csel	x10,x10,xzr,eq
	cmp	w12,#16
	b.hi	1f
	ldr	w22,[x20]
	cmp	x2,x22
	b.lo	1f
	mov	x23,xzr
	cbz	w12,2f
	add	x13,x20,#71
	add	x14,x20,#4
3:
	ldrb	w15,[x13],#1
	ldr	w16,[x14],#4
	add	x16,x16,x15
	cmp	x16,x22
	b.hi	4f
	subs	x12,x12,#1
	add	x23,x23,x15
	b.ne	3b
2:
	ldrh	w12,[x20,#68]
	cmp	x23,x12
	csel	x15,x20,xzr,eq
	b.ne	4f
	cmp	w22,#12
	b.hs	2f
	mov	w0,#1
	b	1f
2:
	add	x24,x1,x11
	ldrsb	w11,[x24]
	cmn	w11,#65
	b.gt	2f
	and	x12,x11,#0xff
	ubfiz	x11,x12,#2,#4
	add	x11,x11,#12
	subs	x13,x22,x11
	b.hs	3f
	mov	w0,#3
	b	1f
2:
	mov	w0,#2
	b	1f
3:
	tbnz	w12,#4,2f
	cmp	x11,x22
	b.ne	4f
3:
	cbz	x6,5f
	ldr	x12,[sp,#176]
	add	x8,x3,x8
	mov	x27,xzr
	mov	x11,xzr
	stp	x15,x24,[sp,#8]
	stp	x8,x12,[sp,#48]
	add	x8,x5,x9
	str	x8,[sp,#64]
	add	x8,x7,x10
	stp	x6,x8,[sp,#32]
	str	x4,[sp,#24]
	b	6f
2:
	subs	x12,x13,#4
	b.hs	2f
	mov	w0,#4
	b	1f
7:
	mov	x19,x6
	ldr	x2,[sp,#8]
	ldr	x6,[sp,#40]
	ldr	x7,[sp,#56]
	mov	x21,x4
	mov	x5,x11
	mov	x0,x24
	mov	x1,x22
	mov	x3,x26
	mov	x4,x29
	bl	"rtp_841016a0_rtp_c::routed_headers::write_again"
	and	w8,w0,#0xff
	cmp	w8,#1
	b.ne	8f
	mov	x6,x19
	mov	x4,x21
9:
	ldr	x11,[sp,#88]
	stp	wzr,w1,[x29,#40]
	str	x11,[x29,#8]
	add	x11,x1,x11
	add	x27,x27,#1
	mov	w0,wzr
	cmp	x27,x6
	b.eq	1f
6:
	mov	w8,#48
	ldr	x9,[sp,#64]
	str	x11,[sp,#88]
	madd	x29,x27,x8,x9
	ldrb	w8,[x29,#31]
	cbz	w8,10f
	ldrsb	w8,[x29,#26]
	tbnz	w8,#31,11f
10:
	ldr	x8,[x29]
	subs	x9,x4,x8
	ccmp	x9,x23,#0,hs
	b.lo	11f
	ldr	x10,[sp,#48]
	ldrb	w9,[x29,#38]
	add	x26,x10,x8
	cbnz	w9,7b
	ldr	x8,[sp,#56]
	sub	x8,x8,x11
	cmp	x8,x22
	b.lo	7f
	sub	w8,w22,#49
	cmn	w8,#34
	ldr	x8,[sp,#40]
	add	x25,x8,x11
	b.hi	10f
	add	x0,x8,x11
	mov	x1,x24
	mov	x2,x22
	bl	"rtp_841016a0_rtp_route::copying::put_any"
	ldrb	w8,[x29,#32]
	cbnz	w8,12f
	b	13f
10:
	ldr	q0,[x24]
	cmp	w22,#33
	str	q0,[x25]
	b.lo	10f
	ldr	q0,[x24,#16]
	str	q0,[x25,#16]
10:
	sub	x8,x22,#16
	ldr	q0,[x24,x8]
	str	q0,[x25,x8]
	ldrb	w8,[x29,#32]
	cbz	w8,13f
12:
	ldrb	w8,[x29,#27]
	ldrb	w9,[x25,#1]
	cmp	w8,#0
	mov	w8,#-128
	csel	w8,wzr,w8,eq
	bfxil	w8,w9,#0,#7
	strb	w8,[x25,#1]
13:
	ldrb	w8,[x29,#31]
	cbz	w8,10f
	ldrb	w8,[x25,#1]
	ldrb	w9,[x29,#26]
	and	w8,w8,#0x80
	add	w8,w8,w9
	strb	w8,[x25,#1]
10:
	ldrb	w8,[x29,#30]
	cbz	w8,10f
	ldrh	w8,[x29,#24]
	rev	w8,w8
	lsr	w8,w8,#16
	strh	w8,[x25,#2]
10:
	ldrb	w8,[x29,#28]
	str	x27,[sp,#72]
	cbz	w8,10f
	ldr	w8,[x29,#16]
	rev	w8,w8
	str	w8,[x25,#4]
10:
	ldrb	w8,[x29,#29]
	cbz	w8,10f
	ldr	w8,[x29,#20]
	rev	w8,w8
	str	w8,[x25,#8]
10:
	ldrb	w19,[x20,#70]
	cbz	x19,10f
	add	x21,x20,#4
	add	x24,x20,#71
	b	12f
13:
	add	x0,x25,x8
	mov	x1,x26
	mov	x2,x27
	bl	"rtp_841016a0_rtp_route::slots::copy_long"
14:
	subs	x19,x19,#1
	add	x26,x26,x27
	b.eq	10f
12:
	ldrb	w27,[x24],#1
	ldr	w8,[x21],#4
	cbz	w27,13b
	cmp	w27,#1
	b.ne	12f
	ldrb	w9,[x26]
	strb	w9,[x25,x8]
	b	14b
12:
	cmp	w27,#2
	b.hi	12f
	ldrh	w9,[x26]
	strh	w9,[x25,x8]
	b	14b
12:
	cmp	w27,#3
	b.ne	12f
	ldrh	w9,[x26]
	add	x8,x25,x8
	strh	w9,[x8]
	ldrb	w9,[x26,#2]
	strb	w9,[x8,#2]
	b	14b
12:
	cmp	w27,#4
	b.hi	13b
	ldr	w9,[x26]
	str	w9,[x25,x8]
	b	14b
10:
	ldp	x4,x6,[sp,#24]
	mov	x1,x22
	ldrb	w8,[x29,#39]
	ldr	x24,[sp,#16]
	ldr	x27,[sp,#72]
	cbz	w8,9b
	ldrb	w8,[x25]
	mov	x1,x22
	and	w8,w8,#0xffffffdf
	strb	w8,[x25]
	b	9b
11:
	mov	x21,x4
	mov	x19,x6
	mov	w2,#9
	b	9f
7:
	mov	x21,x4
	mov	x19,x6
8:
	mov	w2,#8
9:
	ldr	x25,[sp,#88]
	mov	x0,x29
	mov	x1,x25
	bl	"rtp_841016a0_rtp_c::routed_headers::refuse"
	mov	x6,x19
	mov	x11,x25
	mov	x4,x21
	add	x27,x27,#1
	mov	w0,wzr
	cmp	x27,x19
	b.ne	6b
	b	1f
2:
	add	x13,x24,x11
	ldrb	w14,[x13,#2]
	ldrb	w13,[x13,#3]
	lsl	x14,x14,#10
	orr	x13,x14,x13,lsl #2
	cmp	x12,x13
	b.hs	2f
	mov	w0,#6
	b	1f
2:
	add	x11,x11,x13
	add	x11,x11,#4
	cmp	x11,x22
	b.eq	3b
4:
	mov	w0,#9
1:
	ldp	x20,x19,[sp,#160]
	ldr	x29,[sp,#80]
	ldp	x22,x21,[sp,#144]
	ldp	x24,x23,[sp,#128]
	ldp	x26,x25,[sp,#112]
	ldp	x30,x27,[sp,#96]
	add	sp,sp,#176
	ret
5:
	mov	w0,wzr
	b	1b
	.size	rtp_841016a0_rtpw_write_headers,.-rtp_841016a0_rtpw_write_headers
	.cfi_endproc

	.section	.rodata.cst16,"aM",@progbits,16
	.p2align	4,0x0
.Lrtp_841016a0_CPI186_0:
	.byte	1
	.byte	2
	.byte	4
	.byte	8
	.byte	16
	.byte	32
	.byte	64
	.byte	128
	.byte	1
	.byte	2
	.byte	4
	.byte	8
	.byte	16
	.byte	32
	.byte	64
	.byte	128
	.section	.text.rtpw_write,"ax",@progbits
	.globl	rtp_841016a0_rtpw_write
	.p2align	2
	.type	rtp_841016a0_rtpw_write,@function
rtp_841016a0_rtpw_write:
	.cfi_startproc
	ldrb	w9,[x1,#82]
	cmp	x2,#0
	mov	w8,#4096
	csel	x8,x8,xzr,eq
	cbz	w9,1f
	ldrb	w9,[x1,#209]
	cbz	w9,2f
	ldrh	w9,[x1,#154]
	cmp	w9,#179
	b.gt	3f
	cbz	w9,2f
	cmp	w9,#90
	b.eq	2f
	b	4f
1:
	mov	x0,x1
	add	x1,x2,x8
	mov	x2,x3
	mov	x3,x4
	b	"rtp_841016a0_rtp_c::writing_values::write_without_block"
3:
	cmp	w9,#270
	b.eq	2f
	cmp	w9,#180
	b.ne	4f
2:
	ldrb	w9,[x1,#213]
	cbz	w9,1f
	ldr	w9,[x1,#120]
	cbz	w9,4f
1:
	ldrb	w9,[x1,#214]
	cbz	w9,1f
	ldr	w9,[x1,#136]
	cbz	w9,4f
1:
	ldrb	w9,[x1,#211]
	cbz	w9,1f
	ldrb	w9,[x1,#166]
	add	w9,w9,#127
	tbnz	w9,#7,4f
1:
	ldrb	w9,[x1,#216]
	cbz	w9,1f
	movi	v0.16b,#32
	mov	x9,x1
	movi	v2.16b,#133
	ldr	q1,[x9,#168]!
	movi	v3.16b,#198
	movi	v4.16b,#230
	movi	v5.16b,#246
	adrp	x10,.Lrtp_841016a0_CPI186_0
	orr	v0.16b,v1.16b,v0.16b
	add	v0.16b,v0.16b,v2.16b
	add	v2.16b,v1.16b,v3.16b
	movi	v3.16b,#95
	cmhi	v0.16b,v4.16b,v0.16b
	cmhi	v2.16b,v5.16b,v2.16b
	cmeq	v1.16b,v1.16b,v3.16b
	and	v0.16b,v2.16b,v0.16b
	bic	v0.16b,v0.16b,v1.16b
	ldr	q1,[x10,:lo12:.Lrtp_841016a0_CPI186_0]
	and	v0.16b,v0.16b,v1.16b
	ext	v1.16b,v0.16b,v0.16b,#8
	zip1	v0.16b,v0.16b,v1.16b
	addv	h0,v0.8h
	fmov	w10,s0
	orr	w10,w10,#0x10000
	rbit	w10,w10
	clz	w10,w10
	ldrb	w9,[x9,w10,uxtw]
	cbnz	w9,4f
1:
	ldrb	w9,[x1,#217]
	cbz	w9,1f
	mov	x9,x1
	ldrb	w10,[x9,#185]!
	cbz	w10,2f
	ldrb	w10,[x1,#186]
	cbz	w10,3f
	ldrb	w10,[x1,#187]
	cbz	w10,5f
	ldrb	w10,[x1,#188]
	cbz	w10,6f
	ldrb	w10,[x1,#189]
	cbz	w10,7f
	ldrb	w10,[x1,#190]
	cbz	w10,8f
	ldrb	w10,[x1,#191]
	cbz	w10,9f
	ldrb	w10,[x1,#192]
	cbz	w10,10f
	ldrb	w10,[x1,#193]
	cbnz	w10,4f
	mov	w10,#8
	b	11f
2:
	mov	x10,xzr
	b	11f
3:
	mov	w10,#1
	b	11f
5:
	mov	w10,#2
	b	11f
6:
	mov	w10,#3
	b	11f
7:
	mov	w10,#4
	b	11f
8:
	mov	w10,#5
	b	11f
9:
	mov	w10,#6
	b	11f
10:
	mov	w10,#7
11:
	cbz	x10,1f
	ldrb	w11,[x9],#1
	sub	x10,x10,#1
	cmp	w11,#95
	b.eq	11b
	sub	w12,w11,#48
	cmp	w12,#10
	b.lo	11b
	and	w11,w11,#0xffffffdf
	sub	w11,w11,#65
	cmp	w11,#26
	b.lo	11b
	b	4f
1:
	ldrb	w9,[x1,#218]
	cbz	w9,1f
	mov	x9,x1
	ldrb	w10,[x9,#194]!
	cbz	w10,2f
	ldrb	w10,[x1,#195]
	cbz	w10,3f
	ldrb	w10,[x1,#196]
	cbz	w10,5f
	ldrb	w10,[x1,#197]
	cbz	w10,6f
	ldrb	w10,[x1,#198]
	cbz	w10,7f
	ldrb	w10,[x1,#199]
	cbz	w10,8f
	ldrb	w10,[x1,#200]
	cbz	w10,9f
	ldrb	w10,[x1,#201]
	cbz	w10,10f
	ldrb	w10,[x1,#202]
	cbnz	w10,4f
	mov	w10,#8
	b	11f
2:
	mov	x10,xzr
	b	11f
3:
	mov	w10,#1
	b	11f
5:
	mov	w10,#2
	b	11f
6:
	mov	w10,#3
	b	11f
7:
	mov	w10,#4
	b	11f
8:
	mov	w10,#5
	b	11f
9:
	mov	w10,#6
	b	11f
10:
	mov	w10,#7
11:
	cbz	x10,1f
	ldrb	w11,[x9],#1
	sub	x10,x10,#1
	cmp	w11,#95
	b.eq	11b
	sub	w12,w11,#48
	cmp	w12,#10
	b.lo	11b
	and	w11,w11,#0xffffffdf
	sub	w11,w11,#65
	cmp	w11,#26
	b.lo	11b
4:
	mov	w0,#9
	ret
1:
	add	x2,x2,x8
	add	x5,x1,#88
	b	"rtp_841016a0_rtp_c::writing_values::write_with_block"
	.size	rtp_841016a0_rtpw_write,.-rtp_841016a0_rtpw_write
	.cfi_endproc

	.type	.Lrtp_841016a0_static.0,@object
	.section	.rodata..Lrtp_static.0,"a",@progbits
.Lrtp_841016a0_static.0:
	.size	.Lrtp_841016a0_static.0,0

	.type	.Lrtp_841016a0_static.2,@object
	.section	.rodata..Lrtp_static.2,"a",@progbits
.Lrtp_841016a0_static.2:
	.ascii	"________________________________________________0123456789_______ABCDEFGHIJKLMNOPQRSTUVWXYZ______abcdefghijklmnopqrstuvwxyz_____________________________________________________________________________________________________________________________________"
	.size	.Lrtp_841016a0_static.2,256

	.type	.Lrtp_841016a0_static.8,@object
	.section	.rodata..Lrtp_static.8,"a",@progbits
.Lrtp_841016a0_static.8:
	.zero	255
	.size	.Lrtp_841016a0_static.8,255

	.type	.Lrtp_841016a0_static.9,@object
	.section	.rodata..Lrtp_static.9,"a",@progbits
.Lrtp_841016a0_static.9:
	.ascii	"http://www.webrtc.org/experiments/rtp-hdrext/abs-send-time"
	.size	.Lrtp_841016a0_static.9,58

	.type	.Lrtp_841016a0_static.11,@object
	.section	.rodata..Lrtp_static.11,"a",@progbits
.Lrtp_841016a0_static.11:
	.ascii	"http://www.webrtc.org/experiments/rtp-hdrext/abs-capture-time"
	.size	.Lrtp_841016a0_static.11,61

	.type	.Lrtp_841016a0_static.13,@object
	.section	.rodata..Lrtp_static.13,"a",@progbits
.Lrtp_841016a0_static.13:
	.ascii	"urn:ietf:params:rtp-hdrext:ssrc-audio-level"
	.size	.Lrtp_841016a0_static.13,43

	.type	.Lrtp_841016a0_static.15,@object
	.section	.rodata..Lrtp_static.15,"a",@progbits
.Lrtp_841016a0_static.15:
	.ascii	"urn:ietf:params:rtp-hdrext:toffset"
	.size	.Lrtp_841016a0_static.15,34

	.type	.Lrtp_841016a0_static.17,@object
	.section	.rodata..Lrtp_static.17,"a",@progbits
.Lrtp_841016a0_static.17:
	.ascii	"urn:3gpp:video-orientation"
	.size	.Lrtp_841016a0_static.17,26

	.type	.Lrtp_841016a0_static.19,@object
	.section	.rodata..Lrtp_static.19,"a",@progbits
.Lrtp_841016a0_static.19:
	.ascii	"http://www.ietf.org/id/draft-holmer-rmcat-transport-wide-cc-extensions-01"
	.size	.Lrtp_841016a0_static.19,73

	.type	.Lrtp_841016a0_static.21,@object
	.section	.rodata..Lrtp_static.21,"a",@progbits
.Lrtp_841016a0_static.21:
	.ascii	"http://www.webrtc.org/experiments/rtp-hdrext/playout-delay"
	.size	.Lrtp_841016a0_static.21,58

	.type	.Lrtp_841016a0_static.23,@object
	.section	.rodata..Lrtp_static.23,"a",@progbits
.Lrtp_841016a0_static.23:
	.ascii	"http://www.webrtc.org/experiments/rtp-hdrext/video-content-type"
	.size	.Lrtp_841016a0_static.23,63

	.type	.Lrtp_841016a0_static.25,@object
	.section	.rodata..Lrtp_static.25,"a",@progbits
.Lrtp_841016a0_static.25:
	.ascii	"http://www.webrtc.org/experiments/rtp-hdrext/video-timing"
	.size	.Lrtp_841016a0_static.25,57

	.type	.Lrtp_841016a0_static.27,@object
	.section	.rodata..Lrtp_static.27,"a",@progbits
.Lrtp_841016a0_static.27:
	.ascii	"urn:ietf:params:rtp-hdrext:sdes:rtp-stream-id"
	.size	.Lrtp_841016a0_static.27,45

	.type	.Lrtp_841016a0_static.29,@object
	.section	.rodata..Lrtp_static.29,"a",@progbits
.Lrtp_841016a0_static.29:
	.ascii	"urn:ietf:params:rtp-hdrext:sdes:repaired-rtp-stream-id"
	.size	.Lrtp_841016a0_static.29,54

	.type	.Lrtp_841016a0_static.31,@object
	.section	.rodata..Lrtp_static.31,"a",@progbits
.Lrtp_841016a0_static.31:
	.ascii	"urn:ietf:params:rtp-hdrext:sdes:mid"
	.size	.Lrtp_841016a0_static.31,35

	.type	.Lrtp_841016a0_static.33,@object
	.section	.rodata..Lrtp_static.33,"a",@progbits
.Lrtp_841016a0_static.33:
	.ascii	"http://tools.ietf.org/html/draft-ietf-avtext-framemarking-07"
	.size	.Lrtp_841016a0_static.33,60

	.type	.Lrtp_841016a0_static.35,@object
	.section	.rodata..Lrtp_static.35,"a",@progbits
.Lrtp_841016a0_static.35:
	.ascii	"http://www.webrtc.org/experiments/rtp-hdrext/color-space"
	.size	.Lrtp_841016a0_static.35,56

	.type	.Lrtp_841016a0_static.37,@object
	.section	.rodata..Lrtp_static.37,"a",@progbits
.Lrtp_841016a0_static.37:
	.ascii	"http://www.webrtc.org/experiments/rtp-hdrext/video-layers-allocation00"
	.size	.Lrtp_841016a0_static.37,70

	.type	.Lrtp_841016a0_static.38,@object
	.section	.rodata..Lrtp_static.38,"a",@progbits
.Lrtp_841016a0_static.38:
	.ascii	"urn:ietf:params:rtp-hdrext:csrc-audio-level"
	.size	.Lrtp_841016a0_static.38,43

	.type	.Lrtp_841016a0_static.39,@object
	.section	.rodata..Lrtp_static.39,"a",@progbits
.Lrtp_841016a0_static.39:
	.ascii	"http://www.webrtc.org/experiments/rtp-hdrext/transport-wide-cc-02"
	.size	.Lrtp_841016a0_static.39,65

	.type	.Lrtp_841016a0_static.40,@object
	.section	.rodata..Lrtp_static.40,"a",@progbits
.Lrtp_841016a0_static.40:
	.ascii	"https://aomediacodec.github.io/av1-rtp-spec/#dependency-descriptor-rtp-header-extension"
	.size	.Lrtp_841016a0_static.40,87

	.type	.Lrtp_841016a0_static.41,@object
	.section	.rodata..Lrtp_static.41,"a",@progbits
.Lrtp_841016a0_static.41:
	.ascii	"urn:ietf:params:rtp-hdrext:ntp-64"
	.size	.Lrtp_841016a0_static.41,33

	.type	.Lrtp_841016a0_static.42,@object
	.section	.rodata..Lrtp_static.42,"a",@progbits
.Lrtp_841016a0_static.42:
	.ascii	"urn:ietf:params:rtp-hdrext:ntp-56"
	.size	.Lrtp_841016a0_static.42,33

	.type	"rtp_841016a0_.Lrtp_841016a0_switch.table.rtp_c::whole_packet::status_of_no_packet",@object
	.section	".rodata..Lrtp_switch.table.rtp_c::whole_packet::status_of_no_packet","a",@progbits
	.p2align	2,0x0
"rtp_841016a0_.Lrtp_841016a0_switch.table.rtp_c::whole_packet::status_of_no_packet":
	.word	1
	.word	2
	.word	3
	.word	4
	.word	6
	.size	"rtp_841016a0_.Lrtp_841016a0_switch.table.rtp_c::whole_packet::status_of_no_packet", 20

	.type	"rtp_841016a0_.Lrtp_841016a0_switch.table.rtp_ext::block_elements::most_in_two_byte_form::<#d4d397b1ff315637>",@object
	.section	".rodata..Lrtp_switch.table.rtp_ext::block_elements::most_in_two_byte_form::<#d4d397b1ff315637>","a",@progbits
	.p2align	3,0x0
"rtp_841016a0_.Lrtp_841016a0_switch.table.rtp_ext::block_elements::most_in_two_byte_form::<#d4d397b1ff315637>":
	.xword	18
	.xword	18
	.xword	18
	.xword	18
	.xword	18
	.xword	18
	.xword	18
	.xword	18
	.xword	18
	.xword	18
	.xword	18
	.xword	18
	.xword	18
	.xword	18
	.xword	257
	.size	"rtp_841016a0_.Lrtp_841016a0_switch.table.rtp_ext::block_elements::most_in_two_byte_form::<#d4d397b1ff315637>", 120

	.type	.Lrtp_841016a0_switch.table.rtp_841016a0_rtpw_uri_of_kind,@object
	.section	.data.rel.ro..Lrtp_switch.table.rtpw_uri_of_kind,"aw",@progbits
	.p2align	3,0x0
.Lrtp_841016a0_switch.table.rtp_841016a0_rtpw_uri_of_kind:
	.xword	.Lrtp_841016a0_static.9
	.xword	.Lrtp_841016a0_static.11
	.xword	.Lrtp_841016a0_static.13
	.xword	.Lrtp_841016a0_static.15
	.xword	.Lrtp_841016a0_static.17
	.xword	.Lrtp_841016a0_static.19
	.xword	.Lrtp_841016a0_static.21
	.xword	.Lrtp_841016a0_static.23
	.xword	.Lrtp_841016a0_static.25
	.xword	.Lrtp_841016a0_static.27
	.xword	.Lrtp_841016a0_static.29
	.xword	.Lrtp_841016a0_static.31
	.xword	.Lrtp_841016a0_static.33
	.xword	.Lrtp_841016a0_static.35
	.xword	.Lrtp_841016a0_static.37
	.size	.Lrtp_841016a0_switch.table.rtp_841016a0_rtpw_uri_of_kind,120

	.type	.Lrtp_841016a0_switch.table.rtp_841016a0_rtpw_uri_of_kind.247,@object
	.section	.rodata..Lrtp_switch.table.rtpw_uri_of_kind.247,"a",@progbits
	.p2align	3,0x0
.Lrtp_841016a0_switch.table.rtp_841016a0_rtpw_uri_of_kind.247:
	.xword	58
	.xword	61
	.xword	43
	.xword	34
	.xword	26
	.xword	73
	.xword	58
	.xword	63
	.xword	57
	.xword	45
	.xword	54
	.xword	35
	.xword	60
	.xword	56
	.xword	70
	.size	.Lrtp_841016a0_switch.table.rtp_841016a0_rtpw_uri_of_kind.247,120

	.type	.Lrtp_841016a0_switch.table.rtp_841016a0_rtpw_uri_of_kind.248,@object
	.section	.rodata..Lrtp_switch.table.rtpw_uri_of_kind.248,"a",@progbits
	.p2align	3,0x0
.Lrtp_841016a0_switch.table.rtp_841016a0_rtpw_uri_of_kind.248:
	.xword	43
	.xword	65
	.xword	87
	.xword	33
	.xword	33
	.size	.Lrtp_841016a0_switch.table.rtp_841016a0_rtpw_uri_of_kind.248,40

	.type	.Lrtp_841016a0_switch.table.rtp_841016a0_rtpw_uri_of_kind.249,@object
	.section	.data.rel.ro..Lrtp_switch.table.rtpw_uri_of_kind.249,"aw",@progbits
	.p2align	3,0x0
.Lrtp_841016a0_switch.table.rtp_841016a0_rtpw_uri_of_kind.249:
	.xword	.Lrtp_841016a0_static.38
	.xword	.Lrtp_841016a0_static.39
	.xword	.Lrtp_841016a0_static.40
	.xword	.Lrtp_841016a0_static.41
	.xword	.Lrtp_841016a0_static.42
	.size	.Lrtp_841016a0_switch.table.rtp_841016a0_rtpw_uri_of_kind.249,40

	.section	".note.GNU-stack","",@progbits
/* What follows is of generated/apart.c, in front of the functions rtp_proved_*, and is not proved. */
	.section	.text.rtpw_set_element,"ax",@progbits
	.globl	rtp_841016a0_rtpw_set_element
	.p2align	2
	.type	rtp_841016a0_rtpw_set_element,@function
rtp_841016a0_rtpw_set_element:
	.cfi_startproc
	add	x8,x4,x3
	cmp	x8,x0
	b.hi	1f
2:
	b	rtp_841016a0_rtp_proved_set_element
1:
	add	x8,x1,x0
	cmp	x8,x3
	b.ls	2b
	cbz	x1,2b
	cbz	x4,2b
	mov	w0,#9
	ret
	.size	rtp_841016a0_rtpw_set_element,.-rtp_841016a0_rtpw_set_element
	.cfi_endproc

	.section	.text.rtpw_put_element,"ax",@progbits
	.globl	rtp_841016a0_rtpw_put_element
	.p2align	2
	.type	rtp_841016a0_rtpw_put_element,@function
rtp_841016a0_rtpw_put_element:
	.cfi_startproc
	add	x8,x5,x4
	cmp	x8,x0
	b.hi	1f
2:
	b	rtp_841016a0_rtp_proved_put_element
1:
	add	x8,x1,x0
	cmp	x8,x4
	b.ls	2b
	cbz	x1,2b
	cbz	x5,2b
	mov	w0,#9
	ret
	.size	rtp_841016a0_rtpw_put_element,.-rtp_841016a0_rtpw_put_element
	.cfi_endproc

	.section	.text.rtpw_add_element,"ax",@progbits
	.globl	rtp_841016a0_rtpw_add_element
	.p2align	2
	.type	rtp_841016a0_rtpw_add_element,@function
rtp_841016a0_rtpw_add_element:
	.cfi_startproc
	add	x8,x5,x4
	cmp	x8,x0
	b.hi	1f
2:
	b	rtp_841016a0_rtp_proved_add_element
1:
	add	x8,x1,x0
	cmp	x8,x4
	b.ls	2b
	cbz	x1,2b
	cbz	x5,2b
	mov	w0,#9
	ret
	.size	rtp_841016a0_rtpw_add_element,.-rtp_841016a0_rtpw_add_element
	.cfi_endproc

	.section	.text.rtpw_put_block,"ax",@progbits
	.globl	rtp_841016a0_rtpw_put_block
	.p2align	2
	.type	rtp_841016a0_rtpw_put_block,@function
rtp_841016a0_rtpw_put_block:
	.cfi_startproc
	add	x8,x5,x4
	cmp	x8,x0
	b.hi	1f
2:
	b	rtp_841016a0_rtp_proved_put_block
1:
	add	x8,x1,x0
	cmp	x8,x4
	b.ls	2b
	cbz	x1,2b
	cbz	x5,2b
	mov	w0,#9
	ret
	.size	rtp_841016a0_rtpw_put_block,.-rtp_841016a0_rtpw_put_block
	.cfi_endproc

	.section	.text.rtpw_write_with,"ax",@progbits
	.globl	rtp_841016a0_rtpw_write_with
	.p2align	2
	.type	rtp_841016a0_rtpw_write_with,@function
rtp_841016a0_rtpw_write_with:
	.cfi_startproc
	add	x8,x2,x1
	cmp	x8,x5
	b.hi	1f
2:
	b	rtp_841016a0_rtp_proved_write_with
1:
	add	x8,x6,x5
	cmp	x8,x1
	b.ls	2b
	cbz	x2,2b
	cbz	x6,2b
	mov	w0,#9
	ret
	.size	rtp_841016a0_rtpw_write_with,.-rtp_841016a0_rtpw_write_with
	.cfi_endproc

	.section	.text.rtpw_write_with_form,"ax",@progbits
	.globl	rtp_841016a0_rtpw_write_with_form
	.p2align	2
	.type	rtp_841016a0_rtpw_write_with_form,@function
rtp_841016a0_rtpw_write_with_form:
	.cfi_startproc
	add	x9,x2,x1
	ldr	x8,[sp]
	cmp	x9,x6
	b.hi	1f
2:
	str	x8,[sp]
	b	rtp_841016a0_rtp_proved_write_with_form
1:
	add	x9,x7,x6
	cmp	x9,x1
	b.ls	2b
	cbz	x2,2b
	cbz	x7,2b
	mov	w0,#9
	ret
	.size	rtp_841016a0_rtpw_write_with_form,.-rtp_841016a0_rtpw_write_with_form
	.cfi_endproc

	.section	.text.rtpw_write_elements,"ax",@progbits
	.globl	rtp_841016a0_rtpw_write_elements
	.p2align	2
	.type	rtp_841016a0_rtpw_write_elements,@function
rtp_841016a0_rtpw_write_elements:
	.cfi_startproc
	add	x8,x1,x0
	cmp	x8,x5
	b.hi	1f
2:
	b	rtp_841016a0_rtp_proved_write_elements
1:
	add	x8,x6,x5
	cmp	x8,x0
	b.ls	2b
	cbz	x1,2b
	cbz	x6,2b
	mov	w0,#9
	ret
	.size	rtp_841016a0_rtpw_write_elements,.-rtp_841016a0_rtpw_write_elements
	.cfi_endproc

	.section	".note.GNU-stack","",@progbits
