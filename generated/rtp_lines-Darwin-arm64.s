/*
 * rtp_lines for Darwin on arm64: the assembly text that Rattle's compiler makes of the program, each function of which is proved.
 * Made anew by: generated/make
 * kit: rattle-kit-13b logic dac8208d650f15bf
 * proved for: x86_64-unknown-linux-gnu
 * compiled for: arm64-apple-macosx11.0.0
 * sources: 8e7625231d209049cd5fcb5776cef307d6e5a83e7af618e772be10bc49c5adbc
 * text: 6acf1bc33128cd6ca20b142bfe1d048c71765702f3bcf45c46d275a70c4a1636
 * SPDX-License-Identifier: MIT OR Apache-2.0
 * Copyright (c) 2026 The rtp-wire developers (NOTICE)
 */
	.ifdef	.gasversion.
	.error	"this text is for Darwin on arm64: the folder generated has those for other systems"
	.end
	.endif
	.ifdef	.text
	.error	"this text is for Darwin on arm64: the folder generated has those for other systems"
	.end
	.endif
	.set	Lrtp_comment, 1 ; .set Lrtp_comment, 0
	.if	Lrtp_comment == 0
	.error	"this text is for Darwin on arm64: the folder generated has those for other systems"
	.end
	.endif
	.build_version macos, 11, 0 // this text is for Darwin on arm64
	.section	__TEXT,__text,regular,pure_instructions
	.p2align	2
_rtp_std_alloc.vec.Vec.grow_amortized.9d744d77114e6601:
	.cfi_startproc
	ldr	x8,[x0,#8]
	cmn	x8,x1
	b.lo	1f
	mov	w0,wzr
	ret
1:
	stp	x20,x19,[sp,#-32]!
	stp	x29,x30,[sp,#16]
	.cfi_def_cfa_offset 32
	.cfi_offset w30,-8
	.cfi_offset w29,-16
	.cfi_offset w19,-24
	.cfi_offset w20,-32
	ldr	x10,[x0,#16]
	add	x9,x8,x1
	mov	w11,#8
	cmp	x9,#8
	lsl	x12,x10,#1
	csel	x11,x9,x11,hi
	lsr	x13,x10,#62
	cmp	x11,x12
	csel	x9,x11,x12,hi
	cmp	x13,#0
	csel	x19,x9,x11,eq
	tbnz	x19,#63,1f
	cbz	x10,2f
	mov	x20,x0
	ldr	x0,[x0]
	mov	x1,x8
	mov	x2,x19
	mov	w3,#1
	bl	_rattle_realloc
	tbz	w0,#0,1f
3:
	mov	w0,#1
	str	x1,[x20]
	str	x19,[x20,#16]
	ldp	x29,x30,[sp,#16]
	ldp	x20,x19,[sp],#32
	ret
2:
	mov	x20,x0
	mov	x0,x9
	mov	w1,#1
	bl	_rattle_alloc
	tbnz	w0,#0,3b
1:
	mov	w0,wzr
	ldp	x29,x30,[sp,#16]
	ldp	x20,x19,[sp],#32
	ret
	.cfi_endproc

	.p2align	2
_rtp_std_io.io.error.last_error:
	.cfi_startproc
	stp	x20,x19,[sp,#-32]!
	stp	x29,x30,[sp,#16]
	.cfi_def_cfa_offset 32
	.cfi_offset w30,-8
	.cfi_offset w29,-16
	.cfi_offset w19,-24
	.cfi_offset w20,-32
	mov	x19,x0
	bl	_rattle_errno
	tbnz	w0,#31,1f
	sub	w8,w0,#1
	cmp	w8,#121
	b.hi	1f
Lrtp_loh0:
	adrp	x9,2f@PAGE
Lrtp_loh1:
	add	x9,x9,2f@PAGEOFF
	adr	x10,3f
	ldrb	w11,[x9,x8]
	add	x10,x10,x11,lsl #2
	mov	w8,#1
	br	x10
3:
	mov	w8,#36
	b	4f
1:
	mov	w8,#41
4:
	movi.2d	v0,#0000000000000000
	ldp	x29,x30,[sp,#16]
	strb	wzr,[x19]
	strb	w8,[x19,#1]
	strh	wzr,[x19,#2]
	str	w0,[x19,#4]
	stur	q0,[x19,#8]
	stur	q0,[x19,#24]
	stur	q0,[x19,#40]
	stur	q0,[x19,#56]
	stur	q0,[x19,#72]
	ldp	x20,x19,[sp],#32
	ret
5:
	mov	w8,#4
	b	4b
6:
	mov	w8,#7
	b	4b
7:
	mov	w8,#26
	b	4b
8:
	mov	w8,#39
	b	4b
9:
	mov	w8,#9
	b	4b
10:
	mov	w8,#8
	b	4b
11:
	mov	w8,#30
	b	4b
12:
	mov	w8,#25
	b	4b
13:
	mov	w8,#32
	b	4b
14:
	mov	w8,#33
	b	4b
15:
	mov	w8,#22
	b	4b
16:
	mov	w8,#31
	b	4b
17:
	mov	w8,#29
	b	4b
18:
	mov	w8,#18
	b	4b
19:
	mov	w8,#10
	b	4b
20:
	mov	w8,#28
	b	4b
21:
	mov	w8,#14
	b	4b
22:
	mov	w8,#12
	b	4b
23:
	mov	w8,#5
	b	4b
24:
	mov	w8,#3
	b	4b
25:
	mov	w8,wzr
	b	4b
26:
	mov	w8,#13
	b	4b
27:
	mov	w8,#38
	b	4b
28:
	mov	w8,#11
	b	4b
29:
	mov	w8,#35
	b	4b
30:
	mov	w8,#34
	b	4b
31:
	mov	w8,#20
	b	4b
32:
	mov	w8,#15
	b	4b
33:
	mov	w8,#19
	b	4b
34:
	mov	w8,#16
	b	4b
35:
	mov	w8,#6
	b	4b
36:
	mov	w8,#27
	b	4b
37:
	mov	w8,#24
	b	4b
38:
	mov	w8,#2
	b	4b
39:
	mov	w8,#17
	b	4b
	.loh AdrpAdd	Lrtp_loh0,Lrtp_loh1
	.cfi_endproc
	.section	__TEXT,__const
2:
	.byte	(4b-3b)>>2
	.byte	(25b-3b)>>2
	.byte	(1b-3b)>>2
	.byte	(29b-3b)>>2
	.byte	(1b-3b)>>2
	.byte	(1b-3b)>>2
	.byte	(30b-3b)>>2
	.byte	(1b-3b)>>2
	.byte	(1b-3b)>>2
	.byte	(1b-3b)>>2
	.byte	(26b-3b)>>2
	.byte	(27b-3b)>>2
	.byte	(4b-3b)>>2
	.byte	(1b-3b)>>2
	.byte	(1b-3b)>>2
	.byte	(20b-3b)>>2
	.byte	(22b-3b)>>2
	.byte	(16b-3b)>>2
	.byte	(1b-3b)>>2
	.byte	(21b-3b)>>2
	.byte	(32b-3b)>>2
	.byte	(31b-3b)>>2
	.byte	(1b-3b)>>2
	.byte	(1b-3b)>>2
	.byte	(1b-3b)>>2
	.byte	(17b-3b)>>2
	.byte	(36b-3b)>>2
	.byte	(37b-3b)>>2
	.byte	(12b-3b)>>2
	.byte	(39b-3b)>>2
	.byte	(13b-3b)>>2
	.byte	(28b-3b)>>2
	.byte	(1b-3b)>>2
	.byte	(1b-3b)>>2
	.byte	(11b-3b)>>2
	.byte	(14b-3b)>>2
	.byte	(1b-3b)>>2
	.byte	(3b-3b)>>2
	.byte	(34b-3b)>>2
	.byte	(18b-3b)>>2
	.byte	(1b-3b)>>2
	.byte	(1b-3b)>>2
	.byte	(1b-3b)>>2
	.byte	(1b-3b)>>2
	.byte	(1b-3b)>>2
	.byte	(1b-3b)>>2
	.byte	(1b-3b)>>2
	.byte	(1b-3b)>>2
	.byte	(1b-3b)>>2
	.byte	(1b-3b)>>2
	.byte	(1b-3b)>>2
	.byte	(1b-3b)>>2
	.byte	(1b-3b)>>2
	.byte	(1b-3b)>>2
	.byte	(1b-3b)>>2
	.byte	(1b-3b)>>2
	.byte	(1b-3b)>>2
	.byte	(1b-3b)>>2
	.byte	(1b-3b)>>2
	.byte	(1b-3b)>>2
	.byte	(1b-3b)>>2
	.byte	(1b-3b)>>2
	.byte	(1b-3b)>>2
	.byte	(1b-3b)>>2
	.byte	(1b-3b)>>2
	.byte	(1b-3b)>>2
	.byte	(1b-3b)>>2
	.byte	(1b-3b)>>2
	.byte	(1b-3b)>>2
	.byte	(1b-3b)>>2
	.byte	(1b-3b)>>2
	.byte	(1b-3b)>>2
	.byte	(1b-3b)>>2
	.byte	(1b-3b)>>2
	.byte	(1b-3b)>>2
	.byte	(1b-3b)>>2
	.byte	(1b-3b)>>2
	.byte	(1b-3b)>>2
	.byte	(1b-3b)>>2
	.byte	(1b-3b)>>2
	.byte	(1b-3b)>>2
	.byte	(1b-3b)>>2
	.byte	(1b-3b)>>2
	.byte	(1b-3b)>>2
	.byte	(1b-3b)>>2
	.byte	(1b-3b)>>2
	.byte	(1b-3b)>>2
	.byte	(1b-3b)>>2
	.byte	(1b-3b)>>2
	.byte	(1b-3b)>>2
	.byte	(1b-3b)>>2
	.byte	(1b-3b)>>2
	.byte	(1b-3b)>>2
	.byte	(1b-3b)>>2
	.byte	(3b-3b)>>2
	.byte	(1b-3b)>>2
	.byte	(1b-3b)>>2
	.byte	(10b-3b)>>2
	.byte	(9b-3b)>>2
	.byte	(19b-3b)>>2
	.byte	(23b-3b)>>2
	.byte	(1b-3b)>>2
	.byte	(35b-3b)>>2
	.byte	(24b-3b)>>2
	.byte	(1b-3b)>>2
	.byte	(1b-3b)>>2
	.byte	(6b-3b)>>2
	.byte	(1b-3b)>>2
	.byte	(1b-3b)>>2
	.byte	(15b-3b)>>2
	.byte	(38b-3b)>>2
	.byte	(1b-3b)>>2
	.byte	(5b-3b)>>2
	.byte	(1b-3b)>>2
	.byte	(8b-3b)>>2
	.byte	(33b-3b)>>2
	.byte	(1b-3b)>>2
	.byte	(1b-3b)>>2
	.byte	(1b-3b)>>2
	.byte	(1b-3b)>>2
	.byte	(1b-3b)>>2
	.byte	(7b-3b)>>2

	.section	__TEXT,__text,regular,pure_instructions
	.p2align	2
_rtp_core.str.utf8.from_utf8:
	.cfi_startproc
	sub	sp,sp,#64
	stp	x22,x21,[sp,#16]
	stp	x20,x19,[sp,#32]
	stp	x29,x30,[sp,#48]
	.cfi_def_cfa_offset 64
	.cfi_offset w30,-8
	.cfi_offset w29,-16
	.cfi_offset w19,-24
	.cfi_offset w20,-32
	.cfi_offset w21,-40
	.cfi_offset w22,-48
	mov	x20,x2
	mov	x21,x1
	mov	x19,x0
	cbz	x2,1f
	mov	x9,xzr
	sub	x22,x20,#8
	b	2f
3:
	and	w11,w11,#0xff
	tbnz	w11,#7,4f
5:
	mov	w12,#1
6:
	add	x8,x12,x9
7:
	cmp	x8,x20
	mov	x9,x8
	b.hs	1f
2:
	add	x8,x21,x9
	sub	x10,x20,x9
	ldrsb	w11,[x8]
	cmp	x10,#2
	b.lo	3b
	tbnz	w11,#31,3b
	ldrsb	w11,[x8,#1]
	tbnz	w11,#31,5b
	cmp	x10,#7
	stp	x21,x20,[sp]
	b.hi	2f
	ldrsb	w8,[x21,x9]
	tbnz	w8,#31,3f
	add	x8,x9,#1
	cmp	x8,x20
	b.eq	1f
	ldrsb	w10,[x21,x8]
	tbnz	w10,#31,7b
	add	x8,x9,#2
	cmp	x8,x20
	b.eq	1f
	ldrsb	w10,[x21,x8]
	tbnz	w10,#31,7b
	add	x8,x9,#3
	cmp	x8,x20
	b.eq	1f
	ldrsb	w10,[x21,x8]
	tbnz	w10,#31,7b
	add	x8,x9,#4
	cmp	x8,x20
	b.eq	1f
	ldrsb	w10,[x21,x8]
	tbnz	w10,#31,7b
	add	x8,x9,#5
	cmp	x8,x20
	b.eq	1f
	ldrsb	w10,[x21,x8]
	tbnz	w10,#31,7b
	add	x8,x9,#6
	cmp	x8,x20
	b.eq	1f
	ldrsb	w9,[x21,x8]
	tbnz	w9,#31,7b
	b	1f
4:
	cmp	w11,#194
	b.lo	4f
	cmp	w11,#223
	b.hi	5f
	cmp	x10,#2
	b.lo	8f
	ldrsb	w12,[x8,#1]
	cmn	w12,#65
	b.gt	9f
	mov	w12,#2
	b	6b
2:
	ldr	x8,[x8]
	mov	w10,#8
	ands	x8,x8,#0x8080808080808080
	rbit	x8,x8
	clz	x8,x8
	lsr	x8,x8,#3
	csel	x8,x10,x8,eq
	add	x8,x8,x9
	add	x9,x9,#8
	cmp	x8,x9
	b.lo	7b
	sub	x9,x20,x8
	cmp	x9,#32
	b.lo	2f
10:
	add	x9,x21,x8
	ldp	q1,q0,[x9]
	orr.16b	v0,v1,v0
	ext.16b	v1,v0,v0,#8
	orr.8b	v0,v0,v1
	fmov	x9,d0
	tst	x9,#0x8080808080808080
	b.ne	2f
	mov	x0,sp
	add	x1,x8,#32
	mov	x2,x20
	bl	_rtp_core.slice.words.skip_far.52f9edcae2f82f51
	sub	x9,x20,x0
	mov	x8,x0
	cmp	x9,#31
	b.hi	10b
2:
	sub	x9,x20,x8
2:
	cmp	x9,#9
	b.lo	10f
	ldr	x10,[x21,x8]
	mov	w11,#8
	sub	x9,x9,#8
	ands	x10,x10,#0x8080808080808080
	rbit	x10,x10
	clz	x10,x10
	lsr	x10,x10,#3
	csel	x10,x11,x10,eq
	add	x11,x10,x8
	add	x8,x8,#8
	cmp	x11,x8
	b.hs	2b
	add	x8,x10,x8
	sub	x8,x8,#8
	b	7b
5:
	cmp	w11,#239
	b.hi	2f
	cmp	x10,#3
	b.lo	5f
	ldrsb	w12,[x8,#1]
	cmn	w12,#65
	b.gt	9f
	ldrsb	w13,[x8,#2]
	cmn	w13,#65
	b.gt	9f
	and	w13,w12,#0xff
	mov	w14,#-14464
	add	w13,w13,w11,lsl #6
	add	w13,w13,w14
	cmp	w13,#32
	b.lo	9f
	cmp	w13,#896
	mov	w12,#3
	csel	x14,xzr,x12,lo
	cmp	w13,#864
	b.lo	6b
	mov	x12,x14
	b	11f
3:
	mov	x8,x9
	b	7b
2:
	cmp	x10,#4
	b.lo	2f
	ldrsb	w12,[x8,#1]
	cmn	w12,#65
	b.gt	2f
	ldrsb	w13,[x8,#2]
	cmn	w13,#65
	b.gt	2f
	ldrsb	w13,[x8,#3]
	cmn	w13,#65
	b.gt	2f
	and	w12,w12,#0xff
	mov	w13,#-15488
	add	w12,w12,w11,lsl #6
	add	w13,w12,w13
	mov	w12,#4
	cmp	w13,#272
	csel	x12,x12,xzr,lo
	cmp	w13,#16
	b.lo	2f
11:
	cbnz	x12,6b
	b	2f
10:
	ldr	x8,[x21,x22]
	mov	w9,#8
	ands	x8,x8,#0x8080808080808080
	rbit	x8,x8
	clz	x8,x8
	lsr	x8,x8,#3
	csel	x8,x9,x8,eq
	add	x8,x8,x22
	b	7b
1:
	stp	xzr,x21,[x19]
	str	x20,[x19,#16]
	ldp	x29,x30,[sp,#48]
	ldp	x20,x19,[sp,#32]
	ldp	x22,x21,[sp,#16]
	add	sp,sp,#64
	ret
2:
	cmp	w11,#244
	b.hi	4f
5:
	cmp	x10,#2
	b.lo	8f
	ldrb	w12,[x8,#1]
9:
	cmp	w11,#240
	mov	w13,#-128
	mov	w14,#-112
	mov	w15,#-96
	csel	w13,w14,w13,eq
	cmp	w11,#224
	mov	w14,#-65
	csel	w13,w15,w13,eq
	mov	w15,#-113
	cmp	w11,#244
	and	w16,w13,#0xf0
	csel	w13,w15,w14,eq
	cmp	w11,#237
	mov	w11,#-97
	csel	w13,w11,w13,eq
	cmp	w16,w12,uxtb
	mov	w11,#257
	b.hi	1f
	and	w12,w12,#0xff
	cmp	w12,w13,uxtb
	b.hi	1f
	cmp	x10,#2
	b.ne	2f
8:
	mov	x11,xzr
	b	1f
4:
	mov	w11,#257
1:
	mov	w8,#1
	str	x11,[x19,#16]
	stp	x8,x9,[x19]
	ldp	x29,x30,[sp,#48]
	ldp	x20,x19,[sp,#32]
	ldp	x22,x21,[sp,#16]
	add	sp,sp,#64
	ret
2:
	ldrsb	w8,[x8,#2]
	cmn	w8,#65
	b.gt	2f
	cmp	x10,#3
	mov	w8,#769
	csel	x11,x8,xzr,hi
	b	1b
2:
	mov	w11,#513
	b	1b
	.cfi_endproc

	.p2align	2
_rtp_core.slice.words.skip_far.52f9edcae2f82f51:
	.cfi_startproc
	sub	x8,x2,x1
	cmp	x8,#64
	b.lo	1f
	ldr	x9,[x0]
2:
	add	x10,x9,x1
	ldp	q0,q1,[x10,#32]
	ldp	q2,q3,[x10]
	orr.16b	v1,v3,v1
	orr.16b	v0,v2,v0
	orr.16b	v0,v0,v1
	ext.16b	v1,v0,v0,#8
	orr.8b	v0,v0,v1
	fmov	x10,d0
	tst	x10,#0x8080808080808080
	b.ne	1f
	sub	x8,x8,#64
	add	x1,x1,#64
	cmp	x8,#63
	b.hi	2b
1:
	mov	x0,x1
	ret
	.cfi_endproc

	.p2align	2
_rtp_ext.map.ExtensionMap.set:
	.cfi_startproc
	ldrb	w9,[x2]
	ldr	x8,[x2,#8]
	tst	w1,#0xff
	b.eq	1f
	stp	x20,x19,[sp,#-32]!
	stp	x29,x30,[sp,#16]
	.cfi_def_cfa_offset 32
	.cfi_offset w30,-8
	.cfi_offset w29,-16
	.cfi_offset w19,-24
	.cfi_offset w20,-32
	add	x10,x0,w1,uxtb #1
	mov	w11,#10202
	cmp	w9,#15
	add	x19,x0,#2,lsl #12
	csel	w12,w9,wzr,ne
	cset	w15,ne
	add	x10,x10,x11
	ldrh	w11,[x19,#2780]
	cmp	w12,#14
	ldrb	w13,[x10]
	ldrb	w14,[x10,#1]
	ldr	q0,[x2,#16]
	cinc	w11,w11,eq
	strb	w12,[x10,#1]
	cmp	w13,#1
	and	w13,w14,#0xff
	strb	w15,[x10]
	cset	w14,eq
	cmp	w13,#14
	ldrh	w13,[x19,#2778]
	csel	w12,wzr,w14,ne
	subs	w10,w15,w14
	sub	w11,w11,w12
	add	w12,w10,w13
	and	x10,x1,#0xff
	strh	w11,[x19,#2780]
	strh	w12,[x19,#2778]
	b.eq	2f
	cmp	w9,#15
	mov	w11,w1
	b.ne	3f
	mov	w11,#10714
	add	x11,x0,x11
	ldrb	w11,[x11,x10]
3:
	add	x12,x0,x10,lsl #1
	mov	w13,#10200
	mov	w14,#10713
	add	x12,x12,x13
	add	x13,x0,x14
	and	x14,x1,#0xff
3:
	cbz	x14,2f
	strb	w11,[x13,x14]
	sub	x14,x14,#1
	ldrb	w15,[x12],#-2
	cmp	w15,#1
	b.ne	3b
2:
	mov	w11,#40
	mov	w13,#1
	umaddl	x12,w10,w11,x0
	ldurb	w11,[x12,#-40]
	ldurb	w10,[x12,#-32]
	stp	x13,x9,[x12,#-40]
	ldur	x0,[x12,#-24]
	ldur	x9,[x12,#-8]
	stur	x8,[x12,#-24]
	stur	q0,[x12,#-16]
	cbz	w11,2f
	cmp	w11,#2
	cmp	w10,#15
	b.ne	2f
	cbz	x9,2f
	mov	x20,x1
	bl	_rattle_dealloc
	mov	x1,x20
2:
	ldrb	w8,[x19,#2008]
	and	w9,w1,#0xff
	ldp	x29,x30,[sp,#16]
	cmp	w9,w8
	csel	w8,w9,w8,hi
	strb	w8,[x19,#2008]
	ldp	x20,x19,[sp],#32
2:
	ret
1:
	cmp	w9,#15
	b.ne	2b
	ldr	x9,[x2,#24]
	cbz	x9,2b
	mov	x0,x8
	b	_rattle_dealloc
	.cfi_endproc

	.section	__TEXT,__literal16,16byte_literals
	.p2align	4,0x0
lrtp_CPI5_0:
	.byte	1
	.byte	2
	.byte	4
	.byte	8
	.byte	16
	.byte	32
	.byte	64
	.byte	128
	.byte	1
	.byte	2
	.byte	4
	.byte	8
	.byte	16
	.byte	32
	.byte	64
	.byte	128
lrtp_CPI5_1:
	.long	1
	.long	2
	.long	4
	.long	8
lrtp_CPI5_2:
	.quad	1
	.quad	0
	.section	__TEXT,__literal8,8byte_literals
	.p2align	3,0x0
lrtp_CPI5_3:
	.byte	32
	.byte	115
	.byte	101
	.byte	110
	.space	1
	.space	1
	.space	1
	.space	1
	.section	__TEXT,__text,regular,pure_instructions
	.p2align	2
_rtp_listing.printing.print_all.df9e9f1468b30f79:
	.cfi_startproc
	str	x27,[sp,#-96]!
	stp	x26,x25,[sp,#16]
	stp	x24,x23,[sp,#32]
	stp	x22,x21,[sp,#48]
	stp	x20,x19,[sp,#64]
	stp	x29,x30,[sp,#80]
	sub	sp,sp,#688
	.cfi_def_cfa_offset 784
	.cfi_offset w30,-8
	.cfi_offset w29,-16
	.cfi_offset w19,-24
	.cfi_offset w20,-32
	.cfi_offset w21,-40
	.cfi_offset w22,-48
	.cfi_offset w23,-56
	.cfi_offset w24,-64
	.cfi_offset w25,-72
	.cfi_offset w26,-80
	.cfi_offset w27,-96
	movi.2d	v0,#0000000000000000
	add	x8,sp,#672
	add	x10,sp,#200
	str	x8,[sp,#544]
	mov	x19,x0
	add	x9,sp,#536
	str	x8,[sp,#600]
	mov	w0,#16384
	mov	w1,#1
	str	x8,[sp,#512]
	mov	w8,#2
	strh	w8,[sp,#200]
	mov	w8,#1
	strb	w8,[sp,#202]
	strb	w8,[sp,#217]
	add	x8,x10,#18
	stp	q0,q0,[x8,#240]
	add	x8,sp,#11
	stur	q0,[x8,#255]
	add	x8,sp,#27
	stur	q0,[x8,#255]
	add	x8,sp,#43
	stur	q0,[x8,#255]
	mov	w8,#16
	stp	xzr,xzr,[sp,#176]
	str	xzr,[sp,#192]
	str	xzr,[sp,#536]
	stp	q0,q0,[x10,#352]
	str	q0,[x10,#384]
	stur	q0,[x9,#72]
	stur	q0,[x9,#88]
	str	xzr,[sp,#528]
	str	xzr,[sp,#520]
	stur	xzr,[sp,#203]
	stur	xzr,[sp,#209]
	stur	q0,[sp,#218]
	stur	q0,[sp,#234]
	stur	q0,[sp,#250]
	stur	q0,[x10,#114]
	stur	q0,[x10,#130]
	stur	q0,[x10,#146]
	stur	q0,[x10,#162]
	stur	q0,[x10,#178]
	stur	q0,[x10,#194]
	stur	q0,[x10,#210]
	stur	q0,[x10,#226]
	stur	q0,[x10,#242]
	str	q0,[x10,#288]
	str	x8,[sp,#504]
	bl	_rattle_alloc
	tbz	w0,#0,1f
	mov	x25,x1
	mov	x0,x1
	mov	w1,#16384
	bl	_bzero
	ldr	x21,[x19,#10984]
	cbz	x21,2f
	add	x8,sp,#200
	mov	x27,#2808348672
	add	x10,sp,#536
	add	x11,x8,#88
	add	x9,x8,#264
	add	x8,x8,#28
	movk	x27,#46771,lsl #32
	mov	w26,#57600
	stp	x9,x19,[sp,#96]
	ldr	x19,[x19,#10976]
	add	x9,sp,#656
	stp	x11,x8,[sp,#144]
	add	x8,x10,#40
	mov	x22,xzr
	mov	x20,xzr
	movk	x27,#3552,lsl #48
	movk	w26,#1525,lsl #16
	str	x8,[sp,#88]
	add	x8,x9,#15
	str	x8,[sp,#72]
	str	x25,[sp,#160]
	b	3f
4:
	mov	x22,xzr
5:
	cbz	x21,6f
3:
	mov	x9,xzr
	mov	x23,x19
3:
	mov	x8,x9
	add	x9,x9,#32
	cmp	x9,x21
	b.hi	7f
	movi.16b	v0,#10
	add	x10,x23,x8
	ldp	q2,q1,[x10]
Lrtp_loh2:
	adrp	x10,lrtp_CPI5_0@PAGE
	cmeq.16b	v1,v1,v0
	cmeq.16b	v0,v2,v0
Lrtp_loh3:
	ldr	q2,[x10,lrtp_CPI5_0@PAGEOFF]
	cmlt.16b	v1,v1,#0
	cmlt.16b	v0,v0,#0
	and.16b	v1,v1,v2
	and.16b	v0,v0,v2
	ext.16b	v2,v1,v1,#8
	ext.16b	v3,v0,v0,#8
	zip1.16b	v1,v1,v2
	zip1.16b	v0,v0,v3
	addv.8h	h1,v1
	addv.8h	h0,v0
	fmov	w10,s1
	fmov	w11,s0
	lsl	w10,w10,#16
	bfxil	x10,x11,#0,#16
	cbz	x10,3b
	rbit	x9,x10
	clz	x9,x9
3:
	sub	x10,x21,x9
	cmp	x10,x8
	b.eq	8f
	add	x19,x9,x8
	cbz	x19,9f
	add	x11,x9,x8
	add	x12,x11,x23
	ldurb	w12,[x12,#-1]
	cmp	w12,#13
	b.ne	9f
	sub	x19,x11,#1
9:
	add	x9,x23,x9
	add	x9,x9,x8
	mvn	x8,x8
	add	x9,x9,#1
	add	x21,x8,x10
	str	x9,[sp,#696]
	lsr	x24,x19,#1
	ldr	x8,[sp,#520]
	cmp	x19,#161
	b.ls	9f
10:
	cmp	x8,#80
	b.hs	11f
	ldr	x19,[sp,#528]
	mov	w9,#80
	str	x22,[sp,#168]
	sub	x1,x9,x8
	mov	x22,x20
	sub	x9,x19,x8
	cmp	x1,x9
	b.hi	12f
	add	x20,x8,x1
	ldr	x26,[sp,#512]
	cmp	x8,x20
	b.hs	13f
14:
	add	x0,x26,x8
	bl	_bzero
13:
	str	x20,[sp,#520]
	mov	x8,x20
	mov	x20,x22
	ldp	x25,x22,[sp,#160]
	str	x19,[sp,#528]
	add	x9,x23,#160
	cmp	x26,x9
	b.lo	15f
	b	16f
7:
	cmp	x21,x8
	b.eq	8f
	mov	x9,xzr
	mov	x10,x8
7:
	ldrb	w11,[x23,x10]
	cmp	w11,#10
	b.eq	3b
	add	x10,x10,#1
	add	x9,x9,#1
	cmp	x21,x10
	b.ne	7b
8:
Lrtp_loh4:
	adrp	x8,lrtp__static.5@PAGE
Lrtp_loh5:
	add	x8,x8,lrtp__static.5@PAGEOFF
	mov	x19,x21
	str	x8,[sp,#696]
	mov	x21,xzr
	lsr	x24,x19,#1
	ldr	x8,[sp,#520]
	cmp	x19,#161
	b.hi	10b
9:
	subs	x1,x24,x8
	b.ls	3f
	str	x22,[sp,#168]
	ldr	x22,[sp,#528]
	mov	x27,x20
	sub	x9,x22,x8
	cmp	x1,x9
	b.hi	7f
	add	x20,x8,x1
	ldr	x26,[sp,#512]
	cmp	x8,x20
	b.hs	8f
9:
	add	x0,x26,x8
	bl	_bzero
8:
	str	x20,[sp,#520]
	mov	x20,x27
	mov	x27,#2808348672
	str	x22,[sp,#528]
	movk	x27,#46771,lsl #32
	ldr	x22,[sp,#168]
	movk	x27,#3552,lsl #48
	cmp	x19,#16
	b.hs	10f
	b	17f
11:
	ldr	x26,[sp,#512]
	add	x9,x23,#160
	cmp	x26,x9
	b.hs	16f
15:
	add	x9,x26,#80
	cmp	x23,x9
	b.hs	16f
	mov	x9,xzr
	add	x10,x23,#1
11:
	ldurh	w11,[x10,#-1]
	add	x10,x10,#2
	lsr	w12,w11,#6
	and	w11,w11,#0xf0f0f0f
	and	w12,w12,#0x1010101
	add	w12,w12,w12,lsl #3
	add	w11,w12,w11
	add	w11,w11,w11,lsl #12
	lsr	w11,w11,#8
	strb	w11,[x26,x9]
	add	x9,x9,#1
	cmp	x9,#80
	b.ne	11b
	ldrb	w10,[x26]
	ubfiz	x9,x10,#2,#4
	tbnz	w10,#4,11f
15:
	add	x9,x9,#12
	cmp	x24,x9
	csel	x24,x24,x9,lo
	cmp	x24,#81
	b.hs	18f
	b	19f
3:
	cbz	x24,3f
	ldr	x26,[sp,#512]
	cmp	x19,#16
	b.lo	17f
10:
	and	x8,x19,#0xfe
	add	x8,x23,x8
	cmp	x26,x8
	b.hs	10f
	add	x8,x26,x24
	cmp	x23,x8
	b.hs	10f
17:
	mov	x8,xzr
17:
	add	x9,x23,x8,lsl #1
	add	x9,x9,#1
20:
	ldurh	w10,[x9,#-1]
	add	x9,x9,#2
	lsr	w11,w10,#6
	and	w10,w10,#0xf0f0f0f
	and	w11,w11,#0x1010101
	add	w11,w11,w11,lsl #3
	add	w10,w11,w10
	add	w10,w10,w10,lsl #12
	lsr	w10,w10,#8
	strb	w10,[x26,x8]
	add	x8,x8,#1
	cmp	x24,x8
	b.ne	20b
	b	19f
16:
	mov	x9,x23
	mov	w10,#4097
	ld2.16b	{ v0,v1 },[x9],#32
	ushll2.8h	v2,v0,#0
	ushll.8h	v3,v0,#0
	shll2.8h	v4,v1,#8
	shll.8h	v0,v1,#8
	movi.16b	v1,#1
	orr.16b	v4,v4,v2
	movi.8h	v2,#9
	orr.16b	v3,v0,v3
	movi.16b	v0,#15
	ushr.8h	v5,v4,#6
	ushr.8h	v6,v3,#6
	and.16b	v4,v4,v0
	and.16b	v7,v3,v0
	and.16b	v5,v5,v1
	and.16b	v3,v6,v1
	mla.8h	v4,v5,v2
	mla.8h	v7,v3,v2
	dup.8h	v3,w10
	mul.8h	v4,v4,v3
	mul.8h	v5,v7,v3
	uzp2.16b	v4,v5,v4
	str	q4,[x26]
	ld2.16b	{ v4,v5 },[x9]
	add	x9,x23,#64
	ushll2.8h	v6,v4,#0
	ushll.8h	v7,v4,#0
	shll2.8h	v16,v5,#8
	shll.8h	v4,v5,#8
	orr.16b	v5,v16,v6
	orr.16b	v4,v4,v7
	ushr.8h	v6,v5,#6
	and.16b	v5,v5,v0
	ushr.8h	v7,v4,#6
	and.16b	v4,v4,v0
	and.16b	v6,v6,v1
	and.16b	v7,v7,v1
	mla.8h	v5,v6,v2
	mla.8h	v4,v7,v2
	mul.8h	v5,v5,v3
	mul.8h	v4,v4,v3
	uzp2.16b	v4,v4,v5
	str	q4,[x26,#16]
	ld2.16b	{ v4,v5 },[x9]
	add	x9,x23,#96
	ushll2.8h	v6,v4,#0
	ushll.8h	v7,v4,#0
	shll2.8h	v16,v5,#8
	shll.8h	v4,v5,#8
	orr.16b	v5,v16,v6
	orr.16b	v4,v4,v7
	ushr.8h	v6,v5,#6
	and.16b	v5,v5,v0
	ushr.8h	v7,v4,#6
	and.16b	v4,v4,v0
	and.16b	v6,v6,v1
	and.16b	v7,v7,v1
	mla.8h	v5,v6,v2
	mla.8h	v4,v7,v2
	mul.8h	v5,v5,v3
	mul.8h	v4,v4,v3
	uzp2.16b	v4,v4,v5
	str	q4,[x26,#32]
	ld2.16b	{ v4,v5 },[x9]
	add	x9,x23,#128
	ushll2.8h	v6,v4,#0
	ushll.8h	v7,v4,#0
	shll2.8h	v16,v5,#8
	shll.8h	v4,v5,#8
	orr.16b	v5,v16,v6
	orr.16b	v4,v4,v7
	ushr.8h	v6,v5,#6
	and.16b	v5,v5,v0
	ushr.8h	v7,v4,#6
	and.16b	v4,v4,v0
	and.16b	v6,v6,v1
	and.16b	v7,v7,v1
	mla.8h	v5,v6,v2
	mla.8h	v4,v7,v2
	mul.8h	v5,v5,v3
	mul.8h	v4,v4,v3
	uzp2.16b	v4,v4,v5
	str	q4,[x26,#48]
	ld2.16b	{ v4,v5 },[x9]
	ushll2.8h	v6,v4,#0
	ushll.8h	v7,v4,#0
	shll2.8h	v16,v5,#8
	shll.8h	v4,v5,#8
	orr.16b	v5,v16,v6
	orr.16b	v4,v4,v7
	ushr.8h	v6,v5,#6
	and.16b	v5,v5,v0
	ushr.8h	v7,v4,#6
	and.16b	v0,v4,v0
	and.16b	v4,v7,v1
	and.16b	v1,v6,v1
	mla.8h	v0,v4,v2
	mla.8h	v5,v1,v2
	mul.8h	v1,v5,v3
	mul.8h	v0,v0,v3
	uzp2.16b	v0,v0,v1
	str	q0,[x26,#64]
	ldrb	w10,[x26]
	ubfiz	x9,x10,#2,#4
	tbz	w10,#4,15b
11:
	add	x10,x26,x9
	ldrb	w11,[x10,#14]
	ldrb	w10,[x10,#15]
	lsl	x11,x11,#10
	orr	x10,x11,x10,lsl #2
	add	x9,x9,x10
	add	x9,x9,#16
	cmp	x24,x9
	csel	x24,x24,x9,lo
	cmp	x24,#81
	b.lo	19f
18:
	subs	x1,x24,x8
	b.ls	11f
	ldr	x19,[sp,#528]
	str	x22,[sp,#168]
	mov	x22,x20
	sub	x9,x19,x8
	cmp	x1,x9
	b.hi	15f
	add	x20,x8,x1
	cmp	x8,x20
	b.hs	16f
18:
	add	x0,x26,x8
	bl	_bzero
16:
	str	x20,[sp,#520]
	mov	x20,x22
	ldp	x25,x22,[sp,#160]
	str	x26,[sp,#512]
	str	x19,[sp,#528]
11:
	sub	x8,x24,#80
	cmp	x8,#8
	b.lo	11f
	add	x9,x23,x24,lsl #1
	add	x10,x26,#80
	add	x11,x26,x24
	add	x12,x23,#160
	cmp	x10,x9
	ccmp	x12,x11,#2,lo
	b.lo	11f
	cmp	x8,#16
	b.hs	20f
	mov	x9,xzr
21:
	add	x13,x23,x9,lsl #1
	and	x11,x8,#0xfffffffffffffff8
	add	x12,x26,x9
	add	x10,x11,#80
	sub	x9,x9,x11
	add	x12,x12,#80
	add	x13,x13,#160
22:
	ld2.8b	{ v0,v1 },[x13],#16
	movi.8h	v4,#9
	mov	w14,#4097
	adds	x9,x9,#8
	ushll.8h	v2,v0,#0
	shll.8h	v0,v1,#8
	movi.16b	v1,#15
	orr.16b	v0,v0,v2
	movi.16b	v2,#1
	ushr.8h	v3,v0,#6
	and.16b	v0,v0,v1
	and.16b	v1,v3,v2
	mla.8h	v0,v1,v4
	dup.8h	v1,w14
	mul.8h	v0,v0,v1
	shrn.8b	v0,v0,#8
	str	d0,[x12],#8
	b.ne	22b
	cmp	x8,x11
	b.ne	22f
	b	23f
11:
	mov	w10,#80
22:
	add	x11,x23,x10,lsl #1
	sub	x8,x24,x10
	add	x9,x26,x10
	add	x10,x11,#1
11:
	ldurh	w11,[x10,#-1]
	subs	x8,x8,#1
	add	x10,x10,#2
	lsr	w12,w11,#6
	and	w11,w11,#0xf0f0f0f
	and	w12,w12,#0x1010101
	add	w12,w12,w12,lsl #3
	add	w11,w12,w11
	add	w11,w11,w11,lsl #12
	lsr	w11,w11,#8
	strb	w11,[x9],#1
	b.ne	11b
23:
	ldr	x26,[sp,#512]
	b	11f
10:
	cmp	x19,#32
	b.hs	10f
	mov	x8,xzr
24:
	add	x10,x23,x8,lsl #1
	mov	x9,x8
	and	x8,x24,#0x78
25:
	ld2.8b	{ v0,v1 },[x10],#16
	movi.8h	v4,#9
	mov	w11,#4097
	ushll.8h	v2,v0,#0
	shll.8h	v0,v1,#8
	movi.16b	v1,#15
	orr.16b	v0,v0,v2
	movi.16b	v2,#1
	ushr.8h	v3,v0,#6
	and.16b	v0,v0,v1
	and.16b	v1,v3,v2
	mla.8h	v0,v1,v4
	dup.8h	v1,w11
	mul.8h	v0,v0,v1
	shrn.8b	v0,v0,#8
	str	d0,[x26,x9]
	add	x9,x9,#8
	cmp	x8,x9
	b.ne	25b
	cmp	x24,x8
	b.ne	17b
	b	19f
3:
	mov	w8,wzr
	mov	w5,wzr
	mov	x3,xzr
	b	3f
10:
	mov	x9,xzr
	and	x8,x24,#0x70
	mov	x10,x23
10:
	ld2.16b	{ v0,v1 },[x10],#32
	movi.8h	v6,#9
	mov	w11,#4097
	ushll2.8h	v2,v0,#0
	ushll.8h	v3,v0,#0
	shll2.8h	v4,v1,#8
	shll.8h	v0,v1,#8
	orr.16b	v1,v4,v2
	movi.16b	v2,#15
	orr.16b	v0,v0,v3
	movi.16b	v3,#1
	ushr.8h	v4,v1,#6
	ushr.8h	v5,v0,#6
	and.16b	v1,v1,v2
	and.16b	v0,v0,v2
	and.16b	v2,v5,v3
	and.16b	v3,v4,v3
	mla.8h	v0,v2,v6
	mla.8h	v1,v3,v6
	dup.8h	v2,w11
	mul.8h	v1,v1,v2
	mul.8h	v0,v0,v2
	uzp2.16b	v0,v0,v1
	str	q0,[x26,x9]
	add	x9,x9,#16
	cmp	x8,x9
	b.ne	10b
	cmp	x24,x8
	b.ne	10f
19:
	cmp	x24,#12
	b.lo	19f
11:
	ldrsb	w8,[x26]
	cmn	w8,#65
	b.gt	19f
	and	x12,x8,#0xff
	ubfiz	x8,x12,#2,#4
	add	x19,x8,#12
	subs	x8,x24,x19
	b.hs	11f
19:
	mov	w26,#57600
	mov	w8,wzr
	mov	w5,wzr
	mov	x3,xzr
	movk	w26,#1525,lsl #16
3:
	mov	w10,#25963
	add	x9,x25,x22
	add	x20,x20,#1
	movk	w10,#8308,lsl #16
	lsr	x23,x20,#4
	cmp	x20,x26
	stur	w10,[x9,#3]
	mov	w10,#24944
	movk	w10,#27491,lsl #16
	str	w10,[x9]
	add	x9,x22,#7
	b.hs	25f
	cmp	x23,#624
	b.hi	26f
	cmp	x20,#99
	b.hi	27f
	cmp	x20,#9
	b.hi	28f
	orr	w10,w20,#0x30
	strb	w10,[x25,x9]
	add	x9,x22,#8
	add	x10,x25,x9
	tbz	w8,#0,29f
	b	30f
25:
	mov	x10,#1874919424
	movk	x10,#34546,lsl #32
	movk	x10,#35,lsl #48
	cmp	x20,x10
	b.hs	25f
	mov	x10,#52989
	mov	x11,#4096
	movk	x10,#33889,lsl #16
	movk	x11,#54437,lsl #16
	movk	x10,#30481,lsl #32
	movk	x11,#232,lsl #32
	movk	x10,#43980,lsl #48
	cmp	x20,x11
	umulh	x10,x20,x10
	lsr	x10,x10,#26
	b.hs	31f
	mov	x11,#58368
	movk	x11,#21515,lsl #16
	movk	x11,#2,lsl #32
	cmp	x20,x11
	b.hs	32f
	mov	w11,#51712
	movk	w11,#15258,lsl #16
	cmp	x20,x11
	b.hs	33f
	orr	w11,w10,#0x30
	strb	w11,[x25,x9]
	add	x9,x22,#8
	b	34f
26:
	mov	w10,#5977
	mov	w11,#16960
	movk	w10,#53687,lsl #16
	movk	w11,#15,lsl #16
	umull	x10,w20,w10
	cmp	x20,x11
	lsr	x10,x10,#45
	b.hs	26f
	mov	w11,#34464
	movk	w11,#1,lsl #16
	cmp	x20,x11
	b.hs	35f
	orr	w11,w10,#0x30
	strb	w11,[x25,x9]
	add	x9,x22,#8
	b	36f
25:
	mov	x10,#30807
	cmp	x20,x27
	movk	x10,#45331,lsl #16
	movk	x10,#25903,lsl #32
	movk	x10,#14757,lsl #48
	umulh	x10,x20,x10
	lsr	x11,x10,#51
Lrtp_loh6:
	adrp	x10,lrtp__static.42@PAGE
Lrtp_loh7:
	add	x10,x10,lrtp__static.42@PAGEOFF
	b.hs	25f
	mov	x12,#1569325056
	movk	x12,#17784,lsl #32
	movk	x12,#355,lsl #48
	cmp	x20,x12
	b.hs	37f
	orr	w11,w11,#0x30
	strb	w11,[x25,x9]
	add	x9,x22,#8
	b	38f
11:
	tbnz	w12,#4,11f
	mov	w13,wzr
39:
	ldrb	w8,[sp,#464]
	str	w13,[sp,#128]
	str	x12,[sp,#136]
	cmp	w8,#1
	str	x22,[sp,#168]
	b.ne	40f
	movi.2d	v0,#0000000000000000
	ldp	x23,x24,[sp,#480]
	ldr	x8,[sp,#96]
	ldr	x9,[sp,#496]
	stp	x19,x20,[sp,#112]
	str	x9,[sp,#80]
	stp	q0,q0,[x8]
	str	xzr,[x8,#32]
	cbz	x24,41f
	mov	x27,xzr
	b	42f
43:
	add	x27,x27,#1
	cmp	x27,x24
	b.eq	41f
42:
	mov	w8,#24
	madd	x8,x27,x8,x23
	ldp	x25,x19,[x8]
	ldr	x22,[x8,#16]
	cbz	x19,42f
	add	x20,x25,#16
	b	44f
45:
	subs	x19,x19,#1
	add	x20,x20,#32
	b.eq	42f
44:
	ldr	x8,[x20]
	cbz	x8,45b
	ldur	x0,[x20,#-16]
	bl	_rattle_dealloc
	b	45b
42:
	cbz	x22,43b
	mov	x0,x25
	bl	_rattle_dealloc
	b	43b
27:
	ubfx	w10,w20,#2,#14
	mov	w11,#5243
	cmp	x20,#999
	mul	w10,w10,w11
	lsr	w10,w10,#17
	b.hi	27f
	orr	w11,w10,#0x30
	strb	w11,[x25,x9]
	add	x9,x22,#8
	b	42f
31:
	mov	w11,#5977
	mov	x12,#16384
	movk	w11,#53687,lsl #16
	movk	x12,#4218,lsl #16
	umull	x11,w10,w11
	movk	x12,#23283,lsl #32
	cmp	x20,x12
	lsr	x11,x11,#45
	b.hs	31f
	mov	x12,#40960
	movk	x12,#20082,lsl #16
	movk	x12,#2328,lsl #32
	cmp	x20,x12
	b.hs	43f
	orr	w12,w11,#0x30
	strb	w12,[x25,x9]
	add	x9,x22,#8
	b	44f
26:
	ubfx	w11,w10,#2,#14
	mov	w12,#5243
	mul	w11,w11,w12
	mov	w12,#38528
	movk	w12,#152,lsl #16
	cmp	x20,x12
	lsr	w11,w11,#17
	b.hs	26f
	orr	w12,w11,#0x30
	strb	w12,[x25,x9]
	add	x9,x22,#8
	b	45f
25:
	ubfx	w12,w11,#2,#14
	mov	w13,#5243
	mul	w12,w12,w13
	mov	x13,#2313682944
	movk	x13,#8964,lsl #32
	movk	x13,#35527,lsl #48
	lsr	w12,w12,#17
	cmp	x20,x13
	b.hs	25f
	orr	w13,w12,#0x30
	strb	w13,[x25,x9]
	add	x9,x22,#8
	b	46f
11:
	subs	x10,x8,#4
	b.lo	19b
	add	x9,x26,x19
	ldrb	w8,[x9,#2]
	ldrb	w11,[x9,#3]
	lsl	x8,x8,#10
	orr	x8,x8,x11,lsl #2
	cmp	x10,x8
	b.lo	19b
	ldrh	w10,[x9]
	mov	w11,#57022
	add	x8,x19,x8
	add	x19,x8,#4
	and	w9,w10,#0xfffff0ff
	cmp	w9,#16
	cset	w13,eq
	cmp	w10,w11
	b.eq	39b
	cmp	w9,#16
	b.ne	19b
	b	39b
28:
Lrtp_loh8:
	adrp	x10,lrtp__static.42@PAGE
Lrtp_loh9:
	add	x10,x10,lrtp__static.42@PAGEOFF
	ldrh	w10,[x10,x20,lsl #1]
	strh	w10,[x25,x9]
	add	x9,x22,#9
	add	x10,x25,x9
	tbz	w8,#0,29f
	b	30f
32:
	ubfx	w11,w10,#2,#14
	mov	w12,#5243
	mul	w11,w11,w12
	mov	x12,#59392
	movk	x12,#18550,lsl #16
	movk	x12,#23,lsl #32
	lsr	w11,w11,#17
	cmp	x20,x12
	b.hs	11f
	orr	w11,w11,#0x30
	strb	w11,[x25,x9]
	add	x9,x22,#8
	b	19f
35:
Lrtp_loh10:
	adrp	x11,lrtp__static.42@PAGE
Lrtp_loh11:
	add	x11,x11,lrtp__static.42@PAGEOFF
	ldrh	w11,[x11,w10,uxtw #1]
	strh	w11,[x25,x9]
	add	x9,x22,#9
	b	36f
37:
	ldrh	w11,[x10,x11,lsl #1]
	strh	w11,[x25,x9]
	add	x9,x22,#9
	b	38f
27:
Lrtp_loh12:
	adrp	x11,lrtp__static.42@PAGE
Lrtp_loh13:
	add	x11,x11,lrtp__static.42@PAGEOFF
	ldrh	w11,[x11,w10,uxtw #1]
	strh	w11,[x25,x9]
	add	x9,x22,#9
42:
	mov	w11,#100
	msub	w10,w10,w11,w20
Lrtp_loh14:
	adrp	x11,lrtp__static.42@PAGE
Lrtp_loh15:
	add	x11,x11,lrtp__static.42@PAGEOFF
	and	x10,x10,#0xffff
	ldrh	w10,[x11,x10,lsl #1]
	strh	w10,[x25,x9]
	add	x9,x9,#2
	add	x10,x25,x9
	tbz	w8,#0,29f
	b	30f
31:
	ubfx	w12,w11,#2,#14
	mov	w13,#5243
	mul	w12,w12,w13
	mov	x13,#1125899906809856
	movk	x13,#42182,lsl #16
	movk	x13,#36222,lsl #32
	lsr	w12,w12,#17
	cmp	x20,x13
	b.hs	27f
	orr	w13,w12,#0x30
	strb	w13,[x25,x9]
	add	x9,x22,#8
	b	28f
26:
Lrtp_loh16:
	adrp	x12,lrtp__static.42@PAGE
Lrtp_loh17:
	add	x12,x12,lrtp__static.42@PAGEOFF
	ldrh	w12,[x12,w11,uxtw #1]
	strh	w12,[x25,x9]
	add	x9,x22,#9
45:
	mov	w12,#100
	msub	w11,w11,w12,w10
Lrtp_loh18:
	adrp	x12,lrtp__static.42@PAGE
Lrtp_loh19:
	add	x12,x12,lrtp__static.42@PAGEOFF
	and	x11,x11,#0xffff
	ldrh	w11,[x12,x11,lsl #1]
	strh	w11,[x25,x9]
	add	x9,x9,#2
36:
	mov	w11,#10000
	mov	w12,#5243
	add	x13,x25,x9
	msub	w10,w10,w11,w20
	add	x9,x9,#4
	ubfx	w11,w10,#2,#14
	mul	w11,w11,w12
	mov	w12,#100
	lsr	w11,w11,#17
	msub	w10,w11,w12,w10
Lrtp_loh20:
	adrp	x12,lrtp__static.42@PAGE
Lrtp_loh21:
	add	x12,x12,lrtp__static.42@PAGEOFF
	ldrh	w11,[x12,w11,uxtw #1]
	strh	w11,[x13]
	and	x10,x10,#0xffff
	ldrh	w10,[x12,x10,lsl #1]
	strh	w10,[x13,#2]
	add	x10,x25,x9
	tbnz	w8,#0,30f
29:
	adrp	x11,lrtp__static.40@PAGE
	add	x11,x11,lrtp__static.40@PAGEOFF
	mov	w8,#25185
	ldr	x11,[x11]
	movk	w8,#25964,lsl #16
	str	w8,[x10,#8]
	add	x8,x9,#12
	str	x11,[x10]
	b	26f
25:
	ldrh	w13,[x10,w12,uxtw #1]
	strh	w13,[x25,x9]
	add	x9,x22,#9
46:
	mov	w13,#100
	msub	w11,w12,w13,w11
	and	x11,x11,#0xffff
	ldrh	w11,[x10,x11,lsl #1]
	strh	w11,[x25,x9]
	add	x9,x9,#2
38:
	mov	x11,#52989
	mov	x12,#35011
	mov	w13,#57600
	movk	x11,#33889,lsl #16
	movk	x12,#58939,lsl #16
	movk	w13,#1525,lsl #16
	movk	x11,#30481,lsl #32
	movk	x12,#85,lsl #32
	mov	w14,#5977
	movk	x11,#43980,lsl #48
	movk	w14,#53687,lsl #16
	mov	w16,#5243
	umulh	x11,x20,x11
	mov	w17,#10000
	mov	w0,#100
	lsr	x11,x11,#26
	umulh	x12,x11,x12
	lsr	x12,x12,#1
	umsubl	x12,w12,w13,x11
	msub	x11,x11,x13,x20
	mov	w15,w12
	umull	x15,w15,w14
	mov	w1,w11
	lsr	x15,x15,#45
	umull	x14,w1,w14
	ubfx	w13,w15,#2,#14
	msub	w12,w15,w17,w12
	lsr	x14,x14,#45
	mul	w13,w13,w16
	ubfx	w2,w12,#2,#14
	msub	w11,w14,w17,w11
	lsr	w13,w13,#17
	mul	w1,w2,w16
	add	x2,x25,x9
	add	x9,x9,#16
	msub	w15,w13,w0,w15
	ldrh	w13,[x10,w13,uxtw #1]
	strh	w13,[x2]
	and	x13,x15,#0xffff
	lsr	w15,w1,#17
	ubfx	w1,w14,#2,#14
	ldrh	w13,[x10,x13,lsl #1]
	msub	w12,w15,w0,w12
	strh	w13,[x2,#2]
	ldrh	w13,[x10,w15,uxtw #1]
	mul	w15,w1,w16
	and	x12,x12,#0xffff
	strh	w13,[x2,#4]
	ldrh	w12,[x10,x12,lsl #1]
	lsr	w13,w15,#17
	ubfx	w15,w11,#2,#14
	strh	w12,[x2,#6]
	msub	w12,w13,w0,w14
	ldrh	w13,[x10,w13,uxtw #1]
	mul	w14,w15,w16
	strh	w13,[x2,#8]
	and	x12,x12,#0xffff
	ldrh	w12,[x10,x12,lsl #1]
	lsr	w13,w14,#17
	strh	w12,[x2,#10]
	msub	w11,w13,w0,w11
	ldrh	w12,[x10,w13,uxtw #1]
	strh	w12,[x2,#12]
	and	x11,x11,#0xffff
	ldrh	w10,[x10,x11,lsl #1]
	strh	w10,[x2,#14]
	add	x10,x25,x9
	tbnz	w8,#0,30f
	b	29b
40:
	movi.2d	v0,#0000000000000000
	ldr	x8,[sp,#144]
	str	xzr,[x8,#208]
	stp	q0,q0,[x8,#16]
	stp	q0,q0,[x8,#48]
	stp	q0,q0,[x8,#80]
	stp	q0,q0,[x8,#112]
	stp	q0,q0,[x8,#144]
	stp	q0,q0,[x8,#176]
	str	q0,[x8]
	b	25f
41:
	ldr	x8,[sp,#80]
	cbz	x8,31f
	mov	x0,x23
	bl	_rattle_dealloc
31:
	movi.2d	v0,#0000000000000000
	ldrb	w8,[sp,#464]
	mov	x27,#2808348672
	ldp	x23,x24,[sp,#480]
	ldr	x9,[sp,#144]
	ldp	x19,x20,[sp,#112]
	movk	x27,#46771,lsl #32
	ldr	x10,[sp,#496]
	cmp	w8,#1
	movk	x27,#3552,lsl #48
	stp	q0,q0,[x9]
	stp	q0,q0,[x9,#32]
	stp	q0,q0,[x9,#64]
	stp	q0,q0,[x9,#96]
	stp	q0,q0,[x9,#128]
	stp	q0,q0,[x9,#160]
	str	q0,[x9,#192]
	str	xzr,[x9,#208]
	b.ne	25f
	str	x10,[sp,#80]
	cbz	x24,31f
	mov	x27,xzr
	b	32f
35:
	add	x27,x27,#1
	cmp	x27,x24
	b.eq	31f
32:
	mov	w8,#24
	madd	x8,x27,x8,x23
	ldp	x25,x19,[x8]
	ldr	x22,[x8,#16]
	cbz	x19,32f
	add	x20,x25,#16
	b	36f
37:
	subs	x19,x19,#1
	add	x20,x20,#32
	b.eq	32f
36:
	ldr	x8,[x20]
	cbz	x8,37b
	ldur	x0,[x20,#-16]
	bl	_rattle_dealloc
	b	37b
32:
	cbz	x22,35b
	mov	x0,x25
	bl	_rattle_dealloc
	b	35b
20:
	and	x9,x8,#0xfffffffffffffff0
	add	x10,x26,#80
	add	x11,x23,#160
	and	x12,x8,#0xfffffffffffffff0
20:
	ld2.16b	{ v0,v1 },[x11],#32
	movi.8h	v6,#9
	mov	w13,#4097
	subs	x12,x12,#16
	ushll2.8h	v2,v0,#0
	ushll.8h	v3,v0,#0
	shll2.8h	v4,v1,#8
	shll.8h	v0,v1,#8
	orr.16b	v1,v4,v2
	movi.16b	v2,#15
	orr.16b	v0,v0,v3
	movi.16b	v3,#1
	ushr.8h	v4,v1,#6
	ushr.8h	v5,v0,#6
	and.16b	v1,v1,v2
	and.16b	v0,v0,v2
	and.16b	v2,v5,v3
	and.16b	v3,v4,v3
	mla.8h	v0,v2,v6
	mla.8h	v1,v3,v6
	dup.8h	v2,w13
	mul.8h	v1,v1,v2
	mul.8h	v0,v0,v2
	uzp2.16b	v0,v0,v1
	str	q0,[x10],#16
	b.ne	20b
	cmp	x8,x9
	b.eq	23b
	tbnz	w24,#3,21b
	add	x10,x9,#80
	b	22b
33:
Lrtp_loh22:
	adrp	x11,lrtp__static.42@PAGE
Lrtp_loh23:
	add	x11,x11,lrtp__static.42@PAGEOFF
	ldrh	w11,[x11,x10,lsl #1]
	strh	w11,[x25,x9]
	add	x9,x22,#9
	b	34f
43:
Lrtp_loh24:
	adrp	x12,lrtp__static.42@PAGE
Lrtp_loh25:
	add	x12,x12,lrtp__static.42@PAGEOFF
	ldrh	w12,[x12,w11,uxtw #1]
	strh	w12,[x25,x9]
	add	x9,x22,#9
	b	44f
11:
Lrtp_loh26:
	adrp	x12,lrtp__static.42@PAGE
Lrtp_loh27:
	add	x12,x12,lrtp__static.42@PAGEOFF
	ldrh	w11,[x12,w11,uxtw #1]
	strh	w11,[x25,x9]
	add	x9,x22,#9
19:
	mov	w11,#34079
	mov	w12,#100
	movk	w11,#20971,lsl #16
	umull	x11,w10,w11
	lsr	x11,x11,#37
	msub	w11,w11,w12,w10
Lrtp_loh28:
	adrp	x12,lrtp__static.42@PAGE
Lrtp_loh29:
	add	x12,x12,lrtp__static.42@PAGEOFF
	ldrh	w11,[x12,w11,uxtw #1]
	strh	w11,[x25,x9]
	add	x9,x9,#2
	b	34f
27:
Lrtp_loh30:
	adrp	x13,lrtp__static.42@PAGE
Lrtp_loh31:
	add	x13,x13,lrtp__static.42@PAGEOFF
	ldrh	w13,[x13,w12,uxtw #1]
	strh	w13,[x25,x9]
	add	x9,x22,#9
28:
	mov	w13,#100
	msub	w12,w12,w13,w11
Lrtp_loh32:
	adrp	x13,lrtp__static.42@PAGE
Lrtp_loh33:
	add	x13,x13,lrtp__static.42@PAGEOFF
	and	x12,x12,#0xffff
	ldrh	w12,[x13,x12,lsl #1]
	strh	w12,[x25,x9]
	add	x9,x9,#2
44:
	mov	w12,#10000
	mov	w13,#5243
	add	x14,x25,x9
	msub	w11,w11,w12,w10
	add	x9,x9,#4
	ubfx	w12,w11,#2,#14
	mul	w12,w12,w13
	mov	w13,#100
	lsr	w12,w12,#17
	msub	w11,w12,w13,w11
Lrtp_loh34:
	adrp	x13,lrtp__static.42@PAGE
Lrtp_loh35:
	add	x13,x13,lrtp__static.42@PAGEOFF
	ldrh	w12,[x13,w12,uxtw #1]
	strh	w12,[x14]
	and	x11,x11,#0xffff
	ldrh	w11,[x13,x11,lsl #1]
	strh	w11,[x14,#2]
34:
	mov	w11,#57600
	mov	w12,#5977
	mov	w13,#5243
	movk	w11,#1525,lsl #16
	movk	w12,#53687,lsl #16
	mov	w14,#10000
	msub	x10,x10,x11,x20
Lrtp_loh36:
	adrp	x16,lrtp__static.42@PAGE
Lrtp_loh37:
	add	x16,x16,lrtp__static.42@PAGEOFF
	mov	w11,w10
	umull	x11,w11,w12
	lsr	x11,x11,#45
	ubfx	w12,w11,#2,#14
	msub	w10,w11,w14,w10
	mov	w14,#100
	mul	w12,w12,w13
	ubfx	w15,w10,#2,#14
	lsr	w12,w12,#17
	mul	w13,w15,w13
	add	x15,x25,x9
	add	x9,x9,#8
	msub	w11,w12,w14,w11
	ldrh	w12,[x16,w12,uxtw #1]
	strh	w12,[x15]
	lsr	w12,w13,#17
	and	x11,x11,#0xffff
	ldrh	w11,[x16,x11,lsl #1]
	msub	w10,w12,w14,w10
	strh	w11,[x15,#2]
	ldrh	w11,[x16,w12,uxtw #1]
	and	x10,x10,#0xffff
	strh	w11,[x15,#4]
	ldrh	w10,[x16,x10,lsl #1]
	strh	w10,[x15,#6]
	add	x10,x25,x9
	tbz	w8,#0,29b
30:
	mov	w8,#8250
	mov	w11,#32
	strh	w8,[x10]
	ldrb	w8,[sp,#217]
	strb	w11,[x10,#4]
	mov	w11,#29808
	strh	w11,[x10,#2]
	add	x11,x9,#5
	cmp	x8,#99
	b.hi	11f
	cmp	w8,#9
	b.hi	19f
	orr	w8,w8,#0x30
	strb	w8,[x25,x11]
	add	x8,x9,#6
	b	20f
11:
	and	w12,w8,#0xff
	mov	w13,#41
	mul	w12,w12,w13
	mov	w13,#100
	lsr	w12,w12,#12
	msub	w8,w12,w13,w8
	orr	w12,w12,#0x30
	strb	w12,[x25,x11]
Lrtp_loh38:
	adrp	x11,lrtp__static.42@PAGE
Lrtp_loh39:
	add	x11,x11,lrtp__static.42@PAGEOFF
	and	x8,x8,#0xff
	ldrh	w8,[x11,x8,lsl #1]
	strh	w8,[x10,#6]
	add	x8,x9,#8
	b	20f
19:
Lrtp_loh40:
	adrp	x10,lrtp__static.42@PAGE
Lrtp_loh41:
	add	x10,x10,lrtp__static.42@PAGEOFF
	ldrh	w8,[x10,x8,lsl #1]
	strh	w8,[x25,x11]
	add	x8,x9,#7
20:
	ldrh	w9,[sp,#218]
	add	x10,x25,x8
	mov	w12,#32
	strb	w12,[x10,#4]
	mov	w12,#29472
	lsr	w11,w9,#4
	movk	w12,#29029,lsl #16
	str	w12,[x10]
	add	x10,x8,#5
	cmp	w11,#624
	b.hi	11f
	cmp	w9,#99
	b.hi	19f
	cmp	w9,#9
	b.hi	20f
	orr	w9,w9,#0x30
	strb	w9,[x25,x10]
	add	x9,x8,#6
	b	21f
11:
	mov	w12,#839
	mov	w13,#5243
	add	x10,x25,x10
	mul	w11,w11,w12
	mov	w12,#10000
	lsr	w11,w11,#19
	msub	w9,w11,w12,w9
	orr	w11,w11,#0x30
	strb	w11,[x10]
Lrtp_loh42:
	adrp	x11,lrtp__static.42@PAGE
Lrtp_loh43:
	add	x11,x11,lrtp__static.42@PAGEOFF
	ubfx	w12,w9,#2,#14
	mul	w12,w12,w13
	mov	w13,#100
	lsr	w12,w12,#17
	msub	w9,w12,w13,w9
	ldrh	w12,[x11,w12,uxtw #1]
	sturh	w12,[x10,#1]
	and	x9,x9,#0xffff
	ldrh	w9,[x11,x9,lsl #1]
	sturh	w9,[x10,#3]
	add	x9,x8,#10
	b	21f
19:
	lsr	w11,w9,#2
	mov	w12,#5243
	cmp	w9,#999
	mul	w11,w11,w12
	lsr	w11,w11,#17
	b.hi	11f
	orr	w12,w11,#0x30
	strb	w12,[x25,x10]
	add	x8,x8,#6
	b	19f
20:
Lrtp_loh44:
	adrp	x11,lrtp__static.42@PAGE
Lrtp_loh45:
	add	x11,x11,lrtp__static.42@PAGEOFF
	ldrh	w9,[x11,x9,lsl #1]
	strh	w9,[x25,x10]
	add	x9,x8,#7
	b	21f
11:
Lrtp_loh46:
	adrp	x12,lrtp__static.42@PAGE
Lrtp_loh47:
	add	x12,x12,lrtp__static.42@PAGEOFF
	add	x8,x8,#7
	ldrh	w12,[x12,w11,uxtw #1]
	strh	w12,[x25,x10]
19:
	mov	w10,#100
	msub	w9,w11,w10,w9
Lrtp_loh48:
	adrp	x10,lrtp__static.42@PAGE
Lrtp_loh49:
	add	x10,x10,lrtp__static.42@PAGEOFF
	and	x9,x9,#0xffff
	ldrh	w9,[x10,x9,lsl #1]
	strh	w9,[x25,x8]
	add	x9,x8,#2
21:
	ldr	w8,[sp,#220]
	mov	w10,#29728
	movk	w10,#8307,lsl #16
	str	w10,[x25,x9]
	cmp	w8,w26
	add	x10,x9,#4
	b.hs	11f
	lsr	w11,w8,#4
	cmp	w11,#624
	b.hi	19f
	cmp	w8,#99
	b.hi	20f
	cmp	w8,#9
	b.hi	21f
	orr	w8,w8,#0x30
	strb	w8,[x25,x10]
	add	x9,x9,#5
	b	22f
11:
	mov	w11,#15241
	mov	w12,#51712
	movk	w11,#21990,lsl #16
	movk	w12,#15258,lsl #16
	umull	x11,w8,w11
	cmp	w8,w12
	lsr	x11,x11,#57
	b.hs	11f
	orr	w12,w11,#0x30
	strb	w12,[x25,x10]
	add	x9,x9,#5
	b	23f
19:
	mov	w11,#5977
	mov	w12,#16960
	movk	w11,#53687,lsl #16
	movk	w12,#15,lsl #16
	umull	x11,w8,w11
	cmp	w8,w12
	lsr	x11,x11,#45
	b.hs	19f
	mov	w12,#34464
	movk	w12,#1,lsl #16
	cmp	w8,w12
	b.hs	27f
	orr	w12,w11,#0x30
	strb	w12,[x25,x10]
	add	x9,x9,#5
	b	28f
11:
Lrtp_loh50:
	adrp	x12,lrtp__static.42@PAGE
Lrtp_loh51:
	add	x12,x12,lrtp__static.42@PAGEOFF
	add	x9,x9,#6
	ldrh	w12,[x12,w11,uxtw #1]
	strh	w12,[x25,x10]
23:
	msub	w8,w11,w26,w8
	mov	w10,#5977
	mov	w12,#5243
	movk	w10,#53687,lsl #16
	mov	w13,#10000
Lrtp_loh52:
	adrp	x15,lrtp__static.42@PAGE
Lrtp_loh53:
	add	x15,x15,lrtp__static.42@PAGEOFF
	umull	x10,w8,w10
	lsr	x10,x10,#45
	ubfx	w11,w10,#2,#14
	msub	w8,w10,w13,w8
	mov	w13,#100
	mul	w11,w11,w12
	ubfx	w14,w8,#2,#14
	lsr	w11,w11,#17
	mul	w12,w14,w12
	add	x14,x25,x9
	add	x9,x9,#8
	msub	w10,w11,w13,w10
	ldrh	w11,[x15,w11,uxtw #1]
	strh	w11,[x14]
	lsr	w11,w12,#17
	and	x10,x10,#0xffff
	ldrh	w10,[x15,x10,lsl #1]
	msub	w8,w11,w13,w8
	strh	w10,[x14,#2]
	ldrh	w10,[x15,w11,uxtw #1]
	and	x8,x8,#0xffff
	strh	w10,[x14,#4]
	ldrh	w8,[x15,x8,lsl #1]
	strh	w8,[x14,#6]
	b	22f
20:
	ubfx	w11,w8,#2,#14
	mov	w12,#5243
	cmp	w8,#999
	mul	w11,w11,w12
	lsr	w11,w11,#17
	b.hi	11f
	orr	w12,w11,#0x30
	strb	w12,[x25,x10]
	add	x9,x9,#5
	b	20f
19:
	mov	w12,#56963
	mov	w13,#38528
	movk	w12,#17179,lsl #16
	movk	w13,#152,lsl #16
	umull	x12,w8,w12
	cmp	w8,w13
	lsr	x12,x12,#50
	b.hs	19f
	orr	w12,w12,#0x30
	strb	w12,[x25,x10]
	add	x9,x9,#5
	b	23f
21:
Lrtp_loh54:
	adrp	x11,lrtp__static.42@PAGE
Lrtp_loh55:
	add	x11,x11,lrtp__static.42@PAGEOFF
	add	x9,x9,#6
	ldrh	w8,[x11,x8,lsl #1]
	strh	w8,[x25,x10]
	b	22f
27:
Lrtp_loh56:
	adrp	x12,lrtp__static.42@PAGE
Lrtp_loh57:
	add	x12,x12,lrtp__static.42@PAGEOFF
	add	x9,x9,#6
	ldrh	w12,[x12,w11,uxtw #1]
	strh	w12,[x25,x10]
	b	28f
11:
Lrtp_loh58:
	adrp	x12,lrtp__static.42@PAGE
Lrtp_loh59:
	add	x12,x12,lrtp__static.42@PAGEOFF
	add	x9,x9,#6
	ldrh	w12,[x12,w11,uxtw #1]
	strh	w12,[x25,x10]
20:
	mov	w10,#100
	msub	w8,w11,w10,w8
Lrtp_loh60:
	adrp	x10,lrtp__static.42@PAGE
Lrtp_loh61:
	add	x10,x10,lrtp__static.42@PAGEOFF
	and	x8,x8,#0xffff
	ldrh	w8,[x10,x8,lsl #1]
	strh	w8,[x25,x9]
	add	x9,x9,#2
	b	22f
19:
Lrtp_loh62:
	adrp	x13,lrtp__static.42@PAGE
Lrtp_loh63:
	add	x13,x13,lrtp__static.42@PAGEOFF
	add	x9,x9,#6
	ldrh	w12,[x13,w12,uxtw #1]
	strh	w12,[x25,x10]
23:
	ubfx	w10,w11,#2,#14
	mov	w12,#5243
	mul	w10,w10,w12
	mov	w12,#100
	lsr	w10,w10,#17
	msub	w10,w10,w12,w11
Lrtp_loh64:
	adrp	x12,lrtp__static.42@PAGE
Lrtp_loh65:
	add	x12,x12,lrtp__static.42@PAGEOFF
	and	x10,x10,#0xffff
	ldrh	w10,[x12,x10,lsl #1]
	strh	w10,[x25,x9]
	add	x9,x9,#2
28:
	mov	w10,#10000
	add	x12,x25,x9
	add	x9,x9,#4
	msub	w8,w11,w10,w8
	mov	w11,#5243
	ubfx	w10,w8,#2,#14
	mul	w10,w10,w11
	mov	w11,#100
	lsr	w10,w10,#17
	msub	w8,w10,w11,w8
Lrtp_loh66:
	adrp	x11,lrtp__static.42@PAGE
Lrtp_loh67:
	add	x11,x11,lrtp__static.42@PAGEOFF
	ldrh	w10,[x11,w10,uxtw #1]
	strh	w10,[x12]
	and	x8,x8,#0xffff
	ldrh	w8,[x11,x8,lsl #1]
	strh	w8,[x12,#2]
22:
	add	x10,x25,x9
	mov	w11,#8291
	ldr	w8,[sp,#224]
	strh	w11,[x10,#4]
	mov	w11,#29472
	movk	w11,#29299,lsl #16
	cmp	w8,w26
	str	w11,[x10]
	add	x10,x9,#6
	b.hs	11f
	lsr	w11,w8,#4
	cmp	w11,#624
	b.hi	19f
	cmp	w8,#99
	b.hi	20f
	cmp	w8,#9
	b.hi	21f
	orr	w8,w8,#0x30
	strb	w8,[x25,x10]
	add	x8,x9,#7
	b	22f
11:
	mov	w11,#15241
	mov	w12,w8
	movk	w11,#21990,lsl #16
	umull	x11,w12,w11
	mov	w12,#51712
	movk	w12,#15258,lsl #16
	cmp	w8,w12
	lsr	x11,x11,#57
	b.hs	11f
	orr	w12,w11,#0x30
	strb	w12,[x25,x10]
	add	x9,x9,#7
	b	23f
19:
	mov	w11,#5977
	mov	w12,w8
	movk	w11,#53687,lsl #16
	umull	x11,w12,w11
	mov	w12,#16960
	movk	w12,#15,lsl #16
	cmp	w8,w12
	lsr	x11,x11,#45
	b.hs	19f
	mov	w12,#34464
	movk	w12,#1,lsl #16
	cmp	w8,w12
	b.hs	27f
	orr	w12,w11,#0x30
	strb	w12,[x25,x10]
	add	x9,x9,#7
	b	28f
11:
Lrtp_loh68:
	adrp	x12,lrtp__static.42@PAGE
Lrtp_loh69:
	add	x12,x12,lrtp__static.42@PAGEOFF
	add	x9,x9,#8
	ldrh	w12,[x12,w11,uxtw #1]
	strh	w12,[x25,x10]
23:
	msub	w8,w11,w26,w8
	mov	w10,#5977
	mov	w12,#5243
	movk	w10,#53687,lsl #16
	mov	w13,#10000
Lrtp_loh70:
	adrp	x15,lrtp__static.42@PAGE
Lrtp_loh71:
	add	x15,x15,lrtp__static.42@PAGEOFF
	umull	x10,w8,w10
	lsr	x10,x10,#45
	ubfx	w11,w10,#2,#14
	msub	w8,w10,w13,w8
	mov	w13,#100
	mul	w11,w11,w12
	ubfx	w14,w8,#2,#14
	lsr	w11,w11,#17
	mul	w12,w14,w12
	add	x14,x25,x9
	msub	w10,w11,w13,w10
	ldrh	w11,[x15,w11,uxtw #1]
	strh	w11,[x14]
	lsr	w11,w12,#17
	and	x10,x10,#0xffff
	ldrh	w10,[x15,x10,lsl #1]
	msub	w8,w11,w13,w8
	strh	w10,[x14,#2]
	ldrh	w10,[x15,w11,uxtw #1]
	and	x8,x8,#0xffff
	strh	w10,[x14,#4]
	ldrh	w8,[x15,x8,lsl #1]
	strh	w8,[x14,#6]
11:
	add	x8,x9,#8
	b	22f
20:
	ubfx	w11,w8,#2,#14
	mov	w12,#5243
	cmp	w8,#999
	mul	w11,w11,w12
	lsr	w11,w11,#17
	b.hi	20f
	orr	w12,w11,#0x30
	strb	w12,[x25,x10]
	add	x9,x9,#7
	b	23f
19:
	mov	w12,#56963
	mov	w13,#38528
	movk	w12,#17179,lsl #16
	movk	w13,#152,lsl #16
	umull	x12,w8,w12
	cmp	w8,w13
	lsr	x12,x12,#50
	b.hs	19f
	orr	w12,w12,#0x30
	strb	w12,[x25,x10]
	add	x9,x9,#7
	b	29f
21:
Lrtp_loh72:
	adrp	x11,lrtp__static.42@PAGE
Lrtp_loh73:
	add	x11,x11,lrtp__static.42@PAGEOFF
	ldrh	w8,[x11,x8,lsl #1]
	strh	w8,[x25,x10]
	b	11b
27:
Lrtp_loh74:
	adrp	x12,lrtp__static.42@PAGE
Lrtp_loh75:
	add	x12,x12,lrtp__static.42@PAGEOFF
	add	x9,x9,#8
	ldrh	w12,[x12,w11,uxtw #1]
	strh	w12,[x25,x10]
	b	28f
20:
Lrtp_loh76:
	adrp	x12,lrtp__static.42@PAGE
Lrtp_loh77:
	add	x12,x12,lrtp__static.42@PAGEOFF
	add	x9,x9,#8
	ldrh	w12,[x12,w11,uxtw #1]
	strh	w12,[x25,x10]
23:
	mov	w10,#100
	msub	w8,w11,w10,w8
Lrtp_loh78:
	adrp	x10,lrtp__static.42@PAGE
Lrtp_loh79:
	add	x10,x10,lrtp__static.42@PAGEOFF
	and	x8,x8,#0xffff
	ldrh	w8,[x10,x8,lsl #1]
	strh	w8,[x25,x9]
	add	x8,x9,#2
	b	22f
19:
Lrtp_loh80:
	adrp	x13,lrtp__static.42@PAGE
Lrtp_loh81:
	add	x13,x13,lrtp__static.42@PAGEOFF
	add	x9,x9,#8
	ldrh	w12,[x13,w12,uxtw #1]
	strh	w12,[x25,x10]
29:
	ubfx	w10,w11,#2,#14
	mov	w12,#5243
	mul	w10,w10,w12
	mov	w12,#100
	lsr	w10,w10,#17
	msub	w10,w10,w12,w11
Lrtp_loh82:
	adrp	x12,lrtp__static.42@PAGE
Lrtp_loh83:
	add	x12,x12,lrtp__static.42@PAGEOFF
	and	x10,x10,#0xffff
	ldrh	w10,[x12,x10,lsl #1]
	strh	w10,[x25,x9]
	add	x9,x9,#2
28:
	mov	w10,#10000
	add	x12,x25,x9
	msub	w8,w11,w10,w8
	mov	w11,#5243
	ubfx	w10,w8,#2,#14
	mul	w10,w10,w11
	mov	w11,#100
	lsr	w10,w10,#17
	msub	w8,w10,w11,w8
Lrtp_loh84:
	adrp	x11,lrtp__static.42@PAGE
Lrtp_loh85:
	add	x11,x11,lrtp__static.42@PAGEOFF
	ldrh	w10,[x11,w10,uxtw #1]
	strh	w10,[x12]
	and	x8,x8,#0xffff
	ldrh	w8,[x11,x8,lsl #1]
	strh	w8,[x12,#2]
	add	x8,x9,#4
22:
	mov	x11,#27936
	ldrb	w10,[sp,#216]
	add	x9,x25,x8
	movk	x11,#29281,lsl #16
	movk	x11,#25963,lsl #32
	movk	x11,#8306,lsl #48
	str	x11,[x9],#8
	tbz	w10,#0,11f
	mov	w10,#115
	mov	w11,#25977
	add	x8,x8,#11
	strb	w10,[x9,#2]
	strh	w11,[x9]
	b	19f
11:
	mov	w10,#28526
	add	x8,x8,#10
	strh	w10,[x9]
19:
	adrp	x9,lrtp__static.48@PAGE
	add	x9,x9,lrtp__static.48@PAGEOFF
	ldrb	w11,[sp,#201]
	ldr	x10,[x9]
	add	x9,x25,x8
	mov	w12,#32
	strb	w12,[x9,#8]
	str	x10,[x9]
	tbz	w11,#0,11f
	mov	w10,#115
	mov	w11,#25977
	add	x8,x8,#12
	sturb	w10,[x9,#11]
	sturh	w11,[x9,#9]
	b	19f
11:
	mov	w10,#28526
	add	x8,x8,#11
	sturh	w10,[x9,#9]
19:
	adrp	x9,lrtp__static.49@PAGE
	add	x9,x9,lrtp__static.49@PAGEOFF
	ldrb	w11,[sp,#202]
	ldr	x10,[x9]
	mov	w12,#28521
	add	x9,x25,x8
	movk	w12,#8302,lsl #16
	str	x10,[x9]
	stur	w12,[x9,#7]
	tbz	w11,#0,11f
	mov	w10,#115
	mov	w11,#25977
	sturb	w10,[x9,#13]
	sturh	w11,[x9,#11]
	add	x9,x8,#14
	b	19f
11:
	mov	w10,#28526
	sturh	w10,[x9,#11]
	add	x9,x8,#13
19:
	add	x10,x25,x9
	mov	w11,#8291
	ldr	x8,[sp,#208]
	strh	w11,[x10,#4]
	mov	w11,#25376
	movk	w11,#29299,lsl #16
	cmp	x8,x26
	str	w11,[x10]
	add	x10,x9,#6
	b.hs	11f
	lsr	x11,x8,#4
	cmp	x11,#624
	b.hi	19f
	cmp	x8,#99
	b.hi	20f
	cmp	x8,#9
	b.hi	21f
	orr	w8,w8,#0x30
	strb	w8,[x25,x10]
	add	x9,x9,#7
	b	22f
11:
	mov	x11,#1874919424
	movk	x11,#34546,lsl #32
	movk	x11,#35,lsl #48
	cmp	x8,x11
	b.hs	11f
	mov	x11,#52989
	mov	x12,#4096
	movk	x11,#33889,lsl #16
	movk	x12,#54437,lsl #16
	movk	x11,#30481,lsl #32
	movk	x12,#232,lsl #32
	movk	x11,#43980,lsl #48
	cmp	x8,x12
	umulh	x11,x8,x11
	lsr	x11,x11,#26
	b.hs	23f
	mov	x12,#58368
	movk	x12,#21515,lsl #16
	movk	x12,#2,lsl #32
	cmp	x8,x12
	b.hs	27f
	mov	w12,#51712
	movk	w12,#15258,lsl #16
	cmp	x8,x12
	b.hs	28f
	orr	w12,w11,#0x30
	strb	w12,[x25,x10]
	add	x9,x9,#7
	b	29f
19:
	mov	w11,#5977
	mov	w12,#16960
	movk	w11,#53687,lsl #16
	movk	w12,#15,lsl #16
	umull	x11,w8,w11
	cmp	x8,x12
	lsr	x11,x11,#45
	b.hs	19f
	mov	w12,#34464
	movk	w12,#1,lsl #16
	cmp	x8,x12
	b.hs	30f
	orr	w12,w11,#0x30
	strb	w12,[x25,x10]
	add	x9,x9,#7
	b	32f
11:
	mov	x11,#30807
	cmp	x8,x27
	movk	x11,#45331,lsl #16
	movk	x11,#25903,lsl #32
	movk	x11,#14757,lsl #48
	umulh	x11,x8,x11
	lsr	x11,x11,#51
	b.hs	11f
	mov	x12,#1569325056
	movk	x12,#17784,lsl #32
	movk	x12,#355,lsl #48
	cmp	x8,x12
	b.hs	33f
	orr	w11,w11,#0x30
	strb	w11,[x25,x10]
	add	x9,x9,#7
	b	34f
20:
	ubfx	w11,w8,#2,#14
	mov	w12,#5243
	cmp	x8,#999
	mul	w11,w11,w12
	lsr	w11,w11,#17
	b.hi	20f
	orr	w12,w11,#0x30
	strb	w12,[x25,x10]
	add	x9,x9,#7
	b	35f
23:
	mov	w12,#5977
	mov	x13,#16384
	movk	w12,#53687,lsl #16
	movk	x13,#4218,lsl #16
	umull	x12,w11,w12
	movk	x13,#23283,lsl #32
	cmp	x8,x13
	lsr	x12,x12,#45
	b.hs	23f
	mov	x13,#40960
	movk	x13,#20082,lsl #16
	movk	x13,#2328,lsl #32
	cmp	x8,x13
	b.hs	36f
	orr	w13,w12,#0x30
	strb	w13,[x25,x10]
	add	x9,x9,#7
	b	37f
19:
	ubfx	w12,w11,#2,#14
	mov	w13,#5243
	mul	w12,w12,w13
	mov	w13,#38528
	movk	w13,#152,lsl #16
	cmp	x8,x13
	lsr	w12,w12,#17
	b.hs	19f
	orr	w13,w12,#0x30
	strb	w13,[x25,x10]
	add	x9,x9,#7
	b	38f
11:
	mov	w12,#1311
	mov	x13,#2313682944
	mul	w12,w11,w12
	movk	x13,#8964,lsl #32
	movk	x13,#35527,lsl #48
	cmp	x8,x13
	lsr	w12,w12,#17
	b.hs	11f
	orr	w13,w12,#0x30
	strb	w13,[x25,x10]
	add	x9,x9,#7
	b	39f
21:
Lrtp_loh86:
	adrp	x11,lrtp__static.42@PAGE
Lrtp_loh87:
	add	x11,x11,lrtp__static.42@PAGEOFF
	add	x9,x9,#8
	ldrh	w8,[x11,x8,lsl #1]
	strh	w8,[x25,x10]
	b	22f
27:
	ubfx	w12,w11,#2,#14
	mov	w13,#5243
	mul	w12,w12,w13
	mov	x13,#59392
	movk	x13,#18550,lsl #16
	movk	x13,#23,lsl #32
	lsr	w12,w12,#17
	cmp	x8,x13
	b.hs	21f
	orr	w12,w12,#0x30
	strb	w12,[x25,x10]
	add	x9,x9,#7
	b	27f
30:
Lrtp_loh88:
	adrp	x12,lrtp__static.42@PAGE
Lrtp_loh89:
	add	x12,x12,lrtp__static.42@PAGEOFF
	add	x9,x9,#8
	ldrh	w12,[x12,w11,uxtw #1]
	strh	w12,[x25,x10]
	b	32f
33:
Lrtp_loh90:
	adrp	x12,lrtp__static.42@PAGE
Lrtp_loh91:
	add	x12,x12,lrtp__static.42@PAGEOFF
	add	x9,x9,#8
	ldrh	w11,[x12,x11,lsl #1]
	strh	w11,[x25,x10]
	b	34f
20:
Lrtp_loh92:
	adrp	x12,lrtp__static.42@PAGE
Lrtp_loh93:
	add	x12,x12,lrtp__static.42@PAGEOFF
	add	x9,x9,#8
	ldrh	w12,[x12,w11,uxtw #1]
	strh	w12,[x25,x10]
35:
	mov	w10,#100
	msub	w8,w11,w10,w8
Lrtp_loh94:
	adrp	x10,lrtp__static.42@PAGE
Lrtp_loh95:
	add	x10,x10,lrtp__static.42@PAGEOFF
	and	x8,x8,#0xffff
	ldrh	w8,[x10,x8,lsl #1]
	strh	w8,[x25,x9]
	add	x9,x9,#2
	b	22f
23:
	ubfx	w13,w12,#2,#14
	mov	w14,#5243
	mul	w13,w13,w14
	mov	x14,#1125899906809856
	movk	x14,#42182,lsl #16
	movk	x14,#36222,lsl #32
	lsr	w13,w13,#17
	cmp	x8,x14
	b.hs	20f
	orr	w14,w13,#0x30
	strb	w14,[x25,x10]
	add	x9,x9,#7
	b	23f
19:
Lrtp_loh96:
	adrp	x13,lrtp__static.42@PAGE
Lrtp_loh97:
	add	x13,x13,lrtp__static.42@PAGEOFF
	add	x9,x9,#8
	ldrh	w13,[x13,w12,uxtw #1]
	strh	w13,[x25,x10]
38:
	mov	w10,#100
	msub	w10,w12,w10,w11
Lrtp_loh98:
	adrp	x12,lrtp__static.42@PAGE
Lrtp_loh99:
	add	x12,x12,lrtp__static.42@PAGEOFF
	and	x10,x10,#0xffff
	ldrh	w10,[x12,x10,lsl #1]
	strh	w10,[x25,x9]
	add	x9,x9,#2
32:
	mov	w10,#10000
	add	x12,x25,x9
	add	x9,x9,#4
	msub	w8,w11,w10,w8
	mov	w11,#5243
	ubfx	w10,w8,#2,#14
	mul	w10,w10,w11
	mov	w11,#100
	lsr	w10,w10,#17
	msub	w8,w10,w11,w8
Lrtp_loh100:
	adrp	x11,lrtp__static.42@PAGE
Lrtp_loh101:
	add	x11,x11,lrtp__static.42@PAGEOFF
	ldrh	w10,[x11,w10,uxtw #1]
	strh	w10,[x12]
	and	x8,x8,#0xffff
	ldrh	w8,[x11,x8,lsl #1]
	strh	w8,[x12,#2]
	b	22f
11:
Lrtp_loh102:
	adrp	x13,lrtp__static.42@PAGE
Lrtp_loh103:
	add	x13,x13,lrtp__static.42@PAGEOFF
	add	x9,x9,#8
	ldrh	w13,[x13,w12,uxtw #1]
	strh	w13,[x25,x10]
39:
	mov	w10,#100
	msub	w10,w12,w10,w11
Lrtp_loh104:
	adrp	x11,lrtp__static.42@PAGE
Lrtp_loh105:
	add	x11,x11,lrtp__static.42@PAGEOFF
	and	x10,x10,#0xffff
	ldrh	w10,[x11,x10,lsl #1]
	strh	w10,[x25,x9]
	add	x9,x9,#2
34:
	mov	x10,#52989
	mov	w12,#57600
	mov	w15,#10000
	movk	x10,#33889,lsl #16
	movk	w12,#1525,lsl #16
	mov	w16,#5977
	movk	x10,#30481,lsl #32
	movk	w16,#53687,lsl #16
Lrtp_loh106:
	adrp	x0,lrtp__static.42@PAGE
Lrtp_loh107:
	add	x0,x0,lrtp__static.42@PAGEOFF
	movk	x10,#43980,lsl #48
	add	x1,x25,x9
	umulh	x10,x8,x10
	add	x9,x9,#16
	lsr	x11,x10,#26
	mov	x10,#35011
	movk	x10,#58939,lsl #16
	movk	x10,#85,lsl #32
	msub	w8,w11,w26,w8
	umulh	x10,x11,x10
	umull	x16,w8,w16
	lsr	x10,x10,#1
	umsubl	x12,w10,w12,x11
	mov	w10,#47291
	movk	w10,#1677,lsl #16
	mul	x10,x12,x10
	lsr	x13,x10,#40
	mov	w10,#5243
	mul	w14,w13,w10
	msub	w12,w13,w15,w12
	lsr	w11,w14,#19
	mov	w14,#100
	ubfx	w17,w12,#2,#14
	msub	w13,w11,w14,w13
	ldrh	w11,[x0,w11,uxtw #1]
	mul	w17,w17,w10
	strh	w11,[x1]
	and	x11,x13,#0xffff
	lsr	x13,x16,#45
	ldrh	w11,[x0,x11,lsl #1]
	lsr	w16,w17,#17
	ubfx	w17,w13,#2,#14
	msub	w8,w13,w15,w8
	strh	w11,[x1,#2]
	msub	w11,w16,w14,w12
	ldrh	w12,[x0,w16,uxtw #1]
	mul	w16,w17,w10
	ubfx	w15,w8,#2,#14
	strh	w12,[x1,#4]
	and	x11,x11,#0xffff
	ldrh	w11,[x0,x11,lsl #1]
	lsr	w12,w16,#17
	mul	w10,w15,w10
	strh	w11,[x1,#6]
	msub	w11,w12,w14,w13
	ldrh	w12,[x0,w12,uxtw #1]
	lsr	w10,w10,#17
	strh	w12,[x1,#8]
	and	x11,x11,#0xffff
	msub	w8,w10,w14,w8
	ldrh	w11,[x0,x11,lsl #1]
	strh	w11,[x1,#10]
	and	x8,x8,#0xffff
	ldrh	w10,[x0,w10,uxtw #1]
	strh	w10,[x1,#12]
	ldrh	w8,[x0,x8,lsl #1]
	strh	w8,[x1,#14]
	b	22f
10:
	tbnz	w19,#4,24b
	b	17b
31:
	ldp	x19,x20,[sp,#112]
	mov	x27,#2808348672
	movk	x27,#46771,lsl #32
	ldr	x8,[sp,#80]
	movk	x27,#3552,lsl #48
	cbz	x8,25f
	mov	x0,x23
	bl	_rattle_dealloc
25:
	mov	w8,#2
	movi.2d	v0,#0000000000000000
	ldr	x10,[sp,#152]
	strb	w8,[sp,#200]
	ldrb	w8,[x26]
	ubfx	w8,w8,#5,#1
	strb	w8,[sp,#201]
	ldrb	w8,[x26]
	ubfx	w8,w8,#4,#1
	strb	w8,[sp,#202]
	mov	x8,x26
	ldrb	w9,[x8],#12
	stur	q0,[x10,#44]
	stp	q0,q0,[x10,#16]
	and	x9,x9,#0xf
	str	q0,[x10]
	cbz	w9,10f
	ldr	x10,[sp,#152]
	mov	x11,x9
11:
	ldr	w12,[x8],#4
	subs	x11,x11,#1
	rev	w12,w12
	str	w12,[x10],#4
	b.ne	11b
10:
	str	x9,[sp,#208]
	ldrb	w8,[x26,#1]
	lsr	w8,w8,#7
	strb	w8,[sp,#216]
	ldrb	w8,[x26,#1]
	and	w8,w8,#0x7f
	strb	w8,[sp,#217]
	ldrh	w8,[x26,#2]
	rev	w9,w8
	lsr	w9,w9,#16
	strh	w9,[sp,#218]
	ldr	w9,[x26,#4]
	rev	w9,w9
	str	w9,[sp,#220]
	ldr	w9,[x26,#8]
	str	x19,[sp,#504]
	rev	w23,w9
	ldr	x9,[sp,#136]
	str	w23,[sp,#224]
	tbnz	w9,#4,10f
	rev16	w3,w8
	b	11f
10:
	ldrb	w8,[x26]
	ldr	x0,[sp,#104]
	ldr	w3,[sp,#128]
	ldr	x4,[sp,#144]
	ubfiz	x8,x8,#2,#4
	add	x8,x8,#16
	sub	x2,x19,x8
	add	x1,x26,x8
	bl	_rtp_ext.block_values.read_values.77e50c5f4ddfc773
	and	w8,w0,#0xff
	tbnz	w8,#0,10f
	mov	x27,#2808348672
	ldr	w23,[sp,#224]
	ldrh	w3,[sp,#218]
	movk	x27,#46771,lsl #32
	movk	x27,#3552,lsl #48
11:
	ldr	x24,[sp,#592]
	ldr	x14,[sp,#552]
	mov	w26,#57600
	ldr	x8,[sp,#544]
	movk	w26,#1525,lsl #16
	cmp	x24,x14
	b.hs	11f
	lsl	x9,x24,#6
	ldr	w9,[x8,x9]
	cmp	w9,w23
	b.ne	11f
	ldp	x25,x22,[sp,#160]
	add	x9,x8,x24,lsl #6
	ldrb	w8,[x9,#16]
	cbnz	w8,17f
19:
	ldr	x8,[x9,#24]
Lrtp_loh108:
	adrp	x10,lrtp_CPI5_2@PAGE
	mov	w5,#1
Lrtp_loh109:
	ldr	q0,[x10,lrtp_CPI5_2@PAGEOFF]
	stp	x5,xzr,[x9,#48]
	bfi	x3,x8,#16,#48
	mov	w8,w5
	str	q0,[x9,#16]
	stp	x3,xzr,[x9,#32]
	b	3b
11:
	ldr	x9,[sp,#608]
	cbz	x9,11f
	mov	w10,#31153
	ldr	x25,[sp,#160]
	movk	w10,#40503,lsl #16
	mul	w10,w23,w10
	mul	x10,x9,x10
	lsr	x10,x10,#32
	cmp	x10,x9
	b.hs	24f
	ldr	x9,[sp,#600]
	dup.4s	v0,w23
	add	x9,x9,x10,lsl #5
	ldr	q1,[x9]
	cmeq.4s	v0,v1,v0
	umaxv.4s	s1,v0
	fmov	w10,s1
	tbz	w10,#0,24f
Lrtp_loh110:
	adrp	x10,lrtp_CPI5_1@PAGE
Lrtp_loh111:
	ldr	q1,[x10,lrtp_CPI5_1@PAGEOFF]
	and.16b	v0,v0,v1
	addv.4s	s0,v0
	fmov	w10,s0
	rbit	w10,w10
	clz	w10,w10
	and	x10,x10,#0xf
	add	x9,x9,x10,lsl #2
	ldr	w24,[x9,#16]
	cmp	x14,x24
	b.ls	24f
	lsl	x9,x24,#6
	ldr	w9,[x8,x9]
	cmp	w9,w23
	b.ne	24f
25:
	str	x24,[sp,#592]
	ldr	x22,[sp,#168]
	add	x9,x8,x24,lsl #6
	ldrb	w8,[x9,#16]
	cbnz	w8,17f
	b	19b
11:
	ldr	x25,[sp,#160]
	cmp	x14,#16
	b.hi	24f
	cbz	x14,11f
	mov	x24,xzr
	mov	x9,x8
30:
	ldr	w10,[x9],#64
	cmp	w10,w23
	b.eq	25b
	add	x24,x24,#1
	cmp	x14,x24
	b.ne	30b
	b	11f
24:
	ldrb	w9,[sp,#568]
	cmp	w9,#1
	b.ne	11f
	add	x9,sp,#536
	add	x9,x9,#40
	ldr	x9,[x9]
	ldr	x22,[sp,#168]
	mov	x10,xzr
	ldrh	w11,[x9]
	cbz	x11,24f
25:
	add	x12,x9,#64
30:
	add	x13,x12,x10,lsl #2
	ldur	w13,[x13,#-60]
	cmp	w23,w13
	mov	w13,#2
	csel	w13,wzr,w13,lo
	csinc	w13,w13,wzr,ne
	cmp	w13,#2
	b.ne	31f
	add	x10,x10,#1
	cmp	x11,x10
	b.ne	30b
	mov	x10,x11
	b	30f
31:
	cbnz	w13,31f
30:
	lsl	x10,x10,#3
24:
	ldrh	w11,[x9,#2]
	cbz	w11,11f
	add	x9,x9,x10
	add	x9,x9,#184
	ldr	x9,[x9]
	ldr	x22,[sp,#168]
	mov	x10,xzr
	ldrh	w11,[x9]
	cbnz	x11,25b
	b	24b
11:
	ldr	x8,[sp,#560]
	ldr	x25,[sp,#536]
	cmp	x8,x14
	b.eq	11f
	ldrb	w8,[sp,#568]
	cmp	w8,#1
	b.ne	24f
25:
	ldr	x1,[sp,#576]
	b	30f
31:
	add	x9,x9,x10,lsl #3
	ldr	x10,[sp,#624]
	ldr	x24,[x9,#64]
	sub	x9,x10,#1
	str	x9,[sp,#624]
	str	x24,[sp,#592]
	cbz	x10,31f
	add	x9,x8,x24,lsl #6
	ldrb	w8,[x9,#16]
	cbz	w8,19b
17:
	ldr	x8,[x9,#32]
	sub	w10,w3,w8
	add	x3,x8,w10,uxth
	tbnz	w10,#15,32f
	subs	x10,x8,x3
	b.hs	33f
34:
	ldp	x10,x11,[x9,#48]
	sub	x8,x3,x8
	cmp	x8,#1
	b.ne	35f
	mov	w12,#1
	extr	x8,x11,x10,#63
	orr	x10,x12,x10,lsl #1
	b	38f
28:
Lrtp_loh112:
	adrp	x12,lrtp__static.42@PAGE
Lrtp_loh113:
	add	x12,x12,lrtp__static.42@PAGEOFF
	add	x9,x9,#8
	ldrh	w12,[x12,x11,lsl #1]
	strh	w12,[x25,x10]
	b	29f
36:
Lrtp_loh114:
	adrp	x13,lrtp__static.42@PAGE
Lrtp_loh115:
	add	x13,x13,lrtp__static.42@PAGEOFF
	add	x9,x9,#8
	ldrh	w13,[x13,w12,uxtw #1]
	strh	w13,[x25,x10]
	b	37f
21:
Lrtp_loh116:
	adrp	x13,lrtp__static.42@PAGE
Lrtp_loh117:
	add	x13,x13,lrtp__static.42@PAGEOFF
	add	x9,x9,#8
	ldrh	w12,[x13,w12,uxtw #1]
	strh	w12,[x25,x10]
27:
	mov	w10,#34079
	mov	w12,#100
	movk	w10,#20971,lsl #16
	umull	x10,w11,w10
	lsr	x10,x10,#37
	msub	w10,w10,w12,w11
Lrtp_loh118:
	adrp	x12,lrtp__static.42@PAGE
Lrtp_loh119:
	add	x12,x12,lrtp__static.42@PAGEOFF
	ldrh	w10,[x12,w10,uxtw #1]
	strh	w10,[x25,x9]
	add	x9,x9,#2
	b	29f
20:
Lrtp_loh120:
	adrp	x14,lrtp__static.42@PAGE
Lrtp_loh121:
	add	x14,x14,lrtp__static.42@PAGEOFF
	add	x9,x9,#8
	ldrh	w14,[x14,w13,uxtw #1]
	strh	w14,[x25,x10]
23:
	mov	w10,#100
	msub	w10,w13,w10,w12
Lrtp_loh122:
	adrp	x13,lrtp__static.42@PAGE
Lrtp_loh123:
	add	x13,x13,lrtp__static.42@PAGEOFF
	and	x10,x10,#0xffff
	ldrh	w10,[x13,x10,lsl #1]
	strh	w10,[x25,x9]
	add	x9,x9,#2
37:
	mov	w10,#10000
	mov	w13,#5243
	add	x14,x25,x9
	msub	w10,w12,w10,w11
	add	x9,x9,#4
	ubfx	w12,w10,#2,#14
	mul	w12,w12,w13
	mov	w13,#100
	lsr	w12,w12,#17
	msub	w10,w12,w13,w10
Lrtp_loh124:
	adrp	x13,lrtp__static.42@PAGE
Lrtp_loh125:
	add	x13,x13,lrtp__static.42@PAGEOFF
	ldrh	w12,[x13,w12,uxtw #1]
	strh	w12,[x14]
	and	x10,x10,#0xffff
	ldrh	w10,[x13,x10,lsl #1]
	strh	w10,[x14,#2]
29:
	mov	w10,#57600
	mov	w13,#10000
Lrtp_loh126:
	adrp	x15,lrtp__static.42@PAGE
Lrtp_loh127:
	add	x15,x15,lrtp__static.42@PAGEOFF
	movk	w10,#1525,lsl #16
	msub	x8,x11,x10,x8
	mov	w10,#47291
	mov	w11,#5243
	movk	w10,#1677,lsl #16
	mul	x10,x8,x10
	lsr	x10,x10,#40
	mul	w12,w10,w11
	msub	w8,w10,w13,w8
	mov	w13,#100
	lsr	w12,w12,#19
	ubfx	w14,w8,#2,#14
	msub	w10,w12,w13,w10
	ldrh	w12,[x15,w12,uxtw #1]
	mul	w11,w14,w11
	add	x14,x25,x9
	add	x9,x9,#8
	strh	w12,[x14]
	and	x10,x10,#0xffff
	ldrh	w10,[x15,x10,lsl #1]
	lsr	w11,w11,#17
	strh	w10,[x14,#2]
	msub	w8,w11,w13,w8
	ldrh	w10,[x15,w11,uxtw #1]
	strh	w10,[x14,#4]
	and	x8,x8,#0xffff
	ldrh	w8,[x15,x8,lsl #1]
	strh	w8,[x14,#6]
22:
	mov	x10,#26656
	ldr	x8,[sp,#504]
	movk	x10,#24933,lsl #16
	movk	x10,#25956,lsl #32
	cmp	x8,x26
	movk	x10,#8306,lsl #48
	str	x10,[x25,x9]
	add	x10,x9,#8
	b.hs	20f
	lsr	x11,x8,#4
	cmp	x11,#624
	b.hi	21f
	cmp	x8,#99
	b.hi	22f
	cmp	x8,#9
	b.hi	23f
	orr	w8,w8,#0x30
	strb	w8,[x25,x10]
	add	x8,x9,#9
	ldrb	w9,[sp,#438]
	cmp	w9,#1
	b.eq	27f
28:
	ldrb	w9,[sp,#420]
	cmp	w9,#1
	b.ne	29f
36:
	add	x9,sp,#200
	add	x10,x25,x8
	mov	w11,#32
	ldur	x9,[x9,#221]
	strb	w11,[x10,#4]
	mov	w11,#29216
	movk	w11,#25705,lsl #16
	add	x19,x8,#5
	and	x12,x9,#0xff
	str	w11,[x10]
	cmp	x12,#32
	str	x9,[sp,#656]
	b.ne	37f
	add	x8,xzr,x19
	ldrb	w9,[sp,#429]
	cmp	w9,#1
	b.ne	39f
	b	40f
20:
	mov	x11,#1874919424
	movk	x11,#34546,lsl #32
	movk	x11,#35,lsl #48
	cmp	x8,x11
	b.hs	20f
	mov	x11,#52989
	mov	x12,#4096
	movk	x11,#33889,lsl #16
	movk	x12,#54437,lsl #16
	movk	x11,#30481,lsl #32
	movk	x12,#232,lsl #32
	movk	x11,#43980,lsl #48
	cmp	x8,x12
	umulh	x11,x8,x11
	lsr	x11,x11,#26
	b.hs	41f
	mov	x12,#58368
	movk	x12,#21515,lsl #16
	movk	x12,#2,lsl #32
	cmp	x8,x12
	b.hs	42f
	mov	w12,#51712
	movk	w12,#15258,lsl #16
	cmp	x8,x12
	b.hs	43f
	orr	w12,w11,#0x30
	strb	w12,[x25,x10]
	add	x9,x9,#9
	b	44f
21:
	mov	w11,#5977
	mov	w12,#16960
	movk	w11,#53687,lsl #16
	movk	w12,#15,lsl #16
	umull	x11,w8,w11
	cmp	x8,x12
	lsr	x11,x11,#45
	b.hs	21f
	mov	w12,#34464
	movk	w12,#1,lsl #16
	cmp	x8,x12
	b.hs	45f
	orr	w12,w11,#0x30
	strb	w12,[x25,x10]
	add	x9,x9,#9
	b	46f
37:
	and	x8,x9,#0xff00
	cmp	x8,#2,lsl #12
	b.ne	37f
	mov	x26,x5
	mov	x24,x27
	mov	x27,x3
	mov	w22,#1
	b	47f
20:
	mov	x11,#30807
	cmp	x8,x27
	movk	x11,#45331,lsl #16
	movk	x11,#25903,lsl #32
	movk	x11,#14757,lsl #48
	umulh	x11,x8,x11
	lsr	x11,x11,#51
	b.hs	20f
	mov	x12,#1569325056
	movk	x12,#17784,lsl #32
	movk	x12,#355,lsl #48
	cmp	x8,x12
	b.hs	48f
	orr	w11,w11,#0x30
	strb	w11,[x25,x10]
	add	x9,x9,#9
	b	49f
22:
	ubfx	w11,w8,#2,#14
	mov	w12,#5243
	cmp	x8,#999
	mul	w11,w11,w12
	lsr	w11,w11,#17
	b.hi	22f
	orr	w12,w11,#0x30
	strb	w12,[x25,x10]
	add	x9,x9,#9
	b	50f
41:
	mov	w12,#5977
	mov	x13,#16384
	movk	w12,#53687,lsl #16
	movk	x13,#4218,lsl #16
	umull	x12,w11,w12
	movk	x13,#23283,lsl #32
	cmp	x8,x13
	lsr	x12,x12,#45
	b.hs	41f
	mov	x13,#40960
	movk	x13,#20082,lsl #16
	movk	x13,#2328,lsl #32
	cmp	x8,x13
	b.hs	51f
	orr	w13,w12,#0x30
	strb	w13,[x25,x10]
	add	x9,x9,#9
	b	52f
21:
	ubfx	w12,w11,#2,#14
	mov	w13,#5243
	mul	w12,w12,w13
	mov	w13,#38528
	movk	w13,#152,lsl #16
	cmp	x8,x13
	lsr	w12,w12,#17
	b.hs	21f
	orr	w13,w12,#0x30
	strb	w13,[x25,x10]
	add	x9,x9,#9
	b	53f
37:
	and	x8,x9,#0xff0000
	cmp	x8,#512,lsl #12
	b.ne	37f
	mov	x26,x5
	mov	x24,x27
	mov	x27,x3
	mov	w22,#2
	b	47f
20:
	mov	w12,#1311
	mov	x13,#2313682944
	mul	w12,w11,w12
	movk	x13,#8964,lsl #32
	movk	x13,#35527,lsl #48
	cmp	x8,x13
	lsr	w12,w12,#17
	b.hs	20f
	orr	w13,w12,#0x30
	strb	w13,[x25,x10]
	add	x9,x9,#9
	b	54f
23:
Lrtp_loh128:
	adrp	x11,lrtp__static.42@PAGE
Lrtp_loh129:
	add	x11,x11,lrtp__static.42@PAGEOFF
	ldrh	w8,[x11,x8,lsl #1]
	strh	w8,[x25,x10]
	add	x8,x9,#10
	ldrb	w9,[sp,#438]
	cmp	w9,#1
	b.eq	27f
	b	28b
42:
	ubfx	w12,w11,#2,#14
	mov	w13,#5243
	mul	w12,w12,w13
	mov	x13,#59392
	movk	x13,#18550,lsl #16
	movk	x13,#23,lsl #32
	lsr	w12,w12,#17
	cmp	x8,x13
	b.hs	23f
	orr	w12,w12,#0x30
	strb	w12,[x25,x10]
	add	x9,x9,#9
	b	42f
45:
Lrtp_loh130:
	adrp	x12,lrtp__static.42@PAGE
Lrtp_loh131:
	add	x12,x12,lrtp__static.42@PAGEOFF
	add	x9,x9,#10
	ldrh	w12,[x12,w11,uxtw #1]
	strh	w12,[x25,x10]
	b	46f
48:
Lrtp_loh132:
	adrp	x12,lrtp__static.42@PAGE
Lrtp_loh133:
	add	x12,x12,lrtp__static.42@PAGEOFF
	add	x9,x9,#10
	ldrh	w11,[x12,x11,lsl #1]
	strh	w11,[x25,x10]
	b	49f
22:
Lrtp_loh134:
	adrp	x12,lrtp__static.42@PAGE
Lrtp_loh135:
	add	x12,x12,lrtp__static.42@PAGEOFF
	add	x9,x9,#10
	ldrh	w12,[x12,w11,uxtw #1]
	strh	w12,[x25,x10]
50:
	mov	w10,#100
	msub	w8,w11,w10,w8
Lrtp_loh136:
	adrp	x10,lrtp__static.42@PAGE
Lrtp_loh137:
	add	x10,x10,lrtp__static.42@PAGEOFF
	and	x8,x8,#0xffff
	ldrh	w8,[x10,x8,lsl #1]
	strh	w8,[x25,x9]
	add	x8,x9,#2
	ldrb	w9,[sp,#438]
	cmp	w9,#1
	b.eq	27f
	b	28b
41:
	ubfx	w13,w12,#2,#14
	mov	w14,#5243
	mul	w13,w13,w14
	mov	x14,#1125899906809856
	movk	x14,#42182,lsl #16
	movk	x14,#36222,lsl #32
	lsr	w13,w13,#17
	cmp	x8,x14
	b.hs	22f
	orr	w14,w13,#0x30
	strb	w14,[x25,x10]
	add	x9,x9,#9
	b	41f
21:
Lrtp_loh138:
	adrp	x13,lrtp__static.42@PAGE
Lrtp_loh139:
	add	x13,x13,lrtp__static.42@PAGEOFF
	add	x9,x9,#10
	ldrh	w13,[x13,w12,uxtw #1]
	strh	w13,[x25,x10]
53:
	mov	w10,#100
	msub	w10,w12,w10,w11
Lrtp_loh140:
	adrp	x12,lrtp__static.42@PAGE
Lrtp_loh141:
	add	x12,x12,lrtp__static.42@PAGEOFF
	and	x10,x10,#0xffff
	ldrh	w10,[x12,x10,lsl #1]
	strh	w10,[x25,x9]
	add	x9,x9,#2
46:
	mov	w10,#10000
	add	x12,x25,x9
	msub	w8,w11,w10,w8
	mov	w11,#5243
	ubfx	w10,w8,#2,#14
	mul	w10,w10,w11
	mov	w11,#100
	lsr	w10,w10,#17
	msub	w8,w10,w11,w8
Lrtp_loh142:
	adrp	x11,lrtp__static.42@PAGE
Lrtp_loh143:
	add	x11,x11,lrtp__static.42@PAGEOFF
	ldrh	w10,[x11,w10,uxtw #1]
	strh	w10,[x12]
	and	x8,x8,#0xffff
	ldrh	w8,[x11,x8,lsl #1]
	strh	w8,[x12,#2]
	add	x8,x9,#4
	ldrb	w9,[sp,#438]
	cmp	w9,#1
	b.eq	27f
	b	28b
37:
	and	x8,x9,#0xff000000
	mov	w10,#536870912
	cmp	x8,x10
	b.ne	21f
	mov	x26,x5
	mov	x24,x27
	mov	x27,x3
	mov	w22,#3
	b	47f
20:
Lrtp_loh144:
	adrp	x13,lrtp__static.42@PAGE
Lrtp_loh145:
	add	x13,x13,lrtp__static.42@PAGEOFF
	add	x9,x9,#10
	ldrh	w13,[x13,w12,uxtw #1]
	strh	w13,[x25,x10]
54:
	mov	w10,#100
	msub	w10,w12,w10,w11
Lrtp_loh146:
	adrp	x11,lrtp__static.42@PAGE
Lrtp_loh147:
	add	x11,x11,lrtp__static.42@PAGEOFF
	and	x10,x10,#0xffff
	ldrh	w10,[x11,x10,lsl #1]
	strh	w10,[x25,x9]
	add	x9,x9,#2
49:
	mov	x10,#52989
	mov	w12,#57600
	mov	w15,#10000
	movk	x10,#33889,lsl #16
	movk	w12,#1525,lsl #16
	mov	w16,#5977
	movk	x10,#30481,lsl #32
	movk	w16,#53687,lsl #16
Lrtp_loh148:
	adrp	x0,lrtp__static.42@PAGE
Lrtp_loh149:
	add	x0,x0,lrtp__static.42@PAGEOFF
	movk	x10,#43980,lsl #48
	add	x1,x25,x9
	umulh	x10,x8,x10
	lsr	x11,x10,#26
	mov	x10,#35011
	movk	x10,#58939,lsl #16
	movk	x10,#85,lsl #32
	msub	w8,w11,w26,w8
	umulh	x10,x11,x10
	umull	x16,w8,w16
	lsr	x10,x10,#1
	umsubl	x12,w10,w12,x11
	mov	w10,#47291
	movk	w10,#1677,lsl #16
	mul	x10,x12,x10
	lsr	x13,x10,#40
	mov	w10,#5243
	mul	w14,w13,w10
	msub	w12,w13,w15,w12
	lsr	w11,w14,#19
	mov	w14,#100
	ubfx	w17,w12,#2,#14
	msub	w13,w11,w14,w13
	ldrh	w11,[x0,w11,uxtw #1]
	mul	w17,w17,w10
	strh	w11,[x1]
	and	x11,x13,#0xffff
	lsr	x13,x16,#45
	ldrh	w11,[x0,x11,lsl #1]
	lsr	w16,w17,#17
	ubfx	w17,w13,#2,#14
	msub	w8,w13,w15,w8
	strh	w11,[x1,#2]
	msub	w11,w16,w14,w12
	ldrh	w12,[x0,w16,uxtw #1]
	mul	w16,w17,w10
	ubfx	w15,w8,#2,#14
	strh	w12,[x1,#4]
	and	x11,x11,#0xffff
	ldrh	w11,[x0,x11,lsl #1]
	lsr	w12,w16,#17
	mul	w10,w15,w10
	strh	w11,[x1,#6]
	msub	w11,w12,w14,w13
	ldrh	w12,[x0,w12,uxtw #1]
	lsr	w10,w10,#17
	strh	w12,[x1,#8]
	and	x11,x11,#0xffff
	msub	w8,w10,w14,w8
	ldrh	w11,[x0,x11,lsl #1]
	strh	w11,[x1,#10]
	and	x8,x8,#0xffff
	ldrh	w10,[x0,w10,uxtw #1]
	strh	w10,[x1,#12]
	ldrh	w8,[x0,x8,lsl #1]
	strh	w8,[x1,#14]
	add	x8,x9,#16
	ldrb	w9,[sp,#438]
	cmp	w9,#1
	b.eq	27f
	b	28b
43:
Lrtp_loh150:
	adrp	x12,lrtp__static.42@PAGE
Lrtp_loh151:
	add	x12,x12,lrtp__static.42@PAGEOFF
	add	x9,x9,#10
	ldrh	w12,[x12,x11,lsl #1]
	strh	w12,[x25,x10]
	b	44f
51:
Lrtp_loh152:
	adrp	x13,lrtp__static.42@PAGE
Lrtp_loh153:
	add	x13,x13,lrtp__static.42@PAGEOFF
	add	x9,x9,#10
	ldrh	w13,[x13,w12,uxtw #1]
	strh	w13,[x25,x10]
	b	52f
23:
Lrtp_loh154:
	adrp	x13,lrtp__static.42@PAGE
Lrtp_loh155:
	add	x13,x13,lrtp__static.42@PAGEOFF
	add	x9,x9,#10
	ldrh	w12,[x13,w12,uxtw #1]
	strh	w12,[x25,x10]
42:
	mov	w10,#34079
	mov	w12,#100
	movk	w10,#20971,lsl #16
	umull	x10,w11,w10
	lsr	x10,x10,#37
	msub	w10,w10,w12,w11
Lrtp_loh156:
	adrp	x12,lrtp__static.42@PAGE
Lrtp_loh157:
	add	x12,x12,lrtp__static.42@PAGEOFF
	ldrh	w10,[x12,w10,uxtw #1]
	strh	w10,[x25,x9]
	add	x9,x9,#2
	b	44f
22:
Lrtp_loh158:
	adrp	x14,lrtp__static.42@PAGE
Lrtp_loh159:
	add	x14,x14,lrtp__static.42@PAGEOFF
	add	x9,x9,#10
	ldrh	w14,[x14,w13,uxtw #1]
	strh	w14,[x25,x10]
41:
	mov	w10,#100
	msub	w10,w13,w10,w12
Lrtp_loh160:
	adrp	x13,lrtp__static.42@PAGE
Lrtp_loh161:
	add	x13,x13,lrtp__static.42@PAGEOFF
	and	x10,x10,#0xffff
	ldrh	w10,[x13,x10,lsl #1]
	strh	w10,[x25,x9]
	add	x9,x9,#2
52:
	mov	w10,#10000
	mov	w13,#5243
	add	x14,x25,x9
	msub	w10,w12,w10,w11
	add	x9,x9,#4
	ubfx	w12,w10,#2,#14
	mul	w12,w12,w13
	mov	w13,#100
	lsr	w12,w12,#17
	msub	w10,w12,w13,w10
Lrtp_loh162:
	adrp	x13,lrtp__static.42@PAGE
Lrtp_loh163:
	add	x13,x13,lrtp__static.42@PAGEOFF
	ldrh	w12,[x13,w12,uxtw #1]
	strh	w12,[x14]
	and	x10,x10,#0xffff
	ldrh	w10,[x13,x10,lsl #1]
	strh	w10,[x14,#2]
44:
	mov	w10,#57600
	mov	w13,#10000
Lrtp_loh164:
	adrp	x15,lrtp__static.42@PAGE
Lrtp_loh165:
	add	x15,x15,lrtp__static.42@PAGEOFF
	movk	w10,#1525,lsl #16
	msub	x8,x11,x10,x8
	mov	w10,#47291
	mov	w11,#5243
	movk	w10,#1677,lsl #16
	mul	x10,x8,x10
	lsr	x10,x10,#40
	mul	w12,w10,w11
	msub	w8,w10,w13,w8
	mov	w13,#100
	lsr	w12,w12,#19
	ubfx	w14,w8,#2,#14
	msub	w10,w12,w13,w10
	ldrh	w12,[x15,w12,uxtw #1]
	mul	w11,w14,w11
	add	x14,x25,x9
	strh	w12,[x14]
	and	x10,x10,#0xffff
	ldrh	w10,[x15,x10,lsl #1]
	lsr	w11,w11,#17
	strh	w10,[x14,#2]
	msub	w8,w11,w13,w8
	ldrh	w10,[x15,w11,uxtw #1]
	strh	w10,[x14,#4]
	and	x8,x8,#0xffff
	ldrh	w8,[x15,x8,lsl #1]
	strh	w8,[x14,#6]
	add	x8,x9,#8
	ldrb	w9,[sp,#438]
	cmp	w9,#1
	b.ne	28b
27:
	movi.16b	v0,#32
	add	x9,sp,#200
	mov	w10,#32
	ldur	q1,[x9,#239]
	add	x9,x25,x8
	add	x19,x8,#5
	strb	w10,[x9,#4]
	mov	w10,#27936
	movk	w10,#25705,lsl #16
	str	q1,[sp,#656]
	cmeq.16b	v0,v1,v0
	str	w10,[x9]
	mvn.16b	v0,v0
	sshll2.8h	v2,v0,#0
	sshll.8h	v3,v0,#0
	umaxv.16b	b0,v0
	saddl2.4s	v4,v3,v2
	saddl.4s	v2,v3,v2
	fmov	w10,s0
	add.4s	v2,v2,v4
	addv.4s	s2,v2
	fmov	w9,s2
	neg	w22,w9
	tbz	w10,#0,20f
	add	x0,x25,x19
	add	x1,sp,#656
	mov	x2,x22
	mov	x24,x27
	mov	x27,x3
	mov	x26,x5
	bl	_memcpy
	mov	x5,x26
	mov	w26,#57600
	mov	x3,x27
	movk	w26,#1525,lsl #16
	mov	x27,x24
20:
	add	x8,x19,x22
	ldrb	w9,[sp,#420]
	cmp	w9,#1
	b.eq	36b
29:
	ldrb	w9,[sp,#429]
	cmp	w9,#1
	b.ne	39f
40:
	add	x9,sp,#200
	adrp	x10,lrtp__static.56@PAGE
	add	x10,x10,lrtp__static.56@PAGEOFF
	ldur	x9,[x9,#230]
	ldr	x10,[x10]
	add	x11,x25,x8
	add	x19,x8,#10
	and	x12,x9,#0xff
	str	x10,[x11]
	mov	w10,#8292
	cmp	x12,#32
	strh	w10,[x11,#8]
	str	x9,[sp,#656]
	b.ne	20f
	add	x8,xzr,x19
	ldrb	w9,[sp,#288]
	cmp	w9,#1
	b.ne	22f
	b	23f
20:
	and	x8,x9,#0xff00
	cmp	x8,#2,lsl #12
	b.ne	20f
	mov	x26,x5
	mov	x24,x27
	mov	x27,x3
	mov	w22,#1
	b	27f
20:
	and	x8,x9,#0xff0000
	cmp	x8,#512,lsl #12
	b.ne	20f
	mov	x26,x5
	mov	x24,x27
	mov	x27,x3
	mov	w22,#2
	b	27f
20:
	and	x8,x9,#0xff000000
	mov	w10,#536870912
	cmp	x8,x10
	b.ne	20f
	mov	x26,x5
	mov	x24,x27
	mov	x27,x3
	mov	w22,#3
	b	27f
21:
	and	x8,x9,#0xff00000000
	mov	x10,#137438953472
	cmp	x8,x10
	b.ne	21f
	mov	x26,x5
	mov	x24,x27
	mov	x27,x3
	mov	w22,#4
	b	47f
20:
	and	x8,x9,#0xff00000000
	mov	x10,#137438953472
	cmp	x8,x10
	b.ne	20f
	mov	x26,x5
	mov	x24,x27
	mov	x27,x3
	mov	w22,#4
	b	27f
12:
	add	x0,sp,#512
	mov	x20,x1
	bl	_rtp_std_alloc.vec.Vec.grow_amortized.9d744d77114e6601
	cbz	w0,10f
	mov	x27,#2808348672
	ldr	x8,[sp,#520]
	ldr	x19,[sp,#528]
	movk	x27,#46771,lsl #32
	mov	x1,x20
	movk	x27,#3552,lsl #48
	add	x20,x8,x20
	ldr	x26,[sp,#512]
	cmp	x8,x20
	b.lo	14b
	b	13b
7:
	add	x0,sp,#512
	mov	x20,x1
	bl	_rtp_std_alloc.vec.Vec.grow_amortized.9d744d77114e6601
	cbz	w0,10f
	ldr	x8,[sp,#520]
	ldr	x22,[sp,#528]
	mov	x1,x20
	ldr	x25,[sp,#160]
	add	x20,x8,x20
	ldr	x26,[sp,#512]
	cmp	x8,x20
	b.lo	9b
	b	8b
32:
	sxth	w10,w10
	sub	x11,x3,#16,lsl #12
	cmn	w10,#8,lsl #12
	and	x10,x8,#0x8000
	ccmp	x10,#0,#0,eq
	csel	x3,x3,x11,eq
	subs	x10,x8,x3
	b.lo	34b
33:
	cmp	x10,#127
	b.ls	7f
	mov	x3,xzr
	mov	w5,#2
	mov	w8,#1
	b	3b
21:
	and	x8,x9,#0xff0000000000
	mov	x10,#35184372088832
	cmp	x8,x10
	b.ne	8f
	mov	x26,x5
	mov	x24,x27
	mov	x27,x3
	mov	w22,#5
	b	47f
20:
	and	x8,x9,#0xff0000000000
	mov	x10,#35184372088832
	cmp	x8,x10
	b.ne	9f
	mov	x26,x5
	mov	x24,x27
	mov	x27,x3
	mov	w22,#5
	b	27f
31:
	add	x8,sp,#536
	mov	w2,w23
	mov	x19,x3
	add	x0,x8,#56
	add	x1,x8,#8
	mov	x3,x24
	bl	_rtp_receive.hints.Hints.learn_now
	ldr	x8,[sp,#544]
	mov	x3,x19
	add	x9,x8,x24,lsl #6
	ldrb	w8,[x9,#16]
	cbnz	w8,17b
	b	19b
15:
	add	x0,sp,#512
	mov	x20,x1
	bl	_rtp_std_alloc.vec.Vec.grow_amortized.9d744d77114e6601
	cbz	w0,10f
	mov	x27,#2808348672
	ldr	x19,[sp,#528]
	ldr	x8,[sp,#520]
	ldr	x26,[sp,#512]
	movk	x27,#46771,lsl #32
	mov	x1,x20
	movk	x27,#3552,lsl #48
	add	x20,x8,x20
	cmp	x8,x20
	b.lo	18b
	b	16b
35:
	cmp	x8,#127
	b.hi	12f
	lsr	x12,x10,#1
	mvn	w13,w8
	lsl	x11,x11,x8
	lsl	x10,x10,x8
	tst	x8,#0x40
	lsr	x12,x12,x13
	orr	x8,x11,x12
	csel	x11,xzr,x10,ne
	csel	x8,x10,x8,ne
	orr	x10,x11,#0x1
	b	38f
7:
	mov	w8,#1
	tst	x10,#0x40
	lsl	x13,x8,x10
	ldp	x10,x11,[x9,#48]
	csel	x12,xzr,x13,ne
	csel	x13,x13,xzr,ne
	and	x14,x11,x13
	and	x15,x10,x12
	orr	x14,x15,x14
	cbz	x14,7f
	mov	x3,xzr
	mov	w5,#2
	b	3b
8:
	and	x8,x9,#0xff000000000000
	mov	x10,#9007199254740992
	mov	x24,x27
	mov	x26,x5
	mov	x27,x3
	cmp	x8,x10
	b.ne	8f
	mov	w22,#6
	b	47f
9:
	and	x8,x9,#0xff000000000000
	mov	x10,#9007199254740992
	mov	x24,x27
	mov	x26,x5
	mov	x27,x3
	cmp	x8,x10
	b.ne	9f
	mov	w22,#6
	b	27f
12:
	mov	x8,xzr
	mov	w10,#1
38:
	stp	x10,x8,[x9,#48]
	mov	w8,#1
	mov	w5,#1
	str	x3,[x9,#32]
	b	3b
7:
	orr	x10,x10,x12
	orr	x11,x11,x13
	mov	w8,#1
	stp	x10,x11,[x9,#48]
	mov	w5,w8
	b	3b
8:
	lsr	x8,x9,#56
	cmp	x8,#32
	mov	w8,#7
	cinc	x22,x8,ne
47:
	add	x0,x25,x19
	add	x1,sp,#656
	mov	x2,x22
	bl	_memcpy
	mov	x5,x26
	mov	w26,#57600
	mov	x3,x27
	mov	x27,x24
	movk	w26,#1525,lsl #16
	add	x8,x22,x19
	ldrb	w9,[sp,#429]
	cmp	w9,#1
	b.eq	40b
39:
	ldrb	w9,[sp,#288]
	cmp	w9,#1
	b.ne	22f
23:
	mov	w11,#25974
	add	x9,x25,x8
	ldrsb	w10,[sp,#289]
	movk	w11,#8300,lsl #16
	stur	w11,[x9,#3]
	mov	w11,#27680
	movk	w11,#30309,lsl #16
	str	w11,[x9]
	add	x9,x8,#7
	tbnz	w10,#31,7f
	cmp	w10,#0
	cneg	w8,w10,mi
	cmp	w8,#99
	b.hi	8f
12:
	and	w10,w8,#0xff
	cmp	w10,#9
	b.hi	13f
	orr	w8,w8,#0x30
	strb	w8,[x25,x9]
	add	x8,x9,#1
	ldrb	w9,[sp,#290]
	cmp	w9,#1
	b.ne	14f
	b	15f
7:
	mov	w11,#45
	strb	w11,[x25,x9]
	add	x9,x8,#8
	cmp	w10,#0
	cneg	w8,w10,mi
	cmp	w8,#99
	b.ls	12b
8:
	add	x10,x25,x9
	mov	w11,#49
	lsl	w8,w8,#1
	strb	w11,[x10]
Lrtp_loh166:
	adrp	x11,lrtp__static.42@PAGE
Lrtp_loh167:
	add	x11,x11,lrtp__static.42@PAGEOFF
	add	x8,x11,x8
	ldurh	w8,[x8,#-200]
	sturh	w8,[x10,#1]
	add	x8,x9,#3
	ldrb	w9,[sp,#290]
	cmp	w9,#1
	b.eq	15f
14:
	ldrb	w9,[sp,#304]
	cmp	w9,#1
	b.ne	7f
8:
Lrtp_loh168:
	adrp	x10,lrtp_CPI5_3@PAGE
	ldr	x9,[sp,#312]
	mov	w11,#8292
Lrtp_loh169:
	ldr	d0,[x10,lrtp_CPI5_3@PAGEOFF]
	add	x10,x25,x8
	cmp	x9,x26
	strh	w11,[x10,#4]
	str	s0,[x10]
	add	x10,x8,#6
	b.hs	12f
	lsr	x11,x9,#4
	cmp	x11,#624
	b.hi	16f
	cmp	x9,#99
	b.hi	17f
	cmp	x9,#9
	b.hi	18f
	orr	w9,w9,#0x30
	strb	w9,[x25,x10]
	add	x8,x8,#7
	ldrb	w9,[sp,#352]
	cmp	w9,#1
	b.eq	19f
	b	26f
12:
	mov	x11,#1874919424
	movk	x11,#34546,lsl #32
	movk	x11,#35,lsl #48
	cmp	x9,x11
	b.hs	12f
	mov	x11,#52989
	mov	x12,#4096
	movk	x11,#33889,lsl #16
	movk	x12,#54437,lsl #16
	movk	x11,#30481,lsl #32
	movk	x12,#232,lsl #32
	movk	x11,#43980,lsl #48
	cmp	x9,x12
	umulh	x11,x9,x11
	lsr	x11,x11,#26
	b.hs	20f
	mov	x12,#58368
	movk	x12,#21515,lsl #16
	movk	x12,#2,lsl #32
	cmp	x9,x12
	b.hs	21f
	mov	w12,#51712
	movk	w12,#15258,lsl #16
	cmp	x9,x12
	b.hs	28f
	orr	w12,w11,#0x30
	strb	w12,[x25,x10]
	add	x8,x8,#7
	b	29f
13:
Lrtp_loh170:
	adrp	x10,lrtp__static.42@PAGE
Lrtp_loh171:
	add	x10,x10,lrtp__static.42@PAGEOFF
	ldrh	w8,[x10,w8,uxtw #1]
	strh	w8,[x25,x9]
	add	x8,x9,#2
	ldrb	w9,[sp,#290]
	cmp	w9,#1
	b.ne	14b
	b	15f
16:
	mov	w11,#5977
	mov	w12,#16960
	movk	w11,#53687,lsl #16
	movk	w12,#15,lsl #16
	umull	x11,w9,w11
	cmp	x9,x12
	lsr	x11,x11,#45
	b.hs	13f
	mov	w12,#34464
	movk	w12,#1,lsl #16
	cmp	x9,x12
	b.hs	16f
	orr	w12,w11,#0x30
	strb	w12,[x25,x10]
	add	x8,x8,#7
	b	31f
12:
	mov	x11,#30807
	cmp	x9,x27
	movk	x11,#45331,lsl #16
	movk	x11,#25903,lsl #32
	movk	x11,#14757,lsl #48
	umulh	x11,x9,x11
	lsr	x11,x11,#51
	b.hs	12f
	mov	x12,#1569325056
	movk	x12,#17784,lsl #32
	movk	x12,#355,lsl #48
	cmp	x9,x12
	b.hs	32f
	orr	w11,w11,#0x30
	strb	w11,[x25,x10]
	add	x8,x8,#7
	b	33f
17:
	ubfx	w11,w9,#2,#14
	mov	w12,#5243
	cmp	x9,#999
	mul	w11,w11,w12
	lsr	w11,w11,#17
	b.hi	17f
	orr	w12,w11,#0x30
	strb	w12,[x25,x10]
	add	x8,x8,#7
	b	34f
20:
	mov	w12,#5977
	mov	x13,#16384
	movk	w12,#53687,lsl #16
	movk	x13,#4218,lsl #16
	umull	x12,w11,w12
	movk	x13,#23283,lsl #32
	cmp	x9,x13
	lsr	x12,x12,#45
	b.hs	20f
	mov	x13,#40960
	movk	x13,#20082,lsl #16
	movk	x13,#2328,lsl #32
	cmp	x9,x13
	b.hs	35f
	orr	w13,w12,#0x30
	strb	w13,[x25,x10]
	add	x8,x8,#7
	b	36f
13:
	ubfx	w12,w11,#2,#14
	mov	w13,#5243
	mul	w12,w12,w13
	mov	w13,#38528
	movk	w13,#152,lsl #16
	cmp	x9,x13
	lsr	w12,w12,#17
	b.hs	13f
	orr	w13,w12,#0x30
	strb	w13,[x25,x10]
	add	x8,x8,#7
	b	37f
12:
	ubfx	w12,w11,#2,#14
	mov	w13,#5243
	mul	w12,w12,w13
	mov	x13,#2313682944
	movk	x13,#8964,lsl #32
	movk	x13,#35527,lsl #48
	lsr	w12,w12,#17
	cmp	x9,x13
	b.hs	12f
	orr	w13,w12,#0x30
	strb	w13,[x25,x10]
	add	x8,x8,#7
	b	38f
18:
Lrtp_loh172:
	adrp	x11,lrtp__static.42@PAGE
Lrtp_loh173:
	add	x11,x11,lrtp__static.42@PAGEOFF
	add	x8,x8,#8
	ldrh	w9,[x11,x9,lsl #1]
	strh	w9,[x25,x10]
	ldrb	w9,[sp,#352]
	cmp	w9,#1
	b.eq	19f
	b	26f
21:
	ubfx	w12,w11,#2,#14
	mov	w13,#5243
	mul	w12,w12,w13
	mov	x13,#59392
	movk	x13,#18550,lsl #16
	movk	x13,#23,lsl #32
	lsr	w12,w12,#17
	cmp	x9,x13
	b.hs	18f
	orr	w12,w12,#0x30
	strb	w12,[x25,x10]
	add	x8,x8,#7
	b	21f
16:
Lrtp_loh174:
	adrp	x12,lrtp__static.42@PAGE
Lrtp_loh175:
	add	x12,x12,lrtp__static.42@PAGEOFF
	add	x8,x8,#8
	ldrh	w12,[x12,w11,uxtw #1]
	strh	w12,[x25,x10]
	b	31f
32:
Lrtp_loh176:
	adrp	x12,lrtp__static.42@PAGE
Lrtp_loh177:
	add	x12,x12,lrtp__static.42@PAGEOFF
	add	x8,x8,#8
	ldrh	w11,[x12,x11,lsl #1]
	strh	w11,[x25,x10]
	b	33f
17:
Lrtp_loh178:
	adrp	x12,lrtp__static.42@PAGE
Lrtp_loh179:
	add	x12,x12,lrtp__static.42@PAGEOFF
	add	x8,x8,#8
	ldrh	w12,[x12,w11,uxtw #1]
	strh	w12,[x25,x10]
34:
	mov	w10,#100
	msub	w9,w11,w10,w9
Lrtp_loh180:
	adrp	x10,lrtp__static.42@PAGE
Lrtp_loh181:
	add	x10,x10,lrtp__static.42@PAGEOFF
	and	x9,x9,#0xffff
	ldrh	w9,[x10,x9,lsl #1]
	strh	w9,[x25,x8]
	add	x8,x8,#2
	ldrb	w9,[sp,#352]
	cmp	w9,#1
	b.eq	19f
	b	26f
20:
	ubfx	w13,w12,#2,#14
	mov	w14,#5243
	mul	w13,w13,w14
	mov	x14,#1125899906809856
	movk	x14,#42182,lsl #16
	movk	x14,#36222,lsl #32
	lsr	w13,w13,#17
	cmp	x9,x14
	b.hs	16f
	orr	w14,w13,#0x30
	strb	w14,[x25,x10]
	add	x8,x8,#7
	b	17f
13:
Lrtp_loh182:
	adrp	x13,lrtp__static.42@PAGE
Lrtp_loh183:
	add	x13,x13,lrtp__static.42@PAGEOFF
	add	x8,x8,#8
	ldrh	w13,[x13,w12,uxtw #1]
	strh	w13,[x25,x10]
37:
	mov	w10,#100
	msub	w10,w12,w10,w11
Lrtp_loh184:
	adrp	x12,lrtp__static.42@PAGE
Lrtp_loh185:
	add	x12,x12,lrtp__static.42@PAGEOFF
	and	x10,x10,#0xffff
	ldrh	w10,[x12,x10,lsl #1]
	strh	w10,[x25,x8]
	add	x8,x8,#2
31:
	mov	w10,#10000
	add	x12,x25,x8
	add	x8,x8,#4
	msub	w9,w11,w10,w9
	mov	w11,#5243
	ubfx	w10,w9,#2,#14
	mul	w10,w10,w11
	mov	w11,#100
	lsr	w10,w10,#17
	msub	w9,w10,w11,w9
Lrtp_loh186:
	adrp	x11,lrtp__static.42@PAGE
Lrtp_loh187:
	add	x11,x11,lrtp__static.42@PAGEOFF
	ldrh	w10,[x11,w10,uxtw #1]
	strh	w10,[x12]
	and	x9,x9,#0xffff
	ldrh	w9,[x11,x9,lsl #1]
	strh	w9,[x12,#2]
	ldrb	w9,[sp,#352]
	cmp	w9,#1
	b.eq	19f
	b	26f
12:
Lrtp_loh188:
	adrp	x13,lrtp__static.42@PAGE
Lrtp_loh189:
	add	x13,x13,lrtp__static.42@PAGEOFF
	add	x8,x8,#8
	ldrh	w13,[x13,w12,uxtw #1]
	strh	w13,[x25,x10]
38:
	mov	w10,#100
	msub	w10,w12,w10,w11
Lrtp_loh190:
	adrp	x11,lrtp__static.42@PAGE
Lrtp_loh191:
	add	x11,x11,lrtp__static.42@PAGEOFF
	and	x10,x10,#0xffff
	ldrh	w10,[x11,x10,lsl #1]
	strh	w10,[x25,x8]
	add	x8,x8,#2
33:
	mov	x10,#52989
	mov	w12,#57600
	mov	w15,#10000
	movk	x10,#33889,lsl #16
	movk	w12,#1525,lsl #16
	mov	w16,#5977
	movk	x10,#30481,lsl #32
	movk	w16,#53687,lsl #16
Lrtp_loh192:
	adrp	x0,lrtp__static.42@PAGE
Lrtp_loh193:
	add	x0,x0,lrtp__static.42@PAGEOFF
	movk	x10,#43980,lsl #48
	add	x1,x25,x8
	umulh	x10,x9,x10
	add	x8,x8,#16
	lsr	x11,x10,#26
	mov	x10,#35011
	movk	x10,#58939,lsl #16
	movk	x10,#85,lsl #32
	msub	w9,w11,w26,w9
	umulh	x10,x11,x10
	umull	x16,w9,w16
	lsr	x10,x10,#1
	umsubl	x12,w10,w12,x11
	mov	w10,#47291
	movk	w10,#1677,lsl #16
	mul	x10,x12,x10
	lsr	x13,x10,#40
	mov	w10,#5243
	mul	w14,w13,w10
	msub	w12,w13,w15,w12
	lsr	w11,w14,#19
	mov	w14,#100
	ubfx	w17,w12,#2,#14
	msub	w13,w11,w14,w13
	ldrh	w11,[x0,w11,uxtw #1]
	mul	w17,w17,w10
	strh	w11,[x1]
	and	x11,x13,#0xffff
	lsr	x13,x16,#45
	ldrh	w11,[x0,x11,lsl #1]
	lsr	w16,w17,#17
	ubfx	w17,w13,#2,#14
	msub	w9,w13,w15,w9
	strh	w11,[x1,#2]
	msub	w11,w16,w14,w12
	ldrh	w12,[x0,w16,uxtw #1]
	mul	w16,w17,w10
	ubfx	w15,w9,#2,#14
	strh	w12,[x1,#4]
	and	x11,x11,#0xffff
	ldrh	w11,[x0,x11,lsl #1]
	lsr	w12,w16,#17
	mul	w10,w15,w10
	strh	w11,[x1,#6]
	msub	w11,w12,w14,w13
	ldrh	w12,[x0,w12,uxtw #1]
	lsr	w10,w10,#17
	strh	w12,[x1,#8]
	and	x11,x11,#0xffff
	msub	w9,w10,w14,w9
	ldrh	w11,[x0,x11,lsl #1]
	strh	w11,[x1,#10]
	and	x9,x9,#0xffff
	ldrh	w10,[x0,w10,uxtw #1]
	strh	w10,[x1,#12]
	ldrh	w9,[x0,x9,lsl #1]
	strh	w9,[x1,#14]
	ldrb	w9,[sp,#352]
	cmp	w9,#1
	b.eq	19f
	b	26f
28:
Lrtp_loh194:
	adrp	x12,lrtp__static.42@PAGE
Lrtp_loh195:
	add	x12,x12,lrtp__static.42@PAGEOFF
	add	x8,x8,#8
	ldrh	w12,[x12,x11,lsl #1]
	strh	w12,[x25,x10]
	b	29f
35:
Lrtp_loh196:
	adrp	x13,lrtp__static.42@PAGE
Lrtp_loh197:
	add	x13,x13,lrtp__static.42@PAGEOFF
	add	x8,x8,#8
	ldrh	w13,[x13,w12,uxtw #1]
	strh	w13,[x25,x10]
	b	36f
18:
Lrtp_loh198:
	adrp	x13,lrtp__static.42@PAGE
Lrtp_loh199:
	add	x13,x13,lrtp__static.42@PAGEOFF
	add	x8,x8,#8
	ldrh	w12,[x13,w12,uxtw #1]
	strh	w12,[x25,x10]
21:
	mov	w10,#34079
	mov	w12,#100
	movk	w10,#20971,lsl #16
	umull	x10,w11,w10
	lsr	x10,x10,#37
	msub	w10,w10,w12,w11
Lrtp_loh200:
	adrp	x12,lrtp__static.42@PAGE
Lrtp_loh201:
	add	x12,x12,lrtp__static.42@PAGEOFF
	ldrh	w10,[x12,w10,uxtw #1]
	strh	w10,[x25,x8]
	add	x8,x8,#2
	b	29f
16:
Lrtp_loh202:
	adrp	x14,lrtp__static.42@PAGE
Lrtp_loh203:
	add	x14,x14,lrtp__static.42@PAGEOFF
	add	x8,x8,#8
	ldrh	w14,[x14,w13,uxtw #1]
	strh	w14,[x25,x10]
17:
	mov	w10,#100
	msub	w10,w13,w10,w12
Lrtp_loh204:
	adrp	x13,lrtp__static.42@PAGE
Lrtp_loh205:
	add	x13,x13,lrtp__static.42@PAGEOFF
	and	x10,x10,#0xffff
	ldrh	w10,[x13,x10,lsl #1]
	strh	w10,[x25,x8]
	add	x8,x8,#2
36:
	mov	w10,#10000
	mov	w13,#5243
	add	x14,x25,x8
	msub	w10,w12,w10,w11
	add	x8,x8,#4
	ubfx	w12,w10,#2,#14
	mul	w12,w12,w13
	mov	w13,#100
	lsr	w12,w12,#17
	msub	w10,w12,w13,w10
Lrtp_loh206:
	adrp	x13,lrtp__static.42@PAGE
Lrtp_loh207:
	add	x13,x13,lrtp__static.42@PAGEOFF
	ldrh	w12,[x13,w12,uxtw #1]
	strh	w12,[x14]
	and	x10,x10,#0xffff
	ldrh	w10,[x13,x10,lsl #1]
	strh	w10,[x14,#2]
29:
	mov	w10,#57600
	mov	w12,#5243
	mov	w13,#10000
	movk	w10,#1525,lsl #16
Lrtp_loh208:
	adrp	x15,lrtp__static.42@PAGE
Lrtp_loh209:
	add	x15,x15,lrtp__static.42@PAGEOFF
	msub	x9,x11,x10,x9
	mov	w11,#5977
	movk	w11,#53687,lsl #16
	mov	w10,w9
	umull	x10,w10,w11
	lsr	x10,x10,#45
	ubfx	w11,w10,#2,#14
	msub	w9,w10,w13,w9
	mov	w13,#100
	mul	w11,w11,w12
	ubfx	w14,w9,#2,#14
	lsr	w11,w11,#17
	mul	w12,w14,w12
	add	x14,x25,x8
	add	x8,x8,#8
	msub	w10,w11,w13,w10
	ldrh	w11,[x15,w11,uxtw #1]
	strh	w11,[x14]
	lsr	w11,w12,#17
	and	x10,x10,#0xffff
	ldrh	w10,[x15,x10,lsl #1]
	msub	w9,w11,w13,w9
	strh	w10,[x14,#2]
	ldrh	w10,[x15,w11,uxtw #1]
	and	x9,x9,#0xffff
	strh	w10,[x14,#4]
	ldrh	w9,[x15,x9,lsl #1]
	strh	w9,[x14,#6]
	ldrb	w9,[sp,#352]
	cmp	w9,#1
	b.eq	19f
	b	26f
9:
	lsr	x8,x9,#56
	cmp	x8,#32
	mov	w8,#7
	cinc	x22,x8,ne
27:
	add	x0,x25,x19
	add	x1,sp,#656
	mov	x2,x22
	bl	_memcpy
	mov	x5,x26
	mov	w26,#57600
	mov	x3,x27
	mov	x27,x24
	movk	w26,#1525,lsl #16
	add	x8,x22,x19
	ldrb	w9,[sp,#288]
	cmp	w9,#1
	b.eq	23b
22:
	ldrb	w9,[sp,#290]
	cmp	w9,#1
	b.ne	14b
15:
	mov	w11,#25449
	add	x9,x25,x8
	ldrb	w10,[sp,#291]
	movk	w11,#8293,lsl #16
	stur	w11,[x9,#3]
	mov	w11,#30240
	movk	w11,#26991,lsl #16
	str	w11,[x9]
	tbz	w10,#0,9f
	mov	w10,#115
	mov	w11,#25977
	add	x8,x8,#10
	sturb	w10,[x9,#9]
	sturh	w11,[x9,#7]
	ldrb	w9,[sp,#304]
	cmp	w9,#1
	b.ne	7f
	b	8b
9:
	mov	w10,#28526
	add	x8,x8,#9
	sturh	w10,[x9,#7]
	ldrb	w9,[sp,#304]
	cmp	w9,#1
	b.eq	8b
7:
	ldrb	w9,[sp,#352]
	cmp	w9,#1
	b.ne	26f
19:
	adrp	x10,lrtp__static.60@PAGE
	add	x10,x10,lrtp__static.60@PAGEOFF
	ldrh	w9,[sp,#354]
	ldr	x10,[x10]
	add	x12,x25,x8
	lsr	w11,w9,#4
	str	x10,[x12]
	mov	w10,#29295
	movk	w10,#8308,lsl #16
	cmp	w11,#624
	stur	w10,[x12,#7]
	add	x10,x8,#11
	b.hi	7f
	cmp	w9,#99
	b.hi	8f
	cmp	w9,#9
	b.hi	9f
	orr	w9,w9,#0x30
	strb	w9,[x25,x10]
	add	x8,x8,#12
	b	26f
7:
	ubfx	w11,w9,#4,#12
	mov	w12,#839
	mov	w13,#5243
	add	x10,x25,x10
	add	x8,x8,#16
	mul	w11,w11,w12
	mov	w12,#10000
	lsr	w11,w11,#19
	msub	w9,w11,w12,w9
	orr	w11,w11,#0x30
	strb	w11,[x10]
Lrtp_loh210:
	adrp	x11,lrtp__static.42@PAGE
Lrtp_loh211:
	add	x11,x11,lrtp__static.42@PAGEOFF
	ubfx	w12,w9,#2,#14
	mul	w12,w12,w13
	mov	w13,#100
	lsr	w12,w12,#17
	msub	w9,w12,w13,w9
	ldrh	w12,[x11,w12,uxtw #1]
	sturh	w12,[x10,#1]
	and	x9,x9,#0xffff
	ldrh	w9,[x11,x9,lsl #1]
	sturh	w9,[x10,#3]
	b	26f
8:
	ubfx	w11,w9,#2,#14
	mov	w12,#5243
	mul	w11,w11,w12
	and	w12,w9,#0xffff
	cmp	w12,#999
	lsr	w11,w11,#17
	b.hi	7f
	orr	w12,w11,#0x30
	strb	w12,[x25,x10]
	add	x8,x8,#12
	b	8f
9:
Lrtp_loh212:
	adrp	x11,lrtp__static.42@PAGE
Lrtp_loh213:
	add	x11,x11,lrtp__static.42@PAGEOFF
	add	x8,x8,#13
	ldrh	w9,[x11,x9,lsl #1]
	strh	w9,[x25,x10]
	b	26f
7:
Lrtp_loh214:
	adrp	x12,lrtp__static.42@PAGE
Lrtp_loh215:
	add	x12,x12,lrtp__static.42@PAGEOFF
	add	x8,x8,#13
	ldrh	w12,[x12,w11,uxtw #1]
	strh	w12,[x25,x10]
8:
	mov	w10,#100
	msub	w9,w11,w10,w9
Lrtp_loh216:
	adrp	x10,lrtp__static.42@PAGE
Lrtp_loh217:
	add	x10,x10,lrtp__static.42@PAGEOFF
	and	x9,x9,#0xffff
	ldrh	w9,[x10,x9,lsl #1]
	strh	w9,[x25,x8]
	add	x8,x8,#2
26:
	mov	x11,#25974
	add	x9,x25,x8
	mov	w10,#10
	movk	x11,#25714,lsl #16
	cmp	x20,x26
	strb	w10,[x9]
	movk	x11,#25449,lsl #32
	movk	x11,#8308,lsl #48
	stur	x11,[x9,#1]
	add	x9,x8,#9
	b.hs	7f
	cmp	x23,#624
	b.hi	8f
	ldr	x19,[sp,#696]
	cmp	x20,#99
	b.hi	9f
	cmp	x20,#9
	b.hi	12f
	orr	w10,w20,#0x30
	strb	w10,[x25,x9]
	add	x8,x8,#10
	add	x9,x25,x8
	mov	w10,#8250
	cmp	w5,#2
	strh	w10,[x9],#2
	b.ne	13f
	b	14f
7:
	mov	x10,#1874919424
	movk	x10,#34546,lsl #32
	movk	x10,#35,lsl #48
	cmp	x20,x10
	b.hs	7f
	mov	x10,#52989
	mov	x11,#4096
	ldr	x19,[sp,#696]
	movk	x10,#33889,lsl #16
	movk	x11,#54437,lsl #16
	movk	x10,#30481,lsl #32
	movk	x11,#232,lsl #32
	movk	x10,#43980,lsl #48
	cmp	x20,x11
	umulh	x10,x20,x10
	lsr	x10,x10,#26
	b.hs	15f
	mov	x11,#58368
	movk	x11,#21515,lsl #16
	movk	x11,#2,lsl #32
	cmp	x20,x11
	b.hs	16f
	mov	w11,#51712
	movk	w11,#15258,lsl #16
	cmp	x20,x11
	b.hs	17f
	orr	w11,w10,#0x30
	strb	w11,[x25,x9]
	add	x8,x8,#10
	b	18f
8:
	mov	w10,#5977
	mov	w11,#16960
	ldr	x19,[sp,#696]
	movk	w10,#53687,lsl #16
	movk	w11,#15,lsl #16
	umull	x10,w20,w10
	cmp	x20,x11
	lsr	x10,x10,#45
	b.hs	8f
	mov	w11,#34464
	movk	w11,#1,lsl #16
	cmp	x20,x11
	b.hs	19f
	orr	w11,w10,#0x30
	strb	w11,[x25,x9]
	add	x8,x8,#10
	b	20f
7:
	mov	x10,#30807
	ldr	x19,[sp,#696]
	cmp	x20,x27
	movk	x10,#45331,lsl #16
	movk	x10,#25903,lsl #32
	movk	x10,#14757,lsl #48
	umulh	x10,x20,x10
	lsr	x10,x10,#51
	b.hs	7f
	mov	x11,#1569325056
	movk	x11,#17784,lsl #32
	movk	x11,#355,lsl #48
	cmp	x20,x11
	b.hs	21f
	orr	w10,w10,#0x30
	strb	w10,[x25,x9]
	add	x8,x8,#10
	b	22f
9:
	ubfx	w10,w20,#2,#14
	mov	w11,#5243
	cmp	x20,#999
	mul	w10,w10,w11
	lsr	w10,w10,#17
	b.hi	9f
	orr	w11,w10,#0x30
	strb	w11,[x25,x9]
	add	x8,x8,#10
	b	23f
15:
	mov	w11,#5977
	mov	x12,#16384
	movk	w11,#53687,lsl #16
	movk	x12,#4218,lsl #16
	umull	x11,w10,w11
	movk	x12,#23283,lsl #32
	cmp	x20,x12
	lsr	x11,x11,#45
	b.hs	15f
	mov	x12,#40960
	movk	x12,#20082,lsl #16
	movk	x12,#2328,lsl #32
	cmp	x20,x12
	b.hs	26f
	orr	w12,w11,#0x30
	strb	w12,[x25,x9]
	add	x8,x8,#10
	b	27f
8:
	ubfx	w11,w10,#2,#14
	mov	w12,#5243
	mul	w11,w11,w12
	mov	w12,#38528
	movk	w12,#152,lsl #16
	cmp	x20,x12
	lsr	w11,w11,#17
	b.hs	8f
	orr	w12,w11,#0x30
	strb	w12,[x25,x9]
	add	x8,x8,#10
	b	28f
7:
	ubfx	w11,w10,#2,#14
	mov	w12,#5243
	mul	w11,w11,w12
	mov	x12,#2313682944
	movk	x12,#8964,lsl #32
	movk	x12,#35527,lsl #48
	lsr	w11,w11,#17
	cmp	x20,x12
	b.hs	7f
	orr	w12,w11,#0x30
	strb	w12,[x25,x9]
	add	x8,x8,#10
	b	29f
12:
Lrtp_loh218:
	adrp	x10,lrtp__static.42@PAGE
Lrtp_loh219:
	add	x10,x10,lrtp__static.42@PAGEOFF
	add	x8,x8,#11
	ldrh	w10,[x10,x20,lsl #1]
	strh	w10,[x25,x9]
	add	x9,x25,x8
	mov	w10,#8250
	cmp	w5,#2
	strh	w10,[x9],#2
	b.ne	13f
	b	14f
16:
	ubfx	w11,w10,#2,#14
	mov	w12,#5243
	mul	w11,w11,w12
	mov	x12,#59392
	movk	x12,#18550,lsl #16
	movk	x12,#23,lsl #32
	lsr	w11,w11,#17
	cmp	x20,x12
	b.hs	12f
	orr	w11,w11,#0x30
	strb	w11,[x25,x9]
	add	x8,x8,#10
	b	16f
19:
Lrtp_loh220:
	adrp	x11,lrtp__static.42@PAGE
Lrtp_loh221:
	add	x11,x11,lrtp__static.42@PAGEOFF
	add	x8,x8,#11
	ldrh	w11,[x11,w10,uxtw #1]
	strh	w11,[x25,x9]
	b	20f
21:
Lrtp_loh222:
	adrp	x11,lrtp__static.42@PAGE
Lrtp_loh223:
	add	x11,x11,lrtp__static.42@PAGEOFF
	add	x8,x8,#11
	ldrh	w10,[x11,x10,lsl #1]
	strh	w10,[x25,x9]
	b	22f
9:
Lrtp_loh224:
	adrp	x11,lrtp__static.42@PAGE
Lrtp_loh225:
	add	x11,x11,lrtp__static.42@PAGEOFF
	add	x8,x8,#11
	ldrh	w11,[x11,w10,uxtw #1]
	strh	w11,[x25,x9]
23:
	mov	w9,#100
	msub	w9,w10,w9,w20
Lrtp_loh226:
	adrp	x10,lrtp__static.42@PAGE
Lrtp_loh227:
	add	x10,x10,lrtp__static.42@PAGEOFF
	and	x9,x9,#0xffff
	ldrh	w9,[x10,x9,lsl #1]
	strh	w9,[x25,x8]
	add	x8,x8,#2
	add	x9,x25,x8
	mov	w10,#8250
	cmp	w5,#2
	strh	w10,[x9],#2
	b.ne	13f
	b	14f
15:
	ubfx	w12,w11,#2,#14
	mov	w13,#5243
	mul	w12,w12,w13
	mov	x13,#1125899906809856
	movk	x13,#42182,lsl #16
	movk	x13,#36222,lsl #32
	lsr	w12,w12,#17
	cmp	x20,x13
	b.hs	9f
	orr	w13,w12,#0x30
	strb	w13,[x25,x9]
	add	x8,x8,#10
	b	15f
8:
Lrtp_loh228:
	adrp	x12,lrtp__static.42@PAGE
Lrtp_loh229:
	add	x12,x12,lrtp__static.42@PAGEOFF
	add	x8,x8,#11
	ldrh	w12,[x12,w11,uxtw #1]
	strh	w12,[x25,x9]
28:
	mov	w9,#100
	msub	w9,w11,w9,w10
Lrtp_loh230:
	adrp	x11,lrtp__static.42@PAGE
Lrtp_loh231:
	add	x11,x11,lrtp__static.42@PAGEOFF
	and	x9,x9,#0xffff
	ldrh	w9,[x11,x9,lsl #1]
	strh	w9,[x25,x8]
	add	x8,x8,#2
20:
	mov	w9,#10000
	mov	w11,#5243
	add	x12,x25,x8
	msub	w9,w10,w9,w20
	add	x8,x8,#4
	ubfx	w10,w9,#2,#14
	mul	w10,w10,w11
	mov	w11,#100
	lsr	w10,w10,#17
	msub	w9,w10,w11,w9
Lrtp_loh232:
	adrp	x11,lrtp__static.42@PAGE
Lrtp_loh233:
	add	x11,x11,lrtp__static.42@PAGEOFF
	ldrh	w10,[x11,w10,uxtw #1]
	strh	w10,[x12]
	and	x9,x9,#0xffff
	ldrh	w9,[x11,x9,lsl #1]
	strh	w9,[x12,#2]
	add	x9,x25,x8
	mov	w10,#8250
	cmp	w5,#2
	strh	w10,[x9],#2
	b.eq	14f
13:
	cmp	w5,#1
	b.ne	8f
	mov	w11,#24948
	mov	w10,#8302
	cmp	x3,x26
	movk	w11,#25963,lsl #16
	strh	w10,[x9,#4]
	str	w11,[x9]
	add	x9,x8,#8
	b.hs	19f
	lsr	x10,x3,#4
	cmp	x10,#624
	b.hi	20f
	cmp	x3,#99
	b.hi	21f
	cmp	x3,#9
	b.hi	23f
	orr	w10,w3,#0x30
	strb	w10,[x25,x9]
	add	x8,x8,#9
	b	28f
8:
	adrp	x11,lrtp__static.65@PAGE
	add	x11,x11,lrtp__static.65@PAGEOFF
	mov	w10,#25964
	ldr	x11,[x11]
	strh	w10,[x9,#8]
	add	x8,x8,#12
	str	x11,[x9]
	b	28f
19:
	mov	x10,#1874919424
	movk	x10,#34546,lsl #32
	movk	x10,#35,lsl #48
	cmp	x3,x10
	b.hs	8f
	mov	x10,#52989
	mov	x11,#4096
	movk	x10,#33889,lsl #16
	movk	x11,#54437,lsl #16
	movk	x10,#30481,lsl #32
	movk	x11,#232,lsl #32
	movk	x10,#43980,lsl #48
	cmp	x3,x11
	umulh	x10,x3,x10
	lsr	x10,x10,#26
	b.hs	19f
	mov	x11,#58368
	movk	x11,#21515,lsl #16
	movk	x11,#2,lsl #32
	cmp	x3,x11
	b.hs	31f
	mov	w11,#51712
	movk	w11,#15258,lsl #16
	cmp	x3,x11
	b.hs	32f
	orr	w11,w10,#0x30
	strb	w11,[x25,x9]
	add	x8,x8,#9
	b	33f
20:
	mov	w10,#5977
	mov	w11,#16960
	movk	w10,#53687,lsl #16
	movk	w11,#15,lsl #16
	umull	x10,w3,w10
	cmp	x3,x11
	lsr	x10,x10,#45
	b.hs	20f
	mov	w11,#34464
	movk	w11,#1,lsl #16
	cmp	x3,x11
	b.hs	34f
	orr	w11,w10,#0x30
	strb	w11,[x25,x9]
	add	x8,x8,#9
	b	35f
8:
	mov	x10,#30807
	cmp	x3,x27
	movk	x10,#45331,lsl #16
	movk	x10,#25903,lsl #32
	movk	x10,#14757,lsl #48
	umulh	x10,x3,x10
	lsr	x10,x10,#51
	b.hs	8f
	mov	x11,#1569325056
	movk	x11,#17784,lsl #32
	movk	x11,#355,lsl #48
	cmp	x3,x11
	b.hs	36f
	orr	w10,w10,#0x30
	strb	w10,[x25,x9]
	add	x8,x8,#9
	b	37f
7:
Lrtp_loh234:
	adrp	x12,lrtp__static.42@PAGE
Lrtp_loh235:
	add	x12,x12,lrtp__static.42@PAGEOFF
	add	x8,x8,#11
	ldrh	w12,[x12,w11,uxtw #1]
	strh	w12,[x25,x9]
29:
	mov	w9,#100
	msub	w9,w11,w9,w10
Lrtp_loh236:
	adrp	x10,lrtp__static.42@PAGE
Lrtp_loh237:
	add	x10,x10,lrtp__static.42@PAGEOFF
	and	x9,x9,#0xffff
	ldrh	w9,[x10,x9,lsl #1]
	strh	w9,[x25,x8]
	add	x8,x8,#2
22:
	mov	x9,#52989
	mov	w11,#57600
	mov	w14,#10000
	movk	x9,#33889,lsl #16
	movk	w11,#1525,lsl #16
	mov	w16,#5977
	movk	x9,#30481,lsl #32
	mov	w15,#100
	movk	w16,#53687,lsl #16
	movk	x9,#43980,lsl #48
Lrtp_loh238:
	adrp	x0,lrtp__static.42@PAGE
Lrtp_loh239:
	add	x0,x0,lrtp__static.42@PAGEOFF
	umulh	x9,x20,x9
	add	x1,x25,x8
	add	x8,x8,#16
	lsr	x10,x9,#26
	mov	x9,#35011
	movk	x9,#58939,lsl #16
	movk	x9,#85,lsl #32
	umulh	x9,x10,x9
	lsr	x9,x9,#1
	umsubl	x11,w9,w11,x10
	mov	w9,#47291
	movk	w9,#1677,lsl #16
	msub	w10,w10,w26,w20
	mul	x9,x11,x9
	umull	x16,w10,w16
	lsr	x12,x9,#40
	mov	w9,#5243
	mul	w13,w12,w9
	msub	w11,w12,w14,w11
	lsr	w13,w13,#19
	ubfx	w17,w11,#2,#14
	msub	w12,w13,w15,w12
	ldrh	w13,[x0,w13,uxtw #1]
	mul	w17,w17,w9
	strh	w13,[x1]
	lsr	x13,x16,#45
	and	x12,x12,#0xffff
	ldrh	w12,[x0,x12,lsl #1]
	lsr	w16,w17,#17
	ubfx	w17,w13,#2,#14
	msub	w10,w13,w14,w10
	strh	w12,[x1,#2]
	msub	w11,w16,w15,w11
	ldrh	w12,[x0,w16,uxtw #1]
	mul	w16,w17,w9
	ubfx	w14,w10,#2,#14
	strh	w12,[x1,#4]
	and	x11,x11,#0xffff
	ldrh	w11,[x0,x11,lsl #1]
	lsr	w12,w16,#17
	mul	w9,w14,w9
	strh	w11,[x1,#6]
	msub	w11,w12,w15,w13
	ldrh	w12,[x0,w12,uxtw #1]
	lsr	w9,w9,#17
	strh	w12,[x1,#8]
	and	x11,x11,#0xffff
	msub	w10,w9,w15,w10
	ldrh	w11,[x0,x11,lsl #1]
	strh	w11,[x1,#10]
	ldrh	w9,[x0,w9,uxtw #1]
	strh	w9,[x1,#12]
	and	x9,x10,#0xffff
	ldrh	w9,[x0,x9,lsl #1]
	strh	w9,[x1,#14]
	add	x9,x25,x8
	mov	w10,#8250
	cmp	w5,#2
	strh	w10,[x9],#2
	b.ne	13b
	b	14f
21:
	ubfx	w10,w3,#2,#14
	mov	w11,#5243
	cmp	x3,#999
	mul	w10,w10,w11
	lsr	w10,w10,#17
	b.hi	7f
	orr	w11,w10,#0x30
	strb	w11,[x25,x9]
	add	x8,x8,#9
	b	21f
19:
	mov	w11,#5977
	mov	x12,#16384
	movk	w11,#53687,lsl #16
	movk	x12,#4218,lsl #16
	umull	x11,w10,w11
	movk	x12,#23283,lsl #32
	cmp	x3,x12
	lsr	x11,x11,#45
	b.hs	19f
	mov	x12,#40960
	movk	x12,#20082,lsl #16
	movk	x12,#2328,lsl #32
	cmp	x3,x12
	b.hs	22f
	orr	w12,w11,#0x30
	strb	w12,[x25,x9]
	add	x8,x8,#9
	b	29f
20:
	ubfx	w11,w10,#2,#14
	mov	w12,#5243
	mul	w11,w11,w12
	mov	w12,#38528
	movk	w12,#152,lsl #16
	cmp	x3,x12
	lsr	w11,w11,#17
	b.hs	20f
	orr	w12,w11,#0x30
	strb	w12,[x25,x9]
	add	x8,x8,#9
	b	38f
8:
	ubfx	w11,w10,#2,#14
	mov	w12,#5243
	mul	w11,w11,w12
	mov	x12,#2313682944
	movk	x12,#8964,lsl #32
	movk	x12,#35527,lsl #48
	lsr	w11,w11,#17
	cmp	x3,x12
	b.hs	8f
	orr	w12,w11,#0x30
	strb	w12,[x25,x9]
	add	x8,x8,#9
	b	39f
17:
Lrtp_loh240:
	adrp	x11,lrtp__static.42@PAGE
Lrtp_loh241:
	add	x11,x11,lrtp__static.42@PAGEOFF
	add	x8,x8,#11
	ldrh	w11,[x11,x10,lsl #1]
	strh	w11,[x25,x9]
	b	18f
26:
Lrtp_loh242:
	adrp	x12,lrtp__static.42@PAGE
Lrtp_loh243:
	add	x12,x12,lrtp__static.42@PAGEOFF
	add	x8,x8,#11
	ldrh	w12,[x12,w11,uxtw #1]
	strh	w12,[x25,x9]
	b	27f
12:
Lrtp_loh244:
	adrp	x12,lrtp__static.42@PAGE
Lrtp_loh245:
	add	x12,x12,lrtp__static.42@PAGEOFF
	add	x8,x8,#11
	ldrh	w11,[x12,w11,uxtw #1]
	strh	w11,[x25,x9]
16:
	mov	w9,#34079
	mov	w11,#100
	movk	w9,#20971,lsl #16
	umull	x9,w10,w9
	lsr	x9,x9,#37
	msub	w9,w9,w11,w10
Lrtp_loh246:
	adrp	x11,lrtp__static.42@PAGE
Lrtp_loh247:
	add	x11,x11,lrtp__static.42@PAGEOFF
	ldrh	w9,[x11,w9,uxtw #1]
	strh	w9,[x25,x8]
	add	x8,x8,#2
	b	18f
9:
Lrtp_loh248:
	adrp	x13,lrtp__static.42@PAGE
Lrtp_loh249:
	add	x13,x13,lrtp__static.42@PAGEOFF
	add	x8,x8,#11
	ldrh	w13,[x13,w12,uxtw #1]
	strh	w13,[x25,x9]
15:
	mov	w9,#100
	msub	w9,w12,w9,w11
Lrtp_loh250:
	adrp	x12,lrtp__static.42@PAGE
Lrtp_loh251:
	add	x12,x12,lrtp__static.42@PAGEOFF
	and	x9,x9,#0xffff
	ldrh	w9,[x12,x9,lsl #1]
	strh	w9,[x25,x8]
	add	x8,x8,#2
27:
	mov	w9,#10000
	mov	w12,#5243
	add	x13,x25,x8
	msub	w9,w11,w9,w10
	add	x8,x8,#4
	ubfx	w11,w9,#2,#14
	mul	w11,w11,w12
	mov	w12,#100
	lsr	w11,w11,#17
	msub	w9,w11,w12,w9
Lrtp_loh252:
	adrp	x12,lrtp__static.42@PAGE
Lrtp_loh253:
	add	x12,x12,lrtp__static.42@PAGEOFF
	ldrh	w11,[x12,w11,uxtw #1]
	strh	w11,[x13]
	and	x9,x9,#0xffff
	ldrh	w9,[x12,x9,lsl #1]
	strh	w9,[x13,#2]
18:
	mov	w9,#57600
	mov	w11,#5977
	mov	w12,#5243
	movk	w9,#1525,lsl #16
	movk	w11,#53687,lsl #16
	mov	w13,#10000
	msub	x9,x10,x9,x20
Lrtp_loh254:
	adrp	x15,lrtp__static.42@PAGE
Lrtp_loh255:
	add	x15,x15,lrtp__static.42@PAGEOFF
	mov	w10,w9
	umull	x10,w10,w11
	lsr	x10,x10,#45
	ubfx	w11,w10,#2,#14
	msub	w9,w10,w13,w9
	mov	w13,#100
	mul	w11,w11,w12
	ubfx	w14,w9,#2,#14
	lsr	w11,w11,#17
	mul	w12,w14,w12
	add	x14,x25,x8
	add	x8,x8,#8
	msub	w10,w11,w13,w10
	ldrh	w11,[x15,w11,uxtw #1]
	strh	w11,[x14]
	lsr	w11,w12,#17
	and	x10,x10,#0xffff
	ldrh	w10,[x15,x10,lsl #1]
	msub	w9,w11,w13,w9
	strh	w10,[x14,#2]
	ldrh	w10,[x15,w11,uxtw #1]
	and	x9,x9,#0xffff
	strh	w10,[x14,#4]
	ldrh	w9,[x15,x9,lsl #1]
	strh	w9,[x14,#6]
	add	x9,x25,x8
	mov	w10,#8250
	cmp	w5,#2
	strh	w10,[x9],#2
	b.ne	13b
14:
	mov	w10,#29557
	mov	w11,#25970
	add	x8,x8,#9
	movk	w10,#25701,lsl #16
	movk	w11,#30054,lsl #16
	stur	w10,[x9,#3]
	str	w11,[x9]
28:
	mov	w9,#8190
	add	x22,x8,#1
	cmp	x8,x9
	mov	w9,#10
	strb	w9,[x25,x8]
	b.ls	5b
	mov	x0,x25
	mov	x1,x22
	bl	_rtp_listing.printing.write_text.df9e9f1468b30f79
	tst	w0,#0xff
	b.eq	4b
	b	4f
23:
Lrtp_loh256:
	adrp	x10,lrtp__static.42@PAGE
Lrtp_loh257:
	add	x10,x10,lrtp__static.42@PAGEOFF
	add	x8,x8,#10
	ldrh	w10,[x10,x3,lsl #1]
	strh	w10,[x25,x9]
	b	28b
31:
	ubfx	w11,w10,#2,#14
	mov	w12,#5243
	mul	w11,w11,w12
	mov	x12,#59392
	movk	x12,#18550,lsl #16
	movk	x12,#23,lsl #32
	lsr	w11,w11,#17
	cmp	x3,x12
	b.hs	5f
	orr	w11,w11,#0x30
	strb	w11,[x25,x9]
	add	x8,x8,#9
	b	9f
34:
Lrtp_loh258:
	adrp	x11,lrtp__static.42@PAGE
Lrtp_loh259:
	add	x11,x11,lrtp__static.42@PAGEOFF
	add	x8,x8,#10
	ldrh	w11,[x11,w10,uxtw #1]
	strh	w11,[x25,x9]
	b	35f
36:
Lrtp_loh260:
	adrp	x11,lrtp__static.42@PAGE
Lrtp_loh261:
	add	x11,x11,lrtp__static.42@PAGEOFF
	add	x8,x8,#10
	ldrh	w10,[x11,x10,lsl #1]
	strh	w10,[x25,x9]
	b	37f
7:
Lrtp_loh262:
	adrp	x11,lrtp__static.42@PAGE
Lrtp_loh263:
	add	x11,x11,lrtp__static.42@PAGEOFF
	add	x8,x8,#10
	ldrh	w11,[x11,w10,uxtw #1]
	strh	w11,[x25,x9]
21:
	mov	w9,#100
	msub	w9,w10,w9,w3
Lrtp_loh264:
	adrp	x10,lrtp__static.42@PAGE
Lrtp_loh265:
	add	x10,x10,lrtp__static.42@PAGEOFF
	and	x9,x9,#0xffff
	ldrh	w9,[x10,x9,lsl #1]
	strh	w9,[x25,x8]
	add	x8,x8,#2
	b	28b
19:
	ubfx	w12,w11,#2,#14
	mov	w13,#5243
	mul	w12,w12,w13
	mov	x13,#1125899906809856
	movk	x13,#42182,lsl #16
	movk	x13,#36222,lsl #32
	lsr	w12,w12,#17
	cmp	x3,x13
	b.hs	7f
	orr	w13,w12,#0x30
	strb	w13,[x25,x9]
	add	x8,x8,#9
	b	12f
20:
Lrtp_loh266:
	adrp	x12,lrtp__static.42@PAGE
Lrtp_loh267:
	add	x12,x12,lrtp__static.42@PAGEOFF
	add	x8,x8,#10
	ldrh	w12,[x12,w11,uxtw #1]
	strh	w12,[x25,x9]
38:
	mov	w9,#100
	msub	w9,w11,w9,w10
Lrtp_loh268:
	adrp	x11,lrtp__static.42@PAGE
Lrtp_loh269:
	add	x11,x11,lrtp__static.42@PAGEOFF
	and	x9,x9,#0xffff
	ldrh	w9,[x11,x9,lsl #1]
	strh	w9,[x25,x8]
	add	x8,x8,#2
35:
	mov	w9,#10000
	mov	w11,#5243
	add	x12,x25,x8
	msub	w9,w10,w9,w3
	add	x8,x8,#4
	ubfx	w10,w9,#2,#14
	mul	w10,w10,w11
	mov	w11,#100
	lsr	w10,w10,#17
	msub	w9,w10,w11,w9
Lrtp_loh270:
	adrp	x11,lrtp__static.42@PAGE
Lrtp_loh271:
	add	x11,x11,lrtp__static.42@PAGEOFF
	ldrh	w10,[x11,w10,uxtw #1]
	strh	w10,[x12]
	and	x9,x9,#0xffff
	ldrh	w9,[x11,x9,lsl #1]
	strh	w9,[x12,#2]
	b	28b
8:
Lrtp_loh272:
	adrp	x12,lrtp__static.42@PAGE
Lrtp_loh273:
	add	x12,x12,lrtp__static.42@PAGEOFF
	add	x8,x8,#10
	ldrh	w12,[x12,w11,uxtw #1]
	strh	w12,[x25,x9]
39:
	mov	w9,#100
	msub	w9,w11,w9,w10
Lrtp_loh274:
	adrp	x10,lrtp__static.42@PAGE
Lrtp_loh275:
	add	x10,x10,lrtp__static.42@PAGEOFF
	and	x9,x9,#0xffff
	ldrh	w9,[x10,x9,lsl #1]
	strh	w9,[x25,x8]
	add	x8,x8,#2
37:
	mov	x9,#52989
	mov	w11,#57600
	mov	w14,#10000
	movk	x9,#33889,lsl #16
	movk	w11,#1525,lsl #16
	mov	w16,#5977
	movk	x9,#30481,lsl #32
	mov	w15,#100
	movk	w16,#53687,lsl #16
	movk	x9,#43980,lsl #48
Lrtp_loh276:
	adrp	x0,lrtp__static.42@PAGE
Lrtp_loh277:
	add	x0,x0,lrtp__static.42@PAGEOFF
	umulh	x9,x3,x9
	add	x1,x25,x8
	add	x8,x8,#16
	lsr	x10,x9,#26
	mov	x9,#35011
	movk	x9,#58939,lsl #16
	movk	x9,#85,lsl #32
	umulh	x9,x10,x9
	lsr	x9,x9,#1
	umsubl	x11,w9,w11,x10
	mov	w9,#47291
	movk	w9,#1677,lsl #16
	msub	w10,w10,w26,w3
	mul	x9,x11,x9
	umull	x16,w10,w16
	lsr	x12,x9,#40
	mov	w9,#5243
	mul	w13,w12,w9
	msub	w11,w12,w14,w11
	lsr	w13,w13,#19
	ubfx	w17,w11,#2,#14
	msub	w12,w13,w15,w12
	ldrh	w13,[x0,w13,uxtw #1]
	mul	w17,w17,w9
	strh	w13,[x1]
	lsr	x13,x16,#45
	and	x12,x12,#0xffff
	ldrh	w12,[x0,x12,lsl #1]
	lsr	w16,w17,#17
	ubfx	w17,w13,#2,#14
	msub	w10,w13,w14,w10
	strh	w12,[x1,#2]
	msub	w11,w16,w15,w11
	ldrh	w12,[x0,w16,uxtw #1]
	mul	w16,w17,w9
	ubfx	w14,w10,#2,#14
	strh	w12,[x1,#4]
	and	x11,x11,#0xffff
	ldrh	w11,[x0,x11,lsl #1]
	lsr	w12,w16,#17
	mul	w9,w14,w9
	strh	w11,[x1,#6]
	msub	w11,w12,w15,w13
	ldrh	w12,[x0,w12,uxtw #1]
	lsr	w9,w9,#17
	strh	w12,[x1,#8]
	and	x11,x11,#0xffff
	msub	w10,w9,w15,w10
	ldrh	w11,[x0,x11,lsl #1]
	strh	w11,[x1,#10]
	ldrh	w9,[x0,w9,uxtw #1]
	strh	w9,[x1,#12]
	and	x9,x10,#0xffff
	ldrh	w9,[x0,x9,lsl #1]
	strh	w9,[x1,#14]
	b	28b
32:
Lrtp_loh278:
	adrp	x11,lrtp__static.42@PAGE
Lrtp_loh279:
	add	x11,x11,lrtp__static.42@PAGEOFF
	add	x8,x8,#10
	ldrh	w11,[x11,x10,lsl #1]
	strh	w11,[x25,x9]
	b	33f
22:
Lrtp_loh280:
	adrp	x12,lrtp__static.42@PAGE
Lrtp_loh281:
	add	x12,x12,lrtp__static.42@PAGEOFF
	add	x8,x8,#10
	ldrh	w12,[x12,w11,uxtw #1]
	strh	w12,[x25,x9]
	b	29f
5:
Lrtp_loh282:
	adrp	x12,lrtp__static.42@PAGE
Lrtp_loh283:
	add	x12,x12,lrtp__static.42@PAGEOFF
	add	x8,x8,#10
	ldrh	w11,[x12,w11,uxtw #1]
	strh	w11,[x25,x9]
9:
	mov	w9,#34079
	mov	w11,#100
	movk	w9,#20971,lsl #16
	umull	x9,w10,w9
	lsr	x9,x9,#37
	msub	w9,w9,w11,w10
Lrtp_loh284:
	adrp	x11,lrtp__static.42@PAGE
Lrtp_loh285:
	add	x11,x11,lrtp__static.42@PAGEOFF
	ldrh	w9,[x11,w9,uxtw #1]
	strh	w9,[x25,x8]
	add	x8,x8,#2
	b	33f
7:
Lrtp_loh286:
	adrp	x13,lrtp__static.42@PAGE
Lrtp_loh287:
	add	x13,x13,lrtp__static.42@PAGEOFF
	add	x8,x8,#10
	ldrh	w13,[x13,w12,uxtw #1]
	strh	w13,[x25,x9]
12:
	mov	w9,#100
	msub	w9,w12,w9,w11
Lrtp_loh288:
	adrp	x12,lrtp__static.42@PAGE
Lrtp_loh289:
	add	x12,x12,lrtp__static.42@PAGEOFF
	and	x9,x9,#0xffff
	ldrh	w9,[x12,x9,lsl #1]
	strh	w9,[x25,x8]
	add	x8,x8,#2
29:
	mov	w9,#10000
	mov	w12,#5243
	add	x13,x25,x8
	msub	w9,w11,w9,w10
	add	x8,x8,#4
	ubfx	w11,w9,#2,#14
	mul	w11,w11,w12
	mov	w12,#100
	lsr	w11,w11,#17
	msub	w9,w11,w12,w9
Lrtp_loh290:
	adrp	x12,lrtp__static.42@PAGE
Lrtp_loh291:
	add	x12,x12,lrtp__static.42@PAGEOFF
	ldrh	w11,[x12,w11,uxtw #1]
	strh	w11,[x13]
	and	x9,x9,#0xffff
	ldrh	w9,[x12,x9,lsl #1]
	strh	w9,[x13,#2]
33:
	mov	w9,#57600
	mov	w11,#5977
	mov	w12,#5243
	movk	w9,#1525,lsl #16
	movk	w11,#53687,lsl #16
	mov	w13,#10000
	msub	x9,x10,x9,x3
Lrtp_loh292:
	adrp	x15,lrtp__static.42@PAGE
Lrtp_loh293:
	add	x15,x15,lrtp__static.42@PAGEOFF
	mov	w10,w9
	umull	x10,w10,w11
	lsr	x10,x10,#45
	ubfx	w11,w10,#2,#14
	msub	w9,w10,w13,w9
	mov	w13,#100
	mul	w11,w11,w12
	ubfx	w14,w9,#2,#14
	lsr	w11,w11,#17
	mul	w12,w14,w12
	add	x14,x25,x8
	add	x8,x8,#8
	msub	w10,w11,w13,w10
	ldrh	w11,[x15,w11,uxtw #1]
	strh	w11,[x14]
	lsr	w11,w12,#17
	and	x10,x10,#0xffff
	ldrh	w10,[x15,x10,lsl #1]
	msub	w9,w11,w13,w9
	strh	w10,[x14,#2]
	ldrh	w10,[x15,w11,uxtw #1]
	and	x9,x9,#0xffff
	strh	w10,[x14,#4]
	ldrh	w9,[x15,x9,lsl #1]
	strh	w9,[x14,#6]
	b	28b
11:
	add	x8,sp,#536
	mov	x19,x3
	add	x0,x8,#8
	bl	_rtp_std_alloc.vec.Vec.grow_amortized.fc13275a563fcb41
	cbz	w0,10f
	mov	x27,#2808348672
	ldr	x14,[sp,#552]
	mov	x3,x19
	movk	x27,#46771,lsl #32
	movk	x27,#3552,lsl #48
	ldrb	w8,[sp,#568]
	cmp	w8,#1
	b.eq	25b
24:
	mov	w0,#184
	mov	w1,#8
	mov	x22,x14
	mov	x19,x3
	bl	_rattle_alloc
	tbz	w0,#0,10f
	str	wzr,[x1]
	mov	x27,#2808348672
	mov	x3,x19
	ldrb	w8,[sp,#568]
	movk	x27,#46771,lsl #32
	mov	w9,#1
	movk	x27,#3552,lsl #48
	mov	x14,x22
	str	x9,[sp,#568]
	cmp	w8,#1
	str	x1,[sp,#576]
	b.eq	5f
30:
	ldrh	w24,[x1,#2]
	mov	w8,#15
	bfi	x3,x25,#16,#48
	mov	x19,xzr
	mov	x22,xzr
	mov	x11,x1
	sub	x8,x8,x24
	neg	x25,x24
	mov	x15,x1
	mov	x26,x8
	mov	x12,x11
	mov	x9,x11
	ldrh	w11,[x12],#4
	cbz	x11,7f
8:
	mov	x10,xzr
9:
	ldr	w13,[x12,x10,lsl #2]
	cmp	w23,w13
	mov	w13,#2
	csel	w13,wzr,w13,lo
	csinc	w13,w13,wzr,ne
	cmp	w13,#2
	b.ne	11f
	add	x10,x10,#1
	cmp	x11,x10
	b.ne	9b
	mov	x10,x11
	b	9f
11:
	cbz	w13,9f
	b	11f
7:
	mov	x10,xzr
9:
	ldrh	w11,[x9,#2]
	add	x22,x10,x22,lsl #4
	add	x26,x26,#1
	cbz	w11,9f
	add	x11,x9,x10,lsl #3
	add	x25,x25,#1
	mov	x19,x10
	mov	x15,x9
	ldr	x11,[x11,#184]
	mov	x12,x11
	mov	x9,x11
	ldrh	w11,[x12],#4
	cbnz	x11,8b
	b	7b
11:
	add	x8,x15,x19,lsl #3
	add	x9,x24,x26
	cmp	x9,#15
	ldr	x9,[sp,#88]
	add	x8,x8,#184
	csel	x8,x9,x8,eq
	and	x9,x10,#0xf
	ldr	x8,[x8]
	ldrh	w11,[x8]
	cmp	x9,x11
	b.hs	5f
	add	x8,x8,x9,lsl #3
	ldr	x25,[sp,#160]
	str	x14,[x8,#64]
7:
	ldr	x9,[sp,#552]
	ldr	x8,[sp,#544]
Lrtp_loh294:
	adrp	x10,lrtp_CPI5_2@PAGE
	mov	w26,#57600
	ldr	x22,[sp,#168]
Lrtp_loh295:
	ldr	q0,[x10,lrtp_CPI5_2@PAGEOFF]
	add	x11,x8,x9,lsl #6
	movk	w26,#1525,lsl #16
	mov	w8,#1
	add	x9,x9,#1
	mov	w5,#1
	str	w23,[x11]
	str	q0,[x11,#16]
	stp	x3,xzr,[x11,#32]
	stp	x8,xzr,[x11,#48]
	str	x9,[sp,#552]
	b	3b
9:
	ldr	x9,[sp,#584]
	mov	x10,#9223372036854775806
	str	x14,[sp,#24]
	str	x20,[sp,#120]
	cmp	x9,x10
	b.hi	10f
	lsl	x9,x19,#3
	sub	x12,x26,x8
	ldr	x11,[sp,#88]
	cmp	x12,#1
	str	x3,[sp,#40]
	add	x10,x15,x9
	add	x10,x10,#184
	csel	x10,x11,x10,eq
	ldr	x10,[x10]
	ldrh	w10,[x10]
	cmp	w10,#15
	b.lo	3f
	ldrh	w9,[x1]
	cmp	w9,#15
	b.lo	8f
	cmp	w24,#10
	b.hi	10f
	mov	w0,#312
	mov	w1,#8
	mov	x20,x15
	bl	_rattle_alloc
	tbz	w0,#0,10f
	add	w8,w24,#1
	mov	w9,#14
	ldr	x3,[sp,#40]
	strh	w8,[x1,#2]
	mov	x15,x20
	ldr	x8,[sp,#576]
	strh	wzr,[x1]
	str	x8,[x1,#184]
	sub	x8,x9,x24
	str	x1,[sp,#576]
8:
	ldr	x11,[sp,#72]
	subs	x9,x26,x8
	str	xzr,[sp,#664]
	str	x9,[sp,#16]
	str	xzr,[sp,#656]
	b.ls	8f
9:
	add	x9,x25,#15
	and	w10,w22,#0xf
	lsr	x22,x22,#4
	cmp	x8,x9
	strb	w10,[x11,x25]
	sub	x25,x25,#1
	b.lo	9b
8:
	mov	w9,#16
	ldr	q0,[sp,#656]
	sub	x9,x9,x8
	cmp	x9,#2
	str	x9,[sp,#136]
	str	q0,[sp,#640]
	b.lo	8f
	add	x9,sp,#640
	add	x22,x9,x8
	add	x8,sp,#536
	add	x26,x8,#40
	b	9f
11:
	add	w24,w24,#1
	sub	w8,w8,#8
	strb	w24,[x22]
	strb	w8,[x22,#1]
12:
	add	x9,x15,w24,uxtb #3
	ldr	x10,[sp,#136]
	add	x22,x22,#1
	cmp	x10,#2
	sub	x10,x10,#1
	add	x26,x9,#184
	str	x10,[sp,#136]
	b.ls	13f
9:
	ldrb	w24,[x22]
	ldr	x15,[x26]
	lsl	x25,x24,#3
	add	x8,x15,x25
	ldr	x8,[x8,#184]
	ldrh	w8,[x8]
	cmp	w8,#15
	b.lo	12b
	ldrh	w8,[x15,#2]
	subs	x19,x8,#1
	b.eq	9f
	mov	w0,#312
	b	14f
9:
	mov	w0,#184
14:
	mov	w1,#8
	bl	_rattle_alloc
	tbz	w0,#0,9f
	strh	w19,[x1,#2]
	mov	x27,x1
	add	x12,x1,#64
	ldr	x10,[x26]
	str	x25,[sp,#32]
	add	x8,x10,#184
	ldrh	w9,[x10,#2]
	str	x10,[sp,#128]
	ldr	x14,[x8,x25]
	str	x8,[sp,#112]
	add	x8,x1,#4
	ldrh	w11,[x10]
	cmp	w9,#0
	ldrh	w15,[x14]
	add	x10,x14,#36
	sub	x8,x8,x10
	ldrh	w10,[x14,#2]
	csinc	x9,xzr,x11,eq
	sub	x25,x15,#8
	str	x11,[sp,#80]
	lsl	x2,x25,#2
	str	x9,[sp,#48]
	str	w10,[sp,#56]
	cmp	x8,x2
	b.hs	14f
	cbz	x25,15f
	cmp	x25,#8
	b.lo	16f
	sub	x8,x27,x14
	sub	x8,x8,#32
	cmp	x8,#32
	b.hs	17f
16:
	mov	x8,xzr
16:
	lsl	x9,x8,#2
	sub	x8,x15,x8
	sub	x8,x8,#8
	add	x10,x14,x9
	add	x11,x27,x9
	add	x9,x10,#36
	add	x10,x11,#4
18:
	ldr	w11,[x9],#4
	subs	x8,x8,#1
	str	w11,[x10],#4
	b.ne	18b
	b	18f
14:
	add	x0,x27,#4
	add	x1,x14,#36
	mov	x19,x14
	mov	x20,x26
	sub	x26,x15,#8
	mov	x25,x15
	bl	_memmove
	add	x12,x27,#64
	mov	x15,x25
	mov	x25,x26
	mov	x26,x20
	mov	x14,x19
18:
	add	x1,x14,#128
	lsl	x2,x25,#3
	sub	x8,x12,x1
	cmp	x8,x2
	b.hs	14f
	ldr	x13,[sp,#128]
	cbz	x25,19f
	cmp	x25,#4
	b.lo	20f
	sub	x8,x27,x14
	sub	x8,x8,#64
	cmp	x8,#32
	b.hs	21f
20:
	mov	x8,xzr
20:
	lsl	x9,x8,#3
	sub	x8,x15,x8
	sub	x8,x8,#8
	add	x10,x14,x9
	add	x11,x27,x9
	add	x9,x10,#128
	add	x10,x11,#64
22:
	ldr	x11,[x9],#8
	subs	x8,x8,#1
	str	x11,[x10],#8
	b.ne	22b
	b	19f
14:
	mov	x20,x26
	mov	x26,x15
	mov	x19,x14
	b	14f
15:
	mov	x20,x26
	sub	x25,x15,#8
	mov	x26,x15
	mov	x2,xzr
	mov	x19,x14
	add	x1,x14,#128
14:
	add	x0,x27,#64
	bl	_memmove
	ldr	x13,[sp,#128]
	mov	x14,x19
	mov	x15,x26
	mov	x26,x20
19:
	ldr	w19,[x14,#32]
	ldr	x16,[x14,#120]
	ldr	w8,[sp,#56]
	str	x22,[sp,#64]
	cbz	w8,14f
	sub	x8,x15,#7
	add	x9,x27,#184
	add	x10,x14,#248
	lsl	x2,x8,#3
	sub	x9,x9,x10
	cmp	x9,x2
	b.hs	15f
	cbz	x8,14f
	cmp	x8,#4
	b.lo	22f
	sub	x9,x27,x14
	sub	x9,x9,#64
	cmp	x9,#32
	b.hs	23f
22:
	mov	x9,xzr
22:
	lsl	x8,x9,#3
	sub	x9,x15,x9
	add	x10,x14,x8
	add	x11,x27,x8
	sub	x8,x9,#7
	add	x9,x10,#248
	add	x10,x11,#184
24:
	ldr	x11,[x9],#8
	subs	x8,x8,#1
	str	x11,[x10],#8
	b.ne	24b
	b	14f
15:
	add	x0,x27,#184
	add	x1,x14,#248
	mov	x22,x14
	mov	x20,x16
	bl	_memmove
	ldr	x13,[sp,#128]
	mov	x16,x20
	mov	x14,x22
14:
	mov	w8,#7
	add	x9,x13,#4
	ldr	x11,[sp,#112]
	strh	w8,[x14]
	ldr	x8,[sp,#80]
	mov	x22,x27
	strh	w25,[x27]
	add	x25,x9,x24,lsl #2
	subs	x20,x8,x24
	mov	x8,x24
	str	x26,[sp,#56]
	add	x24,x13,#64
	mov	x26,x8
	str	x14,[x11,x8,lsl #3]
	b.ne	15f
	str	w19,[x25]
	b	24f
15:
	lsl	x2,x20,#2
	add	x0,x25,#4
	mov	x1,x25
	mov	x27,x16
	bl	_memmove
	ldr	x8,[sp,#32]
	lsl	x2,x20,#3
	str	w19,[x25]
	add	x1,x24,x8
	add	x0,x1,#8
	bl	_memmove
	ldr	x11,[sp,#112]
	mov	x16,x27
24:
	ldr	x10,[sp,#48]
	add	x9,x26,#1
	str	x16,[x24,x26,lsl #3]
	mov	x24,x26
	mov	x25,x22
	subs	x8,x10,x9
	b.ne	15f
	lsl	x19,x10,#3
	b	24f
15:
	lsl	x19,x9,#3
	lsl	x2,x8,#3
	add	x1,x11,x19
	add	x0,x1,#8
	bl	_memmove
	ldr	x11,[sp,#112]
24:
	ldp	x10,x22,[sp,#56]
	ldr	x9,[sp,#80]
	ldr	x3,[sp,#40]
	ldr	x15,[sp,#128]
	str	x25,[x11,x19]
	add	x9,x9,#1
	ldrb	w8,[x22,#1]
	strh	w9,[x15]
	str	x15,[x10]
	cmp	w8,#7
	b.hi	11b
	ldrb	w24,[x22]
	b	12b
17:
	and	x8,x25,#0xfffffffffffffff8
	add	x9,x14,#52
	add	x10,x27,#20
	and	x11,x25,#0xfffffffffffffff8
11:
	ldp	q0,q1,[x9,#-16]
	subs	x11,x11,#8
	add	x9,x9,#32
	stp	q0,q1,[x10,#-16]
	add	x10,x10,#32
	b.ne	11b
	cmp	x25,x8
	b.eq	18b
	b	16b
21:
	and	x8,x25,#0xfffffffffffffffc
	add	x9,x14,#144
	add	x10,x27,#80
	and	x11,x25,#0xfffffffffffffffc
11:
	ldp	q0,q1,[x9,#-16]
	subs	x11,x11,#4
	add	x9,x9,#32
	stp	q0,q1,[x10,#-16]
	add	x10,x10,#32
	b.ne	11b
	cmp	x25,x8
	b.eq	19b
	b	20b
23:
	and	x9,x8,#0xfffffffffffffffc
	add	x10,x14,#264
	add	x11,x27,#200
	and	x12,x8,#0xfffffffffffffffc
11:
	ldp	q0,q1,[x10,#-16]
	subs	x12,x12,#4
	add	x10,x10,#32
	stp	q0,q1,[x11,#-16]
	add	x11,x11,#32
	b.ne	11b
	cmp	x8,x9
	b.eq	14b
	b	22b
13:
	mov	w8,w24
	ldr	x1,[sp,#576]
	and	x19,x8,#0xff
8:
	ldrh	w8,[x1]
	cbz	w8,8f
	ldrb	w8,[sp,#568]
	cmp	w8,#1
	b.ne	5f
	ldrb	w22,[sp,#655]
	lsl	x9,x19,#3
	ldr	x12,[sp,#16]
3:
	add	x8,x15,x9
	ldr	x9,[sp,#88]
	cmp	x12,#1
	add	x8,x8,#184
	and	x20,x22,#0xf
	csel	x10,x9,x8,eq
	ldr	x25,[x10]
	mov	x26,x25
	add	x8,x25,x20,lsl #2
	ldrh	w22,[x26],#64
	add	x24,x8,#4
	subs	x19,x22,x20
	b.ne	3f
	lsl	x27,x20,#3
	str	w23,[x24]
	b	11f
3:
	lsl	x2,x19,#2
	add	x0,x24,#4
	mov	x1,x24
	str	x10,[sp,#136]
	bl	_memmove
	lsl	x27,x20,#3
	lsl	x2,x19,#3
	str	w23,[x24]
	add	x1,x26,x27
	add	x0,x1,#8
	bl	_memmove
	ldr	x10,[sp,#136]
	ldr	x3,[sp,#40]
11:
	ldr	x9,[sp,#24]
	add	w8,w22,#1
	ldr	x20,[sp,#120]
	str	x9,[x26,x27]
	mov	x27,#2808348672
	strh	w8,[x25]
	movk	x27,#46771,lsl #32
	str	x25,[x10]
	ldr	x25,[sp,#160]
	movk	x27,#3552,lsl #48
	ldr	x8,[sp,#584]
	add	x8,x8,#1
	str	x8,[sp,#584]
	b	7b
1:
	ldrb	w8,[sp,#464]
	cmp	w8,#1
	b.ne	1f
	ldp	x19,x21,[sp,#480]
	ldr	x22,[sp,#496]
	cbz	x21,3f
	mov	x23,xzr
	b	7f
11:
	add	x23,x23,#1
	cmp	x23,x21
	b.eq	3f
7:
	mov	w8,#24
	madd	x8,x23,x8,x19
	ldp	x20,x24,[x8]
	ldr	x25,[x8,#16]
	cbz	x24,7f
	add	x26,x20,#16
	b	12f
13:
	subs	x24,x24,#1
	add	x26,x26,#32
	b.eq	7f
12:
	ldr	x8,[x26]
	cbz	x8,13b
	ldur	x0,[x26,#-16]
	bl	_rattle_dealloc
	b	13b
7:
	cbz	x25,11b
	mov	x0,x20
	bl	_rattle_dealloc
	b	11b
3:
	cbz	x22,1f
	mov	x0,x19
	bl	_rattle_dealloc
1:
	ldr	x8,[sp,#528]
	cbz	x8,1f
	add	x0,sp,#672
3:
	bl	_rattle_dealloc
1:
	ldr	x8,[sp,#560]
	ldrb	w22,[sp,#568]
	ldr	x20,[sp,#576]
	ldr	x19,[sp,#600]
	ldr	x21,[sp,#616]
	cbz	x8,7f
	ldr	x0,[sp,#544]
	bl	_rattle_dealloc
7:
	cmp	w22,#1
	b.ne	7f
	mov	x0,x20
	bl	_rtp_std_collections.btree.node.Node.destroy.2fe7f96373f75378
7:
	cbz	x21,7f
	mov	x0,x19
	bl	_rattle_dealloc
7:
	mov	w0,#1
	mov	w1,#2
	b	7f
2:
	mov	x22,xzr
6:
	mov	x0,x25
	mov	x1,x22
	bl	_rtp_listing.printing.write_text.df9e9f1468b30f79
	tst	w0,#0x1
	and	w19,w0,#0xff
	mov	x0,x25
	csel	w21,w1,wzr,ne
	bl	_rattle_dealloc
	ldrb	w8,[sp,#464]
	cmp	w8,#1
	cbz	w19,2f
	b.ne	6f
	ldp	x19,x22,[sp,#480]
	ldr	x23,[sp,#496]
	cbz	x22,11f
	mov	x24,xzr
	b	12f
13:
	add	x24,x24,#1
	cmp	x24,x22
	b.eq	11f
12:
	mov	w8,#24
	madd	x8,x24,x8,x19
	ldp	x20,x25,[x8]
	ldr	x26,[x8,#16]
	cbz	x25,12f
	add	x27,x20,#16
	b	14f
15:
	subs	x25,x25,#1
	add	x27,x27,#32
	b.eq	12f
14:
	ldr	x8,[x27]
	cbz	x8,15b
	ldur	x0,[x27,#-16]
	bl	_rattle_dealloc
	b	15b
12:
	cbz	x26,13b
	mov	x0,x20
	bl	_rattle_dealloc
	b	13b
2:
	b.ne	2f
	add	x9,sp,#200
	ldr	x8,[sp,#480]
	add	x0,sp,#176
	ldr	q0,[x9,#288]
	str	x8,[sp,#176]
	stur	q0,[sp,#184]
	bl	_rtp_std_alloc.vec.Vec.drop.96fc43e7743eb198
2:
	ldr	x8,[sp,#528]
	cbz	x8,2f
	ldr	x0,[sp,#512]
	bl	_rattle_dealloc
2:
	ldr	x8,[sp,#560]
	ldrb	w22,[sp,#568]
	ldr	x20,[sp,#576]
	ldr	x19,[sp,#600]
	ldr	x21,[sp,#616]
	cbz	x8,2f
	ldr	x0,[sp,#544]
	bl	_rattle_dealloc
2:
	cmp	w22,#1
	b.ne	2f
	mov	x0,x20
	bl	_rtp_std_collections.btree.node.Node.destroy.2fe7f96373f75378
2:
	cbz	x21,2f
	mov	x0,x19
	bl	_rattle_dealloc
2:
	mov	w1,wzr
	mov	w0,wzr
	b	7f
4:
	mov	x0,x25
	mov	w21,w1
	bl	_rattle_dealloc
	ldrb	w8,[sp,#464]
	cmp	w8,#1
	b.ne	6f
	ldp	x19,x22,[sp,#480]
	ldr	x23,[sp,#496]
	cbz	x22,11f
	mov	x24,xzr
	b	2f
4:
	add	x24,x24,#1
	cmp	x24,x22
	b.eq	11f
2:
	mov	w8,#24
	madd	x8,x24,x8,x19
	ldp	x20,x25,[x8]
	ldr	x26,[x8,#16]
	cbz	x25,2f
	add	x27,x20,#16
	b	12f
13:
	subs	x25,x25,#1
	add	x27,x27,#32
	b.eq	2f
12:
	ldr	x8,[x27]
	cbz	x8,13b
	ldur	x0,[x27,#-16]
	bl	_rattle_dealloc
	b	13b
2:
	cbz	x26,4b
	mov	x0,x20
	bl	_rattle_dealloc
	b	4b
11:
	cbz	x23,6f
2:
	mov	x0,x19
	bl	_rattle_dealloc
6:
	ldr	x8,[sp,#528]
	cbz	x8,4f
	ldr	x0,[sp,#512]
	bl	_rattle_dealloc
4:
	ldr	x8,[sp,#560]
	ldrb	w23,[sp,#568]
	ldr	x20,[sp,#576]
	ldr	x19,[sp,#600]
	ldr	x22,[sp,#616]
	cbz	x8,4f
	ldr	x0,[sp,#544]
	bl	_rattle_dealloc
4:
	cmp	w23,#1
	b.ne	4f
	mov	x0,x20
	bl	_rtp_std_collections.btree.node.Node.destroy.2fe7f96373f75378
4:
	cbz	x22,4f
	mov	x0,x19
	bl	_rattle_dealloc
4:
	mov	w0,#1
	mov	w1,w21
7:
	add	sp,sp,#688
	ldp	x29,x30,[sp,#80]
	ldp	x20,x19,[sp,#64]
	ldp	x22,x21,[sp,#48]
	ldp	x24,x23,[sp,#32]
	ldp	x26,x25,[sp,#16]
	ldr	x27,[sp],#96
	ret
9:
	ldr	x1,[sp,#576]
	ldrh	w8,[x1]
	cbnz	w8,10f
8:
	ldrh	w8,[x1,#2]
	cbz	w8,10f
	ldr	x19,[x1,#184]
	mov	x0,x1
	bl	_rattle_dealloc
	str	x19,[sp,#576]
10:
	ldp	x19,x1,[sp,#160]
	mov	x0,x19
	bl	_rtp_listing.printing.write_text.df9e9f1468b30f79
	tst	w0,#0x1
	and	w20,w0,#0xff
	mov	x0,x19
	csel	w21,w1,wzr,ne
	bl	_rattle_dealloc
	ldrb	w8,[sp,#464]
	ldp	x19,x23,[sp,#480]
	ldr	x22,[sp,#496]
	cmp	w8,#1
	cbz	w20,4f
	b.ne	6b
	cbz	x23,7f
	mov	x24,xzr
	b	8f
9:
	add	x24,x24,#1
	cmp	x24,x23
	b.eq	7f
8:
	mov	w8,#24
	madd	x8,x24,x8,x19
	ldp	x20,x25,[x8]
	ldr	x26,[x8,#16]
	cbz	x25,8f
	add	x27,x20,#16
	b	10f
11:
	subs	x25,x25,#1
	add	x27,x27,#32
	b.eq	8f
10:
	ldr	x8,[x27]
	cbz	x8,11b
	ldur	x0,[x27,#-16]
	bl	_rattle_dealloc
	b	11b
8:
	cbz	x26,9b
	mov	x0,x20
	bl	_rattle_dealloc
	b	9b
4:
	b.ne	4f
	cbz	x23,8f
	mov	x21,xzr
	b	9f
10:
	add	x21,x21,#1
	cmp	x21,x23
	b.eq	8f
9:
	mov	w8,#24
	madd	x8,x21,x8,x19
	ldp	x20,x24,[x8]
	ldr	x25,[x8,#16]
	cbz	x24,9f
	add	x26,x20,#16
	b	11f
12:
	subs	x24,x24,#1
	add	x26,x26,#32
	b.eq	9f
11:
	ldr	x8,[x26]
	cbz	x8,12b
	ldur	x0,[x26,#-16]
	bl	_rattle_dealloc
	b	12b
9:
	cbz	x25,10b
	mov	x0,x20
	bl	_rattle_dealloc
	b	10b
7:
	cbnz	x22,2b
	b	6b
8:
	cbz	x22,4f
	mov	x0,x19
	bl	_rattle_dealloc
4:
	ldr	x8,[sp,#528]
	cbz	x8,1b
	ldr	x0,[sp,#512]
	b	3b
5:
	brk	#0x1
	.loh AdrpLdr	Lrtp_loh2,Lrtp_loh3
	.loh AdrpAdd	Lrtp_loh4,Lrtp_loh5
	.loh AdrpAdd	Lrtp_loh6,Lrtp_loh7
	.loh AdrpAdd	Lrtp_loh8,Lrtp_loh9
	.loh AdrpAdd	Lrtp_loh10,Lrtp_loh11
	.loh AdrpAdd	Lrtp_loh12,Lrtp_loh13
	.loh AdrpAdd	Lrtp_loh14,Lrtp_loh15
	.loh AdrpAdd	Lrtp_loh16,Lrtp_loh17
	.loh AdrpAdd	Lrtp_loh18,Lrtp_loh19
	.loh AdrpAdd	Lrtp_loh20,Lrtp_loh21
	.loh AdrpAdd	Lrtp_loh22,Lrtp_loh23
	.loh AdrpAdd	Lrtp_loh24,Lrtp_loh25
	.loh AdrpAdd	Lrtp_loh26,Lrtp_loh27
	.loh AdrpAdd	Lrtp_loh28,Lrtp_loh29
	.loh AdrpAdd	Lrtp_loh30,Lrtp_loh31
	.loh AdrpAdd	Lrtp_loh32,Lrtp_loh33
	.loh AdrpAdd	Lrtp_loh34,Lrtp_loh35
	.loh AdrpAdd	Lrtp_loh36,Lrtp_loh37
	.loh AdrpAdd	Lrtp_loh38,Lrtp_loh39
	.loh AdrpAdd	Lrtp_loh40,Lrtp_loh41
	.loh AdrpAdd	Lrtp_loh42,Lrtp_loh43
	.loh AdrpAdd	Lrtp_loh44,Lrtp_loh45
	.loh AdrpAdd	Lrtp_loh46,Lrtp_loh47
	.loh AdrpAdd	Lrtp_loh48,Lrtp_loh49
	.loh AdrpAdd	Lrtp_loh50,Lrtp_loh51
	.loh AdrpAdd	Lrtp_loh52,Lrtp_loh53
	.loh AdrpAdd	Lrtp_loh54,Lrtp_loh55
	.loh AdrpAdd	Lrtp_loh56,Lrtp_loh57
	.loh AdrpAdd	Lrtp_loh58,Lrtp_loh59
	.loh AdrpAdd	Lrtp_loh60,Lrtp_loh61
	.loh AdrpAdd	Lrtp_loh62,Lrtp_loh63
	.loh AdrpAdd	Lrtp_loh64,Lrtp_loh65
	.loh AdrpAdd	Lrtp_loh66,Lrtp_loh67
	.loh AdrpAdd	Lrtp_loh68,Lrtp_loh69
	.loh AdrpAdd	Lrtp_loh70,Lrtp_loh71
	.loh AdrpAdd	Lrtp_loh72,Lrtp_loh73
	.loh AdrpAdd	Lrtp_loh74,Lrtp_loh75
	.loh AdrpAdd	Lrtp_loh76,Lrtp_loh77
	.loh AdrpAdd	Lrtp_loh78,Lrtp_loh79
	.loh AdrpAdd	Lrtp_loh80,Lrtp_loh81
	.loh AdrpAdd	Lrtp_loh82,Lrtp_loh83
	.loh AdrpAdd	Lrtp_loh84,Lrtp_loh85
	.loh AdrpAdd	Lrtp_loh86,Lrtp_loh87
	.loh AdrpAdd	Lrtp_loh88,Lrtp_loh89
	.loh AdrpAdd	Lrtp_loh90,Lrtp_loh91
	.loh AdrpAdd	Lrtp_loh92,Lrtp_loh93
	.loh AdrpAdd	Lrtp_loh94,Lrtp_loh95
	.loh AdrpAdd	Lrtp_loh96,Lrtp_loh97
	.loh AdrpAdd	Lrtp_loh98,Lrtp_loh99
	.loh AdrpAdd	Lrtp_loh100,Lrtp_loh101
	.loh AdrpAdd	Lrtp_loh102,Lrtp_loh103
	.loh AdrpAdd	Lrtp_loh104,Lrtp_loh105
	.loh AdrpAdd	Lrtp_loh106,Lrtp_loh107
	.loh AdrpLdr	Lrtp_loh108,Lrtp_loh109
	.loh AdrpLdr	Lrtp_loh110,Lrtp_loh111
	.loh AdrpAdd	Lrtp_loh112,Lrtp_loh113
	.loh AdrpAdd	Lrtp_loh114,Lrtp_loh115
	.loh AdrpAdd	Lrtp_loh116,Lrtp_loh117
	.loh AdrpAdd	Lrtp_loh118,Lrtp_loh119
	.loh AdrpAdd	Lrtp_loh120,Lrtp_loh121
	.loh AdrpAdd	Lrtp_loh122,Lrtp_loh123
	.loh AdrpAdd	Lrtp_loh124,Lrtp_loh125
	.loh AdrpAdd	Lrtp_loh126,Lrtp_loh127
	.loh AdrpAdd	Lrtp_loh128,Lrtp_loh129
	.loh AdrpAdd	Lrtp_loh130,Lrtp_loh131
	.loh AdrpAdd	Lrtp_loh132,Lrtp_loh133
	.loh AdrpAdd	Lrtp_loh134,Lrtp_loh135
	.loh AdrpAdd	Lrtp_loh136,Lrtp_loh137
	.loh AdrpAdd	Lrtp_loh138,Lrtp_loh139
	.loh AdrpAdd	Lrtp_loh140,Lrtp_loh141
	.loh AdrpAdd	Lrtp_loh142,Lrtp_loh143
	.loh AdrpAdd	Lrtp_loh144,Lrtp_loh145
	.loh AdrpAdd	Lrtp_loh146,Lrtp_loh147
	.loh AdrpAdd	Lrtp_loh148,Lrtp_loh149
	.loh AdrpAdd	Lrtp_loh150,Lrtp_loh151
	.loh AdrpAdd	Lrtp_loh152,Lrtp_loh153
	.loh AdrpAdd	Lrtp_loh154,Lrtp_loh155
	.loh AdrpAdd	Lrtp_loh156,Lrtp_loh157
	.loh AdrpAdd	Lrtp_loh158,Lrtp_loh159
	.loh AdrpAdd	Lrtp_loh160,Lrtp_loh161
	.loh AdrpAdd	Lrtp_loh162,Lrtp_loh163
	.loh AdrpAdd	Lrtp_loh164,Lrtp_loh165
	.loh AdrpAdd	Lrtp_loh166,Lrtp_loh167
	.loh AdrpLdr	Lrtp_loh168,Lrtp_loh169
	.loh AdrpAdd	Lrtp_loh170,Lrtp_loh171
	.loh AdrpAdd	Lrtp_loh172,Lrtp_loh173
	.loh AdrpAdd	Lrtp_loh174,Lrtp_loh175
	.loh AdrpAdd	Lrtp_loh176,Lrtp_loh177
	.loh AdrpAdd	Lrtp_loh178,Lrtp_loh179
	.loh AdrpAdd	Lrtp_loh180,Lrtp_loh181
	.loh AdrpAdd	Lrtp_loh182,Lrtp_loh183
	.loh AdrpAdd	Lrtp_loh184,Lrtp_loh185
	.loh AdrpAdd	Lrtp_loh186,Lrtp_loh187
	.loh AdrpAdd	Lrtp_loh188,Lrtp_loh189
	.loh AdrpAdd	Lrtp_loh190,Lrtp_loh191
	.loh AdrpAdd	Lrtp_loh192,Lrtp_loh193
	.loh AdrpAdd	Lrtp_loh194,Lrtp_loh195
	.loh AdrpAdd	Lrtp_loh196,Lrtp_loh197
	.loh AdrpAdd	Lrtp_loh198,Lrtp_loh199
	.loh AdrpAdd	Lrtp_loh200,Lrtp_loh201
	.loh AdrpAdd	Lrtp_loh202,Lrtp_loh203
	.loh AdrpAdd	Lrtp_loh204,Lrtp_loh205
	.loh AdrpAdd	Lrtp_loh206,Lrtp_loh207
	.loh AdrpAdd	Lrtp_loh208,Lrtp_loh209
	.loh AdrpAdd	Lrtp_loh210,Lrtp_loh211
	.loh AdrpAdd	Lrtp_loh212,Lrtp_loh213
	.loh AdrpAdd	Lrtp_loh214,Lrtp_loh215
	.loh AdrpAdd	Lrtp_loh216,Lrtp_loh217
	.loh AdrpAdd	Lrtp_loh218,Lrtp_loh219
	.loh AdrpAdd	Lrtp_loh220,Lrtp_loh221
	.loh AdrpAdd	Lrtp_loh222,Lrtp_loh223
	.loh AdrpAdd	Lrtp_loh224,Lrtp_loh225
	.loh AdrpAdd	Lrtp_loh226,Lrtp_loh227
	.loh AdrpAdd	Lrtp_loh228,Lrtp_loh229
	.loh AdrpAdd	Lrtp_loh230,Lrtp_loh231
	.loh AdrpAdd	Lrtp_loh232,Lrtp_loh233
	.loh AdrpAdd	Lrtp_loh234,Lrtp_loh235
	.loh AdrpAdd	Lrtp_loh236,Lrtp_loh237
	.loh AdrpAdd	Lrtp_loh238,Lrtp_loh239
	.loh AdrpAdd	Lrtp_loh240,Lrtp_loh241
	.loh AdrpAdd	Lrtp_loh242,Lrtp_loh243
	.loh AdrpAdd	Lrtp_loh244,Lrtp_loh245
	.loh AdrpAdd	Lrtp_loh246,Lrtp_loh247
	.loh AdrpAdd	Lrtp_loh248,Lrtp_loh249
	.loh AdrpAdd	Lrtp_loh250,Lrtp_loh251
	.loh AdrpAdd	Lrtp_loh252,Lrtp_loh253
	.loh AdrpAdd	Lrtp_loh254,Lrtp_loh255
	.loh AdrpAdd	Lrtp_loh256,Lrtp_loh257
	.loh AdrpAdd	Lrtp_loh258,Lrtp_loh259
	.loh AdrpAdd	Lrtp_loh260,Lrtp_loh261
	.loh AdrpAdd	Lrtp_loh262,Lrtp_loh263
	.loh AdrpAdd	Lrtp_loh264,Lrtp_loh265
	.loh AdrpAdd	Lrtp_loh266,Lrtp_loh267
	.loh AdrpAdd	Lrtp_loh268,Lrtp_loh269
	.loh AdrpAdd	Lrtp_loh270,Lrtp_loh271
	.loh AdrpAdd	Lrtp_loh272,Lrtp_loh273
	.loh AdrpAdd	Lrtp_loh274,Lrtp_loh275
	.loh AdrpAdd	Lrtp_loh276,Lrtp_loh277
	.loh AdrpAdd	Lrtp_loh278,Lrtp_loh279
	.loh AdrpAdd	Lrtp_loh280,Lrtp_loh281
	.loh AdrpAdd	Lrtp_loh282,Lrtp_loh283
	.loh AdrpAdd	Lrtp_loh284,Lrtp_loh285
	.loh AdrpAdd	Lrtp_loh286,Lrtp_loh287
	.loh AdrpAdd	Lrtp_loh288,Lrtp_loh289
	.loh AdrpAdd	Lrtp_loh290,Lrtp_loh291
	.loh AdrpAdd	Lrtp_loh292,Lrtp_loh293
	.loh AdrpLdr	Lrtp_loh294,Lrtp_loh295
	.cfi_endproc

	.section	__TEXT,__literal8,8byte_literals
	.p2align	3,0x0
lrtp_CPI6_0:
	.long	100
	.long	0
	.section	__TEXT,__text,regular,pure_instructions
	.p2align	2
_rtp_ext.block_values.read_values.77e50c5f4ddfc773:
	.cfi_startproc
	sub	sp,sp,#240
	str	x27,[sp,#144]
	stp	x26,x25,[sp,#160]
	stp	x24,x23,[sp,#176]
	stp	x22,x21,[sp,#192]
	stp	x20,x19,[sp,#208]
	stp	x29,x30,[sp,#224]
	.cfi_def_cfa_offset 240
	.cfi_offset w30,-8
	.cfi_offset w29,-16
	.cfi_offset w19,-24
	.cfi_offset w20,-32
	.cfi_offset w21,-40
	.cfi_offset w22,-48
	.cfi_offset w23,-56
	.cfi_offset w24,-64
	.cfi_offset w25,-72
	.cfi_offset w26,-80
	.cfi_offset w27,-96
	mov	x19,x4
	mov	x20,x2
	mov	x8,x1
	tst	w3,#0xff
	b.eq	1f
	cbz	x20,2f
	mov	w9,#10202
	add	x25,x0,x9
	b	3f
1:
	cbz	x20,2f
	mov	w9,#10202
	add	x25,x0,x9
	b	1f
4:
	ldrb	w8,[x21]
	mov	w9,#1
	strb	w9,[x19]
	and	w10,w8,#0x7f
	lsr	w8,w8,#7
	strb	w9,[x19,#2]
	neg	w9,w10
	strb	w9,[x19,#1]
	strb	w8,[x19,#3]
5:
	mov	x8,x26
	cbz	x20,2f
1:
	ldrb	w10,[x8]
	cbnz	w10,1f
	cmp	x20,#2
	b.eq	6f
	cmp	x20,#1
	b.eq	2f
	cmp	x20,#3
	b.hi	7f
	ldrb	w9,[x8,#1]
	cbnz	w9,7f
	ldrb	w9,[x8,#2]
	cbnz	w9,7f
	b	2f
6:
	ldrb	w9,[x8,#1]
	cbz	w9,2f
7:
	sub	x1,x20,#1
	add	x0,x8,#1
	bl	_rtp_ext.elements.skip_zeros
	cbz	x1,2f
	ldrb	w10,[x0]
	mov	x20,x1
	mov	x8,x0
1:
	cmp	w10,#239
	b.hi	2f
	and	w9,w10,#0xf
	add	w11,w9,#2
	subs	x20,x20,x11
	b.lo	2f
	lsr	w10,w10,#3
	add	x26,x8,x11
	and	x10,x10,#0x1e
	add	x10,x25,x10
	ldrb	w12,[x10]
	cmp	w12,#1
	b.ne	5b
	ldrb	w10,[x10,#1]
	sub	x22,x11,#1
Lrtp_loh296:
	adrp	x11,1f@PAGE
Lrtp_loh297:
	add	x11,x11,1f@PAGEOFF
	add	x21,x8,#1
	adr	x12,4b
	ldrh	w13,[x11,x10,lsl #1]
	add	x12,x12,x13,lsl #2
	br	x12
6:
	cmp	w9,#2
	b.lo	5b
	ldrb	w9,[x8,#1]
	ldrb	w10,[x8,#2]
	ldrb	w8,[x8,#3]
	lsl	w9,w9,#8
	orr	w9,w9,w10,lsl #16
	orr	w8,w9,w8,lsl #24
	mov	w9,#16960
	movk	w9,#15,lsl #16
	rev	w8,w8
	umull	x8,w8,w9
	mov	w9,#1
	lsr	x8,x8,#18
	stp	x9,x8,[x19,#16]
	b	5b
7:
	cbz	w9,8f
	cbz	x20,9f
10:
	ldrb	w8,[x26]
	mov	x23,x26
	mov	x1,x20
	cbnz	w8,11f
	cmp	x20,#2
	b.eq	12f
	cmp	x20,#1
	b.eq	13f
	cmp	x20,#3
	b.hi	14f
	ldrb	w8,[x26,#1]
	cbnz	w8,14f
	ldrb	w8,[x26,#2]
	cbnz	w8,14f
	b	13f
12:
	ldrb	w8,[x26,#1]
	cbz	w8,13f
14:
	add	x0,x26,#1
	sub	x1,x20,#1
	bl	_rtp_ext.elements.skip_zeros
	cbz	x1,13f
	ldrb	w8,[x0]
	mov	x23,x0
11:
	cmp	w8,#239
	b.hi	13f
	and	w9,w8,#0xf
	add	w9,w9,#2
	subs	x27,x1,x9
	b.lo	13f
	lsr	w8,w8,#3
	and	x8,x8,#0x1e
	add	x8,x25,x8
	ldrb	w10,[x8]
	cmp	w10,#1
	b.ne	11f
	ldrb	w8,[x8,#1]
	cmp	w8,#14
	b.ne	11f
	sub	x24,x9,#1
	add	x0,x23,#1
	add	x26,x23,x9
	mov	x1,x24
	bl	_rtp_ext.block_values.is_another_allocation
	cmp	w0,#0
	mov	x20,x27
	csel	x22,x24,x22,ne
	csinc	x21,x21,x23,eq
	cbnz	x27,10b
	b	9f
10:
	cmp	w9,#7
	stp	xzr,xzr,[sp,#88]
	str	xzr,[sp,#104]
	b.hi	12f
	ldrsb	x9,[x21]
	tbnz	x9,#63,12f
Lrtp_loh298:
	adrp	x16,lrtp__static.37@PAGE
Lrtp_loh299:
	add	x16,x16,lrtp__static.37@PAGEOFF
	cmp	x22,#1
	ldrb	w9,[x16,x9]
	b.ne	14f
	mov	x8,#2305843009213693952
	mov	w14,#32
	mov	w15,#32
	mov	w13,#32
	mov	w12,#32
	mov	w11,#32
	mov	w10,#32
	b	15f
16:
	cmp	w9,#3
	b.lo	5b
	ldr	w8,[x21]
	mov	w9,#1
	rev	w8,w8
	stp	w9,w8,[x19,#8]
	b	5b
17:
	mov	x8,xzr
	mov	x9,#2314885530818453536
	stp	xzr,xzr,[sp]
	stp	x9,x9,[sp,#112]
	stp	xzr,xzr,[sp,#48]
	stp	xzr,xzr,[sp,#32]
	stp	xzr,xzr,[sp,#96]
	str	xzr,[sp,#88]
	stp	xzr,xzr,[sp,#64]
18:
	ldrsb	x9,[x21,x8]
	tbnz	x9,#63,19f
Lrtp_loh300:
	adrp	x10,lrtp__static.37@PAGE
Lrtp_loh301:
	add	x10,x10,lrtp__static.37@PAGEOFF
	ldrb	w9,[x10,x9]
	add	x10,sp,#112
	strb	w9,[x10,x8]
	add	x8,x8,#1
	cmp	x22,x8
	b.ne	18b
	ldr	q0,[sp,#112]
	b	18f
20:
	cmp	w9,#8
	b.lo	5b
	ldrb	w9,[x8,#1]
	ldrh	w10,[x8,#2]
	mov	w13,#1
	ldrh	w11,[x8,#4]
	ldrh	w12,[x8,#6]
	ldrh	w8,[x8,#8]
	rev	w10,w10
	strb	w9,[x19,#122]
	rev	w11,w11
	rev	w12,w12
	rev	w8,w8
	lsr	w10,w10,#16
	lsr	w9,w11,#16
	lsr	w11,w12,#16
	lsr	w8,w8,#16
	strb	wzr,[x19,#123]
	strh	w13,[x19,#120]
	strh	w10,[x19,#124]
	strh	w9,[x19,#126]
	strh	w11,[x19,#128]
	strh	w8,[x19,#130]
	b	5b
21:
	cmp	w9,#7
	b.lo	5b
	cmp	w9,#15
	b.ne	22f
	ldur	x8,[x8,#9]
	rev	x8,x8
	b	23f
24:
	cmp	w9,#2
	b.lo	5b
	ldrb	w9,[x8,#1]
	ldrb	w10,[x8,#2]
	ldrb	w8,[x8,#3]
	lsl	w9,w9,#8
	orr	w9,w9,w10,lsl #16
Lrtp_loh302:
	adrp	x10,lrtp_CPI6_0@PAGE
Lrtp_loh303:
	ldr	d0,[x10,lrtp_CPI6_0@PAGEOFF]
	orr	w8,w9,w8,lsl #24
	mov	w9,#1
	str	d0,[x19,#88]
	rev	w8,w8
	str	d0,[x19,#112]
	and	w10,w8,#0xfff
	lsr	w8,w8,#12
	stp	x9,x10,[x19,#96]
	stp	x9,x8,[x19,#72]
	b	5b
25:
	ldrb	w8,[x21]
	mov	w9,#1
	strb	w9,[x19,#4]
	and	w8,w8,#0x3
	strb	w8,[x19,#5]
	b	5b
26:
	cmp	w9,#3
	b.lo	5b
	ldr	w8,[x21]
	mov	w9,#1
	rev	w8,w8
	stp	w9,w8,[x19,#168]
	b	5b
27:
	cbz	w9,5b
	ldrh	w8,[x21]
	mov	w9,#1
	strh	w9,[x19,#64]
	rev	w8,w8
	lsr	w8,w8,#16
	strh	w8,[x19,#66]
	b	5b
28:
	cmp	w9,#7
	stp	xzr,xzr,[sp,#88]
	str	xzr,[sp,#104]
	b.hi	29f
	ldrsb	x9,[x21]
	tbnz	x9,#63,29f
Lrtp_loh304:
	adrp	x16,lrtp__static.37@PAGE
Lrtp_loh305:
	add	x16,x16,lrtp__static.37@PAGEOFF
	cmp	x22,#1
	ldrb	w9,[x16,x9]
	b.ne	30f
	mov	x8,#2305843009213693952
	mov	w14,#32
	mov	w15,#32
	mov	w13,#32
	mov	w12,#32
	mov	w11,#32
	mov	w10,#32
	b	31f
32:
	ldrb	w8,[x21]
	mov	w9,#1
	strb	w9,[x19,#6]
	strb	w8,[x19,#7]
	b	5b
19:
	add	x0,sp,#88
	mov	x1,x21
	mov	x2,x22
	bl	_rtp_core.str.utf8.from_utf8
	ldrb	w8,[sp,#88]
	cbz	w8,19f
	ldr	q0,[sp,#32]
	str	q0,[sp]
	b	5b
8:
	mov	w22,#1
	b	11f
13:
	mov	x20,xzr
9:
Lrtp_loh306:
	adrp	x26,lrtp__static.5@PAGE
Lrtp_loh307:
	add	x26,x26,lrtp__static.5@PAGEOFF
11:
	mov	x0,x19
	mov	x1,x21
	mov	x2,x22
	bl	_rtp_values.value.set_values.ExtensionValuesSetValues.read_layers
	tst	w0,#0xff
	b.eq	5b
	b	8f
22:
	mov	x8,xzr
23:
	ldr	x10,[x21]
	cmp	w9,#15
	mov	w11,#1
	rev	x9,x10
	cset	w10,eq
	stp	x11,x9,[x19,#32]
	stp	x10,x8,[x19,#48]
	b	5b
19:
	ldp	x9,x8,[sp,#96]
	mov	x10,#2314885530818453536
	stp	x10,x10,[sp,#128]
	cbz	x8,9f
	mov	x10,xzr
	mov	x11,xzr
11:
	ldrsb	w12,[x9,x11]
	cmn	w12,#64
	b.lt	13f
	and	x12,x12,#0xff
Lrtp_loh308:
	adrp	x13,lrtp__static.37@PAGE
Lrtp_loh309:
	add	x13,x13,lrtp__static.37@PAGEOFF
	ldrb	w12,[x13,x12]
	add	x13,sp,#128
	strb	w12,[x13,x10]
	add	x10,x10,#1
13:
	add	x11,x11,#1
	cmp	x11,x8
	b.hs	9f
	cmp	x10,#16
	b.ne	11b
9:
	ldr	q0,[sp,#128]
18:
	str	q0,[sp,#48]
	mov	w8,#1
	ldr	q0,[sp,#48]
	strb	w8,[x19,#150]
	str	q0,[sp]
	stur	q0,[x19,#151]
	b	5b
14:
	ldrsb	x10,[x8,#2]
	tbnz	x10,#63,12f
	ldrb	w10,[x16,x10]
	cmp	x22,#2
	b.ne	9f
	mov	x8,#2305843009213693952
	mov	w14,#32
	mov	w15,#32
	mov	w13,#32
	mov	w12,#32
	mov	w11,#32
	b	15f
30:
	ldrsb	x10,[x8,#2]
	tbnz	x10,#63,29f
	ldrb	w10,[x16,x10]
	cmp	x22,#2
	b.ne	11f
	mov	x8,#2305843009213693952
	mov	w14,#32
	mov	w15,#32
	mov	w13,#32
	mov	w12,#32
	mov	w11,#32
	b	31f
9:
	ldrsb	x11,[x8,#3]
	tbnz	x11,#63,12f
	ldrb	w11,[x16,x11]
	cmp	x22,#3
	b.ne	9f
	mov	x8,#2305843009213693952
	mov	w14,#32
	mov	w15,#32
	mov	w13,#32
	mov	w12,#32
	b	15f
11:
	ldrsb	x11,[x8,#3]
	tbnz	x11,#63,29f
	ldrb	w11,[x16,x11]
	cmp	x22,#3
	b.ne	11f
	mov	x8,#2305843009213693952
	mov	w14,#32
	mov	w15,#32
	mov	w13,#32
	mov	w12,#32
	b	31f
9:
	ldrsb	x12,[x8,#4]
	tbnz	x12,#63,12f
	ldrb	w12,[x16,x12]
	cmp	x22,#4
	b.ne	9f
	mov	x8,#2305843009213693952
	mov	w14,#32
	mov	w15,#32
	mov	w13,#32
	b	15f
11:
	ldrsb	x12,[x8,#4]
	tbnz	x12,#63,29f
	ldrb	w12,[x16,x12]
	cmp	x22,#4
	b.ne	11f
	mov	x8,#2305843009213693952
	mov	w14,#32
	mov	w15,#32
	mov	w13,#32
	b	31f
9:
	ldrsb	x13,[x8,#5]
	tbnz	x13,#63,12f
	ldrb	w13,[x16,x13]
	cmp	x22,#5
	b.ne	9f
	mov	x8,#2305843009213693952
	mov	w14,#32
	mov	w15,#32
	b	15f
11:
	ldrsb	x13,[x8,#5]
	tbnz	x13,#63,29f
	ldrb	w13,[x16,x13]
	cmp	x22,#5
	b.ne	11f
	mov	x8,#2305843009213693952
	mov	w14,#32
	mov	w15,#32
	b	31f
9:
	ldrsb	x14,[x8,#6]
	tbnz	x14,#63,12f
	ldrb	w15,[x16,x14]
	cmp	x22,#6
	b.ne	9f
	mov	x8,#2305843009213693952
	mov	w14,#32
	b	15f
11:
	ldrsb	x14,[x8,#6]
	tbnz	x14,#63,29f
	ldrb	w15,[x16,x14]
	cmp	x22,#6
	b.ne	11f
	mov	x8,#2305843009213693952
	mov	w14,#32
	b	31f
9:
	ldrsb	x14,[x8,#7]
	tbnz	x14,#63,12f
	ldrb	w14,[x16,x14]
	cmp	x22,#7
	b.ne	9f
	mov	x8,#2305843009213693952
	b	15f
11:
	ldrsb	x14,[x8,#7]
	tbnz	x14,#63,29f
	ldrb	w14,[x16,x14]
	cmp	x22,#7
	b.ne	11f
	mov	x8,#2305843009213693952
	b	31f
9:
	ldrsb	x8,[x8,#8]
	tbnz	x8,#63,12f
	ldrb	w8,[x16,x8]
	lsl	x8,x8,#56
15:
	orr	x8,x8,x14,lsl #48
	orr	x8,x8,x15,lsl #40
	orr	x8,x8,x13,lsl #32
	orr	x8,x8,x12,lsl #24
	orr	x8,x8,x11,lsl #16
	orr	x8,x8,x10,lsl #8
	orr	x10,x8,x9
	b	9f
12:
	add	x0,sp,#88
	mov	x1,x21
	mov	x2,x22
	bl	_rtp_core.str.utf8.from_utf8
	ldrb	w8,[sp,#88]
	cbnz	w8,5b
	ldp	x9,x8,[sp,#96]
	mov	x10,#2314885530818453536
	str	x10,[sp,#128]
	cbz	x8,9f
	mov	x10,xzr
	mov	x11,xzr
12:
	ldrsb	w12,[x9,x11]
	cmn	w12,#64
	b.lt	13f
	and	x12,x12,#0xff
Lrtp_loh310:
	adrp	x13,lrtp__static.37@PAGE
Lrtp_loh311:
	add	x13,x13,lrtp__static.37@PAGEOFF
	ldrb	w12,[x13,x12]
	add	x13,sp,#128
	strb	w12,[x13,x10]
	add	x10,x10,#1
13:
	add	x11,x11,#1
	cmp	x11,x8
	b.hs	13f
	cmp	x10,#8
	b.ne	12b
13:
	ldr	x10,[sp,#128]
9:
	mov	w8,#1
	stur	x10,[x19,#142]
	strb	w8,[x19,#141]
	b	5b
11:
	ldrsb	x8,[x8,#8]
	tbnz	x8,#63,29f
	ldrb	w8,[x16,x8]
	lsl	x8,x8,#56
31:
	orr	x8,x8,x14,lsl #48
	orr	x8,x8,x15,lsl #40
	orr	x8,x8,x13,lsl #32
	orr	x8,x8,x12,lsl #24
	orr	x8,x8,x11,lsl #16
	orr	x8,x8,x10,lsl #8
	orr	x10,x8,x9
	b	9f
29:
	add	x0,sp,#88
	mov	x1,x21
	mov	x2,x22
	bl	_rtp_core.str.utf8.from_utf8
	ldrb	w8,[sp,#88]
	cbnz	w8,5b
	ldp	x9,x8,[sp,#96]
	mov	x10,#2314885530818453536
	str	x10,[sp,#128]
	cbz	x8,9f
	mov	x10,xzr
	mov	x11,xzr
11:
	ldrsb	w12,[x9,x11]
	cmn	w12,#64
	b.lt	12f
	and	x12,x12,#0xff
Lrtp_loh312:
	adrp	x13,lrtp__static.37@PAGE
Lrtp_loh313:
	add	x13,x13,lrtp__static.37@PAGEOFF
	ldrb	w12,[x13,x12]
	add	x13,sp,#128
	strb	w12,[x13,x10]
	add	x10,x10,#1
12:
	add	x11,x11,#1
	cmp	x11,x8
	b.hs	12f
	cmp	x10,#8
	b.ne	11b
12:
	ldr	x10,[sp,#128]
9:
	mov	w8,#1
	stur	x10,[x19,#133]
	strb	w8,[x19,#132]
	b	5b
9:
	mov	x20,xzr
11:
Lrtp_loh314:
	adrp	x26,lrtp__static.5@PAGE
Lrtp_loh315:
	add	x26,x26,lrtp__static.5@PAGEOFF
12:
	mov	x0,x19
	mov	x1,x22
	mov	x2,x21
	bl	_rtp_values.value.set_values.ExtensionValuesSetValues.read_layers
	tst	w0,#0xff
	b.ne	8f
13:
	mov	x8,x26
	cbz	x20,2f
3:
	ldrb	w9,[x8]
	cbz	w9,3f
	cmp	x20,#2
	b.hs	14f
	b	2f
3:
	cmp	x20,#2
	b.eq	3f
	cmp	x20,#1
	b.eq	2f
	cmp	x20,#3
	b.hi	15f
	ldrb	w9,[x8,#1]
	cbnz	w9,15f
	ldrb	w9,[x8,#2]
	cbnz	w9,15f
	b	2f
3:
	ldrb	w9,[x8,#1]
	cbz	w9,2f
15:
	sub	x1,x20,#1
	add	x0,x8,#1
	bl	_rtp_ext.elements.skip_zeros
	cbz	x1,2f
	mov	x20,x1
	mov	x8,x0
	cmp	x1,#2
	b.lo	2f
14:
	ldrb	w21,[x8,#1]
	add	x9,x21,#2
	subs	x20,x20,x9
	b.lo	2f
	mov	x22,x8
	add	x26,x8,x9
	ldrb	w10,[x22],#2
	add	x10,x25,x10,lsl #1
	ldrb	w11,[x10]
	cmp	w11,#1
	b.ne	13b
	ldrb	w9,[x10,#1]
Lrtp_loh316:
	adrp	x10,3f@PAGE
Lrtp_loh317:
	add	x10,x10,3f@PAGEOFF
	adr	x11,13b
	ldrh	w12,[x10,x9,lsl #1]
	add	x11,x11,x12,lsl #2
	br	x11
14:
	cmp	w21,#3
	b.lo	13b
	ldrb	w9,[x8,#2]
	ldrb	w10,[x8,#3]
	ldrb	w8,[x8,#4]
	lsl	w9,w9,#8
	orr	w9,w9,w10,lsl #16
	orr	w8,w9,w8,lsl #24
	mov	w9,#16960
	movk	w9,#15,lsl #16
	rev	w8,w8
	umull	x8,w8,w9
	mov	w9,#1
	lsr	x8,x8,#18
	stp	x9,x8,[x19,#16]
	b	13b
15:
	cmp	w21,#2
	b.lo	12b
	cbz	x20,11b
18:
	ldrb	w8,[x26]
	mov	x0,x26
	mov	x1,x20
	cbnz	w8,19f
	cmp	x20,#2
	b.eq	22f
	cmp	x20,#1
	b.eq	9b
	cmp	x20,#3
	b.hi	23f
	ldrb	w8,[x26,#1]
	cbnz	w8,23f
	ldrb	w8,[x26,#2]
	cbnz	w8,23f
	b	9b
22:
	ldrb	w8,[x26,#1]
	cbz	w8,9b
23:
	add	x0,x26,#1
	sub	x1,x20,#1
	bl	_rtp_ext.elements.skip_zeros
	cbz	x1,9b
19:
	cmp	x1,#2
	b.lo	9b
	ldrb	w23,[x0,#1]
	add	x8,x23,#2
	subs	x27,x1,x8
	b.lo	9b
	ldrb	w9,[x0]
	add	x9,x25,x9,lsl #1
	ldrb	w10,[x9]
	cmp	w10,#1
	b.ne	12b
	ldrb	w9,[x9,#1]
	cmp	w9,#14
	b.ne	12b
	add	x24,x0,#2
	add	x26,x0,x8
	mov	x1,x23
	mov	x0,x24
	bl	_rtp_ext.block_values.is_another_allocation
	cmp	w0,#0
	mov	x20,x27
	csel	x21,x23,x21,ne
	csel	x22,x24,x22,ne
	cbnz	x27,18b
	b	11b
9:
	cmp	w21,#8
	stp	xzr,xzr,[sp,#88]
	str	xzr,[sp,#104]
	b.hi	11f
	cbz	w21,12f
	ldrsb	x9,[x22]
	tbnz	x9,#63,11f
Lrtp_loh318:
	adrp	x16,lrtp__static.37@PAGE
Lrtp_loh319:
	add	x16,x16,lrtp__static.37@PAGEOFF
	cmp	w21,#1
	ldrb	w9,[x16,x9]
	b.ne	18f
	mov	x8,#2305843009213693952
	mov	w14,#32
	mov	w15,#32
	mov	w13,#32
	mov	w12,#32
	mov	w11,#32
	mov	w10,#32
	b	19f
22:
	cmp	w21,#4
	b.lo	13b
	ldr	w8,[x22]
	mov	w9,#1
	rev	w8,w8
	stp	w9,w8,[x19,#8]
	b	13b
23:
	mov	x8,#2314885530818453536
	cmp	w21,#16
Lrtp_loh320:
	adrp	x23,lrtp__static.37@PAGE
Lrtp_loh321:
	add	x23,x23,lrtp__static.37@PAGEOFF
	stp	xzr,xzr,[sp,#16]
	stp	xzr,xzr,[sp,#48]
	stp	xzr,xzr,[sp,#32]
	stp	xzr,xzr,[sp,#96]
	str	xzr,[sp,#88]
	stp	xzr,xzr,[sp,#64]
	stp	x8,x8,[sp,#112]
	b.hi	29f
	cbz	w21,30f
	add	x8,sp,#112
	mov	x9,x22
	mov	x10,x21
31:
	ldrsb	x11,[x9],#1
	tbnz	x11,#63,29f
	ldrb	w11,[x23,x11]
	subs	x10,x10,#1
	strb	w11,[x8],#1
	b.ne	31b
30:
	ldr	q0,[sp,#112]
	b	30f
31:
	cmp	w21,#9
	b.lo	13b
	ldrb	w9,[x8,#2]
	ldurh	w10,[x8,#3]
	mov	w13,#1
	ldurh	w11,[x8,#5]
	ldurh	w12,[x8,#7]
	ldurh	w8,[x8,#9]
	rev	w10,w10
	strb	w9,[x19,#122]
	rev	w11,w11
	rev	w12,w12
	rev	w8,w8
	lsr	w10,w10,#16
	lsr	w9,w11,#16
	lsr	w11,w12,#16
	lsr	w8,w8,#16
	strb	wzr,[x19,#123]
	strh	w13,[x19,#120]
	strh	w10,[x19,#124]
	strh	w9,[x19,#126]
	strh	w11,[x19,#128]
	strh	w8,[x19,#130]
	b	13b
33:
	cmp	w21,#8
	b.lo	13b
	cmp	w21,#16
	b.lo	34f
	ldur	x8,[x8,#10]
	rev	x8,x8
	b	35f
36:
	cbz	w21,13b
	ldrb	w8,[x22]
	mov	w9,#1
	strb	w9,[x19]
	and	w10,w8,#0x7f
	lsr	w8,w8,#7
	strb	w9,[x19,#2]
	neg	w9,w10
	strb	w9,[x19,#1]
	strb	w8,[x19,#3]
	b	13b
37:
	cmp	w21,#3
	b.lo	13b
	ldrb	w9,[x8,#2]
	ldrb	w10,[x8,#3]
	ldrb	w8,[x8,#4]
	lsl	w9,w9,#8
	orr	w9,w9,w10,lsl #16
Lrtp_loh322:
	adrp	x10,lrtp_CPI6_0@PAGE
Lrtp_loh323:
	ldr	d0,[x10,lrtp_CPI6_0@PAGEOFF]
	orr	w8,w9,w8,lsl #24
	mov	w9,#1
	str	d0,[x19,#88]
	rev	w8,w8
	str	d0,[x19,#112]
	and	w10,w8,#0xfff
	lsr	w8,w8,#12
	stp	x9,x10,[x19,#96]
	stp	x9,x8,[x19,#72]
	b	13b
38:
	cbz	w21,13b
	ldrb	w8,[x22]
	mov	w9,#1
	strb	w9,[x19,#4]
	and	w8,w8,#0x3
	strb	w8,[x19,#5]
	b	13b
39:
	cmp	w21,#4
	b.lo	13b
	ldr	w8,[x22]
	mov	w9,#1
	rev	w8,w8
	stp	w9,w8,[x19,#168]
	b	13b
40:
	cmp	w21,#2
	b.lo	13b
	ldrh	w8,[x22]
	mov	w9,#1
	strh	w9,[x19,#64]
	rev	w8,w8
	lsr	w8,w8,#16
	strh	w8,[x19,#66]
	b	13b
41:
	cmp	w21,#8
	stp	xzr,xzr,[sp,#88]
	str	xzr,[sp,#104]
	b.hi	42f
	cbz	w21,43f
	ldrsb	x9,[x22]
	tbnz	x9,#63,42f
Lrtp_loh324:
	adrp	x16,lrtp__static.37@PAGE
Lrtp_loh325:
	add	x16,x16,lrtp__static.37@PAGEOFF
	cmp	w21,#1
	ldrb	w9,[x16,x9]
	b.ne	44f
	mov	x8,#2305843009213693952
	mov	w14,#32
	mov	w15,#32
	mov	w13,#32
	mov	w12,#32
	mov	w11,#32
	mov	w10,#32
	b	45f
46:
	cbz	w21,13b
	ldrb	w8,[x22]
	mov	w9,#1
	strb	w9,[x19,#6]
	strb	w8,[x19,#7]
	b	13b
29:
	add	x0,sp,#88
	mov	x1,x22
	mov	x2,x21
	bl	_rtp_core.str.utf8.from_utf8
	ldrb	w8,[sp,#88]
	cbz	w8,29f
	ldr	q0,[sp,#32]
	str	q0,[sp,#16]
	b	13b
34:
	mov	x8,xzr
35:
	ldr	x9,[x22]
	mov	w10,#1
	cmp	w21,#15
	rev	x9,x9
	stp	x10,x9,[x19,#32]
	cset	w10,hi
	stp	x10,x8,[x19,#48]
	b	13b
29:
	ldp	x9,x8,[sp,#96]
	mov	x10,#2314885530818453536
	stp	x10,x10,[sp,#128]
	cbz	x8,29f
	mov	x10,xzr
	mov	x11,xzr
34:
	ldrsb	w12,[x9,x11]
	cmn	w12,#64
	b.lt	35f
	and	x12,x12,#0xff
	add	x13,sp,#128
	ldrb	w12,[x23,x12]
	strb	w12,[x13,x10]
	add	x10,x10,#1
35:
	add	x11,x11,#1
	cmp	x11,x8
	b.hs	29f
	cmp	x10,#16
	b.ne	34b
29:
	ldr	q0,[sp,#128]
30:
	str	q0,[sp,#48]
	mov	w8,#1
	ldr	q0,[sp,#48]
	strb	w8,[x19,#150]
	str	q0,[sp,#16]
	stur	q0,[x19,#151]
	b	13b
12:
	mov	x10,#2314885530818453536
	b	12f
43:
	mov	x10,#2314885530818453536
	b	29f
18:
	ldrsb	x10,[x8,#3]
	tbnz	x10,#63,11f
	ldrb	w10,[x16,x10]
	cmp	w21,#2
	b.ne	18f
	mov	x8,#2305843009213693952
	mov	w14,#32
	mov	w15,#32
	mov	w13,#32
	mov	w12,#32
	mov	w11,#32
	b	19f
44:
	ldrsb	x10,[x8,#3]
	tbnz	x10,#63,42f
	ldrb	w10,[x16,x10]
	cmp	w21,#2
	b.ne	30f
	mov	x8,#2305843009213693952
	mov	w14,#32
	mov	w15,#32
	mov	w13,#32
	mov	w12,#32
	mov	w11,#32
	b	45f
18:
	ldrsb	x11,[x8,#4]
	tbnz	x11,#63,11f
	ldrb	w11,[x16,x11]
	cmp	w21,#3
	b.ne	18f
	mov	x8,#2305843009213693952
	mov	w14,#32
	mov	w15,#32
	mov	w13,#32
	mov	w12,#32
	b	19f
30:
	ldrsb	x11,[x8,#4]
	tbnz	x11,#63,42f
	ldrb	w11,[x16,x11]
	cmp	w21,#3
	b.ne	30f
	mov	x8,#2305843009213693952
	mov	w14,#32
	mov	w15,#32
	mov	w13,#32
	mov	w12,#32
	b	45f
18:
	ldrsb	x12,[x8,#5]
	tbnz	x12,#63,11f
	ldrb	w12,[x16,x12]
	cmp	w21,#4
	b.ne	18f
	mov	x8,#2305843009213693952
	mov	w14,#32
	mov	w15,#32
	mov	w13,#32
	b	19f
30:
	ldrsb	x12,[x8,#5]
	tbnz	x12,#63,42f
	ldrb	w12,[x16,x12]
	cmp	w21,#4
	b.ne	30f
	mov	x8,#2305843009213693952
	mov	w14,#32
	mov	w15,#32
	mov	w13,#32
	b	45f
18:
	ldrsb	x13,[x8,#6]
	tbnz	x13,#63,11f
	ldrb	w13,[x16,x13]
	cmp	w21,#5
	b.ne	18f
	mov	x8,#2305843009213693952
	mov	w14,#32
	mov	w15,#32
	b	19f
30:
	ldrsb	x13,[x8,#6]
	tbnz	x13,#63,42f
	ldrb	w13,[x16,x13]
	cmp	w21,#5
	b.ne	30f
	mov	x8,#2305843009213693952
	mov	w14,#32
	mov	w15,#32
	b	45f
18:
	ldrsb	x14,[x8,#7]
	tbnz	x14,#63,11f
	ldrb	w15,[x16,x14]
	cmp	w21,#6
	b.ne	18f
	mov	x8,#2305843009213693952
	mov	w14,#32
	b	19f
30:
	ldrsb	x14,[x8,#7]
	tbnz	x14,#63,42f
	ldrb	w15,[x16,x14]
	cmp	w21,#6
	b.ne	30f
	mov	x8,#2305843009213693952
	mov	w14,#32
	b	45f
18:
	ldrsb	x14,[x8,#8]
	tbnz	x14,#63,11f
	ldrb	w14,[x16,x14]
	cmp	w21,#7
	b.ne	18f
	mov	x8,#2305843009213693952
	b	19f
30:
	ldrsb	x14,[x8,#8]
	tbnz	x14,#63,42f
	ldrb	w14,[x16,x14]
	cmp	w21,#7
	b.ne	30f
	mov	x8,#2305843009213693952
	b	45f
18:
	ldrsb	x8,[x8,#9]
	tbnz	x8,#63,11f
	ldrb	w8,[x16,x8]
	lsl	x8,x8,#56
19:
	orr	x8,x8,x14,lsl #48
	orr	x8,x8,x15,lsl #40
	orr	x8,x8,x13,lsl #32
	orr	x8,x8,x12,lsl #24
	orr	x8,x8,x11,lsl #16
	orr	x8,x8,x10,lsl #8
	orr	x10,x8,x9
	b	12f
11:
	add	x0,sp,#88
	mov	x1,x22
	mov	x2,x21
	bl	_rtp_core.str.utf8.from_utf8
	ldrb	w8,[sp,#88]
	cbnz	w8,13b
	ldp	x9,x8,[sp,#96]
	mov	x10,#2314885530818453536
	str	x10,[sp,#128]
	cbz	x8,12f
	mov	x10,xzr
	mov	x11,xzr
11:
	ldrsb	w12,[x9,x11]
	cmn	w12,#64
	b.lt	18f
	and	x12,x12,#0xff
Lrtp_loh326:
	adrp	x13,lrtp__static.37@PAGE
Lrtp_loh327:
	add	x13,x13,lrtp__static.37@PAGEOFF
	ldrb	w12,[x13,x12]
	add	x13,sp,#128
	strb	w12,[x13,x10]
	add	x10,x10,#1
18:
	add	x11,x11,#1
	cmp	x11,x8
	b.hs	18f
	cmp	x10,#8
	b.ne	11b
18:
	ldr	x10,[sp,#128]
12:
	mov	w8,#1
	stur	x10,[x19,#142]
	strb	w8,[x19,#141]
	b	13b
30:
	ldrsb	x8,[x8,#9]
	tbnz	x8,#63,42f
	ldrb	w8,[x16,x8]
	lsl	x8,x8,#56
45:
	orr	x8,x8,x14,lsl #48
	orr	x8,x8,x15,lsl #40
	orr	x8,x8,x13,lsl #32
	orr	x8,x8,x12,lsl #24
	orr	x8,x8,x11,lsl #16
	orr	x8,x8,x10,lsl #8
	orr	x10,x8,x9
	b	29f
42:
	add	x0,sp,#88
	mov	x1,x22
	mov	x2,x21
	bl	_rtp_core.str.utf8.from_utf8
	ldrb	w8,[sp,#88]
	cbnz	w8,13b
	ldp	x9,x8,[sp,#96]
	mov	x10,#2314885530818453536
	str	x10,[sp,#128]
	cbz	x8,29f
	mov	x10,xzr
	mov	x11,xzr
11:
	ldrsb	w12,[x9,x11]
	cmn	w12,#64
	b.lt	12f
	and	x12,x12,#0xff
Lrtp_loh328:
	adrp	x13,lrtp__static.37@PAGE
Lrtp_loh329:
	add	x13,x13,lrtp__static.37@PAGEOFF
	ldrb	w12,[x13,x12]
	add	x13,sp,#128
	strb	w12,[x13,x10]
	add	x10,x10,#1
12:
	add	x11,x11,#1
	cmp	x11,x8
	b.hs	12f
	cmp	x10,#8
	b.ne	11b
12:
	ldr	x10,[sp,#128]
29:
	mov	w8,#1
	stur	x10,[x19,#133]
	strb	w8,[x19,#132]
	b	13b
2:
	mov	w0,wzr
2:
	ldp	x29,x30,[sp,#224]
	ldr	x27,[sp,#144]
	ldp	x20,x19,[sp,#208]
	ldp	x22,x21,[sp,#192]
	ldp	x24,x23,[sp,#176]
	ldp	x26,x25,[sp,#160]
	add	sp,sp,#240
	ret
8:
	mov	w0,#1
	b	2b
	.loh AdrpAdd	Lrtp_loh296,Lrtp_loh297
	.loh AdrpAdd	Lrtp_loh298,Lrtp_loh299
	.loh AdrpAdd	Lrtp_loh300,Lrtp_loh301
	.loh AdrpLdr	Lrtp_loh302,Lrtp_loh303
	.loh AdrpAdd	Lrtp_loh304,Lrtp_loh305
	.loh AdrpAdd	Lrtp_loh306,Lrtp_loh307
	.loh AdrpAdd	Lrtp_loh308,Lrtp_loh309
	.loh AdrpAdd	Lrtp_loh310,Lrtp_loh311
	.loh AdrpAdd	Lrtp_loh312,Lrtp_loh313
	.loh AdrpAdd	Lrtp_loh314,Lrtp_loh315
	.loh AdrpAdd	Lrtp_loh316,Lrtp_loh317
	.loh AdrpAdd	Lrtp_loh318,Lrtp_loh319
	.loh AdrpAdd	Lrtp_loh320,Lrtp_loh321
	.loh AdrpLdr	Lrtp_loh322,Lrtp_loh323
	.loh AdrpAdd	Lrtp_loh324,Lrtp_loh325
	.loh AdrpAdd	Lrtp_loh326,Lrtp_loh327
	.loh AdrpAdd	Lrtp_loh328,Lrtp_loh329
	.cfi_endproc
	.section	__TEXT,__const
	.p2align	1,0x0
3:
	.short	(14b-13b)>>2
	.short	(33b-13b)>>2
	.short	(36b-13b)>>2
	.short	(22b-13b)>>2
	.short	(38b-13b)>>2
	.short	(40b-13b)>>2
	.short	(37b-13b)>>2
	.short	(46b-13b)>>2
	.short	(31b-13b)>>2
	.short	(41b-13b)>>2
	.short	(9b-13b)>>2
	.short	(23b-13b)>>2
	.short	(39b-13b)>>2
	.short	(13b-13b)>>2
	.short	(15b-13b)>>2
	.p2align	1,0x0
1:
	.short	(6b-4b)>>2
	.short	(21b-4b)>>2
	.short	(4b-4b)>>2
	.short	(16b-4b)>>2
	.short	(25b-4b)>>2
	.short	(27b-4b)>>2
	.short	(24b-4b)>>2
	.short	(32b-4b)>>2
	.short	(20b-4b)>>2
	.short	(28b-4b)>>2
	.short	(10b-4b)>>2
	.short	(17b-4b)>>2
	.short	(26b-4b)>>2
	.short	(5b-4b)>>2
	.short	(7b-4b)>>2

	.section	__TEXT,__text,regular,pure_instructions
	.p2align	2
_rtp_ext.elements.skip_zeros:
	.cfi_startproc
	mov	x11,x0
	mov	x10,x1
1:
	mov	x8,x10
	subs	x10,x10,#16
	mov	x9,x11
	b.lo	2f
	ldp	x11,x12,[x9]
	orr	x12,x12,x11
	add	x11,x9,#16
	cbz	x12,1b
2:
	mov	x10,xzr
	add	x0,x0,x1
1:
	subs	x1,x8,x10
	b.eq	2f
	ldrb	w11,[x9,x10]
	add	x10,x10,#1
	cbz	w11,1b
	add	x8,x9,x10
	sub	x0,x8,#1
2:
	ret
	.cfi_endproc

	.p2align	2
_rtp_ext.block_values.is_another_allocation:
	.cfi_startproc
	cbz	x1,1f
	subs	x9,x1,#1
	b.ne	2f
	ldrb	w8,[x0]
	cmp	w8,#0
	cset	w0,eq
	ret
2:
	mov	x8,x0
	ldrb	w10,[x8],#1
	ubfx	x11,x10,#4,#2
	ands	w13,w10,#0xf
	add	w10,w11,#1
	b.eq	2f
	fmov	s0,w13
	cnt.8b	v0,v0
	fmov	w11,s0
	mul	w10,w11,w10
	b	3f
2:
	add	x12,x11,#2
	lsr	x12,x12,#1
	subs	x9,x9,x12
	b.hs	2f
1:
	mov	w0,wzr
	ret
2:
	ldrb	w14,[x8]
	lsr	w14,w14,#4
	cbz	w11,1f
	ldrb	w15,[x8]
	cmp	w10,#2
	and	w15,w15,#0xf
	b.ne	2f
	mov	w16,w13
	b	4f
1:
	mov	w15,w13
	mov	w16,w13
	b	4f
2:
	ldrb	w16,[x0,#2]
	cmp	w10,#3
	lsr	w16,w16,#4
	b.eq	4f
	ldrb	w13,[x0,#2]
	and	w13,w13,#0xf
	fmov	s0,w13
	cnt.8b	v0,v0
	fmov	w13,s0
4:
	fmov	s0,w14
	fmov	s1,w15
	cmp	w10,#3
	fmov	s2,w16
	add	x8,x8,x12
	cnt.8b	v0,v0
	cnt.8b	v1,v1
	cnt.8b	v2,v2
	fmov	w14,s0
	fmov	w15,s1
	fmov	w16,s2
	add	w15,w14,w15
	add	w16,w15,w16
	add	w13,w16,w13
	csel	w13,w16,w13,eq
	cmp	w10,#2
	csel	w10,w15,w13,eq
	cmp	w11,#0
	csel	w10,w14,w10,eq
3:
	sub	sp,sp,#80
	stp	x22,x21,[sp,#32]
	stp	x20,x19,[sp,#48]
	stp	x29,x30,[sp,#64]
	.cfi_def_cfa_offset 80
	.cfi_offset w30,-8
	.cfi_offset w29,-16
	.cfi_offset w19,-24
	.cfi_offset w20,-32
	.cfi_offset w21,-40
	.cfi_offset w22,-48
	and	x21,x10,#0xff
	add	x10,x21,#3
	lsr	x10,x10,#2
	subs	x19,x9,x10
	b.hs	1f
2:
	mov	w0,wzr
3:
	ldp	x29,x30,[sp,#64]
	ldp	x20,x19,[sp,#48]
	ldp	x22,x21,[sp,#32]
	add	sp,sp,#80
	ret
1:
	cbz	x10,1f
	cmp	x10,#1
	b.ne	4f
	ldrb	w9,[x8]
	lsl	w9,w9,#24
	cbnz	w21,5f
	b	6f
1:
	mov	w9,wzr
	cbnz	w21,5f
	b	6f
4:
	cmp	w21,#8
	b.hi	1f
	ldrh	w9,[x8]
	rev	w9,w9
	cbnz	w21,5f
6:
	mov	w0,#1
	ldp	x29,x30,[sp,#64]
	ldp	x20,x19,[sp,#48]
	ldp	x22,x21,[sp,#32]
	add	sp,sp,#80
	ret
1:
	cmp	x10,#3
	b.ne	1f
	ldrb	w9,[x8,#2]
	ldrh	w11,[x8]
	orr	w9,w11,w9,lsl #16
	b	4f
1:
	ldr	w9,[x8]
4:
	rev	w9,w9
5:
	mov	w11,#32
	mov	w9,w9
	add	x20,x8,x10
	sub	x11,x11,x21,lsl #1
	lsr	x9,x9,x11
	and	w11,w9,#0xaaaaaaaa
	fmov	d1,x9
	fmov	s0,w11
	cnt.8b	v1,v1
	cnt.8b	v0,v0
	addv.8b	b1,v1
	addv.8b	b0,v0
	fmov	w9,s1
	fmov	w11,s0
	add	x9,x9,x21
	adds	x22,x9,x11
	b.ne	1f
4:
	subs	x9,x19,#5
	b.hs	5f
	mov	w0,#1
	ldp	x29,x30,[sp,#64]
	ldp	x20,x19,[sp,#48]
	ldp	x22,x21,[sp,#32]
	add	sp,sp,#80
	ret
6:
	sub	x19,x19,#1
	add	x20,x20,#1
7:
	subs	x22,x22,#1
	b.eq	4b
1:
	cbz	x19,7b
	ldrsb	w8,[x20]
	tbz	w8,#31,6b
	cmp	x19,#1
	b.eq	1f
	ldrsb	w8,[x20,#1]
	tbnz	w8,#31,1f
	mov	w8,#2
	b	4f
1:
	add	x0,sp,#8
	mov	x1,x20
	mov	x2,x19
	bl	_rtp_vla.leb.long_number_at
	ldrb	w8,[sp,#8]
	cmp	w8,#1
	b.ne	7b
	ldr	x8,[sp,#24]
4:
	add	x20,x20,x8
	sub	x19,x19,x8
	b	7b
5:
	mov	w8,#1
1:
	ldrh	w10,[x20]
	rev	w11,w10
	mov	w10,#65535
	cmp	w10,w11,lsr #16
	b.eq	2b
	ldrh	w11,[x20,#2]
	rev	w11,w11
	cmp	w10,w11,lsr #16
	b.eq	2b
	cmp	x8,x21
	mov	w0,#1
	b.hs	3b
	cmp	x9,#5
	sub	x9,x9,#5
	add	x8,x8,#1
	add	x20,x20,#5
	b.hs	1b
	b	3b
	.cfi_endproc

	.p2align	2
_rtp_vla.leb.long_number_at:
	.cfi_startproc
	cbz	x2,1f
	ldrb	w9,[x1]
	and	x8,x9,#0x7f
	tbnz	w9,#7,2f
	mov	w9,#1
	mov	w10,#1
	str	x10,[x0]
	stp	x8,x9,[x0,#8]
	ret
2:
	cmp	x2,#1
	b.ne	2f
1:
	stp	xzr,xzr,[x0]
	str	xzr,[x0,#16]
	ret
2:
	ldrsb	w9,[x1,#1]
	and	w10,w9,#0x7f
	orr	x8,x8,x10,lsl #7
	tbnz	w9,#31,2f
	mov	w9,#2
	mov	w10,#1
	str	x10,[x0]
	stp	x8,x9,[x0,#8]
	ret
2:
	cmp	x2,#2
	b.eq	1b
	ldrsb	w9,[x1,#2]
	and	w10,w9,#0x7f
	orr	x8,x8,x10,lsl #14
	tbnz	w9,#31,2f
	mov	w9,#3
	mov	w10,#1
	str	x10,[x0]
	stp	x8,x9,[x0,#8]
	ret
2:
	cmp	x2,#3
	b.eq	1b
	ldrsb	w9,[x1,#3]
	and	w10,w9,#0x7f
	orr	x8,x8,x10,lsl #21
	tbnz	w9,#31,2f
	mov	w9,#4
	mov	w10,#1
	str	x10,[x0]
	stp	x8,x9,[x0,#8]
	ret
2:
	cmp	x2,#4
	b.eq	1b
	ldrsb	w9,[x1,#4]
	and	w10,w9,#0x7f
	orr	x8,x8,x10,lsl #28
	tbnz	w9,#31,2f
	mov	w9,#5
	mov	w10,#1
	str	x10,[x0]
	stp	x8,x9,[x0,#8]
	ret
2:
	cmp	x2,#5
	b.eq	1b
	ldrsb	w9,[x1,#5]
	and	w10,w9,#0x7f
	orr	x8,x8,x10,lsl #35
	tbnz	w9,#31,2f
	mov	w9,#6
	mov	w10,#1
	str	x10,[x0]
	stp	x8,x9,[x0,#8]
	ret
2:
	cmp	x2,#6
	b.eq	1b
	ldrsb	w9,[x1,#6]
	and	w10,w9,#0x7f
	orr	x8,x8,x10,lsl #42
	tbnz	w9,#31,2f
	mov	w9,#7
	mov	w10,#1
	str	x10,[x0]
	stp	x8,x9,[x0,#8]
	ret
2:
	cmp	x2,#7
	b.eq	1b
	ldrsb	w9,[x1,#7]
	and	w10,w9,#0x7f
	orr	x8,x8,x10,lsl #49
	tbnz	w9,#31,2f
	mov	w9,#8
	mov	w10,#1
	str	x10,[x0]
	stp	x8,x9,[x0,#8]
	ret
2:
	cmp	x2,#8
	b.eq	1b
	ldrsb	w9,[x1,#8]
	and	w10,w9,#0x7f
	orr	x8,x8,x10,lsl #56
	tbnz	w9,#31,1f
	mov	w9,#9
	mov	w10,#1
	str	x10,[x0]
	stp	x8,x9,[x0,#8]
	ret
1:
	mov	w9,#1
	str	x9,[x0]
	mov	w9,#9
	stp	x8,x9,[x0,#8]
	ret
	.cfi_endproc

	.p2align	2
_rtp_values.value.set_values.ExtensionValuesSetValues.read_layers:
	.cfi_startproc
	sub	sp,sp,#192
	str	x27,[sp,#96]
	stp	x26,x25,[sp,#112]
	stp	x24,x23,[sp,#128]
	stp	x22,x21,[sp,#144]
	stp	x20,x19,[sp,#160]
	stp	x29,x30,[sp,#176]
	.cfi_def_cfa_offset 192
	.cfi_offset w30,-8
	.cfi_offset w29,-16
	.cfi_offset w19,-24
	.cfi_offset w20,-32
	.cfi_offset w21,-40
	.cfi_offset w22,-48
	.cfi_offset w23,-56
	.cfi_offset w24,-64
	.cfi_offset w25,-72
	.cfi_offset w26,-80
	.cfi_offset w27,-96
	cbz	x2,1f
	mov	x26,x0
	subs	x9,x2,#1
	b.ne	2f
	ldrb	w19,[x1]
	cbnz	w19,3f
	mov	x11,xzr
	mov	x27,xzr
	add	x10,sp,#104
4:
	ldrb	w9,[x26,#176]
	ldp	x21,x20,[x26,#192]
	ldr	x22,[x26,#208]
	mov	w8,#1
	stp	x10,x27,[x26,#192]
	cmp	w9,#1
	stp	x8,x11,[x26,#176]
	str	x27,[x26,#208]
	b.ne	1f
	cbz	x20,5f
	mov	x23,xzr
	b	6f
7:
	add	x23,x23,#1
	cmp	x23,x20
	b.eq	5f
6:
	mov	w8,#24
	madd	x8,x23,x8,x21
	ldp	x19,x24,[x8]
	ldr	x25,[x8,#16]
	cbz	x24,6f
	add	x26,x19,#16
	b	8f
9:
	subs	x24,x24,#1
	add	x26,x26,#32
	b.eq	6f
8:
	ldr	x8,[x26]
	cbz	x8,9b
	ldur	x0,[x26,#-16]
	bl	_rattle_dealloc
	b	9b
6:
	cbz	x25,7b
	mov	x0,x19
	bl	_rattle_dealloc
	b	7b
2:
	ldrb	w19,[x1]
3:
	ands	w10,w19,#0xf
	mov	w8,#16843009
	ubfx	w12,w19,#4,#2
	mul	w11,w10,w8
	add	x8,x1,#1
	add	w27,w12,#1
	str	w11,[sp,#108]
	b.eq	2f
	fmov	s0,w10
	cnt.8b	v0,v0
	fmov	w10,s0
	mul	w11,w27,w10
	and	x20,x11,#0xff
	add	x10,x20,#3
	lsr	x10,x10,#2
	subs	x21,x9,x10
	b.hs	3f
	b	1f
2:
	add	x10,x27,#1
	lsr	x10,x10,#1
	subs	x9,x9,x10
	b.lo	1f
	ldrb	w11,[x8]
	lsr	w11,w11,#4
	strb	w11,[sp,#108]
	cbz	w12,2f
	ldrb	w11,[x8]
	cmp	w27,#2
	and	w11,w11,#0xf
	strb	w11,[sp,#109]
	b.eq	2f
	ldrb	w11,[x1,#2]
	cmp	w27,#3
	lsr	w11,w11,#4
	strb	w11,[sp,#110]
	b.eq	2f
	ldrb	w11,[x1,#2]
	and	w11,w11,#0xf
	strb	w11,[sp,#111]
2:
	ldrb	w11,[sp,#108]
	fmov	d0,x11
	cnt.8b	v0,v0
	fmov	w11,s0
	cbz	w12,2f
	ldrb	w12,[sp,#109]
	cmp	w27,#2
	fmov	d0,x12
	cnt.8b	v0,v0
	fmov	w12,s0
	add	w11,w11,w12
	b.eq	2f
	ldrb	w12,[sp,#110]
	cmp	w27,#3
	fmov	d0,x12
	cnt.8b	v0,v0
	fmov	w12,s0
	add	w11,w11,w12
	b.eq	2f
	ldrb	w12,[sp,#111]
	fmov	d0,x12
	cnt.8b	v0,v0
	fmov	w12,s0
	add	w11,w11,w12
2:
	add	x8,x8,x10
	and	x20,x11,#0xff
	add	x10,x20,#3
	lsr	x10,x10,#2
	subs	x21,x9,x10
	b.lo	1f
3:
	add	x9,x8,x10
	str	x9,[sp,#64]
	cbz	x10,2f
	cmp	x10,#1
	b.ne	3f
	ldrb	w8,[x8]
	lsl	w25,w8,#24
	ldr	x1,[sp,#64]
	mov	x24,x21
	cbnz	w20,6f
	b	7f
2:
	mov	w25,wzr
	ldr	x1,[sp,#64]
	mov	x24,x21
	cbnz	w20,6f
	b	7f
3:
	cmp	w20,#8
	b.hi	2f
	ldrh	w8,[x8]
	rev	w25,w8
	ldr	x1,[sp,#64]
	mov	x24,x21
	cbnz	w20,6f
	b	7f
5:
	cbz	x22,1f
	mov	x0,x21
	bl	_rattle_dealloc
1:
	mov	w0,wzr
3:
	ldp	x29,x30,[sp,#176]
	ldr	x27,[sp,#96]
	ldp	x20,x19,[sp,#160]
	ldp	x22,x21,[sp,#144]
	ldp	x24,x23,[sp,#128]
	ldp	x26,x25,[sp,#112]
	add	sp,sp,#192
	ret
2:
	cmp	x10,#3
	b.ne	2f
	ldrb	w9,[x8,#2]
	ldrh	w8,[x8]
	orr	w8,w8,w9,lsl #16
	b	5f
2:
	ldr	w8,[x8]
5:
	rev	w25,w8
6:
	mov	w8,#32
	mov	w9,w25
	ldr	x1,[sp,#64]
	sub	x8,x8,x20,lsl #1
	str	w25,[sp,#56]
	mov	x24,x21
	lsr	x8,x9,x8
	and	w9,w8,#0xaaaaaaaa
	fmov	d1,x8
	fmov	s0,w9
	cnt.8b	v1,v1
	cnt.8b	v0,v0
	addv.8b	b1,v1
	addv.8b	b0,v0
	fmov	w8,s1
	fmov	w9,s0
	add	x8,x8,x20
	adds	x25,x8,x9
	b.eq	2f
	ldr	x1,[sp,#64]
	mov	x24,x21
	b	5f
6:
	sub	x24,x24,#1
	add	x1,x1,#1
8:
	subs	x25,x25,#1
	b.eq	2f
5:
	cbz	x24,8b
	ldrsb	w8,[x1]
	tbz	w8,#31,6b
	cmp	x24,#1
	b.eq	5f
	ldrsb	w8,[x1,#1]
	tbnz	w8,#31,5f
	mov	w8,#2
	b	6f
5:
	add	x0,sp,#72
	mov	x2,x24
	mov	x23,x1
	bl	_rtp_vla.leb.long_number_at
	ldrb	w8,[sp,#72]
	cmp	w8,#1
	b.ne	5f
	ldr	x8,[sp,#88]
	mov	x1,x23
6:
	add	x1,x1,x8
	sub	x24,x24,x8
	b	8b
5:
	mov	x1,x23
	b	8b
2:
	subs	x9,x24,#5
	b.hs	2f
	ldr	w25,[sp,#56]
7:
	add	x8,x27,x27,lsl #1
	str	x1,[sp,#56]
	mov	w1,#8
	lsl	x0,x8,#3
	bl	_rattle_alloc
	str	x1,[sp,#32]
	tbz	w0,#0,5f
	lsr	w8,w19,#6
	mov	x10,xzr
	str	x26,[sp,#16]
	stp	x8,x27,[sp]
	b	6f
8:
	ldp	x27,x26,[sp,#8]
	ldr	x11,[sp,#24]
9:
	ldp	x9,x10,[sp,#32]
	mov	w8,#24
	madd	x8,x10,x8,x9
	add	x10,x10,#1
	cmp	x10,x27
	stp	x22,x19,[x8]
	str	x11,[x8,#16]
	b.eq	10f
6:
	add	x8,sp,#108
	mov	w9,#32
	str	x10,[sp,#40]
	ldrb	w20,[x8,x10]
	clz	w8,w20
	sub	w8,w9,w8
	and	x11,x8,#0xff
	cbz	w20,6f
	lsl	x0,x11,#5
	mov	w1,#8
	str	x11,[sp,#24]
	bl	_rattle_alloc
	tbz	w0,#0,11f
	mov	x22,x1
	mov	x26,xzr
	mov	x19,xzr
	b	12f
13:
	mov	x27,xzr
	mov	w9,wzr
	mov	w8,wzr
	mov	w10,wzr
	mov	w11,wzr
	add	x1,sp,#104
14:
	ubfx	w20,w20,#1,#7
	add	x12,x22,x26
	add	x19,x19,#1
	add	x26,x26,#32
	stp	x1,x27,[x12]
	str	x27,[x12,#16]
	strh	w9,[x12,#24]
	strh	w11,[x12,#26]
	strh	w10,[x12,#28]
	strb	w8,[x12,#30]
	strb	wzr,[x12,#31]
	cbz	w20,8b
12:
	tbz	w20,#0,13b
	mov	w23,w25
	lsr	w25,w25,#30
	mov	w1,#8
	add	w27,w25,#1
	ubfiz	x0,x27,#3,#32
	bl	_rattle_alloc
	tbz	w0,#0,8f
	cbz	x21,12f
	ldr	x8,[sp,#64]
	ldrsb	x8,[x8]
	tbnz	x8,#63,13f
	ldr	x9,[sp,#64]
	sub	x21,x21,#1
	add	x9,x9,#1
	str	x9,[sp,#64]
	str	x8,[x1]
	cbnz	w25,15f
	b	16f
12:
	str	xzr,[x1]
	cbnz	w25,15f
	b	16f
13:
	cmp	x21,#1
	b.eq	12f
	ldr	x9,[sp,#64]
	ldrsb	x9,[x9,#1]
	tbnz	x9,#63,12f
	and	x8,x8,#0x7f
	orr	x8,x8,x9,lsl #7
	mov	w9,#2
	b	13f
12:
	ldr	x8,[sp,#64]
	str	x1,[sp,#48]
	add	x0,sp,#72
	mov	x2,x21
	mov	x1,x8
	bl	_rtp_vla.leb.long_number_at
	ldrb	w8,[sp,#72]
	cmp	w8,#1
	b.ne	12f
	ldp	x8,x9,[sp,#80]
	ldr	x1,[sp,#48]
13:
	ldr	x10,[sp,#64]
	sub	x21,x21,x9
	add	x10,x10,x9
	str	x10,[sp,#64]
	str	x8,[x1]
	cbz	w25,16f
15:
	cbz	x21,13f
	ldr	x8,[sp,#64]
	ldrsb	w9,[x8]
	and	x8,x9,#0xff
	tbnz	w9,#31,17f
	ldr	x9,[sp,#64]
	sub	x21,x21,#1
	add	x9,x9,#1
	str	x9,[sp,#64]
	mov	w25,w23
	cmp	w27,#2
	str	x8,[x1,#8]
	b.ne	18f
	b	19f
13:
	mov	w25,w23
	cmp	w27,#2
	str	xzr,[x1,#8]
	b.ne	18f
	b	19f
17:
	cmp	x21,#1
	b.eq	13f
	ldr	x9,[sp,#64]
	ldrsb	x9,[x9,#1]
	tbnz	x9,#63,13f
	and	x8,x8,#0x7f
	orr	x8,x8,x9,lsl #7
	mov	w9,#2
	b	17f
13:
	ldr	x8,[sp,#64]
	str	x1,[sp,#48]
	add	x0,sp,#72
	mov	x2,x21
	mov	x1,x8
	bl	_rtp_vla.leb.long_number_at
	ldrb	w8,[sp,#72]
	cmp	w8,#1
	b.ne	13f
	ldp	x8,x9,[sp,#80]
	ldr	x1,[sp,#48]
17:
	ldr	x10,[sp,#64]
	sub	x21,x21,x9
	add	x10,x10,x9
	str	x10,[sp,#64]
	mov	w25,w23
	cmp	w27,#2
	str	x8,[x1,#8]
	b.ne	18f
	b	19f
12:
	ldr	x1,[sp,#48]
	str	xzr,[x1]
	cbnz	w25,15b
16:
	lsl	w25,w23,#2
	subs	x12,x24,#5
	b.lo	12f
	b	15f
13:
	ldr	x1,[sp,#48]
	mov	w25,w23
	cmp	w27,#2
	str	xzr,[x1,#8]
	b.eq	19f
18:
	cbz	x21,13f
	ldr	x8,[sp,#64]
	ldrsb	w9,[x8]
	and	x8,x9,#0xff
	tbnz	w9,#31,16f
	ldr	x9,[sp,#64]
	sub	x21,x21,#1
	add	x9,x9,#1
	str	x9,[sp,#64]
	cmp	w27,#3
	str	x8,[x1,#16]
	b.eq	19f
	b	17f
13:
	cmp	w27,#3
	str	xzr,[x1,#16]
	b.eq	19f
	b	17f
16:
	cmp	x21,#1
	b.eq	13f
	ldr	x9,[sp,#64]
	ldrsb	x9,[x9,#1]
	tbnz	x9,#63,13f
	and	x8,x8,#0x7f
	orr	x8,x8,x9,lsl #7
	mov	w9,#2
	b	16f
13:
	ldr	x8,[sp,#64]
	str	x1,[sp,#48]
	add	x0,sp,#72
	mov	x2,x21
	mov	x1,x8
	bl	_rtp_vla.leb.long_number_at
	ldrb	w8,[sp,#72]
	cmp	w8,#1
	b.ne	13f
	ldp	x8,x9,[sp,#80]
	mov	w25,w23
	ldr	x1,[sp,#48]
16:
	ldr	x10,[sp,#64]
	sub	x21,x21,x9
	add	x10,x10,x9
	str	x10,[sp,#64]
	cmp	w27,#3
	str	x8,[x1,#16]
	b.ne	17f
19:
	lsl	w25,w25,#2
	subs	x12,x24,#5
	b.hs	15f
12:
	mov	w9,wzr
	mov	w8,wzr
	mov	w10,wzr
	mov	w11,wzr
	b	14b
13:
	ldr	x1,[sp,#48]
	mov	w25,w23
	cmp	w27,#3
	str	xzr,[x1,#16]
	b.eq	19b
17:
	cbz	x21,13f
	ldr	x8,[sp,#64]
	ldrsb	w9,[x8]
	and	x8,x9,#0xff
	tbnz	w9,#31,16f
	ldr	x9,[sp,#64]
	sub	x21,x21,#1
	add	x9,x9,#1
	str	x9,[sp,#64]
	str	x8,[x1,#24]
	lsl	w25,w25,#2
	subs	x12,x24,#5
	b.lo	12b
	b	15f
13:
	str	xzr,[x1,#24]
	lsl	w25,w25,#2
	subs	x12,x24,#5
	b.lo	12b
	b	15f
16:
	cmp	x21,#1
	b.eq	13f
	ldr	x9,[sp,#64]
	ldrsb	x9,[x9,#1]
	tbnz	x9,#63,13f
	and	x8,x8,#0x7f
	orr	x8,x8,x9,lsl #7
	mov	w9,#2
	b	16f
13:
	ldr	x8,[sp,#64]
	str	x1,[sp,#48]
	add	x0,sp,#72
	mov	x2,x21
	mov	x1,x8
	bl	_rtp_vla.leb.long_number_at
	ldrb	w8,[sp,#72]
	cmp	w8,#1
	b.ne	13f
	ldp	x8,x9,[sp,#80]
	mov	w25,w23
	ldr	x1,[sp,#48]
16:
	ldr	x10,[sp,#64]
	sub	x21,x21,x9
	add	x10,x10,x9
	str	x10,[sp,#64]
	str	x8,[x1,#24]
	lsl	w25,w25,#2
	subs	x12,x24,#5
	b.lo	12b
	b	15f
13:
	ldr	x1,[sp,#48]
	str	xzr,[x1,#24]
	lsl	w25,w23,#2
	subs	x12,x24,#5
	b.lo	12b
15:
	ldr	x11,[sp,#56]
	mov	x24,x12
	ldrh	w8,[x11]
	ldrh	w9,[x11,#2]
	add	x23,x11,#5
	str	x23,[sp,#56]
	rev	w8,w8
	rev	w9,w9
	lsr	w10,w8,#16
	lsr	w9,w9,#16
	ldrb	w8,[x11,#4]
	add	w11,w10,#1
	add	w10,w9,#1
	mov	w9,#1
	b	14b
6:
	mov	x19,xzr
	add	x22,sp,#104
	b	9b
2:
	ldr	w25,[sp,#56]
	mov	w8,#1
	mov	x10,x1
2:
	ldrh	w11,[x10]
	rev	w12,w11
	mov	w11,#65535
	cmp	w11,w12,lsr #16
	b.eq	1b
	ldrh	w12,[x10,#2]
	rev	w12,w12
	cmp	w11,w12,lsr #16
	b.eq	1b
	cmp	x8,x20
	b.hs	7b
	cmp	x9,#5
	sub	x9,x9,#5
	add	x8,x8,#1
	add	x10,x10,#5
	b.hs	2b
	b	7b
8:
	cbz	x26,1f
	ldr	x8,[x22,#16]
	cbz	x8,2f
	ldr	x0,[x22]
	bl	_rattle_dealloc
2:
	cmp	x26,#32
	b.eq	1f
	ldr	x8,[x22,#48]
	cbz	x8,2f
	ldr	x0,[x22,#32]
	bl	_rattle_dealloc
2:
	cmp	x26,#64
	b.eq	1f
	ldr	x8,[x22,#80]
	cbz	x8,2f
	ldr	x0,[x22,#64]
	bl	_rattle_dealloc
2:
	cmp	x26,#96
	b.eq	1f
	ldr	x8,[x22,#112]
	cbz	x8,2f
	ldr	x0,[x22,#96]
	bl	_rattle_dealloc
2:
	cmp	x26,#128
	b.eq	1f
	ldr	x8,[x22,#144]
	cbz	x8,2f
	ldr	x0,[x22,#128]
	bl	_rattle_dealloc
2:
	cmp	x26,#160
	b.eq	1f
	ldr	x8,[x22,#176]
	cbz	x8,2f
	ldr	x0,[x22,#160]
	bl	_rattle_dealloc
2:
	cmp	x26,#192
	b.eq	1f
	ldr	x8,[x22,#208]
	cbz	x8,2f
	ldr	x0,[x22,#192]
	bl	_rattle_dealloc
2:
	cmp	x26,#224
	b.eq	1f
	ldr	x8,[x22,#240]
	cbz	x8,1f
	ldr	x0,[x22,#224]
	bl	_rattle_dealloc
1:
	mov	x0,x22
	bl	_rattle_dealloc
11:
	ldp	x23,x8,[sp,#32]
	cbz	x8,1f
	ldp	x19,x20,[x23]
	ldr	x21,[x23,#16]
	cbz	x20,2f
	add	x22,x19,#16
	b	6f
7:
	subs	x20,x20,#1
	add	x22,x22,#32
	b.eq	2f
6:
	ldr	x8,[x22]
	cbz	x8,7b
	ldur	x0,[x22,#-16]
	bl	_rattle_dealloc
	b	7b
2:
	cbz	x21,2f
	mov	x0,x19
	bl	_rattle_dealloc
2:
	ldr	x8,[sp,#40]
	cmp	x8,#1
	b.eq	1f
	ldp	x19,x20,[x23,#24]
	ldr	x21,[x23,#40]
	cbz	x20,2f
	add	x22,x19,#16
	b	6f
7:
	subs	x20,x20,#1
	add	x22,x22,#32
	b.eq	2f
6:
	ldr	x8,[x22]
	cbz	x8,7b
	ldur	x0,[x22,#-16]
	bl	_rattle_dealloc
	b	7b
2:
	cbz	x21,2f
	mov	x0,x19
	bl	_rattle_dealloc
2:
	ldr	x8,[sp,#40]
	cmp	x8,#2
	b.eq	1f
	ldp	x19,x20,[x23,#48]
	ldr	x21,[x23,#64]
	cbz	x20,2f
	add	x22,x19,#16
	b	6f
7:
	subs	x20,x20,#1
	add	x22,x22,#32
	b.eq	2f
6:
	ldr	x8,[x22]
	cbz	x8,7b
	ldur	x0,[x22,#-16]
	bl	_rattle_dealloc
	b	7b
2:
	cbz	x21,1f
	mov	x0,x19
	bl	_rattle_dealloc
1:
	mov	x0,x23
	bl	_rattle_dealloc
5:
	mov	w0,#1
	b	3b
10:
	ldr	x10,[sp,#32]
	ldr	x11,[sp]
	b	4b
	.cfi_endproc

	.section	__TEXT,__literal16,16byte_literals
	.p2align	4,0x0
lrtp_CPI11_0:
	.long	1
	.long	2
	.long	4
	.long	8
	.section	__TEXT,__text,regular,pure_instructions
	.p2align	2
_rtp_receive.hints.Hints.learn_now:
	.cfi_startproc
	sub	sp,sp,#96
	stp	x26,x25,[sp,#16]
	stp	x24,x23,[sp,#32]
	stp	x22,x21,[sp,#48]
	stp	x20,x19,[sp,#64]
	stp	x29,x30,[sp,#80]
	.cfi_def_cfa_offset 96
	.cfi_offset w30,-8
	.cfi_offset w29,-16
	.cfi_offset w19,-24
	.cfi_offset w20,-32
	.cfi_offset w21,-40
	.cfi_offset w22,-48
	.cfi_offset w23,-56
	.cfi_offset w24,-64
	.cfi_offset w25,-72
	.cfi_offset w26,-80
	mov	x22,x0
	mov	x19,x1
	mov	x20,x0
	str	xzr,[x22,#32]!
	mov	x23,x22
	ldr	x8,[x23,#-16]!
	adrp	x24,lrtp_CPI11_0@PAGE
	cbz	x8,1f
	mov	w9,#31153
	movk	w9,#40503,lsl #16
	mul	w9,w2,w9
	mul	x9,x8,x9
	lsr	x9,x9,#32
	cmp	x8,x9
	b.ls	2f
	ldr	x10,[x20,#8]
	dup.4s	v1,w2
	add	x9,x10,x9,lsl #5
	mov	x10,x9
	ldr	q0,[x10],#16
	cmeq.4s	v2,v0,v1
	ldr	q1,[x24,lrtp_CPI11_0@PAGEOFF]
	umaxv.4s	s3,v2
	fmov	w11,s3
	tbz	w11,#0,3f
	and.16b	v0,v2,v1
	b	4f
3:
	ldr	q2,[x10]
	orr.16b	v0,v2,v0
	cmeq.4s	v0,v0,#0
	and.16b	v0,v0,v1
4:
	addv.4s	s0,v0
	fmov	w11,s0
	and	x11,x11,#0xf
	rbit	x11,x11
	clz	x11,x11
	cmp	x11,#3
	b.hi	2f
	str	w2,[x9,x11,lsl #2]
	str	w3,[x10,x11,lsl #2]
	ldr	x8,[x23]
	b	1f
2:
	mov	w9,#16
	str	x9,[x22]
	ldr	x9,[x19,#8]
	cmp	x9,x8
	b.ls	2f
	ldr	x9,[x20,#40]
	adds	x9,x9,#16
	csinv	x9,x9,xzr,lo
	str	x9,[x20,#40]
1:
	ldr	x9,[x20,#40]
	adds	x9,x9,#1
	csinv	x10,x9,xzr,lo
	str	x10,[x20,#40]
	ldr	x9,[x19,#8]
	lsr	x9,x9,#3
	cmp	x8,x9
	csel	x9,x8,x9,hi
	subs	x10,x9,x10
	b.ls	1f
	cbnz	x8,2f
	stp	x10,x9,[x20,#32]
	b	2f
1:
	ldr	x0,[x20,#8]
	ldr	x9,[x20,#24]
	add	x8,sp,#12
	stp	xzr,xzr,[x22]
	str	x8,[x20,#8]
	stp	xzr,xzr,[x23]
	cbz	x9,1f
	bl	_rattle_dealloc
1:
	ldr	x25,[x19,#8]
	cbz	x25,1f
	lsr	x8,x25,#58
	cbnz	x8,2f
	lsl	x21,x25,#5
	mov	w1,#4
	mov	x0,x21
	bl	_rattle_alloc
	tbz	w0,#0,2f
	subs	x26,x25,#1
	b.eq	3f
	sub	x8,x21,#32
	mov	x0,x1
	mov	x21,x1
	mov	x1,x8
	bl	_bzero
	mov	x1,x21
3:
	movi.2d	v0,#0000000000000000
	add	x8,x1,x26,lsl #5
	stp	q0,q0,[x8]
	add	x8,x26,#1
	ldr	x0,[x20,#8]
	ldr	x9,[x20,#24]
	stp	x1,x8,[x20,#8]
	str	x25,[x20,#24]
	cbnz	x9,3f
	b	4f
1:
	add	x1,sp,#12
	ldr	x0,[x20,#8]
	ldr	x9,[x20,#24]
	stp	x1,xzr,[x20,#8]
	str	x25,[x20,#24]
	cbz	x9,4f
3:
	bl	_rattle_dealloc
4:
	ldr	x8,[x19,#8]
	cbz	x8,2f
	ldr	x10,[x19]
	lsr	x11,x8,#2
	mov	w12,#31153
	mov	x9,xzr
	movk	w12,#40503,lsl #16
1:
	add	x13,x10,x9,lsl #6
3:
	ldr	w14,[x13],#64
	ldr	x16,[x23]
	mul	w15,w14,w12
	mul	x15,x16,x15
	lsr	x15,x15,#32
	cmp	x16,x15
	b.ls	4f
	ldr	x16,[x20,#8]
	dup.4s	v1,w14
	add	x15,x16,x15,lsl #5
	mov	x16,x15
	ldr	q0,[x16],#16
	cmeq.4s	v2,v0,v1
	ldr	q1,[x24,lrtp_CPI11_0@PAGEOFF]
	umaxv.4s	s3,v2
	fmov	w17,s3
	tbz	w17,#0,5f
	and.16b	v0,v2,v1
	b	6f
5:
	ldr	q2,[x16]
	orr.16b	v0,v2,v0
	cmeq.4s	v0,v0,#0
	and.16b	v0,v0,v1
6:
	addv.4s	s0,v0
	fmov	w17,s0
	and	x17,x17,#0xf
	rbit	x17,x17
	clz	x17,x17
	cmp	x17,#3
	b.hi	4f
	str	w9,[x16,x17,lsl #2]
	add	x9,x9,#1
	cmp	x9,x8
	str	w14,[x15,x17,lsl #2]
	b.lo	3b
	b	2f
4:
	cbz	x11,3f
	add	x9,x9,#1
	sub	x11,x11,#1
	cmp	x9,x8
	b.lo	1b
	b	2f
3:
	ldr	x0,[x20,#8]
	ldr	x9,[x20,#24]
	add	x8,sp,#12
	str	x8,[x20,#8]
	stp	xzr,xzr,[x23]
	cbz	x9,1f
	bl	_rattle_dealloc
1:
	ldr	x8,[x19,#8]
	lsr	x9,x8,#60
	lsl	x8,x8,#4
	cmp	x9,#0
	csinv	x8,x8,xzr,eq
	str	x8,[x22]
2:
	ldp	x29,x30,[sp,#80]
	ldp	x20,x19,[sp,#64]
	ldp	x22,x21,[sp,#48]
	ldp	x24,x23,[sp,#32]
	ldp	x26,x25,[sp,#16]
	add	sp,sp,#96
	ret
	.cfi_endproc

	.p2align	2
_rtp_std_alloc.vec.Vec.grow_amortized.fc13275a563fcb41:
	.cfi_startproc
	ldr	x8,[x0,#8]
	cmn	x8,#1
	b.eq	1f
	stp	x20,x19,[sp,#-32]!
	stp	x29,x30,[sp,#16]
	.cfi_def_cfa_offset 32
	.cfi_offset w30,-8
	.cfi_offset w29,-16
	.cfi_offset w19,-24
	.cfi_offset w20,-32
	ldr	x9,[x0,#16]
	cmp	x8,#3
	mov	w10,#3
	csel	x11,x8,x10,hi
	lsl	x10,x9,#1
	add	x12,x11,#1
	lsr	x13,x9,#62
	cmp	x12,x10
	csinc	x10,x10,x11,ls
	cmp	x13,#0
	csinc	x19,x10,x11,eq
	lsr	x11,x19,#57
	cbnz	x11,2f
	cbz	x9,3f
	mov	x20,x0
	ldr	x0,[x0]
	lsl	x1,x8,#6
	lsl	x2,x19,#6
	mov	w3,#16
	bl	_rattle_realloc
	tbz	w0,#0,2f
4:
	mov	w0,#1
	str	x1,[x20]
	str	x19,[x20,#16]
	ldp	x29,x30,[sp,#16]
	ldp	x20,x19,[sp],#32
	ret
1:
	mov	w0,wzr
	ret
3:
	mov	x20,x0
	lsl	x0,x10,#6
	mov	w1,#16
	bl	_rattle_alloc
	tbnz	w0,#0,4b
2:
	mov	w0,wzr
	ldp	x29,x30,[sp,#16]
	ldp	x20,x19,[sp],#32
	ret
	.cfi_endproc

	.p2align	2
_rtp_std_alloc.vec.Vec.drop.96fc43e7743eb198:
	.cfi_startproc
	stp	x26,x25,[sp,#-80]!
	stp	x24,x23,[sp,#16]
	stp	x22,x21,[sp,#32]
	stp	x20,x19,[sp,#48]
	stp	x29,x30,[sp,#64]
	.cfi_def_cfa_offset 80
	.cfi_offset w30,-8
	.cfi_offset w29,-16
	.cfi_offset w19,-24
	.cfi_offset w20,-32
	.cfi_offset w21,-40
	.cfi_offset w22,-48
	.cfi_offset w23,-56
	.cfi_offset w24,-64
	.cfi_offset w25,-72
	.cfi_offset w26,-80
	ldp	x19,x21,[x0]
	ldr	x22,[x0,#16]
	cbz	x21,1f
	mov	x23,xzr
	b	2f
3:
	add	x23,x23,#1
	cmp	x23,x21
	b.eq	1f
2:
	mov	w8,#24
	madd	x8,x23,x8,x19
	ldp	x20,x24,[x8]
	ldr	x25,[x8,#16]
	cbz	x24,2f
	add	x26,x20,#16
	b	4f
5:
	subs	x24,x24,#1
	add	x26,x26,#32
	b.eq	2f
4:
	ldr	x8,[x26]
	cbz	x8,5b
	ldur	x0,[x26,#-16]
	bl	_rattle_dealloc
	b	5b
2:
	cbz	x25,3b
	mov	x0,x20
	bl	_rattle_dealloc
	b	3b
1:
	cbz	x22,1f
	mov	x0,x19
	ldp	x29,x30,[sp,#64]
	ldp	x20,x19,[sp,#48]
	ldp	x22,x21,[sp,#32]
	ldp	x24,x23,[sp,#16]
	ldp	x26,x25,[sp],#80
	b	_rattle_dealloc
1:
	ldp	x29,x30,[sp,#64]
	ldp	x20,x19,[sp,#48]
	ldp	x22,x21,[sp,#32]
	ldp	x24,x23,[sp,#16]
	ldp	x26,x25,[sp],#80
	ret
	.cfi_endproc

	.p2align	2
_rtp_std_collections.btree.node.Node.destroy.2fe7f96373f75378:
	.cfi_startproc
	str	x27,[sp,#-96]!
	stp	x26,x25,[sp,#16]
	stp	x24,x23,[sp,#32]
	stp	x22,x21,[sp,#48]
	stp	x20,x19,[sp,#64]
	stp	x29,x30,[sp,#80]
	.cfi_def_cfa_offset 96
	.cfi_offset w30,-8
	.cfi_offset w29,-16
	.cfi_offset w19,-24
	.cfi_offset w20,-32
	.cfi_offset w21,-40
	.cfi_offset w22,-48
	.cfi_offset w23,-56
	.cfi_offset w24,-64
	.cfi_offset w25,-72
	.cfi_offset w26,-80
	.cfi_offset w27,-96
	ldrh	w8,[x0,#2]
	ldrh	w21,[x0]
	mov	x19,x0
	add	x23,x0,#64
	add	x22,x0,#4
	cbz	w8,1f
	cbz	w21,2f
	add	x24,x19,#184
	add	x25,x21,#1
	add	x27,x19,#4
	add	x26,x19,#64
	b	3f
4:
	cbz	x21,2f
3:
	sub	x25,x25,#1
	ldr	x20,[x24]
	cmp	x25,#257
	b.lo	3f
	mov	x8,xzr
	add	x9,x19,#208
5:
	mov	w10,#256
	mov	x11,x9
6:
	ldp	q0,q1,[x11,#-16]
	subs	x10,x10,#4
	stur	q0,[x11,#-24]
	stur	q1,[x11,#-8]
	add	x11,x11,#32
	b.ne	6b
	add	x8,x8,#256
	add	x9,x9,#2048
	sub	x10,x25,x8
	cmp	x10,#256
	b.hi	5b
	cmp	x25,x8
	b.eq	5f
6:
	add	x0,x24,x8,lsl #3
	lsl	x2,x10,#3
	add	x1,x0,#8
	bl	_memmove
5:
	mov	x0,x20
	bl	_rtp_std_collections.btree.node.Node.destroy.2fe7f96373f75378
	sub	x21,x21,#1
	cmp	x21,#513
	b.lo	7f
	mov	x11,xzr
	add	x9,x19,#20
8:
	mov	w8,#512
	mov	x10,x9
9:
	ldur	q0,[x10,#-12]
	ldur	q1,[x10,#4]
	subs	x8,x8,#8
	stp	q0,q1,[x10,#-16]
	add	x10,x10,#32
	b.ne	9b
	add	x11,x11,#512
	add	x9,x9,#2048
	sub	x8,x21,x11
	cmp	x8,#512
	b.hi	8b
	lsl	x9,x11,#2
	add	x10,x22,x9
	cmp	x21,x11
	b.ne	8f
	b	9f
3:
	mov	x8,xzr
	mov	x10,x25
	cmp	x25,xzr
	b.ne	6b
	b	5b
7:
	mov	x9,xzr
	add	x10,x19,#4
	mov	x8,x21
	cmp	x21,xzr
	b.eq	9f
8:
	cmp	x8,#8
	b.lo	3f
	add	x11,x9,x19
	sub	x11,x11,x10
	cmp	x11,#32
	b.hs	5f
3:
	mov	x11,xzr
3:
	lsl	x12,x11,#2
	add	x13,x27,x9
	sub	x8,x8,x11
	add	x10,x10,x12
	add	x9,x10,#4
	add	x10,x13,x12
6:
	ldr	w11,[x9],#4
	subs	x8,x8,#1
	str	w11,[x10],#4
	b.ne	6b
9:
	cmp	x21,#257
	b.lo	6f
	mov	x11,xzr
	add	x9,x19,#88
7:
	mov	w8,#256
	mov	x10,x9
8:
	ldp	q0,q1,[x10,#-16]
	subs	x8,x8,#4
	stur	q0,[x10,#-24]
	stur	q1,[x10,#-8]
	add	x10,x10,#32
	b.ne	8b
	add	x11,x11,#256
	add	x9,x9,#2048
	sub	x8,x21,x11
	cmp	x8,#256
	b.hi	7b
	lsl	x9,x11,#3
	add	x10,x23,x9
	cmp	x21,x11
	b.eq	4b
	b	7f
6:
	mov	x9,xzr
	add	x10,x19,#64
	mov	x8,x21
	cmp	x21,xzr
	b.eq	4b
7:
	cmp	x8,#4
	b.lo	6f
	add	x11,x19,#56
	add	x11,x11,x9
	sub	x11,x11,x10
	cmp	x11,#32
	b.hs	7f
6:
	mov	x11,xzr
6:
	lsl	x12,x11,#3
	add	x13,x26,x9
	sub	x8,x8,x11
	add	x10,x10,x12
	add	x9,x10,#8
	add	x10,x13,x12
8:
	ldr	x11,[x9],#8
	subs	x8,x8,#1
	str	x11,[x10],#8
	b.ne	8b
	b	4b
5:
	add	x13,x19,#20
	and	x11,x8,#0x3f8
	add	x12,x10,#20
	add	x13,x13,x9
	and	x14,x8,#0x3f8
5:
	ldp	q0,q1,[x12,#-16]
	subs	x14,x14,#8
	add	x12,x12,#32
	stp	q0,q1,[x13,#-16]
	add	x13,x13,#32
	b.ne	5b
	cmp	x8,x11
	b.eq	9b
	b	3b
7:
	add	x13,x19,#80
	and	x11,x8,#0x1fc
	add	x12,x10,#24
	add	x13,x13,x9
	and	x14,x8,#0x1fc
3:
	ldp	q0,q1,[x12,#-16]
	subs	x14,x14,#4
	add	x12,x12,#32
	stp	q0,q1,[x13,#-16]
	add	x13,x13,#32
	b.ne	3b
	cmp	x8,x11
	b.eq	4b
	b	6b
2:
	ldr	x0,[x19,#184]
	bl	_rtp_std_collections.btree.node.Node.destroy.2fe7f96373f75378
	b	2f
1:
	cmp	w21,#15
	b.ls	1f
	lsr	x20,x21,#1
	add	x0,x19,#4
	sub	x21,x21,x20
	mov	x2,x20
	add	x1,x22,x21,lsl #2
	bl	_rtp_core.slice.edits.mirror.24.rtp_base.id.ssrc.Ssrc
	add	x1,x23,x21,lsl #3
	add	x0,x19,#64
	mov	x2,x20
	bl	_rtp_core.slice.edits.mirror.i64
	b	2f
1:
	cmp	w21,#2
	b.lo	2f
	sub	x9,x21,#2
	subs	x10,x21,#1
	lsr	x8,x9,#1
	b.eq	1f
	ldr	w11,[x22,x10,lsl #2]
	ldr	w12,[x22]
	str	w11,[x22]
	str	w12,[x22,x10,lsl #2]
1:
	cbz	x8,1f
	cmp	x9,#1
	b.ls	3f
	ldr	w10,[x22,x9,lsl #2]
	ldr	w11,[x19,#8]
	str	w10,[x19,#8]
	str	w11,[x22,x9,lsl #2]
	b	4f
3:
	cbnz	x9,4f
	ldp	w10,w9,[x19,#4]
	stp	w9,w10,[x19,#4]
4:
	cmp	x8,#1
	b.eq	1f
	sub	x9,x21,#3
	cmp	x9,#2
	b.ls	3f
	ldr	w10,[x22,x9,lsl #2]
	ldr	w11,[x19,#12]
	str	w10,[x19,#12]
	str	w11,[x22,x9,lsl #2]
	b	4f
3:
	b.eq	4f
	ldr	w10,[x22,x9,lsl #2]
	ldr	w11,[x19,#12]
	str	w11,[x22,x9,lsl #2]
	str	w10,[x19,#12]
4:
	cmp	x8,#2
	b.eq	1f
	sub	x9,x21,#4
	cmp	x9,#3
	b.ls	3f
	ldr	w10,[x22,x9,lsl #2]
	ldr	w11,[x19,#16]
	str	w10,[x19,#16]
	str	w11,[x22,x9,lsl #2]
	b	4f
3:
	b.eq	4f
	ldr	w10,[x22,x9,lsl #2]
	ldr	w11,[x19,#16]
	str	w11,[x22,x9,lsl #2]
	str	w10,[x19,#16]
4:
	cmp	x8,#3
	b.eq	1f
	sub	x9,x21,#5
	cmp	x9,#4
	b.ls	3f
	ldr	w10,[x22,x9,lsl #2]
	ldr	w11,[x19,#20]
	str	w10,[x19,#20]
	str	w11,[x22,x9,lsl #2]
	b	4f
3:
	b.eq	4f
	ldr	w10,[x22,x9,lsl #2]
	ldr	w11,[x19,#20]
	str	w11,[x22,x9,lsl #2]
	str	w10,[x19,#20]
4:
	cmp	x8,#4
	b.eq	1f
	sub	x9,x21,#6
	cmp	x9,#5
	b.ls	3f
	ldr	w10,[x22,x9,lsl #2]
	ldr	w11,[x19,#24]
	str	w10,[x19,#24]
	str	w11,[x22,x9,lsl #2]
	b	4f
3:
	b.eq	4f
	ldr	w10,[x22,x9,lsl #2]
	ldr	w11,[x19,#24]
	str	w11,[x22,x9,lsl #2]
	str	w10,[x19,#24]
4:
	cmp	x8,#5
	b.eq	1f
	sub	x9,x21,#7
	cmp	x9,#6
	b.ls	3f
	ldr	w10,[x22,x9,lsl #2]
	ldr	w11,[x19,#28]
	str	w10,[x19,#28]
	str	w11,[x22,x9,lsl #2]
	b	1f
3:
	b.eq	1f
	ldr	w10,[x22,x9,lsl #2]
	ldr	w11,[x19,#28]
	str	w11,[x22,x9,lsl #2]
	str	w10,[x19,#28]
1:
	mov	x9,xzr
	add	x10,x19,#56
	add	x8,x8,#1
	b	1f
3:
	add	x12,x10,x9,lsl #3
	ldr	x13,[x10,x21,lsl #3]
	ldr	x14,[x12,#8]
	str	x13,[x12,#8]
	str	x14,[x10,x21,lsl #3]
4:
	add	x9,x9,#1
	mov	x21,x11
	cmp	x8,x9
	b.eq	2f
1:
	sub	x11,x21,#1
	cmp	x9,x11
	b.lo	3b
	cmp	x11,x9
	b.hs	4b
	add	x12,x10,x9,lsl #3
	ldr	x13,[x10,x21,lsl #3]
	ldr	x14,[x12,#8]
	str	x14,[x10,x21,lsl #3]
	str	x13,[x12,#8]
	b	4b
2:
	mov	x0,x19
	ldp	x29,x30,[sp,#80]
	ldp	x20,x19,[sp,#64]
	ldp	x22,x21,[sp,#48]
	ldp	x24,x23,[sp,#32]
	ldp	x26,x25,[sp,#16]
	ldr	x27,[sp],#96
	b	_rattle_dealloc
	.cfi_endproc

	.p2align	2
_rtp_core.slice.edits.mirror.24.rtp_base.id.ssrc.Ssrc:
	.cfi_startproc
	lsl	x8,x2,#2
	add	x9,x1,x8
	add	x8,x0,x8
	cmp	x0,x9
	ccmp	x1,x8,#2,lo
	b.lo	1f
	add	x9,x1,x2,lsl #2
	and	x8,x2,#0x7ffffffffffffffc
	mov	x10,x0
	and	x11,x2,#0x7ffffffffffffffc
	sub	x9,x9,#16
2:
	ldr	q0,[x9]
	ldr	q1,[x10]
	subs	x11,x11,#4
	rev64.4s	v0,v0
	rev64.4s	v1,v1
	ext.16b	v0,v0,v0,#8
	ext.16b	v1,v1,v1,#8
	str	q0,[x10],#16
	str	q1,[x9],#-16
	b.ne	2b
	cmp	x2,x8
	b.ne	2f
	b	3f
1:
	mov	x8,xzr
2:
	add	x9,x0,x8,lsl #2
	sub	x8,x2,x8
	sub	x10,x1,#4
1:
	ldr	w11,[x10,x8,lsl #2]
	ldr	w12,[x9]
	str	w11,[x9],#4
	str	w12,[x10,x8,lsl #2]
	subs	x8,x8,#1
	b.ne	1b
3:
	ret
	.cfi_endproc

	.p2align	2
_rtp_core.slice.edits.mirror.i64:
	.cfi_startproc
	lsl	x8,x2,#3
	add	x9,x1,x8
	add	x8,x0,x8
	cmp	x0,x9
	ccmp	x1,x8,#2,lo
	b.lo	1f
	add	x9,x1,x2,lsl #3
	and	x8,x2,#0x7ffffffffffffffe
	mov	x10,x0
	and	x11,x2,#0x7ffffffffffffffe
	sub	x9,x9,#16
2:
	ldr	q0,[x9]
	ldr	q1,[x10]
	subs	x11,x11,#2
	ext.16b	v0,v0,v0,#8
	ext.16b	v1,v1,v1,#8
	str	q0,[x10],#16
	str	q1,[x9],#-16
	b.ne	2b
	cmp	x2,x8
	b.ne	2f
	b	3f
1:
	mov	x8,xzr
2:
	add	x9,x0,x8,lsl #3
	sub	x8,x2,x8
	sub	x10,x1,#8
1:
	ldr	x11,[x10,x8,lsl #3]
	ldr	x12,[x9]
	str	x11,[x9],#8
	str	x12,[x10,x8,lsl #3]
	subs	x8,x8,#1
	b.ne	1b
3:
	ret
	.cfi_endproc

	.p2align	2
_rtp_core.fmt.formatter.Formatter.write_indented.5e1603e38c63b5f6:
	.cfi_startproc
	stp	x26,x25,[sp,#-80]!
	stp	x24,x23,[sp,#16]
	stp	x22,x21,[sp,#32]
	stp	x20,x19,[sp,#48]
	stp	x29,x30,[sp,#64]
	.cfi_def_cfa_offset 80
	.cfi_offset w30,-8
	.cfi_offset w29,-16
	.cfi_offset w19,-24
	.cfi_offset w20,-32
	.cfi_offset w21,-40
	.cfi_offset w22,-48
	.cfi_offset w23,-56
	.cfi_offset w24,-64
	.cfi_offset w25,-72
	.cfi_offset w26,-80
	cbz	x2,1f
	mov	x21,x2
	mov	x20,x1
	mov	x19,x0
	mov	x8,xzr
	mov	x24,xzr
	b	2f
3:
	mov	w23,#1
	add	x1,x20,x25
	mov	x0,x19
	mov	x2,x22
	strb	w23,[x19,#56]
	bl	_rtp_core.fmt.formatter.Formatter.write_raw.5e1603e38c63b5f6
	and	w9,w0,#0xff
	mov	x8,x24
	tbnz	w9,#0,4f
5:
	cmp	x24,x21
	b.eq	6f
2:
	ldrb	w10,[x20,x24]
	mov	x9,x24
	add	x24,x24,#1
	cmp	w10,#10
	b.ne	5b
	subs	x22,x24,x8
	csel	x25,xzr,x8,lo
	cmp	x8,x9
	mov	x8,x24
	b.hi	5b
	ldrb	w8,[x19,#56]
	cmp	w8,#1
	b.ne	3b
	ldr	x23,[x19,#48]
	cbz	x23,3b
2:
Lrtp_loh330:
	adrp	x1,lrtp__static.66@PAGE
Lrtp_loh331:
	add	x1,x1,lrtp__static.66@PAGEOFF
	mov	x0,x19
	mov	w2,#4
	bl	_rtp_core.fmt.formatter.Formatter.write_raw.5e1603e38c63b5f6
	and	w8,w0,#0xff
	tbnz	w8,#0,5f
	subs	x23,x23,#1
	b.ne	2b
	b	3b
6:
	cmp	x8,x21
	csel	x22,xzr,x8,hi
	subs	x8,x21,x8
	csel	x21,xzr,x8,lo
	b.ls	1f
	ldrb	w8,[x19,#56]
	cmp	w8,#1
	b.ne	2f
	ldr	x23,[x19,#48]
	cbz	x23,2f
3:
Lrtp_loh332:
	adrp	x1,lrtp__static.66@PAGE
Lrtp_loh333:
	add	x1,x1,lrtp__static.66@PAGEOFF
	mov	x0,x19
	mov	w2,#4
	bl	_rtp_core.fmt.formatter.Formatter.write_raw.5e1603e38c63b5f6
	and	w8,w0,#0xff
	tbnz	w8,#0,5f
	subs	x23,x23,#1
	b.ne	3b
2:
	add	x1,x20,x22
	mov	x0,x19
	mov	x2,x21
	strb	wzr,[x19,#56]
	ldp	x29,x30,[sp,#64]
	ldp	x20,x19,[sp,#48]
	ldp	x22,x21,[sp,#32]
	ldp	x24,x23,[sp,#16]
	ldp	x26,x25,[sp],#80
	b	_rtp_core.fmt.formatter.Formatter.write_raw.5e1603e38c63b5f6
1:
	mov	w23,wzr
	b	4f
5:
	mov	w23,#1
4:
	mov	w0,w23
	ldp	x29,x30,[sp,#64]
	ldp	x20,x19,[sp,#48]
	ldp	x22,x21,[sp,#32]
	ldp	x24,x23,[sp,#16]
	ldp	x26,x25,[sp],#80
	ret
	.loh AdrpAdd	Lrtp_loh330,Lrtp_loh331
	.loh AdrpAdd	Lrtp_loh332,Lrtp_loh333
	.cfi_endproc

	.p2align	2
_rtp_core.fmt.formatter.Formatter.write_raw.5e1603e38c63b5f6:
	.cfi_startproc
	cbz	x2,1f
	mov	x9,xzr
	b	2f
3:
	mov	w8,#1
4:
	add	x9,x8,x9
	cmp	x9,x2
	b.hs	1f
2:
	ldrsb	w8,[x1,x9]
	tbz	w8,#31,3b
	add	x10,x9,#1
	cmp	x2,x10
	b.ls	2f
	ldrsb	w11,[x1,x10]
	tbz	w11,#31,2f
	and	w10,w8,#0xff
	cmn	w11,#64
	mov	w8,#-64
	csel	w11,w11,w8,lo
	cmp	w10,#194
	mov	w8,#1
	b.lo	3f
	and	w11,w11,#0x7f
	cmp	w11,#63
	b.hi	3f
	cmp	w10,#224
	b.hs	5f
	mov	w8,#2
	b	4b
5:
	add	x8,x9,#2
	cmp	x2,x8
	b.ls	2f
	ldrsb	w8,[x1,x8]
	cmn	w8,#65
	b.gt	2f
	cmp	w10,#239
	b.hi	5f
	lsl	w8,w10,#12
	add	w8,w8,w11,lsl #6
	sub	w8,w8,#224,lsl #12
	cmp	w8,#2048
	b.lo	2f
	lsr	w8,w8,#11
	cmp	w8,#27
	mov	w8,#3
	b.lo	4b
	cmp	w10,#238
	b.hs	4b
	b	2f
5:
	add	x8,x9,#3
	cmp	x2,x8
	b.ls	2f
	ldrsb	w8,[x1,x8]
	cmn	w8,#65
	b.gt	2f
	lsl	w8,w10,#18
	mov	w10,#-62980096
	add	w8,w8,w11,lsl #12
	add	w8,w8,w10
	lsr	w8,w8,#20
	cbnz	w8,2f
	mov	w8,#4
	b	4b
1:
	stp	x22,x21,[sp,#-48]!
	stp	x20,x19,[sp,#16]
	stp	x29,x30,[sp,#32]
	.cfi_def_cfa_offset 48
	.cfi_offset w30,-8
	.cfi_offset w29,-16
	.cfi_offset w19,-24
	.cfi_offset w20,-32
	.cfi_offset w21,-40
	.cfi_offset w22,-48
	mov	x22,x0
	ldp	x9,x19,[x22,#8]!
	sub	x8,x19,x9
	cmp	x2,x8
	b.hi	1f
4:
	ldr	x20,[x0]
	add	x21,x9,x2
	stp	xzr,xzr,[x22]
	add	x8,x20,x9
	sub	x10,x8,x1
	cmp	x10,x2
	b.hs	5f
	cmp	x2,#8
	b.lo	6f
	add	x8,x9,x20
	sub	x8,x8,x1
	cmp	x8,#32
	b.hs	7f
6:
	mov	x8,xzr
6:
	add	x10,x8,x9
	sub	x9,x2,x8
	add	x8,x1,x8
	add	x10,x20,x10
8:
	ldrb	w11,[x8],#1
	subs	x9,x9,#1
	strb	w11,[x10],#1
	b.ne	8b
	b	8f
2:
	mov	w0,#1
	ret
5:
	mov	x22,x0
	mov	x0,x8
	bl	_memmove
	mov	x0,x22
8:
	mov	w8,wzr
	stp	x20,x21,[x0]
	str	x19,[x0,#16]
2:
	ldp	x29,x30,[sp,#32]
	ldp	x20,x19,[sp,#16]
	ldp	x22,x21,[sp],#48
3:
	mov	w0,w8
	ret
7:
	cmp	x2,#32
	b.hs	3f
	mov	x8,xzr
	b	5f
3:
	add	x12,x9,x20
	and	x10,x2,#0x18
	and	x8,x2,#0xffffffffffffffe0
	add	x11,x1,#16
	add	x12,x12,#16
	and	x13,x2,#0xffffffffffffffe0
3:
	ldp	q0,q1,[x11,#-16]
	subs	x13,x13,#32
	add	x11,x11,#32
	stp	q0,q1,[x12,#-16]
	add	x12,x12,#32
	b.ne	3b
	cmp	x2,x8
	b.eq	8b
	cbz	x10,6b
5:
	mov	x11,x8
	and	x8,x2,#0xfffffffffffffff8
	add	x12,x9,x11
	sub	x10,x11,x8
	add	x11,x1,x11
	add	x12,x20,x12
3:
	ldr	d0,[x11],#8
	adds	x10,x10,#8
	str	d0,[x12],#8
	b.ne	3b
	cmp	x2,x8
	b.eq	8b
	b	6b
1:
	mov	x20,x1
	mov	x1,x2
	mov	x19,x0
	mov	x21,x2
	bl	_rtp_std_alloc.vec.Vec.grow_amortized.9d744d77114e6601
	cbz	w0,1f
	mov	x0,x19
	ldp	x9,x19,[x19,#8]
	mov	x2,x21
	mov	x1,x20
	b	4b
1:
	mov	w8,#1
	b	2b
	.cfi_endproc

	.section	__TEXT,__literal16,16byte_literals
	.p2align	4,0x0
lrtp_CPI19_0:
	.byte	0
	.byte	1
	.byte	2
	.byte	3
	.byte	4
	.byte	5
	.byte	6
	.byte	7
	.byte	8
	.byte	9
	.byte	10
	.byte	11
	.byte	12
	.byte	13
	.byte	14
	.byte	15
lrtp_CPI19_1:
	.byte	16
	.byte	17
	.byte	18
	.byte	19
	.byte	20
	.byte	21
	.byte	22
	.byte	23
	.byte	24
	.byte	25
	.byte	26
	.byte	27
	.byte	28
	.byte	29
	.byte	30
	.byte	31
	.section	__TEXT,__literal8,8byte_literals
	.p2align	3,0x0
lrtp_CPI19_2:
	.byte	32
	.byte	33
	.byte	34
	.byte	35
	.byte	36
	.byte	37
	.byte	38
	.byte	39
	.section	__TEXT,__text,regular,pure_instructions
	.p2align	2
_rtp_listing.printing.write_text.df9e9f1468b30f79:
	.cfi_startproc
	sub	sp,sp,#144
	stp	x22,x21,[sp,#96]
	stp	x20,x19,[sp,#112]
	stp	x29,x30,[sp,#128]
	.cfi_def_cfa_offset 144
	.cfi_offset w30,-8
	.cfi_offset w29,-16
	.cfi_offset w19,-24
	.cfi_offset w20,-32
	.cfi_offset w21,-40
	.cfi_offset w22,-48
	mov	x19,x1
	mov	x20,x0
	mov	x21,#-1
	b	1f
2:
	subs	x21,x21,#1
	b.eq	3f
1:
	cbz	x19,1f
	mov	w0,#1
	mov	x1,x20
	mov	x2,x19
	bl	_rtp_lines_write
	tbnz	x0,#63,4f
	cbz	x0,3f
	cmp	x0,x19
	csel	x8,x0,x19,lo
	add	x20,x20,x8
	sub	x19,x19,x8
	b	2b
4:
	mov	x0,sp
	mov	x22,sp
	bl	_rtp_std_io.io.error.last_error
Lrtp_loh334:
	adrp	x9,lrtp_CPI19_0@PAGE
	ldr	x8,[sp]
Lrtp_loh335:
	adrp	x10,lrtp_CPI19_1@PAGE
Lrtp_loh336:
	ldr	q0,[x9,lrtp_CPI19_0@PAGEOFF]
Lrtp_loh337:
	adrp	x9,lrtp_CPI19_2@PAGE
Lrtp_loh338:
	ldr	q1,[x10,lrtp_CPI19_1@PAGEOFF]
Lrtp_loh339:
	ldr	d2,[x9,lrtp_CPI19_2@PAGEOFF]
	ubfx	w9,w8,#8,#8
	mov	w10,#40
	stp	q0,q1,[sp]
	cmp	w9,#41
	str	d2,[sp,#32]
	strb	w10,[sp,#40]
	b.hs	3f
	ubfx	x8,x8,#8,#6
	ldrb	w8,[x22,x8]
	cmp	w8,#35
	b.eq	2b
3:
	mov	w0,#1
	mov	w1,#3
	ldp	x29,x30,[sp,#128]
	ldp	x20,x19,[sp,#112]
	ldp	x22,x21,[sp,#96]
	add	sp,sp,#144
	ret
1:
	mov	w1,wzr
	mov	w0,wzr
	ldp	x29,x30,[sp,#128]
	ldp	x20,x19,[sp,#112]
	ldp	x22,x21,[sp,#96]
	add	sp,sp,#144
	ret
	.loh AdrpLdr	Lrtp_loh337,Lrtp_loh339
	.loh AdrpLdr	Lrtp_loh335,Lrtp_loh338
	.loh AdrpAdrp	Lrtp_loh334,Lrtp_loh337
	.loh AdrpLdr	Lrtp_loh334,Lrtp_loh336
	.cfi_endproc

	.section	__TEXT,__literal16,16byte_literals
	.p2align	4,0x0
lrtp_CPI20_0:
	.byte	116
	.byte	104
	.byte	105
	.byte	115
	.byte	32
	.byte	109
	.byte	97
	.byte	99
	.byte	104
	.byte	105
	.byte	110
	.byte	101
	.byte	32
	.byte	108
	.byte	97
	.byte	99
lrtp_CPI20_1:
	.byte	107
	.byte	115
	.byte	32
	.byte	97
	.byte	32
	.byte	102
	.byte	101
	.byte	97
	.byte	116
	.byte	117
	.byte	114
	.byte	101
	.byte	32
	.byte	111
	.byte	102
	.byte	32
lrtp_CPI20_2:
	.byte	120
	.byte	56
	.byte	54
	.byte	45
	.byte	54
	.byte	52
	.byte	45
	.byte	118
	.byte	50
	.byte	44
	.byte	32
	.byte	119
	.byte	104
	.byte	105
	.byte	99
	.byte	104
lrtp_CPI20_3:
	.byte	32
	.byte	116
	.byte	104
	.byte	105
	.byte	115
	.byte	32
	.byte	112
	.byte	114
	.byte	111
	.byte	103
	.byte	114
	.byte	97
	.byte	109
	.byte	32
	.byte	119
	.byte	97
lrtp_CPI20_4:
	.byte	115
	.byte	32
	.byte	98
	.byte	117
	.byte	105
	.byte	108
	.byte	116
	.byte	32
	.byte	102
	.byte	111
	.byte	114
	.byte	58
	.byte	32
	.byte	114
	.byte	117
	.byte	110
lrtp_CPI20_5:
	.byte	32
	.byte	105
	.byte	116
	.byte	32
	.byte	111
	.byte	110
	.byte	32
	.byte	97
	.byte	110
	.byte	111
	.byte	116
	.byte	104
	.byte	101
	.byte	114
	.byte	32
	.byte	109
lrtp_CPI20_6:
	.byte	97
	.byte	99
	.byte	104
	.byte	105
	.byte	110
	.byte	101
	.byte	44
	.byte	32
	.byte	111
	.byte	114
	.byte	32
	.byte	98
	.byte	117
	.byte	105
	.byte	108
	.byte	100
lrtp_CPI20_7:
	.byte	32
	.byte	105
	.byte	116
	.byte	32
	.byte	119
	.byte	105
	.byte	116
	.byte	104
	.byte	32
	.byte	45
	.byte	45
	.byte	99
	.byte	112
	.byte	117
	.byte	32
	.byte	120
lrtp_CPI20_9:
	.byte	1
	.byte	2
	.byte	4
	.byte	8
	.byte	16
	.byte	32
	.byte	64
	.byte	128
	.byte	1
	.byte	2
	.byte	4
	.byte	8
	.byte	16
	.byte	32
	.byte	64
	.byte	128
lrtp_CPI20_10:
	.byte	104
	.byte	116
	.byte	116
	.byte	112
	.byte	58
	.byte	47
	.byte	47
	.byte	119
	.byte	119
	.byte	119
	.byte	46
	.byte	119
	.byte	101
	.byte	98
	.byte	114
	.byte	116
lrtp_CPI20_11:
	.byte	99
	.byte	46
	.byte	111
	.byte	114
	.byte	103
	.byte	47
	.byte	101
	.byte	120
	.byte	112
	.byte	101
	.byte	114
	.byte	105
	.byte	109
	.byte	101
	.byte	110
	.byte	116
lrtp_CPI20_12:
	.byte	115
	.byte	47
	.byte	114
	.byte	116
	.byte	112
	.byte	45
	.byte	104
	.byte	100
	.byte	114
	.byte	101
	.byte	120
	.byte	116
	.byte	47
	.byte	112
	.byte	108
	.byte	97
lrtp_CPI20_13:
	.byte	120
	.byte	116
	.byte	47
	.byte	112
	.byte	108
	.byte	97
	.byte	121
	.byte	111
	.byte	117
	.byte	116
	.byte	45
	.byte	100
	.byte	101
	.byte	108
	.byte	97
	.byte	121
lrtp_CPI20_14:
	.quad	-1
	.quad	0
lrtp_CPI20_16:
	.byte	58
	.byte	32
	.byte	110
	.byte	101
	.byte	105
	.byte	116
	.byte	104
	.byte	101
	.byte	114
	.byte	32
	.byte	97
	.byte	32
	.byte	109
	.byte	97
	.byte	112
	.byte	32
lrtp_CPI20_19:
	.byte	0
	.byte	1
	.byte	2
	.byte	3
	.byte	4
	.byte	5
	.byte	6
	.byte	7
	.byte	8
	.byte	9
	.byte	10
	.byte	11
	.byte	12
	.byte	13
	.byte	14
	.byte	15
lrtp_CPI20_20:
	.byte	16
	.byte	17
	.byte	18
	.byte	19
	.byte	20
	.byte	21
	.byte	22
	.byte	23
	.byte	24
	.byte	25
	.byte	26
	.byte	27
	.byte	28
	.byte	29
	.byte	30
	.byte	31
	.section	__TEXT,__literal8,8byte_literals
	.p2align	3,0x0
lrtp_CPI20_8:
	.byte	56
	.byte	54
	.byte	45
	.byte	54
	.space	1
	.space	1
	.space	1
	.space	1
lrtp_CPI20_15:
	.byte	108
	.byte	105
	.byte	110
	.byte	101
	.space	1
	.space	1
	.space	1
	.space	1
lrtp_CPI20_17:
	.byte	108
	.byte	105
	.byte	110
	.byte	101
	.byte	32
	.byte	110
	.byte	111
	.byte	114
lrtp_CPI20_18:
	.byte	32
	.byte	104
	.byte	101
	.byte	120
	.space	1
	.space	1
	.space	1
	.space	1
lrtp_CPI20_21:
	.byte	32
	.byte	33
	.byte	34
	.byte	35
	.byte	36
	.byte	37
	.byte	38
	.byte	39
	.section	__TEXT,__text,regular,pure_instructions
	.globl	_main
	.p2align	2
_main:
	.cfi_startproc
	str	x27,[sp,#-96]!
	sub	x9,sp,#15,lsl #12
	stp	x26,x25,[sp,#16]
	sub	x9,x9,#3072
	stp	x24,x23,[sp,#32]
	stp	x22,x21,[sp,#48]
	stp	x20,x19,[sp,#64]
	stp	x29,x30,[sp,#80]
	add	x29,sp,#80
1:
	sub	sp,sp,#3072
	cmp	sp,x9
	str	xzr,[sp]
	b.ne	1b
	sub	sp,sp,#816
	str	xzr,[sp]
	mov	x19,sp
	.cfi_def_cfa w29,16
	.cfi_offset w30,-8
	.cfi_offset w29,-16
	.cfi_offset w19,-24
	.cfi_offset w20,-32
	.cfi_offset w21,-40
	.cfi_offset w22,-48
	.cfi_offset w23,-56
	.cfi_offset w24,-64
	.cfi_offset w25,-72
	.cfi_offset w26,-80
	.cfi_offset w27,-96
	mov	w0,#13
	mov	w1,#1
	bl	_rtp_lines_sysv_signal
	mov	w0,wzr
	bl	_rtp_lines_x86_get_cpuid_feature_leaf
	ldr	w8,[x0,#24]
	mov	w9,#8705
	mov	w0,#2
	movk	w9,#152,lsl #16
	bic	w20,w9,w8
	bl	_rtp_lines_x86_get_cpuid_feature_leaf
	cbnz	w20,1f
	ldr	w8,[x0,#24]
	tbz	w8,#0,1f
	sub	x8,x29,#97
	mov	x25,xzr
	mov	x20,xzr
	mov	x27,xzr
	str	x8,[x19,#24]
	mov	x8,#-1
	mov	w26,#8192
	stp	xzr,xzr,[x19,#32]
	stur	x8,[x29,#-72]
2:
	cmp	x26,#1
	adrp	x23,lrtp_CPI20_19@PAGE
	csinc	x21,x26,xzr,hi
	cmp	x27,x20
	b.ne	3f
	cbz	x20,4f
	sub	x8,x20,x25
	cmp	x8,#511
	b.ls	5f
3:
	sub	x8,x20,x27
	cmp	x21,x8
	csel	x8,x21,x8,lo
	add	x8,x8,x27
	subs	x1,x8,x25
	b.ls	3f
6:
	sub	x8,x20,x25
	cmp	x1,x8
	b.hi	7f
	add	x21,x25,x1
	ldr	x24,[x19,#24]
	cmp	x25,x21
	b.hs	8f
9:
	add	x0,x24,x25
	bl	_bzero
8:
	mov	x25,x21
	stp	x21,x20,[x19,#32]
	b	10f
4:
	add	x8,x25,#511
	cmp	x8,#511
	b.hi	4f
	cmn	x25,#513
	b.hi	11f
	add	x22,x25,#512
	mov	w1,#1
	mov	x0,x22
	bl	_rattle_alloc
	tbz	w0,#0,11f
	mov	x25,xzr
	str	x1,[x19,#24]
	mov	w20,#512
	mov	w21,#512
	str	x22,[x19,#40]
	sub	x8,x20,x27
	cmp	x21,x8
	csel	x8,x21,x8,lo
	add	x8,x8,x27
	subs	x1,x8,xzr
	b.ls	3f
	b	6b
4:
	mov	x20,xzr
	mov	w21,#512
	neg	x8,x27
	cmp	x21,x8
	csel	x8,x21,x8,lo
	add	x8,x8,x27
	subs	x1,x8,x25
	b.hi	6b
3:
	ldr	x24,[x19,#24]
10:
	ldur	x8,[x29,#-72]
	mov	x21,xzr
	sub	x8,x8,#1
	stur	x8,[x29,#-72]
4:
	adds	x21,x21,#1
	b.hs	10f
	add	x1,x24,x27
	sub	x2,x25,x27
	mov	w0,wzr
	bl	_rtp_lines_read
	tbz	x0,#63,12f
	add	x0,x19,#2,lsl #12
	add	x22,x19,#2,lsl #12
	add	x0,x0,#2816
	add	x22,x22,#2816
	bl	_rtp_std_io.io.error.last_error
	ldr	x9,[x19,#11008]
Lrtp_loh340:
	adrp	x8,lrtp_CPI20_20@PAGE
Lrtp_loh341:
	adrp	x10,lrtp_CPI20_21@PAGE
Lrtp_loh342:
	ldr	q1,[x8,lrtp_CPI20_20@PAGEOFF]
	ldr	q0,[x23,lrtp_CPI20_19@PAGEOFF]
Lrtp_loh343:
	ldr	d2,[x10,lrtp_CPI20_21@PAGEOFF]
	ubfx	w8,w9,#8,#8
	add	x11,x19,#2,lsl #12
	mov	w10,#40
	add	x11,x11,#2816
	str	d2,[x19,#11040]
	cmp	w8,#41
	stp	q0,q1,[x11]
	strb	w10,[x11,#40]
	b.hs	13f
	ubfx	x9,x9,#8,#6
	ldrb	w9,[x22,x9]
	cmp	w9,#35
	b.eq	4b
	b	13f
12:
	sub	x8,x25,x27
	cmp	x0,x8
	csel	x8,x0,x8,lo
	cbz	x8,4f
	lsl	x9,x26,#1
	mov	w10,#131072
	add	x27,x8,x27
	cmp	x9,#32,lsl #12
	csel	x9,x9,x10,lo
	cmp	x26,x8
	ldur	x8,[x29,#-72]
	csel	x26,x26,x9,hi
	cbnz	x8,2b
	b	10f
7:
	add	x0,x19,#24
	mov	x21,x1
	bl	_rtp_std_alloc.vec.Vec.grow_amortized.9d744d77114e6601
	cbz	w0,11f
	ldp	x25,x20,[x19,#32]
	mov	x1,x21
	add	x21,x25,x21
	ldr	x24,[x19,#24]
	cmp	x25,x21
	b.lo	9b
	b	8b
5:
	add	x0,x19,#24
	mov	w1,#512
	bl	_rtp_std_alloc.vec.Vec.grow_amortized.9d744d77114e6601
	cbz	w0,11f
	ldp	x25,x20,[x19,#32]
	sub	x8,x20,x27
	cmp	x21,x8
	csel	x8,x21,x8,lo
	add	x8,x8,x27
	subs	x1,x8,x25
	b.hi	6b
	b	3b
1:
	mov	x8,sp
	sub	x1,x8,#144
	sub	sp,sp,#3072
	cmp	sp,x1
	b.le	1f
2:
	str	xzr,[sp]
	sub	sp,sp,#3072
	cmp	sp,x1
	b.gt	2b
1:
	mov	sp,x1
Lrtp_loh344:
	adrp	x9,lrtp_CPI20_0@PAGE
	ldr	xzr,[sp]
	mov	w0,#2
Lrtp_loh345:
	ldr	q0,[x9,lrtp_CPI20_0@PAGEOFF]
Lrtp_loh346:
	adrp	x9,lrtp_CPI20_1@PAGE
	mov	w2,#134
Lrtp_loh347:
	ldr	q1,[x9,lrtp_CPI20_1@PAGEOFF]
Lrtp_loh348:
	adrp	x9,lrtp_CPI20_2@PAGE
Lrtp_loh349:
	ldr	q2,[x9,lrtp_CPI20_2@PAGEOFF]
Lrtp_loh350:
	adrp	x9,lrtp_CPI20_3@PAGE
	stp	q0,q1,[x8,#-144]
Lrtp_loh351:
	ldr	q0,[x9,lrtp_CPI20_3@PAGEOFF]
Lrtp_loh352:
	adrp	x9,lrtp_CPI20_4@PAGE
Lrtp_loh353:
	ldr	q1,[x9,lrtp_CPI20_4@PAGEOFF]
Lrtp_loh354:
	adrp	x9,lrtp_CPI20_5@PAGE
	stp	q2,q0,[x8,#-112]
Lrtp_loh355:
	ldr	q0,[x9,lrtp_CPI20_5@PAGEOFF]
Lrtp_loh356:
	adrp	x9,lrtp_CPI20_6@PAGE
Lrtp_loh357:
	ldr	q2,[x9,lrtp_CPI20_6@PAGEOFF]
Lrtp_loh358:
	adrp	x9,lrtp_CPI20_7@PAGE
	stp	q1,q0,[x8,#-80]
Lrtp_loh359:
	ldr	q0,[x9,lrtp_CPI20_7@PAGEOFF]
Lrtp_loh360:
	adrp	x9,lrtp_CPI20_8@PAGE
Lrtp_loh361:
	ldr	d1,[x9,lrtp_CPI20_8@PAGEOFF]
	mov	w9,#2612
	stp	q2,q0,[x8,#-48]
	stur	s1,[x8,#-16]
	sturh	w9,[x8,#-12]
	bl	_rtp_lines_write
	mov	w0,#127
	b	1f
10:
	mov	w8,#22
13:
Lrtp_loh362:
	adrp	x9,lrtp_CPI20_20@PAGE
	ldr	q0,[x23,lrtp_CPI20_19@PAGEOFF]
	add	x10,x19,#2,lsl #12
Lrtp_loh363:
	ldr	q1,[x9,lrtp_CPI20_20@PAGEOFF]
Lrtp_loh364:
	adrp	x9,lrtp_CPI20_21@PAGE
	add	x10,x10,#2816
Lrtp_loh365:
	ldr	d2,[x9,lrtp_CPI20_21@PAGEOFF]
	mov	w9,#40
	cmp	w8,#41
	stp	q0,q1,[x10]
	str	d2,[x19,#11040]
	strb	w9,[x10,#40]
	b.hs	2f
	add	x9,x19,#2,lsl #12
	add	x9,x9,#2816
	ldrb	w8,[x9,w8,uxtw]
	and	w8,w8,#0xff
	cmp	w8,#38
	mov	w8,#2
	cinc	w20,w8,ne
	ldr	x8,[x19,#40]
	cbnz	x8,3f
	b	5f
2:
	mov	w20,#3
	ldr	x8,[x19,#40]
	cbz	x8,5f
3:
	ldr	x0,[x19,#24]
	bl	_rattle_dealloc
5:
	and	w8,w20,#0xff
	cmp	w8,#2
	b.ne	2f
Lrtp_loh366:
	adrp	x0,lrtp__static.0@PAGE
Lrtp_loh367:
	add	x0,x0,lrtp__static.0@PAGEOFF
	mov	w1,#15
	bl	_rtp_listing.printing.write_text.df9e9f1468b30f79
	tst	w0,#0xff
	b.eq	3f
	mov	w20,w1
2:
	and	x8,x20,#0xff
Lrtp_loh368:
	adrp	x9,lrtp__switch.table.main@PAGE
Lrtp_loh369:
	add	x9,x9,lrtp__switch.table.main@PAGEOFF
	ldr	w0,[x9,x8,lsl #2]
1:
	sub	sp,x29,#80
	ldp	x29,x30,[sp,#80]
	ldp	x20,x19,[sp,#64]
	ldp	x22,x21,[sp,#48]
	ldp	x24,x23,[sp,#32]
	ldp	x26,x25,[sp,#16]
	ldr	x27,[sp],#96
	ret
3:
	mov	w0,#3
	b	1b
4:
	cmp	x25,x27
	add	x0,x19,#2,lsl #12
	mov	w1,#10992
	csel	x22,x25,x27,lo
	ldr	x27,[x19,#24]
	add	x0,x0,#2816
	str	x22,[x19,#32]
	bl	_bzero
	add	x0,x19,#48
	mov	w1,#10960
	bl	_bzero
	add	x0,x19,#8,lsl #12
	mov	w1,#10960
	add	x0,x0,#200
	bl	_bzero
	add	x0,x19,#5,lsl #12
	mov	w1,#10960
	add	x0,x0,#1528
	bl	_bzero
	movi.2d	v0,#0000000000000000
	add	x26,x19,#13,lsl #12
	add	x0,x19,#13,lsl #12
	add	x26,x26,#1008
	add	x0,x0,#1080
	mov	w1,#10976
	add	x20,x19,#13,lsl #12
	add	x20,x20,#1080
	stp	q0,q0,[x26,#32]
	bl	_bzero
	cbz	x22,2f
	mov	x24,xzr
3:
	mov	x9,xzr
	mov	x23,x22
	stur	x24,[x29,#-72]
4:
	mov	x8,x9
	add	x9,x9,#32
	adrp	x22,lrtp_CPI20_9@PAGE
	cmp	x9,x23
	b.hi	6f
	movi.16b	v0,#10
	add	x10,x27,x8
	ldp	q2,q1,[x10]
	cmeq.16b	v1,v1,v0
	cmeq.16b	v0,v2,v0
	ldr	q2,[x22,lrtp_CPI20_9@PAGEOFF]
	cmlt.16b	v1,v1,#0
	cmlt.16b	v0,v0,#0
	and.16b	v1,v1,v2
	and.16b	v0,v0,v2
	ext.16b	v2,v1,v1,#8
	ext.16b	v3,v0,v0,#8
	zip1.16b	v1,v1,v2
	zip1.16b	v0,v0,v3
	addv.8h	h1,v1
	addv.8h	h0,v0
	fmov	w10,s1
	fmov	w11,s0
	lsl	w10,w10,#16
	bfxil	x10,x11,#0,#16
	cbz	x10,4b
	rbit	x9,x10
	clz	x9,x9
4:
	sub	x11,x23,x9
	cmp	x11,x8
	b.eq	7f
	add	x10,x9,x8
	cbz	x10,8f
	add	x12,x9,x8
	add	x13,x12,x27
	ldurb	w13,[x13,#-1]
	cmp	w13,#13
	b.ne	8f
	sub	x10,x12,#1
8:
	add	x9,x27,x9
	add	x9,x9,x8
	mvn	x8,x8
	add	x9,x9,#1
	add	x8,x8,x11
	stp	x8,x9,[x19,#8]
	b	8f
6:
	cmp	x23,x8
	b.eq	7f
	mov	x9,xzr
	mov	x10,x8
6:
	ldrb	w11,[x27,x10]
	cmp	w11,#10
	b.eq	4b
	add	x10,x10,#1
	add	x9,x9,#1
	cmp	x23,x10
	b.ne	6b
7:
Lrtp_loh370:
	adrp	x8,lrtp__static.5@PAGE
Lrtp_loh371:
	add	x8,x8,lrtp__static.5@PAGEOFF
	mov	x10,x23
	stp	xzr,x8,[x19,#8]
8:
	add	x8,x19,#10,lsl #12
	subs	x9,x10,#4
	add	x8,x8,#2968
	str	xzr,[x8,#10336]
	str	xzr,[x8,#10328]
	str	xzr,[x8,#10344]
	b.lo	4f
	mov	x10,x27
	mov	w12,#24941
	ldr	w11,[x10],#4
	movk	w12,#8304,lsl #16
	cmp	w11,w12
	csel	x1,xzr,x10,ne
	csel	x8,xzr,x9,ne
	cbz	x9,4f
	cmp	w11,w12
	b.ne	4f
	mov	x21,xzr
6:
	ldrb	w11,[x10,x21]
	cmp	w11,#32
	b.eq	7f
	add	x21,x21,#1
	cmp	x9,x21
	b.ne	6b
	b	4f
7:
	add	x9,x19,#10,lsl #12
	add	x20,x19,#10,lsl #12
	cmp	x21,#3
	add	x9,x9,#2968
	add	x20,x20,#2968
	stp	xzr,xzr,[x9]
	str	xzr,[x9,#16]
	b.hi	4f
	mov	x9,xzr
	sub	x25,x8,#1
	add	x24,x1,x21
6:
	cmp	x21,x9
	b.eq	7f
	ldrb	w8,[x1,x9]
	add	x9,x9,#1
	sub	w8,w8,#48
	cmp	w8,#10
	b.lo	6b
	b	4f
7:
	add	x0,x19,#10,lsl #12
	mov	x2,x21
	add	x0,x0,#2968
	bl	_rtp_core.str.utf8.from_utf8
	ldrb	w8,[x20]
	sub	x2,x25,x21
	cbnz	w8,4f
	add	x9,x19,#10,lsl #12
	add	x14,x19,#10,lsl #12
	add	x9,x9,#2968
	add	x14,x14,#2968
	ldur	w8,[x9,#18]
	ldrb	w10,[x9,#16]
	ldrb	w11,[x9,#17]
	ldrh	w9,[x9,#22]
	lsl	x8,x8,#16
	mov	x13,x10
	bfi	x13,x11,#8,#8
	orr	x12,x8,x9,lsl #48
	orr	x9,x13,x12
	cbz	x9,4f
	ldr	x8,[x14,#8]
	ldrb	w13,[x8]
	cmp	w13,#43
	b.ne	6f
	cmp	x9,#1
	b.eq	4f
	lsl	x9,x11,#8
	mov	x20,xzr
	add	x8,x8,#1
	add	x9,x12,x9
	add	x9,x9,x10
	sub	x9,x9,#1
7:
	ldrb	w10,[x8],#1
	sub	w11,w10,#48
	cmp	w11,#9
	b.hi	4f
	mov	w11,#10
	and	x10,x10,#0xf
	madd	x20,x20,x11,x10
	cmp	x20,#255
	b.hi	4f
	subs	x9,x9,#1
	b.ne	7b
	b	7f
6:
	mov	x20,xzr
6:
	ldrb	w10,[x8],#1
	sub	w11,w10,#48
	cmp	w11,#9
	b.hi	4f
	mov	w11,#10
	and	x10,x10,#0xf
	madd	x20,x20,x11,x10
	cmp	x20,#255
	b.hi	4f
	subs	x9,x9,#1
	b.ne	6b
7:
	cbz	x20,4f
	cmp	x25,x21
	b.eq	4f
	add	x0,x19,#13,lsl #12
	add	x1,x24,#1
	add	x0,x0,#1008
	bl	_rtp_core.str.utf8.from_utf8
	ldrb	w8,[x26]
	cbnz	w8,4f
	ldur	w8,[x26,#18]
	ldrb	w24,[x26,#16]
	ldrb	w25,[x26,#17]
	ldrh	w9,[x26,#22]
	ldr	x22,[x26,#8]
	lsl	x8,x8,#16
	mov	x10,x24
	bfi	x10,x25,#8,#8
	orr	x27,x8,x9,lsl #48
	orr	x21,x10,x27
	cmp	x21,#73
	b.hi	6f
Lrtp_loh372:
	adrp	x8,7f@PAGE
Lrtp_loh373:
	add	x8,x8,7f@PAGEOFF
Lrtp_loh374:
	adrp	x11,lrtp__static.17@PAGE
Lrtp_loh375:
	add	x11,x11,lrtp__static.17@PAGEOFF
	adr	x12,8f
	ldrb	w10,[x8,x21]
	add	x12,x12,x10,lsl #2
Lrtp_loh376:
	adrp	x9,lrtp__static.9@PAGE
Lrtp_loh377:
	add	x9,x9,lrtp__static.9@PAGEOFF
	sub	x23,x29,#97
	mov	w8,#5
	mov	w10,#1
	br	x12
8:
	mov	x9,#29301
	ldr	x8,[x22]
	movk	x9,#14958,lsl #16
	movk	x9,#26419,lsl #32
	movk	x9,#28784,lsl #48
	cmp	x8,x9
	b.ne	9f
	mov	x9,#30266
	ldr	x8,[x22,#8]
	movk	x9,#25705,lsl #16
	movk	x9,#28517,lsl #32
	movk	x9,#28461,lsl #48
	cmp	x8,x9
	b.ne	9f
	mov	x9,#26994
	ldr	x8,[x22,#16]
	movk	x9,#28261,lsl #16
	movk	x9,#24948,lsl #32
	movk	x9,#26996,lsl #48
	cmp	x8,x9
	b.ne	9f
	mov	x9,#28261
	ldur	x8,[x22,#18]
	movk	x9,#24948,lsl #16
	movk	x9,#26996,lsl #32
	movk	x9,#28271,lsl #48
	cmp	x8,x9
	b.ne	9f
	mov	x23,xzr
	mov	x21,xzr
	mov	w8,#4
	b	10f
12:
	mov	x10,xzr
Lrtp_loh378:
	adrp	x9,lrtp__static.7@PAGE
Lrtp_loh379:
	add	x9,x9,lrtp__static.7@PAGEOFF
	b	14f
15:
Lrtp_loh380:
	adrp	x9,lrtp__static.21@PAGE
Lrtp_loh381:
	add	x9,x9,lrtp__static.21@PAGEOFF
	mov	w10,#7
	b	14f
16:
Lrtp_loh382:
	adrp	x9,lrtp__static.11@PAGE
Lrtp_loh383:
	add	x9,x9,lrtp__static.11@PAGEOFF
	mov	w10,#2
	b	14f
17:
Lrtp_loh384:
	adrp	x9,lrtp__static.31@PAGE
Lrtp_loh385:
	add	x9,x9,lrtp__static.31@PAGEOFF
	mov	w10,#12
	b	14f
18:
Lrtp_loh386:
	adrp	x9,lrtp__static.25@PAGE
Lrtp_loh387:
	add	x9,x9,lrtp__static.25@PAGEOFF
	mov	w10,#9
	b	14f
19:
Lrtp_loh388:
	adrp	x9,lrtp__static.27@PAGE
Lrtp_loh389:
	add	x9,x9,lrtp__static.27@PAGEOFF
	mov	w10,#10
	b	14f
20:
Lrtp_loh390:
	adrp	x11,lrtp__static.35@PAGE
Lrtp_loh391:
	add	x11,x11,lrtp__static.35@PAGEOFF
	mov	w8,#14
21:
	mov	x9,x11
	mov	x10,x22
	mov	x12,x21
22:
	ldp	q3,q0,[x10]
	ldp	q2,q1,[x9]
	cmeq.16b	v0,v1,v0
	cmeq.16b	v1,v2,v3
	ldp	q2,q5,[x10,#32]
	ldp	q3,q4,[x9,#32]
	mvn.16b	v0,v0
	cmeq.16b	v2,v3,v2
	orn.16b	v0,v0,v1
	cmeq.16b	v1,v4,v5
	orn.16b	v0,v0,v2
	orn.16b	v0,v0,v1
	cmlt.16b	v0,v0,#0
	umaxv.16b	b0,v0
	fmov	w13,s0
	tbnz	w13,#0,23f
	sub	x12,x12,#64
	add	x10,x10,#64
	add	x9,x9,#64
	cmp	x12,#65
	b.hs	22b
	sub	x9,x21,#64
	add	x10,x11,x9
	add	x9,x22,x9
	ldp	q3,q0,[x9]
	ldp	q2,q1,[x10]
	cmeq.16b	v0,v1,v0
	cmeq.16b	v1,v2,v3
	ldp	q2,q5,[x9,#32]
	ldp	q3,q4,[x10,#32]
	mvn.16b	v0,v0
	cmeq.16b	v2,v3,v2
	orn.16b	v0,v0,v1
	cmeq.16b	v1,v4,v5
	orn.16b	v0,v0,v2
	orn.16b	v0,v0,v1
	cmlt.16b	v0,v0,#0
	b	22f
24:
Lrtp_loh392:
	adrp	x9,lrtp__static.13@PAGE
Lrtp_loh393:
	add	x9,x9,lrtp__static.13@PAGEOFF
	mov	w10,#3
	b	14f
25:
Lrtp_loh394:
	adrp	x9,lrtp__static.29@PAGE
Lrtp_loh395:
	add	x9,x9,lrtp__static.29@PAGEOFF
	mov	w10,#11
	b	14f
26:
Lrtp_loh396:
	adrp	x9,lrtp__static.23@PAGE
Lrtp_loh397:
	add	x9,x9,lrtp__static.23@PAGEOFF
	mov	w10,#8
	b	14f
27:
Lrtp_loh398:
	adrp	x9,lrtp__static.33@PAGE
Lrtp_loh399:
	add	x9,x9,lrtp__static.33@PAGEOFF
	mov	w10,#13
14:
	ldp	q0,q3,[x22]
	sub	x8,x21,#16
	ldp	q1,q2,[x9]
	cmp	x8,#32
	mov	w11,#32
	csel	x11,x8,x11,lo
	cmeq.16b	v0,v1,v0
	cmeq.16b	v1,v2,v3
	ldr	q2,[x9,x11]
	ldr	q3,[x22,x11]
	mvn.16b	v0,v0
	orn.16b	v0,v0,v1
	cmeq.16b	v1,v2,v3
	ldr	q2,[x9,x8]
	ldr	q3,[x22,x8]
	mov	x8,x10
	orn.16b	v0,v0,v1
	cmeq.16b	v1,v2,v3
	orn.16b	v0,v0,v1
22:
	shl.16b	v0,v0,#7
	cmlt.16b	v0,v0,#0
	umaxv.16b	b0,v0
	fmov	w9,s0
	tbz	w9,#0,22f
23:
	cbz	x21,23f
	cmp	x21,#58
	b.ne	6f
Lrtp_loh400:
	adrp	x8,lrtp_CPI20_10@PAGE
	ldp	q1,q2,[x22]
Lrtp_loh401:
	ldr	q0,[x8,lrtp_CPI20_10@PAGEOFF]
Lrtp_loh402:
	adrp	x8,lrtp_CPI20_11@PAGE
	cmeq.16b	v0,v1,v0
Lrtp_loh403:
	ldr	q1,[x8,lrtp_CPI20_11@PAGEOFF]
Lrtp_loh404:
	adrp	x8,lrtp_CPI20_12@PAGE
Lrtp_loh405:
	ldr	q3,[x8,lrtp_CPI20_12@PAGEOFF]
Lrtp_loh406:
	adrp	x8,lrtp_CPI20_13@PAGE
	cmeq.16b	v1,v2,v1
	ldr	q2,[x22,#32]
	mvn.16b	v0,v0
	orn.16b	v0,v0,v1
	cmeq.16b	v1,v2,v3
	ldur	q2,[x22,#42]
Lrtp_loh407:
	ldr	q3,[x8,lrtp_CPI20_13@PAGEOFF]
	orn.16b	v0,v0,v1
	cmeq.16b	v1,v2,v3
	orn.16b	v0,v0,v1
	umaxv.16b	b0,v0
	fmov	w8,s0
	tbnz	w8,#0,9f
	mov	x23,xzr
	mov	x21,xzr
	mov	w8,#6
	b	10f
22:
	mov	x23,xzr
	mov	x21,xzr
	b	10f
6:
	tbnz	x27,#63,22f
9:
	mov	x0,x21
	mov	w1,#1
	bl	_rattle_alloc
	tbz	w0,#0,22f
	mov	x23,x1
	b	9f
23:
	sub	x23,x29,#97
9:
	sub	x9,x23,x22
	cmp	x9,x21
	b.hs	23f
	cmp	x21,#8
	mov	x8,xzr
	b.lo	28f
	cmp	x9,#32
	b.lo	28f
	cmp	x21,#32
	b.hs	29f
	mov	x8,xzr
	b	30f
23:
	mov	x0,x23
	mov	x1,x22
	mov	x2,x21
	bl	_memmove
	mov	w8,#15
	b	10f
29:
	and	x9,x24,#0x1f
	add	x10,x22,#16
	add	x11,x23,#16
	sub	x8,x21,x9
	sub	x12,x21,x9
23:
	ldp	q0,q1,[x10,#-16]
	subs	x12,x12,#32
	add	x10,x10,#32
	stp	q0,q1,[x11,#-16]
	add	x11,x11,#32
	b.ne	23b
	cbz	x9,23f
	cmp	x9,#8
	b.lo	28f
30:
	mov	x10,x8
	and	x9,x24,#0x7
	lsl	x8,x25,#8
	add	x11,x10,x9
	sub	x11,x11,x24
	sub	x11,x11,x8
	sub	x8,x21,x9
	sub	x11,x11,x27
29:
	ldr	d0,[x22,x10]
	adds	x11,x11,#8
	str	d0,[x23,x10]
	add	x10,x10,#8
	b.ne	29b
	cbz	x9,23f
28:
	ldrb	w9,[x22,x8]
	strb	w9,[x23,x8]
	add	x8,x8,#1
	cmp	x21,x8
	b.ne	28b
23:
	add	x26,x19,#13,lsl #12
	mov	w8,#15
	add	x26,x26,#1008
10:
	ldp	x22,x27,[x19,#8]
	add	x0,x19,#13,lsl #12
	add	x2,x19,#13,lsl #12
	ldur	x24,[x29,#-72]
	add	x0,x0,#1080
	add	x2,x2,#1040
	mov	w1,w20
	stp	x8,x23,[x26,#32]
	stp	x21,x21,[x26,#48]
	bl	_rtp_ext.map.ExtensionMap.set
	add	x24,x24,#1
	cbnz	x22,3b
	ldp	x21,x25,[x26,#72]
	add	x20,x19,#13,lsl #12
	add	x20,x20,#1080
	b	3f
11:
	mov	w8,#38
	b	13b
4:
	add	x8,x19,#13,lsl #12
	ldp	x20,x25,[x26,#72]
	add	x8,x8,#1080
	add	x0,x19,#8,lsl #12
	mov	w2,#10960
	add	x0,x0,#200
	add	x1,x8,#16
	bl	_memcpy
	ldur	x24,[x29,#-72]
	cmp	x23,#64
	mov	x9,x23
	mov	x8,x27
	b.hs	4f
10:
	cbnz	x9,11f
	b	13f
2:
	mov	x25,xzr
	mov	x21,xzr
	mov	x24,xzr
3:
	add	x0,x19,#8,lsl #12
	add	x1,x20,#16
	mov	w2,#10960
	add	x0,x0,#200
	bl	_memcpy
	mov	x23,xzr
	mov	x20,x21
13:
	cbz	x24,2f
	add	x0,x19,#5,lsl #12
	add	x1,x19,#8,lsl #12
	mov	w2,#10960
	add	x0,x0,#1528
	add	x1,x1,#200
	bl	_memcpy
	mov	x21,x20
	mov	x22,x25
3:
	add	x1,x19,#5,lsl #12
	add	x0,x19,#48
	mov	w2,#10960
	add	x1,x1,#1528
	bl	_memcpy
	add	x8,x19,#2,lsl #12
	add	x1,x19,#48
	mov	w2,#10960
	add	x8,x8,#2816
	str	x21,[x19,#11008]
	add	x0,x8,#16
	str	x22,[x19,#11016]
	bl	_memcpy
	add	x0,x19,#2,lsl #12
	str	x27,[x19,#21984]
	add	x0,x0,#2816
	str	x23,[x19,#21992]
	bl	_rtp_listing.printing.print_all.df9e9f1468b30f79
	mov	w21,w0
	mov	w20,w1
	add	x0,x19,#13,lsl #12
	add	x1,x19,#2,lsl #12
	add	x0,x0,#1080
	mov	w2,#10200
	add	x1,x1,#2816
	add	x22,x19,#13,lsl #12
	add	x22,x22,#1080
	bl	_memcpy
	add	x22,x22,#16
	mov	w23,#255
	b	23f
28:
	subs	x23,x23,#1
	add	x22,x22,#40
	b.eq	29f
23:
	ldurb	w8,[x22,#-16]
	cbz	w8,28b
	ldurb	w9,[x22,#-8]
	ldr	x0,[x22]
	cmp	w8,#2
	ldr	x8,[x22,#16]
	cmp	w9,#15
	b.ne	28b
	cbz	x8,28b
	bl	_rattle_dealloc
	b	28b
29:
	and	w8,w21,#0xff
	cmp	w8,#1
	cset	w21,eq
23:
	ldr	x8,[x19,#40]
	cbz	x8,28f
	ldr	x0,[x19,#24]
	bl	_rattle_dealloc
28:
	cbnz	w21,5b
	mov	w0,wzr
	b	1b
2:
	add	x24,x19,#10,lsl #12
	add	x0,x19,#13,lsl #12
	stp	xzr,xzr,[x26,#48]
	add	x24,x24,#2968
	str	xzr,[x26,#40]
	add	x0,x0,#1080
	stp	xzr,xzr,[x26,#16]
	mov	w1,#10976
	str	xzr,[x26,#8]
	add	x26,x19,#13,lsl #12
	stur	x25,[x29,#-72]
	mov	x25,x20
	add	x20,x19,#13,lsl #12
	stp	xzr,xzr,[x24,#16]
	add	x26,x26,#1008
	add	x20,x20,#1080
	str	xzr,[x24,#8]
	str	xzr,[x24,#10304]
	str	xzr,[x24,#10320]
	str	xzr,[x24,#10312]
	str	xzr,[x24,#10272]
	str	xzr,[x24,#10288]
	str	xzr,[x24,#10280]
	str	xzr,[x24,#10248]
	str	xzr,[x24,#10240]
	str	xzr,[x24,#10256]
	str	xzr,[x24,#10216]
	str	xzr,[x24,#10208]
	str	xzr,[x24,#10224]
	bl	_bzero
	add	x0,x19,#13,lsl #12
	add	x2,x19,#10,lsl #12
	mov	w8,#2
	add	x0,x0,#1080
	add	x2,x2,#2968
	mov	w1,#1
	str	x8,[x24]
	bl	_rtp_ext.map.ExtensionMap.set
	add	x0,x19,#13,lsl #12
	add	x2,x19,#13,lsl #12
	mov	w1,#2
	add	x0,x0,#1080
	add	x2,x2,#1040
	str	xzr,[x26,#32]
	bl	_rtp_ext.map.ExtensionMap.set
	add	x0,x19,#13,lsl #12
	add	x2,x19,#13,lsl #12
	mov	w8,#5
	add	x0,x0,#1080
	add	x2,x2,#1008
	mov	w1,#3
	str	x8,[x26]
	bl	_rtp_ext.map.ExtensionMap.set
	add	x0,x19,#13,lsl #12
	add	x2,x19,#13,lsl #12
	mov	w8,#11
	add	x0,x0,#1080
	add	x2,x2,#976
	mov	w1,#4
	str	x8,[x24,#10296]
	mov	w21,#4
	bl	_rtp_ext.map.ExtensionMap.set
	add	x0,x19,#13,lsl #12
	add	x2,x19,#13,lsl #12
	mov	w8,#9
	add	x0,x0,#1080
	add	x2,x2,#944
	mov	w1,#10
	str	x8,[x24,#10264]
	mov	w22,#10
	bl	_rtp_ext.map.ExtensionMap.set
	add	x0,x19,#13,lsl #12
	add	x2,x19,#13,lsl #12
	mov	w1,#11
	add	x0,x0,#1080
	add	x2,x2,#912
	str	x22,[x24,#10232]
	bl	_rtp_ext.map.ExtensionMap.set
	add	x0,x19,#13,lsl #12
	add	x2,x19,#13,lsl #12
	mov	w1,#13
	add	x0,x0,#1080
	add	x2,x2,#880
	str	x21,[x24,#10200]
	bl	_rtp_ext.map.ExtensionMap.set
	ldp	x21,x22,[x26,#72]
	add	x20,x20,#16
	add	x0,x19,#5,lsl #12
	mov	x1,x20
	mov	w2,#10960
	add	x0,x0,#1528
	bl	_memcpy
	ldur	x8,[x29,#-72]
	add	x1,x19,#8,lsl #12
	mov	x0,x20
	add	x1,x1,#200
	mov	w2,#10184
	stp	x25,x8,[x26,#72]
	bl	_memcpy
	mov	w24,#255
	b	1f
2:
	subs	x24,x24,#1
	add	x20,x20,#40
	b.eq	3b
1:
	ldurb	w8,[x20,#-16]
	cbz	w8,2b
	ldurb	w9,[x20,#-8]
	ldr	x0,[x20]
	cmp	w8,#2
	ldr	x8,[x20,#16]
	cmp	w9,#15
	b.ne	2b
	cbz	x8,2b
	bl	_rattle_dealloc
	b	2b
4:
	movi.16b	v0,#10
	ldp	q2,q1,[x27]
	mov	x9,x23
	mov	x8,x27
	cmeq.16b	v2,v2,v0
	cmeq.16b	v0,v1,v0
	orr.16b	v0,v0,v2
	cmlt.16b	v0,v0,#0
	umaxv.16b	b0,v0
	fmov	w10,s0
	tbz	w10,#0,1f
11:
	mov	x21,x24
	b	2f
3:
	mov	x9,x10
	mov	x8,x11
	cbz	x10,13b
2:
	mov	x11,xzr
2:
	mov	x10,x11
	add	x11,x11,#32
	cmp	x11,x9
	b.hi	4f
	movi.16b	v0,#10
	add	x12,x8,x10
	ldp	q2,q1,[x12]
	cmeq.16b	v1,v1,v0
	cmeq.16b	v0,v2,v0
	ldr	q2,[x22,lrtp_CPI20_9@PAGEOFF]
	cmlt.16b	v1,v1,#0
	cmlt.16b	v0,v0,#0
	and.16b	v1,v1,v2
	and.16b	v0,v0,v2
	ext.16b	v2,v1,v1,#8
	ext.16b	v3,v0,v0,#8
	zip1.16b	v1,v1,v2
	zip1.16b	v0,v0,v3
	addv.8h	h1,v1
	addv.8h	h0,v0
	fmov	w12,s1
	fmov	w13,s0
	lsl	w12,w12,#16
	bfxil	x12,x13,#0,#16
	cbz	x12,2b
	rbit	x11,x12
	clz	x11,x11
2:
	sub	x12,x9,x11
	cmp	x12,x10
	b.eq	5f
	add	x9,x11,x10
	cbz	x9,13f
	add	x13,x11,x10
	add	x14,x13,x8
	ldurb	w14,[x14,#-1]
	cmp	w14,#13
	b.ne	13f
	sub	x9,x13,#1
13:
	add	x11,x8,x11
	add	x11,x11,x10
	mvn	x10,x10
	add	x11,x11,#1
	add	x10,x10,x12
	b	13f
4:
	cmp	x9,x10
	b.eq	5f
	mov	x11,xzr
	mov	x12,x10
4:
	ldrb	w13,[x8,x12]
	cmp	w13,#10
	b.eq	2b
	add	x12,x12,#1
	add	x11,x11,#1
	cmp	x9,x12
	b.ne	4b
5:
	mov	x10,xzr
Lrtp_loh408:
	adrp	x11,lrtp__static.5@PAGE
Lrtp_loh409:
	add	x11,x11,lrtp__static.5@PAGEOFF
13:
	add	x21,x21,#1
	tbnz	w9,#0,2f
	cbz	x9,4f
	cmp	x9,#8
	b.hs	5f
	mov	w13,wzr
	mov	x12,xzr
	b	13f
5:
	cmp	x9,#32
	b.hs	5f
	mov	x12,xzr
	mov	w13,wzr
	b	28f
5:
	movi.2d	v0,#0000000000000000
	movi.2d	v1,#0000000000000000
	and	x14,x9,#0x18
	and	x12,x9,#0xffffffffffffffe0
	add	x13,x8,#16
	and	x15,x9,#0xffffffffffffffe0
5:
	movi.16b	v2,#223
	ldp	q3,q4,[x13,#-16]
	movi.16b	v5,#208
	movi.16b	v6,#191
	movi.16b	v16,#9
	movi.16b	v17,#5
	subs	x15,x15,#32
	add	x13,x13,#32
	and.16b	v7,v3,v2
	and.16b	v2,v4,v2
	add.16b	v3,v3,v5
	add.16b	v4,v4,v5
	add.16b	v5,v7,v6
	add.16b	v2,v2,v6
	uqsub.16b	v3,v3,v16
	uqsub.16b	v4,v4,v16
	uqsub.16b	v5,v5,v17
	uqsub.16b	v2,v2,v17
	umin.16b	v3,v5,v3
	umin.16b	v2,v2,v4
	orr.16b	v0,v3,v0
	orr.16b	v1,v2,v1
	b.ne	5b
	orr.16b	v0,v1,v0
	cmp	x9,x12
	ext.16b	v1,v0,v0,#8
	orr.8b	v0,v0,v1
	fmov	x13,d0
	orr	x13,x13,x13,lsr #32
	orr	x13,x13,x13,lsr #16
	lsr	x15,x13,#8
	orr	w13,w13,w15
	b.eq	5f
	cbz	x14,13f
28:
	movi.2d	v0,#0000000000000000
	mov	x14,x12
	and	x12,x9,#0xfffffffffffffff8
	mov.b	v0[0],w13
	sub	x13,x14,x12
	add	x14,x8,x14
28:
	movi.8b	v1,#223
	ldr	d2,[x14],#8
	movi.8b	v3,#208
	movi.8b	v4,#191
	movi.8b	v5,#9
	movi.8b	v6,#5
	adds	x13,x13,#8
	and.8b	v1,v2,v1
	add.8b	v2,v2,v3
	add.8b	v1,v1,v4
	uqsub.8b	v2,v2,v5
	uqsub.8b	v1,v1,v6
	umin.8b	v1,v1,v2
	orr.8b	v0,v1,v0
	b.ne	28b
	fmov	x13,d0
	cmp	x9,x12
	orr	x13,x13,x13,lsr #32
	orr	x13,x13,x13,lsr #16
	lsr	x14,x13,#8
	orr	w13,w13,w14
	b.eq	5f
13:
	sub	x9,x9,x12
	add	x8,x8,x12
13:
	ldrb	w12,[x8],#1
	sub	w14,w12,#48
	and	w12,w12,#0xffffffdf
	and	w14,w14,#0xff
	sub	w12,w12,#65
	subs	w14,w14,#9
	and	w12,w12,#0xff
	csel	w14,wzr,w14,lo
	subs	w12,w12,#5
	csel	w12,wzr,w12,lo
	cmp	w12,w14
	csel	w12,w12,w14,lo
	subs	x9,x9,#1
	orr	w13,w12,w13
	b.ne	13b
5:
	tst	w13,#0xff
	b.ne	2f
4:
	cmp	x10,#64
	b.lo	3b
	movi.16b	v0,#10
	ldp	q2,q1,[x11]
	cmeq.16b	v2,v2,v0
	cmeq.16b	v0,v1,v0
	orr.16b	v0,v0,v2
	cmlt.16b	v0,v0,#0
	umaxv.16b	b0,v0
	fmov	w8,s0
	tbnz	w8,#0,3b
4:
	movi.16b	v0,#223
	ldp	q1,q2,[x11]
	ldp	q5,q6,[x11,#32]
	movi.16b	v3,#208
	movi.16b	v4,#191
	movi.16b	v7,#9
	movi.16b	v19,#5
	and.16b	v16,v1,v0
	and.16b	v17,v2,v0
	and.16b	v18,v5,v0
	and.16b	v0,v6,v0
	add.16b	v1,v1,v3
	add.16b	v2,v2,v3
	add.16b	v5,v5,v3
	add.16b	v3,v6,v3
	add.16b	v6,v16,v4
	add.16b	v16,v17,v4
	add.16b	v17,v18,v4
	add.16b	v0,v0,v4
	uqsub.16b	v1,v1,v7
	uqsub.16b	v2,v2,v7
	uqsub.16b	v4,v5,v7
	uqsub.16b	v3,v3,v7
	uqsub.16b	v5,v6,v19
	uqsub.16b	v6,v16,v19
	uqsub.16b	v7,v17,v19
	uqsub.16b	v0,v0,v19
	umin.16b	v1,v5,v1
	umin.16b	v2,v6,v2
	umin.16b	v4,v7,v4
	umin.16b	v0,v0,v3
	orr.16b	v1,v4,v1
	orr.16b	v0,v0,v2
	orr.16b	v0,v0,v1
	ext.16b	v1,v0,v0,#8
	orr.8b	v0,v0,v1
	fmov	x8,d0
	orr	x8,x8,x8,lsr #32
	lsr	x9,x8,#16
	orr	w8,w8,w9
	orr	w8,w8,w8,lsr #8
	tst	w8,#0xff
	b.ne	3b
	sub	x10,x10,#64
	add	x11,x11,#64
	cmp	x10,#63
	b.hi	4b
	b	3b
1:
	mov	x8,x27
	mov	x9,x23
1:
	movi.16b	v0,#223
	ldp	q1,q2,[x8]
	ldp	q5,q6,[x8,#32]
	movi.16b	v3,#208
	movi.16b	v4,#191
	movi.16b	v7,#9
	movi.16b	v19,#5
	and.16b	v16,v1,v0
	and.16b	v17,v2,v0
	and.16b	v18,v5,v0
	and.16b	v0,v6,v0
	add.16b	v1,v1,v3
	add.16b	v2,v2,v3
	add.16b	v5,v5,v3
	add.16b	v3,v6,v3
	add.16b	v6,v16,v4
	add.16b	v16,v17,v4
	add.16b	v17,v18,v4
	add.16b	v0,v0,v4
	uqsub.16b	v1,v1,v7
	uqsub.16b	v2,v2,v7
	uqsub.16b	v4,v5,v7
	uqsub.16b	v3,v3,v7
	uqsub.16b	v5,v6,v19
	uqsub.16b	v6,v16,v19
	uqsub.16b	v7,v17,v19
	uqsub.16b	v0,v0,v19
	umin.16b	v1,v5,v1
	umin.16b	v2,v6,v2
	umin.16b	v4,v7,v4
	umin.16b	v0,v0,v3
	orr.16b	v1,v4,v1
	orr.16b	v0,v0,v2
	orr.16b	v0,v0,v1
	ext.16b	v1,v0,v0,#8
	orr.8b	v0,v0,v1
	fmov	x10,d0
	orr	x10,x10,x10,lsr #32
	lsr	x11,x10,#16
	orr	w10,w10,w11
	orr	w10,w10,w10,lsr #8
	tst	w10,#0xff
	b.ne	11b
	sub	x9,x9,#64
	add	x8,x8,#64
	cmp	x9,#63
	b.hi	1b
	b	10b
2:
	add	x8,x19,#13,lsl #12
	stp	x20,x25,[x26,#72]
	add	x1,x19,#8,lsl #12
	add	x8,x8,#1080
	add	x1,x1,#200
	mov	w2,#10184
	add	x20,x8,#16
	mov	x0,x20
	bl	_memcpy
	mov	w22,#255
	b	1f
2:
	subs	x22,x22,#1
	add	x20,x20,#40
	b.eq	3f
1:
	ldurb	w8,[x20,#-16]
	cbz	w8,2b
	ldurb	w9,[x20,#-8]
	ldr	x0,[x20]
	cmp	w8,#2
	ldr	x8,[x20,#16]
	cmp	w9,#15
	b.ne	2b
	cbz	x8,2b
	bl	_rattle_dealloc
	b	2b
3:
	sub	x8,x29,#97
	add	x0,x19,#13,lsl #12
	add	x22,x19,#13,lsl #12
	str	x8,[x26,#72]
	mov	w8,#32
	add	x0,x0,#1080
	str	w8,[x26,#96]
Lrtp_loh410:
	adrp	x8,lrtp_CPI20_14@PAGE
	mov	w1,#5
Lrtp_loh411:
	ldr	q0,[x8,lrtp_CPI20_14@PAGEOFF]
	stp	xzr,xzr,[x26,#80]
	add	x22,x22,#1080
	stur	wzr,[x26,#129]
	str	wzr,[x26,#132]
	strb	wzr,[x26,#128]
	stur	xzr,[x26,#100]
	str	wzr,[x26,#108]
	stur	q0,[x26,#112]
	bl	_rtp_std_alloc.vec.Vec.grow_amortized.9d744d77114e6601
	cbz	w0,1f
	ldp	x8,x9,[x26,#72]
Lrtp_loh412:
	adrp	x11,lrtp__static.3@PAGE
Lrtp_loh413:
	add	x11,x11,lrtp__static.3@PAGEOFF
	ldr	x23,[x26,#88]
	add	x10,x8,x9
	add	x9,x9,#5
	sub	x11,x10,x11
	cmp	x11,#4
	b.hi	2f
Lrtp_loh414:
	adrp	x11,lrtp_CPI20_15@PAGE
Lrtp_loh415:
	ldr	d0,[x11,lrtp_CPI20_15@PAGEOFF]
	mov	w11,#32
	strb	w11,[x10,#4]
	str	s0,[x10]
	b	3f
2:
	mov	w12,#26988
	mov	w11,#32
	movk	w12,#25966,lsl #16
	strb	w11,[x10,#4]
	str	w12,[x10]
3:
	add	x11,x19,#13,lsl #12
	mov	w10,#32
	cmp	x21,#100
	add	x11,x11,#1008
	stur	xzr,[x22,#28]
	str	w10,[x11,#96]
	mov	x10,#-1
	str	x10,[x11,#112]
	add	x10,x19,#2,lsl #12
	add	x10,x10,#2816
	str	x9,[x11,#80]
	stur	wzr,[x22,#36]
	str	xzr,[x10,#21968]
	str	xzr,[x10,#21960]
	str	xzr,[x10,#21976]
	b.lo	2f
	mov	x10,xzr
3:
	mov	x13,#62915
	lsr	x12,x21,#2
	mov	x11,x21
	movk	x13,#23592,lsl #16
	movk	x13,#49807,lsl #32
	movk	x13,#10485,lsl #48
	umulh	x12,x12,x13
	mov	w13,#205
	lsr	x21,x12,#2
	mov	w12,#100
	msub	w12,w21,w12,w11
	lsr	x11,x11,#4
	cmp	x11,#624
	and	w14,w12,#0xff
	mul	w13,w14,w13
	mov	w14,#10
	lsr	w13,w13,#11
	msub	w12,w13,w14,w12
	add	x14,x19,#8,lsl #12
	orr	w11,w13,#0x30
	add	x14,x14,#200
	add	x14,x14,x10
	sub	x10,x10,#2
	orr	w12,w12,#0x30
	strb	w11,[x14,#22]
	strb	w12,[x14,#23]
	b.hi	3b
	add	x10,x10,#24
	b	3f
2:
	mov	w10,#24
3:
	cmp	x21,#10
	b.lo	2f
	and	w11,w21,#0xff
	mov	w12,#205
	add	x13,x19,#8,lsl #12
	mul	w11,w11,w12
	mov	w12,#10
	add	x13,x13,#200
	add	x13,x13,x10
	sub	x10,x10,#2
	lsr	w11,w11,#11
	msub	w12,w11,w12,w21
	orr	w11,w11,#0x30
	sturb	w11,[x13,#-2]
	orr	w12,w12,#0x30
	sturb	w12,[x13,#-1]
	b	3f
2:
	add	x11,x19,#8,lsl #12
	sub	x10,x10,#1
	orr	w12,w21,#0x30
	add	x11,x11,#200
	strb	w12,[x11,x10]
3:
	add	x26,x19,#13,lsl #12
	add	x11,x19,#8,lsl #12
	mov	w13,#24
	add	x26,x26,#1008
	add	x11,x11,#200
	sub	x21,x13,x10
	ldr	x12,[x26,#120]
	add	x20,x11,x10
	mov	w11,#45
	sturb	w11,[x20,#-1]
	cbnz	x12,2f
	sub	x10,x23,x9
	cmp	x21,x10
	b.hi	3f
4:
	add	x0,x8,x9
	mov	x1,x20
	mov	x2,x21
	add	x24,x9,x21
	bl	_memcpy
	add	x26,x19,#13,lsl #12
	add	x26,x26,#1008
	stp	x24,x23,[x26,#80]
5:
	mov	w8,#32
	ldr	x9,[x26,#120]
	stur	xzr,[x22,#28]
	str	w8,[x26,#96]
	mov	x8,#-1
	stur	wzr,[x22,#36]
	str	x8,[x26,#112]
	cbnz	x9,10f
	ldp	x9,x22,[x26,#80]
	add	x10,x19,#13,lsl #12
	add	x10,x10,#1008
	sub	x8,x22,x9
	cmp	x8,#28
	b.ls	11f
13:
	ldr	x21,[x10,#72]
Lrtp_loh416:
	adrp	x10,lrtp__static.4@PAGE
Lrtp_loh417:
	add	x10,x10,lrtp__static.4@PAGEOFF
	add	x1,x9,#29
	add	x8,x21,x9
	sub	x11,x8,x10
	cmp	x11,#28
	b.hi	28f
Lrtp_loh418:
	adrp	x9,lrtp_CPI20_16@PAGE
Lrtp_loh419:
	adrp	x10,lrtp_CPI20_17@PAGE
Lrtp_loh420:
	ldr	q0,[x9,lrtp_CPI20_16@PAGEOFF]
Lrtp_loh421:
	adrp	x9,lrtp_CPI20_18@PAGE
Lrtp_loh422:
	ldr	d1,[x10,lrtp_CPI20_17@PAGEOFF]
Lrtp_loh423:
	ldr	d2,[x9,lrtp_CPI20_18@PAGEOFF]
	mov	w9,#10
	str	q0,[x8]
	str	d1,[x8,#16]
	str	s2,[x8,#24]
	strb	w9,[x8,#28]
	mov	x0,x21
	bl	_rtp_listing.printing.write_text.df9e9f1468b30f79
	tst	w0,#0xff
	b.ne	29f
30:
	cbz	x22,31f
	mov	x0,x21
	bl	_rattle_dealloc
31:
	mov	w20,#1
	b	31f
28:
	ldr	q0,[x10]
	ldur	q1,[x10,#13]
	str	q0,[x8]
	stur	q1,[x8,#13]
	mov	x0,x21
	bl	_rtp_listing.printing.write_text.df9e9f1468b30f79
	tst	w0,#0xff
	b.eq	30b
29:
	mov	w20,w1
	cbz	x22,31f
	mov	x0,x21
	bl	_rattle_dealloc
31:
	mov	w21,#1
	b	23b
2:
	add	x0,x19,#13,lsl #12
	mov	x1,x20
	mov	x2,x21
	add	x0,x0,#1080
	bl	_rtp_core.fmt.formatter.Formatter.write_indented.5e1603e38c63b5f6
	and	w8,w0,#0xff
	tbnz	w8,#0,1f
	b	5b
3:
	add	x0,x19,#13,lsl #12
	mov	x1,x21
	add	x0,x0,#1080
	bl	_rtp_std_alloc.vec.Vec.grow_amortized.9d744d77114e6601
	cbz	w0,2f
	add	x8,x19,#13,lsl #12
	add	x8,x8,#1008
	ldp	x9,x23,[x8,#80]
	ldr	x8,[x8,#72]
	b	4b
10:
	add	x0,x19,#13,lsl #12
Lrtp_loh424:
	adrp	x1,lrtp__static.4@PAGE
Lrtp_loh425:
	add	x1,x1,lrtp__static.4@PAGEOFF
	add	x0,x0,#1080
	mov	w2,#29
	bl	_rtp_core.fmt.formatter.Formatter.write_indented.5e1603e38c63b5f6
	tst	w0,#0xff
	b.ne	1f
	ldp	x1,x22,[x26,#80]
	ldr	x21,[x26,#72]
	mov	x0,x21
	bl	_rtp_listing.printing.write_text.df9e9f1468b30f79
	tst	w0,#0xff
	b.ne	29b
	b	30b
11:
	add	x0,x19,#13,lsl #12
	mov	w1,#29
	add	x0,x0,#1080
	bl	_rtp_std_alloc.vec.Vec.grow_amortized.9d744d77114e6601
	add	x26,x19,#13,lsl #12
	add	x26,x26,#1008
	cbz	w0,1f
	ldp	x9,x22,[x26,#80]
	add	x10,x19,#13,lsl #12
	add	x10,x10,#1008
	b	13b
22:
	add	x0,x19,#10,lsl #12
	add	x1,x19,#13,lsl #12
	mov	w2,#10200
	add	x0,x0,#2968
	add	x1,x1,#1080
	add	x20,x19,#10,lsl #12
	add	x20,x20,#2968
	bl	_memcpy
	add	x20,x20,#16
	mov	w21,#255
	b	3f
4:
	subs	x21,x21,#1
	add	x20,x20,#40
	b.eq	5f
3:
	ldurb	w8,[x20,#-16]
	cbz	w8,4b
	ldurb	w9,[x20,#-8]
	ldr	x0,[x20]
	cmp	w8,#2
	ldr	x8,[x20,#16]
	cmp	w9,#15
	b.ne	4b
	cbz	x8,4b
	bl	_rattle_dealloc
	b	4b
2:
	add	x26,x19,#13,lsl #12
	add	x26,x26,#1008
1:
	ldr	x8,[x26,#88]
	cbz	x8,5f
	ldr	x0,[x26,#72]
	bl	_rattle_dealloc
5:
	mov	w21,#1
	mov	w20,#2
	b	23b
	.loh AdrpLdr	Lrtp_loh341,Lrtp_loh343
	.loh AdrpLdr	Lrtp_loh340,Lrtp_loh342
	.loh AdrpLdr	Lrtp_loh360,Lrtp_loh361
	.loh AdrpAdrp	Lrtp_loh358,Lrtp_loh360
	.loh AdrpLdr	Lrtp_loh358,Lrtp_loh359
	.loh AdrpAdrp	Lrtp_loh356,Lrtp_loh358
	.loh AdrpLdr	Lrtp_loh356,Lrtp_loh357
	.loh AdrpAdrp	Lrtp_loh354,Lrtp_loh356
	.loh AdrpLdr	Lrtp_loh354,Lrtp_loh355
	.loh AdrpAdrp	Lrtp_loh352,Lrtp_loh354
	.loh AdrpLdr	Lrtp_loh352,Lrtp_loh353
	.loh AdrpAdrp	Lrtp_loh350,Lrtp_loh352
	.loh AdrpLdr	Lrtp_loh350,Lrtp_loh351
	.loh AdrpAdrp	Lrtp_loh348,Lrtp_loh350
	.loh AdrpLdr	Lrtp_loh348,Lrtp_loh349
	.loh AdrpAdrp	Lrtp_loh346,Lrtp_loh348
	.loh AdrpLdr	Lrtp_loh346,Lrtp_loh347
	.loh AdrpAdrp	Lrtp_loh344,Lrtp_loh346
	.loh AdrpLdr	Lrtp_loh344,Lrtp_loh345
	.loh AdrpLdr	Lrtp_loh364,Lrtp_loh365
	.loh AdrpAdrp	Lrtp_loh362,Lrtp_loh364
	.loh AdrpLdr	Lrtp_loh362,Lrtp_loh363
	.loh AdrpAdd	Lrtp_loh366,Lrtp_loh367
	.loh AdrpAdd	Lrtp_loh368,Lrtp_loh369
	.loh AdrpAdd	Lrtp_loh370,Lrtp_loh371
	.loh AdrpAdd	Lrtp_loh376,Lrtp_loh377
	.loh AdrpAdd	Lrtp_loh374,Lrtp_loh375
	.loh AdrpAdd	Lrtp_loh372,Lrtp_loh373
	.loh AdrpAdd	Lrtp_loh378,Lrtp_loh379
	.loh AdrpAdd	Lrtp_loh380,Lrtp_loh381
	.loh AdrpAdd	Lrtp_loh382,Lrtp_loh383
	.loh AdrpAdd	Lrtp_loh384,Lrtp_loh385
	.loh AdrpAdd	Lrtp_loh386,Lrtp_loh387
	.loh AdrpAdd	Lrtp_loh388,Lrtp_loh389
	.loh AdrpAdd	Lrtp_loh390,Lrtp_loh391
	.loh AdrpAdd	Lrtp_loh392,Lrtp_loh393
	.loh AdrpAdd	Lrtp_loh394,Lrtp_loh395
	.loh AdrpAdd	Lrtp_loh396,Lrtp_loh397
	.loh AdrpAdd	Lrtp_loh398,Lrtp_loh399
	.loh AdrpLdr	Lrtp_loh406,Lrtp_loh407
	.loh AdrpAdrp	Lrtp_loh404,Lrtp_loh406
	.loh AdrpLdr	Lrtp_loh404,Lrtp_loh405
	.loh AdrpAdrp	Lrtp_loh402,Lrtp_loh404
	.loh AdrpLdr	Lrtp_loh402,Lrtp_loh403
	.loh AdrpAdrp	Lrtp_loh400,Lrtp_loh402
	.loh AdrpLdr	Lrtp_loh400,Lrtp_loh401
	.loh AdrpAdd	Lrtp_loh408,Lrtp_loh409
	.loh AdrpLdr	Lrtp_loh410,Lrtp_loh411
	.loh AdrpAdd	Lrtp_loh412,Lrtp_loh413
	.loh AdrpLdr	Lrtp_loh414,Lrtp_loh415
	.loh AdrpAdd	Lrtp_loh416,Lrtp_loh417
	.loh AdrpLdr	Lrtp_loh421,Lrtp_loh423
	.loh AdrpLdr	Lrtp_loh419,Lrtp_loh422
	.loh AdrpAdrp	Lrtp_loh418,Lrtp_loh421
	.loh AdrpLdr	Lrtp_loh418,Lrtp_loh420
	.loh AdrpAdd	Lrtp_loh424,Lrtp_loh425
	.cfi_endproc
	.section	__TEXT,__const
7:
	.byte	(9b-8b)>>2
	.byte	(6b-8b)>>2
	.byte	(6b-8b)>>2
	.byte	(6b-8b)>>2
	.byte	(6b-8b)>>2
	.byte	(6b-8b)>>2
	.byte	(6b-8b)>>2
	.byte	(6b-8b)>>2
	.byte	(6b-8b)>>2
	.byte	(6b-8b)>>2
	.byte	(6b-8b)>>2
	.byte	(6b-8b)>>2
	.byte	(6b-8b)>>2
	.byte	(6b-8b)>>2
	.byte	(6b-8b)>>2
	.byte	(6b-8b)>>2
	.byte	(6b-8b)>>2
	.byte	(6b-8b)>>2
	.byte	(6b-8b)>>2
	.byte	(6b-8b)>>2
	.byte	(6b-8b)>>2
	.byte	(6b-8b)>>2
	.byte	(6b-8b)>>2
	.byte	(6b-8b)>>2
	.byte	(6b-8b)>>2
	.byte	(6b-8b)>>2
	.byte	(8b-8b)>>2
	.byte	(6b-8b)>>2
	.byte	(6b-8b)>>2
	.byte	(6b-8b)>>2
	.byte	(6b-8b)>>2
	.byte	(6b-8b)>>2
	.byte	(6b-8b)>>2
	.byte	(6b-8b)>>2
	.byte	(24b-8b)>>2
	.byte	(25b-8b)>>2
	.byte	(6b-8b)>>2
	.byte	(6b-8b)>>2
	.byte	(6b-8b)>>2
	.byte	(6b-8b)>>2
	.byte	(6b-8b)>>2
	.byte	(6b-8b)>>2
	.byte	(6b-8b)>>2
	.byte	(16b-8b)>>2
	.byte	(6b-8b)>>2
	.byte	(18b-8b)>>2
	.byte	(6b-8b)>>2
	.byte	(6b-8b)>>2
	.byte	(6b-8b)>>2
	.byte	(6b-8b)>>2
	.byte	(6b-8b)>>2
	.byte	(6b-8b)>>2
	.byte	(6b-8b)>>2
	.byte	(6b-8b)>>2
	.byte	(19b-8b)>>2
	.byte	(6b-8b)>>2
	.byte	(27b-8b)>>2
	.byte	(26b-8b)>>2
	.byte	(12b-8b)>>2
	.byte	(6b-8b)>>2
	.byte	(17b-8b)>>2
	.byte	(14b-8b)>>2
	.byte	(6b-8b)>>2
	.byte	(15b-8b)>>2
	.byte	(6b-8b)>>2
	.byte	(6b-8b)>>2
	.byte	(6b-8b)>>2
	.byte	(6b-8b)>>2
	.byte	(6b-8b)>>2
	.byte	(6b-8b)>>2
	.byte	(20b-8b)>>2
	.byte	(6b-8b)>>2
	.byte	(6b-8b)>>2
	.byte	(21b-8b)>>2

lrtp__static.0:
	.ascii	"want of memory\n"

lrtp__static.3:
	.ascii	"line "

lrtp__static.4:
	.ascii	": neither a map line nor hex\n"

lrtp__static.5:
	.byte	0

lrtp__static.7:
	.ascii	"http://www.webrtc.org/experiments/rtp-hdrext/abs-send-time"

lrtp__static.9:
	.ascii	"http://www.webrtc.org/experiments/rtp-hdrext/abs-capture-time"

lrtp__static.11:
	.ascii	"urn:ietf:params:rtp-hdrext:ssrc-audio-level"

lrtp__static.13:
	.ascii	"urn:ietf:params:rtp-hdrext:toffset"

lrtp__static.17:
	.ascii	"http://www.ietf.org/id/draft-holmer-rmcat-transport-wide-cc-extensions-01"

lrtp__static.21:
	.ascii	"http://www.webrtc.org/experiments/rtp-hdrext/video-content-type"

lrtp__static.23:
	.ascii	"http://www.webrtc.org/experiments/rtp-hdrext/video-timing"

lrtp__static.25:
	.ascii	"urn:ietf:params:rtp-hdrext:sdes:rtp-stream-id"

lrtp__static.27:
	.ascii	"urn:ietf:params:rtp-hdrext:sdes:repaired-rtp-stream-id"

lrtp__static.29:
	.ascii	"urn:ietf:params:rtp-hdrext:sdes:mid"

lrtp__static.31:
	.ascii	"http://tools.ietf.org/html/draft-ietf-avtext-framemarking-07"

lrtp__static.33:
	.ascii	"http://www.webrtc.org/experiments/rtp-hdrext/color-space"

lrtp__static.35:
	.ascii	"http://www.webrtc.org/experiments/rtp-hdrext/video-layers-allocation00"

lrtp__static.37:
	.ascii	"________________________________________________0123456789_______ABCDEFGHIJKLMNOPQRSTUVWXYZ______abcdefghijklmnopqrstuvwxyz_____________________________________________________________________________________________________________________________________"

lrtp__static.39:
	.ascii	"packet "

lrtp__static.40:
	.ascii	": unreadable"

lrtp__static.42:
	.ascii	"00010203040506070809101112131415161718192021222324252627282930313233343536373839404142434445464748495051525354555657585960616263646566676869707172737475767778798081828384858687888990919293949596979899"

lrtp__static.43:
	.ascii	"pt "

lrtp__static.44:
	.ascii	" seq "

lrtp__static.46:
	.ascii	" ssrc "

lrtp__static.48:
	.ascii	" padding "

lrtp__static.49:
	.ascii	" extension "

lrtp__static.50:
	.ascii	" csrc "

lrtp__static.52:
	.ascii	"yes"

lrtp__static.54:
	.ascii	" mid "

lrtp__static.55:
	.ascii	" rid "

lrtp__static.56:
	.ascii	" repaired "

lrtp__static.57:
	.ascii	" level "

lrtp__static.58:
	.ascii	" voice "

lrtp__static.60:
	.ascii	" transport "

lrtp__static.63:
	.ascii	"taken "

lrtp__static.64:
	.ascii	"refused"

lrtp__static.65:
	.ascii	"unreadable"

	.section	__TEXT,__literal4,4byte_literals
lrtp__static.66:
	.space	4,32

	.section	__TEXT,__literal16,16byte_literals
	.p2align	2,0x0
lrtp__switch.table.main:
	.long	0
	.long	2
	.long	3
	.long	1

