/*
 * rtp_lines for Linux on aarch64: the assembly text that Rattle's compiler makes of the program, each function of which is proved.
 * Made anew by: generated/make
 * kit: rattle-kit-13b logic dac8208d650f15bf
 * proved for: aarch64-unknown-linux-gnu
 * compiled for: aarch64-unknown-linux-gnu
 * sources: 8e7625231d209049cd5fcb5776cef307d6e5a83e7af618e772be10bc49c5adbc
 * text: 941533d885955c90ba0b1157218f284852e4da5d67caa50de97dcdbc569b720b
 * SPDX-License-Identifier: MIT OR Apache-2.0
 * Copyright (c) 2026 The rtp-wire developers (NOTICE)
 */
	.ifdef	.gasversion.
	.ifndef	.text
	.error	"this text is for Linux on aarch64: the folder generated has those for other systems"
	.end
	.endif
	.section	.rtp_system,"e",@progbits
.Lrtp_nop:
	nop
.Lrtp_nop_end:
	.if	.Lrtp_nop_end - .Lrtp_nop == 1
	.error	"this text is for Linux on aarch64: the folder generated has those for other systems"
	.end
	.endif
	.endif
	.macro	rtp_given rest:vararg
	.ifb	\rest
	.error	"this text is for Linux on aarch64: the folder generated has those for other systems"
	.end
	.endif
	.endm
	rtp_given # a comment
	.purgem	rtp_given
	.section	.this_text_is_for_Linux_on_aarch64,"e",@progbits
	.section	".text.unlikely.std_alloc::vec::Vec::grow_amortized::<#9d744d77114e6601>","ax",@progbits
	.p2align	2
	.type	"std_alloc::vec::Vec::grow_amortized::<#9d744d77114e6601>",@function
"std_alloc::vec::Vec::grow_amortized::<#9d744d77114e6601>":
	.cfi_startproc
	ldr	x8,[x0,#8]
	cmn	x8,x1
	b.lo	1f
	mov	w0,wzr
	ret
1:
	stp	x29,x30,[sp,#-32]!
	stp	x20,x19,[sp,#16]
	mov	x29,sp
	.cfi_def_cfa w29,32
	.cfi_offset w19,-8
	.cfi_offset w20,-16
	.cfi_offset w30,-24
	.cfi_offset w29,-32
	ldr	x10,[x0,#16]
	add	x9,x8,x1
	mov	w11,#8
	cmp	x9,#8
	lsl	x12,x10,#1
	csel	x11,x9,x11,hi
	lsr	x13,x10,#62
	cmp	x11,x12
	csel	x9,x11,x12,hi
	cmp	x13,#0
	csel	x19,x9,x11,eq
	tbnz	x19,#63,1f
	cbz	x10,2f
	mov	x20,x0
	ldr	x0,[x0]
	mov	x1,x8
	mov	x2,x19
	mov	w3,#1
	bl	rattle_realloc
	tbz	w0,#0,1f
3:
	mov	w0,#1
	str	x1,[x20]
	str	x19,[x20,#16]
	ldp	x20,x19,[sp,#16]
	ldp	x29,x30,[sp],#32
	ret
2:
	mov	x20,x0
	mov	x0,x9
	mov	w1,#1
	bl	rattle_alloc
	tbnz	w0,#0,3b
1:
	mov	w0,wzr
	ldp	x20,x19,[sp,#16]
	ldp	x29,x30,[sp],#32
	ret
	.size	"std_alloc::vec::Vec::grow_amortized::<#9d744d77114e6601>", .-"std_alloc::vec::Vec::grow_amortized::<#9d744d77114e6601>"
	.cfi_endproc

	.section	".text.std_io::io::error::last_error","ax",@progbits
	.p2align	2
	.type	"std_io::io::error::last_error",@function
"std_io::io::error::last_error":
	.cfi_startproc
	stp	x29,x30,[sp,#-32]!
	str	x19,[sp,#16]
	mov	x29,sp
	.cfi_def_cfa w29,32
	.cfi_offset w19,-16
	.cfi_offset w30,-24
	.cfi_offset w29,-32
	mov	x19,x0
	bl	rattle_errno
	tbnz	w0,#31,1f
	sub	w8,w0,#1
	cmp	w8,#121
	b.hi	1f
	adrp	x9,2f
	add	x9,x9,:lo12:2f
	adr	x10,3f
	ldrb	w11,[x9,x8]
	add	x10,x10,x11,lsl #2
	mov	w8,#1
	br	x10
3:
	mov	w8,#36
	b	4f
1:
	mov	w8,#41
4:
	movi	v0.2d,#0000000000000000
	strb	wzr,[x19]
	strb	w8,[x19,#1]
	strh	wzr,[x19,#2]
	str	w0,[x19,#4]
	stur	q0,[x19,#8]
	stur	q0,[x19,#24]
	stur	q0,[x19,#40]
	stur	q0,[x19,#56]
	stur	q0,[x19,#72]
	ldr	x19,[sp,#16]
	ldp	x29,x30,[sp],#32
	ret
5:
	mov	w8,#4
	b	4b
6:
	mov	w8,#7
	b	4b
7:
	mov	w8,#26
	b	4b
8:
	mov	w8,#39
	b	4b
9:
	mov	w8,#9
	b	4b
10:
	mov	w8,#8
	b	4b
11:
	mov	w8,#30
	b	4b
12:
	mov	w8,#25
	b	4b
13:
	mov	w8,#32
	b	4b
14:
	mov	w8,#33
	b	4b
15:
	mov	w8,#22
	b	4b
16:
	mov	w8,#31
	b	4b
17:
	mov	w8,#29
	b	4b
18:
	mov	w8,#18
	b	4b
19:
	mov	w8,#10
	b	4b
20:
	mov	w8,#28
	b	4b
21:
	mov	w8,#14
	b	4b
22:
	mov	w8,#12
	b	4b
23:
	mov	w8,#5
	b	4b
24:
	mov	w8,#3
	b	4b
25:
	mov	w8,wzr
	b	4b
26:
	mov	w8,#13
	b	4b
27:
	mov	w8,#38
	b	4b
28:
	mov	w8,#11
	b	4b
29:
	mov	w8,#35
	b	4b
30:
	mov	w8,#34
	b	4b
31:
	mov	w8,#20
	b	4b
32:
	mov	w8,#15
	b	4b
33:
	mov	w8,#19
	b	4b
34:
	mov	w8,#16
	b	4b
35:
	mov	w8,#6
	b	4b
36:
	mov	w8,#27
	b	4b
37:
	mov	w8,#24
	b	4b
38:
	mov	w8,#2
	b	4b
39:
	mov	w8,#17
	b	4b
	.size	"std_io::io::error::last_error", .-"std_io::io::error::last_error"
	.cfi_endproc
	.section	".rodata.std_io::io::error::last_error","a",@progbits
2:
	.byte	(4b-3b)>>2
	.byte	(25b-3b)>>2
	.byte	(1b-3b)>>2
	.byte	(29b-3b)>>2
	.byte	(1b-3b)>>2
	.byte	(1b-3b)>>2
	.byte	(30b-3b)>>2
	.byte	(1b-3b)>>2
	.byte	(1b-3b)>>2
	.byte	(1b-3b)>>2
	.byte	(26b-3b)>>2
	.byte	(27b-3b)>>2
	.byte	(4b-3b)>>2
	.byte	(1b-3b)>>2
	.byte	(1b-3b)>>2
	.byte	(20b-3b)>>2
	.byte	(22b-3b)>>2
	.byte	(16b-3b)>>2
	.byte	(1b-3b)>>2
	.byte	(21b-3b)>>2
	.byte	(32b-3b)>>2
	.byte	(31b-3b)>>2
	.byte	(1b-3b)>>2
	.byte	(1b-3b)>>2
	.byte	(1b-3b)>>2
	.byte	(17b-3b)>>2
	.byte	(36b-3b)>>2
	.byte	(37b-3b)>>2
	.byte	(12b-3b)>>2
	.byte	(39b-3b)>>2
	.byte	(13b-3b)>>2
	.byte	(28b-3b)>>2
	.byte	(1b-3b)>>2
	.byte	(1b-3b)>>2
	.byte	(11b-3b)>>2
	.byte	(14b-3b)>>2
	.byte	(1b-3b)>>2
	.byte	(3b-3b)>>2
	.byte	(34b-3b)>>2
	.byte	(18b-3b)>>2
	.byte	(1b-3b)>>2
	.byte	(1b-3b)>>2
	.byte	(1b-3b)>>2
	.byte	(1b-3b)>>2
	.byte	(1b-3b)>>2
	.byte	(1b-3b)>>2
	.byte	(1b-3b)>>2
	.byte	(1b-3b)>>2
	.byte	(1b-3b)>>2
	.byte	(1b-3b)>>2
	.byte	(1b-3b)>>2
	.byte	(1b-3b)>>2
	.byte	(1b-3b)>>2
	.byte	(1b-3b)>>2
	.byte	(1b-3b)>>2
	.byte	(1b-3b)>>2
	.byte	(1b-3b)>>2
	.byte	(1b-3b)>>2
	.byte	(1b-3b)>>2
	.byte	(1b-3b)>>2
	.byte	(1b-3b)>>2
	.byte	(1b-3b)>>2
	.byte	(1b-3b)>>2
	.byte	(1b-3b)>>2
	.byte	(1b-3b)>>2
	.byte	(1b-3b)>>2
	.byte	(1b-3b)>>2
	.byte	(1b-3b)>>2
	.byte	(1b-3b)>>2
	.byte	(1b-3b)>>2
	.byte	(1b-3b)>>2
	.byte	(1b-3b)>>2
	.byte	(1b-3b)>>2
	.byte	(1b-3b)>>2
	.byte	(1b-3b)>>2
	.byte	(1b-3b)>>2
	.byte	(1b-3b)>>2
	.byte	(1b-3b)>>2
	.byte	(1b-3b)>>2
	.byte	(1b-3b)>>2
	.byte	(1b-3b)>>2
	.byte	(1b-3b)>>2
	.byte	(1b-3b)>>2
	.byte	(1b-3b)>>2
	.byte	(1b-3b)>>2
	.byte	(1b-3b)>>2
	.byte	(1b-3b)>>2
	.byte	(1b-3b)>>2
	.byte	(1b-3b)>>2
	.byte	(1b-3b)>>2
	.byte	(1b-3b)>>2
	.byte	(1b-3b)>>2
	.byte	(1b-3b)>>2
	.byte	(1b-3b)>>2
	.byte	(3b-3b)>>2
	.byte	(1b-3b)>>2
	.byte	(1b-3b)>>2
	.byte	(10b-3b)>>2
	.byte	(9b-3b)>>2
	.byte	(19b-3b)>>2
	.byte	(23b-3b)>>2
	.byte	(1b-3b)>>2
	.byte	(35b-3b)>>2
	.byte	(24b-3b)>>2
	.byte	(1b-3b)>>2
	.byte	(1b-3b)>>2
	.byte	(6b-3b)>>2
	.byte	(1b-3b)>>2
	.byte	(1b-3b)>>2
	.byte	(15b-3b)>>2
	.byte	(38b-3b)>>2
	.byte	(1b-3b)>>2
	.byte	(5b-3b)>>2
	.byte	(1b-3b)>>2
	.byte	(8b-3b)>>2
	.byte	(33b-3b)>>2
	.byte	(1b-3b)>>2
	.byte	(1b-3b)>>2
	.byte	(1b-3b)>>2
	.byte	(1b-3b)>>2
	.byte	(1b-3b)>>2
	.byte	(7b-3b)>>2

	.section	".text.core::str::utf8::from_utf8","ax",@progbits
	.p2align	2
	.type	"core::str::utf8::from_utf8",@function
"core::str::utf8::from_utf8":
	.cfi_startproc
	sub	sp,sp,#64
	stp	x29,x30,[sp,#16]
	stp	x22,x21,[sp,#32]
	stp	x20,x19,[sp,#48]
	add	x29,sp,#16
	.cfi_def_cfa w29,48
	.cfi_offset w19,-8
	.cfi_offset w20,-16
	.cfi_offset w21,-24
	.cfi_offset w22,-32
	.cfi_offset w30,-40
	.cfi_offset w29,-48
	mov	x20,x2
	mov	x21,x1
	mov	x19,x0
	cbz	x2,1f
	mov	x9,xzr
	sub	x22,x20,#8
	b	2f
3:
	and	w11,w11,#0xff
	tbnz	w11,#7,4f
5:
	mov	w12,#1
6:
	add	x8,x12,x9
7:
	cmp	x8,x20
	mov	x9,x8
	b.hs	1f
2:
	add	x8,x21,x9
	sub	x10,x20,x9
	ldrsb	w11,[x8]
	cmp	x10,#2
	b.lo	3b
	tbnz	w11,#31,3b
	ldrsb	w11,[x8,#1]
	tbnz	w11,#31,5b
	cmp	x10,#7
	stp	x21,x20,[sp]
	b.hi	2f
	ldrsb	w8,[x21,x9]
	tbnz	w8,#31,3f
	add	x8,x9,#1
	cmp	x8,x20
	b.eq	1f
	ldrsb	w10,[x21,x8]
	tbnz	w10,#31,7b
	add	x8,x9,#2
	cmp	x8,x20
	b.eq	1f
	ldrsb	w10,[x21,x8]
	tbnz	w10,#31,7b
	add	x8,x9,#3
	cmp	x8,x20
	b.eq	1f
	ldrsb	w10,[x21,x8]
	tbnz	w10,#31,7b
	add	x8,x9,#4
	cmp	x8,x20
	b.eq	1f
	ldrsb	w10,[x21,x8]
	tbnz	w10,#31,7b
	add	x8,x9,#5
	cmp	x8,x20
	b.eq	1f
	ldrsb	w10,[x21,x8]
	tbnz	w10,#31,7b
	add	x8,x9,#6
	cmp	x8,x20
	b.eq	1f
	ldrsb	w9,[x21,x8]
	tbnz	w9,#31,7b
	b	1f
4:
	cmp	w11,#194
	b.lo	4f
	cmp	w11,#223
	b.hi	5f
	cmp	x10,#2
	b.lo	8f
	ldrsb	w12,[x8,#1]
	cmn	w12,#65
	b.gt	9f
	mov	w12,#2
	b	6b
2:
	ldr	x8,[x8]
	mov	w10,#8
	ands	x8,x8,#0x8080808080808080
	rbit	x8,x8
	clz	x8,x8
	lsr	x8,x8,#3
	csel	x8,x10,x8,eq
	add	x8,x8,x9
	add	x9,x9,#8
	cmp	x8,x9
	b.lo	7b
	sub	x9,x20,x8
	cmp	x9,#32
	b.lo	2f
10:
	add	x9,x21,x8
	ldp	q1,q0,[x9]
	orr	v0.16b,v1.16b,v0.16b
	ext	v1.16b,v0.16b,v0.16b,#8
	orr	v0.8b,v0.8b,v1.8b
	fmov	x9,d0
	tst	x9,#0x8080808080808080
	b.ne	2f
	mov	x0,sp
	add	x1,x8,#32
	mov	x2,x20
	bl	"core::slice::words::skip_far::<#52f9edcae2f82f51>"
	sub	x9,x20,x0
	mov	x8,x0
	cmp	x9,#31
	b.hi	10b
2:
	sub	x9,x20,x8
2:
	cmp	x9,#9
	b.lo	10f
	ldr	x10,[x21,x8]
	mov	w11,#8
	sub	x9,x9,#8
	ands	x10,x10,#0x8080808080808080
	rbit	x10,x10
	clz	x10,x10
	lsr	x10,x10,#3
	csel	x10,x11,x10,eq
	add	x11,x10,x8
	add	x8,x8,#8
	cmp	x11,x8
	b.hs	2b
	add	x8,x10,x8
	sub	x8,x8,#8
	b	7b
5:
	cmp	w11,#239
	b.hi	2f
	cmp	x10,#3
	b.lo	5f
	ldrsb	w12,[x8,#1]
	cmn	w12,#65
	b.gt	9f
	ldrsb	w13,[x8,#2]
	cmn	w13,#65
	b.gt	9f
	and	w13,w12,#0xff
	mov	w14,#-14464
	add	w13,w13,w11,lsl #6
	add	w13,w13,w14
	cmp	w13,#32
	b.lo	9f
	cmp	w13,#896
	mov	w12,#3
	csel	x14,xzr,x12,lo
	cmp	w13,#864
	b.lo	6b
	mov	x12,x14
	b	11f
3:
	mov	x8,x9
	b	7b
2:
	cmp	x10,#4
	b.lo	2f
	ldrsb	w12,[x8,#1]
	cmn	w12,#65
	b.gt	2f
	ldrsb	w13,[x8,#2]
	cmn	w13,#65
	b.gt	2f
	ldrsb	w13,[x8,#3]
	cmn	w13,#65
	b.gt	2f
	and	w12,w12,#0xff
	mov	w13,#-15488
	add	w12,w12,w11,lsl #6
	add	w13,w12,w13
	mov	w12,#4
	cmp	w13,#272
	csel	x12,x12,xzr,lo
	cmp	w13,#16
	b.lo	2f
11:
	cbnz	x12,6b
	b	2f
10:
	ldr	x8,[x21,x22]
	mov	w9,#8
	ands	x8,x8,#0x8080808080808080
	rbit	x8,x8
	clz	x8,x8
	lsr	x8,x8,#3
	csel	x8,x9,x8,eq
	add	x8,x8,x22
	b	7b
1:
	stp	xzr,x21,[x19]
	str	x20,[x19,#16]
	ldp	x20,x19,[sp,#48]
	ldp	x22,x21,[sp,#32]
	ldp	x29,x30,[sp,#16]
	add	sp,sp,#64
	ret
2:
	cmp	w11,#244
	b.hi	4f
5:
	cmp	x10,#2
	b.lo	8f
	ldrb	w12,[x8,#1]
9:
	cmp	w11,#240
	mov	w13,#-128
	mov	w14,#-112
	mov	w15,#-96
	csel	w13,w14,w13,eq
	cmp	w11,#224
	mov	w14,#-65
	csel	w13,w15,w13,eq
	mov	w15,#-113
	cmp	w11,#244
	and	w16,w13,#0xf0
	csel	w13,w15,w14,eq
	cmp	w11,#237
	mov	w11,#-97
	csel	w13,w11,w13,eq
	cmp	w16,w12,uxtb
	mov	w11,#257
	b.hi	1f
	and	w12,w12,#0xff
	cmp	w12,w13,uxtb
	b.hi	1f
	cmp	x10,#2
	b.ne	2f
8:
	mov	x11,xzr
	b	1f
4:
	mov	w11,#257
1:
	mov	w8,#1
	str	x11,[x19,#16]
	stp	x8,x9,[x19]
	ldp	x20,x19,[sp,#48]
	ldp	x22,x21,[sp,#32]
	ldp	x29,x30,[sp,#16]
	add	sp,sp,#64
	ret
2:
	ldrsb	w8,[x8,#2]
	cmn	w8,#65
	b.gt	2f
	cmp	x10,#3
	mov	w8,#769
	csel	x11,x8,xzr,hi
	b	1b
2:
	mov	w11,#513
	b	1b
	.size	"core::str::utf8::from_utf8", .-"core::str::utf8::from_utf8"
	.cfi_endproc

	.section	".text.core::slice::words::skip_far::<#52f9edcae2f82f51>","ax",@progbits
	.p2align	2
	.type	"core::slice::words::skip_far::<#52f9edcae2f82f51>",@function
"core::slice::words::skip_far::<#52f9edcae2f82f51>":
	.cfi_startproc
	sub	x8,x2,x1
	cmp	x8,#64
	b.lo	1f
	ldr	x9,[x0]
2:
	add	x10,x9,x1
	ldp	q0,q1,[x10,#32]
	ldp	q2,q3,[x10]
	orr	v1.16b,v3.16b,v1.16b
	orr	v0.16b,v2.16b,v0.16b
	orr	v0.16b,v0.16b,v1.16b
	ext	v1.16b,v0.16b,v0.16b,#8
	orr	v0.8b,v0.8b,v1.8b
	fmov	x10,d0
	tst	x10,#0x8080808080808080
	b.ne	1f
	sub	x8,x8,#64
	add	x1,x1,#64
	cmp	x8,#63
	b.hi	2b
1:
	mov	x0,x1
	ret
	.size	"core::slice::words::skip_far::<#52f9edcae2f82f51>", .-"core::slice::words::skip_far::<#52f9edcae2f82f51>"
	.cfi_endproc

	.section	".text.rtp_ext::map::ExtensionMap::set","ax",@progbits
	.p2align	2
	.type	"rtp_ext::map::ExtensionMap::set",@function
"rtp_ext::map::ExtensionMap::set":
	.cfi_startproc
	ldrb	w9,[x2]
	ldr	x8,[x2,#8]
	tst	w1,#0xff
	b.eq	1f
	stp	x29,x30,[sp,#-32]!
	stp	x20,x19,[sp,#16]
	mov	x29,sp
	.cfi_def_cfa w29,32
	.cfi_offset w19,-8
	.cfi_offset w20,-16
	.cfi_offset w30,-24
	.cfi_offset w29,-32
	add	x10,x0,w1,uxtb #1
	mov	w11,#10202
	cmp	w9,#15
	add	x19,x0,#2,lsl #12
	csel	w12,w9,wzr,ne
	cset	w15,ne
	add	x10,x10,x11
	ldrh	w11,[x19,#2780]
	cmp	w12,#14
	ldrb	w13,[x10]
	ldrb	w14,[x10,#1]
	ldr	q0,[x2,#16]
	cinc	w11,w11,eq
	strb	w12,[x10,#1]
	cmp	w13,#1
	and	w13,w14,#0xff
	strb	w15,[x10]
	cset	w14,eq
	cmp	w13,#14
	ldrh	w13,[x19,#2778]
	csel	w12,wzr,w14,ne
	subs	w10,w15,w14
	sub	w11,w11,w12
	add	w12,w10,w13
	and	x10,x1,#0xff
	strh	w11,[x19,#2780]
	strh	w12,[x19,#2778]
	b.eq	2f
	cmp	w9,#15
	mov	w11,w1
	b.ne	3f
	mov	w11,#10714
	add	x11,x0,x11
	ldrb	w11,[x11,x10]
3:
	add	x12,x0,x10,lsl #1
	mov	w13,#10200
	mov	w14,#10713
	add	x12,x12,x13
	add	x13,x0,x14
	and	x14,x1,#0xff
3:
	cbz	x14,2f
	strb	w11,[x13,x14]
	sub	x14,x14,#1
	ldrb	w15,[x12],#-2
	cmp	w15,#1
	b.ne	3b
2:
	mov	w11,#40
	mov	w13,#1
	umaddl	x12,w10,w11,x0
	ldurb	w11,[x12,#-40]
	ldurb	w10,[x12,#-32]
	stp	x13,x9,[x12,#-40]
	ldur	x0,[x12,#-24]
	ldur	x9,[x12,#-8]
	stur	x8,[x12,#-24]
	stur	q0,[x12,#-16]
	cbz	w11,2f
	cmp	w11,#2
	cmp	w10,#15
	b.ne	2f
	cbz	x9,2f
	mov	x20,x1
	bl	rattle_dealloc
	mov	x1,x20
2:
	ldrb	w8,[x19,#2008]
	and	w9,w1,#0xff
	cmp	w9,w8
	csel	w8,w9,w8,hi
	strb	w8,[x19,#2008]
	ldp	x20,x19,[sp,#16]
	ldp	x29,x30,[sp],#32
2:
	ret
1:
	cmp	w9,#15
	b.ne	2b
	ldr	x9,[x2,#24]
	cbz	x9,2b
	mov	x0,x8
	b	rattle_dealloc
	.size	"rtp_ext::map::ExtensionMap::set", .-"rtp_ext::map::ExtensionMap::set"
	.cfi_endproc

	.section	.rodata.cst16,"aM",@progbits,16
	.p2align	4,0x0
.Lrtp_CPI5_0:
	.byte	1
	.byte	2
	.byte	4
	.byte	8
	.byte	16
	.byte	32
	.byte	64
	.byte	128
	.byte	1
	.byte	2
	.byte	4
	.byte	8
	.byte	16
	.byte	32
	.byte	64
	.byte	128
.Lrtp_CPI5_1:
	.word	1
	.word	2
	.word	4
	.word	8
.Lrtp_CPI5_2:
	.xword	1
	.xword	0
	.section	.rodata.cst8,"aM",@progbits,8
	.p2align	3,0x0
.Lrtp_CPI5_3:
	.byte	32
	.byte	115
	.byte	101
	.byte	110
	.zero	1
	.zero	1
	.zero	1
	.zero	1
	.section	".text.rtp_listing::printing::print_all::<#df9e9f1468b30f79>","ax",@progbits
	.p2align	2
	.type	"rtp_listing::printing::print_all::<#df9e9f1468b30f79>",@function
"rtp_listing::printing::print_all::<#df9e9f1468b30f79>":
	.cfi_startproc
	stp	x29,x30,[sp,#-96]!
	stp	x28,x27,[sp,#16]
	mov	x29,sp
	stp	x26,x25,[sp,#32]
	stp	x24,x23,[sp,#48]
	stp	x22,x21,[sp,#64]
	stp	x20,x19,[sp,#80]
	sub	sp,sp,#688
	.cfi_def_cfa w29,96
	.cfi_offset w19,-8
	.cfi_offset w20,-16
	.cfi_offset w21,-24
	.cfi_offset w22,-32
	.cfi_offset w23,-40
	.cfi_offset w24,-48
	.cfi_offset w25,-56
	.cfi_offset w26,-64
	.cfi_offset w27,-72
	.cfi_offset w28,-80
	.cfi_offset w30,-88
	.cfi_offset w29,-96
	movi	v0.2d,#0000000000000000
	sub	x8,x29,#32
	add	x28,sp,#184
	stp	xzr,x8,[x29,#-168]
	mov	x19,x0
	sub	x9,x29,#168
	stur	x8,[x29,#-104]
	mov	w0,#16384
	mov	w1,#1
	stur	x8,[x29,#-192]
	mov	w8,#2
	strh	w8,[sp,#184]
	mov	w8,#1
	strb	w8,[sp,#186]
	strb	w8,[sp,#201]
	add	x8,x28,#18
	stp	q0,q0,[x8,#240]
	add	x8,sp,#11
	stur	q0,[x8,#255]
	add	x8,sp,#27
	stur	q0,[x8,#255]
	mov	w8,#16
	stp	xzr,xzr,[sp,#160]
	str	xzr,[sp,#176]
	stp	q0,q0,[x28,#352]
	str	q0,[x28,#384]
	stur	q0,[x9,#72]
	stur	q0,[x9,#88]
	stp	xzr,xzr,[x29,#-184]
	stur	xzr,[sp,#187]
	stur	xzr,[sp,#193]
	stur	q0,[sp,#202]
	stur	q0,[sp,#218]
	stur	q0,[sp,#234]
	stur	q0,[sp,#250]
	stur	q0,[x28,#114]
	stur	q0,[x28,#130]
	stur	q0,[x28,#146]
	stur	q0,[x28,#162]
	stur	q0,[x28,#178]
	stur	q0,[x28,#194]
	stur	q0,[x28,#210]
	stur	q0,[x28,#226]
	stur	q0,[x28,#242]
	str	q0,[x28,#288]
	str	x8,[sp,#488]
	bl	rattle_alloc
	tbz	w0,#0,1f
	mov	x20,x1
	mov	x0,x1
	mov	w1,wzr
	mov	w2,#16384
	bl	memset
	ldr	x27,[x19,#10984]
	cbz	x27,2f
	add	x8,sp,#184
	mov	x25,#2808348672
	sub	x10,x29,#168
	add	x9,x8,#88
	movk	x25,#46771,lsl #32
	mov	w21,#57600
	str	x9,[sp,#120]
	add	x9,x8,#264
	add	x8,x8,#28
	stp	x9,x19,[sp,#80]
	ldr	x19,[x19,#10976]
	mov	x1,xzr
	sub	x9,x29,#48
	mov	x26,xzr
	str	x8,[sp,#136]
	add	x8,x10,#40
	movk	x25,#3552,lsl #48
	movk	w21,#1525,lsl #16
	str	x8,[sp,#72]
	add	x8,x9,#15
	str	x8,[sp,#56]
	b	3f
4:
	mov	x1,xzr
5:
	cbz	x27,6f
3:
	mov	x8,xzr
	mov	x23,x19
3:
	add	x9,x8,#32
	cmp	x9,x27
	b.hi	7f
	movi	v0.16b,#10
	add	x8,x23,x8
	ldp	q1,q2,[x8]
	adrp	x8,.Lrtp_CPI5_0
	cmeq	v2.16b,v2.16b,v0.16b
	cmeq	v0.16b,v1.16b,v0.16b
	ldr	q1,[x8,:lo12:.Lrtp_CPI5_0]
	mov	x8,x9
	and	v0.16b,v0.16b,v1.16b
	and	v1.16b,v2.16b,v1.16b
	addp	v0.16b,v0.16b,v1.16b
	addp	v0.16b,v0.16b,v0.16b
	addp	v0.16b,v0.16b,v0.16b
	fmov	w10,s0
	cbz	w10,3b
	rbit	w8,w10
	clz	w8,w8
	add	x8,x8,x9
	sub	x8,x8,#32
	b	3f
8:
	add	x8,x8,#1
7:
	cmp	x27,x8
	b.eq	7f
	ldrb	w9,[x23,x8]
	cmp	w9,#10
	b.ne	8b
3:
	cmp	x8,x27
	b.ne	3f
7:
	adrp	x8,.Lrtp_static.5
	add	x8,x8,:lo12:.Lrtp_static.5
	mov	x19,x27
	str	x8,[sp,#152]
	mov	x27,xzr
	lsr	x24,x19,#1
	ldur	x8,[x29,#-184]
	cmp	x19,#161
	b.hi	7f
8:
	subs	x2,x24,x8
	b.ls	9f
	ldur	x22,[x29,#-176]
	str	x1,[sp,#144]
	sub	x9,x22,x8
	cmp	x2,x9
	b.hi	10f
	add	x25,x8,x2
	ldur	x21,[x29,#-192]
	cmp	x8,x25
	b.hs	11f
12:
	add	x0,x21,x8
	mov	w1,wzr
	bl	memset
11:
	stp	x25,x22,[x29,#-184]
	mov	x25,#2808348672
	ldr	x1,[sp,#144]
	movk	x25,#46771,lsl #32
	movk	x25,#3552,lsl #48
	cmp	x19,#16
	b.hs	13f
	b	14f
3:
	cbz	x8,3f
	sub	x19,x8,#1
	ldrb	w9,[x23,x19]
	cmp	w9,#13
	b.eq	15f
3:
	mov	x19,x8
15:
	add	x8,x8,#1
	add	x9,x23,x8
	sub	x27,x27,x8
	str	x9,[sp,#152]
	lsr	x24,x19,#1
	ldur	x8,[x29,#-184]
	cmp	x19,#161
	b.ls	8b
7:
	cmp	x8,#80
	b.hs	3f
	ldur	x19,[x29,#-176]
	mov	w9,#80
	str	x1,[sp,#144]
	sub	x2,x9,x8
	sub	x9,x19,x8
	cmp	x2,x9
	b.hi	7f
	add	x22,x8,x2
	ldur	x21,[x29,#-192]
	cmp	x8,x22
	b.hs	8f
15:
	add	x0,x21,x8
	mov	w1,wzr
	bl	memset
8:
	ldr	x1,[sp,#144]
	mov	x8,x22
	stp	x22,x19,[x29,#-184]
	add	x9,x23,#160
	cmp	x21,x9
	b.lo	16f
	b	17f
9:
	cbz	x24,9f
	ldur	x21,[x29,#-192]
	cmp	x19,#16
	b.lo	14f
13:
	and	x8,x19,#0xfe
	add	x8,x23,x8
	cmp	x21,x8
	b.hs	13f
	add	x8,x21,x24
	cmp	x23,x8
	b.hs	13f
14:
	mov	x8,xzr
14:
	add	x9,x23,x8,lsl #1
	add	x9,x9,#1
18:
	ldurh	w10,[x9,#-1]
	add	x9,x9,#2
	lsr	w11,w10,#6
	and	w10,w10,#0xf0f0f0f
	and	w11,w11,#0x1010101
	add	w11,w11,w11,lsl #3
	add	w10,w11,w10
	add	w10,w10,w10,lsl #12
	lsr	w10,w10,#8
	strb	w10,[x21,x8]
	add	x8,x8,#1
	cmp	x24,x8
	b.ne	18b
	b	18f
3:
	ldur	x21,[x29,#-192]
	add	x9,x23,#160
	cmp	x21,x9
	b.hs	17f
16:
	add	x9,x21,#80
	cmp	x23,x9
	b.hs	17f
	mov	x9,xzr
	add	x10,x23,#1
3:
	ldurh	w11,[x10,#-1]
	add	x10,x10,#2
	lsr	w12,w11,#6
	and	w11,w11,#0xf0f0f0f
	and	w12,w12,#0x1010101
	add	w12,w12,w12,lsl #3
	add	w11,w12,w11
	add	w11,w11,w11,lsl #12
	lsr	w11,w11,#8
	strb	w11,[x21,x9]
	add	x9,x9,#1
	cmp	x9,#80
	b.ne	3b
	ldrb	w10,[x21]
	ubfiz	x9,x10,#2,#4
	tbnz	w10,#4,3f
16:
	add	x9,x9,#12
	cmp	x24,x9
	csel	x24,x24,x9,lo
	cmp	x24,#81
	b.lo	18f
	b	19f
17:
	mov	x9,x23
	mov	w10,#4097
	ld2	{ v0.16b,v1.16b },[x9],#32
	ushll2	v2.8h,v0.16b,#0
	ushll	v3.8h,v0.8b,#0
	shll2	v4.8h,v1.16b,#8
	shll	v0.8h,v1.8b,#8
	movi	v1.16b,#1
	orr	v4.16b,v4.16b,v2.16b
	movi	v2.8h,#9
	orr	v3.16b,v0.16b,v3.16b
	movi	v0.16b,#15
	ushr	v5.8h,v4.8h,#6
	ushr	v6.8h,v3.8h,#6
	and	v4.16b,v4.16b,v0.16b
	and	v7.16b,v3.16b,v0.16b
	and	v5.16b,v5.16b,v1.16b
	and	v3.16b,v6.16b,v1.16b
	mla	v4.8h,v5.8h,v2.8h
	mla	v7.8h,v3.8h,v2.8h
	dup	v3.8h,w10
	mul	v4.8h,v4.8h,v3.8h
	mul	v5.8h,v7.8h,v3.8h
	uzp2	v4.16b,v5.16b,v4.16b
	str	q4,[x21]
	ld2	{ v4.16b,v5.16b },[x9]
	add	x9,x23,#64
	ushll2	v6.8h,v4.16b,#0
	ushll	v7.8h,v4.8b,#0
	shll2	v16.8h,v5.16b,#8
	shll	v4.8h,v5.8b,#8
	orr	v5.16b,v16.16b,v6.16b
	orr	v4.16b,v4.16b,v7.16b
	ushr	v6.8h,v5.8h,#6
	and	v5.16b,v5.16b,v0.16b
	ushr	v7.8h,v4.8h,#6
	and	v4.16b,v4.16b,v0.16b
	and	v6.16b,v6.16b,v1.16b
	and	v7.16b,v7.16b,v1.16b
	mla	v5.8h,v6.8h,v2.8h
	mla	v4.8h,v7.8h,v2.8h
	mul	v5.8h,v5.8h,v3.8h
	mul	v4.8h,v4.8h,v3.8h
	uzp2	v4.16b,v4.16b,v5.16b
	str	q4,[x21,#16]
	ld2	{ v4.16b,v5.16b },[x9]
	add	x9,x23,#96
	ushll2	v6.8h,v4.16b,#0
	ushll	v7.8h,v4.8b,#0
	shll2	v16.8h,v5.16b,#8
	shll	v4.8h,v5.8b,#8
	orr	v5.16b,v16.16b,v6.16b
	orr	v4.16b,v4.16b,v7.16b
	ushr	v6.8h,v5.8h,#6
	and	v5.16b,v5.16b,v0.16b
	ushr	v7.8h,v4.8h,#6
	and	v4.16b,v4.16b,v0.16b
	and	v6.16b,v6.16b,v1.16b
	and	v7.16b,v7.16b,v1.16b
	mla	v5.8h,v6.8h,v2.8h
	mla	v4.8h,v7.8h,v2.8h
	mul	v5.8h,v5.8h,v3.8h
	mul	v4.8h,v4.8h,v3.8h
	uzp2	v4.16b,v4.16b,v5.16b
	str	q4,[x21,#32]
	ld2	{ v4.16b,v5.16b },[x9]
	add	x9,x23,#128
	ushll2	v6.8h,v4.16b,#0
	ushll	v7.8h,v4.8b,#0
	shll2	v16.8h,v5.16b,#8
	shll	v4.8h,v5.8b,#8
	orr	v5.16b,v16.16b,v6.16b
	orr	v4.16b,v4.16b,v7.16b
	ushr	v6.8h,v5.8h,#6
	and	v5.16b,v5.16b,v0.16b
	ushr	v7.8h,v4.8h,#6
	and	v4.16b,v4.16b,v0.16b
	and	v6.16b,v6.16b,v1.16b
	and	v7.16b,v7.16b,v1.16b
	mla	v5.8h,v6.8h,v2.8h
	mla	v4.8h,v7.8h,v2.8h
	mul	v5.8h,v5.8h,v3.8h
	mul	v4.8h,v4.8h,v3.8h
	uzp2	v4.16b,v4.16b,v5.16b
	str	q4,[x21,#48]
	ld2	{ v4.16b,v5.16b },[x9]
	ushll2	v6.8h,v4.16b,#0
	ushll	v7.8h,v4.8b,#0
	shll2	v16.8h,v5.16b,#8
	shll	v4.8h,v5.8b,#8
	orr	v5.16b,v16.16b,v6.16b
	orr	v4.16b,v4.16b,v7.16b
	ushr	v6.8h,v5.8h,#6
	and	v5.16b,v5.16b,v0.16b
	ushr	v7.8h,v4.8h,#6
	and	v0.16b,v4.16b,v0.16b
	and	v4.16b,v7.16b,v1.16b
	and	v1.16b,v6.16b,v1.16b
	mla	v0.8h,v4.8h,v2.8h
	mla	v5.8h,v1.8h,v2.8h
	mul	v1.8h,v5.8h,v3.8h
	mul	v0.8h,v0.8h,v3.8h
	uzp2	v0.16b,v0.16b,v1.16b
	str	q0,[x21,#64]
	ldrb	w10,[x21]
	ubfiz	x9,x10,#2,#4
	tbz	w10,#4,16b
3:
	add	x10,x21,x9
	ldrb	w11,[x10,#14]
	ldrb	w10,[x10,#15]
	lsl	x11,x11,#10
	orr	x10,x11,x10,lsl #2
	add	x9,x9,x10
	add	x9,x9,#16
	cmp	x24,x9
	csel	x24,x24,x9,lo
	cmp	x24,#81
	b.lo	18f
19:
	subs	x2,x24,x8
	b.ls	3f
	ldur	x19,[x29,#-176]
	str	x1,[sp,#144]
	sub	x9,x19,x8
	cmp	x2,x9
	b.hi	16f
	add	x22,x8,x2
	cmp	x8,x22
	b.hs	17f
19:
	add	x0,x21,x8
	mov	w1,wzr
	bl	memset
17:
	ldr	x1,[sp,#144]
	stp	x21,x22,[x29,#-192]
	stur	x19,[x29,#-176]
3:
	sub	x8,x24,#80
	cmp	x8,#8
	b.lo	3f
	add	x9,x23,x24,lsl #1
	add	x10,x21,#80
	add	x11,x21,x24
	add	x12,x23,#160
	cmp	x10,x9
	ccmp	x12,x11,#2,lo
	b.lo	3f
	cmp	x8,#16
	b.hs	20f
	mov	x9,xzr
21:
	add	x13,x23,x9,lsl #1
	and	x11,x8,#0xfffffffffffffff8
	add	x12,x21,x9
	add	x10,x11,#80
	sub	x9,x9,x11
	add	x12,x12,#80
	add	x13,x13,#160
22:
	ld2	{ v0.8b,v1.8b },[x13],#16
	movi	v4.8h,#9
	mov	w14,#4097
	adds	x9,x9,#8
	ushll	v2.8h,v0.8b,#0
	shll	v0.8h,v1.8b,#8
	movi	v1.16b,#15
	orr	v0.16b,v0.16b,v2.16b
	movi	v2.16b,#1
	ushr	v3.8h,v0.8h,#6
	and	v0.16b,v0.16b,v1.16b
	and	v1.16b,v3.16b,v2.16b
	mla	v0.8h,v1.8h,v4.8h
	dup	v1.8h,w14
	mul	v0.8h,v0.8h,v1.8h
	shrn	v0.8b,v0.8h,#8
	str	d0,[x12],#8
	b.ne	22b
	cmp	x8,x11
	b.ne	22f
	b	23f
3:
	mov	w10,#80
22:
	add	x11,x23,x10,lsl #1
	sub	x8,x24,x10
	add	x9,x21,x10
	add	x10,x11,#1
3:
	ldurh	w11,[x10,#-1]
	subs	x8,x8,#1
	add	x10,x10,#2
	lsr	w12,w11,#6
	and	w11,w11,#0xf0f0f0f
	and	w12,w12,#0x1010101
	add	w12,w12,w12,lsl #3
	add	w11,w12,w11
	add	w11,w11,w11,lsl #12
	lsr	w11,w11,#8
	strb	w11,[x9],#1
	b.ne	3b
23:
	ldur	x21,[x29,#-192]
	b	3f
13:
	cmp	x19,#32
	b.hs	13f
	mov	x8,xzr
24:
	add	x10,x23,x8,lsl #1
	mov	x9,x8
	and	x8,x24,#0x78
25:
	ld2	{ v0.8b,v1.8b },[x10],#16
	movi	v4.8h,#9
	mov	w11,#4097
	ushll	v2.8h,v0.8b,#0
	shll	v0.8h,v1.8b,#8
	movi	v1.16b,#15
	orr	v0.16b,v0.16b,v2.16b
	movi	v2.16b,#1
	ushr	v3.8h,v0.8h,#6
	and	v0.16b,v0.16b,v1.16b
	and	v1.16b,v3.16b,v2.16b
	mla	v0.8h,v1.8h,v4.8h
	dup	v1.8h,w11
	mul	v0.8h,v0.8h,v1.8h
	shrn	v0.8b,v0.8h,#8
	str	d0,[x21,x9]
	add	x9,x9,#8
	cmp	x8,x9
	b.ne	25b
	cmp	x24,x8
	b.ne	14b
	b	18f
9:
	mov	w8,wzr
	mov	w23,wzr
	mov	x2,xzr
	b	9f
13:
	mov	x9,xzr
	and	x8,x24,#0x70
	mov	x10,x23
13:
	ld2	{ v0.16b,v1.16b },[x10],#32
	movi	v6.8h,#9
	mov	w11,#4097
	ushll2	v2.8h,v0.16b,#0
	ushll	v3.8h,v0.8b,#0
	shll2	v4.8h,v1.16b,#8
	shll	v0.8h,v1.8b,#8
	orr	v1.16b,v4.16b,v2.16b
	movi	v2.16b,#15
	orr	v0.16b,v0.16b,v3.16b
	movi	v3.16b,#1
	ushr	v4.8h,v1.8h,#6
	ushr	v5.8h,v0.8h,#6
	and	v1.16b,v1.16b,v2.16b
	and	v0.16b,v0.16b,v2.16b
	and	v2.16b,v5.16b,v3.16b
	and	v3.16b,v4.16b,v3.16b
	mla	v0.8h,v2.8h,v6.8h
	mla	v1.8h,v3.8h,v6.8h
	dup	v2.8h,w11
	mul	v1.8h,v1.8h,v2.8h
	mul	v0.8h,v0.8h,v2.8h
	uzp2	v0.16b,v0.16b,v1.16b
	str	q0,[x21,x9]
	add	x9,x9,#16
	cmp	x8,x9
	b.ne	13b
	cmp	x24,x8
	b.ne	13f
18:
	cmp	x24,#12
	b.lo	18f
3:
	ldrsb	w8,[x21]
	cmn	w8,#65
	b.gt	18f
	and	x22,x8,#0xff
	ubfiz	x8,x22,#2,#4
	add	x19,x8,#12
	subs	x8,x24,x19
	b.hs	3f
18:
	mov	w21,#57600
	mov	w8,wzr
	mov	w23,wzr
	mov	x2,xzr
	movk	w21,#1525,lsl #16
9:
	mov	w10,#25963
	add	x9,x20,x1
	add	x26,x26,#1
	movk	w10,#8308,lsl #16
	lsr	x24,x26,#4
	cmp	x26,x21
	stur	w10,[x9,#3]
	mov	w10,#24944
	movk	w10,#27491,lsl #16
	str	w10,[x9]
	add	x9,x1,#7
	b.hs	25f
	cmp	x24,#624
	b.hi	26f
	cmp	x26,#99
	b.hi	27f
	cmp	x26,#9
	b.hi	28f
	orr	w10,w26,#0x30
	strb	w10,[x20,x9]
	add	x9,x1,#8
	add	x10,x20,x9
	tbz	w8,#0,29f
	b	30f
25:
	mov	x10,#1874919424
	movk	x10,#34546,lsl #32
	movk	x10,#35,lsl #48
	cmp	x26,x10
	b.hs	25f
	mov	x10,#52989
	mov	x11,#4096
	movk	x10,#33889,lsl #16
	movk	x11,#54437,lsl #16
	movk	x10,#30481,lsl #32
	movk	x11,#232,lsl #32
	movk	x10,#43980,lsl #48
	cmp	x26,x11
	umulh	x10,x26,x10
	lsr	x10,x10,#26
	b.hs	31f
	mov	x11,#58368
	movk	x11,#21515,lsl #16
	movk	x11,#2,lsl #32
	cmp	x26,x11
	b.hs	32f
	mov	w11,#51712
	movk	w11,#15258,lsl #16
	cmp	x26,x11
	b.hs	33f
	orr	w11,w10,#0x30
	strb	w11,[x20,x9]
	add	x9,x1,#8
	b	34f
26:
	mov	w10,#5977
	mov	w11,#16960
	movk	w10,#53687,lsl #16
	movk	w11,#15,lsl #16
	umull	x10,w26,w10
	cmp	x26,x11
	lsr	x10,x10,#45
	b.hs	26f
	mov	w11,#34464
	movk	w11,#1,lsl #16
	cmp	x26,x11
	b.hs	35f
	orr	w11,w10,#0x30
	strb	w11,[x20,x9]
	add	x9,x1,#8
	b	36f
25:
	mov	x10,#30807
	cmp	x26,x25
	movk	x10,#45331,lsl #16
	movk	x10,#25903,lsl #32
	movk	x10,#14757,lsl #48
	umulh	x10,x26,x10
	lsr	x11,x10,#51
	adrp	x10,.Lrtp_static.42
	add	x10,x10,:lo12:.Lrtp_static.42
	b.hs	25f
	mov	x12,#1569325056
	movk	x12,#17784,lsl #32
	movk	x12,#355,lsl #48
	cmp	x26,x12
	b.hs	37f
	orr	w11,w11,#0x30
	strb	w11,[x20,x9]
	add	x9,x1,#8
	b	38f
3:
	tbnz	w22,#4,3f
	mov	w12,wzr
39:
	ldrb	w8,[sp,#448]
	str	w12,[sp,#112]
	str	x26,[sp,#128]
	cmp	w8,#1
	str	x1,[sp,#144]
	b.ne	40f
	movi	v0.2d,#0000000000000000
	ldp	x23,x24,[sp,#464]
	ldr	x8,[sp,#80]
	ldr	x9,[sp,#480]
	stp	x22,x19,[sp,#96]
	str	x9,[sp,#64]
	stp	q0,q0,[x8]
	str	xzr,[x8,#32]
	cbz	x24,41f
	mov	x22,xzr
	b	42f
43:
	add	x22,x22,#1
	cmp	x22,x24
	b.eq	41f
42:
	mov	w8,#24
	madd	x8,x22,x8,x23
	ldp	x25,x28,[x8]
	ldr	x26,[x8,#16]
	cbz	x28,42f
	add	x19,x25,#16
	b	44f
45:
	subs	x28,x28,#1
	add	x19,x19,#32
	b.eq	42f
44:
	ldr	x8,[x19]
	cbz	x8,45b
	ldur	x0,[x19,#-16]
	bl	rattle_dealloc
	b	45b
42:
	cbz	x26,43b
	mov	x0,x25
	bl	rattle_dealloc
	b	43b
27:
	ubfx	w10,w26,#2,#14
	mov	w11,#5243
	cmp	x26,#999
	mul	w10,w10,w11
	lsr	w10,w10,#17
	b.hi	27f
	orr	w11,w10,#0x30
	strb	w11,[x20,x9]
	add	x9,x1,#8
	b	42f
31:
	mov	w11,#5977
	mov	x12,#16384
	movk	w11,#53687,lsl #16
	movk	x12,#4218,lsl #16
	umull	x11,w10,w11
	movk	x12,#23283,lsl #32
	cmp	x26,x12
	lsr	x11,x11,#45
	b.hs	31f
	mov	x12,#40960
	movk	x12,#20082,lsl #16
	movk	x12,#2328,lsl #32
	cmp	x26,x12
	b.hs	43f
	orr	w12,w11,#0x30
	strb	w12,[x20,x9]
	add	x9,x1,#8
	b	44f
26:
	ubfx	w11,w10,#2,#14
	mov	w12,#5243
	mul	w11,w11,w12
	mov	w12,#38528
	movk	w12,#152,lsl #16
	cmp	x26,x12
	lsr	w11,w11,#17
	b.hs	26f
	orr	w12,w11,#0x30
	strb	w12,[x20,x9]
	add	x9,x1,#8
	b	45f
25:
	ubfx	w12,w11,#2,#14
	mov	w13,#5243
	mul	w12,w12,w13
	mov	x13,#2313682944
	movk	x13,#8964,lsl #32
	movk	x13,#35527,lsl #48
	lsr	w12,w12,#17
	cmp	x26,x13
	b.hs	25f
	orr	w13,w12,#0x30
	strb	w13,[x20,x9]
	add	x9,x1,#8
	b	46f
3:
	subs	x10,x8,#4
	b.lo	18b
	add	x9,x21,x19
	ldrb	w8,[x9,#2]
	ldrb	w11,[x9,#3]
	lsl	x8,x8,#10
	orr	x8,x8,x11,lsl #2
	cmp	x10,x8
	b.lo	18b
	ldrh	w10,[x9]
	mov	w11,#57022
	add	x8,x19,x8
	add	x19,x8,#4
	and	w9,w10,#0xfffff0ff
	cmp	w9,#16
	cset	w12,eq
	cmp	w10,w11
	b.eq	39b
	cmp	w9,#16
	b.ne	18b
	b	39b
28:
	adrp	x10,.Lrtp_static.42
	add	x10,x10,:lo12:.Lrtp_static.42
	ldrh	w10,[x10,x26,lsl #1]
	strh	w10,[x20,x9]
	add	x9,x1,#9
	add	x10,x20,x9
	tbz	w8,#0,29f
	b	30f
32:
	ubfx	w11,w10,#2,#14
	mov	w12,#5243
	mul	w11,w11,w12
	mov	x12,#59392
	movk	x12,#18550,lsl #16
	movk	x12,#23,lsl #32
	lsr	w11,w11,#17
	cmp	x26,x12
	b.hs	3f
	orr	w11,w11,#0x30
	strb	w11,[x20,x9]
	add	x9,x1,#8
	b	18f
35:
	adrp	x11,.Lrtp_static.42
	add	x11,x11,:lo12:.Lrtp_static.42
	ldrh	w11,[x11,w10,uxtw #1]
	strh	w11,[x20,x9]
	add	x9,x1,#9
	b	36f
37:
	ldrh	w11,[x10,x11,lsl #1]
	strh	w11,[x20,x9]
	add	x9,x1,#9
	b	38f
27:
	adrp	x11,.Lrtp_static.42
	add	x11,x11,:lo12:.Lrtp_static.42
	ldrh	w11,[x11,w10,uxtw #1]
	strh	w11,[x20,x9]
	add	x9,x1,#9
42:
	mov	w11,#100
	msub	w10,w10,w11,w26
	adrp	x11,.Lrtp_static.42
	add	x11,x11,:lo12:.Lrtp_static.42
	and	x10,x10,#0xffff
	ldrh	w10,[x11,x10,lsl #1]
	strh	w10,[x20,x9]
	add	x9,x9,#2
	add	x10,x20,x9
	tbz	w8,#0,29f
	b	30f
31:
	ubfx	w12,w11,#2,#14
	mov	w13,#5243
	mul	w12,w12,w13
	mov	x13,#1125899906809856
	movk	x13,#42182,lsl #16
	movk	x13,#36222,lsl #32
	lsr	w12,w12,#17
	cmp	x26,x13
	b.hs	27f
	orr	w13,w12,#0x30
	strb	w13,[x20,x9]
	add	x9,x1,#8
	b	28f
26:
	adrp	x12,.Lrtp_static.42
	add	x12,x12,:lo12:.Lrtp_static.42
	ldrh	w12,[x12,w11,uxtw #1]
	strh	w12,[x20,x9]
	add	x9,x1,#9
45:
	mov	w12,#100
	msub	w11,w11,w12,w10
	adrp	x12,.Lrtp_static.42
	add	x12,x12,:lo12:.Lrtp_static.42
	and	x11,x11,#0xffff
	ldrh	w11,[x12,x11,lsl #1]
	strh	w11,[x20,x9]
	add	x9,x9,#2
36:
	mov	w11,#10000
	mov	w12,#5243
	add	x13,x20,x9
	msub	w10,w10,w11,w26
	add	x9,x9,#4
	ubfx	w11,w10,#2,#14
	mul	w11,w11,w12
	mov	w12,#100
	lsr	w11,w11,#17
	msub	w10,w11,w12,w10
	adrp	x12,.Lrtp_static.42
	add	x12,x12,:lo12:.Lrtp_static.42
	ldrh	w11,[x12,w11,uxtw #1]
	strh	w11,[x13]
	and	x10,x10,#0xffff
	ldrh	w10,[x12,x10,lsl #1]
	strh	w10,[x13,#2]
	add	x10,x20,x9
	tbnz	w8,#0,30f
29:
	adrp	x11,.Lrtp_static.40
	add	x11,x11,:lo12:.Lrtp_static.40
	mov	w8,#25185
	ldr	x11,[x11]
	movk	w8,#25964,lsl #16
	str	w8,[x10,#8]
	add	x8,x9,#12
	str	x11,[x10]
	b	26f
25:
	ldrh	w13,[x10,w12,uxtw #1]
	strh	w13,[x20,x9]
	add	x9,x1,#9
46:
	mov	w13,#100
	msub	w11,w12,w13,w11
	and	x11,x11,#0xffff
	ldrh	w11,[x10,x11,lsl #1]
	strh	w11,[x20,x9]
	add	x9,x9,#2
38:
	mov	x11,#52989
	mov	x12,#35011
	mov	w13,#57600
	movk	x11,#33889,lsl #16
	movk	x12,#58939,lsl #16
	movk	w13,#1525,lsl #16
	movk	x11,#30481,lsl #32
	movk	x12,#85,lsl #32
	mov	w14,#5977
	movk	x11,#43980,lsl #48
	movk	w14,#53687,lsl #16
	mov	w16,#5243
	umulh	x11,x26,x11
	mov	w17,#10000
	mov	w18,#100
	lsr	x11,x11,#26
	umulh	x12,x11,x12
	lsr	x12,x12,#1
	umsubl	x12,w12,w13,x11
	msub	x11,x11,x13,x26
	mov	w15,w12
	umull	x15,w15,w14
	mov	w0,w11
	lsr	x15,x15,#45
	umull	x14,w0,w14
	ubfx	w13,w15,#2,#14
	msub	w12,w15,w17,w12
	lsr	x14,x14,#45
	mul	w13,w13,w16
	ubfx	w1,w12,#2,#14
	msub	w11,w14,w17,w11
	lsr	w13,w13,#17
	mul	w0,w1,w16
	add	x1,x20,x9
	add	x9,x9,#16
	msub	w15,w13,w18,w15
	ldrh	w13,[x10,w13,uxtw #1]
	strh	w13,[x1]
	and	x13,x15,#0xffff
	lsr	w15,w0,#17
	ubfx	w0,w14,#2,#14
	ldrh	w13,[x10,x13,lsl #1]
	msub	w12,w15,w18,w12
	strh	w13,[x1,#2]
	ldrh	w13,[x10,w15,uxtw #1]
	mul	w15,w0,w16
	and	x12,x12,#0xffff
	strh	w13,[x1,#4]
	ldrh	w12,[x10,x12,lsl #1]
	lsr	w13,w15,#17
	ubfx	w15,w11,#2,#14
	strh	w12,[x1,#6]
	msub	w12,w13,w18,w14
	ldrh	w13,[x10,w13,uxtw #1]
	mul	w14,w15,w16
	strh	w13,[x1,#8]
	and	x12,x12,#0xffff
	ldrh	w12,[x10,x12,lsl #1]
	lsr	w13,w14,#17
	strh	w12,[x1,#10]
	msub	w11,w13,w18,w11
	ldrh	w12,[x10,w13,uxtw #1]
	strh	w12,[x1,#12]
	and	x11,x11,#0xffff
	ldrh	w10,[x10,x11,lsl #1]
	strh	w10,[x1,#14]
	add	x10,x20,x9
	tbnz	w8,#0,30f
	b	29b
40:
	movi	v0.2d,#0000000000000000
	ldr	x8,[sp,#120]
	str	xzr,[x8,#208]
	stp	q0,q0,[x8,#16]
	stp	q0,q0,[x8,#48]
	stp	q0,q0,[x8,#80]
	stp	q0,q0,[x8,#112]
	stp	q0,q0,[x8,#144]
	stp	q0,q0,[x8,#176]
	str	q0,[x8]
	b	25f
41:
	ldr	x8,[sp,#64]
	cbz	x8,31f
	mov	x0,x23
	bl	rattle_dealloc
31:
	movi	v0.2d,#0000000000000000
	ldrb	w8,[sp,#448]
	mov	x25,#2808348672
	ldp	x23,x24,[sp,#464]
	ldp	x9,x26,[sp,#120]
	ldp	x22,x19,[sp,#96]
	movk	x25,#46771,lsl #32
	ldr	x10,[sp,#480]
	cmp	w8,#1
	add	x28,sp,#184
	movk	x25,#3552,lsl #48
	stp	q0,q0,[x9]
	stp	q0,q0,[x9,#32]
	stp	q0,q0,[x9,#64]
	stp	q0,q0,[x9,#96]
	stp	q0,q0,[x9,#128]
	stp	q0,q0,[x9,#160]
	str	x10,[sp,#64]
	str	q0,[x9,#192]
	str	xzr,[x9,#208]
	b.ne	25f
	cbz	x24,31f
	mov	x22,xzr
	b	32f
35:
	add	x22,x22,#1
	cmp	x22,x24
	b.eq	31f
32:
	mov	w8,#24
	madd	x8,x22,x8,x23
	ldp	x25,x28,[x8]
	ldr	x26,[x8,#16]
	cbz	x28,32f
	add	x19,x25,#16
	b	36f
37:
	subs	x28,x28,#1
	add	x19,x19,#32
	b.eq	32f
36:
	ldr	x8,[x19]
	cbz	x8,37b
	ldur	x0,[x19,#-16]
	bl	rattle_dealloc
	b	37b
32:
	cbz	x26,35b
	mov	x0,x25
	bl	rattle_dealloc
	b	35b
20:
	and	x9,x8,#0xfffffffffffffff0
	add	x10,x21,#80
	add	x11,x23,#160
	and	x12,x8,#0xfffffffffffffff0
20:
	ld2	{ v0.16b,v1.16b },[x11],#32
	movi	v6.8h,#9
	mov	w13,#4097
	subs	x12,x12,#16
	ushll2	v2.8h,v0.16b,#0
	ushll	v3.8h,v0.8b,#0
	shll2	v4.8h,v1.16b,#8
	shll	v0.8h,v1.8b,#8
	orr	v1.16b,v4.16b,v2.16b
	movi	v2.16b,#15
	orr	v0.16b,v0.16b,v3.16b
	movi	v3.16b,#1
	ushr	v4.8h,v1.8h,#6
	ushr	v5.8h,v0.8h,#6
	and	v1.16b,v1.16b,v2.16b
	and	v0.16b,v0.16b,v2.16b
	and	v2.16b,v5.16b,v3.16b
	and	v3.16b,v4.16b,v3.16b
	mla	v0.8h,v2.8h,v6.8h
	mla	v1.8h,v3.8h,v6.8h
	dup	v2.8h,w13
	mul	v1.8h,v1.8h,v2.8h
	mul	v0.8h,v0.8h,v2.8h
	uzp2	v0.16b,v0.16b,v1.16b
	str	q0,[x10],#16
	b.ne	20b
	cmp	x8,x9
	b.eq	23b
	tbnz	w24,#3,21b
	add	x10,x9,#80
	b	22b
33:
	adrp	x11,.Lrtp_static.42
	add	x11,x11,:lo12:.Lrtp_static.42
	ldrh	w11,[x11,x10,lsl #1]
	strh	w11,[x20,x9]
	add	x9,x1,#9
	b	34f
43:
	adrp	x12,.Lrtp_static.42
	add	x12,x12,:lo12:.Lrtp_static.42
	ldrh	w12,[x12,w11,uxtw #1]
	strh	w12,[x20,x9]
	add	x9,x1,#9
	b	44f
3:
	adrp	x12,.Lrtp_static.42
	add	x12,x12,:lo12:.Lrtp_static.42
	ldrh	w11,[x12,w11,uxtw #1]
	strh	w11,[x20,x9]
	add	x9,x1,#9
18:
	mov	w11,#34079
	mov	w12,#100
	movk	w11,#20971,lsl #16
	umull	x11,w10,w11
	lsr	x11,x11,#37
	msub	w11,w11,w12,w10
	adrp	x12,.Lrtp_static.42
	add	x12,x12,:lo12:.Lrtp_static.42
	ldrh	w11,[x12,w11,uxtw #1]
	strh	w11,[x20,x9]
	add	x9,x9,#2
	b	34f
27:
	adrp	x13,.Lrtp_static.42
	add	x13,x13,:lo12:.Lrtp_static.42
	ldrh	w13,[x13,w12,uxtw #1]
	strh	w13,[x20,x9]
	add	x9,x1,#9
28:
	mov	w13,#100
	msub	w12,w12,w13,w11
	adrp	x13,.Lrtp_static.42
	add	x13,x13,:lo12:.Lrtp_static.42
	and	x12,x12,#0xffff
	ldrh	w12,[x13,x12,lsl #1]
	strh	w12,[x20,x9]
	add	x9,x9,#2
44:
	mov	w12,#10000
	mov	w13,#5243
	add	x14,x20,x9
	msub	w11,w11,w12,w10
	add	x9,x9,#4
	ubfx	w12,w11,#2,#14
	mul	w12,w12,w13
	mov	w13,#100
	lsr	w12,w12,#17
	msub	w11,w12,w13,w11
	adrp	x13,.Lrtp_static.42
	add	x13,x13,:lo12:.Lrtp_static.42
	ldrh	w12,[x13,w12,uxtw #1]
	strh	w12,[x14]
	and	x11,x11,#0xffff
	ldrh	w11,[x13,x11,lsl #1]
	strh	w11,[x14,#2]
34:
	mov	w11,#57600
	mov	w12,#5977
	mov	w13,#5243
	movk	w11,#1525,lsl #16
	movk	w12,#53687,lsl #16
	mov	w14,#10000
	msub	x10,x10,x11,x26
	adrp	x16,.Lrtp_static.42
	add	x16,x16,:lo12:.Lrtp_static.42
	mov	w11,w10
	umull	x11,w11,w12
	lsr	x11,x11,#45
	ubfx	w12,w11,#2,#14
	msub	w10,w11,w14,w10
	mov	w14,#100
	mul	w12,w12,w13
	ubfx	w15,w10,#2,#14
	lsr	w12,w12,#17
	mul	w13,w15,w13
	add	x15,x20,x9
	add	x9,x9,#8
	msub	w11,w12,w14,w11
	ldrh	w12,[x16,w12,uxtw #1]
	strh	w12,[x15]
	lsr	w12,w13,#17
	and	x11,x11,#0xffff
	ldrh	w11,[x16,x11,lsl #1]
	msub	w10,w12,w14,w10
	strh	w11,[x15,#2]
	ldrh	w11,[x16,w12,uxtw #1]
	and	x10,x10,#0xffff
	strh	w11,[x15,#4]
	ldrh	w10,[x16,x10,lsl #1]
	strh	w10,[x15,#6]
	add	x10,x20,x9
	tbz	w8,#0,29b
30:
	mov	w8,#8250
	mov	w11,#32
	strh	w8,[x10]
	ldrb	w8,[sp,#201]
	strb	w11,[x10,#4]
	mov	w11,#29808
	strh	w11,[x10,#2]
	add	x11,x9,#5
	cmp	x8,#99
	b.hi	3f
	cmp	w8,#9
	b.hi	18f
	orr	w8,w8,#0x30
	strb	w8,[x20,x11]
	add	x8,x9,#6
	b	20f
3:
	and	w12,w8,#0xff
	mov	w13,#41
	mul	w12,w12,w13
	mov	w13,#100
	lsr	w12,w12,#12
	msub	w8,w12,w13,w8
	orr	w12,w12,#0x30
	strb	w12,[x20,x11]
	adrp	x11,.Lrtp_static.42
	add	x11,x11,:lo12:.Lrtp_static.42
	and	x8,x8,#0xff
	ldrh	w8,[x11,x8,lsl #1]
	strh	w8,[x10,#6]
	add	x8,x9,#8
	b	20f
18:
	adrp	x10,.Lrtp_static.42
	add	x10,x10,:lo12:.Lrtp_static.42
	ldrh	w8,[x10,x8,lsl #1]
	strh	w8,[x20,x11]
	add	x8,x9,#7
20:
	ldrh	w9,[sp,#202]
	add	x10,x20,x8
	mov	w12,#32
	strb	w12,[x10,#4]
	mov	w12,#29472
	lsr	w11,w9,#4
	movk	w12,#29029,lsl #16
	str	w12,[x10]
	add	x10,x8,#5
	cmp	w11,#624
	b.hi	3f
	cmp	w9,#99
	b.hi	18f
	cmp	w9,#9
	b.hi	20f
	orr	w9,w9,#0x30
	strb	w9,[x20,x10]
	add	x9,x8,#6
	b	21f
3:
	mov	w12,#839
	mov	w13,#5243
	add	x10,x20,x10
	mul	w11,w11,w12
	mov	w12,#10000
	lsr	w11,w11,#19
	msub	w9,w11,w12,w9
	orr	w11,w11,#0x30
	strb	w11,[x10]
	adrp	x11,.Lrtp_static.42
	add	x11,x11,:lo12:.Lrtp_static.42
	ubfx	w12,w9,#2,#14
	mul	w12,w12,w13
	mov	w13,#100
	lsr	w12,w12,#17
	msub	w9,w12,w13,w9
	ldrh	w12,[x11,w12,uxtw #1]
	sturh	w12,[x10,#1]
	and	x9,x9,#0xffff
	ldrh	w9,[x11,x9,lsl #1]
	sturh	w9,[x10,#3]
	add	x9,x8,#10
	b	21f
18:
	lsr	w11,w9,#2
	mov	w12,#5243
	cmp	w9,#999
	mul	w11,w11,w12
	lsr	w11,w11,#17
	b.hi	3f
	orr	w12,w11,#0x30
	strb	w12,[x20,x10]
	add	x8,x8,#6
	b	18f
20:
	adrp	x11,.Lrtp_static.42
	add	x11,x11,:lo12:.Lrtp_static.42
	ldrh	w9,[x11,x9,lsl #1]
	strh	w9,[x20,x10]
	add	x9,x8,#7
	b	21f
3:
	adrp	x12,.Lrtp_static.42
	add	x12,x12,:lo12:.Lrtp_static.42
	add	x8,x8,#7
	ldrh	w12,[x12,w11,uxtw #1]
	strh	w12,[x20,x10]
18:
	mov	w10,#100
	msub	w9,w11,w10,w9
	adrp	x10,.Lrtp_static.42
	add	x10,x10,:lo12:.Lrtp_static.42
	and	x9,x9,#0xffff
	ldrh	w9,[x10,x9,lsl #1]
	strh	w9,[x20,x8]
	add	x9,x8,#2
21:
	ldr	w8,[sp,#204]
	mov	w10,#29728
	movk	w10,#8307,lsl #16
	str	w10,[x20,x9]
	cmp	w8,w21
	add	x10,x9,#4
	b.hs	3f
	lsr	w11,w8,#4
	cmp	w11,#624
	b.hi	18f
	cmp	w8,#99
	b.hi	20f
	cmp	w8,#9
	b.hi	21f
	orr	w8,w8,#0x30
	strb	w8,[x20,x10]
	add	x9,x9,#5
	b	22f
3:
	mov	w11,#15241
	mov	w12,#51712
	movk	w11,#21990,lsl #16
	movk	w12,#15258,lsl #16
	umull	x11,w8,w11
	cmp	w8,w12
	lsr	x11,x11,#57
	b.hs	3f
	orr	w12,w11,#0x30
	strb	w12,[x20,x10]
	add	x9,x9,#5
	b	23f
18:
	mov	w11,#5977
	mov	w12,#16960
	movk	w11,#53687,lsl #16
	movk	w12,#15,lsl #16
	umull	x11,w8,w11
	cmp	w8,w12
	lsr	x11,x11,#45
	b.hs	18f
	mov	w12,#34464
	movk	w12,#1,lsl #16
	cmp	w8,w12
	b.hs	27f
	orr	w12,w11,#0x30
	strb	w12,[x20,x10]
	add	x9,x9,#5
	b	28f
3:
	adrp	x12,.Lrtp_static.42
	add	x12,x12,:lo12:.Lrtp_static.42
	add	x9,x9,#6
	ldrh	w12,[x12,w11,uxtw #1]
	strh	w12,[x20,x10]
23:
	msub	w8,w11,w21,w8
	mov	w10,#5977
	mov	w12,#5243
	movk	w10,#53687,lsl #16
	mov	w13,#10000
	adrp	x15,.Lrtp_static.42
	add	x15,x15,:lo12:.Lrtp_static.42
	umull	x10,w8,w10
	lsr	x10,x10,#45
	ubfx	w11,w10,#2,#14
	msub	w8,w10,w13,w8
	mov	w13,#100
	mul	w11,w11,w12
	ubfx	w14,w8,#2,#14
	lsr	w11,w11,#17
	mul	w12,w14,w12
	add	x14,x20,x9
	add	x9,x9,#8
	msub	w10,w11,w13,w10
	ldrh	w11,[x15,w11,uxtw #1]
	strh	w11,[x14]
	lsr	w11,w12,#17
	and	x10,x10,#0xffff
	ldrh	w10,[x15,x10,lsl #1]
	msub	w8,w11,w13,w8
	strh	w10,[x14,#2]
	ldrh	w10,[x15,w11,uxtw #1]
	and	x8,x8,#0xffff
	strh	w10,[x14,#4]
	ldrh	w8,[x15,x8,lsl #1]
	strh	w8,[x14,#6]
	b	22f
20:
	ubfx	w11,w8,#2,#14
	mov	w12,#5243
	cmp	w8,#999
	mul	w11,w11,w12
	lsr	w11,w11,#17
	b.hi	3f
	orr	w12,w11,#0x30
	strb	w12,[x20,x10]
	add	x9,x9,#5
	b	20f
18:
	mov	w12,#56963
	mov	w13,#38528
	movk	w12,#17179,lsl #16
	movk	w13,#152,lsl #16
	umull	x12,w8,w12
	cmp	w8,w13
	lsr	x12,x12,#50
	b.hs	18f
	orr	w12,w12,#0x30
	strb	w12,[x20,x10]
	add	x9,x9,#5
	b	23f
21:
	adrp	x11,.Lrtp_static.42
	add	x11,x11,:lo12:.Lrtp_static.42
	add	x9,x9,#6
	ldrh	w8,[x11,x8,lsl #1]
	strh	w8,[x20,x10]
	b	22f
27:
	adrp	x12,.Lrtp_static.42
	add	x12,x12,:lo12:.Lrtp_static.42
	add	x9,x9,#6
	ldrh	w12,[x12,w11,uxtw #1]
	strh	w12,[x20,x10]
	b	28f
3:
	adrp	x12,.Lrtp_static.42
	add	x12,x12,:lo12:.Lrtp_static.42
	add	x9,x9,#6
	ldrh	w12,[x12,w11,uxtw #1]
	strh	w12,[x20,x10]
20:
	mov	w10,#100
	msub	w8,w11,w10,w8
	adrp	x10,.Lrtp_static.42
	add	x10,x10,:lo12:.Lrtp_static.42
	and	x8,x8,#0xffff
	ldrh	w8,[x10,x8,lsl #1]
	strh	w8,[x20,x9]
	add	x9,x9,#2
	b	22f
18:
	adrp	x13,.Lrtp_static.42
	add	x13,x13,:lo12:.Lrtp_static.42
	add	x9,x9,#6
	ldrh	w12,[x13,w12,uxtw #1]
	strh	w12,[x20,x10]
23:
	ubfx	w10,w11,#2,#14
	mov	w12,#5243
	mul	w10,w10,w12
	mov	w12,#100
	lsr	w10,w10,#17
	msub	w10,w10,w12,w11
	adrp	x12,.Lrtp_static.42
	add	x12,x12,:lo12:.Lrtp_static.42
	and	x10,x10,#0xffff
	ldrh	w10,[x12,x10,lsl #1]
	strh	w10,[x20,x9]
	add	x9,x9,#2
28:
	mov	w10,#10000
	add	x12,x20,x9
	add	x9,x9,#4
	msub	w8,w11,w10,w8
	mov	w11,#5243
	ubfx	w10,w8,#2,#14
	mul	w10,w10,w11
	mov	w11,#100
	lsr	w10,w10,#17
	msub	w8,w10,w11,w8
	adrp	x11,.Lrtp_static.42
	add	x11,x11,:lo12:.Lrtp_static.42
	ldrh	w10,[x11,w10,uxtw #1]
	strh	w10,[x12]
	and	x8,x8,#0xffff
	ldrh	w8,[x11,x8,lsl #1]
	strh	w8,[x12,#2]
22:
	add	x10,x20,x9
	mov	w11,#8291
	ldr	w8,[sp,#208]
	strh	w11,[x10,#4]
	mov	w11,#29472
	movk	w11,#29299,lsl #16
	cmp	w8,w21
	str	w11,[x10]
	add	x10,x9,#6
	b.hs	3f
	lsr	w11,w8,#4
	cmp	w11,#624
	b.hi	18f
	cmp	w8,#99
	b.hi	20f
	cmp	w8,#9
	b.hi	21f
	orr	w8,w8,#0x30
	strb	w8,[x20,x10]
	add	x8,x9,#7
	b	22f
3:
	mov	w11,#15241
	mov	w12,w8
	movk	w11,#21990,lsl #16
	umull	x11,w12,w11
	mov	w12,#51712
	movk	w12,#15258,lsl #16
	cmp	w8,w12
	lsr	x11,x11,#57
	b.hs	3f
	orr	w12,w11,#0x30
	strb	w12,[x20,x10]
	add	x9,x9,#7
	b	23f
18:
	mov	w11,#5977
	mov	w12,w8
	movk	w11,#53687,lsl #16
	umull	x11,w12,w11
	mov	w12,#16960
	movk	w12,#15,lsl #16
	cmp	w8,w12
	lsr	x11,x11,#45
	b.hs	18f
	mov	w12,#34464
	movk	w12,#1,lsl #16
	cmp	w8,w12
	b.hs	27f
	orr	w12,w11,#0x30
	strb	w12,[x20,x10]
	add	x9,x9,#7
	b	28f
3:
	adrp	x12,.Lrtp_static.42
	add	x12,x12,:lo12:.Lrtp_static.42
	add	x9,x9,#8
	ldrh	w12,[x12,w11,uxtw #1]
	strh	w12,[x20,x10]
23:
	msub	w8,w11,w21,w8
	mov	w10,#5977
	mov	w12,#5243
	movk	w10,#53687,lsl #16
	mov	w13,#10000
	adrp	x15,.Lrtp_static.42
	add	x15,x15,:lo12:.Lrtp_static.42
	umull	x10,w8,w10
	lsr	x10,x10,#45
	ubfx	w11,w10,#2,#14
	msub	w8,w10,w13,w8
	mov	w13,#100
	mul	w11,w11,w12
	ubfx	w14,w8,#2,#14
	lsr	w11,w11,#17
	mul	w12,w14,w12
	add	x14,x20,x9
	msub	w10,w11,w13,w10
	ldrh	w11,[x15,w11,uxtw #1]
	strh	w11,[x14]
	lsr	w11,w12,#17
	and	x10,x10,#0xffff
	ldrh	w10,[x15,x10,lsl #1]
	msub	w8,w11,w13,w8
	strh	w10,[x14,#2]
	ldrh	w10,[x15,w11,uxtw #1]
	and	x8,x8,#0xffff
	strh	w10,[x14,#4]
	ldrh	w8,[x15,x8,lsl #1]
	strh	w8,[x14,#6]
3:
	add	x8,x9,#8
	b	22f
20:
	ubfx	w11,w8,#2,#14
	mov	w12,#5243
	cmp	w8,#999
	mul	w11,w11,w12
	lsr	w11,w11,#17
	b.hi	20f
	orr	w12,w11,#0x30
	strb	w12,[x20,x10]
	add	x9,x9,#7
	b	23f
18:
	mov	w12,#56963
	mov	w13,#38528
	movk	w12,#17179,lsl #16
	movk	w13,#152,lsl #16
	umull	x12,w8,w12
	cmp	w8,w13
	lsr	x12,x12,#50
	b.hs	18f
	orr	w12,w12,#0x30
	strb	w12,[x20,x10]
	add	x9,x9,#7
	b	29f
21:
	adrp	x11,.Lrtp_static.42
	add	x11,x11,:lo12:.Lrtp_static.42
	ldrh	w8,[x11,x8,lsl #1]
	strh	w8,[x20,x10]
	b	3b
27:
	adrp	x12,.Lrtp_static.42
	add	x12,x12,:lo12:.Lrtp_static.42
	add	x9,x9,#8
	ldrh	w12,[x12,w11,uxtw #1]
	strh	w12,[x20,x10]
	b	28f
20:
	adrp	x12,.Lrtp_static.42
	add	x12,x12,:lo12:.Lrtp_static.42
	add	x9,x9,#8
	ldrh	w12,[x12,w11,uxtw #1]
	strh	w12,[x20,x10]
23:
	mov	w10,#100
	msub	w8,w11,w10,w8
	adrp	x10,.Lrtp_static.42
	add	x10,x10,:lo12:.Lrtp_static.42
	and	x8,x8,#0xffff
	ldrh	w8,[x10,x8,lsl #1]
	strh	w8,[x20,x9]
	add	x8,x9,#2
	b	22f
18:
	adrp	x13,.Lrtp_static.42
	add	x13,x13,:lo12:.Lrtp_static.42
	add	x9,x9,#8
	ldrh	w12,[x13,w12,uxtw #1]
	strh	w12,[x20,x10]
29:
	ubfx	w10,w11,#2,#14
	mov	w12,#5243
	mul	w10,w10,w12
	mov	w12,#100
	lsr	w10,w10,#17
	msub	w10,w10,w12,w11
	adrp	x12,.Lrtp_static.42
	add	x12,x12,:lo12:.Lrtp_static.42
	and	x10,x10,#0xffff
	ldrh	w10,[x12,x10,lsl #1]
	strh	w10,[x20,x9]
	add	x9,x9,#2
28:
	mov	w10,#10000
	add	x12,x20,x9
	msub	w8,w11,w10,w8
	mov	w11,#5243
	ubfx	w10,w8,#2,#14
	mul	w10,w10,w11
	mov	w11,#100
	lsr	w10,w10,#17
	msub	w8,w10,w11,w8
	adrp	x11,.Lrtp_static.42
	add	x11,x11,:lo12:.Lrtp_static.42
	ldrh	w10,[x11,w10,uxtw #1]
	strh	w10,[x12]
	and	x8,x8,#0xffff
	ldrh	w8,[x11,x8,lsl #1]
	strh	w8,[x12,#2]
	add	x8,x9,#4
22:
	mov	x11,#27936
	ldrb	w10,[sp,#200]
	add	x9,x20,x8
	movk	x11,#29281,lsl #16
	movk	x11,#25963,lsl #32
	movk	x11,#8306,lsl #48
	str	x11,[x9],#8
	tbz	w10,#0,3f
	mov	w10,#115
	mov	w11,#25977
	add	x8,x8,#11
	strb	w10,[x9,#2]
	strh	w11,[x9]
	b	18f
3:
	mov	w10,#28526
	add	x8,x8,#10
	strh	w10,[x9]
18:
	adrp	x9,.Lrtp_static.48
	add	x9,x9,:lo12:.Lrtp_static.48
	ldrb	w11,[sp,#185]
	ldr	x10,[x9]
	add	x9,x20,x8
	mov	w12,#32
	strb	w12,[x9,#8]
	str	x10,[x9]
	tbz	w11,#0,3f
	mov	w10,#115
	mov	w11,#25977
	add	x8,x8,#12
	sturb	w10,[x9,#11]
	sturh	w11,[x9,#9]
	b	18f
3:
	mov	w10,#28526
	add	x8,x8,#11
	sturh	w10,[x9,#9]
18:
	adrp	x9,.Lrtp_static.49
	add	x9,x9,:lo12:.Lrtp_static.49
	ldrb	w11,[sp,#186]
	ldr	x10,[x9]
	mov	w12,#28521
	add	x9,x20,x8
	movk	w12,#8302,lsl #16
	str	x10,[x9]
	stur	w12,[x9,#7]
	tbz	w11,#0,3f
	mov	w10,#115
	mov	w11,#25977
	sturb	w10,[x9,#13]
	sturh	w11,[x9,#11]
	add	x9,x8,#14
	b	18f
3:
	mov	w10,#28526
	sturh	w10,[x9,#11]
	add	x9,x8,#13
18:
	add	x10,x20,x9
	mov	w11,#8291
	ldr	x8,[sp,#192]
	strh	w11,[x10,#4]
	mov	w11,#25376
	movk	w11,#29299,lsl #16
	cmp	x8,x21
	str	w11,[x10]
	add	x10,x9,#6
	b.hs	3f
	lsr	x11,x8,#4
	cmp	x11,#624
	b.hi	18f
	cmp	x8,#99
	b.hi	20f
	cmp	x8,#9
	b.hi	21f
	orr	w8,w8,#0x30
	strb	w8,[x20,x10]
	add	x9,x9,#7
	b	22f
3:
	mov	x11,#1874919424
	movk	x11,#34546,lsl #32
	movk	x11,#35,lsl #48
	cmp	x8,x11
	b.hs	3f
	mov	x11,#52989
	mov	x12,#4096
	movk	x11,#33889,lsl #16
	movk	x12,#54437,lsl #16
	movk	x11,#30481,lsl #32
	movk	x12,#232,lsl #32
	movk	x11,#43980,lsl #48
	cmp	x8,x12
	umulh	x11,x8,x11
	lsr	x11,x11,#26
	b.hs	23f
	mov	x12,#58368
	movk	x12,#21515,lsl #16
	movk	x12,#2,lsl #32
	cmp	x8,x12
	b.hs	27f
	mov	w12,#51712
	movk	w12,#15258,lsl #16
	cmp	x8,x12
	b.hs	28f
	orr	w12,w11,#0x30
	strb	w12,[x20,x10]
	add	x9,x9,#7
	b	29f
18:
	mov	w11,#5977
	mov	w12,#16960
	movk	w11,#53687,lsl #16
	movk	w12,#15,lsl #16
	umull	x11,w8,w11
	cmp	x8,x12
	lsr	x11,x11,#45
	b.hs	18f
	mov	w12,#34464
	movk	w12,#1,lsl #16
	cmp	x8,x12
	b.hs	30f
	orr	w12,w11,#0x30
	strb	w12,[x20,x10]
	add	x9,x9,#7
	b	32f
3:
	mov	x11,#30807
	cmp	x8,x25
	movk	x11,#45331,lsl #16
	movk	x11,#25903,lsl #32
	movk	x11,#14757,lsl #48
	umulh	x11,x8,x11
	lsr	x11,x11,#51
	b.hs	3f
	mov	x12,#1569325056
	movk	x12,#17784,lsl #32
	movk	x12,#355,lsl #48
	cmp	x8,x12
	b.hs	33f
	orr	w11,w11,#0x30
	strb	w11,[x20,x10]
	add	x9,x9,#7
	b	34f
20:
	ubfx	w11,w8,#2,#14
	mov	w12,#5243
	cmp	x8,#999
	mul	w11,w11,w12
	lsr	w11,w11,#17
	b.hi	20f
	orr	w12,w11,#0x30
	strb	w12,[x20,x10]
	add	x9,x9,#7
	b	35f
23:
	mov	w12,#5977
	mov	x13,#16384
	movk	w12,#53687,lsl #16
	movk	x13,#4218,lsl #16
	umull	x12,w11,w12
	movk	x13,#23283,lsl #32
	cmp	x8,x13
	lsr	x12,x12,#45
	b.hs	23f
	mov	x13,#40960
	movk	x13,#20082,lsl #16
	movk	x13,#2328,lsl #32
	cmp	x8,x13
	b.hs	36f
	orr	w13,w12,#0x30
	strb	w13,[x20,x10]
	add	x9,x9,#7
	b	37f
18:
	ubfx	w12,w11,#2,#14
	mov	w13,#5243
	mul	w12,w12,w13
	mov	w13,#38528
	movk	w13,#152,lsl #16
	cmp	x8,x13
	lsr	w12,w12,#17
	b.hs	18f
	orr	w13,w12,#0x30
	strb	w13,[x20,x10]
	add	x9,x9,#7
	b	38f
3:
	mov	w12,#1311
	mov	x13,#2313682944
	mul	w12,w11,w12
	movk	x13,#8964,lsl #32
	movk	x13,#35527,lsl #48
	cmp	x8,x13
	lsr	w12,w12,#17
	b.hs	3f
	orr	w13,w12,#0x30
	strb	w13,[x20,x10]
	add	x9,x9,#7
	b	39f
21:
	adrp	x11,.Lrtp_static.42
	add	x11,x11,:lo12:.Lrtp_static.42
	add	x9,x9,#8
	ldrh	w8,[x11,x8,lsl #1]
	strh	w8,[x20,x10]
	b	22f
27:
	ubfx	w12,w11,#2,#14
	mov	w13,#5243
	mul	w12,w12,w13
	mov	x13,#59392
	movk	x13,#18550,lsl #16
	movk	x13,#23,lsl #32
	lsr	w12,w12,#17
	cmp	x8,x13
	b.hs	21f
	orr	w12,w12,#0x30
	strb	w12,[x20,x10]
	add	x9,x9,#7
	b	27f
30:
	adrp	x12,.Lrtp_static.42
	add	x12,x12,:lo12:.Lrtp_static.42
	add	x9,x9,#8
	ldrh	w12,[x12,w11,uxtw #1]
	strh	w12,[x20,x10]
	b	32f
33:
	adrp	x12,.Lrtp_static.42
	add	x12,x12,:lo12:.Lrtp_static.42
	add	x9,x9,#8
	ldrh	w11,[x12,x11,lsl #1]
	strh	w11,[x20,x10]
	b	34f
20:
	adrp	x12,.Lrtp_static.42
	add	x12,x12,:lo12:.Lrtp_static.42
	add	x9,x9,#8
	ldrh	w12,[x12,w11,uxtw #1]
	strh	w12,[x20,x10]
35:
	mov	w10,#100
	msub	w8,w11,w10,w8
	adrp	x10,.Lrtp_static.42
	add	x10,x10,:lo12:.Lrtp_static.42
	and	x8,x8,#0xffff
	ldrh	w8,[x10,x8,lsl #1]
	strh	w8,[x20,x9]
	add	x9,x9,#2
	b	22f
23:
	ubfx	w13,w12,#2,#14
	mov	w14,#5243
	mul	w13,w13,w14
	mov	x14,#1125899906809856
	movk	x14,#42182,lsl #16
	movk	x14,#36222,lsl #32
	lsr	w13,w13,#17
	cmp	x8,x14
	b.hs	20f
	orr	w14,w13,#0x30
	strb	w14,[x20,x10]
	add	x9,x9,#7
	b	23f
18:
	adrp	x13,.Lrtp_static.42
	add	x13,x13,:lo12:.Lrtp_static.42
	add	x9,x9,#8
	ldrh	w13,[x13,w12,uxtw #1]
	strh	w13,[x20,x10]
38:
	mov	w10,#100
	msub	w10,w12,w10,w11
	adrp	x12,.Lrtp_static.42
	add	x12,x12,:lo12:.Lrtp_static.42
	and	x10,x10,#0xffff
	ldrh	w10,[x12,x10,lsl #1]
	strh	w10,[x20,x9]
	add	x9,x9,#2
32:
	mov	w10,#10000
	add	x12,x20,x9
	add	x9,x9,#4
	msub	w8,w11,w10,w8
	mov	w11,#5243
	ubfx	w10,w8,#2,#14
	mul	w10,w10,w11
	mov	w11,#100
	lsr	w10,w10,#17
	msub	w8,w10,w11,w8
	adrp	x11,.Lrtp_static.42
	add	x11,x11,:lo12:.Lrtp_static.42
	ldrh	w10,[x11,w10,uxtw #1]
	strh	w10,[x12]
	and	x8,x8,#0xffff
	ldrh	w8,[x11,x8,lsl #1]
	strh	w8,[x12,#2]
	b	22f
3:
	adrp	x13,.Lrtp_static.42
	add	x13,x13,:lo12:.Lrtp_static.42
	add	x9,x9,#8
	ldrh	w13,[x13,w12,uxtw #1]
	strh	w13,[x20,x10]
39:
	mov	w10,#100
	msub	w10,w12,w10,w11
	adrp	x11,.Lrtp_static.42
	add	x11,x11,:lo12:.Lrtp_static.42
	and	x10,x10,#0xffff
	ldrh	w10,[x11,x10,lsl #1]
	strh	w10,[x20,x9]
	add	x9,x9,#2
34:
	mov	x10,#52989
	mov	w12,#57600
	mov	w15,#10000
	movk	x10,#33889,lsl #16
	movk	w12,#1525,lsl #16
	mov	w16,#5977
	movk	x10,#30481,lsl #32
	movk	w16,#53687,lsl #16
	adrp	x18,.Lrtp_static.42
	add	x18,x18,:lo12:.Lrtp_static.42
	movk	x10,#43980,lsl #48
	add	x0,x20,x9
	umulh	x10,x8,x10
	add	x9,x9,#16
	lsr	x11,x10,#26
	mov	x10,#35011
	movk	x10,#58939,lsl #16
	movk	x10,#85,lsl #32
	msub	w8,w11,w21,w8
	umulh	x10,x11,x10
	umull	x16,w8,w16
	lsr	x10,x10,#1
	umsubl	x12,w10,w12,x11
	mov	w10,#47291
	movk	w10,#1677,lsl #16
	mul	x10,x12,x10
	lsr	x13,x10,#40
	mov	w10,#5243
	mul	w14,w13,w10
	msub	w12,w13,w15,w12
	lsr	w11,w14,#19
	mov	w14,#100
	ubfx	w17,w12,#2,#14
	msub	w13,w11,w14,w13
	ldrh	w11,[x18,w11,uxtw #1]
	mul	w17,w17,w10
	strh	w11,[x0]
	and	x11,x13,#0xffff
	lsr	x13,x16,#45
	ldrh	w11,[x18,x11,lsl #1]
	lsr	w16,w17,#17
	ubfx	w17,w13,#2,#14
	msub	w8,w13,w15,w8
	strh	w11,[x0,#2]
	msub	w11,w16,w14,w12
	ldrh	w12,[x18,w16,uxtw #1]
	mul	w16,w17,w10
	ubfx	w15,w8,#2,#14
	strh	w12,[x0,#4]
	and	x11,x11,#0xffff
	ldrh	w11,[x18,x11,lsl #1]
	lsr	w12,w16,#17
	mul	w10,w15,w10
	strh	w11,[x0,#6]
	msub	w11,w12,w14,w13
	ldrh	w12,[x18,w12,uxtw #1]
	lsr	w10,w10,#17
	strh	w12,[x0,#8]
	and	x11,x11,#0xffff
	msub	w8,w10,w14,w8
	ldrh	w11,[x18,x11,lsl #1]
	strh	w11,[x0,#10]
	and	x8,x8,#0xffff
	ldrh	w10,[x18,w10,uxtw #1]
	strh	w10,[x0,#12]
	ldrh	w8,[x18,x8,lsl #1]
	strh	w8,[x0,#14]
	b	22f
13:
	tbnz	w19,#4,24b
	b	14b
31:
	mov	x25,#2808348672
	ldp	x22,x19,[sp,#96]
	ldr	x26,[sp,#128]
	movk	x25,#46771,lsl #32
	ldr	x8,[sp,#64]
	add	x28,sp,#184
	movk	x25,#3552,lsl #48
	cbz	x8,25f
	mov	x0,x23
	bl	rattle_dealloc
25:
	mov	w8,#2
	movi	v0.2d,#0000000000000000
	ldr	x10,[sp,#136]
	strb	w8,[sp,#184]
	ldrb	w8,[x21]
	ubfx	w8,w8,#5,#1
	strb	w8,[sp,#185]
	ldrb	w8,[x21]
	ubfx	w8,w8,#4,#1
	strb	w8,[sp,#186]
	mov	x8,x21
	ldrb	w9,[x8],#12
	stur	q0,[x10,#44]
	stp	q0,q0,[x10,#16]
	and	x9,x9,#0xf
	str	q0,[x10]
	cbz	w9,3f
	ldr	x10,[sp,#136]
	mov	x11,x9
13:
	ldr	w12,[x8],#4
	subs	x11,x11,#1
	rev	w12,w12
	str	w12,[x10],#4
	b.ne	13b
3:
	str	x9,[sp,#192]
	ldrb	w8,[x21,#1]
	lsr	w8,w8,#7
	strb	w8,[sp,#200]
	ldrb	w8,[x21,#1]
	and	w8,w8,#0x7f
	strb	w8,[sp,#201]
	ldrh	w8,[x21,#2]
	rev	w9,w8
	lsr	w9,w9,#16
	strh	w9,[sp,#202]
	ldr	w9,[x21,#4]
	rev	w9,w9
	str	w9,[sp,#204]
	ldr	w9,[x21,#8]
	str	x19,[sp,#488]
	rev	w23,w9
	str	w23,[sp,#208]
	tbnz	w22,#4,3f
	rev16	w2,w8
	ldp	x8,x22,[x29,#-160]
	mov	w21,#57600
	ldur	x24,[x29,#-112]
	movk	w21,#1525,lsl #16
	cmp	x24,x22
	b.lo	13f
	b	14f
3:
	ldrb	w8,[x21]
	ldr	x0,[sp,#88]
	ldr	w3,[sp,#112]
	ldr	x4,[sp,#120]
	ubfiz	x8,x8,#2,#4
	add	x8,x8,#16
	sub	x2,x19,x8
	add	x1,x21,x8
	bl	"rtp_ext::block_values::read_values::<#77e50c5f4ddfc773>"
	and	w8,w0,#0xff
	tbnz	w8,#0,3f
	mov	x25,#2808348672
	ldr	w23,[sp,#208]
	ldrh	w2,[sp,#202]
	movk	x25,#46771,lsl #32
	movk	x25,#3552,lsl #48
	ldp	x8,x22,[x29,#-160]
	mov	w21,#57600
	ldur	x24,[x29,#-112]
	movk	w21,#1525,lsl #16
	cmp	x24,x22
	b.hs	14f
13:
	lsl	x9,x24,#6
	ldr	w9,[x8,x9]
	cmp	w9,w23
	b.eq	13f
14:
	ldur	x9,[x29,#-96]
	cbz	x9,14f
	mov	w10,#31153
	movk	w10,#40503,lsl #16
	mul	w10,w23,w10
	mul	x10,x9,x10
	lsr	x10,x10,#32
	cmp	x10,x9
	b.hs	18f
	ldur	x9,[x29,#-104]
	dup	v0.4s,w23
	add	x9,x9,x10,lsl #5
	ldr	q1,[x9]
	cmeq	v0.4s,v1.4s,v0.4s
	umaxv	s1,v0.4s
	fmov	w10,s1
	tbz	w10,#0,18f
	adrp	x10,.Lrtp_CPI5_1
	ldr	q1,[x10,:lo12:.Lrtp_CPI5_1]
	and	v0.16b,v0.16b,v1.16b
	addv	s0,v0.4s
	fmov	w10,s0
	rbit	w10,w10
	clz	w10,w10
	and	x10,x10,#0xf
	add	x9,x9,x10,lsl #2
	ldr	w24,[x9,#16]
	cmp	x22,x24
	b.ls	18f
	lsl	x9,x24,#6
	ldr	w9,[x8,x9]
	cmp	w9,w23
	b.ne	18f
24:
	stur	x24,[x29,#-112]
13:
	ldr	x1,[sp,#144]
	add	x9,x8,x24,lsl #6
	ldrb	w8,[x9,#16]
	cbnz	w8,13f
25:
	ldr	x8,[x9,#24]
	adrp	x10,.Lrtp_CPI5_2
	mov	w23,#1
	ldr	q0,[x10,:lo12:.Lrtp_CPI5_2]
	stp	x23,xzr,[x9,#48]
	bfi	x2,x8,#16,#48
	mov	w8,w23
	str	q0,[x9,#16]
	stp	x2,xzr,[x9,#32]
	b	9b
14:
	cmp	x22,#16
	b.hi	18f
	cbz	x22,14f
	mov	x24,xzr
	mov	x9,x8
30:
	ldr	w10,[x9],#64
	cmp	w10,w23
	b.eq	24b
	add	x24,x24,#1
	cmp	x22,x24
	b.ne	30b
	b	14f
18:
	ldurb	w9,[x29,#-136]
	cmp	w9,#1
	b.ne	14f
	sub	x9,x29,#168
	add	x9,x9,#40
	ldr	x9,[x9]
	ldr	x1,[sp,#144]
	mov	x10,xzr
	ldrh	w11,[x9]
	cbz	x11,18f
24:
	add	x12,x9,#64
30:
	add	x13,x12,x10,lsl #2
	ldur	w13,[x13,#-60]
	cmp	w23,w13
	mov	w13,#2
	csel	w13,wzr,w13,lo
	csinc	w13,w13,wzr,ne
	cmp	w13,#2
	b.ne	31f
	add	x10,x10,#1
	cmp	x11,x10
	b.ne	30b
	mov	x10,x11
	b	30f
31:
	cbnz	w13,31f
30:
	lsl	x10,x10,#3
18:
	ldrh	w11,[x9,#2]
	cbz	w11,14f
	add	x9,x9,x10
	add	x9,x9,#184
	ldr	x9,[x9]
	ldr	x1,[sp,#144]
	mov	x10,xzr
	ldrh	w11,[x9]
	cbnz	x11,24b
	b	18b
14:
	ldur	x8,[x29,#-144]
	ldur	x21,[x29,#-168]
	cmp	x8,x22
	b.eq	14f
	ldurb	w8,[x29,#-136]
	cmp	w8,#1
	b.ne	18f
24:
	ldur	x1,[x29,#-128]
	b	30f
31:
	add	x9,x9,x10,lsl #3
	ldur	x10,[x29,#-80]
	ldr	x24,[x9,#64]
	sub	x9,x10,#1
	stur	x9,[x29,#-80]
	stur	x24,[x29,#-112]
	cbz	x10,31f
	add	x9,x8,x24,lsl #6
	ldrb	w8,[x9,#16]
	cbz	w8,25b
13:
	ldr	x8,[x9,#32]
	sub	w10,w2,w8
	add	x2,x8,w10,uxth
	tbnz	w10,#15,32f
	subs	x10,x8,x2
	b.hs	33f
34:
	ldp	x10,x11,[x9,#48]
	sub	x8,x2,x8
	cmp	x8,#1
	b.ne	35f
	mov	w12,#1
	extr	x8,x11,x10,#63
	orr	x10,x12,x10,lsl #1
	b	38f
28:
	adrp	x12,.Lrtp_static.42
	add	x12,x12,:lo12:.Lrtp_static.42
	add	x9,x9,#8
	ldrh	w12,[x12,x11,lsl #1]
	strh	w12,[x20,x10]
	b	29f
36:
	adrp	x13,.Lrtp_static.42
	add	x13,x13,:lo12:.Lrtp_static.42
	add	x9,x9,#8
	ldrh	w13,[x13,w12,uxtw #1]
	strh	w13,[x20,x10]
	b	37f
21:
	adrp	x13,.Lrtp_static.42
	add	x13,x13,:lo12:.Lrtp_static.42
	add	x9,x9,#8
	ldrh	w12,[x13,w12,uxtw #1]
	strh	w12,[x20,x10]
27:
	mov	w10,#34079
	mov	w12,#100
	movk	w10,#20971,lsl #16
	umull	x10,w11,w10
	lsr	x10,x10,#37
	msub	w10,w10,w12,w11
	adrp	x12,.Lrtp_static.42
	add	x12,x12,:lo12:.Lrtp_static.42
	ldrh	w10,[x12,w10,uxtw #1]
	strh	w10,[x20,x9]
	add	x9,x9,#2
	b	29f
20:
	adrp	x14,.Lrtp_static.42
	add	x14,x14,:lo12:.Lrtp_static.42
	add	x9,x9,#8
	ldrh	w14,[x14,w13,uxtw #1]
	strh	w14,[x20,x10]
23:
	mov	w10,#100
	msub	w10,w13,w10,w12
	adrp	x13,.Lrtp_static.42
	add	x13,x13,:lo12:.Lrtp_static.42
	and	x10,x10,#0xffff
	ldrh	w10,[x13,x10,lsl #1]
	strh	w10,[x20,x9]
	add	x9,x9,#2
37:
	mov	w10,#10000
	mov	w13,#5243
	add	x14,x20,x9
	msub	w10,w12,w10,w11
	add	x9,x9,#4
	ubfx	w12,w10,#2,#14
	mul	w12,w12,w13
	mov	w13,#100
	lsr	w12,w12,#17
	msub	w10,w12,w13,w10
	adrp	x13,.Lrtp_static.42
	add	x13,x13,:lo12:.Lrtp_static.42
	ldrh	w12,[x13,w12,uxtw #1]
	strh	w12,[x14]
	and	x10,x10,#0xffff
	ldrh	w10,[x13,x10,lsl #1]
	strh	w10,[x14,#2]
29:
	mov	w10,#57600
	mov	w13,#10000
	adrp	x15,.Lrtp_static.42
	add	x15,x15,:lo12:.Lrtp_static.42
	movk	w10,#1525,lsl #16
	msub	x8,x11,x10,x8
	mov	w10,#47291
	mov	w11,#5243
	movk	w10,#1677,lsl #16
	mul	x10,x8,x10
	lsr	x10,x10,#40
	mul	w12,w10,w11
	msub	w8,w10,w13,w8
	mov	w13,#100
	lsr	w12,w12,#19
	ubfx	w14,w8,#2,#14
	msub	w10,w12,w13,w10
	ldrh	w12,[x15,w12,uxtw #1]
	mul	w11,w14,w11
	add	x14,x20,x9
	add	x9,x9,#8
	strh	w12,[x14]
	and	x10,x10,#0xffff
	ldrh	w10,[x15,x10,lsl #1]
	lsr	w11,w11,#17
	strh	w10,[x14,#2]
	msub	w8,w11,w13,w8
	ldrh	w10,[x15,w11,uxtw #1]
	strh	w10,[x14,#4]
	and	x8,x8,#0xffff
	ldrh	w8,[x15,x8,lsl #1]
	strh	w8,[x14,#6]
22:
	mov	x10,#26656
	ldr	x8,[sp,#488]
	movk	x10,#24933,lsl #16
	movk	x10,#25956,lsl #32
	cmp	x8,x21
	movk	x10,#8306,lsl #48
	str	x10,[x20,x9]
	add	x10,x9,#8
	b.hs	20f
	lsr	x11,x8,#4
	cmp	x11,#624
	b.hi	21f
	cmp	x8,#99
	b.hi	22f
	cmp	x8,#9
	b.hi	23f
	orr	w8,w8,#0x30
	strb	w8,[x20,x10]
	add	x8,x9,#9
	ldrb	w9,[sp,#422]
	cmp	w9,#1
	b.eq	27f
28:
	ldrb	w9,[sp,#404]
	cmp	w9,#1
	b.ne	29f
36:
	ldur	x9,[x28,#221]
	add	x10,x20,x8
	mov	w11,#32
	strb	w11,[x10,#4]
	mov	w11,#29216
	add	x19,x8,#5
	and	x12,x9,#0xff
	movk	w11,#25705,lsl #16
	stur	x9,[x29,#-48]
	cmp	x12,#32
	str	w11,[x10]
	b.ne	37f
	add	x8,xzr,x19
	ldrb	w9,[sp,#413]
	cmp	w9,#1
	b.ne	39f
	b	40f
20:
	mov	x11,#1874919424
	movk	x11,#34546,lsl #32
	movk	x11,#35,lsl #48
	cmp	x8,x11
	b.hs	20f
	mov	x11,#52989
	mov	x12,#4096
	movk	x11,#33889,lsl #16
	movk	x12,#54437,lsl #16
	movk	x11,#30481,lsl #32
	movk	x12,#232,lsl #32
	movk	x11,#43980,lsl #48
	cmp	x8,x12
	umulh	x11,x8,x11
	lsr	x11,x11,#26
	b.hs	41f
	mov	x12,#58368
	movk	x12,#21515,lsl #16
	movk	x12,#2,lsl #32
	cmp	x8,x12
	b.hs	42f
	mov	w12,#51712
	movk	w12,#15258,lsl #16
	cmp	x8,x12
	b.hs	43f
	orr	w12,w11,#0x30
	strb	w12,[x20,x10]
	add	x9,x9,#9
	b	44f
21:
	mov	w11,#5977
	mov	w12,#16960
	movk	w11,#53687,lsl #16
	movk	w12,#15,lsl #16
	umull	x11,w8,w11
	cmp	x8,x12
	lsr	x11,x11,#45
	b.hs	21f
	mov	w12,#34464
	movk	w12,#1,lsl #16
	cmp	x8,x12
	b.hs	45f
	orr	w12,w11,#0x30
	strb	w12,[x20,x10]
	add	x9,x9,#9
	b	46f
37:
	and	x8,x9,#0xff00
	cmp	x8,#2,lsl #12
	b.ne	37f
	mov	x28,x25
	mov	x25,x2
	mov	w22,#1
	b	47f
20:
	mov	x11,#30807
	cmp	x8,x25
	movk	x11,#45331,lsl #16
	movk	x11,#25903,lsl #32
	movk	x11,#14757,lsl #48
	umulh	x11,x8,x11
	lsr	x11,x11,#51
	b.hs	20f
	mov	x12,#1569325056
	movk	x12,#17784,lsl #32
	movk	x12,#355,lsl #48
	cmp	x8,x12
	b.hs	48f
	orr	w11,w11,#0x30
	strb	w11,[x20,x10]
	add	x9,x9,#9
	b	49f
22:
	ubfx	w11,w8,#2,#14
	mov	w12,#5243
	cmp	x8,#999
	mul	w11,w11,w12
	lsr	w11,w11,#17
	b.hi	22f
	orr	w12,w11,#0x30
	strb	w12,[x20,x10]
	add	x9,x9,#9
	b	50f
41:
	mov	w12,#5977
	mov	x13,#16384
	movk	w12,#53687,lsl #16
	movk	x13,#4218,lsl #16
	umull	x12,w11,w12
	movk	x13,#23283,lsl #32
	cmp	x8,x13
	lsr	x12,x12,#45
	b.hs	41f
	mov	x13,#40960
	movk	x13,#20082,lsl #16
	movk	x13,#2328,lsl #32
	cmp	x8,x13
	b.hs	51f
	orr	w13,w12,#0x30
	strb	w13,[x20,x10]
	add	x9,x9,#9
	b	52f
21:
	ubfx	w12,w11,#2,#14
	mov	w13,#5243
	mul	w12,w12,w13
	mov	w13,#38528
	movk	w13,#152,lsl #16
	cmp	x8,x13
	lsr	w12,w12,#17
	b.hs	21f
	orr	w13,w12,#0x30
	strb	w13,[x20,x10]
	add	x9,x9,#9
	b	53f
37:
	and	x8,x9,#0xff0000
	cmp	x8,#512,lsl #12
	b.ne	37f
	mov	x28,x25
	mov	x25,x2
	mov	w22,#2
	b	47f
20:
	mov	w12,#1311
	mov	x13,#2313682944
	mul	w12,w11,w12
	movk	x13,#8964,lsl #32
	movk	x13,#35527,lsl #48
	cmp	x8,x13
	lsr	w12,w12,#17
	b.hs	20f
	orr	w13,w12,#0x30
	strb	w13,[x20,x10]
	add	x9,x9,#9
	b	54f
23:
	adrp	x11,.Lrtp_static.42
	add	x11,x11,:lo12:.Lrtp_static.42
	ldrh	w8,[x11,x8,lsl #1]
	strh	w8,[x20,x10]
	add	x8,x9,#10
	ldrb	w9,[sp,#422]
	cmp	w9,#1
	b.eq	27f
	b	28b
42:
	ubfx	w12,w11,#2,#14
	mov	w13,#5243
	mul	w12,w12,w13
	mov	x13,#59392
	movk	x13,#18550,lsl #16
	movk	x13,#23,lsl #32
	lsr	w12,w12,#17
	cmp	x8,x13
	b.hs	23f
	orr	w12,w12,#0x30
	strb	w12,[x20,x10]
	add	x9,x9,#9
	b	42f
45:
	adrp	x12,.Lrtp_static.42
	add	x12,x12,:lo12:.Lrtp_static.42
	add	x9,x9,#10
	ldrh	w12,[x12,w11,uxtw #1]
	strh	w12,[x20,x10]
	b	46f
48:
	adrp	x12,.Lrtp_static.42
	add	x12,x12,:lo12:.Lrtp_static.42
	add	x9,x9,#10
	ldrh	w11,[x12,x11,lsl #1]
	strh	w11,[x20,x10]
	b	49f
22:
	adrp	x12,.Lrtp_static.42
	add	x12,x12,:lo12:.Lrtp_static.42
	add	x9,x9,#10
	ldrh	w12,[x12,w11,uxtw #1]
	strh	w12,[x20,x10]
50:
	mov	w10,#100
	msub	w8,w11,w10,w8
	adrp	x10,.Lrtp_static.42
	add	x10,x10,:lo12:.Lrtp_static.42
	and	x8,x8,#0xffff
	ldrh	w8,[x10,x8,lsl #1]
	strh	w8,[x20,x9]
	add	x8,x9,#2
	ldrb	w9,[sp,#422]
	cmp	w9,#1
	b.eq	27f
	b	28b
41:
	ubfx	w13,w12,#2,#14
	mov	w14,#5243
	mul	w13,w13,w14
	mov	x14,#1125899906809856
	movk	x14,#42182,lsl #16
	movk	x14,#36222,lsl #32
	lsr	w13,w13,#17
	cmp	x8,x14
	b.hs	22f
	orr	w14,w13,#0x30
	strb	w14,[x20,x10]
	add	x9,x9,#9
	b	41f
21:
	adrp	x13,.Lrtp_static.42
	add	x13,x13,:lo12:.Lrtp_static.42
	add	x9,x9,#10
	ldrh	w13,[x13,w12,uxtw #1]
	strh	w13,[x20,x10]
53:
	mov	w10,#100
	msub	w10,w12,w10,w11
	adrp	x12,.Lrtp_static.42
	add	x12,x12,:lo12:.Lrtp_static.42
	and	x10,x10,#0xffff
	ldrh	w10,[x12,x10,lsl #1]
	strh	w10,[x20,x9]
	add	x9,x9,#2
46:
	mov	w10,#10000
	add	x12,x20,x9
	msub	w8,w11,w10,w8
	mov	w11,#5243
	ubfx	w10,w8,#2,#14
	mul	w10,w10,w11
	mov	w11,#100
	lsr	w10,w10,#17
	msub	w8,w10,w11,w8
	adrp	x11,.Lrtp_static.42
	add	x11,x11,:lo12:.Lrtp_static.42
	ldrh	w10,[x11,w10,uxtw #1]
	strh	w10,[x12]
	and	x8,x8,#0xffff
	ldrh	w8,[x11,x8,lsl #1]
	strh	w8,[x12,#2]
	add	x8,x9,#4
	ldrb	w9,[sp,#422]
	cmp	w9,#1
	b.eq	27f
	b	28b
37:
	and	x8,x9,#0xff000000
	mov	w10,#536870912
	cmp	x8,x10
	b.ne	21f
	mov	x28,x25
	mov	x25,x2
	mov	w22,#3
	b	47f
20:
	adrp	x13,.Lrtp_static.42
	add	x13,x13,:lo12:.Lrtp_static.42
	add	x9,x9,#10
	ldrh	w13,[x13,w12,uxtw #1]
	strh	w13,[x20,x10]
54:
	mov	w10,#100
	msub	w10,w12,w10,w11
	adrp	x11,.Lrtp_static.42
	add	x11,x11,:lo12:.Lrtp_static.42
	and	x10,x10,#0xffff
	ldrh	w10,[x11,x10,lsl #1]
	strh	w10,[x20,x9]
	add	x9,x9,#2
49:
	mov	x10,#52989
	mov	w12,#57600
	mov	w15,#10000
	movk	x10,#33889,lsl #16
	movk	w12,#1525,lsl #16
	mov	w16,#5977
	movk	x10,#30481,lsl #32
	movk	w16,#53687,lsl #16
	adrp	x18,.Lrtp_static.42
	add	x18,x18,:lo12:.Lrtp_static.42
	movk	x10,#43980,lsl #48
	add	x0,x20,x9
	umulh	x10,x8,x10
	lsr	x11,x10,#26
	mov	x10,#35011
	movk	x10,#58939,lsl #16
	movk	x10,#85,lsl #32
	msub	w8,w11,w21,w8
	umulh	x10,x11,x10
	umull	x16,w8,w16
	lsr	x10,x10,#1
	umsubl	x12,w10,w12,x11
	mov	w10,#47291
	movk	w10,#1677,lsl #16
	mul	x10,x12,x10
	lsr	x13,x10,#40
	mov	w10,#5243
	mul	w14,w13,w10
	msub	w12,w13,w15,w12
	lsr	w11,w14,#19
	mov	w14,#100
	ubfx	w17,w12,#2,#14
	msub	w13,w11,w14,w13
	ldrh	w11,[x18,w11,uxtw #1]
	mul	w17,w17,w10
	strh	w11,[x0]
	and	x11,x13,#0xffff
	lsr	x13,x16,#45
	ldrh	w11,[x18,x11,lsl #1]
	lsr	w16,w17,#17
	ubfx	w17,w13,#2,#14
	msub	w8,w13,w15,w8
	strh	w11,[x0,#2]
	msub	w11,w16,w14,w12
	ldrh	w12,[x18,w16,uxtw #1]
	mul	w16,w17,w10
	ubfx	w15,w8,#2,#14
	strh	w12,[x0,#4]
	and	x11,x11,#0xffff
	ldrh	w11,[x18,x11,lsl #1]
	lsr	w12,w16,#17
	mul	w10,w15,w10
	strh	w11,[x0,#6]
	msub	w11,w12,w14,w13
	ldrh	w12,[x18,w12,uxtw #1]
	lsr	w10,w10,#17
	strh	w12,[x0,#8]
	and	x11,x11,#0xffff
	msub	w8,w10,w14,w8
	ldrh	w11,[x18,x11,lsl #1]
	strh	w11,[x0,#10]
	and	x8,x8,#0xffff
	ldrh	w10,[x18,w10,uxtw #1]
	strh	w10,[x0,#12]
	ldrh	w8,[x18,x8,lsl #1]
	strh	w8,[x0,#14]
	add	x8,x9,#16
	ldrb	w9,[sp,#422]
	cmp	w9,#1
	b.eq	27f
	b	28b
43:
	adrp	x12,.Lrtp_static.42
	add	x12,x12,:lo12:.Lrtp_static.42
	add	x9,x9,#10
	ldrh	w12,[x12,x11,lsl #1]
	strh	w12,[x20,x10]
	b	44f
51:
	adrp	x13,.Lrtp_static.42
	add	x13,x13,:lo12:.Lrtp_static.42
	add	x9,x9,#10
	ldrh	w13,[x13,w12,uxtw #1]
	strh	w13,[x20,x10]
	b	52f
23:
	adrp	x13,.Lrtp_static.42
	add	x13,x13,:lo12:.Lrtp_static.42
	add	x9,x9,#10
	ldrh	w12,[x13,w12,uxtw #1]
	strh	w12,[x20,x10]
42:
	mov	w10,#34079
	mov	w12,#100
	movk	w10,#20971,lsl #16
	umull	x10,w11,w10
	lsr	x10,x10,#37
	msub	w10,w10,w12,w11
	adrp	x12,.Lrtp_static.42
	add	x12,x12,:lo12:.Lrtp_static.42
	ldrh	w10,[x12,w10,uxtw #1]
	strh	w10,[x20,x9]
	add	x9,x9,#2
	b	44f
22:
	adrp	x14,.Lrtp_static.42
	add	x14,x14,:lo12:.Lrtp_static.42
	add	x9,x9,#10
	ldrh	w14,[x14,w13,uxtw #1]
	strh	w14,[x20,x10]
41:
	mov	w10,#100
	msub	w10,w13,w10,w12
	adrp	x13,.Lrtp_static.42
	add	x13,x13,:lo12:.Lrtp_static.42
	and	x10,x10,#0xffff
	ldrh	w10,[x13,x10,lsl #1]
	strh	w10,[x20,x9]
	add	x9,x9,#2
52:
	mov	w10,#10000
	mov	w13,#5243
	add	x14,x20,x9
	msub	w10,w12,w10,w11
	add	x9,x9,#4
	ubfx	w12,w10,#2,#14
	mul	w12,w12,w13
	mov	w13,#100
	lsr	w12,w12,#17
	msub	w10,w12,w13,w10
	adrp	x13,.Lrtp_static.42
	add	x13,x13,:lo12:.Lrtp_static.42
	ldrh	w12,[x13,w12,uxtw #1]
	strh	w12,[x14]
	and	x10,x10,#0xffff
	ldrh	w10,[x13,x10,lsl #1]
	strh	w10,[x14,#2]
44:
	mov	w10,#57600
	mov	w13,#10000
	adrp	x15,.Lrtp_static.42
	add	x15,x15,:lo12:.Lrtp_static.42
	movk	w10,#1525,lsl #16
	msub	x8,x11,x10,x8
	mov	w10,#47291
	mov	w11,#5243
	movk	w10,#1677,lsl #16
	mul	x10,x8,x10
	lsr	x10,x10,#40
	mul	w12,w10,w11
	msub	w8,w10,w13,w8
	mov	w13,#100
	lsr	w12,w12,#19
	ubfx	w14,w8,#2,#14
	msub	w10,w12,w13,w10
	ldrh	w12,[x15,w12,uxtw #1]
	mul	w11,w14,w11
	add	x14,x20,x9
	strh	w12,[x14]
	and	x10,x10,#0xffff
	ldrh	w10,[x15,x10,lsl #1]
	lsr	w11,w11,#17
	strh	w10,[x14,#2]
	msub	w8,w11,w13,w8
	ldrh	w10,[x15,w11,uxtw #1]
	strh	w10,[x14,#4]
	and	x8,x8,#0xffff
	ldrh	w8,[x15,x8,lsl #1]
	strh	w8,[x14,#6]
	add	x8,x9,#8
	ldrb	w9,[sp,#422]
	cmp	w9,#1
	b.ne	28b
27:
	movi	v0.16b,#32
	ldur	q1,[x28,#239]
	adrp	x9,.Lrtp_CPI5_0
	ldr	q2,[x9,:lo12:.Lrtp_CPI5_0]
	add	x10,x20,x8
	mov	w11,#32
	strb	w11,[x10,#4]
	mov	w11,#27936
	add	x19,x8,#5
	movk	w11,#25705,lsl #16
	stur	q1,[x29,#-48]
	cmeq	v0.16b,v1.16b,v0.16b
	str	w11,[x10]
	bic	v0.16b,v2.16b,v0.16b
	addp	v0.16b,v0.16b,v0.16b
	addp	v0.16b,v0.16b,v0.16b
	addp	v0.16b,v0.16b,v0.16b
	umov	w9,v0.h[0]
	fmov	s0,w9
	cnt	v0.8b,v0.8b
	addv	b0,v0.8b
	fmov	w22,s0
	cbz	w9,20f
	add	x0,x20,x19
	sub	x1,x29,#48
	mov	x28,x25
	mov	x25,x2
	mov	x2,x22
	bl	memcpy
	mov	x2,x25
	mov	x25,x28
	add	x28,sp,#184
20:
	add	x8,x19,x22
	ldrb	w9,[sp,#404]
	cmp	w9,#1
	b.eq	36b
29:
	ldrb	w9,[sp,#413]
	cmp	w9,#1
	b.ne	39f
40:
	ldur	x9,[x28,#230]
	adrp	x10,.Lrtp_static.56
	add	x10,x10,:lo12:.Lrtp_static.56
	ldr	x10,[x10]
	add	x11,x20,x8
	add	x19,x8,#10
	and	x12,x9,#0xff
	stur	x9,[x29,#-48]
	str	x10,[x11]
	mov	w10,#8292
	cmp	x12,#32
	strh	w10,[x11,#8]
	b.ne	20f
	add	x8,xzr,x19
	ldrb	w9,[sp,#272]
	cmp	w9,#1
	b.ne	22f
	b	23f
20:
	and	x8,x9,#0xff00
	cmp	x8,#2,lsl #12
	b.ne	20f
	mov	x28,x25
	mov	x25,x2
	mov	w22,#1
	b	27f
20:
	and	x8,x9,#0xff0000
	cmp	x8,#512,lsl #12
	b.ne	20f
	mov	x28,x25
	mov	x25,x2
	mov	w22,#2
	b	27f
20:
	and	x8,x9,#0xff000000
	mov	w10,#536870912
	cmp	x8,x10
	b.ne	20f
	mov	x28,x25
	mov	x25,x2
	mov	w22,#3
	b	27f
21:
	and	x8,x9,#0xff00000000
	mov	x10,#137438953472
	cmp	x8,x10
	b.ne	21f
	mov	x28,x25
	mov	x25,x2
	mov	w22,#4
	b	47f
20:
	and	x8,x9,#0xff00000000
	mov	x10,#137438953472
	cmp	x8,x10
	b.ne	20f
	mov	x28,x25
	mov	x25,x2
	mov	w22,#4
	b	27f
10:
	sub	x0,x29,#192
	mov	x1,x2
	mov	x21,x2
	bl	"std_alloc::vec::Vec::grow_amortized::<#9d744d77114e6601>"
	cbz	w0,3f
	ldp	x8,x22,[x29,#-184]
	mov	x2,x21
	add	x25,x8,x21
	ldur	x21,[x29,#-192]
	cmp	x8,x25
	b.lo	12b
	b	11b
7:
	sub	x0,x29,#192
	mov	x1,x2
	mov	x21,x2
	bl	"std_alloc::vec::Vec::grow_amortized::<#9d744d77114e6601>"
	cbz	w0,3f
	ldp	x8,x19,[x29,#-184]
	mov	x25,#2808348672
	movk	x25,#46771,lsl #32
	mov	x2,x21
	movk	x25,#3552,lsl #48
	add	x22,x8,x21
	ldur	x21,[x29,#-192]
	cmp	x8,x22
	b.lo	15b
	b	8b
32:
	sxth	w10,w10
	sub	x11,x2,#16,lsl #12
	cmn	w10,#8,lsl #12
	and	x10,x8,#0x8000
	ccmp	x10,#0,#0,eq
	csel	x2,x2,x11,eq
	subs	x10,x8,x2
	b.lo	34b
33:
	cmp	x10,#127
	b.ls	7f
	mov	x2,xzr
	mov	w23,#2
	mov	w8,#1
	b	9b
21:
	and	x8,x9,#0xff0000000000
	mov	x10,#35184372088832
	mov	x28,x25
	cmp	x8,x10
	b.ne	8f
	mov	x25,x2
	mov	w22,#5
	b	47f
20:
	and	x8,x9,#0xff0000000000
	mov	x10,#35184372088832
	mov	x28,x25
	cmp	x8,x10
	b.ne	10f
	mov	x25,x2
	mov	w22,#5
	b	27f
31:
	sub	x8,x29,#168
	mov	x22,x1
	mov	x19,x2
	add	x0,x8,#56
	add	x1,x8,#8
	mov	w2,w23
	mov	x3,x24
	bl	"rtp_receive::hints::Hints::learn_now"
	ldur	x8,[x29,#-160]
	mov	x1,x22
	mov	x2,x19
	add	x9,x8,x24,lsl #6
	ldrb	w8,[x9,#16]
	cbnz	w8,13b
	b	25b
16:
	sub	x0,x29,#192
	mov	x1,x2
	mov	x22,x2
	bl	"std_alloc::vec::Vec::grow_amortized::<#9d744d77114e6601>"
	cbz	w0,3f
	ldp	x8,x19,[x29,#-184]
	mov	x25,#2808348672
	ldur	x21,[x29,#-192]
	movk	x25,#46771,lsl #32
	mov	x2,x22
	movk	x25,#3552,lsl #48
	add	x22,x8,x22
	cmp	x8,x22
	b.lo	19b
	b	17b
35:
	cmp	x8,#127
	b.hi	11f
	lsr	x12,x10,#1
	mvn	w13,w8
	lsl	x11,x11,x8
	lsl	x10,x10,x8
	tst	x8,#0x40
	lsr	x12,x12,x13
	orr	x8,x11,x12
	csel	x11,xzr,x10,ne
	csel	x8,x10,x8,ne
	orr	x10,x11,#0x1
	b	38f
7:
	mov	w8,#1
	tst	x10,#0x40
	lsl	x13,x8,x10
	ldp	x10,x11,[x9,#48]
	csel	x12,xzr,x13,ne
	csel	x13,x13,xzr,ne
	and	x14,x11,x13
	and	x15,x10,x12
	orr	x14,x15,x14
	cbz	x14,7f
	mov	x2,xzr
	mov	w23,#2
	b	9b
8:
	and	x8,x9,#0xff000000000000
	mov	x10,#9007199254740992
	mov	x25,x2
	cmp	x8,x10
	b.ne	8f
	mov	w22,#6
	b	47f
10:
	and	x8,x9,#0xff000000000000
	mov	x10,#9007199254740992
	mov	x25,x2
	cmp	x8,x10
	b.ne	10f
	mov	w22,#6
	b	27f
11:
	mov	x8,xzr
	mov	w10,#1
38:
	stp	x10,x8,[x9,#48]
	mov	w8,#1
	mov	w23,#1
	str	x2,[x9,#32]
	b	9b
7:
	orr	x10,x10,x12
	orr	x11,x11,x13
	mov	w8,#1
	stp	x10,x11,[x9,#48]
	mov	w23,w8
	b	9b
8:
	lsr	x8,x9,#56
	cmp	x8,#32
	mov	w8,#7
	cinc	x22,x8,ne
47:
	add	x0,x20,x19
	sub	x1,x29,#48
	mov	x2,x22
	bl	memcpy
	mov	x2,x25
	mov	x25,x28
	add	x28,sp,#184
	add	x8,x22,x19
	ldrb	w9,[sp,#413]
	cmp	w9,#1
	b.eq	40b
39:
	ldrb	w9,[sp,#272]
	cmp	w9,#1
	b.ne	22f
23:
	mov	w11,#25974
	add	x9,x20,x8
	ldrsb	w10,[sp,#273]
	movk	w11,#8300,lsl #16
	stur	w11,[x9,#3]
	mov	w11,#27680
	movk	w11,#30309,lsl #16
	str	w11,[x9]
	add	x9,x8,#7
	tbnz	w10,#31,7f
	cmp	w10,#0
	cneg	w8,w10,mi
	cmp	w8,#99
	b.hi	8f
11:
	and	w10,w8,#0xff
	cmp	w10,#9
	b.hi	12f
	orr	w8,w8,#0x30
	strb	w8,[x20,x9]
	add	x8,x9,#1
	ldrb	w9,[sp,#274]
	cmp	w9,#1
	b.ne	13f
	b	15f
7:
	mov	w11,#45
	strb	w11,[x20,x9]
	add	x9,x8,#8
	cmp	w10,#0
	cneg	w8,w10,mi
	cmp	w8,#99
	b.ls	11b
8:
	add	x10,x20,x9
	mov	w11,#49
	lsl	w8,w8,#1
	strb	w11,[x10]
	adrp	x11,.Lrtp_static.42
	add	x11,x11,:lo12:.Lrtp_static.42
	add	x8,x11,x8
	ldurh	w8,[x8,#-200]
	sturh	w8,[x10,#1]
	add	x8,x9,#3
	ldrb	w9,[sp,#274]
	cmp	w9,#1
	b.eq	15f
13:
	ldrb	w9,[sp,#288]
	cmp	w9,#1
	b.ne	7f
8:
	adrp	x10,.Lrtp_CPI5_3
	ldr	x9,[sp,#296]
	mov	w11,#8292
	ldr	d0,[x10,:lo12:.Lrtp_CPI5_3]
	add	x10,x20,x8
	cmp	x9,x21
	strh	w11,[x10,#4]
	str	s0,[x10]
	add	x10,x8,#6
	b.hs	11f
	lsr	x11,x9,#4
	cmp	x11,#624
	b.hi	16f
	cmp	x9,#99
	b.hi	17f
	cmp	x9,#9
	b.hi	19f
	orr	w9,w9,#0x30
	strb	w9,[x20,x10]
	add	x8,x8,#7
	ldrb	w9,[sp,#336]
	cmp	w9,#1
	b.eq	20f
	b	26f
11:
	mov	x11,#1874919424
	movk	x11,#34546,lsl #32
	movk	x11,#35,lsl #48
	cmp	x9,x11
	b.hs	11f
	mov	x11,#52989
	mov	x12,#4096
	movk	x11,#33889,lsl #16
	movk	x12,#54437,lsl #16
	movk	x11,#30481,lsl #32
	movk	x12,#232,lsl #32
	movk	x11,#43980,lsl #48
	cmp	x9,x12
	umulh	x11,x9,x11
	lsr	x11,x11,#26
	b.hs	21f
	mov	x12,#58368
	movk	x12,#21515,lsl #16
	movk	x12,#2,lsl #32
	cmp	x9,x12
	b.hs	25f
	mov	w12,#51712
	movk	w12,#15258,lsl #16
	cmp	x9,x12
	b.hs	28f
	orr	w12,w11,#0x30
	strb	w12,[x20,x10]
	add	x8,x8,#7
	b	29f
12:
	adrp	x10,.Lrtp_static.42
	add	x10,x10,:lo12:.Lrtp_static.42
	ldrh	w8,[x10,w8,uxtw #1]
	strh	w8,[x20,x9]
	add	x8,x9,#2
	ldrb	w9,[sp,#274]
	cmp	w9,#1
	b.ne	13b
	b	15f
16:
	mov	w11,#5977
	mov	w12,#16960
	movk	w11,#53687,lsl #16
	movk	w12,#15,lsl #16
	umull	x11,w9,w11
	cmp	x9,x12
	lsr	x11,x11,#45
	b.hs	12f
	mov	w12,#34464
	movk	w12,#1,lsl #16
	cmp	x9,x12
	b.hs	16f
	orr	w12,w11,#0x30
	strb	w12,[x20,x10]
	add	x8,x8,#7
	b	31f
11:
	mov	x11,#30807
	cmp	x9,x25
	movk	x11,#45331,lsl #16
	movk	x11,#25903,lsl #32
	movk	x11,#14757,lsl #48
	umulh	x11,x9,x11
	lsr	x11,x11,#51
	b.hs	11f
	mov	x12,#1569325056
	movk	x12,#17784,lsl #32
	movk	x12,#355,lsl #48
	cmp	x9,x12
	b.hs	32f
	orr	w11,w11,#0x30
	strb	w11,[x20,x10]
	add	x8,x8,#7
	b	33f
17:
	ubfx	w11,w9,#2,#14
	mov	w12,#5243
	cmp	x9,#999
	mul	w11,w11,w12
	lsr	w11,w11,#17
	b.hi	17f
	orr	w12,w11,#0x30
	strb	w12,[x20,x10]
	add	x8,x8,#7
	b	34f
21:
	mov	w12,#5977
	mov	x13,#16384
	movk	w12,#53687,lsl #16
	movk	x13,#4218,lsl #16
	umull	x12,w11,w12
	movk	x13,#23283,lsl #32
	cmp	x9,x13
	lsr	x12,x12,#45
	b.hs	21f
	mov	x13,#40960
	movk	x13,#20082,lsl #16
	movk	x13,#2328,lsl #32
	cmp	x9,x13
	b.hs	35f
	orr	w13,w12,#0x30
	strb	w13,[x20,x10]
	add	x8,x8,#7
	b	36f
12:
	ubfx	w12,w11,#2,#14
	mov	w13,#5243
	mul	w12,w12,w13
	mov	w13,#38528
	movk	w13,#152,lsl #16
	cmp	x9,x13
	lsr	w12,w12,#17
	b.hs	12f
	orr	w13,w12,#0x30
	strb	w13,[x20,x10]
	add	x8,x8,#7
	b	37f
11:
	ubfx	w12,w11,#2,#14
	mov	w13,#5243
	mul	w12,w12,w13
	mov	x13,#2313682944
	movk	x13,#8964,lsl #32
	movk	x13,#35527,lsl #48
	lsr	w12,w12,#17
	cmp	x9,x13
	b.hs	11f
	orr	w13,w12,#0x30
	strb	w13,[x20,x10]
	add	x8,x8,#7
	b	38f
19:
	adrp	x11,.Lrtp_static.42
	add	x11,x11,:lo12:.Lrtp_static.42
	add	x8,x8,#8
	ldrh	w9,[x11,x9,lsl #1]
	strh	w9,[x20,x10]
	ldrb	w9,[sp,#336]
	cmp	w9,#1
	b.eq	20f
	b	26f
25:
	ubfx	w12,w11,#2,#14
	mov	w13,#5243
	mul	w12,w12,w13
	mov	x13,#59392
	movk	x13,#18550,lsl #16
	movk	x13,#23,lsl #32
	lsr	w12,w12,#17
	cmp	x9,x13
	b.hs	19f
	orr	w12,w12,#0x30
	strb	w12,[x20,x10]
	add	x8,x8,#7
	b	25f
16:
	adrp	x12,.Lrtp_static.42
	add	x12,x12,:lo12:.Lrtp_static.42
	add	x8,x8,#8
	ldrh	w12,[x12,w11,uxtw #1]
	strh	w12,[x20,x10]
	b	31f
32:
	adrp	x12,.Lrtp_static.42
	add	x12,x12,:lo12:.Lrtp_static.42
	add	x8,x8,#8
	ldrh	w11,[x12,x11,lsl #1]
	strh	w11,[x20,x10]
	b	33f
17:
	adrp	x12,.Lrtp_static.42
	add	x12,x12,:lo12:.Lrtp_static.42
	add	x8,x8,#8
	ldrh	w12,[x12,w11,uxtw #1]
	strh	w12,[x20,x10]
34:
	mov	w10,#100
	msub	w9,w11,w10,w9
	adrp	x10,.Lrtp_static.42
	add	x10,x10,:lo12:.Lrtp_static.42
	and	x9,x9,#0xffff
	ldrh	w9,[x10,x9,lsl #1]
	strh	w9,[x20,x8]
	add	x8,x8,#2
	ldrb	w9,[sp,#336]
	cmp	w9,#1
	b.eq	20f
	b	26f
21:
	ubfx	w13,w12,#2,#14
	mov	w14,#5243
	mul	w13,w13,w14
	mov	x14,#1125899906809856
	movk	x14,#42182,lsl #16
	movk	x14,#36222,lsl #32
	lsr	w13,w13,#17
	cmp	x9,x14
	b.hs	16f
	orr	w14,w13,#0x30
	strb	w14,[x20,x10]
	add	x8,x8,#7
	b	17f
12:
	adrp	x13,.Lrtp_static.42
	add	x13,x13,:lo12:.Lrtp_static.42
	add	x8,x8,#8
	ldrh	w13,[x13,w12,uxtw #1]
	strh	w13,[x20,x10]
37:
	mov	w10,#100
	msub	w10,w12,w10,w11
	adrp	x12,.Lrtp_static.42
	add	x12,x12,:lo12:.Lrtp_static.42
	and	x10,x10,#0xffff
	ldrh	w10,[x12,x10,lsl #1]
	strh	w10,[x20,x8]
	add	x8,x8,#2
31:
	mov	w10,#10000
	add	x12,x20,x8
	add	x8,x8,#4
	msub	w9,w11,w10,w9
	mov	w11,#5243
	ubfx	w10,w9,#2,#14
	mul	w10,w10,w11
	mov	w11,#100
	lsr	w10,w10,#17
	msub	w9,w10,w11,w9
	adrp	x11,.Lrtp_static.42
	add	x11,x11,:lo12:.Lrtp_static.42
	ldrh	w10,[x11,w10,uxtw #1]
	strh	w10,[x12]
	and	x9,x9,#0xffff
	ldrh	w9,[x11,x9,lsl #1]
	strh	w9,[x12,#2]
	ldrb	w9,[sp,#336]
	cmp	w9,#1
	b.eq	20f
	b	26f
11:
	adrp	x13,.Lrtp_static.42
	add	x13,x13,:lo12:.Lrtp_static.42
	add	x8,x8,#8
	ldrh	w13,[x13,w12,uxtw #1]
	strh	w13,[x20,x10]
38:
	mov	w10,#100
	msub	w10,w12,w10,w11
	adrp	x11,.Lrtp_static.42
	add	x11,x11,:lo12:.Lrtp_static.42
	and	x10,x10,#0xffff
	ldrh	w10,[x11,x10,lsl #1]
	strh	w10,[x20,x8]
	add	x8,x8,#2
33:
	mov	x10,#52989
	mov	w12,#57600
	mov	w15,#10000
	movk	x10,#33889,lsl #16
	movk	w12,#1525,lsl #16
	mov	w16,#5977
	movk	x10,#30481,lsl #32
	movk	w16,#53687,lsl #16
	adrp	x18,.Lrtp_static.42
	add	x18,x18,:lo12:.Lrtp_static.42
	movk	x10,#43980,lsl #48
	add	x0,x20,x8
	umulh	x10,x9,x10
	add	x8,x8,#16
	lsr	x11,x10,#26
	mov	x10,#35011
	movk	x10,#58939,lsl #16
	movk	x10,#85,lsl #32
	msub	w9,w11,w21,w9
	umulh	x10,x11,x10
	umull	x16,w9,w16
	lsr	x10,x10,#1
	umsubl	x12,w10,w12,x11
	mov	w10,#47291
	movk	w10,#1677,lsl #16
	mul	x10,x12,x10
	lsr	x13,x10,#40
	mov	w10,#5243
	mul	w14,w13,w10
	msub	w12,w13,w15,w12
	lsr	w11,w14,#19
	mov	w14,#100
	ubfx	w17,w12,#2,#14
	msub	w13,w11,w14,w13
	ldrh	w11,[x18,w11,uxtw #1]
	mul	w17,w17,w10
	strh	w11,[x0]
	and	x11,x13,#0xffff
	lsr	x13,x16,#45
	ldrh	w11,[x18,x11,lsl #1]
	lsr	w16,w17,#17
	ubfx	w17,w13,#2,#14
	msub	w9,w13,w15,w9
	strh	w11,[x0,#2]
	msub	w11,w16,w14,w12
	ldrh	w12,[x18,w16,uxtw #1]
	mul	w16,w17,w10
	ubfx	w15,w9,#2,#14
	strh	w12,[x0,#4]
	and	x11,x11,#0xffff
	ldrh	w11,[x18,x11,lsl #1]
	lsr	w12,w16,#17
	mul	w10,w15,w10
	strh	w11,[x0,#6]
	msub	w11,w12,w14,w13
	ldrh	w12,[x18,w12,uxtw #1]
	lsr	w10,w10,#17
	strh	w12,[x0,#8]
	and	x11,x11,#0xffff
	msub	w9,w10,w14,w9
	ldrh	w11,[x18,x11,lsl #1]
	strh	w11,[x0,#10]
	and	x9,x9,#0xffff
	ldrh	w10,[x18,w10,uxtw #1]
	strh	w10,[x0,#12]
	ldrh	w9,[x18,x9,lsl #1]
	strh	w9,[x0,#14]
	ldrb	w9,[sp,#336]
	cmp	w9,#1
	b.eq	20f
	b	26f
28:
	adrp	x12,.Lrtp_static.42
	add	x12,x12,:lo12:.Lrtp_static.42
	add	x8,x8,#8
	ldrh	w12,[x12,x11,lsl #1]
	strh	w12,[x20,x10]
	b	29f
35:
	adrp	x13,.Lrtp_static.42
	add	x13,x13,:lo12:.Lrtp_static.42
	add	x8,x8,#8
	ldrh	w13,[x13,w12,uxtw #1]
	strh	w13,[x20,x10]
	b	36f
19:
	adrp	x13,.Lrtp_static.42
	add	x13,x13,:lo12:.Lrtp_static.42
	add	x8,x8,#8
	ldrh	w12,[x13,w12,uxtw #1]
	strh	w12,[x20,x10]
25:
	mov	w10,#34079
	mov	w12,#100
	movk	w10,#20971,lsl #16
	umull	x10,w11,w10
	lsr	x10,x10,#37
	msub	w10,w10,w12,w11
	adrp	x12,.Lrtp_static.42
	add	x12,x12,:lo12:.Lrtp_static.42
	ldrh	w10,[x12,w10,uxtw #1]
	strh	w10,[x20,x8]
	add	x8,x8,#2
	b	29f
16:
	adrp	x14,.Lrtp_static.42
	add	x14,x14,:lo12:.Lrtp_static.42
	add	x8,x8,#8
	ldrh	w14,[x14,w13,uxtw #1]
	strh	w14,[x20,x10]
17:
	mov	w10,#100
	msub	w10,w13,w10,w12
	adrp	x13,.Lrtp_static.42
	add	x13,x13,:lo12:.Lrtp_static.42
	and	x10,x10,#0xffff
	ldrh	w10,[x13,x10,lsl #1]
	strh	w10,[x20,x8]
	add	x8,x8,#2
36:
	mov	w10,#10000
	mov	w13,#5243
	add	x14,x20,x8
	msub	w10,w12,w10,w11
	add	x8,x8,#4
	ubfx	w12,w10,#2,#14
	mul	w12,w12,w13
	mov	w13,#100
	lsr	w12,w12,#17
	msub	w10,w12,w13,w10
	adrp	x13,.Lrtp_static.42
	add	x13,x13,:lo12:.Lrtp_static.42
	ldrh	w12,[x13,w12,uxtw #1]
	strh	w12,[x14]
	and	x10,x10,#0xffff
	ldrh	w10,[x13,x10,lsl #1]
	strh	w10,[x14,#2]
29:
	mov	w10,#57600
	mov	w12,#5243
	mov	w13,#10000
	movk	w10,#1525,lsl #16
	adrp	x15,.Lrtp_static.42
	add	x15,x15,:lo12:.Lrtp_static.42
	msub	x9,x11,x10,x9
	mov	w11,#5977
	movk	w11,#53687,lsl #16
	mov	w10,w9
	umull	x10,w10,w11
	lsr	x10,x10,#45
	ubfx	w11,w10,#2,#14
	msub	w9,w10,w13,w9
	mov	w13,#100
	mul	w11,w11,w12
	ubfx	w14,w9,#2,#14
	lsr	w11,w11,#17
	mul	w12,w14,w12
	add	x14,x20,x8
	add	x8,x8,#8
	msub	w10,w11,w13,w10
	ldrh	w11,[x15,w11,uxtw #1]
	strh	w11,[x14]
	lsr	w11,w12,#17
	and	x10,x10,#0xffff
	ldrh	w10,[x15,x10,lsl #1]
	msub	w9,w11,w13,w9
	strh	w10,[x14,#2]
	ldrh	w10,[x15,w11,uxtw #1]
	and	x9,x9,#0xffff
	strh	w10,[x14,#4]
	ldrh	w9,[x15,x9,lsl #1]
	strh	w9,[x14,#6]
	ldrb	w9,[sp,#336]
	cmp	w9,#1
	b.eq	20f
	b	26f
10:
	lsr	x8,x9,#56
	cmp	x8,#32
	mov	w8,#7
	cinc	x22,x8,ne
27:
	add	x0,x20,x19
	sub	x1,x29,#48
	mov	x2,x22
	bl	memcpy
	mov	x2,x25
	mov	x25,x28
	add	x28,sp,#184
	add	x8,x22,x19
	ldrb	w9,[sp,#272]
	cmp	w9,#1
	b.eq	23b
22:
	ldrb	w9,[sp,#274]
	cmp	w9,#1
	b.ne	13b
15:
	mov	w11,#25449
	add	x9,x20,x8
	ldrb	w10,[sp,#275]
	movk	w11,#8293,lsl #16
	stur	w11,[x9,#3]
	mov	w11,#30240
	movk	w11,#26991,lsl #16
	str	w11,[x9]
	tbz	w10,#0,10f
	mov	w10,#115
	mov	w11,#25977
	add	x8,x8,#10
	sturb	w10,[x9,#9]
	sturh	w11,[x9,#7]
	ldrb	w9,[sp,#288]
	cmp	w9,#1
	b.ne	7f
	b	8b
10:
	mov	w10,#28526
	add	x8,x8,#9
	sturh	w10,[x9,#7]
	ldrb	w9,[sp,#288]
	cmp	w9,#1
	b.eq	8b
7:
	ldrb	w9,[sp,#336]
	cmp	w9,#1
	b.ne	26f
20:
	adrp	x10,.Lrtp_static.60
	add	x10,x10,:lo12:.Lrtp_static.60
	ldrh	w9,[sp,#338]
	ldr	x10,[x10]
	add	x12,x20,x8
	lsr	w11,w9,#4
	str	x10,[x12]
	mov	w10,#29295
	movk	w10,#8308,lsl #16
	cmp	w11,#624
	stur	w10,[x12,#7]
	add	x10,x8,#11
	b.hi	7f
	cmp	w9,#99
	b.hi	8f
	cmp	w9,#9
	b.hi	10f
	orr	w9,w9,#0x30
	strb	w9,[x20,x10]
	add	x8,x8,#12
	b	26f
7:
	ubfx	w11,w9,#4,#12
	mov	w12,#839
	mov	w13,#5243
	add	x10,x20,x10
	add	x8,x8,#16
	mul	w11,w11,w12
	mov	w12,#10000
	lsr	w11,w11,#19
	msub	w9,w11,w12,w9
	orr	w11,w11,#0x30
	strb	w11,[x10]
	adrp	x11,.Lrtp_static.42
	add	x11,x11,:lo12:.Lrtp_static.42
	ubfx	w12,w9,#2,#14
	mul	w12,w12,w13
	mov	w13,#100
	lsr	w12,w12,#17
	msub	w9,w12,w13,w9
	ldrh	w12,[x11,w12,uxtw #1]
	sturh	w12,[x10,#1]
	and	x9,x9,#0xffff
	ldrh	w9,[x11,x9,lsl #1]
	sturh	w9,[x10,#3]
	b	26f
8:
	ubfx	w11,w9,#2,#14
	mov	w12,#5243
	mul	w11,w11,w12
	and	w12,w9,#0xffff
	cmp	w12,#999
	lsr	w11,w11,#17
	b.hi	7f
	orr	w12,w11,#0x30
	strb	w12,[x20,x10]
	add	x8,x8,#12
	b	8f
10:
	adrp	x11,.Lrtp_static.42
	add	x11,x11,:lo12:.Lrtp_static.42
	add	x8,x8,#13
	ldrh	w9,[x11,x9,lsl #1]
	strh	w9,[x20,x10]
	b	26f
7:
	adrp	x12,.Lrtp_static.42
	add	x12,x12,:lo12:.Lrtp_static.42
	add	x8,x8,#13
	ldrh	w12,[x12,w11,uxtw #1]
	strh	w12,[x20,x10]
8:
	mov	w10,#100
	msub	w9,w11,w10,w9
	adrp	x10,.Lrtp_static.42
	add	x10,x10,:lo12:.Lrtp_static.42
	and	x9,x9,#0xffff
	ldrh	w9,[x10,x9,lsl #1]
	strh	w9,[x20,x8]
	add	x8,x8,#2
26:
	mov	x11,#25974
	add	x9,x20,x8
	mov	w10,#10
	movk	x11,#25714,lsl #16
	cmp	x26,x21
	strb	w10,[x9]
	movk	x11,#25449,lsl #32
	movk	x11,#8308,lsl #48
	stur	x11,[x9,#1]
	add	x9,x8,#9
	b.hs	7f
	cmp	x24,#624
	b.hi	8f
	ldr	x19,[sp,#152]
	cmp	x26,#99
	b.hi	10f
	cmp	x26,#9
	b.hi	11f
	orr	w10,w26,#0x30
	strb	w10,[x20,x9]
	add	x8,x8,#10
	add	x9,x20,x8
	mov	w10,#8250
	cmp	w23,#2
	strh	w10,[x9],#2
	b.ne	12f
	b	13f
7:
	mov	x10,#1874919424
	movk	x10,#34546,lsl #32
	movk	x10,#35,lsl #48
	cmp	x26,x10
	b.hs	7f
	mov	x10,#52989
	mov	x11,#4096
	ldr	x19,[sp,#152]
	movk	x10,#33889,lsl #16
	movk	x11,#54437,lsl #16
	movk	x10,#30481,lsl #32
	movk	x11,#232,lsl #32
	movk	x10,#43980,lsl #48
	cmp	x26,x11
	umulh	x10,x26,x10
	lsr	x10,x10,#26
	b.hs	15f
	mov	x11,#58368
	movk	x11,#21515,lsl #16
	movk	x11,#2,lsl #32
	cmp	x26,x11
	b.hs	16f
	mov	w11,#51712
	movk	w11,#15258,lsl #16
	cmp	x26,x11
	b.hs	17f
	orr	w11,w10,#0x30
	strb	w11,[x20,x9]
	add	x8,x8,#10
	b	19f
8:
	mov	w10,#5977
	mov	w11,#16960
	ldr	x19,[sp,#152]
	movk	w10,#53687,lsl #16
	movk	w11,#15,lsl #16
	umull	x10,w26,w10
	cmp	x26,x11
	lsr	x10,x10,#45
	b.hs	8f
	mov	w11,#34464
	movk	w11,#1,lsl #16
	cmp	x26,x11
	b.hs	20f
	orr	w11,w10,#0x30
	strb	w11,[x20,x9]
	add	x8,x8,#10
	b	21f
7:
	mov	x10,#30807
	ldr	x19,[sp,#152]
	cmp	x26,x25
	movk	x10,#45331,lsl #16
	movk	x10,#25903,lsl #32
	movk	x10,#14757,lsl #48
	umulh	x10,x26,x10
	lsr	x10,x10,#51
	b.hs	7f
	mov	x11,#1569325056
	movk	x11,#17784,lsl #32
	movk	x11,#355,lsl #48
	cmp	x26,x11
	b.hs	22f
	orr	w10,w10,#0x30
	strb	w10,[x20,x9]
	add	x8,x8,#10
	b	23f
10:
	ubfx	w10,w26,#2,#14
	mov	w11,#5243
	cmp	x26,#999
	mul	w10,w10,w11
	lsr	w10,w10,#17
	b.hi	10f
	orr	w11,w10,#0x30
	strb	w11,[x20,x9]
	add	x8,x8,#10
	b	25f
15:
	mov	w11,#5977
	mov	x12,#16384
	movk	w11,#53687,lsl #16
	movk	x12,#4218,lsl #16
	umull	x11,w10,w11
	movk	x12,#23283,lsl #32
	cmp	x26,x12
	lsr	x11,x11,#45
	b.hs	15f
	mov	x12,#40960
	movk	x12,#20082,lsl #16
	movk	x12,#2328,lsl #32
	cmp	x26,x12
	b.hs	26f
	orr	w12,w11,#0x30
	strb	w12,[x20,x9]
	add	x8,x8,#10
	b	27f
8:
	ubfx	w11,w10,#2,#14
	mov	w12,#5243
	mul	w11,w11,w12
	mov	w12,#38528
	movk	w12,#152,lsl #16
	cmp	x26,x12
	lsr	w11,w11,#17
	b.hs	8f
	orr	w12,w11,#0x30
	strb	w12,[x20,x9]
	add	x8,x8,#10
	b	28f
7:
	ubfx	w11,w10,#2,#14
	mov	w12,#5243
	mul	w11,w11,w12
	mov	x12,#2313682944
	movk	x12,#8964,lsl #32
	movk	x12,#35527,lsl #48
	lsr	w11,w11,#17
	cmp	x26,x12
	b.hs	7f
	orr	w12,w11,#0x30
	strb	w12,[x20,x9]
	add	x8,x8,#10
	b	29f
11:
	adrp	x10,.Lrtp_static.42
	add	x10,x10,:lo12:.Lrtp_static.42
	add	x8,x8,#11
	ldrh	w10,[x10,x26,lsl #1]
	strh	w10,[x20,x9]
	add	x9,x20,x8
	mov	w10,#8250
	cmp	w23,#2
	strh	w10,[x9],#2
	b.ne	12f
	b	13f
16:
	ubfx	w11,w10,#2,#14
	mov	w12,#5243
	mul	w11,w11,w12
	mov	x12,#59392
	movk	x12,#18550,lsl #16
	movk	x12,#23,lsl #32
	lsr	w11,w11,#17
	cmp	x26,x12
	b.hs	11f
	orr	w11,w11,#0x30
	strb	w11,[x20,x9]
	add	x8,x8,#10
	b	16f
20:
	adrp	x11,.Lrtp_static.42
	add	x11,x11,:lo12:.Lrtp_static.42
	add	x8,x8,#11
	ldrh	w11,[x11,w10,uxtw #1]
	strh	w11,[x20,x9]
	b	21f
22:
	adrp	x11,.Lrtp_static.42
	add	x11,x11,:lo12:.Lrtp_static.42
	add	x8,x8,#11
	ldrh	w10,[x11,x10,lsl #1]
	strh	w10,[x20,x9]
	b	23f
10:
	adrp	x11,.Lrtp_static.42
	add	x11,x11,:lo12:.Lrtp_static.42
	add	x8,x8,#11
	ldrh	w11,[x11,w10,uxtw #1]
	strh	w11,[x20,x9]
25:
	mov	w9,#100
	msub	w9,w10,w9,w26
	adrp	x10,.Lrtp_static.42
	add	x10,x10,:lo12:.Lrtp_static.42
	and	x9,x9,#0xffff
	ldrh	w9,[x10,x9,lsl #1]
	strh	w9,[x20,x8]
	add	x8,x8,#2
	add	x9,x20,x8
	mov	w10,#8250
	cmp	w23,#2
	strh	w10,[x9],#2
	b.ne	12f
	b	13f
15:
	ubfx	w12,w11,#2,#14
	mov	w13,#5243
	mul	w12,w12,w13
	mov	x13,#1125899906809856
	movk	x13,#42182,lsl #16
	movk	x13,#36222,lsl #32
	lsr	w12,w12,#17
	cmp	x26,x13
	b.hs	10f
	orr	w13,w12,#0x30
	strb	w13,[x20,x9]
	add	x8,x8,#10
	b	15f
8:
	adrp	x12,.Lrtp_static.42
	add	x12,x12,:lo12:.Lrtp_static.42
	add	x8,x8,#11
	ldrh	w12,[x12,w11,uxtw #1]
	strh	w12,[x20,x9]
28:
	mov	w9,#100
	msub	w9,w11,w9,w10
	adrp	x11,.Lrtp_static.42
	add	x11,x11,:lo12:.Lrtp_static.42
	and	x9,x9,#0xffff
	ldrh	w9,[x11,x9,lsl #1]
	strh	w9,[x20,x8]
	add	x8,x8,#2
21:
	mov	w9,#10000
	mov	w11,#5243
	add	x12,x20,x8
	msub	w9,w10,w9,w26
	add	x8,x8,#4
	ubfx	w10,w9,#2,#14
	mul	w10,w10,w11
	mov	w11,#100
	lsr	w10,w10,#17
	msub	w9,w10,w11,w9
	adrp	x11,.Lrtp_static.42
	add	x11,x11,:lo12:.Lrtp_static.42
	ldrh	w10,[x11,w10,uxtw #1]
	strh	w10,[x12]
	and	x9,x9,#0xffff
	ldrh	w9,[x11,x9,lsl #1]
	strh	w9,[x12,#2]
	add	x9,x20,x8
	mov	w10,#8250
	cmp	w23,#2
	strh	w10,[x9],#2
	b.eq	13f
12:
	cmp	w23,#1
	b.ne	8f
	mov	w11,#24948
	mov	w10,#8302
	cmp	x2,x21
	movk	w11,#25963,lsl #16
	strh	w10,[x9,#4]
	str	w11,[x9]
	add	x9,x8,#8
	b.hs	20f
	lsr	x10,x2,#4
	cmp	x10,#624
	b.hi	21f
	cmp	x2,#99
	b.hi	22f
	cmp	x2,#9
	b.hi	25f
	orr	w10,w2,#0x30
	strb	w10,[x20,x9]
	add	x8,x8,#9
	b	28f
8:
	adrp	x11,.Lrtp_static.65
	add	x11,x11,:lo12:.Lrtp_static.65
	mov	w10,#25964
	ldr	x11,[x11]
	strh	w10,[x9,#8]
	add	x8,x8,#12
	str	x11,[x9]
	b	28f
20:
	mov	x10,#1874919424
	movk	x10,#34546,lsl #32
	movk	x10,#35,lsl #48
	cmp	x2,x10
	b.hs	8f
	mov	x10,#52989
	mov	x11,#4096
	movk	x10,#33889,lsl #16
	movk	x11,#54437,lsl #16
	movk	x10,#30481,lsl #32
	movk	x11,#232,lsl #32
	movk	x10,#43980,lsl #48
	cmp	x2,x11
	umulh	x10,x2,x10
	lsr	x10,x10,#26
	b.hs	20f
	mov	x11,#58368
	movk	x11,#21515,lsl #16
	movk	x11,#2,lsl #32
	cmp	x2,x11
	b.hs	31f
	mov	w11,#51712
	movk	w11,#15258,lsl #16
	cmp	x2,x11
	b.hs	32f
	orr	w11,w10,#0x30
	strb	w11,[x20,x9]
	add	x8,x8,#9
	b	33f
21:
	mov	w10,#5977
	mov	w11,#16960
	movk	w10,#53687,lsl #16
	movk	w11,#15,lsl #16
	umull	x10,w2,w10
	cmp	x2,x11
	lsr	x10,x10,#45
	b.hs	21f
	mov	w11,#34464
	movk	w11,#1,lsl #16
	cmp	x2,x11
	b.hs	34f
	orr	w11,w10,#0x30
	strb	w11,[x20,x9]
	add	x8,x8,#9
	b	35f
8:
	mov	x10,#30807
	cmp	x2,x25
	movk	x10,#45331,lsl #16
	movk	x10,#25903,lsl #32
	movk	x10,#14757,lsl #48
	umulh	x10,x2,x10
	lsr	x10,x10,#51
	b.hs	8f
	mov	x11,#1569325056
	movk	x11,#17784,lsl #32
	movk	x11,#355,lsl #48
	cmp	x2,x11
	b.hs	36f
	orr	w10,w10,#0x30
	strb	w10,[x20,x9]
	add	x8,x8,#9
	b	37f
7:
	adrp	x12,.Lrtp_static.42
	add	x12,x12,:lo12:.Lrtp_static.42
	add	x8,x8,#11
	ldrh	w12,[x12,w11,uxtw #1]
	strh	w12,[x20,x9]
29:
	mov	w9,#100
	msub	w9,w11,w9,w10
	adrp	x10,.Lrtp_static.42
	add	x10,x10,:lo12:.Lrtp_static.42
	and	x9,x9,#0xffff
	ldrh	w9,[x10,x9,lsl #1]
	strh	w9,[x20,x8]
	add	x8,x8,#2
23:
	mov	x9,#52989
	mov	w11,#57600
	mov	w14,#10000
	movk	x9,#33889,lsl #16
	movk	w11,#1525,lsl #16
	mov	w16,#5977
	movk	x9,#30481,lsl #32
	mov	w15,#100
	movk	w16,#53687,lsl #16
	movk	x9,#43980,lsl #48
	adrp	x18,.Lrtp_static.42
	add	x18,x18,:lo12:.Lrtp_static.42
	umulh	x9,x26,x9
	add	x0,x20,x8
	add	x8,x8,#16
	lsr	x10,x9,#26
	mov	x9,#35011
	movk	x9,#58939,lsl #16
	movk	x9,#85,lsl #32
	umulh	x9,x10,x9
	lsr	x9,x9,#1
	umsubl	x11,w9,w11,x10
	mov	w9,#47291
	movk	w9,#1677,lsl #16
	msub	w10,w10,w21,w26
	mul	x9,x11,x9
	umull	x16,w10,w16
	lsr	x12,x9,#40
	mov	w9,#5243
	mul	w13,w12,w9
	msub	w11,w12,w14,w11
	lsr	w13,w13,#19
	ubfx	w17,w11,#2,#14
	msub	w12,w13,w15,w12
	ldrh	w13,[x18,w13,uxtw #1]
	mul	w17,w17,w9
	strh	w13,[x0]
	lsr	x13,x16,#45
	and	x12,x12,#0xffff
	ldrh	w12,[x18,x12,lsl #1]
	lsr	w16,w17,#17
	ubfx	w17,w13,#2,#14
	msub	w10,w13,w14,w10
	strh	w12,[x0,#2]
	msub	w11,w16,w15,w11
	ldrh	w12,[x18,w16,uxtw #1]
	mul	w16,w17,w9
	ubfx	w14,w10,#2,#14
	strh	w12,[x0,#4]
	and	x11,x11,#0xffff
	ldrh	w11,[x18,x11,lsl #1]
	lsr	w12,w16,#17
	mul	w9,w14,w9
	strh	w11,[x0,#6]
	msub	w11,w12,w15,w13
	ldrh	w12,[x18,w12,uxtw #1]
	lsr	w9,w9,#17
	strh	w12,[x0,#8]
	and	x11,x11,#0xffff
	msub	w10,w9,w15,w10
	ldrh	w11,[x18,x11,lsl #1]
	strh	w11,[x0,#10]
	ldrh	w9,[x18,w9,uxtw #1]
	strh	w9,[x0,#12]
	and	x9,x10,#0xffff
	ldrh	w9,[x18,x9,lsl #1]
	strh	w9,[x0,#14]
	add	x9,x20,x8
	mov	w10,#8250
	cmp	w23,#2
	strh	w10,[x9],#2
	b.ne	12b
	b	13f
22:
	ubfx	w10,w2,#2,#14
	mov	w11,#5243
	cmp	x2,#999
	mul	w10,w10,w11
	lsr	w10,w10,#17
	b.hi	7f
	orr	w11,w10,#0x30
	strb	w11,[x20,x9]
	add	x8,x8,#9
	b	22f
20:
	mov	w11,#5977
	mov	x12,#16384
	movk	w11,#53687,lsl #16
	movk	x12,#4218,lsl #16
	umull	x11,w10,w11
	movk	x12,#23283,lsl #32
	cmp	x2,x12
	lsr	x11,x11,#45
	b.hs	20f
	mov	x12,#40960
	movk	x12,#20082,lsl #16
	movk	x12,#2328,lsl #32
	cmp	x2,x12
	b.hs	23f
	orr	w12,w11,#0x30
	strb	w12,[x20,x9]
	add	x8,x8,#9
	b	29f
21:
	ubfx	w11,w10,#2,#14
	mov	w12,#5243
	mul	w11,w11,w12
	mov	w12,#38528
	movk	w12,#152,lsl #16
	cmp	x2,x12
	lsr	w11,w11,#17
	b.hs	21f
	orr	w12,w11,#0x30
	strb	w12,[x20,x9]
	add	x8,x8,#9
	b	38f
8:
	ubfx	w11,w10,#2,#14
	mov	w12,#5243
	mul	w11,w11,w12
	mov	x12,#2313682944
	movk	x12,#8964,lsl #32
	movk	x12,#35527,lsl #48
	lsr	w11,w11,#17
	cmp	x2,x12
	b.hs	8f
	orr	w12,w11,#0x30
	strb	w12,[x20,x9]
	add	x8,x8,#9
	b	39f
17:
	adrp	x11,.Lrtp_static.42
	add	x11,x11,:lo12:.Lrtp_static.42
	add	x8,x8,#11
	ldrh	w11,[x11,x10,lsl #1]
	strh	w11,[x20,x9]
	b	19f
26:
	adrp	x12,.Lrtp_static.42
	add	x12,x12,:lo12:.Lrtp_static.42
	add	x8,x8,#11
	ldrh	w12,[x12,w11,uxtw #1]
	strh	w12,[x20,x9]
	b	27f
11:
	adrp	x12,.Lrtp_static.42
	add	x12,x12,:lo12:.Lrtp_static.42
	add	x8,x8,#11
	ldrh	w11,[x12,w11,uxtw #1]
	strh	w11,[x20,x9]
16:
	mov	w9,#34079
	mov	w11,#100
	movk	w9,#20971,lsl #16
	umull	x9,w10,w9
	lsr	x9,x9,#37
	msub	w9,w9,w11,w10
	adrp	x11,.Lrtp_static.42
	add	x11,x11,:lo12:.Lrtp_static.42
	ldrh	w9,[x11,w9,uxtw #1]
	strh	w9,[x20,x8]
	add	x8,x8,#2
	b	19f
10:
	adrp	x13,.Lrtp_static.42
	add	x13,x13,:lo12:.Lrtp_static.42
	add	x8,x8,#11
	ldrh	w13,[x13,w12,uxtw #1]
	strh	w13,[x20,x9]
15:
	mov	w9,#100
	msub	w9,w12,w9,w11
	adrp	x12,.Lrtp_static.42
	add	x12,x12,:lo12:.Lrtp_static.42
	and	x9,x9,#0xffff
	ldrh	w9,[x12,x9,lsl #1]
	strh	w9,[x20,x8]
	add	x8,x8,#2
27:
	mov	w9,#10000
	mov	w12,#5243
	add	x13,x20,x8
	msub	w9,w11,w9,w10
	add	x8,x8,#4
	ubfx	w11,w9,#2,#14
	mul	w11,w11,w12
	mov	w12,#100
	lsr	w11,w11,#17
	msub	w9,w11,w12,w9
	adrp	x12,.Lrtp_static.42
	add	x12,x12,:lo12:.Lrtp_static.42
	ldrh	w11,[x12,w11,uxtw #1]
	strh	w11,[x13]
	and	x9,x9,#0xffff
	ldrh	w9,[x12,x9,lsl #1]
	strh	w9,[x13,#2]
19:
	mov	w9,#57600
	mov	w11,#5977
	mov	w12,#5243
	movk	w9,#1525,lsl #16
	movk	w11,#53687,lsl #16
	mov	w13,#10000
	msub	x9,x10,x9,x26
	adrp	x15,.Lrtp_static.42
	add	x15,x15,:lo12:.Lrtp_static.42
	mov	w10,w9
	umull	x10,w10,w11
	lsr	x10,x10,#45
	ubfx	w11,w10,#2,#14
	msub	w9,w10,w13,w9
	mov	w13,#100
	mul	w11,w11,w12
	ubfx	w14,w9,#2,#14
	lsr	w11,w11,#17
	mul	w12,w14,w12
	add	x14,x20,x8
	add	x8,x8,#8
	msub	w10,w11,w13,w10
	ldrh	w11,[x15,w11,uxtw #1]
	strh	w11,[x14]
	lsr	w11,w12,#17
	and	x10,x10,#0xffff
	ldrh	w10,[x15,x10,lsl #1]
	msub	w9,w11,w13,w9
	strh	w10,[x14,#2]
	ldrh	w10,[x15,w11,uxtw #1]
	and	x9,x9,#0xffff
	strh	w10,[x14,#4]
	ldrh	w9,[x15,x9,lsl #1]
	strh	w9,[x14,#6]
	add	x9,x20,x8
	mov	w10,#8250
	cmp	w23,#2
	strh	w10,[x9],#2
	b.ne	12b
13:
	mov	w10,#29557
	mov	w11,#25970
	add	x8,x8,#9
	movk	w10,#25701,lsl #16
	movk	w11,#30054,lsl #16
	stur	w10,[x9,#3]
	str	w11,[x9]
28:
	mov	w9,#8190
	add	x1,x8,#1
	cmp	x8,x9
	mov	w9,#10
	strb	w9,[x20,x8]
	b.ls	5b
	mov	x0,x20
	bl	"rtp_listing::printing::write_text::<#df9e9f1468b30f79>"
	tst	w0,#0xff
	b.eq	4b
	b	4f
25:
	adrp	x10,.Lrtp_static.42
	add	x10,x10,:lo12:.Lrtp_static.42
	add	x8,x8,#10
	ldrh	w10,[x10,x2,lsl #1]
	strh	w10,[x20,x9]
	b	28b
31:
	ubfx	w11,w10,#2,#14
	mov	w12,#5243
	mul	w11,w11,w12
	mov	x12,#59392
	movk	x12,#18550,lsl #16
	movk	x12,#23,lsl #32
	lsr	w11,w11,#17
	cmp	x2,x12
	b.hs	5f
	orr	w11,w11,#0x30
	strb	w11,[x20,x9]
	add	x8,x8,#9
	b	10f
34:
	adrp	x11,.Lrtp_static.42
	add	x11,x11,:lo12:.Lrtp_static.42
	add	x8,x8,#10
	ldrh	w11,[x11,w10,uxtw #1]
	strh	w11,[x20,x9]
	b	35f
36:
	adrp	x11,.Lrtp_static.42
	add	x11,x11,:lo12:.Lrtp_static.42
	add	x8,x8,#10
	ldrh	w10,[x11,x10,lsl #1]
	strh	w10,[x20,x9]
	b	37f
7:
	adrp	x11,.Lrtp_static.42
	add	x11,x11,:lo12:.Lrtp_static.42
	add	x8,x8,#10
	ldrh	w11,[x11,w10,uxtw #1]
	strh	w11,[x20,x9]
22:
	mov	w9,#100
	msub	w9,w10,w9,w2
	adrp	x10,.Lrtp_static.42
	add	x10,x10,:lo12:.Lrtp_static.42
	and	x9,x9,#0xffff
	ldrh	w9,[x10,x9,lsl #1]
	strh	w9,[x20,x8]
	add	x8,x8,#2
	b	28b
20:
	ubfx	w12,w11,#2,#14
	mov	w13,#5243
	mul	w12,w12,w13
	mov	x13,#1125899906809856
	movk	x13,#42182,lsl #16
	movk	x13,#36222,lsl #32
	lsr	w12,w12,#17
	cmp	x2,x13
	b.hs	7f
	orr	w13,w12,#0x30
	strb	w13,[x20,x9]
	add	x8,x8,#9
	b	11f
21:
	adrp	x12,.Lrtp_static.42
	add	x12,x12,:lo12:.Lrtp_static.42
	add	x8,x8,#10
	ldrh	w12,[x12,w11,uxtw #1]
	strh	w12,[x20,x9]
38:
	mov	w9,#100
	msub	w9,w11,w9,w10
	adrp	x11,.Lrtp_static.42
	add	x11,x11,:lo12:.Lrtp_static.42
	and	x9,x9,#0xffff
	ldrh	w9,[x11,x9,lsl #1]
	strh	w9,[x20,x8]
	add	x8,x8,#2
35:
	mov	w9,#10000
	mov	w11,#5243
	add	x12,x20,x8
	msub	w9,w10,w9,w2
	add	x8,x8,#4
	ubfx	w10,w9,#2,#14
	mul	w10,w10,w11
	mov	w11,#100
	lsr	w10,w10,#17
	msub	w9,w10,w11,w9
	adrp	x11,.Lrtp_static.42
	add	x11,x11,:lo12:.Lrtp_static.42
	ldrh	w10,[x11,w10,uxtw #1]
	strh	w10,[x12]
	and	x9,x9,#0xffff
	ldrh	w9,[x11,x9,lsl #1]
	strh	w9,[x12,#2]
	b	28b
8:
	adrp	x12,.Lrtp_static.42
	add	x12,x12,:lo12:.Lrtp_static.42
	add	x8,x8,#10
	ldrh	w12,[x12,w11,uxtw #1]
	strh	w12,[x20,x9]
39:
	mov	w9,#100
	msub	w9,w11,w9,w10
	adrp	x10,.Lrtp_static.42
	add	x10,x10,:lo12:.Lrtp_static.42
	and	x9,x9,#0xffff
	ldrh	w9,[x10,x9,lsl #1]
	strh	w9,[x20,x8]
	add	x8,x8,#2
37:
	mov	x9,#52989
	mov	w11,#57600
	mov	w14,#10000
	movk	x9,#33889,lsl #16
	movk	w11,#1525,lsl #16
	mov	w16,#5977
	movk	x9,#30481,lsl #32
	mov	w15,#100
	movk	w16,#53687,lsl #16
	movk	x9,#43980,lsl #48
	adrp	x18,.Lrtp_static.42
	add	x18,x18,:lo12:.Lrtp_static.42
	umulh	x9,x2,x9
	add	x0,x20,x8
	add	x8,x8,#16
	lsr	x10,x9,#26
	mov	x9,#35011
	movk	x9,#58939,lsl #16
	movk	x9,#85,lsl #32
	umulh	x9,x10,x9
	lsr	x9,x9,#1
	umsubl	x11,w9,w11,x10
	mov	w9,#47291
	movk	w9,#1677,lsl #16
	msub	w10,w10,w21,w2
	mul	x9,x11,x9
	umull	x16,w10,w16
	lsr	x12,x9,#40
	mov	w9,#5243
	mul	w13,w12,w9
	msub	w11,w12,w14,w11
	lsr	w13,w13,#19
	ubfx	w17,w11,#2,#14
	msub	w12,w13,w15,w12
	ldrh	w13,[x18,w13,uxtw #1]
	mul	w17,w17,w9
	strh	w13,[x0]
	lsr	x13,x16,#45
	and	x12,x12,#0xffff
	ldrh	w12,[x18,x12,lsl #1]
	lsr	w16,w17,#17
	ubfx	w17,w13,#2,#14
	msub	w10,w13,w14,w10
	strh	w12,[x0,#2]
	msub	w11,w16,w15,w11
	ldrh	w12,[x18,w16,uxtw #1]
	mul	w16,w17,w9
	ubfx	w14,w10,#2,#14
	strh	w12,[x0,#4]
	and	x11,x11,#0xffff
	ldrh	w11,[x18,x11,lsl #1]
	lsr	w12,w16,#17
	mul	w9,w14,w9
	strh	w11,[x0,#6]
	msub	w11,w12,w15,w13
	ldrh	w12,[x18,w12,uxtw #1]
	lsr	w9,w9,#17
	strh	w12,[x0,#8]
	and	x11,x11,#0xffff
	msub	w10,w9,w15,w10
	ldrh	w11,[x18,x11,lsl #1]
	strh	w11,[x0,#10]
	ldrh	w9,[x18,w9,uxtw #1]
	strh	w9,[x0,#12]
	and	x9,x10,#0xffff
	ldrh	w9,[x18,x9,lsl #1]
	strh	w9,[x0,#14]
	b	28b
32:
	adrp	x11,.Lrtp_static.42
	add	x11,x11,:lo12:.Lrtp_static.42
	add	x8,x8,#10
	ldrh	w11,[x11,x10,lsl #1]
	strh	w11,[x20,x9]
	b	33f
23:
	adrp	x12,.Lrtp_static.42
	add	x12,x12,:lo12:.Lrtp_static.42
	add	x8,x8,#10
	ldrh	w12,[x12,w11,uxtw #1]
	strh	w12,[x20,x9]
	b	29f
5:
	adrp	x12,.Lrtp_static.42
	add	x12,x12,:lo12:.Lrtp_static.42
	add	x8,x8,#10
	ldrh	w11,[x12,w11,uxtw #1]
	strh	w11,[x20,x9]
10:
	mov	w9,#34079
	mov	w11,#100
	movk	w9,#20971,lsl #16
	umull	x9,w10,w9
	lsr	x9,x9,#37
	msub	w9,w9,w11,w10
	adrp	x11,.Lrtp_static.42
	add	x11,x11,:lo12:.Lrtp_static.42
	ldrh	w9,[x11,w9,uxtw #1]
	strh	w9,[x20,x8]
	add	x8,x8,#2
	b	33f
7:
	adrp	x13,.Lrtp_static.42
	add	x13,x13,:lo12:.Lrtp_static.42
	add	x8,x8,#10
	ldrh	w13,[x13,w12,uxtw #1]
	strh	w13,[x20,x9]
11:
	mov	w9,#100
	msub	w9,w12,w9,w11
	adrp	x12,.Lrtp_static.42
	add	x12,x12,:lo12:.Lrtp_static.42
	and	x9,x9,#0xffff
	ldrh	w9,[x12,x9,lsl #1]
	strh	w9,[x20,x8]
	add	x8,x8,#2
29:
	mov	w9,#10000
	mov	w12,#5243
	add	x13,x20,x8
	msub	w9,w11,w9,w10
	add	x8,x8,#4
	ubfx	w11,w9,#2,#14
	mul	w11,w11,w12
	mov	w12,#100
	lsr	w11,w11,#17
	msub	w9,w11,w12,w9
	adrp	x12,.Lrtp_static.42
	add	x12,x12,:lo12:.Lrtp_static.42
	ldrh	w11,[x12,w11,uxtw #1]
	strh	w11,[x13]
	and	x9,x9,#0xffff
	ldrh	w9,[x12,x9,lsl #1]
	strh	w9,[x13,#2]
33:
	mov	w9,#57600
	mov	w11,#5977
	mov	w12,#5243
	movk	w9,#1525,lsl #16
	movk	w11,#53687,lsl #16
	mov	w13,#10000
	msub	x9,x10,x9,x2
	adrp	x15,.Lrtp_static.42
	add	x15,x15,:lo12:.Lrtp_static.42
	mov	w10,w9
	umull	x10,w10,w11
	lsr	x10,x10,#45
	ubfx	w11,w10,#2,#14
	msub	w9,w10,w13,w9
	mov	w13,#100
	mul	w11,w11,w12
	ubfx	w14,w9,#2,#14
	lsr	w11,w11,#17
	mul	w12,w14,w12
	add	x14,x20,x8
	add	x8,x8,#8
	msub	w10,w11,w13,w10
	ldrh	w11,[x15,w11,uxtw #1]
	strh	w11,[x14]
	lsr	w11,w12,#17
	and	x10,x10,#0xffff
	ldrh	w10,[x15,x10,lsl #1]
	msub	w9,w11,w13,w9
	strh	w10,[x14,#2]
	ldrh	w10,[x15,w11,uxtw #1]
	and	x9,x9,#0xffff
	strh	w10,[x14,#4]
	ldrh	w9,[x15,x9,lsl #1]
	strh	w9,[x14,#6]
	b	28b
14:
	sub	x8,x29,#168
	mov	x19,x2
	add	x0,x8,#8
	bl	"std_alloc::vec::Vec::grow_amortized::<#fc13275a563fcb41>"
	cbz	w0,3f
	ldur	x22,[x29,#-152]
	mov	x2,x19
	ldurb	w8,[x29,#-136]
	cmp	w8,#1
	b.eq	24b
18:
	mov	w0,#184
	mov	w1,#8
	mov	x19,x2
	bl	rattle_alloc
	tbz	w0,#0,3f
	str	wzr,[x1]
	mov	x2,x19
	mov	w9,#1
	ldurb	w8,[x29,#-136]
	stp	x9,x1,[x29,#-136]
	cmp	w8,#1
	b.eq	5f
30:
	ldrh	w24,[x1,#2]
	mov	w8,#15
	bfi	x2,x21,#16,#48
	mov	x19,xzr
	mov	x25,xzr
	mov	x11,x1
	sub	x8,x8,x24
	neg	x21,x24
	mov	x14,x1
	mov	x26,x8
	mov	x12,x11
	mov	x9,x11
	ldrh	w11,[x12],#4
	cbz	x11,7f
8:
	mov	x10,xzr
10:
	ldr	w13,[x12,x10,lsl #2]
	cmp	w23,w13
	mov	w13,#2
	csel	w13,wzr,w13,lo
	csinc	w13,w13,wzr,ne
	cmp	w13,#2
	b.ne	11f
	add	x10,x10,#1
	cmp	x11,x10
	b.ne	10b
	mov	x10,x11
	b	10f
11:
	cbz	w13,10f
	b	11f
7:
	mov	x10,xzr
10:
	ldrh	w11,[x9,#2]
	add	x25,x10,x25,lsl #4
	add	x26,x26,#1
	cbz	w11,10f
	add	x11,x9,x10,lsl #3
	add	x21,x21,#1
	mov	x19,x10
	mov	x14,x9
	ldr	x11,[x11,#184]
	mov	x12,x11
	mov	x9,x11
	ldrh	w11,[x12],#4
	cbnz	x11,8b
	b	7b
11:
	add	x8,x14,x19,lsl #3
	add	x9,x24,x26
	ldr	x1,[sp,#144]
	cmp	x9,#15
	ldr	x9,[sp,#72]
	add	x8,x8,#184
	csel	x8,x9,x8,eq
	and	x9,x10,#0xf
	ldr	x8,[x8]
	ldrh	w11,[x8]
	cmp	x9,x11
	b.hs	5f
	add	x8,x8,x9,lsl #3
	mov	x25,#2808348672
	ldr	x26,[sp,#128]
	movk	x25,#46771,lsl #32
	mov	w21,#57600
	str	x22,[x8,#64]
	movk	x25,#3552,lsl #48
	movk	w21,#1525,lsl #16
7:
	ldp	x8,x9,[x29,#-160]
	adrp	x10,.Lrtp_CPI5_2
	ldr	q0,[x10,:lo12:.Lrtp_CPI5_2]
	add	x11,x8,x9,lsl #6
	mov	w8,#1
	add	x9,x9,#1
	str	w23,[x11]
	mov	w23,#1
	str	q0,[x11,#16]
	stp	x2,xzr,[x11,#32]
	stp	x8,xzr,[x11,#48]
	stur	x9,[x29,#-152]
	b	9b
10:
	ldur	x9,[x29,#-120]
	mov	x10,#9223372036854775806
	cmp	x9,x10
	b.hi	3f
	lsl	x9,x19,#3
	sub	x11,x26,x8
	sub	x12,x26,x8
	stp	x11,x2,[sp,#8]
	ldr	x11,[sp,#72]
	cmp	x12,#1
	add	x10,x14,x9
	str	x22,[sp]
	add	x10,x10,#184
	csel	x10,x11,x10,eq
	ldr	x10,[x10]
	ldrh	w10,[x10]
	cmp	w10,#15
	b.lo	8f
	ldrh	w9,[x1]
	cmp	w9,#15
	b.lo	9f
	cmp	w24,#10
	b.hi	3f
	mov	w0,#312
	mov	w1,#8
	mov	x22,x14
	bl	rattle_alloc
	tbz	w0,#0,3f
	add	w8,w24,#1
	mov	w9,#14
	ldr	x2,[sp,#16]
	strh	w8,[x1,#2]
	mov	x14,x22
	ldur	x8,[x29,#-128]
	strh	wzr,[x1]
	str	x8,[x1,#184]
	sub	x8,x9,x24
	stur	x1,[x29,#-128]
9:
	ldr	x11,[sp,#56]
	subs	x9,x26,x8
	stp	xzr,xzr,[x29,#-48]
	str	x9,[sp,#8]
	b.ls	9f
10:
	add	x9,x21,#15
	and	w10,w25,#0xf
	lsr	x25,x25,#4
	cmp	x8,x9
	strb	w10,[x11,x21]
	sub	x21,x21,#1
	b.lo	10b
9:
	mov	w9,#16
	ldur	q0,[x29,#-48]
	sub	x11,x9,x8
	cmp	x11,#2
	stur	q0,[x29,#-64]
	b.lo	9f
	sub	x9,x29,#64
	add	x24,x9,x8
	sub	x8,x29,#168
	add	x25,x8,#40
	b	10f
11:
	add	w21,w21,#1
	sub	w8,w8,#8
	strb	w21,[x24]
	strb	w8,[x24,#1]
12:
	add	x9,x14,w21,uxtb #3
	cmp	x11,#2
	sub	x11,x11,#1
	add	x24,x24,#1
	add	x25,x9,#184
	b.ls	13f
10:
	ldrb	w21,[x24]
	ldr	x14,[x25]
	lsl	x28,x21,#3
	add	x8,x14,x28
	ldr	x8,[x8,#184]
	ldrh	w8,[x8]
	cmp	w8,#15
	b.lo	12b
	ldrh	w8,[x14,#2]
	str	x11,[sp,#48]
	subs	x19,x8,#1
	b.eq	10f
	mov	w0,#312
	b	14f
10:
	mov	w0,#184
14:
	mov	w1,#8
	bl	rattle_alloc
	tbz	w0,#0,10f
	strh	w19,[x1,#2]
	mov	x26,x1
	add	x12,x1,#64
	ldr	x10,[x25]
	add	x8,x10,#184
	ldrh	w9,[x10,#2]
	ldrh	w11,[x10]
	ldr	x14,[x8,x28]
	stp	x8,x10,[sp,#104]
	add	x8,x1,#4
	cmp	w9,#0
	str	x11,[sp,#96]
	ldrh	w15,[x14]
	add	x10,x14,#36
	csinc	x9,xzr,x11,eq
	sub	x8,x8,x10
	ldrh	w10,[x14,#2]
	stp	x9,x25,[sp,#32]
	sub	x25,x15,#8
	lsl	x2,x25,#2
	str	w10,[sp,#24]
	cmp	x8,x2
	b.hs	14f
	cbz	x25,15f
	cmp	x25,#8
	b.lo	16f
	sub	x8,x26,x14
	sub	x8,x8,#32
	cmp	x8,#32
	b.hs	17f
16:
	mov	x8,xzr
16:
	lsl	x9,x8,#2
	sub	x8,x15,x8
	sub	x8,x8,#8
	add	x10,x14,x9
	add	x11,x26,x9
	add	x9,x10,#36
	add	x10,x11,#4
18:
	ldr	w11,[x9],#4
	subs	x8,x8,#1
	str	w11,[x10],#4
	b.ne	18b
	b	18f
14:
	add	x0,x26,#4
	add	x1,x14,#36
	mov	x19,x14
	sub	x22,x15,#8
	mov	x25,x15
	bl	memmove
	add	x12,x26,#64
	mov	x15,x25
	mov	x25,x22
	mov	x14,x19
18:
	add	x1,x14,#128
	lsl	x2,x25,#3
	sub	x8,x12,x1
	cmp	x8,x2
	b.hs	14f
	ldr	x13,[sp,#112]
	cbz	x25,19f
	cmp	x25,#4
	b.lo	20f
	sub	x8,x26,x14
	sub	x8,x8,#64
	cmp	x8,#32
	b.hs	21f
20:
	mov	x8,xzr
20:
	lsl	x9,x8,#3
	sub	x8,x15,x8
	sub	x8,x8,#8
	add	x10,x14,x9
	add	x11,x26,x9
	add	x9,x10,#128
	add	x10,x11,#64
22:
	ldr	x11,[x9],#8
	subs	x8,x8,#1
	str	x11,[x10],#8
	b.ne	22b
	b	19f
14:
	mov	x22,x15
	mov	x19,x14
	b	14f
15:
	sub	x25,x15,#8
	mov	x22,x15
	mov	x2,xzr
	mov	x19,x14
	add	x1,x14,#128
14:
	add	x0,x26,#64
	bl	memmove
	ldr	x13,[sp,#112]
	mov	x14,x19
	mov	x15,x22
19:
	ldr	w17,[x14,#32]
	ldr	x16,[x14,#120]
	ldr	w8,[sp,#24]
	str	x21,[sp,#64]
	cbz	w8,14f
	sub	x8,x15,#7
	add	x9,x26,#184
	add	x10,x14,#248
	lsl	x2,x8,#3
	sub	x9,x9,x10
	cmp	x9,x2
	b.hs	15f
	cbz	x8,14f
	cmp	x8,#4
	b.lo	22f
	sub	x9,x26,x14
	sub	x9,x9,#64
	cmp	x9,#32
	b.hs	23f
22:
	mov	x9,xzr
22:
	lsl	x8,x9,#3
	sub	x9,x15,x9
	add	x10,x14,x8
	add	x11,x26,x8
	sub	x8,x9,#7
	add	x9,x10,#248
	add	x10,x11,#184
24:
	ldr	x11,[x9],#8
	subs	x8,x8,#1
	str	x11,[x10],#8
	b.ne	24b
	b	14f
15:
	add	x0,x26,#184
	add	x1,x14,#248
	mov	x19,x14
	mov	x21,x28
	mov	x28,x16
	mov	w22,w17
	bl	memmove
	ldr	x13,[sp,#112]
	mov	w17,w22
	mov	x16,x28
	mov	x28,x21
	mov	x14,x19
14:
	mov	w8,#7
	mov	x10,x26
	add	x9,x13,#4
	strh	w8,[x14]
	ldr	x8,[sp,#64]
	mov	x19,x10
	strh	w25,[x26]
	mov	x26,x24
	add	x22,x13,#64
	add	x25,x9,x8,lsl #2
	ldp	x9,x10,[sp,#96]
	subs	x24,x9,x8
	str	x14,[x10,x8,lsl #3]
	b.ne	15f
	str	w17,[x25]
	b	24f
15:
	lsl	x2,x24,#2
	add	x0,x25,#4
	mov	x1,x25
	str	x16,[sp,#24]
	mov	x21,x22
	mov	w22,w17
	bl	memmove
	lsl	x2,x24,#3
	add	x1,x21,x28
	str	w22,[x25]
	add	x0,x1,#8
	mov	x22,x21
	bl	memmove
	ldr	x16,[sp,#24]
	ldr	x10,[sp,#104]
24:
	ldp	x11,x25,[sp,#32]
	mov	x24,x26
	ldr	x21,[sp,#64]
	mov	x26,x19
	add	x9,x21,#1
	str	x16,[x22,x21,lsl #3]
	subs	x8,x11,x9
	b.ne	15f
	lsl	x19,x11,#3
	b	24f
15:
	lsl	x19,x9,#3
	lsl	x2,x8,#3
	add	x1,x10,x19
	add	x0,x1,#8
	bl	memmove
	ldr	x10,[sp,#104]
24:
	ldrb	w8,[x24,#1]
	ldr	x9,[sp,#96]
	ldr	x2,[sp,#16]
	ldr	x14,[sp,#112]
	ldr	x11,[sp,#48]
	str	x26,[x10,x19]
	add	x9,x9,#1
	cmp	w8,#7
	strh	w9,[x14]
	str	x14,[x25]
	b.hi	11b
	ldrb	w21,[x24]
	b	12b
17:
	and	x8,x25,#0xfffffffffffffff8
	add	x9,x14,#52
	add	x10,x26,#20
	and	x11,x25,#0xfffffffffffffff8
11:
	ldp	q0,q1,[x9,#-16]
	subs	x11,x11,#8
	add	x9,x9,#32
	stp	q0,q1,[x10,#-16]
	add	x10,x10,#32
	b.ne	11b
	cmp	x25,x8
	b.eq	18b
	b	16b
21:
	and	x8,x25,#0xfffffffffffffffc
	add	x9,x14,#144
	add	x10,x26,#80
	and	x11,x25,#0xfffffffffffffffc
11:
	ldp	q0,q1,[x9,#-16]
	subs	x11,x11,#4
	add	x9,x9,#32
	stp	q0,q1,[x10,#-16]
	add	x10,x10,#32
	b.ne	11b
	cmp	x25,x8
	b.eq	19b
	b	20b
23:
	and	x9,x8,#0xfffffffffffffffc
	add	x10,x14,#264
	add	x11,x26,#200
	and	x12,x8,#0xfffffffffffffffc
11:
	ldp	q0,q1,[x10,#-16]
	subs	x12,x12,#4
	add	x10,x10,#32
	stp	q0,q1,[x11,#-16]
	add	x11,x11,#32
	b.ne	11b
	cmp	x8,x9
	b.eq	14b
	b	22b
13:
	mov	w8,w21
	ldur	x1,[x29,#-128]
	and	x19,x8,#0xff
9:
	ldrh	w8,[x1]
	cbz	w8,9f
	ldurb	w8,[x29,#-136]
	cmp	w8,#1
	b.ne	5f
	ldurb	w25,[x29,#-49]
	lsl	x9,x19,#3
8:
	add	x8,x14,x9
	ldr	x9,[sp,#8]
	and	x26,x25,#0xf
	add	x8,x8,#184
	cmp	x9,#1
	ldr	x9,[sp,#72]
	csel	x19,x9,x8,eq
	ldr	x21,[x19]
	mov	x22,x21
	add	x8,x21,x26,lsl #2
	ldrh	w25,[x22],#64
	add	x24,x8,#4
	subs	x28,x25,x26
	b.ne	8f
	lsl	x26,x26,#3
	str	w23,[x24]
	b	11f
8:
	lsl	x2,x28,#2
	add	x0,x24,#4
	mov	x1,x24
	bl	memmove
	lsl	x26,x26,#3
	lsl	x2,x28,#3
	str	w23,[x24]
	add	x1,x22,x26
	add	x0,x1,#8
	bl	memmove
	ldr	x2,[sp,#16]
11:
	add	w8,w25,#1
	ldr	x9,[sp]
	mov	x25,#2808348672
	str	x9,[x22,x26]
	ldr	x26,[sp,#128]
	movk	x25,#46771,lsl #32
	strh	w8,[x21]
	ldr	x1,[sp,#144]
	add	x28,sp,#184
	str	x21,[x19]
	mov	w21,#57600
	movk	x25,#3552,lsl #48
	ldur	x8,[x29,#-120]
	movk	w21,#1525,lsl #16
	add	x8,x8,#1
	stur	x8,[x29,#-120]
	b	7b
1:
	ldrb	w8,[sp,#448]
	cmp	w8,#1
	b.ne	1f
	ldp	x19,x21,[sp,#464]
	ldr	x22,[sp,#480]
	cbz	x21,7f
	mov	x23,xzr
	b	8f
11:
	add	x23,x23,#1
	cmp	x23,x21
	b.eq	7f
8:
	mov	w8,#24
	madd	x8,x23,x8,x19
	ldp	x20,x24,[x8]
	ldr	x25,[x8,#16]
	cbz	x24,8f
	add	x26,x20,#16
	b	12f
13:
	subs	x24,x24,#1
	add	x26,x26,#32
	b.eq	8f
12:
	ldr	x8,[x26]
	cbz	x8,13b
	ldur	x0,[x26,#-16]
	bl	rattle_dealloc
	b	13b
8:
	cbz	x25,11b
	mov	x0,x20
	bl	rattle_dealloc
	b	11b
7:
	cbz	x22,1f
	mov	x0,x19
	bl	rattle_dealloc
1:
	ldur	x8,[x29,#-176]
	cbz	x8,1f
	sub	x0,x29,#32
7:
	bl	rattle_dealloc
1:
	ldur	x8,[x29,#-144]
	ldurb	w22,[x29,#-136]
	ldur	x20,[x29,#-128]
	ldur	x19,[x29,#-104]
	ldur	x21,[x29,#-88]
	cbz	x8,8f
	ldur	x0,[x29,#-160]
	bl	rattle_dealloc
8:
	cmp	w22,#1
	b.ne	8f
	mov	x0,x20
	bl	"std_collections::btree::node::Node::destroy::<#2fe7f96373f75378>"
8:
	cbz	x21,8f
	mov	x0,x19
	bl	rattle_dealloc
8:
	mov	w0,#1
	mov	w1,#2
	b	8f
2:
	mov	x1,xzr
6:
	mov	x0,x20
	bl	"rtp_listing::printing::write_text::<#df9e9f1468b30f79>"
	tst	w0,#0x1
	and	w19,w0,#0xff
	mov	x0,x20
	csel	w21,w1,wzr,ne
	bl	rattle_dealloc
	ldrb	w8,[sp,#448]
	cmp	w8,#1
	cbz	w19,2f
	b.ne	6f
	ldp	x19,x22,[sp,#464]
	ldr	x23,[sp,#480]
	cbz	x22,11f
	mov	x24,xzr
	b	12f
13:
	add	x24,x24,#1
	cmp	x24,x22
	b.eq	11f
12:
	mov	w8,#24
	madd	x8,x24,x8,x19
	ldp	x20,x25,[x8]
	ldr	x26,[x8,#16]
	cbz	x25,12f
	add	x27,x20,#16
	b	14f
15:
	subs	x25,x25,#1
	add	x27,x27,#32
	b.eq	12f
14:
	ldr	x8,[x27]
	cbz	x8,15b
	ldur	x0,[x27,#-16]
	bl	rattle_dealloc
	b	15b
12:
	cbz	x26,13b
	mov	x0,x20
	bl	rattle_dealloc
	b	13b
2:
	b.ne	2f
	ldr	x8,[sp,#464]
	ldr	q0,[x28,#288]
	add	x0,sp,#160
	str	x8,[sp,#160]
	stur	q0,[sp,#168]
	bl	"std_alloc::vec::Vec::drop::<#96fc43e7743eb198>"
2:
	ldur	x8,[x29,#-176]
	cbz	x8,2f
	ldur	x0,[x29,#-192]
	bl	rattle_dealloc
2:
	ldur	x8,[x29,#-144]
	ldurb	w22,[x29,#-136]
	ldur	x20,[x29,#-128]
	ldur	x19,[x29,#-104]
	ldur	x21,[x29,#-88]
	cbz	x8,2f
	ldur	x0,[x29,#-160]
	bl	rattle_dealloc
2:
	cmp	w22,#1
	b.ne	2f
	mov	x0,x20
	bl	"std_collections::btree::node::Node::destroy::<#2fe7f96373f75378>"
2:
	cbz	x21,2f
	mov	x0,x19
	bl	rattle_dealloc
2:
	mov	w1,wzr
	mov	w0,wzr
	b	8f
4:
	mov	x0,x20
	mov	w21,w1
	bl	rattle_dealloc
	ldrb	w8,[sp,#448]
	cmp	w8,#1
	b.ne	6f
	ldp	x19,x22,[sp,#464]
	ldr	x23,[sp,#480]
	cbz	x22,11f
	mov	x24,xzr
	b	2f
4:
	add	x24,x24,#1
	cmp	x24,x22
	b.eq	11f
2:
	mov	w8,#24
	madd	x8,x24,x8,x19
	ldp	x20,x25,[x8]
	ldr	x26,[x8,#16]
	cbz	x25,2f
	add	x27,x20,#16
	b	12f
13:
	subs	x25,x25,#1
	add	x27,x27,#32
	b.eq	2f
12:
	ldr	x8,[x27]
	cbz	x8,13b
	ldur	x0,[x27,#-16]
	bl	rattle_dealloc
	b	13b
2:
	cbz	x26,4b
	mov	x0,x20
	bl	rattle_dealloc
	b	4b
11:
	cbz	x23,6f
2:
	mov	x0,x19
	bl	rattle_dealloc
6:
	ldur	x8,[x29,#-176]
	cbz	x8,4f
	ldur	x0,[x29,#-192]
	bl	rattle_dealloc
4:
	ldur	x8,[x29,#-144]
	ldurb	w23,[x29,#-136]
	ldur	x20,[x29,#-128]
	ldur	x19,[x29,#-104]
	ldur	x22,[x29,#-88]
	cbz	x8,4f
	ldur	x0,[x29,#-160]
	bl	rattle_dealloc
4:
	cmp	w23,#1
	b.ne	4f
	mov	x0,x20
	bl	"std_collections::btree::node::Node::destroy::<#2fe7f96373f75378>"
4:
	cbz	x22,4f
	mov	x0,x19
	bl	rattle_dealloc
4:
	mov	w0,#1
	mov	w1,w21
8:
	add	sp,sp,#688
	ldp	x20,x19,[sp,#80]
	ldp	x22,x21,[sp,#64]
	ldp	x24,x23,[sp,#48]
	ldp	x26,x25,[sp,#32]
	ldp	x28,x27,[sp,#16]
	ldp	x29,x30,[sp],#96
	ret
10:
	ldur	x1,[x29,#-128]
	ldrh	w8,[x1]
	cbnz	w8,3f
9:
	ldrh	w8,[x1,#2]
	cbz	w8,3f
	ldr	x19,[x1,#184]
	mov	x0,x1
	bl	rattle_dealloc
	stur	x19,[x29,#-128]
3:
	ldr	x1,[sp,#144]
	mov	x0,x20
	bl	"rtp_listing::printing::write_text::<#df9e9f1468b30f79>"
	tst	w0,#0x1
	and	w24,w0,#0xff
	mov	x0,x20
	csel	w21,w1,wzr,ne
	bl	rattle_dealloc
	ldrb	w8,[sp,#448]
	ldp	x19,x23,[sp,#464]
	ldr	x22,[sp,#480]
	cmp	w8,#1
	cbz	w24,3f
	b.ne	6b
	cbz	x23,4f
	mov	x24,xzr
	b	8f
9:
	add	x24,x24,#1
	cmp	x24,x23
	b.eq	4f
8:
	mov	w8,#24
	madd	x8,x24,x8,x19
	ldp	x20,x25,[x8]
	ldr	x26,[x8,#16]
	cbz	x25,8f
	add	x27,x20,#16
	b	10f
11:
	subs	x25,x25,#1
	add	x27,x27,#32
	b.eq	8f
10:
	ldr	x8,[x27]
	cbz	x8,11b
	ldur	x0,[x27,#-16]
	bl	rattle_dealloc
	b	11b
8:
	cbz	x26,9b
	mov	x0,x20
	bl	rattle_dealloc
	b	9b
3:
	b.ne	3f
	cbz	x23,8f
	mov	x21,xzr
	b	9f
10:
	add	x21,x21,#1
	cmp	x21,x23
	b.eq	8f
9:
	mov	w8,#24
	madd	x8,x21,x8,x19
	ldp	x20,x24,[x8]
	ldr	x25,[x8,#16]
	cbz	x24,9f
	add	x26,x20,#16
	b	11f
12:
	subs	x24,x24,#1
	add	x26,x26,#32
	b.eq	9f
11:
	ldr	x8,[x26]
	cbz	x8,12b
	ldur	x0,[x26,#-16]
	bl	rattle_dealloc
	b	12b
9:
	cbz	x25,10b
	mov	x0,x20
	bl	rattle_dealloc
	b	10b
4:
	cbnz	x22,2b
	b	6b
8:
	cbz	x22,3f
	mov	x0,x19
	bl	rattle_dealloc
3:
	ldur	x8,[x29,#-176]
	cbz	x8,1b
	ldur	x0,[x29,#-192]
	b	7b
5:
	brk	#0x1
	.size	"rtp_listing::printing::print_all::<#df9e9f1468b30f79>", .-"rtp_listing::printing::print_all::<#df9e9f1468b30f79>"
	.cfi_endproc

	.section	.rodata.cst8,"aM",@progbits,8
	.p2align	3,0x0
.Lrtp_CPI6_0:
	.word	100
	.word	0
	.section	".text.rtp_ext::block_values::read_values::<#77e50c5f4ddfc773>","ax",@progbits
	.p2align	2
	.type	"rtp_ext::block_values::read_values::<#77e50c5f4ddfc773>",@function
"rtp_ext::block_values::read_values::<#77e50c5f4ddfc773>":
	.cfi_startproc
	sub	sp,sp,#240
	stp	x29,x30,[sp,#144]
	str	x27,[sp,#160]
	stp	x26,x25,[sp,#176]
	stp	x24,x23,[sp,#192]
	stp	x22,x21,[sp,#208]
	stp	x20,x19,[sp,#224]
	add	x29,sp,#144
	.cfi_def_cfa w29,96
	.cfi_offset w19,-8
	.cfi_offset w20,-16
	.cfi_offset w21,-24
	.cfi_offset w22,-32
	.cfi_offset w23,-40
	.cfi_offset w24,-48
	.cfi_offset w25,-56
	.cfi_offset w26,-64
	.cfi_offset w27,-80
	.cfi_offset w30,-88
	.cfi_offset w29,-96
	mov	x19,x4
	mov	x20,x2
	mov	x8,x1
	tst	w3,#0xff
	b.eq	1f
	cbz	x20,2f
	mov	w9,#10202
	add	x25,x0,x9
	b	3f
1:
	cbz	x20,2f
	mov	w9,#10202
	add	x25,x0,x9
	b	1f
4:
	ldrb	w8,[x21]
	mov	w9,#1
	strb	w9,[x19]
	and	w10,w8,#0x7f
	lsr	w8,w8,#7
	strb	w9,[x19,#2]
	neg	w9,w10
	strb	w9,[x19,#1]
	strb	w8,[x19,#3]
5:
	mov	x8,x26
	cbz	x20,2f
1:
	ldrb	w10,[x8]
	cbnz	w10,1f
	cmp	x20,#2
	b.eq	6f
	cmp	x20,#1
	b.eq	2f
	cmp	x20,#3
	b.hi	7f
	ldrb	w9,[x8,#1]
	cbnz	w9,7f
	ldrb	w9,[x8,#2]
	cbnz	w9,7f
	b	2f
6:
	ldrb	w9,[x8,#1]
	cbz	w9,2f
7:
	sub	x1,x20,#1
	add	x0,x8,#1
	bl	"rtp_ext::elements::skip_zeros"
	cbz	x1,2f
	ldrb	w10,[x0]
	mov	x20,x1
	mov	x8,x0
1:
	cmp	w10,#239
	b.hi	2f
	and	w9,w10,#0xf
	add	w11,w9,#2
	subs	x20,x20,x11
	b.lo	2f
	lsr	w10,w10,#3
	add	x26,x8,x11
	and	x10,x10,#0x1e
	add	x10,x25,x10
	ldrb	w12,[x10]
	cmp	w12,#1
	b.ne	5b
	ldrb	w10,[x10,#1]
	sub	x22,x11,#1
	adrp	x11,1f
	add	x11,x11,:lo12:1f
	add	x21,x8,#1
	adr	x12,4b
	ldrh	w13,[x11,x10,lsl #1]
	add	x12,x12,x13,lsl #2
	br	x12
6:
	cmp	w9,#2
	b.lo	5b
	ldrb	w9,[x8,#1]
	ldrb	w10,[x8,#2]
	ldrb	w8,[x8,#3]
	lsl	w9,w9,#8
	orr	w9,w9,w10,lsl #16
	orr	w8,w9,w8,lsl #24
	mov	w9,#16960
	movk	w9,#15,lsl #16
	rev	w8,w8
	umull	x8,w8,w9
	mov	w9,#1
	lsr	x8,x8,#18
	stp	x9,x8,[x19,#16]
	b	5b
7:
	cbz	w9,8f
	cbz	x20,9f
10:
	ldrb	w8,[x26]
	mov	x23,x26
	mov	x1,x20
	cbnz	w8,11f
	cmp	x20,#2
	b.eq	12f
	cmp	x20,#1
	b.eq	13f
	cmp	x20,#3
	b.hi	14f
	ldrb	w8,[x26,#1]
	cbnz	w8,14f
	ldrb	w8,[x26,#2]
	cbnz	w8,14f
	b	13f
12:
	ldrb	w8,[x26,#1]
	cbz	w8,13f
14:
	add	x0,x26,#1
	sub	x1,x20,#1
	bl	"rtp_ext::elements::skip_zeros"
	cbz	x1,13f
	ldrb	w8,[x0]
	mov	x23,x0
11:
	cmp	w8,#239
	b.hi	13f
	and	w9,w8,#0xf
	add	w9,w9,#2
	subs	x27,x1,x9
	b.lo	13f
	lsr	w8,w8,#3
	and	x8,x8,#0x1e
	add	x8,x25,x8
	ldrb	w10,[x8]
	cmp	w10,#1
	b.ne	11f
	ldrb	w8,[x8,#1]
	cmp	w8,#14
	b.ne	11f
	sub	x24,x9,#1
	add	x0,x23,#1
	add	x26,x23,x9
	mov	x1,x24
	bl	"rtp_ext::block_values::is_another_allocation"
	cmp	w0,#0
	mov	x20,x27
	csel	x22,x24,x22,ne
	csinc	x21,x21,x23,eq
	cbnz	x27,10b
	b	9f
10:
	cmp	w9,#7
	stp	xzr,xzr,[x29,#-56]
	stur	xzr,[x29,#-40]
	b.hi	12f
	ldrsb	x9,[x21]
	tbnz	x9,#63,12f
	adrp	x16,.Lrtp_static.37
	add	x16,x16,:lo12:.Lrtp_static.37
	cmp	x22,#1
	ldrb	w9,[x16,x9]
	b.ne	14f
	mov	x8,#2305843009213693952
	mov	w14,#32
	mov	w15,#32
	mov	w13,#32
	mov	w12,#32
	mov	w11,#32
	mov	w10,#32
	b	15f
16:
	cmp	w9,#3
	b.lo	5b
	ldr	w8,[x21]
	mov	w9,#1
	rev	w8,w8
	stp	w9,w8,[x19,#8]
	b	5b
17:
	mov	x8,xzr
	mov	x9,#2314885530818453536
	stp	xzr,xzr,[sp,#16]
	stp	xzr,xzr,[sp,#48]
	stp	xzr,xzr,[sp,#32]
	stp	xzr,xzr,[x29,#-48]
	stur	xzr,[x29,#-56]
	stp	xzr,xzr,[sp,#64]
	stp	x9,x9,[x29,#-32]
18:
	ldrsb	x9,[x21,x8]
	tbnz	x9,#63,19f
	adrp	x10,.Lrtp_static.37
	add	x10,x10,:lo12:.Lrtp_static.37
	ldrb	w9,[x10,x9]
	sub	x10,x29,#32
	strb	w9,[x10,x8]
	add	x8,x8,#1
	cmp	x22,x8
	b.ne	18b
	ldur	q0,[x29,#-32]
	b	18f
20:
	cmp	w9,#8
	b.lo	5b
	ldrb	w9,[x8,#1]
	ldrh	w10,[x8,#2]
	mov	w13,#1
	ldrh	w11,[x8,#4]
	ldrh	w12,[x8,#6]
	ldrh	w8,[x8,#8]
	rev	w10,w10
	strb	w9,[x19,#122]
	rev	w11,w11
	rev	w12,w12
	rev	w8,w8
	lsr	w10,w10,#16
	lsr	w9,w11,#16
	lsr	w11,w12,#16
	lsr	w8,w8,#16
	strb	wzr,[x19,#123]
	strh	w13,[x19,#120]
	strh	w10,[x19,#124]
	strh	w9,[x19,#126]
	strh	w11,[x19,#128]
	strh	w8,[x19,#130]
	b	5b
21:
	cmp	w9,#7
	b.lo	5b
	cmp	w9,#15
	b.ne	22f
	ldur	x8,[x8,#9]
	rev	x8,x8
	b	23f
24:
	cmp	w9,#2
	b.lo	5b
	ldrb	w9,[x8,#1]
	ldrb	w10,[x8,#2]
	ldrb	w8,[x8,#3]
	lsl	w9,w9,#8
	orr	w9,w9,w10,lsl #16
	adrp	x10,.Lrtp_CPI6_0
	ldr	d0,[x10,:lo12:.Lrtp_CPI6_0]
	orr	w8,w9,w8,lsl #24
	mov	w9,#1
	str	d0,[x19,#88]
	rev	w8,w8
	str	d0,[x19,#112]
	and	w10,w8,#0xfff
	lsr	w8,w8,#12
	stp	x9,x10,[x19,#96]
	stp	x9,x8,[x19,#72]
	b	5b
25:
	ldrb	w8,[x21]
	mov	w9,#1
	strb	w9,[x19,#4]
	and	w8,w8,#0x3
	strb	w8,[x19,#5]
	b	5b
26:
	cmp	w9,#3
	b.lo	5b
	ldr	w8,[x21]
	mov	w9,#1
	rev	w8,w8
	stp	w9,w8,[x19,#168]
	b	5b
27:
	cbz	w9,5b
	ldrh	w8,[x21]
	mov	w9,#1
	strh	w9,[x19,#64]
	rev	w8,w8
	lsr	w8,w8,#16
	strh	w8,[x19,#66]
	b	5b
28:
	cmp	w9,#7
	stp	xzr,xzr,[x29,#-56]
	stur	xzr,[x29,#-40]
	b.hi	29f
	ldrsb	x9,[x21]
	tbnz	x9,#63,29f
	adrp	x16,.Lrtp_static.37
	add	x16,x16,:lo12:.Lrtp_static.37
	cmp	x22,#1
	ldrb	w9,[x16,x9]
	b.ne	30f
	mov	x8,#2305843009213693952
	mov	w14,#32
	mov	w15,#32
	mov	w13,#32
	mov	w12,#32
	mov	w11,#32
	mov	w10,#32
	b	31f
32:
	ldrb	w8,[x21]
	mov	w9,#1
	strb	w9,[x19,#6]
	strb	w8,[x19,#7]
	b	5b
19:
	sub	x0,x29,#56
	mov	x1,x21
	mov	x2,x22
	bl	"core::str::utf8::from_utf8"
	ldurb	w8,[x29,#-56]
	cbz	w8,19f
	ldr	q0,[sp,#32]
	str	q0,[sp,#16]
	b	5b
8:
	mov	w22,#1
	b	11f
13:
	mov	x20,xzr
9:
	adrp	x26,.Lrtp_static.5
	add	x26,x26,:lo12:.Lrtp_static.5
11:
	mov	x0,x19
	mov	x1,x21
	mov	x2,x22
	bl	"rtp_values::value::set_values::ExtensionValuesSetValues::read_layers"
	tst	w0,#0xff
	b.eq	5b
	b	8f
22:
	mov	x8,xzr
23:
	ldr	x10,[x21]
	cmp	w9,#15
	mov	w11,#1
	rev	x9,x10
	cset	w10,eq
	stp	x11,x9,[x19,#32]
	stp	x10,x8,[x19,#48]
	b	5b
19:
	ldp	x9,x8,[x29,#-48]
	mov	x10,#2314885530818453536
	stp	x10,x10,[x29,#-16]
	cbz	x8,9f
	mov	x10,xzr
	mov	x11,xzr
11:
	ldrsb	w12,[x9,x11]
	cmn	w12,#64
	b.lt	13f
	and	x12,x12,#0xff
	adrp	x13,.Lrtp_static.37
	add	x13,x13,:lo12:.Lrtp_static.37
	ldrb	w12,[x13,x12]
	sub	x13,x29,#16
	strb	w12,[x13,x10]
	add	x10,x10,#1
13:
	add	x11,x11,#1
	cmp	x11,x8
	b.hs	9f
	cmp	x10,#16
	b.ne	11b
9:
	ldur	q0,[x29,#-16]
18:
	str	q0,[sp,#48]
	mov	w8,#1
	ldr	q0,[sp,#48]
	strb	w8,[x19,#150]
	str	q0,[sp,#16]
	stur	q0,[x19,#151]
	b	5b
14:
	ldrsb	x10,[x8,#2]
	tbnz	x10,#63,12f
	ldrb	w10,[x16,x10]
	cmp	x22,#2
	b.ne	9f
	mov	x8,#2305843009213693952
	mov	w14,#32
	mov	w15,#32
	mov	w13,#32
	mov	w12,#32
	mov	w11,#32
	b	15f
30:
	ldrsb	x10,[x8,#2]
	tbnz	x10,#63,29f
	ldrb	w10,[x16,x10]
	cmp	x22,#2
	b.ne	11f
	mov	x8,#2305843009213693952
	mov	w14,#32
	mov	w15,#32
	mov	w13,#32
	mov	w12,#32
	mov	w11,#32
	b	31f
9:
	ldrsb	x11,[x8,#3]
	tbnz	x11,#63,12f
	ldrb	w11,[x16,x11]
	cmp	x22,#3
	b.ne	9f
	mov	x8,#2305843009213693952
	mov	w14,#32
	mov	w15,#32
	mov	w13,#32
	mov	w12,#32
	b	15f
11:
	ldrsb	x11,[x8,#3]
	tbnz	x11,#63,29f
	ldrb	w11,[x16,x11]
	cmp	x22,#3
	b.ne	11f
	mov	x8,#2305843009213693952
	mov	w14,#32
	mov	w15,#32
	mov	w13,#32
	mov	w12,#32
	b	31f
9:
	ldrsb	x12,[x8,#4]
	tbnz	x12,#63,12f
	ldrb	w12,[x16,x12]
	cmp	x22,#4
	b.ne	9f
	mov	x8,#2305843009213693952
	mov	w14,#32
	mov	w15,#32
	mov	w13,#32
	b	15f
11:
	ldrsb	x12,[x8,#4]
	tbnz	x12,#63,29f
	ldrb	w12,[x16,x12]
	cmp	x22,#4
	b.ne	11f
	mov	x8,#2305843009213693952
	mov	w14,#32
	mov	w15,#32
	mov	w13,#32
	b	31f
9:
	ldrsb	x13,[x8,#5]
	tbnz	x13,#63,12f
	ldrb	w13,[x16,x13]
	cmp	x22,#5
	b.ne	9f
	mov	x8,#2305843009213693952
	mov	w14,#32
	mov	w15,#32
	b	15f
11:
	ldrsb	x13,[x8,#5]
	tbnz	x13,#63,29f
	ldrb	w13,[x16,x13]
	cmp	x22,#5
	b.ne	11f
	mov	x8,#2305843009213693952
	mov	w14,#32
	mov	w15,#32
	b	31f
9:
	ldrsb	x14,[x8,#6]
	tbnz	x14,#63,12f
	ldrb	w15,[x16,x14]
	cmp	x22,#6
	b.ne	9f
	mov	x8,#2305843009213693952
	mov	w14,#32
	b	15f
11:
	ldrsb	x14,[x8,#6]
	tbnz	x14,#63,29f
	ldrb	w15,[x16,x14]
	cmp	x22,#6
	b.ne	11f
	mov	x8,#2305843009213693952
	mov	w14,#32
	b	31f
9:
	ldrsb	x14,[x8,#7]
	tbnz	x14,#63,12f
	ldrb	w14,[x16,x14]
	cmp	x22,#7
	b.ne	9f
	mov	x8,#2305843009213693952
	b	15f
11:
	ldrsb	x14,[x8,#7]
	tbnz	x14,#63,29f
	ldrb	w14,[x16,x14]
	cmp	x22,#7
	b.ne	11f
	mov	x8,#2305843009213693952
	b	31f
9:
	ldrsb	x8,[x8,#8]
	tbnz	x8,#63,12f
	ldrb	w8,[x16,x8]
	lsl	x8,x8,#56
15:
	orr	x8,x8,x14,lsl #48
	orr	x8,x8,x15,lsl #40
	orr	x8,x8,x13,lsl #32
	orr	x8,x8,x12,lsl #24
	orr	x8,x8,x11,lsl #16
	orr	x8,x8,x10,lsl #8
	orr	x10,x8,x9
	b	9f
12:
	sub	x0,x29,#56
	mov	x1,x21
	mov	x2,x22
	bl	"core::str::utf8::from_utf8"
	ldurb	w8,[x29,#-56]
	cbnz	w8,5b
	ldp	x9,x8,[x29,#-48]
	mov	x10,#2314885530818453536
	stur	x10,[x29,#-16]
	cbz	x8,9f
	mov	x10,xzr
	mov	x11,xzr
12:
	ldrsb	w12,[x9,x11]
	cmn	w12,#64
	b.lt	13f
	and	x12,x12,#0xff
	adrp	x13,.Lrtp_static.37
	add	x13,x13,:lo12:.Lrtp_static.37
	ldrb	w12,[x13,x12]
	sub	x13,x29,#16
	strb	w12,[x13,x10]
	add	x10,x10,#1
13:
	add	x11,x11,#1
	cmp	x11,x8
	b.hs	13f
	cmp	x10,#8
	b.ne	12b
13:
	ldur	x10,[x29,#-16]
9:
	mov	w8,#1
	stur	x10,[x19,#142]
	strb	w8,[x19,#141]
	b	5b
11:
	ldrsb	x8,[x8,#8]
	tbnz	x8,#63,29f
	ldrb	w8,[x16,x8]
	lsl	x8,x8,#56
31:
	orr	x8,x8,x14,lsl #48
	orr	x8,x8,x15,lsl #40
	orr	x8,x8,x13,lsl #32
	orr	x8,x8,x12,lsl #24
	orr	x8,x8,x11,lsl #16
	orr	x8,x8,x10,lsl #8
	orr	x10,x8,x9
	b	9f
29:
	sub	x0,x29,#56
	mov	x1,x21
	mov	x2,x22
	bl	"core::str::utf8::from_utf8"
	ldurb	w8,[x29,#-56]
	cbnz	w8,5b
	ldp	x9,x8,[x29,#-48]
	mov	x10,#2314885530818453536
	stur	x10,[x29,#-16]
	cbz	x8,9f
	mov	x10,xzr
	mov	x11,xzr
11:
	ldrsb	w12,[x9,x11]
	cmn	w12,#64
	b.lt	12f
	and	x12,x12,#0xff
	adrp	x13,.Lrtp_static.37
	add	x13,x13,:lo12:.Lrtp_static.37
	ldrb	w12,[x13,x12]
	sub	x13,x29,#16
	strb	w12,[x13,x10]
	add	x10,x10,#1
12:
	add	x11,x11,#1
	cmp	x11,x8
	b.hs	12f
	cmp	x10,#8
	b.ne	11b
12:
	ldur	x10,[x29,#-16]
9:
	mov	w8,#1
	stur	x10,[x19,#133]
	strb	w8,[x19,#132]
	b	5b
9:
	mov	x20,xzr
11:
	adrp	x26,.Lrtp_static.5
	add	x26,x26,:lo12:.Lrtp_static.5
12:
	mov	x0,x19
	mov	x1,x22
	mov	x2,x21
	bl	"rtp_values::value::set_values::ExtensionValuesSetValues::read_layers"
	tst	w0,#0xff
	b.ne	8f
13:
	mov	x8,x26
	cbz	x20,2f
3:
	ldrb	w9,[x8]
	cbz	w9,3f
	cmp	x20,#2
	b.hs	14f
	b	2f
3:
	cmp	x20,#2
	b.eq	3f
	cmp	x20,#1
	b.eq	2f
	cmp	x20,#3
	b.hi	15f
	ldrb	w9,[x8,#1]
	cbnz	w9,15f
	ldrb	w9,[x8,#2]
	cbnz	w9,15f
	b	2f
3:
	ldrb	w9,[x8,#1]
	cbz	w9,2f
15:
	sub	x1,x20,#1
	add	x0,x8,#1
	bl	"rtp_ext::elements::skip_zeros"
	cbz	x1,2f
	mov	x20,x1
	mov	x8,x0
	cmp	x1,#2
	b.lo	2f
14:
	ldrb	w21,[x8,#1]
	add	x9,x21,#2
	subs	x20,x20,x9
	b.lo	2f
	mov	x22,x8
	add	x26,x8,x9
	ldrb	w10,[x22],#2
	add	x10,x25,x10,lsl #1
	ldrb	w11,[x10]
	cmp	w11,#1
	b.ne	13b
	ldrb	w9,[x10,#1]
	adrp	x10,3f
	add	x10,x10,:lo12:3f
	adr	x11,13b
	ldrh	w12,[x10,x9,lsl #1]
	add	x11,x11,x12,lsl #2
	br	x11
14:
	cmp	w21,#3
	b.lo	13b
	ldrb	w9,[x8,#2]
	ldrb	w10,[x8,#3]
	ldrb	w8,[x8,#4]
	lsl	w9,w9,#8
	orr	w9,w9,w10,lsl #16
	orr	w8,w9,w8,lsl #24
	mov	w9,#16960
	movk	w9,#15,lsl #16
	rev	w8,w8
	umull	x8,w8,w9
	mov	w9,#1
	lsr	x8,x8,#18
	stp	x9,x8,[x19,#16]
	b	13b
15:
	cmp	w21,#2
	b.lo	12b
	cbz	x20,11b
18:
	ldrb	w8,[x26]
	mov	x0,x26
	mov	x1,x20
	cbnz	w8,19f
	cmp	x20,#2
	b.eq	22f
	cmp	x20,#1
	b.eq	9b
	cmp	x20,#3
	b.hi	23f
	ldrb	w8,[x26,#1]
	cbnz	w8,23f
	ldrb	w8,[x26,#2]
	cbnz	w8,23f
	b	9b
22:
	ldrb	w8,[x26,#1]
	cbz	w8,9b
23:
	add	x0,x26,#1
	sub	x1,x20,#1
	bl	"rtp_ext::elements::skip_zeros"
	cbz	x1,9b
19:
	cmp	x1,#2
	b.lo	9b
	ldrb	w23,[x0,#1]
	add	x8,x23,#2
	subs	x27,x1,x8
	b.lo	9b
	ldrb	w9,[x0]
	add	x9,x25,x9,lsl #1
	ldrb	w10,[x9]
	cmp	w10,#1
	b.ne	12b
	ldrb	w9,[x9,#1]
	cmp	w9,#14
	b.ne	12b
	add	x24,x0,#2
	add	x26,x0,x8
	mov	x1,x23
	mov	x0,x24
	bl	"rtp_ext::block_values::is_another_allocation"
	cmp	w0,#0
	mov	x20,x27
	csel	x21,x23,x21,ne
	csel	x22,x24,x22,ne
	cbnz	x27,18b
	b	11b
9:
	cmp	w21,#8
	stp	xzr,xzr,[x29,#-56]
	stur	xzr,[x29,#-40]
	b.hi	11f
	cbz	w21,12f
	ldrsb	x9,[x22]
	tbnz	x9,#63,11f
	adrp	x16,.Lrtp_static.37
	add	x16,x16,:lo12:.Lrtp_static.37
	cmp	w21,#1
	ldrb	w9,[x16,x9]
	b.ne	18f
	mov	x8,#2305843009213693952
	mov	w14,#32
	mov	w15,#32
	mov	w13,#32
	mov	w12,#32
	mov	w11,#32
	mov	w10,#32
	b	19f
22:
	cmp	w21,#4
	b.lo	13b
	ldr	w8,[x22]
	mov	w9,#1
	rev	w8,w8
	stp	w9,w8,[x19,#8]
	b	13b
23:
	mov	x8,#2314885530818453536
	cmp	w21,#16
	adrp	x23,.Lrtp_static.37
	add	x23,x23,:lo12:.Lrtp_static.37
	stp	xzr,xzr,[sp]
	stp	xzr,xzr,[sp,#48]
	stp	xzr,xzr,[sp,#32]
	stp	xzr,xzr,[x29,#-48]
	stur	xzr,[x29,#-56]
	stp	xzr,xzr,[sp,#64]
	stp	x8,x8,[x29,#-32]
	b.hi	29f
	cbz	w21,30f
	sub	x8,x29,#32
	mov	x9,x22
	mov	x10,x21
31:
	ldrsb	x11,[x9],#1
	tbnz	x11,#63,29f
	ldrb	w11,[x23,x11]
	subs	x10,x10,#1
	strb	w11,[x8],#1
	b.ne	31b
30:
	ldur	q0,[x29,#-32]
	b	30f
31:
	cmp	w21,#9
	b.lo	13b
	ldrb	w9,[x8,#2]
	ldurh	w10,[x8,#3]
	mov	w13,#1
	ldurh	w11,[x8,#5]
	ldurh	w12,[x8,#7]
	ldurh	w8,[x8,#9]
	rev	w10,w10
	strb	w9,[x19,#122]
	rev	w11,w11
	rev	w12,w12
	rev	w8,w8
	lsr	w10,w10,#16
	lsr	w9,w11,#16
	lsr	w11,w12,#16
	lsr	w8,w8,#16
	strb	wzr,[x19,#123]
	strh	w13,[x19,#120]
	strh	w10,[x19,#124]
	strh	w9,[x19,#126]
	strh	w11,[x19,#128]
	strh	w8,[x19,#130]
	b	13b
33:
	cmp	w21,#8
	b.lo	13b
	cmp	w21,#16
	b.lo	34f
	ldur	x8,[x8,#10]
	rev	x8,x8
	b	35f
36:
	cbz	w21,13b
	ldrb	w8,[x22]
	mov	w9,#1
	strb	w9,[x19]
	and	w10,w8,#0x7f
	lsr	w8,w8,#7
	strb	w9,[x19,#2]
	neg	w9,w10
	strb	w9,[x19,#1]
	strb	w8,[x19,#3]
	b	13b
37:
	cmp	w21,#3
	b.lo	13b
	ldrb	w9,[x8,#2]
	ldrb	w10,[x8,#3]
	ldrb	w8,[x8,#4]
	lsl	w9,w9,#8
	orr	w9,w9,w10,lsl #16
	adrp	x10,.Lrtp_CPI6_0
	ldr	d0,[x10,:lo12:.Lrtp_CPI6_0]
	orr	w8,w9,w8,lsl #24
	mov	w9,#1
	str	d0,[x19,#88]
	rev	w8,w8
	str	d0,[x19,#112]
	and	w10,w8,#0xfff
	lsr	w8,w8,#12
	stp	x9,x10,[x19,#96]
	stp	x9,x8,[x19,#72]
	b	13b
38:
	cbz	w21,13b
	ldrb	w8,[x22]
	mov	w9,#1
	strb	w9,[x19,#4]
	and	w8,w8,#0x3
	strb	w8,[x19,#5]
	b	13b
39:
	cmp	w21,#4
	b.lo	13b
	ldr	w8,[x22]
	mov	w9,#1
	rev	w8,w8
	stp	w9,w8,[x19,#168]
	b	13b
40:
	cmp	w21,#2
	b.lo	13b
	ldrh	w8,[x22]
	mov	w9,#1
	strh	w9,[x19,#64]
	rev	w8,w8
	lsr	w8,w8,#16
	strh	w8,[x19,#66]
	b	13b
41:
	cmp	w21,#8
	stp	xzr,xzr,[x29,#-56]
	stur	xzr,[x29,#-40]
	b.hi	42f
	cbz	w21,43f
	ldrsb	x9,[x22]
	tbnz	x9,#63,42f
	adrp	x16,.Lrtp_static.37
	add	x16,x16,:lo12:.Lrtp_static.37
	cmp	w21,#1
	ldrb	w9,[x16,x9]
	b.ne	44f
	mov	x8,#2305843009213693952
	mov	w14,#32
	mov	w15,#32
	mov	w13,#32
	mov	w12,#32
	mov	w11,#32
	mov	w10,#32
	b	45f
46:
	cbz	w21,13b
	ldrb	w8,[x22]
	mov	w9,#1
	strb	w9,[x19,#6]
	strb	w8,[x19,#7]
	b	13b
29:
	sub	x0,x29,#56
	mov	x1,x22
	mov	x2,x21
	bl	"core::str::utf8::from_utf8"
	ldurb	w8,[x29,#-56]
	cbz	w8,29f
	ldr	q0,[sp,#32]
	str	q0,[sp]
	b	13b
34:
	mov	x8,xzr
35:
	ldr	x9,[x22]
	mov	w10,#1
	cmp	w21,#15
	rev	x9,x9
	stp	x10,x9,[x19,#32]
	cset	w10,hi
	stp	x10,x8,[x19,#48]
	b	13b
29:
	ldp	x9,x8,[x29,#-48]
	mov	x10,#2314885530818453536
	stp	x10,x10,[x29,#-16]
	cbz	x8,29f
	mov	x10,xzr
	mov	x11,xzr
34:
	ldrsb	w12,[x9,x11]
	cmn	w12,#64
	b.lt	35f
	and	x12,x12,#0xff
	sub	x13,x29,#16
	ldrb	w12,[x23,x12]
	strb	w12,[x13,x10]
	add	x10,x10,#1
35:
	add	x11,x11,#1
	cmp	x11,x8
	b.hs	29f
	cmp	x10,#16
	b.ne	34b
29:
	ldur	q0,[x29,#-16]
30:
	str	q0,[sp,#48]
	mov	w8,#1
	ldr	q0,[sp,#48]
	strb	w8,[x19,#150]
	str	q0,[sp]
	stur	q0,[x19,#151]
	b	13b
12:
	mov	x10,#2314885530818453536
	b	12f
43:
	mov	x10,#2314885530818453536
	b	29f
18:
	ldrsb	x10,[x8,#3]
	tbnz	x10,#63,11f
	ldrb	w10,[x16,x10]
	cmp	w21,#2
	b.ne	18f
	mov	x8,#2305843009213693952
	mov	w14,#32
	mov	w15,#32
	mov	w13,#32
	mov	w12,#32
	mov	w11,#32
	b	19f
44:
	ldrsb	x10,[x8,#3]
	tbnz	x10,#63,42f
	ldrb	w10,[x16,x10]
	cmp	w21,#2
	b.ne	30f
	mov	x8,#2305843009213693952
	mov	w14,#32
	mov	w15,#32
	mov	w13,#32
	mov	w12,#32
	mov	w11,#32
	b	45f
18:
	ldrsb	x11,[x8,#4]
	tbnz	x11,#63,11f
	ldrb	w11,[x16,x11]
	cmp	w21,#3
	b.ne	18f
	mov	x8,#2305843009213693952
	mov	w14,#32
	mov	w15,#32
	mov	w13,#32
	mov	w12,#32
	b	19f
30:
	ldrsb	x11,[x8,#4]
	tbnz	x11,#63,42f
	ldrb	w11,[x16,x11]
	cmp	w21,#3
	b.ne	30f
	mov	x8,#2305843009213693952
	mov	w14,#32
	mov	w15,#32
	mov	w13,#32
	mov	w12,#32
	b	45f
18:
	ldrsb	x12,[x8,#5]
	tbnz	x12,#63,11f
	ldrb	w12,[x16,x12]
	cmp	w21,#4
	b.ne	18f
	mov	x8,#2305843009213693952
	mov	w14,#32
	mov	w15,#32
	mov	w13,#32
	b	19f
30:
	ldrsb	x12,[x8,#5]
	tbnz	x12,#63,42f
	ldrb	w12,[x16,x12]
	cmp	w21,#4
	b.ne	30f
	mov	x8,#2305843009213693952
	mov	w14,#32
	mov	w15,#32
	mov	w13,#32
	b	45f
18:
	ldrsb	x13,[x8,#6]
	tbnz	x13,#63,11f
	ldrb	w13,[x16,x13]
	cmp	w21,#5
	b.ne	18f
	mov	x8,#2305843009213693952
	mov	w14,#32
	mov	w15,#32
	b	19f
30:
	ldrsb	x13,[x8,#6]
	tbnz	x13,#63,42f
	ldrb	w13,[x16,x13]
	cmp	w21,#5
	b.ne	30f
	mov	x8,#2305843009213693952
	mov	w14,#32
	mov	w15,#32
	b	45f
18:
	ldrsb	x14,[x8,#7]
	tbnz	x14,#63,11f
	ldrb	w15,[x16,x14]
	cmp	w21,#6
	b.ne	18f
	mov	x8,#2305843009213693952
	mov	w14,#32
	b	19f
30:
	ldrsb	x14,[x8,#7]
	tbnz	x14,#63,42f
	ldrb	w15,[x16,x14]
	cmp	w21,#6
	b.ne	30f
	mov	x8,#2305843009213693952
	mov	w14,#32
	b	45f
18:
	ldrsb	x14,[x8,#8]
	tbnz	x14,#63,11f
	ldrb	w14,[x16,x14]
	cmp	w21,#7
	b.ne	18f
	mov	x8,#2305843009213693952
	b	19f
30:
	ldrsb	x14,[x8,#8]
	tbnz	x14,#63,42f
	ldrb	w14,[x16,x14]
	cmp	w21,#7
	b.ne	30f
	mov	x8,#2305843009213693952
	b	45f
18:
	ldrsb	x8,[x8,#9]
	tbnz	x8,#63,11f
	ldrb	w8,[x16,x8]
	lsl	x8,x8,#56
19:
	orr	x8,x8,x14,lsl #48
	orr	x8,x8,x15,lsl #40
	orr	x8,x8,x13,lsl #32
	orr	x8,x8,x12,lsl #24
	orr	x8,x8,x11,lsl #16
	orr	x8,x8,x10,lsl #8
	orr	x10,x8,x9
	b	12f
11:
	sub	x0,x29,#56
	mov	x1,x22
	mov	x2,x21
	bl	"core::str::utf8::from_utf8"
	ldurb	w8,[x29,#-56]
	cbnz	w8,13b
	ldp	x9,x8,[x29,#-48]
	mov	x10,#2314885530818453536
	stur	x10,[x29,#-16]
	cbz	x8,12f
	mov	x10,xzr
	mov	x11,xzr
11:
	ldrsb	w12,[x9,x11]
	cmn	w12,#64
	b.lt	18f
	and	x12,x12,#0xff
	adrp	x13,.Lrtp_static.37
	add	x13,x13,:lo12:.Lrtp_static.37
	ldrb	w12,[x13,x12]
	sub	x13,x29,#16
	strb	w12,[x13,x10]
	add	x10,x10,#1
18:
	add	x11,x11,#1
	cmp	x11,x8
	b.hs	18f
	cmp	x10,#8
	b.ne	11b
18:
	ldur	x10,[x29,#-16]
12:
	mov	w8,#1
	stur	x10,[x19,#142]
	strb	w8,[x19,#141]
	b	13b
30:
	ldrsb	x8,[x8,#9]
	tbnz	x8,#63,42f
	ldrb	w8,[x16,x8]
	lsl	x8,x8,#56
45:
	orr	x8,x8,x14,lsl #48
	orr	x8,x8,x15,lsl #40
	orr	x8,x8,x13,lsl #32
	orr	x8,x8,x12,lsl #24
	orr	x8,x8,x11,lsl #16
	orr	x8,x8,x10,lsl #8
	orr	x10,x8,x9
	b	29f
42:
	sub	x0,x29,#56
	mov	x1,x22
	mov	x2,x21
	bl	"core::str::utf8::from_utf8"
	ldurb	w8,[x29,#-56]
	cbnz	w8,13b
	ldp	x9,x8,[x29,#-48]
	mov	x10,#2314885530818453536
	stur	x10,[x29,#-16]
	cbz	x8,29f
	mov	x10,xzr
	mov	x11,xzr
11:
	ldrsb	w12,[x9,x11]
	cmn	w12,#64
	b.lt	12f
	and	x12,x12,#0xff
	adrp	x13,.Lrtp_static.37
	add	x13,x13,:lo12:.Lrtp_static.37
	ldrb	w12,[x13,x12]
	sub	x13,x29,#16
	strb	w12,[x13,x10]
	add	x10,x10,#1
12:
	add	x11,x11,#1
	cmp	x11,x8
	b.hs	12f
	cmp	x10,#8
	b.ne	11b
12:
	ldur	x10,[x29,#-16]
29:
	mov	w8,#1
	stur	x10,[x19,#133]
	strb	w8,[x19,#132]
	b	13b
2:
	mov	w0,wzr
2:
	ldp	x20,x19,[sp,#224]
	ldr	x27,[sp,#160]
	ldp	x22,x21,[sp,#208]
	ldp	x24,x23,[sp,#192]
	ldp	x26,x25,[sp,#176]
	ldp	x29,x30,[sp,#144]
	add	sp,sp,#240
	ret
8:
	mov	w0,#1
	b	2b
	.size	"rtp_ext::block_values::read_values::<#77e50c5f4ddfc773>", .-"rtp_ext::block_values::read_values::<#77e50c5f4ddfc773>"
	.cfi_endproc
	.section	".rodata.rtp_ext::block_values::read_values::<#77e50c5f4ddfc773>","a",@progbits
	.p2align	1,0x0
3:
	.hword	(14b-13b)>>2
	.hword	(33b-13b)>>2
	.hword	(36b-13b)>>2
	.hword	(22b-13b)>>2
	.hword	(38b-13b)>>2
	.hword	(40b-13b)>>2
	.hword	(37b-13b)>>2
	.hword	(46b-13b)>>2
	.hword	(31b-13b)>>2
	.hword	(41b-13b)>>2
	.hword	(9b-13b)>>2
	.hword	(23b-13b)>>2
	.hword	(39b-13b)>>2
	.hword	(13b-13b)>>2
	.hword	(15b-13b)>>2
	.p2align	1,0x0
1:
	.hword	(6b-4b)>>2
	.hword	(21b-4b)>>2
	.hword	(4b-4b)>>2
	.hword	(16b-4b)>>2
	.hword	(25b-4b)>>2
	.hword	(27b-4b)>>2
	.hword	(24b-4b)>>2
	.hword	(32b-4b)>>2
	.hword	(20b-4b)>>2
	.hword	(28b-4b)>>2
	.hword	(10b-4b)>>2
	.hword	(17b-4b)>>2
	.hword	(26b-4b)>>2
	.hword	(5b-4b)>>2
	.hword	(7b-4b)>>2

	.section	".text.unlikely.rtp_ext::elements::skip_zeros","ax",@progbits
	.p2align	2
	.type	"rtp_ext::elements::skip_zeros",@function
"rtp_ext::elements::skip_zeros":
	.cfi_startproc
	mov	x11,x0
	mov	x10,x1
1:
	mov	x8,x10
	subs	x10,x10,#16
	mov	x9,x11
	b.lo	2f
	ldp	x11,x12,[x9]
	orr	x12,x12,x11
	add	x11,x9,#16
	cbz	x12,1b
2:
	mov	x10,xzr
	add	x0,x0,x1
1:
	subs	x1,x8,x10
	b.eq	2f
	ldrb	w11,[x9,x10]
	add	x10,x10,#1
	cbz	w11,1b
	add	x8,x9,x10
	sub	x0,x8,#1
2:
	ret
	.size	"rtp_ext::elements::skip_zeros", .-"rtp_ext::elements::skip_zeros"
	.cfi_endproc

	.section	".text.rtp_ext::block_values::is_another_allocation","ax",@progbits
	.p2align	2
	.type	"rtp_ext::block_values::is_another_allocation",@function
"rtp_ext::block_values::is_another_allocation":
	.cfi_startproc
	cbz	x1,1f
	subs	x9,x1,#1
	b.ne	2f
	ldrb	w8,[x0]
	cmp	w8,#0
	cset	w0,eq
	ret
2:
	mov	x8,x0
	ldrb	w10,[x8],#1
	ubfx	x11,x10,#4,#2
	ands	w13,w10,#0xf
	add	w10,w11,#1
	b.eq	2f
	fmov	s0,w13
	cnt	v0.8b,v0.8b
	fmov	w11,s0
	mul	w10,w11,w10
	b	3f
2:
	add	x12,x11,#2
	lsr	x12,x12,#1
	subs	x9,x9,x12
	b.hs	2f
1:
	mov	w0,wzr
	ret
2:
	ldrb	w14,[x8]
	lsr	w14,w14,#4
	cbz	w11,1f
	ldrb	w15,[x8]
	cmp	w10,#2
	and	w15,w15,#0xf
	b.ne	2f
	mov	w16,w13
	b	4f
1:
	mov	w15,w13
	mov	w16,w13
	b	4f
2:
	ldrb	w16,[x0,#2]
	cmp	w10,#3
	lsr	w16,w16,#4
	b.eq	4f
	ldrb	w13,[x0,#2]
	and	w13,w13,#0xf
	fmov	s0,w13
	cnt	v0.8b,v0.8b
	fmov	w13,s0
4:
	fmov	s0,w14
	fmov	s1,w15
	cmp	w10,#3
	fmov	s2,w16
	add	x8,x8,x12
	cnt	v0.8b,v0.8b
	cnt	v1.8b,v1.8b
	cnt	v2.8b,v2.8b
	fmov	w14,s0
	fmov	w15,s1
	fmov	w16,s2
	add	w15,w14,w15
	add	w16,w15,w16
	add	w13,w16,w13
	csel	w13,w16,w13,eq
	cmp	w10,#2
	csel	w10,w15,w13,eq
	cmp	w11,#0
	csel	w10,w14,w10,eq
3:
	sub	sp,sp,#80
	stp	x29,x30,[sp,#32]
	stp	x22,x21,[sp,#48]
	stp	x20,x19,[sp,#64]
	add	x29,sp,#32
	.cfi_def_cfa w29,48
	.cfi_offset w19,-8
	.cfi_offset w20,-16
	.cfi_offset w21,-24
	.cfi_offset w22,-32
	.cfi_offset w30,-40
	.cfi_offset w29,-48
	and	x21,x10,#0xff
	add	x10,x21,#3
	lsr	x10,x10,#2
	subs	x19,x9,x10
	b.hs	1f
2:
	mov	w0,wzr
3:
	ldp	x20,x19,[sp,#64]
	ldp	x22,x21,[sp,#48]
	ldp	x29,x30,[sp,#32]
	add	sp,sp,#80
	ret
1:
	cbz	x10,1f
	cmp	x10,#1
	b.ne	4f
	ldrb	w9,[x8]
	lsl	w9,w9,#24
	cbnz	w21,5f
	b	6f
1:
	mov	w9,wzr
	cbnz	w21,5f
	b	6f
4:
	cmp	w21,#8
	b.hi	1f
	ldrh	w9,[x8]
	rev	w9,w9
	cbnz	w21,5f
6:
	mov	w0,#1
	ldp	x20,x19,[sp,#64]
	ldp	x22,x21,[sp,#48]
	ldp	x29,x30,[sp,#32]
	add	sp,sp,#80
	ret
1:
	cmp	x10,#3
	b.ne	1f
	ldrb	w9,[x8,#2]
	ldrh	w11,[x8]
	orr	w9,w11,w9,lsl #16
	b	4f
1:
	ldr	w9,[x8]
4:
	rev	w9,w9
5:
	mov	w11,#32
	mov	w9,w9
	add	x20,x8,x10
	sub	x11,x11,x21,lsl #1
	lsr	x9,x9,x11
	and	w11,w9,#0xaaaaaaaa
	fmov	d1,x9
	fmov	s0,w11
	cnt	v1.8b,v1.8b
	cnt	v0.8b,v0.8b
	addv	b1,v1.8b
	addv	b0,v0.8b
	fmov	w9,s1
	fmov	w11,s0
	add	x9,x9,x21
	adds	x22,x9,x11
	b.ne	1f
4:
	subs	x9,x19,#5
	b.hs	5f
	mov	w0,#1
	ldp	x20,x19,[sp,#64]
	ldp	x22,x21,[sp,#48]
	ldp	x29,x30,[sp,#32]
	add	sp,sp,#80
	ret
6:
	sub	x19,x19,#1
	add	x20,x20,#1
7:
	subs	x22,x22,#1
	b.eq	4b
1:
	cbz	x19,7b
	ldrsb	w8,[x20]
	tbz	w8,#31,6b
	cmp	x19,#1
	b.eq	1f
	ldrsb	w8,[x20,#1]
	tbnz	w8,#31,1f
	mov	w8,#2
	b	4f
1:
	add	x0,sp,#8
	mov	x1,x20
	mov	x2,x19
	bl	"rtp_vla::leb::long_number_at"
	ldrb	w8,[sp,#8]
	cmp	w8,#1
	b.ne	7b
	ldr	x8,[sp,#24]
4:
	add	x20,x20,x8
	sub	x19,x19,x8
	b	7b
5:
	mov	w8,#1
1:
	ldrh	w10,[x20]
	rev	w11,w10
	mov	w10,#65535
	cmp	w10,w11,lsr #16
	b.eq	2b
	ldrh	w11,[x20,#2]
	rev	w11,w11
	cmp	w10,w11,lsr #16
	b.eq	2b
	cmp	x8,x21
	mov	w0,#1
	b.hs	3b
	cmp	x9,#5
	sub	x9,x9,#5
	add	x8,x8,#1
	add	x20,x20,#5
	b.hs	1b
	b	3b
	.size	"rtp_ext::block_values::is_another_allocation", .-"rtp_ext::block_values::is_another_allocation"
	.cfi_endproc

	.section	".text.rtp_vla::leb::long_number_at","ax",@progbits
	.p2align	2
	.type	"rtp_vla::leb::long_number_at",@function
"rtp_vla::leb::long_number_at":
	.cfi_startproc
	cbz	x2,1f
	ldrb	w9,[x1]
	and	x8,x9,#0x7f
	tbnz	w9,#7,2f
	mov	w9,#1
	mov	w10,#1
	str	x10,[x0]
	stp	x8,x9,[x0,#8]
	ret
2:
	cmp	x2,#1
	b.ne	2f
1:
	stp	xzr,xzr,[x0]
	str	xzr,[x0,#16]
	ret
2:
	ldrsb	w9,[x1,#1]
	and	w10,w9,#0x7f
	orr	x8,x8,x10,lsl #7
	tbnz	w9,#31,2f
	mov	w9,#2
	mov	w10,#1
	str	x10,[x0]
	stp	x8,x9,[x0,#8]
	ret
2:
	cmp	x2,#2
	b.eq	1b
	ldrsb	w9,[x1,#2]
	and	w10,w9,#0x7f
	orr	x8,x8,x10,lsl #14
	tbnz	w9,#31,2f
	mov	w9,#3
	mov	w10,#1
	str	x10,[x0]
	stp	x8,x9,[x0,#8]
	ret
2:
	cmp	x2,#3
	b.eq	1b
	ldrsb	w9,[x1,#3]
	and	w10,w9,#0x7f
	orr	x8,x8,x10,lsl #21
	tbnz	w9,#31,2f
	mov	w9,#4
	mov	w10,#1
	str	x10,[x0]
	stp	x8,x9,[x0,#8]
	ret
2:
	cmp	x2,#4
	b.eq	1b
	ldrsb	w9,[x1,#4]
	and	w10,w9,#0x7f
	orr	x8,x8,x10,lsl #28
	tbnz	w9,#31,2f
	mov	w9,#5
	mov	w10,#1
	str	x10,[x0]
	stp	x8,x9,[x0,#8]
	ret
2:
	cmp	x2,#5
	b.eq	1b
	ldrsb	w9,[x1,#5]
	and	w10,w9,#0x7f
	orr	x8,x8,x10,lsl #35
	tbnz	w9,#31,2f
	mov	w9,#6
	mov	w10,#1
	str	x10,[x0]
	stp	x8,x9,[x0,#8]
	ret
2:
	cmp	x2,#6
	b.eq	1b
	ldrsb	w9,[x1,#6]
	and	w10,w9,#0x7f
	orr	x8,x8,x10,lsl #42
	tbnz	w9,#31,2f
	mov	w9,#7
	mov	w10,#1
	str	x10,[x0]
	stp	x8,x9,[x0,#8]
	ret
2:
	cmp	x2,#7
	b.eq	1b
	ldrsb	w9,[x1,#7]
	and	w10,w9,#0x7f
	orr	x8,x8,x10,lsl #49
	tbnz	w9,#31,2f
	mov	w9,#8
	mov	w10,#1
	str	x10,[x0]
	stp	x8,x9,[x0,#8]
	ret
2:
	cmp	x2,#8
	b.eq	1b
	ldrsb	w9,[x1,#8]
	and	w10,w9,#0x7f
	orr	x8,x8,x10,lsl #56
	tbnz	w9,#31,1f
	mov	w9,#9
	mov	w10,#1
	str	x10,[x0]
	stp	x8,x9,[x0,#8]
	ret
1:
	mov	w9,#1
	str	x9,[x0]
	mov	w9,#9
	stp	x8,x9,[x0,#8]
	ret
	.size	"rtp_vla::leb::long_number_at", .-"rtp_vla::leb::long_number_at"
	.cfi_endproc

	.section	".text.rtp_values::value::set_values::ExtensionValuesSetValues::read_layers","ax",@progbits
	.p2align	2
	.type	"rtp_values::value::set_values::ExtensionValuesSetValues::read_layers",@function
"rtp_values::value::set_values::ExtensionValuesSetValues::read_layers":
	.cfi_startproc
	sub	sp,sp,#208
	stp	x29,x30,[sp,#112]
	stp	x28,x27,[sp,#128]
	stp	x26,x25,[sp,#144]
	stp	x24,x23,[sp,#160]
	stp	x22,x21,[sp,#176]
	stp	x20,x19,[sp,#192]
	add	x29,sp,#112
	.cfi_def_cfa w29,96
	.cfi_offset w19,-8
	.cfi_offset w20,-16
	.cfi_offset w21,-24
	.cfi_offset w22,-32
	.cfi_offset w23,-40
	.cfi_offset w24,-48
	.cfi_offset w25,-56
	.cfi_offset w26,-64
	.cfi_offset w27,-72
	.cfi_offset w28,-80
	.cfi_offset w30,-88
	.cfi_offset w29,-96
	cbz	x2,1f
	mov	x27,x0
	subs	x9,x2,#1
	b.ne	2f
	ldrb	w19,[x1]
	cbnz	w19,3f
	mov	x11,xzr
	mov	x28,xzr
	sub	x10,x29,#8
4:
	ldrb	w9,[x27,#176]
	ldp	x21,x20,[x27,#192]
	ldr	x22,[x27,#208]
	mov	w8,#1
	stp	x10,x28,[x27,#192]
	cmp	w9,#1
	stp	x8,x11,[x27,#176]
	str	x28,[x27,#208]
	b.ne	1f
	cbz	x20,5f
	mov	x23,xzr
	b	6f
7:
	add	x23,x23,#1
	cmp	x23,x20
	b.eq	5f
6:
	mov	w8,#24
	madd	x8,x23,x8,x21
	ldp	x19,x24,[x8]
	ldr	x25,[x8,#16]
	cbz	x24,6f
	add	x26,x19,#16
	b	8f
9:
	subs	x24,x24,#1
	add	x26,x26,#32
	b.eq	6f
8:
	ldr	x8,[x26]
	cbz	x8,9b
	ldur	x0,[x26,#-16]
	bl	rattle_dealloc
	b	9b
6:
	cbz	x25,7b
	mov	x0,x19
	bl	rattle_dealloc
	b	7b
2:
	ldrb	w19,[x1]
3:
	ands	w10,w19,#0xf
	mov	w8,#16843009
	ubfx	w12,w19,#4,#2
	mul	w11,w10,w8
	add	x8,x1,#1
	add	w28,w12,#1
	stur	w11,[x29,#-36]
	b.eq	2f
	fmov	s0,w10
	cnt	v0.8b,v0.8b
	fmov	w10,s0
	mul	w11,w28,w10
	and	x20,x11,#0xff
	add	x10,x20,#3
	lsr	x10,x10,#2
	subs	x22,x9,x10
	b.hs	3f
	b	1f
2:
	add	x10,x28,#1
	lsr	x10,x10,#1
	subs	x9,x9,x10
	b.lo	1f
	ldrb	w11,[x8]
	lsr	w11,w11,#4
	sturb	w11,[x29,#-36]
	cbz	w12,2f
	ldrb	w11,[x8]
	cmp	w28,#2
	and	w11,w11,#0xf
	sturb	w11,[x29,#-35]
	b.eq	2f
	ldrb	w11,[x1,#2]
	cmp	w28,#3
	lsr	w11,w11,#4
	sturb	w11,[x29,#-34]
	b.eq	2f
	ldrb	w11,[x1,#2]
	and	w11,w11,#0xf
	sturb	w11,[x29,#-33]
2:
	ldurb	w11,[x29,#-36]
	fmov	d0,x11
	cnt	v0.8b,v0.8b
	fmov	w11,s0
	cbz	w12,2f
	ldurb	w12,[x29,#-35]
	cmp	w28,#2
	fmov	d0,x12
	cnt	v0.8b,v0.8b
	fmov	w12,s0
	add	w11,w11,w12
	b.eq	2f
	ldurb	w12,[x29,#-34]
	cmp	w28,#3
	fmov	d0,x12
	cnt	v0.8b,v0.8b
	fmov	w12,s0
	add	w11,w11,w12
	b.eq	2f
	ldurb	w12,[x29,#-33]
	fmov	d0,x12
	cnt	v0.8b,v0.8b
	fmov	w12,s0
	add	w11,w11,w12
2:
	add	x8,x8,x10
	and	x20,x11,#0xff
	add	x10,x20,#3
	lsr	x10,x10,#2
	subs	x22,x9,x10
	b.lo	1f
3:
	add	x21,x8,x10
	cbz	x10,2f
	cmp	x10,#1
	b.ne	3f
	ldrb	w8,[x8]
	lsl	w25,w8,#24
	mov	x24,x22
	mov	x23,x21
	cbnz	w20,6f
	b	7f
2:
	mov	w25,wzr
	mov	x24,x22
	mov	x23,x21
	cbnz	w20,6f
	b	7f
3:
	cmp	w20,#8
	b.hi	2f
	ldrh	w8,[x8]
	rev	w25,w8
	mov	x24,x22
	mov	x23,x21
	cbnz	w20,6f
	b	7f
5:
	cbz	x22,1f
	mov	x0,x21
	bl	rattle_dealloc
1:
	mov	w0,wzr
3:
	ldp	x20,x19,[sp,#192]
	ldp	x22,x21,[sp,#176]
	ldp	x24,x23,[sp,#160]
	ldp	x26,x25,[sp,#144]
	ldp	x28,x27,[sp,#128]
	ldp	x29,x30,[sp,#112]
	add	sp,sp,#208
	ret
2:
	cmp	x10,#3
	b.ne	2f
	ldrb	w9,[x8,#2]
	ldrh	w8,[x8]
	orr	w8,w8,w9,lsl #16
	b	5f
2:
	ldr	w8,[x8]
5:
	rev	w25,w8
6:
	mov	w8,#32
	mov	w9,w25
	mov	w26,w25
	sub	x8,x8,x20,lsl #1
	mov	x23,x21
	mov	x24,x22
	lsr	x8,x9,x8
	and	w9,w8,#0xaaaaaaaa
	fmov	d1,x8
	fmov	s0,w9
	cnt	v1.8b,v1.8b
	cnt	v0.8b,v0.8b
	addv	b1,v1.8b
	addv	b0,v0.8b
	fmov	w8,s1
	fmov	w9,s0
	add	x8,x8,x20
	adds	x25,x8,x9
	b.eq	2f
	mov	x24,x22
	mov	x23,x21
	b	5f
6:
	sub	x24,x24,#1
	add	x23,x23,#1
8:
	subs	x25,x25,#1
	b.eq	2f
5:
	cbz	x24,8b
	ldrsb	w8,[x23]
	tbz	w8,#31,6b
	cmp	x24,#1
	b.eq	5f
	ldrsb	w8,[x23,#1]
	tbnz	w8,#31,5f
	mov	w8,#2
	b	6f
5:
	sub	x0,x29,#32
	mov	x1,x23
	mov	x2,x24
	bl	"rtp_vla::leb::long_number_at"
	ldurb	w8,[x29,#-32]
	cmp	w8,#1
	b.ne	8b
	ldur	x8,[x29,#-16]
6:
	add	x23,x23,x8
	sub	x24,x24,x8
	b	8b
2:
	subs	x9,x24,#5
	b.hs	2f
	mov	w25,w26
7:
	add	x8,x28,x28,lsl #1
	mov	w1,#8
	lsl	x0,x8,#3
	bl	rattle_alloc
	str	x1,[sp,#48]
	tbz	w0,#0,5f
	lsr	w8,w19,#6
	mov	x20,xzr
	str	x27,[sp,#24]
	stp	x8,x28,[sp,#8]
	b	6f
8:
	ldp	x28,x27,[sp,#16]
	ldp	x10,x20,[sp,#32]
9:
	mov	w8,#24
	ldr	x9,[sp,#48]
	madd	x8,x20,x8,x9
	add	x20,x20,#1
	cmp	x20,x28
	stp	x13,x26,[x8]
	str	x10,[x8,#16]
	b.eq	10f
6:
	sub	x8,x29,#36
	mov	w9,#32
	ldrb	w19,[x8,x20]
	clz	w8,w19
	sub	w8,w9,w8
	and	x10,x8,#0xff
	cbz	w19,6f
	lsl	x0,x10,#5
	mov	w1,#8
	str	x10,[sp,#32]
	bl	rattle_alloc
	stur	x1,[x29,#-48]
	tbz	w0,#0,11f
	ldur	x13,[x29,#-48]
	str	x20,[sp,#40]
	mov	x20,xzr
	mov	x26,xzr
	b	12f
13:
	mov	x28,xzr
	mov	w9,wzr
	mov	w8,wzr
	mov	w10,wzr
	mov	w11,wzr
	sub	x1,x29,#8
14:
	ubfx	w19,w19,#1,#7
	add	x12,x13,x20
	add	x26,x26,#1
	add	x20,x20,#32
	stp	x1,x28,[x12]
	str	x28,[x12,#16]
	strh	w9,[x12,#24]
	strh	w11,[x12,#26]
	strh	w10,[x12,#28]
	strb	w8,[x12,#30]
	strb	wzr,[x12,#31]
	cbz	w19,8b
12:
	tbz	w19,#0,13b
	lsr	w27,w25,#30
	mov	w1,#8
	add	w28,w27,#1
	ubfiz	x0,x28,#3,#32
	bl	rattle_alloc
	tbz	w0,#0,8f
	cbz	x22,12f
	ldrsb	x8,[x21]
	tbnz	x8,#63,13f
	sub	x22,x22,#1
	add	x21,x21,#1
	str	x8,[x1]
	cbnz	w27,15f
	b	16f
12:
	str	xzr,[x1]
	cbnz	w27,15f
	b	16f
13:
	cmp	x22,#1
	b.eq	12f
	ldrsb	x9,[x21,#1]
	tbnz	x9,#63,12f
	and	x8,x8,#0x7f
	orr	x8,x8,x9,lsl #7
	mov	w9,#2
	add	x21,x21,x9
	sub	x22,x22,x9
	str	x8,[x1]
	cbnz	w27,15f
	b	16f
12:
	stur	w25,[x29,#-52]
	mov	x25,x1
	sub	x0,x29,#32
	mov	x1,x21
	mov	x2,x22
	bl	"rtp_vla::leb::long_number_at"
	ldurb	w8,[x29,#-32]
	cmp	w8,#1
	b.ne	12f
	ldp	x8,x9,[x29,#-24]
	mov	x1,x25
	ldur	w25,[x29,#-52]
	add	x21,x21,x9
	sub	x22,x22,x9
	str	x8,[x1]
	cbz	w27,16f
15:
	cbz	x22,13f
	ldrsb	w9,[x21]
	and	x8,x9,#0xff
	tbnz	w9,#31,17f
	sub	x22,x22,#1
	add	x21,x21,#1
	ldur	x13,[x29,#-48]
	cmp	w28,#2
	str	x8,[x1,#8]
	b.ne	18f
	b	19f
13:
	ldur	x13,[x29,#-48]
	cmp	w28,#2
	str	xzr,[x1,#8]
	b.ne	18f
	b	19f
17:
	cmp	x22,#1
	b.eq	13f
	ldrsb	x9,[x21,#1]
	tbnz	x9,#63,13f
	and	x8,x8,#0x7f
	orr	x8,x8,x9,lsl #7
	mov	w9,#2
	b	17f
13:
	mov	x8,x21
	mov	w21,w25
	mov	x25,x1
	sub	x0,x29,#32
	mov	x1,x8
	mov	x2,x22
	mov	x27,x8
	bl	"rtp_vla::leb::long_number_at"
	ldurb	w8,[x29,#-32]
	cmp	w8,#1
	b.ne	13f
	ldp	x8,x9,[x29,#-24]
	mov	x1,x25
	mov	w25,w21
	mov	x21,x27
17:
	add	x21,x21,x9
	sub	x22,x22,x9
	ldur	x13,[x29,#-48]
	cmp	w28,#2
	str	x8,[x1,#8]
	b.ne	18f
	b	19f
12:
	mov	x1,x25
	ldur	w25,[x29,#-52]
	str	xzr,[x1]
	cbnz	w27,15b
16:
	ldur	x13,[x29,#-48]
	lsl	w25,w25,#2
	subs	x12,x24,#5
	b.lo	12f
	b	15f
13:
	mov	x1,x25
	mov	w25,w21
	mov	x21,x27
	ldur	x13,[x29,#-48]
	cmp	w28,#2
	str	xzr,[x1,#8]
	b.eq	19f
18:
	cbz	x22,13f
	ldrsb	w9,[x21]
	and	x8,x9,#0xff
	tbnz	w9,#31,16f
	sub	x22,x22,#1
	add	x21,x21,#1
	cmp	w28,#3
	str	x8,[x1,#16]
	b.eq	19f
	b	17f
13:
	cmp	w28,#3
	str	xzr,[x1,#16]
	b.eq	19f
	b	17f
16:
	cmp	x22,#1
	b.eq	13f
	ldrsb	x9,[x21,#1]
	tbnz	x9,#63,13f
	and	x8,x8,#0x7f
	orr	x8,x8,x9,lsl #7
	mov	w9,#2
	add	x21,x21,x9
	sub	x22,x22,x9
	cmp	w28,#3
	str	x8,[x1,#16]
	b.eq	19f
	b	17f
13:
	mov	x8,x21
	mov	w21,w25
	mov	x25,x1
	sub	x0,x29,#32
	mov	x1,x8
	mov	x2,x22
	mov	x27,x8
	bl	"rtp_vla::leb::long_number_at"
	ldurb	w8,[x29,#-32]
	cmp	w8,#1
	b.ne	13f
	ldp	x8,x9,[x29,#-24]
	mov	x1,x25
	ldur	x13,[x29,#-48]
	mov	w25,w21
	add	x21,x27,x9
	sub	x22,x22,x9
	cmp	w28,#3
	str	x8,[x1,#16]
	b.ne	17f
19:
	lsl	w25,w25,#2
	subs	x12,x24,#5
	b.hs	15f
12:
	mov	w9,wzr
	mov	w8,wzr
	mov	w10,wzr
	mov	w11,wzr
	b	14b
13:
	ldur	x13,[x29,#-48]
	mov	x1,x25
	mov	w25,w21
	mov	x21,x27
	cmp	w28,#3
	str	xzr,[x1,#16]
	b.eq	19b
17:
	cbz	x22,13f
	ldrsb	w9,[x21]
	and	x8,x9,#0xff
	tbnz	w9,#31,16f
	sub	x22,x22,#1
	add	x21,x21,#1
	str	x8,[x1,#24]
	lsl	w25,w25,#2
	subs	x12,x24,#5
	b.lo	12b
	b	15f
13:
	str	xzr,[x1,#24]
	lsl	w25,w25,#2
	subs	x12,x24,#5
	b.lo	12b
	b	15f
16:
	cmp	x22,#1
	b.eq	13f
	ldrsb	x9,[x21,#1]
	tbnz	x9,#63,13f
	and	x8,x8,#0x7f
	orr	x8,x8,x9,lsl #7
	mov	w9,#2
	b	16f
13:
	mov	x8,x21
	mov	w21,w25
	mov	x25,x1
	sub	x0,x29,#32
	mov	x1,x8
	mov	x2,x22
	mov	x27,x8
	bl	"rtp_vla::leb::long_number_at"
	ldurb	w8,[x29,#-32]
	cmp	w8,#1
	b.ne	13f
	ldp	x8,x9,[x29,#-24]
	mov	x1,x25
	ldur	x13,[x29,#-48]
	mov	w25,w21
	mov	x21,x27
16:
	add	x21,x21,x9
	sub	x22,x22,x9
	str	x8,[x1,#24]
	lsl	w25,w25,#2
	subs	x12,x24,#5
	b.lo	12b
	b	15f
13:
	ldur	x13,[x29,#-48]
	mov	x1,x25
	mov	w25,w21
	mov	x21,x27
	str	xzr,[x1,#24]
	lsl	w25,w25,#2
	subs	x12,x24,#5
	b.lo	12b
15:
	ldrh	w8,[x23]
	ldrh	w9,[x23,#2]
	mov	x24,x12
	rev	w8,w8
	rev	w9,w9
	lsr	w10,w8,#16
	lsr	w9,w9,#16
	ldrb	w8,[x23,#4]
	add	x23,x23,#5
	add	w11,w10,#1
	add	w10,w9,#1
	mov	w9,#1
	b	14b
6:
	mov	x26,xzr
	sub	x13,x29,#8
	b	9b
2:
	mov	w8,#1
	mov	x10,x23
	mov	w25,w26
2:
	ldrh	w11,[x10]
	rev	w12,w11
	mov	w11,#65535
	cmp	w11,w12,lsr #16
	b.eq	1b
	ldrh	w12,[x10,#2]
	rev	w12,w12
	cmp	w11,w12,lsr #16
	b.eq	1b
	cmp	x8,x20
	b.hs	7b
	cmp	x9,#5
	sub	x9,x9,#5
	add	x8,x8,#1
	add	x10,x10,#5
	b.hs	2b
	b	7b
8:
	ldur	x19,[x29,#-48]
	cbz	x20,1f
	ldr	x8,[x19,#16]
	cbz	x8,2f
	ldr	x0,[x19]
	bl	rattle_dealloc
2:
	cmp	x20,#32
	b.eq	1f
	ldr	x8,[x19,#48]
	cbz	x8,2f
	ldr	x0,[x19,#32]
	bl	rattle_dealloc
2:
	cmp	x20,#64
	b.eq	1f
	ldr	x8,[x19,#80]
	cbz	x8,2f
	ldr	x0,[x19,#64]
	bl	rattle_dealloc
2:
	cmp	x20,#96
	b.eq	1f
	ldr	x8,[x19,#112]
	cbz	x8,2f
	ldr	x0,[x19,#96]
	bl	rattle_dealloc
2:
	cmp	x20,#128
	b.eq	1f
	ldr	x8,[x19,#144]
	cbz	x8,2f
	ldr	x0,[x19,#128]
	bl	rattle_dealloc
2:
	cmp	x20,#160
	b.eq	1f
	ldr	x8,[x19,#176]
	cbz	x8,2f
	ldr	x0,[x19,#160]
	bl	rattle_dealloc
2:
	cmp	x20,#192
	b.eq	1f
	ldr	x8,[x19,#208]
	cbz	x8,2f
	ldr	x0,[x19,#192]
	bl	rattle_dealloc
2:
	cmp	x20,#224
	b.eq	1f
	ldr	x8,[x19,#240]
	cbz	x8,1f
	ldr	x0,[x19,#224]
	bl	rattle_dealloc
1:
	mov	x0,x19
	bl	rattle_dealloc
	ldr	x20,[sp,#40]
11:
	ldr	x23,[sp,#48]
	cbz	x20,1f
	mov	x24,x20
	ldp	x19,x20,[x23]
	ldr	x21,[x23,#16]
	cbz	x20,2f
	add	x22,x19,#16
	b	6f
7:
	subs	x20,x20,#1
	add	x22,x22,#32
	b.eq	2f
6:
	ldr	x8,[x22]
	cbz	x8,7b
	ldur	x0,[x22,#-16]
	bl	rattle_dealloc
	b	7b
2:
	cbz	x21,2f
	mov	x0,x19
	bl	rattle_dealloc
2:
	cmp	x24,#1
	b.eq	1f
	ldp	x19,x20,[x23,#24]
	ldr	x21,[x23,#40]
	cbz	x20,2f
	add	x22,x19,#16
	b	6f
7:
	subs	x20,x20,#1
	add	x22,x22,#32
	b.eq	2f
6:
	ldr	x8,[x22]
	cbz	x8,7b
	ldur	x0,[x22,#-16]
	bl	rattle_dealloc
	b	7b
2:
	cbz	x21,2f
	mov	x0,x19
	bl	rattle_dealloc
2:
	cmp	x24,#2
	b.eq	1f
	ldp	x19,x20,[x23,#48]
	ldr	x21,[x23,#64]
	cbz	x20,2f
	add	x22,x19,#16
	b	6f
7:
	subs	x20,x20,#1
	add	x22,x22,#32
	b.eq	2f
6:
	ldr	x8,[x22]
	cbz	x8,7b
	ldur	x0,[x22,#-16]
	bl	rattle_dealloc
	b	7b
2:
	cbz	x21,1f
	mov	x0,x19
	bl	rattle_dealloc
1:
	mov	x0,x23
	bl	rattle_dealloc
5:
	mov	w0,#1
	b	3b
10:
	ldr	x10,[sp,#48]
	ldr	x11,[sp,#8]
	b	4b
	.size	"rtp_values::value::set_values::ExtensionValuesSetValues::read_layers", .-"rtp_values::value::set_values::ExtensionValuesSetValues::read_layers"
	.cfi_endproc

	.section	.rodata.cst16,"aM",@progbits,16
	.p2align	4,0x0
.Lrtp_CPI11_0:
	.word	1
	.word	2
	.word	4
	.word	8
	.section	".text.rtp_receive::hints::Hints::learn_now","ax",@progbits
	.p2align	2
	.type	"rtp_receive::hints::Hints::learn_now",@function
"rtp_receive::hints::Hints::learn_now":
	.cfi_startproc
	sub	sp,sp,#96
	stp	x29,x30,[sp,#16]
	stp	x26,x25,[sp,#32]
	stp	x24,x23,[sp,#48]
	stp	x22,x21,[sp,#64]
	stp	x20,x19,[sp,#80]
	add	x29,sp,#16
	.cfi_def_cfa w29,80
	.cfi_offset w19,-8
	.cfi_offset w20,-16
	.cfi_offset w21,-24
	.cfi_offset w22,-32
	.cfi_offset w23,-40
	.cfi_offset w24,-48
	.cfi_offset w25,-56
	.cfi_offset w26,-64
	.cfi_offset w30,-72
	.cfi_offset w29,-80
	mov	x22,x0
	mov	x19,x1
	mov	x20,x0
	str	xzr,[x22,#32]!
	mov	x23,x22
	ldr	x8,[x23,#-16]!
	adrp	x24,.Lrtp_CPI11_0
	cbz	x8,1f
	mov	w9,#31153
	movk	w9,#40503,lsl #16
	mul	w9,w2,w9
	mul	x9,x8,x9
	lsr	x9,x9,#32
	cmp	x8,x9
	b.ls	2f
	ldr	x10,[x20,#8]
	dup	v1.4s,w2
	add	x9,x10,x9,lsl #5
	mov	x10,x9
	ldr	q0,[x10],#16
	cmeq	v2.4s,v0.4s,v1.4s
	ldr	q1,[x24,:lo12:.Lrtp_CPI11_0]
	umaxv	s3,v2.4s
	fmov	w11,s3
	tbz	w11,#0,3f
	and	v0.16b,v2.16b,v1.16b
	b	4f
3:
	ldr	q2,[x10]
	orr	v0.16b,v2.16b,v0.16b
	cmeq	v0.4s,v0.4s,#0
	and	v0.16b,v0.16b,v1.16b
4:
	addv	s0,v0.4s
	fmov	w11,s0
	and	x11,x11,#0xf
	rbit	x11,x11
	clz	x11,x11
	cmp	x11,#3
	b.hi	2f
	str	w2,[x9,x11,lsl #2]
	str	w3,[x10,x11,lsl #2]
	ldr	x8,[x23]
	b	1f
2:
	mov	w9,#16
	str	x9,[x22]
	ldr	x9,[x19,#8]
	cmp	x9,x8
	b.ls	2f
	ldr	x9,[x20,#40]
	adds	x9,x9,#16
	csinv	x9,x9,xzr,lo
	str	x9,[x20,#40]
1:
	ldr	x9,[x20,#40]
	adds	x9,x9,#1
	csinv	x10,x9,xzr,lo
	str	x10,[x20,#40]
	ldr	x9,[x19,#8]
	lsr	x9,x9,#3
	cmp	x8,x9
	csel	x9,x8,x9,hi
	subs	x10,x9,x10
	b.ls	1f
	cbnz	x8,2f
	stp	x10,x9,[x20,#32]
	b	2f
1:
	ldr	x0,[x20,#8]
	ldr	x9,[x20,#24]
	sub	x8,x29,#4
	stp	xzr,xzr,[x22]
	str	x8,[x20,#8]
	stp	xzr,xzr,[x23]
	cbz	x9,1f
	bl	rattle_dealloc
1:
	ldr	x25,[x19,#8]
	cbz	x25,1f
	lsr	x8,x25,#58
	cbnz	x8,2f
	lsl	x21,x25,#5
	mov	w1,#4
	mov	x0,x21
	bl	rattle_alloc
	tbz	w0,#0,2f
	subs	x26,x25,#1
	b.eq	3f
	sub	x2,x21,#32
	mov	x0,x1
	mov	x21,x1
	mov	w1,wzr
	bl	memset
	mov	x1,x21
3:
	movi	v0.2d,#0000000000000000
	add	x9,x1,x26,lsl #5
	add	x8,x26,#1
	stp	q0,q0,[x9]
	ldr	x0,[x20,#8]
	ldr	x9,[x20,#24]
	stp	x1,x8,[x20,#8]
	str	x25,[x20,#24]
	cbnz	x9,3f
	b	4f
1:
	sub	x1,x29,#4
	ldr	x0,[x20,#8]
	ldr	x9,[x20,#24]
	stp	x1,xzr,[x20,#8]
	str	x25,[x20,#24]
	cbz	x9,4f
3:
	bl	rattle_dealloc
4:
	ldr	x8,[x19,#8]
	cbz	x8,2f
	ldr	x10,[x19]
	lsr	x11,x8,#2
	mov	w12,#31153
	mov	x9,xzr
	movk	w12,#40503,lsl #16
1:
	add	x13,x10,x9,lsl #6
3:
	ldr	w14,[x13],#64
	ldr	x16,[x23]
	mul	w15,w14,w12
	mul	x15,x16,x15
	lsr	x15,x15,#32
	cmp	x16,x15
	b.ls	4f
	ldr	x16,[x20,#8]
	dup	v1.4s,w14
	add	x15,x16,x15,lsl #5
	mov	x16,x15
	ldr	q0,[x16],#16
	cmeq	v2.4s,v0.4s,v1.4s
	ldr	q1,[x24,:lo12:.Lrtp_CPI11_0]
	umaxv	s3,v2.4s
	fmov	w17,s3
	tbz	w17,#0,5f
	and	v0.16b,v2.16b,v1.16b
	b	6f
5:
	ldr	q2,[x16]
	orr	v0.16b,v2.16b,v0.16b
	cmeq	v0.4s,v0.4s,#0
	and	v0.16b,v0.16b,v1.16b
6:
	addv	s0,v0.4s
	fmov	w17,s0
	and	x17,x17,#0xf
	rbit	x17,x17
	clz	x17,x17
	cmp	x17,#3
	b.hi	4f
	str	w9,[x16,x17,lsl #2]
	add	x9,x9,#1
	cmp	x9,x8
	str	w14,[x15,x17,lsl #2]
	b.lo	3b
	b	2f
4:
	cbz	x11,3f
	add	x9,x9,#1
	sub	x11,x11,#1
	cmp	x9,x8
	b.lo	1b
	b	2f
3:
	ldr	x0,[x20,#8]
	ldr	x9,[x20,#24]
	sub	x8,x29,#4
	str	x8,[x20,#8]
	stp	xzr,xzr,[x23]
	cbz	x9,1f
	bl	rattle_dealloc
1:
	ldr	x8,[x19,#8]
	lsr	x9,x8,#60
	lsl	x8,x8,#4
	cmp	x9,#0
	csinv	x8,x8,xzr,eq
	str	x8,[x22]
2:
	ldp	x20,x19,[sp,#80]
	ldp	x22,x21,[sp,#64]
	ldp	x24,x23,[sp,#48]
	ldp	x26,x25,[sp,#32]
	ldp	x29,x30,[sp,#16]
	add	sp,sp,#96
	ret
	.size	"rtp_receive::hints::Hints::learn_now", .-"rtp_receive::hints::Hints::learn_now"
	.cfi_endproc

	.section	".text.unlikely.std_alloc::vec::Vec::grow_amortized::<#fc13275a563fcb41>","ax",@progbits
	.p2align	2
	.type	"std_alloc::vec::Vec::grow_amortized::<#fc13275a563fcb41>",@function
"std_alloc::vec::Vec::grow_amortized::<#fc13275a563fcb41>":
	.cfi_startproc
	ldr	x8,[x0,#8]
	cmn	x8,#1
	b.eq	1f
	stp	x29,x30,[sp,#-32]!
	stp	x20,x19,[sp,#16]
	mov	x29,sp
	.cfi_def_cfa w29,32
	.cfi_offset w19,-8
	.cfi_offset w20,-16
	.cfi_offset w30,-24
	.cfi_offset w29,-32
	ldr	x9,[x0,#16]
	cmp	x8,#3
	mov	w10,#3
	csel	x11,x8,x10,hi
	lsl	x10,x9,#1
	add	x12,x11,#1
	lsr	x13,x9,#62
	cmp	x12,x10
	csinc	x10,x10,x11,ls
	cmp	x13,#0
	csinc	x19,x10,x11,eq
	lsr	x11,x19,#57
	cbnz	x11,2f
	cbz	x9,3f
	mov	x20,x0
	ldr	x0,[x0]
	lsl	x1,x8,#6
	lsl	x2,x19,#6
	mov	w3,#16
	bl	rattle_realloc
	tbz	w0,#0,2f
4:
	mov	w0,#1
	str	x1,[x20]
	str	x19,[x20,#16]
	ldp	x20,x19,[sp,#16]
	ldp	x29,x30,[sp],#32
	ret
1:
	mov	w0,wzr
	ret
3:
	mov	x20,x0
	lsl	x0,x10,#6
	mov	w1,#16
	bl	rattle_alloc
	tbnz	w0,#0,4b
2:
	mov	w0,wzr
	ldp	x20,x19,[sp,#16]
	ldp	x29,x30,[sp],#32
	ret
	.size	"std_alloc::vec::Vec::grow_amortized::<#fc13275a563fcb41>", .-"std_alloc::vec::Vec::grow_amortized::<#fc13275a563fcb41>"
	.cfi_endproc

	.section	".text.std_alloc::vec::Vec::drop::<#96fc43e7743eb198>","ax",@progbits
	.p2align	2
	.type	"std_alloc::vec::Vec::drop::<#96fc43e7743eb198>",@function
"std_alloc::vec::Vec::drop::<#96fc43e7743eb198>":
	.cfi_startproc
	stp	x29,x30,[sp,#-80]!
	stp	x26,x25,[sp,#16]
	stp	x24,x23,[sp,#32]
	stp	x22,x21,[sp,#48]
	stp	x20,x19,[sp,#64]
	mov	x29,sp
	.cfi_def_cfa w29,80
	.cfi_offset w19,-8
	.cfi_offset w20,-16
	.cfi_offset w21,-24
	.cfi_offset w22,-32
	.cfi_offset w23,-40
	.cfi_offset w24,-48
	.cfi_offset w25,-56
	.cfi_offset w26,-64
	.cfi_offset w30,-72
	.cfi_offset w29,-80
	ldp	x19,x21,[x0]
	ldr	x22,[x0,#16]
	cbz	x21,1f
	mov	x23,xzr
	b	2f
3:
	add	x23,x23,#1
	cmp	x23,x21
	b.eq	1f
2:
	mov	w8,#24
	madd	x8,x23,x8,x19
	ldp	x20,x24,[x8]
	ldr	x25,[x8,#16]
	cbz	x24,2f
	add	x26,x20,#16
	b	4f
5:
	subs	x24,x24,#1
	add	x26,x26,#32
	b.eq	2f
4:
	ldr	x8,[x26]
	cbz	x8,5b
	ldur	x0,[x26,#-16]
	bl	rattle_dealloc
	b	5b
2:
	cbz	x25,3b
	mov	x0,x20
	bl	rattle_dealloc
	b	3b
1:
	cbz	x22,1f
	mov	x0,x19
	ldp	x20,x19,[sp,#64]
	ldp	x22,x21,[sp,#48]
	ldp	x24,x23,[sp,#32]
	ldp	x26,x25,[sp,#16]
	ldp	x29,x30,[sp],#80
	b	rattle_dealloc
1:
	ldp	x20,x19,[sp,#64]
	ldp	x22,x21,[sp,#48]
	ldp	x24,x23,[sp,#32]
	ldp	x26,x25,[sp,#16]
	ldp	x29,x30,[sp],#80
	ret
	.size	"std_alloc::vec::Vec::drop::<#96fc43e7743eb198>", .-"std_alloc::vec::Vec::drop::<#96fc43e7743eb198>"
	.cfi_endproc

	.section	".text.std_collections::btree::node::Node::destroy::<#2fe7f96373f75378>","ax",@progbits
	.p2align	2
	.type	"std_collections::btree::node::Node::destroy::<#2fe7f96373f75378>",@function
"std_collections::btree::node::Node::destroy::<#2fe7f96373f75378>":
	.cfi_startproc
	stp	x29,x30,[sp,#-96]!
	stp	x28,x27,[sp,#16]
	stp	x26,x25,[sp,#32]
	stp	x24,x23,[sp,#48]
	stp	x22,x21,[sp,#64]
	stp	x20,x19,[sp,#80]
	mov	x29,sp
	.cfi_def_cfa w29,96
	.cfi_offset w19,-8
	.cfi_offset w20,-16
	.cfi_offset w21,-24
	.cfi_offset w22,-32
	.cfi_offset w23,-40
	.cfi_offset w24,-48
	.cfi_offset w25,-56
	.cfi_offset w26,-64
	.cfi_offset w27,-72
	.cfi_offset w28,-80
	.cfi_offset w30,-88
	.cfi_offset w29,-96
	ldrh	w8,[x0,#2]
	ldrh	w21,[x0]
	mov	x19,x0
	add	x23,x0,#64
	add	x22,x0,#4
	cbz	w8,1f
	cbz	w21,2f
	add	x24,x19,#184
	add	x25,x21,#1
	add	x26,x19,#56
	add	x28,x19,#4
	add	x27,x19,#64
	b	3f
4:
	cbz	x21,2f
3:
	sub	x25,x25,#1
	ldr	x20,[x24]
	cmp	x25,#257
	b.lo	3f
	mov	x8,xzr
	add	x9,x19,#208
5:
	mov	w10,#256
	mov	x11,x9
6:
	ldp	q0,q1,[x11,#-16]
	subs	x10,x10,#4
	stur	q0,[x11,#-24]
	stur	q1,[x11,#-8]
	add	x11,x11,#32
	b.ne	6b
	add	x8,x8,#256
	add	x9,x9,#2048
	sub	x10,x25,x8
	cmp	x10,#256
	b.hi	5b
	cmp	x25,x8
	b.eq	5f
6:
	add	x0,x24,x8,lsl #3
	lsl	x2,x10,#3
	add	x1,x0,#8
	bl	memmove
5:
	mov	x0,x20
	bl	"std_collections::btree::node::Node::destroy::<#2fe7f96373f75378>"
	sub	x21,x21,#1
	cmp	x21,#513
	b.lo	7f
	mov	x11,xzr
	add	x9,x19,#20
8:
	mov	w8,#512
	mov	x10,x9
9:
	ldur	q0,[x10,#-12]
	ldur	q1,[x10,#4]
	subs	x8,x8,#8
	stp	q0,q1,[x10,#-16]
	add	x10,x10,#32
	b.ne	9b
	add	x11,x11,#512
	add	x9,x9,#2048
	sub	x8,x21,x11
	cmp	x8,#512
	b.hi	8b
	lsl	x9,x11,#2
	add	x10,x22,x9
	cmp	x21,x11
	b.ne	8f
	b	9f
3:
	mov	x8,xzr
	mov	x10,x25
	cmp	x25,xzr
	b.ne	6b
	b	5b
7:
	mov	x9,xzr
	add	x10,x19,#4
	mov	x8,x21
	cmp	x21,xzr
	b.eq	9f
8:
	cmp	x8,#8
	b.lo	3f
	add	x11,x9,x19
	sub	x11,x11,x10
	cmp	x11,#32
	b.hs	5f
3:
	mov	x11,xzr
3:
	lsl	x12,x11,#2
	add	x13,x28,x9
	sub	x8,x8,x11
	add	x10,x10,x12
	add	x9,x10,#4
	add	x10,x13,x12
6:
	ldr	w11,[x9],#4
	subs	x8,x8,#1
	str	w11,[x10],#4
	b.ne	6b
9:
	cmp	x21,#257
	b.lo	6f
	mov	x11,xzr
	add	x9,x19,#88
7:
	mov	w8,#256
	mov	x10,x9
8:
	ldp	q0,q1,[x10,#-16]
	subs	x8,x8,#4
	stur	q0,[x10,#-24]
	stur	q1,[x10,#-8]
	add	x10,x10,#32
	b.ne	8b
	add	x11,x11,#256
	add	x9,x9,#2048
	sub	x8,x21,x11
	cmp	x8,#256
	b.hi	7b
	lsl	x9,x11,#3
	add	x10,x23,x9
	cmp	x21,x11
	b.eq	4b
	b	7f
6:
	mov	x9,xzr
	add	x10,x19,#64
	mov	x8,x21
	cmp	x21,xzr
	b.eq	4b
7:
	cmp	x8,#4
	b.lo	6f
	add	x11,x26,x9
	sub	x11,x11,x10
	cmp	x11,#32
	b.hs	7f
6:
	mov	x11,xzr
6:
	lsl	x12,x11,#3
	add	x13,x27,x9
	sub	x8,x8,x11
	add	x10,x10,x12
	add	x9,x10,#8
	add	x10,x13,x12
8:
	ldr	x11,[x9],#8
	subs	x8,x8,#1
	str	x11,[x10],#8
	b.ne	8b
	b	4b
5:
	add	x13,x19,#20
	and	x11,x8,#0x3f8
	add	x12,x10,#20
	add	x13,x13,x9
	and	x14,x8,#0x3f8
5:
	ldp	q0,q1,[x12,#-16]
	subs	x14,x14,#8
	add	x12,x12,#32
	stp	q0,q1,[x13,#-16]
	add	x13,x13,#32
	b.ne	5b
	cmp	x8,x11
	b.eq	9b
	b	3b
7:
	add	x13,x19,#80
	and	x11,x8,#0x1fc
	add	x12,x10,#24
	add	x13,x13,x9
	and	x14,x8,#0x1fc
3:
	ldp	q0,q1,[x12,#-16]
	subs	x14,x14,#4
	add	x12,x12,#32
	stp	q0,q1,[x13,#-16]
	add	x13,x13,#32
	b.ne	3b
	cmp	x8,x11
	b.eq	4b
	b	6b
2:
	ldr	x0,[x19,#184]
	bl	"std_collections::btree::node::Node::destroy::<#2fe7f96373f75378>"
	b	2f
1:
	cmp	w21,#15
	b.ls	1f
	lsr	x20,x21,#1
	add	x0,x19,#4
	sub	x21,x21,x20
	mov	x2,x20
	add	x1,x22,x21,lsl #2
	bl	"core::slice::edits::mirror::<24'rtp_base::id::ssrc::Ssrc>"
	add	x1,x23,x21,lsl #3
	add	x0,x19,#64
	mov	x2,x20
	bl	"core::slice::edits::mirror::<i64>"
	b	2f
1:
	cmp	w21,#2
	b.lo	2f
	sub	x9,x21,#2
	subs	x10,x21,#1
	lsr	x8,x9,#1
	b.eq	1f
	ldr	w11,[x22,x10,lsl #2]
	ldr	w12,[x22]
	str	w11,[x22]
	str	w12,[x22,x10,lsl #2]
1:
	cbz	x8,1f
	cmp	x9,#1
	b.ls	3f
	ldr	w10,[x22,x9,lsl #2]
	ldr	w11,[x19,#8]
	str	w10,[x19,#8]
	str	w11,[x22,x9,lsl #2]
	b	4f
3:
	cbnz	x9,4f
	ldp	w10,w9,[x19,#4]
	stp	w9,w10,[x19,#4]
4:
	cmp	x8,#1
	b.eq	1f
	sub	x9,x21,#3
	cmp	x9,#2
	b.ls	3f
	ldr	w10,[x22,x9,lsl #2]
	ldr	w11,[x19,#12]
	str	w10,[x19,#12]
	str	w11,[x22,x9,lsl #2]
	b	4f
3:
	b.eq	4f
	ldr	w10,[x22,x9,lsl #2]
	ldr	w11,[x19,#12]
	str	w11,[x22,x9,lsl #2]
	str	w10,[x19,#12]
4:
	cmp	x8,#2
	b.eq	1f
	sub	x9,x21,#4
	cmp	x9,#3
	b.ls	3f
	ldr	w10,[x22,x9,lsl #2]
	ldr	w11,[x19,#16]
	str	w10,[x19,#16]
	str	w11,[x22,x9,lsl #2]
	b	4f
3:
	b.eq	4f
	ldr	w10,[x22,x9,lsl #2]
	ldr	w11,[x19,#16]
	str	w11,[x22,x9,lsl #2]
	str	w10,[x19,#16]
4:
	cmp	x8,#3
	b.eq	1f
	sub	x9,x21,#5
	cmp	x9,#4
	b.ls	3f
	ldr	w10,[x22,x9,lsl #2]
	ldr	w11,[x19,#20]
	str	w10,[x19,#20]
	str	w11,[x22,x9,lsl #2]
	b	4f
3:
	b.eq	4f
	ldr	w10,[x22,x9,lsl #2]
	ldr	w11,[x19,#20]
	str	w11,[x22,x9,lsl #2]
	str	w10,[x19,#20]
4:
	cmp	x8,#4
	b.eq	1f
	sub	x9,x21,#6
	cmp	x9,#5
	b.ls	3f
	ldr	w10,[x22,x9,lsl #2]
	ldr	w11,[x19,#24]
	str	w10,[x19,#24]
	str	w11,[x22,x9,lsl #2]
	b	4f
3:
	b.eq	4f
	ldr	w10,[x22,x9,lsl #2]
	ldr	w11,[x19,#24]
	str	w11,[x22,x9,lsl #2]
	str	w10,[x19,#24]
4:
	cmp	x8,#5
	b.eq	1f
	sub	x9,x21,#7
	cmp	x9,#6
	b.ls	3f
	ldr	w10,[x22,x9,lsl #2]
	ldr	w11,[x19,#28]
	str	w10,[x19,#28]
	str	w11,[x22,x9,lsl #2]
	b	1f
3:
	b.eq	1f
	ldr	w10,[x22,x9,lsl #2]
	ldr	w11,[x19,#28]
	str	w11,[x22,x9,lsl #2]
	str	w10,[x19,#28]
1:
	mov	x9,xzr
	add	x10,x19,#56
	add	x8,x8,#1
	b	1f
3:
	add	x12,x10,x9,lsl #3
	ldr	x13,[x10,x21,lsl #3]
	ldr	x14,[x12,#8]
	str	x13,[x12,#8]
	str	x14,[x10,x21,lsl #3]
4:
	add	x9,x9,#1
	mov	x21,x11
	cmp	x8,x9
	b.eq	2f
1:
	sub	x11,x21,#1
	cmp	x9,x11
	b.lo	3b
	cmp	x11,x9
	b.hs	4b
	add	x12,x10,x9,lsl #3
	ldr	x13,[x10,x21,lsl #3]
	ldr	x14,[x12,#8]
	str	x14,[x10,x21,lsl #3]
	str	x13,[x12,#8]
	b	4b
2:
	mov	x0,x19
	ldp	x20,x19,[sp,#80]
	ldp	x22,x21,[sp,#64]
	ldp	x24,x23,[sp,#48]
	ldp	x26,x25,[sp,#32]
	ldp	x28,x27,[sp,#16]
	ldp	x29,x30,[sp],#96
	b	rattle_dealloc
	.size	"std_collections::btree::node::Node::destroy::<#2fe7f96373f75378>", .-"std_collections::btree::node::Node::destroy::<#2fe7f96373f75378>"
	.cfi_endproc

	.section	".text.core::slice::edits::mirror::<24'rtp_base::id::ssrc::Ssrc>","ax",@progbits
	.p2align	2
	.type	"core::slice::edits::mirror::<24'rtp_base::id::ssrc::Ssrc>",@function
"core::slice::edits::mirror::<24'rtp_base::id::ssrc::Ssrc>":
	.cfi_startproc
	lsl	x8,x2,#2
	add	x9,x1,x8
	add	x8,x0,x8
	cmp	x0,x9
	ccmp	x1,x8,#2,lo
	b.lo	1f
	add	x9,x1,x2,lsl #2
	and	x8,x2,#0x7ffffffffffffffc
	mov	x10,x0
	and	x11,x2,#0x7ffffffffffffffc
	sub	x9,x9,#16
2:
	ldr	q0,[x9]
	ldr	q1,[x10]
	subs	x11,x11,#4
	rev64	v0.4s,v0.4s
	rev64	v1.4s,v1.4s
	ext	v0.16b,v0.16b,v0.16b,#8
	ext	v1.16b,v1.16b,v1.16b,#8
	str	q0,[x10],#16
	str	q1,[x9],#-16
	b.ne	2b
	cmp	x2,x8
	b.ne	2f
	b	3f
1:
	mov	x8,xzr
2:
	add	x9,x0,x8,lsl #2
	sub	x8,x2,x8
	sub	x10,x1,#4
1:
	ldr	w11,[x10,x8,lsl #2]
	ldr	w12,[x9]
	str	w11,[x9],#4
	str	w12,[x10,x8,lsl #2]
	subs	x8,x8,#1
	b.ne	1b
3:
	ret
	.size	"core::slice::edits::mirror::<24'rtp_base::id::ssrc::Ssrc>", .-"core::slice::edits::mirror::<24'rtp_base::id::ssrc::Ssrc>"
	.cfi_endproc

	.section	".text.core::slice::edits::mirror::<i64>","ax",@progbits
	.p2align	2
	.type	"core::slice::edits::mirror::<i64>",@function
"core::slice::edits::mirror::<i64>":
	.cfi_startproc
	lsl	x8,x2,#3
	add	x9,x1,x8
	add	x8,x0,x8
	cmp	x0,x9
	ccmp	x1,x8,#2,lo
	b.lo	1f
	add	x9,x1,x2,lsl #3
	and	x8,x2,#0x7ffffffffffffffe
	mov	x10,x0
	and	x11,x2,#0x7ffffffffffffffe
	sub	x9,x9,#16
2:
	ldr	q0,[x9]
	ldr	q1,[x10]
	subs	x11,x11,#2
	ext	v0.16b,v0.16b,v0.16b,#8
	ext	v1.16b,v1.16b,v1.16b,#8
	str	q0,[x10],#16
	str	q1,[x9],#-16
	b.ne	2b
	cmp	x2,x8
	b.ne	2f
	b	3f
1:
	mov	x8,xzr
2:
	add	x9,x0,x8,lsl #3
	sub	x8,x2,x8
	sub	x10,x1,#8
1:
	ldr	x11,[x10,x8,lsl #3]
	ldr	x12,[x9]
	str	x11,[x9],#8
	str	x12,[x10,x8,lsl #3]
	subs	x8,x8,#1
	b.ne	1b
3:
	ret
	.size	"core::slice::edits::mirror::<i64>", .-"core::slice::edits::mirror::<i64>"
	.cfi_endproc

	.section	".text.unlikely.core::fmt::formatter::Formatter::write_indented::<#5e1603e38c63b5f6>","ax",@progbits
	.p2align	2
	.type	"core::fmt::formatter::Formatter::write_indented::<#5e1603e38c63b5f6>",@function
"core::fmt::formatter::Formatter::write_indented::<#5e1603e38c63b5f6>":
	.cfi_startproc
	stp	x29,x30,[sp,#-80]!
	str	x25,[sp,#16]
	stp	x24,x23,[sp,#32]
	stp	x22,x21,[sp,#48]
	stp	x20,x19,[sp,#64]
	mov	x29,sp
	.cfi_def_cfa w29,80
	.cfi_offset w19,-8
	.cfi_offset w20,-16
	.cfi_offset w21,-24
	.cfi_offset w22,-32
	.cfi_offset w23,-40
	.cfi_offset w24,-48
	.cfi_offset w25,-64
	.cfi_offset w30,-72
	.cfi_offset w29,-80
	cbz	x2,1f
	mov	x21,x2
	mov	x20,x1
	mov	x19,x0
	mov	x8,xzr
	mov	x24,xzr
	b	2f
3:
	mov	w23,#1
	add	x1,x20,x25
	mov	x0,x19
	mov	x2,x22
	strb	w23,[x19,#56]
	bl	"core::fmt::formatter::Formatter::write_raw::<#5e1603e38c63b5f6>"
	and	w9,w0,#0xff
	mov	x8,x24
	tbnz	w9,#0,4f
5:
	cmp	x24,x21
	b.eq	6f
2:
	ldrb	w10,[x20,x24]
	mov	x9,x24
	add	x24,x24,#1
	cmp	w10,#10
	b.ne	5b
	subs	x22,x24,x8
	csel	x25,xzr,x8,lo
	cmp	x8,x9
	mov	x8,x24
	b.hi	5b
	ldrb	w8,[x19,#56]
	cmp	w8,#1
	b.ne	3b
	ldr	x23,[x19,#48]
	cbz	x23,3b
2:
	adrp	x1,.Lrtp_static.66
	add	x1,x1,:lo12:.Lrtp_static.66
	mov	x0,x19
	mov	w2,#4
	bl	"core::fmt::formatter::Formatter::write_raw::<#5e1603e38c63b5f6>"
	and	w8,w0,#0xff
	tbnz	w8,#0,5f
	subs	x23,x23,#1
	b.ne	2b
	b	3b
6:
	cmp	x8,x21
	csel	x22,xzr,x8,hi
	subs	x8,x21,x8
	csel	x21,xzr,x8,lo
	b.ls	1f
	ldrb	w8,[x19,#56]
	cmp	w8,#1
	b.ne	2f
	ldr	x23,[x19,#48]
	cbz	x23,2f
3:
	adrp	x1,.Lrtp_static.66
	add	x1,x1,:lo12:.Lrtp_static.66
	mov	x0,x19
	mov	w2,#4
	bl	"core::fmt::formatter::Formatter::write_raw::<#5e1603e38c63b5f6>"
	and	w8,w0,#0xff
	tbnz	w8,#0,5f
	subs	x23,x23,#1
	b.ne	3b
2:
	add	x1,x20,x22
	mov	x0,x19
	mov	x2,x21
	strb	wzr,[x19,#56]
	ldp	x20,x19,[sp,#64]
	ldp	x22,x21,[sp,#48]
	ldr	x25,[sp,#16]
	ldp	x24,x23,[sp,#32]
	ldp	x29,x30,[sp],#80
	b	"core::fmt::formatter::Formatter::write_raw::<#5e1603e38c63b5f6>"
1:
	mov	w23,wzr
	b	4f
5:
	mov	w23,#1
4:
	mov	w0,w23
	ldp	x20,x19,[sp,#64]
	ldp	x22,x21,[sp,#48]
	ldr	x25,[sp,#16]
	ldp	x24,x23,[sp,#32]
	ldp	x29,x30,[sp],#80
	ret
	.size	"core::fmt::formatter::Formatter::write_indented::<#5e1603e38c63b5f6>", .-"core::fmt::formatter::Formatter::write_indented::<#5e1603e38c63b5f6>"
	.cfi_endproc

	.section	".text.core::fmt::formatter::Formatter::write_raw::<#5e1603e38c63b5f6>","ax",@progbits
	.p2align	2
	.type	"core::fmt::formatter::Formatter::write_raw::<#5e1603e38c63b5f6>",@function
"core::fmt::formatter::Formatter::write_raw::<#5e1603e38c63b5f6>":
	.cfi_startproc
	cbz	x2,1f
	mov	x9,xzr
	b	2f
3:
	mov	w8,#1
4:
	add	x9,x8,x9
	cmp	x9,x2
	b.hs	1f
2:
	ldrsb	w8,[x1,x9]
	tbz	w8,#31,3b
	add	x10,x9,#1
	cmp	x2,x10
	b.ls	2f
	ldrsb	w11,[x1,x10]
	tbz	w11,#31,2f
	and	w10,w8,#0xff
	cmn	w11,#64
	mov	w8,#-64
	csel	w11,w11,w8,lo
	cmp	w10,#194
	mov	w8,#1
	b.lo	3f
	and	w11,w11,#0x7f
	cmp	w11,#63
	b.hi	3f
	cmp	w10,#224
	b.hs	5f
	mov	w8,#2
	b	4b
5:
	add	x8,x9,#2
	cmp	x2,x8
	b.ls	2f
	ldrsb	w8,[x1,x8]
	cmn	w8,#65
	b.gt	2f
	cmp	w10,#239
	b.hi	5f
	lsl	w8,w10,#12
	add	w8,w8,w11,lsl #6
	sub	w8,w8,#224,lsl #12
	cmp	w8,#2048
	b.lo	2f
	lsr	w8,w8,#11
	cmp	w8,#27
	mov	w8,#3
	b.lo	4b
	cmp	w10,#238
	b.hs	4b
	b	2f
5:
	add	x8,x9,#3
	cmp	x2,x8
	b.ls	2f
	ldrsb	w8,[x1,x8]
	cmn	w8,#65
	b.gt	2f
	lsl	w8,w10,#18
	mov	w10,#-62980096
	add	w8,w8,w11,lsl #12
	add	w8,w8,w10
	lsr	w8,w8,#20
	cbnz	w8,2f
	mov	w8,#4
	b	4b
1:
	stp	x29,x30,[sp,#-48]!
	stp	x22,x21,[sp,#16]
	stp	x20,x19,[sp,#32]
	mov	x29,sp
	.cfi_def_cfa w29,48
	.cfi_offset w19,-8
	.cfi_offset w20,-16
	.cfi_offset w21,-24
	.cfi_offset w22,-32
	.cfi_offset w30,-40
	.cfi_offset w29,-48
	mov	x22,x0
	ldp	x9,x19,[x22,#8]!
	sub	x8,x19,x9
	cmp	x2,x8
	b.hi	1f
4:
	ldr	x20,[x0]
	add	x21,x9,x2
	stp	xzr,xzr,[x22]
	add	x8,x20,x9
	sub	x10,x8,x1
	cmp	x10,x2
	b.hs	5f
	cmp	x2,#8
	b.lo	6f
	add	x8,x9,x20
	sub	x8,x8,x1
	cmp	x8,#32
	b.hs	7f
6:
	mov	x8,xzr
6:
	add	x10,x8,x9
	sub	x9,x2,x8
	add	x8,x1,x8
	add	x10,x20,x10
8:
	ldrb	w11,[x8],#1
	subs	x9,x9,#1
	strb	w11,[x10],#1
	b.ne	8b
	b	8f
2:
	mov	w0,#1
	ret
5:
	mov	x22,x0
	mov	x0,x8
	bl	memmove
	mov	x0,x22
8:
	mov	w8,wzr
	stp	x20,x21,[x0]
	str	x19,[x0,#16]
2:
	ldp	x20,x19,[sp,#32]
	ldp	x22,x21,[sp,#16]
	ldp	x29,x30,[sp],#48
3:
	mov	w0,w8
	ret
7:
	cmp	x2,#32
	b.hs	3f
	mov	x8,xzr
	b	5f
3:
	add	x12,x9,x20
	and	x10,x2,#0x18
	and	x8,x2,#0xffffffffffffffe0
	add	x11,x1,#16
	add	x12,x12,#16
	and	x13,x2,#0xffffffffffffffe0
3:
	ldp	q0,q1,[x11,#-16]
	subs	x13,x13,#32
	add	x11,x11,#32
	stp	q0,q1,[x12,#-16]
	add	x12,x12,#32
	b.ne	3b
	cmp	x2,x8
	b.eq	8b
	cbz	x10,6b
5:
	mov	x11,x8
	and	x8,x2,#0xfffffffffffffff8
	add	x12,x9,x11
	sub	x10,x11,x8
	add	x11,x1,x11
	add	x12,x20,x12
3:
	ldr	d0,[x11],#8
	adds	x10,x10,#8
	str	d0,[x12],#8
	b.ne	3b
	cmp	x2,x8
	b.eq	8b
	b	6b
1:
	mov	x20,x1
	mov	x1,x2
	mov	x19,x0
	mov	x21,x2
	bl	"std_alloc::vec::Vec::grow_amortized::<#9d744d77114e6601>"
	cbz	w0,1f
	mov	x0,x19
	ldp	x9,x19,[x19,#8]
	mov	x2,x21
	mov	x1,x20
	b	4b
1:
	mov	w8,#1
	b	2b
	.size	"core::fmt::formatter::Formatter::write_raw::<#5e1603e38c63b5f6>", .-"core::fmt::formatter::Formatter::write_raw::<#5e1603e38c63b5f6>"
	.cfi_endproc

	.section	.rodata.cst16,"aM",@progbits,16
	.p2align	4,0x0
.Lrtp_CPI19_0:
	.byte	0
	.byte	1
	.byte	2
	.byte	3
	.byte	4
	.byte	5
	.byte	6
	.byte	7
	.byte	8
	.byte	9
	.byte	10
	.byte	11
	.byte	12
	.byte	13
	.byte	14
	.byte	15
.Lrtp_CPI19_1:
	.byte	16
	.byte	17
	.byte	18
	.byte	19
	.byte	20
	.byte	21
	.byte	22
	.byte	23
	.byte	24
	.byte	25
	.byte	26
	.byte	27
	.byte	28
	.byte	29
	.byte	30
	.byte	31
	.section	.rodata.cst8,"aM",@progbits,8
	.p2align	3,0x0
.Lrtp_CPI19_2:
	.byte	32
	.byte	33
	.byte	34
	.byte	35
	.byte	36
	.byte	37
	.byte	38
	.byte	39
	.section	".text.rtp_listing::printing::write_text::<#df9e9f1468b30f79>","ax",@progbits
	.p2align	2
	.type	"rtp_listing::printing::write_text::<#df9e9f1468b30f79>",@function
"rtp_listing::printing::write_text::<#df9e9f1468b30f79>":
	.cfi_startproc
	sub	sp,sp,#144
	stp	x29,x30,[sp,#96]
	stp	x22,x21,[sp,#112]
	stp	x20,x19,[sp,#128]
	add	x29,sp,#96
	.cfi_def_cfa w29,48
	.cfi_offset w19,-8
	.cfi_offset w20,-16
	.cfi_offset w21,-24
	.cfi_offset w22,-32
	.cfi_offset w30,-40
	.cfi_offset w29,-48
	mov	x19,x1
	mov	x20,x0
	mov	x21,#-1
	b	1f
2:
	subs	x21,x21,#1
	b.eq	3f
1:
	cbz	x19,1f
	mov	w0,#1
	mov	x1,x20
	mov	x2,x19
	bl	write
	tbnz	x0,#63,4f
	cbz	x0,3f
	cmp	x0,x19
	csel	x8,x0,x19,lo
	add	x20,x20,x8
	sub	x19,x19,x8
	b	2b
4:
	mov	x0,sp
	mov	x22,sp
	bl	"std_io::io::error::last_error"
	adrp	x9,.Lrtp_CPI19_0
	ldr	x8,[sp]
	adrp	x10,.Lrtp_CPI19_1
	ldr	q0,[x9,:lo12:.Lrtp_CPI19_0]
	adrp	x9,.Lrtp_CPI19_2
	ldr	q1,[x10,:lo12:.Lrtp_CPI19_1]
	ldr	d2,[x9,:lo12:.Lrtp_CPI19_2]
	ubfx	w9,w8,#8,#8
	mov	w10,#40
	stp	q0,q1,[sp]
	cmp	w9,#41
	str	d2,[sp,#32]
	strb	w10,[sp,#40]
	b.hs	3f
	ubfx	x8,x8,#8,#6
	ldrb	w8,[x22,x8]
	cmp	w8,#35
	b.eq	2b
3:
	mov	w0,#1
	mov	w1,#3
	ldp	x20,x19,[sp,#128]
	ldp	x22,x21,[sp,#112]
	ldp	x29,x30,[sp,#96]
	add	sp,sp,#144
	ret
1:
	mov	w1,wzr
	mov	w0,wzr
	ldp	x20,x19,[sp,#128]
	ldp	x22,x21,[sp,#112]
	ldp	x29,x30,[sp,#96]
	add	sp,sp,#144
	ret
	.size	"rtp_listing::printing::write_text::<#df9e9f1468b30f79>", .-"rtp_listing::printing::write_text::<#df9e9f1468b30f79>"
	.cfi_endproc

	.section	.rodata.cst16,"aM",@progbits,16
	.p2align	4,0x0
.Lrtp_CPI20_0:
	.byte	1
	.byte	2
	.byte	4
	.byte	8
	.byte	16
	.byte	32
	.byte	64
	.byte	128
	.byte	1
	.byte	2
	.byte	4
	.byte	8
	.byte	16
	.byte	32
	.byte	64
	.byte	128
.Lrtp_CPI20_1:
	.byte	104
	.byte	116
	.byte	116
	.byte	112
	.byte	58
	.byte	47
	.byte	47
	.byte	119
	.byte	119
	.byte	119
	.byte	46
	.byte	119
	.byte	101
	.byte	98
	.byte	114
	.byte	116
.Lrtp_CPI20_2:
	.byte	99
	.byte	46
	.byte	111
	.byte	114
	.byte	103
	.byte	47
	.byte	101
	.byte	120
	.byte	112
	.byte	101
	.byte	114
	.byte	105
	.byte	109
	.byte	101
	.byte	110
	.byte	116
.Lrtp_CPI20_3:
	.byte	115
	.byte	47
	.byte	114
	.byte	116
	.byte	112
	.byte	45
	.byte	104
	.byte	100
	.byte	114
	.byte	101
	.byte	120
	.byte	116
	.byte	47
	.byte	97
	.byte	98
	.byte	115
.Lrtp_CPI20_4:
	.byte	120
	.byte	116
	.byte	47
	.byte	97
	.byte	98
	.byte	115
	.byte	45
	.byte	115
	.byte	101
	.byte	110
	.byte	100
	.byte	45
	.byte	116
	.byte	105
	.byte	109
	.byte	101
.Lrtp_CPI20_5:
	.byte	115
	.byte	47
	.byte	114
	.byte	116
	.byte	112
	.byte	45
	.byte	104
	.byte	100
	.byte	114
	.byte	101
	.byte	120
	.byte	116
	.byte	47
	.byte	112
	.byte	108
	.byte	97
.Lrtp_CPI20_6:
	.byte	120
	.byte	116
	.byte	47
	.byte	112
	.byte	108
	.byte	97
	.byte	121
	.byte	111
	.byte	117
	.byte	116
	.byte	45
	.byte	100
	.byte	101
	.byte	108
	.byte	97
	.byte	121
.Lrtp_CPI20_8:
	.byte	58
	.byte	32
	.byte	110
	.byte	101
	.byte	105
	.byte	116
	.byte	104
	.byte	101
	.byte	114
	.byte	32
	.byte	97
	.byte	32
	.byte	109
	.byte	97
	.byte	112
	.byte	32
.Lrtp_CPI20_11:
	.byte	0
	.byte	1
	.byte	2
	.byte	3
	.byte	4
	.byte	5
	.byte	6
	.byte	7
	.byte	8
	.byte	9
	.byte	10
	.byte	11
	.byte	12
	.byte	13
	.byte	14
	.byte	15
.Lrtp_CPI20_12:
	.byte	16
	.byte	17
	.byte	18
	.byte	19
	.byte	20
	.byte	21
	.byte	22
	.byte	23
	.byte	24
	.byte	25
	.byte	26
	.byte	27
	.byte	28
	.byte	29
	.byte	30
	.byte	31
	.section	.rodata.cst8,"aM",@progbits,8
	.p2align	3,0x0
.Lrtp_CPI20_7:
	.byte	108
	.byte	105
	.byte	110
	.byte	101
	.zero	1
	.zero	1
	.zero	1
	.zero	1
.Lrtp_CPI20_9:
	.byte	108
	.byte	105
	.byte	110
	.byte	101
	.byte	32
	.byte	110
	.byte	111
	.byte	114
.Lrtp_CPI20_10:
	.byte	32
	.byte	104
	.byte	101
	.byte	120
	.zero	1
	.zero	1
	.zero	1
	.zero	1
.Lrtp_CPI20_13:
	.byte	32
	.byte	33
	.byte	34
	.byte	35
	.byte	36
	.byte	37
	.byte	38
	.byte	39
	.section	.text.main,"ax",@progbits
	.globl	main
	.p2align	2
	.type	main,@function
main:
	.cfi_startproc
	stp	x29,x30,[sp,#-96]!
	sub	x9,sp,#15,lsl #12
	stp	x28,x27,[sp,#16]
	mov	x29,sp
	sub	x9,x9,#3072
	stp	x26,x25,[sp,#32]
	stp	x24,x23,[sp,#48]
	stp	x22,x21,[sp,#64]
	stp	x20,x19,[sp,#80]
1:
	sub	sp,sp,#3072
	cmp	sp,x9
	str	xzr,[sp]
	b.ne	1b
	sub	sp,sp,#816
	.cfi_def_cfa w29,96
	.cfi_offset w19,-8
	.cfi_offset w20,-16
	.cfi_offset w21,-24
	.cfi_offset w22,-32
	.cfi_offset w23,-40
	.cfi_offset w24,-48
	.cfi_offset w25,-56
	.cfi_offset w26,-64
	.cfi_offset w27,-72
	.cfi_offset w28,-80
	.cfi_offset w30,-88
	.cfi_offset w29,-96
	mov	w0,#13
	mov	w1,#1
	bl	__sysv_signal
	mov	x23,xzr
	mov	x25,xzr
	mov	x26,xzr
	sub	x8,x29,#17
	mov	x9,#-1
	mov	w28,#8192
	stp	xzr,xzr,[sp,#32]
	stp	x9,x8,[sp,#16]
1:
	cmp	x28,#1
	adrp	x22,.Lrtp_CPI20_11
	adrp	x21,.Lrtp_CPI20_12
	csinc	x24,x28,xzr,hi
	cmp	x26,x25
	adrp	x20,.Lrtp_CPI20_13
	b.ne	2f
	cbz	x25,3f
	sub	x8,x25,x23
	cmp	x8,#511
	b.ls	4f
2:
	sub	x8,x25,x26
	cmp	x24,x8
	csel	x8,x24,x8,lo
	add	x8,x8,x26
	subs	x2,x8,x23
	b.ls	2f
5:
	sub	x8,x25,x23
	cmp	x2,x8
	b.hi	6f
	add	x24,x23,x2
	ldr	x19,[sp,#24]
	cmp	x23,x24
	b.hs	7f
8:
	add	x0,x19,x23
	mov	w1,wzr
	bl	memset
7:
	mov	x23,x24
	stp	x24,x25,[sp,#32]
	b	9f
3:
	add	x8,x23,#511
	cmp	x8,#511
	b.hi	3f
	cmn	x23,#513
	b.hi	10f
	add	x19,x23,#512
	mov	w1,#1
	mov	x0,x19
	bl	rattle_alloc
	tbz	w0,#0,10f
	mov	x23,xzr
	str	x1,[sp,#24]
	mov	w25,#512
	mov	w24,#512
	str	x19,[sp,#40]
	sub	x8,x25,x26
	cmp	x24,x8
	csel	x8,x24,x8,lo
	add	x8,x8,x26
	subs	x2,x8,xzr
	b.ls	2f
	b	5b
3:
	mov	x25,xzr
	mov	w24,#512
	neg	x8,x26
	cmp	x24,x8
	csel	x8,x24,x8,lo
	add	x8,x8,x26
	subs	x2,x8,x23
	b.hi	5b
2:
	ldr	x19,[sp,#24]
9:
	ldr	x8,[sp,#16]
	mov	x24,xzr
	sub	x8,x8,#1
	str	x8,[sp,#16]
3:
	adds	x24,x24,#1
	b.hs	9f
	add	x1,x19,x26
	sub	x2,x23,x26
	mov	w0,wzr
	bl	read
	tbz	x0,#63,11f
	add	x0,sp,#2,lsl #12
	add	x27,sp,#2,lsl #12
	add	x0,x0,#2816
	add	x27,x27,#2816
	bl	"std_io::io::error::last_error"
	ldr	x9,[sp,#11008]
	ldr	q0,[x22,:lo12:.Lrtp_CPI20_11]
	add	x11,sp,#2,lsl #12
	ldr	q1,[x21,:lo12:.Lrtp_CPI20_12]
	ldr	d2,[x20,:lo12:.Lrtp_CPI20_13]
	add	x11,x11,#2816
	ubfx	w8,w9,#8,#8
	mov	w10,#40
	stp	q0,q1,[x11]
	cmp	w8,#41
	str	d2,[sp,#11040]
	strb	w10,[x11,#40]
	b.hs	12f
	ubfx	x9,x9,#8,#6
	ldrb	w9,[x27,x9]
	cmp	w9,#35
	b.eq	3b
	b	12f
11:
	sub	x8,x23,x26
	cmp	x0,x8
	csel	x8,x0,x8,lo
	cbz	x8,3f
	lsl	x9,x28,#1
	mov	w10,#131072
	add	x26,x8,x26
	cmp	x9,#32,lsl #12
	csel	x9,x9,x10,lo
	cmp	x28,x8
	ldr	x8,[sp,#16]
	csel	x28,x28,x9,hi
	cbnz	x8,1b
	b	9f
6:
	add	x0,sp,#24
	mov	x1,x2
	mov	x19,x2
	bl	"std_alloc::vec::Vec::grow_amortized::<#9d744d77114e6601>"
	cbz	w0,10f
	ldp	x23,x25,[sp,#32]
	mov	x2,x19
	add	x24,x23,x19
	ldr	x19,[sp,#24]
	cmp	x23,x24
	b.lo	8b
	b	7b
4:
	add	x0,sp,#24
	mov	w1,#512
	bl	"std_alloc::vec::Vec::grow_amortized::<#9d744d77114e6601>"
	cbz	w0,10f
	ldp	x23,x25,[sp,#32]
	sub	x8,x25,x26
	cmp	x24,x8
	csel	x8,x24,x8,lo
	add	x8,x8,x26
	subs	x2,x8,x23
	b.hi	5b
	b	2b
9:
	mov	w8,#22
12:
	ldr	q0,[x22,:lo12:.Lrtp_CPI20_11]
	ldr	q1,[x21,:lo12:.Lrtp_CPI20_12]
	add	x10,sp,#2,lsl #12
	ldr	d2,[x20,:lo12:.Lrtp_CPI20_13]
	add	x10,x10,#2816
	mov	w9,#40
	cmp	w8,#41
	stp	q0,q1,[x10]
	str	d2,[sp,#11040]
	strb	w9,[x10,#40]
	b.hs	1f
	add	x9,sp,#2,lsl #12
	add	x9,x9,#2816
	ldrb	w8,[x9,w8,uxtw]
	and	w8,w8,#0xff
	cmp	w8,#38
	mov	w8,#2
	cinc	w19,w8,ne
	ldr	x8,[sp,#40]
	cbnz	x8,2f
	b	4f
1:
	mov	w19,#3
	ldr	x8,[sp,#40]
	cbz	x8,4f
2:
	ldr	x0,[sp,#24]
	bl	rattle_dealloc
4:
	and	w8,w19,#0xff
	cmp	w8,#2
	b.ne	1f
	adrp	x0,.Lrtp_static.0
	add	x0,x0,:lo12:.Lrtp_static.0
	mov	w1,#15
	bl	"rtp_listing::printing::write_text::<#df9e9f1468b30f79>"
	tst	w0,#0xff
	b.eq	2f
	mov	w19,w1
1:
	and	x8,x19,#0xff
	adrp	x9,.Lrtp_switch.table.main
	add	x9,x9,:lo12:.Lrtp_switch.table.main
	ldr	w0,[x9,x8,lsl #2]
1:
	add	sp,sp,#15,lsl #12
	add	sp,sp,#3888
	ldp	x20,x19,[sp,#80]
	ldp	x22,x21,[sp,#64]
	ldp	x24,x23,[sp,#48]
	ldp	x26,x25,[sp,#32]
	ldp	x28,x27,[sp,#16]
	ldp	x29,x30,[sp],#96
	ret
2:
	mov	w0,#3
	b	1b
3:
	cmp	x23,x26
	add	x0,sp,#2,lsl #12
	mov	w1,wzr
	csel	x21,x23,x26,lo
	ldr	x26,[sp,#24]
	add	x0,x0,#2816
	mov	w2,#10992
	str	x21,[sp,#32]
	bl	memset
	add	x0,sp,#48
	mov	w1,wzr
	mov	w2,#10960
	bl	memset
	add	x0,sp,#8,lsl #12
	mov	w1,wzr
	mov	w2,#10960
	add	x0,x0,#200
	bl	memset
	add	x0,sp,#5,lsl #12
	mov	w1,wzr
	mov	w2,#10960
	add	x0,x0,#1528
	bl	memset
	movi	v0.2d,#0000000000000000
	add	x24,sp,#13,lsl #12
	add	x0,sp,#13,lsl #12
	add	x24,x24,#1008
	add	x0,x0,#1080
	mov	w1,wzr
	mov	w2,#10976
	add	x22,sp,#13,lsl #12
	add	x22,x22,#1080
	stp	q0,q0,[x24,#32]
	bl	memset
	cbz	x21,2f
	mov	x19,xzr
3:
	mov	x8,xzr
	mov	x28,x26
	mov	x22,x21
	str	x19,[sp,#16]
5:
	add	x9,x8,#32
	adrp	x27,.Lrtp_CPI20_0
	cmp	x9,x22
	b.hi	6f
	movi	v0.16b,#10
	add	x8,x28,x8
	ldp	q1,q2,[x8]
	mov	x8,x9
	cmeq	v2.16b,v2.16b,v0.16b
	cmeq	v0.16b,v1.16b,v0.16b
	ldr	q1,[x27,:lo12:.Lrtp_CPI20_0]
	and	v0.16b,v0.16b,v1.16b
	and	v1.16b,v2.16b,v1.16b
	addp	v0.16b,v0.16b,v1.16b
	addp	v0.16b,v0.16b,v0.16b
	addp	v0.16b,v0.16b,v0.16b
	fmov	w10,s0
	cbz	w10,5b
	rbit	w8,w10
	clz	w8,w8
	add	x8,x8,x9
	sub	x8,x8,#32
	b	5f
7:
	add	x8,x8,#1
6:
	cmp	x22,x8
	b.eq	6f
	ldrb	w9,[x28,x8]
	cmp	w9,#10
	b.ne	7b
5:
	cmp	x8,x22
	b.ne	5f
6:
	mov	x21,xzr
	adrp	x26,.Lrtp_static.5
	add	x26,x26,:lo12:.Lrtp_static.5
	mov	x9,x22
	b	6f
5:
	cbz	x8,5f
	sub	x9,x8,#1
	ldrb	w10,[x28,x9]
	cmp	w10,#13
	b.eq	7f
5:
	mov	x9,x8
7:
	add	x8,x8,#1
	add	x26,x28,x8
	sub	x21,x22,x8
6:
	add	x8,sp,#10,lsl #12
	subs	x9,x9,#4
	add	x8,x8,#2968
	str	xzr,[x8,#10336]
	str	xzr,[x8,#10328]
	str	xzr,[x8,#10344]
	b.lo	5f
	mov	x10,x28
	mov	w12,#24941
	ldr	w11,[x10],#4
	movk	w12,#8304,lsl #16
	cmp	w11,w12
	csel	x1,xzr,x10,ne
	csel	x8,xzr,x9,ne
	cbz	x9,5f
	cmp	w11,w12
	b.ne	5f
	mov	x20,xzr
6:
	ldrb	w11,[x10,x20]
	cmp	w11,#32
	b.eq	7f
	add	x20,x20,#1
	cmp	x9,x20
	b.ne	6b
	b	5f
7:
	add	x9,sp,#10,lsl #12
	add	x19,sp,#10,lsl #12
	cmp	x20,#3
	add	x9,x9,#2968
	add	x19,x19,#2968
	stp	xzr,xzr,[x9]
	str	xzr,[x9,#16]
	b.hi	5f
	mov	x9,xzr
	sub	x25,x8,#1
	add	x23,x1,x20
6:
	cmp	x20,x9
	b.eq	7f
	ldrb	w8,[x1,x9]
	add	x9,x9,#1
	sub	w8,w8,#48
	cmp	w8,#10
	b.lo	6b
	b	5f
7:
	add	x0,sp,#10,lsl #12
	mov	x2,x20
	add	x0,x0,#2968
	bl	"core::str::utf8::from_utf8"
	ldrb	w8,[x19]
	sub	x2,x25,x20
	cbnz	w8,5f
	add	x9,sp,#10,lsl #12
	add	x14,sp,#10,lsl #12
	add	x9,x9,#2968
	add	x14,x14,#2968
	ldur	w8,[x9,#18]
	ldrb	w10,[x9,#16]
	ldrb	w11,[x9,#17]
	ldrh	w9,[x9,#22]
	lsl	x8,x8,#16
	mov	x13,x10
	bfi	x13,x11,#8,#8
	orr	x12,x8,x9,lsl #48
	orr	x9,x13,x12
	cbz	x9,5f
	ldr	x8,[x14,#8]
	ldrb	w13,[x8]
	cmp	w13,#43
	b.ne	6f
	cmp	x9,#1
	b.eq	5f
	lsl	x9,x11,#8
	mov	x19,xzr
	add	x8,x8,#1
	add	x9,x12,x9
	add	x9,x9,x10
	sub	x9,x9,#1
7:
	ldrb	w10,[x8],#1
	sub	w11,w10,#48
	cmp	w11,#9
	b.hi	5f
	mov	w11,#10
	and	x10,x10,#0xf
	madd	x19,x19,x11,x10
	cmp	x19,#255
	b.hi	5f
	subs	x9,x9,#1
	b.ne	7b
	b	7f
6:
	mov	x19,xzr
6:
	ldrb	w10,[x8],#1
	sub	w11,w10,#48
	cmp	w11,#9
	b.hi	5f
	mov	w11,#10
	and	x10,x10,#0xf
	madd	x19,x19,x11,x10
	cmp	x19,#255
	b.hi	5f
	subs	x9,x9,#1
	b.ne	6b
7:
	cbz	x19,5f
	cmp	x25,x20
	b.eq	5f
	add	x0,sp,#13,lsl #12
	add	x1,x23,#1
	add	x0,x0,#1008
	bl	"core::str::utf8::from_utf8"
	ldrb	w8,[x24]
	cbnz	w8,5f
	ldur	w8,[x24,#18]
	ldrb	w23,[x24,#16]
	ldrb	w11,[x24,#17]
	ldrh	w9,[x24,#22]
	ldr	x28,[x24,#8]
	lsl	x8,x8,#16
	mov	x10,x23
	str	x11,[sp,#8]
	bfi	x10,x11,#8,#8
	orr	x25,x8,x9,lsl #48
	orr	x20,x10,x25
	cmp	x20,#73
	b.hi	6f
	adrp	x8,7f
	add	x8,x8,:lo12:7f
	adrp	x11,.Lrtp_static.17
	add	x11,x11,:lo12:.Lrtp_static.17
	adr	x12,8f
	ldrb	w10,[x8,x20]
	add	x12,x12,x10,lsl #2
	adrp	x9,.Lrtp_static.9
	add	x9,x9,:lo12:.Lrtp_static.9
	sub	x22,x29,#17
	mov	w10,#5
	mov	w8,#1
	br	x12
8:
	mov	x9,#29301
	ldr	x8,[x28]
	movk	x9,#14958,lsl #16
	movk	x9,#26419,lsl #32
	movk	x9,#28784,lsl #48
	cmp	x8,x9
	b.ne	9f
	mov	x9,#30266
	ldr	x8,[x28,#8]
	movk	x9,#25705,lsl #16
	movk	x9,#28517,lsl #32
	movk	x9,#28461,lsl #48
	cmp	x8,x9
	b.ne	9f
	mov	x9,#26994
	ldr	x8,[x28,#16]
	movk	x9,#28261,lsl #16
	movk	x9,#24948,lsl #32
	movk	x9,#26996,lsl #48
	cmp	x8,x9
	b.ne	9f
	mov	x9,#28261
	ldur	x8,[x28,#18]
	movk	x9,#24948,lsl #16
	movk	x9,#26996,lsl #32
	movk	x9,#28271,lsl #48
	cmp	x8,x9
	b.ne	9f
	mov	x22,xzr
	mov	x20,xzr
	mov	w8,#4
	b	11f
13:
	adrp	x8,.Lrtp_CPI20_1
	ldp	q0,q1,[x28]
	ldr	q4,[x8,:lo12:.Lrtp_CPI20_1]
	adrp	x8,.Lrtp_CPI20_2
	ldr	q3,[x28,#32]
	ldr	q5,[x8,:lo12:.Lrtp_CPI20_2]
	adrp	x8,.Lrtp_CPI20_3
	ldur	q2,[x28,#42]
	ldr	q6,[x8,:lo12:.Lrtp_CPI20_3]
	adrp	x8,.Lrtp_CPI20_4
	cmeq	v4.16b,v0.16b,v4.16b
	ldr	q7,[x8,:lo12:.Lrtp_CPI20_4]
	cmeq	v5.16b,v1.16b,v5.16b
	ldr	q16,[x27,:lo12:.Lrtp_CPI20_0]
	cmeq	v6.16b,v3.16b,v6.16b
	cmeq	v7.16b,v2.16b,v7.16b
	bic	v4.16b,v16.16b,v4.16b
	bic	v5.16b,v16.16b,v5.16b
	bic	v6.16b,v16.16b,v6.16b
	bic	v7.16b,v16.16b,v7.16b
	addp	v4.16b,v4.16b,v4.16b
	addp	v5.16b,v5.16b,v5.16b
	addp	v6.16b,v6.16b,v6.16b
	addp	v7.16b,v7.16b,v7.16b
	addp	v4.16b,v4.16b,v4.16b
	addp	v5.16b,v5.16b,v5.16b
	addp	v6.16b,v6.16b,v6.16b
	addp	v7.16b,v7.16b,v7.16b
	addp	v4.16b,v4.16b,v4.16b
	addp	v5.16b,v5.16b,v5.16b
	addp	v6.16b,v6.16b,v6.16b
	addp	v7.16b,v7.16b,v7.16b
	orr	v4.16b,v5.16b,v4.16b
	orr	v5.16b,v6.16b,v7.16b
	orr	v4.16b,v4.16b,v5.16b
	umov	w8,v4.h[0]
	cbnz	w8,14f
	mov	x22,xzr
	mov	x20,xzr
	mov	x8,xzr
	b	11f
15:
	adrp	x9,.Lrtp_static.21
	add	x9,x9,:lo12:.Lrtp_static.21
	mov	w8,#7
	b	16f
17:
	adrp	x9,.Lrtp_static.11
	add	x9,x9,:lo12:.Lrtp_static.11
	mov	w8,#2
	b	16f
18:
	adrp	x9,.Lrtp_static.31
	add	x9,x9,:lo12:.Lrtp_static.31
	mov	w8,#12
	b	16f
19:
	adrp	x9,.Lrtp_static.25
	add	x9,x9,:lo12:.Lrtp_static.25
	mov	w8,#9
	b	16f
20:
	adrp	x9,.Lrtp_static.27
	add	x9,x9,:lo12:.Lrtp_static.27
	mov	w8,#10
	b	16f
21:
	adrp	x11,.Lrtp_static.35
	add	x11,x11,:lo12:.Lrtp_static.35
	mov	w10,#14
22:
	mov	x8,x11
	mov	x9,x28
	mov	x12,x20
23:
	ldp	q0,q6,[x8]
	ldp	q1,q2,[x8,#32]
	ldp	q3,q7,[x9]
	ldp	q5,q4,[x9,#32]
	cmeq	v3.16b,v0.16b,v3.16b
	ldr	q0,[x27,:lo12:.Lrtp_CPI20_0]
	cmeq	v2.16b,v2.16b,v4.16b
	cmeq	v1.16b,v1.16b,v5.16b
	cmeq	v4.16b,v6.16b,v7.16b
	bic	v3.16b,v0.16b,v3.16b
	bic	v4.16b,v0.16b,v4.16b
	bic	v1.16b,v0.16b,v1.16b
	bic	v2.16b,v0.16b,v2.16b
	addp	v3.16b,v3.16b,v4.16b
	addp	v1.16b,v1.16b,v2.16b
	addp	v1.16b,v3.16b,v1.16b
	addp	v1.16b,v1.16b,v1.16b
	fmov	x13,d1
	cbnz	x13,24f
	sub	x12,x12,#64
	add	x9,x9,#64
	add	x8,x8,#64
	cmp	x12,#65
	b.hs	23b
	sub	x8,x20,#64
	add	x9,x11,x8
	add	x8,x28,x8
	ldp	q1,q2,[x9]
	ldp	q3,q4,[x9,#32]
	ldp	q5,q6,[x8]
	ldp	q7,q16,[x8,#32]
	cmeq	v1.16b,v1.16b,v5.16b
	cmeq	v2.16b,v2.16b,v6.16b
	cmeq	v4.16b,v4.16b,v16.16b
	cmeq	v3.16b,v3.16b,v7.16b
	bic	v1.16b,v0.16b,v1.16b
	bic	v2.16b,v0.16b,v2.16b
	bic	v3.16b,v0.16b,v3.16b
	bic	v0.16b,v0.16b,v4.16b
	addp	v1.16b,v1.16b,v2.16b
	addp	v0.16b,v3.16b,v0.16b
	addp	v0.16b,v1.16b,v0.16b
	addp	v0.16b,v0.16b,v0.16b
	fmov	x8,d0
	cbnz	x8,24f
	mov	x22,xzr
	mov	x20,xzr
	mov	x8,x10
	b	11f
23:
	adrp	x9,.Lrtp_static.13
	add	x9,x9,:lo12:.Lrtp_static.13
	mov	w8,#3
	b	16f
25:
	adrp	x9,.Lrtp_static.29
	add	x9,x9,:lo12:.Lrtp_static.29
	mov	w8,#11
	b	16f
26:
	adrp	x9,.Lrtp_static.23
	add	x9,x9,:lo12:.Lrtp_static.23
	mov	w8,#8
	b	16f
27:
	adrp	x9,.Lrtp_static.33
	add	x9,x9,:lo12:.Lrtp_static.33
	mov	w8,#13
16:
	ldp	q0,q3,[x28]
	sub	x10,x20,#16
	ldp	q1,q2,[x9]
	mov	w11,#32
	ldr	q4,[x28,x10]
	cmp	x10,#32
	cmeq	v0.16b,v1.16b,v0.16b
	cmeq	v2.16b,v2.16b,v3.16b
	ldr	q1,[x27,:lo12:.Lrtp_CPI20_0]
	ldr	q3,[x9,x10]
	csel	x10,x10,x11,lo
	ldr	q5,[x28,x10]
	bic	v0.16b,v1.16b,v0.16b
	cmeq	v3.16b,v3.16b,v4.16b
	bic	v2.16b,v1.16b,v2.16b
	ldr	q4,[x9,x10]
	addp	v0.16b,v0.16b,v0.16b
	cmeq	v4.16b,v4.16b,v5.16b
	bic	v3.16b,v1.16b,v3.16b
	addp	v2.16b,v2.16b,v2.16b
	addp	v0.16b,v0.16b,v0.16b
	bic	v1.16b,v1.16b,v4.16b
	addp	v3.16b,v3.16b,v3.16b
	addp	v2.16b,v2.16b,v2.16b
	addp	v0.16b,v0.16b,v0.16b
	addp	v1.16b,v1.16b,v1.16b
	addp	v3.16b,v3.16b,v3.16b
	addp	v2.16b,v2.16b,v2.16b
	addp	v1.16b,v1.16b,v1.16b
	orr	v0.16b,v2.16b,v0.16b
	addp	v2.16b,v3.16b,v3.16b
	addp	v1.16b,v1.16b,v1.16b
	orr	v0.16b,v0.16b,v2.16b
	orr	v0.16b,v0.16b,v1.16b
	umov	w9,v0.h[0]
	cbz	w9,28f
24:
	cbz	x20,24f
	cmp	x20,#58
	b.ne	6f
	ldp	q0,q1,[x28]
	ldr	q3,[x28,#32]
	ldur	q2,[x28,#42]
14:
	adrp	x8,.Lrtp_CPI20_1
	adrp	x9,.Lrtp_CPI20_2
	ldr	q4,[x8,:lo12:.Lrtp_CPI20_1]
	adrp	x8,.Lrtp_CPI20_5
	ldr	q5,[x9,:lo12:.Lrtp_CPI20_2]
	adrp	x9,.Lrtp_CPI20_6
	ldr	q6,[x8,:lo12:.Lrtp_CPI20_5]
	ldr	q7,[x9,:lo12:.Lrtp_CPI20_6]
	cmeq	v0.16b,v0.16b,v4.16b
	cmeq	v1.16b,v1.16b,v5.16b
	cmeq	v3.16b,v3.16b,v6.16b
	ldr	q4,[x27,:lo12:.Lrtp_CPI20_0]
	cmeq	v2.16b,v2.16b,v7.16b
	bic	v0.16b,v4.16b,v0.16b
	bic	v1.16b,v4.16b,v1.16b
	bic	v3.16b,v4.16b,v3.16b
	bic	v2.16b,v4.16b,v2.16b
	addp	v0.16b,v0.16b,v0.16b
	addp	v1.16b,v1.16b,v1.16b
	addp	v3.16b,v3.16b,v3.16b
	addp	v2.16b,v2.16b,v2.16b
	addp	v0.16b,v0.16b,v0.16b
	addp	v1.16b,v1.16b,v1.16b
	addp	v3.16b,v3.16b,v3.16b
	addp	v2.16b,v2.16b,v2.16b
	addp	v0.16b,v0.16b,v0.16b
	addp	v1.16b,v1.16b,v1.16b
	addp	v3.16b,v3.16b,v3.16b
	addp	v2.16b,v2.16b,v2.16b
	orr	v0.16b,v1.16b,v0.16b
	orr	v1.16b,v3.16b,v2.16b
	orr	v0.16b,v0.16b,v1.16b
	umov	w8,v0.h[0]
	cbnz	w8,9f
	mov	x22,xzr
	mov	x20,xzr
	mov	w8,#6
	b	11f
28:
	mov	x22,xzr
	mov	x20,xzr
	b	11f
6:
	tbnz	x25,#63,14f
9:
	mov	x0,x20
	mov	w1,#1
	bl	rattle_alloc
	tbz	w0,#0,14f
	mov	x22,x1
	b	9f
24:
	sub	x22,x29,#17
9:
	sub	x9,x22,x28
	cmp	x9,x20
	b.hs	24f
	cmp	x20,#8
	mov	x8,xzr
	b.lo	28f
	cmp	x9,#32
	b.lo	28f
	cmp	x20,#32
	b.hs	29f
	mov	x8,xzr
	b	30f
24:
	mov	x0,x22
	mov	x1,x28
	mov	x2,x20
	bl	memmove
	b	24f
29:
	and	x9,x23,#0x1f
	add	x10,x28,#16
	add	x11,x22,#16
	sub	x8,x20,x9
	sub	x12,x20,x9
29:
	ldp	q0,q1,[x10,#-16]
	subs	x12,x12,#32
	add	x10,x10,#32
	stp	q0,q1,[x11,#-16]
	add	x11,x11,#32
	b.ne	29b
	cbz	x9,29f
	add	x24,sp,#13,lsl #12
	cmp	x9,#8
	add	x24,x24,#1008
	b.lo	28f
30:
	mov	x10,x8
	ldr	x8,[sp,#8]
	and	x9,x23,#0x7
	add	x11,x10,x9
	lsl	x8,x8,#8
	sub	x11,x11,x23
	sub	x11,x11,x8
	sub	x8,x20,x9
	sub	x11,x11,x25
30:
	ldr	d0,[x28,x10]
	adds	x11,x11,#8
	str	d0,[x22,x10]
	add	x10,x10,#8
	b.ne	30b
	add	x24,sp,#13,lsl #12
	add	x24,x24,#1008
	cbz	x9,24f
28:
	ldrb	w9,[x28,x8]
	strb	w9,[x22,x8]
	add	x8,x8,#1
	cmp	x20,x8
	b.ne	28b
24:
	mov	w8,#15
11:
	add	x0,sp,#13,lsl #12
	add	x2,sp,#13,lsl #12
	mov	w1,w19
	add	x0,x0,#1080
	add	x2,x2,#1040
	stp	x8,x22,[x24,#32]
	stp	x20,x20,[x24,#48]
	bl	"rtp_ext::map::ExtensionMap::set"
	ldr	x19,[sp,#16]
	add	x19,x19,#1
	cbnz	x21,3b
	b	3f
29:
	add	x24,sp,#13,lsl #12
	mov	w8,#15
	add	x24,x24,#1008
	b	11b
10:
	mov	w8,#38
	b	12b
5:
	add	x8,sp,#13,lsl #12
	ldp	x21,x20,[x24,#72]
	add	x8,x8,#1080
	add	x0,sp,#8,lsl #12
	mov	w2,#10960
	add	x0,x0,#200
	add	x1,x8,#16
	bl	memcpy
	ldr	x19,[sp,#16]
	cmp	x22,#64
	mov	x9,x22
	mov	x8,x28
	b.hs	5f
10:
	cbnz	x9,11f
	b	12f
2:
	mov	x20,xzr
	mov	x19,xzr
2:
	add	x0,sp,#8,lsl #12
	add	x1,x22,#16
	mov	w2,#10960
	add	x0,x0,#200
	bl	memcpy
	mov	x22,xzr
	mov	x28,x26
12:
	cbz	x19,24f
	add	x0,sp,#5,lsl #12
	add	x1,sp,#8,lsl #12
	mov	w2,#10960
	add	x0,x0,#1528
	add	x1,x1,#200
	bl	memcpy
	mov	x23,x21
	mov	x24,x20
28:
	add	x1,sp,#5,lsl #12
	add	x0,sp,#48
	mov	w2,#10960
	add	x1,x1,#1528
	bl	memcpy
	add	x8,sp,#2,lsl #12
	add	x1,sp,#48
	mov	w2,#10960
	add	x8,x8,#2816
	str	x23,[sp,#11008]
	add	x0,x8,#16
	str	x24,[sp,#11016]
	bl	memcpy
	add	x0,sp,#2,lsl #12
	str	x28,[sp,#21984]
	add	x0,x0,#2816
	str	x22,[sp,#21992]
	bl	"rtp_listing::printing::print_all::<#df9e9f1468b30f79>"
	mov	w20,w0
	mov	w19,w1
	add	x0,sp,#13,lsl #12
	add	x1,sp,#2,lsl #12
	add	x0,x0,#1080
	mov	w2,#10200
	add	x1,x1,#2816
	add	x21,sp,#13,lsl #12
	add	x21,x21,#1080
	bl	memcpy
	add	x21,x21,#16
	mov	w22,#255
	b	29f
30:
	subs	x22,x22,#1
	add	x21,x21,#40
	b.eq	31f
29:
	ldurb	w8,[x21,#-16]
	cbz	w8,30b
	ldurb	w9,[x21,#-8]
	ldr	x0,[x21]
	cmp	w8,#2
	ldr	x8,[x21,#16]
	cmp	w9,#15
	b.ne	30b
	cbz	x8,30b
	bl	rattle_dealloc
	b	30b
31:
	and	w8,w20,#0xff
	cmp	w8,#1
	cset	w20,eq
29:
	ldr	x8,[sp,#40]
	cbz	x8,30f
	ldr	x0,[sp,#24]
	bl	rattle_dealloc
30:
	cbnz	w20,4b
	mov	w0,wzr
	b	1b
24:
	add	x26,sp,#10,lsl #12
	add	x0,sp,#13,lsl #12
	mov	w1,wzr
	add	x26,x26,#2968
	add	x0,x0,#1080
	mov	w2,#10976
	add	x19,sp,#13,lsl #12
	stp	xzr,xzr,[x26,#16]
	str	xzr,[x26,#8]
	add	x19,x19,#1080
	stp	xzr,xzr,[x24,#48]
	str	xzr,[x24,#40]
	stp	xzr,xzr,[x24,#16]
	str	xzr,[x24,#8]
	str	xzr,[x26,#10304]
	str	xzr,[x26,#10320]
	str	xzr,[x26,#10312]
	str	xzr,[x26,#10272]
	str	xzr,[x26,#10288]
	str	xzr,[x26,#10280]
	str	xzr,[x26,#10248]
	str	xzr,[x26,#10240]
	str	xzr,[x26,#10256]
	str	xzr,[x26,#10216]
	str	xzr,[x26,#10208]
	str	xzr,[x26,#10224]
	bl	memset
	add	x0,sp,#13,lsl #12
	add	x2,sp,#10,lsl #12
	mov	w8,#2
	add	x0,x0,#1080
	add	x2,x2,#2968
	mov	w1,#1
	str	x8,[x26]
	bl	"rtp_ext::map::ExtensionMap::set"
	add	x0,sp,#13,lsl #12
	add	x2,sp,#13,lsl #12
	mov	w1,#2
	add	x0,x0,#1080
	add	x2,x2,#1040
	str	xzr,[x24,#32]
	bl	"rtp_ext::map::ExtensionMap::set"
	add	x0,sp,#13,lsl #12
	add	x2,sp,#13,lsl #12
	mov	w8,#5
	add	x0,x0,#1080
	add	x2,x2,#1008
	mov	w1,#3
	str	x8,[x24]
	bl	"rtp_ext::map::ExtensionMap::set"
	add	x0,sp,#13,lsl #12
	add	x2,sp,#13,lsl #12
	mov	w8,#11
	add	x0,x0,#1080
	add	x2,x2,#976
	mov	w1,#4
	str	x8,[x26,#10296]
	mov	w23,#4
	bl	"rtp_ext::map::ExtensionMap::set"
	add	x0,sp,#13,lsl #12
	add	x2,sp,#13,lsl #12
	mov	w8,#9
	add	x0,x0,#1080
	add	x2,x2,#944
	mov	w1,#10
	add	x25,sp,#13,lsl #12
	str	x8,[x26,#10264]
	mov	w24,#10
	add	x25,x25,#1008
	bl	"rtp_ext::map::ExtensionMap::set"
	add	x0,sp,#13,lsl #12
	add	x2,sp,#13,lsl #12
	mov	w1,#11
	add	x0,x0,#1080
	add	x2,x2,#912
	str	x24,[x26,#10232]
	bl	"rtp_ext::map::ExtensionMap::set"
	add	x0,sp,#13,lsl #12
	add	x2,sp,#13,lsl #12
	mov	w1,#13
	add	x0,x0,#1080
	add	x2,x2,#880
	str	x23,[x26,#10200]
	bl	"rtp_ext::map::ExtensionMap::set"
	ldp	x23,x24,[x25,#72]
	add	x19,x19,#16
	add	x0,sp,#5,lsl #12
	mov	x1,x19
	mov	w2,#10960
	add	x0,x0,#1528
	bl	memcpy
	add	x1,sp,#8,lsl #12
	mov	x0,x19
	mov	w2,#10184
	add	x1,x1,#200
	stp	x21,x20,[x25,#72]
	bl	memcpy
	mov	w20,#255
	b	1f
4:
	subs	x20,x20,#1
	add	x19,x19,#40
	b.eq	28b
1:
	ldurb	w8,[x19,#-16]
	cbz	w8,4b
	ldurb	w9,[x19,#-8]
	ldr	x0,[x19]
	cmp	w8,#2
	ldr	x8,[x19,#16]
	cmp	w9,#15
	b.ne	4b
	cbz	x8,4b
	bl	rattle_dealloc
	b	4b
5:
	movi	v0.16b,#10
	ldp	q1,q2,[x28]
	mov	x9,x22
	mov	x8,x28
	cmeq	v2.16b,v2.16b,v0.16b
	cmeq	v0.16b,v1.16b,v0.16b
	ldr	q1,[x27,:lo12:.Lrtp_CPI20_0]
	and	v0.16b,v0.16b,v1.16b
	and	v1.16b,v2.16b,v1.16b
	addp	v0.16b,v0.16b,v1.16b
	addp	v0.16b,v0.16b,v0.16b
	addp	v0.16b,v0.16b,v0.16b
	fmov	w10,s0
	cbz	w10,1f
11:
	mov	x26,x19
	b	4f
5:
	mov	x9,x10
	mov	x8,x11
	cbz	x10,12b
4:
	mov	x10,xzr
4:
	add	x11,x10,#32
	cmp	x11,x9
	b.hi	12f
	movi	v0.16b,#10
	add	x10,x8,x10
	ldp	q1,q2,[x10]
	mov	x10,x11
	cmeq	v2.16b,v2.16b,v0.16b
	cmeq	v0.16b,v1.16b,v0.16b
	ldr	q1,[x27,:lo12:.Lrtp_CPI20_0]
	and	v0.16b,v0.16b,v1.16b
	and	v1.16b,v2.16b,v1.16b
	addp	v0.16b,v0.16b,v1.16b
	addp	v0.16b,v0.16b,v0.16b
	addp	v0.16b,v0.16b,v0.16b
	fmov	w12,s0
	cbz	w12,4b
	rbit	w10,w12
	clz	w10,w10
	add	x10,x10,x11
	sub	x10,x10,#32
	b	4f
24:
	add	x10,x10,#1
12:
	cmp	x9,x10
	b.eq	12f
	ldrb	w11,[x8,x10]
	cmp	w11,#10
	b.ne	24b
4:
	cmp	x10,x9
	b.ne	4f
12:
	mov	x10,xzr
	adrp	x11,.Lrtp_static.5
	add	x11,x11,:lo12:.Lrtp_static.5
	add	x26,x26,#1
	tbz	w9,#0,12f
	b	24f
4:
	cbz	x10,4f
	sub	x12,x10,#1
	ldrb	w11,[x8,x12]
	cmp	w11,#13
	b.eq	28f
4:
	mov	x12,x10
28:
	add	x10,x10,#1
	add	x11,x8,x10
	sub	x10,x9,x10
	mov	x9,x12
	add	x26,x26,#1
	tbnz	w9,#0,24f
12:
	cbz	x9,4f
	cmp	x9,#8
	b.hs	12f
	mov	w13,wzr
	mov	x12,xzr
	b	28f
12:
	cmp	x9,#32
	b.hs	12f
	mov	x12,xzr
	mov	w13,wzr
	b	30f
12:
	movi	v0.2d,#0000000000000000
	movi	v1.2d,#0000000000000000
	and	x14,x9,#0x18
	and	x12,x9,#0xffffffffffffffe0
	add	x13,x8,#16
	and	x15,x9,#0xffffffffffffffe0
12:
	movi	v2.16b,#223
	ldp	q3,q4,[x13,#-16]
	movi	v5.16b,#208
	movi	v6.16b,#191
	movi	v16.16b,#9
	movi	v17.16b,#5
	subs	x15,x15,#32
	add	x13,x13,#32
	and	v7.16b,v3.16b,v2.16b
	and	v2.16b,v4.16b,v2.16b
	add	v3.16b,v3.16b,v5.16b
	add	v4.16b,v4.16b,v5.16b
	add	v5.16b,v7.16b,v6.16b
	add	v2.16b,v2.16b,v6.16b
	uqsub	v3.16b,v3.16b,v16.16b
	uqsub	v4.16b,v4.16b,v16.16b
	uqsub	v5.16b,v5.16b,v17.16b
	uqsub	v2.16b,v2.16b,v17.16b
	umin	v3.16b,v5.16b,v3.16b
	umin	v2.16b,v2.16b,v4.16b
	orr	v0.16b,v3.16b,v0.16b
	orr	v1.16b,v2.16b,v1.16b
	b.ne	12b
	orr	v0.16b,v1.16b,v0.16b
	cmp	x9,x12
	ext	v1.16b,v0.16b,v0.16b,#8
	orr	v0.8b,v0.8b,v1.8b
	fmov	x13,d0
	orr	x13,x13,x13,lsr #32
	orr	x13,x13,x13,lsr #16
	lsr	x15,x13,#8
	orr	w13,w13,w15
	b.eq	12f
	cbz	x14,28f
30:
	movi	v0.2d,#0000000000000000
	mov	x14,x12
	and	x12,x9,#0xfffffffffffffff8
	mov	v0.b[0],w13
	sub	x13,x14,x12
	add	x14,x8,x14
30:
	movi	v1.8b,#223
	ldr	d2,[x14],#8
	movi	v3.8b,#208
	movi	v4.8b,#191
	movi	v5.8b,#9
	movi	v6.8b,#5
	adds	x13,x13,#8
	and	v1.8b,v2.8b,v1.8b
	add	v2.8b,v2.8b,v3.8b
	add	v1.8b,v1.8b,v4.8b
	uqsub	v2.8b,v2.8b,v5.8b
	uqsub	v1.8b,v1.8b,v6.8b
	umin	v1.8b,v1.8b,v2.8b
	orr	v0.8b,v1.8b,v0.8b
	b.ne	30b
	fmov	x13,d0
	cmp	x9,x12
	orr	x13,x13,x13,lsr #32
	orr	x13,x13,x13,lsr #16
	lsr	x14,x13,#8
	orr	w13,w13,w14
	b.eq	12f
28:
	sub	x9,x9,x12
	add	x8,x8,x12
28:
	ldrb	w12,[x8],#1
	sub	w14,w12,#48
	and	w12,w12,#0xffffffdf
	and	w14,w14,#0xff
	sub	w12,w12,#65
	subs	w14,w14,#9
	and	w12,w12,#0xff
	csel	w14,wzr,w14,lo
	subs	w12,w12,#5
	csel	w12,wzr,w12,lo
	cmp	w12,w14
	csel	w12,w12,w14,lo
	subs	x9,x9,#1
	orr	w13,w12,w13
	b.ne	28b
12:
	tst	w13,#0xff
	b.ne	24f
4:
	cmp	x10,#64
	b.lo	5b
	movi	v0.16b,#10
	ldp	q1,q2,[x11]
	cmeq	v2.16b,v2.16b,v0.16b
	cmeq	v0.16b,v1.16b,v0.16b
	ldr	q1,[x27,:lo12:.Lrtp_CPI20_0]
	and	v0.16b,v0.16b,v1.16b
	and	v1.16b,v2.16b,v1.16b
	addp	v0.16b,v0.16b,v1.16b
	addp	v0.16b,v0.16b,v0.16b
	addp	v0.16b,v0.16b,v0.16b
	fmov	w8,s0
	cbnz	w8,5b
4:
	movi	v0.16b,#223
	ldp	q1,q2,[x11]
	ldp	q5,q6,[x11,#32]
	movi	v3.16b,#208
	movi	v4.16b,#191
	movi	v7.16b,#9
	movi	v19.16b,#5
	and	v16.16b,v1.16b,v0.16b
	and	v17.16b,v2.16b,v0.16b
	and	v18.16b,v5.16b,v0.16b
	and	v0.16b,v6.16b,v0.16b
	add	v1.16b,v1.16b,v3.16b
	add	v2.16b,v2.16b,v3.16b
	add	v5.16b,v5.16b,v3.16b
	add	v3.16b,v6.16b,v3.16b
	add	v6.16b,v16.16b,v4.16b
	add	v16.16b,v17.16b,v4.16b
	add	v17.16b,v18.16b,v4.16b
	add	v0.16b,v0.16b,v4.16b
	uqsub	v1.16b,v1.16b,v7.16b
	uqsub	v2.16b,v2.16b,v7.16b
	uqsub	v4.16b,v5.16b,v7.16b
	uqsub	v3.16b,v3.16b,v7.16b
	uqsub	v5.16b,v6.16b,v19.16b
	uqsub	v6.16b,v16.16b,v19.16b
	uqsub	v7.16b,v17.16b,v19.16b
	uqsub	v0.16b,v0.16b,v19.16b
	umin	v1.16b,v5.16b,v1.16b
	umin	v2.16b,v6.16b,v2.16b
	umin	v4.16b,v7.16b,v4.16b
	umin	v0.16b,v0.16b,v3.16b
	orr	v1.16b,v4.16b,v1.16b
	orr	v0.16b,v0.16b,v2.16b
	orr	v0.16b,v0.16b,v1.16b
	ext	v1.16b,v0.16b,v0.16b,#8
	orr	v0.8b,v0.8b,v1.8b
	fmov	x8,d0
	orr	x8,x8,x8,lsr #32
	lsr	x9,x8,#16
	orr	w8,w8,w9
	orr	w8,w8,w8,lsr #8
	tst	w8,#0xff
	b.ne	5b
	sub	x10,x10,#64
	add	x11,x11,#64
	cmp	x10,#63
	b.hi	4b
	b	5b
1:
	mov	x8,x28
	mov	x9,x22
1:
	movi	v0.16b,#223
	ldp	q1,q2,[x8]
	ldp	q5,q6,[x8,#32]
	movi	v3.16b,#208
	movi	v4.16b,#191
	movi	v7.16b,#9
	movi	v19.16b,#5
	and	v16.16b,v1.16b,v0.16b
	and	v17.16b,v2.16b,v0.16b
	and	v18.16b,v5.16b,v0.16b
	and	v0.16b,v6.16b,v0.16b
	add	v1.16b,v1.16b,v3.16b
	add	v2.16b,v2.16b,v3.16b
	add	v5.16b,v5.16b,v3.16b
	add	v3.16b,v6.16b,v3.16b
	add	v6.16b,v16.16b,v4.16b
	add	v16.16b,v17.16b,v4.16b
	add	v17.16b,v18.16b,v4.16b
	add	v0.16b,v0.16b,v4.16b
	uqsub	v1.16b,v1.16b,v7.16b
	uqsub	v2.16b,v2.16b,v7.16b
	uqsub	v4.16b,v5.16b,v7.16b
	uqsub	v3.16b,v3.16b,v7.16b
	uqsub	v5.16b,v6.16b,v19.16b
	uqsub	v6.16b,v16.16b,v19.16b
	uqsub	v7.16b,v17.16b,v19.16b
	uqsub	v0.16b,v0.16b,v19.16b
	umin	v1.16b,v5.16b,v1.16b
	umin	v2.16b,v6.16b,v2.16b
	umin	v4.16b,v7.16b,v4.16b
	umin	v0.16b,v0.16b,v3.16b
	orr	v1.16b,v4.16b,v1.16b
	orr	v0.16b,v0.16b,v2.16b
	orr	v0.16b,v0.16b,v1.16b
	ext	v1.16b,v0.16b,v0.16b,#8
	orr	v0.8b,v0.8b,v1.8b
	fmov	x10,d0
	orr	x10,x10,x10,lsr #32
	lsr	x11,x10,#16
	orr	w10,w10,w11
	orr	w10,w10,w10,lsr #8
	tst	w10,#0xff
	b.ne	11b
	sub	x9,x9,#64
	add	x8,x8,#64
	cmp	x9,#63
	b.hi	1b
	b	10b
24:
	add	x8,sp,#13,lsl #12
	add	x1,sp,#8,lsl #12
	mov	w2,#10184
	add	x8,x8,#1080
	add	x1,x1,#200
	stp	x21,x20,[x24,#72]
	add	x19,x8,#16
	mov	x0,x19
	bl	memcpy
	mov	w20,#255
	b	1f
4:
	subs	x20,x20,#1
	add	x19,x19,#40
	b.eq	5f
1:
	ldurb	w8,[x19,#-16]
	cbz	w8,4b
	ldurb	w9,[x19,#-8]
	ldr	x0,[x19]
	cmp	w8,#2
	ldr	x8,[x19,#16]
	cmp	w9,#15
	b.ne	4b
	cbz	x8,4b
	bl	rattle_dealloc
	b	4b
5:
	sub	x8,x29,#17
	add	x0,sp,#13,lsl #12
	mov	w9,#32
	str	x8,[x24,#72]
	mov	x8,#-1
	add	x19,sp,#13,lsl #12
	add	x0,x0,#1080
	mov	w1,#5
	stp	xzr,xzr,[x24,#80]
	stp	xzr,xzr,[x24,#120]
	add	x19,x19,#1080
	str	w9,[x24,#96]
	stur	xzr,[x24,#100]
	str	wzr,[x24,#108]
	str	x8,[x24,#112]
	bl	"std_alloc::vec::Vec::grow_amortized::<#9d744d77114e6601>"
	cbz	w0,1f
	ldp	x8,x9,[x24,#72]
	adrp	x11,.Lrtp_static.3
	add	x11,x11,:lo12:.Lrtp_static.3
	ldr	x20,[x24,#88]
	add	x10,x8,x9
	add	x9,x9,#5
	sub	x11,x10,x11
	cmp	x11,#4
	b.hi	4f
	adrp	x11,.Lrtp_CPI20_7
	ldr	d0,[x11,:lo12:.Lrtp_CPI20_7]
	mov	w11,#32
	strb	w11,[x10,#4]
	str	s0,[x10]
	b	5f
4:
	mov	w12,#26988
	mov	w11,#32
	movk	w12,#25966,lsl #16
	strb	w11,[x10,#4]
	str	w12,[x10]
5:
	mov	w10,#32
	cmp	x26,#100
	str	x9,[x24,#80]
	str	w10,[x24,#96]
	mov	x10,#-1
	str	x10,[x24,#112]
	add	x10,sp,#2,lsl #12
	add	x10,x10,#2816
	stur	xzr,[x19,#28]
	stur	wzr,[x19,#36]
	str	xzr,[x10,#21968]
	str	xzr,[x10,#21960]
	str	xzr,[x10,#21976]
	b.lo	4f
	mov	x10,xzr
5:
	mov	x13,#62915
	lsr	x12,x26,#2
	mov	x11,x26
	movk	x13,#23592,lsl #16
	movk	x13,#49807,lsl #32
	movk	x13,#10485,lsl #48
	umulh	x12,x12,x13
	mov	w13,#205
	lsr	x26,x12,#2
	mov	w12,#100
	msub	w12,w26,w12,w11
	lsr	x11,x11,#4
	cmp	x11,#624
	and	w14,w12,#0xff
	mul	w13,w14,w13
	mov	w14,#10
	lsr	w13,w13,#11
	msub	w12,w13,w14,w12
	add	x14,sp,#8,lsl #12
	orr	w11,w13,#0x30
	add	x14,x14,#200
	add	x14,x14,x10
	sub	x10,x10,#2
	orr	w12,w12,#0x30
	strb	w11,[x14,#22]
	strb	w12,[x14,#23]
	b.hi	5b
	add	x10,x10,#24
	b	5f
4:
	mov	w10,#24
5:
	cmp	x26,#10
	b.lo	4f
	and	w11,w26,#0xff
	mov	w12,#205
	add	x13,sp,#8,lsl #12
	mul	w11,w11,w12
	mov	w12,#10
	add	x13,x13,#200
	add	x13,x13,x10
	sub	x10,x10,#2
	lsr	w11,w11,#11
	msub	w12,w11,w12,w26
	orr	w11,w11,#0x30
	sturb	w11,[x13,#-2]
	orr	w12,w12,#0x30
	sturb	w12,[x13,#-1]
	b	5f
4:
	add	x11,sp,#8,lsl #12
	sub	x10,x10,#1
	orr	w12,w26,#0x30
	add	x11,x11,#200
	strb	w12,[x11,x10]
5:
	add	x11,sp,#8,lsl #12
	ldr	x12,[x24,#120]
	mov	w13,#24
	add	x11,x11,#200
	sub	x2,x13,x10
	add	x1,x11,x10
	mov	w11,#45
	sturb	w11,[x1,#-1]
	cbnz	x12,4f
	sub	x10,x20,x9
	cmp	x2,x10
	b.hi	5f
10:
	add	x0,x8,x9
	add	x21,x9,x2
	bl	memcpy
	stp	x21,x20,[x24,#80]
11:
	mov	w8,#32
	ldr	x9,[x24,#120]
	stur	xzr,[x19,#28]
	str	w8,[x24,#96]
	mov	x8,#-1
	stur	wzr,[x19,#36]
	str	x8,[x24,#112]
	cbnz	x9,12f
	ldp	x9,x21,[x24,#80]
	sub	x8,x21,x9
	cmp	x8,#28
	b.ls	24f
28:
	ldr	x20,[x24,#72]
	adrp	x10,.Lrtp_static.4
	add	x10,x10,:lo12:.Lrtp_static.4
	add	x1,x9,#29
	add	x8,x20,x9
	sub	x11,x8,x10
	cmp	x11,#28
	b.hi	30f
	adrp	x9,.Lrtp_CPI20_8
	adrp	x10,.Lrtp_CPI20_9
	ldr	q0,[x9,:lo12:.Lrtp_CPI20_8]
	adrp	x9,.Lrtp_CPI20_10
	ldr	d1,[x10,:lo12:.Lrtp_CPI20_9]
	ldr	d2,[x9,:lo12:.Lrtp_CPI20_10]
	mov	w9,#10
	str	q0,[x8]
	str	d1,[x8,#16]
	str	s2,[x8,#24]
	strb	w9,[x8,#28]
	mov	x0,x20
	bl	"rtp_listing::printing::write_text::<#df9e9f1468b30f79>"
	tst	w0,#0xff
	b.ne	31f
32:
	cbz	x21,33f
	mov	x0,x20
	bl	rattle_dealloc
33:
	mov	w19,#1
	b	33f
30:
	ldr	q0,[x10]
	ldur	q1,[x10,#13]
	str	q0,[x8]
	stur	q1,[x8,#13]
	mov	x0,x20
	bl	"rtp_listing::printing::write_text::<#df9e9f1468b30f79>"
	tst	w0,#0xff
	b.eq	32b
31:
	mov	w19,w1
	cbz	x21,33f
	mov	x0,x20
	bl	rattle_dealloc
33:
	mov	w20,#1
	b	29b
4:
	add	x0,sp,#13,lsl #12
	add	x0,x0,#1080
	bl	"core::fmt::formatter::Formatter::write_indented::<#5e1603e38c63b5f6>"
	and	w8,w0,#0xff
	tbnz	w8,#0,1f
	b	11b
3:
	ldp	x21,x20,[x24,#72]
	add	x22,sp,#13,lsl #12
	add	x22,x22,#1080
	b	2b
5:
	add	x0,sp,#13,lsl #12
	mov	x21,x1
	mov	x1,x2
	add	x0,x0,#1080
	mov	x22,x2
	bl	"std_alloc::vec::Vec::grow_amortized::<#9d744d77114e6601>"
	add	x24,sp,#13,lsl #12
	add	x24,x24,#1008
	cbz	w0,1f
	ldp	x9,x20,[x24,#80]
	mov	x1,x21
	ldr	x8,[x24,#72]
	mov	x2,x22
	b	10b
12:
	add	x0,sp,#13,lsl #12
	adrp	x1,.Lrtp_static.4
	add	x1,x1,:lo12:.Lrtp_static.4
	add	x0,x0,#1080
	mov	w2,#29
	bl	"core::fmt::formatter::Formatter::write_indented::<#5e1603e38c63b5f6>"
	tst	w0,#0xff
	b.ne	1f
	ldp	x1,x21,[x24,#80]
	ldr	x20,[x24,#72]
	mov	x0,x20
	bl	"rtp_listing::printing::write_text::<#df9e9f1468b30f79>"
	tst	w0,#0xff
	b.ne	31b
	b	32b
24:
	add	x0,sp,#13,lsl #12
	mov	w1,#29
	add	x0,x0,#1080
	bl	"std_alloc::vec::Vec::grow_amortized::<#9d744d77114e6601>"
	cbz	w0,1f
	ldp	x9,x21,[x24,#80]
	b	28b
1:
	ldr	x8,[x24,#88]
	cbz	x8,1f
	ldr	x0,[x24,#72]
	bl	rattle_dealloc
1:
	mov	w20,#1
	mov	w19,#2
	b	29b
14:
	add	x0,sp,#10,lsl #12
	add	x1,sp,#13,lsl #12
	mov	w2,#10200
	add	x0,x0,#2968
	add	x1,x1,#1080
	add	x19,sp,#10,lsl #12
	add	x19,x19,#2968
	bl	memcpy
	add	x19,x19,#16
	mov	w20,#255
	b	2f
3:
	subs	x20,x20,#1
	add	x19,x19,#40
	b.eq	1b
2:
	ldurb	w8,[x19,#-16]
	cbz	w8,3b
	ldurb	w9,[x19,#-8]
	ldr	x0,[x19]
	cmp	w8,#2
	ldr	x8,[x19,#16]
	cmp	w9,#15
	b.ne	3b
	cbz	x8,3b
	bl	rattle_dealloc
	b	3b
	.size	main,.-main
	.cfi_endproc
	.section	.rodata.main,"a",@progbits
7:
	.byte	(9b-8b)>>2
	.byte	(6b-8b)>>2
	.byte	(6b-8b)>>2
	.byte	(6b-8b)>>2
	.byte	(6b-8b)>>2
	.byte	(6b-8b)>>2
	.byte	(6b-8b)>>2
	.byte	(6b-8b)>>2
	.byte	(6b-8b)>>2
	.byte	(6b-8b)>>2
	.byte	(6b-8b)>>2
	.byte	(6b-8b)>>2
	.byte	(6b-8b)>>2
	.byte	(6b-8b)>>2
	.byte	(6b-8b)>>2
	.byte	(6b-8b)>>2
	.byte	(6b-8b)>>2
	.byte	(6b-8b)>>2
	.byte	(6b-8b)>>2
	.byte	(6b-8b)>>2
	.byte	(6b-8b)>>2
	.byte	(6b-8b)>>2
	.byte	(6b-8b)>>2
	.byte	(6b-8b)>>2
	.byte	(6b-8b)>>2
	.byte	(6b-8b)>>2
	.byte	(8b-8b)>>2
	.byte	(6b-8b)>>2
	.byte	(6b-8b)>>2
	.byte	(6b-8b)>>2
	.byte	(6b-8b)>>2
	.byte	(6b-8b)>>2
	.byte	(6b-8b)>>2
	.byte	(6b-8b)>>2
	.byte	(23b-8b)>>2
	.byte	(25b-8b)>>2
	.byte	(6b-8b)>>2
	.byte	(6b-8b)>>2
	.byte	(6b-8b)>>2
	.byte	(6b-8b)>>2
	.byte	(6b-8b)>>2
	.byte	(6b-8b)>>2
	.byte	(6b-8b)>>2
	.byte	(17b-8b)>>2
	.byte	(6b-8b)>>2
	.byte	(19b-8b)>>2
	.byte	(6b-8b)>>2
	.byte	(6b-8b)>>2
	.byte	(6b-8b)>>2
	.byte	(6b-8b)>>2
	.byte	(6b-8b)>>2
	.byte	(6b-8b)>>2
	.byte	(6b-8b)>>2
	.byte	(6b-8b)>>2
	.byte	(20b-8b)>>2
	.byte	(6b-8b)>>2
	.byte	(27b-8b)>>2
	.byte	(26b-8b)>>2
	.byte	(13b-8b)>>2
	.byte	(6b-8b)>>2
	.byte	(18b-8b)>>2
	.byte	(16b-8b)>>2
	.byte	(6b-8b)>>2
	.byte	(15b-8b)>>2
	.byte	(6b-8b)>>2
	.byte	(6b-8b)>>2
	.byte	(6b-8b)>>2
	.byte	(6b-8b)>>2
	.byte	(6b-8b)>>2
	.byte	(6b-8b)>>2
	.byte	(21b-8b)>>2
	.byte	(6b-8b)>>2
	.byte	(6b-8b)>>2
	.byte	(22b-8b)>>2

	.type	.Lrtp_static.0,@object
	.section	.rodata..Lrtp_static.0,"a",@progbits
.Lrtp_static.0:
	.ascii	"want of memory\n"
	.size	.Lrtp_static.0,15

	.type	.Lrtp_static.3,@object
	.section	.rodata..Lrtp_static.3,"a",@progbits
.Lrtp_static.3:
	.ascii	"line "
	.size	.Lrtp_static.3,5

	.type	.Lrtp_static.4,@object
	.section	.rodata..Lrtp_static.4,"a",@progbits
.Lrtp_static.4:
	.ascii	": neither a map line nor hex\n"
	.size	.Lrtp_static.4,29

	.type	.Lrtp_static.5,@object
	.section	.rodata..Lrtp_static.5,"a",@progbits
.Lrtp_static.5:
	.size	.Lrtp_static.5,0

	.type	.Lrtp_static.9,@object
	.section	.rodata..Lrtp_static.9,"a",@progbits
.Lrtp_static.9:
	.ascii	"http://www.webrtc.org/experiments/rtp-hdrext/abs-capture-time"
	.size	.Lrtp_static.9,61

	.type	.Lrtp_static.11,@object
	.section	.rodata..Lrtp_static.11,"a",@progbits
.Lrtp_static.11:
	.ascii	"urn:ietf:params:rtp-hdrext:ssrc-audio-level"
	.size	.Lrtp_static.11,43

	.type	.Lrtp_static.13,@object
	.section	.rodata..Lrtp_static.13,"a",@progbits
.Lrtp_static.13:
	.ascii	"urn:ietf:params:rtp-hdrext:toffset"
	.size	.Lrtp_static.13,34

	.type	.Lrtp_static.17,@object
	.section	.rodata..Lrtp_static.17,"a",@progbits
.Lrtp_static.17:
	.ascii	"http://www.ietf.org/id/draft-holmer-rmcat-transport-wide-cc-extensions-01"
	.size	.Lrtp_static.17,73

	.type	.Lrtp_static.21,@object
	.section	.rodata..Lrtp_static.21,"a",@progbits
.Lrtp_static.21:
	.ascii	"http://www.webrtc.org/experiments/rtp-hdrext/video-content-type"
	.size	.Lrtp_static.21,63

	.type	.Lrtp_static.23,@object
	.section	.rodata..Lrtp_static.23,"a",@progbits
.Lrtp_static.23:
	.ascii	"http://www.webrtc.org/experiments/rtp-hdrext/video-timing"
	.size	.Lrtp_static.23,57

	.type	.Lrtp_static.25,@object
	.section	.rodata..Lrtp_static.25,"a",@progbits
.Lrtp_static.25:
	.ascii	"urn:ietf:params:rtp-hdrext:sdes:rtp-stream-id"
	.size	.Lrtp_static.25,45

	.type	.Lrtp_static.27,@object
	.section	.rodata..Lrtp_static.27,"a",@progbits
.Lrtp_static.27:
	.ascii	"urn:ietf:params:rtp-hdrext:sdes:repaired-rtp-stream-id"
	.size	.Lrtp_static.27,54

	.type	.Lrtp_static.29,@object
	.section	.rodata..Lrtp_static.29,"a",@progbits
.Lrtp_static.29:
	.ascii	"urn:ietf:params:rtp-hdrext:sdes:mid"
	.size	.Lrtp_static.29,35

	.type	.Lrtp_static.31,@object
	.section	.rodata..Lrtp_static.31,"a",@progbits
.Lrtp_static.31:
	.ascii	"http://tools.ietf.org/html/draft-ietf-avtext-framemarking-07"
	.size	.Lrtp_static.31,60

	.type	.Lrtp_static.33,@object
	.section	.rodata..Lrtp_static.33,"a",@progbits
.Lrtp_static.33:
	.ascii	"http://www.webrtc.org/experiments/rtp-hdrext/color-space"
	.size	.Lrtp_static.33,56

	.type	.Lrtp_static.35,@object
	.section	.rodata..Lrtp_static.35,"a",@progbits
.Lrtp_static.35:
	.ascii	"http://www.webrtc.org/experiments/rtp-hdrext/video-layers-allocation00"
	.size	.Lrtp_static.35,70

	.type	.Lrtp_static.37,@object
	.section	.rodata..Lrtp_static.37,"a",@progbits
.Lrtp_static.37:
	.ascii	"________________________________________________0123456789_______ABCDEFGHIJKLMNOPQRSTUVWXYZ______abcdefghijklmnopqrstuvwxyz_____________________________________________________________________________________________________________________________________"
	.size	.Lrtp_static.37,256

	.type	.Lrtp_static.39,@object
	.section	.rodata..Lrtp_static.39,"a",@progbits
.Lrtp_static.39:
	.ascii	"packet "
	.size	.Lrtp_static.39,7

	.type	.Lrtp_static.40,@object
	.section	.rodata..Lrtp_static.40,"a",@progbits
.Lrtp_static.40:
	.ascii	": unreadable"
	.size	.Lrtp_static.40,12

	.type	.Lrtp_static.42,@object
	.section	.rodata..Lrtp_static.42,"a",@progbits
.Lrtp_static.42:
	.ascii	"00010203040506070809101112131415161718192021222324252627282930313233343536373839404142434445464748495051525354555657585960616263646566676869707172737475767778798081828384858687888990919293949596979899"
	.size	.Lrtp_static.42,200

	.type	.Lrtp_static.43,@object
	.section	.rodata..Lrtp_static.43,"a",@progbits
.Lrtp_static.43:
	.ascii	"pt "
	.size	.Lrtp_static.43,3

	.type	.Lrtp_static.44,@object
	.section	.rodata..Lrtp_static.44,"a",@progbits
.Lrtp_static.44:
	.ascii	" seq "
	.size	.Lrtp_static.44,5

	.type	.Lrtp_static.46,@object
	.section	.rodata..Lrtp_static.46,"a",@progbits
.Lrtp_static.46:
	.ascii	" ssrc "
	.size	.Lrtp_static.46,6

	.type	.Lrtp_static.48,@object
	.section	.rodata..Lrtp_static.48,"a",@progbits
.Lrtp_static.48:
	.ascii	" padding "
	.size	.Lrtp_static.48,9

	.type	.Lrtp_static.49,@object
	.section	.rodata..Lrtp_static.49,"a",@progbits
.Lrtp_static.49:
	.ascii	" extension "
	.size	.Lrtp_static.49,11

	.type	.Lrtp_static.50,@object
	.section	.rodata..Lrtp_static.50,"a",@progbits
.Lrtp_static.50:
	.ascii	" csrc "
	.size	.Lrtp_static.50,6

	.type	.Lrtp_static.52,@object
	.section	.rodata..Lrtp_static.52,"a",@progbits
.Lrtp_static.52:
	.ascii	"yes"
	.size	.Lrtp_static.52,3

	.type	.Lrtp_static.54,@object
	.section	.rodata..Lrtp_static.54,"a",@progbits
.Lrtp_static.54:
	.ascii	" mid "
	.size	.Lrtp_static.54,5

	.type	.Lrtp_static.55,@object
	.section	.rodata..Lrtp_static.55,"a",@progbits
.Lrtp_static.55:
	.ascii	" rid "
	.size	.Lrtp_static.55,5

	.type	.Lrtp_static.56,@object
	.section	.rodata..Lrtp_static.56,"a",@progbits
.Lrtp_static.56:
	.ascii	" repaired "
	.size	.Lrtp_static.56,10

	.type	.Lrtp_static.57,@object
	.section	.rodata..Lrtp_static.57,"a",@progbits
.Lrtp_static.57:
	.ascii	" level "
	.size	.Lrtp_static.57,7

	.type	.Lrtp_static.58,@object
	.section	.rodata..Lrtp_static.58,"a",@progbits
.Lrtp_static.58:
	.ascii	" voice "
	.size	.Lrtp_static.58,7

	.type	.Lrtp_static.60,@object
	.section	.rodata..Lrtp_static.60,"a",@progbits
.Lrtp_static.60:
	.ascii	" transport "
	.size	.Lrtp_static.60,11

	.type	.Lrtp_static.63,@object
	.section	.rodata..Lrtp_static.63,"a",@progbits
.Lrtp_static.63:
	.ascii	"taken "
	.size	.Lrtp_static.63,6

	.type	.Lrtp_static.64,@object
	.section	.rodata..Lrtp_static.64,"a",@progbits
.Lrtp_static.64:
	.ascii	"refused"
	.size	.Lrtp_static.64,7

	.type	.Lrtp_static.65,@object
	.section	.rodata..Lrtp_static.65,"a",@progbits
.Lrtp_static.65:
	.ascii	"unreadable"
	.size	.Lrtp_static.65,10

	.type	.Lrtp_static.66,@object
	.section	.rodata.cst4,"aM",@progbits,4
.Lrtp_static.66:
	.zero	4,32
	.size	.Lrtp_static.66,4

	.type	.Lrtp_switch.table.main,@object
	.section	.rodata.cst16,"aM",@progbits,16
	.p2align	2,0x0
.Lrtp_switch.table.main:
	.word	0
	.word	2
	.word	3
	.word	1
	.size	.Lrtp_switch.table.main,16

	.section	".note.GNU-stack","",@progbits
