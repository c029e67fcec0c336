; unix_path 1.1.0: the calls of unix_path.h, for aarch64 macOS. Compiled from proved sources.
; tools/generate made this file. PROVED.txt has its SHA-256, and says what it was made from.
; Licensed under MIT or Apache-2.0.
	.section	__TEXT,__literal16,16byte_literals
	.p2align	4, 0x0
lunix_path_CPI0_0:
	.byte	1
	.byte	2
	.byte	4
	.byte	8
	.byte	16
	.byte	32
	.byte	64
	.byte	128
	.byte	1
	.byte	2
	.byte	4
	.byte	8
	.byte	16
	.byte	32
	.byte	64
	.byte	128
	.section	__TEXT,__text,regular,pure_instructions
	.p2align	2
; unix_path::filler::trimmed_blocks_len
_unix_path.filler.trimmed_blocks_len:
Lunix_path_BB0_1:
	mov	x8, x1
	cmp	x1, #17
	b.lo	Lunix_path_BB0_3
	sub	x1, x8, #16
	add	x9, x0, x8
	ldur	q0, [x9, #-16]
	ldur	q1, [x9, #-17]
	movi.16b	v2, #46
	cmeq.16b	v2, v0, v2
	mvn.16b	v2, v2
	movi.16b	v3, #47
	cmeq.16b	v0, v0, v3
	cmeq.16b	v1, v1, v3
	orn.16b	v1, v2, v1
	bic.16b	v0, v1, v0
Lunix_path_loh0:
	adrp	x9, lunix_path_CPI0_0@PAGE
Lunix_path_loh1:
	ldr	q1, [x9, lunix_path_CPI0_0@PAGEOFF]
	and.16b	v0, v0, v1
	addp.16b	v0, v0, v0
	addp.16b	v0, v0, v0
	addp.16b	v0, v0, v0
	umov.h	w9, v0[0]
	cbz	w9, Lunix_path_BB0_1
Lunix_path_BB0_3:
	mov	x0, x8
	ret
	.loh AdrpLdr	Lunix_path_loh0, Lunix_path_loh1
	.section	__TEXT,__literal16,16byte_literals
	.p2align	4, 0x0
lunix_path_CPI1_0:
	.byte	1
	.byte	2
	.byte	4
	.byte	8
	.byte	16
	.byte	32
	.byte	64
	.byte	128
	.byte	1
	.byte	2
	.byte	4
	.byte	8
	.byte	16
	.byte	32
	.byte	64
	.byte	128
	.section	__TEXT,__text,regular,pure_instructions
	.p2align	2
; path_archive::records::split
_path_archive.records.split:
	cbz	x1, Lunix_path_BB1_2
	mov	x10, #0
	mov	x9, #0
	mov	x11, #0
	b	Lunix_path_BB1_6
Lunix_path_BB1_2:
	mov	x8, #0
Lunix_path_BB1_3:
	mov	w0, #1
	mov	x1, x8
	ret
Lunix_path_BB1_4:
	add	x8, x10, #2
Lunix_path_BB1_5:
	add	x11, x12, #1
	add	x9, x9, #1
	mov	x10, x8
	cmp	x11, x1
	b.hs	Lunix_path_BB1_3
Lunix_path_BB1_6:
	add	x8, x0, x11
	sub	x12, x1, x11
	adrp	x13, lunix_path_CPI1_0@PAGE
	cmp	x12, #15
	b.hi	Lunix_path_BB1_10
	mov	x14, #0
Lunix_path_BB1_8:
	ldrb	w15, [x8, x14]
	cbz	w15, Lunix_path_BB1_15
	add	x14, x14, #1
	cmp	x12, x14
	b.ne	Lunix_path_BB1_8
	b	Lunix_path_BB1_59
Lunix_path_BB1_10:
	subs	x14, x12, #16
	b.eq	Lunix_path_BB1_14
	mov	x15, #0
Lunix_path_BB1_12:
	ldr	q0, [x8, x15]
	cmeq.16b	v0, v0, #0
	ldr	q1, [x13, lunix_path_CPI1_0@PAGEOFF]
	and.16b	v0, v0, v1
	addp.16b	v0, v0, v0
	addp.16b	v0, v0, v0
	addp.16b	v0, v0, v0
	umov.h	w16, v0[0]
	orr	w16, w16, #0x10000
	rbit	w16, w16
	clz	w16, w16
	cmp	w16, #15
	b.ls	Lunix_path_BB1_27
	add	x15, x15, #16
	cmp	x15, x14
	b.lo	Lunix_path_BB1_12
Lunix_path_BB1_14:
	ldr	q0, [x8, x14]
	cmeq.16b	v0, v0, #0
	ldr	q1, [x13, lunix_path_CPI1_0@PAGEOFF]
	and.16b	v0, v0, v1
	addp.16b	v0, v0, v0
	addp.16b	v0, v0, v0
	addp.16b	v0, v0, v0
	umov.h	w15, v0[0]
	orr	w15, w15, #0x10000
	rbit	w15, w15
	clz	w15, w15
	add	x14, x14, x15
Lunix_path_BB1_15:
	add	x16, x14, x11
	cmp	x14, x12
	csel	x15, x16, xzr, lo
	b.hs	Lunix_path_BB1_59
Lunix_path_BB1_16:
	add	x12, x16, #1
	add	x16, x0, x12
	sub	x14, x1, x12
	cmp	x14, #15
	b.hi	Lunix_path_BB1_19
	cmp	x1, x12
	b.ne	Lunix_path_BB1_24
	mov	x17, #0
	b	Lunix_path_BB1_29
Lunix_path_BB1_19:
	subs	x17, x14, #16
	b.eq	Lunix_path_BB1_23
	mov	x4, #0
Lunix_path_BB1_21:
	ldr	q0, [x16, x4]
	cmeq.16b	v0, v0, #0
	ldr	q1, [x13, lunix_path_CPI1_0@PAGEOFF]
	and.16b	v0, v0, v1
	addp.16b	v0, v0, v0
	addp.16b	v0, v0, v0
	addp.16b	v0, v0, v0
	umov.h	w5, v0[0]
	orr	w5, w5, #0x10000
	rbit	w5, w5
	clz	w5, w5
	cmp	w5, #15
	b.ls	Lunix_path_BB1_28
	add	x4, x4, #16
	cmp	x4, x17
	b.lo	Lunix_path_BB1_21
Lunix_path_BB1_23:
	ldr	q0, [x16, x17]
	cmeq.16b	v0, v0, #0
	ldr	q1, [x13, lunix_path_CPI1_0@PAGEOFF]
	and.16b	v0, v0, v1
	addp.16b	v0, v0, v0
	addp.16b	v0, v0, v0
	addp.16b	v0, v0, v0
	umov.h	w16, v0[0]
	orr	w16, w16, #0x10000
	rbit	w16, w16
	clz	w16, w16
	add	x17, x17, x16
	b	Lunix_path_BB1_29
Lunix_path_BB1_24:
	mov	x17, #0
Lunix_path_BB1_25:
	ldrb	w4, [x16, x17]
	cbz	w4, Lunix_path_BB1_29
	add	x17, x17, #1
	cmp	x14, x17
	b.ne	Lunix_path_BB1_25
	b	Lunix_path_BB1_59
Lunix_path_BB1_27:
	add	x14, x15, w16, uxtw
	add	x16, x14, x11
	cmp	x14, x12
	csel	x15, x16, xzr, lo
	b.lo	Lunix_path_BB1_16
	b	Lunix_path_BB1_59
Lunix_path_BB1_28:
	add	x17, x4, w5, uxtw
Lunix_path_BB1_29:
	add	x16, x17, x12
	cmp	x17, x14
	csel	x14, x16, xzr, lo
	b.hs	Lunix_path_BB1_59
	add	x16, x16, #1
	add	x4, x0, x16
	sub	x17, x1, x16
	cmp	x17, #15
	b.hi	Lunix_path_BB1_33
	cmp	x1, x16
	b.ne	Lunix_path_BB1_38
	mov	x13, #0
	b	Lunix_path_BB1_42
Lunix_path_BB1_33:
	subs	x5, x17, #16
	b.eq	Lunix_path_BB1_37
	mov	x6, #0
Lunix_path_BB1_35:
	ldr	q0, [x4, x6]
	cmeq.16b	v0, v0, #0
	ldr	q1, [x13, lunix_path_CPI1_0@PAGEOFF]
	and.16b	v0, v0, v1
	addp.16b	v0, v0, v0
	addp.16b	v0, v0, v0
	addp.16b	v0, v0, v0
	umov.h	w7, v0[0]
	orr	w7, w7, #0x10000
	rbit	w7, w7
	clz	w7, w7
	cmp	w7, #15
	b.ls	Lunix_path_BB1_41
	add	x6, x6, #16
	cmp	x6, x5
	b.lo	Lunix_path_BB1_35
Lunix_path_BB1_37:
	ldr	q0, [x4, x5]
	cmeq.16b	v0, v0, #0
	ldr	q1, [x13, lunix_path_CPI1_0@PAGEOFF]
	and.16b	v0, v0, v1
	addp.16b	v0, v0, v0
	addp.16b	v0, v0, v0
	addp.16b	v0, v0, v0
	umov.h	w13, v0[0]
	orr	w13, w13, #0x10000
	rbit	w13, w13
	clz	w13, w13
	add	x13, x5, x13
	b	Lunix_path_BB1_42
Lunix_path_BB1_38:
	mov	x13, #0
Lunix_path_BB1_39:
	ldrb	w5, [x4, x13]
	cbz	w5, Lunix_path_BB1_42
	add	x13, x13, #1
	cmp	x17, x13
	b.ne	Lunix_path_BB1_39
	b	Lunix_path_BB1_59
Lunix_path_BB1_41:
	add	x13, x6, w7, uxtw
Lunix_path_BB1_42:
	cmp	x13, x17
	b.hs	Lunix_path_BB1_59
	sub	x11, x15, x11
	cmp	x11, #1
	b.ne	Lunix_path_BB1_51
	ldrb	w8, [x8]
	cmp	w8, #103
	b.gt	Lunix_path_BB1_48
	cmp	w8, #100
	b.eq	Lunix_path_BB1_57
	cmp	w8, #102
	b.ne	Lunix_path_BB1_51
	mov	w11, #0
	mov	w8, #3
	b	Lunix_path_BB1_52
Lunix_path_BB1_48:
	cmp	w8, #108
	b.eq	Lunix_path_BB1_58
	cmp	w8, #104
	b.ne	Lunix_path_BB1_51
	mov	w11, #1
	mov	w8, #1
	b	Lunix_path_BB1_52
Lunix_path_BB1_51:
	mov	w11, #0
	mov	w8, #4
Lunix_path_BB1_52:
	cmp	x10, x3
	b.lo	Lunix_path_BB1_54
	add	x12, x13, x16
	add	x8, x10, #1
	cbz	w11, Lunix_path_BB1_5
	b	Lunix_path_BB1_55
Lunix_path_BB1_54:
	mov	w15, #40
	madd	x15, x10, x15, x2
	stp	x12, x14, [x15]
	stp	x8, x9, [x15, #16]
	str	xzr, [x15, #32]
	add	x12, x13, x16
	add	x8, x10, #1
	cbz	w11, Lunix_path_BB1_5
Lunix_path_BB1_55:
	cmp	x8, x3
	b.hs	Lunix_path_BB1_4
	add	x11, x14, #1
	mov	w13, #40
	madd	x8, x8, x13, x2
	stp	x11, x12, [x8]
	mov	w11, #2
	stp	x11, x9, [x8, #16]
	str	xzr, [x8, #32]
	b	Lunix_path_BB1_4
Lunix_path_BB1_57:
	mov	w11, #0
	mov	w8, #5
	b	Lunix_path_BB1_52
Lunix_path_BB1_58:
	mov	w11, #0
	mov	x8, #0
	b	Lunix_path_BB1_52
Lunix_path_BB1_59:
	mov	w0, #0
	mov	x1, #0
	ret
	.section	__TEXT,__literal16,16byte_literals
	.p2align	4, 0x0
lunix_path_CPI2_0:
	.byte	1
	.byte	2
	.byte	4
	.byte	8
	.byte	16
	.byte	32
	.byte	64
	.byte	128
	.byte	1
	.byte	2
	.byte	4
	.byte	8
	.byte	16
	.byte	32
	.byte	64
	.byte	128
	.section	__TEXT,__text,regular,pure_instructions
	.p2align	2
; core::cmp::slices::groups_equal::<i8,31'core::cmp::numbers::U8PartialEq{}>
_core.cmp.slices.groups_equal.i8.31.core.cmp.numbers.U8PartialEq.:
	subs	x9, x1, #8
	b.hi	Lunix_path_BB2_2
	sub	x8, x1, #4
	add	x9, x0, x8
	add	x8, x2, x8
	ldr	s0, [x0]
	ld1.s	{ v0 }[1], [x9]
	fmov	x9, d0
	ldr	s0, [x2]
	ld1.s	{ v0 }[1], [x8]
	fmov	x8, d0
	cmp	x9, x8
	cset	w8, ne
	eor	w0, w8, #0x1
	ret
Lunix_path_BB2_2:
	subs	x8, x1, #32
	b.hi	Lunix_path_BB2_4
	mov	w8, #8
	cmp	x9, #8
	csel	x8, x9, x8, lo
	mov	w10, #16
	cmp	x9, #16
	csel	x10, x9, x10, lo
	ldr	d0, [x0]
	ldr	d1, [x0, x8]
	ldr	d2, [x2, x8]
	ldr	d3, [x0, x10]
	ldr	d4, [x2, x10]
	ldr	d5, [x0, x9]
	ldr	d6, [x2, x9]
	mov.d	v0[1], v1[0]
	mov.d	v3[1], v5[0]
	ldr	d1, [x2]
	mov.d	v1[1], v2[0]
	mov.d	v4[1], v6[0]
	cmeq.16b	v2, v3, v4
	cmeq.16b	v0, v0, v1
	mvn.16b	v0, v0
	orn.16b	v0, v0, v2
	umaxv.16b	b0, v0
	fmov	w8, s0
	and	w8, w8, #0x1
	eor	w0, w8, #0x1
	ret
Lunix_path_BB2_4:
	cmp	x1, #65
	b.hs	Lunix_path_BB2_6
	add	x9, x0, x8
	add	x8, x2, x8
	ldp	q1, q0, [x0]
	ldp	q3, q2, [x2]
	ldp	q5, q4, [x9]
	ldp	q7, q6, [x8]
	cmeq.16b	v5, v5, v7
	cmeq.16b	v4, v4, v6
	cmeq.16b	v1, v1, v3
	mvn.16b	v1, v1
	cmeq.16b	v0, v0, v2
	mvn.16b	v0, v0
	orn.16b	v0, v0, v4
	orn.16b	v1, v1, v5
	orr.16b	v0, v1, v0
	umaxv.16b	b0, v0
	fmov	w8, s0
	and	w8, w8, #0x1
	eor	w0, w8, #0x1
	ret
Lunix_path_BB2_6:
	mov	x9, #0
	add	x10, x2, #48
	mov	x11, x1
Lunix_path_BB2_7:
	add	x12, x0, x9
	add	x13, x10, x9
	ldp	q0, q1, [x12]
	ldp	q2, q3, [x13, #-48]
	cmeq.16b	v0, v0, v2
	mvn.16b	v0, v0
	cmeq.16b	v1, v1, v3
	mvn.16b	v1, v1
	ldp	q2, q3, [x12, #32]
	ldp	q4, q5, [x13, #-16]
	cmeq.16b	v2, v2, v4
	cmeq.16b	v3, v3, v5
	orn.16b	v0, v0, v2
	orn.16b	v1, v1, v3
	orr.16b	v0, v1, v0
	umaxv.16b	b0, v0
	fmov	w12, s0
	tbnz	w12, #0, Lunix_path_BB2_10
	add	x9, x9, #64
	sub	x11, x11, #64
	cmp	x11, #63
	b.hi	Lunix_path_BB2_7
	and	x9, x1, #0xffffffffffffffc0
Lunix_path_BB2_10:
	sub	x10, x1, x9
	cmp	x10, #32
	b.lo	Lunix_path_BB2_16
	add	x11, x2, x9
	add	x9, x0, x9
Lunix_path_BB2_12:
	ldp	q0, q1, [x9], #32
	ldp	q2, q3, [x11], #32
	cmeq.16b	v1, v1, v3
Lunix_path_loh2:
	adrp	x12, lunix_path_CPI2_0@PAGE
Lunix_path_loh3:
	ldr	q3, [x12, lunix_path_CPI2_0@PAGEOFF]
	bic.16b	v1, v3, v1
	ext.16b	v4, v1, v1, #8
	zip1.16b	v1, v1, v4
	addv.8h	h1, v1
	fmov	w12, s1
	cmeq.16b	v0, v0, v2
	bic.16b	v0, v3, v0
	ext.16b	v1, v0, v0, #8
	zip1.16b	v0, v0, v1
	addv.8h	h0, v0
	fmov	w13, s0
	orr	w12, w13, w12
	tst	w12, #0xffff
	b.ne	Lunix_path_BB2_14
	sub	x10, x10, #32
	cmp	x10, #31
	b.hi	Lunix_path_BB2_12
	b	Lunix_path_BB2_16
Lunix_path_BB2_14:
	cmp	x10, #31
	b.ls	Lunix_path_BB2_16
	mov	w8, #1
	eor	w0, w8, #0x1
	ret
Lunix_path_BB2_16:
	add	x9, x0, x8
	add	x8, x2, x8
	ldp	q0, q1, [x9]
	ldp	q2, q3, [x8]
	cmeq.16b	v1, v1, v3
	cmeq.16b	v0, v0, v2
	mvn.16b	v0, v0
	orn.16b	v0, v0, v1
	umaxv.16b	b0, v0
	fmov	w8, s0
	and	w8, w8, #0x1
	eor	w0, w8, #0x1
	ret
	.loh AdrpLdr	Lunix_path_loh2, Lunix_path_loh3
	.p2align	2
; core::slice::sort::small::insertion_sort::<#fd4dfef4a36ac24b>
_core.slice.sort.small.insertion_sort.fd4dfef4a36ac24b.:
	sub	sp, sp, #160
	stp	x28, x27, [sp, #64]
	stp	x26, x25, [sp, #80]
	stp	x24, x23, [sp, #96]
	stp	x22, x21, [sp, #112]
	stp	x20, x19, [sp, #128]
	stp	x29, x30, [sp, #144]
	add	x29, sp, #144
	ldp	x25, x26, [x2]
	str	x2, [sp]
	cmp	x1, #2
	b.lo	Lunix_path_BB3_11
	mov	x27, x1
	mov	x28, x0
	sub	x8, x0, #40
	str	x8, [sp, #56]
	mov	w9, #1
	stp	x0, x1, [sp, #8]
	b	Lunix_path_BB3_5
Lunix_path_BB3_2:
	mov	x8, #0
Lunix_path_BB3_3:
	add	x8, x28, x8
	stp	x11, x12, [x8]
	stp	x19, x20, [x8, #16]
	str	x10, [x8, #32]
Lunix_path_BB3_4:
	add	x9, x9, #1
	ldr	x8, [sp, #56]
	add	x8, x8, #40
	str	x8, [sp, #56]
	cmp	x9, x27
	b.eq	Lunix_path_BB3_11
Lunix_path_BB3_5:
	str	x9, [sp, #48]
	mov	w8, #40
	madd	x21, x9, x8, x28
	ldp	x8, x9, [x21]
	cmp	x26, x9
	csel	x9, x26, x9, lo
	cmp	x9, x8
	csel	x8, x9, x8, lo
	sub	x1, x9, x8
	add	x0, x25, x8
	bl	_path_archive.slot.without_dot
	mov	x22, x0
	mov	x23, x1
	mov	x24, x21
	ldr	x8, [x24, #-40]!
	ldur	x9, [x21, #-32]
	cmp	x26, x9
	csel	x9, x26, x9, lo
	cmp	x9, x8
	csel	x8, x9, x8, lo
	sub	x1, x9, x8
	add	x0, x25, x8
	bl	_path_archive.slot.without_dot
	mov	x2, x0
	mov	x3, x1
	mov	x0, x22
	mov	x1, x23
	bl	_unix_path.compare.compare
	and	w8, w0, #0xff
	ldp	x19, x20, [x21, #16]
	ldp	x9, x10, [x21, #-24]
	cmp	x20, x10
	mov	w10, #2
	csel	w11, wzr, w10, lo
	csinc	w11, w11, wzr, ne
	cmp	x19, x9
	csel	w9, wzr, w10, lo
	csel	w9, w11, w9, eq
	cmp	w8, #1
	csel	w8, w9, w8, eq
	ldr	x9, [sp, #48]
	cbnz	w8, Lunix_path_BB3_4
	ldp	x11, x12, [x21]
	ldr	x10, [x21, #32]
	ldp	q0, q1, [x24]
	stp	q0, q1, [x21]
	ldr	x8, [x24, #32]
	str	x8, [x21, #32]
	sub	x21, x9, #1
	cbz	x21, Lunix_path_BB3_2
	stp	x11, x10, [sp, #32]
	cmp	x26, x12
	str	x12, [sp, #24]
	csel	x8, x26, x12, lo
	cmp	x8, x11
	csel	x27, x8, x11, lo
	sub	x22, x8, x27
	ldr	x28, [sp, #56]
Lunix_path_BB3_8:
	add	x0, x25, x27
	mov	x1, x22
	bl	_path_archive.slot.without_dot
	mov	x23, x0
	mov	x24, x1
	ldp	x8, x9, [x28]
	cmp	x26, x9
	csel	x9, x26, x9, lo
	cmp	x9, x8
	csel	x8, x9, x8, lo
	sub	x1, x9, x8
	add	x0, x25, x8
	bl	_path_archive.slot.without_dot
	mov	x2, x0
	mov	x3, x1
	mov	x0, x23
	mov	x1, x24
	bl	_unix_path.compare.compare
	and	w8, w0, #0xff
	ldp	x9, x10, [x28, #16]
	cmp	x20, x10
	mov	w10, #2
	csel	w11, wzr, w10, lo
	csinc	w11, w11, wzr, ne
	cmp	x19, x9
	csel	w9, wzr, w10, lo
	csel	w9, w11, w9, eq
	cmp	w8, #1
	csel	w8, w9, w8, eq
	cbnz	w8, Lunix_path_BB3_10
	ldp	q0, q1, [x28]
	stur	q0, [x28, #40]
	stur	q1, [x28, #56]
	ldr	x8, [x28, #32]
	str	x8, [x28, #72]
	sub	x28, x28, #40
	sub	x21, x21, #1
	cbnz	x21, Lunix_path_BB3_8
Lunix_path_BB3_10:
	add	x8, x21, x21, lsl #2
	lsl	x8, x8, #3
	ldp	x28, x27, [sp, #8]
	ldp	x10, x9, [sp, #40]
	ldp	x12, x11, [sp, #24]
	b	Lunix_path_BB3_3
Lunix_path_BB3_11:
	ldr	x8, [sp]
	stp	x25, x26, [x8]
	ldp	x29, x30, [sp, #144]
	ldp	x20, x19, [sp, #128]
	ldp	x22, x21, [sp, #112]
	ldp	x24, x23, [sp, #96]
	ldp	x26, x25, [sp, #80]
	ldp	x28, x27, [sp, #64]
	add	sp, sp, #160
	ret
	.p2align	2
; path_archive::slot::without_dot
_path_archive.slot.without_dot:
	sub	sp, sp, #80
	stp	x22, x21, [sp, #32]
	stp	x20, x19, [sp, #48]
	stp	x29, x30, [sp, #64]
	add	x29, sp, #64
	mov	x20, x1
	mov	x19, x0
	cbz	x1, Lunix_path_BB4_36
	mov	x8, x20
	b	Lunix_path_BB4_3
Lunix_path_BB4_2:
	mov	x8, x1
	cbz	x1, Lunix_path_BB4_36
Lunix_path_BB4_3:
	subs	x1, x8, #1
	b.eq	Lunix_path_BB4_9
	add	x9, x19, x1
	ldrb	w10, [x9]
	cmp	w10, #47
	b.eq	Lunix_path_BB4_7
	cmp	w10, #46
	b.ne	Lunix_path_BB4_9
	ldurb	w9, [x9, #-1]
	cmp	w9, #47
	b.ne	Lunix_path_BB4_9
Lunix_path_BB4_7:
	sub	x8, x20, x1
	cmp	x8, #8
	b.ne	Lunix_path_BB4_2
	mov	x0, x19
	bl	_unix_path.filler.trimmed_blocks_len
	mov	x1, x0
	b	Lunix_path_BB4_2
Lunix_path_BB4_9:
	stp	xzr, xzr, [sp, #8]
	str	xzr, [sp, #24]
	ldrb	w10, [x19]
	cmp	w10, #46
	b.ne	Lunix_path_BB4_14
	subs	x21, x8, #1
	b.eq	Lunix_path_BB4_13
	ldrb	w9, [x19, #1]
	cmp	w9, #47
	b.eq	Lunix_path_BB4_13
	ldrb	w9, [x19]
	cmp	w9, #47
	b.ne	Lunix_path_BB4_21
Lunix_path_BB4_13:
	add	x19, x19, #1
	b	Lunix_path_BB4_26
Lunix_path_BB4_14:
	mov	x9, #0
	mov	w11, #47
	cmp	x9, x8
	b.hs	Lunix_path_BB4_22
Lunix_path_BB4_15:
	ldrb	w12, [x19, x9]
	cmp	w12, #47
	csinc	w12, wzr, w12, eq
	cmp	w12, w11
	b.eq	Lunix_path_BB4_23
Lunix_path_BB4_16:
	cmp	w10, #46
	b.ne	Lunix_path_BB4_36
	add	x10, x19, x9
	ldurb	w10, [x10, #-1]
	cmp	w10, #47
	b.eq	Lunix_path_BB4_24
	subs	x9, x9, #1
	b.eq	Lunix_path_BB4_36
	cmp	w10, #46
	b.ne	Lunix_path_BB4_36
	add	x10, x19, x9
	ldurb	w10, [x10, #-1]
	cmp	w10, #47
	b.eq	Lunix_path_BB4_24
	b	Lunix_path_BB4_36
Lunix_path_BB4_21:
	mov	w11, #0
	mov	w9, #1
	cmp	x9, x8
	b.lo	Lunix_path_BB4_15
Lunix_path_BB4_22:
	mov	w12, #0
	cmp	w12, w11
	b.ne	Lunix_path_BB4_16
Lunix_path_BB4_23:
	cmp	w10, #46
	b.ne	Lunix_path_BB4_36
Lunix_path_BB4_24:
	sub	x2, x8, x9
Lunix_path_loh4:
	adrp	x8, lunix_path__static.5@PAGE
Lunix_path_loh5:
	add	x8, x8, lunix_path__static.5@PAGEOFF
	mov	w10, #1
	sub	x4, x10, x9
	add	x0, sp, #8
	add	x1, x19, x9
	add	x3, x8, x9
	bl	_unix_path.pair.Comparison.rest_after_cut
	ldrb	w8, [sp, #8]
	cmp	w8, #1
	b.ne	Lunix_path_BB4_36
	ldp	x19, x21, [sp, #16]
Lunix_path_BB4_26:
	mov	x2, #0
	b	Lunix_path_BB4_28
Lunix_path_BB4_27:
	mov	w8, #1
	add	x2, x8, x2
	cmp	x2, #4
	b.hs	Lunix_path_BB4_34
Lunix_path_BB4_28:
	cmp	x2, x21
	b.hs	Lunix_path_BB4_35
	ldrb	w8, [x19, x2]
	cmp	w8, #47
	b.eq	Lunix_path_BB4_27
	cmp	w8, #46
	b.ne	Lunix_path_BB4_35
	add	x8, x2, #1
	cmp	x8, x21
	b.eq	Lunix_path_BB4_27
	ldrb	w8, [x19, x8]
	cmp	w8, #47
	b.ne	Lunix_path_BB4_35
	mov	w8, #2
	add	x2, x8, x2
	cmp	x2, #4
	b.lo	Lunix_path_BB4_28
Lunix_path_BB4_34:
	mov	x0, x19
	mov	x1, x21
	bl	_unix_path.filler.filler_end_from
	mov	x2, x0
Lunix_path_BB4_35:
	add	x19, x19, x2
	sub	x20, x21, x2
Lunix_path_BB4_36:
	mov	x0, x19
	mov	x1, x20
	ldp	x29, x30, [sp, #64]
	ldp	x20, x19, [sp, #48]
	ldp	x22, x21, [sp, #32]
	add	sp, sp, #80
	ret
	.loh AdrpAdd	Lunix_path_loh4, Lunix_path_loh5
	.section	__TEXT,__literal16,16byte_literals
	.p2align	4, 0x0
lunix_path_CPI5_0:
	.byte	1
	.byte	2
	.byte	4
	.byte	8
	.byte	16
	.byte	32
	.byte	64
	.byte	128
	.byte	1
	.byte	2
	.byte	4
	.byte	8
	.byte	16
	.byte	32
	.byte	64
	.byte	128
	.section	__TEXT,__literal8,8byte_literals
	.p2align	3, 0x0
lunix_path_CPI5_1:
	.byte	1
	.byte	2
	.byte	4
	.byte	8
	.byte	16
	.byte	32
	.byte	64
	.byte	128
	.section	__TEXT,__text,regular,pure_instructions
	.p2align	2
; unix_path::pair::Comparison::rest_after_cut
_unix_path.pair.Comparison.rest_after_cut:
	stp	x24, x23, [sp, #-64]!
	stp	x22, x21, [sp, #16]
	stp	x20, x19, [sp, #32]
	stp	x29, x30, [sp, #48]
	add	x29, sp, #48
	mov	x21, x4
	mov	x20, x3
	mov	x22, x2
	mov	x23, x1
	mov	x19, x0
	b	Lunix_path_BB5_3
Lunix_path_BB5_1:
	cbz	x10, Lunix_path_BB5_56
Lunix_path_BB5_2:
	add	x23, x23, x10
	sub	x22, x22, x10
	add	x20, x9, x10
	sub	x21, x8, x10
Lunix_path_BB5_3:
	mov	x8, #0
	b	Lunix_path_BB5_5
Lunix_path_BB5_4:
	mov	w9, #1
	add	x8, x9, x8
	cmp	x8, #4
	b.hs	Lunix_path_BB5_11
Lunix_path_BB5_5:
	cmp	x8, x22
	b.hs	Lunix_path_BB5_12
	ldrb	w9, [x23, x8]
	cmp	w9, #47
	b.eq	Lunix_path_BB5_4
	cmp	w9, #46
	b.ne	Lunix_path_BB5_12
	add	x9, x8, #1
	cmp	x9, x22
	b.eq	Lunix_path_BB5_4
	ldrb	w9, [x23, x9]
	cmp	w9, #47
	b.ne	Lunix_path_BB5_12
	mov	w9, #2
	add	x8, x9, x8
	cmp	x8, #4
	b.lo	Lunix_path_BB5_5
Lunix_path_BB5_11:
	mov	x0, x23
	mov	x1, x22
	mov	x2, x8
	bl	_unix_path.filler.filler_end_from
	mov	x8, x0
Lunix_path_BB5_12:
	mov	x2, #0
	add	x23, x23, x8
	sub	x22, x22, x8
	b	Lunix_path_BB5_14
Lunix_path_BB5_13:
	mov	w8, #1
	add	x2, x8, x2
	cmp	x2, #4
	b.hs	Lunix_path_BB5_20
Lunix_path_BB5_14:
	cmp	x2, x21
	b.hs	Lunix_path_BB5_21
	ldrb	w8, [x20, x2]
	cmp	w8, #47
	b.eq	Lunix_path_BB5_13
	cmp	w8, #46
	b.ne	Lunix_path_BB5_21
	add	x8, x2, #1
	cmp	x8, x21
	b.eq	Lunix_path_BB5_13
	ldrb	w8, [x20, x8]
	cmp	w8, #47
	b.ne	Lunix_path_BB5_21
	mov	w8, #2
	add	x2, x8, x2
	cmp	x2, #4
	b.lo	Lunix_path_BB5_14
Lunix_path_BB5_20:
	mov	x0, x20
	mov	x1, x21
	bl	_unix_path.filler.filler_end_from
	mov	x2, x0
Lunix_path_BB5_21:
	subs	x8, x21, x2
	b.eq	Lunix_path_BB5_57
	add	x9, x20, x2
	cmp	x8, x22
	csel	x11, x8, x22, lo
	cmp	x11, #15
	b.hi	Lunix_path_BB5_28
	cmp	x11, #7
	b.hi	Lunix_path_BB5_34
	mov	x10, #0
	cbz	x22, Lunix_path_BB5_41
Lunix_path_BB5_25:
	ldrb	w12, [x23, x10]
	ldrb	w13, [x9, x10]
	cmp	w12, w13
	b.ne	Lunix_path_BB5_41
	add	x10, x10, #1
	cmp	x11, x10
	b.ne	Lunix_path_BB5_25
	mov	x10, x11
	cmp	x11, x22
	b.lo	Lunix_path_BB5_42
	b	Lunix_path_BB5_43
Lunix_path_BB5_28:
	ldr	q0, [x23]
	ldr	q1, [x9]
	cmeq.16b	v1, v0, v1
Lunix_path_loh6:
	adrp	x10, lunix_path_CPI5_0@PAGE
Lunix_path_loh7:
	ldr	q0, [x10, lunix_path_CPI5_0@PAGEOFF]
	bic.16b	v1, v0, v1
	addp.16b	v1, v1, v1
	addp.16b	v1, v1, v1
	addp.16b	v1, v1, v1
	umov.h	w10, v1[0]
	orr	w10, w10, #0x10000
	rbit	w10, w10
	clz	w10, w10
	cmp	w10, #16
	b.lo	Lunix_path_BB5_41
	cmp	x11, #64
	b.lo	Lunix_path_BB5_36
	mov	x10, #0
	mov	x12, x11
Lunix_path_BB5_31:
	add	x13, x23, x10
	ldp	q1, q2, [x13]
	ldp	q3, q4, [x13, #32]
	add	x13, x9, x10
	ldp	q5, q6, [x13]
	ldp	q7, q16, [x13, #32]
	cmeq.16b	v4, v4, v16
	cmeq.16b	v3, v3, v7
	cmeq.16b	v2, v2, v6
	cmeq.16b	v1, v1, v5
	bic.16b	v1, v0, v1
	bic.16b	v2, v0, v2
	bic.16b	v3, v0, v3
	bic.16b	v4, v0, v4
	addp.16b	v1, v1, v2
	addp.16b	v2, v3, v4
	addp.16b	v1, v1, v2
	addp.16b	v1, v1, v1
	fmov	x13, d1
	cbnz	x13, Lunix_path_BB5_37
	add	x10, x10, #64
	sub	x12, x12, #64
	cmp	x12, #63
	b.hi	Lunix_path_BB5_31
	and	x10, x11, #0xffffffffffffffc0
	sub	x11, x11, #16
	cmp	x10, x11
	b.lo	Lunix_path_BB5_38
	b	Lunix_path_BB5_40
Lunix_path_BB5_34:
	ldr	d0, [x23]
	ldr	d1, [x9]
	cmeq.8b	v1, v0, v1
Lunix_path_loh8:
	adrp	x10, lunix_path_CPI5_1@PAGE
Lunix_path_loh9:
	ldr	d0, [x10, lunix_path_CPI5_1@PAGEOFF]
	bic.8b	v1, v0, v1
	addv.8b	b1, v1
	fmov	w10, s1
	orr	w10, w10, #0x100
	rbit	w10, w10
	clz	w10, w10
	cmp	w10, #8
	b.lo	Lunix_path_BB5_41
	sub	x10, x11, #8
	ldr	d1, [x23, x10]
	ldr	d2, [x9, x10]
	cmeq.8b	v1, v1, v2
	bic.8b	v0, v0, v1
	addv.8b	b0, v0
	fmov	w11, s0
	orr	w11, w11, #0x100
	rbit	w11, w11
	clz	w11, w11
	add	x10, x10, x11
	cmp	x10, x22
	b.lo	Lunix_path_BB5_42
	b	Lunix_path_BB5_43
Lunix_path_BB5_36:
	mov	x10, #0
Lunix_path_BB5_37:
	sub	x11, x11, #16
	cmp	x10, x11
	b.hs	Lunix_path_BB5_40
Lunix_path_BB5_38:
	ldr	q1, [x23, x10]
	ldr	q2, [x9, x10]
	cmeq.16b	v1, v1, v2
	bic.16b	v1, v0, v1
	addp.16b	v1, v1, v1
	addp.16b	v1, v1, v1
	addp.16b	v1, v1, v1
	umov.h	w12, v1[0]
	orr	w12, w12, #0x10000
	rbit	w12, w12
	clz	w12, w12
	cmp	w12, #15
	b.ls	Lunix_path_BB5_55
	add	x10, x10, #16
	cmp	x10, x11
	b.lo	Lunix_path_BB5_38
Lunix_path_BB5_40:
	ldr	q1, [x23, x11]
	ldr	q2, [x9, x11]
	cmeq.16b	v1, v1, v2
	bic.16b	v0, v0, v1
	addp.16b	v0, v0, v0
	addp.16b	v0, v0, v0
	addp.16b	v0, v0, v0
	umov.h	w10, v0[0]
	orr	w10, w10, #0x10000
	rbit	w10, w10
	clz	w10, w10
	add	x10, x11, x10
Lunix_path_BB5_41:
	cmp	x10, x22
	b.hs	Lunix_path_BB5_43
Lunix_path_BB5_42:
	ldrb	w11, [x23, x10]
	cmp	w11, #47
	b.ne	Lunix_path_BB5_45
Lunix_path_BB5_43:
	mov	w11, #0
	cmp	x10, x8
	b.hs	Lunix_path_BB5_49
Lunix_path_BB5_44:
	ldrb	w12, [x9, x10]
	cmp	w12, #47
	csinc	w12, wzr, w12, eq
	cmp	w11, w12
	b.eq	Lunix_path_BB5_1
	b	Lunix_path_BB5_50
Lunix_path_BB5_45:
	cmp	x10, x8
	b.hs	Lunix_path_BB5_48
	cmp	w11, #46
	b.eq	Lunix_path_BB5_48
	ldrb	w12, [x9, x10]
	and	w12, w12, #0xfe
	cmp	w12, #46
	b.ne	Lunix_path_BB5_56
Lunix_path_BB5_48:
	add	w11, w11, #1
	cmp	x10, x8
	b.lo	Lunix_path_BB5_44
Lunix_path_BB5_49:
	mov	w12, #0
	cmp	w11, w12
	b.eq	Lunix_path_BB5_1
Lunix_path_BB5_50:
	cbz	x10, Lunix_path_BB5_56
	add	x11, x23, x10
	ldurb	w12, [x11, #-1]
	cmp	w12, #47
	b.eq	Lunix_path_BB5_2
	mov	x11, #0
	cmp	w12, #46
	b.ne	Lunix_path_BB5_59
	mov	x12, x11
	mov	x13, x11
	sub	x10, x10, #1
	cbz	x10, Lunix_path_BB5_58
	add	x11, x23, x10
	ldurb	w11, [x11, #-1]
	cmp	w11, #47
	b.eq	Lunix_path_BB5_2
	b	Lunix_path_BB5_56
Lunix_path_BB5_55:
	add	x10, x10, w12, uxtw
	cmp	x10, x22
	b.lo	Lunix_path_BB5_42
	b	Lunix_path_BB5_43
Lunix_path_BB5_56:
	mov	x11, #0
	mov	x12, #0
	mov	x13, #0
	b	Lunix_path_BB5_58
Lunix_path_BB5_57:
	mov	w11, #1
	mov	x12, x23
	mov	x13, x22
Lunix_path_BB5_58:
	stp	x11, x12, [x19]
	str	x13, [x19, #16]
	ldp	x29, x30, [sp, #48]
	ldp	x20, x19, [sp, #32]
	ldp	x22, x21, [sp, #16]
	ldp	x24, x23, [sp], #64
	ret
Lunix_path_BB5_59:
	mov	x12, x11
	mov	x13, x11
	b	Lunix_path_BB5_58
	.loh AdrpLdr	Lunix_path_loh6, Lunix_path_loh7
	.loh AdrpLdr	Lunix_path_loh8, Lunix_path_loh9
	.section	__TEXT,__literal16,16byte_literals
	.p2align	4, 0x0
lunix_path_CPI6_0:
	.byte	1
	.byte	2
	.byte	4
	.byte	8
	.byte	16
	.byte	32
	.byte	64
	.byte	128
	.byte	1
	.byte	2
	.byte	4
	.byte	8
	.byte	16
	.byte	32
	.byte	64
	.byte	128
	.section	__TEXT,__text,regular,pure_instructions
	.p2align	2
; unix_path::filler::filler_end_from
_unix_path.filler.filler_end_from:
	sub	x8, x1, x2
	cmp	x8, #17
	b.lo	Lunix_path_BB6_3
Lunix_path_BB6_1:
	add	x9, x0, x2
	ldr	q0, [x9]
	ldur	q1, [x9, #1]
	movi.16b	v2, #46
	cmeq.16b	v2, v0, v2
	mvn.16b	v2, v2
	movi.16b	v3, #47
	cmeq.16b	v0, v0, v3
	cmeq.16b	v1, v1, v3
	orn.16b	v1, v2, v1
	bic.16b	v0, v1, v0
Lunix_path_loh10:
	adrp	x9, lunix_path_CPI6_0@PAGE
Lunix_path_loh11:
	ldr	q1, [x9, lunix_path_CPI6_0@PAGEOFF]
	and.16b	v0, v0, v1
	addp.16b	v0, v0, v0
	addp.16b	v0, v0, v0
	addp.16b	v0, v0, v0
	umov.h	w9, v0[0]
	cbnz	w9, Lunix_path_BB6_3
	add	x2, x2, #16
	sub	x8, x8, #16
	cmp	x8, #16
	b.hi	Lunix_path_BB6_1
Lunix_path_BB6_3:
	cmp	x2, x1
	b.hs	Lunix_path_BB6_10
	sub	x8, x1, #1
	b	Lunix_path_BB6_6
Lunix_path_BB6_5:
	add	x2, x2, #1
	cmp	x1, x2
	b.eq	Lunix_path_BB6_11
Lunix_path_BB6_6:
	ldrb	w9, [x0, x2]
	cmp	w9, #47
	b.eq	Lunix_path_BB6_5
	cmp	w9, #46
	b.ne	Lunix_path_BB6_10
	cmp	x8, x2
	b.eq	Lunix_path_BB6_5
	add	x9, x0, x2
	ldrb	w9, [x9, #1]
	cmp	w9, #47
	b.eq	Lunix_path_BB6_5
Lunix_path_BB6_10:
	mov	x0, x2
	ret
Lunix_path_BB6_11:
	mov	x2, x1
	mov	x0, x2
	ret
	.loh AdrpLdr	Lunix_path_loh10, Lunix_path_loh11
	.section	__TEXT,__literal16,16byte_literals
	.p2align	4, 0x0
lunix_path_CPI7_0:
	.byte	1
	.byte	2
	.byte	4
	.byte	8
	.byte	16
	.byte	32
	.byte	64
	.byte	128
	.byte	1
	.byte	2
	.byte	4
	.byte	8
	.byte	16
	.byte	32
	.byte	64
	.byte	128
	.section	__TEXT,__literal8,8byte_literals
	.p2align	3, 0x0
lunix_path_CPI7_1:
	.byte	1
	.byte	2
	.byte	4
	.byte	8
	.byte	16
	.byte	32
	.byte	64
	.byte	128
	.section	__TEXT,__text,regular,pure_instructions
	.p2align	2
; unix_path::compare::compare
_unix_path.compare.compare:
	stp	x29, x30, [sp, #-16]!
	mov	x29, sp
	cmp	x3, x1
	csel	x8, x3, x1, lo
	cmp	x8, #15
	b.hi	Lunix_path_BB7_16
	cmp	x8, #7
	b.hi	Lunix_path_BB7_21
	cbz	x8, Lunix_path_BB7_31
	ldrb	w9, [x0]
	ldrb	w10, [x2]
	cmp	w9, w10
	b.ne	Lunix_path_BB7_30
	cmp	x8, #1
	b.eq	Lunix_path_BB7_31
	ldrb	w9, [x0, #1]
	ldrb	w10, [x2, #1]
	cmp	w9, w10
	b.ne	Lunix_path_BB7_89
	cmp	x8, #2
	b.eq	Lunix_path_BB7_31
	ldrb	w9, [x0, #2]
	ldrb	w10, [x2, #2]
	cmp	w9, w10
	b.ne	Lunix_path_BB7_90
	cmp	x8, #3
	b.eq	Lunix_path_BB7_31
	ldrb	w9, [x0, #3]
	ldrb	w10, [x2, #3]
	cmp	w9, w10
	b.ne	Lunix_path_BB7_91
	cmp	x8, #4
	b.eq	Lunix_path_BB7_31
	ldrb	w9, [x0, #4]
	ldrb	w10, [x2, #4]
	cmp	w9, w10
	b.ne	Lunix_path_BB7_92
	cmp	x8, #5
	b.eq	Lunix_path_BB7_31
	ldrb	w9, [x0, #5]
	ldrb	w10, [x2, #5]
	cmp	w9, w10
	b.ne	Lunix_path_BB7_93
	cmp	x8, #6
	b.eq	Lunix_path_BB7_31
	ldrb	w9, [x0, #6]
	ldrb	w10, [x2, #6]
	cmp	w9, w10
	mov	w9, #6
	csel	x8, x8, x9, eq
	b	Lunix_path_BB7_31
Lunix_path_BB7_16:
	sub	x9, x8, #16
	adrp	x10, lunix_path_CPI7_0@PAGE
	cmp	x8, #64
	b.lo	Lunix_path_BB7_23
	mov	x11, #0
	and	x12, x8, #0xffffffffffffffc0
Lunix_path_BB7_18:
	add	x13, x0, x11
	ldp	q0, q1, [x13]
	ldp	q2, q3, [x13, #32]
	add	x13, x2, x11
	ldp	q4, q5, [x13]
	ldp	q6, q7, [x13, #32]
	cmeq.16b	v3, v3, v7
	cmeq.16b	v2, v2, v6
	cmeq.16b	v1, v1, v5
	cmeq.16b	v0, v0, v4
	ldr	q4, [x10, lunix_path_CPI7_0@PAGEOFF]
	bic.16b	v0, v4, v0
	bic.16b	v1, v4, v1
	bic.16b	v2, v4, v2
	bic.16b	v3, v4, v3
	addp.16b	v0, v0, v1
	addp.16b	v1, v2, v3
	addp.16b	v0, v0, v1
	addp.16b	v0, v0, v0
	fmov	x13, d0
	cbnz	x13, Lunix_path_BB7_26
	add	x11, x11, #64
	sub	x8, x8, #64
	cmp	x8, #63
	b.hi	Lunix_path_BB7_18
	mov	x11, x12
	b	Lunix_path_BB7_26
Lunix_path_BB7_21:
	ldr	d0, [x0]
	ldr	d1, [x2]
	cmeq.8b	v1, v0, v1
Lunix_path_loh12:
	adrp	x9, lunix_path_CPI7_1@PAGE
Lunix_path_loh13:
	ldr	d0, [x9, lunix_path_CPI7_1@PAGEOFF]
	bic.8b	v1, v0, v1
	addv.8b	b1, v1
	fmov	w9, s1
	orr	w9, w9, #0x100
	rbit	w9, w9
	clz	w9, w9
	cmp	w9, #8
	b.hs	Lunix_path_BB7_29
	mov	x8, x9
	b	Lunix_path_BB7_31
Lunix_path_BB7_23:
	mov	x11, #0
	b	Lunix_path_BB7_26
Lunix_path_BB7_24:
	ldr	q0, [x0, x11]
	ldr	q1, [x2, x11]
	cmeq.16b	v0, v0, v1
	ldr	q1, [x10, lunix_path_CPI7_0@PAGEOFF]
	bic.16b	v0, v1, v0
	addp.16b	v0, v0, v0
	addp.16b	v0, v0, v0
	addp.16b	v0, v0, v0
	umov.h	w8, v0[0]
	orr	w8, w8, #0x10000
	rbit	w8, w8
	clz	w8, w8
	cmp	w8, #15
	b.ls	Lunix_path_BB7_28
	add	x11, x11, #16
Lunix_path_BB7_26:
	cmp	x11, x9
	b.lo	Lunix_path_BB7_24
	ldr	q0, [x0, x9]
	ldr	q1, [x2, x9]
	cmeq.16b	v0, v0, v1
	ldr	q1, [x10, lunix_path_CPI7_0@PAGEOFF]
	bic.16b	v0, v1, v0
	addp.16b	v0, v0, v0
	addp.16b	v0, v0, v0
	addp.16b	v0, v0, v0
	umov.h	w8, v0[0]
	orr	w8, w8, #0x10000
	rbit	w8, w8
	clz	w8, w8
	add	x8, x9, x8
	b	Lunix_path_BB7_31
Lunix_path_BB7_28:
	add	x8, x11, w8, uxtw
	b	Lunix_path_BB7_31
Lunix_path_BB7_29:
	sub	x8, x8, #8
	ldr	d1, [x0, x8]
	ldr	d2, [x2, x8]
	cmeq.8b	v1, v1, v2
	bic.8b	v0, v0, v1
	addv.8b	b0, v0
	fmov	w9, s0
	orr	w9, w9, #0x100
	rbit	w9, w9
	clz	w9, w9
	add	x8, x8, x9
	b	Lunix_path_BB7_31
Lunix_path_BB7_30:
	mov	x8, #0
Lunix_path_BB7_31:
	cmp	x8, x1
	ccmp	x8, x3, #0, eq
	b.eq	Lunix_path_BB7_42
	cmp	x8, x1
	b.hs	Lunix_path_BB7_34
	ldrb	w9, [x0, x8]
	cmp	w9, #47
	b.ne	Lunix_path_BB7_43
Lunix_path_BB7_34:
	mov	w9, #0
	cmp	x8, x3
	b.hs	Lunix_path_BB7_47
Lunix_path_BB7_35:
	ldrb	w10, [x2, x8]
	cmp	w10, #47
	csinc	w10, wzr, w10, eq
	cmp	w9, w10
	b.eq	Lunix_path_BB7_48
Lunix_path_BB7_36:
	cbz	x8, Lunix_path_BB7_52
	add	x11, x0, x8
	ldurb	w11, [x11, #-1]
	cmp	w11, #47
	b.eq	Lunix_path_BB7_49
	cmp	w11, #46
	b.ne	Lunix_path_BB7_41
	sub	x11, x8, #1
	cbz	x11, Lunix_path_BB7_52
	add	x8, x0, x11
	ldurb	w8, [x8, #-1]
	cmp	w8, #47
	b.eq	Lunix_path_BB7_50
Lunix_path_BB7_41:
	mov	w8, #2
	cmp	w9, w10
	csel	w0, wzr, w8, lo
	ldp	x29, x30, [sp], #16
	ret
Lunix_path_BB7_42:
	mov	w0, #1
	ldp	x29, x30, [sp], #16
	ret
Lunix_path_BB7_43:
	cmp	x8, x3
	b.hs	Lunix_path_BB7_46
	cmp	w9, #46
	b.eq	Lunix_path_BB7_46
	ldrb	w10, [x2, x8]
	and	w11, w10, #0xfe
	cmp	w11, #46
	b.ne	Lunix_path_BB7_77
Lunix_path_BB7_46:
	add	w9, w9, #1
	cmp	x8, x3
	b.lo	Lunix_path_BB7_35
Lunix_path_BB7_47:
	mov	w10, #0
	cmp	w9, w10
	b.ne	Lunix_path_BB7_36
Lunix_path_BB7_48:
	cbz	x8, Lunix_path_BB7_52
Lunix_path_BB7_49:
	mov	x11, x8
Lunix_path_BB7_50:
	sub	x8, x3, x11
	subs	x1, x1, x11
	b.ne	Lunix_path_BB7_61
	add	x0, x2, x11
	mov	x1, x8
	bl	_unix_path.pair.rest_len
	cmp	x0, #0
	cset	w0, eq
	ldp	x29, x30, [sp], #16
	ret
Lunix_path_BB7_52:
	cbz	x1, Lunix_path_BB7_63
	ldrb	w9, [x0]
	cmp	w9, #47
	b.eq	Lunix_path_BB7_66
	cmp	w9, #46
	b.ne	Lunix_path_BB7_65
	cmp	x1, #1
	b.eq	Lunix_path_BB7_78
	ldrb	w9, [x0, #1]
	cmp	w9, #47
	b.eq	Lunix_path_BB7_78
	cmp	w9, #46
	b.ne	Lunix_path_BB7_65
	cmp	x1, #2
	b.eq	Lunix_path_BB7_60
	ldrb	w9, [x0, #2]
	cmp	w9, #47
	b.ne	Lunix_path_BB7_65
Lunix_path_BB7_60:
	mov	w9, #3
	cbnz	x3, Lunix_path_BB7_67
	b	Lunix_path_BB7_79
Lunix_path_BB7_61:
	cmp	x3, x11
	b.ne	Lunix_path_BB7_64
	add	x0, x0, x11
	bl	_unix_path.pair.rest_len
	cmp	x0, #0
	mov	w8, #1
	cinc	w0, w8, ne
	ldp	x29, x30, [sp], #16
	ret
Lunix_path_BB7_63:
	mov	w9, #0
	cbnz	x3, Lunix_path_BB7_67
	b	Lunix_path_BB7_79
Lunix_path_BB7_64:
	add	x0, x0, x11
	add	x2, x2, x11
	mov	x3, x8
	ldp	x29, x30, [sp], #16
	b	_unix_path.pair.Comparison.order_after_cut
Lunix_path_BB7_65:
	mov	w9, #4
	cbnz	x3, Lunix_path_BB7_67
	b	Lunix_path_BB7_79
Lunix_path_BB7_66:
	mov	w9, #1
	cbz	x3, Lunix_path_BB7_79
Lunix_path_BB7_67:
	ldrb	w10, [x2]
	cmp	w10, #47
	b.eq	Lunix_path_BB7_76
	cmp	w10, #46
	b.ne	Lunix_path_BB7_75
	cmp	x3, #1
	b.eq	Lunix_path_BB7_83
	ldrb	w10, [x2, #1]
	cmp	w10, #47
	b.eq	Lunix_path_BB7_83
	cmp	w10, #46
	b.ne	Lunix_path_BB7_75
	cmp	x3, #2
	b.eq	Lunix_path_BB7_74
	ldrb	w10, [x2, #2]
	cmp	w10, #47
	b.ne	Lunix_path_BB7_75
Lunix_path_BB7_74:
	mov	w10, #3
	mov	w11, #2
	cmp	w9, w10
	csel	w9, wzr, w11, lo
	b.ne	Lunix_path_BB7_84
	b	Lunix_path_BB7_80
Lunix_path_BB7_75:
	mov	w10, #4
	mov	w11, #2
	cmp	w9, w10
	csel	w9, wzr, w11, lo
	b.ne	Lunix_path_BB7_84
	b	Lunix_path_BB7_80
Lunix_path_BB7_76:
	mov	w10, #1
	mov	w11, #2
	cmp	w9, w10
	csel	w9, wzr, w11, lo
	b.ne	Lunix_path_BB7_84
	b	Lunix_path_BB7_80
Lunix_path_BB7_77:
	mov	w8, #2
	cmp	w9, w10
	csel	w8, wzr, w8, lo
	csinc	w0, w8, wzr, ne
	ldp	x29, x30, [sp], #16
	ret
Lunix_path_BB7_78:
	mov	w9, #2
	cbnz	x3, Lunix_path_BB7_67
Lunix_path_BB7_79:
	mov	w10, #0
	mov	w11, #2
	cmp	w9, w10
	csel	w9, wzr, w11, lo
	b.ne	Lunix_path_BB7_84
Lunix_path_BB7_80:
	cmp	x8, x1
	b.hs	Lunix_path_BB7_82
	ldrb	w9, [x0, x8]
	cmp	w9, #47
	b.ne	Lunix_path_BB7_85
Lunix_path_BB7_82:
	mov	w9, #0
	cmp	x8, x3
	b.hs	Lunix_path_BB7_87
	b	Lunix_path_BB7_86
Lunix_path_BB7_83:
	mov	w10, #2
	mov	w11, #2
	cmp	w9, w10
	csel	w9, wzr, w11, lo
	b.eq	Lunix_path_BB7_80
Lunix_path_BB7_84:
	mov	x0, x9
	ldp	x29, x30, [sp], #16
	ret
Lunix_path_BB7_85:
	add	w9, w9, #1
	cmp	x8, x3
	b.hs	Lunix_path_BB7_87
Lunix_path_BB7_86:
	ldrb	w8, [x2, x8]
	cmp	w8, #47
	b.ne	Lunix_path_BB7_88
Lunix_path_BB7_87:
	mov	w8, #0
	mov	w10, #2
	cmp	w9, w8
	csel	w8, wzr, w10, lo
	csinc	w0, w8, wzr, ne
	ldp	x29, x30, [sp], #16
	ret
Lunix_path_BB7_88:
	add	w8, w8, #1
	mov	w10, #2
	cmp	w9, w8
	csel	w8, wzr, w10, lo
	csinc	w0, w8, wzr, ne
	ldp	x29, x30, [sp], #16
	ret
Lunix_path_BB7_89:
	mov	w8, #1
	b	Lunix_path_BB7_31
Lunix_path_BB7_90:
	mov	w8, #2
	b	Lunix_path_BB7_31
Lunix_path_BB7_91:
	mov	w8, #3
	b	Lunix_path_BB7_31
Lunix_path_BB7_92:
	mov	w8, #4
	b	Lunix_path_BB7_31
Lunix_path_BB7_93:
	mov	w8, #5
	b	Lunix_path_BB7_31
	.loh AdrpLdr	Lunix_path_loh12, Lunix_path_loh13
	.p2align	2
; unix_path::pair::rest_len
_unix_path.pair.rest_len:
	mov	x2, #0
	b	Lunix_path_BB8_2
Lunix_path_BB8_1:
	mov	w8, #1
	add	x2, x8, x2
	cmp	x2, #4
	b.hs	Lunix_path_BB8_8
Lunix_path_BB8_2:
	cmp	x2, x1
	b.hs	Lunix_path_BB8_9
	ldrb	w8, [x0, x2]
	cmp	w8, #47
	b.eq	Lunix_path_BB8_1
	cmp	w8, #46
	b.ne	Lunix_path_BB8_9
	add	x8, x2, #1
	cmp	x8, x1
	b.eq	Lunix_path_BB8_1
	ldrb	w8, [x0, x8]
	cmp	w8, #47
	b.ne	Lunix_path_BB8_9
	mov	w8, #2
	add	x2, x8, x2
	cmp	x2, #4
	b.lo	Lunix_path_BB8_2
Lunix_path_BB8_8:
	stp	x20, x19, [sp, #-32]!
	stp	x29, x30, [sp, #16]
	add	x29, sp, #16
	mov	x19, x1
	bl	_unix_path.filler.filler_end_from
	mov	x1, x19
	mov	x2, x0
	ldp	x29, x30, [sp, #16]
	ldp	x20, x19, [sp], #32
Lunix_path_BB8_9:
	sub	x0, x1, x2
	ret
	.section	__TEXT,__literal16,16byte_literals
	.p2align	4, 0x0
lunix_path_CPI9_0:
	.byte	1
	.byte	2
	.byte	4
	.byte	8
	.byte	16
	.byte	32
	.byte	64
	.byte	128
	.byte	1
	.byte	2
	.byte	4
	.byte	8
	.byte	16
	.byte	32
	.byte	64
	.byte	128
	.section	__TEXT,__literal8,8byte_literals
	.p2align	3, 0x0
lunix_path_CPI9_1:
	.byte	1
	.byte	2
	.byte	4
	.byte	8
	.byte	16
	.byte	32
	.byte	64
	.byte	128
	.section	__TEXT,__text,regular,pure_instructions
	.p2align	2
; unix_path::pair::Comparison::order_after_cut
_unix_path.pair.Comparison.order_after_cut:
	stp	x24, x23, [sp, #-64]!
	stp	x22, x21, [sp, #16]
	stp	x20, x19, [sp, #32]
	stp	x29, x30, [sp, #48]
	add	x29, sp, #48
	mov	x22, x3
	mov	x21, x2
	mov	x19, x1
	mov	x23, x0
	b	Lunix_path_BB9_4
Lunix_path_BB9_1:
	cbz	x10, Lunix_path_BB9_60
Lunix_path_BB9_2:
	mov	x13, x10
Lunix_path_BB9_3:
	add	x23, x23, x13
	sub	x19, x24, x13
	add	x21, x9, x13
	sub	x22, x8, x13
Lunix_path_BB9_4:
	mov	x20, #0
	b	Lunix_path_BB9_6
Lunix_path_BB9_5:
	mov	w8, #1
	add	x20, x8, x20
	cmp	x20, #4
	b.hs	Lunix_path_BB9_12
Lunix_path_BB9_6:
	cmp	x20, x19
	b.hs	Lunix_path_BB9_13
	ldrb	w8, [x23, x20]
	cmp	w8, #47
	b.eq	Lunix_path_BB9_5
	cmp	w8, #46
	b.ne	Lunix_path_BB9_13
	add	x8, x20, #1
	cmp	x8, x19
	b.eq	Lunix_path_BB9_5
	ldrb	w8, [x23, x8]
	cmp	w8, #47
	b.ne	Lunix_path_BB9_13
	mov	w8, #2
	add	x20, x8, x20
	cmp	x20, #4
	b.lo	Lunix_path_BB9_6
Lunix_path_BB9_12:
	mov	x0, x23
	mov	x1, x19
	mov	x2, x20
	bl	_unix_path.filler.filler_end_from
	mov	x20, x0
Lunix_path_BB9_13:
	mov	x2, #0
	add	x23, x23, x20
	sub	x24, x19, x20
	b	Lunix_path_BB9_15
Lunix_path_BB9_14:
	mov	w8, #1
	add	x2, x8, x2
	cmp	x2, #4
	b.hs	Lunix_path_BB9_21
Lunix_path_BB9_15:
	cmp	x2, x22
	b.hs	Lunix_path_BB9_22
	ldrb	w8, [x21, x2]
	cmp	w8, #47
	b.eq	Lunix_path_BB9_14
	cmp	w8, #46
	b.ne	Lunix_path_BB9_22
	add	x8, x2, #1
	cmp	x8, x22
	b.eq	Lunix_path_BB9_14
	ldrb	w8, [x21, x8]
	cmp	w8, #47
	b.ne	Lunix_path_BB9_22
	mov	w8, #2
	add	x2, x8, x2
	cmp	x2, #4
	b.lo	Lunix_path_BB9_15
Lunix_path_BB9_21:
	mov	x0, x21
	mov	x1, x22
	bl	_unix_path.filler.filler_end_from
	mov	x2, x0
Lunix_path_BB9_22:
	subs	x8, x22, x2
	b.eq	Lunix_path_BB9_59
	add	x9, x21, x2
	cmp	x8, x24
	csel	x11, x8, x24, lo
	cmp	x11, #15
	b.hi	Lunix_path_BB9_27
	cmp	x11, #7
	b.hi	Lunix_path_BB9_33
	cmp	x19, x20
	b.ne	Lunix_path_BB9_35
	mov	x10, #0
	cmp	x10, x24
	b.lo	Lunix_path_BB9_45
	b	Lunix_path_BB9_46
Lunix_path_BB9_27:
	ldr	q0, [x23]
	ldr	q1, [x9]
	cmeq.16b	v1, v0, v1
Lunix_path_loh14:
	adrp	x10, lunix_path_CPI9_0@PAGE
Lunix_path_loh15:
	ldr	q0, [x10, lunix_path_CPI9_0@PAGEOFF]
	bic.16b	v1, v0, v1
	addp.16b	v1, v1, v1
	addp.16b	v1, v1, v1
	addp.16b	v1, v1, v1
	umov.h	w10, v1[0]
	orr	w10, w10, #0x10000
	rbit	w10, w10
	clz	w10, w10
	cmp	w10, #16
	b.lo	Lunix_path_BB9_44
	cmp	x11, #64
	b.lo	Lunix_path_BB9_39
	mov	x10, #0
	mov	x12, x11
Lunix_path_BB9_30:
	add	x13, x23, x10
	ldp	q1, q2, [x13]
	ldp	q3, q4, [x13, #32]
	add	x13, x9, x10
	ldp	q5, q6, [x13]
	ldp	q7, q16, [x13, #32]
	cmeq.16b	v4, v4, v16
	cmeq.16b	v3, v3, v7
	cmeq.16b	v2, v2, v6
	cmeq.16b	v1, v1, v5
	bic.16b	v1, v0, v1
	bic.16b	v2, v0, v2
	bic.16b	v3, v0, v3
	bic.16b	v4, v0, v4
	addp.16b	v1, v1, v2
	addp.16b	v2, v3, v4
	addp.16b	v1, v1, v2
	addp.16b	v1, v1, v1
	fmov	x13, d1
	cbnz	x13, Lunix_path_BB9_40
	add	x10, x10, #64
	sub	x12, x12, #64
	cmp	x12, #63
	b.hi	Lunix_path_BB9_30
	and	x10, x11, #0xffffffffffffffc0
	sub	x11, x11, #16
	cmp	x10, x11
	b.lo	Lunix_path_BB9_41
	b	Lunix_path_BB9_43
Lunix_path_BB9_33:
	ldr	d0, [x23]
	ldr	d1, [x9]
	cmeq.8b	v1, v0, v1
Lunix_path_loh16:
	adrp	x10, lunix_path_CPI9_1@PAGE
Lunix_path_loh17:
	ldr	d0, [x10, lunix_path_CPI9_1@PAGEOFF]
	bic.8b	v1, v0, v1
	addv.8b	b1, v1
	fmov	w10, s1
	orr	w10, w10, #0x100
	rbit	w10, w10
	clz	w10, w10
	cmp	w10, #8
	b.lo	Lunix_path_BB9_44
	sub	x10, x11, #8
	ldr	d1, [x23, x10]
	ldr	d2, [x9, x10]
	cmeq.8b	v1, v1, v2
	bic.8b	v0, v0, v1
	addv.8b	b0, v0
	fmov	w11, s0
	orr	w11, w11, #0x100
	rbit	w11, w11
	clz	w11, w11
	add	x10, x10, x11
	cmp	x10, x24
	b.lo	Lunix_path_BB9_45
	b	Lunix_path_BB9_46
Lunix_path_BB9_35:
	mov	x10, #0
Lunix_path_BB9_36:
	ldrb	w12, [x23, x10]
	ldrb	w13, [x9, x10]
	cmp	w12, w13
	b.ne	Lunix_path_BB9_44
	add	x10, x10, #1
	cmp	x11, x10
	b.ne	Lunix_path_BB9_36
	mov	x10, x11
	cmp	x11, x24
	b.lo	Lunix_path_BB9_45
	b	Lunix_path_BB9_46
Lunix_path_BB9_39:
	mov	x10, #0
Lunix_path_BB9_40:
	sub	x11, x11, #16
	cmp	x10, x11
	b.hs	Lunix_path_BB9_43
Lunix_path_BB9_41:
	ldr	q1, [x23, x10]
	ldr	q2, [x9, x10]
	cmeq.16b	v1, v1, v2
	bic.16b	v1, v0, v1
	addp.16b	v1, v1, v1
	addp.16b	v1, v1, v1
	addp.16b	v1, v1, v1
	umov.h	w12, v1[0]
	orr	w12, w12, #0x10000
	rbit	w12, w12
	clz	w12, w12
	cmp	w12, #15
	b.ls	Lunix_path_BB9_58
	add	x10, x10, #16
	cmp	x10, x11
	b.lo	Lunix_path_BB9_41
Lunix_path_BB9_43:
	ldr	q1, [x23, x11]
	ldr	q2, [x9, x11]
	cmeq.16b	v1, v1, v2
	bic.16b	v0, v0, v1
	addp.16b	v0, v0, v0
	addp.16b	v0, v0, v0
	addp.16b	v0, v0, v0
	umov.h	w10, v0[0]
	orr	w10, w10, #0x10000
	rbit	w10, w10
	clz	w10, w10
	add	x10, x11, x10
Lunix_path_BB9_44:
	cmp	x10, x24
	b.hs	Lunix_path_BB9_46
Lunix_path_BB9_45:
	ldrb	w11, [x23, x10]
	cmp	w11, #47
	b.ne	Lunix_path_BB9_48
Lunix_path_BB9_46:
	mov	w11, #0
	cmp	x10, x8
	b.hs	Lunix_path_BB9_52
Lunix_path_BB9_47:
	ldrb	w12, [x9, x10]
	cmp	w12, #47
	csinc	w12, wzr, w12, eq
	cmp	w11, w12
	b.eq	Lunix_path_BB9_1
	b	Lunix_path_BB9_53
Lunix_path_BB9_48:
	cmp	x10, x8
	b.hs	Lunix_path_BB9_51
	cmp	w11, #46
	b.eq	Lunix_path_BB9_51
	ldrb	w12, [x9, x10]
	and	w13, w12, #0xfe
	cmp	w13, #46
	b.ne	Lunix_path_BB9_92
Lunix_path_BB9_51:
	add	w11, w11, #1
	cmp	x10, x8
	b.lo	Lunix_path_BB9_47
Lunix_path_BB9_52:
	mov	w12, #0
	cmp	w11, w12
	b.eq	Lunix_path_BB9_1
Lunix_path_BB9_53:
	cbz	x10, Lunix_path_BB9_60
	add	x13, x23, x10
	ldurb	w13, [x13, #-1]
	cmp	w13, #47
	b.eq	Lunix_path_BB9_2
	cmp	w13, #46
	b.ne	Lunix_path_BB9_62
	sub	x13, x10, #1
	cbz	x13, Lunix_path_BB9_63
	add	x10, x23, x13
	ldurb	w10, [x10, #-1]
	cmp	w10, #47
	b.eq	Lunix_path_BB9_3
	b	Lunix_path_BB9_62
Lunix_path_BB9_58:
	add	x10, x10, w12, uxtw
	cmp	x10, x24
	b.lo	Lunix_path_BB9_45
	b	Lunix_path_BB9_46
Lunix_path_BB9_59:
	cmp	x19, x20
	mov	w8, #1
	cinc	w0, w8, ne
	ldp	x29, x30, [sp, #48]
	ldp	x20, x19, [sp, #32]
	ldp	x22, x21, [sp, #16]
	ldp	x24, x23, [sp], #64
	ret
Lunix_path_BB9_60:
	mov	x11, #0
	cmp	x19, x20
	b.ne	Lunix_path_BB9_64
Lunix_path_BB9_61:
	mov	w0, #0
	ldp	x29, x30, [sp, #48]
	ldp	x20, x19, [sp, #32]
	ldp	x22, x21, [sp, #16]
	ldp	x24, x23, [sp], #64
	ret
Lunix_path_BB9_62:
	mov	w8, #2
	cmp	w11, w12
	csel	w0, wzr, w8, lo
	ldp	x29, x30, [sp, #48]
	ldp	x20, x19, [sp, #32]
	ldp	x22, x21, [sp, #16]
	ldp	x24, x23, [sp], #64
	ret
Lunix_path_BB9_63:
	mov	w11, #1
	cmp	x19, x20
	b.eq	Lunix_path_BB9_61
Lunix_path_BB9_64:
	ldrb	w12, [x23]
	cmp	w12, #47
	b.eq	Lunix_path_BB9_73
	cmp	w12, #46
	b.ne	Lunix_path_BB9_72
	cmp	x24, #1
	b.eq	Lunix_path_BB9_82
	ldrb	w12, [x23, #1]
	cmp	w12, #47
	b.eq	Lunix_path_BB9_82
	cmp	w12, #46
	b.ne	Lunix_path_BB9_72
	cmp	x24, #2
	b.eq	Lunix_path_BB9_71
	ldrb	w12, [x23, #2]
	cmp	w12, #47
	b.ne	Lunix_path_BB9_72
Lunix_path_BB9_71:
	mov	w12, #3
	ldrb	w13, [x9]
	cmp	w13, #47
	b.ne	Lunix_path_BB9_74
	b	Lunix_path_BB9_83
Lunix_path_BB9_72:
	mov	w12, #4
	ldrb	w13, [x9]
	cmp	w13, #47
	b.ne	Lunix_path_BB9_74
	b	Lunix_path_BB9_83
Lunix_path_BB9_73:
	mov	w12, #1
	ldrb	w13, [x9]
	cmp	w13, #47
	b.eq	Lunix_path_BB9_83
Lunix_path_BB9_74:
	cmp	w13, #46
	b.ne	Lunix_path_BB9_81
	cmp	x8, #1
	b.eq	Lunix_path_BB9_90
	ldrb	w13, [x9, #1]
	cmp	w13, #47
	b.eq	Lunix_path_BB9_90
	cmp	w13, #46
	b.ne	Lunix_path_BB9_81
	cmp	x8, #2
	b.eq	Lunix_path_BB9_80
	ldrb	w13, [x9, #2]
	cmp	w13, #47
	b.ne	Lunix_path_BB9_81
Lunix_path_BB9_80:
	mov	w13, #3
	mov	w14, #2
	cmp	w12, w13
	csel	w0, wzr, w14, lo
	b.ne	Lunix_path_BB9_91
	b	Lunix_path_BB9_84
Lunix_path_BB9_81:
	mov	w13, #4
	mov	w14, #2
	cmp	w12, w13
	csel	w0, wzr, w14, lo
	b.ne	Lunix_path_BB9_91
	b	Lunix_path_BB9_84
Lunix_path_BB9_82:
	mov	w12, #2
	ldrb	w13, [x9]
	cmp	w13, #47
	b.ne	Lunix_path_BB9_74
Lunix_path_BB9_83:
	mov	w13, #1
	mov	w14, #2
	cmp	w12, w13
	csel	w0, wzr, w14, lo
	b.ne	Lunix_path_BB9_91
Lunix_path_BB9_84:
	cmp	x10, x24
	b.hs	Lunix_path_BB9_87
	ldrb	w10, [x23, x11]
	cmp	w10, #47
	csinc	w10, wzr, w10, eq
	cmp	x11, x8
	b.lo	Lunix_path_BB9_88
Lunix_path_BB9_86:
	mov	w8, #0
	b	Lunix_path_BB9_89
Lunix_path_BB9_87:
	mov	w10, #0
	cmp	x11, x8
	b.hs	Lunix_path_BB9_86
Lunix_path_BB9_88:
	ldrb	w8, [x9, x11]
	cmp	w8, #47
	csinc	w8, wzr, w8, eq
Lunix_path_BB9_89:
	mov	w9, #2
	cmp	w10, w8
	csel	w8, wzr, w9, lo
	csinc	w0, w8, wzr, ne
	ldp	x29, x30, [sp, #48]
	ldp	x20, x19, [sp, #32]
	ldp	x22, x21, [sp, #16]
	ldp	x24, x23, [sp], #64
	ret
Lunix_path_BB9_90:
	mov	w13, #2
	mov	w14, #2
	cmp	w12, w13
	csel	w0, wzr, w14, lo
	b.eq	Lunix_path_BB9_84
Lunix_path_BB9_91:
	ldp	x29, x30, [sp, #48]
	ldp	x20, x19, [sp, #32]
	ldp	x22, x21, [sp, #16]
	ldp	x24, x23, [sp], #64
	ret
Lunix_path_BB9_92:
	mov	w8, #2
	cmp	w11, w12
	csel	w8, wzr, w8, lo
	csinc	w0, w8, wzr, ne
	ldp	x29, x30, [sp, #48]
	ldp	x20, x19, [sp, #32]
	ldp	x22, x21, [sp, #16]
	ldp	x24, x23, [sp], #64
	ret
	.loh AdrpLdr	Lunix_path_loh14, Lunix_path_loh15
	.loh AdrpLdr	Lunix_path_loh16, Lunix_path_loh17
	.p2align	2
; core::slice::sort::unstable::quicksort::<#fd4dfef4a36ac24b>
_core.slice.sort.unstable.quicksort.fd4dfef4a36ac24b.:
	sub	sp, sp, #416
	stp	x28, x27, [sp, #320]
	stp	x26, x25, [sp, #336]
	stp	x24, x23, [sp, #352]
	stp	x22, x21, [sp, #368]
	stp	x20, x19, [sp, #384]
	stp	x29, x30, [sp, #400]
	add	x29, sp, #400
	mov	x25, x4
	mov	x22, x1
	mov	x26, x0
	str	x2, [sp, #88]
	sub	x23, x2, x1
	cmp	x23, #17
	b.lo	Lunix_path_BB10_38
	mov	x19, x3
	add	x8, x26, #64
	stp	x8, x25, [sp, #72]
	add	x8, x26, #80
	str	x8, [sp, #8]
	str	x26, [sp, #112]
	b	Lunix_path_BB10_4
Lunix_path_BB10_2:
	add	x9, x8, x8, lsl #2
	lsl	x9, x9, #3
	add	x10, x11, x9
	ldp	q0, q1, [x10]
	ldr	x10, [x10, #32]
	str	x10, [x11, #32]
	stp	q0, q1, [x11]
Lunix_path_BB10_3:
	add	x9, x11, x9
	ldr	x10, [sp, #144]
	str	x10, [x9]
	ldr	x10, [sp, #104]
	stp	x10, x13, [x9, #8]
	ldr	x10, [sp, #96]
	stp	x21, x10, [x9, #24]
	stp	x20, x19, [x25]
	add	x2, x8, x22
	mov	x0, x26
	mov	x1, x22
	ldr	w19, [sp, #124]
	mov	x3, x19
	mov	x4, x25
	bl	_core.slice.sort.unstable.quicksort.fd4dfef4a36ac24b.
	add	x22, x28, x22
	ldr	x8, [sp, #88]
	sub	x23, x8, x22
	cmp	x23, #16
	b.ls	Lunix_path_BB10_38
Lunix_path_BB10_4:
	cbz	w19, Lunix_path_BB10_39
	lsr	x4, x23, #3
	add	x2, x22, x4, lsl #2
	sub	x8, x22, x4
	add	x3, x8, x4, lsl #3
	mov	x0, x26
	mov	x1, x22
	cmp	x23, #63
	b.hi	Lunix_path_BB10_14
	mov	x4, x25
	bl	_core.slice.sort.pivot.median_of_three.fd4dfef4a36ac24b.
	mov	x24, x0
	sub	w19, w19, #1
	str	x22, [sp, #136]
	str	w19, [sp, #124]
	str	x23, [sp, #168]
	cbz	x22, Lunix_path_BB10_15
Lunix_path_BB10_7:
	ldp	x19, x20, [x25]
	add	x8, x22, x22, lsl #2
	lsl	x8, x8, #3
	str	x8, [sp, #128]
	add	x28, x26, x8
	mov	w8, #40
	madd	x21, x24, x8, x26
	ldp	x8, x9, [x28, #-40]
	cmp	x20, x9
	csel	x9, x20, x9, lo
	cmp	x9, x8
	csel	x8, x9, x8, lo
	sub	x1, x9, x8
	add	x0, x19, x8
	bl	_path_archive.slot.without_dot
	mov	x26, x0
	mov	x27, x1
	ldp	x8, x9, [x21]
	cmp	x20, x9
	csel	x9, x20, x9, lo
	cmp	x9, x8
	csel	x8, x9, x8, lo
	sub	x1, x9, x8
	add	x0, x19, x8
	bl	_path_archive.slot.without_dot
	mov	x2, x0
	mov	x3, x1
	mov	x0, x26
	mov	x1, x27
	bl	_unix_path.compare.compare
	and	w8, w0, #0xff
	ldp	x9, x10, [x28, #-24]
	ldp	x11, x12, [x21, #16]
	cmp	x10, x12
	mov	w10, #2
	csel	w12, wzr, w10, lo
	csinc	w12, w12, wzr, ne
	cmp	x9, x11
	csel	w9, wzr, w10, lo
	csel	w9, w12, w9, eq
	cmp	w8, #1
	csel	w8, w9, w8, eq
	cbz	w8, Lunix_path_BB10_28
	mov	x13, x28
	subs	x8, x24, x22
	b.eq	Lunix_path_BB10_10
	mov	w9, #40
	ldp	q0, q1, [x13]
	madd	x8, x8, x9, x13
	ldr	x9, [x13, #32]
	ldr	x10, [x8, #32]
	ldp	q3, q2, [x8]
	stp	q3, q2, [x13]
	str	x10, [x13, #32]
	str	x9, [x8, #32]
	stp	q0, q1, [x8]
Lunix_path_BB10_10:
	ldp	x8, x11, [x25]
	stp	x13, x8, [sp, #152]
	ldp	x9, x8, [x13]
	ldp	x12, x21, [x13, #16]
	ldr	x10, [x13, #32]
	str	x10, [sp, #64]
	cmp	x11, x8
	stp	x8, x9, [sp, #96]
	mov	x24, x11
	csel	x8, x11, x8, lo
	cmp	x8, x9
	csel	x25, x8, x9, lo
	sub	x23, x8, x25
	ldr	x8, [sp, #72]
	ldr	x9, [sp, #128]
	add	x22, x8, x9
	mov	w28, #1
Lunix_path_BB10_11:
	mov	x20, x25
	ldr	x19, [sp, #160]
	add	x0, x19, x25
	mov	x25, x23
	mov	x1, x23
	mov	x23, x21
	mov	x21, x12
	bl	_path_archive.slot.without_dot
	mov	x26, x0
	mov	x27, x1
	ldp	x8, x9, [x22, #-24]
	cmp	x24, x9
	csel	x9, x24, x9, lo
	cmp	x9, x8
	csel	x8, x9, x8, lo
	sub	x1, x9, x8
	add	x0, x19, x8
	bl	_path_archive.slot.without_dot
	mov	x2, x0
	mov	x3, x1
	mov	x0, x26
	mov	x1, x27
	bl	_unix_path.compare.compare
	mov	x12, x21
	mov	x21, x23
	and	w8, w0, #0xff
	ldp	x9, x10, [x22, #-8]
	cmp	x23, x10
	mov	w10, #2
	csel	w11, wzr, w10, lo
	csinc	w11, w11, wzr, ne
	cmp	x12, x9
	csel	w9, wzr, w10, lo
	csel	w9, w11, w9, eq
	cmp	w8, #1
	csel	w8, w9, w8, eq
	cbz	w8, Lunix_path_BB10_29
	add	x22, x22, #40
	add	x28, x28, #1
	ldr	x8, [sp, #168]
	cmp	x8, x28
	mov	x23, x25
	mov	x25, x20
	b.ne	Lunix_path_BB10_11
	ldr	x8, [sp, #168]
	mov	x28, x8
	b	Lunix_path_BB10_30
Lunix_path_BB10_14:
	mov	x5, x25
	bl	_core.slice.sort.pivot.median_of_medians.fd4dfef4a36ac24b.
	mov	x24, x0
	sub	w19, w19, #1
	str	x22, [sp, #136]
	str	w19, [sp, #124]
	str	x23, [sp, #168]
	cbnz	x22, Lunix_path_BB10_7
Lunix_path_BB10_15:
	mov	x12, #0
	add	x11, x26, x12
	subs	x8, x24, x22
	b.eq	Lunix_path_BB10_17
Lunix_path_BB10_16:
	mov	w9, #40
	ldp	q0, q1, [x11]
	madd	x8, x8, x9, x11
	ldr	x9, [x11, #32]
	ldr	x10, [x8, #32]
	ldp	q3, q2, [x8]
	stp	q3, q2, [x11]
	str	x10, [x11, #32]
	str	x9, [x8, #32]
	stp	q0, q1, [x8]
Lunix_path_BB10_17:
	ldp	x20, x19, [x25]
	ldp	x9, x8, [x11]
	ldp	x13, x21, [x11, #16]
	str	x11, [sp, #160]
	ldr	x10, [x11, #32]
	stp	x10, x8, [sp, #96]
	cmp	x19, x8
	csel	x8, x19, x8, lo
	cmp	x8, x9
	str	x9, [sp, #144]
	csel	x9, x8, x9, lo
	mov	x23, x9
	sub	x24, x8, x9
	ldr	x8, [sp, #72]
	str	x12, [sp, #128]
	add	x22, x8, x12
	mov	w28, #1
Lunix_path_BB10_18:
	ldp	x8, x9, [x22, #-24]
	cmp	x19, x9
	csel	x9, x19, x9, lo
	cmp	x9, x8
	csel	x8, x9, x8, lo
	sub	x1, x9, x8
	add	x0, x20, x8
	mov	x25, x21
	mov	x21, x13
	bl	_path_archive.slot.without_dot
	mov	x26, x0
	mov	x27, x1
	add	x0, x20, x23
	mov	x1, x24
	bl	_path_archive.slot.without_dot
	mov	x2, x0
	mov	x3, x1
	mov	x0, x26
	mov	x1, x27
	bl	_unix_path.compare.compare
	mov	x13, x21
	mov	x21, x25
	and	w8, w0, #0xff
	ldp	x9, x10, [x22, #-8]
	cmp	x10, x25
	mov	w10, #2
	csel	w11, wzr, w10, lo
	csinc	w11, w11, wzr, ne
	cmp	x9, x13
	csel	w9, wzr, w10, lo
	csel	w9, w11, w9, eq
	cmp	w8, #1
	csel	w8, w9, w8, eq
	cbnz	w8, Lunix_path_BB10_22
	add	x22, x22, #40
	add	x28, x28, #1
	ldr	x8, [sp, #168]
	cmp	x8, x28
	b.ne	Lunix_path_BB10_18
	ldp	x11, x8, [sp, #160]
	mov	x28, x8
	sub	x12, x8, #1
	cmp	x8, x12
	ldr	x22, [sp, #136]
	b.lo	Lunix_path_BB10_23
Lunix_path_BB10_21:
	subs	x8, x28, #1
	ldr	x25, [sp, #80]
	ldr	x26, [sp, #112]
	b.ne	Lunix_path_BB10_2
	b	Lunix_path_BB10_27
Lunix_path_BB10_22:
	ldp	x11, x8, [sp, #160]
	sub	x12, x8, #1
	cmp	x28, x12
	ldr	x22, [sp, #136]
	b.hs	Lunix_path_BB10_21
Lunix_path_BB10_23:
	mov	x25, x24
	add	x8, x28, #1
	mov	w9, #40
	madd	x9, x8, x9, x11
	ldr	x10, [x9]
	str	x10, [sp, #64]
	ldr	x10, [x9, #8]
	str	x10, [sp, #56]
	ldr	x10, [x9, #16]
	str	x10, [sp, #48]
	ldp	x10, x9, [x9, #24]
	stp	x9, x10, [sp, #32]
	cmp	x8, x12
	str	x12, [sp, #24]
	str	x13, [sp, #152]
	b.hs	Lunix_path_BB10_26
	mov	w8, #40
	ldr	x9, [sp, #128]
	madd	x8, x28, x8, x9
	ldr	x9, [sp, #8]
	add	x27, x9, x8
	ldr	x8, [sp, #168]
	sub	x8, x8, x28
	sub	x22, x8, #2
Lunix_path_BB10_25:
	ldp	x8, x9, [x27]
	cmp	x19, x9
	csel	x9, x19, x9, lo
	cmp	x9, x8
	csel	x8, x9, x8, lo
	sub	x1, x9, x8
	add	x0, x20, x8
	bl	_path_archive.slot.without_dot
	mov	x24, x0
	mov	x26, x1
	add	x0, x20, x23
	mov	x1, x25
	bl	_path_archive.slot.without_dot
	mov	x2, x0
	mov	x3, x1
	mov	x0, x24
	mov	x1, x26
	bl	_unix_path.compare.compare
	ldp	x8, x9, [x27, #16]
	ldr	x10, [x27, #32]
	cmp	x9, x21
	mov	w9, #2
	csel	w11, wzr, w9, lo
	csinc	w11, w11, wzr, ne
	ldr	x12, [sp, #152]
	cmp	x8, x12
	and	w8, w0, #0xff
	csel	w9, wzr, w9, lo
	csel	w9, w11, w9, eq
	cmp	w8, #1
	csel	w8, w9, w8, eq
	mov	w9, #40
	ldr	x11, [sp, #160]
	madd	x9, x28, x9, x11
	ldr	x11, [x9, #32]
	cmp	w8, #0
	ldp	q1, q0, [x9]
	stur	q1, [x27, #-40]
	stur	q0, [x27, #-24]
	stur	x11, [x27, #-8]
	ldp	q0, q1, [x27]
	str	x10, [x9, #32]
	stp	q0, q1, [x9]
	cinc	x28, x28, eq
	add	x27, x27, #40
	subs	x22, x22, #1
	b.ne	Lunix_path_BB10_25
Lunix_path_BB10_26:
	ldp	x27, x22, [sp, #56]
	cmp	x19, x27
	csel	x8, x19, x27, lo
	cmp	x8, x22
	csel	x9, x8, x22, lo
	sub	x1, x8, x9
	add	x0, x20, x9
	bl	_path_archive.slot.without_dot
	mov	x24, x0
	mov	x26, x1
	add	x0, x20, x23
	mov	x1, x25
	bl	_path_archive.slot.without_dot
	mov	x2, x0
	mov	x3, x1
	mov	x0, x24
	mov	x1, x26
	bl	_unix_path.compare.compare
	ldp	x13, x12, [sp, #40]
	cmp	x13, x21
	mov	w8, #2
	csel	w9, wzr, w8, lo
	csinc	w9, w9, wzr, ne
	ldp	x15, x14, [sp, #152]
	cmp	x12, x15
	csel	w8, wzr, w8, lo
	csel	w8, w9, w8, eq
	mov	w9, #40
	madd	x10, x28, x9, x14
	ldr	x11, [sp, #24]
	madd	x9, x11, x9, x14
	ldr	x11, [x10, #32]
	ldp	q1, q0, [x10]
	str	x11, [x9, #32]
	and	w11, w0, #0xff
	stp	q1, q0, [x9]
	cmp	w11, #1
	csel	w8, w8, w11, eq
	cmp	w8, #0
	stp	x22, x27, [x10]
	stp	x12, x13, [x10, #16]
	ldr	x8, [sp, #32]
	str	x8, [x10, #32]
	cinc	x28, x28, eq
	ldr	x22, [sp, #136]
	mov	x11, x14
	mov	x13, x15
	subs	x8, x28, #1
	ldr	x25, [sp, #80]
	ldr	x26, [sp, #112]
	b.ne	Lunix_path_BB10_2
Lunix_path_BB10_27:
	mov	x9, #0
	b	Lunix_path_BB10_3
Lunix_path_BB10_28:
	ldr	x26, [sp, #112]
	ldr	x12, [sp, #128]
	add	x11, x26, x12
	subs	x8, x24, x22
	b.ne	Lunix_path_BB10_16
	b	Lunix_path_BB10_17
Lunix_path_BB10_29:
	mov	x23, x25
	mov	x25, x20
	ldr	x8, [sp, #168]
Lunix_path_BB10_30:
	sub	x16, x8, #1
	cmp	x28, x16
	ldr	x26, [sp, #112]
	ldr	x22, [sp, #136]
	ldp	x10, x20, [sp, #152]
	mov	x19, x24
	b.hs	Lunix_path_BB10_35
	add	x8, x28, #1
	mov	w9, #40
	madd	x9, x8, x9, x10
	ldp	x11, x13, [x9]
	ldp	x14, x15, [x9, #16]
	ldr	x9, [x9, #32]
	cmp	x8, x16
	stp	x13, x11, [sp, #48]
	stp	x15, x14, [sp, #32]
	stp	x16, x9, [sp, #16]
	str	x12, [sp, #144]
	b.hs	Lunix_path_BB10_34
	mov	w8, #40
	ldr	x9, [sp, #128]
	madd	x8, x28, x8, x9
	ldr	x9, [sp, #8]
	add	x27, x9, x8
	ldr	x8, [sp, #168]
	sub	x8, x8, x28
	sub	x22, x8, #2
Lunix_path_BB10_33:
	add	x0, x20, x25
	mov	x1, x23
	bl	_path_archive.slot.without_dot
	mov	x24, x0
	mov	x26, x1
	ldp	x8, x9, [x27]
	cmp	x19, x9
	csel	x9, x19, x9, lo
	cmp	x9, x8
	csel	x8, x9, x8, lo
	sub	x1, x9, x8
	add	x0, x20, x8
	bl	_path_archive.slot.without_dot
	mov	x2, x0
	mov	x3, x1
	mov	x0, x24
	mov	x1, x26
	bl	_unix_path.compare.compare
	ldp	x8, x9, [x27, #16]
	ldr	x10, [x27, #32]
	cmp	x21, x9
	mov	w9, #2
	csel	w11, wzr, w9, lo
	csinc	w11, w11, wzr, ne
	ldr	x12, [sp, #144]
	cmp	x12, x8
	and	w8, w0, #0xff
	csel	w9, wzr, w9, lo
	csel	w9, w11, w9, eq
	cmp	w8, #1
	csel	w8, w9, w8, eq
	mov	w9, #40
	ldr	x11, [sp, #152]
	madd	x9, x28, x9, x11
	ldr	x11, [x9, #32]
	cmp	w8, #0
	ldp	q1, q0, [x9]
	stur	q1, [x27, #-40]
	stur	q0, [x27, #-24]
	stur	x11, [x27, #-8]
	ldp	q0, q1, [x27]
	str	x10, [x9, #32]
	stp	q0, q1, [x9]
	cinc	x28, x28, ne
	add	x27, x27, #40
	subs	x22, x22, #1
	b.ne	Lunix_path_BB10_33
Lunix_path_BB10_34:
	add	x0, x20, x25
	mov	x1, x23
	bl	_path_archive.slot.without_dot
	mov	x24, x0
	mov	x25, x1
	ldp	x23, x22, [sp, #48]
	cmp	x19, x23
	csel	x8, x19, x23, lo
	cmp	x8, x22
	csel	x9, x8, x22, lo
	sub	x1, x8, x9
	add	x0, x20, x9
	bl	_path_archive.slot.without_dot
	mov	x2, x0
	mov	x3, x1
	mov	x0, x24
	mov	x1, x25
	bl	_unix_path.compare.compare
	ldp	x13, x12, [sp, #32]
	cmp	x21, x13
	mov	w8, #2
	csel	w9, wzr, w8, lo
	csinc	w9, w9, wzr, ne
	ldp	x15, x14, [sp, #144]
	cmp	x15, x12
	csel	w8, wzr, w8, lo
	csel	w8, w9, w8, eq
	mov	w9, #40
	madd	x10, x28, x9, x14
	ldr	x11, [sp, #16]
	madd	x9, x11, x9, x14
	ldr	x11, [x10, #32]
	ldp	q1, q0, [x10]
	str	x11, [x9, #32]
	and	w11, w0, #0xff
	stp	q1, q0, [x9]
	cmp	w11, #1
	csel	w8, w8, w11, eq
	cmp	w8, #0
	stp	x22, x23, [x10]
	stp	x12, x13, [x10, #16]
	ldr	x8, [sp, #24]
	str	x8, [x10, #32]
	cinc	x28, x28, ne
	ldr	x26, [sp, #112]
	ldr	x22, [sp, #136]
	mov	x10, x14
	mov	x12, x15
Lunix_path_BB10_35:
	subs	x8, x28, #1
	ldr	x25, [sp, #80]
	b.eq	Lunix_path_BB10_37
	add	x8, x8, x8, lsl #2
	lsl	x8, x8, #3
	add	x9, x10, x8
	ldp	q0, q1, [x9]
	ldr	x9, [x9, #32]
	str	x9, [x10, #32]
	stp	q0, q1, [x10]
Lunix_path_BB10_37:
	add	x8, x10, x8
	ldr	x9, [sp, #104]
	str	x9, [x8]
	ldr	x9, [sp, #96]
	stp	x9, x12, [x8, #8]
	ldr	x9, [sp, #64]
	stp	x21, x9, [x8, #24]
	stp	x20, x19, [x25]
	ldr	w19, [sp, #124]
	add	x22, x28, x22
	ldr	x8, [sp, #88]
	sub	x23, x8, x22
	cmp	x23, #16
	b.hi	Lunix_path_BB10_4
Lunix_path_BB10_38:
	mov	w8, #40
	madd	x0, x22, x8, x26
	mov	x1, x23
	mov	x2, x25
	ldp	x29, x30, [sp, #400]
	ldp	x20, x19, [sp, #384]
	ldp	x22, x21, [sp, #368]
	ldp	x24, x23, [sp, #352]
	ldp	x26, x25, [sp, #336]
	ldp	x28, x27, [sp, #320]
	add	sp, sp, #416
	b	_core.slice.sort.small.insertion_sort.fd4dfef4a36ac24b.
Lunix_path_BB10_39:
	add	x8, x22, x22, lsl #2
	lsl	x19, x8, #3
	add	x21, x26, x19
	lsr	x8, x23, #1
	sub	x22, x8, #1
Lunix_path_BB10_40:
	add	x0, x26, x19
	mov	x1, x22
	mov	x2, x23
	mov	x3, x25
	bl	_core.slice.sort.heap.sift.fd4dfef4a36ac24b.
	sub	x22, x22, #1
	cmn	x22, #1
	b.ne	Lunix_path_BB10_40
	mov	w8, #40
	madd	x8, x23, x8, x19
	add	x8, x26, x8
	sub	x19, x8, #40
Lunix_path_BB10_42:
	sub	x23, x23, #1
	ldp	q0, q1, [x21]
	ldr	x8, [x21, #32]
	ldr	x9, [x19, #32]
	ldp	q3, q2, [x19]
	stp	q3, q2, [x21]
	str	x9, [x21, #32]
	str	x8, [x19, #32]
	stp	q0, q1, [x19]
	mov	x0, x21
	mov	x1, #0
	mov	x2, x23
	mov	x3, x25
	bl	_core.slice.sort.heap.sift.fd4dfef4a36ac24b.
	sub	x19, x19, #40
	cmp	x23, #1
	b.hi	Lunix_path_BB10_42
	ldp	x29, x30, [sp, #400]
	ldp	x20, x19, [sp, #384]
	ldp	x22, x21, [sp, #368]
	ldp	x24, x23, [sp, #352]
	ldp	x26, x25, [sp, #336]
	ldp	x28, x27, [sp, #320]
	add	sp, sp, #416
	ret
	.p2align	2
; core::slice::sort::heap::sift::<#fd4dfef4a36ac24b>
_core.slice.sort.heap.sift.fd4dfef4a36ac24b.:
	sub	sp, sp, #224
	stp	x28, x27, [sp, #128]
	stp	x26, x25, [sp, #144]
	stp	x24, x23, [sp, #160]
	stp	x22, x21, [sp, #176]
	stp	x20, x19, [sp, #192]
	stp	x29, x30, [sp, #208]
	add	x29, sp, #208
	lsr	x8, x2, #1
	stp	x8, x0, [sp, #16]
	cmp	x1, x8
	b.hs	Lunix_path_BB11_10
	mov	x25, x3
	mov	x21, x2
	mov	x22, x1
	str	x2, [sp, #8]
	b	Lunix_path_BB11_4
Lunix_path_BB11_2:
	ldp	q0, q1, [x27]
	ldr	x8, [x27, #32]
	ldr	x9, [x28, #32]
	ldp	q3, q2, [x28]
	stp	q3, q2, [x27]
	str	x9, [x27, #32]
	str	x8, [x28, #32]
	stp	q0, q1, [x28]
Lunix_path_BB11_3:
	ldr	x8, [sp, #16]
	cmp	x22, x8
	b.hs	Lunix_path_BB11_10
Lunix_path_BB11_4:
	mov	x26, x22
	lsl	x8, x22, #1
	mov	w22, #1
	bfi	x22, x26, #1, #63
	add	x27, x8, #2
	cmp	x27, x21
	b.eq	Lunix_path_BB11_6
	mov	x21, x25
	ldp	x28, x25, [x25]
	mov	w8, #40
	ldr	x9, [sp, #24]
	madd	x20, x22, x8, x9
	madd	x19, x27, x8, x9
	ldp	x8, x9, [x20]
	cmp	x25, x9
	csel	x9, x25, x9, lo
	cmp	x9, x8
	csel	x8, x9, x8, lo
	sub	x1, x9, x8
	add	x0, x28, x8
	bl	_path_archive.slot.without_dot
	mov	x23, x0
	mov	x24, x1
	ldp	x8, x9, [x19]
	cmp	x25, x9
	csel	x9, x25, x9, lo
	mov	x25, x21
	ldr	x21, [sp, #8]
	cmp	x9, x8
	csel	x8, x9, x8, lo
	sub	x1, x9, x8
	add	x0, x28, x8
	bl	_path_archive.slot.without_dot
	mov	x2, x0
	mov	x3, x1
	mov	x0, x23
	mov	x1, x24
	bl	_unix_path.compare.compare
	and	w8, w0, #0xff
	ldp	x9, x10, [x20, #16]
	ldp	x11, x12, [x19, #16]
	cmp	x10, x12
	mov	w10, #2
	csel	w12, wzr, w10, lo
	csinc	w12, w12, wzr, ne
	cmp	x9, x11
	csel	w9, wzr, w10, lo
	csel	w9, w12, w9, eq
	cmp	w8, #1
	csel	w8, w9, w8, eq
	cmp	w8, #0
	csel	x22, x27, x22, eq
Lunix_path_BB11_6:
	ldp	x19, x20, [x25]
	mov	w8, #40
	ldr	x9, [sp, #24]
	madd	x27, x26, x8, x9
	madd	x28, x22, x8, x9
	ldp	x8, x9, [x27]
	cmp	x20, x9
	csel	x9, x20, x9, lo
	cmp	x9, x8
	csel	x8, x9, x8, lo
	sub	x1, x9, x8
	add	x0, x19, x8
	bl	_path_archive.slot.without_dot
	mov	x23, x0
	mov	x24, x1
	ldp	x8, x9, [x28]
	cmp	x20, x9
	csel	x9, x20, x9, lo
	cmp	x9, x8
	csel	x8, x9, x8, lo
	sub	x1, x9, x8
	add	x0, x19, x8
	bl	_path_archive.slot.without_dot
	mov	x2, x0
	mov	x3, x1
	mov	x0, x23
	mov	x1, x24
	bl	_unix_path.compare.compare
	and	w8, w0, #0xff
	ldp	x9, x10, [x27, #16]
	ldp	x11, x12, [x28, #16]
	cmp	x10, x12
	mov	w10, #2
	csel	w12, wzr, w10, lo
	csinc	w12, w12, wzr, ne
	cmp	x9, x11
	csel	w9, wzr, w10, lo
	csel	w9, w12, w9, eq
	cmp	w8, #1
	csel	w8, w9, w8, eq
	cbnz	w8, Lunix_path_BB11_10
	cmp	x26, x22
	b.lo	Lunix_path_BB11_2
	cmp	x22, x26
	b.hs	Lunix_path_BB11_3
	ldp	q0, q1, [x28]
	ldr	x8, [x28, #32]
	ldr	x9, [x27, #32]
	ldp	q3, q2, [x27]
	stp	q3, q2, [x28]
	str	x9, [x28, #32]
	str	x8, [x27, #32]
	stp	q0, q1, [x27]
	b	Lunix_path_BB11_3
Lunix_path_BB11_10:
	ldp	x29, x30, [sp, #208]
	ldp	x20, x19, [sp, #192]
	ldp	x22, x21, [sp, #176]
	ldp	x24, x23, [sp, #160]
	ldp	x26, x25, [sp, #144]
	ldp	x28, x27, [sp, #128]
	add	sp, sp, #224
	ret
	.p2align	2
; core::slice::sort::pivot::median_of_three::<#fd4dfef4a36ac24b>
_core.slice.sort.pivot.median_of_three.fd4dfef4a36ac24b.:
	sub	sp, sp, #128
	stp	x28, x27, [sp, #32]
	stp	x26, x25, [sp, #48]
	stp	x24, x23, [sp, #64]
	stp	x22, x21, [sp, #80]
	stp	x20, x19, [sp, #96]
	stp	x29, x30, [sp, #112]
	add	x29, sp, #112
	mov	x21, x4
	mov	x27, x3
	str	x1, [sp, #24]
	mov	x23, x0
	ldp	x19, x20, [x4]
	mov	w8, #40
	madd	x28, x1, x8, x0
	str	x2, [sp, #8]
	madd	x26, x2, x8, x0
	ldp	x8, x9, [x28]
	cmp	x20, x9
	csel	x9, x20, x9, lo
	cmp	x9, x8
	csel	x8, x9, x8, lo
	sub	x1, x9, x8
	add	x0, x19, x8
	bl	_path_archive.slot.without_dot
	mov	x24, x0
	mov	x25, x1
	ldp	x8, x9, [x26]
	cmp	x20, x9
	csel	x9, x20, x9, lo
	cmp	x9, x8
	csel	x8, x9, x8, lo
	sub	x1, x9, x8
	add	x0, x19, x8
	bl	_path_archive.slot.without_dot
	mov	x2, x0
	mov	x3, x1
	mov	x0, x24
	mov	x1, x25
	bl	_unix_path.compare.compare
	and	w8, w0, #0xff
	ldp	x9, x10, [x28, #16]
	ldp	x11, x12, [x26, #16]
	cmp	x10, x12
	mov	w12, #2
	csel	w10, wzr, w12, lo
	csinc	w10, w10, wzr, ne
	cmp	x9, x11
	csel	w9, wzr, w12, lo
	csel	w9, w10, w9, eq
	cmp	w8, #1
	csel	w19, w9, w8, eq
	cmp	w19, #0
	cset	w20, eq
	ldp	x25, x22, [x21]
	str	x27, [sp, #16]
	mov	w8, #40
	madd	x27, x27, x8, x23
	ldp	x8, x9, [x28]
	cmp	x22, x9
	csel	x9, x22, x9, lo
	cmp	x9, x8
	csel	x8, x9, x8, lo
	sub	x1, x9, x8
	add	x0, x25, x8
	bl	_path_archive.slot.without_dot
	mov	x23, x0
	mov	x24, x1
	ldp	x8, x9, [x27]
	cmp	x22, x9
	csel	x9, x22, x9, lo
	cmp	x9, x8
	csel	x8, x9, x8, lo
	sub	x1, x9, x8
	add	x0, x25, x8
	bl	_path_archive.slot.without_dot
	mov	x2, x0
	mov	x3, x1
	mov	x0, x23
	mov	x1, x24
	mov	w24, #2
	bl	_unix_path.compare.compare
	and	w8, w0, #0xff
	ldr	x0, [sp, #24]
	ldp	x9, x10, [x28, #16]
	ldp	x11, x12, [x27, #16]
	cmp	x10, x12
	csel	w10, wzr, w24, lo
	csinc	w10, w10, wzr, ne
	cmp	x9, x11
	csel	w9, wzr, w24, lo
	csel	w9, w10, w9, eq
	cmp	w8, #1
	csel	w8, w9, w8, eq
	cmp	w8, #0
	cset	w8, eq
	cmp	w20, w8
	b.ne	Lunix_path_BB12_2
	cmp	w19, #0
	cset	w19, eq
	ldp	x20, x23, [x21]
	ldp	x8, x9, [x26]
	cmp	x23, x9
	csel	x9, x23, x9, lo
	cmp	x9, x8
	csel	x8, x9, x8, lo
	sub	x1, x9, x8
	add	x0, x20, x8
	bl	_path_archive.slot.without_dot
	mov	x21, x0
	mov	x22, x1
	ldp	x8, x9, [x27]
	cmp	x23, x9
	csel	x9, x23, x9, lo
	cmp	x9, x8
	csel	x8, x9, x8, lo
	sub	x1, x9, x8
	add	x0, x20, x8
	bl	_path_archive.slot.without_dot
	mov	x2, x0
	mov	x3, x1
	mov	x0, x21
	mov	x1, x22
	bl	_unix_path.compare.compare
	and	w8, w0, #0xff
	ldp	x9, x10, [x26, #16]
	ldp	x11, x12, [x27, #16]
	cmp	x10, x12
	csel	w10, wzr, w24, lo
	csinc	w10, w10, wzr, ne
	cmp	x9, x11
	csel	w9, wzr, w24, lo
	csel	w9, w10, w9, eq
	cmp	w8, #1
	csel	w8, w9, w8, eq
	cmp	w8, #0
	cset	w8, eq
	eor	w8, w19, w8
	cmp	w8, #0
	ldp	x9, x8, [sp, #8]
	csel	x0, x8, x9, ne
Lunix_path_BB12_2:
	ldp	x29, x30, [sp, #112]
	ldp	x20, x19, [sp, #96]
	ldp	x22, x21, [sp, #80]
	ldp	x24, x23, [sp, #64]
	ldp	x26, x25, [sp, #48]
	ldp	x28, x27, [sp, #32]
	add	sp, sp, #128
	ret
	.p2align	2
; core::slice::sort::pivot::median_of_medians::<#fd4dfef4a36ac24b>
_core.slice.sort.pivot.median_of_medians.fd4dfef4a36ac24b.:
	cmp	x4, #7
	b.hi	Lunix_path_BB13_2
	mov	x4, x5
	b	_core.slice.sort.pivot.median_of_three.fd4dfef4a36ac24b.
Lunix_path_BB13_2:
	stp	x26, x25, [sp, #-80]!
	stp	x24, x23, [sp, #16]
	stp	x22, x21, [sp, #32]
	stp	x20, x19, [sp, #48]
	stp	x29, x30, [sp, #64]
	add	x29, sp, #64
	lsr	x19, x4, #3
	lsl	x25, x19, #2
	lsl	x8, x19, #3
	sub	x26, x8, x19
	mov	x20, x2
	add	x2, x25, x1
	mov	x21, x3
	add	x3, x26, x1
	mov	x22, x0
	mov	x4, x19
	mov	x23, x5
	bl	_core.slice.sort.pivot.median_of_medians.fd4dfef4a36ac24b.
	mov	x24, x0
	add	x2, x25, x20
	add	x3, x26, x20
	mov	x0, x22
	mov	x1, x20
	mov	x4, x19
	mov	x5, x23
	bl	_core.slice.sort.pivot.median_of_medians.fd4dfef4a36ac24b.
	mov	x20, x0
	add	x2, x25, x21
	add	x3, x26, x21
	mov	x0, x22
	mov	x1, x21
	mov	x4, x19
	mov	x5, x23
	bl	_core.slice.sort.pivot.median_of_medians.fd4dfef4a36ac24b.
	mov	x3, x0
	mov	x0, x22
	mov	x1, x24
	mov	x2, x20
	mov	x4, x23
	ldp	x29, x30, [sp, #64]
	ldp	x20, x19, [sp, #48]
	ldp	x22, x21, [sp, #32]
	ldp	x24, x23, [sp, #16]
	ldp	x26, x25, [sp], #80
	b	_core.slice.sort.pivot.median_of_three.fd4dfef4a36ac24b.
	.p2align	2
; core::slice::edits::mirror::<24'path_archive::slot::Slot>
_core.slice.edits.mirror.24.path_archive.slot.Slot.:
	sub	sp, sp, #48
	mov	w8, #40
	madd	x8, x2, x8, x1
	sub	x8, x8, #40
Lunix_path_BB14_1:
	ldp	q0, q1, [x0]
	ldr	x9, [x0, #32]
	ldr	x10, [x8, #32]
	ldp	q3, q2, [x8]
	stp	q3, q2, [x0]
	str	x10, [x0, #32]
	str	x9, [x8, #32]
	stp	q0, q1, [x8]
	sub	x8, x8, #40
	add	x0, x0, #40
	sub	x2, x2, #1
	cbnz	x2, Lunix_path_BB14_1
	add	sp, sp, #48
	ret
	.section	__TEXT,__literal16,16byte_literals
	.p2align	4, 0x0
lunix_path_CPI15_0:
	.byte	1
	.byte	2
	.byte	4
	.byte	8
	.byte	16
	.byte	32
	.byte	64
	.byte	128
	.byte	1
	.byte	2
	.byte	4
	.byte	8
	.byte	16
	.byte	32
	.byte	64
	.byte	128
	.section	__TEXT,__literal8,8byte_literals
	.p2align	3, 0x0
lunix_path_CPI15_1:
	.byte	1
	.byte	2
	.byte	4
	.byte	8
	.byte	16
	.byte	32
	.byte	64
	.byte	128
	.section	__TEXT,__text,regular,pure_instructions
	.p2align	2
; path_archive::outlined::starts_with
_path_archive.outlined.starts_with:
	cbz	x3, Lunix_path_BB15_17
	sub	sp, sp, #48
	stp	x29, x30, [sp, #32]
	add	x29, sp, #32
	stp	xzr, xzr, [sp, #8]
	str	xzr, [sp, #24]
	cmp	x3, x1
	csel	x9, x3, x1, lo
	cmp	x9, #15
	b.hi	Lunix_path_BB15_18
	cmp	x9, #7
	b.hi	Lunix_path_BB15_23
	cbz	x1, Lunix_path_BB15_45
	ldrb	w8, [x0]
	ldrb	w10, [x2]
	cmp	w8, w10
	b.ne	Lunix_path_BB15_46
	cmp	x9, #1
	b.eq	Lunix_path_BB15_33
	ldrb	w8, [x0, #1]
	ldrb	w10, [x2, #1]
	cmp	w8, w10
	b.ne	Lunix_path_BB15_59
	cmp	x9, #2
	b.eq	Lunix_path_BB15_33
	ldrb	w8, [x0, #2]
	ldrb	w10, [x2, #2]
	cmp	w8, w10
	b.ne	Lunix_path_BB15_60
	cmp	x9, #3
	b.eq	Lunix_path_BB15_33
	ldrb	w8, [x0, #3]
	ldrb	w10, [x2, #3]
	cmp	w8, w10
	b.ne	Lunix_path_BB15_61
	cmp	x9, #4
	b.eq	Lunix_path_BB15_33
	ldrb	w8, [x0, #4]
	ldrb	w10, [x2, #4]
	cmp	w8, w10
	b.ne	Lunix_path_BB15_62
	cmp	x9, #5
	b.eq	Lunix_path_BB15_33
	ldrb	w8, [x0, #5]
	ldrb	w10, [x2, #5]
	cmp	w8, w10
	b.ne	Lunix_path_BB15_63
	cmp	x9, #6
	b.eq	Lunix_path_BB15_33
	ldrb	w8, [x0, #6]
	ldrb	w10, [x2, #6]
	cmp	w8, w10
	mov	w8, #6
	csel	x9, x9, x8, eq
	b	Lunix_path_BB15_33
Lunix_path_BB15_17:
	mov	w0, #1
	ret
Lunix_path_BB15_18:
	sub	x8, x9, #16
	adrp	x10, lunix_path_CPI15_0@PAGE
	cmp	x9, #64
	b.lo	Lunix_path_BB15_25
	mov	x11, #0
	and	x12, x9, #0xffffffffffffffc0
Lunix_path_BB15_20:
	add	x13, x0, x11
	ldp	q0, q1, [x13]
	ldp	q2, q3, [x13, #32]
	add	x13, x2, x11
	ldp	q4, q5, [x13]
	ldp	q6, q7, [x13, #32]
	cmeq.16b	v3, v3, v7
	cmeq.16b	v2, v2, v6
	cmeq.16b	v1, v1, v5
	cmeq.16b	v0, v0, v4
	ldr	q4, [x10, lunix_path_CPI15_0@PAGEOFF]
	bic.16b	v0, v4, v0
	bic.16b	v1, v4, v1
	bic.16b	v2, v4, v2
	bic.16b	v3, v4, v3
	addp.16b	v0, v0, v1
	addp.16b	v1, v2, v3
	addp.16b	v0, v0, v1
	addp.16b	v0, v0, v0
	fmov	x13, d0
	cbnz	x13, Lunix_path_BB15_28
	add	x11, x11, #64
	sub	x9, x9, #64
	cmp	x9, #63
	b.hi	Lunix_path_BB15_20
	mov	x11, x12
	b	Lunix_path_BB15_28
Lunix_path_BB15_23:
	ldr	d0, [x0]
	ldr	d1, [x2]
	cmeq.8b	v1, v0, v1
Lunix_path_loh18:
	adrp	x8, lunix_path_CPI15_1@PAGE
Lunix_path_loh19:
	ldr	d0, [x8, lunix_path_CPI15_1@PAGEOFF]
	bic.8b	v1, v0, v1
	addv.8b	b1, v1
	fmov	w8, s1
	orr	w8, w8, #0x100
	rbit	w8, w8
	clz	w8, w8
	cmp	w8, #8
	b.hs	Lunix_path_BB15_31
	mov	x9, x8
	b	Lunix_path_BB15_33
Lunix_path_BB15_25:
	mov	x11, #0
	b	Lunix_path_BB15_28
Lunix_path_BB15_26:
	ldr	q0, [x0, x11]
	ldr	q1, [x2, x11]
	cmeq.16b	v0, v0, v1
	ldr	q1, [x10, lunix_path_CPI15_0@PAGEOFF]
	bic.16b	v0, v1, v0
	addp.16b	v0, v0, v0
	addp.16b	v0, v0, v0
	addp.16b	v0, v0, v0
	umov.h	w9, v0[0]
	orr	w9, w9, #0x10000
	rbit	w9, w9
	clz	w9, w9
	cmp	w9, #15
	b.ls	Lunix_path_BB15_30
	add	x11, x11, #16
Lunix_path_BB15_28:
	cmp	x11, x8
	b.lo	Lunix_path_BB15_26
	ldr	q0, [x0, x8]
	ldr	q1, [x2, x8]
	cmeq.16b	v0, v0, v1
	ldr	q1, [x10, lunix_path_CPI15_0@PAGEOFF]
	bic.16b	v0, v1, v0
	addp.16b	v0, v0, v0
	addp.16b	v0, v0, v0
	addp.16b	v0, v0, v0
	umov.h	w9, v0[0]
	orr	w9, w9, #0x10000
	b	Lunix_path_BB15_32
Lunix_path_BB15_30:
	add	x9, x11, w9, uxtw
	b	Lunix_path_BB15_33
Lunix_path_BB15_31:
	sub	x8, x9, #8
	ldr	d1, [x0, x8]
	ldr	d2, [x2, x8]
	cmeq.8b	v1, v1, v2
	bic.8b	v0, v0, v1
	addv.8b	b0, v0
	fmov	w9, s0
	orr	w9, w9, #0x100
Lunix_path_BB15_32:
	rbit	w9, w9
	clz	w9, w9
	add	x9, x8, x9
Lunix_path_BB15_33:
	cmp	x3, x9
	b.ls	Lunix_path_BB15_39
	mov	w8, #1
	cmp	x9, x1
	b.hs	Lunix_path_BB15_48
Lunix_path_BB15_35:
	ldrb	w10, [x0, x9]
	cmp	w10, #47
	b.eq	Lunix_path_BB15_48
	cmp	w10, #46
	eor	w11, w8, #0x1
	csinc	w11, w11, wzr, ne
	tbnz	w11, #0, Lunix_path_BB15_38
	ldrb	w11, [x2, x9]
	and	w11, w11, #0xfe
	cmp	w11, #46
	b.ne	Lunix_path_BB15_58
Lunix_path_BB15_38:
	add	w10, w10, #1
	cbnz	w8, Lunix_path_BB15_49
	b	Lunix_path_BB15_50
Lunix_path_BB15_39:
	cmp	x3, x1
	b.hs	Lunix_path_BB15_44
	add	x8, x0, x3
	ldrb	w10, [x8]
	cmp	w10, #47
	b.ne	Lunix_path_BB15_43
	mov	w8, #1
Lunix_path_BB15_42:
	ldp	x29, x30, [sp, #32]
	add	sp, sp, #48
	mov	x0, x8
	ret
Lunix_path_BB15_43:
	ldurb	w8, [x8, #-1]
	cmp	w8, #47
	b.ne	Lunix_path_BB15_47
Lunix_path_BB15_44:
	mov	w8, #1
	ldp	x29, x30, [sp, #32]
	add	sp, sp, #48
	mov	x0, x8
	ret
Lunix_path_BB15_45:
	mov	x9, #0
	mov	w8, #1
	cmp	x9, x1
	b.hs	Lunix_path_BB15_48
	b	Lunix_path_BB15_35
Lunix_path_BB15_46:
	mov	x9, #0
	b	Lunix_path_BB15_33
Lunix_path_BB15_47:
	mov	w8, #0
	cmp	x9, x1
	b.lo	Lunix_path_BB15_35
Lunix_path_BB15_48:
	mov	w10, #0
	cbz	w8, Lunix_path_BB15_50
Lunix_path_BB15_49:
	ldrb	w8, [x2, x9]
	cmp	w8, #47
	csinc	w8, wzr, w8, eq
Lunix_path_BB15_50:
	cmp	w10, w8
	b.ne	Lunix_path_BB15_52
	cbnz	x9, Lunix_path_BB15_54
	b	Lunix_path_BB15_58
Lunix_path_BB15_52:
	cbz	x9, Lunix_path_BB15_58
	add	x8, x0, x9
	ldurb	w10, [x8, #-1]
	cmp	w10, #47
	b.ne	Lunix_path_BB15_55
Lunix_path_BB15_54:
	sub	x8, x1, x9
	sub	x4, x3, x9
	mov	x10, x0
	add	x0, sp, #8
	add	x1, x10, x9
	add	x3, x2, x9
	mov	x2, x8
	bl	_unix_path.pair.Comparison.rest_after_cut
	ldrb	w8, [sp, #8]
	cmp	w8, #1
	cset	w8, eq
	ldp	x29, x30, [sp, #32]
	add	sp, sp, #48
	mov	x0, x8
	ret
Lunix_path_BB15_55:
	mov	w8, #0
	subs	x9, x9, #1
	b.eq	Lunix_path_BB15_42
	cmp	w10, #46
	b.ne	Lunix_path_BB15_42
	add	x8, x0, x9
	ldurb	w8, [x8, #-1]
	cmp	w8, #47
	b.eq	Lunix_path_BB15_54
Lunix_path_BB15_58:
	mov	w8, #0
	ldp	x29, x30, [sp, #32]
	add	sp, sp, #48
	mov	x0, x8
	ret
Lunix_path_BB15_59:
	mov	w9, #1
	b	Lunix_path_BB15_33
Lunix_path_BB15_60:
	mov	w9, #2
	b	Lunix_path_BB15_33
Lunix_path_BB15_61:
	mov	w9, #3
	b	Lunix_path_BB15_33
Lunix_path_BB15_62:
	mov	w9, #4
	b	Lunix_path_BB15_33
Lunix_path_BB15_63:
	mov	w9, #5
	b	Lunix_path_BB15_33
	.loh AdrpLdr	Lunix_path_loh18, Lunix_path_loh19
	.section	__TEXT,__literal16,16byte_literals
	.p2align	4, 0x0
lunix_path_CPI16_0:
	.byte	1
	.byte	2
	.byte	4
	.byte	8
	.byte	16
	.byte	32
	.byte	64
	.byte	128
	.byte	1
	.byte	2
	.byte	4
	.byte	8
	.byte	16
	.byte	32
	.byte	64
	.byte	128
	.section	__TEXT,__literal8,8byte_literals
	.p2align	3, 0x0
lunix_path_CPI16_1:
	.byte	1
	.byte	2
	.byte	4
	.byte	8
	.byte	16
	.byte	32
	.byte	64
	.byte	128
	.section	__TEXT,__text,regular,pure_instructions
	.p2align	2
; path_archive::outlined::has_root_or_parent_dir
_path_archive.outlined.has_root_or_parent_dir:
	cbz	x1, Lunix_path_BB16_4
	stp	x22, x21, [sp, #-48]!
	stp	x20, x19, [sp, #16]
	stp	x29, x30, [sp, #32]
	add	x29, sp, #32
	mov	x19, x0
	ldrb	w8, [x0]
	cmp	w8, #47
	b.ne	Lunix_path_BB16_5
	mov	w0, #1
Lunix_path_BB16_3:
	ldp	x29, x30, [sp, #32]
	ldp	x20, x19, [sp, #16]
	ldp	x22, x21, [sp], #48
	ret
Lunix_path_BB16_4:
	mov	w0, #0
	ret
Lunix_path_BB16_5:
	mov	x20, x1
	ldrb	w8, [x19]
	adrp	x21, lunix_path_CPI16_0@PAGE
	cmp	w8, #47
	b.eq	Lunix_path_BB16_46
	cmp	w8, #46
	b.ne	Lunix_path_BB16_12
	cmp	x20, #1
	b.eq	Lunix_path_BB16_46
	ldrb	w8, [x19, #1]
	cmp	w8, #47
	b.eq	Lunix_path_BB16_43
	cmp	w8, #46
	b.ne	Lunix_path_BB16_12
	cmp	x20, #2
	b.eq	Lunix_path_BB16_43
	ldrb	w8, [x19, #2]
	cmp	w8, #47
	b.eq	Lunix_path_BB16_43
Lunix_path_BB16_12:
	add	x10, x19, x20
	ldurb	w8, [x10, #-1]
	and	w8, w8, #0xfe
	cmp	w8, #46
	b.eq	Lunix_path_BB16_43
	subs	x8, x20, #17
	b.hs	Lunix_path_BB16_16
Lunix_path_BB16_14:
	cmp	x20, #9
	b.hs	Lunix_path_BB16_24
	mov	x8, #0
	b	Lunix_path_BB16_40
Lunix_path_BB16_16:
	cmp	x20, #32
	b.hi	Lunix_path_BB16_26
	ldr	q1, [x19]
	ldur	q2, [x19, #1]
	movi.16b	v0, #208
	and.16b	v2, v2, v0
	orr.16b	v2, v2, v1
	movi.16b	v1, #47
	cmeq.16b	v3, v2, v1
	ldr	q2, [x21, lunix_path_CPI16_0@PAGEOFF]
	and.16b	v3, v3, v2
	addp.16b	v3, v3, v3
	addp.16b	v3, v3, v3
	addp.16b	v3, v3, v3
	umov.h	w9, v3[0]
	cbnz	w9, Lunix_path_BB16_19
	ldur	q3, [x10, #-17]
	ldur	q4, [x10, #-16]
	and.16b	v0, v4, v0
	orr.16b	v0, v0, v3
	cmeq.16b	v0, v0, v1
	and.16b	v0, v0, v2
	addp.16b	v0, v0, v0
	addp.16b	v0, v0, v0
	addp.16b	v0, v0, v0
	umov.h	w9, v0[0]
	cbz	w9, Lunix_path_BB16_42
Lunix_path_BB16_19:
	cmp	x20, #18
	b.ls	Lunix_path_BB16_14
	subs	x9, x20, #19
	b.ne	Lunix_path_BB16_28
	mov	x10, #0
Lunix_path_BB16_22:
	cmp	x8, x10
	csel	x8, x8, x10, lo
	add	x10, x19, x8
	ldr	q0, [x10]
	ldur	q1, [x10, #1]
	movi.16b	v2, #208
	and.16b	v1, v1, v2
	orr.16b	v1, v1, v0
	movi.16b	v0, #47
	cmeq.16b	v2, v1, v0
	ldr	q1, [x21, lunix_path_CPI16_0@PAGEOFF]
	and.16b	v2, v2, v1
	addp.16b	v2, v2, v2
	addp.16b	v2, v2, v2
	addp.16b	v2, v2, v2
	umov.h	w10, v2[0]
	cbz	w10, Lunix_path_BB16_39
	add	x8, x19, x9
	ldr	q2, [x8]
	ldur	q3, [x8, #1]
	ldur	q4, [x8, #2]
	ldur	q5, [x8, #3]
	movi.16b	v6, #46
	cmeq.16b	v7, v4, v6
	cmeq.16b	v5, v5, v0
	and.16b	v5, v7, v5
	cmeq.16b	v6, v3, v6
	cmeq.16b	v4, v4, v0
	orr.16b	v4, v4, v5
	and.16b	v4, v6, v4
	cmeq.16b	v2, v2, v0
	cmeq.16b	v0, v3, v0
	orr.16b	v0, v0, v4
	and.16b	v1, v2, v1
	and.16b	v0, v1, v0
	addp.16b	v0, v0, v0
	addp.16b	v0, v0, v0
	addp.16b	v0, v0, v0
	umov.h	w8, v0[0]
	orr	w8, w8, #0x10000
	rbit	w8, w8
	clz	w8, w8
	add	x8, x9, x8
	b	Lunix_path_BB16_40
Lunix_path_BB16_24:
	ldr	d3, [x19]
	ldur	d1, [x19, #1]
	movi.8b	v0, #254
	and.8b	v2, v1, v0
	movi.8b	v1, #46
	cmeq.8b	v4, v2, v1
	movi.8b	v2, #47
	cmeq.8b	v5, v3, v2
Lunix_path_loh20:
	adrp	x8, lunix_path_CPI16_1@PAGE
Lunix_path_loh21:
	ldr	d3, [x8, lunix_path_CPI16_1@PAGEOFF]
	and.8b	v5, v5, v3
	and.8b	v4, v5, v4
	addv.8b	b4, v4
	fmov	w8, s4
	orr	w8, w8, #0x100
	rbit	w8, w8
	clz	w8, w8
	cmp	w8, #8
	b.lo	Lunix_path_BB16_40
	mov	w8, #17
	cmp	x20, #17
	csel	x8, x20, x8, lo
	sub	x8, x8, #9
	add	x9, x19, x8
	ldr	d4, [x9]
	ldur	d5, [x9, #1]
	and.8b	v0, v5, v0
	cmeq.8b	v0, v0, v1
	cmeq.8b	v1, v4, v2
	and.8b	v1, v1, v3
	and.8b	v0, v1, v0
	addv.8b	b0, v0
	fmov	w9, s0
	orr	w9, w9, #0x100
	rbit	w9, w9
	clz	w9, w9
	add	x8, x8, x9
	b	Lunix_path_BB16_40
Lunix_path_BB16_26:
	sub	x9, x20, #33
	add	x11, x19, x9
	ldr	q0, [x11]
	ldur	q1, [x11, #1]
	movi.16b	v2, #208
	and.16b	v1, v1, v2
	orr.16b	v0, v1, v0
	movi.16b	v1, #47
	cmeq.16b	v3, v0, v1
	ldr	q0, [x21, lunix_path_CPI16_0@PAGEOFF]
	and.16b	v3, v3, v0
	addp.16b	v3, v3, v3
	addp.16b	v3, v3, v3
	addp.16b	v3, v3, v3
	ldur	q4, [x10, #-17]
	ldur	q5, [x10, #-16]
	and.16b	v2, v5, v2
	orr.16b	v2, v2, v4
	cmeq.16b	v1, v2, v1
	and.16b	v1, v1, v0
	addp.16b	v1, v1, v1
	addp.16b	v1, v1, v1
	addp.16b	v1, v1, v1
	orr.16b	v1, v1, v3
	umov.h	w10, v1[0]
	cbz	w10, Lunix_path_BB16_35
	sub	x9, x20, #19
Lunix_path_BB16_28:
	mov	x10, #0
	b	Lunix_path_BB16_32
Lunix_path_BB16_29:
	ldur	q4, [x11, #2]
	ldur	q5, [x11, #3]
	movi.16b	v6, #46
	cmeq.16b	v7, v4, v6
	cmeq.16b	v5, v5, v2
	and.16b	v5, v7, v5
	cmeq.16b	v6, v1, v6
	cmeq.16b	v4, v4, v2
	orr.16b	v4, v4, v5
	and.16b	v4, v6, v4
	cmeq.16b	v0, v0, v2
	cmeq.16b	v1, v1, v2
	orr.16b	v1, v1, v4
	and.16b	v0, v0, v3
	and.16b	v0, v0, v1
	addp.16b	v0, v0, v0
	addp.16b	v0, v0, v0
	addp.16b	v0, v0, v0
	umov.h	w11, v0[0]
	orr	w11, w11, #0x10000
	rbit	w11, w11
	clz	w11, w11
	cmp	w11, #15
	b.ls	Lunix_path_BB16_34
	add	x10, x10, #16
Lunix_path_BB16_31:
	cmp	x10, x9
	b.hs	Lunix_path_BB16_22
Lunix_path_BB16_32:
	add	x11, x19, x10
	ldr	q0, [x11]
	ldur	q1, [x11, #1]
	movi.16b	v2, #208
	and.16b	v2, v1, v2
	orr.16b	v3, v2, v0
	movi.16b	v2, #47
	cmeq.16b	v4, v3, v2
	ldr	q3, [x21, lunix_path_CPI16_0@PAGEOFF]
	and.16b	v4, v4, v3
	addp.16b	v4, v4, v4
	addp.16b	v4, v4, v4
	addp.16b	v4, v4, v4
	umov.h	w12, v4[0]
	cbnz	w12, Lunix_path_BB16_29
	add	x10, x10, #16
	cmp	x10, x9
	b.lo	Lunix_path_BB16_32
	b	Lunix_path_BB16_31
Lunix_path_BB16_34:
	add	x8, x10, w11, uxtw
	b	Lunix_path_BB16_40
Lunix_path_BB16_35:
	cbz	x9, Lunix_path_BB16_42
	mov	x10, #0
	add	x11, x19, #17
Lunix_path_BB16_37:
	ldur	q1, [x11, #-17]
	ldp	q2, q5, [x11, #-16]
	movi.16b	v3, #208
	and.16b	v2, v2, v3
	orr.16b	v1, v2, v1
	movi.16b	v2, #47
	cmeq.16b	v1, v1, v2
	and.16b	v1, v1, v0
	addp.16b	v1, v1, v1
	addp.16b	v1, v1, v1
	addp.16b	v1, v1, v1
	ldur	q4, [x11, #-1]
	and.16b	v3, v5, v3
	orr.16b	v3, v3, v4
	cmeq.16b	v2, v3, v2
	and.16b	v2, v2, v0
	addp.16b	v2, v2, v2
	addp.16b	v2, v2, v2
	addp.16b	v2, v2, v2
	orr.16b	v1, v2, v1
	umov.h	w12, v1[0]
	cbnz	w12, Lunix_path_BB16_19
	mov	w0, #0
	add	x11, x11, #32
	add	x10, x10, #32
	cmp	x10, x9
	b.lo	Lunix_path_BB16_37
	b	Lunix_path_BB16_3
Lunix_path_BB16_39:
	add	x8, x8, #16
Lunix_path_BB16_40:
	cmp	x8, x20
	b.lo	Lunix_path_BB16_98
Lunix_path_BB16_41:
	cmp	x8, x20
	b.ne	Lunix_path_BB16_43
Lunix_path_BB16_42:
	mov	w0, #0
	ldp	x29, x30, [sp, #32]
	ldp	x20, x19, [sp, #16]
	ldp	x22, x21, [sp], #48
	ret
Lunix_path_BB16_43:
	ldrb	w8, [x19]
	cmp	w8, #47
	b.eq	Lunix_path_BB16_46
	cmp	w8, #46
	b.ne	Lunix_path_BB16_104
	cmp	x20, #1
	b.ne	Lunix_path_BB16_105
Lunix_path_BB16_46:
	mov	w22, #1
Lunix_path_BB16_47:
	mov	x8, x20
	b	Lunix_path_BB16_49
Lunix_path_BB16_48:
	mov	x8, x1
	cbz	x1, Lunix_path_BB16_42
Lunix_path_BB16_49:
	subs	x1, x8, #1
	b.eq	Lunix_path_BB16_55
	add	x9, x19, x1
	ldrb	w10, [x9]
	cmp	w10, #47
	b.eq	Lunix_path_BB16_53
	cmp	w10, #46
	b.ne	Lunix_path_BB16_55
	ldurb	w9, [x9, #-1]
	cmp	w9, #47
	b.ne	Lunix_path_BB16_55
Lunix_path_BB16_53:
	sub	x8, x20, x1
	cmp	x8, #8
	b.ne	Lunix_path_BB16_48
	mov	x0, x19
	bl	_unix_path.filler.trimmed_blocks_len
	mov	x1, x0
	b	Lunix_path_BB16_48
Lunix_path_BB16_55:
	mov	x9, #0
	mov	x11, x8
	mov	x10, x19
	b	Lunix_path_BB16_59
Lunix_path_BB16_56:
	mov	x11, #0
Lunix_path_BB16_57:
	add	x11, x11, x12
Lunix_path_BB16_58:
	mov	w22, #0
	mov	w0, #0
	add	x9, x11, x9
	add	x10, x19, x9
	subs	x11, x8, x9
	b.eq	Lunix_path_BB16_3
Lunix_path_BB16_59:
	tbz	w22, #0, Lunix_path_BB16_67
	subs	x13, x11, #1
	b.eq	Lunix_path_BB16_91
	mov	x12, #0
	sub	x11, x11, #2
	b	Lunix_path_BB16_63
Lunix_path_BB16_62:
	add	x12, x12, #1
	cmp	x13, x12
	b.eq	Lunix_path_BB16_89
Lunix_path_BB16_63:
	add	x14, x10, x12
	ldrb	w14, [x14, #1]
	cmp	w14, #47
	b.eq	Lunix_path_BB16_62
	cmp	w14, #46
	b.ne	Lunix_path_BB16_90
	cmp	x11, x12
	b.eq	Lunix_path_BB16_89
	add	x14, x10, x12
	ldrb	w14, [x14, #2]
	cmp	w14, #47
	b.eq	Lunix_path_BB16_62
	b	Lunix_path_BB16_90
Lunix_path_BB16_67:
	cmp	x11, #1
	b.eq	Lunix_path_BB16_72
	ldrb	w12, [x10]
	cmp	w12, #46
	b.ne	Lunix_path_BB16_72
	ldrb	w12, [x10, #1]
	cmp	w12, #46
	b.ne	Lunix_path_BB16_72
	cmp	x11, #2
	b.eq	Lunix_path_BB16_94
	ldrb	w12, [x10, #2]
	cmp	w12, #47
	b.eq	Lunix_path_BB16_94
Lunix_path_BB16_72:
	cmp	x11, #15
	b.hi	Lunix_path_BB16_77
	mov	x12, #0
Lunix_path_BB16_74:
	ldrb	w13, [x10, x12]
	cmp	w13, #47
	b.eq	Lunix_path_BB16_82
	add	x12, x12, #1
	cmp	x11, x12
	b.ne	Lunix_path_BB16_74
	mov	x12, x11
	subs	x13, x11, x11
	b.ne	Lunix_path_BB16_83
	b	Lunix_path_BB16_56
Lunix_path_BB16_77:
	subs	x12, x11, #16
	b.eq	Lunix_path_BB16_81
	mov	x13, #0
Lunix_path_BB16_79:
	ldr	q0, [x10, x13]
	movi.16b	v1, #47
	cmeq.16b	v0, v0, v1
	ldr	q1, [x21, lunix_path_CPI16_0@PAGEOFF]
	and.16b	v0, v0, v1
	addp.16b	v0, v0, v0
	addp.16b	v0, v0, v0
	addp.16b	v0, v0, v0
	umov.h	w14, v0[0]
	orr	w14, w14, #0x10000
	rbit	w14, w14
	clz	w14, w14
	cmp	w14, #15
	b.ls	Lunix_path_BB16_93
	add	x13, x13, #16
	cmp	x13, x12
	b.lo	Lunix_path_BB16_79
Lunix_path_BB16_81:
	ldr	q0, [x10, x12]
	movi.16b	v1, #47
	cmeq.16b	v0, v0, v1
	ldr	q1, [x21, lunix_path_CPI16_0@PAGEOFF]
	and.16b	v0, v0, v1
	addp.16b	v0, v0, v0
	addp.16b	v0, v0, v0
	addp.16b	v0, v0, v0
	umov.h	w13, v0[0]
	orr	w13, w13, #0x10000
	rbit	w13, w13
	clz	w13, w13
	add	x12, x12, x13
Lunix_path_BB16_82:
	subs	x13, x11, x12
	b.eq	Lunix_path_BB16_56
Lunix_path_BB16_83:
	mov	x11, #0
	add	x10, x10, x12
	sub	x14, x13, #1
	b	Lunix_path_BB16_85
Lunix_path_BB16_84:
	add	x11, x11, #1
	cmp	x13, x11
	b.eq	Lunix_path_BB16_92
Lunix_path_BB16_85:
	ldrb	w15, [x10, x11]
	cmp	w15, #47
	b.eq	Lunix_path_BB16_84
	cmp	w15, #46
	b.ne	Lunix_path_BB16_57
	cmp	x14, x11
	b.eq	Lunix_path_BB16_92
	add	x15, x10, x11
	ldrb	w15, [x15, #1]
	cmp	w15, #47
	b.eq	Lunix_path_BB16_84
	b	Lunix_path_BB16_57
Lunix_path_BB16_89:
	mov	x12, x13
Lunix_path_BB16_90:
	add	x11, x12, #1
Lunix_path_BB16_91:
	ldrb	w10, [x10]
	cmp	w10, #47
	b.ne	Lunix_path_BB16_58
	b	Lunix_path_BB16_94
Lunix_path_BB16_92:
	mov	x11, x13
	b	Lunix_path_BB16_57
Lunix_path_BB16_93:
	add	x12, x13, w14, uxtw
	subs	x13, x11, x12
	b.ne	Lunix_path_BB16_83
	b	Lunix_path_BB16_56
Lunix_path_BB16_94:
	mov	w0, #1
	ldp	x29, x30, [sp, #32]
	ldp	x20, x19, [sp, #16]
	ldp	x22, x21, [sp], #48
	ret
Lunix_path_BB16_95:
	add	x10, x19, x8
	ldrb	w10, [x10, #3]
Lunix_path_BB16_96:
	cmp	w10, #47
	b.eq	Lunix_path_BB16_41
Lunix_path_BB16_97:
	mov	w0, #0
	mov	x8, x9
	cmp	x9, x20
	b.hs	Lunix_path_BB16_3
Lunix_path_BB16_98:
	ldrb	w10, [x19, x8]
	add	x9, x8, #1
	cmp	w10, #47
	b.ne	Lunix_path_BB16_97
	cmp	x20, x9
	b.ls	Lunix_path_BB16_41
	add	x10, x19, x8
	ldrb	w10, [x10, #1]
	cmp	w10, #46
	b.ne	Lunix_path_BB16_96
	add	x10, x8, #2
	cmp	x20, x10
	b.ls	Lunix_path_BB16_41
	add	x10, x19, x8
	ldrb	w10, [x10, #2]
	cmp	w10, #46
	b.ne	Lunix_path_BB16_96
	add	x10, x8, #3
	cmp	x20, x10
	b.hi	Lunix_path_BB16_95
	b	Lunix_path_BB16_41
Lunix_path_BB16_104:
	mov	w22, #0
	b	Lunix_path_BB16_47
Lunix_path_BB16_105:
	ldrb	w8, [x19, #1]
	cmp	w8, #47
	cset	w22, eq
	b	Lunix_path_BB16_47
	.loh AdrpLdr	Lunix_path_loh20, Lunix_path_loh21
	.section	__TEXT,__literal16,16byte_literals
	.p2align	4, 0x0
lunix_path_CPI17_0:
	.byte	1
	.byte	2
	.byte	4
	.byte	8
	.byte	16
	.byte	32
	.byte	64
	.byte	128
	.byte	1
	.byte	2
	.byte	4
	.byte	8
	.byte	16
	.byte	32
	.byte	64
	.byte	128
	.section	__TEXT,__literal8,8byte_literals
	.p2align	3, 0x0
lunix_path_CPI17_1:
	.byte	1
	.byte	2
	.byte	4
	.byte	8
	.byte	16
	.byte	32
	.byte	64
	.byte	128
	.section	__TEXT,__text,regular,pure_instructions
	.p2align	2
; path_within::check::check_escape
_path_within.check.check_escape:
	cbz	x1, Lunix_path_BB17_4
	stp	x22, x21, [sp, #-48]!
	stp	x20, x19, [sp, #16]
	stp	x29, x30, [sp, #32]
	add	x29, sp, #32
	mov	x19, x0
	ldrb	w8, [x0]
	cmp	w8, #47
	b.ne	Lunix_path_BB17_5
	mov	w0, #0
Lunix_path_BB17_3:
	ldp	x29, x30, [sp, #32]
	ldp	x20, x19, [sp, #16]
	ldp	x22, x21, [sp], #48
	ret
Lunix_path_BB17_4:
	mov	w0, #2
	ret
Lunix_path_BB17_5:
	mov	x20, x1
	ldrb	w8, [x19]
	adrp	x21, lunix_path_CPI17_0@PAGE
	cmp	w8, #47
	b.eq	Lunix_path_BB17_13
	cmp	w8, #46
	b.ne	Lunix_path_BB17_12
	cmp	x20, #1
	b.eq	Lunix_path_BB17_13
	ldrb	w9, [x19, #1]
	cmp	w9, #47
	b.eq	Lunix_path_BB17_13
	cmp	w9, #46
	b.ne	Lunix_path_BB17_12
	cmp	x20, #2
	b.eq	Lunix_path_BB17_13
	ldrb	w9, [x19, #2]
	cmp	w9, #47
	b.eq	Lunix_path_BB17_13
Lunix_path_BB17_12:
	add	x11, x19, x20
	ldurb	w9, [x11, #-1]
	and	w9, w9, #0xfe
	cmp	w9, #46
	b.ne	Lunix_path_BB17_19
Lunix_path_BB17_13:
	ldrb	w8, [x19]
Lunix_path_BB17_14:
	and	w8, w8, #0xff
	cmp	w8, #47
	b.eq	Lunix_path_BB17_17
	cmp	w8, #46
	b.ne	Lunix_path_BB17_18
	cmp	x20, #1
	b.ne	Lunix_path_BB17_22
Lunix_path_BB17_17:
	mov	w22, #1
	b	Lunix_path_BB17_23
Lunix_path_BB17_18:
	mov	w22, #0
	b	Lunix_path_BB17_23
Lunix_path_BB17_19:
	subs	x9, x20, #17
	b.hs	Lunix_path_BB17_82
Lunix_path_BB17_20:
	cmp	x20, #9
	b.hs	Lunix_path_BB17_90
	mov	x9, #0
	b	Lunix_path_BB17_106
Lunix_path_BB17_22:
	ldrb	w8, [x19, #1]
	cmp	w8, #47
	cset	w22, eq
Lunix_path_BB17_23:
	mov	x8, x20
	b	Lunix_path_BB17_25
Lunix_path_BB17_24:
	mov	x8, x1
	cbz	x1, Lunix_path_BB17_80
Lunix_path_BB17_25:
	subs	x1, x8, #1
	b.eq	Lunix_path_BB17_31
	add	x9, x19, x1
	ldrb	w10, [x9]
	cmp	w10, #47
	b.eq	Lunix_path_BB17_29
	cmp	w10, #46
	b.ne	Lunix_path_BB17_31
	ldurb	w9, [x9, #-1]
	cmp	w9, #47
	b.ne	Lunix_path_BB17_31
Lunix_path_BB17_29:
	sub	x8, x20, x1
	cmp	x8, #8
	b.ne	Lunix_path_BB17_24
	mov	x0, x19
	bl	_unix_path.filler.trimmed_blocks_len
	mov	x1, x0
	b	Lunix_path_BB17_24
Lunix_path_BB17_31:
	mov	x9, #0
	mov	x10, #0
	mov	x12, x8
	mov	x11, x19
	b	Lunix_path_BB17_35
Lunix_path_BB17_32:
	mov	x12, #0
Lunix_path_BB17_33:
	add	x12, x12, x13
	add	x9, x9, #1
Lunix_path_BB17_34:
	mov	w22, #0
	add	x10, x12, x10
	add	x11, x19, x10
	subs	x12, x8, x10
	b.eq	Lunix_path_BB17_80
Lunix_path_BB17_35:
	tbz	w22, #0, Lunix_path_BB17_43
	subs	x14, x12, #1
	b.eq	Lunix_path_BB17_73
	mov	x13, #0
	sub	x12, x12, #2
	b	Lunix_path_BB17_39
Lunix_path_BB17_38:
	add	x13, x13, #1
	cmp	x14, x13
	b.eq	Lunix_path_BB17_71
Lunix_path_BB17_39:
	add	x15, x11, x13
	ldrb	w15, [x15, #1]
	cmp	w15, #47
	b.eq	Lunix_path_BB17_38
	cmp	w15, #46
	b.ne	Lunix_path_BB17_72
	cmp	x12, x13
	b.eq	Lunix_path_BB17_71
	add	x15, x11, x13
	ldrb	w15, [x15, #2]
	cmp	w15, #47
	b.eq	Lunix_path_BB17_38
	b	Lunix_path_BB17_72
Lunix_path_BB17_43:
	cmp	x12, #1
	b.eq	Lunix_path_BB17_49
	ldrb	w13, [x11]
	cmp	w13, #46
	b.ne	Lunix_path_BB17_49
	ldrb	w13, [x11, #1]
	cmp	w13, #46
	b.ne	Lunix_path_BB17_49
	subs	x14, x12, #2
	b.eq	Lunix_path_BB17_78
	ldrb	w13, [x11, #2]
	cmp	w13, #47
	b.ne	Lunix_path_BB17_49
	mov	x13, #0
	sub	x12, x12, #3
	b	Lunix_path_BB17_55
Lunix_path_BB17_49:
	cmp	x12, #15
	b.hi	Lunix_path_BB17_59
	mov	x13, #0
Lunix_path_BB17_51:
	ldrb	w14, [x11, x13]
	cmp	w14, #47
	b.eq	Lunix_path_BB17_64
	add	x13, x13, #1
	cmp	x12, x13
	b.ne	Lunix_path_BB17_51
	mov	x13, x12
	subs	x14, x12, x12
	b.ne	Lunix_path_BB17_65
	b	Lunix_path_BB17_32
Lunix_path_BB17_54:
	add	x13, x13, #1
	cmp	x14, x13
	b.eq	Lunix_path_BB17_76
Lunix_path_BB17_55:
	add	x15, x11, x13
	ldrb	w15, [x15, #2]
	cmp	w15, #47
	b.eq	Lunix_path_BB17_54
	cmp	w15, #46
	b.ne	Lunix_path_BB17_77
	cmp	x12, x13
	b.eq	Lunix_path_BB17_76
	add	x15, x11, x13
	ldrb	w15, [x15, #3]
	cmp	w15, #47
	b.eq	Lunix_path_BB17_54
	b	Lunix_path_BB17_77
Lunix_path_BB17_59:
	subs	x13, x12, #16
	b.eq	Lunix_path_BB17_63
	mov	x14, #0
Lunix_path_BB17_61:
	ldr	q0, [x11, x14]
	movi.16b	v1, #47
	cmeq.16b	v0, v0, v1
	ldr	q1, [x21, lunix_path_CPI17_0@PAGEOFF]
	and.16b	v0, v0, v1
	addp.16b	v0, v0, v0
	addp.16b	v0, v0, v0
	addp.16b	v0, v0, v0
	umov.h	w15, v0[0]
	orr	w15, w15, #0x10000
	rbit	w15, w15
	clz	w15, w15
	cmp	w15, #15
	b.ls	Lunix_path_BB17_75
	add	x14, x14, #16
	cmp	x14, x13
	b.lo	Lunix_path_BB17_61
Lunix_path_BB17_63:
	ldr	q0, [x11, x13]
	movi.16b	v1, #47
	cmeq.16b	v0, v0, v1
	ldr	q1, [x21, lunix_path_CPI17_0@PAGEOFF]
	and.16b	v0, v0, v1
	addp.16b	v0, v0, v0
	addp.16b	v0, v0, v0
	addp.16b	v0, v0, v0
	umov.h	w14, v0[0]
	orr	w14, w14, #0x10000
	rbit	w14, w14
	clz	w14, w14
	add	x13, x13, x14
Lunix_path_BB17_64:
	subs	x14, x12, x13
	b.eq	Lunix_path_BB17_32
Lunix_path_BB17_65:
	mov	x12, #0
	add	x11, x11, x13
	sub	x15, x14, #1
	b	Lunix_path_BB17_67
Lunix_path_BB17_66:
	add	x12, x12, #1
	cmp	x14, x12
	b.eq	Lunix_path_BB17_74
Lunix_path_BB17_67:
	ldrb	w16, [x11, x12]
	cmp	w16, #47
	b.eq	Lunix_path_BB17_66
	cmp	w16, #46
	b.ne	Lunix_path_BB17_33
	cmp	x15, x12
	b.eq	Lunix_path_BB17_74
	add	x16, x11, x12
	ldrb	w16, [x16, #1]
	cmp	w16, #47
	b.eq	Lunix_path_BB17_66
	b	Lunix_path_BB17_33
Lunix_path_BB17_71:
	mov	x13, x14
Lunix_path_BB17_72:
	add	x12, x13, #1
Lunix_path_BB17_73:
	ldrb	w11, [x11]
	cmp	w11, #47
	b.ne	Lunix_path_BB17_34
	b	Lunix_path_BB17_81
Lunix_path_BB17_74:
	mov	x12, x14
	b	Lunix_path_BB17_33
Lunix_path_BB17_75:
	add	x13, x14, w15, uxtw
	subs	x14, x12, x13
	b.ne	Lunix_path_BB17_65
	b	Lunix_path_BB17_32
Lunix_path_BB17_76:
	mov	x13, x14
Lunix_path_BB17_77:
	add	x12, x13, #2
Lunix_path_BB17_78:
	cbz	x9, Lunix_path_BB17_81
	sub	x9, x9, #1
	b	Lunix_path_BB17_34
Lunix_path_BB17_80:
	mov	w0, #2
	ldp	x29, x30, [sp, #32]
	ldp	x20, x19, [sp, #16]
	ldp	x22, x21, [sp], #48
	ret
Lunix_path_BB17_81:
	mov	w0, #0
	ldp	x29, x30, [sp, #32]
	ldp	x20, x19, [sp, #16]
	ldp	x22, x21, [sp], #48
	ret
Lunix_path_BB17_82:
	cmp	x20, #32
	b.hi	Lunix_path_BB17_92
	ldr	q3, [x19]
	ldur	q1, [x19, #1]
	movi.16b	v0, #208
	and.16b	v1, v1, v0
	orr.16b	v2, v1, v3
	movi.16b	v1, #47
	cmeq.16b	v4, v2, v1
	ldr	q2, [x21, lunix_path_CPI17_0@PAGEOFF]
	and.16b	v4, v4, v2
	addp.16b	v4, v4, v4
	addp.16b	v4, v4, v4
	addp.16b	v4, v4, v4
	umov.h	w10, v4[0]
	umov.b	w8, v3[0]
	cbnz	w10, Lunix_path_BB17_85
	ldur	q3, [x11, #-17]
	ldur	q4, [x11, #-16]
	and.16b	v0, v4, v0
	orr.16b	v0, v0, v3
	cmeq.16b	v0, v0, v1
	and.16b	v0, v0, v2
	addp.16b	v0, v0, v0
	addp.16b	v0, v0, v0
	addp.16b	v0, v0, v0
	umov.h	w10, v0[0]
	cbz	w10, Lunix_path_BB17_108
Lunix_path_BB17_85:
	cmp	x20, #18
	b.ls	Lunix_path_BB17_20
	subs	x10, x20, #19
	b.ne	Lunix_path_BB17_94
	mov	x11, #0
Lunix_path_BB17_88:
	cmp	x9, x11
	csel	x9, x9, x11, lo
	add	x11, x19, x9
	ldr	q0, [x11]
	ldur	q1, [x11, #1]
	movi.16b	v2, #208
	and.16b	v1, v1, v2
	orr.16b	v1, v1, v0
	movi.16b	v0, #47
	cmeq.16b	v2, v1, v0
	ldr	q1, [x21, lunix_path_CPI17_0@PAGEOFF]
	and.16b	v2, v2, v1
	addp.16b	v2, v2, v2
	addp.16b	v2, v2, v2
	addp.16b	v2, v2, v2
	umov.h	w11, v2[0]
	cbz	w11, Lunix_path_BB17_105
	add	x9, x19, x10
	ldr	q2, [x9]
	ldur	q3, [x9, #1]
	ldur	q4, [x9, #2]
	ldur	q5, [x9, #3]
	movi.16b	v6, #46
	cmeq.16b	v7, v4, v6
	cmeq.16b	v5, v5, v0
	and.16b	v5, v7, v5
	cmeq.16b	v6, v3, v6
	cmeq.16b	v4, v4, v0
	orr.16b	v4, v4, v5
	and.16b	v4, v6, v4
	cmeq.16b	v2, v2, v0
	cmeq.16b	v0, v3, v0
	orr.16b	v0, v0, v4
	and.16b	v1, v2, v1
	and.16b	v0, v1, v0
	addp.16b	v0, v0, v0
	addp.16b	v0, v0, v0
	addp.16b	v0, v0, v0
	umov.h	w9, v0[0]
	orr	w9, w9, #0x10000
	rbit	w9, w9
	clz	w9, w9
	add	x9, x10, x9
	b	Lunix_path_BB17_106
Lunix_path_BB17_90:
	ldr	d4, [x19]
	ldur	d1, [x19, #1]
	movi.8b	v0, #254
	and.8b	v2, v1, v0
	movi.8b	v1, #46
	cmeq.8b	v5, v2, v1
	movi.8b	v2, #47
	cmeq.8b	v6, v4, v2
Lunix_path_loh22:
	adrp	x8, lunix_path_CPI17_1@PAGE
Lunix_path_loh23:
	ldr	d3, [x8, lunix_path_CPI17_1@PAGEOFF]
	and.8b	v6, v6, v3
	and.8b	v5, v6, v5
	addv.8b	b5, v5
	fmov	w8, s5
	orr	w8, w8, #0x100
	rbit	w8, w8
	clz	w9, w8
	umov.b	w8, v4[0]
	cmp	w9, #8
	b.lo	Lunix_path_BB17_106
	mov	w9, #17
	cmp	x20, #17
	csel	x9, x20, x9, lo
	sub	x9, x9, #9
	add	x10, x19, x9
	ldr	d4, [x10]
	ldur	d5, [x10, #1]
	and.8b	v0, v5, v0
	cmeq.8b	v0, v0, v1
	cmeq.8b	v1, v4, v2
	and.8b	v1, v1, v3
	and.8b	v0, v1, v0
	addv.8b	b0, v0
	fmov	w10, s0
	orr	w10, w10, #0x100
	rbit	w10, w10
	clz	w10, w10
	add	x9, x9, x10
	b	Lunix_path_BB17_106
Lunix_path_BB17_92:
	sub	x10, x20, #33
	add	x12, x19, x10
	ldr	q0, [x12]
	ldur	q1, [x12, #1]
	movi.16b	v2, #208
	and.16b	v1, v1, v2
	orr.16b	v0, v1, v0
	movi.16b	v1, #47
	cmeq.16b	v3, v0, v1
	ldr	q0, [x21, lunix_path_CPI17_0@PAGEOFF]
	and.16b	v3, v3, v0
	addp.16b	v3, v3, v3
	addp.16b	v3, v3, v3
	addp.16b	v3, v3, v3
	ldur	q4, [x11, #-17]
	ldur	q5, [x11, #-16]
	and.16b	v2, v5, v2
	orr.16b	v2, v2, v4
	cmeq.16b	v1, v2, v1
	and.16b	v1, v1, v0
	addp.16b	v1, v1, v1
	addp.16b	v1, v1, v1
	addp.16b	v1, v1, v1
	orr.16b	v1, v1, v3
	umov.h	w11, v1[0]
	cbz	w11, Lunix_path_BB17_101
	sub	x10, x20, #19
Lunix_path_BB17_94:
	mov	x11, #0
	b	Lunix_path_BB17_98
Lunix_path_BB17_95:
	ldur	q4, [x12, #2]
	ldur	q5, [x12, #3]
	movi.16b	v6, #46
	cmeq.16b	v7, v4, v6
	cmeq.16b	v5, v5, v2
	and.16b	v5, v7, v5
	cmeq.16b	v6, v1, v6
	cmeq.16b	v4, v4, v2
	orr.16b	v4, v4, v5
	and.16b	v4, v6, v4
	cmeq.16b	v0, v0, v2
	cmeq.16b	v1, v1, v2
	orr.16b	v1, v1, v4
	and.16b	v0, v0, v3
	and.16b	v0, v0, v1
	addp.16b	v0, v0, v0
	addp.16b	v0, v0, v0
	addp.16b	v0, v0, v0
	umov.h	w12, v0[0]
	orr	w12, w12, #0x10000
	rbit	w12, w12
	clz	w12, w12
	cmp	w12, #15
	b.ls	Lunix_path_BB17_100
	add	x11, x11, #16
Lunix_path_BB17_97:
	cmp	x11, x10
	b.hs	Lunix_path_BB17_88
Lunix_path_BB17_98:
	add	x12, x19, x11
	ldr	q0, [x12]
	ldur	q1, [x12, #1]
	movi.16b	v2, #208
	and.16b	v2, v1, v2
	orr.16b	v3, v2, v0
	movi.16b	v2, #47
	cmeq.16b	v4, v3, v2
	ldr	q3, [x21, lunix_path_CPI17_0@PAGEOFF]
	and.16b	v4, v4, v3
	addp.16b	v4, v4, v4
	addp.16b	v4, v4, v4
	addp.16b	v4, v4, v4
	umov.h	w13, v4[0]
	cbnz	w13, Lunix_path_BB17_95
	add	x11, x11, #16
	cmp	x11, x10
	b.lo	Lunix_path_BB17_98
	b	Lunix_path_BB17_97
Lunix_path_BB17_100:
	add	x9, x11, w12, uxtw
	b	Lunix_path_BB17_106
Lunix_path_BB17_101:
	cbz	x10, Lunix_path_BB17_108
	mov	x11, #0
	add	x12, x19, #17
Lunix_path_BB17_103:
	ldur	q1, [x12, #-17]
	ldp	q2, q5, [x12, #-16]
	movi.16b	v3, #208
	and.16b	v2, v2, v3
	orr.16b	v1, v2, v1
	movi.16b	v2, #47
	cmeq.16b	v1, v1, v2
	and.16b	v1, v1, v0
	addp.16b	v1, v1, v1
	addp.16b	v1, v1, v1
	addp.16b	v1, v1, v1
	ldur	q4, [x12, #-1]
	and.16b	v3, v5, v3
	orr.16b	v3, v3, v4
	cmeq.16b	v2, v3, v2
	and.16b	v2, v2, v0
	addp.16b	v2, v2, v2
	addp.16b	v2, v2, v2
	addp.16b	v2, v2, v2
	orr.16b	v1, v2, v1
	umov.h	w13, v1[0]
	cbnz	w13, Lunix_path_BB17_85
	add	x12, x12, #32
	add	x11, x11, #32
	mov	w0, #1
	cmp	x11, x10
	b.lo	Lunix_path_BB17_103
	b	Lunix_path_BB17_3
Lunix_path_BB17_105:
	add	x9, x9, #16
Lunix_path_BB17_106:
	cmp	x9, x20
	b.lo	Lunix_path_BB17_112
Lunix_path_BB17_107:
	cmp	x9, x20
	b.ne	Lunix_path_BB17_14
Lunix_path_BB17_108:
	mov	w0, #1
	ldp	x29, x30, [sp, #32]
	ldp	x20, x19, [sp, #16]
	ldp	x22, x21, [sp], #48
	ret
Lunix_path_BB17_109:
	add	x11, x19, x9
	ldrb	w11, [x11, #3]
Lunix_path_BB17_110:
	cmp	w11, #47
	b.eq	Lunix_path_BB17_107
Lunix_path_BB17_111:
	mov	w0, #1
	mov	x9, x10
	cmp	x10, x20
	b.hs	Lunix_path_BB17_3
Lunix_path_BB17_112:
	ldrb	w11, [x19, x9]
	add	x10, x9, #1
	cmp	w11, #47
	b.ne	Lunix_path_BB17_111
	cmp	x20, x10
	b.ls	Lunix_path_BB17_107
	add	x11, x19, x9
	ldrb	w11, [x11, #1]
	cmp	w11, #46
	b.ne	Lunix_path_BB17_110
	add	x11, x9, #2
	cmp	x20, x11
	b.ls	Lunix_path_BB17_107
	add	x11, x19, x9
	ldrb	w11, [x11, #2]
	cmp	w11, #46
	b.ne	Lunix_path_BB17_110
	add	x11, x9, #3
	cmp	x20, x11
	b.hi	Lunix_path_BB17_109
	b	Lunix_path_BB17_107
	.loh AdrpLdr	Lunix_path_loh22, Lunix_path_loh23
	.section	__TEXT,__literal16,16byte_literals
	.p2align	4, 0x0
lunix_path_CPI18_0:
	.byte	1
	.byte	2
	.byte	4
	.byte	8
	.byte	16
	.byte	32
	.byte	64
	.byte	128
	.byte	1
	.byte	2
	.byte	4
	.byte	8
	.byte	16
	.byte	32
	.byte	64
	.byte	128
	.section	__TEXT,__text,regular,pure_instructions
	.p2align	2
; unix_path::path::Path::file_name
_unix_path.path.Path.file_name:
	stp	x24, x23, [sp, #-64]!
	stp	x22, x21, [sp, #16]
	stp	x20, x19, [sp, #32]
	stp	x29, x30, [sp, #48]
	add	x29, sp, #48
	mov	x19, x0
	cbz	x2, Lunix_path_BB18_9
	mov	x21, x2
	mov	x20, x1
	mov	x22, x2
	b	Lunix_path_BB18_3
Lunix_path_BB18_2:
	mov	x22, x1
	cbz	x1, Lunix_path_BB18_9
Lunix_path_BB18_3:
	subs	x1, x22, #1
	b.eq	Lunix_path_BB18_10
	add	x8, x20, x1
	ldrb	w9, [x8]
	cmp	w9, #47
	b.eq	Lunix_path_BB18_7
	cmp	w9, #46
	b.ne	Lunix_path_BB18_12
	ldurb	w8, [x8, #-1]
	cmp	w8, #47
	b.ne	Lunix_path_BB18_12
Lunix_path_BB18_7:
	sub	x8, x21, x1
	cmp	x8, #8
	b.ne	Lunix_path_BB18_2
	mov	x0, x20
	bl	_unix_path.filler.trimmed_blocks_len
	mov	x1, x0
	b	Lunix_path_BB18_2
Lunix_path_BB18_9:
	stp	xzr, xzr, [x19]
	str	xzr, [x19, #16]
	ldp	x29, x30, [sp, #48]
	ldp	x20, x19, [sp, #32]
	ldp	x22, x21, [sp, #16]
	ldp	x24, x23, [sp], #64
	ret
Lunix_path_BB18_10:
	ldrb	w8, [x20]
	cmp	w8, #46
	b.ne	Lunix_path_BB18_24
Lunix_path_BB18_11:
	mov	x21, #0
	mov	x22, #0
	mov	x8, #0
	b	Lunix_path_BB18_44
Lunix_path_BB18_12:
	add	x8, x20, x22
	ldurb	w9, [x8, #-1]
	cmp	w9, #46
	b.ne	Lunix_path_BB18_25
	ldurb	w9, [x8, #-2]
	cmp	w9, #46
	b.ne	Lunix_path_BB18_25
	subs	x23, x22, #2
	b.eq	Lunix_path_BB18_11
	ldurb	w8, [x8, #-3]
	cmp	w8, #47
	b.ne	Lunix_path_BB18_25
	mov	x1, x23
	b	Lunix_path_BB18_18
Lunix_path_BB18_17:
	mov	x21, #0
	mov	x22, #0
	mov	x8, #0
	cbz	x1, Lunix_path_BB18_44
Lunix_path_BB18_18:
	subs	x1, x1, #1
	b.eq	Lunix_path_BB18_11
	add	x8, x20, x1
	ldrb	w9, [x8]
	cmp	w9, #47
	b.eq	Lunix_path_BB18_22
	cmp	w9, #46
	b.ne	Lunix_path_BB18_11
	ldurb	w8, [x8, #-1]
	cmp	w8, #47
	b.ne	Lunix_path_BB18_11
Lunix_path_BB18_22:
	sub	x8, x23, x1
	cmp	x8, #8
	b.ne	Lunix_path_BB18_17
	mov	x0, x20
	bl	_unix_path.filler.trimmed_blocks_len
	mov	x1, x0
	b	Lunix_path_BB18_17
Lunix_path_BB18_24:
	mov	w22, #1
Lunix_path_BB18_25:
	mov	x9, x22
Lunix_path_BB18_26:
	cmp	x9, #15
	b.ls	Lunix_path_BB18_30
	sub	x8, x9, #16
	add	x9, x20, x9
	ldur	q0, [x9, #-16]
	movi.16b	v1, #47
	cmeq.16b	v0, v0, v1
Lunix_path_loh24:
	adrp	x9, lunix_path_CPI18_0@PAGE
Lunix_path_loh25:
	ldr	q1, [x9, lunix_path_CPI18_0@PAGEOFF]
	and.16b	v0, v0, v1
	addp.16b	v0, v0, v0
	addp.16b	v0, v0, v0
	addp.16b	v0, v0, v0
	umov.h	w10, v0[0]
	mov	x9, x8
	cbz	w10, Lunix_path_BB18_26
	umov.h	w9, v0[0]
	and	x9, x9, #0xffff
	clz	x9, x9
	sub	x8, x8, x9
	add	x23, x8, #64
	subs	x22, x22, x23
	b.ne	Lunix_path_BB18_34
Lunix_path_BB18_29:
	mov	x21, #0
	mov	x8, #0
	b	Lunix_path_BB18_44
Lunix_path_BB18_30:
	sub	x8, x9, #1
Lunix_path_BB18_31:
	cmn	x8, #1
	b.eq	Lunix_path_BB18_43
	ldrb	w9, [x20, x8]
	sub	x8, x8, #1
	cmp	w9, #47
	b.ne	Lunix_path_BB18_31
	add	x23, x8, #2
	subs	x22, x22, x23
	b.eq	Lunix_path_BB18_29
Lunix_path_BB18_34:
	add	x21, x20, x23
	mov	x1, x23
	b	Lunix_path_BB18_36
Lunix_path_BB18_35:
	cbz	x1, Lunix_path_BB18_42
Lunix_path_BB18_36:
	subs	x1, x1, #1
	b.eq	Lunix_path_BB18_42
	add	x8, x20, x1
	ldrb	w9, [x8]
	cmp	w9, #47
	b.eq	Lunix_path_BB18_40
	cmp	w9, #46
	b.ne	Lunix_path_BB18_42
	ldurb	w8, [x8, #-1]
	cmp	w8, #47
	b.ne	Lunix_path_BB18_42
Lunix_path_BB18_40:
	sub	x8, x23, x1
	cmp	x8, #8
	b.ne	Lunix_path_BB18_35
	mov	x0, x20
	bl	_unix_path.filler.trimmed_blocks_len
	mov	x1, x0
	b	Lunix_path_BB18_35
Lunix_path_BB18_42:
	mov	w8, #1
	b	Lunix_path_BB18_44
Lunix_path_BB18_43:
	mov	w8, #1
	mov	x21, x20
Lunix_path_BB18_44:
	stp	x8, x21, [x19]
	str	x22, [x19, #16]
	ldp	x29, x30, [sp, #48]
	ldp	x20, x19, [sp, #32]
	ldp	x22, x21, [sp, #16]
	ldp	x24, x23, [sp], #64
	ret
	.loh AdrpLdr	Lunix_path_loh24, Lunix_path_loh25
	.section	__TEXT,__literal16,16byte_literals
	.p2align	4, 0x0
lunix_path_CPI19_0:
	.byte	1
	.byte	2
	.byte	4
	.byte	8
	.byte	16
	.byte	32
	.byte	64
	.byte	128
	.byte	1
	.byte	2
	.byte	4
	.byte	8
	.byte	16
	.byte	32
	.byte	64
	.byte	128
	.section	__TEXT,__text,regular,pure_instructions
	.p2align	2
; unix_path::suffixes::ends_with_parts
_unix_path.suffixes.ends_with_parts:
	stp	x28, x27, [sp, #-96]!
	stp	x26, x25, [sp, #16]
	stp	x24, x23, [sp, #32]
	stp	x22, x21, [sp, #48]
	stp	x20, x19, [sp, #64]
	stp	x29, x30, [sp, #80]
	add	x29, sp, #80
	mov	x21, x3
	mov	x19, x2
	mov	x20, x0
	cbz	x1, Lunix_path_BB19_9
	mov	x22, x1
	mov	x24, x1
	b	Lunix_path_BB19_3
Lunix_path_BB19_2:
	mov	x24, x1
	cbz	x1, Lunix_path_BB19_10
Lunix_path_BB19_3:
	subs	x1, x24, #1
	b.eq	Lunix_path_BB19_10
	add	x8, x20, x1
	ldrb	w9, [x8]
	cmp	w9, #47
	b.eq	Lunix_path_BB19_7
	cmp	w9, #46
	b.ne	Lunix_path_BB19_10
	ldurb	w8, [x8, #-1]
	cmp	w8, #47
	b.ne	Lunix_path_BB19_10
Lunix_path_BB19_7:
	sub	x8, x22, x1
	cmp	x8, #8
	b.ne	Lunix_path_BB19_2
	mov	x0, x20
	bl	_unix_path.filler.trimmed_blocks_len
	mov	x1, x0
	b	Lunix_path_BB19_2
Lunix_path_BB19_9:
	mov	x24, #0
Lunix_path_BB19_10:
	cbz	x21, Lunix_path_BB19_19
	mov	x25, x21
	b	Lunix_path_BB19_13
Lunix_path_BB19_12:
	mov	x25, x1
	cbz	x1, Lunix_path_BB19_20
Lunix_path_BB19_13:
	subs	x1, x25, #1
	b.eq	Lunix_path_BB19_20
	add	x8, x19, x1
	ldrb	w9, [x8]
	cmp	w9, #47
	b.eq	Lunix_path_BB19_17
	cmp	w9, #46
	b.ne	Lunix_path_BB19_20
	ldurb	w8, [x8, #-1]
	cmp	w8, #47
	b.ne	Lunix_path_BB19_20
Lunix_path_BB19_17:
	sub	x8, x21, x1
	cmp	x8, #8
	b.ne	Lunix_path_BB19_12
	mov	x0, x19
	bl	_unix_path.filler.trimmed_blocks_len
	mov	x1, x0
	b	Lunix_path_BB19_12
Lunix_path_BB19_19:
	mov	x25, #0
Lunix_path_BB19_20:
	adrp	x23, lunix_path_CPI19_0@PAGE
	subs	x8, x25, #1
	b.eq	Lunix_path_BB19_26
	cbz	x25, Lunix_path_BB19_113
	add	x9, x19, x25
	ldurb	w10, [x9, #-1]
	cmp	w10, #46
	b.ne	Lunix_path_BB19_30
	ldurb	w10, [x9, #-2]
	cmp	w10, #46
	b.ne	Lunix_path_BB19_30
	subs	x27, x25, #2
	b.ne	Lunix_path_BB19_28
	mov	x22, #0
	mov	x21, #0
	mov	x25, #0
	mov	w26, #2
	b	Lunix_path_BB19_57
Lunix_path_BB19_26:
	ldrb	w9, [x19]
	cmp	w9, #46
	b.ne	Lunix_path_BB19_30
	mov	x22, #0
	mov	x21, #0
	mov	x25, #0
	mov	w26, #1
	b	Lunix_path_BB19_57
Lunix_path_BB19_28:
	ldurb	w9, [x9, #-3]
	cmp	w9, #47
	b.ne	Lunix_path_BB19_30
	mov	x8, x27
	b	Lunix_path_BB19_47
Lunix_path_BB19_30:
	mov	x10, x25
Lunix_path_BB19_31:
	cmp	x10, #15
	b.ls	Lunix_path_BB19_35
	sub	x9, x10, #16
	add	x10, x19, x10
	ldur	q0, [x10, #-16]
	movi.16b	v1, #47
	cmeq.16b	v0, v0, v1
	ldr	q1, [x23, lunix_path_CPI19_0@PAGEOFF]
	and.16b	v0, v0, v1
	addp.16b	v0, v0, v0
	addp.16b	v0, v0, v0
	addp.16b	v0, v0, v0
	umov.h	w11, v0[0]
	sub	x8, x8, #16
	mov	x10, x9
	cbz	w11, Lunix_path_BB19_31
	umov.h	w8, v0[0]
	and	x8, x8, #0xffff
	clz	x8, x8
	sub	x8, x9, x8
	add	x26, x8, #64
	subs	x21, x25, x26
	b.ne	Lunix_path_BB19_38
Lunix_path_BB19_34:
	mov	x22, #0
	mov	x25, #0
	mov	w26, #0
	b	Lunix_path_BB19_57
Lunix_path_BB19_35:
	cmn	x8, #1
	b.eq	Lunix_path_BB19_54
	ldrb	w9, [x19, x8]
	sub	x8, x8, #1
	cmp	w9, #47
	b.ne	Lunix_path_BB19_35
	add	x26, x8, #2
	subs	x21, x25, x26
	b.eq	Lunix_path_BB19_34
Lunix_path_BB19_38:
	add	x22, x19, x26
	mov	x25, x26
	b	Lunix_path_BB19_40
Lunix_path_BB19_39:
	mov	x25, x1
	cbz	x1, Lunix_path_BB19_53
Lunix_path_BB19_40:
	subs	x1, x25, #1
	b.eq	Lunix_path_BB19_53
	add	x8, x19, x1
	ldrb	w9, [x8]
	cmp	w9, #47
	b.eq	Lunix_path_BB19_44
	cmp	w9, #46
	b.ne	Lunix_path_BB19_53
	ldurb	w8, [x8, #-1]
	cmp	w8, #47
	b.ne	Lunix_path_BB19_53
Lunix_path_BB19_44:
	sub	x8, x26, x1
	cmp	x8, #8
	b.ne	Lunix_path_BB19_39
	mov	x0, x19
	bl	_unix_path.filler.trimmed_blocks_len
	mov	x1, x0
	b	Lunix_path_BB19_39
Lunix_path_BB19_46:
	mov	x22, #0
	mov	x21, #0
	mov	x25, #0
	mov	w26, #2
	mov	x8, x1
	cbz	x1, Lunix_path_BB19_57
Lunix_path_BB19_47:
	subs	x1, x8, #1
	b.eq	Lunix_path_BB19_107
	add	x9, x19, x1
	ldrb	w10, [x9]
	cmp	w10, #47
	b.eq	Lunix_path_BB19_51
	cmp	w10, #46
	b.ne	Lunix_path_BB19_109
	ldurb	w9, [x9, #-1]
	cmp	w9, #47
	b.ne	Lunix_path_BB19_109
Lunix_path_BB19_51:
	sub	x8, x27, x1
	cmp	x8, #8
	b.ne	Lunix_path_BB19_46
	mov	x0, x19
	bl	_unix_path.filler.trimmed_blocks_len
	mov	x1, x0
	b	Lunix_path_BB19_46
Lunix_path_BB19_53:
	mov	w26, #3
	b	Lunix_path_BB19_57
Lunix_path_BB19_54:
	cbnz	x25, Lunix_path_BB19_56
	mov	x22, #0
	mov	x21, #0
	mov	w26, #0
	b	Lunix_path_BB19_57
Lunix_path_BB19_56:
	mov	w26, #3
	mov	x22, x19
	mov	x21, x25
	mov	x25, #0
Lunix_path_BB19_57:
	subs	x8, x24, #1
	b.eq	Lunix_path_BB19_63
	cbz	x24, Lunix_path_BB19_111
	add	x9, x20, x24
	ldurb	w10, [x9, #-1]
	cmp	w10, #46
	b.ne	Lunix_path_BB19_67
	ldurb	w10, [x9, #-2]
	cmp	w10, #46
	b.ne	Lunix_path_BB19_67
	subs	x28, x24, #2
	b.ne	Lunix_path_BB19_65
	mov	x23, #0
	mov	x27, #0
	mov	x24, #0
	mov	w8, #0
	mov	w9, #2
	b	Lunix_path_BB19_92
Lunix_path_BB19_63:
	ldrb	w9, [x20]
	cmp	w9, #46
	b.ne	Lunix_path_BB19_67
	mov	x23, #0
	mov	x27, #0
	mov	x24, #0
	mov	w8, #0
	mov	w9, #1
	b	Lunix_path_BB19_92
Lunix_path_BB19_65:
	ldurb	w9, [x9, #-3]
	cmp	w9, #47
	b.ne	Lunix_path_BB19_67
	mov	x10, x28
	b	Lunix_path_BB19_84
Lunix_path_BB19_67:
	mov	x10, x24
Lunix_path_BB19_68:
	cmp	x10, #15
	b.ls	Lunix_path_BB19_72
	sub	x9, x10, #16
	add	x10, x20, x10
	ldur	q0, [x10, #-16]
	movi.16b	v1, #47
	cmeq.16b	v0, v0, v1
	ldr	q1, [x23, lunix_path_CPI19_0@PAGEOFF]
	and.16b	v0, v0, v1
	addp.16b	v0, v0, v0
	addp.16b	v0, v0, v0
	addp.16b	v0, v0, v0
	umov.h	w11, v0[0]
	sub	x8, x8, #16
	mov	x10, x9
	cbz	w11, Lunix_path_BB19_68
	umov.h	w8, v0[0]
	and	x8, x8, #0xffff
	clz	x8, x8
	sub	x8, x9, x8
	add	x28, x8, #64
	subs	x27, x24, x28
	b.ne	Lunix_path_BB19_75
Lunix_path_BB19_71:
	mov	x23, #0
	mov	x24, #0
	mov	w8, #0
	mov	w9, #0
	b	Lunix_path_BB19_92
Lunix_path_BB19_72:
	cmn	x8, #1
	b.eq	Lunix_path_BB19_91
	ldrb	w9, [x20, x8]
	sub	x8, x8, #1
	cmp	w9, #47
	b.ne	Lunix_path_BB19_72
	add	x28, x8, #2
	subs	x27, x24, x28
	b.eq	Lunix_path_BB19_71
Lunix_path_BB19_75:
	add	x23, x20, x28
	mov	x24, x28
	b	Lunix_path_BB19_77
Lunix_path_BB19_76:
	mov	x24, x1
	cbz	x1, Lunix_path_BB19_90
Lunix_path_BB19_77:
	subs	x1, x24, #1
	b.eq	Lunix_path_BB19_90
	add	x8, x20, x1
	ldrb	w9, [x8]
	cmp	w9, #47
	b.eq	Lunix_path_BB19_81
	cmp	w9, #46
	b.ne	Lunix_path_BB19_90
	ldurb	w8, [x8, #-1]
	cmp	w8, #47
	b.ne	Lunix_path_BB19_90
Lunix_path_BB19_81:
	sub	x8, x28, x1
	cmp	x8, #8
	b.ne	Lunix_path_BB19_76
	mov	x0, x20
	bl	_unix_path.filler.trimmed_blocks_len
	mov	x1, x0
	b	Lunix_path_BB19_76
Lunix_path_BB19_83:
	mov	x23, #0
	mov	x27, #0
	mov	x24, #0
	mov	w8, #0
	mov	w9, #2
	mov	x10, x1
	cbz	x1, Lunix_path_BB19_92
Lunix_path_BB19_84:
	subs	x1, x10, #1
	b.eq	Lunix_path_BB19_108
	add	x8, x20, x1
	ldrb	w9, [x8]
	cmp	w9, #47
	b.eq	Lunix_path_BB19_88
	cmp	w9, #46
	b.ne	Lunix_path_BB19_110
	ldurb	w8, [x8, #-1]
	cmp	w8, #47
	b.ne	Lunix_path_BB19_110
Lunix_path_BB19_88:
	sub	x8, x28, x1
	cmp	x8, #8
	b.ne	Lunix_path_BB19_83
	mov	x0, x20
	bl	_unix_path.filler.trimmed_blocks_len
	mov	x1, x0
	b	Lunix_path_BB19_83
Lunix_path_BB19_90:
	mov	w9, #3
	mov	w8, #1
	b	Lunix_path_BB19_92
Lunix_path_BB19_91:
	mov	w9, #3
	cmp	x24, #0
	csel	x23, xzr, x20, eq
	csel	x27, xzr, x24, eq
	mov	x24, xzr
	cset	w8, ne
	csel	w9, wzr, w9, eq
Lunix_path_BB19_92:
	cmp	w9, w26
	b.ne	Lunix_path_BB19_111
	cbz	w8, Lunix_path_BB19_20
	cmp	x27, x21
	b.ne	Lunix_path_BB19_111
	cmp	x21, #4
	b.hs	Lunix_path_BB19_103
	cbz	x21, Lunix_path_BB19_20
	ldrb	w8, [x23]
	ldrb	w9, [x22]
	cmp	w8, w9
	b.ne	Lunix_path_BB19_105
	cmp	x21, #1
	b.eq	Lunix_path_BB19_20
	ldrb	w8, [x23, #1]
	ldrb	w9, [x22, #1]
	cmp	w8, w9
	b.ne	Lunix_path_BB19_106
	cmp	x21, #2
	b.eq	Lunix_path_BB19_20
	ldrb	w8, [x23, #2]
	ldrb	w9, [x22, #2]
	cmp	w8, w9
	b.eq	Lunix_path_BB19_20
	mov	w8, #2
	cmp	x8, x21
	b.hs	Lunix_path_BB19_20
	b	Lunix_path_BB19_111
Lunix_path_BB19_103:
	ldr	w8, [x23]
	ldr	w9, [x22]
	cmp	w8, w9
	b.ne	Lunix_path_BB19_111
	mov	x0, x23
	mov	x1, x21
	mov	x2, x22
	bl	_core.cmp.slices.groups_equal.i8.31.core.cmp.numbers.U8PartialEq.
	tbnz	w0, #0, Lunix_path_BB19_20
	b	Lunix_path_BB19_111
Lunix_path_BB19_105:
	mov	x8, #0
	cmp	x8, x21
	b.hs	Lunix_path_BB19_20
	b	Lunix_path_BB19_111
Lunix_path_BB19_106:
	mov	w8, #1
	cmp	x8, x21
	b.hs	Lunix_path_BB19_20
	b	Lunix_path_BB19_111
Lunix_path_BB19_107:
	mov	x22, #0
	mov	x21, #0
	mov	w26, #2
	mov	w25, #1
	b	Lunix_path_BB19_57
Lunix_path_BB19_108:
	mov	x23, #0
	mov	x27, #0
	mov	w8, #0
	mov	w9, #2
	mov	w24, #1
	b	Lunix_path_BB19_92
Lunix_path_BB19_109:
	mov	x22, #0
	mov	x21, #0
	mov	w26, #2
	mov	x25, x8
	b	Lunix_path_BB19_57
Lunix_path_BB19_110:
	mov	x23, #0
	mov	x27, #0
	mov	w8, #0
	mov	w9, #2
	mov	x24, x10
	b	Lunix_path_BB19_92
Lunix_path_BB19_111:
	mov	w0, #0
Lunix_path_BB19_112:
	ldp	x29, x30, [sp, #80]
	ldp	x20, x19, [sp, #64]
	ldp	x22, x21, [sp, #48]
	ldp	x24, x23, [sp, #32]
	ldp	x26, x25, [sp, #16]
	ldp	x28, x27, [sp], #96
	ret
Lunix_path_BB19_113:
	mov	w0, #1
	b	Lunix_path_BB19_112
	.section	__TEXT,__literal16,16byte_literals
	.p2align	4, 0x0
lunix_path_CPI20_0:
	.byte	1
	.byte	2
	.byte	4
	.byte	8
	.byte	16
	.byte	32
	.byte	64
	.byte	128
	.byte	1
	.byte	2
	.byte	4
	.byte	8
	.byte	16
	.byte	32
	.byte	64
	.byte	128
	.section	__TEXT,__literal8,8byte_literals
	.p2align	3, 0x0
lunix_path_CPI20_1:
	.byte	1
	.byte	2
	.byte	4
	.byte	8
	.byte	16
	.byte	32
	.byte	64
	.byte	128
	.section	__TEXT,__text,regular,pure_instructions
	.p2align	2
; path_keys::decode::path_len
_path_keys.decode.path_len:
	subs	x8, x1, #2
	b.hs	Lunix_path_BB20_2
	mov	x10, #0
	b	Lunix_path_BB20_7
Lunix_path_BB20_2:
	ldrb	w9, [x0]
	cbz	w9, Lunix_path_BB20_4
	mov	x10, #0
	b	Lunix_path_BB20_7
Lunix_path_BB20_4:
	ldrb	w9, [x0, #1]
	add	x11, x0, #2
	mov	w10, #2
	cmp	w9, #1
	cset	x12, eq
	csel	x13, x1, x8, ne
	csel	x14, x0, x11, ne
	cmp	w9, #2
	csel	x10, x10, x12, eq
	csel	x1, x8, x13, eq
	csel	x0, x11, x14, eq
	b	Lunix_path_BB20_7
Lunix_path_BB20_5:
	mov	w8, #2
	mov	w9, #3
Lunix_path_BB20_6:
	add	x10, x9, x10
	add	x0, x0, x8
	sub	x1, x1, x8
Lunix_path_BB20_7:
	cmp	x1, #1
	b.eq	Lunix_path_BB20_12
	cbz	x1, Lunix_path_BB20_47
	ldrb	w8, [x0]
	ldrb	w9, [x0, #1]
	cmp	w8, #0
	ccmp	w9, #3, #0, eq
	b.eq	Lunix_path_BB20_5
	cmp	w8, #47
	b.eq	Lunix_path_BB20_13
Lunix_path_BB20_11:
	cbnz	w8, Lunix_path_BB20_18
	b	Lunix_path_BB20_48
Lunix_path_BB20_12:
	ldrb	w8, [x0]
	cmp	w8, #47
	b.ne	Lunix_path_BB20_11
Lunix_path_BB20_13:
	cmp	x1, #1
	b.eq	Lunix_path_BB20_45
	ldrb	w9, [x0, #1]
	cmp	w9, #47
	b.eq	Lunix_path_BB20_16
	mov	x8, x9
	cbnz	w9, Lunix_path_BB20_18
	b	Lunix_path_BB20_46
Lunix_path_BB20_16:
	cmp	x1, #3
	b.lo	Lunix_path_BB20_45
	ldrb	w8, [x0, #2]
	cbz	w8, Lunix_path_BB20_49
Lunix_path_BB20_18:
	cmp	x1, #18
	b.hi	Lunix_path_BB20_21
	cmp	x1, #9
	b.hs	Lunix_path_BB20_29
	mov	x8, #0
	cmp	x8, x1
	b.lo	Lunix_path_BB20_38
	b	Lunix_path_BB20_33
Lunix_path_BB20_21:
	adrp	x9, lunix_path_CPI20_0@PAGE
	mov	x11, #0
	subs	x8, x1, #19
	b.ne	Lunix_path_BB20_25
Lunix_path_BB20_22:
	sub	x12, x1, #17
	cmp	x12, x11
	csel	x11, x12, x11, lo
	add	x12, x0, x11
	ldr	q0, [x12]
	ldur	q1, [x12, #1]
	movi.16b	v2, #208
	and.16b	v1, v1, v2
	orr.16b	v0, v1, v0
	cmeq.16b	v1, v0, #0
	ldr	q0, [x9, lunix_path_CPI20_0@PAGEOFF]
	and.16b	v1, v1, v0
	addp.16b	v1, v1, v1
	addp.16b	v1, v1, v1
	addp.16b	v1, v1, v1
	umov.h	w9, v1[0]
	cbz	w9, Lunix_path_BB20_35
	add	x9, x0, x8
	ldr	q1, [x9]
	ldur	q2, [x9, #1]
	ldur	q3, [x9, #2]
	ldur	q4, [x9, #3]
	movi.16b	v5, #47
	cmeq.16b	v6, v3, v5
	cmeq.16b	v4, v4, #0
	and.16b	v4, v6, v4
	cmeq.16b	v5, v2, v5
	cmeq.16b	v3, v3, #0
	orr.16b	v3, v3, v4
	and.16b	v3, v5, v3
	cmeq.16b	v1, v1, #0
	cmeq.16b	v2, v2, #0
	orr.16b	v2, v2, v3
	and.16b	v0, v1, v0
	and.16b	v0, v0, v2
	addp.16b	v0, v0, v0
	addp.16b	v0, v0, v0
	addp.16b	v0, v0, v0
	umov.h	w9, v0[0]
	orr	w9, w9, #0x10000
	rbit	w9, w9
	clz	w9, w9
	add	x8, x8, x9
	cmp	x8, x1
	b.lo	Lunix_path_BB20_38
	b	Lunix_path_BB20_33
Lunix_path_BB20_24:
	cmp	x11, x8
	b.hs	Lunix_path_BB20_22
Lunix_path_BB20_25:
	add	x12, x0, x11
	ldr	q0, [x12]
	ldur	q1, [x12, #1]
	movi.16b	v2, #208
	and.16b	v2, v1, v2
	orr.16b	v2, v2, v0
	cmeq.16b	v3, v2, #0
	ldr	q2, [x9, lunix_path_CPI20_0@PAGEOFF]
	and.16b	v3, v3, v2
	addp.16b	v3, v3, v3
	addp.16b	v3, v3, v3
	addp.16b	v3, v3, v3
	umov.h	w13, v3[0]
	cbz	w13, Lunix_path_BB20_28
	ldur	q3, [x12, #2]
	ldur	q4, [x12, #3]
	movi.16b	v5, #47
	cmeq.16b	v6, v3, v5
	cmeq.16b	v4, v4, #0
	and.16b	v4, v6, v4
	cmeq.16b	v5, v1, v5
	cmeq.16b	v3, v3, #0
	orr.16b	v3, v3, v4
	and.16b	v3, v5, v3
	cmeq.16b	v0, v0, #0
	cmeq.16b	v1, v1, #0
	orr.16b	v1, v1, v3
	and.16b	v0, v0, v2
	and.16b	v0, v0, v1
	addp.16b	v0, v0, v0
	addp.16b	v0, v0, v0
	addp.16b	v0, v0, v0
	umov.h	w12, v0[0]
	orr	w12, w12, #0x10000
	rbit	w12, w12
	clz	w12, w12
	cmp	w12, #15
	b.ls	Lunix_path_BB20_31
	add	x11, x11, #16
	b	Lunix_path_BB20_24
Lunix_path_BB20_28:
	add	x11, x11, #16
	cmp	x11, x8
	b.lo	Lunix_path_BB20_25
	b	Lunix_path_BB20_24
Lunix_path_BB20_29:
	ldr	d1, [x0]
	ldur	d2, [x0, #1]
	cmeq.8b	v3, v2, #0
	movi.8b	v0, #47
	cmeq.8b	v2, v2, v0
	orr.8b	v2, v3, v2
	cmeq.8b	v3, v1, #0
Lunix_path_loh26:
	adrp	x8, lunix_path_CPI20_1@PAGE
Lunix_path_loh27:
	ldr	d1, [x8, lunix_path_CPI20_1@PAGEOFF]
	and.8b	v3, v3, v1
	and.8b	v2, v3, v2
	addv.8b	b2, v2
	fmov	w8, s2
	orr	w8, w8, #0x100
	rbit	w8, w8
	clz	w8, w8
	cmp	w8, #8
	b.lo	Lunix_path_BB20_32
	mov	w8, #17
	cmp	x1, #17
	csel	x8, x1, x8, lo
	sub	x8, x8, #9
	add	x9, x0, x8
	ldr	d2, [x9]
	ldur	d3, [x9, #1]
	cmeq.8b	v4, v3, #0
	cmeq.8b	v0, v3, v0
	orr.8b	v0, v4, v0
	cmeq.8b	v2, v2, #0
	and.8b	v1, v2, v1
	and.8b	v0, v1, v0
	addv.8b	b0, v0
	fmov	w9, s0
	orr	w9, w9, #0x100
	rbit	w9, w9
	clz	w9, w9
	add	x8, x8, x9
	cmp	x8, x1
	b.lo	Lunix_path_BB20_38
	b	Lunix_path_BB20_33
Lunix_path_BB20_31:
	add	x8, x11, w12, uxtw
Lunix_path_BB20_32:
	cmp	x8, x1
	b.lo	Lunix_path_BB20_38
Lunix_path_BB20_33:
	cmp	x8, x1
	b.eq	Lunix_path_BB20_45
	add	x9, x8, #1
	mov	x8, x9
	b	Lunix_path_BB20_6
Lunix_path_BB20_35:
	add	x8, x11, #16
	cmp	x8, x1
	b.lo	Lunix_path_BB20_38
	b	Lunix_path_BB20_33
Lunix_path_BB20_36:
	cbz	w11, Lunix_path_BB20_33
Lunix_path_BB20_37:
	mov	x8, x9
	cmp	x1, x9
	b.eq	Lunix_path_BB20_45
Lunix_path_BB20_38:
	ldrb	w11, [x0, x8]
	add	x9, x8, #1
	cbnz	w11, Lunix_path_BB20_37
	cmp	x1, x9
	b.ls	Lunix_path_BB20_33
	add	x11, x0, x8
	ldrb	w11, [x11, #1]
	cmp	w11, #47
	b.ne	Lunix_path_BB20_36
	add	x11, x8, #2
	cmp	x1, x11
	b.ls	Lunix_path_BB20_33
	add	x11, x0, x8
	ldrb	w11, [x11, #2]
	cmp	w11, #47
	b.ne	Lunix_path_BB20_36
	add	x11, x8, #3
	cmp	x1, x11
	b.ls	Lunix_path_BB20_33
	add	x11, x0, x8
	ldrb	w11, [x11, #3]
	cbnz	w11, Lunix_path_BB20_37
	b	Lunix_path_BB20_33
Lunix_path_BB20_45:
	mov	x9, #0
	mov	w8, #0
Lunix_path_BB20_46:
	mov	x0, x8
	mov	x1, x9
	ret
Lunix_path_BB20_47:
	cmp	x10, #1
	cset	w8, hi
	sub	x9, x10, x8
	mov	w8, #1
	mov	x0, x8
	mov	x1, x9
	ret
Lunix_path_BB20_48:
	mov	w9, w8
	mov	x0, x8
	mov	x1, x9
	ret
Lunix_path_BB20_49:
	mov	x9, #0
	mov	x0, x8
	mov	x1, x9
	ret
	.loh AdrpLdr	Lunix_path_loh26, Lunix_path_loh27
	.p2align	2
; core::hash::sip::DefaultHasherHasher::write
_core.hash.sip.DefaultHasherHasher.write:
	ldr	x8, [x0, #40]
	neg	w9, w8
	ands	x9, x9, #0x7
	b.eq	Lunix_path_BB21_4
	ldrb	w10, [x1]
	ubfiz	x11, x8, #3, #3
	lsl	x10, x10, x11
	ldr	x11, [x0, #32]
	orr	x10, x10, x11
	add	x11, x8, #1
	stp	x10, x11, [x0, #32]
	tst	x11, #0x7
	b.eq	Lunix_path_BB21_5
	cmp	x9, #1
	b.ne	Lunix_path_BB21_6
Lunix_path_BB21_3:
	mov	w10, #1
	mov	x8, x11
	b	Lunix_path_BB21_29
Lunix_path_BB21_4:
	mov	x10, #0
	b	Lunix_path_BB21_29
Lunix_path_BB21_5:
	ldp	x13, x12, [x0, #16]
	eor	x12, x12, x10
	ldp	x14, x15, [x0]
	add	x14, x15, x14
	eor	x15, x14, x15, ror #51
	add	x13, x13, x12
	add	x16, x13, x15
	eor	x12, x13, x12, ror #48
	ror	x13, x14, #32
	add	x13, x12, x13
	eor	x10, x13, x10
	eor	x12, x13, x12, ror #43
	ror	x13, x16, #32
	stp	x13, x12, [x0, #16]
	eor	x12, x16, x15, ror #47
	stp	x10, x12, [x0]
	str	xzr, [x0, #32]
	mov	x10, #0
	cmp	x9, #1
	b.eq	Lunix_path_BB21_3
Lunix_path_BB21_6:
	ldrb	w12, [x1, #1]
	ubfiz	x11, x11, #3, #3
	lsl	x11, x12, x11
	orr	x10, x11, x10
	add	x11, x8, #2
	stp	x10, x11, [x0, #32]
	tst	x11, #0x7
	b.eq	Lunix_path_BB21_9
	cmp	x9, #2
	b.ne	Lunix_path_BB21_10
Lunix_path_BB21_8:
	mov	w10, #2
	mov	x8, x11
	b	Lunix_path_BB21_29
Lunix_path_BB21_9:
	ldp	x13, x12, [x0, #16]
	eor	x12, x12, x10
	ldp	x14, x15, [x0]
	add	x14, x15, x14
	eor	x15, x14, x15, ror #51
	add	x13, x13, x12
	add	x16, x13, x15
	eor	x12, x13, x12, ror #48
	ror	x13, x14, #32
	add	x13, x12, x13
	eor	x10, x13, x10
	eor	x12, x13, x12, ror #43
	ror	x13, x16, #32
	stp	x13, x12, [x0, #16]
	eor	x12, x16, x15, ror #47
	stp	x10, x12, [x0]
	str	xzr, [x0, #32]
	mov	x10, #0
	cmp	x9, #2
	b.eq	Lunix_path_BB21_8
Lunix_path_BB21_10:
	ldrb	w12, [x1, #2]
	ubfiz	x11, x11, #3, #3
	lsl	x11, x12, x11
	orr	x10, x11, x10
	add	x11, x8, #3
	stp	x10, x11, [x0, #32]
	tst	x11, #0x7
	b.eq	Lunix_path_BB21_13
	cmp	x9, #3
	b.ne	Lunix_path_BB21_14
Lunix_path_BB21_12:
	mov	w10, #3
	mov	x8, x11
	b	Lunix_path_BB21_29
Lunix_path_BB21_13:
	ldp	x13, x12, [x0, #16]
	eor	x12, x12, x10
	ldp	x14, x15, [x0]
	add	x14, x15, x14
	eor	x15, x14, x15, ror #51
	add	x13, x13, x12
	add	x16, x13, x15
	eor	x12, x13, x12, ror #48
	ror	x13, x14, #32
	add	x13, x12, x13
	eor	x10, x13, x10
	eor	x12, x13, x12, ror #43
	ror	x13, x16, #32
	stp	x13, x12, [x0, #16]
	eor	x12, x16, x15, ror #47
	stp	x10, x12, [x0]
	str	xzr, [x0, #32]
	mov	x10, #0
	cmp	x9, #3
	b.eq	Lunix_path_BB21_12
Lunix_path_BB21_14:
	ldrb	w12, [x1, #3]
	ubfiz	x11, x11, #3, #3
	lsl	x11, x12, x11
	orr	x10, x11, x10
	add	x11, x8, #4
	stp	x10, x11, [x0, #32]
	tst	x11, #0x7
	b.ne	Lunix_path_BB21_16
	ldp	x13, x12, [x0, #16]
	eor	x12, x12, x10
	ldp	x14, x15, [x0]
	add	x14, x15, x14
	eor	x15, x14, x15, ror #51
	add	x13, x13, x12
	add	x16, x13, x15
	eor	x12, x13, x12, ror #48
	ror	x13, x14, #32
	add	x13, x12, x13
	eor	x10, x13, x10
	eor	x12, x13, x12, ror #43
	ror	x13, x16, #32
	stp	x13, x12, [x0, #16]
	eor	x12, x16, x15, ror #47
	stp	x10, x12, [x0]
	str	xzr, [x0, #32]
	mov	x10, #0
Lunix_path_BB21_16:
	cmp	x9, #4
	b.ne	Lunix_path_BB21_18
	mov	w10, #4
	mov	x8, x11
	b	Lunix_path_BB21_29
Lunix_path_BB21_18:
	ldrb	w12, [x1, #4]
	ubfiz	x11, x11, #3, #3
	lsl	x11, x12, x11
	orr	x10, x11, x10
	add	x11, x8, #5
	stp	x10, x11, [x0, #32]
	tst	x11, #0x7
	b.ne	Lunix_path_BB21_20
	ldp	x13, x12, [x0, #16]
	eor	x12, x12, x10
	ldp	x14, x15, [x0]
	add	x14, x15, x14
	eor	x15, x14, x15, ror #51
	add	x13, x13, x12
	add	x16, x13, x15
	eor	x12, x13, x12, ror #48
	ror	x13, x14, #32
	add	x13, x12, x13
	eor	x10, x13, x10
	eor	x12, x13, x12, ror #43
	ror	x13, x16, #32
	stp	x13, x12, [x0, #16]
	eor	x12, x16, x15, ror #47
	stp	x10, x12, [x0]
	str	xzr, [x0, #32]
	mov	x10, #0
Lunix_path_BB21_20:
	cmp	x9, #5
	b.ne	Lunix_path_BB21_22
	mov	w10, #5
	mov	x8, x11
	b	Lunix_path_BB21_29
Lunix_path_BB21_22:
	ldrb	w12, [x1, #5]
	ubfiz	x11, x11, #3, #3
	lsl	x11, x12, x11
	orr	x10, x11, x10
	add	x11, x8, #6
	stp	x10, x11, [x0, #32]
	tst	x11, #0x7
	b.ne	Lunix_path_BB21_24
	ldp	x13, x12, [x0, #16]
	eor	x12, x12, x10
	ldp	x14, x15, [x0]
	add	x14, x15, x14
	eor	x15, x14, x15, ror #51
	add	x13, x13, x12
	add	x16, x13, x15
	eor	x12, x13, x12, ror #48
	ror	x13, x14, #32
	add	x13, x12, x13
	eor	x10, x13, x10
	eor	x12, x13, x12, ror #43
	ror	x13, x16, #32
	stp	x13, x12, [x0, #16]
	eor	x12, x16, x15, ror #47
	stp	x10, x12, [x0]
	str	xzr, [x0, #32]
	mov	x10, #0
Lunix_path_BB21_24:
	cmp	x9, #6
	b.ne	Lunix_path_BB21_26
	mov	w10, #6
	mov	x8, x11
	b	Lunix_path_BB21_29
Lunix_path_BB21_26:
	ldrb	w12, [x1, #6]
	ubfiz	x11, x11, #3, #3
	lsl	x11, x12, x11
	orr	x10, x11, x10
	add	x8, x8, #7
	stp	x10, x8, [x0, #32]
	tst	x8, #0x7
	b.ne	Lunix_path_BB21_28
	ldp	x12, x11, [x0, #16]
	eor	x11, x11, x10
	ldp	x13, x14, [x0]
	add	x13, x14, x13
	eor	x14, x13, x14, ror #51
	add	x12, x12, x11
	add	x15, x12, x14
	eor	x11, x12, x11, ror #48
	ror	x12, x13, #32
	add	x12, x11, x12
	eor	x10, x12, x10
	eor	x11, x12, x11, ror #43
	ror	x12, x15, #32
	stp	x12, x11, [x0, #16]
	eor	x11, x15, x14, ror #47
	stp	x10, x11, [x0]
	str	xzr, [x0, #32]
Lunix_path_BB21_28:
	mov	w10, #7
Lunix_path_BB21_29:
	tst	x8, #0x7
	b.ne	Lunix_path_BB21_34
	ldr	x11, [x0, #32]
	orr	x9, x9, x11
	cbnz	x9, Lunix_path_BB21_34
	ldp	x11, x9, [x0]
	ldp	x12, x13, [x0, #16]
Lunix_path_BB21_32:
	ldr	x14, [x1, x10]
	eor	x13, x14, x13
	add	x11, x11, x9
	eor	x9, x11, x9, ror #51
	add	x12, x13, x12
	add	x15, x12, x9
	eor	x12, x12, x13, ror #48
	ror	x11, x11, #32
	eor	x9, x15, x9, ror #47
	add	x13, x12, x11
	eor	x11, x13, x14
	eor	x13, x13, x12, ror #43
	ror	x12, x15, #32
	stp	x12, x13, [x0, #16]
	stp	x11, x9, [x0]
	add	x8, x8, #8
	str	x8, [x0, #40]
	sub	x14, x10, #1
	add	x10, x10, #8
	cmn	x14, #8
	b.lo	Lunix_path_BB21_32
	sub	x9, x10, #8
	cmn	x9, #8
	b.lo	Lunix_path_BB21_38
Lunix_path_BB21_34:
	ldr	x11, [x0, #32]
	add	x9, x8, #1
	lsl	x8, x8, #3
	b	Lunix_path_BB21_36
Lunix_path_BB21_35:
	add	x10, x10, #1
	add	x9, x9, #1
	add	x8, x8, #8
	cmp	x10, #8
	b.eq	Lunix_path_BB21_38
Lunix_path_BB21_36:
	ldrb	w12, [x1, x10]
	and	x13, x8, #0x38
	lsl	x12, x12, x13
	orr	x11, x12, x11
	stp	x11, x9, [x0, #32]
	tst	x9, #0x7
	b.ne	Lunix_path_BB21_35
	ldp	x13, x12, [x0, #16]
	eor	x12, x12, x11
	ldp	x14, x15, [x0]
	add	x14, x15, x14
	eor	x15, x14, x15, ror #51
	add	x13, x13, x12
	add	x16, x13, x15
	eor	x12, x13, x12, ror #48
	ror	x13, x14, #32
	add	x13, x12, x13
	eor	x11, x13, x11
	eor	x12, x13, x12, ror #43
	ror	x13, x16, #32
	stp	x13, x12, [x0, #16]
	eor	x12, x16, x15, ror #47
	stp	x11, x12, [x0]
	str	xzr, [x0, #32]
	mov	x11, #0
	b	Lunix_path_BB21_35
Lunix_path_BB21_38:
	ret
	.section	__TEXT,__literal16,16byte_literals
	.p2align	4, 0x0
lunix_path_CPI22_0:
	.byte	1
	.byte	2
	.byte	4
	.byte	8
	.byte	16
	.byte	32
	.byte	64
	.byte	128
	.byte	1
	.byte	2
	.byte	4
	.byte	8
	.byte	16
	.byte	32
	.byte	64
	.byte	128
	.section	__TEXT,__text,regular,pure_instructions
	.p2align	2
; path_runs::canonical::is_canonical
_path_runs.canonical.is_canonical:
	stp	x20, x19, [sp, #-32]!
	stp	x29, x30, [sp, #16]
	add	x29, sp, #16
	mov	x20, x1
	mov	x19, x0
	cbz	x1, Lunix_path_BB22_9
	mov	x8, x20
	b	Lunix_path_BB22_3
Lunix_path_BB22_2:
	mov	x8, x1
	cbz	x1, Lunix_path_BB22_10
Lunix_path_BB22_3:
	subs	x1, x8, #1
	b.eq	Lunix_path_BB22_10
	add	x9, x19, x1
	ldrb	w10, [x9]
	cmp	w10, #47
	b.eq	Lunix_path_BB22_7
	cmp	w10, #46
	b.ne	Lunix_path_BB22_10
	ldurb	w9, [x9, #-1]
	cmp	w9, #47
	b.ne	Lunix_path_BB22_10
Lunix_path_BB22_7:
	sub	x8, x20, x1
	cmp	x8, #8
	b.ne	Lunix_path_BB22_2
	mov	x0, x19
	bl	_unix_path.filler.trimmed_blocks_len
	mov	x1, x0
	b	Lunix_path_BB22_2
Lunix_path_BB22_9:
	mov	x8, #0
Lunix_path_BB22_10:
	cmp	x8, x20
	b.hs	Lunix_path_BB22_12
	mov	w0, #0
	ldp	x29, x30, [sp, #16]
	ldp	x20, x19, [sp], #32
	ret
Lunix_path_BB22_12:
	subs	x9, x8, #2
	b.hs	Lunix_path_BB22_14
	mov	w0, #1
	ldp	x29, x30, [sp, #16]
	ldp	x20, x19, [sp], #32
	ret
Lunix_path_BB22_14:
	subs	x10, x8, #18
	b.hs	Lunix_path_BB22_16
	mov	x10, #0
	cmp	x10, x8
	b.hs	Lunix_path_BB22_21
	b	Lunix_path_BB22_23
Lunix_path_BB22_16:
	adrp	x11, lunix_path_CPI22_0@PAGE
	b.eq	Lunix_path_BB22_20
	mov	x12, #0
Lunix_path_BB22_18:
	add	x13, x19, x12
	ldr	q0, [x13]
	ldur	q1, [x13, #1]
	ldur	q2, [x13, #2]
	movi.16b	v3, #46
	cmeq.16b	v3, v1, v3
	movi.16b	v4, #47
	cmeq.16b	v2, v2, v4
	and.16b	v2, v3, v2
	cmeq.16b	v0, v0, v4
	cmeq.16b	v1, v1, v4
	orr.16b	v1, v1, v2
	ldr	q2, [x11, lunix_path_CPI22_0@PAGEOFF]
	and.16b	v0, v0, v2
	and.16b	v0, v0, v1
	addp.16b	v0, v0, v0
	addp.16b	v0, v0, v0
	addp.16b	v0, v0, v0
	umov.h	w13, v0[0]
	orr	w13, w13, #0x10000
	rbit	w13, w13
	clz	w13, w13
	cmp	w13, #15
	b.ls	Lunix_path_BB22_22
	add	x12, x12, #16
	cmp	x12, x10
	b.lo	Lunix_path_BB22_18
Lunix_path_BB22_20:
	add	x12, x19, x10
	ldr	q0, [x12]
	ldur	q1, [x12, #1]
	ldur	q2, [x12, #2]
	movi.16b	v3, #46
	cmeq.16b	v3, v1, v3
	movi.16b	v4, #47
	cmeq.16b	v2, v2, v4
	and.16b	v2, v3, v2
	cmeq.16b	v0, v0, v4
	cmeq.16b	v1, v1, v4
	orr.16b	v1, v1, v2
	ldr	q2, [x11, lunix_path_CPI22_0@PAGEOFF]
	and.16b	v0, v0, v2
	and.16b	v0, v0, v1
	addp.16b	v0, v0, v0
	addp.16b	v0, v0, v0
	addp.16b	v0, v0, v0
	umov.h	w11, v0[0]
	orr	w11, w11, #0x10000
	rbit	w11, w11
	clz	w11, w11
	add	x10, x10, x11
	cmp	x10, x8
	b.lo	Lunix_path_BB22_23
Lunix_path_BB22_21:
	cmp	x10, x8
	cset	w0, eq
	ldp	x29, x30, [sp, #16]
	ldp	x20, x19, [sp], #32
	ret
Lunix_path_BB22_22:
	add	x10, x12, w13, uxtw
	cmp	x10, x8
	b.hs	Lunix_path_BB22_21
Lunix_path_BB22_23:
	sub	x11, x8, #1
	b	Lunix_path_BB22_26
Lunix_path_BB22_24:
	cmp	w12, #47
	b.eq	Lunix_path_BB22_21
Lunix_path_BB22_25:
	add	x10, x10, #1
	cmp	x8, x10
	b.eq	Lunix_path_BB22_31
Lunix_path_BB22_26:
	ldrb	w12, [x19, x10]
	cmp	w12, #47
	b.ne	Lunix_path_BB22_25
	cmp	x11, x10
	b.eq	Lunix_path_BB22_21
	add	x12, x19, x10
	ldrb	w12, [x12, #1]
	cmp	w12, #46
	b.ne	Lunix_path_BB22_24
	cmp	x9, x10
	b.eq	Lunix_path_BB22_21
	add	x12, x19, x10
	ldrb	w12, [x12, #2]
	b	Lunix_path_BB22_24
Lunix_path_BB22_31:
	cmp	x8, x8
	cset	w0, eq
	ldp	x29, x30, [sp, #16]
	ldp	x20, x19, [sp], #32
	ret
	.section	__TEXT,__literal16,16byte_literals
	.p2align	4, 0x0
lunix_path_CPI23_0:
	.byte	1
	.byte	2
	.byte	4
	.byte	8
	.byte	16
	.byte	32
	.byte	64
	.byte	128
	.byte	1
	.byte	2
	.byte	4
	.byte	8
	.byte	16
	.byte	32
	.byte	64
	.byte	128
	.section	__TEXT,__text,regular,pure_instructions
	.p2align	2
; unix_bytes::utf8::scans::scan_by_sequence
_unix_bytes.utf8.scans.scan_by_sequence:
	mov	x8, x1
	subs	x9, x1, x2
	b.eq	Lunix_path_BB23_73
	add	x10, x0, x2
	b	Lunix_path_BB23_4
Lunix_path_BB23_2:
	mov	w12, #1
Lunix_path_BB23_3:
	add	x10, x10, x12
	sub	x9, x9, x12
	cbz	x9, Lunix_path_BB23_73
Lunix_path_BB23_4:
	ldrsb	w11, [x10]
	tbnz	w11, #31, Lunix_path_BB23_13
	cmp	x9, #8
	b.lo	Lunix_path_BB23_2
	ldrsb	w11, [x10, #1]
	tbnz	w11, #31, Lunix_path_BB23_2
	subs	x11, x9, #16
	b.lo	Lunix_path_BB23_28
	adrp	x12, lunix_path_CPI23_0@PAGE
	cmp	x9, #64
	b.lo	Lunix_path_BB23_40
	mov	x13, #0
	mov	x14, x9
Lunix_path_BB23_10:
	add	x15, x10, x13
	ldp	q0, q1, [x15]
	ldp	q2, q3, [x15, #32]
	cmlt.16b	v3, v3, #0
	cmlt.16b	v2, v2, #0
	cmlt.16b	v1, v1, #0
	cmlt.16b	v0, v0, #0
	ldr	q4, [x12, lunix_path_CPI23_0@PAGEOFF]
	and.16b	v0, v0, v4
	and.16b	v1, v1, v4
	and.16b	v2, v2, v4
	and.16b	v3, v3, v4
	addp.16b	v0, v0, v1
	addp.16b	v1, v2, v3
	addp.16b	v0, v0, v1
	addp.16b	v0, v0, v0
	fmov	x15, d0
	cbnz	x15, Lunix_path_BB23_41
	add	x13, x13, #64
	sub	x14, x14, #64
	cmp	x14, #63
	b.hi	Lunix_path_BB23_10
	and	x13, x9, #0xffffffffffffffc0
	cmp	x13, x11
	b.lo	Lunix_path_BB23_42
	b	Lunix_path_BB23_44
Lunix_path_BB23_13:
	and	w11, w11, #0xff
	sub	w12, w11, #194
	cmp	w12, #29
	b.hi	Lunix_path_BB23_23
	cmp	x9, #1
	b.eq	Lunix_path_BB23_103
	ldrsb	w11, [x10, #1]
	cmn	w11, #64
	b.ge	Lunix_path_BB23_103
	add	x11, x10, #2
	sub	x12, x9, #2
	cmp	x12, #2
	b.lo	Lunix_path_BB23_39
	ldrb	w13, [x11]
	sub	w13, w13, #194
	cmp	w13, #29
	b.hi	Lunix_path_BB23_46
	mov	x14, #0
	and	x12, x9, #0xfffffffffffffffe
	sub	x13, x12, #2
	sub	x15, x9, #4
Lunix_path_BB23_19:
	mov	x12, x15
	add	x9, x10, x14
	ldrsb	w9, [x9, #3]
	cmn	w9, #65
	b.gt	Lunix_path_BB23_71
	cmp	x12, #1
	b.ls	Lunix_path_BB23_72
	add	x9, x14, #2
	add	x14, x10, x14
	ldrb	w14, [x14, #4]
	sub	w16, w14, #194
	sub	x15, x12, #2
	mov	x14, x9
	cmp	w16, #29
	b.ls	Lunix_path_BB23_19
	add	x10, x11, x9
	mov	x9, x12
	cbnz	x12, Lunix_path_BB23_4
	b	Lunix_path_BB23_73
Lunix_path_BB23_23:
	and	w12, w11, #0xf0
	cmp	w12, #224
	b.ne	Lunix_path_BB23_34
	subs	x13, x9, #3
	b.lo	Lunix_path_BB23_74
	ldrb	w12, [x10, #1]
	cmp	w11, #237
	b.eq	Lunix_path_BB23_47
	cmp	w11, #224
	b.ne	Lunix_path_BB23_48
	and	w14, w12, #0xe0
	cmp	w14, #160
	b.eq	Lunix_path_BB23_49
	b	Lunix_path_BB23_103
Lunix_path_BB23_28:
	ldr	d0, [x10]
	cmlt.8b	v0, v0, #0
	umaxv.8b	b0, v0
	fmov	w11, s0
	tbnz	w11, #0, Lunix_path_BB23_30
	add	x11, x10, x9
	ldur	d0, [x11, #-8]
	cmlt.8b	v0, v0, #0
	umaxv.8b	b0, v0
	fmov	w11, s0
	mov	x12, x9
	tbz	w11, #0, Lunix_path_BB23_3
Lunix_path_BB23_30:
	mov	x12, #0
Lunix_path_BB23_31:
	ldrsb	w11, [x10, x12]
	tbnz	w11, #31, Lunix_path_BB23_3
	add	x12, x12, #1
	cmp	x9, x12
	b.ne	Lunix_path_BB23_31
	mov	x12, x9
	b	Lunix_path_BB23_3
Lunix_path_BB23_34:
	sub	w12, w11, #240
	cmp	w12, #4
	b.hi	Lunix_path_BB23_103
	cmp	x9, #4
	b.lo	Lunix_path_BB23_80
	ldrb	w12, [x10, #1]
	cmp	w11, #244
	b.eq	Lunix_path_BB23_51
	cmp	w11, #240
	b.ne	Lunix_path_BB23_52
	sub	w13, w12, #144
	cmp	w13, #48
	b.lo	Lunix_path_BB23_53
	b	Lunix_path_BB23_103
Lunix_path_BB23_39:
	mov	x9, #0
	add	x10, x11, x9
	mov	x9, x12
	cbnz	x12, Lunix_path_BB23_4
	b	Lunix_path_BB23_73
Lunix_path_BB23_40:
	mov	x13, #0
Lunix_path_BB23_41:
	cmp	x13, x11
	b.hs	Lunix_path_BB23_44
Lunix_path_BB23_42:
	ldr	q0, [x10, x13]
	cmlt.16b	v0, v0, #0
	ldr	q1, [x12, lunix_path_CPI23_0@PAGEOFF]
	and.16b	v0, v0, v1
	addp.16b	v0, v0, v0
	addp.16b	v0, v0, v0
	addp.16b	v0, v0, v0
	umov.h	w14, v0[0]
	cbnz	w14, Lunix_path_BB23_70
	add	x13, x13, #16
	cmp	x13, x11
	b.lo	Lunix_path_BB23_42
Lunix_path_BB23_44:
	ldr	q0, [x10, x11]
	cmlt.16b	v0, v0, #0
	ldr	q1, [x12, lunix_path_CPI23_0@PAGEOFF]
	and.16b	v0, v0, v1
	addp.16b	v0, v0, v0
	addp.16b	v0, v0, v0
	addp.16b	v0, v0, v0
	umov.h	w13, v0[0]
	mov	x12, x9
	cbz	w13, Lunix_path_BB23_3
	umov.h	w12, v0[0]
	rbit	w12, w12
	clz	w12, w12
	add	x12, x11, x12
	b	Lunix_path_BB23_3
Lunix_path_BB23_46:
	mov	x9, #0
	add	x10, x11, x9
	mov	x9, x12
	cbnz	x12, Lunix_path_BB23_4
	b	Lunix_path_BB23_73
Lunix_path_BB23_47:
	sxtb	w14, w12
	cmn	w14, #96
	b.lt	Lunix_path_BB23_49
	b	Lunix_path_BB23_103
Lunix_path_BB23_48:
	sxtb	w14, w12
	cmn	w14, #65
	b.gt	Lunix_path_BB23_76
Lunix_path_BB23_49:
	ldrsb	w14, [x10, #2]
	cmn	w14, #64
	b.ge	Lunix_path_BB23_76
	add	x10, x10, #3
	mov	x9, x13
	cbnz	x13, Lunix_path_BB23_4
	b	Lunix_path_BB23_73
Lunix_path_BB23_51:
	sxtb	w13, w12
	cmn	w13, #112
	b.lt	Lunix_path_BB23_53
	b	Lunix_path_BB23_103
Lunix_path_BB23_52:
	sxtb	w13, w12
	cmn	w13, #65
	b.gt	Lunix_path_BB23_83
Lunix_path_BB23_53:
	ldrsb	w13, [x10, #2]
	cmn	w13, #65
	b.gt	Lunix_path_BB23_83
	ldrsb	w13, [x10, #3]
	cmn	w13, #64
	b.ge	Lunix_path_BB23_83
	add	x10, x10, #4
	subs	x11, x9, #4
	b.eq	Lunix_path_BB23_69
	mov	x12, x10
	mov	x9, x11
Lunix_path_BB23_57:
	cmp	x9, #4
	b.lo	Lunix_path_BB23_68
	ldrb	w14, [x12]
	sub	w13, w14, #240
	cmp	w13, #4
	b.hi	Lunix_path_BB23_68
	ldrb	w13, [x12, #1]
	cmp	w14, #244
	b.eq	Lunix_path_BB23_62
	cmp	w14, #240
	b.ne	Lunix_path_BB23_63
	sub	w13, w13, #144
	cmp	w13, #48
	b.lo	Lunix_path_BB23_65
	b	Lunix_path_BB23_68
Lunix_path_BB23_62:
	sxtb	w13, w13
	cmn	w13, #112
	b.lt	Lunix_path_BB23_65
	b	Lunix_path_BB23_68
Lunix_path_BB23_63:
	cmp	w14, #243
	b.hi	Lunix_path_BB23_68
	sxtb	w13, w13
	cmn	w13, #65
	b.gt	Lunix_path_BB23_68
Lunix_path_BB23_65:
	ldrsb	w13, [x12, #2]
	cmn	w13, #65
	b.gt	Lunix_path_BB23_68
	ldrsb	w13, [x12, #3]
	cmn	w13, #65
	b.gt	Lunix_path_BB23_68
	add	x12, x12, #4
	subs	x9, x9, #4
	b.ne	Lunix_path_BB23_57
Lunix_path_BB23_68:
	sub	x11, x11, x9
	add	x10, x10, x11
	cbnz	x9, Lunix_path_BB23_4
	b	Lunix_path_BB23_73
Lunix_path_BB23_69:
	mov	x9, #0
	sub	x11, x11, x9
	add	x10, x10, x11
	cbnz	x9, Lunix_path_BB23_4
	b	Lunix_path_BB23_73
Lunix_path_BB23_70:
	umov.h	w11, v0[0]
	rbit	w11, w11
	clz	w11, w11
	add	x12, x11, x13
	b	Lunix_path_BB23_3
Lunix_path_BB23_71:
	add	x12, x12, #2
	add	x10, x11, x14
	mov	x9, x12
	cbnz	x12, Lunix_path_BB23_4
	b	Lunix_path_BB23_73
Lunix_path_BB23_72:
	add	x10, x11, x13
	mov	x9, x12
	cbnz	x12, Lunix_path_BB23_4
Lunix_path_BB23_73:
	mov	x1, #0
	mov	x0, x8
	ret
Lunix_path_BB23_74:
	cmp	x9, #1
	b.eq	Lunix_path_BB23_103
	ldrb	w12, [x10, #1]
Lunix_path_BB23_76:
	cmp	w11, #239
	b.gt	Lunix_path_BB23_90
	cmp	w11, #224
	b.eq	Lunix_path_BB23_102
Lunix_path_BB23_78:
	cmp	w11, #237
	b.ne	Lunix_path_BB23_106
	sxtb	w10, w12
	cmn	w10, #96
	b.ge	Lunix_path_BB23_103
	b	Lunix_path_BB23_107
Lunix_path_BB23_80:
	cmp	x9, #1
	b.eq	Lunix_path_BB23_98
	cmp	x9, #3
	b.ne	Lunix_path_BB23_99
	ldrb	w12, [x10, #1]
Lunix_path_BB23_83:
	cmp	w11, #239
	b.gt	Lunix_path_BB23_87
	cmp	w11, #224
	b.eq	Lunix_path_BB23_94
	cmp	w11, #237
	b.ne	Lunix_path_BB23_93
	sxtb	w13, w12
	cmn	w13, #96
	b.lt	Lunix_path_BB23_96
	b	Lunix_path_BB23_103
Lunix_path_BB23_87:
	cmp	w11, #240
	b.eq	Lunix_path_BB23_95
	cmp	w11, #244
	b.ne	Lunix_path_BB23_93
	sxtb	w13, w12
	cmn	w13, #113
	b.le	Lunix_path_BB23_96
	b	Lunix_path_BB23_103
Lunix_path_BB23_90:
	cmp	w11, #240
	b.eq	Lunix_path_BB23_108
	cmp	w11, #244
	b.ne	Lunix_path_BB23_106
Lunix_path_BB23_92:
	sxtb	w10, w12
	cmn	w10, #113
	b.le	Lunix_path_BB23_107
	b	Lunix_path_BB23_103
Lunix_path_BB23_93:
	sxtb	w13, w12
	cmn	w13, #64
	b.lt	Lunix_path_BB23_96
	b	Lunix_path_BB23_100
Lunix_path_BB23_94:
	and	w13, w12, #0xe0
	cmp	w13, #160
	b.eq	Lunix_path_BB23_96
	b	Lunix_path_BB23_103
Lunix_path_BB23_95:
	sub	w13, w12, #144
	cmp	w13, #48
	b.hs	Lunix_path_BB23_103
Lunix_path_BB23_96:
	ldrsb	w10, [x10, #2]
	cmn	w10, #64
	b.ge	Lunix_path_BB23_100
	mov	w1, #3
	sub	x0, x8, x9
	ret
Lunix_path_BB23_98:
	mov	x1, x9
	sub	x0, x8, x9
	ret
Lunix_path_BB23_99:
	ldrb	w12, [x10, #1]
Lunix_path_BB23_100:
	cmp	w11, #239
	b.gt	Lunix_path_BB23_104
	cmp	w11, #224
	b.ne	Lunix_path_BB23_78
Lunix_path_BB23_102:
	and	w10, w12, #0xe0
	cmp	w10, #160
	b.eq	Lunix_path_BB23_107
Lunix_path_BB23_103:
	mov	w1, #1
	sub	x0, x8, x9
	ret
Lunix_path_BB23_104:
	cmp	w11, #240
	b.eq	Lunix_path_BB23_108
	cmp	w11, #244
	b.eq	Lunix_path_BB23_92
Lunix_path_BB23_106:
	sxtb	w10, w12
	cmn	w10, #64
	b.ge	Lunix_path_BB23_103
Lunix_path_BB23_107:
	mov	w1, #2
	sub	x0, x8, x9
	ret
Lunix_path_BB23_108:
	sub	w10, w12, #144
	cmp	w10, #48
	b.hs	Lunix_path_BB23_103
	b	Lunix_path_BB23_107
	.section	__TEXT,__literal16,16byte_literals
	.p2align	4, 0x0
lunix_path_CPI24_0:
	.byte	1
	.byte	2
	.byte	4
	.byte	8
	.byte	16
	.byte	32
	.byte	64
	.byte	128
	.byte	1
	.byte	2
	.byte	4
	.byte	8
	.byte	16
	.byte	32
	.byte	64
	.byte	128
	.section	__TEXT,__text,regular,pure_instructions
	.p2align	2
; unix_bytes::utf8::scans::scan_by_window
_unix_bytes.utf8.scans.scan_by_window:
	cmp	x2, x1
	b.hs	Lunix_path_BB24_62
	add	x8, x0, x1
	b	Lunix_path_BB24_5
Lunix_path_BB24_2:
	mov	w11, #1
Lunix_path_BB24_3:
	add	x2, x11, x2
Lunix_path_BB24_4:
	cmp	x2, x1
	b.hs	Lunix_path_BB24_62
Lunix_path_BB24_5:
	add	x10, x0, x2
	ldrsb	w12, [x10]
	sub	x11, x1, x2
	adrp	x9, lunix_path_CPI24_0@PAGE
	tbnz	w12, #31, Lunix_path_BB24_14
	cmp	x11, #8
	b.lo	Lunix_path_BB24_2
	ldrsb	w12, [x10, #1]
	tbnz	w12, #31, Lunix_path_BB24_2
	subs	x12, x11, #16
	b.lo	Lunix_path_BB24_23
	cmp	x11, #64
	b.lo	Lunix_path_BB24_33
	mov	x13, #0
	sub	x14, x1, x2
Lunix_path_BB24_11:
	add	x15, x10, x13
	ldp	q0, q1, [x15]
	ldp	q2, q3, [x15, #32]
	cmlt.16b	v3, v3, #0
	cmlt.16b	v2, v2, #0
	cmlt.16b	v1, v1, #0
	cmlt.16b	v0, v0, #0
	ldr	q4, [x9, lunix_path_CPI24_0@PAGEOFF]
	and.16b	v0, v0, v4
	and.16b	v1, v1, v4
	and.16b	v2, v2, v4
	and.16b	v3, v3, v4
	addp.16b	v0, v0, v1
	addp.16b	v1, v2, v3
	addp.16b	v0, v0, v1
	addp.16b	v0, v0, v0
	fmov	x15, d0
	cbnz	x15, Lunix_path_BB24_34
	add	x13, x13, #64
	sub	x14, x14, #64
	cmp	x14, #63
	b.hi	Lunix_path_BB24_11
	and	x13, x11, #0xffffffffffffffc0
	cmp	x13, x12
	b.lo	Lunix_path_BB24_35
	b	Lunix_path_BB24_37
Lunix_path_BB24_14:
	and	w12, w12, #0xff
	sub	w13, w12, #194
	cmp	w13, #29
	b.hi	Lunix_path_BB24_18
	cmp	x11, #2
	b.lo	Lunix_path_BB24_91
	ldrsb	w10, [x10, #1]
	cmn	w10, #64
	b.ge	Lunix_path_BB24_91
	mov	w10, #2
	add	x2, x10, x2
	cmp	x2, #3
	b.hs	Lunix_path_BB24_49
	b	Lunix_path_BB24_4
Lunix_path_BB24_18:
	and	w13, w12, #0xf0
	cmp	w13, #224
	b.ne	Lunix_path_BB24_28
	cmp	x11, #3
	b.lo	Lunix_path_BB24_63
	ldrb	w11, [x10, #1]
	cmp	w12, #237
	b.eq	Lunix_path_BB24_40
	cmp	w12, #224
	b.ne	Lunix_path_BB24_41
	and	w13, w11, #0xe0
	cmp	w13, #160
	b.eq	Lunix_path_BB24_42
	b	Lunix_path_BB24_91
Lunix_path_BB24_23:
	ldr	d0, [x10]
	cmlt.8b	v0, v0, #0
	umaxv.8b	b0, v0
	fmov	w9, s0
	tbnz	w9, #0, Lunix_path_BB24_25
	ldur	d0, [x8, #-8]
	cmlt.8b	v0, v0, #0
	umaxv.8b	b0, v0
	fmov	w9, s0
	tbz	w9, #0, Lunix_path_BB24_3
Lunix_path_BB24_25:
	mov	x9, #0
Lunix_path_BB24_26:
	ldrsb	w12, [x10, x9]
	tbnz	w12, #31, Lunix_path_BB24_39
	add	x9, x9, #1
	cmp	x11, x9
	b.ne	Lunix_path_BB24_26
	b	Lunix_path_BB24_3
Lunix_path_BB24_28:
	sub	w13, w12, #240
	cmp	w13, #4
	b.hi	Lunix_path_BB24_91
	cmp	x11, #4
	b.lo	Lunix_path_BB24_69
	ldrb	w11, [x10, #1]
	cmp	w12, #244
	b.eq	Lunix_path_BB24_44
	cmp	w12, #240
	b.ne	Lunix_path_BB24_45
	sub	w13, w11, #144
	cmp	w13, #48
	b.lo	Lunix_path_BB24_46
	b	Lunix_path_BB24_91
Lunix_path_BB24_33:
	mov	x13, #0
Lunix_path_BB24_34:
	cmp	x13, x12
	b.hs	Lunix_path_BB24_37
Lunix_path_BB24_35:
	ldr	q0, [x10, x13]
	cmlt.16b	v0, v0, #0
	ldr	q1, [x9, lunix_path_CPI24_0@PAGEOFF]
	and.16b	v0, v0, v1
	addp.16b	v0, v0, v0
	addp.16b	v0, v0, v0
	addp.16b	v0, v0, v0
	umov.h	w14, v0[0]
	cbnz	w14, Lunix_path_BB24_61
	add	x13, x13, #16
	cmp	x13, x12
	b.lo	Lunix_path_BB24_35
Lunix_path_BB24_37:
	ldr	q0, [x10, x12]
	cmlt.16b	v0, v0, #0
	ldr	q1, [x9, lunix_path_CPI24_0@PAGEOFF]
	and.16b	v0, v0, v1
	addp.16b	v0, v0, v0
	addp.16b	v0, v0, v0
	addp.16b	v0, v0, v0
	umov.h	w9, v0[0]
	cbz	w9, Lunix_path_BB24_3
	umov.h	w9, v0[0]
	rbit	w9, w9
	clz	w9, w9
	add	x11, x12, x9
	b	Lunix_path_BB24_3
Lunix_path_BB24_39:
	mov	x11, x9
	b	Lunix_path_BB24_3
Lunix_path_BB24_40:
	sxtb	w13, w11
	cmn	w13, #96
	b.lt	Lunix_path_BB24_42
	b	Lunix_path_BB24_91
Lunix_path_BB24_41:
	sxtb	w13, w11
	cmn	w13, #65
	b.gt	Lunix_path_BB24_65
Lunix_path_BB24_42:
	ldrsb	w10, [x10, #2]
	cmn	w10, #64
	b.ge	Lunix_path_BB24_65
	mov	w10, #3
	add	x2, x10, x2
	cmp	x2, #3
	b.hs	Lunix_path_BB24_49
	b	Lunix_path_BB24_4
Lunix_path_BB24_44:
	sxtb	w13, w11
	cmn	w13, #112
	b.lt	Lunix_path_BB24_46
	b	Lunix_path_BB24_91
Lunix_path_BB24_45:
	sxtb	w13, w11
	cmn	w13, #65
	b.gt	Lunix_path_BB24_71
Lunix_path_BB24_46:
	ldrsb	w13, [x10, #2]
	cmn	w13, #65
	b.gt	Lunix_path_BB24_71
	ldrsb	w13, [x10, #3]
	cmn	w13, #64
	b.ge	Lunix_path_BB24_71
	mov	w10, #4
	add	x2, x10, x2
	cmp	x2, #3
	b.lo	Lunix_path_BB24_4
Lunix_path_BB24_49:
	sub	x10, x1, x2
	cmp	x10, #16
	b.hs	Lunix_path_BB24_52
	b	Lunix_path_BB24_4
Lunix_path_BB24_50:
	mov	w10, #15
Lunix_path_BB24_51:
	add	x2, x10, x2
	sub	x10, x1, x2
	cmp	x10, #15
	b.ls	Lunix_path_BB24_4
Lunix_path_BB24_52:
	add	x10, x0, x2
	ldr	q0, [x10]
	cmlt.16b	v1, v0, #0
	ldr	q2, [x9, lunix_path_CPI24_0@PAGEOFF]
	and.16b	v1, v1, v2
	addp.16b	v1, v1, v1
	addp.16b	v1, v1, v1
	addp.16b	v1, v1, v1
	umov.h	w11, v1[0]
	cbz	w11, Lunix_path_BB24_4
	umov.h	w11, v1[0]
	ldur	q3, [x10, #-3]
	ldur	q4, [x10, #-2]
	ldur	q1, [x10, #-1]
	movi.16b	v5, #192
	cmhi.16b	v6, v5, v1
	movi.16b	v7, #224
	cmhi.16b	v4, v7, v4
	and.16b	v4, v4, v6
	movi.16b	v6, #240
	cmhi.16b	v3, v6, v3
	and.16b	v4, v3, v4
	cmhs.16b	v3, v0, v5
	and.16b	v3, v3, v2
	addp.16b	v3, v3, v3
	addp.16b	v3, v3, v3
	addp.16b	v3, v3, v3
	umov.h	w10, v3[0]
	bic.16b	v4, v2, v4
	addp.16b	v4, v4, v4
	addp.16b	v4, v4, v4
	addp.16b	v4, v4, v4
	umov.h	w12, v4[0]
	add	x10, x12, w10, uxth
	cmp	x10, w11, uxth
	b.ne	Lunix_path_BB24_4
	movi.16b	v4, #194
	cmhs.16b	v4, v0, v4
	and.16b	v4, v4, v2
	addp.16b	v4, v4, v4
	addp.16b	v4, v4, v4
	addp.16b	v4, v4, v4
	cmeq.8h	v3, v3, v4
	xtn.8b	v3, v3
	umov.b	w10, v3[0]
	tbz	w10, #0, Lunix_path_BB24_4
	movi.16b	v3, #240
	cmeq.16b	v3, v1, v3
	movi.16b	v4, #224
	cmeq.16b	v4, v1, v4
	bic.16b	v3, v3, v4
	movi.16b	v5, #144
	and.16b	v3, v3, v5
	movi.16b	v5, #160
	and.16b	v4, v4, v5
	orr.16b	v3, v4, v3
	cmhi.16b	v3, v3, v0
	and.16b	v3, v3, v2
	addp.16b	v3, v3, v3
	addp.16b	v3, v3, v3
	addp.16b	v3, v3, v3
	umov.h	w10, v3[0]
	cbnz	w10, Lunix_path_BB24_4
	movi.16b	v3, #244
	cmeq.16b	v4, v1, v3
	movi.16b	v5, #143
	bit.16b	v3, v5, v4
	movi.16b	v4, #237
	cmeq.16b	v4, v1, v4
	movi.16b	v5, #159
	bit.16b	v3, v5, v4
	cmhi.16b	v3, v0, v3
	and.16b	v2, v3, v2
	addp.16b	v2, v2, v2
	addp.16b	v2, v2, v2
	addp.16b	v2, v2, v2
	umov.h	w10, v2[0]
	cbnz	w10, Lunix_path_BB24_4
	umov.b	w10, v0[15]
	and	w10, w10, #0xff
	cmp	w10, #191
	b.hi	Lunix_path_BB24_50
	umov.b	w10, v1[15]
	and	w10, w10, #0xff
	cmp	w10, #223
	b.ls	Lunix_path_BB24_60
	mov	w10, #14
	b	Lunix_path_BB24_51
Lunix_path_BB24_60:
	umov.b	w10, v1[14]
	and	w10, w10, #0xff
	cmp	w10, #239
	mov	w10, #16
	mov	w11, #13
	csel	x10, x11, x10, hi
	b	Lunix_path_BB24_51
Lunix_path_BB24_61:
	umov.h	w9, v0[0]
	rbit	w9, w9
	clz	w9, w9
	add	x11, x9, x13
	b	Lunix_path_BB24_3
Lunix_path_BB24_62:
	mov	x1, #0
	mov	x0, x2
	ret
Lunix_path_BB24_63:
	cmp	x11, #2
	b.ne	Lunix_path_BB24_91
	ldrb	w11, [x10, #1]
Lunix_path_BB24_65:
	cmp	w12, #239
	b.gt	Lunix_path_BB24_78
	cmp	w12, #224
	b.eq	Lunix_path_BB24_90
Lunix_path_BB24_67:
	cmp	w12, #237
	b.ne	Lunix_path_BB24_94
	sxtb	w8, w11
	cmn	w8, #96
	b.ge	Lunix_path_BB24_91
	b	Lunix_path_BB24_95
Lunix_path_BB24_69:
	cmp	x11, #3
	b.ne	Lunix_path_BB24_86
	ldrb	w11, [x10, #1]
Lunix_path_BB24_71:
	cmp	w12, #239
	b.gt	Lunix_path_BB24_75
	cmp	w12, #224
	b.eq	Lunix_path_BB24_82
	cmp	w12, #237
	b.ne	Lunix_path_BB24_81
	sxtb	w8, w11
	cmn	w8, #96
	b.lt	Lunix_path_BB24_84
	b	Lunix_path_BB24_91
Lunix_path_BB24_75:
	cmp	w12, #240
	b.eq	Lunix_path_BB24_83
	cmp	w12, #244
	b.ne	Lunix_path_BB24_81
	sxtb	w8, w11
	cmn	w8, #113
	b.le	Lunix_path_BB24_84
	b	Lunix_path_BB24_91
Lunix_path_BB24_78:
	cmp	w12, #240
	b.eq	Lunix_path_BB24_96
	cmp	w12, #244
	b.ne	Lunix_path_BB24_94
Lunix_path_BB24_80:
	sxtb	w8, w11
	cmn	w8, #113
	b.le	Lunix_path_BB24_95
	b	Lunix_path_BB24_91
Lunix_path_BB24_81:
	sxtb	w8, w11
	cmn	w8, #64
	b.lt	Lunix_path_BB24_84
	b	Lunix_path_BB24_88
Lunix_path_BB24_82:
	and	w8, w11, #0xe0
	cmp	w8, #160
	b.eq	Lunix_path_BB24_84
	b	Lunix_path_BB24_91
Lunix_path_BB24_83:
	sub	w8, w11, #144
	cmp	w8, #48
	b.hs	Lunix_path_BB24_91
Lunix_path_BB24_84:
	ldrsb	w8, [x10, #2]
	cmn	w8, #64
	b.ge	Lunix_path_BB24_88
	mov	w1, #3
	mov	x0, x2
	ret
Lunix_path_BB24_86:
	cmp	x11, #2
	b.lo	Lunix_path_BB24_91
	ldrb	w11, [x10, #1]
Lunix_path_BB24_88:
	cmp	w12, #239
	b.gt	Lunix_path_BB24_92
	cmp	w12, #224
	b.ne	Lunix_path_BB24_67
Lunix_path_BB24_90:
	and	w8, w11, #0xe0
	cmp	w8, #160
	b.eq	Lunix_path_BB24_95
Lunix_path_BB24_91:
	mov	w1, #1
	mov	x0, x2
	ret
Lunix_path_BB24_92:
	cmp	w12, #240
	b.eq	Lunix_path_BB24_96
	cmp	w12, #244
	b.eq	Lunix_path_BB24_80
Lunix_path_BB24_94:
	sxtb	w8, w11
	cmn	w8, #64
	b.ge	Lunix_path_BB24_91
Lunix_path_BB24_95:
	mov	w1, #2
	mov	x0, x2
	ret
Lunix_path_BB24_96:
	sub	w8, w11, #144
	cmp	w8, #48
	b.hs	Lunix_path_BB24_91
	b	Lunix_path_BB24_95
	.section	__TEXT,__literal16,16byte_literals
	.p2align	4, 0x0
lunix_path_CPI25_0:
	.byte	1
	.byte	2
	.byte	4
	.byte	8
	.byte	16
	.byte	32
	.byte	64
	.byte	128
	.byte	1
	.byte	2
	.byte	4
	.byte	8
	.byte	16
	.byte	32
	.byte	64
	.byte	128
	.section	__TEXT,__literal8,8byte_literals
	.p2align	3, 0x0
lunix_path_CPI25_1:
	.byte	1
	.byte	2
	.byte	4
	.byte	8
	.byte	16
	.byte	32
	.byte	64
	.byte	128
	.section	__TEXT,__text,regular,pure_instructions
	.p2align	2
; path_keys::encode::run_len
_path_keys.encode.run_len:
	cmp	x1, #2
	b.lo	Lunix_path_BB25_6
	ldrb	w8, [x0]
	cmp	w8, #46
	b.ne	Lunix_path_BB25_6
	ldrb	w8, [x0, #1]
	cmp	w8, #46
	b.ne	Lunix_path_BB25_6
	cmp	x1, #2
	b.eq	Lunix_path_BB25_5
	ldrb	w8, [x0, #2]
	cmp	w8, #47
	b.ne	Lunix_path_BB25_6
Lunix_path_BB25_5:
	mov	w8, #2
	mov	x0, x8
	ret
Lunix_path_BB25_6:
	cmp	x1, #18
	b.hi	Lunix_path_BB25_9
	cmp	x1, #9
	b.hs	Lunix_path_BB25_17
	mov	x8, #0
	cmp	x8, x1
	b.lo	Lunix_path_BB25_22
	b	Lunix_path_BB25_34
Lunix_path_BB25_9:
	adrp	x9, lunix_path_CPI25_0@PAGE
	mov	x10, #0
	subs	x8, x1, #19
	b.ne	Lunix_path_BB25_13
Lunix_path_BB25_10:
	sub	x11, x1, #17
	cmp	x11, x10
	csel	x10, x11, x10, lo
	add	x11, x0, x10
	ldr	q0, [x11]
	ldur	q1, [x11, #1]
	movi.16b	v2, #208
	and.16b	v1, v1, v2
	orr.16b	v1, v1, v0
	movi.16b	v0, #47
	cmeq.16b	v2, v1, v0
	ldr	q1, [x9, lunix_path_CPI25_0@PAGEOFF]
	and.16b	v2, v2, v1
	addp.16b	v2, v2, v2
	addp.16b	v2, v2, v2
	addp.16b	v2, v2, v2
	umov.h	w9, v2[0]
	cbz	w9, Lunix_path_BB25_33
	add	x9, x0, x8
	ldr	q2, [x9]
	ldur	q3, [x9, #1]
	ldur	q4, [x9, #2]
	ldur	q5, [x9, #3]
	movi.16b	v6, #46
	cmeq.16b	v7, v4, v6
	cmeq.16b	v5, v5, v0
	and.16b	v5, v7, v5
	cmeq.16b	v6, v3, v6
	cmeq.16b	v4, v4, v0
	orr.16b	v4, v4, v5
	and.16b	v4, v6, v4
	cmeq.16b	v2, v2, v0
	cmeq.16b	v0, v3, v0
	orr.16b	v0, v0, v4
	and.16b	v1, v2, v1
	and.16b	v0, v1, v0
	addp.16b	v0, v0, v0
	addp.16b	v0, v0, v0
	addp.16b	v0, v0, v0
	umov.h	w9, v0[0]
	orr	w9, w9, #0x10000
	b	Lunix_path_BB25_19
Lunix_path_BB25_12:
	cmp	x10, x8
	b.hs	Lunix_path_BB25_10
Lunix_path_BB25_13:
	add	x11, x0, x10
	ldr	q0, [x11]
	ldur	q1, [x11, #1]
	movi.16b	v2, #208
	and.16b	v2, v1, v2
	orr.16b	v3, v2, v0
	movi.16b	v2, #47
	cmeq.16b	v4, v3, v2
	ldr	q3, [x9, lunix_path_CPI25_0@PAGEOFF]
	and.16b	v4, v4, v3
	addp.16b	v4, v4, v4
	addp.16b	v4, v4, v4
	addp.16b	v4, v4, v4
	umov.h	w12, v4[0]
	cbz	w12, Lunix_path_BB25_16
	ldur	q4, [x11, #2]
	ldur	q5, [x11, #3]
	movi.16b	v6, #46
	cmeq.16b	v7, v4, v6
	cmeq.16b	v5, v5, v2
	and.16b	v5, v7, v5
	cmeq.16b	v6, v1, v6
	cmeq.16b	v4, v4, v2
	orr.16b	v4, v4, v5
	and.16b	v4, v6, v4
	cmeq.16b	v0, v0, v2
	cmeq.16b	v1, v1, v2
	orr.16b	v1, v1, v4
	and.16b	v0, v0, v3
	and.16b	v0, v0, v1
	addp.16b	v0, v0, v0
	addp.16b	v0, v0, v0
	addp.16b	v0, v0, v0
	umov.h	w11, v0[0]
	orr	w11, w11, #0x10000
	rbit	w11, w11
	clz	w11, w11
	cmp	w11, #15
	b.ls	Lunix_path_BB25_20
	add	x10, x10, #16
	b	Lunix_path_BB25_12
Lunix_path_BB25_16:
	add	x10, x10, #16
	cmp	x10, x8
	b.lo	Lunix_path_BB25_13
	b	Lunix_path_BB25_12
Lunix_path_BB25_17:
	ldr	d3, [x0]
	ldur	d1, [x0, #1]
	movi.8b	v0, #254
	and.8b	v2, v1, v0
	movi.8b	v1, #46
	cmeq.8b	v4, v2, v1
	movi.8b	v2, #47
	cmeq.8b	v5, v3, v2
Lunix_path_loh28:
	adrp	x8, lunix_path_CPI25_1@PAGE
Lunix_path_loh29:
	ldr	d3, [x8, lunix_path_CPI25_1@PAGEOFF]
	and.8b	v5, v5, v3
	and.8b	v4, v5, v4
	addv.8b	b4, v4
	fmov	w8, s4
	orr	w8, w8, #0x100
	rbit	w8, w8
	clz	w8, w8
	cmp	w8, #8
	b.lo	Lunix_path_BB25_21
	mov	w8, #17
	cmp	x1, #17
	csel	x8, x1, x8, lo
	sub	x8, x8, #9
	add	x9, x0, x8
	ldr	d4, [x9]
	ldur	d5, [x9, #1]
	and.8b	v0, v5, v0
	cmeq.8b	v0, v0, v1
	cmeq.8b	v1, v4, v2
	and.8b	v1, v1, v3
	and.8b	v0, v1, v0
	addv.8b	b0, v0
	fmov	w9, s0
	orr	w9, w9, #0x100
Lunix_path_BB25_19:
	rbit	w9, w9
	clz	w9, w9
	add	x8, x8, x9
	cmp	x8, x1
	b.lo	Lunix_path_BB25_22
	b	Lunix_path_BB25_34
Lunix_path_BB25_20:
	add	x8, x10, w11, uxtw
Lunix_path_BB25_21:
	cmp	x8, x1
	b.hs	Lunix_path_BB25_34
Lunix_path_BB25_22:
	add	x9, x0, #1
	b	Lunix_path_BB25_25
Lunix_path_BB25_23:
	cmp	w11, #47
	b.eq	Lunix_path_BB25_34
Lunix_path_BB25_24:
	mov	x8, x10
	cmp	x1, x10
	b.eq	Lunix_path_BB25_32
Lunix_path_BB25_25:
	add	x10, x9, x8
	ldurb	w11, [x10, #-1]
	add	x10, x8, #1
	cmp	w11, #47
	b.ne	Lunix_path_BB25_24
	cmp	x1, x10
	b.ls	Lunix_path_BB25_34
	ldrb	w11, [x9, x8]
	cmp	w11, #46
	b.ne	Lunix_path_BB25_23
	add	x11, x8, #2
	cmp	x1, x11
	b.ls	Lunix_path_BB25_34
	add	x11, x9, x8
	ldrb	w11, [x11, #1]
	cmp	w11, #46
	b.ne	Lunix_path_BB25_23
	add	x11, x8, #3
	cmp	x1, x11
	b.ls	Lunix_path_BB25_34
	add	x11, x9, x8
	ldrb	w11, [x11, #2]
	b	Lunix_path_BB25_23
Lunix_path_BB25_32:
	mov	x0, x1
	ret
Lunix_path_BB25_33:
	add	x8, x10, #16
	cmp	x8, x1
	b.lo	Lunix_path_BB25_22
Lunix_path_BB25_34:
	mov	x0, x8
	ret
	.loh AdrpLdr	Lunix_path_loh28, Lunix_path_loh29
	.section	__TEXT,__literal16,16byte_literals
	.p2align	4, 0x0
lunix_path_CPI26_0:
	.byte	1
	.byte	2
	.byte	4
	.byte	8
	.byte	16
	.byte	32
	.byte	64
	.byte	128
	.byte	1
	.byte	2
	.byte	4
	.byte	8
	.byte	16
	.byte	32
	.byte	64
	.byte	128
	.section	__TEXT,__text,regular,pure_instructions
	.p2align	2
; unix_path_c::walks::take_first
_unix_path_c.walks.take_first:
	stp	x26, x25, [sp, #-80]!
	stp	x24, x23, [sp, #16]
	stp	x22, x21, [sp, #32]
	stp	x20, x19, [sp, #48]
	stp	x29, x30, [sp, #64]
	add	x29, sp, #64
	mov	x8, x0
	mov	w0, #0
	ldp	x22, x9, [x2]
	subs	x24, x9, x22
	cset	w10, lo
	cmp	x1, x9
	csinc	w9, w10, wzr, hs
	add	x23, x8, x22
Lunix_path_loh30:
	adrp	x8, lunix_path__static.0@PAGE
Lunix_path_loh31:
	add	x8, x8, lunix_path__static.0@PAGEOFF
	cmp	w9, #0
	csel	x21, x8, x23, ne
	tbnz	w9, #0, Lunix_path_BB26_26
	cbz	x24, Lunix_path_BB26_26
	mov	x20, x3
	mov	x19, x2
	mov	x8, x24
	ldrb	w9, [x21]
	cmp	w9, #47
	b.eq	Lunix_path_BB26_6
	cmp	w9, #46
	b.ne	Lunix_path_BB26_7
	cmp	x24, #1
	b.ne	Lunix_path_BB26_8
	mov	w25, #1
	b	Lunix_path_BB26_10
Lunix_path_BB26_6:
	mov	w25, #1
	b	Lunix_path_BB26_10
Lunix_path_BB26_7:
	mov	w25, #0
	b	Lunix_path_BB26_10
Lunix_path_BB26_8:
	ldrb	w9, [x21, #1]
	cmp	w9, #47
	cset	w25, eq
	b	Lunix_path_BB26_10
Lunix_path_BB26_9:
	mov	x8, x1
	cbz	x1, Lunix_path_BB26_25
Lunix_path_BB26_10:
	subs	x1, x8, #1
	b.eq	Lunix_path_BB26_16
	add	x9, x21, x1
	ldrb	w10, [x9]
	cmp	w10, #47
	b.eq	Lunix_path_BB26_14
	cmp	w10, #46
	b.ne	Lunix_path_BB26_18
	ldurb	w9, [x9, #-1]
	cmp	w9, #47
	b.ne	Lunix_path_BB26_18
Lunix_path_BB26_14:
	sub	x8, x24, x1
	cmp	x8, #8
	b.ne	Lunix_path_BB26_9
	mov	x0, x21
	bl	_unix_path.filler.trimmed_blocks_len
	mov	x1, x0
	b	Lunix_path_BB26_9
Lunix_path_BB26_16:
	tbz	w25, #0, Lunix_path_BB26_37
	mov	w10, #1
	b	Lunix_path_BB26_33
Lunix_path_BB26_18:
	tbz	w25, #0, Lunix_path_BB26_27
	mov	x9, #0
	sub	x10, x8, #2
	b	Lunix_path_BB26_21
Lunix_path_BB26_20:
	add	x9, x9, #1
	cmp	x1, x9
	b.eq	Lunix_path_BB26_31
Lunix_path_BB26_21:
	add	x11, x23, x9
	ldrb	w11, [x11, #1]
	cmp	w11, #47
	b.eq	Lunix_path_BB26_20
	cmp	w11, #46
	b.ne	Lunix_path_BB26_32
	cmp	x10, x9
	b.eq	Lunix_path_BB26_31
	add	x11, x23, x9
	ldrb	w11, [x11, #2]
	cmp	w11, #47
	b.eq	Lunix_path_BB26_20
	b	Lunix_path_BB26_32
Lunix_path_BB26_25:
	mov	w0, #0
Lunix_path_BB26_26:
	ldp	x29, x30, [sp, #64]
	ldp	x20, x19, [sp, #48]
	ldp	x22, x21, [sp, #32]
	ldp	x24, x23, [sp, #16]
	ldp	x26, x25, [sp], #80
	ret
Lunix_path_BB26_27:
	ldrb	w9, [x23]
	cmp	w9, #46
	b.ne	Lunix_path_BB26_36
	ldrb	w9, [x23, #1]
	cmp	w9, #46
	b.ne	Lunix_path_BB26_36
	subs	x10, x8, #2
	b.ne	Lunix_path_BB26_34
	mov	w10, #2
	mov	x11, x10
	mov	w9, #2
	b	Lunix_path_BB26_61
Lunix_path_BB26_31:
	mov	x9, x1
Lunix_path_BB26_32:
	add	x10, x9, #1
Lunix_path_BB26_33:
	ldrb	w9, [x23]
	cmp	w9, #47
	cset	w11, ne
	mov	w9, #1
	b	Lunix_path_BB26_61
Lunix_path_BB26_34:
	ldrb	w9, [x23, #2]
	cmp	w9, #47
	b.ne	Lunix_path_BB26_36
	mov	x9, #0
	sub	x11, x8, #3
	b	Lunix_path_BB26_42
Lunix_path_BB26_36:
	cmp	x8, #15
	b.hi	Lunix_path_BB26_46
Lunix_path_BB26_37:
	mov	x9, #0
Lunix_path_BB26_38:
	ldrb	w10, [x23, x9]
	cmp	w10, #47
	b.eq	Lunix_path_BB26_52
	add	x9, x9, #1
	cmp	x8, x9
	b.ne	Lunix_path_BB26_38
	mov	x9, x8
	b	Lunix_path_BB26_52
Lunix_path_BB26_41:
	add	x9, x9, #1
	cmp	x10, x9
	b.eq	Lunix_path_BB26_62
Lunix_path_BB26_42:
	add	x12, x23, x9
	ldrb	w12, [x12, #2]
	cmp	w12, #47
	b.eq	Lunix_path_BB26_41
	cmp	w12, #46
	b.ne	Lunix_path_BB26_63
	cmp	x11, x9
	b.eq	Lunix_path_BB26_62
	add	x12, x23, x9
	ldrb	w12, [x12, #3]
	cmp	w12, #47
	b.eq	Lunix_path_BB26_41
	b	Lunix_path_BB26_63
Lunix_path_BB26_46:
	adrp	x10, lunix_path_CPI26_0@PAGE
	subs	x9, x8, #16
	b.eq	Lunix_path_BB26_50
	mov	x11, #0
Lunix_path_BB26_48:
	ldr	q0, [x23, x11]
	movi.16b	v1, #47
	cmeq.16b	v0, v0, v1
	ldr	q1, [x10, lunix_path_CPI26_0@PAGEOFF]
	and.16b	v0, v0, v1
	addp.16b	v0, v0, v0
	addp.16b	v0, v0, v0
	addp.16b	v0, v0, v0
	umov.h	w12, v0[0]
	orr	w12, w12, #0x10000
	rbit	w12, w12
	clz	w12, w12
	cmp	w12, #15
	b.ls	Lunix_path_BB26_51
	add	x11, x11, #16
	cmp	x11, x9
	b.lo	Lunix_path_BB26_48
Lunix_path_BB26_50:
	ldr	q0, [x23, x9]
	movi.16b	v1, #47
	cmeq.16b	v0, v0, v1
	ldr	q1, [x10, lunix_path_CPI26_0@PAGEOFF]
	and.16b	v0, v0, v1
	addp.16b	v0, v0, v0
	addp.16b	v0, v0, v0
	addp.16b	v0, v0, v0
	umov.h	w10, v0[0]
	orr	w10, w10, #0x10000
	rbit	w10, w10
	clz	w10, w10
	add	x9, x9, x10
	b	Lunix_path_BB26_52
Lunix_path_BB26_51:
	add	x9, x11, w12, uxtw
Lunix_path_BB26_52:
	mov	x10, #0
	subs	x11, x8, x9
	b.eq	Lunix_path_BB26_60
	add	x12, x23, x9
	sub	x13, x11, #1
	b	Lunix_path_BB26_55
Lunix_path_BB26_54:
	add	x10, x10, #1
	cmp	x11, x10
	b.eq	Lunix_path_BB26_59
Lunix_path_BB26_55:
	ldrb	w14, [x12, x10]
	cmp	w14, #47
	b.eq	Lunix_path_BB26_54
	cmp	w14, #46
	b.ne	Lunix_path_BB26_60
	cmp	x13, x10
	b.eq	Lunix_path_BB26_59
	add	x14, x12, x10
	ldrb	w14, [x14, #1]
	cmp	w14, #47
	b.eq	Lunix_path_BB26_54
	b	Lunix_path_BB26_60
Lunix_path_BB26_59:
	mov	x10, x11
Lunix_path_BB26_60:
	add	x10, x10, x9
	mov	w11, #3
Lunix_path_BB26_61:
	add	x8, x8, x22
	stp	x22, x9, [x20]
	stp	w11, wzr, [x20, #16]
	add	x9, x10, x22
	mov	w0, #1
	stp	x9, x8, [x19]
	ldp	x29, x30, [sp, #64]
	ldp	x20, x19, [sp, #48]
	ldp	x22, x21, [sp, #32]
	ldp	x24, x23, [sp, #16]
	ldp	x26, x25, [sp], #80
	ret
Lunix_path_BB26_62:
	mov	x9, x10
Lunix_path_BB26_63:
	add	x10, x9, #2
	mov	w11, #2
	mov	w9, #2
	b	Lunix_path_BB26_61
	.loh AdrpAdd	Lunix_path_loh30, Lunix_path_loh31
	.section	__TEXT,__literal16,16byte_literals
	.p2align	4, 0x0
lunix_path_CPI27_0:
	.byte	1
	.byte	2
	.byte	4
	.byte	8
	.byte	16
	.byte	32
	.byte	64
	.byte	128
	.byte	1
	.byte	2
	.byte	4
	.byte	8
	.byte	16
	.byte	32
	.byte	64
	.byte	128
	.section	__TEXT,__text,regular,pure_instructions
	.p2align	2
; unix_path::path::Path::parent_len
_unix_path.path.Path.parent_len:
	cbz	x1, Lunix_path_BB27_9
	stp	x20, x19, [sp, #-32]!
	stp	x29, x30, [sp, #16]
	add	x29, sp, #16
	mov	x20, x1
	mov	x19, x0
	mov	x0, x1
	b	Lunix_path_BB27_3
Lunix_path_BB27_2:
	mov	x0, x1
	cbz	x1, Lunix_path_BB27_12
Lunix_path_BB27_3:
	subs	x1, x0, #1
	b.eq	Lunix_path_BB27_10
	add	x8, x19, x1
	ldrb	w9, [x8]
	cmp	w9, #47
	b.eq	Lunix_path_BB27_7
	cmp	w9, #46
	b.ne	Lunix_path_BB27_13
	ldurb	w8, [x8, #-1]
	cmp	w8, #47
	b.ne	Lunix_path_BB27_13
Lunix_path_BB27_7:
	sub	x8, x20, x1
	cmp	x8, #8
	b.ne	Lunix_path_BB27_2
	mov	x0, x19
	bl	_unix_path.filler.trimmed_blocks_len
	mov	x1, x0
	b	Lunix_path_BB27_2
Lunix_path_BB27_9:
	mov	w0, #0
	ret
Lunix_path_BB27_10:
	ldrb	w8, [x19]
	cmp	w8, #46
	b.ne	Lunix_path_BB27_20
	mov	x1, #0
Lunix_path_BB27_12:
	ldp	x29, x30, [sp, #16]
	ldp	x20, x19, [sp], #32
	ret
Lunix_path_BB27_13:
	add	x8, x19, x0
	ldurb	w9, [x8, #-1]
	cmp	w9, #46
	b.ne	Lunix_path_BB27_20
	ldurb	w9, [x8, #-2]
	cmp	w9, #46
	b.ne	Lunix_path_BB27_20
	subs	x20, x0, #2
	b.ne	Lunix_path_BB27_18
Lunix_path_BB27_16:
	mov	x1, #0
Lunix_path_BB27_17:
	mov	w0, #1
	ldp	x29, x30, [sp, #16]
	ldp	x20, x19, [sp], #32
	ret
Lunix_path_BB27_18:
	ldurb	w8, [x8, #-3]
	cmp	w8, #47
	b.ne	Lunix_path_BB27_20
	mov	x9, x20
	b	Lunix_path_BB27_38
Lunix_path_BB27_20:
	mov	x8, x0
Lunix_path_BB27_21:
	cmp	x8, #15
	b.ls	Lunix_path_BB27_25
	sub	x9, x8, #16
	add	x8, x19, x8
	ldur	q0, [x8, #-16]
	movi.16b	v1, #47
	cmeq.16b	v0, v0, v1
Lunix_path_loh32:
	adrp	x8, lunix_path_CPI27_0@PAGE
Lunix_path_loh33:
	ldr	q1, [x8, lunix_path_CPI27_0@PAGEOFF]
	and.16b	v0, v0, v1
	addp.16b	v0, v0, v0
	addp.16b	v0, v0, v0
	addp.16b	v0, v0, v0
	umov.h	w10, v0[0]
	mov	x8, x9
	cbz	w10, Lunix_path_BB27_21
	umov.h	w8, v0[0]
	and	x8, x8, #0xffff
	clz	x8, x8
	sub	x8, x9, x8
	add	x20, x8, #64
	cmp	x20, x0
	b.ne	Lunix_path_BB27_29
Lunix_path_BB27_24:
	mov	x1, #0
	mov	w0, #0
	ldp	x29, x30, [sp, #16]
	ldp	x20, x19, [sp], #32
	ret
Lunix_path_BB27_25:
	sub	x9, x19, #1
Lunix_path_BB27_26:
	cbz	x8, Lunix_path_BB27_16
	sub	x10, x8, #1
	ldrb	w11, [x9, x8]
	mov	x8, x10
	cmp	w11, #47
	b.ne	Lunix_path_BB27_26
	add	x20, x10, #1
	cmp	x20, x0
	b.eq	Lunix_path_BB27_24
Lunix_path_BB27_29:
	mov	x1, x20
	b	Lunix_path_BB27_31
Lunix_path_BB27_30:
	mov	x1, x8
	cbz	x8, Lunix_path_BB27_17
Lunix_path_BB27_31:
	subs	x8, x1, #1
	b.eq	Lunix_path_BB27_44
	add	x9, x19, x8
	ldrb	w10, [x9]
	cmp	w10, #47
	b.eq	Lunix_path_BB27_35
	cmp	w10, #46
	b.ne	Lunix_path_BB27_17
	ldurb	w9, [x9, #-1]
	cmp	w9, #47
	b.ne	Lunix_path_BB27_17
Lunix_path_BB27_35:
	sub	x9, x20, x8
	cmp	x9, #8
	b.ne	Lunix_path_BB27_30
	mov	x0, x19
	mov	x1, x8
	bl	_unix_path.filler.trimmed_blocks_len
	mov	x8, x0
	b	Lunix_path_BB27_30
Lunix_path_BB27_37:
	mov	x1, #0
	mov	w0, #1
	mov	x9, x8
	cbz	x8, Lunix_path_BB27_12
Lunix_path_BB27_38:
	subs	x8, x9, #1
	b.eq	Lunix_path_BB27_45
	add	x10, x19, x8
	ldrb	w11, [x10]
	cmp	w11, #47
	b.eq	Lunix_path_BB27_42
	cmp	w11, #46
	b.ne	Lunix_path_BB27_46
	ldurb	w10, [x10, #-1]
	cmp	w10, #47
	b.ne	Lunix_path_BB27_46
Lunix_path_BB27_42:
	sub	x9, x20, x8
	cmp	x9, #8
	b.ne	Lunix_path_BB27_37
	mov	x0, x19
	mov	x1, x8
	bl	_unix_path.filler.trimmed_blocks_len
	mov	x8, x0
	b	Lunix_path_BB27_37
Lunix_path_BB27_44:
	mov	x0, x1
	ldp	x29, x30, [sp, #16]
	ldp	x20, x19, [sp], #32
	ret
Lunix_path_BB27_45:
	mov	w1, #1
	mov	x0, x1
	ldp	x29, x30, [sp, #16]
	ldp	x20, x19, [sp], #32
	ret
Lunix_path_BB27_46:
	mov	w0, #1
	mov	x1, x9
	ldp	x29, x30, [sp, #16]
	ldp	x20, x19, [sp], #32
	ret
	.loh AdrpLdr	Lunix_path_loh32, Lunix_path_loh33
	.section	__TEXT,__literal16,16byte_literals
	.p2align	4, 0x0
lunix_path_CPI28_0:
	.byte	1
	.byte	2
	.byte	4
	.byte	8
	.byte	16
	.byte	32
	.byte	64
	.byte	128
	.byte	1
	.byte	2
	.byte	4
	.byte	8
	.byte	16
	.byte	32
	.byte	64
	.byte	128
	.section	__TEXT,__text,regular,pure_instructions
	.p2align	2
; unix_path_c::walks::take_last
_unix_path_c.walks.take_last:
	stp	x26, x25, [sp, #-80]!
	stp	x24, x23, [sp, #16]
	stp	x22, x21, [sp, #32]
	stp	x20, x19, [sp, #48]
	stp	x29, x30, [sp, #64]
	add	x29, sp, #64
	mov	x22, x0
	mov	w0, #0
	ldp	x24, x8, [x2]
	subs	x26, x8, x24
	cset	w9, lo
	cmp	x1, x8
	csinc	w8, w9, wzr, hs
	add	x21, x22, x24
Lunix_path_loh34:
	adrp	x9, lunix_path__static.0@PAGE
Lunix_path_loh35:
	add	x9, x9, lunix_path__static.0@PAGEOFF
	cmp	w8, #0
	csel	x23, x9, x21, ne
	tbnz	w8, #0, Lunix_path_BB28_17
	cbz	x26, Lunix_path_BB28_17
	mov	x20, x3
	mov	x19, x2
	mov	x25, x26
	b	Lunix_path_BB28_4
Lunix_path_BB28_3:
	mov	x25, x1
	cbz	x1, Lunix_path_BB28_16
Lunix_path_BB28_4:
	subs	x1, x25, #1
	b.eq	Lunix_path_BB28_10
	add	x8, x23, x1
	ldrb	w9, [x8]
	cmp	w9, #47
	b.eq	Lunix_path_BB28_8
	cmp	w9, #46
	b.ne	Lunix_path_BB28_12
	ldurb	w8, [x8, #-1]
	cmp	w8, #47
	b.ne	Lunix_path_BB28_12
Lunix_path_BB28_8:
	sub	x8, x26, x1
	cmp	x8, #8
	b.ne	Lunix_path_BB28_3
	mov	x0, x23
	bl	_unix_path.filler.trimmed_blocks_len
	mov	x1, x0
	b	Lunix_path_BB28_3
Lunix_path_BB28_10:
	ldrb	w8, [x21]
	cmp	w8, #46
	b.ne	Lunix_path_BB28_20
	mov	x8, #0
	mov	w25, #1
	mov	x9, x25
	mov	w22, #1
	b	Lunix_path_BB28_46
Lunix_path_BB28_12:
	add	x8, x21, x25
	ldurb	w9, [x8, #-1]
	cmp	w9, #46
	b.ne	Lunix_path_BB28_20
	ldurb	w9, [x8, #-2]
	cmp	w9, #46
	b.ne	Lunix_path_BB28_20
	subs	x23, x25, #2
	b.ne	Lunix_path_BB28_18
	mov	x8, #0
	mov	x9, x25
	mov	w22, #2
	b	Lunix_path_BB28_46
Lunix_path_BB28_16:
	mov	w0, #0
Lunix_path_BB28_17:
	ldp	x29, x30, [sp, #64]
	ldp	x20, x19, [sp, #48]
	ldp	x22, x21, [sp, #32]
	ldp	x24, x23, [sp, #16]
	ldp	x26, x25, [sp], #80
	ret
Lunix_path_BB28_18:
	ldurb	w8, [x8, #-3]
	cmp	w8, #47
	b.ne	Lunix_path_BB28_20
	mov	x8, x23
	b	Lunix_path_BB28_38
Lunix_path_BB28_20:
	add	x8, x24, x22
	sub	x9, x8, #16
	mov	x8, x25
Lunix_path_BB28_21:
	cmp	x8, #15
	b.ls	Lunix_path_BB28_25
	ldr	q0, [x9, x8]
	sub	x10, x8, #16
	movi.16b	v1, #47
	cmeq.16b	v0, v0, v1
Lunix_path_loh36:
	adrp	x8, lunix_path_CPI28_0@PAGE
Lunix_path_loh37:
	ldr	q1, [x8, lunix_path_CPI28_0@PAGEOFF]
	and.16b	v0, v0, v1
	addp.16b	v0, v0, v0
	addp.16b	v0, v0, v0
	addp.16b	v0, v0, v0
	umov.h	w11, v0[0]
	mov	x8, x10
	cbz	w11, Lunix_path_BB28_21
	umov.h	w8, v0[0]
	and	x8, x8, #0xffff
	clz	x8, x8
	sub	x8, x10, x8
	add	x23, x8, #64
	subs	x22, x25, x23
	b.ne	Lunix_path_BB28_29
Lunix_path_BB28_24:
	mov	w9, #0
	mov	x8, #0
	mov	w22, #1
	b	Lunix_path_BB28_46
Lunix_path_BB28_25:
	add	x9, x24, x22
	sub	x9, x9, #1
Lunix_path_BB28_26:
	cbz	x8, Lunix_path_BB28_45
	sub	x10, x8, #1
	ldrb	w11, [x9, x8]
	mov	x8, x10
	cmp	w11, #47
	b.ne	Lunix_path_BB28_26
	add	x23, x10, #1
	subs	x22, x25, x23
	b.eq	Lunix_path_BB28_24
Lunix_path_BB28_29:
	mov	x8, x23
	b	Lunix_path_BB28_31
Lunix_path_BB28_30:
	mov	x8, x1
	cbz	x1, Lunix_path_BB28_44
Lunix_path_BB28_31:
	subs	x1, x8, #1
	b.eq	Lunix_path_BB28_44
	add	x9, x21, x1
	ldrb	w10, [x9]
	cmp	w10, #47
	b.eq	Lunix_path_BB28_35
	cmp	w10, #46
	b.ne	Lunix_path_BB28_44
	ldurb	w9, [x9, #-1]
	cmp	w9, #47
	b.ne	Lunix_path_BB28_44
Lunix_path_BB28_35:
	sub	x8, x23, x1
	cmp	x8, #8
	b.ne	Lunix_path_BB28_30
	mov	x0, x21
	bl	_unix_path.filler.trimmed_blocks_len
	mov	x1, x0
	b	Lunix_path_BB28_30
Lunix_path_BB28_37:
	mov	w9, #2
	mov	x8, x1
	cbz	x1, Lunix_path_BB28_48
Lunix_path_BB28_38:
	subs	x1, x8, #1
	b.eq	Lunix_path_BB28_47
	add	x9, x21, x1
	ldrb	w10, [x9]
	cmp	w10, #47
	b.eq	Lunix_path_BB28_42
	cmp	w10, #46
	b.ne	Lunix_path_BB28_47
	ldurb	w9, [x9, #-1]
	cmp	w9, #47
	b.ne	Lunix_path_BB28_47
Lunix_path_BB28_42:
	sub	x8, x23, x1
	cmp	x8, #8
	b.ne	Lunix_path_BB28_37
	mov	x0, x21
	bl	_unix_path.filler.trimmed_blocks_len
	mov	x1, x0
	b	Lunix_path_BB28_37
Lunix_path_BB28_44:
	mov	w9, #3
	b	Lunix_path_BB28_46
Lunix_path_BB28_45:
	mov	w9, #3
	mov	x22, x25
Lunix_path_BB28_46:
	add	x10, x25, x24
	sub	x10, x10, x22
	stp	x10, x22, [x20]
	stp	w9, wzr, [x20, #16]
	ldr	x9, [x19]
	add	x8, x9, x8
	str	x8, [x19, #8]
	mov	w0, #1
	ldp	x29, x30, [sp, #64]
	ldp	x20, x19, [sp, #48]
	ldp	x22, x21, [sp, #32]
	ldp	x24, x23, [sp, #16]
	ldp	x26, x25, [sp], #80
	ret
Lunix_path_BB28_47:
	mov	w22, #2
	mov	x9, x22
	b	Lunix_path_BB28_46
Lunix_path_BB28_48:
	mov	w22, #2
	b	Lunix_path_BB28_46
	.loh AdrpAdd	Lunix_path_loh34, Lunix_path_loh35
	.loh AdrpLdr	Lunix_path_loh36, Lunix_path_loh37
	.section	__TEXT,__literal16,16byte_literals
	.p2align	4, 0x0
lunix_path_CPI29_0:
	.byte	1
	.byte	2
	.byte	4
	.byte	8
	.byte	16
	.byte	32
	.byte	64
	.byte	128
	.byte	1
	.byte	2
	.byte	4
	.byte	8
	.byte	16
	.byte	32
	.byte	64
	.byte	128
	.section	__TEXT,__literal8,8byte_literals
	.p2align	3, 0x0
lunix_path_CPI29_1:
	.byte	1
	.byte	2
	.byte	4
	.byte	8
	.byte	16
	.byte	32
	.byte	64
	.byte	128
	.section	__TEXT,__text,regular,pure_instructions
	.p2align	2
; path_within::outlined::is_names_only
_path_within.outlined.is_names_only:
	cbz	x1, Lunix_path_BB29_10
	mov	x8, x0
	ldrb	w9, [x8], #1
	cmp	w9, #47
	cset	w13, eq
	csel	x9, x0, x8, ne
	subs	x8, x1, x13
	b.eq	Lunix_path_BB29_10
	ldrb	w10, [x9]
	cmp	w10, #47
	b.eq	Lunix_path_BB29_10
	cmp	w10, #46
	b.ne	Lunix_path_BB29_9
	cmp	x8, #2
	b.lo	Lunix_path_BB29_10
	ldrb	w10, [x9, #1]
	cmp	w10, #47
	b.eq	Lunix_path_BB29_10
	cmp	w10, #46
	b.ne	Lunix_path_BB29_9
	cmp	x8, #2
	b.eq	Lunix_path_BB29_10
	ldrb	w10, [x9, #2]
	cmp	w10, #47
	b.eq	Lunix_path_BB29_10
Lunix_path_BB29_9:
	add	x14, x0, x1
	ldurb	w10, [x14, #-1]
	and	w10, w10, #0xfe
	cmp	w10, #46
	b.ne	Lunix_path_BB29_11
Lunix_path_BB29_10:
	mov	w0, #0
	ret
Lunix_path_BB29_11:
	subs	x11, x8, #17
	b.hs	Lunix_path_BB29_14
Lunix_path_BB29_12:
	cmp	x8, #9
	b.hs	Lunix_path_BB29_22
	mov	x10, #0
	b	Lunix_path_BB29_39
Lunix_path_BB29_14:
	adrp	x10, lunix_path_CPI29_0@PAGE
	cmp	x8, #32
	b.hi	Lunix_path_BB29_24
	ldr	q1, [x9]
	ldur	q2, [x9, #1]
	movi.16b	v0, #208
	and.16b	v2, v2, v0
	orr.16b	v2, v2, v1
	movi.16b	v1, #47
	cmeq.16b	v3, v2, v1
	ldr	q2, [x10, lunix_path_CPI29_0@PAGEOFF]
	and.16b	v3, v3, v2
	addp.16b	v3, v3, v3
	addp.16b	v3, v3, v3
	addp.16b	v3, v3, v3
	umov.h	w12, v3[0]
	cbnz	w12, Lunix_path_BB29_17
	ldur	q3, [x14, #-17]
	ldur	q4, [x14, #-16]
	and.16b	v0, v4, v0
	orr.16b	v0, v0, v3
	cmeq.16b	v0, v0, v1
	and.16b	v0, v0, v2
	addp.16b	v0, v0, v0
	addp.16b	v0, v0, v0
	addp.16b	v0, v0, v0
	umov.h	w12, v0[0]
	cbz	w12, Lunix_path_BB29_37
Lunix_path_BB29_17:
	cmp	x8, #18
	b.ls	Lunix_path_BB29_12
	subs	x12, x8, #19
	b.ne	Lunix_path_BB29_26
	mov	x13, #0
Lunix_path_BB29_20:
	cmp	x11, x13
	csel	x11, x11, x13, lo
	add	x13, x9, x11
	ldr	q0, [x13]
	ldur	q1, [x13, #1]
	movi.16b	v2, #208
	and.16b	v1, v1, v2
	orr.16b	v1, v1, v0
	movi.16b	v0, #47
	cmeq.16b	v2, v1, v0
	ldr	q1, [x10, lunix_path_CPI29_0@PAGEOFF]
	and.16b	v2, v2, v1
	addp.16b	v2, v2, v2
	addp.16b	v2, v2, v2
	addp.16b	v2, v2, v2
	umov.h	w10, v2[0]
	cbz	w10, Lunix_path_BB29_38
	add	x10, x9, x12
	ldr	q2, [x10]
	ldur	q3, [x10, #1]
	ldur	q4, [x10, #2]
	ldur	q5, [x10, #3]
	movi.16b	v6, #46
	cmeq.16b	v7, v4, v6
	cmeq.16b	v5, v5, v0
	and.16b	v5, v7, v5
	cmeq.16b	v6, v3, v6
	cmeq.16b	v4, v4, v0
	orr.16b	v4, v4, v5
	and.16b	v4, v6, v4
	cmeq.16b	v2, v2, v0
	cmeq.16b	v0, v3, v0
	orr.16b	v0, v0, v4
	and.16b	v1, v2, v1
	and.16b	v0, v1, v0
	addp.16b	v0, v0, v0
	addp.16b	v0, v0, v0
	addp.16b	v0, v0, v0
	umov.h	w10, v0[0]
	orr	w10, w10, #0x10000
	rbit	w10, w10
	clz	w10, w10
	add	x10, x12, x10
	b	Lunix_path_BB29_39
Lunix_path_BB29_22:
	ldr	d3, [x9]
	ldur	d1, [x9, #1]
	movi.8b	v0, #254
	and.8b	v2, v1, v0
	movi.8b	v1, #46
	cmeq.8b	v4, v2, v1
	movi.8b	v2, #47
	cmeq.8b	v5, v3, v2
Lunix_path_loh38:
	adrp	x10, lunix_path_CPI29_1@PAGE
Lunix_path_loh39:
	ldr	d3, [x10, lunix_path_CPI29_1@PAGEOFF]
	and.8b	v5, v5, v3
	and.8b	v4, v5, v4
	addv.8b	b4, v4
	fmov	w10, s4
	orr	w10, w10, #0x100
	rbit	w10, w10
	clz	w10, w10
	cmp	w10, #8
	b.lo	Lunix_path_BB29_39
	mov	w10, #17
	cmp	x8, #17
	csel	x10, x8, x10, lo
	sub	x10, x10, #9
	add	x11, x9, x10
	ldr	d4, [x11]
	ldur	d5, [x11, #1]
	and.8b	v0, v5, v0
	cmeq.8b	v0, v0, v1
	cmeq.8b	v1, v4, v2
	and.8b	v1, v1, v3
	and.8b	v0, v1, v0
	addv.8b	b0, v0
	fmov	w11, s0
	orr	w11, w11, #0x100
	rbit	w11, w11
	clz	w11, w11
	add	x10, x10, x11
	b	Lunix_path_BB29_39
Lunix_path_BB29_24:
	sub	x12, x8, #33
	add	x15, x9, x12
	ldr	q0, [x15]
	ldur	q1, [x15, #1]
	movi.16b	v2, #208
	and.16b	v1, v1, v2
	orr.16b	v0, v1, v0
	movi.16b	v1, #47
	cmeq.16b	v3, v0, v1
	ldr	q0, [x10, lunix_path_CPI29_0@PAGEOFF]
	and.16b	v3, v3, v0
	addp.16b	v3, v3, v3
	addp.16b	v3, v3, v3
	addp.16b	v3, v3, v3
	ldur	q4, [x14, #-17]
	ldur	q5, [x14, #-16]
	and.16b	v2, v5, v2
	orr.16b	v2, v2, v4
	cmeq.16b	v1, v2, v1
	and.16b	v1, v1, v0
	addp.16b	v1, v1, v1
	addp.16b	v1, v1, v1
	addp.16b	v1, v1, v1
	orr.16b	v1, v1, v3
	umov.h	w14, v1[0]
	cbz	w14, Lunix_path_BB29_33
	sub	x12, x8, #19
Lunix_path_BB29_26:
	mov	x13, #0
	b	Lunix_path_BB29_30
Lunix_path_BB29_27:
	ldur	q4, [x14, #2]
	ldur	q5, [x14, #3]
	movi.16b	v6, #46
	cmeq.16b	v7, v4, v6
	cmeq.16b	v5, v5, v2
	and.16b	v5, v7, v5
	cmeq.16b	v6, v1, v6
	cmeq.16b	v4, v4, v2
	orr.16b	v4, v4, v5
	and.16b	v4, v6, v4
	cmeq.16b	v0, v0, v2
	cmeq.16b	v1, v1, v2
	orr.16b	v1, v1, v4
	and.16b	v0, v0, v3
	and.16b	v0, v0, v1
	addp.16b	v0, v0, v0
	addp.16b	v0, v0, v0
	addp.16b	v0, v0, v0
	umov.h	w14, v0[0]
	orr	w14, w14, #0x10000
	rbit	w14, w14
	clz	w14, w14
	cmp	w14, #15
	b.ls	Lunix_path_BB29_32
	add	x13, x13, #16
Lunix_path_BB29_29:
	cmp	x13, x12
	b.hs	Lunix_path_BB29_20
Lunix_path_BB29_30:
	add	x14, x9, x13
	ldr	q0, [x14]
	ldur	q1, [x14, #1]
	movi.16b	v2, #208
	and.16b	v2, v1, v2
	orr.16b	v3, v2, v0
	movi.16b	v2, #47
	cmeq.16b	v4, v3, v2
	ldr	q3, [x10, lunix_path_CPI29_0@PAGEOFF]
	and.16b	v4, v4, v3
	addp.16b	v4, v4, v4
	addp.16b	v4, v4, v4
	addp.16b	v4, v4, v4
	umov.h	w15, v4[0]
	cbnz	w15, Lunix_path_BB29_27
	add	x13, x13, #16
	cmp	x13, x12
	b.lo	Lunix_path_BB29_30
	b	Lunix_path_BB29_29
Lunix_path_BB29_32:
	add	x10, x13, w14, uxtw
	b	Lunix_path_BB29_39
Lunix_path_BB29_33:
	cbz	x12, Lunix_path_BB29_37
	add	x13, x13, x0
	add	x13, x13, #17
	mov	w14, #17
Lunix_path_BB29_35:
	ldur	q1, [x13, #-17]
	ldp	q2, q5, [x13, #-16]
	movi.16b	v3, #208
	and.16b	v2, v2, v3
	orr.16b	v1, v2, v1
	movi.16b	v2, #47
	cmeq.16b	v1, v1, v2
	and.16b	v1, v1, v0
	addp.16b	v1, v1, v1
	addp.16b	v1, v1, v1
	addp.16b	v1, v1, v1
	ldur	q4, [x13, #-1]
	and.16b	v3, v5, v3
	orr.16b	v3, v3, v4
	cmeq.16b	v2, v3, v2
	and.16b	v2, v2, v0
	addp.16b	v2, v2, v2
	addp.16b	v2, v2, v2
	addp.16b	v2, v2, v2
	orr.16b	v1, v2, v1
	umov.h	w15, v1[0]
	cbnz	w15, Lunix_path_BB29_17
	add	x13, x13, #32
	add	x15, x14, #15
	add	x14, x14, #32
	mov	w0, #1
	cmp	x15, x12
	b.lo	Lunix_path_BB29_35
	b	Lunix_path_BB29_51
Lunix_path_BB29_37:
	mov	w0, #1
	ret
Lunix_path_BB29_38:
	add	x10, x11, #16
Lunix_path_BB29_39:
	cmp	x10, x8
	b.lo	Lunix_path_BB29_42
	b	Lunix_path_BB29_50
Lunix_path_BB29_40:
	cmp	w12, #47
	b.eq	Lunix_path_BB29_50
Lunix_path_BB29_41:
	mov	x10, x11
	cmp	x11, x8
	b.hs	Lunix_path_BB29_49
Lunix_path_BB29_42:
	ldrb	w12, [x9, x10]
	add	x11, x10, #1
	cmp	w12, #47
	b.ne	Lunix_path_BB29_41
	cmp	x8, x11
	b.ls	Lunix_path_BB29_50
	add	x12, x9, x10
	ldrb	w12, [x12, #1]
	cmp	w12, #46
	b.ne	Lunix_path_BB29_40
	add	x12, x10, #2
	cmp	x8, x12
	b.ls	Lunix_path_BB29_50
	add	x12, x9, x10
	ldrb	w12, [x12, #2]
	cmp	w12, #46
	b.ne	Lunix_path_BB29_40
	add	x12, x10, #3
	cmp	x8, x12
	b.ls	Lunix_path_BB29_50
	add	x12, x9, x10
	ldrb	w12, [x12, #3]
	b	Lunix_path_BB29_40
Lunix_path_BB29_49:
	mov	x10, x8
Lunix_path_BB29_50:
	cmp	x10, x8
	cset	w0, eq
Lunix_path_BB29_51:
	ret
	.loh AdrpLdr	Lunix_path_loh38, Lunix_path_loh39
	.section	__TEXT,__literal16,16byte_literals
	.p2align	4, 0x0
lunix_path_CPI30_0:
	.byte	1
	.byte	2
	.byte	4
	.byte	8
	.byte	16
	.byte	32
	.byte	64
	.byte	128
	.byte	1
	.byte	2
	.byte	4
	.byte	8
	.byte	16
	.byte	32
	.byte	64
	.byte	128
	.section	__TEXT,__literal8,8byte_literals
	.p2align	3, 0x0
lunix_path_CPI30_1:
	.byte	1
	.byte	2
	.byte	4
	.byte	8
	.byte	16
	.byte	32
	.byte	64
	.byte	128
	.section	__TEXT,__text,regular,pure_instructions
	.p2align	2
; path_within::write::Layout::resolve_names
_path_within.write.Layout.resolve_names:
	sub	sp, sp, #80
	stp	x22, x21, [sp, #32]
	stp	x20, x19, [sp, #48]
	stp	x29, x30, [sp, #64]
	add	x29, sp, #64
	mov	x20, x2
	mov	x21, x1
	mov	x19, x0
	stp	xzr, xzr, [sp, #8]
	str	xzr, [sp, #24]
	cbz	x2, Lunix_path_BB30_10
	add	x8, x21, x20
	ldurb	w8, [x8, #-1]
	and	w8, w8, #0xfe
	mov	x22, x20
	cmp	w8, #46
	b.ne	Lunix_path_BB30_11
	mov	x22, x20
	b	Lunix_path_BB30_4
Lunix_path_BB30_3:
	mov	x22, x1
	cbz	x1, Lunix_path_BB30_11
Lunix_path_BB30_4:
	subs	x1, x22, #1
	b.eq	Lunix_path_BB30_11
	add	x8, x21, x1
	ldrb	w9, [x8]
	cmp	w9, #47
	b.eq	Lunix_path_BB30_8
	cmp	w9, #46
	b.ne	Lunix_path_BB30_11
	ldurb	w8, [x8, #-1]
	cmp	w8, #47
	b.ne	Lunix_path_BB30_11
Lunix_path_BB30_8:
	sub	x8, x20, x1
	cmp	x8, #8
	b.ne	Lunix_path_BB30_3
	mov	x0, x21
	bl	_unix_path.filler.trimmed_blocks_len
	mov	x1, x0
	b	Lunix_path_BB30_3
Lunix_path_BB30_10:
	mov	x22, #0
Lunix_path_BB30_11:
	mov	x2, #0
	b	Lunix_path_BB30_13
Lunix_path_BB30_12:
	mov	w8, #1
	add	x2, x8, x2
	cmp	x2, #4
	b.hs	Lunix_path_BB30_19
Lunix_path_BB30_13:
	cmp	x2, x22
	b.hs	Lunix_path_BB30_20
	ldrb	w8, [x21, x2]
	cmp	w8, #47
	b.eq	Lunix_path_BB30_12
	cmp	w8, #46
	b.ne	Lunix_path_BB30_20
	add	x8, x2, #1
	cmp	x8, x22
	b.eq	Lunix_path_BB30_12
	ldrb	w8, [x21, x8]
	cmp	w8, #47
	b.ne	Lunix_path_BB30_20
	mov	w8, #2
	add	x2, x8, x2
	cmp	x2, #4
	b.lo	Lunix_path_BB30_13
Lunix_path_BB30_19:
	mov	x0, x21
	mov	x1, x22
	bl	_unix_path.filler.filler_end_from
	mov	x2, x0
Lunix_path_BB30_20:
	subs	x8, x22, x2
	b.eq	Lunix_path_BB30_72
	add	x9, x21, x2
	add	x10, x21, x2
	ldrb	w11, [x10], #1
	cmp	w11, #47
	cset	w12, eq
	csel	x11, x9, x10, ne
	subs	x10, x8, x12
	b.eq	Lunix_path_BB30_72
	ldrb	w13, [x11]
	cmp	w13, #47
	b.eq	Lunix_path_BB30_72
	cmp	w13, #46
	b.ne	Lunix_path_BB30_29
	cmp	x10, #2
	b.lo	Lunix_path_BB30_72
	ldrb	w13, [x11, #1]
	cmp	w13, #47
	b.eq	Lunix_path_BB30_72
	cmp	w13, #46
	b.ne	Lunix_path_BB30_29
	cmp	x10, #2
	b.eq	Lunix_path_BB30_72
	ldrb	w13, [x11, #2]
	cmp	w13, #47
	b.eq	Lunix_path_BB30_72
Lunix_path_BB30_29:
	add	x16, x21, x22
	ldurb	w13, [x16, #-1]
	and	w13, w13, #0xfe
	cmp	w13, #46
	b.eq	Lunix_path_BB30_72
	subs	x14, x10, #17
	b.hs	Lunix_path_BB30_33
Lunix_path_BB30_31:
	cmp	x10, #9
	b.hs	Lunix_path_BB30_41
	mov	x13, #0
	b	Lunix_path_BB30_57
Lunix_path_BB30_33:
	adrp	x13, lunix_path_CPI30_0@PAGE
	cmp	x10, #32
	b.hi	Lunix_path_BB30_43
	ldr	q1, [x11]
	ldur	q2, [x11, #1]
	movi.16b	v0, #208
	and.16b	v2, v2, v0
	orr.16b	v2, v2, v1
	movi.16b	v1, #47
	cmeq.16b	v3, v2, v1
	ldr	q2, [x13, lunix_path_CPI30_0@PAGEOFF]
	and.16b	v3, v3, v2
	addp.16b	v3, v3, v3
	addp.16b	v3, v3, v3
	addp.16b	v3, v3, v3
	umov.h	w15, v3[0]
	cbnz	w15, Lunix_path_BB30_36
	ldur	q3, [x16, #-17]
	ldur	q4, [x16, #-16]
	and.16b	v0, v4, v0
	orr.16b	v0, v0, v3
	cmeq.16b	v0, v0, v1
	and.16b	v0, v0, v2
	addp.16b	v0, v0, v0
	addp.16b	v0, v0, v0
	addp.16b	v0, v0, v0
	umov.h	w15, v0[0]
	cbz	w15, Lunix_path_BB30_71
Lunix_path_BB30_36:
	cmp	x10, #18
	b.ls	Lunix_path_BB30_31
	subs	x15, x10, #19
	b.ne	Lunix_path_BB30_45
	mov	x16, #0
Lunix_path_BB30_39:
	cmp	x14, x16
	csel	x14, x14, x16, lo
	add	x16, x11, x14
	ldr	q0, [x16]
	ldur	q1, [x16, #1]
	movi.16b	v2, #208
	and.16b	v1, v1, v2
	orr.16b	v1, v1, v0
	movi.16b	v0, #47
	cmeq.16b	v2, v1, v0
	ldr	q1, [x13, lunix_path_CPI30_0@PAGEOFF]
	and.16b	v2, v2, v1
	addp.16b	v2, v2, v2
	addp.16b	v2, v2, v2
	addp.16b	v2, v2, v2
	umov.h	w13, v2[0]
	cbz	w13, Lunix_path_BB30_56
	add	x13, x11, x15
	ldr	q2, [x13]
	ldur	q3, [x13, #1]
	ldur	q4, [x13, #2]
	ldur	q5, [x13, #3]
	movi.16b	v6, #46
	cmeq.16b	v7, v4, v6
	cmeq.16b	v5, v5, v0
	and.16b	v5, v7, v5
	cmeq.16b	v6, v3, v6
	cmeq.16b	v4, v4, v0
	orr.16b	v4, v4, v5
	and.16b	v4, v6, v4
	cmeq.16b	v2, v2, v0
	cmeq.16b	v0, v3, v0
	orr.16b	v0, v0, v4
	and.16b	v1, v2, v1
	and.16b	v0, v1, v0
	addp.16b	v0, v0, v0
	addp.16b	v0, v0, v0
	addp.16b	v0, v0, v0
	umov.h	w13, v0[0]
	orr	w13, w13, #0x10000
	rbit	w13, w13
	clz	w13, w13
	add	x13, x15, x13
	b	Lunix_path_BB30_57
Lunix_path_BB30_41:
	ldr	d3, [x11]
	ldur	d1, [x11, #1]
	movi.8b	v0, #254
	and.8b	v2, v1, v0
	movi.8b	v1, #46
	cmeq.8b	v4, v2, v1
	movi.8b	v2, #47
	cmeq.8b	v5, v3, v2
Lunix_path_loh40:
	adrp	x13, lunix_path_CPI30_1@PAGE
Lunix_path_loh41:
	ldr	d3, [x13, lunix_path_CPI30_1@PAGEOFF]
	and.8b	v5, v5, v3
	and.8b	v4, v5, v4
	addv.8b	b4, v4
	fmov	w13, s4
	orr	w13, w13, #0x100
	rbit	w13, w13
	clz	w13, w13
	cmp	w13, #8
	b.lo	Lunix_path_BB30_57
	mov	w13, #17
	cmp	x10, #17
	csel	x13, x10, x13, lo
	sub	x13, x13, #9
	add	x14, x11, x13
	ldr	d4, [x14]
	ldur	d5, [x14, #1]
	and.8b	v0, v5, v0
	cmeq.8b	v0, v0, v1
	cmeq.8b	v1, v4, v2
	and.8b	v1, v1, v3
	and.8b	v0, v1, v0
	addv.8b	b0, v0
	fmov	w14, s0
	orr	w14, w14, #0x100
	rbit	w14, w14
	clz	w14, w14
	add	x13, x13, x14
	b	Lunix_path_BB30_57
Lunix_path_BB30_43:
	sub	x15, x10, #33
	add	x17, x11, x15
	ldr	q0, [x17]
	ldur	q1, [x17, #1]
	movi.16b	v2, #208
	and.16b	v1, v1, v2
	orr.16b	v0, v1, v0
	movi.16b	v1, #47
	cmeq.16b	v3, v0, v1
	ldr	q0, [x13, lunix_path_CPI30_0@PAGEOFF]
	and.16b	v3, v3, v0
	addp.16b	v3, v3, v3
	addp.16b	v3, v3, v3
	addp.16b	v3, v3, v3
	ldur	q4, [x16, #-17]
	ldur	q5, [x16, #-16]
	and.16b	v2, v5, v2
	orr.16b	v2, v2, v4
	cmeq.16b	v1, v2, v1
	and.16b	v1, v1, v0
	addp.16b	v1, v1, v1
	addp.16b	v1, v1, v1
	addp.16b	v1, v1, v1
	orr.16b	v1, v1, v3
	umov.h	w16, v1[0]
	cbz	w16, Lunix_path_BB30_52
	sub	x15, x10, #19
Lunix_path_BB30_45:
	mov	x16, #0
	b	Lunix_path_BB30_49
Lunix_path_BB30_46:
	ldur	q4, [x17, #2]
	ldur	q5, [x17, #3]
	movi.16b	v6, #46
	cmeq.16b	v7, v4, v6
	cmeq.16b	v5, v5, v2
	and.16b	v5, v7, v5
	cmeq.16b	v6, v1, v6
	cmeq.16b	v4, v4, v2
	orr.16b	v4, v4, v5
	and.16b	v4, v6, v4
	cmeq.16b	v0, v0, v2
	cmeq.16b	v1, v1, v2
	orr.16b	v1, v1, v4
	and.16b	v0, v0, v3
	and.16b	v0, v0, v1
	addp.16b	v0, v0, v0
	addp.16b	v0, v0, v0
	addp.16b	v0, v0, v0
	umov.h	w17, v0[0]
	orr	w17, w17, #0x10000
	rbit	w17, w17
	clz	w17, w17
	cmp	w17, #15
	b.ls	Lunix_path_BB30_51
	add	x16, x16, #16
Lunix_path_BB30_48:
	cmp	x16, x15
	b.hs	Lunix_path_BB30_39
Lunix_path_BB30_49:
	add	x17, x11, x16
	ldr	q0, [x17]
	ldur	q1, [x17, #1]
	movi.16b	v2, #208
	and.16b	v2, v1, v2
	orr.16b	v3, v2, v0
	movi.16b	v2, #47
	cmeq.16b	v4, v3, v2
	ldr	q3, [x13, lunix_path_CPI30_0@PAGEOFF]
	and.16b	v4, v4, v3
	addp.16b	v4, v4, v4
	addp.16b	v4, v4, v4
	addp.16b	v4, v4, v4
	umov.h	w0, v4[0]
	cbnz	w0, Lunix_path_BB30_46
	add	x16, x16, #16
	cmp	x16, x15
	b.lo	Lunix_path_BB30_49
	b	Lunix_path_BB30_48
Lunix_path_BB30_51:
	add	x13, x16, w17, uxtw
	b	Lunix_path_BB30_57
Lunix_path_BB30_52:
	cbz	x15, Lunix_path_BB30_71
	add	x16, x2, x12
	add	x16, x16, x21
	add	x16, x16, #17
	mov	w17, #17
Lunix_path_BB30_54:
	ldur	q1, [x16, #-17]
	ldp	q2, q5, [x16, #-16]
	movi.16b	v3, #208
	and.16b	v2, v2, v3
	orr.16b	v1, v2, v1
	movi.16b	v2, #47
	cmeq.16b	v1, v1, v2
	and.16b	v1, v1, v0
	addp.16b	v1, v1, v1
	addp.16b	v1, v1, v1
	addp.16b	v1, v1, v1
	ldur	q4, [x16, #-1]
	and.16b	v3, v5, v3
	orr.16b	v3, v3, v4
	cmeq.16b	v2, v3, v2
	and.16b	v2, v2, v0
	addp.16b	v2, v2, v2
	addp.16b	v2, v2, v2
	addp.16b	v2, v2, v2
	orr.16b	v1, v2, v1
	umov.h	w0, v1[0]
	cbnz	w0, Lunix_path_BB30_36
	add	x16, x16, #32
	add	x0, x17, #15
	add	x17, x17, #32
	cmp	x0, x15
	b.lo	Lunix_path_BB30_54
	b	Lunix_path_BB30_71
Lunix_path_BB30_56:
	add	x13, x14, #16
Lunix_path_BB30_57:
	cmp	x13, x10
	b.hs	Lunix_path_BB30_70
	add	x12, x2, x12
	sub	x12, x22, x12
	add	x14, x13, #3
	b	Lunix_path_BB30_61
Lunix_path_BB30_59:
	cmp	w16, #47
	b.eq	Lunix_path_BB30_70
Lunix_path_BB30_60:
	add	x14, x14, #1
	add	x13, x13, #1
	cmp	x15, x10
	b.hs	Lunix_path_BB30_69
Lunix_path_BB30_61:
	add	x15, x11, x14
	ldurb	w16, [x15, #-3]
	sub	x15, x14, #2
	cmp	w16, #47
	b.ne	Lunix_path_BB30_60
	cmp	x10, x15
	b.ls	Lunix_path_BB30_70
	add	x16, x11, x14
	ldurb	w16, [x16, #-2]
	cmp	w16, #46
	b.ne	Lunix_path_BB30_59
	sub	x16, x14, #1
	cmp	x10, x16
	b.ls	Lunix_path_BB30_70
	add	x16, x11, x14
	ldurb	w16, [x16, #-1]
	cmp	w16, #46
	b.ne	Lunix_path_BB30_59
	cmp	x10, x14
	b.ls	Lunix_path_BB30_70
	ldrb	w16, [x11, x14]
	cmp	w16, #47
	b.ne	Lunix_path_BB30_60
	sub	x13, x14, #3
	b	Lunix_path_BB30_70
Lunix_path_BB30_69:
	mov	x13, x12
Lunix_path_BB30_70:
	cmp	x13, x10
	b.ne	Lunix_path_BB30_72
Lunix_path_BB30_71:
	add	x12, x8, #1
	mov	x11, #-1
	mov	w10, #1
	mov	x21, x9
	mov	x20, x8
	b	Lunix_path_BB30_73
Lunix_path_BB30_72:
	add	x0, sp, #8
	mov	x1, x21
	mov	x2, x20
	bl	_path_within.backward.count_resolved
	mov	x10, #0
	ldp	x11, x12, [sp, #16]
Lunix_path_BB30_73:
	stp	x21, x20, [x19]
	stp	x11, x12, [x19, #16]
	str	x10, [x19, #32]
	ldp	x29, x30, [sp, #64]
	ldp	x20, x19, [sp, #48]
	ldp	x22, x21, [sp, #32]
	add	sp, sp, #80
	ret
	.loh AdrpLdr	Lunix_path_loh40, Lunix_path_loh41
	.section	__TEXT,__literal16,16byte_literals
	.p2align	4, 0x0
lunix_path_CPI31_0:
	.byte	1
	.byte	2
	.byte	4
	.byte	8
	.byte	16
	.byte	32
	.byte	64
	.byte	128
	.byte	1
	.byte	2
	.byte	4
	.byte	8
	.byte	16
	.byte	32
	.byte	64
	.byte	128
	.section	__TEXT,__text,regular,pure_instructions
	.p2align	2
; path_within::backward::count_resolved
_path_within.backward.count_resolved:
	stp	x22, x21, [sp, #-48]!
	stp	x20, x19, [sp, #16]
	stp	x29, x30, [sp, #32]
	add	x29, sp, #32
	mov	x21, x2
	mov	x20, x1
	mov	x19, x0
	cbz	x2, Lunix_path_BB31_10
	add	x8, x20, x21
	ldurb	w8, [x8, #-1]
	and	w8, w8, #0xfe
	mov	x12, x21
	cmp	w8, #46
	b.ne	Lunix_path_BB31_11
	mov	x12, x21
	b	Lunix_path_BB31_4
Lunix_path_BB31_3:
	mov	x12, x1
	cbz	x1, Lunix_path_BB31_11
Lunix_path_BB31_4:
	subs	x1, x12, #1
	b.eq	Lunix_path_BB31_11
	add	x8, x20, x1
	ldrb	w9, [x8]
	cmp	w9, #47
	b.eq	Lunix_path_BB31_8
	cmp	w9, #46
	b.ne	Lunix_path_BB31_11
	ldurb	w8, [x8, #-1]
	cmp	w8, #47
	b.ne	Lunix_path_BB31_11
Lunix_path_BB31_8:
	sub	x8, x21, x1
	cmp	x8, #8
	b.ne	Lunix_path_BB31_3
	mov	x0, x20
	bl	_unix_path.filler.trimmed_blocks_len
	mov	x1, x0
	b	Lunix_path_BB31_3
Lunix_path_BB31_10:
	mov	x12, #0
Lunix_path_BB31_11:
	mov	x8, #0
	mov	x9, #0
	sub	x10, x20, #1
Lunix_path_BB31_12:
	mov	x11, #0
	b	Lunix_path_BB31_15
Lunix_path_BB31_13:
	add	x11, x11, #1
Lunix_path_BB31_14:
	cbz	x13, Lunix_path_BB31_32
Lunix_path_BB31_15:
	mov	x14, x12
Lunix_path_BB31_16:
	cmp	x12, #15
	b.ls	Lunix_path_BB31_19
	sub	x13, x12, #16
	add	x12, x20, x12
	ldur	q0, [x12, #-16]
	movi.16b	v1, #47
	cmeq.16b	v0, v0, v1
Lunix_path_loh42:
	adrp	x12, lunix_path_CPI31_0@PAGE
Lunix_path_loh43:
	ldr	q1, [x12, lunix_path_CPI31_0@PAGEOFF]
	and.16b	v0, v0, v1
	addp.16b	v0, v0, v0
	addp.16b	v0, v0, v0
	addp.16b	v0, v0, v0
	umov.h	w15, v0[0]
	mov	x12, x13
	cbz	w15, Lunix_path_BB31_16
	umov.h	w12, v0[0]
	and	x12, x12, #0xffff
	clz	x12, x12
	sub	x12, x13, x12
	add	x13, x12, #64
	cmp	x13, #0
	cset	w12, ne
	sub	x12, x13, x12
	subs	x14, x14, x13
	b.ne	Lunix_path_BB31_23
	b	Lunix_path_BB31_14
Lunix_path_BB31_19:
	cbz	x12, Lunix_path_BB31_22
	sub	x13, x12, #1
	ldrb	w15, [x10, x12]
	mov	x12, x13
	cmp	w15, #47
	b.ne	Lunix_path_BB31_19
	add	x13, x13, #1
	cmp	x13, #0
	cset	w12, ne
	sub	x12, x13, x12
	subs	x14, x14, x13
	b.ne	Lunix_path_BB31_23
	b	Lunix_path_BB31_14
Lunix_path_BB31_22:
	mov	x13, #0
	cmp	x13, #0
	cset	w12, ne
	sub	x12, x13, x12
	subs	x14, x14, x13
	b.eq	Lunix_path_BB31_14
Lunix_path_BB31_23:
	add	x15, x20, x13
	cmp	x14, #1
	b.ne	Lunix_path_BB31_25
	ldrb	w15, [x15]
	cmp	w15, #46
	b.eq	Lunix_path_BB31_14
	b	Lunix_path_BB31_28
Lunix_path_BB31_25:
	cmp	x14, #2
	b.hi	Lunix_path_BB31_28
	ldrb	w16, [x15]
	cmp	w16, #46
	b.ne	Lunix_path_BB31_28
	ldrb	w15, [x15, #1]
	cmp	w15, #46
	b.eq	Lunix_path_BB31_13
Lunix_path_BB31_28:
	cbz	x11, Lunix_path_BB31_30
	sub	x11, x11, #1
	cbnz	x13, Lunix_path_BB31_15
	b	Lunix_path_BB31_32
Lunix_path_BB31_30:
	add	x8, x8, #1
	add	x9, x9, x14
	add	x9, x9, #1
	cbnz	x13, Lunix_path_BB31_12
	mov	x11, #0
Lunix_path_BB31_32:
	cbz	x21, Lunix_path_BB31_34
	ldrb	w10, [x20]
	cmp	w10, #47
	csel	x11, xzr, x11, eq
Lunix_path_BB31_34:
	stp	x11, x8, [x19]
	str	x9, [x19, #16]
	ldp	x29, x30, [sp, #32]
	ldp	x20, x19, [sp, #16]
	ldp	x22, x21, [sp], #48
	ret
	.loh AdrpLdr	Lunix_path_loh42, Lunix_path_loh43
	.section	__TEXT,__literal16,16byte_literals
	.p2align	4, 0x0
lunix_path_CPI32_0:
	.byte	1
	.byte	2
	.byte	4
	.byte	8
	.byte	16
	.byte	32
	.byte	64
	.byte	128
	.byte	1
	.byte	2
	.byte	4
	.byte	8
	.byte	16
	.byte	32
	.byte	64
	.byte	128
	.section	__TEXT,__text,regular,pure_instructions
	.p2align	2
; path_within::backward::put_names_before
_path_within.backward.put_names_before:
	stp	x28, x27, [sp, #-96]!
	stp	x26, x25, [sp, #16]
	stp	x24, x23, [sp, #32]
	stp	x22, x21, [sp, #48]
	stp	x20, x19, [sp, #64]
	stp	x29, x30, [sp, #80]
	add	x29, sp, #80
	mov	x19, x4
	mov	x20, x2
	mov	x22, x1
	mov	x21, x0
	cbz	x3, Lunix_path_BB32_10
	mov	x23, x3
	add	x8, x20, x3
	ldurb	w8, [x8, #-1]
	and	w8, w8, #0xfe
	cmp	w8, #46
	b.ne	Lunix_path_BB32_12
	mov	x28, x23
	b	Lunix_path_BB32_4
Lunix_path_BB32_3:
	mov	x28, x1
	cbz	x1, Lunix_path_BB32_11
Lunix_path_BB32_4:
	subs	x1, x28, #1
	b.eq	Lunix_path_BB32_11
	add	x8, x20, x1
	ldrb	w9, [x8]
	cmp	w9, #47
	b.eq	Lunix_path_BB32_8
	cmp	w9, #46
	b.ne	Lunix_path_BB32_11
	ldurb	w8, [x8, #-1]
	cmp	w8, #47
	b.ne	Lunix_path_BB32_11
Lunix_path_BB32_8:
	sub	x8, x23, x1
	cmp	x8, #8
	b.ne	Lunix_path_BB32_3
	mov	x0, x20
	bl	_unix_path.filler.trimmed_blocks_len
	mov	x1, x0
	b	Lunix_path_BB32_3
Lunix_path_BB32_10:
	mov	x28, #0
Lunix_path_BB32_11:
	cbnz	x19, Lunix_path_BB32_13
	b	Lunix_path_BB32_52
Lunix_path_BB32_12:
	mov	x28, x23
	cbz	x19, Lunix_path_BB32_52
Lunix_path_BB32_13:
	mov	w26, #0
	sub	x23, x21, #1
	sub	x24, x20, #16
	sub	x25, x20, #1
	add	x15, x21, #15
	add	x16, x20, #16
Lunix_path_BB32_14:
	tbnz	w26, #0, Lunix_path_BB32_52
	mov	x10, #0
	b	Lunix_path_BB32_18
Lunix_path_BB32_16:
	add	x10, x10, #1
Lunix_path_BB32_17:
	cbz	x9, Lunix_path_BB32_52
Lunix_path_BB32_18:
	mov	x8, x28
	mov	x9, x28
Lunix_path_BB32_19:
	cmp	x9, #15
	b.ls	Lunix_path_BB32_22
	ldr	q0, [x24, x9]
	sub	x11, x9, #16
	movi.16b	v1, #47
	cmeq.16b	v0, v0, v1
Lunix_path_loh44:
	adrp	x9, lunix_path_CPI32_0@PAGE
Lunix_path_loh45:
	ldr	q1, [x9, lunix_path_CPI32_0@PAGEOFF]
	and.16b	v0, v0, v1
	addp.16b	v0, v0, v0
	addp.16b	v0, v0, v0
	addp.16b	v0, v0, v0
	umov.h	w12, v0[0]
	mov	x9, x11
	cbz	w12, Lunix_path_BB32_19
	umov.h	w9, v0[0]
	and	x9, x9, #0xffff
	clz	x9, x9
	sub	x9, x11, x9
	add	x9, x9, #64
	b	Lunix_path_BB32_25
Lunix_path_BB32_22:
	cbz	x9, Lunix_path_BB32_25
	sub	x11, x9, #1
	ldrb	w12, [x25, x9]
	mov	x9, x11
	cmp	w12, #47
	b.ne	Lunix_path_BB32_22
	add	x9, x11, #1
Lunix_path_BB32_25:
	cmp	x9, #0
	cset	w11, ne
	cset	w26, eq
	sub	x28, x9, x11
	subs	x2, x8, x9
	b.eq	Lunix_path_BB32_17
	add	x1, x20, x9
	cmp	x2, #1
	b.ne	Lunix_path_BB32_28
	ldrb	w11, [x1]
	cmp	w11, #46
	b.eq	Lunix_path_BB32_17
	b	Lunix_path_BB32_31
Lunix_path_BB32_28:
	cmp	x2, #2
	b.hi	Lunix_path_BB32_31
	ldrb	w11, [x1]
	cmp	w11, #46
	b.ne	Lunix_path_BB32_31
	ldrb	w11, [x1, #1]
	cmp	w11, #46
	b.eq	Lunix_path_BB32_16
Lunix_path_BB32_31:
	cbz	x10, Lunix_path_BB32_33
	sub	x10, x10, #1
	b	Lunix_path_BB32_17
Lunix_path_BB32_33:
	mvn	x10, x2
	add	x0, x22, x10
	add	x27, x21, x0
	sub	x10, x27, x1
	cmp	x10, x2
	b.hs	Lunix_path_BB32_39
	cmp	x2, #7
	b.ls	Lunix_path_BB32_36
	add	x10, x23, x22
	add	x11, x8, x20
	sub	x10, x10, x11
	cmp	x10, #32
	b.hs	Lunix_path_BB32_43
Lunix_path_BB32_36:
	mov	x10, #0
Lunix_path_BB32_37:
	add	x9, x10, x9
	sub	x8, x9, x8
	add	x9, x9, x20
	add	x10, x23, x22
Lunix_path_BB32_38:
	ldrb	w11, [x9], #1
	strb	w11, [x10, x8]
	adds	x8, x8, #1
	b.lo	Lunix_path_BB32_38
	b	Lunix_path_BB32_40
Lunix_path_BB32_39:
	mov	x22, x0
	add	x0, x21, x0
	bl	_memmove
	add	x16, x20, #16
	add	x15, x21, #15
	mov	x0, x22
Lunix_path_BB32_40:
	cbz	x0, Lunix_path_BB32_42
	mov	w8, #47
	sturb	w8, [x27, #-1]
Lunix_path_BB32_42:
	mov	x22, x0
	subs	x19, x19, #1
	b.ne	Lunix_path_BB32_14
	b	Lunix_path_BB32_53
Lunix_path_BB32_43:
	cmp	x2, #32
	b.hs	Lunix_path_BB32_45
	mov	x10, #0
	b	Lunix_path_BB32_49
Lunix_path_BB32_45:
	and	x11, x2, #0x18
	and	x10, x2, #0xffffffffffffffe0
	add	x12, x15, x22
	sub	x13, x9, x8
	add	x12, x12, x13
	add	x13, x16, x9
	and	x14, x2, #0xffffffffffffffe0
Lunix_path_BB32_46:
	ldp	q0, q1, [x13, #-16]
	stp	q0, q1, [x12, #-16]
	add	x12, x12, #32
	add	x13, x13, #32
	subs	x14, x14, #32
	b.ne	Lunix_path_BB32_46
	cmp	x2, x10
	b.eq	Lunix_path_BB32_40
	cbz	x11, Lunix_path_BB32_37
Lunix_path_BB32_49:
	mov	x13, x10
	and	x10, x2, #0xfffffffffffffff8
	sub	x11, x13, x10
	add	x12, x20, x13
	add	x12, x12, x9
	add	x13, x13, x22
	add	x13, x23, x13
	sub	x14, x9, x8
	add	x13, x13, x14
Lunix_path_BB32_50:
	ldr	d0, [x12], #8
	str	d0, [x13], #8
	adds	x11, x11, #8
	b.ne	Lunix_path_BB32_50
	cmp	x2, x10
	b.ne	Lunix_path_BB32_37
	b	Lunix_path_BB32_40
Lunix_path_BB32_52:
	mov	x0, x22
Lunix_path_BB32_53:
	ldp	x29, x30, [sp, #80]
	ldp	x20, x19, [sp, #64]
	ldp	x22, x21, [sp, #48]
	ldp	x24, x23, [sp, #32]
	ldp	x26, x25, [sp, #16]
	ldp	x28, x27, [sp], #96
	ret
	.loh AdrpLdr	Lunix_path_loh44, Lunix_path_loh45
	.section	__TEXT,__literal16,16byte_literals
	.p2align	4, 0x0
lunix_path_CPI33_0:
	.byte	1
	.byte	2
	.byte	4
	.byte	8
	.byte	16
	.byte	32
	.byte	64
	.byte	128
	.byte	1
	.byte	2
	.byte	4
	.byte	8
	.byte	16
	.byte	32
	.byte	64
	.byte	128
	.section	__TEXT,__text,regular,pure_instructions
	.p2align	2
; path_within::normal::is_resolved
_path_within.normal.is_resolved:
	sub	sp, sp, #144
	stp	x22, x21, [sp, #96]
	stp	x20, x19, [sp, #112]
	stp	x29, x30, [sp, #128]
	add	x29, sp, #128
	mov	x19, x1
	mov	x20, x0
	bl	_path_runs.canonical.is_canonical
	cbz	w0, Lunix_path_BB33_17
	cbz	x19, Lunix_path_BB33_16
	ldrb	w22, [x20]
	cmp	w22, #47
	b.eq	Lunix_path_BB33_5
	cmp	w22, #46
	b.ne	Lunix_path_BB33_6
	cmp	x19, #1
	b.ne	Lunix_path_BB33_7
Lunix_path_BB33_5:
	mov	w21, #1
	b	Lunix_path_BB33_8
Lunix_path_BB33_6:
	mov	w21, #0
	b	Lunix_path_BB33_8
Lunix_path_BB33_7:
	ldrb	w8, [x20, #1]
	cmp	w8, #47
	cset	w21, eq
Lunix_path_BB33_8:
	mov	x8, x19
	b	Lunix_path_BB33_10
Lunix_path_BB33_9:
	mov	x8, x1
	cbz	x1, Lunix_path_BB33_16
Lunix_path_BB33_10:
	subs	x1, x8, #1
	b.eq	Lunix_path_BB33_18
	add	x9, x20, x1
	ldrb	w10, [x9]
	cmp	w10, #47
	b.eq	Lunix_path_BB33_14
	cmp	w10, #46
	b.ne	Lunix_path_BB33_20
	ldurb	w9, [x9, #-1]
	cmp	w9, #47
	b.ne	Lunix_path_BB33_20
Lunix_path_BB33_14:
	sub	x8, x19, x1
	cmp	x8, #8
	b.ne	Lunix_path_BB33_9
	mov	x0, x20
	bl	_unix_path.filler.trimmed_blocks_len
	mov	x1, x0
	b	Lunix_path_BB33_9
Lunix_path_BB33_16:
	mov	w0, #1
Lunix_path_BB33_17:
	and	w0, w0, #0x1
	ldp	x29, x30, [sp, #128]
	ldp	x20, x19, [sp, #112]
	ldp	x22, x21, [sp, #96]
	add	sp, sp, #144
	ret
Lunix_path_BB33_18:
	strh	wzr, [sp, #4]
	str	wzr, [sp]
	tbz	w21, #0, Lunix_path_BB33_35
	mov	w10, #1
	mov	w9, #1
	cmp	w22, #47
	b.eq	Lunix_path_BB33_38
	b	Lunix_path_BB33_41
Lunix_path_BB33_20:
	strh	wzr, [sp, #4]
	str	wzr, [sp]
	tbz	w21, #0, Lunix_path_BB33_27
	mov	x9, #0
	sub	x10, x8, #2
	b	Lunix_path_BB33_23
Lunix_path_BB33_22:
	add	x9, x9, #1
	cmp	x1, x9
	b.eq	Lunix_path_BB33_36
Lunix_path_BB33_23:
	add	x11, x20, x9
	ldrb	w11, [x11, #1]
	cmp	w11, #47
	b.eq	Lunix_path_BB33_22
	cmp	w11, #46
	b.ne	Lunix_path_BB33_37
	cmp	x10, x9
	b.eq	Lunix_path_BB33_36
	add	x11, x20, x9
	ldrb	w11, [x11, #2]
	cmp	w11, #47
	b.eq	Lunix_path_BB33_22
	b	Lunix_path_BB33_37
Lunix_path_BB33_27:
	cmp	w22, #46
	b.ne	Lunix_path_BB33_31
	ldrb	w9, [x20, #1]
	cmp	w9, #46
	b.ne	Lunix_path_BB33_31
	cmp	x8, #2
	b.ne	Lunix_path_BB33_39
	mov	w9, #0
	strh	wzr, [sp, #12]
	str	wzr, [sp, #8]
	b	Lunix_path_BB33_42
Lunix_path_BB33_31:
	cmp	x8, #16
	b.lo	Lunix_path_BB33_35
Lunix_path_BB33_32:
	subs	x9, x8, #16
	b.eq	Lunix_path_BB33_41
	mov	x10, #0
Lunix_path_BB33_34:
	ldr	q0, [x20, x10]
	movi.16b	v1, #47
	cmeq.16b	v0, v0, v1
Lunix_path_loh46:
	adrp	x11, lunix_path_CPI33_0@PAGE
Lunix_path_loh47:
	ldr	q1, [x11, lunix_path_CPI33_0@PAGEOFF]
	and.16b	v0, v0, v1
	addp.16b	v0, v0, v0
	addp.16b	v0, v0, v0
	addp.16b	v0, v0, v0
	umov.h	w11, v0[0]
	add	x10, x10, #16
	cmp	w11, #0
	ccmp	x10, x9, #2, eq
	b.lo	Lunix_path_BB33_34
Lunix_path_BB33_35:
	mov	w9, #0
	b	Lunix_path_BB33_41
Lunix_path_BB33_36:
	mov	x9, x1
Lunix_path_BB33_37:
	add	x10, x9, #1
	mov	w9, #1
	cmp	w22, #47
	b.ne	Lunix_path_BB33_41
Lunix_path_BB33_38:
	stp	x20, x19, [sp, #16]
	stp	x10, x8, [sp, #32]
	strh	w9, [sp, #48]
	ldr	w8, [sp]
	stur	w8, [sp, #50]
	ldrh	w8, [sp, #4]
	strh	w8, [sp, #54]
	add	x0, sp, #16
	b	Lunix_path_BB33_79
Lunix_path_BB33_39:
	mov	w9, #0
	ldrb	w10, [x20, #2]
	cmp	w10, #47
	b.eq	Lunix_path_BB33_41
	cmp	x8, #16
	b.hs	Lunix_path_BB33_32
Lunix_path_BB33_41:
	ldr	w10, [sp]
	str	w10, [sp, #8]
	ldrh	w10, [sp, #4]
	strh	w10, [sp, #12]
Lunix_path_BB33_42:
	mov	x10, #0
	mov	x12, x8
	b	Lunix_path_BB33_45
Lunix_path_BB33_43:
	mov	x14, #0
Lunix_path_BB33_44:
	mov	w21, #0
	add	x10, x10, x14
	add	x10, x10, #2
	subs	x12, x8, x10
	b.eq	Lunix_path_BB33_64
Lunix_path_BB33_45:
	mov	x13, x21
	tbnz	w21, #0, Lunix_path_BB33_64
	add	x11, x20, x10
	cmp	x12, #1
	b.eq	Lunix_path_BB33_58
	ldrb	w14, [x11]
	cmp	w14, #46
	b.ne	Lunix_path_BB33_58
	ldrb	w14, [x11, #1]
	cmp	w14, #46
	b.ne	Lunix_path_BB33_58
	subs	x15, x12, #2
	b.eq	Lunix_path_BB33_43
	ldrb	w14, [x11, #2]
	cmp	w14, #47
	b.ne	Lunix_path_BB33_58
	mov	x14, #0
	sub	x12, x12, #3
	b	Lunix_path_BB33_53
Lunix_path_BB33_52:
	add	x14, x14, #1
	cmp	x15, x14
	b.eq	Lunix_path_BB33_57
Lunix_path_BB33_53:
	add	x16, x11, x14
	ldrb	w16, [x16, #2]
	cmp	w16, #47
	b.eq	Lunix_path_BB33_52
	cmp	w16, #46
	b.ne	Lunix_path_BB33_44
	cmp	x12, x14
	b.eq	Lunix_path_BB33_57
	add	x16, x11, x14
	ldrb	w16, [x16, #3]
	cmp	w16, #47
	b.eq	Lunix_path_BB33_52
	b	Lunix_path_BB33_44
Lunix_path_BB33_57:
	mov	x14, x15
	b	Lunix_path_BB33_44
Lunix_path_BB33_58:
	cmp	x12, #15
	b.hi	Lunix_path_BB33_65
	mov	x13, #0
	add	x14, x20, x10
Lunix_path_BB33_60:
	ldrb	w15, [x14, x13]
	cmp	w15, #47
	b.eq	Lunix_path_BB33_70
	add	x13, x13, #1
	cmp	x12, x13
	b.ne	Lunix_path_BB33_60
	mov	x13, x12
	subs	x14, x12, x12
	b.ne	Lunix_path_BB33_71
Lunix_path_BB33_63:
	mov	x12, #0
	b	Lunix_path_BB33_78
Lunix_path_BB33_64:
	eor	w0, w13, #0x1
	and	w0, w0, #0x1
	ldp	x29, x30, [sp, #128]
	ldp	x20, x19, [sp, #112]
	ldp	x22, x21, [sp, #96]
	add	sp, sp, #144
	ret
Lunix_path_BB33_65:
	subs	x13, x12, #16
	b.eq	Lunix_path_BB33_69
	mov	x14, #0
	add	x15, x20, x10
Lunix_path_BB33_67:
	ldr	q0, [x15, x14]
	movi.16b	v1, #47
	cmeq.16b	v0, v0, v1
Lunix_path_loh48:
	adrp	x16, lunix_path_CPI33_0@PAGE
Lunix_path_loh49:
	ldr	q1, [x16, lunix_path_CPI33_0@PAGEOFF]
	and.16b	v0, v0, v1
	addp.16b	v0, v0, v0
	addp.16b	v0, v0, v0
	addp.16b	v0, v0, v0
	umov.h	w16, v0[0]
	orr	w16, w16, #0x10000
	rbit	w16, w16
	clz	w16, w16
	cmp	w16, #15
	b.ls	Lunix_path_BB33_80
	add	x14, x14, #16
	cmp	x14, x13
	b.lo	Lunix_path_BB33_67
Lunix_path_BB33_69:
	ldr	q0, [x11, x13]
	movi.16b	v1, #47
	cmeq.16b	v0, v0, v1
Lunix_path_loh50:
	adrp	x14, lunix_path_CPI33_0@PAGE
Lunix_path_loh51:
	ldr	q1, [x14, lunix_path_CPI33_0@PAGEOFF]
	and.16b	v0, v0, v1
	addp.16b	v0, v0, v0
	addp.16b	v0, v0, v0
	addp.16b	v0, v0, v0
	umov.h	w14, v0[0]
	orr	w14, w14, #0x10000
	rbit	w14, w14
	clz	w14, w14
	add	x13, x13, x14
Lunix_path_BB33_70:
	subs	x14, x12, x13
	b.eq	Lunix_path_BB33_63
Lunix_path_BB33_71:
	mov	x12, #0
	add	x11, x11, x13
	sub	x15, x14, #1
	b	Lunix_path_BB33_73
Lunix_path_BB33_72:
	add	x12, x12, #1
	cmp	x14, x12
	b.eq	Lunix_path_BB33_77
Lunix_path_BB33_73:
	ldrb	w16, [x11, x12]
	cmp	w16, #47
	b.eq	Lunix_path_BB33_72
	cmp	w16, #46
	b.ne	Lunix_path_BB33_78
	cmp	x15, x12
	b.eq	Lunix_path_BB33_77
	add	x16, x11, x12
	ldrb	w16, [x16, #1]
	cmp	w16, #47
	b.eq	Lunix_path_BB33_72
	b	Lunix_path_BB33_78
Lunix_path_BB33_77:
	mov	x12, x14
Lunix_path_BB33_78:
	add	x10, x13, x10
	add	x10, x10, x12
	stp	x20, x19, [sp, #56]
	stp	x10, x8, [sp, #72]
	strb	w9, [sp, #88]
	strb	wzr, [sp, #89]
	ldr	w8, [sp, #8]
	stur	w8, [sp, #90]
	ldrh	w8, [sp, #12]
	strh	w8, [sp, #94]
	add	x0, sp, #56
Lunix_path_BB33_79:
	bl	_path_within.normal.are_names
	and	w0, w0, #0x1
	ldp	x29, x30, [sp, #128]
	ldp	x20, x19, [sp, #112]
	ldp	x22, x21, [sp, #96]
	add	sp, sp, #144
	ret
Lunix_path_BB33_80:
	add	x13, x14, w16, uxtw
	subs	x14, x12, x13
	b.ne	Lunix_path_BB33_71
	b	Lunix_path_BB33_63
	.loh AdrpLdr	Lunix_path_loh46, Lunix_path_loh47
	.loh AdrpLdr	Lunix_path_loh48, Lunix_path_loh49
	.loh AdrpLdr	Lunix_path_loh50, Lunix_path_loh51
	.section	__TEXT,__literal16,16byte_literals
	.p2align	4, 0x0
lunix_path_CPI34_0:
	.byte	1
	.byte	2
	.byte	4
	.byte	8
	.byte	16
	.byte	32
	.byte	64
	.byte	128
	.byte	1
	.byte	2
	.byte	4
	.byte	8
	.byte	16
	.byte	32
	.byte	64
	.byte	128
	.section	__TEXT,__literal8,8byte_literals
	.p2align	3, 0x0
lunix_path_CPI34_1:
	.byte	1
	.byte	2
	.byte	4
	.byte	8
	.byte	16
	.byte	32
	.byte	64
	.byte	128
	.section	__TEXT,__text,regular,pure_instructions
	.p2align	2
; path_within::normal::are_names
_path_within.normal.are_names:
	ldp	x8, x9, [x0, #16]
	subs	x12, x9, x8
	b.eq	Lunix_path_BB34_79
	ldr	x10, [x0]
	ldrb	w13, [x0, #33]
	add	x11, x10, x8
	ldrb	w15, [x11], #1
	add	x14, x10, x8
	cmp	w15, #47
	cset	w17, eq
	csel	x16, x14, x11, ne
	adrp	x11, lunix_path_CPI34_0@PAGE
	subs	x15, x12, x17
	b.eq	Lunix_path_BB34_54
	ldrb	w0, [x16]
	cmp	w0, #47
	b.eq	Lunix_path_BB34_54
	cmp	w0, #46
	b.ne	Lunix_path_BB34_9
	cmp	x15, #2
	b.lo	Lunix_path_BB34_54
	ldrb	w0, [x16, #1]
	cmp	w0, #47
	b.eq	Lunix_path_BB34_54
	cmp	w0, #46
	b.ne	Lunix_path_BB34_9
	cmp	x15, #2
	b.eq	Lunix_path_BB34_54
	ldrb	w0, [x16, #2]
	cmp	w0, #47
	b.eq	Lunix_path_BB34_54
Lunix_path_BB34_9:
	add	x2, x10, x9
	ldurb	w0, [x2, #-1]
	and	w0, w0, #0xfe
	cmp	w0, #46
	b.eq	Lunix_path_BB34_54
	subs	x0, x15, #17
	b.hs	Lunix_path_BB34_13
Lunix_path_BB34_11:
	cmp	x15, #9
	b.hs	Lunix_path_BB34_21
	mov	x0, #0
	b	Lunix_path_BB34_37
Lunix_path_BB34_13:
	cmp	x15, #32
	b.hi	Lunix_path_BB34_23
	ldr	q1, [x16]
	ldur	q2, [x16, #1]
	movi.16b	v0, #208
	and.16b	v2, v2, v0
	orr.16b	v2, v2, v1
	movi.16b	v1, #47
	cmeq.16b	v3, v2, v1
	ldr	q2, [x11, lunix_path_CPI34_0@PAGEOFF]
	and.16b	v3, v3, v2
	addp.16b	v3, v3, v3
	addp.16b	v3, v3, v3
	addp.16b	v3, v3, v3
	umov.h	w1, v3[0]
	cbnz	w1, Lunix_path_BB34_16
	ldur	q3, [x2, #-17]
	ldur	q4, [x2, #-16]
	and.16b	v0, v4, v0
	orr.16b	v0, v0, v3
	cmeq.16b	v0, v0, v1
	and.16b	v0, v0, v2
	addp.16b	v0, v0, v0
	addp.16b	v0, v0, v0
	addp.16b	v0, v0, v0
	umov.h	w1, v0[0]
	cbz	w1, Lunix_path_BB34_51
Lunix_path_BB34_16:
	cmp	x15, #18
	b.ls	Lunix_path_BB34_11
	subs	x1, x15, #19
	b.ne	Lunix_path_BB34_25
	mov	x2, #0
Lunix_path_BB34_19:
	cmp	x0, x2
	csel	x0, x0, x2, lo
	add	x2, x16, x0
	ldr	q0, [x2]
	ldur	q1, [x2, #1]
	movi.16b	v2, #208
	and.16b	v1, v1, v2
	orr.16b	v1, v1, v0
	movi.16b	v0, #47
	cmeq.16b	v2, v1, v0
	ldr	q1, [x11, lunix_path_CPI34_0@PAGEOFF]
	and.16b	v2, v2, v1
	addp.16b	v2, v2, v2
	addp.16b	v2, v2, v2
	addp.16b	v2, v2, v2
	umov.h	w2, v2[0]
	cbz	w2, Lunix_path_BB34_36
	add	x0, x16, x1
	ldr	q2, [x0]
	ldur	q3, [x0, #1]
	ldur	q4, [x0, #2]
	ldur	q5, [x0, #3]
	movi.16b	v6, #46
	cmeq.16b	v7, v4, v6
	cmeq.16b	v5, v5, v0
	and.16b	v5, v7, v5
	cmeq.16b	v6, v3, v6
	cmeq.16b	v4, v4, v0
	orr.16b	v4, v4, v5
	and.16b	v4, v6, v4
	cmeq.16b	v2, v2, v0
	cmeq.16b	v0, v3, v0
	orr.16b	v0, v0, v4
	and.16b	v1, v2, v1
	and.16b	v0, v1, v0
	addp.16b	v0, v0, v0
	addp.16b	v0, v0, v0
	addp.16b	v0, v0, v0
	umov.h	w0, v0[0]
	orr	w0, w0, #0x10000
	rbit	w0, w0
	clz	w0, w0
	add	x0, x1, x0
	b	Lunix_path_BB34_37
Lunix_path_BB34_21:
	ldr	d3, [x16]
	ldur	d1, [x16, #1]
	movi.8b	v0, #254
	and.8b	v2, v1, v0
	movi.8b	v1, #46
	cmeq.8b	v4, v2, v1
	movi.8b	v2, #47
	cmeq.8b	v5, v3, v2
Lunix_path_loh52:
	adrp	x0, lunix_path_CPI34_1@PAGE
Lunix_path_loh53:
	ldr	d3, [x0, lunix_path_CPI34_1@PAGEOFF]
	and.8b	v5, v5, v3
	and.8b	v4, v5, v4
	addv.8b	b4, v4
	fmov	w0, s4
	orr	w0, w0, #0x100
	rbit	w0, w0
	clz	w0, w0
	cmp	w0, #8
	b.lo	Lunix_path_BB34_37
	mov	w0, #17
	cmp	x15, #17
	csel	x0, x15, x0, lo
	sub	x0, x0, #9
	add	x1, x16, x0
	ldr	d4, [x1]
	ldur	d5, [x1, #1]
	and.8b	v0, v5, v0
	cmeq.8b	v0, v0, v1
	cmeq.8b	v1, v4, v2
	and.8b	v1, v1, v3
	and.8b	v0, v1, v0
	addv.8b	b0, v0
	fmov	w1, s0
	orr	w1, w1, #0x100
	rbit	w1, w1
	clz	w1, w1
	add	x0, x0, x1
	b	Lunix_path_BB34_37
Lunix_path_BB34_23:
	sub	x1, x15, #33
	add	x3, x16, x1
	ldr	q0, [x3]
	ldur	q1, [x3, #1]
	movi.16b	v2, #208
	and.16b	v1, v1, v2
	orr.16b	v0, v1, v0
	movi.16b	v1, #47
	cmeq.16b	v3, v0, v1
	ldr	q0, [x11, lunix_path_CPI34_0@PAGEOFF]
	and.16b	v3, v3, v0
	addp.16b	v3, v3, v3
	addp.16b	v3, v3, v3
	addp.16b	v3, v3, v3
	ldur	q4, [x2, #-17]
	ldur	q5, [x2, #-16]
	and.16b	v2, v5, v2
	orr.16b	v2, v2, v4
	cmeq.16b	v1, v2, v1
	and.16b	v1, v1, v0
	addp.16b	v1, v1, v1
	addp.16b	v1, v1, v1
	addp.16b	v1, v1, v1
	orr.16b	v1, v1, v3
	umov.h	w2, v1[0]
	cbz	w2, Lunix_path_BB34_32
	sub	x1, x15, #19
Lunix_path_BB34_25:
	mov	x2, #0
	b	Lunix_path_BB34_29
Lunix_path_BB34_26:
	ldur	q4, [x3, #2]
	ldur	q5, [x3, #3]
	movi.16b	v6, #46
	cmeq.16b	v7, v4, v6
	cmeq.16b	v5, v5, v2
	and.16b	v5, v7, v5
	cmeq.16b	v6, v1, v6
	cmeq.16b	v4, v4, v2
	orr.16b	v4, v4, v5
	and.16b	v4, v6, v4
	cmeq.16b	v0, v0, v2
	cmeq.16b	v1, v1, v2
	orr.16b	v1, v1, v4
	and.16b	v0, v0, v3
	and.16b	v0, v0, v1
	addp.16b	v0, v0, v0
	addp.16b	v0, v0, v0
	addp.16b	v0, v0, v0
	umov.h	w3, v0[0]
	orr	w3, w3, #0x10000
	rbit	w3, w3
	clz	w3, w3
	cmp	w3, #15
	b.ls	Lunix_path_BB34_31
	add	x2, x2, #16
Lunix_path_BB34_28:
	cmp	x2, x1
	b.hs	Lunix_path_BB34_19
Lunix_path_BB34_29:
	add	x3, x16, x2
	ldr	q0, [x3]
	ldur	q1, [x3, #1]
	movi.16b	v2, #208
	and.16b	v2, v1, v2
	orr.16b	v3, v2, v0
	movi.16b	v2, #47
	cmeq.16b	v4, v3, v2
	ldr	q3, [x11, lunix_path_CPI34_0@PAGEOFF]
	and.16b	v4, v4, v3
	addp.16b	v4, v4, v4
	addp.16b	v4, v4, v4
	addp.16b	v4, v4, v4
	umov.h	w4, v4[0]
	cbnz	w4, Lunix_path_BB34_26
	add	x2, x2, #16
	cmp	x2, x1
	b.lo	Lunix_path_BB34_29
	b	Lunix_path_BB34_28
Lunix_path_BB34_31:
	add	x0, x2, w3, uxtw
	b	Lunix_path_BB34_37
Lunix_path_BB34_32:
	cbz	x1, Lunix_path_BB34_51
	add	x2, x8, x17
	add	x2, x2, x10
	add	x2, x2, #17
	mov	w3, #17
Lunix_path_BB34_34:
	ldur	q1, [x2, #-17]
	ldp	q2, q5, [x2, #-16]
	movi.16b	v3, #208
	and.16b	v2, v2, v3
	orr.16b	v1, v2, v1
	movi.16b	v2, #47
	cmeq.16b	v1, v1, v2
	and.16b	v1, v1, v0
	addp.16b	v1, v1, v1
	addp.16b	v1, v1, v1
	addp.16b	v1, v1, v1
	ldur	q4, [x2, #-1]
	and.16b	v3, v5, v3
	orr.16b	v3, v3, v4
	cmeq.16b	v2, v3, v2
	and.16b	v2, v2, v0
	addp.16b	v2, v2, v2
	addp.16b	v2, v2, v2
	addp.16b	v2, v2, v2
	orr.16b	v1, v2, v1
	umov.h	w4, v1[0]
	cbnz	w4, Lunix_path_BB34_16
	add	x2, x2, #32
	add	x4, x3, #15
	add	x3, x3, #32
	cmp	x4, x1
	b.lo	Lunix_path_BB34_34
	b	Lunix_path_BB34_51
Lunix_path_BB34_36:
	add	x0, x0, #16
Lunix_path_BB34_37:
	cmp	x0, x15
	b.hs	Lunix_path_BB34_50
	add	x17, x8, x17
	sub	x17, x9, x17
	add	x1, x0, #3
	b	Lunix_path_BB34_41
Lunix_path_BB34_39:
	cmp	w3, #47
	b.eq	Lunix_path_BB34_50
Lunix_path_BB34_40:
	add	x1, x1, #1
	add	x0, x0, #1
	cmp	x2, x15
	b.hs	Lunix_path_BB34_49
Lunix_path_BB34_41:
	add	x2, x16, x1
	ldurb	w3, [x2, #-3]
	sub	x2, x1, #2
	cmp	w3, #47
	b.ne	Lunix_path_BB34_40
	cmp	x15, x2
	b.ls	Lunix_path_BB34_50
	add	x3, x16, x1
	ldurb	w3, [x3, #-2]
	cmp	w3, #46
	b.ne	Lunix_path_BB34_39
	sub	x3, x1, #1
	cmp	x15, x3
	b.ls	Lunix_path_BB34_50
	add	x3, x16, x1
	ldurb	w3, [x3, #-1]
	cmp	w3, #46
	b.ne	Lunix_path_BB34_39
	cmp	x15, x1
	b.ls	Lunix_path_BB34_50
	ldrb	w3, [x16, x1]
	cmp	w3, #47
	b.ne	Lunix_path_BB34_40
	sub	x0, x1, #3
	b	Lunix_path_BB34_50
Lunix_path_BB34_49:
	mov	x0, x17
Lunix_path_BB34_50:
	cmp	x0, x15
	b.ne	Lunix_path_BB34_54
Lunix_path_BB34_51:
	ldrb	w8, [x14]
	cmp	w8, #47
	cset	w0, ne
	ret
Lunix_path_BB34_52:
	mov	x12, #0
Lunix_path_BB34_53:
	mov	w13, #0
	add	x8, x14, x8
	add	x8, x8, x12
	subs	x12, x9, x8
	b.eq	Lunix_path_BB34_79
Lunix_path_BB34_54:
	tbnz	w13, #0, Lunix_path_BB34_80
	add	x13, x10, x8
	cmp	x12, #1
	b.eq	Lunix_path_BB34_60
	ldrb	w14, [x13]
	cmp	w14, #46
	b.ne	Lunix_path_BB34_60
	ldrb	w14, [x13, #1]
	cmp	w14, #46
	b.ne	Lunix_path_BB34_60
	cmp	x12, #2
	b.eq	Lunix_path_BB34_80
	ldrb	w14, [x13, #2]
	cmp	w14, #47
	b.eq	Lunix_path_BB34_80
Lunix_path_BB34_60:
	cmp	x12, #15
	b.hi	Lunix_path_BB34_65
	mov	x14, #0
Lunix_path_BB34_62:
	ldrb	w15, [x13, x14]
	cmp	w15, #47
	b.eq	Lunix_path_BB34_70
	add	x14, x14, #1
	cmp	x12, x14
	b.ne	Lunix_path_BB34_62
	mov	x14, x12
	subs	x15, x12, x12
	b.ne	Lunix_path_BB34_71
	b	Lunix_path_BB34_52
Lunix_path_BB34_65:
	subs	x14, x12, #16
	b.eq	Lunix_path_BB34_69
	mov	x15, #0
Lunix_path_BB34_67:
	ldr	q0, [x13, x15]
	movi.16b	v1, #47
	cmeq.16b	v0, v0, v1
	ldr	q1, [x11, lunix_path_CPI34_0@PAGEOFF]
	and.16b	v0, v0, v1
	addp.16b	v0, v0, v0
	addp.16b	v0, v0, v0
	addp.16b	v0, v0, v0
	umov.h	w16, v0[0]
	orr	w16, w16, #0x10000
	rbit	w16, w16
	clz	w16, w16
	cmp	w16, #15
	b.ls	Lunix_path_BB34_78
	add	x15, x15, #16
	cmp	x15, x14
	b.lo	Lunix_path_BB34_67
Lunix_path_BB34_69:
	ldr	q0, [x13, x14]
	movi.16b	v1, #47
	cmeq.16b	v0, v0, v1
	ldr	q1, [x11, lunix_path_CPI34_0@PAGEOFF]
	and.16b	v0, v0, v1
	addp.16b	v0, v0, v0
	addp.16b	v0, v0, v0
	addp.16b	v0, v0, v0
	umov.h	w15, v0[0]
	orr	w15, w15, #0x10000
	rbit	w15, w15
	clz	w15, w15
	add	x14, x14, x15
Lunix_path_BB34_70:
	subs	x15, x12, x14
	b.eq	Lunix_path_BB34_52
Lunix_path_BB34_71:
	mov	x12, #0
	add	x13, x13, x14
	sub	x16, x15, #1
	b	Lunix_path_BB34_73
Lunix_path_BB34_72:
	add	x12, x12, #1
	cmp	x15, x12
	b.eq	Lunix_path_BB34_77
Lunix_path_BB34_73:
	ldrb	w17, [x13, x12]
	cmp	w17, #47
	b.eq	Lunix_path_BB34_72
	cmp	w17, #46
	b.ne	Lunix_path_BB34_53
	cmp	x16, x12
	b.eq	Lunix_path_BB34_77
	add	x17, x13, x12
	ldrb	w17, [x17, #1]
	cmp	w17, #47
	b.eq	Lunix_path_BB34_72
	b	Lunix_path_BB34_53
Lunix_path_BB34_77:
	mov	x12, x15
	b	Lunix_path_BB34_53
Lunix_path_BB34_78:
	add	x14, x15, w16, uxtw
	subs	x15, x12, x14
	b.ne	Lunix_path_BB34_71
	b	Lunix_path_BB34_52
Lunix_path_BB34_79:
	mov	w0, #1
	ret
Lunix_path_BB34_80:
	mov	w0, #0
	ret
	.loh AdrpLdr	Lunix_path_loh52, Lunix_path_loh53
	.section	__TEXT,__literal16,16byte_literals
	.p2align	4, 0x0
lunix_path_CPI35_0:
	.byte	1
	.byte	2
	.byte	4
	.byte	8
	.byte	16
	.byte	32
	.byte	64
	.byte	128
	.byte	1
	.byte	2
	.byte	4
	.byte	8
	.byte	16
	.byte	32
	.byte	64
	.byte	128
	.section	__TEXT,__text,regular,pure_instructions
	.p2align	2
; unix_path::stems::has_slash
_unix_path.stems.has_slash:
	cmp	x1, #3
	b.hi	Lunix_path_BB35_3
	cbz	x1, Lunix_path_BB35_7
	ldrb	w8, [x0]
	cmp	w8, #47
	lsr	x8, x1, #1
	ldrb	w8, [x0, x8]
	add	x9, x0, x1
	ldurb	w9, [x9, #-1]
	mov	w10, #47
	ccmp	w8, w10, #4, ne
	ccmp	w9, w10, #4, ne
	cset	w0, eq
	ret
Lunix_path_BB35_3:
	subs	x8, x1, #8
	b.hi	Lunix_path_BB35_5
	add	x8, x0, x1
	sub	x8, x8, #4
	ldr	s0, [x0]
	ld1.s	{ v0 }[1], [x8]
	movi.8b	v1, #47
	cmeq.8b	v0, v0, v1
	umaxv.8b	b0, v0
	fmov	w8, s0
	and	w0, w8, #0x1
	ret
Lunix_path_BB35_5:
	cmp	x1, #32
	b.hi	Lunix_path_BB35_8
	mov	w9, #8
	cmp	x8, #8
	csel	x9, x8, x9, lo
	mov	w10, #16
	cmp	x8, #16
	csel	x10, x8, x10, lo
	ldr	d0, [x0, x9]
	ldr	d1, [x0, x10]
	ldr	d2, [x0, x8]
	ldr	d3, [x0]
	mov.d	v3[1], v0[0]
	mov.d	v1[1], v2[0]
	movi.16b	v0, #47
	cmeq.16b	v1, v1, v0
	cmeq.16b	v0, v3, v0
	orr.16b	v0, v0, v1
	umaxv.16b	b0, v0
	fmov	w8, s0
	and	w0, w8, #0x1
	ret
Lunix_path_BB35_7:
	mov	w0, #0
	ret
Lunix_path_BB35_8:
	cmp	x1, #65
	b.hs	Lunix_path_BB35_10
	add	x8, x0, x1
	ldp	q1, q0, [x0]
	ldp	q3, q2, [x8, #-32]
	movi.16b	v4, #47
	cmeq.16b	v1, v1, v4
	cmeq.16b	v3, v3, v4
	cmeq.16b	v0, v0, v4
	cmeq.16b	v2, v2, v4
	orr.16b	v0, v0, v2
	orr.16b	v1, v1, v3
	orr.16b	v0, v1, v0
	umaxv.16b	b0, v0
	fmov	w8, s0
	and	w0, w8, #0x1
	ret
Lunix_path_BB35_10:
	mov	x8, #0
	mov	x9, x1
Lunix_path_BB35_11:
	add	x10, x0, x8
	ldp	q2, q1, [x10]
	ldp	q0, q3, [x10, #32]
	movi.16b	v4, #47
	cmeq.16b	v5, v0, v4
Lunix_path_loh54:
	adrp	x10, lunix_path_CPI35_0@PAGE
Lunix_path_loh55:
	ldr	q0, [x10, lunix_path_CPI35_0@PAGEOFF]
	and.16b	v5, v5, v0
	ext.16b	v6, v5, v5, #8
	zip1.16b	v5, v5, v6
	addv.8h	h5, v5
	fmov	w10, s5
	cmeq.16b	v2, v2, v4
	and.16b	v2, v2, v0
	ext.16b	v5, v2, v2, #8
	zip1.16b	v2, v2, v5
	addv.8h	h2, v2
	fmov	w11, s2
	orr	w10, w11, w10
	cmeq.16b	v2, v3, v4
	and.16b	v2, v2, v0
	ext.16b	v3, v2, v2, #8
	zip1.16b	v2, v2, v3
	addv.8h	h2, v2
	fmov	w11, s2
	cmeq.16b	v1, v1, v4
	and.16b	v1, v1, v0
	ext.16b	v2, v1, v1, #8
	zip1.16b	v1, v1, v2
	addv.8h	h1, v1
	fmov	w12, s1
	orr	w11, w12, w11
	orr	w10, w10, w11
	tst	w10, #0xffff
	b.ne	Lunix_path_BB35_14
	add	x8, x8, #64
	sub	x9, x9, #64
	cmp	x9, #63
	b.hi	Lunix_path_BB35_11
	and	x8, x1, #0xffffffffffffffc0
Lunix_path_BB35_14:
	sub	x9, x1, x8
	cmp	x9, #32
	b.lo	Lunix_path_BB35_20
	add	x8, x0, x8
Lunix_path_BB35_16:
	ldp	q1, q2, [x8], #32
	movi.16b	v3, #47
	cmeq.16b	v2, v2, v3
	and.16b	v2, v2, v0
	ext.16b	v4, v2, v2, #8
	zip1.16b	v2, v2, v4
	addv.8h	h2, v2
	fmov	w10, s2
	cmeq.16b	v1, v1, v3
	and.16b	v1, v1, v0
	ext.16b	v2, v1, v1, #8
	zip1.16b	v1, v1, v2
	addv.8h	h1, v1
	fmov	w11, s1
	orr	w10, w11, w10
	tst	w10, #0xffff
	b.ne	Lunix_path_BB35_18
	sub	x9, x9, #32
	cmp	x9, #31
	b.hi	Lunix_path_BB35_16
	b	Lunix_path_BB35_20
Lunix_path_BB35_18:
	cmp	x9, #31
	b.ls	Lunix_path_BB35_20
	mov	w0, #1
	ret
Lunix_path_BB35_20:
	add	x8, x0, x1
	ldp	q0, q1, [x8, #-32]
	movi.16b	v2, #47
	cmeq.16b	v1, v1, v2
	cmeq.16b	v0, v0, v2
	orr.16b	v0, v0, v1
	umaxv.16b	b0, v0
	fmov	w8, s0
	and	w0, w8, #0x1
	ret
	.loh AdrpLdr	Lunix_path_loh54, Lunix_path_loh55
	.globl	_unix_path_as_path
	.p2align	2
_unix_path_as_path:
	stp	x24, x23, [sp, #-64]!
	stp	x22, x21, [sp, #16]
	stp	x20, x19, [sp, #32]
	stp	x29, x30, [sp, #48]
	add	x29, sp, #48
	mov	x19, x3
	mov	x20, x1
	mov	x8, #0
	mov	w9, #4096
	cmp	x0, #0
	csel	x9, x9, xzr, eq
	ldp	x22, x10, [x2]
	subs	x23, x10, x22
	cset	w11, lo
	cmp	x1, x10
	csinc	w10, w11, wzr, hs
	add	x9, x0, x9
	add	x9, x9, x22
Lunix_path_loh56:
	adrp	x11, lunix_path__static.0@PAGE
Lunix_path_loh57:
	add	x11, x11, lunix_path__static.0@PAGEOFF
	cmp	w10, #0
	csel	x21, x11, x9, ne
	tbnz	w10, #0, Lunix_path_BB36_10
	cbz	x23, Lunix_path_BB36_10
	mov	x8, x23
	b	Lunix_path_BB36_4
Lunix_path_BB36_3:
	mov	x8, x1
	cbz	x1, Lunix_path_BB36_10
Lunix_path_BB36_4:
	subs	x1, x8, #1
	b.eq	Lunix_path_BB36_10
	add	x9, x21, x1
	ldrb	w10, [x9]
	cmp	w10, #47
	b.eq	Lunix_path_BB36_8
	cmp	w10, #46
	b.ne	Lunix_path_BB36_10
	ldurb	w9, [x9, #-1]
	cmp	w9, #47
	b.ne	Lunix_path_BB36_10
Lunix_path_BB36_8:
	sub	x8, x23, x1
	cmp	x8, #8
	b.ne	Lunix_path_BB36_3
	mov	x0, x21
	bl	_unix_path.filler.trimmed_blocks_len
	mov	x1, x0
	b	Lunix_path_BB36_3
Lunix_path_BB36_10:
	cmp	x20, x22
	csel	x9, x20, x22, lo
	stp	x9, x8, [x19]
	ldp	x29, x30, [sp, #48]
	ldp	x20, x19, [sp, #32]
	ldp	x22, x21, [sp, #16]
	ldp	x24, x23, [sp], #64
	ret
	.loh AdrpAdd	Lunix_path_loh56, Lunix_path_loh57
	.section	__TEXT,__literal16,16byte_literals
	.p2align	4, 0x0
lunix_path_CPI37_0:
	.byte	1
	.byte	2
	.byte	4
	.byte	8
	.byte	16
	.byte	32
	.byte	64
	.byte	128
	.byte	1
	.byte	2
	.byte	4
	.byte	8
	.byte	16
	.byte	32
	.byte	64
	.byte	128
	.section	__TEXT,__text,regular,pure_instructions
	.globl	_unix_path_canonical
	.p2align	2
_unix_path_canonical:
	stp	x28, x27, [sp, #-96]!
	stp	x26, x25, [sp, #16]
	stp	x24, x23, [sp, #32]
	stp	x22, x21, [sp, #48]
	stp	x20, x19, [sp, #64]
	stp	x29, x30, [sp, #80]
	add	x29, sp, #80
	mov	x20, x2
	mov	x21, x1
	mov	x19, x0
	mov	w8, #4096
	cmp	x0, #0
	csel	x28, x8, xzr, eq
	add	x24, x0, x28
	cmp	x2, #0
	csel	x22, x8, xzr, eq
	add	x25, x2, x22
	adrp	x26, lunix_path_CPI37_0@PAGE
	cbz	x1, Lunix_path_BB37_9
	mov	x23, x3
	mov	x27, x21
	b	Lunix_path_BB37_3
Lunix_path_BB37_2:
	mov	x27, x1
	cbz	x1, Lunix_path_BB37_13
Lunix_path_BB37_3:
	subs	x1, x27, #1
	b.eq	Lunix_path_BB37_10
	add	x8, x24, x1
	ldrb	w9, [x8]
	cmp	w9, #47
	b.eq	Lunix_path_BB37_7
	cmp	w9, #46
	b.ne	Lunix_path_BB37_11
	ldurb	w8, [x8, #-1]
	cmp	w8, #47
	b.ne	Lunix_path_BB37_11
Lunix_path_BB37_7:
	sub	x8, x21, x1
	cmp	x8, #8
	b.ne	Lunix_path_BB37_2
	add	x0, x19, x28
	bl	_unix_path.filler.trimmed_blocks_len
	mov	x1, x0
	b	Lunix_path_BB37_2
Lunix_path_BB37_9:
	mov	x27, #0
	b	Lunix_path_BB37_43
Lunix_path_BB37_10:
	mov	w21, #1
	cbnz	x23, Lunix_path_BB37_39
	b	Lunix_path_BB37_38
Lunix_path_BB37_11:
	subs	x8, x27, #18
	b.hs	Lunix_path_BB37_14
	mov	x21, #0
	cmp	x21, x27
	b.lo	Lunix_path_BB37_20
	b	Lunix_path_BB37_29
Lunix_path_BB37_13:
	mov	x21, #0
	b	Lunix_path_BB37_43
Lunix_path_BB37_14:
	b.eq	Lunix_path_BB37_18
	mov	x9, #0
Lunix_path_BB37_16:
	add	x10, x24, x9
	ldr	q0, [x10]
	ldur	q1, [x10, #1]
	ldur	q2, [x10, #2]
	movi.16b	v3, #46
	cmeq.16b	v3, v1, v3
	movi.16b	v4, #47
	cmeq.16b	v2, v2, v4
	and.16b	v2, v3, v2
	cmeq.16b	v0, v0, v4
	cmeq.16b	v1, v1, v4
	orr.16b	v1, v1, v2
	ldr	q2, [x26, lunix_path_CPI37_0@PAGEOFF]
	and.16b	v0, v0, v2
	and.16b	v0, v0, v1
	addp.16b	v0, v0, v0
	addp.16b	v0, v0, v0
	addp.16b	v0, v0, v0
	umov.h	w10, v0[0]
	orr	w10, w10, #0x10000
	rbit	w10, w10
	clz	w10, w10
	cmp	w10, #15
	b.ls	Lunix_path_BB37_19
	add	x9, x9, #16
	cmp	x9, x8
	b.lo	Lunix_path_BB37_16
Lunix_path_BB37_18:
	add	x9, x24, x8
	ldr	q0, [x9]
	ldur	q1, [x9, #1]
	ldur	q2, [x9, #2]
	movi.16b	v3, #46
	cmeq.16b	v3, v1, v3
	movi.16b	v4, #47
	cmeq.16b	v2, v2, v4
	and.16b	v2, v3, v2
	cmeq.16b	v0, v0, v4
	cmeq.16b	v1, v1, v4
	orr.16b	v1, v1, v2
	ldr	q2, [x26, lunix_path_CPI37_0@PAGEOFF]
	and.16b	v0, v0, v2
	and.16b	v0, v0, v1
	addp.16b	v0, v0, v0
	addp.16b	v0, v0, v0
	addp.16b	v0, v0, v0
	umov.h	w9, v0[0]
	orr	w9, w9, #0x10000
	rbit	w9, w9
	clz	w9, w9
	add	x21, x8, x9
	cmp	x21, x27
	b.lo	Lunix_path_BB37_20
	b	Lunix_path_BB37_29
Lunix_path_BB37_19:
	add	x21, x9, w10, uxtw
	cmp	x21, x27
	b.hs	Lunix_path_BB37_29
Lunix_path_BB37_20:
	sub	x8, x27, #2
	b	Lunix_path_BB37_23
Lunix_path_BB37_21:
	cmp	w9, #47
	b.eq	Lunix_path_BB37_29
Lunix_path_BB37_22:
	add	x21, x21, #1
	cmp	x27, x21
	b.eq	Lunix_path_BB37_28
Lunix_path_BB37_23:
	ldrb	w9, [x24, x21]
	cmp	w9, #47
	b.ne	Lunix_path_BB37_22
	cmp	x1, x21
	b.eq	Lunix_path_BB37_29
	add	x9, x24, x21
	ldrb	w9, [x9, #1]
	cmp	w9, #46
	b.ne	Lunix_path_BB37_21
	cmp	x8, x21
	b.eq	Lunix_path_BB37_29
	add	x9, x24, x21
	ldrb	w9, [x9, #2]
	b	Lunix_path_BB37_21
Lunix_path_BB37_28:
	mov	x21, x27
Lunix_path_BB37_29:
	cmp	x23, x27
	b.hs	Lunix_path_BB37_39
	cmp	x21, x27
	b.hs	Lunix_path_BB37_94
	neg	x8, x21
	neg	x9, x27
	mov	w10, #1
	sub	x10, x10, x27
	add	x11, x28, x21
	add	x13, x19, x11
	mov	x11, x21
	mov	x12, x13
	b	Lunix_path_BB37_34
Lunix_path_BB37_32:
	cmp	w14, #47
	b.ne	Lunix_path_BB37_37
Lunix_path_BB37_33:
	add	x11, x11, #1
	sub	x8, x8, #1
	mov	x13, x12
	cmp	x9, x8
	b.eq	Lunix_path_BB37_38
Lunix_path_BB37_34:
	ldrb	w14, [x12], #1
	cmp	w14, #46
	b.ne	Lunix_path_BB37_32
	cmp	x10, x8
	b.eq	Lunix_path_BB37_38
	ldrb	w13, [x13, #1]
	cmp	w13, #47
	b.eq	Lunix_path_BB37_33
Lunix_path_BB37_37:
	neg	x9, x8
	cmp	x9, x27
	b.lo	Lunix_path_BB37_95
Lunix_path_BB37_38:
	mov	x9, x23
	mov	x8, #0
	add	x23, x8, x21
	cmp	x9, x23
	b.lo	Lunix_path_BB37_123
Lunix_path_BB37_39:
	sub	x8, x25, x24
	cmp	x8, x21
	b.hs	Lunix_path_BB37_43
	cmp	x21, #7
	b.ls	Lunix_path_BB37_42
	add	x8, x22, x20
	add	x9, x28, x19
	sub	x8, x8, x9
	cmp	x8, #32
	b.hs	Lunix_path_BB37_120
Lunix_path_BB37_42:
	mov	x8, #0
	b	Lunix_path_BB37_130
Lunix_path_BB37_43:
	add	x0, x20, x22
	add	x1, x19, x28
	mov	x2, x21
	bl	_memmove
Lunix_path_BB37_44:
	mov	x23, x21
	cmp	x21, x27
	b.hs	Lunix_path_BB37_52
	neg	x8, x23
	neg	x9, x27
	mov	w10, #1
	sub	x10, x10, x27
	add	x11, x28, x23
	add	x13, x19, x11
	mov	x11, x23
	mov	x12, x13
	b	Lunix_path_BB37_48
Lunix_path_BB37_46:
	cmp	w14, #47
	b.ne	Lunix_path_BB37_51
Lunix_path_BB37_47:
	add	x11, x11, #1
	sub	x8, x8, #1
	mov	x13, x12
	cmp	x9, x8
	b.eq	Lunix_path_BB37_123
Lunix_path_BB37_48:
	ldrb	w14, [x12], #1
	cmp	w14, #46
	b.ne	Lunix_path_BB37_46
	cmp	x10, x8
	b.eq	Lunix_path_BB37_123
	ldrb	w13, [x13, #1]
	cmp	w13, #47
	b.eq	Lunix_path_BB37_47
Lunix_path_BB37_51:
	neg	x21, x8
Lunix_path_BB37_52:
	cmp	x21, x27
	b.hs	Lunix_path_BB37_123
	add	x20, x22, x20
	add	x19, x28, x19
	sub	x28, x27, #1
Lunix_path_BB37_54:
	add	x8, x24, x21
	sub	x9, x27, x21
	subs	x10, x9, #18
	b.hs	Lunix_path_BB37_56
	mov	x22, #0
	cmp	x22, x9
	b.lo	Lunix_path_BB37_62
	b	Lunix_path_BB37_70
Lunix_path_BB37_56:
	b.eq	Lunix_path_BB37_60
	mov	x11, #0
	add	x12, x19, #1
	add	x12, x12, x21
Lunix_path_BB37_58:
	add	x13, x12, x11
	ldur	q0, [x13, #-1]
	ldr	q1, [x13]
	ldur	q2, [x13, #1]
	movi.16b	v3, #46
	cmeq.16b	v3, v1, v3
	movi.16b	v4, #47
	cmeq.16b	v2, v2, v4
	and.16b	v2, v3, v2
	cmeq.16b	v0, v0, v4
	cmeq.16b	v1, v1, v4
	orr.16b	v1, v1, v2
	ldr	q2, [x26, lunix_path_CPI37_0@PAGEOFF]
	and.16b	v0, v0, v2
	and.16b	v0, v0, v1
	addp.16b	v0, v0, v0
	addp.16b	v0, v0, v0
	addp.16b	v0, v0, v0
	umov.h	w13, v0[0]
	orr	w13, w13, #0x10000
	rbit	w13, w13
	clz	w13, w13
	cmp	w13, #15
	b.ls	Lunix_path_BB37_61
	add	x11, x11, #16
	cmp	x11, x10
	b.lo	Lunix_path_BB37_58
Lunix_path_BB37_60:
	add	x11, x8, x10
	ldr	q0, [x11]
	ldur	q1, [x11, #1]
	ldur	q2, [x11, #2]
	movi.16b	v3, #46
	cmeq.16b	v3, v1, v3
	movi.16b	v4, #47
	cmeq.16b	v2, v2, v4
	and.16b	v2, v3, v2
	cmeq.16b	v0, v0, v4
	cmeq.16b	v1, v1, v4
	orr.16b	v1, v1, v2
	ldr	q2, [x26, lunix_path_CPI37_0@PAGEOFF]
	and.16b	v0, v0, v2
	and.16b	v0, v0, v1
	addp.16b	v0, v0, v0
	addp.16b	v0, v0, v0
	addp.16b	v0, v0, v0
	umov.h	w11, v0[0]
	orr	w11, w11, #0x10000
	rbit	w11, w11
	clz	w11, w11
	add	x22, x10, x11
	cmp	x22, x9
	b.lo	Lunix_path_BB37_62
	b	Lunix_path_BB37_70
Lunix_path_BB37_61:
	add	x22, x11, w13, uxtw
	cmp	x22, x9
	b.hs	Lunix_path_BB37_70
Lunix_path_BB37_62:
	sub	x10, x9, #1
	sub	x11, x9, #2
	b	Lunix_path_BB37_66
Lunix_path_BB37_63:
	add	x12, x8, x22
	ldrb	w12, [x12, #2]
Lunix_path_BB37_64:
	cmp	w12, #47
	b.eq	Lunix_path_BB37_70
Lunix_path_BB37_65:
	add	x22, x22, #1
	cmp	x9, x22
	b.eq	Lunix_path_BB37_76
Lunix_path_BB37_66:
	ldrb	w12, [x8, x22]
	cmp	w12, #47
	b.ne	Lunix_path_BB37_65
	cmp	x10, x22
	b.eq	Lunix_path_BB37_70
	add	x12, x8, x22
	ldrb	w12, [x12, #1]
	cmp	w12, #46
	b.ne	Lunix_path_BB37_64
	cmp	x11, x22
	b.ne	Lunix_path_BB37_63
Lunix_path_BB37_70:
	sub	x1, x8, #1
	add	x26, x22, #1
	add	x8, x25, x23
	sub	x8, x8, x1
	cmp	x8, x26
	b.hs	Lunix_path_BB37_77
Lunix_path_BB37_71:
	cmp	x26, #7
	b.ls	Lunix_path_BB37_73
	add	x8, x20, #1
	add	x8, x8, x23
	add	x9, x19, x21
	sub	x8, x8, x9
	cmp	x8, #32
	b.hs	Lunix_path_BB37_85
Lunix_path_BB37_73:
	mov	x8, #0
Lunix_path_BB37_74:
	sub	x9, x22, x8
	add	x9, x9, #1
	add	x10, x8, x21
	sub	x11, x19, #1
	add	x10, x11, x10
	add	x8, x8, x23
	add	x8, x20, x8
Lunix_path_BB37_75:
	ldrb	w11, [x10], #1
	strb	w11, [x8], #1
	subs	x9, x9, #1
	b.ne	Lunix_path_BB37_75
	b	Lunix_path_BB37_78
Lunix_path_BB37_76:
	sub	x22, x27, x21
	sub	x1, x8, #1
	add	x26, x22, #1
	add	x8, x25, x23
	sub	x8, x8, x1
	cmp	x8, x26
	b.lo	Lunix_path_BB37_71
Lunix_path_BB37_77:
	add	x0, x25, x23
	add	x2, x22, #1
	bl	_memmove
Lunix_path_BB37_78:
	add	x23, x26, x23
	add	x21, x22, x21
	adrp	x26, lunix_path_CPI37_0@PAGE
	cmp	x21, x27
	b.lo	Lunix_path_BB37_81
Lunix_path_BB37_79:
	cmp	x21, x27
	b.lo	Lunix_path_BB37_54
	b	Lunix_path_BB37_123
Lunix_path_BB37_80:
	add	x21, x21, #1
	cmp	x27, x21
	b.eq	Lunix_path_BB37_123
Lunix_path_BB37_81:
	ldrb	w8, [x24, x21]
	cmp	w8, #47
	b.eq	Lunix_path_BB37_80
	cmp	w8, #46
	b.ne	Lunix_path_BB37_79
	cmp	x28, x21
	b.eq	Lunix_path_BB37_123
	add	x8, x24, x21
	ldrb	w8, [x8, #1]
	cmp	w8, #47
	b.eq	Lunix_path_BB37_80
	b	Lunix_path_BB37_79
Lunix_path_BB37_85:
	cmp	x26, #32
	b.hs	Lunix_path_BB37_87
	mov	x8, #0
	b	Lunix_path_BB37_91
Lunix_path_BB37_87:
	and	x9, x26, #0x18
	and	x8, x26, #0xffffffffffffffe0
	add	x10, x20, #16
	add	x10, x10, x23
	add	x11, x19, #15
	add	x11, x11, x21
	and	x12, x26, #0xffffffffffffffe0
Lunix_path_BB37_88:
	ldp	q0, q1, [x11, #-16]
	stp	q0, q1, [x10, #-16]
	add	x10, x10, #32
	add	x11, x11, #32
	subs	x12, x12, #32
	b.ne	Lunix_path_BB37_88
	cmp	x26, x8
	b.eq	Lunix_path_BB37_78
	cbz	x9, Lunix_path_BB37_74
Lunix_path_BB37_91:
	mov	x11, x8
	and	x8, x26, #0xfffffffffffffff8
	sub	x9, x11, x8
	add	x10, x21, x11
	sub	x12, x19, #1
	add	x10, x12, x10
	add	x11, x11, x23
	add	x11, x20, x11
Lunix_path_BB37_92:
	ldr	d0, [x10], #8
	str	d0, [x11], #8
	adds	x9, x9, #8
	b.ne	Lunix_path_BB37_92
	cmp	x26, x8
	b.ne	Lunix_path_BB37_74
	b	Lunix_path_BB37_78
Lunix_path_BB37_94:
	mov	x9, x21
	cmp	x21, x27
	b.hs	Lunix_path_BB37_38
Lunix_path_BB37_95:
	mov	x8, #0
	add	x10, x28, x19
	add	x10, x10, #1
Lunix_path_BB37_96:
	add	x11, x24, x9
	sub	x12, x27, x9
	subs	x13, x12, #18
	b.hs	Lunix_path_BB37_98
	mov	x13, #0
	cmp	x13, x12
	b.lo	Lunix_path_BB37_104
	b	Lunix_path_BB37_113
Lunix_path_BB37_98:
	b.eq	Lunix_path_BB37_102
	mov	x14, #0
	add	x15, x10, x9
Lunix_path_BB37_100:
	add	x16, x15, x14
	ldur	q0, [x16, #-1]
	ldr	q1, [x16]
	ldur	q2, [x16, #1]
	movi.16b	v3, #46
	cmeq.16b	v3, v1, v3
	movi.16b	v4, #47
	cmeq.16b	v2, v2, v4
	and.16b	v2, v3, v2
	cmeq.16b	v0, v0, v4
	cmeq.16b	v1, v1, v4
	orr.16b	v1, v1, v2
	ldr	q2, [x26, lunix_path_CPI37_0@PAGEOFF]
	and.16b	v0, v0, v2
	and.16b	v0, v0, v1
	addp.16b	v0, v0, v0
	addp.16b	v0, v0, v0
	addp.16b	v0, v0, v0
	umov.h	w16, v0[0]
	orr	w16, w16, #0x10000
	rbit	w16, w16
	clz	w16, w16
	cmp	w16, #15
	b.ls	Lunix_path_BB37_103
	add	x14, x14, #16
	cmp	x14, x13
	b.lo	Lunix_path_BB37_100
Lunix_path_BB37_102:
	add	x14, x11, x13
	ldr	q0, [x14]
	ldur	q1, [x14, #1]
	ldur	q2, [x14, #2]
	movi.16b	v3, #46
	cmeq.16b	v3, v1, v3
	movi.16b	v4, #47
	cmeq.16b	v2, v2, v4
	and.16b	v2, v3, v2
	cmeq.16b	v0, v0, v4
	cmeq.16b	v1, v1, v4
	orr.16b	v1, v1, v2
	ldr	q2, [x26, lunix_path_CPI37_0@PAGEOFF]
	and.16b	v0, v0, v2
	and.16b	v0, v0, v1
	addp.16b	v0, v0, v0
	addp.16b	v0, v0, v0
	addp.16b	v0, v0, v0
	umov.h	w14, v0[0]
	orr	w14, w14, #0x10000
	rbit	w14, w14
	clz	w14, w14
	add	x13, x13, x14
	cmp	x13, x12
	b.lo	Lunix_path_BB37_104
	b	Lunix_path_BB37_113
Lunix_path_BB37_103:
	add	x13, x14, w16, uxtw
	cmp	x13, x12
	b.hs	Lunix_path_BB37_113
Lunix_path_BB37_104:
	sub	x14, x12, #1
	sub	x15, x12, #2
	b	Lunix_path_BB37_108
Lunix_path_BB37_105:
	add	x16, x11, x13
	ldrb	w16, [x16, #2]
Lunix_path_BB37_106:
	cmp	w16, #47
	b.eq	Lunix_path_BB37_113
Lunix_path_BB37_107:
	add	x13, x13, #1
	cmp	x12, x13
	b.eq	Lunix_path_BB37_112
Lunix_path_BB37_108:
	ldrb	w16, [x11, x13]
	cmp	w16, #47
	b.ne	Lunix_path_BB37_107
	cmp	x14, x13
	b.eq	Lunix_path_BB37_113
	add	x16, x11, x13
	ldrb	w16, [x16, #1]
	cmp	w16, #46
	b.ne	Lunix_path_BB37_106
	cmp	x15, x13
	b.ne	Lunix_path_BB37_105
	b	Lunix_path_BB37_113
Lunix_path_BB37_112:
	sub	x13, x27, x9
Lunix_path_BB37_113:
	add	x8, x8, x13
	add	x8, x8, #1
	add	x9, x13, x9
	cmp	x9, x27
	b.lo	Lunix_path_BB37_116
Lunix_path_BB37_114:
	cmp	x9, x27
	b.lo	Lunix_path_BB37_96
	b	Lunix_path_BB37_122
Lunix_path_BB37_115:
	add	x9, x9, #1
	cmp	x27, x9
	b.eq	Lunix_path_BB37_122
Lunix_path_BB37_116:
	ldrb	w11, [x24, x9]
	cmp	w11, #47
	b.eq	Lunix_path_BB37_115
	cmp	w11, #46
	b.ne	Lunix_path_BB37_114
	cmp	x1, x9
	b.eq	Lunix_path_BB37_122
	add	x11, x24, x9
	ldrb	w11, [x11, #1]
	cmp	w11, #47
	b.eq	Lunix_path_BB37_115
	b	Lunix_path_BB37_114
Lunix_path_BB37_120:
	cmp	x21, #32
	b.hs	Lunix_path_BB37_124
	mov	x8, #0
	b	Lunix_path_BB37_128
Lunix_path_BB37_122:
	mov	x9, x23
	add	x23, x8, x21
	cmp	x9, x23
	b.hs	Lunix_path_BB37_39
Lunix_path_BB37_123:
	mov	x0, x23
	ldp	x29, x30, [sp, #80]
	ldp	x20, x19, [sp, #64]
	ldp	x22, x21, [sp, #48]
	ldp	x24, x23, [sp, #32]
	ldp	x26, x25, [sp, #16]
	ldp	x28, x27, [sp], #96
	ret
Lunix_path_BB37_124:
	and	x9, x21, #0x18
	and	x8, x21, #0xffffffffffffffe0
	add	x10, x28, x19
	add	x10, x10, #16
	add	x11, x22, x20
	add	x11, x11, #16
	and	x12, x21, #0xffffffffffffffe0
Lunix_path_BB37_125:
	ldp	q0, q1, [x10, #-16]
	stp	q0, q1, [x11, #-16]
	add	x10, x10, #32
	add	x11, x11, #32
	subs	x12, x12, #32
	b.ne	Lunix_path_BB37_125
	cmp	x21, x8
	b.eq	Lunix_path_BB37_44
	cbz	x9, Lunix_path_BB37_130
Lunix_path_BB37_128:
	mov	x11, x8
	and	x8, x21, #0xfffffffffffffff8
	sub	x9, x11, x8
	add	x10, x28, x11
	add	x10, x19, x10
	add	x11, x22, x11
	add	x11, x20, x11
Lunix_path_BB37_129:
	ldr	d0, [x10], #8
	str	d0, [x11], #8
	adds	x9, x9, #8
	b.ne	Lunix_path_BB37_129
	b	Lunix_path_BB37_131
Lunix_path_BB37_130:
	ldrb	w9, [x24, x8]
	strb	w9, [x25, x8]
	add	x8, x8, #1
Lunix_path_BB37_131:
	cmp	x21, x8
	b.ne	Lunix_path_BB37_130
	b	Lunix_path_BB37_44
	.section	__TEXT,__literal16,16byte_literals
	.p2align	4, 0x0
lunix_path_CPI38_0:
	.byte	1
	.byte	2
	.byte	4
	.byte	8
	.byte	16
	.byte	32
	.byte	64
	.byte	128
	.byte	1
	.byte	2
	.byte	4
	.byte	8
	.byte	16
	.byte	32
	.byte	64
	.byte	128
	.section	__TEXT,__text,regular,pure_instructions
	.globl	_unix_path_check_entries
	.p2align	2
_unix_path_check_entries:
	sub	sp, sp, #208
	stp	x28, x27, [sp, #112]
	stp	x26, x25, [sp, #128]
	stp	x24, x23, [sp, #144]
	stp	x22, x21, [sp, #160]
	stp	x20, x19, [sp, #176]
	stp	x29, x30, [sp, #192]
	add	x29, sp, #192
	mov	x20, x5
	mov	x22, x4
	mov	x25, x3
	mov	x24, x2
	mov	x21, x1
	mov	x19, x0
	mov	w8, #4096
	cmp	x0, #0
	csel	x23, x8, xzr, eq
	cmp	x2, #0
	csel	x27, x8, xzr, eq
	add	x8, x2, x27
	str	x8, [sp, #72]
	add	x0, x0, x23
	add	x2, x2, x27
	bl	_path_archive.records.split
	and	w8, w0, #0xff
	cmp	w8, #1
	b.ne	Lunix_path_BB38_3
	cmp	x25, x1
	b.hs	Lunix_path_BB38_4
	mov	w0, #3
	b	Lunix_path_BB38_203
Lunix_path_BB38_3:
	mov	w0, #2
	b	Lunix_path_BB38_203
Lunix_path_BB38_4:
	str	w22, [sp, #12]
	add	x22, x19, x23
	stp	x22, x21, [sp, #80]
	cmp	x1, #20
	stp	x19, x1, [sp, #56]
	stp	x27, x23, [sp, #40]
	str	x20, [sp]
	b.hi	Lunix_path_BB38_6
	add	x23, x19, x23
	add	x0, x24, x27
	add	x2, sp, #80
	mov	x19, x1
	bl	_core.slice.sort.small.insertion_sort.fd4dfef4a36ac24b.
	b	Lunix_path_BB38_17
Lunix_path_BB38_6:
	add	x19, x24, x27
	ldp	x8, x9, [x19, #40]
	cmp	x21, x9
	csel	x9, x21, x9, lo
	cmp	x9, x8
	csel	x8, x9, x8, lo
	sub	x1, x9, x8
	add	x0, x22, x8
	bl	_path_archive.slot.without_dot
	mov	x25, x0
	mov	x26, x1
	ldp	x8, x9, [x19]
	cmp	x21, x9
	csel	x9, x21, x9, lo
	cmp	x9, x8
	csel	x8, x9, x8, lo
	sub	x1, x9, x8
	add	x0, x22, x8
	bl	_path_archive.slot.without_dot
	mov	x2, x0
	mov	x3, x1
	mov	x0, x25
	mov	x1, x26
	bl	_unix_path.compare.compare
	and	w8, w0, #0xff
	ldp	x9, x10, [x19, #56]
	ldp	x11, x12, [x19, #16]
	cmp	x10, x12
	mov	w10, #2
	csel	w12, wzr, w10, lo
	csinc	w12, w12, wzr, ne
	cmp	x9, x11
	csel	w9, wzr, w10, lo
	csel	w9, w12, w9, eq
	cmp	w8, #1
	csel	w8, w9, w8, eq
	str	w8, [sp, #32]
	cbz	w8, Lunix_path_BB38_10
	add	x8, x27, x24
	add	x22, x8, #56
	mov	w28, #2
	mov	x27, x22
Lunix_path_BB38_8:
	ldp	x8, x9, [x22, #24]
	cmp	x21, x9
	csel	x9, x21, x9, lo
	cmp	x9, x8
	csel	x8, x9, x8, lo
	sub	x1, x9, x8
	ldp	x20, x23, [sp, #48]
	add	x19, x23, x20
	add	x0, x19, x8
	bl	_path_archive.slot.without_dot
	mov	x25, x0
	mov	x26, x1
	ldp	x8, x9, [x22, #-16]
	cmp	x21, x9
	csel	x9, x21, x9, lo
	cmp	x9, x8
	csel	x8, x9, x8, lo
	sub	x1, x9, x8
	add	x23, x23, x20
	add	x0, x19, x8
	bl	_path_archive.slot.without_dot
	mov	x2, x0
	mov	x3, x1
	mov	x0, x25
	mov	x1, x26
	bl	_unix_path.compare.compare
	ldr	x8, [x27, #40]!
	and	w9, w0, #0xff
	ldr	x10, [x22, #48]
	ldp	x11, x12, [x22]
	cmp	x10, x12
	mov	w12, #2
	csel	w10, wzr, w12, lo
	csinc	w10, w10, wzr, ne
	cmp	x8, x11
	csel	w8, wzr, w12, lo
	csel	w8, w10, w8, eq
	cmp	w9, #1
	csel	w8, w8, w9, eq
	cbz	w8, Lunix_path_BB38_13
	add	x28, x28, #1
	mov	x22, x27
	ldr	x13, [sp, #64]
	cmp	x13, x28
	b.ne	Lunix_path_BB38_8
	b	Lunix_path_BB38_19
Lunix_path_BB38_10:
	add	x8, x27, x24
	add	x27, x8, #56
	mov	w28, #2
	mov	x22, x27
Lunix_path_BB38_11:
	ldp	x8, x9, [x27, #24]
	cmp	x21, x9
	csel	x9, x21, x9, lo
	cmp	x9, x8
	csel	x8, x9, x8, lo
	sub	x1, x9, x8
	ldp	x23, x19, [sp, #48]
	add	x20, x19, x23
	add	x0, x20, x8
	bl	_path_archive.slot.without_dot
	mov	x25, x0
	mov	x26, x1
	ldp	x8, x9, [x27, #-16]
	cmp	x21, x9
	csel	x9, x21, x9, lo
	cmp	x9, x8
	csel	x8, x9, x8, lo
	sub	x1, x9, x8
	add	x23, x19, x23
	add	x0, x20, x8
	bl	_path_archive.slot.without_dot
	mov	x2, x0
	mov	x3, x1
	mov	x0, x25
	mov	x1, x26
	bl	_unix_path.compare.compare
	ldr	x8, [x22, #40]!
	and	w9, w0, #0xff
	ldr	x10, [x27, #48]
	ldp	x11, x12, [x27]
	cmp	x10, x12
	mov	w12, #2
	csel	w10, wzr, w12, lo
	csinc	w10, w10, wzr, ne
	cmp	x8, x11
	csel	w8, wzr, w12, lo
	csel	w8, w10, w8, eq
	cmp	w9, #1
	csel	w8, w8, w9, eq
	cbnz	w8, Lunix_path_BB38_13
	add	x28, x28, #1
	mov	x27, x22
	ldr	x13, [sp, #64]
	cmp	x13, x28
	b.ne	Lunix_path_BB38_11
	b	Lunix_path_BB38_16
Lunix_path_BB38_13:
	ldr	x13, [sp, #64]
	cmp	x28, x13
	b.hs	Lunix_path_BB38_15
	clz	x8, x13
	lsl	w8, w8, #1
	ldr	x9, [sp, #40]
	add	x0, x24, x9
	eor	w3, w8, #0x7e
	add	x4, sp, #80
	mov	x19, x13
	mov	x1, #0
	mov	x2, x13
	bl	_core.slice.sort.unstable.quicksort.fd4dfef4a36ac24b.
	mov	x13, x19
	b	Lunix_path_BB38_19
Lunix_path_BB38_15:
	ldr	w8, [sp, #32]
	cbnz	w8, Lunix_path_BB38_18
Lunix_path_BB38_16:
	lsr	x2, x13, #1
	sub	x8, x13, x2
	mov	w9, #40
	ldr	x11, [sp, #40]
	add	x10, x24, x11
	mov	x19, x13
	madd	x1, x8, x9, x10
	add	x0, x24, x11
	bl	_core.slice.edits.mirror.24.path_archive.slot.Slot.
Lunix_path_BB38_17:
	mov	x13, x19
Lunix_path_BB38_18:
	cbz	x13, Lunix_path_BB38_202
Lunix_path_BB38_19:
	mov	w8, #0
	mov	x28, #0
	mov	x20, #0
	ldr	x9, [sp, #40]
	add	x9, x9, x24
	add	x19, x9, #16
	b	Lunix_path_BB38_21
Lunix_path_BB38_20:
	ldr	x8, [x19]
	cmp	x8, #5
	csel	x20, x28, x20, lo
	cset	w8, lo
	str	x28, [x19, #16]
	add	x28, x28, #1
	add	x19, x19, #40
	cmp	x13, x28
	b.eq	Lunix_path_BB38_28
Lunix_path_BB38_21:
	and	w8, w8, #0xff
	cmp	w8, #1
	b.ne	Lunix_path_BB38_20
	mov	w8, #40
	ldr	x9, [sp, #72]
	madd	x22, x20, x8, x9
	ldp	x8, x9, [x22]
	cmp	x21, x9
	csel	x9, x21, x9, lo
	cmp	x9, x8
	csel	x8, x9, x8, lo
	sub	x1, x9, x8
	ldp	x27, x23, [sp, #48]
	add	x26, x23, x27
	add	x0, x26, x8
	bl	_path_archive.slot.without_dot
	mov	x24, x0
	mov	x25, x1
	ldp	x8, x9, [x19, #-16]
	cmp	x21, x9
	csel	x9, x21, x9, lo
	cmp	x9, x8
	csel	x8, x9, x8, lo
	sub	x1, x9, x8
	add	x23, x23, x27
	add	x0, x26, x8
	bl	_path_archive.slot.without_dot
	mov	x26, x0
	mov	x27, x1
	mov	x2, x24
	mov	x3, x25
	bl	_path_archive.outlined.starts_with
	cbz	w0, Lunix_path_BB38_26
	mov	x0, x24
	mov	x1, x25
	mov	x2, x26
	mov	x3, x27
	bl	_path_archive.outlined.starts_with
	ldr	x8, [x22, #16]
	tbz	w0, #0, Lunix_path_BB38_25
	ldr	x9, [x19]
	cmp	x9, #2
	ccmp	x8, #1, #0, eq
	ccmp	x8, #0, #4, ne
	csel	x9, x20, x28, eq
	mov	w8, #1
	ldr	x13, [sp, #64]
	str	x9, [x19, #16]
	add	x28, x28, #1
	add	x19, x19, #40
	cmp	x13, x28
	b.ne	Lunix_path_BB38_21
	b	Lunix_path_BB38_28
Lunix_path_BB38_25:
	cmp	x8, #4
	b.ls	Lunix_path_BB38_27
Lunix_path_BB38_26:
	ldr	x8, [x19]
	cmp	x8, #4
	csel	x20, x20, x28, hi
	mov	w8, #1
	ldr	x13, [sp, #64]
	str	x28, [x19, #16]
	add	x28, x28, #1
	add	x19, x19, #40
	cmp	x13, x28
	b.ne	Lunix_path_BB38_21
	b	Lunix_path_BB38_28
Lunix_path_BB38_27:
	mov	w8, #1
	ldr	x13, [sp, #64]
	str	x20, [x19, #16]
	add	x28, x28, #1
	add	x19, x19, #40
	cmp	x13, x28
	b.ne	Lunix_path_BB38_21
Lunix_path_BB38_28:
	mov	x27, #0
	mov	x12, #0
	mov	w19, #0
	str	wzr, [sp, #40]
	stp	x23, xzr, [sp, #24]
	stur	wzr, [x29, #-88]
	stur	wzr, [x29, #-85]
	ldp	x9, x8, [sp, #48]
	add	x8, x9, x8
	sub	x9, x8, #16
	str	x9, [sp, #48]
	sub	x8, x8, #1
	str	x8, [sp, #16]
	b	Lunix_path_BB38_31
Lunix_path_BB38_29:
	ldr	w12, [sp, #96]
	str	w12, [sp, #80]
	ldur	w12, [sp, #99]
	stur	w12, [sp, #83]
	str	w8, [sp, #40]
	str	x10, [sp, #32]
	mov	x12, x9
	mov	x19, x11
Lunix_path_BB38_30:
	ldr	w8, [sp, #80]
	stur	w8, [x29, #-88]
	ldur	w8, [sp, #83]
	stur	w8, [x29, #-85]
	add	x27, x27, #1
	cmp	x27, x13
	b.eq	Lunix_path_BB38_200
Lunix_path_BB38_31:
	mov	w8, #40
	ldr	x9, [sp, #72]
	madd	x20, x27, x8, x9
	ldr	x28, [x20, #16]
	cmp	x28, #4
	b.ne	Lunix_path_BB38_33
	mov	w8, #1
	b	Lunix_path_BB38_48
Lunix_path_BB38_33:
	str	x12, [sp, #56]
	ldp	x8, x24, [x20]
	cmp	x21, x24
	csel	x22, x21, x24, lo
	cmp	x22, x8
	csel	x8, x22, x8, lo
	add	x25, x23, x8
	sub	x26, x22, x8
	mov	x0, x25
	mov	x1, x26
	bl	_path_archive.outlined.has_root_or_parent_dir
	tbz	w0, #0, Lunix_path_BB38_35
	mov	w8, #0
	b	Lunix_path_BB38_47
Lunix_path_BB38_35:
	adrp	x23, lunix_path_CPI38_0@PAGE
	cmp	x26, #15
	b.hi	Lunix_path_BB38_39
	mov	x8, #0
	cbz	x26, Lunix_path_BB38_44
Lunix_path_BB38_37:
	ldrb	w9, [x25, x8]
	cbz	w9, Lunix_path_BB38_44
	add	x8, x8, #1
	cmp	x26, x8
	b.ne	Lunix_path_BB38_37
	b	Lunix_path_BB38_54
Lunix_path_BB38_39:
	subs	x8, x26, #16
	b.eq	Lunix_path_BB38_43
	mov	x9, #0
Lunix_path_BB38_41:
	ldr	q0, [x25, x9]
	cmeq.16b	v0, v0, #0
	ldr	q1, [x23, lunix_path_CPI38_0@PAGEOFF]
	and.16b	v0, v0, v1
	addp.16b	v0, v0, v0
	addp.16b	v0, v0, v0
	addp.16b	v0, v0, v0
	umov.h	w10, v0[0]
	orr	w10, w10, #0x10000
	rbit	w10, w10
	clz	w10, w10
	cmp	w10, #15
	b.ls	Lunix_path_BB38_53
	add	x9, x9, #16
	cmp	x9, x8
	b.lo	Lunix_path_BB38_41
Lunix_path_BB38_43:
	ldr	q0, [x25, x8]
	cmeq.16b	v0, v0, #0
	ldr	q1, [x23, lunix_path_CPI38_0@PAGEOFF]
	and.16b	v0, v0, v1
	addp.16b	v0, v0, v0
	addp.16b	v0, v0, v0
	addp.16b	v0, v0, v0
	umov.h	w9, v0[0]
	orr	w9, w9, #0x10000
	rbit	w9, w9
	clz	w9, w9
	add	x8, x8, x9
Lunix_path_BB38_44:
	cmp	x8, x26
	b.hs	Lunix_path_BB38_54
Lunix_path_BB38_45:
	mov	w8, #0
Lunix_path_BB38_46:
	ldr	x23, [sp, #24]
Lunix_path_BB38_47:
	ldp	x12, x13, [sp, #56]
Lunix_path_BB38_48:
	ldr	x9, [x20, #24]
	str	wzr, [sp, #96]
	stur	wzr, [sp, #99]
	mov	w11, #1
	mov	x10, x9
Lunix_path_BB38_49:
	cmp	w19, #1
	b.ne	Lunix_path_BB38_29
	cmp	x9, x12
	csel	w11, wzr, w11, hs
	cmp	w11, #1
	b.ne	Lunix_path_BB38_52
	ldr	w11, [sp, #96]
	str	w11, [sp, #80]
	ldur	w11, [sp, #99]
	stur	w11, [sp, #83]
	mov	w19, #1
	str	w8, [sp, #40]
	str	x10, [sp, #32]
	mov	x12, x9
	b	Lunix_path_BB38_30
Lunix_path_BB38_52:
	ldur	w8, [x29, #-88]
	str	w8, [sp, #80]
	ldur	w8, [x29, #-85]
	stur	w8, [sp, #83]
	mov	w19, #1
	b	Lunix_path_BB38_30
Lunix_path_BB38_53:
	add	x8, x9, w10, uxtw
	cmp	x8, x26
	b.lo	Lunix_path_BB38_45
Lunix_path_BB38_54:
	cmp	x28, #4
	b.ls	Lunix_path_BB38_57
Lunix_path_BB38_55:
	ldr	x8, [x20, #32]
	cmp	x8, x27
	b.ne	Lunix_path_BB38_74
	mov	w11, #0
	mov	x9, #0
	mov	x10, #0
	mov	w8, #0
	stur	wzr, [sp, #99]
	str	wzr, [sp, #96]
	ldr	x23, [sp, #24]
	ldp	x12, x13, [sp, #56]
	b	Lunix_path_BB38_49
Lunix_path_BB38_57:
	ldr	x8, [sp, #48]
	add	x10, x8, x22
	add	x8, x26, #1
	ldr	x9, [sp, #16]
	add	x9, x9, x22
	mov	x11, x26
Lunix_path_BB38_58:
	cmp	x11, #15
	b.ls	Lunix_path_BB38_61
	ldr	q0, [x10], #-16
	sub	x11, x11, #16
	movi.16b	v1, #47
	cmeq.16b	v0, v0, v1
	ldr	q1, [x23, lunix_path_CPI38_0@PAGEOFF]
	and.16b	v0, v0, v1
	addp.16b	v0, v0, v0
	addp.16b	v0, v0, v0
	addp.16b	v0, v0, v0
	umov.h	w12, v0[0]
	sub	x8, x8, #16
	sub	x9, x9, #16
	cbz	w12, Lunix_path_BB38_58
	umov.h	w8, v0[0]
	and	x8, x8, #0xffff
	clz	x8, x8
	sub	x8, x11, x8
	add	x8, x8, #64
	b	Lunix_path_BB38_63
Lunix_path_BB38_61:
	subs	x8, x8, #1
	b.eq	Lunix_path_BB38_63
	ldrb	w10, [x9], #-1
	cmp	w10, #47
	b.ne	Lunix_path_BB38_61
Lunix_path_BB38_63:
	subs	x9, x26, x8
	b.eq	Lunix_path_BB38_45
	cmp	x9, #1
	b.ne	Lunix_path_BB38_66
	ldrb	w8, [x25, x8]
	cmp	w8, #46
	b.eq	Lunix_path_BB38_45
Lunix_path_BB38_66:
	ldr	w8, [sp, #12]
	cbz	w8, Lunix_path_BB38_55
	cbnz	x28, Lunix_path_BB38_55
	cmp	x21, x24
	b.ls	Lunix_path_BB38_78
	add	x8, x24, #1
	ldr	x9, [sp, #24]
	add	x28, x9, x8
	sub	x8, x21, x8
	cmp	x8, #15
	b.hi	Lunix_path_BB38_79
	mov	x24, #0
	cbz	x8, Lunix_path_BB38_97
Lunix_path_BB38_71:
	ldrb	w9, [x28, x24]
	cbz	w9, Lunix_path_BB38_85
	add	x24, x24, #1
	cmp	x8, x24
	b.ne	Lunix_path_BB38_71
	mov	x24, x8
	b	Lunix_path_BB38_85
Lunix_path_BB38_74:
	mov	w9, #40
	ldr	x10, [sp, #72]
	madd	x22, x8, x9, x10
	ldp	x8, x9, [x22]
	cmp	x21, x9
	csel	x9, x21, x9, lo
	cmp	x9, x8
	csel	x8, x9, x8, lo
	sub	x1, x9, x8
	ldr	x26, [sp, #24]
	add	x0, x26, x8
	bl	_path_archive.slot.without_dot
	mov	x23, x0
	mov	x24, x1
	ldp	x8, x9, [x20]
	cmp	x21, x9
	csel	x9, x21, x9, lo
	cmp	x9, x8
	csel	x8, x9, x8, lo
	sub	x1, x9, x8
	mov	x25, x26
	add	x0, x26, x8
	bl	_path_archive.slot.without_dot
	mov	x2, x0
	mov	x3, x1
	mov	x0, x23
	mov	x1, x24
	bl	_path_archive.outlined.starts_with
	cbz	w0, Lunix_path_BB38_76
	ldr	x8, [x20, #16]
	cmp	x8, #2
	mov	w8, #3
	cinc	w8, w8, eq
	b	Lunix_path_BB38_77
Lunix_path_BB38_76:
	mov	w8, #2
Lunix_path_BB38_77:
	ldp	x12, x13, [sp, #56]
	ldr	x9, [x20, #24]
	ldr	x10, [x22, #24]
	str	wzr, [sp, #96]
	mov	w11, #1
	stur	wzr, [sp, #99]
	mov	x23, x25
	b	Lunix_path_BB38_49
Lunix_path_BB38_78:
	mov	x24, #0
	ldr	x8, [sp, #24]
	add	x28, x8, x21
	b	Lunix_path_BB38_97
Lunix_path_BB38_79:
	subs	x8, x8, #16
	b.eq	Lunix_path_BB38_83
	mov	x9, #0
Lunix_path_BB38_81:
	ldr	q0, [x28, x9]
	cmeq.16b	v0, v0, #0
	ldr	q1, [x23, lunix_path_CPI38_0@PAGEOFF]
	and.16b	v0, v0, v1
	addp.16b	v0, v0, v0
	addp.16b	v0, v0, v0
	addp.16b	v0, v0, v0
	umov.h	w10, v0[0]
	orr	w10, w10, #0x10000
	rbit	w10, w10
	clz	w10, w10
	cmp	w10, #15
	b.ls	Lunix_path_BB38_84
	add	x9, x9, #16
	cmp	x9, x8
	b.lo	Lunix_path_BB38_81
Lunix_path_BB38_83:
	ldr	q0, [x28, x8]
	cmeq.16b	v0, v0, #0
	ldr	q1, [x23, lunix_path_CPI38_0@PAGEOFF]
	and.16b	v0, v0, v1
	addp.16b	v0, v0, v0
	addp.16b	v0, v0, v0
	addp.16b	v0, v0, v0
	umov.h	w9, v0[0]
	orr	w9, w9, #0x10000
	rbit	w9, w9
	clz	w9, w9
	add	x24, x8, x9
	b	Lunix_path_BB38_85
Lunix_path_BB38_84:
	add	x24, x9, w10, uxtw
Lunix_path_BB38_85:
	cmp	x24, #15
	b.hi	Lunix_path_BB38_90
	cbz	x24, Lunix_path_BB38_97
	mov	x8, #0
Lunix_path_BB38_88:
	ldrb	w9, [x28, x8]
	cbz	w9, Lunix_path_BB38_96
	add	x8, x8, #1
	cmp	x24, x8
	b.ne	Lunix_path_BB38_88
	b	Lunix_path_BB38_97
Lunix_path_BB38_90:
	subs	x8, x24, #16
	b.eq	Lunix_path_BB38_94
	mov	x9, #0
Lunix_path_BB38_92:
	ldr	q0, [x28, x9]
	cmeq.16b	v0, v0, #0
	ldr	q1, [x23, lunix_path_CPI38_0@PAGEOFF]
	and.16b	v0, v0, v1
	addp.16b	v0, v0, v0
	addp.16b	v0, v0, v0
	addp.16b	v0, v0, v0
	umov.h	w10, v0[0]
	orr	w10, w10, #0x10000
	rbit	w10, w10
	clz	w10, w10
	cmp	w10, #15
	b.ls	Lunix_path_BB38_95
	add	x9, x9, #16
	cmp	x9, x8
	b.lo	Lunix_path_BB38_92
Lunix_path_BB38_94:
	ldr	q0, [x28, x8]
	cmeq.16b	v0, v0, #0
	ldr	q1, [x23, lunix_path_CPI38_0@PAGEOFF]
	and.16b	v0, v0, v1
	addp.16b	v0, v0, v0
	addp.16b	v0, v0, v0
	addp.16b	v0, v0, v0
	umov.h	w9, v0[0]
	orr	w9, w9, #0x10000
	rbit	w9, w9
	clz	w9, w9
	add	x8, x8, x9
	b	Lunix_path_BB38_96
Lunix_path_BB38_95:
	add	x8, x9, w10, uxtw
Lunix_path_BB38_96:
	cmp	x8, x24
	b.lo	Lunix_path_BB38_199
Lunix_path_BB38_97:
	mov	x0, x25
	mov	x1, x26
	bl	_path_archive.slot.without_dot
	mov	x26, x1
	cbz	x1, Lunix_path_BB38_161
	mov	x25, x0
	ldrb	w8, [x0]
	cmp	w8, #47
	b.eq	Lunix_path_BB38_101
	cmp	w8, #46
	b.ne	Lunix_path_BB38_102
	cmp	x26, #1
	b.ne	Lunix_path_BB38_103
Lunix_path_BB38_101:
	mov	w22, #1
	b	Lunix_path_BB38_104
Lunix_path_BB38_102:
	mov	w22, #0
	b	Lunix_path_BB38_104
Lunix_path_BB38_103:
	ldrb	w8, [x25, #1]
	cmp	w8, #47
	cset	w22, eq
Lunix_path_BB38_104:
	mov	x8, x26
	b	Lunix_path_BB38_106
Lunix_path_BB38_105:
	mov	x8, x1
	cbz	x1, Lunix_path_BB38_167
Lunix_path_BB38_106:
	subs	x1, x8, #1
	b.eq	Lunix_path_BB38_112
	add	x9, x25, x1
	ldrb	w10, [x9]
	cmp	w10, #47
	b.eq	Lunix_path_BB38_110
	cmp	w10, #46
	b.ne	Lunix_path_BB38_112
	ldurb	w9, [x9, #-1]
	cmp	w9, #47
	b.ne	Lunix_path_BB38_112
Lunix_path_BB38_110:
	sub	x8, x26, x1
	cmp	x8, #8
	b.ne	Lunix_path_BB38_105
	mov	x0, x25
	bl	_unix_path.filler.trimmed_blocks_len
	mov	x1, x0
	b	Lunix_path_BB38_105
Lunix_path_BB38_112:
	mov	x9, #0
	mov	x10, #0
	mov	x12, x8
	b	Lunix_path_BB38_116
Lunix_path_BB38_113:
	mov	x12, #0
Lunix_path_BB38_114:
	add	x11, x12, x13
Lunix_path_BB38_115:
	mov	w22, #0
	add	x9, x9, #1
	add	x10, x11, x10
	subs	x12, x8, x10
	b.eq	Lunix_path_BB38_160
Lunix_path_BB38_116:
	add	x11, x25, x10
	tbz	w22, #0, Lunix_path_BB38_124
	subs	x14, x12, #1
	b.eq	Lunix_path_BB38_129
	mov	x13, #0
	sub	x12, x12, #2
	b	Lunix_path_BB38_120
Lunix_path_BB38_119:
	add	x13, x13, #1
	cmp	x14, x13
	b.eq	Lunix_path_BB38_130
Lunix_path_BB38_120:
	add	x15, x11, x13
	ldrb	w15, [x15, #1]
	cmp	w15, #47
	b.eq	Lunix_path_BB38_119
	cmp	w15, #46
	b.ne	Lunix_path_BB38_131
	cmp	x12, x13
	b.eq	Lunix_path_BB38_130
	add	x15, x11, x13
	ldrb	w15, [x15, #2]
	cmp	w15, #47
	b.eq	Lunix_path_BB38_119
	b	Lunix_path_BB38_131
Lunix_path_BB38_124:
	cmp	x12, #1
	b.eq	Lunix_path_BB38_134
	ldrb	w13, [x11]
	cmp	w13, #46
	b.ne	Lunix_path_BB38_134
	ldrb	w13, [x11, #1]
	cmp	w13, #46
	b.ne	Lunix_path_BB38_134
	subs	x14, x12, #2
	b.ne	Lunix_path_BB38_132
	mov	w11, #2
	b	Lunix_path_BB38_115
Lunix_path_BB38_129:
	mov	w11, #1
	b	Lunix_path_BB38_115
Lunix_path_BB38_130:
	mov	x13, x14
Lunix_path_BB38_131:
	add	x11, x13, #1
	b	Lunix_path_BB38_115
Lunix_path_BB38_132:
	ldrb	w13, [x11, #2]
	cmp	w13, #47
	b.ne	Lunix_path_BB38_134
	mov	x13, #0
	sub	x12, x12, #3
	b	Lunix_path_BB38_140
Lunix_path_BB38_134:
	cmp	x12, #15
	b.hi	Lunix_path_BB38_144
	mov	x13, #0
Lunix_path_BB38_136:
	ldrb	w14, [x11, x13]
	cmp	w14, #47
	b.eq	Lunix_path_BB38_149
	add	x13, x13, #1
	cmp	x12, x13
	b.ne	Lunix_path_BB38_136
	mov	x13, x12
	subs	x14, x12, x12
	b.ne	Lunix_path_BB38_150
	b	Lunix_path_BB38_113
Lunix_path_BB38_139:
	add	x13, x13, #1
	cmp	x14, x13
	b.eq	Lunix_path_BB38_158
Lunix_path_BB38_140:
	add	x15, x11, x13
	ldrb	w15, [x15, #2]
	cmp	w15, #47
	b.eq	Lunix_path_BB38_139
	cmp	w15, #46
	b.ne	Lunix_path_BB38_159
	cmp	x12, x13
	b.eq	Lunix_path_BB38_158
	add	x15, x11, x13
	ldrb	w15, [x15, #3]
	cmp	w15, #47
	b.eq	Lunix_path_BB38_139
	b	Lunix_path_BB38_159
Lunix_path_BB38_144:
	subs	x13, x12, #16
	b.eq	Lunix_path_BB38_148
	mov	x14, #0
Lunix_path_BB38_146:
	ldr	q0, [x11, x14]
	movi.16b	v1, #47
	cmeq.16b	v0, v0, v1
	ldr	q1, [x23, lunix_path_CPI38_0@PAGEOFF]
	and.16b	v0, v0, v1
	addp.16b	v0, v0, v0
	addp.16b	v0, v0, v0
	addp.16b	v0, v0, v0
	umov.h	w15, v0[0]
	orr	w15, w15, #0x10000
	rbit	w15, w15
	clz	w15, w15
	cmp	w15, #15
	b.ls	Lunix_path_BB38_157
	add	x14, x14, #16
	cmp	x14, x13
	b.lo	Lunix_path_BB38_146
Lunix_path_BB38_148:
	ldr	q0, [x11, x13]
	movi.16b	v1, #47
	cmeq.16b	v0, v0, v1
	ldr	q1, [x23, lunix_path_CPI38_0@PAGEOFF]
	and.16b	v0, v0, v1
	addp.16b	v0, v0, v0
	addp.16b	v0, v0, v0
	addp.16b	v0, v0, v0
	umov.h	w14, v0[0]
	orr	w14, w14, #0x10000
	rbit	w14, w14
	clz	w14, w14
	add	x13, x13, x14
Lunix_path_BB38_149:
	subs	x14, x12, x13
	b.eq	Lunix_path_BB38_113
Lunix_path_BB38_150:
	mov	x12, #0
	add	x11, x11, x13
	sub	x15, x14, #1
	b	Lunix_path_BB38_152
Lunix_path_BB38_151:
	add	x12, x12, #1
	cmp	x14, x12
	b.eq	Lunix_path_BB38_156
Lunix_path_BB38_152:
	ldrb	w16, [x11, x12]
	cmp	w16, #47
	b.eq	Lunix_path_BB38_151
	cmp	w16, #46
	b.ne	Lunix_path_BB38_114
	cmp	x15, x12
	b.eq	Lunix_path_BB38_156
	add	x16, x11, x12
	ldrb	w16, [x16, #1]
	cmp	w16, #47
	b.eq	Lunix_path_BB38_151
	b	Lunix_path_BB38_114
Lunix_path_BB38_156:
	mov	x12, x14
	b	Lunix_path_BB38_114
Lunix_path_BB38_157:
	add	x13, x14, w15, uxtw
	subs	x14, x12, x13
	b.ne	Lunix_path_BB38_150
	b	Lunix_path_BB38_113
Lunix_path_BB38_158:
	mov	x13, x14
Lunix_path_BB38_159:
	add	x11, x13, #2
	b	Lunix_path_BB38_115
Lunix_path_BB38_160:
	cmp	x9, #0
	cset	w8, ne
	sub	x26, x9, x8
Lunix_path_BB38_161:
	mov	x0, x28
	mov	x1, x24
	bl	_path_archive.slot.without_dot
	cbz	x1, Lunix_path_BB38_55
Lunix_path_BB38_162:
	mov	x28, x0
	mov	x25, x1
	mov	x24, x0
	ldrb	w8, [x28]
	cmp	w8, #47
	b.eq	Lunix_path_BB38_165
	cmp	w8, #46
	b.ne	Lunix_path_BB38_166
	cmp	x25, #1
	b.ne	Lunix_path_BB38_168
Lunix_path_BB38_165:
	mov	w22, #1
	b	Lunix_path_BB38_169
Lunix_path_BB38_166:
	mov	w22, #0
	b	Lunix_path_BB38_169
Lunix_path_BB38_167:
	mov	x26, #0
	mov	x0, x28
	mov	x1, x24
	bl	_path_archive.slot.without_dot
	cbnz	x1, Lunix_path_BB38_162
	b	Lunix_path_BB38_55
Lunix_path_BB38_168:
	ldrb	w8, [x24, #1]
	cmp	w8, #47
	cset	w22, eq
Lunix_path_BB38_169:
	mov	x8, x25
	b	Lunix_path_BB38_171
Lunix_path_BB38_170:
	mov	x8, x1
	cbz	x1, Lunix_path_BB38_55
Lunix_path_BB38_171:
	subs	x1, x8, #1
	b.eq	Lunix_path_BB38_177
	add	x9, x28, x1
	ldrb	w10, [x9]
	cmp	w10, #47
	b.eq	Lunix_path_BB38_175
	cmp	w10, #46
	b.ne	Lunix_path_BB38_177
	ldurb	w9, [x9, #-1]
	cmp	w9, #47
	b.ne	Lunix_path_BB38_177
Lunix_path_BB38_175:
	sub	x8, x25, x1
	cmp	x8, #8
	b.ne	Lunix_path_BB38_170
	mov	x0, x24
	bl	_unix_path.filler.trimmed_blocks_len
	mov	x1, x0
	b	Lunix_path_BB38_170
Lunix_path_BB38_177:
	mov	x9, #0
	mov	x1, x8
	b	Lunix_path_BB38_180
Lunix_path_BB38_178:
	mov	w10, #2
	cbz	x26, Lunix_path_BB38_199
Lunix_path_BB38_179:
	mov	w22, #0
	sub	x26, x26, #1
	add	x9, x10, x9
	add	x24, x28, x9
	subs	x1, x8, x9
	b.eq	Lunix_path_BB38_55
Lunix_path_BB38_180:
	tbnz	w22, #0, Lunix_path_BB38_199
	cmp	x1, #1
	b.eq	Lunix_path_BB38_194
	ldrb	w10, [x24]
	cmp	w10, #46
	b.ne	Lunix_path_BB38_194
	ldrb	w10, [x24, #1]
	cmp	w10, #46
	b.ne	Lunix_path_BB38_194
	subs	x11, x1, #2
	b.eq	Lunix_path_BB38_178
	ldrb	w10, [x24, #2]
	cmp	w10, #47
	b.ne	Lunix_path_BB38_194
	mov	x10, #0
	sub	x12, x1, #3
	b	Lunix_path_BB38_188
Lunix_path_BB38_187:
	add	x10, x10, #1
	cmp	x11, x10
	b.eq	Lunix_path_BB38_193
Lunix_path_BB38_188:
	add	x13, x24, x10
	ldrb	w13, [x13, #2]
	cmp	w13, #47
	b.eq	Lunix_path_BB38_187
	cmp	w13, #46
	b.ne	Lunix_path_BB38_192
	cmp	x12, x10
	b.eq	Lunix_path_BB38_193
	add	x13, x24, x10
	ldrb	w13, [x13, #3]
	cmp	w13, #47
	b.eq	Lunix_path_BB38_187
Lunix_path_BB38_192:
	add	x10, x10, #2
	cbnz	x26, Lunix_path_BB38_179
	b	Lunix_path_BB38_199
Lunix_path_BB38_193:
	add	x10, x11, #2
	cbnz	x26, Lunix_path_BB38_179
	b	Lunix_path_BB38_199
Lunix_path_BB38_194:
	subs	x8, x1, #16
	b.lo	Lunix_path_BB38_198
	b.eq	Lunix_path_BB38_198
	mov	x9, #0
Lunix_path_BB38_197:
	ldr	q0, [x24, x9]
	movi.16b	v1, #47
	cmeq.16b	v0, v0, v1
	ldr	q1, [x23, lunix_path_CPI38_0@PAGEOFF]
	and.16b	v0, v0, v1
	addp.16b	v0, v0, v0
	addp.16b	v0, v0, v0
	addp.16b	v0, v0, v0
	umov.h	w10, v0[0]
	add	x9, x9, #16
	cmp	w10, #0
	ccmp	x9, x8, #2, eq
	b.lo	Lunix_path_BB38_197
Lunix_path_BB38_198:
	mov	x0, x24
	bl	_path_archive.outlined.has_root_or_parent_dir
	cbz	w0, Lunix_path_BB38_55
Lunix_path_BB38_199:
	mov	w8, #5
	b	Lunix_path_BB38_46
Lunix_path_BB38_200:
	cbz	w19, Lunix_path_BB38_202
	ldr	w8, [sp, #40]
	and	w8, w8, #0xff
	ldr	x9, [sp]
	ldr	x10, [sp, #32]
	stp	x12, x10, [x9]
	stp	w8, wzr, [x9, #16]
	mov	w0, #1
	b	Lunix_path_BB38_203
Lunix_path_BB38_202:
	mov	w0, #0
Lunix_path_BB38_203:
	ldp	x29, x30, [sp, #192]
	ldp	x20, x19, [sp, #176]
	ldp	x22, x21, [sp, #160]
	ldp	x24, x23, [sp, #144]
	ldp	x26, x25, [sp, #128]
	ldp	x28, x27, [sp, #112]
	add	sp, sp, #208
	ret
	.section	__TEXT,__literal16,16byte_literals
	.p2align	4, 0x0
lunix_path_CPI39_0:
	.byte	1
	.byte	2
	.byte	4
	.byte	8
	.byte	16
	.byte	32
	.byte	64
	.byte	128
	.byte	1
	.byte	2
	.byte	4
	.byte	8
	.byte	16
	.byte	32
	.byte	64
	.byte	128
	.section	__TEXT,__text,regular,pure_instructions
	.globl	_unix_path_check_request
	.p2align	2
_unix_path_check_request:
	stp	x20, x19, [sp, #-32]!
	stp	x29, x30, [sp, #16]
	add	x29, sp, #16
	mov	w8, #4096
	cmp	x0, #0
	csel	x8, x8, xzr, eq
	cbz	x1, Lunix_path_BB39_3
	add	x19, x0, x8
	ldrb	w8, [x19]
	cmp	w8, #47
	b.ne	Lunix_path_BB39_5
	mov	w0, #1
	ldp	x29, x30, [sp, #16]
	ldp	x20, x19, [sp], #32
	ret
Lunix_path_BB39_3:
	mov	x8, #0
Lunix_path_BB39_4:
	cmp	x8, x1
	mov	w8, #3
	csel	w0, w8, wzr, lo
	ldp	x29, x30, [sp, #16]
	ldp	x20, x19, [sp], #32
	ret
Lunix_path_BB39_5:
	mov	x0, x19
	mov	x20, x1
	bl	_path_within.check.check_escape
	tst	w0, #0xff
	b.eq	Lunix_path_BB39_11
	mov	x1, x20
	cmp	x20, #15
	b.hi	Lunix_path_BB39_12
	mov	x8, #0
Lunix_path_BB39_8:
	ldrb	w9, [x19, x8]
	cbz	w9, Lunix_path_BB39_4
	add	x8, x8, #1
	cmp	x1, x8
	b.ne	Lunix_path_BB39_8
	mov	w0, #0
	ldp	x29, x30, [sp, #16]
	ldp	x20, x19, [sp], #32
	ret
Lunix_path_BB39_11:
	mov	w0, #2
	ldp	x29, x30, [sp, #16]
	ldp	x20, x19, [sp], #32
	ret
Lunix_path_BB39_12:
	adrp	x9, lunix_path_CPI39_0@PAGE
	subs	x8, x1, #16
	b.eq	Lunix_path_BB39_16
	mov	x10, #0
Lunix_path_BB39_14:
	ldr	q0, [x19, x10]
	cmeq.16b	v0, v0, #0
	ldr	q1, [x9, lunix_path_CPI39_0@PAGEOFF]
	and.16b	v0, v0, v1
	addp.16b	v0, v0, v0
	addp.16b	v0, v0, v0
	addp.16b	v0, v0, v0
	umov.h	w11, v0[0]
	orr	w11, w11, #0x10000
	rbit	w11, w11
	clz	w11, w11
	cmp	w11, #15
	b.ls	Lunix_path_BB39_17
	add	x10, x10, #16
	cmp	x10, x8
	b.lo	Lunix_path_BB39_14
Lunix_path_BB39_16:
	ldr	q0, [x19, x8]
	cmeq.16b	v0, v0, #0
	ldr	q1, [x9, lunix_path_CPI39_0@PAGEOFF]
	and.16b	v0, v0, v1
	addp.16b	v0, v0, v0
	addp.16b	v0, v0, v0
	addp.16b	v0, v0, v0
	umov.h	w9, v0[0]
	orr	w9, w9, #0x10000
	rbit	w9, w9
	clz	w9, w9
	add	x8, x8, x9
	cmp	x8, x1
	mov	w8, #3
	csel	w0, w8, wzr, lo
	ldp	x29, x30, [sp, #16]
	ldp	x20, x19, [sp], #32
	ret
Lunix_path_BB39_17:
	add	x8, x10, w11, uxtw
	cmp	x8, x1
	mov	w8, #3
	csel	w0, w8, wzr, lo
	ldp	x29, x30, [sp, #16]
	ldp	x20, x19, [sp], #32
	ret
	.section	__TEXT,__literal16,16byte_literals
	.p2align	4, 0x0
lunix_path_CPI40_0:
	.byte	1
	.byte	2
	.byte	4
	.byte	8
	.byte	16
	.byte	32
	.byte	64
	.byte	128
	.byte	1
	.byte	2
	.byte	4
	.byte	8
	.byte	16
	.byte	32
	.byte	64
	.byte	128
	.section	__TEXT,__literal8,8byte_literals
	.p2align	3, 0x0
lunix_path_CPI40_1:
	.byte	1
	.byte	2
	.byte	4
	.byte	8
	.byte	16
	.byte	32
	.byte	64
	.byte	128
	.section	__TEXT,__text,regular,pure_instructions
	.globl	_unix_path_common_dir
	.p2align	2
_unix_path_common_dir:
	mov	w9, #4096
	cmp	x0, #0
	csel	x8, x9, xzr, eq
	add	x11, x0, x8
	cmp	x2, #0
	csel	x9, x9, xzr, eq
	add	x12, x2, x9
	cmp	x3, x1
	csel	x10, x3, x1, lo
	adrp	x9, lunix_path_CPI40_0@PAGE
	cmp	x10, #15
	b.hi	Lunix_path_BB40_16
	cmp	x10, #7
	b.hi	Lunix_path_BB40_21
	cbz	x10, Lunix_path_BB40_31
	ldrb	w13, [x11]
	ldrb	w14, [x12]
	cmp	w13, w14
	b.ne	Lunix_path_BB40_30
	cmp	x10, #1
	b.eq	Lunix_path_BB40_31
	ldrb	w13, [x11, #1]
	ldrb	w14, [x12, #1]
	cmp	w13, w14
	b.ne	Lunix_path_BB40_40
	cmp	x10, #2
	b.eq	Lunix_path_BB40_31
	ldrb	w13, [x11, #2]
	ldrb	w14, [x12, #2]
	cmp	w13, w14
	b.ne	Lunix_path_BB40_41
	cmp	x10, #3
	b.eq	Lunix_path_BB40_31
	ldrb	w13, [x11, #3]
	ldrb	w14, [x12, #3]
	cmp	w13, w14
	b.ne	Lunix_path_BB40_42
	cmp	x10, #4
	b.eq	Lunix_path_BB40_31
	ldrb	w13, [x11, #4]
	ldrb	w14, [x12, #4]
	cmp	w13, w14
	b.ne	Lunix_path_BB40_43
	cmp	x10, #5
	b.eq	Lunix_path_BB40_31
	ldrb	w13, [x11, #5]
	ldrb	w14, [x12, #5]
	cmp	w13, w14
	b.ne	Lunix_path_BB40_44
	cmp	x10, #6
	b.eq	Lunix_path_BB40_31
	ldrb	w11, [x11, #6]
	ldrb	w12, [x12, #6]
	cmp	w11, w12
	mov	w11, #6
	csel	x10, x10, x11, eq
	b	Lunix_path_BB40_31
Lunix_path_BB40_16:
	sub	x13, x10, #16
	cmp	x10, #64
	b.lo	Lunix_path_BB40_23
	mov	x14, #0
	and	x15, x10, #0xffffffffffffffc0
Lunix_path_BB40_18:
	add	x16, x11, x14
	ldp	q0, q1, [x16]
	ldp	q2, q3, [x16, #32]
	add	x16, x12, x14
	ldp	q4, q5, [x16]
	ldp	q6, q7, [x16, #32]
	cmeq.16b	v3, v3, v7
	cmeq.16b	v2, v2, v6
	cmeq.16b	v1, v1, v5
	cmeq.16b	v0, v0, v4
	ldr	q4, [x9, lunix_path_CPI40_0@PAGEOFF]
	bic.16b	v0, v4, v0
	bic.16b	v1, v4, v1
	bic.16b	v2, v4, v2
	bic.16b	v3, v4, v3
	addp.16b	v0, v0, v1
	addp.16b	v1, v2, v3
	addp.16b	v0, v0, v1
	addp.16b	v0, v0, v0
	fmov	x16, d0
	cbnz	x16, Lunix_path_BB40_26
	add	x14, x14, #64
	sub	x10, x10, #64
	cmp	x10, #63
	b.hi	Lunix_path_BB40_18
	mov	x14, x15
	b	Lunix_path_BB40_26
Lunix_path_BB40_21:
	ldr	d0, [x11]
	ldr	d1, [x12]
	cmeq.8b	v1, v0, v1
Lunix_path_loh58:
	adrp	x13, lunix_path_CPI40_1@PAGE
Lunix_path_loh59:
	ldr	d0, [x13, lunix_path_CPI40_1@PAGEOFF]
	bic.8b	v1, v0, v1
	addv.8b	b1, v1
	fmov	w13, s1
	orr	w13, w13, #0x100
	rbit	w13, w13
	clz	w13, w13
	cmp	w13, #8
	b.hs	Lunix_path_BB40_29
	mov	x10, x13
	b	Lunix_path_BB40_31
Lunix_path_BB40_23:
	mov	x14, #0
	b	Lunix_path_BB40_26
Lunix_path_BB40_24:
	ldr	q0, [x11, x14]
	ldr	q1, [x12, x14]
	cmeq.16b	v0, v0, v1
	ldr	q1, [x9, lunix_path_CPI40_0@PAGEOFF]
	bic.16b	v0, v1, v0
	addp.16b	v0, v0, v0
	addp.16b	v0, v0, v0
	addp.16b	v0, v0, v0
	umov.h	w10, v0[0]
	orr	w10, w10, #0x10000
	rbit	w10, w10
	clz	w10, w10
	cmp	w10, #15
	b.ls	Lunix_path_BB40_28
	add	x14, x14, #16
Lunix_path_BB40_26:
	cmp	x14, x13
	b.lo	Lunix_path_BB40_24
	ldr	q0, [x11, x13]
	ldr	q1, [x12, x13]
	cmeq.16b	v0, v0, v1
	ldr	q1, [x9, lunix_path_CPI40_0@PAGEOFF]
	bic.16b	v0, v1, v0
	addp.16b	v0, v0, v0
	addp.16b	v0, v0, v0
	addp.16b	v0, v0, v0
	umov.h	w10, v0[0]
	orr	w10, w10, #0x10000
	rbit	w10, w10
	clz	w10, w10
	add	x10, x13, x10
	b	Lunix_path_BB40_31
Lunix_path_BB40_28:
	add	x10, x14, w10, uxtw
	b	Lunix_path_BB40_31
Lunix_path_BB40_29:
	sub	x10, x10, #8
	ldr	d1, [x11, x10]
	ldr	d2, [x12, x10]
	cmeq.8b	v1, v1, v2
	bic.8b	v0, v0, v1
	addv.8b	b0, v0
	fmov	w11, s0
	orr	w11, w11, #0x100
	rbit	w11, w11
	clz	w11, w11
	add	x10, x10, x11
	b	Lunix_path_BB40_31
Lunix_path_BB40_30:
	mov	x10, #0
Lunix_path_BB40_31:
	add	x11, x8, x0
	sub	x11, x11, #16
Lunix_path_BB40_32:
	cmp	x10, #15
	b.ls	Lunix_path_BB40_35
	sub	x12, x10, #16
	ldr	q0, [x11, x10]
	movi.16b	v1, #47
	cmeq.16b	v0, v0, v1
	ldr	q1, [x9, lunix_path_CPI40_0@PAGEOFF]
	and.16b	v0, v0, v1
	addp.16b	v0, v0, v0
	addp.16b	v0, v0, v0
	addp.16b	v0, v0, v0
	umov.h	w13, v0[0]
	mov	x10, x12
	cbz	w13, Lunix_path_BB40_32
	umov.h	w8, v0[0]
	and	x8, x8, #0xffff
	clz	x8, x8
	sub	x8, x12, x8
	add	x0, x8, #64
	ret
Lunix_path_BB40_35:
	add	x8, x8, x0
	sub	x8, x8, #1
Lunix_path_BB40_36:
	cbz	x10, Lunix_path_BB40_39
	sub	x9, x10, #1
	ldrb	w11, [x8, x10]
	mov	x10, x9
	cmp	w11, #47
	b.ne	Lunix_path_BB40_36
	add	x0, x9, #1
	ret
Lunix_path_BB40_39:
	mov	x0, #0
	ret
Lunix_path_BB40_40:
	mov	w10, #1
	b	Lunix_path_BB40_31
Lunix_path_BB40_41:
	mov	w10, #2
	b	Lunix_path_BB40_31
Lunix_path_BB40_42:
	mov	w10, #3
	b	Lunix_path_BB40_31
Lunix_path_BB40_43:
	mov	w10, #4
	b	Lunix_path_BB40_31
Lunix_path_BB40_44:
	mov	w10, #5
	b	Lunix_path_BB40_31
	.loh AdrpLdr	Lunix_path_loh58, Lunix_path_loh59
	.globl	_unix_path_compare
	.p2align	2
_unix_path_compare:
	stp	x29, x30, [sp, #-16]!
	mov	x29, sp
	mov	w8, #4096
	cmp	x0, #0
	csel	x9, x8, xzr, eq
	cmp	x2, #0
	csel	x8, x8, xzr, eq
	add	x0, x0, x9
	add	x2, x2, x8
	bl	_unix_path.compare.compare
	and	w8, w0, #0xff
	sub	w0, w8, #1
	ldp	x29, x30, [sp], #16
	ret
	.globl	_unix_path_components
	.p2align	2
_unix_path_components:
	stp	x22, x21, [sp, #-48]!
	stp	x20, x19, [sp, #16]
	stp	x29, x30, [sp, #32]
	add	x29, sp, #32
	mov	x19, x2
	mov	w8, #4096
	cmp	x0, #0
	csel	x8, x8, xzr, eq
	cbz	x1, Lunix_path_BB42_9
	mov	x20, x1
	add	x21, x0, x8
	mov	x8, x1
	b	Lunix_path_BB42_3
Lunix_path_BB42_2:
	mov	x8, x1
	cbz	x1, Lunix_path_BB42_10
Lunix_path_BB42_3:
	subs	x1, x8, #1
	b.eq	Lunix_path_BB42_10
	add	x9, x21, x1
	ldrb	w10, [x9]
	cmp	w10, #47
	b.eq	Lunix_path_BB42_7
	cmp	w10, #46
	b.ne	Lunix_path_BB42_10
	ldurb	w9, [x9, #-1]
	cmp	w9, #47
	b.ne	Lunix_path_BB42_10
Lunix_path_BB42_7:
	sub	x8, x20, x1
	cmp	x8, #8
	b.ne	Lunix_path_BB42_2
	mov	x0, x21
	bl	_unix_path.filler.trimmed_blocks_len
	mov	x1, x0
	b	Lunix_path_BB42_2
Lunix_path_BB42_9:
	mov	x8, #0
Lunix_path_BB42_10:
	stp	xzr, x8, [x19]
	ldp	x29, x30, [sp, #32]
	ldp	x20, x19, [sp, #16]
	ldp	x22, x21, [sp], #48
	ret
	.globl	_unix_path_ends_in_slash
	.p2align	2
_unix_path_ends_in_slash:
	sub	sp, sp, #80
	stp	x22, x21, [sp, #32]
	stp	x20, x19, [sp, #48]
	stp	x29, x30, [sp, #64]
	add	x29, sp, #64
	mov	x19, x1
	mov	w8, #4096
	cmp	x0, #0
	csel	x8, x8, xzr, eq
	add	x20, x0, x8
	stp	xzr, xzr, [sp, #8]
	str	xzr, [sp, #24]
	cbz	x1, Lunix_path_BB43_10
	mov	x8, x19
	b	Lunix_path_BB43_3
Lunix_path_BB43_2:
	mov	x8, x1
	cbz	x1, Lunix_path_BB43_9
Lunix_path_BB43_3:
	subs	x1, x8, #1
	b.eq	Lunix_path_BB43_9
	add	x9, x20, x1
	ldrb	w10, [x9]
	cmp	w10, #47
	b.eq	Lunix_path_BB43_7
	cmp	w10, #46
	b.ne	Lunix_path_BB43_9
	ldurb	w9, [x9, #-1]
	cmp	w9, #47
	b.ne	Lunix_path_BB43_9
Lunix_path_BB43_7:
	sub	x8, x19, x1
	cmp	x8, #8
	b.ne	Lunix_path_BB43_2
	mov	x0, x20
	bl	_unix_path.filler.trimmed_blocks_len
	mov	x1, x0
	b	Lunix_path_BB43_2
Lunix_path_BB43_9:
	cmp	x8, x19
	cset	w21, lo
	b	Lunix_path_BB43_11
Lunix_path_BB43_10:
	mov	w21, #0
Lunix_path_BB43_11:
	add	x0, sp, #8
	mov	x1, x20
	mov	x2, x19
	bl	_unix_path.path.Path.file_name
	ldrb	w8, [sp, #8]
	cmp	w8, #1
	csel	w0, wzr, w21, ne
	ldp	x29, x30, [sp, #64]
	ldp	x20, x19, [sp, #48]
	ldp	x22, x21, [sp, #32]
	add	sp, sp, #80
	ret
	.globl	_unix_path_ends_with
	.p2align	2
_unix_path_ends_with:
	stp	x29, x30, [sp, #-16]!
	mov	x29, sp
	mov	x9, x2
	mov	x8, x0
	mov	w10, #4096
	cmp	x0, #0
	csel	x11, x10, xzr, eq
	add	x0, x0, x11
	cmp	x2, #0
	csel	x12, x10, xzr, eq
	add	x2, x2, x12
	cbz	x1, Lunix_path_BB44_9
	add	x10, x0, x1
	ldurb	w13, [x10, #-1]
	cmp	w13, #47
	b.eq	Lunix_path_BB44_9
	cmp	x1, #1
	b.eq	Lunix_path_BB44_7
	cmp	w13, #46
	b.ne	Lunix_path_BB44_7
	mov	x13, #0
	cbz	x3, Lunix_path_BB44_6
	ldurb	w10, [x10, #-2]
	cmp	w10, #47
	b.ne	Lunix_path_BB44_8
Lunix_path_BB44_6:
	sub	x1, x1, x13
	sub	x3, x3, x13
	bl	_unix_path.suffixes.ends_with_parts
	ldp	x29, x30, [sp], #16
	ret
Lunix_path_BB44_7:
	cbz	x3, Lunix_path_BB44_9
Lunix_path_BB44_8:
	add	x10, x2, x3
	ldurb	w13, [x10, #-1]
	cmp	w13, #47
	b.ne	Lunix_path_BB44_10
Lunix_path_BB44_9:
	mov	x13, #0
	sub	x1, x1, x13
	sub	x3, x3, x13
	bl	_unix_path.suffixes.ends_with_parts
	ldp	x29, x30, [sp], #16
	ret
Lunix_path_BB44_10:
	cmp	x3, #1
	b.eq	Lunix_path_BB44_13
	cmp	w13, #46
	b.ne	Lunix_path_BB44_13
	ldurb	w10, [x10, #-2]
	cmp	w10, #47
	b.eq	Lunix_path_BB44_9
Lunix_path_BB44_13:
	mov	x10, #0
	cmp	x3, x1
	csel	x13, x3, x1, lo
	add	x9, x12, x9
	sub	x9, x9, #1
	add	x8, x11, x8
	sub	x8, x8, #1
Lunix_path_BB44_14:
	ldrb	w11, [x8, x1]
	ldrb	w12, [x9, x3]
	cmp	w11, #47
	ccmp	w11, w12, #0, ne
	b.ne	Lunix_path_BB44_17
	sub	x9, x9, #1
	sub	x8, x8, #1
	add	x10, x10, #1
	cmp	x13, x10
	b.ne	Lunix_path_BB44_14
	mov	x10, x13
Lunix_path_BB44_17:
	subs	x8, x1, x10
	b.eq	Lunix_path_BB44_19
	add	x8, x0, x8
	ldurb	w8, [x8, #-1]
	cmp	w8, #47
	b.ne	Lunix_path_BB44_21
Lunix_path_BB44_19:
	mov	x13, x3
	subs	x8, x3, x10
	b.eq	Lunix_path_BB44_6
	add	x8, x2, x8
	ldurb	w8, [x8, #-1]
	mov	x13, x10
	cmp	w8, #47
	b.eq	Lunix_path_BB44_6
Lunix_path_BB44_21:
	mov	w0, #0
	ldp	x29, x30, [sp], #16
	ret
	.globl	_unix_path_entries_scratch
	.p2align	2
_unix_path_entries_scratch:
	sub	sp, sp, #32
	stp	x29, x30, [sp, #16]
	add	x29, sp, #16
	mov	w8, #4096
	cmp	x0, #0
	csel	x8, x8, xzr, eq
	add	x0, x0, x8
	add	x2, sp, #8
	mov	x3, #0
	bl	_path_archive.records.split
	tst	w0, #0x1
	csel	x0, x1, xzr, ne
	ldp	x29, x30, [sp, #16]
	add	sp, sp, #32
	ret
	.globl	_unix_path_equal
	.p2align	2
_unix_path_equal:
	stp	x29, x30, [sp, #-16]!
	mov	x29, sp
	mov	x9, x2
	mov	x8, x0
	mov	w11, #4096
	cmp	x0, #0
	csel	x10, x11, xzr, eq
	add	x0, x0, x10
	cmp	x2, #0
	csel	x11, x11, xzr, eq
	add	x2, x2, x11
	cmp	x1, x3
	b.ne	Lunix_path_BB46_4
	cbz	x1, Lunix_path_BB46_23
	add	x13, x2, x1
	add	x12, x0, x1
	ldurb	w12, [x12, #-1]
	ldurb	w13, [x13, #-1]
	cmp	w12, w13
	b.eq	Lunix_path_BB46_23
	cmp	w12, #47
	b.ne	Lunix_path_BB46_6
	b	Lunix_path_BB46_23
Lunix_path_BB46_4:
	cbz	x1, Lunix_path_BB46_23
	add	x12, x0, x1
	ldurb	w12, [x12, #-1]
	cmp	w12, #47
	b.eq	Lunix_path_BB46_23
Lunix_path_BB46_6:
	cmp	x1, #1
	b.eq	Lunix_path_BB46_10
	cmp	w12, #46
	b.ne	Lunix_path_BB46_10
	cbz	x3, Lunix_path_BB46_23
	add	x12, x0, x1
	ldurb	w12, [x12, #-2]
	cmp	w12, #47
	b.ne	Lunix_path_BB46_11
	b	Lunix_path_BB46_23
Lunix_path_BB46_10:
	cbz	x3, Lunix_path_BB46_23
Lunix_path_BB46_11:
	add	x12, x2, x3
	ldurb	w13, [x12, #-1]
	cmp	w13, #47
	b.eq	Lunix_path_BB46_23
	cmp	x3, #1
	b.eq	Lunix_path_BB46_15
	cmp	w13, #46
	b.ne	Lunix_path_BB46_15
	ldurb	w12, [x12, #-2]
	cmp	w12, #47
	b.eq	Lunix_path_BB46_23
Lunix_path_BB46_15:
	mov	x12, #0
	cmp	x3, x1
	csel	x13, x3, x1, lo
	add	x9, x11, x9
	sub	x9, x9, #1
	add	x8, x10, x8
	sub	x8, x8, #1
Lunix_path_BB46_16:
	ldrb	w10, [x8, x1]
	ldrb	w11, [x9, x3]
	cmp	w10, #47
	ccmp	w10, w11, #0, ne
	b.ne	Lunix_path_BB46_19
	sub	x9, x9, #1
	sub	x8, x8, #1
	add	x12, x12, #1
	cmp	x13, x12
	b.ne	Lunix_path_BB46_16
	mov	x12, x13
Lunix_path_BB46_19:
	subs	x8, x1, x12
	b.eq	Lunix_path_BB46_21
	add	x8, x0, x8
	ldurb	w8, [x8, #-1]
	cmp	w8, #47
	b.ne	Lunix_path_BB46_24
Lunix_path_BB46_21:
	subs	x8, x3, x12
	b.eq	Lunix_path_BB46_23
	add	x8, x2, x8
	ldurb	w8, [x8, #-1]
	cmp	w8, #47
	b.ne	Lunix_path_BB46_24
Lunix_path_BB46_23:
	bl	_unix_path.compare.compare
	and	w8, w0, #0xff
	cmp	w8, #1
	cset	w0, eq
	ldp	x29, x30, [sp], #16
	ret
Lunix_path_BB46_24:
	mov	w0, #0
	ldp	x29, x30, [sp], #16
	ret
	.globl	_unix_path_escapes
	.p2align	2
_unix_path_escapes:
	stp	x29, x30, [sp, #-16]!
	mov	x29, sp
	mov	w8, #4096
	cmp	x0, #0
	csel	x8, x8, xzr, eq
	add	x0, x0, x8
	bl	_path_within.check.check_escape
	tst	w0, #0xff
	cset	w0, eq
	ldp	x29, x30, [sp], #16
	ret
	.section	__TEXT,__literal16,16byte_literals
	.p2align	4, 0x0
lunix_path_CPI48_0:
	.byte	1
	.byte	2
	.byte	4
	.byte	8
	.byte	16
	.byte	32
	.byte	64
	.byte	128
	.byte	1
	.byte	2
	.byte	4
	.byte	8
	.byte	16
	.byte	32
	.byte	64
	.byte	128
	.section	__TEXT,__text,regular,pure_instructions
	.globl	_unix_path_extension
	.p2align	2
_unix_path_extension:
	stp	x24, x23, [sp, #-64]!
	stp	x22, x21, [sp, #16]
	stp	x20, x19, [sp, #32]
	stp	x29, x30, [sp, #48]
	add	x29, sp, #48
	mov	w8, #4096
	cmp	x0, #0
	csel	x24, x8, xzr, eq
	cbz	x1, Lunix_path_BB48_9
	mov	x19, x2
	mov	x21, x1
	mov	x20, x0
	add	x22, x0, x24
	mov	x23, x1
	b	Lunix_path_BB48_3
Lunix_path_BB48_2:
	mov	x23, x1
	cbz	x1, Lunix_path_BB48_36
Lunix_path_BB48_3:
	subs	x1, x23, #1
	b.eq	Lunix_path_BB48_11
	add	x8, x22, x1
	ldrb	w9, [x8]
	cmp	w9, #47
	b.eq	Lunix_path_BB48_7
	cmp	w9, #46
	b.ne	Lunix_path_BB48_15
	ldurb	w8, [x8, #-1]
	cmp	w8, #47
	b.ne	Lunix_path_BB48_12
Lunix_path_BB48_7:
	sub	x8, x21, x1
	cmp	x8, #8
	b.ne	Lunix_path_BB48_2
	add	x0, x20, x24
	bl	_unix_path.filler.trimmed_blocks_len
	mov	x1, x0
	b	Lunix_path_BB48_2
Lunix_path_BB48_9:
	mov	w0, #0
Lunix_path_BB48_10:
	ldp	x29, x30, [sp, #48]
	ldp	x20, x19, [sp, #32]
	ldp	x22, x21, [sp, #16]
	ldp	x24, x23, [sp], #64
	ret
Lunix_path_BB48_11:
	ldrb	w8, [x22]
	and	w8, w8, #0xfe
	cmp	w8, #46
	b.ne	Lunix_path_BB48_15
	b	Lunix_path_BB48_36
Lunix_path_BB48_12:
	cmp	w8, #46
	b.ne	Lunix_path_BB48_15
	cmp	x23, #2
	b.eq	Lunix_path_BB48_36
	add	x8, x22, x23
	ldurb	w8, [x8, #-3]
	cmp	w8, #47
	b.eq	Lunix_path_BB48_36
Lunix_path_BB48_15:
	mov	x8, x21
	b	Lunix_path_BB48_17
Lunix_path_BB48_16:
	mov	x8, x1
	cbz	x1, Lunix_path_BB48_36
Lunix_path_BB48_17:
	subs	x1, x8, #1
	b.eq	Lunix_path_BB48_23
	add	x9, x22, x1
	ldrb	w10, [x9]
	cmp	w10, #47
	b.eq	Lunix_path_BB48_21
	cmp	w10, #46
	b.ne	Lunix_path_BB48_27
	ldurb	w9, [x9, #-1]
	cmp	w9, #47
	b.ne	Lunix_path_BB48_24
Lunix_path_BB48_21:
	sub	x8, x21, x1
	cmp	x8, #8
	b.ne	Lunix_path_BB48_16
	add	x0, x20, x24
	bl	_unix_path.filler.trimmed_blocks_len
	mov	x1, x0
	b	Lunix_path_BB48_16
Lunix_path_BB48_23:
	ldrb	w9, [x22]
	and	w9, w9, #0xfe
	cmp	w9, #46
	b.eq	Lunix_path_BB48_36
	b	Lunix_path_BB48_27
Lunix_path_BB48_24:
	cmp	w9, #46
	b.ne	Lunix_path_BB48_27
	cmp	x8, #2
	b.eq	Lunix_path_BB48_36
	add	x9, x22, x8
	ldurb	w9, [x9, #-3]
	cmp	w9, #47
	b.eq	Lunix_path_BB48_36
Lunix_path_BB48_27:
	add	x9, x24, x20
	sub	x9, x9, #16
	mov	x11, x8
Lunix_path_BB48_28:
	cmp	x11, #15
	b.ls	Lunix_path_BB48_31
	sub	x10, x11, #16
	ldr	q0, [x9, x11]
	movi.16b	v1, #46
	cmeq.16b	v1, v0, v1
Lunix_path_loh60:
	adrp	x11, lunix_path_CPI48_0@PAGE
Lunix_path_loh61:
	ldr	q2, [x11, lunix_path_CPI48_0@PAGEOFF]
	and.16b	v1, v1, v2
	addp.16b	v1, v1, v1
	addp.16b	v1, v1, v1
	addp.16b	v1, v1, v1
	umov.h	w11, v1[0]
	clz	x12, x11
	mov	w11, #64
	movi.16b	v1, #47
	cmeq.16b	v0, v0, v1
	and.16b	v0, v0, v2
	addp.16b	v0, v0, v0
	addp.16b	v0, v0, v0
	addp.16b	v0, v0, v0
	umov.h	w13, v0[0]
	sub	x14, x11, x12
	clz	x13, x13
	sub	x11, x11, x13
	cmp	x14, x11
	csel	x14, x14, x11, hi
	mov	x11, x10
	cbz	x14, Lunix_path_BB48_28
	mov	w9, #64
	sub	x11, x9, x13
	sub	x9, x9, x12
	cmp	x11, x9
	csel	x9, x11, x9, hi
	add	x10, x9, x10
	sub	x9, x10, #1
	cbnz	x9, Lunix_path_BB48_35
	b	Lunix_path_BB48_36
Lunix_path_BB48_31:
	add	x9, x24, x20
	sub	x10, x9, #1
Lunix_path_BB48_32:
	cbz	x11, Lunix_path_BB48_36
	sub	x9, x11, #1
	ldrb	w11, [x10, x11]
	and	w12, w11, #0xfe
	mov	x11, x9
	cmp	w12, #46
	b.ne	Lunix_path_BB48_32
	add	x10, x9, #1
	cbz	x9, Lunix_path_BB48_36
Lunix_path_BB48_35:
	ldrb	w11, [x22, x9]
	cmp	w11, #47
	b.ne	Lunix_path_BB48_37
Lunix_path_BB48_36:
	mov	w0, #0
	ldp	x29, x30, [sp, #48]
	ldp	x20, x19, [sp, #32]
	ldp	x22, x21, [sp, #16]
	ldp	x24, x23, [sp], #64
	ret
Lunix_path_BB48_37:
	mov	w0, #0
	cmp	x9, x8
	b.eq	Lunix_path_BB48_10
	add	x10, x22, x10
	ldurb	w10, [x10, #-2]
	cmp	w10, #47
	b.eq	Lunix_path_BB48_10
	mvn	x9, x9
	add	x8, x8, x9
	sub	x9, x23, x8
	stp	x9, x8, [x19]
	mov	w0, #1
	ldp	x29, x30, [sp, #48]
	ldp	x20, x19, [sp, #32]
	ldp	x22, x21, [sp, #16]
	ldp	x24, x23, [sp], #64
	ret
	.loh AdrpLdr	Lunix_path_loh60, Lunix_path_loh61
	.globl	_unix_path_file_name
	.p2align	2
_unix_path_file_name:
	sub	sp, sp, #96
	stp	x24, x23, [sp, #32]
	stp	x22, x21, [sp, #48]
	stp	x20, x19, [sp, #64]
	stp	x29, x30, [sp, #80]
	add	x29, sp, #80
	mov	x19, x2
	mov	x20, x1
	mov	w8, #4096
	cmp	x0, #0
	csel	x8, x8, xzr, eq
	add	x21, x0, x8
	stp	xzr, xzr, [sp, #8]
	str	xzr, [sp, #24]
	add	x0, sp, #8
	mov	x1, x21
	mov	x2, x20
	bl	_unix_path.path.Path.file_name
	ldrb	w22, [sp, #8]
	cmp	w22, #1
	b.ne	Lunix_path_BB49_12
	ldr	x23, [sp, #24]
	cbz	x20, Lunix_path_BB49_10
	mov	x8, x20
	b	Lunix_path_BB49_4
Lunix_path_BB49_3:
	mov	x8, x1
	cbz	x1, Lunix_path_BB49_11
Lunix_path_BB49_4:
	subs	x1, x8, #1
	b.eq	Lunix_path_BB49_11
	add	x9, x21, x1
	ldrb	w10, [x9]
	cmp	w10, #47
	b.eq	Lunix_path_BB49_8
	cmp	w10, #46
	b.ne	Lunix_path_BB49_11
	ldurb	w9, [x9, #-1]
	cmp	w9, #47
	b.ne	Lunix_path_BB49_11
Lunix_path_BB49_8:
	sub	x8, x20, x1
	cmp	x8, #8
	b.ne	Lunix_path_BB49_3
	mov	x0, x21
	bl	_unix_path.filler.trimmed_blocks_len
	mov	x1, x0
	b	Lunix_path_BB49_3
Lunix_path_BB49_10:
	mov	x8, #0
Lunix_path_BB49_11:
	sub	x8, x8, x23
	stp	x8, x23, [x19]
Lunix_path_BB49_12:
	cmp	w22, #1
	cset	w0, eq
	ldp	x29, x30, [sp, #80]
	ldp	x20, x19, [sp, #64]
	ldp	x22, x21, [sp, #48]
	ldp	x24, x23, [sp, #32]
	add	sp, sp, #96
	ret
	.section	__TEXT,__literal16,16byte_literals
	.p2align	4, 0x0
lunix_path_CPI50_0:
	.byte	1
	.byte	2
	.byte	4
	.byte	8
	.byte	16
	.byte	32
	.byte	64
	.byte	128
	.byte	1
	.byte	2
	.byte	4
	.byte	8
	.byte	16
	.byte	32
	.byte	64
	.byte	128
	.section	__TEXT,__text,regular,pure_instructions
	.globl	_unix_path_file_prefix
	.p2align	2
_unix_path_file_prefix:
	sub	sp, sp, #96
	stp	x24, x23, [sp, #32]
	stp	x22, x21, [sp, #48]
	stp	x20, x19, [sp, #64]
	stp	x29, x30, [sp, #80]
	add	x29, sp, #80
	mov	x19, x2
	mov	x20, x1
	mov	w8, #4096
	cmp	x0, #0
	csel	x8, x8, xzr, eq
	add	x21, x0, x8
	stp	xzr, xzr, [sp, #8]
	str	xzr, [sp, #24]
	add	x0, sp, #8
	mov	x1, x21
	mov	x2, x20
	bl	_unix_path.path.Path.file_name
	ldrb	w8, [sp, #8]
	cmp	w8, #1
	b.ne	Lunix_path_BB50_18
	ldr	x22, [sp, #24]
	cbz	x20, Lunix_path_BB50_10
	mov	x23, x20
	b	Lunix_path_BB50_4
Lunix_path_BB50_3:
	mov	x23, x1
	cbz	x1, Lunix_path_BB50_11
Lunix_path_BB50_4:
	subs	x1, x23, #1
	b.eq	Lunix_path_BB50_11
	add	x8, x21, x1
	ldrb	w9, [x8]
	cmp	w9, #47
	b.eq	Lunix_path_BB50_8
	cmp	w9, #46
	b.ne	Lunix_path_BB50_11
	ldurb	w8, [x8, #-1]
	cmp	w8, #47
	b.ne	Lunix_path_BB50_11
Lunix_path_BB50_8:
	sub	x8, x20, x1
	cmp	x8, #8
	b.ne	Lunix_path_BB50_3
	mov	x0, x21
	bl	_unix_path.filler.trimmed_blocks_len
	mov	x1, x0
	b	Lunix_path_BB50_3
Lunix_path_BB50_10:
	mov	x23, #0
Lunix_path_BB50_11:
	stp	xzr, xzr, [sp, #8]
	str	xzr, [sp, #24]
	add	x0, sp, #8
	mov	x1, x21
	mov	x2, x20
	bl	_unix_path.path.Path.file_name
	ldrb	w8, [sp, #8]
	cmp	w8, #1
	b.ne	Lunix_path_BB50_18
	sub	x8, x23, x22
	ldp	x10, x11, [sp, #16]
	cmp	x11, #0
	cset	w9, ne
	cinc	x10, x10, ne
	sub	x11, x11, x9
	cmp	x11, #15
	b.hi	Lunix_path_BB50_19
	cbz	x11, Lunix_path_BB50_26
	mov	x12, #0
Lunix_path_BB50_15:
	ldrb	w13, [x10, x12]
	cmp	w13, #46
	b.eq	Lunix_path_BB50_25
	add	x12, x12, #1
	cmp	x11, x12
	b.ne	Lunix_path_BB50_15
	mov	x12, x11
	b	Lunix_path_BB50_25
Lunix_path_BB50_18:
	mov	w0, #0
	ldp	x29, x30, [sp, #80]
	ldp	x20, x19, [sp, #64]
	ldp	x22, x21, [sp, #48]
	ldp	x24, x23, [sp, #32]
	add	sp, sp, #96
	ret
Lunix_path_BB50_19:
	adrp	x12, lunix_path_CPI50_0@PAGE
	subs	x11, x11, #16
	b.eq	Lunix_path_BB50_23
	mov	x13, #0
Lunix_path_BB50_21:
	ldr	q0, [x10, x13]
	movi.16b	v1, #46
	cmeq.16b	v0, v0, v1
	ldr	q1, [x12, lunix_path_CPI50_0@PAGEOFF]
	and.16b	v0, v0, v1
	addp.16b	v0, v0, v0
	addp.16b	v0, v0, v0
	addp.16b	v0, v0, v0
	umov.h	w14, v0[0]
	orr	w14, w14, #0x10000
	rbit	w14, w14
	clz	w14, w14
	cmp	w14, #15
	b.ls	Lunix_path_BB50_24
	add	x13, x13, #16
	cmp	x13, x11
	b.lo	Lunix_path_BB50_21
Lunix_path_BB50_23:
	ldr	q0, [x10, x11]
	movi.16b	v1, #46
	cmeq.16b	v0, v0, v1
	ldr	q1, [x12, lunix_path_CPI50_0@PAGEOFF]
	and.16b	v0, v0, v1
	addp.16b	v0, v0, v0
	addp.16b	v0, v0, v0
	addp.16b	v0, v0, v0
	umov.h	w10, v0[0]
	orr	w10, w10, #0x10000
	rbit	w10, w10
	clz	w10, w10
	add	x12, x11, x10
	b	Lunix_path_BB50_25
Lunix_path_BB50_24:
	add	x12, x13, w14, uxtw
Lunix_path_BB50_25:
	add	x9, x12, x9
Lunix_path_BB50_26:
	stp	x8, x9, [x19]
	mov	w0, #1
	ldp	x29, x30, [sp, #80]
	ldp	x20, x19, [sp, #64]
	ldp	x22, x21, [sp, #48]
	ldp	x24, x23, [sp, #32]
	add	sp, sp, #96
	ret
	.section	__TEXT,__literal16,16byte_literals
	.p2align	4, 0x0
lunix_path_CPI51_0:
	.byte	1
	.byte	2
	.byte	4
	.byte	8
	.byte	16
	.byte	32
	.byte	64
	.byte	128
	.byte	1
	.byte	2
	.byte	4
	.byte	8
	.byte	16
	.byte	32
	.byte	64
	.byte	128
	.section	__TEXT,__text,regular,pure_instructions
	.globl	_unix_path_file_stem
	.p2align	2
_unix_path_file_stem:
	sub	sp, sp, #112
	stp	x26, x25, [sp, #32]
	stp	x24, x23, [sp, #48]
	stp	x22, x21, [sp, #64]
	stp	x20, x19, [sp, #80]
	stp	x29, x30, [sp, #96]
	add	x29, sp, #96
	mov	x19, x2
	mov	x21, x1
	mov	x20, x0
	mov	w8, #4096
	cmp	x0, #0
	csel	x24, x8, xzr, eq
	add	x25, x0, x24
	stp	xzr, xzr, [sp, #8]
	str	xzr, [sp, #24]
	add	x0, sp, #8
	add	x1, x20, x24
	mov	x2, x21
	bl	_unix_path.path.Path.file_name
	ldrb	w22, [sp, #8]
	cmp	w22, #1
	b.ne	Lunix_path_BB51_21
	ldr	x23, [sp, #24]
	cbz	x21, Lunix_path_BB51_10
	mov	x10, x21
	b	Lunix_path_BB51_4
Lunix_path_BB51_3:
	mov	x10, x1
	cbz	x1, Lunix_path_BB51_11
Lunix_path_BB51_4:
	subs	x1, x10, #1
	b.eq	Lunix_path_BB51_11
	add	x8, x25, x1
	ldrb	w9, [x8]
	cmp	w9, #47
	b.eq	Lunix_path_BB51_8
	cmp	w9, #46
	b.ne	Lunix_path_BB51_11
	ldurb	w8, [x8, #-1]
	cmp	w8, #47
	b.ne	Lunix_path_BB51_11
Lunix_path_BB51_8:
	sub	x8, x21, x1
	cmp	x8, #8
	b.ne	Lunix_path_BB51_3
	add	x0, x20, x24
	bl	_unix_path.filler.trimmed_blocks_len
	mov	x1, x0
	b	Lunix_path_BB51_3
Lunix_path_BB51_10:
	mov	x10, #0
Lunix_path_BB51_11:
	sub	x8, x10, x23
	add	x9, x25, x8
	add	x11, x24, x20
	add	x10, x11, x10
	sub	x11, x10, #1
	mov	x10, x23
Lunix_path_BB51_12:
	cmp	x10, #15
	b.ls	Lunix_path_BB51_16
	sub	x10, x10, #16
	ldur	q0, [x11, #-15]
	movi.16b	v1, #46
	cmeq.16b	v1, v0, v1
Lunix_path_loh62:
	adrp	x12, lunix_path_CPI51_0@PAGE
Lunix_path_loh63:
	ldr	q2, [x12, lunix_path_CPI51_0@PAGEOFF]
	and.16b	v1, v1, v2
	addp.16b	v1, v1, v1
	addp.16b	v1, v1, v1
	addp.16b	v1, v1, v1
	umov.h	w12, v1[0]
	clz	x12, x12
	mov	w14, #64
	movi.16b	v1, #47
	cmeq.16b	v0, v0, v1
	and.16b	v0, v0, v2
	addp.16b	v0, v0, v0
	addp.16b	v0, v0, v0
	addp.16b	v0, v0, v0
	umov.h	w13, v0[0]
	sub	x15, x14, x12
	clz	x13, x13
	sub	x14, x14, x13
	cmp	x15, x14
	csel	x14, x15, x14, hi
	sub	x11, x11, #16
	cbz	x14, Lunix_path_BB51_12
	mov	w11, #64
	sub	x13, x11, x13
	sub	x11, x11, x12
	cmp	x13, x11
	csel	x11, x13, x11, hi
	add	x11, x11, x10
	sub	x10, x11, #1
	cbnz	x10, Lunix_path_BB51_18
	b	Lunix_path_BB51_20
Lunix_path_BB51_15:
	sub	x10, x10, #1
	ldrb	w12, [x11], #-1
	and	w12, w12, #0xfe
	cmp	w12, #46
	b.eq	Lunix_path_BB51_17
Lunix_path_BB51_16:
	cbnz	x10, Lunix_path_BB51_15
	b	Lunix_path_BB51_20
Lunix_path_BB51_17:
	add	x11, x10, #1
	cbz	x10, Lunix_path_BB51_20
Lunix_path_BB51_18:
	ldrb	w12, [x9, x10]
	cmp	w12, #47
	b.eq	Lunix_path_BB51_20
	add	x9, x9, x11
	ldurb	w9, [x9, #-2]
	cmp	w9, #47
	csel	x23, x23, x10, eq
Lunix_path_BB51_20:
	stp	x8, x23, [x19]
Lunix_path_BB51_21:
	cmp	w22, #1
	cset	w0, eq
	ldp	x29, x30, [sp, #96]
	ldp	x20, x19, [sp, #80]
	ldp	x22, x21, [sp, #64]
	ldp	x24, x23, [sp, #48]
	ldp	x26, x25, [sp, #32]
	add	sp, sp, #112
	ret
	.loh AdrpLdr	Lunix_path_loh62, Lunix_path_loh63
	.section	__TEXT,__literal16,16byte_literals
	.p2align	4, 0x0
lunix_path_CPI52_0:
	.byte	1
	.byte	2
	.byte	4
	.byte	8
	.byte	16
	.byte	32
	.byte	64
	.byte	128
	.byte	1
	.byte	2
	.byte	4
	.byte	8
	.byte	16
	.byte	32
	.byte	64
	.byte	128
	.section	__TEXT,__literal8,8byte_literals
	.p2align	3, 0x0
lunix_path_CPI52_1:
	.byte	1
	.byte	2
	.byte	4
	.byte	8
	.byte	16
	.byte	32
	.byte	64
	.byte	128
	.section	__TEXT,__text,regular,pure_instructions
	.globl	_unix_path_from_key
	.p2align	2
_unix_path_from_key:
	stp	x24, x23, [sp, #-64]!
	stp	x22, x21, [sp, #16]
	stp	x20, x19, [sp, #32]
	stp	x29, x30, [sp, #48]
	add	x29, sp, #48
	mov	x22, x3
	mov	x21, x2
	mov	x20, x1
	mov	w8, #4096
	cmp	x0, #0
	csel	x9, x8, xzr, eq
	add	x19, x0, x9
	cmp	x2, #0
	csel	x23, x8, xzr, eq
	mov	x0, x19
	bl	_path_keys.decode.path_len
	mov	x9, #0
	and	w8, w0, #0xff
	cmp	w8, #1
	b.ne	Lunix_path_BB52_3
	cmp	x22, x1
	b.hs	Lunix_path_BB52_4
Lunix_path_BB52_2:
	mov	x9, x1
Lunix_path_BB52_3:
	mov	x10, #-9223372036854775808
	cmp	x9, x10
	csel	x9, x9, x10, lo
	cmp	w8, #1
	mov	x8, #-5
	csel	x0, x9, x8, eq
	ldp	x29, x30, [sp, #48]
	ldp	x20, x19, [sp, #32]
	ldp	x22, x21, [sp, #16]
	ldp	x24, x23, [sp], #64
	ret
Lunix_path_BB52_4:
	add	x9, x21, x23
	subs	x11, x20, #2
	b.lo	Lunix_path_BB52_6
	ldrb	w10, [x19]
	cbz	w10, Lunix_path_BB52_62
Lunix_path_BB52_6:
	mov	x10, #0
Lunix_path_BB52_7:
	add	x11, x1, #1
	b	Lunix_path_BB52_10
Lunix_path_BB52_8:
	add	x13, x12, #1
	mov	x12, x13
Lunix_path_BB52_9:
	add	x10, x13, x10
	add	x19, x19, x12
	sub	x20, x20, x12
Lunix_path_BB52_10:
	subs	x12, x11, x10
	b.eq	Lunix_path_BB52_13
	cmp	x20, x12
	b.ne	Lunix_path_BB52_13
	sub	x12, x20, #1
	b	Lunix_path_BB52_42
Lunix_path_BB52_13:
	cmp	x20, #2
	b.hs	Lunix_path_BB52_16
	cbz	x20, Lunix_path_BB52_2
	ldrb	w12, [x19]
	b	Lunix_path_BB52_17
Lunix_path_BB52_16:
	ldrb	w12, [x19]
	ldrb	w13, [x19, #1]
	cmp	w12, #0
	ccmp	w13, #3, #0, eq
	b.eq	Lunix_path_BB52_21
Lunix_path_BB52_17:
	cmp	w12, #47
	b.ne	Lunix_path_BB52_20
	cmp	x20, #2
	b.lo	Lunix_path_BB52_2
	ldrb	w12, [x19, #1]
	cmp	w12, #47
	b.eq	Lunix_path_BB52_24
Lunix_path_BB52_20:
	cbnz	w12, Lunix_path_BB52_26
	b	Lunix_path_BB52_2
Lunix_path_BB52_21:
	add	x12, x10, #2
	mov	w13, #11822
	strh	w13, [x9, x10]
	cmp	x12, x1
	b.hs	Lunix_path_BB52_23
	mov	w13, #47
	strb	w13, [x9, x12]
Lunix_path_BB52_23:
	mov	w12, #2
	mov	w13, #3
	b	Lunix_path_BB52_9
Lunix_path_BB52_24:
	cmp	x20, #2
	b.eq	Lunix_path_BB52_2
	ldrb	w12, [x19, #2]
	cbz	w12, Lunix_path_BB52_2
Lunix_path_BB52_26:
	cmp	x20, #18
	b.hi	Lunix_path_BB52_29
	cmp	x20, #9
	b.hs	Lunix_path_BB52_37
	mov	x12, #0
	cmp	x12, x20
	b.lo	Lunix_path_BB52_55
	b	Lunix_path_BB52_41
Lunix_path_BB52_29:
	adrp	x13, lunix_path_CPI52_0@PAGE
	mov	x14, #0
	subs	x12, x20, #19
	b.ne	Lunix_path_BB52_35
Lunix_path_BB52_30:
	sub	x15, x20, #17
	cmp	x15, x14
	csel	x14, x15, x14, lo
	add	x15, x19, x14
	ldr	q0, [x15]
	ldur	q1, [x15, #1]
	movi.16b	v2, #208
	and.16b	v1, v1, v2
	orr.16b	v0, v1, v0
	cmeq.16b	v1, v0, #0
	ldr	q0, [x13, lunix_path_CPI52_0@PAGEOFF]
	and.16b	v1, v1, v0
	addp.16b	v1, v1, v1
	addp.16b	v1, v1, v1
	addp.16b	v1, v1, v1
	umov.h	w13, v1[0]
	cbz	w13, Lunix_path_BB52_52
	add	x13, x19, x12
	ldr	q1, [x13]
	ldur	q2, [x13, #1]
	ldur	q3, [x13, #2]
	ldur	q4, [x13, #3]
	movi.16b	v5, #47
	cmeq.16b	v6, v3, v5
	cmeq.16b	v4, v4, #0
	and.16b	v4, v6, v4
	cmeq.16b	v5, v2, v5
	cmeq.16b	v3, v3, #0
	orr.16b	v3, v3, v4
	and.16b	v3, v5, v3
	cmeq.16b	v1, v1, #0
	cmeq.16b	v2, v2, #0
	orr.16b	v2, v2, v3
	and.16b	v0, v1, v0
	and.16b	v0, v0, v2
	addp.16b	v0, v0, v0
	addp.16b	v0, v0, v0
	addp.16b	v0, v0, v0
	umov.h	w13, v0[0]
	orr	w13, w13, #0x10000
	rbit	w13, w13
	clz	w13, w13
	add	x12, x12, x13
	cmp	x12, x20
	b.lo	Lunix_path_BB52_55
	b	Lunix_path_BB52_41
Lunix_path_BB52_32:
	ldur	q3, [x15, #2]
	ldur	q4, [x15, #3]
	movi.16b	v5, #47
	cmeq.16b	v6, v3, v5
	cmeq.16b	v4, v4, #0
	and.16b	v4, v6, v4
	cmeq.16b	v5, v1, v5
	cmeq.16b	v3, v3, #0
	orr.16b	v3, v3, v4
	and.16b	v3, v5, v3
	cmeq.16b	v0, v0, #0
	cmeq.16b	v1, v1, #0
	orr.16b	v1, v1, v3
	and.16b	v0, v0, v2
	and.16b	v0, v0, v1
	addp.16b	v0, v0, v0
	addp.16b	v0, v0, v0
	addp.16b	v0, v0, v0
	umov.h	w15, v0[0]
	orr	w15, w15, #0x10000
	rbit	w15, w15
	clz	w15, w15
	cmp	w15, #15
	b.ls	Lunix_path_BB52_39
	add	x14, x14, #16
Lunix_path_BB52_34:
	cmp	x14, x12
	b.hs	Lunix_path_BB52_30
Lunix_path_BB52_35:
	add	x15, x19, x14
	ldr	q0, [x15]
	ldur	q1, [x15, #1]
	movi.16b	v2, #208
	and.16b	v2, v1, v2
	orr.16b	v2, v2, v0
	cmeq.16b	v3, v2, #0
	ldr	q2, [x13, lunix_path_CPI52_0@PAGEOFF]
	and.16b	v3, v3, v2
	addp.16b	v3, v3, v3
	addp.16b	v3, v3, v3
	addp.16b	v3, v3, v3
	umov.h	w16, v3[0]
	cbnz	w16, Lunix_path_BB52_32
	add	x14, x14, #16
	cmp	x14, x12
	b.lo	Lunix_path_BB52_35
	b	Lunix_path_BB52_34
Lunix_path_BB52_37:
	ldr	d1, [x19]
	ldur	d2, [x19, #1]
	cmeq.8b	v3, v2, #0
	movi.8b	v0, #47
	cmeq.8b	v2, v2, v0
	orr.8b	v2, v3, v2
	cmeq.8b	v3, v1, #0
Lunix_path_loh64:
	adrp	x12, lunix_path_CPI52_1@PAGE
Lunix_path_loh65:
	ldr	d1, [x12, lunix_path_CPI52_1@PAGEOFF]
	and.8b	v3, v3, v1
	and.8b	v2, v3, v2
	addv.8b	b2, v2
	fmov	w12, s2
	orr	w12, w12, #0x100
	rbit	w12, w12
	clz	w12, w12
	cmp	w12, #8
	b.lo	Lunix_path_BB52_40
	mov	w12, #17
	cmp	x20, #17
	csel	x12, x20, x12, lo
	sub	x12, x12, #9
	add	x13, x19, x12
	ldr	d2, [x13]
	ldur	d3, [x13, #1]
	cmeq.8b	v4, v3, #0
	cmeq.8b	v0, v3, v0
	orr.8b	v0, v4, v0
	cmeq.8b	v2, v2, #0
	and.8b	v1, v2, v1
	and.8b	v0, v1, v0
	addv.8b	b0, v0
	fmov	w13, s0
	orr	w13, w13, #0x100
	rbit	w13, w13
	clz	w13, w13
	add	x12, x12, x13
	cmp	x12, x20
	b.lo	Lunix_path_BB52_55
	b	Lunix_path_BB52_41
Lunix_path_BB52_39:
	add	x12, x14, w15, uxtw
Lunix_path_BB52_40:
	cmp	x12, x20
	b.lo	Lunix_path_BB52_55
Lunix_path_BB52_41:
	cmp	x12, x20
	b.eq	Lunix_path_BB52_2
Lunix_path_BB52_42:
	cmp	x12, #15
	b.hi	Lunix_path_BB52_47
	cbz	x12, Lunix_path_BB52_46
	add	x13, x9, x10
	mov	x14, x19
	mov	x15, x12
Lunix_path_BB52_45:
	ldrb	w16, [x14], #1
	cmp	w16, #48
	sbc	w17, w16, wzr
	mov	w0, #47
	cmp	w16, #0
	csel	w16, w0, w17, eq
	strb	w16, [x13], #1
	subs	x15, x15, #1
	b.ne	Lunix_path_BB52_45
Lunix_path_BB52_46:
	add	x13, x12, x10
	cmp	x13, x1
	b.hs	Lunix_path_BB52_8
	b	Lunix_path_BB52_51
Lunix_path_BB52_47:
	subs	x13, x12, #16
	b.eq	Lunix_path_BB52_50
	mov	x14, #0
	add	x15, x9, x10
Lunix_path_BB52_49:
	ldr	q0, [x19, x14]
	movi.16b	v1, #48
	cmhi.16b	v1, v1, v0
	add.16b	v1, v0, v1
	cmeq.16b	v0, v0, #0
	movi.16b	v2, #47
	bsl.16b	v0, v2, v1
	str	q0, [x15, x14]
	add	x14, x14, #16
	cmp	x14, x13
	b.lo	Lunix_path_BB52_49
Lunix_path_BB52_50:
	ldr	q0, [x19, x13]
	movi.16b	v1, #48
	cmhi.16b	v1, v1, v0
	add.16b	v1, v0, v1
	cmeq.16b	v0, v0, #0
	movi.16b	v2, #47
	bsl.16b	v0, v2, v1
	add	x14, x9, x10
	str	q0, [x14, x13]
	add	x13, x12, x10
	cmp	x13, x1
	b.hs	Lunix_path_BB52_8
Lunix_path_BB52_51:
	mov	w14, #47
	strb	w14, [x9, x13]
	b	Lunix_path_BB52_8
Lunix_path_BB52_52:
	add	x12, x14, #16
	cmp	x12, x20
	b.lo	Lunix_path_BB52_55
	b	Lunix_path_BB52_41
Lunix_path_BB52_53:
	cbz	w14, Lunix_path_BB52_41
Lunix_path_BB52_54:
	mov	x12, x13
	cmp	x20, x13
	b.eq	Lunix_path_BB52_2
Lunix_path_BB52_55:
	ldrb	w14, [x19, x12]
	add	x13, x12, #1
	cbnz	w14, Lunix_path_BB52_54
	cmp	x20, x13
	b.ls	Lunix_path_BB52_41
	add	x14, x19, x12
	ldrb	w14, [x14, #1]
	cmp	w14, #47
	b.ne	Lunix_path_BB52_53
	add	x14, x12, #2
	cmp	x20, x14
	b.ls	Lunix_path_BB52_41
	add	x14, x19, x12
	ldrb	w14, [x14, #2]
	cmp	w14, #47
	b.ne	Lunix_path_BB52_53
	add	x14, x12, #3
	cmp	x20, x14
	b.ls	Lunix_path_BB52_41
	add	x14, x19, x12
	ldrb	w14, [x14, #3]
	cbnz	w14, Lunix_path_BB52_54
	b	Lunix_path_BB52_41
Lunix_path_BB52_62:
	ldrb	w10, [x19, #1]
	cmp	w10, #2
	b.eq	Lunix_path_BB52_67
	cmp	w10, #1
	b.ne	Lunix_path_BB52_6
	add	x19, x19, #2
	cbz	x1, Lunix_path_BB52_66
	mov	w10, #47
	strb	w10, [x9]
Lunix_path_BB52_66:
	mov	w10, #1
	b	Lunix_path_BB52_72
Lunix_path_BB52_67:
	add	x19, x19, #2
	cmp	x1, #2
	b.lo	Lunix_path_BB52_69
Lunix_path_loh66:
	adrp	x10, lunix_path__static.9@PAGE
Lunix_path_loh67:
	add	x10, x10, lunix_path__static.9@PAGEOFF
	sub	x10, x9, x10
	cmp	x10, #1
	mov	w10, #12078
	strh	w10, [x9]
	b	Lunix_path_BB52_71
Lunix_path_BB52_69:
	cmp	x1, #1
	b.ne	Lunix_path_BB52_71
	mov	w10, #46
	strb	w10, [x9]
Lunix_path_BB52_71:
	mov	w10, #2
Lunix_path_BB52_72:
	mov	x20, x11
	b	Lunix_path_BB52_7
	.loh AdrpLdr	Lunix_path_loh64, Lunix_path_loh65
	.loh AdrpAdd	Lunix_path_loh66, Lunix_path_loh67
	.section	__TEXT,__literal16,16byte_literals
	.p2align	4, 0x0
lunix_path_CPI53_0:
	.quad	8317987319222330741
	.quad	7237128888997146477
lunix_path_CPI53_1:
	.quad	7816392313619706465
	.quad	8387220255154660723
lunix_path_CPI53_2:
	.byte	1
	.byte	2
	.byte	4
	.byte	8
	.byte	16
	.byte	32
	.byte	64
	.byte	128
	.byte	1
	.byte	2
	.byte	4
	.byte	8
	.byte	16
	.byte	32
	.byte	64
	.byte	128
	.section	__TEXT,__text,regular,pure_instructions
	.globl	_unix_path_hash
	.p2align	2
_unix_path_hash:
	sub	sp, sp, #144
	stp	x26, x25, [sp, #64]
	stp	x24, x23, [sp, #80]
	stp	x22, x21, [sp, #96]
	stp	x20, x19, [sp, #112]
	stp	x29, x30, [sp, #128]
	add	x29, sp, #128
	mov	x25, #25971
	movk	x25, #31092, lsl #16
	movk	x25, #25698, lsl #32
	movk	x25, #29797, lsl #48
	mov	x22, #25973
	movk	x22, #28787, lsl #16
	movk	x22, #28005, lsl #32
	movk	x22, #29551, lsl #48
	mov	x23, #29281
	movk	x23, #28261, lsl #16
	movk	x23, #26469, lsl #32
	movk	x23, #27769, lsl #48
	mov	x24, #28525
	movk	x24, #28260, lsl #16
	movk	x24, #29281, lsl #32
	movk	x24, #25711, lsl #48
	stp	xzr, xzr, [sp, #32]
Lunix_path_loh68:
	adrp	x8, lunix_path_CPI53_0@PAGE
Lunix_path_loh69:
	ldr	q0, [x8, lunix_path_CPI53_0@PAGEOFF]
Lunix_path_loh70:
	adrp	x8, lunix_path_CPI53_1@PAGE
Lunix_path_loh71:
	ldr	q1, [x8, lunix_path_CPI53_1@PAGEOFF]
	mov	w8, #4096
	cmp	x0, #0
	csel	x8, x8, xzr, eq
	stp	q0, q1, [sp]
	cbz	x1, Lunix_path_BB53_15
	mov	x20, x1
	add	x19, x0, x8
	ldrb	w8, [x19]
	cmp	w8, #47
	b.eq	Lunix_path_BB53_4
	cmp	w8, #46
	b.ne	Lunix_path_BB53_5
	cmp	x20, #1
	b.ne	Lunix_path_BB53_6
Lunix_path_BB53_4:
	mov	w26, #1
	b	Lunix_path_BB53_7
Lunix_path_BB53_5:
	mov	w26, #0
	b	Lunix_path_BB53_7
Lunix_path_BB53_6:
	ldrb	w8, [x19, #1]
	cmp	w8, #47
	cset	w26, eq
Lunix_path_BB53_7:
	mov	x21, x20
	b	Lunix_path_BB53_9
Lunix_path_BB53_8:
	mov	x21, x1
	cbz	x1, Lunix_path_BB53_15
Lunix_path_BB53_9:
	subs	x1, x21, #1
	b.eq	Lunix_path_BB53_16
	add	x8, x19, x1
	ldrb	w9, [x8]
	cmp	w9, #47
	b.eq	Lunix_path_BB53_13
	cmp	w9, #46
	b.ne	Lunix_path_BB53_16
	ldurb	w8, [x8, #-1]
	cmp	w8, #47
	b.ne	Lunix_path_BB53_16
Lunix_path_BB53_13:
	sub	x8, x20, x1
	cmp	x8, #8
	b.ne	Lunix_path_BB53_8
	mov	x0, x19
	bl	_unix_path.filler.trimmed_blocks_len
	mov	x1, x0
	b	Lunix_path_BB53_8
Lunix_path_BB53_15:
	mov	x8, #0
	b	Lunix_path_BB53_81
Lunix_path_BB53_16:
	mov	x22, #0
	mov	x8, x21
	b	Lunix_path_BB53_23
Lunix_path_BB53_17:
	mov	x9, x10
Lunix_path_BB53_18:
	add	x8, x9, #1
Lunix_path_BB53_19:
	ldrb	w9, [x20]
	add	x22, x8, x22
Lunix_path_loh72:
	adrp	x8, lunix_path__static.5@PAGE
Lunix_path_loh73:
	add	x8, x8, lunix_path__static.5@PAGEOFF
Lunix_path_loh74:
	adrp	x10, lunix_path__static.8@PAGE
Lunix_path_loh75:
	add	x10, x10, lunix_path__static.8@PAGEOFF
	cmp	w9, #47
	csel	x20, x10, x8, eq
Lunix_path_BB53_20:
	ldrb	w8, [x20]
	mov	w9, #12032
Lunix_path_BB53_21:
	orr	x8, x8, x9
Lunix_path_BB53_22:
	str	x8, [sp, #56]
	mov	x0, sp
	add	x1, sp, #56
	bl	_core.hash.sip.DefaultHasherHasher.write
	mov	w26, #0
	subs	x8, x21, x22
	b.eq	Lunix_path_BB53_80
Lunix_path_BB53_23:
	add	x20, x19, x22
	tbz	w26, #0, Lunix_path_BB53_31
	subs	x10, x8, #1
	b.eq	Lunix_path_BB53_19
	mov	x9, #0
	add	x11, x20, #1
	sub	x8, x8, #2
	b	Lunix_path_BB53_27
Lunix_path_BB53_26:
	add	x9, x9, #1
	cmp	x10, x9
	b.eq	Lunix_path_BB53_17
Lunix_path_BB53_27:
	ldrb	w12, [x11, x9]
	cmp	w12, #47
	b.eq	Lunix_path_BB53_26
	cmp	w12, #46
	b.ne	Lunix_path_BB53_18
	cmp	x8, x9
	b.eq	Lunix_path_BB53_17
	add	x12, x11, x9
	ldrb	w12, [x12, #1]
	cmp	w12, #47
	b.eq	Lunix_path_BB53_26
	b	Lunix_path_BB53_18
Lunix_path_BB53_31:
	cmp	x8, #1
	b.eq	Lunix_path_BB53_37
	ldrb	w9, [x20]
	cmp	w9, #46
	b.ne	Lunix_path_BB53_37
	ldrb	w9, [x20, #1]
	cmp	w9, #46
	b.ne	Lunix_path_BB53_37
	subs	x9, x8, #2
	b.eq	Lunix_path_BB53_73
	add	x11, x19, x22
	ldrb	w10, [x11, #2]!
	cmp	w10, #47
	b.ne	Lunix_path_BB53_37
	mov	x10, #0
	sub	x8, x8, #3
	b	Lunix_path_BB53_43
Lunix_path_BB53_37:
	cmp	x8, #15
	b.hi	Lunix_path_BB53_47
	mov	x23, #0
Lunix_path_BB53_39:
	ldrb	w9, [x20, x23]
	cmp	w9, #47
	b.eq	Lunix_path_BB53_52
	add	x23, x23, #1
	cmp	x8, x23
	b.ne	Lunix_path_BB53_39
	mov	x23, x8
	mov	x24, #0
	subs	x8, x8, x8
	b.ne	Lunix_path_BB53_53
	b	Lunix_path_BB53_60
Lunix_path_BB53_42:
	add	x10, x10, #1
	cmp	x9, x10
	b.eq	Lunix_path_BB53_71
Lunix_path_BB53_43:
	ldrb	w12, [x11, x10]
	cmp	w12, #47
	b.eq	Lunix_path_BB53_42
	cmp	w12, #46
	b.ne	Lunix_path_BB53_72
	cmp	x8, x10
	b.eq	Lunix_path_BB53_71
	add	x12, x11, x10
	ldrb	w12, [x12, #1]
	cmp	w12, #47
	b.eq	Lunix_path_BB53_42
	b	Lunix_path_BB53_72
Lunix_path_BB53_47:
	adrp	x10, lunix_path_CPI53_2@PAGE
	subs	x9, x8, #16
	b.eq	Lunix_path_BB53_51
	mov	x11, #0
Lunix_path_BB53_49:
	ldr	q0, [x20, x11]
	movi.16b	v1, #47
	cmeq.16b	v0, v0, v1
	ldr	q1, [x10, lunix_path_CPI53_2@PAGEOFF]
	and.16b	v0, v0, v1
	addp.16b	v0, v0, v0
	addp.16b	v0, v0, v0
	addp.16b	v0, v0, v0
	umov.h	w12, v0[0]
	orr	w12, w12, #0x10000
	rbit	w12, w12
	clz	w12, w12
	cmp	w12, #15
	b.ls	Lunix_path_BB53_68
	add	x11, x11, #16
	cmp	x11, x9
	b.lo	Lunix_path_BB53_49
Lunix_path_BB53_51:
	ldr	q0, [x20, x9]
	movi.16b	v1, #47
	cmeq.16b	v0, v0, v1
	ldr	q1, [x10, lunix_path_CPI53_2@PAGEOFF]
	and.16b	v0, v0, v1
	addp.16b	v0, v0, v0
	addp.16b	v0, v0, v0
	addp.16b	v0, v0, v0
	umov.h	w10, v0[0]
	orr	w10, w10, #0x10000
	rbit	w10, w10
	clz	w10, w10
	add	x23, x9, x10
Lunix_path_BB53_52:
	mov	x24, #0
	subs	x8, x8, x23
	b.eq	Lunix_path_BB53_60
Lunix_path_BB53_53:
	add	x9, x20, x23
	sub	x10, x8, #1
	b	Lunix_path_BB53_55
Lunix_path_BB53_54:
	add	x24, x24, #1
	cmp	x8, x24
	b.eq	Lunix_path_BB53_59
Lunix_path_BB53_55:
	ldrb	w11, [x9, x24]
	cmp	w11, #47
	b.eq	Lunix_path_BB53_54
	cmp	w11, #46
	b.ne	Lunix_path_BB53_60
	cmp	x10, x24
	b.eq	Lunix_path_BB53_59
	add	x11, x9, x24
	ldrb	w11, [x11, #1]
	cmp	w11, #47
	b.eq	Lunix_path_BB53_54
	b	Lunix_path_BB53_60
Lunix_path_BB53_59:
	mov	x24, x8
Lunix_path_BB53_60:
	mov	x25, x23
	cmp	x23, #8
	b.lo	Lunix_path_BB53_62
Lunix_path_BB53_61:
	mov	x0, sp
	mov	x1, x20
	bl	_core.hash.sip.DefaultHasherHasher.write
	add	x20, x20, #8
	sub	x25, x25, #8
	cmp	x25, #7
	b.hi	Lunix_path_BB53_61
Lunix_path_BB53_62:
	add	x8, x23, x22
	add	x22, x8, x24
	cbz	x25, Lunix_path_BB53_67
	cmp	x25, #1
	b.eq	Lunix_path_BB53_20
	cmp	x25, #2
	b.ls	Lunix_path_BB53_74
	cmp	x25, #3
	b.ne	Lunix_path_BB53_69
	ldrb	w8, [x20, #2]
	ldrh	w9, [x20]
	orr	x8, x9, x8, lsl #16
	mov	w9, #788529152
	b	Lunix_path_BB53_21
Lunix_path_BB53_67:
	mov	w8, #47
	b	Lunix_path_BB53_22
Lunix_path_BB53_68:
	add	x23, x11, w12, uxtw
	mov	x24, #0
	subs	x8, x8, x23
	b.ne	Lunix_path_BB53_53
	b	Lunix_path_BB53_60
Lunix_path_BB53_69:
	cmp	x25, #4
	b.hi	Lunix_path_BB53_75
	ldr	w8, [x20]
	mov	x9, #201863462912
	b	Lunix_path_BB53_21
Lunix_path_BB53_71:
	mov	x10, x9
Lunix_path_BB53_72:
	add	x8, x10, #2
Lunix_path_BB53_73:
	add	x22, x8, x22
Lunix_path_loh76:
	adrp	x20, lunix_path__static.10@PAGE
Lunix_path_loh77:
	add	x20, x20, lunix_path__static.10@PAGEOFF
Lunix_path_BB53_74:
	ldrh	w8, [x20]
	mov	w9, #3080192
	b	Lunix_path_BB53_21
Lunix_path_BB53_75:
	cmp	x25, #7
	b.eq	Lunix_path_BB53_78
	cmp	x25, #5
	b.ne	Lunix_path_BB53_79
	ldrb	w8, [x20]
	ldur	w9, [x20, #1]
	orr	x8, x8, x9, lsl #8
	mov	x9, #51677046505472
	b	Lunix_path_BB53_21
Lunix_path_BB53_78:
	ldrb	w8, [x20, #2]
	ldur	w9, [x20, #3]
	ldrh	w10, [x20]
	orr	x8, x10, x8, lsl #16
	orr	x8, x8, x9, lsl #24
	mov	x9, #3386706919782612992
	b	Lunix_path_BB53_21
Lunix_path_BB53_79:
	ldur	w8, [x20, #2]
	ldrh	w9, [x20]
	orr	x8, x9, x8, lsl #16
	mov	x9, #13229323905400832
	b	Lunix_path_BB53_21
Lunix_path_BB53_80:
	ldp	x22, x24, [sp]
	ldp	x23, x25, [sp, #16]
	ldp	x9, x8, [sp, #32]
	orr	x8, x9, x8, lsl #56
Lunix_path_BB53_81:
	eor	x9, x8, x25
	add	x10, x22, x24
	eor	x11, x10, x24, ror #51
	ror	x10, x10, #32
	add	x12, x9, x23
	add	x13, x12, x11
	eor	x9, x12, x9, ror #48
	eor	x11, x13, x11, ror #47
	ror	x12, x13, #32
	add	x10, x9, x10
	eor	x8, x10, x8
	eor	x9, x10, x9, ror #43
	eor	x10, x12, #0xff
	add	x8, x8, x11
	eor	x11, x8, x11, ror #51
	add	x10, x9, x10
	add	x12, x11, x10
	eor	x9, x10, x9, ror #48
	ror	x8, x8, #32
	eor	x10, x12, x11, ror #47
	add	x8, x9, x8
	add	x11, x10, x8
	eor	x8, x8, x9, ror #43
	ror	x9, x12, #32
	eor	x10, x11, x10, ror #51
	add	x9, x8, x9
	add	x12, x10, x9
	eor	x8, x9, x8, ror #48
	ror	x9, x11, #32
	eor	x10, x12, x10, ror #47
	add	x9, x8, x9
	add	x11, x10, x9
	eor	x8, x9, x8, ror #43
	ror	x9, x12, #32
	eor	x10, x11, x10, ror #51
	add	x9, x8, x9
	add	x11, x10, x9
	eor	x8, x9, x8, ror #48
	ror	x8, x8, #43
	eor	x8, x8, x10, ror #47
	eor	x8, x8, x11, ror #32
	eor	x0, x8, x11
	ldp	x29, x30, [sp, #128]
	ldp	x20, x19, [sp, #112]
	ldp	x22, x21, [sp, #96]
	ldp	x24, x23, [sp, #80]
	ldp	x26, x25, [sp, #64]
	add	sp, sp, #144
	ret
	.loh AdrpLdr	Lunix_path_loh70, Lunix_path_loh71
	.loh AdrpAdrp	Lunix_path_loh68, Lunix_path_loh70
	.loh AdrpLdr	Lunix_path_loh68, Lunix_path_loh69
	.loh AdrpAdd	Lunix_path_loh74, Lunix_path_loh75
	.loh AdrpAdd	Lunix_path_loh72, Lunix_path_loh73
	.loh AdrpAdd	Lunix_path_loh76, Lunix_path_loh77
	.globl	_unix_path_is_absolute
	.p2align	2
_unix_path_is_absolute:
	cbz	x1, Lunix_path_BB54_2
	mov	w8, #4096
	cmp	x0, #0
	csel	x8, x8, xzr, eq
	ldrb	w8, [x0, x8]
	cmp	w8, #47
	cset	w0, eq
	ret
Lunix_path_BB54_2:
	mov	w0, #0
	ret
	.globl	_unix_path_is_canonical
	.p2align	2
_unix_path_is_canonical:
	stp	x29, x30, [sp, #-16]!
	mov	x29, sp
	mov	w8, #4096
	cmp	x0, #0
	csel	x8, x8, xzr, eq
	add	x0, x0, x8
	bl	_path_runs.canonical.is_canonical
	ldp	x29, x30, [sp], #16
	ret
	.globl	_unix_path_is_utf8
	.p2align	2
_unix_path_is_utf8:
	stp	x20, x19, [sp, #-32]!
	stp	x29, x30, [sp, #16]
	add	x29, sp, #16
	mov	x19, x1
	mov	w8, #4096
	cmp	x0, #0
	csel	x8, x8, xzr, eq
	add	x0, x0, x8
	cmp	x1, #31
	b.hi	Lunix_path_BB56_2
	mov	x1, x19
	mov	x2, #0
	bl	_unix_bytes.utf8.scans.scan_by_sequence
	cmp	x0, x19
	cset	w0, hs
	ldp	x29, x30, [sp, #16]
	ldp	x20, x19, [sp], #32
	ret
Lunix_path_BB56_2:
	mov	x1, x19
	mov	x2, #0
	bl	_unix_bytes.utf8.scans.scan_by_window
	cmp	x0, x19
	cset	w0, hs
	ldp	x29, x30, [sp, #16]
	ldp	x20, x19, [sp], #32
	ret
	.globl	_unix_path_key
	.p2align	2
_unix_path_key:
	stp	x26, x25, [sp, #-80]!
	stp	x24, x23, [sp, #16]
	stp	x22, x21, [sp, #32]
	stp	x20, x19, [sp, #48]
	stp	x29, x30, [sp, #64]
	add	x29, sp, #64
	mov	x23, x3
	mov	x22, x2
	mov	x20, x1
	mov	w8, #4096
	cmp	x0, #0
	csel	x9, x8, xzr, eq
	add	x21, x0, x9
	cmp	x2, #0
	csel	x26, x8, xzr, eq
	add	x19, x1, #2
	cmp	x19, x3
	b.ls	Lunix_path_BB57_36
	cbz	x20, Lunix_path_BB57_7
	ldrb	w8, [x21]
	cmp	w8, #47
	b.eq	Lunix_path_BB57_6
	cmp	w8, #46
	b.ne	Lunix_path_BB57_7
	cmp	x20, #1
	b.eq	Lunix_path_BB57_6
	ldrb	w8, [x21, #1]
	cmp	w8, #47
	b.ne	Lunix_path_BB57_7
Lunix_path_BB57_6:
	mov	w19, #2
	b	Lunix_path_BB57_8
Lunix_path_BB57_7:
	mov	x19, #0
Lunix_path_BB57_8:
	mov	x2, #0
	b	Lunix_path_BB57_10
Lunix_path_BB57_9:
	mov	w8, #1
	add	x2, x8, x2
	cmp	x2, #4
	b.hs	Lunix_path_BB57_16
Lunix_path_BB57_10:
	cmp	x2, x20
	b.hs	Lunix_path_BB57_17
	ldrb	w8, [x21, x2]
	cmp	w8, #47
	b.eq	Lunix_path_BB57_9
	cmp	w8, #46
	b.ne	Lunix_path_BB57_17
	add	x8, x2, #1
	cmp	x8, x20
	b.eq	Lunix_path_BB57_9
	ldrb	w8, [x21, x8]
	cmp	w8, #47
	b.ne	Lunix_path_BB57_17
	mov	w8, #2
	add	x2, x8, x2
	cmp	x2, #4
	b.lo	Lunix_path_BB57_10
Lunix_path_BB57_16:
	mov	x0, x21
	mov	x1, x20
	bl	_unix_path.filler.filler_end_from
	mov	x2, x0
Lunix_path_BB57_17:
	subs	x25, x20, x2
	b.eq	Lunix_path_BB57_36
	add	x24, x21, x2
	b	Lunix_path_BB57_21
Lunix_path_BB57_19:
	mov	x0, x24
	mov	x1, x25
	bl	_unix_path.filler.filler_end_from
	mov	x2, x0
Lunix_path_BB57_20:
	add	x24, x24, x2
	subs	x25, x25, x2
	b.eq	Lunix_path_BB57_36
Lunix_path_BB57_21:
	mov	x0, x24
	mov	x1, x25
	bl	_path_keys.encode.run_len
	cmp	x25, #1
	b.eq	Lunix_path_BB57_27
	ldrb	w8, [x24]
	cmp	w8, #46
	b.ne	Lunix_path_BB57_27
	ldrb	w8, [x24, #1]
	cmp	w8, #46
	b.ne	Lunix_path_BB57_27
	cmp	x25, #2
	b.eq	Lunix_path_BB57_26
	ldrb	w8, [x24, #2]
	cmp	w8, #47
	b.ne	Lunix_path_BB57_27
Lunix_path_BB57_26:
	mov	w8, #2
	b	Lunix_path_BB57_28
Lunix_path_BB57_27:
	add	x8, x0, #1
Lunix_path_BB57_28:
	mov	x2, #0
	add	x19, x8, x19
	add	x24, x24, x0
	sub	x25, x25, x0
	b	Lunix_path_BB57_30
Lunix_path_BB57_29:
	mov	w8, #1
	add	x2, x8, x2
	cmp	x2, #4
	b.hs	Lunix_path_BB57_19
Lunix_path_BB57_30:
	cmp	x2, x25
	b.hs	Lunix_path_BB57_20
	ldrb	w8, [x24, x2]
	cmp	w8, #47
	b.eq	Lunix_path_BB57_29
	cmp	w8, #46
	b.ne	Lunix_path_BB57_20
	add	x8, x2, #1
	cmp	x8, x25
	b.eq	Lunix_path_BB57_29
	ldrb	w8, [x24, x8]
	cmp	w8, #47
	b.ne	Lunix_path_BB57_20
	mov	w8, #2
	add	x2, x8, x2
	cmp	x2, #4
	b.lo	Lunix_path_BB57_30
	b	Lunix_path_BB57_19
Lunix_path_BB57_36:
	cmp	x23, x19
	b.lo	Lunix_path_BB57_80
	add	x22, x22, x26
	cbz	x20, Lunix_path_BB57_43
	ldrb	w8, [x21]
	cmp	w8, #47
	b.eq	Lunix_path_BB57_42
	cmp	w8, #46
	b.ne	Lunix_path_BB57_43
	cmp	x20, #1
	b.eq	Lunix_path_BB57_42
	ldrb	w9, [x21, #1]
	cmp	w9, #47
	b.ne	Lunix_path_BB57_43
Lunix_path_BB57_42:
	mov	w9, #512
	mov	w10, #256
	cmp	w8, #47
	csel	w8, w10, w9, eq
	strh	w8, [x22]
	mov	w19, #2
	b	Lunix_path_BB57_44
Lunix_path_BB57_43:
	mov	x19, #0
Lunix_path_BB57_44:
	mov	x2, #0
	b	Lunix_path_BB57_46
Lunix_path_BB57_45:
	mov	w8, #1
	add	x2, x8, x2
	cmp	x2, #4
	b.hs	Lunix_path_BB57_52
Lunix_path_BB57_46:
	cmp	x2, x20
	b.hs	Lunix_path_BB57_53
	ldrb	w8, [x21, x2]
	cmp	w8, #47
	b.eq	Lunix_path_BB57_45
	cmp	w8, #46
	b.ne	Lunix_path_BB57_53
	add	x8, x2, #1
	cmp	x8, x20
	b.eq	Lunix_path_BB57_45
	ldrb	w8, [x21, x8]
	cmp	w8, #47
	b.ne	Lunix_path_BB57_53
	mov	w8, #2
	add	x2, x8, x2
	cmp	x2, #4
	b.lo	Lunix_path_BB57_46
Lunix_path_BB57_52:
	mov	x0, x21
	mov	x1, x20
	bl	_unix_path.filler.filler_end_from
	mov	x2, x0
Lunix_path_BB57_53:
	subs	x20, x20, x2
	b.eq	Lunix_path_BB57_80
	add	x21, x21, x2
	b	Lunix_path_BB57_57
Lunix_path_BB57_55:
	mov	x0, x21
	mov	x1, x20
	bl	_unix_path.filler.filler_end_from
	mov	x2, x0
Lunix_path_BB57_56:
	add	x21, x21, x2
	subs	x20, x20, x2
	b.eq	Lunix_path_BB57_80
Lunix_path_BB57_57:
	mov	x0, x21
	mov	x1, x20
	bl	_path_keys.encode.run_len
	cmp	x20, #1
	b.eq	Lunix_path_BB57_63
	ldrb	w8, [x21]
	cmp	w8, #46
	b.ne	Lunix_path_BB57_63
	ldrb	w8, [x21, #1]
	cmp	w8, #46
	b.ne	Lunix_path_BB57_63
	cmp	x20, #2
	b.eq	Lunix_path_BB57_62
	ldrb	w8, [x21, #2]
	cmp	w8, #47
	b.ne	Lunix_path_BB57_63
Lunix_path_BB57_62:
	mov	w8, #768
	strh	w8, [x22, x19]
	mov	w8, #2
	b	Lunix_path_BB57_72
Lunix_path_BB57_63:
	cmp	x0, #15
	b.hi	Lunix_path_BB57_67
	cbz	x0, Lunix_path_BB57_71
	add	x8, x22, x19
	mov	x9, x21
	mov	x10, x0
Lunix_path_BB57_66:
	ldrb	w11, [x9], #1
	cmp	w11, #47
	cinc	w11, w11, lo
	csel	w11, wzr, w11, eq
	strb	w11, [x8], #1
	subs	x10, x10, #1
	b.ne	Lunix_path_BB57_66
	b	Lunix_path_BB57_71
Lunix_path_BB57_67:
	subs	x8, x0, #16
	b.eq	Lunix_path_BB57_70
	mov	x9, #0
	add	x10, x22, x19
Lunix_path_BB57_69:
	ldr	q0, [x21, x9]
	movi.16b	v1, #47
	cmhi.16b	v2, v1, v0
	sub.16b	v2, v0, v2
	cmeq.16b	v0, v0, v1
	bic.16b	v0, v2, v0
	str	q0, [x10, x9]
	add	x9, x9, #16
	cmp	x9, x8
	b.lo	Lunix_path_BB57_69
Lunix_path_BB57_70:
	ldr	q0, [x21, x8]
	movi.16b	v1, #47
	cmhi.16b	v2, v1, v0
	sub.16b	v2, v0, v2
	cmeq.16b	v0, v0, v1
	bic.16b	v0, v2, v0
	add	x9, x22, x19
	str	q0, [x9, x8]
Lunix_path_BB57_71:
	add	x8, x22, x19
	strb	wzr, [x8, x0]
	add	x8, x0, #1
Lunix_path_BB57_72:
	mov	x2, #0
	add	x19, x8, x19
	add	x21, x21, x0
	sub	x20, x20, x0
	b	Lunix_path_BB57_74
Lunix_path_BB57_73:
	mov	w8, #1
	add	x2, x8, x2
	cmp	x2, #4
	b.hs	Lunix_path_BB57_55
Lunix_path_BB57_74:
	cmp	x2, x20
	b.hs	Lunix_path_BB57_56
	ldrb	w8, [x21, x2]
	cmp	w8, #47
	b.eq	Lunix_path_BB57_73
	cmp	w8, #46
	b.ne	Lunix_path_BB57_56
	add	x8, x2, #1
	cmp	x8, x20
	b.eq	Lunix_path_BB57_73
	ldrb	w8, [x21, x8]
	cmp	w8, #47
	b.ne	Lunix_path_BB57_56
	mov	w8, #2
	add	x2, x8, x2
	cmp	x2, #4
	b.lo	Lunix_path_BB57_74
	b	Lunix_path_BB57_55
Lunix_path_BB57_80:
	mov	x0, x19
	ldp	x29, x30, [sp, #64]
	ldp	x20, x19, [sp, #48]
	ldp	x22, x21, [sp, #32]
	ldp	x24, x23, [sp, #16]
	ldp	x26, x25, [sp], #80
	ret
	.section	__TEXT,__literal16,16byte_literals
	.p2align	4, 0x0
lunix_path_CPI58_0:
	.byte	1
	.byte	2
	.byte	4
	.byte	8
	.byte	16
	.byte	32
	.byte	64
	.byte	128
	.byte	1
	.byte	2
	.byte	4
	.byte	8
	.byte	16
	.byte	32
	.byte	64
	.byte	128
	.section	__TEXT,__text,regular,pure_instructions
	.globl	_unix_path_next
	.p2align	2
_unix_path_next:
	mov	w8, #0
	mov	w9, #4096
	cmp	x0, #0
	csel	x10, x9, xzr, eq
	ldp	x9, x12, [x2]
	subs	x11, x12, x9
	cset	w13, lo
	cmp	x1, x12
	csinc	w12, w13, wzr, hs
	add	x0, x0, x10
	add	x10, x0, x9
Lunix_path_loh78:
	adrp	x13, lunix_path__static.0@PAGE
Lunix_path_loh79:
	add	x13, x13, lunix_path__static.0@PAGEOFF
	cmp	w12, #0
	csel	x10, x13, x10, ne
	tbnz	w12, #0, Lunix_path_BB58_45
	cbz	x11, Lunix_path_BB58_45
	stp	x29, x30, [sp, #-16]!
	mov	x29, sp
	ldrb	w8, [x10]
	cmp	w8, #47
	b.eq	Lunix_path_BB58_10
	cmp	w8, #46
	b.ne	Lunix_path_BB58_6
	subs	x12, x11, #1
	b.eq	Lunix_path_BB58_10
	ldrb	w13, [x10, #1]
	cmp	w13, #47
	b.ne	Lunix_path_BB58_7
	b	Lunix_path_BB58_10
Lunix_path_BB58_6:
	subs	x12, x11, #1
	b.eq	Lunix_path_BB58_18
Lunix_path_BB58_7:
	add	x12, x10, x12
	ldrb	w13, [x12]
	cmp	w13, #47
	b.eq	Lunix_path_BB58_10
	cmp	w13, #46
	b.ne	Lunix_path_BB58_11
	ldurb	w12, [x12, #-1]
	cmp	w12, #47
	b.ne	Lunix_path_BB58_11
Lunix_path_BB58_10:
	bl	_unix_path_c.walks.take_first
	mov	x8, x0
	b	Lunix_path_BB58_44
Lunix_path_BB58_11:
	cmp	w8, #46
	b.ne	Lunix_path_BB58_17
	ldrb	w8, [x10, #1]
	cmp	w8, #46
	b.ne	Lunix_path_BB58_17
	subs	x12, x11, #2
	b.ne	Lunix_path_BB58_15
	mov	w8, #2
	mov	w10, #2
	b	Lunix_path_BB58_43
Lunix_path_BB58_15:
	ldrb	w8, [x10, #2]
	cmp	w8, #47
	b.ne	Lunix_path_BB58_17
	mov	x8, #0
	sub	x11, x11, #3
	b	Lunix_path_BB58_23
Lunix_path_BB58_17:
	cmp	x11, #15
	b.hi	Lunix_path_BB58_27
Lunix_path_BB58_18:
	mov	x8, #0
Lunix_path_BB58_19:
	ldrb	w12, [x10, x8]
	cmp	w12, #47
	b.eq	Lunix_path_BB58_33
	add	x8, x8, #1
	cmp	x11, x8
	b.ne	Lunix_path_BB58_19
	mov	x8, x11
	b	Lunix_path_BB58_33
Lunix_path_BB58_22:
	add	x8, x8, #1
	cmp	x12, x8
	b.eq	Lunix_path_BB58_46
Lunix_path_BB58_23:
	add	x13, x10, x8
	ldrb	w13, [x13, #2]
	cmp	w13, #47
	b.eq	Lunix_path_BB58_22
	cmp	w13, #46
	b.ne	Lunix_path_BB58_47
	cmp	x11, x8
	b.eq	Lunix_path_BB58_46
	add	x13, x10, x8
	ldrb	w13, [x13, #3]
	cmp	w13, #47
	b.eq	Lunix_path_BB58_22
	b	Lunix_path_BB58_47
Lunix_path_BB58_27:
	adrp	x12, lunix_path_CPI58_0@PAGE
	subs	x8, x11, #16
	b.eq	Lunix_path_BB58_31
	mov	x13, #0
Lunix_path_BB58_29:
	ldr	q0, [x10, x13]
	movi.16b	v1, #47
	cmeq.16b	v0, v0, v1
	ldr	q1, [x12, lunix_path_CPI58_0@PAGEOFF]
	and.16b	v0, v0, v1
	addp.16b	v0, v0, v0
	addp.16b	v0, v0, v0
	addp.16b	v0, v0, v0
	umov.h	w14, v0[0]
	orr	w14, w14, #0x10000
	rbit	w14, w14
	clz	w14, w14
	cmp	w14, #15
	b.ls	Lunix_path_BB58_32
	add	x13, x13, #16
	cmp	x13, x8
	b.lo	Lunix_path_BB58_29
Lunix_path_BB58_31:
	ldr	q0, [x10, x8]
	movi.16b	v1, #47
	cmeq.16b	v0, v0, v1
	ldr	q1, [x12, lunix_path_CPI58_0@PAGEOFF]
	and.16b	v0, v0, v1
	addp.16b	v0, v0, v0
	addp.16b	v0, v0, v0
	addp.16b	v0, v0, v0
	umov.h	w12, v0[0]
	orr	w12, w12, #0x10000
	rbit	w12, w12
	clz	w12, w12
	add	x8, x8, x12
	b	Lunix_path_BB58_33
Lunix_path_BB58_32:
	add	x8, x13, w14, uxtw
Lunix_path_BB58_33:
	subs	x12, x11, x8
	b.eq	Lunix_path_BB58_40
	mov	x11, #0
	add	x10, x10, x8
	sub	x13, x12, #1
	b	Lunix_path_BB58_36
Lunix_path_BB58_35:
	add	x11, x11, #1
	cmp	x12, x11
	b.eq	Lunix_path_BB58_41
Lunix_path_BB58_36:
	ldrb	w14, [x10, x11]
	cmp	w14, #47
	b.eq	Lunix_path_BB58_35
	cmp	w14, #46
	b.ne	Lunix_path_BB58_42
	cmp	x13, x11
	b.eq	Lunix_path_BB58_41
	add	x14, x10, x11
	ldrb	w14, [x14, #1]
	cmp	w14, #47
	b.eq	Lunix_path_BB58_35
	b	Lunix_path_BB58_42
Lunix_path_BB58_40:
	mov	x11, #0
	b	Lunix_path_BB58_42
Lunix_path_BB58_41:
	mov	x11, x12
Lunix_path_BB58_42:
	add	x10, x11, x8
	mov	w11, #3
Lunix_path_BB58_43:
	stp	x9, x8, [x3]
	stp	w11, wzr, [x3, #16]
	ldr	x8, [x2]
	add	x8, x8, x10
	str	x8, [x2]
	mov	w8, #1
Lunix_path_BB58_44:
	ldp	x29, x30, [sp], #16
Lunix_path_BB58_45:
	mov	x0, x8
	ret
Lunix_path_BB58_46:
	mov	x8, x12
Lunix_path_BB58_47:
	add	x10, x8, #2
	mov	w8, #2
	mov	w11, #2
	b	Lunix_path_BB58_43
	.loh AdrpAdd	Lunix_path_loh78, Lunix_path_loh79
	.globl	_unix_path_next_ancestor
	.p2align	2
_unix_path_next_ancestor:
	stp	x22, x21, [sp, #-48]!
	stp	x20, x19, [sp, #16]
	stp	x29, x30, [sp, #32]
	add	x29, sp, #32
	mov	x19, x1
	ldr	x21, [x2]
	cmp	x1, x21
	b.lo	Lunix_path_BB59_2
	mov	x20, x3
	mov	x22, x2
	mov	w8, #4096
	cmp	x0, #0
	csel	x8, x8, xzr, eq
	add	x0, x0, x8
	mov	x1, x21
	bl	_unix_path.path.Path.parent_len
	and	w8, w0, #0xff
	cmp	w8, #1
	csinv	x8, x1, xzr, eq
	str	x8, [x22]
	stp	xzr, x21, [x20]
Lunix_path_BB59_2:
	cmp	x19, x21
	cset	w0, hs
	ldp	x29, x30, [sp, #32]
	ldp	x20, x19, [sp, #16]
	ldp	x22, x21, [sp], #48
	ret
	.section	__TEXT,__literal16,16byte_literals
	.p2align	4, 0x0
lunix_path_CPI60_0:
	.byte	1
	.byte	2
	.byte	4
	.byte	8
	.byte	16
	.byte	32
	.byte	64
	.byte	128
	.byte	1
	.byte	2
	.byte	4
	.byte	8
	.byte	16
	.byte	32
	.byte	64
	.byte	128
	.section	__TEXT,__literal8,8byte_literals
	.p2align	3, 0x0
lunix_path_CPI60_1:
	.long	3
	.long	0
	.section	__TEXT,__text,regular,pure_instructions
	.globl	_unix_path_next_back
	.p2align	2
_unix_path_next_back:
	mov	w8, #0
	mov	w9, #4096
	cmp	x0, #0
	csel	x11, x9, xzr, eq
	ldp	x9, x12, [x2]
	subs	x10, x12, x9
	cset	w13, lo
	cmp	x1, x12
	csinc	w12, w13, wzr, hs
	add	x0, x0, x11
	add	x11, x0, x9
Lunix_path_loh80:
	adrp	x13, lunix_path__static.0@PAGE
Lunix_path_loh81:
	add	x13, x13, lunix_path__static.0@PAGEOFF
	cmp	w12, #0
	csel	x11, x13, x11, ne
	tbnz	w12, #0, Lunix_path_BB60_18
	cbz	x10, Lunix_path_BB60_18
	stp	x29, x30, [sp, #-16]!
	mov	x29, sp
	add	x8, x11, x10
	ldurb	w8, [x8, #-1]
	sub	w8, w8, #48
	cmn	w8, #3
	b.hi	Lunix_path_BB60_14
	sub	x12, x11, #16
	mov	x8, x10
Lunix_path_BB60_4:
	cmp	x8, #15
	b.ls	Lunix_path_BB60_8
	ldr	q0, [x12, x8]
	sub	x13, x8, #16
	movi.16b	v1, #47
	cmeq.16b	v0, v0, v1
Lunix_path_loh82:
	adrp	x8, lunix_path_CPI60_0@PAGE
Lunix_path_loh83:
	ldr	q1, [x8, lunix_path_CPI60_0@PAGEOFF]
	and.16b	v0, v0, v1
	addp.16b	v0, v0, v0
	addp.16b	v0, v0, v0
	addp.16b	v0, v0, v0
	umov.h	w14, v0[0]
	mov	x8, x13
	cbz	w14, Lunix_path_BB60_4
	umov.h	w8, v0[0]
	and	x8, x8, #0xffff
	clz	x8, x8
	sub	x8, x13, x8
	add	x8, x8, #64
	cmp	x8, #2
	b.hs	Lunix_path_BB60_12
Lunix_path_BB60_7:
	mov	w11, #1
	mov	w8, #1
	b	Lunix_path_BB60_16
Lunix_path_BB60_8:
	sub	x12, x11, #1
Lunix_path_BB60_9:
	cbz	x8, Lunix_path_BB60_15
	sub	x13, x8, #1
	ldrb	w14, [x12, x8]
	mov	x8, x13
	cmp	w14, #47
	b.ne	Lunix_path_BB60_9
	add	x8, x13, #1
	cmp	x8, #2
	b.lo	Lunix_path_BB60_7
Lunix_path_BB60_12:
	add	x11, x11, x8
	ldurb	w11, [x11, #-2]
	sub	w11, w11, #48
	cmn	w11, #3
	b.hi	Lunix_path_BB60_14
	sub	x11, x8, #1
	b	Lunix_path_BB60_16
Lunix_path_BB60_14:
	bl	_unix_path_c.walks.take_last
	mov	x8, x0
	b	Lunix_path_BB60_17
Lunix_path_BB60_15:
	mov	x11, #0
Lunix_path_BB60_16:
	add	x9, x8, x9
	sub	x8, x10, x8
	stp	x9, x8, [x3]
Lunix_path_loh84:
	adrp	x8, lunix_path_CPI60_1@PAGE
Lunix_path_loh85:
	ldr	d0, [x8, lunix_path_CPI60_1@PAGEOFF]
	str	d0, [x3, #16]
	ldr	x8, [x2]
	add	x8, x8, x11
	str	x8, [x2, #8]
	mov	w8, #1
Lunix_path_BB60_17:
	ldp	x29, x30, [sp], #16
Lunix_path_BB60_18:
	mov	x0, x8
	ret
	.loh AdrpAdd	Lunix_path_loh80, Lunix_path_loh81
	.loh AdrpLdr	Lunix_path_loh82, Lunix_path_loh83
	.loh AdrpLdr	Lunix_path_loh84, Lunix_path_loh85
	.section	__TEXT,__literal16,16byte_literals
	.p2align	4, 0x0
lunix_path_CPI61_0:
	.byte	1
	.byte	2
	.byte	4
	.byte	8
	.byte	16
	.byte	32
	.byte	64
	.byte	128
	.byte	1
	.byte	2
	.byte	4
	.byte	8
	.byte	16
	.byte	32
	.byte	64
	.byte	128
	.section	__TEXT,__text,regular,pure_instructions
	.globl	_unix_path_next_chunk
	.p2align	2
_unix_path_next_chunk:
	stp	x22, x21, [sp, #-48]!
	stp	x20, x19, [sp, #16]
	stp	x29, x30, [sp, #32]
	add	x29, sp, #32
	ldr	x19, [x2]
	cmp	x1, x19
	b.hs	Lunix_path_BB61_2
	mov	w0, #0
	ldp	x29, x30, [sp, #32]
	ldp	x20, x19, [sp, #16]
	ldp	x22, x21, [sp], #48
	ret
Lunix_path_BB61_2:
	mov	w8, #4096
	cmp	x0, #0
	csel	x8, x8, xzr, eq
	subs	x1, x1, x19
	b.ne	Lunix_path_BB61_4
	mov	w0, #0
	ldp	x29, x30, [sp, #32]
	ldp	x20, x19, [sp, #16]
	ldp	x22, x21, [sp], #48
	ret
Lunix_path_BB61_4:
	add	x8, x0, x8
	add	x8, x8, x19
	cmp	x1, #15
	b.hi	Lunix_path_BB61_6
	mov	x0, x8
	mov	x20, x2
	mov	x2, #0
	mov	x21, x3
	bl	_unix_bytes.utf8.scans.scan_by_sequence
	mov	x3, x21
	mov	x2, x20
	b	Lunix_path_BB61_17
Lunix_path_BB61_6:
	ldr	q0, [x8]
Lunix_path_loh86:
	adrp	x9, lunix_path_CPI61_0@PAGE
Lunix_path_loh87:
	ldr	q1, [x9, lunix_path_CPI61_0@PAGEOFF]
	cmlt.16b	v0, v0, #0
	and.16b	v0, v0, v1
	addp.16b	v0, v0, v0
	addp.16b	v0, v0, v0
	addp.16b	v0, v0, v0
	umov.h	w9, v0[0]
	cbz	w9, Lunix_path_BB61_11
	umov.h	w9, v0[0]
	orr	w9, w9, #0x10000
	rbit	w9, w9
	clz	w0, w9
	add	x9, x8, x0
	sub	x10, x1, x0
	ldrb	w11, [x9]
	sub	w11, w11, #194
	cmp	w11, #50
	ccmp	x10, #2, #0, ls
	b.lo	Lunix_path_BB61_10
	ldrsb	w9, [x9, #1]
	cmn	w9, #65
	b.gt	Lunix_path_BB61_10
	mov	x9, x0
	mov	x20, x3
	mov	x21, x2
	mov	x0, x8
	mov	x2, x9
	cmp	x10, #31
	b.ls	Lunix_path_BB61_13
	b	Lunix_path_BB61_15
Lunix_path_BB61_10:
	mov	w1, #1
	b	Lunix_path_BB61_17
Lunix_path_BB61_11:
	mov	x20, x3
	mov	x21, x2
	mov	x0, x8
	cmp	x1, #31
	b.hi	Lunix_path_BB61_14
	mov	x2, #0
Lunix_path_BB61_13:
	bl	_unix_bytes.utf8.scans.scan_by_sequence
	b	Lunix_path_BB61_16
Lunix_path_BB61_14:
	mov	x2, #0
Lunix_path_BB61_15:
	bl	_unix_bytes.utf8.scans.scan_by_window
Lunix_path_BB61_16:
	mov	x2, x21
	mov	x3, x20
Lunix_path_BB61_17:
	stp	x19, x0, [x3]
	str	x1, [x3, #16]
	add	x8, x0, x19
	add	x8, x8, x1
	str	x8, [x2]
	mov	w0, #1
	ldp	x29, x30, [sp, #32]
	ldp	x20, x19, [sp, #16]
	ldp	x22, x21, [sp], #48
	ret
	.loh AdrpLdr	Lunix_path_loh86, Lunix_path_loh87
	.globl	_unix_path_parent
	.p2align	2
_unix_path_parent:
	stp	x20, x19, [sp, #-32]!
	stp	x29, x30, [sp, #16]
	add	x29, sp, #16
	mov	x19, x2
	mov	w8, #4096
	cmp	x0, #0
	csel	x8, x8, xzr, eq
	add	x0, x0, x8
	bl	_unix_path.path.Path.parent_len
	and	w8, w0, #0xff
	cmp	w8, #1
	b.ne	Lunix_path_BB62_2
	stp	xzr, x1, [x19]
Lunix_path_BB62_2:
	cmp	w8, #1
	cset	w0, eq
	ldp	x29, x30, [sp, #16]
	ldp	x20, x19, [sp], #32
	ret
	.section	__TEXT,__literal16,16byte_literals
	.p2align	4, 0x0
lunix_path_CPI63_0:
	.byte	1
	.byte	2
	.byte	4
	.byte	8
	.byte	16
	.byte	32
	.byte	64
	.byte	128
	.byte	1
	.byte	2
	.byte	4
	.byte	8
	.byte	16
	.byte	32
	.byte	64
	.byte	128
	.section	__TEXT,__literal8,8byte_literals
	.p2align	3, 0x0
lunix_path_CPI63_1:
	.byte	1
	.byte	2
	.byte	4
	.byte	8
	.byte	16
	.byte	32
	.byte	64
	.byte	128
	.section	__TEXT,__text,regular,pure_instructions
	.globl	_unix_path_relative_path
	.p2align	2
_unix_path_relative_path:
	sub	sp, sp, #288
	stp	x28, x27, [sp, #192]
	stp	x26, x25, [sp, #208]
	stp	x24, x23, [sp, #224]
	stp	x22, x21, [sp, #240]
	stp	x20, x19, [sp, #256]
	stp	x29, x30, [sp, #272]
	add	x29, sp, #272
	mov	x24, x2
	mov	x25, x1
	mov	w8, #4096
	cmp	x0, #0
	csel	x12, x8, xzr, eq
	add	x11, x0, x12
	cmp	x2, #0
	csel	x13, x8, xzr, eq
	add	x9, x2, x13
	cmp	x4, #0
	csel	x10, x8, xzr, eq
	cbz	x1, Lunix_path_BB63_3
	ldrb	w8, [x11]
	cmp	w8, #47
	cbz	x3, Lunix_path_BB63_6
	cset	w8, eq
	ldrb	w9, [x9]
	cmp	w9, #47
	cset	w9, eq
	eor	w8, w8, w9
	tbz	w8, #0, Lunix_path_BB63_5
	b	Lunix_path_BB63_27
Lunix_path_BB63_3:
	cbz	x3, Lunix_path_BB63_7
	ldrb	w8, [x9]
	cmp	w8, #47
	b.eq	Lunix_path_BB63_27
Lunix_path_BB63_5:
	mov	x21, x3
	mov	x22, x5
	mov	x20, x4
	mov	x19, x13
	add	x28, x24, x13
	str	x10, [sp, #88]
	mov	w23, #0
	b	Lunix_path_BB63_8
Lunix_path_BB63_6:
	b.eq	Lunix_path_BB63_27
Lunix_path_BB63_7:
	mov	x21, x3
	mov	x22, x5
	mov	x20, x4
	mov	x19, x13
	add	x28, x24, x13
	str	x10, [sp, #88]
	mov	w23, #1
Lunix_path_BB63_8:
	mov	x26, x12
	str	x0, [sp, #104]
	add	x0, x0, x12
	mov	x1, x25
	bl	_path_within.outlined.is_names_only
	adrp	x27, lunix_path_CPI63_0@PAGE
	cbz	w0, Lunix_path_BB63_26
	add	x0, x24, x19
	mov	x1, x21
	bl	_path_within.outlined.is_names_only
	cbz	w0, Lunix_path_BB63_26
	cmp	x21, x25
	csel	x8, x21, x25, lo
	cmp	x8, #15
	b.hi	Lunix_path_BB63_41
	cmp	x8, #7
	mov	x13, x28
	mov	x15, x26
	ldr	x16, [sp, #104]
	add	x14, x16, x26
	b.hi	Lunix_path_BB63_49
	mov	x28, x20
	cbz	x8, Lunix_path_BB63_194
	ldrb	w9, [x14]
	ldrb	w10, [x13]
	cmp	w9, w10
	b.ne	Lunix_path_BB63_193
	cmp	x8, #1
	b.eq	Lunix_path_BB63_194
	ldrb	w9, [x14, #1]
	ldrb	w10, [x13, #1]
	cmp	w9, w10
	b.ne	Lunix_path_BB63_440
	cmp	x8, #2
	b.eq	Lunix_path_BB63_194
	ldrb	w9, [x14, #2]
	ldrb	w10, [x13, #2]
	cmp	w9, w10
	b.ne	Lunix_path_BB63_442
	cmp	x8, #3
	b.eq	Lunix_path_BB63_194
	ldrb	w9, [x14, #3]
	ldrb	w10, [x13, #3]
	cmp	w9, w10
	b.ne	Lunix_path_BB63_443
	cmp	x8, #4
	b.eq	Lunix_path_BB63_194
	ldrb	w9, [x14, #4]
	ldrb	w10, [x13, #4]
	cmp	w9, w10
	b.ne	Lunix_path_BB63_444
	add	x9, x16, x15
	cmp	x8, #5
	b.eq	Lunix_path_BB63_446
	ldrb	w9, [x9, #5]
	ldrb	w10, [x13, #5]
	cmp	w9, w10
	b.ne	Lunix_path_BB63_445
	cmp	x8, #6
	mov	x15, x26
	ldr	x16, [sp, #104]
	add	x14, x16, x26
	b.eq	Lunix_path_BB63_194
	ldrb	w9, [x14, #6]
	ldrb	w10, [x13, #6]
	cmp	w9, w10
	mov	w9, #6
	csel	x8, x8, x9, eq
	b	Lunix_path_BB63_194
Lunix_path_BB63_26:
	stp	xzr, xzr, [sp, #120]
	str	xzr, [sp, #112]
	stp	xzr, xzr, [x29, #-104]
	stur	xzr, [x29, #-112]
	add	x0, sp, #112
	ldr	x8, [sp, #104]
	add	x1, x8, x26
	mov	x2, x25
	bl	_path_within.backward.count_resolved
	sub	x0, x29, #112
	add	x1, x24, x19
	mov	x2, x21
	bl	_path_within.backward.count_resolved
	ldur	x8, [x29, #-112]
	ldr	x9, [sp, #112]
	subs	x8, x8, x9
	b.hs	Lunix_path_BB63_28
Lunix_path_BB63_27:
	mov	x0, #-8
	b	Lunix_path_BB63_188
Lunix_path_BB63_28:
	str	x22, [sp, #80]
	b.ls	Lunix_path_BB63_31
	ldp	x4, x9, [x29, #-104]
	ldr	x10, [sp, #120]
	add	x19, x8, x10
	mov	x17, x28
	mov	x24, x20
	mov	w10, #0
	ldr	x22, [sp, #88]
	add	x11, x20, x22
	cbz	x19, Lunix_path_BB63_164
Lunix_path_BB63_30:
	sub	x8, x19, #1
	mov	x12, #6148914691236517205
	cmp	x8, x12
	csel	x8, x8, x12, lo
	add	x8, x8, x8, lsl #1
	adds	x8, x8, #2
	csinv	x8, x8, xzr, lo
	adds	x8, x9, x8
	csinv	x19, x8, xzr, lo
	ldr	x8, [sp, #80]
	cmp	x19, x8
	b.ls	Lunix_path_BB63_166
	b	Lunix_path_BB63_187
Lunix_path_BB63_31:
	ldr	x8, [sp, #120]
	str	x8, [sp, #96]
	ldur	x8, [x29, #-104]
	str	x8, [sp, #64]
	mov	x4, x19
	add	x17, x24, x19
	cbz	x25, Lunix_path_BB63_46
	mov	x2, x26
	ldr	x6, [sp, #104]
	add	x3, x6, x26
	add	x8, x3, x25
	ldurb	w8, [x8, #-1]
	and	w8, w8, #0xfe
	cmp	w8, #46
	mov	x28, x20
	b.ne	Lunix_path_BB63_56
	mov	x19, x25
	ldr	x20, [sp, #96]
	b	Lunix_path_BB63_35
Lunix_path_BB63_34:
	mov	x19, x1
	cbz	x1, Lunix_path_BB63_47
Lunix_path_BB63_35:
	subs	x1, x19, #1
	b.eq	Lunix_path_BB63_47
	add	x8, x3, x1
	ldrb	w9, [x8]
	cmp	w9, #47
	b.eq	Lunix_path_BB63_39
	cmp	w9, #46
	b.ne	Lunix_path_BB63_47
	ldurb	w8, [x8, #-1]
	cmp	w8, #47
	b.ne	Lunix_path_BB63_47
Lunix_path_BB63_39:
	sub	x8, x25, x1
	cmp	x8, #8
	b.ne	Lunix_path_BB63_34
	add	x0, x6, x2
	mov	x19, x4
	bl	_unix_path.filler.trimmed_blocks_len
	ldr	x6, [sp, #104]
	mov	x4, x19
	mov	x2, x26
	add	x3, x6, x26
	add	x17, x24, x19
	mov	x1, x0
	b	Lunix_path_BB63_34
Lunix_path_BB63_41:
	sub	x9, x8, #16
	cmp	x8, #64
	mov	x13, x28
	mov	x15, x26
	ldr	x16, [sp, #104]
	add	x14, x16, x26
	mov	x10, #0
	b.lo	Lunix_path_BB63_51
	and	x11, x8, #0xffffffffffffffc0
	mov	x28, x20
Lunix_path_BB63_43:
	add	x12, x14, x10
	ldp	q0, q1, [x12]
	ldp	q2, q3, [x12, #32]
	add	x12, x13, x10
	ldp	q4, q5, [x12]
	ldp	q6, q7, [x12, #32]
	cmeq.16b	v3, v3, v7
	cmeq.16b	v2, v2, v6
	cmeq.16b	v1, v1, v5
	cmeq.16b	v0, v0, v4
	ldr	q4, [x27, lunix_path_CPI63_0@PAGEOFF]
	bic.16b	v0, v4, v0
	bic.16b	v1, v4, v1
	bic.16b	v2, v4, v2
	bic.16b	v3, v4, v3
	addp.16b	v0, v0, v1
	addp.16b	v1, v2, v3
	addp.16b	v0, v0, v1
	addp.16b	v0, v0, v0
	fmov	x12, d0
	cbnz	x12, Lunix_path_BB63_54
	add	x10, x10, #64
	sub	x8, x8, #64
	cmp	x8, #63
	b.hi	Lunix_path_BB63_43
	mov	x10, x11
	b	Lunix_path_BB63_54
Lunix_path_BB63_46:
	mov	x19, #0
	mov	x28, x20
	mov	x2, x26
	ldp	x20, x6, [sp, #96]
	add	x3, x6, x26
Lunix_path_BB63_47:
	tbz	w23, #0, Lunix_path_BB63_57
Lunix_path_BB63_48:
	mov	x22, #0
	b	Lunix_path_BB63_66
Lunix_path_BB63_49:
	ldr	d0, [x14]
	ldr	d1, [x13]
	cmeq.8b	v1, v0, v1
Lunix_path_loh88:
	adrp	x9, lunix_path_CPI63_1@PAGE
Lunix_path_loh89:
	ldr	d0, [x9, lunix_path_CPI63_1@PAGEOFF]
	bic.8b	v1, v0, v1
	addv.8b	b1, v1
	fmov	w9, s1
	orr	w9, w9, #0x100
	rbit	w9, w9
	clz	w9, w9
	cmp	w9, #8
	mov	x28, x20
	b.hs	Lunix_path_BB63_190
	mov	x8, x9
	b	Lunix_path_BB63_194
Lunix_path_BB63_51:
	mov	x28, x20
	b	Lunix_path_BB63_54
Lunix_path_BB63_52:
	ldr	q0, [x14, x10]
	ldr	q1, [x13, x10]
	cmeq.16b	v0, v0, v1
	ldr	q1, [x27, lunix_path_CPI63_0@PAGEOFF]
	bic.16b	v0, v1, v0
	addp.16b	v0, v0, v0
	addp.16b	v0, v0, v0
	addp.16b	v0, v0, v0
	umov.h	w8, v0[0]
	orr	w8, w8, #0x10000
	rbit	w8, w8
	clz	w8, w8
	cmp	w8, #15
	b.ls	Lunix_path_BB63_189
	add	x10, x10, #16
Lunix_path_BB63_54:
	cmp	x10, x9
	b.lo	Lunix_path_BB63_52
	ldr	q0, [x14, x9]
	ldr	q1, [x13, x9]
	cmeq.16b	v0, v0, v1
	ldr	q1, [x27, lunix_path_CPI63_0@PAGEOFF]
	bic.16b	v0, v1, v0
	addp.16b	v0, v0, v0
	addp.16b	v0, v0, v0
	addp.16b	v0, v0, v0
	umov.h	w8, v0[0]
	orr	w8, w8, #0x10000
	rbit	w8, w8
	clz	w8, w8
	add	x8, x9, x8
	b	Lunix_path_BB63_194
Lunix_path_BB63_56:
	mov	x19, x25
	ldr	x20, [sp, #96]
	tbnz	w23, #0, Lunix_path_BB63_48
Lunix_path_BB63_57:
	mov	x22, x21
	add	x8, x17, x21
	ldurb	w8, [x8, #-1]
	and	w8, w8, #0xfe
	cmp	w8, #46
	b.ne	Lunix_path_BB63_66
	mov	x22, x21
	b	Lunix_path_BB63_60
Lunix_path_BB63_59:
	mov	x22, x1
	cbz	x1, Lunix_path_BB63_66
Lunix_path_BB63_60:
	subs	x1, x22, #1
	b.eq	Lunix_path_BB63_66
	add	x8, x17, x1
	ldrb	w9, [x8]
	cmp	w9, #47
	b.eq	Lunix_path_BB63_64
	cmp	w9, #46
	b.ne	Lunix_path_BB63_66
	ldurb	w8, [x8, #-1]
	cmp	w8, #47
	b.ne	Lunix_path_BB63_66
Lunix_path_BB63_64:
	sub	x8, x21, x1
	cmp	x8, #8
	b.ne	Lunix_path_BB63_59
	add	x0, x24, x4
	mov	x22, x4
	bl	_unix_path.filler.trimmed_blocks_len
	ldr	x6, [sp, #104]
	mov	x4, x22
	mov	x2, x26
	add	x3, x6, x26
	add	x17, x24, x22
	mov	x1, x0
	b	Lunix_path_BB63_59
Lunix_path_BB63_66:
	ldr	x0, [sp, #64]
	mov	w8, #0
	subs	x9, x20, x0
	b.ls	Lunix_path_BB63_89
	add	x11, x2, x6
	sub	x10, x11, #16
	sub	x11, x11, #1
Lunix_path_BB63_68:
	tbnz	w8, #0, Lunix_path_BB63_441
	mov	x12, #0
	b	Lunix_path_BB63_72
Lunix_path_BB63_70:
	add	x12, x12, #1
Lunix_path_BB63_71:
	cbz	x13, Lunix_path_BB63_88
Lunix_path_BB63_72:
	mov	x14, x19
	mov	x8, x19
Lunix_path_BB63_73:
	cmp	x8, #15
	b.ls	Lunix_path_BB63_76
	sub	x13, x8, #16
	ldr	q0, [x10, x8]
	movi.16b	v1, #47
	cmeq.16b	v0, v0, v1
	ldr	q1, [x27, lunix_path_CPI63_0@PAGEOFF]
	and.16b	v0, v0, v1
	addp.16b	v0, v0, v0
	addp.16b	v0, v0, v0
	addp.16b	v0, v0, v0
	umov.h	w15, v0[0]
	mov	x8, x13
	cbz	w15, Lunix_path_BB63_73
	umov.h	w8, v0[0]
	and	x8, x8, #0xffff
	clz	x8, x8
	sub	x8, x13, x8
	add	x13, x8, #64
	cmp	x13, #0
	cset	w15, ne
	cset	w8, eq
	sub	x19, x13, x15
	subs	x15, x14, x13
	b.ne	Lunix_path_BB63_80
	b	Lunix_path_BB63_71
Lunix_path_BB63_76:
	cbz	x8, Lunix_path_BB63_79
	sub	x13, x8, #1
	ldrb	w15, [x11, x8]
	mov	x8, x13
	cmp	w15, #47
	b.ne	Lunix_path_BB63_76
	add	x13, x13, #1
	cmp	x13, #0
	cset	w15, ne
	cset	w8, eq
	sub	x19, x13, x15
	subs	x15, x14, x13
	b.ne	Lunix_path_BB63_80
	b	Lunix_path_BB63_71
Lunix_path_BB63_79:
	mov	x13, #0
	cmp	x13, #0
	cset	w15, ne
	cset	w8, eq
	sub	x19, x13, x15
	subs	x15, x14, x13
	b.eq	Lunix_path_BB63_71
Lunix_path_BB63_80:
	add	x14, x3, x13
	cmp	x15, #1
	b.ne	Lunix_path_BB63_82
	ldrb	w14, [x14]
	cmp	w14, #46
	b.eq	Lunix_path_BB63_71
	b	Lunix_path_BB63_85
Lunix_path_BB63_82:
	cmp	x15, #2
	b.hi	Lunix_path_BB63_85
	ldrb	w15, [x14]
	cmp	w15, #46
	b.ne	Lunix_path_BB63_85
	ldrb	w14, [x14, #1]
	cmp	w14, #46
	b.eq	Lunix_path_BB63_70
Lunix_path_BB63_85:
	cbz	x12, Lunix_path_BB63_87
	sub	x12, x12, #1
	b	Lunix_path_BB63_71
Lunix_path_BB63_87:
	subs	x9, x9, #1
	b.ne	Lunix_path_BB63_68
	b	Lunix_path_BB63_89
Lunix_path_BB63_88:
	mov	w8, #1
Lunix_path_BB63_89:
	mov	w25, #0
	mov	x5, #0
	subs	x9, x0, x20
	b.ls	Lunix_path_BB63_112
Lunix_path_BB63_90:
	add	x11, x4, x24
	sub	x10, x11, #16
	sub	x11, x11, #1
Lunix_path_BB63_91:
	tbnz	w25, #0, Lunix_path_BB63_111
	mov	x12, #0
	b	Lunix_path_BB63_95
Lunix_path_BB63_93:
	add	x12, x12, #1
Lunix_path_BB63_94:
	cbz	x13, Lunix_path_BB63_111
Lunix_path_BB63_95:
	mov	x14, x22
	mov	x13, x22
Lunix_path_BB63_96:
	cmp	x13, #15
	b.ls	Lunix_path_BB63_99
	sub	x15, x13, #16
	ldr	q0, [x10, x13]
	movi.16b	v1, #47
	cmeq.16b	v0, v0, v1
	ldr	q1, [x27, lunix_path_CPI63_0@PAGEOFF]
	and.16b	v0, v0, v1
	addp.16b	v0, v0, v0
	addp.16b	v0, v0, v0
	addp.16b	v0, v0, v0
	umov.h	w16, v0[0]
	mov	x13, x15
	cbz	w16, Lunix_path_BB63_96
	umov.h	w13, v0[0]
	and	x13, x13, #0xffff
	clz	x13, x13
	sub	x13, x15, x13
	add	x13, x13, #64
	b	Lunix_path_BB63_102
Lunix_path_BB63_99:
	cbz	x13, Lunix_path_BB63_102
	sub	x15, x13, #1
	ldrb	w16, [x11, x13]
	mov	x13, x15
	cmp	w16, #47
	b.ne	Lunix_path_BB63_99
	add	x13, x15, #1
Lunix_path_BB63_102:
	cmp	x13, #0
	cset	w15, ne
	cset	w25, eq
	sub	x22, x13, x15
	subs	x14, x14, x13
	b.eq	Lunix_path_BB63_94
	add	x15, x17, x13
	cmp	x14, #1
	b.ne	Lunix_path_BB63_105
	ldrb	w15, [x15]
	cmp	w15, #46
	b.eq	Lunix_path_BB63_94
	b	Lunix_path_BB63_108
Lunix_path_BB63_105:
	cmp	x14, #2
	b.hi	Lunix_path_BB63_108
	ldrb	w16, [x15]
	cmp	w16, #46
	b.ne	Lunix_path_BB63_108
	ldrb	w15, [x15, #1]
	cmp	w15, #46
	b.eq	Lunix_path_BB63_93
Lunix_path_BB63_108:
	cbz	x12, Lunix_path_BB63_110
	sub	x12, x12, #1
	b	Lunix_path_BB63_94
Lunix_path_BB63_110:
	add	x12, x5, x14
	add	x5, x12, #1
	subs	x9, x9, #1
	b.ne	Lunix_path_BB63_91
	b	Lunix_path_BB63_112
Lunix_path_BB63_111:
	mov	w25, #1
Lunix_path_BB63_112:
	str	x28, [sp, #72]
	cmp	x0, x20
	csel	x14, x0, x20, lo
	tbz	w8, #0, Lunix_path_BB63_114
	mov	x9, x5
	mov	x11, x14
	b	Lunix_path_BB63_163
Lunix_path_BB63_114:
	add	x15, x6, x2
	sub	x23, x15, #16
	sub	x20, x15, #1
	add	x16, x24, x4
	sub	x26, x16, #16
	sub	x24, x16, #1
	mov	x4, x14
	mov	x6, x5
Lunix_path_BB63_115:
	mov	x9, #0
	b	Lunix_path_BB63_117
Lunix_path_BB63_116:
	cbz	x28, Lunix_path_BB63_162
Lunix_path_BB63_117:
	mov	x8, x19
	mov	x10, x19
Lunix_path_BB63_118:
	cmp	x10, #15
	b.ls	Lunix_path_BB63_121
	sub	x11, x10, #16
	ldr	q0, [x23, x10]
	movi.16b	v1, #47
	cmeq.16b	v0, v0, v1
	ldr	q1, [x27, lunix_path_CPI63_0@PAGEOFF]
	and.16b	v0, v0, v1
	addp.16b	v0, v0, v0
	addp.16b	v0, v0, v0
	addp.16b	v0, v0, v0
	umov.h	w12, v0[0]
	mov	x10, x11
	cbz	w12, Lunix_path_BB63_118
	umov.h	w10, v0[0]
	and	x10, x10, #0xffff
	clz	x10, x10
	sub	x10, x11, x10
	add	x28, x10, #64
	cmp	x28, #0
	cset	w10, ne
	sub	x19, x28, x10
	subs	x1, x8, x28
	b.ne	Lunix_path_BB63_125
	b	Lunix_path_BB63_116
Lunix_path_BB63_121:
	cbz	x10, Lunix_path_BB63_124
	sub	x11, x10, #1
	ldrb	w12, [x20, x10]
	mov	x10, x11
	cmp	w12, #47
	b.ne	Lunix_path_BB63_121
	add	x28, x11, #1
	cmp	x28, #0
	cset	w10, ne
	sub	x19, x28, x10
	subs	x1, x8, x28
	b.ne	Lunix_path_BB63_125
	b	Lunix_path_BB63_116
Lunix_path_BB63_124:
	mov	x28, #0
	cmp	x28, #0
	cset	w10, ne
	sub	x19, x28, x10
	subs	x1, x8, x28
	b.eq	Lunix_path_BB63_116
Lunix_path_BB63_125:
	add	x8, x3, x28
	cmp	x1, #1
	b.ne	Lunix_path_BB63_127
	ldrb	w10, [x8]
	cmp	w10, #46
	b.eq	Lunix_path_BB63_116
	b	Lunix_path_BB63_131
Lunix_path_BB63_127:
	cmp	x1, #2
	b.hi	Lunix_path_BB63_131
	ldrb	w10, [x8]
	cmp	w10, #46
	b.ne	Lunix_path_BB63_131
	ldrb	w10, [x8, #1]
	cmp	w10, #46
	b.ne	Lunix_path_BB63_131
	add	x9, x9, #1
	cbnz	x28, Lunix_path_BB63_117
	b	Lunix_path_BB63_162
Lunix_path_BB63_131:
	cbz	x9, Lunix_path_BB63_133
	sub	x9, x9, #1
	b	Lunix_path_BB63_116
Lunix_path_BB63_133:
	tbnz	w25, #0, Lunix_path_BB63_162
	mov	x9, #0
	b	Lunix_path_BB63_137
Lunix_path_BB63_135:
	add	x9, x9, #1
Lunix_path_BB63_136:
	cbz	x10, Lunix_path_BB63_162
Lunix_path_BB63_137:
	mov	x11, x22
	mov	x10, x22
Lunix_path_BB63_138:
	cmp	x10, #15
	b.ls	Lunix_path_BB63_141
	sub	x12, x10, #16
	ldr	q0, [x26, x10]
	movi.16b	v1, #47
	cmeq.16b	v0, v0, v1
	ldr	q1, [x27, lunix_path_CPI63_0@PAGEOFF]
	and.16b	v0, v0, v1
	addp.16b	v0, v0, v0
	addp.16b	v0, v0, v0
	addp.16b	v0, v0, v0
	umov.h	w13, v0[0]
	mov	x10, x12
	cbz	w13, Lunix_path_BB63_138
	umov.h	w10, v0[0]
	and	x10, x10, #0xffff
	clz	x10, x10
	sub	x10, x12, x10
	add	x10, x10, #64
	b	Lunix_path_BB63_144
Lunix_path_BB63_141:
	cbz	x10, Lunix_path_BB63_144
	sub	x12, x10, #1
	ldrb	w13, [x24, x10]
	mov	x10, x12
	cmp	w13, #47
	b.ne	Lunix_path_BB63_141
	add	x10, x12, #1
Lunix_path_BB63_144:
	cmp	x10, #0
	cset	w12, ne
	cset	w25, eq
	sub	x22, x10, x12
	subs	x12, x11, x10
	b.eq	Lunix_path_BB63_136
	add	x2, x17, x10
	cmp	x12, #1
	b.ne	Lunix_path_BB63_147
	ldrb	w11, [x2]
	cmp	w11, #46
	b.eq	Lunix_path_BB63_136
	b	Lunix_path_BB63_150
Lunix_path_BB63_147:
	cmp	x12, #2
	b.hi	Lunix_path_BB63_150
	ldrb	w11, [x2]
	cmp	w11, #46
	b.ne	Lunix_path_BB63_150
	ldrb	w11, [x2, #1]
	cmp	w11, #46
	b.eq	Lunix_path_BB63_135
Lunix_path_BB63_150:
	cbz	x9, Lunix_path_BB63_152
	sub	x9, x9, #1
	cbnz	x10, Lunix_path_BB63_137
	b	Lunix_path_BB63_162
Lunix_path_BB63_152:
	sub	x14, x14, #1
	add	x9, x5, x12
	add	x5, x9, #1
	mov	x9, x5
	mov	x11, x14
	cmp	x1, x12
	b.ne	Lunix_path_BB63_161
	cmp	x1, #3
	b.hi	Lunix_path_BB63_157
	mov	x8, #0
	add	x9, x16, x10
	add	x10, x15, x28
Lunix_path_BB63_155:
	ldrb	w11, [x10, x8]
	ldrb	w12, [x9, x8]
	cmp	w11, w12
	b.ne	Lunix_path_BB63_159
	add	x8, x8, #1
	cmp	x1, x8
	b.ne	Lunix_path_BB63_155
	b	Lunix_path_BB63_160
Lunix_path_BB63_157:
	ldr	w8, [x8]
	ldr	w10, [x2]
	mov	x9, x5
	mov	x11, x14
	cmp	w8, w10
	b.ne	Lunix_path_BB63_161
	add	x0, x3, x28
	str	x17, [sp, #104]
	stp	x5, x3, [sp, #48]
	stp	x15, x14, [sp, #32]
	stp	x4, x16, [sp, #16]
	str	x6, [sp, #8]
	bl	_core.cmp.slices.groups_equal.i8.31.core.cmp.numbers.U8PartialEq.
	ldp	x6, x4, [sp, #8]
	ldp	x16, x15, [sp, #24]
	ldp	x14, x5, [sp, #40]
	ldr	x3, [sp, #56]
	ldr	x17, [sp, #104]
	mov	x9, x5
	mov	x11, x14
	cbnz	w0, Lunix_path_BB63_160
	b	Lunix_path_BB63_161
Lunix_path_BB63_159:
	mov	x9, x5
	mov	x11, x14
	cmp	x8, x1
	b.lo	Lunix_path_BB63_161
Lunix_path_BB63_160:
	mov	x9, x6
	mov	x11, x4
Lunix_path_BB63_161:
	mov	x4, x11
	mov	x6, x9
	cbnz	x28, Lunix_path_BB63_115
	b	Lunix_path_BB63_163
Lunix_path_BB63_162:
	mov	x9, x6
	mov	x11, x4
Lunix_path_BB63_163:
	ldp	x8, x24, [sp, #64]
	sub	x4, x8, x11
	ldp	x22, x8, [sp, #88]
	sub	x19, x8, x11
	mov	w10, #0
	add	x11, x24, x22
	cbnz	x19, Lunix_path_BB63_30
Lunix_path_BB63_164:
	cbz	x9, Lunix_path_BB63_169
	sub	x19, x9, #1
	ldr	x8, [sp, #80]
	cmp	x19, x8
	b.hi	Lunix_path_BB63_187
Lunix_path_BB63_166:
	add	x8, x19, #1
	tbnz	w10, #0, Lunix_path_BB63_171
	cbz	x9, Lunix_path_BB63_180
	add	x0, x24, x22
	add	x1, x19, #1
	mov	x2, x17
	mov	x3, x21
	bl	_path_within.backward.put_names_before
	mov	x20, x0
	subs	x8, x0, #3
	b.lo	Lunix_path_BB63_187
	b	Lunix_path_BB63_181
Lunix_path_BB63_169:
	mov	x19, #0
	tbz	w10, #0, Lunix_path_BB63_187
	mov	w8, #1
Lunix_path_BB63_171:
	mvn	x9, x21
	add	x20, x8, x9
	add	x23, x11, x20
	sub	x9, x23, x17
	cmp	x9, x21
	b.hs	Lunix_path_BB63_177
	cmp	x21, #7
	b.ls	Lunix_path_BB63_174
	add	x9, x22, x8
	sub	x10, x21, x24
	sub	x9, x10, x9
	add	x9, x9, x17
	cmn	x9, #33
	b.ls	Lunix_path_BB63_191
Lunix_path_BB63_174:
	mov	x9, #0
Lunix_path_BB63_175:
	sub	x10, x21, x9
	add	x11, x17, x9
	add	x9, x22, x9
	add	x8, x9, x8
	mvn	x9, x21
	add	x9, x24, x9
	add	x8, x9, x8
Lunix_path_BB63_176:
	ldrb	w9, [x11], #1
	strb	w9, [x8], #1
	subs	x10, x10, #1
	b.ne	Lunix_path_BB63_176
	b	Lunix_path_BB63_178
Lunix_path_BB63_177:
	mov	x0, x23
	mov	x1, x17
	mov	x2, x21
	bl	_memmove
Lunix_path_BB63_178:
	cbz	x20, Lunix_path_BB63_187
	mov	w8, #47
	sturb	w8, [x23, #-1]
	subs	x8, x20, #3
	b.lo	Lunix_path_BB63_187
	b	Lunix_path_BB63_181
Lunix_path_BB63_180:
	add	x20, x19, #1
	subs	x8, x20, #3
	b.lo	Lunix_path_BB63_187
Lunix_path_BB63_181:
	mov	x9, #-6148914691236517206
	movk	x9, #43691
	umulh	x9, x8, x9
	lsr	x9, x9, #1
	add	x9, x9, #1
	add	x10, x22, x20
	add	x10, x10, x24
	sub	x10, x10, #4
	b	Lunix_path_BB63_185
Lunix_path_BB63_182:
	mov	w12, #11822
	strh	w12, [x11]
	cbz	x8, Lunix_path_BB63_184
Lunix_path_BB63_183:
	mov	w11, #47
	strb	w11, [x10]
Lunix_path_BB63_184:
	sub	x10, x10, #3
	sub	x8, x8, #3
	sub	x9, x9, #1
	cbz	x9, Lunix_path_BB63_187
Lunix_path_BB63_185:
	add	x11, x10, #1
Lunix_path_loh90:
	adrp	x12, lunix_path__static.10@PAGE
Lunix_path_loh91:
	add	x12, x12, lunix_path__static.10@PAGEOFF
	sub	x12, x11, x12
	cmp	x12, #1
	b.hi	Lunix_path_BB63_182
	mov	w11, #11822
	sturh	w11, [x10, #1]
	cbnz	x8, Lunix_path_BB63_183
	b	Lunix_path_BB63_184
Lunix_path_BB63_187:
	mov	x8, #-9223372036854775808
	cmp	x19, x8
	csel	x0, x19, x8, lo
Lunix_path_BB63_188:
	ldp	x29, x30, [sp, #272]
	ldp	x20, x19, [sp, #256]
	ldp	x22, x21, [sp, #240]
	ldp	x24, x23, [sp, #224]
	ldp	x26, x25, [sp, #208]
	ldp	x28, x27, [sp, #192]
	add	sp, sp, #288
	ret
Lunix_path_BB63_189:
	add	x8, x10, w8, uxtw
	b	Lunix_path_BB63_194
Lunix_path_BB63_190:
	sub	x8, x8, #8
	ldr	d1, [x14, x8]
	ldr	d2, [x13, x8]
	cmeq.8b	v1, v1, v2
	bic.8b	v0, v0, v1
	addv.8b	b0, v0
	fmov	w9, s0
	orr	w9, w9, #0x100
	rbit	w9, w9
	clz	w9, w9
	add	x8, x8, x9
	b	Lunix_path_BB63_194
Lunix_path_BB63_191:
	cmp	x21, #32
	b.hs	Lunix_path_BB63_433
	mov	x9, #0
	b	Lunix_path_BB63_437
Lunix_path_BB63_193:
	mov	x8, #0
Lunix_path_BB63_194:
	add	x9, x15, x16
	sub	x9, x9, #16
	str	x22, [sp, #80]
Lunix_path_BB63_195:
	cmp	x8, #15
	b.ls	Lunix_path_BB63_198
	sub	x10, x8, #16
	ldr	q0, [x9, x8]
	movi.16b	v1, #47
	cmeq.16b	v0, v0, v1
	ldr	q1, [x27, lunix_path_CPI63_0@PAGEOFF]
	and.16b	v0, v0, v1
	addp.16b	v0, v0, v0
	addp.16b	v0, v0, v0
	addp.16b	v0, v0, v0
	umov.h	w11, v0[0]
	mov	x8, x10
	cbz	w11, Lunix_path_BB63_195
	umov.h	w8, v0[0]
	and	x8, x8, #0xffff
	clz	x8, x8
	sub	x8, x10, x8
	add	x19, x8, #64
	cmp	x25, x19
	b.hi	Lunix_path_BB63_203
	b	Lunix_path_BB63_219
Lunix_path_BB63_198:
	add	x9, x15, x16
	sub	x9, x9, #1
Lunix_path_BB63_199:
	cbz	x8, Lunix_path_BB63_202
	sub	x10, x8, #1
	ldrb	w11, [x9, x8]
	mov	x8, x10
	cmp	w11, #47
	b.ne	Lunix_path_BB63_199
	add	x19, x10, #1
	cmp	x25, x19
	b.hi	Lunix_path_BB63_203
	b	Lunix_path_BB63_219
Lunix_path_BB63_202:
	mov	x19, #0
	cmp	x25, x19
	b.ls	Lunix_path_BB63_219
Lunix_path_BB63_203:
	ldrb	w8, [x14, x19]
	cmp	w8, #47
	b.eq	Lunix_path_BB63_219
	cmp	w8, #46
	b.ne	Lunix_path_BB63_211
	add	x8, x19, #1
	cmp	x25, x8
	b.ls	Lunix_path_BB63_219
	ldrb	w8, [x14, x8]
	cmp	w8, #47
	b.eq	Lunix_path_BB63_219
	cmp	w8, #46
	b.ne	Lunix_path_BB63_211
	add	x8, x19, #2
	cmp	x25, x8
	b.ls	Lunix_path_BB63_219
	cmp	x21, x19
	b.ls	Lunix_path_BB63_219
	ldrb	w8, [x14, x8]
	cmp	w8, #47
	b.ne	Lunix_path_BB63_212
	b	Lunix_path_BB63_219
Lunix_path_BB63_211:
	cmp	x21, x19
	b.ls	Lunix_path_BB63_219
Lunix_path_BB63_212:
	ldrb	w8, [x13, x19]
	cmp	w8, #47
	b.eq	Lunix_path_BB63_219
	cmp	w8, #46
	b.ne	Lunix_path_BB63_220
	add	x8, x19, #1
	cmp	x21, x8
	b.ls	Lunix_path_BB63_219
	ldrb	w8, [x13, x8]
	cmp	w8, #47
	b.eq	Lunix_path_BB63_219
	cmp	w8, #46
	b.ne	Lunix_path_BB63_220
	add	x8, x19, #2
	cmp	x21, x8
	b.ls	Lunix_path_BB63_219
	ldrb	w8, [x13, x8]
	cmp	w8, #47
	b.ne	Lunix_path_BB63_220
Lunix_path_BB63_219:
	mov	x19, #0
Lunix_path_BB63_220:
	add	x17, x14, x19
	subs	x20, x25, x19
	str	x17, [sp, #104]
	str	x28, [sp, #72]
	b.eq	Lunix_path_BB63_225
	ldrb	w8, [x17]
	cmp	w8, #47
	b.eq	Lunix_path_BB63_224
	cmp	w8, #46
	b.ne	Lunix_path_BB63_354
	cmp	x20, #1
	b.ne	Lunix_path_BB63_415
Lunix_path_BB63_224:
	mov	w25, #257
	b	Lunix_path_BB63_416
Lunix_path_BB63_225:
	mov	x25, #0
	mov	x28, #0
Lunix_path_BB63_226:
	add	x3, x13, x19
	subs	x19, x21, x19
	str	x3, [sp, #96]
	b.eq	Lunix_path_BB63_231
	ldrb	w8, [x3]
	cmp	w8, #47
	b.eq	Lunix_path_BB63_230
	cmp	w8, #46
	b.ne	Lunix_path_BB63_355
	cmp	x19, #1
	b.ne	Lunix_path_BB63_424
Lunix_path_BB63_230:
	mov	w22, #0
	b	Lunix_path_BB63_425
Lunix_path_BB63_231:
	mov	x26, #0
	mov	w22, #1
Lunix_path_BB63_232:
	mov	x19, #0
	mov	x24, #0
	b	Lunix_path_BB63_234
Lunix_path_BB63_233:
	mov	x8, #0
	cmp	x8, x1
	b.lo	Lunix_path_BB63_347
Lunix_path_BB63_234:
	add	x23, x17, x19
	subs	x20, x28, x19
	b.eq	Lunix_path_BB63_242
	tbnz	w25, #8, Lunix_path_BB63_251
	cmp	x20, #1
	b.eq	Lunix_path_BB63_268
	ldrb	w8, [x23]
	cmp	w8, #46
	b.ne	Lunix_path_BB63_268
	ldrb	w8, [x23, #1]
	cmp	w8, #46
	b.ne	Lunix_path_BB63_268
	subs	x9, x20, #2
	b.ne	Lunix_path_BB63_266
	add	x16, x3, x24
	subs	x21, x26, x24
	b.eq	Lunix_path_BB63_347
	mov	x1, #0
	mov	x25, #0
	mov	x0, #0
	add	x19, x19, #2
	mov	w8, #2
	tbz	w22, #0, Lunix_path_BB63_244
	b	Lunix_path_BB63_293
Lunix_path_BB63_242:
	add	x16, x3, x24
	subs	x21, x26, x24
	b.eq	Lunix_path_BB63_351
	mov	w8, #0
	mov	x1, #0
	mov	x0, #0
	tbnz	w22, #0, Lunix_path_BB63_293
Lunix_path_BB63_244:
	subs	x10, x21, #1
	b.eq	Lunix_path_BB63_258
	mov	x9, #0
	add	x11, x3, x24
	add	x11, x11, #1
	sub	x12, x21, #2
	b	Lunix_path_BB63_247
Lunix_path_BB63_246:
	add	x9, x9, #1
	cmp	x10, x9
	b.eq	Lunix_path_BB63_259
Lunix_path_BB63_247:
	ldrb	w13, [x11, x9]
	cmp	w13, #47
	b.eq	Lunix_path_BB63_246
	cmp	w13, #46
	b.ne	Lunix_path_BB63_260
	cmp	x12, x9
	b.eq	Lunix_path_BB63_259
	add	x13, x11, x9
	ldrb	w13, [x13, #1]
	cmp	w13, #47
	b.eq	Lunix_path_BB63_246
	b	Lunix_path_BB63_260
Lunix_path_BB63_251:
	subs	x9, x20, #1
	b.eq	Lunix_path_BB63_262
	mov	x8, #0
	add	x10, x23, #1
	sub	x11, x20, #2
	b	Lunix_path_BB63_254
Lunix_path_BB63_253:
	add	x8, x8, #1
	cmp	x9, x8
	b.eq	Lunix_path_BB63_263
Lunix_path_BB63_254:
	ldrb	w12, [x10, x8]
	cmp	w12, #47
	b.eq	Lunix_path_BB63_253
	cmp	w12, #46
	b.ne	Lunix_path_BB63_264
	cmp	x11, x8
	b.eq	Lunix_path_BB63_263
	add	x12, x10, x8
	ldrb	w12, [x12, #1]
	cmp	w12, #47
	b.eq	Lunix_path_BB63_253
	b	Lunix_path_BB63_264
Lunix_path_BB63_258:
	mov	w10, #1
	b	Lunix_path_BB63_261
Lunix_path_BB63_259:
	mov	x9, x10
Lunix_path_BB63_260:
	add	x10, x9, #1
Lunix_path_BB63_261:
	mov	x11, #0
	mov	x9, #0
	ldrb	w12, [x16]
	cmp	w12, #47
	cset	w12, ne
	cbnz	x20, Lunix_path_BB63_324
	b	Lunix_path_BB63_351
Lunix_path_BB63_262:
	mov	w9, #1
	b	Lunix_path_BB63_265
Lunix_path_BB63_263:
	mov	x8, x9
Lunix_path_BB63_264:
	add	x9, x8, #1
Lunix_path_BB63_265:
	mov	x0, #0
	mov	x1, #0
	ldrb	w8, [x23]
	cmp	w8, #47
	cset	w8, ne
	mov	x25, #0
	add	x16, x3, x24
	subs	x21, x26, x24
	b.ne	Lunix_path_BB63_292
	b	Lunix_path_BB63_346
Lunix_path_BB63_266:
	add	x10, x17, x19
	ldrb	w8, [x10, #2]!
	cmp	w8, #47
	b.ne	Lunix_path_BB63_268
	mov	x8, #0
	sub	x11, x20, #3
	b	Lunix_path_BB63_274
Lunix_path_BB63_268:
	cmp	x20, #15
	b.hi	Lunix_path_BB63_278
	mov	x1, #0
Lunix_path_BB63_270:
	ldrb	w8, [x23, x1]
	cmp	w8, #47
	b.eq	Lunix_path_BB63_283
	add	x1, x1, #1
	cmp	x20, x1
	b.ne	Lunix_path_BB63_270
	mov	x1, x20
	mov	x8, #0
	subs	x9, x20, x20
	b.ne	Lunix_path_BB63_284
	b	Lunix_path_BB63_291
Lunix_path_BB63_273:
	add	x8, x8, #1
	cmp	x9, x8
	b.eq	Lunix_path_BB63_344
Lunix_path_BB63_274:
	ldrb	w12, [x10, x8]
	cmp	w12, #47
	b.eq	Lunix_path_BB63_273
	cmp	w12, #46
	b.ne	Lunix_path_BB63_345
	cmp	x11, x8
	b.eq	Lunix_path_BB63_344
	add	x12, x10, x8
	ldrb	w12, [x12, #1]
	cmp	w12, #47
	b.eq	Lunix_path_BB63_273
	b	Lunix_path_BB63_345
Lunix_path_BB63_278:
	subs	x8, x20, #16
	b.eq	Lunix_path_BB63_282
	mov	x9, #0
Lunix_path_BB63_280:
	ldr	q0, [x23, x9]
	movi.16b	v1, #47
	cmeq.16b	v0, v0, v1
	ldr	q1, [x27, lunix_path_CPI63_0@PAGEOFF]
	and.16b	v0, v0, v1
	addp.16b	v0, v0, v0
	addp.16b	v0, v0, v0
	addp.16b	v0, v0, v0
	umov.h	w10, v0[0]
	orr	w10, w10, #0x10000
	rbit	w10, w10
	clz	w10, w10
	cmp	w10, #15
	b.ls	Lunix_path_BB63_340
	add	x9, x9, #16
	cmp	x9, x8
	b.lo	Lunix_path_BB63_280
Lunix_path_BB63_282:
	ldr	q0, [x23, x8]
	movi.16b	v1, #47
	cmeq.16b	v0, v0, v1
	ldr	q1, [x27, lunix_path_CPI63_0@PAGEOFF]
	and.16b	v0, v0, v1
	addp.16b	v0, v0, v0
	addp.16b	v0, v0, v0
	addp.16b	v0, v0, v0
	umov.h	w9, v0[0]
	orr	w9, w9, #0x10000
	rbit	w9, w9
	clz	w9, w9
	add	x1, x8, x9
Lunix_path_BB63_283:
	mov	x8, #0
	subs	x9, x20, x1
	b.eq	Lunix_path_BB63_291
Lunix_path_BB63_284:
	add	x10, x23, x1
	sub	x11, x9, #1
	b	Lunix_path_BB63_286
Lunix_path_BB63_285:
	add	x8, x8, #1
	cmp	x9, x8
	b.eq	Lunix_path_BB63_290
Lunix_path_BB63_286:
	ldrb	w12, [x10, x8]
	cmp	w12, #47
	b.eq	Lunix_path_BB63_285
	cmp	w12, #46
	b.ne	Lunix_path_BB63_291
	cmp	x11, x8
	b.eq	Lunix_path_BB63_290
	add	x12, x10, x8
	ldrb	w12, [x12, #1]
	cmp	w12, #47
	b.eq	Lunix_path_BB63_285
	b	Lunix_path_BB63_291
Lunix_path_BB63_290:
	mov	x8, x9
Lunix_path_BB63_291:
	add	x9, x8, x1
	mov	w8, #3
	add	x0, x17, x19
	mov	x25, #0
	add	x16, x3, x24
	subs	x21, x26, x24
	b.eq	Lunix_path_BB63_346
Lunix_path_BB63_292:
	add	x19, x9, x19
	tbz	w22, #0, Lunix_path_BB63_244
Lunix_path_BB63_293:
	cmp	x21, #1
	b.eq	Lunix_path_BB63_300
	ldrb	w9, [x16]
	cmp	w9, #46
	b.ne	Lunix_path_BB63_300
	add	x9, x3, x24
	ldrb	w10, [x9, #1]
	cmp	w10, #46
	b.ne	Lunix_path_BB63_300
	subs	x11, x21, #2
	b.ne	Lunix_path_BB63_298
	mov	x9, #0
	mov	w10, #2
	mov	w12, #2
	cbnz	x20, Lunix_path_BB63_324
	b	Lunix_path_BB63_351
Lunix_path_BB63_298:
	ldrb	w10, [x9, #2]!
	cmp	w10, #47
	b.ne	Lunix_path_BB63_300
	mov	x10, #0
	sub	x12, x21, #3
	b	Lunix_path_BB63_306
Lunix_path_BB63_300:
	cmp	x21, #15
	b.hi	Lunix_path_BB63_310
	mov	x9, #0
	add	x10, x3, x24
Lunix_path_BB63_302:
	ldrb	w11, [x10, x9]
	cmp	w11, #47
	b.eq	Lunix_path_BB63_315
	add	x9, x9, #1
	cmp	x21, x9
	b.ne	Lunix_path_BB63_302
	mov	x9, x21
	mov	x10, #0
	subs	x11, x21, x21
	b.ne	Lunix_path_BB63_316
	b	Lunix_path_BB63_323
Lunix_path_BB63_305:
	add	x10, x10, #1
	cmp	x11, x10
	b.eq	Lunix_path_BB63_342
Lunix_path_BB63_306:
	ldrb	w13, [x9, x10]
	cmp	w13, #47
	b.eq	Lunix_path_BB63_305
	cmp	w13, #46
	b.ne	Lunix_path_BB63_343
	cmp	x12, x10
	b.eq	Lunix_path_BB63_342
	add	x13, x9, x10
	ldrb	w13, [x13, #1]
	cmp	w13, #47
	b.eq	Lunix_path_BB63_305
	b	Lunix_path_BB63_343
Lunix_path_BB63_310:
	subs	x9, x21, #16
	b.eq	Lunix_path_BB63_314
	mov	x10, #0
	add	x11, x3, x24
Lunix_path_BB63_312:
	ldr	q0, [x11, x10]
	movi.16b	v1, #47
	cmeq.16b	v0, v0, v1
	ldr	q1, [x27, lunix_path_CPI63_0@PAGEOFF]
	and.16b	v0, v0, v1
	addp.16b	v0, v0, v0
	addp.16b	v0, v0, v0
	addp.16b	v0, v0, v0
	umov.h	w12, v0[0]
	orr	w12, w12, #0x10000
	rbit	w12, w12
	clz	w12, w12
	cmp	w12, #15
	b.ls	Lunix_path_BB63_339
	add	x10, x10, #16
	cmp	x10, x9
	b.lo	Lunix_path_BB63_312
Lunix_path_BB63_314:
	add	x10, x3, x24
	ldr	q0, [x10, x9]
	movi.16b	v1, #47
	cmeq.16b	v0, v0, v1
	ldr	q1, [x27, lunix_path_CPI63_0@PAGEOFF]
	and.16b	v0, v0, v1
	addp.16b	v0, v0, v0
	addp.16b	v0, v0, v0
	addp.16b	v0, v0, v0
	umov.h	w10, v0[0]
	orr	w10, w10, #0x10000
	rbit	w10, w10
	clz	w10, w10
	add	x9, x9, x10
Lunix_path_BB63_315:
	mov	x10, #0
	subs	x11, x21, x9
	b.eq	Lunix_path_BB63_323
Lunix_path_BB63_316:
	add	x12, x3, x24
	add	x12, x12, x9
	sub	x13, x11, #1
	b	Lunix_path_BB63_318
Lunix_path_BB63_317:
	add	x10, x10, #1
	cmp	x11, x10
	b.eq	Lunix_path_BB63_322
Lunix_path_BB63_318:
	ldrb	w14, [x12, x10]
	cmp	w14, #47
	b.eq	Lunix_path_BB63_317
	cmp	w14, #46
	b.ne	Lunix_path_BB63_323
	cmp	x13, x10
	b.eq	Lunix_path_BB63_322
	add	x14, x12, x10
	ldrb	w14, [x14, #1]
	cmp	w14, #47
	b.eq	Lunix_path_BB63_317
	b	Lunix_path_BB63_323
Lunix_path_BB63_322:
	mov	x10, x11
Lunix_path_BB63_323:
	add	x10, x10, x9
	mov	w12, #3
	mov	x11, x16
	cbz	x20, Lunix_path_BB63_351
Lunix_path_BB63_324:
	cmp	w8, #1
	b.gt	Lunix_path_BB63_326
Lunix_path_loh92:
	adrp	x13, lunix_path__static.8@PAGE
Lunix_path_loh93:
	add	x13, x13, lunix_path__static.8@PAGEOFF
Lunix_path_loh94:
	adrp	x14, lunix_path__static.5@PAGE
Lunix_path_loh95:
	add	x14, x14, lunix_path__static.5@PAGEOFF
	mov	w15, #1
	cmp	w8, #0
	csel	x0, x13, x14, eq
	csinc	x1, x15, xzr, ne
	b	Lunix_path_BB63_328
Lunix_path_BB63_326:
	cmp	w8, #2
	b.ne	Lunix_path_BB63_328
Lunix_path_loh96:
	adrp	x0, lunix_path__static.10@PAGE
Lunix_path_loh97:
	add	x0, x0, lunix_path__static.10@PAGEOFF
	mov	w1, #2
Lunix_path_BB63_328:
Lunix_path_loh98:
	adrp	x8, lunix_path__static.8@PAGE
Lunix_path_loh99:
	add	x8, x8, lunix_path__static.8@PAGEOFF
	cmp	w12, #2
Lunix_path_loh100:
	adrp	x13, lunix_path__static.10@PAGE
Lunix_path_loh101:
	add	x13, x13, lunix_path__static.10@PAGEOFF
	mov	w14, #2
	csel	x11, x13, x11, eq
	csel	x9, x14, x9, eq
Lunix_path_loh102:
	adrp	x13, lunix_path__static.5@PAGE
Lunix_path_loh103:
	add	x13, x13, lunix_path__static.5@PAGEOFF
	mov	w14, #1
	cmp	w12, #0
	csel	x8, x8, x13, eq
	csinc	x13, x14, xzr, ne
	cmp	w12, #1
	csel	x2, x11, x8, gt
	csel	x8, x9, x13, gt
	cmp	x1, x8
	b.ne	Lunix_path_BB63_347
	add	x24, x10, x24
	cmp	x1, #4
	b.hs	Lunix_path_BB63_337
	mov	w22, #1
	cbz	x1, Lunix_path_BB63_234
	ldrb	w8, [x0]
	ldrb	w9, [x2]
	cmp	w8, w9
	b.ne	Lunix_path_BB63_233
	cmp	x1, #1
	b.eq	Lunix_path_BB63_234
	ldrb	w8, [x0, #1]
	ldrb	w9, [x2, #1]
	cmp	w8, w9
	b.ne	Lunix_path_BB63_341
	cmp	x1, #2
	b.eq	Lunix_path_BB63_234
	ldrb	w8, [x0, #2]
	ldrb	w9, [x2, #2]
	cmp	w8, w9
	b.eq	Lunix_path_BB63_234
	mov	w8, #2
	cmp	x8, x1
	b.hs	Lunix_path_BB63_234
	b	Lunix_path_BB63_347
Lunix_path_BB63_337:
	ldr	w8, [x0]
	ldr	w9, [x2]
	cmp	w8, w9
	b.ne	Lunix_path_BB63_347
	mov	x22, x16
	bl	_core.cmp.slices.groups_equal.i8.31.core.cmp.numbers.U8PartialEq.
	ldp	x3, x17, [sp, #96]
	mov	x16, x22
	mov	w22, #1
	tbnz	w0, #0, Lunix_path_BB63_234
	b	Lunix_path_BB63_347
Lunix_path_BB63_339:
	add	x9, x10, w12, uxtw
	mov	x10, #0
	subs	x11, x21, x9
	b.ne	Lunix_path_BB63_316
	b	Lunix_path_BB63_323
Lunix_path_BB63_340:
	add	x1, x9, w10, uxtw
	mov	x8, #0
	subs	x9, x20, x1
	b.ne	Lunix_path_BB63_284
	b	Lunix_path_BB63_291
Lunix_path_BB63_341:
	mov	w8, #1
	cmp	x8, x1
	b.hs	Lunix_path_BB63_234
	b	Lunix_path_BB63_347
Lunix_path_BB63_342:
	mov	x10, x11
Lunix_path_BB63_343:
	mov	x11, #0
	mov	x9, #0
	add	x10, x10, #2
	mov	w12, #2
	cbnz	x20, Lunix_path_BB63_324
	b	Lunix_path_BB63_351
Lunix_path_BB63_344:
	mov	x8, x9
Lunix_path_BB63_345:
	mov	x0, #0
	mov	x1, #0
	add	x9, x8, #2
	mov	w8, #2
	mov	x25, #0
	add	x16, x3, x24
	subs	x21, x26, x24
	b.ne	Lunix_path_BB63_292
Lunix_path_BB63_346:
	mov	x21, x25
Lunix_path_BB63_347:
	ldrb	w8, [x23]
	cmp	w8, #47
	b.eq	Lunix_path_BB63_352
	cmp	w8, #46
	ldr	x24, [sp, #72]
	b.ne	Lunix_path_BB63_353
	cmp	x20, #1
	b.ne	Lunix_path_BB63_356
	mov	w22, #1
	b	Lunix_path_BB63_357
Lunix_path_BB63_351:
	mov	x19, #0
	ldr	x24, [sp, #72]
	b	Lunix_path_BB63_412
Lunix_path_BB63_352:
	mov	w22, #1
	ldr	x24, [sp, #72]
	b	Lunix_path_BB63_357
Lunix_path_BB63_353:
	mov	w22, #0
	b	Lunix_path_BB63_357
Lunix_path_BB63_354:
	mov	x25, #0
	b	Lunix_path_BB63_416
Lunix_path_BB63_355:
	mov	w22, #1
	b	Lunix_path_BB63_425
Lunix_path_BB63_356:
	ldrb	w8, [x23, #1]
	cmp	w8, #47
	cset	w22, eq
Lunix_path_BB63_357:
	mov	x8, x20
	b	Lunix_path_BB63_359
Lunix_path_BB63_358:
	mov	x8, x1
	cbz	x1, Lunix_path_BB63_411
Lunix_path_BB63_359:
	subs	x1, x8, #1
	b.eq	Lunix_path_BB63_365
	add	x9, x23, x1
	ldrb	w10, [x9]
	cmp	w10, #47
	b.eq	Lunix_path_BB63_363
	cmp	w10, #46
	b.ne	Lunix_path_BB63_365
	ldurb	w9, [x9, #-1]
	cmp	w9, #47
	b.ne	Lunix_path_BB63_365
Lunix_path_BB63_363:
	sub	x8, x20, x1
	cmp	x8, #8
	b.ne	Lunix_path_BB63_358
	mov	x0, x23
	mov	x19, x16
	bl	_unix_path.filler.trimmed_blocks_len
	mov	x16, x19
	mov	x1, x0
	b	Lunix_path_BB63_358
Lunix_path_BB63_365:
	mov	x19, #0
	mov	x9, #0
	mov	x10, x8
	b	Lunix_path_BB63_369
Lunix_path_BB63_366:
	mov	x10, #0
Lunix_path_BB63_367:
	add	x10, x10, x12
Lunix_path_BB63_368:
	mov	w22, #0
	add	x19, x19, #1
	add	x9, x10, x9
	subs	x10, x8, x9
	b.eq	Lunix_path_BB63_412
Lunix_path_BB63_369:
	add	x11, x23, x9
	tbz	w22, #0, Lunix_path_BB63_377
	subs	x13, x10, #1
	b.eq	Lunix_path_BB63_368
	mov	x12, #0
	add	x11, x11, #1
	sub	x10, x10, #2
	b	Lunix_path_BB63_373
Lunix_path_BB63_372:
	add	x12, x12, #1
	cmp	x13, x12
	b.eq	Lunix_path_BB63_405
Lunix_path_BB63_373:
	ldrb	w14, [x11, x12]
	cmp	w14, #47
	b.eq	Lunix_path_BB63_372
	cmp	w14, #46
	b.ne	Lunix_path_BB63_406
	cmp	x10, x12
	b.eq	Lunix_path_BB63_405
	add	x14, x11, x12
	ldrb	w14, [x14, #1]
	cmp	w14, #47
	b.eq	Lunix_path_BB63_372
	b	Lunix_path_BB63_406
Lunix_path_BB63_377:
	cmp	x10, #1
	b.eq	Lunix_path_BB63_383
	ldrb	w12, [x11]
	cmp	w12, #46
	b.ne	Lunix_path_BB63_383
	ldrb	w12, [x11, #1]
	cmp	w12, #46
	b.ne	Lunix_path_BB63_383
	subs	x12, x10, #2
	b.eq	Lunix_path_BB63_368
	add	x13, x23, x9
	ldrb	w14, [x13, #2]!
	cmp	w14, #47
	b.ne	Lunix_path_BB63_383
	mov	x11, #0
	sub	x10, x10, #3
	b	Lunix_path_BB63_389
Lunix_path_BB63_383:
	cmp	x10, #15
	b.hi	Lunix_path_BB63_393
	mov	x12, #0
Lunix_path_BB63_385:
	ldrb	w13, [x11, x12]
	cmp	w13, #47
	b.eq	Lunix_path_BB63_398
	add	x12, x12, #1
	cmp	x10, x12
	b.ne	Lunix_path_BB63_385
	mov	x12, x10
	subs	x13, x10, x10
	b.ne	Lunix_path_BB63_399
	b	Lunix_path_BB63_366
Lunix_path_BB63_388:
	add	x11, x11, #1
	cmp	x12, x11
	b.eq	Lunix_path_BB63_409
Lunix_path_BB63_389:
	ldrb	w14, [x13, x11]
	cmp	w14, #47
	b.eq	Lunix_path_BB63_388
	cmp	w14, #46
	b.ne	Lunix_path_BB63_410
	cmp	x10, x11
	b.eq	Lunix_path_BB63_409
	add	x14, x13, x11
	ldrb	w14, [x14, #1]
	cmp	w14, #47
	b.eq	Lunix_path_BB63_388
	b	Lunix_path_BB63_410
Lunix_path_BB63_393:
	subs	x12, x10, #16
	b.eq	Lunix_path_BB63_397
	mov	x13, #0
Lunix_path_BB63_395:
	ldr	q0, [x11, x13]
	movi.16b	v1, #47
	cmeq.16b	v0, v0, v1
	ldr	q1, [x27, lunix_path_CPI63_0@PAGEOFF]
	and.16b	v0, v0, v1
	addp.16b	v0, v0, v0
	addp.16b	v0, v0, v0
	addp.16b	v0, v0, v0
	umov.h	w14, v0[0]
	orr	w14, w14, #0x10000
	rbit	w14, w14
	clz	w14, w14
	cmp	w14, #15
	b.ls	Lunix_path_BB63_408
	add	x13, x13, #16
	cmp	x13, x12
	b.lo	Lunix_path_BB63_395
Lunix_path_BB63_397:
	ldr	q0, [x11, x12]
	movi.16b	v1, #47
	cmeq.16b	v0, v0, v1
	ldr	q1, [x27, lunix_path_CPI63_0@PAGEOFF]
	and.16b	v0, v0, v1
	addp.16b	v0, v0, v0
	addp.16b	v0, v0, v0
	addp.16b	v0, v0, v0
	umov.h	w13, v0[0]
	orr	w13, w13, #0x10000
	rbit	w13, w13
	clz	w13, w13
	add	x12, x12, x13
Lunix_path_BB63_398:
	subs	x13, x10, x12
	b.eq	Lunix_path_BB63_366
Lunix_path_BB63_399:
	mov	x10, #0
	add	x11, x11, x12
	sub	x14, x13, #1
	b	Lunix_path_BB63_401
Lunix_path_BB63_400:
	add	x10, x10, #1
	cmp	x13, x10
	b.eq	Lunix_path_BB63_407
Lunix_path_BB63_401:
	ldrb	w15, [x11, x10]
	cmp	w15, #47
	b.eq	Lunix_path_BB63_400
	cmp	w15, #46
	b.ne	Lunix_path_BB63_367
	cmp	x14, x10
	b.eq	Lunix_path_BB63_407
	add	x15, x11, x10
	ldrb	w15, [x15, #1]
	cmp	w15, #47
	b.eq	Lunix_path_BB63_400
	b	Lunix_path_BB63_367
Lunix_path_BB63_405:
	mov	x12, x13
Lunix_path_BB63_406:
	add	x10, x12, #1
	b	Lunix_path_BB63_368
Lunix_path_BB63_407:
	mov	x10, x13
	b	Lunix_path_BB63_367
Lunix_path_BB63_408:
	add	x12, x13, w14, uxtw
	subs	x13, x10, x12
	b.ne	Lunix_path_BB63_399
	b	Lunix_path_BB63_366
Lunix_path_BB63_409:
	mov	x11, x12
Lunix_path_BB63_410:
	add	x10, x11, #2
	b	Lunix_path_BB63_368
Lunix_path_BB63_411:
	mov	x19, #0
Lunix_path_BB63_412:
	mov	x0, x16
	mov	x1, x21
	mov	x20, x16
	bl	_path_within.outlined.is_names_only
	str	xzr, [sp, #144]
	movi.2d	v0, #0000000000000000
	stp	q0, q0, [sp, #112]
	ldr	x22, [sp, #88]
	cbz	w0, Lunix_path_BB63_414
	add	x9, x21, #1
	mov	w8, #1
	strb	w8, [sp, #144]
	stur	wzr, [sp, #145]
	str	wzr, [sp, #148]
	mov	x4, #-1
	ldr	x10, [sp, #144]
	mov	x17, x20
	add	x11, x24, x22
	cbnz	x19, Lunix_path_BB63_30
	b	Lunix_path_BB63_164
Lunix_path_BB63_414:
	add	x0, sp, #112
	mov	x1, x20
	mov	x2, x21
	bl	_path_within.write.Layout.resolve_names
	ldp	x17, x21, [sp, #112]
	ldp	x4, x9, [sp, #128]
	ldr	x10, [sp, #144]
	add	x11, x24, x22
	cbnz	x19, Lunix_path_BB63_30
	b	Lunix_path_BB63_164
Lunix_path_BB63_415:
	ldrb	w8, [x17, #1]
	cmp	w8, #47
	mov	w8, #257
	csel	x25, x8, xzr, eq
Lunix_path_BB63_416:
	mov	x28, x20
	b	Lunix_path_BB63_418
Lunix_path_BB63_417:
	mov	x28, x1
	cbz	x1, Lunix_path_BB63_226
Lunix_path_BB63_418:
	subs	x1, x28, #1
	b.eq	Lunix_path_BB63_226
	add	x8, x17, x1
	ldrb	w9, [x8]
	cmp	w9, #47
	b.eq	Lunix_path_BB63_422
	cmp	w9, #46
	b.ne	Lunix_path_BB63_226
	ldurb	w8, [x8, #-1]
	cmp	w8, #47
	b.ne	Lunix_path_BB63_226
Lunix_path_BB63_422:
	sub	x8, x20, x1
	cmp	x8, #8
	b.ne	Lunix_path_BB63_417
	mov	x0, x17
	mov	x22, x13
	bl	_unix_path.filler.trimmed_blocks_len
	ldr	x17, [sp, #104]
	mov	x13, x22
	mov	x1, x0
	b	Lunix_path_BB63_417
Lunix_path_BB63_424:
	ldrb	w8, [x3, #1]
	cmp	w8, #47
	cset	w22, ne
Lunix_path_BB63_425:
	mov	x26, x19
	b	Lunix_path_BB63_427
Lunix_path_BB63_426:
	mov	x26, x1
	cbz	x1, Lunix_path_BB63_232
Lunix_path_BB63_427:
	subs	x1, x26, #1
	b.eq	Lunix_path_BB63_232
	add	x8, x3, x1
	ldrb	w9, [x8]
	cmp	w9, #47
	b.eq	Lunix_path_BB63_431
	cmp	w9, #46
	b.ne	Lunix_path_BB63_232
	ldurb	w8, [x8, #-1]
	cmp	w8, #47
	b.ne	Lunix_path_BB63_232
Lunix_path_BB63_431:
	sub	x8, x19, x1
	cmp	x8, #8
	b.ne	Lunix_path_BB63_426
	mov	x0, x3
	bl	_unix_path.filler.trimmed_blocks_len
	ldp	x3, x17, [sp, #96]
	mov	x1, x0
	b	Lunix_path_BB63_426
Lunix_path_BB63_433:
	and	x10, x21, #0x18
	and	x9, x21, #0xffffffffffffffe0
	add	x11, x17, #16
	add	x12, x22, x8
	sub	x12, x12, x21
	add	x12, x12, x24
	add	x12, x12, #15
	and	x13, x21, #0xffffffffffffffe0
Lunix_path_BB63_434:
	ldp	q0, q1, [x11, #-16]
	stp	q0, q1, [x12, #-16]
	add	x11, x11, #32
	add	x12, x12, #32
	subs	x13, x13, #32
	b.ne	Lunix_path_BB63_434
	cmp	x21, x9
	b.eq	Lunix_path_BB63_178
	cbz	x10, Lunix_path_BB63_175
Lunix_path_BB63_437:
	mov	x12, x9
	and	x9, x21, #0xfffffffffffffff8
	sub	x10, x12, x9
	add	x11, x17, x12
	add	x12, x22, x12
	add	x12, x12, x8
	mvn	x13, x21
	add	x13, x24, x13
	add	x12, x13, x12
Lunix_path_BB63_438:
	ldr	d0, [x11], #8
	str	d0, [x12], #8
	adds	x10, x10, #8
	b.ne	Lunix_path_BB63_438
	cmp	x21, x9
	b.ne	Lunix_path_BB63_175
	b	Lunix_path_BB63_178
Lunix_path_BB63_440:
	mov	w8, #1
	b	Lunix_path_BB63_194
Lunix_path_BB63_441:
	mov	w8, #1
	mov	w25, #0
	mov	x5, #0
	subs	x9, x0, x20
	b.hi	Lunix_path_BB63_90
	b	Lunix_path_BB63_112
Lunix_path_BB63_442:
	mov	w8, #2
	b	Lunix_path_BB63_194
Lunix_path_BB63_443:
	mov	w8, #3
	b	Lunix_path_BB63_194
Lunix_path_BB63_444:
	mov	w8, #4
	b	Lunix_path_BB63_194
Lunix_path_BB63_445:
	mov	w8, #5
Lunix_path_BB63_446:
	mov	x15, x26
	ldr	x16, [sp, #104]
	add	x14, x16, x26
	b	Lunix_path_BB63_194
	.loh AdrpLdr	Lunix_path_loh88, Lunix_path_loh89
	.loh AdrpAdd	Lunix_path_loh90, Lunix_path_loh91
	.loh AdrpAdd	Lunix_path_loh94, Lunix_path_loh95
	.loh AdrpAdd	Lunix_path_loh92, Lunix_path_loh93
	.loh AdrpAdd	Lunix_path_loh96, Lunix_path_loh97
	.loh AdrpAdd	Lunix_path_loh102, Lunix_path_loh103
	.loh AdrpAdd	Lunix_path_loh100, Lunix_path_loh101
	.loh AdrpAdd	Lunix_path_loh98, Lunix_path_loh99
	.section	__TEXT,__literal16,16byte_literals
	.p2align	4, 0x0
lunix_path_CPI64_0:
	.byte	1
	.byte	2
	.byte	4
	.byte	8
	.byte	16
	.byte	32
	.byte	64
	.byte	128
	.byte	1
	.byte	2
	.byte	4
	.byte	8
	.byte	16
	.byte	32
	.byte	64
	.byte	128
	.section	__TEXT,__text,regular,pure_instructions
	.globl	_unix_path_request_is_root
	.p2align	2
_unix_path_request_is_root:
	stp	x22, x21, [sp, #-48]!
	stp	x20, x19, [sp, #16]
	stp	x29, x30, [sp, #32]
	add	x29, sp, #32
	mov	x19, x0
	mov	w8, #4096
	cmp	x0, #0
	csel	x22, x8, xzr, eq
	add	x21, x0, x22
	cbz	x1, Lunix_path_BB64_10
	mov	x20, x1
	add	x8, x21, x1
	ldurb	w8, [x8, #-1]
	and	w8, w8, #0xfe
	cmp	w8, #46
	b.ne	Lunix_path_BB64_11
	mov	x11, x20
	b	Lunix_path_BB64_4
Lunix_path_BB64_3:
	mov	x11, x1
	cbz	x1, Lunix_path_BB64_12
Lunix_path_BB64_4:
	subs	x1, x11, #1
	b.eq	Lunix_path_BB64_12
	add	x8, x21, x1
	ldrb	w9, [x8]
	cmp	w9, #47
	b.eq	Lunix_path_BB64_8
	cmp	w9, #46
	b.ne	Lunix_path_BB64_12
	ldurb	w8, [x8, #-1]
	cmp	w8, #47
	b.ne	Lunix_path_BB64_12
Lunix_path_BB64_8:
	sub	x8, x20, x1
	cmp	x8, #8
	b.ne	Lunix_path_BB64_3
	add	x0, x19, x22
	bl	_unix_path.filler.trimmed_blocks_len
	mov	x1, x0
	b	Lunix_path_BB64_3
Lunix_path_BB64_10:
	mov	x11, #0
	b	Lunix_path_BB64_12
Lunix_path_BB64_11:
	mov	x11, x20
Lunix_path_BB64_12:
	mov	x8, #0
	add	x10, x22, x19
	sub	x9, x10, #16
	sub	x10, x10, #1
	b	Lunix_path_BB64_15
Lunix_path_BB64_13:
	add	x8, x8, #1
Lunix_path_BB64_14:
	sub	x11, x12, x13
	cbz	x12, Lunix_path_BB64_30
Lunix_path_BB64_15:
	mov	x12, x11
Lunix_path_BB64_16:
	cmp	x12, #15
	b.ls	Lunix_path_BB64_19
	ldr	q0, [x9, x12]
	sub	x13, x12, #16
	movi.16b	v1, #47
	cmeq.16b	v0, v0, v1
Lunix_path_loh104:
	adrp	x12, lunix_path_CPI64_0@PAGE
Lunix_path_loh105:
	ldr	q1, [x12, lunix_path_CPI64_0@PAGEOFF]
	and.16b	v0, v0, v1
	addp.16b	v0, v0, v0
	addp.16b	v0, v0, v0
	addp.16b	v0, v0, v0
	umov.h	w14, v0[0]
	mov	x12, x13
	cbz	w14, Lunix_path_BB64_16
	umov.h	w12, v0[0]
	and	x12, x12, #0xffff
	clz	x12, x12
	sub	x12, x13, x12
	add	x12, x12, #64
	b	Lunix_path_BB64_22
Lunix_path_BB64_19:
	cbz	x12, Lunix_path_BB64_22
	sub	x13, x12, #1
	ldrb	w14, [x10, x12]
	mov	x12, x13
	cmp	w14, #47
	b.ne	Lunix_path_BB64_19
	add	x12, x13, #1
Lunix_path_BB64_22:
	cmp	x12, #0
	cset	w13, ne
	subs	x14, x11, x12
	b.eq	Lunix_path_BB64_14
	add	x11, x21, x12
	cmp	x14, #1
	b.ne	Lunix_path_BB64_25
	ldrb	w11, [x11]
	cmp	w11, #46
	b.eq	Lunix_path_BB64_14
	b	Lunix_path_BB64_28
Lunix_path_BB64_25:
	cmp	x14, #2
	b.hi	Lunix_path_BB64_28
	ldrb	w14, [x11]
	cmp	w14, #46
	b.ne	Lunix_path_BB64_28
	ldrb	w11, [x11, #1]
	cmp	w11, #46
	b.eq	Lunix_path_BB64_13
Lunix_path_BB64_28:
	cbz	x8, Lunix_path_BB64_31
	sub	x8, x8, #1
	b	Lunix_path_BB64_14
Lunix_path_BB64_30:
	mov	w0, #1
	ldp	x29, x30, [sp, #32]
	ldp	x20, x19, [sp, #16]
	ldp	x22, x21, [sp], #48
	ret
Lunix_path_BB64_31:
	mov	w0, #0
	ldp	x29, x30, [sp, #32]
	ldp	x20, x19, [sp, #16]
	ldp	x22, x21, [sp], #48
	ret
	.loh AdrpLdr	Lunix_path_loh104, Lunix_path_loh105
	.section	__TEXT,__literal16,16byte_literals
	.p2align	4, 0x0
lunix_path_CPI65_0:
	.byte	1
	.byte	2
	.byte	4
	.byte	8
	.byte	16
	.byte	32
	.byte	64
	.byte	128
	.byte	1
	.byte	2
	.byte	4
	.byte	8
	.byte	16
	.byte	32
	.byte	64
	.byte	128
	.section	__TEXT,__literal8,8byte_literals
	.p2align	3, 0x0
lunix_path_CPI65_1:
	.byte	1
	.byte	2
	.byte	4
	.byte	8
	.byte	16
	.byte	32
	.byte	64
	.byte	128
	.section	__TEXT,__text,regular,pure_instructions
	.globl	_unix_path_resolved
	.p2align	2
_unix_path_resolved:
	sub	sp, sp, #128
	stp	x28, x27, [sp, #32]
	stp	x26, x25, [sp, #48]
	stp	x24, x23, [sp, #64]
	stp	x22, x21, [sp, #80]
	stp	x20, x19, [sp, #96]
	stp	x29, x30, [sp, #112]
	add	x29, sp, #112
	mov	x24, x3
	mov	x19, x2
	mov	x22, x1
	mov	x21, x0
	mov	w8, #4096
	cmp	x0, #0
	csel	x28, x8, xzr, eq
	add	x23, x0, x28
	cmp	x2, #0
	csel	x27, x8, xzr, eq
	add	x20, x2, x27
	cbz	x1, Lunix_path_BB65_60
	add	x9, x21, x28
	ldrb	w8, [x9], #1
	cmp	w8, #47
	cset	w13, eq
	csel	x10, x23, x9, ne
	subs	x9, x22, x13
	b.eq	Lunix_path_BB65_50
	ldrb	w11, [x10]
	cmp	w11, #47
	b.eq	Lunix_path_BB65_50
	cmp	w11, #46
	b.ne	Lunix_path_BB65_9
	cmp	x9, #2
	b.lo	Lunix_path_BB65_50
	ldrb	w11, [x10, #1]
	cmp	w11, #47
	b.eq	Lunix_path_BB65_50
	cmp	w11, #46
	b.ne	Lunix_path_BB65_9
	cmp	x9, #2
	b.eq	Lunix_path_BB65_50
	ldrb	w11, [x10, #2]
	cmp	w11, #47
	b.eq	Lunix_path_BB65_50
Lunix_path_BB65_9:
	add	x15, x23, x22
	ldurb	w11, [x15, #-1]
	and	w11, w11, #0xfe
	cmp	w11, #46
	b.eq	Lunix_path_BB65_50
	subs	x12, x9, #17
	b.hs	Lunix_path_BB65_13
Lunix_path_BB65_11:
	cmp	x9, #9
	b.hs	Lunix_path_BB65_21
	mov	x11, #0
	b	Lunix_path_BB65_37
Lunix_path_BB65_13:
	adrp	x11, lunix_path_CPI65_0@PAGE
	cmp	x9, #32
	b.hi	Lunix_path_BB65_23
	ldr	q1, [x10]
	ldur	q2, [x10, #1]
	movi.16b	v0, #208
	and.16b	v2, v2, v0
	orr.16b	v2, v2, v1
	movi.16b	v1, #47
	cmeq.16b	v3, v2, v1
	ldr	q2, [x11, lunix_path_CPI65_0@PAGEOFF]
	and.16b	v3, v3, v2
	addp.16b	v3, v3, v3
	addp.16b	v3, v3, v3
	addp.16b	v3, v3, v3
	umov.h	w13, v3[0]
	cbnz	w13, Lunix_path_BB65_16
	ldur	q3, [x15, #-17]
	ldur	q4, [x15, #-16]
	and.16b	v0, v4, v0
	orr.16b	v0, v0, v3
	cmeq.16b	v0, v0, v1
	and.16b	v0, v0, v2
	addp.16b	v0, v0, v0
	addp.16b	v0, v0, v0
	addp.16b	v0, v0, v0
	umov.h	w13, v0[0]
	cbz	w13, Lunix_path_BB65_61
Lunix_path_BB65_16:
	cmp	x9, #18
	b.ls	Lunix_path_BB65_11
	subs	x13, x9, #19
	b.ne	Lunix_path_BB65_25
	mov	x14, #0
Lunix_path_BB65_19:
	cmp	x12, x14
	csel	x12, x12, x14, lo
	add	x14, x10, x12
	ldr	q0, [x14]
	ldur	q1, [x14, #1]
	movi.16b	v2, #208
	and.16b	v1, v1, v2
	orr.16b	v1, v1, v0
	movi.16b	v0, #47
	cmeq.16b	v2, v1, v0
	ldr	q1, [x11, lunix_path_CPI65_0@PAGEOFF]
	and.16b	v2, v2, v1
	addp.16b	v2, v2, v2
	addp.16b	v2, v2, v2
	addp.16b	v2, v2, v2
	umov.h	w11, v2[0]
	cbz	w11, Lunix_path_BB65_36
	add	x11, x10, x13
	ldr	q2, [x11]
	ldur	q3, [x11, #1]
	ldur	q4, [x11, #2]
	ldur	q5, [x11, #3]
	movi.16b	v6, #46
	cmeq.16b	v7, v4, v6
	cmeq.16b	v5, v5, v0
	and.16b	v5, v7, v5
	cmeq.16b	v6, v3, v6
	cmeq.16b	v4, v4, v0
	orr.16b	v4, v4, v5
	and.16b	v4, v6, v4
	cmeq.16b	v2, v2, v0
	cmeq.16b	v0, v3, v0
	orr.16b	v0, v0, v4
	and.16b	v1, v2, v1
	and.16b	v0, v1, v0
	addp.16b	v0, v0, v0
	addp.16b	v0, v0, v0
	addp.16b	v0, v0, v0
	umov.h	w11, v0[0]
	orr	w11, w11, #0x10000
	rbit	w11, w11
	clz	w11, w11
	add	x11, x13, x11
	b	Lunix_path_BB65_37
Lunix_path_BB65_21:
	ldr	d3, [x10]
	ldur	d1, [x10, #1]
	movi.8b	v0, #254
	and.8b	v2, v1, v0
	movi.8b	v1, #46
	cmeq.8b	v4, v2, v1
	movi.8b	v2, #47
	cmeq.8b	v5, v3, v2
Lunix_path_loh106:
	adrp	x11, lunix_path_CPI65_1@PAGE
Lunix_path_loh107:
	ldr	d3, [x11, lunix_path_CPI65_1@PAGEOFF]
	and.8b	v5, v5, v3
	and.8b	v4, v5, v4
	addv.8b	b4, v4
	fmov	w11, s4
	orr	w11, w11, #0x100
	rbit	w11, w11
	clz	w11, w11
	cmp	w11, #8
	b.lo	Lunix_path_BB65_37
	mov	w11, #17
	cmp	x9, #17
	csel	x11, x9, x11, lo
	sub	x11, x11, #9
	add	x12, x10, x11
	ldr	d4, [x12]
	ldur	d5, [x12, #1]
	and.8b	v0, v5, v0
	cmeq.8b	v0, v0, v1
	cmeq.8b	v1, v4, v2
	and.8b	v1, v1, v3
	and.8b	v0, v1, v0
	addv.8b	b0, v0
	fmov	w12, s0
	orr	w12, w12, #0x100
	rbit	w12, w12
	clz	w12, w12
	add	x11, x11, x12
	b	Lunix_path_BB65_37
Lunix_path_BB65_23:
	sub	x14, x9, #33
	add	x16, x10, x14
	ldr	q0, [x16]
	ldur	q1, [x16, #1]
	movi.16b	v2, #208
	and.16b	v1, v1, v2
	orr.16b	v0, v1, v0
	movi.16b	v1, #47
	cmeq.16b	v3, v0, v1
	ldr	q0, [x11, lunix_path_CPI65_0@PAGEOFF]
	and.16b	v3, v3, v0
	addp.16b	v3, v3, v3
	addp.16b	v3, v3, v3
	addp.16b	v3, v3, v3
	ldur	q4, [x15, #-17]
	ldur	q5, [x15, #-16]
	and.16b	v2, v5, v2
	orr.16b	v2, v2, v4
	cmeq.16b	v1, v2, v1
	and.16b	v1, v1, v0
	addp.16b	v1, v1, v1
	addp.16b	v1, v1, v1
	addp.16b	v1, v1, v1
	orr.16b	v1, v1, v3
	umov.h	w15, v1[0]
	cbz	w15, Lunix_path_BB65_32
	sub	x13, x9, #19
Lunix_path_BB65_25:
	mov	x14, #0
	b	Lunix_path_BB65_27
Lunix_path_BB65_26:
	cmp	x14, x13
	b.hs	Lunix_path_BB65_19
Lunix_path_BB65_27:
	add	x15, x10, x14
	ldr	q0, [x15]
	ldur	q1, [x15, #1]
	movi.16b	v2, #208
	and.16b	v2, v1, v2
	orr.16b	v3, v2, v0
	movi.16b	v2, #47
	cmeq.16b	v4, v3, v2
	ldr	q3, [x11, lunix_path_CPI65_0@PAGEOFF]
	and.16b	v4, v4, v3
	addp.16b	v4, v4, v4
	addp.16b	v4, v4, v4
	addp.16b	v4, v4, v4
	umov.h	w16, v4[0]
	cbz	w16, Lunix_path_BB65_30
	ldur	q4, [x15, #2]
	ldur	q5, [x15, #3]
	movi.16b	v6, #46
	cmeq.16b	v7, v4, v6
	cmeq.16b	v5, v5, v2
	and.16b	v5, v7, v5
	cmeq.16b	v6, v1, v6
	cmeq.16b	v4, v4, v2
	orr.16b	v4, v4, v5
	and.16b	v4, v6, v4
	cmeq.16b	v0, v0, v2
	cmeq.16b	v1, v1, v2
	orr.16b	v1, v1, v4
	and.16b	v0, v0, v3
	and.16b	v0, v0, v1
	addp.16b	v0, v0, v0
	addp.16b	v0, v0, v0
	addp.16b	v0, v0, v0
	umov.h	w15, v0[0]
	orr	w15, w15, #0x10000
	rbit	w15, w15
	clz	w15, w15
	cmp	w15, #15
	b.ls	Lunix_path_BB65_31
	add	x14, x14, #16
	b	Lunix_path_BB65_26
Lunix_path_BB65_30:
	add	x14, x14, #16
	cmp	x14, x13
	b.lo	Lunix_path_BB65_27
	b	Lunix_path_BB65_26
Lunix_path_BB65_31:
	add	x11, x14, w15, uxtw
	b	Lunix_path_BB65_37
Lunix_path_BB65_32:
	cbz	x14, Lunix_path_BB65_61
	add	x13, x28, x13
	add	x13, x13, x21
	add	x13, x13, #17
	mov	w15, #17
Lunix_path_BB65_34:
	ldur	q1, [x13, #-17]
	ldp	q2, q5, [x13, #-16]
	movi.16b	v3, #208
	and.16b	v2, v2, v3
	orr.16b	v1, v2, v1
	movi.16b	v2, #47
	cmeq.16b	v1, v1, v2
	and.16b	v1, v1, v0
	addp.16b	v1, v1, v1
	addp.16b	v1, v1, v1
	addp.16b	v1, v1, v1
	ldur	q4, [x13, #-1]
	and.16b	v3, v5, v3
	orr.16b	v3, v3, v4
	cmeq.16b	v2, v3, v2
	and.16b	v2, v2, v0
	addp.16b	v2, v2, v2
	addp.16b	v2, v2, v2
	addp.16b	v2, v2, v2
	orr.16b	v1, v2, v1
	umov.h	w16, v1[0]
	cbnz	w16, Lunix_path_BB65_16
	add	x13, x13, #32
	add	x16, x15, #15
	add	x15, x15, #32
	cmp	x16, x14
	b.lo	Lunix_path_BB65_34
	b	Lunix_path_BB65_61
Lunix_path_BB65_36:
	add	x11, x12, #16
Lunix_path_BB65_37:
	cmp	x11, x9
	b.hs	Lunix_path_BB65_49
	add	x11, x11, #3
	b	Lunix_path_BB65_41
Lunix_path_BB65_39:
	cmp	w13, #47
	b.eq	Lunix_path_BB65_48
Lunix_path_BB65_40:
	add	x11, x11, #1
	cmp	x12, x9
	b.hs	Lunix_path_BB65_61
Lunix_path_BB65_41:
	add	x12, x10, x11
	ldurb	w13, [x12, #-3]
	sub	x12, x11, #2
	cmp	w13, #47
	b.ne	Lunix_path_BB65_40
	cmp	x9, x12
	b.ls	Lunix_path_BB65_48
	add	x13, x10, x11
	ldurb	w13, [x13, #-2]
	cmp	w13, #46
	b.ne	Lunix_path_BB65_39
	sub	x13, x11, #1
	cmp	x9, x13
	b.ls	Lunix_path_BB65_48
	add	x13, x10, x11
	ldurb	w13, [x13, #-1]
	cmp	w13, #46
	b.ne	Lunix_path_BB65_39
	cmp	x9, x11
	b.ls	Lunix_path_BB65_48
	ldrb	w13, [x10, x11]
	b	Lunix_path_BB65_39
Lunix_path_BB65_48:
	sub	x11, x11, #3
Lunix_path_BB65_49:
	cmp	x11, x9
	b.eq	Lunix_path_BB65_61
Lunix_path_BB65_50:
	cmp	w8, #47
	b.eq	Lunix_path_BB65_60
	cmp	w8, #46
	b.ne	Lunix_path_BB65_57
	cmp	x22, #1
	b.eq	Lunix_path_BB65_60
	ldrb	w8, [x23, #1]
	cmp	w8, #47
	b.eq	Lunix_path_BB65_60
	cmp	w8, #46
	b.ne	Lunix_path_BB65_57
	cmp	x22, #3
	b.lo	Lunix_path_BB65_60
	ldrb	w8, [x23, #2]
	cmp	w8, #47
	b.eq	Lunix_path_BB65_60
Lunix_path_BB65_57:
	add	x8, x23, x22
	ldurb	w9, [x8, #-1]
	cmp	w9, #46
	b.ne	Lunix_path_BB65_66
	cmp	x22, #1
	b.eq	Lunix_path_BB65_60
	ldurb	w8, [x8, #-2]
	cmp	w8, #47
	b.eq	Lunix_path_BB65_66
Lunix_path_BB65_60:
	add	x0, x21, x28
	mov	x1, x22
	bl	_path_within.normal.is_resolved
	tbz	w0, #0, Lunix_path_BB65_66
Lunix_path_BB65_61:
	cmp	x22, x24
	b.hi	Lunix_path_BB65_215
	sub	x8, x20, x23
	cmp	x8, x22
	b.hs	Lunix_path_BB65_98
	cmp	x22, #7
	b.ls	Lunix_path_BB65_65
	add	x8, x27, x19
	add	x9, x28, x21
	sub	x8, x8, x9
	cmp	x8, #32
	b.hs	Lunix_path_BB65_99
Lunix_path_BB65_65:
	mov	x8, #0
	b	Lunix_path_BB65_213
Lunix_path_BB65_66:
	stp	xzr, xzr, [sp, #8]
	str	xzr, [sp, #24]
	cbz	x22, Lunix_path_BB65_75
	ldrb	w8, [x23]
	cmp	w8, #47
	cset	w26, eq
	add	x8, x23, x22
	ldurb	w8, [x8, #-1]
	and	w8, w8, #0xfe
	mov	x25, x22
	cmp	w8, #46
	b.eq	Lunix_path_BB65_69
	b	Lunix_path_BB65_76
Lunix_path_BB65_68:
	mov	x25, x1
	cbz	x1, Lunix_path_BB65_76
Lunix_path_BB65_69:
	subs	x1, x25, #1
	b.eq	Lunix_path_BB65_76
	add	x8, x23, x1
	ldrb	w9, [x8]
	cmp	w9, #47
	b.eq	Lunix_path_BB65_73
	cmp	w9, #46
	b.ne	Lunix_path_BB65_76
	ldurb	w8, [x8, #-1]
	cmp	w8, #47
	b.ne	Lunix_path_BB65_76
Lunix_path_BB65_73:
	sub	x8, x22, x1
	cmp	x8, #8
	b.ne	Lunix_path_BB65_68
	add	x0, x21, x28
	bl	_unix_path.filler.trimmed_blocks_len
	mov	x1, x0
	b	Lunix_path_BB65_68
Lunix_path_BB65_75:
	mov	w26, #0
	mov	x25, #0
Lunix_path_BB65_76:
	mov	x2, #0
	b	Lunix_path_BB65_78
Lunix_path_BB65_77:
	mov	w8, #1
	add	x2, x8, x2
	cmp	x2, #4
	b.hs	Lunix_path_BB65_84
Lunix_path_BB65_78:
	cmp	x2, x25
	b.hs	Lunix_path_BB65_85
	ldrb	w8, [x23, x2]
	cmp	w8, #47
	b.eq	Lunix_path_BB65_77
	cmp	w8, #46
	b.ne	Lunix_path_BB65_85
	add	x8, x2, #1
	cmp	x8, x25
	b.eq	Lunix_path_BB65_77
	ldrb	w8, [x23, x8]
	cmp	w8, #47
	b.ne	Lunix_path_BB65_85
	mov	w8, #2
	add	x2, x8, x2
	cmp	x2, #4
	b.lo	Lunix_path_BB65_78
Lunix_path_BB65_84:
	add	x0, x21, x28
	mov	x1, x25
	bl	_unix_path.filler.filler_end_from
	mov	x2, x0
Lunix_path_BB65_85:
	subs	x0, x25, x2
	b.eq	Lunix_path_BB65_152
	add	x8, x23, x2
	ldrb	w9, [x8], #1
	add	x1, x23, x2
	cmp	w9, #47
	cset	w9, eq
	csetm	x10, eq
	csel	x11, x1, x8, ne
	subs	x8, x0, x9
	b.eq	Lunix_path_BB65_152
	ldrb	w12, [x11]
	cmp	w12, #47
	b.eq	Lunix_path_BB65_152
	cmp	w12, #46
	b.ne	Lunix_path_BB65_94
	cmp	x8, #2
	b.lo	Lunix_path_BB65_152
	ldrb	w12, [x11, #1]
	cmp	w12, #47
	b.eq	Lunix_path_BB65_152
	cmp	w12, #46
	b.ne	Lunix_path_BB65_94
	cmp	x8, #2
	b.eq	Lunix_path_BB65_152
	ldrb	w12, [x11, #2]
	cmp	w12, #47
	b.eq	Lunix_path_BB65_152
Lunix_path_BB65_94:
	add	x14, x23, x25
	ldurb	w12, [x14, #-1]
	and	w12, w12, #0xfe
	cmp	w12, #46
	b.eq	Lunix_path_BB65_152
	subs	x12, x8, #17
	b.hs	Lunix_path_BB65_101
Lunix_path_BB65_96:
	cmp	x8, #9
	b.hs	Lunix_path_BB65_115
	mov	x12, #0
	b	Lunix_path_BB65_131
Lunix_path_BB65_98:
	mov	x0, x20
	mov	x1, x23
	mov	x2, x22
	bl	_memmove
	b	Lunix_path_BB65_215
Lunix_path_BB65_99:
	cmp	x22, #32
	b.hs	Lunix_path_BB65_109
	mov	x8, #0
	b	Lunix_path_BB65_113
Lunix_path_BB65_101:
	cmp	x8, #32
	b.hi	Lunix_path_BB65_117
	ldr	q1, [x11]
	ldur	q2, [x11, #1]
	movi.16b	v0, #208
	and.16b	v2, v2, v0
	orr.16b	v2, v2, v1
	movi.16b	v1, #47
	cmeq.16b	v3, v2, v1
Lunix_path_loh108:
	adrp	x13, lunix_path_CPI65_0@PAGE
Lunix_path_loh109:
	ldr	q2, [x13, lunix_path_CPI65_0@PAGEOFF]
	and.16b	v3, v3, v2
	addp.16b	v3, v3, v3
	addp.16b	v3, v3, v3
	addp.16b	v3, v3, v3
	umov.h	w13, v3[0]
	cbnz	w13, Lunix_path_BB65_104
	ldur	q3, [x14, #-17]
	ldur	q4, [x14, #-16]
	and.16b	v0, v4, v0
	orr.16b	v0, v0, v3
	cmeq.16b	v0, v0, v1
	and.16b	v0, v0, v2
	addp.16b	v0, v0, v0
	addp.16b	v0, v0, v0
	addp.16b	v0, v0, v0
	umov.h	w13, v0[0]
	cbz	w13, Lunix_path_BB65_144
Lunix_path_BB65_104:
	cmp	x8, #18
	b.ls	Lunix_path_BB65_96
	subs	x13, x8, #19
	b.ne	Lunix_path_BB65_119
	mov	x14, #0
Lunix_path_BB65_107:
	cmp	x12, x14
	csel	x12, x12, x14, lo
	add	x14, x11, x12
	ldr	q0, [x14]
	ldur	q1, [x14, #1]
	movi.16b	v2, #208
	and.16b	v1, v1, v2
	orr.16b	v1, v1, v0
	movi.16b	v0, #47
	cmeq.16b	v2, v1, v0
Lunix_path_loh110:
	adrp	x14, lunix_path_CPI65_0@PAGE
Lunix_path_loh111:
	ldr	q1, [x14, lunix_path_CPI65_0@PAGEOFF]
	and.16b	v2, v2, v1
	addp.16b	v2, v2, v2
	addp.16b	v2, v2, v2
	addp.16b	v2, v2, v2
	umov.h	w14, v2[0]
	cbz	w14, Lunix_path_BB65_130
	add	x11, x11, x13
	ldr	q2, [x11]
	ldur	q3, [x11, #1]
	ldur	q4, [x11, #2]
	ldur	q5, [x11, #3]
	movi.16b	v6, #46
	cmeq.16b	v7, v4, v6
	cmeq.16b	v5, v5, v0
	and.16b	v5, v7, v5
	cmeq.16b	v6, v3, v6
	cmeq.16b	v4, v4, v0
	orr.16b	v4, v4, v5
	and.16b	v4, v6, v4
	cmeq.16b	v2, v2, v0
	cmeq.16b	v0, v3, v0
	orr.16b	v0, v0, v4
	and.16b	v1, v2, v1
	and.16b	v0, v1, v0
	addp.16b	v0, v0, v0
	addp.16b	v0, v0, v0
	addp.16b	v0, v0, v0
	umov.h	w11, v0[0]
	orr	w11, w11, #0x10000
	rbit	w11, w11
	clz	w11, w11
	add	x12, x13, x11
	b	Lunix_path_BB65_131
Lunix_path_BB65_109:
	and	x9, x22, #0x18
	and	x8, x22, #0xffffffffffffffe0
	add	x10, x28, x21
	add	x10, x10, #16
	add	x11, x27, x19
	add	x11, x11, #16
	and	x12, x22, #0xffffffffffffffe0
Lunix_path_BB65_110:
	ldp	q0, q1, [x10, #-16]
	stp	q0, q1, [x11, #-16]
	add	x10, x10, #32
	add	x11, x11, #32
	subs	x12, x12, #32
	b.ne	Lunix_path_BB65_110
	cmp	x22, x8
	b.eq	Lunix_path_BB65_215
	cbz	x9, Lunix_path_BB65_213
Lunix_path_BB65_113:
	mov	x11, x8
	and	x8, x22, #0xfffffffffffffff8
	sub	x9, x11, x8
	add	x10, x28, x11
	add	x10, x21, x10
	add	x11, x27, x11
	add	x11, x19, x11
Lunix_path_BB65_114:
	ldr	d0, [x10], #8
	str	d0, [x11], #8
	adds	x9, x9, #8
	b.ne	Lunix_path_BB65_114
	b	Lunix_path_BB65_214
Lunix_path_BB65_115:
	ldr	d3, [x11]
	ldur	d1, [x11, #1]
	movi.8b	v0, #254
	and.8b	v2, v1, v0
	movi.8b	v1, #46
	cmeq.8b	v4, v2, v1
	movi.8b	v2, #47
	cmeq.8b	v5, v3, v2
Lunix_path_loh112:
	adrp	x12, lunix_path_CPI65_1@PAGE
Lunix_path_loh113:
	ldr	d3, [x12, lunix_path_CPI65_1@PAGEOFF]
	and.8b	v5, v5, v3
	and.8b	v4, v5, v4
	addv.8b	b4, v4
	fmov	w12, s4
	orr	w12, w12, #0x100
	rbit	w12, w12
	clz	w12, w12
	cmp	w12, #8
	b.lo	Lunix_path_BB65_131
	mov	w12, #17
	cmp	x8, #17
	csel	x12, x8, x12, lo
	sub	x12, x12, #9
	add	x11, x11, x12
	ldr	d4, [x11]
	ldur	d5, [x11, #1]
	and.8b	v0, v5, v0
	cmeq.8b	v0, v0, v1
	cmeq.8b	v1, v4, v2
	and.8b	v1, v1, v3
	and.8b	v0, v1, v0
	addv.8b	b0, v0
	fmov	w11, s0
	orr	w11, w11, #0x100
	rbit	w11, w11
	clz	w11, w11
	add	x12, x12, x11
	b	Lunix_path_BB65_131
Lunix_path_BB65_117:
	sub	x13, x8, #33
	add	x15, x11, x13
	ldr	q0, [x15]
	ldur	q1, [x15, #1]
	movi.16b	v2, #208
	and.16b	v1, v1, v2
	orr.16b	v0, v1, v0
	movi.16b	v1, #47
	cmeq.16b	v3, v0, v1
Lunix_path_loh114:
	adrp	x15, lunix_path_CPI65_0@PAGE
Lunix_path_loh115:
	ldr	q0, [x15, lunix_path_CPI65_0@PAGEOFF]
	and.16b	v3, v3, v0
	addp.16b	v3, v3, v3
	addp.16b	v3, v3, v3
	addp.16b	v3, v3, v3
	ldur	q4, [x14, #-17]
	ldur	q5, [x14, #-16]
	and.16b	v2, v5, v2
	orr.16b	v2, v2, v4
	cmeq.16b	v1, v2, v1
	and.16b	v1, v1, v0
	addp.16b	v1, v1, v1
	addp.16b	v1, v1, v1
	addp.16b	v1, v1, v1
	orr.16b	v1, v1, v3
	umov.h	w14, v1[0]
	cbz	w14, Lunix_path_BB65_126
	sub	x13, x8, #19
Lunix_path_BB65_119:
	mov	x14, #0
	b	Lunix_path_BB65_123
Lunix_path_BB65_120:
	ldur	q4, [x15, #2]
	ldur	q5, [x15, #3]
	movi.16b	v6, #46
	cmeq.16b	v7, v4, v6
	cmeq.16b	v5, v5, v2
	and.16b	v5, v7, v5
	cmeq.16b	v6, v1, v6
	cmeq.16b	v4, v4, v2
	orr.16b	v4, v4, v5
	and.16b	v4, v6, v4
	cmeq.16b	v0, v0, v2
	cmeq.16b	v1, v1, v2
	orr.16b	v1, v1, v4
	and.16b	v0, v0, v3
	and.16b	v0, v0, v1
	addp.16b	v0, v0, v0
	addp.16b	v0, v0, v0
	addp.16b	v0, v0, v0
	umov.h	w15, v0[0]
	orr	w15, w15, #0x10000
	rbit	w15, w15
	clz	w15, w15
	cmp	w15, #15
	b.ls	Lunix_path_BB65_125
	add	x14, x14, #16
Lunix_path_BB65_122:
	cmp	x14, x13
	b.hs	Lunix_path_BB65_107
Lunix_path_BB65_123:
	add	x15, x11, x14
	ldr	q0, [x15]
	ldur	q1, [x15, #1]
	movi.16b	v2, #208
	and.16b	v2, v1, v2
	orr.16b	v3, v2, v0
	movi.16b	v2, #47
	cmeq.16b	v4, v3, v2
Lunix_path_loh116:
	adrp	x16, lunix_path_CPI65_0@PAGE
Lunix_path_loh117:
	ldr	q3, [x16, lunix_path_CPI65_0@PAGEOFF]
	and.16b	v4, v4, v3
	addp.16b	v4, v4, v4
	addp.16b	v4, v4, v4
	addp.16b	v4, v4, v4
	umov.h	w16, v4[0]
	cbnz	w16, Lunix_path_BB65_120
	add	x14, x14, #16
	cmp	x14, x13
	b.lo	Lunix_path_BB65_123
	b	Lunix_path_BB65_122
Lunix_path_BB65_125:
	add	x12, x14, w15, uxtw
	b	Lunix_path_BB65_131
Lunix_path_BB65_126:
	cbz	x13, Lunix_path_BB65_144
	mov	x14, #0
Lunix_path_BB65_128:
	add	x15, x11, x14
	ldp	q1, q4, [x15]
	ldur	q2, [x15, #1]
	movi.16b	v3, #208
	and.16b	v2, v2, v3
	orr.16b	v1, v2, v1
	movi.16b	v2, #47
	cmeq.16b	v1, v1, v2
	and.16b	v1, v1, v0
	addp.16b	v1, v1, v1
	addp.16b	v1, v1, v1
	addp.16b	v1, v1, v1
	ldur	q5, [x15, #17]
	and.16b	v3, v5, v3
	orr.16b	v3, v3, v4
	cmeq.16b	v2, v3, v2
	and.16b	v2, v2, v0
	addp.16b	v2, v2, v2
	addp.16b	v2, v2, v2
	addp.16b	v2, v2, v2
	orr.16b	v1, v2, v1
	umov.h	w15, v1[0]
	cbnz	w15, Lunix_path_BB65_104
	add	x14, x14, #32
	cmp	x14, x13
	b.lo	Lunix_path_BB65_128
	b	Lunix_path_BB65_144
Lunix_path_BB65_130:
	add	x12, x12, #16
Lunix_path_BB65_131:
	cmp	x12, x8
	b.hs	Lunix_path_BB65_143
	add	x10, x0, x10
	add	x11, x28, x12
	add	x9, x2, x9
	add	x9, x11, x9
	add	x9, x9, x21
	add	x9, x9, #1
	b	Lunix_path_BB65_135
Lunix_path_BB65_133:
	cmp	w13, #47
	b.eq	Lunix_path_BB65_143
Lunix_path_BB65_134:
	add	x9, x9, #1
	mov	x12, x11
	cmp	x11, x8
	b.hs	Lunix_path_BB65_142
Lunix_path_BB65_135:
	ldurb	w13, [x9, #-1]
	add	x11, x12, #1
	cmp	w13, #47
	b.ne	Lunix_path_BB65_134
	cmp	x8, x11
	b.ls	Lunix_path_BB65_143
	ldrb	w13, [x9]
	cmp	w13, #46
	b.ne	Lunix_path_BB65_133
	add	x13, x12, #2
	cmp	x8, x13
	b.ls	Lunix_path_BB65_143
	ldrb	w13, [x9, #1]
	cmp	w13, #46
	b.ne	Lunix_path_BB65_133
	add	x13, x12, #3
	cmp	x8, x13
	b.ls	Lunix_path_BB65_143
	ldrb	w13, [x9, #2]
	b	Lunix_path_BB65_133
Lunix_path_BB65_142:
	mov	x12, x10
Lunix_path_BB65_143:
	cmp	x12, x8
	b.ne	Lunix_path_BB65_152
Lunix_path_BB65_144:
	add	x8, x0, #1
	tbz	w26, #0, Lunix_path_BB65_178
	cmp	x8, #1
	csinc	x26, x8, xzr, hi
	cmp	x26, x24
	b.hi	Lunix_path_BB65_154
	mvn	x8, x0
	add	x8, x26, x8
	mov	x23, x8
	add	x8, x20, x8
	add	x22, x8, #1
	sub	x8, x22, x1
	cmp	x8, x0
	b.hs	Lunix_path_BB65_191
	cmp	x0, #7
	b.ls	Lunix_path_BB65_149
	add	x8, x27, x19
	add	x8, x8, x26
	add	x9, x28, x25
	add	x9, x9, x21
	sub	x8, x8, x9
	cmp	x8, #32
	b.hs	Lunix_path_BB65_197
Lunix_path_BB65_149:
	mov	x8, #0
Lunix_path_BB65_150:
	add	x9, x8, x2
	sub	x8, x9, x25
	add	x10, x21, x28
	add	x9, x10, x9
	add	x10, x27, x26
	add	x10, x19, x10
Lunix_path_BB65_151:
	ldrb	w11, [x9], #1
	strb	w11, [x10, x8]
	adds	x8, x8, #1
	b.lo	Lunix_path_BB65_151
	b	Lunix_path_BB65_192
Lunix_path_BB65_152:
	add	x0, sp, #8
	mov	x1, x23
	mov	x2, x22
	bl	_path_within.backward.count_resolved
	ldp	x4, x8, [sp, #16]
	tbz	w26, #0, Lunix_path_BB65_155
	cmp	x8, #1
	csinc	x26, x8, xzr, hi
	cmp	x26, x24
	b.ls	Lunix_path_BB65_158
Lunix_path_BB65_154:
	mov	x0, x26
	b	Lunix_path_BB65_216
Lunix_path_BB65_155:
	ldr	x9, [sp, #8]
	cbz	x9, Lunix_path_BB65_160
	str	x27, [sp]
	sub	x9, x9, #1
	mov	x10, #6148914691236517205
	cmp	x9, x10
	csel	x9, x9, x10, lo
	add	x9, x9, x9, lsl #1
	adds	x9, x9, #2
	csinv	x9, x9, xzr, lo
	adds	x9, x8, x9
	csinv	x27, x9, xzr, lo
	cmp	x27, x24
	b.hi	Lunix_path_BB65_190
	add	x26, x27, #1
	cbnz	x8, Lunix_path_BB65_162
	b	Lunix_path_BB65_163
Lunix_path_BB65_158:
	cbz	x8, Lunix_path_BB65_170
	add	x0, x20, #1
	mov	x1, x26
	mov	x2, x23
	mov	x3, x22
	bl	_path_within.backward.put_names_before
	subs	x8, x0, #3
	b.hs	Lunix_path_BB65_171
	b	Lunix_path_BB65_194
Lunix_path_BB65_160:
	cbz	x8, Lunix_path_BB65_177
	str	x27, [sp]
	sub	x27, x8, #1
	mov	x26, x8
	mov	x0, x27
	cmp	x27, x24
	b.hi	Lunix_path_BB65_216
Lunix_path_BB65_162:
	ldr	x8, [sp]
	add	x0, x19, x8
	mov	x1, x26
	mov	x2, x23
	mov	x3, x22
	bl	_path_within.backward.put_names_before
	mov	x26, x0
Lunix_path_BB65_163:
	subs	x8, x26, #3
	b.lo	Lunix_path_BB65_190
Lunix_path_BB65_164:
	mov	x9, #-6148914691236517206
	movk	x9, #43691
	umulh	x9, x8, x9
	lsr	x9, x9, #1
	add	x9, x9, #1
	ldr	x10, [sp]
	add	x10, x10, x26
	add	x10, x10, x19
	sub	x10, x10, #4
	b	Lunix_path_BB65_168
Lunix_path_BB65_165:
	mov	w12, #11822
	strh	w12, [x11]
	cbz	x8, Lunix_path_BB65_167
Lunix_path_BB65_166:
	mov	w11, #47
	strb	w11, [x10]
Lunix_path_BB65_167:
	sub	x10, x10, #3
	sub	x8, x8, #3
	sub	x9, x9, #1
	cbz	x9, Lunix_path_BB65_190
Lunix_path_BB65_168:
	add	x11, x10, #1
Lunix_path_loh118:
	adrp	x12, lunix_path__static.10@PAGE
Lunix_path_loh119:
	add	x12, x12, lunix_path__static.10@PAGEOFF
	sub	x12, x11, x12
	cmp	x12, #1
	b.hi	Lunix_path_BB65_165
	mov	w11, #11822
	sturh	w11, [x10, #1]
	cbnz	x8, Lunix_path_BB65_166
	b	Lunix_path_BB65_167
Lunix_path_BB65_170:
	mov	x0, x26
	subs	x8, x26, #3
	b.lo	Lunix_path_BB65_194
Lunix_path_BB65_171:
	mov	x9, #-6148914691236517206
	movk	x9, #43691
	umulh	x9, x8, x9
	lsr	x9, x9, #1
	add	x9, x9, #1
	add	x10, x27, x0
	add	x10, x10, x19
	sub	x10, x10, #3
	b	Lunix_path_BB65_175
Lunix_path_BB65_172:
	mov	w12, #11822
	strh	w12, [x11]
	cbz	x8, Lunix_path_BB65_174
Lunix_path_BB65_173:
	mov	w11, #47
	strb	w11, [x10]
Lunix_path_BB65_174:
	sub	x10, x10, #3
	sub	x8, x8, #3
	sub	x9, x9, #1
	cbz	x9, Lunix_path_BB65_194
Lunix_path_BB65_175:
	add	x11, x10, #1
Lunix_path_loh120:
	adrp	x12, lunix_path__static.10@PAGE
Lunix_path_loh121:
	add	x12, x12, lunix_path__static.10@PAGEOFF
	sub	x12, x11, x12
	cmp	x12, #1
	b.hi	Lunix_path_BB65_172
	mov	w11, #11822
	sturh	w11, [x10, #1]
	cbnz	x8, Lunix_path_BB65_173
	b	Lunix_path_BB65_174
Lunix_path_BB65_177:
	mov	x0, #0
	b	Lunix_path_BB65_216
Lunix_path_BB65_178:
	str	x27, [sp]
	cbz	x8, Lunix_path_BB65_180
	mov	x27, x0
	cmp	x0, x24
	b.hi	Lunix_path_BB65_216
	b	Lunix_path_BB65_181
Lunix_path_BB65_180:
	mov	x27, #0
Lunix_path_BB65_181:
	sub	x26, x27, x0
	add	x20, x20, x26
	sub	x9, x20, x1
	cmp	x9, x0
	b.hs	Lunix_path_BB65_187
	cmp	x0, #7
	b.ls	Lunix_path_BB65_184
	cmp	x8, #1
	csinc	x11, x8, xzr, hi
	add	x9, x28, x25
	add	x9, x9, x21
	ldr	x10, [sp]
	add	x10, x10, x19
	sub	x9, x9, x10
	sub	x9, x9, x11
	cmn	x9, #33
	b.ls	Lunix_path_BB65_195
Lunix_path_BB65_184:
	mov	x9, #0
Lunix_path_BB65_185:
	sub	x10, x25, x9
	sub	x10, x10, x2
	add	x11, x28, x9
	add	x12, x21, x2
	add	x11, x12, x11
	ldr	x12, [sp]
	add	x9, x12, x9
	add	x9, x9, x2
	cmp	x8, #1
	csinc	x8, x8, xzr, hi
	add	x8, x9, x8
	mvn	x9, x25
	add	x9, x19, x9
	add	x8, x9, x8
Lunix_path_BB65_186:
	ldrb	w9, [x11], #1
	strb	w9, [x8], #1
	subs	x10, x10, #1
	b.ne	Lunix_path_BB65_186
	b	Lunix_path_BB65_188
Lunix_path_BB65_187:
	mov	x2, x0
	mov	x0, x20
	bl	_memmove
Lunix_path_BB65_188:
	cbz	x26, Lunix_path_BB65_190
	mov	w8, #47
	sturb	w8, [x20, #-1]
	subs	x8, x26, #3
	b.hs	Lunix_path_BB65_164
Lunix_path_BB65_190:
	mov	x0, x27
	b	Lunix_path_BB65_216
Lunix_path_BB65_191:
	mov	x2, x0
	mov	x0, x22
	bl	_memmove
Lunix_path_BB65_192:
	cbz	x23, Lunix_path_BB65_194
	mov	x0, x23
	mov	w8, #47
	sturb	w8, [x22, #-1]
	subs	x8, x23, #3
	b.hs	Lunix_path_BB65_171
Lunix_path_BB65_194:
	mov	w8, #47
	strb	w8, [x20]
	mov	x0, x26
	b	Lunix_path_BB65_216
Lunix_path_BB65_195:
	cmp	x0, #32
	b.hs	Lunix_path_BB65_199
	mov	x9, #0
	b	Lunix_path_BB65_203
Lunix_path_BB65_197:
	cmp	x0, #32
	b.hs	Lunix_path_BB65_206
	mov	x8, #0
	b	Lunix_path_BB65_210
Lunix_path_BB65_199:
	and	x10, x0, #0x18
	and	x9, x0, #0xffffffffffffffe0
	ldr	x12, [sp]
	add	x12, x12, x2
	add	x11, x12, x11
	sub	x11, x11, x25
	add	x11, x11, x19
	add	x11, x11, #15
	add	x12, x28, x2
	add	x12, x12, x21
	add	x12, x12, #16
	and	x13, x0, #0xffffffffffffffe0
Lunix_path_BB65_200:
	ldp	q0, q1, [x12, #-16]
	stp	q0, q1, [x11, #-16]
	add	x11, x11, #32
	add	x12, x12, #32
	subs	x13, x13, #32
	b.ne	Lunix_path_BB65_200
	cmp	x0, x9
	b.eq	Lunix_path_BB65_188
	cbz	x10, Lunix_path_BB65_185
Lunix_path_BB65_203:
	mov	x12, x9
	and	x9, x0, #0xfffffffffffffff8
	sub	x10, x12, x9
	add	x11, x28, x2
	add	x13, x21, x12
	add	x11, x13, x11
	ldr	x13, [sp]
	add	x13, x13, x2
	add	x12, x13, x12
	cmp	x8, #1
	csinc	x13, x8, xzr, hi
	add	x12, x12, x13
	mvn	x13, x25
	add	x13, x19, x13
	add	x12, x13, x12
Lunix_path_BB65_204:
	ldr	d0, [x11], #8
	str	d0, [x12], #8
	adds	x10, x10, #8
	b.ne	Lunix_path_BB65_204
	cmp	x0, x9
	b.ne	Lunix_path_BB65_185
	b	Lunix_path_BB65_188
Lunix_path_BB65_206:
	and	x9, x0, #0x18
	and	x8, x0, #0xffffffffffffffe0
	add	x10, x27, x2
	add	x10, x10, x26
	sub	x10, x10, x25
	add	x10, x10, x19
	add	x10, x10, #16
	add	x11, x28, x2
	add	x11, x11, x21
	add	x11, x11, #16
	and	x12, x0, #0xffffffffffffffe0
Lunix_path_BB65_207:
	ldp	q0, q1, [x11, #-16]
	stp	q0, q1, [x10, #-16]
	add	x10, x10, #32
	add	x11, x11, #32
	subs	x12, x12, #32
	b.ne	Lunix_path_BB65_207
	cmp	x0, x8
	b.eq	Lunix_path_BB65_192
	cbz	x9, Lunix_path_BB65_150
Lunix_path_BB65_210:
	mov	x11, x8
	and	x8, x0, #0xfffffffffffffff8
	sub	x9, x11, x8
	add	x10, x28, x2
	add	x12, x21, x11
	add	x10, x12, x10
	add	x12, x27, x2
	add	x11, x12, x11
	add	x11, x11, x26
	sub	x11, x11, x25
	add	x11, x19, x11
Lunix_path_BB65_211:
	ldr	d0, [x10], #8
	str	d0, [x11], #8
	adds	x9, x9, #8
	b.ne	Lunix_path_BB65_211
	cmp	x0, x8
	b.ne	Lunix_path_BB65_150
	b	Lunix_path_BB65_192
Lunix_path_BB65_213:
	ldrb	w9, [x23, x8]
	strb	w9, [x20, x8]
	add	x8, x8, #1
Lunix_path_BB65_214:
	cmp	x22, x8
	b.ne	Lunix_path_BB65_213
Lunix_path_BB65_215:
	mov	x0, x22
Lunix_path_BB65_216:
	ldp	x29, x30, [sp, #112]
	ldp	x20, x19, [sp, #96]
	ldp	x22, x21, [sp, #80]
	ldp	x24, x23, [sp, #64]
	ldp	x26, x25, [sp, #48]
	ldp	x28, x27, [sp, #32]
	add	sp, sp, #128
	ret
	.loh AdrpLdr	Lunix_path_loh106, Lunix_path_loh107
	.loh AdrpLdr	Lunix_path_loh108, Lunix_path_loh109
	.loh AdrpLdr	Lunix_path_loh110, Lunix_path_loh111
	.loh AdrpLdr	Lunix_path_loh112, Lunix_path_loh113
	.loh AdrpLdr	Lunix_path_loh114, Lunix_path_loh115
	.loh AdrpLdr	Lunix_path_loh116, Lunix_path_loh117
	.loh AdrpAdd	Lunix_path_loh118, Lunix_path_loh119
	.loh AdrpAdd	Lunix_path_loh120, Lunix_path_loh121
	.section	__TEXT,__literal16,16byte_literals
	.p2align	4, 0x0
lunix_path_CPI66_0:
	.byte	1
	.byte	2
	.byte	4
	.byte	8
	.byte	16
	.byte	32
	.byte	64
	.byte	128
	.byte	1
	.byte	2
	.byte	4
	.byte	8
	.byte	16
	.byte	32
	.byte	64
	.byte	128
	.section	__TEXT,__literal8,8byte_literals
	.p2align	3, 0x0
lunix_path_CPI66_1:
	.byte	1
	.byte	2
	.byte	4
	.byte	8
	.byte	16
	.byte	32
	.byte	64
	.byte	128
	.section	__TEXT,__text,regular,pure_instructions
	.globl	_unix_path_starts_with
	.p2align	2
_unix_path_starts_with:
	mov	w9, #4096
	cmp	x0, #0
	csel	x8, x9, xzr, eq
	cmp	x2, #0
	csel	x9, x9, xzr, eq
	cbz	x3, Lunix_path_BB66_17
	sub	sp, sp, #48
	stp	x29, x30, [sp, #32]
	add	x29, sp, #32
	add	x8, x0, x8
	add	x9, x2, x9
	stp	xzr, xzr, [sp, #8]
	str	xzr, [sp, #24]
	cmp	x3, x1
	csel	x10, x3, x1, lo
	cmp	x10, #15
	b.hi	Lunix_path_BB66_18
	cmp	x10, #7
	b.hi	Lunix_path_BB66_23
	cbz	x1, Lunix_path_BB66_32
	ldrb	w11, [x8]
	ldrb	w12, [x9]
	cmp	w11, w12
	b.ne	Lunix_path_BB66_33
	cmp	x10, #1
	b.eq	Lunix_path_BB66_34
	ldrb	w11, [x8, #1]
	ldrb	w12, [x9, #1]
	cmp	w11, w12
	b.ne	Lunix_path_BB66_58
	cmp	x10, #2
	b.eq	Lunix_path_BB66_34
	ldrb	w11, [x8, #2]
	ldrb	w12, [x9, #2]
	cmp	w11, w12
	b.ne	Lunix_path_BB66_59
	cmp	x10, #3
	b.eq	Lunix_path_BB66_34
	ldrb	w11, [x8, #3]
	ldrb	w12, [x9, #3]
	cmp	w11, w12
	b.ne	Lunix_path_BB66_60
	cmp	x10, #4
	b.eq	Lunix_path_BB66_34
	ldrb	w11, [x8, #4]
	ldrb	w12, [x9, #4]
	cmp	w11, w12
	b.ne	Lunix_path_BB66_61
	cmp	x10, #5
	b.eq	Lunix_path_BB66_34
	ldrb	w11, [x8, #5]
	ldrb	w12, [x9, #5]
	cmp	w11, w12
	b.ne	Lunix_path_BB66_62
	cmp	x10, #6
	b.eq	Lunix_path_BB66_34
	ldrb	w11, [x8, #6]
	ldrb	w12, [x9, #6]
	cmp	w11, w12
	mov	w11, #6
	csel	x10, x10, x11, eq
	b	Lunix_path_BB66_34
Lunix_path_BB66_17:
	mov	w0, #1
	ret
Lunix_path_BB66_18:
	sub	x11, x10, #16
	adrp	x12, lunix_path_CPI66_0@PAGE
	cmp	x10, #64
	b.lo	Lunix_path_BB66_25
	mov	x13, #0
	and	x14, x10, #0xffffffffffffffc0
Lunix_path_BB66_20:
	add	x15, x8, x13
	ldp	q0, q1, [x15]
	ldp	q2, q3, [x15, #32]
	add	x15, x9, x13
	ldp	q4, q5, [x15]
	ldp	q6, q7, [x15, #32]
	cmeq.16b	v3, v3, v7
	cmeq.16b	v2, v2, v6
	cmeq.16b	v1, v1, v5
	cmeq.16b	v0, v0, v4
	ldr	q4, [x12, lunix_path_CPI66_0@PAGEOFF]
	bic.16b	v0, v4, v0
	bic.16b	v1, v4, v1
	bic.16b	v2, v4, v2
	bic.16b	v3, v4, v3
	addp.16b	v0, v0, v1
	addp.16b	v1, v2, v3
	addp.16b	v0, v0, v1
	addp.16b	v0, v0, v0
	fmov	x15, d0
	cbnz	x15, Lunix_path_BB66_28
	add	x13, x13, #64
	sub	x10, x10, #64
	cmp	x10, #63
	b.hi	Lunix_path_BB66_20
	mov	x13, x14
	b	Lunix_path_BB66_28
Lunix_path_BB66_23:
	ldr	d0, [x8]
	ldr	d1, [x9]
	cmeq.8b	v1, v0, v1
Lunix_path_loh122:
	adrp	x11, lunix_path_CPI66_1@PAGE
Lunix_path_loh123:
	ldr	d0, [x11, lunix_path_CPI66_1@PAGEOFF]
	bic.8b	v1, v0, v1
	addv.8b	b1, v1
	fmov	w11, s1
	orr	w11, w11, #0x100
	rbit	w11, w11
	clz	w11, w11
	cmp	w11, #8
	b.hs	Lunix_path_BB66_31
	mov	x10, x11
	b	Lunix_path_BB66_34
Lunix_path_BB66_25:
	mov	x13, #0
	b	Lunix_path_BB66_28
Lunix_path_BB66_26:
	ldr	q0, [x8, x13]
	ldr	q1, [x9, x13]
	cmeq.16b	v0, v0, v1
	ldr	q1, [x12, lunix_path_CPI66_0@PAGEOFF]
	bic.16b	v0, v1, v0
	addp.16b	v0, v0, v0
	addp.16b	v0, v0, v0
	addp.16b	v0, v0, v0
	umov.h	w10, v0[0]
	orr	w10, w10, #0x10000
	rbit	w10, w10
	clz	w10, w10
	cmp	w10, #15
	b.ls	Lunix_path_BB66_30
	add	x13, x13, #16
Lunix_path_BB66_28:
	cmp	x13, x11
	b.lo	Lunix_path_BB66_26
	ldr	q0, [x8, x11]
	ldr	q1, [x9, x11]
	cmeq.16b	v0, v0, v1
	ldr	q1, [x12, lunix_path_CPI66_0@PAGEOFF]
	bic.16b	v0, v1, v0
	addp.16b	v0, v0, v0
	addp.16b	v0, v0, v0
	addp.16b	v0, v0, v0
	umov.h	w10, v0[0]
	orr	w10, w10, #0x10000
	rbit	w10, w10
	clz	w10, w10
	add	x10, x11, x10
	b	Lunix_path_BB66_34
Lunix_path_BB66_30:
	add	x10, x13, w10, uxtw
	b	Lunix_path_BB66_34
Lunix_path_BB66_31:
	sub	x10, x10, #8
	ldr	d1, [x8, x10]
	ldr	d2, [x9, x10]
	cmeq.8b	v1, v1, v2
	bic.8b	v0, v0, v1
	addv.8b	b0, v0
	fmov	w11, s0
	orr	w11, w11, #0x100
	rbit	w11, w11
	clz	w11, w11
	add	x10, x10, x11
	b	Lunix_path_BB66_34
Lunix_path_BB66_32:
	mov	x10, #0
	mov	w11, #1
	cmp	x10, x1
	b.lo	Lunix_path_BB66_36
	b	Lunix_path_BB66_37
Lunix_path_BB66_33:
	mov	x10, #0
Lunix_path_BB66_34:
	cmp	x3, x10
	b.ls	Lunix_path_BB66_41
	mov	w11, #1
	cmp	x10, x1
	b.hs	Lunix_path_BB66_37
Lunix_path_BB66_36:
	ldrb	w12, [x8, x10]
	cmp	w12, #47
	b.ne	Lunix_path_BB66_48
Lunix_path_BB66_37:
	mov	w12, #0
	cbz	w11, Lunix_path_BB66_39
Lunix_path_BB66_38:
	ldrb	w11, [x9, x10]
	cmp	w11, #47
	csinc	w11, wzr, w11, eq
Lunix_path_BB66_39:
	cmp	w12, w11
	b.ne	Lunix_path_BB66_45
	cbnz	x10, Lunix_path_BB66_47
	b	Lunix_path_BB66_56
Lunix_path_BB66_41:
	cmp	x3, x1
	b.hs	Lunix_path_BB66_52
	add	x11, x8, x3
	ldrb	w12, [x11]
	cmp	w12, #47
	b.ne	Lunix_path_BB66_51
	mov	w0, #1
Lunix_path_BB66_44:
	ldp	x29, x30, [sp, #32]
	add	sp, sp, #48
	ret
Lunix_path_BB66_45:
	cbz	x10, Lunix_path_BB66_56
	add	x11, x8, x10
	ldurb	w11, [x11, #-1]
	cmp	w11, #47
	b.ne	Lunix_path_BB66_53
Lunix_path_BB66_47:
	sub	x2, x1, x10
	sub	x4, x3, x10
	add	x0, sp, #8
	add	x1, x8, x10
	add	x3, x9, x10
	bl	_unix_path.pair.Comparison.rest_after_cut
	ldrb	w8, [sp, #8]
	cmp	w8, #1
	cset	w0, eq
	ldp	x29, x30, [sp, #32]
	add	sp, sp, #48
	ret
Lunix_path_BB66_48:
	cmp	w12, #46
	eor	w13, w11, #0x1
	csinc	w13, w13, wzr, ne
	tbnz	w13, #0, Lunix_path_BB66_50
	ldrb	w13, [x9, x10]
	and	w13, w13, #0xfe
	cmp	w13, #46
	b.ne	Lunix_path_BB66_56
Lunix_path_BB66_50:
	add	w12, w12, #1
	cbz	w11, Lunix_path_BB66_39
	b	Lunix_path_BB66_38
Lunix_path_BB66_51:
	ldurb	w11, [x11, #-1]
	cmp	w11, #47
	b.ne	Lunix_path_BB66_57
Lunix_path_BB66_52:
	mov	w0, #1
	ldp	x29, x30, [sp, #32]
	add	sp, sp, #48
	ret
Lunix_path_BB66_53:
	mov	w0, #0
	subs	x10, x10, #1
	b.eq	Lunix_path_BB66_44
	cmp	w11, #46
	b.ne	Lunix_path_BB66_44
	add	x11, x8, x10
	ldurb	w11, [x11, #-1]
	cmp	w11, #47
	b.eq	Lunix_path_BB66_47
Lunix_path_BB66_56:
	mov	w0, #0
	ldp	x29, x30, [sp, #32]
	add	sp, sp, #48
	ret
Lunix_path_BB66_57:
	mov	w11, #0
	cmp	x10, x1
	b.lo	Lunix_path_BB66_36
	b	Lunix_path_BB66_37
Lunix_path_BB66_58:
	mov	w10, #1
	b	Lunix_path_BB66_34
Lunix_path_BB66_59:
	mov	w10, #2
	b	Lunix_path_BB66_34
Lunix_path_BB66_60:
	mov	w10, #3
	b	Lunix_path_BB66_34
Lunix_path_BB66_61:
	mov	w10, #4
	b	Lunix_path_BB66_34
Lunix_path_BB66_62:
	mov	w10, #5
	b	Lunix_path_BB66_34
	.loh AdrpLdr	Lunix_path_loh122, Lunix_path_loh123
	.section	__TEXT,__literal16,16byte_literals
	.p2align	4, 0x0
lunix_path_CPI67_0:
	.byte	1
	.byte	2
	.byte	4
	.byte	8
	.byte	16
	.byte	32
	.byte	64
	.byte	128
	.byte	1
	.byte	2
	.byte	4
	.byte	8
	.byte	16
	.byte	32
	.byte	64
	.byte	128
	.section	__TEXT,__literal8,8byte_literals
	.p2align	3, 0x0
lunix_path_CPI67_1:
	.byte	1
	.byte	2
	.byte	4
	.byte	8
	.byte	16
	.byte	32
	.byte	64
	.byte	128
	.section	__TEXT,__text,regular,pure_instructions
	.globl	_unix_path_strip_prefix
	.p2align	2
_unix_path_strip_prefix:
	sub	sp, sp, #112
	stp	x26, x25, [sp, #32]
	stp	x24, x23, [sp, #48]
	stp	x22, x21, [sp, #64]
	stp	x20, x19, [sp, #80]
	stp	x29, x30, [sp, #96]
	add	x29, sp, #96
	mov	x19, x4
	mov	x22, x3
	mov	x23, x2
	mov	x20, x1
	mov	w8, #4096
	cmp	x0, #0
	csel	x9, x8, xzr, eq
	add	x21, x0, x9
	cmp	x2, #0
	csel	x25, x8, xzr, eq
	cbz	x1, Lunix_path_BB67_9
	mov	x24, x20
	b	Lunix_path_BB67_3
Lunix_path_BB67_2:
	mov	x24, x1
	cbz	x1, Lunix_path_BB67_10
Lunix_path_BB67_3:
	subs	x1, x24, #1
	b.eq	Lunix_path_BB67_10
	add	x8, x21, x1
	ldrb	w9, [x8]
	cmp	w9, #47
	b.eq	Lunix_path_BB67_7
	cmp	w9, #46
	b.ne	Lunix_path_BB67_10
	ldurb	w8, [x8, #-1]
	cmp	w8, #47
	b.ne	Lunix_path_BB67_10
Lunix_path_BB67_7:
	sub	x8, x20, x1
	cmp	x8, #8
	b.ne	Lunix_path_BB67_2
	mov	x0, x21
	bl	_unix_path.filler.trimmed_blocks_len
	mov	x1, x0
	b	Lunix_path_BB67_2
Lunix_path_BB67_9:
	mov	x24, #0
Lunix_path_BB67_10:
	cbz	x22, Lunix_path_BB67_68
	add	x8, x23, x25
	stp	xzr, xzr, [sp, #8]
	str	xzr, [sp, #24]
	cmp	x22, x24
	csel	x9, x22, x24, lo
	cmp	x9, #15
	b.hi	Lunix_path_BB67_27
	cmp	x9, #7
	b.hi	Lunix_path_BB67_32
	cbz	x24, Lunix_path_BB67_41
	ldrb	w10, [x21]
	ldrb	w11, [x8]
	cmp	w10, w11
	b.ne	Lunix_path_BB67_42
	cmp	x9, #1
	b.eq	Lunix_path_BB67_43
	ldrb	w10, [x21, #1]
	ldrb	w11, [x8, #1]
	cmp	w10, w11
	b.ne	Lunix_path_BB67_88
	cmp	x9, #2
	b.eq	Lunix_path_BB67_43
	ldrb	w10, [x21, #2]
	ldrb	w11, [x8, #2]
	cmp	w10, w11
	b.ne	Lunix_path_BB67_89
	cmp	x9, #3
	b.eq	Lunix_path_BB67_43
	ldrb	w10, [x21, #3]
	ldrb	w11, [x8, #3]
	cmp	w10, w11
	b.ne	Lunix_path_BB67_90
	cmp	x9, #4
	b.eq	Lunix_path_BB67_43
	ldrb	w10, [x21, #4]
	ldrb	w11, [x8, #4]
	cmp	w10, w11
	b.ne	Lunix_path_BB67_91
	cmp	x9, #5
	b.eq	Lunix_path_BB67_43
	ldrb	w10, [x21, #5]
	ldrb	w11, [x8, #5]
	cmp	w10, w11
	b.ne	Lunix_path_BB67_92
	cmp	x9, #6
	b.eq	Lunix_path_BB67_43
	ldrb	w10, [x21, #6]
	ldrb	w11, [x8, #6]
	cmp	w10, w11
	mov	w10, #6
	csel	x9, x9, x10, eq
	b	Lunix_path_BB67_43
Lunix_path_BB67_27:
	sub	x10, x9, #16
	adrp	x11, lunix_path_CPI67_0@PAGE
	cmp	x9, #64
	b.lo	Lunix_path_BB67_34
	mov	x12, #0
	and	x13, x9, #0xffffffffffffffc0
Lunix_path_BB67_29:
	add	x14, x21, x12
	ldp	q0, q1, [x14]
	ldp	q2, q3, [x14, #32]
	add	x14, x8, x12
	ldp	q4, q5, [x14]
	ldp	q6, q7, [x14, #32]
	cmeq.16b	v3, v3, v7
	cmeq.16b	v2, v2, v6
	cmeq.16b	v1, v1, v5
	cmeq.16b	v0, v0, v4
	ldr	q4, [x11, lunix_path_CPI67_0@PAGEOFF]
	bic.16b	v0, v4, v0
	bic.16b	v1, v4, v1
	bic.16b	v2, v4, v2
	bic.16b	v3, v4, v3
	addp.16b	v0, v0, v1
	addp.16b	v1, v2, v3
	addp.16b	v0, v0, v1
	addp.16b	v0, v0, v0
	fmov	x14, d0
	cbnz	x14, Lunix_path_BB67_37
	add	x12, x12, #64
	sub	x9, x9, #64
	cmp	x9, #63
	b.hi	Lunix_path_BB67_29
	mov	x12, x13
	b	Lunix_path_BB67_37
Lunix_path_BB67_32:
	ldr	d0, [x21]
	ldr	d1, [x8]
	cmeq.8b	v1, v0, v1
Lunix_path_loh124:
	adrp	x10, lunix_path_CPI67_1@PAGE
Lunix_path_loh125:
	ldr	d0, [x10, lunix_path_CPI67_1@PAGEOFF]
	bic.8b	v1, v0, v1
	addv.8b	b1, v1
	fmov	w10, s1
	orr	w10, w10, #0x100
	rbit	w10, w10
	clz	w10, w10
	cmp	w10, #8
	b.hs	Lunix_path_BB67_40
	mov	x9, x10
	b	Lunix_path_BB67_43
Lunix_path_BB67_34:
	mov	x12, #0
	b	Lunix_path_BB67_37
Lunix_path_BB67_35:
	ldr	q0, [x21, x12]
	ldr	q1, [x8, x12]
	cmeq.16b	v0, v0, v1
	ldr	q1, [x11, lunix_path_CPI67_0@PAGEOFF]
	bic.16b	v0, v1, v0
	addp.16b	v0, v0, v0
	addp.16b	v0, v0, v0
	addp.16b	v0, v0, v0
	umov.h	w9, v0[0]
	orr	w9, w9, #0x10000
	rbit	w9, w9
	clz	w9, w9
	cmp	w9, #15
	b.ls	Lunix_path_BB67_39
	add	x12, x12, #16
Lunix_path_BB67_37:
	cmp	x12, x10
	b.lo	Lunix_path_BB67_35
	ldr	q0, [x21, x10]
	ldr	q1, [x8, x10]
	cmeq.16b	v0, v0, v1
	ldr	q1, [x11, lunix_path_CPI67_0@PAGEOFF]
	bic.16b	v0, v1, v0
	addp.16b	v0, v0, v0
	addp.16b	v0, v0, v0
	addp.16b	v0, v0, v0
	umov.h	w9, v0[0]
	orr	w9, w9, #0x10000
	rbit	w9, w9
	clz	w9, w9
	add	x9, x10, x9
	b	Lunix_path_BB67_43
Lunix_path_BB67_39:
	add	x9, x12, w9, uxtw
	b	Lunix_path_BB67_43
Lunix_path_BB67_40:
	sub	x9, x9, #8
	ldr	d1, [x21, x9]
	ldr	d2, [x8, x9]
	cmeq.8b	v1, v1, v2
	bic.8b	v0, v0, v1
	addv.8b	b0, v0
	fmov	w10, s0
	orr	w10, w10, #0x100
	rbit	w10, w10
	clz	w10, w10
	add	x9, x9, x10
	b	Lunix_path_BB67_43
Lunix_path_BB67_41:
	mov	x9, #0
	mov	w10, #1
	cmp	x9, x24
	b.lo	Lunix_path_BB67_45
	b	Lunix_path_BB67_46
Lunix_path_BB67_42:
	mov	x9, #0
Lunix_path_BB67_43:
	cmp	x22, x9
	b.ls	Lunix_path_BB67_50
	mov	w10, #1
	cmp	x9, x24
	b.hs	Lunix_path_BB67_46
Lunix_path_BB67_45:
	ldrb	w11, [x21, x9]
	cmp	w11, #47
	b.ne	Lunix_path_BB67_79
Lunix_path_BB67_46:
	mov	w11, #0
	cbz	w10, Lunix_path_BB67_48
Lunix_path_BB67_47:
	ldrb	w10, [x8, x9]
	cmp	w10, #47
	csinc	w10, wzr, w10, eq
Lunix_path_BB67_48:
	cmp	w11, w10
	b.ne	Lunix_path_BB67_54
	cbnz	x9, Lunix_path_BB67_56
	b	Lunix_path_BB67_85
Lunix_path_BB67_50:
	subs	x23, x24, x22
	b.ls	Lunix_path_BB67_53
	add	x10, x21, x22
	ldrb	w11, [x10]
	cmp	w11, #47
	b.eq	Lunix_path_BB67_53
	ldurb	w10, [x10, #-1]
	cmp	w10, #47
	b.ne	Lunix_path_BB67_87
Lunix_path_BB67_53:
	add	x0, x21, x22
	b	Lunix_path_BB67_58
Lunix_path_BB67_54:
	cbz	x9, Lunix_path_BB67_85
	add	x10, x21, x9
	ldurb	w10, [x10, #-1]
	cmp	w10, #47
	b.ne	Lunix_path_BB67_82
Lunix_path_BB67_56:
	sub	x2, x24, x9
	sub	x4, x22, x9
	add	x0, sp, #8
	add	x1, x21, x9
	add	x3, x8, x9
	bl	_unix_path.pair.Comparison.rest_after_cut
	ldrb	w8, [sp, #8]
	cmp	w8, #1
	b.ne	Lunix_path_BB67_85
	ldp	x0, x23, [sp, #16]
Lunix_path_BB67_58:
	mov	x2, #0
	b	Lunix_path_BB67_60
Lunix_path_BB67_59:
	mov	w8, #1
	add	x2, x8, x2
	cmp	x2, #4
	b.hs	Lunix_path_BB67_66
Lunix_path_BB67_60:
	cmp	x2, x23
	b.hs	Lunix_path_BB67_67
	ldrb	w8, [x0, x2]
	cmp	w8, #47
	b.eq	Lunix_path_BB67_59
	cmp	w8, #46
	b.ne	Lunix_path_BB67_67
	add	x8, x2, #1
	cmp	x8, x23
	b.eq	Lunix_path_BB67_59
	ldrb	w8, [x0, x8]
	cmp	w8, #47
	b.ne	Lunix_path_BB67_67
	mov	w8, #2
	add	x2, x8, x2
	cmp	x2, #4
	b.lo	Lunix_path_BB67_60
Lunix_path_BB67_66:
	mov	x1, x23
	bl	_unix_path.filler.filler_end_from
	mov	x2, x0
Lunix_path_BB67_67:
	sub	x24, x23, x2
Lunix_path_BB67_68:
	cbz	x20, Lunix_path_BB67_77
	mov	x8, x20
	b	Lunix_path_BB67_71
Lunix_path_BB67_70:
	mov	x8, x1
	cbz	x1, Lunix_path_BB67_78
Lunix_path_BB67_71:
	subs	x1, x8, #1
	b.eq	Lunix_path_BB67_78
	add	x9, x21, x1
	ldrb	w10, [x9]
	cmp	w10, #47
	b.eq	Lunix_path_BB67_75
	cmp	w10, #46
	b.ne	Lunix_path_BB67_78
	ldurb	w9, [x9, #-1]
	cmp	w9, #47
	b.ne	Lunix_path_BB67_78
Lunix_path_BB67_75:
	sub	x8, x20, x1
	cmp	x8, #8
	b.ne	Lunix_path_BB67_70
	mov	x0, x21
	bl	_unix_path.filler.trimmed_blocks_len
	mov	x1, x0
	b	Lunix_path_BB67_70
Lunix_path_BB67_77:
	mov	x8, #0
Lunix_path_BB67_78:
	sub	x8, x8, x24
	stp	x8, x24, [x19]
	mov	w0, #1
	b	Lunix_path_BB67_86
Lunix_path_BB67_79:
	cmp	w11, #46
	eor	w12, w10, #0x1
	csinc	w12, w12, wzr, ne
	tbnz	w12, #0, Lunix_path_BB67_81
	ldrb	w12, [x8, x9]
	and	w12, w12, #0xfe
	cmp	w12, #46
	b.ne	Lunix_path_BB67_85
Lunix_path_BB67_81:
	add	w11, w11, #1
	cbz	w10, Lunix_path_BB67_48
	b	Lunix_path_BB67_47
Lunix_path_BB67_82:
	subs	x9, x9, #1
	b.eq	Lunix_path_BB67_85
	cmp	w10, #46
	b.ne	Lunix_path_BB67_85
	add	x10, x21, x9
	ldurb	w10, [x10, #-1]
	cmp	w10, #47
	b.eq	Lunix_path_BB67_56
Lunix_path_BB67_85:
	mov	w0, #0
Lunix_path_BB67_86:
	ldp	x29, x30, [sp, #96]
	ldp	x20, x19, [sp, #80]
	ldp	x22, x21, [sp, #64]
	ldp	x24, x23, [sp, #48]
	ldp	x26, x25, [sp, #32]
	add	sp, sp, #112
	ret
Lunix_path_BB67_87:
	mov	w10, #0
	cmp	x9, x24
	b.lo	Lunix_path_BB67_45
	b	Lunix_path_BB67_46
Lunix_path_BB67_88:
	mov	w9, #1
	b	Lunix_path_BB67_43
Lunix_path_BB67_89:
	mov	w9, #2
	b	Lunix_path_BB67_43
Lunix_path_BB67_90:
	mov	w9, #3
	b	Lunix_path_BB67_43
Lunix_path_BB67_91:
	mov	w9, #4
	b	Lunix_path_BB67_43
Lunix_path_BB67_92:
	mov	w9, #5
	b	Lunix_path_BB67_43
	.loh AdrpLdr	Lunix_path_loh124, Lunix_path_loh125
	.globl	_unix_path_version
	.p2align	2
_unix_path_version:
	mov	w0, #256
	movk	w0, #1, lsl #16
	ret
	.section	__TEXT,__literal16,16byte_literals
	.p2align	4, 0x0
lunix_path_CPI69_0:
	.byte	1
	.byte	2
	.byte	4
	.byte	8
	.byte	16
	.byte	32
	.byte	64
	.byte	128
	.byte	1
	.byte	2
	.byte	4
	.byte	8
	.byte	16
	.byte	32
	.byte	64
	.byte	128
	.section	__TEXT,__text,regular,pure_instructions
	.globl	_unix_path_join_beneath
	.p2align	2
_unix_path_join_beneath:
	sub	sp, sp, #144
	stp	x28, x27, [sp, #48]
	stp	x26, x25, [sp, #64]
	stp	x24, x23, [sp, #80]
	stp	x22, x21, [sp, #96]
	stp	x20, x19, [sp, #112]
	stp	x29, x30, [sp, #128]
	add	x29, sp, #128
	mov	x24, x5
	mov	x19, x4
	mov	x20, x1
	mov	x21, x0
	mov	w8, #4096
	cmp	x0, #0
	csel	x26, x8, xzr, eq
	cmp	x2, #0
	csel	x9, x8, xzr, eq
	add	x22, x2, x9
	cmp	x4, #0
	csel	x27, x8, xzr, eq
	cbz	x3, Lunix_path_BB69_8
	ldrb	w8, [x22]
	cmp	w8, #47
	b.eq	Lunix_path_BB69_7
	mov	x0, x22
	mov	x23, x3
	mov	x1, x3
	bl	_path_within.check.check_escape
	ands	w8, w0, #0xff
	b.eq	Lunix_path_BB69_7
	mov	x3, x23
	cmp	x23, #15
	b.hi	Lunix_path_BB69_16
	mov	x9, #0
Lunix_path_BB69_5:
	ldrb	w10, [x22, x9]
	cbz	w10, Lunix_path_BB69_9
	add	x9, x9, #1
	cmp	x3, x9
	b.ne	Lunix_path_BB69_5
	b	Lunix_path_BB69_11
Lunix_path_BB69_7:
	mov	x0, #-2
	b	Lunix_path_BB69_44
Lunix_path_BB69_8:
	mov	x9, #0
	mov	w8, #2
Lunix_path_BB69_9:
	cmp	x9, x3
	b.hs	Lunix_path_BB69_11
	mov	x0, #-4
	b	Lunix_path_BB69_44
Lunix_path_BB69_11:
	str	xzr, [sp, #32]
	movi.2d	v0, #0000000000000000
	stp	q0, q0, [sp]
	cmp	w8, #1
	b.ne	Lunix_path_BB69_13
	add	x8, x3, #1
	mov	x4, #-1
	mov	w9, #1
	add	x23, x21, x26
	mov	x28, x20
	cbnz	x8, Lunix_path_BB69_14
	b	Lunix_path_BB69_23
Lunix_path_BB69_13:
	mov	x0, sp
	mov	x1, x22
	mov	x2, x3
	bl	_path_within.write.Layout.resolve_names
	ldp	x22, x3, [sp]
	ldp	x4, x8, [sp, #16]
	ldrb	w9, [sp, #32]
	add	x23, x21, x26
	mov	x28, x20
	cbz	x8, Lunix_path_BB69_23
Lunix_path_BB69_14:
	add	x10, x8, x20
	cbz	x20, Lunix_path_BB69_21
	add	x11, x23, x20
	ldurb	w11, [x11, #-1]
	cmp	w11, #47
	csetm	x11, eq
	b	Lunix_path_BB69_22
Lunix_path_BB69_16:
	adrp	x10, lunix_path_CPI69_0@PAGE
	subs	x9, x3, #16
	b.eq	Lunix_path_BB69_20
	mov	x11, #0
Lunix_path_BB69_18:
	ldr	q0, [x22, x11]
	cmeq.16b	v0, v0, #0
	ldr	q1, [x10, lunix_path_CPI69_0@PAGEOFF]
	and.16b	v0, v0, v1
	addp.16b	v0, v0, v0
	addp.16b	v0, v0, v0
	addp.16b	v0, v0, v0
	umov.h	w12, v0[0]
	orr	w12, w12, #0x10000
	rbit	w12, w12
	clz	w12, w12
	cmp	w12, #15
	b.ls	Lunix_path_BB69_45
	add	x11, x11, #16
	cmp	x11, x9
	b.lo	Lunix_path_BB69_18
Lunix_path_BB69_20:
	ldr	q0, [x22, x9]
	cmeq.16b	v0, v0, #0
	ldr	q1, [x10, lunix_path_CPI69_0@PAGEOFF]
	and.16b	v0, v0, v1
	addp.16b	v0, v0, v0
	addp.16b	v0, v0, v0
	addp.16b	v0, v0, v0
	umov.h	w10, v0[0]
	orr	w10, w10, #0x10000
	rbit	w10, w10
	clz	w10, w10
	add	x9, x9, x10
	b	Lunix_path_BB69_9
Lunix_path_BB69_21:
	mov	x11, #-1
Lunix_path_BB69_22:
	add	x28, x10, x11
Lunix_path_BB69_23:
	cmp	x28, x24
	b.hi	Lunix_path_BB69_43
	add	x24, x19, x27
	tbz	w9, #0, Lunix_path_BB69_31
	sub	x8, x28, x3
	add	x25, x24, x8
	sub	x8, x25, x22
	cmp	x8, x3
	b.hs	Lunix_path_BB69_33
	cmp	x3, #7
	b.ls	Lunix_path_BB69_28
	add	x8, x27, x28
	add	x8, x8, x19
	add	x9, x3, x22
	sub	x8, x8, x9
	cmp	x8, #32
	b.hs	Lunix_path_BB69_48
Lunix_path_BB69_28:
	mov	x8, #0
Lunix_path_BB69_29:
	sub	x9, x8, x3
	add	x8, x22, x8
	add	x10, x27, x28
	add	x10, x19, x10
Lunix_path_BB69_30:
	ldrb	w11, [x8], #1
	strb	w11, [x10, x9]
	adds	x9, x9, #1
	b.lo	Lunix_path_BB69_30
	b	Lunix_path_BB69_34
Lunix_path_BB69_31:
	cbz	x8, Lunix_path_BB69_36
	add	x0, x19, x27
	add	x1, x28, #1
	mov	x2, x22
	bl	_path_within.backward.put_names_before
	b	Lunix_path_BB69_36
Lunix_path_BB69_33:
	mov	x0, x25
	mov	x1, x22
	mov	x2, x3
	mov	x22, x3
	bl	_memmove
	mov	x3, x22
Lunix_path_BB69_34:
	cmp	x28, x3
	b.eq	Lunix_path_BB69_36
	mov	w8, #47
	sturb	w8, [x25, #-1]
Lunix_path_BB69_36:
	sub	x8, x24, x23
	cmp	x8, x20
	b.hs	Lunix_path_BB69_42
	cmp	x20, #7
	b.ls	Lunix_path_BB69_39
	add	x8, x27, x19
	add	x9, x26, x21
	sub	x8, x8, x9
	cmp	x8, #32
	b.hs	Lunix_path_BB69_46
Lunix_path_BB69_39:
	mov	x8, #0
Lunix_path_BB69_40:
	sub	x9, x20, x8
	add	x10, x26, x8
	add	x10, x21, x10
	add	x8, x27, x8
	add	x8, x19, x8
Lunix_path_BB69_41:
	ldrb	w11, [x10], #1
	strb	w11, [x8], #1
	subs	x9, x9, #1
	b.ne	Lunix_path_BB69_41
	b	Lunix_path_BB69_43
Lunix_path_BB69_42:
	mov	x0, x24
	mov	x1, x23
	mov	x2, x20
	bl	_memmove
Lunix_path_BB69_43:
	mov	x8, #-9223372036854775808
	cmp	x28, x8
	csel	x0, x28, x8, lo
Lunix_path_BB69_44:
	ldp	x29, x30, [sp, #128]
	ldp	x20, x19, [sp, #112]
	ldp	x22, x21, [sp, #96]
	ldp	x24, x23, [sp, #80]
	ldp	x26, x25, [sp, #64]
	ldp	x28, x27, [sp, #48]
	add	sp, sp, #144
	ret
Lunix_path_BB69_45:
	add	x9, x11, w12, uxtw
	b	Lunix_path_BB69_9
Lunix_path_BB69_46:
	cmp	x20, #32
	b.hs	Lunix_path_BB69_50
	mov	x8, #0
	b	Lunix_path_BB69_54
Lunix_path_BB69_48:
	cmp	x3, #32
	b.hs	Lunix_path_BB69_57
	mov	x8, #0
	b	Lunix_path_BB69_61
Lunix_path_BB69_50:
	and	x9, x20, #0x18
	and	x8, x20, #0xffffffffffffffe0
	add	x10, x26, x21
	add	x10, x10, #16
	add	x11, x27, x19
	add	x11, x11, #16
	and	x12, x20, #0xffffffffffffffe0
Lunix_path_BB69_51:
	ldp	q0, q1, [x10, #-16]
	stp	q0, q1, [x11, #-16]
	add	x10, x10, #32
	add	x11, x11, #32
	subs	x12, x12, #32
	b.ne	Lunix_path_BB69_51
	cmp	x20, x8
	b.eq	Lunix_path_BB69_43
	cbz	x9, Lunix_path_BB69_40
Lunix_path_BB69_54:
	mov	x11, x8
	and	x8, x20, #0xfffffffffffffff8
	sub	x9, x11, x8
	add	x10, x26, x11
	add	x10, x21, x10
	add	x11, x27, x11
	add	x11, x19, x11
Lunix_path_BB69_55:
	ldr	d0, [x10], #8
	str	d0, [x11], #8
	adds	x9, x9, #8
	b.ne	Lunix_path_BB69_55
	cmp	x20, x8
	b.ne	Lunix_path_BB69_40
	b	Lunix_path_BB69_43
Lunix_path_BB69_57:
	and	x9, x3, #0x18
	and	x8, x3, #0xffffffffffffffe0
	add	x10, x22, #16
	add	x11, x27, x28
	sub	x11, x11, x3
	add	x11, x11, x19
	add	x11, x11, #16
	and	x12, x3, #0xffffffffffffffe0
Lunix_path_BB69_58:
	ldp	q0, q1, [x10, #-16]
	stp	q0, q1, [x11, #-16]
	add	x10, x10, #32
	add	x11, x11, #32
	subs	x12, x12, #32
	b.ne	Lunix_path_BB69_58
	cmp	x3, x8
	b.eq	Lunix_path_BB69_34
	cbz	x9, Lunix_path_BB69_29
Lunix_path_BB69_61:
	mov	x11, x8
	and	x8, x3, #0xfffffffffffffff8
	sub	x9, x11, x8
	add	x10, x22, x11
	add	x11, x27, x11
	add	x11, x11, x28
	sub	x11, x11, x3
	add	x11, x19, x11
Lunix_path_BB69_62:
	ldr	d0, [x10], #8
	str	d0, [x11], #8
	adds	x9, x9, #8
	b.ne	Lunix_path_BB69_62
	cmp	x3, x8
	b.ne	Lunix_path_BB69_29
	b	Lunix_path_BB69_34
	.section	__TEXT,__literal16,16byte_literals
	.p2align	4, 0x0
lunix_path_CPI70_0:
	.byte	1
	.byte	2
	.byte	4
	.byte	8
	.byte	16
	.byte	32
	.byte	64
	.byte	128
	.byte	1
	.byte	2
	.byte	4
	.byte	8
	.byte	16
	.byte	32
	.byte	64
	.byte	128
	.section	__TEXT,__literal8,8byte_literals
	.p2align	3, 0x0
lunix_path_CPI70_1:
	.byte	1
	.byte	2
	.byte	4
	.byte	8
	.byte	16
	.byte	32
	.byte	64
	.byte	128
	.section	__TEXT,__text,regular,pure_instructions
	.globl	_unix_path_join_in_root
	.p2align	2
_unix_path_join_in_root:
	sub	sp, sp, #144
	stp	x28, x27, [sp, #48]
	stp	x26, x25, [sp, #64]
	stp	x24, x23, [sp, #80]
	stp	x22, x21, [sp, #96]
	stp	x20, x19, [sp, #112]
	stp	x29, x30, [sp, #128]
	add	x29, sp, #128
	mov	x22, x5
	mov	x19, x4
	mov	x20, x1
	mov	x21, x0
	mov	w9, #4096
	cmp	x0, #0
	csel	x26, x9, xzr, eq
	cmp	x2, #0
	csel	x10, x9, xzr, eq
	add	x8, x2, x10
	cmp	x4, #0
	csel	x27, x9, xzr, eq
	cmp	x3, #15
	b.hi	Lunix_path_BB70_5
	cbz	x3, Lunix_path_BB70_17
	mov	x9, #0
Lunix_path_BB70_3:
	ldrb	w11, [x8, x9]
	cbz	w11, Lunix_path_BB70_10
	add	x9, x9, #1
	cmp	x3, x9
	b.ne	Lunix_path_BB70_3
	b	Lunix_path_BB70_14
Lunix_path_BB70_5:
	adrp	x11, lunix_path_CPI70_0@PAGE
	subs	x9, x3, #16
	b.eq	Lunix_path_BB70_9
	mov	x12, #0
Lunix_path_BB70_7:
	ldr	q0, [x8, x12]
	cmeq.16b	v0, v0, #0
	ldr	q1, [x11, lunix_path_CPI70_0@PAGEOFF]
	and.16b	v0, v0, v1
	addp.16b	v0, v0, v0
	addp.16b	v0, v0, v0
	addp.16b	v0, v0, v0
	umov.h	w13, v0[0]
	orr	w13, w13, #0x10000
	rbit	w13, w13
	clz	w13, w13
	cmp	w13, #15
	b.ls	Lunix_path_BB70_12
	add	x12, x12, #16
	cmp	x12, x9
	b.lo	Lunix_path_BB70_7
Lunix_path_BB70_9:
	ldr	q0, [x8, x9]
	cmeq.16b	v0, v0, #0
	ldr	q1, [x11, lunix_path_CPI70_0@PAGEOFF]
	and.16b	v0, v0, v1
	addp.16b	v0, v0, v0
	addp.16b	v0, v0, v0
	addp.16b	v0, v0, v0
	umov.h	w11, v0[0]
	orr	w11, w11, #0x10000
	rbit	w11, w11
	clz	w11, w11
	add	x9, x9, x11
Lunix_path_BB70_10:
	cmp	x9, x3
	b.hs	Lunix_path_BB70_13
Lunix_path_BB70_11:
	mov	x0, #-4
	b	Lunix_path_BB70_56
Lunix_path_BB70_12:
	add	x9, x12, w13, uxtw
	cmp	x9, x3
	b.lo	Lunix_path_BB70_11
Lunix_path_BB70_13:
	cbz	x3, Lunix_path_BB70_17
Lunix_path_BB70_14:
	mov	x9, #0
	add	x10, x10, x2
	add	x11, x10, #16
Lunix_path_BB70_15:
	ldrb	w10, [x8, x9]
	cmp	w10, #47
	b.ne	Lunix_path_BB70_22
	add	x9, x9, #1
	add	x11, x11, #1
	cmp	x9, x3
	b.ne	Lunix_path_BB70_15
Lunix_path_BB70_17:
	mov	x2, #0
	add	x1, x8, x3
Lunix_path_BB70_18:
	str	xzr, [sp, #32]
	movi.2d	v0, #0000000000000000
	stp	q0, q0, [sp]
Lunix_path_BB70_19:
	mov	x0, sp
	bl	_path_within.write.Layout.resolve_names
	ldp	x1, x2, [sp]
	ldp	x4, x8, [sp, #16]
	ldrb	w9, [sp, #32]
	add	x23, x21, x26
	mov	x28, x20
	cbz	x8, Lunix_path_BB70_35
Lunix_path_BB70_20:
	add	x10, x8, x20
	cbz	x20, Lunix_path_BB70_33
	add	x11, x23, x20
	ldurb	w11, [x11, #-1]
	cmp	w11, #47
	csetm	x11, eq
	b	Lunix_path_BB70_34
Lunix_path_BB70_22:
	add	x1, x8, x9
	subs	x2, x3, x9
	b.eq	Lunix_path_BB70_18
	cmp	w10, #46
	b.ne	Lunix_path_BB70_29
	cmp	x2, #2
	b.lo	Lunix_path_BB70_18
	ldrb	w10, [x1, #1]
	cmp	w10, #47
	b.eq	Lunix_path_BB70_18
	cmp	w10, #46
	b.ne	Lunix_path_BB70_29
	cmp	x2, #2
	b.eq	Lunix_path_BB70_18
	ldrb	w10, [x1, #2]
	cmp	w10, #47
	b.eq	Lunix_path_BB70_18
Lunix_path_BB70_29:
	add	x13, x8, x3
	ldurb	w10, [x13, #-1]
	and	w10, w10, #0xfe
	cmp	w10, #46
	b.eq	Lunix_path_BB70_18
	subs	x10, x2, #17
	b.hs	Lunix_path_BB70_68
Lunix_path_BB70_31:
	cmp	x2, #9
	b.hs	Lunix_path_BB70_83
	mov	x10, #0
	b	Lunix_path_BB70_99
Lunix_path_BB70_33:
	mov	x11, #-1
Lunix_path_BB70_34:
	add	x28, x10, x11
Lunix_path_BB70_35:
	cmp	x28, x22
	b.hi	Lunix_path_BB70_55
	add	x22, x19, x27
	tbz	w9, #0, Lunix_path_BB70_43
	sub	x8, x28, x2
	add	x24, x22, x8
	sub	x8, x24, x1
	cmp	x8, x2
	b.hs	Lunix_path_BB70_45
	cmp	x2, #7
	b.ls	Lunix_path_BB70_40
	add	x8, x27, x28
	add	x8, x8, x19
	add	x9, x2, x1
	sub	x8, x8, x9
	cmp	x8, #32
	b.hs	Lunix_path_BB70_59
Lunix_path_BB70_40:
	mov	x8, #0
Lunix_path_BB70_41:
	sub	x9, x8, x2
	add	x8, x1, x8
	add	x10, x27, x28
	add	x10, x19, x10
Lunix_path_BB70_42:
	ldrb	w11, [x8], #1
	strb	w11, [x10, x9]
	adds	x9, x9, #1
	b.lo	Lunix_path_BB70_42
	b	Lunix_path_BB70_46
Lunix_path_BB70_43:
	cbz	x8, Lunix_path_BB70_48
	add	x0, x19, x27
	mov	x8, x1
	add	x1, x28, #1
	mov	x3, x2
	mov	x2, x8
	bl	_path_within.backward.put_names_before
	b	Lunix_path_BB70_48
Lunix_path_BB70_45:
	mov	x0, x24
	mov	x25, x2
	bl	_memmove
	mov	x2, x25
Lunix_path_BB70_46:
	cmp	x28, x2
	b.eq	Lunix_path_BB70_48
	mov	w8, #47
	sturb	w8, [x24, #-1]
Lunix_path_BB70_48:
	sub	x8, x22, x23
	cmp	x8, x20
	b.hs	Lunix_path_BB70_54
	cmp	x20, #7
	b.ls	Lunix_path_BB70_51
	add	x8, x27, x19
	add	x9, x26, x21
	sub	x8, x8, x9
	cmp	x8, #32
	b.hs	Lunix_path_BB70_57
Lunix_path_BB70_51:
	mov	x8, #0
Lunix_path_BB70_52:
	sub	x9, x20, x8
	add	x10, x26, x8
	add	x10, x21, x10
	add	x8, x27, x8
	add	x8, x19, x8
Lunix_path_BB70_53:
	ldrb	w11, [x10], #1
	strb	w11, [x8], #1
	subs	x9, x9, #1
	b.ne	Lunix_path_BB70_53
	b	Lunix_path_BB70_55
Lunix_path_BB70_54:
	mov	x0, x22
	mov	x1, x23
	mov	x2, x20
	bl	_memmove
Lunix_path_BB70_55:
	mov	x8, #-9223372036854775808
	cmp	x28, x8
	csel	x0, x28, x8, lo
Lunix_path_BB70_56:
	ldp	x29, x30, [sp, #128]
	ldp	x20, x19, [sp, #112]
	ldp	x22, x21, [sp, #96]
	ldp	x24, x23, [sp, #80]
	ldp	x26, x25, [sp, #64]
	ldp	x28, x27, [sp, #48]
	add	sp, sp, #144
	ret
Lunix_path_BB70_57:
	cmp	x20, #32
	b.hs	Lunix_path_BB70_61
	mov	x8, #0
	b	Lunix_path_BB70_65
Lunix_path_BB70_59:
	cmp	x2, #32
	b.hs	Lunix_path_BB70_76
	mov	x8, #0
	b	Lunix_path_BB70_80
Lunix_path_BB70_61:
	and	x9, x20, #0x18
	and	x8, x20, #0xffffffffffffffe0
	add	x10, x26, x21
	add	x10, x10, #16
	add	x11, x27, x19
	add	x11, x11, #16
	and	x12, x20, #0xffffffffffffffe0
Lunix_path_BB70_62:
	ldp	q0, q1, [x10, #-16]
	stp	q0, q1, [x11, #-16]
	add	x10, x10, #32
	add	x11, x11, #32
	subs	x12, x12, #32
	b.ne	Lunix_path_BB70_62
	cmp	x20, x8
	b.eq	Lunix_path_BB70_55
	cbz	x9, Lunix_path_BB70_52
Lunix_path_BB70_65:
	mov	x11, x8
	and	x8, x20, #0xfffffffffffffff8
	sub	x9, x11, x8
	add	x10, x26, x11
	add	x10, x21, x10
	add	x11, x27, x11
	add	x11, x19, x11
Lunix_path_BB70_66:
	ldr	d0, [x10], #8
	str	d0, [x11], #8
	adds	x9, x9, #8
	b.ne	Lunix_path_BB70_66
	cmp	x20, x8
	b.ne	Lunix_path_BB70_52
	b	Lunix_path_BB70_55
Lunix_path_BB70_68:
	cmp	x2, #32
	b.hi	Lunix_path_BB70_85
	ldr	q1, [x1]
	ldur	q2, [x1, #1]
	movi.16b	v0, #208
	and.16b	v2, v2, v0
	orr.16b	v2, v2, v1
	movi.16b	v1, #47
	cmeq.16b	v3, v2, v1
Lunix_path_loh126:
	adrp	x11, lunix_path_CPI70_0@PAGE
Lunix_path_loh127:
	ldr	q2, [x11, lunix_path_CPI70_0@PAGEOFF]
	and.16b	v3, v3, v2
	addp.16b	v3, v3, v3
	addp.16b	v3, v3, v3
	addp.16b	v3, v3, v3
	umov.h	w11, v3[0]
	cbnz	w11, Lunix_path_BB70_71
	ldur	q3, [x13, #-17]
	ldur	q4, [x13, #-16]
	and.16b	v0, v4, v0
	orr.16b	v0, v0, v3
	cmeq.16b	v0, v0, v1
	and.16b	v0, v0, v2
	addp.16b	v0, v0, v0
	addp.16b	v0, v0, v0
	addp.16b	v0, v0, v0
	umov.h	w11, v0[0]
	cbz	w11, Lunix_path_BB70_111
Lunix_path_BB70_71:
	cmp	x2, #18
	b.ls	Lunix_path_BB70_31
	subs	x11, x2, #19
	b.ne	Lunix_path_BB70_87
	mov	x12, #0
Lunix_path_BB70_74:
	cmp	x10, x12
	csel	x10, x10, x12, lo
	add	x12, x1, x10
	ldr	q0, [x12]
	ldur	q1, [x12, #1]
	movi.16b	v2, #208
	and.16b	v1, v1, v2
	orr.16b	v1, v1, v0
	movi.16b	v0, #47
	cmeq.16b	v2, v1, v0
Lunix_path_loh128:
	adrp	x12, lunix_path_CPI70_0@PAGE
Lunix_path_loh129:
	ldr	q1, [x12, lunix_path_CPI70_0@PAGEOFF]
	and.16b	v2, v2, v1
	addp.16b	v2, v2, v2
	addp.16b	v2, v2, v2
	addp.16b	v2, v2, v2
	umov.h	w12, v2[0]
	cbz	w12, Lunix_path_BB70_98
	add	x10, x1, x11
	ldr	q2, [x10]
	ldur	q3, [x10, #1]
	ldur	q4, [x10, #2]
	ldur	q5, [x10, #3]
	movi.16b	v6, #46
	cmeq.16b	v7, v4, v6
	cmeq.16b	v5, v5, v0
	and.16b	v5, v7, v5
	cmeq.16b	v6, v3, v6
	cmeq.16b	v4, v4, v0
	orr.16b	v4, v4, v5
	and.16b	v4, v6, v4
	cmeq.16b	v2, v2, v0
	cmeq.16b	v0, v3, v0
	orr.16b	v0, v0, v4
	and.16b	v1, v2, v1
	and.16b	v0, v1, v0
	addp.16b	v0, v0, v0
	addp.16b	v0, v0, v0
	addp.16b	v0, v0, v0
	umov.h	w10, v0[0]
	orr	w10, w10, #0x10000
	rbit	w10, w10
	clz	w10, w10
	add	x10, x11, x10
	b	Lunix_path_BB70_99
Lunix_path_BB70_76:
	and	x9, x2, #0x18
	and	x8, x2, #0xffffffffffffffe0
	add	x10, x1, #16
	add	x11, x27, x28
	sub	x11, x11, x2
	add	x11, x11, x19
	add	x11, x11, #16
	and	x12, x2, #0xffffffffffffffe0
Lunix_path_BB70_77:
	ldp	q0, q1, [x10, #-16]
	stp	q0, q1, [x11, #-16]
	add	x10, x10, #32
	add	x11, x11, #32
	subs	x12, x12, #32
	b.ne	Lunix_path_BB70_77
	cmp	x2, x8
	b.eq	Lunix_path_BB70_46
	cbz	x9, Lunix_path_BB70_41
Lunix_path_BB70_80:
	mov	x11, x8
	and	x8, x2, #0xfffffffffffffff8
	sub	x9, x11, x8
	add	x10, x1, x11
	add	x11, x27, x11
	add	x11, x11, x28
	sub	x11, x11, x2
	add	x11, x19, x11
Lunix_path_BB70_81:
	ldr	d0, [x10], #8
	str	d0, [x11], #8
	adds	x9, x9, #8
	b.ne	Lunix_path_BB70_81
	cmp	x2, x8
	b.ne	Lunix_path_BB70_41
	b	Lunix_path_BB70_46
Lunix_path_BB70_83:
	ldr	d3, [x1]
	ldur	d1, [x1, #1]
	movi.8b	v0, #254
	and.8b	v2, v1, v0
	movi.8b	v1, #46
	cmeq.8b	v4, v2, v1
	movi.8b	v2, #47
	cmeq.8b	v5, v3, v2
Lunix_path_loh130:
	adrp	x10, lunix_path_CPI70_1@PAGE
Lunix_path_loh131:
	ldr	d3, [x10, lunix_path_CPI70_1@PAGEOFF]
	and.8b	v5, v5, v3
	and.8b	v4, v5, v4
	addv.8b	b4, v4
	fmov	w10, s4
	orr	w10, w10, #0x100
	rbit	w10, w10
	clz	w10, w10
	cmp	w10, #8
	b.lo	Lunix_path_BB70_99
	mov	w10, #17
	cmp	x2, #17
	csel	x10, x2, x10, lo
	sub	x10, x10, #9
	add	x11, x1, x10
	ldr	d4, [x11]
	ldur	d5, [x11, #1]
	and.8b	v0, v5, v0
	cmeq.8b	v0, v0, v1
	cmeq.8b	v1, v4, v2
	and.8b	v1, v1, v3
	and.8b	v0, v1, v0
	addv.8b	b0, v0
	fmov	w11, s0
	orr	w11, w11, #0x100
	rbit	w11, w11
	clz	w11, w11
	add	x10, x10, x11
	b	Lunix_path_BB70_99
Lunix_path_BB70_85:
	sub	x12, x2, #33
	add	x14, x1, x12
	ldr	q0, [x14]
	ldur	q1, [x14, #1]
	movi.16b	v2, #208
	and.16b	v1, v1, v2
	orr.16b	v0, v1, v0
	movi.16b	v1, #47
	cmeq.16b	v3, v0, v1
Lunix_path_loh132:
	adrp	x14, lunix_path_CPI70_0@PAGE
Lunix_path_loh133:
	ldr	q0, [x14, lunix_path_CPI70_0@PAGEOFF]
	and.16b	v3, v3, v0
	addp.16b	v3, v3, v3
	addp.16b	v3, v3, v3
	addp.16b	v3, v3, v3
	ldur	q4, [x13, #-17]
	ldur	q5, [x13, #-16]
	and.16b	v2, v5, v2
	orr.16b	v2, v2, v4
	cmeq.16b	v1, v2, v1
	and.16b	v1, v1, v0
	addp.16b	v1, v1, v1
	addp.16b	v1, v1, v1
	addp.16b	v1, v1, v1
	orr.16b	v1, v1, v3
	umov.h	w13, v1[0]
	cbz	w13, Lunix_path_BB70_94
	sub	x11, x2, #19
Lunix_path_BB70_87:
	mov	x12, #0
	b	Lunix_path_BB70_89
Lunix_path_BB70_88:
	cmp	x12, x11
	b.hs	Lunix_path_BB70_74
Lunix_path_BB70_89:
	add	x13, x1, x12
	ldr	q0, [x13]
	ldur	q1, [x13, #1]
	movi.16b	v2, #208
	and.16b	v2, v1, v2
	orr.16b	v3, v2, v0
	movi.16b	v2, #47
	cmeq.16b	v4, v3, v2
Lunix_path_loh134:
	adrp	x14, lunix_path_CPI70_0@PAGE
Lunix_path_loh135:
	ldr	q3, [x14, lunix_path_CPI70_0@PAGEOFF]
	and.16b	v4, v4, v3
	addp.16b	v4, v4, v4
	addp.16b	v4, v4, v4
	addp.16b	v4, v4, v4
	umov.h	w14, v4[0]
	cbz	w14, Lunix_path_BB70_92
	ldur	q4, [x13, #2]
	ldur	q5, [x13, #3]
	movi.16b	v6, #46
	cmeq.16b	v7, v4, v6
	cmeq.16b	v5, v5, v2
	and.16b	v5, v7, v5
	cmeq.16b	v6, v1, v6
	cmeq.16b	v4, v4, v2
	orr.16b	v4, v4, v5
	and.16b	v4, v6, v4
	cmeq.16b	v0, v0, v2
	cmeq.16b	v1, v1, v2
	orr.16b	v1, v1, v4
	and.16b	v0, v0, v3
	and.16b	v0, v0, v1
	addp.16b	v0, v0, v0
	addp.16b	v0, v0, v0
	addp.16b	v0, v0, v0
	umov.h	w13, v0[0]
	orr	w13, w13, #0x10000
	rbit	w13, w13
	clz	w13, w13
	cmp	w13, #15
	b.ls	Lunix_path_BB70_93
	add	x12, x12, #16
	b	Lunix_path_BB70_88
Lunix_path_BB70_92:
	add	x12, x12, #16
	cmp	x12, x11
	b.lo	Lunix_path_BB70_89
	b	Lunix_path_BB70_88
Lunix_path_BB70_93:
	add	x10, x12, w13, uxtw
	b	Lunix_path_BB70_99
Lunix_path_BB70_94:
	cbz	x12, Lunix_path_BB70_111
	mov	w13, #17
Lunix_path_BB70_96:
	ldp	q1, q4, [x11, #-16]
	ldur	q2, [x11, #-15]
	movi.16b	v3, #208
	and.16b	v2, v2, v3
	orr.16b	v1, v2, v1
	movi.16b	v2, #47
	cmeq.16b	v1, v1, v2
	and.16b	v1, v1, v0
	addp.16b	v1, v1, v1
	addp.16b	v1, v1, v1
	addp.16b	v1, v1, v1
	ldur	q5, [x11, #1]
	and.16b	v3, v5, v3
	orr.16b	v3, v3, v4
	cmeq.16b	v2, v3, v2
	and.16b	v2, v2, v0
	addp.16b	v2, v2, v2
	addp.16b	v2, v2, v2
	addp.16b	v2, v2, v2
	orr.16b	v1, v2, v1
	umov.h	w14, v1[0]
	cbnz	w14, Lunix_path_BB70_71
	add	x11, x11, #32
	add	x14, x13, #15
	add	x13, x13, #32
	cmp	x14, x12
	b.lo	Lunix_path_BB70_96
	b	Lunix_path_BB70_111
Lunix_path_BB70_98:
	add	x10, x10, #16
Lunix_path_BB70_99:
	cmp	x10, x2
	b.hs	Lunix_path_BB70_110
	add	x8, x8, x9
	sub	x9, x9, x3
	b	Lunix_path_BB70_103
Lunix_path_BB70_101:
	cmp	w12, #47
	b.eq	Lunix_path_BB70_110
Lunix_path_BB70_102:
	mov	x10, x11
	cmn	x9, x11
	b.eq	Lunix_path_BB70_111
Lunix_path_BB70_103:
	ldrb	w12, [x8, x10]
	add	x11, x10, #1
	cmp	w12, #47
	b.ne	Lunix_path_BB70_102
	cmp	x2, x11
	b.ls	Lunix_path_BB70_110
	add	x12, x8, x10
	ldrb	w12, [x12, #1]
	cmp	w12, #46
	b.ne	Lunix_path_BB70_101
	add	x12, x10, #2
	cmp	x2, x12
	b.ls	Lunix_path_BB70_110
	add	x12, x8, x10
	ldrb	w12, [x12, #2]
	cmp	w12, #46
	b.ne	Lunix_path_BB70_101
	add	x12, x10, #3
	cmp	x2, x12
	b.ls	Lunix_path_BB70_110
	add	x12, x8, x10
	ldrb	w12, [x12, #3]
	b	Lunix_path_BB70_101
Lunix_path_BB70_110:
	str	xzr, [sp, #32]
	movi.2d	v0, #0000000000000000
	stp	q0, q0, [sp]
	cmp	x2, x10
	b.ne	Lunix_path_BB70_19
Lunix_path_BB70_111:
	add	x8, x2, #1
	mov	x4, #-1
	mov	w9, #1
	add	x23, x21, x26
	mov	x28, x20
	cbnz	x8, Lunix_path_BB70_20
	b	Lunix_path_BB70_35
	.loh AdrpLdr	Lunix_path_loh126, Lunix_path_loh127
	.loh AdrpLdr	Lunix_path_loh128, Lunix_path_loh129
	.loh AdrpLdr	Lunix_path_loh130, Lunix_path_loh131
	.loh AdrpLdr	Lunix_path_loh132, Lunix_path_loh133
	.loh AdrpLdr	Lunix_path_loh134, Lunix_path_loh135
	.globl	_unix_path_key_range_end
	.p2align	2
_unix_path_key_range_end:
	stp	x26, x25, [sp, #-80]!
	stp	x24, x23, [sp, #16]
	stp	x22, x21, [sp, #32]
	stp	x20, x19, [sp, #48]
	stp	x29, x30, [sp, #64]
	add	x29, sp, #64
	mov	w8, #4096
	cmp	x0, #0
	csel	x25, x8, xzr, eq
	cmp	x2, #0
	csel	x24, x8, xzr, eq
	cbz	x1, Lunix_path_BB71_6
	mov	x21, x3
	mov	x22, x2
	mov	x19, x1
	add	x20, x0, x25
	mov	x26, x0
	add	x0, x0, x25
	bl	_path_keys.decode.path_len
	and	w8, w0, #0xff
	cmp	w8, #1
	b.ne	Lunix_path_BB71_7
	sub	x23, x19, #1
	cmp	x23, x21
	b.hs	Lunix_path_BB71_23
	add	x21, x22, x24
	sub	x8, x21, x20
	cmp	x8, x19
	b.hs	Lunix_path_BB71_8
	cmp	x19, #7
	b.hi	Lunix_path_BB71_9
	mov	x9, #0
	mov	x8, x26
	b	Lunix_path_BB71_20
Lunix_path_BB71_6:
	mov	x19, #-6
	b	Lunix_path_BB71_23
Lunix_path_BB71_7:
	mov	x19, #-5
	b	Lunix_path_BB71_23
Lunix_path_BB71_8:
	mov	x0, x21
	mov	x1, x20
	mov	x2, x19
	bl	_memmove
	b	Lunix_path_BB71_22
Lunix_path_BB71_9:
	add	x9, x24, x22
	mov	x8, x26
	add	x10, x25, x26
	sub	x9, x9, x10
	cmp	x9, #32
	b.hs	Lunix_path_BB71_11
	mov	x9, #0
	b	Lunix_path_BB71_20
Lunix_path_BB71_11:
	cmp	x19, #32
	b.hs	Lunix_path_BB71_13
	mov	x9, #0
	b	Lunix_path_BB71_17
Lunix_path_BB71_13:
	and	x10, x19, #0x18
	and	x9, x19, #0xffffffffffffffe0
	add	x11, x25, x8
	add	x11, x11, #16
	add	x12, x24, x22
	add	x12, x12, #16
	and	x13, x19, #0xffffffffffffffe0
Lunix_path_BB71_14:
	ldp	q0, q1, [x11, #-16]
	stp	q0, q1, [x12, #-16]
	add	x11, x11, #32
	add	x12, x12, #32
	subs	x13, x13, #32
	b.ne	Lunix_path_BB71_14
	cmp	x19, x9
	b.eq	Lunix_path_BB71_22
	cbz	x10, Lunix_path_BB71_20
Lunix_path_BB71_17:
	mov	x12, x9
	and	x9, x19, #0xfffffffffffffff8
	sub	x10, x12, x9
	add	x11, x25, x12
	add	x11, x8, x11
	add	x12, x24, x12
	add	x12, x22, x12
Lunix_path_BB71_18:
	ldr	d0, [x11], #8
	str	d0, [x12], #8
	adds	x10, x10, #8
	b.ne	Lunix_path_BB71_18
	cmp	x19, x9
	b.eq	Lunix_path_BB71_22
Lunix_path_BB71_20:
	sub	x10, x19, x9
	add	x11, x25, x9
	add	x8, x8, x11
	add	x9, x24, x9
	add	x9, x22, x9
Lunix_path_BB71_21:
	ldrb	w11, [x8], #1
	strb	w11, [x9], #1
	subs	x10, x10, #1
	b.ne	Lunix_path_BB71_21
Lunix_path_BB71_22:
	ldrb	w8, [x20, x23]
	add	w8, w8, #1
	strb	w8, [x21, x23]
Lunix_path_BB71_23:
	mov	x0, x19
	ldp	x29, x30, [sp, #64]
	ldp	x20, x19, [sp, #48]
	ldp	x22, x21, [sp, #32]
	ldp	x24, x23, [sp, #16]
	ldp	x26, x25, [sp], #80
	ret
	.section	__TEXT,__literal16,16byte_literals
	.p2align	4, 0x0
lunix_path_CPI72_0:
	.byte	1
	.byte	2
	.byte	4
	.byte	8
	.byte	16
	.byte	32
	.byte	64
	.byte	128
	.byte	1
	.byte	2
	.byte	4
	.byte	8
	.byte	16
	.byte	32
	.byte	64
	.byte	128
	.section	__TEXT,__text,regular,pure_instructions
	.globl	_unix_path_to_string_lossy
	.p2align	2
_unix_path_to_string_lossy:
	sub	sp, sp, #128
	stp	x28, x27, [sp, #32]
	stp	x26, x25, [sp, #48]
	stp	x24, x23, [sp, #64]
	stp	x22, x21, [sp, #80]
	stp	x20, x19, [sp, #96]
	stp	x29, x30, [sp, #112]
	add	x29, sp, #112
	mov	w9, #4096
	cmp	x0, #0
	csel	x8, x9, xzr, eq
	cmp	x2, #0
	csel	x26, x9, xzr, eq
	cbz	x1, Lunix_path_BB72_47
	mov	x22, x3
	mov	x21, x2
	mov	x19, x1
	mov	x25, #0
	add	x20, x0, x8
	mov	x23, x1
	mov	x24, x20
	b	Lunix_path_BB72_4
Lunix_path_BB72_2:
	mov	w1, #1
Lunix_path_BB72_3:
	add	x8, x24, x2
	add	x24, x8, x1
	add	x8, x1, x2
	sub	x23, x23, x8
	adds	x8, x2, x25
	csinv	x8, x8, xzr, lo
	adds	x9, x8, #3
	csinv	x9, x9, xzr, lo
	cmp	x1, #0
	csel	x25, x8, x9, eq
	cbz	x23, Lunix_path_BB72_14
Lunix_path_BB72_4:
	cmp	x23, #15
	b.hi	Lunix_path_BB72_7
Lunix_path_BB72_5:
	mov	x0, x24
	mov	x1, x23
	mov	x2, #0
Lunix_path_BB72_6:
	bl	_unix_bytes.utf8.scans.scan_by_sequence
	mov	x2, x0
	b	Lunix_path_BB72_3
Lunix_path_BB72_7:
	ldr	q0, [x24]
Lunix_path_loh136:
	adrp	x8, lunix_path_CPI72_0@PAGE
Lunix_path_loh137:
	ldr	q1, [x8, lunix_path_CPI72_0@PAGEOFF]
	cmlt.16b	v0, v0, #0
	and.16b	v0, v0, v1
	addp.16b	v0, v0, v0
	addp.16b	v0, v0, v0
	addp.16b	v0, v0, v0
	umov.h	w8, v0[0]
	cbz	w8, Lunix_path_BB72_11
	umov.h	w8, v0[0]
	orr	w8, w8, #0x10000
	rbit	w8, w8
	clz	w2, w8
	add	x9, x24, x2
	sub	x8, x23, x2
	ldrb	w10, [x9]
	sub	w10, w10, #194
	cmp	w10, #50
	ccmp	x8, #2, #0, ls
	b.lo	Lunix_path_BB72_2
	ldrsb	w9, [x9, #1]
	cmn	w9, #65
	b.gt	Lunix_path_BB72_2
	mov	x0, x24
	mov	x1, x23
	cmp	x8, #31
	b.ls	Lunix_path_BB72_6
	b	Lunix_path_BB72_13
Lunix_path_BB72_11:
	cmp	x23, #31
	b.ls	Lunix_path_BB72_5
	mov	x0, x24
	mov	x1, x23
	mov	x2, #0
Lunix_path_BB72_13:
	bl	_unix_bytes.utf8.scans.scan_by_window
	mov	x2, x0
	b	Lunix_path_BB72_3
Lunix_path_BB72_14:
	cmp	x25, x22
	b.hi	Lunix_path_BB72_48
	add	x27, x21, x26
	mov	x28, #0
	add	x8, x26, x21
	stp	x8, x27, [sp, #16]
	add	x8, x8, #16
	str	x8, [sp, #8]
	b	Lunix_path_BB72_17
Lunix_path_BB72_16:
	mov	x27, x10
	ldrb	w9, [x24]
	strb	w9, [x8]
	cmp	x22, #0
	csel	x9, x14, x26, eq
	ldurh	w9, [x9, #1]
	sturh	w9, [x8, #1]
	add	x8, x20, x21
	add	x20, x8, x22
	add	x8, x22, x21
	sub	x19, x19, x8
	add	x28, x23, x28
	cbz	x19, Lunix_path_BB72_48
Lunix_path_BB72_17:
	cmp	x19, #15
	b.hi	Lunix_path_BB72_21
Lunix_path_BB72_18:
	mov	x0, x20
	mov	x1, x19
	mov	x2, #0
Lunix_path_BB72_19:
	bl	_unix_bytes.utf8.scans.scan_by_sequence
Lunix_path_BB72_20:
	mov	x21, x0
	mov	x22, x1
	b	Lunix_path_BB72_26
Lunix_path_BB72_21:
	ldr	q0, [x20]
Lunix_path_loh138:
	adrp	x8, lunix_path_CPI72_0@PAGE
Lunix_path_loh139:
	ldr	q1, [x8, lunix_path_CPI72_0@PAGEOFF]
	cmlt.16b	v0, v0, #0
	and.16b	v0, v0, v1
	addp.16b	v0, v0, v0
	addp.16b	v0, v0, v0
	addp.16b	v0, v0, v0
	umov.h	w8, v0[0]
	cbz	w8, Lunix_path_BB72_35
	umov.h	w8, v0[0]
	orr	w8, w8, #0x10000
	rbit	w8, w8
	clz	w21, w8
	add	x9, x20, x21
	sub	x8, x19, x21
	ldrb	w10, [x9]
	sub	w10, w10, #194
	cmp	w10, #50
	ccmp	x8, #2, #0, ls
	b.lo	Lunix_path_BB72_25
	ldrsb	w9, [x9, #1]
	cmn	w9, #65
	b.gt	Lunix_path_BB72_25
	mov	x0, x20
	mov	x1, x19
	mov	x2, x21
	cmp	x8, #31
	b.ls	Lunix_path_BB72_19
	b	Lunix_path_BB72_37
Lunix_path_BB72_25:
	mov	w22, #1
Lunix_path_BB72_26:
	mov	w8, #3
	cmp	x22, #0
	csel	x23, xzr, x8, eq
Lunix_path_loh140:
	adrp	x26, lunix_path__static.12@PAGE
Lunix_path_loh141:
	add	x26, x26, lunix_path__static.12@PAGEOFF
Lunix_path_loh142:
	adrp	x14, lunix_path__static.0@PAGE
Lunix_path_loh143:
	add	x14, x14, lunix_path__static.0@PAGEOFF
	csel	x24, x14, x26, eq
	add	x8, x27, x28
	sub	x8, x8, x20
	cmp	x8, x21
	b.hs	Lunix_path_BB72_32
	cmp	x21, #7
	b.ls	Lunix_path_BB72_29
	ldr	x8, [sp, #16]
	add	x8, x8, x28
	sub	x8, x8, x20
	cmp	x8, #32
	b.hs	Lunix_path_BB72_38
Lunix_path_BB72_29:
	mov	x8, #0
Lunix_path_BB72_30:
	sub	x9, x21, x8
	add	x10, x20, x8
	add	x8, x8, x28
	ldr	x11, [sp, #16]
	add	x8, x11, x8
Lunix_path_BB72_31:
	ldrb	w11, [x10], #1
	strb	w11, [x8], #1
	subs	x9, x9, #1
	b.ne	Lunix_path_BB72_31
	b	Lunix_path_BB72_33
Lunix_path_BB72_32:
	add	x0, x27, x28
	mov	x1, x20
	mov	x2, x21
	mov	x27, x14
	bl	_memmove
	mov	x14, x27
Lunix_path_BB72_33:
	add	x28, x21, x28
	ldr	x10, [sp, #24]
	add	x8, x10, x28
	sub	x9, x8, x24
	cmp	x9, x23
	b.lo	Lunix_path_BB72_16
	mov	x27, x10
	add	x0, x10, x28
	mov	x1, x24
	mov	x2, x23
	bl	_memcpy
	add	x8, x20, x21
	add	x20, x8, x22
	add	x8, x22, x21
	sub	x19, x19, x8
	add	x28, x23, x28
	cbnz	x19, Lunix_path_BB72_17
	b	Lunix_path_BB72_48
Lunix_path_BB72_35:
	cmp	x19, #31
	b.ls	Lunix_path_BB72_18
	mov	x0, x20
	mov	x1, x19
	mov	x2, #0
Lunix_path_BB72_37:
	bl	_unix_bytes.utf8.scans.scan_by_window
	b	Lunix_path_BB72_20
Lunix_path_BB72_38:
	cmp	x21, #32
	b.hs	Lunix_path_BB72_40
	mov	x8, #0
	b	Lunix_path_BB72_44
Lunix_path_BB72_40:
	and	x9, x21, #0x18
	and	x8, x21, #0xffffffffffffffe0
	add	x10, x20, #16
	ldr	x11, [sp, #8]
	add	x11, x11, x28
	and	x12, x21, #0xffffffffffffffe0
Lunix_path_BB72_41:
	ldp	q0, q1, [x10, #-16]
	stp	q0, q1, [x11, #-16]
	add	x10, x10, #32
	add	x11, x11, #32
	subs	x12, x12, #32
	b.ne	Lunix_path_BB72_41
	cmp	x21, x8
	b.eq	Lunix_path_BB72_33
	cbz	x9, Lunix_path_BB72_30
Lunix_path_BB72_44:
	mov	x11, x8
	and	x8, x21, #0xfffffffffffffff8
	sub	x9, x11, x8
	add	x10, x20, x11
	add	x11, x11, x28
	ldr	x12, [sp, #16]
	add	x11, x12, x11
Lunix_path_BB72_45:
	ldr	d0, [x10], #8
	str	d0, [x11], #8
	adds	x9, x9, #8
	b.ne	Lunix_path_BB72_45
	cmp	x21, x8
	b.ne	Lunix_path_BB72_30
	b	Lunix_path_BB72_33
Lunix_path_BB72_47:
	mov	x25, #0
Lunix_path_BB72_48:
	mov	x8, #-9223372036854775808
	cmp	x25, x8
	csel	x0, x25, x8, lo
	ldp	x29, x30, [sp, #112]
	ldp	x20, x19, [sp, #96]
	ldp	x22, x21, [sp, #80]
	ldp	x24, x23, [sp, #64]
	ldp	x26, x25, [sp, #48]
	ldp	x28, x27, [sp, #32]
	add	sp, sp, #128
	ret
	.loh AdrpLdr	Lunix_path_loh136, Lunix_path_loh137
	.loh AdrpLdr	Lunix_path_loh138, Lunix_path_loh139
	.loh AdrpAdd	Lunix_path_loh142, Lunix_path_loh143
	.loh AdrpAdd	Lunix_path_loh140, Lunix_path_loh141
	.globl	_unix_path_join
	.p2align	2
_unix_path_join:
	sub	sp, sp, #112
	stp	x28, x27, [sp, #16]
	stp	x26, x25, [sp, #32]
	stp	x24, x23, [sp, #48]
	stp	x22, x21, [sp, #64]
	stp	x20, x19, [sp, #80]
	stp	x29, x30, [sp, #96]
	add	x29, sp, #96
	mov	x19, x2
	mov	x20, x1
	mov	w9, #4096
	cmp	x0, #0
	csel	x8, x9, xzr, eq
	cmp	x2, #0
	csel	x10, x9, xzr, eq
	add	x22, x2, x10
	cmp	x4, #0
	csel	x24, x9, xzr, eq
	cbz	x3, Lunix_path_BB73_3
	ldrb	w9, [x22]
	cmp	w9, #47
	b.ne	Lunix_path_BB73_3
	mov	x20, #0
	mov	w8, #0
	mov	w23, #0
Lunix_path_loh144:
	adrp	x1, lunix_path__static.0@PAGE
Lunix_path_loh145:
	add	x1, x1, lunix_path__static.0@PAGEOFF
	mov	w25, w8
	add	x8, x20, x3
	add	x21, x8, x25
	cmp	x5, x21
	b.hs	Lunix_path_BB73_6
	b	Lunix_path_BB73_41
Lunix_path_BB73_3:
	add	x1, x0, x8
	cbz	x20, Lunix_path_BB73_5
	add	x8, x1, x20
	ldurb	w8, [x8, #-1]
	mov	w9, #47
	cmp	w8, #47
	csel	w23, w9, wzr, ne
	cset	w8, ne
	mov	w25, w8
	add	x8, x20, x3
	add	x21, x8, x25
	cmp	x5, x21
	b.hs	Lunix_path_BB73_6
	b	Lunix_path_BB73_41
Lunix_path_BB73_5:
	mov	w8, #0
	mov	w23, #0
	mov	w25, w8
	add	x8, x20, x3
	add	x21, x8, x25
	cmp	x5, x21
	b.lo	Lunix_path_BB73_41
Lunix_path_BB73_6:
	str	x10, [sp, #8]
	add	x26, x4, x24
	sub	x8, x26, x1
	cmp	x8, x20
	b.hs	Lunix_path_BB73_12
	cmp	x20, #7
	b.ls	Lunix_path_BB73_9
	add	x8, x24, x4
	sub	x8, x8, x1
	cmp	x8, #32
	b.hs	Lunix_path_BB73_21
Lunix_path_BB73_9:
	mov	x8, #0
Lunix_path_BB73_10:
	sub	x9, x20, x8
	add	x10, x1, x8
	add	x8, x24, x8
	add	x8, x4, x8
Lunix_path_BB73_11:
	ldrb	w11, [x10], #1
	strb	w11, [x8], #1
	subs	x9, x9, #1
	b.ne	Lunix_path_BB73_11
	b	Lunix_path_BB73_13
Lunix_path_BB73_12:
	add	x0, x4, x24
	mov	x2, x20
	mov	x28, x4
	mov	x27, x3
	bl	_memmove
	mov	x3, x27
	mov	x4, x28
Lunix_path_BB73_13:
	cbz	x25, Lunix_path_BB73_15
	strb	w23, [x26, x20]
Lunix_path_BB73_15:
	sub	x8, x21, x3
	add	x0, x26, x8
	sub	x8, x0, x22
	cmp	x8, x3
	b.hs	Lunix_path_BB73_18
	cmp	x3, #7
	b.hi	Lunix_path_BB73_19
	mov	x8, #0
	ldr	x13, [sp, #8]
	b	Lunix_path_BB73_39
Lunix_path_BB73_18:
	mov	x1, x22
	mov	x2, x3
	bl	_memmove
	b	Lunix_path_BB73_41
Lunix_path_BB73_19:
	add	x8, x24, x20
	add	x8, x8, x4
	add	x8, x8, x25
	ldr	x13, [sp, #8]
	add	x9, x13, x19
	sub	x8, x8, x9
	cmp	x8, #32
	b.hs	Lunix_path_BB73_23
	mov	x8, #0
	b	Lunix_path_BB73_39
Lunix_path_BB73_21:
	cmp	x20, #32
	b.hs	Lunix_path_BB73_25
	mov	x8, #0
	b	Lunix_path_BB73_29
Lunix_path_BB73_23:
	cmp	x3, #32
	b.hs	Lunix_path_BB73_32
	mov	x8, #0
	b	Lunix_path_BB73_36
Lunix_path_BB73_25:
	and	x9, x20, #0x18
	and	x8, x20, #0xffffffffffffffe0
	add	x10, x1, #16
	add	x11, x24, x4
	add	x11, x11, #16
	and	x12, x20, #0xffffffffffffffe0
Lunix_path_BB73_26:
	ldp	q0, q1, [x10, #-16]
	stp	q0, q1, [x11, #-16]
	add	x10, x10, #32
	add	x11, x11, #32
	subs	x12, x12, #32
	b.ne	Lunix_path_BB73_26
	cmp	x20, x8
	b.eq	Lunix_path_BB73_13
	cbz	x9, Lunix_path_BB73_10
Lunix_path_BB73_29:
	mov	x11, x8
	and	x8, x20, #0xfffffffffffffff8
	sub	x9, x11, x8
	add	x10, x1, x11
	add	x11, x24, x11
	add	x11, x4, x11
Lunix_path_BB73_30:
	ldr	d0, [x10], #8
	str	d0, [x11], #8
	adds	x9, x9, #8
	b.ne	Lunix_path_BB73_30
	cmp	x20, x8
	b.ne	Lunix_path_BB73_10
	b	Lunix_path_BB73_13
Lunix_path_BB73_32:
	and	x9, x3, #0x18
	and	x8, x3, #0xffffffffffffffe0
	add	x10, x13, x19
	add	x10, x10, #16
	add	x11, x24, x20
	add	x11, x11, x25
	add	x11, x11, x4
	add	x11, x11, #16
	and	x12, x3, #0xffffffffffffffe0
Lunix_path_BB73_33:
	ldp	q0, q1, [x10, #-16]
	stp	q0, q1, [x11, #-16]
	add	x10, x10, #32
	add	x11, x11, #32
	subs	x12, x12, #32
	b.ne	Lunix_path_BB73_33
	cmp	x3, x8
	b.eq	Lunix_path_BB73_41
	cbz	x9, Lunix_path_BB73_39
Lunix_path_BB73_36:
	mov	x11, x8
	and	x8, x3, #0xfffffffffffffff8
	sub	x9, x11, x8
	add	x10, x13, x11
	add	x10, x19, x10
	add	x12, x24, x20
	add	x11, x12, x11
	add	x11, x11, x25
	add	x11, x4, x11
Lunix_path_BB73_37:
	ldr	d0, [x10], #8
	str	d0, [x11], #8
	adds	x9, x9, #8
	b.ne	Lunix_path_BB73_37
	cmp	x3, x8
	b.eq	Lunix_path_BB73_41
Lunix_path_BB73_39:
	sub	x9, x3, x8
	add	x10, x13, x8
	add	x10, x19, x10
	add	x8, x24, x8
	add	x8, x8, x20
	add	x8, x8, x25
	add	x8, x4, x8
Lunix_path_BB73_40:
	ldrb	w11, [x10], #1
	strb	w11, [x8], #1
	subs	x9, x9, #1
	b.ne	Lunix_path_BB73_40
Lunix_path_BB73_41:
	mov	x0, x21
	ldp	x29, x30, [sp, #96]
	ldp	x20, x19, [sp, #80]
	ldp	x22, x21, [sp, #64]
	ldp	x24, x23, [sp, #48]
	ldp	x26, x25, [sp, #32]
	ldp	x28, x27, [sp, #16]
	add	sp, sp, #112
	ret
	.loh AdrpAdd	Lunix_path_loh144, Lunix_path_loh145
	.section	__TEXT,__literal16,16byte_literals
	.p2align	4, 0x0
lunix_path_CPI74_0:
	.byte	1
	.byte	2
	.byte	4
	.byte	8
	.byte	16
	.byte	32
	.byte	64
	.byte	128
	.byte	1
	.byte	2
	.byte	4
	.byte	8
	.byte	16
	.byte	32
	.byte	64
	.byte	128
	.section	__TEXT,__literal8,8byte_literals
	.p2align	3, 0x0
lunix_path_CPI74_1:
	.byte	1
	.byte	2
	.byte	4
	.byte	8
	.byte	16
	.byte	32
	.byte	64
	.byte	128
	.section	__TEXT,__text,regular,pure_instructions
	.globl	_unix_path_join_verbatim
	.p2align	2
_unix_path_join_verbatim:
	sub	sp, sp, #128
	stp	x28, x27, [sp, #32]
	stp	x26, x25, [sp, #48]
	stp	x24, x23, [sp, #64]
	stp	x22, x21, [sp, #80]
	stp	x20, x19, [sp, #96]
	stp	x29, x30, [sp, #112]
	add	x29, sp, #112
	mov	x20, x3
	mov	x22, x2
	mov	x21, x1
	mov	x24, x0
	mov	w8, #4096
	cmp	x0, #0
	csel	x15, x8, xzr, eq
	cmp	x2, #0
	csel	x26, x8, xzr, eq
	add	x23, x2, x26
	cmp	x4, #0
	csel	x19, x8, xzr, eq
	cbz	x3, Lunix_path_BB74_68
	ldrb	w8, [x23]
	cmp	w8, #47
	b.eq	Lunix_path_BB74_140
	adrp	x27, lunix_path_CPI74_0@PAGE
	cmp	w8, #46
	stp	x5, x15, [sp, #16]
	b.ne	Lunix_path_BB74_9
	cmp	x20, #1
	b.eq	Lunix_path_BB74_13
	ldrb	w9, [x23, #1]
	cmp	w9, #47
	b.eq	Lunix_path_BB74_13
	cmp	w9, #46
	b.ne	Lunix_path_BB74_9
	cmp	x20, #2
	b.eq	Lunix_path_BB74_8
	ldrb	w9, [x23, #2]
	cmp	w9, #47
	b.ne	Lunix_path_BB74_9
Lunix_path_BB74_8:
	mov	x28, x19
	mov	x25, x4
	b	Lunix_path_BB74_63
Lunix_path_BB74_9:
	mov	x28, x19
	mov	x25, x4
	add	x11, x23, x20
	ldurb	w9, [x11, #-1]
	and	w9, w9, #0xfe
	cmp	w9, #46
	b.eq	Lunix_path_BB74_54
	subs	x9, x20, #17
	b.hs	Lunix_path_BB74_14
Lunix_path_BB74_11:
	cmp	x20, #9
	b.hs	Lunix_path_BB74_22
	mov	x9, #0
	b	Lunix_path_BB74_39
Lunix_path_BB74_13:
	mov	x28, x19
	mov	x25, x4
	mov	w19, #1
	b	Lunix_path_BB74_93
Lunix_path_BB74_14:
	cmp	x20, #32
	b.hi	Lunix_path_BB74_24
	ldr	q1, [x23]
	ldur	q2, [x23, #1]
	movi.16b	v0, #208
	and.16b	v2, v2, v0
	orr.16b	v2, v2, v1
	movi.16b	v1, #47
	cmeq.16b	v3, v2, v1
	ldr	q2, [x27, lunix_path_CPI74_0@PAGEOFF]
	and.16b	v3, v3, v2
	addp.16b	v3, v3, v3
	addp.16b	v3, v3, v3
	addp.16b	v3, v3, v3
	umov.h	w10, v3[0]
	cbnz	w10, Lunix_path_BB74_17
	ldur	q3, [x11, #-17]
	ldur	q4, [x11, #-16]
	and.16b	v0, v4, v0
	orr.16b	v0, v0, v3
	cmeq.16b	v0, v0, v1
	and.16b	v0, v0, v2
	addp.16b	v0, v0, v0
	addp.16b	v0, v0, v0
	addp.16b	v0, v0, v0
	umov.h	w10, v0[0]
	cbz	w10, Lunix_path_BB74_37
Lunix_path_BB74_17:
	cmp	x20, #18
	b.ls	Lunix_path_BB74_11
	subs	x10, x20, #19
	b.ne	Lunix_path_BB74_26
	mov	x11, #0
Lunix_path_BB74_20:
	cmp	x9, x11
	csel	x9, x9, x11, lo
	add	x11, x23, x9
	ldr	q0, [x11]
	ldur	q1, [x11, #1]
	movi.16b	v2, #208
	and.16b	v1, v1, v2
	orr.16b	v1, v1, v0
	movi.16b	v0, #47
	cmeq.16b	v2, v1, v0
	ldr	q1, [x27, lunix_path_CPI74_0@PAGEOFF]
	and.16b	v2, v2, v1
	addp.16b	v2, v2, v2
	addp.16b	v2, v2, v2
	addp.16b	v2, v2, v2
	umov.h	w11, v2[0]
	cbz	w11, Lunix_path_BB74_38
	add	x9, x23, x10
	ldr	q2, [x9]
	ldur	q3, [x9, #1]
	ldur	q4, [x9, #2]
	ldur	q5, [x9, #3]
	movi.16b	v6, #46
	cmeq.16b	v7, v4, v6
	cmeq.16b	v5, v5, v0
	and.16b	v5, v7, v5
	cmeq.16b	v6, v3, v6
	cmeq.16b	v4, v4, v0
	orr.16b	v4, v4, v5
	and.16b	v4, v6, v4
	cmeq.16b	v2, v2, v0
	cmeq.16b	v0, v3, v0
	orr.16b	v0, v0, v4
	and.16b	v1, v2, v1
	and.16b	v0, v1, v0
	addp.16b	v0, v0, v0
	addp.16b	v0, v0, v0
	addp.16b	v0, v0, v0
	umov.h	w9, v0[0]
	orr	w9, w9, #0x10000
	rbit	w9, w9
	clz	w9, w9
	add	x9, x10, x9
	b	Lunix_path_BB74_39
Lunix_path_BB74_22:
	ldr	d3, [x23]
	ldur	d1, [x23, #1]
	movi.8b	v0, #254
	and.8b	v2, v1, v0
	movi.8b	v1, #46
	cmeq.8b	v4, v2, v1
	movi.8b	v2, #47
	cmeq.8b	v5, v3, v2
Lunix_path_loh146:
	adrp	x9, lunix_path_CPI74_1@PAGE
Lunix_path_loh147:
	ldr	d3, [x9, lunix_path_CPI74_1@PAGEOFF]
	and.8b	v5, v5, v3
	and.8b	v4, v5, v4
	addv.8b	b4, v4
	fmov	w9, s4
	orr	w9, w9, #0x100
	rbit	w9, w9
	clz	w9, w9
	cmp	w9, #8
	b.lo	Lunix_path_BB74_39
	mov	w9, #17
	cmp	x20, #17
	csel	x9, x20, x9, lo
	sub	x9, x9, #9
	add	x10, x23, x9
	ldr	d4, [x10]
	ldur	d5, [x10, #1]
	and.8b	v0, v5, v0
	cmeq.8b	v0, v0, v1
	cmeq.8b	v1, v4, v2
	and.8b	v1, v1, v3
	and.8b	v0, v1, v0
	addv.8b	b0, v0
	fmov	w10, s0
	orr	w10, w10, #0x100
	rbit	w10, w10
	clz	w10, w10
	add	x9, x9, x10
	b	Lunix_path_BB74_39
Lunix_path_BB74_24:
	sub	x10, x20, #33
	add	x12, x23, x10
	ldr	q0, [x12]
	ldur	q1, [x12, #1]
	movi.16b	v2, #208
	and.16b	v1, v1, v2
	orr.16b	v0, v1, v0
	movi.16b	v1, #47
	cmeq.16b	v3, v0, v1
	ldr	q0, [x27, lunix_path_CPI74_0@PAGEOFF]
	and.16b	v3, v3, v0
	addp.16b	v3, v3, v3
	addp.16b	v3, v3, v3
	addp.16b	v3, v3, v3
	ldur	q4, [x11, #-17]
	ldur	q5, [x11, #-16]
	and.16b	v2, v5, v2
	orr.16b	v2, v2, v4
	cmeq.16b	v1, v2, v1
	and.16b	v1, v1, v0
	addp.16b	v1, v1, v1
	addp.16b	v1, v1, v1
	addp.16b	v1, v1, v1
	orr.16b	v1, v1, v3
	umov.h	w11, v1[0]
	cbz	w11, Lunix_path_BB74_33
	sub	x10, x20, #19
Lunix_path_BB74_26:
	mov	x11, #0
	b	Lunix_path_BB74_28
Lunix_path_BB74_27:
	cmp	x11, x10
	b.hs	Lunix_path_BB74_20
Lunix_path_BB74_28:
	add	x12, x23, x11
	ldr	q0, [x12]
	ldur	q1, [x12, #1]
	movi.16b	v2, #208
	and.16b	v2, v1, v2
	orr.16b	v3, v2, v0
	movi.16b	v2, #47
	cmeq.16b	v4, v3, v2
	ldr	q3, [x27, lunix_path_CPI74_0@PAGEOFF]
	and.16b	v4, v4, v3
	addp.16b	v4, v4, v4
	addp.16b	v4, v4, v4
	addp.16b	v4, v4, v4
	umov.h	w13, v4[0]
	cbz	w13, Lunix_path_BB74_31
	ldur	q4, [x12, #2]
	ldur	q5, [x12, #3]
	movi.16b	v6, #46
	cmeq.16b	v7, v4, v6
	cmeq.16b	v5, v5, v2
	and.16b	v5, v7, v5
	cmeq.16b	v6, v1, v6
	cmeq.16b	v4, v4, v2
	orr.16b	v4, v4, v5
	and.16b	v4, v6, v4
	cmeq.16b	v0, v0, v2
	cmeq.16b	v1, v1, v2
	orr.16b	v1, v1, v4
	and.16b	v0, v0, v3
	and.16b	v0, v0, v1
	addp.16b	v0, v0, v0
	addp.16b	v0, v0, v0
	addp.16b	v0, v0, v0
	umov.h	w12, v0[0]
	orr	w12, w12, #0x10000
	rbit	w12, w12
	clz	w12, w12
	cmp	w12, #15
	b.ls	Lunix_path_BB74_32
	add	x11, x11, #16
	b	Lunix_path_BB74_27
Lunix_path_BB74_31:
	add	x11, x11, #16
	cmp	x11, x10
	b.lo	Lunix_path_BB74_28
	b	Lunix_path_BB74_27
Lunix_path_BB74_32:
	add	x9, x11, w12, uxtw
	b	Lunix_path_BB74_39
Lunix_path_BB74_33:
	cbz	x10, Lunix_path_BB74_37
	add	x11, x26, x22
	add	x11, x11, #17
	mov	w12, #17
Lunix_path_BB74_35:
	ldur	q1, [x11, #-17]
	ldp	q2, q5, [x11, #-16]
	movi.16b	v3, #208
	and.16b	v2, v2, v3
	orr.16b	v1, v2, v1
	movi.16b	v2, #47
	cmeq.16b	v1, v1, v2
	and.16b	v1, v1, v0
	addp.16b	v1, v1, v1
	addp.16b	v1, v1, v1
	addp.16b	v1, v1, v1
	ldur	q4, [x11, #-1]
	and.16b	v3, v5, v3
	orr.16b	v3, v3, v4
	cmeq.16b	v2, v3, v2
	and.16b	v2, v2, v0
	addp.16b	v2, v2, v2
	addp.16b	v2, v2, v2
	addp.16b	v2, v2, v2
	orr.16b	v1, v2, v1
	umov.h	w13, v1[0]
	cbnz	w13, Lunix_path_BB74_17
	add	x11, x11, #32
	add	x13, x12, #15
	add	x12, x12, #32
	cmp	x13, x10
	b.lo	Lunix_path_BB74_35
	b	Lunix_path_BB74_41
Lunix_path_BB74_37:
	sub	x8, x20, #16
	mov	x4, x25
	mov	x19, x28
	ldr	x15, [sp, #24]
	b	Lunix_path_BB74_59
Lunix_path_BB74_38:
	add	x9, x9, #16
Lunix_path_BB74_39:
	cmp	x9, x20
	b.lo	Lunix_path_BB74_47
Lunix_path_BB74_40:
	cmp	x9, x20
	b.ne	Lunix_path_BB74_54
Lunix_path_BB74_41:
	cmp	x20, #15
	b.hi	Lunix_path_BB74_58
	mov	x8, #0
	mov	x4, x25
	mov	x19, x28
	ldp	x5, x15, [sp, #16]
Lunix_path_BB74_43:
	ldrb	w9, [x23, x8]
	cbz	w9, Lunix_path_BB74_66
	add	x8, x8, #1
	cmp	x20, x8
	b.ne	Lunix_path_BB74_43
	b	Lunix_path_BB74_68
Lunix_path_BB74_45:
	cmp	w11, #47
	b.eq	Lunix_path_BB74_40
Lunix_path_BB74_46:
	mov	x9, x10
	cmp	x20, x10
	b.eq	Lunix_path_BB74_41
Lunix_path_BB74_47:
	ldrb	w11, [x23, x9]
	add	x10, x9, #1
	cmp	w11, #47
	b.ne	Lunix_path_BB74_46
	cmp	x20, x10
	b.ls	Lunix_path_BB74_40
	add	x11, x23, x9
	ldrb	w11, [x11, #1]
	cmp	w11, #46
	b.ne	Lunix_path_BB74_45
	add	x11, x9, #2
	cmp	x20, x11
	b.ls	Lunix_path_BB74_40
	add	x11, x23, x9
	ldrb	w11, [x11, #2]
	cmp	w11, #46
	b.ne	Lunix_path_BB74_45
	add	x11, x9, #3
	cmp	x20, x11
	b.ls	Lunix_path_BB74_40
	add	x11, x23, x9
	ldrb	w11, [x11, #3]
	b	Lunix_path_BB74_45
Lunix_path_BB74_54:
	cmp	w8, #47
	b.eq	Lunix_path_BB74_57
	cmp	w8, #46
	b.ne	Lunix_path_BB74_63
	cmp	x20, #1
	b.ne	Lunix_path_BB74_92
Lunix_path_BB74_57:
	mov	w19, #1
	b	Lunix_path_BB74_93
Lunix_path_BB74_58:
	subs	x8, x20, #16
	mov	x4, x25
	mov	x19, x28
	ldr	x15, [sp, #24]
	b.eq	Lunix_path_BB74_62
Lunix_path_BB74_59:
	mov	x9, #0
Lunix_path_BB74_60:
	ldr	q0, [x23, x9]
	cmeq.16b	v0, v0, #0
	ldr	q1, [x27, lunix_path_CPI74_0@PAGEOFF]
	and.16b	v0, v0, v1
	addp.16b	v0, v0, v0
	addp.16b	v0, v0, v0
	addp.16b	v0, v0, v0
	umov.h	w10, v0[0]
	orr	w10, w10, #0x10000
	rbit	w10, w10
	clz	w10, w10
	cmp	w10, #15
	b.ls	Lunix_path_BB74_64
	add	x9, x9, #16
	cmp	x9, x8
	b.lo	Lunix_path_BB74_60
Lunix_path_BB74_62:
	ldr	q0, [x23, x8]
	cmeq.16b	v0, v0, #0
	ldr	q1, [x27, lunix_path_CPI74_0@PAGEOFF]
	and.16b	v0, v0, v1
	addp.16b	v0, v0, v0
	addp.16b	v0, v0, v0
	addp.16b	v0, v0, v0
	umov.h	w9, v0[0]
	orr	w9, w9, #0x10000
	rbit	w9, w9
	clz	w9, w9
	add	x8, x8, x9
	b	Lunix_path_BB74_65
Lunix_path_BB74_63:
	mov	w19, #0
	b	Lunix_path_BB74_93
Lunix_path_BB74_64:
	add	x8, x9, w10, uxtw
Lunix_path_BB74_65:
	ldr	x5, [sp, #16]
Lunix_path_BB74_66:
	cmp	x8, x20
	b.hs	Lunix_path_BB74_68
	mov	x0, #-4
	b	Lunix_path_BB74_141
Lunix_path_BB74_68:
	add	x1, x24, x15
	cbz	x21, Lunix_path_BB74_70
	add	x8, x1, x21
	ldurb	w8, [x8, #-1]
	mov	w9, #47
	cmp	w8, #47
	csel	w17, w9, wzr, ne
	cset	w8, ne
	mov	w25, w8
	add	x8, x20, x21
	add	x27, x8, x25
	cmp	x5, x27
	b.hs	Lunix_path_BB74_71
	b	Lunix_path_BB74_87
Lunix_path_BB74_70:
	mov	w8, #0
	mov	w17, #0
	mov	w25, w8
	add	x8, x20, x21
	add	x27, x8, x25
	cmp	x5, x27
	b.lo	Lunix_path_BB74_87
Lunix_path_BB74_71:
	add	x16, x4, x19
	sub	x8, x16, x1
	cmp	x8, x21
	str	x22, [sp, #8]
	b.hs	Lunix_path_BB74_77
	cmp	x21, #7
	b.ls	Lunix_path_BB74_74
	add	x8, x19, x4
	add	x9, x15, x24
	sub	x8, x8, x9
	cmp	x8, #32
	b.hs	Lunix_path_BB74_88
Lunix_path_BB74_74:
	mov	x28, x26
	mov	x8, #0
Lunix_path_BB74_75:
	sub	x9, x21, x8
	add	x10, x15, x8
	add	x10, x24, x10
	add	x8, x19, x8
	add	x8, x4, x8
Lunix_path_BB74_76:
	ldrb	w11, [x10], #1
	strb	w11, [x8], #1
	subs	x9, x9, #1
	b.ne	Lunix_path_BB74_76
	b	Lunix_path_BB74_78
Lunix_path_BB74_77:
	mov	x28, x26
	add	x0, x4, x19
	mov	x2, x21
	mov	x24, x4
	mov	x26, x21
	mov	x21, x16
	mov	x22, x17
	bl	_memmove
	mov	x17, x22
	mov	x16, x21
	mov	x21, x26
	mov	x4, x24
Lunix_path_BB74_78:
	cbz	x25, Lunix_path_BB74_80
	strb	w17, [x16, x21]
Lunix_path_BB74_80:
	sub	x8, x27, x20
	add	x0, x16, x8
	sub	x8, x0, x23
	cmp	x8, x20
	ldr	x16, [sp, #8]
	b.hs	Lunix_path_BB74_86
	cmp	x20, #7
	b.ls	Lunix_path_BB74_83
	add	x8, x19, x21
	add	x8, x8, x4
	add	x8, x8, x25
	add	x9, x28, x16
	sub	x8, x8, x9
	cmp	x8, #32
	b.hs	Lunix_path_BB74_90
Lunix_path_BB74_83:
	mov	x8, #0
Lunix_path_BB74_84:
	sub	x9, x20, x8
	add	x10, x28, x8
	add	x10, x16, x10
	add	x8, x19, x8
	add	x8, x8, x21
	add	x8, x8, x25
	add	x8, x4, x8
Lunix_path_BB74_85:
	ldrb	w11, [x10], #1
	strb	w11, [x8], #1
	subs	x9, x9, #1
	b.ne	Lunix_path_BB74_85
	b	Lunix_path_BB74_87
Lunix_path_BB74_86:
	mov	x1, x23
	mov	x2, x20
	bl	_memmove
Lunix_path_BB74_87:
	mov	x8, #-9223372036854775808
	cmp	x27, x8
	csel	x0, x27, x8, lo
	b	Lunix_path_BB74_141
Lunix_path_BB74_88:
	cmp	x21, #32
	b.hs	Lunix_path_BB74_142
	mov	x28, x26
	mov	x8, #0
	b	Lunix_path_BB74_146
Lunix_path_BB74_90:
	cmp	x20, #32
	b.hs	Lunix_path_BB74_149
	mov	x8, #0
	b	Lunix_path_BB74_153
Lunix_path_BB74_92:
	ldrb	w8, [x23, #1]
	cmp	w8, #47
	cset	w19, eq
Lunix_path_BB74_93:
	mov	x8, x20
	b	Lunix_path_BB74_95
Lunix_path_BB74_94:
	mov	x8, x1
	cbz	x1, Lunix_path_BB74_41
Lunix_path_BB74_95:
	subs	x1, x8, #1
	b.eq	Lunix_path_BB74_101
	add	x9, x23, x1
	ldrb	w10, [x9]
	cmp	w10, #47
	b.eq	Lunix_path_BB74_99
	cmp	w10, #46
	b.ne	Lunix_path_BB74_101
	ldurb	w9, [x9, #-1]
	cmp	w9, #47
	b.ne	Lunix_path_BB74_101
Lunix_path_BB74_99:
	sub	x8, x20, x1
	cmp	x8, #8
	b.ne	Lunix_path_BB74_94
	add	x0, x22, x26
	bl	_unix_path.filler.trimmed_blocks_len
	mov	x1, x0
	b	Lunix_path_BB74_94
Lunix_path_BB74_101:
	mov	x9, #0
	mov	x11, x8
	add	x10, x22, x26
	b	Lunix_path_BB74_105
Lunix_path_BB74_102:
	mov	x11, #0
Lunix_path_BB74_103:
	add	x11, x11, x12
Lunix_path_BB74_104:
	mov	w19, #0
	add	x9, x11, x9
	add	x10, x23, x9
	subs	x11, x8, x9
	b.eq	Lunix_path_BB74_41
Lunix_path_BB74_105:
	tbz	w19, #0, Lunix_path_BB74_113
	subs	x13, x11, #1
	b.eq	Lunix_path_BB74_137
	mov	x12, #0
	sub	x11, x11, #2
	b	Lunix_path_BB74_109
Lunix_path_BB74_108:
	add	x12, x12, #1
	cmp	x13, x12
	b.eq	Lunix_path_BB74_135
Lunix_path_BB74_109:
	add	x14, x10, x12
	ldrb	w14, [x14, #1]
	cmp	w14, #47
	b.eq	Lunix_path_BB74_108
	cmp	w14, #46
	b.ne	Lunix_path_BB74_136
	cmp	x11, x12
	b.eq	Lunix_path_BB74_135
	add	x14, x10, x12
	ldrb	w14, [x14, #2]
	cmp	w14, #47
	b.eq	Lunix_path_BB74_108
	b	Lunix_path_BB74_136
Lunix_path_BB74_113:
	cmp	x11, #1
	b.eq	Lunix_path_BB74_118
	ldrb	w12, [x10]
	cmp	w12, #46
	b.ne	Lunix_path_BB74_118
	ldrb	w12, [x10, #1]
	cmp	w12, #46
	b.ne	Lunix_path_BB74_118
	cmp	x11, #2
	b.eq	Lunix_path_BB74_140
	ldrb	w12, [x10, #2]
	cmp	w12, #47
	b.eq	Lunix_path_BB74_140
Lunix_path_BB74_118:
	cmp	x11, #15
	b.hi	Lunix_path_BB74_123
	mov	x12, #0
Lunix_path_BB74_120:
	ldrb	w13, [x10, x12]
	cmp	w13, #47
	b.eq	Lunix_path_BB74_128
	add	x12, x12, #1
	cmp	x11, x12
	b.ne	Lunix_path_BB74_120
	mov	x12, x11
	subs	x13, x11, x11
	b.ne	Lunix_path_BB74_129
	b	Lunix_path_BB74_102
Lunix_path_BB74_123:
	subs	x12, x11, #16
	b.eq	Lunix_path_BB74_127
	mov	x13, #0
Lunix_path_BB74_125:
	ldr	q0, [x10, x13]
	movi.16b	v1, #47
	cmeq.16b	v0, v0, v1
	ldr	q1, [x27, lunix_path_CPI74_0@PAGEOFF]
	and.16b	v0, v0, v1
	addp.16b	v0, v0, v0
	addp.16b	v0, v0, v0
	addp.16b	v0, v0, v0
	umov.h	w14, v0[0]
	orr	w14, w14, #0x10000
	rbit	w14, w14
	clz	w14, w14
	cmp	w14, #15
	b.ls	Lunix_path_BB74_139
	add	x13, x13, #16
	cmp	x13, x12
	b.lo	Lunix_path_BB74_125
Lunix_path_BB74_127:
	ldr	q0, [x10, x12]
	movi.16b	v1, #47
	cmeq.16b	v0, v0, v1
	ldr	q1, [x27, lunix_path_CPI74_0@PAGEOFF]
	and.16b	v0, v0, v1
	addp.16b	v0, v0, v0
	addp.16b	v0, v0, v0
	addp.16b	v0, v0, v0
	umov.h	w13, v0[0]
	orr	w13, w13, #0x10000
	rbit	w13, w13
	clz	w13, w13
	add	x12, x12, x13
Lunix_path_BB74_128:
	subs	x13, x11, x12
	b.eq	Lunix_path_BB74_102
Lunix_path_BB74_129:
	mov	x11, #0
	add	x10, x10, x12
	sub	x14, x13, #1
	b	Lunix_path_BB74_131
Lunix_path_BB74_130:
	add	x11, x11, #1
	cmp	x13, x11
	b.eq	Lunix_path_BB74_138
Lunix_path_BB74_131:
	ldrb	w15, [x10, x11]
	cmp	w15, #47
	b.eq	Lunix_path_BB74_130
	cmp	w15, #46
	b.ne	Lunix_path_BB74_103
	cmp	x14, x11
	b.eq	Lunix_path_BB74_138
	add	x15, x10, x11
	ldrb	w15, [x15, #1]
	cmp	w15, #47
	b.eq	Lunix_path_BB74_130
	b	Lunix_path_BB74_103
Lunix_path_BB74_135:
	mov	x12, x13
Lunix_path_BB74_136:
	add	x11, x12, #1
Lunix_path_BB74_137:
	ldrb	w10, [x10]
	cmp	w10, #47
	b.ne	Lunix_path_BB74_104
	b	Lunix_path_BB74_140
Lunix_path_BB74_138:
	mov	x11, x13
	b	Lunix_path_BB74_103
Lunix_path_BB74_139:
	add	x12, x13, w14, uxtw
	subs	x13, x11, x12
	b.ne	Lunix_path_BB74_129
	b	Lunix_path_BB74_102
Lunix_path_BB74_140:
	mov	x0, #-2
Lunix_path_BB74_141:
	ldp	x29, x30, [sp, #112]
	ldp	x20, x19, [sp, #96]
	ldp	x22, x21, [sp, #80]
	ldp	x24, x23, [sp, #64]
	ldp	x26, x25, [sp, #48]
	ldp	x28, x27, [sp, #32]
	add	sp, sp, #128
	ret
Lunix_path_BB74_142:
	and	x9, x21, #0x18
	and	x8, x21, #0xffffffffffffffe0
	add	x10, x15, x24
	add	x10, x10, #16
	mov	x13, x4
	mov	x14, x19
	add	x11, x19, x4
	add	x11, x11, #16
	and	x12, x21, #0xffffffffffffffe0
Lunix_path_BB74_143:
	ldp	q0, q1, [x10, #-16]
	stp	q0, q1, [x11, #-16]
	add	x10, x10, #32
	add	x11, x11, #32
	subs	x12, x12, #32
	b.ne	Lunix_path_BB74_143
	mov	x28, x26
	cmp	x21, x8
	mov	x4, x13
	mov	x19, x14
	b.eq	Lunix_path_BB74_78
	cbz	x9, Lunix_path_BB74_75
Lunix_path_BB74_146:
	mov	x11, x8
	and	x8, x21, #0xfffffffffffffff8
	sub	x9, x11, x8
	add	x10, x15, x11
	add	x10, x24, x10
	add	x11, x19, x11
	add	x11, x4, x11
Lunix_path_BB74_147:
	ldr	d0, [x10], #8
	str	d0, [x11], #8
	adds	x9, x9, #8
	b.ne	Lunix_path_BB74_147
	cmp	x21, x8
	b.ne	Lunix_path_BB74_75
	b	Lunix_path_BB74_78
Lunix_path_BB74_149:
	and	x9, x20, #0x18
	and	x8, x20, #0xffffffffffffffe0
	add	x10, x28, x16
	add	x10, x10, #16
	mov	x14, x19
	add	x11, x19, x21
	add	x11, x11, x25
	mov	x13, x4
	add	x11, x11, x4
	add	x11, x11, #16
	and	x12, x20, #0xffffffffffffffe0
Lunix_path_BB74_150:
	ldp	q0, q1, [x10, #-16]
	stp	q0, q1, [x11, #-16]
	add	x10, x10, #32
	add	x11, x11, #32
	subs	x12, x12, #32
	b.ne	Lunix_path_BB74_150
	cmp	x20, x8
	b.eq	Lunix_path_BB74_87
	mov	x4, x13
	mov	x19, x14
	cbz	x9, Lunix_path_BB74_84
Lunix_path_BB74_153:
	mov	x11, x8
	and	x8, x20, #0xfffffffffffffff8
	sub	x9, x11, x8
	add	x10, x28, x11
	add	x10, x16, x10
	add	x11, x19, x11
	add	x11, x11, x21
	add	x11, x11, x25
	add	x11, x4, x11
Lunix_path_BB74_154:
	ldr	d0, [x10], #8
	str	d0, [x11], #8
	adds	x9, x9, #8
	b.ne	Lunix_path_BB74_154
	cmp	x20, x8
	b.ne	Lunix_path_BB74_84
	b	Lunix_path_BB74_87
	.loh AdrpLdr	Lunix_path_loh146, Lunix_path_loh147
	.globl	_unix_path_with_added_extension
	.p2align	2
_unix_path_with_added_extension:
	stp	x28, x27, [sp, #-96]!
	stp	x26, x25, [sp, #16]
	stp	x24, x23, [sp, #32]
	stp	x22, x21, [sp, #48]
	stp	x20, x19, [sp, #64]
	stp	x29, x30, [sp, #80]
	add	x29, sp, #80
	mov	x24, x5
	mov	x19, x4
	mov	x20, x3
	mov	x21, x1
	mov	x23, x0
	mov	w8, #4096
	cmp	x0, #0
	csel	x28, x8, xzr, eq
	cmp	x2, #0
	csel	x9, x8, xzr, eq
	add	x22, x2, x9
	cmp	x4, #0
	csel	x26, x8, xzr, eq
	mov	x0, x22
	mov	x1, x3
	bl	_unix_path.stems.has_slash
	tbz	w0, #0, Lunix_path_BB75_2
	mov	x0, #-7
	b	Lunix_path_BB75_34
Lunix_path_BB75_2:
	add	x25, x23, x28
	cbz	x20, Lunix_path_BB75_12
	cbz	x21, Lunix_path_BB75_14
	mov	x9, x21
	b	Lunix_path_BB75_6
Lunix_path_BB75_5:
	mov	x9, x1
	cbz	x1, Lunix_path_BB75_14
Lunix_path_BB75_6:
	subs	x1, x9, #1
	b.eq	Lunix_path_BB75_13
	add	x8, x25, x1
	ldrb	w10, [x8]
	cmp	w10, #47
	b.eq	Lunix_path_BB75_10
	cmp	w10, #46
	b.ne	Lunix_path_BB75_39
	ldurb	w8, [x8, #-1]
	cmp	w8, #47
	b.ne	Lunix_path_BB75_36
Lunix_path_BB75_10:
	sub	x8, x21, x1
	cmp	x8, #8
	b.ne	Lunix_path_BB75_5
	add	x0, x23, x28
	bl	_unix_path.filler.trimmed_blocks_len
	mov	x1, x0
	b	Lunix_path_BB75_5
Lunix_path_BB75_12:
	mov	w8, #0
	mov	w15, #0
	b	Lunix_path_BB75_15
Lunix_path_BB75_13:
	ldrb	w8, [x25]
	and	w8, w8, #0xfe
	cmp	w8, #46
	b.ne	Lunix_path_BB75_35
Lunix_path_BB75_14:
	mov	w8, #0
	mov	w15, #0
	mov	x20, #0
Lunix_path_BB75_15:
Lunix_path_loh148:
	adrp	x22, lunix_path__static.0@PAGE
Lunix_path_loh149:
	add	x22, x22, lunix_path__static.0@PAGEOFF
Lunix_path_BB75_16:
	mov	x13, x26
	mov	w14, w8
	add	x16, x21, x14
	add	x27, x20, x16
	cmp	x24, x27
	b.lo	Lunix_path_BB75_33
	add	x24, x19, x13
	sub	x8, x24, x25
	cmp	x8, x21
	b.hs	Lunix_path_BB75_23
	cmp	x21, #7
	b.ls	Lunix_path_BB75_20
	add	x8, x13, x19
	add	x9, x28, x23
	sub	x8, x8, x9
	cmp	x8, #32
	b.hs	Lunix_path_BB75_40
Lunix_path_BB75_20:
	mov	x8, #0
Lunix_path_BB75_21:
	sub	x9, x21, x8
	add	x10, x28, x8
	add	x10, x23, x10
	add	x8, x13, x8
	add	x8, x19, x8
Lunix_path_BB75_22:
	ldrb	w11, [x10], #1
	strb	w11, [x8], #1
	subs	x9, x9, #1
	b.ne	Lunix_path_BB75_22
	b	Lunix_path_BB75_24
Lunix_path_BB75_23:
	add	x0, x19, x13
	mov	x1, x25
	mov	x2, x21
	mov	x23, x14
	mov	x25, x15
	mov	x28, x16
	bl	_memmove
	mov	x16, x28
	mov	x15, x25
	mov	x14, x23
	mov	x13, x26
Lunix_path_BB75_24:
	cbz	x14, Lunix_path_BB75_26
	strb	w15, [x24, x21]
Lunix_path_BB75_26:
	add	x0, x24, x16
	sub	x8, x0, x22
	cmp	x8, x20
	b.hs	Lunix_path_BB75_32
	cmp	x20, #7
	b.ls	Lunix_path_BB75_29
	add	x8, x13, x21
	add	x8, x8, x19
	add	x8, x8, x14
	sub	x8, x8, x22
	cmp	x8, #32
	b.hs	Lunix_path_BB75_42
Lunix_path_BB75_29:
	mov	x8, #0
Lunix_path_BB75_30:
	sub	x9, x20, x8
	add	x10, x22, x8
	add	x11, x13, x21
	add	x8, x11, x8
	add	x8, x8, x14
	add	x8, x19, x8
Lunix_path_BB75_31:
	ldrb	w11, [x10], #1
	strb	w11, [x8], #1
	subs	x9, x9, #1
	b.ne	Lunix_path_BB75_31
	b	Lunix_path_BB75_33
Lunix_path_BB75_32:
	mov	x1, x22
	mov	x2, x20
	bl	_memmove
Lunix_path_BB75_33:
	mov	x8, #-9223372036854775808
	cmp	x27, x8
	csel	x0, x27, x8, lo
Lunix_path_BB75_34:
	ldp	x29, x30, [sp, #80]
	ldp	x20, x19, [sp, #64]
	ldp	x22, x21, [sp, #48]
	ldp	x24, x23, [sp, #32]
	ldp	x26, x25, [sp, #16]
	ldp	x28, x27, [sp], #96
	ret
Lunix_path_BB75_35:
	mov	w15, #46
	mov	w21, #1
	mov	w8, #1
	b	Lunix_path_BB75_16
Lunix_path_BB75_36:
	cmp	w8, #46
	b.ne	Lunix_path_BB75_39
	cmp	x9, #2
	b.eq	Lunix_path_BB75_14
	add	x8, x25, x9
	ldurb	w8, [x8, #-3]
	cmp	w8, #47
	b.eq	Lunix_path_BB75_14
Lunix_path_BB75_39:
	mov	w15, #46
	mov	w8, #1
	mov	x21, x9
	b	Lunix_path_BB75_16
Lunix_path_BB75_40:
	cmp	x21, #32
	b.hs	Lunix_path_BB75_44
	mov	x8, #0
	b	Lunix_path_BB75_48
Lunix_path_BB75_42:
	cmp	x20, #32
	b.hs	Lunix_path_BB75_51
	mov	x8, #0
	b	Lunix_path_BB75_55
Lunix_path_BB75_44:
	and	x9, x21, #0x18
	and	x8, x21, #0xffffffffffffffe0
	add	x10, x28, x23
	add	x10, x10, #16
	add	x11, x13, x19
	add	x11, x11, #16
	and	x12, x21, #0xffffffffffffffe0
Lunix_path_BB75_45:
	ldp	q0, q1, [x10, #-16]
	stp	q0, q1, [x11, #-16]
	add	x10, x10, #32
	add	x11, x11, #32
	subs	x12, x12, #32
	b.ne	Lunix_path_BB75_45
	cmp	x21, x8
	b.eq	Lunix_path_BB75_24
	cbz	x9, Lunix_path_BB75_21
Lunix_path_BB75_48:
	mov	x11, x8
	and	x8, x21, #0xfffffffffffffff8
	sub	x9, x11, x8
	add	x10, x28, x11
	add	x10, x23, x10
	add	x11, x13, x11
	add	x11, x19, x11
Lunix_path_BB75_49:
	ldr	d0, [x10], #8
	str	d0, [x11], #8
	adds	x9, x9, #8
	b.ne	Lunix_path_BB75_49
	cmp	x21, x8
	b.ne	Lunix_path_BB75_21
	b	Lunix_path_BB75_24
Lunix_path_BB75_51:
	and	x9, x20, #0x18
	and	x8, x20, #0xffffffffffffffe0
	add	x10, x22, #16
	add	x11, x13, x21
	add	x11, x11, x14
	add	x11, x11, x19
	add	x11, x11, #16
	and	x12, x20, #0xffffffffffffffe0
Lunix_path_BB75_52:
	ldp	q0, q1, [x10, #-16]
	stp	q0, q1, [x11, #-16]
	add	x10, x10, #32
	add	x11, x11, #32
	subs	x12, x12, #32
	b.ne	Lunix_path_BB75_52
	cmp	x20, x8
	b.eq	Lunix_path_BB75_33
	cbz	x9, Lunix_path_BB75_30
Lunix_path_BB75_55:
	mov	x11, x8
	and	x8, x20, #0xfffffffffffffff8
	sub	x9, x11, x8
	add	x10, x22, x11
	add	x12, x13, x21
	add	x11, x12, x11
	add	x11, x11, x14
	add	x11, x19, x11
Lunix_path_BB75_56:
	ldr	d0, [x10], #8
	str	d0, [x11], #8
	adds	x9, x9, #8
	b.ne	Lunix_path_BB75_56
	cmp	x20, x8
	b.ne	Lunix_path_BB75_30
	b	Lunix_path_BB75_33
	.loh AdrpAdd	Lunix_path_loh148, Lunix_path_loh149
	.section	__TEXT,__literal16,16byte_literals
	.p2align	4, 0x0
lunix_path_CPI76_0:
	.byte	1
	.byte	2
	.byte	4
	.byte	8
	.byte	16
	.byte	32
	.byte	64
	.byte	128
	.byte	1
	.byte	2
	.byte	4
	.byte	8
	.byte	16
	.byte	32
	.byte	64
	.byte	128
	.section	__TEXT,__text,regular,pure_instructions
	.globl	_unix_path_with_extension
	.p2align	2
_unix_path_with_extension:
	stp	x28, x27, [sp, #-96]!
	stp	x26, x25, [sp, #16]
	stp	x24, x23, [sp, #32]
	stp	x22, x21, [sp, #48]
	stp	x20, x19, [sp, #64]
	stp	x29, x30, [sp, #80]
	add	x29, sp, #80
	mov	x24, x5
	mov	x19, x4
	mov	x23, x3
	mov	x21, x1
	mov	x20, x0
	mov	w8, #4096
	cmp	x0, #0
	csel	x27, x8, xzr, eq
	cmp	x2, #0
	csel	x9, x8, xzr, eq
	add	x22, x2, x9
	cmp	x4, #0
	csel	x26, x8, xzr, eq
	mov	x0, x22
	mov	x1, x3
	bl	_unix_path.stems.has_slash
	tbz	w0, #0, Lunix_path_BB76_2
	mov	x0, #-7
	b	Lunix_path_BB76_45
Lunix_path_BB76_2:
	add	x25, x20, x27
	cbz	x21, Lunix_path_BB76_12
	mov	x8, x21
	b	Lunix_path_BB76_5
Lunix_path_BB76_4:
	mov	x8, x1
	cbz	x1, Lunix_path_BB76_13
Lunix_path_BB76_5:
	subs	x1, x8, #1
	b.eq	Lunix_path_BB76_11
	add	x9, x25, x1
	ldrb	w10, [x9]
	cmp	w10, #47
	b.eq	Lunix_path_BB76_9
	cmp	w10, #46
	b.ne	Lunix_path_BB76_17
	ldurb	w9, [x9, #-1]
	cmp	w9, #47
	b.ne	Lunix_path_BB76_14
Lunix_path_BB76_9:
	sub	x8, x21, x1
	cmp	x8, #8
	b.ne	Lunix_path_BB76_4
	add	x0, x20, x27
	bl	_unix_path.filler.trimmed_blocks_len
	mov	x1, x0
	b	Lunix_path_BB76_4
Lunix_path_BB76_11:
	ldrb	w9, [x25]
	and	w9, w9, #0xfe
	cmp	w9, #46
	b.ne	Lunix_path_BB76_17
Lunix_path_BB76_12:
	mov	w9, #0
	mov	x8, #0
	mov	x14, x26
	b	Lunix_path_BB76_27
Lunix_path_BB76_13:
	mov	w9, #0
	mov	x14, x26
	b	Lunix_path_BB76_27
Lunix_path_BB76_14:
	cmp	w9, #46
	b.ne	Lunix_path_BB76_17
	cmp	x8, #2
	b.eq	Lunix_path_BB76_12
	add	x9, x25, x8
	ldurb	w9, [x9, #-3]
	cmp	w9, #47
	b.eq	Lunix_path_BB76_12
Lunix_path_BB76_17:
	mov	w9, #1
	add	x10, x27, x20
	sub	x10, x10, #16
	mov	x12, x8
Lunix_path_BB76_18:
	cmp	x12, #15
	b.ls	Lunix_path_BB76_21
	sub	x11, x12, #16
	ldr	q0, [x10, x12]
	movi.16b	v1, #46
	cmeq.16b	v1, v0, v1
Lunix_path_loh150:
	adrp	x12, lunix_path_CPI76_0@PAGE
Lunix_path_loh151:
	ldr	q2, [x12, lunix_path_CPI76_0@PAGEOFF]
	and.16b	v1, v1, v2
	addp.16b	v1, v1, v1
	addp.16b	v1, v1, v1
	addp.16b	v1, v1, v1
	umov.h	w12, v1[0]
	clz	x13, x12
	mov	w12, #64
	movi.16b	v1, #47
	cmeq.16b	v0, v0, v1
	and.16b	v0, v0, v2
	addp.16b	v0, v0, v0
	addp.16b	v0, v0, v0
	addp.16b	v0, v0, v0
	umov.h	w14, v0[0]
	sub	x15, x12, x13
	clz	x14, x14
	sub	x12, x12, x14
	cmp	x15, x12
	csel	x15, x15, x12, hi
	mov	x12, x11
	cbz	x15, Lunix_path_BB76_18
	mov	w10, #64
	sub	x12, x10, x14
	sub	x10, x10, x13
	cmp	x12, x10
	csel	x10, x12, x10, hi
	add	x11, x10, x11
	sub	x10, x11, #1
	mov	x14, x26
	cbnz	x10, Lunix_path_BB76_25
	b	Lunix_path_BB76_27
Lunix_path_BB76_21:
	add	x10, x27, x20
	sub	x11, x10, #1
	mov	x14, x26
Lunix_path_BB76_22:
	cbz	x12, Lunix_path_BB76_27
	sub	x10, x12, #1
	ldrb	w12, [x11, x12]
	and	w13, w12, #0xfe
	mov	x12, x10
	cmp	w13, #46
	b.ne	Lunix_path_BB76_22
	add	x11, x10, #1
	cbz	x10, Lunix_path_BB76_27
Lunix_path_BB76_25:
	ldrb	w12, [x25, x10]
	cmp	w12, #47
	b.eq	Lunix_path_BB76_27
	add	x11, x25, x11
	ldurb	w11, [x11, #-2]
	cmp	w11, #47
	csel	x8, x8, x10, eq
Lunix_path_BB76_27:
	and	w9, w9, #0xff
Lunix_path_loh152:
	adrp	x10, lunix_path__static.0@PAGE
Lunix_path_loh153:
	add	x10, x10, lunix_path__static.0@PAGEOFF
	cmp	x23, #0
	cset	w11, ne
	mov	w12, #46
	csel	w12, w12, wzr, ne
	cmp	w9, #1
	csel	w13, wzr, w11, ne
	csel	x21, x21, x8, ne
	csel	w15, wzr, w12, ne
	csel	x22, x10, x22, ne
	csel	x23, xzr, x23, ne
	add	x16, x21, x13
	add	x28, x23, x16
	cmp	x24, x28
	b.lo	Lunix_path_BB76_44
	add	x24, x19, x14
	sub	x8, x24, x25
	cmp	x8, x21
	b.hs	Lunix_path_BB76_34
	cmp	x21, #7
	b.ls	Lunix_path_BB76_31
	add	x8, x14, x19
	add	x9, x27, x20
	sub	x8, x8, x9
	cmp	x8, #32
	b.hs	Lunix_path_BB76_46
Lunix_path_BB76_31:
	mov	x8, #0
Lunix_path_BB76_32:
	sub	x9, x21, x8
	add	x10, x27, x8
	add	x10, x20, x10
	add	x8, x14, x8
	add	x8, x19, x8
Lunix_path_BB76_33:
	ldrb	w11, [x10], #1
	strb	w11, [x8], #1
	subs	x9, x9, #1
	b.ne	Lunix_path_BB76_33
	b	Lunix_path_BB76_35
Lunix_path_BB76_34:
	add	x0, x19, x14
	mov	x1, x25
	mov	x2, x21
	mov	x20, x13
	mov	x25, x15
	mov	x27, x16
	bl	_memmove
	mov	x16, x27
	mov	x15, x25
	mov	x13, x20
	mov	x14, x26
Lunix_path_BB76_35:
	cbz	x13, Lunix_path_BB76_37
	strb	w15, [x24, x21]
Lunix_path_BB76_37:
	add	x0, x24, x16
	sub	x8, x0, x22
	cmp	x8, x23
	b.hs	Lunix_path_BB76_43
	cmp	x23, #7
	b.ls	Lunix_path_BB76_40
	add	x8, x14, x21
	add	x8, x8, x19
	add	x8, x8, x13
	sub	x8, x8, x22
	cmp	x8, #32
	b.hs	Lunix_path_BB76_48
Lunix_path_BB76_40:
	mov	x8, #0
Lunix_path_BB76_41:
	sub	x9, x23, x8
	add	x10, x22, x8
	add	x8, x14, x8
	add	x8, x8, x21
	add	x8, x8, x13
	add	x8, x19, x8
Lunix_path_BB76_42:
	ldrb	w11, [x10], #1
	strb	w11, [x8], #1
	subs	x9, x9, #1
	b.ne	Lunix_path_BB76_42
	b	Lunix_path_BB76_44
Lunix_path_BB76_43:
	mov	x1, x22
	mov	x2, x23
	bl	_memmove
Lunix_path_BB76_44:
	mov	x8, #-9223372036854775808
	cmp	x28, x8
	csel	x0, x28, x8, lo
Lunix_path_BB76_45:
	ldp	x29, x30, [sp, #80]
	ldp	x20, x19, [sp, #64]
	ldp	x22, x21, [sp, #48]
	ldp	x24, x23, [sp, #32]
	ldp	x26, x25, [sp, #16]
	ldp	x28, x27, [sp], #96
	ret
Lunix_path_BB76_46:
	cmp	x21, #32
	b.hs	Lunix_path_BB76_50
	mov	x8, #0
	b	Lunix_path_BB76_54
Lunix_path_BB76_48:
	cmp	x23, #32
	b.hs	Lunix_path_BB76_57
	mov	x8, #0
	b	Lunix_path_BB76_61
Lunix_path_BB76_50:
	and	x9, x21, #0x18
	and	x8, x21, #0xffffffffffffffe0
	add	x10, x27, x20
	add	x10, x10, #16
	add	x11, x14, x19
	add	x11, x11, #16
	and	x12, x21, #0xffffffffffffffe0
Lunix_path_BB76_51:
	ldp	q0, q1, [x10, #-16]
	stp	q0, q1, [x11, #-16]
	add	x10, x10, #32
	add	x11, x11, #32
	subs	x12, x12, #32
	b.ne	Lunix_path_BB76_51
	cmp	x21, x8
	b.eq	Lunix_path_BB76_35
	cbz	x9, Lunix_path_BB76_32
Lunix_path_BB76_54:
	mov	x11, x8
	and	x8, x21, #0xfffffffffffffff8
	sub	x9, x11, x8
	add	x10, x27, x11
	add	x10, x20, x10
	add	x11, x14, x11
	add	x11, x19, x11
Lunix_path_BB76_55:
	ldr	d0, [x10], #8
	str	d0, [x11], #8
	adds	x9, x9, #8
	b.ne	Lunix_path_BB76_55
	cmp	x21, x8
	b.ne	Lunix_path_BB76_32
	b	Lunix_path_BB76_35
Lunix_path_BB76_57:
	and	x9, x23, #0x18
	and	x8, x23, #0xffffffffffffffe0
	add	x10, x22, #16
	add	x11, x14, x21
	add	x11, x11, x13
	add	x11, x11, x19
	add	x11, x11, #16
	and	x12, x23, #0xffffffffffffffe0
Lunix_path_BB76_58:
	ldp	q0, q1, [x10, #-16]
	stp	q0, q1, [x11, #-16]
	add	x10, x10, #32
	add	x11, x11, #32
	subs	x12, x12, #32
	b.ne	Lunix_path_BB76_58
	cmp	x23, x8
	b.eq	Lunix_path_BB76_44
	cbz	x9, Lunix_path_BB76_41
Lunix_path_BB76_61:
	mov	x11, x8
	and	x8, x23, #0xfffffffffffffff8
	sub	x9, x11, x8
	add	x10, x22, x11
	add	x12, x14, x21
	add	x11, x12, x11
	add	x11, x11, x13
	add	x11, x19, x11
Lunix_path_BB76_62:
	ldr	d0, [x10], #8
	str	d0, [x11], #8
	adds	x9, x9, #8
	b.ne	Lunix_path_BB76_62
	cmp	x23, x8
	b.ne	Lunix_path_BB76_41
	b	Lunix_path_BB76_44
	.loh AdrpLdr	Lunix_path_loh150, Lunix_path_loh151
	.loh AdrpAdd	Lunix_path_loh152, Lunix_path_loh153
	.section	__TEXT,__literal16,16byte_literals
	.p2align	4, 0x0
lunix_path_CPI77_0:
	.byte	1
	.byte	2
	.byte	4
	.byte	8
	.byte	16
	.byte	32
	.byte	64
	.byte	128
	.byte	1
	.byte	2
	.byte	4
	.byte	8
	.byte	16
	.byte	32
	.byte	64
	.byte	128
	.section	__TEXT,__text,regular,pure_instructions
	.globl	_unix_path_with_file_name
	.p2align	2
_unix_path_with_file_name:
	sub	sp, sp, #112
	stp	x28, x27, [sp, #16]
	stp	x26, x25, [sp, #32]
	stp	x24, x23, [sp, #48]
	stp	x22, x21, [sp, #64]
	stp	x20, x19, [sp, #80]
	stp	x29, x30, [sp, #96]
	add	x29, sp, #96
	mov	x26, x5
	mov	x19, x4
	mov	x20, x3
	mov	x22, x1
	mov	w8, #4096
	cmp	x0, #0
	csel	x27, x8, xzr, eq
	add	x24, x0, x27
	cmp	x2, #0
	csel	x9, x8, xzr, eq
	stp	x2, x9, [sp]
	add	x28, x2, x9
	cmp	x4, #0
	csel	x23, x8, xzr, eq
	cbz	x1, Lunix_path_BB77_22
	mov	x25, x0
	mov	x8, x22
	b	Lunix_path_BB77_3
Lunix_path_BB77_2:
	mov	x8, x1
	cbz	x1, Lunix_path_BB77_22
Lunix_path_BB77_3:
	subs	x1, x8, #1
	b.eq	Lunix_path_BB77_9
	add	x9, x24, x1
	ldrb	w10, [x9]
	cmp	w10, #47
	b.eq	Lunix_path_BB77_7
	cmp	w10, #46
	b.ne	Lunix_path_BB77_13
	ldurb	w9, [x9, #-1]
	cmp	w9, #47
	b.ne	Lunix_path_BB77_10
Lunix_path_BB77_7:
	sub	x8, x22, x1
	cmp	x8, #8
	b.ne	Lunix_path_BB77_2
	add	x0, x25, x27
	bl	_unix_path.filler.trimmed_blocks_len
	mov	x1, x0
	b	Lunix_path_BB77_2
Lunix_path_BB77_9:
	ldrb	w9, [x24]
	and	w9, w9, #0xfe
	cmp	w9, #46
	b.ne	Lunix_path_BB77_13
	b	Lunix_path_BB77_22
Lunix_path_BB77_10:
	cmp	w9, #46
	b.ne	Lunix_path_BB77_13
	cmp	x8, #2
	b.eq	Lunix_path_BB77_22
	add	x9, x24, x8
	ldurb	w9, [x9, #-3]
	cmp	w9, #47
	b.eq	Lunix_path_BB77_22
Lunix_path_BB77_13:
	add	x9, x27, x25
	sub	x10, x9, #16
	mov	x9, x8
Lunix_path_BB77_14:
	cmp	x9, #15
	b.ls	Lunix_path_BB77_17
	ldr	q0, [x10, x9]
	sub	x11, x9, #16
	movi.16b	v1, #47
	cmeq.16b	v0, v0, v1
Lunix_path_loh154:
	adrp	x9, lunix_path_CPI77_0@PAGE
Lunix_path_loh155:
	ldr	q1, [x9, lunix_path_CPI77_0@PAGEOFF]
	and.16b	v0, v0, v1
	addp.16b	v0, v0, v0
	addp.16b	v0, v0, v0
	addp.16b	v0, v0, v0
	umov.h	w12, v0[0]
	mov	x9, x11
	cbz	w12, Lunix_path_BB77_14
	umov.h	w9, v0[0]
	and	x9, x9, #0xffff
	clz	x9, x9
	sub	x9, x11, x9
	add	x25, x9, #64
	cmp	x25, x8
	b.ne	Lunix_path_BB77_45
	b	Lunix_path_BB77_21
Lunix_path_BB77_17:
	add	x10, x27, x25
	sub	x10, x10, #1
Lunix_path_BB77_18:
	cbz	x9, Lunix_path_BB77_21
	sub	x11, x9, #1
	ldrb	w12, [x10, x9]
	mov	x9, x11
	cmp	w12, #47
	b.ne	Lunix_path_BB77_18
	add	x25, x11, #1
	cmp	x25, x8
	b.ne	Lunix_path_BB77_45
Lunix_path_BB77_21:
	mov	x22, #0
Lunix_path_BB77_22:
	cbz	x20, Lunix_path_BB77_25
	ldrb	w8, [x28]
	cmp	w8, #47
	b.ne	Lunix_path_BB77_25
	mov	x22, #0
	mov	w8, #0
	mov	w21, #0
Lunix_path_loh156:
	adrp	x24, lunix_path__static.0@PAGE
Lunix_path_loh157:
	add	x24, x24, lunix_path__static.0@PAGEOFF
	mov	x13, x23
	mov	w27, w8
	add	x8, x22, x20
	add	x25, x8, x27
	cmp	x26, x25
	b.hs	Lunix_path_BB77_28
	b	Lunix_path_BB77_44
Lunix_path_BB77_25:
	cbz	x22, Lunix_path_BB77_27
	add	x8, x24, x22
	ldurb	w8, [x8, #-1]
	mov	w9, #47
	cmp	w8, #47
	csel	w21, w9, wzr, ne
	cset	w8, ne
	mov	x13, x23
	mov	w27, w8
	add	x8, x22, x20
	add	x25, x8, x27
	cmp	x26, x25
	b.hs	Lunix_path_BB77_28
	b	Lunix_path_BB77_44
Lunix_path_BB77_27:
	mov	w8, #0
	mov	w21, #0
	mov	x13, x23
	mov	w27, w8
	add	x8, x22, x20
	add	x25, x8, x27
	cmp	x26, x25
	b.lo	Lunix_path_BB77_44
Lunix_path_BB77_28:
	add	x26, x19, x13
	sub	x8, x26, x24
	cmp	x8, x22
	b.hs	Lunix_path_BB77_34
	cmp	x22, #7
	b.ls	Lunix_path_BB77_31
	add	x8, x13, x19
	sub	x8, x8, x24
	cmp	x8, #32
	b.hs	Lunix_path_BB77_53
Lunix_path_BB77_31:
	mov	x8, #0
Lunix_path_BB77_32:
	sub	x9, x22, x8
	add	x10, x24, x8
	add	x8, x13, x8
	add	x8, x19, x8
Lunix_path_BB77_33:
	ldrb	w11, [x10], #1
	strb	w11, [x8], #1
	subs	x9, x9, #1
	b.ne	Lunix_path_BB77_33
	b	Lunix_path_BB77_35
Lunix_path_BB77_34:
	add	x0, x19, x13
	mov	x1, x24
	mov	x2, x22
	bl	_memmove
	mov	x13, x23
Lunix_path_BB77_35:
	cbz	x27, Lunix_path_BB77_37
	strb	w21, [x26, x22]
Lunix_path_BB77_37:
	sub	x8, x25, x20
	add	x0, x26, x8
	sub	x8, x0, x28
	cmp	x8, x20
	b.hs	Lunix_path_BB77_43
	cmp	x20, #7
	b.ls	Lunix_path_BB77_40
	add	x8, x13, x22
	add	x8, x8, x19
	add	x8, x8, x27
	ldp	x10, x9, [sp]
	add	x9, x9, x10
	sub	x8, x8, x9
	cmp	x8, #32
	b.hs	Lunix_path_BB77_55
Lunix_path_BB77_40:
	mov	x8, #0
Lunix_path_BB77_41:
	sub	x9, x20, x8
	ldp	x11, x10, [sp]
	add	x10, x10, x8
	add	x10, x11, x10
	add	x8, x13, x8
	add	x8, x8, x22
	add	x8, x8, x27
	add	x8, x19, x8
Lunix_path_BB77_42:
	ldrb	w11, [x10], #1
	strb	w11, [x8], #1
	subs	x9, x9, #1
	b.ne	Lunix_path_BB77_42
	b	Lunix_path_BB77_44
Lunix_path_BB77_43:
	mov	x1, x28
	mov	x2, x20
	bl	_memmove
Lunix_path_BB77_44:
	mov	x0, x25
	ldp	x29, x30, [sp, #96]
	ldp	x20, x19, [sp, #80]
	ldp	x22, x21, [sp, #64]
	ldp	x24, x23, [sp, #48]
	ldp	x26, x25, [sp, #32]
	ldp	x28, x27, [sp, #16]
	add	sp, sp, #112
	ret
Lunix_path_BB77_45:
	mov	x22, x25
	b	Lunix_path_BB77_47
Lunix_path_BB77_46:
	mov	x22, x1
	cbz	x1, Lunix_path_BB77_22
Lunix_path_BB77_47:
	subs	x1, x22, #1
	b.eq	Lunix_path_BB77_22
	add	x8, x24, x1
	ldrb	w9, [x8]
	cmp	w9, #47
	b.eq	Lunix_path_BB77_51
	cmp	w9, #46
	b.ne	Lunix_path_BB77_22
	ldurb	w8, [x8, #-1]
	cmp	w8, #47
	b.ne	Lunix_path_BB77_22
Lunix_path_BB77_51:
	sub	x8, x25, x1
	cmp	x8, #8
	b.ne	Lunix_path_BB77_46
	mov	x0, x24
	bl	_unix_path.filler.trimmed_blocks_len
	mov	x1, x0
	b	Lunix_path_BB77_46
Lunix_path_BB77_53:
	cmp	x22, #32
	b.hs	Lunix_path_BB77_57
	mov	x8, #0
	b	Lunix_path_BB77_61
Lunix_path_BB77_55:
	cmp	x20, #32
	b.hs	Lunix_path_BB77_64
	mov	x8, #0
	b	Lunix_path_BB77_68
Lunix_path_BB77_57:
	and	x9, x22, #0x18
	and	x8, x22, #0xffffffffffffffe0
	add	x10, x24, #16
	add	x11, x13, x19
	add	x11, x11, #16
	and	x12, x22, #0xffffffffffffffe0
Lunix_path_BB77_58:
	ldp	q0, q1, [x10, #-16]
	stp	q0, q1, [x11, #-16]
	add	x10, x10, #32
	add	x11, x11, #32
	subs	x12, x12, #32
	b.ne	Lunix_path_BB77_58
	cmp	x22, x8
	b.eq	Lunix_path_BB77_35
	cbz	x9, Lunix_path_BB77_32
Lunix_path_BB77_61:
	mov	x11, x8
	and	x8, x22, #0xfffffffffffffff8
	sub	x9, x11, x8
	add	x10, x24, x11
	add	x11, x13, x11
	add	x11, x19, x11
Lunix_path_BB77_62:
	ldr	d0, [x10], #8
	str	d0, [x11], #8
	adds	x9, x9, #8
	b.ne	Lunix_path_BB77_62
	cmp	x22, x8
	b.ne	Lunix_path_BB77_32
	b	Lunix_path_BB77_35
Lunix_path_BB77_64:
	and	x9, x20, #0x18
	and	x8, x20, #0xffffffffffffffe0
	ldp	x11, x10, [sp]
	add	x10, x10, x11
	add	x10, x10, #16
	add	x11, x13, x22
	add	x11, x11, x27
	add	x11, x11, x19
	add	x11, x11, #16
	and	x12, x20, #0xffffffffffffffe0
Lunix_path_BB77_65:
	ldp	q0, q1, [x10, #-16]
	stp	q0, q1, [x11, #-16]
	add	x10, x10, #32
	add	x11, x11, #32
	subs	x12, x12, #32
	b.ne	Lunix_path_BB77_65
	cmp	x20, x8
	b.eq	Lunix_path_BB77_44
	cbz	x9, Lunix_path_BB77_41
Lunix_path_BB77_68:
	mov	x11, x8
	and	x8, x20, #0xfffffffffffffff8
	sub	x9, x11, x8
	ldp	x12, x10, [sp]
	add	x10, x10, x11
	add	x10, x12, x10
	add	x12, x13, x22
	add	x11, x12, x11
	add	x11, x11, x27
	add	x11, x19, x11
Lunix_path_BB77_69:
	ldr	d0, [x10], #8
	str	d0, [x11], #8
	adds	x9, x9, #8
	b.ne	Lunix_path_BB77_69
	cmp	x20, x8
	b.ne	Lunix_path_BB77_41
	b	Lunix_path_BB77_44
	.loh AdrpLdr	Lunix_path_loh154, Lunix_path_loh155
	.loh AdrpAdd	Lunix_path_loh156, Lunix_path_loh157
	.section	__TEXT,__const
lunix_path__static.0:
	.byte	0
lunix_path__static.5:
	.byte	46
lunix_path__static.8:
	.byte	47
lunix_path__static.9:
	.ascii	"./"
lunix_path__static.10:
	.space	2,46
lunix_path__static.12:
	.ascii	"\357\277\275"
.subsections_via_symbols
