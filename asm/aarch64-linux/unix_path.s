// unix_path 1.1.0: the calls of unix_path.h, for aarch64 Linux. Compiled from proved sources.
// tools/generate made this file. PROVED.txt has its SHA-256, and says what it was made from.
// Licensed under MIT or Apache-2.0.
	.section	.rodata.cst16,"aM",@progbits,16
	.p2align	4, 0x0
.Lunix_path_CPI0_0:
	.byte	1
	.byte	2
	.byte	4
	.byte	8
	.byte	16
	.byte	32
	.byte	64
	.byte	128
	.byte	1
	.byte	2
	.byte	4
	.byte	8
	.byte	16
	.byte	32
	.byte	64
	.byte	128
	.section	.text.unix_path.filler.trimmed_blocks_len,"ax",@progbits
	.p2align	2
	.type	unix_path.filler.trimmed_blocks_len,@function
// unix_path::filler::trimmed_blocks_len
unix_path.filler.trimmed_blocks_len:
.Lunix_path_BB0_1:
	mov	x8, x1
	cmp	x1, #17
	b.lo	.Lunix_path_BB0_3
	movi	v0.16b, #46
	add	x9, x0, x8
	movi	v2.16b, #47
	ldur	q1, [x9, #-16]
	ldur	q3, [x9, #-17]
	adrp	x9, .Lunix_path_CPI0_0
	sub	x1, x8, #16
	cmeq	v0.16b, v1.16b, v0.16b
	cmeq	v3.16b, v3.16b, v2.16b
	cmeq	v1.16b, v1.16b, v2.16b
	mvn	v0.16b, v0.16b
	orn	v0.16b, v0.16b, v3.16b
	bic	v0.16b, v0.16b, v1.16b
	ldr	q1, [x9, :lo12:.Lunix_path_CPI0_0]
	and	v0.16b, v0.16b, v1.16b
	addp	v0.16b, v0.16b, v0.16b
	addp	v0.16b, v0.16b, v0.16b
	addp	v0.16b, v0.16b, v0.16b
	umov	w9, v0.h[0]
	cbz	w9, .Lunix_path_BB0_1
.Lunix_path_BB0_3:
	mov	x0, x8
	ret
.Lunix_path_func_end0:
	.size	unix_path.filler.trimmed_blocks_len, .Lunix_path_func_end0-unix_path.filler.trimmed_blocks_len
	.section	.rodata.cst16,"aM",@progbits,16
	.p2align	4, 0x0
.Lunix_path_CPI1_0:
	.byte	1
	.byte	2
	.byte	4
	.byte	8
	.byte	16
	.byte	32
	.byte	64
	.byte	128
	.byte	1
	.byte	2
	.byte	4
	.byte	8
	.byte	16
	.byte	32
	.byte	64
	.byte	128
	.section	.text.path_archive.records.split,"ax",@progbits
	.p2align	2
	.type	path_archive.records.split,@function
// path_archive::records::split
path_archive.records.split:
	cbz	x1, .Lunix_path_BB1_2
	mov	x10, xzr
	mov	x9, xzr
	mov	x11, xzr
	b	.Lunix_path_BB1_6
.Lunix_path_BB1_2:
	mov	x8, xzr
.Lunix_path_BB1_3:
	mov	w0, #1
	mov	x1, x8
	ret
.Lunix_path_BB1_4:
	add	x8, x10, #2
.Lunix_path_BB1_5:
	add	x11, x12, #1
	add	x9, x9, #1
	mov	x10, x8
	cmp	x11, x1
	b.hs	.Lunix_path_BB1_3
.Lunix_path_BB1_6:
	sub	x12, x1, x11
	add	x8, x0, x11
	adrp	x13, .Lunix_path_CPI1_0
	cmp	x12, #15
	b.hi	.Lunix_path_BB1_10
	mov	x14, xzr
.Lunix_path_BB1_8:
	ldrb	w15, [x8, x14]
	cbz	w15, .Lunix_path_BB1_15
	add	x14, x14, #1
	cmp	x12, x14
	b.ne	.Lunix_path_BB1_8
	b	.Lunix_path_BB1_59
.Lunix_path_BB1_10:
	subs	x14, x12, #16
	b.eq	.Lunix_path_BB1_14
	mov	x15, xzr
.Lunix_path_BB1_12:
	ldr	q0, [x8, x15]
	ldr	q1, [x13, :lo12:.Lunix_path_CPI1_0]
	cmeq	v0.16b, v0.16b, #0
	and	v0.16b, v0.16b, v1.16b
	addp	v0.16b, v0.16b, v0.16b
	addp	v0.16b, v0.16b, v0.16b
	addp	v0.16b, v0.16b, v0.16b
	umov	w16, v0.h[0]
	orr	w16, w16, #0x10000
	rbit	w16, w16
	clz	w16, w16
	cmp	w16, #15
	b.ls	.Lunix_path_BB1_27
	add	x15, x15, #16
	cmp	x15, x14
	b.lo	.Lunix_path_BB1_12
.Lunix_path_BB1_14:
	ldr	q0, [x8, x14]
	ldr	q1, [x13, :lo12:.Lunix_path_CPI1_0]
	cmeq	v0.16b, v0.16b, #0
	and	v0.16b, v0.16b, v1.16b
	addp	v0.16b, v0.16b, v0.16b
	addp	v0.16b, v0.16b, v0.16b
	addp	v0.16b, v0.16b, v0.16b
	umov	w15, v0.h[0]
	orr	w15, w15, #0x10000
	rbit	w15, w15
	clz	w15, w15
	add	x14, x14, x15
.Lunix_path_BB1_15:
	add	x16, x14, x11
	cmp	x14, x12
	csel	x15, x16, xzr, lo
	b.hs	.Lunix_path_BB1_59
.Lunix_path_BB1_16:
	add	x12, x16, #1
	sub	x14, x1, x12
	add	x16, x0, x12
	cmp	x14, #15
	b.hi	.Lunix_path_BB1_19
	cmp	x1, x12
	b.ne	.Lunix_path_BB1_24
	mov	x17, xzr
	b	.Lunix_path_BB1_29
.Lunix_path_BB1_19:
	subs	x17, x14, #16
	b.eq	.Lunix_path_BB1_23
	mov	x18, xzr
.Lunix_path_BB1_21:
	ldr	q0, [x16, x18]
	ldr	q1, [x13, :lo12:.Lunix_path_CPI1_0]
	cmeq	v0.16b, v0.16b, #0
	and	v0.16b, v0.16b, v1.16b
	addp	v0.16b, v0.16b, v0.16b
	addp	v0.16b, v0.16b, v0.16b
	addp	v0.16b, v0.16b, v0.16b
	umov	w4, v0.h[0]
	orr	w4, w4, #0x10000
	rbit	w4, w4
	clz	w4, w4
	cmp	w4, #15
	b.ls	.Lunix_path_BB1_28
	add	x18, x18, #16
	cmp	x18, x17
	b.lo	.Lunix_path_BB1_21
.Lunix_path_BB1_23:
	ldr	q0, [x16, x17]
	ldr	q1, [x13, :lo12:.Lunix_path_CPI1_0]
	cmeq	v0.16b, v0.16b, #0
	and	v0.16b, v0.16b, v1.16b
	addp	v0.16b, v0.16b, v0.16b
	addp	v0.16b, v0.16b, v0.16b
	addp	v0.16b, v0.16b, v0.16b
	umov	w16, v0.h[0]
	orr	w16, w16, #0x10000
	rbit	w16, w16
	clz	w16, w16
	add	x17, x17, x16
	b	.Lunix_path_BB1_29
.Lunix_path_BB1_24:
	mov	x17, xzr
.Lunix_path_BB1_25:
	ldrb	w18, [x16, x17]
	cbz	w18, .Lunix_path_BB1_29
	add	x17, x17, #1
	cmp	x14, x17
	b.ne	.Lunix_path_BB1_25
	b	.Lunix_path_BB1_59
.Lunix_path_BB1_27:
	add	x14, x15, w16, uxtw
	add	x16, x14, x11
	cmp	x14, x12
	csel	x15, x16, xzr, lo
	b.lo	.Lunix_path_BB1_16
	b	.Lunix_path_BB1_59
.Lunix_path_BB1_28:
	add	x17, x18, w4, uxtw
.Lunix_path_BB1_29:
	add	x16, x17, x12
	cmp	x17, x14
	csel	x14, x16, xzr, lo
	b.hs	.Lunix_path_BB1_59
	add	x16, x16, #1
	sub	x17, x1, x16
	add	x18, x0, x16
	cmp	x17, #15
	b.hi	.Lunix_path_BB1_33
	cmp	x1, x16
	b.ne	.Lunix_path_BB1_38
	mov	x13, xzr
	b	.Lunix_path_BB1_42
.Lunix_path_BB1_33:
	subs	x4, x17, #16
	b.eq	.Lunix_path_BB1_37
	mov	x5, xzr
.Lunix_path_BB1_35:
	ldr	q0, [x18, x5]
	ldr	q1, [x13, :lo12:.Lunix_path_CPI1_0]
	cmeq	v0.16b, v0.16b, #0
	and	v0.16b, v0.16b, v1.16b
	addp	v0.16b, v0.16b, v0.16b
	addp	v0.16b, v0.16b, v0.16b
	addp	v0.16b, v0.16b, v0.16b
	umov	w6, v0.h[0]
	orr	w6, w6, #0x10000
	rbit	w6, w6
	clz	w6, w6
	cmp	w6, #15
	b.ls	.Lunix_path_BB1_41
	add	x5, x5, #16
	cmp	x5, x4
	b.lo	.Lunix_path_BB1_35
.Lunix_path_BB1_37:
	ldr	q0, [x18, x4]
	ldr	q1, [x13, :lo12:.Lunix_path_CPI1_0]
	cmeq	v0.16b, v0.16b, #0
	and	v0.16b, v0.16b, v1.16b
	addp	v0.16b, v0.16b, v0.16b
	addp	v0.16b, v0.16b, v0.16b
	addp	v0.16b, v0.16b, v0.16b
	umov	w13, v0.h[0]
	orr	w13, w13, #0x10000
	rbit	w13, w13
	clz	w13, w13
	add	x13, x4, x13
	b	.Lunix_path_BB1_42
.Lunix_path_BB1_38:
	mov	x13, xzr
.Lunix_path_BB1_39:
	ldrb	w4, [x18, x13]
	cbz	w4, .Lunix_path_BB1_42
	add	x13, x13, #1
	cmp	x17, x13
	b.ne	.Lunix_path_BB1_39
	b	.Lunix_path_BB1_59
.Lunix_path_BB1_41:
	add	x13, x5, w6, uxtw
.Lunix_path_BB1_42:
	cmp	x13, x17
	b.hs	.Lunix_path_BB1_59
	sub	x11, x15, x11
	cmp	x11, #1
	b.ne	.Lunix_path_BB1_51
	ldrb	w8, [x8]
	cmp	w8, #103
	b.gt	.Lunix_path_BB1_48
	cmp	w8, #100
	b.eq	.Lunix_path_BB1_57
	cmp	w8, #102
	b.ne	.Lunix_path_BB1_51
	mov	w11, wzr
	mov	w8, #3
	b	.Lunix_path_BB1_52
.Lunix_path_BB1_48:
	cmp	w8, #108
	b.eq	.Lunix_path_BB1_58
	cmp	w8, #104
	b.ne	.Lunix_path_BB1_51
	mov	w11, #1
	mov	w8, #1
	b	.Lunix_path_BB1_52
.Lunix_path_BB1_51:
	mov	w11, wzr
	mov	w8, #4
.Lunix_path_BB1_52:
	cmp	x10, x3
	b.lo	.Lunix_path_BB1_54
	add	x12, x13, x16
	add	x8, x10, #1
	cbz	w11, .Lunix_path_BB1_5
	b	.Lunix_path_BB1_55
.Lunix_path_BB1_54:
	mov	w15, #40
	madd	x15, x10, x15, x2
	stp	x12, x14, [x15]
	stp	x8, x9, [x15, #16]
	str	xzr, [x15, #32]
	add	x12, x13, x16
	add	x8, x10, #1
	cbz	w11, .Lunix_path_BB1_5
.Lunix_path_BB1_55:
	cmp	x8, x3
	b.hs	.Lunix_path_BB1_4
	mov	w11, #40
	madd	x8, x8, x11, x2
	add	x11, x14, #1
	stp	x11, x12, [x8]
	mov	w11, #2
	stp	x11, x9, [x8, #16]
	str	xzr, [x8, #32]
	b	.Lunix_path_BB1_4
.Lunix_path_BB1_57:
	mov	w11, wzr
	mov	w8, #5
	b	.Lunix_path_BB1_52
.Lunix_path_BB1_58:
	mov	w11, wzr
	mov	x8, xzr
	b	.Lunix_path_BB1_52
.Lunix_path_BB1_59:
	mov	w0, wzr
	mov	x1, xzr
	ret
.Lunix_path_func_end1:
	.size	path_archive.records.split, .Lunix_path_func_end1-path_archive.records.split
	.section	.rodata.cst16,"aM",@progbits,16
	.p2align	4, 0x0
.Lunix_path_CPI2_0:
	.byte	1
	.byte	2
	.byte	4
	.byte	8
	.byte	16
	.byte	32
	.byte	64
	.byte	128
	.byte	1
	.byte	2
	.byte	4
	.byte	8
	.byte	16
	.byte	32
	.byte	64
	.byte	128
	.section	.text.core.cmp.slices.groups_equal.i8.31.core.cmp.numbers.U8PartialEq.,"ax",@progbits
	.p2align	2
	.type	core.cmp.slices.groups_equal.i8.31.core.cmp.numbers.U8PartialEq.,@function
// core::cmp::slices::groups_equal::<i8,31'core::cmp::numbers::U8PartialEq{}>
core.cmp.slices.groups_equal.i8.31.core.cmp.numbers.U8PartialEq.:
	subs	x9, x1, #8
	b.hi	.Lunix_path_BB2_2
	sub	x8, x1, #4
	ldr	s0, [x0]
	ldr	s1, [x2]
	add	x9, x0, x8
	add	x8, x2, x8
	ld1	{ v0.s }[1], [x9]
	ld1	{ v1.s }[1], [x8]
	fmov	x8, d0
	fmov	x9, d1
	cmp	x8, x9
	cset	w8, ne
	eor	w0, w8, #0x1
	ret
.Lunix_path_BB2_2:
	subs	x8, x1, #32
	b.hi	.Lunix_path_BB2_4
	cmp	x9, #8
	mov	w8, #8
	mov	w10, #16
	csel	x8, x9, x8, lo
	cmp	x9, #16
	ldr	d0, [x0]
	ldr	d1, [x2]
	ldr	d2, [x0, x8]
	ldr	d3, [x2, x8]
	csel	x8, x9, x10, lo
	ldr	d5, [x2, x9]
	ldr	d4, [x0, x8]
	mov	v0.d[1], v2.d[0]
	mov	v1.d[1], v3.d[0]
	ldr	d2, [x2, x8]
	ldr	d3, [x0, x9]
	mov	v4.d[1], v3.d[0]
	mov	v2.d[1], v5.d[0]
	cmeq	v0.16b, v0.16b, v1.16b
	cmeq	v1.16b, v4.16b, v2.16b
	b	.Lunix_path_BB2_17
.Lunix_path_BB2_4:
	cmp	x1, #65
	b.hs	.Lunix_path_BB2_6
	ldp	q1, q0, [x0]
	add	x9, x2, x8
	ldp	q3, q2, [x2]
	add	x8, x0, x8
	ldp	q4, q5, [x9]
	cmeq	v1.16b, v1.16b, v3.16b
	cmeq	v0.16b, v0.16b, v2.16b
	ldp	q2, q3, [x8]
	mvn	v1.16b, v1.16b
	mvn	v0.16b, v0.16b
	cmeq	v2.16b, v2.16b, v4.16b
	cmeq	v3.16b, v3.16b, v5.16b
	orn	v0.16b, v0.16b, v3.16b
	orn	v1.16b, v1.16b, v2.16b
	orr	v0.16b, v1.16b, v0.16b
	umaxv	b0, v0.16b
	fmov	w8, s0
	and	w8, w8, #0x1
	eor	w0, w8, #0x1
	ret
.Lunix_path_BB2_6:
	and	x9, x1, #0xffffffffffffffc0
	add	x10, x0, #32
	add	x12, x2, #32
	mov	w11, #32
	mov	x13, x1
.Lunix_path_BB2_7:
	ldp	q0, q3, [x12, #-32]
	ldp	q1, q2, [x10, #-32]
	ldp	q4, q5, [x12], #64
	cmeq	v0.16b, v1.16b, v0.16b
	cmeq	v1.16b, v2.16b, v3.16b
	ldp	q2, q3, [x10], #64
	mvn	v0.16b, v0.16b
	mvn	v1.16b, v1.16b
	cmeq	v2.16b, v2.16b, v4.16b
	cmeq	v3.16b, v3.16b, v5.16b
	orn	v0.16b, v0.16b, v2.16b
	orn	v1.16b, v1.16b, v3.16b
	orr	v0.16b, v1.16b, v0.16b
	umaxv	b0, v0.16b
	fmov	w14, s0
	tbnz	w14, #0, .Lunix_path_BB2_10
	sub	x13, x13, #64
	add	x11, x11, #64
	cmp	x13, #63
	b.hi	.Lunix_path_BB2_7
	sub	x10, x1, x9
	cmp	x10, #32
	b.hs	.Lunix_path_BB2_11
	b	.Lunix_path_BB2_16
.Lunix_path_BB2_10:
	sub	x9, x11, #32
	sub	x10, x1, x9
	cmp	x10, #32
	b.lo	.Lunix_path_BB2_16
.Lunix_path_BB2_11:
	add	x11, x0, x9
	add	x9, x2, x9
.Lunix_path_BB2_12:
	ldp	q0, q1, [x11], #32
	ldp	q2, q3, [x9], #32
	adrp	x12, .Lunix_path_CPI2_0
	cmeq	v1.16b, v1.16b, v3.16b
	cmeq	v0.16b, v0.16b, v2.16b
	ldr	q2, [x12, :lo12:.Lunix_path_CPI2_0]
	bic	v1.16b, v2.16b, v1.16b
	bic	v0.16b, v2.16b, v0.16b
	ext	v2.16b, v1.16b, v1.16b, #8
	ext	v3.16b, v0.16b, v0.16b, #8
	zip1	v1.16b, v1.16b, v2.16b
	zip1	v0.16b, v0.16b, v3.16b
	addv	h1, v1.8h
	addv	h0, v0.8h
	fmov	w12, s1
	fmov	w13, s0
	orr	w12, w13, w12
	tst	w12, #0xffff
	b.ne	.Lunix_path_BB2_14
	sub	x10, x10, #32
	cmp	x10, #31
	b.hi	.Lunix_path_BB2_12
	b	.Lunix_path_BB2_16
.Lunix_path_BB2_14:
	cmp	x10, #31
	b.ls	.Lunix_path_BB2_16
	mov	w8, #1
	eor	w0, w8, #0x1
	ret
.Lunix_path_BB2_16:
	add	x9, x0, x8
	add	x8, x2, x8
	ldp	q0, q3, [x8]
	ldp	q1, q2, [x9]
	cmeq	v0.16b, v1.16b, v0.16b
	cmeq	v1.16b, v2.16b, v3.16b
.Lunix_path_BB2_17:
	mvn	v0.16b, v0.16b
	orn	v0.16b, v0.16b, v1.16b
	umaxv	b0, v0.16b
	fmov	w8, s0
	and	w8, w8, #0x1
	eor	w0, w8, #0x1
	ret
.Lunix_path_func_end2:
	.size	core.cmp.slices.groups_equal.i8.31.core.cmp.numbers.U8PartialEq., .Lunix_path_func_end2-core.cmp.slices.groups_equal.i8.31.core.cmp.numbers.U8PartialEq.
	.section	.text.core.slice.sort.small.insertion_sort.fd4dfef4a36ac24b.,"ax",@progbits
	.p2align	2
	.type	core.slice.sort.small.insertion_sort.fd4dfef4a36ac24b.,@function
// core::slice::sort::small::insertion_sort::<#fd4dfef4a36ac24b>
core.slice.sort.small.insertion_sort.fd4dfef4a36ac24b.:
	sub	sp, sp, #160
	stp	x26, x25, [sp, #96]
	ldp	x25, x26, [x2]
	cmp	x1, #2
	stp	x29, x30, [sp, #64]
	add	x29, sp, #64
	stp	x28, x27, [sp, #80]
	stp	x24, x23, [sp, #112]
	stp	x22, x21, [sp, #128]
	stp	x20, x19, [sp, #144]
	str	x2, [sp]
	b.lo	.Lunix_path_BB3_11
	mov	x27, x1
	mov	x28, x0
	sub	x8, x0, #40
	mov	w9, #1
	stur	x8, [x29, #-8]
	stp	x0, x1, [sp, #8]
	b	.Lunix_path_BB3_5
.Lunix_path_BB3_2:
	mov	x8, xzr
.Lunix_path_BB3_3:
	add	x8, x28, x8
	stp	x10, x11, [x8]
	stp	x20, x19, [x8, #16]
	str	x12, [x8, #32]
.Lunix_path_BB3_4:
	ldur	x8, [x29, #-8]
	add	x9, x9, #1
	cmp	x9, x27
	add	x8, x8, #40
	stur	x8, [x29, #-8]
	b.eq	.Lunix_path_BB3_11
.Lunix_path_BB3_5:
	mov	w8, #40
	stur	x9, [x29, #-16]
	madd	x24, x9, x8, x28
	ldp	x9, x8, [x24]
	cmp	x26, x8
	csel	x8, x26, x8, lo
	cmp	x8, x9
	csel	x9, x8, x9, lo
	sub	x1, x8, x9
	add	x0, x25, x9
	bl	path_archive.slot.without_dot
	ldur	x8, [x24, #-32]
	mov	x21, x24
	mov	x22, x0
	ldr	x9, [x21, #-40]!
	mov	x23, x1
	cmp	x26, x8
	csel	x8, x26, x8, lo
	cmp	x8, x9
	csel	x9, x8, x9, lo
	sub	x1, x8, x9
	add	x0, x25, x9
	bl	path_archive.slot.without_dot
	mov	x2, x0
	mov	x3, x1
	mov	x0, x22
	mov	x1, x23
	bl	unix_path.compare.compare
	ldp	x9, x8, [x24, #-24]
	ldp	x20, x19, [x24, #16]
	cmp	x19, x8
	mov	w8, #2
	csel	w10, wzr, w8, lo
	csinc	w10, w10, wzr, ne
	cmp	x20, x9
	and	w9, w0, #0xff
	csel	w8, wzr, w8, lo
	csel	w8, w10, w8, eq
	cmp	w9, #1
	csel	w8, w8, w9, eq
	ldur	x9, [x29, #-16]
	cbnz	w8, .Lunix_path_BB3_4
	ldp	q0, q1, [x21]
	ldr	x8, [x21, #32]
	ldp	x10, x11, [x24]
	sub	x21, x9, #1
	ldr	x12, [x24, #32]
	str	x8, [x24, #32]
	stp	q0, q1, [x24]
	cbz	x21, .Lunix_path_BB3_2
	cmp	x26, x11
	ldur	x28, [x29, #-8]
	stp	x12, x11, [sp, #24]
	csel	x8, x26, x11, lo
	stur	x10, [x29, #-24]
	cmp	x8, x10
	csel	x27, x8, x10, lo
	sub	x22, x8, x27
.Lunix_path_BB3_8:
	add	x0, x25, x27
	mov	x1, x22
	bl	path_archive.slot.without_dot
	ldp	x9, x8, [x28]
	mov	x23, x0
	mov	x24, x1
	cmp	x26, x8
	csel	x8, x26, x8, lo
	cmp	x8, x9
	csel	x9, x8, x9, lo
	sub	x1, x8, x9
	add	x0, x25, x9
	bl	path_archive.slot.without_dot
	mov	x2, x0
	mov	x3, x1
	mov	x0, x23
	mov	x1, x24
	bl	unix_path.compare.compare
	ldp	x9, x8, [x28, #16]
	cmp	x19, x8
	mov	w8, #2
	csel	w10, wzr, w8, lo
	csinc	w10, w10, wzr, ne
	cmp	x20, x9
	and	w9, w0, #0xff
	csel	w8, wzr, w8, lo
	csel	w8, w10, w8, eq
	cmp	w9, #1
	csel	w8, w8, w9, eq
	cbnz	w8, .Lunix_path_BB3_10
	ldp	q0, q1, [x28]
	sub	x21, x21, #1
	ldr	x8, [x28, #32]
	stur	q0, [x28, #40]
	stur	q1, [x28, #56]
	str	x8, [x28, #72]
	sub	x28, x28, #40
	cbnz	x21, .Lunix_path_BB3_8
.Lunix_path_BB3_10:
	add	x8, x21, x21, lsl #2
	ldp	x28, x27, [sp, #8]
	ldp	x10, x9, [x29, #-24]
	ldp	x12, x11, [sp, #24]
	lsl	x8, x8, #3
	b	.Lunix_path_BB3_3
.Lunix_path_BB3_11:
	ldr	x8, [sp]
	ldp	x20, x19, [sp, #144]
	ldp	x22, x21, [sp, #128]
	stp	x25, x26, [x8]
	ldp	x24, x23, [sp, #112]
	ldp	x26, x25, [sp, #96]
	ldp	x28, x27, [sp, #80]
	ldp	x29, x30, [sp, #64]
	add	sp, sp, #160
	ret
.Lunix_path_func_end3:
	.size	core.slice.sort.small.insertion_sort.fd4dfef4a36ac24b., .Lunix_path_func_end3-core.slice.sort.small.insertion_sort.fd4dfef4a36ac24b.
	.section	.text.path_archive.slot.without_dot,"ax",@progbits
	.p2align	2
	.type	path_archive.slot.without_dot,@function
// path_archive::slot::without_dot
path_archive.slot.without_dot:
	sub	sp, sp, #80
	stp	x20, x19, [sp, #64]
	mov	x20, x1
	mov	x19, x0
	stp	x29, x30, [sp, #32]
	add	x29, sp, #32
	str	x21, [sp, #48]
	cbz	x1, .Lunix_path_BB4_33
	mov	x8, x20
	b	.Lunix_path_BB4_3
.Lunix_path_BB4_2:
	mov	x8, x1
	cbz	x1, .Lunix_path_BB4_33
.Lunix_path_BB4_3:
	subs	x1, x8, #1
	b.eq	.Lunix_path_BB4_9
	add	x9, x19, x1
	ldrb	w10, [x9]
	cmp	w10, #47
	b.eq	.Lunix_path_BB4_7
	cmp	w10, #46
	b.ne	.Lunix_path_BB4_9
	ldurb	w9, [x9, #-1]
	cmp	w9, #47
	b.ne	.Lunix_path_BB4_9
.Lunix_path_BB4_7:
	sub	x8, x20, x1
	cmp	x8, #8
	b.ne	.Lunix_path_BB4_2
	mov	x0, x19
	bl	unix_path.filler.trimmed_blocks_len
	mov	x1, x0
	b	.Lunix_path_BB4_2
.Lunix_path_BB4_9:
	ldrb	w10, [x19]
	stp	xzr, xzr, [sp, #8]
	str	xzr, [sp, #24]
	cmp	w10, #46
	b.ne	.Lunix_path_BB4_14
	subs	x21, x8, #1
	b.eq	.Lunix_path_BB4_13
	ldrb	w9, [x19, #1]
	cmp	w9, #47
	b.eq	.Lunix_path_BB4_13
	ldrb	w9, [x19]
	cmp	w9, #47
	b.ne	.Lunix_path_BB4_37
.Lunix_path_BB4_13:
	add	x19, x19, #1
	b	.Lunix_path_BB4_23
.Lunix_path_BB4_14:
	mov	x9, xzr
	mov	w11, #47
	cmp	xzr, x8
	b.hs	.Lunix_path_BB4_16
.Lunix_path_BB4_15:
	ldrb	w12, [x19, x9]
	cmp	w12, #47
	b.ne	.Lunix_path_BB4_18
.Lunix_path_BB4_16:
	cmp	wzr, w11
	b.ne	.Lunix_path_BB4_19
.Lunix_path_BB4_17:
	cmp	w10, #46
	b.ne	.Lunix_path_BB4_33
	b	.Lunix_path_BB4_21
.Lunix_path_BB4_18:
	add	w12, w12, #1
	cmp	w12, w11
	b.eq	.Lunix_path_BB4_17
.Lunix_path_BB4_19:
	cmp	w10, #46
	b.ne	.Lunix_path_BB4_33
	add	x10, x19, x9
	ldurb	w10, [x10, #-1]
	cmp	w10, #47
	b.ne	.Lunix_path_BB4_34
.Lunix_path_BB4_21:
	sub	x2, x8, x9
	mov	w8, #1
	adrp	x10, .Lunix_path_static.5
	add	x10, x10, :lo12:.Lunix_path_static.5
	sub	x4, x8, x9
	add	x0, sp, #8
	add	x1, x19, x9
	add	x3, x10, x9
	bl	unix_path.pair.Comparison.rest_after_cut
	ldrb	w8, [sp, #8]
	cmp	w8, #1
	b.ne	.Lunix_path_BB4_33
	ldp	x19, x21, [sp, #16]
.Lunix_path_BB4_23:
	mov	x2, xzr
	b	.Lunix_path_BB4_25
.Lunix_path_BB4_24:
	mov	w8, #1
	add	x2, x8, x2
	cmp	x2, #4
	b.hs	.Lunix_path_BB4_31
.Lunix_path_BB4_25:
	cmp	x2, x21
	b.hs	.Lunix_path_BB4_32
	ldrb	w8, [x19, x2]
	cmp	w8, #47
	b.eq	.Lunix_path_BB4_24
	cmp	w8, #46
	b.ne	.Lunix_path_BB4_32
	add	x8, x2, #1
	cmp	x8, x21
	b.eq	.Lunix_path_BB4_24
	ldrb	w8, [x19, x8]
	cmp	w8, #47
	b.ne	.Lunix_path_BB4_32
	mov	w8, #2
	add	x2, x8, x2
	cmp	x2, #4
	b.lo	.Lunix_path_BB4_25
.Lunix_path_BB4_31:
	mov	x0, x19
	mov	x1, x21
	bl	unix_path.filler.filler_end_from
	mov	x2, x0
.Lunix_path_BB4_32:
	add	x19, x19, x2
	sub	x20, x21, x2
.Lunix_path_BB4_33:
	mov	x0, x19
	mov	x1, x20
	ldr	x21, [sp, #48]
	ldp	x20, x19, [sp, #64]
	ldp	x29, x30, [sp, #32]
	add	sp, sp, #80
	ret
.Lunix_path_BB4_34:
	subs	x9, x9, #1
	b.eq	.Lunix_path_BB4_33
	cmp	w10, #46
	b.ne	.Lunix_path_BB4_33
	add	x10, x19, x9
	ldurb	w10, [x10, #-1]
	cmp	w10, #47
	b.eq	.Lunix_path_BB4_21
	b	.Lunix_path_BB4_33
.Lunix_path_BB4_37:
	mov	w11, wzr
	mov	w9, #1
	cmp	x9, x8
	b.lo	.Lunix_path_BB4_15
	b	.Lunix_path_BB4_16
.Lunix_path_func_end4:
	.size	path_archive.slot.without_dot, .Lunix_path_func_end4-path_archive.slot.without_dot
	.section	.rodata.cst16,"aM",@progbits,16
	.p2align	4, 0x0
.Lunix_path_CPI5_0:
	.byte	1
	.byte	2
	.byte	4
	.byte	8
	.byte	16
	.byte	32
	.byte	64
	.byte	128
	.byte	1
	.byte	2
	.byte	4
	.byte	8
	.byte	16
	.byte	32
	.byte	64
	.byte	128
	.section	.rodata.cst8,"aM",@progbits,8
	.p2align	3, 0x0
.Lunix_path_CPI5_1:
	.byte	1
	.byte	2
	.byte	4
	.byte	8
	.byte	16
	.byte	32
	.byte	64
	.byte	128
	.section	.text.unix_path.pair.Comparison.rest_after_cut,"ax",@progbits
	.p2align	2
	.type	unix_path.pair.Comparison.rest_after_cut,@function
// unix_path::pair::Comparison::rest_after_cut
unix_path.pair.Comparison.rest_after_cut:
	stp	x29, x30, [sp, #-64]!
	str	x23, [sp, #16]
	mov	x23, x1
	mov	x29, sp
	stp	x22, x21, [sp, #32]
	mov	x21, x4
	mov	x22, x2
	stp	x20, x19, [sp, #48]
	mov	x20, x3
	mov	x19, x0
	b	.Lunix_path_BB5_3
.Lunix_path_BB5_1:
	cbz	x10, .Lunix_path_BB5_57
.Lunix_path_BB5_2:
	add	x23, x23, x10
	sub	x22, x22, x10
	add	x20, x9, x10
	sub	x21, x8, x10
.Lunix_path_BB5_3:
	mov	x8, xzr
	b	.Lunix_path_BB5_5
.Lunix_path_BB5_4:
	mov	w9, #1
	add	x8, x9, x8
	cmp	x8, #4
	b.hs	.Lunix_path_BB5_11
.Lunix_path_BB5_5:
	cmp	x8, x22
	b.hs	.Lunix_path_BB5_12
	ldrb	w9, [x23, x8]
	cmp	w9, #47
	b.eq	.Lunix_path_BB5_4
	cmp	w9, #46
	b.ne	.Lunix_path_BB5_12
	add	x9, x8, #1
	cmp	x9, x22
	b.eq	.Lunix_path_BB5_4
	ldrb	w9, [x23, x9]
	cmp	w9, #47
	b.ne	.Lunix_path_BB5_12
	mov	w9, #2
	add	x8, x9, x8
	cmp	x8, #4
	b.lo	.Lunix_path_BB5_5
.Lunix_path_BB5_11:
	mov	x0, x23
	mov	x1, x22
	mov	x2, x8
	bl	unix_path.filler.filler_end_from
	mov	x8, x0
.Lunix_path_BB5_12:
	mov	x2, xzr
	add	x23, x23, x8
	sub	x22, x22, x8
	b	.Lunix_path_BB5_14
.Lunix_path_BB5_13:
	mov	w8, #1
	add	x2, x8, x2
	cmp	x2, #4
	b.hs	.Lunix_path_BB5_20
.Lunix_path_BB5_14:
	cmp	x2, x21
	b.hs	.Lunix_path_BB5_21
	ldrb	w8, [x20, x2]
	cmp	w8, #47
	b.eq	.Lunix_path_BB5_13
	cmp	w8, #46
	b.ne	.Lunix_path_BB5_21
	add	x8, x2, #1
	cmp	x8, x21
	b.eq	.Lunix_path_BB5_13
	ldrb	w8, [x20, x8]
	cmp	w8, #47
	b.ne	.Lunix_path_BB5_21
	mov	w8, #2
	add	x2, x8, x2
	cmp	x2, #4
	b.lo	.Lunix_path_BB5_14
.Lunix_path_BB5_20:
	mov	x0, x20
	mov	x1, x21
	bl	unix_path.filler.filler_end_from
	mov	x2, x0
.Lunix_path_BB5_21:
	subs	x8, x21, x2
	b.eq	.Lunix_path_BB5_58
	cmp	x8, x22
	add	x9, x20, x2
	csel	x11, x8, x22, lo
	cmp	x11, #15
	b.hi	.Lunix_path_BB5_28
	cmp	x11, #7
	b.hi	.Lunix_path_BB5_34
	mov	x10, xzr
	cbz	x22, .Lunix_path_BB5_41
.Lunix_path_BB5_25:
	ldrb	w12, [x23, x10]
	ldrb	w13, [x9, x10]
	cmp	w12, w13
	b.ne	.Lunix_path_BB5_41
	add	x10, x10, #1
	cmp	x11, x10
	b.ne	.Lunix_path_BB5_25
	mov	x10, x11
	cmp	x11, x22
	b.lo	.Lunix_path_BB5_42
	b	.Lunix_path_BB5_43
.Lunix_path_BB5_28:
	ldr	q0, [x23]
	ldr	q1, [x9]
	adrp	x10, .Lunix_path_CPI5_0
	cmeq	v1.16b, v0.16b, v1.16b
	ldr	q0, [x10, :lo12:.Lunix_path_CPI5_0]
	bic	v1.16b, v0.16b, v1.16b
	addp	v1.16b, v1.16b, v1.16b
	addp	v1.16b, v1.16b, v1.16b
	addp	v1.16b, v1.16b, v1.16b
	umov	w10, v1.h[0]
	orr	w10, w10, #0x10000
	rbit	w10, w10
	clz	w10, w10
	cmp	w10, #16
	b.lo	.Lunix_path_BB5_41
	cmp	x11, #64
	b.lo	.Lunix_path_BB5_36
	mov	x10, xzr
	mov	x12, x11
.Lunix_path_BB5_31:
	add	x13, x23, x10
	add	x14, x9, x10
	ldp	q1, q2, [x13]
	ldp	q3, q4, [x13, #32]
	ldp	q5, q6, [x14]
	ldp	q7, q16, [x14, #32]
	cmeq	v1.16b, v1.16b, v5.16b
	cmeq	v2.16b, v2.16b, v6.16b
	cmeq	v4.16b, v4.16b, v16.16b
	cmeq	v3.16b, v3.16b, v7.16b
	bic	v1.16b, v0.16b, v1.16b
	bic	v2.16b, v0.16b, v2.16b
	bic	v3.16b, v0.16b, v3.16b
	bic	v4.16b, v0.16b, v4.16b
	addp	v1.16b, v1.16b, v2.16b
	addp	v2.16b, v3.16b, v4.16b
	addp	v1.16b, v1.16b, v2.16b
	addp	v1.16b, v1.16b, v1.16b
	fmov	x13, d1
	cbnz	x13, .Lunix_path_BB5_37
	sub	x12, x12, #64
	add	x10, x10, #64
	cmp	x12, #63
	b.hi	.Lunix_path_BB5_31
	and	x10, x11, #0xffffffffffffffc0
	sub	x11, x11, #16
	cmp	x10, x11
	b.lo	.Lunix_path_BB5_38
	b	.Lunix_path_BB5_40
.Lunix_path_BB5_34:
	ldr	d0, [x23]
	ldr	d1, [x9]
	adrp	x10, .Lunix_path_CPI5_1
	cmeq	v1.8b, v0.8b, v1.8b
	ldr	d0, [x10, :lo12:.Lunix_path_CPI5_1]
	bic	v1.8b, v0.8b, v1.8b
	addv	b1, v1.8b
	fmov	w10, s1
	orr	w10, w10, #0x100
	rbit	w10, w10
	clz	w10, w10
	cmp	w10, #8
	b.lo	.Lunix_path_BB5_41
	sub	x10, x11, #8
	ldr	d1, [x23, x10]
	ldr	d2, [x9, x10]
	cmeq	v1.8b, v1.8b, v2.8b
	bic	v0.8b, v0.8b, v1.8b
	addv	b0, v0.8b
	fmov	w11, s0
	orr	w11, w11, #0x100
	rbit	w11, w11
	clz	w11, w11
	add	x10, x10, x11
	cmp	x10, x22
	b.lo	.Lunix_path_BB5_42
	b	.Lunix_path_BB5_43
.Lunix_path_BB5_36:
	mov	x10, xzr
.Lunix_path_BB5_37:
	sub	x11, x11, #16
	cmp	x10, x11
	b.hs	.Lunix_path_BB5_40
.Lunix_path_BB5_38:
	ldr	q1, [x23, x10]
	ldr	q2, [x9, x10]
	cmeq	v1.16b, v1.16b, v2.16b
	bic	v1.16b, v0.16b, v1.16b
	addp	v1.16b, v1.16b, v1.16b
	addp	v1.16b, v1.16b, v1.16b
	addp	v1.16b, v1.16b, v1.16b
	umov	w12, v1.h[0]
	orr	w12, w12, #0x10000
	rbit	w12, w12
	clz	w12, w12
	cmp	w12, #15
	b.ls	.Lunix_path_BB5_56
	add	x10, x10, #16
	cmp	x10, x11
	b.lo	.Lunix_path_BB5_38
.Lunix_path_BB5_40:
	ldr	q1, [x23, x11]
	ldr	q2, [x9, x11]
	cmeq	v1.16b, v1.16b, v2.16b
	bic	v0.16b, v0.16b, v1.16b
	addp	v0.16b, v0.16b, v0.16b
	addp	v0.16b, v0.16b, v0.16b
	addp	v0.16b, v0.16b, v0.16b
	umov	w10, v0.h[0]
	orr	w10, w10, #0x10000
	rbit	w10, w10
	clz	w10, w10
	add	x10, x11, x10
.Lunix_path_BB5_41:
	cmp	x10, x22
	b.hs	.Lunix_path_BB5_43
.Lunix_path_BB5_42:
	ldrb	w11, [x23, x10]
	cmp	w11, #47
	b.ne	.Lunix_path_BB5_44
.Lunix_path_BB5_43:
	mov	w11, wzr
	cmp	x10, x8
	b.hs	.Lunix_path_BB5_49
	b	.Lunix_path_BB5_48
.Lunix_path_BB5_44:
	cmp	x10, x8
	b.hs	.Lunix_path_BB5_47
	cmp	w11, #46
	b.eq	.Lunix_path_BB5_47
	ldrb	w12, [x9, x10]
	and	w12, w12, #0xfe
	cmp	w12, #46
	b.ne	.Lunix_path_BB5_57
.Lunix_path_BB5_47:
	add	w11, w11, #1
	cmp	x10, x8
	b.hs	.Lunix_path_BB5_49
.Lunix_path_BB5_48:
	ldrb	w12, [x9, x10]
	cmp	w12, #47
	b.ne	.Lunix_path_BB5_50
.Lunix_path_BB5_49:
	cmp	w11, wzr
	b.eq	.Lunix_path_BB5_1
	b	.Lunix_path_BB5_51
.Lunix_path_BB5_50:
	add	w12, w12, #1
	cmp	w11, w12
	b.eq	.Lunix_path_BB5_1
.Lunix_path_BB5_51:
	cbz	x10, .Lunix_path_BB5_57
	add	x11, x23, x10
	ldurb	w11, [x11, #-1]
	cmp	w11, #47
	b.eq	.Lunix_path_BB5_2
	cmp	w11, #46
	mov	x11, xzr
	b.ne	.Lunix_path_BB5_60
	sub	x10, x10, #1
	mov	x12, x11
	mov	x13, x11
	cbz	x10, .Lunix_path_BB5_59
	add	x11, x23, x10
	ldurb	w11, [x11, #-1]
	cmp	w11, #47
	b.eq	.Lunix_path_BB5_2
	b	.Lunix_path_BB5_57
.Lunix_path_BB5_56:
	add	x10, x10, w12, uxtw
	cmp	x10, x22
	b.lo	.Lunix_path_BB5_42
	b	.Lunix_path_BB5_43
.Lunix_path_BB5_57:
	mov	x11, xzr
	mov	x12, xzr
	mov	x13, xzr
	b	.Lunix_path_BB5_59
.Lunix_path_BB5_58:
	mov	w11, #1
	mov	x12, x23
	mov	x13, x22
.Lunix_path_BB5_59:
	stp	x11, x12, [x19]
	ldp	x22, x21, [sp, #32]
	str	x13, [x19, #16]
	ldr	x23, [sp, #16]
	ldp	x20, x19, [sp, #48]
	ldp	x29, x30, [sp], #64
	ret
.Lunix_path_BB5_60:
	mov	x12, x11
	mov	x13, x11
	b	.Lunix_path_BB5_59
.Lunix_path_func_end5:
	.size	unix_path.pair.Comparison.rest_after_cut, .Lunix_path_func_end5-unix_path.pair.Comparison.rest_after_cut
	.section	.rodata.cst16,"aM",@progbits,16
	.p2align	4, 0x0
.Lunix_path_CPI6_0:
	.byte	1
	.byte	2
	.byte	4
	.byte	8
	.byte	16
	.byte	32
	.byte	64
	.byte	128
	.byte	1
	.byte	2
	.byte	4
	.byte	8
	.byte	16
	.byte	32
	.byte	64
	.byte	128
	.section	.text.unlikely.unix_path.filler.filler_end_from,"ax",@progbits
	.p2align	2
	.type	unix_path.filler.filler_end_from,@function
// unix_path::filler::filler_end_from
unix_path.filler.filler_end_from:
	sub	x8, x1, x2
	cmp	x8, #17
	b.lo	.Lunix_path_BB6_3
.Lunix_path_BB6_1:
	movi	v0.16b, #46
	add	x9, x0, x2
	movi	v2.16b, #47
	ldr	q1, [x9]
	ldur	q3, [x9, #1]
	adrp	x9, .Lunix_path_CPI6_0
	cmeq	v0.16b, v1.16b, v0.16b
	cmeq	v3.16b, v3.16b, v2.16b
	cmeq	v1.16b, v1.16b, v2.16b
	mvn	v0.16b, v0.16b
	orn	v0.16b, v0.16b, v3.16b
	bic	v0.16b, v0.16b, v1.16b
	ldr	q1, [x9, :lo12:.Lunix_path_CPI6_0]
	and	v0.16b, v0.16b, v1.16b
	addp	v0.16b, v0.16b, v0.16b
	addp	v0.16b, v0.16b, v0.16b
	addp	v0.16b, v0.16b, v0.16b
	umov	w9, v0.h[0]
	cbnz	w9, .Lunix_path_BB6_3
	sub	x8, x8, #16
	add	x2, x2, #16
	cmp	x8, #16
	b.hi	.Lunix_path_BB6_1
.Lunix_path_BB6_3:
	cmp	x2, x1
	b.hs	.Lunix_path_BB6_10
	add	x8, x0, #1
	sub	x9, x1, #1
	b	.Lunix_path_BB6_6
.Lunix_path_BB6_5:
	add	x2, x2, #1
	cmp	x1, x2
	b.eq	.Lunix_path_BB6_11
.Lunix_path_BB6_6:
	add	x10, x8, x2
	ldurb	w10, [x10, #-1]
	cmp	w10, #47
	b.eq	.Lunix_path_BB6_5
	cmp	w10, #46
	b.ne	.Lunix_path_BB6_10
	cmp	x9, x2
	b.eq	.Lunix_path_BB6_5
	ldrb	w10, [x8, x2]
	cmp	w10, #47
	b.eq	.Lunix_path_BB6_5
.Lunix_path_BB6_10:
	mov	x0, x2
	ret
.Lunix_path_BB6_11:
	mov	x2, x1
	mov	x0, x2
	ret
.Lunix_path_func_end6:
	.size	unix_path.filler.filler_end_from, .Lunix_path_func_end6-unix_path.filler.filler_end_from
	.section	.rodata.cst16,"aM",@progbits,16
	.p2align	4, 0x0
.Lunix_path_CPI7_0:
	.byte	1
	.byte	2
	.byte	4
	.byte	8
	.byte	16
	.byte	32
	.byte	64
	.byte	128
	.byte	1
	.byte	2
	.byte	4
	.byte	8
	.byte	16
	.byte	32
	.byte	64
	.byte	128
	.section	.rodata.cst8,"aM",@progbits,8
	.p2align	3, 0x0
.Lunix_path_CPI7_1:
	.byte	1
	.byte	2
	.byte	4
	.byte	8
	.byte	16
	.byte	32
	.byte	64
	.byte	128
	.section	.text.unix_path.compare.compare,"ax",@progbits
	.p2align	2
	.type	unix_path.compare.compare,@function
// unix_path::compare::compare
unix_path.compare.compare:
	stp	x29, x30, [sp, #-16]!
	cmp	x3, x1
	mov	x29, sp
	csel	x8, x3, x1, lo
	cmp	x8, #15
	b.hi	.Lunix_path_BB7_16
	cmp	x8, #7
	b.hi	.Lunix_path_BB7_25
	cbz	x8, .Lunix_path_BB7_30
	ldrb	w9, [x0]
	ldrb	w10, [x2]
	cmp	w9, w10
	b.ne	.Lunix_path_BB7_29
	cmp	x8, #1
	b.eq	.Lunix_path_BB7_30
	ldrb	w9, [x0, #1]
	ldrb	w10, [x2, #1]
	cmp	w9, w10
	b.ne	.Lunix_path_BB7_90
	cmp	x8, #2
	b.eq	.Lunix_path_BB7_30
	ldrb	w9, [x0, #2]
	ldrb	w10, [x2, #2]
	cmp	w9, w10
	b.ne	.Lunix_path_BB7_91
	cmp	x8, #3
	b.eq	.Lunix_path_BB7_30
	ldrb	w9, [x0, #3]
	ldrb	w10, [x2, #3]
	cmp	w9, w10
	b.ne	.Lunix_path_BB7_92
	cmp	x8, #4
	b.eq	.Lunix_path_BB7_30
	ldrb	w9, [x0, #4]
	ldrb	w10, [x2, #4]
	cmp	w9, w10
	b.ne	.Lunix_path_BB7_93
	cmp	x8, #5
	b.eq	.Lunix_path_BB7_30
	ldrb	w9, [x0, #5]
	ldrb	w10, [x2, #5]
	cmp	w9, w10
	b.ne	.Lunix_path_BB7_94
	cmp	x8, #6
	b.eq	.Lunix_path_BB7_30
	ldrb	w9, [x0, #6]
	ldrb	w10, [x2, #6]
	cmp	w9, w10
	mov	w9, #6
	csel	x8, x8, x9, eq
	b	.Lunix_path_BB7_30
.Lunix_path_BB7_16:
	cmp	x8, #64
	sub	x9, x8, #16
	adrp	x10, .Lunix_path_CPI7_0
	mov	x11, xzr
	b.lo	.Lunix_path_BB7_23
	and	x12, x8, #0xffffffffffffffc0
.Lunix_path_BB7_18:
	add	x13, x0, x11
	add	x14, x2, x11
	ldp	q0, q1, [x13]
	ldp	q2, q3, [x13, #32]
	ldp	q4, q5, [x14]
	ldp	q6, q7, [x14, #32]
	cmeq	v0.16b, v0.16b, v4.16b
	cmeq	v1.16b, v1.16b, v5.16b
	ldr	q4, [x10, :lo12:.Lunix_path_CPI7_0]
	cmeq	v3.16b, v3.16b, v7.16b
	cmeq	v2.16b, v2.16b, v6.16b
	bic	v0.16b, v4.16b, v0.16b
	bic	v1.16b, v4.16b, v1.16b
	bic	v2.16b, v4.16b, v2.16b
	bic	v3.16b, v4.16b, v3.16b
	addp	v0.16b, v0.16b, v1.16b
	addp	v1.16b, v2.16b, v3.16b
	addp	v0.16b, v0.16b, v1.16b
	addp	v0.16b, v0.16b, v0.16b
	fmov	x13, d0
	cbnz	x13, .Lunix_path_BB7_23
	sub	x8, x8, #64
	add	x11, x11, #64
	cmp	x8, #63
	b.hi	.Lunix_path_BB7_18
	mov	x11, x12
	b	.Lunix_path_BB7_23
.Lunix_path_BB7_21:
	ldr	q0, [x0, x11]
	ldr	q1, [x2, x11]
	cmeq	v0.16b, v0.16b, v1.16b
	ldr	q1, [x10, :lo12:.Lunix_path_CPI7_0]
	bic	v0.16b, v1.16b, v0.16b
	addp	v0.16b, v0.16b, v0.16b
	addp	v0.16b, v0.16b, v0.16b
	addp	v0.16b, v0.16b, v0.16b
	umov	w8, v0.h[0]
	orr	w8, w8, #0x10000
	rbit	w8, w8
	clz	w8, w8
	cmp	w8, #15
	b.ls	.Lunix_path_BB7_27
	add	x11, x11, #16
.Lunix_path_BB7_23:
	cmp	x11, x9
	b.lo	.Lunix_path_BB7_21
	ldr	q0, [x0, x9]
	ldr	q1, [x2, x9]
	cmeq	v0.16b, v0.16b, v1.16b
	ldr	q1, [x10, :lo12:.Lunix_path_CPI7_0]
	bic	v0.16b, v1.16b, v0.16b
	addp	v0.16b, v0.16b, v0.16b
	addp	v0.16b, v0.16b, v0.16b
	addp	v0.16b, v0.16b, v0.16b
	umov	w8, v0.h[0]
	orr	w8, w8, #0x10000
	rbit	w8, w8
	clz	w8, w8
	add	x8, x9, x8
	b	.Lunix_path_BB7_30
.Lunix_path_BB7_25:
	ldr	d0, [x0]
	ldr	d1, [x2]
	adrp	x9, .Lunix_path_CPI7_1
	cmeq	v1.8b, v0.8b, v1.8b
	ldr	d0, [x9, :lo12:.Lunix_path_CPI7_1]
	bic	v1.8b, v0.8b, v1.8b
	addv	b1, v1.8b
	fmov	w9, s1
	orr	w9, w9, #0x100
	rbit	w9, w9
	clz	w9, w9
	cmp	w9, #8
	b.hs	.Lunix_path_BB7_28
	mov	x8, x9
	b	.Lunix_path_BB7_30
.Lunix_path_BB7_27:
	add	x8, x11, w8, uxtw
	b	.Lunix_path_BB7_30
.Lunix_path_BB7_28:
	sub	x8, x8, #8
	ldr	d1, [x0, x8]
	ldr	d2, [x2, x8]
	cmeq	v1.8b, v1.8b, v2.8b
	bic	v0.8b, v0.8b, v1.8b
	addv	b0, v0.8b
	fmov	w9, s0
	orr	w9, w9, #0x100
	rbit	w9, w9
	clz	w9, w9
	add	x8, x8, x9
	b	.Lunix_path_BB7_30
.Lunix_path_BB7_29:
	mov	x8, xzr
.Lunix_path_BB7_30:
	cmp	x8, x1
	ccmp	x8, x3, #0, eq
	b.eq	.Lunix_path_BB7_42
	cmp	x8, x1
	b.hs	.Lunix_path_BB7_33
	ldrb	w9, [x0, x8]
	cmp	w9, #47
	b.ne	.Lunix_path_BB7_43
.Lunix_path_BB7_33:
	mov	w9, wzr
	cmp	x8, x3
	b.hs	.Lunix_path_BB7_47
.Lunix_path_BB7_34:
	ldrb	w10, [x2, x8]
	cmp	w10, #47
	b.eq	.Lunix_path_BB7_47
	add	w10, w10, #1
	cmp	w9, w10
	b.eq	.Lunix_path_BB7_48
.Lunix_path_BB7_36:
	cbz	x8, .Lunix_path_BB7_52
	add	x11, x0, x8
	ldurb	w11, [x11, #-1]
	cmp	w11, #47
	b.eq	.Lunix_path_BB7_49
	cmp	w11, #46
	b.ne	.Lunix_path_BB7_41
	sub	x11, x8, #1
	cbz	x11, .Lunix_path_BB7_52
	add	x8, x0, x11
	ldurb	w8, [x8, #-1]
	cmp	w8, #47
	b.eq	.Lunix_path_BB7_50
.Lunix_path_BB7_41:
	cmp	w9, w10
	mov	w8, #2
	csel	w0, wzr, w8, lo
	ldp	x29, x30, [sp], #16
	ret
.Lunix_path_BB7_42:
	mov	w0, #1
	ldp	x29, x30, [sp], #16
	ret
.Lunix_path_BB7_43:
	cmp	x8, x3
	b.hs	.Lunix_path_BB7_46
	cmp	w9, #46
	b.eq	.Lunix_path_BB7_46
	ldrb	w10, [x2, x8]
	and	w11, w10, #0xfe
	cmp	w11, #46
	b.ne	.Lunix_path_BB7_77
.Lunix_path_BB7_46:
	add	w9, w9, #1
	cmp	x8, x3
	b.lo	.Lunix_path_BB7_34
.Lunix_path_BB7_47:
	mov	w10, wzr
	cmp	w9, wzr
	b.ne	.Lunix_path_BB7_36
.Lunix_path_BB7_48:
	cbz	x8, .Lunix_path_BB7_52
.Lunix_path_BB7_49:
	mov	x11, x8
.Lunix_path_BB7_50:
	subs	x1, x1, x11
	sub	x8, x3, x11
	b.ne	.Lunix_path_BB7_61
	add	x0, x2, x11
	mov	x1, x8
	bl	unix_path.pair.rest_len
	cmp	x0, #0
	cset	w0, eq
	ldp	x29, x30, [sp], #16
	ret
.Lunix_path_BB7_52:
	cbz	x1, .Lunix_path_BB7_63
	ldrb	w9, [x0]
	cmp	w9, #47
	b.eq	.Lunix_path_BB7_66
	cmp	w9, #46
	b.ne	.Lunix_path_BB7_65
	cmp	x1, #1
	b.eq	.Lunix_path_BB7_78
	ldrb	w9, [x0, #1]
	cmp	w9, #47
	b.eq	.Lunix_path_BB7_78
	cmp	w9, #46
	b.ne	.Lunix_path_BB7_65
	cmp	x1, #2
	b.eq	.Lunix_path_BB7_60
	ldrb	w9, [x0, #2]
	cmp	w9, #47
	b.ne	.Lunix_path_BB7_65
.Lunix_path_BB7_60:
	mov	w9, #3
	cbnz	x3, .Lunix_path_BB7_67
	b	.Lunix_path_BB7_79
.Lunix_path_BB7_61:
	cmp	x3, x11
	b.ne	.Lunix_path_BB7_64
	add	x0, x0, x11
	bl	unix_path.pair.rest_len
	mov	w8, #1
	cmp	x0, #0
	cinc	w0, w8, ne
	ldp	x29, x30, [sp], #16
	ret
.Lunix_path_BB7_63:
	mov	w9, wzr
	cbnz	x3, .Lunix_path_BB7_67
	b	.Lunix_path_BB7_79
.Lunix_path_BB7_64:
	add	x0, x0, x11
	add	x2, x2, x11
	mov	x3, x8
	ldp	x29, x30, [sp], #16
	b	unix_path.pair.Comparison.order_after_cut
.Lunix_path_BB7_65:
	mov	w9, #4
	cbnz	x3, .Lunix_path_BB7_67
	b	.Lunix_path_BB7_79
.Lunix_path_BB7_66:
	mov	w9, #1
	cbz	x3, .Lunix_path_BB7_79
.Lunix_path_BB7_67:
	ldrb	w10, [x2]
	cmp	w10, #47
	b.eq	.Lunix_path_BB7_76
	cmp	w10, #46
	b.ne	.Lunix_path_BB7_75
	cmp	x3, #1
	b.eq	.Lunix_path_BB7_85
	ldrb	w10, [x2, #1]
	cmp	w10, #47
	b.eq	.Lunix_path_BB7_85
	cmp	w10, #46
	b.ne	.Lunix_path_BB7_75
	cmp	x3, #2
	b.eq	.Lunix_path_BB7_74
	ldrb	w10, [x2, #2]
	cmp	w10, #47
	b.ne	.Lunix_path_BB7_75
.Lunix_path_BB7_74:
	mov	w10, #3
	cmp	w9, w10
	mov	w9, #2
	csel	w9, wzr, w9, lo
	b.ne	.Lunix_path_BB7_86
	b	.Lunix_path_BB7_80
.Lunix_path_BB7_75:
	mov	w10, #4
	cmp	w9, w10
	mov	w9, #2
	csel	w9, wzr, w9, lo
	b.ne	.Lunix_path_BB7_86
	b	.Lunix_path_BB7_80
.Lunix_path_BB7_76:
	mov	w10, #1
	cmp	w9, w10
	mov	w9, #2
	csel	w9, wzr, w9, lo
	b.ne	.Lunix_path_BB7_86
	b	.Lunix_path_BB7_80
.Lunix_path_BB7_77:
	cmp	w9, w10
	mov	w8, #2
	csel	w8, wzr, w8, lo
	csinc	w0, w8, wzr, ne
	ldp	x29, x30, [sp], #16
	ret
.Lunix_path_BB7_78:
	mov	w9, #2
	cbnz	x3, .Lunix_path_BB7_67
.Lunix_path_BB7_79:
	cmp	w9, wzr
	mov	w9, #2
	csel	w9, wzr, w9, lo
	b.ne	.Lunix_path_BB7_86
.Lunix_path_BB7_80:
	cmp	x8, x1
	b.hs	.Lunix_path_BB7_82
	ldrb	w9, [x0, x8]
	cmp	w9, #47
	b.ne	.Lunix_path_BB7_87
.Lunix_path_BB7_82:
	mov	w9, wzr
	cmp	x8, x3
	b.hs	.Lunix_path_BB7_88
.Lunix_path_BB7_83:
	ldrb	w8, [x2, x8]
	cmp	w8, #47
	b.ne	.Lunix_path_BB7_89
	cmp	w9, wzr
	mov	w8, #2
	csel	w8, wzr, w8, lo
	csinc	w0, w8, wzr, ne
	ldp	x29, x30, [sp], #16
	ret
.Lunix_path_BB7_85:
	mov	w10, #2
	cmp	w9, w10
	mov	w9, #2
	csel	w9, wzr, w9, lo
	b.eq	.Lunix_path_BB7_80
.Lunix_path_BB7_86:
	mov	w0, w9
	ldp	x29, x30, [sp], #16
	ret
.Lunix_path_BB7_87:
	add	w9, w9, #1
	cmp	x8, x3
	b.lo	.Lunix_path_BB7_83
.Lunix_path_BB7_88:
	cmp	w9, wzr
	mov	w8, #2
	csel	w8, wzr, w8, lo
	csinc	w0, w8, wzr, ne
	ldp	x29, x30, [sp], #16
	ret
.Lunix_path_BB7_89:
	add	w8, w8, #1
	cmp	w9, w8
	mov	w8, #2
	csel	w8, wzr, w8, lo
	csinc	w0, w8, wzr, ne
	ldp	x29, x30, [sp], #16
	ret
.Lunix_path_BB7_90:
	mov	w8, #1
	b	.Lunix_path_BB7_30
.Lunix_path_BB7_91:
	mov	w8, #2
	b	.Lunix_path_BB7_30
.Lunix_path_BB7_92:
	mov	w8, #3
	b	.Lunix_path_BB7_30
.Lunix_path_BB7_93:
	mov	w8, #4
	b	.Lunix_path_BB7_30
.Lunix_path_BB7_94:
	mov	w8, #5
	b	.Lunix_path_BB7_30
.Lunix_path_func_end7:
	.size	unix_path.compare.compare, .Lunix_path_func_end7-unix_path.compare.compare
	.section	.text.unix_path.pair.rest_len,"ax",@progbits
	.p2align	2
	.type	unix_path.pair.rest_len,@function
// unix_path::pair::rest_len
unix_path.pair.rest_len:
	mov	x2, xzr
	b	.Lunix_path_BB8_2
.Lunix_path_BB8_1:
	mov	w8, #1
	add	x2, x8, x2
	cmp	x2, #4
	b.hs	.Lunix_path_BB8_8
.Lunix_path_BB8_2:
	cmp	x2, x1
	b.hs	.Lunix_path_BB8_9
	ldrb	w8, [x0, x2]
	cmp	w8, #47
	b.eq	.Lunix_path_BB8_1
	cmp	w8, #46
	b.ne	.Lunix_path_BB8_9
	add	x8, x2, #1
	cmp	x8, x1
	b.eq	.Lunix_path_BB8_1
	ldrb	w8, [x0, x8]
	cmp	w8, #47
	b.ne	.Lunix_path_BB8_9
	mov	w8, #2
	add	x2, x8, x2
	cmp	x2, #4
	b.lo	.Lunix_path_BB8_2
.Lunix_path_BB8_8:
	stp	x29, x30, [sp, #-32]!
	str	x19, [sp, #16]
	mov	x29, sp
	mov	x19, x1
	bl	unix_path.filler.filler_end_from
	mov	x1, x19
	ldr	x19, [sp, #16]
	mov	x2, x0
	ldp	x29, x30, [sp], #32
.Lunix_path_BB8_9:
	sub	x0, x1, x2
	ret
.Lunix_path_func_end8:
	.size	unix_path.pair.rest_len, .Lunix_path_func_end8-unix_path.pair.rest_len
	.section	.rodata.cst16,"aM",@progbits,16
	.p2align	4, 0x0
.Lunix_path_CPI9_0:
	.byte	1
	.byte	2
	.byte	4
	.byte	8
	.byte	16
	.byte	32
	.byte	64
	.byte	128
	.byte	1
	.byte	2
	.byte	4
	.byte	8
	.byte	16
	.byte	32
	.byte	64
	.byte	128
	.section	.rodata.cst8,"aM",@progbits,8
	.p2align	3, 0x0
.Lunix_path_CPI9_1:
	.byte	1
	.byte	2
	.byte	4
	.byte	8
	.byte	16
	.byte	32
	.byte	64
	.byte	128
	.section	.text.unix_path.pair.Comparison.order_after_cut,"ax",@progbits
	.p2align	2
	.type	unix_path.pair.Comparison.order_after_cut,@function
// unix_path::pair::Comparison::order_after_cut
unix_path.pair.Comparison.order_after_cut:
	stp	x29, x30, [sp, #-64]!
	stp	x24, x23, [sp, #16]
	mov	x23, x0
	mov	x29, sp
	stp	x22, x21, [sp, #32]
	mov	x22, x3
	mov	x21, x2
	stp	x20, x19, [sp, #48]
	mov	x19, x1
	b	.Lunix_path_BB9_4
.Lunix_path_BB9_1:
	cbz	x10, .Lunix_path_BB9_61
.Lunix_path_BB9_2:
	mov	x13, x10
.Lunix_path_BB9_3:
	add	x23, x23, x13
	sub	x19, x24, x13
	add	x21, x9, x13
	sub	x22, x8, x13
.Lunix_path_BB9_4:
	mov	x20, xzr
	b	.Lunix_path_BB9_6
.Lunix_path_BB9_5:
	mov	w8, #1
	add	x20, x8, x20
	cmp	x20, #4
	b.hs	.Lunix_path_BB9_12
.Lunix_path_BB9_6:
	cmp	x20, x19
	b.hs	.Lunix_path_BB9_13
	ldrb	w8, [x23, x20]
	cmp	w8, #47
	b.eq	.Lunix_path_BB9_5
	cmp	w8, #46
	b.ne	.Lunix_path_BB9_13
	add	x8, x20, #1
	cmp	x8, x19
	b.eq	.Lunix_path_BB9_5
	ldrb	w8, [x23, x8]
	cmp	w8, #47
	b.ne	.Lunix_path_BB9_13
	mov	w8, #2
	add	x20, x8, x20
	cmp	x20, #4
	b.lo	.Lunix_path_BB9_6
.Lunix_path_BB9_12:
	mov	x0, x23
	mov	x1, x19
	mov	x2, x20
	bl	unix_path.filler.filler_end_from
	mov	x20, x0
.Lunix_path_BB9_13:
	mov	x2, xzr
	add	x23, x23, x20
	sub	x24, x19, x20
	b	.Lunix_path_BB9_15
.Lunix_path_BB9_14:
	mov	w8, #1
	add	x2, x8, x2
	cmp	x2, #4
	b.hs	.Lunix_path_BB9_21
.Lunix_path_BB9_15:
	cmp	x2, x22
	b.hs	.Lunix_path_BB9_22
	ldrb	w8, [x21, x2]
	cmp	w8, #47
	b.eq	.Lunix_path_BB9_14
	cmp	w8, #46
	b.ne	.Lunix_path_BB9_22
	add	x8, x2, #1
	cmp	x8, x22
	b.eq	.Lunix_path_BB9_14
	ldrb	w8, [x21, x8]
	cmp	w8, #47
	b.ne	.Lunix_path_BB9_22
	mov	w8, #2
	add	x2, x8, x2
	cmp	x2, #4
	b.lo	.Lunix_path_BB9_15
.Lunix_path_BB9_21:
	mov	x0, x21
	mov	x1, x22
	bl	unix_path.filler.filler_end_from
	mov	x2, x0
.Lunix_path_BB9_22:
	subs	x8, x22, x2
	b.eq	.Lunix_path_BB9_60
	cmp	x8, x24
	add	x9, x21, x2
	csel	x11, x8, x24, lo
	cmp	x11, #15
	b.hi	.Lunix_path_BB9_27
	cmp	x11, #7
	b.hi	.Lunix_path_BB9_33
	cmp	x19, x20
	b.ne	.Lunix_path_BB9_35
	mov	x10, xzr
	cmp	xzr, x24
	b.lo	.Lunix_path_BB9_45
	b	.Lunix_path_BB9_46
.Lunix_path_BB9_27:
	ldr	q0, [x23]
	ldr	q1, [x9]
	adrp	x10, .Lunix_path_CPI9_0
	cmeq	v1.16b, v0.16b, v1.16b
	ldr	q0, [x10, :lo12:.Lunix_path_CPI9_0]
	bic	v1.16b, v0.16b, v1.16b
	addp	v1.16b, v1.16b, v1.16b
	addp	v1.16b, v1.16b, v1.16b
	addp	v1.16b, v1.16b, v1.16b
	umov	w10, v1.h[0]
	orr	w10, w10, #0x10000
	rbit	w10, w10
	clz	w10, w10
	cmp	w10, #16
	b.lo	.Lunix_path_BB9_44
	cmp	x11, #64
	b.lo	.Lunix_path_BB9_39
	mov	x10, xzr
	mov	x12, x11
.Lunix_path_BB9_30:
	add	x13, x23, x10
	add	x14, x9, x10
	ldp	q1, q2, [x13]
	ldp	q3, q4, [x13, #32]
	ldp	q5, q6, [x14]
	ldp	q7, q16, [x14, #32]
	cmeq	v1.16b, v1.16b, v5.16b
	cmeq	v2.16b, v2.16b, v6.16b
	cmeq	v4.16b, v4.16b, v16.16b
	cmeq	v3.16b, v3.16b, v7.16b
	bic	v1.16b, v0.16b, v1.16b
	bic	v2.16b, v0.16b, v2.16b
	bic	v3.16b, v0.16b, v3.16b
	bic	v4.16b, v0.16b, v4.16b
	addp	v1.16b, v1.16b, v2.16b
	addp	v2.16b, v3.16b, v4.16b
	addp	v1.16b, v1.16b, v2.16b
	addp	v1.16b, v1.16b, v1.16b
	fmov	x13, d1
	cbnz	x13, .Lunix_path_BB9_40
	sub	x12, x12, #64
	add	x10, x10, #64
	cmp	x12, #63
	b.hi	.Lunix_path_BB9_30
	and	x10, x11, #0xffffffffffffffc0
	sub	x11, x11, #16
	cmp	x10, x11
	b.lo	.Lunix_path_BB9_41
	b	.Lunix_path_BB9_43
.Lunix_path_BB9_33:
	ldr	d0, [x23]
	ldr	d1, [x9]
	adrp	x10, .Lunix_path_CPI9_1
	cmeq	v1.8b, v0.8b, v1.8b
	ldr	d0, [x10, :lo12:.Lunix_path_CPI9_1]
	bic	v1.8b, v0.8b, v1.8b
	addv	b1, v1.8b
	fmov	w10, s1
	orr	w10, w10, #0x100
	rbit	w10, w10
	clz	w10, w10
	cmp	w10, #8
	b.lo	.Lunix_path_BB9_44
	sub	x10, x11, #8
	ldr	d1, [x23, x10]
	ldr	d2, [x9, x10]
	cmeq	v1.8b, v1.8b, v2.8b
	bic	v0.8b, v0.8b, v1.8b
	addv	b0, v0.8b
	fmov	w11, s0
	orr	w11, w11, #0x100
	rbit	w11, w11
	clz	w11, w11
	add	x10, x10, x11
	cmp	x10, x24
	b.lo	.Lunix_path_BB9_45
	b	.Lunix_path_BB9_46
.Lunix_path_BB9_35:
	mov	x10, xzr
.Lunix_path_BB9_36:
	ldrb	w12, [x23, x10]
	ldrb	w13, [x9, x10]
	cmp	w12, w13
	b.ne	.Lunix_path_BB9_44
	add	x10, x10, #1
	cmp	x11, x10
	b.ne	.Lunix_path_BB9_36
	mov	x10, x11
	cmp	x11, x24
	b.lo	.Lunix_path_BB9_45
	b	.Lunix_path_BB9_46
.Lunix_path_BB9_39:
	mov	x10, xzr
.Lunix_path_BB9_40:
	sub	x11, x11, #16
	cmp	x10, x11
	b.hs	.Lunix_path_BB9_43
.Lunix_path_BB9_41:
	ldr	q1, [x23, x10]
	ldr	q2, [x9, x10]
	cmeq	v1.16b, v1.16b, v2.16b
	bic	v1.16b, v0.16b, v1.16b
	addp	v1.16b, v1.16b, v1.16b
	addp	v1.16b, v1.16b, v1.16b
	addp	v1.16b, v1.16b, v1.16b
	umov	w12, v1.h[0]
	orr	w12, w12, #0x10000
	rbit	w12, w12
	clz	w12, w12
	cmp	w12, #15
	b.ls	.Lunix_path_BB9_59
	add	x10, x10, #16
	cmp	x10, x11
	b.lo	.Lunix_path_BB9_41
.Lunix_path_BB9_43:
	ldr	q1, [x23, x11]
	ldr	q2, [x9, x11]
	cmeq	v1.16b, v1.16b, v2.16b
	bic	v0.16b, v0.16b, v1.16b
	addp	v0.16b, v0.16b, v0.16b
	addp	v0.16b, v0.16b, v0.16b
	addp	v0.16b, v0.16b, v0.16b
	umov	w10, v0.h[0]
	orr	w10, w10, #0x10000
	rbit	w10, w10
	clz	w10, w10
	add	x10, x11, x10
.Lunix_path_BB9_44:
	cmp	x10, x24
	b.hs	.Lunix_path_BB9_46
.Lunix_path_BB9_45:
	ldrb	w11, [x23, x10]
	cmp	w11, #47
	b.ne	.Lunix_path_BB9_47
.Lunix_path_BB9_46:
	mov	w11, wzr
	cmp	x10, x8
	b.hs	.Lunix_path_BB9_52
	b	.Lunix_path_BB9_51
.Lunix_path_BB9_47:
	cmp	x10, x8
	b.hs	.Lunix_path_BB9_50
	cmp	w11, #46
	b.eq	.Lunix_path_BB9_50
	ldrb	w12, [x9, x10]
	and	w13, w12, #0xfe
	cmp	w13, #46
	b.ne	.Lunix_path_BB9_90
.Lunix_path_BB9_50:
	add	w11, w11, #1
	cmp	x10, x8
	b.hs	.Lunix_path_BB9_52
.Lunix_path_BB9_51:
	ldrb	w12, [x9, x10]
	cmp	w12, #47
	b.ne	.Lunix_path_BB9_53
.Lunix_path_BB9_52:
	mov	w12, wzr
	cmp	w11, wzr
	b.eq	.Lunix_path_BB9_1
	b	.Lunix_path_BB9_54
.Lunix_path_BB9_53:
	add	w12, w12, #1
	cmp	w11, w12
	b.eq	.Lunix_path_BB9_1
.Lunix_path_BB9_54:
	cbz	x10, .Lunix_path_BB9_61
	add	x13, x23, x10
	ldurb	w13, [x13, #-1]
	cmp	w13, #47
	b.eq	.Lunix_path_BB9_2
	cmp	w13, #46
	b.ne	.Lunix_path_BB9_63
	sub	x13, x10, #1
	cbz	x13, .Lunix_path_BB9_64
	add	x10, x23, x13
	ldurb	w10, [x10, #-1]
	cmp	w10, #47
	b.eq	.Lunix_path_BB9_3
	b	.Lunix_path_BB9_63
.Lunix_path_BB9_59:
	add	x10, x10, w12, uxtw
	cmp	x10, x24
	b.lo	.Lunix_path_BB9_45
	b	.Lunix_path_BB9_46
.Lunix_path_BB9_60:
	cmp	x19, x20
	mov	w8, #1
	cinc	w0, w8, ne
	ldp	x20, x19, [sp, #48]
	ldp	x22, x21, [sp, #32]
	ldp	x24, x23, [sp, #16]
	ldp	x29, x30, [sp], #64
	ret
.Lunix_path_BB9_61:
	mov	x11, xzr
	cmp	x19, x20
	b.ne	.Lunix_path_BB9_65
.Lunix_path_BB9_62:
	mov	w0, wzr
	ldp	x20, x19, [sp, #48]
	ldp	x22, x21, [sp, #32]
	ldp	x24, x23, [sp, #16]
	ldp	x29, x30, [sp], #64
	ret
.Lunix_path_BB9_63:
	cmp	w11, w12
	mov	w8, #2
	csel	w0, wzr, w8, lo
	ldp	x20, x19, [sp, #48]
	ldp	x22, x21, [sp, #32]
	ldp	x24, x23, [sp, #16]
	ldp	x29, x30, [sp], #64
	ret
.Lunix_path_BB9_64:
	mov	w11, #1
	cmp	x19, x20
	b.eq	.Lunix_path_BB9_62
.Lunix_path_BB9_65:
	ldrb	w12, [x23]
	cmp	w12, #47
	b.eq	.Lunix_path_BB9_74
	cmp	w12, #46
	b.ne	.Lunix_path_BB9_73
	cmp	x24, #1
	b.eq	.Lunix_path_BB9_83
	ldrb	w12, [x23, #1]
	cmp	w12, #47
	b.eq	.Lunix_path_BB9_83
	cmp	w12, #46
	b.ne	.Lunix_path_BB9_73
	cmp	x24, #2
	b.eq	.Lunix_path_BB9_72
	ldrb	w12, [x23, #2]
	cmp	w12, #47
	b.ne	.Lunix_path_BB9_73
.Lunix_path_BB9_72:
	mov	w12, #3
	ldrb	w13, [x9]
	cmp	w13, #47
	b.ne	.Lunix_path_BB9_75
	b	.Lunix_path_BB9_84
.Lunix_path_BB9_73:
	mov	w12, #4
	ldrb	w13, [x9]
	cmp	w13, #47
	b.ne	.Lunix_path_BB9_75
	b	.Lunix_path_BB9_84
.Lunix_path_BB9_74:
	mov	w12, #1
	ldrb	w13, [x9]
	cmp	w13, #47
	b.eq	.Lunix_path_BB9_84
.Lunix_path_BB9_75:
	cmp	w13, #46
	b.ne	.Lunix_path_BB9_82
	cmp	x8, #1
	b.eq	.Lunix_path_BB9_88
	ldrb	w13, [x9, #1]
	cmp	w13, #47
	b.eq	.Lunix_path_BB9_88
	cmp	w13, #46
	b.ne	.Lunix_path_BB9_82
	cmp	x8, #2
	b.eq	.Lunix_path_BB9_81
	ldrb	w13, [x9, #2]
	cmp	w13, #47
	b.ne	.Lunix_path_BB9_82
.Lunix_path_BB9_81:
	mov	w13, #3
	cmp	w12, w13
	mov	w12, #2
	csel	w0, wzr, w12, lo
	b.ne	.Lunix_path_BB9_89
	b	.Lunix_path_BB9_85
.Lunix_path_BB9_82:
	mov	w13, #4
	cmp	w12, w13
	mov	w12, #2
	csel	w0, wzr, w12, lo
	b.ne	.Lunix_path_BB9_89
	b	.Lunix_path_BB9_85
.Lunix_path_BB9_83:
	mov	w12, #2
	ldrb	w13, [x9]
	cmp	w13, #47
	b.ne	.Lunix_path_BB9_75
.Lunix_path_BB9_84:
	mov	w13, #1
	cmp	w12, w13
	mov	w12, #2
	csel	w0, wzr, w12, lo
	b.ne	.Lunix_path_BB9_89
.Lunix_path_BB9_85:
	cmp	x10, x24
	b.hs	.Lunix_path_BB9_87
	ldrb	w10, [x23, x11]
	cmp	w10, #47
	b.ne	.Lunix_path_BB9_91
.Lunix_path_BB9_87:
	mov	w10, wzr
	cmp	x11, x8
	b.hs	.Lunix_path_BB9_93
	b	.Lunix_path_BB9_92
.Lunix_path_BB9_88:
	mov	w13, #2
	cmp	w12, w13
	mov	w12, #2
	csel	w0, wzr, w12, lo
	b.eq	.Lunix_path_BB9_85
.Lunix_path_BB9_89:
	ldp	x20, x19, [sp, #48]
	ldp	x22, x21, [sp, #32]
	ldp	x24, x23, [sp, #16]
	ldp	x29, x30, [sp], #64
	ret
.Lunix_path_BB9_90:
	cmp	w11, w12
	b	.Lunix_path_BB9_95
.Lunix_path_BB9_91:
	add	w10, w10, #1
	cmp	x11, x8
	b.hs	.Lunix_path_BB9_93
.Lunix_path_BB9_92:
	ldrb	w8, [x9, x11]
	cmp	w8, #47
	b.ne	.Lunix_path_BB9_94
.Lunix_path_BB9_93:
	cmp	w10, wzr
	b	.Lunix_path_BB9_95
.Lunix_path_BB9_94:
	add	w8, w8, #1
	cmp	w10, w8
.Lunix_path_BB9_95:
	mov	w8, #2
	csel	w8, wzr, w8, lo
	csinc	w0, w8, wzr, ne
	ldp	x20, x19, [sp, #48]
	ldp	x22, x21, [sp, #32]
	ldp	x24, x23, [sp, #16]
	ldp	x29, x30, [sp], #64
	ret
.Lunix_path_func_end9:
	.size	unix_path.pair.Comparison.order_after_cut, .Lunix_path_func_end9-unix_path.pair.Comparison.order_after_cut
	.section	.text.core.slice.sort.unstable.quicksort.fd4dfef4a36ac24b.,"ax",@progbits
	.p2align	2
	.type	core.slice.sort.unstable.quicksort.fd4dfef4a36ac24b.,@function
// core::slice::sort::unstable::quicksort::<#fd4dfef4a36ac24b>
core.slice.sort.unstable.quicksort.fd4dfef4a36ac24b.:
	sub	sp, sp, #400
	stp	x24, x23, [sp, #352]
	sub	x24, x2, x1
	mov	x23, x4
	stp	x22, x21, [sp, #368]
	mov	x22, x1
	cmp	x24, #17
	stp	x20, x19, [sp, #384]
	mov	x20, x0
	stp	x29, x30, [sp, #304]
	add	x29, sp, #304
	stp	x28, x27, [sp, #320]
	stp	x26, x25, [sp, #336]
	str	x2, [sp, #72]
	b.lo	.Lunix_path_BB10_38
	add	x8, x20, #64
	mov	w19, w3
	str	x20, [sp, #104]
	stp	x8, x23, [sp, #56]
	add	x8, x20, #80
	str	x8, [sp]
	b	.Lunix_path_BB10_4
.Lunix_path_BB10_2:
	add	x9, x8, x8, lsl #2
	lsl	x9, x9, #3
	add	x10, x12, x9
	ldp	q1, q0, [x10]
	ldr	x11, [x10, #32]
	str	x11, [x12, #32]
	stp	q1, q0, [x12]
.Lunix_path_BB10_3:
	ldr	x10, [sp, #88]
	add	x9, x12, x9
	ldr	w19, [sp, #116]
	mov	x4, x23
	str	x10, [x9]
	ldr	x10, [sp, #96]
	mov	w3, w19
	stp	x10, x13, [x9, #8]
	ldr	x10, [sp, #80]
	stp	x24, x10, [x9, #24]
	stp	x22, x20, [x23]
	ldr	x22, [sp, #120]
	ldr	x20, [sp, #104]
	add	x2, x8, x22
	mov	x0, x20
	mov	x1, x22
	bl	core.slice.sort.unstable.quicksort.fd4dfef4a36ac24b.
	ldr	x8, [sp, #72]
	add	x22, x28, x22
	sub	x24, x8, x22
	cmp	x24, #16
	b.ls	.Lunix_path_BB10_38
.Lunix_path_BB10_4:
	cbz	w19, .Lunix_path_BB10_39
	lsr	x4, x24, #3
	mov	x0, x20
	mov	x1, x22
	cmp	x24, #63
	sub	x8, x22, x4
	add	x2, x22, x4, lsl #2
	add	x3, x8, x4, lsl #3
	b.hi	.Lunix_path_BB10_14
	mov	x4, x23
	bl	core.slice.sort.pivot.median_of_three.fd4dfef4a36ac24b.
	mov	x25, x0
	sub	w19, w19, #1
	str	x22, [sp, #120]
	str	w19, [sp, #116]
	str	x24, [sp, #152]
	cbz	x22, .Lunix_path_BB10_15
.Lunix_path_BB10_7:
	add	x8, x22, x22, lsl #2
	ldp	x21, x19, [x23]
	mov	w9, #40
	lsl	x8, x8, #3
	add	x28, x20, x8
	str	x8, [sp, #128]
	madd	x20, x25, x9, x20
	ldp	x10, x8, [x28, #-40]
	cmp	x19, x8
	csel	x8, x19, x8, lo
	cmp	x8, x10
	csel	x9, x8, x10, lo
	sub	x1, x8, x9
	add	x0, x21, x9
	bl	path_archive.slot.without_dot
	ldp	x9, x8, [x20]
	mov	x26, x0
	mov	x27, x1
	cmp	x19, x8
	csel	x8, x19, x8, lo
	cmp	x8, x9
	csel	x9, x8, x9, lo
	sub	x1, x8, x9
	add	x0, x21, x9
	bl	path_archive.slot.without_dot
	mov	x2, x0
	mov	x3, x1
	mov	x0, x26
	mov	x1, x27
	mov	x19, x28
	bl	unix_path.compare.compare
	ldp	x11, x8, [x20, #16]
	ldp	x10, x9, [x28, #-24]
	cmp	x9, x8
	mov	w8, #2
	csel	w9, wzr, w8, lo
	csinc	w9, w9, wzr, ne
	cmp	x10, x11
	and	w10, w0, #0xff
	csel	w8, wzr, w8, lo
	csel	w8, w9, w8, eq
	cmp	w10, #1
	csel	w8, w8, w10, eq
	cbz	w8, .Lunix_path_BB10_26
	subs	x8, x25, x22
	b.eq	.Lunix_path_BB10_10
	mov	w9, #40
	ldp	q2, q3, [x19]
	madd	x8, x8, x9, x19
	ldr	x10, [x19, #32]
	ldp	q0, q1, [x8]
	ldr	x9, [x8, #32]
	str	x9, [x19, #32]
	stp	q0, q1, [x19]
	str	x10, [x8, #32]
	stp	q2, q3, [x8]
.Lunix_path_BB10_10:
	ldp	x22, x20, [x23]
	mov	w28, #1
	ldp	x9, x8, [x19]
	ldr	x10, [x19, #32]
	ldp	x11, x21, [x19, #16]
	str	x19, [sp, #144]
	str	x10, [sp, #80]
	cmp	x20, x8
	stp	x9, x8, [sp, #88]
	csel	x8, x20, x8, lo
	cmp	x8, x9
	csel	x25, x8, x9, lo
	ldr	x9, [sp, #128]
	sub	x23, x8, x25
	ldr	x8, [sp, #56]
	add	x19, x8, x9
.Lunix_path_BB10_11:
	add	x0, x22, x25
	mov	x1, x23
	mov	x24, x25
	mov	x25, x23
	mov	x23, x21
	mov	x21, x11
	bl	path_archive.slot.without_dot
	ldp	x9, x8, [x19, #-24]
	mov	x26, x0
	mov	x27, x1
	cmp	x20, x8
	csel	x8, x20, x8, lo
	cmp	x8, x9
	csel	x9, x8, x9, lo
	sub	x1, x8, x9
	add	x0, x22, x9
	bl	path_archive.slot.without_dot
	mov	x2, x0
	mov	x3, x1
	mov	x0, x26
	mov	x1, x27
	bl	unix_path.compare.compare
	ldp	x9, x8, [x19, #-8]
	mov	x11, x21
	mov	x21, x23
	cmp	x23, x8
	mov	w8, #2
	csel	w10, wzr, w8, lo
	csinc	w10, w10, wzr, ne
	cmp	x11, x9
	and	w9, w0, #0xff
	csel	w8, wzr, w8, lo
	csel	w8, w10, w8, eq
	cmp	w9, #1
	csel	w8, w8, w9, eq
	cbz	w8, .Lunix_path_BB10_27
	ldr	x8, [sp, #152]
	add	x28, x28, #1
	add	x19, x19, #40
	mov	x23, x25
	mov	x25, x24
	cmp	x8, x28
	b.ne	.Lunix_path_BB10_11
	ldp	x26, x10, [sp, #144]
	mov	x28, x10
	sub	x16, x10, #1
	cmp	x10, x16
	b.lo	.Lunix_path_BB10_28
	b	.Lunix_path_BB10_32
.Lunix_path_BB10_14:
	mov	x5, x23
	bl	core.slice.sort.pivot.median_of_medians.fd4dfef4a36ac24b.
	mov	x25, x0
	sub	w19, w19, #1
	str	x22, [sp, #120]
	str	w19, [sp, #116]
	str	x24, [sp, #152]
	cbnz	x22, .Lunix_path_BB10_7
.Lunix_path_BB10_15:
	mov	x11, xzr
	subs	x8, x25, x22
	add	x12, x20, xzr
	b.eq	.Lunix_path_BB10_17
.Lunix_path_BB10_16:
	mov	w9, #40
	ldp	q2, q3, [x12]
	madd	x8, x8, x9, x12
	ldr	x10, [x12, #32]
	ldp	q0, q1, [x8]
	ldr	x9, [x8, #32]
	str	x9, [x12, #32]
	stp	q0, q1, [x12]
	str	x10, [x8, #32]
	stp	q2, q3, [x8]
.Lunix_path_BB10_17:
	ldp	x22, x20, [x23]
	mov	w28, #1
	ldp	x9, x8, [x12]
	ldr	x10, [x12, #32]
	ldp	x13, x24, [x12, #16]
	str	x12, [sp, #144]
	str	x10, [sp, #80]
	cmp	x20, x8
	stp	x9, x8, [sp, #88]
	csel	x8, x20, x8, lo
	str	x11, [sp, #128]
	cmp	x8, x9
	csel	x23, x8, x9, lo
	sub	x25, x8, x23
	ldr	x8, [sp, #56]
	add	x19, x8, x11
.Lunix_path_BB10_18:
	ldp	x9, x8, [x19, #-24]
	mov	x21, x13
	cmp	x20, x8
	csel	x8, x20, x8, lo
	cmp	x8, x9
	csel	x9, x8, x9, lo
	sub	x1, x8, x9
	add	x0, x22, x9
	bl	path_archive.slot.without_dot
	mov	x26, x0
	mov	x27, x1
	add	x0, x22, x23
	mov	x1, x25
	bl	path_archive.slot.without_dot
	mov	x2, x0
	mov	x3, x1
	mov	x0, x26
	mov	x1, x27
	bl	unix_path.compare.compare
	ldp	x9, x8, [x19, #-8]
	mov	x13, x21
	cmp	x8, x24
	mov	w8, #2
	csel	w10, wzr, w8, lo
	csinc	w10, w10, wzr, ne
	cmp	x9, x21
	and	w9, w0, #0xff
	csel	w8, wzr, w8, lo
	csel	w8, w10, w8, eq
	cmp	w9, #1
	csel	w8, w8, w9, eq
	cbnz	w8, .Lunix_path_BB10_22
	ldr	x8, [sp, #152]
	add	x28, x28, #1
	add	x19, x19, #40
	cmp	x8, x28
	b.ne	.Lunix_path_BB10_18
	ldp	x12, x8, [sp, #144]
	mov	x28, x8
	sub	x11, x8, #1
	cmp	x8, x11
	b.lo	.Lunix_path_BB10_23
.Lunix_path_BB10_21:
	ldr	x23, [sp, #64]
	subs	x8, x28, #1
	b.ne	.Lunix_path_BB10_2
	b	.Lunix_path_BB10_37
.Lunix_path_BB10_22:
	ldp	x12, x8, [sp, #144]
	sub	x11, x8, #1
	cmp	x28, x11
	b.hs	.Lunix_path_BB10_21
.Lunix_path_BB10_23:
	add	x8, x28, #1
	mov	w9, #40
	str	x21, [sp, #136]
	madd	x9, x8, x9, x12
	cmp	x8, x11
	ldr	x10, [x9]
	stp	x11, x10, [sp, #8]
	ldr	x10, [x9, #8]
	str	x10, [sp, #24]
	ldr	x10, [x9, #16]
	str	x10, [sp, #32]
	ldp	x10, x9, [x9, #24]
	stp	x9, x10, [sp, #40]
	b.hs	.Lunix_path_BB10_35
	mov	w8, #40
	ldr	x9, [sp, #128]
	ldr	x10, [sp]
	madd	x8, x28, x8, x9
	ldr	x9, [sp, #152]
	mov	x21, x24
	sub	x9, x9, x28
	sub	x19, x9, #2
	add	x27, x10, x8
.Lunix_path_BB10_25:
	ldp	x9, x8, [x27]
	cmp	x20, x8
	csel	x8, x20, x8, lo
	cmp	x8, x9
	csel	x9, x8, x9, lo
	sub	x1, x8, x9
	add	x0, x22, x9
	bl	path_archive.slot.without_dot
	mov	x24, x0
	mov	x26, x1
	add	x0, x22, x23
	mov	x1, x25
	bl	path_archive.slot.without_dot
	mov	x2, x0
	mov	x3, x1
	mov	x0, x24
	mov	x1, x26
	bl	unix_path.compare.compare
	mov	w8, #40
	ldp	x14, x9, [sp, #136]
	madd	x8, x28, x8, x9
	ldp	x10, x9, [x27, #16]
	mov	w11, #2
	and	w13, w0, #0xff
	ldr	x12, [x27, #32]
	cmp	x9, x21
	csel	w9, wzr, w11, lo
	ldp	q1, q0, [x8]
	csinc	w9, w9, wzr, ne
	cmp	x10, x14
	csel	w10, wzr, w11, lo
	ldr	x11, [x8, #32]
	csel	w9, w9, w10, eq
	cmp	w13, #1
	stur	q1, [x27, #-40]
	stur	q0, [x27, #-24]
	csel	w9, w9, w13, eq
	ldp	q1, q0, [x27]
	cmp	w9, #0
	stur	x11, [x27, #-8]
	cinc	x28, x28, eq
	subs	x19, x19, #1
	add	x27, x27, #40
	str	x12, [x8, #32]
	stp	q1, q0, [x8]
	b.ne	.Lunix_path_BB10_25
	b	.Lunix_path_BB10_36
.Lunix_path_BB10_26:
	ldr	x20, [sp, #104]
	ldr	x11, [sp, #128]
	subs	x8, x25, x22
	add	x12, x20, x11
	b.ne	.Lunix_path_BB10_16
	b	.Lunix_path_BB10_17
.Lunix_path_BB10_27:
	ldp	x26, x10, [sp, #144]
	mov	x23, x25
	mov	x25, x24
	sub	x16, x10, #1
	cmp	x28, x16
	b.hs	.Lunix_path_BB10_32
.Lunix_path_BB10_28:
	add	x8, x28, #1
	mov	w9, #40
	str	x11, [sp, #136]
	madd	x9, x8, x9, x26
	cmp	x8, x16
	ldp	x15, x14, [x9]
	ldp	x13, x12, [x9, #16]
	ldr	x9, [x9, #32]
	stp	x16, x15, [sp, #8]
	stp	x9, x12, [sp, #40]
	stp	x14, x13, [sp, #24]
	b.hs	.Lunix_path_BB10_31
	mov	w8, #40
	ldr	x9, [sp, #128]
	madd	x8, x28, x8, x9
	sub	x9, x10, x28
	ldr	x10, [sp]
	sub	x19, x9, #2
	add	x27, x10, x8
.Lunix_path_BB10_30:
	add	x0, x22, x25
	mov	x1, x23
	bl	path_archive.slot.without_dot
	ldp	x9, x8, [x27]
	mov	x24, x0
	mov	x26, x1
	cmp	x20, x8
	csel	x8, x20, x8, lo
	cmp	x8, x9
	csel	x9, x8, x9, lo
	sub	x1, x8, x9
	add	x0, x22, x9
	bl	path_archive.slot.without_dot
	mov	x2, x0
	mov	x3, x1
	mov	x0, x24
	mov	x1, x26
	ldr	x26, [sp, #144]
	bl	unix_path.compare.compare
	mov	w8, #40
	ldp	x10, x9, [x27, #16]
	madd	x8, x28, x8, x26
	mov	w11, #2
	ldr	x14, [sp, #136]
	and	w13, w0, #0xff
	ldr	x12, [x27, #32]
	cmp	x21, x9
	csel	w9, wzr, w11, lo
	csinc	w9, w9, wzr, ne
	cmp	x14, x10
	ldp	q1, q0, [x8]
	csel	w10, wzr, w11, lo
	csel	w9, w9, w10, eq
	cmp	w13, #1
	ldr	x11, [x8, #32]
	csel	w9, w9, w13, eq
	stur	q1, [x27, #-40]
	cmp	w9, #0
	stur	q0, [x27, #-24]
	ldp	q1, q0, [x27]
	stur	x11, [x27, #-8]
	cinc	x28, x28, ne
	subs	x19, x19, #1
	add	x27, x27, #40
	str	x12, [x8, #32]
	stp	q1, q0, [x8]
	b.ne	.Lunix_path_BB10_30
.Lunix_path_BB10_31:
	add	x0, x22, x25
	mov	x1, x23
	bl	path_archive.slot.without_dot
	ldp	x23, x19, [sp, #16]
	mov	x24, x0
	mov	x25, x1
	cmp	x20, x19
	csel	x8, x20, x19, lo
	cmp	x8, x23
	csel	x9, x8, x23, lo
	sub	x1, x8, x9
	add	x0, x22, x9
	bl	path_archive.slot.without_dot
	mov	x2, x0
	mov	x3, x1
	mov	x0, x24
	mov	x1, x25
	bl	unix_path.compare.compare
	mov	w8, #40
	ldr	x10, [sp, #8]
	ldr	x12, [sp, #48]
	madd	x9, x28, x8, x26
	mov	w11, #2
	ldr	x13, [sp, #32]
	cmp	x21, x12
	ldr	x14, [sp, #136]
	madd	x8, x10, x8, x26
	ldr	x10, [x9, #32]
	ldp	q1, q0, [x9]
	str	x10, [x8, #32]
	csel	w10, wzr, w11, lo
	stp	q1, q0, [x8]
	csinc	w8, w10, wzr, ne
	cmp	x14, x13
	and	w10, w0, #0xff
	csel	w11, wzr, w11, lo
	stp	x23, x19, [x9]
	csel	w8, w8, w11, eq
	cmp	w10, #1
	mov	x11, x14
	csel	w8, w8, w10, eq
	stp	x13, x12, [x9, #16]
	cmp	w8, #0
	ldr	x8, [sp, #40]
	cinc	x28, x28, ne
	str	x8, [x9, #32]
.Lunix_path_BB10_32:
	ldr	x23, [sp, #64]
	subs	x8, x28, #1
	b.eq	.Lunix_path_BB10_34
	add	x8, x8, x8, lsl #2
	lsl	x8, x8, #3
	add	x9, x26, x8
	ldp	q1, q0, [x9]
	ldr	x10, [x9, #32]
	str	x10, [x26, #32]
	stp	q1, q0, [x26]
.Lunix_path_BB10_34:
	ldr	x9, [sp, #88]
	add	x8, x26, x8
	ldr	w19, [sp, #116]
	str	x9, [x8]
	ldr	x9, [sp, #96]
	stp	x9, x11, [x8, #8]
	ldr	x9, [sp, #80]
	stp	x21, x9, [x8, #24]
	stp	x22, x20, [x23]
	ldr	x20, [sp, #104]
	ldr	x22, [sp, #120]
	ldr	x8, [sp, #72]
	add	x22, x28, x22
	sub	x24, x8, x22
	cmp	x24, #16
	b.hi	.Lunix_path_BB10_4
	b	.Lunix_path_BB10_38
.Lunix_path_BB10_35:
	mov	x21, x24
.Lunix_path_BB10_36:
	ldp	x27, x19, [sp, #16]
	cmp	x20, x19
	csel	x8, x20, x19, lo
	cmp	x8, x27
	csel	x9, x8, x27, lo
	sub	x1, x8, x9
	add	x0, x22, x9
	bl	path_archive.slot.without_dot
	mov	x24, x0
	mov	x26, x1
	add	x0, x22, x23
	mov	x1, x25
	bl	path_archive.slot.without_dot
	mov	x2, x0
	mov	x3, x1
	mov	x0, x24
	mov	x1, x26
	bl	unix_path.compare.compare
	mov	w8, #40
	ldr	x14, [sp, #144]
	ldr	x10, [sp, #8]
	madd	x9, x28, x8, x14
	ldr	x12, [sp, #48]
	mov	x24, x21
	mov	w11, #2
	ldr	x13, [sp, #32]
	madd	x8, x10, x8, x14
	cmp	x12, x21
	ldr	x21, [sp, #136]
	ldr	x10, [x9, #32]
	ldp	q1, q0, [x9]
	str	x10, [x8, #32]
	csel	w10, wzr, w11, lo
	stp	q1, q0, [x8]
	csinc	w8, w10, wzr, ne
	cmp	x13, x21
	and	w10, w0, #0xff
	csel	w11, wzr, w11, lo
	stp	x13, x12, [x9, #16]
	csel	w8, w8, w11, eq
	cmp	w10, #1
	mov	x12, x14
	csel	w8, w8, w10, eq
	mov	x13, x21
	stp	x27, x19, [x9]
	cmp	w8, #0
	ldr	x8, [sp, #40]
	cinc	x28, x28, eq
	str	x8, [x9, #32]
	ldr	x23, [sp, #64]
	subs	x8, x28, #1
	b.ne	.Lunix_path_BB10_2
.Lunix_path_BB10_37:
	mov	x9, xzr
	b	.Lunix_path_BB10_3
.Lunix_path_BB10_38:
	mov	w8, #40
	mov	x1, x24
	mov	x2, x23
	madd	x0, x22, x8, x20
	ldp	x20, x19, [sp, #384]
	ldp	x22, x21, [sp, #368]
	ldp	x24, x23, [sp, #352]
	ldp	x26, x25, [sp, #336]
	ldp	x28, x27, [sp, #320]
	ldp	x29, x30, [sp, #304]
	add	sp, sp, #400
	b	core.slice.sort.small.insertion_sort.fd4dfef4a36ac24b.
.Lunix_path_BB10_39:
	add	x8, x22, x22, lsl #2
	lsl	x19, x8, #3
	lsr	x8, x24, #1
	add	x21, x20, x19
	sub	x22, x8, #1
.Lunix_path_BB10_40:
	add	x0, x20, x19
	mov	x1, x22
	mov	x2, x24
	mov	x3, x23
	bl	core.slice.sort.heap.sift.fd4dfef4a36ac24b.
	sub	x22, x22, #1
	cmn	x22, #1
	b.ne	.Lunix_path_BB10_40
	mov	w8, #40
	madd	x8, x24, x8, x19
	add	x8, x20, x8
	sub	x19, x8, #40
.Lunix_path_BB10_42:
	ldp	q0, q1, [x19]
	sub	x24, x24, #1
	ldp	q2, q3, [x21]
	mov	x0, x21
	ldr	x8, [x19, #32]
	ldr	x9, [x21, #32]
	mov	x1, xzr
	mov	x2, x24
	mov	x3, x23
	stp	q0, q1, [x21]
	str	x8, [x21, #32]
	str	x9, [x19, #32]
	stp	q2, q3, [x19]
	bl	core.slice.sort.heap.sift.fd4dfef4a36ac24b.
	cmp	x24, #1
	sub	x19, x19, #40
	b.hi	.Lunix_path_BB10_42
	ldp	x20, x19, [sp, #384]
	ldp	x22, x21, [sp, #368]
	ldp	x24, x23, [sp, #352]
	ldp	x26, x25, [sp, #336]
	ldp	x28, x27, [sp, #320]
	ldp	x29, x30, [sp, #304]
	add	sp, sp, #400
	ret
.Lunix_path_func_end10:
	.size	core.slice.sort.unstable.quicksort.fd4dfef4a36ac24b., .Lunix_path_func_end10-core.slice.sort.unstable.quicksort.fd4dfef4a36ac24b.
	.section	.text.core.slice.sort.heap.sift.fd4dfef4a36ac24b.,"ax",@progbits
	.p2align	2
	.type	core.slice.sort.heap.sift.fd4dfef4a36ac24b.,@function
// core::slice::sort::heap::sift::<#fd4dfef4a36ac24b>
core.slice.sort.heap.sift.fd4dfef4a36ac24b.:
	sub	sp, sp, #224
	lsr	x8, x2, #1
	stp	x29, x30, [sp, #128]
	add	x29, sp, #128
	stp	x28, x27, [sp, #144]
	cmp	x1, x8
	stp	x26, x25, [sp, #160]
	stp	x24, x23, [sp, #176]
	stp	x22, x21, [sp, #192]
	stp	x20, x19, [sp, #208]
	stp	x8, x0, [sp, #16]
	b.hs	.Lunix_path_BB11_23
	mov	x25, x3
	mov	x21, x2
	mov	x22, x1
	str	x2, [sp, #8]
	b	.Lunix_path_BB11_4
.Lunix_path_BB11_2:
	ldp	q0, q1, [x28]
	ldr	x8, [x28, #32]
	ldp	q2, q3, [x27]
	ldr	x9, [x27, #32]
	str	x8, [x27, #32]
	stp	q0, q1, [x27]
	str	x9, [x28, #32]
	stp	q2, q3, [x28]
.Lunix_path_BB11_3:
	ldr	x8, [sp, #16]
	cmp	x22, x8
	b.hs	.Lunix_path_BB11_23
.Lunix_path_BB11_4:
	mov	x26, x22
	mov	w22, #1
	lsl	x8, x26, #1
	bfi	x22, x26, #1, #63
	add	x27, x8, #2
	cmp	x27, x21
	b.eq	.Lunix_path_BB11_9
	mov	w8, #40
	ldr	x12, [sp, #24]
	mov	x11, x25
	madd	x28, x22, x8, x12
	ldr	x25, [x25, #8]
	ldr	x19, [x11]
	mov	x21, x11
	madd	x20, x27, x8, x12
	ldp	x10, x9, [x28]
	cmp	x25, x9
	csel	x8, x25, x9, lo
	cmp	x8, x10
	csel	x9, x8, x10, lo
	sub	x1, x8, x9
	add	x0, x19, x9
	bl	path_archive.slot.without_dot
	ldp	x9, x8, [x20]
	mov	x23, x0
	mov	x24, x1
	cmp	x25, x8
	csel	x8, x25, x8, lo
	cmp	x8, x9
	csel	x9, x8, x9, lo
	sub	x1, x8, x9
	add	x0, x19, x9
	bl	path_archive.slot.without_dot
	mov	x2, x0
	mov	x3, x1
	mov	x0, x23
	mov	x1, x24
	bl	unix_path.compare.compare
	ldp	x9, x12, [x20, #16]
	mov	w13, #2
	ldp	x10, x8, [x28, #16]
	cmp	x10, x9
	csel	w11, wzr, w13, lo
	cmp	x8, x12
	csel	w8, wzr, w13, lo
	b.eq	.Lunix_path_BB11_19
	cmp	x10, x9
	mov	x25, x21
	b.ne	.Lunix_path_BB11_20
.Lunix_path_BB11_7:
	and	w9, w0, #0xff
	ldr	x21, [sp, #8]
	cmp	w9, #1
	b.ne	.Lunix_path_BB11_21
.Lunix_path_BB11_8:
	cbz	w8, .Lunix_path_BB11_22
.Lunix_path_BB11_9:
	mov	w8, #40
	ldr	x11, [sp, #24]
	madd	x27, x26, x8, x11
	ldp	x20, x19, [x25]
	madd	x28, x22, x8, x11
	ldp	x10, x9, [x27]
	cmp	x19, x9
	csel	x8, x19, x9, lo
	cmp	x8, x10
	csel	x9, x8, x10, lo
	sub	x1, x8, x9
	add	x0, x20, x9
	bl	path_archive.slot.without_dot
	ldp	x9, x8, [x28]
	mov	x23, x0
	mov	x24, x1
	cmp	x19, x8
	csel	x8, x19, x8, lo
	cmp	x8, x9
	csel	x9, x8, x9, lo
	sub	x1, x8, x9
	add	x0, x20, x9
	bl	path_archive.slot.without_dot
	mov	x2, x0
	mov	x3, x1
	mov	x0, x23
	mov	x1, x24
	bl	unix_path.compare.compare
	ldp	x9, x12, [x28, #16]
	mov	w13, #2
	ldp	x10, x8, [x27, #16]
	cmp	x10, x9
	csel	w11, wzr, w13, lo
	cmp	x8, x12
	csel	w8, wzr, w13, lo
	b.eq	.Lunix_path_BB11_13
	cmp	x10, x9
	b.ne	.Lunix_path_BB11_14
.Lunix_path_BB11_11:
	and	w9, w0, #0xff
	cmp	w9, #1
	b.ne	.Lunix_path_BB11_15
.Lunix_path_BB11_12:
	cbz	w8, .Lunix_path_BB11_16
	b	.Lunix_path_BB11_23
.Lunix_path_BB11_13:
	mov	w8, #1
	cmp	x10, x9
	b.eq	.Lunix_path_BB11_11
.Lunix_path_BB11_14:
	mov	w8, w11
	and	w9, w0, #0xff
	cmp	w9, #1
	b.eq	.Lunix_path_BB11_12
.Lunix_path_BB11_15:
	cbnz	w9, .Lunix_path_BB11_23
.Lunix_path_BB11_16:
	cmp	x26, x22
	b.lo	.Lunix_path_BB11_2
	cmp	x22, x26
	b.hs	.Lunix_path_BB11_3
	ldp	q0, q1, [x27]
	ldr	x8, [x27, #32]
	ldp	q2, q3, [x28]
	ldr	x9, [x28, #32]
	str	x8, [x28, #32]
	stp	q0, q1, [x28]
	str	x9, [x27, #32]
	stp	q2, q3, [x27]
	b	.Lunix_path_BB11_3
.Lunix_path_BB11_19:
	mov	w8, #1
	cmp	x10, x9
	mov	x25, x21
	b.eq	.Lunix_path_BB11_7
.Lunix_path_BB11_20:
	mov	w8, w11
	and	w9, w0, #0xff
	ldr	x21, [sp, #8]
	cmp	w9, #1
	b.eq	.Lunix_path_BB11_8
.Lunix_path_BB11_21:
	cbnz	w9, .Lunix_path_BB11_9
.Lunix_path_BB11_22:
	mov	x22, x27
	b	.Lunix_path_BB11_9
.Lunix_path_BB11_23:
	ldp	x20, x19, [sp, #208]
	ldp	x22, x21, [sp, #192]
	ldp	x24, x23, [sp, #176]
	ldp	x26, x25, [sp, #160]
	ldp	x28, x27, [sp, #144]
	ldp	x29, x30, [sp, #128]
	add	sp, sp, #224
	ret
.Lunix_path_func_end11:
	.size	core.slice.sort.heap.sift.fd4dfef4a36ac24b., .Lunix_path_func_end11-core.slice.sort.heap.sift.fd4dfef4a36ac24b.
	.section	.text.core.slice.sort.pivot.median_of_three.fd4dfef4a36ac24b.,"ax",@progbits
	.p2align	2
	.type	core.slice.sort.pivot.median_of_three.fd4dfef4a36ac24b.,@function
// core::slice::sort::pivot::median_of_three::<#fd4dfef4a36ac24b>
core.slice.sort.pivot.median_of_three.fd4dfef4a36ac24b.:
	sub	sp, sp, #128
	stp	x28, x27, [sp, #48]
	mov	w28, #40
	madd	x27, x1, x28, x0
	stp	x20, x19, [sp, #112]
	ldp	x20, x19, [x4]
	stp	x29, x30, [sp, #32]
	add	x29, sp, #32
	stp	x26, x25, [sp, #64]
	madd	x26, x2, x28, x0
	stp	x24, x23, [sp, #80]
	mov	x23, x0
	stur	x1, [x29, #-8]
	ldp	x9, x8, [x27]
	stp	x22, x21, [sp, #96]
	mov	x21, x4
	mov	x22, x3
	str	x2, [sp, #8]
	cmp	x19, x8
	csel	x8, x19, x8, lo
	cmp	x8, x9
	csel	x9, x8, x9, lo
	sub	x1, x8, x9
	add	x0, x20, x9
	bl	path_archive.slot.without_dot
	ldp	x9, x8, [x26]
	mov	x24, x0
	mov	x25, x1
	cmp	x19, x8
	csel	x8, x19, x8, lo
	cmp	x8, x9
	csel	x9, x8, x9, lo
	sub	x1, x8, x9
	add	x0, x20, x9
	bl	path_archive.slot.without_dot
	mov	x2, x0
	mov	x3, x1
	mov	x0, x24
	mov	x1, x25
	bl	unix_path.compare.compare
	ldp	x11, x8, [x26, #16]
	mov	w12, #2
	ldp	x10, x9, [x27, #16]
	madd	x28, x22, x28, x23
	str	x22, [sp, #16]
	ldp	x22, x20, [x21]
	cmp	x9, x8
	and	w9, w0, #0xff
	csel	w8, wzr, w12, lo
	csinc	w8, w8, wzr, ne
	cmp	x10, x11
	csel	w10, wzr, w12, lo
	csel	w8, w8, w10, eq
	cmp	w9, #1
	csel	w19, w8, w9, eq
	ldp	x9, x8, [x27]
	cmp	w19, #0
	cset	w25, eq
	cmp	x20, x8
	csel	x8, x20, x8, lo
	cmp	x8, x9
	csel	x9, x8, x9, lo
	sub	x1, x8, x9
	add	x0, x22, x9
	bl	path_archive.slot.without_dot
	ldp	x9, x8, [x28]
	mov	x23, x0
	mov	x24, x1
	cmp	x20, x8
	csel	x8, x20, x8, lo
	cmp	x8, x9
	csel	x9, x8, x9, lo
	sub	x1, x8, x9
	add	x0, x22, x9
	bl	path_archive.slot.without_dot
	mov	x2, x0
	mov	x3, x1
	mov	x0, x23
	mov	x1, x24
	mov	w24, #2
	bl	unix_path.compare.compare
	ldp	x11, x8, [x28, #16]
	ldp	x10, x9, [x27, #16]
	cmp	x9, x8
	and	w9, w0, #0xff
	ldur	x0, [x29, #-8]
	csel	w8, wzr, w24, lo
	csinc	w8, w8, wzr, ne
	cmp	x10, x11
	csel	w10, wzr, w24, lo
	csel	w8, w8, w10, eq
	cmp	w9, #1
	csel	w8, w8, w9, eq
	cmp	w8, #0
	cset	w8, eq
	cmp	w25, w8
	b.ne	.Lunix_path_BB12_2
	ldp	x23, x20, [x21]
	cmp	w19, #0
	ldp	x9, x8, [x26]
	cset	w19, eq
	cmp	x20, x8
	csel	x8, x20, x8, lo
	cmp	x8, x9
	csel	x9, x8, x9, lo
	sub	x1, x8, x9
	add	x0, x23, x9
	bl	path_archive.slot.without_dot
	ldp	x9, x8, [x28]
	mov	x21, x0
	mov	x22, x1
	cmp	x20, x8
	csel	x8, x20, x8, lo
	cmp	x8, x9
	csel	x9, x8, x9, lo
	sub	x1, x8, x9
	add	x0, x23, x9
	bl	path_archive.slot.without_dot
	mov	x2, x0
	mov	x3, x1
	mov	x0, x21
	mov	x1, x22
	bl	unix_path.compare.compare
	ldp	x11, x8, [x28, #16]
	ldp	x10, x9, [x26, #16]
	cmp	x9, x8
	and	w9, w0, #0xff
	csel	w8, wzr, w24, lo
	csinc	w8, w8, wzr, ne
	cmp	x10, x11
	csel	w10, wzr, w24, lo
	csel	w8, w8, w10, eq
	cmp	w9, #1
	csel	w8, w8, w9, eq
	cmp	w8, #0
	cset	w8, eq
	eor	w8, w19, w8
	cmp	w8, #0
	ldp	x9, x8, [sp, #8]
	csel	x0, x8, x9, ne
.Lunix_path_BB12_2:
	ldp	x20, x19, [sp, #112]
	ldp	x22, x21, [sp, #96]
	ldp	x24, x23, [sp, #80]
	ldp	x26, x25, [sp, #64]
	ldp	x28, x27, [sp, #48]
	ldp	x29, x30, [sp, #32]
	add	sp, sp, #128
	ret
.Lunix_path_func_end12:
	.size	core.slice.sort.pivot.median_of_three.fd4dfef4a36ac24b., .Lunix_path_func_end12-core.slice.sort.pivot.median_of_three.fd4dfef4a36ac24b.
	.section	.text.core.slice.sort.pivot.median_of_medians.fd4dfef4a36ac24b.,"ax",@progbits
	.p2align	2
	.type	core.slice.sort.pivot.median_of_medians.fd4dfef4a36ac24b.,@function
// core::slice::sort::pivot::median_of_medians::<#fd4dfef4a36ac24b>
core.slice.sort.pivot.median_of_medians.fd4dfef4a36ac24b.:
	cmp	x4, #7
	b.hi	.Lunix_path_BB13_2
	mov	x4, x5
	b	core.slice.sort.pivot.median_of_three.fd4dfef4a36ac24b.
.Lunix_path_BB13_2:
	stp	x29, x30, [sp, #-80]!
	stp	x20, x19, [sp, #64]
	lsr	x19, x4, #3
	mov	x20, x2
	stp	x26, x25, [sp, #16]
	mov	x29, sp
	lsl	x8, x19, #3
	lsl	x25, x19, #2
	stp	x22, x21, [sp, #48]
	mov	x21, x3
	mov	x4, x19
	stp	x24, x23, [sp, #32]
	sub	x26, x8, x19
	add	x2, x25, x1
	mov	x22, x0
	add	x3, x26, x1
	mov	x23, x5
	bl	core.slice.sort.pivot.median_of_medians.fd4dfef4a36ac24b.
	mov	x24, x0
	add	x2, x25, x20
	add	x3, x26, x20
	mov	x0, x22
	mov	x1, x20
	mov	x4, x19
	mov	x5, x23
	bl	core.slice.sort.pivot.median_of_medians.fd4dfef4a36ac24b.
	mov	x20, x0
	add	x2, x25, x21
	add	x3, x26, x21
	mov	x0, x22
	mov	x1, x21
	mov	x4, x19
	mov	x5, x23
	bl	core.slice.sort.pivot.median_of_medians.fd4dfef4a36ac24b.
	mov	x3, x0
	mov	x0, x22
	mov	x1, x24
	mov	x2, x20
	mov	x4, x23
	ldp	x20, x19, [sp, #64]
	ldp	x22, x21, [sp, #48]
	ldp	x24, x23, [sp, #32]
	ldp	x26, x25, [sp, #16]
	ldp	x29, x30, [sp], #80
	b	core.slice.sort.pivot.median_of_three.fd4dfef4a36ac24b.
.Lunix_path_func_end13:
	.size	core.slice.sort.pivot.median_of_medians.fd4dfef4a36ac24b., .Lunix_path_func_end13-core.slice.sort.pivot.median_of_medians.fd4dfef4a36ac24b.
	.section	.text.core.slice.edits.mirror.24.path_archive.slot.Slot.,"ax",@progbits
	.p2align	2
	.type	core.slice.edits.mirror.24.path_archive.slot.Slot.,@function
// core::slice::edits::mirror::<24'path_archive::slot::Slot>
core.slice.edits.mirror.24.path_archive.slot.Slot.:
	sub	sp, sp, #48
	mov	w8, #40
	madd	x8, x2, x8, x1
	sub	x8, x8, #40
.Lunix_path_BB14_1:
	ldp	q0, q1, [x8]
	sub	x2, x2, #1
	ldp	q2, q3, [x0]
	ldr	x9, [x8, #32]
	ldr	x10, [x0, #32]
	stp	q0, q1, [x0]
	str	x9, [x0, #32]
	add	x0, x0, #40
	str	x10, [x8, #32]
	stp	q2, q3, [x8]
	sub	x8, x8, #40
	cbnz	x2, .Lunix_path_BB14_1
	add	sp, sp, #48
	ret
.Lunix_path_func_end14:
	.size	core.slice.edits.mirror.24.path_archive.slot.Slot., .Lunix_path_func_end14-core.slice.edits.mirror.24.path_archive.slot.Slot.
	.section	.rodata.cst16,"aM",@progbits,16
	.p2align	4, 0x0
.Lunix_path_CPI15_0:
	.byte	1
	.byte	2
	.byte	4
	.byte	8
	.byte	16
	.byte	32
	.byte	64
	.byte	128
	.byte	1
	.byte	2
	.byte	4
	.byte	8
	.byte	16
	.byte	32
	.byte	64
	.byte	128
	.section	.rodata.cst8,"aM",@progbits,8
	.p2align	3, 0x0
.Lunix_path_CPI15_1:
	.byte	1
	.byte	2
	.byte	4
	.byte	8
	.byte	16
	.byte	32
	.byte	64
	.byte	128
	.section	.text.path_archive.outlined.starts_with,"ax",@progbits
	.p2align	2
	.type	path_archive.outlined.starts_with,@function
// path_archive::outlined::starts_with
path_archive.outlined.starts_with:
	cbz	x3, .Lunix_path_BB15_17
	sub	sp, sp, #48
	cmp	x3, x1
	stp	x29, x30, [sp, #32]
	add	x29, sp, #32
	csel	x9, x3, x1, lo
	stp	xzr, xzr, [sp, #8]
	cmp	x9, #15
	str	xzr, [sp, #24]
	b.hi	.Lunix_path_BB15_18
	cmp	x9, #7
	b.hi	.Lunix_path_BB15_27
	cbz	x1, .Lunix_path_BB15_46
	ldrb	w8, [x0]
	ldrb	w10, [x2]
	cmp	w8, w10
	b.ne	.Lunix_path_BB15_47
	cmp	x9, #1
	b.eq	.Lunix_path_BB15_32
	ldrb	w8, [x0, #1]
	ldrb	w10, [x2, #1]
	cmp	w8, w10
	b.ne	.Lunix_path_BB15_60
	cmp	x9, #2
	b.eq	.Lunix_path_BB15_32
	ldrb	w8, [x0, #2]
	ldrb	w10, [x2, #2]
	cmp	w8, w10
	b.ne	.Lunix_path_BB15_61
	cmp	x9, #3
	b.eq	.Lunix_path_BB15_32
	ldrb	w8, [x0, #3]
	ldrb	w10, [x2, #3]
	cmp	w8, w10
	b.ne	.Lunix_path_BB15_62
	cmp	x9, #4
	b.eq	.Lunix_path_BB15_32
	ldrb	w8, [x0, #4]
	ldrb	w10, [x2, #4]
	cmp	w8, w10
	b.ne	.Lunix_path_BB15_63
	cmp	x9, #5
	b.eq	.Lunix_path_BB15_32
	ldrb	w8, [x0, #5]
	ldrb	w10, [x2, #5]
	cmp	w8, w10
	b.ne	.Lunix_path_BB15_64
	cmp	x9, #6
	b.eq	.Lunix_path_BB15_32
	ldrb	w8, [x0, #6]
	ldrb	w10, [x2, #6]
	cmp	w8, w10
	mov	w8, #6
	csel	x9, x9, x8, eq
	b	.Lunix_path_BB15_32
.Lunix_path_BB15_17:
	mov	w0, #1
	ret
.Lunix_path_BB15_18:
	cmp	x9, #64
	sub	x8, x9, #16
	adrp	x10, .Lunix_path_CPI15_0
	mov	x11, xzr
	b.lo	.Lunix_path_BB15_25
	and	x12, x9, #0xffffffffffffffc0
.Lunix_path_BB15_20:
	add	x13, x0, x11
	add	x14, x2, x11
	ldp	q0, q1, [x13]
	ldp	q2, q3, [x13, #32]
	ldp	q4, q5, [x14]
	ldp	q6, q7, [x14, #32]
	cmeq	v0.16b, v0.16b, v4.16b
	cmeq	v1.16b, v1.16b, v5.16b
	ldr	q4, [x10, :lo12:.Lunix_path_CPI15_0]
	cmeq	v3.16b, v3.16b, v7.16b
	cmeq	v2.16b, v2.16b, v6.16b
	bic	v0.16b, v4.16b, v0.16b
	bic	v1.16b, v4.16b, v1.16b
	bic	v2.16b, v4.16b, v2.16b
	bic	v3.16b, v4.16b, v3.16b
	addp	v0.16b, v0.16b, v1.16b
	addp	v1.16b, v2.16b, v3.16b
	addp	v0.16b, v0.16b, v1.16b
	addp	v0.16b, v0.16b, v0.16b
	fmov	x13, d0
	cbnz	x13, .Lunix_path_BB15_25
	sub	x9, x9, #64
	add	x11, x11, #64
	cmp	x9, #63
	b.hi	.Lunix_path_BB15_20
	mov	x11, x12
	b	.Lunix_path_BB15_25
.Lunix_path_BB15_23:
	ldr	q0, [x0, x11]
	ldr	q1, [x2, x11]
	cmeq	v0.16b, v0.16b, v1.16b
	ldr	q1, [x10, :lo12:.Lunix_path_CPI15_0]
	bic	v0.16b, v1.16b, v0.16b
	addp	v0.16b, v0.16b, v0.16b
	addp	v0.16b, v0.16b, v0.16b
	addp	v0.16b, v0.16b, v0.16b
	umov	w9, v0.h[0]
	orr	w9, w9, #0x10000
	rbit	w9, w9
	clz	w9, w9
	cmp	w9, #15
	b.ls	.Lunix_path_BB15_29
	add	x11, x11, #16
.Lunix_path_BB15_25:
	cmp	x11, x8
	b.lo	.Lunix_path_BB15_23
	ldr	q0, [x0, x8]
	ldr	q1, [x2, x8]
	cmeq	v0.16b, v0.16b, v1.16b
	ldr	q1, [x10, :lo12:.Lunix_path_CPI15_0]
	bic	v0.16b, v1.16b, v0.16b
	addp	v0.16b, v0.16b, v0.16b
	addp	v0.16b, v0.16b, v0.16b
	addp	v0.16b, v0.16b, v0.16b
	umov	w9, v0.h[0]
	orr	w9, w9, #0x10000
	b	.Lunix_path_BB15_31
.Lunix_path_BB15_27:
	ldr	d0, [x0]
	ldr	d1, [x2]
	adrp	x8, .Lunix_path_CPI15_1
	cmeq	v1.8b, v0.8b, v1.8b
	ldr	d0, [x8, :lo12:.Lunix_path_CPI15_1]
	bic	v1.8b, v0.8b, v1.8b
	addv	b1, v1.8b
	fmov	w8, s1
	orr	w8, w8, #0x100
	rbit	w8, w8
	clz	w8, w8
	cmp	w8, #8
	b.hs	.Lunix_path_BB15_30
	mov	x9, x8
	b	.Lunix_path_BB15_32
.Lunix_path_BB15_29:
	add	x9, x11, w9, uxtw
	b	.Lunix_path_BB15_32
.Lunix_path_BB15_30:
	sub	x8, x9, #8
	ldr	d1, [x0, x8]
	ldr	d2, [x2, x8]
	cmeq	v1.8b, v1.8b, v2.8b
	bic	v0.8b, v0.8b, v1.8b
	addv	b0, v0.8b
	fmov	w9, s0
	orr	w9, w9, #0x100
.Lunix_path_BB15_31:
	rbit	w9, w9
	clz	w9, w9
	add	x9, x8, x9
.Lunix_path_BB15_32:
	cmp	x3, x9
	b.ls	.Lunix_path_BB15_40
	mov	w8, #1
	cmp	x9, x1
	b.hs	.Lunix_path_BB15_49
.Lunix_path_BB15_34:
	ldrb	w10, [x0, x9]
	cmp	w10, #47
	b.eq	.Lunix_path_BB15_49
	cmp	w10, #46
	eor	w11, w8, #0x1
	csinc	w11, w11, wzr, ne
	tbnz	w11, #0, .Lunix_path_BB15_37
	ldrb	w11, [x2, x9]
	and	w11, w11, #0xfe
	cmp	w11, #46
	b.ne	.Lunix_path_BB15_59
.Lunix_path_BB15_37:
	add	w10, w10, #1
	cbnz	w8, .Lunix_path_BB15_50
.Lunix_path_BB15_38:
	cmp	w10, w8
	b.ne	.Lunix_path_BB15_53
.Lunix_path_BB15_39:
	cbnz	x9, .Lunix_path_BB15_55
	b	.Lunix_path_BB15_59
.Lunix_path_BB15_40:
	cmp	x3, x1
	b.hs	.Lunix_path_BB15_45
	add	x8, x0, x3
	ldrb	w10, [x8]
	cmp	w10, #47
	b.ne	.Lunix_path_BB15_44
	mov	w8, #1
.Lunix_path_BB15_43:
	ldp	x29, x30, [sp, #32]
	add	sp, sp, #48
	mov	w0, w8
	ret
.Lunix_path_BB15_44:
	ldurb	w8, [x8, #-1]
	cmp	w8, #47
	b.ne	.Lunix_path_BB15_48
.Lunix_path_BB15_45:
	mov	w8, #1
	ldp	x29, x30, [sp, #32]
	add	sp, sp, #48
	mov	w0, w8
	ret
.Lunix_path_BB15_46:
	mov	x9, xzr
	mov	w8, #1
	cmp	xzr, x1
	b.hs	.Lunix_path_BB15_49
	b	.Lunix_path_BB15_34
.Lunix_path_BB15_47:
	mov	x9, xzr
	b	.Lunix_path_BB15_32
.Lunix_path_BB15_48:
	mov	w8, wzr
	cmp	x9, x1
	b.lo	.Lunix_path_BB15_34
.Lunix_path_BB15_49:
	mov	w10, wzr
	cbz	w8, .Lunix_path_BB15_38
.Lunix_path_BB15_50:
	ldrb	w8, [x2, x9]
	cmp	w8, #47
	b.ne	.Lunix_path_BB15_52
	cmp	w10, wzr
	b.ne	.Lunix_path_BB15_53
	b	.Lunix_path_BB15_39
.Lunix_path_BB15_52:
	add	w8, w8, #1
	cmp	w10, w8
	b.eq	.Lunix_path_BB15_39
.Lunix_path_BB15_53:
	cbz	x9, .Lunix_path_BB15_59
	add	x8, x0, x9
	ldurb	w10, [x8, #-1]
	cmp	w10, #47
	b.ne	.Lunix_path_BB15_56
.Lunix_path_BB15_55:
	sub	x8, x1, x9
	mov	x10, x0
	sub	x4, x3, x9
	add	x0, sp, #8
	add	x1, x10, x9
	add	x3, x2, x9
	mov	x2, x8
	bl	unix_path.pair.Comparison.rest_after_cut
	ldrb	w8, [sp, #8]
	cmp	w8, #1
	cset	w8, eq
	ldp	x29, x30, [sp, #32]
	add	sp, sp, #48
	mov	w0, w8
	ret
.Lunix_path_BB15_56:
	subs	x9, x9, #1
	mov	w8, wzr
	b.eq	.Lunix_path_BB15_43
	cmp	w10, #46
	b.ne	.Lunix_path_BB15_43
	add	x8, x0, x9
	ldurb	w8, [x8, #-1]
	cmp	w8, #47
	b.eq	.Lunix_path_BB15_55
.Lunix_path_BB15_59:
	mov	w8, wzr
	ldp	x29, x30, [sp, #32]
	add	sp, sp, #48
	mov	w0, w8
	ret
.Lunix_path_BB15_60:
	mov	w9, #1
	b	.Lunix_path_BB15_32
.Lunix_path_BB15_61:
	mov	w9, #2
	b	.Lunix_path_BB15_32
.Lunix_path_BB15_62:
	mov	w9, #3
	b	.Lunix_path_BB15_32
.Lunix_path_BB15_63:
	mov	w9, #4
	b	.Lunix_path_BB15_32
.Lunix_path_BB15_64:
	mov	w9, #5
	b	.Lunix_path_BB15_32
.Lunix_path_func_end15:
	.size	path_archive.outlined.starts_with, .Lunix_path_func_end15-path_archive.outlined.starts_with
	.section	.rodata.cst16,"aM",@progbits,16
	.p2align	4, 0x0
.Lunix_path_CPI16_0:
	.byte	1
	.byte	2
	.byte	4
	.byte	8
	.byte	16
	.byte	32
	.byte	64
	.byte	128
	.byte	1
	.byte	2
	.byte	4
	.byte	8
	.byte	16
	.byte	32
	.byte	64
	.byte	128
	.section	.rodata.cst8,"aM",@progbits,8
	.p2align	3, 0x0
.Lunix_path_CPI16_1:
	.byte	1
	.byte	2
	.byte	4
	.byte	8
	.byte	16
	.byte	32
	.byte	64
	.byte	128
	.section	.text.path_archive.outlined.has_root_or_parent_dir,"ax",@progbits
	.p2align	2
	.type	path_archive.outlined.has_root_or_parent_dir,@function
// path_archive::outlined::has_root_or_parent_dir
path_archive.outlined.has_root_or_parent_dir:
	cbz	x1, .Lunix_path_BB16_4
	stp	x29, x30, [sp, #-48]!
	ldrb	w8, [x0]
	stp	x20, x19, [sp, #32]
	mov	x19, x0
	stp	x22, x21, [sp, #16]
	mov	x29, sp
	cmp	w8, #47
	b.ne	.Lunix_path_BB16_5
	mov	w0, #1
.Lunix_path_BB16_3:
	ldp	x20, x19, [sp, #32]
	ldp	x22, x21, [sp, #16]
	ldp	x29, x30, [sp], #48
	ret
.Lunix_path_BB16_4:
	mov	w0, wzr
	ret
.Lunix_path_BB16_5:
	ldrb	w8, [x19]
	mov	x20, x1
	adrp	x21, .Lunix_path_CPI16_0
	cmp	w8, #47
	b.eq	.Lunix_path_BB16_46
	cmp	w8, #46
	b.ne	.Lunix_path_BB16_12
	cmp	x20, #1
	b.eq	.Lunix_path_BB16_46
	ldrb	w8, [x19, #1]
	cmp	w8, #47
	b.eq	.Lunix_path_BB16_43
	cmp	w8, #46
	b.ne	.Lunix_path_BB16_12
	cmp	x20, #2
	b.eq	.Lunix_path_BB16_43
	ldrb	w8, [x19, #2]
	cmp	w8, #47
	b.eq	.Lunix_path_BB16_43
.Lunix_path_BB16_12:
	add	x10, x19, x20
	ldurb	w8, [x10, #-1]
	and	w8, w8, #0xfe
	cmp	w8, #46
	b.eq	.Lunix_path_BB16_43
	subs	x8, x20, #17
	b.hs	.Lunix_path_BB16_16
.Lunix_path_BB16_14:
	cmp	x20, #9
	b.hs	.Lunix_path_BB16_24
	mov	x8, xzr
	b	.Lunix_path_BB16_40
.Lunix_path_BB16_16:
	cmp	x20, #32
	b.hi	.Lunix_path_BB16_26
	movi	v0.16b, #208
	ldur	q1, [x19, #1]
	ldr	q3, [x19]
	and	v2.16b, v1.16b, v0.16b
	movi	v1.16b, #47
	orr	v2.16b, v2.16b, v3.16b
	cmeq	v3.16b, v2.16b, v1.16b
	ldr	q2, [x21, :lo12:.Lunix_path_CPI16_0]
	and	v3.16b, v3.16b, v2.16b
	addp	v3.16b, v3.16b, v3.16b
	addp	v3.16b, v3.16b, v3.16b
	addp	v3.16b, v3.16b, v3.16b
	umov	w9, v3.h[0]
	cbnz	w9, .Lunix_path_BB16_19
	ldur	q3, [x10, #-16]
	and	v0.16b, v3.16b, v0.16b
	ldur	q3, [x10, #-17]
	orr	v0.16b, v0.16b, v3.16b
	cmeq	v0.16b, v0.16b, v1.16b
	and	v0.16b, v0.16b, v2.16b
	addp	v0.16b, v0.16b, v0.16b
	addp	v0.16b, v0.16b, v0.16b
	addp	v0.16b, v0.16b, v0.16b
	umov	w9, v0.h[0]
	cbz	w9, .Lunix_path_BB16_42
.Lunix_path_BB16_19:
	cmp	x20, #18
	b.ls	.Lunix_path_BB16_14
	subs	x9, x20, #19
	b.ne	.Lunix_path_BB16_28
	mov	x10, xzr
.Lunix_path_BB16_22:
	cmp	x8, x10
	movi	v0.16b, #208
	csel	x8, x8, x10, lo
	add	x10, x19, x8
	ldur	q1, [x10, #1]
	ldr	q2, [x10]
	and	v1.16b, v1.16b, v0.16b
	movi	v0.16b, #47
	orr	v1.16b, v1.16b, v2.16b
	cmeq	v2.16b, v1.16b, v0.16b
	ldr	q1, [x21, :lo12:.Lunix_path_CPI16_0]
	and	v2.16b, v2.16b, v1.16b
	addp	v2.16b, v2.16b, v2.16b
	addp	v2.16b, v2.16b, v2.16b
	addp	v2.16b, v2.16b, v2.16b
	umov	w10, v2.h[0]
	cbz	w10, .Lunix_path_BB16_39
	movi	v2.16b, #46
	add	x8, x19, x9
	ldur	q3, [x8, #2]
	ldur	q4, [x8, #3]
	cmeq	v4.16b, v4.16b, v0.16b
	cmeq	v5.16b, v3.16b, v2.16b
	cmeq	v3.16b, v3.16b, v0.16b
	and	v4.16b, v5.16b, v4.16b
	ldur	q5, [x8, #1]
	cmeq	v2.16b, v5.16b, v2.16b
	orr	v3.16b, v3.16b, v4.16b
	ldr	q4, [x8]
	and	v2.16b, v2.16b, v3.16b
	cmeq	v3.16b, v4.16b, v0.16b
	cmeq	v0.16b, v5.16b, v0.16b
	orr	v0.16b, v0.16b, v2.16b
	and	v1.16b, v3.16b, v1.16b
	and	v0.16b, v1.16b, v0.16b
	addp	v0.16b, v0.16b, v0.16b
	addp	v0.16b, v0.16b, v0.16b
	addp	v0.16b, v0.16b, v0.16b
	umov	w8, v0.h[0]
	orr	w8, w8, #0x10000
	rbit	w8, w8
	clz	w8, w8
	add	x8, x9, x8
	b	.Lunix_path_BB16_40
.Lunix_path_BB16_24:
	movi	v0.8b, #254
	movi	v1.8b, #47
	ldr	d3, [x19]
	ldur	d4, [x19, #1]
	movi	v2.8b, #46
	adrp	x8, .Lunix_path_CPI16_1
	and	v4.8b, v4.8b, v0.8b
	cmeq	v5.8b, v3.8b, v1.8b
	ldr	d3, [x8, :lo12:.Lunix_path_CPI16_1]
	cmeq	v4.8b, v4.8b, v2.8b
	and	v5.8b, v5.8b, v3.8b
	and	v4.8b, v5.8b, v4.8b
	addv	b4, v4.8b
	fmov	w8, s4
	orr	w8, w8, #0x100
	rbit	w8, w8
	clz	w8, w8
	cmp	w8, #8
	b.lo	.Lunix_path_BB16_40
	cmp	x20, #17
	mov	w8, #17
	csel	x8, x20, x8, lo
	sub	x8, x8, #9
	add	x9, x19, x8
	ldr	d4, [x9]
	ldur	d5, [x9, #1]
	and	v0.8b, v5.8b, v0.8b
	cmeq	v1.8b, v4.8b, v1.8b
	cmeq	v0.8b, v0.8b, v2.8b
	and	v1.8b, v1.8b, v3.8b
	and	v0.8b, v1.8b, v0.8b
	addv	b0, v0.8b
	fmov	w9, s0
	orr	w9, w9, #0x100
	rbit	w9, w9
	clz	w9, w9
	add	x8, x8, x9
	b	.Lunix_path_BB16_40
.Lunix_path_BB16_26:
	sub	x9, x20, #33
	movi	v0.16b, #208
	ldur	q2, [x10, #-16]
	add	x11, x19, x9
	ldur	q3, [x10, #-17]
	movi	v4.16b, #47
	ldur	q1, [x11, #1]
	and	v1.16b, v1.16b, v0.16b
	and	v0.16b, v2.16b, v0.16b
	ldr	q2, [x11]
	orr	v1.16b, v1.16b, v2.16b
	orr	v0.16b, v0.16b, v3.16b
	cmeq	v1.16b, v1.16b, v4.16b
	cmeq	v2.16b, v0.16b, v4.16b
	ldr	q0, [x21, :lo12:.Lunix_path_CPI16_0]
	and	v1.16b, v1.16b, v0.16b
	and	v2.16b, v2.16b, v0.16b
	addp	v1.16b, v1.16b, v1.16b
	addp	v2.16b, v2.16b, v2.16b
	addp	v1.16b, v1.16b, v1.16b
	addp	v2.16b, v2.16b, v2.16b
	addp	v1.16b, v1.16b, v1.16b
	addp	v2.16b, v2.16b, v2.16b
	orr	v1.16b, v2.16b, v1.16b
	umov	w10, v1.h[0]
	cbz	w10, .Lunix_path_BB16_35
	sub	x9, x20, #19
.Lunix_path_BB16_28:
	mov	x10, xzr
	b	.Lunix_path_BB16_32
.Lunix_path_BB16_29:
	movi	v4.16b, #46
	ldur	q5, [x11, #2]
	ldur	q6, [x11, #3]
	cmeq	v1.16b, v1.16b, v2.16b
	cmeq	v6.16b, v6.16b, v2.16b
	cmeq	v7.16b, v5.16b, v4.16b
	cmeq	v5.16b, v5.16b, v2.16b
	cmeq	v4.16b, v0.16b, v4.16b
	cmeq	v0.16b, v0.16b, v2.16b
	and	v1.16b, v1.16b, v3.16b
	and	v6.16b, v7.16b, v6.16b
	orr	v5.16b, v5.16b, v6.16b
	and	v4.16b, v4.16b, v5.16b
	orr	v0.16b, v0.16b, v4.16b
	and	v0.16b, v1.16b, v0.16b
	addp	v0.16b, v0.16b, v0.16b
	addp	v0.16b, v0.16b, v0.16b
	addp	v0.16b, v0.16b, v0.16b
	umov	w11, v0.h[0]
	orr	w11, w11, #0x10000
	rbit	w11, w11
	clz	w11, w11
	cmp	w11, #15
	b.ls	.Lunix_path_BB16_34
	add	x10, x10, #16
.Lunix_path_BB16_31:
	cmp	x10, x9
	b.hs	.Lunix_path_BB16_22
.Lunix_path_BB16_32:
	movi	v1.16b, #208
	add	x11, x19, x10
	movi	v2.16b, #47
	ldur	q0, [x11, #1]
	and	v3.16b, v0.16b, v1.16b
	ldr	q1, [x11]
	orr	v3.16b, v3.16b, v1.16b
	cmeq	v4.16b, v3.16b, v2.16b
	ldr	q3, [x21, :lo12:.Lunix_path_CPI16_0]
	and	v4.16b, v4.16b, v3.16b
	addp	v4.16b, v4.16b, v4.16b
	addp	v4.16b, v4.16b, v4.16b
	addp	v4.16b, v4.16b, v4.16b
	umov	w12, v4.h[0]
	cbnz	w12, .Lunix_path_BB16_29
	add	x10, x10, #16
	cmp	x10, x9
	b.lo	.Lunix_path_BB16_32
	b	.Lunix_path_BB16_31
.Lunix_path_BB16_34:
	add	x8, x10, w11, uxtw
	b	.Lunix_path_BB16_40
.Lunix_path_BB16_35:
	cbz	x9, .Lunix_path_BB16_42
	mov	x10, xzr
.Lunix_path_BB16_37:
	movi	v1.16b, #208
	add	x11, x19, x10
	movi	v5.16b, #47
	ldur	q2, [x11, #1]
	ldur	q3, [x11, #17]
	and	v2.16b, v2.16b, v1.16b
	and	v1.16b, v3.16b, v1.16b
	ldp	q3, q4, [x11]
	orr	v2.16b, v2.16b, v3.16b
	orr	v1.16b, v1.16b, v4.16b
	cmeq	v2.16b, v2.16b, v5.16b
	cmeq	v1.16b, v1.16b, v5.16b
	and	v2.16b, v2.16b, v0.16b
	and	v1.16b, v1.16b, v0.16b
	addp	v2.16b, v2.16b, v2.16b
	addp	v1.16b, v1.16b, v1.16b
	addp	v2.16b, v2.16b, v2.16b
	addp	v1.16b, v1.16b, v1.16b
	addp	v2.16b, v2.16b, v2.16b
	addp	v1.16b, v1.16b, v1.16b
	orr	v1.16b, v1.16b, v2.16b
	umov	w11, v1.h[0]
	cbnz	w11, .Lunix_path_BB16_19
	add	x10, x10, #32
	mov	w0, wzr
	cmp	x10, x9
	b.lo	.Lunix_path_BB16_37
	b	.Lunix_path_BB16_3
.Lunix_path_BB16_39:
	add	x8, x8, #16
.Lunix_path_BB16_40:
	cmp	x8, x20
	b.lo	.Lunix_path_BB16_98
.Lunix_path_BB16_41:
	cmp	x8, x20
	b.ne	.Lunix_path_BB16_43
.Lunix_path_BB16_42:
	mov	w0, wzr
	ldp	x20, x19, [sp, #32]
	ldp	x22, x21, [sp, #16]
	ldp	x29, x30, [sp], #48
	ret
.Lunix_path_BB16_43:
	ldrb	w8, [x19]
	cmp	w8, #47
	b.eq	.Lunix_path_BB16_46
	cmp	w8, #46
	b.ne	.Lunix_path_BB16_104
	cmp	x20, #1
	b.ne	.Lunix_path_BB16_105
.Lunix_path_BB16_46:
	mov	w22, #1
.Lunix_path_BB16_47:
	mov	x8, x20
	b	.Lunix_path_BB16_49
.Lunix_path_BB16_48:
	mov	x8, x1
	cbz	x1, .Lunix_path_BB16_42
.Lunix_path_BB16_49:
	subs	x1, x8, #1
	b.eq	.Lunix_path_BB16_55
	add	x9, x19, x1
	ldrb	w10, [x9]
	cmp	w10, #47
	b.eq	.Lunix_path_BB16_53
	cmp	w10, #46
	b.ne	.Lunix_path_BB16_55
	ldurb	w9, [x9, #-1]
	cmp	w9, #47
	b.ne	.Lunix_path_BB16_55
.Lunix_path_BB16_53:
	sub	x8, x20, x1
	cmp	x8, #8
	b.ne	.Lunix_path_BB16_48
	mov	x0, x19
	bl	unix_path.filler.trimmed_blocks_len
	mov	x1, x0
	b	.Lunix_path_BB16_48
.Lunix_path_BB16_55:
	mov	x9, xzr
	mov	x11, x8
	mov	x10, x19
	b	.Lunix_path_BB16_59
.Lunix_path_BB16_56:
	mov	x11, xzr
.Lunix_path_BB16_57:
	add	x11, x11, x12
.Lunix_path_BB16_58:
	add	x9, x11, x9
	mov	w22, wzr
	mov	w0, wzr
	subs	x11, x8, x9
	add	x10, x19, x9
	b.eq	.Lunix_path_BB16_3
.Lunix_path_BB16_59:
	tbz	w22, #0, .Lunix_path_BB16_67
	subs	x13, x11, #1
	b.eq	.Lunix_path_BB16_91
	mov	x12, xzr
	sub	x11, x11, #2
	b	.Lunix_path_BB16_63
.Lunix_path_BB16_62:
	add	x12, x12, #1
	cmp	x13, x12
	b.eq	.Lunix_path_BB16_89
.Lunix_path_BB16_63:
	add	x14, x10, x12
	ldrb	w14, [x14, #1]
	cmp	w14, #47
	b.eq	.Lunix_path_BB16_62
	cmp	w14, #46
	b.ne	.Lunix_path_BB16_90
	cmp	x11, x12
	b.eq	.Lunix_path_BB16_89
	add	x14, x10, x12
	ldrb	w14, [x14, #2]
	cmp	w14, #47
	b.eq	.Lunix_path_BB16_62
	b	.Lunix_path_BB16_90
.Lunix_path_BB16_67:
	cmp	x11, #1
	b.eq	.Lunix_path_BB16_72
	ldrb	w12, [x10]
	cmp	w12, #46
	b.ne	.Lunix_path_BB16_72
	ldrb	w12, [x10, #1]
	cmp	w12, #46
	b.ne	.Lunix_path_BB16_72
	cmp	x11, #2
	b.eq	.Lunix_path_BB16_94
	ldrb	w12, [x10, #2]
	cmp	w12, #47
	b.eq	.Lunix_path_BB16_94
.Lunix_path_BB16_72:
	cmp	x11, #15
	b.hi	.Lunix_path_BB16_77
	mov	x12, xzr
.Lunix_path_BB16_74:
	ldrb	w13, [x10, x12]
	cmp	w13, #47
	b.eq	.Lunix_path_BB16_82
	add	x12, x12, #1
	cmp	x11, x12
	b.ne	.Lunix_path_BB16_74
	mov	x12, x11
	subs	x13, x11, x11
	b.ne	.Lunix_path_BB16_83
	b	.Lunix_path_BB16_56
.Lunix_path_BB16_77:
	subs	x12, x11, #16
	b.eq	.Lunix_path_BB16_81
	mov	x13, xzr
.Lunix_path_BB16_79:
	movi	v0.16b, #47
	ldr	q1, [x10, x13]
	cmeq	v0.16b, v1.16b, v0.16b
	ldr	q1, [x21, :lo12:.Lunix_path_CPI16_0]
	and	v0.16b, v0.16b, v1.16b
	addp	v0.16b, v0.16b, v0.16b
	addp	v0.16b, v0.16b, v0.16b
	addp	v0.16b, v0.16b, v0.16b
	umov	w14, v0.h[0]
	orr	w14, w14, #0x10000
	rbit	w14, w14
	clz	w14, w14
	cmp	w14, #15
	b.ls	.Lunix_path_BB16_93
	add	x13, x13, #16
	cmp	x13, x12
	b.lo	.Lunix_path_BB16_79
.Lunix_path_BB16_81:
	movi	v0.16b, #47
	ldr	q1, [x10, x12]
	cmeq	v0.16b, v1.16b, v0.16b
	ldr	q1, [x21, :lo12:.Lunix_path_CPI16_0]
	and	v0.16b, v0.16b, v1.16b
	addp	v0.16b, v0.16b, v0.16b
	addp	v0.16b, v0.16b, v0.16b
	addp	v0.16b, v0.16b, v0.16b
	umov	w13, v0.h[0]
	orr	w13, w13, #0x10000
	rbit	w13, w13
	clz	w13, w13
	add	x12, x12, x13
.Lunix_path_BB16_82:
	subs	x13, x11, x12
	b.eq	.Lunix_path_BB16_56
.Lunix_path_BB16_83:
	mov	x11, xzr
	add	x10, x10, x12
	sub	x14, x13, #1
	b	.Lunix_path_BB16_85
.Lunix_path_BB16_84:
	add	x11, x11, #1
	cmp	x13, x11
	b.eq	.Lunix_path_BB16_92
.Lunix_path_BB16_85:
	ldrb	w15, [x10, x11]
	cmp	w15, #47
	b.eq	.Lunix_path_BB16_84
	cmp	w15, #46
	b.ne	.Lunix_path_BB16_57
	cmp	x14, x11
	b.eq	.Lunix_path_BB16_92
	add	x15, x10, x11
	ldrb	w15, [x15, #1]
	cmp	w15, #47
	b.eq	.Lunix_path_BB16_84
	b	.Lunix_path_BB16_57
.Lunix_path_BB16_89:
	mov	x12, x13
.Lunix_path_BB16_90:
	add	x11, x12, #1
.Lunix_path_BB16_91:
	ldrb	w10, [x10]
	cmp	w10, #47
	b.ne	.Lunix_path_BB16_58
	b	.Lunix_path_BB16_94
.Lunix_path_BB16_92:
	mov	x11, x13
	b	.Lunix_path_BB16_57
.Lunix_path_BB16_93:
	add	x12, x13, w14, uxtw
	subs	x13, x11, x12
	b.ne	.Lunix_path_BB16_83
	b	.Lunix_path_BB16_56
.Lunix_path_BB16_94:
	mov	w0, #1
	ldp	x20, x19, [sp, #32]
	ldp	x22, x21, [sp, #16]
	ldp	x29, x30, [sp], #48
	ret
.Lunix_path_BB16_95:
	add	x10, x19, x8
	ldrb	w10, [x10, #3]
.Lunix_path_BB16_96:
	cmp	w10, #47
	b.eq	.Lunix_path_BB16_41
.Lunix_path_BB16_97:
	mov	w0, wzr
	cmp	x9, x20
	mov	x8, x9
	b.hs	.Lunix_path_BB16_3
.Lunix_path_BB16_98:
	ldrb	w9, [x19, x8]
	cmp	w9, #47
	add	x9, x8, #1
	b.ne	.Lunix_path_BB16_97
	cmp	x20, x9
	b.ls	.Lunix_path_BB16_41
	add	x10, x19, x8
	ldrb	w10, [x10, #1]
	cmp	w10, #46
	b.ne	.Lunix_path_BB16_96
	add	x10, x8, #2
	cmp	x20, x10
	b.ls	.Lunix_path_BB16_41
	add	x10, x19, x8
	ldrb	w10, [x10, #2]
	cmp	w10, #46
	b.ne	.Lunix_path_BB16_96
	add	x10, x8, #3
	cmp	x20, x10
	b.hi	.Lunix_path_BB16_95
	b	.Lunix_path_BB16_41
.Lunix_path_BB16_104:
	mov	w22, wzr
	b	.Lunix_path_BB16_47
.Lunix_path_BB16_105:
	ldrb	w8, [x19, #1]
	cmp	w8, #47
	cset	w22, eq
	b	.Lunix_path_BB16_47
.Lunix_path_func_end16:
	.size	path_archive.outlined.has_root_or_parent_dir, .Lunix_path_func_end16-path_archive.outlined.has_root_or_parent_dir
	.section	.rodata.cst16,"aM",@progbits,16
	.p2align	4, 0x0
.Lunix_path_CPI17_0:
	.byte	1
	.byte	2
	.byte	4
	.byte	8
	.byte	16
	.byte	32
	.byte	64
	.byte	128
	.byte	1
	.byte	2
	.byte	4
	.byte	8
	.byte	16
	.byte	32
	.byte	64
	.byte	128
	.section	.rodata.cst8,"aM",@progbits,8
	.p2align	3, 0x0
.Lunix_path_CPI17_1:
	.byte	1
	.byte	2
	.byte	4
	.byte	8
	.byte	16
	.byte	32
	.byte	64
	.byte	128
	.section	.text.path_within.check.check_escape,"ax",@progbits
	.p2align	2
	.type	path_within.check.check_escape,@function
// path_within::check::check_escape
path_within.check.check_escape:
	cbz	x1, .Lunix_path_BB17_4
	stp	x29, x30, [sp, #-48]!
	ldrb	w8, [x0]
	stp	x20, x19, [sp, #32]
	mov	x19, x0
	stp	x22, x21, [sp, #16]
	mov	x29, sp
	cmp	w8, #47
	b.ne	.Lunix_path_BB17_5
	mov	w0, wzr
.Lunix_path_BB17_3:
	ldp	x20, x19, [sp, #32]
	ldp	x22, x21, [sp, #16]
	ldp	x29, x30, [sp], #48
	ret
.Lunix_path_BB17_4:
	mov	w0, #2
	ret
.Lunix_path_BB17_5:
	ldrb	w8, [x19]
	mov	x20, x1
	adrp	x21, .Lunix_path_CPI17_0
	cmp	w8, #47
	b.eq	.Lunix_path_BB17_13
	cmp	w8, #46
	b.ne	.Lunix_path_BB17_12
	cmp	x20, #1
	b.eq	.Lunix_path_BB17_13
	ldrb	w9, [x19, #1]
	cmp	w9, #47
	b.eq	.Lunix_path_BB17_13
	cmp	w9, #46
	b.ne	.Lunix_path_BB17_12
	cmp	x20, #2
	b.eq	.Lunix_path_BB17_13
	ldrb	w9, [x19, #2]
	cmp	w9, #47
	b.eq	.Lunix_path_BB17_13
.Lunix_path_BB17_12:
	add	x11, x19, x20
	ldurb	w9, [x11, #-1]
	and	w9, w9, #0xfe
	cmp	w9, #46
	b.ne	.Lunix_path_BB17_19
.Lunix_path_BB17_13:
	ldrb	w8, [x19]
.Lunix_path_BB17_14:
	and	w8, w8, #0xff
	cmp	w8, #47
	b.eq	.Lunix_path_BB17_17
	cmp	w8, #46
	b.ne	.Lunix_path_BB17_18
	cmp	x20, #1
	b.ne	.Lunix_path_BB17_22
.Lunix_path_BB17_17:
	mov	w22, #1
	b	.Lunix_path_BB17_23
.Lunix_path_BB17_18:
	mov	w22, wzr
	b	.Lunix_path_BB17_23
.Lunix_path_BB17_19:
	subs	x9, x20, #17
	b.hs	.Lunix_path_BB17_82
.Lunix_path_BB17_20:
	cmp	x20, #9
	b.hs	.Lunix_path_BB17_90
	mov	x9, xzr
	b	.Lunix_path_BB17_106
.Lunix_path_BB17_22:
	ldrb	w8, [x19, #1]
	cmp	w8, #47
	cset	w22, eq
.Lunix_path_BB17_23:
	mov	x8, x20
	b	.Lunix_path_BB17_25
.Lunix_path_BB17_24:
	mov	x8, x1
	cbz	x1, .Lunix_path_BB17_80
.Lunix_path_BB17_25:
	subs	x1, x8, #1
	b.eq	.Lunix_path_BB17_31
	add	x9, x19, x1
	ldrb	w10, [x9]
	cmp	w10, #47
	b.eq	.Lunix_path_BB17_29
	cmp	w10, #46
	b.ne	.Lunix_path_BB17_31
	ldurb	w9, [x9, #-1]
	cmp	w9, #47
	b.ne	.Lunix_path_BB17_31
.Lunix_path_BB17_29:
	sub	x8, x20, x1
	cmp	x8, #8
	b.ne	.Lunix_path_BB17_24
	mov	x0, x19
	bl	unix_path.filler.trimmed_blocks_len
	mov	x1, x0
	b	.Lunix_path_BB17_24
.Lunix_path_BB17_31:
	mov	x9, xzr
	mov	x10, xzr
	mov	x12, x8
	mov	x11, x19
	b	.Lunix_path_BB17_35
.Lunix_path_BB17_32:
	mov	x12, xzr
.Lunix_path_BB17_33:
	add	x12, x12, x13
	add	x9, x9, #1
.Lunix_path_BB17_34:
	add	x10, x12, x10
	mov	w22, wzr
	subs	x12, x8, x10
	add	x11, x19, x10
	b.eq	.Lunix_path_BB17_80
.Lunix_path_BB17_35:
	tbz	w22, #0, .Lunix_path_BB17_43
	subs	x14, x12, #1
	b.eq	.Lunix_path_BB17_73
	mov	x13, xzr
	sub	x12, x12, #2
	b	.Lunix_path_BB17_39
.Lunix_path_BB17_38:
	add	x13, x13, #1
	cmp	x14, x13
	b.eq	.Lunix_path_BB17_71
.Lunix_path_BB17_39:
	add	x15, x11, x13
	ldrb	w15, [x15, #1]
	cmp	w15, #47
	b.eq	.Lunix_path_BB17_38
	cmp	w15, #46
	b.ne	.Lunix_path_BB17_72
	cmp	x12, x13
	b.eq	.Lunix_path_BB17_71
	add	x15, x11, x13
	ldrb	w15, [x15, #2]
	cmp	w15, #47
	b.eq	.Lunix_path_BB17_38
	b	.Lunix_path_BB17_72
.Lunix_path_BB17_43:
	cmp	x12, #1
	b.eq	.Lunix_path_BB17_49
	ldrb	w13, [x11]
	cmp	w13, #46
	b.ne	.Lunix_path_BB17_49
	ldrb	w13, [x11, #1]
	cmp	w13, #46
	b.ne	.Lunix_path_BB17_49
	subs	x14, x12, #2
	b.eq	.Lunix_path_BB17_78
	ldrb	w13, [x11, #2]
	cmp	w13, #47
	b.ne	.Lunix_path_BB17_49
	mov	x13, xzr
	sub	x12, x12, #3
	b	.Lunix_path_BB17_55
.Lunix_path_BB17_49:
	cmp	x12, #15
	b.hi	.Lunix_path_BB17_59
	mov	x13, xzr
.Lunix_path_BB17_51:
	ldrb	w14, [x11, x13]
	cmp	w14, #47
	b.eq	.Lunix_path_BB17_64
	add	x13, x13, #1
	cmp	x12, x13
	b.ne	.Lunix_path_BB17_51
	mov	x13, x12
	subs	x14, x12, x12
	b.ne	.Lunix_path_BB17_65
	b	.Lunix_path_BB17_32
.Lunix_path_BB17_54:
	add	x13, x13, #1
	cmp	x14, x13
	b.eq	.Lunix_path_BB17_76
.Lunix_path_BB17_55:
	add	x15, x11, x13
	ldrb	w15, [x15, #2]
	cmp	w15, #47
	b.eq	.Lunix_path_BB17_54
	cmp	w15, #46
	b.ne	.Lunix_path_BB17_77
	cmp	x12, x13
	b.eq	.Lunix_path_BB17_76
	add	x15, x11, x13
	ldrb	w15, [x15, #3]
	cmp	w15, #47
	b.eq	.Lunix_path_BB17_54
	b	.Lunix_path_BB17_77
.Lunix_path_BB17_59:
	subs	x13, x12, #16
	b.eq	.Lunix_path_BB17_63
	mov	x14, xzr
.Lunix_path_BB17_61:
	movi	v0.16b, #47
	ldr	q1, [x11, x14]
	cmeq	v0.16b, v1.16b, v0.16b
	ldr	q1, [x21, :lo12:.Lunix_path_CPI17_0]
	and	v0.16b, v0.16b, v1.16b
	addp	v0.16b, v0.16b, v0.16b
	addp	v0.16b, v0.16b, v0.16b
	addp	v0.16b, v0.16b, v0.16b
	umov	w15, v0.h[0]
	orr	w15, w15, #0x10000
	rbit	w15, w15
	clz	w15, w15
	cmp	w15, #15
	b.ls	.Lunix_path_BB17_75
	add	x14, x14, #16
	cmp	x14, x13
	b.lo	.Lunix_path_BB17_61
.Lunix_path_BB17_63:
	movi	v0.16b, #47
	ldr	q1, [x11, x13]
	cmeq	v0.16b, v1.16b, v0.16b
	ldr	q1, [x21, :lo12:.Lunix_path_CPI17_0]
	and	v0.16b, v0.16b, v1.16b
	addp	v0.16b, v0.16b, v0.16b
	addp	v0.16b, v0.16b, v0.16b
	addp	v0.16b, v0.16b, v0.16b
	umov	w14, v0.h[0]
	orr	w14, w14, #0x10000
	rbit	w14, w14
	clz	w14, w14
	add	x13, x13, x14
.Lunix_path_BB17_64:
	subs	x14, x12, x13
	b.eq	.Lunix_path_BB17_32
.Lunix_path_BB17_65:
	mov	x12, xzr
	add	x11, x11, x13
	sub	x15, x14, #1
	b	.Lunix_path_BB17_67
.Lunix_path_BB17_66:
	add	x12, x12, #1
	cmp	x14, x12
	b.eq	.Lunix_path_BB17_74
.Lunix_path_BB17_67:
	ldrb	w16, [x11, x12]
	cmp	w16, #47
	b.eq	.Lunix_path_BB17_66
	cmp	w16, #46
	b.ne	.Lunix_path_BB17_33
	cmp	x15, x12
	b.eq	.Lunix_path_BB17_74
	add	x16, x11, x12
	ldrb	w16, [x16, #1]
	cmp	w16, #47
	b.eq	.Lunix_path_BB17_66
	b	.Lunix_path_BB17_33
.Lunix_path_BB17_71:
	mov	x13, x14
.Lunix_path_BB17_72:
	add	x12, x13, #1
.Lunix_path_BB17_73:
	ldrb	w11, [x11]
	cmp	w11, #47
	b.ne	.Lunix_path_BB17_34
	b	.Lunix_path_BB17_81
.Lunix_path_BB17_74:
	mov	x12, x14
	b	.Lunix_path_BB17_33
.Lunix_path_BB17_75:
	add	x13, x14, w15, uxtw
	subs	x14, x12, x13
	b.ne	.Lunix_path_BB17_65
	b	.Lunix_path_BB17_32
.Lunix_path_BB17_76:
	mov	x13, x14
.Lunix_path_BB17_77:
	add	x12, x13, #2
.Lunix_path_BB17_78:
	cbz	x9, .Lunix_path_BB17_81
	sub	x9, x9, #1
	b	.Lunix_path_BB17_34
.Lunix_path_BB17_80:
	mov	w0, #2
	ldp	x20, x19, [sp, #32]
	ldp	x22, x21, [sp, #16]
	ldp	x29, x30, [sp], #48
	ret
.Lunix_path_BB17_81:
	mov	w0, wzr
	ldp	x20, x19, [sp, #32]
	ldp	x22, x21, [sp, #16]
	ldp	x29, x30, [sp], #48
	ret
.Lunix_path_BB17_82:
	cmp	x20, #32
	b.hi	.Lunix_path_BB17_92
	movi	v0.16b, #208
	ldur	q1, [x19, #1]
	ldr	q3, [x19]
	umov	w8, v3.b[0]
	and	v2.16b, v1.16b, v0.16b
	movi	v1.16b, #47
	orr	v2.16b, v2.16b, v3.16b
	cmeq	v4.16b, v2.16b, v1.16b
	ldr	q2, [x21, :lo12:.Lunix_path_CPI17_0]
	and	v4.16b, v4.16b, v2.16b
	addp	v4.16b, v4.16b, v4.16b
	addp	v4.16b, v4.16b, v4.16b
	addp	v4.16b, v4.16b, v4.16b
	umov	w10, v4.h[0]
	cbnz	w10, .Lunix_path_BB17_85
	ldur	q3, [x11, #-16]
	and	v0.16b, v3.16b, v0.16b
	ldur	q3, [x11, #-17]
	orr	v0.16b, v0.16b, v3.16b
	cmeq	v0.16b, v0.16b, v1.16b
	and	v0.16b, v0.16b, v2.16b
	addp	v0.16b, v0.16b, v0.16b
	addp	v0.16b, v0.16b, v0.16b
	addp	v0.16b, v0.16b, v0.16b
	umov	w10, v0.h[0]
	cbz	w10, .Lunix_path_BB17_108
.Lunix_path_BB17_85:
	cmp	x20, #18
	b.ls	.Lunix_path_BB17_20
	subs	x10, x20, #19
	b.ne	.Lunix_path_BB17_94
	mov	x11, xzr
.Lunix_path_BB17_88:
	cmp	x9, x11
	movi	v0.16b, #208
	csel	x9, x9, x11, lo
	add	x11, x19, x9
	ldur	q1, [x11, #1]
	ldr	q2, [x11]
	and	v1.16b, v1.16b, v0.16b
	movi	v0.16b, #47
	orr	v1.16b, v1.16b, v2.16b
	cmeq	v2.16b, v1.16b, v0.16b
	ldr	q1, [x21, :lo12:.Lunix_path_CPI17_0]
	and	v2.16b, v2.16b, v1.16b
	addp	v2.16b, v2.16b, v2.16b
	addp	v2.16b, v2.16b, v2.16b
	addp	v2.16b, v2.16b, v2.16b
	umov	w11, v2.h[0]
	cbz	w11, .Lunix_path_BB17_105
	movi	v2.16b, #46
	add	x9, x19, x10
	ldur	q3, [x9, #2]
	ldur	q4, [x9, #3]
	cmeq	v4.16b, v4.16b, v0.16b
	cmeq	v5.16b, v3.16b, v2.16b
	cmeq	v3.16b, v3.16b, v0.16b
	and	v4.16b, v5.16b, v4.16b
	ldur	q5, [x9, #1]
	cmeq	v2.16b, v5.16b, v2.16b
	orr	v3.16b, v3.16b, v4.16b
	ldr	q4, [x9]
	and	v2.16b, v2.16b, v3.16b
	cmeq	v3.16b, v4.16b, v0.16b
	cmeq	v0.16b, v5.16b, v0.16b
	orr	v0.16b, v0.16b, v2.16b
	and	v1.16b, v3.16b, v1.16b
	and	v0.16b, v1.16b, v0.16b
	addp	v0.16b, v0.16b, v0.16b
	addp	v0.16b, v0.16b, v0.16b
	addp	v0.16b, v0.16b, v0.16b
	umov	w9, v0.h[0]
	orr	w9, w9, #0x10000
	rbit	w9, w9
	clz	w9, w9
	add	x9, x10, x9
	b	.Lunix_path_BB17_106
.Lunix_path_BB17_90:
	movi	v0.8b, #254
	movi	v1.8b, #47
	ldr	d4, [x19]
	ldur	d3, [x19, #1]
	movi	v2.8b, #46
	adrp	x8, .Lunix_path_CPI17_1
	and	v5.8b, v3.8b, v0.8b
	cmeq	v6.8b, v4.8b, v1.8b
	ldr	d3, [x8, :lo12:.Lunix_path_CPI17_1]
	cmeq	v5.8b, v5.8b, v2.8b
	and	v6.8b, v6.8b, v3.8b
	and	v5.8b, v6.8b, v5.8b
	addv	b5, v5.8b
	fmov	w8, s5
	orr	w8, w8, #0x100
	rbit	w9, w8
	umov	w8, v4.b[0]
	clz	w9, w9
	cmp	w9, #8
	b.lo	.Lunix_path_BB17_106
	cmp	x20, #17
	mov	w9, #17
	csel	x9, x20, x9, lo
	sub	x9, x9, #9
	add	x10, x19, x9
	ldr	d4, [x10]
	ldur	d5, [x10, #1]
	and	v0.8b, v5.8b, v0.8b
	cmeq	v1.8b, v4.8b, v1.8b
	cmeq	v0.8b, v0.8b, v2.8b
	and	v1.8b, v1.8b, v3.8b
	and	v0.8b, v1.8b, v0.8b
	addv	b0, v0.8b
	fmov	w10, s0
	orr	w10, w10, #0x100
	rbit	w10, w10
	clz	w10, w10
	add	x9, x9, x10
	b	.Lunix_path_BB17_106
.Lunix_path_BB17_92:
	sub	x10, x20, #33
	movi	v0.16b, #208
	ldur	q2, [x11, #-16]
	add	x12, x19, x10
	ldur	q3, [x11, #-17]
	movi	v4.16b, #47
	ldur	q1, [x12, #1]
	and	v1.16b, v1.16b, v0.16b
	and	v0.16b, v2.16b, v0.16b
	ldr	q2, [x12]
	orr	v1.16b, v1.16b, v2.16b
	orr	v0.16b, v0.16b, v3.16b
	cmeq	v1.16b, v1.16b, v4.16b
	cmeq	v2.16b, v0.16b, v4.16b
	ldr	q0, [x21, :lo12:.Lunix_path_CPI17_0]
	and	v1.16b, v1.16b, v0.16b
	and	v2.16b, v2.16b, v0.16b
	addp	v1.16b, v1.16b, v1.16b
	addp	v2.16b, v2.16b, v2.16b
	addp	v1.16b, v1.16b, v1.16b
	addp	v2.16b, v2.16b, v2.16b
	addp	v1.16b, v1.16b, v1.16b
	addp	v2.16b, v2.16b, v2.16b
	orr	v1.16b, v2.16b, v1.16b
	umov	w11, v1.h[0]
	cbz	w11, .Lunix_path_BB17_101
	sub	x10, x20, #19
.Lunix_path_BB17_94:
	mov	x11, xzr
	b	.Lunix_path_BB17_98
.Lunix_path_BB17_95:
	movi	v4.16b, #46
	ldur	q5, [x12, #2]
	ldur	q6, [x12, #3]
	cmeq	v1.16b, v1.16b, v2.16b
	cmeq	v6.16b, v6.16b, v2.16b
	cmeq	v7.16b, v5.16b, v4.16b
	cmeq	v5.16b, v5.16b, v2.16b
	cmeq	v4.16b, v0.16b, v4.16b
	cmeq	v0.16b, v0.16b, v2.16b
	and	v1.16b, v1.16b, v3.16b
	and	v6.16b, v7.16b, v6.16b
	orr	v5.16b, v5.16b, v6.16b
	and	v4.16b, v4.16b, v5.16b
	orr	v0.16b, v0.16b, v4.16b
	and	v0.16b, v1.16b, v0.16b
	addp	v0.16b, v0.16b, v0.16b
	addp	v0.16b, v0.16b, v0.16b
	addp	v0.16b, v0.16b, v0.16b
	umov	w12, v0.h[0]
	orr	w12, w12, #0x10000
	rbit	w12, w12
	clz	w12, w12
	cmp	w12, #15
	b.ls	.Lunix_path_BB17_100
	add	x11, x11, #16
.Lunix_path_BB17_97:
	cmp	x11, x10
	b.hs	.Lunix_path_BB17_88
.Lunix_path_BB17_98:
	movi	v1.16b, #208
	add	x12, x19, x11
	movi	v2.16b, #47
	ldur	q0, [x12, #1]
	and	v3.16b, v0.16b, v1.16b
	ldr	q1, [x12]
	orr	v3.16b, v3.16b, v1.16b
	cmeq	v4.16b, v3.16b, v2.16b
	ldr	q3, [x21, :lo12:.Lunix_path_CPI17_0]
	and	v4.16b, v4.16b, v3.16b
	addp	v4.16b, v4.16b, v4.16b
	addp	v4.16b, v4.16b, v4.16b
	addp	v4.16b, v4.16b, v4.16b
	umov	w13, v4.h[0]
	cbnz	w13, .Lunix_path_BB17_95
	add	x11, x11, #16
	cmp	x11, x10
	b.lo	.Lunix_path_BB17_98
	b	.Lunix_path_BB17_97
.Lunix_path_BB17_100:
	add	x9, x11, w12, uxtw
	b	.Lunix_path_BB17_106
.Lunix_path_BB17_101:
	cbz	x10, .Lunix_path_BB17_108
	mov	x11, xzr
.Lunix_path_BB17_103:
	movi	v1.16b, #208
	add	x12, x19, x11
	movi	v5.16b, #47
	ldur	q2, [x12, #1]
	ldur	q3, [x12, #17]
	and	v2.16b, v2.16b, v1.16b
	and	v1.16b, v3.16b, v1.16b
	ldp	q3, q4, [x12]
	orr	v2.16b, v2.16b, v3.16b
	orr	v1.16b, v1.16b, v4.16b
	cmeq	v2.16b, v2.16b, v5.16b
	cmeq	v1.16b, v1.16b, v5.16b
	and	v2.16b, v2.16b, v0.16b
	and	v1.16b, v1.16b, v0.16b
	addp	v2.16b, v2.16b, v2.16b
	addp	v1.16b, v1.16b, v1.16b
	addp	v2.16b, v2.16b, v2.16b
	addp	v1.16b, v1.16b, v1.16b
	addp	v2.16b, v2.16b, v2.16b
	addp	v1.16b, v1.16b, v1.16b
	orr	v1.16b, v1.16b, v2.16b
	umov	w12, v1.h[0]
	cbnz	w12, .Lunix_path_BB17_85
	add	x11, x11, #32
	mov	w0, #1
	cmp	x11, x10
	b.lo	.Lunix_path_BB17_103
	b	.Lunix_path_BB17_3
.Lunix_path_BB17_105:
	add	x9, x9, #16
.Lunix_path_BB17_106:
	cmp	x9, x20
	b.lo	.Lunix_path_BB17_112
.Lunix_path_BB17_107:
	cmp	x9, x20
	b.ne	.Lunix_path_BB17_14
.Lunix_path_BB17_108:
	mov	w0, #1
	ldp	x20, x19, [sp, #32]
	ldp	x22, x21, [sp, #16]
	ldp	x29, x30, [sp], #48
	ret
.Lunix_path_BB17_109:
	add	x11, x19, x9
	ldrb	w11, [x11, #3]
.Lunix_path_BB17_110:
	cmp	w11, #47
	b.eq	.Lunix_path_BB17_107
.Lunix_path_BB17_111:
	cmp	x10, x20
	mov	w0, #1
	mov	x9, x10
	b.hs	.Lunix_path_BB17_3
.Lunix_path_BB17_112:
	ldrb	w10, [x19, x9]
	cmp	w10, #47
	add	x10, x9, #1
	b.ne	.Lunix_path_BB17_111
	cmp	x20, x10
	b.ls	.Lunix_path_BB17_107
	add	x11, x19, x9
	ldrb	w11, [x11, #1]
	cmp	w11, #46
	b.ne	.Lunix_path_BB17_110
	add	x11, x9, #2
	cmp	x20, x11
	b.ls	.Lunix_path_BB17_107
	add	x11, x19, x9
	ldrb	w11, [x11, #2]
	cmp	w11, #46
	b.ne	.Lunix_path_BB17_110
	add	x11, x9, #3
	cmp	x20, x11
	b.hi	.Lunix_path_BB17_109
	b	.Lunix_path_BB17_107
.Lunix_path_func_end17:
	.size	path_within.check.check_escape, .Lunix_path_func_end17-path_within.check.check_escape
	.section	.rodata.cst16,"aM",@progbits,16
	.p2align	4, 0x0
.Lunix_path_CPI18_0:
	.byte	1
	.byte	2
	.byte	4
	.byte	8
	.byte	16
	.byte	32
	.byte	64
	.byte	128
	.byte	1
	.byte	2
	.byte	4
	.byte	8
	.byte	16
	.byte	32
	.byte	64
	.byte	128
	.section	.text.unix_path.path.Path.file_name,"ax",@progbits
	.p2align	2
	.type	unix_path.path.Path.file_name,@function
// unix_path::path::Path::file_name
unix_path.path.Path.file_name:
	stp	x29, x30, [sp, #-64]!
	stp	x20, x19, [sp, #48]
	mov	x19, x0
	mov	x29, sp
	str	x23, [sp, #16]
	stp	x22, x21, [sp, #32]
	cbz	x2, .Lunix_path_BB18_9
	mov	x21, x2
	mov	x20, x1
	mov	x22, x2
	b	.Lunix_path_BB18_3
.Lunix_path_BB18_2:
	mov	x22, x1
	cbz	x1, .Lunix_path_BB18_9
.Lunix_path_BB18_3:
	subs	x1, x22, #1
	b.eq	.Lunix_path_BB18_10
	add	x8, x20, x1
	ldrb	w9, [x8]
	cmp	w9, #47
	b.eq	.Lunix_path_BB18_7
	cmp	w9, #46
	b.ne	.Lunix_path_BB18_12
	ldurb	w8, [x8, #-1]
	cmp	w8, #47
	b.ne	.Lunix_path_BB18_12
.Lunix_path_BB18_7:
	sub	x8, x21, x1
	cmp	x8, #8
	b.ne	.Lunix_path_BB18_2
	mov	x0, x20
	bl	unix_path.filler.trimmed_blocks_len
	mov	x1, x0
	b	.Lunix_path_BB18_2
.Lunix_path_BB18_9:
	stp	xzr, xzr, [x19]
	str	xzr, [x19, #16]
	ldp	x20, x19, [sp, #48]
	ldr	x23, [sp, #16]
	ldp	x22, x21, [sp, #32]
	ldp	x29, x30, [sp], #64
	ret
.Lunix_path_BB18_10:
	ldrb	w8, [x20]
	cmp	w8, #46
	b.ne	.Lunix_path_BB18_24
.Lunix_path_BB18_11:
	mov	x21, xzr
	mov	x22, xzr
	mov	x8, xzr
	b	.Lunix_path_BB18_44
.Lunix_path_BB18_12:
	add	x8, x20, x22
	ldurb	w9, [x8, #-1]
	cmp	w9, #46
	b.ne	.Lunix_path_BB18_25
	ldurb	w9, [x8, #-2]
	cmp	w9, #46
	b.ne	.Lunix_path_BB18_25
	subs	x23, x22, #2
	b.eq	.Lunix_path_BB18_11
	ldurb	w8, [x8, #-3]
	cmp	w8, #47
	b.ne	.Lunix_path_BB18_25
	mov	x1, x23
	b	.Lunix_path_BB18_18
.Lunix_path_BB18_17:
	mov	x21, xzr
	mov	x22, xzr
	mov	x8, xzr
	cbz	x1, .Lunix_path_BB18_44
.Lunix_path_BB18_18:
	subs	x1, x1, #1
	b.eq	.Lunix_path_BB18_11
	add	x8, x20, x1
	ldrb	w9, [x8]
	cmp	w9, #47
	b.eq	.Lunix_path_BB18_22
	cmp	w9, #46
	b.ne	.Lunix_path_BB18_11
	ldurb	w8, [x8, #-1]
	cmp	w8, #47
	b.ne	.Lunix_path_BB18_11
.Lunix_path_BB18_22:
	sub	x8, x23, x1
	cmp	x8, #8
	b.ne	.Lunix_path_BB18_17
	mov	x0, x20
	bl	unix_path.filler.trimmed_blocks_len
	mov	x1, x0
	b	.Lunix_path_BB18_17
.Lunix_path_BB18_24:
	mov	w22, #1
.Lunix_path_BB18_25:
	mov	x8, x22
.Lunix_path_BB18_26:
	cmp	x8, #15
	b.ls	.Lunix_path_BB18_30
	movi	v0.16b, #47
	add	x9, x20, x8
	ldur	q1, [x9, #-16]
	adrp	x9, .Lunix_path_CPI18_0
	cmeq	v0.16b, v1.16b, v0.16b
	ldr	q1, [x9, :lo12:.Lunix_path_CPI18_0]
	sub	x9, x8, #16
	mov	x8, x9
	and	v0.16b, v0.16b, v1.16b
	addp	v0.16b, v0.16b, v0.16b
	addp	v0.16b, v0.16b, v0.16b
	addp	v0.16b, v0.16b, v0.16b
	umov	w10, v0.h[0]
	cbz	w10, .Lunix_path_BB18_26
	umov	w8, v0.h[0]
	and	x8, x8, #0xffff
	clz	x8, x8
	sub	x8, x9, x8
	add	x23, x8, #64
	subs	x22, x22, x23
	b.ne	.Lunix_path_BB18_34
.Lunix_path_BB18_29:
	mov	x21, xzr
	mov	x8, xzr
	b	.Lunix_path_BB18_44
.Lunix_path_BB18_30:
	sub	x8, x8, #1
.Lunix_path_BB18_31:
	cmn	x8, #1
	b.eq	.Lunix_path_BB18_43
	ldrb	w9, [x20, x8]
	sub	x8, x8, #1
	cmp	w9, #47
	b.ne	.Lunix_path_BB18_31
	add	x23, x8, #2
	subs	x22, x22, x23
	b.eq	.Lunix_path_BB18_29
.Lunix_path_BB18_34:
	add	x21, x20, x23
	mov	x1, x23
	b	.Lunix_path_BB18_36
.Lunix_path_BB18_35:
	cbz	x1, .Lunix_path_BB18_42
.Lunix_path_BB18_36:
	subs	x1, x1, #1
	b.eq	.Lunix_path_BB18_42
	add	x8, x20, x1
	ldrb	w9, [x8]
	cmp	w9, #47
	b.eq	.Lunix_path_BB18_40
	cmp	w9, #46
	b.ne	.Lunix_path_BB18_42
	ldurb	w8, [x8, #-1]
	cmp	w8, #47
	b.ne	.Lunix_path_BB18_42
.Lunix_path_BB18_40:
	sub	x8, x23, x1
	cmp	x8, #8
	b.ne	.Lunix_path_BB18_35
	mov	x0, x20
	bl	unix_path.filler.trimmed_blocks_len
	mov	x1, x0
	b	.Lunix_path_BB18_35
.Lunix_path_BB18_42:
	mov	w8, #1
	b	.Lunix_path_BB18_44
.Lunix_path_BB18_43:
	mov	w8, #1
	mov	x21, x20
.Lunix_path_BB18_44:
	stp	x8, x21, [x19]
	str	x22, [x19, #16]
	ldp	x20, x19, [sp, #48]
	ldr	x23, [sp, #16]
	ldp	x22, x21, [sp, #32]
	ldp	x29, x30, [sp], #64
	ret
.Lunix_path_func_end18:
	.size	unix_path.path.Path.file_name, .Lunix_path_func_end18-unix_path.path.Path.file_name
	.section	.rodata.cst16,"aM",@progbits,16
	.p2align	4, 0x0
.Lunix_path_CPI19_0:
	.byte	1
	.byte	2
	.byte	4
	.byte	8
	.byte	16
	.byte	32
	.byte	64
	.byte	128
	.byte	1
	.byte	2
	.byte	4
	.byte	8
	.byte	16
	.byte	32
	.byte	64
	.byte	128
	.section	.text.unix_path.suffixes.ends_with_parts,"ax",@progbits
	.p2align	2
	.type	unix_path.suffixes.ends_with_parts,@function
// unix_path::suffixes::ends_with_parts
unix_path.suffixes.ends_with_parts:
	stp	x29, x30, [sp, #-96]!
	stp	x22, x21, [sp, #64]
	mov	x21, x3
	mov	x29, sp
	stp	x20, x19, [sp, #80]
	mov	x19, x2
	mov	x20, x0
	stp	x28, x27, [sp, #16]
	stp	x26, x25, [sp, #32]
	stp	x24, x23, [sp, #48]
	cbz	x1, .Lunix_path_BB19_9
	mov	x22, x1
	mov	x24, x1
	b	.Lunix_path_BB19_3
.Lunix_path_BB19_2:
	mov	x24, x1
	cbz	x1, .Lunix_path_BB19_10
.Lunix_path_BB19_3:
	subs	x1, x24, #1
	b.eq	.Lunix_path_BB19_10
	add	x8, x20, x1
	ldrb	w9, [x8]
	cmp	w9, #47
	b.eq	.Lunix_path_BB19_7
	cmp	w9, #46
	b.ne	.Lunix_path_BB19_10
	ldurb	w8, [x8, #-1]
	cmp	w8, #47
	b.ne	.Lunix_path_BB19_10
.Lunix_path_BB19_7:
	sub	x8, x22, x1
	cmp	x8, #8
	b.ne	.Lunix_path_BB19_2
	mov	x0, x20
	bl	unix_path.filler.trimmed_blocks_len
	mov	x1, x0
	b	.Lunix_path_BB19_2
.Lunix_path_BB19_9:
	mov	x24, xzr
.Lunix_path_BB19_10:
	cbz	x21, .Lunix_path_BB19_19
	mov	x25, x21
	b	.Lunix_path_BB19_13
.Lunix_path_BB19_12:
	mov	x25, x1
	cbz	x1, .Lunix_path_BB19_20
.Lunix_path_BB19_13:
	subs	x1, x25, #1
	b.eq	.Lunix_path_BB19_20
	add	x8, x19, x1
	ldrb	w9, [x8]
	cmp	w9, #47
	b.eq	.Lunix_path_BB19_17
	cmp	w9, #46
	b.ne	.Lunix_path_BB19_20
	ldurb	w8, [x8, #-1]
	cmp	w8, #47
	b.ne	.Lunix_path_BB19_20
.Lunix_path_BB19_17:
	sub	x8, x21, x1
	cmp	x8, #8
	b.ne	.Lunix_path_BB19_12
	mov	x0, x19
	bl	unix_path.filler.trimmed_blocks_len
	mov	x1, x0
	b	.Lunix_path_BB19_12
.Lunix_path_BB19_19:
	mov	x25, xzr
.Lunix_path_BB19_20:
	subs	x8, x25, #1
	adrp	x23, .Lunix_path_CPI19_0
	b.eq	.Lunix_path_BB19_26
	cbz	x25, .Lunix_path_BB19_116
	add	x9, x19, x25
	ldurb	w10, [x9, #-1]
	cmp	w10, #46
	b.ne	.Lunix_path_BB19_30
	ldurb	w10, [x9, #-2]
	cmp	w10, #46
	b.ne	.Lunix_path_BB19_30
	subs	x27, x25, #2
	b.ne	.Lunix_path_BB19_28
	mov	x22, xzr
	mov	x21, xzr
	mov	x25, xzr
	mov	w26, #2
	b	.Lunix_path_BB19_57
.Lunix_path_BB19_26:
	ldrb	w9, [x19]
	cmp	w9, #46
	b.ne	.Lunix_path_BB19_30
	mov	x22, xzr
	mov	x21, xzr
	mov	x25, xzr
	mov	w26, #1
	b	.Lunix_path_BB19_57
.Lunix_path_BB19_28:
	ldurb	w9, [x9, #-3]
	cmp	w9, #47
	b.ne	.Lunix_path_BB19_30
	mov	x8, x27
	b	.Lunix_path_BB19_47
.Lunix_path_BB19_30:
	mov	x9, x25
.Lunix_path_BB19_31:
	cmp	x9, #15
	b.ls	.Lunix_path_BB19_35
	movi	v0.16b, #47
	add	x10, x19, x9
	sub	x8, x8, #16
	ldur	q1, [x10, #-16]
	sub	x10, x9, #16
	mov	x9, x10
	cmeq	v0.16b, v1.16b, v0.16b
	ldr	q1, [x23, :lo12:.Lunix_path_CPI19_0]
	and	v0.16b, v0.16b, v1.16b
	addp	v0.16b, v0.16b, v0.16b
	addp	v0.16b, v0.16b, v0.16b
	addp	v0.16b, v0.16b, v0.16b
	umov	w11, v0.h[0]
	cbz	w11, .Lunix_path_BB19_31
	umov	w8, v0.h[0]
	and	x8, x8, #0xffff
	clz	x8, x8
	sub	x8, x10, x8
	add	x26, x8, #64
	subs	x21, x25, x26
	b.ne	.Lunix_path_BB19_38
.Lunix_path_BB19_34:
	mov	x22, xzr
	mov	x25, xzr
	mov	w26, wzr
	b	.Lunix_path_BB19_57
.Lunix_path_BB19_35:
	cmn	x8, #1
	b.eq	.Lunix_path_BB19_54
	ldrb	w9, [x19, x8]
	sub	x8, x8, #1
	cmp	w9, #47
	b.ne	.Lunix_path_BB19_35
	add	x26, x8, #2
	subs	x21, x25, x26
	b.eq	.Lunix_path_BB19_34
.Lunix_path_BB19_38:
	add	x22, x19, x26
	mov	x25, x26
	b	.Lunix_path_BB19_40
.Lunix_path_BB19_39:
	mov	x25, x1
	cbz	x1, .Lunix_path_BB19_53
.Lunix_path_BB19_40:
	subs	x1, x25, #1
	b.eq	.Lunix_path_BB19_53
	add	x8, x19, x1
	ldrb	w9, [x8]
	cmp	w9, #47
	b.eq	.Lunix_path_BB19_44
	cmp	w9, #46
	b.ne	.Lunix_path_BB19_53
	ldurb	w8, [x8, #-1]
	cmp	w8, #47
	b.ne	.Lunix_path_BB19_53
.Lunix_path_BB19_44:
	sub	x8, x26, x1
	cmp	x8, #8
	b.ne	.Lunix_path_BB19_39
	mov	x0, x19
	bl	unix_path.filler.trimmed_blocks_len
	mov	x1, x0
	b	.Lunix_path_BB19_39
.Lunix_path_BB19_46:
	mov	x22, xzr
	mov	x21, xzr
	mov	x25, xzr
	mov	w26, #2
	mov	x8, x1
	cbz	x1, .Lunix_path_BB19_57
.Lunix_path_BB19_47:
	subs	x1, x8, #1
	b.eq	.Lunix_path_BB19_110
	add	x9, x19, x1
	ldrb	w10, [x9]
	cmp	w10, #47
	b.eq	.Lunix_path_BB19_51
	cmp	w10, #46
	b.ne	.Lunix_path_BB19_112
	ldurb	w9, [x9, #-1]
	cmp	w9, #47
	b.ne	.Lunix_path_BB19_112
.Lunix_path_BB19_51:
	sub	x8, x27, x1
	cmp	x8, #8
	b.ne	.Lunix_path_BB19_46
	mov	x0, x19
	bl	unix_path.filler.trimmed_blocks_len
	mov	x1, x0
	b	.Lunix_path_BB19_46
.Lunix_path_BB19_53:
	mov	w26, #3
	b	.Lunix_path_BB19_57
.Lunix_path_BB19_54:
	cbnz	x25, .Lunix_path_BB19_56
	mov	x22, xzr
	mov	x21, xzr
	mov	w26, wzr
	b	.Lunix_path_BB19_57
.Lunix_path_BB19_56:
	mov	w26, #3
	mov	x22, x19
	mov	x21, x25
	mov	x25, xzr
.Lunix_path_BB19_57:
	subs	x8, x24, #1
	b.eq	.Lunix_path_BB19_63
	cbz	x24, .Lunix_path_BB19_114
	add	x9, x20, x24
	ldurb	w10, [x9, #-1]
	cmp	w10, #46
	b.ne	.Lunix_path_BB19_67
	ldurb	w10, [x9, #-2]
	cmp	w10, #46
	b.ne	.Lunix_path_BB19_67
	subs	x28, x24, #2
	b.ne	.Lunix_path_BB19_65
	mov	x23, xzr
	mov	x27, xzr
	mov	x24, xzr
	mov	w9, wzr
	mov	w8, #2
	b	.Lunix_path_BB19_94
.Lunix_path_BB19_63:
	ldrb	w9, [x20]
	cmp	w9, #46
	b.ne	.Lunix_path_BB19_67
	mov	x23, xzr
	mov	x27, xzr
	mov	x24, xzr
	mov	w9, wzr
	mov	w8, #1
	b	.Lunix_path_BB19_94
.Lunix_path_BB19_65:
	ldurb	w9, [x9, #-3]
	cmp	w9, #47
	b.ne	.Lunix_path_BB19_67
	mov	x10, x28
	b	.Lunix_path_BB19_84
.Lunix_path_BB19_67:
	mov	x9, x24
.Lunix_path_BB19_68:
	cmp	x9, #15
	b.ls	.Lunix_path_BB19_72
	movi	v0.16b, #47
	add	x10, x20, x9
	sub	x8, x8, #16
	ldur	q1, [x10, #-16]
	sub	x10, x9, #16
	mov	x9, x10
	cmeq	v0.16b, v1.16b, v0.16b
	ldr	q1, [x23, :lo12:.Lunix_path_CPI19_0]
	and	v0.16b, v0.16b, v1.16b
	addp	v0.16b, v0.16b, v0.16b
	addp	v0.16b, v0.16b, v0.16b
	addp	v0.16b, v0.16b, v0.16b
	umov	w11, v0.h[0]
	cbz	w11, .Lunix_path_BB19_68
	umov	w8, v0.h[0]
	and	x8, x8, #0xffff
	clz	x8, x8
	sub	x8, x10, x8
	add	x28, x8, #64
	subs	x27, x24, x28
	b.ne	.Lunix_path_BB19_75
.Lunix_path_BB19_71:
	mov	x23, xzr
	mov	x24, xzr
	b	.Lunix_path_BB19_93
.Lunix_path_BB19_72:
	cmn	x8, #1
	b.eq	.Lunix_path_BB19_91
	ldrb	w9, [x20, x8]
	sub	x8, x8, #1
	cmp	w9, #47
	b.ne	.Lunix_path_BB19_72
	add	x28, x8, #2
	subs	x27, x24, x28
	b.eq	.Lunix_path_BB19_71
.Lunix_path_BB19_75:
	add	x23, x20, x28
	mov	x24, x28
	b	.Lunix_path_BB19_77
.Lunix_path_BB19_76:
	mov	x24, x1
	cbz	x1, .Lunix_path_BB19_90
.Lunix_path_BB19_77:
	subs	x1, x24, #1
	b.eq	.Lunix_path_BB19_90
	add	x8, x20, x1
	ldrb	w9, [x8]
	cmp	w9, #47
	b.eq	.Lunix_path_BB19_81
	cmp	w9, #46
	b.ne	.Lunix_path_BB19_90
	ldurb	w8, [x8, #-1]
	cmp	w8, #47
	b.ne	.Lunix_path_BB19_90
.Lunix_path_BB19_81:
	sub	x8, x28, x1
	cmp	x8, #8
	b.ne	.Lunix_path_BB19_76
	mov	x0, x20
	bl	unix_path.filler.trimmed_blocks_len
	mov	x1, x0
	b	.Lunix_path_BB19_76
.Lunix_path_BB19_83:
	mov	x23, xzr
	mov	x27, xzr
	mov	x24, xzr
	mov	w9, wzr
	mov	w8, #2
	mov	x10, x1
	cbz	x1, .Lunix_path_BB19_94
.Lunix_path_BB19_84:
	subs	x1, x10, #1
	b.eq	.Lunix_path_BB19_111
	add	x8, x20, x1
	ldrb	w9, [x8]
	cmp	w9, #47
	b.eq	.Lunix_path_BB19_88
	cmp	w9, #46
	b.ne	.Lunix_path_BB19_113
	ldurb	w8, [x8, #-1]
	cmp	w8, #47
	b.ne	.Lunix_path_BB19_113
.Lunix_path_BB19_88:
	sub	x8, x28, x1
	cmp	x8, #8
	b.ne	.Lunix_path_BB19_83
	mov	x0, x20
	bl	unix_path.filler.trimmed_blocks_len
	mov	x1, x0
	b	.Lunix_path_BB19_83
.Lunix_path_BB19_90:
	mov	w8, #3
	mov	w9, #1
	b	.Lunix_path_BB19_94
.Lunix_path_BB19_91:
	cbnz	x24, .Lunix_path_BB19_108
	mov	x23, xzr
	mov	x27, xzr
.Lunix_path_BB19_93:
	mov	w9, wzr
	mov	w8, wzr
.Lunix_path_BB19_94:
	cmp	w8, w26
	b.ne	.Lunix_path_BB19_114
	cbz	w9, .Lunix_path_BB19_20
	cmp	x27, x21
	b.ne	.Lunix_path_BB19_114
	cmp	x21, #4
	b.hs	.Lunix_path_BB19_105
	cbz	x21, .Lunix_path_BB19_20
	ldrb	w8, [x23]
	ldrb	w9, [x22]
	cmp	w8, w9
	b.ne	.Lunix_path_BB19_107
	cmp	x21, #1
	b.eq	.Lunix_path_BB19_20
	ldrb	w8, [x23, #1]
	ldrb	w9, [x22, #1]
	cmp	w8, w9
	b.ne	.Lunix_path_BB19_109
	cmp	x21, #2
	b.eq	.Lunix_path_BB19_20
	ldrb	w8, [x23, #2]
	ldrb	w9, [x22, #2]
	cmp	w8, w9
	b.eq	.Lunix_path_BB19_20
	mov	w8, #2
	cmp	x8, x21
	b.hs	.Lunix_path_BB19_20
	b	.Lunix_path_BB19_114
.Lunix_path_BB19_105:
	ldr	w8, [x23]
	ldr	w9, [x22]
	cmp	w8, w9
	b.ne	.Lunix_path_BB19_114
	mov	x0, x23
	mov	x1, x21
	mov	x2, x22
	bl	core.cmp.slices.groups_equal.i8.31.core.cmp.numbers.U8PartialEq.
	tbnz	w0, #0, .Lunix_path_BB19_20
	b	.Lunix_path_BB19_114
.Lunix_path_BB19_107:
	cmp	xzr, x21
	b.hs	.Lunix_path_BB19_20
	b	.Lunix_path_BB19_114
.Lunix_path_BB19_108:
	mov	w8, #3
	mov	w9, #1
	mov	x23, x20
	mov	x27, x24
	mov	x24, xzr
	b	.Lunix_path_BB19_94
.Lunix_path_BB19_109:
	mov	w8, #1
	cmp	x8, x21
	b.hs	.Lunix_path_BB19_20
	b	.Lunix_path_BB19_114
.Lunix_path_BB19_110:
	mov	x22, xzr
	mov	x21, xzr
	mov	w26, #2
	mov	w25, #1
	b	.Lunix_path_BB19_57
.Lunix_path_BB19_111:
	mov	x23, xzr
	mov	x27, xzr
	mov	w9, wzr
	mov	w8, #2
	mov	w24, #1
	b	.Lunix_path_BB19_94
.Lunix_path_BB19_112:
	mov	x22, xzr
	mov	x21, xzr
	mov	w26, #2
	mov	x25, x8
	b	.Lunix_path_BB19_57
.Lunix_path_BB19_113:
	mov	x23, xzr
	mov	x27, xzr
	mov	w9, wzr
	mov	w8, #2
	mov	x24, x10
	b	.Lunix_path_BB19_94
.Lunix_path_BB19_114:
	mov	w0, wzr
.Lunix_path_BB19_115:
	ldp	x20, x19, [sp, #80]
	ldp	x22, x21, [sp, #64]
	ldp	x24, x23, [sp, #48]
	ldp	x26, x25, [sp, #32]
	ldp	x28, x27, [sp, #16]
	ldp	x29, x30, [sp], #96
	ret
.Lunix_path_BB19_116:
	mov	w0, #1
	b	.Lunix_path_BB19_115
.Lunix_path_func_end19:
	.size	unix_path.suffixes.ends_with_parts, .Lunix_path_func_end19-unix_path.suffixes.ends_with_parts
	.section	.rodata.cst16,"aM",@progbits,16
	.p2align	4, 0x0
.Lunix_path_CPI20_0:
	.byte	1
	.byte	2
	.byte	4
	.byte	8
	.byte	16
	.byte	32
	.byte	64
	.byte	128
	.byte	1
	.byte	2
	.byte	4
	.byte	8
	.byte	16
	.byte	32
	.byte	64
	.byte	128
	.section	.rodata.cst8,"aM",@progbits,8
	.p2align	3, 0x0
.Lunix_path_CPI20_1:
	.byte	1
	.byte	2
	.byte	4
	.byte	8
	.byte	16
	.byte	32
	.byte	64
	.byte	128
	.section	.text.path_keys.decode.path_len,"ax",@progbits
	.p2align	2
	.type	path_keys.decode.path_len,@function
// path_keys::decode::path_len
path_keys.decode.path_len:
	subs	x8, x1, #2
	b.hs	.Lunix_path_BB20_2
	mov	x10, xzr
	b	.Lunix_path_BB20_12
.Lunix_path_BB20_2:
	ldrb	w9, [x0]
	cbz	w9, .Lunix_path_BB20_4
	mov	x10, xzr
	b	.Lunix_path_BB20_12
.Lunix_path_BB20_4:
	ldrb	w9, [x0, #1]
	cmp	w9, #2
	b.eq	.Lunix_path_BB20_7
	cmp	w9, #1
	b.ne	.Lunix_path_BB20_9
	add	x0, x0, #2
	mov	w10, #1
	b	.Lunix_path_BB20_8
.Lunix_path_BB20_7:
	add	x0, x0, #2
	mov	w10, #2
.Lunix_path_BB20_8:
	mov	x1, x8
	b	.Lunix_path_BB20_12
.Lunix_path_BB20_9:
	mov	x10, xzr
	b	.Lunix_path_BB20_12
.Lunix_path_BB20_10:
	mov	w8, #2
	mov	w9, #3
.Lunix_path_BB20_11:
	add	x10, x9, x10
	add	x0, x0, x8
	sub	x1, x1, x8
.Lunix_path_BB20_12:
	cmp	x1, #1
	b.eq	.Lunix_path_BB20_18
	cbz	x1, .Lunix_path_BB20_53
	ldrb	w8, [x0]
	cbnz	w8, .Lunix_path_BB20_16
	ldrb	w9, [x0, #1]
	cmp	w9, #3
	b.eq	.Lunix_path_BB20_10
.Lunix_path_BB20_16:
	cmp	w8, #47
	b.eq	.Lunix_path_BB20_19
.Lunix_path_BB20_17:
	cbnz	w8, .Lunix_path_BB20_24
	b	.Lunix_path_BB20_54
.Lunix_path_BB20_18:
	ldrb	w8, [x0]
	cmp	w8, #47
	b.ne	.Lunix_path_BB20_17
.Lunix_path_BB20_19:
	cmp	x1, #1
	b.eq	.Lunix_path_BB20_51
	ldrb	w9, [x0, #1]
	cmp	w9, #47
	b.eq	.Lunix_path_BB20_22
	mov	w8, w9
	cbnz	w9, .Lunix_path_BB20_24
	b	.Lunix_path_BB20_52
.Lunix_path_BB20_22:
	cmp	x1, #3
	b.lo	.Lunix_path_BB20_51
	ldrb	w8, [x0, #2]
	cbz	w8, .Lunix_path_BB20_55
.Lunix_path_BB20_24:
	cmp	x1, #18
	b.hi	.Lunix_path_BB20_27
	cmp	x1, #9
	b.hs	.Lunix_path_BB20_35
	mov	x8, xzr
	cmp	xzr, x1
	b.lo	.Lunix_path_BB20_44
	b	.Lunix_path_BB20_39
.Lunix_path_BB20_27:
	subs	x8, x1, #19
	adrp	x9, .Lunix_path_CPI20_0
	mov	x11, xzr
	b.ne	.Lunix_path_BB20_31
.Lunix_path_BB20_28:
	sub	x12, x1, #17
	movi	v0.16b, #208
	cmp	x12, x11
	csel	x11, x12, x11, lo
	add	x12, x0, x11
	ldur	q1, [x12, #1]
	and	v0.16b, v1.16b, v0.16b
	ldr	q1, [x12]
	orr	v0.16b, v0.16b, v1.16b
	cmeq	v1.16b, v0.16b, #0
	ldr	q0, [x9, :lo12:.Lunix_path_CPI20_0]
	and	v1.16b, v1.16b, v0.16b
	addp	v1.16b, v1.16b, v1.16b
	addp	v1.16b, v1.16b, v1.16b
	addp	v1.16b, v1.16b, v1.16b
	umov	w9, v1.h[0]
	cbz	w9, .Lunix_path_BB20_41
	movi	v1.16b, #47
	add	x9, x0, x8
	ldur	q2, [x9, #2]
	ldur	q3, [x9, #3]
	cmeq	v3.16b, v3.16b, #0
	cmeq	v4.16b, v2.16b, v1.16b
	cmeq	v2.16b, v2.16b, #0
	and	v3.16b, v4.16b, v3.16b
	ldur	q4, [x9, #1]
	cmeq	v1.16b, v4.16b, v1.16b
	orr	v2.16b, v2.16b, v3.16b
	ldr	q3, [x9]
	and	v1.16b, v1.16b, v2.16b
	cmeq	v2.16b, v3.16b, #0
	cmeq	v3.16b, v4.16b, #0
	orr	v1.16b, v3.16b, v1.16b
	and	v0.16b, v2.16b, v0.16b
	and	v0.16b, v0.16b, v1.16b
	addp	v0.16b, v0.16b, v0.16b
	addp	v0.16b, v0.16b, v0.16b
	addp	v0.16b, v0.16b, v0.16b
	umov	w9, v0.h[0]
	orr	w9, w9, #0x10000
	rbit	w9, w9
	clz	w9, w9
	add	x8, x8, x9
	cmp	x8, x1
	b.lo	.Lunix_path_BB20_44
	b	.Lunix_path_BB20_39
.Lunix_path_BB20_30:
	cmp	x11, x8
	b.hs	.Lunix_path_BB20_28
.Lunix_path_BB20_31:
	movi	v1.16b, #208
	add	x12, x0, x11
	ldur	q0, [x12, #1]
	and	v2.16b, v0.16b, v1.16b
	ldr	q1, [x12]
	orr	v2.16b, v2.16b, v1.16b
	cmeq	v3.16b, v2.16b, #0
	ldr	q2, [x9, :lo12:.Lunix_path_CPI20_0]
	and	v3.16b, v3.16b, v2.16b
	addp	v3.16b, v3.16b, v3.16b
	addp	v3.16b, v3.16b, v3.16b
	addp	v3.16b, v3.16b, v3.16b
	umov	w13, v3.h[0]
	cbz	w13, .Lunix_path_BB20_34
	movi	v3.16b, #47
	ldur	q4, [x12, #2]
	ldur	q5, [x12, #3]
	cmeq	v1.16b, v1.16b, #0
	cmeq	v5.16b, v5.16b, #0
	cmeq	v6.16b, v4.16b, v3.16b
	cmeq	v4.16b, v4.16b, #0
	cmeq	v3.16b, v0.16b, v3.16b
	cmeq	v0.16b, v0.16b, #0
	and	v1.16b, v1.16b, v2.16b
	and	v5.16b, v6.16b, v5.16b
	orr	v4.16b, v4.16b, v5.16b
	and	v3.16b, v3.16b, v4.16b
	orr	v0.16b, v0.16b, v3.16b
	and	v0.16b, v1.16b, v0.16b
	addp	v0.16b, v0.16b, v0.16b
	addp	v0.16b, v0.16b, v0.16b
	addp	v0.16b, v0.16b, v0.16b
	umov	w12, v0.h[0]
	orr	w12, w12, #0x10000
	rbit	w12, w12
	clz	w12, w12
	cmp	w12, #15
	b.ls	.Lunix_path_BB20_37
	add	x11, x11, #16
	b	.Lunix_path_BB20_30
.Lunix_path_BB20_34:
	add	x11, x11, #16
	cmp	x11, x8
	b.lo	.Lunix_path_BB20_31
	b	.Lunix_path_BB20_30
.Lunix_path_BB20_35:
	movi	v0.8b, #47
	ldur	d1, [x0, #1]
	ldr	d2, [x0]
	adrp	x8, .Lunix_path_CPI20_1
	cmeq	v3.8b, v1.8b, #0
	cmeq	v2.8b, v2.8b, #0
	cmeq	v4.8b, v1.8b, v0.8b
	ldr	d1, [x8, :lo12:.Lunix_path_CPI20_1]
	and	v2.8b, v2.8b, v1.8b
	orr	v3.8b, v3.8b, v4.8b
	and	v2.8b, v2.8b, v3.8b
	addv	b2, v2.8b
	fmov	w8, s2
	orr	w8, w8, #0x100
	rbit	w8, w8
	clz	w8, w8
	cmp	w8, #8
	b.lo	.Lunix_path_BB20_38
	cmp	x1, #17
	mov	w8, #17
	csel	x8, x1, x8, lo
	sub	x8, x8, #9
	add	x9, x0, x8
	ldr	d2, [x9]
	ldur	d3, [x9, #1]
	cmeq	v4.8b, v3.8b, #0
	cmeq	v0.8b, v3.8b, v0.8b
	cmeq	v2.8b, v2.8b, #0
	orr	v0.8b, v4.8b, v0.8b
	and	v1.8b, v2.8b, v1.8b
	and	v0.8b, v1.8b, v0.8b
	addv	b0, v0.8b
	fmov	w9, s0
	orr	w9, w9, #0x100
	rbit	w9, w9
	clz	w9, w9
	add	x8, x8, x9
	cmp	x8, x1
	b.lo	.Lunix_path_BB20_44
	b	.Lunix_path_BB20_39
.Lunix_path_BB20_37:
	add	x8, x11, w12, uxtw
.Lunix_path_BB20_38:
	cmp	x8, x1
	b.lo	.Lunix_path_BB20_44
.Lunix_path_BB20_39:
	cmp	x8, x1
	b.eq	.Lunix_path_BB20_51
	add	x9, x8, #1
	mov	x8, x9
	b	.Lunix_path_BB20_11
.Lunix_path_BB20_41:
	add	x8, x11, #16
	cmp	x8, x1
	b.lo	.Lunix_path_BB20_44
	b	.Lunix_path_BB20_39
.Lunix_path_BB20_42:
	cbz	w11, .Lunix_path_BB20_39
.Lunix_path_BB20_43:
	cmp	x1, x9
	mov	x8, x9
	b.eq	.Lunix_path_BB20_51
.Lunix_path_BB20_44:
	ldrb	w11, [x0, x8]
	add	x9, x8, #1
	cbnz	w11, .Lunix_path_BB20_43
	cmp	x1, x9
	b.ls	.Lunix_path_BB20_39
	add	x11, x0, x8
	ldrb	w11, [x11, #1]
	cmp	w11, #47
	b.ne	.Lunix_path_BB20_42
	add	x11, x8, #2
	cmp	x1, x11
	b.ls	.Lunix_path_BB20_39
	add	x11, x0, x8
	ldrb	w11, [x11, #2]
	cmp	w11, #47
	b.ne	.Lunix_path_BB20_42
	add	x11, x8, #3
	cmp	x1, x11
	b.ls	.Lunix_path_BB20_39
	add	x11, x0, x8
	ldrb	w11, [x11, #3]
	cbnz	w11, .Lunix_path_BB20_43
	b	.Lunix_path_BB20_39
.Lunix_path_BB20_51:
	mov	x9, xzr
	mov	w8, wzr
.Lunix_path_BB20_52:
	mov	w0, w8
	mov	x1, x9
	ret
.Lunix_path_BB20_53:
	cmp	x10, #1
	cset	w8, hi
	sub	x9, x10, x8
	mov	w8, #1
	mov	w0, w8
	mov	x1, x9
	ret
.Lunix_path_BB20_54:
	mov	w9, w8
	mov	w0, w8
	mov	x1, x9
	ret
.Lunix_path_BB20_55:
	mov	x9, xzr
	mov	w0, w8
	mov	x1, x9
	ret
.Lunix_path_func_end20:
	.size	path_keys.decode.path_len, .Lunix_path_func_end20-path_keys.decode.path_len
	.section	.text.core.hash.sip.DefaultHasherHasher.write,"ax",@progbits
	.p2align	2
	.type	core.hash.sip.DefaultHasherHasher.write,@function
// core::hash::sip::DefaultHasherHasher::write
core.hash.sip.DefaultHasherHasher.write:
	ldr	x8, [x0, #40]
	neg	w9, w8
	ands	x9, x9, #0x7
	b.eq	.Lunix_path_BB21_4
	ldrb	w10, [x1]
	ubfiz	x11, x8, #3, #3
	ldr	x12, [x0, #32]
	lsl	x10, x10, x11
	add	x11, x8, #1
	tst	x11, #0x7
	orr	x10, x10, x12
	stp	x10, x11, [x0, #32]
	b.eq	.Lunix_path_BB21_5
	cmp	x9, #1
	b.ne	.Lunix_path_BB21_6
.Lunix_path_BB21_3:
	mov	w10, #1
	mov	x8, x11
	b	.Lunix_path_BB21_29
.Lunix_path_BB21_4:
	mov	x10, xzr
	b	.Lunix_path_BB21_29
.Lunix_path_BB21_5:
	ldp	x12, x13, [x0]
	str	xzr, [x0, #32]
	ldp	x15, x14, [x0, #16]
	add	x12, x13, x12
	eor	x14, x14, x10
	eor	x13, x12, x13, ror #51
	ror	x12, x12, #32
	add	x15, x15, x14
	eor	x14, x15, x14, ror #48
	add	x15, x15, x13
	eor	x13, x15, x13, ror #47
	add	x12, x14, x12
	eor	x14, x12, x14, ror #43
	eor	x10, x12, x10
	ror	x12, x15, #32
	stp	x10, x13, [x0]
	mov	x10, xzr
	stp	x12, x14, [x0, #16]
	cmp	x9, #1
	b.eq	.Lunix_path_BB21_3
.Lunix_path_BB21_6:
	ldrb	w12, [x1, #1]
	ubfiz	x11, x11, #3, #3
	lsl	x12, x12, x11
	add	x11, x8, #2
	tst	x11, #0x7
	orr	x10, x12, x10
	stp	x10, x11, [x0, #32]
	b.eq	.Lunix_path_BB21_9
	cmp	x9, #2
	b.ne	.Lunix_path_BB21_10
.Lunix_path_BB21_8:
	mov	w10, #2
	mov	x8, x11
	b	.Lunix_path_BB21_29
.Lunix_path_BB21_9:
	ldp	x12, x13, [x0]
	str	xzr, [x0, #32]
	ldp	x15, x14, [x0, #16]
	add	x12, x13, x12
	eor	x14, x14, x10
	eor	x13, x12, x13, ror #51
	ror	x12, x12, #32
	add	x15, x15, x14
	eor	x14, x15, x14, ror #48
	add	x15, x15, x13
	eor	x13, x15, x13, ror #47
	add	x12, x14, x12
	eor	x14, x12, x14, ror #43
	eor	x10, x12, x10
	ror	x12, x15, #32
	stp	x10, x13, [x0]
	mov	x10, xzr
	stp	x12, x14, [x0, #16]
	cmp	x9, #2
	b.eq	.Lunix_path_BB21_8
.Lunix_path_BB21_10:
	ldrb	w12, [x1, #2]
	ubfiz	x11, x11, #3, #3
	lsl	x12, x12, x11
	add	x11, x8, #3
	tst	x11, #0x7
	orr	x10, x12, x10
	stp	x10, x11, [x0, #32]
	b.eq	.Lunix_path_BB21_13
	cmp	x9, #3
	b.ne	.Lunix_path_BB21_14
.Lunix_path_BB21_12:
	mov	w10, #3
	mov	x8, x11
	b	.Lunix_path_BB21_29
.Lunix_path_BB21_13:
	ldp	x12, x13, [x0]
	str	xzr, [x0, #32]
	ldp	x15, x14, [x0, #16]
	add	x12, x13, x12
	eor	x14, x14, x10
	eor	x13, x12, x13, ror #51
	ror	x12, x12, #32
	add	x15, x15, x14
	eor	x14, x15, x14, ror #48
	add	x15, x15, x13
	eor	x13, x15, x13, ror #47
	add	x12, x14, x12
	eor	x14, x12, x14, ror #43
	eor	x10, x12, x10
	ror	x12, x15, #32
	stp	x10, x13, [x0]
	mov	x10, xzr
	stp	x12, x14, [x0, #16]
	cmp	x9, #3
	b.eq	.Lunix_path_BB21_12
.Lunix_path_BB21_14:
	ldrb	w12, [x1, #3]
	ubfiz	x11, x11, #3, #3
	lsl	x12, x12, x11
	add	x11, x8, #4
	tst	x11, #0x7
	orr	x10, x12, x10
	stp	x10, x11, [x0, #32]
	b.ne	.Lunix_path_BB21_16
	ldp	x12, x13, [x0]
	str	xzr, [x0, #32]
	ldp	x15, x14, [x0, #16]
	add	x12, x13, x12
	eor	x14, x14, x10
	eor	x13, x12, x13, ror #51
	ror	x12, x12, #32
	add	x15, x15, x14
	eor	x14, x15, x14, ror #48
	add	x15, x15, x13
	eor	x13, x15, x13, ror #47
	add	x12, x14, x12
	eor	x14, x12, x14, ror #43
	eor	x10, x12, x10
	ror	x12, x15, #32
	stp	x10, x13, [x0]
	mov	x10, xzr
	stp	x12, x14, [x0, #16]
.Lunix_path_BB21_16:
	cmp	x9, #4
	b.ne	.Lunix_path_BB21_18
	mov	w10, #4
	mov	x8, x11
	b	.Lunix_path_BB21_29
.Lunix_path_BB21_18:
	ldrb	w12, [x1, #4]
	ubfiz	x11, x11, #3, #3
	lsl	x12, x12, x11
	add	x11, x8, #5
	tst	x11, #0x7
	orr	x10, x12, x10
	stp	x10, x11, [x0, #32]
	b.ne	.Lunix_path_BB21_20
	ldp	x12, x13, [x0]
	str	xzr, [x0, #32]
	ldp	x15, x14, [x0, #16]
	add	x12, x13, x12
	eor	x14, x14, x10
	eor	x13, x12, x13, ror #51
	ror	x12, x12, #32
	add	x15, x15, x14
	eor	x14, x15, x14, ror #48
	add	x15, x15, x13
	eor	x13, x15, x13, ror #47
	add	x12, x14, x12
	eor	x14, x12, x14, ror #43
	eor	x10, x12, x10
	ror	x12, x15, #32
	stp	x10, x13, [x0]
	mov	x10, xzr
	stp	x12, x14, [x0, #16]
.Lunix_path_BB21_20:
	cmp	x9, #5
	b.ne	.Lunix_path_BB21_22
	mov	w10, #5
	mov	x8, x11
	b	.Lunix_path_BB21_29
.Lunix_path_BB21_22:
	ldrb	w12, [x1, #5]
	ubfiz	x11, x11, #3, #3
	lsl	x12, x12, x11
	add	x11, x8, #6
	tst	x11, #0x7
	orr	x10, x12, x10
	stp	x10, x11, [x0, #32]
	b.ne	.Lunix_path_BB21_24
	ldp	x12, x13, [x0]
	str	xzr, [x0, #32]
	ldp	x15, x14, [x0, #16]
	add	x12, x13, x12
	eor	x14, x14, x10
	eor	x13, x12, x13, ror #51
	ror	x12, x12, #32
	add	x15, x15, x14
	eor	x14, x15, x14, ror #48
	add	x15, x15, x13
	eor	x13, x15, x13, ror #47
	add	x12, x14, x12
	eor	x14, x12, x14, ror #43
	eor	x10, x12, x10
	ror	x12, x15, #32
	stp	x10, x13, [x0]
	mov	x10, xzr
	stp	x12, x14, [x0, #16]
.Lunix_path_BB21_24:
	cmp	x9, #6
	b.ne	.Lunix_path_BB21_26
	mov	w10, #6
	mov	x8, x11
	b	.Lunix_path_BB21_29
.Lunix_path_BB21_26:
	ldrb	w12, [x1, #6]
	ubfiz	x11, x11, #3, #3
	add	x8, x8, #7
	tst	x8, #0x7
	lsl	x11, x12, x11
	orr	x10, x11, x10
	stp	x10, x8, [x0, #32]
	b.ne	.Lunix_path_BB21_28
	ldp	x14, x13, [x0, #16]
	str	xzr, [x0, #32]
	ldp	x11, x12, [x0]
	eor	x13, x13, x10
	add	x11, x12, x11
	add	x14, x14, x13
	eor	x12, x11, x12, ror #51
	ror	x11, x11, #32
	eor	x13, x14, x13, ror #48
	add	x14, x14, x12
	add	x11, x13, x11
	eor	x12, x14, x12, ror #47
	eor	x13, x11, x13, ror #43
	eor	x10, x11, x10
	ror	x11, x14, #32
	stp	x10, x12, [x0]
	stp	x11, x13, [x0, #16]
.Lunix_path_BB21_28:
	mov	w10, #7
.Lunix_path_BB21_29:
	tst	x8, #0x7
	b.ne	.Lunix_path_BB21_34
	ldr	x11, [x0, #32]
	orr	x9, x9, x11
	cbnz	x9, .Lunix_path_BB21_34
	ldp	x11, x9, [x0]
	ldp	x13, x12, [x0, #16]
.Lunix_path_BB21_32:
	ldr	x14, [x1, x10]
	add	x11, x11, x9
	add	x8, x8, #8
	eor	x9, x11, x9, ror #51
	ror	x11, x11, #32
	str	x8, [x0, #40]
	eor	x12, x14, x12
	add	x13, x12, x13
	eor	x12, x13, x12, ror #48
	add	x13, x13, x9
	eor	x9, x13, x9, ror #47
	ror	x13, x13, #32
	add	x15, x12, x11
	eor	x11, x15, x14
	eor	x12, x15, x12, ror #43
	sub	x14, x10, #1
	cmn	x14, #8
	add	x10, x10, #8
	stp	x11, x9, [x0]
	stp	x13, x12, [x0, #16]
	b.lo	.Lunix_path_BB21_32
	sub	x9, x10, #8
	cmn	x9, #8
	b.lo	.Lunix_path_BB21_38
.Lunix_path_BB21_34:
	ldr	x11, [x0, #32]
	lsl	x9, x8, #3
	add	x8, x8, #1
	b	.Lunix_path_BB21_36
.Lunix_path_BB21_35:
	add	x10, x10, #1
	add	x9, x9, #8
	add	x8, x8, #1
	cmp	x10, #8
	b.eq	.Lunix_path_BB21_38
.Lunix_path_BB21_36:
	ldrb	w12, [x1, x10]
	and	x13, x9, #0x38
	tst	x8, #0x7
	lsl	x12, x12, x13
	orr	x11, x12, x11
	stp	x11, x8, [x0, #32]
	b.ne	.Lunix_path_BB21_35
	ldp	x12, x13, [x0]
	str	xzr, [x0, #32]
	ldp	x15, x14, [x0, #16]
	add	x12, x13, x12
	eor	x14, x14, x11
	eor	x13, x12, x13, ror #51
	ror	x12, x12, #32
	add	x15, x15, x14
	eor	x14, x15, x14, ror #48
	add	x15, x15, x13
	eor	x13, x15, x13, ror #47
	add	x12, x14, x12
	eor	x14, x12, x14, ror #43
	eor	x11, x12, x11
	ror	x12, x15, #32
	stp	x11, x13, [x0]
	mov	x11, xzr
	stp	x12, x14, [x0, #16]
	b	.Lunix_path_BB21_35
.Lunix_path_BB21_38:
	ret
.Lunix_path_func_end21:
	.size	core.hash.sip.DefaultHasherHasher.write, .Lunix_path_func_end21-core.hash.sip.DefaultHasherHasher.write
	.section	.rodata.cst16,"aM",@progbits,16
	.p2align	4, 0x0
.Lunix_path_CPI22_0:
	.byte	1
	.byte	2
	.byte	4
	.byte	8
	.byte	16
	.byte	32
	.byte	64
	.byte	128
	.byte	1
	.byte	2
	.byte	4
	.byte	8
	.byte	16
	.byte	32
	.byte	64
	.byte	128
	.section	.text.path_runs.canonical.is_canonical,"ax",@progbits
	.p2align	2
	.type	path_runs.canonical.is_canonical,@function
// path_runs::canonical::is_canonical
path_runs.canonical.is_canonical:
	stp	x29, x30, [sp, #-32]!
	stp	x20, x19, [sp, #16]
	mov	x20, x1
	mov	x19, x0
	mov	x29, sp
	cbz	x1, .Lunix_path_BB22_9
	mov	x8, x20
	b	.Lunix_path_BB22_3
.Lunix_path_BB22_2:
	mov	x8, x1
	cbz	x1, .Lunix_path_BB22_10
.Lunix_path_BB22_3:
	subs	x1, x8, #1
	b.eq	.Lunix_path_BB22_10
	add	x9, x19, x1
	ldrb	w10, [x9]
	cmp	w10, #47
	b.eq	.Lunix_path_BB22_7
	cmp	w10, #46
	b.ne	.Lunix_path_BB22_10
	ldurb	w9, [x9, #-1]
	cmp	w9, #47
	b.ne	.Lunix_path_BB22_10
.Lunix_path_BB22_7:
	sub	x8, x20, x1
	cmp	x8, #8
	b.ne	.Lunix_path_BB22_2
	mov	x0, x19
	bl	unix_path.filler.trimmed_blocks_len
	mov	x1, x0
	b	.Lunix_path_BB22_2
.Lunix_path_BB22_9:
	mov	x8, xzr
.Lunix_path_BB22_10:
	cmp	x8, x20
	b.hs	.Lunix_path_BB22_12
	mov	w0, wzr
	ldp	x20, x19, [sp, #16]
	ldp	x29, x30, [sp], #32
	ret
.Lunix_path_BB22_12:
	subs	x9, x8, #2
	b.hs	.Lunix_path_BB22_14
	mov	w0, #1
	ldp	x20, x19, [sp, #16]
	ldp	x29, x30, [sp], #32
	ret
.Lunix_path_BB22_14:
	subs	x10, x8, #18
	b.hs	.Lunix_path_BB22_16
	mov	x10, xzr
	cmp	xzr, x8
	b.hs	.Lunix_path_BB22_21
	b	.Lunix_path_BB22_23
.Lunix_path_BB22_16:
	adrp	x11, .Lunix_path_CPI22_0
	b.eq	.Lunix_path_BB22_20
	mov	x12, xzr
.Lunix_path_BB22_18:
	movi	v0.16b, #46
	movi	v1.16b, #47
	add	x13, x19, x12
	ldur	q2, [x13, #1]
	ldur	q3, [x13, #2]
	ldr	q4, [x13]
	cmeq	v0.16b, v2.16b, v0.16b
	cmeq	v3.16b, v3.16b, v1.16b
	and	v0.16b, v0.16b, v3.16b
	cmeq	v3.16b, v4.16b, v1.16b
	cmeq	v1.16b, v2.16b, v1.16b
	ldr	q2, [x11, :lo12:.Lunix_path_CPI22_0]
	orr	v0.16b, v1.16b, v0.16b
	and	v1.16b, v3.16b, v2.16b
	and	v0.16b, v1.16b, v0.16b
	addp	v0.16b, v0.16b, v0.16b
	addp	v0.16b, v0.16b, v0.16b
	addp	v0.16b, v0.16b, v0.16b
	umov	w13, v0.h[0]
	orr	w13, w13, #0x10000
	rbit	w13, w13
	clz	w13, w13
	cmp	w13, #15
	b.ls	.Lunix_path_BB22_22
	add	x12, x12, #16
	cmp	x12, x10
	b.lo	.Lunix_path_BB22_18
.Lunix_path_BB22_20:
	movi	v0.16b, #46
	movi	v1.16b, #47
	add	x12, x19, x10
	ldur	q2, [x12, #1]
	ldur	q3, [x12, #2]
	ldr	q4, [x12]
	cmeq	v0.16b, v2.16b, v0.16b
	cmeq	v3.16b, v3.16b, v1.16b
	and	v0.16b, v0.16b, v3.16b
	cmeq	v3.16b, v4.16b, v1.16b
	cmeq	v1.16b, v2.16b, v1.16b
	ldr	q2, [x11, :lo12:.Lunix_path_CPI22_0]
	orr	v0.16b, v1.16b, v0.16b
	and	v1.16b, v3.16b, v2.16b
	and	v0.16b, v1.16b, v0.16b
	addp	v0.16b, v0.16b, v0.16b
	addp	v0.16b, v0.16b, v0.16b
	addp	v0.16b, v0.16b, v0.16b
	umov	w11, v0.h[0]
	orr	w11, w11, #0x10000
	rbit	w11, w11
	clz	w11, w11
	add	x10, x10, x11
	cmp	x10, x8
	b.lo	.Lunix_path_BB22_23
.Lunix_path_BB22_21:
	cmp	x10, x8
	cset	w0, eq
	ldp	x20, x19, [sp, #16]
	ldp	x29, x30, [sp], #32
	ret
.Lunix_path_BB22_22:
	add	x10, x12, w13, uxtw
	cmp	x10, x8
	b.hs	.Lunix_path_BB22_21
.Lunix_path_BB22_23:
	sub	x11, x8, #1
	b	.Lunix_path_BB22_26
.Lunix_path_BB22_24:
	cmp	w12, #47
	b.eq	.Lunix_path_BB22_21
.Lunix_path_BB22_25:
	add	x10, x10, #1
	cmp	x8, x10
	b.eq	.Lunix_path_BB22_31
.Lunix_path_BB22_26:
	ldrb	w12, [x19, x10]
	cmp	w12, #47
	b.ne	.Lunix_path_BB22_25
	cmp	x11, x10
	b.eq	.Lunix_path_BB22_21
	add	x12, x19, x10
	ldrb	w12, [x12, #1]
	cmp	w12, #46
	b.ne	.Lunix_path_BB22_24
	cmp	x9, x10
	b.eq	.Lunix_path_BB22_21
	add	x12, x19, x10
	ldrb	w12, [x12, #2]
	b	.Lunix_path_BB22_24
.Lunix_path_BB22_31:
	cmp	x8, x8
	cset	w0, eq
	ldp	x20, x19, [sp, #16]
	ldp	x29, x30, [sp], #32
	ret
.Lunix_path_func_end22:
	.size	path_runs.canonical.is_canonical, .Lunix_path_func_end22-path_runs.canonical.is_canonical
	.section	.rodata.cst16,"aM",@progbits,16
	.p2align	4, 0x0
.Lunix_path_CPI23_0:
	.byte	1
	.byte	2
	.byte	4
	.byte	8
	.byte	16
	.byte	32
	.byte	64
	.byte	128
	.byte	1
	.byte	2
	.byte	4
	.byte	8
	.byte	16
	.byte	32
	.byte	64
	.byte	128
	.section	.text.unix_bytes.utf8.scans.scan_by_sequence,"ax",@progbits
	.p2align	2
	.type	unix_bytes.utf8.scans.scan_by_sequence,@function
// unix_bytes::utf8::scans::scan_by_sequence
unix_bytes.utf8.scans.scan_by_sequence:
	mov	x8, x1
	subs	x9, x1, x2
	b.eq	.Lunix_path_BB23_72
	add	x10, x0, x2
	b	.Lunix_path_BB23_4
.Lunix_path_BB23_2:
	mov	w12, #1
.Lunix_path_BB23_3:
	add	x10, x10, x12
	sub	x9, x9, x12
	cbz	x9, .Lunix_path_BB23_72
.Lunix_path_BB23_4:
	ldrsb	w11, [x10]
	tbnz	w11, #31, .Lunix_path_BB23_18
	cmp	x9, #8
	b.lo	.Lunix_path_BB23_2
	ldrsb	w11, [x10, #1]
	tbnz	w11, #31, .Lunix_path_BB23_2
	subs	x11, x9, #16
	b.lo	.Lunix_path_BB23_33
	cmp	x9, #64
	adrp	x12, .Lunix_path_CPI23_0
	mov	x13, xzr
	b.lo	.Lunix_path_BB23_13
	mov	x14, x9
.Lunix_path_BB23_10:
	add	x15, x10, x13
	ldr	q4, [x12, :lo12:.Lunix_path_CPI23_0]
	ldp	q0, q1, [x15]
	ldp	q2, q3, [x15, #32]
	cmlt	v0.16b, v0.16b, #0
	cmlt	v1.16b, v1.16b, #0
	cmlt	v3.16b, v3.16b, #0
	cmlt	v2.16b, v2.16b, #0
	and	v0.16b, v0.16b, v4.16b
	and	v1.16b, v1.16b, v4.16b
	and	v2.16b, v2.16b, v4.16b
	and	v3.16b, v3.16b, v4.16b
	addp	v0.16b, v0.16b, v1.16b
	addp	v1.16b, v2.16b, v3.16b
	addp	v0.16b, v0.16b, v1.16b
	addp	v0.16b, v0.16b, v0.16b
	fmov	x15, d0
	cbnz	x15, .Lunix_path_BB23_13
	sub	x14, x14, #64
	add	x13, x13, #64
	cmp	x14, #63
	b.hi	.Lunix_path_BB23_10
	and	x13, x9, #0xffffffffffffffc0
.Lunix_path_BB23_13:
	cmp	x13, x11
	b.hs	.Lunix_path_BB23_16
.Lunix_path_BB23_14:
	ldr	q0, [x10, x13]
	ldr	q1, [x12, :lo12:.Lunix_path_CPI23_0]
	cmlt	v0.16b, v0.16b, #0
	and	v0.16b, v0.16b, v1.16b
	addp	v0.16b, v0.16b, v0.16b
	addp	v0.16b, v0.16b, v0.16b
	addp	v0.16b, v0.16b, v0.16b
	umov	w14, v0.h[0]
	cbnz	w14, .Lunix_path_BB23_69
	add	x13, x13, #16
	cmp	x13, x11
	b.lo	.Lunix_path_BB23_14
.Lunix_path_BB23_16:
	ldr	q0, [x10, x11]
	ldr	q1, [x12, :lo12:.Lunix_path_CPI23_0]
	mov	x12, x9
	cmlt	v0.16b, v0.16b, #0
	and	v0.16b, v0.16b, v1.16b
	addp	v0.16b, v0.16b, v0.16b
	addp	v0.16b, v0.16b, v0.16b
	addp	v0.16b, v0.16b, v0.16b
	umov	w13, v0.h[0]
	cbz	w13, .Lunix_path_BB23_3
	umov	w12, v0.h[0]
	rbit	w12, w12
	clz	w12, w12
	add	x12, x11, x12
	b	.Lunix_path_BB23_3
.Lunix_path_BB23_18:
	and	w11, w11, #0xff
	sub	w12, w11, #194
	cmp	w12, #29
	b.hi	.Lunix_path_BB23_28
	cmp	x9, #1
	b.eq	.Lunix_path_BB23_102
	ldrsb	w11, [x10, #1]
	cmn	w11, #64
	b.ge	.Lunix_path_BB23_102
	sub	x12, x9, #2
	add	x11, x10, #2
	cmp	x12, #2
	b.lo	.Lunix_path_BB23_44
	ldrb	w13, [x11]
	sub	w13, w13, #194
	cmp	w13, #29
	b.hi	.Lunix_path_BB23_45
	and	x12, x9, #0xfffffffffffffffe
	mov	x14, xzr
	sub	x15, x9, #4
	sub	x13, x12, #2
.Lunix_path_BB23_24:
	add	x9, x10, x14
	mov	x12, x15
	ldrsb	w9, [x9, #3]
	cmn	w9, #65
	b.gt	.Lunix_path_BB23_70
	cmp	x12, #1
	b.ls	.Lunix_path_BB23_71
	add	x9, x10, x14
	ldrb	w9, [x9, #4]
	sub	w15, w9, #194
	add	x9, x14, #2
	cmp	w15, #29
	sub	x15, x12, #2
	mov	x14, x9
	b.ls	.Lunix_path_BB23_24
	add	x10, x11, x9
	mov	x9, x12
	cbnz	x12, .Lunix_path_BB23_4
	b	.Lunix_path_BB23_72
.Lunix_path_BB23_28:
	and	w12, w11, #0xf0
	cmp	w12, #224
	b.ne	.Lunix_path_BB23_39
	subs	x13, x9, #3
	b.lo	.Lunix_path_BB23_73
	ldrb	w12, [x10, #1]
	cmp	w11, #237
	b.eq	.Lunix_path_BB23_46
	cmp	w11, #224
	b.ne	.Lunix_path_BB23_47
	and	w14, w12, #0xe0
	cmp	w14, #160
	b.eq	.Lunix_path_BB23_48
	b	.Lunix_path_BB23_102
.Lunix_path_BB23_33:
	ldr	d0, [x10]
	cmlt	v0.8b, v0.8b, #0
	umaxv	b0, v0.8b
	fmov	w11, s0
	tbnz	w11, #0, .Lunix_path_BB23_35
	add	x11, x10, x9
	mov	x12, x9
	ldur	d0, [x11, #-8]
	cmlt	v0.8b, v0.8b, #0
	umaxv	b0, v0.8b
	fmov	w11, s0
	tbz	w11, #0, .Lunix_path_BB23_3
.Lunix_path_BB23_35:
	mov	x12, xzr
.Lunix_path_BB23_36:
	ldrsb	w11, [x10, x12]
	tbnz	w11, #31, .Lunix_path_BB23_3
	add	x12, x12, #1
	cmp	x9, x12
	b.ne	.Lunix_path_BB23_36
	mov	x12, x9
	b	.Lunix_path_BB23_3
.Lunix_path_BB23_39:
	sub	w12, w11, #240
	cmp	w12, #4
	b.hi	.Lunix_path_BB23_102
	cmp	x9, #4
	b.lo	.Lunix_path_BB23_79
	ldrb	w12, [x10, #1]
	cmp	w11, #244
	b.eq	.Lunix_path_BB23_50
	cmp	w11, #240
	b.ne	.Lunix_path_BB23_51
	sub	w13, w12, #144
	cmp	w13, #48
	b.lo	.Lunix_path_BB23_52
	b	.Lunix_path_BB23_102
.Lunix_path_BB23_44:
	add	x10, x11, xzr
	mov	x9, x12
	cbnz	x12, .Lunix_path_BB23_4
	b	.Lunix_path_BB23_72
.Lunix_path_BB23_45:
	add	x10, x11, xzr
	mov	x9, x12
	cbnz	x12, .Lunix_path_BB23_4
	b	.Lunix_path_BB23_72
.Lunix_path_BB23_46:
	sxtb	w14, w12
	cmn	w14, #96
	b.lt	.Lunix_path_BB23_48
	b	.Lunix_path_BB23_102
.Lunix_path_BB23_47:
	sxtb	w14, w12
	cmn	w14, #65
	b.gt	.Lunix_path_BB23_75
.Lunix_path_BB23_48:
	ldrsb	w14, [x10, #2]
	cmn	w14, #64
	b.ge	.Lunix_path_BB23_75
	add	x10, x10, #3
	mov	x9, x13
	cbnz	x13, .Lunix_path_BB23_4
	b	.Lunix_path_BB23_72
.Lunix_path_BB23_50:
	sxtb	w13, w12
	cmn	w13, #112
	b.lt	.Lunix_path_BB23_52
	b	.Lunix_path_BB23_102
.Lunix_path_BB23_51:
	sxtb	w13, w12
	cmn	w13, #65
	b.gt	.Lunix_path_BB23_82
.Lunix_path_BB23_52:
	ldrsb	w13, [x10, #2]
	cmn	w13, #65
	b.gt	.Lunix_path_BB23_82
	ldrsb	w13, [x10, #3]
	cmn	w13, #64
	b.ge	.Lunix_path_BB23_82
	subs	x11, x9, #4
	add	x10, x10, #4
	b.eq	.Lunix_path_BB23_68
	mov	x12, x10
	mov	x9, x11
.Lunix_path_BB23_56:
	cmp	x9, #4
	b.lo	.Lunix_path_BB23_67
	ldrb	w14, [x12]
	sub	w13, w14, #240
	cmp	w13, #4
	b.hi	.Lunix_path_BB23_67
	ldrb	w13, [x12, #1]
	cmp	w14, #244
	b.eq	.Lunix_path_BB23_61
	cmp	w14, #240
	b.ne	.Lunix_path_BB23_62
	sub	w13, w13, #144
	cmp	w13, #48
	b.lo	.Lunix_path_BB23_64
	b	.Lunix_path_BB23_67
.Lunix_path_BB23_61:
	sxtb	w13, w13
	cmn	w13, #112
	b.lt	.Lunix_path_BB23_64
	b	.Lunix_path_BB23_67
.Lunix_path_BB23_62:
	cmp	w14, #243
	b.hi	.Lunix_path_BB23_67
	sxtb	w13, w13
	cmn	w13, #65
	b.gt	.Lunix_path_BB23_67
.Lunix_path_BB23_64:
	ldrsb	w13, [x12, #2]
	cmn	w13, #65
	b.gt	.Lunix_path_BB23_67
	ldrsb	w13, [x12, #3]
	cmn	w13, #65
	b.gt	.Lunix_path_BB23_67
	subs	x9, x9, #4
	add	x12, x12, #4
	b.ne	.Lunix_path_BB23_56
.Lunix_path_BB23_67:
	sub	x11, x11, x9
	add	x10, x10, x11
	cbnz	x9, .Lunix_path_BB23_4
	b	.Lunix_path_BB23_72
.Lunix_path_BB23_68:
	mov	x9, xzr
	sub	x11, x11, xzr
	add	x10, x10, x11
	b	.Lunix_path_BB23_72
.Lunix_path_BB23_69:
	umov	w11, v0.h[0]
	rbit	w11, w11
	clz	w11, w11
	add	x12, x11, x13
	b	.Lunix_path_BB23_3
.Lunix_path_BB23_70:
	add	x12, x12, #2
	add	x10, x11, x14
	mov	x9, x12
	cbnz	x12, .Lunix_path_BB23_4
	b	.Lunix_path_BB23_72
.Lunix_path_BB23_71:
	add	x10, x11, x13
	mov	x9, x12
	cbnz	x12, .Lunix_path_BB23_4
.Lunix_path_BB23_72:
	mov	x1, xzr
	mov	x0, x8
	ret
.Lunix_path_BB23_73:
	cmp	x9, #1
	b.eq	.Lunix_path_BB23_102
	ldrb	w12, [x10, #1]
.Lunix_path_BB23_75:
	cmp	w11, #239
	b.gt	.Lunix_path_BB23_89
	cmp	w11, #224
	b.eq	.Lunix_path_BB23_101
.Lunix_path_BB23_77:
	cmp	w11, #237
	b.ne	.Lunix_path_BB23_105
	sxtb	w10, w12
	cmn	w10, #96
	b.ge	.Lunix_path_BB23_102
	b	.Lunix_path_BB23_106
.Lunix_path_BB23_79:
	cmp	x9, #1
	b.eq	.Lunix_path_BB23_97
	cmp	x9, #3
	b.ne	.Lunix_path_BB23_98
	ldrb	w12, [x10, #1]
.Lunix_path_BB23_82:
	cmp	w11, #239
	b.gt	.Lunix_path_BB23_86
	cmp	w11, #224
	b.eq	.Lunix_path_BB23_93
	cmp	w11, #237
	b.ne	.Lunix_path_BB23_92
	sxtb	w13, w12
	cmn	w13, #96
	b.lt	.Lunix_path_BB23_95
	b	.Lunix_path_BB23_102
.Lunix_path_BB23_86:
	cmp	w11, #240
	b.eq	.Lunix_path_BB23_94
	cmp	w11, #244
	b.ne	.Lunix_path_BB23_92
	sxtb	w13, w12
	cmn	w13, #113
	b.le	.Lunix_path_BB23_95
	b	.Lunix_path_BB23_102
.Lunix_path_BB23_89:
	cmp	w11, #240
	b.eq	.Lunix_path_BB23_107
	cmp	w11, #244
	b.ne	.Lunix_path_BB23_105
.Lunix_path_BB23_91:
	sxtb	w10, w12
	cmn	w10, #113
	b.le	.Lunix_path_BB23_106
	b	.Lunix_path_BB23_102
.Lunix_path_BB23_92:
	sxtb	w13, w12
	cmn	w13, #64
	b.lt	.Lunix_path_BB23_95
	b	.Lunix_path_BB23_99
.Lunix_path_BB23_93:
	and	w13, w12, #0xe0
	cmp	w13, #160
	b.eq	.Lunix_path_BB23_95
	b	.Lunix_path_BB23_102
.Lunix_path_BB23_94:
	sub	w13, w12, #144
	cmp	w13, #48
	b.hs	.Lunix_path_BB23_102
.Lunix_path_BB23_95:
	ldrsb	w10, [x10, #2]
	cmn	w10, #64
	b.ge	.Lunix_path_BB23_99
	mov	w1, #3
	sub	x0, x8, x9
	ret
.Lunix_path_BB23_97:
	mov	x1, x9
	sub	x0, x8, x9
	ret
.Lunix_path_BB23_98:
	ldrb	w12, [x10, #1]
.Lunix_path_BB23_99:
	cmp	w11, #239
	b.gt	.Lunix_path_BB23_103
	cmp	w11, #224
	b.ne	.Lunix_path_BB23_77
.Lunix_path_BB23_101:
	and	w10, w12, #0xe0
	cmp	w10, #160
	b.eq	.Lunix_path_BB23_106
.Lunix_path_BB23_102:
	mov	w1, #1
	sub	x0, x8, x9
	ret
.Lunix_path_BB23_103:
	cmp	w11, #240
	b.eq	.Lunix_path_BB23_107
	cmp	w11, #244
	b.eq	.Lunix_path_BB23_91
.Lunix_path_BB23_105:
	sxtb	w10, w12
	cmn	w10, #64
	b.ge	.Lunix_path_BB23_102
.Lunix_path_BB23_106:
	mov	w1, #2
	sub	x0, x8, x9
	ret
.Lunix_path_BB23_107:
	sub	w10, w12, #144
	cmp	w10, #48
	b.hs	.Lunix_path_BB23_102
	b	.Lunix_path_BB23_106
.Lunix_path_func_end23:
	.size	unix_bytes.utf8.scans.scan_by_sequence, .Lunix_path_func_end23-unix_bytes.utf8.scans.scan_by_sequence
	.section	.rodata.cst16,"aM",@progbits,16
	.p2align	4, 0x0
.Lunix_path_CPI24_0:
	.byte	1
	.byte	2
	.byte	4
	.byte	8
	.byte	16
	.byte	32
	.byte	64
	.byte	128
	.byte	1
	.byte	2
	.byte	4
	.byte	8
	.byte	16
	.byte	32
	.byte	64
	.byte	128
	.section	.text.unix_bytes.utf8.scans.scan_by_window,"ax",@progbits
	.p2align	2
	.type	unix_bytes.utf8.scans.scan_by_window,@function
// unix_bytes::utf8::scans::scan_by_window
unix_bytes.utf8.scans.scan_by_window:
	cmp	x2, x1
	b.hs	.Lunix_path_BB24_62
	add	x8, x0, x1
	b	.Lunix_path_BB24_5
.Lunix_path_BB24_2:
	mov	w11, #1
.Lunix_path_BB24_3:
	add	x2, x11, x2
.Lunix_path_BB24_4:
	cmp	x2, x1
	b.hs	.Lunix_path_BB24_62
.Lunix_path_BB24_5:
	add	x10, x0, x2
	sub	x11, x1, x2
	adrp	x9, .Lunix_path_CPI24_0
	ldrsb	w12, [x10]
	tbnz	w12, #31, .Lunix_path_BB24_14
	cmp	x11, #8
	b.lo	.Lunix_path_BB24_2
	ldrsb	w12, [x10, #1]
	tbnz	w12, #31, .Lunix_path_BB24_2
	subs	x12, x11, #16
	b.lo	.Lunix_path_BB24_23
	cmp	x11, #64
	b.lo	.Lunix_path_BB24_33
	mov	x13, xzr
	sub	x14, x1, x2
.Lunix_path_BB24_11:
	add	x15, x10, x13
	ldr	q4, [x9, :lo12:.Lunix_path_CPI24_0]
	ldp	q0, q1, [x15]
	ldp	q2, q3, [x15, #32]
	cmlt	v0.16b, v0.16b, #0
	cmlt	v1.16b, v1.16b, #0
	cmlt	v3.16b, v3.16b, #0
	cmlt	v2.16b, v2.16b, #0
	and	v0.16b, v0.16b, v4.16b
	and	v1.16b, v1.16b, v4.16b
	and	v2.16b, v2.16b, v4.16b
	and	v3.16b, v3.16b, v4.16b
	addp	v0.16b, v0.16b, v1.16b
	addp	v1.16b, v2.16b, v3.16b
	addp	v0.16b, v0.16b, v1.16b
	addp	v0.16b, v0.16b, v0.16b
	fmov	x15, d0
	cbnz	x15, .Lunix_path_BB24_34
	sub	x14, x14, #64
	add	x13, x13, #64
	cmp	x14, #63
	b.hi	.Lunix_path_BB24_11
	and	x13, x11, #0xffffffffffffffc0
	cmp	x13, x12
	b.lo	.Lunix_path_BB24_35
	b	.Lunix_path_BB24_37
.Lunix_path_BB24_14:
	and	w12, w12, #0xff
	sub	w13, w12, #194
	cmp	w13, #29
	b.hi	.Lunix_path_BB24_18
	cmp	x11, #2
	b.lo	.Lunix_path_BB24_91
	ldrsb	w10, [x10, #1]
	cmn	w10, #64
	b.ge	.Lunix_path_BB24_91
	mov	w10, #2
	add	x2, x10, x2
	cmp	x2, #3
	b.hs	.Lunix_path_BB24_49
	b	.Lunix_path_BB24_4
.Lunix_path_BB24_18:
	and	w13, w12, #0xf0
	cmp	w13, #224
	b.ne	.Lunix_path_BB24_28
	cmp	x11, #3
	b.lo	.Lunix_path_BB24_63
	ldrb	w11, [x10, #1]
	cmp	w12, #237
	b.eq	.Lunix_path_BB24_40
	cmp	w12, #224
	b.ne	.Lunix_path_BB24_41
	and	w13, w11, #0xe0
	cmp	w13, #160
	b.eq	.Lunix_path_BB24_42
	b	.Lunix_path_BB24_91
.Lunix_path_BB24_23:
	ldr	d0, [x10]
	cmlt	v0.8b, v0.8b, #0
	umaxv	b0, v0.8b
	fmov	w9, s0
	tbnz	w9, #0, .Lunix_path_BB24_25
	ldur	d0, [x8, #-8]
	cmlt	v0.8b, v0.8b, #0
	umaxv	b0, v0.8b
	fmov	w9, s0
	tbz	w9, #0, .Lunix_path_BB24_3
.Lunix_path_BB24_25:
	mov	x9, xzr
.Lunix_path_BB24_26:
	ldrsb	w12, [x10, x9]
	tbnz	w12, #31, .Lunix_path_BB24_39
	add	x9, x9, #1
	cmp	x11, x9
	b.ne	.Lunix_path_BB24_26
	b	.Lunix_path_BB24_3
.Lunix_path_BB24_28:
	sub	w13, w12, #240
	cmp	w13, #4
	b.hi	.Lunix_path_BB24_91
	cmp	x11, #4
	b.lo	.Lunix_path_BB24_69
	ldrb	w11, [x10, #1]
	cmp	w12, #244
	b.eq	.Lunix_path_BB24_44
	cmp	w12, #240
	b.ne	.Lunix_path_BB24_45
	sub	w13, w11, #144
	cmp	w13, #48
	b.lo	.Lunix_path_BB24_46
	b	.Lunix_path_BB24_91
.Lunix_path_BB24_33:
	mov	x13, xzr
.Lunix_path_BB24_34:
	cmp	x13, x12
	b.hs	.Lunix_path_BB24_37
.Lunix_path_BB24_35:
	ldr	q0, [x10, x13]
	ldr	q1, [x9, :lo12:.Lunix_path_CPI24_0]
	cmlt	v0.16b, v0.16b, #0
	and	v0.16b, v0.16b, v1.16b
	addp	v0.16b, v0.16b, v0.16b
	addp	v0.16b, v0.16b, v0.16b
	addp	v0.16b, v0.16b, v0.16b
	umov	w14, v0.h[0]
	cbnz	w14, .Lunix_path_BB24_61
	add	x13, x13, #16
	cmp	x13, x12
	b.lo	.Lunix_path_BB24_35
.Lunix_path_BB24_37:
	ldr	q0, [x10, x12]
	ldr	q1, [x9, :lo12:.Lunix_path_CPI24_0]
	cmlt	v0.16b, v0.16b, #0
	and	v0.16b, v0.16b, v1.16b
	addp	v0.16b, v0.16b, v0.16b
	addp	v0.16b, v0.16b, v0.16b
	addp	v0.16b, v0.16b, v0.16b
	umov	w9, v0.h[0]
	cbz	w9, .Lunix_path_BB24_3
	umov	w9, v0.h[0]
	rbit	w9, w9
	clz	w9, w9
	add	x11, x12, x9
	b	.Lunix_path_BB24_3
.Lunix_path_BB24_39:
	mov	x11, x9
	b	.Lunix_path_BB24_3
.Lunix_path_BB24_40:
	sxtb	w13, w11
	cmn	w13, #96
	b.lt	.Lunix_path_BB24_42
	b	.Lunix_path_BB24_91
.Lunix_path_BB24_41:
	sxtb	w13, w11
	cmn	w13, #65
	b.gt	.Lunix_path_BB24_65
.Lunix_path_BB24_42:
	ldrsb	w10, [x10, #2]
	cmn	w10, #64
	b.ge	.Lunix_path_BB24_65
	mov	w10, #3
	add	x2, x10, x2
	cmp	x2, #3
	b.hs	.Lunix_path_BB24_49
	b	.Lunix_path_BB24_4
.Lunix_path_BB24_44:
	sxtb	w13, w11
	cmn	w13, #112
	b.lt	.Lunix_path_BB24_46
	b	.Lunix_path_BB24_91
.Lunix_path_BB24_45:
	sxtb	w13, w11
	cmn	w13, #65
	b.gt	.Lunix_path_BB24_71
.Lunix_path_BB24_46:
	ldrsb	w13, [x10, #2]
	cmn	w13, #65
	b.gt	.Lunix_path_BB24_71
	ldrsb	w13, [x10, #3]
	cmn	w13, #64
	b.ge	.Lunix_path_BB24_71
	mov	w10, #4
	add	x2, x10, x2
	cmp	x2, #3
	b.lo	.Lunix_path_BB24_4
.Lunix_path_BB24_49:
	sub	x10, x1, x2
	cmp	x10, #16
	b.hs	.Lunix_path_BB24_52
	b	.Lunix_path_BB24_4
.Lunix_path_BB24_50:
	mov	w10, #15
.Lunix_path_BB24_51:
	add	x2, x10, x2
	sub	x10, x1, x2
	cmp	x10, #15
	b.ls	.Lunix_path_BB24_4
.Lunix_path_BB24_52:
	add	x10, x0, x2
	ldr	q2, [x9, :lo12:.Lunix_path_CPI24_0]
	ldr	q0, [x10]
	cmlt	v1.16b, v0.16b, #0
	and	v1.16b, v1.16b, v2.16b
	addp	v1.16b, v1.16b, v1.16b
	addp	v1.16b, v1.16b, v1.16b
	addp	v3.16b, v1.16b, v1.16b
	umov	w11, v3.h[0]
	cbz	w11, .Lunix_path_BB24_4
	movi	v4.16b, #192
	movi	v5.16b, #224
	ldur	q6, [x10, #-2]
	ldur	q1, [x10, #-1]
	movi	v7.16b, #240
	umov	w12, v3.h[0]
	cmhi	v16.16b, v4.16b, v1.16b
	cmhi	v5.16b, v5.16b, v6.16b
	ldur	q6, [x10, #-3]
	cmhs	v4.16b, v0.16b, v4.16b
	cmhi	v6.16b, v7.16b, v6.16b
	and	v5.16b, v5.16b, v16.16b
	and	v4.16b, v4.16b, v2.16b
	and	v5.16b, v6.16b, v5.16b
	addp	v4.16b, v4.16b, v4.16b
	bic	v5.16b, v2.16b, v5.16b
	addp	v4.16b, v4.16b, v4.16b
	addp	v5.16b, v5.16b, v5.16b
	addp	v4.16b, v4.16b, v4.16b
	addp	v5.16b, v5.16b, v5.16b
	umov	w10, v4.h[0]
	addp	v5.16b, v5.16b, v5.16b
	umov	w11, v5.h[0]
	add	x10, x11, w10, uxth
	cmp	x10, w12, uxth
	b.ne	.Lunix_path_BB24_4
	movi	v3.16b, #194
	cmhs	v3.16b, v0.16b, v3.16b
	and	v3.16b, v3.16b, v2.16b
	addp	v3.16b, v3.16b, v3.16b
	addp	v3.16b, v3.16b, v3.16b
	addp	v3.16b, v3.16b, v3.16b
	cmeq	v3.8h, v4.8h, v3.8h
	xtn	v3.8b, v3.8h
	umov	w10, v3.b[0]
	tbz	w10, #0, .Lunix_path_BB24_4
	movi	v3.16b, #240
	movi	v4.16b, #224
	movi	v5.16b, #144
	movi	v6.16b, #160
	cmeq	v3.16b, v1.16b, v3.16b
	cmeq	v4.16b, v1.16b, v4.16b
	bic	v3.16b, v3.16b, v4.16b
	and	v4.16b, v4.16b, v6.16b
	and	v3.16b, v3.16b, v5.16b
	orr	v3.16b, v4.16b, v3.16b
	cmhi	v3.16b, v3.16b, v0.16b
	and	v3.16b, v3.16b, v2.16b
	addp	v3.16b, v3.16b, v3.16b
	addp	v3.16b, v3.16b, v3.16b
	addp	v3.16b, v3.16b, v3.16b
	umov	w10, v3.h[0]
	cbnz	w10, .Lunix_path_BB24_4
	movi	v3.16b, #244
	movi	v4.16b, #143
	movi	v6.16b, #237
	cmeq	v5.16b, v1.16b, v3.16b
	bit	v3.16b, v4.16b, v5.16b
	movi	v4.16b, #159
	cmeq	v5.16b, v1.16b, v6.16b
	bit	v3.16b, v4.16b, v5.16b
	cmhi	v3.16b, v0.16b, v3.16b
	and	v2.16b, v3.16b, v2.16b
	addp	v2.16b, v2.16b, v2.16b
	addp	v2.16b, v2.16b, v2.16b
	addp	v2.16b, v2.16b, v2.16b
	umov	w10, v2.h[0]
	cbnz	w10, .Lunix_path_BB24_4
	umov	w10, v0.b[15]
	and	w10, w10, #0xff
	cmp	w10, #191
	b.hi	.Lunix_path_BB24_50
	umov	w10, v1.b[15]
	and	w10, w10, #0xff
	cmp	w10, #223
	b.ls	.Lunix_path_BB24_60
	mov	w10, #14
	b	.Lunix_path_BB24_51
.Lunix_path_BB24_60:
	umov	w10, v1.b[14]
	mov	w11, #13
	and	w10, w10, #0xff
	cmp	w10, #239
	mov	w10, #16
	csel	x10, x11, x10, hi
	b	.Lunix_path_BB24_51
.Lunix_path_BB24_61:
	umov	w9, v0.h[0]
	rbit	w9, w9
	clz	w9, w9
	add	x11, x9, x13
	b	.Lunix_path_BB24_3
.Lunix_path_BB24_62:
	mov	x1, xzr
	mov	x0, x2
	ret
.Lunix_path_BB24_63:
	cmp	x11, #2
	b.ne	.Lunix_path_BB24_91
	ldrb	w11, [x10, #1]
.Lunix_path_BB24_65:
	cmp	w12, #239
	b.gt	.Lunix_path_BB24_78
	cmp	w12, #224
	b.eq	.Lunix_path_BB24_90
.Lunix_path_BB24_67:
	cmp	w12, #237
	b.ne	.Lunix_path_BB24_94
	sxtb	w8, w11
	cmn	w8, #96
	b.ge	.Lunix_path_BB24_91
	b	.Lunix_path_BB24_95
.Lunix_path_BB24_69:
	cmp	x11, #3
	b.ne	.Lunix_path_BB24_86
	ldrb	w11, [x10, #1]
.Lunix_path_BB24_71:
	cmp	w12, #239
	b.gt	.Lunix_path_BB24_75
	cmp	w12, #224
	b.eq	.Lunix_path_BB24_82
	cmp	w12, #237
	b.ne	.Lunix_path_BB24_81
	sxtb	w8, w11
	cmn	w8, #96
	b.lt	.Lunix_path_BB24_84
	b	.Lunix_path_BB24_91
.Lunix_path_BB24_75:
	cmp	w12, #240
	b.eq	.Lunix_path_BB24_83
	cmp	w12, #244
	b.ne	.Lunix_path_BB24_81
	sxtb	w8, w11
	cmn	w8, #113
	b.le	.Lunix_path_BB24_84
	b	.Lunix_path_BB24_91
.Lunix_path_BB24_78:
	cmp	w12, #240
	b.eq	.Lunix_path_BB24_96
	cmp	w12, #244
	b.ne	.Lunix_path_BB24_94
.Lunix_path_BB24_80:
	sxtb	w8, w11
	cmn	w8, #113
	b.le	.Lunix_path_BB24_95
	b	.Lunix_path_BB24_91
.Lunix_path_BB24_81:
	sxtb	w8, w11
	cmn	w8, #64
	b.lt	.Lunix_path_BB24_84
	b	.Lunix_path_BB24_88
.Lunix_path_BB24_82:
	and	w8, w11, #0xe0
	cmp	w8, #160
	b.eq	.Lunix_path_BB24_84
	b	.Lunix_path_BB24_91
.Lunix_path_BB24_83:
	sub	w8, w11, #144
	cmp	w8, #48
	b.hs	.Lunix_path_BB24_91
.Lunix_path_BB24_84:
	ldrsb	w8, [x10, #2]
	cmn	w8, #64
	b.ge	.Lunix_path_BB24_88
	mov	w1, #3
	mov	x0, x2
	ret
.Lunix_path_BB24_86:
	cmp	x11, #2
	b.lo	.Lunix_path_BB24_91
	ldrb	w11, [x10, #1]
.Lunix_path_BB24_88:
	cmp	w12, #239
	b.gt	.Lunix_path_BB24_92
	cmp	w12, #224
	b.ne	.Lunix_path_BB24_67
.Lunix_path_BB24_90:
	and	w8, w11, #0xe0
	cmp	w8, #160
	b.eq	.Lunix_path_BB24_95
.Lunix_path_BB24_91:
	mov	w1, #1
	mov	x0, x2
	ret
.Lunix_path_BB24_92:
	cmp	w12, #240
	b.eq	.Lunix_path_BB24_96
	cmp	w12, #244
	b.eq	.Lunix_path_BB24_80
.Lunix_path_BB24_94:
	sxtb	w8, w11
	cmn	w8, #64
	b.ge	.Lunix_path_BB24_91
.Lunix_path_BB24_95:
	mov	w1, #2
	mov	x0, x2
	ret
.Lunix_path_BB24_96:
	sub	w8, w11, #144
	cmp	w8, #48
	b.hs	.Lunix_path_BB24_91
	b	.Lunix_path_BB24_95
.Lunix_path_func_end24:
	.size	unix_bytes.utf8.scans.scan_by_window, .Lunix_path_func_end24-unix_bytes.utf8.scans.scan_by_window
	.section	.rodata.cst16,"aM",@progbits,16
	.p2align	4, 0x0
.Lunix_path_CPI25_0:
	.byte	1
	.byte	2
	.byte	4
	.byte	8
	.byte	16
	.byte	32
	.byte	64
	.byte	128
	.byte	1
	.byte	2
	.byte	4
	.byte	8
	.byte	16
	.byte	32
	.byte	64
	.byte	128
	.section	.rodata.cst8,"aM",@progbits,8
	.p2align	3, 0x0
.Lunix_path_CPI25_1:
	.byte	1
	.byte	2
	.byte	4
	.byte	8
	.byte	16
	.byte	32
	.byte	64
	.byte	128
	.section	.text.path_keys.encode.run_len,"ax",@progbits
	.p2align	2
	.type	path_keys.encode.run_len,@function
// path_keys::encode::run_len
path_keys.encode.run_len:
	cmp	x1, #2
	b.lo	.Lunix_path_BB25_6
	ldrb	w8, [x0]
	cmp	w8, #46
	b.ne	.Lunix_path_BB25_6
	ldrb	w8, [x0, #1]
	cmp	w8, #46
	b.ne	.Lunix_path_BB25_6
	cmp	x1, #2
	b.eq	.Lunix_path_BB25_5
	ldrb	w8, [x0, #2]
	cmp	w8, #47
	b.ne	.Lunix_path_BB25_6
.Lunix_path_BB25_5:
	mov	w8, #2
	mov	x0, x8
	ret
.Lunix_path_BB25_6:
	cmp	x1, #18
	b.hi	.Lunix_path_BB25_9
	cmp	x1, #9
	b.hs	.Lunix_path_BB25_17
	mov	x8, xzr
	cmp	xzr, x1
	b.lo	.Lunix_path_BB25_26
	b	.Lunix_path_BB25_22
.Lunix_path_BB25_9:
	subs	x8, x1, #19
	adrp	x9, .Lunix_path_CPI25_0
	mov	x10, xzr
	b.ne	.Lunix_path_BB25_13
.Lunix_path_BB25_10:
	sub	x11, x1, #17
	movi	v0.16b, #208
	cmp	x11, x10
	csel	x10, x11, x10, lo
	add	x11, x0, x10
	ldur	q1, [x11, #1]
	ldr	q2, [x11]
	and	v1.16b, v1.16b, v0.16b
	movi	v0.16b, #47
	orr	v1.16b, v1.16b, v2.16b
	cmeq	v2.16b, v1.16b, v0.16b
	ldr	q1, [x9, :lo12:.Lunix_path_CPI25_0]
	and	v2.16b, v2.16b, v1.16b
	addp	v2.16b, v2.16b, v2.16b
	addp	v2.16b, v2.16b, v2.16b
	addp	v2.16b, v2.16b, v2.16b
	umov	w9, v2.h[0]
	cbz	w9, .Lunix_path_BB25_23
	movi	v2.16b, #46
	add	x9, x0, x8
	ldur	q3, [x9, #2]
	ldur	q4, [x9, #3]
	cmeq	v4.16b, v4.16b, v0.16b
	cmeq	v5.16b, v3.16b, v2.16b
	cmeq	v3.16b, v3.16b, v0.16b
	and	v4.16b, v5.16b, v4.16b
	ldur	q5, [x9, #1]
	cmeq	v2.16b, v5.16b, v2.16b
	orr	v3.16b, v3.16b, v4.16b
	ldr	q4, [x9]
	and	v2.16b, v2.16b, v3.16b
	cmeq	v3.16b, v4.16b, v0.16b
	cmeq	v0.16b, v5.16b, v0.16b
	orr	v0.16b, v0.16b, v2.16b
	and	v1.16b, v3.16b, v1.16b
	and	v0.16b, v1.16b, v0.16b
	addp	v0.16b, v0.16b, v0.16b
	addp	v0.16b, v0.16b, v0.16b
	addp	v0.16b, v0.16b, v0.16b
	umov	w9, v0.h[0]
	orr	w9, w9, #0x10000
	b	.Lunix_path_BB25_19
.Lunix_path_BB25_12:
	cmp	x10, x8
	b.hs	.Lunix_path_BB25_10
.Lunix_path_BB25_13:
	movi	v1.16b, #208
	add	x11, x0, x10
	movi	v2.16b, #47
	ldur	q0, [x11, #1]
	and	v3.16b, v0.16b, v1.16b
	ldr	q1, [x11]
	orr	v3.16b, v3.16b, v1.16b
	cmeq	v4.16b, v3.16b, v2.16b
	ldr	q3, [x9, :lo12:.Lunix_path_CPI25_0]
	and	v4.16b, v4.16b, v3.16b
	addp	v4.16b, v4.16b, v4.16b
	addp	v4.16b, v4.16b, v4.16b
	addp	v4.16b, v4.16b, v4.16b
	umov	w12, v4.h[0]
	cbz	w12, .Lunix_path_BB25_16
	movi	v4.16b, #46
	ldur	q5, [x11, #2]
	ldur	q6, [x11, #3]
	cmeq	v1.16b, v1.16b, v2.16b
	cmeq	v6.16b, v6.16b, v2.16b
	cmeq	v7.16b, v5.16b, v4.16b
	cmeq	v5.16b, v5.16b, v2.16b
	cmeq	v4.16b, v0.16b, v4.16b
	cmeq	v0.16b, v0.16b, v2.16b
	and	v1.16b, v1.16b, v3.16b
	and	v6.16b, v7.16b, v6.16b
	orr	v5.16b, v5.16b, v6.16b
	and	v4.16b, v4.16b, v5.16b
	orr	v0.16b, v0.16b, v4.16b
	and	v0.16b, v1.16b, v0.16b
	addp	v0.16b, v0.16b, v0.16b
	addp	v0.16b, v0.16b, v0.16b
	addp	v0.16b, v0.16b, v0.16b
	umov	w11, v0.h[0]
	orr	w11, w11, #0x10000
	rbit	w11, w11
	clz	w11, w11
	cmp	w11, #15
	b.ls	.Lunix_path_BB25_20
	add	x10, x10, #16
	b	.Lunix_path_BB25_12
.Lunix_path_BB25_16:
	add	x10, x10, #16
	cmp	x10, x8
	b.lo	.Lunix_path_BB25_13
	b	.Lunix_path_BB25_12
.Lunix_path_BB25_17:
	movi	v0.8b, #254
	movi	v1.8b, #47
	ldr	d3, [x0]
	ldur	d4, [x0, #1]
	movi	v2.8b, #46
	adrp	x8, .Lunix_path_CPI25_1
	and	v4.8b, v4.8b, v0.8b
	cmeq	v5.8b, v3.8b, v1.8b
	ldr	d3, [x8, :lo12:.Lunix_path_CPI25_1]
	cmeq	v4.8b, v4.8b, v2.8b
	and	v5.8b, v5.8b, v3.8b
	and	v4.8b, v5.8b, v4.8b
	addv	b4, v4.8b
	fmov	w8, s4
	orr	w8, w8, #0x100
	rbit	w8, w8
	clz	w8, w8
	cmp	w8, #8
	b.lo	.Lunix_path_BB25_21
	cmp	x1, #17
	mov	w8, #17
	csel	x8, x1, x8, lo
	sub	x8, x8, #9
	add	x9, x0, x8
	ldr	d4, [x9]
	ldur	d5, [x9, #1]
	and	v0.8b, v5.8b, v0.8b
	cmeq	v1.8b, v4.8b, v1.8b
	cmeq	v0.8b, v0.8b, v2.8b
	and	v1.8b, v1.8b, v3.8b
	and	v0.8b, v1.8b, v0.8b
	addv	b0, v0.8b
	fmov	w9, s0
	orr	w9, w9, #0x100
.Lunix_path_BB25_19:
	rbit	w9, w9
	clz	w9, w9
	add	x8, x8, x9
	cmp	x8, x1
	b.lo	.Lunix_path_BB25_26
	b	.Lunix_path_BB25_22
.Lunix_path_BB25_20:
	add	x8, x10, w11, uxtw
.Lunix_path_BB25_21:
	cmp	x8, x1
	b.lo	.Lunix_path_BB25_26
.Lunix_path_BB25_22:
	mov	x0, x8
	ret
.Lunix_path_BB25_23:
	add	x8, x10, #16
	cmp	x8, x1
	b.lo	.Lunix_path_BB25_26
	b	.Lunix_path_BB25_22
.Lunix_path_BB25_24:
	cmp	w10, #47
	b.eq	.Lunix_path_BB25_22
.Lunix_path_BB25_25:
	cmp	x1, x9
	mov	x8, x9
	b.eq	.Lunix_path_BB25_33
.Lunix_path_BB25_26:
	ldrb	w9, [x0, x8]
	cmp	w9, #47
	add	x9, x8, #1
	b.ne	.Lunix_path_BB25_25
	cmp	x1, x9
	b.ls	.Lunix_path_BB25_22
	add	x10, x0, x8
	ldrb	w10, [x10, #1]
	cmp	w10, #46
	b.ne	.Lunix_path_BB25_24
	add	x10, x8, #2
	cmp	x1, x10
	b.ls	.Lunix_path_BB25_22
	add	x10, x0, x8
	ldrb	w10, [x10, #2]
	cmp	w10, #46
	b.ne	.Lunix_path_BB25_24
	add	x10, x8, #3
	cmp	x1, x10
	b.ls	.Lunix_path_BB25_22
	add	x10, x0, x8
	ldrb	w10, [x10, #3]
	b	.Lunix_path_BB25_24
.Lunix_path_BB25_33:
	mov	x0, x1
	ret
.Lunix_path_func_end25:
	.size	path_keys.encode.run_len, .Lunix_path_func_end25-path_keys.encode.run_len
	.section	.rodata.cst16,"aM",@progbits,16
	.p2align	4, 0x0
.Lunix_path_CPI26_0:
	.byte	1
	.byte	2
	.byte	4
	.byte	8
	.byte	16
	.byte	32
	.byte	64
	.byte	128
	.byte	1
	.byte	2
	.byte	4
	.byte	8
	.byte	16
	.byte	32
	.byte	64
	.byte	128
	.section	.text.unix_path_c.walks.take_first,"ax",@progbits
	.p2align	2
	.type	unix_path_c.walks.take_first,@function
// unix_path_c::walks::take_first
unix_path_c.walks.take_first:
	stp	x29, x30, [sp, #-80]!
	stp	x22, x21, [sp, #48]
	ldp	x22, x9, [x2]
	stp	x24, x23, [sp, #32]
	mov	x8, x0
	mov	w0, wzr
	str	x25, [sp, #16]
	mov	x29, sp
	subs	x24, x9, x22
	add	x23, x8, x22
	adrp	x8, .Lunix_path_static.0
	add	x8, x8, :lo12:.Lunix_path_static.0
	cset	w10, lo
	cmp	x1, x9
	csinc	w9, w10, wzr, hs
	stp	x20, x19, [sp, #64]
	cmp	w9, #0
	csel	x21, x8, x23, ne
	tbnz	w9, #0, .Lunix_path_BB26_26
	cbz	x24, .Lunix_path_BB26_26
	ldrb	w9, [x21]
	mov	x20, x3
	mov	x19, x2
	mov	x8, x24
	cmp	w9, #47
	b.eq	.Lunix_path_BB26_6
	cmp	w9, #46
	b.ne	.Lunix_path_BB26_7
	cmp	x24, #1
	b.ne	.Lunix_path_BB26_8
	mov	w25, #1
	b	.Lunix_path_BB26_10
.Lunix_path_BB26_6:
	mov	w25, #1
	b	.Lunix_path_BB26_10
.Lunix_path_BB26_7:
	mov	w25, wzr
	b	.Lunix_path_BB26_10
.Lunix_path_BB26_8:
	ldrb	w9, [x21, #1]
	cmp	w9, #47
	cset	w25, eq
	b	.Lunix_path_BB26_10
.Lunix_path_BB26_9:
	mov	x8, x1
	cbz	x1, .Lunix_path_BB26_25
.Lunix_path_BB26_10:
	subs	x1, x8, #1
	b.eq	.Lunix_path_BB26_16
	add	x9, x21, x1
	ldrb	w10, [x9]
	cmp	w10, #47
	b.eq	.Lunix_path_BB26_14
	cmp	w10, #46
	b.ne	.Lunix_path_BB26_18
	ldurb	w9, [x9, #-1]
	cmp	w9, #47
	b.ne	.Lunix_path_BB26_18
.Lunix_path_BB26_14:
	sub	x8, x24, x1
	cmp	x8, #8
	b.ne	.Lunix_path_BB26_9
	mov	x0, x21
	bl	unix_path.filler.trimmed_blocks_len
	mov	x1, x0
	b	.Lunix_path_BB26_9
.Lunix_path_BB26_16:
	tbz	w25, #0, .Lunix_path_BB26_37
	mov	w10, #1
	b	.Lunix_path_BB26_33
.Lunix_path_BB26_18:
	tbz	w25, #0, .Lunix_path_BB26_27
	mov	x9, xzr
	sub	x10, x8, #2
	b	.Lunix_path_BB26_21
.Lunix_path_BB26_20:
	add	x9, x9, #1
	cmp	x1, x9
	b.eq	.Lunix_path_BB26_31
.Lunix_path_BB26_21:
	add	x11, x23, x9
	ldrb	w11, [x11, #1]
	cmp	w11, #47
	b.eq	.Lunix_path_BB26_20
	cmp	w11, #46
	b.ne	.Lunix_path_BB26_32
	cmp	x10, x9
	b.eq	.Lunix_path_BB26_31
	add	x11, x23, x9
	ldrb	w11, [x11, #2]
	cmp	w11, #47
	b.eq	.Lunix_path_BB26_20
	b	.Lunix_path_BB26_32
.Lunix_path_BB26_25:
	mov	w0, wzr
.Lunix_path_BB26_26:
	ldp	x20, x19, [sp, #64]
	ldr	x25, [sp, #16]
	ldp	x22, x21, [sp, #48]
	ldp	x24, x23, [sp, #32]
	ldp	x29, x30, [sp], #80
	ret
.Lunix_path_BB26_27:
	ldrb	w9, [x23]
	cmp	w9, #46
	b.ne	.Lunix_path_BB26_36
	ldrb	w9, [x23, #1]
	cmp	w9, #46
	b.ne	.Lunix_path_BB26_36
	subs	x10, x8, #2
	b.ne	.Lunix_path_BB26_34
	mov	w10, #2
	mov	w9, #2
	mov	w11, w10
	b	.Lunix_path_BB26_61
.Lunix_path_BB26_31:
	mov	x9, x1
.Lunix_path_BB26_32:
	add	x10, x9, #1
.Lunix_path_BB26_33:
	ldrb	w9, [x23]
	cmp	w9, #47
	mov	w9, #1
	cset	w11, ne
	b	.Lunix_path_BB26_61
.Lunix_path_BB26_34:
	ldrb	w9, [x23, #2]
	cmp	w9, #47
	b.ne	.Lunix_path_BB26_36
	mov	x9, xzr
	sub	x11, x8, #3
	b	.Lunix_path_BB26_42
.Lunix_path_BB26_36:
	cmp	x8, #15
	b.hi	.Lunix_path_BB26_46
.Lunix_path_BB26_37:
	mov	x9, xzr
.Lunix_path_BB26_38:
	ldrb	w10, [x23, x9]
	cmp	w10, #47
	b.eq	.Lunix_path_BB26_52
	add	x9, x9, #1
	cmp	x8, x9
	b.ne	.Lunix_path_BB26_38
	mov	x9, x8
	b	.Lunix_path_BB26_52
.Lunix_path_BB26_41:
	add	x9, x9, #1
	cmp	x10, x9
	b.eq	.Lunix_path_BB26_62
.Lunix_path_BB26_42:
	add	x12, x23, x9
	ldrb	w12, [x12, #2]
	cmp	w12, #47
	b.eq	.Lunix_path_BB26_41
	cmp	w12, #46
	b.ne	.Lunix_path_BB26_63
	cmp	x11, x9
	b.eq	.Lunix_path_BB26_62
	add	x12, x23, x9
	ldrb	w12, [x12, #3]
	cmp	w12, #47
	b.eq	.Lunix_path_BB26_41
	b	.Lunix_path_BB26_63
.Lunix_path_BB26_46:
	subs	x9, x8, #16
	adrp	x10, .Lunix_path_CPI26_0
	b.eq	.Lunix_path_BB26_50
	mov	x11, xzr
.Lunix_path_BB26_48:
	movi	v0.16b, #47
	ldr	q1, [x23, x11]
	cmeq	v0.16b, v1.16b, v0.16b
	ldr	q1, [x10, :lo12:.Lunix_path_CPI26_0]
	and	v0.16b, v0.16b, v1.16b
	addp	v0.16b, v0.16b, v0.16b
	addp	v0.16b, v0.16b, v0.16b
	addp	v0.16b, v0.16b, v0.16b
	umov	w12, v0.h[0]
	orr	w12, w12, #0x10000
	rbit	w12, w12
	clz	w12, w12
	cmp	w12, #15
	b.ls	.Lunix_path_BB26_51
	add	x11, x11, #16
	cmp	x11, x9
	b.lo	.Lunix_path_BB26_48
.Lunix_path_BB26_50:
	movi	v0.16b, #47
	ldr	q1, [x23, x9]
	cmeq	v0.16b, v1.16b, v0.16b
	ldr	q1, [x10, :lo12:.Lunix_path_CPI26_0]
	and	v0.16b, v0.16b, v1.16b
	addp	v0.16b, v0.16b, v0.16b
	addp	v0.16b, v0.16b, v0.16b
	addp	v0.16b, v0.16b, v0.16b
	umov	w10, v0.h[0]
	orr	w10, w10, #0x10000
	rbit	w10, w10
	clz	w10, w10
	add	x9, x9, x10
	b	.Lunix_path_BB26_52
.Lunix_path_BB26_51:
	add	x9, x11, w12, uxtw
.Lunix_path_BB26_52:
	mov	x10, xzr
	subs	x11, x8, x9
	b.eq	.Lunix_path_BB26_60
	add	x12, x23, x9
	sub	x13, x11, #1
	b	.Lunix_path_BB26_55
.Lunix_path_BB26_54:
	add	x10, x10, #1
	cmp	x11, x10
	b.eq	.Lunix_path_BB26_59
.Lunix_path_BB26_55:
	ldrb	w14, [x12, x10]
	cmp	w14, #47
	b.eq	.Lunix_path_BB26_54
	cmp	w14, #46
	b.ne	.Lunix_path_BB26_60
	cmp	x13, x10
	b.eq	.Lunix_path_BB26_59
	add	x14, x12, x10
	ldrb	w14, [x14, #1]
	cmp	w14, #47
	b.eq	.Lunix_path_BB26_54
	b	.Lunix_path_BB26_60
.Lunix_path_BB26_59:
	mov	x10, x11
.Lunix_path_BB26_60:
	add	x10, x10, x9
	mov	w11, #3
.Lunix_path_BB26_61:
	stp	x22, x9, [x20]
	add	x9, x10, x22
	add	x8, x8, x22
	mov	w0, #1
	stp	w11, wzr, [x20, #16]
	stp	x9, x8, [x19]
	ldp	x20, x19, [sp, #64]
	ldr	x25, [sp, #16]
	ldp	x22, x21, [sp, #48]
	ldp	x24, x23, [sp, #32]
	ldp	x29, x30, [sp], #80
	ret
.Lunix_path_BB26_62:
	mov	x9, x10
.Lunix_path_BB26_63:
	add	x10, x9, #2
	mov	w11, #2
	mov	w9, #2
	b	.Lunix_path_BB26_61
.Lunix_path_func_end26:
	.size	unix_path_c.walks.take_first, .Lunix_path_func_end26-unix_path_c.walks.take_first
	.section	.rodata.cst16,"aM",@progbits,16
	.p2align	4, 0x0
.Lunix_path_CPI27_0:
	.byte	1
	.byte	2
	.byte	4
	.byte	8
	.byte	16
	.byte	32
	.byte	64
	.byte	128
	.byte	1
	.byte	2
	.byte	4
	.byte	8
	.byte	16
	.byte	32
	.byte	64
	.byte	128
	.section	.text.unix_path.path.Path.parent_len,"ax",@progbits
	.p2align	2
	.type	unix_path.path.Path.parent_len,@function
// unix_path::path::Path::parent_len
unix_path.path.Path.parent_len:
	cbz	x1, .Lunix_path_BB27_9
	stp	x29, x30, [sp, #-32]!
	stp	x20, x19, [sp, #16]
	mov	x20, x1
	mov	x19, x0
	mov	x0, x1
	mov	x29, sp
	b	.Lunix_path_BB27_3
.Lunix_path_BB27_2:
	mov	x0, x1
	cbz	x1, .Lunix_path_BB27_12
.Lunix_path_BB27_3:
	subs	x1, x0, #1
	b.eq	.Lunix_path_BB27_10
	add	x8, x19, x1
	ldrb	w9, [x8]
	cmp	w9, #47
	b.eq	.Lunix_path_BB27_7
	cmp	w9, #46
	b.ne	.Lunix_path_BB27_13
	ldurb	w8, [x8, #-1]
	cmp	w8, #47
	b.ne	.Lunix_path_BB27_13
.Lunix_path_BB27_7:
	sub	x8, x20, x1
	cmp	x8, #8
	b.ne	.Lunix_path_BB27_2
	mov	x0, x19
	bl	unix_path.filler.trimmed_blocks_len
	mov	x1, x0
	b	.Lunix_path_BB27_2
.Lunix_path_BB27_9:
	mov	w0, wzr
	ret
.Lunix_path_BB27_10:
	ldrb	w8, [x19]
	cmp	w8, #46
	b.ne	.Lunix_path_BB27_20
	mov	x1, xzr
.Lunix_path_BB27_12:
	ldp	x20, x19, [sp, #16]
	ldp	x29, x30, [sp], #32
	ret
.Lunix_path_BB27_13:
	add	x8, x19, x0
	ldurb	w9, [x8, #-1]
	cmp	w9, #46
	b.ne	.Lunix_path_BB27_20
	ldurb	w9, [x8, #-2]
	cmp	w9, #46
	b.ne	.Lunix_path_BB27_20
	subs	x20, x0, #2
	b.ne	.Lunix_path_BB27_18
.Lunix_path_BB27_16:
	mov	x1, xzr
.Lunix_path_BB27_17:
	mov	w0, #1
	ldp	x20, x19, [sp, #16]
	ldp	x29, x30, [sp], #32
	ret
.Lunix_path_BB27_18:
	ldurb	w8, [x8, #-3]
	cmp	w8, #47
	b.ne	.Lunix_path_BB27_20
	mov	x9, x20
	b	.Lunix_path_BB27_38
.Lunix_path_BB27_20:
	mov	x8, x0
.Lunix_path_BB27_21:
	cmp	x8, #15
	b.ls	.Lunix_path_BB27_25
	movi	v0.16b, #47
	add	x9, x19, x8
	ldur	q1, [x9, #-16]
	adrp	x9, .Lunix_path_CPI27_0
	cmeq	v0.16b, v1.16b, v0.16b
	ldr	q1, [x9, :lo12:.Lunix_path_CPI27_0]
	sub	x9, x8, #16
	mov	x8, x9
	and	v0.16b, v0.16b, v1.16b
	addp	v0.16b, v0.16b, v0.16b
	addp	v0.16b, v0.16b, v0.16b
	addp	v0.16b, v0.16b, v0.16b
	umov	w10, v0.h[0]
	cbz	w10, .Lunix_path_BB27_21
	umov	w8, v0.h[0]
	and	x8, x8, #0xffff
	clz	x8, x8
	sub	x8, x9, x8
	add	x20, x8, #64
	cmp	x20, x0
	b.ne	.Lunix_path_BB27_29
.Lunix_path_BB27_24:
	mov	x1, xzr
	mov	w0, wzr
	ldp	x20, x19, [sp, #16]
	ldp	x29, x30, [sp], #32
	ret
.Lunix_path_BB27_25:
	sub	x9, x19, #1
.Lunix_path_BB27_26:
	cbz	x8, .Lunix_path_BB27_16
	ldrb	w11, [x9, x8]
	sub	x10, x8, #1
	mov	x8, x10
	cmp	w11, #47
	b.ne	.Lunix_path_BB27_26
	add	x20, x10, #1
	cmp	x20, x0
	b.eq	.Lunix_path_BB27_24
.Lunix_path_BB27_29:
	mov	x1, x20
	b	.Lunix_path_BB27_31
.Lunix_path_BB27_30:
	mov	x1, x8
	cbz	x8, .Lunix_path_BB27_17
.Lunix_path_BB27_31:
	subs	x8, x1, #1
	b.eq	.Lunix_path_BB27_44
	add	x9, x19, x8
	ldrb	w10, [x9]
	cmp	w10, #47
	b.eq	.Lunix_path_BB27_35
	cmp	w10, #46
	b.ne	.Lunix_path_BB27_17
	ldurb	w9, [x9, #-1]
	cmp	w9, #47
	b.ne	.Lunix_path_BB27_17
.Lunix_path_BB27_35:
	sub	x9, x20, x8
	cmp	x9, #8
	b.ne	.Lunix_path_BB27_30
	mov	x0, x19
	mov	x1, x8
	bl	unix_path.filler.trimmed_blocks_len
	mov	x8, x0
	b	.Lunix_path_BB27_30
.Lunix_path_BB27_37:
	mov	x1, xzr
	mov	w0, #1
	mov	x9, x8
	cbz	x8, .Lunix_path_BB27_12
.Lunix_path_BB27_38:
	subs	x8, x9, #1
	b.eq	.Lunix_path_BB27_45
	add	x10, x19, x8
	ldrb	w11, [x10]
	cmp	w11, #47
	b.eq	.Lunix_path_BB27_42
	cmp	w11, #46
	b.ne	.Lunix_path_BB27_46
	ldurb	w10, [x10, #-1]
	cmp	w10, #47
	b.ne	.Lunix_path_BB27_46
.Lunix_path_BB27_42:
	sub	x9, x20, x8
	cmp	x9, #8
	b.ne	.Lunix_path_BB27_37
	mov	x0, x19
	mov	x1, x8
	bl	unix_path.filler.trimmed_blocks_len
	mov	x8, x0
	b	.Lunix_path_BB27_37
.Lunix_path_BB27_44:
	mov	w0, w1
	ldp	x20, x19, [sp, #16]
	ldp	x29, x30, [sp], #32
	ret
.Lunix_path_BB27_45:
	mov	w1, #1
	mov	w0, w1
	ldp	x20, x19, [sp, #16]
	ldp	x29, x30, [sp], #32
	ret
.Lunix_path_BB27_46:
	mov	w0, #1
	mov	x1, x9
	ldp	x20, x19, [sp, #16]
	ldp	x29, x30, [sp], #32
	ret
.Lunix_path_func_end27:
	.size	unix_path.path.Path.parent_len, .Lunix_path_func_end27-unix_path.path.Path.parent_len
	.section	.rodata.cst16,"aM",@progbits,16
	.p2align	4, 0x0
.Lunix_path_CPI28_0:
	.byte	1
	.byte	2
	.byte	4
	.byte	8
	.byte	16
	.byte	32
	.byte	64
	.byte	128
	.byte	1
	.byte	2
	.byte	4
	.byte	8
	.byte	16
	.byte	32
	.byte	64
	.byte	128
	.section	.text.unix_path_c.walks.take_last,"ax",@progbits
	.p2align	2
	.type	unix_path_c.walks.take_last,@function
// unix_path_c::walks::take_last
unix_path_c.walks.take_last:
	stp	x29, x30, [sp, #-80]!
	stp	x24, x23, [sp, #32]
	ldp	x24, x8, [x2]
	stp	x26, x25, [sp, #16]
	mov	x29, sp
	stp	x22, x21, [sp, #48]
	mov	x22, x0
	mov	w0, wzr
	subs	x26, x8, x24
	add	x21, x22, x24
	stp	x20, x19, [sp, #64]
	cset	w9, lo
	cmp	x1, x8
	csinc	w8, w9, wzr, hs
	adrp	x9, .Lunix_path_static.0
	add	x9, x9, :lo12:.Lunix_path_static.0
	cmp	w8, #0
	csel	x23, x9, x21, ne
	tbnz	w8, #0, .Lunix_path_BB28_17
	cbz	x26, .Lunix_path_BB28_17
	mov	x20, x3
	mov	x19, x2
	mov	x25, x26
	b	.Lunix_path_BB28_4
.Lunix_path_BB28_3:
	mov	x25, x1
	cbz	x1, .Lunix_path_BB28_16
.Lunix_path_BB28_4:
	subs	x1, x25, #1
	b.eq	.Lunix_path_BB28_10
	add	x8, x23, x1
	ldrb	w9, [x8]
	cmp	w9, #47
	b.eq	.Lunix_path_BB28_8
	cmp	w9, #46
	b.ne	.Lunix_path_BB28_12
	ldurb	w8, [x8, #-1]
	cmp	w8, #47
	b.ne	.Lunix_path_BB28_12
.Lunix_path_BB28_8:
	sub	x8, x26, x1
	cmp	x8, #8
	b.ne	.Lunix_path_BB28_3
	mov	x0, x23
	bl	unix_path.filler.trimmed_blocks_len
	mov	x1, x0
	b	.Lunix_path_BB28_3
.Lunix_path_BB28_10:
	ldrb	w8, [x21]
	cmp	w8, #46
	b.ne	.Lunix_path_BB28_20
	mov	w25, #1
	mov	x8, xzr
	mov	w22, #1
	mov	w9, w25
	b	.Lunix_path_BB28_46
.Lunix_path_BB28_12:
	add	x8, x21, x25
	ldurb	w9, [x8, #-1]
	cmp	w9, #46
	b.ne	.Lunix_path_BB28_20
	ldurb	w9, [x8, #-2]
	cmp	w9, #46
	b.ne	.Lunix_path_BB28_20
	subs	x23, x25, #2
	b.ne	.Lunix_path_BB28_18
	mov	x8, xzr
	mov	w9, w25
	mov	w22, #2
	b	.Lunix_path_BB28_46
.Lunix_path_BB28_16:
	mov	w0, wzr
.Lunix_path_BB28_17:
	ldp	x20, x19, [sp, #64]
	ldp	x22, x21, [sp, #48]
	ldp	x24, x23, [sp, #32]
	ldp	x26, x25, [sp, #16]
	ldp	x29, x30, [sp], #80
	ret
.Lunix_path_BB28_18:
	ldurb	w8, [x8, #-3]
	cmp	w8, #47
	b.ne	.Lunix_path_BB28_20
	mov	x8, x23
	b	.Lunix_path_BB28_38
.Lunix_path_BB28_20:
	add	x8, x24, x22
	sub	x9, x8, #16
	mov	x8, x25
.Lunix_path_BB28_21:
	cmp	x8, #15
	b.ls	.Lunix_path_BB28_25
	movi	v0.16b, #47
	ldr	q1, [x9, x8]
	adrp	x10, .Lunix_path_CPI28_0
	cmeq	v0.16b, v1.16b, v0.16b
	ldr	q1, [x10, :lo12:.Lunix_path_CPI28_0]
	sub	x10, x8, #16
	mov	x8, x10
	and	v0.16b, v0.16b, v1.16b
	addp	v0.16b, v0.16b, v0.16b
	addp	v0.16b, v0.16b, v0.16b
	addp	v0.16b, v0.16b, v0.16b
	umov	w11, v0.h[0]
	cbz	w11, .Lunix_path_BB28_21
	umov	w8, v0.h[0]
	and	x8, x8, #0xffff
	clz	x8, x8
	sub	x8, x10, x8
	add	x23, x8, #64
	subs	x22, x25, x23
	b.ne	.Lunix_path_BB28_29
.Lunix_path_BB28_24:
	mov	w9, wzr
	mov	x8, xzr
	mov	w22, #1
	b	.Lunix_path_BB28_46
.Lunix_path_BB28_25:
	add	x9, x24, x22
	sub	x9, x9, #1
.Lunix_path_BB28_26:
	cbz	x8, .Lunix_path_BB28_45
	ldrb	w11, [x9, x8]
	sub	x10, x8, #1
	mov	x8, x10
	cmp	w11, #47
	b.ne	.Lunix_path_BB28_26
	add	x23, x10, #1
	subs	x22, x25, x23
	b.eq	.Lunix_path_BB28_24
.Lunix_path_BB28_29:
	mov	x8, x23
	b	.Lunix_path_BB28_31
.Lunix_path_BB28_30:
	mov	x8, x1
	cbz	x1, .Lunix_path_BB28_44
.Lunix_path_BB28_31:
	subs	x1, x8, #1
	b.eq	.Lunix_path_BB28_44
	add	x9, x21, x1
	ldrb	w10, [x9]
	cmp	w10, #47
	b.eq	.Lunix_path_BB28_35
	cmp	w10, #46
	b.ne	.Lunix_path_BB28_44
	ldurb	w9, [x9, #-1]
	cmp	w9, #47
	b.ne	.Lunix_path_BB28_44
.Lunix_path_BB28_35:
	sub	x8, x23, x1
	cmp	x8, #8
	b.ne	.Lunix_path_BB28_30
	mov	x0, x21
	bl	unix_path.filler.trimmed_blocks_len
	mov	x1, x0
	b	.Lunix_path_BB28_30
.Lunix_path_BB28_37:
	mov	w9, #2
	mov	x8, x1
	cbz	x1, .Lunix_path_BB28_48
.Lunix_path_BB28_38:
	subs	x1, x8, #1
	b.eq	.Lunix_path_BB28_47
	add	x9, x21, x1
	ldrb	w10, [x9]
	cmp	w10, #47
	b.eq	.Lunix_path_BB28_42
	cmp	w10, #46
	b.ne	.Lunix_path_BB28_47
	ldurb	w9, [x9, #-1]
	cmp	w9, #47
	b.ne	.Lunix_path_BB28_47
.Lunix_path_BB28_42:
	sub	x8, x23, x1
	cmp	x8, #8
	b.ne	.Lunix_path_BB28_37
	mov	x0, x21
	bl	unix_path.filler.trimmed_blocks_len
	mov	x1, x0
	b	.Lunix_path_BB28_37
.Lunix_path_BB28_44:
	mov	w9, #3
	b	.Lunix_path_BB28_46
.Lunix_path_BB28_45:
	mov	w9, #3
	mov	x22, x25
.Lunix_path_BB28_46:
	add	x10, x25, x24
	stp	w9, wzr, [x20, #16]
	mov	w0, #1
	sub	x10, x10, x22
	stp	x10, x22, [x20]
	ldr	x9, [x19]
	add	x8, x9, x8
	str	x8, [x19, #8]
	ldp	x20, x19, [sp, #64]
	ldp	x22, x21, [sp, #48]
	ldp	x24, x23, [sp, #32]
	ldp	x26, x25, [sp, #16]
	ldp	x29, x30, [sp], #80
	ret
.Lunix_path_BB28_47:
	mov	w22, #2
	mov	w9, w22
	b	.Lunix_path_BB28_46
.Lunix_path_BB28_48:
	mov	w22, #2
	b	.Lunix_path_BB28_46
.Lunix_path_func_end28:
	.size	unix_path_c.walks.take_last, .Lunix_path_func_end28-unix_path_c.walks.take_last
	.section	.rodata.cst16,"aM",@progbits,16
	.p2align	4, 0x0
.Lunix_path_CPI29_0:
	.byte	1
	.byte	2
	.byte	4
	.byte	8
	.byte	16
	.byte	32
	.byte	64
	.byte	128
	.byte	1
	.byte	2
	.byte	4
	.byte	8
	.byte	16
	.byte	32
	.byte	64
	.byte	128
	.section	.rodata.cst8,"aM",@progbits,8
	.p2align	3, 0x0
.Lunix_path_CPI29_1:
	.byte	1
	.byte	2
	.byte	4
	.byte	8
	.byte	16
	.byte	32
	.byte	64
	.byte	128
	.section	.text.path_within.outlined.is_names_only,"ax",@progbits
	.p2align	2
	.type	path_within.outlined.is_names_only,@function
// path_within::outlined::is_names_only
path_within.outlined.is_names_only:
	cbz	x1, .Lunix_path_BB29_10
	mov	x8, x0
	ldrb	w9, [x8], #1
	cmp	w9, #47
	cset	w10, eq
	csel	x9, x0, x8, ne
	subs	x8, x1, x10
	b.eq	.Lunix_path_BB29_10
	ldrb	w10, [x9]
	cmp	w10, #47
	b.eq	.Lunix_path_BB29_10
	cmp	w10, #46
	b.ne	.Lunix_path_BB29_9
	cmp	x8, #2
	b.lo	.Lunix_path_BB29_10
	ldrb	w10, [x9, #1]
	cmp	w10, #47
	b.eq	.Lunix_path_BB29_10
	cmp	w10, #46
	b.ne	.Lunix_path_BB29_9
	cmp	x8, #2
	b.eq	.Lunix_path_BB29_10
	ldrb	w10, [x9, #2]
	cmp	w10, #47
	b.eq	.Lunix_path_BB29_10
.Lunix_path_BB29_9:
	add	x13, x0, x1
	ldurb	w10, [x13, #-1]
	and	w10, w10, #0xfe
	cmp	w10, #46
	b.ne	.Lunix_path_BB29_11
.Lunix_path_BB29_10:
	mov	w0, wzr
	ret
.Lunix_path_BB29_11:
	subs	x11, x8, #17
	b.hs	.Lunix_path_BB29_14
.Lunix_path_BB29_12:
	cmp	x8, #9
	b.hs	.Lunix_path_BB29_22
	mov	x10, xzr
	b	.Lunix_path_BB29_39
.Lunix_path_BB29_14:
	cmp	x8, #32
	adrp	x10, .Lunix_path_CPI29_0
	b.hi	.Lunix_path_BB29_24
	movi	v0.16b, #208
	ldur	q1, [x9, #1]
	ldr	q3, [x9]
	and	v2.16b, v1.16b, v0.16b
	movi	v1.16b, #47
	orr	v2.16b, v2.16b, v3.16b
	cmeq	v3.16b, v2.16b, v1.16b
	ldr	q2, [x10, :lo12:.Lunix_path_CPI29_0]
	and	v3.16b, v3.16b, v2.16b
	addp	v3.16b, v3.16b, v3.16b
	addp	v3.16b, v3.16b, v3.16b
	addp	v3.16b, v3.16b, v3.16b
	umov	w12, v3.h[0]
	cbnz	w12, .Lunix_path_BB29_17
	ldur	q3, [x13, #-16]
	and	v0.16b, v3.16b, v0.16b
	ldur	q3, [x13, #-17]
	orr	v0.16b, v0.16b, v3.16b
	cmeq	v0.16b, v0.16b, v1.16b
	and	v0.16b, v0.16b, v2.16b
	addp	v0.16b, v0.16b, v0.16b
	addp	v0.16b, v0.16b, v0.16b
	addp	v0.16b, v0.16b, v0.16b
	umov	w12, v0.h[0]
	cbz	w12, .Lunix_path_BB29_37
.Lunix_path_BB29_17:
	cmp	x8, #18
	b.ls	.Lunix_path_BB29_12
	subs	x12, x8, #19
	b.ne	.Lunix_path_BB29_26
	mov	x13, xzr
.Lunix_path_BB29_20:
	cmp	x11, x13
	movi	v0.16b, #208
	csel	x11, x11, x13, lo
	add	x13, x9, x11
	ldur	q1, [x13, #1]
	ldr	q2, [x13]
	and	v1.16b, v1.16b, v0.16b
	movi	v0.16b, #47
	orr	v1.16b, v1.16b, v2.16b
	cmeq	v2.16b, v1.16b, v0.16b
	ldr	q1, [x10, :lo12:.Lunix_path_CPI29_0]
	and	v2.16b, v2.16b, v1.16b
	addp	v2.16b, v2.16b, v2.16b
	addp	v2.16b, v2.16b, v2.16b
	addp	v2.16b, v2.16b, v2.16b
	umov	w10, v2.h[0]
	cbz	w10, .Lunix_path_BB29_38
	movi	v2.16b, #46
	add	x10, x9, x12
	ldur	q3, [x10, #2]
	ldur	q4, [x10, #3]
	cmeq	v4.16b, v4.16b, v0.16b
	cmeq	v5.16b, v3.16b, v2.16b
	cmeq	v3.16b, v3.16b, v0.16b
	and	v4.16b, v5.16b, v4.16b
	ldur	q5, [x10, #1]
	cmeq	v2.16b, v5.16b, v2.16b
	orr	v3.16b, v3.16b, v4.16b
	ldr	q4, [x10]
	and	v2.16b, v2.16b, v3.16b
	cmeq	v3.16b, v4.16b, v0.16b
	cmeq	v0.16b, v5.16b, v0.16b
	orr	v0.16b, v0.16b, v2.16b
	and	v1.16b, v3.16b, v1.16b
	and	v0.16b, v1.16b, v0.16b
	addp	v0.16b, v0.16b, v0.16b
	addp	v0.16b, v0.16b, v0.16b
	addp	v0.16b, v0.16b, v0.16b
	umov	w10, v0.h[0]
	orr	w10, w10, #0x10000
	rbit	w10, w10
	clz	w10, w10
	add	x10, x12, x10
	b	.Lunix_path_BB29_39
.Lunix_path_BB29_22:
	movi	v0.8b, #254
	movi	v1.8b, #47
	ldr	d3, [x9]
	ldur	d4, [x9, #1]
	movi	v2.8b, #46
	adrp	x10, .Lunix_path_CPI29_1
	and	v4.8b, v4.8b, v0.8b
	cmeq	v5.8b, v3.8b, v1.8b
	ldr	d3, [x10, :lo12:.Lunix_path_CPI29_1]
	cmeq	v4.8b, v4.8b, v2.8b
	and	v5.8b, v5.8b, v3.8b
	and	v4.8b, v5.8b, v4.8b
	addv	b4, v4.8b
	fmov	w10, s4
	orr	w10, w10, #0x100
	rbit	w10, w10
	clz	w10, w10
	cmp	w10, #8
	b.lo	.Lunix_path_BB29_39
	cmp	x8, #17
	mov	w10, #17
	csel	x10, x8, x10, lo
	sub	x10, x10, #9
	add	x11, x9, x10
	ldr	d4, [x11]
	ldur	d5, [x11, #1]
	and	v0.8b, v5.8b, v0.8b
	cmeq	v1.8b, v4.8b, v1.8b
	cmeq	v0.8b, v0.8b, v2.8b
	and	v1.8b, v1.8b, v3.8b
	and	v0.8b, v1.8b, v0.8b
	addv	b0, v0.8b
	fmov	w11, s0
	orr	w11, w11, #0x100
	rbit	w11, w11
	clz	w11, w11
	add	x10, x10, x11
	b	.Lunix_path_BB29_39
.Lunix_path_BB29_24:
	sub	x12, x8, #33
	movi	v0.16b, #208
	ldur	q2, [x13, #-16]
	add	x14, x9, x12
	ldur	q3, [x13, #-17]
	movi	v4.16b, #47
	ldur	q1, [x14, #1]
	and	v1.16b, v1.16b, v0.16b
	and	v0.16b, v2.16b, v0.16b
	ldr	q2, [x14]
	orr	v1.16b, v1.16b, v2.16b
	orr	v0.16b, v0.16b, v3.16b
	cmeq	v1.16b, v1.16b, v4.16b
	cmeq	v2.16b, v0.16b, v4.16b
	ldr	q0, [x10, :lo12:.Lunix_path_CPI29_0]
	and	v1.16b, v1.16b, v0.16b
	and	v2.16b, v2.16b, v0.16b
	addp	v1.16b, v1.16b, v1.16b
	addp	v2.16b, v2.16b, v2.16b
	addp	v1.16b, v1.16b, v1.16b
	addp	v2.16b, v2.16b, v2.16b
	addp	v1.16b, v1.16b, v1.16b
	addp	v2.16b, v2.16b, v2.16b
	orr	v1.16b, v2.16b, v1.16b
	umov	w13, v1.h[0]
	cbz	w13, .Lunix_path_BB29_33
	sub	x12, x8, #19
.Lunix_path_BB29_26:
	mov	x13, xzr
	b	.Lunix_path_BB29_30
.Lunix_path_BB29_27:
	movi	v4.16b, #46
	ldur	q5, [x14, #2]
	ldur	q6, [x14, #3]
	cmeq	v1.16b, v1.16b, v2.16b
	cmeq	v6.16b, v6.16b, v2.16b
	cmeq	v7.16b, v5.16b, v4.16b
	cmeq	v5.16b, v5.16b, v2.16b
	cmeq	v4.16b, v0.16b, v4.16b
	cmeq	v0.16b, v0.16b, v2.16b
	and	v1.16b, v1.16b, v3.16b
	and	v6.16b, v7.16b, v6.16b
	orr	v5.16b, v5.16b, v6.16b
	and	v4.16b, v4.16b, v5.16b
	orr	v0.16b, v0.16b, v4.16b
	and	v0.16b, v1.16b, v0.16b
	addp	v0.16b, v0.16b, v0.16b
	addp	v0.16b, v0.16b, v0.16b
	addp	v0.16b, v0.16b, v0.16b
	umov	w14, v0.h[0]
	orr	w14, w14, #0x10000
	rbit	w14, w14
	clz	w14, w14
	cmp	w14, #15
	b.ls	.Lunix_path_BB29_32
	add	x13, x13, #16
.Lunix_path_BB29_29:
	cmp	x13, x12
	b.hs	.Lunix_path_BB29_20
.Lunix_path_BB29_30:
	movi	v1.16b, #208
	add	x14, x9, x13
	movi	v2.16b, #47
	ldur	q0, [x14, #1]
	and	v3.16b, v0.16b, v1.16b
	ldr	q1, [x14]
	orr	v3.16b, v3.16b, v1.16b
	cmeq	v4.16b, v3.16b, v2.16b
	ldr	q3, [x10, :lo12:.Lunix_path_CPI29_0]
	and	v4.16b, v4.16b, v3.16b
	addp	v4.16b, v4.16b, v4.16b
	addp	v4.16b, v4.16b, v4.16b
	addp	v4.16b, v4.16b, v4.16b
	umov	w15, v4.h[0]
	cbnz	w15, .Lunix_path_BB29_27
	add	x13, x13, #16
	cmp	x13, x12
	b.lo	.Lunix_path_BB29_30
	b	.Lunix_path_BB29_29
.Lunix_path_BB29_32:
	add	x10, x13, w14, uxtw
	b	.Lunix_path_BB29_39
.Lunix_path_BB29_33:
	cbz	x12, .Lunix_path_BB29_37
	mov	x13, xzr
.Lunix_path_BB29_35:
	movi	v1.16b, #208
	add	x14, x9, x13
	movi	v5.16b, #47
	ldur	q2, [x14, #1]
	ldur	q3, [x14, #17]
	and	v2.16b, v2.16b, v1.16b
	and	v1.16b, v3.16b, v1.16b
	ldp	q3, q4, [x14]
	orr	v2.16b, v2.16b, v3.16b
	orr	v1.16b, v1.16b, v4.16b
	cmeq	v2.16b, v2.16b, v5.16b
	cmeq	v1.16b, v1.16b, v5.16b
	and	v2.16b, v2.16b, v0.16b
	and	v1.16b, v1.16b, v0.16b
	addp	v2.16b, v2.16b, v2.16b
	addp	v1.16b, v1.16b, v1.16b
	addp	v2.16b, v2.16b, v2.16b
	addp	v1.16b, v1.16b, v1.16b
	addp	v2.16b, v2.16b, v2.16b
	addp	v1.16b, v1.16b, v1.16b
	orr	v1.16b, v1.16b, v2.16b
	umov	w14, v1.h[0]
	cbnz	w14, .Lunix_path_BB29_17
	add	x13, x13, #32
	mov	w0, #1
	cmp	x13, x12
	b.lo	.Lunix_path_BB29_35
	b	.Lunix_path_BB29_51
.Lunix_path_BB29_37:
	mov	w0, #1
	ret
.Lunix_path_BB29_38:
	add	x10, x11, #16
.Lunix_path_BB29_39:
	cmp	x10, x8
	b.lo	.Lunix_path_BB29_42
	b	.Lunix_path_BB29_50
.Lunix_path_BB29_40:
	cmp	w12, #47
	b.eq	.Lunix_path_BB29_50
.Lunix_path_BB29_41:
	cmp	x11, x8
	mov	x10, x11
	b.hs	.Lunix_path_BB29_49
.Lunix_path_BB29_42:
	ldrb	w11, [x9, x10]
	cmp	w11, #47
	add	x11, x10, #1
	b.ne	.Lunix_path_BB29_41
	cmp	x8, x11
	b.ls	.Lunix_path_BB29_50
	add	x12, x9, x10
	ldrb	w12, [x12, #1]
	cmp	w12, #46
	b.ne	.Lunix_path_BB29_40
	add	x12, x10, #2
	cmp	x8, x12
	b.ls	.Lunix_path_BB29_50
	add	x12, x9, x10
	ldrb	w12, [x12, #2]
	cmp	w12, #46
	b.ne	.Lunix_path_BB29_40
	add	x12, x10, #3
	cmp	x8, x12
	b.ls	.Lunix_path_BB29_50
	add	x12, x9, x10
	ldrb	w12, [x12, #3]
	b	.Lunix_path_BB29_40
.Lunix_path_BB29_49:
	mov	x10, x8
.Lunix_path_BB29_50:
	cmp	x10, x8
	cset	w0, eq
.Lunix_path_BB29_51:
	ret
.Lunix_path_func_end29:
	.size	path_within.outlined.is_names_only, .Lunix_path_func_end29-path_within.outlined.is_names_only
	.section	.rodata.cst16,"aM",@progbits,16
	.p2align	4, 0x0
.Lunix_path_CPI30_0:
	.byte	1
	.byte	2
	.byte	4
	.byte	8
	.byte	16
	.byte	32
	.byte	64
	.byte	128
	.byte	1
	.byte	2
	.byte	4
	.byte	8
	.byte	16
	.byte	32
	.byte	64
	.byte	128
	.section	.rodata.cst8,"aM",@progbits,8
	.p2align	3, 0x0
.Lunix_path_CPI30_1:
	.byte	1
	.byte	2
	.byte	4
	.byte	8
	.byte	16
	.byte	32
	.byte	64
	.byte	128
	.section	.text.path_within.write.Layout.resolve_names,"ax",@progbits
	.p2align	2
	.type	path_within.write.Layout.resolve_names,@function
// path_within::write::Layout::resolve_names
path_within.write.Layout.resolve_names:
	sub	sp, sp, #80
	stp	x22, x21, [sp, #48]
	mov	x21, x1
	stp	x20, x19, [sp, #64]
	mov	x20, x2
	mov	x19, x0
	stp	x29, x30, [sp, #32]
	add	x29, sp, #32
	stp	xzr, xzr, [sp, #8]
	str	xzr, [sp, #24]
	cbz	x2, .Lunix_path_BB30_10
	add	x8, x21, x20
	mov	x22, x20
	ldurb	w8, [x8, #-1]
	and	w8, w8, #0xfe
	cmp	w8, #46
	b.ne	.Lunix_path_BB30_11
	mov	x22, x20
	b	.Lunix_path_BB30_4
.Lunix_path_BB30_3:
	mov	x22, x1
	cbz	x1, .Lunix_path_BB30_11
.Lunix_path_BB30_4:
	subs	x1, x22, #1
	b.eq	.Lunix_path_BB30_11
	add	x8, x21, x1
	ldrb	w9, [x8]
	cmp	w9, #47
	b.eq	.Lunix_path_BB30_8
	cmp	w9, #46
	b.ne	.Lunix_path_BB30_11
	ldurb	w8, [x8, #-1]
	cmp	w8, #47
	b.ne	.Lunix_path_BB30_11
.Lunix_path_BB30_8:
	sub	x8, x20, x1
	cmp	x8, #8
	b.ne	.Lunix_path_BB30_3
	mov	x0, x21
	bl	unix_path.filler.trimmed_blocks_len
	mov	x1, x0
	b	.Lunix_path_BB30_3
.Lunix_path_BB30_10:
	mov	x22, xzr
.Lunix_path_BB30_11:
	mov	x2, xzr
	b	.Lunix_path_BB30_13
.Lunix_path_BB30_12:
	mov	w8, #1
	add	x2, x8, x2
	cmp	x2, #4
	b.hs	.Lunix_path_BB30_19
.Lunix_path_BB30_13:
	cmp	x2, x22
	b.hs	.Lunix_path_BB30_20
	ldrb	w8, [x21, x2]
	cmp	w8, #47
	b.eq	.Lunix_path_BB30_12
	cmp	w8, #46
	b.ne	.Lunix_path_BB30_20
	add	x8, x2, #1
	cmp	x8, x22
	b.eq	.Lunix_path_BB30_12
	ldrb	w8, [x21, x8]
	cmp	w8, #47
	b.ne	.Lunix_path_BB30_20
	mov	w8, #2
	add	x2, x8, x2
	cmp	x2, #4
	b.lo	.Lunix_path_BB30_13
.Lunix_path_BB30_19:
	mov	x0, x21
	mov	x1, x22
	bl	unix_path.filler.filler_end_from
	mov	x2, x0
.Lunix_path_BB30_20:
	subs	x8, x22, x2
	b.eq	.Lunix_path_BB30_72
	add	x10, x21, x2
	ldrb	w9, [x10], #1
	cmp	w9, #47
	add	x9, x21, x2
	cset	w12, eq
	csel	x11, x9, x10, ne
	subs	x10, x8, x12
	b.eq	.Lunix_path_BB30_72
	ldrb	w13, [x11]
	cmp	w13, #47
	b.eq	.Lunix_path_BB30_72
	cmp	w13, #46
	b.ne	.Lunix_path_BB30_29
	cmp	x10, #2
	b.lo	.Lunix_path_BB30_72
	ldrb	w13, [x11, #1]
	cmp	w13, #47
	b.eq	.Lunix_path_BB30_72
	cmp	w13, #46
	b.ne	.Lunix_path_BB30_29
	cmp	x10, #2
	b.eq	.Lunix_path_BB30_72
	ldrb	w13, [x11, #2]
	cmp	w13, #47
	b.eq	.Lunix_path_BB30_72
.Lunix_path_BB30_29:
	add	x16, x21, x22
	ldurb	w13, [x16, #-1]
	and	w13, w13, #0xfe
	cmp	w13, #46
	b.eq	.Lunix_path_BB30_72
	subs	x14, x10, #17
	b.hs	.Lunix_path_BB30_33
.Lunix_path_BB30_31:
	cmp	x10, #9
	b.hs	.Lunix_path_BB30_41
	mov	x13, xzr
	b	.Lunix_path_BB30_57
.Lunix_path_BB30_33:
	cmp	x10, #32
	adrp	x13, .Lunix_path_CPI30_0
	b.hi	.Lunix_path_BB30_43
	movi	v0.16b, #208
	ldur	q1, [x11, #1]
	ldr	q3, [x11]
	and	v2.16b, v1.16b, v0.16b
	movi	v1.16b, #47
	orr	v2.16b, v2.16b, v3.16b
	cmeq	v3.16b, v2.16b, v1.16b
	ldr	q2, [x13, :lo12:.Lunix_path_CPI30_0]
	and	v3.16b, v3.16b, v2.16b
	addp	v3.16b, v3.16b, v3.16b
	addp	v3.16b, v3.16b, v3.16b
	addp	v3.16b, v3.16b, v3.16b
	umov	w15, v3.h[0]
	cbnz	w15, .Lunix_path_BB30_36
	ldur	q3, [x16, #-16]
	and	v0.16b, v3.16b, v0.16b
	ldur	q3, [x16, #-17]
	orr	v0.16b, v0.16b, v3.16b
	cmeq	v0.16b, v0.16b, v1.16b
	and	v0.16b, v0.16b, v2.16b
	addp	v0.16b, v0.16b, v0.16b
	addp	v0.16b, v0.16b, v0.16b
	addp	v0.16b, v0.16b, v0.16b
	umov	w15, v0.h[0]
	cbz	w15, .Lunix_path_BB30_71
.Lunix_path_BB30_36:
	cmp	x10, #18
	b.ls	.Lunix_path_BB30_31
	subs	x15, x10, #19
	b.ne	.Lunix_path_BB30_45
	mov	x16, xzr
.Lunix_path_BB30_39:
	cmp	x14, x16
	movi	v0.16b, #208
	csel	x14, x14, x16, lo
	add	x16, x11, x14
	ldur	q1, [x16, #1]
	ldr	q2, [x16]
	and	v1.16b, v1.16b, v0.16b
	movi	v0.16b, #47
	orr	v1.16b, v1.16b, v2.16b
	cmeq	v2.16b, v1.16b, v0.16b
	ldr	q1, [x13, :lo12:.Lunix_path_CPI30_0]
	and	v2.16b, v2.16b, v1.16b
	addp	v2.16b, v2.16b, v2.16b
	addp	v2.16b, v2.16b, v2.16b
	addp	v2.16b, v2.16b, v2.16b
	umov	w13, v2.h[0]
	cbz	w13, .Lunix_path_BB30_56
	movi	v2.16b, #46
	add	x13, x11, x15
	ldur	q3, [x13, #2]
	ldur	q4, [x13, #3]
	cmeq	v4.16b, v4.16b, v0.16b
	cmeq	v5.16b, v3.16b, v2.16b
	cmeq	v3.16b, v3.16b, v0.16b
	and	v4.16b, v5.16b, v4.16b
	ldur	q5, [x13, #1]
	cmeq	v2.16b, v5.16b, v2.16b
	orr	v3.16b, v3.16b, v4.16b
	ldr	q4, [x13]
	and	v2.16b, v2.16b, v3.16b
	cmeq	v3.16b, v4.16b, v0.16b
	cmeq	v0.16b, v5.16b, v0.16b
	orr	v0.16b, v0.16b, v2.16b
	and	v1.16b, v3.16b, v1.16b
	and	v0.16b, v1.16b, v0.16b
	addp	v0.16b, v0.16b, v0.16b
	addp	v0.16b, v0.16b, v0.16b
	addp	v0.16b, v0.16b, v0.16b
	umov	w13, v0.h[0]
	orr	w13, w13, #0x10000
	rbit	w13, w13
	clz	w13, w13
	add	x13, x15, x13
	b	.Lunix_path_BB30_57
.Lunix_path_BB30_41:
	movi	v0.8b, #254
	movi	v1.8b, #47
	ldr	d3, [x11]
	ldur	d4, [x11, #1]
	movi	v2.8b, #46
	adrp	x13, .Lunix_path_CPI30_1
	and	v4.8b, v4.8b, v0.8b
	cmeq	v5.8b, v3.8b, v1.8b
	ldr	d3, [x13, :lo12:.Lunix_path_CPI30_1]
	cmeq	v4.8b, v4.8b, v2.8b
	and	v5.8b, v5.8b, v3.8b
	and	v4.8b, v5.8b, v4.8b
	addv	b4, v4.8b
	fmov	w13, s4
	orr	w13, w13, #0x100
	rbit	w13, w13
	clz	w13, w13
	cmp	w13, #8
	b.lo	.Lunix_path_BB30_57
	cmp	x10, #17
	mov	w13, #17
	csel	x13, x10, x13, lo
	sub	x13, x13, #9
	add	x14, x11, x13
	ldr	d4, [x14]
	ldur	d5, [x14, #1]
	and	v0.8b, v5.8b, v0.8b
	cmeq	v1.8b, v4.8b, v1.8b
	cmeq	v0.8b, v0.8b, v2.8b
	and	v1.8b, v1.8b, v3.8b
	and	v0.8b, v1.8b, v0.8b
	addv	b0, v0.8b
	fmov	w14, s0
	orr	w14, w14, #0x100
	rbit	w14, w14
	clz	w14, w14
	add	x13, x13, x14
	b	.Lunix_path_BB30_57
.Lunix_path_BB30_43:
	sub	x15, x10, #33
	movi	v0.16b, #208
	ldur	q2, [x16, #-16]
	add	x17, x11, x15
	ldur	q3, [x16, #-17]
	movi	v4.16b, #47
	ldur	q1, [x17, #1]
	and	v1.16b, v1.16b, v0.16b
	and	v0.16b, v2.16b, v0.16b
	ldr	q2, [x17]
	orr	v1.16b, v1.16b, v2.16b
	orr	v0.16b, v0.16b, v3.16b
	cmeq	v1.16b, v1.16b, v4.16b
	cmeq	v2.16b, v0.16b, v4.16b
	ldr	q0, [x13, :lo12:.Lunix_path_CPI30_0]
	and	v1.16b, v1.16b, v0.16b
	and	v2.16b, v2.16b, v0.16b
	addp	v1.16b, v1.16b, v1.16b
	addp	v2.16b, v2.16b, v2.16b
	addp	v1.16b, v1.16b, v1.16b
	addp	v2.16b, v2.16b, v2.16b
	addp	v1.16b, v1.16b, v1.16b
	addp	v2.16b, v2.16b, v2.16b
	orr	v1.16b, v2.16b, v1.16b
	umov	w16, v1.h[0]
	cbz	w16, .Lunix_path_BB30_52
	sub	x15, x10, #19
.Lunix_path_BB30_45:
	mov	x16, xzr
	b	.Lunix_path_BB30_49
.Lunix_path_BB30_46:
	movi	v4.16b, #46
	ldur	q5, [x17, #2]
	ldur	q6, [x17, #3]
	cmeq	v1.16b, v1.16b, v2.16b
	cmeq	v6.16b, v6.16b, v2.16b
	cmeq	v7.16b, v5.16b, v4.16b
	cmeq	v5.16b, v5.16b, v2.16b
	cmeq	v4.16b, v0.16b, v4.16b
	cmeq	v0.16b, v0.16b, v2.16b
	and	v1.16b, v1.16b, v3.16b
	and	v6.16b, v7.16b, v6.16b
	orr	v5.16b, v5.16b, v6.16b
	and	v4.16b, v4.16b, v5.16b
	orr	v0.16b, v0.16b, v4.16b
	and	v0.16b, v1.16b, v0.16b
	addp	v0.16b, v0.16b, v0.16b
	addp	v0.16b, v0.16b, v0.16b
	addp	v0.16b, v0.16b, v0.16b
	umov	w17, v0.h[0]
	orr	w17, w17, #0x10000
	rbit	w17, w17
	clz	w17, w17
	cmp	w17, #15
	b.ls	.Lunix_path_BB30_51
	add	x16, x16, #16
.Lunix_path_BB30_48:
	cmp	x16, x15
	b.hs	.Lunix_path_BB30_39
.Lunix_path_BB30_49:
	movi	v1.16b, #208
	add	x17, x11, x16
	movi	v2.16b, #47
	ldur	q0, [x17, #1]
	and	v3.16b, v0.16b, v1.16b
	ldr	q1, [x17]
	orr	v3.16b, v3.16b, v1.16b
	cmeq	v4.16b, v3.16b, v2.16b
	ldr	q3, [x13, :lo12:.Lunix_path_CPI30_0]
	and	v4.16b, v4.16b, v3.16b
	addp	v4.16b, v4.16b, v4.16b
	addp	v4.16b, v4.16b, v4.16b
	addp	v4.16b, v4.16b, v4.16b
	umov	w18, v4.h[0]
	cbnz	w18, .Lunix_path_BB30_46
	add	x16, x16, #16
	cmp	x16, x15
	b.lo	.Lunix_path_BB30_49
	b	.Lunix_path_BB30_48
.Lunix_path_BB30_51:
	add	x13, x16, w17, uxtw
	b	.Lunix_path_BB30_57
.Lunix_path_BB30_52:
	cbz	x15, .Lunix_path_BB30_71
	add	x16, x2, x12
	mov	w17, #17
	add	x16, x16, x21
	add	x16, x16, #17
.Lunix_path_BB30_54:
	movi	v1.16b, #208
	ldp	q2, q3, [x16, #-16]
	ldur	q4, [x16, #-1]
	movi	v5.16b, #47
	and	v2.16b, v2.16b, v1.16b
	and	v1.16b, v3.16b, v1.16b
	ldur	q3, [x16, #-17]
	orr	v2.16b, v2.16b, v3.16b
	orr	v1.16b, v1.16b, v4.16b
	cmeq	v2.16b, v2.16b, v5.16b
	cmeq	v1.16b, v1.16b, v5.16b
	and	v2.16b, v2.16b, v0.16b
	and	v1.16b, v1.16b, v0.16b
	addp	v2.16b, v2.16b, v2.16b
	addp	v1.16b, v1.16b, v1.16b
	addp	v2.16b, v2.16b, v2.16b
	addp	v1.16b, v1.16b, v1.16b
	addp	v2.16b, v2.16b, v2.16b
	addp	v1.16b, v1.16b, v1.16b
	orr	v1.16b, v1.16b, v2.16b
	umov	w18, v1.h[0]
	cbnz	w18, .Lunix_path_BB30_36
	add	x18, x17, #15
	add	x17, x17, #32
	add	x16, x16, #32
	cmp	x18, x15
	b.lo	.Lunix_path_BB30_54
	b	.Lunix_path_BB30_71
.Lunix_path_BB30_56:
	add	x13, x14, #16
.Lunix_path_BB30_57:
	cmp	x13, x10
	b.hs	.Lunix_path_BB30_70
	add	x12, x2, x12
	add	x14, x13, #3
	sub	x12, x22, x12
	b	.Lunix_path_BB30_61
.Lunix_path_BB30_59:
	cmp	w16, #47
	b.eq	.Lunix_path_BB30_70
.Lunix_path_BB30_60:
	cmp	x15, x10
	add	x14, x14, #1
	add	x13, x13, #1
	b.hs	.Lunix_path_BB30_69
.Lunix_path_BB30_61:
	add	x15, x11, x14
	ldurb	w15, [x15, #-3]
	cmp	w15, #47
	sub	x15, x14, #2
	b.ne	.Lunix_path_BB30_60
	cmp	x10, x15
	b.ls	.Lunix_path_BB30_70
	add	x16, x11, x14
	ldurb	w16, [x16, #-2]
	cmp	w16, #46
	b.ne	.Lunix_path_BB30_59
	sub	x16, x14, #1
	cmp	x10, x16
	b.ls	.Lunix_path_BB30_70
	add	x16, x11, x14
	ldurb	w16, [x16, #-1]
	cmp	w16, #46
	b.ne	.Lunix_path_BB30_59
	cmp	x10, x14
	b.ls	.Lunix_path_BB30_70
	ldrb	w16, [x11, x14]
	cmp	w16, #47
	b.ne	.Lunix_path_BB30_60
	sub	x13, x14, #3
	b	.Lunix_path_BB30_70
.Lunix_path_BB30_69:
	mov	x13, x12
.Lunix_path_BB30_70:
	cmp	x13, x10
	b.ne	.Lunix_path_BB30_72
.Lunix_path_BB30_71:
	add	x11, x8, #1
	mov	x10, #-1
	mov	w12, #1
	mov	x21, x9
	mov	x20, x8
	b	.Lunix_path_BB30_73
.Lunix_path_BB30_72:
	add	x0, sp, #8
	mov	x1, x21
	mov	x2, x20
	bl	path_within.backward.count_resolved
	ldp	x10, x11, [sp, #16]
	mov	x12, xzr
.Lunix_path_BB30_73:
	stp	x21, x20, [x19]
	ldp	x22, x21, [sp, #48]
	stp	x10, x11, [x19, #16]
	ldp	x29, x30, [sp, #32]
	str	x12, [x19, #32]
	ldp	x20, x19, [sp, #64]
	add	sp, sp, #80
	ret
.Lunix_path_func_end30:
	.size	path_within.write.Layout.resolve_names, .Lunix_path_func_end30-path_within.write.Layout.resolve_names
	.section	.rodata.cst16,"aM",@progbits,16
	.p2align	4, 0x0
.Lunix_path_CPI31_0:
	.byte	1
	.byte	2
	.byte	4
	.byte	8
	.byte	16
	.byte	32
	.byte	64
	.byte	128
	.byte	1
	.byte	2
	.byte	4
	.byte	8
	.byte	16
	.byte	32
	.byte	64
	.byte	128
	.section	.text.path_within.backward.count_resolved,"ax",@progbits
	.p2align	2
	.type	path_within.backward.count_resolved,@function
// path_within::backward::count_resolved
path_within.backward.count_resolved:
	stp	x29, x30, [sp, #-48]!
	str	x21, [sp, #16]
	mov	x21, x2
	mov	x29, sp
	stp	x20, x19, [sp, #32]
	mov	x20, x1
	mov	x19, x0
	cbz	x2, .Lunix_path_BB31_10
	add	x8, x20, x21
	mov	x12, x21
	ldurb	w8, [x8, #-1]
	and	w8, w8, #0xfe
	cmp	w8, #46
	b.ne	.Lunix_path_BB31_11
	mov	x12, x21
	b	.Lunix_path_BB31_4
.Lunix_path_BB31_3:
	mov	x12, x1
	cbz	x1, .Lunix_path_BB31_11
.Lunix_path_BB31_4:
	subs	x1, x12, #1
	b.eq	.Lunix_path_BB31_11
	add	x8, x20, x1
	ldrb	w9, [x8]
	cmp	w9, #47
	b.eq	.Lunix_path_BB31_8
	cmp	w9, #46
	b.ne	.Lunix_path_BB31_11
	ldurb	w8, [x8, #-1]
	cmp	w8, #47
	b.ne	.Lunix_path_BB31_11
.Lunix_path_BB31_8:
	sub	x8, x21, x1
	cmp	x8, #8
	b.ne	.Lunix_path_BB31_3
	mov	x0, x20
	bl	unix_path.filler.trimmed_blocks_len
	mov	x1, x0
	b	.Lunix_path_BB31_3
.Lunix_path_BB31_10:
	mov	x12, xzr
.Lunix_path_BB31_11:
	mov	x8, xzr
	mov	x9, xzr
	sub	x10, x20, #1
.Lunix_path_BB31_12:
	mov	x11, xzr
	b	.Lunix_path_BB31_15
.Lunix_path_BB31_13:
	add	x11, x11, #1
.Lunix_path_BB31_14:
	cbz	x13, .Lunix_path_BB31_32
.Lunix_path_BB31_15:
	mov	x13, x12
.Lunix_path_BB31_16:
	cmp	x13, #15
	b.ls	.Lunix_path_BB31_19
	movi	v0.16b, #47
	add	x14, x20, x13
	ldur	q1, [x14, #-16]
	adrp	x14, .Lunix_path_CPI31_0
	cmeq	v0.16b, v1.16b, v0.16b
	ldr	q1, [x14, :lo12:.Lunix_path_CPI31_0]
	sub	x14, x13, #16
	mov	x13, x14
	and	v0.16b, v0.16b, v1.16b
	addp	v0.16b, v0.16b, v0.16b
	addp	v0.16b, v0.16b, v0.16b
	addp	v0.16b, v0.16b, v0.16b
	umov	w15, v0.h[0]
	cbz	w15, .Lunix_path_BB31_16
	umov	w13, v0.h[0]
	and	x13, x13, #0xffff
	clz	x13, x13
	sub	x13, x14, x13
	add	x13, x13, #64
	b	.Lunix_path_BB31_22
.Lunix_path_BB31_19:
	cbz	x13, .Lunix_path_BB31_22
	ldrb	w15, [x10, x13]
	sub	x14, x13, #1
	mov	x13, x14
	cmp	w15, #47
	b.ne	.Lunix_path_BB31_19
	add	x13, x14, #1
.Lunix_path_BB31_22:
	cmp	x13, #0
	cset	w15, ne
	subs	x14, x12, x13
	sub	x12, x13, x15
	b.eq	.Lunix_path_BB31_14
	cmp	x14, #1
	add	x15, x20, x13
	b.ne	.Lunix_path_BB31_25
	ldrb	w15, [x15]
	cmp	w15, #46
	b.eq	.Lunix_path_BB31_14
	b	.Lunix_path_BB31_28
.Lunix_path_BB31_25:
	cmp	x14, #2
	b.hi	.Lunix_path_BB31_28
	ldrb	w16, [x15]
	cmp	w16, #46
	b.ne	.Lunix_path_BB31_28
	ldrb	w15, [x15, #1]
	cmp	w15, #46
	b.eq	.Lunix_path_BB31_13
.Lunix_path_BB31_28:
	cbz	x11, .Lunix_path_BB31_30
	sub	x11, x11, #1
	cbnz	x13, .Lunix_path_BB31_15
	b	.Lunix_path_BB31_32
.Lunix_path_BB31_30:
	add	x9, x9, x14
	add	x8, x8, #1
	add	x9, x9, #1
	cbnz	x13, .Lunix_path_BB31_12
	mov	x11, xzr
.Lunix_path_BB31_32:
	cbz	x21, .Lunix_path_BB31_34
	ldrb	w10, [x20]
	cmp	w10, #47
	csel	x11, xzr, x11, eq
.Lunix_path_BB31_34:
	stp	x11, x8, [x19]
	ldr	x21, [sp, #16]
	str	x9, [x19, #16]
	ldp	x20, x19, [sp, #32]
	ldp	x29, x30, [sp], #48
	ret
.Lunix_path_func_end31:
	.size	path_within.backward.count_resolved, .Lunix_path_func_end31-path_within.backward.count_resolved
	.section	.rodata.cst16,"aM",@progbits,16
	.p2align	4, 0x0
.Lunix_path_CPI32_0:
	.byte	1
	.byte	2
	.byte	4
	.byte	8
	.byte	16
	.byte	32
	.byte	64
	.byte	128
	.byte	1
	.byte	2
	.byte	4
	.byte	8
	.byte	16
	.byte	32
	.byte	64
	.byte	128
	.section	.text.path_within.backward.put_names_before,"ax",@progbits
	.p2align	2
	.type	path_within.backward.put_names_before,@function
// path_within::backward::put_names_before
path_within.backward.put_names_before:
	stp	x29, x30, [sp, #-96]!
	stp	x22, x21, [sp, #64]
	mov	x22, x1
	mov	x21, x0
	stp	x20, x19, [sp, #80]
	mov	x19, x4
	mov	x20, x2
	stp	x28, x27, [sp, #16]
	mov	x29, sp
	stp	x26, x25, [sp, #32]
	stp	x24, x23, [sp, #48]
	cbz	x3, .Lunix_path_BB32_10
	add	x8, x20, x3
	mov	x23, x3
	ldurb	w8, [x8, #-1]
	and	w8, w8, #0xfe
	cmp	w8, #46
	b.ne	.Lunix_path_BB32_12
	mov	x28, x23
	b	.Lunix_path_BB32_4
.Lunix_path_BB32_3:
	mov	x28, x1
	cbz	x1, .Lunix_path_BB32_11
.Lunix_path_BB32_4:
	subs	x1, x28, #1
	b.eq	.Lunix_path_BB32_11
	add	x8, x20, x1
	ldrb	w9, [x8]
	cmp	w9, #47
	b.eq	.Lunix_path_BB32_8
	cmp	w9, #46
	b.ne	.Lunix_path_BB32_11
	ldurb	w8, [x8, #-1]
	cmp	w8, #47
	b.ne	.Lunix_path_BB32_11
.Lunix_path_BB32_8:
	sub	x8, x23, x1
	cmp	x8, #8
	b.ne	.Lunix_path_BB32_3
	mov	x0, x20
	bl	unix_path.filler.trimmed_blocks_len
	mov	x1, x0
	b	.Lunix_path_BB32_3
.Lunix_path_BB32_10:
	mov	x28, xzr
.Lunix_path_BB32_11:
	cbnz	x19, .Lunix_path_BB32_13
	b	.Lunix_path_BB32_52
.Lunix_path_BB32_12:
	mov	x28, x23
	cbz	x19, .Lunix_path_BB32_52
.Lunix_path_BB32_13:
	mov	w26, wzr
	sub	x23, x21, #1
	sub	x24, x20, #16
	sub	x25, x20, #1
	add	x16, x21, #15
	add	x17, x20, #16
.Lunix_path_BB32_14:
	tbnz	w26, #0, .Lunix_path_BB32_52
	mov	x10, xzr
	b	.Lunix_path_BB32_18
.Lunix_path_BB32_16:
	add	x10, x10, #1
.Lunix_path_BB32_17:
	cbz	x9, .Lunix_path_BB32_52
.Lunix_path_BB32_18:
	mov	x8, x28
	mov	x9, x28
.Lunix_path_BB32_19:
	cmp	x9, #15
	b.ls	.Lunix_path_BB32_22
	movi	v0.16b, #47
	ldr	q1, [x24, x9]
	adrp	x11, .Lunix_path_CPI32_0
	cmeq	v0.16b, v1.16b, v0.16b
	ldr	q1, [x11, :lo12:.Lunix_path_CPI32_0]
	sub	x11, x9, #16
	mov	x9, x11
	and	v0.16b, v0.16b, v1.16b
	addp	v0.16b, v0.16b, v0.16b
	addp	v0.16b, v0.16b, v0.16b
	addp	v0.16b, v0.16b, v0.16b
	umov	w12, v0.h[0]
	cbz	w12, .Lunix_path_BB32_19
	umov	w9, v0.h[0]
	and	x9, x9, #0xffff
	clz	x9, x9
	sub	x9, x11, x9
	add	x9, x9, #64
	b	.Lunix_path_BB32_25
.Lunix_path_BB32_22:
	cbz	x9, .Lunix_path_BB32_25
	ldrb	w12, [x25, x9]
	sub	x11, x9, #1
	mov	x9, x11
	cmp	w12, #47
	b.ne	.Lunix_path_BB32_22
	add	x9, x11, #1
.Lunix_path_BB32_25:
	cmp	x9, #0
	cset	w11, ne
	cset	w26, eq
	subs	x2, x8, x9
	sub	x28, x9, x11
	b.eq	.Lunix_path_BB32_17
	cmp	x2, #1
	add	x1, x20, x9
	b.ne	.Lunix_path_BB32_28
	ldrb	w11, [x1]
	cmp	w11, #46
	b.eq	.Lunix_path_BB32_17
	b	.Lunix_path_BB32_31
.Lunix_path_BB32_28:
	cmp	x2, #2
	b.hi	.Lunix_path_BB32_31
	ldrb	w11, [x1]
	cmp	w11, #46
	b.ne	.Lunix_path_BB32_31
	ldrb	w11, [x1, #1]
	cmp	w11, #46
	b.eq	.Lunix_path_BB32_16
.Lunix_path_BB32_31:
	cbz	x10, .Lunix_path_BB32_33
	sub	x10, x10, #1
	b	.Lunix_path_BB32_17
.Lunix_path_BB32_33:
	mvn	x10, x2
	add	x0, x22, x10
	add	x27, x21, x0
	sub	x10, x27, x1
	cmp	x10, x2
	b.hs	.Lunix_path_BB32_39
	cmp	x2, #8
	b.lo	.Lunix_path_BB32_36
	add	x10, x23, x22
	add	x11, x8, x20
	sub	x10, x10, x11
	cmp	x10, #32
	b.hs	.Lunix_path_BB32_43
.Lunix_path_BB32_36:
	mov	x10, xzr
.Lunix_path_BB32_37:
	add	x9, x10, x9
	add	x10, x23, x22
	sub	x8, x9, x8
	add	x9, x9, x20
.Lunix_path_BB32_38:
	ldrb	w11, [x9], #1
	strb	w11, [x10, x8]
	adds	x8, x8, #1
	b.lo	.Lunix_path_BB32_38
	b	.Lunix_path_BB32_40
.Lunix_path_BB32_39:
	mov	x22, x0
	add	x0, x21, x0
	bl	memmove
	add	x17, x20, #16
	add	x16, x21, #15
	mov	x0, x22
.Lunix_path_BB32_40:
	cbz	x0, .Lunix_path_BB32_42
	mov	w8, #47
	sturb	w8, [x27, #-1]
.Lunix_path_BB32_42:
	subs	x19, x19, #1
	mov	x22, x0
	b.ne	.Lunix_path_BB32_14
	b	.Lunix_path_BB32_53
.Lunix_path_BB32_43:
	cmp	x2, #32
	b.hs	.Lunix_path_BB32_45
	mov	x10, xzr
	b	.Lunix_path_BB32_49
.Lunix_path_BB32_45:
	add	x12, x16, x22
	sub	x13, x9, x8
	and	x11, x2, #0x18
	and	x10, x2, #0xffffffffffffffe0
	add	x12, x12, x13
	add	x13, x17, x9
	and	x14, x2, #0xffffffffffffffe0
.Lunix_path_BB32_46:
	ldp	q0, q1, [x13, #-16]
	subs	x14, x14, #32
	add	x13, x13, #32
	stp	q0, q1, [x12, #-16]
	add	x12, x12, #32
	b.ne	.Lunix_path_BB32_46
	cmp	x2, x10
	b.eq	.Lunix_path_BB32_40
	cbz	x11, .Lunix_path_BB32_37
.Lunix_path_BB32_49:
	mov	x11, x10
	and	x10, x2, #0xfffffffffffffff8
	sub	x15, x9, x8
	add	x12, x11, x22
	add	x13, x20, x11
	sub	x11, x11, x10
	add	x14, x23, x12
	add	x12, x13, x9
	add	x13, x14, x15
.Lunix_path_BB32_50:
	ldr	d0, [x12], #8
	adds	x11, x11, #8
	str	d0, [x13], #8
	b.ne	.Lunix_path_BB32_50
	cmp	x2, x10
	b.eq	.Lunix_path_BB32_40
	b	.Lunix_path_BB32_37
.Lunix_path_BB32_52:
	mov	x0, x22
.Lunix_path_BB32_53:
	ldp	x20, x19, [sp, #80]
	ldp	x22, x21, [sp, #64]
	ldp	x24, x23, [sp, #48]
	ldp	x26, x25, [sp, #32]
	ldp	x28, x27, [sp, #16]
	ldp	x29, x30, [sp], #96
	ret
.Lunix_path_func_end32:
	.size	path_within.backward.put_names_before, .Lunix_path_func_end32-path_within.backward.put_names_before
	.section	.rodata.cst16,"aM",@progbits,16
	.p2align	4, 0x0
.Lunix_path_CPI33_0:
	.byte	1
	.byte	2
	.byte	4
	.byte	8
	.byte	16
	.byte	32
	.byte	64
	.byte	128
	.byte	1
	.byte	2
	.byte	4
	.byte	8
	.byte	16
	.byte	32
	.byte	64
	.byte	128
	.section	.text.path_within.normal.is_resolved,"ax",@progbits
	.p2align	2
	.type	path_within.normal.is_resolved,@function
// path_within::normal::is_resolved
path_within.normal.is_resolved:
	sub	sp, sp, #144
	stp	x29, x30, [sp, #96]
	add	x29, sp, #96
	stp	x22, x21, [sp, #112]
	stp	x20, x19, [sp, #128]
	mov	x19, x1
	mov	x20, x0
	bl	path_runs.canonical.is_canonical
	cbz	w0, .Lunix_path_BB33_17
	cbz	x19, .Lunix_path_BB33_16
	ldrb	w22, [x20]
	cmp	w22, #47
	b.eq	.Lunix_path_BB33_5
	cmp	w22, #46
	b.ne	.Lunix_path_BB33_6
	cmp	x19, #1
	b.ne	.Lunix_path_BB33_7
.Lunix_path_BB33_5:
	mov	w21, #1
	b	.Lunix_path_BB33_8
.Lunix_path_BB33_6:
	mov	w21, wzr
	b	.Lunix_path_BB33_8
.Lunix_path_BB33_7:
	ldrb	w8, [x20, #1]
	cmp	w8, #47
	cset	w21, eq
.Lunix_path_BB33_8:
	mov	x8, x19
	b	.Lunix_path_BB33_10
.Lunix_path_BB33_9:
	mov	x8, x1
	cbz	x1, .Lunix_path_BB33_16
.Lunix_path_BB33_10:
	subs	x1, x8, #1
	b.eq	.Lunix_path_BB33_18
	add	x9, x20, x1
	ldrb	w10, [x9]
	cmp	w10, #47
	b.eq	.Lunix_path_BB33_14
	cmp	w10, #46
	b.ne	.Lunix_path_BB33_20
	ldurb	w9, [x9, #-1]
	cmp	w9, #47
	b.ne	.Lunix_path_BB33_20
.Lunix_path_BB33_14:
	sub	x8, x19, x1
	cmp	x8, #8
	b.ne	.Lunix_path_BB33_9
	mov	x0, x20
	bl	unix_path.filler.trimmed_blocks_len
	mov	x1, x0
	b	.Lunix_path_BB33_9
.Lunix_path_BB33_16:
	mov	w0, #1
.Lunix_path_BB33_17:
	ldp	x20, x19, [sp, #128]
	and	w0, w0, #0x1
	ldp	x22, x21, [sp, #112]
	ldp	x29, x30, [sp, #96]
	add	sp, sp, #144
	ret
.Lunix_path_BB33_18:
	strh	wzr, [sp, #4]
	str	wzr, [sp]
	tbz	w21, #0, .Lunix_path_BB33_35
	mov	w10, #1
	cmp	w22, #47
	mov	w9, #1
	b.eq	.Lunix_path_BB33_38
	b	.Lunix_path_BB33_41
.Lunix_path_BB33_20:
	strh	wzr, [sp, #4]
	str	wzr, [sp]
	tbz	w21, #0, .Lunix_path_BB33_27
	mov	x9, xzr
	sub	x10, x8, #2
	b	.Lunix_path_BB33_23
.Lunix_path_BB33_22:
	add	x9, x9, #1
	cmp	x1, x9
	b.eq	.Lunix_path_BB33_36
.Lunix_path_BB33_23:
	add	x11, x20, x9
	ldrb	w11, [x11, #1]
	cmp	w11, #47
	b.eq	.Lunix_path_BB33_22
	cmp	w11, #46
	b.ne	.Lunix_path_BB33_37
	cmp	x10, x9
	b.eq	.Lunix_path_BB33_36
	add	x11, x20, x9
	ldrb	w11, [x11, #2]
	cmp	w11, #47
	b.eq	.Lunix_path_BB33_22
	b	.Lunix_path_BB33_37
.Lunix_path_BB33_27:
	cmp	w22, #46
	b.ne	.Lunix_path_BB33_31
	ldrb	w9, [x20, #1]
	cmp	w9, #46
	b.ne	.Lunix_path_BB33_31
	cmp	x8, #2
	b.ne	.Lunix_path_BB33_39
	mov	w9, wzr
	strh	wzr, [sp, #12]
	str	wzr, [sp, #8]
	b	.Lunix_path_BB33_42
.Lunix_path_BB33_31:
	cmp	x8, #16
	b.lo	.Lunix_path_BB33_35
.Lunix_path_BB33_32:
	subs	x9, x8, #16
	b.eq	.Lunix_path_BB33_41
	mov	x10, xzr
.Lunix_path_BB33_34:
	movi	v0.16b, #47
	ldr	q1, [x20, x10]
	adrp	x11, .Lunix_path_CPI33_0
	add	x10, x10, #16
	cmeq	v0.16b, v1.16b, v0.16b
	ldr	q1, [x11, :lo12:.Lunix_path_CPI33_0]
	and	v0.16b, v0.16b, v1.16b
	addp	v0.16b, v0.16b, v0.16b
	addp	v0.16b, v0.16b, v0.16b
	addp	v0.16b, v0.16b, v0.16b
	umov	w11, v0.h[0]
	cmp	w11, #0
	ccmp	x10, x9, #2, eq
	b.lo	.Lunix_path_BB33_34
.Lunix_path_BB33_35:
	mov	w9, wzr
	b	.Lunix_path_BB33_41
.Lunix_path_BB33_36:
	mov	x9, x1
.Lunix_path_BB33_37:
	add	x10, x9, #1
	cmp	w22, #47
	mov	w9, #1
	b.ne	.Lunix_path_BB33_41
.Lunix_path_BB33_38:
	stp	x10, x8, [sp, #32]
	ldr	w8, [sp]
	add	x0, sp, #16
	strh	w9, [sp, #48]
	ldrh	w9, [sp, #4]
	stp	x20, x19, [sp, #16]
	stur	w8, [sp, #50]
	strh	w9, [sp, #54]
	b	.Lunix_path_BB33_79
.Lunix_path_BB33_39:
	ldrb	w9, [x20, #2]
	cmp	w9, #47
	mov	w9, wzr
	b.eq	.Lunix_path_BB33_41
	cmp	x8, #16
	b.hs	.Lunix_path_BB33_32
.Lunix_path_BB33_41:
	ldr	w10, [sp]
	ldrh	w11, [sp, #4]
	str	w10, [sp, #8]
	strh	w11, [sp, #12]
.Lunix_path_BB33_42:
	mov	x10, xzr
	mov	x12, x8
	b	.Lunix_path_BB33_45
.Lunix_path_BB33_43:
	mov	x14, xzr
.Lunix_path_BB33_44:
	add	x10, x10, x14
	mov	w21, wzr
	add	x10, x10, #2
	subs	x12, x8, x10
	b.eq	.Lunix_path_BB33_64
.Lunix_path_BB33_45:
	mov	w13, w21
	tbnz	w21, #0, .Lunix_path_BB33_64
	cmp	x12, #1
	add	x11, x20, x10
	b.eq	.Lunix_path_BB33_58
	ldrb	w14, [x11]
	cmp	w14, #46
	b.ne	.Lunix_path_BB33_58
	ldrb	w14, [x11, #1]
	cmp	w14, #46
	b.ne	.Lunix_path_BB33_58
	subs	x15, x12, #2
	b.eq	.Lunix_path_BB33_43
	ldrb	w14, [x11, #2]
	cmp	w14, #47
	b.ne	.Lunix_path_BB33_58
	mov	x14, xzr
	sub	x12, x12, #3
	b	.Lunix_path_BB33_53
.Lunix_path_BB33_52:
	add	x14, x14, #1
	cmp	x15, x14
	b.eq	.Lunix_path_BB33_57
.Lunix_path_BB33_53:
	add	x16, x11, x14
	ldrb	w16, [x16, #2]
	cmp	w16, #47
	b.eq	.Lunix_path_BB33_52
	cmp	w16, #46
	b.ne	.Lunix_path_BB33_44
	cmp	x12, x14
	b.eq	.Lunix_path_BB33_57
	add	x16, x11, x14
	ldrb	w16, [x16, #3]
	cmp	w16, #47
	b.eq	.Lunix_path_BB33_52
	b	.Lunix_path_BB33_44
.Lunix_path_BB33_57:
	mov	x14, x15
	b	.Lunix_path_BB33_44
.Lunix_path_BB33_58:
	cmp	x12, #15
	b.hi	.Lunix_path_BB33_65
	mov	x13, xzr
	add	x14, x20, x10
.Lunix_path_BB33_60:
	ldrb	w15, [x14, x13]
	cmp	w15, #47
	b.eq	.Lunix_path_BB33_70
	add	x13, x13, #1
	cmp	x12, x13
	b.ne	.Lunix_path_BB33_60
	mov	x13, x12
	subs	x14, x12, x12
	b.ne	.Lunix_path_BB33_71
.Lunix_path_BB33_63:
	mov	x12, xzr
	b	.Lunix_path_BB33_78
.Lunix_path_BB33_64:
	eor	w0, w13, #0x1
	ldp	x20, x19, [sp, #128]
	and	w0, w0, #0x1
	ldp	x22, x21, [sp, #112]
	ldp	x29, x30, [sp, #96]
	add	sp, sp, #144
	ret
.Lunix_path_BB33_65:
	subs	x13, x12, #16
	b.eq	.Lunix_path_BB33_69
	mov	x14, xzr
	add	x15, x20, x10
.Lunix_path_BB33_67:
	movi	v0.16b, #47
	ldr	q1, [x15, x14]
	adrp	x16, .Lunix_path_CPI33_0
	cmeq	v0.16b, v1.16b, v0.16b
	ldr	q1, [x16, :lo12:.Lunix_path_CPI33_0]
	and	v0.16b, v0.16b, v1.16b
	addp	v0.16b, v0.16b, v0.16b
	addp	v0.16b, v0.16b, v0.16b
	addp	v0.16b, v0.16b, v0.16b
	umov	w16, v0.h[0]
	orr	w16, w16, #0x10000
	rbit	w16, w16
	clz	w16, w16
	cmp	w16, #15
	b.ls	.Lunix_path_BB33_80
	add	x14, x14, #16
	cmp	x14, x13
	b.lo	.Lunix_path_BB33_67
.Lunix_path_BB33_69:
	movi	v0.16b, #47
	ldr	q1, [x11, x13]
	adrp	x14, .Lunix_path_CPI33_0
	cmeq	v0.16b, v1.16b, v0.16b
	ldr	q1, [x14, :lo12:.Lunix_path_CPI33_0]
	and	v0.16b, v0.16b, v1.16b
	addp	v0.16b, v0.16b, v0.16b
	addp	v0.16b, v0.16b, v0.16b
	addp	v0.16b, v0.16b, v0.16b
	umov	w14, v0.h[0]
	orr	w14, w14, #0x10000
	rbit	w14, w14
	clz	w14, w14
	add	x13, x13, x14
.Lunix_path_BB33_70:
	subs	x14, x12, x13
	b.eq	.Lunix_path_BB33_63
.Lunix_path_BB33_71:
	mov	x12, xzr
	add	x11, x11, x13
	sub	x15, x14, #1
	b	.Lunix_path_BB33_73
.Lunix_path_BB33_72:
	add	x12, x12, #1
	cmp	x14, x12
	b.eq	.Lunix_path_BB33_77
.Lunix_path_BB33_73:
	ldrb	w16, [x11, x12]
	cmp	w16, #47
	b.eq	.Lunix_path_BB33_72
	cmp	w16, #46
	b.ne	.Lunix_path_BB33_78
	cmp	x15, x12
	b.eq	.Lunix_path_BB33_77
	add	x16, x11, x12
	ldrb	w16, [x16, #1]
	cmp	w16, #47
	b.eq	.Lunix_path_BB33_72
	b	.Lunix_path_BB33_78
.Lunix_path_BB33_77:
	mov	x12, x14
.Lunix_path_BB33_78:
	add	x10, x13, x10
	sturb	w9, [x29, #-8]
	ldrh	w9, [sp, #12]
	add	x10, x10, x12
	sub	x0, x29, #40
	stp	x20, x19, [x29, #-40]
	stp	x10, x8, [x29, #-24]
	ldr	w8, [sp, #8]
	sturb	wzr, [x29, #-7]
	stur	w8, [x29, #-6]
	sturh	w9, [x29, #-2]
.Lunix_path_BB33_79:
	bl	path_within.normal.are_names
	ldp	x20, x19, [sp, #128]
	and	w0, w0, #0x1
	ldp	x22, x21, [sp, #112]
	ldp	x29, x30, [sp, #96]
	add	sp, sp, #144
	ret
.Lunix_path_BB33_80:
	add	x13, x14, w16, uxtw
	subs	x14, x12, x13
	b.ne	.Lunix_path_BB33_71
	b	.Lunix_path_BB33_63
.Lunix_path_func_end33:
	.size	path_within.normal.is_resolved, .Lunix_path_func_end33-path_within.normal.is_resolved
	.section	.rodata.cst16,"aM",@progbits,16
	.p2align	4, 0x0
.Lunix_path_CPI34_0:
	.byte	1
	.byte	2
	.byte	4
	.byte	8
	.byte	16
	.byte	32
	.byte	64
	.byte	128
	.byte	1
	.byte	2
	.byte	4
	.byte	8
	.byte	16
	.byte	32
	.byte	64
	.byte	128
	.section	.rodata.cst8,"aM",@progbits,8
	.p2align	3, 0x0
.Lunix_path_CPI34_1:
	.byte	1
	.byte	2
	.byte	4
	.byte	8
	.byte	16
	.byte	32
	.byte	64
	.byte	128
	.section	.text.path_within.normal.are_names,"ax",@progbits
	.p2align	2
	.type	path_within.normal.are_names,@function
// path_within::normal::are_names
path_within.normal.are_names:
	ldp	x8, x9, [x0, #16]
	subs	x12, x9, x8
	b.eq	.Lunix_path_BB34_79
	ldr	x10, [x0]
	add	x11, x10, x8
	add	x14, x10, x8
	ldrb	w13, [x11], #1
	cmp	w13, #47
	ldrb	w13, [x0, #33]
	cset	w17, eq
	csel	x16, x14, x11, ne
	adrp	x11, .Lunix_path_CPI34_0
	subs	x15, x12, x17
	b.eq	.Lunix_path_BB34_54
	ldrb	w18, [x16]
	cmp	w18, #47
	b.eq	.Lunix_path_BB34_54
	cmp	w18, #46
	b.ne	.Lunix_path_BB34_9
	cmp	x15, #2
	b.lo	.Lunix_path_BB34_54
	ldrb	w18, [x16, #1]
	cmp	w18, #47
	b.eq	.Lunix_path_BB34_54
	cmp	w18, #46
	b.ne	.Lunix_path_BB34_9
	cmp	x15, #2
	b.eq	.Lunix_path_BB34_54
	ldrb	w18, [x16, #2]
	cmp	w18, #47
	b.eq	.Lunix_path_BB34_54
.Lunix_path_BB34_9:
	add	x1, x10, x9
	ldurb	w18, [x1, #-1]
	and	w18, w18, #0xfe
	cmp	w18, #46
	b.eq	.Lunix_path_BB34_54
	subs	x18, x15, #17
	b.hs	.Lunix_path_BB34_13
.Lunix_path_BB34_11:
	cmp	x15, #9
	b.hs	.Lunix_path_BB34_21
	mov	x18, xzr
	b	.Lunix_path_BB34_37
.Lunix_path_BB34_13:
	cmp	x15, #32
	b.hi	.Lunix_path_BB34_23
	movi	v0.16b, #208
	ldur	q1, [x16, #1]
	ldr	q3, [x16]
	and	v2.16b, v1.16b, v0.16b
	movi	v1.16b, #47
	orr	v2.16b, v2.16b, v3.16b
	cmeq	v3.16b, v2.16b, v1.16b
	ldr	q2, [x11, :lo12:.Lunix_path_CPI34_0]
	and	v3.16b, v3.16b, v2.16b
	addp	v3.16b, v3.16b, v3.16b
	addp	v3.16b, v3.16b, v3.16b
	addp	v3.16b, v3.16b, v3.16b
	umov	w0, v3.h[0]
	cbnz	w0, .Lunix_path_BB34_16
	ldur	q3, [x1, #-16]
	and	v0.16b, v3.16b, v0.16b
	ldur	q3, [x1, #-17]
	orr	v0.16b, v0.16b, v3.16b
	cmeq	v0.16b, v0.16b, v1.16b
	and	v0.16b, v0.16b, v2.16b
	addp	v0.16b, v0.16b, v0.16b
	addp	v0.16b, v0.16b, v0.16b
	addp	v0.16b, v0.16b, v0.16b
	umov	w0, v0.h[0]
	cbz	w0, .Lunix_path_BB34_51
.Lunix_path_BB34_16:
	cmp	x15, #18
	b.ls	.Lunix_path_BB34_11
	subs	x0, x15, #19
	b.ne	.Lunix_path_BB34_25
	mov	x1, xzr
.Lunix_path_BB34_19:
	cmp	x18, x1
	movi	v0.16b, #208
	csel	x18, x18, x1, lo
	add	x1, x16, x18
	ldur	q1, [x1, #1]
	ldr	q2, [x1]
	and	v1.16b, v1.16b, v0.16b
	movi	v0.16b, #47
	orr	v1.16b, v1.16b, v2.16b
	cmeq	v2.16b, v1.16b, v0.16b
	ldr	q1, [x11, :lo12:.Lunix_path_CPI34_0]
	and	v2.16b, v2.16b, v1.16b
	addp	v2.16b, v2.16b, v2.16b
	addp	v2.16b, v2.16b, v2.16b
	addp	v2.16b, v2.16b, v2.16b
	umov	w1, v2.h[0]
	cbz	w1, .Lunix_path_BB34_36
	movi	v2.16b, #46
	add	x18, x16, x0
	ldur	q3, [x18, #2]
	ldur	q4, [x18, #3]
	cmeq	v4.16b, v4.16b, v0.16b
	cmeq	v5.16b, v3.16b, v2.16b
	cmeq	v3.16b, v3.16b, v0.16b
	and	v4.16b, v5.16b, v4.16b
	ldur	q5, [x18, #1]
	cmeq	v2.16b, v5.16b, v2.16b
	orr	v3.16b, v3.16b, v4.16b
	ldr	q4, [x18]
	and	v2.16b, v2.16b, v3.16b
	cmeq	v3.16b, v4.16b, v0.16b
	cmeq	v0.16b, v5.16b, v0.16b
	orr	v0.16b, v0.16b, v2.16b
	and	v1.16b, v3.16b, v1.16b
	and	v0.16b, v1.16b, v0.16b
	addp	v0.16b, v0.16b, v0.16b
	addp	v0.16b, v0.16b, v0.16b
	addp	v0.16b, v0.16b, v0.16b
	umov	w18, v0.h[0]
	orr	w18, w18, #0x10000
	rbit	w18, w18
	clz	w18, w18
	add	x18, x0, x18
	b	.Lunix_path_BB34_37
.Lunix_path_BB34_21:
	movi	v0.8b, #254
	movi	v1.8b, #47
	ldr	d3, [x16]
	ldur	d4, [x16, #1]
	movi	v2.8b, #46
	adrp	x18, .Lunix_path_CPI34_1
	and	v4.8b, v4.8b, v0.8b
	cmeq	v5.8b, v3.8b, v1.8b
	ldr	d3, [x18, :lo12:.Lunix_path_CPI34_1]
	cmeq	v4.8b, v4.8b, v2.8b
	and	v5.8b, v5.8b, v3.8b
	and	v4.8b, v5.8b, v4.8b
	addv	b4, v4.8b
	fmov	w18, s4
	orr	w18, w18, #0x100
	rbit	w18, w18
	clz	w18, w18
	cmp	w18, #8
	b.lo	.Lunix_path_BB34_37
	cmp	x15, #17
	mov	w18, #17
	csel	x18, x15, x18, lo
	sub	x18, x18, #9
	add	x0, x16, x18
	ldr	d4, [x0]
	ldur	d5, [x0, #1]
	and	v0.8b, v5.8b, v0.8b
	cmeq	v1.8b, v4.8b, v1.8b
	cmeq	v0.8b, v0.8b, v2.8b
	and	v1.8b, v1.8b, v3.8b
	and	v0.8b, v1.8b, v0.8b
	addv	b0, v0.8b
	fmov	w0, s0
	orr	w0, w0, #0x100
	rbit	w0, w0
	clz	w0, w0
	add	x18, x18, x0
	b	.Lunix_path_BB34_37
.Lunix_path_BB34_23:
	sub	x0, x15, #33
	movi	v0.16b, #208
	ldur	q2, [x1, #-16]
	add	x2, x16, x0
	ldur	q3, [x1, #-17]
	movi	v4.16b, #47
	ldur	q1, [x2, #1]
	and	v1.16b, v1.16b, v0.16b
	and	v0.16b, v2.16b, v0.16b
	ldr	q2, [x2]
	orr	v1.16b, v1.16b, v2.16b
	orr	v0.16b, v0.16b, v3.16b
	cmeq	v1.16b, v1.16b, v4.16b
	cmeq	v2.16b, v0.16b, v4.16b
	ldr	q0, [x11, :lo12:.Lunix_path_CPI34_0]
	and	v1.16b, v1.16b, v0.16b
	and	v2.16b, v2.16b, v0.16b
	addp	v1.16b, v1.16b, v1.16b
	addp	v2.16b, v2.16b, v2.16b
	addp	v1.16b, v1.16b, v1.16b
	addp	v2.16b, v2.16b, v2.16b
	addp	v1.16b, v1.16b, v1.16b
	addp	v2.16b, v2.16b, v2.16b
	orr	v1.16b, v2.16b, v1.16b
	umov	w1, v1.h[0]
	cbz	w1, .Lunix_path_BB34_32
	sub	x0, x15, #19
.Lunix_path_BB34_25:
	mov	x1, xzr
	b	.Lunix_path_BB34_29
.Lunix_path_BB34_26:
	movi	v4.16b, #46
	ldur	q5, [x2, #2]
	ldur	q6, [x2, #3]
	cmeq	v1.16b, v1.16b, v2.16b
	cmeq	v6.16b, v6.16b, v2.16b
	cmeq	v7.16b, v5.16b, v4.16b
	cmeq	v5.16b, v5.16b, v2.16b
	cmeq	v4.16b, v0.16b, v4.16b
	cmeq	v0.16b, v0.16b, v2.16b
	and	v1.16b, v1.16b, v3.16b
	and	v6.16b, v7.16b, v6.16b
	orr	v5.16b, v5.16b, v6.16b
	and	v4.16b, v4.16b, v5.16b
	orr	v0.16b, v0.16b, v4.16b
	and	v0.16b, v1.16b, v0.16b
	addp	v0.16b, v0.16b, v0.16b
	addp	v0.16b, v0.16b, v0.16b
	addp	v0.16b, v0.16b, v0.16b
	umov	w2, v0.h[0]
	orr	w2, w2, #0x10000
	rbit	w2, w2
	clz	w2, w2
	cmp	w2, #15
	b.ls	.Lunix_path_BB34_31
	add	x1, x1, #16
.Lunix_path_BB34_28:
	cmp	x1, x0
	b.hs	.Lunix_path_BB34_19
.Lunix_path_BB34_29:
	movi	v1.16b, #208
	add	x2, x16, x1
	movi	v2.16b, #47
	ldur	q0, [x2, #1]
	and	v3.16b, v0.16b, v1.16b
	ldr	q1, [x2]
	orr	v3.16b, v3.16b, v1.16b
	cmeq	v4.16b, v3.16b, v2.16b
	ldr	q3, [x11, :lo12:.Lunix_path_CPI34_0]
	and	v4.16b, v4.16b, v3.16b
	addp	v4.16b, v4.16b, v4.16b
	addp	v4.16b, v4.16b, v4.16b
	addp	v4.16b, v4.16b, v4.16b
	umov	w3, v4.h[0]
	cbnz	w3, .Lunix_path_BB34_26
	add	x1, x1, #16
	cmp	x1, x0
	b.lo	.Lunix_path_BB34_29
	b	.Lunix_path_BB34_28
.Lunix_path_BB34_31:
	add	x18, x1, w2, uxtw
	b	.Lunix_path_BB34_37
.Lunix_path_BB34_32:
	cbz	x0, .Lunix_path_BB34_51
	add	x2, x8, x17
	mov	x1, xzr
	add	x2, x2, x10
	add	x2, x2, #17
.Lunix_path_BB34_34:
	movi	v1.16b, #208
	add	x3, x2, x1
	movi	v5.16b, #47
	ldp	q2, q3, [x3, #-16]
	ldur	q4, [x3, #-1]
	and	v2.16b, v2.16b, v1.16b
	and	v1.16b, v3.16b, v1.16b
	ldur	q3, [x3, #-17]
	orr	v2.16b, v2.16b, v3.16b
	orr	v1.16b, v1.16b, v4.16b
	cmeq	v2.16b, v2.16b, v5.16b
	cmeq	v1.16b, v1.16b, v5.16b
	and	v2.16b, v2.16b, v0.16b
	and	v1.16b, v1.16b, v0.16b
	addp	v2.16b, v2.16b, v2.16b
	addp	v1.16b, v1.16b, v1.16b
	addp	v2.16b, v2.16b, v2.16b
	addp	v1.16b, v1.16b, v1.16b
	addp	v2.16b, v2.16b, v2.16b
	addp	v1.16b, v1.16b, v1.16b
	orr	v1.16b, v1.16b, v2.16b
	umov	w3, v1.h[0]
	cbnz	w3, .Lunix_path_BB34_16
	add	x1, x1, #32
	cmp	x1, x0
	b.lo	.Lunix_path_BB34_34
	b	.Lunix_path_BB34_51
.Lunix_path_BB34_36:
	add	x18, x18, #16
.Lunix_path_BB34_37:
	cmp	x18, x15
	b.hs	.Lunix_path_BB34_50
	add	x17, x8, x17
	add	x0, x18, #3
	sub	x17, x9, x17
	b	.Lunix_path_BB34_41
.Lunix_path_BB34_39:
	cmp	w2, #47
	b.eq	.Lunix_path_BB34_50
.Lunix_path_BB34_40:
	cmp	x1, x15
	add	x0, x0, #1
	add	x18, x18, #1
	b.hs	.Lunix_path_BB34_49
.Lunix_path_BB34_41:
	add	x1, x16, x0
	ldurb	w1, [x1, #-3]
	cmp	w1, #47
	sub	x1, x0, #2
	b.ne	.Lunix_path_BB34_40
	cmp	x15, x1
	b.ls	.Lunix_path_BB34_50
	add	x2, x16, x0
	ldurb	w2, [x2, #-2]
	cmp	w2, #46
	b.ne	.Lunix_path_BB34_39
	sub	x2, x0, #1
	cmp	x15, x2
	b.ls	.Lunix_path_BB34_50
	add	x2, x16, x0
	ldurb	w2, [x2, #-1]
	cmp	w2, #46
	b.ne	.Lunix_path_BB34_39
	cmp	x15, x0
	b.ls	.Lunix_path_BB34_50
	ldrb	w2, [x16, x0]
	cmp	w2, #47
	b.ne	.Lunix_path_BB34_40
	sub	x18, x0, #3
	b	.Lunix_path_BB34_50
.Lunix_path_BB34_49:
	mov	x18, x17
.Lunix_path_BB34_50:
	cmp	x18, x15
	b.ne	.Lunix_path_BB34_54
.Lunix_path_BB34_51:
	ldrb	w8, [x14]
	cmp	w8, #47
	cset	w0, ne
	ret
.Lunix_path_BB34_52:
	mov	x12, xzr
.Lunix_path_BB34_53:
	add	x8, x14, x8
	mov	w13, wzr
	add	x8, x8, x12
	subs	x12, x9, x8
	b.eq	.Lunix_path_BB34_79
.Lunix_path_BB34_54:
	tbnz	w13, #0, .Lunix_path_BB34_80
	cmp	x12, #1
	add	x13, x10, x8
	b.eq	.Lunix_path_BB34_60
	ldrb	w14, [x13]
	cmp	w14, #46
	b.ne	.Lunix_path_BB34_60
	ldrb	w14, [x13, #1]
	cmp	w14, #46
	b.ne	.Lunix_path_BB34_60
	cmp	x12, #2
	b.eq	.Lunix_path_BB34_80
	ldrb	w14, [x13, #2]
	cmp	w14, #47
	b.eq	.Lunix_path_BB34_80
.Lunix_path_BB34_60:
	cmp	x12, #15
	b.hi	.Lunix_path_BB34_65
	mov	x14, xzr
.Lunix_path_BB34_62:
	ldrb	w15, [x13, x14]
	cmp	w15, #47
	b.eq	.Lunix_path_BB34_70
	add	x14, x14, #1
	cmp	x12, x14
	b.ne	.Lunix_path_BB34_62
	mov	x14, x12
	subs	x15, x12, x12
	b.ne	.Lunix_path_BB34_71
	b	.Lunix_path_BB34_52
.Lunix_path_BB34_65:
	subs	x14, x12, #16
	b.eq	.Lunix_path_BB34_69
	mov	x15, xzr
.Lunix_path_BB34_67:
	movi	v0.16b, #47
	ldr	q1, [x13, x15]
	cmeq	v0.16b, v1.16b, v0.16b
	ldr	q1, [x11, :lo12:.Lunix_path_CPI34_0]
	and	v0.16b, v0.16b, v1.16b
	addp	v0.16b, v0.16b, v0.16b
	addp	v0.16b, v0.16b, v0.16b
	addp	v0.16b, v0.16b, v0.16b
	umov	w16, v0.h[0]
	orr	w16, w16, #0x10000
	rbit	w16, w16
	clz	w16, w16
	cmp	w16, #15
	b.ls	.Lunix_path_BB34_78
	add	x15, x15, #16
	cmp	x15, x14
	b.lo	.Lunix_path_BB34_67
.Lunix_path_BB34_69:
	movi	v0.16b, #47
	ldr	q1, [x13, x14]
	cmeq	v0.16b, v1.16b, v0.16b
	ldr	q1, [x11, :lo12:.Lunix_path_CPI34_0]
	and	v0.16b, v0.16b, v1.16b
	addp	v0.16b, v0.16b, v0.16b
	addp	v0.16b, v0.16b, v0.16b
	addp	v0.16b, v0.16b, v0.16b
	umov	w15, v0.h[0]
	orr	w15, w15, #0x10000
	rbit	w15, w15
	clz	w15, w15
	add	x14, x14, x15
.Lunix_path_BB34_70:
	subs	x15, x12, x14
	b.eq	.Lunix_path_BB34_52
.Lunix_path_BB34_71:
	mov	x12, xzr
	add	x13, x13, x14
	sub	x16, x15, #1
	b	.Lunix_path_BB34_73
.Lunix_path_BB34_72:
	add	x12, x12, #1
	cmp	x15, x12
	b.eq	.Lunix_path_BB34_77
.Lunix_path_BB34_73:
	ldrb	w17, [x13, x12]
	cmp	w17, #47
	b.eq	.Lunix_path_BB34_72
	cmp	w17, #46
	b.ne	.Lunix_path_BB34_53
	cmp	x16, x12
	b.eq	.Lunix_path_BB34_77
	add	x17, x13, x12
	ldrb	w17, [x17, #1]
	cmp	w17, #47
	b.eq	.Lunix_path_BB34_72
	b	.Lunix_path_BB34_53
.Lunix_path_BB34_77:
	mov	x12, x15
	b	.Lunix_path_BB34_53
.Lunix_path_BB34_78:
	add	x14, x15, w16, uxtw
	subs	x15, x12, x14
	b.ne	.Lunix_path_BB34_71
	b	.Lunix_path_BB34_52
.Lunix_path_BB34_79:
	mov	w0, #1
	ret
.Lunix_path_BB34_80:
	mov	w0, wzr
	ret
.Lunix_path_func_end34:
	.size	path_within.normal.are_names, .Lunix_path_func_end34-path_within.normal.are_names
	.section	.rodata.cst16,"aM",@progbits,16
	.p2align	4, 0x0
.Lunix_path_CPI35_0:
	.byte	1
	.byte	2
	.byte	4
	.byte	8
	.byte	16
	.byte	32
	.byte	64
	.byte	128
	.byte	1
	.byte	2
	.byte	4
	.byte	8
	.byte	16
	.byte	32
	.byte	64
	.byte	128
	.section	.text.unix_path.stems.has_slash,"ax",@progbits
	.p2align	2
	.type	unix_path.stems.has_slash,@function
// unix_path::stems::has_slash
unix_path.stems.has_slash:
	cmp	x1, #3
	b.hi	.Lunix_path_BB35_3
	cbz	x1, .Lunix_path_BB35_7
	lsr	x8, x1, #1
	ldrb	w9, [x0]
	add	x10, x0, x1
	ldrb	w8, [x0, x8]
	cmp	w9, #47
	ldurb	w9, [x10, #-1]
	mov	w10, #47
	ccmp	w8, w10, #4, ne
	ccmp	w9, w10, #4, ne
	cset	w0, eq
	ret
.Lunix_path_BB35_3:
	subs	x8, x1, #8
	b.hi	.Lunix_path_BB35_5
	add	x8, x0, x1
	ldr	s0, [x0]
	movi	v1.8b, #47
	sub	x8, x8, #4
	ld1	{ v0.s }[1], [x8]
	cmeq	v0.8b, v0.8b, v1.8b
	umaxv	b0, v0.8b
	fmov	w8, s0
	and	w0, w8, #0x1
	ret
.Lunix_path_BB35_5:
	cmp	x1, #32
	b.hi	.Lunix_path_BB35_8
	cmp	x8, #8
	mov	w9, #8
	mov	w10, #16
	csel	x9, x8, x9, lo
	cmp	x8, #16
	ldr	d0, [x0]
	csel	x10, x8, x10, lo
	ldr	d1, [x0, x9]
	ldr	d3, [x0, x8]
	ldr	d2, [x0, x10]
	mov	v0.d[1], v1.d[0]
	movi	v1.16b, #47
	mov	v2.d[1], v3.d[0]
	cmeq	v0.16b, v0.16b, v1.16b
	cmeq	v2.16b, v2.16b, v1.16b
	orr	v0.16b, v0.16b, v2.16b
	umaxv	b0, v0.16b
	fmov	w8, s0
	and	w0, w8, #0x1
	ret
.Lunix_path_BB35_7:
	mov	w0, wzr
	ret
.Lunix_path_BB35_8:
	cmp	x1, #65
	b.hs	.Lunix_path_BB35_10
	movi	v0.16b, #47
	add	x8, x0, x1
	ldp	q1, q2, [x0]
	ldp	q4, q3, [x8, #-32]
	cmeq	v1.16b, v1.16b, v0.16b
	cmeq	v2.16b, v2.16b, v0.16b
	cmeq	v4.16b, v4.16b, v0.16b
	cmeq	v0.16b, v3.16b, v0.16b
	orr	v0.16b, v2.16b, v0.16b
	orr	v1.16b, v1.16b, v4.16b
	orr	v0.16b, v1.16b, v0.16b
	umaxv	b0, v0.16b
	fmov	w8, s0
	and	w0, w8, #0x1
	ret
.Lunix_path_BB35_10:
	mov	x8, xzr
	mov	x9, x1
.Lunix_path_BB35_11:
	movi	v1.16b, #47
	add	x10, x0, x8
	adrp	x11, .Lunix_path_CPI35_0
	ldp	q3, q2, [x10, #32]
	ldr	q0, [x11, :lo12:.Lunix_path_CPI35_0]
	ldp	q5, q4, [x10]
	cmeq	v3.16b, v3.16b, v1.16b
	cmeq	v2.16b, v2.16b, v1.16b
	cmeq	v5.16b, v5.16b, v1.16b
	cmeq	v1.16b, v4.16b, v1.16b
	and	v3.16b, v3.16b, v0.16b
	and	v2.16b, v2.16b, v0.16b
	and	v4.16b, v5.16b, v0.16b
	and	v1.16b, v1.16b, v0.16b
	ext	v5.16b, v3.16b, v3.16b, #8
	ext	v7.16b, v2.16b, v2.16b, #8
	ext	v6.16b, v4.16b, v4.16b, #8
	ext	v16.16b, v1.16b, v1.16b, #8
	zip1	v3.16b, v3.16b, v5.16b
	zip1	v2.16b, v2.16b, v7.16b
	zip1	v4.16b, v4.16b, v6.16b
	zip1	v1.16b, v1.16b, v16.16b
	addv	h3, v3.8h
	addv	h2, v2.8h
	addv	h4, v4.8h
	addv	h1, v1.8h
	fmov	w10, s3
	fmov	w12, s2
	fmov	w11, s4
	fmov	w13, s1
	orr	w10, w11, w10
	orr	w11, w13, w12
	orr	w10, w10, w11
	tst	w10, #0xffff
	b.ne	.Lunix_path_BB35_14
	sub	x9, x9, #64
	add	x8, x8, #64
	cmp	x9, #63
	b.hi	.Lunix_path_BB35_11
	and	x8, x1, #0xffffffffffffffc0
.Lunix_path_BB35_14:
	sub	x9, x1, x8
	cmp	x9, #32
	b.lo	.Lunix_path_BB35_20
	add	x8, x0, x8
.Lunix_path_BB35_16:
	movi	v1.16b, #47
	ldp	q2, q3, [x8], #32
	cmeq	v3.16b, v3.16b, v1.16b
	cmeq	v1.16b, v2.16b, v1.16b
	and	v2.16b, v3.16b, v0.16b
	and	v1.16b, v1.16b, v0.16b
	ext	v3.16b, v2.16b, v2.16b, #8
	ext	v4.16b, v1.16b, v1.16b, #8
	zip1	v2.16b, v2.16b, v3.16b
	zip1	v1.16b, v1.16b, v4.16b
	addv	h2, v2.8h
	addv	h1, v1.8h
	fmov	w10, s2
	fmov	w11, s1
	orr	w10, w11, w10
	tst	w10, #0xffff
	b.ne	.Lunix_path_BB35_18
	sub	x9, x9, #32
	cmp	x9, #31
	b.hi	.Lunix_path_BB35_16
	b	.Lunix_path_BB35_20
.Lunix_path_BB35_18:
	cmp	x9, #31
	b.ls	.Lunix_path_BB35_20
	mov	w0, #1
	ret
.Lunix_path_BB35_20:
	movi	v0.16b, #47
	add	x8, x0, x1
	ldp	q1, q2, [x8, #-32]
	cmeq	v2.16b, v2.16b, v0.16b
	cmeq	v0.16b, v1.16b, v0.16b
	orr	v0.16b, v0.16b, v2.16b
	umaxv	b0, v0.16b
	fmov	w8, s0
	and	w0, w8, #0x1
	ret
.Lunix_path_func_end35:
	.size	unix_path.stems.has_slash, .Lunix_path_func_end35-unix_path.stems.has_slash
	.section	.text.unix_path_as_path,"ax",@progbits
	.globl	unix_path_as_path
	.p2align	2
	.type	unix_path_as_path,@function
unix_path_as_path:
	stp	x29, x30, [sp, #-64]!
	stp	x22, x21, [sp, #32]
	ldp	x22, x9, [x2]
	cmp	x0, #0
	mov	w10, #4096
	str	x23, [sp, #16]
	csel	x10, x10, xzr, eq
	stp	x20, x19, [sp, #48]
	mov	x19, x3
	subs	x23, x9, x22
	mov	x20, x1
	mov	x8, xzr
	cset	w11, lo
	cmp	x1, x9
	add	x9, x0, x10
	csinc	w10, w11, wzr, hs
	add	x9, x9, x22
	adrp	x11, .Lunix_path_static.0
	add	x11, x11, :lo12:.Lunix_path_static.0
	cmp	w10, #0
	mov	x29, sp
	csel	x21, x11, x9, ne
	tbnz	w10, #0, .Lunix_path_BB36_10
	cbz	x23, .Lunix_path_BB36_10
	mov	x8, x23
	b	.Lunix_path_BB36_4
.Lunix_path_BB36_3:
	mov	x8, x1
	cbz	x1, .Lunix_path_BB36_10
.Lunix_path_BB36_4:
	subs	x1, x8, #1
	b.eq	.Lunix_path_BB36_10
	add	x9, x21, x1
	ldrb	w10, [x9]
	cmp	w10, #47
	b.eq	.Lunix_path_BB36_8
	cmp	w10, #46
	b.ne	.Lunix_path_BB36_10
	ldurb	w9, [x9, #-1]
	cmp	w9, #47
	b.ne	.Lunix_path_BB36_10
.Lunix_path_BB36_8:
	sub	x8, x23, x1
	cmp	x8, #8
	b.ne	.Lunix_path_BB36_3
	mov	x0, x21
	bl	unix_path.filler.trimmed_blocks_len
	mov	x1, x0
	b	.Lunix_path_BB36_3
.Lunix_path_BB36_10:
	cmp	x20, x22
	ldr	x23, [sp, #16]
	csel	x9, x20, x22, lo
	ldp	x22, x21, [sp, #32]
	stp	x9, x8, [x19]
	ldp	x20, x19, [sp, #48]
	ldp	x29, x30, [sp], #64
	ret
.Lunix_path_func_end36:
	.size	unix_path_as_path, .Lunix_path_func_end36-unix_path_as_path
	.section	.rodata.cst16,"aM",@progbits,16
	.p2align	4, 0x0
.Lunix_path_CPI37_0:
	.byte	1
	.byte	2
	.byte	4
	.byte	8
	.byte	16
	.byte	32
	.byte	64
	.byte	128
	.byte	1
	.byte	2
	.byte	4
	.byte	8
	.byte	16
	.byte	32
	.byte	64
	.byte	128
	.section	.text.unix_path_canonical,"ax",@progbits
	.globl	unix_path_canonical
	.p2align	2
	.type	unix_path_canonical,@function
unix_path_canonical:
	stp	x29, x30, [sp, #-96]!
	mov	w8, #4096
	cmp	x0, #0
	stp	x28, x27, [sp, #16]
	csel	x28, x8, xzr, eq
	cmp	x2, #0
	stp	x22, x21, [sp, #64]
	csel	x22, x8, xzr, eq
	stp	x26, x25, [sp, #32]
	mov	x21, x1
	stp	x24, x23, [sp, #48]
	add	x24, x0, x28
	add	x25, x2, x22
	stp	x20, x19, [sp, #80]
	mov	x20, x2
	mov	x19, x0
	adrp	x26, .Lunix_path_CPI37_0
	mov	x29, sp
	cbz	x1, .Lunix_path_BB37_9
	mov	x23, x3
	mov	x27, x21
	b	.Lunix_path_BB37_3
.Lunix_path_BB37_2:
	mov	x27, x1
	cbz	x1, .Lunix_path_BB37_13
.Lunix_path_BB37_3:
	subs	x1, x27, #1
	b.eq	.Lunix_path_BB37_10
	add	x8, x24, x1
	ldrb	w9, [x8]
	cmp	w9, #47
	b.eq	.Lunix_path_BB37_7
	cmp	w9, #46
	b.ne	.Lunix_path_BB37_11
	ldurb	w8, [x8, #-1]
	cmp	w8, #47
	b.ne	.Lunix_path_BB37_11
.Lunix_path_BB37_7:
	sub	x8, x21, x1
	cmp	x8, #8
	b.ne	.Lunix_path_BB37_2
	add	x0, x19, x28
	bl	unix_path.filler.trimmed_blocks_len
	mov	x1, x0
	b	.Lunix_path_BB37_2
.Lunix_path_BB37_9:
	mov	x27, xzr
	b	.Lunix_path_BB37_43
.Lunix_path_BB37_10:
	mov	w21, #1
	cbnz	x23, .Lunix_path_BB37_39
	b	.Lunix_path_BB37_38
.Lunix_path_BB37_11:
	subs	x8, x27, #18
	b.hs	.Lunix_path_BB37_14
	mov	x21, xzr
	cmp	xzr, x27
	b.lo	.Lunix_path_BB37_20
	b	.Lunix_path_BB37_29
.Lunix_path_BB37_13:
	mov	x21, xzr
	b	.Lunix_path_BB37_43
.Lunix_path_BB37_14:
	b.eq	.Lunix_path_BB37_18
	mov	x9, xzr
.Lunix_path_BB37_16:
	movi	v0.16b, #46
	movi	v1.16b, #47
	add	x10, x24, x9
	ldur	q2, [x10, #1]
	ldur	q3, [x10, #2]
	ldr	q4, [x10]
	cmeq	v0.16b, v2.16b, v0.16b
	cmeq	v3.16b, v3.16b, v1.16b
	and	v0.16b, v0.16b, v3.16b
	cmeq	v3.16b, v4.16b, v1.16b
	cmeq	v1.16b, v2.16b, v1.16b
	ldr	q2, [x26, :lo12:.Lunix_path_CPI37_0]
	orr	v0.16b, v1.16b, v0.16b
	and	v1.16b, v3.16b, v2.16b
	and	v0.16b, v1.16b, v0.16b
	addp	v0.16b, v0.16b, v0.16b
	addp	v0.16b, v0.16b, v0.16b
	addp	v0.16b, v0.16b, v0.16b
	umov	w10, v0.h[0]
	orr	w10, w10, #0x10000
	rbit	w10, w10
	clz	w10, w10
	cmp	w10, #15
	b.ls	.Lunix_path_BB37_19
	add	x9, x9, #16
	cmp	x9, x8
	b.lo	.Lunix_path_BB37_16
.Lunix_path_BB37_18:
	movi	v0.16b, #46
	movi	v1.16b, #47
	add	x9, x24, x8
	ldur	q2, [x9, #1]
	ldur	q3, [x9, #2]
	ldr	q4, [x9]
	cmeq	v0.16b, v2.16b, v0.16b
	cmeq	v3.16b, v3.16b, v1.16b
	and	v0.16b, v0.16b, v3.16b
	cmeq	v3.16b, v4.16b, v1.16b
	cmeq	v1.16b, v2.16b, v1.16b
	ldr	q2, [x26, :lo12:.Lunix_path_CPI37_0]
	orr	v0.16b, v1.16b, v0.16b
	and	v1.16b, v3.16b, v2.16b
	and	v0.16b, v1.16b, v0.16b
	addp	v0.16b, v0.16b, v0.16b
	addp	v0.16b, v0.16b, v0.16b
	addp	v0.16b, v0.16b, v0.16b
	umov	w9, v0.h[0]
	orr	w9, w9, #0x10000
	rbit	w9, w9
	clz	w9, w9
	add	x21, x8, x9
	cmp	x21, x27
	b.lo	.Lunix_path_BB37_20
	b	.Lunix_path_BB37_29
.Lunix_path_BB37_19:
	add	x21, x9, w10, uxtw
	cmp	x21, x27
	b.hs	.Lunix_path_BB37_29
.Lunix_path_BB37_20:
	sub	x8, x27, #2
	b	.Lunix_path_BB37_23
.Lunix_path_BB37_21:
	cmp	w9, #47
	b.eq	.Lunix_path_BB37_29
.Lunix_path_BB37_22:
	add	x21, x21, #1
	cmp	x27, x21
	b.eq	.Lunix_path_BB37_28
.Lunix_path_BB37_23:
	ldrb	w9, [x24, x21]
	cmp	w9, #47
	b.ne	.Lunix_path_BB37_22
	cmp	x1, x21
	b.eq	.Lunix_path_BB37_29
	add	x9, x24, x21
	ldrb	w9, [x9, #1]
	cmp	w9, #46
	b.ne	.Lunix_path_BB37_21
	cmp	x8, x21
	b.eq	.Lunix_path_BB37_29
	add	x9, x24, x21
	ldrb	w9, [x9, #2]
	b	.Lunix_path_BB37_21
.Lunix_path_BB37_28:
	mov	x21, x27
.Lunix_path_BB37_29:
	cmp	x23, x27
	b.hs	.Lunix_path_BB37_39
	cmp	x21, x27
	b.hs	.Lunix_path_BB37_94
	add	x10, x28, x21
	mov	w11, #1
	neg	x8, x21
	add	x13, x19, x10
	neg	x9, x27
	sub	x10, x11, x27
	mov	x11, x21
	mov	x12, x13
	b	.Lunix_path_BB37_34
.Lunix_path_BB37_32:
	cmp	w14, #47
	b.ne	.Lunix_path_BB37_37
.Lunix_path_BB37_33:
	sub	x8, x8, #1
	add	x11, x11, #1
	mov	x13, x12
	cmp	x9, x8
	b.eq	.Lunix_path_BB37_38
.Lunix_path_BB37_34:
	ldrb	w14, [x12], #1
	cmp	w14, #46
	b.ne	.Lunix_path_BB37_32
	cmp	x10, x8
	b.eq	.Lunix_path_BB37_38
	ldrb	w13, [x13, #1]
	cmp	w13, #47
	b.eq	.Lunix_path_BB37_33
.Lunix_path_BB37_37:
	neg	x9, x8
	cmp	x9, x27
	b.lo	.Lunix_path_BB37_95
.Lunix_path_BB37_38:
	mov	x9, x23
	add	x23, xzr, x21
	cmp	x9, x23
	b.lo	.Lunix_path_BB37_123
.Lunix_path_BB37_39:
	sub	x8, x25, x24
	cmp	x8, x21
	b.hs	.Lunix_path_BB37_43
	cmp	x21, #8
	b.lo	.Lunix_path_BB37_42
	add	x8, x22, x20
	add	x9, x28, x19
	sub	x8, x8, x9
	cmp	x8, #32
	b.hs	.Lunix_path_BB37_120
.Lunix_path_BB37_42:
	mov	x8, xzr
	b	.Lunix_path_BB37_130
.Lunix_path_BB37_43:
	add	x0, x20, x22
	add	x1, x19, x28
	mov	x2, x21
	bl	memmove
.Lunix_path_BB37_44:
	mov	x23, x21
	cmp	x21, x27
	b.hs	.Lunix_path_BB37_52
	add	x10, x28, x23
	mov	w11, #1
	neg	x8, x23
	add	x13, x19, x10
	neg	x9, x27
	sub	x10, x11, x27
	mov	x11, x23
	mov	x12, x13
	b	.Lunix_path_BB37_48
.Lunix_path_BB37_46:
	cmp	w14, #47
	b.ne	.Lunix_path_BB37_51
.Lunix_path_BB37_47:
	sub	x8, x8, #1
	add	x11, x11, #1
	mov	x13, x12
	cmp	x9, x8
	b.eq	.Lunix_path_BB37_123
.Lunix_path_BB37_48:
	ldrb	w14, [x12], #1
	cmp	w14, #46
	b.ne	.Lunix_path_BB37_46
	cmp	x10, x8
	b.eq	.Lunix_path_BB37_123
	ldrb	w13, [x13, #1]
	cmp	w13, #47
	b.eq	.Lunix_path_BB37_47
.Lunix_path_BB37_51:
	neg	x21, x8
.Lunix_path_BB37_52:
	cmp	x21, x27
	b.hs	.Lunix_path_BB37_123
	add	x20, x22, x20
	add	x19, x28, x19
	sub	x28, x27, #1
.Lunix_path_BB37_54:
	sub	x9, x27, x21
	add	x8, x24, x21
	subs	x10, x9, #18
	b.hs	.Lunix_path_BB37_56
	mov	x22, xzr
	cmp	xzr, x9
	b.lo	.Lunix_path_BB37_62
	b	.Lunix_path_BB37_70
.Lunix_path_BB37_56:
	b.eq	.Lunix_path_BB37_60
	add	x12, x19, #1
	mov	x11, xzr
	add	x12, x12, x21
.Lunix_path_BB37_58:
	movi	v0.16b, #46
	movi	v1.16b, #47
	add	x13, x12, x11
	ldr	q2, [x13]
	ldur	q3, [x13, #1]
	ldur	q4, [x13, #-1]
	cmeq	v0.16b, v2.16b, v0.16b
	cmeq	v3.16b, v3.16b, v1.16b
	and	v0.16b, v0.16b, v3.16b
	cmeq	v3.16b, v4.16b, v1.16b
	cmeq	v1.16b, v2.16b, v1.16b
	ldr	q2, [x26, :lo12:.Lunix_path_CPI37_0]
	orr	v0.16b, v1.16b, v0.16b
	and	v1.16b, v3.16b, v2.16b
	and	v0.16b, v1.16b, v0.16b
	addp	v0.16b, v0.16b, v0.16b
	addp	v0.16b, v0.16b, v0.16b
	addp	v0.16b, v0.16b, v0.16b
	umov	w13, v0.h[0]
	orr	w13, w13, #0x10000
	rbit	w13, w13
	clz	w13, w13
	cmp	w13, #15
	b.ls	.Lunix_path_BB37_61
	add	x11, x11, #16
	cmp	x11, x10
	b.lo	.Lunix_path_BB37_58
.Lunix_path_BB37_60:
	movi	v0.16b, #46
	movi	v1.16b, #47
	add	x11, x8, x10
	ldur	q2, [x11, #1]
	ldur	q3, [x11, #2]
	ldr	q4, [x11]
	cmeq	v0.16b, v2.16b, v0.16b
	cmeq	v3.16b, v3.16b, v1.16b
	and	v0.16b, v0.16b, v3.16b
	cmeq	v3.16b, v4.16b, v1.16b
	cmeq	v1.16b, v2.16b, v1.16b
	ldr	q2, [x26, :lo12:.Lunix_path_CPI37_0]
	orr	v0.16b, v1.16b, v0.16b
	and	v1.16b, v3.16b, v2.16b
	and	v0.16b, v1.16b, v0.16b
	addp	v0.16b, v0.16b, v0.16b
	addp	v0.16b, v0.16b, v0.16b
	addp	v0.16b, v0.16b, v0.16b
	umov	w11, v0.h[0]
	orr	w11, w11, #0x10000
	rbit	w11, w11
	clz	w11, w11
	add	x22, x10, x11
	cmp	x22, x9
	b.lo	.Lunix_path_BB37_62
	b	.Lunix_path_BB37_70
.Lunix_path_BB37_61:
	add	x22, x11, w13, uxtw
	cmp	x22, x9
	b.hs	.Lunix_path_BB37_70
.Lunix_path_BB37_62:
	sub	x10, x9, #2
	sub	x11, x9, #1
	b	.Lunix_path_BB37_66
.Lunix_path_BB37_63:
	add	x12, x8, x22
	ldrb	w12, [x12, #2]
.Lunix_path_BB37_64:
	cmp	w12, #47
	b.eq	.Lunix_path_BB37_70
.Lunix_path_BB37_65:
	add	x22, x22, #1
	cmp	x9, x22
	b.eq	.Lunix_path_BB37_76
.Lunix_path_BB37_66:
	ldrb	w12, [x8, x22]
	cmp	w12, #47
	b.ne	.Lunix_path_BB37_65
	cmp	x11, x22
	b.eq	.Lunix_path_BB37_70
	add	x12, x8, x22
	ldrb	w12, [x12, #1]
	cmp	w12, #46
	b.ne	.Lunix_path_BB37_64
	cmp	x10, x22
	b.ne	.Lunix_path_BB37_63
.Lunix_path_BB37_70:
	sub	x1, x8, #1
	add	x8, x25, x23
	add	x26, x22, #1
	sub	x8, x8, x1
	cmp	x8, x26
	b.hs	.Lunix_path_BB37_77
.Lunix_path_BB37_71:
	cmp	x26, #8
	b.lo	.Lunix_path_BB37_73
	add	x8, x20, #1
	add	x9, x19, x21
	add	x8, x8, x23
	sub	x8, x8, x9
	cmp	x8, #32
	b.hs	.Lunix_path_BB37_85
.Lunix_path_BB37_73:
	mov	x8, xzr
.Lunix_path_BB37_74:
	sub	x9, x22, x8
	add	x10, x8, x21
	add	x11, x8, x23
	add	x8, x9, #1
	sub	x9, x19, #1
	add	x9, x9, x10
	add	x10, x20, x11
.Lunix_path_BB37_75:
	ldrb	w11, [x9], #1
	subs	x8, x8, #1
	strb	w11, [x10], #1
	b.ne	.Lunix_path_BB37_75
	b	.Lunix_path_BB37_78
.Lunix_path_BB37_76:
	sub	x22, x27, x21
	sub	x1, x8, #1
	add	x8, x25, x23
	add	x26, x22, #1
	sub	x8, x8, x1
	cmp	x8, x26
	b.lo	.Lunix_path_BB37_71
.Lunix_path_BB37_77:
	add	x0, x25, x23
	add	x2, x22, #1
	bl	memmove
.Lunix_path_BB37_78:
	add	x21, x22, x21
	add	x23, x26, x23
	adrp	x26, .Lunix_path_CPI37_0
	cmp	x21, x27
	b.lo	.Lunix_path_BB37_81
.Lunix_path_BB37_79:
	cmp	x21, x27
	b.lo	.Lunix_path_BB37_54
	b	.Lunix_path_BB37_123
.Lunix_path_BB37_80:
	add	x21, x21, #1
	cmp	x27, x21
	b.eq	.Lunix_path_BB37_123
.Lunix_path_BB37_81:
	ldrb	w8, [x24, x21]
	cmp	w8, #47
	b.eq	.Lunix_path_BB37_80
	cmp	w8, #46
	b.ne	.Lunix_path_BB37_79
	cmp	x28, x21
	b.eq	.Lunix_path_BB37_123
	add	x8, x24, x21
	ldrb	w8, [x8, #1]
	cmp	w8, #47
	b.eq	.Lunix_path_BB37_80
	b	.Lunix_path_BB37_79
.Lunix_path_BB37_85:
	cmp	x26, #32
	b.hs	.Lunix_path_BB37_87
	mov	x8, xzr
	b	.Lunix_path_BB37_91
.Lunix_path_BB37_87:
	add	x10, x20, #16
	add	x11, x19, #15
	and	x9, x26, #0x18
	and	x8, x26, #0xffffffffffffffe0
	add	x10, x10, x23
	add	x11, x11, x21
	and	x12, x26, #0xffffffffffffffe0
.Lunix_path_BB37_88:
	ldp	q0, q1, [x11, #-16]
	subs	x12, x12, #32
	add	x11, x11, #32
	stp	q0, q1, [x10, #-16]
	add	x10, x10, #32
	b.ne	.Lunix_path_BB37_88
	cmp	x26, x8
	b.eq	.Lunix_path_BB37_78
	cbz	x9, .Lunix_path_BB37_74
.Lunix_path_BB37_91:
	mov	x9, x8
	and	x8, x26, #0xfffffffffffffff8
	sub	x12, x19, #1
	add	x10, x21, x9
	add	x11, x9, x23
	sub	x9, x9, x8
	add	x10, x12, x10
	add	x11, x20, x11
.Lunix_path_BB37_92:
	ldr	d0, [x10], #8
	adds	x9, x9, #8
	str	d0, [x11], #8
	b.ne	.Lunix_path_BB37_92
	cmp	x26, x8
	b.eq	.Lunix_path_BB37_78
	b	.Lunix_path_BB37_74
.Lunix_path_BB37_94:
	mov	x9, x21
	cmp	x21, x27
	b.hs	.Lunix_path_BB37_38
.Lunix_path_BB37_95:
	add	x10, x28, x19
	mov	x8, xzr
	add	x10, x10, #1
.Lunix_path_BB37_96:
	sub	x11, x27, x9
	add	x12, x24, x9
	subs	x13, x11, #18
	b.hs	.Lunix_path_BB37_98
	mov	x13, xzr
	cmp	xzr, x11
	b.lo	.Lunix_path_BB37_104
	b	.Lunix_path_BB37_113
.Lunix_path_BB37_98:
	b.eq	.Lunix_path_BB37_102
	mov	x14, xzr
	add	x15, x10, x9
.Lunix_path_BB37_100:
	movi	v0.16b, #46
	movi	v1.16b, #47
	add	x16, x15, x14
	ldr	q2, [x16]
	ldur	q3, [x16, #1]
	ldur	q4, [x16, #-1]
	cmeq	v0.16b, v2.16b, v0.16b
	cmeq	v3.16b, v3.16b, v1.16b
	and	v0.16b, v0.16b, v3.16b
	cmeq	v3.16b, v4.16b, v1.16b
	cmeq	v1.16b, v2.16b, v1.16b
	ldr	q2, [x26, :lo12:.Lunix_path_CPI37_0]
	orr	v0.16b, v1.16b, v0.16b
	and	v1.16b, v3.16b, v2.16b
	and	v0.16b, v1.16b, v0.16b
	addp	v0.16b, v0.16b, v0.16b
	addp	v0.16b, v0.16b, v0.16b
	addp	v0.16b, v0.16b, v0.16b
	umov	w16, v0.h[0]
	orr	w16, w16, #0x10000
	rbit	w16, w16
	clz	w16, w16
	cmp	w16, #15
	b.ls	.Lunix_path_BB37_103
	add	x14, x14, #16
	cmp	x14, x13
	b.lo	.Lunix_path_BB37_100
.Lunix_path_BB37_102:
	movi	v0.16b, #46
	movi	v1.16b, #47
	add	x14, x12, x13
	ldur	q2, [x14, #1]
	ldur	q3, [x14, #2]
	ldr	q4, [x14]
	cmeq	v0.16b, v2.16b, v0.16b
	cmeq	v3.16b, v3.16b, v1.16b
	and	v0.16b, v0.16b, v3.16b
	cmeq	v3.16b, v4.16b, v1.16b
	cmeq	v1.16b, v2.16b, v1.16b
	ldr	q2, [x26, :lo12:.Lunix_path_CPI37_0]
	orr	v0.16b, v1.16b, v0.16b
	and	v1.16b, v3.16b, v2.16b
	and	v0.16b, v1.16b, v0.16b
	addp	v0.16b, v0.16b, v0.16b
	addp	v0.16b, v0.16b, v0.16b
	addp	v0.16b, v0.16b, v0.16b
	umov	w14, v0.h[0]
	orr	w14, w14, #0x10000
	rbit	w14, w14
	clz	w14, w14
	add	x13, x13, x14
	cmp	x13, x11
	b.lo	.Lunix_path_BB37_104
	b	.Lunix_path_BB37_113
.Lunix_path_BB37_103:
	add	x13, x14, w16, uxtw
	cmp	x13, x11
	b.hs	.Lunix_path_BB37_113
.Lunix_path_BB37_104:
	sub	x14, x11, #2
	sub	x15, x11, #1
	b	.Lunix_path_BB37_108
.Lunix_path_BB37_105:
	add	x16, x12, x13
	ldrb	w16, [x16, #2]
.Lunix_path_BB37_106:
	cmp	w16, #47
	b.eq	.Lunix_path_BB37_113
.Lunix_path_BB37_107:
	add	x13, x13, #1
	cmp	x11, x13
	b.eq	.Lunix_path_BB37_112
.Lunix_path_BB37_108:
	ldrb	w16, [x12, x13]
	cmp	w16, #47
	b.ne	.Lunix_path_BB37_107
	cmp	x15, x13
	b.eq	.Lunix_path_BB37_113
	add	x16, x12, x13
	ldrb	w16, [x16, #1]
	cmp	w16, #46
	b.ne	.Lunix_path_BB37_106
	cmp	x14, x13
	b.ne	.Lunix_path_BB37_105
	b	.Lunix_path_BB37_113
.Lunix_path_BB37_112:
	sub	x13, x27, x9
.Lunix_path_BB37_113:
	add	x9, x13, x9
	add	x8, x8, x13
	cmp	x9, x27
	add	x8, x8, #1
	b.lo	.Lunix_path_BB37_116
.Lunix_path_BB37_114:
	cmp	x9, x27
	b.lo	.Lunix_path_BB37_96
	b	.Lunix_path_BB37_122
.Lunix_path_BB37_115:
	add	x9, x9, #1
	cmp	x27, x9
	b.eq	.Lunix_path_BB37_122
.Lunix_path_BB37_116:
	ldrb	w11, [x24, x9]
	cmp	w11, #47
	b.eq	.Lunix_path_BB37_115
	cmp	w11, #46
	b.ne	.Lunix_path_BB37_114
	cmp	x1, x9
	b.eq	.Lunix_path_BB37_122
	add	x11, x24, x9
	ldrb	w11, [x11, #1]
	cmp	w11, #47
	b.eq	.Lunix_path_BB37_115
	b	.Lunix_path_BB37_114
.Lunix_path_BB37_120:
	cmp	x21, #32
	b.hs	.Lunix_path_BB37_124
	mov	x8, xzr
	b	.Lunix_path_BB37_128
.Lunix_path_BB37_122:
	mov	x9, x23
	add	x23, x8, x21
	cmp	x9, x23
	b.hs	.Lunix_path_BB37_39
.Lunix_path_BB37_123:
	mov	x0, x23
	ldp	x20, x19, [sp, #80]
	ldp	x22, x21, [sp, #64]
	ldp	x24, x23, [sp, #48]
	ldp	x26, x25, [sp, #32]
	ldp	x28, x27, [sp, #16]
	ldp	x29, x30, [sp], #96
	ret
.Lunix_path_BB37_124:
	add	x10, x28, x19
	add	x11, x22, x20
	and	x9, x21, #0x18
	and	x8, x21, #0xffffffffffffffe0
	add	x10, x10, #16
	add	x11, x11, #16
	and	x12, x21, #0xffffffffffffffe0
.Lunix_path_BB37_125:
	ldp	q0, q1, [x10, #-16]
	subs	x12, x12, #32
	add	x10, x10, #32
	stp	q0, q1, [x11, #-16]
	add	x11, x11, #32
	b.ne	.Lunix_path_BB37_125
	cmp	x21, x8
	b.eq	.Lunix_path_BB37_44
	cbz	x9, .Lunix_path_BB37_130
.Lunix_path_BB37_128:
	mov	x9, x8
	and	x8, x21, #0xfffffffffffffff8
	add	x10, x28, x9
	add	x11, x22, x9
	sub	x9, x9, x8
	add	x10, x19, x10
	add	x11, x20, x11
.Lunix_path_BB37_129:
	ldr	d0, [x10], #8
	adds	x9, x9, #8
	str	d0, [x11], #8
	b.ne	.Lunix_path_BB37_129
	b	.Lunix_path_BB37_131
.Lunix_path_BB37_130:
	ldrb	w9, [x24, x8]
	strb	w9, [x25, x8]
	add	x8, x8, #1
.Lunix_path_BB37_131:
	cmp	x21, x8
	b.ne	.Lunix_path_BB37_130
	b	.Lunix_path_BB37_44
.Lunix_path_func_end37:
	.size	unix_path_canonical, .Lunix_path_func_end37-unix_path_canonical
	.section	.rodata.cst16,"aM",@progbits,16
	.p2align	4, 0x0
.Lunix_path_CPI38_0:
	.byte	1
	.byte	2
	.byte	4
	.byte	8
	.byte	16
	.byte	32
	.byte	64
	.byte	128
	.byte	1
	.byte	2
	.byte	4
	.byte	8
	.byte	16
	.byte	32
	.byte	64
	.byte	128
	.section	.text.unix_path_check_entries,"ax",@progbits
	.globl	unix_path_check_entries
	.p2align	2
	.type	unix_path_check_entries,@function
unix_path_check_entries:
	sub	sp, sp, #208
	cmp	x0, #0
	mov	w8, #4096
	stp	x24, x23, [sp, #160]
	csel	x23, x8, xzr, eq
	cmp	x2, #0
	stp	x28, x27, [sp, #128]
	csel	x27, x8, xzr, eq
	stp	x29, x30, [sp, #112]
	add	x29, sp, #112
	stp	x20, x19, [sp, #192]
	mov	x19, x0
	mov	x24, x2
	add	x8, x2, x27
	add	x0, x0, x23
	add	x2, x2, x27
	stp	x26, x25, [sp, #144]
	mov	x20, x5
	mov	x25, x3
	stp	x22, x21, [sp, #176]
	mov	w22, w4
	mov	x21, x1
	stur	x8, [x29, #-40]
	bl	path_archive.records.split
	and	w8, w0, #0xff
	cmp	w8, #1
	b.ne	.Lunix_path_BB38_3
	cmp	x25, x1
	b.hs	.Lunix_path_BB38_4
	mov	w0, #3
	b	.Lunix_path_BB38_204
.Lunix_path_BB38_3:
	mov	w0, #2
	b	.Lunix_path_BB38_204
.Lunix_path_BB38_4:
	str	w22, [sp, #12]
	cmp	x1, #20
	add	x22, x19, x23
	stp	x22, x21, [x29, #-32]
	stur	x1, [x29, #-48]
	stp	x23, x19, [sp, #48]
	str	x20, [sp]
	str	x27, [sp, #40]
	b.hi	.Lunix_path_BB38_6
	add	x0, x24, x27
	sub	x2, x29, #32
	add	x23, x19, x23
	mov	x19, x1
	bl	core.slice.sort.small.insertion_sort.fd4dfef4a36ac24b.
	b	.Lunix_path_BB38_17
.Lunix_path_BB38_6:
	add	x19, x24, x27
	ldp	x9, x8, [x19, #40]
	cmp	x21, x8
	csel	x8, x21, x8, lo
	cmp	x8, x9
	csel	x9, x8, x9, lo
	sub	x1, x8, x9
	add	x0, x22, x9
	bl	path_archive.slot.without_dot
	ldp	x9, x8, [x19]
	mov	x25, x0
	mov	x26, x1
	cmp	x21, x8
	csel	x8, x21, x8, lo
	cmp	x8, x9
	csel	x9, x8, x9, lo
	sub	x1, x8, x9
	add	x0, x22, x9
	bl	path_archive.slot.without_dot
	mov	x2, x0
	mov	x3, x1
	mov	x0, x25
	mov	x1, x26
	bl	unix_path.compare.compare
	ldp	x11, x8, [x19, #16]
	ldp	x10, x9, [x19, #56]
	cmp	x9, x8
	mov	w8, #2
	csel	w9, wzr, w8, lo
	csinc	w9, w9, wzr, ne
	cmp	x10, x11
	and	w10, w0, #0xff
	csel	w8, wzr, w8, lo
	csel	w8, w9, w8, eq
	cmp	w10, #1
	csel	w8, w8, w10, eq
	str	w8, [sp, #32]
	cbz	w8, .Lunix_path_BB38_10
	add	x8, x27, x24
	mov	w28, #2
	add	x22, x8, #56
	mov	x27, x22
.Lunix_path_BB38_8:
	ldp	x9, x8, [x22, #24]
	ldp	x20, x23, [sp, #48]
	cmp	x21, x8
	csel	x8, x21, x8, lo
	add	x19, x23, x20
	cmp	x8, x9
	csel	x9, x8, x9, lo
	sub	x1, x8, x9
	add	x0, x19, x9
	bl	path_archive.slot.without_dot
	ldp	x9, x8, [x22, #-16]
	mov	x25, x0
	mov	x26, x1
	add	x23, x23, x20
	cmp	x21, x8
	csel	x8, x21, x8, lo
	cmp	x8, x9
	csel	x9, x8, x9, lo
	sub	x1, x8, x9
	add	x0, x19, x9
	bl	path_archive.slot.without_dot
	mov	x2, x0
	mov	x3, x1
	mov	x0, x25
	mov	x1, x26
	bl	unix_path.compare.compare
	ldp	x10, x9, [x22]
	mov	w12, #2
	ldr	x8, [x22, #48]
	ldr	x11, [x27, #40]!
	cmp	x8, x9
	and	w9, w0, #0xff
	csel	w8, wzr, w12, lo
	csinc	w8, w8, wzr, ne
	cmp	x11, x10
	csel	w10, wzr, w12, lo
	csel	w8, w8, w10, eq
	cmp	w9, #1
	csel	w8, w8, w9, eq
	cbz	w8, .Lunix_path_BB38_13
	ldur	x14, [x29, #-48]
	add	x28, x28, #1
	mov	x22, x27
	cmp	x14, x28
	b.ne	.Lunix_path_BB38_8
	b	.Lunix_path_BB38_19
.Lunix_path_BB38_10:
	add	x8, x27, x24
	mov	w28, #2
	add	x27, x8, #56
	mov	x22, x27
.Lunix_path_BB38_11:
	ldp	x9, x8, [x27, #24]
	ldp	x23, x19, [sp, #48]
	cmp	x21, x8
	csel	x8, x21, x8, lo
	add	x20, x19, x23
	cmp	x8, x9
	csel	x9, x8, x9, lo
	sub	x1, x8, x9
	add	x0, x20, x9
	bl	path_archive.slot.without_dot
	ldp	x9, x8, [x27, #-16]
	mov	x25, x0
	mov	x26, x1
	add	x23, x19, x23
	cmp	x21, x8
	csel	x8, x21, x8, lo
	cmp	x8, x9
	csel	x9, x8, x9, lo
	sub	x1, x8, x9
	add	x0, x20, x9
	bl	path_archive.slot.without_dot
	mov	x2, x0
	mov	x3, x1
	mov	x0, x25
	mov	x1, x26
	bl	unix_path.compare.compare
	ldp	x10, x9, [x27]
	mov	w12, #2
	ldr	x8, [x27, #48]
	ldr	x11, [x22, #40]!
	cmp	x8, x9
	and	w9, w0, #0xff
	csel	w8, wzr, w12, lo
	csinc	w8, w8, wzr, ne
	cmp	x11, x10
	csel	w10, wzr, w12, lo
	csel	w8, w8, w10, eq
	cmp	w9, #1
	csel	w8, w8, w9, eq
	cbnz	w8, .Lunix_path_BB38_13
	ldur	x14, [x29, #-48]
	add	x28, x28, #1
	mov	x27, x22
	cmp	x14, x28
	b.ne	.Lunix_path_BB38_11
	b	.Lunix_path_BB38_16
.Lunix_path_BB38_13:
	ldur	x14, [x29, #-48]
	cmp	x28, x14
	b.hs	.Lunix_path_BB38_15
	clz	x8, x14
	ldr	x9, [sp, #40]
	sub	x4, x29, #32
	lsl	w8, w8, #1
	mov	x1, xzr
	mov	x2, x14
	add	x0, x24, x9
	mov	x19, x14
	eor	w3, w8, #0x7e
	bl	core.slice.sort.unstable.quicksort.fd4dfef4a36ac24b.
	mov	x14, x19
	b	.Lunix_path_BB38_19
.Lunix_path_BB38_15:
	ldr	w8, [sp, #32]
	cbnz	w8, .Lunix_path_BB38_18
.Lunix_path_BB38_16:
	lsr	x2, x14, #1
	ldr	x11, [sp, #40]
	mov	w9, #40
	mov	x19, x14
	sub	x8, x14, x2
	add	x10, x24, x11
	add	x0, x24, x11
	madd	x1, x8, x9, x10
	bl	core.slice.edits.mirror.24.path_archive.slot.Slot.
.Lunix_path_BB38_17:
	mov	x14, x19
.Lunix_path_BB38_18:
	cbz	x14, .Lunix_path_BB38_203
.Lunix_path_BB38_19:
	ldr	x9, [sp, #40]
	mov	w8, wzr
	mov	x28, xzr
	mov	x20, xzr
	add	x9, x9, x24
	add	x19, x9, #16
	b	.Lunix_path_BB38_21
.Lunix_path_BB38_20:
	ldr	x8, [x19]
	mov	x9, x28
	cmp	x8, #5
	cset	w8, lo
	csel	x20, x28, x20, lo
	add	x28, x28, #1
	str	x9, [x19, #16]
	add	x19, x19, #40
	cmp	x14, x28
	b.eq	.Lunix_path_BB38_28
.Lunix_path_BB38_21:
	and	w8, w8, #0xff
	cmp	w8, #1
	b.ne	.Lunix_path_BB38_20
	mov	w8, #40
	ldur	x9, [x29, #-40]
	madd	x22, x20, x8, x9
	ldp	x27, x23, [sp, #48]
	add	x26, x23, x27
	ldp	x9, x8, [x22]
	cmp	x21, x8
	csel	x8, x21, x8, lo
	cmp	x8, x9
	csel	x9, x8, x9, lo
	sub	x1, x8, x9
	add	x0, x26, x9
	bl	path_archive.slot.without_dot
	ldp	x9, x8, [x19, #-16]
	mov	x24, x0
	mov	x25, x1
	add	x23, x23, x27
	cmp	x21, x8
	csel	x8, x21, x8, lo
	cmp	x8, x9
	csel	x9, x8, x9, lo
	sub	x1, x8, x9
	add	x0, x26, x9
	bl	path_archive.slot.without_dot
	mov	x2, x24
	mov	x3, x25
	mov	x26, x0
	mov	x27, x1
	bl	path_archive.outlined.starts_with
	cbz	w0, .Lunix_path_BB38_26
	mov	x0, x24
	mov	x1, x25
	mov	x2, x26
	mov	x3, x27
	bl	path_archive.outlined.starts_with
	ldr	x8, [x22, #16]
	tbz	w0, #0, .Lunix_path_BB38_25
	ldr	x9, [x19]
	cmp	x9, #2
	ccmp	x8, #1, #0, eq
	ccmp	x8, #0, #4, ne
	mov	w8, #1
	csel	x9, x20, x28, eq
	ldur	x14, [x29, #-48]
	add	x28, x28, #1
	str	x9, [x19, #16]
	add	x19, x19, #40
	cmp	x14, x28
	b.ne	.Lunix_path_BB38_21
	b	.Lunix_path_BB38_28
.Lunix_path_BB38_25:
	cmp	x8, #4
	b.ls	.Lunix_path_BB38_27
.Lunix_path_BB38_26:
	ldr	x8, [x19]
	mov	x9, x28
	cmp	x8, #4
	mov	w8, #1
	csel	x20, x20, x28, hi
	ldur	x14, [x29, #-48]
	add	x28, x28, #1
	str	x9, [x19, #16]
	add	x19, x19, #40
	cmp	x14, x28
	b.ne	.Lunix_path_BB38_21
	b	.Lunix_path_BB38_28
.Lunix_path_BB38_27:
	mov	w8, #1
	ldur	x14, [x29, #-48]
	add	x28, x28, #1
	str	x20, [x19, #16]
	add	x19, x19, #40
	cmp	x14, x28
	b.ne	.Lunix_path_BB38_21
.Lunix_path_BB38_28:
	ldp	x9, x8, [sp, #48]
	mov	x27, xzr
	mov	x12, xzr
	mov	w19, wzr
	str	wzr, [sp, #40]
	stp	x23, xzr, [sp, #24]
	add	x8, x9, x8
	stur	wzr, [x29, #-8]
	sub	x9, x8, #16
	sub	x8, x8, #1
	stur	wzr, [x29, #-5]
	str	x9, [sp, #48]
	str	x8, [sp, #16]
	b	.Lunix_path_BB38_32
.Lunix_path_BB38_29:
	ldur	w12, [x29, #-16]
	ldur	w13, [x29, #-13]
	mov	w19, w11
	str	w8, [sp, #40]
	stur	w12, [x29, #-32]
	mov	x12, x9
	stur	w13, [x29, #-29]
.Lunix_path_BB38_30:
	str	x10, [sp, #32]
.Lunix_path_BB38_31:
	ldur	w8, [x29, #-32]
	ldur	w9, [x29, #-29]
	add	x27, x27, #1
	cmp	x27, x14
	stur	w8, [x29, #-8]
	stur	w9, [x29, #-5]
	b.eq	.Lunix_path_BB38_201
.Lunix_path_BB38_32:
	mov	w8, #40
	ldur	x9, [x29, #-40]
	madd	x20, x27, x8, x9
	ldr	x28, [x20, #16]
	cmp	x28, #4
	b.ne	.Lunix_path_BB38_34
	mov	w8, #1
	b	.Lunix_path_BB38_49
.Lunix_path_BB38_34:
	ldp	x8, x24, [x20]
	str	x12, [sp, #56]
	cmp	x21, x24
	csel	x22, x21, x24, lo
	cmp	x22, x8
	csel	x8, x22, x8, lo
	add	x25, x23, x8
	sub	x26, x22, x8
	mov	x0, x25
	mov	x1, x26
	bl	path_archive.outlined.has_root_or_parent_dir
	tbz	w0, #0, .Lunix_path_BB38_36
	mov	w8, wzr
	b	.Lunix_path_BB38_48
.Lunix_path_BB38_36:
	cmp	x26, #15
	adrp	x23, .Lunix_path_CPI38_0
	b.hi	.Lunix_path_BB38_40
	mov	x8, xzr
	cbz	x26, .Lunix_path_BB38_45
.Lunix_path_BB38_38:
	ldrb	w9, [x25, x8]
	cbz	w9, .Lunix_path_BB38_45
	add	x8, x8, #1
	cmp	x26, x8
	b.ne	.Lunix_path_BB38_38
	b	.Lunix_path_BB38_55
.Lunix_path_BB38_40:
	subs	x8, x26, #16
	b.eq	.Lunix_path_BB38_44
	mov	x9, xzr
.Lunix_path_BB38_42:
	ldr	q0, [x25, x9]
	ldr	q1, [x23, :lo12:.Lunix_path_CPI38_0]
	cmeq	v0.16b, v0.16b, #0
	and	v0.16b, v0.16b, v1.16b
	addp	v0.16b, v0.16b, v0.16b
	addp	v0.16b, v0.16b, v0.16b
	addp	v0.16b, v0.16b, v0.16b
	umov	w10, v0.h[0]
	orr	w10, w10, #0x10000
	rbit	w10, w10
	clz	w10, w10
	cmp	w10, #15
	b.ls	.Lunix_path_BB38_54
	add	x9, x9, #16
	cmp	x9, x8
	b.lo	.Lunix_path_BB38_42
.Lunix_path_BB38_44:
	ldr	q0, [x25, x8]
	ldr	q1, [x23, :lo12:.Lunix_path_CPI38_0]
	cmeq	v0.16b, v0.16b, #0
	and	v0.16b, v0.16b, v1.16b
	addp	v0.16b, v0.16b, v0.16b
	addp	v0.16b, v0.16b, v0.16b
	addp	v0.16b, v0.16b, v0.16b
	umov	w9, v0.h[0]
	orr	w9, w9, #0x10000
	rbit	w9, w9
	clz	w9, w9
	add	x8, x8, x9
.Lunix_path_BB38_45:
	cmp	x8, x26
	b.hs	.Lunix_path_BB38_55
.Lunix_path_BB38_46:
	mov	w8, wzr
.Lunix_path_BB38_47:
	ldr	x23, [sp, #24]
.Lunix_path_BB38_48:
	ldur	x14, [x29, #-48]
	ldr	x12, [sp, #56]
.Lunix_path_BB38_49:
	ldr	x9, [x20, #24]
	stur	wzr, [x29, #-16]
	mov	w11, #1
	stur	wzr, [x29, #-13]
	mov	x10, x9
.Lunix_path_BB38_50:
	cmp	w19, #1
	b.ne	.Lunix_path_BB38_29
	cmp	x9, x12
	csel	w11, wzr, w11, hs
	cmp	w11, #1
	b.ne	.Lunix_path_BB38_53
	ldur	w11, [x29, #-16]
	ldur	w12, [x29, #-13]
	mov	w19, #1
	str	w8, [sp, #40]
	stur	w11, [x29, #-32]
	stur	w12, [x29, #-29]
	mov	x12, x9
	b	.Lunix_path_BB38_30
.Lunix_path_BB38_53:
	ldur	w8, [x29, #-8]
	ldur	w9, [x29, #-5]
	mov	w19, #1
	stur	w8, [x29, #-32]
	stur	w9, [x29, #-29]
	b	.Lunix_path_BB38_31
.Lunix_path_BB38_54:
	add	x8, x9, w10, uxtw
	cmp	x8, x26
	b.lo	.Lunix_path_BB38_46
.Lunix_path_BB38_55:
	cmp	x28, #4
	b.ls	.Lunix_path_BB38_58
.Lunix_path_BB38_56:
	ldr	x8, [x20, #32]
	cmp	x8, x27
	b.ne	.Lunix_path_BB38_75
	ldr	x23, [sp, #24]
	ldur	x14, [x29, #-48]
	mov	w11, wzr
	ldr	x12, [sp, #56]
	mov	x9, xzr
	mov	x10, xzr
	mov	w8, wzr
	stur	wzr, [x29, #-13]
	stur	wzr, [x29, #-16]
	b	.Lunix_path_BB38_50
.Lunix_path_BB38_58:
	ldr	x8, [sp, #48]
	ldr	x9, [sp, #16]
	mov	x11, x26
	add	x10, x8, x22
	add	x8, x26, #1
	add	x9, x9, x22
.Lunix_path_BB38_59:
	cmp	x11, #15
	b.ls	.Lunix_path_BB38_62
	movi	v0.16b, #47
	ldr	q1, [x10], #-16
	sub	x11, x11, #16
	sub	x8, x8, #16
	sub	x9, x9, #16
	cmeq	v0.16b, v1.16b, v0.16b
	ldr	q1, [x23, :lo12:.Lunix_path_CPI38_0]
	and	v0.16b, v0.16b, v1.16b
	addp	v0.16b, v0.16b, v0.16b
	addp	v0.16b, v0.16b, v0.16b
	addp	v0.16b, v0.16b, v0.16b
	umov	w12, v0.h[0]
	cbz	w12, .Lunix_path_BB38_59
	umov	w8, v0.h[0]
	and	x8, x8, #0xffff
	clz	x8, x8
	sub	x8, x11, x8
	add	x8, x8, #64
	b	.Lunix_path_BB38_64
.Lunix_path_BB38_62:
	subs	x8, x8, #1
	b.eq	.Lunix_path_BB38_64
	ldrb	w10, [x9], #-1
	cmp	w10, #47
	b.ne	.Lunix_path_BB38_62
.Lunix_path_BB38_64:
	subs	x9, x26, x8
	b.eq	.Lunix_path_BB38_46
	cmp	x9, #1
	b.ne	.Lunix_path_BB38_67
	ldrb	w8, [x25, x8]
	cmp	w8, #46
	b.eq	.Lunix_path_BB38_46
.Lunix_path_BB38_67:
	ldr	w8, [sp, #12]
	cbz	w8, .Lunix_path_BB38_56
	cbnz	x28, .Lunix_path_BB38_56
	cmp	x21, x24
	b.ls	.Lunix_path_BB38_79
	add	x9, x24, #1
	ldr	x10, [sp, #24]
	sub	x8, x21, x9
	cmp	x8, #15
	add	x28, x10, x9
	b.hi	.Lunix_path_BB38_80
	mov	x24, xzr
	cbz	x8, .Lunix_path_BB38_98
.Lunix_path_BB38_72:
	ldrb	w9, [x28, x24]
	cbz	w9, .Lunix_path_BB38_86
	add	x24, x24, #1
	cmp	x8, x24
	b.ne	.Lunix_path_BB38_72
	mov	x24, x8
	b	.Lunix_path_BB38_86
.Lunix_path_BB38_75:
	mov	w9, #40
	ldur	x10, [x29, #-40]
	ldr	x26, [sp, #24]
	madd	x22, x8, x9, x10
	ldp	x9, x8, [x22]
	cmp	x21, x8
	csel	x8, x21, x8, lo
	cmp	x8, x9
	csel	x9, x8, x9, lo
	sub	x1, x8, x9
	add	x0, x26, x9
	bl	path_archive.slot.without_dot
	ldp	x9, x8, [x20]
	mov	x23, x0
	mov	x24, x1
	mov	x25, x26
	cmp	x21, x8
	csel	x8, x21, x8, lo
	cmp	x8, x9
	csel	x9, x8, x9, lo
	sub	x1, x8, x9
	add	x0, x26, x9
	bl	path_archive.slot.without_dot
	mov	x2, x0
	mov	x3, x1
	mov	x0, x23
	mov	x1, x24
	bl	path_archive.outlined.starts_with
	cbz	w0, .Lunix_path_BB38_77
	ldr	x8, [x20, #16]
	cmp	x8, #2
	mov	w8, #3
	cinc	w8, w8, eq
	b	.Lunix_path_BB38_78
.Lunix_path_BB38_77:
	mov	w8, #2
.Lunix_path_BB38_78:
	ldur	x14, [x29, #-48]
	ldr	x12, [sp, #56]
	mov	w11, #1
	ldr	x9, [x20, #24]
	ldr	x10, [x22, #24]
	mov	x23, x25
	stur	wzr, [x29, #-16]
	stur	wzr, [x29, #-13]
	b	.Lunix_path_BB38_50
.Lunix_path_BB38_79:
	ldr	x8, [sp, #24]
	mov	x24, xzr
	add	x28, x8, x21
	b	.Lunix_path_BB38_98
.Lunix_path_BB38_80:
	subs	x8, x8, #16
	b.eq	.Lunix_path_BB38_84
	mov	x9, xzr
.Lunix_path_BB38_82:
	ldr	q0, [x28, x9]
	ldr	q1, [x23, :lo12:.Lunix_path_CPI38_0]
	cmeq	v0.16b, v0.16b, #0
	and	v0.16b, v0.16b, v1.16b
	addp	v0.16b, v0.16b, v0.16b
	addp	v0.16b, v0.16b, v0.16b
	addp	v0.16b, v0.16b, v0.16b
	umov	w10, v0.h[0]
	orr	w10, w10, #0x10000
	rbit	w10, w10
	clz	w10, w10
	cmp	w10, #15
	b.ls	.Lunix_path_BB38_85
	add	x9, x9, #16
	cmp	x9, x8
	b.lo	.Lunix_path_BB38_82
.Lunix_path_BB38_84:
	ldr	q0, [x28, x8]
	ldr	q1, [x23, :lo12:.Lunix_path_CPI38_0]
	cmeq	v0.16b, v0.16b, #0
	and	v0.16b, v0.16b, v1.16b
	addp	v0.16b, v0.16b, v0.16b
	addp	v0.16b, v0.16b, v0.16b
	addp	v0.16b, v0.16b, v0.16b
	umov	w9, v0.h[0]
	orr	w9, w9, #0x10000
	rbit	w9, w9
	clz	w9, w9
	add	x24, x8, x9
	b	.Lunix_path_BB38_86
.Lunix_path_BB38_85:
	add	x24, x9, w10, uxtw
.Lunix_path_BB38_86:
	cmp	x24, #15
	b.hi	.Lunix_path_BB38_91
	cbz	x24, .Lunix_path_BB38_98
	mov	x8, xzr
.Lunix_path_BB38_89:
	ldrb	w9, [x28, x8]
	cbz	w9, .Lunix_path_BB38_97
	add	x8, x8, #1
	cmp	x24, x8
	b.ne	.Lunix_path_BB38_89
	b	.Lunix_path_BB38_98
.Lunix_path_BB38_91:
	subs	x8, x24, #16
	b.eq	.Lunix_path_BB38_95
	mov	x9, xzr
.Lunix_path_BB38_93:
	ldr	q0, [x28, x9]
	ldr	q1, [x23, :lo12:.Lunix_path_CPI38_0]
	cmeq	v0.16b, v0.16b, #0
	and	v0.16b, v0.16b, v1.16b
	addp	v0.16b, v0.16b, v0.16b
	addp	v0.16b, v0.16b, v0.16b
	addp	v0.16b, v0.16b, v0.16b
	umov	w10, v0.h[0]
	orr	w10, w10, #0x10000
	rbit	w10, w10
	clz	w10, w10
	cmp	w10, #15
	b.ls	.Lunix_path_BB38_96
	add	x9, x9, #16
	cmp	x9, x8
	b.lo	.Lunix_path_BB38_93
.Lunix_path_BB38_95:
	ldr	q0, [x28, x8]
	ldr	q1, [x23, :lo12:.Lunix_path_CPI38_0]
	cmeq	v0.16b, v0.16b, #0
	and	v0.16b, v0.16b, v1.16b
	addp	v0.16b, v0.16b, v0.16b
	addp	v0.16b, v0.16b, v0.16b
	addp	v0.16b, v0.16b, v0.16b
	umov	w9, v0.h[0]
	orr	w9, w9, #0x10000
	rbit	w9, w9
	clz	w9, w9
	add	x8, x8, x9
	b	.Lunix_path_BB38_97
.Lunix_path_BB38_96:
	add	x8, x9, w10, uxtw
.Lunix_path_BB38_97:
	cmp	x8, x24
	b.lo	.Lunix_path_BB38_200
.Lunix_path_BB38_98:
	mov	x0, x25
	mov	x1, x26
	bl	path_archive.slot.without_dot
	mov	x26, x1
	cbz	x1, .Lunix_path_BB38_162
	ldrb	w8, [x0]
	mov	x25, x0
	cmp	w8, #47
	b.eq	.Lunix_path_BB38_102
	cmp	w8, #46
	b.ne	.Lunix_path_BB38_103
	cmp	x26, #1
	b.ne	.Lunix_path_BB38_104
.Lunix_path_BB38_102:
	mov	w22, #1
	b	.Lunix_path_BB38_105
.Lunix_path_BB38_103:
	mov	w22, wzr
	b	.Lunix_path_BB38_105
.Lunix_path_BB38_104:
	ldrb	w8, [x25, #1]
	cmp	w8, #47
	cset	w22, eq
.Lunix_path_BB38_105:
	mov	x8, x26
	b	.Lunix_path_BB38_107
.Lunix_path_BB38_106:
	mov	x8, x1
	cbz	x1, .Lunix_path_BB38_168
.Lunix_path_BB38_107:
	subs	x1, x8, #1
	b.eq	.Lunix_path_BB38_113
	add	x9, x25, x1
	ldrb	w10, [x9]
	cmp	w10, #47
	b.eq	.Lunix_path_BB38_111
	cmp	w10, #46
	b.ne	.Lunix_path_BB38_113
	ldurb	w9, [x9, #-1]
	cmp	w9, #47
	b.ne	.Lunix_path_BB38_113
.Lunix_path_BB38_111:
	sub	x8, x26, x1
	cmp	x8, #8
	b.ne	.Lunix_path_BB38_106
	mov	x0, x25
	bl	unix_path.filler.trimmed_blocks_len
	mov	x1, x0
	b	.Lunix_path_BB38_106
.Lunix_path_BB38_113:
	mov	x9, xzr
	mov	x10, xzr
	mov	x12, x8
	b	.Lunix_path_BB38_117
.Lunix_path_BB38_114:
	mov	x12, xzr
.Lunix_path_BB38_115:
	add	x11, x12, x13
.Lunix_path_BB38_116:
	add	x10, x11, x10
	mov	w22, wzr
	add	x9, x9, #1
	subs	x12, x8, x10
	b.eq	.Lunix_path_BB38_161
.Lunix_path_BB38_117:
	add	x11, x25, x10
	tbz	w22, #0, .Lunix_path_BB38_125
	subs	x14, x12, #1
	b.eq	.Lunix_path_BB38_130
	mov	x13, xzr
	sub	x12, x12, #2
	b	.Lunix_path_BB38_121
.Lunix_path_BB38_120:
	add	x13, x13, #1
	cmp	x14, x13
	b.eq	.Lunix_path_BB38_131
.Lunix_path_BB38_121:
	add	x15, x11, x13
	ldrb	w15, [x15, #1]
	cmp	w15, #47
	b.eq	.Lunix_path_BB38_120
	cmp	w15, #46
	b.ne	.Lunix_path_BB38_132
	cmp	x12, x13
	b.eq	.Lunix_path_BB38_131
	add	x15, x11, x13
	ldrb	w15, [x15, #2]
	cmp	w15, #47
	b.eq	.Lunix_path_BB38_120
	b	.Lunix_path_BB38_132
.Lunix_path_BB38_125:
	cmp	x12, #1
	b.eq	.Lunix_path_BB38_135
	ldrb	w13, [x11]
	cmp	w13, #46
	b.ne	.Lunix_path_BB38_135
	ldrb	w13, [x11, #1]
	cmp	w13, #46
	b.ne	.Lunix_path_BB38_135
	subs	x14, x12, #2
	b.ne	.Lunix_path_BB38_133
	mov	w11, #2
	b	.Lunix_path_BB38_116
.Lunix_path_BB38_130:
	mov	w11, #1
	b	.Lunix_path_BB38_116
.Lunix_path_BB38_131:
	mov	x13, x14
.Lunix_path_BB38_132:
	add	x11, x13, #1
	b	.Lunix_path_BB38_116
.Lunix_path_BB38_133:
	ldrb	w13, [x11, #2]
	cmp	w13, #47
	b.ne	.Lunix_path_BB38_135
	mov	x13, xzr
	sub	x12, x12, #3
	b	.Lunix_path_BB38_141
.Lunix_path_BB38_135:
	cmp	x12, #15
	b.hi	.Lunix_path_BB38_145
	mov	x13, xzr
.Lunix_path_BB38_137:
	ldrb	w14, [x11, x13]
	cmp	w14, #47
	b.eq	.Lunix_path_BB38_150
	add	x13, x13, #1
	cmp	x12, x13
	b.ne	.Lunix_path_BB38_137
	mov	x13, x12
	subs	x14, x12, x12
	b.ne	.Lunix_path_BB38_151
	b	.Lunix_path_BB38_114
.Lunix_path_BB38_140:
	add	x13, x13, #1
	cmp	x14, x13
	b.eq	.Lunix_path_BB38_159
.Lunix_path_BB38_141:
	add	x15, x11, x13
	ldrb	w15, [x15, #2]
	cmp	w15, #47
	b.eq	.Lunix_path_BB38_140
	cmp	w15, #46
	b.ne	.Lunix_path_BB38_160
	cmp	x12, x13
	b.eq	.Lunix_path_BB38_159
	add	x15, x11, x13
	ldrb	w15, [x15, #3]
	cmp	w15, #47
	b.eq	.Lunix_path_BB38_140
	b	.Lunix_path_BB38_160
.Lunix_path_BB38_145:
	subs	x13, x12, #16
	b.eq	.Lunix_path_BB38_149
	mov	x14, xzr
.Lunix_path_BB38_147:
	movi	v0.16b, #47
	ldr	q1, [x11, x14]
	cmeq	v0.16b, v1.16b, v0.16b
	ldr	q1, [x23, :lo12:.Lunix_path_CPI38_0]
	and	v0.16b, v0.16b, v1.16b
	addp	v0.16b, v0.16b, v0.16b
	addp	v0.16b, v0.16b, v0.16b
	addp	v0.16b, v0.16b, v0.16b
	umov	w15, v0.h[0]
	orr	w15, w15, #0x10000
	rbit	w15, w15
	clz	w15, w15
	cmp	w15, #15
	b.ls	.Lunix_path_BB38_158
	add	x14, x14, #16
	cmp	x14, x13
	b.lo	.Lunix_path_BB38_147
.Lunix_path_BB38_149:
	movi	v0.16b, #47
	ldr	q1, [x11, x13]
	cmeq	v0.16b, v1.16b, v0.16b
	ldr	q1, [x23, :lo12:.Lunix_path_CPI38_0]
	and	v0.16b, v0.16b, v1.16b
	addp	v0.16b, v0.16b, v0.16b
	addp	v0.16b, v0.16b, v0.16b
	addp	v0.16b, v0.16b, v0.16b
	umov	w14, v0.h[0]
	orr	w14, w14, #0x10000
	rbit	w14, w14
	clz	w14, w14
	add	x13, x13, x14
.Lunix_path_BB38_150:
	subs	x14, x12, x13
	b.eq	.Lunix_path_BB38_114
.Lunix_path_BB38_151:
	mov	x12, xzr
	add	x11, x11, x13
	sub	x15, x14, #1
	b	.Lunix_path_BB38_153
.Lunix_path_BB38_152:
	add	x12, x12, #1
	cmp	x14, x12
	b.eq	.Lunix_path_BB38_157
.Lunix_path_BB38_153:
	ldrb	w16, [x11, x12]
	cmp	w16, #47
	b.eq	.Lunix_path_BB38_152
	cmp	w16, #46
	b.ne	.Lunix_path_BB38_115
	cmp	x15, x12
	b.eq	.Lunix_path_BB38_157
	add	x16, x11, x12
	ldrb	w16, [x16, #1]
	cmp	w16, #47
	b.eq	.Lunix_path_BB38_152
	b	.Lunix_path_BB38_115
.Lunix_path_BB38_157:
	mov	x12, x14
	b	.Lunix_path_BB38_115
.Lunix_path_BB38_158:
	add	x13, x14, w15, uxtw
	subs	x14, x12, x13
	b.ne	.Lunix_path_BB38_151
	b	.Lunix_path_BB38_114
.Lunix_path_BB38_159:
	mov	x13, x14
.Lunix_path_BB38_160:
	add	x11, x13, #2
	b	.Lunix_path_BB38_116
.Lunix_path_BB38_161:
	cmp	x9, #0
	cset	w8, ne
	sub	x26, x9, x8
.Lunix_path_BB38_162:
	mov	x0, x28
	mov	x1, x24
	bl	path_archive.slot.without_dot
	cbz	x1, .Lunix_path_BB38_56
.Lunix_path_BB38_163:
	mov	x28, x0
	mov	x25, x1
	mov	x24, x0
	ldrb	w8, [x28]
	cmp	w8, #47
	b.eq	.Lunix_path_BB38_166
	cmp	w8, #46
	b.ne	.Lunix_path_BB38_167
	cmp	x25, #1
	b.ne	.Lunix_path_BB38_169
.Lunix_path_BB38_166:
	mov	w22, #1
	b	.Lunix_path_BB38_170
.Lunix_path_BB38_167:
	mov	w22, wzr
	b	.Lunix_path_BB38_170
.Lunix_path_BB38_168:
	mov	x26, xzr
	mov	x0, x28
	mov	x1, x24
	bl	path_archive.slot.without_dot
	cbnz	x1, .Lunix_path_BB38_163
	b	.Lunix_path_BB38_56
.Lunix_path_BB38_169:
	ldrb	w8, [x24, #1]
	cmp	w8, #47
	cset	w22, eq
.Lunix_path_BB38_170:
	mov	x8, x25
	b	.Lunix_path_BB38_172
.Lunix_path_BB38_171:
	mov	x8, x1
	cbz	x1, .Lunix_path_BB38_56
.Lunix_path_BB38_172:
	subs	x1, x8, #1
	b.eq	.Lunix_path_BB38_178
	add	x9, x28, x1
	ldrb	w10, [x9]
	cmp	w10, #47
	b.eq	.Lunix_path_BB38_176
	cmp	w10, #46
	b.ne	.Lunix_path_BB38_178
	ldurb	w9, [x9, #-1]
	cmp	w9, #47
	b.ne	.Lunix_path_BB38_178
.Lunix_path_BB38_176:
	sub	x8, x25, x1
	cmp	x8, #8
	b.ne	.Lunix_path_BB38_171
	mov	x0, x24
	bl	unix_path.filler.trimmed_blocks_len
	mov	x1, x0
	b	.Lunix_path_BB38_171
.Lunix_path_BB38_178:
	mov	x9, xzr
	mov	x1, x8
	b	.Lunix_path_BB38_181
.Lunix_path_BB38_179:
	mov	w10, #2
	cbz	x26, .Lunix_path_BB38_200
.Lunix_path_BB38_180:
	add	x9, x10, x9
	mov	w22, wzr
	sub	x26, x26, #1
	subs	x1, x8, x9
	add	x24, x28, x9
	b.eq	.Lunix_path_BB38_56
.Lunix_path_BB38_181:
	tbnz	w22, #0, .Lunix_path_BB38_200
	cmp	x1, #1
	b.eq	.Lunix_path_BB38_195
	ldrb	w10, [x24]
	cmp	w10, #46
	b.ne	.Lunix_path_BB38_195
	ldrb	w10, [x24, #1]
	cmp	w10, #46
	b.ne	.Lunix_path_BB38_195
	subs	x11, x1, #2
	b.eq	.Lunix_path_BB38_179
	ldrb	w10, [x24, #2]
	cmp	w10, #47
	b.ne	.Lunix_path_BB38_195
	mov	x10, xzr
	sub	x12, x1, #3
	b	.Lunix_path_BB38_189
.Lunix_path_BB38_188:
	add	x10, x10, #1
	cmp	x11, x10
	b.eq	.Lunix_path_BB38_194
.Lunix_path_BB38_189:
	add	x13, x24, x10
	ldrb	w13, [x13, #2]
	cmp	w13, #47
	b.eq	.Lunix_path_BB38_188
	cmp	w13, #46
	b.ne	.Lunix_path_BB38_193
	cmp	x12, x10
	b.eq	.Lunix_path_BB38_194
	add	x13, x24, x10
	ldrb	w13, [x13, #3]
	cmp	w13, #47
	b.eq	.Lunix_path_BB38_188
.Lunix_path_BB38_193:
	add	x10, x10, #2
	cbnz	x26, .Lunix_path_BB38_180
	b	.Lunix_path_BB38_200
.Lunix_path_BB38_194:
	add	x10, x11, #2
	cbnz	x26, .Lunix_path_BB38_180
	b	.Lunix_path_BB38_200
.Lunix_path_BB38_195:
	subs	x8, x1, #16
	b.lo	.Lunix_path_BB38_199
	b.eq	.Lunix_path_BB38_199
	mov	x9, xzr
.Lunix_path_BB38_198:
	movi	v0.16b, #47
	ldr	q1, [x24, x9]
	add	x9, x9, #16
	cmeq	v0.16b, v1.16b, v0.16b
	ldr	q1, [x23, :lo12:.Lunix_path_CPI38_0]
	and	v0.16b, v0.16b, v1.16b
	addp	v0.16b, v0.16b, v0.16b
	addp	v0.16b, v0.16b, v0.16b
	addp	v0.16b, v0.16b, v0.16b
	umov	w10, v0.h[0]
	cmp	w10, #0
	ccmp	x9, x8, #2, eq
	b.lo	.Lunix_path_BB38_198
.Lunix_path_BB38_199:
	mov	x0, x24
	bl	path_archive.outlined.has_root_or_parent_dir
	cbz	w0, .Lunix_path_BB38_56
.Lunix_path_BB38_200:
	mov	w8, #5
	b	.Lunix_path_BB38_47
.Lunix_path_BB38_201:
	cbz	w19, .Lunix_path_BB38_203
	ldr	w8, [sp, #40]
	ldr	x9, [sp]
	mov	w0, #1
	ldr	x10, [sp, #32]
	and	w8, w8, #0xff
	stp	x12, x10, [x9]
	stp	w8, wzr, [x9, #16]
	b	.Lunix_path_BB38_204
.Lunix_path_BB38_203:
	mov	w0, wzr
.Lunix_path_BB38_204:
	ldp	x20, x19, [sp, #192]
	ldp	x22, x21, [sp, #176]
	ldp	x24, x23, [sp, #160]
	ldp	x26, x25, [sp, #144]
	ldp	x28, x27, [sp, #128]
	ldp	x29, x30, [sp, #112]
	add	sp, sp, #208
	ret
.Lunix_path_func_end38:
	.size	unix_path_check_entries, .Lunix_path_func_end38-unix_path_check_entries
	.section	.rodata.cst16,"aM",@progbits,16
	.p2align	4, 0x0
.Lunix_path_CPI39_0:
	.byte	1
	.byte	2
	.byte	4
	.byte	8
	.byte	16
	.byte	32
	.byte	64
	.byte	128
	.byte	1
	.byte	2
	.byte	4
	.byte	8
	.byte	16
	.byte	32
	.byte	64
	.byte	128
	.section	.text.unix_path_check_request,"ax",@progbits
	.globl	unix_path_check_request
	.p2align	2
	.type	unix_path_check_request,@function
unix_path_check_request:
	stp	x29, x30, [sp, #-32]!
	mov	w8, #4096
	cmp	x0, #0
	stp	x20, x19, [sp, #16]
	csel	x8, x8, xzr, eq
	mov	x29, sp
	cbz	x1, .Lunix_path_BB39_3
	add	x19, x0, x8
	ldrb	w8, [x19]
	cmp	w8, #47
	b.ne	.Lunix_path_BB39_5
	mov	w0, #1
	ldp	x20, x19, [sp, #16]
	ldp	x29, x30, [sp], #32
	ret
.Lunix_path_BB39_3:
	mov	x8, xzr
.Lunix_path_BB39_4:
	cmp	x8, x1
	mov	w8, #3
	csel	w0, w8, wzr, lo
	ldp	x20, x19, [sp, #16]
	ldp	x29, x30, [sp], #32
	ret
.Lunix_path_BB39_5:
	mov	x0, x19
	mov	x20, x1
	bl	path_within.check.check_escape
	tst	w0, #0xff
	b.eq	.Lunix_path_BB39_11
	mov	x1, x20
	cmp	x20, #15
	b.hi	.Lunix_path_BB39_12
	mov	x8, xzr
.Lunix_path_BB39_8:
	ldrb	w9, [x19, x8]
	cbz	w9, .Lunix_path_BB39_4
	add	x8, x8, #1
	cmp	x1, x8
	b.ne	.Lunix_path_BB39_8
	mov	w0, wzr
	ldp	x20, x19, [sp, #16]
	ldp	x29, x30, [sp], #32
	ret
.Lunix_path_BB39_11:
	mov	w0, #2
	ldp	x20, x19, [sp, #16]
	ldp	x29, x30, [sp], #32
	ret
.Lunix_path_BB39_12:
	subs	x8, x1, #16
	adrp	x9, .Lunix_path_CPI39_0
	b.eq	.Lunix_path_BB39_16
	mov	x10, xzr
.Lunix_path_BB39_14:
	ldr	q0, [x19, x10]
	ldr	q1, [x9, :lo12:.Lunix_path_CPI39_0]
	cmeq	v0.16b, v0.16b, #0
	and	v0.16b, v0.16b, v1.16b
	addp	v0.16b, v0.16b, v0.16b
	addp	v0.16b, v0.16b, v0.16b
	addp	v0.16b, v0.16b, v0.16b
	umov	w11, v0.h[0]
	orr	w11, w11, #0x10000
	rbit	w11, w11
	clz	w11, w11
	cmp	w11, #15
	b.ls	.Lunix_path_BB39_17
	add	x10, x10, #16
	cmp	x10, x8
	b.lo	.Lunix_path_BB39_14
.Lunix_path_BB39_16:
	ldr	q0, [x19, x8]
	ldr	q1, [x9, :lo12:.Lunix_path_CPI39_0]
	cmeq	v0.16b, v0.16b, #0
	and	v0.16b, v0.16b, v1.16b
	addp	v0.16b, v0.16b, v0.16b
	addp	v0.16b, v0.16b, v0.16b
	addp	v0.16b, v0.16b, v0.16b
	umov	w9, v0.h[0]
	orr	w9, w9, #0x10000
	rbit	w9, w9
	clz	w9, w9
	add	x8, x8, x9
	cmp	x8, x1
	mov	w8, #3
	csel	w0, w8, wzr, lo
	ldp	x20, x19, [sp, #16]
	ldp	x29, x30, [sp], #32
	ret
.Lunix_path_BB39_17:
	add	x8, x10, w11, uxtw
	cmp	x8, x1
	mov	w8, #3
	csel	w0, w8, wzr, lo
	ldp	x20, x19, [sp, #16]
	ldp	x29, x30, [sp], #32
	ret
.Lunix_path_func_end39:
	.size	unix_path_check_request, .Lunix_path_func_end39-unix_path_check_request
	.section	.rodata.cst16,"aM",@progbits,16
	.p2align	4, 0x0
.Lunix_path_CPI40_0:
	.byte	1
	.byte	2
	.byte	4
	.byte	8
	.byte	16
	.byte	32
	.byte	64
	.byte	128
	.byte	1
	.byte	2
	.byte	4
	.byte	8
	.byte	16
	.byte	32
	.byte	64
	.byte	128
	.section	.rodata.cst8,"aM",@progbits,8
	.p2align	3, 0x0
.Lunix_path_CPI40_1:
	.byte	1
	.byte	2
	.byte	4
	.byte	8
	.byte	16
	.byte	32
	.byte	64
	.byte	128
	.section	.text.unix_path_common_dir,"ax",@progbits
	.globl	unix_path_common_dir
	.p2align	2
	.type	unix_path_common_dir,@function
unix_path_common_dir:
	mov	w9, #4096
	cmp	x0, #0
	csel	x8, x9, xzr, eq
	cmp	x2, #0
	csel	x9, x9, xzr, eq
	cmp	x3, x1
	add	x12, x0, x8
	csel	x10, x3, x1, lo
	add	x11, x2, x9
	adrp	x9, .Lunix_path_CPI40_0
	cmp	x10, #15
	b.hi	.Lunix_path_BB40_16
	cmp	x10, #7
	b.hi	.Lunix_path_BB40_25
	cbz	x10, .Lunix_path_BB40_30
	ldrb	w13, [x12]
	ldrb	w14, [x11]
	cmp	w13, w14
	b.ne	.Lunix_path_BB40_29
	cmp	x10, #1
	b.eq	.Lunix_path_BB40_30
	ldrb	w13, [x12, #1]
	ldrb	w14, [x11, #1]
	cmp	w13, w14
	b.ne	.Lunix_path_BB40_39
	cmp	x10, #2
	b.eq	.Lunix_path_BB40_30
	ldrb	w13, [x12, #2]
	ldrb	w14, [x11, #2]
	cmp	w13, w14
	b.ne	.Lunix_path_BB40_40
	cmp	x10, #3
	b.eq	.Lunix_path_BB40_30
	ldrb	w13, [x12, #3]
	ldrb	w14, [x11, #3]
	cmp	w13, w14
	b.ne	.Lunix_path_BB40_41
	cmp	x10, #4
	b.eq	.Lunix_path_BB40_30
	ldrb	w13, [x12, #4]
	ldrb	w14, [x11, #4]
	cmp	w13, w14
	b.ne	.Lunix_path_BB40_42
	cmp	x10, #5
	b.eq	.Lunix_path_BB40_30
	ldrb	w13, [x12, #5]
	ldrb	w14, [x11, #5]
	cmp	w13, w14
	b.ne	.Lunix_path_BB40_43
	cmp	x10, #6
	b.eq	.Lunix_path_BB40_30
	ldrb	w12, [x12, #6]
	ldrb	w11, [x11, #6]
	cmp	w12, w11
	mov	w11, #6
	csel	x10, x10, x11, eq
	b	.Lunix_path_BB40_30
.Lunix_path_BB40_16:
	cmp	x10, #64
	sub	x13, x10, #16
	mov	x14, xzr
	b.lo	.Lunix_path_BB40_23
	and	x15, x10, #0xffffffffffffffc0
.Lunix_path_BB40_18:
	add	x16, x12, x14
	add	x17, x11, x14
	ldp	q0, q1, [x16]
	ldp	q2, q3, [x16, #32]
	ldp	q4, q5, [x17]
	ldp	q6, q7, [x17, #32]
	cmeq	v0.16b, v0.16b, v4.16b
	cmeq	v1.16b, v1.16b, v5.16b
	ldr	q4, [x9, :lo12:.Lunix_path_CPI40_0]
	cmeq	v3.16b, v3.16b, v7.16b
	cmeq	v2.16b, v2.16b, v6.16b
	bic	v0.16b, v4.16b, v0.16b
	bic	v1.16b, v4.16b, v1.16b
	bic	v2.16b, v4.16b, v2.16b
	bic	v3.16b, v4.16b, v3.16b
	addp	v0.16b, v0.16b, v1.16b
	addp	v1.16b, v2.16b, v3.16b
	addp	v0.16b, v0.16b, v1.16b
	addp	v0.16b, v0.16b, v0.16b
	fmov	x16, d0
	cbnz	x16, .Lunix_path_BB40_23
	sub	x10, x10, #64
	add	x14, x14, #64
	cmp	x10, #63
	b.hi	.Lunix_path_BB40_18
	mov	x14, x15
	b	.Lunix_path_BB40_23
.Lunix_path_BB40_21:
	ldr	q0, [x12, x14]
	ldr	q1, [x11, x14]
	cmeq	v0.16b, v0.16b, v1.16b
	ldr	q1, [x9, :lo12:.Lunix_path_CPI40_0]
	bic	v0.16b, v1.16b, v0.16b
	addp	v0.16b, v0.16b, v0.16b
	addp	v0.16b, v0.16b, v0.16b
	addp	v0.16b, v0.16b, v0.16b
	umov	w10, v0.h[0]
	orr	w10, w10, #0x10000
	rbit	w10, w10
	clz	w10, w10
	cmp	w10, #15
	b.ls	.Lunix_path_BB40_27
	add	x14, x14, #16
.Lunix_path_BB40_23:
	cmp	x14, x13
	b.lo	.Lunix_path_BB40_21
	ldr	q0, [x12, x13]
	ldr	q1, [x11, x13]
	cmeq	v0.16b, v0.16b, v1.16b
	ldr	q1, [x9, :lo12:.Lunix_path_CPI40_0]
	bic	v0.16b, v1.16b, v0.16b
	addp	v0.16b, v0.16b, v0.16b
	addp	v0.16b, v0.16b, v0.16b
	addp	v0.16b, v0.16b, v0.16b
	umov	w10, v0.h[0]
	orr	w10, w10, #0x10000
	rbit	w10, w10
	clz	w10, w10
	add	x10, x13, x10
	b	.Lunix_path_BB40_30
.Lunix_path_BB40_25:
	ldr	d0, [x12]
	ldr	d1, [x11]
	adrp	x13, .Lunix_path_CPI40_1
	cmeq	v1.8b, v0.8b, v1.8b
	ldr	d0, [x13, :lo12:.Lunix_path_CPI40_1]
	bic	v1.8b, v0.8b, v1.8b
	addv	b1, v1.8b
	fmov	w13, s1
	orr	w13, w13, #0x100
	rbit	w13, w13
	clz	w13, w13
	cmp	w13, #8
	b.hs	.Lunix_path_BB40_28
	mov	x10, x13
	b	.Lunix_path_BB40_30
.Lunix_path_BB40_27:
	add	x10, x14, w10, uxtw
	b	.Lunix_path_BB40_30
.Lunix_path_BB40_28:
	sub	x10, x10, #8
	ldr	d1, [x12, x10]
	ldr	d2, [x11, x10]
	cmeq	v1.8b, v1.8b, v2.8b
	bic	v0.8b, v0.8b, v1.8b
	addv	b0, v0.8b
	fmov	w11, s0
	orr	w11, w11, #0x100
	rbit	w11, w11
	clz	w11, w11
	add	x10, x10, x11
	b	.Lunix_path_BB40_30
.Lunix_path_BB40_29:
	mov	x10, xzr
.Lunix_path_BB40_30:
	add	x11, x8, x0
	sub	x11, x11, #16
.Lunix_path_BB40_31:
	cmp	x10, #15
	b.ls	.Lunix_path_BB40_34
	movi	v0.16b, #47
	ldr	q1, [x11, x10]
	sub	x12, x10, #16
	mov	x10, x12
	cmeq	v0.16b, v1.16b, v0.16b
	ldr	q1, [x9, :lo12:.Lunix_path_CPI40_0]
	and	v0.16b, v0.16b, v1.16b
	addp	v0.16b, v0.16b, v0.16b
	addp	v0.16b, v0.16b, v0.16b
	addp	v0.16b, v0.16b, v0.16b
	umov	w13, v0.h[0]
	cbz	w13, .Lunix_path_BB40_31
	umov	w8, v0.h[0]
	and	x8, x8, #0xffff
	clz	x8, x8
	sub	x8, x12, x8
	add	x0, x8, #64
	ret
.Lunix_path_BB40_34:
	add	x8, x8, x0
	sub	x8, x8, #1
.Lunix_path_BB40_35:
	cbz	x10, .Lunix_path_BB40_38
	ldrb	w11, [x8, x10]
	sub	x9, x10, #1
	mov	x10, x9
	cmp	w11, #47
	b.ne	.Lunix_path_BB40_35
	add	x0, x9, #1
	ret
.Lunix_path_BB40_38:
	mov	x0, xzr
	ret
.Lunix_path_BB40_39:
	mov	w10, #1
	b	.Lunix_path_BB40_30
.Lunix_path_BB40_40:
	mov	w10, #2
	b	.Lunix_path_BB40_30
.Lunix_path_BB40_41:
	mov	w10, #3
	b	.Lunix_path_BB40_30
.Lunix_path_BB40_42:
	mov	w10, #4
	b	.Lunix_path_BB40_30
.Lunix_path_BB40_43:
	mov	w10, #5
	b	.Lunix_path_BB40_30
.Lunix_path_func_end40:
	.size	unix_path_common_dir, .Lunix_path_func_end40-unix_path_common_dir
	.section	.text.unix_path_compare,"ax",@progbits
	.globl	unix_path_compare
	.p2align	2
	.type	unix_path_compare,@function
unix_path_compare:
	stp	x29, x30, [sp, #-16]!
	mov	w8, #4096
	cmp	x0, #0
	mov	x29, sp
	csel	x9, x8, xzr, eq
	cmp	x2, #0
	csel	x8, x8, xzr, eq
	add	x0, x0, x9
	add	x2, x2, x8
	bl	unix_path.compare.compare
	and	w8, w0, #0xff
	sub	w0, w8, #1
	ldp	x29, x30, [sp], #16
	ret
.Lunix_path_func_end41:
	.size	unix_path_compare, .Lunix_path_func_end41-unix_path_compare
	.section	.text.unix_path_components,"ax",@progbits
	.globl	unix_path_components
	.p2align	2
	.type	unix_path_components,@function
unix_path_components:
	stp	x29, x30, [sp, #-48]!
	cmp	x0, #0
	mov	w8, #4096
	stp	x20, x19, [sp, #32]
	mov	x19, x2
	csel	x8, x8, xzr, eq
	str	x21, [sp, #16]
	mov	x29, sp
	cbz	x1, .Lunix_path_BB42_9
	mov	x20, x1
	add	x21, x0, x8
	mov	x8, x1
	b	.Lunix_path_BB42_3
.Lunix_path_BB42_2:
	mov	x8, x1
	cbz	x1, .Lunix_path_BB42_10
.Lunix_path_BB42_3:
	subs	x1, x8, #1
	b.eq	.Lunix_path_BB42_10
	add	x9, x21, x1
	ldrb	w10, [x9]
	cmp	w10, #47
	b.eq	.Lunix_path_BB42_7
	cmp	w10, #46
	b.ne	.Lunix_path_BB42_10
	ldurb	w9, [x9, #-1]
	cmp	w9, #47
	b.ne	.Lunix_path_BB42_10
.Lunix_path_BB42_7:
	sub	x8, x20, x1
	cmp	x8, #8
	b.ne	.Lunix_path_BB42_2
	mov	x0, x21
	bl	unix_path.filler.trimmed_blocks_len
	mov	x1, x0
	b	.Lunix_path_BB42_2
.Lunix_path_BB42_9:
	mov	x8, xzr
.Lunix_path_BB42_10:
	stp	xzr, x8, [x19]
	ldp	x20, x19, [sp, #32]
	ldr	x21, [sp, #16]
	ldp	x29, x30, [sp], #48
	ret
.Lunix_path_func_end42:
	.size	unix_path_components, .Lunix_path_func_end42-unix_path_components
	.section	.text.unix_path_ends_in_slash,"ax",@progbits
	.globl	unix_path_ends_in_slash
	.p2align	2
	.type	unix_path_ends_in_slash,@function
unix_path_ends_in_slash:
	sub	sp, sp, #80
	mov	w8, #4096
	cmp	x0, #0
	stp	x20, x19, [sp, #64]
	csel	x8, x8, xzr, eq
	mov	x19, x1
	stp	x29, x30, [sp, #32]
	add	x20, x0, x8
	str	x21, [sp, #48]
	add	x29, sp, #32
	stp	xzr, xzr, [sp, #8]
	str	xzr, [sp, #24]
	cbz	x1, .Lunix_path_BB43_10
	mov	x8, x19
	b	.Lunix_path_BB43_3
.Lunix_path_BB43_2:
	mov	x8, x1
	cbz	x1, .Lunix_path_BB43_9
.Lunix_path_BB43_3:
	subs	x1, x8, #1
	b.eq	.Lunix_path_BB43_9
	add	x9, x20, x1
	ldrb	w10, [x9]
	cmp	w10, #47
	b.eq	.Lunix_path_BB43_7
	cmp	w10, #46
	b.ne	.Lunix_path_BB43_9
	ldurb	w9, [x9, #-1]
	cmp	w9, #47
	b.ne	.Lunix_path_BB43_9
.Lunix_path_BB43_7:
	sub	x8, x19, x1
	cmp	x8, #8
	b.ne	.Lunix_path_BB43_2
	mov	x0, x20
	bl	unix_path.filler.trimmed_blocks_len
	mov	x1, x0
	b	.Lunix_path_BB43_2
.Lunix_path_BB43_9:
	cmp	x8, x19
	cset	w21, lo
	b	.Lunix_path_BB43_11
.Lunix_path_BB43_10:
	mov	w21, wzr
.Lunix_path_BB43_11:
	add	x0, sp, #8
	mov	x1, x20
	mov	x2, x19
	bl	unix_path.path.Path.file_name
	ldrb	w8, [sp, #8]
	ldp	x20, x19, [sp, #64]
	ldp	x29, x30, [sp, #32]
	cmp	w8, #1
	csel	w0, wzr, w21, ne
	ldr	x21, [sp, #48]
	add	sp, sp, #80
	ret
.Lunix_path_func_end43:
	.size	unix_path_ends_in_slash, .Lunix_path_func_end43-unix_path_ends_in_slash
	.section	.text.unix_path_ends_with,"ax",@progbits
	.globl	unix_path_ends_with
	.p2align	2
	.type	unix_path_ends_with,@function
unix_path_ends_with:
	stp	x29, x30, [sp, #-16]!
	mov	w10, #4096
	cmp	x0, #0
	mov	x9, x2
	csel	x11, x10, xzr, eq
	cmp	x2, #0
	mov	x8, x0
	csel	x12, x10, xzr, eq
	add	x0, x0, x11
	mov	x29, sp
	add	x2, x2, x12
	cbz	x1, .Lunix_path_BB44_9
	add	x10, x0, x1
	ldurb	w13, [x10, #-1]
	cmp	w13, #47
	b.eq	.Lunix_path_BB44_9
	cmp	x1, #1
	b.eq	.Lunix_path_BB44_7
	cmp	w13, #46
	b.ne	.Lunix_path_BB44_7
	mov	x13, xzr
	cbz	x3, .Lunix_path_BB44_6
	ldurb	w10, [x10, #-2]
	cmp	w10, #47
	b.ne	.Lunix_path_BB44_8
.Lunix_path_BB44_6:
	sub	x1, x1, x13
	sub	x3, x3, x13
	bl	unix_path.suffixes.ends_with_parts
	ldp	x29, x30, [sp], #16
	ret
.Lunix_path_BB44_7:
	cbz	x3, .Lunix_path_BB44_9
.Lunix_path_BB44_8:
	add	x10, x2, x3
	ldurb	w13, [x10, #-1]
	cmp	w13, #47
	b.ne	.Lunix_path_BB44_10
.Lunix_path_BB44_9:
	sub	x1, x1, xzr
	sub	x3, x3, xzr
	bl	unix_path.suffixes.ends_with_parts
	ldp	x29, x30, [sp], #16
	ret
.Lunix_path_BB44_10:
	cmp	x3, #1
	b.eq	.Lunix_path_BB44_13
	cmp	w13, #46
	b.ne	.Lunix_path_BB44_13
	ldurb	w10, [x10, #-2]
	cmp	w10, #47
	b.eq	.Lunix_path_BB44_9
.Lunix_path_BB44_13:
	cmp	x3, x1
	add	x9, x12, x9
	add	x11, x11, x8
	mov	x10, xzr
	csel	x8, x3, x1, lo
	sub	x9, x9, #1
	sub	x11, x11, #1
.Lunix_path_BB44_14:
	ldrb	w12, [x11, x1]
	cmp	w12, #47
	b.eq	.Lunix_path_BB44_18
	ldrb	w13, [x9, x3]
	cmp	w12, w13
	b.ne	.Lunix_path_BB44_18
	add	x10, x10, #1
	sub	x9, x9, #1
	sub	x11, x11, #1
	cmp	x8, x10
	b.ne	.Lunix_path_BB44_14
	mov	x10, x8
.Lunix_path_BB44_18:
	subs	x8, x1, x10
	b.eq	.Lunix_path_BB44_20
	add	x8, x0, x8
	ldurb	w8, [x8, #-1]
	cmp	w8, #47
	b.ne	.Lunix_path_BB44_22
.Lunix_path_BB44_20:
	subs	x8, x3, x10
	mov	x13, x3
	b.eq	.Lunix_path_BB44_6
	add	x8, x2, x8
	mov	x13, x10
	ldurb	w8, [x8, #-1]
	cmp	w8, #47
	b.eq	.Lunix_path_BB44_6
.Lunix_path_BB44_22:
	mov	w0, wzr
	ldp	x29, x30, [sp], #16
	ret
.Lunix_path_func_end44:
	.size	unix_path_ends_with, .Lunix_path_func_end44-unix_path_ends_with
	.section	.text.unix_path_entries_scratch,"ax",@progbits
	.globl	unix_path_entries_scratch
	.p2align	2
	.type	unix_path_entries_scratch,@function
unix_path_entries_scratch:
	sub	sp, sp, #32
	mov	w8, #4096
	cmp	x0, #0
	add	x2, sp, #8
	csel	x8, x8, xzr, eq
	mov	x3, xzr
	stp	x29, x30, [sp, #16]
	add	x0, x0, x8
	add	x29, sp, #16
	bl	path_archive.records.split
	ldp	x29, x30, [sp, #16]
	tst	w0, #0x1
	csel	x0, x1, xzr, ne
	add	sp, sp, #32
	ret
.Lunix_path_func_end45:
	.size	unix_path_entries_scratch, .Lunix_path_func_end45-unix_path_entries_scratch
	.section	.text.unix_path_equal,"ax",@progbits
	.globl	unix_path_equal
	.p2align	2
	.type	unix_path_equal,@function
unix_path_equal:
	stp	x29, x30, [sp, #-16]!
	mov	w11, #4096
	cmp	x0, #0
	mov	x9, x2
	csel	x10, x11, xzr, eq
	cmp	x2, #0
	mov	x8, x0
	csel	x11, x11, xzr, eq
	cmp	x1, x3
	add	x0, x0, x10
	add	x2, x2, x11
	mov	x29, sp
	b.ne	.Lunix_path_BB46_4
	cbz	x1, .Lunix_path_BB46_24
	add	x13, x2, x1
	add	x12, x0, x1
	ldurb	w12, [x12, #-1]
	ldurb	w13, [x13, #-1]
	cmp	w12, w13
	b.eq	.Lunix_path_BB46_24
	cmp	w12, #47
	b.ne	.Lunix_path_BB46_6
	b	.Lunix_path_BB46_24
.Lunix_path_BB46_4:
	cbz	x1, .Lunix_path_BB46_24
	add	x12, x0, x1
	ldurb	w12, [x12, #-1]
	cmp	w12, #47
	b.eq	.Lunix_path_BB46_24
.Lunix_path_BB46_6:
	cmp	x1, #1
	b.eq	.Lunix_path_BB46_10
	cmp	w12, #46
	b.ne	.Lunix_path_BB46_10
	cbz	x3, .Lunix_path_BB46_24
	add	x12, x0, x1
	ldurb	w12, [x12, #-2]
	cmp	w12, #47
	b.ne	.Lunix_path_BB46_11
	b	.Lunix_path_BB46_24
.Lunix_path_BB46_10:
	cbz	x3, .Lunix_path_BB46_24
.Lunix_path_BB46_11:
	add	x12, x2, x3
	ldurb	w13, [x12, #-1]
	cmp	w13, #47
	b.eq	.Lunix_path_BB46_24
	cmp	x3, #1
	b.eq	.Lunix_path_BB46_15
	cmp	w13, #46
	b.ne	.Lunix_path_BB46_15
	ldurb	w12, [x12, #-2]
	cmp	w12, #47
	b.eq	.Lunix_path_BB46_24
.Lunix_path_BB46_15:
	cmp	x3, x1
	add	x9, x11, x9
	add	x10, x10, x8
	mov	x12, xzr
	csel	x8, x3, x1, lo
	sub	x9, x9, #1
	sub	x10, x10, #1
.Lunix_path_BB46_16:
	ldrb	w11, [x10, x1]
	cmp	w11, #47
	b.eq	.Lunix_path_BB46_20
	ldrb	w13, [x9, x3]
	cmp	w11, w13
	b.ne	.Lunix_path_BB46_20
	add	x12, x12, #1
	sub	x9, x9, #1
	sub	x10, x10, #1
	cmp	x8, x12
	b.ne	.Lunix_path_BB46_16
	mov	x12, x8
.Lunix_path_BB46_20:
	subs	x8, x1, x12
	b.eq	.Lunix_path_BB46_22
	add	x8, x0, x8
	ldurb	w8, [x8, #-1]
	cmp	w8, #47
	b.ne	.Lunix_path_BB46_25
.Lunix_path_BB46_22:
	subs	x8, x3, x12
	b.eq	.Lunix_path_BB46_24
	add	x8, x2, x8
	ldurb	w8, [x8, #-1]
	cmp	w8, #47
	b.ne	.Lunix_path_BB46_25
.Lunix_path_BB46_24:
	bl	unix_path.compare.compare
	and	w8, w0, #0xff
	cmp	w8, #1
	cset	w0, eq
	ldp	x29, x30, [sp], #16
	ret
.Lunix_path_BB46_25:
	mov	w0, wzr
	ldp	x29, x30, [sp], #16
	ret
.Lunix_path_func_end46:
	.size	unix_path_equal, .Lunix_path_func_end46-unix_path_equal
	.section	.text.unix_path_escapes,"ax",@progbits
	.globl	unix_path_escapes
	.p2align	2
	.type	unix_path_escapes,@function
unix_path_escapes:
	stp	x29, x30, [sp, #-16]!
	mov	w8, #4096
	cmp	x0, #0
	mov	x29, sp
	csel	x8, x8, xzr, eq
	add	x0, x0, x8
	bl	path_within.check.check_escape
	tst	w0, #0xff
	cset	w0, eq
	ldp	x29, x30, [sp], #16
	ret
.Lunix_path_func_end47:
	.size	unix_path_escapes, .Lunix_path_func_end47-unix_path_escapes
	.section	.rodata.cst16,"aM",@progbits,16
	.p2align	4, 0x0
.Lunix_path_CPI48_0:
	.byte	1
	.byte	2
	.byte	4
	.byte	8
	.byte	16
	.byte	32
	.byte	64
	.byte	128
	.byte	1
	.byte	2
	.byte	4
	.byte	8
	.byte	16
	.byte	32
	.byte	64
	.byte	128
	.section	.text.unix_path_extension,"ax",@progbits
	.globl	unix_path_extension
	.p2align	2
	.type	unix_path_extension,@function
unix_path_extension:
	stp	x29, x30, [sp, #-64]!
	cmp	x0, #0
	mov	w8, #4096
	stp	x24, x23, [sp, #16]
	csel	x24, x8, xzr, eq
	stp	x22, x21, [sp, #32]
	mov	x29, sp
	stp	x20, x19, [sp, #48]
	cbz	x1, .Lunix_path_BB48_9
	mov	x19, x2
	mov	x21, x1
	mov	x20, x0
	add	x22, x0, x24
	mov	x23, x1
	b	.Lunix_path_BB48_3
.Lunix_path_BB48_2:
	mov	x23, x1
	cbz	x1, .Lunix_path_BB48_36
.Lunix_path_BB48_3:
	subs	x1, x23, #1
	b.eq	.Lunix_path_BB48_11
	add	x8, x22, x1
	ldrb	w9, [x8]
	cmp	w9, #47
	b.eq	.Lunix_path_BB48_7
	cmp	w9, #46
	b.ne	.Lunix_path_BB48_15
	ldurb	w8, [x8, #-1]
	cmp	w8, #47
	b.ne	.Lunix_path_BB48_12
.Lunix_path_BB48_7:
	sub	x8, x21, x1
	cmp	x8, #8
	b.ne	.Lunix_path_BB48_2
	add	x0, x20, x24
	bl	unix_path.filler.trimmed_blocks_len
	mov	x1, x0
	b	.Lunix_path_BB48_2
.Lunix_path_BB48_9:
	mov	w0, wzr
.Lunix_path_BB48_10:
	ldp	x20, x19, [sp, #48]
	ldp	x22, x21, [sp, #32]
	ldp	x24, x23, [sp, #16]
	ldp	x29, x30, [sp], #64
	ret
.Lunix_path_BB48_11:
	ldrb	w8, [x22]
	and	w8, w8, #0xfe
	cmp	w8, #46
	b.ne	.Lunix_path_BB48_15
	b	.Lunix_path_BB48_36
.Lunix_path_BB48_12:
	cmp	w8, #46
	b.ne	.Lunix_path_BB48_15
	cmp	x23, #2
	b.eq	.Lunix_path_BB48_36
	add	x8, x22, x23
	ldurb	w8, [x8, #-3]
	cmp	w8, #47
	b.eq	.Lunix_path_BB48_36
.Lunix_path_BB48_15:
	mov	x8, x21
	b	.Lunix_path_BB48_17
.Lunix_path_BB48_16:
	mov	x8, x1
	cbz	x1, .Lunix_path_BB48_36
.Lunix_path_BB48_17:
	subs	x1, x8, #1
	b.eq	.Lunix_path_BB48_23
	add	x9, x22, x1
	ldrb	w10, [x9]
	cmp	w10, #47
	b.eq	.Lunix_path_BB48_21
	cmp	w10, #46
	b.ne	.Lunix_path_BB48_27
	ldurb	w9, [x9, #-1]
	cmp	w9, #47
	b.ne	.Lunix_path_BB48_24
.Lunix_path_BB48_21:
	sub	x8, x21, x1
	cmp	x8, #8
	b.ne	.Lunix_path_BB48_16
	add	x0, x20, x24
	bl	unix_path.filler.trimmed_blocks_len
	mov	x1, x0
	b	.Lunix_path_BB48_16
.Lunix_path_BB48_23:
	ldrb	w9, [x22]
	and	w9, w9, #0xfe
	cmp	w9, #46
	b.eq	.Lunix_path_BB48_36
	b	.Lunix_path_BB48_27
.Lunix_path_BB48_24:
	cmp	w9, #46
	b.ne	.Lunix_path_BB48_27
	cmp	x8, #2
	b.eq	.Lunix_path_BB48_36
	add	x9, x22, x8
	ldurb	w9, [x9, #-3]
	cmp	w9, #47
	b.eq	.Lunix_path_BB48_36
.Lunix_path_BB48_27:
	add	x9, x24, x20
	sub	x10, x9, #16
	mov	x9, x8
.Lunix_path_BB48_28:
	cmp	x9, #15
	b.ls	.Lunix_path_BB48_31
	movi	v0.16b, #46
	movi	v1.16b, #47
	ldr	q2, [x10, x9]
	adrp	x11, .Lunix_path_CPI48_0
	mov	w14, #64
	cmeq	v0.16b, v2.16b, v0.16b
	cmeq	v1.16b, v2.16b, v1.16b
	ldr	q2, [x11, :lo12:.Lunix_path_CPI48_0]
	and	v0.16b, v0.16b, v2.16b
	and	v1.16b, v1.16b, v2.16b
	addp	v0.16b, v0.16b, v0.16b
	addp	v1.16b, v1.16b, v1.16b
	addp	v0.16b, v0.16b, v0.16b
	addp	v1.16b, v1.16b, v1.16b
	addp	v0.16b, v0.16b, v0.16b
	addp	v1.16b, v1.16b, v1.16b
	umov	w11, v0.h[0]
	umov	w12, v1.h[0]
	clz	x11, x11
	clz	x13, x12
	sub	x12, x9, #16
	sub	x15, x14, x11
	sub	x14, x14, x13
	mov	x9, x12
	cmp	x15, x14
	csel	x14, x15, x14, hi
	cbz	x14, .Lunix_path_BB48_28
	mov	w9, #64
	sub	x10, x9, x13
	sub	x9, x9, x11
	cmp	x10, x9
	csel	x9, x10, x9, hi
	add	x9, x9, x12
	sub	x10, x9, #1
	cbnz	x10, .Lunix_path_BB48_35
	b	.Lunix_path_BB48_36
.Lunix_path_BB48_31:
	add	x10, x24, x20
	sub	x11, x10, #1
.Lunix_path_BB48_32:
	cbz	x9, .Lunix_path_BB48_36
	ldrb	w10, [x11, x9]
	and	w12, w10, #0xfe
	sub	x10, x9, #1
	cmp	w12, #46
	mov	x9, x10
	b.ne	.Lunix_path_BB48_32
	add	x9, x10, #1
	cbz	x10, .Lunix_path_BB48_36
.Lunix_path_BB48_35:
	ldrb	w11, [x22, x10]
	cmp	w11, #47
	b.ne	.Lunix_path_BB48_37
.Lunix_path_BB48_36:
	mov	w0, wzr
	ldp	x20, x19, [sp, #48]
	ldp	x22, x21, [sp, #32]
	ldp	x24, x23, [sp, #16]
	ldp	x29, x30, [sp], #64
	ret
.Lunix_path_BB48_37:
	cmp	x10, x8
	mov	w0, wzr
	b.eq	.Lunix_path_BB48_10
	add	x9, x22, x9
	ldurb	w9, [x9, #-2]
	cmp	w9, #47
	b.eq	.Lunix_path_BB48_10
	mvn	x9, x10
	mov	w0, #1
	add	x8, x8, x9
	sub	x9, x23, x8
	stp	x9, x8, [x19]
	ldp	x20, x19, [sp, #48]
	ldp	x22, x21, [sp, #32]
	ldp	x24, x23, [sp, #16]
	ldp	x29, x30, [sp], #64
	ret
.Lunix_path_func_end48:
	.size	unix_path_extension, .Lunix_path_func_end48-unix_path_extension
	.section	.text.unix_path_file_name,"ax",@progbits
	.globl	unix_path_file_name
	.p2align	2
	.type	unix_path_file_name,@function
unix_path_file_name:
	sub	sp, sp, #96
	cmp	x0, #0
	mov	w8, #4096
	stp	x22, x21, [sp, #64]
	csel	x8, x8, xzr, eq
	stp	x20, x19, [sp, #80]
	mov	x20, x1
	add	x21, x0, x8
	mov	x19, x2
	add	x0, sp, #8
	mov	x1, x21
	mov	x2, x20
	stp	x29, x30, [sp, #32]
	str	x23, [sp, #48]
	add	x29, sp, #32
	stp	xzr, xzr, [sp, #8]
	str	xzr, [sp, #24]
	bl	unix_path.path.Path.file_name
	ldrb	w22, [sp, #8]
	cmp	w22, #1
	b.ne	.Lunix_path_BB49_12
	ldr	x23, [sp, #24]
	cbz	x20, .Lunix_path_BB49_10
	mov	x8, x20
	b	.Lunix_path_BB49_4
.Lunix_path_BB49_3:
	mov	x8, x1
	cbz	x1, .Lunix_path_BB49_11
.Lunix_path_BB49_4:
	subs	x1, x8, #1
	b.eq	.Lunix_path_BB49_11
	add	x9, x21, x1
	ldrb	w10, [x9]
	cmp	w10, #47
	b.eq	.Lunix_path_BB49_8
	cmp	w10, #46
	b.ne	.Lunix_path_BB49_11
	ldurb	w9, [x9, #-1]
	cmp	w9, #47
	b.ne	.Lunix_path_BB49_11
.Lunix_path_BB49_8:
	sub	x8, x20, x1
	cmp	x8, #8
	b.ne	.Lunix_path_BB49_3
	mov	x0, x21
	bl	unix_path.filler.trimmed_blocks_len
	mov	x1, x0
	b	.Lunix_path_BB49_3
.Lunix_path_BB49_10:
	mov	x8, xzr
.Lunix_path_BB49_11:
	sub	x8, x8, x23
	stp	x8, x23, [x19]
.Lunix_path_BB49_12:
	cmp	w22, #1
	ldp	x20, x19, [sp, #80]
	ldp	x22, x21, [sp, #64]
	cset	w0, eq
	ldp	x29, x30, [sp, #32]
	ldr	x23, [sp, #48]
	add	sp, sp, #96
	ret
.Lunix_path_func_end49:
	.size	unix_path_file_name, .Lunix_path_func_end49-unix_path_file_name
	.section	.rodata.cst16,"aM",@progbits,16
	.p2align	4, 0x0
.Lunix_path_CPI50_0:
	.byte	1
	.byte	2
	.byte	4
	.byte	8
	.byte	16
	.byte	32
	.byte	64
	.byte	128
	.byte	1
	.byte	2
	.byte	4
	.byte	8
	.byte	16
	.byte	32
	.byte	64
	.byte	128
	.section	.text.unix_path_file_prefix,"ax",@progbits
	.globl	unix_path_file_prefix
	.p2align	2
	.type	unix_path_file_prefix,@function
unix_path_file_prefix:
	sub	sp, sp, #96
	cmp	x0, #0
	mov	w8, #4096
	stp	x22, x21, [sp, #64]
	csel	x8, x8, xzr, eq
	stp	x20, x19, [sp, #80]
	mov	x20, x1
	add	x21, x0, x8
	mov	x19, x2
	add	x0, sp, #8
	mov	x1, x21
	mov	x2, x20
	stp	x29, x30, [sp, #32]
	str	x23, [sp, #48]
	add	x29, sp, #32
	stp	xzr, xzr, [sp, #8]
	str	xzr, [sp, #24]
	bl	unix_path.path.Path.file_name
	ldrb	w8, [sp, #8]
	cmp	w8, #1
	b.ne	.Lunix_path_BB50_18
	ldr	x22, [sp, #24]
	cbz	x20, .Lunix_path_BB50_10
	mov	x23, x20
	b	.Lunix_path_BB50_4
.Lunix_path_BB50_3:
	mov	x23, x1
	cbz	x1, .Lunix_path_BB50_11
.Lunix_path_BB50_4:
	subs	x1, x23, #1
	b.eq	.Lunix_path_BB50_11
	add	x8, x21, x1
	ldrb	w9, [x8]
	cmp	w9, #47
	b.eq	.Lunix_path_BB50_8
	cmp	w9, #46
	b.ne	.Lunix_path_BB50_11
	ldurb	w8, [x8, #-1]
	cmp	w8, #47
	b.ne	.Lunix_path_BB50_11
.Lunix_path_BB50_8:
	sub	x8, x20, x1
	cmp	x8, #8
	b.ne	.Lunix_path_BB50_3
	mov	x0, x21
	bl	unix_path.filler.trimmed_blocks_len
	mov	x1, x0
	b	.Lunix_path_BB50_3
.Lunix_path_BB50_10:
	mov	x23, xzr
.Lunix_path_BB50_11:
	add	x0, sp, #8
	mov	x1, x21
	mov	x2, x20
	stp	xzr, xzr, [sp, #8]
	str	xzr, [sp, #24]
	bl	unix_path.path.Path.file_name
	ldrb	w8, [sp, #8]
	cmp	w8, #1
	b.ne	.Lunix_path_BB50_18
	ldp	x10, x9, [sp, #16]
	cmp	x9, #0
	cset	w8, ne
	cinc	x10, x10, ne
	sub	x11, x9, x8
	sub	x9, x23, x22
	cmp	x11, #15
	b.hi	.Lunix_path_BB50_19
	cbz	x11, .Lunix_path_BB50_26
	mov	x12, xzr
.Lunix_path_BB50_15:
	ldrb	w13, [x10, x12]
	cmp	w13, #46
	b.eq	.Lunix_path_BB50_25
	add	x12, x12, #1
	cmp	x11, x12
	b.ne	.Lunix_path_BB50_15
	mov	x12, x11
	b	.Lunix_path_BB50_25
.Lunix_path_BB50_18:
	mov	w0, wzr
	ldp	x20, x19, [sp, #80]
	ldr	x23, [sp, #48]
	ldp	x22, x21, [sp, #64]
	ldp	x29, x30, [sp, #32]
	add	sp, sp, #96
	ret
.Lunix_path_BB50_19:
	subs	x11, x11, #16
	adrp	x12, .Lunix_path_CPI50_0
	b.eq	.Lunix_path_BB50_23
	mov	x13, xzr
.Lunix_path_BB50_21:
	movi	v0.16b, #46
	ldr	q1, [x10, x13]
	cmeq	v0.16b, v1.16b, v0.16b
	ldr	q1, [x12, :lo12:.Lunix_path_CPI50_0]
	and	v0.16b, v0.16b, v1.16b
	addp	v0.16b, v0.16b, v0.16b
	addp	v0.16b, v0.16b, v0.16b
	addp	v0.16b, v0.16b, v0.16b
	umov	w14, v0.h[0]
	orr	w14, w14, #0x10000
	rbit	w14, w14
	clz	w14, w14
	cmp	w14, #15
	b.ls	.Lunix_path_BB50_24
	add	x13, x13, #16
	cmp	x13, x11
	b.lo	.Lunix_path_BB50_21
.Lunix_path_BB50_23:
	movi	v0.16b, #46
	ldr	q1, [x10, x11]
	cmeq	v0.16b, v1.16b, v0.16b
	ldr	q1, [x12, :lo12:.Lunix_path_CPI50_0]
	and	v0.16b, v0.16b, v1.16b
	addp	v0.16b, v0.16b, v0.16b
	addp	v0.16b, v0.16b, v0.16b
	addp	v0.16b, v0.16b, v0.16b
	umov	w10, v0.h[0]
	orr	w10, w10, #0x10000
	rbit	w10, w10
	clz	w10, w10
	add	x12, x11, x10
	b	.Lunix_path_BB50_25
.Lunix_path_BB50_24:
	add	x12, x13, w14, uxtw
.Lunix_path_BB50_25:
	add	x8, x12, x8
.Lunix_path_BB50_26:
	mov	w0, #1
	stp	x9, x8, [x19]
	ldp	x20, x19, [sp, #80]
	ldr	x23, [sp, #48]
	ldp	x22, x21, [sp, #64]
	ldp	x29, x30, [sp, #32]
	add	sp, sp, #96
	ret
.Lunix_path_func_end50:
	.size	unix_path_file_prefix, .Lunix_path_func_end50-unix_path_file_prefix
	.section	.rodata.cst16,"aM",@progbits,16
	.p2align	4, 0x0
.Lunix_path_CPI51_0:
	.byte	1
	.byte	2
	.byte	4
	.byte	8
	.byte	16
	.byte	32
	.byte	64
	.byte	128
	.byte	1
	.byte	2
	.byte	4
	.byte	8
	.byte	16
	.byte	32
	.byte	64
	.byte	128
	.section	.text.unix_path_file_stem,"ax",@progbits
	.globl	unix_path_file_stem
	.p2align	2
	.type	unix_path_file_stem,@function
unix_path_file_stem:
	sub	sp, sp, #112
	cmp	x0, #0
	mov	w8, #4096
	str	x25, [sp, #48]
	stp	x22, x21, [sp, #80]
	mov	x21, x1
	csel	x25, x8, xzr, eq
	stp	x20, x19, [sp, #96]
	mov	x20, x0
	mov	x19, x2
	stp	x24, x23, [sp, #64]
	add	x24, x0, x25
	add	x0, sp, #8
	add	x1, x20, x25
	mov	x2, x21
	stp	x29, x30, [sp, #32]
	add	x29, sp, #32
	stp	xzr, xzr, [sp, #8]
	str	xzr, [sp, #24]
	bl	unix_path.path.Path.file_name
	ldrb	w22, [sp, #8]
	cmp	w22, #1
	b.ne	.Lunix_path_BB51_21
	ldr	x23, [sp, #24]
	cbz	x21, .Lunix_path_BB51_10
	mov	x9, x21
	b	.Lunix_path_BB51_4
.Lunix_path_BB51_3:
	mov	x9, x1
	cbz	x1, .Lunix_path_BB51_11
.Lunix_path_BB51_4:
	subs	x1, x9, #1
	b.eq	.Lunix_path_BB51_11
	add	x8, x24, x1
	ldrb	w10, [x8]
	cmp	w10, #47
	b.eq	.Lunix_path_BB51_8
	cmp	w10, #46
	b.ne	.Lunix_path_BB51_11
	ldurb	w8, [x8, #-1]
	cmp	w8, #47
	b.ne	.Lunix_path_BB51_11
.Lunix_path_BB51_8:
	sub	x8, x21, x1
	cmp	x8, #8
	b.ne	.Lunix_path_BB51_3
	add	x0, x20, x25
	bl	unix_path.filler.trimmed_blocks_len
	mov	x1, x0
	b	.Lunix_path_BB51_3
.Lunix_path_BB51_10:
	mov	x9, xzr
.Lunix_path_BB51_11:
	add	x10, x25, x20
	sub	x8, x9, x23
	add	x10, x10, x9
	add	x9, x24, x8
	sub	x11, x10, #1
	mov	x10, x23
.Lunix_path_BB51_12:
	cmp	x10, #15
	b.ls	.Lunix_path_BB51_16
	movi	v0.16b, #46
	movi	v1.16b, #47
	ldur	q2, [x11, #-15]
	adrp	x12, .Lunix_path_CPI51_0
	mov	w14, #64
	sub	x10, x10, #16
	sub	x11, x11, #16
	cmeq	v0.16b, v2.16b, v0.16b
	cmeq	v1.16b, v2.16b, v1.16b
	ldr	q2, [x12, :lo12:.Lunix_path_CPI51_0]
	and	v0.16b, v0.16b, v2.16b
	and	v1.16b, v1.16b, v2.16b
	addp	v0.16b, v0.16b, v0.16b
	addp	v1.16b, v1.16b, v1.16b
	addp	v0.16b, v0.16b, v0.16b
	addp	v1.16b, v1.16b, v1.16b
	addp	v0.16b, v0.16b, v0.16b
	addp	v1.16b, v1.16b, v1.16b
	umov	w12, v0.h[0]
	umov	w13, v1.h[0]
	clz	x12, x12
	clz	x13, x13
	sub	x15, x14, x12
	sub	x14, x14, x13
	cmp	x15, x14
	csel	x14, x15, x14, hi
	cbz	x14, .Lunix_path_BB51_12
	mov	w11, #64
	sub	x13, x11, x13
	sub	x11, x11, x12
	cmp	x13, x11
	csel	x11, x13, x11, hi
	add	x11, x11, x10
	sub	x10, x11, #1
	cbnz	x10, .Lunix_path_BB51_18
	b	.Lunix_path_BB51_20
.Lunix_path_BB51_15:
	ldrb	w12, [x11], #-1
	sub	x10, x10, #1
	and	w12, w12, #0xfe
	cmp	w12, #46
	b.eq	.Lunix_path_BB51_17
.Lunix_path_BB51_16:
	cbnz	x10, .Lunix_path_BB51_15
	b	.Lunix_path_BB51_20
.Lunix_path_BB51_17:
	add	x11, x10, #1
	cbz	x10, .Lunix_path_BB51_20
.Lunix_path_BB51_18:
	ldrb	w12, [x9, x10]
	cmp	w12, #47
	b.eq	.Lunix_path_BB51_20
	add	x9, x9, x11
	ldurb	w9, [x9, #-2]
	cmp	w9, #47
	csel	x23, x23, x10, eq
.Lunix_path_BB51_20:
	stp	x8, x23, [x19]
.Lunix_path_BB51_21:
	cmp	w22, #1
	ldp	x20, x19, [sp, #96]
	ldp	x22, x21, [sp, #80]
	cset	w0, eq
	ldp	x24, x23, [sp, #64]
	ldr	x25, [sp, #48]
	ldp	x29, x30, [sp, #32]
	add	sp, sp, #112
	ret
.Lunix_path_func_end51:
	.size	unix_path_file_stem, .Lunix_path_func_end51-unix_path_file_stem
	.section	.rodata.cst16,"aM",@progbits,16
	.p2align	4, 0x0
.Lunix_path_CPI52_0:
	.byte	1
	.byte	2
	.byte	4
	.byte	8
	.byte	16
	.byte	32
	.byte	64
	.byte	128
	.byte	1
	.byte	2
	.byte	4
	.byte	8
	.byte	16
	.byte	32
	.byte	64
	.byte	128
	.section	.rodata.cst8,"aM",@progbits,8
	.p2align	3, 0x0
.Lunix_path_CPI52_1:
	.byte	1
	.byte	2
	.byte	4
	.byte	8
	.byte	16
	.byte	32
	.byte	64
	.byte	128
	.section	.text.unix_path_from_key,"ax",@progbits
	.globl	unix_path_from_key
	.p2align	2
	.type	unix_path_from_key,@function
unix_path_from_key:
	stp	x29, x30, [sp, #-64]!
	mov	w8, #4096
	cmp	x0, #0
	stp	x20, x19, [sp, #48]
	csel	x9, x8, xzr, eq
	cmp	x2, #0
	str	x23, [sp, #16]
	add	x19, x0, x9
	stp	x22, x21, [sp, #32]
	mov	x29, sp
	mov	x0, x19
	mov	x22, x3
	mov	x21, x2
	mov	x20, x1
	csel	x23, x8, xzr, eq
	bl	path_keys.decode.path_len
	and	w8, w0, #0xff
	mov	x9, xzr
	cmp	w8, #1
	b.ne	.Lunix_path_BB52_3
	cmp	x22, x1
	b.hs	.Lunix_path_BB52_4
.Lunix_path_BB52_2:
	mov	x9, x1
.Lunix_path_BB52_3:
	mov	x10, #-9223372036854775808
	ldp	x20, x19, [sp, #48]
	cmp	x9, x10
	ldp	x22, x21, [sp, #32]
	csel	x9, x9, x10, lo
	cmp	w8, #1
	mov	x8, #-5
	ldr	x23, [sp, #16]
	csel	x0, x9, x8, eq
	ldp	x29, x30, [sp], #64
	ret
.Lunix_path_BB52_4:
	subs	x11, x20, #2
	add	x9, x21, x23
	b.lo	.Lunix_path_BB52_6
	ldrb	w10, [x19]
	cbz	w10, .Lunix_path_BB52_63
.Lunix_path_BB52_6:
	mov	x10, xzr
.Lunix_path_BB52_7:
	add	x11, x1, #1
	b	.Lunix_path_BB52_10
.Lunix_path_BB52_8:
	add	x13, x12, #1
	mov	x12, x13
.Lunix_path_BB52_9:
	add	x10, x13, x10
	add	x19, x19, x12
	sub	x20, x20, x12
.Lunix_path_BB52_10:
	subs	x12, x11, x10
	b.eq	.Lunix_path_BB52_13
	cmp	x20, x12
	b.ne	.Lunix_path_BB52_13
	sub	x12, x20, #1
	b	.Lunix_path_BB52_43
.Lunix_path_BB52_13:
	cmp	x20, #2
	b.hs	.Lunix_path_BB52_16
	cbz	x20, .Lunix_path_BB52_2
	ldrb	w12, [x19]
	b	.Lunix_path_BB52_21
.Lunix_path_BB52_16:
	ldrb	w12, [x19]
	cbnz	w12, .Lunix_path_BB52_21
	ldrb	w13, [x19, #1]
	cmp	w13, #3
	b.ne	.Lunix_path_BB52_21
	add	x12, x10, #2
	mov	w13, #11822
	strh	w13, [x9, x10]
	cmp	x12, x1
	b.hs	.Lunix_path_BB52_20
	mov	w13, #47
	strb	w13, [x9, x12]
.Lunix_path_BB52_20:
	mov	w12, #2
	mov	w13, #3
	b	.Lunix_path_BB52_9
.Lunix_path_BB52_21:
	cmp	w12, #47
	b.ne	.Lunix_path_BB52_24
	cmp	x20, #2
	b.lo	.Lunix_path_BB52_2
	ldrb	w12, [x19, #1]
	cmp	w12, #47
	b.eq	.Lunix_path_BB52_25
.Lunix_path_BB52_24:
	cbnz	w12, .Lunix_path_BB52_27
	b	.Lunix_path_BB52_2
.Lunix_path_BB52_25:
	cmp	x20, #2
	b.eq	.Lunix_path_BB52_2
	ldrb	w12, [x19, #2]
	cbz	w12, .Lunix_path_BB52_2
.Lunix_path_BB52_27:
	cmp	x20, #18
	b.hi	.Lunix_path_BB52_30
	cmp	x20, #9
	b.hs	.Lunix_path_BB52_38
	mov	x12, xzr
	cmp	xzr, x20
	b.lo	.Lunix_path_BB52_56
	b	.Lunix_path_BB52_42
.Lunix_path_BB52_30:
	subs	x12, x20, #19
	adrp	x13, .Lunix_path_CPI52_0
	mov	x14, xzr
	b.ne	.Lunix_path_BB52_34
.Lunix_path_BB52_31:
	sub	x15, x20, #17
	movi	v0.16b, #208
	cmp	x15, x14
	csel	x14, x15, x14, lo
	add	x15, x19, x14
	ldur	q1, [x15, #1]
	and	v0.16b, v1.16b, v0.16b
	ldr	q1, [x15]
	orr	v0.16b, v0.16b, v1.16b
	cmeq	v1.16b, v0.16b, #0
	ldr	q0, [x13, :lo12:.Lunix_path_CPI52_0]
	and	v1.16b, v1.16b, v0.16b
	addp	v1.16b, v1.16b, v1.16b
	addp	v1.16b, v1.16b, v1.16b
	addp	v1.16b, v1.16b, v1.16b
	umov	w13, v1.h[0]
	cbz	w13, .Lunix_path_BB52_53
	movi	v1.16b, #47
	add	x13, x19, x12
	ldur	q2, [x13, #2]
	ldur	q3, [x13, #3]
	cmeq	v3.16b, v3.16b, #0
	cmeq	v4.16b, v2.16b, v1.16b
	cmeq	v2.16b, v2.16b, #0
	and	v3.16b, v4.16b, v3.16b
	ldur	q4, [x13, #1]
	cmeq	v1.16b, v4.16b, v1.16b
	orr	v2.16b, v2.16b, v3.16b
	ldr	q3, [x13]
	and	v1.16b, v1.16b, v2.16b
	cmeq	v2.16b, v3.16b, #0
	cmeq	v3.16b, v4.16b, #0
	orr	v1.16b, v3.16b, v1.16b
	and	v0.16b, v2.16b, v0.16b
	and	v0.16b, v0.16b, v1.16b
	addp	v0.16b, v0.16b, v0.16b
	addp	v0.16b, v0.16b, v0.16b
	addp	v0.16b, v0.16b, v0.16b
	umov	w13, v0.h[0]
	orr	w13, w13, #0x10000
	rbit	w13, w13
	clz	w13, w13
	add	x12, x12, x13
	cmp	x12, x20
	b.lo	.Lunix_path_BB52_56
	b	.Lunix_path_BB52_42
.Lunix_path_BB52_33:
	cmp	x14, x12
	b.hs	.Lunix_path_BB52_31
.Lunix_path_BB52_34:
	movi	v1.16b, #208
	add	x15, x19, x14
	ldur	q0, [x15, #1]
	and	v2.16b, v0.16b, v1.16b
	ldr	q1, [x15]
	orr	v2.16b, v2.16b, v1.16b
	cmeq	v3.16b, v2.16b, #0
	ldr	q2, [x13, :lo12:.Lunix_path_CPI52_0]
	and	v3.16b, v3.16b, v2.16b
	addp	v3.16b, v3.16b, v3.16b
	addp	v3.16b, v3.16b, v3.16b
	addp	v3.16b, v3.16b, v3.16b
	umov	w16, v3.h[0]
	cbz	w16, .Lunix_path_BB52_37
	movi	v3.16b, #47
	ldur	q4, [x15, #2]
	ldur	q5, [x15, #3]
	cmeq	v1.16b, v1.16b, #0
	cmeq	v5.16b, v5.16b, #0
	cmeq	v6.16b, v4.16b, v3.16b
	cmeq	v4.16b, v4.16b, #0
	cmeq	v3.16b, v0.16b, v3.16b
	cmeq	v0.16b, v0.16b, #0
	and	v1.16b, v1.16b, v2.16b
	and	v5.16b, v6.16b, v5.16b
	orr	v4.16b, v4.16b, v5.16b
	and	v3.16b, v3.16b, v4.16b
	orr	v0.16b, v0.16b, v3.16b
	and	v0.16b, v1.16b, v0.16b
	addp	v0.16b, v0.16b, v0.16b
	addp	v0.16b, v0.16b, v0.16b
	addp	v0.16b, v0.16b, v0.16b
	umov	w15, v0.h[0]
	orr	w15, w15, #0x10000
	rbit	w15, w15
	clz	w15, w15
	cmp	w15, #15
	b.ls	.Lunix_path_BB52_40
	add	x14, x14, #16
	b	.Lunix_path_BB52_33
.Lunix_path_BB52_37:
	add	x14, x14, #16
	cmp	x14, x12
	b.lo	.Lunix_path_BB52_34
	b	.Lunix_path_BB52_33
.Lunix_path_BB52_38:
	movi	v0.8b, #47
	ldur	d1, [x19, #1]
	ldr	d2, [x19]
	adrp	x12, .Lunix_path_CPI52_1
	cmeq	v3.8b, v1.8b, #0
	cmeq	v2.8b, v2.8b, #0
	cmeq	v4.8b, v1.8b, v0.8b
	ldr	d1, [x12, :lo12:.Lunix_path_CPI52_1]
	and	v2.8b, v2.8b, v1.8b
	orr	v3.8b, v3.8b, v4.8b
	and	v2.8b, v2.8b, v3.8b
	addv	b2, v2.8b
	fmov	w12, s2
	orr	w12, w12, #0x100
	rbit	w12, w12
	clz	w12, w12
	cmp	w12, #8
	b.lo	.Lunix_path_BB52_41
	cmp	x20, #17
	mov	w12, #17
	csel	x12, x20, x12, lo
	sub	x12, x12, #9
	add	x13, x19, x12
	ldr	d2, [x13]
	ldur	d3, [x13, #1]
	cmeq	v4.8b, v3.8b, #0
	cmeq	v0.8b, v3.8b, v0.8b
	cmeq	v2.8b, v2.8b, #0
	orr	v0.8b, v4.8b, v0.8b
	and	v1.8b, v2.8b, v1.8b
	and	v0.8b, v1.8b, v0.8b
	addv	b0, v0.8b
	fmov	w13, s0
	orr	w13, w13, #0x100
	rbit	w13, w13
	clz	w13, w13
	add	x12, x12, x13
	cmp	x12, x20
	b.lo	.Lunix_path_BB52_56
	b	.Lunix_path_BB52_42
.Lunix_path_BB52_40:
	add	x12, x14, w15, uxtw
.Lunix_path_BB52_41:
	cmp	x12, x20
	b.lo	.Lunix_path_BB52_56
.Lunix_path_BB52_42:
	cmp	x12, x20
	b.eq	.Lunix_path_BB52_2
.Lunix_path_BB52_43:
	cmp	x12, #15
	b.hi	.Lunix_path_BB52_48
	cbz	x12, .Lunix_path_BB52_47
	add	x13, x9, x10
	mov	x14, x19
	mov	x15, x12
.Lunix_path_BB52_46:
	ldrb	w16, [x14], #1
	cmp	w16, #48
	sbc	w17, w16, wzr
	cmp	w16, #0
	mov	w16, #47
	csel	w16, w16, w17, eq
	subs	x15, x15, #1
	strb	w16, [x13], #1
	b.ne	.Lunix_path_BB52_46
.Lunix_path_BB52_47:
	add	x13, x12, x10
	cmp	x13, x1
	b.hs	.Lunix_path_BB52_8
	b	.Lunix_path_BB52_52
.Lunix_path_BB52_48:
	subs	x13, x12, #16
	b.eq	.Lunix_path_BB52_51
	mov	x14, xzr
	add	x15, x9, x10
.Lunix_path_BB52_50:
	movi	v0.16b, #48
	ldr	q1, [x19, x14]
	movi	v2.16b, #47
	cmhi	v0.16b, v0.16b, v1.16b
	add	v0.16b, v1.16b, v0.16b
	cmeq	v1.16b, v1.16b, #0
	bit	v0.16b, v2.16b, v1.16b
	str	q0, [x15, x14]
	add	x14, x14, #16
	cmp	x14, x13
	b.lo	.Lunix_path_BB52_50
.Lunix_path_BB52_51:
	movi	v0.16b, #48
	ldr	q1, [x19, x13]
	movi	v2.16b, #47
	add	x14, x9, x10
	cmhi	v0.16b, v0.16b, v1.16b
	add	v0.16b, v1.16b, v0.16b
	cmeq	v1.16b, v1.16b, #0
	bit	v0.16b, v2.16b, v1.16b
	str	q0, [x14, x13]
	add	x13, x12, x10
	cmp	x13, x1
	b.hs	.Lunix_path_BB52_8
.Lunix_path_BB52_52:
	mov	w14, #47
	strb	w14, [x9, x13]
	b	.Lunix_path_BB52_8
.Lunix_path_BB52_53:
	add	x12, x14, #16
	cmp	x12, x20
	b.lo	.Lunix_path_BB52_56
	b	.Lunix_path_BB52_42
.Lunix_path_BB52_54:
	cbz	w14, .Lunix_path_BB52_42
.Lunix_path_BB52_55:
	cmp	x20, x13
	mov	x12, x13
	b.eq	.Lunix_path_BB52_2
.Lunix_path_BB52_56:
	ldrb	w14, [x19, x12]
	add	x13, x12, #1
	cbnz	w14, .Lunix_path_BB52_55
	cmp	x20, x13
	b.ls	.Lunix_path_BB52_42
	add	x14, x19, x12
	ldrb	w14, [x14, #1]
	cmp	w14, #47
	b.ne	.Lunix_path_BB52_54
	add	x14, x12, #2
	cmp	x20, x14
	b.ls	.Lunix_path_BB52_42
	add	x14, x19, x12
	ldrb	w14, [x14, #2]
	cmp	w14, #47
	b.ne	.Lunix_path_BB52_54
	add	x14, x12, #3
	cmp	x20, x14
	b.ls	.Lunix_path_BB52_42
	add	x14, x19, x12
	ldrb	w14, [x14, #3]
	cbnz	w14, .Lunix_path_BB52_55
	b	.Lunix_path_BB52_42
.Lunix_path_BB52_63:
	ldrb	w10, [x19, #1]
	cmp	w10, #2
	b.eq	.Lunix_path_BB52_68
	cmp	w10, #1
	b.ne	.Lunix_path_BB52_6
	add	x19, x19, #2
	cbz	x1, .Lunix_path_BB52_67
	mov	w10, #47
	strb	w10, [x9]
.Lunix_path_BB52_67:
	mov	w10, #1
	b	.Lunix_path_BB52_73
.Lunix_path_BB52_68:
	cmp	x1, #2
	add	x19, x19, #2
	b.lo	.Lunix_path_BB52_70
	adrp	x10, .Lunix_path_static.9
	add	x10, x10, :lo12:.Lunix_path_static.9
	sub	x10, x9, x10
	cmp	x10, #1
	mov	w10, #12078
	strh	w10, [x9]
	b	.Lunix_path_BB52_72
.Lunix_path_BB52_70:
	cmp	x1, #1
	b.ne	.Lunix_path_BB52_72
	mov	w10, #46
	strb	w10, [x9]
.Lunix_path_BB52_72:
	mov	w10, #2
.Lunix_path_BB52_73:
	mov	x20, x11
	b	.Lunix_path_BB52_7
.Lunix_path_func_end52:
	.size	unix_path_from_key, .Lunix_path_func_end52-unix_path_from_key
	.section	.rodata.cst16,"aM",@progbits,16
	.p2align	4, 0x0
.Lunix_path_CPI53_0:
	.xword	8317987319222330741
	.xword	7237128888997146477
.Lunix_path_CPI53_1:
	.xword	7816392313619706465
	.xword	8387220255154660723
.Lunix_path_CPI53_2:
	.byte	1
	.byte	2
	.byte	4
	.byte	8
	.byte	16
	.byte	32
	.byte	64
	.byte	128
	.byte	1
	.byte	2
	.byte	4
	.byte	8
	.byte	16
	.byte	32
	.byte	64
	.byte	128
	.section	.text.unix_path_hash,"ax",@progbits
	.globl	unix_path_hash
	.p2align	2
	.type	unix_path_hash,@function
unix_path_hash:
	sub	sp, sp, #144
	stp	x26, x25, [sp, #80]
	adrp	x8, .Lunix_path_CPI53_0
	mov	x25, #28525
	stp	x24, x23, [sp, #96]
	mov	x24, #25971
	mov	x23, #29281
	stp	x22, x21, [sp, #112]
	mov	x22, #25973
	ldr	q0, [x8, :lo12:.Lunix_path_CPI53_0]
	adrp	x8, .Lunix_path_CPI53_1
	movk	x24, #31092, lsl #16
	movk	x22, #28787, lsl #16
	movk	x23, #28261, lsl #16
	movk	x25, #28260, lsl #16
	ldr	q1, [x8, :lo12:.Lunix_path_CPI53_1]
	movk	x24, #25698, lsl #32
	movk	x22, #28005, lsl #32
	movk	x23, #26469, lsl #32
	cmp	x0, #0
	mov	w8, #4096
	movk	x25, #29281, lsl #32
	movk	x24, #29797, lsl #48
	movk	x22, #29551, lsl #48
	movk	x23, #27769, lsl #48
	movk	x25, #25711, lsl #48
	csel	x8, x8, xzr, eq
	stp	x29, x30, [sp, #64]
	stp	x20, x19, [sp, #128]
	add	x29, sp, #64
	stp	q0, q1, [sp]
	stp	xzr, xzr, [sp, #32]
	cbz	x1, .Lunix_path_BB53_15
	add	x19, x0, x8
	mov	x20, x1
	ldrb	w8, [x19]
	cmp	w8, #47
	b.eq	.Lunix_path_BB53_4
	cmp	w8, #46
	b.ne	.Lunix_path_BB53_5
	cmp	x20, #1
	b.ne	.Lunix_path_BB53_6
.Lunix_path_BB53_4:
	mov	w26, #1
	b	.Lunix_path_BB53_7
.Lunix_path_BB53_5:
	mov	w26, wzr
	b	.Lunix_path_BB53_7
.Lunix_path_BB53_6:
	ldrb	w8, [x19, #1]
	cmp	w8, #47
	cset	w26, eq
.Lunix_path_BB53_7:
	mov	x21, x20
	b	.Lunix_path_BB53_9
.Lunix_path_BB53_8:
	mov	x21, x1
	cbz	x1, .Lunix_path_BB53_15
.Lunix_path_BB53_9:
	subs	x1, x21, #1
	b.eq	.Lunix_path_BB53_16
	add	x8, x19, x1
	ldrb	w9, [x8]
	cmp	w9, #47
	b.eq	.Lunix_path_BB53_13
	cmp	w9, #46
	b.ne	.Lunix_path_BB53_16
	ldurb	w8, [x8, #-1]
	cmp	w8, #47
	b.ne	.Lunix_path_BB53_16
.Lunix_path_BB53_13:
	sub	x8, x20, x1
	cmp	x8, #8
	b.ne	.Lunix_path_BB53_8
	mov	x0, x19
	bl	unix_path.filler.trimmed_blocks_len
	mov	x1, x0
	b	.Lunix_path_BB53_8
.Lunix_path_BB53_15:
	mov	x8, xzr
	b	.Lunix_path_BB53_81
.Lunix_path_BB53_16:
	mov	x22, xzr
	mov	x8, x21
	b	.Lunix_path_BB53_23
.Lunix_path_BB53_17:
	mov	x9, x10
.Lunix_path_BB53_18:
	add	x8, x9, #1
.Lunix_path_BB53_19:
	ldrb	w9, [x20]
	add	x22, x8, x22
	adrp	x8, .Lunix_path_static.5
	add	x8, x8, :lo12:.Lunix_path_static.5
	cmp	w9, #47
	adrp	x9, .Lunix_path_static.8
	add	x9, x9, :lo12:.Lunix_path_static.8
	csel	x20, x9, x8, eq
.Lunix_path_BB53_20:
	ldrb	w8, [x20]
	mov	w9, #12032
.Lunix_path_BB53_21:
	orr	x8, x8, x9
.Lunix_path_BB53_22:
	mov	x0, sp
	sub	x1, x29, #8
	stur	x8, [x29, #-8]
	bl	core.hash.sip.DefaultHasherHasher.write
	subs	x8, x21, x22
	mov	w26, wzr
	b.eq	.Lunix_path_BB53_80
.Lunix_path_BB53_23:
	add	x20, x19, x22
	tbz	w26, #0, .Lunix_path_BB53_31
	subs	x10, x8, #1
	b.eq	.Lunix_path_BB53_19
	mov	x9, xzr
	add	x11, x20, #1
	sub	x8, x8, #2
	b	.Lunix_path_BB53_27
.Lunix_path_BB53_26:
	add	x9, x9, #1
	cmp	x10, x9
	b.eq	.Lunix_path_BB53_17
.Lunix_path_BB53_27:
	ldrb	w12, [x11, x9]
	cmp	w12, #47
	b.eq	.Lunix_path_BB53_26
	cmp	w12, #46
	b.ne	.Lunix_path_BB53_18
	cmp	x8, x9
	b.eq	.Lunix_path_BB53_17
	add	x12, x11, x9
	ldrb	w12, [x12, #1]
	cmp	w12, #47
	b.eq	.Lunix_path_BB53_26
	b	.Lunix_path_BB53_18
.Lunix_path_BB53_31:
	cmp	x8, #1
	b.eq	.Lunix_path_BB53_37
	ldrb	w9, [x20]
	cmp	w9, #46
	b.ne	.Lunix_path_BB53_37
	ldrb	w9, [x20, #1]
	cmp	w9, #46
	b.ne	.Lunix_path_BB53_37
	subs	x9, x8, #2
	b.eq	.Lunix_path_BB53_73
	add	x11, x19, x22
	ldrb	w10, [x11, #2]!
	cmp	w10, #47
	b.ne	.Lunix_path_BB53_37
	mov	x10, xzr
	sub	x8, x8, #3
	b	.Lunix_path_BB53_43
.Lunix_path_BB53_37:
	cmp	x8, #15
	b.hi	.Lunix_path_BB53_47
	mov	x23, xzr
.Lunix_path_BB53_39:
	ldrb	w9, [x20, x23]
	cmp	w9, #47
	b.eq	.Lunix_path_BB53_52
	add	x23, x23, #1
	cmp	x8, x23
	b.ne	.Lunix_path_BB53_39
	mov	x23, x8
	mov	x24, xzr
	subs	x8, x8, x8
	b.ne	.Lunix_path_BB53_53
	b	.Lunix_path_BB53_60
.Lunix_path_BB53_42:
	add	x10, x10, #1
	cmp	x9, x10
	b.eq	.Lunix_path_BB53_71
.Lunix_path_BB53_43:
	ldrb	w12, [x11, x10]
	cmp	w12, #47
	b.eq	.Lunix_path_BB53_42
	cmp	w12, #46
	b.ne	.Lunix_path_BB53_72
	cmp	x8, x10
	b.eq	.Lunix_path_BB53_71
	add	x12, x11, x10
	ldrb	w12, [x12, #1]
	cmp	w12, #47
	b.eq	.Lunix_path_BB53_42
	b	.Lunix_path_BB53_72
.Lunix_path_BB53_47:
	subs	x9, x8, #16
	adrp	x10, .Lunix_path_CPI53_2
	b.eq	.Lunix_path_BB53_51
	mov	x11, xzr
.Lunix_path_BB53_49:
	movi	v0.16b, #47
	ldr	q1, [x20, x11]
	cmeq	v0.16b, v1.16b, v0.16b
	ldr	q1, [x10, :lo12:.Lunix_path_CPI53_2]
	and	v0.16b, v0.16b, v1.16b
	addp	v0.16b, v0.16b, v0.16b
	addp	v0.16b, v0.16b, v0.16b
	addp	v0.16b, v0.16b, v0.16b
	umov	w12, v0.h[0]
	orr	w12, w12, #0x10000
	rbit	w12, w12
	clz	w12, w12
	cmp	w12, #15
	b.ls	.Lunix_path_BB53_68
	add	x11, x11, #16
	cmp	x11, x9
	b.lo	.Lunix_path_BB53_49
.Lunix_path_BB53_51:
	movi	v0.16b, #47
	ldr	q1, [x20, x9]
	cmeq	v0.16b, v1.16b, v0.16b
	ldr	q1, [x10, :lo12:.Lunix_path_CPI53_2]
	and	v0.16b, v0.16b, v1.16b
	addp	v0.16b, v0.16b, v0.16b
	addp	v0.16b, v0.16b, v0.16b
	addp	v0.16b, v0.16b, v0.16b
	umov	w10, v0.h[0]
	orr	w10, w10, #0x10000
	rbit	w10, w10
	clz	w10, w10
	add	x23, x9, x10
.Lunix_path_BB53_52:
	mov	x24, xzr
	subs	x8, x8, x23
	b.eq	.Lunix_path_BB53_60
.Lunix_path_BB53_53:
	add	x9, x20, x23
	sub	x10, x8, #1
	b	.Lunix_path_BB53_55
.Lunix_path_BB53_54:
	add	x24, x24, #1
	cmp	x8, x24
	b.eq	.Lunix_path_BB53_59
.Lunix_path_BB53_55:
	ldrb	w11, [x9, x24]
	cmp	w11, #47
	b.eq	.Lunix_path_BB53_54
	cmp	w11, #46
	b.ne	.Lunix_path_BB53_60
	cmp	x10, x24
	b.eq	.Lunix_path_BB53_59
	add	x11, x9, x24
	ldrb	w11, [x11, #1]
	cmp	w11, #47
	b.eq	.Lunix_path_BB53_54
	b	.Lunix_path_BB53_60
.Lunix_path_BB53_59:
	mov	x24, x8
.Lunix_path_BB53_60:
	mov	x25, x23
	cmp	x23, #8
	b.lo	.Lunix_path_BB53_62
.Lunix_path_BB53_61:
	mov	x0, sp
	mov	x1, x20
	bl	core.hash.sip.DefaultHasherHasher.write
	sub	x25, x25, #8
	add	x20, x20, #8
	cmp	x25, #7
	b.hi	.Lunix_path_BB53_61
.Lunix_path_BB53_62:
	add	x8, x23, x22
	add	x22, x8, x24
	cbz	x25, .Lunix_path_BB53_67
	cmp	x25, #1
	b.eq	.Lunix_path_BB53_20
	cmp	x25, #2
	b.ls	.Lunix_path_BB53_74
	cmp	x25, #3
	b.ne	.Lunix_path_BB53_69
	ldrb	w8, [x20, #2]
	ldrh	w9, [x20]
	orr	x8, x9, x8, lsl #16
	mov	w9, #788529152
	b	.Lunix_path_BB53_21
.Lunix_path_BB53_67:
	mov	w8, #47
	b	.Lunix_path_BB53_22
.Lunix_path_BB53_68:
	add	x23, x11, w12, uxtw
	mov	x24, xzr
	subs	x8, x8, x23
	b.ne	.Lunix_path_BB53_53
	b	.Lunix_path_BB53_60
.Lunix_path_BB53_69:
	cmp	x25, #4
	b.hi	.Lunix_path_BB53_75
	ldr	w8, [x20]
	mov	x9, #201863462912
	b	.Lunix_path_BB53_21
.Lunix_path_BB53_71:
	mov	x10, x9
.Lunix_path_BB53_72:
	add	x8, x10, #2
.Lunix_path_BB53_73:
	add	x22, x8, x22
	adrp	x20, .Lunix_path_static.10
	add	x20, x20, :lo12:.Lunix_path_static.10
.Lunix_path_BB53_74:
	ldrh	w8, [x20]
	mov	w9, #3080192
	b	.Lunix_path_BB53_21
.Lunix_path_BB53_75:
	cmp	x25, #7
	b.eq	.Lunix_path_BB53_78
	cmp	x25, #5
	b.ne	.Lunix_path_BB53_79
	ldrb	w8, [x20]
	ldur	w9, [x20, #1]
	orr	x8, x8, x9, lsl #8
	mov	x9, #51677046505472
	b	.Lunix_path_BB53_21
.Lunix_path_BB53_78:
	ldrb	w8, [x20, #2]
	ldrh	w9, [x20]
	ldur	w10, [x20, #3]
	orr	x8, x9, x8, lsl #16
	mov	x9, #3386706919782612992
	orr	x8, x8, x10, lsl #24
	b	.Lunix_path_BB53_21
.Lunix_path_BB53_79:
	ldur	w8, [x20, #2]
	ldrh	w9, [x20]
	orr	x8, x9, x8, lsl #16
	mov	x9, #13229323905400832
	b	.Lunix_path_BB53_21
.Lunix_path_BB53_80:
	ldp	x9, x8, [sp, #32]
	ldp	x22, x25, [sp]
	ldp	x23, x24, [sp, #16]
	orr	x8, x9, x8, lsl #56
.Lunix_path_BB53_81:
	eor	x9, x8, x24
	add	x10, x22, x25
	add	x11, x9, x23
	eor	x12, x10, x25, ror #51
	ror	x10, x10, #32
	eor	x9, x11, x9, ror #48
	ldp	x20, x19, [sp, #128]
	add	x11, x11, x12
	ldp	x22, x21, [sp, #112]
	add	x10, x9, x10
	ror	x13, x11, #32
	eor	x11, x11, x12, ror #47
	eor	x9, x10, x9, ror #43
	eor	x8, x10, x8
	eor	x10, x13, #0xff
	add	x8, x8, x11
	add	x10, x9, x10
	eor	x11, x8, x11, ror #51
	ror	x8, x8, #32
	eor	x9, x10, x9, ror #48
	ldp	x24, x23, [sp, #96]
	add	x10, x11, x10
	ldp	x26, x25, [sp, #80]
	add	x8, x9, x8
	eor	x11, x10, x11, ror #47
	ror	x10, x10, #32
	eor	x9, x8, x9, ror #43
	ldp	x29, x30, [sp, #64]
	add	x8, x11, x8
	add	x10, x9, x10
	eor	x11, x8, x11, ror #51
	ror	x8, x8, #32
	eor	x9, x10, x9, ror #48
	add	x10, x11, x10
	add	x8, x9, x8
	ror	x12, x10, #32
	eor	x10, x10, x11, ror #47
	eor	x9, x8, x9, ror #43
	add	x8, x10, x8
	add	x11, x9, x12
	eor	x8, x8, x10, ror #51
	eor	x9, x11, x9, ror #48
	ror	x9, x9, #43
	eor	x9, x9, x8, ror #47
	add	x8, x8, x11
	eor	x9, x9, x8, ror #32
	eor	x0, x9, x8
	add	sp, sp, #144
	ret
.Lunix_path_func_end53:
	.size	unix_path_hash, .Lunix_path_func_end53-unix_path_hash
	.section	.text.unix_path_is_absolute,"ax",@progbits
	.globl	unix_path_is_absolute
	.p2align	2
	.type	unix_path_is_absolute,@function
unix_path_is_absolute:
	cbz	x1, .Lunix_path_BB54_2
	cmp	x0, #0
	mov	w8, #4096
	csel	x8, x8, xzr, eq
	ldrb	w8, [x0, x8]
	cmp	w8, #47
	cset	w0, eq
	ret
.Lunix_path_BB54_2:
	mov	w0, wzr
	ret
.Lunix_path_func_end54:
	.size	unix_path_is_absolute, .Lunix_path_func_end54-unix_path_is_absolute
	.section	.text.unix_path_is_canonical,"ax",@progbits
	.globl	unix_path_is_canonical
	.p2align	2
	.type	unix_path_is_canonical,@function
unix_path_is_canonical:
	stp	x29, x30, [sp, #-16]!
	mov	w8, #4096
	cmp	x0, #0
	mov	x29, sp
	csel	x8, x8, xzr, eq
	add	x0, x0, x8
	bl	path_runs.canonical.is_canonical
	ldp	x29, x30, [sp], #16
	ret
.Lunix_path_func_end55:
	.size	unix_path_is_canonical, .Lunix_path_func_end55-unix_path_is_canonical
	.section	.text.unix_path_is_utf8,"ax",@progbits
	.globl	unix_path_is_utf8
	.p2align	2
	.type	unix_path_is_utf8,@function
unix_path_is_utf8:
	stp	x29, x30, [sp, #-32]!
	mov	w8, #4096
	cmp	x0, #0
	str	x19, [sp, #16]
	csel	x8, x8, xzr, eq
	mov	x19, x1
	cmp	x1, #31
	add	x0, x0, x8
	mov	x29, sp
	b.hi	.Lunix_path_BB56_2
	mov	x1, x19
	mov	x2, xzr
	bl	unix_bytes.utf8.scans.scan_by_sequence
	cmp	x0, x19
	ldr	x19, [sp, #16]
	cset	w0, hs
	ldp	x29, x30, [sp], #32
	ret
.Lunix_path_BB56_2:
	mov	x1, x19
	mov	x2, xzr
	bl	unix_bytes.utf8.scans.scan_by_window
	cmp	x0, x19
	ldr	x19, [sp, #16]
	cset	w0, hs
	ldp	x29, x30, [sp], #32
	ret
.Lunix_path_func_end56:
	.size	unix_path_is_utf8, .Lunix_path_func_end56-unix_path_is_utf8
	.section	.text.unix_path_key,"ax",@progbits
	.globl	unix_path_key
	.p2align	2
	.type	unix_path_key,@function
unix_path_key:
	stp	x29, x30, [sp, #-80]!
	mov	w8, #4096
	cmp	x0, #0
	stp	x20, x19, [sp, #64]
	csel	x9, x8, xzr, eq
	cmp	x2, #0
	add	x19, x1, #2
	stp	x26, x25, [sp, #16]
	mov	x20, x1
	csel	x26, x8, xzr, eq
	stp	x24, x23, [sp, #32]
	mov	x23, x3
	cmp	x19, x3
	stp	x22, x21, [sp, #48]
	mov	x22, x2
	add	x21, x0, x9
	mov	x29, sp
	b.ls	.Lunix_path_BB57_36
	cbz	x20, .Lunix_path_BB57_7
	ldrb	w8, [x21]
	cmp	w8, #47
	b.eq	.Lunix_path_BB57_6
	cmp	w8, #46
	b.ne	.Lunix_path_BB57_7
	cmp	x20, #1
	b.eq	.Lunix_path_BB57_6
	ldrb	w8, [x21, #1]
	cmp	w8, #47
	b.ne	.Lunix_path_BB57_7
.Lunix_path_BB57_6:
	mov	w19, #2
	b	.Lunix_path_BB57_8
.Lunix_path_BB57_7:
	mov	x19, xzr
.Lunix_path_BB57_8:
	mov	x2, xzr
	b	.Lunix_path_BB57_10
.Lunix_path_BB57_9:
	mov	w8, #1
	add	x2, x8, x2
	cmp	x2, #4
	b.hs	.Lunix_path_BB57_16
.Lunix_path_BB57_10:
	cmp	x2, x20
	b.hs	.Lunix_path_BB57_17
	ldrb	w8, [x21, x2]
	cmp	w8, #47
	b.eq	.Lunix_path_BB57_9
	cmp	w8, #46
	b.ne	.Lunix_path_BB57_17
	add	x8, x2, #1
	cmp	x8, x20
	b.eq	.Lunix_path_BB57_9
	ldrb	w8, [x21, x8]
	cmp	w8, #47
	b.ne	.Lunix_path_BB57_17
	mov	w8, #2
	add	x2, x8, x2
	cmp	x2, #4
	b.lo	.Lunix_path_BB57_10
.Lunix_path_BB57_16:
	mov	x0, x21
	mov	x1, x20
	bl	unix_path.filler.filler_end_from
	mov	x2, x0
.Lunix_path_BB57_17:
	subs	x25, x20, x2
	b.eq	.Lunix_path_BB57_36
	add	x24, x21, x2
	b	.Lunix_path_BB57_21
.Lunix_path_BB57_19:
	mov	x0, x24
	mov	x1, x25
	bl	unix_path.filler.filler_end_from
	mov	x2, x0
.Lunix_path_BB57_20:
	subs	x25, x25, x2
	add	x24, x24, x2
	b.eq	.Lunix_path_BB57_36
.Lunix_path_BB57_21:
	mov	x0, x24
	mov	x1, x25
	bl	path_keys.encode.run_len
	cmp	x25, #1
	b.eq	.Lunix_path_BB57_27
	ldrb	w8, [x24]
	cmp	w8, #46
	b.ne	.Lunix_path_BB57_27
	ldrb	w8, [x24, #1]
	cmp	w8, #46
	b.ne	.Lunix_path_BB57_27
	cmp	x25, #2
	b.eq	.Lunix_path_BB57_26
	ldrb	w8, [x24, #2]
	cmp	w8, #47
	b.ne	.Lunix_path_BB57_27
.Lunix_path_BB57_26:
	mov	w8, #2
	b	.Lunix_path_BB57_28
.Lunix_path_BB57_27:
	add	x8, x0, #1
.Lunix_path_BB57_28:
	mov	x2, xzr
	add	x19, x8, x19
	add	x24, x24, x0
	sub	x25, x25, x0
	b	.Lunix_path_BB57_30
.Lunix_path_BB57_29:
	mov	w8, #1
	add	x2, x8, x2
	cmp	x2, #4
	b.hs	.Lunix_path_BB57_19
.Lunix_path_BB57_30:
	cmp	x2, x25
	b.hs	.Lunix_path_BB57_20
	ldrb	w8, [x24, x2]
	cmp	w8, #47
	b.eq	.Lunix_path_BB57_29
	cmp	w8, #46
	b.ne	.Lunix_path_BB57_20
	add	x8, x2, #1
	cmp	x8, x25
	b.eq	.Lunix_path_BB57_29
	ldrb	w8, [x24, x8]
	cmp	w8, #47
	b.ne	.Lunix_path_BB57_20
	mov	w8, #2
	add	x2, x8, x2
	cmp	x2, #4
	b.lo	.Lunix_path_BB57_30
	b	.Lunix_path_BB57_19
.Lunix_path_BB57_36:
	cmp	x23, x19
	b.lo	.Lunix_path_BB57_80
	add	x22, x22, x26
	cbz	x20, .Lunix_path_BB57_43
	ldrb	w8, [x21]
	cmp	w8, #47
	b.eq	.Lunix_path_BB57_42
	cmp	w8, #46
	b.ne	.Lunix_path_BB57_43
	cmp	x20, #1
	b.eq	.Lunix_path_BB57_42
	ldrb	w9, [x21, #1]
	cmp	w9, #47
	b.ne	.Lunix_path_BB57_43
.Lunix_path_BB57_42:
	cmp	w8, #47
	mov	w8, #512
	mov	w9, #256
	csel	w8, w9, w8, eq
	mov	w19, #2
	strh	w8, [x22]
	b	.Lunix_path_BB57_44
.Lunix_path_BB57_43:
	mov	x19, xzr
.Lunix_path_BB57_44:
	mov	x2, xzr
	b	.Lunix_path_BB57_46
.Lunix_path_BB57_45:
	mov	w8, #1
	add	x2, x8, x2
	cmp	x2, #4
	b.hs	.Lunix_path_BB57_52
.Lunix_path_BB57_46:
	cmp	x2, x20
	b.hs	.Lunix_path_BB57_53
	ldrb	w8, [x21, x2]
	cmp	w8, #47
	b.eq	.Lunix_path_BB57_45
	cmp	w8, #46
	b.ne	.Lunix_path_BB57_53
	add	x8, x2, #1
	cmp	x8, x20
	b.eq	.Lunix_path_BB57_45
	ldrb	w8, [x21, x8]
	cmp	w8, #47
	b.ne	.Lunix_path_BB57_53
	mov	w8, #2
	add	x2, x8, x2
	cmp	x2, #4
	b.lo	.Lunix_path_BB57_46
.Lunix_path_BB57_52:
	mov	x0, x21
	mov	x1, x20
	bl	unix_path.filler.filler_end_from
	mov	x2, x0
.Lunix_path_BB57_53:
	subs	x20, x20, x2
	b.eq	.Lunix_path_BB57_80
	add	x21, x21, x2
	b	.Lunix_path_BB57_57
.Lunix_path_BB57_55:
	mov	x0, x21
	mov	x1, x20
	bl	unix_path.filler.filler_end_from
	mov	x2, x0
.Lunix_path_BB57_56:
	subs	x20, x20, x2
	add	x21, x21, x2
	b.eq	.Lunix_path_BB57_80
.Lunix_path_BB57_57:
	mov	x0, x21
	mov	x1, x20
	bl	path_keys.encode.run_len
	cmp	x20, #1
	b.eq	.Lunix_path_BB57_63
	ldrb	w8, [x21]
	cmp	w8, #46
	b.ne	.Lunix_path_BB57_63
	ldrb	w8, [x21, #1]
	cmp	w8, #46
	b.ne	.Lunix_path_BB57_63
	cmp	x20, #2
	b.eq	.Lunix_path_BB57_62
	ldrb	w8, [x21, #2]
	cmp	w8, #47
	b.ne	.Lunix_path_BB57_63
.Lunix_path_BB57_62:
	mov	w8, #768
	strh	w8, [x22, x19]
	mov	w8, #2
	b	.Lunix_path_BB57_72
.Lunix_path_BB57_63:
	cmp	x0, #15
	b.hi	.Lunix_path_BB57_67
	cbz	x0, .Lunix_path_BB57_71
	add	x8, x22, x19
	mov	x9, x21
	mov	x10, x0
.Lunix_path_BB57_66:
	ldrb	w11, [x9], #1
	cmp	w11, #47
	cinc	w11, w11, lo
	csel	w11, wzr, w11, eq
	subs	x10, x10, #1
	strb	w11, [x8], #1
	b.ne	.Lunix_path_BB57_66
	b	.Lunix_path_BB57_71
.Lunix_path_BB57_67:
	subs	x8, x0, #16
	b.eq	.Lunix_path_BB57_70
	mov	x9, xzr
	add	x10, x22, x19
.Lunix_path_BB57_69:
	movi	v0.16b, #47
	ldr	q1, [x21, x9]
	cmhi	v2.16b, v0.16b, v1.16b
	cmeq	v0.16b, v1.16b, v0.16b
	sub	v2.16b, v1.16b, v2.16b
	bic	v0.16b, v2.16b, v0.16b
	str	q0, [x10, x9]
	add	x9, x9, #16
	cmp	x9, x8
	b.lo	.Lunix_path_BB57_69
.Lunix_path_BB57_70:
	movi	v0.16b, #47
	ldr	q1, [x21, x8]
	add	x9, x22, x19
	cmhi	v2.16b, v0.16b, v1.16b
	cmeq	v0.16b, v1.16b, v0.16b
	sub	v2.16b, v1.16b, v2.16b
	bic	v0.16b, v2.16b, v0.16b
	str	q0, [x9, x8]
.Lunix_path_BB57_71:
	add	x8, x22, x19
	strb	wzr, [x8, x0]
	add	x8, x0, #1
.Lunix_path_BB57_72:
	mov	x2, xzr
	add	x19, x8, x19
	add	x21, x21, x0
	sub	x20, x20, x0
	b	.Lunix_path_BB57_74
.Lunix_path_BB57_73:
	mov	w8, #1
	add	x2, x8, x2
	cmp	x2, #4
	b.hs	.Lunix_path_BB57_55
.Lunix_path_BB57_74:
	cmp	x2, x20
	b.hs	.Lunix_path_BB57_56
	ldrb	w8, [x21, x2]
	cmp	w8, #47
	b.eq	.Lunix_path_BB57_73
	cmp	w8, #46
	b.ne	.Lunix_path_BB57_56
	add	x8, x2, #1
	cmp	x8, x20
	b.eq	.Lunix_path_BB57_73
	ldrb	w8, [x21, x8]
	cmp	w8, #47
	b.ne	.Lunix_path_BB57_56
	mov	w8, #2
	add	x2, x8, x2
	cmp	x2, #4
	b.lo	.Lunix_path_BB57_74
	b	.Lunix_path_BB57_55
.Lunix_path_BB57_80:
	mov	x0, x19
	ldp	x20, x19, [sp, #64]
	ldp	x22, x21, [sp, #48]
	ldp	x24, x23, [sp, #32]
	ldp	x26, x25, [sp, #16]
	ldp	x29, x30, [sp], #80
	ret
.Lunix_path_func_end57:
	.size	unix_path_key, .Lunix_path_func_end57-unix_path_key
	.section	.rodata.cst16,"aM",@progbits,16
	.p2align	4, 0x0
.Lunix_path_CPI58_0:
	.byte	1
	.byte	2
	.byte	4
	.byte	8
	.byte	16
	.byte	32
	.byte	64
	.byte	128
	.byte	1
	.byte	2
	.byte	4
	.byte	8
	.byte	16
	.byte	32
	.byte	64
	.byte	128
	.section	.text.unix_path_next,"ax",@progbits
	.globl	unix_path_next
	.p2align	2
	.type	unix_path_next,@function
unix_path_next:
	ldp	x9, x10, [x2]
	cmp	x0, #0
	mov	w11, #4096
	mov	w8, wzr
	csel	x12, x11, xzr, eq
	subs	x11, x10, x9
	add	x0, x0, x12
	cset	w13, lo
	cmp	x1, x10
	add	x10, x0, x9
	csinc	w12, w13, wzr, hs
	adrp	x13, .Lunix_path_static.0
	add	x13, x13, :lo12:.Lunix_path_static.0
	cmp	w12, #0
	csel	x10, x13, x10, ne
	tbnz	w12, #0, .Lunix_path_BB58_45
	cbz	x11, .Lunix_path_BB58_45
	stp	x29, x30, [sp, #-16]!
	ldrb	w8, [x10]
	mov	x29, sp
	cmp	w8, #47
	b.eq	.Lunix_path_BB58_10
	cmp	w8, #46
	b.ne	.Lunix_path_BB58_6
	subs	x12, x11, #1
	b.eq	.Lunix_path_BB58_10
	ldrb	w13, [x10, #1]
	cmp	w13, #47
	b.ne	.Lunix_path_BB58_7
	b	.Lunix_path_BB58_10
.Lunix_path_BB58_6:
	subs	x12, x11, #1
	b.eq	.Lunix_path_BB58_18
.Lunix_path_BB58_7:
	add	x12, x10, x12
	ldrb	w13, [x12]
	cmp	w13, #47
	b.eq	.Lunix_path_BB58_10
	cmp	w13, #46
	b.ne	.Lunix_path_BB58_11
	ldurb	w12, [x12, #-1]
	cmp	w12, #47
	b.ne	.Lunix_path_BB58_11
.Lunix_path_BB58_10:
	bl	unix_path_c.walks.take_first
	mov	w8, w0
	b	.Lunix_path_BB58_44
.Lunix_path_BB58_11:
	cmp	w8, #46
	b.ne	.Lunix_path_BB58_17
	ldrb	w8, [x10, #1]
	cmp	w8, #46
	b.ne	.Lunix_path_BB58_17
	subs	x12, x11, #2
	b.ne	.Lunix_path_BB58_15
	mov	w8, #2
	mov	w10, #2
	b	.Lunix_path_BB58_43
.Lunix_path_BB58_15:
	ldrb	w8, [x10, #2]
	cmp	w8, #47
	b.ne	.Lunix_path_BB58_17
	mov	x8, xzr
	sub	x11, x11, #3
	b	.Lunix_path_BB58_23
.Lunix_path_BB58_17:
	cmp	x11, #15
	b.hi	.Lunix_path_BB58_27
.Lunix_path_BB58_18:
	mov	x8, xzr
.Lunix_path_BB58_19:
	ldrb	w12, [x10, x8]
	cmp	w12, #47
	b.eq	.Lunix_path_BB58_33
	add	x8, x8, #1
	cmp	x11, x8
	b.ne	.Lunix_path_BB58_19
	mov	x8, x11
	b	.Lunix_path_BB58_33
.Lunix_path_BB58_22:
	add	x8, x8, #1
	cmp	x12, x8
	b.eq	.Lunix_path_BB58_46
.Lunix_path_BB58_23:
	add	x13, x10, x8
	ldrb	w13, [x13, #2]
	cmp	w13, #47
	b.eq	.Lunix_path_BB58_22
	cmp	w13, #46
	b.ne	.Lunix_path_BB58_47
	cmp	x11, x8
	b.eq	.Lunix_path_BB58_46
	add	x13, x10, x8
	ldrb	w13, [x13, #3]
	cmp	w13, #47
	b.eq	.Lunix_path_BB58_22
	b	.Lunix_path_BB58_47
.Lunix_path_BB58_27:
	subs	x8, x11, #16
	adrp	x12, .Lunix_path_CPI58_0
	b.eq	.Lunix_path_BB58_31
	mov	x13, xzr
.Lunix_path_BB58_29:
	movi	v0.16b, #47
	ldr	q1, [x10, x13]
	cmeq	v0.16b, v1.16b, v0.16b
	ldr	q1, [x12, :lo12:.Lunix_path_CPI58_0]
	and	v0.16b, v0.16b, v1.16b
	addp	v0.16b, v0.16b, v0.16b
	addp	v0.16b, v0.16b, v0.16b
	addp	v0.16b, v0.16b, v0.16b
	umov	w14, v0.h[0]
	orr	w14, w14, #0x10000
	rbit	w14, w14
	clz	w14, w14
	cmp	w14, #15
	b.ls	.Lunix_path_BB58_32
	add	x13, x13, #16
	cmp	x13, x8
	b.lo	.Lunix_path_BB58_29
.Lunix_path_BB58_31:
	movi	v0.16b, #47
	ldr	q1, [x10, x8]
	cmeq	v0.16b, v1.16b, v0.16b
	ldr	q1, [x12, :lo12:.Lunix_path_CPI58_0]
	and	v0.16b, v0.16b, v1.16b
	addp	v0.16b, v0.16b, v0.16b
	addp	v0.16b, v0.16b, v0.16b
	addp	v0.16b, v0.16b, v0.16b
	umov	w12, v0.h[0]
	orr	w12, w12, #0x10000
	rbit	w12, w12
	clz	w12, w12
	add	x8, x8, x12
	b	.Lunix_path_BB58_33
.Lunix_path_BB58_32:
	add	x8, x13, w14, uxtw
.Lunix_path_BB58_33:
	subs	x12, x11, x8
	b.eq	.Lunix_path_BB58_40
	mov	x11, xzr
	add	x10, x10, x8
	sub	x13, x12, #1
	b	.Lunix_path_BB58_36
.Lunix_path_BB58_35:
	add	x11, x11, #1
	cmp	x12, x11
	b.eq	.Lunix_path_BB58_41
.Lunix_path_BB58_36:
	ldrb	w14, [x10, x11]
	cmp	w14, #47
	b.eq	.Lunix_path_BB58_35
	cmp	w14, #46
	b.ne	.Lunix_path_BB58_42
	cmp	x13, x11
	b.eq	.Lunix_path_BB58_41
	add	x14, x10, x11
	ldrb	w14, [x14, #1]
	cmp	w14, #47
	b.eq	.Lunix_path_BB58_35
	b	.Lunix_path_BB58_42
.Lunix_path_BB58_40:
	mov	x11, xzr
	b	.Lunix_path_BB58_42
.Lunix_path_BB58_41:
	mov	x11, x12
.Lunix_path_BB58_42:
	add	x10, x11, x8
	mov	w11, #3
.Lunix_path_BB58_43:
	stp	x9, x8, [x3]
	stp	w11, wzr, [x3, #16]
	ldr	x8, [x2]
	add	x8, x8, x10
	str	x8, [x2]
	mov	w8, #1
.Lunix_path_BB58_44:
	ldp	x29, x30, [sp], #16
.Lunix_path_BB58_45:
	mov	w0, w8
	ret
.Lunix_path_BB58_46:
	mov	x8, x12
.Lunix_path_BB58_47:
	add	x10, x8, #2
	mov	w8, #2
	mov	w11, #2
	b	.Lunix_path_BB58_43
.Lunix_path_func_end58:
	.size	unix_path_next, .Lunix_path_func_end58-unix_path_next
	.section	.text.unix_path_next_ancestor,"ax",@progbits
	.globl	unix_path_next_ancestor
	.p2align	2
	.type	unix_path_next_ancestor,@function
unix_path_next_ancestor:
	stp	x29, x30, [sp, #-48]!
	stp	x20, x19, [sp, #32]
	ldr	x20, [x2]
	mov	x29, sp
	stp	x22, x21, [sp, #16]
	mov	x21, x1
	cmp	x1, x20
	b.lo	.Lunix_path_BB59_2
	cmp	x0, #0
	mov	w8, #4096
	mov	x1, x20
	csel	x8, x8, xzr, eq
	mov	x19, x3
	mov	x22, x2
	add	x0, x0, x8
	bl	unix_path.path.Path.parent_len
	and	w8, w0, #0xff
	cmp	w8, #1
	csinv	x8, x1, xzr, eq
	str	x8, [x22]
	stp	xzr, x20, [x19]
.Lunix_path_BB59_2:
	cmp	x21, x20
	ldp	x20, x19, [sp, #32]
	ldp	x22, x21, [sp, #16]
	cset	w0, hs
	ldp	x29, x30, [sp], #48
	ret
.Lunix_path_func_end59:
	.size	unix_path_next_ancestor, .Lunix_path_func_end59-unix_path_next_ancestor
	.section	.rodata.cst16,"aM",@progbits,16
	.p2align	4, 0x0
.Lunix_path_CPI60_0:
	.byte	1
	.byte	2
	.byte	4
	.byte	8
	.byte	16
	.byte	32
	.byte	64
	.byte	128
	.byte	1
	.byte	2
	.byte	4
	.byte	8
	.byte	16
	.byte	32
	.byte	64
	.byte	128
	.section	.rodata.cst8,"aM",@progbits,8
	.p2align	3, 0x0
.Lunix_path_CPI60_1:
	.word	3
	.word	0
	.section	.text.unix_path_next_back,"ax",@progbits
	.globl	unix_path_next_back
	.p2align	2
	.type	unix_path_next_back,@function
unix_path_next_back:
	ldp	x9, x11, [x2]
	cmp	x0, #0
	mov	w10, #4096
	mov	w8, wzr
	csel	x12, x10, xzr, eq
	subs	x10, x11, x9
	add	x0, x0, x12
	cset	w13, lo
	cmp	x1, x11
	add	x11, x0, x9
	csinc	w12, w13, wzr, hs
	adrp	x13, .Lunix_path_static.0
	add	x13, x13, :lo12:.Lunix_path_static.0
	cmp	w12, #0
	csel	x11, x13, x11, ne
	tbnz	w12, #0, .Lunix_path_BB60_18
	cbz	x10, .Lunix_path_BB60_18
	stp	x29, x30, [sp, #-16]!
	add	x8, x11, x10
	mov	x29, sp
	ldurb	w8, [x8, #-1]
	sub	w8, w8, #48
	cmn	w8, #3
	b.hi	.Lunix_path_BB60_14
	sub	x12, x11, #16
	mov	x8, x10
.Lunix_path_BB60_4:
	cmp	x8, #15
	b.ls	.Lunix_path_BB60_8
	movi	v0.16b, #47
	ldr	q1, [x12, x8]
	adrp	x13, .Lunix_path_CPI60_0
	cmeq	v0.16b, v1.16b, v0.16b
	ldr	q1, [x13, :lo12:.Lunix_path_CPI60_0]
	sub	x13, x8, #16
	mov	x8, x13
	and	v0.16b, v0.16b, v1.16b
	addp	v0.16b, v0.16b, v0.16b
	addp	v0.16b, v0.16b, v0.16b
	addp	v0.16b, v0.16b, v0.16b
	umov	w14, v0.h[0]
	cbz	w14, .Lunix_path_BB60_4
	umov	w8, v0.h[0]
	and	x8, x8, #0xffff
	clz	x8, x8
	sub	x8, x13, x8
	add	x8, x8, #64
	cmp	x8, #2
	b.hs	.Lunix_path_BB60_12
.Lunix_path_BB60_7:
	mov	w11, #1
	mov	w8, #1
	b	.Lunix_path_BB60_16
.Lunix_path_BB60_8:
	sub	x12, x11, #1
.Lunix_path_BB60_9:
	cbz	x8, .Lunix_path_BB60_15
	ldrb	w14, [x12, x8]
	sub	x13, x8, #1
	mov	x8, x13
	cmp	w14, #47
	b.ne	.Lunix_path_BB60_9
	add	x8, x13, #1
	cmp	x8, #2
	b.lo	.Lunix_path_BB60_7
.Lunix_path_BB60_12:
	add	x11, x11, x8
	ldurb	w11, [x11, #-2]
	sub	w11, w11, #48
	cmn	w11, #3
	b.hi	.Lunix_path_BB60_14
	sub	x11, x8, #1
	b	.Lunix_path_BB60_16
.Lunix_path_BB60_14:
	bl	unix_path_c.walks.take_last
	mov	w8, w0
	b	.Lunix_path_BB60_17
.Lunix_path_BB60_15:
	mov	x11, xzr
.Lunix_path_BB60_16:
	adrp	x12, .Lunix_path_CPI60_1
	add	x9, x8, x9
	sub	x8, x10, x8
	ldr	d0, [x12, :lo12:.Lunix_path_CPI60_1]
	stp	x9, x8, [x3]
	str	d0, [x3, #16]
	ldr	x8, [x2]
	add	x8, x8, x11
	str	x8, [x2, #8]
	mov	w8, #1
.Lunix_path_BB60_17:
	ldp	x29, x30, [sp], #16
.Lunix_path_BB60_18:
	mov	w0, w8
	ret
.Lunix_path_func_end60:
	.size	unix_path_next_back, .Lunix_path_func_end60-unix_path_next_back
	.section	.rodata.cst16,"aM",@progbits,16
	.p2align	4, 0x0
.Lunix_path_CPI61_0:
	.byte	1
	.byte	2
	.byte	4
	.byte	8
	.byte	16
	.byte	32
	.byte	64
	.byte	128
	.byte	1
	.byte	2
	.byte	4
	.byte	8
	.byte	16
	.byte	32
	.byte	64
	.byte	128
	.section	.text.unix_path_next_chunk,"ax",@progbits
	.globl	unix_path_next_chunk
	.p2align	2
	.type	unix_path_next_chunk,@function
unix_path_next_chunk:
	stp	x29, x30, [sp, #-48]!
	stp	x20, x19, [sp, #32]
	ldr	x19, [x2]
	mov	x29, sp
	str	x21, [sp, #16]
	cmp	x1, x19
	b.hs	.Lunix_path_BB61_2
	mov	w0, wzr
	ldp	x20, x19, [sp, #32]
	ldr	x21, [sp, #16]
	ldp	x29, x30, [sp], #48
	ret
.Lunix_path_BB61_2:
	cmp	x0, #0
	mov	w8, #4096
	csel	x8, x8, xzr, eq
	subs	x1, x1, x19
	b.ne	.Lunix_path_BB61_4
	mov	w0, wzr
	ldp	x20, x19, [sp, #32]
	ldr	x21, [sp, #16]
	ldp	x29, x30, [sp], #48
	ret
.Lunix_path_BB61_4:
	add	x8, x0, x8
	cmp	x1, #15
	add	x8, x8, x19
	b.hi	.Lunix_path_BB61_6
	mov	x0, x8
	mov	x20, x2
	mov	x2, xzr
	mov	x21, x3
	bl	unix_bytes.utf8.scans.scan_by_sequence
	mov	x3, x21
	mov	x2, x20
	b	.Lunix_path_BB61_17
.Lunix_path_BB61_6:
	ldr	q0, [x8]
	adrp	x9, .Lunix_path_CPI61_0
	ldr	q1, [x9, :lo12:.Lunix_path_CPI61_0]
	cmlt	v0.16b, v0.16b, #0
	and	v0.16b, v0.16b, v1.16b
	addp	v0.16b, v0.16b, v0.16b
	addp	v0.16b, v0.16b, v0.16b
	addp	v0.16b, v0.16b, v0.16b
	umov	w9, v0.h[0]
	cbz	w9, .Lunix_path_BB61_11
	umov	w9, v0.h[0]
	orr	w9, w9, #0x10000
	rbit	w9, w9
	clz	w0, w9
	add	x9, x8, x0
	ldrb	w10, [x9]
	sub	w11, w10, #194
	sub	x10, x1, x0
	cmp	w11, #50
	ccmp	x10, #2, #0, ls
	b.lo	.Lunix_path_BB61_10
	ldrsb	w9, [x9, #1]
	cmn	w9, #65
	b.gt	.Lunix_path_BB61_10
	mov	x9, x0
	mov	x20, x3
	mov	x21, x2
	mov	x0, x8
	mov	x2, x9
	cmp	x10, #31
	b.ls	.Lunix_path_BB61_13
	b	.Lunix_path_BB61_15
.Lunix_path_BB61_10:
	mov	w1, #1
	b	.Lunix_path_BB61_17
.Lunix_path_BB61_11:
	mov	x20, x3
	mov	x21, x2
	mov	x0, x8
	cmp	x1, #31
	b.hi	.Lunix_path_BB61_14
	mov	x2, xzr
.Lunix_path_BB61_13:
	bl	unix_bytes.utf8.scans.scan_by_sequence
	b	.Lunix_path_BB61_16
.Lunix_path_BB61_14:
	mov	x2, xzr
.Lunix_path_BB61_15:
	bl	unix_bytes.utf8.scans.scan_by_window
.Lunix_path_BB61_16:
	mov	x2, x21
	mov	x3, x20
.Lunix_path_BB61_17:
	add	x8, x0, x19
	stp	x19, x0, [x3]
	mov	w0, #1
	add	x8, x8, x1
	str	x1, [x3, #16]
	str	x8, [x2]
	ldp	x20, x19, [sp, #32]
	ldr	x21, [sp, #16]
	ldp	x29, x30, [sp], #48
	ret
.Lunix_path_func_end61:
	.size	unix_path_next_chunk, .Lunix_path_func_end61-unix_path_next_chunk
	.section	.text.unix_path_parent,"ax",@progbits
	.globl	unix_path_parent
	.p2align	2
	.type	unix_path_parent,@function
unix_path_parent:
	stp	x29, x30, [sp, #-32]!
	cmp	x0, #0
	mov	w8, #4096
	str	x19, [sp, #16]
	csel	x8, x8, xzr, eq
	mov	x29, sp
	mov	x19, x2
	add	x0, x0, x8
	bl	unix_path.path.Path.parent_len
	and	w8, w0, #0xff
	cmp	w8, #1
	b.ne	.Lunix_path_BB62_2
	stp	xzr, x1, [x19]
.Lunix_path_BB62_2:
	cmp	w8, #1
	ldr	x19, [sp, #16]
	cset	w0, eq
	ldp	x29, x30, [sp], #32
	ret
.Lunix_path_func_end62:
	.size	unix_path_parent, .Lunix_path_func_end62-unix_path_parent
	.section	.rodata.cst16,"aM",@progbits,16
	.p2align	4, 0x0
.Lunix_path_CPI63_0:
	.byte	1
	.byte	2
	.byte	4
	.byte	8
	.byte	16
	.byte	32
	.byte	64
	.byte	128
	.byte	1
	.byte	2
	.byte	4
	.byte	8
	.byte	16
	.byte	32
	.byte	64
	.byte	128
	.section	.rodata.cst8,"aM",@progbits,8
	.p2align	3, 0x0
.Lunix_path_CPI63_1:
	.byte	1
	.byte	2
	.byte	4
	.byte	8
	.byte	16
	.byte	32
	.byte	64
	.byte	128
	.section	.text.unix_path_relative_path,"ax",@progbits
	.globl	unix_path_relative_path
	.p2align	2
	.type	unix_path_relative_path,@function
unix_path_relative_path:
	sub	sp, sp, #288
	cmp	x0, #0
	mov	w8, #4096
	stp	x20, x19, [sp, #272]
	csel	x20, x8, xzr, eq
	cmp	x2, #0
	stp	x28, x27, [sp, #208]
	csel	x19, x8, xzr, eq
	cmp	x4, #0
	stp	x26, x25, [sp, #224]
	stp	x24, x23, [sp, #240]
	mov	x28, x4
	mov	x23, x0
	stp	x22, x21, [sp, #256]
	mov	x21, x3
	mov	x24, x2
	mov	x25, x1
	add	x11, x0, x20
	add	x9, x2, x19
	csel	x10, x8, xzr, eq
	stp	x29, x30, [sp, #192]
	add	x29, sp, #192
	cbz	x1, .Lunix_path_BB63_3
	ldrb	w8, [x11]
	cbz	x21, .Lunix_path_BB63_6
	ldrb	w9, [x9]
	cmp	w8, #47
	cset	w8, eq
	cmp	w9, #47
	cset	w9, eq
	eor	w8, w8, w9
	tbz	w8, #0, .Lunix_path_BB63_5
	b	.Lunix_path_BB63_24
.Lunix_path_BB63_3:
	cbz	x21, .Lunix_path_BB63_7
	ldrb	w8, [x9]
	cmp	w8, #47
	b.eq	.Lunix_path_BB63_24
.Lunix_path_BB63_5:
	add	x22, x24, x19
	mov	w26, wzr
	stp	x5, x10, [sp, #80]
	add	x0, x23, x20
	mov	x1, x25
	bl	path_within.outlined.is_names_only
	adrp	x27, .Lunix_path_CPI63_0
	cbnz	w0, .Lunix_path_BB63_8
	b	.Lunix_path_BB63_23
.Lunix_path_BB63_6:
	cmp	w8, #47
	b.eq	.Lunix_path_BB63_24
.Lunix_path_BB63_7:
	add	x22, x24, x19
	stp	x5, x10, [sp, #80]
	mov	w26, #1
	add	x0, x23, x20
	mov	x1, x25
	bl	path_within.outlined.is_names_only
	adrp	x27, .Lunix_path_CPI63_0
	cbz	w0, .Lunix_path_BB63_23
.Lunix_path_BB63_8:
	add	x0, x24, x19
	mov	x1, x21
	bl	path_within.outlined.is_names_only
	cbz	w0, .Lunix_path_BB63_23
	cmp	x21, x25
	csel	x8, x21, x25, lo
	cmp	x8, #15
	b.hi	.Lunix_path_BB63_38
	cmp	x8, #7
	mov	x14, x22
	add	x15, x23, x20
	b.hi	.Lunix_path_BB63_50
	cbz	x8, .Lunix_path_BB63_191
	ldrb	w9, [x15]
	ldrb	w10, [x14]
	cmp	w9, w10
	b.ne	.Lunix_path_BB63_190
	cmp	x8, #1
	b.eq	.Lunix_path_BB63_191
	ldrb	w9, [x15, #1]
	ldrb	w10, [x14, #1]
	cmp	w9, w10
	b.ne	.Lunix_path_BB63_446
	cmp	x8, #2
	b.eq	.Lunix_path_BB63_191
	ldrb	w9, [x15, #2]
	ldrb	w10, [x14, #2]
	cmp	w9, w10
	b.ne	.Lunix_path_BB63_448
	cmp	x8, #3
	b.eq	.Lunix_path_BB63_191
	ldrb	w9, [x15, #3]
	ldrb	w10, [x14, #3]
	cmp	w9, w10
	b.ne	.Lunix_path_BB63_449
	cmp	x8, #4
	b.eq	.Lunix_path_BB63_191
	ldrb	w9, [x15, #4]
	ldrb	w10, [x14, #4]
	cmp	w9, w10
	b.ne	.Lunix_path_BB63_450
	add	x9, x23, x20
	cmp	x8, #5
	b.ne	.Lunix_path_BB63_451
	add	x15, x23, x20
	b	.Lunix_path_BB63_191
.Lunix_path_BB63_23:
	sub	x0, x29, #80
	add	x1, x23, x20
	mov	x2, x25
	stp	xzr, xzr, [x29, #-72]
	stur	xzr, [x29, #-80]
	stp	xzr, xzr, [x29, #-24]
	stur	xzr, [x29, #-32]
	bl	path_within.backward.count_resolved
	sub	x0, x29, #32
	add	x1, x24, x19
	mov	x2, x21
	bl	path_within.backward.count_resolved
	ldur	x8, [x29, #-32]
	ldur	x9, [x29, #-80]
	subs	x8, x8, x9
	b.hs	.Lunix_path_BB63_25
.Lunix_path_BB63_24:
	mov	x0, #-8
	b	.Lunix_path_BB63_185
.Lunix_path_BB63_25:
	b.ls	.Lunix_path_BB63_28
	ldur	x10, [x29, #-72]
	ldp	x4, x9, [x29, #-24]
	mov	x17, x22
	add	x19, x8, x10
	ldr	x24, [sp, #88]
	mov	w10, wzr
	add	x11, x28, x24
	cbz	x19, .Lunix_path_BB63_161
.Lunix_path_BB63_27:
	sub	x8, x19, #1
	mov	x12, #6148914691236517205
	cmp	x8, x12
	csel	x8, x8, x12, lo
	add	x8, x8, x8, lsl #1
	adds	x8, x8, #2
	csinv	x8, x8, xzr, lo
	adds	x8, x9, x8
	csinv	x19, x8, xzr, lo
	ldr	x8, [sp, #80]
	cmp	x19, x8
	b.ls	.Lunix_path_BB63_163
	b	.Lunix_path_BB63_184
.Lunix_path_BB63_28:
	ldur	x8, [x29, #-72]
	add	x17, x24, x19
	stur	x8, [x29, #-88]
	ldur	x8, [x29, #-24]
	str	x8, [sp, #96]
	cbz	x25, .Lunix_path_BB63_47
	add	x18, x23, x20
	add	x8, x18, x25
	ldurb	w8, [x8, #-1]
	and	w8, w8, #0xfe
	cmp	w8, #46
	b.ne	.Lunix_path_BB63_52
	mov	x22, x25
	b	.Lunix_path_BB63_32
.Lunix_path_BB63_31:
	mov	x22, x1
	cbz	x1, .Lunix_path_BB63_48
.Lunix_path_BB63_32:
	subs	x1, x22, #1
	b.eq	.Lunix_path_BB63_48
	add	x8, x18, x1
	ldrb	w9, [x8]
	cmp	w9, #47
	b.eq	.Lunix_path_BB63_36
	cmp	w9, #46
	b.ne	.Lunix_path_BB63_48
	ldurb	w8, [x8, #-1]
	cmp	w8, #47
	b.ne	.Lunix_path_BB63_48
.Lunix_path_BB63_36:
	sub	x8, x25, x1
	cmp	x8, #8
	b.ne	.Lunix_path_BB63_31
	add	x0, x23, x20
	bl	unix_path.filler.trimmed_blocks_len
	add	x18, x23, x20
	add	x17, x24, x19
	mov	x1, x0
	b	.Lunix_path_BB63_31
.Lunix_path_BB63_38:
	cmp	x8, #64
	sub	x9, x8, #16
	mov	x14, x22
	add	x15, x23, x20
	mov	x10, xzr
	b.lo	.Lunix_path_BB63_45
	and	x11, x8, #0xffffffffffffffc0
.Lunix_path_BB63_40:
	add	x12, x15, x10
	add	x13, x14, x10
	ldp	q0, q1, [x12]
	ldp	q2, q3, [x12, #32]
	ldp	q4, q5, [x13]
	ldp	q6, q7, [x13, #32]
	cmeq	v0.16b, v0.16b, v4.16b
	cmeq	v1.16b, v1.16b, v5.16b
	ldr	q4, [x27, :lo12:.Lunix_path_CPI63_0]
	cmeq	v3.16b, v3.16b, v7.16b
	cmeq	v2.16b, v2.16b, v6.16b
	bic	v0.16b, v4.16b, v0.16b
	bic	v1.16b, v4.16b, v1.16b
	bic	v2.16b, v4.16b, v2.16b
	bic	v3.16b, v4.16b, v3.16b
	addp	v0.16b, v0.16b, v1.16b
	addp	v1.16b, v2.16b, v3.16b
	addp	v0.16b, v0.16b, v1.16b
	addp	v0.16b, v0.16b, v0.16b
	fmov	x12, d0
	cbnz	x12, .Lunix_path_BB63_45
	sub	x8, x8, #64
	add	x10, x10, #64
	cmp	x8, #63
	b.hi	.Lunix_path_BB63_40
	mov	x10, x11
	b	.Lunix_path_BB63_45
.Lunix_path_BB63_43:
	ldr	q0, [x15, x10]
	ldr	q1, [x14, x10]
	cmeq	v0.16b, v0.16b, v1.16b
	ldr	q1, [x27, :lo12:.Lunix_path_CPI63_0]
	bic	v0.16b, v1.16b, v0.16b
	addp	v0.16b, v0.16b, v0.16b
	addp	v0.16b, v0.16b, v0.16b
	addp	v0.16b, v0.16b, v0.16b
	umov	w8, v0.h[0]
	orr	w8, w8, #0x10000
	rbit	w8, w8
	clz	w8, w8
	cmp	w8, #15
	b.ls	.Lunix_path_BB63_186
	add	x10, x10, #16
.Lunix_path_BB63_45:
	cmp	x10, x9
	b.lo	.Lunix_path_BB63_43
	ldr	q0, [x15, x9]
	ldr	q1, [x14, x9]
	cmeq	v0.16b, v0.16b, v1.16b
	ldr	q1, [x27, :lo12:.Lunix_path_CPI63_0]
	bic	v0.16b, v1.16b, v0.16b
	addp	v0.16b, v0.16b, v0.16b
	addp	v0.16b, v0.16b, v0.16b
	addp	v0.16b, v0.16b, v0.16b
	umov	w8, v0.h[0]
	orr	w8, w8, #0x10000
	rbit	w8, w8
	clz	w8, w8
	add	x8, x9, x8
	b	.Lunix_path_BB63_191
.Lunix_path_BB63_47:
	mov	x22, xzr
	add	x18, x23, x20
.Lunix_path_BB63_48:
	tbz	w26, #0, .Lunix_path_BB63_53
.Lunix_path_BB63_49:
	mov	x25, xzr
	b	.Lunix_path_BB63_62
.Lunix_path_BB63_50:
	ldr	d0, [x15]
	ldr	d1, [x14]
	adrp	x9, .Lunix_path_CPI63_1
	cmeq	v1.8b, v0.8b, v1.8b
	ldr	d0, [x9, :lo12:.Lunix_path_CPI63_1]
	bic	v1.8b, v0.8b, v1.8b
	addv	b1, v1.8b
	fmov	w9, s1
	orr	w9, w9, #0x100
	rbit	w9, w9
	clz	w9, w9
	cmp	w9, #8
	b.hs	.Lunix_path_BB63_187
	mov	x8, x9
	b	.Lunix_path_BB63_191
.Lunix_path_BB63_52:
	mov	x22, x25
	tbnz	w26, #0, .Lunix_path_BB63_49
.Lunix_path_BB63_53:
	add	x8, x17, x21
	mov	x25, x21
	ldurb	w8, [x8, #-1]
	and	w8, w8, #0xfe
	cmp	w8, #46
	b.ne	.Lunix_path_BB63_62
	mov	x25, x21
	b	.Lunix_path_BB63_56
.Lunix_path_BB63_55:
	mov	x25, x1
	cbz	x1, .Lunix_path_BB63_62
.Lunix_path_BB63_56:
	subs	x1, x25, #1
	b.eq	.Lunix_path_BB63_62
	add	x8, x17, x1
	ldrb	w9, [x8]
	cmp	w9, #47
	b.eq	.Lunix_path_BB63_60
	cmp	w9, #46
	b.ne	.Lunix_path_BB63_62
	ldurb	w8, [x8, #-1]
	cmp	w8, #47
	b.ne	.Lunix_path_BB63_62
.Lunix_path_BB63_60:
	sub	x8, x21, x1
	cmp	x8, #8
	b.ne	.Lunix_path_BB63_55
	add	x0, x24, x19
	bl	unix_path.filler.trimmed_blocks_len
	add	x18, x23, x20
	add	x17, x24, x19
	mov	x1, x0
	b	.Lunix_path_BB63_55
.Lunix_path_BB63_62:
	ldur	x8, [x29, #-88]
	ldr	x9, [sp, #96]
	subs	x9, x8, x9
	b.ls	.Lunix_path_BB63_84
	add	x11, x20, x23
	mov	w8, wzr
	sub	x10, x11, #16
	sub	x11, x11, #1
.Lunix_path_BB63_64:
	tbnz	w8, #0, .Lunix_path_BB63_447
	mov	x12, xzr
	b	.Lunix_path_BB63_68
.Lunix_path_BB63_66:
	add	x12, x12, #1
.Lunix_path_BB63_67:
	cbz	x13, .Lunix_path_BB63_85
.Lunix_path_BB63_68:
	mov	x8, x22
.Lunix_path_BB63_69:
	cmp	x8, #15
	b.ls	.Lunix_path_BB63_72
	movi	v0.16b, #47
	ldr	q1, [x10, x8]
	sub	x13, x8, #16
	mov	x8, x13
	cmeq	v0.16b, v1.16b, v0.16b
	ldr	q1, [x27, :lo12:.Lunix_path_CPI63_0]
	and	v0.16b, v0.16b, v1.16b
	addp	v0.16b, v0.16b, v0.16b
	addp	v0.16b, v0.16b, v0.16b
	addp	v0.16b, v0.16b, v0.16b
	umov	w14, v0.h[0]
	cbz	w14, .Lunix_path_BB63_69
	umov	w8, v0.h[0]
	and	x8, x8, #0xffff
	clz	x8, x8
	sub	x8, x13, x8
	add	x13, x8, #64
	cmp	x13, #0
	cset	w14, ne
	cset	w8, eq
	subs	x15, x22, x13
	sub	x22, x13, x14
	b.ne	.Lunix_path_BB63_76
	b	.Lunix_path_BB63_67
.Lunix_path_BB63_72:
	cbz	x8, .Lunix_path_BB63_75
	ldrb	w14, [x11, x8]
	sub	x13, x8, #1
	mov	x8, x13
	cmp	w14, #47
	b.ne	.Lunix_path_BB63_72
	add	x13, x13, #1
	cmp	x13, #0
	cset	w14, ne
	cset	w8, eq
	subs	x15, x22, x13
	sub	x22, x13, x14
	b.ne	.Lunix_path_BB63_76
	b	.Lunix_path_BB63_67
.Lunix_path_BB63_75:
	mov	x13, xzr
	cmp	x13, #0
	cset	w14, ne
	cset	w8, eq
	subs	x15, x22, xzr
	neg	x22, x14
	b.eq	.Lunix_path_BB63_67
.Lunix_path_BB63_76:
	cmp	x15, #1
	add	x14, x18, x13
	b.ne	.Lunix_path_BB63_78
	ldrb	w14, [x14]
	cmp	w14, #46
	b.eq	.Lunix_path_BB63_67
	b	.Lunix_path_BB63_81
.Lunix_path_BB63_78:
	cmp	x15, #2
	b.hi	.Lunix_path_BB63_81
	ldrb	w15, [x14]
	cmp	w15, #46
	b.ne	.Lunix_path_BB63_81
	ldrb	w14, [x14, #1]
	cmp	w14, #46
	b.eq	.Lunix_path_BB63_66
.Lunix_path_BB63_81:
	cbz	x12, .Lunix_path_BB63_83
	sub	x12, x12, #1
	b	.Lunix_path_BB63_67
.Lunix_path_BB63_83:
	subs	x9, x9, #1
	b.ne	.Lunix_path_BB63_64
	b	.Lunix_path_BB63_86
.Lunix_path_BB63_84:
	mov	w8, wzr
	ldur	x9, [x29, #-88]
	ldr	x10, [sp, #96]
	mov	w26, wzr
	mov	x3, xzr
	subs	x9, x10, x9
	b.hi	.Lunix_path_BB63_87
	b	.Lunix_path_BB63_109
.Lunix_path_BB63_85:
	mov	w8, #1
.Lunix_path_BB63_86:
	ldur	x9, [x29, #-88]
	ldr	x10, [sp, #96]
	mov	w26, wzr
	mov	x3, xzr
	subs	x9, x10, x9
	b.ls	.Lunix_path_BB63_109
.Lunix_path_BB63_87:
	add	x11, x19, x24
	sub	x10, x11, #16
	sub	x11, x11, #1
.Lunix_path_BB63_88:
	tbnz	w26, #0, .Lunix_path_BB63_108
	mov	x12, xzr
	b	.Lunix_path_BB63_92
.Lunix_path_BB63_90:
	add	x12, x12, #1
.Lunix_path_BB63_91:
	cbz	x13, .Lunix_path_BB63_108
.Lunix_path_BB63_92:
	mov	x13, x25
.Lunix_path_BB63_93:
	cmp	x13, #15
	b.ls	.Lunix_path_BB63_96
	movi	v0.16b, #47
	ldr	q1, [x10, x13]
	sub	x14, x13, #16
	mov	x13, x14
	cmeq	v0.16b, v1.16b, v0.16b
	ldr	q1, [x27, :lo12:.Lunix_path_CPI63_0]
	and	v0.16b, v0.16b, v1.16b
	addp	v0.16b, v0.16b, v0.16b
	addp	v0.16b, v0.16b, v0.16b
	addp	v0.16b, v0.16b, v0.16b
	umov	w15, v0.h[0]
	cbz	w15, .Lunix_path_BB63_93
	umov	w13, v0.h[0]
	and	x13, x13, #0xffff
	clz	x13, x13
	sub	x13, x14, x13
	add	x13, x13, #64
	b	.Lunix_path_BB63_99
.Lunix_path_BB63_96:
	cbz	x13, .Lunix_path_BB63_99
	ldrb	w15, [x11, x13]
	sub	x14, x13, #1
	mov	x13, x14
	cmp	w15, #47
	b.ne	.Lunix_path_BB63_96
	add	x13, x14, #1
.Lunix_path_BB63_99:
	cmp	x13, #0
	cset	w15, ne
	cset	w26, eq
	subs	x14, x25, x13
	sub	x25, x13, x15
	b.eq	.Lunix_path_BB63_91
	cmp	x14, #1
	add	x15, x17, x13
	b.ne	.Lunix_path_BB63_102
	ldrb	w15, [x15]
	cmp	w15, #46
	b.eq	.Lunix_path_BB63_91
	b	.Lunix_path_BB63_105
.Lunix_path_BB63_102:
	cmp	x14, #2
	b.hi	.Lunix_path_BB63_105
	ldrb	w16, [x15]
	cmp	w16, #46
	b.ne	.Lunix_path_BB63_105
	ldrb	w15, [x15, #1]
	cmp	w15, #46
	b.eq	.Lunix_path_BB63_90
.Lunix_path_BB63_105:
	cbz	x12, .Lunix_path_BB63_107
	sub	x12, x12, #1
	b	.Lunix_path_BB63_91
.Lunix_path_BB63_107:
	add	x12, x3, x14
	subs	x9, x9, #1
	add	x3, x12, #1
	b.ne	.Lunix_path_BB63_88
	b	.Lunix_path_BB63_109
.Lunix_path_BB63_108:
	mov	w26, #1
.Lunix_path_BB63_109:
	ldur	x9, [x29, #-88]
	ldr	x10, [sp, #96]
	str	x28, [sp, #72]
	cmp	x10, x9
	csel	x13, x10, x9, lo
	tbz	w8, #0, .Lunix_path_BB63_111
	mov	x9, x3
	mov	x11, x13
	b	.Lunix_path_BB63_160
.Lunix_path_BB63_111:
	add	x14, x23, x20
	add	x15, x24, x19
	mov	x4, x13
	sub	x23, x14, #16
	sub	x24, x14, #1
	sub	x20, x15, #16
	sub	x19, x15, #1
	mov	x5, x3
.Lunix_path_BB63_112:
	mov	x9, xzr
	b	.Lunix_path_BB63_114
.Lunix_path_BB63_113:
	cbz	x28, .Lunix_path_BB63_159
.Lunix_path_BB63_114:
	mov	x8, x22
.Lunix_path_BB63_115:
	cmp	x8, #15
	b.ls	.Lunix_path_BB63_118
	movi	v0.16b, #47
	ldr	q1, [x23, x8]
	sub	x10, x8, #16
	mov	x8, x10
	cmeq	v0.16b, v1.16b, v0.16b
	ldr	q1, [x27, :lo12:.Lunix_path_CPI63_0]
	and	v0.16b, v0.16b, v1.16b
	addp	v0.16b, v0.16b, v0.16b
	addp	v0.16b, v0.16b, v0.16b
	addp	v0.16b, v0.16b, v0.16b
	umov	w11, v0.h[0]
	cbz	w11, .Lunix_path_BB63_115
	umov	w8, v0.h[0]
	and	x8, x8, #0xffff
	clz	x8, x8
	sub	x8, x10, x8
	add	x28, x8, #64
	cmp	x28, #0
	cset	w8, ne
	subs	x1, x22, x28
	sub	x22, x28, x8
	b.ne	.Lunix_path_BB63_122
	b	.Lunix_path_BB63_113
.Lunix_path_BB63_118:
	cbz	x8, .Lunix_path_BB63_121
	ldrb	w11, [x24, x8]
	sub	x10, x8, #1
	mov	x8, x10
	cmp	w11, #47
	b.ne	.Lunix_path_BB63_118
	add	x28, x10, #1
	cmp	x28, #0
	cset	w8, ne
	subs	x1, x22, x28
	sub	x22, x28, x8
	b.ne	.Lunix_path_BB63_122
	b	.Lunix_path_BB63_113
.Lunix_path_BB63_121:
	mov	x28, xzr
	cmp	x28, #0
	cset	w8, ne
	subs	x1, x22, xzr
	neg	x22, x8
	b.eq	.Lunix_path_BB63_113
.Lunix_path_BB63_122:
	cmp	x1, #1
	add	x8, x18, x28
	b.ne	.Lunix_path_BB63_124
	ldrb	w10, [x8]
	cmp	w10, #46
	b.eq	.Lunix_path_BB63_113
	b	.Lunix_path_BB63_128
.Lunix_path_BB63_124:
	cmp	x1, #2
	b.hi	.Lunix_path_BB63_128
	ldrb	w10, [x8]
	cmp	w10, #46
	b.ne	.Lunix_path_BB63_128
	ldrb	w10, [x8, #1]
	cmp	w10, #46
	b.ne	.Lunix_path_BB63_128
	add	x9, x9, #1
	cbnz	x28, .Lunix_path_BB63_114
	b	.Lunix_path_BB63_159
.Lunix_path_BB63_128:
	cbz	x9, .Lunix_path_BB63_130
	sub	x9, x9, #1
	b	.Lunix_path_BB63_113
.Lunix_path_BB63_130:
	tbnz	w26, #0, .Lunix_path_BB63_159
	mov	x9, xzr
	b	.Lunix_path_BB63_134
.Lunix_path_BB63_132:
	add	x9, x9, #1
.Lunix_path_BB63_133:
	cbz	x10, .Lunix_path_BB63_159
.Lunix_path_BB63_134:
	mov	x10, x25
.Lunix_path_BB63_135:
	cmp	x10, #15
	b.ls	.Lunix_path_BB63_138
	movi	v0.16b, #47
	ldr	q1, [x20, x10]
	sub	x11, x10, #16
	mov	x10, x11
	cmeq	v0.16b, v1.16b, v0.16b
	ldr	q1, [x27, :lo12:.Lunix_path_CPI63_0]
	and	v0.16b, v0.16b, v1.16b
	addp	v0.16b, v0.16b, v0.16b
	addp	v0.16b, v0.16b, v0.16b
	addp	v0.16b, v0.16b, v0.16b
	umov	w12, v0.h[0]
	cbz	w12, .Lunix_path_BB63_135
	umov	w10, v0.h[0]
	and	x10, x10, #0xffff
	clz	x10, x10
	sub	x10, x11, x10
	add	x10, x10, #64
	b	.Lunix_path_BB63_141
.Lunix_path_BB63_138:
	cbz	x10, .Lunix_path_BB63_141
	ldrb	w12, [x19, x10]
	sub	x11, x10, #1
	mov	x10, x11
	cmp	w12, #47
	b.ne	.Lunix_path_BB63_138
	add	x10, x11, #1
.Lunix_path_BB63_141:
	cmp	x10, #0
	cset	w12, ne
	cset	w26, eq
	subs	x11, x25, x10
	sub	x25, x10, x12
	b.eq	.Lunix_path_BB63_133
	cmp	x11, #1
	add	x2, x17, x10
	b.ne	.Lunix_path_BB63_144
	ldrb	w12, [x2]
	cmp	w12, #46
	b.eq	.Lunix_path_BB63_133
	b	.Lunix_path_BB63_147
.Lunix_path_BB63_144:
	cmp	x11, #2
	b.hi	.Lunix_path_BB63_147
	ldrb	w12, [x2]
	cmp	w12, #46
	b.ne	.Lunix_path_BB63_147
	ldrb	w12, [x2, #1]
	cmp	w12, #46
	b.eq	.Lunix_path_BB63_132
.Lunix_path_BB63_147:
	cbz	x9, .Lunix_path_BB63_149
	sub	x9, x9, #1
	cbnz	x10, .Lunix_path_BB63_134
	b	.Lunix_path_BB63_159
.Lunix_path_BB63_149:
	add	x9, x3, x11
	sub	x13, x13, #1
	cmp	x1, x11
	add	x3, x9, #1
	mov	x11, x13
	mov	x9, x3
	b.ne	.Lunix_path_BB63_158
	cmp	x1, #3
	b.hi	.Lunix_path_BB63_154
	mov	x8, xzr
	add	x9, x15, x10
	add	x10, x14, x28
.Lunix_path_BB63_152:
	ldrb	w11, [x10, x8]
	ldrb	w12, [x9, x8]
	cmp	w11, w12
	b.ne	.Lunix_path_BB63_156
	add	x8, x8, #1
	cmp	x1, x8
	b.ne	.Lunix_path_BB63_152
	b	.Lunix_path_BB63_157
.Lunix_path_BB63_154:
	ldr	w8, [x8]
	ldr	w9, [x2]
	mov	x11, x13
	cmp	w8, w9
	mov	x9, x3
	b.ne	.Lunix_path_BB63_158
	add	x0, x18, x28
	stp	x18, x17, [sp, #56]
	stp	x13, x3, [sp, #40]
	stp	x15, x14, [sp, #24]
	stp	x5, x4, [sp, #8]
	bl	core.cmp.slices.groups_equal.i8.31.core.cmp.numbers.U8PartialEq.
	ldp	x13, x3, [sp, #40]
	ldp	x5, x4, [sp, #8]
	ldp	x15, x14, [sp, #24]
	ldp	x18, x17, [sp, #56]
	mov	x9, x3
	mov	x11, x13
	cbnz	w0, .Lunix_path_BB63_157
	b	.Lunix_path_BB63_158
.Lunix_path_BB63_156:
	cmp	x8, x1
	mov	x9, x3
	mov	x11, x13
	b.lo	.Lunix_path_BB63_158
.Lunix_path_BB63_157:
	mov	x9, x5
	mov	x11, x4
.Lunix_path_BB63_158:
	mov	x4, x11
	mov	x5, x9
	cbnz	x28, .Lunix_path_BB63_112
	b	.Lunix_path_BB63_160
.Lunix_path_BB63_159:
	mov	x9, x5
	mov	x11, x4
.Lunix_path_BB63_160:
	ldp	x24, x8, [sp, #88]
	ldr	x28, [sp, #72]
	sub	x4, x8, x11
	ldur	x8, [x29, #-88]
	sub	x19, x8, x11
	mov	w10, wzr
	add	x11, x28, x24
	cbnz	x19, .Lunix_path_BB63_27
.Lunix_path_BB63_161:
	cbz	x9, .Lunix_path_BB63_166
	sub	x19, x9, #1
	ldr	x8, [sp, #80]
	cmp	x19, x8
	b.hi	.Lunix_path_BB63_184
.Lunix_path_BB63_163:
	add	x8, x19, #1
	tbnz	w10, #0, .Lunix_path_BB63_168
	cbz	x9, .Lunix_path_BB63_177
	add	x0, x28, x24
	add	x1, x19, #1
	mov	x2, x17
	mov	x3, x21
	bl	path_within.backward.put_names_before
	mov	x20, x0
	subs	x8, x0, #3
	b.lo	.Lunix_path_BB63_184
	b	.Lunix_path_BB63_178
.Lunix_path_BB63_166:
	mov	x19, xzr
	tbz	w10, #0, .Lunix_path_BB63_184
	mov	w8, #1
.Lunix_path_BB63_168:
	mvn	x9, x21
	add	x20, x8, x9
	add	x23, x11, x20
	sub	x9, x23, x17
	cmp	x9, x21
	b.hs	.Lunix_path_BB63_174
	cmp	x21, #8
	b.lo	.Lunix_path_BB63_171
	add	x9, x24, x8
	sub	x10, x21, x28
	sub	x9, x10, x9
	add	x9, x9, x17
	cmn	x9, #33
	b.ls	.Lunix_path_BB63_188
.Lunix_path_BB63_171:
	mov	x9, xzr
.Lunix_path_BB63_172:
	add	x10, x24, x9
	mvn	x11, x21
	add	x10, x10, x8
	add	x11, x28, x11
	sub	x8, x21, x9
	add	x9, x17, x9
	add	x10, x11, x10
.Lunix_path_BB63_173:
	ldrb	w11, [x9], #1
	subs	x8, x8, #1
	strb	w11, [x10], #1
	b.ne	.Lunix_path_BB63_173
	b	.Lunix_path_BB63_175
.Lunix_path_BB63_174:
	mov	x0, x23
	mov	x1, x17
	mov	x2, x21
	bl	memmove
.Lunix_path_BB63_175:
	cbz	x20, .Lunix_path_BB63_184
	mov	w8, #47
	sturb	w8, [x23, #-1]
	subs	x8, x20, #3
	b.lo	.Lunix_path_BB63_184
	b	.Lunix_path_BB63_178
.Lunix_path_BB63_177:
	add	x20, x19, #1
	subs	x8, x20, #3
	b.lo	.Lunix_path_BB63_184
.Lunix_path_BB63_178:
	mov	x9, #-6148914691236517206
	movk	x9, #43691
	umulh	x9, x8, x9
	lsr	x10, x9, #1
	add	x9, x24, x20
	add	x9, x9, x28
	sub	x9, x9, #4
	add	x10, x10, #1
	b	.Lunix_path_BB63_182
.Lunix_path_BB63_179:
	mov	w12, #11822
	strh	w12, [x11]
	cbz	x8, .Lunix_path_BB63_181
.Lunix_path_BB63_180:
	mov	w11, #47
	strb	w11, [x9]
.Lunix_path_BB63_181:
	sub	x10, x10, #1
	sub	x9, x9, #3
	sub	x8, x8, #3
	cbz	x10, .Lunix_path_BB63_184
.Lunix_path_BB63_182:
	add	x11, x9, #1
	adrp	x12, .Lunix_path_static.10
	add	x12, x12, :lo12:.Lunix_path_static.10
	sub	x12, x11, x12
	cmp	x12, #1
	b.hi	.Lunix_path_BB63_179
	mov	w11, #11822
	sturh	w11, [x9, #1]
	cbnz	x8, .Lunix_path_BB63_180
	b	.Lunix_path_BB63_181
.Lunix_path_BB63_184:
	mov	x8, #-9223372036854775808
	cmp	x19, x8
	csel	x0, x19, x8, lo
.Lunix_path_BB63_185:
	ldp	x20, x19, [sp, #272]
	ldp	x22, x21, [sp, #256]
	ldp	x24, x23, [sp, #240]
	ldp	x26, x25, [sp, #224]
	ldp	x28, x27, [sp, #208]
	ldp	x29, x30, [sp, #192]
	add	sp, sp, #288
	ret
.Lunix_path_BB63_186:
	add	x8, x10, w8, uxtw
	b	.Lunix_path_BB63_191
.Lunix_path_BB63_187:
	sub	x8, x8, #8
	ldr	d1, [x15, x8]
	ldr	d2, [x14, x8]
	cmeq	v1.8b, v1.8b, v2.8b
	bic	v0.8b, v0.8b, v1.8b
	addv	b0, v0.8b
	fmov	w9, s0
	orr	w9, w9, #0x100
	rbit	w9, w9
	clz	w9, w9
	add	x8, x8, x9
	b	.Lunix_path_BB63_191
.Lunix_path_BB63_188:
	cmp	x21, #32
	b.hs	.Lunix_path_BB63_439
	mov	x9, xzr
	b	.Lunix_path_BB63_443
.Lunix_path_BB63_190:
	mov	x8, xzr
.Lunix_path_BB63_191:
	add	x9, x20, x23
	sub	x9, x9, #16
.Lunix_path_BB63_192:
	cmp	x8, #15
	b.ls	.Lunix_path_BB63_195
	movi	v0.16b, #47
	ldr	q1, [x9, x8]
	sub	x10, x8, #16
	mov	x8, x10
	cmeq	v0.16b, v1.16b, v0.16b
	ldr	q1, [x27, :lo12:.Lunix_path_CPI63_0]
	and	v0.16b, v0.16b, v1.16b
	addp	v0.16b, v0.16b, v0.16b
	addp	v0.16b, v0.16b, v0.16b
	addp	v0.16b, v0.16b, v0.16b
	umov	w11, v0.h[0]
	cbz	w11, .Lunix_path_BB63_192
	umov	w8, v0.h[0]
	and	x8, x8, #0xffff
	clz	x8, x8
	sub	x8, x10, x8
	add	x19, x8, #64
	cmp	x25, x19
	b.hi	.Lunix_path_BB63_200
	b	.Lunix_path_BB63_216
.Lunix_path_BB63_195:
	add	x9, x20, x23
	sub	x9, x9, #1
.Lunix_path_BB63_196:
	cbz	x8, .Lunix_path_BB63_199
	ldrb	w11, [x9, x8]
	sub	x10, x8, #1
	mov	x8, x10
	cmp	w11, #47
	b.ne	.Lunix_path_BB63_196
	add	x19, x10, #1
	cmp	x25, x19
	b.hi	.Lunix_path_BB63_200
	b	.Lunix_path_BB63_216
.Lunix_path_BB63_199:
	mov	x19, xzr
	cmp	x25, xzr
	b.ls	.Lunix_path_BB63_216
.Lunix_path_BB63_200:
	ldrb	w8, [x15, x19]
	cmp	w8, #47
	b.eq	.Lunix_path_BB63_216
	cmp	w8, #46
	b.ne	.Lunix_path_BB63_208
	add	x8, x19, #1
	cmp	x25, x8
	b.ls	.Lunix_path_BB63_216
	ldrb	w8, [x15, x8]
	cmp	w8, #47
	b.eq	.Lunix_path_BB63_216
	cmp	w8, #46
	b.ne	.Lunix_path_BB63_208
	add	x8, x19, #2
	cmp	x25, x8
	b.ls	.Lunix_path_BB63_216
	cmp	x21, x19
	b.ls	.Lunix_path_BB63_216
	ldrb	w8, [x15, x8]
	cmp	w8, #47
	b.ne	.Lunix_path_BB63_209
	b	.Lunix_path_BB63_216
.Lunix_path_BB63_208:
	cmp	x21, x19
	b.ls	.Lunix_path_BB63_216
.Lunix_path_BB63_209:
	ldrb	w8, [x14, x19]
	cmp	w8, #47
	b.eq	.Lunix_path_BB63_216
	cmp	w8, #46
	b.ne	.Lunix_path_BB63_217
	add	x8, x19, #1
	cmp	x21, x8
	b.ls	.Lunix_path_BB63_216
	ldrb	w8, [x14, x8]
	cmp	w8, #47
	b.eq	.Lunix_path_BB63_216
	cmp	w8, #46
	b.ne	.Lunix_path_BB63_217
	add	x8, x19, #2
	cmp	x21, x8
	b.ls	.Lunix_path_BB63_216
	ldrb	w8, [x14, x8]
	cmp	w8, #47
	b.ne	.Lunix_path_BB63_217
.Lunix_path_BB63_216:
	mov	x19, xzr
.Lunix_path_BB63_217:
	subs	x20, x25, x19
	add	x15, x15, x19
	str	x28, [sp, #72]
	stur	x15, [x29, #-88]
	b.eq	.Lunix_path_BB63_222
	ldrb	w8, [x15]
	cmp	w8, #47
	b.eq	.Lunix_path_BB63_221
	cmp	w8, #46
	b.ne	.Lunix_path_BB63_364
	cmp	x20, #1
	b.ne	.Lunix_path_BB63_421
.Lunix_path_BB63_221:
	mov	w25, #257
	b	.Lunix_path_BB63_422
.Lunix_path_BB63_222:
	mov	x25, xzr
	mov	x28, xzr
.Lunix_path_BB63_223:
	subs	x20, x21, x19
	add	x17, x14, x19
	str	x17, [sp, #96]
	b.eq	.Lunix_path_BB63_228
	ldrb	w8, [x17]
	cmp	w8, #47
	b.eq	.Lunix_path_BB63_227
	cmp	w8, #46
	b.ne	.Lunix_path_BB63_365
	cmp	x20, #1
	b.ne	.Lunix_path_BB63_430
.Lunix_path_BB63_227:
	mov	w22, wzr
	b	.Lunix_path_BB63_431
.Lunix_path_BB63_228:
	mov	x26, xzr
	mov	w22, #1
.Lunix_path_BB63_229:
	mov	x19, xzr
	mov	x24, xzr
	b	.Lunix_path_BB63_231
.Lunix_path_BB63_230:
	cmp	xzr, x1
	b.lo	.Lunix_path_BB63_353
.Lunix_path_BB63_231:
	subs	x20, x28, x19
	add	x23, x15, x19
	b.eq	.Lunix_path_BB63_239
	tbnz	w25, #8, .Lunix_path_BB63_248
	cmp	x20, #1
	b.eq	.Lunix_path_BB63_265
	ldrb	w8, [x23]
	cmp	w8, #46
	b.ne	.Lunix_path_BB63_265
	ldrb	w8, [x23, #1]
	cmp	w8, #46
	b.ne	.Lunix_path_BB63_265
	subs	x9, x20, #2
	b.ne	.Lunix_path_BB63_263
	subs	x21, x26, x24
	add	x16, x17, x24
	b.eq	.Lunix_path_BB63_353
	mov	x1, xzr
	mov	x25, xzr
	mov	x0, xzr
	add	x19, x19, #2
	mov	w8, #2
	tbz	w22, #0, .Lunix_path_BB63_241
	b	.Lunix_path_BB63_290
.Lunix_path_BB63_239:
	subs	x21, x26, x24
	add	x16, x17, x24
	b.eq	.Lunix_path_BB63_357
	mov	w8, wzr
	mov	x1, xzr
	mov	x0, xzr
	tbnz	w22, #0, .Lunix_path_BB63_290
.Lunix_path_BB63_241:
	subs	x10, x21, #1
	b.eq	.Lunix_path_BB63_255
	add	x11, x17, x24
	mov	x9, xzr
	sub	x12, x21, #2
	add	x11, x11, #1
	b	.Lunix_path_BB63_244
.Lunix_path_BB63_243:
	add	x9, x9, #1
	cmp	x10, x9
	b.eq	.Lunix_path_BB63_256
.Lunix_path_BB63_244:
	ldrb	w13, [x11, x9]
	cmp	w13, #47
	b.eq	.Lunix_path_BB63_243
	cmp	w13, #46
	b.ne	.Lunix_path_BB63_257
	cmp	x12, x9
	b.eq	.Lunix_path_BB63_256
	add	x13, x11, x9
	ldrb	w13, [x13, #1]
	cmp	w13, #47
	b.eq	.Lunix_path_BB63_243
	b	.Lunix_path_BB63_257
.Lunix_path_BB63_248:
	subs	x9, x20, #1
	b.eq	.Lunix_path_BB63_259
	mov	x8, xzr
	add	x10, x23, #1
	sub	x11, x20, #2
	b	.Lunix_path_BB63_251
.Lunix_path_BB63_250:
	add	x8, x8, #1
	cmp	x9, x8
	b.eq	.Lunix_path_BB63_260
.Lunix_path_BB63_251:
	ldrb	w12, [x10, x8]
	cmp	w12, #47
	b.eq	.Lunix_path_BB63_250
	cmp	w12, #46
	b.ne	.Lunix_path_BB63_261
	cmp	x11, x8
	b.eq	.Lunix_path_BB63_260
	add	x12, x10, x8
	ldrb	w12, [x12, #1]
	cmp	w12, #47
	b.eq	.Lunix_path_BB63_250
	b	.Lunix_path_BB63_261
.Lunix_path_BB63_255:
	mov	w10, #1
	b	.Lunix_path_BB63_258
.Lunix_path_BB63_256:
	mov	x9, x10
.Lunix_path_BB63_257:
	add	x10, x9, #1
.Lunix_path_BB63_258:
	ldrb	w11, [x16]
	mov	x2, xzr
	mov	x9, xzr
	cmp	w11, #47
	cset	w11, ne
	cbnz	x20, .Lunix_path_BB63_321
	b	.Lunix_path_BB63_357
.Lunix_path_BB63_259:
	mov	w9, #1
	b	.Lunix_path_BB63_262
.Lunix_path_BB63_260:
	mov	x8, x9
.Lunix_path_BB63_261:
	add	x9, x8, #1
.Lunix_path_BB63_262:
	ldrb	w8, [x23]
	mov	x0, xzr
	mov	x1, xzr
	cmp	w8, #47
	cset	w8, ne
	mov	x25, xzr
	subs	x21, x26, x24
	add	x16, x17, x24
	b.ne	.Lunix_path_BB63_289
	b	.Lunix_path_BB63_352
.Lunix_path_BB63_263:
	add	x10, x15, x19
	ldrb	w8, [x10, #2]!
	cmp	w8, #47
	b.ne	.Lunix_path_BB63_265
	mov	x8, xzr
	sub	x11, x20, #3
	b	.Lunix_path_BB63_271
.Lunix_path_BB63_265:
	cmp	x20, #15
	b.hi	.Lunix_path_BB63_275
	mov	x1, xzr
.Lunix_path_BB63_267:
	ldrb	w8, [x23, x1]
	cmp	w8, #47
	b.eq	.Lunix_path_BB63_280
	add	x1, x1, #1
	cmp	x20, x1
	b.ne	.Lunix_path_BB63_267
	mov	x1, x20
	mov	x8, xzr
	subs	x9, x20, x20
	b.ne	.Lunix_path_BB63_281
	b	.Lunix_path_BB63_288
.Lunix_path_BB63_270:
	add	x8, x8, #1
	cmp	x9, x8
	b.eq	.Lunix_path_BB63_350
.Lunix_path_BB63_271:
	ldrb	w12, [x10, x8]
	cmp	w12, #47
	b.eq	.Lunix_path_BB63_270
	cmp	w12, #46
	b.ne	.Lunix_path_BB63_351
	cmp	x11, x8
	b.eq	.Lunix_path_BB63_350
	add	x12, x10, x8
	ldrb	w12, [x12, #1]
	cmp	w12, #47
	b.eq	.Lunix_path_BB63_270
	b	.Lunix_path_BB63_351
.Lunix_path_BB63_275:
	subs	x8, x20, #16
	b.eq	.Lunix_path_BB63_279
	mov	x9, xzr
.Lunix_path_BB63_277:
	movi	v0.16b, #47
	ldr	q1, [x23, x9]
	cmeq	v0.16b, v1.16b, v0.16b
	ldr	q1, [x27, :lo12:.Lunix_path_CPI63_0]
	and	v0.16b, v0.16b, v1.16b
	addp	v0.16b, v0.16b, v0.16b
	addp	v0.16b, v0.16b, v0.16b
	addp	v0.16b, v0.16b, v0.16b
	umov	w10, v0.h[0]
	orr	w10, w10, #0x10000
	rbit	w10, w10
	clz	w10, w10
	cmp	w10, #15
	b.ls	.Lunix_path_BB63_346
	add	x9, x9, #16
	cmp	x9, x8
	b.lo	.Lunix_path_BB63_277
.Lunix_path_BB63_279:
	movi	v0.16b, #47
	ldr	q1, [x23, x8]
	cmeq	v0.16b, v1.16b, v0.16b
	ldr	q1, [x27, :lo12:.Lunix_path_CPI63_0]
	and	v0.16b, v0.16b, v1.16b
	addp	v0.16b, v0.16b, v0.16b
	addp	v0.16b, v0.16b, v0.16b
	addp	v0.16b, v0.16b, v0.16b
	umov	w9, v0.h[0]
	orr	w9, w9, #0x10000
	rbit	w9, w9
	clz	w9, w9
	add	x1, x8, x9
.Lunix_path_BB63_280:
	mov	x8, xzr
	subs	x9, x20, x1
	b.eq	.Lunix_path_BB63_288
.Lunix_path_BB63_281:
	add	x10, x23, x1
	sub	x11, x9, #1
	b	.Lunix_path_BB63_283
.Lunix_path_BB63_282:
	add	x8, x8, #1
	cmp	x9, x8
	b.eq	.Lunix_path_BB63_287
.Lunix_path_BB63_283:
	ldrb	w12, [x10, x8]
	cmp	w12, #47
	b.eq	.Lunix_path_BB63_282
	cmp	w12, #46
	b.ne	.Lunix_path_BB63_288
	cmp	x11, x8
	b.eq	.Lunix_path_BB63_287
	add	x12, x10, x8
	ldrb	w12, [x12, #1]
	cmp	w12, #47
	b.eq	.Lunix_path_BB63_282
	b	.Lunix_path_BB63_288
.Lunix_path_BB63_287:
	mov	x8, x9
.Lunix_path_BB63_288:
	add	x9, x8, x1
	mov	w8, #3
	add	x0, x15, x19
	mov	x25, xzr
	subs	x21, x26, x24
	add	x16, x17, x24
	b.eq	.Lunix_path_BB63_352
.Lunix_path_BB63_289:
	add	x19, x9, x19
	tbz	w22, #0, .Lunix_path_BB63_241
.Lunix_path_BB63_290:
	cmp	x21, #1
	b.eq	.Lunix_path_BB63_297
	ldrb	w9, [x16]
	cmp	w9, #46
	b.ne	.Lunix_path_BB63_297
	add	x9, x17, x24
	ldrb	w10, [x9, #1]
	cmp	w10, #46
	b.ne	.Lunix_path_BB63_297
	subs	x11, x21, #2
	b.ne	.Lunix_path_BB63_295
	mov	x2, xzr
	mov	x9, xzr
	mov	w10, #2
	mov	w11, #2
	cbnz	x20, .Lunix_path_BB63_321
	b	.Lunix_path_BB63_357
.Lunix_path_BB63_295:
	ldrb	w10, [x9, #2]!
	cmp	w10, #47
	b.ne	.Lunix_path_BB63_297
	mov	x10, xzr
	sub	x12, x21, #3
	b	.Lunix_path_BB63_303
.Lunix_path_BB63_297:
	cmp	x21, #15
	b.hi	.Lunix_path_BB63_307
	mov	x9, xzr
	add	x10, x17, x24
.Lunix_path_BB63_299:
	ldrb	w11, [x10, x9]
	cmp	w11, #47
	b.eq	.Lunix_path_BB63_312
	add	x9, x9, #1
	cmp	x21, x9
	b.ne	.Lunix_path_BB63_299
	mov	x9, x21
	mov	x10, xzr
	subs	x11, x21, x21
	b.ne	.Lunix_path_BB63_313
	b	.Lunix_path_BB63_320
.Lunix_path_BB63_302:
	add	x10, x10, #1
	cmp	x11, x10
	b.eq	.Lunix_path_BB63_348
.Lunix_path_BB63_303:
	ldrb	w13, [x9, x10]
	cmp	w13, #47
	b.eq	.Lunix_path_BB63_302
	cmp	w13, #46
	b.ne	.Lunix_path_BB63_349
	cmp	x12, x10
	b.eq	.Lunix_path_BB63_348
	add	x13, x9, x10
	ldrb	w13, [x13, #1]
	cmp	w13, #47
	b.eq	.Lunix_path_BB63_302
	b	.Lunix_path_BB63_349
.Lunix_path_BB63_307:
	subs	x9, x21, #16
	b.eq	.Lunix_path_BB63_311
	mov	x10, xzr
	add	x11, x17, x24
.Lunix_path_BB63_309:
	movi	v0.16b, #47
	ldr	q1, [x11, x10]
	cmeq	v0.16b, v1.16b, v0.16b
	ldr	q1, [x27, :lo12:.Lunix_path_CPI63_0]
	and	v0.16b, v0.16b, v1.16b
	addp	v0.16b, v0.16b, v0.16b
	addp	v0.16b, v0.16b, v0.16b
	addp	v0.16b, v0.16b, v0.16b
	umov	w12, v0.h[0]
	orr	w12, w12, #0x10000
	rbit	w12, w12
	clz	w12, w12
	cmp	w12, #15
	b.ls	.Lunix_path_BB63_345
	add	x10, x10, #16
	cmp	x10, x9
	b.lo	.Lunix_path_BB63_309
.Lunix_path_BB63_311:
	movi	v0.16b, #47
	add	x10, x17, x24
	ldr	q1, [x10, x9]
	cmeq	v0.16b, v1.16b, v0.16b
	ldr	q1, [x27, :lo12:.Lunix_path_CPI63_0]
	and	v0.16b, v0.16b, v1.16b
	addp	v0.16b, v0.16b, v0.16b
	addp	v0.16b, v0.16b, v0.16b
	addp	v0.16b, v0.16b, v0.16b
	umov	w10, v0.h[0]
	orr	w10, w10, #0x10000
	rbit	w10, w10
	clz	w10, w10
	add	x9, x9, x10
.Lunix_path_BB63_312:
	mov	x10, xzr
	subs	x11, x21, x9
	b.eq	.Lunix_path_BB63_320
.Lunix_path_BB63_313:
	add	x12, x17, x24
	sub	x13, x11, #1
	add	x12, x12, x9
	b	.Lunix_path_BB63_315
.Lunix_path_BB63_314:
	add	x10, x10, #1
	cmp	x11, x10
	b.eq	.Lunix_path_BB63_319
.Lunix_path_BB63_315:
	ldrb	w14, [x12, x10]
	cmp	w14, #47
	b.eq	.Lunix_path_BB63_314
	cmp	w14, #46
	b.ne	.Lunix_path_BB63_320
	cmp	x13, x10
	b.eq	.Lunix_path_BB63_319
	add	x14, x12, x10
	ldrb	w14, [x14, #1]
	cmp	w14, #47
	b.eq	.Lunix_path_BB63_314
	b	.Lunix_path_BB63_320
.Lunix_path_BB63_319:
	mov	x10, x11
.Lunix_path_BB63_320:
	add	x10, x10, x9
	mov	w11, #3
	mov	x2, x16
	cbz	x20, .Lunix_path_BB63_357
.Lunix_path_BB63_321:
	cmp	w8, #1
	b.gt	.Lunix_path_BB63_324
	cbnz	w8, .Lunix_path_BB63_329
	adrp	x0, .Lunix_path_static.8
	add	x0, x0, :lo12:.Lunix_path_static.8
	mov	w1, #1
	cmp	w11, #1
	b.le	.Lunix_path_BB63_327
	b	.Lunix_path_BB63_330
.Lunix_path_BB63_324:
	cmp	w8, #2
	b.ne	.Lunix_path_BB63_326
	adrp	x0, .Lunix_path_static.10
	add	x0, x0, :lo12:.Lunix_path_static.10
	mov	w1, #2
.Lunix_path_BB63_326:
	cmp	w11, #1
	b.gt	.Lunix_path_BB63_330
.Lunix_path_BB63_327:
	cbnz	w11, .Lunix_path_BB63_332
	adrp	x2, .Lunix_path_static.8
	add	x2, x2, :lo12:.Lunix_path_static.8
	b	.Lunix_path_BB63_333
.Lunix_path_BB63_329:
	adrp	x0, .Lunix_path_static.5
	add	x0, x0, :lo12:.Lunix_path_static.5
	mov	w1, #1
	cmp	w11, #1
	b.le	.Lunix_path_BB63_327
.Lunix_path_BB63_330:
	cmp	w11, #2
	b.ne	.Lunix_path_BB63_334
	adrp	x2, .Lunix_path_static.10
	add	x2, x2, :lo12:.Lunix_path_static.10
	mov	w9, #2
	b	.Lunix_path_BB63_334
.Lunix_path_BB63_332:
	adrp	x2, .Lunix_path_static.5
	add	x2, x2, :lo12:.Lunix_path_static.5
.Lunix_path_BB63_333:
	mov	w9, #1
.Lunix_path_BB63_334:
	cmp	x1, x9
	b.ne	.Lunix_path_BB63_353
	cmp	x1, #4
	add	x24, x10, x24
	b.hs	.Lunix_path_BB63_343
	mov	w22, #1
	cbz	x1, .Lunix_path_BB63_231
	ldrb	w8, [x0]
	ldrb	w9, [x2]
	cmp	w8, w9
	b.ne	.Lunix_path_BB63_230
	cmp	x1, #1
	b.eq	.Lunix_path_BB63_231
	ldrb	w8, [x0, #1]
	ldrb	w9, [x2, #1]
	cmp	w8, w9
	b.ne	.Lunix_path_BB63_347
	cmp	x1, #2
	b.eq	.Lunix_path_BB63_231
	ldrb	w8, [x0, #2]
	ldrb	w9, [x2, #2]
	cmp	w8, w9
	b.eq	.Lunix_path_BB63_231
	mov	w8, #2
	cmp	x8, x1
	b.hs	.Lunix_path_BB63_231
	b	.Lunix_path_BB63_353
.Lunix_path_BB63_343:
	ldr	w8, [x0]
	ldr	w9, [x2]
	cmp	w8, w9
	b.ne	.Lunix_path_BB63_353
	mov	x22, x16
	bl	core.cmp.slices.groups_equal.i8.31.core.cmp.numbers.U8PartialEq.
	ldr	x17, [sp, #96]
	ldur	x15, [x29, #-88]
	mov	x16, x22
	mov	w22, #1
	tbnz	w0, #0, .Lunix_path_BB63_231
	b	.Lunix_path_BB63_353
.Lunix_path_BB63_345:
	add	x9, x10, w12, uxtw
	mov	x10, xzr
	subs	x11, x21, x9
	b.ne	.Lunix_path_BB63_313
	b	.Lunix_path_BB63_320
.Lunix_path_BB63_346:
	add	x1, x9, w10, uxtw
	mov	x8, xzr
	subs	x9, x20, x1
	b.ne	.Lunix_path_BB63_281
	b	.Lunix_path_BB63_288
.Lunix_path_BB63_347:
	mov	w8, #1
	cmp	x8, x1
	b.hs	.Lunix_path_BB63_231
	b	.Lunix_path_BB63_353
.Lunix_path_BB63_348:
	mov	x10, x11
.Lunix_path_BB63_349:
	mov	x2, xzr
	mov	x9, xzr
	add	x10, x10, #2
	mov	w11, #2
	cbnz	x20, .Lunix_path_BB63_321
	b	.Lunix_path_BB63_357
.Lunix_path_BB63_350:
	mov	x8, x9
.Lunix_path_BB63_351:
	mov	x0, xzr
	mov	x1, xzr
	add	x9, x8, #2
	mov	w8, #2
	mov	x25, xzr
	subs	x21, x26, x24
	add	x16, x17, x24
	b.ne	.Lunix_path_BB63_289
.Lunix_path_BB63_352:
	mov	x21, x25
.Lunix_path_BB63_353:
	ldrb	w8, [x23]
	cmp	w8, #47
	b.eq	.Lunix_path_BB63_362
	ldr	x28, [sp, #72]
	ldr	x24, [sp, #88]
	cmp	w8, #46
	b.ne	.Lunix_path_BB63_363
	cmp	x20, #1
	b.ne	.Lunix_path_BB63_366
	mov	w22, #1
	b	.Lunix_path_BB63_367
.Lunix_path_BB63_357:
	ldr	x28, [sp, #72]
	ldr	x24, [sp, #88]
.Lunix_path_BB63_358:
	mov	x19, xzr
.Lunix_path_BB63_359:
	mov	x0, x16
	mov	x1, x21
	mov	x20, x16
	bl	path_within.outlined.is_names_only
	movi	v0.2d, #0000000000000000
	stur	xzr, [x29, #-48]
	stp	q0, q0, [x29, #-80]
	cbz	w0, .Lunix_path_BB63_361
	mov	w8, #1
	stur	wzr, [x29, #-47]
	add	x9, x21, #1
	sturb	w8, [x29, #-48]
	mov	x4, #-1
	mov	x17, x20
	stur	wzr, [x29, #-44]
	ldur	x10, [x29, #-48]
	add	x11, x28, x24
	cbnz	x19, .Lunix_path_BB63_27
	b	.Lunix_path_BB63_161
.Lunix_path_BB63_361:
	sub	x0, x29, #80
	mov	x1, x20
	mov	x2, x21
	bl	path_within.write.Layout.resolve_names
	ldp	x9, x10, [x29, #-56]
	ldur	x4, [x29, #-64]
	ldp	x17, x21, [x29, #-80]
	add	x11, x28, x24
	cbnz	x19, .Lunix_path_BB63_27
	b	.Lunix_path_BB63_161
.Lunix_path_BB63_362:
	ldr	x28, [sp, #72]
	ldr	x24, [sp, #88]
	mov	w22, #1
	b	.Lunix_path_BB63_367
.Lunix_path_BB63_363:
	mov	w22, wzr
	b	.Lunix_path_BB63_367
.Lunix_path_BB63_364:
	mov	x25, xzr
	b	.Lunix_path_BB63_422
.Lunix_path_BB63_365:
	mov	w22, #1
	b	.Lunix_path_BB63_431
.Lunix_path_BB63_366:
	ldrb	w8, [x23, #1]
	cmp	w8, #47
	cset	w22, eq
.Lunix_path_BB63_367:
	mov	x8, x20
	b	.Lunix_path_BB63_369
.Lunix_path_BB63_368:
	mov	x8, x1
	cbz	x1, .Lunix_path_BB63_358
.Lunix_path_BB63_369:
	subs	x1, x8, #1
	b.eq	.Lunix_path_BB63_375
	add	x9, x23, x1
	ldrb	w10, [x9]
	cmp	w10, #47
	b.eq	.Lunix_path_BB63_373
	cmp	w10, #46
	b.ne	.Lunix_path_BB63_375
	ldurb	w9, [x9, #-1]
	cmp	w9, #47
	b.ne	.Lunix_path_BB63_375
.Lunix_path_BB63_373:
	sub	x8, x20, x1
	cmp	x8, #8
	b.ne	.Lunix_path_BB63_368
	mov	x0, x23
	mov	x19, x16
	bl	unix_path.filler.trimmed_blocks_len
	mov	x16, x19
	mov	x1, x0
	b	.Lunix_path_BB63_368
.Lunix_path_BB63_375:
	mov	x19, xzr
	mov	x9, xzr
	mov	x10, x8
	b	.Lunix_path_BB63_379
.Lunix_path_BB63_376:
	mov	x10, xzr
.Lunix_path_BB63_377:
	add	x10, x10, x12
.Lunix_path_BB63_378:
	add	x9, x10, x9
	mov	w22, wzr
	add	x19, x19, #1
	subs	x10, x8, x9
	b.eq	.Lunix_path_BB63_359
.Lunix_path_BB63_379:
	add	x11, x23, x9
	tbz	w22, #0, .Lunix_path_BB63_387
	subs	x13, x10, #1
	b.eq	.Lunix_path_BB63_378
	mov	x12, xzr
	add	x11, x11, #1
	sub	x10, x10, #2
	b	.Lunix_path_BB63_383
.Lunix_path_BB63_382:
	add	x12, x12, #1
	cmp	x13, x12
	b.eq	.Lunix_path_BB63_415
.Lunix_path_BB63_383:
	ldrb	w14, [x11, x12]
	cmp	w14, #47
	b.eq	.Lunix_path_BB63_382
	cmp	w14, #46
	b.ne	.Lunix_path_BB63_416
	cmp	x10, x12
	b.eq	.Lunix_path_BB63_415
	add	x14, x11, x12
	ldrb	w14, [x14, #1]
	cmp	w14, #47
	b.eq	.Lunix_path_BB63_382
	b	.Lunix_path_BB63_416
.Lunix_path_BB63_387:
	cmp	x10, #1
	b.eq	.Lunix_path_BB63_393
	ldrb	w12, [x11]
	cmp	w12, #46
	b.ne	.Lunix_path_BB63_393
	ldrb	w12, [x11, #1]
	cmp	w12, #46
	b.ne	.Lunix_path_BB63_393
	subs	x12, x10, #2
	b.eq	.Lunix_path_BB63_378
	add	x13, x23, x9
	ldrb	w14, [x13, #2]!
	cmp	w14, #47
	b.ne	.Lunix_path_BB63_393
	mov	x11, xzr
	sub	x10, x10, #3
	b	.Lunix_path_BB63_399
.Lunix_path_BB63_393:
	cmp	x10, #15
	b.hi	.Lunix_path_BB63_403
	mov	x12, xzr
.Lunix_path_BB63_395:
	ldrb	w13, [x11, x12]
	cmp	w13, #47
	b.eq	.Lunix_path_BB63_408
	add	x12, x12, #1
	cmp	x10, x12
	b.ne	.Lunix_path_BB63_395
	mov	x12, x10
	subs	x13, x10, x10
	b.ne	.Lunix_path_BB63_409
	b	.Lunix_path_BB63_376
.Lunix_path_BB63_398:
	add	x11, x11, #1
	cmp	x12, x11
	b.eq	.Lunix_path_BB63_419
.Lunix_path_BB63_399:
	ldrb	w14, [x13, x11]
	cmp	w14, #47
	b.eq	.Lunix_path_BB63_398
	cmp	w14, #46
	b.ne	.Lunix_path_BB63_420
	cmp	x10, x11
	b.eq	.Lunix_path_BB63_419
	add	x14, x13, x11
	ldrb	w14, [x14, #1]
	cmp	w14, #47
	b.eq	.Lunix_path_BB63_398
	b	.Lunix_path_BB63_420
.Lunix_path_BB63_403:
	subs	x12, x10, #16
	b.eq	.Lunix_path_BB63_407
	mov	x13, xzr
.Lunix_path_BB63_405:
	movi	v0.16b, #47
	ldr	q1, [x11, x13]
	cmeq	v0.16b, v1.16b, v0.16b
	ldr	q1, [x27, :lo12:.Lunix_path_CPI63_0]
	and	v0.16b, v0.16b, v1.16b
	addp	v0.16b, v0.16b, v0.16b
	addp	v0.16b, v0.16b, v0.16b
	addp	v0.16b, v0.16b, v0.16b
	umov	w14, v0.h[0]
	orr	w14, w14, #0x10000
	rbit	w14, w14
	clz	w14, w14
	cmp	w14, #15
	b.ls	.Lunix_path_BB63_418
	add	x13, x13, #16
	cmp	x13, x12
	b.lo	.Lunix_path_BB63_405
.Lunix_path_BB63_407:
	movi	v0.16b, #47
	ldr	q1, [x11, x12]
	cmeq	v0.16b, v1.16b, v0.16b
	ldr	q1, [x27, :lo12:.Lunix_path_CPI63_0]
	and	v0.16b, v0.16b, v1.16b
	addp	v0.16b, v0.16b, v0.16b
	addp	v0.16b, v0.16b, v0.16b
	addp	v0.16b, v0.16b, v0.16b
	umov	w13, v0.h[0]
	orr	w13, w13, #0x10000
	rbit	w13, w13
	clz	w13, w13
	add	x12, x12, x13
.Lunix_path_BB63_408:
	subs	x13, x10, x12
	b.eq	.Lunix_path_BB63_376
.Lunix_path_BB63_409:
	mov	x10, xzr
	add	x11, x11, x12
	sub	x14, x13, #1
	b	.Lunix_path_BB63_411
.Lunix_path_BB63_410:
	add	x10, x10, #1
	cmp	x13, x10
	b.eq	.Lunix_path_BB63_417
.Lunix_path_BB63_411:
	ldrb	w15, [x11, x10]
	cmp	w15, #47
	b.eq	.Lunix_path_BB63_410
	cmp	w15, #46
	b.ne	.Lunix_path_BB63_377
	cmp	x14, x10
	b.eq	.Lunix_path_BB63_417
	add	x15, x11, x10
	ldrb	w15, [x15, #1]
	cmp	w15, #47
	b.eq	.Lunix_path_BB63_410
	b	.Lunix_path_BB63_377
.Lunix_path_BB63_415:
	mov	x12, x13
.Lunix_path_BB63_416:
	add	x10, x12, #1
	b	.Lunix_path_BB63_378
.Lunix_path_BB63_417:
	mov	x10, x13
	b	.Lunix_path_BB63_377
.Lunix_path_BB63_418:
	add	x12, x13, w14, uxtw
	subs	x13, x10, x12
	b.ne	.Lunix_path_BB63_409
	b	.Lunix_path_BB63_376
.Lunix_path_BB63_419:
	mov	x11, x12
.Lunix_path_BB63_420:
	add	x10, x11, #2
	b	.Lunix_path_BB63_378
.Lunix_path_BB63_421:
	ldrb	w8, [x15, #1]
	cmp	w8, #47
	mov	w8, #257
	csel	x25, x8, xzr, eq
.Lunix_path_BB63_422:
	mov	x28, x20
	b	.Lunix_path_BB63_424
.Lunix_path_BB63_423:
	mov	x28, x1
	cbz	x1, .Lunix_path_BB63_223
.Lunix_path_BB63_424:
	subs	x1, x28, #1
	b.eq	.Lunix_path_BB63_223
	add	x8, x15, x1
	ldrb	w9, [x8]
	cmp	w9, #47
	b.eq	.Lunix_path_BB63_428
	cmp	w9, #46
	b.ne	.Lunix_path_BB63_223
	ldurb	w8, [x8, #-1]
	cmp	w8, #47
	b.ne	.Lunix_path_BB63_223
.Lunix_path_BB63_428:
	sub	x8, x20, x1
	cmp	x8, #8
	b.ne	.Lunix_path_BB63_423
	mov	x0, x15
	mov	x22, x14
	bl	unix_path.filler.trimmed_blocks_len
	ldur	x15, [x29, #-88]
	mov	x14, x22
	mov	x1, x0
	b	.Lunix_path_BB63_423
.Lunix_path_BB63_430:
	ldrb	w8, [x17, #1]
	cmp	w8, #47
	cset	w22, ne
.Lunix_path_BB63_431:
	mov	x26, x20
	b	.Lunix_path_BB63_433
.Lunix_path_BB63_432:
	mov	x26, x1
	cbz	x1, .Lunix_path_BB63_229
.Lunix_path_BB63_433:
	subs	x1, x26, #1
	b.eq	.Lunix_path_BB63_229
	add	x8, x17, x1
	ldrb	w9, [x8]
	cmp	w9, #47
	b.eq	.Lunix_path_BB63_437
	cmp	w9, #46
	b.ne	.Lunix_path_BB63_229
	ldurb	w8, [x8, #-1]
	cmp	w8, #47
	b.ne	.Lunix_path_BB63_229
.Lunix_path_BB63_437:
	sub	x8, x20, x1
	cmp	x8, #8
	b.ne	.Lunix_path_BB63_432
	mov	x0, x17
	bl	unix_path.filler.trimmed_blocks_len
	ldr	x17, [sp, #96]
	ldur	x15, [x29, #-88]
	mov	x1, x0
	b	.Lunix_path_BB63_432
.Lunix_path_BB63_439:
	add	x9, x24, x8
	and	x10, x21, #0x18
	and	x13, x21, #0xffffffffffffffe0
	sub	x11, x9, x21
	and	x9, x21, #0xffffffffffffffe0
	add	x12, x11, x28
	add	x11, x17, #16
	add	x12, x12, #15
.Lunix_path_BB63_440:
	ldp	q0, q1, [x11, #-16]
	subs	x13, x13, #32
	add	x11, x11, #32
	stp	q0, q1, [x12, #-16]
	add	x12, x12, #32
	b.ne	.Lunix_path_BB63_440
	cmp	x21, x9
	b.eq	.Lunix_path_BB63_175
	cbz	x10, .Lunix_path_BB63_172
.Lunix_path_BB63_443:
	add	x10, x24, x9
	mvn	x12, x21
	mov	x11, x9
	and	x9, x21, #0xfffffffffffffff8
	add	x13, x10, x8
	add	x12, x28, x12
	sub	x10, x11, x9
	add	x11, x17, x11
	add	x12, x12, x13
.Lunix_path_BB63_444:
	ldr	d0, [x11], #8
	adds	x10, x10, #8
	str	d0, [x12], #8
	b.ne	.Lunix_path_BB63_444
	cmp	x21, x9
	b.eq	.Lunix_path_BB63_175
	b	.Lunix_path_BB63_172
.Lunix_path_BB63_446:
	mov	w8, #1
	b	.Lunix_path_BB63_191
.Lunix_path_BB63_447:
	mov	w8, #1
	ldur	x9, [x29, #-88]
	ldr	x10, [sp, #96]
	mov	w26, wzr
	mov	x3, xzr
	subs	x9, x10, x9
	b.hi	.Lunix_path_BB63_87
	b	.Lunix_path_BB63_109
.Lunix_path_BB63_448:
	mov	w8, #2
	b	.Lunix_path_BB63_191
.Lunix_path_BB63_449:
	mov	w8, #3
	b	.Lunix_path_BB63_191
.Lunix_path_BB63_450:
	mov	w8, #4
	b	.Lunix_path_BB63_191
.Lunix_path_BB63_451:
	ldrb	w9, [x9, #5]
	ldrb	w10, [x14, #5]
	cmp	w9, w10
	b.ne	.Lunix_path_BB63_454
	cmp	x8, #6
	add	x15, x23, x20
	b.eq	.Lunix_path_BB63_191
	ldrb	w9, [x15, #6]
	ldrb	w10, [x14, #6]
	cmp	w9, w10
	mov	w9, #6
	csel	x8, x8, x9, eq
	b	.Lunix_path_BB63_191
.Lunix_path_BB63_454:
	mov	w8, #5
	add	x15, x23, x20
	b	.Lunix_path_BB63_191
.Lunix_path_func_end63:
	.size	unix_path_relative_path, .Lunix_path_func_end63-unix_path_relative_path
	.section	.rodata.cst16,"aM",@progbits,16
	.p2align	4, 0x0
.Lunix_path_CPI64_0:
	.byte	1
	.byte	2
	.byte	4
	.byte	8
	.byte	16
	.byte	32
	.byte	64
	.byte	128
	.byte	1
	.byte	2
	.byte	4
	.byte	8
	.byte	16
	.byte	32
	.byte	64
	.byte	128
	.section	.text.unix_path_request_is_root,"ax",@progbits
	.globl	unix_path_request_is_root
	.p2align	2
	.type	unix_path_request_is_root,@function
unix_path_request_is_root:
	stp	x29, x30, [sp, #-48]!
	mov	w8, #4096
	cmp	x0, #0
	stp	x22, x21, [sp, #16]
	csel	x22, x8, xzr, eq
	stp	x20, x19, [sp, #32]
	mov	x19, x0
	add	x21, x0, x22
	mov	x29, sp
	cbz	x1, .Lunix_path_BB64_10
	add	x8, x21, x1
	mov	x20, x1
	ldurb	w8, [x8, #-1]
	and	w8, w8, #0xfe
	cmp	w8, #46
	b.ne	.Lunix_path_BB64_11
	mov	x11, x20
	b	.Lunix_path_BB64_4
.Lunix_path_BB64_3:
	mov	x11, x1
	cbz	x1, .Lunix_path_BB64_12
.Lunix_path_BB64_4:
	subs	x1, x11, #1
	b.eq	.Lunix_path_BB64_12
	add	x8, x21, x1
	ldrb	w9, [x8]
	cmp	w9, #47
	b.eq	.Lunix_path_BB64_8
	cmp	w9, #46
	b.ne	.Lunix_path_BB64_12
	ldurb	w8, [x8, #-1]
	cmp	w8, #47
	b.ne	.Lunix_path_BB64_12
.Lunix_path_BB64_8:
	sub	x8, x20, x1
	cmp	x8, #8
	b.ne	.Lunix_path_BB64_3
	add	x0, x19, x22
	bl	unix_path.filler.trimmed_blocks_len
	mov	x1, x0
	b	.Lunix_path_BB64_3
.Lunix_path_BB64_10:
	mov	x11, xzr
	b	.Lunix_path_BB64_12
.Lunix_path_BB64_11:
	mov	x11, x20
.Lunix_path_BB64_12:
	add	x10, x22, x19
	mov	x8, xzr
	sub	x9, x10, #16
	sub	x10, x10, #1
	b	.Lunix_path_BB64_15
.Lunix_path_BB64_13:
	add	x8, x8, #1
.Lunix_path_BB64_14:
	sub	x11, x12, x13
	cbz	x12, .Lunix_path_BB64_30
.Lunix_path_BB64_15:
	mov	x12, x11
.Lunix_path_BB64_16:
	cmp	x12, #15
	b.ls	.Lunix_path_BB64_19
	movi	v0.16b, #47
	ldr	q1, [x9, x12]
	adrp	x13, .Lunix_path_CPI64_0
	cmeq	v0.16b, v1.16b, v0.16b
	ldr	q1, [x13, :lo12:.Lunix_path_CPI64_0]
	sub	x13, x12, #16
	mov	x12, x13
	and	v0.16b, v0.16b, v1.16b
	addp	v0.16b, v0.16b, v0.16b
	addp	v0.16b, v0.16b, v0.16b
	addp	v0.16b, v0.16b, v0.16b
	umov	w14, v0.h[0]
	cbz	w14, .Lunix_path_BB64_16
	umov	w12, v0.h[0]
	and	x12, x12, #0xffff
	clz	x12, x12
	sub	x12, x13, x12
	add	x12, x12, #64
	b	.Lunix_path_BB64_22
.Lunix_path_BB64_19:
	cbz	x12, .Lunix_path_BB64_22
	ldrb	w14, [x10, x12]
	sub	x13, x12, #1
	mov	x12, x13
	cmp	w14, #47
	b.ne	.Lunix_path_BB64_19
	add	x12, x13, #1
.Lunix_path_BB64_22:
	cmp	x12, #0
	cset	w13, ne
	subs	x14, x11, x12
	b.eq	.Lunix_path_BB64_14
	cmp	x14, #1
	add	x11, x21, x12
	b.ne	.Lunix_path_BB64_25
	ldrb	w11, [x11]
	cmp	w11, #46
	b.eq	.Lunix_path_BB64_14
	b	.Lunix_path_BB64_28
.Lunix_path_BB64_25:
	cmp	x14, #2
	b.hi	.Lunix_path_BB64_28
	ldrb	w14, [x11]
	cmp	w14, #46
	b.ne	.Lunix_path_BB64_28
	ldrb	w11, [x11, #1]
	cmp	w11, #46
	b.eq	.Lunix_path_BB64_13
.Lunix_path_BB64_28:
	cbz	x8, .Lunix_path_BB64_31
	sub	x8, x8, #1
	b	.Lunix_path_BB64_14
.Lunix_path_BB64_30:
	mov	w0, #1
	ldp	x20, x19, [sp, #32]
	ldp	x22, x21, [sp, #16]
	ldp	x29, x30, [sp], #48
	ret
.Lunix_path_BB64_31:
	mov	w0, wzr
	ldp	x20, x19, [sp, #32]
	ldp	x22, x21, [sp, #16]
	ldp	x29, x30, [sp], #48
	ret
.Lunix_path_func_end64:
	.size	unix_path_request_is_root, .Lunix_path_func_end64-unix_path_request_is_root
	.section	.rodata.cst16,"aM",@progbits,16
	.p2align	4, 0x0
.Lunix_path_CPI65_0:
	.byte	1
	.byte	2
	.byte	4
	.byte	8
	.byte	16
	.byte	32
	.byte	64
	.byte	128
	.byte	1
	.byte	2
	.byte	4
	.byte	8
	.byte	16
	.byte	32
	.byte	64
	.byte	128
	.section	.rodata.cst8,"aM",@progbits,8
	.p2align	3, 0x0
.Lunix_path_CPI65_1:
	.byte	1
	.byte	2
	.byte	4
	.byte	8
	.byte	16
	.byte	32
	.byte	64
	.byte	128
	.section	.text.unix_path_resolved,"ax",@progbits
	.globl	unix_path_resolved
	.p2align	2
	.type	unix_path_resolved,@function
unix_path_resolved:
	sub	sp, sp, #128
	mov	w8, #4096
	cmp	x0, #0
	stp	x28, x27, [sp, #48]
	csel	x28, x8, xzr, eq
	cmp	x2, #0
	stp	x24, x23, [sp, #80]
	csel	x27, x8, xzr, eq
	stp	x22, x21, [sp, #96]
	mov	x24, x3
	stp	x20, x19, [sp, #112]
	mov	x19, x2
	mov	x22, x1
	mov	x21, x0
	add	x23, x0, x28
	add	x20, x2, x27
	stp	x29, x30, [sp, #32]
	add	x29, sp, #32
	stp	x26, x25, [sp, #64]
	cbz	x1, .Lunix_path_BB65_60
	add	x9, x21, x28
	ldrb	w8, [x9], #1
	cmp	w8, #47
	cset	w13, eq
	csel	x10, x23, x9, ne
	subs	x9, x22, x13
	b.eq	.Lunix_path_BB65_50
	ldrb	w11, [x10]
	cmp	w11, #47
	b.eq	.Lunix_path_BB65_50
	cmp	w11, #46
	b.ne	.Lunix_path_BB65_9
	cmp	x9, #2
	b.lo	.Lunix_path_BB65_50
	ldrb	w11, [x10, #1]
	cmp	w11, #47
	b.eq	.Lunix_path_BB65_50
	cmp	w11, #46
	b.ne	.Lunix_path_BB65_9
	cmp	x9, #2
	b.eq	.Lunix_path_BB65_50
	ldrb	w11, [x10, #2]
	cmp	w11, #47
	b.eq	.Lunix_path_BB65_50
.Lunix_path_BB65_9:
	add	x15, x23, x22
	ldurb	w11, [x15, #-1]
	and	w11, w11, #0xfe
	cmp	w11, #46
	b.eq	.Lunix_path_BB65_50
	subs	x12, x9, #17
	b.hs	.Lunix_path_BB65_13
.Lunix_path_BB65_11:
	cmp	x9, #9
	b.hs	.Lunix_path_BB65_21
	mov	x11, xzr
	b	.Lunix_path_BB65_37
.Lunix_path_BB65_13:
	cmp	x9, #32
	adrp	x11, .Lunix_path_CPI65_0
	b.hi	.Lunix_path_BB65_23
	movi	v0.16b, #208
	ldur	q1, [x10, #1]
	ldr	q3, [x10]
	and	v2.16b, v1.16b, v0.16b
	movi	v1.16b, #47
	orr	v2.16b, v2.16b, v3.16b
	cmeq	v3.16b, v2.16b, v1.16b
	ldr	q2, [x11, :lo12:.Lunix_path_CPI65_0]
	and	v3.16b, v3.16b, v2.16b
	addp	v3.16b, v3.16b, v3.16b
	addp	v3.16b, v3.16b, v3.16b
	addp	v3.16b, v3.16b, v3.16b
	umov	w13, v3.h[0]
	cbnz	w13, .Lunix_path_BB65_16
	ldur	q3, [x15, #-16]
	and	v0.16b, v3.16b, v0.16b
	ldur	q3, [x15, #-17]
	orr	v0.16b, v0.16b, v3.16b
	cmeq	v0.16b, v0.16b, v1.16b
	and	v0.16b, v0.16b, v2.16b
	addp	v0.16b, v0.16b, v0.16b
	addp	v0.16b, v0.16b, v0.16b
	addp	v0.16b, v0.16b, v0.16b
	umov	w13, v0.h[0]
	cbz	w13, .Lunix_path_BB65_61
.Lunix_path_BB65_16:
	cmp	x9, #18
	b.ls	.Lunix_path_BB65_11
	subs	x13, x9, #19
	b.ne	.Lunix_path_BB65_25
	mov	x14, xzr
.Lunix_path_BB65_19:
	cmp	x12, x14
	movi	v0.16b, #208
	csel	x12, x12, x14, lo
	add	x14, x10, x12
	ldur	q1, [x14, #1]
	ldr	q2, [x14]
	and	v1.16b, v1.16b, v0.16b
	movi	v0.16b, #47
	orr	v1.16b, v1.16b, v2.16b
	cmeq	v2.16b, v1.16b, v0.16b
	ldr	q1, [x11, :lo12:.Lunix_path_CPI65_0]
	and	v2.16b, v2.16b, v1.16b
	addp	v2.16b, v2.16b, v2.16b
	addp	v2.16b, v2.16b, v2.16b
	addp	v2.16b, v2.16b, v2.16b
	umov	w11, v2.h[0]
	cbz	w11, .Lunix_path_BB65_36
	movi	v2.16b, #46
	add	x11, x10, x13
	ldur	q3, [x11, #2]
	ldur	q4, [x11, #3]
	cmeq	v4.16b, v4.16b, v0.16b
	cmeq	v5.16b, v3.16b, v2.16b
	cmeq	v3.16b, v3.16b, v0.16b
	and	v4.16b, v5.16b, v4.16b
	ldur	q5, [x11, #1]
	cmeq	v2.16b, v5.16b, v2.16b
	orr	v3.16b, v3.16b, v4.16b
	ldr	q4, [x11]
	and	v2.16b, v2.16b, v3.16b
	cmeq	v3.16b, v4.16b, v0.16b
	cmeq	v0.16b, v5.16b, v0.16b
	orr	v0.16b, v0.16b, v2.16b
	and	v1.16b, v3.16b, v1.16b
	and	v0.16b, v1.16b, v0.16b
	addp	v0.16b, v0.16b, v0.16b
	addp	v0.16b, v0.16b, v0.16b
	addp	v0.16b, v0.16b, v0.16b
	umov	w11, v0.h[0]
	orr	w11, w11, #0x10000
	rbit	w11, w11
	clz	w11, w11
	add	x11, x13, x11
	b	.Lunix_path_BB65_37
.Lunix_path_BB65_21:
	movi	v0.8b, #254
	movi	v1.8b, #47
	ldr	d3, [x10]
	ldur	d4, [x10, #1]
	movi	v2.8b, #46
	adrp	x11, .Lunix_path_CPI65_1
	and	v4.8b, v4.8b, v0.8b
	cmeq	v5.8b, v3.8b, v1.8b
	ldr	d3, [x11, :lo12:.Lunix_path_CPI65_1]
	cmeq	v4.8b, v4.8b, v2.8b
	and	v5.8b, v5.8b, v3.8b
	and	v4.8b, v5.8b, v4.8b
	addv	b4, v4.8b
	fmov	w11, s4
	orr	w11, w11, #0x100
	rbit	w11, w11
	clz	w11, w11
	cmp	w11, #8
	b.lo	.Lunix_path_BB65_37
	cmp	x9, #17
	mov	w11, #17
	csel	x11, x9, x11, lo
	sub	x11, x11, #9
	add	x12, x10, x11
	ldr	d4, [x12]
	ldur	d5, [x12, #1]
	and	v0.8b, v5.8b, v0.8b
	cmeq	v1.8b, v4.8b, v1.8b
	cmeq	v0.8b, v0.8b, v2.8b
	and	v1.8b, v1.8b, v3.8b
	and	v0.8b, v1.8b, v0.8b
	addv	b0, v0.8b
	fmov	w12, s0
	orr	w12, w12, #0x100
	rbit	w12, w12
	clz	w12, w12
	add	x11, x11, x12
	b	.Lunix_path_BB65_37
.Lunix_path_BB65_23:
	sub	x14, x9, #33
	movi	v0.16b, #208
	ldur	q2, [x15, #-16]
	add	x16, x10, x14
	ldur	q3, [x15, #-17]
	movi	v4.16b, #47
	ldur	q1, [x16, #1]
	and	v1.16b, v1.16b, v0.16b
	and	v0.16b, v2.16b, v0.16b
	ldr	q2, [x16]
	orr	v1.16b, v1.16b, v2.16b
	orr	v0.16b, v0.16b, v3.16b
	cmeq	v1.16b, v1.16b, v4.16b
	cmeq	v2.16b, v0.16b, v4.16b
	ldr	q0, [x11, :lo12:.Lunix_path_CPI65_0]
	and	v1.16b, v1.16b, v0.16b
	and	v2.16b, v2.16b, v0.16b
	addp	v1.16b, v1.16b, v1.16b
	addp	v2.16b, v2.16b, v2.16b
	addp	v1.16b, v1.16b, v1.16b
	addp	v2.16b, v2.16b, v2.16b
	addp	v1.16b, v1.16b, v1.16b
	addp	v2.16b, v2.16b, v2.16b
	orr	v1.16b, v2.16b, v1.16b
	umov	w15, v1.h[0]
	cbz	w15, .Lunix_path_BB65_32
	sub	x13, x9, #19
.Lunix_path_BB65_25:
	mov	x14, xzr
	b	.Lunix_path_BB65_27
.Lunix_path_BB65_26:
	cmp	x14, x13
	b.hs	.Lunix_path_BB65_19
.Lunix_path_BB65_27:
	movi	v1.16b, #208
	add	x15, x10, x14
	movi	v2.16b, #47
	ldur	q0, [x15, #1]
	and	v3.16b, v0.16b, v1.16b
	ldr	q1, [x15]
	orr	v3.16b, v3.16b, v1.16b
	cmeq	v4.16b, v3.16b, v2.16b
	ldr	q3, [x11, :lo12:.Lunix_path_CPI65_0]
	and	v4.16b, v4.16b, v3.16b
	addp	v4.16b, v4.16b, v4.16b
	addp	v4.16b, v4.16b, v4.16b
	addp	v4.16b, v4.16b, v4.16b
	umov	w16, v4.h[0]
	cbz	w16, .Lunix_path_BB65_30
	movi	v4.16b, #46
	ldur	q5, [x15, #2]
	ldur	q6, [x15, #3]
	cmeq	v1.16b, v1.16b, v2.16b
	cmeq	v6.16b, v6.16b, v2.16b
	cmeq	v7.16b, v5.16b, v4.16b
	cmeq	v5.16b, v5.16b, v2.16b
	cmeq	v4.16b, v0.16b, v4.16b
	cmeq	v0.16b, v0.16b, v2.16b
	and	v1.16b, v1.16b, v3.16b
	and	v6.16b, v7.16b, v6.16b
	orr	v5.16b, v5.16b, v6.16b
	and	v4.16b, v4.16b, v5.16b
	orr	v0.16b, v0.16b, v4.16b
	and	v0.16b, v1.16b, v0.16b
	addp	v0.16b, v0.16b, v0.16b
	addp	v0.16b, v0.16b, v0.16b
	addp	v0.16b, v0.16b, v0.16b
	umov	w15, v0.h[0]
	orr	w15, w15, #0x10000
	rbit	w15, w15
	clz	w15, w15
	cmp	w15, #15
	b.ls	.Lunix_path_BB65_31
	add	x14, x14, #16
	b	.Lunix_path_BB65_26
.Lunix_path_BB65_30:
	add	x14, x14, #16
	cmp	x14, x13
	b.lo	.Lunix_path_BB65_27
	b	.Lunix_path_BB65_26
.Lunix_path_BB65_31:
	add	x11, x14, w15, uxtw
	b	.Lunix_path_BB65_37
.Lunix_path_BB65_32:
	cbz	x14, .Lunix_path_BB65_61
	add	x13, x28, x13
	mov	x15, xzr
	add	x13, x13, x21
	add	x13, x13, #16
.Lunix_path_BB65_34:
	movi	v1.16b, #208
	add	x16, x13, x15
	movi	v5.16b, #47
	ldur	q2, [x16, #-15]
	ldur	q3, [x16, #1]
	and	v2.16b, v2.16b, v1.16b
	and	v1.16b, v3.16b, v1.16b
	ldp	q3, q4, [x16, #-16]
	orr	v2.16b, v2.16b, v3.16b
	orr	v1.16b, v1.16b, v4.16b
	cmeq	v2.16b, v2.16b, v5.16b
	cmeq	v1.16b, v1.16b, v5.16b
	and	v2.16b, v2.16b, v0.16b
	and	v1.16b, v1.16b, v0.16b
	addp	v2.16b, v2.16b, v2.16b
	addp	v1.16b, v1.16b, v1.16b
	addp	v2.16b, v2.16b, v2.16b
	addp	v1.16b, v1.16b, v1.16b
	addp	v2.16b, v2.16b, v2.16b
	addp	v1.16b, v1.16b, v1.16b
	orr	v1.16b, v1.16b, v2.16b
	umov	w16, v1.h[0]
	cbnz	w16, .Lunix_path_BB65_16
	add	x15, x15, #32
	cmp	x15, x14
	b.lo	.Lunix_path_BB65_34
	b	.Lunix_path_BB65_61
.Lunix_path_BB65_36:
	add	x11, x12, #16
.Lunix_path_BB65_37:
	cmp	x11, x9
	b.hs	.Lunix_path_BB65_49
	add	x11, x11, #3
	b	.Lunix_path_BB65_41
.Lunix_path_BB65_39:
	cmp	w13, #47
	b.eq	.Lunix_path_BB65_48
.Lunix_path_BB65_40:
	cmp	x12, x9
	add	x11, x11, #1
	b.hs	.Lunix_path_BB65_61
.Lunix_path_BB65_41:
	add	x12, x10, x11
	ldurb	w12, [x12, #-3]
	cmp	w12, #47
	sub	x12, x11, #2
	b.ne	.Lunix_path_BB65_40
	cmp	x9, x12
	b.ls	.Lunix_path_BB65_48
	add	x13, x10, x11
	ldurb	w13, [x13, #-2]
	cmp	w13, #46
	b.ne	.Lunix_path_BB65_39
	sub	x13, x11, #1
	cmp	x9, x13
	b.ls	.Lunix_path_BB65_48
	add	x13, x10, x11
	ldurb	w13, [x13, #-1]
	cmp	w13, #46
	b.ne	.Lunix_path_BB65_39
	cmp	x9, x11
	b.ls	.Lunix_path_BB65_48
	ldrb	w13, [x10, x11]
	b	.Lunix_path_BB65_39
.Lunix_path_BB65_48:
	sub	x11, x11, #3
.Lunix_path_BB65_49:
	cmp	x11, x9
	b.eq	.Lunix_path_BB65_61
.Lunix_path_BB65_50:
	cmp	w8, #47
	b.eq	.Lunix_path_BB65_60
	cmp	w8, #46
	b.ne	.Lunix_path_BB65_57
	cmp	x22, #1
	b.eq	.Lunix_path_BB65_60
	ldrb	w8, [x23, #1]
	cmp	w8, #47
	b.eq	.Lunix_path_BB65_60
	cmp	w8, #46
	b.ne	.Lunix_path_BB65_57
	cmp	x22, #3
	b.lo	.Lunix_path_BB65_60
	ldrb	w8, [x23, #2]
	cmp	w8, #47
	b.eq	.Lunix_path_BB65_60
.Lunix_path_BB65_57:
	add	x8, x23, x22
	ldurb	w9, [x8, #-1]
	cmp	w9, #46
	b.ne	.Lunix_path_BB65_66
	cmp	x22, #1
	b.eq	.Lunix_path_BB65_60
	ldurb	w8, [x8, #-2]
	cmp	w8, #47
	b.eq	.Lunix_path_BB65_66
.Lunix_path_BB65_60:
	add	x0, x21, x28
	mov	x1, x22
	bl	path_within.normal.is_resolved
	tbz	w0, #0, .Lunix_path_BB65_66
.Lunix_path_BB65_61:
	cmp	x22, x24
	b.hi	.Lunix_path_BB65_214
	sub	x8, x20, x23
	cmp	x8, x22
	b.hs	.Lunix_path_BB65_98
	cmp	x22, #8
	b.lo	.Lunix_path_BB65_65
	add	x8, x27, x19
	add	x9, x28, x21
	sub	x8, x8, x9
	cmp	x8, #32
	b.hs	.Lunix_path_BB65_99
.Lunix_path_BB65_65:
	mov	x8, xzr
	b	.Lunix_path_BB65_212
.Lunix_path_BB65_66:
	stp	xzr, xzr, [sp, #8]
	str	xzr, [sp, #24]
	cbz	x22, .Lunix_path_BB65_75
	add	x8, x23, x22
	ldrb	w9, [x23]
	mov	x25, x22
	ldurb	w8, [x8, #-1]
	cmp	w9, #47
	and	w8, w8, #0xfe
	cset	w26, eq
	cmp	w8, #46
	b.eq	.Lunix_path_BB65_69
	b	.Lunix_path_BB65_76
.Lunix_path_BB65_68:
	mov	x25, x1
	cbz	x1, .Lunix_path_BB65_76
.Lunix_path_BB65_69:
	subs	x1, x25, #1
	b.eq	.Lunix_path_BB65_76
	add	x8, x23, x1
	ldrb	w9, [x8]
	cmp	w9, #47
	b.eq	.Lunix_path_BB65_73
	cmp	w9, #46
	b.ne	.Lunix_path_BB65_76
	ldurb	w8, [x8, #-1]
	cmp	w8, #47
	b.ne	.Lunix_path_BB65_76
.Lunix_path_BB65_73:
	sub	x8, x22, x1
	cmp	x8, #8
	b.ne	.Lunix_path_BB65_68
	add	x0, x21, x28
	bl	unix_path.filler.trimmed_blocks_len
	mov	x1, x0
	b	.Lunix_path_BB65_68
.Lunix_path_BB65_75:
	mov	w26, wzr
	mov	x25, xzr
.Lunix_path_BB65_76:
	mov	x2, xzr
	b	.Lunix_path_BB65_78
.Lunix_path_BB65_77:
	mov	w8, #1
	add	x2, x8, x2
	cmp	x2, #4
	b.hs	.Lunix_path_BB65_84
.Lunix_path_BB65_78:
	cmp	x2, x25
	b.hs	.Lunix_path_BB65_85
	ldrb	w8, [x23, x2]
	cmp	w8, #47
	b.eq	.Lunix_path_BB65_77
	cmp	w8, #46
	b.ne	.Lunix_path_BB65_85
	add	x8, x2, #1
	cmp	x8, x25
	b.eq	.Lunix_path_BB65_77
	ldrb	w8, [x23, x8]
	cmp	w8, #47
	b.ne	.Lunix_path_BB65_85
	mov	w8, #2
	add	x2, x8, x2
	cmp	x2, #4
	b.lo	.Lunix_path_BB65_78
.Lunix_path_BB65_84:
	add	x0, x21, x28
	mov	x1, x25
	bl	unix_path.filler.filler_end_from
	mov	x2, x0
.Lunix_path_BB65_85:
	subs	x0, x25, x2
	b.eq	.Lunix_path_BB65_152
	add	x8, x23, x2
	add	x1, x23, x2
	ldrb	w9, [x8], #1
	cmp	w9, #47
	cset	w10, eq
	csetm	x9, eq
	csel	x11, x1, x8, ne
	subs	x8, x0, x10
	b.eq	.Lunix_path_BB65_152
	ldrb	w12, [x11]
	cmp	w12, #47
	b.eq	.Lunix_path_BB65_152
	cmp	w12, #46
	b.ne	.Lunix_path_BB65_94
	cmp	x8, #2
	b.lo	.Lunix_path_BB65_152
	ldrb	w12, [x11, #1]
	cmp	w12, #47
	b.eq	.Lunix_path_BB65_152
	cmp	w12, #46
	b.ne	.Lunix_path_BB65_94
	cmp	x8, #2
	b.eq	.Lunix_path_BB65_152
	ldrb	w12, [x11, #2]
	cmp	w12, #47
	b.eq	.Lunix_path_BB65_152
.Lunix_path_BB65_94:
	add	x14, x23, x25
	ldurb	w12, [x14, #-1]
	and	w12, w12, #0xfe
	cmp	w12, #46
	b.eq	.Lunix_path_BB65_152
	subs	x12, x8, #17
	b.hs	.Lunix_path_BB65_101
.Lunix_path_BB65_96:
	cmp	x8, #9
	b.hs	.Lunix_path_BB65_115
	mov	x12, xzr
	b	.Lunix_path_BB65_131
.Lunix_path_BB65_98:
	mov	x0, x20
	mov	x1, x23
	mov	x2, x22
	bl	memmove
	b	.Lunix_path_BB65_214
.Lunix_path_BB65_99:
	cmp	x22, #32
	b.hs	.Lunix_path_BB65_109
	mov	x8, xzr
	b	.Lunix_path_BB65_113
.Lunix_path_BB65_101:
	cmp	x8, #32
	b.hi	.Lunix_path_BB65_117
	movi	v0.16b, #208
	ldur	q1, [x11, #1]
	ldr	q3, [x11]
	adrp	x13, .Lunix_path_CPI65_0
	and	v2.16b, v1.16b, v0.16b
	movi	v1.16b, #47
	orr	v2.16b, v2.16b, v3.16b
	cmeq	v3.16b, v2.16b, v1.16b
	ldr	q2, [x13, :lo12:.Lunix_path_CPI65_0]
	and	v3.16b, v3.16b, v2.16b
	addp	v3.16b, v3.16b, v3.16b
	addp	v3.16b, v3.16b, v3.16b
	addp	v3.16b, v3.16b, v3.16b
	umov	w13, v3.h[0]
	cbnz	w13, .Lunix_path_BB65_104
	ldur	q3, [x14, #-16]
	and	v0.16b, v3.16b, v0.16b
	ldur	q3, [x14, #-17]
	orr	v0.16b, v0.16b, v3.16b
	cmeq	v0.16b, v0.16b, v1.16b
	and	v0.16b, v0.16b, v2.16b
	addp	v0.16b, v0.16b, v0.16b
	addp	v0.16b, v0.16b, v0.16b
	addp	v0.16b, v0.16b, v0.16b
	umov	w13, v0.h[0]
	cbz	w13, .Lunix_path_BB65_144
.Lunix_path_BB65_104:
	cmp	x8, #18
	b.ls	.Lunix_path_BB65_96
	subs	x13, x8, #19
	b.ne	.Lunix_path_BB65_119
	mov	x14, xzr
.Lunix_path_BB65_107:
	cmp	x12, x14
	movi	v0.16b, #208
	csel	x12, x12, x14, lo
	add	x14, x11, x12
	ldur	q1, [x14, #1]
	ldr	q2, [x14]
	adrp	x14, .Lunix_path_CPI65_0
	and	v1.16b, v1.16b, v0.16b
	movi	v0.16b, #47
	orr	v1.16b, v1.16b, v2.16b
	cmeq	v2.16b, v1.16b, v0.16b
	ldr	q1, [x14, :lo12:.Lunix_path_CPI65_0]
	and	v2.16b, v2.16b, v1.16b
	addp	v2.16b, v2.16b, v2.16b
	addp	v2.16b, v2.16b, v2.16b
	addp	v2.16b, v2.16b, v2.16b
	umov	w14, v2.h[0]
	cbz	w14, .Lunix_path_BB65_130
	movi	v2.16b, #46
	add	x11, x11, x13
	ldur	q3, [x11, #2]
	ldur	q4, [x11, #3]
	cmeq	v4.16b, v4.16b, v0.16b
	cmeq	v5.16b, v3.16b, v2.16b
	cmeq	v3.16b, v3.16b, v0.16b
	and	v4.16b, v5.16b, v4.16b
	ldur	q5, [x11, #1]
	cmeq	v2.16b, v5.16b, v2.16b
	orr	v3.16b, v3.16b, v4.16b
	ldr	q4, [x11]
	and	v2.16b, v2.16b, v3.16b
	cmeq	v3.16b, v4.16b, v0.16b
	cmeq	v0.16b, v5.16b, v0.16b
	orr	v0.16b, v0.16b, v2.16b
	and	v1.16b, v3.16b, v1.16b
	and	v0.16b, v1.16b, v0.16b
	addp	v0.16b, v0.16b, v0.16b
	addp	v0.16b, v0.16b, v0.16b
	addp	v0.16b, v0.16b, v0.16b
	umov	w11, v0.h[0]
	orr	w11, w11, #0x10000
	rbit	w11, w11
	clz	w11, w11
	add	x12, x13, x11
	b	.Lunix_path_BB65_131
.Lunix_path_BB65_109:
	add	x10, x28, x21
	add	x11, x27, x19
	and	x9, x22, #0x18
	and	x8, x22, #0xffffffffffffffe0
	add	x10, x10, #16
	add	x11, x11, #16
	and	x12, x22, #0xffffffffffffffe0
.Lunix_path_BB65_110:
	ldp	q0, q1, [x10, #-16]
	subs	x12, x12, #32
	add	x10, x10, #32
	stp	q0, q1, [x11, #-16]
	add	x11, x11, #32
	b.ne	.Lunix_path_BB65_110
	cmp	x22, x8
	b.eq	.Lunix_path_BB65_214
	cbz	x9, .Lunix_path_BB65_212
.Lunix_path_BB65_113:
	mov	x9, x8
	and	x8, x22, #0xfffffffffffffff8
	add	x10, x28, x9
	add	x11, x27, x9
	sub	x9, x9, x8
	add	x10, x21, x10
	add	x11, x19, x11
.Lunix_path_BB65_114:
	ldr	d0, [x10], #8
	adds	x9, x9, #8
	str	d0, [x11], #8
	b.ne	.Lunix_path_BB65_114
	b	.Lunix_path_BB65_213
.Lunix_path_BB65_115:
	movi	v0.8b, #254
	movi	v1.8b, #47
	ldr	d3, [x11]
	ldur	d4, [x11, #1]
	movi	v2.8b, #46
	adrp	x12, .Lunix_path_CPI65_1
	and	v4.8b, v4.8b, v0.8b
	cmeq	v5.8b, v3.8b, v1.8b
	ldr	d3, [x12, :lo12:.Lunix_path_CPI65_1]
	cmeq	v4.8b, v4.8b, v2.8b
	and	v5.8b, v5.8b, v3.8b
	and	v4.8b, v5.8b, v4.8b
	addv	b4, v4.8b
	fmov	w12, s4
	orr	w12, w12, #0x100
	rbit	w12, w12
	clz	w12, w12
	cmp	w12, #8
	b.lo	.Lunix_path_BB65_131
	cmp	x8, #17
	mov	w12, #17
	csel	x12, x8, x12, lo
	sub	x12, x12, #9
	add	x11, x11, x12
	ldr	d4, [x11]
	ldur	d5, [x11, #1]
	and	v0.8b, v5.8b, v0.8b
	cmeq	v1.8b, v4.8b, v1.8b
	cmeq	v0.8b, v0.8b, v2.8b
	and	v1.8b, v1.8b, v3.8b
	and	v0.8b, v1.8b, v0.8b
	addv	b0, v0.8b
	fmov	w11, s0
	orr	w11, w11, #0x100
	rbit	w11, w11
	clz	w11, w11
	add	x12, x12, x11
	b	.Lunix_path_BB65_131
.Lunix_path_BB65_117:
	sub	x13, x8, #33
	movi	v0.16b, #208
	ldur	q2, [x14, #-16]
	add	x15, x11, x13
	ldur	q3, [x14, #-17]
	movi	v4.16b, #47
	ldur	q1, [x15, #1]
	adrp	x14, .Lunix_path_CPI65_0
	and	v1.16b, v1.16b, v0.16b
	and	v0.16b, v2.16b, v0.16b
	ldr	q2, [x15]
	orr	v1.16b, v1.16b, v2.16b
	orr	v0.16b, v0.16b, v3.16b
	cmeq	v1.16b, v1.16b, v4.16b
	cmeq	v2.16b, v0.16b, v4.16b
	ldr	q0, [x14, :lo12:.Lunix_path_CPI65_0]
	and	v1.16b, v1.16b, v0.16b
	and	v2.16b, v2.16b, v0.16b
	addp	v1.16b, v1.16b, v1.16b
	addp	v2.16b, v2.16b, v2.16b
	addp	v1.16b, v1.16b, v1.16b
	addp	v2.16b, v2.16b, v2.16b
	addp	v1.16b, v1.16b, v1.16b
	addp	v2.16b, v2.16b, v2.16b
	orr	v1.16b, v2.16b, v1.16b
	umov	w14, v1.h[0]
	cbz	w14, .Lunix_path_BB65_126
	sub	x13, x8, #19
.Lunix_path_BB65_119:
	mov	x14, xzr
	b	.Lunix_path_BB65_123
.Lunix_path_BB65_120:
	movi	v4.16b, #46
	ldur	q5, [x15, #2]
	ldur	q6, [x15, #3]
	cmeq	v1.16b, v1.16b, v2.16b
	cmeq	v6.16b, v6.16b, v2.16b
	cmeq	v7.16b, v5.16b, v4.16b
	cmeq	v5.16b, v5.16b, v2.16b
	cmeq	v4.16b, v0.16b, v4.16b
	cmeq	v0.16b, v0.16b, v2.16b
	and	v1.16b, v1.16b, v3.16b
	and	v6.16b, v7.16b, v6.16b
	orr	v5.16b, v5.16b, v6.16b
	and	v4.16b, v4.16b, v5.16b
	orr	v0.16b, v0.16b, v4.16b
	and	v0.16b, v1.16b, v0.16b
	addp	v0.16b, v0.16b, v0.16b
	addp	v0.16b, v0.16b, v0.16b
	addp	v0.16b, v0.16b, v0.16b
	umov	w15, v0.h[0]
	orr	w15, w15, #0x10000
	rbit	w15, w15
	clz	w15, w15
	cmp	w15, #15
	b.ls	.Lunix_path_BB65_125
	add	x14, x14, #16
.Lunix_path_BB65_122:
	cmp	x14, x13
	b.hs	.Lunix_path_BB65_107
.Lunix_path_BB65_123:
	movi	v1.16b, #208
	add	x15, x11, x14
	movi	v2.16b, #47
	ldur	q0, [x15, #1]
	adrp	x16, .Lunix_path_CPI65_0
	and	v3.16b, v0.16b, v1.16b
	ldr	q1, [x15]
	orr	v3.16b, v3.16b, v1.16b
	cmeq	v4.16b, v3.16b, v2.16b
	ldr	q3, [x16, :lo12:.Lunix_path_CPI65_0]
	and	v4.16b, v4.16b, v3.16b
	addp	v4.16b, v4.16b, v4.16b
	addp	v4.16b, v4.16b, v4.16b
	addp	v4.16b, v4.16b, v4.16b
	umov	w16, v4.h[0]
	cbnz	w16, .Lunix_path_BB65_120
	add	x14, x14, #16
	cmp	x14, x13
	b.lo	.Lunix_path_BB65_123
	b	.Lunix_path_BB65_122
.Lunix_path_BB65_125:
	add	x12, x14, w15, uxtw
	b	.Lunix_path_BB65_131
.Lunix_path_BB65_126:
	cbz	x13, .Lunix_path_BB65_144
	add	x15, x28, x2
	mov	x14, xzr
	add	x15, x15, x21
	add	x15, x15, x10
	add	x15, x15, #16
.Lunix_path_BB65_128:
	movi	v1.16b, #208
	add	x16, x15, x14
	movi	v5.16b, #47
	ldur	q2, [x16, #-15]
	ldur	q3, [x16, #1]
	and	v2.16b, v2.16b, v1.16b
	and	v1.16b, v3.16b, v1.16b
	ldp	q3, q4, [x16, #-16]
	orr	v2.16b, v2.16b, v3.16b
	orr	v1.16b, v1.16b, v4.16b
	cmeq	v2.16b, v2.16b, v5.16b
	cmeq	v1.16b, v1.16b, v5.16b
	and	v2.16b, v2.16b, v0.16b
	and	v1.16b, v1.16b, v0.16b
	addp	v2.16b, v2.16b, v2.16b
	addp	v1.16b, v1.16b, v1.16b
	addp	v2.16b, v2.16b, v2.16b
	addp	v1.16b, v1.16b, v1.16b
	addp	v2.16b, v2.16b, v2.16b
	addp	v1.16b, v1.16b, v1.16b
	orr	v1.16b, v1.16b, v2.16b
	umov	w16, v1.h[0]
	cbnz	w16, .Lunix_path_BB65_104
	add	x14, x14, #32
	cmp	x14, x13
	b.lo	.Lunix_path_BB65_128
	b	.Lunix_path_BB65_144
.Lunix_path_BB65_130:
	add	x12, x12, #16
.Lunix_path_BB65_131:
	cmp	x12, x8
	b.hs	.Lunix_path_BB65_143
	add	x11, x28, x12
	add	x9, x0, x9
	add	x11, x11, x2
	add	x10, x11, x10
	add	x10, x10, x21
	add	x10, x10, #1
	b	.Lunix_path_BB65_135
.Lunix_path_BB65_133:
	cmp	w13, #47
	b.eq	.Lunix_path_BB65_143
.Lunix_path_BB65_134:
	cmp	x11, x8
	add	x10, x10, #1
	mov	x12, x11
	b.hs	.Lunix_path_BB65_142
.Lunix_path_BB65_135:
	ldurb	w11, [x10, #-1]
	cmp	w11, #47
	add	x11, x12, #1
	b.ne	.Lunix_path_BB65_134
	cmp	x8, x11
	b.ls	.Lunix_path_BB65_143
	ldrb	w13, [x10]
	cmp	w13, #46
	b.ne	.Lunix_path_BB65_133
	add	x13, x12, #2
	cmp	x8, x13
	b.ls	.Lunix_path_BB65_143
	ldrb	w13, [x10, #1]
	cmp	w13, #46
	b.ne	.Lunix_path_BB65_133
	add	x13, x12, #3
	cmp	x8, x13
	b.ls	.Lunix_path_BB65_143
	ldrb	w13, [x10, #2]
	b	.Lunix_path_BB65_133
.Lunix_path_BB65_142:
	mov	x12, x9
.Lunix_path_BB65_143:
	cmp	x12, x8
	b.ne	.Lunix_path_BB65_152
.Lunix_path_BB65_144:
	add	x8, x0, #1
	tbz	w26, #0, .Lunix_path_BB65_177
	cmp	x8, #1
	csinc	x26, x8, xzr, hi
	cmp	x26, x24
	b.hi	.Lunix_path_BB65_189
	mvn	x8, x0
	add	x8, x26, x8
	mov	x23, x8
	add	x8, x20, x8
	add	x22, x8, #1
	sub	x8, x22, x1
	cmp	x8, x0
	b.hs	.Lunix_path_BB65_190
	cmp	x0, #8
	b.lo	.Lunix_path_BB65_149
	add	x8, x27, x19
	add	x9, x28, x25
	add	x8, x8, x26
	add	x9, x9, x21
	sub	x8, x8, x9
	cmp	x8, #32
	b.hs	.Lunix_path_BB65_196
.Lunix_path_BB65_149:
	mov	x8, xzr
.Lunix_path_BB65_150:
	add	x9, x8, x2
	add	x10, x21, x28
	add	x11, x27, x26
	sub	x8, x9, x25
	add	x9, x10, x9
	add	x10, x19, x11
.Lunix_path_BB65_151:
	ldrb	w11, [x9], #1
	strb	w11, [x10, x8]
	adds	x8, x8, #1
	b.lo	.Lunix_path_BB65_151
	b	.Lunix_path_BB65_191
.Lunix_path_BB65_152:
	add	x0, sp, #8
	mov	x1, x23
	mov	x2, x22
	bl	path_within.backward.count_resolved
	ldp	x4, x8, [sp, #16]
	tbz	w26, #0, .Lunix_path_BB65_156
	cmp	x8, #1
	csinc	x26, x8, xzr, hi
	cmp	x26, x24
	b.hi	.Lunix_path_BB65_189
	cbz	x8, .Lunix_path_BB65_169
	add	x0, x20, #1
	mov	x1, x26
	mov	x2, x23
	mov	x3, x22
	bl	path_within.backward.put_names_before
	subs	x8, x0, #3
	b.hs	.Lunix_path_BB65_170
	b	.Lunix_path_BB65_193
.Lunix_path_BB65_156:
	ldr	x9, [sp, #8]
	cbz	x9, .Lunix_path_BB65_159
	sub	x9, x9, #1
	mov	x10, #6148914691236517205
	cmp	x9, x10
	csel	x9, x9, x10, lo
	add	x9, x9, x9, lsl #1
	adds	x9, x9, #2
	csinv	x9, x9, xzr, lo
	adds	x9, x8, x9
	csinv	x26, x9, xzr, lo
	cmp	x26, x24
	b.hi	.Lunix_path_BB65_189
	add	x24, x26, #1
	cbnz	x8, .Lunix_path_BB65_161
	b	.Lunix_path_BB65_162
.Lunix_path_BB65_159:
	cbz	x8, .Lunix_path_BB65_176
	sub	x26, x8, #1
	cmp	x26, x24
	mov	x24, x8
	mov	x0, x26
	b.hi	.Lunix_path_BB65_215
.Lunix_path_BB65_161:
	add	x0, x19, x27
	mov	x1, x24
	mov	x2, x23
	mov	x3, x22
	bl	path_within.backward.put_names_before
	mov	x24, x0
.Lunix_path_BB65_162:
	subs	x8, x24, #3
	b.lo	.Lunix_path_BB65_189
.Lunix_path_BB65_163:
	mov	x9, #-6148914691236517206
	movk	x9, #43691
	umulh	x9, x8, x9
	lsr	x10, x9, #1
	add	x9, x27, x24
	add	x9, x9, x19
	sub	x9, x9, #4
	add	x10, x10, #1
	b	.Lunix_path_BB65_167
.Lunix_path_BB65_164:
	mov	w12, #11822
	strh	w12, [x11]
	cbz	x8, .Lunix_path_BB65_166
.Lunix_path_BB65_165:
	mov	w11, #47
	strb	w11, [x9]
.Lunix_path_BB65_166:
	sub	x10, x10, #1
	sub	x9, x9, #3
	sub	x8, x8, #3
	cbz	x10, .Lunix_path_BB65_189
.Lunix_path_BB65_167:
	add	x11, x9, #1
	adrp	x12, .Lunix_path_static.10
	add	x12, x12, :lo12:.Lunix_path_static.10
	sub	x12, x11, x12
	cmp	x12, #1
	b.hi	.Lunix_path_BB65_164
	mov	w11, #11822
	sturh	w11, [x9, #1]
	cbnz	x8, .Lunix_path_BB65_165
	b	.Lunix_path_BB65_166
.Lunix_path_BB65_169:
	mov	x0, x26
	subs	x8, x26, #3
	b.lo	.Lunix_path_BB65_193
.Lunix_path_BB65_170:
	mov	x9, #-6148914691236517206
	movk	x9, #43691
	umulh	x9, x8, x9
	lsr	x10, x9, #1
	add	x9, x27, x0
	add	x9, x9, x19
	sub	x9, x9, #3
	add	x10, x10, #1
	b	.Lunix_path_BB65_174
.Lunix_path_BB65_171:
	mov	w12, #11822
	strh	w12, [x11]
	cbz	x8, .Lunix_path_BB65_173
.Lunix_path_BB65_172:
	mov	w11, #47
	strb	w11, [x9]
.Lunix_path_BB65_173:
	sub	x10, x10, #1
	sub	x9, x9, #3
	sub	x8, x8, #3
	cbz	x10, .Lunix_path_BB65_193
.Lunix_path_BB65_174:
	add	x11, x9, #1
	adrp	x12, .Lunix_path_static.10
	add	x12, x12, :lo12:.Lunix_path_static.10
	sub	x12, x11, x12
	cmp	x12, #1
	b.hi	.Lunix_path_BB65_171
	mov	w11, #11822
	sturh	w11, [x9, #1]
	cbnz	x8, .Lunix_path_BB65_172
	b	.Lunix_path_BB65_173
.Lunix_path_BB65_176:
	mov	x0, xzr
	b	.Lunix_path_BB65_215
.Lunix_path_BB65_177:
	cbz	x8, .Lunix_path_BB65_179
	cmp	x0, x24
	mov	x26, x0
	b.ls	.Lunix_path_BB65_180
	b	.Lunix_path_BB65_215
.Lunix_path_BB65_179:
	mov	x26, xzr
.Lunix_path_BB65_180:
	sub	x24, x26, x0
	add	x20, x20, x24
	sub	x9, x20, x1
	cmp	x9, x0
	b.hs	.Lunix_path_BB65_186
	cmp	x0, #8
	b.lo	.Lunix_path_BB65_183
	add	x9, x28, x25
	add	x10, x27, x19
	cmp	x8, #1
	add	x11, x9, x21
	csinc	x9, x8, xzr, hi
	sub	x10, x11, x10
	sub	x10, x10, x9
	cmn	x10, #33
	b.ls	.Lunix_path_BB65_194
.Lunix_path_BB65_183:
	mov	x9, xzr
.Lunix_path_BB65_184:
	sub	x10, x25, x9
	add	x11, x28, x9
	add	x9, x27, x9
	cmp	x8, #1
	add	x9, x9, x2
	mvn	x12, x25
	csinc	x8, x8, xzr, hi
	add	x13, x21, x2
	add	x12, x19, x12
	add	x14, x9, x8
	sub	x8, x10, x2
	add	x9, x13, x11
	add	x10, x12, x14
.Lunix_path_BB65_185:
	ldrb	w11, [x9], #1
	subs	x8, x8, #1
	strb	w11, [x10], #1
	b.ne	.Lunix_path_BB65_185
	b	.Lunix_path_BB65_187
.Lunix_path_BB65_186:
	mov	x2, x0
	mov	x0, x20
	bl	memmove
.Lunix_path_BB65_187:
	cbz	x24, .Lunix_path_BB65_189
	mov	w8, #47
	sturb	w8, [x20, #-1]
	subs	x8, x24, #3
	b.hs	.Lunix_path_BB65_163
.Lunix_path_BB65_189:
	mov	x0, x26
	b	.Lunix_path_BB65_215
.Lunix_path_BB65_190:
	mov	x2, x0
	mov	x0, x22
	bl	memmove
.Lunix_path_BB65_191:
	cbz	x23, .Lunix_path_BB65_193
	mov	w8, #47
	mov	x0, x23
	sturb	w8, [x22, #-1]
	subs	x8, x23, #3
	b.hs	.Lunix_path_BB65_170
.Lunix_path_BB65_193:
	mov	w8, #47
	mov	x0, x26
	strb	w8, [x20]
	b	.Lunix_path_BB65_215
.Lunix_path_BB65_194:
	cmp	x0, #32
	b.hs	.Lunix_path_BB65_198
	mov	x9, xzr
	b	.Lunix_path_BB65_202
.Lunix_path_BB65_196:
	cmp	x0, #32
	b.hs	.Lunix_path_BB65_205
	mov	x8, xzr
	b	.Lunix_path_BB65_209
.Lunix_path_BB65_198:
	add	x10, x27, x2
	add	x12, x28, x2
	and	x13, x0, #0xffffffffffffffe0
	add	x9, x10, x9
	add	x12, x12, x21
	and	x10, x0, #0x18
	sub	x11, x9, x25
	and	x9, x0, #0xffffffffffffffe0
	add	x12, x12, #16
	add	x11, x11, x19
	add	x11, x11, #15
.Lunix_path_BB65_199:
	ldp	q0, q1, [x12, #-16]
	subs	x13, x13, #32
	add	x12, x12, #32
	stp	q0, q1, [x11, #-16]
	add	x11, x11, #32
	b.ne	.Lunix_path_BB65_199
	cmp	x0, x9
	b.eq	.Lunix_path_BB65_187
	cbz	x10, .Lunix_path_BB65_184
.Lunix_path_BB65_202:
	mov	x10, x9
	add	x12, x27, x2
	cmp	x8, #1
	add	x12, x12, x9
	csinc	x13, x8, xzr, hi
	mvn	x14, x25
	and	x9, x0, #0xfffffffffffffff8
	add	x11, x28, x2
	add	x15, x21, x10
	add	x12, x12, x13
	add	x13, x19, x14
	sub	x10, x10, x9
	add	x11, x15, x11
	add	x12, x13, x12
.Lunix_path_BB65_203:
	ldr	d0, [x11], #8
	adds	x10, x10, #8
	str	d0, [x12], #8
	b.ne	.Lunix_path_BB65_203
	cmp	x0, x9
	b.eq	.Lunix_path_BB65_187
	b	.Lunix_path_BB65_184
.Lunix_path_BB65_205:
	add	x8, x27, x2
	add	x11, x28, x2
	and	x9, x0, #0x18
	add	x8, x8, x26
	add	x11, x11, x21
	and	x12, x0, #0xffffffffffffffe0
	sub	x10, x8, x25
	and	x8, x0, #0xffffffffffffffe0
	add	x11, x11, #16
	add	x10, x10, x19
	add	x10, x10, #16
.Lunix_path_BB65_206:
	ldp	q0, q1, [x11, #-16]
	subs	x12, x12, #32
	add	x11, x11, #32
	stp	q0, q1, [x10, #-16]
	add	x10, x10, #32
	b.ne	.Lunix_path_BB65_206
	cmp	x0, x8
	b.eq	.Lunix_path_BB65_191
	cbz	x9, .Lunix_path_BB65_150
.Lunix_path_BB65_209:
	mov	x9, x8
	add	x8, x27, x2
	add	x11, x28, x2
	add	x10, x8, x9
	and	x8, x0, #0xfffffffffffffff8
	add	x12, x21, x9
	add	x10, x10, x26
	sub	x9, x9, x8
	sub	x13, x10, x25
	add	x10, x12, x11
	add	x11, x19, x13
.Lunix_path_BB65_210:
	ldr	d0, [x10], #8
	adds	x9, x9, #8
	str	d0, [x11], #8
	b.ne	.Lunix_path_BB65_210
	cmp	x0, x8
	b.eq	.Lunix_path_BB65_191
	b	.Lunix_path_BB65_150
.Lunix_path_BB65_212:
	ldrb	w9, [x23, x8]
	strb	w9, [x20, x8]
	add	x8, x8, #1
.Lunix_path_BB65_213:
	cmp	x22, x8
	b.ne	.Lunix_path_BB65_212
.Lunix_path_BB65_214:
	mov	x0, x22
.Lunix_path_BB65_215:
	ldp	x20, x19, [sp, #112]
	ldp	x22, x21, [sp, #96]
	ldp	x24, x23, [sp, #80]
	ldp	x26, x25, [sp, #64]
	ldp	x28, x27, [sp, #48]
	ldp	x29, x30, [sp, #32]
	add	sp, sp, #128
	ret
.Lunix_path_func_end65:
	.size	unix_path_resolved, .Lunix_path_func_end65-unix_path_resolved
	.section	.rodata.cst16,"aM",@progbits,16
	.p2align	4, 0x0
.Lunix_path_CPI66_0:
	.byte	1
	.byte	2
	.byte	4
	.byte	8
	.byte	16
	.byte	32
	.byte	64
	.byte	128
	.byte	1
	.byte	2
	.byte	4
	.byte	8
	.byte	16
	.byte	32
	.byte	64
	.byte	128
	.section	.rodata.cst8,"aM",@progbits,8
	.p2align	3, 0x0
.Lunix_path_CPI66_1:
	.byte	1
	.byte	2
	.byte	4
	.byte	8
	.byte	16
	.byte	32
	.byte	64
	.byte	128
	.section	.text.unix_path_starts_with,"ax",@progbits
	.globl	unix_path_starts_with
	.p2align	2
	.type	unix_path_starts_with,@function
unix_path_starts_with:
	mov	w9, #4096
	cmp	x0, #0
	csel	x8, x9, xzr, eq
	cmp	x2, #0
	csel	x11, x9, xzr, eq
	cbz	x3, .Lunix_path_BB66_17
	sub	sp, sp, #48
	cmp	x3, x1
	add	x9, x0, x8
	add	x8, x2, x11
	csel	x10, x3, x1, lo
	stp	x29, x30, [sp, #32]
	add	x29, sp, #32
	cmp	x10, #15
	stp	xzr, xzr, [sp, #8]
	str	xzr, [sp, #24]
	b.hi	.Lunix_path_BB66_18
	cmp	x10, #7
	b.hi	.Lunix_path_BB66_27
	cbz	x1, .Lunix_path_BB66_31
	ldrb	w11, [x9]
	ldrb	w12, [x8]
	cmp	w11, w12
	b.ne	.Lunix_path_BB66_32
	cmp	x10, #1
	b.eq	.Lunix_path_BB66_33
	ldrb	w11, [x9, #1]
	ldrb	w12, [x8, #1]
	cmp	w11, w12
	b.ne	.Lunix_path_BB66_57
	cmp	x10, #2
	b.eq	.Lunix_path_BB66_33
	ldrb	w11, [x9, #2]
	ldrb	w12, [x8, #2]
	cmp	w11, w12
	b.ne	.Lunix_path_BB66_58
	cmp	x10, #3
	b.eq	.Lunix_path_BB66_33
	ldrb	w11, [x9, #3]
	ldrb	w12, [x8, #3]
	cmp	w11, w12
	b.ne	.Lunix_path_BB66_59
	cmp	x10, #4
	b.eq	.Lunix_path_BB66_33
	ldrb	w11, [x9, #4]
	ldrb	w12, [x8, #4]
	cmp	w11, w12
	b.ne	.Lunix_path_BB66_60
	cmp	x10, #5
	b.eq	.Lunix_path_BB66_33
	ldrb	w11, [x9, #5]
	ldrb	w12, [x8, #5]
	cmp	w11, w12
	b.ne	.Lunix_path_BB66_61
	cmp	x10, #6
	b.eq	.Lunix_path_BB66_33
	ldrb	w11, [x9, #6]
	ldrb	w12, [x8, #6]
	cmp	w11, w12
	mov	w11, #6
	csel	x10, x10, x11, eq
	b	.Lunix_path_BB66_33
.Lunix_path_BB66_17:
	mov	w0, #1
	ret
.Lunix_path_BB66_18:
	cmp	x10, #64
	sub	x11, x10, #16
	adrp	x12, .Lunix_path_CPI66_0
	mov	x13, xzr
	b.lo	.Lunix_path_BB66_25
	and	x14, x10, #0xffffffffffffffc0
.Lunix_path_BB66_20:
	add	x15, x9, x13
	add	x16, x8, x13
	ldp	q0, q1, [x15]
	ldp	q2, q3, [x15, #32]
	ldp	q4, q5, [x16]
	ldp	q6, q7, [x16, #32]
	cmeq	v0.16b, v0.16b, v4.16b
	cmeq	v1.16b, v1.16b, v5.16b
	ldr	q4, [x12, :lo12:.Lunix_path_CPI66_0]
	cmeq	v3.16b, v3.16b, v7.16b
	cmeq	v2.16b, v2.16b, v6.16b
	bic	v0.16b, v4.16b, v0.16b
	bic	v1.16b, v4.16b, v1.16b
	bic	v2.16b, v4.16b, v2.16b
	bic	v3.16b, v4.16b, v3.16b
	addp	v0.16b, v0.16b, v1.16b
	addp	v1.16b, v2.16b, v3.16b
	addp	v0.16b, v0.16b, v1.16b
	addp	v0.16b, v0.16b, v0.16b
	fmov	x15, d0
	cbnz	x15, .Lunix_path_BB66_25
	sub	x10, x10, #64
	add	x13, x13, #64
	cmp	x10, #63
	b.hi	.Lunix_path_BB66_20
	mov	x13, x14
	b	.Lunix_path_BB66_25
.Lunix_path_BB66_23:
	ldr	q0, [x9, x13]
	ldr	q1, [x8, x13]
	cmeq	v0.16b, v0.16b, v1.16b
	ldr	q1, [x12, :lo12:.Lunix_path_CPI66_0]
	bic	v0.16b, v1.16b, v0.16b
	addp	v0.16b, v0.16b, v0.16b
	addp	v0.16b, v0.16b, v0.16b
	addp	v0.16b, v0.16b, v0.16b
	umov	w10, v0.h[0]
	orr	w10, w10, #0x10000
	rbit	w10, w10
	clz	w10, w10
	cmp	w10, #15
	b.ls	.Lunix_path_BB66_29
	add	x13, x13, #16
.Lunix_path_BB66_25:
	cmp	x13, x11
	b.lo	.Lunix_path_BB66_23
	ldr	q0, [x9, x11]
	ldr	q1, [x8, x11]
	cmeq	v0.16b, v0.16b, v1.16b
	ldr	q1, [x12, :lo12:.Lunix_path_CPI66_0]
	bic	v0.16b, v1.16b, v0.16b
	addp	v0.16b, v0.16b, v0.16b
	addp	v0.16b, v0.16b, v0.16b
	addp	v0.16b, v0.16b, v0.16b
	umov	w10, v0.h[0]
	orr	w10, w10, #0x10000
	rbit	w10, w10
	clz	w10, w10
	add	x10, x11, x10
	b	.Lunix_path_BB66_33
.Lunix_path_BB66_27:
	ldr	d0, [x9]
	ldr	d1, [x8]
	adrp	x11, .Lunix_path_CPI66_1
	cmeq	v1.8b, v0.8b, v1.8b
	ldr	d0, [x11, :lo12:.Lunix_path_CPI66_1]
	bic	v1.8b, v0.8b, v1.8b
	addv	b1, v1.8b
	fmov	w11, s1
	orr	w11, w11, #0x100
	rbit	w11, w11
	clz	w11, w11
	cmp	w11, #8
	b.hs	.Lunix_path_BB66_30
	mov	x10, x11
	b	.Lunix_path_BB66_33
.Lunix_path_BB66_29:
	add	x10, x13, w10, uxtw
	b	.Lunix_path_BB66_33
.Lunix_path_BB66_30:
	sub	x10, x10, #8
	ldr	d1, [x9, x10]
	ldr	d2, [x8, x10]
	cmeq	v1.8b, v1.8b, v2.8b
	bic	v0.8b, v0.8b, v1.8b
	addv	b0, v0.8b
	fmov	w11, s0
	orr	w11, w11, #0x100
	rbit	w11, w11
	clz	w11, w11
	add	x10, x10, x11
	b	.Lunix_path_BB66_33
.Lunix_path_BB66_31:
	mov	x10, xzr
	mov	w11, #1
	cmp	xzr, x1
	b.lo	.Lunix_path_BB66_35
	b	.Lunix_path_BB66_36
.Lunix_path_BB66_32:
	mov	x10, xzr
.Lunix_path_BB66_33:
	cmp	x3, x10
	b.ls	.Lunix_path_BB66_40
	mov	w11, #1
	cmp	x10, x1
	b.hs	.Lunix_path_BB66_36
.Lunix_path_BB66_35:
	ldrb	w12, [x9, x10]
	cmp	w12, #47
	b.ne	.Lunix_path_BB66_47
.Lunix_path_BB66_36:
	mov	w12, wzr
	cbz	w11, .Lunix_path_BB66_38
.Lunix_path_BB66_37:
	ldrb	w11, [x8, x10]
	cmp	w11, #47
	csinc	w11, wzr, w11, eq
.Lunix_path_BB66_38:
	cmp	w12, w11
	b.ne	.Lunix_path_BB66_44
	cbnz	x10, .Lunix_path_BB66_46
	b	.Lunix_path_BB66_55
.Lunix_path_BB66_40:
	cmp	x3, x1
	b.hs	.Lunix_path_BB66_51
	add	x11, x9, x3
	ldrb	w12, [x11]
	cmp	w12, #47
	b.ne	.Lunix_path_BB66_50
	mov	w0, #1
.Lunix_path_BB66_43:
	ldp	x29, x30, [sp, #32]
	add	sp, sp, #48
	ret
.Lunix_path_BB66_44:
	cbz	x10, .Lunix_path_BB66_55
	add	x11, x9, x10
	ldurb	w11, [x11, #-1]
	cmp	w11, #47
	b.ne	.Lunix_path_BB66_52
.Lunix_path_BB66_46:
	sub	x2, x1, x10
	sub	x4, x3, x10
	add	x0, sp, #8
	add	x1, x9, x10
	add	x3, x8, x10
	bl	unix_path.pair.Comparison.rest_after_cut
	ldrb	w8, [sp, #8]
	cmp	w8, #1
	cset	w0, eq
	ldp	x29, x30, [sp, #32]
	add	sp, sp, #48
	ret
.Lunix_path_BB66_47:
	cmp	w12, #46
	eor	w13, w11, #0x1
	csinc	w13, w13, wzr, ne
	tbnz	w13, #0, .Lunix_path_BB66_49
	ldrb	w13, [x8, x10]
	and	w13, w13, #0xfe
	cmp	w13, #46
	b.ne	.Lunix_path_BB66_55
.Lunix_path_BB66_49:
	add	w12, w12, #1
	cbz	w11, .Lunix_path_BB66_38
	b	.Lunix_path_BB66_37
.Lunix_path_BB66_50:
	ldurb	w11, [x11, #-1]
	cmp	w11, #47
	b.ne	.Lunix_path_BB66_56
.Lunix_path_BB66_51:
	mov	w0, #1
	ldp	x29, x30, [sp, #32]
	add	sp, sp, #48
	ret
.Lunix_path_BB66_52:
	subs	x10, x10, #1
	mov	w0, wzr
	b.eq	.Lunix_path_BB66_43
	cmp	w11, #46
	b.ne	.Lunix_path_BB66_43
	add	x11, x9, x10
	ldurb	w11, [x11, #-1]
	cmp	w11, #47
	b.eq	.Lunix_path_BB66_46
.Lunix_path_BB66_55:
	mov	w0, wzr
	ldp	x29, x30, [sp, #32]
	add	sp, sp, #48
	ret
.Lunix_path_BB66_56:
	mov	w11, wzr
	cmp	x10, x1
	b.lo	.Lunix_path_BB66_35
	b	.Lunix_path_BB66_36
.Lunix_path_BB66_57:
	mov	w10, #1
	b	.Lunix_path_BB66_33
.Lunix_path_BB66_58:
	mov	w10, #2
	b	.Lunix_path_BB66_33
.Lunix_path_BB66_59:
	mov	w10, #3
	b	.Lunix_path_BB66_33
.Lunix_path_BB66_60:
	mov	w10, #4
	b	.Lunix_path_BB66_33
.Lunix_path_BB66_61:
	mov	w10, #5
	b	.Lunix_path_BB66_33
.Lunix_path_func_end66:
	.size	unix_path_starts_with, .Lunix_path_func_end66-unix_path_starts_with
	.section	.rodata.cst16,"aM",@progbits,16
	.p2align	4, 0x0
.Lunix_path_CPI67_0:
	.byte	1
	.byte	2
	.byte	4
	.byte	8
	.byte	16
	.byte	32
	.byte	64
	.byte	128
	.byte	1
	.byte	2
	.byte	4
	.byte	8
	.byte	16
	.byte	32
	.byte	64
	.byte	128
	.section	.rodata.cst8,"aM",@progbits,8
	.p2align	3, 0x0
.Lunix_path_CPI67_1:
	.byte	1
	.byte	2
	.byte	4
	.byte	8
	.byte	16
	.byte	32
	.byte	64
	.byte	128
	.section	.text.unix_path_strip_prefix,"ax",@progbits
	.globl	unix_path_strip_prefix
	.p2align	2
	.type	unix_path_strip_prefix,@function
unix_path_strip_prefix:
	sub	sp, sp, #112
	mov	w8, #4096
	cmp	x0, #0
	str	x25, [sp, #48]
	csel	x9, x8, xzr, eq
	cmp	x2, #0
	stp	x24, x23, [sp, #64]
	stp	x22, x21, [sp, #80]
	mov	x22, x3
	mov	x23, x2
	stp	x20, x19, [sp, #96]
	mov	x19, x4
	mov	x20, x1
	add	x21, x0, x9
	csel	x25, x8, xzr, eq
	stp	x29, x30, [sp, #32]
	add	x29, sp, #32
	cbz	x1, .Lunix_path_BB67_9
	mov	x24, x20
	b	.Lunix_path_BB67_3
.Lunix_path_BB67_2:
	mov	x24, x1
	cbz	x1, .Lunix_path_BB67_10
.Lunix_path_BB67_3:
	subs	x1, x24, #1
	b.eq	.Lunix_path_BB67_10
	add	x8, x21, x1
	ldrb	w9, [x8]
	cmp	w9, #47
	b.eq	.Lunix_path_BB67_7
	cmp	w9, #46
	b.ne	.Lunix_path_BB67_10
	ldurb	w8, [x8, #-1]
	cmp	w8, #47
	b.ne	.Lunix_path_BB67_10
.Lunix_path_BB67_7:
	sub	x8, x20, x1
	cmp	x8, #8
	b.ne	.Lunix_path_BB67_2
	mov	x0, x21
	bl	unix_path.filler.trimmed_blocks_len
	mov	x1, x0
	b	.Lunix_path_BB67_2
.Lunix_path_BB67_9:
	mov	x24, xzr
.Lunix_path_BB67_10:
	cbz	x22, .Lunix_path_BB67_67
	cmp	x22, x24
	add	x8, x23, x25
	stp	xzr, xzr, [sp, #8]
	csel	x9, x22, x24, lo
	str	xzr, [sp, #24]
	cmp	x9, #15
	b.hi	.Lunix_path_BB67_27
	cmp	x9, #7
	b.hi	.Lunix_path_BB67_36
	cbz	x24, .Lunix_path_BB67_40
	ldrb	w10, [x21]
	ldrb	w11, [x8]
	cmp	w10, w11
	b.ne	.Lunix_path_BB67_41
	cmp	x9, #1
	b.eq	.Lunix_path_BB67_42
	ldrb	w10, [x21, #1]
	ldrb	w11, [x8, #1]
	cmp	w10, w11
	b.ne	.Lunix_path_BB67_87
	cmp	x9, #2
	b.eq	.Lunix_path_BB67_42
	ldrb	w10, [x21, #2]
	ldrb	w11, [x8, #2]
	cmp	w10, w11
	b.ne	.Lunix_path_BB67_88
	cmp	x9, #3
	b.eq	.Lunix_path_BB67_42
	ldrb	w10, [x21, #3]
	ldrb	w11, [x8, #3]
	cmp	w10, w11
	b.ne	.Lunix_path_BB67_89
	cmp	x9, #4
	b.eq	.Lunix_path_BB67_42
	ldrb	w10, [x21, #4]
	ldrb	w11, [x8, #4]
	cmp	w10, w11
	b.ne	.Lunix_path_BB67_90
	cmp	x9, #5
	b.eq	.Lunix_path_BB67_42
	ldrb	w10, [x21, #5]
	ldrb	w11, [x8, #5]
	cmp	w10, w11
	b.ne	.Lunix_path_BB67_91
	cmp	x9, #6
	b.eq	.Lunix_path_BB67_42
	ldrb	w10, [x21, #6]
	ldrb	w11, [x8, #6]
	cmp	w10, w11
	mov	w10, #6
	csel	x9, x9, x10, eq
	b	.Lunix_path_BB67_42
.Lunix_path_BB67_27:
	cmp	x9, #64
	sub	x10, x9, #16
	adrp	x11, .Lunix_path_CPI67_0
	mov	x12, xzr
	b.lo	.Lunix_path_BB67_34
	and	x13, x9, #0xffffffffffffffc0
.Lunix_path_BB67_29:
	add	x14, x21, x12
	add	x15, x8, x12
	ldp	q0, q1, [x14]
	ldp	q2, q3, [x14, #32]
	ldp	q4, q5, [x15]
	ldp	q6, q7, [x15, #32]
	cmeq	v0.16b, v0.16b, v4.16b
	cmeq	v1.16b, v1.16b, v5.16b
	ldr	q4, [x11, :lo12:.Lunix_path_CPI67_0]
	cmeq	v3.16b, v3.16b, v7.16b
	cmeq	v2.16b, v2.16b, v6.16b
	bic	v0.16b, v4.16b, v0.16b
	bic	v1.16b, v4.16b, v1.16b
	bic	v2.16b, v4.16b, v2.16b
	bic	v3.16b, v4.16b, v3.16b
	addp	v0.16b, v0.16b, v1.16b
	addp	v1.16b, v2.16b, v3.16b
	addp	v0.16b, v0.16b, v1.16b
	addp	v0.16b, v0.16b, v0.16b
	fmov	x14, d0
	cbnz	x14, .Lunix_path_BB67_34
	sub	x9, x9, #64
	add	x12, x12, #64
	cmp	x9, #63
	b.hi	.Lunix_path_BB67_29
	mov	x12, x13
	b	.Lunix_path_BB67_34
.Lunix_path_BB67_32:
	ldr	q0, [x21, x12]
	ldr	q1, [x8, x12]
	cmeq	v0.16b, v0.16b, v1.16b
	ldr	q1, [x11, :lo12:.Lunix_path_CPI67_0]
	bic	v0.16b, v1.16b, v0.16b
	addp	v0.16b, v0.16b, v0.16b
	addp	v0.16b, v0.16b, v0.16b
	addp	v0.16b, v0.16b, v0.16b
	umov	w9, v0.h[0]
	orr	w9, w9, #0x10000
	rbit	w9, w9
	clz	w9, w9
	cmp	w9, #15
	b.ls	.Lunix_path_BB67_38
	add	x12, x12, #16
.Lunix_path_BB67_34:
	cmp	x12, x10
	b.lo	.Lunix_path_BB67_32
	ldr	q0, [x21, x10]
	ldr	q1, [x8, x10]
	cmeq	v0.16b, v0.16b, v1.16b
	ldr	q1, [x11, :lo12:.Lunix_path_CPI67_0]
	bic	v0.16b, v1.16b, v0.16b
	addp	v0.16b, v0.16b, v0.16b
	addp	v0.16b, v0.16b, v0.16b
	addp	v0.16b, v0.16b, v0.16b
	umov	w9, v0.h[0]
	orr	w9, w9, #0x10000
	rbit	w9, w9
	clz	w9, w9
	add	x9, x10, x9
	b	.Lunix_path_BB67_42
.Lunix_path_BB67_36:
	ldr	d0, [x21]
	ldr	d1, [x8]
	adrp	x10, .Lunix_path_CPI67_1
	cmeq	v1.8b, v0.8b, v1.8b
	ldr	d0, [x10, :lo12:.Lunix_path_CPI67_1]
	bic	v1.8b, v0.8b, v1.8b
	addv	b1, v1.8b
	fmov	w10, s1
	orr	w10, w10, #0x100
	rbit	w10, w10
	clz	w10, w10
	cmp	w10, #8
	b.hs	.Lunix_path_BB67_39
	mov	x9, x10
	b	.Lunix_path_BB67_42
.Lunix_path_BB67_38:
	add	x9, x12, w9, uxtw
	b	.Lunix_path_BB67_42
.Lunix_path_BB67_39:
	sub	x9, x9, #8
	ldr	d1, [x21, x9]
	ldr	d2, [x8, x9]
	cmeq	v1.8b, v1.8b, v2.8b
	bic	v0.8b, v0.8b, v1.8b
	addv	b0, v0.8b
	fmov	w10, s0
	orr	w10, w10, #0x100
	rbit	w10, w10
	clz	w10, w10
	add	x9, x9, x10
	b	.Lunix_path_BB67_42
.Lunix_path_BB67_40:
	mov	x9, xzr
	mov	w10, #1
	cmp	xzr, x24
	b.lo	.Lunix_path_BB67_44
	b	.Lunix_path_BB67_45
.Lunix_path_BB67_41:
	mov	x9, xzr
.Lunix_path_BB67_42:
	cmp	x22, x9
	b.ls	.Lunix_path_BB67_49
	mov	w10, #1
	cmp	x9, x24
	b.hs	.Lunix_path_BB67_45
.Lunix_path_BB67_44:
	ldrb	w11, [x21, x9]
	cmp	w11, #47
	b.ne	.Lunix_path_BB67_78
.Lunix_path_BB67_45:
	mov	w11, wzr
	cbz	w10, .Lunix_path_BB67_47
.Lunix_path_BB67_46:
	ldrb	w10, [x8, x9]
	cmp	w10, #47
	csinc	w10, wzr, w10, eq
.Lunix_path_BB67_47:
	cmp	w11, w10
	b.ne	.Lunix_path_BB67_53
	cbnz	x9, .Lunix_path_BB67_55
	b	.Lunix_path_BB67_84
.Lunix_path_BB67_49:
	subs	x23, x24, x22
	b.ls	.Lunix_path_BB67_52
	add	x10, x21, x22
	ldrb	w11, [x10]
	cmp	w11, #47
	b.eq	.Lunix_path_BB67_52
	ldurb	w10, [x10, #-1]
	cmp	w10, #47
	b.ne	.Lunix_path_BB67_86
.Lunix_path_BB67_52:
	add	x0, x21, x22
	b	.Lunix_path_BB67_57
.Lunix_path_BB67_53:
	cbz	x9, .Lunix_path_BB67_84
	add	x10, x21, x9
	ldurb	w10, [x10, #-1]
	cmp	w10, #47
	b.ne	.Lunix_path_BB67_81
.Lunix_path_BB67_55:
	sub	x2, x24, x9
	sub	x4, x22, x9
	add	x0, sp, #8
	add	x1, x21, x9
	add	x3, x8, x9
	bl	unix_path.pair.Comparison.rest_after_cut
	ldrb	w8, [sp, #8]
	cmp	w8, #1
	b.ne	.Lunix_path_BB67_84
	ldp	x0, x23, [sp, #16]
.Lunix_path_BB67_57:
	mov	x2, xzr
	b	.Lunix_path_BB67_59
.Lunix_path_BB67_58:
	mov	w8, #1
	add	x2, x8, x2
	cmp	x2, #4
	b.hs	.Lunix_path_BB67_65
.Lunix_path_BB67_59:
	cmp	x2, x23
	b.hs	.Lunix_path_BB67_66
	ldrb	w8, [x0, x2]
	cmp	w8, #47
	b.eq	.Lunix_path_BB67_58
	cmp	w8, #46
	b.ne	.Lunix_path_BB67_66
	add	x8, x2, #1
	cmp	x8, x23
	b.eq	.Lunix_path_BB67_58
	ldrb	w8, [x0, x8]
	cmp	w8, #47
	b.ne	.Lunix_path_BB67_66
	mov	w8, #2
	add	x2, x8, x2
	cmp	x2, #4
	b.lo	.Lunix_path_BB67_59
.Lunix_path_BB67_65:
	mov	x1, x23
	bl	unix_path.filler.filler_end_from
	mov	x2, x0
.Lunix_path_BB67_66:
	sub	x24, x23, x2
.Lunix_path_BB67_67:
	cbz	x20, .Lunix_path_BB67_76
	mov	x8, x20
	b	.Lunix_path_BB67_70
.Lunix_path_BB67_69:
	mov	x8, x1
	cbz	x1, .Lunix_path_BB67_77
.Lunix_path_BB67_70:
	subs	x1, x8, #1
	b.eq	.Lunix_path_BB67_77
	add	x9, x21, x1
	ldrb	w10, [x9]
	cmp	w10, #47
	b.eq	.Lunix_path_BB67_74
	cmp	w10, #46
	b.ne	.Lunix_path_BB67_77
	ldurb	w9, [x9, #-1]
	cmp	w9, #47
	b.ne	.Lunix_path_BB67_77
.Lunix_path_BB67_74:
	sub	x8, x20, x1
	cmp	x8, #8
	b.ne	.Lunix_path_BB67_69
	mov	x0, x21
	bl	unix_path.filler.trimmed_blocks_len
	mov	x1, x0
	b	.Lunix_path_BB67_69
.Lunix_path_BB67_76:
	mov	x8, xzr
.Lunix_path_BB67_77:
	sub	x8, x8, x24
	mov	w0, #1
	stp	x8, x24, [x19]
	b	.Lunix_path_BB67_85
.Lunix_path_BB67_78:
	cmp	w11, #46
	eor	w12, w10, #0x1
	csinc	w12, w12, wzr, ne
	tbnz	w12, #0, .Lunix_path_BB67_80
	ldrb	w12, [x8, x9]
	and	w12, w12, #0xfe
	cmp	w12, #46
	b.ne	.Lunix_path_BB67_84
.Lunix_path_BB67_80:
	add	w11, w11, #1
	cbz	w10, .Lunix_path_BB67_47
	b	.Lunix_path_BB67_46
.Lunix_path_BB67_81:
	subs	x9, x9, #1
	b.eq	.Lunix_path_BB67_84
	cmp	w10, #46
	b.ne	.Lunix_path_BB67_84
	add	x10, x21, x9
	ldurb	w10, [x10, #-1]
	cmp	w10, #47
	b.eq	.Lunix_path_BB67_55
.Lunix_path_BB67_84:
	mov	w0, wzr
.Lunix_path_BB67_85:
	ldp	x20, x19, [sp, #96]
	ldr	x25, [sp, #48]
	ldp	x22, x21, [sp, #80]
	ldp	x24, x23, [sp, #64]
	ldp	x29, x30, [sp, #32]
	add	sp, sp, #112
	ret
.Lunix_path_BB67_86:
	mov	w10, wzr
	cmp	x9, x24
	b.lo	.Lunix_path_BB67_44
	b	.Lunix_path_BB67_45
.Lunix_path_BB67_87:
	mov	w9, #1
	b	.Lunix_path_BB67_42
.Lunix_path_BB67_88:
	mov	w9, #2
	b	.Lunix_path_BB67_42
.Lunix_path_BB67_89:
	mov	w9, #3
	b	.Lunix_path_BB67_42
.Lunix_path_BB67_90:
	mov	w9, #4
	b	.Lunix_path_BB67_42
.Lunix_path_BB67_91:
	mov	w9, #5
	b	.Lunix_path_BB67_42
.Lunix_path_func_end67:
	.size	unix_path_strip_prefix, .Lunix_path_func_end67-unix_path_strip_prefix
	.section	.text.unix_path_version,"ax",@progbits
	.globl	unix_path_version
	.p2align	2
	.type	unix_path_version,@function
unix_path_version:
	mov	w0, #256
	movk	w0, #1, lsl #16
	ret
.Lunix_path_func_end68:
	.size	unix_path_version, .Lunix_path_func_end68-unix_path_version
	.section	.rodata.cst16,"aM",@progbits,16
	.p2align	4, 0x0
.Lunix_path_CPI69_0:
	.byte	1
	.byte	2
	.byte	4
	.byte	8
	.byte	16
	.byte	32
	.byte	64
	.byte	128
	.byte	1
	.byte	2
	.byte	4
	.byte	8
	.byte	16
	.byte	32
	.byte	64
	.byte	128
	.section	.text.unix_path_join_beneath,"ax",@progbits
	.globl	unix_path_join_beneath
	.p2align	2
	.type	unix_path_join_beneath,@function
unix_path_join_beneath:
	sub	sp, sp, #144
	cmp	x0, #0
	mov	w8, #4096
	stp	x26, x25, [sp, #80]
	csel	x26, x8, xzr, eq
	cmp	x2, #0
	stp	x28, x27, [sp, #64]
	csel	x9, x8, xzr, eq
	cmp	x4, #0
	stp	x24, x23, [sp, #96]
	stp	x22, x21, [sp, #112]
	mov	x24, x5
	mov	x21, x0
	stp	x20, x19, [sp, #128]
	mov	x19, x4
	mov	x20, x1
	add	x22, x2, x9
	csel	x27, x8, xzr, eq
	stp	x29, x30, [sp, #48]
	add	x29, sp, #48
	cbz	x3, .Lunix_path_BB69_8
	ldrb	w8, [x22]
	cmp	w8, #47
	b.eq	.Lunix_path_BB69_7
	mov	x0, x22
	mov	x1, x3
	mov	x23, x3
	bl	path_within.check.check_escape
	ands	w8, w0, #0xff
	b.eq	.Lunix_path_BB69_7
	mov	x3, x23
	cmp	x23, #15
	b.hi	.Lunix_path_BB69_16
	mov	x9, xzr
.Lunix_path_BB69_5:
	ldrb	w10, [x22, x9]
	cbz	w10, .Lunix_path_BB69_9
	add	x9, x9, #1
	cmp	x3, x9
	b.ne	.Lunix_path_BB69_5
	b	.Lunix_path_BB69_11
.Lunix_path_BB69_7:
	mov	x0, #-2
	b	.Lunix_path_BB69_44
.Lunix_path_BB69_8:
	mov	x9, xzr
	mov	w8, #2
.Lunix_path_BB69_9:
	cmp	x9, x3
	b.hs	.Lunix_path_BB69_11
	mov	x0, #-4
	b	.Lunix_path_BB69_44
.Lunix_path_BB69_11:
	movi	v0.2d, #0000000000000000
	cmp	w8, #1
	str	xzr, [sp, #32]
	stp	q0, q0, [sp]
	b.ne	.Lunix_path_BB69_13
	add	x8, x3, #1
	mov	x4, #-1
	mov	w9, #1
	add	x23, x21, x26
	mov	x28, x20
	cbnz	x8, .Lunix_path_BB69_14
	b	.Lunix_path_BB69_23
.Lunix_path_BB69_13:
	mov	x0, sp
	mov	x1, x22
	mov	x2, x3
	bl	path_within.write.Layout.resolve_names
	ldp	x22, x3, [sp]
	ldrb	w9, [sp, #32]
	ldp	x4, x8, [sp, #16]
	add	x23, x21, x26
	mov	x28, x20
	cbz	x8, .Lunix_path_BB69_23
.Lunix_path_BB69_14:
	add	x10, x8, x20
	cbz	x20, .Lunix_path_BB69_21
	add	x11, x23, x20
	ldurb	w11, [x11, #-1]
	cmp	w11, #47
	csetm	x11, eq
	b	.Lunix_path_BB69_22
.Lunix_path_BB69_16:
	subs	x9, x3, #16
	adrp	x10, .Lunix_path_CPI69_0
	b.eq	.Lunix_path_BB69_20
	mov	x11, xzr
.Lunix_path_BB69_18:
	ldr	q0, [x22, x11]
	ldr	q1, [x10, :lo12:.Lunix_path_CPI69_0]
	cmeq	v0.16b, v0.16b, #0
	and	v0.16b, v0.16b, v1.16b
	addp	v0.16b, v0.16b, v0.16b
	addp	v0.16b, v0.16b, v0.16b
	addp	v0.16b, v0.16b, v0.16b
	umov	w12, v0.h[0]
	orr	w12, w12, #0x10000
	rbit	w12, w12
	clz	w12, w12
	cmp	w12, #15
	b.ls	.Lunix_path_BB69_45
	add	x11, x11, #16
	cmp	x11, x9
	b.lo	.Lunix_path_BB69_18
.Lunix_path_BB69_20:
	ldr	q0, [x22, x9]
	ldr	q1, [x10, :lo12:.Lunix_path_CPI69_0]
	cmeq	v0.16b, v0.16b, #0
	and	v0.16b, v0.16b, v1.16b
	addp	v0.16b, v0.16b, v0.16b
	addp	v0.16b, v0.16b, v0.16b
	addp	v0.16b, v0.16b, v0.16b
	umov	w10, v0.h[0]
	orr	w10, w10, #0x10000
	rbit	w10, w10
	clz	w10, w10
	add	x9, x9, x10
	b	.Lunix_path_BB69_9
.Lunix_path_BB69_21:
	mov	x11, #-1
.Lunix_path_BB69_22:
	add	x28, x10, x11
.Lunix_path_BB69_23:
	cmp	x28, x24
	b.hi	.Lunix_path_BB69_43
	add	x24, x19, x27
	tbz	w9, #0, .Lunix_path_BB69_31
	sub	x8, x28, x3
	add	x25, x24, x8
	sub	x8, x25, x22
	cmp	x8, x3
	b.hs	.Lunix_path_BB69_33
	cmp	x3, #8
	b.lo	.Lunix_path_BB69_28
	add	x8, x27, x28
	add	x9, x3, x22
	add	x8, x8, x19
	sub	x8, x8, x9
	cmp	x8, #32
	b.hs	.Lunix_path_BB69_48
.Lunix_path_BB69_28:
	mov	x8, xzr
.Lunix_path_BB69_29:
	add	x10, x27, x28
	sub	x9, x8, x3
	add	x8, x22, x8
	add	x10, x19, x10
.Lunix_path_BB69_30:
	ldrb	w11, [x8], #1
	strb	w11, [x10, x9]
	adds	x9, x9, #1
	b.lo	.Lunix_path_BB69_30
	b	.Lunix_path_BB69_34
.Lunix_path_BB69_31:
	cbz	x8, .Lunix_path_BB69_36
	add	x0, x19, x27
	add	x1, x28, #1
	mov	x2, x22
	bl	path_within.backward.put_names_before
	b	.Lunix_path_BB69_36
.Lunix_path_BB69_33:
	mov	x0, x25
	mov	x1, x22
	mov	x2, x3
	mov	x22, x3
	bl	memmove
	mov	x3, x22
.Lunix_path_BB69_34:
	cmp	x28, x3
	b.eq	.Lunix_path_BB69_36
	mov	w8, #47
	sturb	w8, [x25, #-1]
.Lunix_path_BB69_36:
	sub	x8, x24, x23
	cmp	x8, x20
	b.hs	.Lunix_path_BB69_42
	cmp	x20, #8
	b.lo	.Lunix_path_BB69_39
	add	x8, x27, x19
	add	x9, x26, x21
	sub	x8, x8, x9
	cmp	x8, #32
	b.hs	.Lunix_path_BB69_46
.Lunix_path_BB69_39:
	mov	x8, xzr
.Lunix_path_BB69_40:
	add	x9, x26, x8
	add	x10, x27, x8
	sub	x8, x20, x8
	add	x9, x21, x9
	add	x10, x19, x10
.Lunix_path_BB69_41:
	ldrb	w11, [x9], #1
	subs	x8, x8, #1
	strb	w11, [x10], #1
	b.ne	.Lunix_path_BB69_41
	b	.Lunix_path_BB69_43
.Lunix_path_BB69_42:
	mov	x0, x24
	mov	x1, x23
	mov	x2, x20
	bl	memmove
.Lunix_path_BB69_43:
	mov	x8, #-9223372036854775808
	cmp	x28, x8
	csel	x0, x28, x8, lo
.Lunix_path_BB69_44:
	ldp	x20, x19, [sp, #128]
	ldp	x22, x21, [sp, #112]
	ldp	x24, x23, [sp, #96]
	ldp	x26, x25, [sp, #80]
	ldp	x28, x27, [sp, #64]
	ldp	x29, x30, [sp, #48]
	add	sp, sp, #144
	ret
.Lunix_path_BB69_45:
	add	x9, x11, w12, uxtw
	b	.Lunix_path_BB69_9
.Lunix_path_BB69_46:
	cmp	x20, #32
	b.hs	.Lunix_path_BB69_50
	mov	x8, xzr
	b	.Lunix_path_BB69_54
.Lunix_path_BB69_48:
	cmp	x3, #32
	b.hs	.Lunix_path_BB69_57
	mov	x8, xzr
	b	.Lunix_path_BB69_61
.Lunix_path_BB69_50:
	add	x10, x26, x21
	add	x11, x27, x19
	and	x9, x20, #0x18
	and	x8, x20, #0xffffffffffffffe0
	add	x10, x10, #16
	add	x11, x11, #16
	and	x12, x20, #0xffffffffffffffe0
.Lunix_path_BB69_51:
	ldp	q0, q1, [x10, #-16]
	subs	x12, x12, #32
	add	x10, x10, #32
	stp	q0, q1, [x11, #-16]
	add	x11, x11, #32
	b.ne	.Lunix_path_BB69_51
	cmp	x20, x8
	b.eq	.Lunix_path_BB69_43
	cbz	x9, .Lunix_path_BB69_40
.Lunix_path_BB69_54:
	mov	x9, x8
	and	x8, x20, #0xfffffffffffffff8
	add	x10, x26, x9
	add	x11, x27, x9
	sub	x9, x9, x8
	add	x10, x21, x10
	add	x11, x19, x11
.Lunix_path_BB69_55:
	ldr	d0, [x10], #8
	adds	x9, x9, #8
	str	d0, [x11], #8
	b.ne	.Lunix_path_BB69_55
	cmp	x20, x8
	b.eq	.Lunix_path_BB69_43
	b	.Lunix_path_BB69_40
.Lunix_path_BB69_57:
	add	x8, x27, x28
	and	x9, x3, #0x18
	and	x12, x3, #0xffffffffffffffe0
	sub	x10, x8, x3
	and	x8, x3, #0xffffffffffffffe0
	add	x11, x10, x19
	add	x10, x22, #16
	add	x11, x11, #16
.Lunix_path_BB69_58:
	ldp	q0, q1, [x10, #-16]
	subs	x12, x12, #32
	add	x10, x10, #32
	stp	q0, q1, [x11, #-16]
	add	x11, x11, #32
	b.ne	.Lunix_path_BB69_58
	cmp	x3, x8
	b.eq	.Lunix_path_BB69_34
	cbz	x9, .Lunix_path_BB69_29
.Lunix_path_BB69_61:
	mov	x10, x8
	and	x8, x3, #0xfffffffffffffff8
	add	x9, x27, x10
	add	x9, x9, x28
	sub	x11, x9, x3
	sub	x9, x10, x8
	add	x10, x22, x10
	add	x11, x19, x11
.Lunix_path_BB69_62:
	ldr	d0, [x10], #8
	adds	x9, x9, #8
	str	d0, [x11], #8
	b.ne	.Lunix_path_BB69_62
	cmp	x3, x8
	b.eq	.Lunix_path_BB69_34
	b	.Lunix_path_BB69_29
.Lunix_path_func_end69:
	.size	unix_path_join_beneath, .Lunix_path_func_end69-unix_path_join_beneath
	.section	.rodata.cst16,"aM",@progbits,16
	.p2align	4, 0x0
.Lunix_path_CPI70_0:
	.byte	1
	.byte	2
	.byte	4
	.byte	8
	.byte	16
	.byte	32
	.byte	64
	.byte	128
	.byte	1
	.byte	2
	.byte	4
	.byte	8
	.byte	16
	.byte	32
	.byte	64
	.byte	128
	.section	.rodata.cst8,"aM",@progbits,8
	.p2align	3, 0x0
.Lunix_path_CPI70_1:
	.byte	1
	.byte	2
	.byte	4
	.byte	8
	.byte	16
	.byte	32
	.byte	64
	.byte	128
	.section	.text.unix_path_join_in_root,"ax",@progbits
	.globl	unix_path_join_in_root
	.p2align	2
	.type	unix_path_join_in_root,@function
unix_path_join_in_root:
	sub	sp, sp, #144
	cmp	x0, #0
	mov	w8, #4096
	stp	x26, x25, [sp, #80]
	csel	x26, x8, xzr, eq
	cmp	x2, #0
	stp	x28, x27, [sp, #64]
	csel	x10, x8, xzr, eq
	cmp	x4, #0
	stp	x22, x21, [sp, #112]
	stp	x20, x19, [sp, #128]
	mov	x22, x5
	mov	x19, x4
	mov	x21, x0
	mov	x20, x1
	csel	x27, x8, xzr, eq
	cmp	x3, #15
	add	x8, x2, x10
	stp	x29, x30, [sp, #48]
	stp	x24, x23, [sp, #96]
	add	x29, sp, #48
	b.hi	.Lunix_path_BB70_5
	cbz	x3, .Lunix_path_BB70_17
	mov	x9, xzr
.Lunix_path_BB70_3:
	ldrb	w11, [x8, x9]
	cbz	w11, .Lunix_path_BB70_10
	add	x9, x9, #1
	cmp	x3, x9
	b.ne	.Lunix_path_BB70_3
	b	.Lunix_path_BB70_14
.Lunix_path_BB70_5:
	subs	x9, x3, #16
	adrp	x11, .Lunix_path_CPI70_0
	b.eq	.Lunix_path_BB70_9
	mov	x12, xzr
.Lunix_path_BB70_7:
	ldr	q0, [x8, x12]
	ldr	q1, [x11, :lo12:.Lunix_path_CPI70_0]
	cmeq	v0.16b, v0.16b, #0
	and	v0.16b, v0.16b, v1.16b
	addp	v0.16b, v0.16b, v0.16b
	addp	v0.16b, v0.16b, v0.16b
	addp	v0.16b, v0.16b, v0.16b
	umov	w13, v0.h[0]
	orr	w13, w13, #0x10000
	rbit	w13, w13
	clz	w13, w13
	cmp	w13, #15
	b.ls	.Lunix_path_BB70_12
	add	x12, x12, #16
	cmp	x12, x9
	b.lo	.Lunix_path_BB70_7
.Lunix_path_BB70_9:
	ldr	q0, [x8, x9]
	ldr	q1, [x11, :lo12:.Lunix_path_CPI70_0]
	cmeq	v0.16b, v0.16b, #0
	and	v0.16b, v0.16b, v1.16b
	addp	v0.16b, v0.16b, v0.16b
	addp	v0.16b, v0.16b, v0.16b
	addp	v0.16b, v0.16b, v0.16b
	umov	w11, v0.h[0]
	orr	w11, w11, #0x10000
	rbit	w11, w11
	clz	w11, w11
	add	x9, x9, x11
.Lunix_path_BB70_10:
	cmp	x9, x3
	b.hs	.Lunix_path_BB70_13
.Lunix_path_BB70_11:
	mov	x0, #-4
	b	.Lunix_path_BB70_54
.Lunix_path_BB70_12:
	add	x9, x12, w13, uxtw
	cmp	x9, x3
	b.lo	.Lunix_path_BB70_11
.Lunix_path_BB70_13:
	cbz	x3, .Lunix_path_BB70_17
.Lunix_path_BB70_14:
	add	x11, x10, x2
	mov	x9, xzr
	sub	x13, x3, #17
	sub	x11, x11, #9
	mov	w12, #1
	mov	x14, x3
.Lunix_path_BB70_15:
	ldrb	w15, [x8, x9]
	cmp	w15, #47
	b.ne	.Lunix_path_BB70_22
	add	x9, x9, #1
	sub	x14, x14, #1
	sub	x13, x13, #1
	cmp	x3, x9
	add	x12, x12, #1
	add	x11, x11, #1
	b.ne	.Lunix_path_BB70_15
.Lunix_path_BB70_17:
	mov	x2, xzr
	add	x1, x8, x3
.Lunix_path_BB70_18:
	movi	v0.2d, #0000000000000000
	str	xzr, [sp, #32]
	stp	q0, q0, [sp]
.Lunix_path_BB70_19:
	mov	x0, sp
	bl	path_within.write.Layout.resolve_names
	ldp	x1, x2, [sp]
	ldrb	w9, [sp, #32]
	ldp	x4, x8, [sp, #16]
	add	x23, x21, x26
	mov	x28, x20
	cbz	x8, .Lunix_path_BB70_33
.Lunix_path_BB70_20:
	add	x10, x8, x20
	cbz	x20, .Lunix_path_BB70_31
	add	x11, x23, x20
	ldurb	w11, [x11, #-1]
	cmp	w11, #47
	csetm	x11, eq
	b	.Lunix_path_BB70_32
.Lunix_path_BB70_22:
	mov	x16, x2
	subs	x2, x3, x9
	add	x1, x8, x9
	b.eq	.Lunix_path_BB70_18
	cmp	w15, #46
	b.ne	.Lunix_path_BB70_27
	cmp	x2, #2
	b.lo	.Lunix_path_BB70_18
	add	x15, x8, x9
	ldrb	w15, [x15, #1]
	cmp	w15, #46
	b.eq	.Lunix_path_BB70_83
	cmp	w15, #47
	b.eq	.Lunix_path_BB70_18
.Lunix_path_BB70_27:
	add	x18, x8, x3
	ldurb	w15, [x18, #-1]
	and	w15, w15, #0xfe
	cmp	w15, #46
	b.eq	.Lunix_path_BB70_18
	subs	x15, x2, #17
	b.hs	.Lunix_path_BB70_66
.Lunix_path_BB70_29:
	cmp	x2, #9
	b.hs	.Lunix_path_BB70_81
	mov	x11, xzr
	b	.Lunix_path_BB70_99
.Lunix_path_BB70_31:
	mov	x11, #-1
.Lunix_path_BB70_32:
	add	x28, x10, x11
.Lunix_path_BB70_33:
	cmp	x28, x22
	b.hi	.Lunix_path_BB70_53
	add	x22, x19, x27
	tbz	w9, #0, .Lunix_path_BB70_41
	sub	x8, x28, x2
	add	x24, x22, x8
	sub	x8, x24, x1
	cmp	x8, x2
	b.hs	.Lunix_path_BB70_43
	cmp	x2, #8
	b.lo	.Lunix_path_BB70_38
	add	x8, x27, x28
	add	x9, x2, x1
	add	x8, x8, x19
	sub	x8, x8, x9
	cmp	x8, #32
	b.hs	.Lunix_path_BB70_57
.Lunix_path_BB70_38:
	mov	x8, xzr
.Lunix_path_BB70_39:
	add	x10, x27, x28
	sub	x9, x8, x2
	add	x8, x1, x8
	add	x10, x19, x10
.Lunix_path_BB70_40:
	ldrb	w11, [x8], #1
	strb	w11, [x10, x9]
	adds	x9, x9, #1
	b.lo	.Lunix_path_BB70_40
	b	.Lunix_path_BB70_44
.Lunix_path_BB70_41:
	cbz	x8, .Lunix_path_BB70_46
	mov	x8, x1
	add	x0, x19, x27
	add	x1, x28, #1
	mov	x3, x2
	mov	x2, x8
	bl	path_within.backward.put_names_before
	b	.Lunix_path_BB70_46
.Lunix_path_BB70_43:
	mov	x0, x24
	mov	x25, x2
	bl	memmove
	mov	x2, x25
.Lunix_path_BB70_44:
	cmp	x28, x2
	b.eq	.Lunix_path_BB70_46
	mov	w8, #47
	sturb	w8, [x24, #-1]
.Lunix_path_BB70_46:
	sub	x8, x22, x23
	cmp	x8, x20
	b.hs	.Lunix_path_BB70_52
	cmp	x20, #8
	b.lo	.Lunix_path_BB70_49
	add	x8, x27, x19
	add	x9, x26, x21
	sub	x8, x8, x9
	cmp	x8, #32
	b.hs	.Lunix_path_BB70_55
.Lunix_path_BB70_49:
	mov	x8, xzr
.Lunix_path_BB70_50:
	add	x9, x26, x8
	add	x10, x27, x8
	sub	x8, x20, x8
	add	x9, x21, x9
	add	x10, x19, x10
.Lunix_path_BB70_51:
	ldrb	w11, [x9], #1
	subs	x8, x8, #1
	strb	w11, [x10], #1
	b.ne	.Lunix_path_BB70_51
	b	.Lunix_path_BB70_53
.Lunix_path_BB70_52:
	mov	x0, x22
	mov	x1, x23
	mov	x2, x20
	bl	memmove
.Lunix_path_BB70_53:
	mov	x8, #-9223372036854775808
	cmp	x28, x8
	csel	x0, x28, x8, lo
.Lunix_path_BB70_54:
	ldp	x20, x19, [sp, #128]
	ldp	x22, x21, [sp, #112]
	ldp	x24, x23, [sp, #96]
	ldp	x26, x25, [sp, #80]
	ldp	x28, x27, [sp, #64]
	ldp	x29, x30, [sp, #48]
	add	sp, sp, #144
	ret
.Lunix_path_BB70_55:
	cmp	x20, #32
	b.hs	.Lunix_path_BB70_59
	mov	x8, xzr
	b	.Lunix_path_BB70_63
.Lunix_path_BB70_57:
	cmp	x2, #32
	b.hs	.Lunix_path_BB70_74
	mov	x8, xzr
	b	.Lunix_path_BB70_78
.Lunix_path_BB70_59:
	add	x10, x26, x21
	add	x11, x27, x19
	and	x9, x20, #0x18
	and	x8, x20, #0xffffffffffffffe0
	add	x10, x10, #16
	add	x11, x11, #16
	and	x12, x20, #0xffffffffffffffe0
.Lunix_path_BB70_60:
	ldp	q0, q1, [x10, #-16]
	subs	x12, x12, #32
	add	x10, x10, #32
	stp	q0, q1, [x11, #-16]
	add	x11, x11, #32
	b.ne	.Lunix_path_BB70_60
	cmp	x20, x8
	b.eq	.Lunix_path_BB70_53
	cbz	x9, .Lunix_path_BB70_50
.Lunix_path_BB70_63:
	mov	x9, x8
	and	x8, x20, #0xfffffffffffffff8
	add	x10, x26, x9
	add	x11, x27, x9
	sub	x9, x9, x8
	add	x10, x21, x10
	add	x11, x19, x11
.Lunix_path_BB70_64:
	ldr	d0, [x10], #8
	adds	x9, x9, #8
	str	d0, [x11], #8
	b.ne	.Lunix_path_BB70_64
	cmp	x20, x8
	b.eq	.Lunix_path_BB70_53
	b	.Lunix_path_BB70_50
.Lunix_path_BB70_66:
	cmp	x2, #32
	b.hi	.Lunix_path_BB70_85
	movi	v0.16b, #208
	add	x17, x8, x9
	ldur	q1, [x17, #1]
	ldr	q3, [x17]
	adrp	x17, .Lunix_path_CPI70_0
	and	v2.16b, v1.16b, v0.16b
	movi	v1.16b, #47
	orr	v2.16b, v2.16b, v3.16b
	cmeq	v3.16b, v2.16b, v1.16b
	ldr	q2, [x17, :lo12:.Lunix_path_CPI70_0]
	and	v3.16b, v3.16b, v2.16b
	addp	v3.16b, v3.16b, v3.16b
	addp	v3.16b, v3.16b, v3.16b
	addp	v3.16b, v3.16b, v3.16b
	umov	w17, v3.h[0]
	cbnz	w17, .Lunix_path_BB70_69
	ldur	q3, [x18, #-16]
	and	v0.16b, v3.16b, v0.16b
	ldur	q3, [x18, #-17]
	orr	v0.16b, v0.16b, v3.16b
	cmeq	v0.16b, v0.16b, v1.16b
	and	v0.16b, v0.16b, v2.16b
	addp	v0.16b, v0.16b, v0.16b
	addp	v0.16b, v0.16b, v0.16b
	addp	v0.16b, v0.16b, v0.16b
	umov	w17, v0.h[0]
	cbz	w17, .Lunix_path_BB70_111
.Lunix_path_BB70_69:
	cmp	x2, #18
	b.ls	.Lunix_path_BB70_29
	sub	x10, x3, #19
	cmp	x10, x9
	b.ne	.Lunix_path_BB70_86
	mov	x10, xzr
	mov	x14, xzr
.Lunix_path_BB70_72:
	cmp	x15, x14
	movi	v0.16b, #208
	csel	x15, x15, x14, lo
	cmp	x14, x13
	csel	x13, x14, x13, lo
	add	x14, x8, x13
	add	x11, x11, x13
	ldr	q1, [x14, x12]
	ldur	q2, [x11, #9]
	adrp	x11, .Lunix_path_CPI70_0
	and	v1.16b, v1.16b, v0.16b
	movi	v0.16b, #47
	orr	v1.16b, v1.16b, v2.16b
	cmeq	v2.16b, v1.16b, v0.16b
	ldr	q1, [x11, :lo12:.Lunix_path_CPI70_0]
	and	v2.16b, v2.16b, v1.16b
	addp	v2.16b, v2.16b, v2.16b
	addp	v2.16b, v2.16b, v2.16b
	addp	v2.16b, v2.16b, v2.16b
	umov	w11, v2.h[0]
	cbz	w11, .Lunix_path_BB70_98
	add	x11, x8, x10
	movi	v2.16b, #46
	add	x11, x11, x9
	ldur	q3, [x11, #2]
	ldur	q4, [x11, #3]
	cmeq	v5.16b, v3.16b, v2.16b
	cmeq	v4.16b, v4.16b, v0.16b
	cmeq	v3.16b, v3.16b, v0.16b
	and	v4.16b, v5.16b, v4.16b
	ldur	q5, [x11, #1]
	cmeq	v2.16b, v5.16b, v2.16b
	orr	v3.16b, v3.16b, v4.16b
	ldr	q4, [x11]
	and	v2.16b, v2.16b, v3.16b
	cmeq	v3.16b, v4.16b, v0.16b
	cmeq	v0.16b, v5.16b, v0.16b
	orr	v0.16b, v0.16b, v2.16b
	and	v1.16b, v3.16b, v1.16b
	and	v0.16b, v1.16b, v0.16b
	addp	v0.16b, v0.16b, v0.16b
	addp	v0.16b, v0.16b, v0.16b
	addp	v0.16b, v0.16b, v0.16b
	umov	w11, v0.h[0]
	orr	w11, w11, #0x10000
	rbit	w11, w11
	clz	w11, w11
	add	x11, x10, x11
	b	.Lunix_path_BB70_99
.Lunix_path_BB70_74:
	add	x8, x27, x28
	and	x9, x2, #0x18
	and	x12, x2, #0xffffffffffffffe0
	sub	x10, x8, x2
	and	x8, x2, #0xffffffffffffffe0
	add	x11, x10, x19
	add	x10, x1, #16
	add	x11, x11, #16
.Lunix_path_BB70_75:
	ldp	q0, q1, [x10, #-16]
	subs	x12, x12, #32
	add	x10, x10, #32
	stp	q0, q1, [x11, #-16]
	add	x11, x11, #32
	b.ne	.Lunix_path_BB70_75
	cmp	x2, x8
	b.eq	.Lunix_path_BB70_44
	cbz	x9, .Lunix_path_BB70_39
.Lunix_path_BB70_78:
	mov	x10, x8
	and	x8, x2, #0xfffffffffffffff8
	add	x9, x27, x10
	add	x9, x9, x28
	sub	x11, x9, x2
	sub	x9, x10, x8
	add	x10, x1, x10
	add	x11, x19, x11
.Lunix_path_BB70_79:
	ldr	d0, [x10], #8
	adds	x9, x9, #8
	str	d0, [x11], #8
	b.ne	.Lunix_path_BB70_79
	cmp	x2, x8
	b.eq	.Lunix_path_BB70_44
	b	.Lunix_path_BB70_39
.Lunix_path_BB70_81:
	movi	v0.8b, #254
	movi	v1.8b, #47
	add	x11, x8, x9
	ldr	d3, [x11]
	ldur	d4, [x11, #1]
	movi	v2.8b, #46
	adrp	x11, .Lunix_path_CPI70_1
	and	v4.8b, v4.8b, v0.8b
	cmeq	v5.8b, v3.8b, v1.8b
	ldr	d3, [x11, :lo12:.Lunix_path_CPI70_1]
	cmeq	v4.8b, v4.8b, v2.8b
	and	v5.8b, v5.8b, v3.8b
	and	v4.8b, v5.8b, v4.8b
	addv	b4, v4.8b
	fmov	w11, s4
	orr	w11, w11, #0x100
	rbit	w11, w11
	clz	w11, w11
	cmp	w11, #8
	b.lo	.Lunix_path_BB70_99
	cmp	x2, #17
	mov	w11, #17
	add	x10, x10, x16
	csel	x12, x2, x11, lo
	cmp	x14, #17
	add	x10, x10, x9
	csel	x11, x14, x11, lo
	add	x10, x10, x11
	ldur	d4, [x10, #-9]
	ldur	d5, [x10, #-8]
	and	v0.8b, v5.8b, v0.8b
	cmeq	v1.8b, v4.8b, v1.8b
	cmeq	v0.8b, v0.8b, v2.8b
	and	v1.8b, v1.8b, v3.8b
	and	v0.8b, v1.8b, v0.8b
	addv	b0, v0.8b
	fmov	w10, s0
	orr	w10, w10, #0x100
	rbit	w10, w10
	clz	w10, w10
	add	x10, x12, x10
	sub	x11, x10, #9
	b	.Lunix_path_BB70_99
.Lunix_path_BB70_83:
	sub	x15, x3, #2
	cmp	x15, x9
	b.ne	.Lunix_path_BB70_92
	mov	w2, #2
	b	.Lunix_path_BB70_18
.Lunix_path_BB70_85:
	sub	x17, x2, #33
	movi	v0.16b, #208
	ldur	q2, [x18, #-16]
	add	x0, x1, x17
	ldur	q3, [x18, #-17]
	movi	v4.16b, #47
	ldur	q1, [x0, #1]
	adrp	x18, .Lunix_path_CPI70_0
	and	v1.16b, v1.16b, v0.16b
	and	v0.16b, v2.16b, v0.16b
	ldr	q2, [x0]
	orr	v1.16b, v1.16b, v2.16b
	orr	v0.16b, v0.16b, v3.16b
	cmeq	v1.16b, v1.16b, v4.16b
	cmeq	v2.16b, v0.16b, v4.16b
	ldr	q0, [x18, :lo12:.Lunix_path_CPI70_0]
	and	v1.16b, v1.16b, v0.16b
	and	v2.16b, v2.16b, v0.16b
	addp	v1.16b, v1.16b, v1.16b
	addp	v2.16b, v2.16b, v2.16b
	addp	v1.16b, v1.16b, v1.16b
	addp	v2.16b, v2.16b, v2.16b
	addp	v1.16b, v1.16b, v1.16b
	addp	v2.16b, v2.16b, v2.16b
	orr	v1.16b, v2.16b, v1.16b
	umov	w18, v1.h[0]
	cbz	w18, .Lunix_path_BB70_94
.Lunix_path_BB70_86:
	sub	x10, x2, #19
	mov	x14, xzr
	b	.Lunix_path_BB70_88
.Lunix_path_BB70_87:
	cmp	x14, x10
	b.hs	.Lunix_path_BB70_72
.Lunix_path_BB70_88:
	add	x16, x8, x14
	movi	v1.16b, #208
	movi	v2.16b, #47
	add	x16, x16, x9
	adrp	x17, .Lunix_path_CPI70_0
	ldur	q0, [x16, #1]
	and	v3.16b, v0.16b, v1.16b
	ldr	q1, [x16]
	orr	v3.16b, v3.16b, v1.16b
	cmeq	v4.16b, v3.16b, v2.16b
	ldr	q3, [x17, :lo12:.Lunix_path_CPI70_0]
	and	v4.16b, v4.16b, v3.16b
	addp	v4.16b, v4.16b, v4.16b
	addp	v4.16b, v4.16b, v4.16b
	addp	v4.16b, v4.16b, v4.16b
	umov	w17, v4.h[0]
	cbz	w17, .Lunix_path_BB70_91
	movi	v4.16b, #46
	ldur	q5, [x16, #2]
	ldur	q6, [x16, #3]
	cmeq	v1.16b, v1.16b, v2.16b
	cmeq	v6.16b, v6.16b, v2.16b
	cmeq	v7.16b, v5.16b, v4.16b
	cmeq	v5.16b, v5.16b, v2.16b
	cmeq	v4.16b, v0.16b, v4.16b
	cmeq	v0.16b, v0.16b, v2.16b
	and	v1.16b, v1.16b, v3.16b
	and	v6.16b, v7.16b, v6.16b
	orr	v5.16b, v5.16b, v6.16b
	and	v4.16b, v4.16b, v5.16b
	orr	v0.16b, v0.16b, v4.16b
	and	v0.16b, v1.16b, v0.16b
	addp	v0.16b, v0.16b, v0.16b
	addp	v0.16b, v0.16b, v0.16b
	addp	v0.16b, v0.16b, v0.16b
	umov	w16, v0.h[0]
	orr	w16, w16, #0x10000
	rbit	w16, w16
	clz	w16, w16
	cmp	w16, #15
	b.ls	.Lunix_path_BB70_93
	add	x14, x14, #16
	b	.Lunix_path_BB70_87
.Lunix_path_BB70_91:
	add	x14, x14, #16
	cmp	x14, x10
	b.lo	.Lunix_path_BB70_88
	b	.Lunix_path_BB70_87
.Lunix_path_BB70_92:
	add	x15, x8, x9
	ldrb	w15, [x15, #2]
	cmp	w15, #47
	b.eq	.Lunix_path_BB70_18
	b	.Lunix_path_BB70_27
.Lunix_path_BB70_93:
	add	x11, x14, w16, uxtw
	b	.Lunix_path_BB70_99
.Lunix_path_BB70_94:
	sub	x18, x3, #33
	cmp	x18, x9
	b.eq	.Lunix_path_BB70_111
	mov	x18, xzr
	add	x0, x8, x9
.Lunix_path_BB70_96:
	add	x4, x8, x18
	movi	v1.16b, #208
	add	x5, x0, x18
	add	x4, x4, x9
	ldur	q2, [x5, #17]
	movi	v5.16b, #47
	ldur	q3, [x4, #1]
	ldr	q4, [x4, #16]
	and	v3.16b, v3.16b, v1.16b
	and	v1.16b, v2.16b, v1.16b
	ldr	q2, [x0, x18]
	orr	v2.16b, v3.16b, v2.16b
	orr	v1.16b, v1.16b, v4.16b
	cmeq	v2.16b, v2.16b, v5.16b
	cmeq	v1.16b, v1.16b, v5.16b
	and	v2.16b, v2.16b, v0.16b
	and	v1.16b, v1.16b, v0.16b
	addp	v2.16b, v2.16b, v2.16b
	addp	v1.16b, v1.16b, v1.16b
	addp	v2.16b, v2.16b, v2.16b
	addp	v1.16b, v1.16b, v1.16b
	addp	v2.16b, v2.16b, v2.16b
	addp	v1.16b, v1.16b, v1.16b
	orr	v1.16b, v1.16b, v2.16b
	umov	w4, v1.h[0]
	cbnz	w4, .Lunix_path_BB70_69
	add	x18, x18, #32
	cmp	x18, x17
	b.lo	.Lunix_path_BB70_96
	b	.Lunix_path_BB70_111
.Lunix_path_BB70_98:
	add	x11, x15, #16
.Lunix_path_BB70_99:
	cmp	x11, x2
	b.hs	.Lunix_path_BB70_110
	sub	x10, x9, x3
	b	.Lunix_path_BB70_104
.Lunix_path_BB70_101:
	add	x13, x8, x11
	add	x13, x13, x9
	ldrb	w13, [x13, #3]
.Lunix_path_BB70_102:
	cmp	w13, #47
	b.eq	.Lunix_path_BB70_110
.Lunix_path_BB70_103:
	add	x11, x10, x11
	cmn	x11, #1
	mov	x11, x12
	b.hs	.Lunix_path_BB70_111
.Lunix_path_BB70_104:
	add	x12, x8, x11
	ldrb	w12, [x12, x9]
	cmp	w12, #47
	add	x12, x11, #1
	b.ne	.Lunix_path_BB70_103
	cmp	x2, x12
	b.ls	.Lunix_path_BB70_110
	add	x13, x8, x11
	add	x13, x13, x9
	ldrb	w13, [x13, #1]
	cmp	w13, #46
	b.ne	.Lunix_path_BB70_102
	add	x13, x11, #2
	cmp	x2, x13
	b.ls	.Lunix_path_BB70_110
	add	x13, x8, x11
	add	x13, x13, x9
	ldrb	w13, [x13, #2]
	cmp	w13, #46
	b.ne	.Lunix_path_BB70_102
	add	x13, x11, #3
	cmp	x2, x13
	b.hi	.Lunix_path_BB70_101
.Lunix_path_BB70_110:
	movi	v0.2d, #0000000000000000
	sub	x8, x11, x3
	str	xzr, [sp, #32]
	cmn	x8, x9
	stp	q0, q0, [sp]
	b.ne	.Lunix_path_BB70_19
.Lunix_path_BB70_111:
	add	x8, x2, #1
	mov	x4, #-1
	mov	w9, #1
	add	x23, x21, x26
	mov	x28, x20
	cbnz	x8, .Lunix_path_BB70_20
	b	.Lunix_path_BB70_33
.Lunix_path_func_end70:
	.size	unix_path_join_in_root, .Lunix_path_func_end70-unix_path_join_in_root
	.section	.text.unix_path_key_range_end,"ax",@progbits
	.globl	unix_path_key_range_end
	.p2align	2
	.type	unix_path_key_range_end,@function
unix_path_key_range_end:
	stp	x29, x30, [sp, #-80]!
	mov	w8, #4096
	cmp	x0, #0
	stp	x26, x25, [sp, #16]
	csel	x25, x8, xzr, eq
	cmp	x2, #0
	stp	x24, x23, [sp, #32]
	csel	x24, x8, xzr, eq
	stp	x22, x21, [sp, #48]
	mov	x29, sp
	stp	x20, x19, [sp, #64]
	cbz	x1, .Lunix_path_BB71_6
	add	x20, x0, x25
	mov	x26, x0
	add	x0, x0, x25
	mov	x21, x3
	mov	x22, x2
	mov	x19, x1
	bl	path_keys.decode.path_len
	and	w8, w0, #0xff
	cmp	w8, #1
	b.ne	.Lunix_path_BB71_7
	sub	x23, x19, #1
	cmp	x23, x21
	b.hs	.Lunix_path_BB71_23
	add	x21, x22, x24
	sub	x8, x21, x20
	cmp	x8, x19
	b.hs	.Lunix_path_BB71_8
	cmp	x19, #8
	b.hs	.Lunix_path_BB71_9
	mov	x9, xzr
	mov	x8, x26
	b	.Lunix_path_BB71_20
.Lunix_path_BB71_6:
	mov	x19, #-6
	b	.Lunix_path_BB71_23
.Lunix_path_BB71_7:
	mov	x19, #-5
	b	.Lunix_path_BB71_23
.Lunix_path_BB71_8:
	mov	x0, x21
	mov	x1, x20
	mov	x2, x19
	bl	memmove
	b	.Lunix_path_BB71_22
.Lunix_path_BB71_9:
	add	x9, x24, x22
	add	x10, x25, x26
	mov	x8, x26
	sub	x9, x9, x10
	cmp	x9, #32
	b.hs	.Lunix_path_BB71_11
	mov	x9, xzr
	b	.Lunix_path_BB71_20
.Lunix_path_BB71_11:
	cmp	x19, #32
	b.hs	.Lunix_path_BB71_13
	mov	x9, xzr
	b	.Lunix_path_BB71_17
.Lunix_path_BB71_13:
	add	x11, x25, x8
	add	x12, x24, x22
	and	x10, x19, #0x18
	and	x9, x19, #0xffffffffffffffe0
	add	x11, x11, #16
	add	x12, x12, #16
	and	x13, x19, #0xffffffffffffffe0
.Lunix_path_BB71_14:
	ldp	q0, q1, [x11, #-16]
	subs	x13, x13, #32
	add	x11, x11, #32
	stp	q0, q1, [x12, #-16]
	add	x12, x12, #32
	b.ne	.Lunix_path_BB71_14
	cmp	x19, x9
	b.eq	.Lunix_path_BB71_22
	cbz	x10, .Lunix_path_BB71_20
.Lunix_path_BB71_17:
	mov	x10, x9
	and	x9, x19, #0xfffffffffffffff8
	add	x11, x25, x10
	add	x12, x24, x10
	sub	x10, x10, x9
	add	x11, x8, x11
	add	x12, x22, x12
.Lunix_path_BB71_18:
	ldr	d0, [x11], #8
	adds	x10, x10, #8
	str	d0, [x12], #8
	b.ne	.Lunix_path_BB71_18
	cmp	x19, x9
	b.eq	.Lunix_path_BB71_22
.Lunix_path_BB71_20:
	add	x10, x25, x9
	add	x11, x24, x9
	sub	x9, x19, x9
	add	x8, x8, x10
	add	x10, x22, x11
.Lunix_path_BB71_21:
	ldrb	w11, [x8], #1
	subs	x9, x9, #1
	strb	w11, [x10], #1
	b.ne	.Lunix_path_BB71_21
.Lunix_path_BB71_22:
	ldrb	w8, [x20, x23]
	add	w8, w8, #1
	strb	w8, [x21, x23]
.Lunix_path_BB71_23:
	mov	x0, x19
	ldp	x20, x19, [sp, #64]
	ldp	x22, x21, [sp, #48]
	ldp	x24, x23, [sp, #32]
	ldp	x26, x25, [sp, #16]
	ldp	x29, x30, [sp], #80
	ret
.Lunix_path_func_end71:
	.size	unix_path_key_range_end, .Lunix_path_func_end71-unix_path_key_range_end
	.section	.rodata.cst16,"aM",@progbits,16
	.p2align	4, 0x0
.Lunix_path_CPI72_0:
	.byte	1
	.byte	2
	.byte	4
	.byte	8
	.byte	16
	.byte	32
	.byte	64
	.byte	128
	.byte	1
	.byte	2
	.byte	4
	.byte	8
	.byte	16
	.byte	32
	.byte	64
	.byte	128
	.section	.text.unix_path_to_string_lossy,"ax",@progbits
	.globl	unix_path_to_string_lossy
	.p2align	2
	.type	unix_path_to_string_lossy,@function
unix_path_to_string_lossy:
	sub	sp, sp, #128
	mov	w9, #4096
	cmp	x0, #0
	stp	x26, x25, [sp, #64]
	csel	x8, x9, xzr, eq
	cmp	x2, #0
	stp	x29, x30, [sp, #32]
	csel	x26, x9, xzr, eq
	stp	x28, x27, [sp, #48]
	add	x29, sp, #32
	stp	x24, x23, [sp, #80]
	stp	x22, x21, [sp, #96]
	stp	x20, x19, [sp, #112]
	cbz	x1, .Lunix_path_BB72_47
	add	x20, x0, x8
	mov	x22, x3
	mov	x21, x2
	mov	x19, x1
	mov	x25, xzr
	add	x8, x2, x26
	mov	x23, x1
	mov	x24, x20
	stur	x8, [x29, #-8]
	b	.Lunix_path_BB72_4
.Lunix_path_BB72_2:
	mov	w1, #1
.Lunix_path_BB72_3:
	adds	x8, x2, x25
	add	x10, x1, x2
	add	x9, x24, x2
	csinv	x8, x8, xzr, lo
	sub	x23, x23, x10
	add	x24, x9, x1
	adds	x11, x8, #3
	csinv	x10, x11, xzr, lo
	cmp	x1, #0
	csel	x25, x8, x10, eq
	cbz	x23, .Lunix_path_BB72_14
.Lunix_path_BB72_4:
	cmp	x23, #15
	b.hi	.Lunix_path_BB72_7
.Lunix_path_BB72_5:
	mov	x0, x24
	mov	x1, x23
	mov	x2, xzr
.Lunix_path_BB72_6:
	bl	unix_bytes.utf8.scans.scan_by_sequence
	mov	x2, x0
	b	.Lunix_path_BB72_3
.Lunix_path_BB72_7:
	ldr	q0, [x24]
	adrp	x8, .Lunix_path_CPI72_0
	ldr	q1, [x8, :lo12:.Lunix_path_CPI72_0]
	cmlt	v0.16b, v0.16b, #0
	and	v0.16b, v0.16b, v1.16b
	addp	v0.16b, v0.16b, v0.16b
	addp	v0.16b, v0.16b, v0.16b
	addp	v0.16b, v0.16b, v0.16b
	umov	w8, v0.h[0]
	cbz	w8, .Lunix_path_BB72_11
	umov	w8, v0.h[0]
	orr	w8, w8, #0x10000
	rbit	w8, w8
	clz	w2, w8
	add	x9, x24, x2
	ldrb	w8, [x9]
	sub	w10, w8, #194
	sub	x8, x23, x2
	cmp	w10, #50
	ccmp	x8, #2, #0, ls
	b.lo	.Lunix_path_BB72_2
	ldrsb	w9, [x9, #1]
	cmn	w9, #65
	b.gt	.Lunix_path_BB72_2
	mov	x0, x24
	mov	x1, x23
	cmp	x8, #31
	b.ls	.Lunix_path_BB72_6
	b	.Lunix_path_BB72_13
.Lunix_path_BB72_11:
	cmp	x23, #31
	b.ls	.Lunix_path_BB72_5
	mov	x0, x24
	mov	x1, x23
	mov	x2, xzr
.Lunix_path_BB72_13:
	bl	unix_bytes.utf8.scans.scan_by_window
	mov	x2, x0
	b	.Lunix_path_BB72_3
.Lunix_path_BB72_14:
	cmp	x25, x22
	b.hi	.Lunix_path_BB72_48
	add	x8, x26, x21
	ldur	x24, [x29, #-8]
	mov	x28, xzr
	str	x8, [sp, #16]
	add	x8, x8, #16
	str	x8, [sp, #8]
	b	.Lunix_path_BB72_17
.Lunix_path_BB72_16:
	ldrb	w9, [x27]
	cmp	x22, #0
	strb	w9, [x8]
	csel	x9, x26, x13, eq
	ldurh	w9, [x9, #1]
	sturh	w9, [x8, #1]
	add	x8, x22, x21
	add	x9, x20, x21
	add	x28, x23, x28
	sub	x19, x19, x8
	add	x20, x9, x22
	cbz	x19, .Lunix_path_BB72_48
.Lunix_path_BB72_17:
	cmp	x19, #15
	b.hi	.Lunix_path_BB72_21
.Lunix_path_BB72_18:
	mov	x0, x20
	mov	x1, x19
	mov	x2, xzr
.Lunix_path_BB72_19:
	bl	unix_bytes.utf8.scans.scan_by_sequence
.Lunix_path_BB72_20:
	mov	x21, x0
	mov	x22, x1
	b	.Lunix_path_BB72_26
.Lunix_path_BB72_21:
	ldr	q0, [x20]
	adrp	x8, .Lunix_path_CPI72_0
	ldr	q1, [x8, :lo12:.Lunix_path_CPI72_0]
	cmlt	v0.16b, v0.16b, #0
	and	v0.16b, v0.16b, v1.16b
	addp	v0.16b, v0.16b, v0.16b
	addp	v0.16b, v0.16b, v0.16b
	addp	v0.16b, v0.16b, v0.16b
	umov	w8, v0.h[0]
	cbz	w8, .Lunix_path_BB72_35
	umov	w8, v0.h[0]
	orr	w8, w8, #0x10000
	rbit	w8, w8
	clz	w21, w8
	add	x9, x20, x21
	ldrb	w8, [x9]
	sub	w10, w8, #194
	sub	x8, x19, x21
	cmp	w10, #50
	ccmp	x8, #2, #0, ls
	b.lo	.Lunix_path_BB72_25
	ldrsb	w9, [x9, #1]
	cmn	w9, #65
	b.gt	.Lunix_path_BB72_25
	mov	x0, x20
	mov	x1, x19
	mov	x2, x21
	cmp	x8, #31
	b.ls	.Lunix_path_BB72_19
	b	.Lunix_path_BB72_37
.Lunix_path_BB72_25:
	mov	w22, #1
.Lunix_path_BB72_26:
	add	x9, x24, x28
	cmp	x22, #0
	mov	w8, #3
	adrp	x13, .Lunix_path_static.12
	add	x13, x13, :lo12:.Lunix_path_static.12
	adrp	x26, .Lunix_path_static.0
	add	x26, x26, :lo12:.Lunix_path_static.0
	sub	x9, x9, x20
	csel	x23, xzr, x8, eq
	csel	x27, x26, x13, eq
	cmp	x9, x21
	b.hs	.Lunix_path_BB72_32
	cmp	x21, #8
	b.lo	.Lunix_path_BB72_29
	ldr	x8, [sp, #16]
	add	x8, x8, x28
	sub	x8, x8, x20
	cmp	x8, #32
	b.hs	.Lunix_path_BB72_38
.Lunix_path_BB72_29:
	mov	x8, xzr
.Lunix_path_BB72_30:
	ldr	x11, [sp, #16]
	add	x10, x8, x28
	sub	x9, x21, x8
	add	x8, x20, x8
	add	x10, x11, x10
.Lunix_path_BB72_31:
	ldrb	w11, [x8], #1
	subs	x9, x9, #1
	strb	w11, [x10], #1
	b.ne	.Lunix_path_BB72_31
	b	.Lunix_path_BB72_33
.Lunix_path_BB72_32:
	add	x0, x24, x28
	mov	x1, x20
	mov	x2, x21
	mov	x24, x13
	bl	memmove
	mov	x13, x24
.Lunix_path_BB72_33:
	ldur	x24, [x29, #-8]
	add	x28, x21, x28
	add	x8, x24, x28
	sub	x9, x8, x27
	cmp	x9, x23
	b.lo	.Lunix_path_BB72_16
	add	x0, x24, x28
	mov	x1, x27
	mov	x2, x23
	bl	memcpy
	add	x8, x22, x21
	add	x9, x20, x21
	add	x28, x23, x28
	sub	x19, x19, x8
	add	x20, x9, x22
	cbnz	x19, .Lunix_path_BB72_17
	b	.Lunix_path_BB72_48
.Lunix_path_BB72_35:
	cmp	x19, #31
	b.ls	.Lunix_path_BB72_18
	mov	x0, x20
	mov	x1, x19
	mov	x2, xzr
.Lunix_path_BB72_37:
	bl	unix_bytes.utf8.scans.scan_by_window
	b	.Lunix_path_BB72_20
.Lunix_path_BB72_38:
	cmp	x21, #32
	b.hs	.Lunix_path_BB72_40
	mov	x8, xzr
	b	.Lunix_path_BB72_44
.Lunix_path_BB72_40:
	ldr	x11, [sp, #8]
	and	x9, x21, #0x18
	and	x8, x21, #0xffffffffffffffe0
	add	x10, x20, #16
	and	x12, x21, #0xffffffffffffffe0
	add	x11, x11, x28
.Lunix_path_BB72_41:
	ldp	q0, q1, [x10, #-16]
	subs	x12, x12, #32
	add	x10, x10, #32
	stp	q0, q1, [x11, #-16]
	add	x11, x11, #32
	b.ne	.Lunix_path_BB72_41
	cmp	x21, x8
	b.eq	.Lunix_path_BB72_33
	cbz	x9, .Lunix_path_BB72_30
.Lunix_path_BB72_44:
	mov	x10, x8
	ldr	x12, [sp, #16]
	and	x8, x21, #0xfffffffffffffff8
	add	x11, x10, x28
	sub	x9, x10, x8
	add	x10, x20, x10
	add	x11, x12, x11
.Lunix_path_BB72_45:
	ldr	d0, [x10], #8
	adds	x9, x9, #8
	str	d0, [x11], #8
	b.ne	.Lunix_path_BB72_45
	cmp	x21, x8
	b.eq	.Lunix_path_BB72_33
	b	.Lunix_path_BB72_30
.Lunix_path_BB72_47:
	mov	x25, xzr
.Lunix_path_BB72_48:
	mov	x8, #-9223372036854775808
	ldp	x20, x19, [sp, #112]
	cmp	x25, x8
	ldp	x22, x21, [sp, #96]
	csel	x0, x25, x8, lo
	ldp	x24, x23, [sp, #80]
	ldp	x26, x25, [sp, #64]
	ldp	x28, x27, [sp, #48]
	ldp	x29, x30, [sp, #32]
	add	sp, sp, #128
	ret
.Lunix_path_func_end72:
	.size	unix_path_to_string_lossy, .Lunix_path_func_end72-unix_path_to_string_lossy
	.section	.text.unix_path_join,"ax",@progbits
	.globl	unix_path_join
	.p2align	2
	.type	unix_path_join,@function
unix_path_join:
	sub	sp, sp, #112
	cmp	x0, #0
	mov	w9, #4096
	stp	x24, x23, [sp, #64]
	csel	x8, x9, xzr, eq
	cmp	x2, #0
	stp	x22, x21, [sp, #80]
	csel	x10, x9, xzr, eq
	cmp	x4, #0
	stp	x20, x19, [sp, #96]
	mov	x19, x2
	mov	x20, x1
	add	x22, x2, x10
	csel	x24, x9, xzr, eq
	stp	x29, x30, [sp, #16]
	add	x29, sp, #16
	stp	x28, x27, [sp, #32]
	stp	x26, x25, [sp, #48]
	cbz	x3, .Lunix_path_BB73_3
	ldrb	w9, [x22]
	cmp	w9, #47
	b.ne	.Lunix_path_BB73_3
	mov	x20, xzr
	mov	w23, wzr
	adrp	x1, .Lunix_path_static.0
	add	x1, x1, :lo12:.Lunix_path_static.0
	mov	w25, wzr
	add	x8, xzr, x3
	add	x21, x8, x25
	cmp	x5, x21
	b.hs	.Lunix_path_BB73_6
	b	.Lunix_path_BB73_41
.Lunix_path_BB73_3:
	add	x1, x0, x8
	cbz	x20, .Lunix_path_BB73_5
	add	x8, x1, x20
	mov	w9, #47
	ldurb	w8, [x8, #-1]
	cmp	w8, #47
	cset	w8, ne
	csel	w23, w9, wzr, ne
	mov	w25, w8
	add	x8, x20, x3
	add	x21, x8, x25
	cmp	x5, x21
	b.hs	.Lunix_path_BB73_6
	b	.Lunix_path_BB73_41
.Lunix_path_BB73_5:
	mov	w23, wzr
	mov	w25, wzr
	add	x8, x20, x3
	add	x21, x8, x25
	cmp	x5, x21
	b.lo	.Lunix_path_BB73_41
.Lunix_path_BB73_6:
	add	x26, x4, x24
	str	x10, [sp, #8]
	sub	x8, x26, x1
	cmp	x8, x20
	b.hs	.Lunix_path_BB73_12
	cmp	x20, #8
	b.lo	.Lunix_path_BB73_9
	add	x8, x24, x4
	sub	x8, x8, x1
	cmp	x8, #32
	b.hs	.Lunix_path_BB73_21
.Lunix_path_BB73_9:
	mov	x8, xzr
.Lunix_path_BB73_10:
	add	x10, x24, x8
	sub	x9, x20, x8
	add	x8, x1, x8
	add	x10, x4, x10
.Lunix_path_BB73_11:
	ldrb	w11, [x8], #1
	subs	x9, x9, #1
	strb	w11, [x10], #1
	b.ne	.Lunix_path_BB73_11
	b	.Lunix_path_BB73_13
.Lunix_path_BB73_12:
	add	x0, x4, x24
	mov	x2, x20
	mov	x28, x3
	mov	x27, x4
	bl	memmove
	mov	x4, x27
	mov	x3, x28
.Lunix_path_BB73_13:
	cbz	x25, .Lunix_path_BB73_15
	strb	w23, [x26, x20]
.Lunix_path_BB73_15:
	sub	x8, x21, x3
	add	x0, x26, x8
	sub	x8, x0, x22
	cmp	x8, x3
	b.hs	.Lunix_path_BB73_18
	cmp	x3, #8
	b.hs	.Lunix_path_BB73_19
	ldr	x13, [sp, #8]
	mov	x8, xzr
	b	.Lunix_path_BB73_39
.Lunix_path_BB73_18:
	mov	x1, x22
	mov	x2, x3
	bl	memmove
	b	.Lunix_path_BB73_41
.Lunix_path_BB73_19:
	add	x8, x24, x20
	ldr	x13, [sp, #8]
	add	x8, x8, x4
	add	x8, x8, x25
	add	x9, x13, x19
	sub	x8, x8, x9
	cmp	x8, #32
	b.hs	.Lunix_path_BB73_23
	mov	x8, xzr
	b	.Lunix_path_BB73_39
.Lunix_path_BB73_21:
	cmp	x20, #32
	b.hs	.Lunix_path_BB73_25
	mov	x8, xzr
	b	.Lunix_path_BB73_29
.Lunix_path_BB73_23:
	cmp	x3, #32
	b.hs	.Lunix_path_BB73_32
	mov	x8, xzr
	b	.Lunix_path_BB73_36
.Lunix_path_BB73_25:
	add	x11, x24, x4
	and	x9, x20, #0x18
	and	x8, x20, #0xffffffffffffffe0
	add	x10, x1, #16
	add	x11, x11, #16
	and	x12, x20, #0xffffffffffffffe0
.Lunix_path_BB73_26:
	ldp	q0, q1, [x10, #-16]
	subs	x12, x12, #32
	add	x10, x10, #32
	stp	q0, q1, [x11, #-16]
	add	x11, x11, #32
	b.ne	.Lunix_path_BB73_26
	cmp	x20, x8
	b.eq	.Lunix_path_BB73_13
	cbz	x9, .Lunix_path_BB73_10
.Lunix_path_BB73_29:
	mov	x10, x8
	and	x8, x20, #0xfffffffffffffff8
	add	x11, x24, x10
	sub	x9, x10, x8
	add	x10, x1, x10
	add	x11, x4, x11
.Lunix_path_BB73_30:
	ldr	d0, [x10], #8
	adds	x9, x9, #8
	str	d0, [x11], #8
	b.ne	.Lunix_path_BB73_30
	cmp	x20, x8
	b.eq	.Lunix_path_BB73_13
	b	.Lunix_path_BB73_10
.Lunix_path_BB73_32:
	add	x8, x24, x20
	add	x11, x13, x19
	and	x9, x3, #0x18
	add	x10, x8, x25
	and	x8, x3, #0xffffffffffffffe0
	add	x12, x10, x4
	add	x10, x11, #16
	add	x11, x12, #16
	and	x12, x3, #0xffffffffffffffe0
.Lunix_path_BB73_33:
	ldp	q0, q1, [x10, #-16]
	subs	x12, x12, #32
	add	x10, x10, #32
	stp	q0, q1, [x11, #-16]
	add	x11, x11, #32
	b.ne	.Lunix_path_BB73_33
	cmp	x3, x8
	b.eq	.Lunix_path_BB73_41
	cbz	x9, .Lunix_path_BB73_39
.Lunix_path_BB73_36:
	mov	x9, x8
	add	x10, x24, x20
	and	x8, x3, #0xfffffffffffffff8
	add	x11, x13, x9
	add	x12, x10, x9
	add	x13, x4, x25
	sub	x9, x9, x8
	add	x10, x19, x11
	add	x11, x13, x12
.Lunix_path_BB73_37:
	ldr	d0, [x10], #8
	adds	x9, x9, #8
	str	d0, [x11], #8
	b.ne	.Lunix_path_BB73_37
	ldr	x13, [sp, #8]
	cmp	x3, x8
	b.eq	.Lunix_path_BB73_41
.Lunix_path_BB73_39:
	add	x9, x24, x8
	add	x10, x13, x8
	add	x12, x4, x25
	add	x11, x9, x20
	sub	x8, x3, x8
	add	x9, x19, x10
	add	x10, x12, x11
.Lunix_path_BB73_40:
	ldrb	w11, [x9], #1
	subs	x8, x8, #1
	strb	w11, [x10], #1
	b.ne	.Lunix_path_BB73_40
.Lunix_path_BB73_41:
	mov	x0, x21
	ldp	x20, x19, [sp, #96]
	ldp	x22, x21, [sp, #80]
	ldp	x24, x23, [sp, #64]
	ldp	x26, x25, [sp, #48]
	ldp	x28, x27, [sp, #32]
	ldp	x29, x30, [sp, #16]
	add	sp, sp, #112
	ret
.Lunix_path_func_end73:
	.size	unix_path_join, .Lunix_path_func_end73-unix_path_join
	.section	.rodata.cst16,"aM",@progbits,16
	.p2align	4, 0x0
.Lunix_path_CPI74_0:
	.byte	1
	.byte	2
	.byte	4
	.byte	8
	.byte	16
	.byte	32
	.byte	64
	.byte	128
	.byte	1
	.byte	2
	.byte	4
	.byte	8
	.byte	16
	.byte	32
	.byte	64
	.byte	128
	.section	.rodata.cst8,"aM",@progbits,8
	.p2align	3, 0x0
.Lunix_path_CPI74_1:
	.byte	1
	.byte	2
	.byte	4
	.byte	8
	.byte	16
	.byte	32
	.byte	64
	.byte	128
	.section	.text.unix_path_join_verbatim,"ax",@progbits
	.globl	unix_path_join_verbatim
	.p2align	2
	.type	unix_path_join_verbatim,@function
unix_path_join_verbatim:
	sub	sp, sp, #128
	cmp	x0, #0
	mov	w8, #4096
	stp	x26, x25, [sp, #64]
	csel	x10, x8, xzr, eq
	cmp	x2, #0
	stp	x28, x27, [sp, #48]
	csel	x26, x8, xzr, eq
	cmp	x4, #0
	stp	x24, x23, [sp, #80]
	stp	x22, x21, [sp, #96]
	mov	x28, x0
	mov	x21, x2
	stp	x20, x19, [sp, #112]
	mov	x19, x3
	mov	x22, x1
	add	x23, x2, x26
	csel	x11, x8, xzr, eq
	stp	x29, x30, [sp, #32]
	add	x29, sp, #32
	cbz	x3, .Lunix_path_BB74_68
	ldrb	w8, [x23]
	cmp	w8, #47
	b.eq	.Lunix_path_BB74_138
	cmp	w8, #46
	adrp	x27, .Lunix_path_CPI74_0
	stur	x10, [x29, #-8]
	str	x5, [sp, #16]
	b.ne	.Lunix_path_BB74_9
	cmp	x19, #1
	b.eq	.Lunix_path_BB74_13
	ldrb	w9, [x23, #1]
	cmp	w9, #47
	b.eq	.Lunix_path_BB74_13
	cmp	w9, #46
	b.ne	.Lunix_path_BB74_9
	cmp	x19, #2
	b.eq	.Lunix_path_BB74_8
	ldrb	w9, [x23, #2]
	cmp	w9, #47
	b.ne	.Lunix_path_BB74_9
.Lunix_path_BB74_8:
	mov	x24, x11
	mov	x25, x4
	b	.Lunix_path_BB74_63
.Lunix_path_BB74_9:
	mov	x24, x11
	add	x11, x23, x19
	mov	x25, x4
	ldurb	w9, [x11, #-1]
	and	w9, w9, #0xfe
	cmp	w9, #46
	b.eq	.Lunix_path_BB74_54
	subs	x9, x19, #17
	b.hs	.Lunix_path_BB74_14
.Lunix_path_BB74_11:
	cmp	x19, #9
	b.hs	.Lunix_path_BB74_22
	mov	x9, xzr
	b	.Lunix_path_BB74_39
.Lunix_path_BB74_13:
	mov	x24, x11
	mov	x25, x4
	mov	w20, #1
	b	.Lunix_path_BB74_91
.Lunix_path_BB74_14:
	cmp	x19, #32
	b.hi	.Lunix_path_BB74_24
	movi	v0.16b, #208
	ldur	q1, [x23, #1]
	ldr	q3, [x23]
	and	v2.16b, v1.16b, v0.16b
	movi	v1.16b, #47
	orr	v2.16b, v2.16b, v3.16b
	cmeq	v3.16b, v2.16b, v1.16b
	ldr	q2, [x27, :lo12:.Lunix_path_CPI74_0]
	and	v3.16b, v3.16b, v2.16b
	addp	v3.16b, v3.16b, v3.16b
	addp	v3.16b, v3.16b, v3.16b
	addp	v3.16b, v3.16b, v3.16b
	umov	w10, v3.h[0]
	cbnz	w10, .Lunix_path_BB74_17
	ldur	q3, [x11, #-16]
	and	v0.16b, v3.16b, v0.16b
	ldur	q3, [x11, #-17]
	orr	v0.16b, v0.16b, v3.16b
	cmeq	v0.16b, v0.16b, v1.16b
	and	v0.16b, v0.16b, v2.16b
	addp	v0.16b, v0.16b, v0.16b
	addp	v0.16b, v0.16b, v0.16b
	addp	v0.16b, v0.16b, v0.16b
	umov	w10, v0.h[0]
	cbz	w10, .Lunix_path_BB74_37
.Lunix_path_BB74_17:
	cmp	x19, #18
	b.ls	.Lunix_path_BB74_11
	subs	x10, x19, #19
	b.ne	.Lunix_path_BB74_26
	mov	x11, xzr
.Lunix_path_BB74_20:
	cmp	x9, x11
	movi	v0.16b, #208
	csel	x9, x9, x11, lo
	add	x11, x23, x9
	ldur	q1, [x11, #1]
	ldr	q2, [x11]
	and	v1.16b, v1.16b, v0.16b
	movi	v0.16b, #47
	orr	v1.16b, v1.16b, v2.16b
	cmeq	v2.16b, v1.16b, v0.16b
	ldr	q1, [x27, :lo12:.Lunix_path_CPI74_0]
	and	v2.16b, v2.16b, v1.16b
	addp	v2.16b, v2.16b, v2.16b
	addp	v2.16b, v2.16b, v2.16b
	addp	v2.16b, v2.16b, v2.16b
	umov	w11, v2.h[0]
	cbz	w11, .Lunix_path_BB74_38
	movi	v2.16b, #46
	add	x9, x23, x10
	ldur	q3, [x9, #2]
	ldur	q4, [x9, #3]
	cmeq	v4.16b, v4.16b, v0.16b
	cmeq	v5.16b, v3.16b, v2.16b
	cmeq	v3.16b, v3.16b, v0.16b
	and	v4.16b, v5.16b, v4.16b
	ldur	q5, [x9, #1]
	cmeq	v2.16b, v5.16b, v2.16b
	orr	v3.16b, v3.16b, v4.16b
	ldr	q4, [x9]
	and	v2.16b, v2.16b, v3.16b
	cmeq	v3.16b, v4.16b, v0.16b
	cmeq	v0.16b, v5.16b, v0.16b
	orr	v0.16b, v0.16b, v2.16b
	and	v1.16b, v3.16b, v1.16b
	and	v0.16b, v1.16b, v0.16b
	addp	v0.16b, v0.16b, v0.16b
	addp	v0.16b, v0.16b, v0.16b
	addp	v0.16b, v0.16b, v0.16b
	umov	w9, v0.h[0]
	orr	w9, w9, #0x10000
	rbit	w9, w9
	clz	w9, w9
	add	x9, x10, x9
	b	.Lunix_path_BB74_39
.Lunix_path_BB74_22:
	movi	v0.8b, #254
	movi	v1.8b, #47
	ldr	d3, [x23]
	ldur	d4, [x23, #1]
	movi	v2.8b, #46
	adrp	x9, .Lunix_path_CPI74_1
	and	v4.8b, v4.8b, v0.8b
	cmeq	v5.8b, v3.8b, v1.8b
	ldr	d3, [x9, :lo12:.Lunix_path_CPI74_1]
	cmeq	v4.8b, v4.8b, v2.8b
	and	v5.8b, v5.8b, v3.8b
	and	v4.8b, v5.8b, v4.8b
	addv	b4, v4.8b
	fmov	w9, s4
	orr	w9, w9, #0x100
	rbit	w9, w9
	clz	w9, w9
	cmp	w9, #8
	b.lo	.Lunix_path_BB74_39
	cmp	x19, #17
	mov	w9, #17
	csel	x9, x19, x9, lo
	sub	x9, x9, #9
	add	x10, x23, x9
	ldr	d4, [x10]
	ldur	d5, [x10, #1]
	and	v0.8b, v5.8b, v0.8b
	cmeq	v1.8b, v4.8b, v1.8b
	cmeq	v0.8b, v0.8b, v2.8b
	and	v1.8b, v1.8b, v3.8b
	and	v0.8b, v1.8b, v0.8b
	addv	b0, v0.8b
	fmov	w10, s0
	orr	w10, w10, #0x100
	rbit	w10, w10
	clz	w10, w10
	add	x9, x9, x10
	b	.Lunix_path_BB74_39
.Lunix_path_BB74_24:
	sub	x10, x19, #33
	movi	v0.16b, #208
	ldur	q2, [x11, #-16]
	add	x12, x23, x10
	ldur	q3, [x11, #-17]
	movi	v4.16b, #47
	ldur	q1, [x12, #1]
	and	v1.16b, v1.16b, v0.16b
	and	v0.16b, v2.16b, v0.16b
	ldr	q2, [x12]
	orr	v1.16b, v1.16b, v2.16b
	orr	v0.16b, v0.16b, v3.16b
	cmeq	v1.16b, v1.16b, v4.16b
	cmeq	v2.16b, v0.16b, v4.16b
	ldr	q0, [x27, :lo12:.Lunix_path_CPI74_0]
	and	v1.16b, v1.16b, v0.16b
	and	v2.16b, v2.16b, v0.16b
	addp	v1.16b, v1.16b, v1.16b
	addp	v2.16b, v2.16b, v2.16b
	addp	v1.16b, v1.16b, v1.16b
	addp	v2.16b, v2.16b, v2.16b
	addp	v1.16b, v1.16b, v1.16b
	addp	v2.16b, v2.16b, v2.16b
	orr	v1.16b, v2.16b, v1.16b
	umov	w11, v1.h[0]
	cbz	w11, .Lunix_path_BB74_33
	sub	x10, x19, #19
.Lunix_path_BB74_26:
	mov	x11, xzr
	b	.Lunix_path_BB74_28
.Lunix_path_BB74_27:
	cmp	x11, x10
	b.hs	.Lunix_path_BB74_20
.Lunix_path_BB74_28:
	movi	v1.16b, #208
	add	x12, x23, x11
	movi	v2.16b, #47
	ldur	q0, [x12, #1]
	and	v3.16b, v0.16b, v1.16b
	ldr	q1, [x12]
	orr	v3.16b, v3.16b, v1.16b
	cmeq	v4.16b, v3.16b, v2.16b
	ldr	q3, [x27, :lo12:.Lunix_path_CPI74_0]
	and	v4.16b, v4.16b, v3.16b
	addp	v4.16b, v4.16b, v4.16b
	addp	v4.16b, v4.16b, v4.16b
	addp	v4.16b, v4.16b, v4.16b
	umov	w13, v4.h[0]
	cbz	w13, .Lunix_path_BB74_31
	movi	v4.16b, #46
	ldur	q5, [x12, #2]
	ldur	q6, [x12, #3]
	cmeq	v1.16b, v1.16b, v2.16b
	cmeq	v6.16b, v6.16b, v2.16b
	cmeq	v7.16b, v5.16b, v4.16b
	cmeq	v5.16b, v5.16b, v2.16b
	cmeq	v4.16b, v0.16b, v4.16b
	cmeq	v0.16b, v0.16b, v2.16b
	and	v1.16b, v1.16b, v3.16b
	and	v6.16b, v7.16b, v6.16b
	orr	v5.16b, v5.16b, v6.16b
	and	v4.16b, v4.16b, v5.16b
	orr	v0.16b, v0.16b, v4.16b
	and	v0.16b, v1.16b, v0.16b
	addp	v0.16b, v0.16b, v0.16b
	addp	v0.16b, v0.16b, v0.16b
	addp	v0.16b, v0.16b, v0.16b
	umov	w12, v0.h[0]
	orr	w12, w12, #0x10000
	rbit	w12, w12
	clz	w12, w12
	cmp	w12, #15
	b.ls	.Lunix_path_BB74_32
	add	x11, x11, #16
	b	.Lunix_path_BB74_27
.Lunix_path_BB74_31:
	add	x11, x11, #16
	cmp	x11, x10
	b.lo	.Lunix_path_BB74_28
	b	.Lunix_path_BB74_27
.Lunix_path_BB74_32:
	add	x9, x11, w12, uxtw
	b	.Lunix_path_BB74_39
.Lunix_path_BB74_33:
	cbz	x10, .Lunix_path_BB74_37
	mov	x11, xzr
.Lunix_path_BB74_35:
	movi	v1.16b, #208
	add	x12, x23, x11
	movi	v5.16b, #47
	ldur	q2, [x12, #1]
	ldur	q3, [x12, #17]
	and	v2.16b, v2.16b, v1.16b
	and	v1.16b, v3.16b, v1.16b
	ldp	q3, q4, [x12]
	orr	v2.16b, v2.16b, v3.16b
	orr	v1.16b, v1.16b, v4.16b
	cmeq	v2.16b, v2.16b, v5.16b
	cmeq	v1.16b, v1.16b, v5.16b
	and	v2.16b, v2.16b, v0.16b
	and	v1.16b, v1.16b, v0.16b
	addp	v2.16b, v2.16b, v2.16b
	addp	v1.16b, v1.16b, v1.16b
	addp	v2.16b, v2.16b, v2.16b
	addp	v1.16b, v1.16b, v1.16b
	addp	v2.16b, v2.16b, v2.16b
	addp	v1.16b, v1.16b, v1.16b
	orr	v1.16b, v1.16b, v2.16b
	umov	w12, v1.h[0]
	cbnz	w12, .Lunix_path_BB74_17
	add	x11, x11, #32
	cmp	x11, x10
	b.lo	.Lunix_path_BB74_35
	b	.Lunix_path_BB74_41
.Lunix_path_BB74_37:
	ldr	x5, [sp, #16]
	sub	x8, x19, #16
	mov	x4, x25
	mov	x11, x24
	b	.Lunix_path_BB74_59
.Lunix_path_BB74_38:
	add	x9, x9, #16
.Lunix_path_BB74_39:
	cmp	x9, x19
	b.lo	.Lunix_path_BB74_47
.Lunix_path_BB74_40:
	cmp	x9, x19
	b.ne	.Lunix_path_BB74_54
.Lunix_path_BB74_41:
	cmp	x19, #15
	b.hi	.Lunix_path_BB74_58
	ldur	x10, [x29, #-8]
	ldr	x5, [sp, #16]
	mov	x8, xzr
	mov	x4, x25
	mov	x11, x24
.Lunix_path_BB74_43:
	ldrb	w9, [x23, x8]
	cbz	w9, .Lunix_path_BB74_66
	add	x8, x8, #1
	cmp	x19, x8
	b.ne	.Lunix_path_BB74_43
	b	.Lunix_path_BB74_68
.Lunix_path_BB74_45:
	cmp	w11, #47
	b.eq	.Lunix_path_BB74_40
.Lunix_path_BB74_46:
	cmp	x19, x10
	mov	x9, x10
	b.eq	.Lunix_path_BB74_41
.Lunix_path_BB74_47:
	ldrb	w10, [x23, x9]
	cmp	w10, #47
	add	x10, x9, #1
	b.ne	.Lunix_path_BB74_46
	cmp	x19, x10
	b.ls	.Lunix_path_BB74_40
	add	x11, x23, x9
	ldrb	w11, [x11, #1]
	cmp	w11, #46
	b.ne	.Lunix_path_BB74_45
	add	x11, x9, #2
	cmp	x19, x11
	b.ls	.Lunix_path_BB74_40
	add	x11, x23, x9
	ldrb	w11, [x11, #2]
	cmp	w11, #46
	b.ne	.Lunix_path_BB74_45
	add	x11, x9, #3
	cmp	x19, x11
	b.ls	.Lunix_path_BB74_40
	add	x11, x23, x9
	ldrb	w11, [x11, #3]
	b	.Lunix_path_BB74_45
.Lunix_path_BB74_54:
	cmp	w8, #47
	b.eq	.Lunix_path_BB74_57
	cmp	w8, #46
	b.ne	.Lunix_path_BB74_63
	cmp	x19, #1
	b.ne	.Lunix_path_BB74_90
.Lunix_path_BB74_57:
	mov	w20, #1
	b	.Lunix_path_BB74_91
.Lunix_path_BB74_58:
	ldr	x5, [sp, #16]
	subs	x8, x19, #16
	mov	x4, x25
	mov	x11, x24
	b.eq	.Lunix_path_BB74_62
.Lunix_path_BB74_59:
	mov	x9, xzr
.Lunix_path_BB74_60:
	ldr	q0, [x23, x9]
	ldr	q1, [x27, :lo12:.Lunix_path_CPI74_0]
	cmeq	v0.16b, v0.16b, #0
	and	v0.16b, v0.16b, v1.16b
	addp	v0.16b, v0.16b, v0.16b
	addp	v0.16b, v0.16b, v0.16b
	addp	v0.16b, v0.16b, v0.16b
	umov	w10, v0.h[0]
	orr	w10, w10, #0x10000
	rbit	w10, w10
	clz	w10, w10
	cmp	w10, #15
	b.ls	.Lunix_path_BB74_64
	add	x9, x9, #16
	cmp	x9, x8
	b.lo	.Lunix_path_BB74_60
.Lunix_path_BB74_62:
	ldr	q0, [x23, x8]
	ldr	q1, [x27, :lo12:.Lunix_path_CPI74_0]
	cmeq	v0.16b, v0.16b, #0
	and	v0.16b, v0.16b, v1.16b
	addp	v0.16b, v0.16b, v0.16b
	addp	v0.16b, v0.16b, v0.16b
	addp	v0.16b, v0.16b, v0.16b
	umov	w9, v0.h[0]
	orr	w9, w9, #0x10000
	rbit	w9, w9
	clz	w9, w9
	add	x8, x8, x9
	b	.Lunix_path_BB74_65
.Lunix_path_BB74_63:
	mov	w20, wzr
	b	.Lunix_path_BB74_91
.Lunix_path_BB74_64:
	add	x8, x9, w10, uxtw
.Lunix_path_BB74_65:
	ldur	x10, [x29, #-8]
.Lunix_path_BB74_66:
	cmp	x8, x19
	b.hs	.Lunix_path_BB74_68
	mov	x0, #-4
	b	.Lunix_path_BB74_156
.Lunix_path_BB74_68:
	mov	x13, x28
	add	x1, x28, x10
	cbz	x22, .Lunix_path_BB74_70
	add	x8, x1, x22
	mov	w9, #47
	ldurb	w8, [x8, #-1]
	cmp	w8, #47
	cset	w8, ne
	csel	w28, w9, wzr, ne
	mov	w25, w8
	add	x8, x19, x22
	add	x27, x8, x25
	cmp	x5, x27
	b.hs	.Lunix_path_BB74_71
	b	.Lunix_path_BB74_155
.Lunix_path_BB74_70:
	mov	w28, wzr
	mov	w25, wzr
	add	x8, x19, x22
	add	x27, x8, x25
	cmp	x5, x27
	b.lo	.Lunix_path_BB74_155
.Lunix_path_BB74_71:
	add	x15, x4, x11
	str	x4, [sp, #8]
	sub	x8, x15, x1
	cmp	x8, x22
	b.hs	.Lunix_path_BB74_77
	cmp	x22, #8
	b.lo	.Lunix_path_BB74_74
	add	x8, x11, x4
	add	x9, x10, x13
	sub	x8, x8, x9
	cmp	x8, #32
	b.hs	.Lunix_path_BB74_86
.Lunix_path_BB74_74:
	mov	x24, x26
	mov	x20, x11
	mov	x8, xzr
.Lunix_path_BB74_75:
	ldr	x11, [sp, #8]
	add	x9, x10, x8
	add	x10, x20, x8
	sub	x8, x22, x8
	add	x9, x13, x9
	add	x10, x11, x10
.Lunix_path_BB74_76:
	ldrb	w11, [x9], #1
	subs	x8, x8, #1
	strb	w11, [x10], #1
	b.ne	.Lunix_path_BB74_76
	b	.Lunix_path_BB74_78
.Lunix_path_BB74_77:
	add	x0, x4, x11
	mov	x2, x22
	mov	x24, x26
	mov	x20, x11
	mov	x26, x22
	mov	x22, x15
	bl	memmove
	mov	x15, x22
	mov	x22, x26
.Lunix_path_BB74_78:
	cbz	x25, .Lunix_path_BB74_80
	strb	w28, [x15, x22]
.Lunix_path_BB74_80:
	sub	x8, x27, x19
	add	x0, x15, x8
	sub	x8, x0, x23
	cmp	x8, x19
	b.hs	.Lunix_path_BB74_83
	mov	x15, x24
	cmp	x19, #8
	b.hs	.Lunix_path_BB74_84
	ldr	x24, [sp, #8]
	mov	x8, xzr
	b	.Lunix_path_BB74_153
.Lunix_path_BB74_83:
	mov	x1, x23
	mov	x2, x19
	bl	memmove
	b	.Lunix_path_BB74_155
.Lunix_path_BB74_84:
	ldr	x24, [sp, #8]
	add	x8, x20, x22
	add	x9, x15, x21
	add	x8, x8, x24
	add	x8, x8, x25
	sub	x8, x8, x9
	cmp	x8, #32
	b.hs	.Lunix_path_BB74_88
	mov	x8, xzr
	b	.Lunix_path_BB74_153
.Lunix_path_BB74_86:
	cmp	x22, #32
	b.hs	.Lunix_path_BB74_139
	mov	x24, x26
	mov	x20, x11
	mov	x8, xzr
	b	.Lunix_path_BB74_143
.Lunix_path_BB74_88:
	cmp	x19, #32
	b.hs	.Lunix_path_BB74_146
	mov	x8, xzr
	b	.Lunix_path_BB74_150
.Lunix_path_BB74_90:
	ldrb	w8, [x23, #1]
	cmp	w8, #47
	cset	w20, eq
.Lunix_path_BB74_91:
	mov	x8, x19
	b	.Lunix_path_BB74_93
.Lunix_path_BB74_92:
	mov	x8, x1
	cbz	x1, .Lunix_path_BB74_41
.Lunix_path_BB74_93:
	subs	x1, x8, #1
	b.eq	.Lunix_path_BB74_99
	add	x9, x23, x1
	ldrb	w10, [x9]
	cmp	w10, #47
	b.eq	.Lunix_path_BB74_97
	cmp	w10, #46
	b.ne	.Lunix_path_BB74_99
	ldurb	w9, [x9, #-1]
	cmp	w9, #47
	b.ne	.Lunix_path_BB74_99
.Lunix_path_BB74_97:
	sub	x8, x19, x1
	cmp	x8, #8
	b.ne	.Lunix_path_BB74_92
	add	x0, x21, x26
	bl	unix_path.filler.trimmed_blocks_len
	mov	x1, x0
	b	.Lunix_path_BB74_92
.Lunix_path_BB74_99:
	mov	x9, xzr
	mov	x11, x8
	add	x10, x21, x26
	b	.Lunix_path_BB74_103
.Lunix_path_BB74_100:
	mov	x11, xzr
.Lunix_path_BB74_101:
	add	x11, x11, x12
.Lunix_path_BB74_102:
	add	x9, x11, x9
	mov	w20, wzr
	subs	x11, x8, x9
	add	x10, x23, x9
	b.eq	.Lunix_path_BB74_41
.Lunix_path_BB74_103:
	tbz	w20, #0, .Lunix_path_BB74_111
	subs	x13, x11, #1
	b.eq	.Lunix_path_BB74_135
	mov	x12, xzr
	sub	x11, x11, #2
	b	.Lunix_path_BB74_107
.Lunix_path_BB74_106:
	add	x12, x12, #1
	cmp	x13, x12
	b.eq	.Lunix_path_BB74_133
.Lunix_path_BB74_107:
	add	x14, x10, x12
	ldrb	w14, [x14, #1]
	cmp	w14, #47
	b.eq	.Lunix_path_BB74_106
	cmp	w14, #46
	b.ne	.Lunix_path_BB74_134
	cmp	x11, x12
	b.eq	.Lunix_path_BB74_133
	add	x14, x10, x12
	ldrb	w14, [x14, #2]
	cmp	w14, #47
	b.eq	.Lunix_path_BB74_106
	b	.Lunix_path_BB74_134
.Lunix_path_BB74_111:
	cmp	x11, #1
	b.eq	.Lunix_path_BB74_116
	ldrb	w12, [x10]
	cmp	w12, #46
	b.ne	.Lunix_path_BB74_116
	ldrb	w12, [x10, #1]
	cmp	w12, #46
	b.ne	.Lunix_path_BB74_116
	cmp	x11, #2
	b.eq	.Lunix_path_BB74_138
	ldrb	w12, [x10, #2]
	cmp	w12, #47
	b.eq	.Lunix_path_BB74_138
.Lunix_path_BB74_116:
	cmp	x11, #15
	b.hi	.Lunix_path_BB74_121
	mov	x12, xzr
.Lunix_path_BB74_118:
	ldrb	w13, [x10, x12]
	cmp	w13, #47
	b.eq	.Lunix_path_BB74_126
	add	x12, x12, #1
	cmp	x11, x12
	b.ne	.Lunix_path_BB74_118
	mov	x12, x11
	subs	x13, x11, x11
	b.ne	.Lunix_path_BB74_127
	b	.Lunix_path_BB74_100
.Lunix_path_BB74_121:
	subs	x12, x11, #16
	b.eq	.Lunix_path_BB74_125
	mov	x13, xzr
.Lunix_path_BB74_123:
	movi	v0.16b, #47
	ldr	q1, [x10, x13]
	cmeq	v0.16b, v1.16b, v0.16b
	ldr	q1, [x27, :lo12:.Lunix_path_CPI74_0]
	and	v0.16b, v0.16b, v1.16b
	addp	v0.16b, v0.16b, v0.16b
	addp	v0.16b, v0.16b, v0.16b
	addp	v0.16b, v0.16b, v0.16b
	umov	w14, v0.h[0]
	orr	w14, w14, #0x10000
	rbit	w14, w14
	clz	w14, w14
	cmp	w14, #15
	b.ls	.Lunix_path_BB74_137
	add	x13, x13, #16
	cmp	x13, x12
	b.lo	.Lunix_path_BB74_123
.Lunix_path_BB74_125:
	movi	v0.16b, #47
	ldr	q1, [x10, x12]
	cmeq	v0.16b, v1.16b, v0.16b
	ldr	q1, [x27, :lo12:.Lunix_path_CPI74_0]
	and	v0.16b, v0.16b, v1.16b
	addp	v0.16b, v0.16b, v0.16b
	addp	v0.16b, v0.16b, v0.16b
	addp	v0.16b, v0.16b, v0.16b
	umov	w13, v0.h[0]
	orr	w13, w13, #0x10000
	rbit	w13, w13
	clz	w13, w13
	add	x12, x12, x13
.Lunix_path_BB74_126:
	subs	x13, x11, x12
	b.eq	.Lunix_path_BB74_100
.Lunix_path_BB74_127:
	mov	x11, xzr
	add	x10, x10, x12
	sub	x14, x13, #1
	b	.Lunix_path_BB74_129
.Lunix_path_BB74_128:
	add	x11, x11, #1
	cmp	x13, x11
	b.eq	.Lunix_path_BB74_136
.Lunix_path_BB74_129:
	ldrb	w15, [x10, x11]
	cmp	w15, #47
	b.eq	.Lunix_path_BB74_128
	cmp	w15, #46
	b.ne	.Lunix_path_BB74_101
	cmp	x14, x11
	b.eq	.Lunix_path_BB74_136
	add	x15, x10, x11
	ldrb	w15, [x15, #1]
	cmp	w15, #47
	b.eq	.Lunix_path_BB74_128
	b	.Lunix_path_BB74_101
.Lunix_path_BB74_133:
	mov	x12, x13
.Lunix_path_BB74_134:
	add	x11, x12, #1
.Lunix_path_BB74_135:
	ldrb	w10, [x10]
	cmp	w10, #47
	b.ne	.Lunix_path_BB74_102
	b	.Lunix_path_BB74_138
.Lunix_path_BB74_136:
	mov	x11, x13
	b	.Lunix_path_BB74_101
.Lunix_path_BB74_137:
	add	x12, x13, w14, uxtw
	subs	x13, x11, x12
	b.ne	.Lunix_path_BB74_127
	b	.Lunix_path_BB74_100
.Lunix_path_BB74_138:
	mov	x0, #-2
	b	.Lunix_path_BB74_156
.Lunix_path_BB74_139:
	mov	x14, x10
	add	x10, x10, x13
	mov	x20, x11
	add	x11, x11, x4
	and	x9, x22, #0x18
	and	x8, x22, #0xffffffffffffffe0
	add	x10, x10, #16
	add	x11, x11, #16
	and	x12, x22, #0xffffffffffffffe0
.Lunix_path_BB74_140:
	ldp	q0, q1, [x10, #-16]
	subs	x12, x12, #32
	add	x10, x10, #32
	stp	q0, q1, [x11, #-16]
	add	x11, x11, #32
	b.ne	.Lunix_path_BB74_140
	mov	x24, x26
	cmp	x22, x8
	b.eq	.Lunix_path_BB74_78
	mov	x10, x14
	cbz	x9, .Lunix_path_BB74_75
.Lunix_path_BB74_143:
	mov	x9, x8
	ldr	x14, [sp, #8]
	and	x8, x22, #0xfffffffffffffff8
	mov	x12, x10
	add	x10, x10, x9
	add	x11, x20, x9
	sub	x9, x9, x8
	add	x10, x13, x10
	add	x11, x14, x11
.Lunix_path_BB74_144:
	ldr	d0, [x10], #8
	adds	x9, x9, #8
	str	d0, [x11], #8
	b.ne	.Lunix_path_BB74_144
	cmp	x22, x8
	mov	x10, x12
	b.ne	.Lunix_path_BB74_75
	b	.Lunix_path_BB74_78
.Lunix_path_BB74_146:
	add	x8, x20, x22
	add	x11, x15, x21
	mov	x13, x20
	add	x10, x8, x25
	and	x9, x19, #0x18
	and	x8, x19, #0xffffffffffffffe0
	add	x12, x10, x24
	add	x10, x11, #16
	add	x11, x12, #16
	and	x12, x19, #0xffffffffffffffe0
.Lunix_path_BB74_147:
	ldp	q0, q1, [x10, #-16]
	subs	x12, x12, #32
	add	x10, x10, #32
	stp	q0, q1, [x11, #-16]
	add	x11, x11, #32
	b.ne	.Lunix_path_BB74_147
	cmp	x19, x8
	b.eq	.Lunix_path_BB74_155
	mov	x20, x13
	cbz	x9, .Lunix_path_BB74_153
.Lunix_path_BB74_150:
	mov	x9, x8
	and	x8, x19, #0xfffffffffffffff8
	add	x13, x24, x25
	add	x10, x20, x9
	add	x11, x15, x9
	mov	x14, x20
	add	x12, x10, x22
	sub	x9, x9, x8
	add	x10, x21, x11
	add	x11, x13, x12
.Lunix_path_BB74_151:
	ldr	d0, [x10], #8
	adds	x9, x9, #8
	str	d0, [x11], #8
	b.ne	.Lunix_path_BB74_151
	cmp	x19, x8
	mov	x20, x14
	b.eq	.Lunix_path_BB74_155
.Lunix_path_BB74_153:
	add	x9, x20, x8
	add	x10, x15, x8
	add	x12, x24, x25
	add	x11, x9, x22
	sub	x8, x19, x8
	add	x9, x21, x10
	add	x10, x12, x11
.Lunix_path_BB74_154:
	ldrb	w11, [x9], #1
	subs	x8, x8, #1
	strb	w11, [x10], #1
	b.ne	.Lunix_path_BB74_154
.Lunix_path_BB74_155:
	mov	x8, #-9223372036854775808
	cmp	x27, x8
	csel	x0, x27, x8, lo
.Lunix_path_BB74_156:
	ldp	x20, x19, [sp, #112]
	ldp	x22, x21, [sp, #96]
	ldp	x24, x23, [sp, #80]
	ldp	x26, x25, [sp, #64]
	ldp	x28, x27, [sp, #48]
	ldp	x29, x30, [sp, #32]
	add	sp, sp, #128
	ret
.Lunix_path_func_end74:
	.size	unix_path_join_verbatim, .Lunix_path_func_end74-unix_path_join_verbatim
	.section	.text.unix_path_with_added_extension,"ax",@progbits
	.globl	unix_path_with_added_extension
	.p2align	2
	.type	unix_path_with_added_extension,@function
unix_path_with_added_extension:
	stp	x29, x30, [sp, #-96]!
	cmp	x0, #0
	mov	w8, #4096
	stp	x26, x25, [sp, #32]
	csel	x26, x8, xzr, eq
	cmp	x2, #0
	stp	x22, x21, [sp, #64]
	csel	x9, x8, xzr, eq
	stp	x24, x23, [sp, #48]
	mov	x23, x0
	add	x21, x2, x9
	mov	x22, x1
	cmp	x4, #0
	mov	x0, x21
	mov	x1, x3
	stp	x28, x27, [sp, #16]
	stp	x20, x19, [sp, #80]
	mov	x29, sp
	mov	x24, x5
	mov	x19, x4
	mov	x20, x3
	csel	x28, x8, xzr, eq
	bl	unix_path.stems.has_slash
	tbz	w0, #0, .Lunix_path_BB75_2
	mov	x0, #-7
	b	.Lunix_path_BB75_34
.Lunix_path_BB75_2:
	add	x25, x23, x26
	cbz	x20, .Lunix_path_BB75_12
	cbz	x22, .Lunix_path_BB75_14
	mov	x9, x22
	b	.Lunix_path_BB75_6
.Lunix_path_BB75_5:
	mov	x9, x1
	cbz	x1, .Lunix_path_BB75_14
.Lunix_path_BB75_6:
	subs	x1, x9, #1
	b.eq	.Lunix_path_BB75_13
	add	x8, x25, x1
	ldrb	w10, [x8]
	cmp	w10, #47
	b.eq	.Lunix_path_BB75_10
	cmp	w10, #46
	b.ne	.Lunix_path_BB75_39
	ldurb	w8, [x8, #-1]
	cmp	w8, #47
	b.ne	.Lunix_path_BB75_36
.Lunix_path_BB75_10:
	sub	x8, x22, x1
	cmp	x8, #8
	b.ne	.Lunix_path_BB75_5
	add	x0, x23, x26
	bl	unix_path.filler.trimmed_blocks_len
	mov	x1, x0
	b	.Lunix_path_BB75_5
.Lunix_path_BB75_12:
	mov	w8, wzr
	mov	w15, wzr
	b	.Lunix_path_BB75_15
.Lunix_path_BB75_13:
	ldrb	w8, [x25]
	and	w8, w8, #0xfe
	cmp	w8, #46
	b.ne	.Lunix_path_BB75_35
.Lunix_path_BB75_14:
	mov	w8, wzr
	mov	w15, wzr
	mov	x20, xzr
.Lunix_path_BB75_15:
	adrp	x21, .Lunix_path_static.0
	add	x21, x21, :lo12:.Lunix_path_static.0
.Lunix_path_BB75_16:
	mov	w14, w8
	mov	x13, x28
	add	x16, x22, x14
	add	x27, x20, x16
	cmp	x24, x27
	b.lo	.Lunix_path_BB75_33
	add	x24, x19, x13
	sub	x8, x24, x25
	cmp	x8, x22
	b.hs	.Lunix_path_BB75_23
	cmp	x22, #8
	b.lo	.Lunix_path_BB75_20
	add	x8, x13, x19
	add	x9, x26, x23
	sub	x8, x8, x9
	cmp	x8, #32
	b.hs	.Lunix_path_BB75_40
.Lunix_path_BB75_20:
	mov	x8, xzr
.Lunix_path_BB75_21:
	add	x9, x26, x8
	add	x10, x13, x8
	sub	x8, x22, x8
	add	x9, x23, x9
	add	x10, x19, x10
.Lunix_path_BB75_22:
	ldrb	w11, [x9], #1
	subs	x8, x8, #1
	strb	w11, [x10], #1
	b.ne	.Lunix_path_BB75_22
	b	.Lunix_path_BB75_24
.Lunix_path_BB75_23:
	add	x0, x19, x13
	mov	x1, x25
	mov	x2, x22
	mov	x23, x14
	mov	w25, w15
	mov	x26, x16
	bl	memmove
	mov	x16, x26
	mov	w15, w25
	mov	x14, x23
	mov	x13, x28
.Lunix_path_BB75_24:
	cbz	x14, .Lunix_path_BB75_26
	strb	w15, [x24, x22]
.Lunix_path_BB75_26:
	add	x0, x24, x16
	sub	x8, x0, x21
	cmp	x8, x20
	b.hs	.Lunix_path_BB75_32
	cmp	x20, #8
	b.lo	.Lunix_path_BB75_29
	add	x8, x13, x22
	add	x8, x8, x19
	add	x8, x8, x14
	sub	x8, x8, x21
	cmp	x8, #32
	b.hs	.Lunix_path_BB75_42
.Lunix_path_BB75_29:
	mov	x8, xzr
.Lunix_path_BB75_30:
	add	x9, x13, x22
	add	x9, x9, x8
	add	x10, x9, x14
	sub	x9, x20, x8
	add	x8, x21, x8
	add	x10, x19, x10
.Lunix_path_BB75_31:
	ldrb	w11, [x8], #1
	subs	x9, x9, #1
	strb	w11, [x10], #1
	b.ne	.Lunix_path_BB75_31
	b	.Lunix_path_BB75_33
.Lunix_path_BB75_32:
	mov	x1, x21
	mov	x2, x20
	bl	memmove
.Lunix_path_BB75_33:
	mov	x8, #-9223372036854775808
	cmp	x27, x8
	csel	x0, x27, x8, lo
.Lunix_path_BB75_34:
	ldp	x20, x19, [sp, #80]
	ldp	x22, x21, [sp, #64]
	ldp	x24, x23, [sp, #48]
	ldp	x26, x25, [sp, #32]
	ldp	x28, x27, [sp, #16]
	ldp	x29, x30, [sp], #96
	ret
.Lunix_path_BB75_35:
	mov	w15, #46
	mov	w22, #1
	mov	w8, #1
	b	.Lunix_path_BB75_16
.Lunix_path_BB75_36:
	cmp	w8, #46
	b.ne	.Lunix_path_BB75_39
	cmp	x9, #2
	b.eq	.Lunix_path_BB75_14
	add	x8, x25, x9
	ldurb	w8, [x8, #-3]
	cmp	w8, #47
	b.eq	.Lunix_path_BB75_14
.Lunix_path_BB75_39:
	mov	w15, #46
	mov	w8, #1
	mov	x22, x9
	b	.Lunix_path_BB75_16
.Lunix_path_BB75_40:
	cmp	x22, #32
	b.hs	.Lunix_path_BB75_44
	mov	x8, xzr
	b	.Lunix_path_BB75_48
.Lunix_path_BB75_42:
	cmp	x20, #32
	b.hs	.Lunix_path_BB75_51
	mov	x8, xzr
	b	.Lunix_path_BB75_55
.Lunix_path_BB75_44:
	add	x10, x26, x23
	add	x11, x13, x19
	and	x9, x22, #0x18
	and	x8, x22, #0xffffffffffffffe0
	add	x10, x10, #16
	add	x11, x11, #16
	and	x12, x22, #0xffffffffffffffe0
.Lunix_path_BB75_45:
	ldp	q0, q1, [x10, #-16]
	subs	x12, x12, #32
	add	x10, x10, #32
	stp	q0, q1, [x11, #-16]
	add	x11, x11, #32
	b.ne	.Lunix_path_BB75_45
	cmp	x22, x8
	b.eq	.Lunix_path_BB75_24
	cbz	x9, .Lunix_path_BB75_21
.Lunix_path_BB75_48:
	mov	x9, x8
	and	x8, x22, #0xfffffffffffffff8
	add	x10, x26, x9
	add	x11, x13, x9
	sub	x9, x9, x8
	add	x10, x23, x10
	add	x11, x19, x11
.Lunix_path_BB75_49:
	ldr	d0, [x10], #8
	adds	x9, x9, #8
	str	d0, [x11], #8
	b.ne	.Lunix_path_BB75_49
	cmp	x22, x8
	b.eq	.Lunix_path_BB75_24
	b	.Lunix_path_BB75_21
.Lunix_path_BB75_51:
	add	x8, x13, x22
	and	x9, x20, #0x18
	and	x12, x20, #0xffffffffffffffe0
	add	x10, x8, x14
	and	x8, x20, #0xffffffffffffffe0
	add	x11, x10, x19
	add	x10, x21, #16
	add	x11, x11, #16
.Lunix_path_BB75_52:
	ldp	q0, q1, [x10, #-16]
	subs	x12, x12, #32
	add	x10, x10, #32
	stp	q0, q1, [x11, #-16]
	add	x11, x11, #32
	b.ne	.Lunix_path_BB75_52
	cmp	x20, x8
	b.eq	.Lunix_path_BB75_33
	cbz	x9, .Lunix_path_BB75_30
.Lunix_path_BB75_55:
	mov	x10, x8
	add	x8, x13, x22
	add	x9, x8, x10
	and	x8, x20, #0xfffffffffffffff8
	add	x11, x9, x14
	sub	x9, x10, x8
	add	x10, x21, x10
	add	x11, x19, x11
.Lunix_path_BB75_56:
	ldr	d0, [x10], #8
	adds	x9, x9, #8
	str	d0, [x11], #8
	b.ne	.Lunix_path_BB75_56
	cmp	x20, x8
	b.eq	.Lunix_path_BB75_33
	b	.Lunix_path_BB75_30
.Lunix_path_func_end75:
	.size	unix_path_with_added_extension, .Lunix_path_func_end75-unix_path_with_added_extension
	.section	.rodata.cst16,"aM",@progbits,16
	.p2align	4, 0x0
.Lunix_path_CPI76_0:
	.byte	1
	.byte	2
	.byte	4
	.byte	8
	.byte	16
	.byte	32
	.byte	64
	.byte	128
	.byte	1
	.byte	2
	.byte	4
	.byte	8
	.byte	16
	.byte	32
	.byte	64
	.byte	128
	.section	.text.unix_path_with_extension,"ax",@progbits
	.globl	unix_path_with_extension
	.p2align	2
	.type	unix_path_with_extension,@function
unix_path_with_extension:
	stp	x29, x30, [sp, #-96]!
	cmp	x0, #0
	mov	w8, #4096
	stp	x28, x27, [sp, #16]
	csel	x27, x8, xzr, eq
	cmp	x2, #0
	stp	x24, x23, [sp, #48]
	csel	x9, x8, xzr, eq
	stp	x22, x21, [sp, #64]
	mov	x22, x1
	add	x23, x2, x9
	stp	x20, x19, [sp, #80]
	mov	x20, x0
	cmp	x4, #0
	mov	x0, x23
	mov	x1, x3
	stp	x26, x25, [sp, #32]
	mov	x29, sp
	mov	x24, x5
	mov	x19, x4
	mov	x21, x3
	csel	x26, x8, xzr, eq
	bl	unix_path.stems.has_slash
	tbz	w0, #0, .Lunix_path_BB76_2
	mov	x0, #-7
	b	.Lunix_path_BB76_45
.Lunix_path_BB76_2:
	add	x25, x20, x27
	cbz	x22, .Lunix_path_BB76_12
	mov	x8, x22
	b	.Lunix_path_BB76_5
.Lunix_path_BB76_4:
	mov	x8, x1
	cbz	x1, .Lunix_path_BB76_13
.Lunix_path_BB76_5:
	subs	x1, x8, #1
	b.eq	.Lunix_path_BB76_11
	add	x9, x25, x1
	ldrb	w10, [x9]
	cmp	w10, #47
	b.eq	.Lunix_path_BB76_9
	cmp	w10, #46
	b.ne	.Lunix_path_BB76_17
	ldurb	w9, [x9, #-1]
	cmp	w9, #47
	b.ne	.Lunix_path_BB76_14
.Lunix_path_BB76_9:
	sub	x8, x22, x1
	cmp	x8, #8
	b.ne	.Lunix_path_BB76_4
	add	x0, x20, x27
	bl	unix_path.filler.trimmed_blocks_len
	mov	x1, x0
	b	.Lunix_path_BB76_4
.Lunix_path_BB76_11:
	ldrb	w9, [x25]
	and	w9, w9, #0xfe
	cmp	w9, #46
	b.ne	.Lunix_path_BB76_17
.Lunix_path_BB76_12:
	mov	w9, wzr
	mov	x8, xzr
	mov	x14, x26
	b	.Lunix_path_BB76_27
.Lunix_path_BB76_13:
	mov	w9, wzr
	mov	x14, x26
	b	.Lunix_path_BB76_27
.Lunix_path_BB76_14:
	cmp	w9, #46
	b.ne	.Lunix_path_BB76_17
	cmp	x8, #2
	b.eq	.Lunix_path_BB76_12
	add	x9, x25, x8
	ldurb	w9, [x9, #-3]
	cmp	w9, #47
	b.eq	.Lunix_path_BB76_12
.Lunix_path_BB76_17:
	add	x10, x27, x20
	mov	w9, #1
	sub	x11, x10, #16
	mov	x10, x8
.Lunix_path_BB76_18:
	cmp	x10, #15
	b.ls	.Lunix_path_BB76_21
	movi	v0.16b, #46
	movi	v1.16b, #47
	ldr	q2, [x11, x10]
	adrp	x12, .Lunix_path_CPI76_0
	mov	w15, #64
	cmeq	v0.16b, v2.16b, v0.16b
	cmeq	v1.16b, v2.16b, v1.16b
	ldr	q2, [x12, :lo12:.Lunix_path_CPI76_0]
	and	v0.16b, v0.16b, v2.16b
	and	v1.16b, v1.16b, v2.16b
	addp	v0.16b, v0.16b, v0.16b
	addp	v1.16b, v1.16b, v1.16b
	addp	v0.16b, v0.16b, v0.16b
	addp	v1.16b, v1.16b, v1.16b
	addp	v0.16b, v0.16b, v0.16b
	addp	v1.16b, v1.16b, v1.16b
	umov	w12, v0.h[0]
	umov	w13, v1.h[0]
	clz	x12, x12
	clz	x14, x13
	sub	x13, x10, #16
	sub	x16, x15, x12
	sub	x15, x15, x14
	mov	x10, x13
	cmp	x16, x15
	csel	x15, x16, x15, hi
	cbz	x15, .Lunix_path_BB76_18
	mov	w10, #64
	sub	x11, x10, x14
	sub	x10, x10, x12
	mov	x14, x26
	cmp	x11, x10
	csel	x10, x11, x10, hi
	add	x10, x10, x13
	sub	x11, x10, #1
	cbnz	x11, .Lunix_path_BB76_25
	b	.Lunix_path_BB76_27
.Lunix_path_BB76_21:
	add	x11, x27, x20
	mov	x14, x26
	sub	x12, x11, #1
.Lunix_path_BB76_22:
	cbz	x10, .Lunix_path_BB76_27
	ldrb	w11, [x12, x10]
	and	w13, w11, #0xfe
	sub	x11, x10, #1
	cmp	w13, #46
	mov	x10, x11
	b.ne	.Lunix_path_BB76_22
	add	x10, x11, #1
	cbz	x11, .Lunix_path_BB76_27
.Lunix_path_BB76_25:
	ldrb	w12, [x25, x11]
	cmp	w12, #47
	b.eq	.Lunix_path_BB76_27
	add	x10, x25, x10
	ldurb	w10, [x10, #-2]
	cmp	w10, #47
	csel	x8, x8, x11, eq
.Lunix_path_BB76_27:
	and	w9, w9, #0xff
	cmp	x21, #0
	mov	w10, #46
	cset	w11, ne
	csel	w10, w10, wzr, ne
	cmp	w9, #1
	csel	x22, x22, x8, ne
	csel	w13, wzr, w11, ne
	csel	x21, xzr, x21, ne
	add	x15, x22, x13
	adrp	x8, .Lunix_path_static.0
	add	x8, x8, :lo12:.Lunix_path_static.0
	add	x28, x21, x15
	csel	w16, wzr, w10, ne
	csel	x23, x8, x23, ne
	cmp	x24, x28
	b.lo	.Lunix_path_BB76_44
	add	x24, x19, x14
	sub	x8, x24, x25
	cmp	x8, x22
	b.hs	.Lunix_path_BB76_34
	cmp	x22, #8
	b.lo	.Lunix_path_BB76_31
	add	x8, x14, x19
	add	x9, x27, x20
	sub	x8, x8, x9
	cmp	x8, #32
	b.hs	.Lunix_path_BB76_46
.Lunix_path_BB76_31:
	mov	x8, xzr
.Lunix_path_BB76_32:
	add	x9, x27, x8
	add	x10, x14, x8
	sub	x8, x22, x8
	add	x9, x20, x9
	add	x10, x19, x10
.Lunix_path_BB76_33:
	ldrb	w11, [x9], #1
	subs	x8, x8, #1
	strb	w11, [x10], #1
	b.ne	.Lunix_path_BB76_33
	b	.Lunix_path_BB76_35
.Lunix_path_BB76_34:
	add	x0, x19, x14
	mov	x1, x25
	mov	x2, x22
	mov	x20, x13
	mov	x25, x15
	mov	w27, w16
	bl	memmove
	mov	w16, w27
	mov	x15, x25
	mov	x13, x20
	mov	x14, x26
.Lunix_path_BB76_35:
	cbz	x13, .Lunix_path_BB76_37
	strb	w16, [x24, x22]
.Lunix_path_BB76_37:
	add	x0, x24, x15
	sub	x8, x0, x23
	cmp	x8, x21
	b.hs	.Lunix_path_BB76_43
	cmp	x21, #8
	b.lo	.Lunix_path_BB76_40
	add	x8, x14, x22
	add	x8, x8, x19
	add	x8, x8, x13
	sub	x8, x8, x23
	cmp	x8, #32
	b.hs	.Lunix_path_BB76_48
.Lunix_path_BB76_40:
	mov	x8, xzr
.Lunix_path_BB76_41:
	add	x9, x14, x8
	add	x11, x19, x13
	add	x10, x9, x22
	sub	x9, x21, x8
	add	x8, x23, x8
	add	x10, x11, x10
.Lunix_path_BB76_42:
	ldrb	w11, [x8], #1
	subs	x9, x9, #1
	strb	w11, [x10], #1
	b.ne	.Lunix_path_BB76_42
	b	.Lunix_path_BB76_44
.Lunix_path_BB76_43:
	mov	x1, x23
	mov	x2, x21
	bl	memmove
.Lunix_path_BB76_44:
	mov	x8, #-9223372036854775808
	cmp	x28, x8
	csel	x0, x28, x8, lo
.Lunix_path_BB76_45:
	ldp	x20, x19, [sp, #80]
	ldp	x22, x21, [sp, #64]
	ldp	x24, x23, [sp, #48]
	ldp	x26, x25, [sp, #32]
	ldp	x28, x27, [sp, #16]
	ldp	x29, x30, [sp], #96
	ret
.Lunix_path_BB76_46:
	cmp	x22, #32
	b.hs	.Lunix_path_BB76_50
	mov	x8, xzr
	b	.Lunix_path_BB76_54
.Lunix_path_BB76_48:
	cmp	x21, #32
	b.hs	.Lunix_path_BB76_57
	mov	x8, xzr
	b	.Lunix_path_BB76_61
.Lunix_path_BB76_50:
	add	x10, x27, x20
	add	x11, x14, x19
	and	x9, x22, #0x18
	and	x8, x22, #0xffffffffffffffe0
	add	x10, x10, #16
	add	x11, x11, #16
	and	x12, x22, #0xffffffffffffffe0
.Lunix_path_BB76_51:
	ldp	q0, q1, [x10, #-16]
	subs	x12, x12, #32
	add	x10, x10, #32
	stp	q0, q1, [x11, #-16]
	add	x11, x11, #32
	b.ne	.Lunix_path_BB76_51
	cmp	x22, x8
	b.eq	.Lunix_path_BB76_35
	cbz	x9, .Lunix_path_BB76_32
.Lunix_path_BB76_54:
	mov	x9, x8
	and	x8, x22, #0xfffffffffffffff8
	add	x10, x27, x9
	add	x11, x14, x9
	sub	x9, x9, x8
	add	x10, x20, x10
	add	x11, x19, x11
.Lunix_path_BB76_55:
	ldr	d0, [x10], #8
	adds	x9, x9, #8
	str	d0, [x11], #8
	b.ne	.Lunix_path_BB76_55
	cmp	x22, x8
	b.eq	.Lunix_path_BB76_35
	b	.Lunix_path_BB76_32
.Lunix_path_BB76_57:
	add	x8, x14, x22
	and	x9, x21, #0x18
	and	x12, x21, #0xffffffffffffffe0
	add	x10, x8, x13
	and	x8, x21, #0xffffffffffffffe0
	add	x11, x10, x19
	add	x10, x23, #16
	add	x11, x11, #16
.Lunix_path_BB76_58:
	ldp	q0, q1, [x10, #-16]
	subs	x12, x12, #32
	add	x10, x10, #32
	stp	q0, q1, [x11, #-16]
	add	x11, x11, #32
	b.ne	.Lunix_path_BB76_58
	cmp	x21, x8
	b.eq	.Lunix_path_BB76_44
	cbz	x9, .Lunix_path_BB76_41
.Lunix_path_BB76_61:
	mov	x10, x8
	add	x9, x14, x22
	and	x8, x21, #0xfffffffffffffff8
	add	x11, x9, x10
	add	x12, x19, x13
	sub	x9, x10, x8
	add	x10, x23, x10
	add	x11, x12, x11
.Lunix_path_BB76_62:
	ldr	d0, [x10], #8
	adds	x9, x9, #8
	str	d0, [x11], #8
	b.ne	.Lunix_path_BB76_62
	cmp	x21, x8
	b.eq	.Lunix_path_BB76_44
	b	.Lunix_path_BB76_41
.Lunix_path_func_end76:
	.size	unix_path_with_extension, .Lunix_path_func_end76-unix_path_with_extension
	.section	.rodata.cst16,"aM",@progbits,16
	.p2align	4, 0x0
.Lunix_path_CPI77_0:
	.byte	1
	.byte	2
	.byte	4
	.byte	8
	.byte	16
	.byte	32
	.byte	64
	.byte	128
	.byte	1
	.byte	2
	.byte	4
	.byte	8
	.byte	16
	.byte	32
	.byte	64
	.byte	128
	.section	.text.unix_path_with_file_name,"ax",@progbits
	.globl	unix_path_with_file_name
	.p2align	2
	.type	unix_path_with_file_name,@function
unix_path_with_file_name:
	sub	sp, sp, #112
	cmp	x0, #0
	mov	w8, #4096
	stp	x28, x27, [sp, #32]
	csel	x27, x8, xzr, eq
	cmp	x2, #0
	stp	x26, x25, [sp, #48]
	csel	x9, x8, xzr, eq
	cmp	x4, #0
	stp	x24, x23, [sp, #64]
	stp	x22, x21, [sp, #80]
	mov	x26, x5
	mov	x22, x1
	stp	x20, x19, [sp, #96]
	mov	x20, x4
	mov	x19, x3
	add	x24, x0, x27
	add	x21, x2, x9
	csel	x23, x8, xzr, eq
	stp	x29, x30, [sp, #16]
	add	x29, sp, #16
	stp	x2, x9, [sp]
	cbz	x1, .Lunix_path_BB77_22
	mov	x25, x0
	mov	x8, x22
	b	.Lunix_path_BB77_3
.Lunix_path_BB77_2:
	mov	x8, x1
	cbz	x1, .Lunix_path_BB77_22
.Lunix_path_BB77_3:
	subs	x1, x8, #1
	b.eq	.Lunix_path_BB77_9
	add	x9, x24, x1
	ldrb	w10, [x9]
	cmp	w10, #47
	b.eq	.Lunix_path_BB77_7
	cmp	w10, #46
	b.ne	.Lunix_path_BB77_13
	ldurb	w9, [x9, #-1]
	cmp	w9, #47
	b.ne	.Lunix_path_BB77_10
.Lunix_path_BB77_7:
	sub	x8, x22, x1
	cmp	x8, #8
	b.ne	.Lunix_path_BB77_2
	add	x0, x25, x27
	bl	unix_path.filler.trimmed_blocks_len
	mov	x1, x0
	b	.Lunix_path_BB77_2
.Lunix_path_BB77_9:
	ldrb	w9, [x24]
	and	w9, w9, #0xfe
	cmp	w9, #46
	b.ne	.Lunix_path_BB77_13
	b	.Lunix_path_BB77_22
.Lunix_path_BB77_10:
	cmp	w9, #46
	b.ne	.Lunix_path_BB77_13
	cmp	x8, #2
	b.eq	.Lunix_path_BB77_22
	add	x9, x24, x8
	ldurb	w9, [x9, #-3]
	cmp	w9, #47
	b.eq	.Lunix_path_BB77_22
.Lunix_path_BB77_13:
	add	x9, x27, x25
	sub	x10, x9, #16
	mov	x9, x8
.Lunix_path_BB77_14:
	cmp	x9, #15
	b.ls	.Lunix_path_BB77_17
	movi	v0.16b, #47
	ldr	q1, [x10, x9]
	adrp	x11, .Lunix_path_CPI77_0
	cmeq	v0.16b, v1.16b, v0.16b
	ldr	q1, [x11, :lo12:.Lunix_path_CPI77_0]
	sub	x11, x9, #16
	mov	x9, x11
	and	v0.16b, v0.16b, v1.16b
	addp	v0.16b, v0.16b, v0.16b
	addp	v0.16b, v0.16b, v0.16b
	addp	v0.16b, v0.16b, v0.16b
	umov	w12, v0.h[0]
	cbz	w12, .Lunix_path_BB77_14
	umov	w9, v0.h[0]
	and	x9, x9, #0xffff
	clz	x9, x9
	sub	x9, x11, x9
	add	x25, x9, #64
	cmp	x25, x8
	b.ne	.Lunix_path_BB77_45
	b	.Lunix_path_BB77_21
.Lunix_path_BB77_17:
	add	x10, x27, x25
	sub	x10, x10, #1
.Lunix_path_BB77_18:
	cbz	x9, .Lunix_path_BB77_21
	ldrb	w12, [x10, x9]
	sub	x11, x9, #1
	mov	x9, x11
	cmp	w12, #47
	b.ne	.Lunix_path_BB77_18
	add	x25, x11, #1
	cmp	x25, x8
	b.ne	.Lunix_path_BB77_45
.Lunix_path_BB77_21:
	mov	x22, xzr
.Lunix_path_BB77_22:
	cbz	x19, .Lunix_path_BB77_25
	ldrb	w8, [x21]
	cmp	w8, #47
	b.ne	.Lunix_path_BB77_25
	mov	x22, xzr
	mov	w28, wzr
	adrp	x24, .Lunix_path_static.0
	add	x24, x24, :lo12:.Lunix_path_static.0
	mov	w27, wzr
	add	x8, xzr, x19
	mov	x14, x23
	add	x25, x8, x27
	cmp	x26, x25
	b.hs	.Lunix_path_BB77_28
	b	.Lunix_path_BB77_44
.Lunix_path_BB77_25:
	cbz	x22, .Lunix_path_BB77_27
	add	x8, x24, x22
	mov	w9, #47
	ldurb	w8, [x8, #-1]
	cmp	w8, #47
	cset	w8, ne
	csel	w28, w9, wzr, ne
	mov	w27, w8
	add	x8, x22, x19
	mov	x14, x23
	add	x25, x8, x27
	cmp	x26, x25
	b.hs	.Lunix_path_BB77_28
	b	.Lunix_path_BB77_44
.Lunix_path_BB77_27:
	mov	w28, wzr
	mov	w27, wzr
	add	x8, x22, x19
	mov	x14, x23
	add	x25, x8, x27
	cmp	x26, x25
	b.lo	.Lunix_path_BB77_44
.Lunix_path_BB77_28:
	add	x26, x20, x14
	sub	x8, x26, x24
	cmp	x8, x22
	b.hs	.Lunix_path_BB77_34
	cmp	x22, #8
	b.lo	.Lunix_path_BB77_31
	add	x8, x14, x20
	sub	x8, x8, x24
	cmp	x8, #32
	b.hs	.Lunix_path_BB77_53
.Lunix_path_BB77_31:
	mov	x8, xzr
.Lunix_path_BB77_32:
	add	x10, x14, x8
	sub	x9, x22, x8
	add	x8, x24, x8
	add	x10, x20, x10
.Lunix_path_BB77_33:
	ldrb	w11, [x8], #1
	subs	x9, x9, #1
	strb	w11, [x10], #1
	b.ne	.Lunix_path_BB77_33
	b	.Lunix_path_BB77_35
.Lunix_path_BB77_34:
	add	x0, x20, x14
	mov	x1, x24
	mov	x2, x22
	bl	memmove
	mov	x14, x23
.Lunix_path_BB77_35:
	cbz	x27, .Lunix_path_BB77_37
	strb	w28, [x26, x22]
.Lunix_path_BB77_37:
	sub	x8, x25, x19
	add	x0, x26, x8
	sub	x8, x0, x21
	cmp	x8, x19
	b.hs	.Lunix_path_BB77_43
	cmp	x19, #8
	b.lo	.Lunix_path_BB77_40
	ldp	x10, x9, [sp]
	add	x8, x14, x22
	add	x8, x8, x20
	add	x8, x8, x27
	add	x9, x9, x10
	sub	x8, x8, x9
	cmp	x8, #32
	b.hs	.Lunix_path_BB77_55
.Lunix_path_BB77_40:
	mov	x8, xzr
.Lunix_path_BB77_41:
	add	x9, x14, x8
	add	x12, x20, x27
	add	x11, x9, x22
	ldp	x9, x10, [sp]
	add	x10, x10, x8
	sub	x8, x19, x8
	add	x9, x9, x10
	add	x10, x12, x11
.Lunix_path_BB77_42:
	ldrb	w11, [x9], #1
	subs	x8, x8, #1
	strb	w11, [x10], #1
	b.ne	.Lunix_path_BB77_42
	b	.Lunix_path_BB77_44
.Lunix_path_BB77_43:
	mov	x1, x21
	mov	x2, x19
	bl	memmove
.Lunix_path_BB77_44:
	mov	x0, x25
	ldp	x20, x19, [sp, #96]
	ldp	x22, x21, [sp, #80]
	ldp	x24, x23, [sp, #64]
	ldp	x26, x25, [sp, #48]
	ldp	x28, x27, [sp, #32]
	ldp	x29, x30, [sp, #16]
	add	sp, sp, #112
	ret
.Lunix_path_BB77_45:
	mov	x22, x25
	b	.Lunix_path_BB77_47
.Lunix_path_BB77_46:
	mov	x22, x1
	cbz	x1, .Lunix_path_BB77_22
.Lunix_path_BB77_47:
	subs	x1, x22, #1
	b.eq	.Lunix_path_BB77_22
	add	x8, x24, x1
	ldrb	w9, [x8]
	cmp	w9, #47
	b.eq	.Lunix_path_BB77_51
	cmp	w9, #46
	b.ne	.Lunix_path_BB77_22
	ldurb	w8, [x8, #-1]
	cmp	w8, #47
	b.ne	.Lunix_path_BB77_22
.Lunix_path_BB77_51:
	sub	x8, x25, x1
	cmp	x8, #8
	b.ne	.Lunix_path_BB77_46
	mov	x0, x24
	bl	unix_path.filler.trimmed_blocks_len
	mov	x1, x0
	b	.Lunix_path_BB77_46
.Lunix_path_BB77_53:
	cmp	x22, #32
	b.hs	.Lunix_path_BB77_57
	mov	x8, xzr
	b	.Lunix_path_BB77_61
.Lunix_path_BB77_55:
	cmp	x19, #32
	b.hs	.Lunix_path_BB77_64
	mov	x8, xzr
	b	.Lunix_path_BB77_68
.Lunix_path_BB77_57:
	add	x11, x14, x20
	and	x9, x22, #0x18
	and	x8, x22, #0xffffffffffffffe0
	add	x10, x24, #16
	add	x11, x11, #16
	and	x12, x22, #0xffffffffffffffe0
.Lunix_path_BB77_58:
	ldp	q0, q1, [x10, #-16]
	subs	x12, x12, #32
	add	x10, x10, #32
	stp	q0, q1, [x11, #-16]
	add	x11, x11, #32
	b.ne	.Lunix_path_BB77_58
	cmp	x22, x8
	b.eq	.Lunix_path_BB77_35
	cbz	x9, .Lunix_path_BB77_32
.Lunix_path_BB77_61:
	mov	x10, x8
	and	x8, x22, #0xfffffffffffffff8
	add	x11, x14, x10
	sub	x9, x10, x8
	add	x10, x24, x10
	add	x11, x20, x11
.Lunix_path_BB77_62:
	ldr	d0, [x10], #8
	adds	x9, x9, #8
	str	d0, [x11], #8
	b.ne	.Lunix_path_BB77_62
	cmp	x22, x8
	b.eq	.Lunix_path_BB77_35
	b	.Lunix_path_BB77_32
.Lunix_path_BB77_64:
	ldp	x12, x11, [sp]
	add	x8, x14, x22
	add	x10, x8, x27
	and	x9, x19, #0x18
	and	x8, x19, #0xffffffffffffffe0
	add	x11, x11, x12
	add	x12, x10, x20
	add	x10, x11, #16
	add	x11, x12, #16
	and	x12, x19, #0xffffffffffffffe0
.Lunix_path_BB77_65:
	ldp	q0, q1, [x10, #-16]
	subs	x12, x12, #32
	add	x10, x10, #32
	stp	q0, q1, [x11, #-16]
	add	x11, x11, #32
	b.ne	.Lunix_path_BB77_65
	cmp	x19, x8
	b.eq	.Lunix_path_BB77_44
	cbz	x9, .Lunix_path_BB77_41
.Lunix_path_BB77_68:
	mov	x9, x8
	add	x10, x14, x22
	add	x12, x10, x8
	ldp	x10, x11, [sp]
	and	x8, x19, #0xfffffffffffffff8
	add	x11, x11, x9
	add	x13, x20, x27
	sub	x9, x9, x8
	add	x10, x10, x11
	add	x11, x13, x12
.Lunix_path_BB77_69:
	ldr	d0, [x10], #8
	adds	x9, x9, #8
	str	d0, [x11], #8
	b.ne	.Lunix_path_BB77_69
	cmp	x19, x8
	b.eq	.Lunix_path_BB77_44
	b	.Lunix_path_BB77_41
.Lunix_path_func_end77:
	.size	unix_path_with_file_name, .Lunix_path_func_end77-unix_path_with_file_name
	.type	.Lunix_path_static.0,@object
	.section	.rodata..Lstatic.0,"a",@progbits
.Lunix_path_static.0:
	.size	.Lunix_path_static.0, 0
	.type	.Lunix_path_static.5,@object
	.section	.rodata..Lstatic.5,"a",@progbits
.Lunix_path_static.5:
	.byte	46
	.size	.Lunix_path_static.5, 1
	.type	.Lunix_path_static.8,@object
	.section	.rodata..Lstatic.8,"a",@progbits
.Lunix_path_static.8:
	.byte	47
	.size	.Lunix_path_static.8, 1
	.type	.Lunix_path_static.9,@object
	.section	.rodata..Lstatic.9,"a",@progbits
.Lunix_path_static.9:
	.ascii	"./"
	.size	.Lunix_path_static.9, 2
	.type	.Lunix_path_static.10,@object
	.section	.rodata..Lstatic.10,"a",@progbits
.Lunix_path_static.10:
	.zero	2,46
	.size	.Lunix_path_static.10, 2
	.type	.Lunix_path_static.12,@object
	.section	.rodata..Lstatic.12,"a",@progbits
.Lunix_path_static.12:
	.ascii	"\357\277\275"
	.size	.Lunix_path_static.12, 3
	.section	.note.GNU-stack,"",@progbits
