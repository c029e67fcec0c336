// unix_path 1.1.0: the program upath, except support.c, for aarch64 Linux. Compiled from proved sources.
// tools/generate made this file. PROVED.txt has its SHA-256, and says what it was made from.
// Licensed under MIT or Apache-2.0.
	.section	.text.unlikely.std_alloc.vec.Vec.grow_amortized.482225946d19deb9.,"ax",@progbits
	.p2align	2
	.type	std_alloc.vec.Vec.grow_amortized.482225946d19deb9.,@function
// std_alloc::vec::Vec::grow_amortized::<#482225946d19deb9>
std_alloc.vec.Vec.grow_amortized.482225946d19deb9.:
	ldr	x8, [x0, #8]
	cmn	x8, x1
	b.lo	.Lunix_path_BB0_2
	mov	w0, wzr
	ret
.Lunix_path_BB0_2:
	stp	x29, x30, [sp, #-32]!
	ldr	x10, [x0, #16]
	add	x9, x8, x1
	mov	w11, #8
	cmp	x9, #8
	stp	x20, x19, [sp, #16]
	mov	x29, sp
	lsl	x12, x10, #1
	csel	x11, x9, x11, hi
	lsr	x13, x10, #62
	cmp	x11, x12
	csel	x9, x11, x12, hi
	cmp	x13, #0
	csel	x19, x9, x11, eq
	tbnz	x19, #63, .Lunix_path_BB0_7
	cbz	x10, .Lunix_path_BB0_6
	mov	x20, x0
	ldr	x0, [x0]
	mov	x1, x8
	mov	x2, x19
	mov	w3, #1
	bl	rattle_realloc
	tbz	w0, #0, .Lunix_path_BB0_7
.Lunix_path_BB0_5:
	mov	w0, #1
	str	x1, [x20]
	str	x19, [x20, #16]
	ldp	x20, x19, [sp, #16]
	ldp	x29, x30, [sp], #32
	ret
.Lunix_path_BB0_6:
	mov	x20, x0
	mov	x0, x9
	mov	w1, #1
	bl	rattle_alloc
	tbnz	w0, #0, .Lunix_path_BB0_5
.Lunix_path_BB0_7:
	mov	w0, wzr
	ldp	x20, x19, [sp, #16]
	ldp	x29, x30, [sp], #32
	ret
.Lunix_path_func_end0:
	.size	std_alloc.vec.Vec.grow_amortized.482225946d19deb9., .Lunix_path_func_end0-std_alloc.vec.Vec.grow_amortized.482225946d19deb9.
	.section	.text.unlikely.std_alloc.vec.Vec.grow_amortized.22ca91936d612ecb.,"ax",@progbits
	.p2align	2
	.type	std_alloc.vec.Vec.grow_amortized.22ca91936d612ecb.,@function
// std_alloc::vec::Vec::grow_amortized::<#22ca91936d612ecb>
std_alloc.vec.Vec.grow_amortized.22ca91936d612ecb.:
	ldr	x8, [x0, #8]
	cmn	x8, #1
	b.eq	.Lunix_path_BB1_5
	stp	x29, x30, [sp, #-32]!
	ldr	x9, [x0, #16]
	cmp	x8, #3
	mov	w10, #3
	csel	x11, x8, x10, hi
	stp	x20, x19, [sp, #16]
	mov	x29, sp
	lsl	x10, x9, #1
	add	x12, x11, #1
	lsr	x13, x9, #62
	cmp	x12, x10
	csinc	x10, x10, x11, ls
	cmp	x13, #0
	csinc	x19, x10, x11, eq
	mov	x11, #6148914691236517205
	movk	x11, #1365, lsl #48
	cmp	x19, x11
	b.hi	.Lunix_path_BB1_7
	cbz	x9, .Lunix_path_BB1_6
	add	x8, x8, x8, lsl #1
	add	x9, x19, x19, lsl #1
	mov	x20, x0
	ldr	x0, [x0]
	mov	w3, #8
	lsl	x1, x8, #3
	lsl	x2, x9, #3
	bl	rattle_realloc
	tbz	w0, #0, .Lunix_path_BB1_7
.Lunix_path_BB1_4:
	mov	w0, #1
	str	x1, [x20]
	str	x19, [x20, #16]
	ldp	x20, x19, [sp, #16]
	ldp	x29, x30, [sp], #32
	ret
.Lunix_path_BB1_5:
	mov	w0, wzr
	ret
.Lunix_path_BB1_6:
	add	x8, x10, x10, lsl #1
	mov	x20, x0
	mov	w1, #8
	lsl	x0, x8, #3
	bl	rattle_alloc
	tbnz	w0, #0, .Lunix_path_BB1_4
.Lunix_path_BB1_7:
	mov	w0, wzr
	ldp	x20, x19, [sp, #16]
	ldp	x29, x30, [sp], #32
	ret
.Lunix_path_func_end1:
	.size	std_alloc.vec.Vec.grow_amortized.22ca91936d612ecb., .Lunix_path_func_end1-std_alloc.vec.Vec.grow_amortized.22ca91936d612ecb.
	.section	.text.unlikely.std_alloc.vec.Vec.grow_amortized.a60b1bb647f5ec87.,"ax",@progbits
	.p2align	2
	.type	std_alloc.vec.Vec.grow_amortized.a60b1bb647f5ec87.,@function
// std_alloc::vec::Vec::grow_amortized::<#a60b1bb647f5ec87>
std_alloc.vec.Vec.grow_amortized.a60b1bb647f5ec87.:
	ldr	x8, [x0, #8]
	cmn	x8, x1
	b.lo	.Lunix_path_BB2_2
	mov	w0, wzr
	ret
.Lunix_path_BB2_2:
	stp	x29, x30, [sp, #-32]!
	ldr	x9, [x0, #16]
	add	x10, x8, x1
	mov	w11, #4
	cmp	x10, #4
	stp	x20, x19, [sp, #16]
	mov	x29, sp
	lsl	x12, x9, #1
	csel	x11, x10, x11, hi
	lsr	x13, x9, #62
	cmp	x11, x12
	csel	x10, x11, x12, hi
	cmp	x13, #0
	csel	x19, x10, x11, eq
	lsr	x11, x19, #59
	cbnz	x11, .Lunix_path_BB2_7
	cbz	x9, .Lunix_path_BB2_6
	mov	x20, x0
	ldr	x0, [x0]
	lsl	x1, x8, #4
	lsl	x2, x19, #4
	mov	w3, #8
	bl	rattle_realloc
	tbz	w0, #0, .Lunix_path_BB2_7
.Lunix_path_BB2_5:
	mov	w0, #1
	str	x1, [x20]
	str	x19, [x20, #16]
	ldp	x20, x19, [sp, #16]
	ldp	x29, x30, [sp], #32
	ret
.Lunix_path_BB2_6:
	mov	x20, x0
	lsl	x0, x10, #4
	mov	w1, #8
	bl	rattle_alloc
	tbnz	w0, #0, .Lunix_path_BB2_5
.Lunix_path_BB2_7:
	mov	w0, wzr
	ldp	x20, x19, [sp, #16]
	ldp	x29, x30, [sp], #32
	ret
.Lunix_path_func_end2:
	.size	std_alloc.vec.Vec.grow_amortized.a60b1bb647f5ec87., .Lunix_path_func_end2-std_alloc.vec.Vec.grow_amortized.a60b1bb647f5ec87.
	.section	.rodata.cst16,"aM",@progbits,16
	.p2align	4, 0x0
.Lunix_path_CPI3_0:
	.byte	1
	.byte	2
	.byte	4
	.byte	8
	.byte	16
	.byte	32
	.byte	64
	.byte	128
	.byte	1
	.byte	2
	.byte	4
	.byte	8
	.byte	16
	.byte	32
	.byte	64
	.byte	128
	.section	.text.upath_commands.runs.run_arguments.84bfbe5ddfee3cac.,"ax",@progbits
	.p2align	2
	.type	upath_commands.runs.run_arguments.84bfbe5ddfee3cac.,@function
// upath_commands::runs::run_arguments::<#84bfbe5ddfee3cac>
upath_commands.runs.run_arguments.84bfbe5ddfee3cac.:
	stp	x29, x30, [sp, #-96]!
	sub	x9, sp, #15, lsl #12
	stp	x28, x27, [sp, #16]
	mov	x29, sp
	sub	x9, x9, #3072
	stp	x26, x25, [sp, #32]
	stp	x24, x23, [sp, #48]
	stp	x22, x21, [sp, #64]
	stp	x20, x19, [sp, #80]
.Lunix_path_BB3_1:
	sub	sp, sp, #3072
	cmp	sp, x9
	str	xzr, [sp]
	b.ne	.Lunix_path_BB3_1
	sub	sp, sp, #2112
	str	xzr, [sp]
	movi	v0.2d, #0000000000000000
	add	x23, sp, #16, lsl #12
	ldr	x8, [x2]
	ldp	x24, x25, [x2, #24]
	ldr	x28, [x2, #40]
	mov	x27, x4
	add	x20, sp, #208
	stp	x8, x28, [sp, #40]
	ldp	x8, x22, [x2, #8]
	add	x23, x23, #464
	stp	x3, x1, [sp, #72]
	stp	q0, q0, [x20, #32]
	stp	q0, q0, [x20, #64]
	stp	q0, q0, [sp, #160]
	stp	q0, q0, [sp, #208]
	str	xzr, [sp, #192]
	stp	xzr, xzr, [sp, #136]
	stp	xzr, xzr, [sp, #120]
	stp	xzr, xzr, [sp, #104]
	stp	q0, q0, [x20, #128]
	str	xzr, [sp, #368]
	stp	xzr, xzr, [sp, #304]
	str	xzr, [sp, #320]
	stp	x24, x22, [sp, #56]
	stp	x25, x8, [sp, #24]
	cbz	x1, .Lunix_path_BB3_12
	mov	x26, x0
	ldp	x0, x1, [x0]
	cmp	x1, #4
	b.ne	.Lunix_path_BB3_8
	ldr	w8, [x0]
	mov	w9, #25960
	movk	w9, #28780, lsl #16
	cmp	w8, w9
	b.ne	.Lunix_path_BB3_8
	adrp	x2, .Lunix_path_static.4
	add	x2, x2, :lo12:.Lunix_path_static.4
	mov	x19, x1
	mov	w1, #4
	mov	x20, x0
	bl	core.cmp.slices.groups_equal.i8.31.core.cmp.numbers.U8PartialEq.
	mov	x1, x19
	mov	w8, w0
	mov	x0, x20
	tbz	w8, #0, .Lunix_path_BB3_8
	ldr	x8, [sp, #80]
	cmp	x8, #1
	b.ne	.Lunix_path_BB3_250
	mov	w21, wzr
	adrp	x26, .Lunix_path_static.5
	add	x26, x26, :lo12:.Lunix_path_static.5
	b	.Lunix_path_BB3_11
.Lunix_path_BB3_8:
	bl	upath_commands.options.request_by_word
	tbz	w0, #0, .Lunix_path_BB3_17
	ldr	x8, [sp, #80]
	mov	w21, w1
	cmp	x8, #1
	b.ne	.Lunix_path_BB3_237
	tst	w21, #0xff
	adrp	x8, .Lunix_path_static.5
	add	x8, x8, :lo12:.Lunix_path_static.5
	csel	x26, x8, xzr, eq
.Lunix_path_BB3_11:
	mov	w24, wzr
	mov	x23, xzr
	b	.Lunix_path_BB3_254
.Lunix_path_BB3_12:
	sub	x8, x29, #24
	mov	x28, xzr
	str	xzr, [sp, #448]
	stp	q0, q0, [x20, #208]
	stp	xzr, xzr, [sp, #392]
	str	xzr, [sp, #384]
	stp	xzr, xzr, [sp, #472]
	str	x8, [sp, #464]
	mov	x8, xzr
	ldr	x25, [sp, #464]
	b	.Lunix_path_BB3_242
.Lunix_path_BB3_13:
	str	x8, [sp, #80]
	add	x19, x25, #25
	mov	x8, #-1
.Lunix_path_BB3_14:
	ldurb	w9, [x19, #-25]
	cbz	w9, .Lunix_path_BB3_199
	sub	x8, x8, #1
	add	x19, x19, #24
	add	x9, x28, x8
	cmn	x9, #1
	b.ne	.Lunix_path_BB3_14
	mov	x8, x25
	mov	x9, x28
	b	.Lunix_path_BB3_203
.Lunix_path_BB3_17:
	movi	v0.2d, #0000000000000000
	ldr	x25, [sp, #80]
	add	x9, sp, #208
	mov	w8, wzr
	mov	w20, wzr
	mov	x23, xzr
	sub	x24, x25, #1
	add	x19, x26, #24
	str	x27, [sp, #16]
	str	xzr, [sp, #448]
	stp	q0, q0, [x9, #208]
	sub	x9, x29, #24
	stp	xzr, xzr, [sp, #392]
	str	xzr, [sp, #384]
	stp	x9, xzr, [sp, #464]
	str	xzr, [sp, #480]
	b	.Lunix_path_BB3_20
.Lunix_path_BB3_18:
	mov	w20, wzr
	mov	w8, wzr
.Lunix_path_BB3_19:
	add	x23, x23, #1
	sub	x24, x24, #1
	add	x19, x19, #16
	cmp	x23, x25
	b.eq	.Lunix_path_BB3_195
.Lunix_path_BB3_20:
	add	x9, x26, x23, lsl #4
	and	w8, w8, #0xff
	cmp	w8, #1
	ldp	x27, x28, [x9]
	b.ne	.Lunix_path_BB3_23
	ldp	x9, x8, [sp, #472]
	cmp	x8, x9
	b.eq	.Lunix_path_BB3_89
.Lunix_path_BB3_22:
	mov	w10, #24
	ldr	x11, [sp, #464]
	mov	w8, wzr
	madd	x10, x9, x10, x11
	mov	w11, #3
	add	x9, x9, #1
	strb	w11, [x10]
	strb	w20, [x10, #1]
	stp	x27, x28, [x10, #8]
	str	x9, [sp, #472]
	b	.Lunix_path_BB3_19
.Lunix_path_BB3_23:
	cmp	x28, #2
	b.ne	.Lunix_path_BB3_26
	ldrb	w8, [x27]
	cmp	w8, #45
	b.ne	.Lunix_path_BB3_26
	ldrb	w8, [x27, #1]
	cmp	w8, #45
	b.eq	.Lunix_path_BB3_841
.Lunix_path_BB3_26:
	mov	x0, x27
	mov	x1, x28
	bl	upath_commands.options.request_by_word
	and	w8, w0, #0xff
	cmp	w8, #1
	b.ne	.Lunix_path_BB3_30
	ldp	x8, x9, [sp, #472]
	cmp	x9, x8
	b.eq	.Lunix_path_BB3_91
.Lunix_path_BB3_28:
	mov	w9, #24
	ldr	x10, [sp, #464]
	madd	x9, x8, x9, x10
	mov	w10, #4
.Lunix_path_BB3_29:
	strb	w10, [x9]
	strb	w1, [x9, #1]
	b	.Lunix_path_BB3_173
.Lunix_path_BB3_30:
	subs	x22, x28, #2
	b.hs	.Lunix_path_BB3_33
.Lunix_path_BB3_31:
	ldp	x8, x9, [sp, #472]
	cmp	x9, x8
	b.eq	.Lunix_path_BB3_108
.Lunix_path_BB3_32:
	mov	w9, #24
	ldr	x10, [sp, #464]
	madd	x9, x8, x9, x10
	strh	wzr, [x9]
	b	.Lunix_path_BB3_173
.Lunix_path_BB3_33:
	ldrb	w8, [x27]
	mov	x20, x27
	ldrb	w9, [x20, #1]!
	cmp	w8, #45
	b.ne	.Lunix_path_BB3_41
	cmp	w9, #45
	b.ne	.Lunix_path_BB3_41
	cmp	x22, #15
	add	x20, x27, #2
	b.hi	.Lunix_path_BB3_74
	cbz	x22, .Lunix_path_BB3_170
	mov	x21, xzr
.Lunix_path_BB3_38:
	ldrb	w8, [x20, x21]
	cmp	w8, #61
	b.eq	.Lunix_path_BB3_79
	add	x21, x21, #1
	cmp	x22, x21
	b.ne	.Lunix_path_BB3_38
	mov	x21, x22
	cmp	x22, #5
	b.gt	.Lunix_path_BB3_80
	b	.Lunix_path_BB3_99
.Lunix_path_BB3_41:
	cmp	w8, #45
	b.ne	.Lunix_path_BB3_31
	sub	x22, x28, #1
	b	.Lunix_path_BB3_46
.Lunix_path_BB3_43:
	mov	w21, #15
.Lunix_path_BB3_44:
	ldp	x8, x9, [sp, #472]
	cmp	x9, x8
	b.eq	.Lunix_path_BB3_70
.Lunix_path_BB3_45:
	mov	w9, #24
	ldr	x10, [sp, #464]
	madd	x9, x8, x9, x10
	mov	w10, #2
	strb	w10, [x9]
	mov	w10, #1
	strb	w21, [x9, #1]
	stp	x20, x10, [x9, #8]
	add	x8, x8, #1
	subs	x22, x22, #1
	add	x20, x20, #1
	str	x8, [sp, #472]
	b.eq	.Lunix_path_BB3_174
.Lunix_path_BB3_46:
	ldrb	w8, [x20]
	cmp	w8, #113
	b.gt	.Lunix_path_BB3_51
	cmp	w8, #111
	b.gt	.Lunix_path_BB3_55
	cmp	w8, #98
	b.eq	.Lunix_path_BB3_61
	cmp	w8, #99
	b.ne	.Lunix_path_BB3_64
	mov	w21, #13
	b	.Lunix_path_BB3_44
.Lunix_path_BB3_51:
	cmp	w8, #117
	b.gt	.Lunix_path_BB3_58
	cmp	w8, #114
	b.eq	.Lunix_path_BB3_43
	cmp	w8, #117
	b.ne	.Lunix_path_BB3_64
	mov	w21, #14
	b	.Lunix_path_BB3_44
.Lunix_path_BB3_55:
	cmp	w8, #112
	b.eq	.Lunix_path_BB3_62
	cmp	w8, #113
	b.ne	.Lunix_path_BB3_64
	mov	w21, #2
	b	.Lunix_path_BB3_44
.Lunix_path_BB3_58:
	cmp	w8, #118
	b.eq	.Lunix_path_BB3_63
	cmp	w8, #122
	b.ne	.Lunix_path_BB3_64
	mov	w21, wzr
	b	.Lunix_path_BB3_44
.Lunix_path_BB3_61:
	mov	w21, #4
	b	.Lunix_path_BB3_44
.Lunix_path_BB3_62:
	mov	w21, #1
	b	.Lunix_path_BB3_44
.Lunix_path_BB3_63:
	mov	w21, #9
	b	.Lunix_path_BB3_44
.Lunix_path_BB3_64:
	mov	x0, x20
	mov	w1, #1
	mov	x2, xzr
	mov	w25, #1
	bl	unix_bytes.utf8.scans.scan_by_sequence
	cbnz	x0, .Lunix_path_BB3_68
	cmp	x22, #2
	mov	w25, #2
	mov	x0, x20
	csel	x21, x22, x25, lo
	mov	x2, xzr
	mov	x1, x21
	bl	unix_bytes.utf8.scans.scan_by_sequence
	cmp	x0, x21
	b.hs	.Lunix_path_BB3_68
	cmp	x22, #3
	mov	w25, #3
	mov	x0, x20
	csel	x21, x22, x25, lo
	mov	x2, xzr
	mov	x1, x21
	bl	unix_bytes.utf8.scans.scan_by_sequence
	cmp	x0, x21
	b.hs	.Lunix_path_BB3_68
	cmp	x22, #4
	mov	w25, #4
	mov	x0, x20
	csel	x21, x22, x25, lo
	mov	x2, xzr
	mov	x1, x21
	bl	unix_bytes.utf8.scans.scan_by_sequence
	cmp	x0, x21
	csinc	x25, x25, xzr, hs
.Lunix_path_BB3_68:
	ldp	x8, x9, [sp, #472]
	cmp	x25, x22
	csel	x21, x25, x22, lo
	ldr	x25, [sp, #80]
	cmp	x9, x8
	b.eq	.Lunix_path_BB3_72
.Lunix_path_BB3_69:
	mov	w9, #24
	ldr	x10, [sp, #464]
	madd	x9, x8, x9, x10
	mov	w10, #773
	strh	w10, [x9]
	stp	x20, x21, [x9, #8]
	add	x8, x8, #1
	subs	x22, x22, #1
	add	x20, x20, #1
	str	x8, [sp, #472]
	b.ne	.Lunix_path_BB3_46
	b	.Lunix_path_BB3_174
.Lunix_path_BB3_70:
	add	x0, sp, #464
	bl	std_alloc.vec.Vec.grow_amortized.22ca91936d612ecb.
	cbz	w0, .Lunix_path_BB3_1020
	ldr	x8, [sp, #472]
	b	.Lunix_path_BB3_45
.Lunix_path_BB3_72:
	add	x0, sp, #464
	bl	std_alloc.vec.Vec.grow_amortized.22ca91936d612ecb.
	cbz	w0, .Lunix_path_BB3_1020
	ldr	x8, [sp, #472]
	b	.Lunix_path_BB3_69
.Lunix_path_BB3_74:
	subs	x8, x28, #18
	b.eq	.Lunix_path_BB3_78
	mov	x9, xzr
.Lunix_path_BB3_76:
	movi	v0.16b, #61
	ldr	q1, [x20, x9]
	adrp	x10, .Lunix_path_CPI3_0
	cmeq	v0.16b, v1.16b, v0.16b
	ldr	q1, [x10, :lo12:.Lunix_path_CPI3_0]
	and	v0.16b, v0.16b, v1.16b
	addp	v0.16b, v0.16b, v0.16b
	addp	v0.16b, v0.16b, v0.16b
	addp	v0.16b, v0.16b, v0.16b
	umov	w10, v0.h[0]
	orr	w10, w10, #0x10000
	rbit	w10, w10
	clz	w10, w10
	cmp	w10, #15
	b.ls	.Lunix_path_BB3_98
	add	x9, x9, #16
	cmp	x9, x8
	b.lo	.Lunix_path_BB3_76
.Lunix_path_BB3_78:
	movi	v0.16b, #61
	ldr	q1, [x20, x8]
	adrp	x9, .Lunix_path_CPI3_0
	cmeq	v0.16b, v1.16b, v0.16b
	ldr	q1, [x9, :lo12:.Lunix_path_CPI3_0]
	and	v0.16b, v0.16b, v1.16b
	addp	v0.16b, v0.16b, v0.16b
	addp	v0.16b, v0.16b, v0.16b
	addp	v0.16b, v0.16b, v0.16b
	umov	w9, v0.h[0]
	orr	w9, w9, #0x10000
	rbit	w9, w9
	clz	w9, w9
	add	x21, x8, x9
.Lunix_path_BB3_79:
	cmp	x21, #5
	b.le	.Lunix_path_BB3_99
.Lunix_path_BB3_80:
	cmp	x21, #7
	b.gt	.Lunix_path_BB3_93
	cmp	x21, #6
	b.eq	.Lunix_path_BB3_113
	cmp	x21, #7
	b.ne	.Lunix_path_BB3_170
	ldrb	w25, [x27, #2]
	ldrb	w10, [x27, #3]
	ldrb	w9, [x27, #4]
	ldrb	w8, [x27, #5]
	cmp	w25, #98
	b.ne	.Lunix_path_BB3_131
	cmp	w10, #101
	b.ne	.Lunix_path_BB3_131
	cmp	w9, #110
	b.ne	.Lunix_path_BB3_131
	cmp	w8, #101
	b.ne	.Lunix_path_BB3_131
	adrp	x2, .Lunix_path_static.34
	add	x2, x2, :lo12:.Lunix_path_static.34
	add	x0, x27, #2
	mov	w1, #7
	stp	w9, w8, [sp, #8]
	str	w10, [sp, #4]
	bl	core.cmp.slices.groups_equal.i8.31.core.cmp.numbers.U8PartialEq.
	ldp	w10, w9, [sp, #4]
	ldr	w8, [sp, #12]
	tbz	w0, #0, .Lunix_path_BB3_131
	ldr	x25, [sp, #80]
	mov	w1, #5
	b	.Lunix_path_BB3_167
.Lunix_path_BB3_89:
	add	x0, sp, #464
	bl	std_alloc.vec.Vec.grow_amortized.22ca91936d612ecb.
	cbz	w0, .Lunix_path_BB3_1020
	ldr	x9, [sp, #472]
	b	.Lunix_path_BB3_22
.Lunix_path_BB3_91:
	add	x0, sp, #464
	mov	w20, w1
	bl	std_alloc.vec.Vec.grow_amortized.22ca91936d612ecb.
	cbz	w0, .Lunix_path_BB3_1020
	ldr	x8, [sp, #472]
	mov	w1, w20
	b	.Lunix_path_BB3_28
.Lunix_path_BB3_93:
	cmp	x21, #8
	b.eq	.Lunix_path_BB3_119
	cmp	x21, #13
	b.ne	.Lunix_path_BB3_170
	ldr	w8, [x20]
	mov	w9, #31074
	movk	w9, #25389, lsl #16
	cmp	w8, w9
	b.ne	.Lunix_path_BB3_170
	adrp	x2, .Lunix_path_static.41
	add	x2, x2, :lo12:.Lunix_path_static.41
	add	x0, x27, #2
	mov	w1, #13
	bl	core.cmp.slices.groups_equal.i8.31.core.cmp.numbers.U8PartialEq.
	cbz	w0, .Lunix_path_BB3_170
	mov	w1, #12
	b	.Lunix_path_BB3_167
.Lunix_path_BB3_98:
	add	x21, x9, w10, uxtw
	cmp	x21, #5
	b.gt	.Lunix_path_BB3_80
.Lunix_path_BB3_99:
	cmp	x21, #2
	b.eq	.Lunix_path_BB3_110
	cmp	x21, #4
	b.eq	.Lunix_path_BB3_125
	cmp	x21, #5
	b.ne	.Lunix_path_BB3_170
	ldrb	w25, [x27, #2]
	ldrb	w10, [x27, #3]
	ldrb	w9, [x27, #4]
	ldrb	w8, [x27, #5]
	cmp	w25, #113
	b.ne	.Lunix_path_BB3_137
	cmp	w10, #117
	b.ne	.Lunix_path_BB3_137
	cmp	w9, #105
	b.ne	.Lunix_path_BB3_137
	cmp	w8, #101
	b.ne	.Lunix_path_BB3_137
	adrp	x2, .Lunix_path_static.32
	add	x2, x2, :lo12:.Lunix_path_static.32
	add	x0, x27, #2
	mov	w1, #5
	stp	w9, w8, [sp, #8]
	str	w10, [sp, #4]
	bl	core.cmp.slices.groups_equal.i8.31.core.cmp.numbers.U8PartialEq.
	ldp	w10, w9, [sp, #4]
	ldr	w8, [sp, #12]
	tbz	w0, #0, .Lunix_path_BB3_137
	ldr	x25, [sp, #80]
	mov	w1, #2
	b	.Lunix_path_BB3_167
.Lunix_path_BB3_108:
	add	x0, sp, #464
	bl	std_alloc.vec.Vec.grow_amortized.22ca91936d612ecb.
	cbz	w0, .Lunix_path_BB3_1020
	ldr	x8, [sp, #472]
	b	.Lunix_path_BB3_32
.Lunix_path_BB3_110:
	ldrb	w8, [x20]
	cmp	w8, #111
	b.ne	.Lunix_path_BB3_170
	ldrb	w8, [x27, #3]
	cmp	w8, #114
	b.ne	.Lunix_path_BB3_170
	mov	w1, #3
	b	.Lunix_path_BB3_167
.Lunix_path_BB3_113:
	ldrb	w11, [x27, #2]
	ldrb	w10, [x27, #3]
	ldrb	w9, [x27, #4]
	ldrb	w8, [x27, #5]
	cmp	w11, #114
	b.ne	.Lunix_path_BB3_155
	cmp	w10, #101
	b.ne	.Lunix_path_BB3_155
	cmp	w9, #97
	b.ne	.Lunix_path_BB3_155
	cmp	w8, #115
	b.ne	.Lunix_path_BB3_155
	adrp	x2, .Lunix_path_static.38
	add	x2, x2, :lo12:.Lunix_path_static.38
	add	x0, x27, #2
	mov	w1, #6
	bl	core.cmp.slices.groups_equal.i8.31.core.cmp.numbers.U8PartialEq.
	tbz	w0, #0, .Lunix_path_BB3_170
	mov	w1, #10
	b	.Lunix_path_BB3_167
.Lunix_path_BB3_119:
	ldrb	w11, [x27, #4]
	ldrb	w10, [x27, #2]
	ldrb	w9, [x27, #3]
	ldrb	w8, [x27, #5]
	cmp	w11, #114
	b.ne	.Lunix_path_BB3_161
	cmp	w10, #118
	b.ne	.Lunix_path_BB3_161
	cmp	w9, #101
	b.ne	.Lunix_path_BB3_161
	cmp	w8, #98
	b.ne	.Lunix_path_BB3_161
	adrp	x2, .Lunix_path_static.36
	add	x2, x2, :lo12:.Lunix_path_static.36
	add	x0, x27, #2
	mov	w1, #8
	bl	core.cmp.slices.groups_equal.i8.31.core.cmp.numbers.U8PartialEq.
	tbz	w0, #0, .Lunix_path_BB3_170
	mov	w1, #7
	b	.Lunix_path_BB3_167
.Lunix_path_BB3_125:
	ldrb	w11, [x27, #2]
	ldrb	w10, [x27, #3]
	ldrb	w9, [x27, #4]
	ldrb	w8, [x27, #5]
	cmp	w11, #110
	b.ne	.Lunix_path_BB3_143
	cmp	w10, #117
	b.ne	.Lunix_path_BB3_143
	cmp	w9, #108
	b.ne	.Lunix_path_BB3_143
	cmp	w8, #108
	b.ne	.Lunix_path_BB3_143
	adrp	x2, .Lunix_path_static.30
	add	x2, x2, :lo12:.Lunix_path_static.30
	add	x0, x27, #2
	mov	w1, #4
	stp	w9, w8, [sp, #8]
	stp	w11, w10, [sp]
	bl	core.cmp.slices.groups_equal.i8.31.core.cmp.numbers.U8PartialEq.
	ldp	w11, w10, [sp]
	ldp	w9, w8, [sp, #8]
	tbz	w0, #0, .Lunix_path_BB3_143
	mov	w1, wzr
	b	.Lunix_path_BB3_167
.Lunix_path_BB3_131:
	cmp	w25, #105
	ldr	x25, [sp, #80]
	b.ne	.Lunix_path_BB3_170
	cmp	w10, #110
	b.ne	.Lunix_path_BB3_170
	cmp	w9, #45
	b.ne	.Lunix_path_BB3_170
	cmp	w8, #114
	b.ne	.Lunix_path_BB3_170
	adrp	x2, .Lunix_path_static.35
	add	x2, x2, :lo12:.Lunix_path_static.35
	add	x0, x27, #2
	mov	w1, #7
	bl	core.cmp.slices.groups_equal.i8.31.core.cmp.numbers.U8PartialEq.
	tbz	w0, #0, .Lunix_path_BB3_170
	mov	w1, #6
	b	.Lunix_path_BB3_167
.Lunix_path_BB3_137:
	cmp	w25, #115
	ldr	x25, [sp, #80]
	b.ne	.Lunix_path_BB3_170
	cmp	w10, #116
	b.ne	.Lunix_path_BB3_170
	cmp	w9, #114
	b.ne	.Lunix_path_BB3_170
	cmp	w8, #105
	b.ne	.Lunix_path_BB3_170
	adrp	x2, .Lunix_path_static.19
	add	x2, x2, :lo12:.Lunix_path_static.19
	add	x0, x27, #2
	mov	w1, #5
	bl	core.cmp.slices.groups_equal.i8.31.core.cmp.numbers.U8PartialEq.
	tbz	w0, #0, .Lunix_path_BB3_170
	mov	w1, #11
	b	.Lunix_path_BB3_167
.Lunix_path_BB3_143:
	cmp	w11, #112
	b.ne	.Lunix_path_BB3_149
	cmp	w10, #97
	b.ne	.Lunix_path_BB3_149
	cmp	w9, #105
	b.ne	.Lunix_path_BB3_149
	cmp	w8, #114
	b.ne	.Lunix_path_BB3_149
	adrp	x2, .Lunix_path_static.31
	add	x2, x2, :lo12:.Lunix_path_static.31
	add	x0, x27, #2
	mov	w1, #4
	stp	w9, w8, [sp, #8]
	stp	w11, w10, [sp]
	bl	core.cmp.slices.groups_equal.i8.31.core.cmp.numbers.U8PartialEq.
	ldp	w11, w10, [sp]
	ldp	w9, w8, [sp, #8]
	tbz	w0, #0, .Lunix_path_BB3_149
	mov	w1, #1
	b	.Lunix_path_BB3_167
.Lunix_path_BB3_149:
	cmp	w11, #102
	b.ne	.Lunix_path_BB3_170
	cmp	w10, #114
	b.ne	.Lunix_path_BB3_170
	cmp	w9, #111
	b.ne	.Lunix_path_BB3_170
	cmp	w8, #109
	b.ne	.Lunix_path_BB3_170
	adrp	x2, .Lunix_path_static.37
	add	x2, x2, :lo12:.Lunix_path_static.37
	add	x0, x27, #2
	mov	w1, #4
	bl	core.cmp.slices.groups_equal.i8.31.core.cmp.numbers.U8PartialEq.
	tbz	w0, #0, .Lunix_path_BB3_170
	mov	w1, #8
	b	.Lunix_path_BB3_167
.Lunix_path_BB3_155:
	cmp	w11, #99
	b.ne	.Lunix_path_BB3_170
	cmp	w10, #108
	b.ne	.Lunix_path_BB3_170
	cmp	w9, #111
	b.ne	.Lunix_path_BB3_170
	cmp	w8, #115
	b.ne	.Lunix_path_BB3_170
	adrp	x2, .Lunix_path_static.39
	add	x2, x2, :lo12:.Lunix_path_static.39
	add	x0, x27, #2
	mov	w1, #6
	bl	core.cmp.slices.groups_equal.i8.31.core.cmp.numbers.U8PartialEq.
	tbz	w0, #0, .Lunix_path_BB3_170
	mov	w1, #16
	b	.Lunix_path_BB3_167
.Lunix_path_BB3_161:
	cmp	w11, #114
	b.ne	.Lunix_path_BB3_170
	cmp	w10, #116
	b.ne	.Lunix_path_BB3_170
	cmp	w9, #97
	b.ne	.Lunix_path_BB3_170
	cmp	w8, #45
	b.ne	.Lunix_path_BB3_170
	adrp	x2, .Lunix_path_static.40
	add	x2, x2, :lo12:.Lunix_path_static.40
	add	x0, x27, #2
	mov	w1, #8
	bl	core.cmp.slices.groups_equal.i8.31.core.cmp.numbers.U8PartialEq.
	tbz	w0, #0, .Lunix_path_BB3_170
	mov	w1, #17
.Lunix_path_BB3_167:
	ldp	x8, x9, [sp, #472]
	cmp	x21, x22
	b.ne	.Lunix_path_BB3_182
	cmp	x9, x8
	b.eq	.Lunix_path_BB3_189
.Lunix_path_BB3_169:
	mov	w9, #24
	ldr	x10, [sp, #464]
	madd	x9, x8, x9, x10
	mov	w10, #2
	b	.Lunix_path_BB3_29
.Lunix_path_BB3_170:
	ldp	x8, x9, [sp, #472]
	cmp	x9, x8
	b.eq	.Lunix_path_BB3_185
.Lunix_path_BB3_171:
	mov	w9, #24
	ldr	x10, [sp, #464]
	madd	x9, x8, x9, x10
	mov	w10, #517
.Lunix_path_BB3_172:
	strh	w10, [x9]
.Lunix_path_BB3_173:
	add	x8, x8, #1
	stp	x27, x28, [x9, #8]
	str	x8, [sp, #472]
.Lunix_path_BB3_174:
	cmp	x28, #4
	b.eq	.Lunix_path_BB3_179
	cmp	x28, #6
	b.ne	.Lunix_path_BB3_18
	ldr	w8, [x27]
	mov	w9, #11565
	movk	w9, #29286, lsl #16
	cmp	w8, w9
	b.ne	.Lunix_path_BB3_18
	adrp	x2, .Lunix_path_static.42
	add	x2, x2, :lo12:.Lunix_path_static.42
	mov	x0, x27
	mov	w1, #6
	bl	core.cmp.slices.groups_equal.i8.31.core.cmp.numbers.U8PartialEq.
	tbz	w0, #0, .Lunix_path_BB3_18
	mov	w8, #1
	mov	w20, #8
	b	.Lunix_path_BB3_19
.Lunix_path_BB3_179:
	mov	w9, #11565
	ldr	w8, [x27]
	movk	w9, #29286, lsl #16
	add	w9, w9, #144, lsl #12
	cmp	w8, w9
	b.ne	.Lunix_path_BB3_18
	adrp	x2, .Lunix_path_static.43
	add	x2, x2, :lo12:.Lunix_path_static.43
	mov	x0, x27
	mov	w1, #4
	bl	core.cmp.slices.groups_equal.i8.31.core.cmp.numbers.U8PartialEq.
	tbz	w0, #0, .Lunix_path_BB3_18
	mov	w8, #1
	mov	w20, #3
	b	.Lunix_path_BB3_19
.Lunix_path_BB3_182:
	mov	w10, #1
	mov	w11, #65271
	lsl	w10, w10, w1
	movk	w11, #3, lsl #16
	tst	w10, w11
	b.eq	.Lunix_path_BB3_187
	cmp	x9, x8
	b.eq	.Lunix_path_BB3_191
.Lunix_path_BB3_184:
	mov	w9, #24
	ldr	x10, [sp, #464]
	madd	x9, x8, x9, x10
	mov	w10, #1541
	b	.Lunix_path_BB3_172
.Lunix_path_BB3_185:
	add	x0, sp, #464
	bl	std_alloc.vec.Vec.grow_amortized.22ca91936d612ecb.
	cbz	w0, .Lunix_path_BB3_1020
	ldr	x8, [sp, #472]
	b	.Lunix_path_BB3_171
.Lunix_path_BB3_187:
	cmp	x9, x8
	b.eq	.Lunix_path_BB3_193
.Lunix_path_BB3_188:
	mov	w9, #24
	ldr	x10, [sp, #464]
	add	x4, sp, #464
	madd	x9, x8, x9, x10
	mov	w10, #2
	add	x8, x8, #1
	mov	w0, #3
	strb	w10, [x9]
	add	x10, x21, #1
	sub	x3, x22, x10
	add	x2, x20, x10
	strb	w1, [x9, #1]
	stp	x27, x28, [x9, #8]
	str	x8, [sp, #472]
	bl	upath_commands.items.push_item
	and	w8, w0, #0xff
	tbz	w8, #0, .Lunix_path_BB3_174
	b	.Lunix_path_BB3_1020
.Lunix_path_BB3_189:
	add	x0, sp, #464
	mov	w20, w1
	bl	std_alloc.vec.Vec.grow_amortized.22ca91936d612ecb.
	cbz	w0, .Lunix_path_BB3_1020
	ldr	x8, [sp, #472]
	mov	w1, w20
	b	.Lunix_path_BB3_169
.Lunix_path_BB3_191:
	add	x0, sp, #464
	bl	std_alloc.vec.Vec.grow_amortized.22ca91936d612ecb.
	cbz	w0, .Lunix_path_BB3_1020
	ldr	x8, [sp, #472]
	b	.Lunix_path_BB3_184
.Lunix_path_BB3_193:
	add	x0, sp, #464
	str	w1, [sp, #12]
	bl	std_alloc.vec.Vec.grow_amortized.22ca91936d612ecb.
	cbz	w0, .Lunix_path_BB3_1020
	ldr	x8, [sp, #472]
	ldr	w1, [sp, #12]
	b	.Lunix_path_BB3_188
.Lunix_path_BB3_195:
	add	x23, sp, #16, lsl #12
	add	x23, x23, #464
	tbz	w8, #0, .Lunix_path_BB3_241
	ldp	x8, x9, [sp, #472]
	cmp	w20, #3
	ldr	x27, [sp, #16]
	b.ne	.Lunix_path_BB3_737
	cmp	x9, x8
	add	x20, sp, #208
	b.eq	.Lunix_path_BB3_966
.Lunix_path_BB3_198:
	mov	w9, #24
	ldr	x10, [sp, #464]
	adrp	x11, .Lunix_path_static.43
	add	x11, x11, :lo12:.Lunix_path_static.43
	madd	x9, x8, x9, x10
	mov	w10, #1285
	strh	w10, [x9]
	mov	w10, #4
	stp	x11, x10, [x9, #8]
	add	x28, x8, #1
	ldr	x8, [sp, #480]
	ldr	x25, [sp, #464]
	cbnz	x28, .Lunix_path_BB3_13
	b	.Lunix_path_BB3_242
.Lunix_path_BB3_199:
	neg	x8, x8
	mov	x9, x28
	cmp	x8, x28
	mov	x8, x25
	b.hs	.Lunix_path_BB3_203
	ldurb	w8, [x19, #-1]
	mov	x9, x28
	cmp	w8, #4
	mov	x8, x25
	b.ne	.Lunix_path_BB3_203
	ldur	x26, [x19, #-17]
	ldur	x23, [x19, #-9]
	mov	x0, x26
	mov	x1, x23
	bl	upath_commands.options.command_by_name
	and	w8, w0, #0xff
	cmp	w8, #1
	b.ne	.Lunix_path_BB3_845
	ldrb	w21, [x19]
	mov	w24, wzr
	cmp	w21, #0
	csel	x26, x26, xzr, eq
	csel	x23, x23, xzr, eq
	b	.Lunix_path_BB3_846
.Lunix_path_BB3_203:
	ldrb	w21, [x8]
	cmp	w21, #4
	b.hs	.Lunix_path_BB3_909
	subs	x9, x9, #1
	add	x8, x8, #24
	b.ne	.Lunix_path_BB3_203
	mov	x24, xzr
	sub	x8, x29, #24
	add	x19, x25, #16
	mov	x20, x28
	stp	xzr, xzr, [sp, #472]
	str	x8, [sp, #464]
	b	.Lunix_path_BB3_208
.Lunix_path_BB3_206:
	add	x9, x8, x24, lsl #4
	add	x24, x24, #1
	stp	x21, x22, [x9]
	str	x24, [sp, #472]
.Lunix_path_BB3_207:
	subs	x20, x20, #1
	add	x19, x19, #24
	b.eq	.Lunix_path_BB3_212
.Lunix_path_BB3_208:
	ldurb	w9, [x19, #-16]
	cbnz	w9, .Lunix_path_BB3_207
	ldr	x9, [sp, #480]
	ldp	x21, x22, [x19, #-8]
	cmp	x9, x24
	b.ne	.Lunix_path_BB3_206
	add	x0, sp, #464
	mov	w1, #1
	bl	std_alloc.vec.Vec.grow_amortized.a60b1bb647f5ec87.
	cbz	w0, .Lunix_path_BB3_935
	ldp	x8, x24, [sp, #464]
	b	.Lunix_path_BB3_206
.Lunix_path_BB3_212:
	movi	v0.2d, #0000000000000000
	ldr	x20, [sp, #464]
	ldr	x19, [sp, #480]
	str	xzr, [x23, #64]
	stp	xzr, xzr, [x23, #8]
	str	xzr, [x23]
	stp	q0, q0, [x23, #32]
	cbz	x24, .Lunix_path_BB3_239
	ldp	x26, x23, [x20]
	sub	x21, x24, #1
	cmp	x21, #129
	b.lo	.Lunix_path_BB3_246
	mov	x8, xzr
	add	x9, x20, #16
.Lunix_path_BB3_215:
	mov	w10, #128
	mov	x11, x9
.Lunix_path_BB3_216:
	ldr	q0, [x11]
	subs	x10, x10, #1
	stur	q0, [x11, #-16]
	add	x11, x11, #16
	b.ne	.Lunix_path_BB3_216
	add	x8, x8, #128
	add	x9, x9, #2048
	sub	x10, x21, x8
	cmp	x10, #128
	b.hi	.Lunix_path_BB3_215
	cmp	x21, x8
	b.eq	.Lunix_path_BB3_220
.Lunix_path_BB3_219:
	add	x0, x20, x8, lsl #4
	lsl	x2, x10, #4
	add	x1, x0, #16
	bl	memmove
.Lunix_path_BB3_220:
	mov	x0, x26
	mov	x1, x23
	bl	upath_commands.options.command_by_name
	and	w8, w0, #0xff
	cmp	w8, #1
	b.ne	.Lunix_path_BB3_247
	sub	w9, w1, #13
	mov	x8, x25
	mov	x10, x28
	b	.Lunix_path_BB3_224
.Lunix_path_BB3_222:
	and	w11, w1, #0xff
	cmp	w11, #16
	b.ne	.Lunix_path_BB3_234
.Lunix_path_BB3_223:
	subs	x10, x10, #1
	add	x8, x8, #24
	b.eq	.Lunix_path_BB3_697
.Lunix_path_BB3_224:
	ldrb	w11, [x8]
	cmp	w11, #2
	b.ne	.Lunix_path_BB3_223
	ldrb	w11, [x8, #1]
	adrp	x12, .Lunix_path_JTI3_0
	add	x12, x12, :lo12:.Lunix_path_JTI3_0
	adr	x13, .Lunix_path_BB3_222
	ldrb	w14, [x12, x11]
	add	x13, x13, x14, lsl #2
	br	x13
.Lunix_path_BB3_226:
	and	w11, w1, #0xff
	cmp	w11, #8
	b.eq	.Lunix_path_BB3_223
	b	.Lunix_path_BB3_234
.Lunix_path_BB3_227:
	and	w11, w1, #0xff
	cmp	w11, #15
	b.eq	.Lunix_path_BB3_223
	b	.Lunix_path_BB3_234
.Lunix_path_BB3_228:
	and	w11, w1, #0xff
	cmp	w11, #14
	b.ne	.Lunix_path_BB3_223
	b	.Lunix_path_BB3_234
.Lunix_path_BB3_229:
	and	w11, w1, #0xff
	cmp	w11, #14
	b.eq	.Lunix_path_BB3_223
	b	.Lunix_path_BB3_234
.Lunix_path_BB3_230:
	and	w11, w1, #0xff
	cmp	w11, #7
	b.eq	.Lunix_path_BB3_223
	b	.Lunix_path_BB3_234
.Lunix_path_BB3_231:
	and	w11, w1, #0xff
	mov	w12, #1
	lsl	w11, w12, w11
	mov	w12, #40960
	tst	w11, w12
	b.ne	.Lunix_path_BB3_223
	b	.Lunix_path_BB3_234
.Lunix_path_BB3_232:
	and	w11, w9, #0xff
	cmp	w11, #2
	b.lo	.Lunix_path_BB3_223
	b	.Lunix_path_BB3_234
.Lunix_path_BB3_233:
	and	w11, w1, #0xff
	cmp	w11, #10
	b.eq	.Lunix_path_BB3_223
.Lunix_path_BB3_234:
	ldp	x26, x23, [x8, #8]
	mov	w8, #2
	cmp	x23, #1
	cinc	w21, w8, eq
	cbz	x19, .Lunix_path_BB3_236
	mov	x0, x20
	bl	rattle_dealloc
.Lunix_path_BB3_236:
	movi	v0.2d, #0000000000000000
	add	x20, sp, #208
	mov	x28, xzr
	mov	x19, xzr
	str	xzr, [sp, #368]
	mov	w24, #1
	stp	xzr, xzr, [sp, #304]
	str	xzr, [sp, #320]
	stp	q0, q0, [x20, #128]
	b	.Lunix_path_BB3_989
.Lunix_path_BB3_237:
	tst	w21, #0xff
	b.eq	.Lunix_path_BB3_250
	mov	x26, xzr
	mov	x23, xzr
	b	.Lunix_path_BB3_253
.Lunix_path_BB3_239:
	ldr	x8, [sp, #80]
	cbz	x19, .Lunix_path_BB3_243
	mov	x0, x20
	bl	rattle_dealloc
	ldr	x8, [sp, #80]
	b	.Lunix_path_BB3_243
.Lunix_path_BB3_241:
	ldp	x28, x8, [sp, #472]
	add	x20, sp, #208
	ldr	x27, [sp, #16]
	ldr	x25, [sp, #464]
	cbnz	x28, .Lunix_path_BB3_13
.Lunix_path_BB3_242:
	movi	v0.2d, #0000000000000000
	str	xzr, [x23, #64]
	stp	xzr, xzr, [x23, #8]
	str	xzr, [x23]
	stp	q0, q0, [x23, #32]
.Lunix_path_BB3_243:
	movi	v0.2d, #0000000000000000
	add	x20, sp, #208
	mov	w21, wzr
	mov	x28, xzr
	mov	x23, xzr
	mov	x19, xzr
	str	xzr, [sp, #368]
	adrp	x26, .Lunix_path_static.5
	add	x26, x26, :lo12:.Lunix_path_static.5
	stp	xzr, xzr, [sp, #304]
	mov	w24, #1
	str	xzr, [sp, #320]
	stp	q0, q0, [x20, #128]
	cbz	x8, .Lunix_path_BB3_245
.Lunix_path_BB3_244:
	mov	x0, x25
	bl	rattle_dealloc
.Lunix_path_BB3_245:
	ldp	q0, q1, [x20, #128]
	ldr	x8, [sp, #368]
	str	x8, [sp, #192]
	ldr	x8, [sp, #320]
	stp	q0, q1, [sp, #160]
	ldr	q0, [x20, #96]
	str	x8, [sp, #144]
	str	q0, [sp, #128]
	cbz	w24, .Lunix_path_BB3_256
	b	.Lunix_path_BB3_943
.Lunix_path_BB3_246:
	mov	x8, xzr
	sub	x10, x24, #1
	cmp	x21, xzr
	b.ne	.Lunix_path_BB3_219
	b	.Lunix_path_BB3_220
.Lunix_path_BB3_247:
	cbz	x19, .Lunix_path_BB3_249
	mov	x0, x20
	bl	rattle_dealloc
.Lunix_path_BB3_249:
	movi	v0.2d, #0000000000000000
	add	x20, sp, #208
	mov	x28, xzr
	mov	x19, xzr
	str	xzr, [sp, #368]
	mov	w24, #1
	stp	xzr, xzr, [sp, #304]
	mov	w21, #1
	str	xzr, [sp, #320]
	stp	q0, q0, [x20, #128]
	b	.Lunix_path_BB3_989
.Lunix_path_BB3_250:
	ldp	x26, x23, [x26, #16]
	cbz	x23, .Lunix_path_BB3_696
	ldrb	w8, [x26]
	cmp	w8, #45
	b.ne	.Lunix_path_BB3_696
	mov	w21, wzr
.Lunix_path_BB3_253:
	mov	w24, wzr
.Lunix_path_BB3_254:
	movi	v0.2d, #0000000000000000
	add	x20, sp, #16, lsl #12
	add	x22, sp, #208
	add	x20, x20, #464
	str	xzr, [sp, #496]
	stp	xzr, xzr, [x20, #296]
	str	xzr, [x20, #288]
.Lunix_path_BB3_255:
	stp	q0, q0, [x22, #256]
	ldp	q0, q1, [x22, #256]
	mov	x28, xzr
	ldr	x8, [sp, #496]
	ldr	x9, [x20, #304]
	mov	x19, xzr
	ldr	q2, [x20, #288]
	add	x20, sp, #208
	str	x8, [sp, #448]
	str	x8, [sp, #192]
	str	x9, [sp, #400]
	str	x9, [sp, #144]
	stp	q0, q1, [x22, #208]
	str	q2, [x22, #176]
	stp	q0, q1, [sp, #160]
	str	q2, [sp, #128]
	cbnz	w24, .Lunix_path_BB3_943
.Lunix_path_BB3_256:
	lsr	x8, x28, #48
	ldp	q0, q1, [sp, #160]
	ldr	x9, [sp, #144]
	strb	w21, [sp, #208]
	strb	w8, [sp, #215]
	lsr	x8, x28, #32
	stur	q0, [x20, #24]
	ldr	q0, [sp, #128]
	sturh	w8, [sp, #213]
	ldr	x8, [sp, #192]
	stur	w28, [sp, #209]
	stp	x8, x19, [sp, #264]
	and	w8, w21, #0xff
	cmp	w8, #1
	stp	x26, x23, [sp, #216]
	stur	q1, [x20, #40]
	stur	q0, [x20, #72]
	str	x9, [sp, #296]
	b.le	.Lunix_path_BB3_261
	cmp	w8, #2
	b.eq	.Lunix_path_BB3_267
	cmp	w8, #3
	and	w25, w26, #0xff
	b.ne	.Lunix_path_BB3_268
	movi	v0.2d, #0000000000000000
	add	x23, sp, #16, lsl #12
	add	x0, sp, #16, lsl #12
	ldr	x1, [sp, #72]
	add	x23, x23, #464
	add	x0, x0, #704
	stp	q0, q0, [x23, #240]
	bl	upath_commands.input.read_all.909299a5b5e629dc.
	ldrb	w8, [x23, #240]
	cbz	w8, .Lunix_path_BB3_298
	ldrb	w1, [x23, #241]
	mov	w20, #1
	b	.Lunix_path_BB3_717
.Lunix_path_BB3_261:
	cbnz	w8, .Lunix_path_BB3_276
	ldr	x20, [sp, #48]
	cbz	x20, .Lunix_path_BB3_707
	cmp	x23, #4
	b.hs	.Lunix_path_BB3_701
	ldr	x19, [sp, #24]
	cbnz	x23, .Lunix_path_BB3_287
	b	.Lunix_path_BB3_266
.Lunix_path_BB3_265:
	subs	x20, x20, #1
	add	x19, x19, #32
	b.eq	.Lunix_path_BB3_707
.Lunix_path_BB3_266:
	ldr	x8, [x19, #8]
	cbnz	x8, .Lunix_path_BB3_265
	b	.Lunix_path_BB3_706
.Lunix_path_BB3_267:
	ldp	x1, x2, [sp, #232]
	mov	x0, x23
	ldr	x3, [sp, #248]
	bl	unix_path.order.PathPartialEq.eq
	mov	w1, w0
	mov	w20, wzr
	b	.Lunix_path_BB3_717
.Lunix_path_BB3_268:
	add	x23, sp, #16, lsl #12
	cmp	x19, #1
	add	x23, x23, #464
	b.ne	.Lunix_path_BB3_295
	ldp	x2, x20, [sp, #280]
	and	w8, w25, #0xfe
	cmp	w8, #16
	b.ne	.Lunix_path_BB3_739
	cbz	x20, .Lunix_path_BB3_857
	lsr	x8, x20, #59
	add	x19, sp, #16, lsl #12
	add	x19, x19, #752
	cbnz	x8, .Lunix_path_BB3_1069
	lsl	x22, x20, #4
	mov	w1, #8
	mov	x21, x2
	mov	x0, x22
	bl	rattle_alloc
	tbz	w0, #0, .Lunix_path_BB3_1069
	mov	x2, x21
	mov	x21, x1
	sub	x8, x1, x2
	cmp	x8, x22
	b.hs	.Lunix_path_BB3_858
	mov	x8, xzr
	mov	x9, x20
.Lunix_path_BB3_275:
	ldr	q0, [x2, x8]
	subs	x9, x9, #1
	str	q0, [x21, x8]
	add	x8, x8, #16
	b.ne	.Lunix_path_BB3_275
	b	.Lunix_path_BB3_859
.Lunix_path_BB3_276:
	mov	x20, x27
	ldr	x2, [sp, #56]
	ldp	x8, x19, [x20, #24]!
	sub	x9, x19, x8
	cmp	x2, x9
	b.hi	.Lunix_path_BB3_905
	ldr	x1, [sp, #64]
.Lunix_path_BB3_278:
	ldr	x21, [x27, #16]
	add	x22, x8, x2
	stp	xzr, xzr, [x20]
	add	x0, x21, x8
	sub	x9, x0, x1
	cmp	x9, x2
	b.hs	.Lunix_path_BB3_715
	cmp	x2, #8
	b.lo	.Lunix_path_BB3_281
	add	x9, x8, x21
	sub	x9, x9, x1
	cmp	x9, #32
	b.hs	.Lunix_path_BB3_849
.Lunix_path_BB3_281:
	mov	x9, xzr
.Lunix_path_BB3_282:
	add	x10, x9, x8
	sub	x8, x2, x9
	add	x9, x1, x9
	add	x10, x21, x10
.Lunix_path_BB3_283:
	ldrb	w11, [x9], #1
	subs	x8, x8, #1
	strb	w11, [x10], #1
	b.ne	.Lunix_path_BB3_283
	b	.Lunix_path_BB3_716
.Lunix_path_BB3_284:
	mov	x8, xzr
.Lunix_path_BB3_285:
	cmp	x8, x23
	b.hs	.Lunix_path_BB3_706
.Lunix_path_BB3_286:
	subs	x20, x20, #1
	add	x19, x19, #32
	b.eq	.Lunix_path_BB3_707
.Lunix_path_BB3_287:
	ldr	x8, [x19, #8]
	cmp	x8, x23
	b.ne	.Lunix_path_BB3_286
	ldr	x8, [x19]
	ldrb	w10, [x26]
	ldrb	w9, [x8]
	cmp	w9, w10
	b.ne	.Lunix_path_BB3_284
	cmp	x23, #1
	b.eq	.Lunix_path_BB3_706
	ldrb	w9, [x8, #1]
	ldrb	w10, [x26, #1]
	cmp	w9, w10
	b.ne	.Lunix_path_BB3_294
	cmp	x23, #2
	b.eq	.Lunix_path_BB3_706
	ldrb	w8, [x8, #2]
	ldrb	w9, [x26, #2]
	cmp	w8, w9
	b.eq	.Lunix_path_BB3_706
	mov	w8, #2
	b	.Lunix_path_BB3_285
.Lunix_path_BB3_294:
	mov	w8, #1
	b	.Lunix_path_BB3_285
.Lunix_path_BB3_295:
	movi	v0.2d, #0000000000000000
	add	x22, sp, #16, lsl #12
	and	w8, w25, #0xfe
	add	x22, x22, #752
	cmp	w8, #16
	stp	xzr, xzr, [x23, #168]
	stp	xzr, xzr, [x22, #136]
	str	xzr, [x22, #128]
	stp	q0, q0, [x22, #192]
	stur	xzr, [x22, #151]
	str	xzr, [x23, #160]
	b.ne	.Lunix_path_BB3_742
	ldr	x1, [sp, #72]
	sub	x0, x29, #144
	bl	upath_commands.input.read_all.909299a5b5e629dc.
	ldrb	w8, [x22, #192]
	adrp	x19, .Lunix_path_CPI3_0
	cbz	w8, .Lunix_path_BB3_862
	ldrb	w1, [x22, #193]
	mov	w20, #1
	b	.Lunix_path_BB3_717
.Lunix_path_BB3_298:
	mov	w8, #9
	add	x9, sp, #208
	movi	v0.2d, #0000000000000000
	orr	x8, x9, x8
	ldp	x2, x3, [x23, #248]
	ldrb	w10, [x8, #4]
	ldr	w9, [x8]
	str	x27, [sp, #16]
	lsr	x27, x28, #16
	ldr	x20, [x23, #264]
	add	x11, sp, #464
	strb	w10, [sp, #420]
	lsr	x10, x28, #24
	str	w9, [sp, #416]
	add	x9, sp, #16, lsl #12
	stp	q0, q0, [x11]
	stp	q0, q0, [x11, #32]
	str	xzr, [x23, #160]
	stur	xzr, [x23, #165]
	stp	q0, q0, [x9, #752]!
	stp	q0, q0, [x9, #32]
	str	xzr, [x23, #96]
	stur	xzr, [x23, #101]
	str	x2, [sp, #80]
	tbz	w26, #0, .Lunix_path_BB3_829
	str	x20, [sp, #72]
	add	x20, sp, #16, lsl #12
	sub	x21, x29, #24
	add	x20, x20, #752
	stp	xzr, xzr, [x9, #136]
	str	x21, [x9, #128]
	cbz	x3, .Lunix_path_BB3_888
	mov	w26, #1
	mov	x22, x2
	str	x10, [sp, #64]
.Lunix_path_BB3_301:
	movi	v0.2d, #0000000000000000
	add	x8, sp, #16, lsl #12
	cmp	x3, #15
	add	x8, x8, #752
	stp	q0, q0, [x8, #192]
	b.hi	.Lunix_path_BB3_305
	mov	x23, xzr
.Lunix_path_BB3_303:
	ldrb	w8, [x22, x23]
	cmp	w8, #34
	b.eq	.Lunix_path_BB3_311
	add	x23, x23, #1
	cmp	x3, x23
	b.ne	.Lunix_path_BB3_303
	b	.Lunix_path_BB3_853
.Lunix_path_BB3_305:
	subs	x8, x3, #16
	b.eq	.Lunix_path_BB3_309
	mov	x9, xzr
.Lunix_path_BB3_307:
	movi	v0.16b, #34
	ldr	q1, [x22, x9]
	adrp	x10, .Lunix_path_CPI3_0
	cmeq	v0.16b, v1.16b, v0.16b
	ldr	q1, [x10, :lo12:.Lunix_path_CPI3_0]
	and	v0.16b, v0.16b, v1.16b
	addp	v0.16b, v0.16b, v0.16b
	addp	v0.16b, v0.16b, v0.16b
	addp	v0.16b, v0.16b, v0.16b
	umov	w10, v0.h[0]
	orr	w10, w10, #0x10000
	rbit	w10, w10
	clz	w10, w10
	cmp	w10, #15
	b.ls	.Lunix_path_BB3_310
	add	x9, x9, #16
	cmp	x9, x8
	b.lo	.Lunix_path_BB3_307
.Lunix_path_BB3_309:
	movi	v0.16b, #34
	ldr	q1, [x22, x8]
	adrp	x9, .Lunix_path_CPI3_0
	cmeq	v0.16b, v1.16b, v0.16b
	ldr	q1, [x9, :lo12:.Lunix_path_CPI3_0]
	and	v0.16b, v0.16b, v1.16b
	addp	v0.16b, v0.16b, v0.16b
	addp	v0.16b, v0.16b, v0.16b
	addp	v0.16b, v0.16b, v0.16b
	umov	w9, v0.h[0]
	orr	w9, w9, #0x10000
	rbit	w9, w9
	clz	w9, w9
	add	x23, x8, x9
	b	.Lunix_path_BB3_311
.Lunix_path_BB3_310:
	add	x23, x9, w10, uxtw
.Lunix_path_BB3_311:
	cbz	x23, .Lunix_path_BB3_853
	cmp	x23, x3
	b.eq	.Lunix_path_BB3_853
	ldrb	w8, [x22]
	cmp	w8, #103
	b.gt	.Lunix_path_BB3_318
	cmp	w8, #45
	b.eq	.Lunix_path_BB3_323
	cmp	w8, #67
	b.eq	.Lunix_path_BB3_323
	cmp	w8, #100
	b.ne	.Lunix_path_BB3_321
	mov	w21, wzr
	b	.Lunix_path_BB3_326
.Lunix_path_BB3_318:
	cmp	w8, #104
	b.eq	.Lunix_path_BB3_324
	cmp	w8, #108
	b.eq	.Lunix_path_BB3_325
	cmp	w8, #112
	b.eq	.Lunix_path_BB3_322
.Lunix_path_BB3_321:
	and	w8, w8, #0xfe
	cmp	w8, #98
	b.ne	.Lunix_path_BB3_853
.Lunix_path_BB3_322:
	mov	w21, #4
	b	.Lunix_path_BB3_326
.Lunix_path_BB3_323:
	mov	w21, #1
	b	.Lunix_path_BB3_326
.Lunix_path_BB3_324:
	mov	w21, #3
	b	.Lunix_path_BB3_326
.Lunix_path_BB3_325:
	mov	w21, #2
.Lunix_path_BB3_326:
	sub	x8, x23, #1
	add	x10, x22, #1
	cmp	x8, #15
	b.hi	.Lunix_path_BB3_332
	cbz	x8, .Lunix_path_BB3_853
	mov	x11, xzr
.Lunix_path_BB3_329:
	ldrb	w9, [x10, x11]
	cmp	w9, #32
	b.eq	.Lunix_path_BB3_338
	add	x11, x11, #1
	cmp	x8, x11
	b.ne	.Lunix_path_BB3_329
	sub	x11, x23, #1
	b	.Lunix_path_BB3_338
.Lunix_path_BB3_332:
	subs	x9, x23, #17
	b.eq	.Lunix_path_BB3_336
	mov	x11, xzr
.Lunix_path_BB3_334:
	movi	v0.16b, #32
	ldr	q1, [x10, x11]
	adrp	x12, .Lunix_path_CPI3_0
	cmeq	v0.16b, v1.16b, v0.16b
	ldr	q1, [x12, :lo12:.Lunix_path_CPI3_0]
	and	v0.16b, v0.16b, v1.16b
	addp	v0.16b, v0.16b, v0.16b
	addp	v0.16b, v0.16b, v0.16b
	addp	v0.16b, v0.16b, v0.16b
	umov	w12, v0.h[0]
	orr	w12, w12, #0x10000
	rbit	w12, w12
	clz	w12, w12
	cmp	w12, #15
	b.ls	.Lunix_path_BB3_337
	add	x11, x11, #16
	cmp	x11, x9
	b.lo	.Lunix_path_BB3_334
.Lunix_path_BB3_336:
	movi	v0.16b, #32
	ldr	q1, [x10, x9]
	adrp	x11, .Lunix_path_CPI3_0
	cmeq	v0.16b, v1.16b, v0.16b
	ldr	q1, [x11, :lo12:.Lunix_path_CPI3_0]
	and	v0.16b, v0.16b, v1.16b
	addp	v0.16b, v0.16b, v0.16b
	addp	v0.16b, v0.16b, v0.16b
	addp	v0.16b, v0.16b, v0.16b
	umov	w11, v0.h[0]
	orr	w11, w11, #0x10000
	rbit	w11, w11
	clz	w11, w11
	add	x11, x9, x11
	b	.Lunix_path_BB3_338
.Lunix_path_BB3_337:
	add	x11, x11, w12, uxtw
.Lunix_path_BB3_338:
	add	x9, x11, #1
	cmp	x11, x8
	sub	x9, x8, x9
	csinc	x11, x8, x11, hs
	csel	x12, x9, xzr, lo
	cmp	x8, #15
	b.hi	.Lunix_path_BB3_344
	cbz	x8, .Lunix_path_BB3_853
	mov	x13, xzr
.Lunix_path_BB3_341:
	ldrb	w14, [x10, x13]
	cmp	w14, #32
	b.eq	.Lunix_path_BB3_350
	add	x13, x13, #1
	cmp	x8, x13
	b.ne	.Lunix_path_BB3_341
	sub	x13, x23, #1
	b	.Lunix_path_BB3_350
.Lunix_path_BB3_344:
	subs	x13, x23, #17
	b.eq	.Lunix_path_BB3_348
	mov	x14, xzr
.Lunix_path_BB3_346:
	movi	v0.16b, #32
	ldr	q1, [x10, x14]
	adrp	x15, .Lunix_path_CPI3_0
	cmeq	v0.16b, v1.16b, v0.16b
	ldr	q1, [x15, :lo12:.Lunix_path_CPI3_0]
	and	v0.16b, v0.16b, v1.16b
	addp	v0.16b, v0.16b, v0.16b
	addp	v0.16b, v0.16b, v0.16b
	addp	v0.16b, v0.16b, v0.16b
	umov	w15, v0.h[0]
	orr	w15, w15, #0x10000
	rbit	w15, w15
	clz	w15, w15
	cmp	w15, #15
	b.ls	.Lunix_path_BB3_349
	add	x14, x14, #16
	cmp	x14, x13
	b.lo	.Lunix_path_BB3_346
.Lunix_path_BB3_348:
	movi	v0.16b, #32
	ldr	q1, [x10, x13]
	adrp	x14, .Lunix_path_CPI3_0
	cmeq	v0.16b, v1.16b, v0.16b
	ldr	q1, [x14, :lo12:.Lunix_path_CPI3_0]
	and	v0.16b, v0.16b, v1.16b
	addp	v0.16b, v0.16b, v0.16b
	addp	v0.16b, v0.16b, v0.16b
	addp	v0.16b, v0.16b, v0.16b
	umov	w14, v0.h[0]
	orr	w14, w14, #0x10000
	rbit	w14, w14
	clz	w14, w14
	add	x13, x13, x14
	b	.Lunix_path_BB3_350
.Lunix_path_BB3_349:
	add	x13, x14, w15, uxtw
.Lunix_path_BB3_350:
	cmp	x13, #9
	b.ne	.Lunix_path_BB3_853
	ldrb	w13, [x22, #1]
	and	w14, w13, #0xffffffdf
	sub	w14, w14, #83
	cmp	w14, #1
	b.ls	.Lunix_path_BB3_355
	sub	w14, w13, #114
	cmp	w14, #6
	b.hi	.Lunix_path_BB3_354
	mov	w15, #1
	lsl	w14, w15, w14
	mov	w15, #97
	tst	w14, w15
	b.ne	.Lunix_path_BB3_355
.Lunix_path_BB3_354:
	cmp	w13, #45
	b.ne	.Lunix_path_BB3_853
.Lunix_path_BB3_355:
	ldrb	w13, [x22, #2]
	and	w14, w13, #0xffffffdf
	sub	w14, w14, #83
	cmp	w14, #2
	b.lo	.Lunix_path_BB3_359
	sub	w14, w13, #114
	cmp	w14, #6
	b.hi	.Lunix_path_BB3_358
	mov	w15, #1
	lsl	w14, w15, w14
	mov	w15, #97
	tst	w14, w15
	b.ne	.Lunix_path_BB3_359
.Lunix_path_BB3_358:
	cmp	w13, #45
	b.ne	.Lunix_path_BB3_853
.Lunix_path_BB3_359:
	ldrb	w13, [x22, #3]
	and	w14, w13, #0xffffffdf
	sub	w14, w14, #83
	cmp	w14, #2
	b.lo	.Lunix_path_BB3_363
	sub	w14, w13, #114
	cmp	w14, #6
	b.hi	.Lunix_path_BB3_362
	mov	w15, #1
	lsl	w14, w15, w14
	mov	w15, #97
	tst	w14, w15
	b.ne	.Lunix_path_BB3_363
.Lunix_path_BB3_362:
	cmp	w13, #45
	b.ne	.Lunix_path_BB3_853
.Lunix_path_BB3_363:
	ldrb	w13, [x22, #4]
	and	w14, w13, #0xffffffdf
	sub	w14, w14, #83
	cmp	w14, #2
	b.lo	.Lunix_path_BB3_367
	sub	w14, w13, #114
	cmp	w14, #6
	b.hi	.Lunix_path_BB3_366
	mov	w15, #1
	lsl	w14, w15, w14
	mov	w15, #97
	tst	w14, w15
	b.ne	.Lunix_path_BB3_367
.Lunix_path_BB3_366:
	cmp	w13, #45
	b.ne	.Lunix_path_BB3_853
.Lunix_path_BB3_367:
	ldrb	w13, [x22, #5]
	and	w14, w13, #0xffffffdf
	sub	w14, w14, #83
	cmp	w14, #2
	b.lo	.Lunix_path_BB3_371
	sub	w14, w13, #114
	cmp	w14, #6
	b.hi	.Lunix_path_BB3_370
	mov	w15, #1
	lsl	w14, w15, w14
	mov	w15, #97
	tst	w14, w15
	b.ne	.Lunix_path_BB3_371
.Lunix_path_BB3_370:
	cmp	w13, #45
	b.ne	.Lunix_path_BB3_853
.Lunix_path_BB3_371:
	ldrb	w13, [x22, #6]
	and	w14, w13, #0xffffffdf
	sub	w14, w14, #83
	cmp	w14, #2
	b.lo	.Lunix_path_BB3_375
	sub	w14, w13, #114
	cmp	w14, #6
	b.hi	.Lunix_path_BB3_374
	mov	w15, #1
	lsl	w14, w15, w14
	mov	w15, #97
	tst	w14, w15
	b.ne	.Lunix_path_BB3_375
.Lunix_path_BB3_374:
	cmp	w13, #45
	b.ne	.Lunix_path_BB3_853
.Lunix_path_BB3_375:
	ldrb	w13, [x22, #7]
	and	w14, w13, #0xffffffdf
	sub	w14, w14, #83
	cmp	w14, #2
	b.lo	.Lunix_path_BB3_379
	sub	w14, w13, #114
	cmp	w14, #6
	b.hi	.Lunix_path_BB3_378
	mov	w15, #1
	lsl	w14, w15, w14
	mov	w15, #97
	tst	w14, w15
	b.ne	.Lunix_path_BB3_379
.Lunix_path_BB3_378:
	cmp	w13, #45
	b.ne	.Lunix_path_BB3_853
.Lunix_path_BB3_379:
	ldrb	w13, [x22, #8]
	and	w14, w13, #0xffffffdf
	sub	w14, w14, #83
	cmp	w14, #2
	b.lo	.Lunix_path_BB3_383
	sub	w14, w13, #114
	cmp	w14, #6
	b.hi	.Lunix_path_BB3_382
	mov	w15, #1
	lsl	w14, w15, w14
	mov	w15, #97
	tst	w14, w15
	b.ne	.Lunix_path_BB3_383
.Lunix_path_BB3_382:
	cmp	w13, #45
	b.ne	.Lunix_path_BB3_853
.Lunix_path_BB3_383:
	ldrb	w13, [x22, #9]
	and	w14, w13, #0xffffffdf
	sub	w14, w14, #83
	cmp	w14, #2
	b.lo	.Lunix_path_BB3_387
	sub	w14, w13, #114
	cmp	w14, #6
	b.hi	.Lunix_path_BB3_386
	mov	w15, #1
	lsl	w14, w15, w14
	mov	w15, #97
	tst	w14, w15
	b.ne	.Lunix_path_BB3_387
.Lunix_path_BB3_386:
	cmp	w13, #45
	b.ne	.Lunix_path_BB3_853
.Lunix_path_BB3_387:
	cmp	x12, #15
	add	x13, x10, x11
	b.hi	.Lunix_path_BB3_393
	cbz	x12, .Lunix_path_BB3_853
	mov	x14, xzr
.Lunix_path_BB3_390:
	ldrb	w10, [x13, x14]
	cmp	w10, #32
	b.eq	.Lunix_path_BB3_399
	add	x14, x14, #1
	cmp	x12, x14
	b.ne	.Lunix_path_BB3_390
	mov	x14, x9
	b	.Lunix_path_BB3_399
.Lunix_path_BB3_393:
	subs	x10, x12, #16
	b.eq	.Lunix_path_BB3_397
	mov	x11, xzr
.Lunix_path_BB3_395:
	movi	v0.16b, #32
	ldr	q1, [x13, x11]
	adrp	x14, .Lunix_path_CPI3_0
	cmeq	v0.16b, v1.16b, v0.16b
	ldr	q1, [x14, :lo12:.Lunix_path_CPI3_0]
	and	v0.16b, v0.16b, v1.16b
	addp	v0.16b, v0.16b, v0.16b
	addp	v0.16b, v0.16b, v0.16b
	addp	v0.16b, v0.16b, v0.16b
	umov	w14, v0.h[0]
	orr	w14, w14, #0x10000
	rbit	w14, w14
	clz	w14, w14
	cmp	w14, #15
	b.ls	.Lunix_path_BB3_398
	add	x11, x11, #16
	cmp	x11, x10
	b.lo	.Lunix_path_BB3_395
.Lunix_path_BB3_397:
	movi	v0.16b, #32
	ldr	q1, [x13, x10]
	adrp	x11, .Lunix_path_CPI3_0
	cmeq	v0.16b, v1.16b, v0.16b
	ldr	q1, [x11, :lo12:.Lunix_path_CPI3_0]
	and	v0.16b, v0.16b, v1.16b
	addp	v0.16b, v0.16b, v0.16b
	addp	v0.16b, v0.16b, v0.16b
	addp	v0.16b, v0.16b, v0.16b
	umov	w11, v0.h[0]
	orr	w11, w11, #0x10000
	rbit	w11, w11
	clz	w11, w11
	add	x14, x10, x11
	b	.Lunix_path_BB3_399
.Lunix_path_BB3_398:
	add	x14, x11, w14, uxtw
.Lunix_path_BB3_399:
	add	x10, x14, #1
	cmp	x14, x12
	sub	x10, x12, x10
	csinc	x15, x12, x14, hs
	csel	x11, x10, xzr, lo
	cmp	x12, #15
	b.hi	.Lunix_path_BB3_405
	cbz	x12, .Lunix_path_BB3_853
	mov	x14, xzr
.Lunix_path_BB3_402:
	ldrb	w16, [x13, x14]
	cmp	w16, #32
	b.eq	.Lunix_path_BB3_411
	add	x14, x14, #1
	cmp	x12, x14
	b.ne	.Lunix_path_BB3_402
	mov	x14, x9
	b	.Lunix_path_BB3_411
.Lunix_path_BB3_405:
	subs	x9, x12, #16
	b.eq	.Lunix_path_BB3_409
	mov	x12, xzr
.Lunix_path_BB3_407:
	movi	v0.16b, #32
	ldr	q1, [x13, x12]
	adrp	x14, .Lunix_path_CPI3_0
	cmeq	v0.16b, v1.16b, v0.16b
	ldr	q1, [x14, :lo12:.Lunix_path_CPI3_0]
	and	v0.16b, v0.16b, v1.16b
	addp	v0.16b, v0.16b, v0.16b
	addp	v0.16b, v0.16b, v0.16b
	addp	v0.16b, v0.16b, v0.16b
	umov	w14, v0.h[0]
	orr	w14, w14, #0x10000
	rbit	w14, w14
	clz	w14, w14
	cmp	w14, #15
	b.ls	.Lunix_path_BB3_410
	add	x12, x12, #16
	cmp	x12, x9
	b.lo	.Lunix_path_BB3_407
.Lunix_path_BB3_409:
	movi	v0.16b, #32
	ldr	q1, [x13, x9]
	adrp	x12, .Lunix_path_CPI3_0
	cmeq	v0.16b, v1.16b, v0.16b
	ldr	q1, [x12, :lo12:.Lunix_path_CPI3_0]
	and	v0.16b, v0.16b, v1.16b
	addp	v0.16b, v0.16b, v0.16b
	addp	v0.16b, v0.16b, v0.16b
	addp	v0.16b, v0.16b, v0.16b
	umov	w12, v0.h[0]
	orr	w12, w12, #0x10000
	rbit	w12, w12
	clz	w12, w12
	add	x14, x9, x12
	b	.Lunix_path_BB3_411
.Lunix_path_BB3_410:
	add	x14, x12, w14, uxtw
.Lunix_path_BB3_411:
	cmp	x14, #16
	cset	w12, lo
	cmp	x14, #15
	b.hi	.Lunix_path_BB3_417
	cbz	x14, .Lunix_path_BB3_853
	mov	x16, xzr
.Lunix_path_BB3_414:
	ldrb	w9, [x13, x16]
	cmp	w9, #47
	b.eq	.Lunix_path_BB3_423
	add	x16, x16, #1
	cmp	x14, x16
	b.ne	.Lunix_path_BB3_414
	mov	w12, #1
	mov	x16, x14
	b	.Lunix_path_BB3_424
.Lunix_path_BB3_417:
	subs	x9, x14, #16
	b.eq	.Lunix_path_BB3_421
	mov	x16, xzr
.Lunix_path_BB3_419:
	movi	v0.16b, #47
	ldr	q1, [x13, x16]
	adrp	x17, .Lunix_path_CPI3_0
	cmeq	v0.16b, v1.16b, v0.16b
	ldr	q1, [x17, :lo12:.Lunix_path_CPI3_0]
	and	v0.16b, v0.16b, v1.16b
	addp	v0.16b, v0.16b, v0.16b
	addp	v0.16b, v0.16b, v0.16b
	addp	v0.16b, v0.16b, v0.16b
	umov	w17, v0.h[0]
	orr	w17, w17, #0x10000
	rbit	w17, w17
	clz	w17, w17
	cmp	w17, #15
	b.ls	.Lunix_path_BB3_422
	add	x16, x16, #16
	cmp	x16, x9
	b.lo	.Lunix_path_BB3_419
.Lunix_path_BB3_421:
	movi	v0.16b, #47
	ldr	q1, [x13, x9]
	adrp	x16, .Lunix_path_CPI3_0
	cmeq	v0.16b, v1.16b, v0.16b
	ldr	q1, [x16, :lo12:.Lunix_path_CPI3_0]
	and	v0.16b, v0.16b, v1.16b
	addp	v0.16b, v0.16b, v0.16b
	addp	v0.16b, v0.16b, v0.16b
	addp	v0.16b, v0.16b, v0.16b
	umov	w16, v0.h[0]
	orr	w16, w16, #0x10000
	rbit	w16, w16
	clz	w16, w16
	add	x16, x9, x16
	b	.Lunix_path_BB3_423
.Lunix_path_BB3_422:
	add	x16, x16, w17, uxtw
.Lunix_path_BB3_423:
	cbz	x16, .Lunix_path_BB3_853
.Lunix_path_BB3_424:
	add	x9, x13, x15
	mov	x15, x13
.Lunix_path_BB3_425:
	cbz	x16, .Lunix_path_BB3_427
	ldrb	w17, [x15], #1
	sub	x16, x16, #1
	sub	w17, w17, #48
	cmp	w17, #10
	b.lo	.Lunix_path_BB3_425
	b	.Lunix_path_BB3_853
.Lunix_path_BB3_427:
	cbz	w12, .Lunix_path_BB3_431
	mov	x12, xzr
	cbz	x14, .Lunix_path_BB3_437
.Lunix_path_BB3_429:
	ldrb	w15, [x13, x12]
	cmp	w15, #47
	b.eq	.Lunix_path_BB3_437
	add	x12, x12, #1
	cmp	x14, x12
	b.ne	.Lunix_path_BB3_429
	b	.Lunix_path_BB3_853
.Lunix_path_BB3_431:
	subs	x12, x14, #16
	b.eq	.Lunix_path_BB3_435
	mov	x15, xzr
.Lunix_path_BB3_433:
	movi	v0.16b, #47
	ldr	q1, [x13, x15]
	adrp	x16, .Lunix_path_CPI3_0
	cmeq	v0.16b, v1.16b, v0.16b
	ldr	q1, [x16, :lo12:.Lunix_path_CPI3_0]
	and	v0.16b, v0.16b, v1.16b
	addp	v0.16b, v0.16b, v0.16b
	addp	v0.16b, v0.16b, v0.16b
	addp	v0.16b, v0.16b, v0.16b
	umov	w16, v0.h[0]
	orr	w16, w16, #0x10000
	rbit	w16, w16
	clz	w16, w16
	cmp	w16, #15
	b.ls	.Lunix_path_BB3_436
	add	x15, x15, #16
	cmp	x15, x12
	b.lo	.Lunix_path_BB3_433
.Lunix_path_BB3_435:
	movi	v0.16b, #47
	ldr	q1, [x13, x12]
	adrp	x15, .Lunix_path_CPI3_0
	cmeq	v0.16b, v1.16b, v0.16b
	ldr	q1, [x15, :lo12:.Lunix_path_CPI3_0]
	and	v0.16b, v0.16b, v1.16b
	addp	v0.16b, v0.16b, v0.16b
	addp	v0.16b, v0.16b, v0.16b
	addp	v0.16b, v0.16b, v0.16b
	umov	w15, v0.h[0]
	orr	w15, w15, #0x10000
	rbit	w15, w15
	clz	w15, w15
	add	x12, x12, x15
	b	.Lunix_path_BB3_437
.Lunix_path_BB3_436:
	add	x12, x15, w16, uxtw
.Lunix_path_BB3_437:
	subs	x15, x12, x14
	b.hs	.Lunix_path_BB3_853
	add	x12, x12, #1
	sub	x14, x14, x12
	cbz	x14, .Lunix_path_BB3_853
	add	x12, x13, x12
	add	x13, x15, #1
.Lunix_path_BB3_440:
	cbz	x13, .Lunix_path_BB3_442
	ldrb	w14, [x12], #1
	add	x13, x13, #1
	sub	w14, w14, #48
	cmp	w14, #10
	b.lo	.Lunix_path_BB3_440
	b	.Lunix_path_BB3_853
.Lunix_path_BB3_442:
	mov	x12, xzr
	cbz	x11, .Lunix_path_BB3_446
.Lunix_path_BB3_443:
	ldrb	w13, [x9, x12]
	cmp	w13, #32
	b.ne	.Lunix_path_BB3_446
	add	x12, x12, #1
	cmp	x11, x12
	b.ne	.Lunix_path_BB3_443
	mov	x12, x10
.Lunix_path_BB3_446:
	sub	x13, x11, x12
	add	x12, x9, x12
	cmp	x13, #15
	b.hi	.Lunix_path_BB3_451
	cbz	x13, .Lunix_path_BB3_853
	mov	x14, xzr
.Lunix_path_BB3_449:
	ldrb	w15, [x12, x14]
	cmp	w15, #32
	b.eq	.Lunix_path_BB3_457
	add	x14, x14, #1
	cmp	x13, x14
	b.ne	.Lunix_path_BB3_449
	b	.Lunix_path_BB3_458
.Lunix_path_BB3_451:
	subs	x13, x13, #16
	b.eq	.Lunix_path_BB3_455
	mov	x14, xzr
.Lunix_path_BB3_453:
	movi	v0.16b, #32
	ldr	q1, [x12, x14]
	adrp	x15, .Lunix_path_CPI3_0
	cmeq	v0.16b, v1.16b, v0.16b
	ldr	q1, [x15, :lo12:.Lunix_path_CPI3_0]
	and	v0.16b, v0.16b, v1.16b
	addp	v0.16b, v0.16b, v0.16b
	addp	v0.16b, v0.16b, v0.16b
	addp	v0.16b, v0.16b, v0.16b
	umov	w15, v0.h[0]
	orr	w15, w15, #0x10000
	rbit	w15, w15
	clz	w15, w15
	cmp	w15, #15
	b.ls	.Lunix_path_BB3_456
	add	x14, x14, #16
	cmp	x14, x13
	b.lo	.Lunix_path_BB3_453
.Lunix_path_BB3_455:
	movi	v0.16b, #32
	ldr	q1, [x12, x13]
	adrp	x14, .Lunix_path_CPI3_0
	cmeq	v0.16b, v1.16b, v0.16b
	ldr	q1, [x14, :lo12:.Lunix_path_CPI3_0]
	and	v0.16b, v0.16b, v1.16b
	addp	v0.16b, v0.16b, v0.16b
	addp	v0.16b, v0.16b, v0.16b
	addp	v0.16b, v0.16b, v0.16b
	umov	w14, v0.h[0]
	orr	w14, w14, #0x10000
	rbit	w14, w14
	clz	w14, w14
	add	x14, x13, x14
	b	.Lunix_path_BB3_457
.Lunix_path_BB3_456:
	add	x14, x14, w15, uxtw
.Lunix_path_BB3_457:
	mov	x13, x14
	cbz	x14, .Lunix_path_BB3_853
.Lunix_path_BB3_458:
	mov	x14, xzr
.Lunix_path_BB3_459:
	cmp	x13, x14
	b.eq	.Lunix_path_BB3_491
	ldrb	w15, [x12, x14]
	add	x14, x14, #1
	sub	w15, w15, #48
	cmp	w15, #10
	b.lo	.Lunix_path_BB3_459
	cmp	x13, #15
	b.hi	.Lunix_path_BB3_466
	mov	x14, xzr
.Lunix_path_BB3_463:
	ldrb	w15, [x12, x14]
	cmp	w15, #44
	b.eq	.Lunix_path_BB3_472
	add	x14, x14, #1
	cmp	x13, x14
	b.ne	.Lunix_path_BB3_463
	mov	x14, x13
	b	.Lunix_path_BB3_473
.Lunix_path_BB3_466:
	subs	x14, x13, #16
	b.eq	.Lunix_path_BB3_470
	mov	x15, xzr
.Lunix_path_BB3_468:
	movi	v0.16b, #44
	ldr	q1, [x12, x15]
	adrp	x16, .Lunix_path_CPI3_0
	cmeq	v0.16b, v1.16b, v0.16b
	ldr	q1, [x16, :lo12:.Lunix_path_CPI3_0]
	and	v0.16b, v0.16b, v1.16b
	addp	v0.16b, v0.16b, v0.16b
	addp	v0.16b, v0.16b, v0.16b
	addp	v0.16b, v0.16b, v0.16b
	umov	w16, v0.h[0]
	orr	w16, w16, #0x10000
	rbit	w16, w16
	clz	w16, w16
	cmp	w16, #15
	b.ls	.Lunix_path_BB3_471
	add	x15, x15, #16
	cmp	x15, x14
	b.lo	.Lunix_path_BB3_468
.Lunix_path_BB3_470:
	movi	v0.16b, #44
	ldr	q1, [x12, x14]
	adrp	x15, .Lunix_path_CPI3_0
	cmeq	v0.16b, v1.16b, v0.16b
	ldr	q1, [x15, :lo12:.Lunix_path_CPI3_0]
	and	v0.16b, v0.16b, v1.16b
	addp	v0.16b, v0.16b, v0.16b
	addp	v0.16b, v0.16b, v0.16b
	addp	v0.16b, v0.16b, v0.16b
	umov	w15, v0.h[0]
	orr	w15, w15, #0x10000
	rbit	w15, w15
	clz	w15, w15
	add	x14, x14, x15
	b	.Lunix_path_BB3_472
.Lunix_path_BB3_471:
	add	x14, x15, w16, uxtw
.Lunix_path_BB3_472:
	cbz	x14, .Lunix_path_BB3_853
.Lunix_path_BB3_473:
	mov	x15, x12
.Lunix_path_BB3_474:
	cbz	x14, .Lunix_path_BB3_476
	ldrb	w16, [x15], #1
	sub	x14, x14, #1
	sub	w16, w16, #48
	cmp	w16, #10
	b.lo	.Lunix_path_BB3_474
	b	.Lunix_path_BB3_853
.Lunix_path_BB3_476:
	cmp	x13, #15
	b.hi	.Lunix_path_BB3_480
	mov	x14, xzr
.Lunix_path_BB3_478:
	ldrb	w15, [x12, x14]
	cmp	w15, #44
	b.eq	.Lunix_path_BB3_486
	add	x14, x14, #1
	cmp	x13, x14
	b.ne	.Lunix_path_BB3_478
	b	.Lunix_path_BB3_853
.Lunix_path_BB3_480:
	subs	x14, x13, #16
	b.eq	.Lunix_path_BB3_484
	mov	x15, xzr
.Lunix_path_BB3_482:
	movi	v0.16b, #44
	ldr	q1, [x12, x15]
	adrp	x16, .Lunix_path_CPI3_0
	cmeq	v0.16b, v1.16b, v0.16b
	ldr	q1, [x16, :lo12:.Lunix_path_CPI3_0]
	and	v0.16b, v0.16b, v1.16b
	addp	v0.16b, v0.16b, v0.16b
	addp	v0.16b, v0.16b, v0.16b
	addp	v0.16b, v0.16b, v0.16b
	umov	w16, v0.h[0]
	orr	w16, w16, #0x10000
	rbit	w16, w16
	clz	w16, w16
	cmp	w16, #15
	b.ls	.Lunix_path_BB3_485
	add	x15, x15, #16
	cmp	x15, x14
	b.lo	.Lunix_path_BB3_482
.Lunix_path_BB3_484:
	movi	v0.16b, #44
	ldr	q1, [x12, x14]
	adrp	x15, .Lunix_path_CPI3_0
	cmeq	v0.16b, v1.16b, v0.16b
	ldr	q1, [x15, :lo12:.Lunix_path_CPI3_0]
	and	v0.16b, v0.16b, v1.16b
	addp	v0.16b, v0.16b, v0.16b
	addp	v0.16b, v0.16b, v0.16b
	addp	v0.16b, v0.16b, v0.16b
	umov	w15, v0.h[0]
	orr	w15, w15, #0x10000
	rbit	w15, w15
	clz	w15, w15
	add	x14, x14, x15
	b	.Lunix_path_BB3_486
.Lunix_path_BB3_485:
	add	x14, x15, w16, uxtw
.Lunix_path_BB3_486:
	subs	x15, x14, x13
	b.hs	.Lunix_path_BB3_853
	add	x14, x14, #1
	sub	x13, x13, x14
	cbz	x13, .Lunix_path_BB3_853
	add	x12, x12, x14
	add	x13, x15, #1
.Lunix_path_BB3_489:
	cbz	x13, .Lunix_path_BB3_491
	ldrb	w14, [x12], #1
	add	x13, x13, #1
	sub	w14, w14, #48
	cmp	w14, #10
	b.lo	.Lunix_path_BB3_489
	b	.Lunix_path_BB3_853
.Lunix_path_BB3_491:
	mov	x13, xzr
	cbz	x11, .Lunix_path_BB3_498
.Lunix_path_BB3_492:
	ldrb	w12, [x9, x13]
	cmp	w12, #32
	b.ne	.Lunix_path_BB3_495
	add	x13, x13, #1
	cmp	x11, x13
	b.ne	.Lunix_path_BB3_492
	mov	x13, x10
.Lunix_path_BB3_495:
	sub	x10, x11, x13
	add	x12, x9, x13
	cmp	x10, #15
	b.hi	.Lunix_path_BB3_500
	cmp	x11, x13
	b.ne	.Lunix_path_BB3_505
	mov	x13, xzr
	mov	x10, xzr
	mov	x14, #-1
	mov	w15, #1
	mov	x9, x12
	b	.Lunix_path_BB3_518
.Lunix_path_BB3_498:
	mov	x10, xzr
.Lunix_path_BB3_499:
	mov	x14, #-1
	mov	w15, #1
	b	.Lunix_path_BB3_518
.Lunix_path_BB3_500:
	subs	x9, x10, #16
	b.eq	.Lunix_path_BB3_504
	mov	x11, xzr
.Lunix_path_BB3_502:
	movi	v0.16b, #32
	ldr	q1, [x12, x11]
	adrp	x13, .Lunix_path_CPI3_0
	cmeq	v0.16b, v1.16b, v0.16b
	ldr	q1, [x13, :lo12:.Lunix_path_CPI3_0]
	and	v0.16b, v0.16b, v1.16b
	addp	v0.16b, v0.16b, v0.16b
	addp	v0.16b, v0.16b, v0.16b
	addp	v0.16b, v0.16b, v0.16b
	umov	w13, v0.h[0]
	orr	w13, w13, #0x10000
	rbit	w13, w13
	clz	w13, w13
	cmp	w13, #15
	b.ls	.Lunix_path_BB3_509
	add	x11, x11, #16
	cmp	x11, x9
	b.lo	.Lunix_path_BB3_502
.Lunix_path_BB3_504:
	movi	v0.16b, #32
	ldr	q1, [x12, x9]
	adrp	x11, .Lunix_path_CPI3_0
	cmeq	v0.16b, v1.16b, v0.16b
	ldr	q1, [x11, :lo12:.Lunix_path_CPI3_0]
	and	v0.16b, v0.16b, v1.16b
	addp	v0.16b, v0.16b, v0.16b
	addp	v0.16b, v0.16b, v0.16b
	addp	v0.16b, v0.16b, v0.16b
	umov	w11, v0.h[0]
	orr	w11, w11, #0x10000
	rbit	w11, w11
	clz	w11, w11
	add	x14, x9, x11
	b	.Lunix_path_BB3_510
.Lunix_path_BB3_505:
	mov	x14, xzr
.Lunix_path_BB3_506:
	ldrb	w13, [x12, x14]
	cmp	w13, #32
	b.eq	.Lunix_path_BB3_510
	add	x14, x14, #1
	cmp	x10, x14
	b.ne	.Lunix_path_BB3_506
	mov	x13, xzr
	mov	x10, xzr
	add	x9, x9, x11
	b	.Lunix_path_BB3_499
.Lunix_path_BB3_509:
	add	x14, x11, w13, uxtw
.Lunix_path_BB3_510:
	cmp	x14, x10
	add	x9, x14, #1
	mov	x13, xzr
	csinc	x11, x10, x14, hs
	sub	x14, x10, x9
	mov	w15, #1
	add	x9, x12, x11
	b.hs	.Lunix_path_BB3_516
	cbz	x14, .Lunix_path_BB3_516
	mov	x10, xzr
.Lunix_path_BB3_513:
	ldrb	w11, [x9, x10]
	cmp	w11, #32
	b.ne	.Lunix_path_BB3_517
	add	x10, x10, #1
	cmp	x14, x10
	b.ne	.Lunix_path_BB3_513
	mov	w15, wzr
	mov	x13, x14
	mov	x10, x14
	b	.Lunix_path_BB3_518
.Lunix_path_BB3_516:
	mov	x10, x13
	b	.Lunix_path_BB3_518
.Lunix_path_BB3_517:
	mov	w15, wzr
	mov	x13, x14
.Lunix_path_BB3_518:
	sub	x16, x13, x10
	add	x11, x9, x10
	cmp	x16, #15
	b.hi	.Lunix_path_BB3_523
	mov	x12, xzr
	cbz	x16, .Lunix_path_BB3_529
.Lunix_path_BB3_520:
	ldrb	w17, [x11, x12]
	cmp	w17, #32
	b.eq	.Lunix_path_BB3_529
	add	x12, x12, #1
	cmp	x16, x12
	b.ne	.Lunix_path_BB3_520
	sub	x12, x13, x10
	b	.Lunix_path_BB3_529
.Lunix_path_BB3_523:
	subs	x12, x16, #16
	b.eq	.Lunix_path_BB3_527
	mov	x16, xzr
.Lunix_path_BB3_525:
	movi	v0.16b, #32
	ldr	q1, [x11, x16]
	adrp	x17, .Lunix_path_CPI3_0
	cmeq	v0.16b, v1.16b, v0.16b
	ldr	q1, [x17, :lo12:.Lunix_path_CPI3_0]
	and	v0.16b, v0.16b, v1.16b
	addp	v0.16b, v0.16b, v0.16b
	addp	v0.16b, v0.16b, v0.16b
	addp	v0.16b, v0.16b, v0.16b
	umov	w17, v0.h[0]
	orr	w17, w17, #0x10000
	rbit	w17, w17
	clz	w17, w17
	cmp	w17, #15
	b.ls	.Lunix_path_BB3_528
	add	x16, x16, #16
	cmp	x16, x12
	b.lo	.Lunix_path_BB3_525
.Lunix_path_BB3_527:
	movi	v0.16b, #32
	ldr	q1, [x11, x12]
	adrp	x16, .Lunix_path_CPI3_0
	cmeq	v0.16b, v1.16b, v0.16b
	ldr	q1, [x16, :lo12:.Lunix_path_CPI3_0]
	and	v0.16b, v0.16b, v1.16b
	addp	v0.16b, v0.16b, v0.16b
	addp	v0.16b, v0.16b, v0.16b
	addp	v0.16b, v0.16b, v0.16b
	umov	w16, v0.h[0]
	orr	w16, w16, #0x10000
	rbit	w16, w16
	clz	w16, w16
	add	x12, x12, x16
	b	.Lunix_path_BB3_529
.Lunix_path_BB3_528:
	add	x12, x16, w17, uxtw
.Lunix_path_BB3_529:
	mov	x16, xzr
	tbnz	w15, #0, .Lunix_path_BB3_533
.Lunix_path_BB3_530:
	ldrb	w15, [x9, x16]
	cmp	w15, #32
	b.ne	.Lunix_path_BB3_533
	add	x16, x16, #1
	cmp	x13, x16
	b.ne	.Lunix_path_BB3_530
	mov	x16, x14
.Lunix_path_BB3_533:
	sub	x17, x13, x16
	add	x15, x9, x16
	cmp	x17, #15
	b.hi	.Lunix_path_BB3_538
	mov	x18, xzr
	cbz	x17, .Lunix_path_BB3_544
.Lunix_path_BB3_535:
	ldrb	w13, [x15, x18]
	cmp	w13, #32
	b.eq	.Lunix_path_BB3_544
	add	x18, x18, #1
	cmp	x17, x18
	b.ne	.Lunix_path_BB3_535
	mov	x18, x17
	b	.Lunix_path_BB3_544
.Lunix_path_BB3_538:
	subs	x13, x17, #16
	b.eq	.Lunix_path_BB3_542
	mov	x14, xzr
.Lunix_path_BB3_540:
	movi	v0.16b, #32
	ldr	q1, [x15, x14]
	adrp	x18, .Lunix_path_CPI3_0
	cmeq	v0.16b, v1.16b, v0.16b
	ldr	q1, [x18, :lo12:.Lunix_path_CPI3_0]
	and	v0.16b, v0.16b, v1.16b
	addp	v0.16b, v0.16b, v0.16b
	addp	v0.16b, v0.16b, v0.16b
	addp	v0.16b, v0.16b, v0.16b
	umov	w18, v0.h[0]
	orr	w18, w18, #0x10000
	rbit	w18, w18
	clz	w18, w18
	cmp	w18, #15
	b.ls	.Lunix_path_BB3_543
	add	x14, x14, #16
	cmp	x14, x13
	b.lo	.Lunix_path_BB3_540
.Lunix_path_BB3_542:
	movi	v0.16b, #32
	ldr	q1, [x15, x13]
	adrp	x14, .Lunix_path_CPI3_0
	cmeq	v0.16b, v1.16b, v0.16b
	ldr	q1, [x14, :lo12:.Lunix_path_CPI3_0]
	and	v0.16b, v0.16b, v1.16b
	addp	v0.16b, v0.16b, v0.16b
	addp	v0.16b, v0.16b, v0.16b
	addp	v0.16b, v0.16b, v0.16b
	umov	w14, v0.h[0]
	orr	w14, w14, #0x10000
	rbit	w14, w14
	clz	w14, w14
	add	x18, x13, x14
	b	.Lunix_path_BB3_544
.Lunix_path_BB3_543:
	add	x18, x14, w18, uxtw
.Lunix_path_BB3_544:
	add	x13, x18, #1
	cmp	x18, x17
	sub	x14, x17, x13
	csinc	x18, x17, x18, hs
	mov	w17, #6
	csel	x13, x14, xzr, lo
	cmp	x12, #6
	add	x15, x15, x18
	csel	x17, x12, x17, lo
	subs	x0, x12, x17
	b.eq	.Lunix_path_BB3_662
	sub	x1, x17, x12
	sub	x2, x17, x12
	add	x4, x9, x10
.Lunix_path_BB3_546:
	cbz	x2, .Lunix_path_BB3_553
	ldrb	w5, [x4], #1
	add	x2, x2, #1
	sub	w5, w5, #48
	cmp	w5, #10
	b.lo	.Lunix_path_BB3_546
	cmp	x0, #1
	b.eq	.Lunix_path_BB3_662
	ldrb	w2, [x11]
	cmp	w2, #45
	b.ne	.Lunix_path_BB3_662
	add	x2, x9, x10
	add	x1, x1, #1
	add	x2, x2, #1
.Lunix_path_BB3_551:
	cbz	x1, .Lunix_path_BB3_553
	ldrb	w4, [x2], #1
	add	x1, x1, #1
	sub	w4, w4, #48
	cmp	w4, #10
	b.lo	.Lunix_path_BB3_551
	b	.Lunix_path_BB3_662
.Lunix_path_BB3_553:
	add	x2, x11, x0
	cmp	x12, #0
	cset	w1, ne
	cinc	x0, x2, ne
	cbz	x12, .Lunix_path_BB3_853
	ldrb	w2, [x2]
	cmp	w2, #45
	b.ne	.Lunix_path_BB3_663
	sub	x1, x17, x1
	cmp	x1, #16
	b.hs	.Lunix_path_BB3_559
	cbz	x1, .Lunix_path_BB3_663
	ldrb	w17, [x0]
	cmp	w17, #45
	b.ne	.Lunix_path_BB3_563
	mov	x2, xzr
	b	.Lunix_path_BB3_577
.Lunix_path_BB3_559:
	mov	x17, xzr
.Lunix_path_BB3_560:
	movi	v0.16b, #45
	ldr	q1, [x0, x17]
	adrp	x2, .Lunix_path_CPI3_0
	cmeq	v0.16b, v1.16b, v0.16b
	ldr	q1, [x2, :lo12:.Lunix_path_CPI3_0]
	and	v0.16b, v0.16b, v1.16b
	addp	v0.16b, v0.16b, v0.16b
	addp	v0.16b, v0.16b, v0.16b
	addp	v0.16b, v0.16b, v0.16b
	umov	w2, v0.h[0]
	orr	w2, w2, #0x10000
	rbit	w2, w2
	clz	w2, w2
	cmp	w2, #15
	b.ls	.Lunix_path_BB3_562
	cmn	x17, #33
	add	x17, x17, #16
	b.lo	.Lunix_path_BB3_560
	b	.Lunix_path_BB3_662
.Lunix_path_BB3_562:
	add	x2, x17, w2, uxtw
	b	.Lunix_path_BB3_577
.Lunix_path_BB3_563:
	cmp	x1, #1
	mov	x2, x1
	b.eq	.Lunix_path_BB3_577
	ldrb	w2, [x0, #1]
	mov	x17, x3
	cmp	w2, #45
	b.ne	.Lunix_path_BB3_566
	mov	w2, #1
	mov	x3, x17
	b	.Lunix_path_BB3_577
.Lunix_path_BB3_566:
	cmp	x1, #2
	mov	x2, x1
	mov	x3, x17
	b.eq	.Lunix_path_BB3_577
	ldrb	w2, [x0, #2]
	cmp	w2, #45
	b.ne	.Lunix_path_BB3_569
	mov	w2, #2
	mov	x3, x17
	b	.Lunix_path_BB3_577
.Lunix_path_BB3_569:
	cmp	x1, #3
	mov	x2, x1
	mov	x3, x17
	b.eq	.Lunix_path_BB3_577
	ldrb	w2, [x0, #3]
	cmp	w2, #45
	b.ne	.Lunix_path_BB3_572
	mov	w2, #3
	mov	x3, x17
	b	.Lunix_path_BB3_577
.Lunix_path_BB3_572:
	cmp	x1, #4
	mov	x2, x1
	mov	x3, x17
	b.eq	.Lunix_path_BB3_577
	ldrb	w2, [x0, #4]
	cmp	w2, #45
	b.ne	.Lunix_path_BB3_575
	mov	w2, #4
	mov	x3, x17
	b	.Lunix_path_BB3_577
.Lunix_path_BB3_575:
	cmp	x1, #5
	mov	x2, x1
	mov	x3, x17
	b.eq	.Lunix_path_BB3_577
	ldrb	w17, [x0, #5]
	cmp	w17, #45
	mov	w17, #5
	csel	x2, x17, x1, eq
.Lunix_path_BB3_577:
	cmp	x2, #2
	b.ne	.Lunix_path_BB3_662
	ldrb	w17, [x0]
	sub	w17, w17, #48
	cmp	w17, #9
	b.hi	.Lunix_path_BB3_662
	ldrb	w17, [x0, #1]
	sub	w17, w17, #48
	cmp	w17, #9
	b.hi	.Lunix_path_BB3_662
	mov	x17, x3
	cmp	x1, #16
	b.hs	.Lunix_path_BB3_585
	mov	x2, xzr
	cbz	x1, .Lunix_path_BB3_590
	mov	x3, x17
.Lunix_path_BB3_583:
	ldrb	w4, [x0, x2]
	cmp	w4, #45
	b.eq	.Lunix_path_BB3_590
	add	x2, x2, #1
	cmp	x1, x2
	b.ne	.Lunix_path_BB3_583
	b	.Lunix_path_BB3_662
.Lunix_path_BB3_585:
	mov	x2, xzr
.Lunix_path_BB3_586:
	movi	v0.16b, #45
	ldr	q1, [x0, x2]
	adrp	x3, .Lunix_path_CPI3_0
	cmeq	v1.16b, v1.16b, v0.16b
	ldr	q0, [x3, :lo12:.Lunix_path_CPI3_0]
	and	v1.16b, v1.16b, v0.16b
	addp	v1.16b, v1.16b, v1.16b
	addp	v1.16b, v1.16b, v1.16b
	addp	v1.16b, v1.16b, v1.16b
	umov	w3, v1.h[0]
	orr	w3, w3, #0x10000
	rbit	w3, w3
	clz	w3, w3
	cmp	w3, #15
	b.ls	.Lunix_path_BB3_589
	cmn	x2, #33
	add	x2, x2, #16
	b.lo	.Lunix_path_BB3_586
	movi	v1.16b, #45
	ldur	q2, [x0, #-17]
	cmeq	v1.16b, v2.16b, v1.16b
	and	v0.16b, v1.16b, v0.16b
	addp	v0.16b, v0.16b, v0.16b
	addp	v0.16b, v0.16b, v0.16b
	addp	v0.16b, v0.16b, v0.16b
	umov	w2, v0.h[0]
	orr	w2, w2, #0x10000
	rbit	w2, w2
	clz	w2, w2
	sub	x2, x2, #17
	b	.Lunix_path_BB3_590
.Lunix_path_BB3_589:
	add	x2, x2, w3, uxtw
.Lunix_path_BB3_590:
	cmp	x2, x1
	mov	x3, x17
	csinc	x4, x1, x2, hs
	b.hs	.Lunix_path_BB3_662
	add	x2, x2, #1
	sub	x1, x1, x2
	cmp	x1, #2
	b.ne	.Lunix_path_BB3_662
	add	x0, x0, x4
	ldrb	w1, [x0]
	sub	w1, w1, #48
	cmp	w1, #9
	b.hi	.Lunix_path_BB3_662
	ldrb	w0, [x0, #1]
	sub	w0, w0, #48
	cmp	w0, #9
	b.hi	.Lunix_path_BB3_662
	mov	x2, xzr
	cbz	x13, .Lunix_path_BB3_598
.Lunix_path_BB3_595:
	ldrb	w0, [x15, x2]
	cmp	w0, #32
	b.ne	.Lunix_path_BB3_598
	add	x2, x2, #1
	cmp	x13, x2
	b.ne	.Lunix_path_BB3_595
	mov	x2, x14
.Lunix_path_BB3_598:
	sub	x4, x13, x2
	add	x0, x15, x2
	cmp	x4, #15
	b.hi	.Lunix_path_BB3_604
	mov	x3, x17
	cbz	x4, .Lunix_path_BB3_662
	add	x3, x18, x16
	add	x5, x9, x2
	mov	x1, xzr
	add	x3, x5, x3
.Lunix_path_BB3_601:
	ldrb	w5, [x3, x1]
	cmp	w5, #32
	b.eq	.Lunix_path_BB3_610
	add	x1, x1, #1
	cmp	x4, x1
	b.ne	.Lunix_path_BB3_601
	sub	x1, x13, x2
	b	.Lunix_path_BB3_610
.Lunix_path_BB3_604:
	subs	x1, x4, #16
	b.eq	.Lunix_path_BB3_608
	add	x4, x18, x16
	add	x5, x9, x2
	mov	x3, xzr
	add	x4, x5, x4
.Lunix_path_BB3_606:
	movi	v0.16b, #32
	ldr	q1, [x4, x3]
	adrp	x5, .Lunix_path_CPI3_0
	cmeq	v0.16b, v1.16b, v0.16b
	ldr	q1, [x5, :lo12:.Lunix_path_CPI3_0]
	and	v0.16b, v0.16b, v1.16b
	addp	v0.16b, v0.16b, v0.16b
	addp	v0.16b, v0.16b, v0.16b
	addp	v0.16b, v0.16b, v0.16b
	umov	w5, v0.h[0]
	orr	w5, w5, #0x10000
	rbit	w5, w5
	clz	w5, w5
	cmp	w5, #15
	b.ls	.Lunix_path_BB3_609
	add	x3, x3, #16
	cmp	x3, x1
	b.lo	.Lunix_path_BB3_606
.Lunix_path_BB3_608:
	movi	v0.16b, #32
	ldr	q1, [x0, x1]
	adrp	x3, .Lunix_path_CPI3_0
	cmeq	v0.16b, v1.16b, v0.16b
	ldr	q1, [x3, :lo12:.Lunix_path_CPI3_0]
	and	v0.16b, v0.16b, v1.16b
	addp	v0.16b, v0.16b, v0.16b
	addp	v0.16b, v0.16b, v0.16b
	addp	v0.16b, v0.16b, v0.16b
	umov	w3, v0.h[0]
	orr	w3, w3, #0x10000
	rbit	w3, w3
	clz	w3, w3
	add	x1, x1, x3
	b	.Lunix_path_BB3_610
.Lunix_path_BB3_609:
	add	x1, x3, w5, uxtw
.Lunix_path_BB3_610:
	cmp	x1, #15
	b.hi	.Lunix_path_BB3_616
	mov	x3, x17
	cbz	x1, .Lunix_path_BB3_662
	add	x4, x18, x16
	add	x5, x9, x2
	mov	x3, xzr
	add	x4, x5, x4
.Lunix_path_BB3_613:
	ldrb	w5, [x4, x3]
	cmp	w5, #58
	b.eq	.Lunix_path_BB3_622
	add	x3, x3, #1
	cmp	x1, x3
	b.ne	.Lunix_path_BB3_613
	mov	x3, x1
	b	.Lunix_path_BB3_622
.Lunix_path_BB3_616:
	subs	x3, x1, #16
	b.eq	.Lunix_path_BB3_620
	add	x5, x18, x16
	add	x6, x9, x2
	mov	x4, xzr
	add	x5, x6, x5
.Lunix_path_BB3_618:
	movi	v0.16b, #58
	ldr	q1, [x5, x4]
	adrp	x6, .Lunix_path_CPI3_0
	cmeq	v0.16b, v1.16b, v0.16b
	ldr	q1, [x6, :lo12:.Lunix_path_CPI3_0]
	and	v0.16b, v0.16b, v1.16b
	addp	v0.16b, v0.16b, v0.16b
	addp	v0.16b, v0.16b, v0.16b
	addp	v0.16b, v0.16b, v0.16b
	umov	w6, v0.h[0]
	orr	w6, w6, #0x10000
	rbit	w6, w6
	clz	w6, w6
	cmp	w6, #15
	b.ls	.Lunix_path_BB3_621
	add	x4, x4, #16
	cmp	x4, x3
	b.lo	.Lunix_path_BB3_618
.Lunix_path_BB3_620:
	movi	v0.16b, #58
	ldr	q1, [x0, x3]
	adrp	x4, .Lunix_path_CPI3_0
	cmeq	v0.16b, v1.16b, v0.16b
	ldr	q1, [x4, :lo12:.Lunix_path_CPI3_0]
	and	v0.16b, v0.16b, v1.16b
	addp	v0.16b, v0.16b, v0.16b
	addp	v0.16b, v0.16b, v0.16b
	addp	v0.16b, v0.16b, v0.16b
	umov	w4, v0.h[0]
	orr	w4, w4, #0x10000
	rbit	w4, w4
	clz	w4, w4
	add	x3, x3, x4
	b	.Lunix_path_BB3_622
.Lunix_path_BB3_621:
	add	x3, x4, w6, uxtw
.Lunix_path_BB3_622:
	cmp	x3, #2
	mov	x3, x17
	b.ne	.Lunix_path_BB3_662
	ldrb	w4, [x0]
	sub	w4, w4, #48
	cmp	w4, #9
	b.hi	.Lunix_path_BB3_662
	ldrb	w4, [x0, #1]
	sub	w4, w4, #48
	cmp	w4, #9
	b.hi	.Lunix_path_BB3_662
	cmp	x1, #15
	b.hi	.Lunix_path_BB3_630
	mov	x4, xzr
	cbz	x1, .Lunix_path_BB3_636
	add	x16, x18, x16
	add	x18, x9, x2
	add	x16, x18, x16
.Lunix_path_BB3_628:
	ldrb	w18, [x16, x4]
	cmp	w18, #58
	b.eq	.Lunix_path_BB3_636
	add	x4, x4, #1
	mov	x3, x17
	cmp	x1, x4
	b.ne	.Lunix_path_BB3_628
	b	.Lunix_path_BB3_662
.Lunix_path_BB3_630:
	subs	x3, x1, #16
	b.eq	.Lunix_path_BB3_634
	add	x16, x18, x16
	add	x18, x9, x2
	mov	x4, xzr
	add	x16, x18, x16
.Lunix_path_BB3_632:
	movi	v0.16b, #58
	ldr	q1, [x16, x4]
	adrp	x18, .Lunix_path_CPI3_0
	cmeq	v0.16b, v1.16b, v0.16b
	ldr	q1, [x18, :lo12:.Lunix_path_CPI3_0]
	and	v0.16b, v0.16b, v1.16b
	addp	v0.16b, v0.16b, v0.16b
	addp	v0.16b, v0.16b, v0.16b
	addp	v0.16b, v0.16b, v0.16b
	umov	w18, v0.h[0]
	orr	w18, w18, #0x10000
	rbit	w18, w18
	clz	w18, w18
	cmp	w18, #15
	b.ls	.Lunix_path_BB3_635
	add	x4, x4, #16
	cmp	x4, x3
	b.lo	.Lunix_path_BB3_632
.Lunix_path_BB3_634:
	movi	v0.16b, #58
	ldr	q1, [x0, x3]
	adrp	x16, .Lunix_path_CPI3_0
	cmeq	v0.16b, v1.16b, v0.16b
	ldr	q1, [x16, :lo12:.Lunix_path_CPI3_0]
	and	v0.16b, v0.16b, v1.16b
	addp	v0.16b, v0.16b, v0.16b
	addp	v0.16b, v0.16b, v0.16b
	addp	v0.16b, v0.16b, v0.16b
	umov	w16, v0.h[0]
	orr	w16, w16, #0x10000
	rbit	w16, w16
	clz	w16, w16
	add	x4, x3, x16
	b	.Lunix_path_BB3_636
.Lunix_path_BB3_635:
	add	x4, x4, w18, uxtw
.Lunix_path_BB3_636:
	cmp	x4, x1
	mov	x3, x17
	csinc	x16, x1, x4, hs
	b.hs	.Lunix_path_BB3_662
	add	x18, x4, #1
	sub	x18, x1, x18
	cmp	x18, #2
	b.ne	.Lunix_path_BB3_662
	add	x16, x0, x16
	ldrb	w18, [x16]
	sub	w18, w18, #48
	cmp	w18, #9
	b.hi	.Lunix_path_BB3_662
	ldrb	w16, [x16, #1]
	sub	w16, w16, #48
	cmp	w16, #9
	b.hi	.Lunix_path_BB3_662
	cbz	x13, .Lunix_path_BB3_678
	mov	x16, xzr
.Lunix_path_BB3_642:
	ldrb	w18, [x15, x16]
	cmp	w18, #32
	b.ne	.Lunix_path_BB3_645
	add	x16, x16, #1
	cmp	x13, x16
	b.ne	.Lunix_path_BB3_642
	mov	x16, x14
.Lunix_path_BB3_645:
	sub	x0, x13, x16
	add	x18, x15, x16
	cmp	x0, #15
	b.hi	.Lunix_path_BB3_650
	cmp	x13, x16
	mov	x3, x17
	b.eq	.Lunix_path_BB3_678
	mov	x1, xzr
.Lunix_path_BB3_648:
	ldrb	w2, [x18, x1]
	cmp	w2, #32
	b.eq	.Lunix_path_BB3_656
	add	x1, x1, #1
	mov	x3, x17
	cmp	x0, x1
	b.ne	.Lunix_path_BB3_648
	b	.Lunix_path_BB3_678
.Lunix_path_BB3_650:
	subs	x1, x0, #16
	b.eq	.Lunix_path_BB3_654
	mov	x2, xzr
.Lunix_path_BB3_652:
	movi	v0.16b, #32
	ldr	q1, [x18, x2]
	adrp	x3, .Lunix_path_CPI3_0
	cmeq	v0.16b, v1.16b, v0.16b
	ldr	q1, [x3, :lo12:.Lunix_path_CPI3_0]
	and	v0.16b, v0.16b, v1.16b
	addp	v0.16b, v0.16b, v0.16b
	addp	v0.16b, v0.16b, v0.16b
	addp	v0.16b, v0.16b, v0.16b
	umov	w3, v0.h[0]
	orr	w3, w3, #0x10000
	rbit	w3, w3
	clz	w3, w3
	cmp	w3, #15
	b.ls	.Lunix_path_BB3_655
	add	x2, x2, #16
	cmp	x2, x1
	b.lo	.Lunix_path_BB3_652
.Lunix_path_BB3_654:
	movi	v0.16b, #32
	ldr	q1, [x18, x1]
	adrp	x2, .Lunix_path_CPI3_0
	cmeq	v0.16b, v1.16b, v0.16b
	ldr	q1, [x2, :lo12:.Lunix_path_CPI3_0]
	and	v0.16b, v0.16b, v1.16b
	addp	v0.16b, v0.16b, v0.16b
	addp	v0.16b, v0.16b, v0.16b
	addp	v0.16b, v0.16b, v0.16b
	umov	w2, v0.h[0]
	orr	w2, w2, #0x10000
	rbit	w2, w2
	clz	w2, w2
	add	x1, x1, x2
	b	.Lunix_path_BB3_656
.Lunix_path_BB3_655:
	add	x1, x2, w3, uxtw
.Lunix_path_BB3_656:
	cmp	x1, x0
	mov	x3, x17
	csinc	x2, x0, x1, hs
	b.hs	.Lunix_path_BB3_678
	add	x4, x1, #1
	cmp	x0, x4
	b.eq	.Lunix_path_BB3_678
	add	x16, x1, x16
	add	x18, x18, x2
	sub	x16, x16, x13
	add	x16, x16, #1
.Lunix_path_BB3_659:
	ldrb	w0, [x18], #1
	cmp	w0, #32
	b.ne	.Lunix_path_BB3_661
	adds	x16, x16, #1
	mov	x3, x17
	b.lo	.Lunix_path_BB3_659
	b	.Lunix_path_BB3_678
.Lunix_path_BB3_661:
	mov	x3, x17
	cbz	x16, .Lunix_path_BB3_678
.Lunix_path_BB3_662:
	cbz	x12, .Lunix_path_BB3_853
.Lunix_path_BB3_663:
	add	x16, x9, x10
	mov	x17, x12
.Lunix_path_BB3_664:
	cbz	x17, .Lunix_path_BB3_671
	ldrb	w18, [x16], #1
	sub	x17, x17, #1
	sub	w18, w18, #48
	cmp	w18, #10
	b.lo	.Lunix_path_BB3_664
	subs	x12, x12, #1
	b.eq	.Lunix_path_BB3_853
	ldrb	w11, [x11]
	cmp	w11, #45
	b.ne	.Lunix_path_BB3_853
	add	x9, x9, x10
	add	x9, x9, #1
.Lunix_path_BB3_669:
	cbz	x12, .Lunix_path_BB3_671
	ldrb	w10, [x9], #1
	sub	x12, x12, #1
	sub	w10, w10, #48
	cmp	w10, #10
	b.lo	.Lunix_path_BB3_669
	b	.Lunix_path_BB3_853
.Lunix_path_BB3_671:
	cbz	x13, .Lunix_path_BB3_678
	mov	x9, xzr
.Lunix_path_BB3_673:
	ldrb	w10, [x15, x9]
	cmp	w10, #32
	b.ne	.Lunix_path_BB3_676
	add	x9, x9, #1
	cmp	x13, x9
	b.ne	.Lunix_path_BB3_673
	mov	x9, x14
.Lunix_path_BB3_676:
	cbz	x8, .Lunix_path_BB3_853
	cmp	x13, x9
	b.eq	.Lunix_path_BB3_679
	b	.Lunix_path_BB3_853
.Lunix_path_BB3_678:
	cbz	x8, .Lunix_path_BB3_853
.Lunix_path_BB3_679:
	add	x8, x22, x23
	ldurb	w8, [x8, #-1]
	cmp	w8, #32
	b.ne	.Lunix_path_BB3_853
	add	x8, sp, #16, lsl #12
	add	x8, x8, #752
	ldp	x8, x9, [x8, #136]
	cmp	x9, x8
	b.eq	.Lunix_path_BB3_692
.Lunix_path_BB3_681:
	mov	x13, #26212
	add	x14, sp, #16, lsl #12
	lsl	w12, w21, #3
	movk	x13, #26732, lsl #16
	add	x14, x14, #752
	add	x10, x8, #1
	movk	x13, #111, lsl #32
	ldr	x11, [x14, #128]
	cmp	x9, x10
	lsr	x12, x13, x12
	str	x10, [x14, #136]
	strb	w12, [x11, x8]
	b.eq	.Lunix_path_BB3_694
.Lunix_path_BB3_682:
	add	x8, x23, #1
	add	x24, sp, #16, lsl #12
	add	x19, x10, #1
	sub	x2, x3, x8
	add	x24, x24, #752
	sub	x0, x29, #144
	add	x1, x22, x8
	sub	x3, x29, #208
	strb	wzr, [x11, x10]
	str	x19, [x24, #136]
	bl	tar_listing.text.push_text
	ldrb	w8, [x24, #192]
	cbnz	w8, .Lunix_path_BB3_1078
	ldrb	w8, [x24, #200]
	add	x9, sp, #16, lsl #12
	add	x9, x9, #752
	cmp	w8, #1
	b.ne	.Lunix_path_BB3_853
	ldr	x8, [x9, #136]
	cmp	x8, x19
	b.eq	.Lunix_path_BB3_853
	add	x24, sp, #16, lsl #12
	sub	x0, x29, #208
	mov	w1, wzr
	add	x24, x24, #752
	ldp	x22, x23, [x24, #208]
	bl	std_alloc.vec.Vec.push.2b9b8e146aca54c4.
	tst	w0, #0xff
	b.ne	.Lunix_path_BB3_1078
	sub	x0, x29, #144
	sub	x4, x29, #208
	mov	w1, w21
	mov	x2, x22
	mov	x3, x23
	bl	tar_listing.entry.push_target
	ldrb	w8, [x24, #192]
	cbnz	w8, .Lunix_path_BB3_1078
	ldrb	w8, [x24, #200]
	cmp	w8, #1
	b.ne	.Lunix_path_BB3_853
	add	x24, sp, #16, lsl #12
	sub	x0, x29, #208
	mov	w1, wzr
	add	x24, x24, #752
	ldp	x19, x20, [x24, #208]
	bl	std_alloc.vec.Vec.push.2b9b8e146aca54c4.
	tst	w0, #0xff
	b.ne	.Lunix_path_BB3_1078
	cbz	x20, .Lunix_path_BB3_853
	ldrb	w8, [x19]
	cmp	w8, #10
	b.ne	.Lunix_path_BB3_853
	add	x23, sp, #16, lsl #12
	subs	x3, x20, #1
	add	x22, x19, #1
	add	x26, x26, #1
	add	x23, x23, #464
	b.ne	.Lunix_path_BB3_301
	b	.Lunix_path_BB3_1081
.Lunix_path_BB3_692:
	sub	x0, x29, #208
	mov	x19, x3
	bl	std_alloc.vec.Vec.grow_amortized.2b9b8e146aca54c4.
	add	x24, sp, #16, lsl #12
	add	x24, x24, #752
	cbz	w0, .Lunix_path_BB3_1078
	ldp	x8, x9, [x24, #136]
	mov	x3, x19
	b	.Lunix_path_BB3_681
.Lunix_path_BB3_694:
	sub	x0, x29, #208
	mov	x19, x3
	bl	std_alloc.vec.Vec.grow_amortized.2b9b8e146aca54c4.
	add	x24, sp, #16, lsl #12
	add	x24, x24, #752
	cbz	w0, .Lunix_path_BB3_1078
	ldp	x11, x10, [x24, #128]
	mov	x3, x19
	b	.Lunix_path_BB3_682
.Lunix_path_BB3_696:
	add	x20, sp, #16, lsl #12
	mov	x0, x26
	mov	x1, x23
	add	x20, x20, #464
	add	x22, sp, #208
	stp	xzr, xzr, [x20, #288]
	str	xzr, [x20, #304]
	bl	upath_commands.options.command_by_name
	movi	v0.2d, #0000000000000000
	and	w8, w0, #0xff
	str	xzr, [sp, #496]
	cmp	w8, #1
	cset	w24, ne
	mov	w21, w24
	b	.Lunix_path_BB3_255
.Lunix_path_BB3_697:
	add	x8, x25, #1
	mov	x9, x28
	str	x27, [sp, #16]
	b	.Lunix_path_BB3_699
.Lunix_path_BB3_698:
	subs	x9, x9, #1
	add	x8, x8, #24
	b.eq	.Lunix_path_BB3_815
.Lunix_path_BB3_699:
	ldurb	w10, [x8, #-1]
	cmp	w10, #2
	b.ne	.Lunix_path_BB3_698
	ldrb	w10, [x8]
	cbnz	w10, .Lunix_path_BB3_698
	b	.Lunix_path_BB3_977
.Lunix_path_BB3_701:
	ldr	x19, [sp, #24]
	b	.Lunix_path_BB3_703
.Lunix_path_BB3_702:
	subs	x20, x20, #1
	add	x19, x19, #32
	b.eq	.Lunix_path_BB3_707
.Lunix_path_BB3_703:
	ldr	x8, [x19, #8]
	cmp	x8, x23
	b.ne	.Lunix_path_BB3_702
	ldr	x0, [x19]
	ldr	w9, [x26]
	ldr	w8, [x0]
	cmp	w8, w9
	b.ne	.Lunix_path_BB3_702
	mov	x1, x23
	mov	x2, x26
	bl	core.cmp.slices.groups_equal.i8.31.core.cmp.numbers.U8PartialEq.
	cbz	w0, .Lunix_path_BB3_702
.Lunix_path_BB3_706:
	ldp	x1, x2, [x19, #16]
	b	.Lunix_path_BB3_708
.Lunix_path_BB3_707:
	ldp	x2, x1, [sp, #32]
.Lunix_path_BB3_708:
	mov	x20, x27
	ldp	x8, x19, [x20, #24]!
	sub	x9, x19, x8
	cmp	x2, x9
	b.hi	.Lunix_path_BB3_907
.Lunix_path_BB3_709:
	ldr	x21, [x27, #16]
	add	x22, x8, x2
	stp	xzr, xzr, [x20]
	add	x0, x21, x8
	sub	x9, x0, x1
	cmp	x9, x2
	b.hs	.Lunix_path_BB3_715
	cmp	x2, #8
	b.lo	.Lunix_path_BB3_712
	add	x9, x8, x21
	sub	x9, x9, x1
	cmp	x9, #32
	b.hs	.Lunix_path_BB3_851
.Lunix_path_BB3_712:
	mov	x9, xzr
.Lunix_path_BB3_713:
	add	x10, x9, x8
	sub	x8, x2, x9
	add	x9, x1, x9
	add	x10, x21, x10
.Lunix_path_BB3_714:
	ldrb	w11, [x9], #1
	subs	x8, x8, #1
	strb	w11, [x10], #1
	b.ne	.Lunix_path_BB3_714
	b	.Lunix_path_BB3_716
.Lunix_path_BB3_715:
	bl	memmove
.Lunix_path_BB3_716:
	mov	w20, wzr
	stp	x21, x22, [x27, #16]
	mov	w1, #1
	str	x19, [x27, #32]
.Lunix_path_BB3_717:
	tst	w20, #0xff
	b.ne	.Lunix_path_BB3_719
	mov	x0, x27
	mov	w20, w1
	bl	upath_commands.output.Output.write_out.0c02296ad0e184a5.
	tst	w0, #0xff
	b.eq	.Lunix_path_BB3_731
.Lunix_path_BB3_719:
	ldrb	w19, [sp, #208]
	subs	w8, w19, #2
	b.lo	.Lunix_path_BB3_725
	cmp	w8, #2
	b.hs	.Lunix_path_BB3_723
	ldrb	w8, [sp, #211]
	tbz	w8, #0, .Lunix_path_BB3_725
.Lunix_path_BB3_722:
	mov	w0, #1
	b	.Lunix_path_BB3_944
.Lunix_path_BB3_723:
	ldrb	w8, [sp, #219]
	tbz	w8, #0, .Lunix_path_BB3_725
	mov	w0, #1
	b	.Lunix_path_BB3_733
.Lunix_path_BB3_725:
	and	w8, w1, #0xff
	cmp	w8, #1
	b.le	.Lunix_path_BB3_729
	cmp	w8, #2
	mov	w0, #1
	b.eq	.Lunix_path_BB3_732
	cmp	w8, #3
	b.ne	.Lunix_path_BB3_732
	adrp	x1, .Lunix_path_static.106
	add	x1, x1, :lo12:.Lunix_path_static.106
	add	x0, x27, #40
	mov	w2, #21
	bl	upath_commands.messages.send.5821a58b74a7d609.
	mov	w1, #3
	mov	w0, #1
	cmp	w19, #4
	b.eq	.Lunix_path_BB3_733
	b	.Lunix_path_BB3_944
.Lunix_path_BB3_729:
	cbnz	w8, .Lunix_path_BB3_736
	adrp	x1, .Lunix_path_static.104
	add	x1, x1, :lo12:.Lunix_path_static.104
	add	x0, x27, #40
	mov	w2, #18
	bl	upath_commands.messages.send.5821a58b74a7d609.
	mov	w1, wzr
	mov	w0, #1
	cmp	w19, #4
	b.eq	.Lunix_path_BB3_733
	b	.Lunix_path_BB3_944
.Lunix_path_BB3_731:
	mov	w8, #1
	ldrb	w19, [sp, #208]
	mov	w0, wzr
	strb	w8, [x27, #10]
	bic	w1, w8, w20
.Lunix_path_BB3_732:
	cmp	w19, #4
	b.ne	.Lunix_path_BB3_944
.Lunix_path_BB3_733:
	ldrb	w8, [sp, #272]
	cmp	w8, #1
	b.ne	.Lunix_path_BB3_944
	ldr	x8, [sp, #296]
	cbz	x8, .Lunix_path_BB3_944
	ldr	x8, [sp, #280]
	mov	w19, w0
	mov	w20, w1
	mov	x0, x8
	bl	rattle_dealloc
	mov	w0, w19
	mov	w1, w20
	b	.Lunix_path_BB3_944
.Lunix_path_BB3_736:
	adrp	x1, .Lunix_path_static.105
	add	x1, x1, :lo12:.Lunix_path_static.105
	add	x0, x27, #40
	mov	w2, #19
	bl	upath_commands.messages.send.5821a58b74a7d609.
	mov	w0, #1
	mov	w1, #1
	cmp	w19, #4
	b.eq	.Lunix_path_BB3_733
	b	.Lunix_path_BB3_944
.Lunix_path_BB3_737:
	cmp	x9, x8
	add	x20, sp, #208
	b.eq	.Lunix_path_BB3_968
.Lunix_path_BB3_738:
	mov	w9, #24
	ldr	x10, [sp, #464]
	adrp	x11, .Lunix_path_static.42
	add	x11, x11, :lo12:.Lunix_path_static.42
	madd	x9, x8, x9, x10
	mov	w10, #1285
	strh	w10, [x9]
	mov	w10, #6
	stp	x11, x10, [x9, #8]
	add	x28, x8, #1
	ldr	x8, [sp, #480]
	ldr	x25, [sp, #464]
	cbnz	x28, .Lunix_path_BB3_13
	b	.Lunix_path_BB3_242
.Lunix_path_BB3_739:
	cmp	w25, #18
	add	x1, sp, #464
	mov	x3, x20
	cset	w8, eq
	mov	x4, x27
	stp	xzr, xzr, [sp, #480]
	stp	x8, xzr, [sp, #464]
	add	x8, sp, #208
	orr	x0, x8, #0x8
	bl	upath_commands.engine.answer_paths.3596f8ae3b0ff399.
	ldrb	w8, [sp, #464]
	mov	w20, w0
	cmp	w8, #1
	b.ne	.Lunix_path_BB3_860
	ldrb	w8, [sp, #472]
	cmp	w8, #1
	b.ne	.Lunix_path_BB3_860
	ldr	x0, [sp, #480]
	mov	w19, w1
	bl	std_collections.btree.node.Node.destroy.793632148a6f265d.
	mov	w1, w19
	b	.Lunix_path_BB3_860
.Lunix_path_BB3_742:
	cmp	w25, #18
	add	x0, sp, #464
	mov	w1, wzr
	cset	w8, eq
	mov	w2, #65536
	mov	x19, x27
	stp	x8, xzr, [x22]
	mov	w8, #1
	add	x21, sp, #464
	tst	w8, w26, lsr #8
	mov	w8, #10
	stp	xzr, xzr, [x22, #16]
	stp	xzr, xzr, [x23, #96]
	csel	w24, wzr, w8, ne
	bl	memset
	dup	v2.16b, w24
	mov	x22, xzr
	mov	x27, xzr
	mov	x25, xzr
	sub	x20, x29, #24
	add	x8, x21, #16
	adrp	x26, .Lunix_path_CPI3_0
	stp	xzr, xzr, [x23, #248]
	str	x20, [x23, #240]
	str	x8, [sp, #64]
	str	q2, [sp, #80]
	b	.Lunix_path_BB3_746
.Lunix_path_BB3_743:
	bl	memmove
.Lunix_path_BB3_744:
	add	x23, sp, #16, lsl #12
	add	x23, x23, #464
.Lunix_path_BB3_745:
	add	x25, x25, #1
	mov	x22, x28
	stp	x28, x27, [x23, #248]
	cmn	x25, #1
	b.eq	.Lunix_path_BB3_915
.Lunix_path_BB3_746:
	mov	x0, x19
	bl	upath_commands.output.Output.write_out.0c02296ad0e184a5.
	tst	w0, #0xff
	b.ne	.Lunix_path_BB3_879
	add	x0, sp, #16, lsl #12
	ldr	x1, [sp, #72]
	add	x2, sp, #464
	add	x0, x0, #560
	bl	upath_commands.input.read_some.909299a5b5e629dc.
	ldrb	w8, [x23, #96]
	ldr	x9, [x23, #104]
	cmp	w8, #0
	csel	x21, x9, xzr, eq
	cbnz	w8, .Lunix_path_BB3_911
	cbz	x9, .Lunix_path_BB3_913
	ldr	q2, [sp, #80]
	sub	x8, x9, #1
.Lunix_path_BB3_750:
	cmp	x9, #15
	b.ls	.Lunix_path_BB3_759
	add	x10, sp, #464
	ldr	q1, [x26, :lo12:.Lunix_path_CPI3_0]
	sub	x8, x8, #16
	add	x10, x10, x9
	ldur	q0, [x10, #-16]
	sub	x10, x9, #16
	mov	x9, x10
	cmeq	v0.16b, v0.16b, v2.16b
	and	v0.16b, v0.16b, v1.16b
	addp	v0.16b, v0.16b, v0.16b
	addp	v0.16b, v0.16b, v0.16b
	addp	v0.16b, v0.16b, v0.16b
	umov	w11, v0.h[0]
	cbz	w11, .Lunix_path_BB3_750
	umov	w8, v0.h[0]
	add	x9, sp, #16, lsl #12
	add	x9, x9, #464
	and	x8, x8, #0xffff
	clz	x8, x8
	sub	x8, x10, x8
	add	x23, x8, #64
	sub	x8, x27, x22
	cmp	x23, x8
	b.hi	.Lunix_path_BB3_762
.Lunix_path_BB3_753:
	ldr	x20, [x9, #240]
	add	x9, sp, #464
	add	x8, x20, x22
	sub	x8, x8, x9
	cmp	x8, x23
	b.hs	.Lunix_path_BB3_764
.Lunix_path_BB3_754:
	cmp	x23, #8
	b.lo	.Lunix_path_BB3_756
	add	x8, sp, #464
	sub	x8, x22, x8
	add	x8, x8, x20
	cmp	x8, #32
	b.hs	.Lunix_path_BB3_783
.Lunix_path_BB3_756:
	mov	x8, xzr
.Lunix_path_BB3_757:
	add	x10, sp, #464
	add	x11, x8, x22
	sub	x9, x23, x8
	add	x8, x10, x8
	add	x10, x20, x11
.Lunix_path_BB3_758:
	ldrb	w11, [x8], #1
	subs	x9, x9, #1
	strb	w11, [x10], #1
	b.ne	.Lunix_path_BB3_758
	b	.Lunix_path_BB3_765
.Lunix_path_BB3_759:
	cmn	x8, #1
	b.eq	.Lunix_path_BB3_776
	add	x9, sp, #464
	ldrb	w9, [x9, x8]
	sub	x8, x8, #1
	cmp	w9, w24
	b.ne	.Lunix_path_BB3_759
	add	x9, sp, #16, lsl #12
	add	x23, x8, #2
	add	x9, x9, #464
	sub	x8, x27, x22
	cmp	x23, x8
	b.ls	.Lunix_path_BB3_753
.Lunix_path_BB3_762:
	add	x0, sp, #16, lsl #12
	mov	x1, x23
	add	x0, x0, #704
	bl	std_alloc.vec.Vec.grow_amortized.f4a78633ca2a48c6.
	cbz	w0, .Lunix_path_BB3_1074
	add	x8, sp, #16, lsl #12
	add	x9, sp, #16, lsl #12
	add	x8, x8, #464
	add	x9, x9, #464
	ldp	x22, x27, [x8, #248]
	ldr	x20, [x9, #240]
	add	x9, sp, #464
	add	x8, x20, x22
	sub	x8, x8, x9
	cmp	x8, x23
	b.lo	.Lunix_path_BB3_754
.Lunix_path_BB3_764:
	add	x0, x20, x22
	add	x1, sp, #464
	mov	x2, x23
	bl	memmove
.Lunix_path_BB3_765:
	add	x8, sp, #16, lsl #12
	add	x22, x22, x23
	add	x1, sp, #16, lsl #12
	add	x8, x8, #464
	add	x28, sp, #16, lsl #12
	add	x1, x1, #752
	stp	x22, x27, [x8, #248]
	add	x8, sp, #208
	mov	x2, x20
	orr	x0, x8, #0x8
	mov	x3, x22
	mov	x4, x19
	add	x28, x28, #464
	bl	upath_commands.engine.answer_records.3596f8ae3b0ff399.
	tst	w0, #0xff
	b.ne	.Lunix_path_BB3_879
	cbz	x22, .Lunix_path_BB3_768
	str	xzr, [x28, #248]
.Lunix_path_BB3_768:
	sub	x2, x21, x23
	cmp	x2, x27
	b.hi	.Lunix_path_BB3_801
	mov	x8, xzr
.Lunix_path_BB3_770:
	add	x9, sp, #464
	add	x0, x20, x8
	add	x28, x8, x2
	add	x1, x9, x23
	sub	x9, x0, x1
	cmp	x9, x2
	b.hs	.Lunix_path_BB3_743
	cmp	x2, #8
	b.lo	.Lunix_path_BB3_773
	add	x9, sp, #464
	add	x10, x8, x20
	add	x9, x23, x9
	sub	x9, x10, x9
	cmp	x9, #32
	b.hs	.Lunix_path_BB3_785
.Lunix_path_BB3_773:
	mov	x9, xzr
.Lunix_path_BB3_774:
	add	x11, x9, x23
	add	x12, sp, #464
	add	x8, x9, x8
	sub	x10, x11, x21
	add	x11, x12, x11
.Lunix_path_BB3_775:
	ldrb	w9, [x11], #1
	adds	x10, x10, #1
	strb	w9, [x20, x8]
	add	x8, x8, #1
	b.lo	.Lunix_path_BB3_775
	b	.Lunix_path_BB3_744
.Lunix_path_BB3_776:
	sub	x8, x27, x22
	cmp	x21, x8
	b.hi	.Lunix_path_BB3_812
	add	x0, x20, x22
	add	x8, sp, #464
	add	x28, x22, x21
	sub	x8, x0, x8
	cmp	x8, x21
	b.hs	.Lunix_path_BB3_814
.Lunix_path_BB3_778:
	cmp	x21, #8
	b.lo	.Lunix_path_BB3_780
	add	x8, sp, #464
	sub	x8, x22, x8
	add	x8, x8, x20
	cmp	x8, #32
	b.hs	.Lunix_path_BB3_803
.Lunix_path_BB3_780:
	mov	x8, xzr
.Lunix_path_BB3_781:
	add	x10, sp, #464
	sub	x9, x21, x8
	add	x10, x10, x8
	add	x8, x8, x22
.Lunix_path_BB3_782:
	ldrb	w11, [x10], #1
	subs	x9, x9, #1
	strb	w11, [x20, x8]
	add	x8, x8, #1
	b.ne	.Lunix_path_BB3_782
	b	.Lunix_path_BB3_745
.Lunix_path_BB3_783:
	cmp	x23, #32
	b.hs	.Lunix_path_BB3_787
	mov	x8, xzr
	b	.Lunix_path_BB3_791
.Lunix_path_BB3_785:
	cmp	x2, #32
	b.hs	.Lunix_path_BB3_794
	mov	x9, xzr
	b	.Lunix_path_BB3_798
.Lunix_path_BB3_787:
	add	x10, x20, x22
	ldr	x11, [sp, #64]
	and	x9, x23, #0x18
	and	x8, x23, #0xffffffffffffffe0
	add	x10, x10, #16
	and	x12, x23, #0xffffffffffffffe0
.Lunix_path_BB3_788:
	ldp	q0, q1, [x11, #-16]
	subs	x12, x12, #32
	add	x11, x11, #32
	stp	q0, q1, [x10, #-16]
	add	x10, x10, #32
	b.ne	.Lunix_path_BB3_788
	cmp	x23, x8
	b.eq	.Lunix_path_BB3_765
	cbz	x9, .Lunix_path_BB3_757
.Lunix_path_BB3_791:
	mov	x10, x8
	and	x8, x23, #0xfffffffffffffff8
	add	x11, sp, #464
	add	x12, x22, x10
	sub	x9, x10, x8
	add	x10, x11, x10
	add	x11, x20, x12
.Lunix_path_BB3_792:
	ldr	d0, [x10], #8
	adds	x9, x9, #8
	str	d0, [x11], #8
	b.ne	.Lunix_path_BB3_792
	cmp	x23, x8
	b.eq	.Lunix_path_BB3_765
	b	.Lunix_path_BB3_757
.Lunix_path_BB3_794:
	ldr	x11, [sp, #64]
	add	x12, x20, x8
	and	x10, x2, #0x18
	and	x9, x2, #0xffffffffffffffe0
	add	x12, x12, #16
	and	x13, x2, #0xffffffffffffffe0
	add	x11, x11, x23
.Lunix_path_BB3_795:
	ldp	q0, q1, [x11, #-16]
	subs	x13, x13, #32
	add	x11, x11, #32
	stp	q0, q1, [x12, #-16]
	add	x12, x12, #32
	b.ne	.Lunix_path_BB3_795
	cmp	x2, x9
	b.eq	.Lunix_path_BB3_744
	cbz	x10, .Lunix_path_BB3_774
.Lunix_path_BB3_798:
	mov	x12, x9
	and	x9, x2, #0xfffffffffffffff8
	add	x13, sp, #464
	add	x11, x12, x23
	sub	x10, x12, x9
	add	x12, x8, x12
	add	x11, x13, x11
.Lunix_path_BB3_799:
	ldr	d0, [x11], #8
	adds	x10, x10, #8
	str	d0, [x20, x12]
	add	x12, x12, #8
	b.ne	.Lunix_path_BB3_799
	cmp	x2, x9
	b.eq	.Lunix_path_BB3_744
	b	.Lunix_path_BB3_774
.Lunix_path_BB3_801:
	add	x0, sp, #16, lsl #12
	sub	x1, x21, x23
	add	x0, x0, #704
	bl	std_alloc.vec.Vec.grow_amortized.f4a78633ca2a48c6.
	add	x9, sp, #16, lsl #12
	add	x9, x9, #464
	cbz	w0, .Lunix_path_BB3_1075
	ldp	x8, x27, [x9, #248]
	sub	x2, x21, x23
	ldr	x20, [x9, #240]
	b	.Lunix_path_BB3_770
.Lunix_path_BB3_803:
	cmp	x21, #32
	b.hs	.Lunix_path_BB3_805
	mov	x8, xzr
	b	.Lunix_path_BB3_809
.Lunix_path_BB3_805:
	add	x10, x20, x22
	ldr	x11, [sp, #64]
	and	x9, x21, #0x18
	and	x8, x21, #0xffffffffffffffe0
	add	x10, x10, #16
	and	x12, x21, #0xffffffffffffffe0
.Lunix_path_BB3_806:
	ldp	q0, q1, [x11, #-16]
	subs	x12, x12, #32
	add	x11, x11, #32
	stp	q0, q1, [x10, #-16]
	add	x10, x10, #32
	b.ne	.Lunix_path_BB3_806
	cmp	x21, x8
	b.eq	.Lunix_path_BB3_745
	cbz	x9, .Lunix_path_BB3_781
.Lunix_path_BB3_809:
	mov	x11, x8
	and	x8, x21, #0xfffffffffffffff8
	add	x10, sp, #464
	sub	x9, x11, x8
	add	x10, x10, x11
	add	x11, x22, x11
.Lunix_path_BB3_810:
	ldr	d0, [x10], #8
	adds	x9, x9, #8
	str	d0, [x20, x11]
	add	x11, x11, #8
	b.ne	.Lunix_path_BB3_810
	cmp	x21, x8
	b.eq	.Lunix_path_BB3_745
	b	.Lunix_path_BB3_781
.Lunix_path_BB3_812:
	add	x0, sp, #16, lsl #12
	mov	x1, x21
	add	x0, x0, #704
	bl	std_alloc.vec.Vec.grow_amortized.f4a78633ca2a48c6.
	cbz	w0, .Lunix_path_BB3_1077
	ldp	x22, x27, [x23, #248]
	ldr	x20, [x23, #240]
	add	x0, x20, x22
	add	x8, sp, #464
	add	x28, x22, x21
	sub	x8, x0, x8
	cmp	x8, x21
	b.lo	.Lunix_path_BB3_778
.Lunix_path_BB3_814:
	add	x1, sp, #464
	mov	x2, x21
	bl	memmove
	b	.Lunix_path_BB3_745
.Lunix_path_BB3_815:
	cbz	x21, .Lunix_path_BB3_830
	mov	x8, xzr
	b	.Lunix_path_BB3_820
.Lunix_path_BB3_817:
	movi	v0.16b, #10
	ldr	q1, [x22, x9]
	adrp	x10, .Lunix_path_CPI3_0
	cmeq	v0.16b, v1.16b, v0.16b
	ldr	q1, [x10, :lo12:.Lunix_path_CPI3_0]
	and	v0.16b, v0.16b, v1.16b
	addp	v0.16b, v0.16b, v0.16b
	addp	v0.16b, v0.16b, v0.16b
	addp	v0.16b, v0.16b, v0.16b
	umov	w10, v0.h[0]
	orr	w10, w10, #0x10000
	rbit	w10, w10
	clz	w10, w10
	add	x9, x9, x10
.Lunix_path_BB3_818:
	cmp	x9, x27
	b.lo	.Lunix_path_BB3_974
.Lunix_path_BB3_819:
	add	x8, x8, #1
	cmp	x8, x21
	b.eq	.Lunix_path_BB3_830
.Lunix_path_BB3_820:
	add	x9, x20, x8, lsl #4
	ldp	x22, x27, [x9]
	cmp	x27, #15
	b.hi	.Lunix_path_BB3_824
	mov	x9, xzr
	cbz	x27, .Lunix_path_BB3_818
.Lunix_path_BB3_822:
	ldrb	w10, [x22, x9]
	cmp	w10, #10
	b.eq	.Lunix_path_BB3_818
	add	x9, x9, #1
	cmp	x27, x9
	b.ne	.Lunix_path_BB3_822
	b	.Lunix_path_BB3_819
.Lunix_path_BB3_824:
	subs	x9, x27, #16
	b.eq	.Lunix_path_BB3_817
	mov	x10, xzr
.Lunix_path_BB3_826:
	movi	v0.16b, #10
	ldr	q1, [x22, x10]
	adrp	x11, .Lunix_path_CPI3_0
	cmeq	v0.16b, v1.16b, v0.16b
	ldr	q1, [x11, :lo12:.Lunix_path_CPI3_0]
	and	v0.16b, v0.16b, v1.16b
	addp	v0.16b, v0.16b, v0.16b
	addp	v0.16b, v0.16b, v0.16b
	addp	v0.16b, v0.16b, v0.16b
	umov	w11, v0.h[0]
	orr	w11, w11, #0x10000
	rbit	w11, w11
	clz	w11, w11
	cmp	w11, #15
	b.ls	.Lunix_path_BB3_828
	add	x10, x10, #16
	cmp	x10, x9
	b.lo	.Lunix_path_BB3_826
	b	.Lunix_path_BB3_817
.Lunix_path_BB3_828:
	add	x9, x10, w11, uxtw
	b	.Lunix_path_BB3_818
.Lunix_path_BB3_829:
	ldr	w9, [x8]
	ldrb	w8, [x8, #4]
	add	x1, sp, #16, lsl #12
	add	x0, sp, #464
	add	x1, x1, #624
	strh	w28, [x23, #160]
	strb	w27, [x23, #162]
	add	x19, sp, #464
	stur	w10, [x23, #163]
	strb	w25, [x23, #167]
	str	w9, [x23, #168]
	strb	w8, [x23, #172]
	bl	upath_commands.archive.decide_records
	ldp	x22, x23, [sp, #472]
	ldrb	w26, [sp, #520]
	ldp	x25, x21, [sp, #488]
	ldr	x27, [sp, #16]
	ldp	x2, x24, [sp, #504]
	ldrb	w8, [x19]
	cbnz	w8, .Lunix_path_BB3_948
	b	.Lunix_path_BB3_951
.Lunix_path_BB3_830:
	mov	x22, xzr
	mov	x27, xzr
	mov	x9, xzr
	neg	x8, x28
	mov	w10, #1
.Lunix_path_BB3_831:
	mov	w11, #24
	madd	x11, x9, x11, x25
	add	x9, x9, #1
	b	.Lunix_path_BB3_833
.Lunix_path_BB3_832:
	add	x9, x9, #1
	add	x11, x11, #24
	add	x12, x8, x9
	cmp	x12, #1
	b.eq	.Lunix_path_BB3_836
.Lunix_path_BB3_833:
	ldrb	w12, [x11]
	cmp	w12, #3
	b.ne	.Lunix_path_BB3_832
	ldrb	w12, [x11, #1]
	cmp	w12, #3
	b.ne	.Lunix_path_BB3_832
	ldp	x22, x27, [x11, #8]
	cmn	x8, x9
	mov	w10, wzr
	b.ne	.Lunix_path_BB3_831
	b	.Lunix_path_BB3_837
.Lunix_path_BB3_836:
	tbnz	w10, #0, .Lunix_path_BB3_977
.Lunix_path_BB3_837:
	cmp	x27, #15
	b.hi	.Lunix_path_BB3_930
	mov	x8, xzr
	cbz	x27, .Lunix_path_BB3_973
.Lunix_path_BB3_839:
	ldrb	w9, [x22, x8]
	cmp	w9, #10
	b.eq	.Lunix_path_BB3_973
	add	x8, x8, #1
	cmp	x27, x8
	b.ne	.Lunix_path_BB3_839
	b	.Lunix_path_BB3_977
.Lunix_path_BB3_841:
	ldp	x9, x8, [sp, #472]
	cmp	x8, x9
	b.eq	.Lunix_path_BB3_1018
.Lunix_path_BB3_842:
	mov	w10, #24
	ldr	x8, [sp, #464]
	mov	w11, #1
	madd	x10, x9, x10, x8
	add	x12, x23, #1
	add	x28, x9, #1
	cmp	x25, x12
	strh	w11, [x10]
	mov	w11, #2
	stp	x27, x11, [x10, #8]
	str	x28, [sp, #472]
	b.ne	.Lunix_path_BB3_883
	ldr	x27, [sp, #16]
	add	x23, sp, #16, lsl #12
	add	x23, x23, #464
.Lunix_path_BB3_844:
	ldr	x8, [sp, #480]
	add	x20, sp, #208
	ldr	x25, [sp, #464]
	cbnz	x28, .Lunix_path_BB3_13
	b	.Lunix_path_BB3_242
.Lunix_path_BB3_845:
	mov	w21, #1
	mov	w24, #1
.Lunix_path_BB3_846:
	ldr	x8, [sp, #80]
	cbz	x8, .Lunix_path_BB3_848
	mov	x0, x25
	bl	rattle_dealloc
.Lunix_path_BB3_848:
	movi	v0.2d, #0000000000000000
	mov	x28, xzr
	mov	x19, xzr
	str	xzr, [sp, #192]
	stp	xzr, xzr, [sp, #136]
	str	xzr, [sp, #128]
	stp	q0, q0, [sp, #160]
	cbz	w24, .Lunix_path_BB3_256
	b	.Lunix_path_BB3_943
.Lunix_path_BB3_849:
	cmp	x2, #32
	b.hs	.Lunix_path_BB3_891
	mov	x9, xzr
	b	.Lunix_path_BB3_895
.Lunix_path_BB3_851:
	cmp	x2, #32
	b.hs	.Lunix_path_BB3_898
	mov	x9, xzr
	b	.Lunix_path_BB3_902
.Lunix_path_BB3_853:
	add	x19, sp, #16, lsl #12
	ldr	x27, [sp, #16]
	add	x20, sp, #16, lsl #12
	add	x19, x19, #752
	add	x20, x20, #464
	ldr	x8, [x19, #144]
	cbz	x8, .Lunix_path_BB3_855
	ldr	x0, [x19, #128]
	bl	rattle_dealloc
.Lunix_path_BB3_855:
	movi	v0.2d, #0000000000000000
	adrp	x8, .Lunix_path_static.80
	add	x8, x8, :lo12:.Lunix_path_static.80
	mov	w9, #12
	sub	x0, x29, #208
	sub	x1, x29, #144
	stp	x8, x9, [x19, #192]
	add	x8, sp, #16, lsl #12
	adrp	x9, .Lunix_path_static.81
	add	x9, x9, :lo12:.Lunix_path_static.81
	add	x8, x8, #496
	str	x26, [x20, #32]
	stp	x8, x9, [x19, #208]
	mov	w8, #30
	stp	q0, q0, [x19, #128]
	str	x8, [x19, #224]
	bl	std_alloc.string.String.format.7c436104ea11042b.
	ldrb	w8, [x19, #128]
	add	x20, sp, #16, lsl #12
	add	x20, x20, #752
	cbz	w8, .Lunix_path_BB3_926
.Lunix_path_BB3_856:
	ldr	x20, [sp, #72]
	b	.Lunix_path_BB3_948
.Lunix_path_BB3_857:
	add	x19, sp, #16, lsl #12
	mov	x22, xzr
	sub	x21, x29, #24
	add	x19, x19, #752
.Lunix_path_BB3_858:
	mov	x0, x21
	mov	x1, x2
	mov	x2, x22
	bl	memmove
.Lunix_path_BB3_859:
	add	x8, sp, #208
	add	x1, sp, #16, lsl #12
	mov	x2, x27
	orr	x0, x8, #0x8
	add	x1, x1, #752
	stp	x21, x20, [x19]
	str	x20, [x19, #16]
	bl	upath_commands.runs.answer_gathered.3596f8ae3b0ff399.
	mov	w20, w0
.Lunix_path_BB3_860:
	tst	w20, #0xff
	b.ne	.Lunix_path_BB3_717
	add	x8, x27, #72
	add	x9, x27, #73
	cmp	w25, #15
	csel	x8, x9, x8, eq
	b	.Lunix_path_BB3_925
.Lunix_path_BB3_862:
	ldp	x21, x20, [x22, #200]
	sub	x8, x29, #24
	mov	w9, #1
	ldr	x23, [x22, #216]
	stp	x8, xzr, [sp, #464]
	tst	w9, w26, lsr #8
	mov	w8, #10
	str	xzr, [sp, #480]
	csel	w22, wzr, w8, ne
	cbz	x20, .Lunix_path_BB3_881
	dup	v2.16b, w22
	mov	x8, xzr
	mov	x24, xzr
	sub	x9, x29, #24
	str	q2, [sp, #80]
	b	.Lunix_path_BB3_867
.Lunix_path_BB3_864:
	ldr	q0, [x25, x10]
	ldr	q1, [x19, :lo12:.Lunix_path_CPI3_0]
	cmeq	v0.16b, v0.16b, v2.16b
	and	v0.16b, v0.16b, v1.16b
	addp	v0.16b, v0.16b, v0.16b
	addp	v0.16b, v0.16b, v0.16b
	addp	v0.16b, v0.16b, v0.16b
	umov	w11, v0.h[0]
	orr	w11, w11, #0x10000
	rbit	w11, w11
	clz	w11, w11
	add	x26, x10, x11
.Lunix_path_BB3_865:
	ldr	x10, [sp, #480]
	cmp	x10, x8
	b.eq	.Lunix_path_BB3_877
.Lunix_path_BB3_866:
	add	x11, x26, x24
	add	x10, x9, x8, lsl #4
	add	x8, x8, #1
	cmp	x11, x20
	cinc	x24, x11, lo
	stp	x25, x26, [x10]
	cmp	x24, x20
	str	x8, [sp, #472]
	b.hs	.Lunix_path_BB3_881
.Lunix_path_BB3_867:
	sub	x10, x20, x24
	add	x25, x21, x24
	cmp	x10, #15
	b.hi	.Lunix_path_BB3_872
	mov	x26, xzr
.Lunix_path_BB3_869:
	ldrb	w11, [x25, x26]
	cmp	w11, w22
	b.eq	.Lunix_path_BB3_865
	add	x26, x26, #1
	cmp	x10, x26
	b.ne	.Lunix_path_BB3_869
	sub	x26, x20, x24
	b	.Lunix_path_BB3_865
.Lunix_path_BB3_872:
	subs	x10, x10, #16
	b.eq	.Lunix_path_BB3_864
	mov	x11, xzr
.Lunix_path_BB3_874:
	ldr	q0, [x25, x11]
	ldr	q1, [x19, :lo12:.Lunix_path_CPI3_0]
	cmeq	v0.16b, v0.16b, v2.16b
	and	v0.16b, v0.16b, v1.16b
	addp	v0.16b, v0.16b, v0.16b
	addp	v0.16b, v0.16b, v0.16b
	addp	v0.16b, v0.16b, v0.16b
	umov	w12, v0.h[0]
	orr	w12, w12, #0x10000
	rbit	w12, w12
	clz	w12, w12
	cmp	w12, #15
	b.ls	.Lunix_path_BB3_876
	add	x11, x11, #16
	cmp	x11, x10
	b.lo	.Lunix_path_BB3_874
	b	.Lunix_path_BB3_864
.Lunix_path_BB3_876:
	add	x26, x11, w12, uxtw
	b	.Lunix_path_BB3_865
.Lunix_path_BB3_877:
	add	x0, sp, #464
	mov	w1, #1
	bl	std_alloc.vec.Vec.grow_amortized.a60b1bb647f5ec87.
	cbz	w0, .Lunix_path_BB3_1065
	ldp	x9, x8, [sp, #464]
	ldr	q2, [sp, #80]
	b	.Lunix_path_BB3_866
.Lunix_path_BB3_879:
	cbz	x27, .Lunix_path_BB3_912
.Lunix_path_BB3_880:
	mov	x0, x20
	mov	w20, w1
	bl	rattle_dealloc
	mov	w1, w20
	mov	w20, #1
	b	.Lunix_path_BB3_919
.Lunix_path_BB3_881:
	add	x8, sp, #464
	add	x9, sp, #16, lsl #12
	add	x1, sp, #16, lsl #12
	ldr	q0, [x8]
	ldr	x8, [sp, #480]
	add	x9, x9, #752
	add	x1, x1, #624
	mov	x2, x27
	stur	q0, [x9, #135]
	stur	x8, [x9, #151]
	add	x9, sp, #16, lsl #12
	add	x9, x9, #464
	str	x8, [x9, #176]
	add	x8, sp, #208
	orr	x0, x8, #0x8
	str	q0, [x9, #160]
	bl	upath_commands.runs.answer_gathered.3596f8ae3b0ff399.
	mov	w20, w0
	mov	w22, w1
	cbz	x23, .Lunix_path_BB3_922
	mov	x0, x21
	bl	rattle_dealloc
	b	.Lunix_path_BB3_922
.Lunix_path_BB3_883:
	ldr	x27, [sp, #16]
	add	x23, sp, #16, lsl #12
	add	x23, x23, #464
	b	.Lunix_path_BB3_886
.Lunix_path_BB3_884:
	ldp	x8, x28, [sp, #464]
.Lunix_path_BB3_885:
	mov	w9, #24
	subs	x24, x24, #1
	add	x19, x19, #16
	madd	x9, x28, x9, x8
	add	x28, x28, #1
	strh	wzr, [x9]
	stp	x21, x20, [x9, #8]
	str	x28, [sp, #472]
	b.eq	.Lunix_path_BB3_844
.Lunix_path_BB3_886:
	ldr	x9, [sp, #480]
	ldp	x21, x20, [x19, #-8]
	cmp	x9, x28
	b.ne	.Lunix_path_BB3_885
	add	x0, sp, #464
	bl	std_alloc.vec.Vec.grow_amortized.22ca91936d612ecb.
	cbnz	w0, .Lunix_path_BB3_884
	b	.Lunix_path_BB3_1020
.Lunix_path_BB3_888:
	mov	w19, #1
.Lunix_path_BB3_889:
	ldr	w8, [sp, #416]
	ldrb	w9, [sp, #420]
	add	x0, sp, #16, lsl #12
	add	x1, sp, #16, lsl #12
	add	x0, x0, #752
	mov	x2, x21
	add	x1, x1, #560
	strh	w28, [x23, #96]
	strb	w27, [x23, #98]
	stur	w10, [x23, #99]
	strb	w25, [x23, #103]
	str	w8, [x23, #104]
	strb	w9, [x23, #108]
	bl	upath_commands.archive.decide_records
	ldr	x27, [sp, #16]
	tbnz	w19, #0, .Lunix_path_BB3_947
	mov	x0, x21
	bl	rattle_dealloc
	b	.Lunix_path_BB3_947
.Lunix_path_BB3_891:
	add	x12, x8, x21
	and	x10, x2, #0x18
	and	x9, x2, #0xffffffffffffffe0
	add	x11, x1, #16
	add	x12, x12, #16
	and	x13, x2, #0xffffffffffffffe0
.Lunix_path_BB3_892:
	ldp	q0, q1, [x11, #-16]
	subs	x13, x13, #32
	add	x11, x11, #32
	stp	q0, q1, [x12, #-16]
	add	x12, x12, #32
	b.ne	.Lunix_path_BB3_892
	cmp	x2, x9
	b.eq	.Lunix_path_BB3_716
	cbz	x10, .Lunix_path_BB3_282
.Lunix_path_BB3_895:
	mov	x11, x9
	and	x9, x2, #0xfffffffffffffff8
	add	x12, x8, x11
	sub	x10, x11, x9
	add	x11, x1, x11
	add	x12, x21, x12
.Lunix_path_BB3_896:
	ldr	d0, [x11], #8
	adds	x10, x10, #8
	str	d0, [x12], #8
	b.ne	.Lunix_path_BB3_896
	cmp	x2, x9
	b.eq	.Lunix_path_BB3_716
	b	.Lunix_path_BB3_282
.Lunix_path_BB3_898:
	add	x12, x8, x21
	and	x10, x2, #0x18
	and	x9, x2, #0xffffffffffffffe0
	add	x11, x1, #16
	add	x12, x12, #16
	and	x13, x2, #0xffffffffffffffe0
.Lunix_path_BB3_899:
	ldp	q0, q1, [x11, #-16]
	subs	x13, x13, #32
	add	x11, x11, #32
	stp	q0, q1, [x12, #-16]
	add	x12, x12, #32
	b.ne	.Lunix_path_BB3_899
	cmp	x2, x9
	b.eq	.Lunix_path_BB3_716
	cbz	x10, .Lunix_path_BB3_713
.Lunix_path_BB3_902:
	mov	x11, x9
	and	x9, x2, #0xfffffffffffffff8
	add	x12, x8, x11
	sub	x10, x11, x9
	add	x11, x1, x11
	add	x12, x21, x12
.Lunix_path_BB3_903:
	ldr	d0, [x11], #8
	adds	x10, x10, #8
	str	d0, [x12], #8
	b.ne	.Lunix_path_BB3_903
	cmp	x2, x9
	b.eq	.Lunix_path_BB3_716
	b	.Lunix_path_BB3_713
.Lunix_path_BB3_905:
	add	x0, x27, #16
	mov	x1, x2
	mov	x21, x2
	bl	std_alloc.vec.Vec.grow_amortized.f4a78633ca2a48c6.
	ldr	x1, [sp, #64]
	cbz	w0, .Lunix_path_BB3_1069
	ldp	x8, x19, [x27, #24]
	mov	x2, x21
	b	.Lunix_path_BB3_278
.Lunix_path_BB3_907:
	mov	x21, x1
	add	x0, x27, #16
	mov	x1, x2
	mov	x22, x2
	bl	std_alloc.vec.Vec.grow_amortized.f4a78633ca2a48c6.
	cbz	w0, .Lunix_path_BB3_1069
	ldp	x8, x19, [x27, #24]
	mov	x1, x21
	mov	x2, x22
	b	.Lunix_path_BB3_709
.Lunix_path_BB3_909:
	b.ne	.Lunix_path_BB3_939
	ldr	x9, [sp, #80]
	b	.Lunix_path_BB3_940
.Lunix_path_BB3_911:
	ldrb	w1, [x23, #97]
	cbnz	x27, .Lunix_path_BB3_880
.Lunix_path_BB3_912:
	mov	w20, #1
	b	.Lunix_path_BB3_919
.Lunix_path_BB3_913:
	ldr	x21, [x23, #240]
	add	x8, sp, #208
	add	x1, sp, #16, lsl #12
	orr	x0, x8, #0x8
	add	x1, x1, #752
	mov	x3, x22
	mov	x2, x21
	mov	x4, x19
	bl	upath_commands.engine.answer_records.3596f8ae3b0ff399.
	mov	w20, w0
	cbz	x27, .Lunix_path_BB3_919
	mov	x0, x21
	mov	w21, w1
	bl	rattle_dealloc
	mov	w1, w21
	b	.Lunix_path_BB3_919
.Lunix_path_BB3_915:
	cbz	x27, .Lunix_path_BB3_918
.Lunix_path_BB3_916:
	ldr	x0, [x23, #240]
.Lunix_path_BB3_917:
	bl	rattle_dealloc
.Lunix_path_BB3_918:
	mov	w20, #1
	mov	w1, #3
.Lunix_path_BB3_919:
	add	x9, sp, #16, lsl #12
	mov	x27, x19
	mov	w22, w1
	add	x9, x9, #752
	ldrb	w8, [x9]
	cmp	w8, #1
	b.ne	.Lunix_path_BB3_922
	ldrb	w8, [x9, #8]
	cmp	w8, #1
	b.ne	.Lunix_path_BB3_922
	ldr	x0, [x9, #16]
	bl	std_collections.btree.node.Node.destroy.793632148a6f265d.
.Lunix_path_BB3_922:
	tst	w20, #0xff
	b.eq	.Lunix_path_BB3_924
	mov	w1, w22
	b	.Lunix_path_BB3_717
.Lunix_path_BB3_924:
	ldrb	w8, [sp, #216]
	add	x9, x27, #72
	add	x10, x27, #73
	cmp	w8, #15
	csel	x8, x10, x9, eq
.Lunix_path_BB3_925:
	ldrb	w8, [x8]
	and	w1, w8, #0x1
	b	.Lunix_path_BB3_717
.Lunix_path_BB3_926:
	ldr	x0, [x20, #136]
	tbz	w28, #16, .Lunix_path_BB3_945
	movi	v0.2d, #0000000000000000
	ldr	x8, [x20, #152]
	cbz	x8, .Lunix_path_BB3_929
	bl	rattle_dealloc
	movi	v0.2d, #0000000000000000
.Lunix_path_BB3_929:
	sub	x0, x29, #24
	b	.Lunix_path_BB3_946
.Lunix_path_BB3_930:
	subs	x8, x27, #16
	b.eq	.Lunix_path_BB3_934
	mov	x9, xzr
.Lunix_path_BB3_932:
	movi	v0.16b, #10
	ldr	q1, [x22, x9]
	adrp	x10, .Lunix_path_CPI3_0
	cmeq	v0.16b, v1.16b, v0.16b
	ldr	q1, [x10, :lo12:.Lunix_path_CPI3_0]
	and	v0.16b, v0.16b, v1.16b
	addp	v0.16b, v0.16b, v0.16b
	addp	v0.16b, v0.16b, v0.16b
	addp	v0.16b, v0.16b, v0.16b
	umov	w10, v0.h[0]
	orr	w10, w10, #0x10000
	rbit	w10, w10
	clz	w10, w10
	cmp	w10, #15
	b.ls	.Lunix_path_BB3_972
	add	x9, x9, #16
	cmp	x9, x8
	b.lo	.Lunix_path_BB3_932
.Lunix_path_BB3_934:
	movi	v0.16b, #10
	ldr	q1, [x22, x8]
	adrp	x9, .Lunix_path_CPI3_0
	cmeq	v0.16b, v1.16b, v0.16b
	ldr	q1, [x9, :lo12:.Lunix_path_CPI3_0]
	and	v0.16b, v0.16b, v1.16b
	addp	v0.16b, v0.16b, v0.16b
	addp	v0.16b, v0.16b, v0.16b
	addp	v0.16b, v0.16b, v0.16b
	umov	w9, v0.h[0]
	orr	w9, w9, #0x10000
	rbit	w9, w9
	clz	w9, w9
	add	x8, x8, x9
	b	.Lunix_path_BB3_973
.Lunix_path_BB3_935:
	ldr	x8, [sp, #480]
	cbz	x8, .Lunix_path_BB3_937
	ldr	x0, [sp, #464]
	bl	rattle_dealloc
.Lunix_path_BB3_937:
	ldr	x8, [sp, #80]
	cbz	x8, .Lunix_path_BB3_1023
	mov	x0, x25
	b	.Lunix_path_BB3_1022
.Lunix_path_BB3_939:
	ldr	x9, [sp, #80]
	ldrb	w21, [x8, #1]
.Lunix_path_BB3_940:
	ldp	x26, x23, [x8, #8]
	cbz	x9, .Lunix_path_BB3_942
	mov	x0, x25
	bl	rattle_dealloc
.Lunix_path_BB3_942:
	mov	x28, xzr
.Lunix_path_BB3_943:
	lsr	x8, x28, #48
	lsr	x9, x28, #32
	add	x0, sp, #104
	mov	x1, x27
	strb	w21, [sp, #104]
	stur	w28, [sp, #105]
	strb	w8, [sp, #111]
	sturh	w9, [sp, #109]
	stp	x26, x23, [sp, #112]
	bl	upath_commands.runs.refuse.3596f8ae3b0ff399.
.Lunix_path_BB3_944:
	add	sp, sp, #16, lsl #12
	add	sp, sp, #1088
	ldp	x20, x19, [sp, #80]
	ldp	x22, x21, [sp, #64]
	ldp	x24, x23, [sp, #48]
	ldp	x26, x25, [sp, #32]
	ldp	x28, x27, [sp, #16]
	ldp	x29, x30, [sp], #96
	ret
.Lunix_path_BB3_945:
	ldr	q0, [x20, #144]
.Lunix_path_BB3_946:
	sub	x8, x29, #24
	strb	wzr, [x20]
	stp	x8, xzr, [x20, #8]
	stp	xzr, x0, [x20, #24]
	stur	q0, [x20, #40]
	str	xzr, [x20, #56]
.Lunix_path_BB3_947:
	ldp	x22, x23, [x20, #8]
	add	x19, sp, #16, lsl #12
	ldp	x25, x21, [x20, #24]
	add	x19, x19, #752
	ldp	x2, x24, [x20, #40]
	ldrb	w26, [x20, #56]
	ldr	x20, [sp, #72]
	ldrb	w8, [x19]
	cbz	w8, .Lunix_path_BB3_951
.Lunix_path_BB3_948:
	cbz	x20, .Lunix_path_BB3_950
.Lunix_path_BB3_949:
	ldr	x0, [sp, #80]
	bl	rattle_dealloc
.Lunix_path_BB3_950:
	mov	w20, #1
	mov	w1, #3
	b	.Lunix_path_BB3_717
.Lunix_path_BB3_951:
	add	x0, x27, #40
	mov	x1, x21
	mov	x19, x20
	str	w26, [sp, #72]
	bl	upath_commands.messages.send.5821a58b74a7d609.
	mov	x20, x27
	ldp	x8, x27, [x20, #24]!
	sub	x9, x27, x8
	cmp	x23, x9
	b.hi	.Lunix_path_BB3_1047
.Lunix_path_BB3_952:
	ldr	x9, [sp, #16]
	add	x26, x8, x23
	stp	xzr, xzr, [x20]
	ldr	x28, [x9, #16]
	add	x0, x28, x8
	sub	x9, x0, x22
	cmp	x9, x23
	b.hs	.Lunix_path_BB3_958
	cmp	x23, #8
	b.lo	.Lunix_path_BB3_955
	add	x9, x8, x28
	sub	x9, x9, x22
	cmp	x9, #32
	b.hs	.Lunix_path_BB3_970
.Lunix_path_BB3_955:
	mov	x9, xzr
.Lunix_path_BB3_956:
	add	x10, x9, x8
	sub	x8, x23, x9
	add	x9, x22, x9
	add	x10, x28, x10
.Lunix_path_BB3_957:
	ldrb	w11, [x9], #1
	subs	x8, x8, #1
	strb	w11, [x10], #1
	b.ne	.Lunix_path_BB3_957
	b	.Lunix_path_BB3_959
.Lunix_path_BB3_958:
	mov	x1, x22
	mov	x2, x23
	bl	memmove
.Lunix_path_BB3_959:
	ldr	x8, [sp, #16]
	str	x27, [x8, #32]
	mov	x27, x8
	stp	x28, x26, [x8, #16]
	cbz	x25, .Lunix_path_BB3_961
	mov	x0, x22
	bl	rattle_dealloc
.Lunix_path_BB3_961:
	cbz	x24, .Lunix_path_BB3_963
	mov	x0, x21
	bl	rattle_dealloc
.Lunix_path_BB3_963:
	cbz	x19, .Lunix_path_BB3_965
	ldr	x0, [sp, #80]
	bl	rattle_dealloc
.Lunix_path_BB3_965:
	ldr	w1, [sp, #72]
	mov	w20, wzr
	b	.Lunix_path_BB3_717
.Lunix_path_BB3_966:
	add	x0, sp, #464
	bl	std_alloc.vec.Vec.grow_amortized.22ca91936d612ecb.
	cbz	w0, .Lunix_path_BB3_1020
	ldr	x8, [sp, #472]
	b	.Lunix_path_BB3_198
.Lunix_path_BB3_968:
	add	x0, sp, #464
	bl	std_alloc.vec.Vec.grow_amortized.22ca91936d612ecb.
	cbz	w0, .Lunix_path_BB3_1020
	ldr	x8, [sp, #472]
	b	.Lunix_path_BB3_738
.Lunix_path_BB3_970:
	cmp	x23, #32
	b.hs	.Lunix_path_BB3_1040
	mov	x9, xzr
	b	.Lunix_path_BB3_1044
.Lunix_path_BB3_972:
	add	x8, x9, w10, uxtw
.Lunix_path_BB3_973:
	cmp	x8, x27
	b.hs	.Lunix_path_BB3_977
.Lunix_path_BB3_974:
	cbz	x19, .Lunix_path_BB3_976
	mov	x0, x20
	bl	rattle_dealloc
.Lunix_path_BB3_976:
	movi	v0.2d, #0000000000000000
	add	x20, sp, #208
	mov	x23, x27
	ldr	x27, [sp, #16]
	mov	x28, xzr
	mov	x19, xzr
	str	xzr, [sp, #368]
	mov	w21, #14
	mov	w24, #1
	stp	xzr, xzr, [sp, #304]
	mov	x26, x22
	str	xzr, [sp, #320]
	stp	q0, q0, [x20, #128]
	b	.Lunix_path_BB3_989
.Lunix_path_BB3_977:
	ldr	x27, [sp, #16]
	mov	x8, xzr
	mov	x9, x25
	mov	x10, x28
	b	.Lunix_path_BB3_980
.Lunix_path_BB3_978:
	add	x8, x8, #1
.Lunix_path_BB3_979:
	subs	x10, x10, #1
	b.eq	.Lunix_path_BB3_982
.Lunix_path_BB3_980:
	ldrb	w11, [x9], #24
	sub	w12, w11, #2
	cmp	w12, #4
	b.lo	.Lunix_path_BB3_979
	cbz	w11, .Lunix_path_BB3_978
	b	.Lunix_path_BB3_983
.Lunix_path_BB3_982:
	mov	x8, xzr
.Lunix_path_BB3_983:
	movi	v0.2d, #0000000000000000
	add	x9, sp, #208
	add	x10, sp, #16, lsl #12
	add	x10, x10, #464
	str	xzr, [sp, #560]
	str	xzr, [x10, #384]
	str	xzr, [x10, #272]
	stp	q0, q0, [x9, #256]
	stp	q0, q0, [x9, #288]
	stp	q0, q0, [x9, #320]
	add	x9, sp, #16, lsl #12
	add	x9, x9, #752
	stp	q0, q0, [x10, #96]
	stp	q0, q0, [x9, #128]
	stp	q0, q0, [x9, #192]
	str	xzr, [x9, #224]
	stp	xzr, xzr, [x9, #176]
	stp	xzr, xzr, [x9, #160]
	stp	xzr, xzr, [x9, #104]
	str	xzr, [x9, #120]
	and	x9, x1, #0xff
	str	xzr, [x10, #232]
	stp	q0, q0, [x10, #160]
	stp	q0, q0, [x10, #240]
	stp	q0, q0, [x10, #288]
	stp	q0, q0, [x10, #320]
	stp	q0, q0, [x10, #352]
	stp	xzr, xzr, [x10, #216]
	stur	xzr, [x10, #205]
	stp	xzr, xzr, [x10, #192]
	stp	xzr, xzr, [x10, #144]
	stp	xzr, xzr, [x10, #128]
	stp	xzr, xzr, [x10, #72]
	str	xzr, [x10, #88]
	adrp	x10, .Lunix_path_JTI3_1
	add	x10, x10, :lo12:.Lunix_path_JTI3_1
	adr	x11, .Lunix_path_BB3_984
	ldrb	w12, [x10, x9]
	add	x11, x11, x12, lsl #2
	br	x11
.Lunix_path_BB3_984:
	add	x22, sp, #16, lsl #12
	add	x4, sp, #16, lsl #12
	add	x6, sp, #16, lsl #12
	add	x22, x22, #464
	adrp	x2, .Lunix_path_static.5
	add	x2, x2, :lo12:.Lunix_path_static.5
	add	x0, sp, #464
	add	x4, x4, #560
	add	x6, x6, #536
	stp	x23, x25, [x22, #104]
	stp	x28, x8, [x22, #120]
	stp	x20, x21, [x22, #72]
	stp	x19, x26, [x22, #88]
.Lunix_path_BB3_985:
	mov	x3, xzr
	mov	w5, #1
	bl	upath_commands.arguments.each
	add	x11, sp, #464
	ldrb	w8, [sp, #479]
	ldrb	w24, [sp, #464]
	ldurh	w9, [x11, #13]
	ldp	q0, q1, [x11, #32]
	ldur	w10, [x11, #9]
	ldrb	w21, [sp, #472]
	orr	w8, w9, w8, lsl #16
	ldr	x9, [sp, #528]
.Lunix_path_BB3_986:
	ldp	x26, x23, [sp, #480]
	orr	x28, x10, x8, lsl #32
	stp	q0, q1, [x22, #32]
	ldr	q0, [x11, #80]
	ldrb	w8, [sp, #536]
	str	x9, [x22, #64]
	ldr	x9, [sp, #560]
.Lunix_path_BB3_987:
	str	q0, [x22]
	str	x9, [x22, #16]
.Lunix_path_BB3_988:
	ldp	q0, q1, [x22, #32]
	add	x20, sp, #208
	ldr	x9, [x22, #64]
	ldr	x10, [x22, #16]
	mov	w19, w8
	stp	q0, q1, [x20, #128]
	ldr	q0, [x22]
	str	x9, [sp, #368]
	str	x10, [sp, #320]
	str	q0, [x20, #96]
.Lunix_path_BB3_989:
	ldr	x8, [sp, #80]
	cbnz	x8, .Lunix_path_BB3_244
	b	.Lunix_path_BB3_245
.Lunix_path_BB3_990:
	add	x9, sp, #16, lsl #12
	add	x0, sp, #464
	sub	x3, x29, #208
	add	x9, x9, #752
	sub	x4, x29, #232
	mov	w2, #9
	stp	x23, x25, [x9, #136]
	stp	x28, x8, [x9, #152]
	stp	x20, x21, [x9, #104]
	stp	x19, x26, [x9, #120]
.Lunix_path_BB3_991:
	bl	upath_commands.arguments.each_after
	add	x11, sp, #464
	ldrb	w8, [sp, #479]
	ldrb	w24, [sp, #464]
	ldurh	w9, [x11, #13]
	ldp	q0, q1, [x11, #32]
	ldur	w10, [x11, #9]
	add	x22, sp, #16, lsl #12
	ldrb	w21, [sp, #472]
	orr	w8, w9, w8, lsl #16
	ldr	x9, [sp, #528]
	add	x22, x22, #464
	b	.Lunix_path_BB3_986
.Lunix_path_BB3_992:
	add	x9, x25, #1
	mov	x10, x28
	b	.Lunix_path_BB3_994
.Lunix_path_BB3_993:
	subs	x10, x10, #1
	add	x9, x9, #24
	b.eq	.Lunix_path_BB3_1024
.Lunix_path_BB3_994:
	ldurb	w11, [x9, #-1]
	cmp	w11, #2
	b.ne	.Lunix_path_BB3_993
	ldrb	w11, [x9]
	cmp	w11, #5
	b.ne	.Lunix_path_BB3_993
	mov	w9, #1
	b	.Lunix_path_BB3_1025
.Lunix_path_BB3_997:
	cbz	x21, .Lunix_path_BB3_1057
	ldp	x26, x23, [x20]
	cbz	x19, .Lunix_path_BB3_1000
	mov	x0, x20
	bl	rattle_dealloc
.Lunix_path_BB3_1000:
	movi	v0.2d, #0000000000000000
	add	x22, sp, #16, lsl #12
	mov	x28, xzr
	add	x22, x22, #464
	mov	w8, wzr
	mov	w21, #12
	b	.Lunix_path_BB3_1054
.Lunix_path_BB3_1001:
	add	x9, x25, #1
	mov	x10, x28
	b	.Lunix_path_BB3_1003
.Lunix_path_BB3_1002:
	subs	x10, x10, #1
	add	x9, x9, #24
	b.eq	.Lunix_path_BB3_984
.Lunix_path_BB3_1003:
	ldurb	w11, [x9, #-1]
	cmp	w11, #2
	b.ne	.Lunix_path_BB3_1002
	ldrb	w11, [x9]
	cmp	w11, #13
	b.ne	.Lunix_path_BB3_1002
	add	x22, sp, #16, lsl #12
	add	x4, sp, #16, lsl #12
	add	x6, sp, #16, lsl #12
	add	x22, x22, #464
	adrp	x2, .Lunix_path_static.5
	add	x2, x2, :lo12:.Lunix_path_static.5
	stp	x23, x25, [x22, #168]
	add	x0, sp, #464
	add	x4, x4, #624
	stp	x28, x8, [x22, #184]
	add	x6, x6, #600
	mov	w1, #17
	stp	x20, x21, [x22, #136]
	stp	x19, x26, [x22, #152]
	b	.Lunix_path_BB3_985
.Lunix_path_BB3_1006:
	add	x8, sp, #16, lsl #12
	cmp	x24, #2
	add	x8, x8, #752
	stp	xzr, xzr, [x8, #288]
	stp	xzr, xzr, [x8, #272]
	stp	xzr, xzr, [x8, #256]
	str	xzr, [x8, #248]
	str	xzr, [x8, #232]
	stur	xzr, [x8, #237]
	b.hi	.Lunix_path_BB3_1055
	sub	x11, x29, #32
	mov	x8, xzr
	mov	w21, #11
	stur	wzr, [x11, #3]
	mov	w24, #1
	str	wzr, [x11]
	b	.Lunix_path_BB3_1071
.Lunix_path_BB3_1008:
	mov	x3, xzr
	mov	x2, xzr
	mov	x11, xzr
	sub	x10, x28, #1
	mov	w9, #1
.Lunix_path_BB3_1009:
	add	x12, x11, x11, lsl #1
	lsl	x12, x12, #3
	b	.Lunix_path_BB3_1011
.Lunix_path_BB3_1010:
	add	x11, x11, #1
	add	x12, x12, #24
	cmp	x28, x11
	b.eq	.Lunix_path_BB3_1014
.Lunix_path_BB3_1011:
	ldrb	w13, [x25, x12]
	cmp	w13, #3
	b.ne	.Lunix_path_BB3_1010
	add	x13, x25, x12
	ldrb	w14, [x13, #1]
	cmp	w14, #8
	b.ne	.Lunix_path_BB3_1010
	ldp	x2, x3, [x13, #8]
	mov	w9, wzr
	cmp	x10, x11
	add	x11, x11, #1
	b.ne	.Lunix_path_BB3_1009
	b	.Lunix_path_BB3_1049
.Lunix_path_BB3_1014:
	tbz	w9, #0, .Lunix_path_BB3_1049
	add	x9, sp, #16, lsl #12
	mov	w8, #10
	add	x9, x9, #752
	stur	wzr, [x9, #9]
	strb	w8, [x9, #8]
	add	x8, sp, #464
	str	wzr, [x9, #12]
	stp	x26, x23, [x9, #16]
	ldur	q0, [x9, #8]
	ldur	q1, [x9, #24]
	stur	q0, [x8, #8]
	ldur	q0, [x9, #40]
	stur	q1, [x8, #24]
	ldur	q1, [x9, #56]
	ldrb	w21, [sp, #472]
	stur	q0, [x8, #40]
	stur	q1, [x8, #56]
	ldp	x26, x23, [sp, #480]
	cbz	x19, .Lunix_path_BB3_1017
	mov	x0, x20
	bl	rattle_dealloc
.Lunix_path_BB3_1017:
	movi	v0.2d, #0000000000000000
	add	x22, sp, #16, lsl #12
	mov	x28, xzr
	mov	w8, wzr
	add	x22, x22, #464
	b	.Lunix_path_BB3_1054
.Lunix_path_BB3_1018:
	add	x0, sp, #464
	bl	std_alloc.vec.Vec.grow_amortized.22ca91936d612ecb.
	cbz	w0, .Lunix_path_BB3_1020
	ldr	x9, [sp, #472]
	b	.Lunix_path_BB3_842
.Lunix_path_BB3_1020:
	ldr	x8, [sp, #480]
	cbz	x8, .Lunix_path_BB3_1023
	ldr	x0, [sp, #464]
.Lunix_path_BB3_1022:
	bl	rattle_dealloc
.Lunix_path_BB3_1023:
	mov	w1, #4
	b	.Lunix_path_BB3_722
.Lunix_path_BB3_1024:
	mov	w9, wzr
.Lunix_path_BB3_1025:
	add	x10, x25, #1
	mov	x11, x28
	b	.Lunix_path_BB3_1027
.Lunix_path_BB3_1026:
	subs	x11, x11, #1
	add	x10, x10, #24
	b.eq	.Lunix_path_BB3_1030
.Lunix_path_BB3_1027:
	ldurb	w12, [x10, #-1]
	cmp	w12, #2
	b.ne	.Lunix_path_BB3_1026
	ldrb	w12, [x10]
	cmp	w12, #6
	b.ne	.Lunix_path_BB3_1026
	mov	w10, #1
	b	.Lunix_path_BB3_1031
.Lunix_path_BB3_1030:
	mov	w10, wzr
.Lunix_path_BB3_1031:
	add	x11, x25, #1
	mov	x12, x28
	b	.Lunix_path_BB3_1033
.Lunix_path_BB3_1032:
	subs	x12, x12, #1
	add	x11, x11, #24
	b.eq	.Lunix_path_BB3_1036
.Lunix_path_BB3_1033:
	ldurb	w13, [x11, #-1]
	cmp	w13, #2
	b.ne	.Lunix_path_BB3_1032
	ldrb	w13, [x11]
	cmp	w13, #7
	b.ne	.Lunix_path_BB3_1032
	mov	w11, #1
	b	.Lunix_path_BB3_1037
.Lunix_path_BB3_1036:
	mov	w11, wzr
.Lunix_path_BB3_1037:
	cbz	w9, .Lunix_path_BB3_1050
	orr	w9, w10, w11
	tbnz	w9, #0, .Lunix_path_BB3_1051
.Lunix_path_BB3_1039:
	add	x9, sp, #16, lsl #12
	add	x0, sp, #464
	sub	x3, x29, #144
	add	x9, x9, #752
	sub	x4, x29, #168
	mov	w1, #8
	mov	w2, #8
	stp	x23, x25, [x9, #200]
	stp	x28, x8, [x9, #216]
	stp	x20, x21, [x9, #168]
	stp	x19, x26, [x9, #184]
	b	.Lunix_path_BB3_991
.Lunix_path_BB3_1040:
	add	x12, x8, x28
	and	x10, x23, #0x18
	and	x9, x23, #0xffffffffffffffe0
	add	x11, x22, #16
	add	x12, x12, #16
	and	x13, x23, #0xffffffffffffffe0
.Lunix_path_BB3_1041:
	ldp	q0, q1, [x11, #-16]
	subs	x13, x13, #32
	add	x11, x11, #32
	stp	q0, q1, [x12, #-16]
	add	x12, x12, #32
	b.ne	.Lunix_path_BB3_1041
	cmp	x23, x9
	b.eq	.Lunix_path_BB3_959
	cbz	x10, .Lunix_path_BB3_956
.Lunix_path_BB3_1044:
	mov	x11, x9
	and	x9, x23, #0xfffffffffffffff8
	add	x12, x8, x11
	sub	x10, x11, x9
	add	x11, x22, x11
	add	x12, x28, x12
.Lunix_path_BB3_1045:
	ldr	d0, [x11], #8
	adds	x10, x10, #8
	str	d0, [x12], #8
	b.ne	.Lunix_path_BB3_1045
	cmp	x23, x9
	b.eq	.Lunix_path_BB3_959
	b	.Lunix_path_BB3_956
.Lunix_path_BB3_1047:
	ldr	x27, [sp, #16]
	mov	x1, x23
	add	x0, x27, #16
	bl	std_alloc.vec.Vec.grow_amortized.f4a78633ca2a48c6.
	cbz	w0, .Lunix_path_BB3_1060
	ldp	x8, x27, [x27, #24]
	b	.Lunix_path_BB3_952
.Lunix_path_BB3_1049:
	add	x22, sp, #16, lsl #12
	add	x0, sp, #16, lsl #12
	add	x4, sp, #16, lsl #12
	add	x6, sp, #16, lsl #12
	add	x22, x22, #464
	add	x0, x0, #752
	add	x4, x4, #704
	add	x6, x6, #680
	mov	w1, #10
	mov	w5, #1
	stp	x23, x25, [x22, #248]
	stp	x28, x8, [x22, #264]
	stp	x20, x21, [x22, #216]
	stp	x19, x26, [x22, #232]
	bl	upath_commands.arguments.each
	add	x11, sp, #16, lsl #12
	ldrb	w8, [x22, #303]
	ldrb	w24, [x22, #288]
	add	x11, x11, #752
	ldp	x26, x23, [x22, #304]
	ldurh	w9, [x11, #13]
	ldp	q0, q1, [x11, #32]
	ldur	w10, [x11, #9]
	ldrb	w21, [x22, #296]
	orr	w8, w9, w8, lsl #16
	ldr	x9, [x11, #64]
	stp	q0, q1, [x22, #32]
	ldr	q0, [x11, #80]
	orr	x28, x10, x8, lsl #32
	str	x9, [x22, #64]
	ldr	x9, [x11, #96]
	ldrb	w8, [x22, #360]
	b	.Lunix_path_BB3_987
.Lunix_path_BB3_1050:
	and	w9, w10, w11
	cmp	w9, #1
	b.ne	.Lunix_path_BB3_1039
.Lunix_path_BB3_1051:
	cbz	x19, .Lunix_path_BB3_1053
	mov	x0, x20
	bl	rattle_dealloc
.Lunix_path_BB3_1053:
	movi	v0.2d, #0000000000000000
	add	x22, sp, #16, lsl #12
	mov	x28, xzr
	add	x22, x22, #464
	mov	w8, wzr
	mov	w21, #7
.Lunix_path_BB3_1054:
	str	xzr, [x22, #64]
	stp	xzr, xzr, [x22]
	str	xzr, [x22, #16]
	stp	q0, q0, [x22, #32]
	mov	w24, #1
	b	.Lunix_path_BB3_988
.Lunix_path_BB3_1055:
	cmp	x21, #2
	b.ne	.Lunix_path_BB3_1070
	sub	x0, x29, #104
	mov	x1, x25
	mov	x2, x28
	bl	upath_commands.arguments.options_of
	add	x10, sp, #16, lsl #12
	sub	x11, x29, #32
	ldr	q0, [x20, #16]
	add	x10, x10, #752
	mov	w24, wzr
	ldr	w8, [x10, #232]
	ldur	w9, [x10, #235]
	str	q0, [x10, #288]
	stp	xzr, xzr, [x10, #272]
	str	w8, [x11]
	ldurh	w8, [x10, #243]
	stur	w9, [x11, #3]
	ldur	w9, [x10, #239]
	stp	xzr, xzr, [x10, #248]
	orr	x26, x9, x8, lsl #32
	ldp	x23, x8, [x20]
	str	xzr, [x10, #264]
	b	.Lunix_path_BB3_1071
.Lunix_path_BB3_1057:
	add	x0, sp, #16, lsl #12
	mov	x1, x25
	mov	x2, x28
	add	x0, x0, #664
	bl	upath_commands.arguments.options_of
	add	x9, sp, #16, lsl #12
	add	x9, x9, #464
	ldurh	w8, [x9, #211]
	ldur	w9, [x9, #207]
	orr	x26, x9, x8, lsl #32
	cbz	x19, .Lunix_path_BB3_1059
	mov	x0, x20
	bl	rattle_dealloc
.Lunix_path_BB3_1059:
	add	x22, sp, #16, lsl #12
	movi	v0.2d, #0000000000000000
	mov	w24, wzr
	add	x22, x22, #464
	mov	x23, xzr
	mov	w8, wzr
	ldrb	w9, [x22, #206]
	ldrh	w10, [x22, #204]
	str	xzr, [x22, #64]
	stp	xzr, xzr, [x22]
	mov	w21, #3
	orr	w9, w10, w9, lsl #16
	ldr	w10, [x22, #200]
	stp	q0, q0, [x22, #32]
	str	xzr, [x22, #16]
	orr	x28, x10, x9, lsl #32
	b	.Lunix_path_BB3_988
.Lunix_path_BB3_1060:
	cbz	x25, .Lunix_path_BB3_1062
	mov	x0, x22
	bl	rattle_dealloc
.Lunix_path_BB3_1062:
	cbz	x24, .Lunix_path_BB3_1064
	mov	x0, x21
	bl	rattle_dealloc
.Lunix_path_BB3_1064:
	cbnz	x19, .Lunix_path_BB3_949
	b	.Lunix_path_BB3_950
.Lunix_path_BB3_1065:
	ldr	x8, [sp, #480]
	cbz	x8, .Lunix_path_BB3_1067
	ldr	x0, [sp, #464]
	bl	rattle_dealloc
.Lunix_path_BB3_1067:
	cbz	x23, .Lunix_path_BB3_1069
	mov	x0, x21
	bl	rattle_dealloc
	mov	w1, #3
	mov	w20, #1
	b	.Lunix_path_BB3_717
.Lunix_path_BB3_1069:
	mov	w1, #3
	mov	w20, #1
	b	.Lunix_path_BB3_717
.Lunix_path_BB3_1070:
	ldp	x26, x23, [x20, #32]
	mov	x8, xzr
	sub	x11, x29, #32
	mov	w21, #12
	mov	w24, #1
	str	wzr, [x11]
	stur	wzr, [x11, #3]
.Lunix_path_BB3_1071:
	ldr	w9, [x11]
	ldur	w10, [x11, #3]
	add	x11, sp, #16, lsl #12
	add	x11, x11, #752
	add	x12, sp, #464
	add	x28, sp, #464
	ldp	q1, q0, [x11, #272]
	stur	w9, [x12, #9]
	ldr	x9, [x11, #264]
	str	w10, [sp, #476]
	str	x8, [sp, #496]
	stur	q0, [x12, #40]
	ldur	q0, [x11, #248]
	stur	q1, [x12, #56]
	str	q0, [x12, #80]
	str	x9, [sp, #560]
	cbz	x19, .Lunix_path_BB3_1073
	mov	x0, x20
	bl	rattle_dealloc
.Lunix_path_BB3_1073:
	add	x12, sp, #464
	ldp	q0, q1, [x28, #32]
	ldrb	w9, [sp, #479]
	ldurh	w10, [x12, #13]
	add	x22, sp, #16, lsl #12
	ldur	x11, [x28, #64]
	add	x22, x22, #464
	mov	w8, wzr
	stp	q0, q1, [x22, #32]
	orr	w9, w10, w9, lsl #16
	ldur	w10, [x12, #9]
	ldur	q0, [x28, #80]
	str	x11, [x22, #64]
	ldur	x11, [x28, #96]
	orr	x28, x10, x9, lsl #32
	str	q0, [x22]
	str	x11, [x22, #16]
	b	.Lunix_path_BB3_988
.Lunix_path_BB3_1074:
	add	x9, sp, #16, lsl #12
	add	x9, x9, #464
.Lunix_path_BB3_1075:
	ldr	x8, [x9, #256]
	cbz	x8, .Lunix_path_BB3_918
	ldr	x0, [x9, #240]
	b	.Lunix_path_BB3_917
.Lunix_path_BB3_1077:
	ldr	x8, [x23, #256]
	cbnz	x8, .Lunix_path_BB3_916
	b	.Lunix_path_BB3_918
.Lunix_path_BB3_1078:
	ldr	x8, [x24, #144]
	add	x9, sp, #16, lsl #12
	add	x9, x9, #752
	cbz	x8, .Lunix_path_BB3_1080
	ldr	x0, [x9, #128]
	bl	rattle_dealloc
.Lunix_path_BB3_1080:
	ldr	x27, [sp, #16]
	b	.Lunix_path_BB3_856
.Lunix_path_BB3_1081:
	add	x20, sp, #16, lsl #12
	ldr	x10, [sp, #64]
	add	x20, x20, #752
	ldp	x3, x8, [x20, #136]
	ldr	x21, [x20, #128]
	cmp	x8, #0
	cset	w19, eq
	b	.Lunix_path_BB3_889
.Lunix_path_func_end3:
	.size	upath_commands.runs.run_arguments.84bfbe5ddfee3cac., .Lunix_path_func_end3-upath_commands.runs.run_arguments.84bfbe5ddfee3cac.
	.section	.rodata.upath_commands.runs.run_arguments.84bfbe5ddfee3cac.,"a",@progbits
.Lunix_path_JTI3_0:
	.byte	(.Lunix_path_BB3_223-.Lunix_path_BB3_222)>>2
	.byte	(.Lunix_path_BB3_228-.Lunix_path_BB3_222)>>2
	.byte	(.Lunix_path_BB3_223-.Lunix_path_BB3_222)>>2
	.byte	(.Lunix_path_BB3_228-.Lunix_path_BB3_222)>>2
	.byte	(.Lunix_path_BB3_230-.Lunix_path_BB3_222)>>2
	.byte	(.Lunix_path_BB3_226-.Lunix_path_BB3_222)>>2
	.byte	(.Lunix_path_BB3_226-.Lunix_path_BB3_222)>>2
	.byte	(.Lunix_path_BB3_226-.Lunix_path_BB3_222)>>2
	.byte	(.Lunix_path_BB3_233-.Lunix_path_BB3_222)>>2
	.byte	(.Lunix_path_BB3_231-.Lunix_path_BB3_222)>>2
	.byte	(.Lunix_path_BB3_232-.Lunix_path_BB3_222)>>2
	.byte	(.Lunix_path_BB3_227-.Lunix_path_BB3_222)>>2
	.byte	(.Lunix_path_BB3_227-.Lunix_path_BB3_222)>>2
	.byte	(.Lunix_path_BB3_222-.Lunix_path_BB3_222)>>2
	.byte	(.Lunix_path_BB3_222-.Lunix_path_BB3_222)>>2
	.byte	(.Lunix_path_BB3_222-.Lunix_path_BB3_222)>>2
	.byte	(.Lunix_path_BB3_229-.Lunix_path_BB3_222)>>2
	.byte	(.Lunix_path_BB3_229-.Lunix_path_BB3_222)>>2
.Lunix_path_JTI3_1:
	.byte	(.Lunix_path_BB3_984-.Lunix_path_BB3_984)>>2
	.byte	(.Lunix_path_BB3_984-.Lunix_path_BB3_984)>>2
	.byte	(.Lunix_path_BB3_984-.Lunix_path_BB3_984)>>2
	.byte	(.Lunix_path_BB3_984-.Lunix_path_BB3_984)>>2
	.byte	(.Lunix_path_BB3_984-.Lunix_path_BB3_984)>>2
	.byte	(.Lunix_path_BB3_984-.Lunix_path_BB3_984)>>2
	.byte	(.Lunix_path_BB3_984-.Lunix_path_BB3_984)>>2
	.byte	(.Lunix_path_BB3_984-.Lunix_path_BB3_984)>>2
	.byte	(.Lunix_path_BB3_992-.Lunix_path_BB3_984)>>2
	.byte	(.Lunix_path_BB3_990-.Lunix_path_BB3_984)>>2
	.byte	(.Lunix_path_BB3_1008-.Lunix_path_BB3_984)>>2
	.byte	(.Lunix_path_BB3_984-.Lunix_path_BB3_984)>>2
	.byte	(.Lunix_path_BB3_984-.Lunix_path_BB3_984)>>2
	.byte	(.Lunix_path_BB3_984-.Lunix_path_BB3_984)>>2
	.byte	(.Lunix_path_BB3_997-.Lunix_path_BB3_984)>>2
	.byte	(.Lunix_path_BB3_990-.Lunix_path_BB3_984)>>2
	.byte	(.Lunix_path_BB3_1001-.Lunix_path_BB3_984)>>2
	.byte	(.Lunix_path_BB3_984-.Lunix_path_BB3_984)>>2
	.byte	(.Lunix_path_BB3_984-.Lunix_path_BB3_984)>>2
	.byte	(.Lunix_path_BB3_1006-.Lunix_path_BB3_984)>>2
	.section	.text.upath_commands.options.is,"ax",@progbits
	.p2align	2
	.type	upath_commands.options.is,@function
// upath_commands::options::is
upath_commands.options.is:
	cmp	x1, x3
	b.ne	.Lunix_path_BB4_9
	cmp	x1, #3
	b.hi	.Lunix_path_BB4_7
	mov	x8, xzr
.Lunix_path_BB4_3:
	ldrb	w9, [x0, x8]
	ldrb	w10, [x2, x8]
	cmp	w9, w10
	b.ne	.Lunix_path_BB4_6
	add	x8, x8, #1
	cmp	x1, x8
	b.ne	.Lunix_path_BB4_3
	mov	x8, x1
.Lunix_path_BB4_6:
	cmp	x8, x1
	cset	w0, hs
	ret
.Lunix_path_BB4_7:
	ldr	w8, [x0]
	ldr	w9, [x2]
	cmp	w8, w9
	b.ne	.Lunix_path_BB4_9
	stp	x29, x30, [sp, #-16]!
	mov	x29, sp
	bl	core.cmp.slices.groups_equal.i8.31.core.cmp.numbers.U8PartialEq.
	ldp	x29, x30, [sp], #16
	ret
.Lunix_path_BB4_9:
	mov	w0, wzr
	ret
.Lunix_path_func_end4:
	.size	upath_commands.options.is, .Lunix_path_func_end4-upath_commands.options.is
	.section	.text.core.slice.scan.any_in_quarters.953750c03e87c3e2.,"ax",@progbits
	.p2align	2
	.type	core.slice.scan.any_in_quarters.953750c03e87c3e2.,@function
// core::slice::scan::any_in_quarters::<#953750c03e87c3e2>
core.slice.scan.any_in_quarters.953750c03e87c3e2.:
	sub	x8, x2, #8
	mov	w9, #8
	ldr	d0, [x0]
	cmp	x8, #8
	ldr	d1, [x1]
	mov	w10, #16
	csel	x9, x8, x9, lo
	cmp	x8, #16
	ldr	d5, [x1, x8]
	ldr	d2, [x0, x9]
	ldr	d3, [x1, x9]
	csel	x9, x8, x10, lo
	ldr	d4, [x0, x9]
	mov	v0.d[1], v2.d[0]
	mov	v1.d[1], v3.d[0]
	ldr	d2, [x1, x9]
	ldr	d3, [x0, x8]
	mov	v2.d[1], v5.d[0]
	mov	v4.d[1], v3.d[0]
	cmeq	v0.16b, v0.16b, v1.16b
	cmeq	v1.16b, v4.16b, v2.16b
	mvn	v0.16b, v0.16b
	orn	v0.16b, v0.16b, v1.16b
	umaxv	b0, v0.16b
	fmov	w8, s0
	and	w0, w8, #0x1
	ret
.Lunix_path_func_end5:
	.size	core.slice.scan.any_in_quarters.953750c03e87c3e2., .Lunix_path_func_end5-core.slice.scan.any_in_quarters.953750c03e87c3e2.
	.section	.rodata.cst16,"aM",@progbits,16
	.p2align	4, 0x0
.Lunix_path_CPI6_0:
	.byte	1
	.byte	2
	.byte	4
	.byte	8
	.byte	16
	.byte	32
	.byte	64
	.byte	128
	.byte	1
	.byte	2
	.byte	4
	.byte	8
	.byte	16
	.byte	32
	.byte	64
	.byte	128
	.section	.text.core.cmp.slices.groups_equal.i8.31.core.cmp.numbers.U8PartialEq.,"ax",@progbits
	.p2align	2
	.type	core.cmp.slices.groups_equal.i8.31.core.cmp.numbers.U8PartialEq.,@function
// core::cmp::slices::groups_equal::<i8,31'core::cmp::numbers::U8PartialEq{}>
core.cmp.slices.groups_equal.i8.31.core.cmp.numbers.U8PartialEq.:
	stp	x29, x30, [sp, #-16]!
	cmp	x1, #8
	mov	x29, sp
	b.hi	.Lunix_path_BB6_2
	sub	x8, x1, #4
	ldr	s0, [x0]
	ldr	s1, [x2]
	add	x9, x0, x8
	add	x8, x2, x8
	ld1	{ v0.s }[1], [x9]
	ld1	{ v1.s }[1], [x8]
	fmov	x8, d0
	fmov	x9, d1
	cmp	x8, x9
	cset	w0, ne
	eor	w0, w0, #0x1
	ldp	x29, x30, [sp], #16
	ret
.Lunix_path_BB6_2:
	subs	x8, x1, #32
	b.hi	.Lunix_path_BB6_4
	mov	x8, x1
	mov	x1, x2
	mov	x2, x8
	bl	core.slice.scan.any_in_quarters.953750c03e87c3e2.
	eor	w0, w0, #0x1
	ldp	x29, x30, [sp], #16
	ret
.Lunix_path_BB6_4:
	cmp	x1, #65
	b.hs	.Lunix_path_BB6_6
	ldp	q1, q0, [x0]
	add	x9, x2, x8
	ldp	q3, q2, [x2]
	add	x8, x0, x8
	ldp	q4, q5, [x9]
	cmeq	v1.16b, v1.16b, v3.16b
	cmeq	v0.16b, v0.16b, v2.16b
	ldp	q2, q3, [x8]
	mvn	v1.16b, v1.16b
	mvn	v0.16b, v0.16b
	cmeq	v2.16b, v2.16b, v4.16b
	cmeq	v3.16b, v3.16b, v5.16b
	orn	v0.16b, v0.16b, v3.16b
	orn	v1.16b, v1.16b, v2.16b
	orr	v0.16b, v1.16b, v0.16b
	umaxv	b0, v0.16b
	fmov	w8, s0
	and	w0, w8, #0x1
	eor	w0, w0, #0x1
	ldp	x29, x30, [sp], #16
	ret
.Lunix_path_BB6_6:
	and	x9, x1, #0xffffffffffffffc0
	add	x10, x0, #32
	add	x12, x2, #32
	mov	w11, #32
	mov	x13, x1
.Lunix_path_BB6_7:
	ldp	q0, q3, [x12, #-32]
	ldp	q1, q2, [x10, #-32]
	ldp	q4, q5, [x12], #64
	cmeq	v0.16b, v1.16b, v0.16b
	cmeq	v1.16b, v2.16b, v3.16b
	ldp	q2, q3, [x10], #64
	mvn	v0.16b, v0.16b
	mvn	v1.16b, v1.16b
	cmeq	v2.16b, v2.16b, v4.16b
	cmeq	v3.16b, v3.16b, v5.16b
	orn	v0.16b, v0.16b, v2.16b
	orn	v1.16b, v1.16b, v3.16b
	orr	v0.16b, v1.16b, v0.16b
	umaxv	b0, v0.16b
	fmov	w14, s0
	tbnz	w14, #0, .Lunix_path_BB6_10
	sub	x13, x13, #64
	add	x11, x11, #64
	cmp	x13, #64
	b.hs	.Lunix_path_BB6_7
	sub	x10, x1, x9
	cmp	x10, #32
	b.hs	.Lunix_path_BB6_11
	b	.Lunix_path_BB6_16
.Lunix_path_BB6_10:
	sub	x9, x11, #32
	sub	x10, x1, x9
	cmp	x10, #32
	b.lo	.Lunix_path_BB6_16
.Lunix_path_BB6_11:
	add	x11, x0, x9
	add	x9, x2, x9
.Lunix_path_BB6_12:
	ldp	q0, q1, [x11], #32
	ldp	q2, q3, [x9], #32
	adrp	x12, .Lunix_path_CPI6_0
	cmeq	v1.16b, v1.16b, v3.16b
	cmeq	v0.16b, v0.16b, v2.16b
	ldr	q2, [x12, :lo12:.Lunix_path_CPI6_0]
	bic	v1.16b, v2.16b, v1.16b
	bic	v0.16b, v2.16b, v0.16b
	ext	v2.16b, v1.16b, v1.16b, #8
	ext	v3.16b, v0.16b, v0.16b, #8
	zip1	v1.16b, v1.16b, v2.16b
	zip1	v0.16b, v0.16b, v3.16b
	addv	h1, v1.8h
	addv	h0, v0.8h
	fmov	w12, s1
	fmov	w13, s0
	orr	w12, w13, w12
	tst	w12, #0xffff
	b.ne	.Lunix_path_BB6_14
	sub	x10, x10, #32
	cmp	x10, #32
	b.hs	.Lunix_path_BB6_12
	b	.Lunix_path_BB6_16
.Lunix_path_BB6_14:
	cmp	x10, #31
	b.ls	.Lunix_path_BB6_16
	mov	w0, #1
	eor	w0, w0, #0x1
	ldp	x29, x30, [sp], #16
	ret
.Lunix_path_BB6_16:
	add	x9, x0, x8
	add	x8, x2, x8
	ldp	q0, q3, [x8]
	ldp	q1, q2, [x9]
	cmeq	v0.16b, v1.16b, v0.16b
	cmeq	v1.16b, v2.16b, v3.16b
	mvn	v0.16b, v0.16b
	orn	v0.16b, v0.16b, v1.16b
	umaxv	b0, v0.16b
	fmov	w8, s0
	and	w0, w8, #0x1
	eor	w0, w0, #0x1
	ldp	x29, x30, [sp], #16
	ret
.Lunix_path_func_end6:
	.size	core.cmp.slices.groups_equal.i8.31.core.cmp.numbers.U8PartialEq., .Lunix_path_func_end6-core.cmp.slices.groups_equal.i8.31.core.cmp.numbers.U8PartialEq.
	.section	.text.upath_commands.options.request_by_word,"ax",@progbits
	.p2align	2
	.type	upath_commands.options.request_by_word,@function
// upath_commands::options::request_by_word
upath_commands.options.request_by_word:
	stp	x29, x30, [sp, #-16]!
	cmp	x1, #2
	mov	x29, sp
	b.eq	.Lunix_path_BB7_8
	cmp	x1, #9
	b.eq	.Lunix_path_BB7_6
	cmp	x1, #6
	b.ne	.Lunix_path_BB7_10
	ldr	w8, [x0]
	mov	w9, #11565
	movk	w9, #25960, lsl #16
	cmp	w8, w9
	b.ne	.Lunix_path_BB7_10
	adrp	x2, .Lunix_path_static.7
	add	x2, x2, :lo12:.Lunix_path_static.7
	mov	w1, #6
	bl	core.cmp.slices.groups_equal.i8.31.core.cmp.numbers.U8PartialEq.
	tbz	w0, #0, .Lunix_path_BB7_10
	mov	w1, wzr
	mov	w0, #1
	ldp	x29, x30, [sp], #16
	ret
.Lunix_path_BB7_6:
	mov	w9, #11565
	ldr	w8, [x0]
	movk	w9, #25960, lsl #16
	add	w9, w9, #224, lsl #12
	cmp	w8, w9
	b.ne	.Lunix_path_BB7_10
	adrp	x2, .Lunix_path_static.9
	add	x2, x2, :lo12:.Lunix_path_static.9
	mov	w1, #9
	bl	core.cmp.slices.groups_equal.i8.31.core.cmp.numbers.U8PartialEq.
	mov	w1, w0
	ldp	x29, x30, [sp], #16
	ret
.Lunix_path_BB7_8:
	ldrb	w8, [x0]
	cmp	w8, #45
	b.ne	.Lunix_path_BB7_10
	ldrb	w8, [x0, #1]
	mov	w1, wzr
	cmp	w8, #104
	cset	w0, eq
	ldp	x29, x30, [sp], #16
	ret
.Lunix_path_BB7_10:
	mov	w1, wzr
	mov	w0, wzr
	ldp	x29, x30, [sp], #16
	ret
.Lunix_path_func_end7:
	.size	upath_commands.options.request_by_word, .Lunix_path_func_end7-upath_commands.options.request_by_word
	.section	.text.upath_commands.options.command_by_name,"ax",@progbits
	.p2align	2
	.type	upath_commands.options.command_by_name,@function
// upath_commands::options::command_by_name
upath_commands.options.command_by_name:
	stp	x29, x30, [sp, #-64]!
	stp	x20, x19, [sp, #48]
	mov	x19, x1
	cmp	x1, #5
	mov	x20, x0
	stp	x24, x23, [sp, #16]
	mov	x29, sp
	stp	x22, x21, [sp, #32]
	b.le	.Lunix_path_BB8_7
	cmp	x19, #6
	b.eq	.Lunix_path_BB8_12
	cmp	x19, #7
	b.eq	.Lunix_path_BB8_15
	cmp	x19, #9
	b.ne	.Lunix_path_BB8_30
	ldr	w8, [x20]
	mov	w9, #28257
	movk	w9, #25955, lsl #16
	cmp	w8, w9
	b.ne	.Lunix_path_BB8_30
	adrp	x2, .Lunix_path_static.13
	add	x2, x2, :lo12:.Lunix_path_static.13
	mov	x0, x20
	mov	w1, #9
	bl	core.cmp.slices.groups_equal.i8.31.core.cmp.numbers.U8PartialEq.
	tbz	w0, #0, .Lunix_path_BB8_30
	mov	w0, #1
	mov	w1, #3
	ldp	x20, x19, [sp, #48]
	ldp	x22, x21, [sp, #32]
	ldp	x24, x23, [sp, #16]
	ldp	x29, x30, [sp], #64
	ret
.Lunix_path_BB8_7:
	cmp	x19, #4
	b.eq	.Lunix_path_BB8_18
	cmp	x19, #5
	b.ne	.Lunix_path_BB8_30
	ldr	w8, [x20]
	mov	w9, #24931
	movk	w9, #28526, lsl #16
	cmp	w8, w9
	b.ne	.Lunix_path_BB8_30
	adrp	x2, .Lunix_path_static.10
	add	x2, x2, :lo12:.Lunix_path_static.10
	mov	x0, x20
	mov	w1, #5
	bl	core.cmp.slices.groups_equal.i8.31.core.cmp.numbers.U8PartialEq.
	tbz	w0, #0, .Lunix_path_BB8_30
	mov	w1, wzr
	mov	w0, #1
	ldp	x20, x19, [sp, #48]
	ldp	x22, x21, [sp, #32]
	ldp	x24, x23, [sp, #16]
	ldp	x29, x30, [sp], #64
	ret
.Lunix_path_BB8_12:
	ldr	w8, [x20]
	mov	w9, #24944
	movk	w9, #25970, lsl #16
	cmp	w8, w9
	b.ne	.Lunix_path_BB8_30
	adrp	x2, .Lunix_path_static.12
	add	x2, x2, :lo12:.Lunix_path_static.12
	mov	x0, x20
	mov	w1, #6
	bl	core.cmp.slices.groups_equal.i8.31.core.cmp.numbers.U8PartialEq.
	tbz	w0, #0, .Lunix_path_BB8_30
	mov	w0, #1
	mov	w1, #2
	ldp	x20, x19, [sp, #48]
	ldp	x22, x21, [sp, #32]
	ldp	x24, x23, [sp, #16]
	ldp	x29, x30, [sp], #64
	ret
.Lunix_path_BB8_15:
	ldr	w8, [x20]
	mov	w9, #25970
	movk	w9, #28531, lsl #16
	cmp	w8, w9
	b.ne	.Lunix_path_BB8_30
	adrp	x2, .Lunix_path_static.11
	add	x2, x2, :lo12:.Lunix_path_static.11
	mov	x0, x20
	mov	w1, #7
	bl	core.cmp.slices.groups_equal.i8.31.core.cmp.numbers.U8PartialEq.
	tbz	w0, #0, .Lunix_path_BB8_30
	mov	w1, #1
	mov	w0, #1
	ldp	x20, x19, [sp, #48]
	ldp	x22, x21, [sp, #32]
	ldp	x24, x23, [sp, #16]
	ldp	x29, x30, [sp], #64
	ret
.Lunix_path_BB8_18:
	ldrb	w24, [x20]
	ldrb	w23, [x20, #1]
	ldrb	w22, [x20, #2]
	ldrb	w21, [x20, #3]
	cmp	w24, #110
	b.ne	.Lunix_path_BB8_24
	cmp	w23, #97
	b.ne	.Lunix_path_BB8_24
	cmp	w22, #109
	b.ne	.Lunix_path_BB8_24
	cmp	w21, #101
	b.ne	.Lunix_path_BB8_24
	adrp	x2, .Lunix_path_static.14
	add	x2, x2, :lo12:.Lunix_path_static.14
	mov	x0, x20
	mov	w1, #4
	bl	core.cmp.slices.groups_equal.i8.31.core.cmp.numbers.U8PartialEq.
	tbz	w0, #0, .Lunix_path_BB8_24
	mov	w0, #1
	mov	w1, #4
	ldp	x20, x19, [sp, #48]
	ldp	x22, x21, [sp, #32]
	ldp	x24, x23, [sp, #16]
	ldp	x29, x30, [sp], #64
	ret
.Lunix_path_BB8_24:
	cmp	w24, #115
	b.ne	.Lunix_path_BB8_30
	cmp	w23, #116
	b.ne	.Lunix_path_BB8_30
	cmp	w22, #101
	b.ne	.Lunix_path_BB8_30
	cmp	w21, #109
	b.ne	.Lunix_path_BB8_30
	adrp	x2, .Lunix_path_static.15
	add	x2, x2, :lo12:.Lunix_path_static.15
	mov	x0, x20
	mov	w1, #4
	bl	core.cmp.slices.groups_equal.i8.31.core.cmp.numbers.U8PartialEq.
	tbz	w0, #0, .Lunix_path_BB8_30
	mov	w0, #1
	mov	w1, #5
	ldp	x20, x19, [sp, #48]
	ldp	x22, x21, [sp, #32]
	ldp	x24, x23, [sp, #16]
	ldp	x29, x30, [sp], #64
	ret
.Lunix_path_BB8_30:
	adrp	x2, .Lunix_path_static.16
	add	x2, x2, :lo12:.Lunix_path_static.16
	mov	x0, x20
	mov	x1, x19
	mov	w3, #3
	bl	upath_commands.options.is
	tbz	w0, #0, .Lunix_path_BB8_32
	mov	w0, #1
	mov	w1, #6
	ldp	x20, x19, [sp, #48]
	ldp	x22, x21, [sp, #32]
	ldp	x24, x23, [sp, #16]
	ldp	x29, x30, [sp], #64
	ret
.Lunix_path_BB8_32:
	adrp	x2, .Lunix_path_static.17
	add	x2, x2, :lo12:.Lunix_path_static.17
	mov	x0, x20
	mov	x1, x19
	mov	w3, #5
	bl	upath_commands.options.is
	tbz	w0, #0, .Lunix_path_BB8_34
	mov	w0, #1
	mov	w1, #7
	ldp	x20, x19, [sp, #48]
	ldp	x22, x21, [sp, #32]
	ldp	x24, x23, [sp, #16]
	ldp	x29, x30, [sp], #64
	ret
.Lunix_path_BB8_34:
	adrp	x2, .Lunix_path_static.18
	add	x2, x2, :lo12:.Lunix_path_static.18
	mov	x0, x20
	mov	x1, x19
	mov	w3, #4
	bl	upath_commands.options.is
	tbz	w0, #0, .Lunix_path_BB8_36
	mov	w0, #1
	mov	w1, #8
	ldp	x20, x19, [sp, #48]
	ldp	x22, x21, [sp, #32]
	ldp	x24, x23, [sp, #16]
	ldp	x29, x30, [sp], #64
	ret
.Lunix_path_BB8_36:
	adrp	x2, .Lunix_path_static.19
	add	x2, x2, :lo12:.Lunix_path_static.19
	mov	x0, x20
	mov	x1, x19
	mov	w3, #5
	bl	upath_commands.options.is
	tbz	w0, #0, .Lunix_path_BB8_38
	mov	w0, #1
	mov	w1, #9
	ldp	x20, x19, [sp, #48]
	ldp	x22, x21, [sp, #32]
	ldp	x24, x23, [sp, #16]
	ldp	x29, x30, [sp], #64
	ret
.Lunix_path_BB8_38:
	adrp	x2, .Lunix_path_static.20
	add	x2, x2, :lo12:.Lunix_path_static.20
	mov	x0, x20
	mov	x1, x19
	mov	w3, #8
	bl	upath_commands.options.is
	tbz	w0, #0, .Lunix_path_BB8_40
	mov	w0, #1
	mov	w1, #10
	ldp	x20, x19, [sp, #48]
	ldp	x22, x21, [sp, #32]
	ldp	x24, x23, [sp, #16]
	ldp	x29, x30, [sp], #64
	ret
.Lunix_path_BB8_40:
	adrp	x2, .Lunix_path_static.21
	add	x2, x2, :lo12:.Lunix_path_static.21
	mov	x0, x20
	mov	x1, x19
	mov	w3, #3
	bl	upath_commands.options.is
	tbz	w0, #0, .Lunix_path_BB8_42
	mov	w0, #1
	mov	w1, #11
	ldp	x20, x19, [sp, #48]
	ldp	x22, x21, [sp, #32]
	ldp	x24, x23, [sp, #16]
	ldp	x29, x30, [sp], #64
	ret
.Lunix_path_BB8_42:
	adrp	x2, .Lunix_path_static.22
	add	x2, x2, :lo12:.Lunix_path_static.22
	mov	x0, x20
	mov	x1, x19
	mov	w3, #5
	bl	upath_commands.options.is
	tbz	w0, #0, .Lunix_path_BB8_44
	mov	w0, #1
	mov	w1, #12
	ldp	x20, x19, [sp, #48]
	ldp	x22, x21, [sp, #32]
	ldp	x24, x23, [sp, #16]
	ldp	x29, x30, [sp], #64
	ret
.Lunix_path_BB8_44:
	adrp	x2, .Lunix_path_static.23
	add	x2, x2, :lo12:.Lunix_path_static.23
	mov	x0, x20
	mov	x1, x19
	mov	w3, #7
	bl	upath_commands.options.is
	tbz	w0, #0, .Lunix_path_BB8_46
	mov	w0, #1
	mov	w1, #13
	ldp	x20, x19, [sp, #48]
	ldp	x22, x21, [sp, #32]
	ldp	x24, x23, [sp, #16]
	ldp	x29, x30, [sp], #64
	ret
.Lunix_path_BB8_46:
	adrp	x2, .Lunix_path_static.24
	add	x2, x2, :lo12:.Lunix_path_static.24
	mov	x0, x20
	mov	x1, x19
	mov	w3, #7
	bl	upath_commands.options.is
	tbz	w0, #0, .Lunix_path_BB8_48
	mov	w0, #1
	mov	w1, #14
	ldp	x20, x19, [sp, #48]
	ldp	x22, x21, [sp, #32]
	ldp	x24, x23, [sp, #16]
	ldp	x29, x30, [sp], #64
	ret
.Lunix_path_BB8_48:
	adrp	x2, .Lunix_path_static.25
	add	x2, x2, :lo12:.Lunix_path_static.25
	mov	x0, x20
	mov	x1, x19
	mov	w3, #5
	bl	upath_commands.options.is
	tbz	w0, #0, .Lunix_path_BB8_50
	mov	w0, #1
	mov	w1, #15
	ldp	x20, x19, [sp, #48]
	ldp	x22, x21, [sp, #32]
	ldp	x24, x23, [sp, #16]
	ldp	x29, x30, [sp], #64
	ret
.Lunix_path_BB8_50:
	adrp	x2, .Lunix_path_static.26
	add	x2, x2, :lo12:.Lunix_path_static.26
	mov	x0, x20
	mov	x1, x19
	mov	w3, #4
	bl	upath_commands.options.is
	tbz	w0, #0, .Lunix_path_BB8_52
	mov	w0, #1
	mov	w1, #16
	ldp	x20, x19, [sp, #48]
	ldp	x22, x21, [sp, #32]
	ldp	x24, x23, [sp, #16]
	ldp	x29, x30, [sp], #64
	ret
.Lunix_path_BB8_52:
	adrp	x2, .Lunix_path_static.27
	add	x2, x2, :lo12:.Lunix_path_static.27
	mov	x0, x20
	mov	x1, x19
	mov	w3, #4
	bl	upath_commands.options.is
	tbz	w0, #0, .Lunix_path_BB8_54
	mov	w0, #1
	mov	w1, #18
	ldp	x20, x19, [sp, #48]
	ldp	x22, x21, [sp, #32]
	ldp	x24, x23, [sp, #16]
	ldp	x29, x30, [sp], #64
	ret
.Lunix_path_BB8_54:
	adrp	x2, .Lunix_path_static.28
	add	x2, x2, :lo12:.Lunix_path_static.28
	mov	x0, x20
	mov	x1, x19
	mov	w3, #5
	bl	upath_commands.options.is
	mov	w8, #19
	cmp	w0, #0
	csel	w1, w8, wzr, ne
	ldp	x20, x19, [sp, #48]
	ldp	x22, x21, [sp, #32]
	ldp	x24, x23, [sp, #16]
	ldp	x29, x30, [sp], #64
	ret
.Lunix_path_func_end8:
	.size	upath_commands.options.command_by_name, .Lunix_path_func_end8-upath_commands.options.command_by_name
	.section	.text.upath_commands.items.push_item,"ax",@progbits
	.p2align	2
	.type	upath_commands.items.push_item,@function
// upath_commands::items::push_item
upath_commands.items.push_item:
	stp	x29, x30, [sp, #-64]!
	ldp	x9, x8, [x4, #8]
	mov	x29, sp
	str	x23, [sp, #16]
	stp	x22, x21, [sp, #32]
	cmp	x8, x9
	mov	w8, w0
	stp	x20, x19, [sp, #48]
	b.eq	.Lunix_path_BB9_2
.Lunix_path_BB9_1:
	mov	w10, #24
	ldr	x11, [x4]
	mov	w0, wzr
	madd	x10, x9, x10, x11
	strb	w8, [x10]
	add	x8, x9, #1
	strb	w1, [x10, #1]
	stp	x2, x3, [x10, #8]
	str	x8, [x4, #8]
	ldp	x20, x19, [sp, #48]
	ldr	x23, [sp, #16]
	ldp	x22, x21, [sp, #32]
	ldp	x29, x30, [sp], #64
	ret
.Lunix_path_BB9_2:
	mov	x0, x4
	mov	w19, w8
	mov	w20, w1
	mov	x21, x2
	mov	x22, x3
	mov	x23, x4
	bl	std_alloc.vec.Vec.grow_amortized.22ca91936d612ecb.
	cbz	w0, .Lunix_path_BB9_4
	ldr	x9, [x23, #8]
	mov	x4, x23
	mov	x3, x22
	mov	x2, x21
	mov	w1, w20
	mov	w8, w19
	b	.Lunix_path_BB9_1
.Lunix_path_BB9_4:
	mov	w0, #1
	ldp	x20, x19, [sp, #48]
	ldr	x23, [sp, #16]
	ldp	x22, x21, [sp, #32]
	ldp	x29, x30, [sp], #64
	ret
.Lunix_path_func_end9:
	.size	upath_commands.items.push_item, .Lunix_path_func_end9-upath_commands.items.push_item
	.section	.rodata.cst16,"aM",@progbits,16
	.p2align	4, 0x0
.Lunix_path_CPI10_0:
	.byte	1
	.byte	2
	.byte	4
	.byte	8
	.byte	16
	.byte	32
	.byte	64
	.byte	128
	.byte	1
	.byte	2
	.byte	4
	.byte	8
	.byte	16
	.byte	32
	.byte	64
	.byte	128
	.section	.text.unix_bytes.utf8.scans.scan_by_sequence,"ax",@progbits
	.p2align	2
	.type	unix_bytes.utf8.scans.scan_by_sequence,@function
// unix_bytes::utf8::scans::scan_by_sequence
unix_bytes.utf8.scans.scan_by_sequence:
	mov	x8, x1
	subs	x9, x1, x2
	b.eq	.Lunix_path_BB10_72
	add	x10, x0, x2
	b	.Lunix_path_BB10_4
.Lunix_path_BB10_2:
	mov	w12, #1
.Lunix_path_BB10_3:
	add	x10, x10, x12
	sub	x9, x9, x12
	cbz	x9, .Lunix_path_BB10_72
.Lunix_path_BB10_4:
	ldrsb	w11, [x10]
	tbnz	w11, #31, .Lunix_path_BB10_18
	cmp	x9, #8
	b.lo	.Lunix_path_BB10_2
	ldrsb	w11, [x10, #1]
	tbnz	w11, #31, .Lunix_path_BB10_2
	subs	x11, x9, #16
	b.lo	.Lunix_path_BB10_33
	cmp	x9, #64
	adrp	x12, .Lunix_path_CPI10_0
	mov	x13, xzr
	b.lo	.Lunix_path_BB10_13
	mov	x14, x9
.Lunix_path_BB10_10:
	add	x15, x10, x13
	ldr	q4, [x12, :lo12:.Lunix_path_CPI10_0]
	ldp	q0, q1, [x15]
	ldp	q2, q3, [x15, #32]
	cmlt	v0.16b, v0.16b, #0
	cmlt	v1.16b, v1.16b, #0
	cmlt	v3.16b, v3.16b, #0
	cmlt	v2.16b, v2.16b, #0
	and	v0.16b, v0.16b, v4.16b
	and	v1.16b, v1.16b, v4.16b
	and	v2.16b, v2.16b, v4.16b
	and	v3.16b, v3.16b, v4.16b
	addp	v0.16b, v0.16b, v1.16b
	addp	v1.16b, v2.16b, v3.16b
	addp	v0.16b, v0.16b, v1.16b
	addp	v0.16b, v0.16b, v0.16b
	fmov	x15, d0
	cbnz	x15, .Lunix_path_BB10_13
	sub	x14, x14, #64
	add	x13, x13, #64
	cmp	x14, #63
	b.hi	.Lunix_path_BB10_10
	and	x13, x9, #0xffffffffffffffc0
.Lunix_path_BB10_13:
	cmp	x13, x11
	b.hs	.Lunix_path_BB10_16
.Lunix_path_BB10_14:
	ldr	q0, [x10, x13]
	ldr	q1, [x12, :lo12:.Lunix_path_CPI10_0]
	cmlt	v0.16b, v0.16b, #0
	and	v0.16b, v0.16b, v1.16b
	addp	v0.16b, v0.16b, v0.16b
	addp	v0.16b, v0.16b, v0.16b
	addp	v0.16b, v0.16b, v0.16b
	umov	w14, v0.h[0]
	cbnz	w14, .Lunix_path_BB10_69
	add	x13, x13, #16
	cmp	x13, x11
	b.lo	.Lunix_path_BB10_14
.Lunix_path_BB10_16:
	ldr	q0, [x10, x11]
	ldr	q1, [x12, :lo12:.Lunix_path_CPI10_0]
	mov	x12, x9
	cmlt	v0.16b, v0.16b, #0
	and	v0.16b, v0.16b, v1.16b
	addp	v0.16b, v0.16b, v0.16b
	addp	v0.16b, v0.16b, v0.16b
	addp	v0.16b, v0.16b, v0.16b
	umov	w13, v0.h[0]
	cbz	w13, .Lunix_path_BB10_3
	umov	w12, v0.h[0]
	rbit	w12, w12
	clz	w12, w12
	add	x12, x11, x12
	b	.Lunix_path_BB10_3
.Lunix_path_BB10_18:
	and	w11, w11, #0xff
	sub	w12, w11, #194
	cmp	w12, #29
	b.hi	.Lunix_path_BB10_28
	cmp	x9, #1
	b.eq	.Lunix_path_BB10_102
	ldrsb	w11, [x10, #1]
	cmn	w11, #64
	b.ge	.Lunix_path_BB10_102
	sub	x12, x9, #2
	add	x11, x10, #2
	cmp	x12, #2
	b.lo	.Lunix_path_BB10_44
	ldrb	w13, [x11]
	sub	w13, w13, #194
	cmp	w13, #29
	b.hi	.Lunix_path_BB10_45
	and	x12, x9, #0xfffffffffffffffe
	mov	x14, xzr
	sub	x15, x9, #4
	sub	x13, x12, #2
.Lunix_path_BB10_24:
	add	x9, x10, x14
	mov	x12, x15
	ldrsb	w9, [x9, #3]
	cmn	w9, #65
	b.gt	.Lunix_path_BB10_70
	cmp	x12, #1
	b.ls	.Lunix_path_BB10_71
	add	x9, x10, x14
	ldrb	w9, [x9, #4]
	sub	w15, w9, #194
	add	x9, x14, #2
	cmp	w15, #29
	sub	x15, x12, #2
	mov	x14, x9
	b.ls	.Lunix_path_BB10_24
	add	x10, x11, x9
	mov	x9, x12
	cbnz	x12, .Lunix_path_BB10_4
	b	.Lunix_path_BB10_72
.Lunix_path_BB10_28:
	and	w12, w11, #0xf0
	cmp	w12, #224
	b.ne	.Lunix_path_BB10_39
	subs	x13, x9, #3
	b.lo	.Lunix_path_BB10_73
	ldrb	w12, [x10, #1]
	cmp	w11, #237
	b.eq	.Lunix_path_BB10_46
	cmp	w11, #224
	b.ne	.Lunix_path_BB10_47
	and	w14, w12, #0xe0
	cmp	w14, #160
	b.eq	.Lunix_path_BB10_48
	b	.Lunix_path_BB10_102
.Lunix_path_BB10_33:
	ldr	d0, [x10]
	cmlt	v0.8b, v0.8b, #0
	umaxv	b0, v0.8b
	fmov	w11, s0
	tbnz	w11, #0, .Lunix_path_BB10_35
	add	x11, x10, x9
	mov	x12, x9
	ldur	d0, [x11, #-8]
	cmlt	v0.8b, v0.8b, #0
	umaxv	b0, v0.8b
	fmov	w11, s0
	tbz	w11, #0, .Lunix_path_BB10_3
.Lunix_path_BB10_35:
	mov	x12, xzr
.Lunix_path_BB10_36:
	ldrsb	w11, [x10, x12]
	tbnz	w11, #31, .Lunix_path_BB10_3
	add	x12, x12, #1
	cmp	x9, x12
	b.ne	.Lunix_path_BB10_36
	mov	x12, x9
	b	.Lunix_path_BB10_3
.Lunix_path_BB10_39:
	sub	w12, w11, #240
	cmp	w12, #4
	b.hi	.Lunix_path_BB10_102
	cmp	x9, #4
	b.lo	.Lunix_path_BB10_79
	ldrb	w12, [x10, #1]
	cmp	w11, #244
	b.eq	.Lunix_path_BB10_50
	cmp	w11, #240
	b.ne	.Lunix_path_BB10_51
	sub	w13, w12, #144
	cmp	w13, #48
	b.lo	.Lunix_path_BB10_52
	b	.Lunix_path_BB10_102
.Lunix_path_BB10_44:
	add	x10, x11, xzr
	mov	x9, x12
	cbnz	x12, .Lunix_path_BB10_4
	b	.Lunix_path_BB10_72
.Lunix_path_BB10_45:
	add	x10, x11, xzr
	mov	x9, x12
	cbnz	x12, .Lunix_path_BB10_4
	b	.Lunix_path_BB10_72
.Lunix_path_BB10_46:
	sxtb	w14, w12
	cmn	w14, #96
	b.lt	.Lunix_path_BB10_48
	b	.Lunix_path_BB10_102
.Lunix_path_BB10_47:
	sxtb	w14, w12
	cmn	w14, #65
	b.gt	.Lunix_path_BB10_75
.Lunix_path_BB10_48:
	ldrsb	w14, [x10, #2]
	cmn	w14, #64
	b.ge	.Lunix_path_BB10_75
	add	x10, x10, #3
	mov	x9, x13
	cbnz	x13, .Lunix_path_BB10_4
	b	.Lunix_path_BB10_72
.Lunix_path_BB10_50:
	sxtb	w13, w12
	cmn	w13, #112
	b.lt	.Lunix_path_BB10_52
	b	.Lunix_path_BB10_102
.Lunix_path_BB10_51:
	sxtb	w13, w12
	cmn	w13, #65
	b.gt	.Lunix_path_BB10_82
.Lunix_path_BB10_52:
	ldrsb	w13, [x10, #2]
	cmn	w13, #65
	b.gt	.Lunix_path_BB10_82
	ldrsb	w13, [x10, #3]
	cmn	w13, #64
	b.ge	.Lunix_path_BB10_82
	subs	x11, x9, #4
	add	x10, x10, #4
	b.eq	.Lunix_path_BB10_68
	mov	x12, x10
	mov	x9, x11
.Lunix_path_BB10_56:
	cmp	x9, #4
	b.lo	.Lunix_path_BB10_67
	ldrb	w14, [x12]
	sub	w13, w14, #240
	cmp	w13, #4
	b.hi	.Lunix_path_BB10_67
	ldrb	w13, [x12, #1]
	cmp	w14, #244
	b.eq	.Lunix_path_BB10_61
	cmp	w14, #240
	b.ne	.Lunix_path_BB10_62
	sub	w13, w13, #144
	cmp	w13, #48
	b.lo	.Lunix_path_BB10_64
	b	.Lunix_path_BB10_67
.Lunix_path_BB10_61:
	sxtb	w13, w13
	cmn	w13, #112
	b.lt	.Lunix_path_BB10_64
	b	.Lunix_path_BB10_67
.Lunix_path_BB10_62:
	cmp	w14, #243
	b.hi	.Lunix_path_BB10_67
	sxtb	w13, w13
	cmn	w13, #65
	b.gt	.Lunix_path_BB10_67
.Lunix_path_BB10_64:
	ldrsb	w13, [x12, #2]
	cmn	w13, #65
	b.gt	.Lunix_path_BB10_67
	ldrsb	w13, [x12, #3]
	cmn	w13, #65
	b.gt	.Lunix_path_BB10_67
	subs	x9, x9, #4
	add	x12, x12, #4
	b.ne	.Lunix_path_BB10_56
.Lunix_path_BB10_67:
	sub	x11, x11, x9
	add	x10, x10, x11
	cbnz	x9, .Lunix_path_BB10_4
	b	.Lunix_path_BB10_72
.Lunix_path_BB10_68:
	mov	x9, xzr
	sub	x11, x11, xzr
	add	x10, x10, x11
	b	.Lunix_path_BB10_72
.Lunix_path_BB10_69:
	umov	w11, v0.h[0]
	rbit	w11, w11
	clz	w11, w11
	add	x12, x11, x13
	b	.Lunix_path_BB10_3
.Lunix_path_BB10_70:
	add	x12, x12, #2
	add	x10, x11, x14
	mov	x9, x12
	cbnz	x12, .Lunix_path_BB10_4
	b	.Lunix_path_BB10_72
.Lunix_path_BB10_71:
	add	x10, x11, x13
	mov	x9, x12
	cbnz	x12, .Lunix_path_BB10_4
.Lunix_path_BB10_72:
	mov	x1, xzr
	mov	x0, x8
	ret
.Lunix_path_BB10_73:
	cmp	x9, #1
	b.eq	.Lunix_path_BB10_102
	ldrb	w12, [x10, #1]
.Lunix_path_BB10_75:
	cmp	w11, #239
	b.gt	.Lunix_path_BB10_89
	cmp	w11, #224
	b.eq	.Lunix_path_BB10_101
.Lunix_path_BB10_77:
	cmp	w11, #237
	b.ne	.Lunix_path_BB10_105
	sxtb	w10, w12
	cmn	w10, #96
	b.ge	.Lunix_path_BB10_102
	b	.Lunix_path_BB10_106
.Lunix_path_BB10_79:
	cmp	x9, #1
	b.eq	.Lunix_path_BB10_97
	cmp	x9, #3
	b.ne	.Lunix_path_BB10_98
	ldrb	w12, [x10, #1]
.Lunix_path_BB10_82:
	cmp	w11, #239
	b.gt	.Lunix_path_BB10_86
	cmp	w11, #224
	b.eq	.Lunix_path_BB10_93
	cmp	w11, #237
	b.ne	.Lunix_path_BB10_92
	sxtb	w13, w12
	cmn	w13, #96
	b.lt	.Lunix_path_BB10_95
	b	.Lunix_path_BB10_102
.Lunix_path_BB10_86:
	cmp	w11, #240
	b.eq	.Lunix_path_BB10_94
	cmp	w11, #244
	b.ne	.Lunix_path_BB10_92
	sxtb	w13, w12
	cmn	w13, #113
	b.le	.Lunix_path_BB10_95
	b	.Lunix_path_BB10_102
.Lunix_path_BB10_89:
	cmp	w11, #240
	b.eq	.Lunix_path_BB10_107
	cmp	w11, #244
	b.ne	.Lunix_path_BB10_105
.Lunix_path_BB10_91:
	sxtb	w10, w12
	cmn	w10, #113
	b.le	.Lunix_path_BB10_106
	b	.Lunix_path_BB10_102
.Lunix_path_BB10_92:
	sxtb	w13, w12
	cmn	w13, #64
	b.lt	.Lunix_path_BB10_95
	b	.Lunix_path_BB10_99
.Lunix_path_BB10_93:
	and	w13, w12, #0xe0
	cmp	w13, #160
	b.eq	.Lunix_path_BB10_95
	b	.Lunix_path_BB10_102
.Lunix_path_BB10_94:
	sub	w13, w12, #144
	cmp	w13, #48
	b.hs	.Lunix_path_BB10_102
.Lunix_path_BB10_95:
	ldrsb	w10, [x10, #2]
	cmn	w10, #64
	b.ge	.Lunix_path_BB10_99
	mov	w1, #3
	sub	x0, x8, x9
	ret
.Lunix_path_BB10_97:
	mov	x1, x9
	sub	x0, x8, x9
	ret
.Lunix_path_BB10_98:
	ldrb	w12, [x10, #1]
.Lunix_path_BB10_99:
	cmp	w11, #239
	b.gt	.Lunix_path_BB10_103
	cmp	w11, #224
	b.ne	.Lunix_path_BB10_77
.Lunix_path_BB10_101:
	and	w10, w12, #0xe0
	cmp	w10, #160
	b.eq	.Lunix_path_BB10_106
.Lunix_path_BB10_102:
	mov	w1, #1
	sub	x0, x8, x9
	ret
.Lunix_path_BB10_103:
	cmp	w11, #240
	b.eq	.Lunix_path_BB10_107
	cmp	w11, #244
	b.eq	.Lunix_path_BB10_91
.Lunix_path_BB10_105:
	sxtb	w10, w12
	cmn	w10, #64
	b.ge	.Lunix_path_BB10_102
.Lunix_path_BB10_106:
	mov	w1, #2
	sub	x0, x8, x9
	ret
.Lunix_path_BB10_107:
	sub	w10, w12, #144
	cmp	w10, #48
	b.hs	.Lunix_path_BB10_102
	b	.Lunix_path_BB10_106
.Lunix_path_func_end10:
	.size	unix_bytes.utf8.scans.scan_by_sequence, .Lunix_path_func_end10-unix_bytes.utf8.scans.scan_by_sequence
	.section	.rodata.cst16,"aM",@progbits,16
	.p2align	4, 0x0
.Lunix_path_CPI11_0:
	.byte	1
	.byte	2
	.byte	4
	.byte	8
	.byte	16
	.byte	32
	.byte	64
	.byte	128
	.byte	1
	.byte	2
	.byte	4
	.byte	8
	.byte	16
	.byte	32
	.byte	64
	.byte	128
	.section	.text.unix_bytes.utf8.scans.scan_by_window,"ax",@progbits
	.p2align	2
	.type	unix_bytes.utf8.scans.scan_by_window,@function
// unix_bytes::utf8::scans::scan_by_window
unix_bytes.utf8.scans.scan_by_window:
	cmp	x2, x1
	b.hs	.Lunix_path_BB11_62
	add	x8, x0, x1
	b	.Lunix_path_BB11_5
.Lunix_path_BB11_2:
	mov	w11, #1
.Lunix_path_BB11_3:
	add	x2, x11, x2
.Lunix_path_BB11_4:
	cmp	x2, x1
	b.hs	.Lunix_path_BB11_62
.Lunix_path_BB11_5:
	add	x10, x0, x2
	sub	x11, x1, x2
	adrp	x9, .Lunix_path_CPI11_0
	ldrsb	w12, [x10]
	tbnz	w12, #31, .Lunix_path_BB11_14
	cmp	x11, #8
	b.lo	.Lunix_path_BB11_2
	ldrsb	w12, [x10, #1]
	tbnz	w12, #31, .Lunix_path_BB11_2
	subs	x12, x11, #16
	b.lo	.Lunix_path_BB11_23
	cmp	x11, #64
	b.lo	.Lunix_path_BB11_33
	mov	x13, xzr
	sub	x14, x1, x2
.Lunix_path_BB11_11:
	add	x15, x10, x13
	ldr	q4, [x9, :lo12:.Lunix_path_CPI11_0]
	ldp	q0, q1, [x15]
	ldp	q2, q3, [x15, #32]
	cmlt	v0.16b, v0.16b, #0
	cmlt	v1.16b, v1.16b, #0
	cmlt	v3.16b, v3.16b, #0
	cmlt	v2.16b, v2.16b, #0
	and	v0.16b, v0.16b, v4.16b
	and	v1.16b, v1.16b, v4.16b
	and	v2.16b, v2.16b, v4.16b
	and	v3.16b, v3.16b, v4.16b
	addp	v0.16b, v0.16b, v1.16b
	addp	v1.16b, v2.16b, v3.16b
	addp	v0.16b, v0.16b, v1.16b
	addp	v0.16b, v0.16b, v0.16b
	fmov	x15, d0
	cbnz	x15, .Lunix_path_BB11_34
	sub	x14, x14, #64
	add	x13, x13, #64
	cmp	x14, #63
	b.hi	.Lunix_path_BB11_11
	and	x13, x11, #0xffffffffffffffc0
	cmp	x13, x12
	b.lo	.Lunix_path_BB11_35
	b	.Lunix_path_BB11_37
.Lunix_path_BB11_14:
	and	w12, w12, #0xff
	sub	w13, w12, #194
	cmp	w13, #29
	b.hi	.Lunix_path_BB11_18
	cmp	x11, #2
	b.lo	.Lunix_path_BB11_91
	ldrsb	w10, [x10, #1]
	cmn	w10, #64
	b.ge	.Lunix_path_BB11_91
	mov	w10, #2
	add	x2, x10, x2
	cmp	x2, #3
	b.hs	.Lunix_path_BB11_49
	b	.Lunix_path_BB11_4
.Lunix_path_BB11_18:
	and	w13, w12, #0xf0
	cmp	w13, #224
	b.ne	.Lunix_path_BB11_28
	cmp	x11, #3
	b.lo	.Lunix_path_BB11_63
	ldrb	w11, [x10, #1]
	cmp	w12, #237
	b.eq	.Lunix_path_BB11_40
	cmp	w12, #224
	b.ne	.Lunix_path_BB11_41
	and	w13, w11, #0xe0
	cmp	w13, #160
	b.eq	.Lunix_path_BB11_42
	b	.Lunix_path_BB11_91
.Lunix_path_BB11_23:
	ldr	d0, [x10]
	cmlt	v0.8b, v0.8b, #0
	umaxv	b0, v0.8b
	fmov	w9, s0
	tbnz	w9, #0, .Lunix_path_BB11_25
	ldur	d0, [x8, #-8]
	cmlt	v0.8b, v0.8b, #0
	umaxv	b0, v0.8b
	fmov	w9, s0
	tbz	w9, #0, .Lunix_path_BB11_3
.Lunix_path_BB11_25:
	mov	x9, xzr
.Lunix_path_BB11_26:
	ldrsb	w12, [x10, x9]
	tbnz	w12, #31, .Lunix_path_BB11_39
	add	x9, x9, #1
	cmp	x11, x9
	b.ne	.Lunix_path_BB11_26
	b	.Lunix_path_BB11_3
.Lunix_path_BB11_28:
	sub	w13, w12, #240
	cmp	w13, #4
	b.hi	.Lunix_path_BB11_91
	cmp	x11, #4
	b.lo	.Lunix_path_BB11_69
	ldrb	w11, [x10, #1]
	cmp	w12, #244
	b.eq	.Lunix_path_BB11_44
	cmp	w12, #240
	b.ne	.Lunix_path_BB11_45
	sub	w13, w11, #144
	cmp	w13, #48
	b.lo	.Lunix_path_BB11_46
	b	.Lunix_path_BB11_91
.Lunix_path_BB11_33:
	mov	x13, xzr
.Lunix_path_BB11_34:
	cmp	x13, x12
	b.hs	.Lunix_path_BB11_37
.Lunix_path_BB11_35:
	ldr	q0, [x10, x13]
	ldr	q1, [x9, :lo12:.Lunix_path_CPI11_0]
	cmlt	v0.16b, v0.16b, #0
	and	v0.16b, v0.16b, v1.16b
	addp	v0.16b, v0.16b, v0.16b
	addp	v0.16b, v0.16b, v0.16b
	addp	v0.16b, v0.16b, v0.16b
	umov	w14, v0.h[0]
	cbnz	w14, .Lunix_path_BB11_61
	add	x13, x13, #16
	cmp	x13, x12
	b.lo	.Lunix_path_BB11_35
.Lunix_path_BB11_37:
	ldr	q0, [x10, x12]
	ldr	q1, [x9, :lo12:.Lunix_path_CPI11_0]
	cmlt	v0.16b, v0.16b, #0
	and	v0.16b, v0.16b, v1.16b
	addp	v0.16b, v0.16b, v0.16b
	addp	v0.16b, v0.16b, v0.16b
	addp	v0.16b, v0.16b, v0.16b
	umov	w9, v0.h[0]
	cbz	w9, .Lunix_path_BB11_3
	umov	w9, v0.h[0]
	rbit	w9, w9
	clz	w9, w9
	add	x11, x12, x9
	b	.Lunix_path_BB11_3
.Lunix_path_BB11_39:
	mov	x11, x9
	b	.Lunix_path_BB11_3
.Lunix_path_BB11_40:
	sxtb	w13, w11
	cmn	w13, #96
	b.lt	.Lunix_path_BB11_42
	b	.Lunix_path_BB11_91
.Lunix_path_BB11_41:
	sxtb	w13, w11
	cmn	w13, #65
	b.gt	.Lunix_path_BB11_65
.Lunix_path_BB11_42:
	ldrsb	w10, [x10, #2]
	cmn	w10, #64
	b.ge	.Lunix_path_BB11_65
	mov	w10, #3
	add	x2, x10, x2
	cmp	x2, #3
	b.hs	.Lunix_path_BB11_49
	b	.Lunix_path_BB11_4
.Lunix_path_BB11_44:
	sxtb	w13, w11
	cmn	w13, #112
	b.lt	.Lunix_path_BB11_46
	b	.Lunix_path_BB11_91
.Lunix_path_BB11_45:
	sxtb	w13, w11
	cmn	w13, #65
	b.gt	.Lunix_path_BB11_71
.Lunix_path_BB11_46:
	ldrsb	w13, [x10, #2]
	cmn	w13, #65
	b.gt	.Lunix_path_BB11_71
	ldrsb	w13, [x10, #3]
	cmn	w13, #64
	b.ge	.Lunix_path_BB11_71
	mov	w10, #4
	add	x2, x10, x2
	cmp	x2, #3
	b.lo	.Lunix_path_BB11_4
.Lunix_path_BB11_49:
	sub	x10, x1, x2
	cmp	x10, #16
	b.hs	.Lunix_path_BB11_52
	b	.Lunix_path_BB11_4
.Lunix_path_BB11_50:
	mov	w10, #15
.Lunix_path_BB11_51:
	add	x2, x10, x2
	sub	x10, x1, x2
	cmp	x10, #15
	b.ls	.Lunix_path_BB11_4
.Lunix_path_BB11_52:
	add	x10, x0, x2
	ldr	q2, [x9, :lo12:.Lunix_path_CPI11_0]
	ldr	q0, [x10]
	cmlt	v1.16b, v0.16b, #0
	and	v1.16b, v1.16b, v2.16b
	addp	v1.16b, v1.16b, v1.16b
	addp	v1.16b, v1.16b, v1.16b
	addp	v3.16b, v1.16b, v1.16b
	umov	w11, v3.h[0]
	cbz	w11, .Lunix_path_BB11_4
	movi	v4.16b, #192
	movi	v5.16b, #224
	ldur	q6, [x10, #-2]
	ldur	q1, [x10, #-1]
	movi	v7.16b, #240
	umov	w12, v3.h[0]
	cmhi	v16.16b, v4.16b, v1.16b
	cmhi	v5.16b, v5.16b, v6.16b
	ldur	q6, [x10, #-3]
	cmhs	v4.16b, v0.16b, v4.16b
	cmhi	v6.16b, v7.16b, v6.16b
	and	v5.16b, v5.16b, v16.16b
	and	v4.16b, v4.16b, v2.16b
	and	v5.16b, v6.16b, v5.16b
	addp	v4.16b, v4.16b, v4.16b
	bic	v5.16b, v2.16b, v5.16b
	addp	v4.16b, v4.16b, v4.16b
	addp	v5.16b, v5.16b, v5.16b
	addp	v4.16b, v4.16b, v4.16b
	addp	v5.16b, v5.16b, v5.16b
	umov	w10, v4.h[0]
	addp	v5.16b, v5.16b, v5.16b
	umov	w11, v5.h[0]
	add	x10, x11, w10, uxth
	cmp	x10, w12, uxth
	b.ne	.Lunix_path_BB11_4
	movi	v3.16b, #194
	cmhs	v3.16b, v0.16b, v3.16b
	and	v3.16b, v3.16b, v2.16b
	addp	v3.16b, v3.16b, v3.16b
	addp	v3.16b, v3.16b, v3.16b
	addp	v3.16b, v3.16b, v3.16b
	cmeq	v3.8h, v4.8h, v3.8h
	xtn	v3.8b, v3.8h
	umov	w10, v3.b[0]
	tbz	w10, #0, .Lunix_path_BB11_4
	movi	v3.16b, #240
	movi	v4.16b, #224
	movi	v5.16b, #144
	movi	v6.16b, #160
	cmeq	v3.16b, v1.16b, v3.16b
	cmeq	v4.16b, v1.16b, v4.16b
	bic	v3.16b, v3.16b, v4.16b
	and	v4.16b, v4.16b, v6.16b
	and	v3.16b, v3.16b, v5.16b
	orr	v3.16b, v4.16b, v3.16b
	cmhi	v3.16b, v3.16b, v0.16b
	and	v3.16b, v3.16b, v2.16b
	addp	v3.16b, v3.16b, v3.16b
	addp	v3.16b, v3.16b, v3.16b
	addp	v3.16b, v3.16b, v3.16b
	umov	w10, v3.h[0]
	cbnz	w10, .Lunix_path_BB11_4
	movi	v3.16b, #244
	movi	v4.16b, #143
	movi	v6.16b, #237
	cmeq	v5.16b, v1.16b, v3.16b
	bit	v3.16b, v4.16b, v5.16b
	movi	v4.16b, #159
	cmeq	v5.16b, v1.16b, v6.16b
	bit	v3.16b, v4.16b, v5.16b
	cmhi	v3.16b, v0.16b, v3.16b
	and	v2.16b, v3.16b, v2.16b
	addp	v2.16b, v2.16b, v2.16b
	addp	v2.16b, v2.16b, v2.16b
	addp	v2.16b, v2.16b, v2.16b
	umov	w10, v2.h[0]
	cbnz	w10, .Lunix_path_BB11_4
	umov	w10, v0.b[15]
	and	w10, w10, #0xff
	cmp	w10, #191
	b.hi	.Lunix_path_BB11_50
	umov	w10, v1.b[15]
	and	w10, w10, #0xff
	cmp	w10, #223
	b.ls	.Lunix_path_BB11_60
	mov	w10, #14
	b	.Lunix_path_BB11_51
.Lunix_path_BB11_60:
	umov	w10, v1.b[14]
	mov	w11, #13
	and	w10, w10, #0xff
	cmp	w10, #239
	mov	w10, #16
	csel	x10, x11, x10, hi
	b	.Lunix_path_BB11_51
.Lunix_path_BB11_61:
	umov	w9, v0.h[0]
	rbit	w9, w9
	clz	w9, w9
	add	x11, x9, x13
	b	.Lunix_path_BB11_3
.Lunix_path_BB11_62:
	mov	x1, xzr
	mov	x0, x2
	ret
.Lunix_path_BB11_63:
	cmp	x11, #2
	b.ne	.Lunix_path_BB11_91
	ldrb	w11, [x10, #1]
.Lunix_path_BB11_65:
	cmp	w12, #239
	b.gt	.Lunix_path_BB11_78
	cmp	w12, #224
	b.eq	.Lunix_path_BB11_90
.Lunix_path_BB11_67:
	cmp	w12, #237
	b.ne	.Lunix_path_BB11_94
	sxtb	w8, w11
	cmn	w8, #96
	b.ge	.Lunix_path_BB11_91
	b	.Lunix_path_BB11_95
.Lunix_path_BB11_69:
	cmp	x11, #3
	b.ne	.Lunix_path_BB11_86
	ldrb	w11, [x10, #1]
.Lunix_path_BB11_71:
	cmp	w12, #239
	b.gt	.Lunix_path_BB11_75
	cmp	w12, #224
	b.eq	.Lunix_path_BB11_82
	cmp	w12, #237
	b.ne	.Lunix_path_BB11_81
	sxtb	w8, w11
	cmn	w8, #96
	b.lt	.Lunix_path_BB11_84
	b	.Lunix_path_BB11_91
.Lunix_path_BB11_75:
	cmp	w12, #240
	b.eq	.Lunix_path_BB11_83
	cmp	w12, #244
	b.ne	.Lunix_path_BB11_81
	sxtb	w8, w11
	cmn	w8, #113
	b.le	.Lunix_path_BB11_84
	b	.Lunix_path_BB11_91
.Lunix_path_BB11_78:
	cmp	w12, #240
	b.eq	.Lunix_path_BB11_96
	cmp	w12, #244
	b.ne	.Lunix_path_BB11_94
.Lunix_path_BB11_80:
	sxtb	w8, w11
	cmn	w8, #113
	b.le	.Lunix_path_BB11_95
	b	.Lunix_path_BB11_91
.Lunix_path_BB11_81:
	sxtb	w8, w11
	cmn	w8, #64
	b.lt	.Lunix_path_BB11_84
	b	.Lunix_path_BB11_88
.Lunix_path_BB11_82:
	and	w8, w11, #0xe0
	cmp	w8, #160
	b.eq	.Lunix_path_BB11_84
	b	.Lunix_path_BB11_91
.Lunix_path_BB11_83:
	sub	w8, w11, #144
	cmp	w8, #48
	b.hs	.Lunix_path_BB11_91
.Lunix_path_BB11_84:
	ldrsb	w8, [x10, #2]
	cmn	w8, #64
	b.ge	.Lunix_path_BB11_88
	mov	w1, #3
	mov	x0, x2
	ret
.Lunix_path_BB11_86:
	cmp	x11, #2
	b.lo	.Lunix_path_BB11_91
	ldrb	w11, [x10, #1]
.Lunix_path_BB11_88:
	cmp	w12, #239
	b.gt	.Lunix_path_BB11_92
	cmp	w12, #224
	b.ne	.Lunix_path_BB11_67
.Lunix_path_BB11_90:
	and	w8, w11, #0xe0
	cmp	w8, #160
	b.eq	.Lunix_path_BB11_95
.Lunix_path_BB11_91:
	mov	w1, #1
	mov	x0, x2
	ret
.Lunix_path_BB11_92:
	cmp	w12, #240
	b.eq	.Lunix_path_BB11_96
	cmp	w12, #244
	b.eq	.Lunix_path_BB11_80
.Lunix_path_BB11_94:
	sxtb	w8, w11
	cmn	w8, #64
	b.ge	.Lunix_path_BB11_91
.Lunix_path_BB11_95:
	mov	w1, #2
	mov	x0, x2
	ret
.Lunix_path_BB11_96:
	sub	w8, w11, #144
	cmp	w8, #48
	b.hs	.Lunix_path_BB11_91
	b	.Lunix_path_BB11_95
.Lunix_path_func_end11:
	.size	unix_bytes.utf8.scans.scan_by_window, .Lunix_path_func_end11-unix_bytes.utf8.scans.scan_by_window
	.section	.text.upath_commands.arguments.each_after,"ax",@progbits
	.p2align	2
	.type	upath_commands.arguments.each_after,@function
// upath_commands::arguments::each_after
upath_commands.arguments.each_after:
	sub	sp, sp, #320
	ldr	x8, [x3, #32]
	movi	v0.2d, #0000000000000000
	stp	x26, x25, [sp, #256]
	stp	x20, x19, [sp, #304]
	ldp	x26, x25, [x3]
	str	x8, [sp, #80]
	mov	x19, x0
	ldr	q1, [x3, #16]
	ldp	x20, x8, [x4]
	stp	x24, x23, [sp, #272]
	add	x23, sp, #96
	ldr	x24, [x4, #16]
	stp	x29, x30, [sp, #224]
	add	x29, sp, #224
	stp	x28, x27, [sp, #240]
	stp	x22, x21, [sp, #288]
	str	q1, [sp, #64]
	stp	q0, q0, [sp, #96]
	stp	q0, q0, [sp, #128]
	stp	q0, q0, [sp, #160]
	str	xzr, [sp, #192]
	cbz	x8, .Lunix_path_BB12_9
	ldp	x21, x22, [x20]
	sub	x27, x8, #1
	cmp	x27, #129
	b.lo	.Lunix_path_BB12_13
	mov	x8, xzr
	add	x9, x20, #16
.Lunix_path_BB12_3:
	mov	w10, #128
	mov	x11, x9
.Lunix_path_BB12_4:
	ldr	q0, [x11]
	subs	x10, x10, #1
	stur	q0, [x11, #-16]
	add	x11, x11, #16
	b.ne	.Lunix_path_BB12_4
	add	x8, x8, #128
	add	x9, x9, #2048
	sub	x10, x27, x8
	cmp	x10, #128
	b.hi	.Lunix_path_BB12_3
	cmp	x27, x8
	b.eq	.Lunix_path_BB12_8
.Lunix_path_BB12_7:
	add	x0, x20, x8, lsl #4
	lsl	x2, x10, #4
	mov	w28, w1
	add	x1, x0, #16
	bl	memmove
	mov	w1, w28
.Lunix_path_BB12_8:
	ldr	q0, [sp, #64]
	ldr	x8, [sp, #80]
	add	x0, sp, #96
	add	x4, sp, #24
	mov	x6, sp
	mov	x2, x21
	mov	x3, x22
	mov	w5, #2
	stp	x26, x25, [sp, #24]
	stur	q0, [sp, #40]
	str	x8, [sp, #56]
	stp	x20, x27, [sp]
	str	x24, [sp, #16]
	bl	upath_commands.arguments.each
	ldur	q0, [sp, #104]
	ldrb	w8, [sp, #96]
	ldur	q1, [sp, #120]
	stur	q0, [x19, #8]
	ldur	q0, [x23, #40]
	str	x8, [x19]
	ldrb	w8, [sp, #168]
	stur	q0, [x19, #40]
	ldur	q0, [x23, #56]
	str	x8, [x19, #72]
	ldr	x8, [sp, #192]
	stur	q0, [x19, #56]
	ldr	q0, [sp, #176]
	stur	q1, [x19, #24]
	str	q0, [x19, #80]
	str	x8, [x19, #96]
	b	.Lunix_path_BB12_12
.Lunix_path_BB12_9:
	and	x8, x2, #0xff
	orr	x21, x23, #0x8
	str	xzr, [sp, #160]
	stp	q0, q0, [sp, #128]
	stp	x8, x26, [sp, #104]
	str	x25, [sp, #120]
	cbz	x24, .Lunix_path_BB12_11
	mov	x0, x20
	bl	rattle_dealloc
.Lunix_path_BB12_11:
	ldp	q0, q1, [x21]
	movi	v3.2d, #0000000000000000
	mov	w8, #1
	str	x8, [x19]
	stur	q0, [x19, #8]
	ldp	q2, q0, [x21, #32]
	stur	q1, [x19, #24]
	stur	q3, [x19, #72]
	stur	q2, [x19, #40]
	stur	q0, [x19, #56]
	stur	q3, [x19, #88]
.Lunix_path_BB12_12:
	ldp	x20, x19, [sp, #304]
	ldp	x22, x21, [sp, #288]
	ldp	x24, x23, [sp, #272]
	ldp	x26, x25, [sp, #256]
	ldp	x28, x27, [sp, #240]
	ldp	x29, x30, [sp, #224]
	add	sp, sp, #320
	ret
.Lunix_path_BB12_13:
	mov	x8, xzr
	mov	x10, x27
	cmp	x27, xzr
	b.ne	.Lunix_path_BB12_7
	b	.Lunix_path_BB12_8
.Lunix_path_func_end12:
	.size	upath_commands.arguments.each_after, .Lunix_path_func_end12-upath_commands.arguments.each_after
	.section	.text.upath_commands.arguments.options_of,"ax",@progbits
	.p2align	2
	.type	upath_commands.arguments.options_of,@function
// upath_commands::arguments::options_of
upath_commands.arguments.options_of:
	cbz	x2, .Lunix_path_BB13_48
	add	x8, x1, #1
	mov	x9, x2
	b	.Lunix_path_BB13_3
.Lunix_path_BB13_2:
	subs	x9, x9, #1
	add	x8, x8, #24
	b.eq	.Lunix_path_BB13_6
.Lunix_path_BB13_3:
	ldurb	w10, [x8, #-1]
	cmp	w10, #2
	b.ne	.Lunix_path_BB13_2
	ldrb	w10, [x8]
	cbnz	w10, .Lunix_path_BB13_2
	mov	w8, #1
	b	.Lunix_path_BB13_7
.Lunix_path_BB13_6:
	mov	w8, wzr
.Lunix_path_BB13_7:
	add	x9, x1, #1
	mov	x10, x2
	b	.Lunix_path_BB13_9
.Lunix_path_BB13_8:
	subs	x10, x10, #1
	add	x9, x9, #24
	b.eq	.Lunix_path_BB13_12
.Lunix_path_BB13_9:
	ldurb	w11, [x9, #-1]
	cmp	w11, #2
	b.ne	.Lunix_path_BB13_8
	ldrb	w11, [x9]
	cmp	w11, #1
	b.ne	.Lunix_path_BB13_8
	mov	w9, #1
	b	.Lunix_path_BB13_13
.Lunix_path_BB13_12:
	mov	w9, wzr
.Lunix_path_BB13_13:
	add	x10, x1, #1
	mov	x11, x2
	b	.Lunix_path_BB13_15
.Lunix_path_BB13_14:
	subs	x11, x11, #1
	add	x10, x10, #24
	b.eq	.Lunix_path_BB13_18
.Lunix_path_BB13_15:
	ldurb	w12, [x10, #-1]
	cmp	w12, #2
	b.ne	.Lunix_path_BB13_14
	ldrb	w12, [x10]
	cmp	w12, #2
	b.ne	.Lunix_path_BB13_14
	mov	w10, #1
	b	.Lunix_path_BB13_19
.Lunix_path_BB13_18:
	mov	w10, wzr
.Lunix_path_BB13_19:
	add	x11, x1, #1
	mov	x12, x2
	b	.Lunix_path_BB13_21
.Lunix_path_BB13_20:
	subs	x12, x12, #1
	add	x11, x11, #24
	b.eq	.Lunix_path_BB13_24
.Lunix_path_BB13_21:
	ldurb	w13, [x11, #-1]
	cmp	w13, #2
	b.ne	.Lunix_path_BB13_20
	ldrb	w13, [x11]
	cmp	w13, #4
	b.ne	.Lunix_path_BB13_20
	mov	w11, #1
	b	.Lunix_path_BB13_25
.Lunix_path_BB13_24:
	mov	w11, wzr
.Lunix_path_BB13_25:
	add	x12, x1, #1
	mov	x13, x2
	b	.Lunix_path_BB13_27
.Lunix_path_BB13_26:
	subs	x13, x13, #1
	add	x12, x12, #24
	b.eq	.Lunix_path_BB13_30
.Lunix_path_BB13_27:
	ldurb	w14, [x12, #-1]
	cmp	w14, #2
	b.ne	.Lunix_path_BB13_26
	ldrb	w14, [x12]
	cmp	w14, #5
	b.ne	.Lunix_path_BB13_26
	mov	w12, #1
	b	.Lunix_path_BB13_31
.Lunix_path_BB13_30:
	mov	w12, wzr
.Lunix_path_BB13_31:
	add	x13, x1, #1
	mov	x14, x2
	b	.Lunix_path_BB13_33
.Lunix_path_BB13_32:
	subs	x14, x14, #1
	add	x13, x13, #24
	b.eq	.Lunix_path_BB13_36
.Lunix_path_BB13_33:
	ldurb	w15, [x13, #-1]
	cmp	w15, #2
	b.ne	.Lunix_path_BB13_32
	ldrb	w15, [x13]
	cmp	w15, #6
	b.ne	.Lunix_path_BB13_32
	mov	w13, #1
	b	.Lunix_path_BB13_37
.Lunix_path_BB13_36:
	mov	w13, wzr
.Lunix_path_BB13_37:
	add	x14, x1, #1
	mov	x15, x2
	b	.Lunix_path_BB13_39
.Lunix_path_BB13_38:
	subs	x15, x15, #1
	add	x14, x14, #24
	b.eq	.Lunix_path_BB13_45
.Lunix_path_BB13_39:
	ldurb	w16, [x14, #-1]
	cmp	w16, #2
	b.ne	.Lunix_path_BB13_38
	ldrb	w16, [x14]
	cmp	w16, #7
	b.ne	.Lunix_path_BB13_38
	mov	w14, #1
	cbnz	w12, .Lunix_path_BB13_46
.Lunix_path_BB13_42:
	cbz	w13, .Lunix_path_BB13_50
	tbnz	w14, #0, .Lunix_path_BB13_47
	mov	w12, #2
	b	.Lunix_path_BB13_52
.Lunix_path_BB13_45:
	mov	w14, wzr
	cbz	w12, .Lunix_path_BB13_42
.Lunix_path_BB13_46:
	orr	w12, w13, w14
	tbz	w12, #0, .Lunix_path_BB13_51
.Lunix_path_BB13_47:
	mov	w12, wzr
	b	.Lunix_path_BB13_52
.Lunix_path_BB13_48:
	mov	w3, wzr
	mov	w17, wzr
	mov	w15, wzr
	mov	w13, wzr
	mov	w11, wzr
	mov	w9, wzr
	mov	w8, wzr
	mov	w10, wzr
	mov	w12, wzr
	mov	w14, wzr
	mov	w16, wzr
	mov	w18, wzr
.Lunix_path_BB13_49:
	mov	w1, wzr
	b	.Lunix_path_BB13_99
.Lunix_path_BB13_50:
	cmp	w14, #0
	mov	w12, #3
	csel	w12, w12, wzr, ne
	b	.Lunix_path_BB13_52
.Lunix_path_BB13_51:
	mov	w12, #1
.Lunix_path_BB13_52:
	add	x13, x1, #1
	mov	x14, x2
	b	.Lunix_path_BB13_54
.Lunix_path_BB13_53:
	subs	x14, x14, #1
	add	x13, x13, #24
	b.eq	.Lunix_path_BB13_57
.Lunix_path_BB13_54:
	ldurb	w15, [x13, #-1]
	cmp	w15, #2
	b.ne	.Lunix_path_BB13_53
	ldrb	w15, [x13]
	cmp	w15, #9
	b.ne	.Lunix_path_BB13_53
	mov	w13, #1
	b	.Lunix_path_BB13_58
.Lunix_path_BB13_57:
	mov	w13, wzr
.Lunix_path_BB13_58:
	add	x14, x1, #1
	mov	x15, x2
	b	.Lunix_path_BB13_60
.Lunix_path_BB13_59:
	subs	x15, x15, #1
	add	x14, x14, #24
	b.eq	.Lunix_path_BB13_63
.Lunix_path_BB13_60:
	ldurb	w16, [x14, #-1]
	cmp	w16, #2
	b.ne	.Lunix_path_BB13_59
	ldrb	w16, [x14]
	cmp	w16, #10
	b.ne	.Lunix_path_BB13_59
	mov	w14, #1
	b	.Lunix_path_BB13_64
.Lunix_path_BB13_63:
	mov	w14, wzr
.Lunix_path_BB13_64:
	add	x15, x1, #1
	mov	x16, x2
	b	.Lunix_path_BB13_66
.Lunix_path_BB13_65:
	subs	x16, x16, #1
	add	x15, x15, #24
	b.eq	.Lunix_path_BB13_69
.Lunix_path_BB13_66:
	ldurb	w17, [x15, #-1]
	cmp	w17, #2
	b.ne	.Lunix_path_BB13_65
	ldrb	w17, [x15]
	cmp	w17, #17
	b.ne	.Lunix_path_BB13_65
	mov	w15, #1
	b	.Lunix_path_BB13_70
.Lunix_path_BB13_69:
	mov	w15, wzr
.Lunix_path_BB13_70:
	add	x16, x1, #1
	mov	x17, x2
	b	.Lunix_path_BB13_72
.Lunix_path_BB13_71:
	subs	x17, x17, #1
	add	x16, x16, #24
	b.eq	.Lunix_path_BB13_75
.Lunix_path_BB13_72:
	ldurb	w18, [x16, #-1]
	cmp	w18, #2
	b.ne	.Lunix_path_BB13_71
	ldrb	w18, [x16]
	cmp	w18, #16
	b.ne	.Lunix_path_BB13_71
	mov	w16, #1
	b	.Lunix_path_BB13_76
.Lunix_path_BB13_75:
	mov	w16, wzr
.Lunix_path_BB13_76:
	add	x17, x1, #1
	mov	x18, x2
	b	.Lunix_path_BB13_78
.Lunix_path_BB13_77:
	subs	x18, x18, #1
	add	x17, x17, #24
	b.eq	.Lunix_path_BB13_81
.Lunix_path_BB13_78:
	ldurb	w3, [x17, #-1]
	cmp	w3, #2
	b.ne	.Lunix_path_BB13_77
	ldrb	w3, [x17]
	cmp	w3, #11
	b.ne	.Lunix_path_BB13_77
	mov	w17, #1
	b	.Lunix_path_BB13_82
.Lunix_path_BB13_81:
	mov	w17, wzr
.Lunix_path_BB13_82:
	add	x18, x1, #1
	mov	x3, x2
	b	.Lunix_path_BB13_84
.Lunix_path_BB13_83:
	subs	x3, x3, #1
	add	x18, x18, #24
	b.eq	.Lunix_path_BB13_87
.Lunix_path_BB13_84:
	ldurb	w4, [x18, #-1]
	cmp	w4, #2
	b.ne	.Lunix_path_BB13_83
	ldrb	w4, [x18]
	cmp	w4, #12
	b.ne	.Lunix_path_BB13_83
	mov	w18, #1
	b	.Lunix_path_BB13_88
.Lunix_path_BB13_87:
	mov	w18, wzr
.Lunix_path_BB13_88:
	add	x3, x1, #1
	mov	x4, x2
	b	.Lunix_path_BB13_90
.Lunix_path_BB13_89:
	subs	x4, x4, #1
	add	x3, x3, #24
	b.eq	.Lunix_path_BB13_93
.Lunix_path_BB13_90:
	ldurb	w5, [x3, #-1]
	cmp	w5, #2
	b.ne	.Lunix_path_BB13_89
	ldrb	w5, [x3]
	cmp	w5, #14
	b.ne	.Lunix_path_BB13_89
	mov	w3, #1
	b	.Lunix_path_BB13_94
.Lunix_path_BB13_93:
	mov	w3, wzr
.Lunix_path_BB13_94:
	add	x1, x1, #1
	b	.Lunix_path_BB13_96
.Lunix_path_BB13_95:
	subs	x2, x2, #1
	add	x1, x1, #24
	b.eq	.Lunix_path_BB13_49
.Lunix_path_BB13_96:
	ldurb	w4, [x1, #-1]
	cmp	w4, #2
	b.ne	.Lunix_path_BB13_95
	ldrb	w4, [x1]
	cmp	w4, #15
	b.ne	.Lunix_path_BB13_95
	mov	w1, #1
.Lunix_path_BB13_99:
	strb	w8, [x0]
	strb	w9, [x0, #1]
	strb	w10, [x0, #2]
	strb	w11, [x0, #3]
	strb	w12, [x0, #4]
	strb	w13, [x0, #5]
	strb	w14, [x0, #6]
	strb	w15, [x0, #7]
	strb	w16, [x0, #8]
	strb	w17, [x0, #9]
	strb	w18, [x0, #10]
	strb	w3, [x0, #11]
	strb	w1, [x0, #12]
	ret
.Lunix_path_func_end13:
	.size	upath_commands.arguments.options_of, .Lunix_path_func_end13-upath_commands.arguments.options_of
	.section	.text.upath_commands.arguments.each,"ax",@progbits
	.p2align	2
	.type	upath_commands.arguments.each,@function
// upath_commands::arguments::each
upath_commands.arguments.each:
	sub	sp, sp, #160
	stp	x26, x25, [sp, #96]
	ldp	x25, x26, [x4, #16]
	stp	x28, x27, [sp, #80]
	ldr	x27, [x6, #16]
	stp	x22, x21, [sp, #128]
	ldp	x22, x28, [x6]
	stp	x24, x23, [sp, #112]
	mov	w23, w1
	mov	x1, x25
	stp	x20, x19, [sp, #144]
	mov	x19, x0
	add	x0, sp, #32
	stp	x2, x3, [sp]
	ldr	x20, [x4, #32]
	mov	x2, x26
	stp	x29, x30, [sp, #64]
	add	x29, sp, #64
	mov	x24, x5
	str	xzr, [sp, #32]
	stur	xzr, [sp, #37]
	bl	upath_commands.arguments.options_of
	stp	xzr, xzr, [x29, #-16]
	cbz	x26, .Lunix_path_BB14_7
	mov	w8, wzr
	b	.Lunix_path_BB14_3
.Lunix_path_BB14_2:
	subs	x26, x26, #1
	add	x25, x25, #24
	b.eq	.Lunix_path_BB14_6
.Lunix_path_BB14_3:
	ldrb	w9, [x25]
	cmp	w9, #3
	b.ne	.Lunix_path_BB14_2
	ldrb	w9, [x25, #1]
	cmp	w9, #3
	b.ne	.Lunix_path_BB14_2
	ldur	q0, [x25, #8]
	mov	w8, #1
	stur	q0, [x29, #-16]
	b	.Lunix_path_BB14_2
.Lunix_path_BB14_6:
	and	x25, x8, #0xff
	b	.Lunix_path_BB14_8
.Lunix_path_BB14_7:
	mov	x25, xzr
.Lunix_path_BB14_8:
	ldrb	w8, [sp, #38]
	ldrh	w9, [sp, #36]
	ldurh	w10, [sp, #43]
	ldur	w11, [sp, #39]
	ldur	q0, [x29, #-16]
	orr	w8, w9, w8, lsl #16
	ldr	w9, [sp, #32]
	orr	x26, x11, x10, lsl #32
	str	q0, [sp, #16]
	orr	x21, x9, x8, lsl #32
	cbz	x28, .Lunix_path_BB14_13
	cmp	x24, x20
	b.hs	.Lunix_path_BB14_17
	ldp	x20, x21, [x22]
	cbz	x27, .Lunix_path_BB14_12
	mov	x0, x22
	bl	rattle_dealloc
.Lunix_path_BB14_12:
	movi	v0.2d, #0000000000000000
	mov	w8, #1
	mov	w9, #13
	str	x8, [x19]
	strb	w9, [x19, #8]
	stur	wzr, [x19, #9]
	str	wzr, [x19, #12]
	stp	x20, x21, [x19, #16]
	stp	q0, q0, [x19, #32]
	stp	q0, q0, [x19, #64]
	str	xzr, [x19, #96]
	b	.Lunix_path_BB14_18
.Lunix_path_BB14_13:
	cmp	x20, x24
	b.hs	.Lunix_path_BB14_17
	cbz	x27, .Lunix_path_BB14_16
	mov	x0, x22
	bl	rattle_dealloc
.Lunix_path_BB14_16:
	mov	w8, #4
	ldr	q0, [sp, #16]
	lsr	x9, x21, #32
	strb	w8, [x19, #8]
	lsr	x8, x21, #48
	stur	q0, [x19, #40]
	movi	v0.2d, #0000000000000000
	strb	w8, [x19, #23]
	lsr	x8, x26, #32
	str	xzr, [x19]
	strh	w8, [x19, #28]
	ldr	x8, [sp]
	stur	wzr, [x19, #9]
	str	x8, [x19, #56]
	ldr	x8, [sp, #8]
	str	wzr, [x19, #12]
	strb	w23, [x19, #16]
	stur	w21, [x19, #17]
	sturh	w9, [x19, #21]
	str	w26, [x19, #24]
	strh	wzr, [x19, #30]
	str	x25, [x19, #32]
	str	x8, [x19, #64]
	stur	q0, [x19, #72]
	stur	q0, [x19, #88]
	b	.Lunix_path_BB14_18
.Lunix_path_BB14_17:
	mov	w8, #4
	lsr	x9, x21, #32
	ldr	q0, [sp, #16]
	strb	w8, [x19, #8]
	lsr	x8, x21, #48
	str	xzr, [x19]
	strb	w8, [x19, #23]
	lsr	x8, x26, #32
	stur	wzr, [x19, #9]
	strh	w8, [x19, #28]
	ldr	x8, [sp]
	str	wzr, [x19, #12]
	str	x8, [x19, #56]
	ldr	x8, [sp, #8]
	strb	w23, [x19, #16]
	str	x8, [x19, #64]
	mov	w8, #1
	stur	w21, [x19, #17]
	sturh	w9, [x19, #21]
	str	w26, [x19, #24]
	strh	wzr, [x19, #30]
	str	x25, [x19, #32]
	stur	q0, [x19, #40]
	stp	x8, x22, [x19, #72]
	stp	x28, x27, [x19, #88]
.Lunix_path_BB14_18:
	ldp	x20, x19, [sp, #144]
	ldp	x22, x21, [sp, #128]
	ldp	x24, x23, [sp, #112]
	ldp	x26, x25, [sp, #96]
	ldp	x28, x27, [sp, #80]
	ldp	x29, x30, [sp, #64]
	add	sp, sp, #160
	ret
.Lunix_path_func_end14:
	.size	upath_commands.arguments.each, .Lunix_path_func_end14-upath_commands.arguments.each
	.section	.text.unlikely.std_alloc.vec.Vec.grow_amortized.f4a78633ca2a48c6.,"ax",@progbits
	.p2align	2
	.type	std_alloc.vec.Vec.grow_amortized.f4a78633ca2a48c6.,@function
// std_alloc::vec::Vec::grow_amortized::<#f4a78633ca2a48c6>
std_alloc.vec.Vec.grow_amortized.f4a78633ca2a48c6.:
	ldr	x8, [x0, #8]
	cmn	x8, x1
	b.lo	.Lunix_path_BB15_2
	mov	w0, wzr
	ret
.Lunix_path_BB15_2:
	stp	x29, x30, [sp, #-32]!
	ldr	x10, [x0, #16]
	add	x9, x8, x1
	mov	w11, #8
	cmp	x9, #8
	stp	x20, x19, [sp, #16]
	mov	x29, sp
	lsl	x12, x10, #1
	csel	x11, x9, x11, hi
	lsr	x13, x10, #62
	cmp	x11, x12
	csel	x9, x11, x12, hi
	cmp	x13, #0
	csel	x19, x9, x11, eq
	tbnz	x19, #63, .Lunix_path_BB15_7
	cbz	x10, .Lunix_path_BB15_6
	mov	x20, x0
	ldr	x0, [x0]
	mov	x1, x8
	mov	x2, x19
	mov	w3, #1
	bl	rattle_realloc
	tbz	w0, #0, .Lunix_path_BB15_7
.Lunix_path_BB15_5:
	mov	w0, #1
	str	x1, [x20]
	str	x19, [x20, #16]
	ldp	x20, x19, [sp, #16]
	ldp	x29, x30, [sp], #32
	ret
.Lunix_path_BB15_6:
	mov	x20, x0
	mov	x0, x9
	mov	w1, #1
	bl	rattle_alloc
	tbnz	w0, #0, .Lunix_path_BB15_5
.Lunix_path_BB15_7:
	mov	w0, wzr
	ldp	x20, x19, [sp, #16]
	ldp	x29, x30, [sp], #32
	ret
.Lunix_path_func_end15:
	.size	std_alloc.vec.Vec.grow_amortized.f4a78633ca2a48c6., .Lunix_path_func_end15-std_alloc.vec.Vec.grow_amortized.f4a78633ca2a48c6.
	.section	.text.unix_path.order.PathPartialEq.eq,"ax",@progbits
	.p2align	2
	.type	unix_path.order.PathPartialEq.eq,@function
// unix_path::order::PathPartialEq::eq
unix_path.order.PathPartialEq.eq:
	stp	x29, x30, [sp, #-16]!
	cmp	x1, x3
	mov	x29, sp
	b.ne	.Lunix_path_BB16_4
	cbz	x1, .Lunix_path_BB16_24
	add	x9, x2, x1
	add	x8, x0, x1
	ldurb	w8, [x8, #-1]
	ldurb	w9, [x9, #-1]
	cmp	w8, w9
	b.eq	.Lunix_path_BB16_24
	cmp	w8, #47
	b.ne	.Lunix_path_BB16_6
	b	.Lunix_path_BB16_24
.Lunix_path_BB16_4:
	cbz	x1, .Lunix_path_BB16_24
	add	x8, x0, x1
	ldurb	w8, [x8, #-1]
	cmp	w8, #47
	b.eq	.Lunix_path_BB16_24
.Lunix_path_BB16_6:
	cmp	x1, #1
	b.eq	.Lunix_path_BB16_10
	cmp	w8, #46
	b.ne	.Lunix_path_BB16_10
	cbz	x3, .Lunix_path_BB16_24
	add	x8, x0, x1
	ldurb	w8, [x8, #-2]
	cmp	w8, #47
	b.ne	.Lunix_path_BB16_11
	b	.Lunix_path_BB16_24
.Lunix_path_BB16_10:
	cbz	x3, .Lunix_path_BB16_24
.Lunix_path_BB16_11:
	add	x8, x2, x3
	ldurb	w9, [x8, #-1]
	cmp	w9, #47
	b.eq	.Lunix_path_BB16_24
	cmp	x3, #1
	b.eq	.Lunix_path_BB16_15
	cmp	w9, #46
	b.ne	.Lunix_path_BB16_15
	ldurb	w8, [x8, #-2]
	cmp	w8, #47
	b.eq	.Lunix_path_BB16_24
.Lunix_path_BB16_15:
	cmp	x3, x1
	mov	x8, xzr
	sub	x10, x2, #1
	csel	x9, x3, x1, lo
	sub	x11, x0, #1
.Lunix_path_BB16_16:
	ldrb	w12, [x11, x1]
	cmp	w12, #47
	b.eq	.Lunix_path_BB16_20
	ldrb	w13, [x10, x3]
	cmp	w12, w13
	b.ne	.Lunix_path_BB16_20
	add	x8, x8, #1
	sub	x10, x10, #1
	sub	x11, x11, #1
	cmp	x9, x8
	b.ne	.Lunix_path_BB16_16
	mov	x8, x9
.Lunix_path_BB16_20:
	subs	x9, x1, x8
	b.eq	.Lunix_path_BB16_22
	add	x9, x0, x9
	ldurb	w9, [x9, #-1]
	cmp	w9, #47
	b.ne	.Lunix_path_BB16_25
.Lunix_path_BB16_22:
	subs	x8, x3, x8
	b.eq	.Lunix_path_BB16_24
	add	x8, x2, x8
	ldurb	w8, [x8, #-1]
	cmp	w8, #47
	b.ne	.Lunix_path_BB16_25
.Lunix_path_BB16_24:
	bl	unix_path.compare.compare
	and	w8, w0, #0xff
	cmp	w8, #1
	cset	w0, eq
	ldp	x29, x30, [sp], #16
	ret
.Lunix_path_BB16_25:
	mov	w0, wzr
	ldp	x29, x30, [sp], #16
	ret
.Lunix_path_func_end16:
	.size	unix_path.order.PathPartialEq.eq, .Lunix_path_func_end16-unix_path.order.PathPartialEq.eq
	.section	.rodata.cst16,"aM",@progbits,16
	.p2align	4, 0x0
.Lunix_path_CPI17_0:
	.byte	1
	.byte	2
	.byte	4
	.byte	8
	.byte	16
	.byte	32
	.byte	64
	.byte	128
	.byte	1
	.byte	2
	.byte	4
	.byte	8
	.byte	16
	.byte	32
	.byte	64
	.byte	128
	.section	.rodata.cst8,"aM",@progbits,8
	.p2align	3, 0x0
.Lunix_path_CPI17_1:
	.byte	1
	.byte	2
	.byte	4
	.byte	8
	.byte	16
	.byte	32
	.byte	64
	.byte	128
	.section	.text.unix_path.compare.compare,"ax",@progbits
	.p2align	2
	.type	unix_path.compare.compare,@function
// unix_path::compare::compare
unix_path.compare.compare:
	stp	x29, x30, [sp, #-16]!
	cmp	x3, x1
	mov	x29, sp
	csel	x8, x3, x1, lo
	cmp	x8, #15
	b.hi	.Lunix_path_BB17_16
	cmp	x8, #7
	b.hi	.Lunix_path_BB17_25
	cbz	x8, .Lunix_path_BB17_30
	ldrb	w9, [x0]
	ldrb	w10, [x2]
	cmp	w9, w10
	b.ne	.Lunix_path_BB17_29
	cmp	x8, #1
	b.eq	.Lunix_path_BB17_30
	ldrb	w9, [x0, #1]
	ldrb	w10, [x2, #1]
	cmp	w9, w10
	b.ne	.Lunix_path_BB17_90
	cmp	x8, #2
	b.eq	.Lunix_path_BB17_30
	ldrb	w9, [x0, #2]
	ldrb	w10, [x2, #2]
	cmp	w9, w10
	b.ne	.Lunix_path_BB17_91
	cmp	x8, #3
	b.eq	.Lunix_path_BB17_30
	ldrb	w9, [x0, #3]
	ldrb	w10, [x2, #3]
	cmp	w9, w10
	b.ne	.Lunix_path_BB17_92
	cmp	x8, #4
	b.eq	.Lunix_path_BB17_30
	ldrb	w9, [x0, #4]
	ldrb	w10, [x2, #4]
	cmp	w9, w10
	b.ne	.Lunix_path_BB17_93
	cmp	x8, #5
	b.eq	.Lunix_path_BB17_30
	ldrb	w9, [x0, #5]
	ldrb	w10, [x2, #5]
	cmp	w9, w10
	b.ne	.Lunix_path_BB17_94
	cmp	x8, #6
	b.eq	.Lunix_path_BB17_30
	ldrb	w9, [x0, #6]
	ldrb	w10, [x2, #6]
	cmp	w9, w10
	mov	w9, #6
	csel	x8, x8, x9, eq
	b	.Lunix_path_BB17_30
.Lunix_path_BB17_16:
	cmp	x8, #64
	sub	x9, x8, #16
	adrp	x10, .Lunix_path_CPI17_0
	mov	x11, xzr
	b.lo	.Lunix_path_BB17_23
	and	x12, x8, #0xffffffffffffffc0
.Lunix_path_BB17_18:
	add	x13, x0, x11
	add	x14, x2, x11
	ldp	q0, q1, [x13]
	ldp	q2, q3, [x13, #32]
	ldp	q4, q5, [x14]
	ldp	q6, q7, [x14, #32]
	cmeq	v0.16b, v0.16b, v4.16b
	cmeq	v1.16b, v1.16b, v5.16b
	ldr	q4, [x10, :lo12:.Lunix_path_CPI17_0]
	cmeq	v3.16b, v3.16b, v7.16b
	cmeq	v2.16b, v2.16b, v6.16b
	bic	v0.16b, v4.16b, v0.16b
	bic	v1.16b, v4.16b, v1.16b
	bic	v2.16b, v4.16b, v2.16b
	bic	v3.16b, v4.16b, v3.16b
	addp	v0.16b, v0.16b, v1.16b
	addp	v1.16b, v2.16b, v3.16b
	addp	v0.16b, v0.16b, v1.16b
	addp	v0.16b, v0.16b, v0.16b
	fmov	x13, d0
	cbnz	x13, .Lunix_path_BB17_23
	sub	x8, x8, #64
	add	x11, x11, #64
	cmp	x8, #63
	b.hi	.Lunix_path_BB17_18
	mov	x11, x12
	b	.Lunix_path_BB17_23
.Lunix_path_BB17_21:
	ldr	q0, [x0, x11]
	ldr	q1, [x2, x11]
	cmeq	v0.16b, v0.16b, v1.16b
	ldr	q1, [x10, :lo12:.Lunix_path_CPI17_0]
	bic	v0.16b, v1.16b, v0.16b
	addp	v0.16b, v0.16b, v0.16b
	addp	v0.16b, v0.16b, v0.16b
	addp	v0.16b, v0.16b, v0.16b
	umov	w8, v0.h[0]
	orr	w8, w8, #0x10000
	rbit	w8, w8
	clz	w8, w8
	cmp	w8, #15
	b.ls	.Lunix_path_BB17_27
	add	x11, x11, #16
.Lunix_path_BB17_23:
	cmp	x11, x9
	b.lo	.Lunix_path_BB17_21
	ldr	q0, [x0, x9]
	ldr	q1, [x2, x9]
	cmeq	v0.16b, v0.16b, v1.16b
	ldr	q1, [x10, :lo12:.Lunix_path_CPI17_0]
	bic	v0.16b, v1.16b, v0.16b
	addp	v0.16b, v0.16b, v0.16b
	addp	v0.16b, v0.16b, v0.16b
	addp	v0.16b, v0.16b, v0.16b
	umov	w8, v0.h[0]
	orr	w8, w8, #0x10000
	rbit	w8, w8
	clz	w8, w8
	add	x8, x9, x8
	b	.Lunix_path_BB17_30
.Lunix_path_BB17_25:
	ldr	d0, [x0]
	ldr	d1, [x2]
	adrp	x9, .Lunix_path_CPI17_1
	cmeq	v1.8b, v0.8b, v1.8b
	ldr	d0, [x9, :lo12:.Lunix_path_CPI17_1]
	bic	v1.8b, v0.8b, v1.8b
	addv	b1, v1.8b
	fmov	w9, s1
	orr	w9, w9, #0x100
	rbit	w9, w9
	clz	w9, w9
	cmp	w9, #8
	b.hs	.Lunix_path_BB17_28
	mov	x8, x9
	b	.Lunix_path_BB17_30
.Lunix_path_BB17_27:
	add	x8, x11, w8, uxtw
	b	.Lunix_path_BB17_30
.Lunix_path_BB17_28:
	sub	x8, x8, #8
	ldr	d1, [x0, x8]
	ldr	d2, [x2, x8]
	cmeq	v1.8b, v1.8b, v2.8b
	bic	v0.8b, v0.8b, v1.8b
	addv	b0, v0.8b
	fmov	w9, s0
	orr	w9, w9, #0x100
	rbit	w9, w9
	clz	w9, w9
	add	x8, x8, x9
	b	.Lunix_path_BB17_30
.Lunix_path_BB17_29:
	mov	x8, xzr
.Lunix_path_BB17_30:
	cmp	x8, x1
	ccmp	x8, x3, #0, eq
	b.eq	.Lunix_path_BB17_42
	cmp	x8, x1
	b.hs	.Lunix_path_BB17_33
	ldrb	w9, [x0, x8]
	cmp	w9, #47
	b.ne	.Lunix_path_BB17_43
.Lunix_path_BB17_33:
	mov	w9, wzr
	cmp	x8, x3
	b.hs	.Lunix_path_BB17_47
.Lunix_path_BB17_34:
	ldrb	w10, [x2, x8]
	cmp	w10, #47
	b.eq	.Lunix_path_BB17_47
	add	w10, w10, #1
	cmp	w9, w10
	b.eq	.Lunix_path_BB17_48
.Lunix_path_BB17_36:
	cbz	x8, .Lunix_path_BB17_52
	add	x11, x0, x8
	ldurb	w11, [x11, #-1]
	cmp	w11, #47
	b.eq	.Lunix_path_BB17_49
	cmp	w11, #46
	b.ne	.Lunix_path_BB17_41
	sub	x11, x8, #1
	cbz	x11, .Lunix_path_BB17_52
	add	x8, x0, x11
	ldurb	w8, [x8, #-1]
	cmp	w8, #47
	b.eq	.Lunix_path_BB17_50
.Lunix_path_BB17_41:
	cmp	w9, w10
	mov	w8, #2
	csel	w0, wzr, w8, lo
	ldp	x29, x30, [sp], #16
	ret
.Lunix_path_BB17_42:
	mov	w0, #1
	ldp	x29, x30, [sp], #16
	ret
.Lunix_path_BB17_43:
	cmp	x8, x3
	b.hs	.Lunix_path_BB17_46
	cmp	w9, #46
	b.eq	.Lunix_path_BB17_46
	ldrb	w10, [x2, x8]
	and	w11, w10, #0xfe
	cmp	w11, #46
	b.ne	.Lunix_path_BB17_77
.Lunix_path_BB17_46:
	add	w9, w9, #1
	cmp	x8, x3
	b.lo	.Lunix_path_BB17_34
.Lunix_path_BB17_47:
	mov	w10, wzr
	cmp	w9, wzr
	b.ne	.Lunix_path_BB17_36
.Lunix_path_BB17_48:
	cbz	x8, .Lunix_path_BB17_52
.Lunix_path_BB17_49:
	mov	x11, x8
.Lunix_path_BB17_50:
	subs	x1, x1, x11
	sub	x8, x3, x11
	b.ne	.Lunix_path_BB17_61
	add	x0, x2, x11
	mov	x1, x8
	bl	unix_path.pair.rest_len
	cmp	x0, #0
	cset	w0, eq
	ldp	x29, x30, [sp], #16
	ret
.Lunix_path_BB17_52:
	cbz	x1, .Lunix_path_BB17_63
	ldrb	w9, [x0]
	cmp	w9, #47
	b.eq	.Lunix_path_BB17_66
	cmp	w9, #46
	b.ne	.Lunix_path_BB17_65
	cmp	x1, #1
	b.eq	.Lunix_path_BB17_78
	ldrb	w9, [x0, #1]
	cmp	w9, #47
	b.eq	.Lunix_path_BB17_78
	cmp	w9, #46
	b.ne	.Lunix_path_BB17_65
	cmp	x1, #2
	b.eq	.Lunix_path_BB17_60
	ldrb	w9, [x0, #2]
	cmp	w9, #47
	b.ne	.Lunix_path_BB17_65
.Lunix_path_BB17_60:
	mov	w9, #3
	cbnz	x3, .Lunix_path_BB17_67
	b	.Lunix_path_BB17_79
.Lunix_path_BB17_61:
	cmp	x3, x11
	b.ne	.Lunix_path_BB17_64
	add	x0, x0, x11
	bl	unix_path.pair.rest_len
	mov	w8, #1
	cmp	x0, #0
	cinc	w0, w8, ne
	ldp	x29, x30, [sp], #16
	ret
.Lunix_path_BB17_63:
	mov	w9, wzr
	cbnz	x3, .Lunix_path_BB17_67
	b	.Lunix_path_BB17_79
.Lunix_path_BB17_64:
	add	x0, x0, x11
	add	x2, x2, x11
	mov	x3, x8
	ldp	x29, x30, [sp], #16
	b	unix_path.pair.Comparison.order_after_cut
.Lunix_path_BB17_65:
	mov	w9, #4
	cbnz	x3, .Lunix_path_BB17_67
	b	.Lunix_path_BB17_79
.Lunix_path_BB17_66:
	mov	w9, #1
	cbz	x3, .Lunix_path_BB17_79
.Lunix_path_BB17_67:
	ldrb	w10, [x2]
	cmp	w10, #47
	b.eq	.Lunix_path_BB17_76
	cmp	w10, #46
	b.ne	.Lunix_path_BB17_75
	cmp	x3, #1
	b.eq	.Lunix_path_BB17_85
	ldrb	w10, [x2, #1]
	cmp	w10, #47
	b.eq	.Lunix_path_BB17_85
	cmp	w10, #46
	b.ne	.Lunix_path_BB17_75
	cmp	x3, #2
	b.eq	.Lunix_path_BB17_74
	ldrb	w10, [x2, #2]
	cmp	w10, #47
	b.ne	.Lunix_path_BB17_75
.Lunix_path_BB17_74:
	mov	w10, #3
	cmp	w9, w10
	mov	w9, #2
	csel	w9, wzr, w9, lo
	b.ne	.Lunix_path_BB17_86
	b	.Lunix_path_BB17_80
.Lunix_path_BB17_75:
	mov	w10, #4
	cmp	w9, w10
	mov	w9, #2
	csel	w9, wzr, w9, lo
	b.ne	.Lunix_path_BB17_86
	b	.Lunix_path_BB17_80
.Lunix_path_BB17_76:
	mov	w10, #1
	cmp	w9, w10
	mov	w9, #2
	csel	w9, wzr, w9, lo
	b.ne	.Lunix_path_BB17_86
	b	.Lunix_path_BB17_80
.Lunix_path_BB17_77:
	cmp	w9, w10
	mov	w8, #2
	csel	w8, wzr, w8, lo
	csinc	w0, w8, wzr, ne
	ldp	x29, x30, [sp], #16
	ret
.Lunix_path_BB17_78:
	mov	w9, #2
	cbnz	x3, .Lunix_path_BB17_67
.Lunix_path_BB17_79:
	cmp	w9, wzr
	mov	w9, #2
	csel	w9, wzr, w9, lo
	b.ne	.Lunix_path_BB17_86
.Lunix_path_BB17_80:
	cmp	x8, x1
	b.hs	.Lunix_path_BB17_82
	ldrb	w9, [x0, x8]
	cmp	w9, #47
	b.ne	.Lunix_path_BB17_87
.Lunix_path_BB17_82:
	mov	w9, wzr
	cmp	x8, x3
	b.hs	.Lunix_path_BB17_88
.Lunix_path_BB17_83:
	ldrb	w8, [x2, x8]
	cmp	w8, #47
	b.ne	.Lunix_path_BB17_89
	cmp	w9, wzr
	mov	w8, #2
	csel	w8, wzr, w8, lo
	csinc	w0, w8, wzr, ne
	ldp	x29, x30, [sp], #16
	ret
.Lunix_path_BB17_85:
	mov	w10, #2
	cmp	w9, w10
	mov	w9, #2
	csel	w9, wzr, w9, lo
	b.eq	.Lunix_path_BB17_80
.Lunix_path_BB17_86:
	mov	w0, w9
	ldp	x29, x30, [sp], #16
	ret
.Lunix_path_BB17_87:
	add	w9, w9, #1
	cmp	x8, x3
	b.lo	.Lunix_path_BB17_83
.Lunix_path_BB17_88:
	cmp	w9, wzr
	mov	w8, #2
	csel	w8, wzr, w8, lo
	csinc	w0, w8, wzr, ne
	ldp	x29, x30, [sp], #16
	ret
.Lunix_path_BB17_89:
	add	w8, w8, #1
	cmp	w9, w8
	mov	w8, #2
	csel	w8, wzr, w8, lo
	csinc	w0, w8, wzr, ne
	ldp	x29, x30, [sp], #16
	ret
.Lunix_path_BB17_90:
	mov	w8, #1
	b	.Lunix_path_BB17_30
.Lunix_path_BB17_91:
	mov	w8, #2
	b	.Lunix_path_BB17_30
.Lunix_path_BB17_92:
	mov	w8, #3
	b	.Lunix_path_BB17_30
.Lunix_path_BB17_93:
	mov	w8, #4
	b	.Lunix_path_BB17_30
.Lunix_path_BB17_94:
	mov	w8, #5
	b	.Lunix_path_BB17_30
.Lunix_path_func_end17:
	.size	unix_path.compare.compare, .Lunix_path_func_end17-unix_path.compare.compare
	.section	.text.unix_path.pair.rest_len,"ax",@progbits
	.p2align	2
	.type	unix_path.pair.rest_len,@function
// unix_path::pair::rest_len
unix_path.pair.rest_len:
	mov	x2, xzr
	b	.Lunix_path_BB18_2
.Lunix_path_BB18_1:
	mov	w8, #1
	add	x2, x8, x2
	cmp	x2, #4
	b.hs	.Lunix_path_BB18_8
.Lunix_path_BB18_2:
	cmp	x2, x1
	b.hs	.Lunix_path_BB18_9
	ldrb	w8, [x0, x2]
	cmp	w8, #47
	b.eq	.Lunix_path_BB18_1
	cmp	w8, #46
	b.ne	.Lunix_path_BB18_9
	add	x8, x2, #1
	cmp	x8, x1
	b.eq	.Lunix_path_BB18_1
	ldrb	w8, [x0, x8]
	cmp	w8, #47
	b.ne	.Lunix_path_BB18_9
	mov	w8, #2
	add	x2, x8, x2
	cmp	x2, #4
	b.lo	.Lunix_path_BB18_2
.Lunix_path_BB18_8:
	stp	x29, x30, [sp, #-32]!
	str	x19, [sp, #16]
	mov	x29, sp
	mov	x19, x1
	bl	unix_path.filler.filler_end_from
	mov	x1, x19
	ldr	x19, [sp, #16]
	mov	x2, x0
	ldp	x29, x30, [sp], #32
.Lunix_path_BB18_9:
	sub	x0, x1, x2
	ret
.Lunix_path_func_end18:
	.size	unix_path.pair.rest_len, .Lunix_path_func_end18-unix_path.pair.rest_len
	.section	.rodata.cst16,"aM",@progbits,16
	.p2align	4, 0x0
.Lunix_path_CPI19_0:
	.byte	1
	.byte	2
	.byte	4
	.byte	8
	.byte	16
	.byte	32
	.byte	64
	.byte	128
	.byte	1
	.byte	2
	.byte	4
	.byte	8
	.byte	16
	.byte	32
	.byte	64
	.byte	128
	.section	.text.unlikely.unix_path.filler.filler_end_from,"ax",@progbits
	.p2align	2
	.type	unix_path.filler.filler_end_from,@function
// unix_path::filler::filler_end_from
unix_path.filler.filler_end_from:
	sub	x8, x1, x2
	cmp	x8, #17
	b.lo	.Lunix_path_BB19_3
.Lunix_path_BB19_1:
	movi	v0.16b, #46
	add	x9, x0, x2
	movi	v2.16b, #47
	ldr	q1, [x9]
	ldur	q3, [x9, #1]
	adrp	x9, .Lunix_path_CPI19_0
	cmeq	v0.16b, v1.16b, v0.16b
	cmeq	v3.16b, v3.16b, v2.16b
	cmeq	v1.16b, v1.16b, v2.16b
	mvn	v0.16b, v0.16b
	orn	v0.16b, v0.16b, v3.16b
	bic	v0.16b, v0.16b, v1.16b
	ldr	q1, [x9, :lo12:.Lunix_path_CPI19_0]
	and	v0.16b, v0.16b, v1.16b
	addp	v0.16b, v0.16b, v0.16b
	addp	v0.16b, v0.16b, v0.16b
	addp	v0.16b, v0.16b, v0.16b
	umov	w9, v0.h[0]
	cbnz	w9, .Lunix_path_BB19_3
	sub	x8, x8, #16
	add	x2, x2, #16
	cmp	x8, #16
	b.hi	.Lunix_path_BB19_1
.Lunix_path_BB19_3:
	cmp	x2, x1
	b.hs	.Lunix_path_BB19_10
	add	x8, x0, #1
	sub	x9, x1, #1
	b	.Lunix_path_BB19_6
.Lunix_path_BB19_5:
	add	x2, x2, #1
	cmp	x1, x2
	b.eq	.Lunix_path_BB19_11
.Lunix_path_BB19_6:
	add	x10, x8, x2
	ldurb	w10, [x10, #-1]
	cmp	w10, #47
	b.eq	.Lunix_path_BB19_5
	cmp	w10, #46
	b.ne	.Lunix_path_BB19_10
	cmp	x9, x2
	b.eq	.Lunix_path_BB19_5
	ldrb	w10, [x8, x2]
	cmp	w10, #47
	b.eq	.Lunix_path_BB19_5
.Lunix_path_BB19_10:
	mov	x0, x2
	ret
.Lunix_path_BB19_11:
	mov	x2, x1
	mov	x0, x2
	ret
.Lunix_path_func_end19:
	.size	unix_path.filler.filler_end_from, .Lunix_path_func_end19-unix_path.filler.filler_end_from
	.section	.rodata.cst16,"aM",@progbits,16
	.p2align	4, 0x0
.Lunix_path_CPI20_0:
	.byte	1
	.byte	2
	.byte	4
	.byte	8
	.byte	16
	.byte	32
	.byte	64
	.byte	128
	.byte	1
	.byte	2
	.byte	4
	.byte	8
	.byte	16
	.byte	32
	.byte	64
	.byte	128
	.section	.rodata.cst8,"aM",@progbits,8
	.p2align	3, 0x0
.Lunix_path_CPI20_1:
	.byte	1
	.byte	2
	.byte	4
	.byte	8
	.byte	16
	.byte	32
	.byte	64
	.byte	128
	.section	.text.unix_path.pair.Comparison.order_after_cut,"ax",@progbits
	.p2align	2
	.type	unix_path.pair.Comparison.order_after_cut,@function
// unix_path::pair::Comparison::order_after_cut
unix_path.pair.Comparison.order_after_cut:
	stp	x29, x30, [sp, #-64]!
	stp	x24, x23, [sp, #16]
	mov	x23, x0
	mov	x29, sp
	stp	x22, x21, [sp, #32]
	mov	x22, x3
	mov	x21, x2
	stp	x20, x19, [sp, #48]
	mov	x19, x1
	b	.Lunix_path_BB20_4
.Lunix_path_BB20_1:
	cbz	x10, .Lunix_path_BB20_61
.Lunix_path_BB20_2:
	mov	x13, x10
.Lunix_path_BB20_3:
	add	x23, x23, x13
	sub	x19, x24, x13
	add	x21, x9, x13
	sub	x22, x8, x13
.Lunix_path_BB20_4:
	mov	x20, xzr
	b	.Lunix_path_BB20_6
.Lunix_path_BB20_5:
	mov	w8, #1
	add	x20, x8, x20
	cmp	x20, #4
	b.hs	.Lunix_path_BB20_12
.Lunix_path_BB20_6:
	cmp	x20, x19
	b.hs	.Lunix_path_BB20_13
	ldrb	w8, [x23, x20]
	cmp	w8, #47
	b.eq	.Lunix_path_BB20_5
	cmp	w8, #46
	b.ne	.Lunix_path_BB20_13
	add	x8, x20, #1
	cmp	x8, x19
	b.eq	.Lunix_path_BB20_5
	ldrb	w8, [x23, x8]
	cmp	w8, #47
	b.ne	.Lunix_path_BB20_13
	mov	w8, #2
	add	x20, x8, x20
	cmp	x20, #4
	b.lo	.Lunix_path_BB20_6
.Lunix_path_BB20_12:
	mov	x0, x23
	mov	x1, x19
	mov	x2, x20
	bl	unix_path.filler.filler_end_from
	mov	x20, x0
.Lunix_path_BB20_13:
	mov	x2, xzr
	add	x23, x23, x20
	sub	x24, x19, x20
	b	.Lunix_path_BB20_15
.Lunix_path_BB20_14:
	mov	w8, #1
	add	x2, x8, x2
	cmp	x2, #4
	b.hs	.Lunix_path_BB20_21
.Lunix_path_BB20_15:
	cmp	x2, x22
	b.hs	.Lunix_path_BB20_22
	ldrb	w8, [x21, x2]
	cmp	w8, #47
	b.eq	.Lunix_path_BB20_14
	cmp	w8, #46
	b.ne	.Lunix_path_BB20_22
	add	x8, x2, #1
	cmp	x8, x22
	b.eq	.Lunix_path_BB20_14
	ldrb	w8, [x21, x8]
	cmp	w8, #47
	b.ne	.Lunix_path_BB20_22
	mov	w8, #2
	add	x2, x8, x2
	cmp	x2, #4
	b.lo	.Lunix_path_BB20_15
.Lunix_path_BB20_21:
	mov	x0, x21
	mov	x1, x22
	bl	unix_path.filler.filler_end_from
	mov	x2, x0
.Lunix_path_BB20_22:
	subs	x8, x22, x2
	b.eq	.Lunix_path_BB20_60
	cmp	x8, x24
	add	x9, x21, x2
	csel	x11, x8, x24, lo
	cmp	x11, #15
	b.hi	.Lunix_path_BB20_27
	cmp	x11, #7
	b.hi	.Lunix_path_BB20_33
	cmp	x19, x20
	b.ne	.Lunix_path_BB20_35
	mov	x10, xzr
	cmp	xzr, x24
	b.lo	.Lunix_path_BB20_45
	b	.Lunix_path_BB20_46
.Lunix_path_BB20_27:
	ldr	q0, [x23]
	ldr	q1, [x9]
	adrp	x10, .Lunix_path_CPI20_0
	cmeq	v1.16b, v0.16b, v1.16b
	ldr	q0, [x10, :lo12:.Lunix_path_CPI20_0]
	bic	v1.16b, v0.16b, v1.16b
	addp	v1.16b, v1.16b, v1.16b
	addp	v1.16b, v1.16b, v1.16b
	addp	v1.16b, v1.16b, v1.16b
	umov	w10, v1.h[0]
	orr	w10, w10, #0x10000
	rbit	w10, w10
	clz	w10, w10
	cmp	w10, #16
	b.lo	.Lunix_path_BB20_44
	cmp	x11, #64
	b.lo	.Lunix_path_BB20_39
	mov	x10, xzr
	mov	x12, x11
.Lunix_path_BB20_30:
	add	x13, x23, x10
	add	x14, x9, x10
	ldp	q1, q2, [x13]
	ldp	q3, q4, [x13, #32]
	ldp	q5, q6, [x14]
	ldp	q7, q16, [x14, #32]
	cmeq	v1.16b, v1.16b, v5.16b
	cmeq	v2.16b, v2.16b, v6.16b
	cmeq	v4.16b, v4.16b, v16.16b
	cmeq	v3.16b, v3.16b, v7.16b
	bic	v1.16b, v0.16b, v1.16b
	bic	v2.16b, v0.16b, v2.16b
	bic	v3.16b, v0.16b, v3.16b
	bic	v4.16b, v0.16b, v4.16b
	addp	v1.16b, v1.16b, v2.16b
	addp	v2.16b, v3.16b, v4.16b
	addp	v1.16b, v1.16b, v2.16b
	addp	v1.16b, v1.16b, v1.16b
	fmov	x13, d1
	cbnz	x13, .Lunix_path_BB20_40
	sub	x12, x12, #64
	add	x10, x10, #64
	cmp	x12, #63
	b.hi	.Lunix_path_BB20_30
	and	x10, x11, #0xffffffffffffffc0
	sub	x11, x11, #16
	cmp	x10, x11
	b.lo	.Lunix_path_BB20_41
	b	.Lunix_path_BB20_43
.Lunix_path_BB20_33:
	ldr	d0, [x23]
	ldr	d1, [x9]
	adrp	x10, .Lunix_path_CPI20_1
	cmeq	v1.8b, v0.8b, v1.8b
	ldr	d0, [x10, :lo12:.Lunix_path_CPI20_1]
	bic	v1.8b, v0.8b, v1.8b
	addv	b1, v1.8b
	fmov	w10, s1
	orr	w10, w10, #0x100
	rbit	w10, w10
	clz	w10, w10
	cmp	w10, #8
	b.lo	.Lunix_path_BB20_44
	sub	x10, x11, #8
	ldr	d1, [x23, x10]
	ldr	d2, [x9, x10]
	cmeq	v1.8b, v1.8b, v2.8b
	bic	v0.8b, v0.8b, v1.8b
	addv	b0, v0.8b
	fmov	w11, s0
	orr	w11, w11, #0x100
	rbit	w11, w11
	clz	w11, w11
	add	x10, x10, x11
	cmp	x10, x24
	b.lo	.Lunix_path_BB20_45
	b	.Lunix_path_BB20_46
.Lunix_path_BB20_35:
	mov	x10, xzr
.Lunix_path_BB20_36:
	ldrb	w12, [x23, x10]
	ldrb	w13, [x9, x10]
	cmp	w12, w13
	b.ne	.Lunix_path_BB20_44
	add	x10, x10, #1
	cmp	x11, x10
	b.ne	.Lunix_path_BB20_36
	mov	x10, x11
	cmp	x11, x24
	b.lo	.Lunix_path_BB20_45
	b	.Lunix_path_BB20_46
.Lunix_path_BB20_39:
	mov	x10, xzr
.Lunix_path_BB20_40:
	sub	x11, x11, #16
	cmp	x10, x11
	b.hs	.Lunix_path_BB20_43
.Lunix_path_BB20_41:
	ldr	q1, [x23, x10]
	ldr	q2, [x9, x10]
	cmeq	v1.16b, v1.16b, v2.16b
	bic	v1.16b, v0.16b, v1.16b
	addp	v1.16b, v1.16b, v1.16b
	addp	v1.16b, v1.16b, v1.16b
	addp	v1.16b, v1.16b, v1.16b
	umov	w12, v1.h[0]
	orr	w12, w12, #0x10000
	rbit	w12, w12
	clz	w12, w12
	cmp	w12, #15
	b.ls	.Lunix_path_BB20_59
	add	x10, x10, #16
	cmp	x10, x11
	b.lo	.Lunix_path_BB20_41
.Lunix_path_BB20_43:
	ldr	q1, [x23, x11]
	ldr	q2, [x9, x11]
	cmeq	v1.16b, v1.16b, v2.16b
	bic	v0.16b, v0.16b, v1.16b
	addp	v0.16b, v0.16b, v0.16b
	addp	v0.16b, v0.16b, v0.16b
	addp	v0.16b, v0.16b, v0.16b
	umov	w10, v0.h[0]
	orr	w10, w10, #0x10000
	rbit	w10, w10
	clz	w10, w10
	add	x10, x11, x10
.Lunix_path_BB20_44:
	cmp	x10, x24
	b.hs	.Lunix_path_BB20_46
.Lunix_path_BB20_45:
	ldrb	w11, [x23, x10]
	cmp	w11, #47
	b.ne	.Lunix_path_BB20_47
.Lunix_path_BB20_46:
	mov	w11, wzr
	cmp	x10, x8
	b.hs	.Lunix_path_BB20_52
	b	.Lunix_path_BB20_51
.Lunix_path_BB20_47:
	cmp	x10, x8
	b.hs	.Lunix_path_BB20_50
	cmp	w11, #46
	b.eq	.Lunix_path_BB20_50
	ldrb	w12, [x9, x10]
	and	w13, w12, #0xfe
	cmp	w13, #46
	b.ne	.Lunix_path_BB20_90
.Lunix_path_BB20_50:
	add	w11, w11, #1
	cmp	x10, x8
	b.hs	.Lunix_path_BB20_52
.Lunix_path_BB20_51:
	ldrb	w12, [x9, x10]
	cmp	w12, #47
	b.ne	.Lunix_path_BB20_53
.Lunix_path_BB20_52:
	mov	w12, wzr
	cmp	w11, wzr
	b.eq	.Lunix_path_BB20_1
	b	.Lunix_path_BB20_54
.Lunix_path_BB20_53:
	add	w12, w12, #1
	cmp	w11, w12
	b.eq	.Lunix_path_BB20_1
.Lunix_path_BB20_54:
	cbz	x10, .Lunix_path_BB20_61
	add	x13, x23, x10
	ldurb	w13, [x13, #-1]
	cmp	w13, #47
	b.eq	.Lunix_path_BB20_2
	cmp	w13, #46
	b.ne	.Lunix_path_BB20_63
	sub	x13, x10, #1
	cbz	x13, .Lunix_path_BB20_64
	add	x10, x23, x13
	ldurb	w10, [x10, #-1]
	cmp	w10, #47
	b.eq	.Lunix_path_BB20_3
	b	.Lunix_path_BB20_63
.Lunix_path_BB20_59:
	add	x10, x10, w12, uxtw
	cmp	x10, x24
	b.lo	.Lunix_path_BB20_45
	b	.Lunix_path_BB20_46
.Lunix_path_BB20_60:
	cmp	x19, x20
	mov	w8, #1
	cinc	w0, w8, ne
	ldp	x20, x19, [sp, #48]
	ldp	x22, x21, [sp, #32]
	ldp	x24, x23, [sp, #16]
	ldp	x29, x30, [sp], #64
	ret
.Lunix_path_BB20_61:
	mov	x11, xzr
	cmp	x19, x20
	b.ne	.Lunix_path_BB20_65
.Lunix_path_BB20_62:
	mov	w0, wzr
	ldp	x20, x19, [sp, #48]
	ldp	x22, x21, [sp, #32]
	ldp	x24, x23, [sp, #16]
	ldp	x29, x30, [sp], #64
	ret
.Lunix_path_BB20_63:
	cmp	w11, w12
	mov	w8, #2
	csel	w0, wzr, w8, lo
	ldp	x20, x19, [sp, #48]
	ldp	x22, x21, [sp, #32]
	ldp	x24, x23, [sp, #16]
	ldp	x29, x30, [sp], #64
	ret
.Lunix_path_BB20_64:
	mov	w11, #1
	cmp	x19, x20
	b.eq	.Lunix_path_BB20_62
.Lunix_path_BB20_65:
	ldrb	w12, [x23]
	cmp	w12, #47
	b.eq	.Lunix_path_BB20_74
	cmp	w12, #46
	b.ne	.Lunix_path_BB20_73
	cmp	x24, #1
	b.eq	.Lunix_path_BB20_83
	ldrb	w12, [x23, #1]
	cmp	w12, #47
	b.eq	.Lunix_path_BB20_83
	cmp	w12, #46
	b.ne	.Lunix_path_BB20_73
	cmp	x24, #2
	b.eq	.Lunix_path_BB20_72
	ldrb	w12, [x23, #2]
	cmp	w12, #47
	b.ne	.Lunix_path_BB20_73
.Lunix_path_BB20_72:
	mov	w12, #3
	ldrb	w13, [x9]
	cmp	w13, #47
	b.ne	.Lunix_path_BB20_75
	b	.Lunix_path_BB20_84
.Lunix_path_BB20_73:
	mov	w12, #4
	ldrb	w13, [x9]
	cmp	w13, #47
	b.ne	.Lunix_path_BB20_75
	b	.Lunix_path_BB20_84
.Lunix_path_BB20_74:
	mov	w12, #1
	ldrb	w13, [x9]
	cmp	w13, #47
	b.eq	.Lunix_path_BB20_84
.Lunix_path_BB20_75:
	cmp	w13, #46
	b.ne	.Lunix_path_BB20_82
	cmp	x8, #1
	b.eq	.Lunix_path_BB20_88
	ldrb	w13, [x9, #1]
	cmp	w13, #47
	b.eq	.Lunix_path_BB20_88
	cmp	w13, #46
	b.ne	.Lunix_path_BB20_82
	cmp	x8, #2
	b.eq	.Lunix_path_BB20_81
	ldrb	w13, [x9, #2]
	cmp	w13, #47
	b.ne	.Lunix_path_BB20_82
.Lunix_path_BB20_81:
	mov	w13, #3
	cmp	w12, w13
	mov	w12, #2
	csel	w0, wzr, w12, lo
	b.ne	.Lunix_path_BB20_89
	b	.Lunix_path_BB20_85
.Lunix_path_BB20_82:
	mov	w13, #4
	cmp	w12, w13
	mov	w12, #2
	csel	w0, wzr, w12, lo
	b.ne	.Lunix_path_BB20_89
	b	.Lunix_path_BB20_85
.Lunix_path_BB20_83:
	mov	w12, #2
	ldrb	w13, [x9]
	cmp	w13, #47
	b.ne	.Lunix_path_BB20_75
.Lunix_path_BB20_84:
	mov	w13, #1
	cmp	w12, w13
	mov	w12, #2
	csel	w0, wzr, w12, lo
	b.ne	.Lunix_path_BB20_89
.Lunix_path_BB20_85:
	cmp	x10, x24
	b.hs	.Lunix_path_BB20_87
	ldrb	w10, [x23, x11]
	cmp	w10, #47
	b.ne	.Lunix_path_BB20_91
.Lunix_path_BB20_87:
	mov	w10, wzr
	cmp	x11, x8
	b.hs	.Lunix_path_BB20_93
	b	.Lunix_path_BB20_92
.Lunix_path_BB20_88:
	mov	w13, #2
	cmp	w12, w13
	mov	w12, #2
	csel	w0, wzr, w12, lo
	b.eq	.Lunix_path_BB20_85
.Lunix_path_BB20_89:
	ldp	x20, x19, [sp, #48]
	ldp	x22, x21, [sp, #32]
	ldp	x24, x23, [sp, #16]
	ldp	x29, x30, [sp], #64
	ret
.Lunix_path_BB20_90:
	cmp	w11, w12
	b	.Lunix_path_BB20_95
.Lunix_path_BB20_91:
	add	w10, w10, #1
	cmp	x11, x8
	b.hs	.Lunix_path_BB20_93
.Lunix_path_BB20_92:
	ldrb	w8, [x9, x11]
	cmp	w8, #47
	b.ne	.Lunix_path_BB20_94
.Lunix_path_BB20_93:
	cmp	w10, wzr
	b	.Lunix_path_BB20_95
.Lunix_path_BB20_94:
	add	w8, w8, #1
	cmp	w10, w8
.Lunix_path_BB20_95:
	mov	w8, #2
	csel	w8, wzr, w8, lo
	csinc	w0, w8, wzr, ne
	ldp	x20, x19, [sp, #48]
	ldp	x22, x21, [sp, #32]
	ldp	x24, x23, [sp, #16]
	ldp	x29, x30, [sp], #64
	ret
.Lunix_path_func_end20:
	.size	unix_path.pair.Comparison.order_after_cut, .Lunix_path_func_end20-unix_path.pair.Comparison.order_after_cut
	.section	.text.upath_commands.input.read_all.909299a5b5e629dc.,"ax",@progbits
	.p2align	2
	.type	upath_commands.input.read_all.909299a5b5e629dc.,@function
// upath_commands::input::read_all::<#909299a5b5e629dc>
upath_commands.input.read_all.909299a5b5e629dc.:
	stp	x29, x30, [sp, #-96]!
	sub	x9, sp, #15, lsl #12
	str	x28, [sp, #16]
	mov	x29, sp
	sub	x9, x9, #3072
	stp	x26, x25, [sp, #32]
	stp	x24, x23, [sp, #48]
	stp	x22, x21, [sp, #64]
	stp	x20, x19, [sp, #80]
.Lunix_path_BB21_1:
	sub	sp, sp, #3072
	cmp	sp, x9
	str	xzr, [sp]
	b.ne	.Lunix_path_BB21_1
	sub	sp, sp, #1072
	mov	x20, x1
	mov	x19, x0
	sub	x22, x29, #32
	sub	x8, x29, #1
	add	x0, sp, #16
	mov	w1, wzr
	mov	w2, #65536
	str	xzr, [sp]
	add	x23, sp, #16
	stp	xzr, xzr, [sp]
	stp	xzr, xzr, [x22, #8]
	str	x8, [x22]
	bl	memset
	mov	x0, sp
	add	x2, sp, #16
	mov	x1, x20
	bl	upath_commands.input.read_some.909299a5b5e629dc.
	ldrb	w8, [sp]
	cbz	w8, .Lunix_path_BB21_8
	ldrb	w20, [sp, #1]
	ldr	x24, [x22, #16]
	cbz	x24, .Lunix_path_BB21_5
.Lunix_path_BB21_4:
	ldr	x0, [x22]
	bl	rattle_dealloc
.Lunix_path_BB21_5:
	mov	w8, #1
	strb	w20, [x19, #1]
	strb	w8, [x19]
	str	xzr, [x19, #24]
.Lunix_path_BB21_6:
	stp	xzr, xzr, [x19, #8]
.Lunix_path_BB21_7:
	add	sp, sp, #16, lsl #12
	add	sp, sp, #48
	ldp	x20, x19, [sp, #80]
	ldr	x28, [sp, #16]
	ldp	x22, x21, [sp, #64]
	ldp	x24, x23, [sp, #48]
	ldp	x26, x25, [sp, #32]
	ldp	x29, x30, [sp], #96
	ret
.Lunix_path_BB21_8:
	ldr	x21, [sp, #8]
	add	x23, x23, #16
	sub	x25, x29, #1
	b	.Lunix_path_BB21_11
.Lunix_path_BB21_9:
	add	x0, x25, x26
	add	x1, sp, #16
	mov	x2, x21
	bl	memmove
.Lunix_path_BB21_10:
	add	x8, x26, x21
	mov	x0, sp
	add	x2, sp, #16
	mov	x1, x20
	stp	x8, x24, [x22, #8]
	bl	upath_commands.input.read_some.909299a5b5e629dc.
	ldrb	w8, [sp]
	ldr	x21, [sp, #8]
	cbnz	w8, .Lunix_path_BB21_31
.Lunix_path_BB21_11:
	cbz	x21, .Lunix_path_BB21_30
	ldp	x26, x24, [x22, #8]
	sub	x8, x24, x26
	cmp	x21, x8
	b.hi	.Lunix_path_BB21_28
	add	x8, x25, x26
	add	x9, sp, #16
	sub	x8, x8, x9
	cmp	x8, x21
	b.hs	.Lunix_path_BB21_9
.Lunix_path_BB21_14:
	cmp	x21, #8
	b.lo	.Lunix_path_BB21_16
	add	x8, sp, #16
	sub	x8, x26, x8
	add	x8, x8, x25
	cmp	x8, #32
	b.hs	.Lunix_path_BB21_19
.Lunix_path_BB21_16:
	mov	x8, xzr
.Lunix_path_BB21_17:
	add	x10, sp, #16
	add	x11, x8, x26
	sub	x9, x21, x8
	add	x8, x10, x8
	add	x10, x25, x11
.Lunix_path_BB21_18:
	ldrb	w11, [x8], #1
	subs	x9, x9, #1
	strb	w11, [x10], #1
	b.ne	.Lunix_path_BB21_18
	b	.Lunix_path_BB21_10
.Lunix_path_BB21_19:
	cmp	x21, #32
	b.hs	.Lunix_path_BB21_21
	mov	x8, xzr
	b	.Lunix_path_BB21_25
.Lunix_path_BB21_21:
	add	x10, x25, x26
	and	x9, x21, #0x18
	and	x8, x21, #0xffffffffffffffe0
	add	x10, x10, #16
	mov	x11, x23
	and	x12, x21, #0xffffffffffffffe0
.Lunix_path_BB21_22:
	ldp	q0, q1, [x11, #-16]
	subs	x12, x12, #32
	add	x11, x11, #32
	stp	q0, q1, [x10, #-16]
	add	x10, x10, #32
	b.ne	.Lunix_path_BB21_22
	cmp	x21, x8
	b.eq	.Lunix_path_BB21_10
	cbz	x9, .Lunix_path_BB21_17
.Lunix_path_BB21_25:
	mov	x10, x8
	and	x8, x21, #0xfffffffffffffff8
	add	x11, sp, #16
	add	x12, x26, x10
	sub	x9, x10, x8
	add	x10, x11, x10
	add	x11, x25, x12
.Lunix_path_BB21_26:
	ldr	d0, [x10], #8
	adds	x9, x9, #8
	str	d0, [x11], #8
	b.ne	.Lunix_path_BB21_26
	cmp	x21, x8
	b.eq	.Lunix_path_BB21_10
	b	.Lunix_path_BB21_17
.Lunix_path_BB21_28:
	sub	x0, x29, #32
	mov	x1, x21
	bl	std_alloc.vec.Vec.grow_amortized.f4a78633ca2a48c6.
	cbz	w0, .Lunix_path_BB21_32
	ldp	x26, x24, [x22, #8]
	ldr	x25, [x22]
	add	x8, x25, x26
	add	x9, sp, #16
	sub	x8, x8, x9
	cmp	x8, x21
	b.hs	.Lunix_path_BB21_9
	b	.Lunix_path_BB21_14
.Lunix_path_BB21_30:
	ldr	q0, [x22]
	ldr	x8, [x22, #16]
	strh	wzr, [x19]
	stur	q0, [x19, #8]
	str	x8, [x19, #24]
	b	.Lunix_path_BB21_7
.Lunix_path_BB21_31:
	ldrb	w20, [sp, #1]
	cbnz	x24, .Lunix_path_BB21_4
	b	.Lunix_path_BB21_5
.Lunix_path_BB21_32:
	ldr	x8, [x22, #16]
	cbz	x8, .Lunix_path_BB21_34
	ldr	x0, [x22]
	bl	rattle_dealloc
.Lunix_path_BB21_34:
	mov	w8, #769
	str	xzr, [x19, #24]
	strh	w8, [x19]
	b	.Lunix_path_BB21_6
.Lunix_path_func_end21:
	.size	upath_commands.input.read_all.909299a5b5e629dc., .Lunix_path_func_end21-upath_commands.input.read_all.909299a5b5e629dc.
	.section	.rodata.cst16,"aM",@progbits,16
	.p2align	4, 0x0
.Lunix_path_CPI22_0:
	.byte	0
	.byte	1
	.byte	2
	.byte	3
	.byte	4
	.byte	5
	.byte	6
	.byte	7
	.byte	8
	.byte	9
	.byte	10
	.byte	11
	.byte	12
	.byte	13
	.byte	14
	.byte	15
.Lunix_path_CPI22_1:
	.byte	16
	.byte	17
	.byte	18
	.byte	19
	.byte	20
	.byte	21
	.byte	22
	.byte	23
	.byte	24
	.byte	25
	.byte	26
	.byte	27
	.byte	28
	.byte	29
	.byte	30
	.byte	31
	.section	.rodata.cst8,"aM",@progbits,8
	.p2align	3, 0x0
.Lunix_path_CPI22_2:
	.byte	32
	.byte	33
	.byte	34
	.byte	35
	.byte	36
	.byte	37
	.byte	38
	.byte	39
	.section	.text.upath_commands.input.read_some.909299a5b5e629dc.,"ax",@progbits
	.p2align	2
	.type	upath_commands.input.read_some.909299a5b5e629dc.,@function
// upath_commands::input::read_some::<#909299a5b5e629dc>
upath_commands.input.read_some.909299a5b5e629dc.:
	sub	sp, sp, #160
	stp	x29, x30, [sp, #96]
	add	x29, sp, #96
	stp	x24, x23, [sp, #112]
	add	x23, x1, #2, lsl #12
	stp	x22, x21, [sp, #128]
	mov	x22, x2
	mov	x21, #-1
	stp	x20, x19, [sp, #144]
	mov	x20, x1
	mov	x19, x0
.Lunix_path_BB22_1:
	ldr	x8, [x20, #8192]
	ldr	x9, [x20, #8200]
	subs	x9, x9, x8
	b.ne	.Lunix_path_BB22_9
	mov	w0, wzr
	mov	x1, x22
	mov	w2, #65536
	bl	read
	tbz	x0, #63, .Lunix_path_BB22_8
	bl	rattle_errno
	mov	w1, w0
	mov	x0, sp
	mov	x24, sp
	bl	std_io.io.error.Error.from_raw_os_error
	adrp	x9, .Lunix_path_CPI22_0
	ldr	x8, [sp]
	adrp	x10, .Lunix_path_CPI22_1
	ldr	q0, [x9, :lo12:.Lunix_path_CPI22_0]
	adrp	x9, .Lunix_path_CPI22_2
	ldr	q1, [x10, :lo12:.Lunix_path_CPI22_1]
	ldr	d2, [x9, :lo12:.Lunix_path_CPI22_2]
	ubfx	w9, w8, #8, #8
	mov	w10, #40
	stp	q0, q1, [sp]
	cmp	w9, #41
	str	d2, [sp, #32]
	strb	w10, [sp, #40]
	b.hs	.Lunix_path_BB22_25
	ubfx	x8, x8, #8, #6
	ldrb	w8, [x24, x8]
	cmp	w8, #35
	b.ne	.Lunix_path_BB22_25
	subs	x21, x21, #1
	b.ne	.Lunix_path_BB22_1
	ldr	x8, [x20, #8192]
	ldr	x9, [x20, #8200]
	subs	x9, x9, x8
	b.ne	.Lunix_path_BB22_15
	mov	w0, wzr
	mov	x1, x22
	mov	w2, #65536
	bl	read
	tbnz	x0, #63, .Lunix_path_BB22_24
.Lunix_path_BB22_8:
	cmp	x0, #16, lsl #12
	mov	w8, #65536
	csel	x21, x0, x8, lo
	mov	w8, wzr
	cbnz	x21, .Lunix_path_BB22_26
	b	.Lunix_path_BB22_23
.Lunix_path_BB22_9:
	add	x1, x20, x8
	cmp	x9, #16, lsl #12
	mov	w10, #65536
	csel	x21, x9, x10, lo
	sub	x10, x22, x1
	cmp	x10, x21
	b.hs	.Lunix_path_BB22_21
	cmp	x9, #8
	b.lo	.Lunix_path_BB22_12
	sub	x10, x22, x20
	sub	x10, x10, x8
	cmp	x10, #32
	b.hs	.Lunix_path_BB22_27
.Lunix_path_BB22_12:
	mov	x9, xzr
.Lunix_path_BB22_13:
	add	x11, x20, x9
	sub	x10, x21, x9
	add	x9, x22, x9
	add	x8, x11, x8
.Lunix_path_BB22_14:
	ldrb	w11, [x8], #1
	subs	x10, x10, #1
	strb	w11, [x9], #1
	b.ne	.Lunix_path_BB22_14
	b	.Lunix_path_BB22_22
.Lunix_path_BB22_15:
	add	x1, x20, x8
	cmp	x9, #16, lsl #12
	mov	w10, #65536
	csel	x21, x9, x10, lo
	sub	x10, x22, x1
	cmp	x10, x21
	b.hs	.Lunix_path_BB22_21
	cmp	x9, #8
	b.lo	.Lunix_path_BB22_18
	sub	x10, x22, x20
	sub	x10, x10, x8
	cmp	x10, #32
	b.hs	.Lunix_path_BB22_36
.Lunix_path_BB22_18:
	mov	x9, xzr
.Lunix_path_BB22_19:
	add	x10, x9, x8
	sub	x8, x21, x9
	add	x9, x22, x9
	add	x10, x20, x10
.Lunix_path_BB22_20:
	ldrb	w11, [x10], #1
	subs	x8, x8, #1
	strb	w11, [x9], #1
	b.ne	.Lunix_path_BB22_20
	b	.Lunix_path_BB22_22
.Lunix_path_BB22_21:
	mov	x0, x22
	mov	x2, x21
	bl	memmove
.Lunix_path_BB22_22:
	ldr	x8, [x20, #8200]
	ldr	x9, [x20, #8192]
	sub	x8, x8, x9
	cmp	x21, x8
	csel	x8, x21, x8, lo
	add	x8, x8, x9
	str	x8, [x20, #8192]
	mov	w8, wzr
	cbnz	x21, .Lunix_path_BB22_26
.Lunix_path_BB22_23:
	mov	w9, #1
	strb	w9, [x23, #25]
	b	.Lunix_path_BB22_26
.Lunix_path_BB22_24:
	bl	rattle_errno
.Lunix_path_BB22_25:
	mov	w8, #1
	mov	x21, xzr
	strb	w8, [x23, #24]
.Lunix_path_BB22_26:
	strb	w8, [x19]
	ldp	x24, x23, [sp, #112]
	strb	wzr, [x19, #1]
	ldp	x29, x30, [sp, #96]
	str	x21, [x19, #8]
	ldp	x20, x19, [sp, #144]
	ldp	x22, x21, [sp, #128]
	add	sp, sp, #160
	ret
.Lunix_path_BB22_27:
	cmp	x9, #32
	b.hs	.Lunix_path_BB22_29
	mov	x9, xzr
	b	.Lunix_path_BB22_33
.Lunix_path_BB22_29:
	add	x11, x20, x8
	and	x10, x21, #0x18
	and	x9, x21, #0x1ffe0
	add	x11, x11, #16
	add	x12, x22, #16
	and	x13, x21, #0x1ffe0
.Lunix_path_BB22_30:
	ldp	q0, q1, [x11, #-16]
	subs	x13, x13, #32
	add	x11, x11, #32
	stp	q0, q1, [x12, #-16]
	add	x12, x12, #32
	b.ne	.Lunix_path_BB22_30
	cmp	x21, x9
	b.eq	.Lunix_path_BB22_22
	cbz	x10, .Lunix_path_BB22_13
.Lunix_path_BB22_33:
	mov	x12, x9
	and	x9, x21, #0x1fff8
	add	x11, x20, x12
	sub	x10, x12, x9
	add	x12, x22, x12
	add	x11, x11, x8
.Lunix_path_BB22_34:
	ldr	d0, [x11], #8
	adds	x10, x10, #8
	str	d0, [x12], #8
	b.ne	.Lunix_path_BB22_34
	cmp	x21, x9
	b.eq	.Lunix_path_BB22_22
	b	.Lunix_path_BB22_13
.Lunix_path_BB22_36:
	cmp	x9, #32
	b.hs	.Lunix_path_BB22_38
	mov	x9, xzr
	b	.Lunix_path_BB22_42
.Lunix_path_BB22_38:
	add	x11, x8, x20
	and	x10, x21, #0x18
	and	x9, x21, #0x1ffe0
	add	x11, x11, #16
	add	x12, x22, #16
	and	x13, x21, #0x1ffe0
.Lunix_path_BB22_39:
	ldp	q0, q1, [x11, #-16]
	subs	x13, x13, #32
	add	x11, x11, #32
	stp	q0, q1, [x12, #-16]
	add	x12, x12, #32
	b.ne	.Lunix_path_BB22_39
	cmp	x21, x9
	b.eq	.Lunix_path_BB22_22
	cbz	x10, .Lunix_path_BB22_19
.Lunix_path_BB22_42:
	mov	x12, x9
	and	x9, x21, #0x1fff8
	add	x11, x12, x8
	sub	x10, x12, x9
	add	x12, x22, x12
	add	x11, x20, x11
.Lunix_path_BB22_43:
	ldr	d0, [x11], #8
	adds	x10, x10, #8
	str	d0, [x12], #8
	b.ne	.Lunix_path_BB22_43
	cmp	x21, x9
	b.eq	.Lunix_path_BB22_22
	b	.Lunix_path_BB22_19
.Lunix_path_func_end22:
	.size	upath_commands.input.read_some.909299a5b5e629dc., .Lunix_path_func_end22-upath_commands.input.read_some.909299a5b5e629dc.
	.section	.text.std_io.io.error.Error.from_raw_os_error,"ax",@progbits
	.p2align	2
	.type	std_io.io.error.Error.from_raw_os_error,@function
// std_io::io::error::Error::from_raw_os_error
std_io.io.error.Error.from_raw_os_error:
	tbnz	w1, #31, .Lunix_path_BB23_4
	sub	w8, w1, #1
	cmp	w8, #121
	b.hi	.Lunix_path_BB23_4
	adrp	x9, .Lunix_path_JTI23_0
	add	x9, x9, :lo12:.Lunix_path_JTI23_0
	adr	x10, .Lunix_path_BB23_3
	ldrb	w11, [x9, x8]
	add	x10, x10, x11, lsl #2
	mov	w8, #1
	br	x10
.Lunix_path_BB23_3:
	mov	w8, #36
	b	.Lunix_path_BB23_5
.Lunix_path_BB23_4:
	mov	w8, #41
.Lunix_path_BB23_5:
	movi	v0.2d, #0000000000000000
	strb	wzr, [x0]
	strb	w8, [x0, #1]
	strh	wzr, [x0, #2]
	str	w1, [x0, #4]
	stur	q0, [x0, #8]
	stur	q0, [x0, #24]
	stur	q0, [x0, #40]
	stur	q0, [x0, #56]
	stur	q0, [x0, #72]
	ret
.Lunix_path_BB23_6:
	mov	w8, #4
	b	.Lunix_path_BB23_5
.Lunix_path_BB23_7:
	mov	w8, #7
	b	.Lunix_path_BB23_5
.Lunix_path_BB23_8:
	mov	w8, #26
	b	.Lunix_path_BB23_5
.Lunix_path_BB23_9:
	mov	w8, #39
	b	.Lunix_path_BB23_5
.Lunix_path_BB23_10:
	mov	w8, #9
	b	.Lunix_path_BB23_5
.Lunix_path_BB23_11:
	mov	w8, #8
	b	.Lunix_path_BB23_5
.Lunix_path_BB23_12:
	mov	w8, #30
	b	.Lunix_path_BB23_5
.Lunix_path_BB23_13:
	mov	w8, #25
	b	.Lunix_path_BB23_5
.Lunix_path_BB23_14:
	mov	w8, #32
	b	.Lunix_path_BB23_5
.Lunix_path_BB23_15:
	mov	w8, #33
	b	.Lunix_path_BB23_5
.Lunix_path_BB23_16:
	mov	w8, #22
	b	.Lunix_path_BB23_5
.Lunix_path_BB23_17:
	mov	w8, #31
	b	.Lunix_path_BB23_5
.Lunix_path_BB23_18:
	mov	w8, #29
	b	.Lunix_path_BB23_5
.Lunix_path_BB23_19:
	mov	w8, #18
	b	.Lunix_path_BB23_5
.Lunix_path_BB23_20:
	mov	w8, #10
	b	.Lunix_path_BB23_5
.Lunix_path_BB23_21:
	mov	w8, #28
	b	.Lunix_path_BB23_5
.Lunix_path_BB23_22:
	mov	w8, #14
	b	.Lunix_path_BB23_5
.Lunix_path_BB23_23:
	mov	w8, #12
	b	.Lunix_path_BB23_5
.Lunix_path_BB23_24:
	mov	w8, #5
	b	.Lunix_path_BB23_5
.Lunix_path_BB23_25:
	mov	w8, #3
	b	.Lunix_path_BB23_5
.Lunix_path_BB23_26:
	mov	w8, wzr
	b	.Lunix_path_BB23_5
.Lunix_path_BB23_27:
	mov	w8, #13
	b	.Lunix_path_BB23_5
.Lunix_path_BB23_28:
	mov	w8, #38
	b	.Lunix_path_BB23_5
.Lunix_path_BB23_29:
	mov	w8, #11
	b	.Lunix_path_BB23_5
.Lunix_path_BB23_30:
	mov	w8, #35
	b	.Lunix_path_BB23_5
.Lunix_path_BB23_31:
	mov	w8, #34
	b	.Lunix_path_BB23_5
.Lunix_path_BB23_32:
	mov	w8, #20
	b	.Lunix_path_BB23_5
.Lunix_path_BB23_33:
	mov	w8, #15
	b	.Lunix_path_BB23_5
.Lunix_path_BB23_34:
	mov	w8, #19
	b	.Lunix_path_BB23_5
.Lunix_path_BB23_35:
	mov	w8, #16
	b	.Lunix_path_BB23_5
.Lunix_path_BB23_36:
	mov	w8, #6
	b	.Lunix_path_BB23_5
.Lunix_path_BB23_37:
	mov	w8, #27
	b	.Lunix_path_BB23_5
.Lunix_path_BB23_38:
	mov	w8, #24
	b	.Lunix_path_BB23_5
.Lunix_path_BB23_39:
	mov	w8, #2
	b	.Lunix_path_BB23_5
.Lunix_path_BB23_40:
	mov	w8, #17
	b	.Lunix_path_BB23_5
.Lunix_path_func_end23:
	.size	std_io.io.error.Error.from_raw_os_error, .Lunix_path_func_end23-std_io.io.error.Error.from_raw_os_error
	.section	.rodata.std_io.io.error.Error.from_raw_os_error,"a",@progbits
.Lunix_path_JTI23_0:
	.byte	(.Lunix_path_BB23_5-.Lunix_path_BB23_3)>>2
	.byte	(.Lunix_path_BB23_26-.Lunix_path_BB23_3)>>2
	.byte	(.Lunix_path_BB23_4-.Lunix_path_BB23_3)>>2
	.byte	(.Lunix_path_BB23_30-.Lunix_path_BB23_3)>>2
	.byte	(.Lunix_path_BB23_4-.Lunix_path_BB23_3)>>2
	.byte	(.Lunix_path_BB23_4-.Lunix_path_BB23_3)>>2
	.byte	(.Lunix_path_BB23_31-.Lunix_path_BB23_3)>>2
	.byte	(.Lunix_path_BB23_4-.Lunix_path_BB23_3)>>2
	.byte	(.Lunix_path_BB23_4-.Lunix_path_BB23_3)>>2
	.byte	(.Lunix_path_BB23_4-.Lunix_path_BB23_3)>>2
	.byte	(.Lunix_path_BB23_27-.Lunix_path_BB23_3)>>2
	.byte	(.Lunix_path_BB23_28-.Lunix_path_BB23_3)>>2
	.byte	(.Lunix_path_BB23_5-.Lunix_path_BB23_3)>>2
	.byte	(.Lunix_path_BB23_4-.Lunix_path_BB23_3)>>2
	.byte	(.Lunix_path_BB23_4-.Lunix_path_BB23_3)>>2
	.byte	(.Lunix_path_BB23_21-.Lunix_path_BB23_3)>>2
	.byte	(.Lunix_path_BB23_23-.Lunix_path_BB23_3)>>2
	.byte	(.Lunix_path_BB23_17-.Lunix_path_BB23_3)>>2
	.byte	(.Lunix_path_BB23_4-.Lunix_path_BB23_3)>>2
	.byte	(.Lunix_path_BB23_22-.Lunix_path_BB23_3)>>2
	.byte	(.Lunix_path_BB23_33-.Lunix_path_BB23_3)>>2
	.byte	(.Lunix_path_BB23_32-.Lunix_path_BB23_3)>>2
	.byte	(.Lunix_path_BB23_4-.Lunix_path_BB23_3)>>2
	.byte	(.Lunix_path_BB23_4-.Lunix_path_BB23_3)>>2
	.byte	(.Lunix_path_BB23_4-.Lunix_path_BB23_3)>>2
	.byte	(.Lunix_path_BB23_18-.Lunix_path_BB23_3)>>2
	.byte	(.Lunix_path_BB23_37-.Lunix_path_BB23_3)>>2
	.byte	(.Lunix_path_BB23_38-.Lunix_path_BB23_3)>>2
	.byte	(.Lunix_path_BB23_13-.Lunix_path_BB23_3)>>2
	.byte	(.Lunix_path_BB23_40-.Lunix_path_BB23_3)>>2
	.byte	(.Lunix_path_BB23_14-.Lunix_path_BB23_3)>>2
	.byte	(.Lunix_path_BB23_29-.Lunix_path_BB23_3)>>2
	.byte	(.Lunix_path_BB23_4-.Lunix_path_BB23_3)>>2
	.byte	(.Lunix_path_BB23_4-.Lunix_path_BB23_3)>>2
	.byte	(.Lunix_path_BB23_12-.Lunix_path_BB23_3)>>2
	.byte	(.Lunix_path_BB23_15-.Lunix_path_BB23_3)>>2
	.byte	(.Lunix_path_BB23_4-.Lunix_path_BB23_3)>>2
	.byte	(.Lunix_path_BB23_3-.Lunix_path_BB23_3)>>2
	.byte	(.Lunix_path_BB23_35-.Lunix_path_BB23_3)>>2
	.byte	(.Lunix_path_BB23_19-.Lunix_path_BB23_3)>>2
	.byte	(.Lunix_path_BB23_4-.Lunix_path_BB23_3)>>2
	.byte	(.Lunix_path_BB23_4-.Lunix_path_BB23_3)>>2
	.byte	(.Lunix_path_BB23_4-.Lunix_path_BB23_3)>>2
	.byte	(.Lunix_path_BB23_4-.Lunix_path_BB23_3)>>2
	.byte	(.Lunix_path_BB23_4-.Lunix_path_BB23_3)>>2
	.byte	(.Lunix_path_BB23_4-.Lunix_path_BB23_3)>>2
	.byte	(.Lunix_path_BB23_4-.Lunix_path_BB23_3)>>2
	.byte	(.Lunix_path_BB23_4-.Lunix_path_BB23_3)>>2
	.byte	(.Lunix_path_BB23_4-.Lunix_path_BB23_3)>>2
	.byte	(.Lunix_path_BB23_4-.Lunix_path_BB23_3)>>2
	.byte	(.Lunix_path_BB23_4-.Lunix_path_BB23_3)>>2
	.byte	(.Lunix_path_BB23_4-.Lunix_path_BB23_3)>>2
	.byte	(.Lunix_path_BB23_4-.Lunix_path_BB23_3)>>2
	.byte	(.Lunix_path_BB23_4-.Lunix_path_BB23_3)>>2
	.byte	(.Lunix_path_BB23_4-.Lunix_path_BB23_3)>>2
	.byte	(.Lunix_path_BB23_4-.Lunix_path_BB23_3)>>2
	.byte	(.Lunix_path_BB23_4-.Lunix_path_BB23_3)>>2
	.byte	(.Lunix_path_BB23_4-.Lunix_path_BB23_3)>>2
	.byte	(.Lunix_path_BB23_4-.Lunix_path_BB23_3)>>2
	.byte	(.Lunix_path_BB23_4-.Lunix_path_BB23_3)>>2
	.byte	(.Lunix_path_BB23_4-.Lunix_path_BB23_3)>>2
	.byte	(.Lunix_path_BB23_4-.Lunix_path_BB23_3)>>2
	.byte	(.Lunix_path_BB23_4-.Lunix_path_BB23_3)>>2
	.byte	(.Lunix_path_BB23_4-.Lunix_path_BB23_3)>>2
	.byte	(.Lunix_path_BB23_4-.Lunix_path_BB23_3)>>2
	.byte	(.Lunix_path_BB23_4-.Lunix_path_BB23_3)>>2
	.byte	(.Lunix_path_BB23_4-.Lunix_path_BB23_3)>>2
	.byte	(.Lunix_path_BB23_4-.Lunix_path_BB23_3)>>2
	.byte	(.Lunix_path_BB23_4-.Lunix_path_BB23_3)>>2
	.byte	(.Lunix_path_BB23_4-.Lunix_path_BB23_3)>>2
	.byte	(.Lunix_path_BB23_4-.Lunix_path_BB23_3)>>2
	.byte	(.Lunix_path_BB23_4-.Lunix_path_BB23_3)>>2
	.byte	(.Lunix_path_BB23_4-.Lunix_path_BB23_3)>>2
	.byte	(.Lunix_path_BB23_4-.Lunix_path_BB23_3)>>2
	.byte	(.Lunix_path_BB23_4-.Lunix_path_BB23_3)>>2
	.byte	(.Lunix_path_BB23_4-.Lunix_path_BB23_3)>>2
	.byte	(.Lunix_path_BB23_4-.Lunix_path_BB23_3)>>2
	.byte	(.Lunix_path_BB23_4-.Lunix_path_BB23_3)>>2
	.byte	(.Lunix_path_BB23_4-.Lunix_path_BB23_3)>>2
	.byte	(.Lunix_path_BB23_4-.Lunix_path_BB23_3)>>2
	.byte	(.Lunix_path_BB23_4-.Lunix_path_BB23_3)>>2
	.byte	(.Lunix_path_BB23_4-.Lunix_path_BB23_3)>>2
	.byte	(.Lunix_path_BB23_4-.Lunix_path_BB23_3)>>2
	.byte	(.Lunix_path_BB23_4-.Lunix_path_BB23_3)>>2
	.byte	(.Lunix_path_BB23_4-.Lunix_path_BB23_3)>>2
	.byte	(.Lunix_path_BB23_4-.Lunix_path_BB23_3)>>2
	.byte	(.Lunix_path_BB23_4-.Lunix_path_BB23_3)>>2
	.byte	(.Lunix_path_BB23_4-.Lunix_path_BB23_3)>>2
	.byte	(.Lunix_path_BB23_4-.Lunix_path_BB23_3)>>2
	.byte	(.Lunix_path_BB23_4-.Lunix_path_BB23_3)>>2
	.byte	(.Lunix_path_BB23_4-.Lunix_path_BB23_3)>>2
	.byte	(.Lunix_path_BB23_4-.Lunix_path_BB23_3)>>2
	.byte	(.Lunix_path_BB23_4-.Lunix_path_BB23_3)>>2
	.byte	(.Lunix_path_BB23_4-.Lunix_path_BB23_3)>>2
	.byte	(.Lunix_path_BB23_3-.Lunix_path_BB23_3)>>2
	.byte	(.Lunix_path_BB23_4-.Lunix_path_BB23_3)>>2
	.byte	(.Lunix_path_BB23_4-.Lunix_path_BB23_3)>>2
	.byte	(.Lunix_path_BB23_11-.Lunix_path_BB23_3)>>2
	.byte	(.Lunix_path_BB23_10-.Lunix_path_BB23_3)>>2
	.byte	(.Lunix_path_BB23_20-.Lunix_path_BB23_3)>>2
	.byte	(.Lunix_path_BB23_24-.Lunix_path_BB23_3)>>2
	.byte	(.Lunix_path_BB23_4-.Lunix_path_BB23_3)>>2
	.byte	(.Lunix_path_BB23_36-.Lunix_path_BB23_3)>>2
	.byte	(.Lunix_path_BB23_25-.Lunix_path_BB23_3)>>2
	.byte	(.Lunix_path_BB23_4-.Lunix_path_BB23_3)>>2
	.byte	(.Lunix_path_BB23_4-.Lunix_path_BB23_3)>>2
	.byte	(.Lunix_path_BB23_7-.Lunix_path_BB23_3)>>2
	.byte	(.Lunix_path_BB23_4-.Lunix_path_BB23_3)>>2
	.byte	(.Lunix_path_BB23_4-.Lunix_path_BB23_3)>>2
	.byte	(.Lunix_path_BB23_16-.Lunix_path_BB23_3)>>2
	.byte	(.Lunix_path_BB23_39-.Lunix_path_BB23_3)>>2
	.byte	(.Lunix_path_BB23_4-.Lunix_path_BB23_3)>>2
	.byte	(.Lunix_path_BB23_6-.Lunix_path_BB23_3)>>2
	.byte	(.Lunix_path_BB23_4-.Lunix_path_BB23_3)>>2
	.byte	(.Lunix_path_BB23_9-.Lunix_path_BB23_3)>>2
	.byte	(.Lunix_path_BB23_34-.Lunix_path_BB23_3)>>2
	.byte	(.Lunix_path_BB23_4-.Lunix_path_BB23_3)>>2
	.byte	(.Lunix_path_BB23_4-.Lunix_path_BB23_3)>>2
	.byte	(.Lunix_path_BB23_4-.Lunix_path_BB23_3)>>2
	.byte	(.Lunix_path_BB23_4-.Lunix_path_BB23_3)>>2
	.byte	(.Lunix_path_BB23_4-.Lunix_path_BB23_3)>>2
	.byte	(.Lunix_path_BB23_8-.Lunix_path_BB23_3)>>2
	.section	.text.tar_listing.text.push_text,"ax",@progbits
	.p2align	2
	.type	tar_listing.text.push_text,@function
// tar_listing::text::push_text
tar_listing.text.push_text:
	stp	x29, x30, [sp, #-64]!
	stp	x20, x19, [sp, #48]
	mov	x19, x0
	mov	x29, sp
	str	x23, [sp, #16]
	stp	x22, x21, [sp, #32]
	cbz	x2, .Lunix_path_BB24_40
	mov	x20, x3
	mov	x21, x2
	mov	x22, x1
	b	.Lunix_path_BB24_5
.Lunix_path_BB24_2:
	mov	w23, #9
.Lunix_path_BB24_3:
	sub	x21, x21, #2
	add	x22, x22, #2
	ldp	x8, x9, [x20, #8]
	cmp	x9, x8
	b.eq	.Lunix_path_BB24_16
.Lunix_path_BB24_4:
	ldr	x9, [x20]
	add	x10, x8, #1
	strb	w23, [x9, x8]
	str	x10, [x20, #8]
	cbz	x21, .Lunix_path_BB24_40
.Lunix_path_BB24_5:
	mov	x8, x22
	sub	x9, x21, #1
	ldrb	w23, [x8], #1
	cmp	w23, #92
	b.ne	.Lunix_path_BB24_13
	cbz	x9, .Lunix_path_BB24_37
	ldrb	w23, [x8]
	cmp	w23, #101
	b.le	.Lunix_path_BB24_18
	cmp	w23, #113
	b.le	.Lunix_path_BB24_24
	cmp	w23, #114
	b.eq	.Lunix_path_BB24_28
	cmp	w23, #116
	b.eq	.Lunix_path_BB24_2
	cmp	w23, #118
	b.ne	.Lunix_path_BB24_30
	mov	w23, #11
	sub	x21, x21, #2
	add	x22, x22, #2
	ldp	x8, x9, [x20, #8]
	cmp	x9, x8
	b.ne	.Lunix_path_BB24_4
	b	.Lunix_path_BB24_16
.Lunix_path_BB24_13:
	cmp	w23, #34
	b.eq	.Lunix_path_BB24_38
	sub	w10, w23, #32
	and	w10, w10, #0xff
	cmp	w10, #94
	b.hi	.Lunix_path_BB24_38
	mov	x22, x8
	mov	x21, x9
	ldp	x8, x9, [x20, #8]
	cmp	x9, x8
	b.ne	.Lunix_path_BB24_4
.Lunix_path_BB24_16:
	mov	x0, x20
	bl	std_alloc.vec.Vec.grow_amortized.2b9b8e146aca54c4.
	cbz	w0, .Lunix_path_BB24_43
	ldp	x9, x8, [x20]
	add	x10, x8, #1
	strb	w23, [x9, x8]
	str	x10, [x20, #8]
	cbnz	x21, .Lunix_path_BB24_5
	b	.Lunix_path_BB24_40
.Lunix_path_BB24_18:
	cmp	w23, #96
	b.gt	.Lunix_path_BB24_21
	cmp	w23, #34
	b.eq	.Lunix_path_BB24_3
	cmp	w23, #92
	b.eq	.Lunix_path_BB24_3
	b	.Lunix_path_BB24_30
.Lunix_path_BB24_21:
	cmp	w23, #97
	b.eq	.Lunix_path_BB24_27
	cmp	w23, #98
	b.ne	.Lunix_path_BB24_30
	mov	w23, #8
	sub	x21, x21, #2
	add	x22, x22, #2
	ldp	x8, x9, [x20, #8]
	cmp	x9, x8
	b.ne	.Lunix_path_BB24_4
	b	.Lunix_path_BB24_16
.Lunix_path_BB24_24:
	cmp	w23, #102
	b.eq	.Lunix_path_BB24_29
	cmp	w23, #110
	b.ne	.Lunix_path_BB24_30
	mov	w23, #10
	sub	x21, x21, #2
	add	x22, x22, #2
	ldp	x8, x9, [x20, #8]
	cmp	x9, x8
	b.ne	.Lunix_path_BB24_4
	b	.Lunix_path_BB24_16
.Lunix_path_BB24_27:
	mov	w23, #7
	sub	x21, x21, #2
	add	x22, x22, #2
	ldp	x8, x9, [x20, #8]
	cmp	x9, x8
	b.ne	.Lunix_path_BB24_4
	b	.Lunix_path_BB24_16
.Lunix_path_BB24_28:
	mov	w23, #13
	sub	x21, x21, #2
	add	x22, x22, #2
	ldp	x8, x9, [x20, #8]
	cmp	x9, x8
	b.ne	.Lunix_path_BB24_4
	b	.Lunix_path_BB24_16
.Lunix_path_BB24_29:
	mov	w23, #12
	sub	x21, x21, #2
	add	x22, x22, #2
	ldp	x8, x9, [x20, #8]
	cmp	x9, x8
	b.ne	.Lunix_path_BB24_4
	b	.Lunix_path_BB24_16
.Lunix_path_BB24_30:
	subs	x21, x21, #4
	b.lo	.Lunix_path_BB24_40
	sub	w8, w23, #52
	and	w8, w8, #0xff
	cmp	w8, #252
	b.lo	.Lunix_path_BB24_40
	ldrb	w8, [x22, #2]
	ldrb	w9, [x22, #3]
	mov	w10, #55
	sub	w11, w10, w8
	sub	w10, w10, w9
	orr	w10, w10, w11
	and	w10, w10, #0xff
	cmp	w10, #7
	b.hi	.Lunix_path_BB24_40
	add	w9, w9, w23, lsl #6
	add	w8, w9, w8, lsl #3
	add	w23, w8, #80
	and	w9, w23, #0xff
	cmp	w9, #126
	b.hi	.Lunix_path_BB24_36
	add	w9, w8, #79
	and	w9, w9, #0xff
	cmp	w9, #6
	b.lo	.Lunix_path_BB24_36
	add	w8, w8, #66
	and	w8, w8, #0xff
	cmp	w8, #17
	b.hi	.Lunix_path_BB24_40
.Lunix_path_BB24_36:
	add	x22, x22, #4
	ldp	x8, x9, [x20, #8]
	cmp	x9, x8
	b.ne	.Lunix_path_BB24_4
	b	.Lunix_path_BB24_16
.Lunix_path_BB24_37:
	mov	x8, xzr
	b	.Lunix_path_BB24_41
.Lunix_path_BB24_38:
	cmp	w23, #34
	b.ne	.Lunix_path_BB24_40
	mov	w10, #1
	b	.Lunix_path_BB24_42
.Lunix_path_BB24_40:
	mov	x8, xzr
	mov	x9, xzr
.Lunix_path_BB24_41:
	mov	x10, xzr
.Lunix_path_BB24_42:
	strb	wzr, [x19]
	stp	x10, x8, [x19, #8]
	str	x9, [x19, #24]
	ldp	x20, x19, [sp, #48]
	ldr	x23, [sp, #16]
	ldp	x22, x21, [sp, #32]
	ldp	x29, x30, [sp], #64
	ret
.Lunix_path_BB24_43:
	mov	w8, #1
	stp	xzr, xzr, [x19, #16]
	strb	w8, [x19]
	str	xzr, [x19, #8]
	ldp	x20, x19, [sp, #48]
	ldr	x23, [sp, #16]
	ldp	x22, x21, [sp, #32]
	ldp	x29, x30, [sp], #64
	ret
.Lunix_path_func_end24:
	.size	tar_listing.text.push_text, .Lunix_path_func_end24-tar_listing.text.push_text
	.section	.text.tar_listing.entry.push_target,"ax",@progbits
	.p2align	2
	.type	tar_listing.entry.push_target,@function
// tar_listing::entry::push_target
tar_listing.entry.push_target:
	sub	sp, sp, #80
	and	w8, w1, #0xff
	mov	w10, wzr
	mov	w9, #1
	cmp	w8, #2
	stp	x29, x30, [sp, #32]
	add	x29, sp, #32
	stp	x22, x21, [sp, #48]
	stp	x20, x19, [sp, #64]
	b.gt	.Lunix_path_BB25_4
	b.lo	.Lunix_path_BB25_15
	movi	v0.2d, #0000000000000000
	subs	x8, x3, #5
	stp	q0, q0, [sp]
	b.hs	.Lunix_path_BB25_7
	mov	x3, xzr
	mov	w9, wzr
	mov	w10, wzr
	mov	x2, xzr
	b	.Lunix_path_BB25_15
.Lunix_path_BB25_4:
	cmp	w8, #3
	b.ne	.Lunix_path_BB25_15
	movi	v0.2d, #0000000000000000
	subs	x19, x3, #10
	stp	q0, q0, [sp]
	b.hs	.Lunix_path_BB25_11
	mov	x3, xzr
	mov	x2, xzr
	mov	w9, wzr
	mov	w10, wzr
	b	.Lunix_path_BB25_15
.Lunix_path_BB25_7:
	ldur	w10, [x2, #1]
	mov	w11, #15917
	mov	w9, wzr
	movk	w11, #8736, lsl #16
	mov	x3, xzr
	cmp	w10, w11
	b.ne	.Lunix_path_BB25_16
	ldrb	w10, [x2]
	mov	x11, x3
	cmp	w10, #32
	mov	w10, w9
	b.ne	.Lunix_path_BB25_10
	mov	x19, x0
	mov	x0, sp
	add	x1, x2, #5
	mov	x2, x8
	mov	x3, x4
	bl	tar_listing.text.push_text
	ldp	x11, x3, [sp, #16]
	mov	x0, x19
	ldrb	w10, [sp]
	ldrb	w9, [sp, #8]
.Lunix_path_BB25_10:
	mov	x2, x11
	b	.Lunix_path_BB25_15
.Lunix_path_BB25_11:
	mov	x21, x0
	adrp	x0, .Lunix_path_static.48
	add	x0, x0, :lo12:.Lunix_path_static.48
	mov	x22, x2
	mov	x1, x2
	mov	w2, #10
	mov	x20, x4
	bl	core.slice.scan.any_in_quarters.953750c03e87c3e2.
	tbz	w0, #0, .Lunix_path_BB25_13
	mov	x3, xzr
	mov	x2, xzr
	mov	w9, wzr
	mov	w10, wzr
	b	.Lunix_path_BB25_14
.Lunix_path_BB25_13:
	mov	x0, sp
	add	x1, x22, #10
	mov	x2, x19
	mov	x3, x20
	bl	tar_listing.text.push_text
	ldp	x2, x3, [sp, #16]
	ldrb	w10, [sp]
	ldrb	w9, [sp, #8]
.Lunix_path_BB25_14:
	mov	x0, x21
.Lunix_path_BB25_15:
	ldp	x20, x19, [sp, #64]
	mov	w8, w9
	ldp	x22, x21, [sp, #48]
	strb	w10, [x0]
	ldp	x29, x30, [sp, #32]
	stp	x8, x2, [x0, #8]
	str	x3, [x0, #24]
	add	sp, sp, #80
	ret
.Lunix_path_BB25_16:
	mov	w10, w9
	mov	x2, x3
	b	.Lunix_path_BB25_15
.Lunix_path_func_end25:
	.size	tar_listing.entry.push_target, .Lunix_path_func_end25-tar_listing.entry.push_target
	.section	.text.std_alloc.vec.Vec.push.2b9b8e146aca54c4.,"ax",@progbits
	.p2align	2
	.type	std_alloc.vec.Vec.push.2b9b8e146aca54c4.,@function
// std_alloc::vec::Vec::push::<#2b9b8e146aca54c4>
std_alloc.vec.Vec.push.2b9b8e146aca54c4.:
	stp	x29, x30, [sp, #-32]!
	ldp	x9, x8, [x0, #8]
	mov	x29, sp
	stp	x20, x19, [sp, #16]
	cmp	x8, x9
	b.eq	.Lunix_path_BB26_2
.Lunix_path_BB26_1:
	ldr	x10, [x0]
	mov	w8, wzr
	add	x11, x9, #1
	strb	w1, [x10, x9]
	str	x11, [x0, #8]
	ldp	x20, x19, [sp, #16]
	mov	w0, w8
	ldp	x29, x30, [sp], #32
	ret
.Lunix_path_BB26_2:
	mov	w19, w1
	mov	x20, x0
	bl	std_alloc.vec.Vec.grow_amortized.2b9b8e146aca54c4.
	cbz	w0, .Lunix_path_BB26_4
	ldr	x9, [x20, #8]
	mov	x0, x20
	mov	w1, w19
	b	.Lunix_path_BB26_1
.Lunix_path_BB26_4:
	mov	w8, #1
	ldp	x20, x19, [sp, #16]
	mov	w0, w8
	ldp	x29, x30, [sp], #32
	ret
.Lunix_path_func_end26:
	.size	std_alloc.vec.Vec.push.2b9b8e146aca54c4., .Lunix_path_func_end26-std_alloc.vec.Vec.push.2b9b8e146aca54c4.
	.section	.text.unlikely.std_alloc.vec.Vec.grow_amortized.2b9b8e146aca54c4.,"ax",@progbits
	.p2align	2
	.type	std_alloc.vec.Vec.grow_amortized.2b9b8e146aca54c4.,@function
// std_alloc::vec::Vec::grow_amortized::<#2b9b8e146aca54c4>
std_alloc.vec.Vec.grow_amortized.2b9b8e146aca54c4.:
	ldr	x1, [x0, #8]
	cmn	x1, #1
	b.eq	.Lunix_path_BB27_5
	stp	x29, x30, [sp, #-32]!
	ldr	x9, [x0, #16]
	cmp	x1, #7
	mov	w8, #7
	csel	x10, x1, x8, hi
	stp	x20, x19, [sp, #16]
	mov	x29, sp
	lsl	x8, x9, #1
	add	x11, x10, #1
	lsr	x12, x9, #62
	cmp	x11, x8
	csinc	x8, x8, x10, ls
	cmp	x12, #0
	csinc	x19, x8, x10, eq
	tbnz	x19, #63, .Lunix_path_BB27_7
	cbz	x9, .Lunix_path_BB27_6
	mov	x20, x0
	ldr	x0, [x0]
	mov	x2, x19
	mov	w3, #1
	bl	rattle_realloc
	tbz	w0, #0, .Lunix_path_BB27_7
.Lunix_path_BB27_4:
	mov	w0, #1
	str	x1, [x20]
	str	x19, [x20, #16]
	ldp	x20, x19, [sp, #16]
	ldp	x29, x30, [sp], #32
	ret
.Lunix_path_BB27_5:
	mov	w0, wzr
	ret
.Lunix_path_BB27_6:
	mov	x20, x0
	mov	x0, x8
	mov	w1, #1
	bl	rattle_alloc
	tbnz	w0, #0, .Lunix_path_BB27_4
.Lunix_path_BB27_7:
	mov	w0, wzr
	ldp	x20, x19, [sp, #16]
	ldp	x29, x30, [sp], #32
	ret
.Lunix_path_func_end27:
	.size	std_alloc.vec.Vec.grow_amortized.2b9b8e146aca54c4., .Lunix_path_func_end27-std_alloc.vec.Vec.grow_amortized.2b9b8e146aca54c4.
	.section	.rodata.cst16,"aM",@progbits,16
	.p2align	4, 0x0
.Lunix_path_CPI28_0:
	.byte	1
	.byte	2
	.byte	4
	.byte	8
	.byte	16
	.byte	32
	.byte	64
	.byte	128
	.byte	1
	.byte	2
	.byte	4
	.byte	8
	.byte	16
	.byte	32
	.byte	64
	.byte	128
.Lunix_path_CPI28_4:
	.byte	104
	.byte	97
	.byte	114
	.byte	100
	.byte	32
	.byte	108
	.byte	105
	.byte	110
	.byte	107
	.byte	32
	.byte	116
	.byte	111
	.byte	32
	.byte	116
	.byte	104
	.byte	101
.Lunix_path_CPI28_6:
	.byte	105
	.byte	115
	.byte	32
	.byte	97
	.byte	32
	.byte	115
	.byte	121
	.byte	109
	.byte	98
	.byte	111
	.byte	108
	.byte	105
	.byte	99
	.byte	32
	.byte	108
	.byte	105
.Lunix_path_CPI28_7:
	.byte	110
	.byte	107
	.byte	44
	.byte	32
	.byte	97
	.byte	110
	.byte	100
	.byte	32
	.byte	117
	.byte	115
	.byte	101
	.byte	100
	.byte	32
	.byte	116
	.byte	119
	.byte	105
.Lunix_path_CPI28_11:
	.byte	110
	.byte	101
	.byte	105
	.byte	116
	.byte	104
	.byte	101
	.byte	114
	.byte	32
	.byte	97
	.byte	32
	.byte	100
	.byte	105
	.byte	114
	.byte	101
	.byte	99
	.byte	116
.Lunix_path_CPI28_12:
	.byte	111
	.byte	114
	.byte	121
	.byte	44
	.byte	32
	.byte	97
	.byte	32
	.byte	102
	.byte	105
	.byte	108
	.byte	101
	.byte	32
	.byte	110
	.byte	111
	.byte	114
	.byte	32
.Lunix_path_CPI28_14:
	.byte	104
	.byte	97
	.byte	115
	.byte	32
	.byte	97
	.byte	32
	.byte	114
	.byte	111
	.byte	111
	.byte	116
	.byte	44
	.byte	32
	.byte	104
	.byte	97
	.byte	115
	.byte	32
.Lunix_path_CPI28_15:
	.byte	97
	.byte	32
	.byte	46
	.byte	46
	.byte	44
	.byte	32
	.byte	111
	.byte	114
	.byte	32
	.byte	100
	.byte	111
	.byte	101
	.byte	115
	.byte	32
	.byte	110
	.byte	111
.Lunix_path_CPI28_18:
	.byte	117
	.byte	112
	.byte	97
	.byte	116
	.byte	104
	.byte	58
	.byte	32
	.byte	110
	.byte	111
	.byte	32
	.byte	101
	.byte	110
	.byte	116
	.byte	114
	.byte	105
	.byte	101
	.section	.rodata.cst8,"aM",@progbits,8
	.p2align	3, 0x0
.Lunix_path_CPI28_1:
	.byte	117
	.byte	112
	.byte	97
	.byte	116
	.zero	1
	.zero	1
	.zero	1
	.zero	1
.Lunix_path_CPI28_2:
	.byte	108
	.byte	101
	.byte	97
	.byte	100
	.byte	115
	.byte	32
	.byte	111
	.byte	117
.Lunix_path_CPI28_3:
	.byte	116
	.byte	44
	.byte	32
	.byte	116
	.zero	1
	.zero	1
	.zero	1
	.zero	1
.Lunix_path_CPI28_5:
	.byte	32
	.byte	108
	.byte	105
	.byte	110
	.zero	1
	.zero	1
	.zero	1
	.zero	1
.Lunix_path_CPI28_8:
	.byte	108
	.byte	105
	.byte	101
	.byte	115
	.byte	32
	.byte	98
	.byte	101
	.byte	108
.Lunix_path_CPI28_9:
	.byte	32
	.byte	111
	.byte	114
	.byte	32
	.byte	105
	.byte	116
	.byte	115
	.byte	32
.Lunix_path_CPI28_10:
	.byte	116
	.byte	97
	.byte	114
	.byte	103
	.zero	1
	.zero	1
	.zero	1
	.zero	1
.Lunix_path_CPI28_13:
	.byte	97
	.byte	32
	.byte	108
	.byte	105
	.zero	1
	.zero	1
	.zero	1
	.zero	1
.Lunix_path_CPI28_16:
	.byte	116
	.byte	32
	.byte	101
	.byte	110
	.byte	100
	.byte	32
	.byte	105
	.byte	110
.Lunix_path_CPI28_17:
	.byte	32
	.byte	97
	.byte	32
	.byte	110
	.zero	1
	.zero	1
	.zero	1
	.zero	1
	.section	.text.upath_commands.archive.decide_records,"ax",@progbits
	.p2align	2
	.type	upath_commands.archive.decide_records,@function
// upath_commands::archive::decide_records
upath_commands.archive.decide_records:
	sub	sp, sp, #448
	stp	x29, x30, [sp, #352]
	add	x29, sp, #352
	movi	v0.2d, #0000000000000000
	sub	x8, x29, #80
	stp	x28, x27, [sp, #368]
	mov	x28, x2
	stp	x8, xzr, [sp, #176]
	ldr	x8, [x1]
	stp	x22, x21, [sp, #416]
	mov	x22, x3
	str	x8, [sp, #48]
	ldrb	w8, [x1, #8]
	stp	x20, x19, [sp, #432]
	mov	x19, xzr
	stp	d15, d14, [sp, #288]
	stp	d13, d12, [sp, #304]
	stp	d11, d10, [sp, #320]
	stp	d9, d8, [sp, #336]
	stp	x26, x25, [sp, #384]
	stp	x24, x23, [sp, #400]
	str	x0, [sp, #32]
	stp	xzr, xzr, [sp, #96]
	stur	xzr, [x29, #-96]
	stp	q0, q0, [x29, #-128]
	str	w8, [sp, #28]
	str	xzr, [sp, #192]
	str	x2, [sp, #80]
	cbz	x3, .Lunix_path_BB28_16
	mov	x3, xzr
	sub	x20, x29, #80
	b	.Lunix_path_BB28_4
.Lunix_path_BB28_2:
	mov	x25, xzr
	mov	x26, xzr
	mov	w27, #4
	ldr	x8, [sp, #192]
	ldur	x21, [x29, #-112]
	cmp	x8, x19
	b.eq	.Lunix_path_BB28_14
.Lunix_path_BB28_3:
	mov	w8, #40
	add	x3, x23, #1
	add	x9, x28, x21
	madd	x8, x19, x8, x20
	sub	x10, x24, x21
	add	x19, x19, #1
	cmp	x3, x22
	stp	x27, x9, [x8]
	stp	x10, x25, [x8, #16]
	str	x26, [x8, #32]
	str	x19, [sp, #184]
	b.hs	.Lunix_path_BB28_33
.Lunix_path_BB28_4:
	sub	x0, x29, #128
	mov	x1, x28
	mov	x2, x22
	bl	path_archive.records.record_at
	ldurb	w8, [x29, #-128]
	cmp	w8, #1
	b.ne	.Lunix_path_BB28_29
	ldur	x8, [x29, #-120]
	ldp	x24, x23, [x29, #-104]
	cmp	x8, #2
	b.gt	.Lunix_path_BB28_9
	add	x9, x24, #1
	add	x25, x28, x9
	sub	x26, x23, x9
	cbz	x8, .Lunix_path_BB28_12
	cmp	x8, #1
	b.ne	.Lunix_path_BB28_2
	mov	w27, #3
	ldr	x8, [sp, #192]
	ldur	x21, [x29, #-112]
	cmp	x8, x19
	b.ne	.Lunix_path_BB28_3
	b	.Lunix_path_BB28_14
.Lunix_path_BB28_9:
	cmp	x8, #3
	b.eq	.Lunix_path_BB28_13
	cmp	x8, #5
	b.ne	.Lunix_path_BB28_2
	mov	x25, xzr
	mov	x26, xzr
	mov	x27, xzr
	ldr	x8, [sp, #192]
	ldur	x21, [x29, #-112]
	cmp	x8, x19
	b.ne	.Lunix_path_BB28_3
	b	.Lunix_path_BB28_14
.Lunix_path_BB28_12:
	mov	w27, #2
	ldr	x8, [sp, #192]
	ldur	x21, [x29, #-112]
	cmp	x8, x19
	b.ne	.Lunix_path_BB28_3
	b	.Lunix_path_BB28_14
.Lunix_path_BB28_13:
	mov	x25, xzr
	mov	x26, xzr
	mov	w27, #1
	ldr	x8, [sp, #192]
	ldur	x21, [x29, #-112]
	cmp	x8, x19
	b.ne	.Lunix_path_BB28_3
.Lunix_path_BB28_14:
	add	x0, sp, #176
	bl	std_alloc.vec.Vec.grow_amortized.0b81d3504bf27e25.
	cbz	w0, .Lunix_path_BB28_470
	ldp	x20, x19, [sp, #176]
	b	.Lunix_path_BB28_3
.Lunix_path_BB28_16:
	sub	x8, x29, #80
	mov	x25, xzr
	mov	x23, xzr
	str	x8, [sp, #40]
	mov	w8, #1
	sub	x27, x29, #80
	stp	x28, xzr, [x29, #-128]
	str	w8, [sp, #24]
.Lunix_path_BB28_17:
	sub	x2, x29, #128
	mov	x0, x27
	mov	x1, x25
	bl	core.slice.sort.small.insertion_sort.fd4dfef4a36ac24b.
	adrp	x14, .Lunix_path_CPI28_0
	cbz	x25, .Lunix_path_BB28_487
.Lunix_path_BB28_18:
	str	x23, [sp]
.Lunix_path_BB28_19:
	mov	w8, wzr
	mov	x20, xzr
	mov	x24, xzr
	add	x23, x27, #16
	stp	x25, x27, [sp, #64]
	b	.Lunix_path_BB28_21
.Lunix_path_BB28_20:
	ldr	x8, [x23]
	mov	x9, x20
	cmp	x8, #5
	cset	w8, lo
	csel	x24, x20, x24, lo
	add	x20, x20, #1
	str	x9, [x23, #16]
	add	x23, x23, #40
	cmp	x25, x20
	b.eq	.Lunix_path_BB28_42
.Lunix_path_BB28_21:
	and	w8, w8, #0xff
	cmp	w8, #1
	b.ne	.Lunix_path_BB28_20
	mov	w8, #40
	madd	x21, x24, x8, x27
	ldp	x9, x8, [x21]
	cmp	x22, x8
	csel	x8, x22, x8, lo
	cmp	x8, x9
	csel	x9, x8, x9, lo
	sub	x1, x8, x9
	add	x0, x28, x9
	bl	path_archive.slot.without_dot
	ldp	x9, x8, [x23, #-16]
	mov	x25, x0
	mov	x26, x1
	cmp	x22, x8
	csel	x8, x22, x8, lo
	cmp	x8, x9
	csel	x9, x8, x9, lo
	sub	x1, x8, x9
	add	x0, x28, x9
	bl	path_archive.slot.without_dot
	mov	x2, x25
	mov	x3, x26
	mov	x27, x0
	mov	x28, x1
	bl	path_archive.outlined.starts_with
	cbz	w0, .Lunix_path_BB28_26
	mov	x0, x25
	mov	x1, x26
	mov	x2, x27
	mov	x3, x28
	bl	path_archive.outlined.starts_with
	ldr	x8, [x21, #16]
	tbz	w0, #0, .Lunix_path_BB28_25
	ldr	x9, [x23]
	cmp	x9, #2
	ccmp	x8, #1, #0, eq
	ccmp	x8, #0, #4, ne
	mov	w8, #1
	csel	x9, x24, x20, eq
	b	.Lunix_path_BB28_27
.Lunix_path_BB28_25:
	cmp	x8, #4
	b.ls	.Lunix_path_BB28_28
.Lunix_path_BB28_26:
	ldr	x8, [x23]
	mov	x9, x20
	cmp	x8, #4
	mov	w8, #1
	csel	x24, x24, x20, hi
.Lunix_path_BB28_27:
	ldp	x27, x28, [sp, #72]
	adrp	x14, .Lunix_path_CPI28_0
	ldr	x25, [sp, #64]
	add	x20, x20, #1
	str	x9, [x23, #16]
	add	x23, x23, #40
	cmp	x25, x20
	b.ne	.Lunix_path_BB28_21
	b	.Lunix_path_BB28_42
.Lunix_path_BB28_28:
	mov	w8, #1
	mov	x9, x24
	b	.Lunix_path_BB28_27
.Lunix_path_BB28_29:
	ldr	x8, [sp, #192]
	cbz	x8, .Lunix_path_BB28_31
	mov	x0, x20
	bl	rattle_dealloc
.Lunix_path_BB28_31:
	movi	v0.2d, #0000000000000000
	cmp	x22, #8
	stp	q0, q0, [sp, #176]
	b.hs	.Lunix_path_BB28_273
	mov	x10, xzr
	mov	x8, xzr
	b	.Lunix_path_BB28_388
.Lunix_path_BB28_33:
	movi	v0.2d, #0000000000000000
	ldr	x20, [sp, #192]
	ldr	x8, [sp, #176]
	mov	x23, xzr
	mov	x3, xzr
	stur	xzr, [x29, #-96]
	cmp	x20, #0
	str	x8, [sp, #40]
	cset	w8, eq
	stp	q0, q0, [x29, #-128]
	str	w8, [sp, #24]
.Lunix_path_BB28_34:
	sub	x0, x29, #128
	mov	x1, x28
	mov	x2, x22
	bl	path_archive.records.record_at
	ldurb	w8, [x29, #-128]
	cmp	w8, #1
	b.ne	.Lunix_path_BB28_411
	ldur	x8, [x29, #-120]
	ldur	x9, [x29, #-96]
	cmp	x8, #1
	mov	w8, #1
	add	x3, x9, #1
	cinc	x8, x8, eq
	cmp	x3, x22
	add	x23, x8, x23
	b.lo	.Lunix_path_BB28_34
	cbz	x23, .Lunix_path_BB28_399
	mov	x8, #3689348814741910323
	movk	x8, #819, lsl #48
	cmp	x23, x8
	b.hi	.Lunix_path_BB28_476
	add	x8, x23, x23, lsl #2
	mov	w1, #8
	lsl	x0, x8, #3
	bl	rattle_alloc
	tbz	w0, #0, .Lunix_path_BB28_476
	mov	x27, x1
	subs	x21, x23, #1
	b.eq	.Lunix_path_BB28_41
	add	x8, x21, x21, lsl #2
	mov	x0, x27
	mov	w1, wzr
	lsl	x2, x8, #3
	bl	memset
.Lunix_path_BB28_41:
	mov	w8, #40
	movi	v0.2d, #0000000000000000
	add	x25, x21, #1
	madd	x8, x21, x8, x27
	str	x23, [sp]
	str	xzr, [x8, #32]
	stp	q0, q0, [x8]
	b	.Lunix_path_BB28_400
.Lunix_path_BB28_42:
	mov	x8, x28
	sub	x9, x29, #80
	mov	x28, xzr
	mov	x24, xzr
	sub	x10, x29, #80
	str	x9, [sp, #56]
	sub	x9, x8, #16
	sub	x8, x8, #1
	stp	xzr, xzr, [x29, #-120]
	stur	x10, [x29, #-128]
	stp	x8, x9, [sp, #8]
	b	.Lunix_path_BB28_44
.Lunix_path_BB28_43:
	mov	w8, #24
	ldr	x9, [sp, #56]
	madd	x8, x28, x8, x9
	add	x28, x28, #1
	stp	x20, x21, [x8]
	strb	w23, [x8, #16]
	ldur	w9, [sp, #179]
	ldr	w10, [sp, #176]
	str	w9, [x8, #20]
	stur	w10, [x8, #17]
	stur	x28, [x29, #-120]
	add	x24, x24, #1
	cmp	x24, x25
	b.eq	.Lunix_path_BB28_213
.Lunix_path_BB28_44:
	mov	w8, #40
	madd	x20, x24, x8, x27
	ldr	x26, [x20, #16]
	cmp	x26, #4
	b.ne	.Lunix_path_BB28_46
	mov	w23, #1
	b	.Lunix_path_BB28_61
.Lunix_path_BB28_46:
	ldp	x8, x25, [x20]
	mov	x21, x28
	ldr	x9, [sp, #80]
	cmp	x22, x25
	csel	x23, x22, x25, lo
	cmp	x23, x8
	csel	x8, x23, x8, lo
	add	x27, x9, x8
	sub	x28, x23, x8
	mov	x0, x27
	mov	x1, x28
	bl	path_archive.outlined.has_root_or_parent_dir
	tbz	w0, #0, .Lunix_path_BB28_48
	mov	w23, wzr
	mov	x28, x21
	adrp	x14, .Lunix_path_CPI28_0
	b	.Lunix_path_BB28_60
.Lunix_path_BB28_48:
	cmp	x28, #15
	adrp	x14, .Lunix_path_CPI28_0
	b.hi	.Lunix_path_BB28_52
	mov	x8, xzr
	cbz	x28, .Lunix_path_BB28_57
.Lunix_path_BB28_50:
	ldrb	w9, [x27, x8]
	cbz	w9, .Lunix_path_BB28_57
	add	x8, x8, #1
	cmp	x28, x8
	b.ne	.Lunix_path_BB28_50
	b	.Lunix_path_BB28_66
.Lunix_path_BB28_52:
	subs	x8, x28, #16
	b.eq	.Lunix_path_BB28_56
	mov	x9, xzr
.Lunix_path_BB28_54:
	ldr	q0, [x27, x9]
	ldr	q1, [x14, :lo12:.Lunix_path_CPI28_0]
	cmeq	v0.16b, v0.16b, #0
	and	v0.16b, v0.16b, v1.16b
	addp	v0.16b, v0.16b, v0.16b
	addp	v0.16b, v0.16b, v0.16b
	addp	v0.16b, v0.16b, v0.16b
	umov	w10, v0.h[0]
	orr	w10, w10, #0x10000
	rbit	w10, w10
	clz	w10, w10
	cmp	w10, #15
	b.ls	.Lunix_path_BB28_65
	add	x9, x9, #16
	cmp	x9, x8
	b.lo	.Lunix_path_BB28_54
.Lunix_path_BB28_56:
	ldr	q0, [x27, x8]
	ldr	q1, [x14, :lo12:.Lunix_path_CPI28_0]
	cmeq	v0.16b, v0.16b, #0
	and	v0.16b, v0.16b, v1.16b
	addp	v0.16b, v0.16b, v0.16b
	addp	v0.16b, v0.16b, v0.16b
	addp	v0.16b, v0.16b, v0.16b
	umov	w9, v0.h[0]
	orr	w9, w9, #0x10000
	rbit	w9, w9
	clz	w9, w9
	add	x8, x8, x9
.Lunix_path_BB28_57:
	cmp	x8, x28
	b.hs	.Lunix_path_BB28_66
.Lunix_path_BB28_58:
	mov	w23, wzr
.Lunix_path_BB28_59:
	mov	x28, x21
.Lunix_path_BB28_60:
	ldp	x25, x27, [sp, #64]
.Lunix_path_BB28_61:
	ldr	x20, [x20, #24]
	stur	wzr, [sp, #139]
	str	wzr, [sp, #136]
	mov	x21, x20
.Lunix_path_BB28_62:
	ldur	x9, [x29, #-112]
	ldr	w8, [sp, #136]
	ldur	w10, [sp, #139]
	cmp	x9, x28
	str	w8, [sp, #176]
	stur	w10, [sp, #179]
	b.ne	.Lunix_path_BB28_43
	sub	x0, x29, #128
	bl	std_alloc.vec.Vec.grow_amortized.22ca91936d612ecb.
	cbz	w0, .Lunix_path_BB28_472
	ldp	x8, x28, [x29, #-128]
	adrp	x14, .Lunix_path_CPI28_0
	str	x8, [sp, #56]
	b	.Lunix_path_BB28_43
.Lunix_path_BB28_65:
	add	x8, x9, w10, uxtw
	cmp	x8, x28
	b.lo	.Lunix_path_BB28_58
.Lunix_path_BB28_66:
	cmp	x26, #4
	b.ls	.Lunix_path_BB28_69
.Lunix_path_BB28_67:
	ldr	x8, [x20, #32]
	cmp	x8, x24
	b.ne	.Lunix_path_BB28_86
	ldp	x25, x27, [sp, #64]
	mov	x28, x21
	stur	wzr, [sp, #139]
	str	wzr, [sp, #136]
	add	x24, x24, #1
	cmp	x24, x25
	b.ne	.Lunix_path_BB28_44
	b	.Lunix_path_BB28_213
.Lunix_path_BB28_69:
	ldp	x9, x8, [sp, #8]
	mov	x11, x28
	add	x10, x8, x23
	add	x8, x28, #1
	add	x9, x9, x23
.Lunix_path_BB28_70:
	cmp	x11, #15
	b.ls	.Lunix_path_BB28_73
	movi	v0.16b, #47
	ldr	q1, [x10], #-16
	sub	x11, x11, #16
	sub	x8, x8, #16
	sub	x9, x9, #16
	cmeq	v0.16b, v1.16b, v0.16b
	ldr	q1, [x14, :lo12:.Lunix_path_CPI28_0]
	and	v0.16b, v0.16b, v1.16b
	addp	v0.16b, v0.16b, v0.16b
	addp	v0.16b, v0.16b, v0.16b
	addp	v0.16b, v0.16b, v0.16b
	umov	w12, v0.h[0]
	cbz	w12, .Lunix_path_BB28_70
	umov	w8, v0.h[0]
	and	x8, x8, #0xffff
	clz	x8, x8
	sub	x8, x11, x8
	add	x8, x8, #64
	b	.Lunix_path_BB28_75
.Lunix_path_BB28_73:
	subs	x8, x8, #1
	b.eq	.Lunix_path_BB28_75
	ldrb	w10, [x9], #-1
	cmp	w10, #47
	b.ne	.Lunix_path_BB28_73
.Lunix_path_BB28_75:
	subs	x9, x28, x8
	b.eq	.Lunix_path_BB28_58
	cmp	x9, #1
	b.ne	.Lunix_path_BB28_78
	ldrb	w8, [x27, x8]
	cmp	w8, #46
	b.eq	.Lunix_path_BB28_58
.Lunix_path_BB28_78:
	cbnz	x26, .Lunix_path_BB28_67
	ldr	w8, [sp, #28]
	tbz	w8, #0, .Lunix_path_BB28_67
	cmp	x22, x25
	b.ls	.Lunix_path_BB28_90
	add	x9, x25, #1
	ldr	x10, [sp, #80]
	sub	x8, x22, x9
	cmp	x8, #15
	add	x25, x10, x9
	b.hi	.Lunix_path_BB28_91
	mov	x26, xzr
	cbz	x8, .Lunix_path_BB28_109
.Lunix_path_BB28_83:
	ldrb	w9, [x25, x26]
	cbz	w9, .Lunix_path_BB28_96
	add	x26, x26, #1
	cmp	x8, x26
	b.ne	.Lunix_path_BB28_83
	mov	x26, x8
	cmp	x8, #15
	b.ls	.Lunix_path_BB28_97
	b	.Lunix_path_BB28_102
.Lunix_path_BB28_86:
	mov	w9, #40
	ldp	x10, x23, [sp, #72]
	madd	x27, x8, x9, x10
	ldp	x9, x8, [x27]
	cmp	x22, x8
	csel	x8, x22, x8, lo
	cmp	x8, x9
	csel	x9, x8, x9, lo
	sub	x1, x8, x9
	add	x0, x23, x9
	bl	path_archive.slot.without_dot
	ldp	x9, x8, [x20]
	mov	x25, x0
	mov	x26, x1
	cmp	x22, x8
	csel	x8, x22, x8, lo
	cmp	x8, x9
	csel	x9, x8, x9, lo
	sub	x1, x8, x9
	add	x0, x23, x9
	bl	path_archive.slot.without_dot
	mov	x2, x0
	mov	x3, x1
	mov	x0, x25
	mov	x1, x26
	bl	path_archive.outlined.starts_with
	mov	x28, x21
	cbz	w0, .Lunix_path_BB28_88
	ldr	x8, [x20, #16]
	cmp	x8, #2
	mov	w8, #3
	cinc	w23, w8, eq
	b	.Lunix_path_BB28_89
.Lunix_path_BB28_88:
	mov	w23, #2
.Lunix_path_BB28_89:
	ldr	x21, [x27, #24]
	ldp	x25, x27, [sp, #64]
	ldr	x20, [x20, #24]
	adrp	x14, .Lunix_path_CPI28_0
	stur	wzr, [sp, #139]
	str	wzr, [sp, #136]
	b	.Lunix_path_BB28_62
.Lunix_path_BB28_90:
	ldr	x8, [sp, #80]
	mov	x26, xzr
	add	x25, x8, x22
	b	.Lunix_path_BB28_109
.Lunix_path_BB28_91:
	subs	x8, x8, #16
	b.eq	.Lunix_path_BB28_95
	mov	x9, xzr
.Lunix_path_BB28_93:
	ldr	q0, [x25, x9]
	ldr	q1, [x14, :lo12:.Lunix_path_CPI28_0]
	cmeq	v0.16b, v0.16b, #0
	and	v0.16b, v0.16b, v1.16b
	addp	v0.16b, v0.16b, v0.16b
	addp	v0.16b, v0.16b, v0.16b
	addp	v0.16b, v0.16b, v0.16b
	umov	w10, v0.h[0]
	orr	w10, w10, #0x10000
	rbit	w10, w10
	clz	w10, w10
	cmp	w10, #15
	b.ls	.Lunix_path_BB28_101
	add	x9, x9, #16
	cmp	x9, x8
	b.lo	.Lunix_path_BB28_93
.Lunix_path_BB28_95:
	ldr	q0, [x25, x8]
	ldr	q1, [x14, :lo12:.Lunix_path_CPI28_0]
	cmeq	v0.16b, v0.16b, #0
	and	v0.16b, v0.16b, v1.16b
	addp	v0.16b, v0.16b, v0.16b
	addp	v0.16b, v0.16b, v0.16b
	addp	v0.16b, v0.16b, v0.16b
	umov	w9, v0.h[0]
	orr	w9, w9, #0x10000
	rbit	w9, w9
	clz	w9, w9
	add	x26, x8, x9
.Lunix_path_BB28_96:
	cmp	x26, #15
	b.hi	.Lunix_path_BB28_102
.Lunix_path_BB28_97:
	cbz	x26, .Lunix_path_BB28_109
	mov	x8, xzr
.Lunix_path_BB28_99:
	ldrb	w9, [x25, x8]
	cbz	w9, .Lunix_path_BB28_108
	add	x8, x8, #1
	cmp	x26, x8
	b.ne	.Lunix_path_BB28_99
	b	.Lunix_path_BB28_109
.Lunix_path_BB28_101:
	add	x26, x9, w10, uxtw
	cmp	x26, #15
	b.ls	.Lunix_path_BB28_97
.Lunix_path_BB28_102:
	subs	x8, x26, #16
	b.eq	.Lunix_path_BB28_106
	mov	x9, xzr
.Lunix_path_BB28_104:
	ldr	q0, [x25, x9]
	ldr	q1, [x14, :lo12:.Lunix_path_CPI28_0]
	cmeq	v0.16b, v0.16b, #0
	and	v0.16b, v0.16b, v1.16b
	addp	v0.16b, v0.16b, v0.16b
	addp	v0.16b, v0.16b, v0.16b
	addp	v0.16b, v0.16b, v0.16b
	umov	w10, v0.h[0]
	orr	w10, w10, #0x10000
	rbit	w10, w10
	clz	w10, w10
	cmp	w10, #15
	b.ls	.Lunix_path_BB28_107
	add	x9, x9, #16
	cmp	x9, x8
	b.lo	.Lunix_path_BB28_104
.Lunix_path_BB28_106:
	ldr	q0, [x25, x8]
	ldr	q1, [x14, :lo12:.Lunix_path_CPI28_0]
	cmeq	v0.16b, v0.16b, #0
	and	v0.16b, v0.16b, v1.16b
	addp	v0.16b, v0.16b, v0.16b
	addp	v0.16b, v0.16b, v0.16b
	addp	v0.16b, v0.16b, v0.16b
	umov	w9, v0.h[0]
	orr	w9, w9, #0x10000
	rbit	w9, w9
	clz	w9, w9
	add	x8, x8, x9
	b	.Lunix_path_BB28_108
.Lunix_path_BB28_107:
	add	x8, x9, w10, uxtw
.Lunix_path_BB28_108:
	cmp	x8, x26
	b.lo	.Lunix_path_BB28_212
.Lunix_path_BB28_109:
	mov	x0, x27
	mov	x1, x28
	bl	path_archive.slot.without_dot
	mov	x28, x1
	cbz	x1, .Lunix_path_BB28_174
	ldrb	w8, [x0]
	mov	x27, x0
	cmp	w8, #47
	b.eq	.Lunix_path_BB28_114
	cmp	w8, #46
	adrp	x17, .Lunix_path_CPI28_0
	b.ne	.Lunix_path_BB28_115
	cmp	x28, #1
	b.ne	.Lunix_path_BB28_116
	mov	w23, #1
	b	.Lunix_path_BB28_117
.Lunix_path_BB28_114:
	mov	w23, #1
	adrp	x17, .Lunix_path_CPI28_0
	b	.Lunix_path_BB28_117
.Lunix_path_BB28_115:
	mov	w23, wzr
	b	.Lunix_path_BB28_117
.Lunix_path_BB28_116:
	ldrb	w8, [x27, #1]
	cmp	w8, #47
	cset	w23, eq
.Lunix_path_BB28_117:
	mov	x8, x28
	b	.Lunix_path_BB28_119
.Lunix_path_BB28_118:
	mov	x8, x1
	cbz	x1, .Lunix_path_BB28_180
.Lunix_path_BB28_119:
	subs	x1, x8, #1
	b.eq	.Lunix_path_BB28_125
	add	x9, x27, x1
	ldrb	w10, [x9]
	cmp	w10, #47
	b.eq	.Lunix_path_BB28_123
	cmp	w10, #46
	b.ne	.Lunix_path_BB28_125
	ldurb	w9, [x9, #-1]
	cmp	w9, #47
	b.ne	.Lunix_path_BB28_125
.Lunix_path_BB28_123:
	sub	x8, x28, x1
	cmp	x8, #8
	b.ne	.Lunix_path_BB28_118
	mov	x0, x27
	bl	unix_path.filler.trimmed_blocks_len
	adrp	x17, .Lunix_path_CPI28_0
	mov	x1, x0
	b	.Lunix_path_BB28_118
.Lunix_path_BB28_125:
	mov	x9, xzr
	mov	x10, xzr
	mov	x12, x8
	b	.Lunix_path_BB28_129
.Lunix_path_BB28_126:
	mov	x12, xzr
.Lunix_path_BB28_127:
	add	x11, x12, x13
.Lunix_path_BB28_128:
	add	x10, x11, x10
	mov	w23, wzr
	add	x9, x9, #1
	subs	x12, x8, x10
	b.eq	.Lunix_path_BB28_173
.Lunix_path_BB28_129:
	add	x11, x27, x10
	tbz	w23, #0, .Lunix_path_BB28_137
	subs	x14, x12, #1
	b.eq	.Lunix_path_BB28_142
	mov	x13, xzr
	sub	x12, x12, #2
	b	.Lunix_path_BB28_133
.Lunix_path_BB28_132:
	add	x13, x13, #1
	cmp	x14, x13
	b.eq	.Lunix_path_BB28_143
.Lunix_path_BB28_133:
	add	x15, x11, x13
	ldrb	w15, [x15, #1]
	cmp	w15, #47
	b.eq	.Lunix_path_BB28_132
	cmp	w15, #46
	b.ne	.Lunix_path_BB28_144
	cmp	x12, x13
	b.eq	.Lunix_path_BB28_143
	add	x15, x11, x13
	ldrb	w15, [x15, #2]
	cmp	w15, #47
	b.eq	.Lunix_path_BB28_132
	b	.Lunix_path_BB28_144
.Lunix_path_BB28_137:
	cmp	x12, #1
	b.eq	.Lunix_path_BB28_147
	ldrb	w13, [x11]
	cmp	w13, #46
	b.ne	.Lunix_path_BB28_147
	ldrb	w13, [x11, #1]
	cmp	w13, #46
	b.ne	.Lunix_path_BB28_147
	subs	x14, x12, #2
	b.ne	.Lunix_path_BB28_145
	mov	w11, #2
	b	.Lunix_path_BB28_128
.Lunix_path_BB28_142:
	mov	w11, #1
	b	.Lunix_path_BB28_128
.Lunix_path_BB28_143:
	mov	x13, x14
.Lunix_path_BB28_144:
	add	x11, x13, #1
	b	.Lunix_path_BB28_128
.Lunix_path_BB28_145:
	ldrb	w13, [x11, #2]
	cmp	w13, #47
	b.ne	.Lunix_path_BB28_147
	mov	x13, xzr
	sub	x12, x12, #3
	b	.Lunix_path_BB28_153
.Lunix_path_BB28_147:
	cmp	x12, #15
	b.hi	.Lunix_path_BB28_157
	mov	x13, xzr
.Lunix_path_BB28_149:
	ldrb	w14, [x11, x13]
	cmp	w14, #47
	b.eq	.Lunix_path_BB28_162
	add	x13, x13, #1
	cmp	x12, x13
	b.ne	.Lunix_path_BB28_149
	mov	x13, x12
	subs	x14, x12, x12
	b.ne	.Lunix_path_BB28_163
	b	.Lunix_path_BB28_126
.Lunix_path_BB28_152:
	add	x13, x13, #1
	cmp	x14, x13
	b.eq	.Lunix_path_BB28_171
.Lunix_path_BB28_153:
	add	x15, x11, x13
	ldrb	w15, [x15, #2]
	cmp	w15, #47
	b.eq	.Lunix_path_BB28_152
	cmp	w15, #46
	b.ne	.Lunix_path_BB28_172
	cmp	x12, x13
	b.eq	.Lunix_path_BB28_171
	add	x15, x11, x13
	ldrb	w15, [x15, #3]
	cmp	w15, #47
	b.eq	.Lunix_path_BB28_152
	b	.Lunix_path_BB28_172
.Lunix_path_BB28_157:
	subs	x13, x12, #16
	b.eq	.Lunix_path_BB28_161
	mov	x14, xzr
.Lunix_path_BB28_159:
	movi	v0.16b, #47
	ldr	q1, [x11, x14]
	cmeq	v0.16b, v1.16b, v0.16b
	ldr	q1, [x17, :lo12:.Lunix_path_CPI28_0]
	and	v0.16b, v0.16b, v1.16b
	addp	v0.16b, v0.16b, v0.16b
	addp	v0.16b, v0.16b, v0.16b
	addp	v0.16b, v0.16b, v0.16b
	umov	w15, v0.h[0]
	orr	w15, w15, #0x10000
	rbit	w15, w15
	clz	w15, w15
	cmp	w15, #15
	b.ls	.Lunix_path_BB28_170
	add	x14, x14, #16
	cmp	x14, x13
	b.lo	.Lunix_path_BB28_159
.Lunix_path_BB28_161:
	movi	v0.16b, #47
	ldr	q1, [x11, x13]
	cmeq	v0.16b, v1.16b, v0.16b
	ldr	q1, [x17, :lo12:.Lunix_path_CPI28_0]
	and	v0.16b, v0.16b, v1.16b
	addp	v0.16b, v0.16b, v0.16b
	addp	v0.16b, v0.16b, v0.16b
	addp	v0.16b, v0.16b, v0.16b
	umov	w14, v0.h[0]
	orr	w14, w14, #0x10000
	rbit	w14, w14
	clz	w14, w14
	add	x13, x13, x14
.Lunix_path_BB28_162:
	subs	x14, x12, x13
	b.eq	.Lunix_path_BB28_126
.Lunix_path_BB28_163:
	mov	x12, xzr
	add	x11, x11, x13
	sub	x15, x14, #1
	b	.Lunix_path_BB28_165
.Lunix_path_BB28_164:
	add	x12, x12, #1
	cmp	x14, x12
	b.eq	.Lunix_path_BB28_169
.Lunix_path_BB28_165:
	ldrb	w16, [x11, x12]
	cmp	w16, #47
	b.eq	.Lunix_path_BB28_164
	cmp	w16, #46
	b.ne	.Lunix_path_BB28_127
	cmp	x15, x12
	b.eq	.Lunix_path_BB28_169
	add	x16, x11, x12
	ldrb	w16, [x16, #1]
	cmp	w16, #47
	b.eq	.Lunix_path_BB28_164
	b	.Lunix_path_BB28_127
.Lunix_path_BB28_169:
	mov	x12, x14
	b	.Lunix_path_BB28_127
.Lunix_path_BB28_170:
	add	x13, x14, w15, uxtw
	subs	x14, x12, x13
	b.ne	.Lunix_path_BB28_163
	b	.Lunix_path_BB28_126
.Lunix_path_BB28_171:
	mov	x13, x14
.Lunix_path_BB28_172:
	add	x11, x13, #2
	b	.Lunix_path_BB28_128
.Lunix_path_BB28_173:
	cmp	x9, #0
	cset	w8, ne
	sub	x28, x9, x8
.Lunix_path_BB28_174:
	mov	x0, x25
	mov	x1, x26
	bl	path_archive.slot.without_dot
	adrp	x14, .Lunix_path_CPI28_0
	cbz	x1, .Lunix_path_BB28_67
.Lunix_path_BB28_175:
	mov	x25, x0
	mov	x27, x1
	mov	x26, x0
	ldrb	w8, [x25]
	cmp	w8, #47
	b.eq	.Lunix_path_BB28_178
	cmp	w8, #46
	b.ne	.Lunix_path_BB28_179
	cmp	x27, #1
	b.ne	.Lunix_path_BB28_181
.Lunix_path_BB28_178:
	mov	w23, #1
	b	.Lunix_path_BB28_182
.Lunix_path_BB28_179:
	mov	w23, wzr
	b	.Lunix_path_BB28_182
.Lunix_path_BB28_180:
	mov	x28, xzr
	mov	x0, x25
	mov	x1, x26
	bl	path_archive.slot.without_dot
	adrp	x14, .Lunix_path_CPI28_0
	cbnz	x1, .Lunix_path_BB28_175
	b	.Lunix_path_BB28_67
.Lunix_path_BB28_181:
	ldrb	w8, [x26, #1]
	cmp	w8, #47
	cset	w23, eq
.Lunix_path_BB28_182:
	mov	x8, x27
	b	.Lunix_path_BB28_184
.Lunix_path_BB28_183:
	mov	x8, x1
	cbz	x1, .Lunix_path_BB28_67
.Lunix_path_BB28_184:
	subs	x1, x8, #1
	b.eq	.Lunix_path_BB28_190
	add	x9, x25, x1
	ldrb	w10, [x9]
	cmp	w10, #47
	b.eq	.Lunix_path_BB28_188
	cmp	w10, #46
	b.ne	.Lunix_path_BB28_190
	ldurb	w9, [x9, #-1]
	cmp	w9, #47
	b.ne	.Lunix_path_BB28_190
.Lunix_path_BB28_188:
	sub	x8, x27, x1
	cmp	x8, #8
	b.ne	.Lunix_path_BB28_183
	mov	x0, x26
	bl	unix_path.filler.trimmed_blocks_len
	adrp	x14, .Lunix_path_CPI28_0
	mov	x1, x0
	b	.Lunix_path_BB28_183
.Lunix_path_BB28_190:
	mov	x9, xzr
	mov	x1, x8
	b	.Lunix_path_BB28_193
.Lunix_path_BB28_191:
	mov	w10, #2
	cbz	x28, .Lunix_path_BB28_212
.Lunix_path_BB28_192:
	add	x9, x10, x9
	mov	w23, wzr
	sub	x28, x28, #1
	subs	x1, x8, x9
	add	x26, x25, x9
	b.eq	.Lunix_path_BB28_67
.Lunix_path_BB28_193:
	tbnz	w23, #0, .Lunix_path_BB28_212
	cmp	x1, #1
	b.eq	.Lunix_path_BB28_207
	ldrb	w10, [x26]
	cmp	w10, #46
	b.ne	.Lunix_path_BB28_207
	ldrb	w10, [x26, #1]
	cmp	w10, #46
	b.ne	.Lunix_path_BB28_207
	subs	x11, x1, #2
	b.eq	.Lunix_path_BB28_191
	ldrb	w10, [x26, #2]
	cmp	w10, #47
	b.ne	.Lunix_path_BB28_207
	mov	x10, xzr
	sub	x12, x1, #3
	b	.Lunix_path_BB28_201
.Lunix_path_BB28_200:
	add	x10, x10, #1
	cmp	x11, x10
	b.eq	.Lunix_path_BB28_206
.Lunix_path_BB28_201:
	add	x13, x26, x10
	ldrb	w13, [x13, #2]
	cmp	w13, #47
	b.eq	.Lunix_path_BB28_200
	cmp	w13, #46
	b.ne	.Lunix_path_BB28_205
	cmp	x12, x10
	b.eq	.Lunix_path_BB28_206
	add	x13, x26, x10
	ldrb	w13, [x13, #3]
	cmp	w13, #47
	b.eq	.Lunix_path_BB28_200
.Lunix_path_BB28_205:
	add	x10, x10, #2
	cbnz	x28, .Lunix_path_BB28_192
	b	.Lunix_path_BB28_212
.Lunix_path_BB28_206:
	add	x10, x11, #2
	cbnz	x28, .Lunix_path_BB28_192
	b	.Lunix_path_BB28_212
.Lunix_path_BB28_207:
	subs	x8, x1, #16
	b.lo	.Lunix_path_BB28_211
	b.eq	.Lunix_path_BB28_211
	mov	x9, xzr
.Lunix_path_BB28_210:
	movi	v0.16b, #47
	ldr	q1, [x26, x9]
	add	x9, x9, #16
	cmeq	v0.16b, v1.16b, v0.16b
	ldr	q1, [x14, :lo12:.Lunix_path_CPI28_0]
	and	v0.16b, v0.16b, v1.16b
	addp	v0.16b, v0.16b, v0.16b
	addp	v0.16b, v0.16b, v0.16b
	addp	v0.16b, v0.16b, v0.16b
	umov	w10, v0.h[0]
	cmp	w10, #0
	ccmp	x9, x8, #2, eq
	b.lo	.Lunix_path_BB28_210
.Lunix_path_BB28_211:
	mov	x0, x26
	bl	path_archive.outlined.has_root_or_parent_dir
	adrp	x14, .Lunix_path_CPI28_0
	cbz	w0, .Lunix_path_BB28_67
.Lunix_path_BB28_212:
	mov	w23, #5
	b	.Lunix_path_BB28_59
.Lunix_path_BB28_213:
	ldur	x8, [x29, #-112]
	ldur	x21, [x29, #-128]
	ldr	x23, [sp]
	cmp	x8, #0
	cset	w20, eq
	cbz	x23, .Lunix_path_BB28_215
.Lunix_path_BB28_214:
	mov	x0, x27
	bl	rattle_dealloc
	adrp	x14, .Lunix_path_CPI28_0
.Lunix_path_BB28_215:
	ldr	x8, [sp, #48]
	sub	x23, x29, #80
	stp	xzr, xzr, [sp, #160]
	stp	xzr, xzr, [sp, #144]
	stp	xzr, x23, [sp, #128]
	stp	x23, xzr, [sp, #112]
	str	w20, [sp, #28]
	tbz	w8, #16, .Lunix_path_BB28_217
	mov	x20, xzr
	mov	x24, xzr
	sub	x22, x29, #80
	b	.Lunix_path_BB28_464
.Lunix_path_BB28_217:
	cbz	x28, .Lunix_path_BB28_395
	ldr	x8, [sp, #48]
	mov	x25, xzr
	mov	x20, xzr
	sub	x22, x29, #80
	str	x28, [sp, #80]
	tst	w8, #0x1
	mov	w8, #10
	csel	w24, wzr, w8, ne
	b	.Lunix_path_BB28_223
.Lunix_path_BB28_219:
	ldr	x28, [sp, #80]
	mov	x25, x8
.Lunix_path_BB28_220:
	bl	memmove
	mov	x8, x25
	adrp	x14, .Lunix_path_CPI28_0
.Lunix_path_BB28_221:
	stp	x23, x8, [sp, #136]
	mov	w23, w24
	str	x22, [sp, #152]
	cmp	x22, x8
	b.eq	.Lunix_path_BB28_258
.Lunix_path_BB28_222:
	ldr	x22, [sp, #136]
	add	x20, x20, #1
	add	x25, x8, #1
	cmp	x20, x28
	strb	w23, [x22, x8]
	str	x25, [sp, #144]
	b.eq	.Lunix_path_BB28_275
.Lunix_path_BB28_223:
	mov	w8, #24
	ldr	x9, [sp, #48]
	madd	x8, x20, x8, x21
	ldr	x26, [x8]
	tbz	x9, #48, .Lunix_path_BB28_233
	ldrb	w8, [x8, #16]
	ldr	x27, [sp, #152]
	adrp	x9, .Lunix_path_switch.table.upath_commands.archive.decide_records
	add	x9, x9, :lo12:.Lunix_path_switch.table.upath_commands.archive.decide_records
	ldr	x23, [x9, x8, lsl #3]
	adrp	x9, .Lunix_path_switch.table.upath_commands.archive.decide_records.370
	add	x9, x9, :lo12:.Lunix_path_switch.table.upath_commands.archive.decide_records.370
	sub	x10, x27, x25
	ldr	x1, [x9, x8, lsl #3]
	cmp	x23, x10
	b.hi	.Lunix_path_BB28_229
	add	x8, x22, x25
	sub	x9, x8, x1
	cmp	x9, x23
	b.hs	.Lunix_path_BB28_231
.Lunix_path_BB28_226:
	mov	x9, x23
.Lunix_path_BB28_227:
	ldrb	w10, [x1], #1
	subs	x9, x9, #1
	strb	w10, [x8], #1
	b.ne	.Lunix_path_BB28_227
	add	x8, x25, x23
	cmp	x27, x8
	stp	x8, x27, [sp, #144]
	b.ne	.Lunix_path_BB28_232
	b	.Lunix_path_BB28_262
.Lunix_path_BB28_229:
	mov	x28, x1
	add	x0, sp, #136
	mov	x1, x23
	bl	std_alloc.vec.Vec.grow_amortized.f4a78633ca2a48c6.
	cbz	w0, .Lunix_path_BB28_444
	ldp	x25, x27, [sp, #144]
	mov	x1, x28
	ldr	x22, [sp, #136]
	ldr	x28, [sp, #80]
	adrp	x14, .Lunix_path_CPI28_0
	add	x8, x22, x25
	sub	x9, x8, x1
	cmp	x9, x23
	b.lo	.Lunix_path_BB28_226
.Lunix_path_BB28_231:
	add	x0, x22, x25
	mov	x2, x23
	bl	memcpy
	adrp	x14, .Lunix_path_CPI28_0
	add	x8, x25, x23
	cmp	x27, x8
	stp	x8, x27, [sp, #144]
	b.eq	.Lunix_path_BB28_262
.Lunix_path_BB28_232:
	add	x25, x8, #1
	mov	w9, #9
	strb	w9, [x22, x8]
	str	x25, [sp, #144]
.Lunix_path_BB28_233:
	cmp	x26, x19
	b.hs	.Lunix_path_BB28_239
	mov	w8, #40
	ldr	x9, [sp, #40]
	madd	x8, x26, x8, x9
	ldp	x1, x2, [x8, #8]
	cmp	x2, #15
	b.hi	.Lunix_path_BB28_241
	cbz	x2, .Lunix_path_BB28_254
	mov	x8, xzr
.Lunix_path_BB28_237:
	ldrb	w9, [x1, x8]
	cmp	w9, #10
	b.eq	.Lunix_path_BB28_246
	add	x8, x8, #1
	cmp	x2, x8
	b.ne	.Lunix_path_BB28_237
	b	.Lunix_path_BB28_247
.Lunix_path_BB28_239:
	ldr	x23, [sp, #136]
	ldr	x22, [sp, #152]
	mov	x2, xzr
	adrp	x1, .Lunix_path_static.5
	add	x1, x1, :lo12:.Lunix_path_static.5
.Lunix_path_BB28_240:
	add	x0, x23, x25
	b	.Lunix_path_BB28_220
.Lunix_path_BB28_241:
	subs	x8, x2, #16
	b.eq	.Lunix_path_BB28_245
	mov	x9, xzr
.Lunix_path_BB28_243:
	movi	v0.16b, #10
	ldr	q1, [x1, x9]
	cmeq	v0.16b, v1.16b, v0.16b
	ldr	q1, [x14, :lo12:.Lunix_path_CPI28_0]
	and	v0.16b, v0.16b, v1.16b
	addp	v0.16b, v0.16b, v0.16b
	addp	v0.16b, v0.16b, v0.16b
	addp	v0.16b, v0.16b, v0.16b
	umov	w10, v0.h[0]
	orr	w10, w10, #0x10000
	rbit	w10, w10
	clz	w10, w10
	cmp	w10, #15
	b.ls	.Lunix_path_BB28_255
	add	x9, x9, #16
	cmp	x9, x8
	b.lo	.Lunix_path_BB28_243
.Lunix_path_BB28_245:
	movi	v0.16b, #10
	ldr	q1, [x1, x8]
	cmeq	v0.16b, v1.16b, v0.16b
	ldr	q1, [x14, :lo12:.Lunix_path_CPI28_0]
	and	v0.16b, v0.16b, v1.16b
	addp	v0.16b, v0.16b, v0.16b
	addp	v0.16b, v0.16b, v0.16b
	addp	v0.16b, v0.16b, v0.16b
	umov	w9, v0.h[0]
	orr	w9, w9, #0x10000
	rbit	w9, w9
	clz	w9, w9
	add	x8, x8, x9
.Lunix_path_BB28_246:
	cmp	x8, x2
	ldr	x9, [sp, #48]
	cset	w8, hs
	orr	w8, w8, w9
	tbz	w8, #0, .Lunix_path_BB28_256
.Lunix_path_BB28_247:
	ldr	x22, [sp, #152]
	sub	x8, x22, x25
	cmp	x2, x8
	b.hi	.Lunix_path_BB28_271
	ldr	x23, [sp, #136]
	add	x0, x23, x25
	sub	x8, x0, x1
	cmp	x8, x2
	add	x8, x25, x2
	b.hs	.Lunix_path_BB28_219
.Lunix_path_BB28_249:
	ldr	x28, [sp, #80]
	cmp	x2, #8
	b.lo	.Lunix_path_BB28_251
	add	x9, x25, x23
	sub	x9, x9, x1
	cmp	x9, #32
	b.hs	.Lunix_path_BB28_260
.Lunix_path_BB28_251:
	mov	x9, xzr
.Lunix_path_BB28_252:
	sub	x10, x2, x9
	add	x11, x1, x9
	add	x9, x9, x25
.Lunix_path_BB28_253:
	ldrb	w12, [x11], #1
	subs	x10, x10, #1
	strb	w12, [x23, x9]
	add	x9, x9, #1
	b.ne	.Lunix_path_BB28_253
	b	.Lunix_path_BB28_221
.Lunix_path_BB28_254:
	ldr	x23, [sp, #136]
	ldr	x22, [sp, #152]
	b	.Lunix_path_BB28_240
.Lunix_path_BB28_255:
	add	x8, x9, w10, uxtw
	cmp	x8, x2
	ldr	x9, [sp, #48]
	cset	w8, hs
	orr	w8, w8, w9
	tbnz	w8, #0, .Lunix_path_BB28_247
.Lunix_path_BB28_256:
	mov	x8, x2
	add	x2, sp, #136
	mov	x0, x1
	mov	x1, x8
	bl	upath_commands.shown.push_shown
	and	w8, w0, #0xff
	tbnz	w8, #0, .Lunix_path_BB28_444
	ldp	x8, x22, [sp, #144]
	mov	w23, #10
	ldr	x28, [sp, #80]
	adrp	x14, .Lunix_path_CPI28_0
	cmp	x22, x8
	b.ne	.Lunix_path_BB28_222
.Lunix_path_BB28_258:
	add	x0, sp, #136
	mov	w1, #1
	bl	std_alloc.vec.Vec.grow_amortized.f4a78633ca2a48c6.
	cbz	w0, .Lunix_path_BB28_444
	ldr	x8, [sp, #144]
	ldr	x28, [sp, #80]
	adrp	x14, .Lunix_path_CPI28_0
	b	.Lunix_path_BB28_222
.Lunix_path_BB28_260:
	cmp	x2, #32
	b.hs	.Lunix_path_BB28_264
	mov	x9, xzr
	b	.Lunix_path_BB28_268
.Lunix_path_BB28_262:
	add	x0, sp, #136
	mov	w1, #1
	bl	std_alloc.vec.Vec.grow_amortized.f4a78633ca2a48c6.
	cbz	w0, .Lunix_path_BB28_444
	ldp	x22, x8, [sp, #136]
	adrp	x14, .Lunix_path_CPI28_0
	ldr	x28, [sp, #80]
	b	.Lunix_path_BB28_232
.Lunix_path_BB28_264:
	add	x12, x23, x25
	and	x10, x2, #0x18
	and	x9, x2, #0xffffffffffffffe0
	add	x11, x1, #16
	add	x12, x12, #16
	and	x13, x2, #0xffffffffffffffe0
.Lunix_path_BB28_265:
	ldp	q0, q1, [x11, #-16]
	subs	x13, x13, #32
	add	x11, x11, #32
	stp	q0, q1, [x12, #-16]
	add	x12, x12, #32
	b.ne	.Lunix_path_BB28_265
	cmp	x2, x9
	b.eq	.Lunix_path_BB28_221
	cbz	x10, .Lunix_path_BB28_252
.Lunix_path_BB28_268:
	mov	x12, x9
	and	x9, x2, #0xfffffffffffffff8
	sub	x10, x12, x9
	add	x11, x1, x12
	add	x12, x25, x12
.Lunix_path_BB28_269:
	ldr	d0, [x11], #8
	adds	x10, x10, #8
	str	d0, [x23, x12]
	add	x12, x12, #8
	b.ne	.Lunix_path_BB28_269
	cmp	x2, x9
	b.eq	.Lunix_path_BB28_221
	b	.Lunix_path_BB28_252
.Lunix_path_BB28_271:
	mov	x23, x1
	add	x0, sp, #136
	mov	x1, x2
	mov	x26, x2
	bl	std_alloc.vec.Vec.grow_amortized.f4a78633ca2a48c6.
	cbz	w0, .Lunix_path_BB28_444
	ldp	x25, x22, [sp, #144]
	mov	x2, x26
	mov	x1, x23
	adrp	x14, .Lunix_path_CPI28_0
	ldr	x23, [sp, #136]
	add	x0, x23, x25
	sub	x8, x0, x1
	cmp	x8, x26
	add	x8, x25, x26
	b.lo	.Lunix_path_BB28_249
	b	.Lunix_path_BB28_219
.Lunix_path_BB28_273:
	cmp	x22, #32
	b.hs	.Lunix_path_BB28_381
	mov	x8, xzr
	mov	x10, xzr
	b	.Lunix_path_BB28_385
.Lunix_path_BB28_275:
	cbz	x19, .Lunix_path_BB28_436
	mov	x23, xzr
	str	x21, [sp, #16]
.Lunix_path_BB28_277:
	mov	w8, #24
	madd	x8, x23, x8, x21
	ldr	x9, [x8]
	cmp	x9, x19
	b.hs	.Lunix_path_BB28_280
	mov	w10, #40
	ldr	x11, [sp, #40]
	madd	x9, x9, x10, x11
	ldp	x28, x27, [x9, #8]
	ldrb	w26, [x9]
	ldp	x24, x25, [x9, #24]
	ldr	x9, [x8, #8]
	adrp	x10, .Lunix_path_static.5
	add	x10, x10, :lo12:.Lunix_path_static.5
	cmp	x9, x19
	b.lo	.Lunix_path_BB28_281
.Lunix_path_BB28_279:
	mov	w9, #4
	str	xzr, [sp, #48]
	mov	x21, x10
	str	xzr, [sp, #8]
	stp	x10, xzr, [sp, #64]
	str	w9, [sp, #56]
	ldp	x10, x9, [sp, #120]
	ldrb	w20, [x8, #16]
	sub	x11, x9, x10
	cmp	x11, #6
	b.hi	.Lunix_path_BB28_282
	b	.Lunix_path_BB28_331
.Lunix_path_BB28_280:
	mov	x24, xzr
	mov	x25, xzr
	mov	x27, xzr
	adrp	x28, .Lunix_path_static.5
	add	x28, x28, :lo12:.Lunix_path_static.5
	mov	w26, #4
	ldr	x9, [x8, #8]
	adrp	x10, .Lunix_path_static.5
	add	x10, x10, :lo12:.Lunix_path_static.5
	cmp	x9, x19
	b.hs	.Lunix_path_BB28_279
.Lunix_path_BB28_281:
	mov	x21, x10
	mov	w10, #40
	ldr	x11, [sp, #40]
	madd	x9, x9, x10, x11
	ldrb	w10, [x9]
	str	w10, [sp, #56]
	ldr	x10, [x9, #8]
	str	x10, [sp, #64]
	ldr	x10, [x9, #16]
	str	x10, [sp, #72]
	ldp	x10, x9, [x9, #24]
	str	x10, [sp, #48]
	str	x9, [sp, #8]
	ldp	x10, x9, [sp, #120]
	ldrb	w20, [x8, #16]
	sub	x11, x9, x10
	cmp	x11, #6
	b.ls	.Lunix_path_BB28_331
.Lunix_path_BB28_282:
	ldr	x8, [sp, #112]
	adrp	x12, .Lunix_path_static.65
	add	x12, x12, :lo12:.Lunix_path_static.65
	add	x11, x8, x10
	sub	x12, x11, x12
	cmp	x12, #6
	b.hi	.Lunix_path_BB28_284
	adrp	x12, .Lunix_path_CPI28_1
	mov	w13, #14952
	ldr	d0, [x12, :lo12:.Lunix_path_CPI28_1]
	mov	w12, #32
	strh	w13, [x11, #4]
	strb	w12, [x11, #6]
	str	s0, [x11]
	b	.Lunix_path_BB28_285
.Lunix_path_BB28_284:
	mov	w12, #26740
	mov	w13, #28789
	movk	w12, #8250, lsl #16
	movk	w13, #29793, lsl #16
	stur	w12, [x11, #3]
	str	w13, [x11]
.Lunix_path_BB28_285:
	add	x10, x10, #7
	add	x2, sp, #112
	mov	x0, x28
	mov	x1, x27
	stp	x8, x10, [sp, #112]
	str	x9, [sp, #128]
	bl	upath_commands.shown.push_shown
	and	w8, w0, #0xff
	tbnz	w8, #0, .Lunix_path_BB28_438
	ldp	x10, x8, [sp, #120]
	sub	x9, x8, x10
	cmp	x9, #1
	b.ls	.Lunix_path_BB28_333
.Lunix_path_BB28_287:
	ldr	x9, [sp, #112]
	adrp	x12, .Lunix_path_static.66
	add	x12, x12, :lo12:.Lunix_path_static.66
	movi	v0.2d, #0000000000000000
	str	xzr, [sp, #208]
	add	x11, x9, x10
	add	x10, x10, #2
	sub	x12, x11, x12
	cmp	x12, #1
	mov	w12, #8250
	cmp	w20, #2
	strh	w12, [x11]
	str	x9, [sp, #112]
	stp	x10, x8, [sp, #120]
	stp	q0, q0, [x29, #-128]
	stur	xzr, [x29, #-96]
	stp	q0, q0, [sp, #176]
	b.gt	.Lunix_path_BB28_293
	cbz	w20, .Lunix_path_BB28_298
	cmp	w20, #1
	b.ne	.Lunix_path_BB28_305
	sub	x11, x8, x10
	cmp	x11, #37
	b.ls	.Lunix_path_BB28_357
.Lunix_path_BB28_291:
	add	x11, x9, x10
	adrp	x12, .Lunix_path_static.68
	add	x12, x12, :lo12:.Lunix_path_static.68
	sub	x13, x11, x12
	cmp	x13, #37
	add	x13, sp, #112
	stp	xzr, xzr, [x13, #8]
	b.hi	.Lunix_path_BB28_316
	adrp	x12, .Lunix_path_CPI28_11
	adrp	x13, .Lunix_path_CPI28_12
	ldr	q0, [x12, :lo12:.Lunix_path_CPI28_11]
	adrp	x12, .Lunix_path_CPI28_13
	ldr	q1, [x13, :lo12:.Lunix_path_CPI28_12]
	ldr	d2, [x12, :lo12:.Lunix_path_CPI28_13]
	mov	w12, #27502
	stp	q0, q1, [x11]
	str	s2, [x11, #32]
	strh	w12, [x11, #36]
	b	.Lunix_path_BB28_317
.Lunix_path_BB28_293:
	sub	x11, x8, x10
	cmp	w20, #3
	b.eq	.Lunix_path_BB28_302
	cmp	w20, #4
	b.ne	.Lunix_path_BB28_312
	cmp	x11, #21
	b.ls	.Lunix_path_BB28_359
.Lunix_path_BB28_296:
	add	x11, x9, x10
	adrp	x12, .Lunix_path_static.71
	add	x12, x12, :lo12:.Lunix_path_static.71
	sub	x13, x11, x12
	cmp	x13, #21
	add	x13, sp, #112
	stp	xzr, xzr, [x13, #8]
	b.hi	.Lunix_path_BB28_319
	adrp	x12, .Lunix_path_CPI28_4
	adrp	x13, .Lunix_path_CPI28_5
	ldr	q0, [x12, :lo12:.Lunix_path_CPI28_4]
	ldr	d1, [x13, :lo12:.Lunix_path_CPI28_5]
	mov	w12, #8299
	strh	w12, [x11, #20]
	str	q0, [x11]
	str	s1, [x11, #16]
	b	.Lunix_path_BB28_320
.Lunix_path_BB28_298:
	sub	x0, x29, #128
	add	x1, sp, #112
	stp	x26, x28, [x29, #-128]
	stp	x27, x24, [x29, #-112]
	stur	x25, [x29, #-96]
	bl	upath_commands.refused.push_or_target
	and	w8, w0, #0xff
	tbnz	w8, #0, .Lunix_path_BB28_438
	ldp	x9, x8, [sp, #120]
	sub	x10, x8, x9
	cmp	x10, #46
	b.ls	.Lunix_path_BB28_365
.Lunix_path_BB28_300:
	ldr	x10, [sp, #112]
	adrp	x12, .Lunix_path_static.67
	add	x12, x12, :lo12:.Lunix_path_static.67
	add	x11, x10, x9
	sub	x13, x11, x12
	cmp	x13, #46
	add	x13, sp, #112
	stp	xzr, xzr, [x13, #8]
	b.hi	.Lunix_path_BB28_321
	adrp	x12, .Lunix_path_CPI28_14
	ldr	q0, [x12, :lo12:.Lunix_path_CPI28_14]
	adrp	x12, .Lunix_path_CPI28_15
	ldr	q1, [x12, :lo12:.Lunix_path_CPI28_15]
	adrp	x12, .Lunix_path_CPI28_16
	ldr	d2, [x12, :lo12:.Lunix_path_CPI28_16]
	adrp	x12, .Lunix_path_CPI28_17
	stp	q0, q1, [x11]
	ldr	d0, [x12, :lo12:.Lunix_path_CPI28_17]
	mov	w12, #28001
	strh	w12, [x11, #44]
	mov	w12, #101
	str	d2, [x11, #32]
	str	s0, [x11, #40]
	strb	w12, [x11, #46]
	b	.Lunix_path_BB28_322
.Lunix_path_BB28_302:
	cmp	x11, #33
	b.ls	.Lunix_path_BB28_355
.Lunix_path_BB28_303:
	add	x11, x9, x10
	adrp	x12, .Lunix_path_static.70
	add	x12, x12, :lo12:.Lunix_path_static.70
	sub	x13, x11, x12
	cmp	x13, #33
	add	x13, sp, #112
	stp	xzr, xzr, [x13, #8]
	b.hi	.Lunix_path_BB28_315
	adrp	x12, .Lunix_path_CPI28_6
	adrp	x13, .Lunix_path_CPI28_7
	add	x10, x10, #34
	ldr	q0, [x12, :lo12:.Lunix_path_CPI28_6]
	ldr	q1, [x13, :lo12:.Lunix_path_CPI28_7]
	mov	w12, #25955
	strh	w12, [x11, #32]
	stp	q0, q1, [x11]
	b	.Lunix_path_BB28_318
.Lunix_path_BB28_305:
	add	x0, sp, #176
	add	x1, sp, #112
	stp	x26, x28, [sp, #176]
	stp	x27, x24, [sp, #192]
	str	x25, [sp, #208]
	bl	upath_commands.refused.push_or_target
	and	w8, w0, #0xff
	tbnz	w8, #0, .Lunix_path_BB28_438
	ldp	x8, x24, [sp, #120]
	sub	x9, x24, x8
	cmp	x9, #10
	b.ls	.Lunix_path_BB28_367
.Lunix_path_BB28_307:
	ldr	x20, [sp, #112]
	adrp	x10, .Lunix_path_static.69
	add	x10, x10, :lo12:.Lunix_path_static.69
	add	x9, x20, x8
	sub	x11, x9, x10
	cmp	x11, #10
	b.hi	.Lunix_path_BB28_327
	adrp	x10, .Lunix_path_CPI28_8
	mov	w11, #30575
	ldr	d0, [x10, :lo12:.Lunix_path_CPI28_8]
	mov	w10, #32
	strh	w11, [x9, #8]
	strb	w10, [x9, #10]
	str	d0, [x9]
	add	x25, x8, #11
	ldr	w8, [sp, #56]
	str	x24, [sp, #128]
	stp	x20, x25, [sp, #112]
	cmp	w8, #1
	b.le	.Lunix_path_BB28_328
.Lunix_path_BB28_309:
	cmp	w8, #2
	b.eq	.Lunix_path_BB28_337
	cmp	w8, #3
	b.ne	.Lunix_path_BB28_338
	adrp	x1, .Lunix_path_static.77
	add	x1, x1, :lo12:.Lunix_path_static.77
	b	.Lunix_path_BB28_330
.Lunix_path_BB28_312:
	cmp	x11, #13
	b.ls	.Lunix_path_BB28_361
	add	x11, x9, x10
	adrp	x12, .Lunix_path_static.72
	add	x12, x12, :lo12:.Lunix_path_static.72
	sub	x13, x11, x12
	cmp	x13, #13
	b.hi	.Lunix_path_BB28_363
.Lunix_path_BB28_314:
	adrp	x12, .Lunix_path_CPI28_2
	adrp	x13, .Lunix_path_CPI28_3
	ldr	d0, [x12, :lo12:.Lunix_path_CPI28_2]
	ldr	d1, [x13, :lo12:.Lunix_path_CPI28_3]
	mov	w12, #8303
	strh	w12, [x11, #12]
	str	d0, [x11]
	str	s1, [x11, #8]
	b	.Lunix_path_BB28_364
.Lunix_path_BB28_315:
	ldp	q0, q1, [x12]
	mov	w13, #25955
	strh	w13, [x11, #32]
	add	x10, x10, #34
	stp	q0, q1, [x11]
	b	.Lunix_path_BB28_318
.Lunix_path_BB28_316:
	ldp	q0, q1, [x12]
	ldur	x12, [x12, #30]
	stp	q0, q1, [x11]
	stur	x12, [x11, #30]
.Lunix_path_BB28_317:
	add	x10, x10, #38
.Lunix_path_BB28_318:
	stp	x9, x10, [sp, #112]
	b	.Lunix_path_BB28_323
.Lunix_path_BB28_319:
	ldr	q0, [x12]
	ldur	x12, [x12, #14]
	str	q0, [x11]
	stur	x12, [x11, #14]
.Lunix_path_BB28_320:
	ldp	x1, x20, [sp, #72]
	add	x10, x10, #22
	ldr	x0, [sp, #64]
	ldr	x21, [sp, #16]
	add	x2, sp, #112
	stp	x9, x10, [sp, #112]
	str	x8, [sp, #128]
	bl	upath_commands.shown.push_shown
	and	w8, w0, #0xff
	tbz	w8, #0, .Lunix_path_BB28_325
	b	.Lunix_path_BB28_439
.Lunix_path_BB28_321:
	ldp	q0, q1, [x12]
	ldur	q2, [x12, #31]
	stp	q0, q1, [x11]
	stur	q2, [x11, #31]
.Lunix_path_BB28_322:
	add	x9, x9, #47
	stp	x10, x9, [sp, #112]
.Lunix_path_BB28_323:
	str	x8, [sp, #128]
.Lunix_path_BB28_324:
	ldr	x20, [sp, #80]
	ldr	x21, [sp, #16]
.Lunix_path_BB28_325:
	ldp	x8, x9, [sp, #120]
	cmp	x9, x8
	b.eq	.Lunix_path_BB28_335
.Lunix_path_BB28_326:
	ldr	x9, [sp, #112]
	add	x23, x23, #1
	add	x24, x8, #1
	cmp	x23, x20
	mov	w10, #10
	strb	w10, [x9, x8]
	str	x24, [sp, #120]
	b.ne	.Lunix_path_BB28_277
	b	.Lunix_path_BB28_463
.Lunix_path_BB28_327:
	mov	w11, #28524
	ldr	x10, [x10]
	movk	w11, #8311, lsl #16
	stur	w11, [x9, #7]
	str	x10, [x9]
	add	x25, x8, #11
	ldr	w8, [sp, #56]
	str	x24, [sp, #128]
	stp	x20, x25, [sp, #112]
	cmp	w8, #1
	b.gt	.Lunix_path_BB28_309
.Lunix_path_BB28_328:
	cbnz	w8, .Lunix_path_BB28_339
	adrp	x1, .Lunix_path_static.74
	add	x1, x1, :lo12:.Lunix_path_static.74
.Lunix_path_BB28_330:
	mov	w26, #1
	mov	w27, #14
	b	.Lunix_path_BB28_340
.Lunix_path_BB28_331:
	add	x0, sp, #112
	mov	w1, #7
	bl	std_alloc.vec.Vec.grow_amortized.f4a78633ca2a48c6.
	cbz	w0, .Lunix_path_BB28_438
	ldp	x10, x9, [sp, #120]
	b	.Lunix_path_BB28_282
.Lunix_path_BB28_333:
	add	x0, sp, #112
	mov	w1, #2
	bl	std_alloc.vec.Vec.grow_amortized.f4a78633ca2a48c6.
	cbz	w0, .Lunix_path_BB28_438
	ldp	x10, x8, [sp, #120]
	b	.Lunix_path_BB28_287
.Lunix_path_BB28_335:
	add	x0, sp, #112
	mov	w1, #1
	bl	std_alloc.vec.Vec.grow_amortized.f4a78633ca2a48c6.
	cbz	w0, .Lunix_path_BB28_439
	ldr	x8, [sp, #120]
	b	.Lunix_path_BB28_326
.Lunix_path_BB28_337:
	mov	w26, wzr
	adrp	x1, .Lunix_path_static.76
	add	x1, x1, :lo12:.Lunix_path_static.76
	mov	w27, #18
	b	.Lunix_path_BB28_340
.Lunix_path_BB28_338:
	adrp	x1, .Lunix_path_static.78
	add	x1, x1, :lo12:.Lunix_path_static.78
	mov	w26, #1
	mov	w27, #10
	b	.Lunix_path_BB28_340
.Lunix_path_BB28_339:
	adrp	x1, .Lunix_path_static.75
	add	x1, x1, :lo12:.Lunix_path_static.75
	mov	w26, #1
	mov	w27, #9
.Lunix_path_BB28_340:
	sub	x8, x24, x25
	cmp	x27, x8
	b.hi	.Lunix_path_BB28_369
	add	x9, x20, x25
	sub	x8, x9, x1
	cmp	x8, x27
	b.hs	.Lunix_path_BB28_371
.Lunix_path_BB28_342:
	add	x8, x25, x20
	sub	x8, x8, x1
	cmp	x8, #16
	b.hs	.Lunix_path_BB28_344
	ldp	x0, x13, [sp, #64]
	mov	x8, xzr
	b	.Lunix_path_BB28_353
.Lunix_path_BB28_344:
	tbz	w26, #0, .Lunix_path_BB28_346
	ldp	x0, x13, [sp, #64]
	mov	x8, xzr
	b	.Lunix_path_BB28_350
.Lunix_path_BB28_346:
	and	x10, x27, #0xc
	and	x8, x27, #0x10
	mov	x11, x1
	and	x12, x27, #0x10
.Lunix_path_BB28_347:
	ldr	q0, [x11], #16
	subs	x12, x12, #16
	str	q0, [x9], #16
	b.ne	.Lunix_path_BB28_347
	ldp	x0, x13, [sp, #64]
	cmp	x27, x8
	b.eq	.Lunix_path_BB28_372
	cbz	x10, .Lunix_path_BB28_353
.Lunix_path_BB28_350:
	mov	x10, x8
	and	x8, x27, #0x1c
	add	x11, x25, x10
	sub	x9, x10, x8
	add	x10, x1, x10
	add	x11, x20, x11
.Lunix_path_BB28_351:
	ldr	w12, [x10], #4
	adds	x9, x9, #4
	str	w12, [x11], #4
	b.ne	.Lunix_path_BB28_351
	cmp	x27, x8
	b.eq	.Lunix_path_BB28_372
.Lunix_path_BB28_353:
	add	x10, x8, x25
	sub	x9, x27, x8
	add	x8, x1, x8
	add	x10, x20, x10
.Lunix_path_BB28_354:
	ldrb	w11, [x8], #1
	subs	x9, x9, #1
	strb	w11, [x10], #1
	b.ne	.Lunix_path_BB28_354
	b	.Lunix_path_BB28_372
.Lunix_path_BB28_355:
	add	x0, sp, #112
	mov	w1, #34
	bl	std_alloc.vec.Vec.grow_amortized.f4a78633ca2a48c6.
	cbz	w0, .Lunix_path_BB28_438
	ldp	x10, x8, [sp, #120]
	ldr	x9, [sp, #112]
	b	.Lunix_path_BB28_303
.Lunix_path_BB28_357:
	add	x0, sp, #112
	mov	w1, #38
	bl	std_alloc.vec.Vec.grow_amortized.f4a78633ca2a48c6.
	cbz	w0, .Lunix_path_BB28_438
	ldp	x10, x8, [sp, #120]
	ldr	x9, [sp, #112]
	b	.Lunix_path_BB28_291
.Lunix_path_BB28_359:
	add	x0, sp, #112
	mov	w1, #22
	bl	std_alloc.vec.Vec.grow_amortized.f4a78633ca2a48c6.
	cbz	w0, .Lunix_path_BB28_438
	ldp	x10, x8, [sp, #120]
	ldr	x9, [sp, #112]
	b	.Lunix_path_BB28_296
.Lunix_path_BB28_361:
	add	x0, sp, #112
	mov	w1, #14
	bl	std_alloc.vec.Vec.grow_amortized.f4a78633ca2a48c6.
	cbz	w0, .Lunix_path_BB28_438
	ldp	x10, x8, [sp, #120]
	ldr	x9, [sp, #112]
	add	x11, x9, x10
	adrp	x12, .Lunix_path_static.72
	add	x12, x12, :lo12:.Lunix_path_static.72
	sub	x13, x11, x12
	cmp	x13, #13
	b.ls	.Lunix_path_BB28_314
.Lunix_path_BB28_363:
	ldr	x13, [x12]
	ldur	x12, [x12, #6]
	str	x13, [x11]
	stur	x12, [x11, #6]
.Lunix_path_BB28_364:
	and	x11, x26, #0xfe
	ldr	x20, [sp, #80]
	add	x10, x10, #14
	cmp	x11, #2
	add	x2, sp, #112
	stp	x9, x10, [sp, #112]
	csel	x0, x24, x21, eq
	csel	x1, x25, xzr, eq
	str	x8, [sp, #128]
	bl	upath_commands.shown.push_shown
	ldr	x21, [sp, #16]
	and	w8, w0, #0xff
	tbz	w8, #0, .Lunix_path_BB28_325
	b	.Lunix_path_BB28_439
.Lunix_path_BB28_365:
	add	x0, sp, #112
	mov	w1, #47
	bl	std_alloc.vec.Vec.grow_amortized.f4a78633ca2a48c6.
	cbz	w0, .Lunix_path_BB28_438
	ldp	x9, x8, [sp, #120]
	b	.Lunix_path_BB28_300
.Lunix_path_BB28_367:
	add	x0, sp, #112
	mov	w1, #11
	bl	std_alloc.vec.Vec.grow_amortized.f4a78633ca2a48c6.
	cbz	w0, .Lunix_path_BB28_438
	ldp	x8, x24, [sp, #120]
	b	.Lunix_path_BB28_307
.Lunix_path_BB28_369:
	mov	x28, x1
	add	x0, sp, #112
	mov	x1, x27
	bl	std_alloc.vec.Vec.grow_amortized.f4a78633ca2a48c6.
	cbz	w0, .Lunix_path_BB28_438
	ldp	x25, x24, [sp, #120]
	mov	x1, x28
	ldr	x20, [sp, #112]
	add	x9, x20, x25
	sub	x8, x9, x28
	cmp	x8, x27
	b.lo	.Lunix_path_BB28_342
.Lunix_path_BB28_371:
	add	x0, x20, x25
	mov	x2, x27
	bl	memcpy
	ldp	x0, x13, [sp, #64]
.Lunix_path_BB28_372:
	add	x8, x25, x27
	add	x2, sp, #112
	mov	x1, x13
	stp	x20, x8, [sp, #112]
	str	x24, [sp, #128]
	bl	upath_commands.shown.push_shown
	and	w8, w0, #0xff
	tbnz	w8, #0, .Lunix_path_BB28_438
	ldr	w8, [sp, #56]
	cmp	w8, #3
	b.ne	.Lunix_path_BB28_324
	ldp	x9, x8, [sp, #120]
	sub	x10, x8, x9
	cmp	x10, #14
	b.ls	.Lunix_path_BB28_379
.Lunix_path_BB28_375:
	ldr	x10, [sp, #112]
	adrp	x12, .Lunix_path_static.79
	add	x12, x12, :lo12:.Lunix_path_static.79
	add	x11, x10, x9
	sub	x13, x11, x12
	cmp	x13, #14
	b.hi	.Lunix_path_BB28_377
	adrp	x12, .Lunix_path_CPI28_9
	adrp	x13, .Lunix_path_CPI28_10
	mov	w14, #29797
	ldr	d0, [x12, :lo12:.Lunix_path_CPI28_9]
	ldr	d1, [x13, :lo12:.Lunix_path_CPI28_10]
	mov	w12, #32
	strh	w14, [x11, #12]
	str	d0, [x11]
	str	s1, [x11, #8]
	strb	w12, [x11, #14]
	b	.Lunix_path_BB28_378
.Lunix_path_BB28_377:
	ldr	x13, [x12]
	ldur	x12, [x12, #7]
	str	x13, [x11]
	stur	x12, [x11, #7]
.Lunix_path_BB28_378:
	ldr	x0, [sp, #48]
	ldr	x1, [sp, #8]
	add	x9, x9, #15
	add	x2, sp, #112
	stp	x10, x9, [sp, #112]
	str	x8, [sp, #128]
	bl	upath_commands.shown.push_shown
	and	w8, w0, #0xff
	tbz	w8, #0, .Lunix_path_BB28_324
	b	.Lunix_path_BB28_438
.Lunix_path_BB28_379:
	add	x0, sp, #112
	mov	w1, #15
	bl	std_alloc.vec.Vec.grow_amortized.f4a78633ca2a48c6.
	cbz	w0, .Lunix_path_BB28_438
	ldp	x9, x8, [sp, #120]
	b	.Lunix_path_BB28_375
.Lunix_path_BB28_381:
	movi	v1.2d, #0000000000000000
	movi	v2.2d, #0000000000000000
	and	x9, x22, #0x18
	movi	v6.2d, #0000000000000000
	movi	v24.2d, #0000000000000000
	and	x8, x22, #0xffffffffffffffe0
	movi	v17.2d, #0000000000000000
	movi	v4.2d, #0000000000000000
	add	x10, x28, #16
	movi	v5.2d, #0000000000000000
	movi	v3.2d, #0000000000000000
	and	x11, x22, #0xffffffffffffffe0
	movi	v21.2d, #0000000000000000
	movi	v16.2d, #0000000000000000
	movi	v7.2d, #0000000000000000
	movi	v22.2d, #0000000000000000
	movi	v19.2d, #0000000000000000
	movi	v20.2d, #0000000000000000
	movi	v18.2d, #0000000000000000
	movi	v23.2d, #0000000000000000
.Lunix_path_BB28_382:
	str	q24, [sp, #80]
	ldp	q24, q25, [x10, #-16]
	mov	w12, #1
	subs	x11, x11, #32
	add	x10, x10, #32
	dup	v30.2d, x12
	cmeq	v24.16b, v24.16b, #0
	cmeq	v25.16b, v25.16b, #0
	ushll	v26.8h, v24.8b, #0
	ushll2	v24.8h, v24.16b, #0
	ushll	v27.8h, v25.8b, #0
	ushll2	v25.8h, v25.16b, #0
	ushll	v29.4s, v24.4h, #0
	ushll2	v24.4s, v24.8h, #0
	ushll	v28.4s, v26.4h, #0
	ushll2	v26.4s, v26.8h, #0
	ushll	v31.4s, v27.4h, #0
	ushll2	v27.4s, v27.8h, #0
	ushll	v8.4s, v25.4h, #0
	ushll2	v25.4s, v25.8h, #0
	ushll	v12.2d, v24.2s, #0
	ushll2	v24.2d, v24.4s, #0
	ushll	v9.2d, v28.2s, #0
	ushll2	v28.2d, v28.4s, #0
	ushll	v10.2d, v26.2s, #0
	ushll	v11.2d, v29.2s, #0
	ushll2	v26.2d, v26.4s, #0
	ushll2	v29.2d, v29.4s, #0
	ushll	v13.2d, v31.2s, #0
	ushll2	v31.2d, v31.4s, #0
	ushll	v14.2d, v27.2s, #0
	ushll	v15.2d, v8.2s, #0
	ushll2	v27.2d, v27.4s, #0
	ushll2	v8.2d, v8.4s, #0
	ushll	v0.2d, v25.2s, #0
	ushll2	v25.2d, v25.4s, #0
	and	v24.16b, v24.16b, v30.16b
	and	v9.16b, v9.16b, v30.16b
	and	v28.16b, v28.16b, v30.16b
	and	v10.16b, v10.16b, v30.16b
	and	v11.16b, v11.16b, v30.16b
	and	v26.16b, v26.16b, v30.16b
	and	v29.16b, v29.16b, v30.16b
	and	v12.16b, v12.16b, v30.16b
	and	v13.16b, v13.16b, v30.16b
	and	v31.16b, v31.16b, v30.16b
	and	v14.16b, v14.16b, v30.16b
	and	v15.16b, v15.16b, v30.16b
	and	v27.16b, v27.16b, v30.16b
	and	v8.16b, v8.16b, v30.16b
	and	v0.16b, v0.16b, v30.16b
	and	v25.16b, v25.16b, v30.16b
	add	v21.2d, v21.2d, v24.2d
	ldr	q24, [sp, #80]
	add	v3.2d, v3.2d, v12.2d
	add	v5.2d, v5.2d, v29.2d
	add	v17.2d, v17.2d, v26.2d
	add	v4.2d, v4.2d, v11.2d
	add	v6.2d, v6.2d, v28.2d
	add	v24.2d, v24.2d, v10.2d
	add	v2.2d, v2.2d, v9.2d
	add	v23.2d, v23.2d, v25.2d
	add	v18.2d, v18.2d, v0.2d
	add	v20.2d, v20.2d, v8.2d
	add	v22.2d, v22.2d, v27.2d
	add	v19.2d, v19.2d, v15.2d
	add	v7.2d, v7.2d, v14.2d
	add	v1.2d, v1.2d, v31.2d
	add	v16.2d, v16.2d, v13.2d
	b.ne	.Lunix_path_BB28_382
	add	v0.2d, v22.2d, v17.2d
	add	v17.2d, v23.2d, v21.2d
	cmp	x22, x8
	add	v1.2d, v1.2d, v6.2d
	add	v2.2d, v16.2d, v2.2d
	add	v4.2d, v19.2d, v4.2d
	add	v5.2d, v20.2d, v5.2d
	add	v6.2d, v7.2d, v24.2d
	add	v3.2d, v18.2d, v3.2d
	add	v0.2d, v0.2d, v17.2d
	add	v2.2d, v2.2d, v4.2d
	add	v3.2d, v6.2d, v3.2d
	add	v1.2d, v1.2d, v5.2d
	add	v2.2d, v2.2d, v3.2d
	add	v0.2d, v1.2d, v0.2d
	add	v0.2d, v2.2d, v0.2d
	addp	d0, v0.2d
	fmov	x10, d0
	b.eq	.Lunix_path_BB28_390
	cbz	x9, .Lunix_path_BB28_388
.Lunix_path_BB28_385:
	movi	v0.2d, #0000000000000000
	movi	v1.2d, #0000000000000000
	movi	v2.2d, #0000000000000000
	movi	v3.2d, #0000000000000000
	mov	v0.d[0], x10
	mov	x10, x8
	and	x8, x22, #0xfffffffffffffff8
	sub	x9, x10, x8
	add	x10, x28, x10
.Lunix_path_BB28_386:
	ldr	d4, [x10], #8
	mov	w11, #1
	dup	v6.2d, x11
	adds	x9, x9, #8
	cmeq	v4.8b, v4.8b, #0
	ushll	v4.8h, v4.8b, #0
	ushll2	v5.4s, v4.8h, #0
	ushll	v4.4s, v4.4h, #0
	ushll2	v7.2d, v5.4s, #0
	ushll	v16.2d, v4.2s, #0
	ushll2	v4.2d, v4.4s, #0
	ushll	v5.2d, v5.2s, #0
	and	v7.16b, v7.16b, v6.16b
	and	v16.16b, v16.16b, v6.16b
	and	v4.16b, v4.16b, v6.16b
	and	v5.16b, v5.16b, v6.16b
	add	v3.2d, v3.2d, v7.2d
	add	v2.2d, v2.2d, v4.2d
	add	v0.2d, v0.2d, v16.2d
	add	v1.2d, v1.2d, v5.2d
	b.ne	.Lunix_path_BB28_386
	add	v0.2d, v0.2d, v1.2d
	add	v1.2d, v2.2d, v3.2d
	cmp	x22, x8
	add	v0.2d, v0.2d, v1.2d
	addp	d0, v0.2d
	fmov	x10, d0
	b.eq	.Lunix_path_BB28_390
.Lunix_path_BB28_388:
	sub	x9, x22, x8
	add	x8, x28, x8
.Lunix_path_BB28_389:
	ldrb	w11, [x8], #1
	cmp	w11, #0
	cinc	x10, x10, eq
	subs	x9, x9, #1
	b.ne	.Lunix_path_BB28_389
.Lunix_path_BB28_390:
	mov	x8, #-6148914691236517206
	adrp	x9, .Lunix_path_static.54
	add	x9, x9, :lo12:.Lunix_path_static.54
	movk	x8, #43691
	add	x0, sp, #176
	sub	x1, x29, #128
	umulh	x8, x10, x8
	mov	w10, #14
	stp	x9, x10, [x29, #-128]
	add	x9, sp, #136
	adrp	x10, .Lunix_path_static.55
	add	x10, x10, :lo12:.Lunix_path_static.55
	stp	x9, x10, [x29, #-112]
	mov	w9, #12
	stur	x9, [x29, #-96]
	lsr	x8, x8, #1
	add	x8, x8, #1
	str	x8, [sp, #136]
	bl	std_alloc.string.String.format.7c436104ea11042b.
	ldrb	w8, [sp, #176]
	cbnz	w8, .Lunix_path_BB28_428
	ldr	x0, [sp, #184]
	ldr	x8, [sp, #48]
	tbz	w8, #16, .Lunix_path_BB28_397
	movi	v0.2d, #0000000000000000
	ldr	x8, [sp, #200]
	cbz	x8, .Lunix_path_BB28_394
	bl	rattle_dealloc
	movi	v0.2d, #0000000000000000
.Lunix_path_BB28_394:
	sub	x0, x29, #80
	b	.Lunix_path_BB28_398
.Lunix_path_BB28_395:
	mov	x20, xzr
	cbz	x19, .Lunix_path_BB28_449
	mov	x24, x20
	sub	x22, x29, #80
	mov	x28, x20
	b	.Lunix_path_BB28_464
.Lunix_path_BB28_397:
	ldr	q0, [sp, #192]
.Lunix_path_BB28_398:
	ldr	x9, [sp, #32]
	sub	x8, x29, #80
	strb	wzr, [x9]
	stp	x8, xzr, [x9, #8]
	stp	xzr, x0, [x9, #24]
	b	.Lunix_path_BB28_429
.Lunix_path_BB28_399:
	str	x23, [sp]
	mov	x25, xzr
	sub	x27, x29, #80
.Lunix_path_BB28_400:
	movi	v0.2d, #0000000000000000
	mov	x24, xzr
	mov	x23, xzr
	mov	x3, xzr
	stur	xzr, [x29, #-96]
	stp	q0, q0, [x29, #-128]
	b	.Lunix_path_BB28_403
.Lunix_path_BB28_401:
	add	x10, x24, #2
.Lunix_path_BB28_402:
	add	x3, x8, #1
	add	x23, x23, #1
	mov	x24, x10
	cmp	x3, x22
	b.hs	.Lunix_path_BB28_434
.Lunix_path_BB28_403:
	sub	x0, x29, #128
	mov	x1, x28
	mov	x2, x22
	bl	path_archive.records.record_at
	ldurb	w8, [x29, #-128]
	cmp	w8, #1
	b.ne	.Lunix_path_BB28_409
	ldp	x9, x8, [x29, #-104]
	cmp	x24, x25
	ldur	x10, [x29, #-120]
	b.hs	.Lunix_path_BB28_406
	mov	w11, #40
	ldur	x12, [x29, #-112]
	madd	x11, x24, x11, x27
	stp	x12, x9, [x11]
	stp	x10, x23, [x11, #16]
	str	xzr, [x11, #32]
	cmp	x10, #1
	add	x10, x24, #1
	b.ne	.Lunix_path_BB28_402
	b	.Lunix_path_BB28_407
.Lunix_path_BB28_406:
	cmp	x10, #1
	add	x10, x24, #1
	b.ne	.Lunix_path_BB28_402
.Lunix_path_BB28_407:
	cmp	x10, x25
	b.hs	.Lunix_path_BB28_401
	mov	w11, #40
	add	x9, x9, #1
	madd	x10, x10, x11, x27
	stp	x9, x8, [x10]
	mov	w9, #2
	stp	x9, x23, [x10, #16]
	str	xzr, [x10, #32]
	b	.Lunix_path_BB28_401
.Lunix_path_BB28_409:
	ldr	x8, [sp]
	cbz	x8, .Lunix_path_BB28_411
	mov	x0, x27
	bl	rattle_dealloc
.Lunix_path_BB28_411:
	movi	v0.2d, #0000000000000000
	cmp	x22, #8
	stp	q0, q0, [sp, #176]
	b.hs	.Lunix_path_BB28_413
	mov	x10, xzr
	mov	x8, xzr
	b	.Lunix_path_BB28_422
.Lunix_path_BB28_413:
	cmp	x22, #32
	b.hs	.Lunix_path_BB28_415
	mov	x8, xzr
	mov	x10, xzr
	b	.Lunix_path_BB28_419
.Lunix_path_BB28_415:
	movi	v1.2d, #0000000000000000
	movi	v2.2d, #0000000000000000
	and	x9, x22, #0x18
	movi	v6.2d, #0000000000000000
	movi	v24.2d, #0000000000000000
	and	x8, x22, #0xffffffffffffffe0
	movi	v17.2d, #0000000000000000
	movi	v4.2d, #0000000000000000
	add	x10, x28, #16
	movi	v5.2d, #0000000000000000
	movi	v3.2d, #0000000000000000
	and	x11, x22, #0xffffffffffffffe0
	movi	v21.2d, #0000000000000000
	movi	v16.2d, #0000000000000000
	movi	v7.2d, #0000000000000000
	movi	v22.2d, #0000000000000000
	movi	v19.2d, #0000000000000000
	movi	v20.2d, #0000000000000000
	movi	v18.2d, #0000000000000000
	movi	v23.2d, #0000000000000000
.Lunix_path_BB28_416:
	str	q24, [sp, #80]
	ldp	q24, q25, [x10, #-16]
	mov	w12, #1
	subs	x11, x11, #32
	add	x10, x10, #32
	dup	v30.2d, x12
	cmeq	v24.16b, v24.16b, #0
	cmeq	v25.16b, v25.16b, #0
	ushll	v26.8h, v24.8b, #0
	ushll2	v24.8h, v24.16b, #0
	ushll	v27.8h, v25.8b, #0
	ushll2	v25.8h, v25.16b, #0
	ushll	v29.4s, v24.4h, #0
	ushll2	v24.4s, v24.8h, #0
	ushll	v28.4s, v26.4h, #0
	ushll2	v26.4s, v26.8h, #0
	ushll	v31.4s, v27.4h, #0
	ushll2	v27.4s, v27.8h, #0
	ushll	v8.4s, v25.4h, #0
	ushll2	v25.4s, v25.8h, #0
	ushll	v12.2d, v24.2s, #0
	ushll2	v24.2d, v24.4s, #0
	ushll	v9.2d, v28.2s, #0
	ushll2	v28.2d, v28.4s, #0
	ushll	v10.2d, v26.2s, #0
	ushll	v11.2d, v29.2s, #0
	ushll2	v26.2d, v26.4s, #0
	ushll2	v29.2d, v29.4s, #0
	ushll	v13.2d, v31.2s, #0
	ushll2	v31.2d, v31.4s, #0
	ushll	v14.2d, v27.2s, #0
	ushll	v15.2d, v8.2s, #0
	ushll2	v27.2d, v27.4s, #0
	ushll2	v8.2d, v8.4s, #0
	ushll	v0.2d, v25.2s, #0
	ushll2	v25.2d, v25.4s, #0
	and	v24.16b, v24.16b, v30.16b
	and	v9.16b, v9.16b, v30.16b
	and	v28.16b, v28.16b, v30.16b
	and	v10.16b, v10.16b, v30.16b
	and	v11.16b, v11.16b, v30.16b
	and	v26.16b, v26.16b, v30.16b
	and	v29.16b, v29.16b, v30.16b
	and	v12.16b, v12.16b, v30.16b
	and	v13.16b, v13.16b, v30.16b
	and	v31.16b, v31.16b, v30.16b
	and	v14.16b, v14.16b, v30.16b
	and	v15.16b, v15.16b, v30.16b
	and	v27.16b, v27.16b, v30.16b
	and	v8.16b, v8.16b, v30.16b
	and	v0.16b, v0.16b, v30.16b
	and	v25.16b, v25.16b, v30.16b
	add	v21.2d, v21.2d, v24.2d
	ldr	q24, [sp, #80]
	add	v3.2d, v3.2d, v12.2d
	add	v5.2d, v5.2d, v29.2d
	add	v17.2d, v17.2d, v26.2d
	add	v4.2d, v4.2d, v11.2d
	add	v6.2d, v6.2d, v28.2d
	add	v24.2d, v24.2d, v10.2d
	add	v2.2d, v2.2d, v9.2d
	add	v23.2d, v23.2d, v25.2d
	add	v18.2d, v18.2d, v0.2d
	add	v20.2d, v20.2d, v8.2d
	add	v22.2d, v22.2d, v27.2d
	add	v19.2d, v19.2d, v15.2d
	add	v7.2d, v7.2d, v14.2d
	add	v1.2d, v1.2d, v31.2d
	add	v16.2d, v16.2d, v13.2d
	b.ne	.Lunix_path_BB28_416
	add	v0.2d, v22.2d, v17.2d
	add	v17.2d, v23.2d, v21.2d
	cmp	x22, x8
	add	v1.2d, v1.2d, v6.2d
	add	v2.2d, v16.2d, v2.2d
	add	v4.2d, v19.2d, v4.2d
	add	v5.2d, v20.2d, v5.2d
	add	v6.2d, v7.2d, v24.2d
	add	v3.2d, v18.2d, v3.2d
	add	v0.2d, v0.2d, v17.2d
	add	v2.2d, v2.2d, v4.2d
	add	v3.2d, v6.2d, v3.2d
	add	v1.2d, v1.2d, v5.2d
	add	v2.2d, v2.2d, v3.2d
	add	v0.2d, v1.2d, v0.2d
	add	v0.2d, v2.2d, v0.2d
	addp	d0, v0.2d
	fmov	x10, d0
	b.eq	.Lunix_path_BB28_424
	cbz	x9, .Lunix_path_BB28_422
.Lunix_path_BB28_419:
	movi	v0.2d, #0000000000000000
	movi	v1.2d, #0000000000000000
	movi	v2.2d, #0000000000000000
	movi	v3.2d, #0000000000000000
	mov	v0.d[0], x10
	mov	x10, x8
	and	x8, x22, #0xfffffffffffffff8
	sub	x9, x10, x8
	add	x10, x28, x10
.Lunix_path_BB28_420:
	ldr	d4, [x10], #8
	mov	w11, #1
	dup	v6.2d, x11
	adds	x9, x9, #8
	cmeq	v4.8b, v4.8b, #0
	ushll	v4.8h, v4.8b, #0
	ushll2	v5.4s, v4.8h, #0
	ushll	v4.4s, v4.4h, #0
	ushll2	v7.2d, v5.4s, #0
	ushll	v16.2d, v4.2s, #0
	ushll2	v4.2d, v4.4s, #0
	ushll	v5.2d, v5.2s, #0
	and	v7.16b, v7.16b, v6.16b
	and	v16.16b, v16.16b, v6.16b
	and	v4.16b, v4.16b, v6.16b
	and	v5.16b, v5.16b, v6.16b
	add	v3.2d, v3.2d, v7.2d
	add	v2.2d, v2.2d, v4.2d
	add	v0.2d, v0.2d, v16.2d
	add	v1.2d, v1.2d, v5.2d
	b.ne	.Lunix_path_BB28_420
	add	v0.2d, v0.2d, v1.2d
	add	v1.2d, v2.2d, v3.2d
	cmp	x22, x8
	add	v0.2d, v0.2d, v1.2d
	addp	d0, v0.2d
	fmov	x10, d0
	b.eq	.Lunix_path_BB28_424
.Lunix_path_BB28_422:
	sub	x9, x22, x8
	add	x8, x28, x8
.Lunix_path_BB28_423:
	ldrb	w11, [x8], #1
	cmp	w11, #0
	cinc	x10, x10, eq
	subs	x9, x9, #1
	b.ne	.Lunix_path_BB28_423
.Lunix_path_BB28_424:
	mov	x8, #-6148914691236517206
	adrp	x9, .Lunix_path_static.54
	add	x9, x9, :lo12:.Lunix_path_static.54
	movk	x8, #43691
	add	x0, sp, #176
	sub	x1, x29, #128
	umulh	x8, x10, x8
	mov	w10, #14
	stp	x9, x10, [x29, #-128]
	add	x9, sp, #136
	adrp	x10, .Lunix_path_static.55
	add	x10, x10, :lo12:.Lunix_path_static.55
	stp	x9, x10, [x29, #-112]
	mov	w9, #12
	stur	x9, [x29, #-96]
	lsr	x8, x8, #1
	add	x8, x8, #1
	str	x8, [sp, #136]
	bl	std_alloc.string.String.format.7c436104ea11042b.
	ldrb	w8, [sp, #176]
	cbz	w8, .Lunix_path_BB28_431
	cbz	x20, .Lunix_path_BB28_428
	ldr	x0, [sp, #40]
.Lunix_path_BB28_427:
	bl	rattle_dealloc
.Lunix_path_BB28_428:
	movi	v0.2d, #0000000000000000
	ldr	x9, [sp, #32]
	mov	w8, #1
	strb	w8, [x9]
	stur	q0, [x9, #8]
	stur	q0, [x9, #24]
.Lunix_path_BB28_429:
	stur	q0, [x9, #40]
.Lunix_path_BB28_430:
	str	xzr, [x9, #56]
	b	.Lunix_path_BB28_469
.Lunix_path_BB28_431:
	ldr	x21, [sp, #184]
	ldr	x19, [sp, #200]
	ldr	x8, [sp, #48]
	tbz	w8, #16, .Lunix_path_BB28_437
	cbz	x19, .Lunix_path_BB28_479
	mov	x0, x21
	bl	rattle_dealloc
	mov	x22, xzr
	mov	x19, xzr
	b	.Lunix_path_BB28_480
.Lunix_path_BB28_434:
	cmp	x25, #20
	stp	x28, x22, [x29, #-128]
	b.hi	.Lunix_path_BB28_455
	ldr	x23, [sp]
	b	.Lunix_path_BB28_17
.Lunix_path_BB28_436:
	ldp	x20, x9, [sp, #120]
	b	.Lunix_path_BB28_450
.Lunix_path_BB28_437:
	ldr	x22, [sp, #192]
	b	.Lunix_path_BB28_481
.Lunix_path_BB28_438:
	ldr	x21, [sp, #16]
.Lunix_path_BB28_439:
	ldr	x8, [sp, #128]
	stp	xzr, xzr, [sp, #160]
	cbz	x8, .Lunix_path_BB28_441
	ldr	x0, [sp, #112]
	bl	rattle_dealloc
.Lunix_path_BB28_441:
	ldr	x8, [sp, #152]
	cbz	x8, .Lunix_path_BB28_443
	mov	x0, x22
	bl	rattle_dealloc
.Lunix_path_BB28_443:
	ldr	q0, [sp, #160]
	mov	x22, xzr
	mov	x23, xzr
	mov	x24, xzr
	mov	x20, xzr
	mov	x19, xzr
	str	q0, [sp, #96]
	mov	w25, #1
	ldr	w8, [sp, #28]
	tbz	w8, #0, .Lunix_path_BB28_465
	b	.Lunix_path_BB28_466
.Lunix_path_BB28_444:
	ldr	x8, [sp, #128]
	cbz	x8, .Lunix_path_BB28_446
	ldr	x0, [sp, #112]
	bl	rattle_dealloc
.Lunix_path_BB28_446:
	ldr	x8, [sp, #152]
	cbz	x8, .Lunix_path_BB28_448
	ldr	x0, [sp, #136]
	bl	rattle_dealloc
.Lunix_path_BB28_448:
	mov	x22, xzr
	mov	x23, xzr
	mov	x24, xzr
	mov	x20, xzr
	mov	x19, xzr
	stp	xzr, xzr, [sp, #96]
	mov	w25, #1
	ldr	w8, [sp, #28]
	tbz	w8, #0, .Lunix_path_BB28_465
	b	.Lunix_path_BB28_466
.Lunix_path_BB28_449:
	mov	x9, x20
	sub	x22, x29, #80
.Lunix_path_BB28_450:
	sub	x10, x9, x20
	mov	x8, x20
	mov	x20, x9
	cmp	x10, #17
	b.ls	.Lunix_path_BB28_488
.Lunix_path_BB28_451:
	ldr	x23, [sp, #112]
	adrp	x10, .Lunix_path_static.64
	add	x10, x10, :lo12:.Lunix_path_static.64
	add	x12, sp, #112
	add	x24, x8, #18
	add	x9, x23, x8
	stp	xzr, xzr, [x12, #8]
	sub	x11, x9, x10
	cmp	x11, #17
	b.hi	.Lunix_path_BB28_453
	adrp	x8, .Lunix_path_CPI28_18
	ldr	q0, [x8, :lo12:.Lunix_path_CPI28_18]
	b	.Lunix_path_BB28_454
.Lunix_path_BB28_453:
	ldr	q0, [x10]
.Lunix_path_BB28_454:
	mov	w8, #2675
	strh	w8, [x9, #16]
	str	q0, [x9]
	mov	x19, xzr
	str	x23, [sp, #112]
	b	.Lunix_path_BB28_464
.Lunix_path_BB28_455:
	ldp	x9, x8, [x27, #40]
	mov	x20, x25
	cmp	x22, x8
	csel	x8, x22, x8, lo
	cmp	x8, x9
	csel	x9, x8, x9, lo
	sub	x1, x8, x9
	add	x0, x28, x9
	bl	path_archive.slot.without_dot
	ldp	x9, x8, [x27]
	mov	x25, x0
	mov	x26, x1
	cmp	x22, x8
	csel	x8, x22, x8, lo
	cmp	x8, x9
	csel	x9, x8, x9, lo
	sub	x1, x8, x9
	add	x0, x28, x9
	bl	path_archive.slot.without_dot
	mov	x2, x0
	mov	x3, x1
	mov	x0, x25
	mov	x1, x26
	bl	unix_path.compare.compare
	ldp	x11, x8, [x27, #16]
	add	x28, x27, #56
	ldp	x10, x9, [x27, #56]
	mov	w23, #2
	str	x27, [sp, #72]
	mov	w24, #2
	mov	x27, x28
	cmp	x9, x8
	mov	w8, #2
	csel	w9, wzr, w8, lo
	csinc	w9, w9, wzr, ne
	cmp	x10, x11
	and	w10, w0, #0xff
	csel	w8, wzr, w8, lo
	csel	w8, w9, w8, eq
	cmp	w10, #1
	csel	w8, w8, w10, eq
	str	w8, [sp, #64]
	cbz	w8, .Lunix_path_BB28_459
.Lunix_path_BB28_456:
	ldp	x9, x8, [x28, #24]
	ldr	x21, [sp, #80]
	cmp	x22, x8
	csel	x8, x22, x8, lo
	cmp	x8, x9
	csel	x9, x8, x9, lo
	sub	x1, x8, x9
	add	x0, x21, x9
	bl	path_archive.slot.without_dot
	ldp	x9, x8, [x28, #-16]
	mov	x25, x0
	mov	x26, x1
	cmp	x22, x8
	csel	x8, x22, x8, lo
	cmp	x8, x9
	csel	x9, x8, x9, lo
	sub	x1, x8, x9
	add	x0, x21, x9
	bl	path_archive.slot.without_dot
	mov	x2, x0
	mov	x3, x1
	mov	x0, x25
	mov	x1, x26
	bl	unix_path.compare.compare
	ldp	x10, x9, [x28]
	ldr	x8, [x28, #48]
	ldr	x11, [x27, #40]!
	cmp	x8, x9
	and	w9, w0, #0xff
	csel	w8, wzr, w23, lo
	csinc	w8, w8, wzr, ne
	cmp	x11, x10
	csel	w10, wzr, w23, lo
	csel	w8, w8, w10, eq
	cmp	w9, #1
	csel	w8, w8, w9, eq
	cbz	w8, .Lunix_path_BB28_460
	add	x24, x24, #1
	mov	x25, x20
	mov	x28, x27
	cmp	x20, x24
	b.ne	.Lunix_path_BB28_456
	b	.Lunix_path_BB28_462
.Lunix_path_BB28_458:
	add	x24, x24, #1
	mov	x25, x20
	mov	x28, x27
	cmp	x20, x24
	b.eq	.Lunix_path_BB28_486
.Lunix_path_BB28_459:
	ldp	x9, x8, [x28, #24]
	ldr	x21, [sp, #80]
	cmp	x22, x8
	csel	x8, x22, x8, lo
	cmp	x8, x9
	csel	x9, x8, x9, lo
	sub	x1, x8, x9
	add	x0, x21, x9
	bl	path_archive.slot.without_dot
	ldp	x9, x8, [x28, #-16]
	mov	x25, x0
	mov	x26, x1
	cmp	x22, x8
	csel	x8, x22, x8, lo
	cmp	x8, x9
	csel	x9, x8, x9, lo
	sub	x1, x8, x9
	add	x0, x21, x9
	bl	path_archive.slot.without_dot
	mov	x2, x0
	mov	x3, x1
	mov	x0, x25
	mov	x1, x26
	bl	unix_path.compare.compare
	ldp	x10, x9, [x28]
	ldr	x8, [x28, #48]
	ldr	x11, [x27, #40]!
	cmp	x8, x9
	and	w9, w0, #0xff
	csel	w8, wzr, w23, lo
	csinc	w8, w8, wzr, ne
	cmp	x11, x10
	csel	w10, wzr, w23, lo
	csel	w8, w8, w10, eq
	cmp	w9, #1
	csel	w8, w8, w9, eq
	cbz	w8, .Lunix_path_BB28_458
.Lunix_path_BB28_460:
	mov	x25, x20
	cmp	x24, x20
	b.hs	.Lunix_path_BB28_484
	clz	x8, x25
	ldr	x0, [sp, #72]
	sub	x4, x29, #128
	lsl	w8, w8, #1
	mov	x1, xzr
	mov	x2, x25
	eor	w3, w8, #0x7e
	bl	core.slice.sort.unstable.quicksort.fd4dfef4a36ac24b.
.Lunix_path_BB28_462:
	ldp	x27, x28, [sp, #72]
	adrp	x14, .Lunix_path_CPI28_0
	b	.Lunix_path_BB28_19
.Lunix_path_BB28_463:
	ldr	x23, [sp, #112]
	ldr	x20, [sp, #128]
	mov	w28, #1
	mov	w19, #1
.Lunix_path_BB28_464:
	add	x8, sp, #136
	cmp	x28, #0
	mov	w25, wzr
	ldur	q0, [x8, #8]
	ccmp	x19, #0, #4, eq
	cset	w19, ne
	str	q0, [sp, #96]
	ldr	w8, [sp, #28]
	tbnz	w8, #0, .Lunix_path_BB28_466
.Lunix_path_BB28_465:
	mov	x0, x21
	bl	rattle_dealloc
.Lunix_path_BB28_466:
	ldr	w8, [sp, #24]
	tbnz	w8, #0, .Lunix_path_BB28_468
	ldr	x0, [sp, #40]
	bl	rattle_dealloc
.Lunix_path_BB28_468:
	ldr	x8, [sp, #32]
	ldr	q0, [sp, #96]
	strb	w25, [x8]
	str	x22, [x8, #8]
	str	q0, [x8, #16]
	stp	x23, x24, [x8, #32]
	stp	x20, x19, [x8, #48]
.Lunix_path_BB28_469:
	ldp	x20, x19, [sp, #432]
	ldp	x22, x21, [sp, #416]
	ldp	x24, x23, [sp, #400]
	ldp	x26, x25, [sp, #384]
	ldp	x28, x27, [sp, #368]
	ldp	x29, x30, [sp, #352]
	ldp	d9, d8, [sp, #336]
	ldp	d11, d10, [sp, #320]
	ldp	d13, d12, [sp, #304]
	ldp	d15, d14, [sp, #288]
	add	sp, sp, #448
	ret
.Lunix_path_BB28_470:
	ldr	x8, [sp, #192]
	cbz	x8, .Lunix_path_BB28_428
	ldr	x0, [sp, #176]
	b	.Lunix_path_BB28_427
.Lunix_path_BB28_472:
	ldur	x8, [x29, #-112]
	cbz	x8, .Lunix_path_BB28_474
	ldur	x0, [x29, #-128]
	bl	rattle_dealloc
.Lunix_path_BB28_474:
	ldr	x8, [sp]
	cbz	x8, .Lunix_path_BB28_476
	mov	x0, x27
	bl	rattle_dealloc
.Lunix_path_BB28_476:
	ldr	w8, [sp, #24]
	stp	xzr, xzr, [sp, #96]
	tbnz	w8, #0, .Lunix_path_BB28_478
	ldr	x0, [sp, #40]
	bl	rattle_dealloc
.Lunix_path_BB28_478:
	movi	v0.2d, #0000000000000000
	ldr	x9, [sp, #32]
	ldr	q1, [sp, #96]
	mov	w8, #1
	str	xzr, [x9, #8]
	strb	w8, [x9]
	stp	q1, q0, [x9, #16]
	str	q0, [x9, #48]
	b	.Lunix_path_BB28_469
.Lunix_path_BB28_479:
	mov	x22, xzr
.Lunix_path_BB28_480:
	sub	x21, x29, #80
.Lunix_path_BB28_481:
	cbz	x20, .Lunix_path_BB28_483
	ldr	x0, [sp, #40]
	bl	rattle_dealloc
.Lunix_path_BB28_483:
	ldr	x9, [sp, #32]
	sub	x8, x29, #80
	strb	wzr, [x9]
	stp	x8, xzr, [x9, #8]
	stp	xzr, x21, [x9, #24]
	stp	x22, x19, [x9, #40]
	b	.Lunix_path_BB28_430
.Lunix_path_BB28_484:
	ldr	w8, [sp, #64]
	cbz	w8, .Lunix_path_BB28_486
	ldp	x27, x28, [sp, #72]
	adrp	x14, .Lunix_path_CPI28_0
	ldr	x23, [sp]
	cbnz	x25, .Lunix_path_BB28_18
	b	.Lunix_path_BB28_487
.Lunix_path_BB28_486:
	lsr	x2, x25, #1
	mov	w9, #40
	ldr	x27, [sp, #72]
	sub	x8, x25, x2
	mov	x0, x27
	madd	x1, x8, x9, x27
	bl	core.slice.edits.mirror.24.path_archive.slot.Slot.
	ldr	x28, [sp, #80]
	ldr	x23, [sp]
	adrp	x14, .Lunix_path_CPI28_0
	cbnz	x25, .Lunix_path_BB28_18
.Lunix_path_BB28_487:
	mov	x28, xzr
	sub	x21, x29, #80
	mov	w20, #1
	cbnz	x23, .Lunix_path_BB28_214
	b	.Lunix_path_BB28_215
.Lunix_path_BB28_488:
	add	x0, sp, #112
	mov	w1, #18
	bl	std_alloc.vec.Vec.grow_amortized.f4a78633ca2a48c6.
	cbz	w0, .Lunix_path_BB28_439
	ldp	x8, x20, [sp, #120]
	b	.Lunix_path_BB28_451
.Lunix_path_func_end28:
	.size	upath_commands.archive.decide_records, .Lunix_path_func_end28-upath_commands.archive.decide_records
	.section	.rodata.cst16,"aM",@progbits,16
	.p2align	4, 0x0
.Lunix_path_CPI29_0:
	.byte	1
	.byte	2
	.byte	4
	.byte	8
	.byte	16
	.byte	32
	.byte	64
	.byte	128
	.byte	1
	.byte	2
	.byte	4
	.byte	8
	.byte	16
	.byte	32
	.byte	64
	.byte	128
	.section	.text.path_archive.records.record_at,"ax",@progbits
	.p2align	2
	.type	path_archive.records.record_at,@function
// path_archive::records::record_at
path_archive.records.record_at:
	sub	x10, x2, x3
	add	x8, x1, x3
	adrp	x9, .Lunix_path_CPI29_0
	cmp	x10, #15
	b.hi	.Lunix_path_BB29_3
	cmp	x2, x3
	b.ne	.Lunix_path_BB29_8
	mov	x12, xzr
	b	.Lunix_path_BB29_12
.Lunix_path_BB29_3:
	subs	x11, x10, #16
	b.eq	.Lunix_path_BB29_7
	mov	x12, xzr
.Lunix_path_BB29_5:
	ldr	q0, [x8, x12]
	ldr	q1, [x9, :lo12:.Lunix_path_CPI29_0]
	cmeq	v0.16b, v0.16b, #0
	and	v0.16b, v0.16b, v1.16b
	addp	v0.16b, v0.16b, v0.16b
	addp	v0.16b, v0.16b, v0.16b
	addp	v0.16b, v0.16b, v0.16b
	umov	w13, v0.h[0]
	orr	w13, w13, #0x10000
	rbit	w13, w13
	clz	w13, w13
	cmp	w13, #15
	b.ls	.Lunix_path_BB29_11
	add	x12, x12, #16
	cmp	x12, x11
	b.lo	.Lunix_path_BB29_5
.Lunix_path_BB29_7:
	ldr	q0, [x8, x11]
	ldr	q1, [x9, :lo12:.Lunix_path_CPI29_0]
	cmeq	v0.16b, v0.16b, #0
	and	v0.16b, v0.16b, v1.16b
	addp	v0.16b, v0.16b, v0.16b
	addp	v0.16b, v0.16b, v0.16b
	addp	v0.16b, v0.16b, v0.16b
	umov	w12, v0.h[0]
	orr	w12, w12, #0x10000
	rbit	w12, w12
	clz	w12, w12
	add	x12, x11, x12
	b	.Lunix_path_BB29_12
.Lunix_path_BB29_8:
	mov	x12, xzr
.Lunix_path_BB29_9:
	ldrb	w11, [x8, x12]
	cbz	w11, .Lunix_path_BB29_12
	add	x12, x12, #1
	cmp	x10, x12
	b.ne	.Lunix_path_BB29_9
	b	.Lunix_path_BB29_42
.Lunix_path_BB29_11:
	add	x12, x12, w13, uxtw
.Lunix_path_BB29_12:
	add	x13, x12, x3
	cmp	x12, x10
	csel	x11, x13, xzr, lo
	b.hs	.Lunix_path_BB29_42
	add	x10, x13, #1
	sub	x13, x2, x10
	add	x14, x1, x10
	cmp	x13, #15
	b.hi	.Lunix_path_BB29_16
	cmp	x2, x10
	b.ne	.Lunix_path_BB29_21
	mov	x17, xzr
	b	.Lunix_path_BB29_25
.Lunix_path_BB29_16:
	subs	x15, x13, #16
	b.eq	.Lunix_path_BB29_20
	mov	x16, xzr
.Lunix_path_BB29_18:
	ldr	q0, [x14, x16]
	ldr	q1, [x9, :lo12:.Lunix_path_CPI29_0]
	cmeq	v0.16b, v0.16b, #0
	and	v0.16b, v0.16b, v1.16b
	addp	v0.16b, v0.16b, v0.16b
	addp	v0.16b, v0.16b, v0.16b
	addp	v0.16b, v0.16b, v0.16b
	umov	w17, v0.h[0]
	orr	w17, w17, #0x10000
	rbit	w17, w17
	clz	w17, w17
	cmp	w17, #15
	b.ls	.Lunix_path_BB29_24
	add	x16, x16, #16
	cmp	x16, x15
	b.lo	.Lunix_path_BB29_18
.Lunix_path_BB29_20:
	ldr	q0, [x14, x15]
	ldr	q1, [x9, :lo12:.Lunix_path_CPI29_0]
	cmeq	v0.16b, v0.16b, #0
	and	v0.16b, v0.16b, v1.16b
	addp	v0.16b, v0.16b, v0.16b
	addp	v0.16b, v0.16b, v0.16b
	addp	v0.16b, v0.16b, v0.16b
	umov	w14, v0.h[0]
	orr	w14, w14, #0x10000
	rbit	w14, w14
	clz	w14, w14
	add	x17, x15, x14
	b	.Lunix_path_BB29_25
.Lunix_path_BB29_21:
	mov	x17, xzr
.Lunix_path_BB29_22:
	ldrb	w15, [x14, x17]
	cbz	w15, .Lunix_path_BB29_25
	add	x17, x17, #1
	cmp	x13, x17
	b.ne	.Lunix_path_BB29_22
	b	.Lunix_path_BB29_42
.Lunix_path_BB29_24:
	add	x17, x16, w17, uxtw
.Lunix_path_BB29_25:
	add	x14, x17, x10
	cmp	x17, x13
	csel	x13, x14, xzr, lo
	b.hs	.Lunix_path_BB29_42
	add	x14, x14, #1
	sub	x15, x2, x14
	add	x16, x1, x14
	cmp	x15, #15
	b.hi	.Lunix_path_BB29_29
	cmp	x2, x14
	b.ne	.Lunix_path_BB29_34
	mov	x9, xzr
	b	.Lunix_path_BB29_38
.Lunix_path_BB29_29:
	subs	x12, x15, #16
	b.eq	.Lunix_path_BB29_33
	mov	x17, xzr
	add	x18, x1, x14
.Lunix_path_BB29_31:
	ldr	q0, [x18, x17]
	ldr	q1, [x9, :lo12:.Lunix_path_CPI29_0]
	cmeq	v0.16b, v0.16b, #0
	and	v0.16b, v0.16b, v1.16b
	addp	v0.16b, v0.16b, v0.16b
	addp	v0.16b, v0.16b, v0.16b
	addp	v0.16b, v0.16b, v0.16b
	umov	w1, v0.h[0]
	orr	w1, w1, #0x10000
	rbit	w1, w1
	clz	w1, w1
	cmp	w1, #15
	b.ls	.Lunix_path_BB29_37
	add	x17, x17, #16
	cmp	x17, x12
	b.lo	.Lunix_path_BB29_31
.Lunix_path_BB29_33:
	ldr	q0, [x16, x12]
	ldr	q1, [x9, :lo12:.Lunix_path_CPI29_0]
	cmeq	v0.16b, v0.16b, #0
	and	v0.16b, v0.16b, v1.16b
	addp	v0.16b, v0.16b, v0.16b
	addp	v0.16b, v0.16b, v0.16b
	addp	v0.16b, v0.16b, v0.16b
	umov	w9, v0.h[0]
	orr	w9, w9, #0x10000
	rbit	w9, w9
	clz	w9, w9
	add	x9, x12, x9
	b	.Lunix_path_BB29_38
.Lunix_path_BB29_34:
	sub	x17, x2, x17
	mov	x9, xzr
	sub	x12, x17, x12
	sub	x12, x12, x3
	sub	x12, x12, #2
.Lunix_path_BB29_35:
	ldrb	w17, [x16, x9]
	cbz	w17, .Lunix_path_BB29_38
	add	x9, x9, #1
	cmp	x12, x9
	b.ne	.Lunix_path_BB29_35
	b	.Lunix_path_BB29_42
.Lunix_path_BB29_37:
	add	x9, x17, w1, uxtw
.Lunix_path_BB29_38:
	cmp	x9, x15
	b.hs	.Lunix_path_BB29_42
	sub	x11, x11, x3
	add	x9, x9, x14
	cmp	x11, #1
	b.ne	.Lunix_path_BB29_43
	ldrb	w8, [x8]
	sub	w8, w8, #100
	cmp	w8, #8
	b.hi	.Lunix_path_BB29_43
	and	x8, x8, #0xff
	adrp	x11, .Lunix_path_switch.table.path_archive.records.record_at
	add	x11, x11, :lo12:.Lunix_path_switch.table.path_archive.records.record_at
	ldr	x8, [x11, x8, lsl #3]
	mov	w11, #1
	stp	x10, x13, [x0, #16]
	stp	x11, x8, [x0]
	str	x9, [x0, #32]
	ret
.Lunix_path_BB29_42:
	movi	v0.2d, #0000000000000000
	str	xzr, [x0, #32]
	stp	q0, q0, [x0]
	ret
.Lunix_path_BB29_43:
	mov	w8, #4
	mov	w11, #1
	stp	x10, x13, [x0, #16]
	stp	x11, x8, [x0]
	str	x9, [x0, #32]
	ret
.Lunix_path_func_end29:
	.size	path_archive.records.record_at, .Lunix_path_func_end29-path_archive.records.record_at
	.section	.text.unlikely.std_alloc.vec.Vec.grow_amortized.0b81d3504bf27e25.,"ax",@progbits
	.p2align	2
	.type	std_alloc.vec.Vec.grow_amortized.0b81d3504bf27e25.,@function
// std_alloc::vec::Vec::grow_amortized::<#0b81d3504bf27e25>
std_alloc.vec.Vec.grow_amortized.0b81d3504bf27e25.:
	ldr	x8, [x0, #8]
	cmn	x8, #1
	b.eq	.Lunix_path_BB30_5
	stp	x29, x30, [sp, #-32]!
	ldr	x9, [x0, #16]
	cmp	x8, #3
	mov	w10, #3
	csel	x11, x8, x10, hi
	stp	x20, x19, [sp, #16]
	mov	x29, sp
	lsl	x10, x9, #1
	add	x12, x11, #1
	lsr	x13, x9, #62
	cmp	x12, x10
	csinc	x10, x10, x11, ls
	cmp	x13, #0
	csinc	x19, x10, x11, eq
	mov	x11, #3689348814741910323
	movk	x11, #819, lsl #48
	cmp	x19, x11
	b.hi	.Lunix_path_BB30_7
	cbz	x9, .Lunix_path_BB30_6
	add	x8, x8, x8, lsl #2
	add	x9, x19, x19, lsl #2
	mov	x20, x0
	ldr	x0, [x0]
	mov	w3, #8
	lsl	x1, x8, #3
	lsl	x2, x9, #3
	bl	rattle_realloc
	tbz	w0, #0, .Lunix_path_BB30_7
.Lunix_path_BB30_4:
	mov	w0, #1
	str	x1, [x20]
	str	x19, [x20, #16]
	ldp	x20, x19, [sp, #16]
	ldp	x29, x30, [sp], #32
	ret
.Lunix_path_BB30_5:
	mov	w0, wzr
	ret
.Lunix_path_BB30_6:
	add	x8, x10, x10, lsl #2
	mov	x20, x0
	mov	w1, #8
	lsl	x0, x8, #3
	bl	rattle_alloc
	tbnz	w0, #0, .Lunix_path_BB30_4
.Lunix_path_BB30_7:
	mov	w0, wzr
	ldp	x20, x19, [sp, #16]
	ldp	x29, x30, [sp], #32
	ret
.Lunix_path_func_end30:
	.size	std_alloc.vec.Vec.grow_amortized.0b81d3504bf27e25., .Lunix_path_func_end30-std_alloc.vec.Vec.grow_amortized.0b81d3504bf27e25.
	.section	.text.core.slice.sort.small.insertion_sort.fd4dfef4a36ac24b.,"ax",@progbits
	.p2align	2
	.type	core.slice.sort.small.insertion_sort.fd4dfef4a36ac24b.,@function
// core::slice::sort::small::insertion_sort::<#fd4dfef4a36ac24b>
core.slice.sort.small.insertion_sort.fd4dfef4a36ac24b.:
	sub	sp, sp, #160
	stp	x26, x25, [sp, #96]
	ldp	x25, x26, [x2]
	cmp	x1, #2
	stp	x29, x30, [sp, #64]
	add	x29, sp, #64
	stp	x28, x27, [sp, #80]
	stp	x24, x23, [sp, #112]
	stp	x22, x21, [sp, #128]
	stp	x20, x19, [sp, #144]
	str	x2, [sp]
	b.lo	.Lunix_path_BB31_11
	mov	x27, x1
	mov	x28, x0
	sub	x8, x0, #40
	mov	w9, #1
	stur	x8, [x29, #-8]
	stp	x0, x1, [sp, #8]
	b	.Lunix_path_BB31_5
.Lunix_path_BB31_2:
	mov	x8, xzr
.Lunix_path_BB31_3:
	add	x8, x28, x8
	stp	x10, x11, [x8]
	stp	x20, x19, [x8, #16]
	str	x12, [x8, #32]
.Lunix_path_BB31_4:
	ldur	x8, [x29, #-8]
	add	x9, x9, #1
	cmp	x9, x27
	add	x8, x8, #40
	stur	x8, [x29, #-8]
	b.eq	.Lunix_path_BB31_11
.Lunix_path_BB31_5:
	mov	w8, #40
	stur	x9, [x29, #-16]
	madd	x24, x9, x8, x28
	ldp	x9, x8, [x24]
	cmp	x26, x8
	csel	x8, x26, x8, lo
	cmp	x8, x9
	csel	x9, x8, x9, lo
	sub	x1, x8, x9
	add	x0, x25, x9
	bl	path_archive.slot.without_dot
	ldur	x8, [x24, #-32]
	mov	x21, x24
	mov	x22, x0
	ldr	x9, [x21, #-40]!
	mov	x23, x1
	cmp	x26, x8
	csel	x8, x26, x8, lo
	cmp	x8, x9
	csel	x9, x8, x9, lo
	sub	x1, x8, x9
	add	x0, x25, x9
	bl	path_archive.slot.without_dot
	mov	x2, x0
	mov	x3, x1
	mov	x0, x22
	mov	x1, x23
	bl	unix_path.compare.compare
	ldp	x9, x8, [x24, #-24]
	ldp	x20, x19, [x24, #16]
	cmp	x19, x8
	mov	w8, #2
	csel	w10, wzr, w8, lo
	csinc	w10, w10, wzr, ne
	cmp	x20, x9
	and	w9, w0, #0xff
	csel	w8, wzr, w8, lo
	csel	w8, w10, w8, eq
	cmp	w9, #1
	csel	w8, w8, w9, eq
	ldur	x9, [x29, #-16]
	cbnz	w8, .Lunix_path_BB31_4
	ldp	q0, q1, [x21]
	ldr	x8, [x21, #32]
	ldp	x10, x11, [x24]
	sub	x21, x9, #1
	ldr	x12, [x24, #32]
	str	x8, [x24, #32]
	stp	q0, q1, [x24]
	cbz	x21, .Lunix_path_BB31_2
	cmp	x26, x11
	ldur	x28, [x29, #-8]
	stp	x12, x11, [sp, #24]
	csel	x8, x26, x11, lo
	stur	x10, [x29, #-24]
	cmp	x8, x10
	csel	x27, x8, x10, lo
	sub	x22, x8, x27
.Lunix_path_BB31_8:
	add	x0, x25, x27
	mov	x1, x22
	bl	path_archive.slot.without_dot
	ldp	x9, x8, [x28]
	mov	x23, x0
	mov	x24, x1
	cmp	x26, x8
	csel	x8, x26, x8, lo
	cmp	x8, x9
	csel	x9, x8, x9, lo
	sub	x1, x8, x9
	add	x0, x25, x9
	bl	path_archive.slot.without_dot
	mov	x2, x0
	mov	x3, x1
	mov	x0, x23
	mov	x1, x24
	bl	unix_path.compare.compare
	ldp	x9, x8, [x28, #16]
	cmp	x19, x8
	mov	w8, #2
	csel	w10, wzr, w8, lo
	csinc	w10, w10, wzr, ne
	cmp	x20, x9
	and	w9, w0, #0xff
	csel	w8, wzr, w8, lo
	csel	w8, w10, w8, eq
	cmp	w9, #1
	csel	w8, w8, w9, eq
	cbnz	w8, .Lunix_path_BB31_10
	ldp	q0, q1, [x28]
	sub	x21, x21, #1
	ldr	x8, [x28, #32]
	stur	q0, [x28, #40]
	stur	q1, [x28, #56]
	str	x8, [x28, #72]
	sub	x28, x28, #40
	cbnz	x21, .Lunix_path_BB31_8
.Lunix_path_BB31_10:
	add	x8, x21, x21, lsl #2
	ldp	x28, x27, [sp, #8]
	ldp	x10, x9, [x29, #-24]
	ldp	x12, x11, [sp, #24]
	lsl	x8, x8, #3
	b	.Lunix_path_BB31_3
.Lunix_path_BB31_11:
	ldr	x8, [sp]
	ldp	x20, x19, [sp, #144]
	ldp	x22, x21, [sp, #128]
	stp	x25, x26, [x8]
	ldp	x24, x23, [sp, #112]
	ldp	x26, x25, [sp, #96]
	ldp	x28, x27, [sp, #80]
	ldp	x29, x30, [sp, #64]
	add	sp, sp, #160
	ret
.Lunix_path_func_end31:
	.size	core.slice.sort.small.insertion_sort.fd4dfef4a36ac24b., .Lunix_path_func_end31-core.slice.sort.small.insertion_sort.fd4dfef4a36ac24b.
	.section	.text.path_archive.slot.without_dot,"ax",@progbits
	.p2align	2
	.type	path_archive.slot.without_dot,@function
// path_archive::slot::without_dot
path_archive.slot.without_dot:
	sub	sp, sp, #80
	stp	x20, x19, [sp, #64]
	mov	x20, x1
	mov	x19, x0
	stp	x29, x30, [sp, #32]
	add	x29, sp, #32
	str	x21, [sp, #48]
	cbz	x1, .Lunix_path_BB32_33
	mov	x8, x20
	b	.Lunix_path_BB32_3
.Lunix_path_BB32_2:
	mov	x8, x1
	cbz	x1, .Lunix_path_BB32_33
.Lunix_path_BB32_3:
	subs	x1, x8, #1
	b.eq	.Lunix_path_BB32_9
	add	x9, x19, x1
	ldrb	w10, [x9]
	cmp	w10, #47
	b.eq	.Lunix_path_BB32_7
	cmp	w10, #46
	b.ne	.Lunix_path_BB32_9
	ldurb	w9, [x9, #-1]
	cmp	w9, #47
	b.ne	.Lunix_path_BB32_9
.Lunix_path_BB32_7:
	sub	x8, x20, x1
	cmp	x8, #8
	b.ne	.Lunix_path_BB32_2
	mov	x0, x19
	bl	unix_path.filler.trimmed_blocks_len
	mov	x1, x0
	b	.Lunix_path_BB32_2
.Lunix_path_BB32_9:
	ldrb	w10, [x19]
	stp	xzr, xzr, [sp, #8]
	str	xzr, [sp, #24]
	cmp	w10, #46
	b.ne	.Lunix_path_BB32_14
	subs	x21, x8, #1
	b.eq	.Lunix_path_BB32_13
	ldrb	w9, [x19, #1]
	cmp	w9, #47
	b.eq	.Lunix_path_BB32_13
	ldrb	w9, [x19]
	cmp	w9, #47
	b.ne	.Lunix_path_BB32_37
.Lunix_path_BB32_13:
	add	x19, x19, #1
	b	.Lunix_path_BB32_23
.Lunix_path_BB32_14:
	mov	x9, xzr
	mov	w11, #47
	cmp	xzr, x8
	b.hs	.Lunix_path_BB32_16
.Lunix_path_BB32_15:
	ldrb	w12, [x19, x9]
	cmp	w12, #47
	b.ne	.Lunix_path_BB32_18
.Lunix_path_BB32_16:
	cmp	wzr, w11
	b.ne	.Lunix_path_BB32_19
.Lunix_path_BB32_17:
	cmp	w10, #46
	b.ne	.Lunix_path_BB32_33
	b	.Lunix_path_BB32_21
.Lunix_path_BB32_18:
	add	w12, w12, #1
	cmp	w12, w11
	b.eq	.Lunix_path_BB32_17
.Lunix_path_BB32_19:
	cmp	w10, #46
	b.ne	.Lunix_path_BB32_33
	add	x10, x19, x9
	ldurb	w10, [x10, #-1]
	cmp	w10, #47
	b.ne	.Lunix_path_BB32_34
.Lunix_path_BB32_21:
	sub	x2, x8, x9
	mov	w8, #1
	adrp	x10, .Lunix_path_static.53
	add	x10, x10, :lo12:.Lunix_path_static.53
	sub	x4, x8, x9
	add	x0, sp, #8
	add	x1, x19, x9
	add	x3, x10, x9
	bl	unix_path.pair.Comparison.rest_after_cut
	ldrb	w8, [sp, #8]
	cmp	w8, #1
	b.ne	.Lunix_path_BB32_33
	ldp	x19, x21, [sp, #16]
.Lunix_path_BB32_23:
	mov	x2, xzr
	b	.Lunix_path_BB32_25
.Lunix_path_BB32_24:
	mov	w8, #1
	add	x2, x8, x2
	cmp	x2, #4
	b.hs	.Lunix_path_BB32_31
.Lunix_path_BB32_25:
	cmp	x2, x21
	b.hs	.Lunix_path_BB32_32
	ldrb	w8, [x19, x2]
	cmp	w8, #47
	b.eq	.Lunix_path_BB32_24
	cmp	w8, #46
	b.ne	.Lunix_path_BB32_32
	add	x8, x2, #1
	cmp	x8, x21
	b.eq	.Lunix_path_BB32_24
	ldrb	w8, [x19, x8]
	cmp	w8, #47
	b.ne	.Lunix_path_BB32_32
	mov	w8, #2
	add	x2, x8, x2
	cmp	x2, #4
	b.lo	.Lunix_path_BB32_25
.Lunix_path_BB32_31:
	mov	x0, x19
	mov	x1, x21
	bl	unix_path.filler.filler_end_from
	mov	x2, x0
.Lunix_path_BB32_32:
	add	x19, x19, x2
	sub	x20, x21, x2
.Lunix_path_BB32_33:
	mov	x0, x19
	mov	x1, x20
	ldr	x21, [sp, #48]
	ldp	x20, x19, [sp, #64]
	ldp	x29, x30, [sp, #32]
	add	sp, sp, #80
	ret
.Lunix_path_BB32_34:
	subs	x9, x9, #1
	b.eq	.Lunix_path_BB32_33
	cmp	w10, #46
	b.ne	.Lunix_path_BB32_33
	add	x10, x19, x9
	ldurb	w10, [x10, #-1]
	cmp	w10, #47
	b.eq	.Lunix_path_BB32_21
	b	.Lunix_path_BB32_33
.Lunix_path_BB32_37:
	mov	w11, wzr
	mov	w9, #1
	cmp	x9, x8
	b.lo	.Lunix_path_BB32_15
	b	.Lunix_path_BB32_16
.Lunix_path_func_end32:
	.size	path_archive.slot.without_dot, .Lunix_path_func_end32-path_archive.slot.without_dot
	.section	.rodata.cst16,"aM",@progbits,16
	.p2align	4, 0x0
.Lunix_path_CPI33_0:
	.byte	1
	.byte	2
	.byte	4
	.byte	8
	.byte	16
	.byte	32
	.byte	64
	.byte	128
	.byte	1
	.byte	2
	.byte	4
	.byte	8
	.byte	16
	.byte	32
	.byte	64
	.byte	128
	.section	.text.unix_path.filler.trimmed_blocks_len,"ax",@progbits
	.p2align	2
	.type	unix_path.filler.trimmed_blocks_len,@function
// unix_path::filler::trimmed_blocks_len
unix_path.filler.trimmed_blocks_len:
.Lunix_path_BB33_1:
	mov	x8, x1
	cmp	x1, #17
	b.lo	.Lunix_path_BB33_3
	movi	v0.16b, #46
	add	x9, x0, x8
	movi	v2.16b, #47
	ldur	q1, [x9, #-16]
	ldur	q3, [x9, #-17]
	adrp	x9, .Lunix_path_CPI33_0
	sub	x1, x8, #16
	cmeq	v0.16b, v1.16b, v0.16b
	cmeq	v3.16b, v3.16b, v2.16b
	cmeq	v1.16b, v1.16b, v2.16b
	mvn	v0.16b, v0.16b
	orn	v0.16b, v0.16b, v3.16b
	bic	v0.16b, v0.16b, v1.16b
	ldr	q1, [x9, :lo12:.Lunix_path_CPI33_0]
	and	v0.16b, v0.16b, v1.16b
	addp	v0.16b, v0.16b, v0.16b
	addp	v0.16b, v0.16b, v0.16b
	addp	v0.16b, v0.16b, v0.16b
	umov	w9, v0.h[0]
	cbz	w9, .Lunix_path_BB33_1
.Lunix_path_BB33_3:
	mov	x0, x8
	ret
.Lunix_path_func_end33:
	.size	unix_path.filler.trimmed_blocks_len, .Lunix_path_func_end33-unix_path.filler.trimmed_blocks_len
	.section	.rodata.cst16,"aM",@progbits,16
	.p2align	4, 0x0
.Lunix_path_CPI34_0:
	.byte	1
	.byte	2
	.byte	4
	.byte	8
	.byte	16
	.byte	32
	.byte	64
	.byte	128
	.byte	1
	.byte	2
	.byte	4
	.byte	8
	.byte	16
	.byte	32
	.byte	64
	.byte	128
	.section	.rodata.cst8,"aM",@progbits,8
	.p2align	3, 0x0
.Lunix_path_CPI34_1:
	.byte	1
	.byte	2
	.byte	4
	.byte	8
	.byte	16
	.byte	32
	.byte	64
	.byte	128
	.section	.text.unix_path.pair.Comparison.rest_after_cut,"ax",@progbits
	.p2align	2
	.type	unix_path.pair.Comparison.rest_after_cut,@function
// unix_path::pair::Comparison::rest_after_cut
unix_path.pair.Comparison.rest_after_cut:
	stp	x29, x30, [sp, #-64]!
	str	x23, [sp, #16]
	mov	x23, x1
	mov	x29, sp
	stp	x22, x21, [sp, #32]
	mov	x21, x4
	mov	x22, x2
	stp	x20, x19, [sp, #48]
	mov	x20, x3
	mov	x19, x0
	b	.Lunix_path_BB34_3
.Lunix_path_BB34_1:
	cbz	x10, .Lunix_path_BB34_57
.Lunix_path_BB34_2:
	add	x23, x23, x10
	sub	x22, x22, x10
	add	x20, x9, x10
	sub	x21, x8, x10
.Lunix_path_BB34_3:
	mov	x8, xzr
	b	.Lunix_path_BB34_5
.Lunix_path_BB34_4:
	mov	w9, #1
	add	x8, x9, x8
	cmp	x8, #4
	b.hs	.Lunix_path_BB34_11
.Lunix_path_BB34_5:
	cmp	x8, x22
	b.hs	.Lunix_path_BB34_12
	ldrb	w9, [x23, x8]
	cmp	w9, #47
	b.eq	.Lunix_path_BB34_4
	cmp	w9, #46
	b.ne	.Lunix_path_BB34_12
	add	x9, x8, #1
	cmp	x9, x22
	b.eq	.Lunix_path_BB34_4
	ldrb	w9, [x23, x9]
	cmp	w9, #47
	b.ne	.Lunix_path_BB34_12
	mov	w9, #2
	add	x8, x9, x8
	cmp	x8, #4
	b.lo	.Lunix_path_BB34_5
.Lunix_path_BB34_11:
	mov	x0, x23
	mov	x1, x22
	mov	x2, x8
	bl	unix_path.filler.filler_end_from
	mov	x8, x0
.Lunix_path_BB34_12:
	mov	x2, xzr
	add	x23, x23, x8
	sub	x22, x22, x8
	b	.Lunix_path_BB34_14
.Lunix_path_BB34_13:
	mov	w8, #1
	add	x2, x8, x2
	cmp	x2, #4
	b.hs	.Lunix_path_BB34_20
.Lunix_path_BB34_14:
	cmp	x2, x21
	b.hs	.Lunix_path_BB34_21
	ldrb	w8, [x20, x2]
	cmp	w8, #47
	b.eq	.Lunix_path_BB34_13
	cmp	w8, #46
	b.ne	.Lunix_path_BB34_21
	add	x8, x2, #1
	cmp	x8, x21
	b.eq	.Lunix_path_BB34_13
	ldrb	w8, [x20, x8]
	cmp	w8, #47
	b.ne	.Lunix_path_BB34_21
	mov	w8, #2
	add	x2, x8, x2
	cmp	x2, #4
	b.lo	.Lunix_path_BB34_14
.Lunix_path_BB34_20:
	mov	x0, x20
	mov	x1, x21
	bl	unix_path.filler.filler_end_from
	mov	x2, x0
.Lunix_path_BB34_21:
	subs	x8, x21, x2
	b.eq	.Lunix_path_BB34_58
	cmp	x8, x22
	add	x9, x20, x2
	csel	x11, x8, x22, lo
	cmp	x11, #15
	b.hi	.Lunix_path_BB34_28
	cmp	x11, #7
	b.hi	.Lunix_path_BB34_34
	mov	x10, xzr
	cbz	x22, .Lunix_path_BB34_41
.Lunix_path_BB34_25:
	ldrb	w12, [x23, x10]
	ldrb	w13, [x9, x10]
	cmp	w12, w13
	b.ne	.Lunix_path_BB34_41
	add	x10, x10, #1
	cmp	x11, x10
	b.ne	.Lunix_path_BB34_25
	mov	x10, x11
	cmp	x11, x22
	b.lo	.Lunix_path_BB34_42
	b	.Lunix_path_BB34_43
.Lunix_path_BB34_28:
	ldr	q0, [x23]
	ldr	q1, [x9]
	adrp	x10, .Lunix_path_CPI34_0
	cmeq	v1.16b, v0.16b, v1.16b
	ldr	q0, [x10, :lo12:.Lunix_path_CPI34_0]
	bic	v1.16b, v0.16b, v1.16b
	addp	v1.16b, v1.16b, v1.16b
	addp	v1.16b, v1.16b, v1.16b
	addp	v1.16b, v1.16b, v1.16b
	umov	w10, v1.h[0]
	orr	w10, w10, #0x10000
	rbit	w10, w10
	clz	w10, w10
	cmp	w10, #16
	b.lo	.Lunix_path_BB34_41
	cmp	x11, #64
	b.lo	.Lunix_path_BB34_36
	mov	x10, xzr
	mov	x12, x11
.Lunix_path_BB34_31:
	add	x13, x23, x10
	add	x14, x9, x10
	ldp	q1, q2, [x13]
	ldp	q3, q4, [x13, #32]
	ldp	q5, q6, [x14]
	ldp	q7, q16, [x14, #32]
	cmeq	v1.16b, v1.16b, v5.16b
	cmeq	v2.16b, v2.16b, v6.16b
	cmeq	v4.16b, v4.16b, v16.16b
	cmeq	v3.16b, v3.16b, v7.16b
	bic	v1.16b, v0.16b, v1.16b
	bic	v2.16b, v0.16b, v2.16b
	bic	v3.16b, v0.16b, v3.16b
	bic	v4.16b, v0.16b, v4.16b
	addp	v1.16b, v1.16b, v2.16b
	addp	v2.16b, v3.16b, v4.16b
	addp	v1.16b, v1.16b, v2.16b
	addp	v1.16b, v1.16b, v1.16b
	fmov	x13, d1
	cbnz	x13, .Lunix_path_BB34_37
	sub	x12, x12, #64
	add	x10, x10, #64
	cmp	x12, #63
	b.hi	.Lunix_path_BB34_31
	and	x10, x11, #0xffffffffffffffc0
	sub	x11, x11, #16
	cmp	x10, x11
	b.lo	.Lunix_path_BB34_38
	b	.Lunix_path_BB34_40
.Lunix_path_BB34_34:
	ldr	d0, [x23]
	ldr	d1, [x9]
	adrp	x10, .Lunix_path_CPI34_1
	cmeq	v1.8b, v0.8b, v1.8b
	ldr	d0, [x10, :lo12:.Lunix_path_CPI34_1]
	bic	v1.8b, v0.8b, v1.8b
	addv	b1, v1.8b
	fmov	w10, s1
	orr	w10, w10, #0x100
	rbit	w10, w10
	clz	w10, w10
	cmp	w10, #8
	b.lo	.Lunix_path_BB34_41
	sub	x10, x11, #8
	ldr	d1, [x23, x10]
	ldr	d2, [x9, x10]
	cmeq	v1.8b, v1.8b, v2.8b
	bic	v0.8b, v0.8b, v1.8b
	addv	b0, v0.8b
	fmov	w11, s0
	orr	w11, w11, #0x100
	rbit	w11, w11
	clz	w11, w11
	add	x10, x10, x11
	cmp	x10, x22
	b.lo	.Lunix_path_BB34_42
	b	.Lunix_path_BB34_43
.Lunix_path_BB34_36:
	mov	x10, xzr
.Lunix_path_BB34_37:
	sub	x11, x11, #16
	cmp	x10, x11
	b.hs	.Lunix_path_BB34_40
.Lunix_path_BB34_38:
	ldr	q1, [x23, x10]
	ldr	q2, [x9, x10]
	cmeq	v1.16b, v1.16b, v2.16b
	bic	v1.16b, v0.16b, v1.16b
	addp	v1.16b, v1.16b, v1.16b
	addp	v1.16b, v1.16b, v1.16b
	addp	v1.16b, v1.16b, v1.16b
	umov	w12, v1.h[0]
	orr	w12, w12, #0x10000
	rbit	w12, w12
	clz	w12, w12
	cmp	w12, #15
	b.ls	.Lunix_path_BB34_56
	add	x10, x10, #16
	cmp	x10, x11
	b.lo	.Lunix_path_BB34_38
.Lunix_path_BB34_40:
	ldr	q1, [x23, x11]
	ldr	q2, [x9, x11]
	cmeq	v1.16b, v1.16b, v2.16b
	bic	v0.16b, v0.16b, v1.16b
	addp	v0.16b, v0.16b, v0.16b
	addp	v0.16b, v0.16b, v0.16b
	addp	v0.16b, v0.16b, v0.16b
	umov	w10, v0.h[0]
	orr	w10, w10, #0x10000
	rbit	w10, w10
	clz	w10, w10
	add	x10, x11, x10
.Lunix_path_BB34_41:
	cmp	x10, x22
	b.hs	.Lunix_path_BB34_43
.Lunix_path_BB34_42:
	ldrb	w11, [x23, x10]
	cmp	w11, #47
	b.ne	.Lunix_path_BB34_44
.Lunix_path_BB34_43:
	mov	w11, wzr
	cmp	x10, x8
	b.hs	.Lunix_path_BB34_49
	b	.Lunix_path_BB34_48
.Lunix_path_BB34_44:
	cmp	x10, x8
	b.hs	.Lunix_path_BB34_47
	cmp	w11, #46
	b.eq	.Lunix_path_BB34_47
	ldrb	w12, [x9, x10]
	and	w12, w12, #0xfe
	cmp	w12, #46
	b.ne	.Lunix_path_BB34_57
.Lunix_path_BB34_47:
	add	w11, w11, #1
	cmp	x10, x8
	b.hs	.Lunix_path_BB34_49
.Lunix_path_BB34_48:
	ldrb	w12, [x9, x10]
	cmp	w12, #47
	b.ne	.Lunix_path_BB34_50
.Lunix_path_BB34_49:
	cmp	w11, wzr
	b.eq	.Lunix_path_BB34_1
	b	.Lunix_path_BB34_51
.Lunix_path_BB34_50:
	add	w12, w12, #1
	cmp	w11, w12
	b.eq	.Lunix_path_BB34_1
.Lunix_path_BB34_51:
	cbz	x10, .Lunix_path_BB34_57
	add	x11, x23, x10
	ldurb	w11, [x11, #-1]
	cmp	w11, #47
	b.eq	.Lunix_path_BB34_2
	cmp	w11, #46
	mov	x11, xzr
	b.ne	.Lunix_path_BB34_60
	sub	x10, x10, #1
	mov	x12, x11
	mov	x13, x11
	cbz	x10, .Lunix_path_BB34_59
	add	x11, x23, x10
	ldurb	w11, [x11, #-1]
	cmp	w11, #47
	b.eq	.Lunix_path_BB34_2
	b	.Lunix_path_BB34_57
.Lunix_path_BB34_56:
	add	x10, x10, w12, uxtw
	cmp	x10, x22
	b.lo	.Lunix_path_BB34_42
	b	.Lunix_path_BB34_43
.Lunix_path_BB34_57:
	mov	x11, xzr
	mov	x12, xzr
	mov	x13, xzr
	b	.Lunix_path_BB34_59
.Lunix_path_BB34_58:
	mov	w11, #1
	mov	x12, x23
	mov	x13, x22
.Lunix_path_BB34_59:
	stp	x11, x12, [x19]
	ldp	x22, x21, [sp, #32]
	str	x13, [x19, #16]
	ldr	x23, [sp, #16]
	ldp	x20, x19, [sp, #48]
	ldp	x29, x30, [sp], #64
	ret
.Lunix_path_BB34_60:
	mov	x12, x11
	mov	x13, x11
	b	.Lunix_path_BB34_59
.Lunix_path_func_end34:
	.size	unix_path.pair.Comparison.rest_after_cut, .Lunix_path_func_end34-unix_path.pair.Comparison.rest_after_cut
	.section	.text.core.slice.sort.unstable.quicksort.fd4dfef4a36ac24b.,"ax",@progbits
	.p2align	2
	.type	core.slice.sort.unstable.quicksort.fd4dfef4a36ac24b.,@function
// core::slice::sort::unstable::quicksort::<#fd4dfef4a36ac24b>
core.slice.sort.unstable.quicksort.fd4dfef4a36ac24b.:
	sub	sp, sp, #400
	stp	x24, x23, [sp, #352]
	sub	x24, x2, x1
	mov	x23, x4
	stp	x22, x21, [sp, #368]
	mov	x22, x1
	cmp	x24, #17
	stp	x20, x19, [sp, #384]
	mov	x20, x0
	stp	x29, x30, [sp, #304]
	add	x29, sp, #304
	stp	x28, x27, [sp, #320]
	stp	x26, x25, [sp, #336]
	str	x2, [sp, #72]
	b.lo	.Lunix_path_BB35_38
	add	x8, x20, #64
	mov	w19, w3
	str	x20, [sp, #104]
	stp	x8, x23, [sp, #56]
	add	x8, x20, #80
	str	x8, [sp]
	b	.Lunix_path_BB35_4
.Lunix_path_BB35_2:
	add	x9, x8, x8, lsl #2
	lsl	x9, x9, #3
	add	x10, x12, x9
	ldp	q1, q0, [x10]
	ldr	x11, [x10, #32]
	str	x11, [x12, #32]
	stp	q1, q0, [x12]
.Lunix_path_BB35_3:
	ldr	x10, [sp, #88]
	add	x9, x12, x9
	ldr	w19, [sp, #116]
	mov	x4, x23
	str	x10, [x9]
	ldr	x10, [sp, #96]
	mov	w3, w19
	stp	x10, x13, [x9, #8]
	ldr	x10, [sp, #80]
	stp	x24, x10, [x9, #24]
	stp	x22, x20, [x23]
	ldr	x22, [sp, #120]
	ldr	x20, [sp, #104]
	add	x2, x8, x22
	mov	x0, x20
	mov	x1, x22
	bl	core.slice.sort.unstable.quicksort.fd4dfef4a36ac24b.
	ldr	x8, [sp, #72]
	add	x22, x28, x22
	sub	x24, x8, x22
	cmp	x24, #16
	b.ls	.Lunix_path_BB35_38
.Lunix_path_BB35_4:
	cbz	w19, .Lunix_path_BB35_39
	lsr	x4, x24, #3
	mov	x0, x20
	mov	x1, x22
	cmp	x24, #63
	sub	x8, x22, x4
	add	x2, x22, x4, lsl #2
	add	x3, x8, x4, lsl #3
	b.hi	.Lunix_path_BB35_14
	mov	x4, x23
	bl	core.slice.sort.pivot.median_of_three.fd4dfef4a36ac24b.
	mov	x25, x0
	sub	w19, w19, #1
	str	x22, [sp, #120]
	str	w19, [sp, #116]
	str	x24, [sp, #152]
	cbz	x22, .Lunix_path_BB35_15
.Lunix_path_BB35_7:
	add	x8, x22, x22, lsl #2
	ldp	x21, x19, [x23]
	mov	w9, #40
	lsl	x8, x8, #3
	add	x28, x20, x8
	str	x8, [sp, #128]
	madd	x20, x25, x9, x20
	ldp	x10, x8, [x28, #-40]
	cmp	x19, x8
	csel	x8, x19, x8, lo
	cmp	x8, x10
	csel	x9, x8, x10, lo
	sub	x1, x8, x9
	add	x0, x21, x9
	bl	path_archive.slot.without_dot
	ldp	x9, x8, [x20]
	mov	x26, x0
	mov	x27, x1
	cmp	x19, x8
	csel	x8, x19, x8, lo
	cmp	x8, x9
	csel	x9, x8, x9, lo
	sub	x1, x8, x9
	add	x0, x21, x9
	bl	path_archive.slot.without_dot
	mov	x2, x0
	mov	x3, x1
	mov	x0, x26
	mov	x1, x27
	mov	x19, x28
	bl	unix_path.compare.compare
	ldp	x11, x8, [x20, #16]
	ldp	x10, x9, [x28, #-24]
	cmp	x9, x8
	mov	w8, #2
	csel	w9, wzr, w8, lo
	csinc	w9, w9, wzr, ne
	cmp	x10, x11
	and	w10, w0, #0xff
	csel	w8, wzr, w8, lo
	csel	w8, w9, w8, eq
	cmp	w10, #1
	csel	w8, w8, w10, eq
	cbz	w8, .Lunix_path_BB35_26
	subs	x8, x25, x22
	b.eq	.Lunix_path_BB35_10
	mov	w9, #40
	ldp	q2, q3, [x19]
	madd	x8, x8, x9, x19
	ldr	x10, [x19, #32]
	ldp	q0, q1, [x8]
	ldr	x9, [x8, #32]
	str	x9, [x19, #32]
	stp	q0, q1, [x19]
	str	x10, [x8, #32]
	stp	q2, q3, [x8]
.Lunix_path_BB35_10:
	ldp	x22, x20, [x23]
	mov	w28, #1
	ldp	x9, x8, [x19]
	ldr	x10, [x19, #32]
	ldp	x11, x21, [x19, #16]
	str	x19, [sp, #144]
	str	x10, [sp, #80]
	cmp	x20, x8
	stp	x9, x8, [sp, #88]
	csel	x8, x20, x8, lo
	cmp	x8, x9
	csel	x25, x8, x9, lo
	ldr	x9, [sp, #128]
	sub	x23, x8, x25
	ldr	x8, [sp, #56]
	add	x19, x8, x9
.Lunix_path_BB35_11:
	add	x0, x22, x25
	mov	x1, x23
	mov	x24, x25
	mov	x25, x23
	mov	x23, x21
	mov	x21, x11
	bl	path_archive.slot.without_dot
	ldp	x9, x8, [x19, #-24]
	mov	x26, x0
	mov	x27, x1
	cmp	x20, x8
	csel	x8, x20, x8, lo
	cmp	x8, x9
	csel	x9, x8, x9, lo
	sub	x1, x8, x9
	add	x0, x22, x9
	bl	path_archive.slot.without_dot
	mov	x2, x0
	mov	x3, x1
	mov	x0, x26
	mov	x1, x27
	bl	unix_path.compare.compare
	ldp	x9, x8, [x19, #-8]
	mov	x11, x21
	mov	x21, x23
	cmp	x23, x8
	mov	w8, #2
	csel	w10, wzr, w8, lo
	csinc	w10, w10, wzr, ne
	cmp	x11, x9
	and	w9, w0, #0xff
	csel	w8, wzr, w8, lo
	csel	w8, w10, w8, eq
	cmp	w9, #1
	csel	w8, w8, w9, eq
	cbz	w8, .Lunix_path_BB35_27
	ldr	x8, [sp, #152]
	add	x28, x28, #1
	add	x19, x19, #40
	mov	x23, x25
	mov	x25, x24
	cmp	x8, x28
	b.ne	.Lunix_path_BB35_11
	ldp	x26, x10, [sp, #144]
	mov	x28, x10
	sub	x16, x10, #1
	cmp	x10, x16
	b.lo	.Lunix_path_BB35_28
	b	.Lunix_path_BB35_32
.Lunix_path_BB35_14:
	mov	x5, x23
	bl	core.slice.sort.pivot.median_of_medians.fd4dfef4a36ac24b.
	mov	x25, x0
	sub	w19, w19, #1
	str	x22, [sp, #120]
	str	w19, [sp, #116]
	str	x24, [sp, #152]
	cbnz	x22, .Lunix_path_BB35_7
.Lunix_path_BB35_15:
	mov	x11, xzr
	subs	x8, x25, x22
	add	x12, x20, xzr
	b.eq	.Lunix_path_BB35_17
.Lunix_path_BB35_16:
	mov	w9, #40
	ldp	q2, q3, [x12]
	madd	x8, x8, x9, x12
	ldr	x10, [x12, #32]
	ldp	q0, q1, [x8]
	ldr	x9, [x8, #32]
	str	x9, [x12, #32]
	stp	q0, q1, [x12]
	str	x10, [x8, #32]
	stp	q2, q3, [x8]
.Lunix_path_BB35_17:
	ldp	x22, x20, [x23]
	mov	w28, #1
	ldp	x9, x8, [x12]
	ldr	x10, [x12, #32]
	ldp	x13, x24, [x12, #16]
	str	x12, [sp, #144]
	str	x10, [sp, #80]
	cmp	x20, x8
	stp	x9, x8, [sp, #88]
	csel	x8, x20, x8, lo
	str	x11, [sp, #128]
	cmp	x8, x9
	csel	x23, x8, x9, lo
	sub	x25, x8, x23
	ldr	x8, [sp, #56]
	add	x19, x8, x11
.Lunix_path_BB35_18:
	ldp	x9, x8, [x19, #-24]
	mov	x21, x13
	cmp	x20, x8
	csel	x8, x20, x8, lo
	cmp	x8, x9
	csel	x9, x8, x9, lo
	sub	x1, x8, x9
	add	x0, x22, x9
	bl	path_archive.slot.without_dot
	mov	x26, x0
	mov	x27, x1
	add	x0, x22, x23
	mov	x1, x25
	bl	path_archive.slot.without_dot
	mov	x2, x0
	mov	x3, x1
	mov	x0, x26
	mov	x1, x27
	bl	unix_path.compare.compare
	ldp	x9, x8, [x19, #-8]
	mov	x13, x21
	cmp	x8, x24
	mov	w8, #2
	csel	w10, wzr, w8, lo
	csinc	w10, w10, wzr, ne
	cmp	x9, x21
	and	w9, w0, #0xff
	csel	w8, wzr, w8, lo
	csel	w8, w10, w8, eq
	cmp	w9, #1
	csel	w8, w8, w9, eq
	cbnz	w8, .Lunix_path_BB35_22
	ldr	x8, [sp, #152]
	add	x28, x28, #1
	add	x19, x19, #40
	cmp	x8, x28
	b.ne	.Lunix_path_BB35_18
	ldp	x12, x8, [sp, #144]
	mov	x28, x8
	sub	x11, x8, #1
	cmp	x8, x11
	b.lo	.Lunix_path_BB35_23
.Lunix_path_BB35_21:
	ldr	x23, [sp, #64]
	subs	x8, x28, #1
	b.ne	.Lunix_path_BB35_2
	b	.Lunix_path_BB35_37
.Lunix_path_BB35_22:
	ldp	x12, x8, [sp, #144]
	sub	x11, x8, #1
	cmp	x28, x11
	b.hs	.Lunix_path_BB35_21
.Lunix_path_BB35_23:
	add	x8, x28, #1
	mov	w9, #40
	str	x21, [sp, #136]
	madd	x9, x8, x9, x12
	cmp	x8, x11
	ldr	x10, [x9]
	stp	x11, x10, [sp, #8]
	ldr	x10, [x9, #8]
	str	x10, [sp, #24]
	ldr	x10, [x9, #16]
	str	x10, [sp, #32]
	ldp	x10, x9, [x9, #24]
	stp	x9, x10, [sp, #40]
	b.hs	.Lunix_path_BB35_35
	mov	w8, #40
	ldr	x9, [sp, #128]
	ldr	x10, [sp]
	madd	x8, x28, x8, x9
	ldr	x9, [sp, #152]
	mov	x21, x24
	sub	x9, x9, x28
	sub	x19, x9, #2
	add	x27, x10, x8
.Lunix_path_BB35_25:
	ldp	x9, x8, [x27]
	cmp	x20, x8
	csel	x8, x20, x8, lo
	cmp	x8, x9
	csel	x9, x8, x9, lo
	sub	x1, x8, x9
	add	x0, x22, x9
	bl	path_archive.slot.without_dot
	mov	x24, x0
	mov	x26, x1
	add	x0, x22, x23
	mov	x1, x25
	bl	path_archive.slot.without_dot
	mov	x2, x0
	mov	x3, x1
	mov	x0, x24
	mov	x1, x26
	bl	unix_path.compare.compare
	mov	w8, #40
	ldp	x14, x9, [sp, #136]
	madd	x8, x28, x8, x9
	ldp	x10, x9, [x27, #16]
	mov	w11, #2
	and	w13, w0, #0xff
	ldr	x12, [x27, #32]
	cmp	x9, x21
	csel	w9, wzr, w11, lo
	ldp	q1, q0, [x8]
	csinc	w9, w9, wzr, ne
	cmp	x10, x14
	csel	w10, wzr, w11, lo
	ldr	x11, [x8, #32]
	csel	w9, w9, w10, eq
	cmp	w13, #1
	stur	q1, [x27, #-40]
	stur	q0, [x27, #-24]
	csel	w9, w9, w13, eq
	ldp	q1, q0, [x27]
	cmp	w9, #0
	stur	x11, [x27, #-8]
	cinc	x28, x28, eq
	subs	x19, x19, #1
	add	x27, x27, #40
	str	x12, [x8, #32]
	stp	q1, q0, [x8]
	b.ne	.Lunix_path_BB35_25
	b	.Lunix_path_BB35_36
.Lunix_path_BB35_26:
	ldr	x20, [sp, #104]
	ldr	x11, [sp, #128]
	subs	x8, x25, x22
	add	x12, x20, x11
	b.ne	.Lunix_path_BB35_16
	b	.Lunix_path_BB35_17
.Lunix_path_BB35_27:
	ldp	x26, x10, [sp, #144]
	mov	x23, x25
	mov	x25, x24
	sub	x16, x10, #1
	cmp	x28, x16
	b.hs	.Lunix_path_BB35_32
.Lunix_path_BB35_28:
	add	x8, x28, #1
	mov	w9, #40
	str	x11, [sp, #136]
	madd	x9, x8, x9, x26
	cmp	x8, x16
	ldp	x15, x14, [x9]
	ldp	x13, x12, [x9, #16]
	ldr	x9, [x9, #32]
	stp	x16, x15, [sp, #8]
	stp	x9, x12, [sp, #40]
	stp	x14, x13, [sp, #24]
	b.hs	.Lunix_path_BB35_31
	mov	w8, #40
	ldr	x9, [sp, #128]
	madd	x8, x28, x8, x9
	sub	x9, x10, x28
	ldr	x10, [sp]
	sub	x19, x9, #2
	add	x27, x10, x8
.Lunix_path_BB35_30:
	add	x0, x22, x25
	mov	x1, x23
	bl	path_archive.slot.without_dot
	ldp	x9, x8, [x27]
	mov	x24, x0
	mov	x26, x1
	cmp	x20, x8
	csel	x8, x20, x8, lo
	cmp	x8, x9
	csel	x9, x8, x9, lo
	sub	x1, x8, x9
	add	x0, x22, x9
	bl	path_archive.slot.without_dot
	mov	x2, x0
	mov	x3, x1
	mov	x0, x24
	mov	x1, x26
	ldr	x26, [sp, #144]
	bl	unix_path.compare.compare
	mov	w8, #40
	ldp	x10, x9, [x27, #16]
	madd	x8, x28, x8, x26
	mov	w11, #2
	ldr	x14, [sp, #136]
	and	w13, w0, #0xff
	ldr	x12, [x27, #32]
	cmp	x21, x9
	csel	w9, wzr, w11, lo
	csinc	w9, w9, wzr, ne
	cmp	x14, x10
	ldp	q1, q0, [x8]
	csel	w10, wzr, w11, lo
	csel	w9, w9, w10, eq
	cmp	w13, #1
	ldr	x11, [x8, #32]
	csel	w9, w9, w13, eq
	stur	q1, [x27, #-40]
	cmp	w9, #0
	stur	q0, [x27, #-24]
	ldp	q1, q0, [x27]
	stur	x11, [x27, #-8]
	cinc	x28, x28, ne
	subs	x19, x19, #1
	add	x27, x27, #40
	str	x12, [x8, #32]
	stp	q1, q0, [x8]
	b.ne	.Lunix_path_BB35_30
.Lunix_path_BB35_31:
	add	x0, x22, x25
	mov	x1, x23
	bl	path_archive.slot.without_dot
	ldp	x23, x19, [sp, #16]
	mov	x24, x0
	mov	x25, x1
	cmp	x20, x19
	csel	x8, x20, x19, lo
	cmp	x8, x23
	csel	x9, x8, x23, lo
	sub	x1, x8, x9
	add	x0, x22, x9
	bl	path_archive.slot.without_dot
	mov	x2, x0
	mov	x3, x1
	mov	x0, x24
	mov	x1, x25
	bl	unix_path.compare.compare
	mov	w8, #40
	ldr	x10, [sp, #8]
	ldr	x12, [sp, #48]
	madd	x9, x28, x8, x26
	mov	w11, #2
	ldr	x13, [sp, #32]
	cmp	x21, x12
	ldr	x14, [sp, #136]
	madd	x8, x10, x8, x26
	ldr	x10, [x9, #32]
	ldp	q1, q0, [x9]
	str	x10, [x8, #32]
	csel	w10, wzr, w11, lo
	stp	q1, q0, [x8]
	csinc	w8, w10, wzr, ne
	cmp	x14, x13
	and	w10, w0, #0xff
	csel	w11, wzr, w11, lo
	stp	x23, x19, [x9]
	csel	w8, w8, w11, eq
	cmp	w10, #1
	mov	x11, x14
	csel	w8, w8, w10, eq
	stp	x13, x12, [x9, #16]
	cmp	w8, #0
	ldr	x8, [sp, #40]
	cinc	x28, x28, ne
	str	x8, [x9, #32]
.Lunix_path_BB35_32:
	ldr	x23, [sp, #64]
	subs	x8, x28, #1
	b.eq	.Lunix_path_BB35_34
	add	x8, x8, x8, lsl #2
	lsl	x8, x8, #3
	add	x9, x26, x8
	ldp	q1, q0, [x9]
	ldr	x10, [x9, #32]
	str	x10, [x26, #32]
	stp	q1, q0, [x26]
.Lunix_path_BB35_34:
	ldr	x9, [sp, #88]
	add	x8, x26, x8
	ldr	w19, [sp, #116]
	str	x9, [x8]
	ldr	x9, [sp, #96]
	stp	x9, x11, [x8, #8]
	ldr	x9, [sp, #80]
	stp	x21, x9, [x8, #24]
	stp	x22, x20, [x23]
	ldr	x20, [sp, #104]
	ldr	x22, [sp, #120]
	ldr	x8, [sp, #72]
	add	x22, x28, x22
	sub	x24, x8, x22
	cmp	x24, #16
	b.hi	.Lunix_path_BB35_4
	b	.Lunix_path_BB35_38
.Lunix_path_BB35_35:
	mov	x21, x24
.Lunix_path_BB35_36:
	ldp	x27, x19, [sp, #16]
	cmp	x20, x19
	csel	x8, x20, x19, lo
	cmp	x8, x27
	csel	x9, x8, x27, lo
	sub	x1, x8, x9
	add	x0, x22, x9
	bl	path_archive.slot.without_dot
	mov	x24, x0
	mov	x26, x1
	add	x0, x22, x23
	mov	x1, x25
	bl	path_archive.slot.without_dot
	mov	x2, x0
	mov	x3, x1
	mov	x0, x24
	mov	x1, x26
	bl	unix_path.compare.compare
	mov	w8, #40
	ldr	x14, [sp, #144]
	ldr	x10, [sp, #8]
	madd	x9, x28, x8, x14
	ldr	x12, [sp, #48]
	mov	x24, x21
	mov	w11, #2
	ldr	x13, [sp, #32]
	madd	x8, x10, x8, x14
	cmp	x12, x21
	ldr	x21, [sp, #136]
	ldr	x10, [x9, #32]
	ldp	q1, q0, [x9]
	str	x10, [x8, #32]
	csel	w10, wzr, w11, lo
	stp	q1, q0, [x8]
	csinc	w8, w10, wzr, ne
	cmp	x13, x21
	and	w10, w0, #0xff
	csel	w11, wzr, w11, lo
	stp	x13, x12, [x9, #16]
	csel	w8, w8, w11, eq
	cmp	w10, #1
	mov	x12, x14
	csel	w8, w8, w10, eq
	mov	x13, x21
	stp	x27, x19, [x9]
	cmp	w8, #0
	ldr	x8, [sp, #40]
	cinc	x28, x28, eq
	str	x8, [x9, #32]
	ldr	x23, [sp, #64]
	subs	x8, x28, #1
	b.ne	.Lunix_path_BB35_2
.Lunix_path_BB35_37:
	mov	x9, xzr
	b	.Lunix_path_BB35_3
.Lunix_path_BB35_38:
	mov	w8, #40
	mov	x1, x24
	mov	x2, x23
	madd	x0, x22, x8, x20
	ldp	x20, x19, [sp, #384]
	ldp	x22, x21, [sp, #368]
	ldp	x24, x23, [sp, #352]
	ldp	x26, x25, [sp, #336]
	ldp	x28, x27, [sp, #320]
	ldp	x29, x30, [sp, #304]
	add	sp, sp, #400
	b	core.slice.sort.small.insertion_sort.fd4dfef4a36ac24b.
.Lunix_path_BB35_39:
	add	x8, x22, x22, lsl #2
	lsl	x19, x8, #3
	lsr	x8, x24, #1
	add	x21, x20, x19
	sub	x22, x8, #1
.Lunix_path_BB35_40:
	add	x0, x20, x19
	mov	x1, x22
	mov	x2, x24
	mov	x3, x23
	bl	core.slice.sort.heap.sift.fd4dfef4a36ac24b.
	sub	x22, x22, #1
	cmn	x22, #1
	b.ne	.Lunix_path_BB35_40
	mov	w8, #40
	madd	x8, x24, x8, x19
	add	x8, x20, x8
	sub	x19, x8, #40
.Lunix_path_BB35_42:
	ldp	q0, q1, [x19]
	sub	x24, x24, #1
	ldp	q2, q3, [x21]
	mov	x0, x21
	ldr	x8, [x19, #32]
	ldr	x9, [x21, #32]
	mov	x1, xzr
	mov	x2, x24
	mov	x3, x23
	stp	q0, q1, [x21]
	str	x8, [x21, #32]
	str	x9, [x19, #32]
	stp	q2, q3, [x19]
	bl	core.slice.sort.heap.sift.fd4dfef4a36ac24b.
	cmp	x24, #1
	sub	x19, x19, #40
	b.hi	.Lunix_path_BB35_42
	ldp	x20, x19, [sp, #384]
	ldp	x22, x21, [sp, #368]
	ldp	x24, x23, [sp, #352]
	ldp	x26, x25, [sp, #336]
	ldp	x28, x27, [sp, #320]
	ldp	x29, x30, [sp, #304]
	add	sp, sp, #400
	ret
.Lunix_path_func_end35:
	.size	core.slice.sort.unstable.quicksort.fd4dfef4a36ac24b., .Lunix_path_func_end35-core.slice.sort.unstable.quicksort.fd4dfef4a36ac24b.
	.section	.text.core.slice.sort.heap.sift.fd4dfef4a36ac24b.,"ax",@progbits
	.p2align	2
	.type	core.slice.sort.heap.sift.fd4dfef4a36ac24b.,@function
// core::slice::sort::heap::sift::<#fd4dfef4a36ac24b>
core.slice.sort.heap.sift.fd4dfef4a36ac24b.:
	sub	sp, sp, #224
	lsr	x8, x2, #1
	stp	x29, x30, [sp, #128]
	add	x29, sp, #128
	stp	x28, x27, [sp, #144]
	cmp	x1, x8
	stp	x26, x25, [sp, #160]
	stp	x24, x23, [sp, #176]
	stp	x22, x21, [sp, #192]
	stp	x20, x19, [sp, #208]
	stp	x8, x0, [sp, #16]
	b.hs	.Lunix_path_BB36_23
	mov	x25, x3
	mov	x21, x2
	mov	x22, x1
	str	x2, [sp, #8]
	b	.Lunix_path_BB36_4
.Lunix_path_BB36_2:
	ldp	q0, q1, [x28]
	ldr	x8, [x28, #32]
	ldp	q2, q3, [x27]
	ldr	x9, [x27, #32]
	str	x8, [x27, #32]
	stp	q0, q1, [x27]
	str	x9, [x28, #32]
	stp	q2, q3, [x28]
.Lunix_path_BB36_3:
	ldr	x8, [sp, #16]
	cmp	x22, x8
	b.hs	.Lunix_path_BB36_23
.Lunix_path_BB36_4:
	mov	x26, x22
	mov	w22, #1
	lsl	x8, x26, #1
	bfi	x22, x26, #1, #63
	add	x27, x8, #2
	cmp	x27, x21
	b.eq	.Lunix_path_BB36_9
	mov	w8, #40
	ldr	x12, [sp, #24]
	mov	x11, x25
	madd	x28, x22, x8, x12
	ldr	x25, [x25, #8]
	ldr	x19, [x11]
	mov	x21, x11
	madd	x20, x27, x8, x12
	ldp	x10, x9, [x28]
	cmp	x25, x9
	csel	x8, x25, x9, lo
	cmp	x8, x10
	csel	x9, x8, x10, lo
	sub	x1, x8, x9
	add	x0, x19, x9
	bl	path_archive.slot.without_dot
	ldp	x9, x8, [x20]
	mov	x23, x0
	mov	x24, x1
	cmp	x25, x8
	csel	x8, x25, x8, lo
	cmp	x8, x9
	csel	x9, x8, x9, lo
	sub	x1, x8, x9
	add	x0, x19, x9
	bl	path_archive.slot.without_dot
	mov	x2, x0
	mov	x3, x1
	mov	x0, x23
	mov	x1, x24
	bl	unix_path.compare.compare
	ldp	x9, x12, [x20, #16]
	mov	w13, #2
	ldp	x10, x8, [x28, #16]
	cmp	x10, x9
	csel	w11, wzr, w13, lo
	cmp	x8, x12
	csel	w8, wzr, w13, lo
	b.eq	.Lunix_path_BB36_19
	cmp	x10, x9
	mov	x25, x21
	b.ne	.Lunix_path_BB36_20
.Lunix_path_BB36_7:
	and	w9, w0, #0xff
	ldr	x21, [sp, #8]
	cmp	w9, #1
	b.ne	.Lunix_path_BB36_21
.Lunix_path_BB36_8:
	cbz	w8, .Lunix_path_BB36_22
.Lunix_path_BB36_9:
	mov	w8, #40
	ldr	x11, [sp, #24]
	madd	x27, x26, x8, x11
	ldp	x20, x19, [x25]
	madd	x28, x22, x8, x11
	ldp	x10, x9, [x27]
	cmp	x19, x9
	csel	x8, x19, x9, lo
	cmp	x8, x10
	csel	x9, x8, x10, lo
	sub	x1, x8, x9
	add	x0, x20, x9
	bl	path_archive.slot.without_dot
	ldp	x9, x8, [x28]
	mov	x23, x0
	mov	x24, x1
	cmp	x19, x8
	csel	x8, x19, x8, lo
	cmp	x8, x9
	csel	x9, x8, x9, lo
	sub	x1, x8, x9
	add	x0, x20, x9
	bl	path_archive.slot.without_dot
	mov	x2, x0
	mov	x3, x1
	mov	x0, x23
	mov	x1, x24
	bl	unix_path.compare.compare
	ldp	x9, x12, [x28, #16]
	mov	w13, #2
	ldp	x10, x8, [x27, #16]
	cmp	x10, x9
	csel	w11, wzr, w13, lo
	cmp	x8, x12
	csel	w8, wzr, w13, lo
	b.eq	.Lunix_path_BB36_13
	cmp	x10, x9
	b.ne	.Lunix_path_BB36_14
.Lunix_path_BB36_11:
	and	w9, w0, #0xff
	cmp	w9, #1
	b.ne	.Lunix_path_BB36_15
.Lunix_path_BB36_12:
	cbz	w8, .Lunix_path_BB36_16
	b	.Lunix_path_BB36_23
.Lunix_path_BB36_13:
	mov	w8, #1
	cmp	x10, x9
	b.eq	.Lunix_path_BB36_11
.Lunix_path_BB36_14:
	mov	w8, w11
	and	w9, w0, #0xff
	cmp	w9, #1
	b.eq	.Lunix_path_BB36_12
.Lunix_path_BB36_15:
	cbnz	w9, .Lunix_path_BB36_23
.Lunix_path_BB36_16:
	cmp	x26, x22
	b.lo	.Lunix_path_BB36_2
	cmp	x22, x26
	b.hs	.Lunix_path_BB36_3
	ldp	q0, q1, [x27]
	ldr	x8, [x27, #32]
	ldp	q2, q3, [x28]
	ldr	x9, [x28, #32]
	str	x8, [x28, #32]
	stp	q0, q1, [x28]
	str	x9, [x27, #32]
	stp	q2, q3, [x27]
	b	.Lunix_path_BB36_3
.Lunix_path_BB36_19:
	mov	w8, #1
	cmp	x10, x9
	mov	x25, x21
	b.eq	.Lunix_path_BB36_7
.Lunix_path_BB36_20:
	mov	w8, w11
	and	w9, w0, #0xff
	ldr	x21, [sp, #8]
	cmp	w9, #1
	b.eq	.Lunix_path_BB36_8
.Lunix_path_BB36_21:
	cbnz	w9, .Lunix_path_BB36_9
.Lunix_path_BB36_22:
	mov	x22, x27
	b	.Lunix_path_BB36_9
.Lunix_path_BB36_23:
	ldp	x20, x19, [sp, #208]
	ldp	x22, x21, [sp, #192]
	ldp	x24, x23, [sp, #176]
	ldp	x26, x25, [sp, #160]
	ldp	x28, x27, [sp, #144]
	ldp	x29, x30, [sp, #128]
	add	sp, sp, #224
	ret
.Lunix_path_func_end36:
	.size	core.slice.sort.heap.sift.fd4dfef4a36ac24b., .Lunix_path_func_end36-core.slice.sort.heap.sift.fd4dfef4a36ac24b.
	.section	.text.core.slice.sort.pivot.median_of_three.fd4dfef4a36ac24b.,"ax",@progbits
	.p2align	2
	.type	core.slice.sort.pivot.median_of_three.fd4dfef4a36ac24b.,@function
// core::slice::sort::pivot::median_of_three::<#fd4dfef4a36ac24b>
core.slice.sort.pivot.median_of_three.fd4dfef4a36ac24b.:
	sub	sp, sp, #128
	stp	x28, x27, [sp, #48]
	mov	w28, #40
	madd	x27, x1, x28, x0
	stp	x20, x19, [sp, #112]
	ldp	x20, x19, [x4]
	stp	x29, x30, [sp, #32]
	add	x29, sp, #32
	stp	x26, x25, [sp, #64]
	madd	x26, x2, x28, x0
	stp	x24, x23, [sp, #80]
	mov	x23, x0
	stur	x1, [x29, #-8]
	ldp	x9, x8, [x27]
	stp	x22, x21, [sp, #96]
	mov	x21, x4
	mov	x22, x3
	str	x2, [sp, #8]
	cmp	x19, x8
	csel	x8, x19, x8, lo
	cmp	x8, x9
	csel	x9, x8, x9, lo
	sub	x1, x8, x9
	add	x0, x20, x9
	bl	path_archive.slot.without_dot
	ldp	x9, x8, [x26]
	mov	x24, x0
	mov	x25, x1
	cmp	x19, x8
	csel	x8, x19, x8, lo
	cmp	x8, x9
	csel	x9, x8, x9, lo
	sub	x1, x8, x9
	add	x0, x20, x9
	bl	path_archive.slot.without_dot
	mov	x2, x0
	mov	x3, x1
	mov	x0, x24
	mov	x1, x25
	bl	unix_path.compare.compare
	ldp	x11, x8, [x26, #16]
	mov	w12, #2
	ldp	x10, x9, [x27, #16]
	madd	x28, x22, x28, x23
	str	x22, [sp, #16]
	ldp	x22, x20, [x21]
	cmp	x9, x8
	and	w9, w0, #0xff
	csel	w8, wzr, w12, lo
	csinc	w8, w8, wzr, ne
	cmp	x10, x11
	csel	w10, wzr, w12, lo
	csel	w8, w8, w10, eq
	cmp	w9, #1
	csel	w19, w8, w9, eq
	ldp	x9, x8, [x27]
	cmp	w19, #0
	cset	w25, eq
	cmp	x20, x8
	csel	x8, x20, x8, lo
	cmp	x8, x9
	csel	x9, x8, x9, lo
	sub	x1, x8, x9
	add	x0, x22, x9
	bl	path_archive.slot.without_dot
	ldp	x9, x8, [x28]
	mov	x23, x0
	mov	x24, x1
	cmp	x20, x8
	csel	x8, x20, x8, lo
	cmp	x8, x9
	csel	x9, x8, x9, lo
	sub	x1, x8, x9
	add	x0, x22, x9
	bl	path_archive.slot.without_dot
	mov	x2, x0
	mov	x3, x1
	mov	x0, x23
	mov	x1, x24
	mov	w24, #2
	bl	unix_path.compare.compare
	ldp	x11, x8, [x28, #16]
	ldp	x10, x9, [x27, #16]
	cmp	x9, x8
	and	w9, w0, #0xff
	ldur	x0, [x29, #-8]
	csel	w8, wzr, w24, lo
	csinc	w8, w8, wzr, ne
	cmp	x10, x11
	csel	w10, wzr, w24, lo
	csel	w8, w8, w10, eq
	cmp	w9, #1
	csel	w8, w8, w9, eq
	cmp	w8, #0
	cset	w8, eq
	cmp	w25, w8
	b.ne	.Lunix_path_BB37_2
	ldp	x23, x20, [x21]
	cmp	w19, #0
	ldp	x9, x8, [x26]
	cset	w19, eq
	cmp	x20, x8
	csel	x8, x20, x8, lo
	cmp	x8, x9
	csel	x9, x8, x9, lo
	sub	x1, x8, x9
	add	x0, x23, x9
	bl	path_archive.slot.without_dot
	ldp	x9, x8, [x28]
	mov	x21, x0
	mov	x22, x1
	cmp	x20, x8
	csel	x8, x20, x8, lo
	cmp	x8, x9
	csel	x9, x8, x9, lo
	sub	x1, x8, x9
	add	x0, x23, x9
	bl	path_archive.slot.without_dot
	mov	x2, x0
	mov	x3, x1
	mov	x0, x21
	mov	x1, x22
	bl	unix_path.compare.compare
	ldp	x11, x8, [x28, #16]
	ldp	x10, x9, [x26, #16]
	cmp	x9, x8
	and	w9, w0, #0xff
	csel	w8, wzr, w24, lo
	csinc	w8, w8, wzr, ne
	cmp	x10, x11
	csel	w10, wzr, w24, lo
	csel	w8, w8, w10, eq
	cmp	w9, #1
	csel	w8, w8, w9, eq
	cmp	w8, #0
	cset	w8, eq
	eor	w8, w19, w8
	cmp	w8, #0
	ldp	x9, x8, [sp, #8]
	csel	x0, x8, x9, ne
.Lunix_path_BB37_2:
	ldp	x20, x19, [sp, #112]
	ldp	x22, x21, [sp, #96]
	ldp	x24, x23, [sp, #80]
	ldp	x26, x25, [sp, #64]
	ldp	x28, x27, [sp, #48]
	ldp	x29, x30, [sp, #32]
	add	sp, sp, #128
	ret
.Lunix_path_func_end37:
	.size	core.slice.sort.pivot.median_of_three.fd4dfef4a36ac24b., .Lunix_path_func_end37-core.slice.sort.pivot.median_of_three.fd4dfef4a36ac24b.
	.section	.text.core.slice.sort.pivot.median_of_medians.fd4dfef4a36ac24b.,"ax",@progbits
	.p2align	2
	.type	core.slice.sort.pivot.median_of_medians.fd4dfef4a36ac24b.,@function
// core::slice::sort::pivot::median_of_medians::<#fd4dfef4a36ac24b>
core.slice.sort.pivot.median_of_medians.fd4dfef4a36ac24b.:
	cmp	x4, #7
	b.hi	.Lunix_path_BB38_2
	mov	x4, x5
	b	core.slice.sort.pivot.median_of_three.fd4dfef4a36ac24b.
.Lunix_path_BB38_2:
	stp	x29, x30, [sp, #-80]!
	stp	x20, x19, [sp, #64]
	lsr	x19, x4, #3
	mov	x20, x2
	stp	x26, x25, [sp, #16]
	mov	x29, sp
	lsl	x8, x19, #3
	lsl	x25, x19, #2
	stp	x22, x21, [sp, #48]
	mov	x21, x3
	mov	x4, x19
	stp	x24, x23, [sp, #32]
	sub	x26, x8, x19
	add	x2, x25, x1
	mov	x22, x0
	add	x3, x26, x1
	mov	x23, x5
	bl	core.slice.sort.pivot.median_of_medians.fd4dfef4a36ac24b.
	mov	x24, x0
	add	x2, x25, x20
	add	x3, x26, x20
	mov	x0, x22
	mov	x1, x20
	mov	x4, x19
	mov	x5, x23
	bl	core.slice.sort.pivot.median_of_medians.fd4dfef4a36ac24b.
	mov	x20, x0
	add	x2, x25, x21
	add	x3, x26, x21
	mov	x0, x22
	mov	x1, x21
	mov	x4, x19
	mov	x5, x23
	bl	core.slice.sort.pivot.median_of_medians.fd4dfef4a36ac24b.
	mov	x3, x0
	mov	x0, x22
	mov	x1, x24
	mov	x2, x20
	mov	x4, x23
	ldp	x20, x19, [sp, #64]
	ldp	x22, x21, [sp, #48]
	ldp	x24, x23, [sp, #32]
	ldp	x26, x25, [sp, #16]
	ldp	x29, x30, [sp], #80
	b	core.slice.sort.pivot.median_of_three.fd4dfef4a36ac24b.
.Lunix_path_func_end38:
	.size	core.slice.sort.pivot.median_of_medians.fd4dfef4a36ac24b., .Lunix_path_func_end38-core.slice.sort.pivot.median_of_medians.fd4dfef4a36ac24b.
	.section	.text.core.slice.edits.mirror.24.path_archive.slot.Slot.,"ax",@progbits
	.p2align	2
	.type	core.slice.edits.mirror.24.path_archive.slot.Slot.,@function
// core::slice::edits::mirror::<24'path_archive::slot::Slot>
core.slice.edits.mirror.24.path_archive.slot.Slot.:
	sub	sp, sp, #48
	mov	w8, #40
	madd	x8, x2, x8, x1
	sub	x8, x8, #40
.Lunix_path_BB39_1:
	ldp	q0, q1, [x8]
	sub	x2, x2, #1
	ldp	q2, q3, [x0]
	ldr	x9, [x8, #32]
	ldr	x10, [x0, #32]
	stp	q0, q1, [x0]
	str	x9, [x0, #32]
	add	x0, x0, #40
	str	x10, [x8, #32]
	stp	q2, q3, [x8]
	sub	x8, x8, #40
	cbnz	x2, .Lunix_path_BB39_1
	add	sp, sp, #48
	ret
.Lunix_path_func_end39:
	.size	core.slice.edits.mirror.24.path_archive.slot.Slot., .Lunix_path_func_end39-core.slice.edits.mirror.24.path_archive.slot.Slot.
	.section	.rodata.cst16,"aM",@progbits,16
	.p2align	4, 0x0
.Lunix_path_CPI40_0:
	.byte	1
	.byte	2
	.byte	4
	.byte	8
	.byte	16
	.byte	32
	.byte	64
	.byte	128
	.byte	1
	.byte	2
	.byte	4
	.byte	8
	.byte	16
	.byte	32
	.byte	64
	.byte	128
	.section	.rodata.cst8,"aM",@progbits,8
	.p2align	3, 0x0
.Lunix_path_CPI40_1:
	.byte	1
	.byte	2
	.byte	4
	.byte	8
	.byte	16
	.byte	32
	.byte	64
	.byte	128
	.section	.text.path_archive.outlined.starts_with,"ax",@progbits
	.p2align	2
	.type	path_archive.outlined.starts_with,@function
// path_archive::outlined::starts_with
path_archive.outlined.starts_with:
	cbz	x3, .Lunix_path_BB40_17
	sub	sp, sp, #48
	cmp	x3, x1
	stp	x29, x30, [sp, #32]
	add	x29, sp, #32
	csel	x9, x3, x1, lo
	stp	xzr, xzr, [sp, #8]
	cmp	x9, #15
	str	xzr, [sp, #24]
	b.hi	.Lunix_path_BB40_18
	cmp	x9, #7
	b.hi	.Lunix_path_BB40_27
	cbz	x1, .Lunix_path_BB40_46
	ldrb	w8, [x0]
	ldrb	w10, [x2]
	cmp	w8, w10
	b.ne	.Lunix_path_BB40_47
	cmp	x9, #1
	b.eq	.Lunix_path_BB40_32
	ldrb	w8, [x0, #1]
	ldrb	w10, [x2, #1]
	cmp	w8, w10
	b.ne	.Lunix_path_BB40_60
	cmp	x9, #2
	b.eq	.Lunix_path_BB40_32
	ldrb	w8, [x0, #2]
	ldrb	w10, [x2, #2]
	cmp	w8, w10
	b.ne	.Lunix_path_BB40_61
	cmp	x9, #3
	b.eq	.Lunix_path_BB40_32
	ldrb	w8, [x0, #3]
	ldrb	w10, [x2, #3]
	cmp	w8, w10
	b.ne	.Lunix_path_BB40_62
	cmp	x9, #4
	b.eq	.Lunix_path_BB40_32
	ldrb	w8, [x0, #4]
	ldrb	w10, [x2, #4]
	cmp	w8, w10
	b.ne	.Lunix_path_BB40_63
	cmp	x9, #5
	b.eq	.Lunix_path_BB40_32
	ldrb	w8, [x0, #5]
	ldrb	w10, [x2, #5]
	cmp	w8, w10
	b.ne	.Lunix_path_BB40_64
	cmp	x9, #6
	b.eq	.Lunix_path_BB40_32
	ldrb	w8, [x0, #6]
	ldrb	w10, [x2, #6]
	cmp	w8, w10
	mov	w8, #6
	csel	x9, x9, x8, eq
	b	.Lunix_path_BB40_32
.Lunix_path_BB40_17:
	mov	w0, #1
	ret
.Lunix_path_BB40_18:
	cmp	x9, #64
	sub	x8, x9, #16
	adrp	x10, .Lunix_path_CPI40_0
	mov	x11, xzr
	b.lo	.Lunix_path_BB40_25
	and	x12, x9, #0xffffffffffffffc0
.Lunix_path_BB40_20:
	add	x13, x0, x11
	add	x14, x2, x11
	ldp	q0, q1, [x13]
	ldp	q2, q3, [x13, #32]
	ldp	q4, q5, [x14]
	ldp	q6, q7, [x14, #32]
	cmeq	v0.16b, v0.16b, v4.16b
	cmeq	v1.16b, v1.16b, v5.16b
	ldr	q4, [x10, :lo12:.Lunix_path_CPI40_0]
	cmeq	v3.16b, v3.16b, v7.16b
	cmeq	v2.16b, v2.16b, v6.16b
	bic	v0.16b, v4.16b, v0.16b
	bic	v1.16b, v4.16b, v1.16b
	bic	v2.16b, v4.16b, v2.16b
	bic	v3.16b, v4.16b, v3.16b
	addp	v0.16b, v0.16b, v1.16b
	addp	v1.16b, v2.16b, v3.16b
	addp	v0.16b, v0.16b, v1.16b
	addp	v0.16b, v0.16b, v0.16b
	fmov	x13, d0
	cbnz	x13, .Lunix_path_BB40_25
	sub	x9, x9, #64
	add	x11, x11, #64
	cmp	x9, #63
	b.hi	.Lunix_path_BB40_20
	mov	x11, x12
	b	.Lunix_path_BB40_25
.Lunix_path_BB40_23:
	ldr	q0, [x0, x11]
	ldr	q1, [x2, x11]
	cmeq	v0.16b, v0.16b, v1.16b
	ldr	q1, [x10, :lo12:.Lunix_path_CPI40_0]
	bic	v0.16b, v1.16b, v0.16b
	addp	v0.16b, v0.16b, v0.16b
	addp	v0.16b, v0.16b, v0.16b
	addp	v0.16b, v0.16b, v0.16b
	umov	w9, v0.h[0]
	orr	w9, w9, #0x10000
	rbit	w9, w9
	clz	w9, w9
	cmp	w9, #15
	b.ls	.Lunix_path_BB40_29
	add	x11, x11, #16
.Lunix_path_BB40_25:
	cmp	x11, x8
	b.lo	.Lunix_path_BB40_23
	ldr	q0, [x0, x8]
	ldr	q1, [x2, x8]
	cmeq	v0.16b, v0.16b, v1.16b
	ldr	q1, [x10, :lo12:.Lunix_path_CPI40_0]
	bic	v0.16b, v1.16b, v0.16b
	addp	v0.16b, v0.16b, v0.16b
	addp	v0.16b, v0.16b, v0.16b
	addp	v0.16b, v0.16b, v0.16b
	umov	w9, v0.h[0]
	orr	w9, w9, #0x10000
	b	.Lunix_path_BB40_31
.Lunix_path_BB40_27:
	ldr	d0, [x0]
	ldr	d1, [x2]
	adrp	x8, .Lunix_path_CPI40_1
	cmeq	v1.8b, v0.8b, v1.8b
	ldr	d0, [x8, :lo12:.Lunix_path_CPI40_1]
	bic	v1.8b, v0.8b, v1.8b
	addv	b1, v1.8b
	fmov	w8, s1
	orr	w8, w8, #0x100
	rbit	w8, w8
	clz	w8, w8
	cmp	w8, #8
	b.hs	.Lunix_path_BB40_30
	mov	x9, x8
	b	.Lunix_path_BB40_32
.Lunix_path_BB40_29:
	add	x9, x11, w9, uxtw
	b	.Lunix_path_BB40_32
.Lunix_path_BB40_30:
	sub	x8, x9, #8
	ldr	d1, [x0, x8]
	ldr	d2, [x2, x8]
	cmeq	v1.8b, v1.8b, v2.8b
	bic	v0.8b, v0.8b, v1.8b
	addv	b0, v0.8b
	fmov	w9, s0
	orr	w9, w9, #0x100
.Lunix_path_BB40_31:
	rbit	w9, w9
	clz	w9, w9
	add	x9, x8, x9
.Lunix_path_BB40_32:
	cmp	x3, x9
	b.ls	.Lunix_path_BB40_40
	mov	w8, #1
	cmp	x9, x1
	b.hs	.Lunix_path_BB40_49
.Lunix_path_BB40_34:
	ldrb	w10, [x0, x9]
	cmp	w10, #47
	b.eq	.Lunix_path_BB40_49
	cmp	w10, #46
	eor	w11, w8, #0x1
	csinc	w11, w11, wzr, ne
	tbnz	w11, #0, .Lunix_path_BB40_37
	ldrb	w11, [x2, x9]
	and	w11, w11, #0xfe
	cmp	w11, #46
	b.ne	.Lunix_path_BB40_59
.Lunix_path_BB40_37:
	add	w10, w10, #1
	cbnz	w8, .Lunix_path_BB40_50
.Lunix_path_BB40_38:
	cmp	w10, w8
	b.ne	.Lunix_path_BB40_53
.Lunix_path_BB40_39:
	cbnz	x9, .Lunix_path_BB40_55
	b	.Lunix_path_BB40_59
.Lunix_path_BB40_40:
	cmp	x3, x1
	b.hs	.Lunix_path_BB40_45
	add	x8, x0, x3
	ldrb	w10, [x8]
	cmp	w10, #47
	b.ne	.Lunix_path_BB40_44
	mov	w8, #1
.Lunix_path_BB40_43:
	ldp	x29, x30, [sp, #32]
	add	sp, sp, #48
	mov	w0, w8
	ret
.Lunix_path_BB40_44:
	ldurb	w8, [x8, #-1]
	cmp	w8, #47
	b.ne	.Lunix_path_BB40_48
.Lunix_path_BB40_45:
	mov	w8, #1
	ldp	x29, x30, [sp, #32]
	add	sp, sp, #48
	mov	w0, w8
	ret
.Lunix_path_BB40_46:
	mov	x9, xzr
	mov	w8, #1
	cmp	xzr, x1
	b.hs	.Lunix_path_BB40_49
	b	.Lunix_path_BB40_34
.Lunix_path_BB40_47:
	mov	x9, xzr
	b	.Lunix_path_BB40_32
.Lunix_path_BB40_48:
	mov	w8, wzr
	cmp	x9, x1
	b.lo	.Lunix_path_BB40_34
.Lunix_path_BB40_49:
	mov	w10, wzr
	cbz	w8, .Lunix_path_BB40_38
.Lunix_path_BB40_50:
	ldrb	w8, [x2, x9]
	cmp	w8, #47
	b.ne	.Lunix_path_BB40_52
	cmp	w10, wzr
	b.ne	.Lunix_path_BB40_53
	b	.Lunix_path_BB40_39
.Lunix_path_BB40_52:
	add	w8, w8, #1
	cmp	w10, w8
	b.eq	.Lunix_path_BB40_39
.Lunix_path_BB40_53:
	cbz	x9, .Lunix_path_BB40_59
	add	x8, x0, x9
	ldurb	w10, [x8, #-1]
	cmp	w10, #47
	b.ne	.Lunix_path_BB40_56
.Lunix_path_BB40_55:
	sub	x8, x1, x9
	mov	x10, x0
	sub	x4, x3, x9
	add	x0, sp, #8
	add	x1, x10, x9
	add	x3, x2, x9
	mov	x2, x8
	bl	unix_path.pair.Comparison.rest_after_cut
	ldrb	w8, [sp, #8]
	cmp	w8, #1
	cset	w8, eq
	ldp	x29, x30, [sp, #32]
	add	sp, sp, #48
	mov	w0, w8
	ret
.Lunix_path_BB40_56:
	subs	x9, x9, #1
	mov	w8, wzr
	b.eq	.Lunix_path_BB40_43
	cmp	w10, #46
	b.ne	.Lunix_path_BB40_43
	add	x8, x0, x9
	ldurb	w8, [x8, #-1]
	cmp	w8, #47
	b.eq	.Lunix_path_BB40_55
.Lunix_path_BB40_59:
	mov	w8, wzr
	ldp	x29, x30, [sp, #32]
	add	sp, sp, #48
	mov	w0, w8
	ret
.Lunix_path_BB40_60:
	mov	w9, #1
	b	.Lunix_path_BB40_32
.Lunix_path_BB40_61:
	mov	w9, #2
	b	.Lunix_path_BB40_32
.Lunix_path_BB40_62:
	mov	w9, #3
	b	.Lunix_path_BB40_32
.Lunix_path_BB40_63:
	mov	w9, #4
	b	.Lunix_path_BB40_32
.Lunix_path_BB40_64:
	mov	w9, #5
	b	.Lunix_path_BB40_32
.Lunix_path_func_end40:
	.size	path_archive.outlined.starts_with, .Lunix_path_func_end40-path_archive.outlined.starts_with
	.section	.rodata.cst16,"aM",@progbits,16
	.p2align	4, 0x0
.Lunix_path_CPI41_0:
	.byte	1
	.byte	2
	.byte	4
	.byte	8
	.byte	16
	.byte	32
	.byte	64
	.byte	128
	.byte	1
	.byte	2
	.byte	4
	.byte	8
	.byte	16
	.byte	32
	.byte	64
	.byte	128
	.section	.rodata.cst8,"aM",@progbits,8
	.p2align	3, 0x0
.Lunix_path_CPI41_1:
	.byte	1
	.byte	2
	.byte	4
	.byte	8
	.byte	16
	.byte	32
	.byte	64
	.byte	128
	.section	.text.path_archive.outlined.has_root_or_parent_dir,"ax",@progbits
	.p2align	2
	.type	path_archive.outlined.has_root_or_parent_dir,@function
// path_archive::outlined::has_root_or_parent_dir
path_archive.outlined.has_root_or_parent_dir:
	cbz	x1, .Lunix_path_BB41_4
	stp	x29, x30, [sp, #-48]!
	ldrb	w8, [x0]
	stp	x20, x19, [sp, #32]
	mov	x19, x0
	stp	x22, x21, [sp, #16]
	mov	x29, sp
	cmp	w8, #47
	b.ne	.Lunix_path_BB41_5
	mov	w0, #1
.Lunix_path_BB41_3:
	ldp	x20, x19, [sp, #32]
	ldp	x22, x21, [sp, #16]
	ldp	x29, x30, [sp], #48
	ret
.Lunix_path_BB41_4:
	mov	w0, wzr
	ret
.Lunix_path_BB41_5:
	ldrb	w8, [x19]
	mov	x20, x1
	adrp	x21, .Lunix_path_CPI41_0
	cmp	w8, #47
	b.eq	.Lunix_path_BB41_46
	cmp	w8, #46
	b.ne	.Lunix_path_BB41_12
	cmp	x20, #1
	b.eq	.Lunix_path_BB41_46
	ldrb	w8, [x19, #1]
	cmp	w8, #47
	b.eq	.Lunix_path_BB41_43
	cmp	w8, #46
	b.ne	.Lunix_path_BB41_12
	cmp	x20, #2
	b.eq	.Lunix_path_BB41_43
	ldrb	w8, [x19, #2]
	cmp	w8, #47
	b.eq	.Lunix_path_BB41_43
.Lunix_path_BB41_12:
	add	x10, x19, x20
	ldurb	w8, [x10, #-1]
	and	w8, w8, #0xfe
	cmp	w8, #46
	b.eq	.Lunix_path_BB41_43
	subs	x8, x20, #17
	b.hs	.Lunix_path_BB41_16
.Lunix_path_BB41_14:
	cmp	x20, #9
	b.hs	.Lunix_path_BB41_24
	mov	x8, xzr
	b	.Lunix_path_BB41_40
.Lunix_path_BB41_16:
	cmp	x20, #32
	b.hi	.Lunix_path_BB41_26
	movi	v0.16b, #208
	ldur	q1, [x19, #1]
	ldr	q3, [x19]
	and	v2.16b, v1.16b, v0.16b
	movi	v1.16b, #47
	orr	v2.16b, v2.16b, v3.16b
	cmeq	v3.16b, v2.16b, v1.16b
	ldr	q2, [x21, :lo12:.Lunix_path_CPI41_0]
	and	v3.16b, v3.16b, v2.16b
	addp	v3.16b, v3.16b, v3.16b
	addp	v3.16b, v3.16b, v3.16b
	addp	v3.16b, v3.16b, v3.16b
	umov	w9, v3.h[0]
	cbnz	w9, .Lunix_path_BB41_19
	ldur	q3, [x10, #-16]
	and	v0.16b, v3.16b, v0.16b
	ldur	q3, [x10, #-17]
	orr	v0.16b, v0.16b, v3.16b
	cmeq	v0.16b, v0.16b, v1.16b
	and	v0.16b, v0.16b, v2.16b
	addp	v0.16b, v0.16b, v0.16b
	addp	v0.16b, v0.16b, v0.16b
	addp	v0.16b, v0.16b, v0.16b
	umov	w9, v0.h[0]
	cbz	w9, .Lunix_path_BB41_42
.Lunix_path_BB41_19:
	cmp	x20, #18
	b.ls	.Lunix_path_BB41_14
	subs	x9, x20, #19
	b.ne	.Lunix_path_BB41_28
	mov	x10, xzr
.Lunix_path_BB41_22:
	cmp	x8, x10
	movi	v0.16b, #208
	csel	x8, x8, x10, lo
	add	x10, x19, x8
	ldur	q1, [x10, #1]
	ldr	q2, [x10]
	and	v1.16b, v1.16b, v0.16b
	movi	v0.16b, #47
	orr	v1.16b, v1.16b, v2.16b
	cmeq	v2.16b, v1.16b, v0.16b
	ldr	q1, [x21, :lo12:.Lunix_path_CPI41_0]
	and	v2.16b, v2.16b, v1.16b
	addp	v2.16b, v2.16b, v2.16b
	addp	v2.16b, v2.16b, v2.16b
	addp	v2.16b, v2.16b, v2.16b
	umov	w10, v2.h[0]
	cbz	w10, .Lunix_path_BB41_39
	movi	v2.16b, #46
	add	x8, x19, x9
	ldur	q3, [x8, #2]
	ldur	q4, [x8, #3]
	cmeq	v4.16b, v4.16b, v0.16b
	cmeq	v5.16b, v3.16b, v2.16b
	cmeq	v3.16b, v3.16b, v0.16b
	and	v4.16b, v5.16b, v4.16b
	ldur	q5, [x8, #1]
	cmeq	v2.16b, v5.16b, v2.16b
	orr	v3.16b, v3.16b, v4.16b
	ldr	q4, [x8]
	and	v2.16b, v2.16b, v3.16b
	cmeq	v3.16b, v4.16b, v0.16b
	cmeq	v0.16b, v5.16b, v0.16b
	orr	v0.16b, v0.16b, v2.16b
	and	v1.16b, v3.16b, v1.16b
	and	v0.16b, v1.16b, v0.16b
	addp	v0.16b, v0.16b, v0.16b
	addp	v0.16b, v0.16b, v0.16b
	addp	v0.16b, v0.16b, v0.16b
	umov	w8, v0.h[0]
	orr	w8, w8, #0x10000
	rbit	w8, w8
	clz	w8, w8
	add	x8, x9, x8
	b	.Lunix_path_BB41_40
.Lunix_path_BB41_24:
	movi	v0.8b, #254
	movi	v1.8b, #47
	ldr	d3, [x19]
	ldur	d4, [x19, #1]
	movi	v2.8b, #46
	adrp	x8, .Lunix_path_CPI41_1
	and	v4.8b, v4.8b, v0.8b
	cmeq	v5.8b, v3.8b, v1.8b
	ldr	d3, [x8, :lo12:.Lunix_path_CPI41_1]
	cmeq	v4.8b, v4.8b, v2.8b
	and	v5.8b, v5.8b, v3.8b
	and	v4.8b, v5.8b, v4.8b
	addv	b4, v4.8b
	fmov	w8, s4
	orr	w8, w8, #0x100
	rbit	w8, w8
	clz	w8, w8
	cmp	w8, #8
	b.lo	.Lunix_path_BB41_40
	cmp	x20, #17
	mov	w8, #17
	csel	x8, x20, x8, lo
	sub	x8, x8, #9
	add	x9, x19, x8
	ldr	d4, [x9]
	ldur	d5, [x9, #1]
	and	v0.8b, v5.8b, v0.8b
	cmeq	v1.8b, v4.8b, v1.8b
	cmeq	v0.8b, v0.8b, v2.8b
	and	v1.8b, v1.8b, v3.8b
	and	v0.8b, v1.8b, v0.8b
	addv	b0, v0.8b
	fmov	w9, s0
	orr	w9, w9, #0x100
	rbit	w9, w9
	clz	w9, w9
	add	x8, x8, x9
	b	.Lunix_path_BB41_40
.Lunix_path_BB41_26:
	sub	x9, x20, #33
	movi	v0.16b, #208
	ldur	q2, [x10, #-16]
	add	x11, x19, x9
	ldur	q3, [x10, #-17]
	movi	v4.16b, #47
	ldur	q1, [x11, #1]
	and	v1.16b, v1.16b, v0.16b
	and	v0.16b, v2.16b, v0.16b
	ldr	q2, [x11]
	orr	v1.16b, v1.16b, v2.16b
	orr	v0.16b, v0.16b, v3.16b
	cmeq	v1.16b, v1.16b, v4.16b
	cmeq	v2.16b, v0.16b, v4.16b
	ldr	q0, [x21, :lo12:.Lunix_path_CPI41_0]
	and	v1.16b, v1.16b, v0.16b
	and	v2.16b, v2.16b, v0.16b
	addp	v1.16b, v1.16b, v1.16b
	addp	v2.16b, v2.16b, v2.16b
	addp	v1.16b, v1.16b, v1.16b
	addp	v2.16b, v2.16b, v2.16b
	addp	v1.16b, v1.16b, v1.16b
	addp	v2.16b, v2.16b, v2.16b
	orr	v1.16b, v2.16b, v1.16b
	umov	w10, v1.h[0]
	cbz	w10, .Lunix_path_BB41_35
	sub	x9, x20, #19
.Lunix_path_BB41_28:
	mov	x10, xzr
	b	.Lunix_path_BB41_32
.Lunix_path_BB41_29:
	movi	v4.16b, #46
	ldur	q5, [x11, #2]
	ldur	q6, [x11, #3]
	cmeq	v1.16b, v1.16b, v2.16b
	cmeq	v6.16b, v6.16b, v2.16b
	cmeq	v7.16b, v5.16b, v4.16b
	cmeq	v5.16b, v5.16b, v2.16b
	cmeq	v4.16b, v0.16b, v4.16b
	cmeq	v0.16b, v0.16b, v2.16b
	and	v1.16b, v1.16b, v3.16b
	and	v6.16b, v7.16b, v6.16b
	orr	v5.16b, v5.16b, v6.16b
	and	v4.16b, v4.16b, v5.16b
	orr	v0.16b, v0.16b, v4.16b
	and	v0.16b, v1.16b, v0.16b
	addp	v0.16b, v0.16b, v0.16b
	addp	v0.16b, v0.16b, v0.16b
	addp	v0.16b, v0.16b, v0.16b
	umov	w11, v0.h[0]
	orr	w11, w11, #0x10000
	rbit	w11, w11
	clz	w11, w11
	cmp	w11, #15
	b.ls	.Lunix_path_BB41_34
	add	x10, x10, #16
.Lunix_path_BB41_31:
	cmp	x10, x9
	b.hs	.Lunix_path_BB41_22
.Lunix_path_BB41_32:
	movi	v1.16b, #208
	add	x11, x19, x10
	movi	v2.16b, #47
	ldur	q0, [x11, #1]
	and	v3.16b, v0.16b, v1.16b
	ldr	q1, [x11]
	orr	v3.16b, v3.16b, v1.16b
	cmeq	v4.16b, v3.16b, v2.16b
	ldr	q3, [x21, :lo12:.Lunix_path_CPI41_0]
	and	v4.16b, v4.16b, v3.16b
	addp	v4.16b, v4.16b, v4.16b
	addp	v4.16b, v4.16b, v4.16b
	addp	v4.16b, v4.16b, v4.16b
	umov	w12, v4.h[0]
	cbnz	w12, .Lunix_path_BB41_29
	add	x10, x10, #16
	cmp	x10, x9
	b.lo	.Lunix_path_BB41_32
	b	.Lunix_path_BB41_31
.Lunix_path_BB41_34:
	add	x8, x10, w11, uxtw
	b	.Lunix_path_BB41_40
.Lunix_path_BB41_35:
	cbz	x9, .Lunix_path_BB41_42
	mov	x10, xzr
.Lunix_path_BB41_37:
	movi	v1.16b, #208
	add	x11, x19, x10
	movi	v5.16b, #47
	ldur	q2, [x11, #1]
	ldur	q3, [x11, #17]
	and	v2.16b, v2.16b, v1.16b
	and	v1.16b, v3.16b, v1.16b
	ldp	q3, q4, [x11]
	orr	v2.16b, v2.16b, v3.16b
	orr	v1.16b, v1.16b, v4.16b
	cmeq	v2.16b, v2.16b, v5.16b
	cmeq	v1.16b, v1.16b, v5.16b
	and	v2.16b, v2.16b, v0.16b
	and	v1.16b, v1.16b, v0.16b
	addp	v2.16b, v2.16b, v2.16b
	addp	v1.16b, v1.16b, v1.16b
	addp	v2.16b, v2.16b, v2.16b
	addp	v1.16b, v1.16b, v1.16b
	addp	v2.16b, v2.16b, v2.16b
	addp	v1.16b, v1.16b, v1.16b
	orr	v1.16b, v1.16b, v2.16b
	umov	w11, v1.h[0]
	cbnz	w11, .Lunix_path_BB41_19
	add	x10, x10, #32
	mov	w0, wzr
	cmp	x10, x9
	b.lo	.Lunix_path_BB41_37
	b	.Lunix_path_BB41_3
.Lunix_path_BB41_39:
	add	x8, x8, #16
.Lunix_path_BB41_40:
	cmp	x8, x20
	b.lo	.Lunix_path_BB41_98
.Lunix_path_BB41_41:
	cmp	x8, x20
	b.ne	.Lunix_path_BB41_43
.Lunix_path_BB41_42:
	mov	w0, wzr
	ldp	x20, x19, [sp, #32]
	ldp	x22, x21, [sp, #16]
	ldp	x29, x30, [sp], #48
	ret
.Lunix_path_BB41_43:
	ldrb	w8, [x19]
	cmp	w8, #47
	b.eq	.Lunix_path_BB41_46
	cmp	w8, #46
	b.ne	.Lunix_path_BB41_104
	cmp	x20, #1
	b.ne	.Lunix_path_BB41_105
.Lunix_path_BB41_46:
	mov	w22, #1
.Lunix_path_BB41_47:
	mov	x8, x20
	b	.Lunix_path_BB41_49
.Lunix_path_BB41_48:
	mov	x8, x1
	cbz	x1, .Lunix_path_BB41_42
.Lunix_path_BB41_49:
	subs	x1, x8, #1
	b.eq	.Lunix_path_BB41_55
	add	x9, x19, x1
	ldrb	w10, [x9]
	cmp	w10, #47
	b.eq	.Lunix_path_BB41_53
	cmp	w10, #46
	b.ne	.Lunix_path_BB41_55
	ldurb	w9, [x9, #-1]
	cmp	w9, #47
	b.ne	.Lunix_path_BB41_55
.Lunix_path_BB41_53:
	sub	x8, x20, x1
	cmp	x8, #8
	b.ne	.Lunix_path_BB41_48
	mov	x0, x19
	bl	unix_path.filler.trimmed_blocks_len
	mov	x1, x0
	b	.Lunix_path_BB41_48
.Lunix_path_BB41_55:
	mov	x9, xzr
	mov	x11, x8
	mov	x10, x19
	b	.Lunix_path_BB41_59
.Lunix_path_BB41_56:
	mov	x11, xzr
.Lunix_path_BB41_57:
	add	x11, x11, x12
.Lunix_path_BB41_58:
	add	x9, x11, x9
	mov	w22, wzr
	mov	w0, wzr
	subs	x11, x8, x9
	add	x10, x19, x9
	b.eq	.Lunix_path_BB41_3
.Lunix_path_BB41_59:
	tbz	w22, #0, .Lunix_path_BB41_67
	subs	x13, x11, #1
	b.eq	.Lunix_path_BB41_91
	mov	x12, xzr
	sub	x11, x11, #2
	b	.Lunix_path_BB41_63
.Lunix_path_BB41_62:
	add	x12, x12, #1
	cmp	x13, x12
	b.eq	.Lunix_path_BB41_89
.Lunix_path_BB41_63:
	add	x14, x10, x12
	ldrb	w14, [x14, #1]
	cmp	w14, #47
	b.eq	.Lunix_path_BB41_62
	cmp	w14, #46
	b.ne	.Lunix_path_BB41_90
	cmp	x11, x12
	b.eq	.Lunix_path_BB41_89
	add	x14, x10, x12
	ldrb	w14, [x14, #2]
	cmp	w14, #47
	b.eq	.Lunix_path_BB41_62
	b	.Lunix_path_BB41_90
.Lunix_path_BB41_67:
	cmp	x11, #1
	b.eq	.Lunix_path_BB41_72
	ldrb	w12, [x10]
	cmp	w12, #46
	b.ne	.Lunix_path_BB41_72
	ldrb	w12, [x10, #1]
	cmp	w12, #46
	b.ne	.Lunix_path_BB41_72
	cmp	x11, #2
	b.eq	.Lunix_path_BB41_94
	ldrb	w12, [x10, #2]
	cmp	w12, #47
	b.eq	.Lunix_path_BB41_94
.Lunix_path_BB41_72:
	cmp	x11, #15
	b.hi	.Lunix_path_BB41_77
	mov	x12, xzr
.Lunix_path_BB41_74:
	ldrb	w13, [x10, x12]
	cmp	w13, #47
	b.eq	.Lunix_path_BB41_82
	add	x12, x12, #1
	cmp	x11, x12
	b.ne	.Lunix_path_BB41_74
	mov	x12, x11
	subs	x13, x11, x11
	b.ne	.Lunix_path_BB41_83
	b	.Lunix_path_BB41_56
.Lunix_path_BB41_77:
	subs	x12, x11, #16
	b.eq	.Lunix_path_BB41_81
	mov	x13, xzr
.Lunix_path_BB41_79:
	movi	v0.16b, #47
	ldr	q1, [x10, x13]
	cmeq	v0.16b, v1.16b, v0.16b
	ldr	q1, [x21, :lo12:.Lunix_path_CPI41_0]
	and	v0.16b, v0.16b, v1.16b
	addp	v0.16b, v0.16b, v0.16b
	addp	v0.16b, v0.16b, v0.16b
	addp	v0.16b, v0.16b, v0.16b
	umov	w14, v0.h[0]
	orr	w14, w14, #0x10000
	rbit	w14, w14
	clz	w14, w14
	cmp	w14, #15
	b.ls	.Lunix_path_BB41_93
	add	x13, x13, #16
	cmp	x13, x12
	b.lo	.Lunix_path_BB41_79
.Lunix_path_BB41_81:
	movi	v0.16b, #47
	ldr	q1, [x10, x12]
	cmeq	v0.16b, v1.16b, v0.16b
	ldr	q1, [x21, :lo12:.Lunix_path_CPI41_0]
	and	v0.16b, v0.16b, v1.16b
	addp	v0.16b, v0.16b, v0.16b
	addp	v0.16b, v0.16b, v0.16b
	addp	v0.16b, v0.16b, v0.16b
	umov	w13, v0.h[0]
	orr	w13, w13, #0x10000
	rbit	w13, w13
	clz	w13, w13
	add	x12, x12, x13
.Lunix_path_BB41_82:
	subs	x13, x11, x12
	b.eq	.Lunix_path_BB41_56
.Lunix_path_BB41_83:
	mov	x11, xzr
	add	x10, x10, x12
	sub	x14, x13, #1
	b	.Lunix_path_BB41_85
.Lunix_path_BB41_84:
	add	x11, x11, #1
	cmp	x13, x11
	b.eq	.Lunix_path_BB41_92
.Lunix_path_BB41_85:
	ldrb	w15, [x10, x11]
	cmp	w15, #47
	b.eq	.Lunix_path_BB41_84
	cmp	w15, #46
	b.ne	.Lunix_path_BB41_57
	cmp	x14, x11
	b.eq	.Lunix_path_BB41_92
	add	x15, x10, x11
	ldrb	w15, [x15, #1]
	cmp	w15, #47
	b.eq	.Lunix_path_BB41_84
	b	.Lunix_path_BB41_57
.Lunix_path_BB41_89:
	mov	x12, x13
.Lunix_path_BB41_90:
	add	x11, x12, #1
.Lunix_path_BB41_91:
	ldrb	w10, [x10]
	cmp	w10, #47
	b.ne	.Lunix_path_BB41_58
	b	.Lunix_path_BB41_94
.Lunix_path_BB41_92:
	mov	x11, x13
	b	.Lunix_path_BB41_57
.Lunix_path_BB41_93:
	add	x12, x13, w14, uxtw
	subs	x13, x11, x12
	b.ne	.Lunix_path_BB41_83
	b	.Lunix_path_BB41_56
.Lunix_path_BB41_94:
	mov	w0, #1
	ldp	x20, x19, [sp, #32]
	ldp	x22, x21, [sp, #16]
	ldp	x29, x30, [sp], #48
	ret
.Lunix_path_BB41_95:
	add	x10, x19, x8
	ldrb	w10, [x10, #3]
.Lunix_path_BB41_96:
	cmp	w10, #47
	b.eq	.Lunix_path_BB41_41
.Lunix_path_BB41_97:
	mov	w0, wzr
	cmp	x9, x20
	mov	x8, x9
	b.hs	.Lunix_path_BB41_3
.Lunix_path_BB41_98:
	ldrb	w9, [x19, x8]
	cmp	w9, #47
	add	x9, x8, #1
	b.ne	.Lunix_path_BB41_97
	cmp	x20, x9
	b.ls	.Lunix_path_BB41_41
	add	x10, x19, x8
	ldrb	w10, [x10, #1]
	cmp	w10, #46
	b.ne	.Lunix_path_BB41_96
	add	x10, x8, #2
	cmp	x20, x10
	b.ls	.Lunix_path_BB41_41
	add	x10, x19, x8
	ldrb	w10, [x10, #2]
	cmp	w10, #46
	b.ne	.Lunix_path_BB41_96
	add	x10, x8, #3
	cmp	x20, x10
	b.hi	.Lunix_path_BB41_95
	b	.Lunix_path_BB41_41
.Lunix_path_BB41_104:
	mov	w22, wzr
	b	.Lunix_path_BB41_47
.Lunix_path_BB41_105:
	ldrb	w8, [x19, #1]
	cmp	w8, #47
	cset	w22, eq
	b	.Lunix_path_BB41_47
.Lunix_path_func_end41:
	.size	path_archive.outlined.has_root_or_parent_dir, .Lunix_path_func_end41-path_archive.outlined.has_root_or_parent_dir
	.section	.text.std_alloc.string.String.format.7c436104ea11042b.,"ax",@progbits
	.p2align	2
	.type	std_alloc.string.String.format.7c436104ea11042b.,@function
// std_alloc::string::String::format::<#7c436104ea11042b>
std_alloc.string.String.format.7c436104ea11042b.:
	sub	sp, sp, #240
	mov	x8, x1
	stp	x29, x30, [sp, #144]
	add	x29, sp, #144
	stp	x26, x25, [sp, #176]
	mov	w10, #32
	mov	x9, #-1
	ldp	x2, x26, [x1, #8]
	stp	x24, x23, [sp, #192]
	stp	x22, x21, [sp, #208]
	mov	x24, xzr
	ldr	x1, [x1]
	stp	x20, x19, [sp, #224]
	ldp	x20, x21, [x8, #24]
	str	w10, [sp, #56]
	mov	x19, x0
	add	x23, x29, #31
	stur	xzr, [sp, #60]
	str	wzr, [sp, #68]
	stp	x9, xzr, [sp, #72]
	ldur	q0, [sp, #56]
	stur	x9, [x29, #-32]
	mov	x9, xzr
	str	w10, [sp, #56]
	neg	x10, xzr
	cmp	x2, x10
	str	x27, [sp, #160]
	stp	xzr, xzr, [sp, #8]
	str	xzr, [sp]
	stur	xzr, [sp, #23]
	stp	xzr, xzr, [sp, #40]
	str	x23, [sp, #32]
	str	xzr, [sp, #88]
	stur	q0, [x29, #-48]
	str	wzr, [sp, #68]
	stur	xzr, [sp, #60]
	str	wzr, [sp, #68]
	stur	xzr, [sp, #60]
	b.hi	.Lunix_path_BB42_16
	add	x0, x23, x9
	add	x22, sp, #32
	add	x25, x9, x2
	sub	x8, x0, x1
	cmp	x8, x2
	b.hs	.Lunix_path_BB42_18
.Lunix_path_BB42_2:
	cmp	x2, #8
	b.lo	.Lunix_path_BB42_4
	add	x8, x9, x23
	sub	x8, x8, x1
	cmp	x8, #32
	b.hs	.Lunix_path_BB42_7
.Lunix_path_BB42_4:
	mov	x8, xzr
.Lunix_path_BB42_5:
	add	x10, x8, x9
	sub	x9, x2, x8
	add	x8, x1, x8
	add	x10, x23, x10
.Lunix_path_BB42_6:
	ldrb	w11, [x8], #1
	subs	x9, x9, #1
	strb	w11, [x10], #1
	b.ne	.Lunix_path_BB42_6
	b	.Lunix_path_BB42_19
.Lunix_path_BB42_7:
	cmp	x2, #32
	b.hs	.Lunix_path_BB42_9
	mov	x8, xzr
	b	.Lunix_path_BB42_13
.Lunix_path_BB42_9:
	add	x12, x9, x23
	and	x10, x2, #0x18
	and	x8, x2, #0xffffffffffffffe0
	add	x11, x1, #16
	add	x12, x12, #16
	and	x13, x2, #0xffffffffffffffe0
.Lunix_path_BB42_10:
	ldp	q0, q1, [x11, #-16]
	subs	x13, x13, #32
	add	x11, x11, #32
	stp	q0, q1, [x12, #-16]
	add	x12, x12, #32
	b.ne	.Lunix_path_BB42_10
	cmp	x2, x8
	b.eq	.Lunix_path_BB42_19
	cbz	x10, .Lunix_path_BB42_5
.Lunix_path_BB42_13:
	mov	x11, x8
	and	x8, x2, #0xfffffffffffffff8
	add	x12, x9, x11
	sub	x10, x11, x8
	add	x11, x1, x11
	add	x12, x23, x12
.Lunix_path_BB42_14:
	ldr	d0, [x11], #8
	adds	x10, x10, #8
	str	d0, [x12], #8
	b.ne	.Lunix_path_BB42_14
	cmp	x2, x8
	b.eq	.Lunix_path_BB42_19
	b	.Lunix_path_BB42_5
.Lunix_path_BB42_16:
	mov	x22, x1
	add	x0, sp, #32
	mov	x1, x2
	mov	x25, x2
	bl	std_alloc.vec.Vec.grow_amortized.f4a78633ca2a48c6.
	cbz	w0, .Lunix_path_BB42_56
	ldp	x9, x24, [sp, #40]
	mov	x1, x22
	ldr	x23, [sp, #32]
	mov	x2, x25
	add	x0, x23, x9
	add	x22, sp, #32
	add	x25, x9, x25
	sub	x8, x0, x1
	cmp	x8, x2
	b.lo	.Lunix_path_BB42_2
.Lunix_path_BB42_18:
	bl	memmove
.Lunix_path_BB42_19:
	mov	w8, #32
	stp	x23, x25, [sp, #32]
	str	w8, [sp, #56]
	mov	x8, #-1
	str	x8, [sp, #72]
	ldr	x8, [x26]
	str	x24, [sp, #48]
	cmp	x8, #100
	stur	xzr, [x22, #28]
	stur	wzr, [x22, #36]
	stp	xzr, xzr, [x29, #-24]
	stur	xzr, [x29, #-8]
	b.lo	.Lunix_path_BB42_24
	mov	x9, xzr
.Lunix_path_BB42_21:
	mov	x11, #62915
	mov	x10, x8
	lsr	x8, x8, #2
	movk	x11, #23592, lsl #16
	mov	w12, #205
	movk	x11, #49807, lsl #32
	movk	x11, #10485, lsl #48
	umulh	x8, x8, x11
	mov	w11, #100
	lsr	x8, x8, #2
	msub	w11, w8, w11, w10
	lsr	x10, x10, #4
	cmp	x10, #624
	and	w13, w11, #0xff
	mul	w12, w13, w12
	mov	w13, #10
	lsr	w12, w12, #11
	msub	w11, w12, w13, w11
	sub	x13, x29, #24
	orr	w10, w12, #0x30
	add	x13, x13, x9
	sub	x9, x9, #2
	strb	w10, [x13, #22]
	orr	w11, w11, #0x30
	strb	w11, [x13, #23]
	b.hi	.Lunix_path_BB42_21
	add	x9, x9, #24
	cmp	x8, #10
	b.hs	.Lunix_path_BB42_25
.Lunix_path_BB42_23:
	sub	x9, x9, #1
	sub	x10, x29, #24
	orr	w8, w8, #0x30
	strb	w8, [x10, x9]
	b	.Lunix_path_BB42_26
.Lunix_path_BB42_24:
	mov	w9, #24
	cmp	x8, #10
	b.lo	.Lunix_path_BB42_23
.Lunix_path_BB42_25:
	and	w10, w8, #0xff
	mov	w11, #205
	mul	w10, w10, w11
	mov	w11, #10
	lsr	w10, w10, #11
	msub	w8, w10, w11, w8
	sub	x11, x29, #24
	orr	w10, w10, #0x30
	add	x11, x11, x9
	sub	x9, x9, #2
	sturb	w10, [x11, #-2]
	orr	w8, w8, #0x30
	sturb	w8, [x11, #-1]
.Lunix_path_BB42_26:
	sub	x8, x29, #24
	ldr	x10, [sp, #80]
	mov	w11, #24
	add	x1, x8, x9
	mov	w8, #45
	sub	x2, x11, x9
	sturb	w8, [x1, #-1]
	cbnz	x10, .Lunix_path_BB42_39
	sub	x8, x24, x25
	cmp	x2, x8
	b.hi	.Lunix_path_BB42_40
.Lunix_path_BB42_28:
	add	x0, x23, x25
	add	x26, x25, x2
	bl	memcpy
	stp	x26, x24, [sp, #40]
.Lunix_path_BB42_29:
	mov	w8, #32
	ldr	x9, [sp, #80]
	stur	xzr, [x22, #28]
	str	w8, [sp, #56]
	mov	x8, #-1
	stur	wzr, [x22, #36]
	str	x8, [sp, #72]
	cbnz	x9, .Lunix_path_BB42_42
	ldp	x8, x23, [sp, #40]
	sub	x9, x23, x8
	cmp	x21, x9
	b.hi	.Lunix_path_BB42_50
	ldr	x9, [sp, #32]
	add	x24, x8, x21
	add	x0, x9, x8
	sub	x10, x0, x20
	cmp	x10, x21
	b.hs	.Lunix_path_BB42_52
.Lunix_path_BB42_32:
	cmp	x21, #8
	b.lo	.Lunix_path_BB42_34
	add	x10, x8, x9
	sub	x10, x10, x20
	cmp	x10, #32
	b.hs	.Lunix_path_BB42_37
.Lunix_path_BB42_34:
	mov	x10, xzr
.Lunix_path_BB42_35:
	add	x11, x10, x8
	sub	x8, x21, x10
	add	x10, x20, x10
	add	x9, x9, x11
.Lunix_path_BB42_36:
	ldrb	w11, [x10], #1
	subs	x8, x8, #1
	strb	w11, [x9], #1
	b.ne	.Lunix_path_BB42_36
	b	.Lunix_path_BB42_53
.Lunix_path_BB42_37:
	cmp	x21, #32
	b.hs	.Lunix_path_BB42_43
	mov	x10, xzr
	b	.Lunix_path_BB42_47
.Lunix_path_BB42_39:
	add	x0, sp, #32
	bl	core.fmt.formatter.Formatter.write_indented.ccd77059cb37763e.
	and	w8, w0, #0xff
	tbnz	w8, #0, .Lunix_path_BB42_56
	b	.Lunix_path_BB42_29
.Lunix_path_BB42_40:
	mov	x26, x1
	add	x0, sp, #32
	mov	x1, x2
	mov	x27, x2
	bl	std_alloc.vec.Vec.grow_amortized.f4a78633ca2a48c6.
	cbz	w0, .Lunix_path_BB42_56
	ldp	x25, x24, [sp, #40]
	mov	x1, x26
	ldr	x23, [sp, #32]
	mov	x2, x27
	b	.Lunix_path_BB42_28
.Lunix_path_BB42_42:
	add	x0, sp, #32
	mov	x1, x20
	mov	x2, x21
	bl	core.fmt.formatter.Formatter.write_indented.ccd77059cb37763e.
	ldur	q0, [x29, #-48]
	ldur	x8, [x29, #-32]
	tst	w0, #0xff
	stur	q0, [x22, #24]
	stur	x8, [x22, #40]
	b.ne	.Lunix_path_BB42_56
	b	.Lunix_path_BB42_54
.Lunix_path_BB42_43:
	add	x13, x8, x9
	and	x11, x21, #0x18
	and	x10, x21, #0xffffffffffffffe0
	add	x12, x20, #16
	add	x13, x13, #16
	and	x14, x21, #0xffffffffffffffe0
.Lunix_path_BB42_44:
	ldp	q0, q1, [x12, #-16]
	subs	x14, x14, #32
	add	x12, x12, #32
	stp	q0, q1, [x13, #-16]
	add	x13, x13, #32
	b.ne	.Lunix_path_BB42_44
	cmp	x21, x10
	b.eq	.Lunix_path_BB42_53
	cbz	x11, .Lunix_path_BB42_35
.Lunix_path_BB42_47:
	mov	x12, x10
	and	x10, x21, #0xfffffffffffffff8
	add	x13, x8, x12
	sub	x11, x12, x10
	add	x12, x20, x12
	add	x13, x9, x13
.Lunix_path_BB42_48:
	ldr	d0, [x12], #8
	adds	x11, x11, #8
	str	d0, [x13], #8
	b.ne	.Lunix_path_BB42_48
	cmp	x21, x10
	b.eq	.Lunix_path_BB42_53
	b	.Lunix_path_BB42_35
.Lunix_path_BB42_50:
	add	x0, sp, #32
	mov	x1, x21
	bl	std_alloc.vec.Vec.grow_amortized.f4a78633ca2a48c6.
	cbz	w0, .Lunix_path_BB42_56
	ldp	x8, x23, [sp, #40]
	ldr	x9, [sp, #32]
	add	x24, x8, x21
	add	x0, x9, x8
	sub	x10, x0, x20
	cmp	x10, x21
	b.lo	.Lunix_path_BB42_32
.Lunix_path_BB42_52:
	mov	x1, x20
	mov	x2, x21
	bl	memmove
.Lunix_path_BB42_53:
	ldur	q0, [x29, #-48]
	ldur	x8, [x29, #-32]
	stp	x24, x23, [sp, #40]
	stur	q0, [x22, #24]
	stur	x8, [x22, #40]
.Lunix_path_BB42_54:
	ldr	q0, [sp, #32]
	ldr	x9, [sp, #48]
	mov	w8, wzr
	stur	q0, [sp, #7]
	stur	x9, [sp, #23]
.Lunix_path_BB42_55:
	ldur	q0, [sp, #7]
	strb	w8, [x19]
	ldur	x8, [sp, #23]
	ldp	x22, x21, [sp, #208]
	ldr	x27, [sp, #160]
	stur	q0, [x19, #8]
	ldp	x24, x23, [sp, #192]
	str	x8, [x19, #24]
	ldp	x20, x19, [sp, #224]
	ldp	x26, x25, [sp, #176]
	ldp	x29, x30, [sp, #144]
	add	sp, sp, #240
	ret
.Lunix_path_BB42_56:
	ldr	x8, [sp, #48]
	cbz	x8, .Lunix_path_BB42_58
	ldr	x0, [sp, #32]
	bl	rattle_dealloc
.Lunix_path_BB42_58:
	mov	w8, #1
	b	.Lunix_path_BB42_55
.Lunix_path_func_end42:
	.size	std_alloc.string.String.format.7c436104ea11042b., .Lunix_path_func_end42-std_alloc.string.String.format.7c436104ea11042b.
	.section	.text.unlikely.core.fmt.formatter.Formatter.write_indented.ccd77059cb37763e.,"ax",@progbits
	.p2align	2
	.type	core.fmt.formatter.Formatter.write_indented.ccd77059cb37763e.,@function
// core::fmt::formatter::Formatter::write_indented::<#ccd77059cb37763e>
core.fmt.formatter.Formatter.write_indented.ccd77059cb37763e.:
	stp	x29, x30, [sp, #-80]!
	str	x25, [sp, #16]
	mov	x29, sp
	stp	x24, x23, [sp, #32]
	stp	x22, x21, [sp, #48]
	stp	x20, x19, [sp, #64]
	cbz	x2, .Lunix_path_BB43_16
	mov	x21, x2
	mov	x20, x1
	mov	x19, x0
	mov	x8, xzr
	mov	x24, xzr
	b	.Lunix_path_BB43_4
.Lunix_path_BB43_2:
	mov	w23, #1
	add	x1, x20, x25
	mov	x0, x19
	mov	x2, x22
	strb	w23, [x19, #56]
	bl	core.fmt.formatter.Formatter.write_raw.ccd77059cb37763e.
	and	w9, w0, #0xff
	mov	x8, x24
	tbnz	w9, #0, .Lunix_path_BB43_18
.Lunix_path_BB43_3:
	cmp	x24, x21
	b.eq	.Lunix_path_BB43_10
.Lunix_path_BB43_4:
	ldrb	w10, [x20, x24]
	mov	x9, x24
	add	x24, x24, #1
	cmp	w10, #10
	b.ne	.Lunix_path_BB43_3
	subs	x22, x24, x8
	csel	x25, xzr, x8, lo
	cmp	x8, x9
	mov	x8, x24
	b.hi	.Lunix_path_BB43_3
	ldrb	w8, [x19, #56]
	cmp	w8, #1
	b.ne	.Lunix_path_BB43_2
	ldr	x23, [x19, #48]
	cbz	x23, .Lunix_path_BB43_2
.Lunix_path_BB43_8:
	adrp	x1, .Lunix_path_static.56
	add	x1, x1, :lo12:.Lunix_path_static.56
	mov	x0, x19
	mov	w2, #4
	bl	core.fmt.formatter.Formatter.write_raw.ccd77059cb37763e.
	and	w8, w0, #0xff
	tbnz	w8, #0, .Lunix_path_BB43_17
	subs	x23, x23, #1
	b.ne	.Lunix_path_BB43_8
	b	.Lunix_path_BB43_2
.Lunix_path_BB43_10:
	cmp	x8, x21
	csel	x22, xzr, x8, hi
	subs	x8, x21, x8
	csel	x21, xzr, x8, lo
	b.ls	.Lunix_path_BB43_16
	ldrb	w8, [x19, #56]
	cmp	w8, #1
	b.ne	.Lunix_path_BB43_15
	ldr	x23, [x19, #48]
	cbz	x23, .Lunix_path_BB43_15
.Lunix_path_BB43_13:
	adrp	x1, .Lunix_path_static.56
	add	x1, x1, :lo12:.Lunix_path_static.56
	mov	x0, x19
	mov	w2, #4
	bl	core.fmt.formatter.Formatter.write_raw.ccd77059cb37763e.
	and	w8, w0, #0xff
	tbnz	w8, #0, .Lunix_path_BB43_17
	subs	x23, x23, #1
	b.ne	.Lunix_path_BB43_13
.Lunix_path_BB43_15:
	add	x1, x20, x22
	mov	x0, x19
	mov	x2, x21
	strb	wzr, [x19, #56]
	ldp	x20, x19, [sp, #64]
	ldp	x22, x21, [sp, #48]
	ldr	x25, [sp, #16]
	ldp	x24, x23, [sp, #32]
	ldp	x29, x30, [sp], #80
	b	core.fmt.formatter.Formatter.write_raw.ccd77059cb37763e.
.Lunix_path_BB43_16:
	mov	w23, wzr
	b	.Lunix_path_BB43_18
.Lunix_path_BB43_17:
	mov	w23, #1
.Lunix_path_BB43_18:
	mov	w0, w23
	ldp	x20, x19, [sp, #64]
	ldp	x22, x21, [sp, #48]
	ldr	x25, [sp, #16]
	ldp	x24, x23, [sp, #32]
	ldp	x29, x30, [sp], #80
	ret
.Lunix_path_func_end43:
	.size	core.fmt.formatter.Formatter.write_indented.ccd77059cb37763e., .Lunix_path_func_end43-core.fmt.formatter.Formatter.write_indented.ccd77059cb37763e.
	.section	.text.core.fmt.formatter.Formatter.write_raw.ccd77059cb37763e.,"ax",@progbits
	.p2align	2
	.type	core.fmt.formatter.Formatter.write_raw.ccd77059cb37763e.,@function
// core::fmt::formatter::Formatter::write_raw::<#ccd77059cb37763e>
core.fmt.formatter.Formatter.write_raw.ccd77059cb37763e.:
	cbz	x2, .Lunix_path_BB44_21
	mov	x9, xzr
	b	.Lunix_path_BB44_4
.Lunix_path_BB44_2:
	mov	w8, #1
.Lunix_path_BB44_3:
	add	x9, x8, x9
	cmp	x9, x2
	b.hs	.Lunix_path_BB44_21
.Lunix_path_BB44_4:
	ldrsb	w8, [x1, x9]
	tbz	w8, #31, .Lunix_path_BB44_2
	add	x10, x9, #1
	cmp	x2, x10
	b.ls	.Lunix_path_BB44_28
	ldrsb	w11, [x1, x10]
	tbz	w11, #31, .Lunix_path_BB44_28
	and	w10, w8, #0xff
	cmn	w11, #64
	mov	w8, #-64
	csel	w11, w11, w8, lo
	cmp	w10, #194
	mov	w8, #1
	b.lo	.Lunix_path_BB44_32
	and	w11, w11, #0x7f
	cmp	w11, #63
	b.hi	.Lunix_path_BB44_32
	cmp	w10, #224
	b.hs	.Lunix_path_BB44_11
	mov	w8, #2
	b	.Lunix_path_BB44_3
.Lunix_path_BB44_11:
	add	x8, x9, #2
	cmp	x2, x8
	b.ls	.Lunix_path_BB44_28
	ldrsb	w8, [x1, x8]
	cmn	w8, #65
	b.gt	.Lunix_path_BB44_28
	cmp	w10, #239
	b.hi	.Lunix_path_BB44_17
	lsl	w8, w10, #12
	add	w8, w8, w11, lsl #6
	sub	w8, w8, #224, lsl #12
	cmp	w8, #2048
	b.lo	.Lunix_path_BB44_28
	lsr	w8, w8, #11
	cmp	w8, #27
	mov	w8, #3
	b.lo	.Lunix_path_BB44_3
	cmp	w10, #238
	b.hs	.Lunix_path_BB44_3
	b	.Lunix_path_BB44_28
.Lunix_path_BB44_17:
	add	x8, x9, #3
	cmp	x2, x8
	b.ls	.Lunix_path_BB44_28
	ldrsb	w8, [x1, x8]
	cmn	w8, #65
	b.gt	.Lunix_path_BB44_28
	lsl	w8, w10, #18
	mov	w10, #-62980096
	add	w8, w8, w11, lsl #12
	add	w8, w8, w10
	lsr	w8, w8, #20
	cbnz	w8, .Lunix_path_BB44_28
	mov	w8, #4
	b	.Lunix_path_BB44_3
.Lunix_path_BB44_21:
	stp	x29, x30, [sp, #-48]!
	stp	x22, x21, [sp, #16]
	mov	x22, x0
	mov	x29, sp
	stp	x20, x19, [sp, #32]
	ldp	x9, x19, [x22, #8]!
	sub	x8, x19, x9
	cmp	x2, x8
	b.hi	.Lunix_path_BB44_42
.Lunix_path_BB44_22:
	ldr	x20, [x0]
	add	x21, x9, x2
	stp	xzr, xzr, [x22]
	add	x8, x20, x9
	sub	x10, x8, x1
	cmp	x10, x2
	b.hs	.Lunix_path_BB44_29
	cmp	x2, #8
	b.lo	.Lunix_path_BB44_25
	add	x8, x9, x20
	sub	x8, x8, x1
	cmp	x8, #32
	b.hs	.Lunix_path_BB44_33
.Lunix_path_BB44_25:
	mov	x8, xzr
.Lunix_path_BB44_26:
	add	x10, x8, x9
	sub	x9, x2, x8
	add	x8, x1, x8
	add	x10, x20, x10
.Lunix_path_BB44_27:
	ldrb	w11, [x8], #1
	subs	x9, x9, #1
	strb	w11, [x10], #1
	b.ne	.Lunix_path_BB44_27
	b	.Lunix_path_BB44_30
.Lunix_path_BB44_28:
	mov	w0, #1
	ret
.Lunix_path_BB44_29:
	mov	x22, x0
	mov	x0, x8
	bl	memmove
	mov	x0, x22
.Lunix_path_BB44_30:
	mov	w8, wzr
	stp	x20, x21, [x0]
	str	x19, [x0, #16]
.Lunix_path_BB44_31:
	ldp	x20, x19, [sp, #32]
	ldp	x22, x21, [sp, #16]
	ldp	x29, x30, [sp], #48
.Lunix_path_BB44_32:
	mov	w0, w8
	ret
.Lunix_path_BB44_33:
	cmp	x2, #32
	b.hs	.Lunix_path_BB44_35
	mov	x8, xzr
	b	.Lunix_path_BB44_39
.Lunix_path_BB44_35:
	add	x12, x9, x20
	and	x10, x2, #0x18
	and	x8, x2, #0xffffffffffffffe0
	add	x11, x1, #16
	add	x12, x12, #16
	and	x13, x2, #0xffffffffffffffe0
.Lunix_path_BB44_36:
	ldp	q0, q1, [x11, #-16]
	subs	x13, x13, #32
	add	x11, x11, #32
	stp	q0, q1, [x12, #-16]
	add	x12, x12, #32
	b.ne	.Lunix_path_BB44_36
	cmp	x2, x8
	b.eq	.Lunix_path_BB44_30
	cbz	x10, .Lunix_path_BB44_26
.Lunix_path_BB44_39:
	mov	x11, x8
	and	x8, x2, #0xfffffffffffffff8
	add	x12, x9, x11
	sub	x10, x11, x8
	add	x11, x1, x11
	add	x12, x20, x12
.Lunix_path_BB44_40:
	ldr	d0, [x11], #8
	adds	x10, x10, #8
	str	d0, [x12], #8
	b.ne	.Lunix_path_BB44_40
	cmp	x2, x8
	b.eq	.Lunix_path_BB44_30
	b	.Lunix_path_BB44_26
.Lunix_path_BB44_42:
	mov	x20, x1
	mov	x1, x2
	mov	x19, x0
	mov	x21, x2
	bl	std_alloc.vec.Vec.grow_amortized.f4a78633ca2a48c6.
	cbz	w0, .Lunix_path_BB44_44
	mov	x0, x19
	ldp	x9, x19, [x19, #8]
	mov	x2, x21
	mov	x1, x20
	b	.Lunix_path_BB44_22
.Lunix_path_BB44_44:
	mov	w8, #1
	b	.Lunix_path_BB44_31
.Lunix_path_func_end44:
	.size	core.fmt.formatter.Formatter.write_raw.ccd77059cb37763e., .Lunix_path_func_end44-core.fmt.formatter.Formatter.write_raw.ccd77059cb37763e.
	.section	.rodata.cst16,"aM",@progbits,16
	.p2align	4, 0x0
.Lunix_path_CPI45_0:
	.byte	1
	.byte	2
	.byte	4
	.byte	8
	.byte	16
	.byte	32
	.byte	64
	.byte	128
	.byte	1
	.byte	2
	.byte	4
	.byte	8
	.byte	16
	.byte	32
	.byte	64
	.byte	128
	.section	.text.upath_commands.shown.push_shown,"ax",@progbits
	.p2align	2
	.type	upath_commands.shown.push_shown,@function
// upath_commands::shown::push_shown
upath_commands.shown.push_shown:
	sub	sp, sp, #112
	stp	x29, x30, [sp, #16]
	add	x29, sp, #16
	stp	x28, x27, [sp, #32]
	stp	x26, x25, [sp, #48]
	stp	x24, x23, [sp, #64]
	stp	x22, x21, [sp, #80]
	stp	x20, x19, [sp, #96]
	cbz	x1, .Lunix_path_BB45_50
	mov	x19, x2
	mov	x20, x1
	mov	x23, x0
	b	.Lunix_path_BB45_3
.Lunix_path_BB45_2:
	ldr	x9, [sp, #8]
	add	x8, x9, x21
	add	x23, x23, x9
	sub	x20, x20, x8
	cbz	x20, .Lunix_path_BB45_50
.Lunix_path_BB45_3:
	cmp	x20, #15
	b.hi	.Lunix_path_BB45_6
.Lunix_path_BB45_4:
	mov	x0, x23
	mov	x1, x20
	mov	x2, xzr
.Lunix_path_BB45_5:
	bl	unix_bytes.utf8.scans.scan_by_sequence
	mov	x21, x0
	str	x1, [sp, #8]
	adrp	x25, .Lunix_path_static.63
	add	x25, x25, :lo12:.Lunix_path_static.63
	cbnz	x0, .Lunix_path_BB45_14
	b	.Lunix_path_BB45_38
.Lunix_path_BB45_6:
	ldr	q0, [x23]
	adrp	x8, .Lunix_path_CPI45_0
	ldr	q1, [x8, :lo12:.Lunix_path_CPI45_0]
	cmlt	v0.16b, v0.16b, #0
	and	v0.16b, v0.16b, v1.16b
	addp	v0.16b, v0.16b, v0.16b
	addp	v0.16b, v0.16b, v0.16b
	addp	v0.16b, v0.16b, v0.16b
	umov	w8, v0.h[0]
	cbz	w8, .Lunix_path_BB45_12
	umov	w8, v0.h[0]
	orr	w8, w8, #0x10000
	rbit	w8, w8
	clz	w21, w8
	add	x9, x23, x21
	ldrb	w8, [x9]
	sub	w10, w8, #194
	sub	x8, x20, x21
	cmp	w10, #50
	ccmp	x8, #2, #0, ls
	b.lo	.Lunix_path_BB45_11
	ldrsb	w9, [x9, #1]
	cmn	w9, #65
	b.gt	.Lunix_path_BB45_11
	mov	x0, x23
	mov	x1, x20
	mov	x2, x21
	cmp	x8, #31
	b.ls	.Lunix_path_BB45_5
	bl	unix_bytes.utf8.scans.scan_by_window
	mov	x21, x0
	str	x1, [sp, #8]
	adrp	x25, .Lunix_path_static.63
	add	x25, x25, :lo12:.Lunix_path_static.63
	cbnz	x0, .Lunix_path_BB45_14
	b	.Lunix_path_BB45_38
.Lunix_path_BB45_11:
	mov	w8, #1
	str	x8, [sp, #8]
	adrp	x25, .Lunix_path_static.63
	add	x25, x25, :lo12:.Lunix_path_static.63
	cbnz	x21, .Lunix_path_BB45_14
	b	.Lunix_path_BB45_38
.Lunix_path_BB45_12:
	cmp	x20, #31
	b.ls	.Lunix_path_BB45_4
	mov	x0, x23
	mov	x1, x20
	mov	x2, xzr
	bl	unix_bytes.utf8.scans.scan_by_window
	mov	x21, x0
	str	x1, [sp, #8]
	adrp	x25, .Lunix_path_static.63
	add	x25, x25, :lo12:.Lunix_path_static.63
	cbz	x0, .Lunix_path_BB45_38
.Lunix_path_BB45_14:
	mov	x24, x23
	mov	x27, x21
	mov	x26, x23
.Lunix_path_BB45_15:
	ldrb	w28, [x26], #1
	subs	x22, x27, #1
	b.eq	.Lunix_path_BB45_21
	and	w8, w28, #0xff
	cmp	w8, #194
	b.ne	.Lunix_path_BB45_21
	ldrsb	w8, [x26]
	cmn	w8, #97
	b.gt	.Lunix_path_BB45_28
	mov	w0, #194
	mov	x1, x19
	bl	upath_commands.shown.push_escaped
	and	w8, w0, #0xff
	tbnz	w8, #0, .Lunix_path_BB45_51
	ldrb	w0, [x26]
	mov	x1, x19
	bl	upath_commands.shown.push_escaped
	and	w8, w0, #0xff
	tbnz	w8, #0, .Lunix_path_BB45_51
	add	x26, x24, #2
	sub	x22, x27, #2
	mov	x24, x26
	mov	x27, x22
	cbnz	x22, .Lunix_path_BB45_15
	b	.Lunix_path_BB45_38
.Lunix_path_BB45_21:
	and	w8, w28, #0xff
	cmp	w8, #32
	b.lo	.Lunix_path_BB45_24
	cmp	w8, #127
	b.eq	.Lunix_path_BB45_24
	cmp	w8, #92
	b.ne	.Lunix_path_BB45_28
.Lunix_path_BB45_24:
	ldp	x10, x8, [x19, #8]
	sub	x9, x8, x10
	cmp	x9, #1
	b.ls	.Lunix_path_BB45_30
.Lunix_path_BB45_25:
	ldr	x9, [x19]
	add	x11, x9, x10
	add	x10, x10, #2
	sub	x12, x11, x25
	cmp	x12, #1
	mov	w12, #30812
	cmp	x8, x10
	strh	w12, [x11]
	stp	x9, x10, [x19]
	str	x8, [x19, #16]
	b.eq	.Lunix_path_BB45_32
.Lunix_path_BB45_26:
	mov	w8, #48
	mov	w11, #48
	bfxil	w8, w28, #4, #4
	bfxil	w11, w28, #0, #4
	strb	w8, [x9, x10]
	and	w9, w28, #0xf
	add	x8, x10, #1
	ldr	x12, [x19, #16]
	add	w10, w9, #87
	cmp	w9, #10
	csel	w24, w11, w10, lo
	str	x8, [x19, #8]
	cmp	x12, x8
	b.eq	.Lunix_path_BB45_34
.Lunix_path_BB45_27:
	ldr	x9, [x19]
	add	x10, x8, #1
	strb	w24, [x9, x8]
	str	x10, [x19, #8]
	mov	x24, x26
	mov	x27, x22
	cbnz	x22, .Lunix_path_BB45_15
	b	.Lunix_path_BB45_38
.Lunix_path_BB45_28:
	ldp	x8, x9, [x19, #8]
	cmp	x9, x8
	b.eq	.Lunix_path_BB45_36
.Lunix_path_BB45_29:
	ldr	x9, [x19]
	add	x10, x8, #1
	strb	w28, [x9, x8]
	str	x10, [x19, #8]
	mov	x24, x26
	mov	x27, x22
	cbnz	x22, .Lunix_path_BB45_15
	b	.Lunix_path_BB45_38
.Lunix_path_BB45_30:
	mov	x0, x19
	mov	w1, #2
	bl	std_alloc.vec.Vec.grow_amortized.f4a78633ca2a48c6.
	cbz	w0, .Lunix_path_BB45_51
	ldp	x10, x8, [x19, #8]
	b	.Lunix_path_BB45_25
.Lunix_path_BB45_32:
	mov	x0, x19
	mov	w1, #1
	mov	w24, #1
	bl	std_alloc.vec.Vec.grow_amortized.f4a78633ca2a48c6.
	cbz	w0, .Lunix_path_BB45_52
	ldp	x9, x10, [x19]
	b	.Lunix_path_BB45_26
.Lunix_path_BB45_34:
	mov	x0, x19
	mov	w1, #1
	mov	w27, #1
	bl	std_alloc.vec.Vec.grow_amortized.f4a78633ca2a48c6.
	cbz	w0, .Lunix_path_BB45_53
	ldr	x8, [x19, #8]
	b	.Lunix_path_BB45_27
.Lunix_path_BB45_36:
	mov	x0, x19
	mov	w1, #1
	mov	w24, #1
	bl	std_alloc.vec.Vec.grow_amortized.f4a78633ca2a48c6.
	cbz	w0, .Lunix_path_BB45_55
	ldr	x8, [x19, #8]
	b	.Lunix_path_BB45_29
.Lunix_path_BB45_38:
	ldr	x8, [sp, #8]
	add	x23, x23, x21
	cbz	x8, .Lunix_path_BB45_2
	ldr	x8, [x19, #8]
	ldr	x26, [sp, #8]
	mov	x24, x23
	b	.Lunix_path_BB45_41
.Lunix_path_BB45_40:
	ldr	x10, [x19]
	add	x8, x9, #1
	subs	x26, x26, #1
	strb	w22, [x10, x9]
	str	x8, [x19, #8]
	b.eq	.Lunix_path_BB45_2
.Lunix_path_BB45_41:
	ldr	x9, [x19, #16]
	ldrb	w27, [x24], #1
	sub	x10, x9, x8
	cmp	x10, #1
	b.ls	.Lunix_path_BB45_46
.Lunix_path_BB45_42:
	ldr	x10, [x19]
	add	x11, x10, x8
	add	x8, x8, #2
	sub	x12, x11, x25
	cmp	x12, #1
	mov	w12, #30812
	strh	w12, [x11]
	lsr	w11, w27, #4
	cmp	w27, #160
	stp	x10, x8, [x19]
	orr	w12, w11, #0x30
	add	w11, w11, #87
	str	x9, [x19, #16]
	csel	w22, w12, w11, lo
	cmp	x9, x8
	b.eq	.Lunix_path_BB45_48
.Lunix_path_BB45_43:
	strb	w22, [x10, x8]
	mov	w10, #48
	and	w11, w27, #0xf
	bfxil	w10, w27, #0, #4
	ldr	x12, [x19, #16]
	add	x9, x8, #1
	add	w8, w11, #87
	cmp	w11, #10
	str	x9, [x19, #8]
	csel	w22, w10, w8, lo
	cmp	x12, x9
	b.ne	.Lunix_path_BB45_40
	mov	x0, x19
	mov	w1, #1
	mov	w27, #1
	bl	std_alloc.vec.Vec.grow_amortized.f4a78633ca2a48c6.
	cbz	w0, .Lunix_path_BB45_53
	ldr	x9, [x19, #8]
	b	.Lunix_path_BB45_40
.Lunix_path_BB45_46:
	mov	x0, x19
	mov	w1, #2
	bl	std_alloc.vec.Vec.grow_amortized.f4a78633ca2a48c6.
	cbz	w0, .Lunix_path_BB45_51
	ldp	x8, x9, [x19, #8]
	b	.Lunix_path_BB45_42
.Lunix_path_BB45_48:
	mov	x0, x19
	mov	w1, #1
	mov	w28, #1
	bl	std_alloc.vec.Vec.grow_amortized.f4a78633ca2a48c6.
	cbz	w0, .Lunix_path_BB45_54
	ldp	x10, x8, [x19]
	b	.Lunix_path_BB45_43
.Lunix_path_BB45_50:
	mov	w24, wzr
	b	.Lunix_path_BB45_52
.Lunix_path_BB45_51:
	mov	w24, #1
.Lunix_path_BB45_52:
	mov	w0, w24
	ldp	x20, x19, [sp, #96]
	ldp	x22, x21, [sp, #80]
	ldp	x24, x23, [sp, #64]
	ldp	x26, x25, [sp, #48]
	ldp	x28, x27, [sp, #32]
	ldp	x29, x30, [sp, #16]
	add	sp, sp, #112
	ret
.Lunix_path_BB45_53:
	mov	w24, w27
	b	.Lunix_path_BB45_52
.Lunix_path_BB45_54:
	mov	w24, w28
	b	.Lunix_path_BB45_52
.Lunix_path_BB45_55:
	b	.Lunix_path_BB45_52
.Lunix_path_func_end45:
	.size	upath_commands.shown.push_shown, .Lunix_path_func_end45-upath_commands.shown.push_shown
	.section	.text.upath_commands.shown.push_escaped,"ax",@progbits
	.p2align	2
	.type	upath_commands.shown.push_escaped,@function
// upath_commands::shown::push_escaped
upath_commands.shown.push_escaped:
	stp	x29, x30, [sp, #-48]!
	ldp	x9, x8, [x1, #8]
	mov	x29, sp
	str	x21, [sp, #16]
	stp	x20, x19, [sp, #32]
	sub	x10, x8, x9
	cmp	x10, #1
	b.ls	.Lunix_path_BB46_5
.Lunix_path_BB46_1:
	ldr	x10, [x1]
	adrp	x12, .Lunix_path_static.63
	add	x12, x12, :lo12:.Lunix_path_static.63
	and	w19, w0, #0xff
	add	x11, x10, x9
	add	x9, x9, #2
	sub	x12, x11, x12
	cmp	x12, #1
	mov	w12, #30812
	strh	w12, [x11]
	lsr	w11, w19, #4
	cmp	w19, #160
	stp	x10, x9, [x1]
	orr	w12, w11, #0x30
	add	w11, w11, #87
	str	x8, [x1, #16]
	csel	w20, w12, w11, lo
	cmp	x8, x9
	b.eq	.Lunix_path_BB46_7
.Lunix_path_BB46_2:
	strb	w20, [x10, x9]
	mov	w10, #48
	and	w11, w19, #0xf
	bfxil	w10, w19, #0, #4
	ldr	x12, [x1, #16]
	add	x8, x9, #1
	add	w9, w11, #87
	cmp	w11, #10
	str	x8, [x1, #8]
	csel	w19, w10, w9, lo
	cmp	x12, x8
	b.eq	.Lunix_path_BB46_9
.Lunix_path_BB46_3:
	ldr	x9, [x1]
	mov	w0, wzr
	add	x10, x8, #1
	strb	w19, [x9, x8]
	str	x10, [x1, #8]
.Lunix_path_BB46_4:
	ldp	x20, x19, [sp, #32]
	ldr	x21, [sp, #16]
	ldp	x29, x30, [sp], #48
	ret
.Lunix_path_BB46_5:
	mov	w19, w0
	mov	x20, x1
	mov	x0, x1
	mov	w1, #2
	bl	std_alloc.vec.Vec.grow_amortized.f4a78633ca2a48c6.
	cbz	w0, .Lunix_path_BB46_11
	ldp	x9, x8, [x20, #8]
	mov	x1, x20
	mov	w0, w19
	b	.Lunix_path_BB46_1
.Lunix_path_BB46_7:
	mov	x21, x1
	mov	x0, x1
	mov	w1, #1
	bl	std_alloc.vec.Vec.grow_amortized.f4a78633ca2a48c6.
	mov	w8, w0
	mov	w0, #1
	cbz	w8, .Lunix_path_BB46_4
	ldp	x10, x9, [x21]
	mov	x1, x21
	b	.Lunix_path_BB46_2
.Lunix_path_BB46_9:
	mov	x20, x1
	mov	x0, x1
	mov	w1, #1
	mov	w21, #1
	bl	std_alloc.vec.Vec.grow_amortized.f4a78633ca2a48c6.
	mov	w8, w0
	mov	w0, w21
	cbz	w8, .Lunix_path_BB46_4
	ldr	x8, [x20, #8]
	mov	x1, x20
	b	.Lunix_path_BB46_3
.Lunix_path_BB46_11:
	mov	w0, #1
	ldp	x20, x19, [sp, #32]
	ldr	x21, [sp, #16]
	ldp	x29, x30, [sp], #48
	ret
.Lunix_path_func_end46:
	.size	upath_commands.shown.push_escaped, .Lunix_path_func_end46-upath_commands.shown.push_escaped
	.section	.rodata.cst16,"aM",@progbits,16
	.p2align	4, 0x0
.Lunix_path_CPI47_0:
	.byte	116
	.byte	104
	.byte	105
	.byte	115
	.byte	32
	.byte	112
	.byte	97
	.byte	116
	.byte	104
	.byte	32
	.byte	111
	.byte	114
	.byte	32
	.byte	116
	.byte	104
	.byte	101
	.section	.rodata.cst8,"aM",@progbits,8
	.p2align	3, 0x0
.Lunix_path_CPI47_1:
	.byte	32
	.byte	116
	.byte	97
	.byte	114
	.byte	103
	.byte	101
	.byte	116
	.byte	32
	.section	.text.upath_commands.refused.push_or_target,"ax",@progbits
	.p2align	2
	.type	upath_commands.refused.push_or_target,@function
// upath_commands::refused::push_or_target
upath_commands.refused.push_or_target:
	ldrb	w8, [x0]
	cmp	w8, #3
	b.ne	.Lunix_path_BB47_4
	stp	x29, x30, [sp, #-48]!
	stp	x20, x19, [sp, #32]
	mov	x20, x1
	mov	x11, x0
	ldp	x9, x8, [x20, #8]!
	mov	x19, x1
	ldr	x0, [x0, #24]
	ldr	x1, [x11, #32]
	stp	x22, x21, [sp, #16]
	mov	x29, sp
	sub	x10, x8, x9
	cmp	x10, #23
	b.ls	.Lunix_path_BB47_10
.Lunix_path_BB47_2:
	ldr	x10, [x19]
	adrp	x12, .Lunix_path_static.73
	add	x12, x12, :lo12:.Lunix_path_static.73
	stp	xzr, xzr, [x20]
	add	x11, x10, x9
	add	x9, x9, #24
	sub	x13, x11, x12
	cmp	x13, #23
	b.hi	.Lunix_path_BB47_5
	adrp	x12, .Lunix_path_CPI47_0
	adrp	x13, .Lunix_path_CPI47_1
	ldr	q0, [x12, :lo12:.Lunix_path_CPI47_0]
	ldr	d1, [x13, :lo12:.Lunix_path_CPI47_1]
	str	q0, [x11]
	str	d1, [x11, #16]
	mov	x2, x19
	stp	x10, x9, [x19]
	str	x8, [x19, #16]
	bl	upath_commands.shown.push_shown
	and	w8, w0, #0xff
	tbnz	w8, #0, .Lunix_path_BB47_6
	b	.Lunix_path_BB47_7
.Lunix_path_BB47_4:
	mov	w0, wzr
	ret
.Lunix_path_BB47_5:
	ldr	q0, [x12]
	ldr	x12, [x12, #16]
	str	q0, [x11]
	str	x12, [x11, #16]
	mov	x2, x19
	stp	x10, x9, [x19]
	str	x8, [x19, #16]
	bl	upath_commands.shown.push_shown
	and	w8, w0, #0xff
	tbz	w8, #0, .Lunix_path_BB47_7
.Lunix_path_BB47_6:
	mov	w0, #1
	ldp	x20, x19, [sp, #32]
	ldp	x22, x21, [sp, #16]
	ldp	x29, x30, [sp], #48
	ret
.Lunix_path_BB47_7:
	ldp	x8, x9, [x19, #8]
	cmp	x9, x8
	b.eq	.Lunix_path_BB47_12
.Lunix_path_BB47_8:
	ldr	x9, [x19]
	mov	w0, wzr
	add	x11, x8, #1
	mov	w10, #32
	strb	w10, [x9, x8]
	str	x11, [x19, #8]
.Lunix_path_BB47_9:
	ldp	x20, x19, [sp, #32]
	ldp	x22, x21, [sp, #16]
	ldp	x29, x30, [sp], #48
	ret
.Lunix_path_BB47_10:
	mov	x21, x1
	mov	x22, x0
	mov	x0, x19
	mov	w1, #24
	bl	std_alloc.vec.Vec.grow_amortized.f4a78633ca2a48c6.
	cbz	w0, .Lunix_path_BB47_6
	ldp	x9, x8, [x19, #8]
	mov	x0, x22
	mov	x1, x21
	b	.Lunix_path_BB47_2
.Lunix_path_BB47_12:
	mov	x0, x19
	mov	w1, #1
	bl	std_alloc.vec.Vec.grow_amortized.f4a78633ca2a48c6.
	mov	w8, w0
	mov	w0, #1
	cbz	w8, .Lunix_path_BB47_9
	ldr	x8, [x20]
	b	.Lunix_path_BB47_8
.Lunix_path_func_end47:
	.size	upath_commands.refused.push_or_target, .Lunix_path_func_end47-upath_commands.refused.push_or_target
	.section	.rodata.cst16,"aM",@progbits,16
	.p2align	4, 0x0
.Lunix_path_CPI48_0:
	.byte	0
	.byte	1
	.byte	2
	.byte	3
	.byte	4
	.byte	5
	.byte	6
	.byte	7
	.byte	8
	.byte	9
	.byte	10
	.byte	11
	.byte	12
	.byte	13
	.byte	14
	.byte	15
.Lunix_path_CPI48_1:
	.byte	16
	.byte	17
	.byte	18
	.byte	19
	.byte	20
	.byte	21
	.byte	22
	.byte	23
	.byte	24
	.byte	25
	.byte	26
	.byte	27
	.byte	28
	.byte	29
	.byte	30
	.byte	31
	.section	.rodata.cst8,"aM",@progbits,8
	.p2align	3, 0x0
.Lunix_path_CPI48_2:
	.byte	32
	.byte	33
	.byte	34
	.byte	35
	.byte	36
	.byte	37
	.byte	38
	.byte	39
	.section	.text.upath_commands.messages.send.5821a58b74a7d609.,"ax",@progbits
	.p2align	2
	.type	upath_commands.messages.send.5821a58b74a7d609.,@function
// upath_commands::messages::send::<#5821a58b74a7d609>
upath_commands.messages.send.5821a58b74a7d609.:
	cbz	x2, .Lunix_path_BB48_14
	sub	sp, sp, #176
	ldrb	w8, [x0]
	stp	x20, x19, [sp, #160]
	mov	x19, x0
	stp	x29, x30, [sp, #96]
	add	x29, sp, #96
	str	x25, [sp, #112]
	stp	x24, x23, [sp, #128]
	stp	x22, x21, [sp, #144]
	tbnz	w8, #0, .Lunix_path_BB48_13
	mov	x20, x2
	mov	x21, x1
	mov	x22, xzr
.Lunix_path_BB48_3:
	sub	x23, x20, x22
	strb	wzr, [x19, #2]
	mov	x24, #-1
.Lunix_path_BB48_4:
	add	x1, x21, x22
	sub	x2, x20, x22
	mov	w0, #2
	bl	write
	tbz	x0, #63, .Lunix_path_BB48_9
	bl	rattle_errno
	mov	w1, w0
	mov	x0, sp
	mov	x25, sp
	bl	std_io.io.error.Error.from_raw_os_error
	adrp	x9, .Lunix_path_CPI48_0
	ldr	x8, [sp]
	adrp	x10, .Lunix_path_CPI48_1
	ldr	q0, [x9, :lo12:.Lunix_path_CPI48_0]
	adrp	x9, .Lunix_path_CPI48_2
	ldr	q1, [x10, :lo12:.Lunix_path_CPI48_1]
	ldr	d2, [x9, :lo12:.Lunix_path_CPI48_2]
	ubfx	w9, w8, #8, #8
	mov	w10, #40
	stp	q0, q1, [sp]
	cmp	w9, #41
	str	d2, [sp, #32]
	strb	w10, [sp, #40]
	b.hs	.Lunix_path_BB48_12
	ubfx	x8, x8, #8, #6
	ldrb	w8, [x25, x8]
	cmp	w8, #35
	b.ne	.Lunix_path_BB48_12
	subs	x24, x24, #1
	b.ne	.Lunix_path_BB48_4
	add	x1, x21, x22
	sub	x2, x20, x22
	mov	w0, #2
	bl	write
	tbnz	x0, #63, .Lunix_path_BB48_11
.Lunix_path_BB48_9:
	cmp	x0, x23
	csel	x8, x0, x23, lo
	cbz	x8, .Lunix_path_BB48_12
	add	x22, x8, x22
	cmp	x22, x20
	b.lo	.Lunix_path_BB48_3
	b	.Lunix_path_BB48_13
.Lunix_path_BB48_11:
	bl	rattle_errno
.Lunix_path_BB48_12:
	mov	w8, #1
	strb	w8, [x19]
.Lunix_path_BB48_13:
	ldp	x20, x19, [sp, #160]
	ldr	x25, [sp, #112]
	ldp	x22, x21, [sp, #144]
	ldp	x24, x23, [sp, #128]
	ldp	x29, x30, [sp, #96]
	add	sp, sp, #176
.Lunix_path_BB48_14:
	ret
.Lunix_path_func_end48:
	.size	upath_commands.messages.send.5821a58b74a7d609., .Lunix_path_func_end48-upath_commands.messages.send.5821a58b74a7d609.
	.section	.text.upath_commands.runs.answer_gathered.3596f8ae3b0ff399.,"ax",@progbits
	.p2align	2
	.type	upath_commands.runs.answer_gathered.3596f8ae3b0ff399.,@function
// upath_commands::runs::answer_gathered::<#3596f8ae3b0ff399>
upath_commands.runs.answer_gathered.3596f8ae3b0ff399.:
	sub	sp, sp, #320
	movi	v2.2d, #0000000000000000
	ldrb	w8, [x0]
	ldr	q0, [x1]
	ldr	x9, [x1, #16]
	stp	x20, x19, [sp, #304]
	mov	x19, x2
	cmp	w8, #16
	stp	x29, x30, [sp, #224]
	add	x29, sp, #224
	stp	x28, x27, [sp, #240]
	stp	x26, x25, [sp, #256]
	stp	x24, x23, [sp, #272]
	stp	x22, x21, [sp, #288]
	stp	q2, q0, [sp, #64]
	str	q2, [sp, #48]
	str	x9, [sp, #96]
	b.hs	.Lunix_path_BB49_7
.Lunix_path_BB49_1:
	ldp	x21, x3, [sp, #80]
	add	x1, sp, #48
	mov	x4, x19
	stp	q2, q2, [sp, #48]
	mov	x2, x21
	bl	upath_commands.engine.answer_paths.3596f8ae3b0ff399.
	ldrb	w8, [sp, #48]
	mov	w19, w0
	mov	w20, w1
	cmp	w8, #1
	b.ne	.Lunix_path_BB49_4
	ldrb	w8, [sp, #56]
	cmp	w8, #1
	b.ne	.Lunix_path_BB49_4
	ldr	x0, [sp, #64]
	bl	std_collections.btree.node.Node.destroy.793632148a6f265d.
.Lunix_path_BB49_4:
	ldr	x8, [sp, #96]
	cbz	x8, .Lunix_path_BB49_6
	mov	x0, x21
	bl	rattle_dealloc
.Lunix_path_BB49_6:
	mov	w0, w19
	mov	w1, w20
	ldp	x20, x19, [sp, #304]
	ldp	x22, x21, [sp, #288]
	ldp	x24, x23, [sp, #272]
	ldp	x26, x25, [sp, #256]
	ldp	x28, x27, [sp, #240]
	ldp	x29, x30, [sp, #224]
	add	sp, sp, #320
	ret
.Lunix_path_BB49_7:
	sub	w9, w8, #18
	cmp	w9, #2
	b.lo	.Lunix_path_BB49_1
	cmp	w8, #17
	b.ne	.Lunix_path_BB49_15
	ldr	x23, [sp, #88]
	cbz	x23, .Lunix_path_BB49_1
	ldrb	w9, [x0, #12]
	ldr	x21, [sp, #80]
	mov	x22, x0
	ldrb	w8, [x0, #13]
	tbz	w9, #0, .Lunix_path_BB49_30
	tbz	w8, #0, .Lunix_path_BB49_39
	mov	x8, x21
.Lunix_path_BB49_13:
	subs	x23, x23, #1
	b.eq	.Lunix_path_BB49_47
	mov	x24, x8
	ldp	x2, x3, [x8]
	ldr	x20, [x24, #16]!
	ldr	x1, [x8, #24]
	mov	x0, x20
	bl	unix_path.compare.compare
	tst	w0, #0xff
	mov	x8, x24
	b.eq	.Lunix_path_BB49_13
	b	.Lunix_path_BB49_45
.Lunix_path_BB49_15:
	ldp	x26, x28, [sp, #80]
	ldrb	w23, [x0, #12]
	ldrb	w21, [x0, #13]
	cmp	x28, #20
	str	x26, [sp, #40]
	b.hi	.Lunix_path_BB49_27
	cmp	x28, #2
	b.lo	.Lunix_path_BB49_87
	mov	w27, #1
	stp	w23, w21, [sp, #24]
	str	x0, [sp, #32]
	b	.Lunix_path_BB49_21
.Lunix_path_BB49_18:
	mov	x8, xzr
.Lunix_path_BB49_19:
	ldr	x9, [sp, #40]
	add	x8, x9, x8
	stp	x22, x23, [x8]
.Lunix_path_BB49_20:
	add	x27, x27, #1
	mov	x28, x21
	add	x26, x26, #16
	cmp	x27, x21
	b.eq	.Lunix_path_BB49_73
.Lunix_path_BB49_21:
	ldr	x8, [sp, #40]
	mov	x21, x28
	sub	x28, x27, #1
	add	x20, x8, x27, lsl #4
	add	x8, x8, x28, lsl #4
	ldp	x22, x23, [x20]
	ldp	x24, x25, [x8]
	mov	x0, x22
	mov	x1, x23
	mov	x2, x24
	mov	x3, x25
	bl	unix_path.compare.compare
	tst	w0, #0xff
	b.ne	.Lunix_path_BB49_20
	stp	x24, x25, [x20]
	cbz	x28, .Lunix_path_BB49_18
	mov	x20, x26
.Lunix_path_BB49_24:
	ldp	x24, x25, [x20, #-16]
	mov	x0, x22
	mov	x1, x23
	mov	x2, x24
	mov	x3, x25
	bl	unix_path.compare.compare
	tst	w0, #0xff
	b.ne	.Lunix_path_BB49_26
	sub	x28, x28, #1
	stp	x24, x25, [x20], #-16
	cbnz	x28, .Lunix_path_BB49_24
.Lunix_path_BB49_26:
	lsl	x8, x28, #4
	b	.Lunix_path_BB49_19
.Lunix_path_BB49_27:
	str	x0, [sp, #32]
	mov	x0, x26
	mov	x1, x28
	mov	x2, xzr
	bl	core.slice.sort.pivot.run_from.3c1dbacb5aad6c68.
	cmp	x0, x28
	b.ne	.Lunix_path_BB49_34
	stp	w23, w21, [sp, #24]
	tbz	w1, #0, .Lunix_path_BB49_73
	lsr	x2, x28, #1
	ldr	x0, [sp, #40]
	sub	x8, x28, x2
	add	x1, x0, x8, lsl #4
	bl	core.slice.edits.mirror.21.unix_path.path.Path.
	b	.Lunix_path_BB49_73
.Lunix_path_BB49_30:
	tbz	w8, #0, .Lunix_path_BB49_42
	mov	x8, x21
.Lunix_path_BB49_32:
	subs	x23, x23, #1
	b.eq	.Lunix_path_BB49_47
	mov	x24, x8
	ldp	x0, x1, [x8]
	ldr	x20, [x24, #16]!
	ldr	x3, [x8, #24]
	mov	x2, x20
	bl	unix_path.compare.compare
	tst	w0, #0xff
	mov	x8, x24
	b.ne	.Lunix_path_BB49_32
	b	.Lunix_path_BB49_45
.Lunix_path_BB49_34:
	lsl	x8, x28, #4
	tbnz	x8, #63, .Lunix_path_BB49_59
	mov	x20, x0
	mov	x0, x8
	mov	w22, w1
	mov	w1, #8
	bl	rattle_alloc
	tst	w0, #0x1
	mov	w9, w22
	csel	x22, x1, xzr, ne
	tbz	w0, #0, .Lunix_path_BB49_59
	lsr	x10, x28, #1
	mov	x8, x20
	cmp	x28, #64
	stp	x1, x28, [sp, #112]
	stp	w23, w21, [sp, #24]
	b.hi	.Lunix_path_BB49_48
	cmp	x8, x10
	b.hs	.Lunix_path_BB49_48
	clz	x8, x28
	mov	w9, #126
	add	x4, sp, #112
	sub	w3, w9, w8, lsl #1
	mov	x0, x26
	mov	x1, x28
	mov	x2, x28
	b	.Lunix_path_BB49_71
.Lunix_path_BB49_39:
	mov	x8, x21
.Lunix_path_BB49_40:
	subs	x23, x23, #1
	b.eq	.Lunix_path_BB49_47
	mov	x24, x8
	ldp	x0, x1, [x8]
	ldr	x20, [x24, #16]!
	ldr	x3, [x8, #24]
	mov	x2, x20
	bl	unix_path.compare.compare
	tst	w0, #0xff
	mov	x8, x24
	b.eq	.Lunix_path_BB49_40
	b	.Lunix_path_BB49_45
.Lunix_path_BB49_42:
	mov	x8, x21
.Lunix_path_BB49_43:
	subs	x23, x23, #1
	b.eq	.Lunix_path_BB49_47
	mov	x24, x8
	ldp	x2, x3, [x8]
	ldr	x20, [x24, #16]!
	ldr	x1, [x8, #24]
	mov	x0, x20
	bl	unix_path.compare.compare
	tst	w0, #0xff
	mov	x8, x24
	b.ne	.Lunix_path_BB49_43
.Lunix_path_BB49_45:
	movi	v2.2d, #0000000000000000
	ldr	x9, [sp, #96]
	ldr	x23, [x24, #8]
	mov	x8, xzr
	mov	x0, x22
	str	xzr, [sp, #88]
	cbz	x9, .Lunix_path_BB49_57
.Lunix_path_BB49_46:
	add	x9, x21, x8, lsl #4
	add	x8, x8, #1
	str	x8, [sp, #88]
	stp	x20, x23, [x9]
	b	.Lunix_path_BB49_1
.Lunix_path_BB49_47:
	movi	v2.2d, #0000000000000000
	mov	x0, x22
	str	xzr, [sp, #88]
	b	.Lunix_path_BB49_1
.Lunix_path_BB49_48:
	movi	v0.2d, #0000000000000000
	cmp	x28, #1, lsl #12
	stur	xzr, [x29, #-64]
	stp	q0, q0, [x29, #-96]
	b.hi	.Lunix_path_BB49_50
	mov	w11, #64
	b	.Lunix_path_BB49_53
.Lunix_path_BB49_50:
	mov	x11, xzr
	mov	x12, #4294967296
.Lunix_path_BB49_51:
	add	x13, x12, x11
	lsr	x13, x13, #1
	mul	x14, x13, x13
	cmp	x14, x28
	csel	x11, x11, x13, hi
	csel	x12, x13, x12, hi
	add	x13, x11, #1
	cmp	x13, x12
	b.lo	.Lunix_path_BB49_51
	cmp	x11, #64
	mov	w12, #64
	csel	x11, x11, x12, hi
.Lunix_path_BB49_53:
	mov	x12, #4611686018427387904
	cmp	x10, x11
	udiv	x12, x12, x28
	csel	x7, x10, x11, lo
	cmp	x8, x7
	cset	w5, hs
	csel	x4, x8, x7, hi
	add	x23, x12, #1
	b.lo	.Lunix_path_BB49_69
	tbz	w9, #0, .Lunix_path_BB49_69
	cmp	x8, #15
	b.ls	.Lunix_path_BB49_62
	lsr	x2, x8, #1
	mov	x0, x26
	mov	x24, x8
	mov	x20, x7
	sub	x9, x8, x2
	add	x1, x26, x9, lsl #4
	bl	core.slice.edits.mirror.21.unix_path.path.Path.
	mov	x7, x20
	mov	w5, #1
	mov	x4, x24
	b	.Lunix_path_BB49_69
.Lunix_path_BB49_57:
	mov	x22, x0
	add	x0, sp, #80
	mov	w1, #1
	bl	std_alloc.vec.Vec.grow_amortized.a60b1bb647f5ec87.
	cbz	w0, .Lunix_path_BB49_59
	movi	v2.2d, #0000000000000000
	ldp	x21, x8, [sp, #80]
	mov	x0, x22
	b	.Lunix_path_BB49_46
.Lunix_path_BB49_59:
	ldr	x8, [sp, #96]
	cbz	x8, .Lunix_path_BB49_61
	ldr	x0, [sp, #80]
	bl	rattle_dealloc
.Lunix_path_BB49_61:
	mov	w19, #1
	mov	w20, #3
	b	.Lunix_path_BB49_6
.Lunix_path_BB49_62:
	sub	x10, x8, #2
	add	x11, x26, x8, lsl #4
	mov	x9, xzr
	lsr	x10, x10, #1
	sub	x12, x8, #1
	mov	x13, x26
	sub	x11, x11, #16
	add	x10, x10, #1
	b	.Lunix_path_BB49_65
.Lunix_path_BB49_63:
	ldr	q0, [x11]
	ldr	q1, [x13]
	str	q0, [x13]
	str	q1, [x11]
.Lunix_path_BB49_64:
	add	x9, x9, #1
	add	x13, x13, #16
	sub	x11, x11, #16
	cmp	x10, x9
	sub	x12, x12, #1
	b.eq	.Lunix_path_BB49_68
.Lunix_path_BB49_65:
	cmp	x9, x12
	b.lo	.Lunix_path_BB49_63
	cmp	x12, x9
	b.hs	.Lunix_path_BB49_64
	ldr	q0, [x13]
	ldr	q1, [x11]
	str	q0, [x11]
	str	q1, [x13]
	b	.Lunix_path_BB49_64
.Lunix_path_BB49_68:
	mov	w5, #1
	mov	x4, x8
.Lunix_path_BB49_69:
	mov	x3, xzr
	mov	w6, wzr
	add	x8, sp, #112
	sub	x0, x29, #96
	mov	x1, x26
	mov	x2, x28
	stp	x23, x8, [sp]
	bl	core.slice.sort.runs.climb.3c1dbacb5aad6c68.
	ldurb	w8, [x29, #-88]
	tbnz	w8, #0, .Lunix_path_BB49_72
	ldur	x1, [x29, #-96]
	mov	w9, #126
	add	x4, sp, #112
	mov	x0, x26
	clz	x8, x1
	mov	x2, x1
	sub	w3, w9, w8, lsl #1
.Lunix_path_BB49_71:
	bl	core.slice.sort.stable.quicksort.3c1dbacb5aad6c68.
.Lunix_path_BB49_72:
	mov	x0, x22
	bl	rattle_dealloc
.Lunix_path_BB49_73:
	cmp	x28, #2
	b.lo	.Lunix_path_BB49_84
	ldp	w8, w21, [sp, #24]
	ldr	x26, [sp, #40]
	tbz	w8, #0, .Lunix_path_BB49_78
	mov	x23, xzr
	mov	x22, xzr
	add	x25, x26, #16
	sub	x20, x28, #1
.Lunix_path_BB49_76:
	add	x24, x25, x22
	ldp	x0, x1, [x24]
	ldp	x2, x3, [x24, #-16]
	bl	unix_path.order.PathPartialEq.eq
	tbnz	w0, #0, .Lunix_path_BB49_79
	add	x23, x23, #1
	add	x22, x22, #16
	cmp	x20, x23
	b.ne	.Lunix_path_BB49_76
.Lunix_path_BB49_78:
	ldr	x0, [sp, #32]
	movi	v2.2d, #0000000000000000
	b	.Lunix_path_BB49_87
.Lunix_path_BB49_79:
	movi	v2.2d, #0000000000000000
	ldr	x0, [sp, #32]
	subs	x27, x20, x23
	b.eq	.Lunix_path_BB49_87
	add	x8, x23, #1
	ldr	x20, [sp, #96]
	cmp	x8, x28
	b.hs	.Lunix_path_BB49_85
	mov	w28, #1
	mov	x25, x22
	str	w21, [sp, #28]
	str	x0, [sp, #32]
.Lunix_path_BB49_82:
	ldp	x21, x22, [x24, #-16]
	ldp	x0, x1, [x24], #16
	mov	x2, x21
	mov	x3, x22
	bl	unix_path.order.PathPartialEq.eq
	add	x9, x26, x23, lsl #4
	and	x10, x28, #0x1
	eor	w8, w0, #0x1
	subs	x27, x27, #1
	add	x23, x23, x10
	add	x25, x25, #16
	mov	w28, w8
	stp	x21, x22, [x9]
	b.ne	.Lunix_path_BB49_82
	movi	v2.2d, #0000000000000000
	lsl	x22, x23, #4
	ldr	x0, [sp, #32]
	ldr	w21, [sp, #28]
	b	.Lunix_path_BB49_86
.Lunix_path_BB49_84:
	ldp	x0, x26, [sp, #32]
	movi	v2.2d, #0000000000000000
	ldr	w21, [sp, #28]
	b	.Lunix_path_BB49_87
.Lunix_path_BB49_85:
	mov	w8, #1
	mov	x25, x22
.Lunix_path_BB49_86:
	add	x9, x26, x25
	add	x11, x26, x22
	add	x28, x23, x8
	ldp	x10, x9, [x9]
	stp	x28, x20, [sp, #88]
	stp	x10, x9, [x11]
.Lunix_path_BB49_87:
	tbz	w21, #0, .Lunix_path_BB49_1
	cmp	x28, #15
	b.ls	.Lunix_path_BB49_90
	lsr	x2, x28, #1
	mov	x20, x0
	mov	x0, x26
	sub	x8, x28, x2
	add	x1, x26, x8, lsl #4
	bl	core.slice.edits.mirror.21.unix_path.path.Path.
	movi	v2.2d, #0000000000000000
	mov	x0, x20
	b	.Lunix_path_BB49_1
.Lunix_path_BB49_90:
	subs	x9, x28, #2
	b.lo	.Lunix_path_BB49_1
	lsr	x8, x9, #1
	subs	x10, x28, #1
	b.eq	.Lunix_path_BB49_93
	lsl	x10, x10, #4
	ldr	q1, [x26]
	ldr	q0, [x26, x10]
	str	q0, [x26]
	str	q1, [x26, x10]
.Lunix_path_BB49_93:
	cbz	x8, .Lunix_path_BB49_1
	cmp	x9, #1
	b.ls	.Lunix_path_BB49_96
	lsl	x9, x9, #4
	ldr	q1, [x26, #16]
	ldr	q0, [x26, x9]
	str	q0, [x26, #16]
	str	q1, [x26, x9]
	b	.Lunix_path_BB49_98
.Lunix_path_BB49_96:
	cbnz	x9, .Lunix_path_BB49_98
	ldp	q1, q0, [x26]
	stp	q0, q1, [x26]
.Lunix_path_BB49_98:
	cmp	x8, #1
	b.eq	.Lunix_path_BB49_1
	sub	x9, x28, #3
	cmp	x9, #2
	b.ls	.Lunix_path_BB49_101
	lsl	x9, x9, #4
	ldr	q1, [x26, #32]
	ldr	q0, [x26, x9]
	str	q0, [x26, #32]
	str	q1, [x26, x9]
	b	.Lunix_path_BB49_103
.Lunix_path_BB49_101:
	b.eq	.Lunix_path_BB49_103
	lsl	x9, x9, #4
	ldr	q1, [x26, #32]
	ldr	q0, [x26, x9]
	str	q1, [x26, x9]
	str	q0, [x26, #32]
.Lunix_path_BB49_103:
	cmp	x8, #2
	b.eq	.Lunix_path_BB49_1
	sub	x9, x28, #4
	cmp	x9, #3
	b.ls	.Lunix_path_BB49_106
	lsl	x9, x9, #4
	ldr	q1, [x26, #48]
	ldr	q0, [x26, x9]
	str	q0, [x26, #48]
	str	q1, [x26, x9]
	b	.Lunix_path_BB49_108
.Lunix_path_BB49_106:
	b.eq	.Lunix_path_BB49_108
	lsl	x9, x9, #4
	ldr	q1, [x26, #48]
	ldr	q0, [x26, x9]
	str	q1, [x26, x9]
	str	q0, [x26, #48]
.Lunix_path_BB49_108:
	cmp	x8, #3
	b.eq	.Lunix_path_BB49_1
	sub	x9, x28, #5
	cmp	x9, #4
	b.ls	.Lunix_path_BB49_111
	lsl	x9, x9, #4
	ldr	q1, [x26, #64]
	ldr	q0, [x26, x9]
	str	q0, [x26, #64]
	str	q1, [x26, x9]
	b	.Lunix_path_BB49_113
.Lunix_path_BB49_111:
	b.eq	.Lunix_path_BB49_113
	lsl	x9, x9, #4
	ldr	q1, [x26, #64]
	ldr	q0, [x26, x9]
	str	q1, [x26, x9]
	str	q0, [x26, #64]
.Lunix_path_BB49_113:
	cmp	x8, #4
	b.eq	.Lunix_path_BB49_1
	sub	x9, x28, #6
	cmp	x9, #5
	b.ls	.Lunix_path_BB49_116
	lsl	x9, x9, #4
	ldr	q1, [x26, #80]
	ldr	q0, [x26, x9]
	str	q0, [x26, #80]
	str	q1, [x26, x9]
	b	.Lunix_path_BB49_118
.Lunix_path_BB49_116:
	b.eq	.Lunix_path_BB49_118
	lsl	x9, x9, #4
	ldr	q1, [x26, #80]
	ldr	q0, [x26, x9]
	str	q1, [x26, x9]
	str	q0, [x26, #80]
.Lunix_path_BB49_118:
	cmp	x8, #5
	b.eq	.Lunix_path_BB49_1
	sub	x8, x28, #7
	cmp	x8, #6
	b.ls	.Lunix_path_BB49_121
	lsl	x8, x8, #4
	ldr	q1, [x26, #96]
	ldr	q0, [x26, x8]
	str	q0, [x26, #96]
	str	q1, [x26, x8]
	b	.Lunix_path_BB49_1
.Lunix_path_BB49_121:
	b.eq	.Lunix_path_BB49_1
	lsl	x8, x8, #4
	ldr	q1, [x26, #96]
	ldr	q0, [x26, x8]
	str	q1, [x26, x8]
	str	q0, [x26, #96]
	b	.Lunix_path_BB49_1
.Lunix_path_func_end49:
	.size	upath_commands.runs.answer_gathered.3596f8ae3b0ff399., .Lunix_path_func_end49-upath_commands.runs.answer_gathered.3596f8ae3b0ff399.
	.section	.text.core.slice.sort.pivot.run_from.3c1dbacb5aad6c68.,"ax",@progbits
	.p2align	2
	.type	core.slice.sort.pivot.run_from.3c1dbacb5aad6c68.,@function
// core::slice::sort::pivot::run_from::<#3c1dbacb5aad6c68>
core.slice.sort.pivot.run_from.3c1dbacb5aad6c68.:
	stp	x29, x30, [sp, #-48]!
	str	x21, [sp, #16]
	add	x21, x0, x2, lsl #4
	mov	x29, sp
	stp	x20, x19, [sp, #32]
	mov	x20, x1
	add	x19, x2, #2
	ldp	x8, x3, [x21]
	ldp	x0, x1, [x21, #16]
	mov	x2, x8
	bl	unix_path.compare.compare
	tst	w0, #0xff
	b.eq	.Lunix_path_BB50_7
	cmp	x19, x20
	b.hs	.Lunix_path_BB50_6
	add	x8, x21, #24
	mov	x21, x8
.Lunix_path_BB50_3:
	ldp	x3, x0, [x8]
	ldur	x2, [x8, #-8]
	ldr	x1, [x21, #16]!
	bl	unix_path.compare.compare
	tst	w0, #0xff
	b.eq	.Lunix_path_BB50_6
	add	x19, x19, #1
	mov	x8, x21
	cmp	x20, x19
	b.ne	.Lunix_path_BB50_3
	mov	w1, wzr
	mov	x19, x20
	mov	x0, x19
	ldp	x20, x19, [sp, #32]
	ldr	x21, [sp, #16]
	ldp	x29, x30, [sp], #48
	ret
.Lunix_path_BB50_6:
	mov	w1, wzr
	mov	x0, x19
	ldp	x20, x19, [sp, #32]
	ldr	x21, [sp, #16]
	ldp	x29, x30, [sp], #48
	ret
.Lunix_path_BB50_7:
	cmp	x19, x20
	b.hs	.Lunix_path_BB50_12
	add	x8, x21, #24
	mov	x21, x8
.Lunix_path_BB50_9:
	ldp	x3, x0, [x8]
	ldur	x2, [x8, #-8]
	ldr	x1, [x21, #16]!
	bl	unix_path.compare.compare
	tst	w0, #0xff
	b.ne	.Lunix_path_BB50_12
	add	x19, x19, #1
	mov	x8, x21
	cmp	x20, x19
	b.ne	.Lunix_path_BB50_9
	mov	w1, #1
	mov	x19, x20
	mov	x0, x19
	ldp	x20, x19, [sp, #32]
	ldr	x21, [sp, #16]
	ldp	x29, x30, [sp], #48
	ret
.Lunix_path_BB50_12:
	mov	w1, #1
	mov	x0, x19
	ldp	x20, x19, [sp, #32]
	ldr	x21, [sp, #16]
	ldp	x29, x30, [sp], #48
	ret
.Lunix_path_func_end50:
	.size	core.slice.sort.pivot.run_from.3c1dbacb5aad6c68., .Lunix_path_func_end50-core.slice.sort.pivot.run_from.3c1dbacb5aad6c68.
	.section	.text.core.slice.edits.mirror.21.unix_path.path.Path.,"ax",@progbits
	.p2align	2
	.type	core.slice.edits.mirror.21.unix_path.path.Path.,@function
// core::slice::edits::mirror::<21'unix_path::path::Path>
core.slice.edits.mirror.21.unix_path.path.Path.:
	sub	sp, sp, #16
	add	x8, x1, x2, lsl #4
	sub	x8, x8, #16
.Lunix_path_BB51_1:
	ldr	q0, [x8]
	ldr	q1, [x0]
	sub	x2, x2, #1
	str	q0, [x0], #16
	str	q1, [x8], #-16
	cbnz	x2, .Lunix_path_BB51_1
	add	sp, sp, #16
	ret
.Lunix_path_func_end51:
	.size	core.slice.edits.mirror.21.unix_path.path.Path., .Lunix_path_func_end51-core.slice.edits.mirror.21.unix_path.path.Path.
	.section	.text.core.slice.sort.stable.quicksort.3c1dbacb5aad6c68.,"ax",@progbits
	.p2align	2
	.type	core.slice.sort.stable.quicksort.3c1dbacb5aad6c68.,@function
// core::slice::sort::stable::quicksort::<#3c1dbacb5aad6c68>
core.slice.sort.stable.quicksort.3c1dbacb5aad6c68.:
	sub	sp, sp, #144
	stp	x24, x23, [sp, #96]
	mov	x23, x2
	cmp	x1, #33
	stp	x22, x21, [sp, #112]
	mov	w21, w3
	mov	x22, x0
	stp	x20, x19, [sp, #128]
	mov	x19, x1
	stp	x29, x30, [sp, #48]
	add	x29, sp, #48
	stp	x28, x27, [sp, #64]
	stp	x26, x25, [sp, #80]
	str	x4, [sp, #24]
	b.hs	.Lunix_path_BB52_4
.Lunix_path_BB52_1:
	mov	x0, x22
	mov	x1, x19
	ldr	x2, [sp, #24]
	ldp	x20, x19, [sp, #128]
	ldp	x22, x21, [sp, #112]
	ldp	x24, x23, [sp, #96]
	ldp	x26, x25, [sp, #80]
	ldp	x28, x27, [sp, #64]
	ldp	x29, x30, [sp, #48]
	add	sp, sp, #144
	b	core.slice.sort.short.sort.3c1dbacb5aad6c68.
.Lunix_path_BB52_2:
	mov	x0, x26
	mov	x1, x12
	mov	x21, x12
	bl	memmove
	mov	x12, x21
	ldr	w21, [sp, #20]
	ldr	x11, [sp, #8]
.Lunix_path_BB52_3:
	ldr	x4, [sp, #24]
	sub	w21, w21, #1
	mov	x0, x22
	mov	x1, x28
	mov	x2, x23
	mov	w3, w21
	stp	x12, x11, [x4]
	bl	core.slice.sort.stable.quicksort.3c1dbacb5aad6c68.
	mov	x23, x20
	cmp	x19, #33
	mov	x22, x26
	b.lo	.Lunix_path_BB52_1
.Lunix_path_BB52_4:
	cbz	w21, .Lunix_path_BB52_32
	lsr	x24, x19, #3
	cmp	x19, #63
	stur	x19, [x29, #-8]
	str	w21, [sp, #20]
	b.hi	.Lunix_path_BB52_8
	add	x8, x22, x24, lsl #6
	ldp	x20, x19, [x22]
	ldp	x25, x26, [x8]
	mov	x0, x20
	mov	x1, x19
	mov	x2, x25
	mov	x3, x26
	bl	unix_path.compare.compare
	mov	w8, #112
	ands	w9, w0, #0xff
	mov	x0, x20
	madd	x8, x24, x8, x22
	mov	x1, x19
	stur	w9, [x29, #-16]
	cset	w21, eq
	ldp	x27, x28, [x8]
	mov	x2, x27
	mov	x3, x28
	bl	unix_path.compare.compare
	tst	w0, #0xff
	cset	w8, eq
	eor	w8, w21, w8
	tbz	w8, #0, .Lunix_path_BB52_19
	ldur	x19, [x29, #-8]
	mov	x28, xzr
	add	x8, x22, xzr, lsl #4
	cmp	x23, x19
	b.lo	.Lunix_path_BB52_9
	b	.Lunix_path_BB52_20
.Lunix_path_BB52_8:
	lsl	x8, x24, #3
	lsl	x2, x24, #2
	mov	x0, x22
	mov	x1, xzr
	mov	x4, x24
	sub	x3, x8, x24
	bl	core.slice.sort.pivot.median_of_medians.3c1dbacb5aad6c68.
	mov	x28, x0
	add	x8, x22, x0, lsl #4
	cmp	x23, x19
	b.hs	.Lunix_path_BB52_20
.Lunix_path_BB52_9:
	add	x9, x22, x23, lsl #4
	ldp	x25, x24, [x8]
	ldp	x0, x1, [x9]
	mov	x2, x25
	mov	x3, x24
	bl	unix_path.compare.compare
	ldr	x8, [sp, #24]
	tst	w0, #0xff
	ldp	x21, x8, [x8]
	str	x8, [sp, #8]
	b.eq	.Lunix_path_BB52_21
	mov	x27, xzr
	stur	x21, [x29, #-16]
	cbz	x28, .Lunix_path_BB52_13
	add	x23, x22, #8
	mov	x26, x28
.Lunix_path_BB52_12:
	ldp	x19, x20, [x23, #-8]
	mov	x0, x25
	mov	x1, x24
	mov	x2, x19
	mov	x3, x20
	bl	unix_path.compare.compare
	lsl	x8, x27, #4
	tst	w0, #0xff
	add	x23, x23, #16
	cinc	x27, x27, ne
	subs	x26, x26, #1
	add	x9, x22, x8
	sub	x8, x21, x8
	add	x21, x21, #16
	stp	x19, x20, [x9]
	ldr	q0, [x9]
	str	q0, [x8]
	b.ne	.Lunix_path_BB52_12
.Lunix_path_BB52_13:
	ldur	x11, [x29, #-8]
	add	x8, x28, #1
	mov	x9, x28
	add	x28, x27, #1
	cmp	x8, x11
	b.hs	.Lunix_path_BB52_16
	lsl	x8, x9, #4
	ldur	x10, [x29, #-16]
	mvn	x9, x9
	add	x23, x9, x11
	add	x10, x10, x8
	add	x8, x22, x8
	add	x26, x10, #16
	add	x21, x8, #24
.Lunix_path_BB52_15:
	ldp	x19, x20, [x21, #-8]
	mov	x0, x25
	mov	x1, x24
	mov	x2, x19
	mov	x3, x20
	bl	unix_path.compare.compare
	lsl	x8, x28, #4
	tst	w0, #0xff
	add	x21, x21, #16
	cinc	x28, x28, ne
	subs	x23, x23, #1
	add	x9, x22, x8
	sub	x8, x26, x8
	add	x26, x26, #16
	stp	x19, x20, [x9]
	ldr	q0, [x9]
	str	q0, [x8]
	b.ne	.Lunix_path_BB52_15
.Lunix_path_BB52_16:
	ldp	x20, x23, [x29, #-16]
	add	x26, x22, x28, lsl #4
	add	x8, x22, x27, lsl #4
	sub	x19, x23, x28
	sub	x9, x26, x20
	stp	x25, x24, [x8]
	lsl	x2, x19, #4
	cmp	x9, x2
	b.hs	.Lunix_path_BB52_30
	ldr	w21, [sp, #20]
	ldr	x11, [sp, #8]
	cmp	x23, x28
	mov	x8, x26
	mov	x9, x20
	mov	x10, x19
	b.eq	.Lunix_path_BB52_31
.Lunix_path_BB52_18:
	ldr	q0, [x9], #16
	subs	x10, x10, #1
	str	q0, [x8], #16
	b.ne	.Lunix_path_BB52_18
	b	.Lunix_path_BB52_31
.Lunix_path_BB52_19:
	ldur	w9, [x29, #-16]
	lsl	x8, x24, #3
	mov	x0, x25
	mov	x1, x26
	mov	x2, x27
	mov	x3, x28
	cmp	w9, #0
	lsl	x19, x24, #2
	sub	x21, x8, x24
	cset	w20, eq
	bl	unix_path.compare.compare
	tst	w0, #0xff
	cset	w8, eq
	eor	w8, w20, w8
	cmp	w8, #0
	csel	x28, x21, x19, ne
	ldur	x19, [x29, #-8]
	add	x8, x22, x28, lsl #4
	cmp	x23, x19
	b.lo	.Lunix_path_BB52_9
.Lunix_path_BB52_20:
	ldr	x9, [sp, #24]
	ldp	x25, x24, [x8]
	ldp	x21, x9, [x9]
	str	x9, [sp, #8]
.Lunix_path_BB52_21:
	mov	x27, xzr
	stur	x21, [x29, #-16]
	cbz	x28, .Lunix_path_BB52_24
	add	x23, x22, #8
	mov	x26, x28
.Lunix_path_BB52_23:
	ldp	x19, x20, [x23, #-8]
	mov	x2, x25
	mov	x3, x24
	mov	x0, x19
	mov	x1, x20
	bl	unix_path.compare.compare
	lsl	x8, x27, #4
	tst	w0, #0xff
	add	x23, x23, #16
	cinc	x27, x27, eq
	subs	x26, x26, #1
	add	x9, x22, x8
	sub	x8, x21, x8
	add	x21, x21, #16
	stp	x19, x20, [x9]
	ldr	q0, [x9]
	str	q0, [x8]
	b.ne	.Lunix_path_BB52_23
.Lunix_path_BB52_24:
	str	x28, [sp]
	add	x8, x28, #1
	mov	x28, x27
	ldur	x9, [x29, #-8]
	cmp	x8, x9
	b.hs	.Lunix_path_BB52_27
	ldr	x9, [sp]
	ldur	x10, [x29, #-8]
	mov	x28, x27
	lsl	x8, x9, #4
	mvn	x9, x9
	add	x23, x9, x10
	ldur	x9, [x29, #-16]
	add	x9, x9, x8
	add	x8, x22, x8
	add	x21, x9, #16
	add	x26, x8, #24
.Lunix_path_BB52_26:
	ldp	x19, x20, [x26, #-8]
	mov	x2, x25
	mov	x3, x24
	mov	x0, x19
	mov	x1, x20
	bl	unix_path.compare.compare
	lsl	x8, x28, #4
	tst	w0, #0xff
	add	x26, x26, #16
	cinc	x28, x28, eq
	subs	x23, x23, #1
	add	x9, x22, x8
	sub	x8, x21, x8
	add	x21, x21, #16
	stp	x19, x20, [x9]
	ldr	q0, [x9]
	str	q0, [x8]
	b.ne	.Lunix_path_BB52_26
.Lunix_path_BB52_27:
	ldp	x12, x23, [x29, #-16]
	add	x26, x22, x28, lsl #4
	ldr	x8, [sp]
	sub	x19, x23, x28
	sub	x20, x8, x27
	sub	x9, x26, x12
	lsl	x2, x19, #4
	add	x8, x12, x20, lsl #4
	cmp	x9, x2
	stp	x25, x24, [x8]
	b.hs	.Lunix_path_BB52_2
	ldr	w21, [sp, #20]
	ldr	x11, [sp, #8]
	cmp	x23, x28
	mov	x8, x26
	mov	x9, x12
	sub	x10, x23, x28
	b.eq	.Lunix_path_BB52_3
.Lunix_path_BB52_29:
	ldr	q0, [x9], #16
	subs	x10, x10, #1
	str	q0, [x8], #16
	b.ne	.Lunix_path_BB52_29
	b	.Lunix_path_BB52_3
.Lunix_path_BB52_30:
	mov	x0, x26
	mov	x1, x20
	bl	memmove
	ldr	w21, [sp, #20]
	ldr	x11, [sp, #8]
.Lunix_path_BB52_31:
	ldr	x8, [sp, #24]
	sub	w21, w21, #1
	stp	x20, x11, [x8]
	cmp	x19, #33
	mov	x22, x26
	b.hs	.Lunix_path_BB52_4
	b	.Lunix_path_BB52_1
.Lunix_path_BB52_32:
	mov	x0, x22
	mov	x1, x19
	ldr	x2, [sp, #24]
	ldp	x20, x19, [sp, #128]
	ldp	x22, x21, [sp, #112]
	ldp	x24, x23, [sp, #96]
	ldp	x26, x25, [sp, #80]
	ldp	x28, x27, [sp, #64]
	ldp	x29, x30, [sp, #48]
	add	sp, sp, #144
	b	core.slice.sort.stable.merge_sort.3c1dbacb5aad6c68.
.Lunix_path_func_end52:
	.size	core.slice.sort.stable.quicksort.3c1dbacb5aad6c68., .Lunix_path_func_end52-core.slice.sort.stable.quicksort.3c1dbacb5aad6c68.
	.section	.text.core.slice.sort.short.sort.3c1dbacb5aad6c68.,"ax",@progbits
	.p2align	2
	.type	core.slice.sort.short.sort.3c1dbacb5aad6c68.,@function
// core::slice::sort::short::sort::<#3c1dbacb5aad6c68>
core.slice.sort.short.sort.3c1dbacb5aad6c68.:
	sub	sp, sp, #160
	stp	x20, x19, [sp, #144]
	cmp	x1, #16
	mov	x20, x0
	stp	x29, x30, [sp, #64]
	add	x29, sp, #64
	stp	x28, x27, [sp, #80]
	stp	x26, x25, [sp, #96]
	stp	x24, x23, [sp, #112]
	stp	x22, x21, [sp, #128]
	b.hs	.Lunix_path_BB53_2
	mov	x0, x20
	ldp	x20, x19, [sp, #144]
	ldp	x22, x21, [sp, #128]
	ldp	x24, x23, [sp, #112]
	ldp	x26, x25, [sp, #96]
	ldp	x28, x27, [sp, #80]
	ldp	x29, x30, [sp, #64]
	add	sp, sp, #160
	b	core.slice.sort.short.sort_half.3c1dbacb5aad6c68.
.Lunix_path_BB53_2:
	lsr	x21, x1, #1
	mov	x0, x20
	mov	x19, x1
	mov	x23, x2
	sub	x24, x1, x21
	mov	x1, x21
	add	x22, x20, x21, lsl #4
	bl	core.slice.sort.short.sort_half.3c1dbacb5aad6c68.
	mov	x0, x22
	mov	x1, x24
	mov	x2, x23
	bl	core.slice.sort.short.sort_half.3c1dbacb5aad6c68.
	movi	v0.2d, #0000000000000000
	ldr	x8, [x23]
	add	x27, sp, #32
	mov	x25, xzr
	sub	x24, x27, #1
	mov	x26, x21
	stp	x8, x23, [sp, #16]
	ldr	x8, [x23, #8]
	mov	x23, x21
	mov	x28, x21
	mov	x22, x19
	str	x8, [sp, #8]
	stp	q0, q0, [sp, #32]
	b	.Lunix_path_BB53_4
.Lunix_path_BB53_3:
	sub	x19, x19, #1
	sub	x23, x23, #1
	sub	x24, x24, #1
	add	x27, x27, #1
	cbz	x23, .Lunix_path_BB53_13
.Lunix_path_BB53_4:
	add	x8, x20, x28, lsl #4
	add	x9, x20, x25, lsl #4
	ldp	x0, x1, [x8]
	ldp	x2, x3, [x9]
	bl	unix_path.compare.compare
	ands	w8, w0, #0xff
	mov	x9, x28
	b.eq	.Lunix_path_BB53_6
	mov	x9, x25
.Lunix_path_BB53_6:
	strb	w9, [x27]
	cbnz	w8, .Lunix_path_BB53_8
	add	x28, x28, #1
	b	.Lunix_path_BB53_9
.Lunix_path_BB53_8:
	add	x25, x25, #1
.Lunix_path_BB53_9:
	add	x8, x20, x19, lsl #4
	add	x9, x20, x26, lsl #4
	ldp	x0, x1, [x8, #-16]
	ldp	x2, x3, [x9, #-16]
	bl	unix_path.compare.compare
	ands	w8, w0, #0xff
	mov	x9, x26
	b.eq	.Lunix_path_BB53_11
	mov	x9, x19
.Lunix_path_BB53_11:
	sub	w9, w9, #1
	strb	w9, [x24, x22]
	cbnz	w8, .Lunix_path_BB53_3
	sub	x26, x26, #1
	sub	x23, x23, #1
	sub	x24, x24, #1
	add	x27, x27, #1
	cbnz	x23, .Lunix_path_BB53_4
.Lunix_path_BB53_13:
	tbz	w22, #0, .Lunix_path_BB53_15
	cmp	x25, x26
	add	x8, sp, #32
	csel	x9, x25, x28, lo
	strb	w9, [x8, x21]
.Lunix_path_BB53_15:
	cmp	x28, x19
	b.hi	.Lunix_path_BB53_22
	cmp	x25, x26
	b.hi	.Lunix_path_BB53_22
	ldr	x21, [sp, #16]
	add	x9, sp, #32
	mov	x10, x22
	add	x8, x21, #8
.Lunix_path_BB53_18:
	ldrb	w11, [x9], #1
	subs	x10, x10, #1
	add	x11, x20, x11, lsl #4
	ldp	x12, x11, [x11]
	stp	x12, x11, [x8, #-8]
	add	x8, x8, #16
	b.ne	.Lunix_path_BB53_18
	lsl	x2, x22, #4
	sub	x8, x20, x21
	ldr	x19, [sp, #24]
	cmp	x8, x2
	b.hs	.Lunix_path_BB53_32
	mov	x8, x21
.Lunix_path_BB53_21:
	ldr	q0, [x8], #16
	subs	x22, x22, #1
	str	q0, [x20], #16
	b.ne	.Lunix_path_BB53_21
	b	.Lunix_path_BB53_33
.Lunix_path_BB53_22:
	mov	w19, #1
	mov	x25, x20
	mov	x28, x22
	b	.Lunix_path_BB53_26
.Lunix_path_BB53_23:
	mov	x8, xzr
.Lunix_path_BB53_24:
	add	x8, x20, x8
	stp	x21, x22, [x8]
.Lunix_path_BB53_25:
	add	x19, x19, #1
	add	x25, x25, #16
	cmp	x19, x28
	b.eq	.Lunix_path_BB53_34
.Lunix_path_BB53_26:
	sub	x26, x19, #1
	add	x27, x20, x19, lsl #4
	add	x8, x20, x26, lsl #4
	ldp	x21, x22, [x27]
	ldp	x23, x24, [x8]
	mov	x0, x21
	mov	x1, x22
	mov	x2, x23
	mov	x3, x24
	bl	unix_path.compare.compare
	tst	w0, #0xff
	b.ne	.Lunix_path_BB53_25
	stp	x23, x24, [x27]
	cbz	x26, .Lunix_path_BB53_23
	mov	x27, x25
.Lunix_path_BB53_29:
	ldp	x23, x24, [x27, #-16]
	mov	x0, x21
	mov	x1, x22
	mov	x2, x23
	mov	x3, x24
	bl	unix_path.compare.compare
	tst	w0, #0xff
	b.ne	.Lunix_path_BB53_31
	sub	x26, x26, #1
	stp	x23, x24, [x27], #-16
	cbnz	x26, .Lunix_path_BB53_29
.Lunix_path_BB53_31:
	lsl	x8, x26, #4
	b	.Lunix_path_BB53_24
.Lunix_path_BB53_32:
	mov	x0, x20
	mov	x1, x21
	bl	memmove
.Lunix_path_BB53_33:
	ldr	x8, [sp, #8]
	stp	x21, x8, [x19]
.Lunix_path_BB53_34:
	ldp	x20, x19, [sp, #144]
	ldp	x22, x21, [sp, #128]
	ldp	x24, x23, [sp, #112]
	ldp	x26, x25, [sp, #96]
	ldp	x28, x27, [sp, #80]
	ldp	x29, x30, [sp, #64]
	add	sp, sp, #160
	ret
.Lunix_path_func_end53:
	.size	core.slice.sort.short.sort.3c1dbacb5aad6c68., .Lunix_path_func_end53-core.slice.sort.short.sort.3c1dbacb5aad6c68.
	.section	.text.core.slice.sort.short.sort_half.3c1dbacb5aad6c68.,"ax",@progbits
	.p2align	2
	.type	core.slice.sort.short.sort_half.3c1dbacb5aad6c68.,@function
// core::slice::sort::short::sort_half::<#3c1dbacb5aad6c68>
core.slice.sort.short.sort_half.3c1dbacb5aad6c68.:
	sub	sp, sp, #320
	stp	x20, x19, [sp, #304]
	mov	x19, x1
	cmp	x1, #8
	mov	x20, x0
	stp	x29, x30, [sp, #224]
	add	x29, sp, #224
	stp	x28, x27, [sp, #240]
	stp	x26, x25, [sp, #256]
	stp	x24, x23, [sp, #272]
	stp	x22, x21, [sp, #288]
	b.lo	.Lunix_path_BB54_4
	ldp	x28, x8, [x2]
	mov	x9, x20
	ldr	x0, [x9, #16]!
	ldr	x1, [x20, #24]
	str	x9, [sp, #104]
	stp	x8, x2, [x29, #-24]
	ldp	x2, x3, [x20]
	bl	unix_path.compare.compare
	mov	x9, x20
	mov	x10, x20
	ldr	x1, [x20, #56]
	ldr	x8, [x9, #48]!
	ldr	x3, [x20, #40]
	ldr	x2, [x10, #32]!
	and	w21, w0, #0xff
	mov	x0, x8
	stp	x10, x9, [sp, #88]
	bl	unix_path.compare.compare
	mov	w8, #2
	tst	w0, #0xff
	mov	w9, #16
	cinc	x22, x8, eq
	cinc	x23, x8, ne
	cmp	w21, #0
	add	x8, x20, x22, lsl #4
	csel	x9, x9, xzr, eq
	mov	w10, #16
	add	x9, x20, x9
	cset	w21, ne
	cset	w24, eq
	ldp	x0, x1, [x8]
	csel	x25, xzr, x10, eq
	ldp	x2, x3, [x9]
	bl	unix_path.compare.compare
	add	x9, x20, x23, lsl #4
	add	x10, x20, x25
	and	w25, w0, #0xff
	ldp	x2, x3, [x10]
	ldp	x8, x1, [x9]
	mov	x0, x8
	bl	unix_path.compare.compare
	ands	w8, w0, #0xff
	csel	x9, x22, x21, eq
	cmp	w25, #0
	csel	x25, x22, x24, eq
	csel	x24, x24, x9, eq
	csel	x9, x21, x22, eq
	cmp	w8, #0
	csel	x26, x23, x9, eq
	add	x9, x20, x24, lsl #4
	csel	x21, x21, x23, eq
	add	x8, x20, x26, lsl #4
	ldp	x2, x3, [x9]
	ldp	x0, x1, [x8]
	bl	unix_path.compare.compare
	add	x8, x20, x25, lsl #4
	tst	w0, #0xff
	csel	x9, x26, x24, eq
	ldp	x10, x11, [x8]
	add	x8, x20, x9, lsl #4
	stp	x10, x11, [x28]
	ldp	x9, x8, [x8]
	stp	x11, x10, [x29, #-40]
	csel	x10, x24, x26, eq
	mov	x11, x28
	add	x10, x20, x10, lsl #4
	str	x9, [x11, #16]!
	str	x8, [x28, #24]
	ldp	x8, x9, [x10]
	str	x11, [sp, #80]
	mov	x11, x28
	add	x10, x20, x21, lsl #4
	str	x8, [x11, #32]!
	mov	x8, x28
	str	x9, [x28, #40]
	mov	x9, x20
	ldp	x24, x25, [x10]
	str	x24, [x8, #48]!
	str	x8, [sp, #56]
	mov	x8, x20
	str	x25, [x28, #56]
	ldr	x0, [x8, #80]!
	ldr	x1, [x20, #88]
	ldr	x2, [x9, #64]!
	ldr	x3, [x20, #72]
	stp	x8, x11, [sp, #64]
	str	x9, [sp, #48]
	bl	unix_path.compare.compare
	mov	x9, x20
	mov	x10, x20
	ldr	x1, [x20, #120]
	ldr	x8, [x9, #112]!
	ldr	x3, [x20, #104]
	ldr	x2, [x10, #96]!
	and	w21, w0, #0xff
	mov	x0, x8
	stp	x10, x9, [sp, #32]
	bl	unix_path.compare.compare
	cmp	w21, #0
	mov	w10, #4
	and	w9, w0, #0xff
	mov	w8, #6
	cinc	x21, x10, eq
	cinc	x26, x10, ne
	cmp	w9, #0
	add	x10, x20, x21, lsl #4
	cinc	x27, x8, eq
	cinc	x22, x8, ne
	add	x9, x20, x27, lsl #4
	ldp	x2, x3, [x10]
	ldp	x0, x1, [x9]
	bl	unix_path.compare.compare
	add	x9, x20, x22, lsl #4
	add	x10, x20, x26, lsl #4
	and	w23, w0, #0xff
	ldp	x8, x1, [x9]
	ldp	x2, x3, [x10]
	mov	x0, x8
	bl	unix_path.compare.compare
	ands	w8, w0, #0xff
	csel	x9, x27, x26, eq
	cmp	w23, #0
	csel	x23, x27, x21, eq
	csel	x21, x21, x9, eq
	csel	x9, x26, x27, eq
	cmp	w8, #0
	csel	x27, x22, x9, eq
	add	x9, x20, x21, lsl #4
	csel	x22, x26, x22, eq
	add	x8, x20, x27, lsl #4
	ldp	x2, x3, [x9]
	ldp	x0, x1, [x8]
	bl	unix_path.compare.compare
	add	x8, x20, x23, lsl #4
	tst	w0, #0xff
	mov	x10, x28
	csel	x9, x27, x21, eq
	mov	x11, x28
	ldp	x0, x1, [x8]
	add	x8, x20, x9, lsl #4
	ldp	x3, x2, [x29, #-40]
	str	x0, [x10, #64]!
	str	x1, [x28, #72]
	ldp	x9, x8, [x8]
	str	x10, [sp, #24]
	csel	x10, x21, x27, eq
	add	x10, x20, x10, lsl #4
	str	x9, [x11, #80]!
	str	x8, [x28, #88]
	ldp	x8, x9, [x10]
	str	x11, [sp, #16]
	mov	x11, x28
	add	x10, x20, x22, lsl #4
	str	x8, [x11, #96]!
	mov	x8, x28
	str	x9, [x28, #104]
	ldp	x26, x27, [x10]
	str	x26, [x8, #112]!
	stp	x8, x11, [sp]
	str	x27, [x28, #120]
	bl	unix_path.compare.compare
	and	w21, w0, #0xff
	mov	x0, x26
	mov	x1, x27
	mov	x2, x24
	mov	x3, x25
	bl	unix_path.compare.compare
	cmp	w21, #0
	mov	w8, #4
	mov	w22, w0
	cinc	x23, x8, eq
	mov	w8, #16
	add	x9, x28, x23, lsl #4
	csel	x8, x8, xzr, ne
	add	x10, x28, x8
	ldp	x8, x1, [x9]
	ldp	x2, x3, [x10]
	mov	x0, x8
	bl	unix_path.compare.compare
	and	w10, w22, #0xff
	ands	w9, w0, #0xff
	stur	x23, [x29, #-56]
	stp	w9, w10, [x29, #-80]
	cset	w9, ne
	cinc	x23, x23, eq
	cmp	w21, #0
	mov	w8, #7
	stur	w21, [x29, #-44]
	cset	w11, ne
	cinc	x24, x9, ne
	cmp	w10, #0
	mov	w9, #3
	cinc	x21, x8, eq
	stur	x11, [x29, #-88]
	cinc	x22, x9, ne
	add	x8, x28, x21, lsl #4
	add	x9, x28, x22, lsl #4
	ldp	x0, x1, [x8, #-16]
	ldp	x2, x3, [x9, #-16]
	bl	unix_path.compare.compare
	add	x8, x28, x23, lsl #4
	add	x9, x28, x24, lsl #4
	ands	w10, w0, #0xff
	stur	w10, [x29, #-48]
	cset	w10, ne
	cset	w11, eq
	ldp	x0, x1, [x8]
	stp	x22, x21, [x29, #-40]
	ldp	x2, x3, [x9]
	sub	x22, x22, x11
	sub	x21, x21, x10
	bl	unix_path.compare.compare
	add	x8, x28, x21, lsl #4
	add	x9, x28, x22, lsl #4
	ands	w10, w0, #0xff
	str	w10, [sp, #112]
	cinc	x25, x23, eq
	cinc	x26, x24, ne
	ldp	x0, x1, [x8, #-16]
	stp	x24, x23, [x29, #-104]
	ldp	x2, x3, [x9, #-16]
	bl	unix_path.compare.compare
	add	x8, x28, x25, lsl #4
	add	x9, x28, x26, lsl #4
	ands	w10, w0, #0xff
	stur	w10, [x29, #-108]
	cset	w10, ne
	cset	w11, eq
	ldp	x0, x1, [x8]
	stp	x21, x22, [x29, #-72]
	ldp	x2, x3, [x9]
	sub	x23, x22, x11
	sub	x21, x21, x10
	bl	unix_path.compare.compare
	add	x8, x28, x21, lsl #4
	add	x9, x28, x23, lsl #4
	ands	w27, w0, #0xff
	cinc	x22, x25, eq
	cinc	x24, x26, ne
	ldp	x0, x1, [x8, #-16]
	ldp	x2, x3, [x9, #-16]
	bl	unix_path.compare.compare
	ands	w9, w0, #0xff
	cset	w8, ne
	sub	x10, x21, x8
	cset	w8, eq
	cmp	x22, x10
	b.hi	.Lunix_path_BB54_7
	sub	x8, x23, x8
	cmp	x24, x8
	b.hi	.Lunix_path_BB54_7
	ldr	w8, [sp, #112]
	ldp	x12, x11, [x29, #-104]
	cmp	w27, #0
	ldur	x13, [x29, #-56]
	ldur	x14, [x29, #-88]
	csel	x10, x25, x26, eq
	cmp	w8, #0
	mov	w8, #112
	csel	x11, x11, x12, eq
	ldur	w12, [x29, #-80]
	add	x10, x28, x10, lsl #4
	add	x11, x28, x11, lsl #4
	mov	w25, #8
	cmp	w12, #0
	mov	w12, #48
	csel	x13, x13, x14, eq
	ldur	w14, [x29, #-76]
	add	x13, x28, x13, lsl #4
	cmp	w14, #0
	mov	w14, #64
	csel	x8, x12, x8, eq
	ldur	w12, [x29, #-44]
	add	x8, x28, x8
	cmp	w12, #0
	csel	x12, xzr, x14, ne
	cmp	w9, #0
	add	x12, x28, x12
	ldp	x14, x12, [x12]
	stp	x14, x12, [x20]
	ldp	x12, x13, [x13]
	stp	x12, x13, [x20, #16]
	ldp	x12, x9, [x11]
	csel	w11, w23, w21, eq
	lsl	w11, w11, #4
	stp	x12, x9, [x20, #32]
	ldur	w12, [x29, #-108]
	add	w11, w11, #4080
	ldp	x9, x10, [x10]
	and	x11, x11, #0xff0
	cmp	w12, #0
	ldp	x13, x12, [x29, #-72]
	add	x11, x28, x11
	stp	x9, x10, [x20, #48]
	csel	w12, w12, w13, eq
	ldp	x10, x11, [x11]
	lsl	w9, w12, #4
	ldur	w12, [x29, #-48]
	cmp	w12, #0
	ldp	x13, x12, [x29, #-40]
	add	w9, w9, #4080
	stp	x10, x11, [x20, #64]
	and	x9, x9, #0xff0
	csel	w12, w13, w12, eq
	add	x9, x28, x9
	lsl	w10, w12, #4
	ldp	x11, x9, [x9]
	add	w10, w10, #4080
	and	x10, x10, #0xff0
	stp	x11, x9, [x20, #80]
	add	x10, x28, x10
	ldp	x9, x10, [x10]
	stp	x9, x10, [x20, #96]
	ldp	x9, x8, [x8]
	stp	x9, x8, [x20, #112]
	b	.Lunix_path_BB54_11
.Lunix_path_BB54_4:
	cmp	x19, #4
	b.lo	.Lunix_path_BB54_9
	ldp	x22, x8, [x2]
	mov	x9, x20
	ldr	x0, [x9, #16]!
	ldr	x1, [x20, #24]
	stur	x9, [x29, #-32]
	stp	x8, x2, [x29, #-24]
	ldp	x2, x3, [x20]
	bl	unix_path.compare.compare
	mov	x24, x20
	mov	x25, x20
	ldr	x1, [x20, #56]
	ldr	x8, [x24, #48]!
	ldr	x3, [x20, #40]
	ldr	x2, [x25, #32]!
	and	w26, w0, #0xff
	mov	x0, x8
	bl	unix_path.compare.compare
	mov	w8, #2
	tst	w0, #0xff
	mov	w9, #16
	cinc	x27, x8, eq
	cinc	x28, x8, ne
	cmp	w26, #0
	add	x8, x20, x27, lsl #4
	csel	x10, x9, xzr, eq
	cset	w26, ne
	add	x10, x20, x10
	cset	w21, eq
	csel	x23, xzr, x9, eq
	ldp	x0, x1, [x8]
	ldp	x2, x3, [x10]
	bl	unix_path.compare.compare
	add	x9, x20, x28, lsl #4
	add	x10, x20, x23
	and	w23, w0, #0xff
	ldp	x2, x3, [x10]
	ldp	x8, x1, [x9]
	mov	x0, x8
	bl	unix_path.compare.compare
	ands	w8, w0, #0xff
	csel	x9, x27, x26, eq
	cmp	w23, #0
	csel	x23, x27, x21, eq
	csel	x21, x21, x9, eq
	csel	x9, x26, x27, eq
	cmp	w8, #0
	csel	x27, x28, x9, eq
	add	x9, x20, x21, lsl #4
	csel	x26, x26, x28, eq
	add	x8, x20, x27, lsl #4
	ldp	x2, x3, [x9]
	ldp	x0, x1, [x8]
	bl	unix_path.compare.compare
	add	x8, x20, x23, lsl #4
	tst	w0, #0xff
	add	x12, x20, x26, lsl #4
	csel	x10, x27, x21, eq
	csel	x11, x21, x27, eq
	sub	x13, x20, x22
	ldp	x9, x8, [x8]
	add	x10, x20, x10, lsl #4
	add	x11, x20, x11, lsl #4
	cmp	x13, #63
	stp	x9, x8, [x22]
	mov	x8, x22
	ldp	x9, x10, [x10]
	str	x9, [x8, #16]!
	mov	x9, x22
	str	x10, [x22, #24]
	ldp	x10, x11, [x11]
	str	x10, [x9, #32]!
	mov	x10, x22
	str	x11, [x22, #40]
	ldp	x11, x12, [x12]
	str	x11, [x10, #48]!
	str	x12, [x22, #56]
	b.hi	.Lunix_path_BB54_12
	ldr	q0, [x22]
	str	q0, [x20]
	ldr	q0, [x8]
	ldur	x8, [x29, #-32]
	str	q0, [x8]
	ldr	q0, [x9]
	str	q0, [x25]
	ldr	q0, [x10]
	str	q0, [x24]
	b	.Lunix_path_BB54_13
.Lunix_path_BB54_7:
	sub	x8, x20, x28
	cmp	x8, #127
	b.hi	.Lunix_path_BB54_10
	ldr	q0, [x28]
	ldr	x8, [sp, #80]
	mov	w25, #4
	str	q0, [x20]
	ldr	q0, [x8]
	ldr	x8, [sp, #104]
	str	q0, [x8]
	ldr	x8, [sp, #72]
	ldr	q0, [x8]
	ldr	x8, [sp, #88]
	str	q0, [x8]
	ldr	x8, [sp, #56]
	ldr	q0, [x8]
	ldr	x8, [sp, #96]
	str	q0, [x8]
	ldr	x8, [sp, #24]
	ldr	q0, [x8]
	ldr	x8, [sp, #48]
	str	q0, [x8]
	ldr	x8, [sp, #16]
	ldr	q0, [x8]
	ldr	x8, [sp, #64]
	str	q0, [x8]
	ldr	x8, [sp, #8]
	ldr	q0, [x8]
	ldr	x8, [sp, #32]
	str	q0, [x8]
	ldr	x8, [sp]
	ldr	q0, [x8]
	ldr	x8, [sp, #40]
	str	q0, [x8]
	b	.Lunix_path_BB54_11
.Lunix_path_BB54_9:
	mov	w25, #1
	cmp	x25, x19
	b.lo	.Lunix_path_BB54_14
	b	.Lunix_path_BB54_24
.Lunix_path_BB54_10:
	ldp	q0, q1, [x28, #96]
	mov	w25, #4
	ldp	q2, q3, [x28]
	ldp	q4, q5, [x28, #32]
	ldp	q6, q7, [x28, #64]
	stp	q0, q1, [x20, #96]
	stp	q2, q3, [x20]
	stp	q4, q5, [x20, #32]
	stp	q6, q7, [x20, #64]
.Lunix_path_BB54_11:
	ldp	x9, x8, [x29, #-24]
	stp	x28, x9, [x8]
	cmp	x25, x19
	b.lo	.Lunix_path_BB54_14
	b	.Lunix_path_BB54_24
.Lunix_path_BB54_12:
	ldp	q1, q0, [x22, #32]
	ldp	q2, q3, [x22]
	stp	q1, q0, [x20, #32]
	stp	q2, q3, [x20]
.Lunix_path_BB54_13:
	ldp	x9, x8, [x29, #-24]
	mov	w25, #4
	stp	x22, x9, [x8]
	cmp	x25, x19
	b.hs	.Lunix_path_BB54_24
.Lunix_path_BB54_14:
	add	x8, x20, x25, lsl #4
	sub	x26, x8, #16
	b	.Lunix_path_BB54_18
.Lunix_path_BB54_15:
	mov	x8, xzr
.Lunix_path_BB54_16:
	add	x8, x20, x8
	stp	x21, x22, [x8]
.Lunix_path_BB54_17:
	add	x25, x25, #1
	add	x26, x26, #16
	cmp	x25, x19
	b.eq	.Lunix_path_BB54_24
.Lunix_path_BB54_18:
	sub	x27, x25, #1
	add	x28, x20, x25, lsl #4
	add	x8, x20, x27, lsl #4
	ldp	x21, x22, [x28]
	ldp	x23, x24, [x8]
	mov	x0, x21
	mov	x1, x22
	mov	x2, x23
	mov	x3, x24
	bl	unix_path.compare.compare
	tst	w0, #0xff
	b.ne	.Lunix_path_BB54_17
	stp	x23, x24, [x28]
	cbz	x27, .Lunix_path_BB54_15
	mov	x28, x26
.Lunix_path_BB54_21:
	ldp	x23, x24, [x28, #-16]
	mov	x0, x21
	mov	x1, x22
	mov	x2, x23
	mov	x3, x24
	bl	unix_path.compare.compare
	tst	w0, #0xff
	b.ne	.Lunix_path_BB54_23
	sub	x27, x27, #1
	stp	x23, x24, [x28], #-16
	cbnz	x27, .Lunix_path_BB54_21
.Lunix_path_BB54_23:
	lsl	x8, x27, #4
	b	.Lunix_path_BB54_16
.Lunix_path_BB54_24:
	ldp	x20, x19, [sp, #304]
	ldp	x22, x21, [sp, #288]
	ldp	x24, x23, [sp, #272]
	ldp	x26, x25, [sp, #256]
	ldp	x28, x27, [sp, #240]
	ldp	x29, x30, [sp, #224]
	add	sp, sp, #320
	ret
.Lunix_path_func_end54:
	.size	core.slice.sort.short.sort_half.3c1dbacb5aad6c68., .Lunix_path_func_end54-core.slice.sort.short.sort_half.3c1dbacb5aad6c68.
	.section	.text.core.slice.sort.stable.merge_sort.3c1dbacb5aad6c68.,"ax",@progbits
	.p2align	2
	.type	core.slice.sort.stable.merge_sort.3c1dbacb5aad6c68.,@function
// core::slice::sort::stable::merge_sort::<#3c1dbacb5aad6c68>
core.slice.sort.stable.merge_sort.3c1dbacb5aad6c68.:
	cmp	x1, #32
	b.hi	.Lunix_path_BB55_2
	b	core.slice.sort.short.sort.3c1dbacb5aad6c68.
.Lunix_path_BB55_2:
	stp	x29, x30, [sp, #-64]!
	stp	x20, x19, [sp, #48]
	lsr	x19, x1, #1
	mov	x29, sp
	stp	x22, x21, [sp, #32]
	mov	x22, x1
	mov	x21, x0
	mov	x1, x19
	str	x23, [sp, #16]
	add	x20, x0, x19, lsl #4
	mov	x23, x2
	bl	core.slice.sort.stable.merge_sort.3c1dbacb5aad6c68.
	sub	x1, x22, x19
	mov	x0, x20
	mov	x2, x23
	bl	core.slice.sort.stable.merge_sort.3c1dbacb5aad6c68.
	mov	x0, x21
	mov	x1, x22
	mov	x2, x19
	ldp	x20, x19, [sp, #48]
	mov	x3, x23
	ldp	x22, x21, [sp, #32]
	ldr	x23, [sp, #16]
	ldp	x29, x30, [sp], #64
	b	core.slice.sort.merge.merge.3c1dbacb5aad6c68.
.Lunix_path_func_end55:
	.size	core.slice.sort.stable.merge_sort.3c1dbacb5aad6c68., .Lunix_path_func_end55-core.slice.sort.stable.merge_sort.3c1dbacb5aad6c68.
	.section	.text.core.slice.sort.merge.merge.3c1dbacb5aad6c68.,"ax",@progbits
	.p2align	2
	.type	core.slice.sort.merge.merge.3c1dbacb5aad6c68.,@function
// core::slice::sort::merge::merge::<#3c1dbacb5aad6c68>
core.slice.sort.merge.merge.3c1dbacb5aad6c68.:
	sub	sp, sp, #112
	lsr	x8, x1, #2
	stp	x22, x21, [sp, #80]
	sub	x21, x1, x2
	stp	x28, x27, [sp, #32]
	mov	x28, x3
	mov	x22, x1
	cmp	x8, x2
	stp	x20, x19, [sp, #96]
	mov	x19, x2
	ccmp	x8, x21, #2, ls
	mov	x20, x0
	stp	x29, x30, [sp, #16]
	cset	w8, ls
	cmp	x1, #1, lsl #12
	stp	x26, x25, [sp, #48]
	stp	x24, x23, [sp, #64]
	add	x29, sp, #16
	b.ls	.Lunix_path_BB56_7
	cbz	w8, .Lunix_path_BB56_7
	cmp	x22, #16, lsl #12
	b.ls	.Lunix_path_BB56_8
.Lunix_path_BB56_3:
	ldp	x23, x27, [x28]
	lsl	x25, x19, #4
	cmp	x19, x21
	b.ls	.Lunix_path_BB56_12
	add	x8, x20, x25
	add	x24, x23, x25
	lsl	x26, x21, #4
	sub	x9, x24, x8
	cmp	x9, x26
	b.hs	.Lunix_path_BB56_45
	cmp	x22, x19
	add	x9, x23, x25
	sub	x10, x22, x19
	b.eq	.Lunix_path_BB56_46
.Lunix_path_BB56_6:
	ldr	q0, [x8], #16
	subs	x10, x10, #1
	str	q0, [x9], #16
	b.ne	.Lunix_path_BB56_6
	b	.Lunix_path_BB56_46
.Lunix_path_BB56_7:
	cmp	x22, #1, lsl #12
	eor	w8, w8, #0x1
	csel	w8, wzr, w8, ls
	tbnz	w8, #0, .Lunix_path_BB56_3
.Lunix_path_BB56_8:
	ldp	x23, x24, [x28]
	lsl	x2, x22, #4
	sub	x8, x23, x20
	cmp	x8, x2
	b.hs	.Lunix_path_BB56_22
	mov	x8, x23
	mov	x9, x20
	mov	x10, x22
	cbz	x22, .Lunix_path_BB56_11
.Lunix_path_BB56_10:
	ldr	q0, [x9], #16
	subs	x10, x10, #1
	str	q0, [x8], #16
	b.ne	.Lunix_path_BB56_10
.Lunix_path_BB56_11:
	mov	x25, xzr
	cbnz	x19, .Lunix_path_BB56_23
	b	.Lunix_path_BB56_39
.Lunix_path_BB56_12:
	sub	x8, x23, x20
	cmp	x8, x25
	b.hs	.Lunix_path_BB56_56
	mov	x8, x23
	mov	x9, x20
	mov	x10, x19
	cbz	x19, .Lunix_path_BB56_62
.Lunix_path_BB56_14:
	ldr	q0, [x9], #16
	subs	x10, x10, #1
	str	q0, [x8], #16
	b.ne	.Lunix_path_BB56_14
	mov	x24, xzr
	cbz	x19, .Lunix_path_BB56_57
.Lunix_path_BB56_16:
	cmp	x22, x19
	mov	x21, x24
	b.ls	.Lunix_path_BB56_58
	mov	x24, xzr
	mov	x21, xzr
	mov	x25, x19
	b	.Lunix_path_BB56_20
.Lunix_path_BB56_18:
	add	x21, x21, #1
	cmp	x21, x19
	add	x24, x24, #16
	b.hs	.Lunix_path_BB56_58
.Lunix_path_BB56_19:
	cmp	x25, x22
	b.hs	.Lunix_path_BB56_58
.Lunix_path_BB56_20:
	add	x8, x20, x25, lsl #4
	add	x9, x23, x21, lsl #4
	ldp	x0, x1, [x8]
	ldp	x2, x3, [x9]
	bl	unix_path.compare.compare
	ands	w9, w0, #0xff
	add	x8, x20, x24
	csel	x10, x20, x23, eq
	csel	x11, x25, x21, eq
	add	x10, x10, x11, lsl #4
	ldp	x11, x10, [x10]
	stp	x11, x10, [x8]
	cbnz	w9, .Lunix_path_BB56_18
	add	x25, x25, #1
	cmp	x21, x19
	add	x24, x24, #16
	b.lo	.Lunix_path_BB56_19
	b	.Lunix_path_BB56_58
.Lunix_path_BB56_22:
	mov	x0, x23
	mov	x1, x20
	bl	memmove
	mov	x25, xzr
	cbz	x19, .Lunix_path_BB56_39
.Lunix_path_BB56_23:
	cmp	x22, x19
	b.ls	.Lunix_path_BB56_39
	str	x28, [sp, #8]
	mov	x27, xzr
	mov	x25, xzr
	add	x28, x20, #8
	mov	x21, x19
	mov	x26, x22
.Lunix_path_BB56_25:
	add	x8, x23, x21, lsl #4
	add	x9, x23, x27, lsl #4
	ldp	x0, x1, [x8]
	ldp	x2, x3, [x9]
	bl	unix_path.compare.compare
	ands	w8, w0, #0xff
	mov	x9, x21
	b.eq	.Lunix_path_BB56_27
	mov	x9, x27
.Lunix_path_BB56_27:
	add	x9, x23, x9, lsl #4
	ldp	x10, x9, [x9]
	stp	x10, x9, [x28, #-8]
	cbnz	w8, .Lunix_path_BB56_29
	add	x21, x21, #1
	cmp	x27, x19
	b.lo	.Lunix_path_BB56_30
	b	.Lunix_path_BB56_35
.Lunix_path_BB56_29:
	add	x27, x27, #1
	cmp	x27, x19
	b.hs	.Lunix_path_BB56_35
.Lunix_path_BB56_30:
	cmp	x21, x22
	b.hs	.Lunix_path_BB56_35
	add	x8, x23, x22, lsl #4
	add	x9, x23, x19, lsl #4
	ldp	x0, x1, [x8, #-16]
	ldp	x2, x3, [x9, #-16]
	bl	unix_path.compare.compare
	and	w8, w0, #0xff
	mov	x9, x19
	cbz	w8, .Lunix_path_BB56_33
	mov	x9, x22
.Lunix_path_BB56_33:
	add	x9, x23, x9, lsl #4
	sub	x26, x26, #1
	add	x10, x20, x26, lsl #4
	ldp	x11, x9, [x9, #-16]
	stp	x11, x9, [x10]
	cbnz	w8, .Lunix_path_BB56_37
	sub	x19, x19, #1
.Lunix_path_BB56_35:
	cmp	x27, x19
	add	x25, x25, #1
	b.hs	.Lunix_path_BB56_38
.Lunix_path_BB56_36:
	cmp	x21, x22
	add	x28, x28, #16
	b.lo	.Lunix_path_BB56_25
	b	.Lunix_path_BB56_38
.Lunix_path_BB56_37:
	sub	x22, x22, #1
	cmp	x27, x19
	add	x25, x25, #1
	b.lo	.Lunix_path_BB56_36
.Lunix_path_BB56_38:
	cmp	x27, x19
	ldr	x28, [sp, #8]
	csel	x8, x27, x21, lo
	lsl	x9, x8, #4
	b	.Lunix_path_BB56_40
.Lunix_path_BB56_39:
	mov	x26, x22
	mov	x9, x25
.Lunix_path_BB56_40:
	sub	x8, x26, x25
	add	x0, x20, x25, lsl #4
	add	x1, x23, x9
	lsl	x2, x8, #4
	sub	x9, x0, x1
	cmp	x9, x2
	b.hs	.Lunix_path_BB56_43
	cmp	x26, x25
	b.eq	.Lunix_path_BB56_44
.Lunix_path_BB56_42:
	ldr	q0, [x1], #16
	subs	x8, x8, #1
	str	q0, [x0], #16
	b.ne	.Lunix_path_BB56_42
	b	.Lunix_path_BB56_44
.Lunix_path_BB56_43:
	bl	memmove
.Lunix_path_BB56_44:
	stp	x23, x24, [x28]
	b	.Lunix_path_BB56_66
.Lunix_path_BB56_45:
	add	x0, x23, x25
	add	x1, x20, x25
	mov	x2, x26
	bl	memmove
.Lunix_path_BB56_46:
	cmp	x22, x19
	b.ls	.Lunix_path_BB56_53
	add	x8, x20, x22, lsl #4
	str	x27, [sp, #8]
	mov	x27, x28
	mov	x25, x19
	sub	x21, x8, #8
	b	.Lunix_path_BB56_50
.Lunix_path_BB56_48:
	mov	x22, x26
	cbz	x25, .Lunix_path_BB56_52
.Lunix_path_BB56_49:
	cmp	x22, x19
	sub	x21, x21, #16
	b.ls	.Lunix_path_BB56_52
.Lunix_path_BB56_50:
	sub	x26, x22, #1
	sub	x28, x25, #1
	add	x8, x23, x26, lsl #4
	add	x9, x20, x28, lsl #4
	ldp	x0, x1, [x8]
	ldp	x2, x3, [x9]
	bl	unix_path.compare.compare
	ands	w8, w0, #0xff
	csel	x9, x20, x23, eq
	csel	x10, x28, x26, eq
	add	x9, x9, x10, lsl #4
	ldp	x10, x9, [x9]
	stp	x10, x9, [x21, #-8]
	cbnz	w8, .Lunix_path_BB56_48
	mov	x25, x28
	cbnz	x28, .Lunix_path_BB56_49
.Lunix_path_BB56_52:
	sub	x21, x22, x19
	lsl	x25, x25, #4
	mov	x28, x27
	lsl	x26, x21, #4
	ldr	x27, [sp, #8]
.Lunix_path_BB56_53:
	add	x0, x20, x25
	sub	x8, x0, x24
	cmp	x8, x26
	b.hs	.Lunix_path_BB56_61
	cmp	x22, x19
	b.eq	.Lunix_path_BB56_65
.Lunix_path_BB56_55:
	ldr	q0, [x24], #16
	subs	x21, x21, #1
	str	q0, [x0], #16
	b.ne	.Lunix_path_BB56_55
	b	.Lunix_path_BB56_65
.Lunix_path_BB56_56:
	mov	x0, x23
	mov	x1, x20
	mov	x2, x25
	bl	memmove
	mov	x24, xzr
	cbnz	x19, .Lunix_path_BB56_16
.Lunix_path_BB56_57:
	mov	x21, x24
.Lunix_path_BB56_58:
	sub	x8, x19, x21
	add	x1, x23, x21, lsl #4
	add	x20, x20, x24
	lsl	x2, x8, #4
	sub	x9, x20, x1
	cmp	x9, x2
	b.hs	.Lunix_path_BB56_63
	cmp	x19, x21
	b.eq	.Lunix_path_BB56_65
.Lunix_path_BB56_60:
	ldr	q0, [x1], #16
	subs	x8, x8, #1
	str	q0, [x20], #16
	b.ne	.Lunix_path_BB56_60
	b	.Lunix_path_BB56_65
.Lunix_path_BB56_61:
	mov	x1, x24
	mov	x2, x26
	b	.Lunix_path_BB56_64
.Lunix_path_BB56_62:
	mov	x2, xzr
	mov	x1, x23
.Lunix_path_BB56_63:
	mov	x0, x20
.Lunix_path_BB56_64:
	bl	memmove
.Lunix_path_BB56_65:
	stp	x23, x27, [x28]
.Lunix_path_BB56_66:
	ldp	x20, x19, [sp, #96]
	ldp	x22, x21, [sp, #80]
	ldp	x24, x23, [sp, #64]
	ldp	x26, x25, [sp, #48]
	ldp	x28, x27, [sp, #32]
	ldp	x29, x30, [sp, #16]
	add	sp, sp, #112
	ret
.Lunix_path_func_end56:
	.size	core.slice.sort.merge.merge.3c1dbacb5aad6c68., .Lunix_path_func_end56-core.slice.sort.merge.merge.3c1dbacb5aad6c68.
	.section	.text.core.slice.sort.pivot.median_of_medians.3c1dbacb5aad6c68.,"ax",@progbits
	.p2align	2
	.type	core.slice.sort.pivot.median_of_medians.3c1dbacb5aad6c68.,@function
// core::slice::sort::pivot::median_of_medians::<#3c1dbacb5aad6c68>
core.slice.sort.pivot.median_of_medians.3c1dbacb5aad6c68.:
	sub	sp, sp, #112
	stp	x22, x21, [sp, #80]
	mov	x21, x2
	cmp	x4, #8
	stp	x20, x19, [sp, #96]
	mov	x20, x3
	mov	x19, x1
	mov	x22, x0
	stp	x29, x30, [sp, #16]
	add	x29, sp, #16
	stp	x28, x27, [sp, #32]
	stp	x26, x25, [sp, #48]
	stp	x24, x23, [sp, #64]
	b.hs	.Lunix_path_BB57_3
	add	x8, x22, x19, lsl #4
	add	x9, x22, x21, lsl #4
	ldp	x26, x27, [x8]
	ldp	x23, x24, [x9]
	mov	x0, x26
	mov	x1, x27
	mov	x2, x23
	mov	x3, x24
	bl	unix_path.compare.compare
	add	x8, x22, x20, lsl #4
	ands	w9, w0, #0xff
	mov	x0, x26
	mov	x1, x27
	str	w9, [sp, #8]
	cset	w28, eq
	ldp	x22, x25, [x8]
	mov	x2, x22
	mov	x3, x25
	bl	unix_path.compare.compare
	tst	w0, #0xff
	cset	w8, eq
	eor	w8, w28, w8
	tbnz	w8, #0, .Lunix_path_BB57_5
	ldr	w8, [sp, #8]
	mov	x0, x23
	mov	x1, x24
	mov	x2, x22
	mov	x3, x25
	cmp	w8, #0
	cset	w19, eq
	bl	unix_path.compare.compare
	tst	w0, #0xff
	cset	w8, eq
	eor	w8, w19, w8
	cmp	w8, #0
	csel	x19, x20, x21, ne
	b	.Lunix_path_BB57_5
.Lunix_path_BB57_3:
	lsr	x23, x4, #3
	mov	x0, x22
	mov	x1, x19
	lsl	x8, x23, #3
	lsl	x24, x23, #2
	mov	x4, x23
	sub	x25, x8, x23
	add	x2, x24, x19
	add	x3, x25, x19
	bl	core.slice.sort.pivot.median_of_medians.3c1dbacb5aad6c68.
	mov	x19, x0
	add	x2, x24, x21
	add	x3, x25, x21
	mov	x0, x22
	mov	x1, x21
	mov	x4, x23
	bl	core.slice.sort.pivot.median_of_medians.3c1dbacb5aad6c68.
	mov	x21, x0
	add	x2, x24, x20
	add	x3, x25, x20
	mov	x0, x22
	mov	x1, x20
	mov	x4, x23
	bl	core.slice.sort.pivot.median_of_medians.3c1dbacb5aad6c68.
	add	x8, x22, x19, lsl #4
	add	x9, x22, x21, lsl #4
	mov	x20, x0
	str	x21, [sp, #8]
	ldp	x26, x27, [x8]
	ldp	x23, x24, [x9]
	mov	x0, x26
	mov	x1, x27
	mov	x2, x23
	mov	x3, x24
	bl	unix_path.compare.compare
	add	x8, x22, x20, lsl #4
	ands	w28, w0, #0xff
	mov	x0, x26
	mov	x1, x27
	cset	w21, eq
	ldp	x22, x25, [x8]
	mov	x2, x22
	mov	x3, x25
	bl	unix_path.compare.compare
	tst	w0, #0xff
	cset	w8, eq
	eor	w8, w21, w8
	tbnz	w8, #0, .Lunix_path_BB57_5
	cmp	w28, #0
	mov	x0, x23
	mov	x1, x24
	mov	x2, x22
	mov	x3, x25
	cset	w19, eq
	bl	unix_path.compare.compare
	tst	w0, #0xff
	cset	w8, eq
	eor	w8, w19, w8
	cmp	w8, #0
	ldr	x8, [sp, #8]
	csel	x19, x20, x8, ne
.Lunix_path_BB57_5:
	mov	x0, x19
	ldp	x20, x19, [sp, #96]
	ldp	x22, x21, [sp, #80]
	ldp	x24, x23, [sp, #64]
	ldp	x26, x25, [sp, #48]
	ldp	x28, x27, [sp, #32]
	ldp	x29, x30, [sp, #16]
	add	sp, sp, #112
	ret
.Lunix_path_func_end57:
	.size	core.slice.sort.pivot.median_of_medians.3c1dbacb5aad6c68., .Lunix_path_func_end57-core.slice.sort.pivot.median_of_medians.3c1dbacb5aad6c68.
	.section	.text.core.slice.sort.runs.climb.3c1dbacb5aad6c68.,"ax",@progbits
	.p2align	2
	.type	core.slice.sort.runs.climb.3c1dbacb5aad6c68.,@function
// core::slice::sort::runs::climb::<#3c1dbacb5aad6c68>
core.slice.sort.runs.climb.3c1dbacb5aad6c68.:
	sub	sp, sp, #192
	stp	x28, x27, [sp, #112]
	mov	x28, x4
	subs	x8, x2, x4
	stp	x26, x25, [sp, #128]
	mov	x26, x0
	stp	x20, x19, [sp, #176]
	mov	w19, w5
	stp	x29, x30, [sp, #96]
	add	x29, sp, #96
	stp	x24, x23, [sp, #144]
	stp	x22, x21, [sp, #160]
	str	w6, [sp, #36]
	str	xzr, [sp, #72]
	b.ne	.Lunix_path_BB58_2
	str	x28, [x26]
	strb	w19, [x26, #8]
	stur	wzr, [x26, #9]
	str	wzr, [x26, #12]
	str	x28, [x26, #16]
	strb	w19, [x26, #24]
	stur	xzr, [x26, #25]
	str	xzr, [x26, #32]
	b	.Lunix_path_BB58_59
.Lunix_path_BB58_2:
	ldr	x9, [x29, #96]
	mov	x21, x7
	mov	x23, x2
	mov	x24, x3
	mov	x25, x1
	cmp	x8, x7
	str	x9, [sp, #24]
	b.hs	.Lunix_path_BB58_4
	mov	w8, wzr
	mov	x0, x23
	b	.Lunix_path_BB58_44
.Lunix_path_BB58_4:
	mov	x0, x25
	mov	x1, x23
	mov	x2, x28
	bl	core.slice.sort.pivot.run_from.3c1dbacb5aad6c68.
	sub	x9, x0, x28
	cmp	x9, x21
	b.hs	.Lunix_path_BB58_6
	mov	w8, wzr
	add	x0, x21, x28
	b	.Lunix_path_BB58_44
.Lunix_path_BB58_6:
	tbz	w1, #0, .Lunix_path_BB58_43
	add	x8, x25, x28, lsl #4
	mov	x20, x0
	cmp	x9, #15
	b.ls	.Lunix_path_BB58_9
	lsr	x2, x9, #1
	mov	x0, x8
	sub	x9, x9, x2
	add	x1, x8, x9, lsl #4
	bl	core.slice.edits.mirror.21.unix_path.path.Path.
	b	.Lunix_path_BB58_15
.Lunix_path_BB58_9:
	subs	x11, x9, #2
	b.lo	.Lunix_path_BB58_15
	lsr	x10, x11, #1
	subs	x12, x9, #1
	b.eq	.Lunix_path_BB58_12
	lsl	x12, x12, #4
	ldr	q1, [x8]
	ldr	q0, [x8, x12]
	str	q0, [x8]
	str	q1, [x8, x12]
.Lunix_path_BB58_12:
	mov	x0, x20
	cbz	x10, .Lunix_path_BB58_43
	cmp	x11, #1
	b.ls	.Lunix_path_BB58_16
	lsl	x11, x11, #4
	ldr	q1, [x8, #16]
	ldr	q0, [x8, x11]
	str	q0, [x8, #16]
	str	q1, [x8, x11]
	b	.Lunix_path_BB58_18
.Lunix_path_BB58_15:
	mov	w8, #1
	mov	x0, x20
	b	.Lunix_path_BB58_44
.Lunix_path_BB58_16:
	cbnz	x11, .Lunix_path_BB58_18
	ldp	q1, q0, [x8]
	stp	q0, q1, [x8]
.Lunix_path_BB58_18:
	cmp	x10, #1
	b.eq	.Lunix_path_BB58_43
	sub	x11, x9, #3
	cmp	x11, #2
	b.ls	.Lunix_path_BB58_21
	lsl	x11, x11, #4
	ldr	q1, [x8, #32]
	ldr	q0, [x8, x11]
	str	q0, [x8, #32]
	str	q1, [x8, x11]
	b	.Lunix_path_BB58_23
.Lunix_path_BB58_21:
	b.eq	.Lunix_path_BB58_23
	lsl	x11, x11, #4
	ldr	q1, [x8, #32]
	ldr	q0, [x8, x11]
	str	q1, [x8, x11]
	str	q0, [x8, #32]
.Lunix_path_BB58_23:
	cmp	x10, #2
	b.eq	.Lunix_path_BB58_43
	sub	x11, x9, #4
	cmp	x11, #3
	b.ls	.Lunix_path_BB58_26
	lsl	x11, x11, #4
	ldr	q1, [x8, #48]
	ldr	q0, [x8, x11]
	str	q0, [x8, #48]
	str	q1, [x8, x11]
	b	.Lunix_path_BB58_28
.Lunix_path_BB58_26:
	b.eq	.Lunix_path_BB58_28
	lsl	x11, x11, #4
	ldr	q1, [x8, #48]
	ldr	q0, [x8, x11]
	str	q1, [x8, x11]
	str	q0, [x8, #48]
.Lunix_path_BB58_28:
	cmp	x10, #3
	b.eq	.Lunix_path_BB58_43
	sub	x11, x9, #5
	cmp	x11, #4
	b.ls	.Lunix_path_BB58_31
	lsl	x11, x11, #4
	ldr	q1, [x8, #64]
	ldr	q0, [x8, x11]
	str	q0, [x8, #64]
	str	q1, [x8, x11]
	b	.Lunix_path_BB58_33
.Lunix_path_BB58_31:
	b.eq	.Lunix_path_BB58_33
	lsl	x11, x11, #4
	ldr	q1, [x8, #64]
	ldr	q0, [x8, x11]
	str	q1, [x8, x11]
	str	q0, [x8, #64]
.Lunix_path_BB58_33:
	cmp	x10, #4
	b.eq	.Lunix_path_BB58_43
	sub	x11, x9, #6
	cmp	x11, #5
	b.ls	.Lunix_path_BB58_36
	lsl	x11, x11, #4
	ldr	q1, [x8, #80]
	ldr	q0, [x8, x11]
	str	q0, [x8, #80]
	str	q1, [x8, x11]
	b	.Lunix_path_BB58_38
.Lunix_path_BB58_36:
	b.eq	.Lunix_path_BB58_38
	lsl	x11, x11, #4
	ldr	q1, [x8, #80]
	ldr	q0, [x8, x11]
	str	q1, [x8, x11]
	str	q0, [x8, #80]
.Lunix_path_BB58_38:
	cmp	x10, #5
	b.eq	.Lunix_path_BB58_43
	sub	x9, x9, #7
	cmp	x9, #6
	b.ls	.Lunix_path_BB58_41
	lsl	x9, x9, #4
	ldr	q1, [x8, #96]
	ldr	q0, [x8, x9]
	str	q0, [x8, #96]
	str	q1, [x8, x9]
	b	.Lunix_path_BB58_43
.Lunix_path_BB58_41:
	b.eq	.Lunix_path_BB58_43
	lsl	x9, x9, #4
	ldr	q1, [x8, #96]
	ldr	q0, [x8, x9]
	str	q1, [x8, x9]
	str	q0, [x8, #96]
.Lunix_path_BB58_43:
	mov	w8, #1
.Lunix_path_BB58_44:
	ldr	x12, [sp, #24]
	add	x10, x28, x24
	add	x11, x0, x28
	add	x22, sp, #40
	str	x28, [sp, #40]
	mul	x10, x12, x10
	strb	w19, [sp, #48]
	stur	wzr, [sp, #49]
	mul	x11, x11, x12
	str	wzr, [sp, #52]
	str	x0, [sp, #56]
	strb	w8, [sp, #64]
	stur	wzr, [sp, #65]
	eor	x10, x11, x10
	ldr	w11, [sp, #36]
	clz	x10, x10
	add	w6, w10, #1
	cmp	w11, w10
	stp	wzr, w6, [sp, #68]
	b.ls	.Lunix_path_BB58_46
	mov	w9, wzr
	b	.Lunix_path_BB58_58
.Lunix_path_BB58_46:
	ldr	x27, [x29, #104]
	str	x26, [sp, #16]
	b	.Lunix_path_BB58_50
.Lunix_path_BB58_47:
	add	x8, x25, x19
	ldp	x0, x1, [x8]
	ldp	x2, x3, [x8, #-16]
	bl	unix_path.compare.compare
	tst	w0, #0xff
	b.eq	.Lunix_path_BB58_56
.Lunix_path_BB58_48:
	mov	w19, #1
.Lunix_path_BB58_49:
	ldr	w6, [sp, #72]
	ldr	w8, [sp, #36]
	strb	w19, [sp, #48]
	stur	wzr, [x22, #9]
	cmp	w8, w6
	stur	wzr, [x22, #12]
	b.hs	.Lunix_path_BB58_57
.Lunix_path_BB58_50:
	ldr	x4, [sp, #56]
	ldrb	w5, [sp, #64]
	add	x0, sp, #40
	ldr	x8, [sp, #24]
	mov	x1, x25
	mov	x2, x23
	mov	x3, x28
	mov	x7, x21
	mov	x20, x28
	stp	x8, x27, [sp]
	bl	core.slice.sort.runs.climb.3c1dbacb5aad6c68.
	ldrb	w26, [sp, #48]
	ldr	x28, [sp, #40]
	orr	w8, w26, w19
	tbnz	w8, #0, .Lunix_path_BB58_52
	mov	w19, w26
	b	.Lunix_path_BB58_49
.Lunix_path_BB58_52:
	tbz	w19, #0, .Lunix_path_BB58_54
	lsl	x19, x20, #4
	tbnz	w26, #0, .Lunix_path_BB58_47
	b	.Lunix_path_BB58_55
.Lunix_path_BB58_54:
	sub	x8, x20, x24
	mov	w9, #126
	add	x0, x25, x24, lsl #4
	clz	x8, x8
	sub	x1, x20, x24
	sub	x2, x20, x24
	sub	w3, w9, w8, lsl #1
	mov	x4, x27
	bl	core.slice.sort.stable.quicksort.3c1dbacb5aad6c68.
	lsl	x19, x20, #4
	tbnz	w26, #0, .Lunix_path_BB58_47
.Lunix_path_BB58_55:
	sub	x8, x28, x20
	mov	w9, #126
	add	x0, x25, x19
	clz	x8, x8
	sub	x1, x28, x20
	sub	x2, x28, x20
	sub	w3, w9, w8, lsl #1
	mov	x4, x27
	bl	core.slice.sort.stable.quicksort.3c1dbacb5aad6c68.
	b	.Lunix_path_BB58_47
.Lunix_path_BB58_56:
	add	x0, x25, x24, lsl #4
	sub	x2, x20, x24
	sub	x1, x28, x24
	mov	x3, x27
	bl	core.slice.sort.merge.merge.3c1dbacb5aad6c68.
	b	.Lunix_path_BB58_48
.Lunix_path_BB58_57:
	ldr	x0, [sp, #56]
	ldrb	w8, [sp, #64]
	ldr	w9, [sp, #76]
	ldr	x26, [sp, #16]
.Lunix_path_BB58_58:
	ldur	w10, [x22, #9]
	ldur	w11, [x22, #12]
	strb	w8, [x26, #24]
	ldur	w8, [x22, #28]
	str	x28, [x26]
	stur	w10, [x26, #9]
	ldur	w10, [x22, #25]
	strb	w19, [x26, #8]
	str	w11, [x26, #12]
	str	x0, [x26, #16]
	stur	w10, [x26, #25]
	stp	w8, w6, [x26, #28]
	str	w9, [x26, #36]
.Lunix_path_BB58_59:
	ldp	x20, x19, [sp, #176]
	ldp	x22, x21, [sp, #160]
	ldp	x24, x23, [sp, #144]
	ldp	x26, x25, [sp, #128]
	ldp	x28, x27, [sp, #112]
	ldp	x29, x30, [sp, #96]
	add	sp, sp, #192
	ret
.Lunix_path_func_end58:
	.size	core.slice.sort.runs.climb.3c1dbacb5aad6c68., .Lunix_path_func_end58-core.slice.sort.runs.climb.3c1dbacb5aad6c68.
	.section	.rodata.cst16,"aM",@progbits,16
	.p2align	4, 0x0
.Lunix_path_CPI59_0:
	.byte	1
	.byte	2
	.byte	4
	.byte	8
	.byte	16
	.byte	32
	.byte	64
	.byte	128
	.byte	1
	.byte	2
	.byte	4
	.byte	8
	.byte	16
	.byte	32
	.byte	64
	.byte	128
.Lunix_path_CPI59_3:
	.byte	110
	.byte	111
	.byte	32
	.byte	114
	.byte	101
	.byte	108
	.byte	97
	.byte	116
	.byte	105
	.byte	118
	.byte	101
	.byte	32
	.byte	112
	.byte	97
	.byte	116
	.byte	104
	.section	.rodata.cst8,"aM",@progbits,8
	.p2align	3, 0x0
.Lunix_path_CPI59_1:
	.byte	1
	.byte	2
	.byte	4
	.byte	8
	.byte	16
	.byte	32
	.byte	64
	.byte	128
.Lunix_path_CPI59_2:
	.byte	117
	.byte	112
	.byte	97
	.byte	116
	.zero	1
	.zero	1
	.zero	1
	.zero	1
.Lunix_path_CPI59_4:
	.byte	32
	.byte	102
	.byte	114
	.byte	111
	.zero	1
	.zero	1
	.zero	1
	.zero	1
	.section	.text.upath_commands.engine.answer_paths.3596f8ae3b0ff399.,"ax",@progbits
	.p2align	2
	.type	upath_commands.engine.answer_paths.3596f8ae3b0ff399.,@function
// upath_commands::engine::answer_paths::<#3596f8ae3b0ff399>
upath_commands.engine.answer_paths.3596f8ae3b0ff399.:
	stp	x29, x30, [sp, #-96]!
	stp	x28, x27, [sp, #16]
	mov	x29, sp
	stp	x26, x25, [sp, #32]
	stp	x24, x23, [sp, #48]
	stp	x22, x21, [sp, #64]
	stp	x20, x19, [sp, #80]
	sub	sp, sp, #432
	str	x2, [sp, #80]
	str	x3, [sp, #56]
	cbz	x3, .Lunix_path_BB59_448
	add	x8, sp, #112
	mov	x23, x4
	mov	x25, x1
	mov	x24, x0
	mov	x27, xzr
	add	x9, x1, #16
	add	x8, x8, #15
	stp	x0, x4, [sp, #40]
	stp	x9, x8, [sp, #8]
	str	x1, [sp, #72]
	b	.Lunix_path_BB59_5
.Lunix_path_BB59_2:
	mov	x20, x27
	mov	x2, xzr
.Lunix_path_BB59_3:
	ldur	x1, [x23, #48]
	add	x0, x23, #40
	bl	upath_commands.messages.send.5821a58b74a7d609.
	ldr	x25, [sp, #72]
	mov	x27, x20
.Lunix_path_BB59_4:
	ldr	x8, [sp, #56]
	add	x27, x27, #1
	cmp	x27, x8
	b.eq	.Lunix_path_BB59_448
.Lunix_path_BB59_5:
	ldr	x8, [sp, #80]
	ldrb	w9, [x25]
	add	x8, x8, x27, lsl #4
	ldp	x20, x22, [x8]
	stp	x20, x22, [sp, #96]
	cbz	w9, .Lunix_path_BB59_84
	cbz	x22, .Lunix_path_BB59_14
	tbnz	x22, #63, .Lunix_path_BB59_460
	mov	x0, x22
	mov	w1, #1
	mov	w21, #1
	bl	rattle_alloc
	tbz	w0, #0, .Lunix_path_BB59_461
	mov	x26, x1
	sub	x9, x1, x20
	cmp	x9, x22
	b.hs	.Lunix_path_BB59_15
.Lunix_path_BB59_10:
	cmp	x22, #8
	mov	x8, xzr
	b.lo	.Lunix_path_BB59_23
	cmp	x9, #32
	b.lo	.Lunix_path_BB59_23
	cmp	x22, #32
	b.hs	.Lunix_path_BB59_16
	mov	x8, xzr
	b	.Lunix_path_BB59_20
.Lunix_path_BB59_14:
	sub	x26, x29, #17
	sub	x9, x26, x20
	cmp	x9, x22
	b.lo	.Lunix_path_BB59_10
.Lunix_path_BB59_15:
	mov	x0, x26
	mov	x1, x20
	mov	x2, x22
	bl	memmove
	b	.Lunix_path_BB59_25
.Lunix_path_BB59_16:
	and	x9, x22, #0x18
	and	x8, x22, #0xffffffffffffffe0
	add	x10, x20, #16
	add	x11, x26, #16
	and	x12, x22, #0xffffffffffffffe0
.Lunix_path_BB59_17:
	ldp	q0, q1, [x10, #-16]
	subs	x12, x12, #32
	add	x10, x10, #32
	stp	q0, q1, [x11, #-16]
	add	x11, x11, #32
	b.ne	.Lunix_path_BB59_17
	cmp	x22, x8
	b.eq	.Lunix_path_BB59_25
	cbz	x9, .Lunix_path_BB59_23
.Lunix_path_BB59_20:
	mov	x11, x8
	and	x8, x22, #0xfffffffffffffff8
	sub	x9, x11, x8
	add	x10, x20, x11
	add	x11, x26, x11
.Lunix_path_BB59_21:
	ldr	d0, [x10], #8
	adds	x9, x9, #8
	str	d0, [x11], #8
	b.ne	.Lunix_path_BB59_21
	cmp	x22, x8
	b.eq	.Lunix_path_BB59_25
.Lunix_path_BB59_23:
	sub	x9, x22, x8
	add	x10, x20, x8
	add	x8, x26, x8
.Lunix_path_BB59_24:
	ldrb	w11, [x10], #1
	subs	x9, x9, #1
	strb	w11, [x8], #1
	b.ne	.Lunix_path_BB59_24
.Lunix_path_BB59_25:
	ldrb	w8, [x25, #8]
	str	x27, [sp, #88]
	cmp	w8, #1
	b.ne	.Lunix_path_BB59_27
	add	x8, x25, #16
	ldr	x19, [x8]
	b	.Lunix_path_BB59_29
.Lunix_path_BB59_27:
	mov	w0, #368
	mov	w1, #8
	bl	rattle_alloc
	tbz	w0, #0, .Lunix_path_BB59_457
	str	wzr, [x1]
	mov	x19, x1
	mov	w9, #1
	ldrb	w8, [x25, #8]
	stp	x9, x1, [x25, #8]
	cmp	w8, #1
	b.eq	.Lunix_path_BB59_464
.Lunix_path_BB59_29:
	ldrh	w9, [x19, #2]
	mov	w8, #15
	mov	x24, xzr
	mov	x22, xzr
	sub	x27, x8, x9
	neg	x20, x9
	mov	x8, x19
	str	x9, [sp, #64]
	stp	x19, x27, [sp, #24]
	ldrh	w28, [x8]
	mov	x21, x8
	cbz	x28, .Lunix_path_BB59_35
.Lunix_path_BB59_30:
	mov	x23, xzr
	add	x25, x21, #16
.Lunix_path_BB59_31:
	ldp	x2, x3, [x25, #-8]
	mov	x0, x26
	ldr	x1, [sp, #104]
	bl	unix_path.compare.compare
	and	w8, w0, #0xff
	cmp	w8, #2
	b.ne	.Lunix_path_BB59_34
	add	x23, x23, #1
	add	x25, x25, #24
	cmp	x28, x23
	b.ne	.Lunix_path_BB59_31
	mov	x23, x28
	b	.Lunix_path_BB59_36
.Lunix_path_BB59_34:
	cbz	w8, .Lunix_path_BB59_36
	b	.Lunix_path_BB59_38
.Lunix_path_BB59_35:
	mov	x23, xzr
.Lunix_path_BB59_36:
	ldrh	w8, [x21, #2]
	add	x22, x23, x22, lsl #4
	add	x27, x27, #1
	cbz	w8, .Lunix_path_BB59_41
	add	x8, x21, x23, lsl #3
	add	x20, x20, #1
	mov	x24, x23
	mov	x19, x21
	ldr	x8, [x8, #368]
	ldrh	w28, [x8]
	mov	x21, x8
	cbnz	x28, .Lunix_path_BB59_30
	b	.Lunix_path_BB59_35
.Lunix_path_BB59_38:
	ldp	x9, x25, [sp, #64]
	add	x8, x19, x24, lsl #3
	add	x8, x8, #368
	add	x9, x9, x27
	cmp	x9, #15
	add	x9, x25, #16
	csel	x8, x9, x8, eq
	and	x9, x23, #0xf
	ldr	x8, [x8]
	ldrh	w8, [x8]
	cmp	x9, x8
	b.hs	.Lunix_path_BB59_464
	ldp	x24, x23, [sp, #40]
	ldr	x27, [sp, #88]
	ldr	x8, [sp, #104]
	cbz	x8, .Lunix_path_BB59_4
	mov	x0, x26
	bl	rattle_dealloc
	b	.Lunix_path_BB59_4
.Lunix_path_BB59_41:
	ldr	x10, [sp, #72]
	mov	x9, #9223372036854775806
	ldr	x23, [sp, #48]
	ldr	x8, [x10, #24]
	cmp	x8, x9
	b.hi	.Lunix_path_BB59_456
	lsl	x8, x24, #3
	ldr	x13, [sp, #32]
	add	x10, x10, #16
	sub	x11, x27, x13
	add	x9, x19, x8
	add	x9, x9, #368
	cmp	x11, #1
	csel	x9, x10, x9, eq
	ldr	x9, [x9]
	ldrh	w9, [x9]
	cmp	w9, #14
	b.hi	.Lunix_path_BB59_44
	ldp	x27, x20, [sp, #88]
	ldr	x25, [sp, #72]
	ldr	x24, [sp, #40]
	b	.Lunix_path_BB59_83
.Lunix_path_BB59_44:
	ldr	x11, [sp, #24]
	mov	x12, x24
	ldrh	w8, [x11]
	cmp	w8, #15
	b.lo	.Lunix_path_BB59_48
	ldp	x8, x21, [sp, #64]
	cmp	w8, #10
	b.hi	.Lunix_path_BB59_456
	mov	w0, #496
	mov	w1, #8
	bl	rattle_alloc
	tbz	w0, #0, .Lunix_path_BB59_456
	ldr	x12, [sp, #64]
	add	x10, x21, #16
	mov	w9, #14
	mov	x11, x1
	add	w8, w12, #1
	sub	x13, x9, x12
	mov	x12, x24
	strh	w8, [x1, #2]
	ldr	x8, [x10]
	strh	wzr, [x1]
	str	x8, [x1, #368]
	str	x1, [x10]
.Lunix_path_BB59_48:
	ldr	x10, [sp, #16]
	subs	x8, x27, x13
	stp	xzr, xzr, [sp, #112]
	str	x8, [sp, #64]
	b.ls	.Lunix_path_BB59_50
.Lunix_path_BB59_49:
	add	x8, x20, #15
	and	w9, w22, #0xf
	lsr	x22, x22, #4
	cmp	x13, x8
	strb	w9, [x10, x20]
	sub	x20, x20, #1
	b.lo	.Lunix_path_BB59_49
.Lunix_path_BB59_50:
	mov	w8, #16
	ldr	x25, [sp, #72]
	ldr	x27, [sp, #88]
	sub	x28, x8, x13
	cmp	x28, #2
	b.lo	.Lunix_path_BB59_80
	add	x8, sp, #112
	add	x22, x25, #16
	add	x23, x8, x13
	b	.Lunix_path_BB59_55
.Lunix_path_BB59_52:
	add	w20, w20, #1
	sub	w8, w8, #8
	strb	w20, [x23]
	strb	w8, [x23, #1]
.Lunix_path_BB59_53:
	ldr	x25, [sp, #72]
	ldr	x27, [sp, #88]
.Lunix_path_BB59_54:
	add	x8, x19, w20, uxtb #3
	cmp	x28, #2
	sub	x28, x28, #1
	add	x23, x23, #1
	add	x22, x8, #368
	b.ls	.Lunix_path_BB59_79
.Lunix_path_BB59_55:
	ldrb	w20, [x23]
	ldr	x19, [x22]
	add	x8, x19, x20, lsl #3
	ldr	x8, [x8, #368]
	ldrh	w8, [x8]
	cmp	w8, #15
	b.lo	.Lunix_path_BB59_54
	ldrh	w8, [x19, #2]
	subs	x19, x8, #1
	b.eq	.Lunix_path_BB59_58
	mov	w0, #496
	mov	w1, #8
	bl	rattle_alloc
	tbnz	w0, #0, .Lunix_path_BB59_59
	b	.Lunix_path_BB59_453
.Lunix_path_BB59_58:
	mov	w0, #368
	mov	w1, #8
	bl	rattle_alloc
	tbz	w0, #0, .Lunix_path_BB59_453
.Lunix_path_BB59_59:
	strh	w19, [x1, #2]
	mov	x27, x1
	ldr	x8, [x22]
	stp	xzr, xzr, [sp, #128]
	str	xzr, [sp, #144]
	ldrh	w9, [x8]
	ldrh	w11, [x8, #2]
	add	x10, x8, #8
	add	x21, x8, #368
	stp	xzr, xzr, [x29, #-192]
	stp	x10, x9, [sp, #160]
	mov	w10, #15
	cmp	w11, #0
	stp	x9, x10, [sp, #192]
	csinc	x9, xzr, x9, eq
	mov	w11, #16
	stp	x21, x9, [sp, #208]
	ldr	x9, [x21, x20, lsl #3]
	csel	x12, xzr, x11, eq
	stp	x12, x8, [sp, #224]
	ldrh	w12, [x9]
	ldrh	w25, [x9, #2]
	add	x8, x9, #8
	stur	x8, [x29, #-112]
	add	x13, x9, #368
	add	x8, x1, #8
	sub	x19, x12, #8
	cmp	w25, #0
	add	x1, x9, #200
	add	x14, x19, x19, lsl #1
	stp	x10, x21, [sp, #176]
	csinc	x12, xzr, x12, eq
	stp	x10, x13, [x29, #-96]
	lsl	x2, x14, #3
	stp	x10, x13, [x29, #-72]
	csel	x10, xzr, x11, eq
	sub	x11, x8, x1
	stur	xzr, [x29, #-176]
	cmp	x11, x2
	stp	xzr, xzr, [x29, #-160]
	stur	xzr, [x29, #-144]
	stp	x12, x10, [x29, #-56]
	stur	x9, [x29, #-40]
	b.hs	.Lunix_path_BB59_62
	mov	x9, x19
	cbz	x19, .Lunix_path_BB59_63
.Lunix_path_BB59_61:
	ldr	x10, [x1, #16]
	ldr	q0, [x1], #24
	subs	x9, x9, #1
	str	x10, [x8, #16]
	str	q0, [x8], #24
	b.ne	.Lunix_path_BB59_61
	b	.Lunix_path_BB59_63
.Lunix_path_BB59_62:
	add	x0, x27, #8
	bl	memmove
.Lunix_path_BB59_63:
	mov	w8, #8
	sub	x0, x29, #136
	sub	x1, x29, #112
	mov	w2, #7
	stur	x8, [x29, #-104]
	stur	x8, [x29, #-80]
	stp	xzr, xzr, [x29, #-128]
	stur	xzr, [x29, #-136]
	bl	std_alloc.vec.Vec.remove.b40003dd673f1bd1.
	cbz	w25, .Lunix_path_BB59_72
	ldp	x9, x8, [x29, #-64]
	add	x11, x27, #368
	sub	x10, x8, #8
	add	x1, x9, #64
	lsl	x2, x10, #3
	sub	x11, x11, x1
	cmp	x11, x2
	b.hs	.Lunix_path_BB59_71
	cbz	x10, .Lunix_path_BB59_72
	cmp	x10, #4
	b.lo	.Lunix_path_BB59_68
	sub	x11, x27, x9
	add	x11, x11, #304
	cmp	x11, #32
	b.hs	.Lunix_path_BB59_76
.Lunix_path_BB59_68:
	mov	x11, xzr
.Lunix_path_BB59_69:
	lsl	x10, x11, #3
	sub	x8, x8, x11
	sub	x8, x8, #8
	add	x9, x9, x10
	add	x10, x27, x10
	add	x9, x9, #64
	add	x10, x10, #368
.Lunix_path_BB59_70:
	ldr	x11, [x9], #8
	subs	x8, x8, #1
	str	x11, [x10], #8
	b.ne	.Lunix_path_BB59_70
	b	.Lunix_path_BB59_72
.Lunix_path_BB59_71:
	add	x0, x27, #368
	bl	memmove
.Lunix_path_BB59_72:
	ldur	x8, [x29, #-104]
	ldur	x9, [x29, #-40]
	sub	x10, x29, #136
	ldr	q0, [x10]
	add	x0, sp, #160
	add	x2, sp, #128
	strh	w8, [x9]
	ldur	x8, [x29, #-120]
	mov	x1, x20
	strh	w19, [x27]
	stur	q0, [x29, #-192]
	stur	x8, [x29, #-176]
	str	x9, [x21, x20, lsl #3]
	str	x8, [sp, #144]
	str	q0, [sp, #128]
	bl	std_alloc.vec.lodged.Vec.T.Lodged.insert_reserved.23.unix_path.buf.PathBuf.
	ldp	x21, x8, [sp, #208]
	add	x9, x20, #1
	lsl	x24, x9, #3
	subs	x8, x8, x9
	b.eq	.Lunix_path_BB59_74
	lsl	x2, x8, #3
	add	x8, x21, x24
	add	x1, x21, x24
	add	x0, x8, #8
	bl	memmove
.Lunix_path_BB59_74:
	ldrb	w8, [x23, #1]
	ldr	x9, [sp, #168]
	ldr	x19, [sp, #232]
	str	x27, [x21, x24]
	cmp	w8, #7
	strh	w9, [x19]
	str	x19, [x22]
	b.hi	.Lunix_path_BB59_52
	ldrb	w20, [x23]
	b	.Lunix_path_BB59_53
.Lunix_path_BB59_76:
	and	x11, x10, #0xfffffffffffffffc
	add	x12, x9, #80
	add	x13, x27, #384
	and	x14, x10, #0xfffffffffffffffc
.Lunix_path_BB59_77:
	ldp	q0, q1, [x12, #-16]
	subs	x14, x14, #4
	add	x12, x12, #32
	stp	q0, q1, [x13, #-16]
	add	x13, x13, #32
	b.ne	.Lunix_path_BB59_77
	cmp	x10, x11
	b.eq	.Lunix_path_BB59_72
	b	.Lunix_path_BB59_69
.Lunix_path_BB59_79:
	add	x8, x25, #16
	ldr	x23, [sp, #48]
	and	x12, x20, #0xff
	ldr	x11, [x8]
.Lunix_path_BB59_80:
	ldrh	w8, [x11]
	cbz	w8, .Lunix_path_BB59_454
	ldrb	w8, [x25, #8]
	cmp	w8, #1
	b.ne	.Lunix_path_BB59_464
	ldrb	w22, [sp, #127]
	lsl	x8, x12, #3
	ldr	x24, [sp, #40]
	ldr	x20, [sp, #96]
	ldr	x11, [sp, #64]
.Lunix_path_BB59_83:
	add	x8, x19, x8
	ldr	x14, [sp, #104]
	cmp	x11, #1
	add	x8, x8, #368
	add	x9, x25, #16
	sub	x0, x29, #112
	stp	x26, x14, [sp, #160]
	csel	x19, x9, x8, eq
	mov	w9, #15
	str	x14, [sp, #176]
	and	x1, x22, #0xf
	add	x2, sp, #160
	ldr	x8, [x19]
	mov	x22, x14
	ldrh	w10, [x8]
	ldrh	w11, [x8, #2]
	add	x12, x8, #368
	stp	x9, x12, [x29, #-96]
	add	x13, x8, #8
	stp	x10, x9, [x29, #-80]
	cmp	w11, #0
	mov	w9, #16
	stp	x13, x10, [x29, #-112]
	csinc	x10, xzr, x10, eq
	csel	x9, xzr, x9, eq
	stp	x12, x10, [x29, #-64]
	stp	x9, x8, [x29, #-48]
	bl	std_alloc.vec.lodged.Vec.T.Lodged.insert_reserved.23.unix_path.buf.PathBuf.
	ldur	x8, [x29, #-104]
	ldur	x9, [x29, #-40]
	strh	w8, [x9]
	str	x9, [x19]
	ldr	x8, [x25, #24]
	add	x8, x8, #1
	str	x8, [x25, #24]
.Lunix_path_BB59_84:
	ldrb	w8, [x24]
	mov	w9, #1
	mov	w10, #65399
	movk	w10, #15, lsl #16
	lsl	w9, w9, w8
	tst	w9, w10
	b.eq	.Lunix_path_BB59_109
	movi	v0.2d, #0000000000000000
	sub	x0, x29, #112
	mov	x1, x24
	mov	x2, x20
	mov	x3, x22
	stp	q0, q0, [x29, #-112]
	stur	q0, [x29, #-80]
	bl	upath_commands.task.answer_of
	ldurb	w8, [x29, #-112]
	cbnz	w8, .Lunix_path_BB59_460
	ldurb	w8, [x29, #-104]
	cmp	w8, #1
	b.ne	.Lunix_path_BB59_90
	ldur	x8, [x24, #1]
	ldp	x3, x19, [x29, #-80]
	ldur	x21, [x29, #-88]
	mov	x0, x20
	sub	x4, x29, #136
	ldur	x9, [x24, #6]
	ldurb	w20, [x29, #-96]
	add	x5, x23, #16
	stur	x8, [x29, #-136]
	sub	x8, x29, #136
	mov	x1, x22
	mov	x2, x21
	stur	x9, [x8, #5]
	bl	upath_commands.push.push_answer
	and	w8, w0, #0xff
	tbnz	w8, #0, .Lunix_path_BB59_450
	ldrb	w8, [x24]
	cmp	w8, #13
	b.ne	.Lunix_path_BB59_97
	ldrb	w22, [x24, #6]
	cmp	w20, #1
	b.eq	.Lunix_path_BB59_98
	b	.Lunix_path_BB59_100
.Lunix_path_BB59_90:
	ldrb	w8, [x24]
	mov	w9, #1
	mov	w10, #24575
	movk	w10, #13, lsl #16
	lsl	w9, w9, w8
	tst	w9, w10
	b.eq	.Lunix_path_BB59_94
	ldrb	w9, [x24, #16]
	cmp	w9, #1
	b.ne	.Lunix_path_BB59_94
	ldp	x2, x3, [x24, #24]
	add	x4, sp, #160
	ldur	x8, [x24, #1]
	ldur	x9, [x24, #6]
	add	x5, x23, #16
	mov	x0, x20
	mov	x1, x22
	str	x8, [sp, #160]
	stur	x9, [sp, #165]
	bl	upath_commands.push.push_answer
	and	w8, w0, #0xff
	tbnz	w8, #0, .Lunix_path_BB59_460
	ldrb	w8, [x24]
.Lunix_path_BB59_94:
	cmp	w8, #13
	b.ne	.Lunix_path_BB59_96
	ldrb	w8, [x24, #6]
	eor	w22, w8, #0x1
	b	.Lunix_path_BB59_100
.Lunix_path_BB59_96:
	mov	w22, wzr
	b	.Lunix_path_BB59_100
.Lunix_path_BB59_97:
	mov	w22, #1
	cmp	w20, #1
	b.ne	.Lunix_path_BB59_100
.Lunix_path_BB59_98:
	cbz	x19, .Lunix_path_BB59_100
	mov	x0, x21
	bl	rattle_dealloc
.Lunix_path_BB59_100:
	and	w19, w22, #0x1
.Lunix_path_BB59_101:
	ldr	x8, [x23, #24]
	cmp	x8, #16, lsl #12
	b.lo	.Lunix_path_BB59_103
	mov	x0, x23
	bl	upath_commands.output.Output.write_out.0c02296ad0e184a5.
	ands	w8, w0, #0xff
	csel	w19, w19, w1, eq
	cbnz	w8, .Lunix_path_BB59_449
.Lunix_path_BB59_103:
	ldrb	w9, [x23, #73]
	ldrb	w8, [x23, #72]
	orr	w9, w19, w9
	and	w8, w19, w8
	and	w9, w9, #0x1
	strb	w8, [x23, #72]
	strb	w9, [x23, #73]
	tbnz	w19, #0, .Lunix_path_BB59_4
	ldur	x8, [x23, #56]
	cbz	x8, .Lunix_path_BB59_106
	stur	xzr, [x23, #56]
.Lunix_path_BB59_106:
	ldrb	w8, [x24, #3]
	tbnz	w8, #0, .Lunix_path_BB59_2
	ldrb	w8, [x24]
	adrp	x9, .Lunix_path_JTI59_0
	add	x9, x9, :lo12:.Lunix_path_JTI59_0
	adrp	x26, .Lunix_path_static.90
	add	x26, x26, :lo12:.Lunix_path_static.90
	mov	w22, #1
	adr	x10, .Lunix_path_BB59_3
	ldrh	w11, [x9, x8, lsl #1]
	add	x10, x10, x11, lsl #2
	mov	w21, #9
	mov	x20, x27
	mov	x2, xzr
	mov	x27, xzr
	mov	x28, xzr
	br	x10
.Lunix_path_BB59_108:
	mov	x2, xzr
	mov	x27, xzr
	mov	x28, xzr
	adrp	x26, .Lunix_path_static.91
	add	x26, x26, :lo12:.Lunix_path_static.91
	mov	w21, #12
	ldr	x8, [x23, #64]
	sub	x9, x8, xzr
	cmp	x9, #6
	b.hi	.Lunix_path_BB59_325
	b	.Lunix_path_BB59_446
.Lunix_path_BB59_109:
	cmp	w8, #3
	adrp	x25, .Lunix_path_static.53
	add	x25, x25, :lo12:.Lunix_path_static.53
	b.ne	.Lunix_path_BB59_114
	ldur	x8, [x24, #1]
	mov	x1, x22
	ldur	x9, [x24, #6]
	sub	x4, x29, #112
	add	x5, x23, #16
	mov	x0, x20
	stur	x8, [x29, #-112]
	sub	x8, x29, #136
	mov	x2, x20
	mov	x3, x1
	mov	x22, x27
	stur	x9, [x8, #29]
	bl	upath_commands.push.push_answer
	and	w8, w0, #0xff
	tbnz	w8, #0, .Lunix_path_BB59_460
	ldr	x8, [sp, #104]
	cmp	x8, #1
	b.ne	.Lunix_path_BB59_129
	ldr	x8, [sp, #96]
	ldrb	w9, [x8]
	cmp	w9, #46
	b.eq	.Lunix_path_BB59_137
	cmp	w9, #47
	b.ne	.Lunix_path_BB59_131
	b	.Lunix_path_BB59_137
.Lunix_path_BB59_114:
	ldrb	w8, [x24, #4]
	str	x27, [sp, #88]
	adrp	x27, .Lunix_path_static.82
	add	x27, x27, :lo12:.Lunix_path_static.82
	adrp	x28, .Lunix_path_CPI59_0
	tbz	w8, #0, .Lunix_path_BB59_124
	cbz	x22, .Lunix_path_BB59_172
	mov	x19, x22
	b	.Lunix_path_BB59_118
.Lunix_path_BB59_117:
	mov	x19, x1
	cbz	x1, .Lunix_path_BB59_173
.Lunix_path_BB59_118:
	subs	x1, x19, #1
	b.eq	.Lunix_path_BB59_173
	add	x8, x20, x1
	ldrb	w9, [x8]
	cmp	w9, #47
	b.eq	.Lunix_path_BB59_122
	cmp	w9, #46
	b.ne	.Lunix_path_BB59_173
	ldurb	w8, [x8, #-1]
	cmp	w8, #47
	b.ne	.Lunix_path_BB59_173
.Lunix_path_BB59_122:
	sub	x8, x22, x1
	cmp	x8, #8
	b.ne	.Lunix_path_BB59_117
	mov	x0, x20
	bl	unix_path.filler.trimmed_blocks_len
	mov	x1, x0
	b	.Lunix_path_BB59_117
.Lunix_path_BB59_124:
	cbz	x22, .Lunix_path_BB59_295
	ldrb	w8, [x20]
	cmp	w8, #47
	b.eq	.Lunix_path_BB59_128
	cmp	w8, #46
	b.ne	.Lunix_path_BB59_226
	cmp	x22, #1
	b.ne	.Lunix_path_BB59_235
.Lunix_path_BB59_128:
	mov	w19, #1
	b	.Lunix_path_BB59_236
.Lunix_path_BB59_129:
	cbz	x8, .Lunix_path_BB59_137
	ldp	x9, x8, [sp, #96]
	add	x8, x9, x8
	ldurb	w9, [x8, #-1]
	cmp	w9, #47
	b.eq	.Lunix_path_BB59_137
.Lunix_path_BB59_131:
	ldp	x10, x8, [sp, #96]
	cmp	x8, #1
	add	x8, x10, x8
	b.eq	.Lunix_path_BB59_134
	cmp	w9, #46
	b.ne	.Lunix_path_BB59_134
	ldurb	w9, [x8, #-2]
	cmp	w9, #47
	b.eq	.Lunix_path_BB59_137
.Lunix_path_BB59_134:
	ldurb	w9, [x8, #-1]
	cmp	w9, #46
	b.ne	.Lunix_path_BB59_138
	ldr	x9, [sp, #104]
	cmp	x9, #1
	b.eq	.Lunix_path_BB59_137
	ldurb	w8, [x8, #-2]
	cmp	w8, #47
	b.ne	.Lunix_path_BB59_138
.Lunix_path_BB59_137:
	ldp	x0, x1, [sp, #96]
	adrp	x2, .Lunix_path_static.53
	add	x2, x2, :lo12:.Lunix_path_static.53
	mov	w3, #1
	bl	unix_path.compare.compare
	and	w8, w0, #0xff
	cmp	w8, #1
	b.eq	.Lunix_path_BB59_154
.Lunix_path_BB59_138:
	ldp	x0, x1, [sp, #96]
	bl	unix_path.path.Path.parent_len
	and	w8, w0, #0xff
	cmp	w8, #1
	b.ne	.Lunix_path_BB59_154
	ldr	x26, [sp, #96]
	mov	x21, x1
.Lunix_path_BB59_140:
	mov	x0, x26
	mov	x1, x21
	bl	unix_path.path.Path.parent_len
	and	w8, w0, #0xff
	mov	w27, w0
	sub	x4, x29, #112
	cmp	w8, #1
	add	x5, x23, #16
	csel	x19, x26, xzr, eq
	csel	x20, x1, xzr, eq
	cmp	x21, #0
	ldp	x0, x1, [sp, #96]
	csel	x2, x25, x26, eq
	cmp	x21, #1
	csinc	x3, x21, xzr, hi
	bl	upath_commands.push.push_answer
	and	w8, w0, #0xff
	tbnz	w8, #0, .Lunix_path_BB59_460
	cmp	x21, #1
	b.ne	.Lunix_path_BB59_144
	ldrb	w8, [x26]
	cmp	w8, #46
	b.eq	.Lunix_path_BB59_152
	cmp	w8, #47
	b.ne	.Lunix_path_BB59_146
	b	.Lunix_path_BB59_152
.Lunix_path_BB59_144:
	cbz	x21, .Lunix_path_BB59_152
	add	x8, x26, x21
	ldurb	w8, [x8, #-1]
	cmp	w8, #47
	b.eq	.Lunix_path_BB59_152
.Lunix_path_BB59_146:
	cmp	x21, #1
	add	x9, x26, x21
	b.eq	.Lunix_path_BB59_149
	cmp	w8, #46
	b.ne	.Lunix_path_BB59_149
	ldurb	w8, [x9, #-2]
	cmp	w8, #47
	b.eq	.Lunix_path_BB59_152
.Lunix_path_BB59_149:
	ldurb	w8, [x9, #-1]
	cmp	w8, #46
	cset	w9, eq
	subs	x9, x21, x9
	b.eq	.Lunix_path_BB59_152
	cmp	w8, #46
	b.ne	.Lunix_path_BB59_153
	add	x8, x26, x9
	ldurb	w8, [x8, #-1]
	cmp	w8, #47
	b.ne	.Lunix_path_BB59_153
.Lunix_path_BB59_152:
	adrp	x2, .Lunix_path_static.53
	add	x2, x2, :lo12:.Lunix_path_static.53
	mov	x0, x26
	mov	x1, x21
	mov	w3, #1
	bl	unix_path.compare.compare
	and	w8, w0, #0xff
	cmp	w8, #1
	b.eq	.Lunix_path_BB59_154
.Lunix_path_BB59_153:
	and	w8, w27, #0xff
	mov	x21, x20
	mov	x26, x19
	cmp	w8, #1
	b.eq	.Lunix_path_BB59_140
.Lunix_path_BB59_154:
	ldr	x25, [sp, #72]
	mov	w19, #1
	mov	x27, x22
	b	.Lunix_path_BB59_101
.Lunix_path_BB59_155:
	ldurb	w8, [x24, #5]
	cmp	w8, #1
	b.gt	.Lunix_path_BB59_212
	ldr	x1, [sp, #104]
	cbz	w8, .Lunix_path_BB59_323
	cbz	x1, .Lunix_path_BB59_159
	ldr	x8, [sp, #96]
	ldrb	w8, [x8]
	cmp	w8, #47
	b.eq	.Lunix_path_BB59_296
.Lunix_path_BB59_159:
	ldr	x0, [sp, #96]
	bl	path_within.check.check_escape
	tst	w0, #0xff
	b.ne	.Lunix_path_BB59_323
	mov	x2, xzr
	mov	x27, xzr
	mov	x28, xzr
	adrp	x26, .Lunix_path_static.96
	add	x26, x26, :lo12:.Lunix_path_static.96
	mov	w21, #15
	ldr	x8, [x23, #64]
	sub	x9, x8, xzr
	cmp	x9, #6
	b.hi	.Lunix_path_BB59_325
	b	.Lunix_path_BB59_446
.Lunix_path_BB59_161:
	ldp	x26, x21, [x24, #40]
	cbz	x21, .Lunix_path_BB59_227
	ldrb	w8, [x26]
	cmp	w8, #47
	cset	w8, eq
	b	.Lunix_path_BB59_228
.Lunix_path_BB59_163:
	movi	v0.2d, #0000000000000000
	ldp	x1, x2, [sp, #96]
	ldurb	w19, [x24, #1]
	sub	x0, x29, #112
	stur	xzr, [x29, #-80]
	stp	q0, q0, [x29, #-112]
	bl	upath_commands.keys.unkeyed_path
	ldurb	w8, [x29, #-112]
	cbnz	w8, .Lunix_path_BB59_460
	ldurb	w8, [x29, #-104]
	cmp	w8, #1
	b.ne	.Lunix_path_BB59_225
	ldur	x0, [x29, #-96]
	ldur	x8, [x29, #-80]
	cbz	w19, .Lunix_path_BB59_231
	cbz	x8, .Lunix_path_BB59_168
	bl	rattle_dealloc
.Lunix_path_BB59_168:
	adrp	x26, .Lunix_path_static.98
	add	x26, x26, :lo12:.Lunix_path_static.98
	mov	w21, #14
	b	.Lunix_path_BB59_234
.Lunix_path_BB59_169:
	mov	x2, xzr
	mov	x27, xzr
	mov	x28, xzr
	adrp	x26, .Lunix_path_static.92
	add	x26, x26, :lo12:.Lunix_path_static.92
	mov	w21, #12
	ldr	x8, [x23, #64]
	sub	x9, x8, xzr
	cmp	x9, #6
	b.hi	.Lunix_path_BB59_325
	b	.Lunix_path_BB59_446
.Lunix_path_BB59_170:
	mov	x2, xzr
	mov	x27, xzr
	mov	x28, xzr
	adrp	x26, .Lunix_path_static.94
	add	x26, x26, :lo12:.Lunix_path_static.94
	mov	w21, #15
	ldr	x8, [x23, #64]
	sub	x9, x8, xzr
	cmp	x9, #6
	b.hi	.Lunix_path_BB59_325
	b	.Lunix_path_BB59_446
.Lunix_path_BB59_171:
	mov	x2, xzr
	mov	x27, xzr
	mov	x28, xzr
	adrp	x26, .Lunix_path_static.93
	add	x26, x26, :lo12:.Lunix_path_static.93
	mov	w21, #27
	ldr	x8, [x23, #64]
	sub	x9, x8, xzr
	cmp	x9, #6
	b.hi	.Lunix_path_BB59_325
	b	.Lunix_path_BB59_446
.Lunix_path_BB59_172:
	mov	x19, xzr
.Lunix_path_BB59_173:
	ldurh	w8, [x24, #1]
	mov	w9, #1
	ldurb	w10, [x24, #3]
	sturb	w9, [x29, #-109]
	ldur	x9, [x24, #5]
	sturh	w8, [x29, #-112]
	ldurb	w8, [x24, #13]
	sturb	w10, [x29, #-110]
	sub	x10, x29, #112
	stur	x9, [x10, #4]
	sturb	w8, [x10, #12]
	b	.Lunix_path_BB59_177
.Lunix_path_BB59_174:
	mov	x19, xzr
	adrp	x21, .Lunix_path_static.53
	add	x21, x21, :lo12:.Lunix_path_static.53
.Lunix_path_BB59_175:
	mov	w26, #1
.Lunix_path_BB59_176:
	ldr	x20, [sp, #96]
	sub	x4, x29, #112
	add	x5, x23, #16
	mov	x1, x22
	mov	x2, x21
	mov	x3, x26
	mov	x0, x20
	bl	upath_commands.push.push_answer
	tst	w0, #0xff
	b.ne	.Lunix_path_BB59_460
.Lunix_path_BB59_177:
	subs	x8, x19, #1
	b.eq	.Lunix_path_BB59_183
	cbz	x19, .Lunix_path_BB59_295
	add	x9, x20, x19
	ldurb	w10, [x9, #-1]
	cmp	w10, #46
	b.ne	.Lunix_path_BB59_184
	ldurb	w10, [x9, #-2]
	cmp	w10, #46
	b.ne	.Lunix_path_BB59_184
	subs	x20, x19, #2
	b.ne	.Lunix_path_BB59_201
	mov	x19, xzr
	adrp	x21, .Lunix_path_static.83
	add	x21, x21, :lo12:.Lunix_path_static.83
	mov	w26, #2
	b	.Lunix_path_BB59_176
.Lunix_path_BB59_183:
	ldrb	w9, [x20]
	cmp	w9, #46
	b.eq	.Lunix_path_BB59_174
.Lunix_path_BB59_184:
	ldr	x12, [sp, #96]
	mov	x9, x19
.Lunix_path_BB59_185:
	cmp	x9, #15
	b.ls	.Lunix_path_BB59_189
	movi	v0.16b, #47
	add	x10, x12, x9
	sub	x8, x8, #16
	ldur	q1, [x10, #-16]
	sub	x10, x9, #16
	mov	x9, x10
	cmeq	v0.16b, v1.16b, v0.16b
	ldr	q1, [x28, :lo12:.Lunix_path_CPI59_0]
	and	v0.16b, v0.16b, v1.16b
	addp	v0.16b, v0.16b, v0.16b
	addp	v0.16b, v0.16b, v0.16b
	addp	v0.16b, v0.16b, v0.16b
	umov	w11, v0.h[0]
	cbz	w11, .Lunix_path_BB59_185
	umov	w8, v0.h[0]
	and	x8, x8, #0xffff
	clz	x8, x8
	sub	x8, x10, x8
	add	x20, x8, #64
	subs	x26, x19, x20
	b.ne	.Lunix_path_BB59_192
.Lunix_path_BB59_188:
	mov	x19, xzr
	adrp	x21, .Lunix_path_static.82
	add	x21, x21, :lo12:.Lunix_path_static.82
	b	.Lunix_path_BB59_175
.Lunix_path_BB59_189:
	cmn	x8, #1
	b.eq	.Lunix_path_BB59_200
	ldrb	w9, [x12, x8]
	sub	x8, x8, #1
	cmp	w9, #47
	b.ne	.Lunix_path_BB59_189
	add	x20, x8, #2
	subs	x26, x19, x20
	b.eq	.Lunix_path_BB59_188
.Lunix_path_BB59_192:
	ldr	x8, [sp, #96]
	mov	x19, x20
	add	x21, x8, x20
	b	.Lunix_path_BB59_194
.Lunix_path_BB59_193:
	mov	x19, x1
	cbz	x1, .Lunix_path_BB59_176
.Lunix_path_BB59_194:
	subs	x1, x19, #1
	b.eq	.Lunix_path_BB59_176
	ldr	x8, [sp, #96]
	add	x8, x8, x1
	ldrb	w9, [x8]
	cmp	w9, #47
	b.eq	.Lunix_path_BB59_198
	cmp	w9, #46
	b.ne	.Lunix_path_BB59_176
	ldurb	w8, [x8, #-1]
	cmp	w8, #47
	b.ne	.Lunix_path_BB59_176
.Lunix_path_BB59_198:
	sub	x8, x20, x1
	cmp	x8, #8
	b.ne	.Lunix_path_BB59_193
	ldr	x0, [sp, #96]
	bl	unix_path.filler.trimmed_blocks_len
	mov	x1, x0
	b	.Lunix_path_BB59_193
.Lunix_path_BB59_200:
	cmp	x19, #0
	csel	x21, x27, x12, eq
	cmp	x19, #1
	csinc	x26, x19, xzr, hi
	mov	x19, xzr
	b	.Lunix_path_BB59_176
.Lunix_path_BB59_201:
	ldurb	w9, [x9, #-3]
	cmp	w9, #47
	b.ne	.Lunix_path_BB59_184
	mov	x8, x20
	b	.Lunix_path_BB59_204
.Lunix_path_BB59_203:
	mov	x19, xzr
	adrp	x21, .Lunix_path_static.83
	add	x21, x21, :lo12:.Lunix_path_static.83
	mov	w26, #2
	mov	x8, x1
	cbz	x1, .Lunix_path_BB59_176
.Lunix_path_BB59_204:
	subs	x1, x8, #1
	b.eq	.Lunix_path_BB59_210
	ldr	x9, [sp, #96]
	add	x9, x9, x1
	ldrb	w10, [x9]
	cmp	w10, #47
	b.eq	.Lunix_path_BB59_208
	cmp	w10, #46
	b.ne	.Lunix_path_BB59_211
	ldurb	w9, [x9, #-1]
	cmp	w9, #47
	b.ne	.Lunix_path_BB59_211
.Lunix_path_BB59_208:
	sub	x8, x20, x1
	cmp	x8, #8
	b.ne	.Lunix_path_BB59_203
	ldr	x0, [sp, #96]
	bl	unix_path.filler.trimmed_blocks_len
	mov	x1, x0
	b	.Lunix_path_BB59_203
.Lunix_path_BB59_210:
	adrp	x21, .Lunix_path_static.83
	add	x21, x21, :lo12:.Lunix_path_static.83
	mov	w26, #2
	mov	w19, #1
	b	.Lunix_path_BB59_176
.Lunix_path_BB59_211:
	adrp	x21, .Lunix_path_static.83
	add	x21, x21, :lo12:.Lunix_path_static.83
	mov	w26, #2
	mov	x19, x8
	b	.Lunix_path_BB59_176
.Lunix_path_BB59_212:
	ldr	x21, [sp, #104]
	cmp	w8, #2
	b.eq	.Lunix_path_BB59_323
	cbz	x21, .Lunix_path_BB59_323
	ldr	x8, [sp, #96]
	ldrb	w8, [x8]
	cmp	w8, #47
	b.eq	.Lunix_path_BB59_296
	cmp	w8, #46
	b.ne	.Lunix_path_BB59_221
	cmp	x21, #1
	b.eq	.Lunix_path_BB59_395
	ldr	x9, [sp, #96]
	ldrb	w9, [x9, #1]
	cmp	w9, #47
	b.eq	.Lunix_path_BB59_395
	cmp	w9, #46
	b.ne	.Lunix_path_BB59_221
	cmp	x21, #2
	b.eq	.Lunix_path_BB59_396
	ldr	x9, [sp, #96]
	ldrb	w9, [x9, #2]
	cmp	w9, #47
	b.eq	.Lunix_path_BB59_396
.Lunix_path_BB59_221:
	ldr	x9, [sp, #96]
	add	x11, x9, x21
	ldurb	w9, [x11, #-1]
	and	w9, w9, #0xfe
	cmp	w9, #46
	b.eq	.Lunix_path_BB59_392
	subs	x9, x21, #17
	b.hs	.Lunix_path_BB59_297
.Lunix_path_BB59_223:
	cmp	x21, #9
	b.hs	.Lunix_path_BB59_305
	mov	x9, xzr
	b	.Lunix_path_BB59_321
.Lunix_path_BB59_225:
	adrp	x26, .Lunix_path_static.102
	add	x26, x26, :lo12:.Lunix_path_static.102
	mov	w21, #9
	b	.Lunix_path_BB59_234
.Lunix_path_BB59_226:
	mov	w19, wzr
	b	.Lunix_path_BB59_236
.Lunix_path_BB59_227:
	mov	w8, wzr
.Lunix_path_BB59_228:
	ldr	x9, [sp, #104]
	cbz	x9, .Lunix_path_BB59_230
	ldr	x9, [sp, #96]
	ldrb	w9, [x9]
	cmp	w9, #47
	cset	w9, eq
.Lunix_path_BB59_230:
	eor	w8, w8, w9
	adrp	x9, .Lunix_path_static.100
	add	x9, x9, :lo12:.Lunix_path_static.100
	adrp	x10, .Lunix_path_static.99
	add	x10, x10, :lo12:.Lunix_path_static.99
	cmp	w8, #0
	mov	w8, #36
	mov	w11, #41
	mov	x2, xzr
	mov	w22, wzr
	csel	x27, x10, x9, ne
	csel	x28, x11, x8, ne
	ldr	x8, [x23, #64]
	sub	x9, x8, xzr
	cmp	x9, #6
	b.hi	.Lunix_path_BB59_325
	b	.Lunix_path_BB59_446
.Lunix_path_BB59_231:
	cbz	x8, .Lunix_path_BB59_233
	bl	rattle_dealloc
.Lunix_path_BB59_233:
	adrp	x26, .Lunix_path_static.101
	add	x26, x26, :lo12:.Lunix_path_static.101
	mov	w21, #29
.Lunix_path_BB59_234:
	ldp	x2, x8, [x23, #56]
	mov	x27, xzr
	mov	x28, xzr
	sub	x9, x8, x2
	cmp	x9, #6
	b.hi	.Lunix_path_BB59_325
	b	.Lunix_path_BB59_446
.Lunix_path_BB59_235:
	ldrb	w8, [x20, #1]
	cmp	w8, #47
	cset	w19, eq
.Lunix_path_BB59_236:
	mov	x21, x22
	b	.Lunix_path_BB59_238
.Lunix_path_BB59_237:
	mov	x21, x1
	cbz	x1, .Lunix_path_BB59_295
.Lunix_path_BB59_238:
	subs	x1, x21, #1
	b.eq	.Lunix_path_BB59_244
	add	x8, x20, x1
	ldrb	w9, [x8]
	cmp	w9, #47
	b.eq	.Lunix_path_BB59_242
	cmp	w9, #46
	b.ne	.Lunix_path_BB59_244
	ldurb	w8, [x8, #-1]
	cmp	w8, #47
	b.ne	.Lunix_path_BB59_244
.Lunix_path_BB59_242:
	sub	x8, x22, x1
	cmp	x8, #8
	b.ne	.Lunix_path_BB59_237
	mov	x0, x20
	bl	unix_path.filler.trimmed_blocks_len
	mov	x1, x0
	b	.Lunix_path_BB59_237
.Lunix_path_BB59_244:
	ldurb	w9, [x24, #3]
	ldurh	w8, [x24, #1]
	mov	x22, xzr
	ldur	x10, [x24, #5]
	sub	x11, x29, #112
	mov	x2, x20
	sturb	w9, [x29, #-110]
	ldurb	w9, [x24, #13]
	sturh	w8, [x29, #-112]
	mov	x8, x21
	sturb	wzr, [x29, #-109]
	stur	x10, [x11, #4]
	sturb	w9, [x11, #12]
.Lunix_path_BB59_245:
	tbz	w19, #0, .Lunix_path_BB59_253
	subs	x10, x8, #1
	b.eq	.Lunix_path_BB59_259
	mov	x9, xzr
	sub	x8, x8, #2
	b	.Lunix_path_BB59_249
.Lunix_path_BB59_248:
	add	x9, x9, #1
	cmp	x10, x9
	b.eq	.Lunix_path_BB59_260
.Lunix_path_BB59_249:
	add	x11, x2, x9
	ldrb	w11, [x11, #1]
	cmp	w11, #47
	b.eq	.Lunix_path_BB59_248
	cmp	w11, #46
	b.ne	.Lunix_path_BB59_261
	cmp	x8, x9
	b.eq	.Lunix_path_BB59_260
	add	x11, x2, x9
	ldrb	w11, [x11, #2]
	cmp	w11, #47
	b.eq	.Lunix_path_BB59_248
	b	.Lunix_path_BB59_261
.Lunix_path_BB59_253:
	cmp	x8, #1
	b.eq	.Lunix_path_BB59_265
	ldrb	w9, [x2]
	cmp	w9, #46
	b.ne	.Lunix_path_BB59_265
	ldrb	w9, [x2, #1]
	cmp	w9, #46
	b.ne	.Lunix_path_BB59_265
	subs	x9, x8, #2
	b.ne	.Lunix_path_BB59_263
	ldr	x1, [sp, #104]
	adrp	x2, .Lunix_path_static.83
	add	x2, x2, :lo12:.Lunix_path_static.83
	sub	x4, x29, #112
	add	x5, x23, #16
	mov	x0, x20
	mov	w3, #2
	bl	upath_commands.push.push_answer
	tst	w0, #0xff
	b.ne	.Lunix_path_BB59_460
	add	x22, x22, #2
	mov	w19, wzr
	subs	x8, x21, x22
	add	x2, x20, x22
	b.ne	.Lunix_path_BB59_245
	b	.Lunix_path_BB59_295
.Lunix_path_BB59_259:
	mov	w19, #1
	b	.Lunix_path_BB59_262
.Lunix_path_BB59_260:
	mov	x9, x10
.Lunix_path_BB59_261:
	add	x19, x9, #1
.Lunix_path_BB59_262:
	ldrb	w8, [x2]
	mov	w3, #1
	cmp	w8, #47
	csel	x2, x27, x25, eq
	b	.Lunix_path_BB59_290
.Lunix_path_BB59_263:
	ldrb	w10, [x2, #2]
	cmp	w10, #47
	b.ne	.Lunix_path_BB59_265
	mov	x10, xzr
	sub	x8, x8, #3
	b	.Lunix_path_BB59_272
.Lunix_path_BB59_265:
	cmp	x8, #15
	b.hi	.Lunix_path_BB59_276
	mov	x3, xzr
.Lunix_path_BB59_267:
	ldrb	w9, [x2, x3]
	cmp	w9, #47
	b.eq	.Lunix_path_BB59_281
	add	x3, x3, #1
	cmp	x8, x3
	b.ne	.Lunix_path_BB59_267
	mov	x3, x8
	subs	x9, x8, x8
	b.ne	.Lunix_path_BB59_282
.Lunix_path_BB59_270:
	mov	x8, xzr
	b	.Lunix_path_BB59_289
.Lunix_path_BB59_271:
	add	x10, x10, #1
	cmp	x9, x10
	b.eq	.Lunix_path_BB59_293
.Lunix_path_BB59_272:
	add	x11, x2, x10
	ldrb	w11, [x11, #2]
	cmp	w11, #47
	b.eq	.Lunix_path_BB59_271
	cmp	w11, #46
	b.ne	.Lunix_path_BB59_294
	cmp	x8, x10
	b.eq	.Lunix_path_BB59_293
	add	x11, x2, x10
	ldrb	w11, [x11, #3]
	cmp	w11, #47
	b.eq	.Lunix_path_BB59_271
	b	.Lunix_path_BB59_294
.Lunix_path_BB59_276:
	subs	x9, x8, #16
	b.eq	.Lunix_path_BB59_280
	mov	x10, xzr
.Lunix_path_BB59_278:
	movi	v0.16b, #47
	ldr	q1, [x2, x10]
	cmeq	v0.16b, v1.16b, v0.16b
	ldr	q1, [x28, :lo12:.Lunix_path_CPI59_0]
	and	v0.16b, v0.16b, v1.16b
	addp	v0.16b, v0.16b, v0.16b
	addp	v0.16b, v0.16b, v0.16b
	addp	v0.16b, v0.16b, v0.16b
	umov	w11, v0.h[0]
	orr	w11, w11, #0x10000
	rbit	w11, w11
	clz	w11, w11
	cmp	w11, #15
	b.ls	.Lunix_path_BB59_292
	add	x10, x10, #16
	cmp	x10, x9
	b.lo	.Lunix_path_BB59_278
.Lunix_path_BB59_280:
	movi	v0.16b, #47
	ldr	q1, [x2, x9]
	cmeq	v0.16b, v1.16b, v0.16b
	ldr	q1, [x28, :lo12:.Lunix_path_CPI59_0]
	and	v0.16b, v0.16b, v1.16b
	addp	v0.16b, v0.16b, v0.16b
	addp	v0.16b, v0.16b, v0.16b
	addp	v0.16b, v0.16b, v0.16b
	umov	w10, v0.h[0]
	orr	w10, w10, #0x10000
	rbit	w10, w10
	clz	w10, w10
	add	x3, x9, x10
.Lunix_path_BB59_281:
	subs	x9, x8, x3
	b.eq	.Lunix_path_BB59_270
.Lunix_path_BB59_282:
	mov	x8, xzr
	add	x10, x2, x3
	sub	x11, x9, #1
	b	.Lunix_path_BB59_284
.Lunix_path_BB59_283:
	add	x8, x8, #1
	cmp	x9, x8
	b.eq	.Lunix_path_BB59_288
.Lunix_path_BB59_284:
	ldrb	w12, [x10, x8]
	cmp	w12, #47
	b.eq	.Lunix_path_BB59_283
	cmp	w12, #46
	b.ne	.Lunix_path_BB59_289
	cmp	x11, x8
	b.eq	.Lunix_path_BB59_288
	add	x12, x10, x8
	ldrb	w12, [x12, #1]
	cmp	w12, #47
	b.eq	.Lunix_path_BB59_283
	b	.Lunix_path_BB59_289
.Lunix_path_BB59_288:
	mov	x8, x9
.Lunix_path_BB59_289:
	add	x19, x8, x3
.Lunix_path_BB59_290:
	ldr	x1, [sp, #104]
	sub	x4, x29, #112
	add	x5, x23, #16
	mov	x0, x20
	bl	upath_commands.push.push_answer
	and	w8, w0, #0xff
	tbnz	w8, #0, .Lunix_path_BB59_460
	add	x22, x19, x22
	mov	w19, wzr
	subs	x8, x21, x22
	add	x2, x20, x22
	b.ne	.Lunix_path_BB59_245
	b	.Lunix_path_BB59_295
.Lunix_path_BB59_292:
	add	x3, x10, w11, uxtw
	subs	x9, x8, x3
	b.ne	.Lunix_path_BB59_282
	b	.Lunix_path_BB59_270
.Lunix_path_BB59_293:
	mov	x10, x9
.Lunix_path_BB59_294:
	add	x19, x10, #2
	adrp	x2, .Lunix_path_static.83
	add	x2, x2, :lo12:.Lunix_path_static.83
	mov	w3, #2
	b	.Lunix_path_BB59_290
.Lunix_path_BB59_295:
	ldr	x25, [sp, #72]
	ldr	x27, [sp, #88]
	mov	w19, #1
	b	.Lunix_path_BB59_101
.Lunix_path_BB59_296:
	mov	x2, xzr
	mov	x27, xzr
	mov	x28, xzr
	adrp	x26, .Lunix_path_static.95
	add	x26, x26, :lo12:.Lunix_path_static.95
	mov	w21, #10
	ldr	x8, [x23, #64]
	sub	x9, x8, xzr
	cmp	x9, #6
	b.hi	.Lunix_path_BB59_325
	b	.Lunix_path_BB59_446
.Lunix_path_BB59_297:
	cmp	x21, #32
	b.hi	.Lunix_path_BB59_307
	movi	v0.16b, #208
	ldr	x10, [sp, #96]
	ldur	q1, [x10, #1]
	ldr	q3, [x10]
	adrp	x10, .Lunix_path_CPI59_0
	and	v2.16b, v1.16b, v0.16b
	movi	v1.16b, #47
	orr	v2.16b, v2.16b, v3.16b
	cmeq	v3.16b, v2.16b, v1.16b
	ldr	q2, [x10, :lo12:.Lunix_path_CPI59_0]
	and	v3.16b, v3.16b, v2.16b
	addp	v3.16b, v3.16b, v3.16b
	addp	v3.16b, v3.16b, v3.16b
	addp	v3.16b, v3.16b, v3.16b
	umov	w10, v3.h[0]
	cbnz	w10, .Lunix_path_BB59_300
	ldur	q3, [x11, #-16]
	and	v0.16b, v3.16b, v0.16b
	ldur	q3, [x11, #-17]
	orr	v0.16b, v0.16b, v3.16b
	cmeq	v0.16b, v0.16b, v1.16b
	and	v0.16b, v0.16b, v2.16b
	addp	v0.16b, v0.16b, v0.16b
	addp	v0.16b, v0.16b, v0.16b
	addp	v0.16b, v0.16b, v0.16b
	umov	w10, v0.h[0]
	cbz	w10, .Lunix_path_BB59_323
.Lunix_path_BB59_300:
	cmp	x21, #18
	b.ls	.Lunix_path_BB59_223
	subs	x10, x21, #19
	b.ne	.Lunix_path_BB59_309
	mov	x11, xzr
.Lunix_path_BB59_303:
	cmp	x9, x11
	ldr	x12, [sp, #96]
	movi	v0.16b, #208
	csel	x9, x9, x11, lo
	add	x11, x12, x9
	ldur	q1, [x11, #1]
	ldr	q2, [x11]
	adrp	x11, .Lunix_path_CPI59_0
	and	v1.16b, v1.16b, v0.16b
	movi	v0.16b, #47
	orr	v1.16b, v1.16b, v2.16b
	cmeq	v2.16b, v1.16b, v0.16b
	ldr	q1, [x11, :lo12:.Lunix_path_CPI59_0]
	and	v2.16b, v2.16b, v1.16b
	addp	v2.16b, v2.16b, v2.16b
	addp	v2.16b, v2.16b, v2.16b
	addp	v2.16b, v2.16b, v2.16b
	umov	w11, v2.h[0]
	cbz	w11, .Lunix_path_BB59_320
	movi	v2.16b, #46
	add	x9, x12, x10
	ldur	q3, [x9, #2]
	ldur	q4, [x9, #3]
	cmeq	v4.16b, v4.16b, v0.16b
	cmeq	v5.16b, v3.16b, v2.16b
	cmeq	v3.16b, v3.16b, v0.16b
	and	v4.16b, v5.16b, v4.16b
	ldur	q5, [x9, #1]
	cmeq	v2.16b, v5.16b, v2.16b
	orr	v3.16b, v3.16b, v4.16b
	ldr	q4, [x9]
	and	v2.16b, v2.16b, v3.16b
	cmeq	v3.16b, v4.16b, v0.16b
	cmeq	v0.16b, v5.16b, v0.16b
	orr	v0.16b, v0.16b, v2.16b
	and	v1.16b, v3.16b, v1.16b
	and	v0.16b, v1.16b, v0.16b
	addp	v0.16b, v0.16b, v0.16b
	addp	v0.16b, v0.16b, v0.16b
	addp	v0.16b, v0.16b, v0.16b
	umov	w9, v0.h[0]
	orr	w9, w9, #0x10000
	rbit	w9, w9
	clz	w9, w9
	add	x9, x10, x9
	b	.Lunix_path_BB59_321
.Lunix_path_BB59_305:
	movi	v0.8b, #254
	movi	v1.8b, #47
	ldr	x10, [sp, #96]
	movi	v2.8b, #46
	adrp	x9, .Lunix_path_CPI59_1
	ldr	d3, [x10]
	ldur	d4, [x10, #1]
	and	v4.8b, v4.8b, v0.8b
	cmeq	v5.8b, v3.8b, v1.8b
	ldr	d3, [x9, :lo12:.Lunix_path_CPI59_1]
	cmeq	v4.8b, v4.8b, v2.8b
	and	v5.8b, v5.8b, v3.8b
	and	v4.8b, v5.8b, v4.8b
	addv	b4, v4.8b
	fmov	w9, s4
	orr	w9, w9, #0x100
	rbit	w9, w9
	clz	w9, w9
	cmp	w9, #8
	b.lo	.Lunix_path_BB59_321
	cmp	x21, #17
	mov	w9, #17
	csel	x9, x21, x9, lo
	sub	x9, x9, #9
	add	x10, x10, x9
	ldr	d4, [x10]
	ldur	d5, [x10, #1]
	and	v0.8b, v5.8b, v0.8b
	cmeq	v1.8b, v4.8b, v1.8b
	cmeq	v0.8b, v0.8b, v2.8b
	and	v1.8b, v1.8b, v3.8b
	and	v0.8b, v1.8b, v0.8b
	addv	b0, v0.8b
	fmov	w10, s0
	orr	w10, w10, #0x100
	rbit	w10, w10
	clz	w10, w10
	add	x9, x9, x10
	b	.Lunix_path_BB59_321
.Lunix_path_BB59_307:
	ldr	x12, [sp, #96]
	sub	x10, x21, #33
	movi	v0.16b, #208
	ldur	q2, [x11, #-16]
	ldur	q3, [x11, #-17]
	movi	v4.16b, #47
	add	x12, x12, x10
	adrp	x11, .Lunix_path_CPI59_0
	ldur	q1, [x12, #1]
	and	v1.16b, v1.16b, v0.16b
	and	v0.16b, v2.16b, v0.16b
	ldr	q2, [x12]
	orr	v1.16b, v1.16b, v2.16b
	orr	v0.16b, v0.16b, v3.16b
	cmeq	v1.16b, v1.16b, v4.16b
	cmeq	v2.16b, v0.16b, v4.16b
	ldr	q0, [x11, :lo12:.Lunix_path_CPI59_0]
	and	v1.16b, v1.16b, v0.16b
	and	v2.16b, v2.16b, v0.16b
	addp	v1.16b, v1.16b, v1.16b
	addp	v2.16b, v2.16b, v2.16b
	addp	v1.16b, v1.16b, v1.16b
	addp	v2.16b, v2.16b, v2.16b
	addp	v1.16b, v1.16b, v1.16b
	addp	v2.16b, v2.16b, v2.16b
	orr	v1.16b, v2.16b, v1.16b
	umov	w11, v1.h[0]
	cbz	w11, .Lunix_path_BB59_316
	sub	x10, x21, #19
.Lunix_path_BB59_309:
	mov	x11, xzr
	b	.Lunix_path_BB59_313
.Lunix_path_BB59_310:
	movi	v4.16b, #46
	ldur	q5, [x12, #2]
	ldur	q6, [x12, #3]
	cmeq	v1.16b, v1.16b, v2.16b
	cmeq	v6.16b, v6.16b, v2.16b
	cmeq	v7.16b, v5.16b, v4.16b
	cmeq	v5.16b, v5.16b, v2.16b
	cmeq	v4.16b, v0.16b, v4.16b
	cmeq	v0.16b, v0.16b, v2.16b
	and	v1.16b, v1.16b, v3.16b
	and	v6.16b, v7.16b, v6.16b
	orr	v5.16b, v5.16b, v6.16b
	and	v4.16b, v4.16b, v5.16b
	orr	v0.16b, v0.16b, v4.16b
	and	v0.16b, v1.16b, v0.16b
	addp	v0.16b, v0.16b, v0.16b
	addp	v0.16b, v0.16b, v0.16b
	addp	v0.16b, v0.16b, v0.16b
	umov	w12, v0.h[0]
	orr	w12, w12, #0x10000
	rbit	w12, w12
	clz	w12, w12
	cmp	w12, #15
	b.ls	.Lunix_path_BB59_315
	add	x11, x11, #16
.Lunix_path_BB59_312:
	cmp	x11, x10
	b.hs	.Lunix_path_BB59_303
.Lunix_path_BB59_313:
	ldr	x12, [sp, #96]
	movi	v1.16b, #208
	movi	v2.16b, #47
	adrp	x13, .Lunix_path_CPI59_0
	add	x12, x12, x11
	ldur	q0, [x12, #1]
	and	v3.16b, v0.16b, v1.16b
	ldr	q1, [x12]
	orr	v3.16b, v3.16b, v1.16b
	cmeq	v4.16b, v3.16b, v2.16b
	ldr	q3, [x13, :lo12:.Lunix_path_CPI59_0]
	and	v4.16b, v4.16b, v3.16b
	addp	v4.16b, v4.16b, v4.16b
	addp	v4.16b, v4.16b, v4.16b
	addp	v4.16b, v4.16b, v4.16b
	umov	w13, v4.h[0]
	cbnz	w13, .Lunix_path_BB59_310
	add	x11, x11, #16
	cmp	x11, x10
	b.lo	.Lunix_path_BB59_313
	b	.Lunix_path_BB59_312
.Lunix_path_BB59_315:
	add	x9, x11, w12, uxtw
	b	.Lunix_path_BB59_321
.Lunix_path_BB59_316:
	cbz	x10, .Lunix_path_BB59_323
	mov	x11, xzr
.Lunix_path_BB59_318:
	ldr	x12, [sp, #96]
	movi	v1.16b, #208
	movi	v5.16b, #47
	add	x12, x12, x11
	ldur	q2, [x12, #1]
	ldur	q3, [x12, #17]
	and	v2.16b, v2.16b, v1.16b
	and	v1.16b, v3.16b, v1.16b
	ldp	q3, q4, [x12]
	orr	v2.16b, v2.16b, v3.16b
	orr	v1.16b, v1.16b, v4.16b
	cmeq	v2.16b, v2.16b, v5.16b
	cmeq	v1.16b, v1.16b, v5.16b
	and	v2.16b, v2.16b, v0.16b
	and	v1.16b, v1.16b, v0.16b
	addp	v2.16b, v2.16b, v2.16b
	addp	v1.16b, v1.16b, v1.16b
	addp	v2.16b, v2.16b, v2.16b
	addp	v1.16b, v1.16b, v1.16b
	addp	v2.16b, v2.16b, v2.16b
	addp	v1.16b, v1.16b, v1.16b
	orr	v1.16b, v1.16b, v2.16b
	umov	w12, v1.h[0]
	cbnz	w12, .Lunix_path_BB59_300
	add	x11, x11, #32
	cmp	x11, x10
	b.lo	.Lunix_path_BB59_318
	b	.Lunix_path_BB59_323
.Lunix_path_BB59_320:
	add	x9, x9, #16
.Lunix_path_BB59_321:
	cmp	x9, x21
	b.lo	.Lunix_path_BB59_385
.Lunix_path_BB59_322:
	cmp	x9, x21
	b.ne	.Lunix_path_BB59_392
.Lunix_path_BB59_323:
	mov	x2, xzr
	mov	x27, xzr
	mov	x28, xzr
	adrp	x26, .Lunix_path_static.98
	add	x26, x26, :lo12:.Lunix_path_static.98
	mov	w22, #1
	mov	w21, #14
.Lunix_path_BB59_324:
	ldr	x8, [x23, #64]
	sub	x9, x8, x2
	cmp	x9, #6
	b.ls	.Lunix_path_BB59_446
.Lunix_path_BB59_325:
	ldur	x9, [x23, #48]
	adrp	x11, .Lunix_path_static.65
	add	x11, x11, :lo12:.Lunix_path_static.65
	add	x10, x9, x2
	sub	x11, x10, x11
	cmp	x11, #6
	b.hi	.Lunix_path_BB59_327
	adrp	x11, .Lunix_path_CPI59_2
	mov	w12, #14952
	ldr	d0, [x11, :lo12:.Lunix_path_CPI59_2]
	mov	w11, #32
	strh	w12, [x10, #4]
	strb	w11, [x10, #6]
	str	s0, [x10]
	b	.Lunix_path_BB59_328
.Lunix_path_BB59_327:
	mov	w11, #26740
	mov	w12, #28789
	movk	w11, #8250, lsl #16
	movk	w12, #29793, lsl #16
	stur	w11, [x10, #3]
	str	w12, [x10]
.Lunix_path_BB59_328:
	ldp	x0, x1, [sp, #96]
	add	x10, x2, #7
	add	x2, x23, #48
	stp	x9, x10, [x23, #48]
	str	x8, [x23, #64]
	bl	upath_commands.shown.push_shown
	and	w8, w0, #0xff
	tbnz	w8, #0, .Lunix_path_BB59_460
	mov	x19, x24
	ldp	x8, x24, [x23, #56]
	sub	x9, x24, x8
	cmp	x9, #1
	b.ls	.Lunix_path_BB59_355
.Lunix_path_BB59_330:
	ldur	x25, [x23, #48]
	adrp	x10, .Lunix_path_static.66
	add	x10, x10, :lo12:.Lunix_path_static.66
	add	x9, x25, x8
	add	x8, x8, #2
	sub	x10, x9, x10
	cmp	x10, #1
	mov	w10, #8250
	strh	w10, [x9]
	sub	x9, x24, x8
	stp	x25, x8, [x23, #48]
	str	x24, [x23, #64]
	cbz	w22, .Lunix_path_BB59_338
	cmp	x21, x9
	b.hi	.Lunix_path_BB59_371
	add	x0, x25, x8
	add	x22, x8, x21
	stp	xzr, xzr, [x23, #56]
	sub	x9, x0, x26
	cmp	x9, x21
	b.hs	.Lunix_path_BB59_373
.Lunix_path_BB59_333:
	cmp	x21, #8
	b.lo	.Lunix_path_BB59_335
	add	x9, x8, x25
	sub	x9, x9, x26
	cmp	x9, #32
	b.hs	.Lunix_path_BB59_351
.Lunix_path_BB59_335:
	mov	x9, xzr
.Lunix_path_BB59_336:
	sub	x10, x21, x9
	add	x11, x26, x9
	add	x8, x9, x8
.Lunix_path_BB59_337:
	ldrb	w9, [x11], #1
	subs	x10, x10, #1
	strb	w9, [x25, x8]
	add	x8, x8, #1
	b.ne	.Lunix_path_BB59_337
	b	.Lunix_path_BB59_375
.Lunix_path_BB59_338:
	cmp	x9, #21
	b.ls	.Lunix_path_BB59_379
.Lunix_path_BB59_339:
	add	x9, x25, x8
	adrp	x10, .Lunix_path_static.103
	add	x10, x10, :lo12:.Lunix_path_static.103
	sub	x11, x9, x10
	stp	xzr, xzr, [x23, #56]
	cmp	x11, #21
	b.hi	.Lunix_path_BB59_341
	adrp	x10, .Lunix_path_CPI59_3
	adrp	x11, .Lunix_path_CPI59_4
	ldr	q0, [x10, :lo12:.Lunix_path_CPI59_3]
	ldr	d1, [x11, :lo12:.Lunix_path_CPI59_4]
	mov	w10, #8301
	strh	w10, [x9, #20]
	str	q0, [x9]
	str	s1, [x9, #16]
	b	.Lunix_path_BB59_342
.Lunix_path_BB59_341:
	ldr	q0, [x10]
	ldur	x10, [x10, #14]
	str	q0, [x9]
	stur	x10, [x9, #14]
.Lunix_path_BB59_342:
	add	x8, x8, #22
	add	x2, x23, #48
	mov	x0, x26
	mov	x1, x21
	stp	x25, x8, [x23, #48]
	str	x24, [x23, #64]
	bl	upath_commands.shown.push_shown
	and	w8, w0, #0xff
	tbnz	w8, #0, .Lunix_path_BB59_460
	ldp	x8, x24, [x23, #56]
	sub	x9, x24, x8
	cmp	x28, x9
	b.hi	.Lunix_path_BB59_381
.Lunix_path_BB59_344:
	ldur	x25, [x23, #48]
	add	x22, x8, x28
	stp	xzr, xzr, [x23, #56]
	add	x0, x25, x8
	sub	x9, x0, x27
	cmp	x9, x28
	b.hs	.Lunix_path_BB59_350
	cmp	x28, #4
	b.lo	.Lunix_path_BB59_347
	add	x9, x8, x25
	sub	x9, x9, x27
	cmp	x9, #16
	b.hs	.Lunix_path_BB59_353
.Lunix_path_BB59_347:
	mov	x9, xzr
.Lunix_path_BB59_348:
	sub	x10, x28, x9
	add	x11, x27, x9
	add	x8, x9, x8
.Lunix_path_BB59_349:
	ldrb	w9, [x11], #1
	subs	x10, x10, #1
	strb	w9, [x25, x8]
	add	x8, x8, #1
	b.ne	.Lunix_path_BB59_349
	b	.Lunix_path_BB59_375
.Lunix_path_BB59_350:
	mov	x1, x27
	mov	x2, x28
	b	.Lunix_path_BB59_374
.Lunix_path_BB59_351:
	cmp	x21, #32
	b.hs	.Lunix_path_BB59_357
	mov	x9, xzr
	b	.Lunix_path_BB59_361
.Lunix_path_BB59_353:
	cmp	x28, #16
	b.hs	.Lunix_path_BB59_364
	mov	x9, xzr
	b	.Lunix_path_BB59_368
.Lunix_path_BB59_355:
	add	x0, x23, #48
	mov	w1, #2
	bl	std_alloc.vec.Vec.grow_amortized.f4a78633ca2a48c6.
	cbz	w0, .Lunix_path_BB59_460
	ldp	x8, x24, [x23, #56]
	b	.Lunix_path_BB59_330
.Lunix_path_BB59_357:
	add	x12, x25, x8
	and	x10, x21, #0x18
	and	x9, x21, #0xffffffffffffffe0
	add	x11, x26, #16
	add	x12, x12, #16
	and	x13, x21, #0xffffffffffffffe0
.Lunix_path_BB59_358:
	ldp	q0, q1, [x11, #-16]
	subs	x13, x13, #32
	add	x11, x11, #32
	stp	q0, q1, [x12, #-16]
	add	x12, x12, #32
	b.ne	.Lunix_path_BB59_358
	cmp	x21, x9
	b.eq	.Lunix_path_BB59_375
	cbz	x10, .Lunix_path_BB59_336
.Lunix_path_BB59_361:
	mov	x12, x9
	and	x9, x21, #0xfffffffffffffff8
	sub	x10, x12, x9
	add	x11, x26, x12
	add	x12, x8, x12
.Lunix_path_BB59_362:
	ldr	d0, [x11], #8
	adds	x10, x10, #8
	str	d0, [x25, x12]
	add	x12, x12, #8
	b.ne	.Lunix_path_BB59_362
	cmp	x21, x9
	b.eq	.Lunix_path_BB59_375
	b	.Lunix_path_BB59_336
.Lunix_path_BB59_364:
	add	x12, x25, x8
	and	x10, x28, #0xc
	and	x9, x28, #0x20
	add	x11, x27, #8
	add	x12, x12, #8
	and	x13, x28, #0x20
.Lunix_path_BB59_365:
	ldp	d0, d1, [x11, #-8]
	subs	x13, x13, #16
	add	x11, x11, #16
	stp	d0, d1, [x12, #-8]
	add	x12, x12, #16
	b.ne	.Lunix_path_BB59_365
	cmp	x28, x9
	b.eq	.Lunix_path_BB59_375
	cbz	x10, .Lunix_path_BB59_348
.Lunix_path_BB59_368:
	mov	w10, #44
	mov	x12, x9
	and	x9, x28, x10
	add	x11, x27, x12
	sub	x10, x12, x9
	add	x12, x8, x12
.Lunix_path_BB59_369:
	ldr	w13, [x11], #4
	adds	x10, x10, #4
	str	w13, [x25, x12]
	add	x12, x12, #4
	b.ne	.Lunix_path_BB59_369
	cmp	x28, x9
	b.eq	.Lunix_path_BB59_375
	b	.Lunix_path_BB59_348
.Lunix_path_BB59_371:
	add	x0, x23, #48
	mov	x1, x21
	bl	std_alloc.vec.Vec.grow_amortized.f4a78633ca2a48c6.
	cbz	w0, .Lunix_path_BB59_460
	ldp	x8, x24, [x23, #56]
	ldr	x25, [x23, #48]
	add	x0, x25, x8
	add	x22, x8, x21
	stp	xzr, xzr, [x23, #56]
	sub	x9, x0, x26
	cmp	x9, x21
	b.lo	.Lunix_path_BB59_333
.Lunix_path_BB59_373:
	mov	x1, x26
	mov	x2, x21
.Lunix_path_BB59_374:
	bl	memmove
.Lunix_path_BB59_375:
	cmp	x24, x22
	str	x24, [x23, #64]
	mov	x24, x19
	stp	x25, x22, [x23, #48]
	b.eq	.Lunix_path_BB59_377
.Lunix_path_BB59_376:
	add	x2, x22, #1
	mov	w8, #10
	strb	w8, [x25, x22]
	stur	x2, [x23, #56]
	b	.Lunix_path_BB59_3
.Lunix_path_BB59_377:
	add	x0, x23, #48
	mov	w1, #1
	mov	w21, #1
	bl	std_alloc.vec.Vec.grow_amortized.f4a78633ca2a48c6.
	cbz	w0, .Lunix_path_BB59_463
	ldp	x25, x22, [x23, #48]
	b	.Lunix_path_BB59_376
.Lunix_path_BB59_379:
	add	x0, x23, #48
	mov	w1, #22
	bl	std_alloc.vec.Vec.grow_amortized.f4a78633ca2a48c6.
	cbz	w0, .Lunix_path_BB59_460
	ldp	x8, x24, [x23, #56]
	ldr	x25, [x23, #48]
	b	.Lunix_path_BB59_339
.Lunix_path_BB59_381:
	add	x0, x23, #48
	mov	x1, x28
	bl	std_alloc.vec.Vec.grow_amortized.f4a78633ca2a48c6.
	cbz	w0, .Lunix_path_BB59_460
	ldp	x8, x24, [x23, #56]
	b	.Lunix_path_BB59_344
.Lunix_path_BB59_383:
	cmp	w11, #47
	b.eq	.Lunix_path_BB59_322
.Lunix_path_BB59_384:
	cmp	x21, x10
	mov	x9, x10
	b.eq	.Lunix_path_BB59_323
.Lunix_path_BB59_385:
	ldr	x10, [sp, #96]
	ldrb	w10, [x10, x9]
	cmp	w10, #47
	add	x10, x9, #1
	b.ne	.Lunix_path_BB59_384
	cmp	x21, x10
	b.ls	.Lunix_path_BB59_322
	ldr	x11, [sp, #96]
	add	x11, x11, x9
	ldrb	w11, [x11, #1]
	cmp	w11, #46
	b.ne	.Lunix_path_BB59_383
	add	x11, x9, #2
	cmp	x21, x11
	b.ls	.Lunix_path_BB59_322
	ldr	x11, [sp, #96]
	add	x11, x11, x9
	ldrb	w11, [x11, #2]
	cmp	w11, #46
	b.ne	.Lunix_path_BB59_383
	add	x11, x9, #3
	cmp	x21, x11
	b.ls	.Lunix_path_BB59_322
	ldr	x11, [sp, #96]
	add	x11, x11, x9
	ldrb	w11, [x11, #3]
	b	.Lunix_path_BB59_383
.Lunix_path_BB59_392:
	cmp	w8, #47
	b.eq	.Lunix_path_BB59_395
	cmp	w8, #46
	b.ne	.Lunix_path_BB59_396
	cmp	x21, #1
	b.ne	.Lunix_path_BB59_397
.Lunix_path_BB59_395:
	mov	w19, #1
	b	.Lunix_path_BB59_398
.Lunix_path_BB59_396:
	mov	w19, wzr
	b	.Lunix_path_BB59_398
.Lunix_path_BB59_397:
	ldr	x8, [sp, #96]
	ldrb	w8, [x8, #1]
	cmp	w8, #47
	cset	w19, eq
.Lunix_path_BB59_398:
	mov	x8, x21
	b	.Lunix_path_BB59_400
.Lunix_path_BB59_399:
	mov	x8, x1
	cbz	x1, .Lunix_path_BB59_323
.Lunix_path_BB59_400:
	subs	x1, x8, #1
	b.eq	.Lunix_path_BB59_406
	ldr	x9, [sp, #96]
	add	x9, x9, x1
	ldrb	w10, [x9]
	cmp	w10, #47
	b.eq	.Lunix_path_BB59_404
	cmp	w10, #46
	b.ne	.Lunix_path_BB59_406
	ldurb	w9, [x9, #-1]
	cmp	w9, #47
	b.ne	.Lunix_path_BB59_406
.Lunix_path_BB59_404:
	sub	x8, x21, x1
	cmp	x8, #8
	b.ne	.Lunix_path_BB59_399
	ldr	x0, [sp, #96]
	bl	unix_path.filler.trimmed_blocks_len
	mov	x1, x0
	b	.Lunix_path_BB59_399
.Lunix_path_BB59_406:
	ldr	x10, [sp, #96]
	mov	x9, xzr
	mov	x11, x8
	b	.Lunix_path_BB59_410
.Lunix_path_BB59_407:
	mov	x11, xzr
.Lunix_path_BB59_408:
	add	x11, x11, x12
.Lunix_path_BB59_409:
	ldr	x10, [sp, #96]
	add	x9, x11, x9
	mov	w19, wzr
	subs	x11, x8, x9
	add	x10, x10, x9
	b.eq	.Lunix_path_BB59_323
.Lunix_path_BB59_410:
	tbz	w19, #0, .Lunix_path_BB59_418
	subs	x13, x11, #1
	b.eq	.Lunix_path_BB59_435
	mov	x12, xzr
	sub	x11, x11, #2
	b	.Lunix_path_BB59_414
.Lunix_path_BB59_413:
	add	x12, x12, #1
	cmp	x13, x12
	b.eq	.Lunix_path_BB59_433
.Lunix_path_BB59_414:
	add	x14, x10, x12
	ldrb	w14, [x14, #1]
	cmp	w14, #47
	b.eq	.Lunix_path_BB59_413
	cmp	w14, #46
	b.ne	.Lunix_path_BB59_434
	cmp	x11, x12
	b.eq	.Lunix_path_BB59_433
	add	x14, x10, x12
	ldrb	w14, [x14, #2]
	cmp	w14, #47
	b.eq	.Lunix_path_BB59_413
	b	.Lunix_path_BB59_434
.Lunix_path_BB59_418:
	cmp	x11, #1
	b.eq	.Lunix_path_BB59_423
	ldrb	w12, [x10]
	cmp	w12, #46
	b.ne	.Lunix_path_BB59_423
	ldrb	w12, [x10, #1]
	cmp	w12, #46
	b.ne	.Lunix_path_BB59_423
	cmp	x11, #2
	b.eq	.Lunix_path_BB59_445
	ldrb	w12, [x10, #2]
	cmp	w12, #47
	b.eq	.Lunix_path_BB59_445
.Lunix_path_BB59_423:
	cmp	x11, #15
	b.hi	.Lunix_path_BB59_428
	mov	x12, xzr
.Lunix_path_BB59_425:
	ldrb	w13, [x10, x12]
	cmp	w13, #47
	b.eq	.Lunix_path_BB59_437
	add	x12, x12, #1
	cmp	x11, x12
	b.ne	.Lunix_path_BB59_425
	mov	x12, x11
	b	.Lunix_path_BB59_437
.Lunix_path_BB59_428:
	subs	x12, x11, #16
	b.eq	.Lunix_path_BB59_432
	mov	x13, xzr
.Lunix_path_BB59_430:
	movi	v0.16b, #47
	ldr	q1, [x10, x13]
	adrp	x14, .Lunix_path_CPI59_0
	cmeq	v0.16b, v1.16b, v0.16b
	ldr	q1, [x14, :lo12:.Lunix_path_CPI59_0]
	and	v0.16b, v0.16b, v1.16b
	addp	v0.16b, v0.16b, v0.16b
	addp	v0.16b, v0.16b, v0.16b
	addp	v0.16b, v0.16b, v0.16b
	umov	w14, v0.h[0]
	orr	w14, w14, #0x10000
	rbit	w14, w14
	clz	w14, w14
	cmp	w14, #15
	b.ls	.Lunix_path_BB59_436
	add	x13, x13, #16
	cmp	x13, x12
	b.lo	.Lunix_path_BB59_430
.Lunix_path_BB59_432:
	movi	v0.16b, #47
	ldr	q1, [x10, x12]
	adrp	x13, .Lunix_path_CPI59_0
	cmeq	v0.16b, v1.16b, v0.16b
	ldr	q1, [x13, :lo12:.Lunix_path_CPI59_0]
	and	v0.16b, v0.16b, v1.16b
	addp	v0.16b, v0.16b, v0.16b
	addp	v0.16b, v0.16b, v0.16b
	addp	v0.16b, v0.16b, v0.16b
	umov	w13, v0.h[0]
	orr	w13, w13, #0x10000
	rbit	w13, w13
	clz	w13, w13
	add	x12, x12, x13
	b	.Lunix_path_BB59_437
.Lunix_path_BB59_433:
	mov	x12, x13
.Lunix_path_BB59_434:
	add	x11, x12, #1
.Lunix_path_BB59_435:
	ldrb	w10, [x10]
	cmp	w10, #47
	b.ne	.Lunix_path_BB59_409
	b	.Lunix_path_BB59_445
.Lunix_path_BB59_436:
	add	x12, x13, w14, uxtw
.Lunix_path_BB59_437:
	subs	x13, x11, x12
	b.eq	.Lunix_path_BB59_407
	mov	x11, xzr
	add	x10, x10, x12
	sub	x14, x13, #1
	b	.Lunix_path_BB59_440
.Lunix_path_BB59_439:
	add	x11, x11, #1
	cmp	x13, x11
	b.eq	.Lunix_path_BB59_444
.Lunix_path_BB59_440:
	ldrb	w15, [x10, x11]
	cmp	w15, #47
	b.eq	.Lunix_path_BB59_439
	cmp	w15, #46
	b.ne	.Lunix_path_BB59_408
	cmp	x14, x11
	b.eq	.Lunix_path_BB59_444
	add	x15, x10, x11
	ldrb	w15, [x15, #1]
	cmp	w15, #47
	b.eq	.Lunix_path_BB59_439
	b	.Lunix_path_BB59_408
.Lunix_path_BB59_444:
	mov	x11, x13
	b	.Lunix_path_BB59_408
.Lunix_path_BB59_445:
	mov	x2, xzr
	mov	x27, xzr
	mov	x28, xzr
	adrp	x26, .Lunix_path_static.97
	add	x26, x26, :lo12:.Lunix_path_static.97
	mov	w22, #1
	mov	w21, #8
	ldr	x8, [x23, #64]
	sub	x9, x8, xzr
	cmp	x9, #6
	b.hi	.Lunix_path_BB59_325
.Lunix_path_BB59_446:
	add	x0, x23, #48
	mov	w1, #7
	bl	std_alloc.vec.Vec.grow_amortized.f4a78633ca2a48c6.
	cbz	w0, .Lunix_path_BB59_460
	ldp	x2, x8, [x23, #56]
	b	.Lunix_path_BB59_325
.Lunix_path_BB59_448:
	mov	w1, wzr
	mov	w21, wzr
	b	.Lunix_path_BB59_462
.Lunix_path_BB59_449:
	mov	w21, #1
	b	.Lunix_path_BB59_462
.Lunix_path_BB59_450:
	cmp	w20, #1
	b.ne	.Lunix_path_BB59_460
	cbz	x19, .Lunix_path_BB59_460
	mov	x0, x21
	b	.Lunix_path_BB59_459
.Lunix_path_BB59_453:
	ldr	x8, [sp, #8]
	ldr	x8, [x8]
	mov	x11, x8
	ldrh	w8, [x8]
	cbnz	w8, .Lunix_path_BB59_456
.Lunix_path_BB59_454:
	ldrh	w8, [x11, #2]
	cbz	w8, .Lunix_path_BB59_456
	mov	x0, x11
	ldr	x19, [x11, #368]
	bl	rattle_dealloc
	ldr	x8, [sp, #8]
	str	x19, [x8]
.Lunix_path_BB59_456:
	ldr	x22, [sp, #104]
.Lunix_path_BB59_457:
	cbz	x22, .Lunix_path_BB59_460
	mov	x0, x26
.Lunix_path_BB59_459:
	bl	rattle_dealloc
.Lunix_path_BB59_460:
	mov	w21, #1
.Lunix_path_BB59_461:
	mov	w1, #3
.Lunix_path_BB59_462:
	mov	w0, w21
	add	sp, sp, #432
	ldp	x20, x19, [sp, #80]
	ldp	x22, x21, [sp, #64]
	ldp	x24, x23, [sp, #48]
	ldp	x26, x25, [sp, #32]
	ldp	x28, x27, [sp, #16]
	ldp	x29, x30, [sp], #96
	ret
.Lunix_path_BB59_463:
	mov	w1, #3
	b	.Lunix_path_BB59_462
.Lunix_path_BB59_464:
	brk	#0x1
.Lunix_path_func_end59:
	.size	upath_commands.engine.answer_paths.3596f8ae3b0ff399., .Lunix_path_func_end59-upath_commands.engine.answer_paths.3596f8ae3b0ff399.
	.section	.rodata.upath_commands.engine.answer_paths.3596f8ae3b0ff399.,"a",@progbits
	.p2align	1, 0x0
.Lunix_path_JTI59_0:
	.hword	(.Lunix_path_BB59_3-.Lunix_path_BB59_3)>>2
	.hword	(.Lunix_path_BB59_3-.Lunix_path_BB59_3)>>2
	.hword	(.Lunix_path_BB59_324-.Lunix_path_BB59_3)>>2
	.hword	(.Lunix_path_BB59_3-.Lunix_path_BB59_3)>>2
	.hword	(.Lunix_path_BB59_108-.Lunix_path_BB59_3)>>2
	.hword	(.Lunix_path_BB59_108-.Lunix_path_BB59_3)>>2
	.hword	(.Lunix_path_BB59_169-.Lunix_path_BB59_3)>>2
	.hword	(.Lunix_path_BB59_3-.Lunix_path_BB59_3)>>2
	.hword	(.Lunix_path_BB59_155-.Lunix_path_BB59_3)>>2
	.hword	(.Lunix_path_BB59_171-.Lunix_path_BB59_3)>>2
	.hword	(.Lunix_path_BB59_161-.Lunix_path_BB59_3)>>2
	.hword	(.Lunix_path_BB59_3-.Lunix_path_BB59_3)>>2
	.hword	(.Lunix_path_BB59_163-.Lunix_path_BB59_3)>>2
	.hword	(.Lunix_path_BB59_3-.Lunix_path_BB59_3)>>2
	.hword	(.Lunix_path_BB59_3-.Lunix_path_BB59_3)>>2
	.hword	(.Lunix_path_BB59_3-.Lunix_path_BB59_3)>>2
	.hword	(.Lunix_path_BB59_3-.Lunix_path_BB59_3)>>2
	.hword	(.Lunix_path_BB59_170-.Lunix_path_BB59_3)>>2
	.hword	(.Lunix_path_BB59_3-.Lunix_path_BB59_3)>>2
	.hword	(.Lunix_path_BB59_3-.Lunix_path_BB59_3)>>2
	.section	.text.unlikely.std_alloc.vec.Vec.grow_amortized.a04925db02c9ae72.,"ax",@progbits
	.p2align	2
	.type	std_alloc.vec.Vec.grow_amortized.a04925db02c9ae72.,@function
// std_alloc::vec::Vec::grow_amortized::<#a04925db02c9ae72>
std_alloc.vec.Vec.grow_amortized.a04925db02c9ae72.:
	ldr	x8, [x0, #8]
	cmn	x8, x1
	b.lo	.Lunix_path_BB60_2
	mov	w0, wzr
	ret
.Lunix_path_BB60_2:
	stp	x29, x30, [sp, #-32]!
	ldr	x10, [x0, #16]
	add	x9, x8, x1
	mov	w11, #8
	cmp	x9, #8
	stp	x20, x19, [sp, #16]
	mov	x29, sp
	lsl	x12, x10, #1
	csel	x11, x9, x11, hi
	lsr	x13, x10, #62
	cmp	x11, x12
	csel	x9, x11, x12, hi
	cmp	x13, #0
	csel	x19, x9, x11, eq
	tbnz	x19, #63, .Lunix_path_BB60_7
	cbz	x10, .Lunix_path_BB60_6
	mov	x20, x0
	ldr	x0, [x0]
	mov	x1, x8
	mov	x2, x19
	mov	w3, #1
	bl	rattle_realloc
	tbz	w0, #0, .Lunix_path_BB60_7
.Lunix_path_BB60_5:
	mov	w0, #1
	str	x1, [x20]
	str	x19, [x20, #16]
	ldp	x20, x19, [sp, #16]
	ldp	x29, x30, [sp], #32
	ret
.Lunix_path_BB60_6:
	mov	x20, x0
	mov	x0, x9
	mov	w1, #1
	bl	rattle_alloc
	tbnz	w0, #0, .Lunix_path_BB60_5
.Lunix_path_BB60_7:
	mov	w0, wzr
	ldp	x20, x19, [sp, #16]
	ldp	x29, x30, [sp], #32
	ret
.Lunix_path_func_end60:
	.size	std_alloc.vec.Vec.grow_amortized.a04925db02c9ae72., .Lunix_path_func_end60-std_alloc.vec.Vec.grow_amortized.a04925db02c9ae72.
	.section	.text.std_alloc.vec.Vec.remove.b40003dd673f1bd1.,"ax",@progbits
	.p2align	2
	.type	std_alloc.vec.Vec.remove.b40003dd673f1bd1.,@function
// std_alloc::vec::Vec::remove::<#b40003dd673f1bd1>
std_alloc.vec.Vec.remove.b40003dd673f1bd1.:
	sub	sp, sp, #32
	add	x8, x2, x2, lsl #1
	ldp	x9, x11, [x1]
	lsl	x14, x8, #3
	ldr	x8, [x1, #16]
	stp	xzr, xzr, [x1, #8]
	sub	x10, x11, #1
	add	x12, x9, x14
	sub	x17, x10, x2
	ldr	x13, [x12, #16]
	ldr	q0, [x12]
	cmp	x17, #86
	str	x13, [sp, #16]
	str	q0, [sp]
	b.lo	.Lunix_path_BB61_8
	lsl	x13, x2, #3
	sub	x14, x13, x2, lsl #5
	neg	x13, x2
.Lunix_path_BB61_2:
	ldr	q1, [x12, #48]
	ldur	q0, [x12, #24]
	add	x15, x12, #264
	add	x16, x12, #312
	add	x17, x12, #360
	ldr	x18, [x12, #64]
	stur	q1, [x12, #24]
	ldr	q1, [x12, #96]
	sub	x13, x13, #85
	str	q0, [x12]
	ldur	q0, [x12, #72]
	ldr	x2, [x12, #2056]
	stur	q1, [x12, #72]
	ldr	q1, [x12, #144]
	sub	x14, x14, #2040
	str	q0, [x12, #48]
	ldur	q0, [x12, #120]
	stur	q1, [x12, #120]
	ldr	q1, [x12, #192]
	str	q0, [x12, #96]
	ldur	q0, [x12, #168]
	stur	q1, [x12, #168]
	ldr	q1, [x12, #240]
	str	q0, [x12, #144]
	ldur	q0, [x12, #216]
	stur	q1, [x12, #216]
	ldr	q1, [x12, #288]
	str	q0, [x12, #192]
	ldr	q0, [x15]
	str	q1, [x15]
	ldr	q1, [x12, #336]
	add	x15, x12, #408
	str	q0, [x12, #240]
	ldr	q0, [x16]
	str	q1, [x16]
	ldr	q1, [x12, #384]
	add	x16, x12, #456
	str	q0, [x12, #288]
	ldr	q0, [x17]
	str	q1, [x17]
	ldr	q1, [x12, #432]
	add	x17, x12, #504
	str	q0, [x12, #336]
	ldr	q0, [x15]
	str	q1, [x15]
	ldr	q1, [x12, #480]
	add	x15, x12, #552
	str	q0, [x12, #384]
	ldr	q0, [x16]
	str	q1, [x16]
	ldr	q1, [x12, #528]
	add	x16, x12, #600
	str	q0, [x12, #432]
	ldr	q0, [x17]
	str	q1, [x17]
	ldr	q1, [x12, #576]
	add	x17, x12, #648
	str	q0, [x12, #480]
	ldr	q0, [x15]
	str	q1, [x15]
	ldr	q1, [x12, #624]
	add	x15, x12, #696
	str	q0, [x12, #528]
	ldr	q0, [x16]
	str	q1, [x16]
	ldr	q1, [x12, #672]
	add	x16, x12, #744
	str	q0, [x12, #576]
	ldr	q0, [x17]
	str	q1, [x17]
	ldr	q1, [x12, #720]
	add	x17, x12, #792
	str	q0, [x12, #624]
	ldr	q0, [x15]
	str	q1, [x15]
	ldr	q1, [x12, #768]
	add	x15, x12, #840
	str	q0, [x12, #672]
	ldr	q0, [x16]
	str	q1, [x16]
	ldr	q1, [x12, #816]
	add	x16, x12, #888
	str	q0, [x12, #720]
	ldr	q0, [x17]
	str	q1, [x17]
	ldr	q1, [x12, #864]
	add	x17, x12, #936
	str	q0, [x12, #768]
	ldr	q0, [x15]
	str	q1, [x15]
	ldr	q1, [x12, #912]
	add	x15, x12, #984
	str	q0, [x12, #816]
	ldr	q0, [x16]
	str	q1, [x16]
	ldr	q1, [x12, #960]
	add	x16, x12, #1032
	str	q0, [x12, #864]
	ldr	q0, [x17]
	str	q1, [x17]
	ldr	q1, [x12, #1008]
	add	x17, x12, #1080
	str	q0, [x12, #912]
	ldr	q0, [x15]
	str	q1, [x15]
	ldr	q1, [x12, #1056]
	add	x15, x12, #1128
	str	q0, [x12, #960]
	ldr	q0, [x16]
	str	q1, [x16]
	ldr	q1, [x12, #1104]
	add	x16, x12, #1176
	str	q0, [x12, #1008]
	ldr	q0, [x17]
	str	q1, [x17]
	ldr	q1, [x12, #1152]
	add	x17, x12, #1224
	str	q0, [x12, #1056]
	ldr	q0, [x15]
	str	q1, [x15]
	ldr	q1, [x12, #1200]
	add	x15, x12, #1272
	str	q0, [x12, #1104]
	ldr	q0, [x16]
	str	q1, [x16]
	ldr	q1, [x12, #1248]
	add	x16, x12, #1320
	str	q0, [x12, #1152]
	ldr	q0, [x17]
	str	q1, [x17]
	ldr	q1, [x12, #1296]
	add	x17, x12, #1368
	str	q0, [x12, #1200]
	ldr	q0, [x15]
	str	q1, [x15]
	ldr	q1, [x12, #1344]
	add	x15, x12, #1416
	str	q0, [x12, #1248]
	ldr	q0, [x16]
	str	q1, [x16]
	ldr	q1, [x12, #1392]
	add	x16, x12, #1464
	str	q0, [x12, #1296]
	ldr	q0, [x17]
	str	q1, [x17]
	ldr	q1, [x12, #1440]
	add	x17, x12, #1512
	str	q0, [x12, #1344]
	ldr	q0, [x15]
	str	q1, [x15]
	ldr	q1, [x12, #1488]
	add	x15, x12, #1560
	str	q0, [x12, #1392]
	ldr	q0, [x16]
	str	q1, [x16]
	ldr	q1, [x12, #1536]
	add	x16, x12, #1608
	str	q0, [x12, #1440]
	ldr	q0, [x17]
	str	q1, [x17]
	ldr	q1, [x12, #1584]
	add	x17, x12, #1656
	str	q0, [x12, #1488]
	ldr	q0, [x15]
	str	q1, [x15]
	ldr	q1, [x12, #1632]
	add	x15, x12, #1704
	str	q0, [x12, #1536]
	ldr	q0, [x16]
	str	q1, [x16]
	ldr	q1, [x12, #1680]
	add	x16, x12, #1752
	str	q0, [x12, #1584]
	ldr	q0, [x17]
	str	q1, [x17]
	ldr	q1, [x12, #1728]
	add	x17, x12, #1800
	str	q0, [x12, #1632]
	ldr	q0, [x15]
	str	q1, [x15]
	ldr	q1, [x12, #1776]
	add	x15, x12, #1848
	str	q0, [x12, #1680]
	ldr	q0, [x16]
	str	q1, [x16]
	ldr	q1, [x12, #1824]
	add	x16, x12, #1896
	str	q0, [x12, #1728]
	ldr	q0, [x17]
	str	q1, [x17]
	ldr	q1, [x12, #1872]
	add	x17, x12, #1944
	str	q0, [x12, #1776]
	ldr	q0, [x15]
	str	q1, [x15]
	ldr	q1, [x12, #1920]
	add	x15, x12, #1992
	str	q0, [x12, #1824]
	ldr	q0, [x16]
	str	q1, [x16]
	ldr	q1, [x12, #1968]
	add	x16, x12, #2040
	str	q0, [x12, #1872]
	ldr	q0, [x17]
	str	q1, [x17]
	ldr	x17, [x12, #40]
	ldr	q1, [x16]
	str	x18, [x12, #40]
	ldr	x18, [x12, #112]
	str	x17, [x12, #16]
	ldr	x17, [x12, #88]
	str	x18, [x12, #88]
	ldr	x18, [x12, #160]
	str	x17, [x12, #64]
	ldr	x17, [x12, #136]
	str	x18, [x12, #136]
	ldr	x18, [x12, #208]
	str	x17, [x12, #112]
	ldr	x17, [x12, #184]
	str	x18, [x12, #184]
	ldr	x18, [x12, #256]
	str	x17, [x12, #160]
	ldr	x17, [x12, #232]
	str	x18, [x12, #232]
	ldr	x18, [x12, #304]
	str	x17, [x12, #208]
	ldr	x17, [x12, #280]
	str	x18, [x12, #280]
	ldr	x18, [x12, #352]
	str	x17, [x12, #256]
	ldr	x17, [x12, #328]
	str	x18, [x12, #328]
	ldr	x18, [x12, #400]
	str	x17, [x12, #304]
	ldr	x17, [x12, #376]
	str	x18, [x12, #376]
	ldr	x18, [x12, #448]
	str	x17, [x12, #352]
	ldr	x17, [x12, #424]
	str	x18, [x12, #424]
	ldr	x18, [x12, #496]
	str	x17, [x12, #400]
	ldr	x17, [x12, #472]
	str	x18, [x12, #472]
	ldr	x18, [x12, #544]
	str	x17, [x12, #448]
	ldr	x17, [x12, #520]
	str	x18, [x12, #520]
	ldr	x18, [x12, #592]
	str	x17, [x12, #496]
	ldr	x17, [x12, #568]
	str	x18, [x12, #568]
	ldr	x18, [x12, #640]
	str	x17, [x12, #544]
	ldr	x17, [x12, #616]
	str	x18, [x12, #616]
	ldr	x18, [x12, #688]
	str	x17, [x12, #592]
	ldr	x17, [x12, #664]
	str	x18, [x12, #664]
	ldr	x18, [x12, #736]
	str	x17, [x12, #640]
	ldr	x17, [x12, #712]
	str	x18, [x12, #712]
	ldr	x18, [x12, #784]
	str	x17, [x12, #688]
	ldr	x17, [x12, #760]
	str	x18, [x12, #760]
	ldr	x18, [x12, #832]
	str	x17, [x12, #736]
	ldr	x17, [x12, #808]
	str	x18, [x12, #808]
	ldr	x18, [x12, #880]
	str	x17, [x12, #784]
	ldr	x17, [x12, #856]
	str	x18, [x12, #856]
	ldr	x18, [x12, #928]
	str	x17, [x12, #832]
	ldr	x17, [x12, #904]
	str	x18, [x12, #904]
	ldr	x18, [x12, #976]
	str	x17, [x12, #880]
	ldr	x17, [x12, #952]
	str	x18, [x12, #952]
	ldr	x18, [x12, #1024]
	str	x17, [x12, #928]
	ldr	x17, [x12, #1000]
	str	x18, [x12, #1000]
	ldr	x18, [x12, #1072]
	str	x17, [x12, #976]
	ldr	x17, [x12, #1048]
	str	x18, [x12, #1048]
	ldr	x18, [x12, #1120]
	str	x17, [x12, #1024]
	ldr	x17, [x12, #1096]
	str	x18, [x12, #1096]
	ldr	x18, [x12, #1168]
	str	x17, [x12, #1072]
	ldr	x17, [x12, #1144]
	str	x18, [x12, #1144]
	ldr	x18, [x12, #1216]
	str	x17, [x12, #1120]
	ldr	x17, [x12, #1192]
	str	x18, [x12, #1192]
	ldr	x18, [x12, #1264]
	str	x17, [x12, #1168]
	ldr	x17, [x12, #1240]
	str	x18, [x12, #1240]
	ldr	x18, [x12, #1312]
	str	x17, [x12, #1216]
	ldr	x17, [x12, #1288]
	str	x18, [x12, #1288]
	ldr	x18, [x12, #1360]
	str	x17, [x12, #1264]
	ldr	x17, [x12, #1336]
	str	x18, [x12, #1336]
	ldr	x18, [x12, #1408]
	str	x17, [x12, #1312]
	ldr	x17, [x12, #1384]
	str	x18, [x12, #1384]
	ldr	x18, [x12, #1456]
	str	x17, [x12, #1360]
	ldr	x17, [x12, #1432]
	str	x18, [x12, #1432]
	ldr	x18, [x12, #1504]
	str	x17, [x12, #1408]
	ldr	x17, [x12, #1480]
	str	x18, [x12, #1480]
	ldr	x18, [x12, #1552]
	str	x17, [x12, #1456]
	ldr	x17, [x12, #1528]
	str	x18, [x12, #1528]
	ldr	x18, [x12, #1600]
	str	x17, [x12, #1504]
	ldr	x17, [x12, #1576]
	str	x18, [x12, #1576]
	ldr	x18, [x12, #1648]
	str	x17, [x12, #1552]
	ldr	x17, [x12, #1624]
	str	x18, [x12, #1624]
	ldr	x18, [x12, #1696]
	str	x17, [x12, #1600]
	ldr	x17, [x12, #1672]
	str	x18, [x12, #1672]
	ldr	x18, [x12, #1744]
	str	x17, [x12, #1648]
	ldr	x17, [x12, #1720]
	str	x18, [x12, #1720]
	ldr	x18, [x12, #1792]
	str	x17, [x12, #1696]
	ldr	x17, [x12, #1768]
	str	x18, [x12, #1768]
	ldr	x18, [x12, #1840]
	str	x17, [x12, #1744]
	ldr	x17, [x12, #1816]
	str	x18, [x12, #1816]
	ldr	x18, [x12, #1888]
	str	x17, [x12, #1792]
	ldr	x17, [x12, #1864]
	str	x18, [x12, #1864]
	ldr	x18, [x12, #1936]
	str	x17, [x12, #1840]
	ldr	x17, [x12, #1912]
	str	x18, [x12, #1912]
	ldr	x18, [x12, #1984]
	str	x17, [x12, #1888]
	ldr	x17, [x12, #1960]
	str	q0, [x12, #1920]
	ldr	q0, [x15]
	str	x17, [x12, #1936]
	ldr	x17, [x12, #2008]
	str	x18, [x12, #1960]
	ldr	x18, [x12, #2032]
	str	q0, [x12, #1968]
	ldr	q0, [x12, #2016]
	str	x17, [x12, #1984]
	add	x17, x10, x13
	str	q1, [x12, #2016]
	cmp	x17, #85
	str	x18, [x12, #2008]
	str	x2, [x12, #2032]
	mov	x12, x16
	str	q0, [x15]
	b.hi	.Lunix_path_BB61_2
	cmp	x13, #1
	b.ne	.Lunix_path_BB61_7
	cbz	x11, .Lunix_path_BB61_11
	mov	w12, #24
	madd	x11, x11, x12, x9
	sub	x11, x11, #24
.Lunix_path_BB61_6:
	ldr	q0, [x11]
	ldr	x12, [x11, #16]
	sub	x13, x11, #24
	subs	x17, x17, #1
	stur	q0, [x11, #-24]
	stur	x12, [x11, #-8]
	mov	x11, x13
	b.ne	.Lunix_path_BB61_6
	b	.Lunix_path_BB61_11
.Lunix_path_BB61_7:
	neg	x14, x14
	neg	x2, x13
.Lunix_path_BB61_8:
	cmp	x10, x2
	b.eq	.Lunix_path_BB61_11
	add	x11, x9, x14
.Lunix_path_BB61_10:
	ldur	q0, [x11, #24]
	ldr	x12, [x11, #40]
	add	x13, x11, #24
	subs	x17, x17, #1
	str	q0, [x11]
	str	x12, [x11, #16]
	mov	x11, x13
	b.ne	.Lunix_path_BB61_10
.Lunix_path_BB61_11:
	ldr	q0, [sp]
	str	x8, [x1, #16]
	ldr	x8, [sp, #16]
	stp	x9, x10, [x1]
	str	q0, [x0]
	str	x8, [x0, #16]
	add	sp, sp, #32
	ret
.Lunix_path_func_end61:
	.size	std_alloc.vec.Vec.remove.b40003dd673f1bd1., .Lunix_path_func_end61-std_alloc.vec.Vec.remove.b40003dd673f1bd1.
	.section	.rodata.cst16,"aM",@progbits,16
	.p2align	4, 0x0
.Lunix_path_CPI62_0:
	.xword	1
	.xword	0
	.section	.text.std_alloc.vec.lodged.Vec.T.Lodged.insert_reserved.23.unix_path.buf.PathBuf.,"ax",@progbits
	.p2align	2
	.type	std_alloc.vec.lodged.Vec.T.Lodged.insert_reserved.23.unix_path.buf.PathBuf.,@function
// std_alloc::vec::lodged::Vec+T+Lodged::insert_reserved::<23'unix_path::buf::PathBuf>
std_alloc.vec.lodged.Vec.T.Lodged.insert_reserved.23.unix_path.buf.PathBuf.:
	ldr	q0, [x2]
	ldr	x9, [x2, #16]
	str	q0, [sp, #-32]!
	str	x9, [sp, #16]
	ldp	x8, x9, [x0]
	ldur	q0, [x0, #8]
	cmn	x1, #1
	stp	xzr, xzr, [x0, #8]
	b.eq	.Lunix_path_BB62_4
	cmp	x9, x1
	b.eq	.Lunix_path_BB62_17
	mov	w10, #24
	madd	x10, x9, x10, x8
	sub	x9, x9, x1
.Lunix_path_BB62_3:
	ldur	q1, [x10, #-24]
	ldur	x11, [x10, #-8]
	sub	x12, x10, #24
	subs	x9, x9, #1
	str	q1, [x10]
	str	x11, [x10, #16]
	mov	x10, x12
	b.ne	.Lunix_path_BB62_3
	b	.Lunix_path_BB62_17
.Lunix_path_BB62_4:
	add	x10, x9, #1
	cmp	x10, #86
	b.lo	.Lunix_path_BB62_11
	mov	x13, xzr
	add	x12, x8, #1992
	b	.Lunix_path_BB62_8
.Lunix_path_BB62_6:
	mov	w13, #24
	madd	x13, x11, x13, x8
	sub	x14, x13, #24
	add	x16, x13, #264
	ldr	q1, [x14]
	ldr	x15, [x14, #16]
	str	q1, [x13]
	stur	q1, [x13, #24]
	str	q1, [x13, #48]
	stur	q1, [x13, #72]
	str	q1, [x13, #96]
	stur	q1, [x13, #120]
	str	q1, [x13, #144]
	stur	q1, [x13, #168]
	ldr	q1, [x14]
	str	x15, [x13, #16]
	str	x15, [x13, #40]
	str	x15, [x13, #64]
	str	x15, [x13, #88]
	str	x15, [x13, #112]
	str	x15, [x13, #136]
	str	x15, [x13, #160]
	str	x15, [x13, #184]
	ldr	x15, [x14, #16]
	str	q1, [x16]
	add	x16, x13, #312
	str	q1, [x16]
	add	x16, x13, #360
	str	x15, [x13, #208]
	str	q1, [x13, #192]
	str	x15, [x13, #232]
	stur	q1, [x13, #216]
	str	x15, [x13, #256]
	str	q1, [x13, #240]
	str	x15, [x13, #280]
	str	x15, [x13, #304]
	str	q1, [x13, #288]
	str	x15, [x13, #328]
	str	x15, [x13, #352]
	str	q1, [x13, #336]
	str	x15, [x13, #376]
	ldr	x15, [x14, #16]
	str	q1, [x16]
	ldr	q1, [x14]
	add	x16, x13, #408
	str	x15, [x13, #400]
	ldr	x15, [x14, #16]
	str	q1, [x13, #384]
	ldr	q1, [x14]
	str	x15, [x13, #424]
	ldr	x15, [x14, #16]
	str	q1, [x16]
	ldr	q1, [x14]
	add	x16, x13, #456
	str	x15, [x13, #448]
	ldr	x15, [x14, #16]
	str	q1, [x13, #432]
	ldr	q1, [x14]
	str	x15, [x13, #472]
	ldr	x15, [x14, #16]
	str	q1, [x16]
	ldr	q1, [x14]
	add	x16, x13, #504
	str	x15, [x13, #496]
	ldr	x15, [x14, #16]
	str	q1, [x13, #480]
	ldr	q1, [x14]
	str	x15, [x13, #520]
	ldr	x15, [x14, #16]
	str	q1, [x16]
	ldr	q1, [x14]
	add	x16, x13, #552
	str	x15, [x13, #544]
	ldr	x15, [x14, #16]
	str	q1, [x13, #528]
	ldr	q1, [x14]
	str	x15, [x13, #568]
	ldr	x15, [x14, #16]
	str	q1, [x16]
	ldr	q1, [x14]
	add	x16, x13, #600
	str	x15, [x13, #592]
	ldr	x15, [x14, #16]
	str	q1, [x13, #576]
	ldr	q1, [x14]
	str	x15, [x13, #616]
	ldr	x15, [x14, #16]
	str	q1, [x16]
	ldr	q1, [x14]
	add	x16, x13, #648
	str	x15, [x13, #640]
	ldr	x15, [x14, #16]
	str	q1, [x13, #624]
	ldr	q1, [x14]
	str	x15, [x13, #664]
	ldr	x15, [x14, #16]
	str	q1, [x16]
	ldr	q1, [x14]
	add	x16, x13, #696
	str	x15, [x13, #688]
	ldr	x15, [x14, #16]
	str	q1, [x13, #672]
	ldr	q1, [x14]
	str	x15, [x13, #712]
	ldr	x15, [x14, #16]
	str	q1, [x16]
	ldr	q1, [x14]
	add	x16, x13, #744
	str	x15, [x13, #736]
	ldr	x15, [x14, #16]
	str	q1, [x13, #720]
	ldr	q1, [x14]
	str	x15, [x13, #760]
	ldr	x15, [x14, #16]
	str	q1, [x16]
	ldr	q1, [x14]
	add	x16, x13, #792
	str	x15, [x13, #784]
	ldr	x15, [x14, #16]
	str	q1, [x13, #768]
	ldr	q1, [x14]
	str	x15, [x13, #808]
	ldr	x15, [x14, #16]
	str	q1, [x16]
	ldr	q1, [x14]
	add	x16, x13, #840
	str	x15, [x13, #832]
	ldr	x15, [x14, #16]
	str	q1, [x13, #816]
	ldr	q1, [x14]
	str	x15, [x13, #856]
	ldr	x15, [x14, #16]
	str	q1, [x16]
	ldr	q1, [x14]
	add	x16, x13, #888
	str	x15, [x13, #880]
	ldr	x15, [x14, #16]
	str	q1, [x13, #864]
	ldr	q1, [x14]
	str	x15, [x13, #904]
	ldr	x15, [x14, #16]
	str	q1, [x16]
	ldr	q1, [x14]
	add	x16, x13, #936
	str	x15, [x13, #928]
	ldr	x15, [x14, #16]
	str	q1, [x13, #912]
	ldr	q1, [x14]
	str	x15, [x13, #952]
	ldr	x15, [x14, #16]
	str	q1, [x16]
	ldr	q1, [x14]
	add	x16, x13, #984
	str	x15, [x13, #976]
	ldr	x15, [x14, #16]
	str	q1, [x13, #960]
	ldr	q1, [x14]
	str	x15, [x13, #1000]
	ldr	x15, [x14, #16]
	str	q1, [x16]
	ldr	q1, [x14]
	add	x16, x13, #1032
	str	x15, [x13, #1024]
	ldr	x15, [x14, #16]
	str	q1, [x13, #1008]
	ldr	q1, [x14]
	str	x15, [x13, #1048]
	ldr	x15, [x14, #16]
	str	q1, [x16]
	ldr	q1, [x14]
	add	x16, x13, #1080
	str	x15, [x13, #1072]
	ldr	x15, [x14, #16]
	str	q1, [x13, #1056]
	ldr	q1, [x14]
	str	x15, [x13, #1096]
	ldr	x15, [x14, #16]
	str	q1, [x16]
	ldr	q1, [x14]
	add	x16, x13, #1128
	str	x15, [x13, #1120]
	ldr	x15, [x14, #16]
	str	q1, [x13, #1104]
	ldr	q1, [x14]
	str	x15, [x13, #1144]
	ldr	x15, [x14, #16]
	str	q1, [x16]
	ldr	q1, [x14]
	add	x16, x13, #1176
	str	x15, [x13, #1168]
	ldr	x15, [x14, #16]
	str	q1, [x13, #1152]
	ldr	q1, [x14]
	str	x15, [x13, #1192]
	ldr	x15, [x14, #16]
	str	q1, [x16]
	ldr	q1, [x14]
	add	x16, x13, #1224
	str	x15, [x13, #1216]
	ldr	x15, [x14, #16]
	str	q1, [x13, #1200]
	ldr	q1, [x14]
	str	x15, [x13, #1240]
	ldr	x15, [x14, #16]
	str	q1, [x16]
	ldr	q1, [x14]
	add	x16, x13, #1272
	str	x15, [x13, #1264]
	ldr	x15, [x14, #16]
	str	q1, [x13, #1248]
	ldr	q1, [x14]
	str	x15, [x13, #1288]
	ldr	x15, [x14, #16]
	str	q1, [x16]
	ldr	q1, [x14]
	add	x16, x13, #1320
	str	x15, [x13, #1312]
	ldr	x15, [x14, #16]
	str	q1, [x13, #1296]
	ldr	q1, [x14]
	str	x15, [x13, #1336]
	ldr	x15, [x14, #16]
	str	q1, [x16]
	ldr	q1, [x14]
	add	x16, x13, #1368
	str	x15, [x13, #1360]
	ldr	x15, [x14, #16]
	str	q1, [x13, #1344]
	ldr	q1, [x14]
	str	x15, [x13, #1384]
	ldr	x15, [x14, #16]
	str	q1, [x16]
	ldr	q1, [x14]
	add	x16, x13, #1416
	str	x15, [x13, #1408]
	ldr	x15, [x14, #16]
	str	q1, [x13, #1392]
	ldr	q1, [x14]
	str	x15, [x13, #1432]
	ldr	x15, [x14, #16]
	str	q1, [x16]
	ldr	q1, [x14]
	add	x16, x13, #1464
	str	x15, [x13, #1456]
	ldr	x15, [x14, #16]
	str	q1, [x13, #1440]
	ldr	q1, [x14]
	str	x15, [x13, #1480]
	ldr	x15, [x14, #16]
	str	q1, [x16]
	ldr	q1, [x14]
	add	x16, x13, #1512
	str	x15, [x13, #1504]
	ldr	x15, [x14, #16]
	str	q1, [x13, #1488]
	ldr	q1, [x14]
	str	x15, [x13, #1528]
	ldr	x15, [x14, #16]
	str	q1, [x16]
	ldr	q1, [x14]
	add	x16, x13, #1560
	str	x15, [x13, #1552]
	ldr	x15, [x14, #16]
	str	q1, [x13, #1536]
	ldr	q1, [x14]
	str	x15, [x13, #1576]
	ldr	x15, [x14, #16]
	str	q1, [x16]
	ldr	q1, [x14]
	add	x16, x13, #1608
	str	x15, [x13, #1600]
	ldr	x15, [x14, #16]
	str	q1, [x13, #1584]
	ldr	q1, [x14]
	str	x15, [x13, #1624]
	ldr	x15, [x14, #16]
	str	q1, [x16]
	ldr	q1, [x14]
	add	x16, x13, #1656
	str	x15, [x13, #1648]
	ldr	x15, [x14, #16]
	str	q1, [x13, #1632]
	ldr	q1, [x14]
	str	x15, [x13, #1672]
	ldr	x15, [x14, #16]
	str	q1, [x16]
	ldr	q1, [x14]
	add	x16, x13, #1704
	str	x15, [x13, #1696]
	ldr	x15, [x14, #16]
	str	q1, [x13, #1680]
	ldr	q1, [x14]
	str	x15, [x13, #1720]
	ldr	x15, [x14, #16]
	str	q1, [x16]
	ldr	q1, [x14]
	add	x16, x13, #1752
	str	x15, [x13, #1744]
	ldr	x15, [x14, #16]
	str	q1, [x13, #1728]
	ldr	q1, [x14]
	str	x15, [x13, #1768]
	ldr	x15, [x14, #16]
	str	q1, [x16]
	ldr	q1, [x14]
	add	x16, x13, #1800
	str	x15, [x13, #1792]
	ldr	x15, [x14, #16]
	str	q1, [x13, #1776]
	ldr	q1, [x14]
	str	x15, [x13, #1816]
	ldr	x15, [x14, #16]
	str	q1, [x16]
	ldr	q1, [x14]
	add	x16, x13, #1848
	str	x15, [x13, #1840]
	ldr	x15, [x14, #16]
	str	q1, [x13, #1824]
	ldr	q1, [x14]
	str	x15, [x13, #1864]
	ldr	x15, [x14, #16]
	str	q1, [x16]
	ldr	q1, [x14]
	add	x16, x13, #1896
	str	x15, [x13, #1888]
	ldr	x15, [x14, #16]
	str	q1, [x13, #1872]
	ldr	q1, [x14]
	str	x15, [x13, #1912]
	ldr	x15, [x14, #16]
	str	q1, [x16]
	ldr	q1, [x14]
	add	x16, x13, #1944
	str	x15, [x13, #1936]
	ldr	x15, [x14, #16]
	str	q1, [x13, #1920]
	ldr	q1, [x14]
	str	x15, [x13, #1960]
	ldr	x15, [x14, #16]
	str	q1, [x16]
	ldr	q1, [x14]
	add	x16, x13, #1992
	str	x15, [x13, #1984]
	ldr	x15, [x14, #16]
	str	q1, [x13, #1968]
	ldr	q1, [x14]
	str	x15, [x13, #2008]
	ldr	x15, [x14, #16]
	str	q1, [x16]
	ldr	q1, [x14]
	str	x15, [x13, #2032]
	str	q1, [x13, #2016]
.Lunix_path_BB62_7:
	add	x13, x11, #85
	add	x12, x12, #2040
	sub	x14, x10, x13
	cmp	x14, #85
	b.ls	.Lunix_path_BB62_14
.Lunix_path_BB62_8:
	mov	x11, x13
	cbz	x13, .Lunix_path_BB62_6
	mov	w13, #85
	mov	x14, x12
.Lunix_path_BB62_10:
	ldr	q1, [x14]
	ldr	x15, [x14, #16]
	sub	x13, x13, #1
	stur	q1, [x14, #24]
	str	x15, [x14, #40]
	sub	x14, x14, #24
	cbnz	x13, .Lunix_path_BB62_10
	b	.Lunix_path_BB62_7
.Lunix_path_BB62_11:
	cbz	x10, .Lunix_path_BB62_17
	add	x9, x1, x1, lsl #1
	mov	x11, x8
	lsl	x9, x9, #3
.Lunix_path_BB62_13:
	add	x12, x11, x9
	subs	x10, x10, #1
	ldr	x13, [x12, #16]
	ldr	q1, [x12]
	str	x13, [x11, #16]
	str	q1, [x11], #24
	b.ne	.Lunix_path_BB62_13
	b	.Lunix_path_BB62_17
.Lunix_path_BB62_14:
	cmp	x10, x13
	b.eq	.Lunix_path_BB62_17
	mov	w10, #24
	madd	x10, x9, x10, x8
	sub	x9, x9, x11
	sub	x9, x9, #84
.Lunix_path_BB62_16:
	ldur	q1, [x10, #-24]
	ldur	x11, [x10, #-8]
	sub	x12, x10, #24
	subs	x9, x9, #1
	str	q1, [x10]
	str	x11, [x10, #16]
	mov	x10, x12
	b.ne	.Lunix_path_BB62_16
.Lunix_path_BB62_17:
	mov	w9, #24
	adrp	x10, .Lunix_path_CPI62_0
	ldr	q1, [sp]
	madd	x9, x1, x9, x8
	ldr	q2, [x10, :lo12:.Lunix_path_CPI62_0]
	ldr	x10, [sp, #16]
	add	v0.2d, v0.2d, v2.2d
	str	q1, [x9]
	str	x10, [x9, #16]
	str	x8, [x0]
	stur	q0, [x0, #8]
	add	sp, sp, #32
	ret
.Lunix_path_func_end62:
	.size	std_alloc.vec.lodged.Vec.T.Lodged.insert_reserved.23.unix_path.buf.PathBuf., .Lunix_path_func_end62-std_alloc.vec.lodged.Vec.T.Lodged.insert_reserved.23.unix_path.buf.PathBuf.
	.section	.text.upath_commands.push.push_answer,"ax",@progbits
	.p2align	2
	.type	upath_commands.push.push_answer,@function
// upath_commands::push::push_answer
upath_commands.push.push_answer:
	ldrb	w8, [x4, #2]
	tbz	w8, #0, .Lunix_path_BB63_2
	mov	w0, wzr
	ret
.Lunix_path_BB63_2:
	stp	x29, x30, [sp, #-80]!
	stp	x20, x19, [sp, #64]
	ldrb	w8, [x4, #1]
	ldrb	w20, [x4]
	mov	x19, x5
	stp	x26, x25, [sp, #16]
	mov	x29, sp
	stp	x24, x23, [sp, #32]
	stp	x22, x21, [sp, #48]
	tbz	w8, #0, .Lunix_path_BB63_17
	mov	x21, x19
	ldp	x9, x24, [x21, #8]!
	sub	x8, x24, x9
	cmp	x1, x8
	b.hi	.Lunix_path_BB63_50
.Lunix_path_BB63_4:
	ldr	x22, [x19]
	add	x23, x9, x1
	stp	xzr, xzr, [x21]
	add	x8, x22, x9
	sub	x10, x8, x0
	cmp	x10, x1
	b.hs	.Lunix_path_BB63_10
	cmp	x1, #8
	b.lo	.Lunix_path_BB63_7
	add	x8, x9, x22
	sub	x8, x8, x0
	cmp	x8, #32
	b.hs	.Lunix_path_BB63_30
.Lunix_path_BB63_7:
	mov	x8, xzr
.Lunix_path_BB63_8:
	add	x10, x8, x9
	sub	x9, x1, x8
	add	x8, x0, x8
	add	x10, x22, x10
.Lunix_path_BB63_9:
	ldrb	w11, [x8], #1
	subs	x9, x9, #1
	strb	w11, [x10], #1
	b.ne	.Lunix_path_BB63_9
	b	.Lunix_path_BB63_11
.Lunix_path_BB63_10:
	mov	x9, x0
	mov	x0, x8
	mov	x8, x1
	mov	x1, x9
	mov	x25, x2
	mov	x2, x8
	mov	x26, x3
	bl	memmove
	mov	x2, x25
	mov	x3, x26
.Lunix_path_BB63_11:
	cmp	x24, x23
	stp	x22, x23, [x19]
	str	x24, [x19, #16]
	tbz	w20, #0, .Lunix_path_BB63_14
	b.eq	.Lunix_path_BB63_53
.Lunix_path_BB63_13:
	strb	wzr, [x22, x23]
	b	.Lunix_path_BB63_16
.Lunix_path_BB63_14:
	b.eq	.Lunix_path_BB63_55
.Lunix_path_BB63_15:
	mov	w8, #9
	strb	w8, [x22, x23]
.Lunix_path_BB63_16:
	add	x8, x23, #1
	str	x8, [x21]
.Lunix_path_BB63_17:
	mov	x21, x19
	ldp	x8, x22, [x21, #8]!
	sub	x9, x22, x8
	cmp	x3, x9
	b.hi	.Lunix_path_BB63_39
.Lunix_path_BB63_18:
	ldr	x23, [x19]
	add	x24, x8, x3
	stp	xzr, xzr, [x21]
	add	x0, x23, x8
	sub	x9, x0, x2
	cmp	x9, x3
	b.hs	.Lunix_path_BB63_24
	cmp	x3, #8
	b.lo	.Lunix_path_BB63_21
	add	x9, x8, x23
	sub	x9, x9, x2
	cmp	x9, #32
	b.hs	.Lunix_path_BB63_28
.Lunix_path_BB63_21:
	mov	x9, xzr
.Lunix_path_BB63_22:
	add	x10, x9, x8
	sub	x8, x3, x9
	add	x9, x2, x9
	add	x10, x23, x10
.Lunix_path_BB63_23:
	ldrb	w11, [x9], #1
	subs	x8, x8, #1
	strb	w11, [x10], #1
	b.ne	.Lunix_path_BB63_23
	b	.Lunix_path_BB63_25
.Lunix_path_BB63_24:
	mov	x1, x2
	mov	x2, x3
	bl	memmove
.Lunix_path_BB63_25:
	tst	w20, #0x1
	mov	w8, #10
	stp	x23, x24, [x19]
	csel	w20, wzr, w8, ne
	cmp	x22, x24
	str	x22, [x19, #16]
	b.eq	.Lunix_path_BB63_41
.Lunix_path_BB63_26:
	mov	w0, wzr
	add	x8, x24, #1
	strb	w20, [x23, x24]
	str	x8, [x21]
.Lunix_path_BB63_27:
	ldp	x20, x19, [sp, #64]
	ldp	x22, x21, [sp, #48]
	ldp	x24, x23, [sp, #32]
	ldp	x26, x25, [sp, #16]
	ldp	x29, x30, [sp], #80
	ret
.Lunix_path_BB63_28:
	cmp	x3, #32
	b.hs	.Lunix_path_BB63_32
	mov	x9, xzr
	b	.Lunix_path_BB63_36
.Lunix_path_BB63_30:
	cmp	x1, #32
	b.hs	.Lunix_path_BB63_43
	mov	x8, xzr
	b	.Lunix_path_BB63_47
.Lunix_path_BB63_32:
	add	x12, x8, x23
	and	x10, x3, #0x18
	and	x9, x3, #0xffffffffffffffe0
	add	x11, x2, #16
	add	x12, x12, #16
	and	x13, x3, #0xffffffffffffffe0
.Lunix_path_BB63_33:
	ldp	q0, q1, [x11, #-16]
	subs	x13, x13, #32
	add	x11, x11, #32
	stp	q0, q1, [x12, #-16]
	add	x12, x12, #32
	b.ne	.Lunix_path_BB63_33
	cmp	x3, x9
	b.eq	.Lunix_path_BB63_25
	cbz	x10, .Lunix_path_BB63_22
.Lunix_path_BB63_36:
	mov	x11, x9
	and	x9, x3, #0xfffffffffffffff8
	add	x12, x8, x11
	sub	x10, x11, x9
	add	x11, x2, x11
	add	x12, x23, x12
.Lunix_path_BB63_37:
	ldr	d0, [x11], #8
	adds	x10, x10, #8
	str	d0, [x12], #8
	b.ne	.Lunix_path_BB63_37
	cmp	x3, x9
	b.eq	.Lunix_path_BB63_25
	b	.Lunix_path_BB63_22
.Lunix_path_BB63_39:
	mov	x0, x19
	mov	x1, x3
	mov	x23, x2
	mov	x24, x3
	bl	std_alloc.vec.Vec.grow_amortized.f4a78633ca2a48c6.
	cbz	w0, .Lunix_path_BB63_52
	ldp	x8, x22, [x19, #8]
	mov	x3, x24
	mov	x2, x23
	b	.Lunix_path_BB63_18
.Lunix_path_BB63_41:
	mov	x0, x19
	mov	w1, #1
	mov	w22, #1
	bl	std_alloc.vec.Vec.grow_amortized.f4a78633ca2a48c6.
	mov	w8, w0
	mov	w0, w22
	cbz	w8, .Lunix_path_BB63_27
	ldp	x23, x24, [x19]
	b	.Lunix_path_BB63_26
.Lunix_path_BB63_43:
	add	x12, x9, x22
	and	x10, x1, #0x18
	and	x8, x1, #0xffffffffffffffe0
	add	x11, x0, #16
	add	x12, x12, #16
	and	x13, x1, #0xffffffffffffffe0
.Lunix_path_BB63_44:
	ldp	q0, q1, [x11, #-16]
	subs	x13, x13, #32
	add	x11, x11, #32
	stp	q0, q1, [x12, #-16]
	add	x12, x12, #32
	b.ne	.Lunix_path_BB63_44
	cmp	x1, x8
	b.eq	.Lunix_path_BB63_11
	cbz	x10, .Lunix_path_BB63_8
.Lunix_path_BB63_47:
	mov	x11, x8
	and	x8, x1, #0xfffffffffffffff8
	add	x12, x9, x11
	sub	x10, x11, x8
	add	x11, x0, x11
	add	x12, x22, x12
.Lunix_path_BB63_48:
	ldr	d0, [x11], #8
	adds	x10, x10, #8
	str	d0, [x12], #8
	b.ne	.Lunix_path_BB63_48
	cmp	x1, x8
	b.eq	.Lunix_path_BB63_11
	b	.Lunix_path_BB63_8
.Lunix_path_BB63_50:
	mov	x22, x0
	mov	x0, x19
	mov	x23, x2
	mov	x25, x3
	mov	x26, x1
	bl	std_alloc.vec.Vec.grow_amortized.f4a78633ca2a48c6.
	cbz	w0, .Lunix_path_BB63_52
	ldp	x9, x24, [x19, #8]
	mov	x3, x25
	mov	x2, x23
	mov	x1, x26
	mov	x0, x22
	b	.Lunix_path_BB63_4
.Lunix_path_BB63_52:
	mov	w0, #1
	ldp	x20, x19, [sp, #64]
	ldp	x22, x21, [sp, #48]
	ldp	x24, x23, [sp, #32]
	ldp	x26, x25, [sp, #16]
	ldp	x29, x30, [sp], #80
	ret
.Lunix_path_BB63_53:
	mov	x0, x19
	mov	w1, #1
	mov	x24, x2
	mov	x25, x3
	bl	std_alloc.vec.Vec.grow_amortized.f4a78633ca2a48c6.
	mov	w8, w0
	mov	w0, #1
	cbz	w8, .Lunix_path_BB63_27
	ldp	x22, x23, [x19]
	mov	x3, x25
	mov	x2, x24
	b	.Lunix_path_BB63_13
.Lunix_path_BB63_55:
	mov	x0, x19
	mov	w1, #1
	mov	x24, x2
	mov	x25, x3
	mov	w22, #1
	bl	std_alloc.vec.Vec.grow_amortized.f4a78633ca2a48c6.
	mov	w8, w0
	mov	w0, w22
	cbz	w8, .Lunix_path_BB63_27
	ldp	x22, x23, [x19]
	mov	x3, x25
	mov	x2, x24
	b	.Lunix_path_BB63_15
.Lunix_path_func_end63:
	.size	upath_commands.push.push_answer, .Lunix_path_func_end63-upath_commands.push.push_answer
	.section	.rodata.cst16,"aM",@progbits,16
	.p2align	4, 0x0
.Lunix_path_CPI64_0:
	.byte	1
	.byte	2
	.byte	4
	.byte	8
	.byte	16
	.byte	32
	.byte	64
	.byte	128
	.byte	1
	.byte	2
	.byte	4
	.byte	8
	.byte	16
	.byte	32
	.byte	64
	.byte	128
	.section	.text.unix_path.path.Path.parent_len,"ax",@progbits
	.p2align	2
	.type	unix_path.path.Path.parent_len,@function
// unix_path::path::Path::parent_len
unix_path.path.Path.parent_len:
	cbz	x1, .Lunix_path_BB64_9
	stp	x29, x30, [sp, #-32]!
	stp	x20, x19, [sp, #16]
	mov	x20, x1
	mov	x19, x0
	mov	x0, x1
	mov	x29, sp
	b	.Lunix_path_BB64_3
.Lunix_path_BB64_2:
	mov	x0, x1
	cbz	x1, .Lunix_path_BB64_12
.Lunix_path_BB64_3:
	subs	x1, x0, #1
	b.eq	.Lunix_path_BB64_10
	add	x8, x19, x1
	ldrb	w9, [x8]
	cmp	w9, #47
	b.eq	.Lunix_path_BB64_7
	cmp	w9, #46
	b.ne	.Lunix_path_BB64_13
	ldurb	w8, [x8, #-1]
	cmp	w8, #47
	b.ne	.Lunix_path_BB64_13
.Lunix_path_BB64_7:
	sub	x8, x20, x1
	cmp	x8, #8
	b.ne	.Lunix_path_BB64_2
	mov	x0, x19
	bl	unix_path.filler.trimmed_blocks_len
	mov	x1, x0
	b	.Lunix_path_BB64_2
.Lunix_path_BB64_9:
	mov	w0, wzr
	ret
.Lunix_path_BB64_10:
	ldrb	w8, [x19]
	cmp	w8, #46
	b.ne	.Lunix_path_BB64_20
	mov	x1, xzr
.Lunix_path_BB64_12:
	ldp	x20, x19, [sp, #16]
	ldp	x29, x30, [sp], #32
	ret
.Lunix_path_BB64_13:
	add	x8, x19, x0
	ldurb	w9, [x8, #-1]
	cmp	w9, #46
	b.ne	.Lunix_path_BB64_20
	ldurb	w9, [x8, #-2]
	cmp	w9, #46
	b.ne	.Lunix_path_BB64_20
	subs	x20, x0, #2
	b.ne	.Lunix_path_BB64_18
.Lunix_path_BB64_16:
	mov	x1, xzr
.Lunix_path_BB64_17:
	mov	w0, #1
	ldp	x20, x19, [sp, #16]
	ldp	x29, x30, [sp], #32
	ret
.Lunix_path_BB64_18:
	ldurb	w8, [x8, #-3]
	cmp	w8, #47
	b.ne	.Lunix_path_BB64_20
	mov	x9, x20
	b	.Lunix_path_BB64_38
.Lunix_path_BB64_20:
	mov	x8, x0
.Lunix_path_BB64_21:
	cmp	x8, #15
	b.ls	.Lunix_path_BB64_25
	movi	v0.16b, #47
	add	x9, x19, x8
	ldur	q1, [x9, #-16]
	adrp	x9, .Lunix_path_CPI64_0
	cmeq	v0.16b, v1.16b, v0.16b
	ldr	q1, [x9, :lo12:.Lunix_path_CPI64_0]
	sub	x9, x8, #16
	mov	x8, x9
	and	v0.16b, v0.16b, v1.16b
	addp	v0.16b, v0.16b, v0.16b
	addp	v0.16b, v0.16b, v0.16b
	addp	v0.16b, v0.16b, v0.16b
	umov	w10, v0.h[0]
	cbz	w10, .Lunix_path_BB64_21
	umov	w8, v0.h[0]
	and	x8, x8, #0xffff
	clz	x8, x8
	sub	x8, x9, x8
	add	x20, x8, #64
	cmp	x20, x0
	b.ne	.Lunix_path_BB64_29
.Lunix_path_BB64_24:
	mov	x1, xzr
	mov	w0, wzr
	ldp	x20, x19, [sp, #16]
	ldp	x29, x30, [sp], #32
	ret
.Lunix_path_BB64_25:
	sub	x9, x19, #1
.Lunix_path_BB64_26:
	cbz	x8, .Lunix_path_BB64_16
	ldrb	w11, [x9, x8]
	sub	x10, x8, #1
	mov	x8, x10
	cmp	w11, #47
	b.ne	.Lunix_path_BB64_26
	add	x20, x10, #1
	cmp	x20, x0
	b.eq	.Lunix_path_BB64_24
.Lunix_path_BB64_29:
	mov	x1, x20
	b	.Lunix_path_BB64_31
.Lunix_path_BB64_30:
	mov	x1, x8
	cbz	x8, .Lunix_path_BB64_17
.Lunix_path_BB64_31:
	subs	x8, x1, #1
	b.eq	.Lunix_path_BB64_44
	add	x9, x19, x8
	ldrb	w10, [x9]
	cmp	w10, #47
	b.eq	.Lunix_path_BB64_35
	cmp	w10, #46
	b.ne	.Lunix_path_BB64_17
	ldurb	w9, [x9, #-1]
	cmp	w9, #47
	b.ne	.Lunix_path_BB64_17
.Lunix_path_BB64_35:
	sub	x9, x20, x8
	cmp	x9, #8
	b.ne	.Lunix_path_BB64_30
	mov	x0, x19
	mov	x1, x8
	bl	unix_path.filler.trimmed_blocks_len
	mov	x8, x0
	b	.Lunix_path_BB64_30
.Lunix_path_BB64_37:
	mov	x1, xzr
	mov	w0, #1
	mov	x9, x8
	cbz	x8, .Lunix_path_BB64_12
.Lunix_path_BB64_38:
	subs	x8, x9, #1
	b.eq	.Lunix_path_BB64_45
	add	x10, x19, x8
	ldrb	w11, [x10]
	cmp	w11, #47
	b.eq	.Lunix_path_BB64_42
	cmp	w11, #46
	b.ne	.Lunix_path_BB64_46
	ldurb	w10, [x10, #-1]
	cmp	w10, #47
	b.ne	.Lunix_path_BB64_46
.Lunix_path_BB64_42:
	sub	x9, x20, x8
	cmp	x9, #8
	b.ne	.Lunix_path_BB64_37
	mov	x0, x19
	mov	x1, x8
	bl	unix_path.filler.trimmed_blocks_len
	mov	x8, x0
	b	.Lunix_path_BB64_37
.Lunix_path_BB64_44:
	mov	w0, w1
	ldp	x20, x19, [sp, #16]
	ldp	x29, x30, [sp], #32
	ret
.Lunix_path_BB64_45:
	mov	w1, #1
	mov	w0, w1
	ldp	x20, x19, [sp, #16]
	ldp	x29, x30, [sp], #32
	ret
.Lunix_path_BB64_46:
	mov	w0, #1
	mov	x1, x9
	ldp	x20, x19, [sp, #16]
	ldp	x29, x30, [sp], #32
	ret
.Lunix_path_func_end64:
	.size	unix_path.path.Path.parent_len, .Lunix_path_func_end64-unix_path.path.Path.parent_len
	.section	.rodata.cst16,"aM",@progbits,16
	.p2align	4, 0x0
.Lunix_path_CPI65_0:
	.byte	1
	.byte	2
	.byte	4
	.byte	8
	.byte	16
	.byte	32
	.byte	64
	.byte	128
	.byte	1
	.byte	2
	.byte	4
	.byte	8
	.byte	16
	.byte	32
	.byte	64
	.byte	128
	.section	.rodata.cst8,"aM",@progbits,8
	.p2align	3, 0x0
.Lunix_path_CPI65_1:
	.byte	1
	.byte	2
	.byte	4
	.byte	8
	.byte	16
	.byte	32
	.byte	64
	.byte	128
	.section	.text.upath_commands.task.answer_of,"ax",@progbits
	.p2align	2
	.type	upath_commands.task.answer_of,@function
// upath_commands::task::answer_of
upath_commands.task.answer_of:
	stp	x29, x30, [sp, #-96]!
	stp	x28, x27, [sp, #16]
	mov	x29, sp
	stp	x26, x25, [sp, #32]
	stp	x24, x23, [sp, #48]
	stp	x22, x21, [sp, #64]
	stp	x20, x19, [sp, #80]
	sub	sp, sp, #416
	movi	v0.2d, #0000000000000000
	ldp	x5, x19, [x1, #40]
	ldrb	w8, [x1]
	adrp	x9, .Lunix_path_JTI65_0
	add	x9, x9, :lo12:.Lunix_path_JTI65_0
	stp	xzr, xzr, [sp, #80]
	ldur	x27, [x1, #6]
	mov	x23, x3
	str	xzr, [sp, #72]
	mov	x20, x2
	add	x13, sp, #208
	stp	q0, q0, [sp, #96]
	adr	x10, .Lunix_path_BB65_1
	ldrh	w11, [x9, x8, lsl #1]
	add	x10, x10, x11, lsl #2
	mov	w24, #1
	mov	x2, x0
	mov	x28, xzr
	mov	w26, wzr
	mov	x6, x19
	adrp	x3, .Lunix_path_CPI65_0
	mov	w22, wzr
	mov	x25, x20
	mov	x21, x23
	br	x10
.Lunix_path_BB65_1:
	mov	w26, wzr
	mov	w24, wzr
	mov	w22, wzr
	mov	x25, xzr
	mov	x21, xzr
	mov	x28, xzr
	b	.Lunix_path_BB65_296
.Lunix_path_BB65_2:
	add	x0, sp, #72
	mov	x1, x20
	mov	x19, x2
	mov	x2, x23
	bl	unix_path.path.Path.file_name
	ldrb	w8, [sp, #72]
	ldp	x10, x9, [sp, #80]
	mov	x2, x19
	mov	w26, wzr
	mov	w22, wzr
	cmp	w8, #1
	mov	x28, xzr
	cset	w24, eq
	csel	x25, x10, xzr, eq
	csel	x21, x9, xzr, eq
	b	.Lunix_path_BB65_296
.Lunix_path_BB65_3:
	cmp	x19, x23
	stp	q0, q0, [x13]
	stp	q0, q0, [x13, #32]
	stp	q0, q0, [x13, #64]
	stp	q0, q0, [x13, #96]
	stp	q0, q0, [sp, #176]
	b.ne	.Lunix_path_BB65_62
	cmp	x23, #4
	b.hs	.Lunix_path_BB65_124
	cbz	x23, .Lunix_path_BB65_538
	ldrb	w8, [x5]
	ldrb	w9, [x20]
	cmp	w8, w9
	b.ne	.Lunix_path_BB65_307
	cmp	x23, #1
	b.eq	.Lunix_path_BB65_538
	ldrb	w8, [x5, #1]
	ldrb	w9, [x20, #1]
	cmp	w8, w9
	b.ne	.Lunix_path_BB65_537
	cmp	x23, #2
	b.eq	.Lunix_path_BB65_538
	ldrb	w8, [x5, #2]
	ldrb	w9, [x20, #2]
	cmp	w8, w9
	b.eq	.Lunix_path_BB65_538
	mov	w8, #2
	cmp	x8, x23
	b.lo	.Lunix_path_BB65_308
	b	.Lunix_path_BB65_538
.Lunix_path_BB65_12:
	ldrb	w8, [x1, #5]
	stp	q0, q0, [x13]
	stp	q0, q0, [x13, #32]
	cmp	w8, #1
	str	q0, [x13, #64]
	stp	q0, q0, [sp, #128]
	str	q0, [sp, #160]
	b.gt	.Lunix_path_BB65_66
	cbnz	w8, .Lunix_path_BB65_127
	mov	x19, x2
	add	x0, sp, #208
	mov	x1, x5
	mov	x2, x6
	mov	x3, x20
	mov	x4, x23
	bl	unix_path.path.Path.join
	ldrb	w8, [sp, #208]
	cbnz	w8, .Lunix_path_BB65_767
	ldp	x25, x21, [sp, #216]
	mov	w26, wzr
	ldr	x28, [sp, #232]
	b	.Lunix_path_BB65_769
.Lunix_path_BB65_16:
	mov	x19, x2
	cmp	x23, #1
	b.ne	.Lunix_path_BB65_72
	ldrb	w9, [x20]
	cmp	w9, #46
	b.ne	.Lunix_path_BB65_74
	b	.Lunix_path_BB65_75
.Lunix_path_BB65_18:
	mov	x22, x2
	ldrb	w19, [x1, #1]
	sub	x0, x29, #176
	mov	x1, x20
	mov	x2, x23
	mov	x24, x3
	stur	xzr, [x29, #-144]
	stp	q0, q0, [x13, #32]
	bl	upath_commands.keys.unkeyed_path
	ldurb	w8, [x29, #-176]
	cbz	w8, .Lunix_path_BB65_90
	mov	w24, wzr
	mov	x25, xzr
	mov	x21, xzr
	mov	x28, xzr
	mov	w26, #1
	mov	x2, x22
	mov	w22, wzr
	b	.Lunix_path_BB65_296
.Lunix_path_BB65_20:
	mov	x19, x2
	add	x0, sp, #96
	mov	x1, x20
	mov	x2, x23
	bl	path_within.resolved.resolved
	ldrb	w8, [sp, #96]
	cbz	w8, .Lunix_path_BB65_96
	movi	v0.2d, #0000000000000000
	mov	w8, #1
	str	xzr, [x19, #40]
	strb	w8, [x19]
	stur	q0, [x19, #8]
	stur	q0, [x19, #24]
	b	.Lunix_path_BB65_297
.Lunix_path_BB65_22:
	mov	x0, x20
	mov	x1, x23
	mov	x21, x3
	mov	x19, x2
	bl	path_within.check.check_escape
	ands	w8, w0, #0xff
	b.eq	.Lunix_path_BB65_99
	cmp	x23, #15
	b.hi	.Lunix_path_BB65_105
	mov	x2, x19
	mov	x9, xzr
	cbz	x23, .Lunix_path_BB65_291
.Lunix_path_BB65_25:
	ldrb	w10, [x20, x9]
	cbz	w10, .Lunix_path_BB65_291
	add	x9, x9, #1
	cmp	x23, x9
	b.ne	.Lunix_path_BB65_25
	tbnz	w27, #0, .Lunix_path_BB65_294
	b	.Lunix_path_BB65_1
.Lunix_path_BB65_28:
	cbz	x23, .Lunix_path_BB65_103
	mov	x21, x23
	b	.Lunix_path_BB65_31
.Lunix_path_BB65_30:
	mov	x21, x22
	cbz	x22, .Lunix_path_BB65_163
.Lunix_path_BB65_31:
	subs	x22, x21, #1
	b.eq	.Lunix_path_BB65_154
	add	x8, x20, x22
	ldrb	w9, [x8]
	cmp	w9, #47
	b.eq	.Lunix_path_BB65_35
	cmp	w9, #46
	b.ne	.Lunix_path_BB65_153
	ldurb	w8, [x8, #-1]
	cmp	w8, #47
	b.ne	.Lunix_path_BB65_153
.Lunix_path_BB65_35:
	sub	x8, x23, x22
	cmp	x8, #8
	b.ne	.Lunix_path_BB65_30
	mov	x0, x20
	mov	x1, x22
	mov	x19, x2
	mov	x21, x3
	bl	unix_path.filler.trimmed_blocks_len
	mov	x3, x21
	mov	x2, x19
	mov	x22, x0
	b	.Lunix_path_BB65_30
.Lunix_path_BB65_37:
	mov	x19, x2
	sub	x0, x29, #176
	mov	x1, x20
	mov	x2, x23
	mov	x22, x3
	stp	xzr, xzr, [x29, #-176]
	stur	xzr, [x29, #-160]
	bl	unix_path.path.Path.file_name
	ldurb	w8, [x29, #-176]
	cmp	w8, #1
	b.ne	.Lunix_path_BB65_100
	ldp	x25, x21, [x29, #-168]
	mov	x2, x19
	mov	x14, x22
	mov	x8, x21
.Lunix_path_BB65_39:
	cmp	x8, #15
	b.ls	.Lunix_path_BB65_116
	movi	v0.16b, #46
	movi	v1.16b, #47
	add	x9, x25, x8
	ldur	q2, [x9, #-16]
	mov	w12, #64
	cmeq	v0.16b, v2.16b, v0.16b
	cmeq	v1.16b, v2.16b, v1.16b
	ldr	q2, [x14, :lo12:.Lunix_path_CPI65_0]
	and	v0.16b, v0.16b, v2.16b
	and	v1.16b, v1.16b, v2.16b
	addp	v0.16b, v0.16b, v0.16b
	addp	v1.16b, v1.16b, v1.16b
	addp	v0.16b, v0.16b, v0.16b
	addp	v1.16b, v1.16b, v1.16b
	addp	v0.16b, v0.16b, v0.16b
	addp	v1.16b, v1.16b, v1.16b
	umov	w9, v0.h[0]
	umov	w10, v1.h[0]
	clz	x9, x9
	clz	x11, x10
	sub	x10, x8, #16
	sub	x13, x12, x9
	sub	x12, x12, x11
	mov	x8, x10
	cmp	x13, x12
	csel	x12, x13, x12, hi
	cbz	x12, .Lunix_path_BB65_39
	mov	w8, #64
	sub	x11, x8, x11
	sub	x8, x8, x9
	cmp	x11, x8
	csel	x8, x11, x8, hi
	add	x8, x8, x10
	sub	x9, x8, #1
	b	.Lunix_path_BB65_120
.Lunix_path_BB65_42:
	mov	x19, x2
	sub	x0, x29, #176
	mov	x1, x5
	mov	x2, x6
	mov	x3, x20
	mov	x4, x23
	stp	xzr, xzr, [x29, #-176]
	stur	xzr, [x29, #-160]
	bl	upath_commands.bases.rest_after
	ldurb	w8, [x29, #-176]
	cmp	w8, #1
	b.ne	.Lunix_path_BB65_78
	ldp	x9, x8, [x29, #-168]
	adrp	x10, .Lunix_path_static.53
	add	x10, x10, :lo12:.Lunix_path_static.53
	mov	w24, #1
	cmp	x8, #0
	csel	x25, x10, x9, eq
	cmp	x8, #1
	csinc	x21, x8, xzr, hi
	b	.Lunix_path_BB65_79
.Lunix_path_BB65_44:
	mov	x25, x2
	stp	xzr, xzr, [sp, #216]
	str	xzr, [sp, #208]
	stp	q0, q0, [x13, #32]
	stp	q0, q0, [sp, #128]
	tbnz	x27, #40, .Lunix_path_BB65_80
	sub	x0, x29, #176
	mov	x1, x5
	mov	x2, x6
	mov	x22, x3
	bl	path_within.resolved.resolved
	ldurb	w8, [x29, #-176]
	cbz	w8, .Lunix_path_BB65_174
.Lunix_path_BB65_46:
	mov	w24, wzr
	mov	w22, wzr
	mov	x20, xzr
	mov	x23, xzr
	mov	x28, xzr
	mov	w26, #1
.Lunix_path_BB65_47:
	mov	x2, x25
	b	.Lunix_path_BB65_295
.Lunix_path_BB65_48:
	cbz	x23, .Lunix_path_BB65_104
	adds	x24, x23, #2
	b.eq	.Lunix_path_BB65_146
	tbnz	x24, #63, .Lunix_path_BB65_1036
	mov	x0, x24
	mov	w1, #1
	mov	x21, x3
	mov	x19, x2
	mov	w26, #1
	bl	rattle_alloc
	tbz	w0, #0, .Lunix_path_BB65_101
	mov	x22, x1
	mov	x0, x1
	mov	w1, wzr
	mov	x2, x24
	bl	memset
	mov	x2, x19
	mov	x3, x21
	b	.Lunix_path_BB65_147
.Lunix_path_BB65_53:
	cbz	x23, .Lunix_path_BB65_1
	mov	x8, x23
	b	.Lunix_path_BB65_56
.Lunix_path_BB65_55:
	mov	w26, wzr
	mov	w24, wzr
	mov	w22, wzr
	mov	x25, xzr
	mov	x21, xzr
	mov	x28, xzr
	mov	x8, x1
	cbz	x1, .Lunix_path_BB65_296
.Lunix_path_BB65_56:
	subs	x1, x8, #1
	b.eq	.Lunix_path_BB65_152
	add	x9, x20, x1
	ldrb	w10, [x9]
	cmp	w10, #47
	b.eq	.Lunix_path_BB65_60
	cmp	w10, #46
	b.ne	.Lunix_path_BB65_277
	ldurb	w9, [x9, #-1]
	cmp	w9, #47
	b.ne	.Lunix_path_BB65_274
.Lunix_path_BB65_60:
	sub	x8, x23, x1
	cmp	x8, #8
	b.ne	.Lunix_path_BB65_55
	mov	x0, x20
	mov	x19, x2
	mov	x21, x3
	bl	unix_path.filler.trimmed_blocks_len
	mov	x3, x21
	mov	x2, x19
	mov	x1, x0
	b	.Lunix_path_BB65_55
.Lunix_path_BB65_62:
	stp	q0, q0, [x13, #128]
	cbz	x6, .Lunix_path_BB65_169
	ldrb	w9, [x5]
	cmp	w9, #47
	cset	w8, eq
	cbnz	x23, .Lunix_path_BB65_310
	cmp	w9, #47
	b.eq	.Lunix_path_BB65_1
	mov	x25, x3
	str	x2, [sp, #48]
	mov	w22, wzr
	b	.Lunix_path_BB65_313
.Lunix_path_BB65_66:
	cmp	w8, #2
	b.ne	.Lunix_path_BB65_134
	cmp	x23, #15
	b.hi	.Lunix_path_BB65_264
	cbz	x23, .Lunix_path_BB65_367
	mov	x8, xzr
.Lunix_path_BB65_70:
	ldrb	w9, [x20, x8]
	cbz	w9, .Lunix_path_BB65_362
	add	x8, x8, #1
	cmp	x23, x8
	b.ne	.Lunix_path_BB65_70
	b	.Lunix_path_BB65_364
.Lunix_path_BB65_72:
	cbz	x23, .Lunix_path_BB65_75
	add	x8, x20, x23
	ldurb	w9, [x8, #-1]
.Lunix_path_BB65_74:
	cmp	w9, #47
	b.ne	.Lunix_path_BB65_110
.Lunix_path_BB65_75:
	adrp	x2, .Lunix_path_static.53
	add	x2, x2, :lo12:.Lunix_path_static.53
	mov	x0, x20
	mov	x1, x23
	mov	w3, #1
	bl	unix_path.compare.compare
	and	w8, w0, #0xff
	cmp	w8, #1
	b.eq	.Lunix_path_BB65_100
.Lunix_path_BB65_76:
	mov	x0, x20
	mov	x1, x23
	bl	unix_path.path.Path.parent_len
	and	w8, w0, #0xff
	cmp	w8, #1
	b.ne	.Lunix_path_BB65_100
	adrp	x8, .Lunix_path_static.53
	add	x8, x8, :lo12:.Lunix_path_static.53
	cmp	x1, #0
	csel	x25, x8, x20, eq
	cmp	x1, #1
	mov	w26, wzr
	mov	w22, wzr
	mov	x28, xzr
	csinc	x21, x1, xzr, hi
	mov	w24, #1
	mov	x2, x19
	b	.Lunix_path_BB65_296
.Lunix_path_BB65_78:
	mov	w24, wzr
	mov	x25, xzr
	mov	x21, xzr
.Lunix_path_BB65_79:
	mov	w26, wzr
	mov	w22, wzr
	b	.Lunix_path_BB65_102
.Lunix_path_BB65_80:
	add	x0, sp, #208
	mov	x1, x5
	mov	x2, x6
	mov	x3, x20
	mov	x4, x23
	bl	upath_commands.bases.rest_after
	ldrb	w8, [sp, #208]
	cbz	w8, .Lunix_path_BB65_177
	tbnz	w27, #0, .Lunix_path_BB65_178
	lsr	x8, x27, #32
	tbz	w8, #0, .Lunix_path_BB65_178
	ldp	x8, x19, [sp, #216]
	adrp	x9, .Lunix_path_static.53
	add	x9, x9, :lo12:.Lunix_path_static.53
	cmp	x19, #0
	csel	x22, x9, x8, eq
	cmp	x19, #1
	csinc	x23, x19, xzr, hi
	tbnz	x23, #63, .Lunix_path_BB65_46
	mov	x0, x23
	mov	w1, #1
	mov	w26, #1
	bl	rattle_alloc
	tbz	w0, #0, .Lunix_path_BB65_350
	sub	x8, x1, x22
	mov	x20, x1
	cmp	x8, x23
	b.hs	.Lunix_path_BB65_527
	cmp	x19, #8
	mov	x8, xzr
	b.lo	.Lunix_path_BB65_638
	sub	x9, x20, x22
	mov	x2, x25
	cmp	x9, #32
	b.lo	.Lunix_path_BB65_647
	cmp	x19, #32
	b.hs	.Lunix_path_BB65_639
	mov	x8, xzr
	b	.Lunix_path_BB65_643
.Lunix_path_BB65_90:
	ldurb	w8, [x29, #-168]
	cmp	w8, #1
	b.ne	.Lunix_path_BB65_172
	ldp	x25, x21, [x29, #-160]
	mov	x2, x22
	ldur	x28, [x29, #-144]
	cmp	x21, #15
	tbz	w19, #0, .Lunix_path_BB65_302
	b.hi	.Lunix_path_BB65_351
	mov	x8, xzr
	cbz	x21, .Lunix_path_BB65_552
.Lunix_path_BB65_94:
	ldrb	w9, [x25, x8]
	cbz	w9, .Lunix_path_BB65_552
	add	x8, x8, #1
	mov	w24, #1
	cmp	x21, x8
	b.ne	.Lunix_path_BB65_94
	b	.Lunix_path_BB65_306
.Lunix_path_BB65_96:
	ldp	x25, x21, [sp, #104]
	mov	x2, x19
	ldr	x28, [sp, #120]
	cbnz	x21, .Lunix_path_BB65_167
	cbz	x28, .Lunix_path_BB65_1041
	mov	x0, x25
	b	.Lunix_path_BB65_1040
.Lunix_path_BB65_99:
	tbz	w27, #0, .Lunix_path_BB65_173
.Lunix_path_BB65_100:
	mov	w26, wzr
.Lunix_path_BB65_101:
	mov	w24, wzr
	mov	w22, wzr
	mov	x25, xzr
	mov	x21, xzr
.Lunix_path_BB65_102:
	mov	x28, xzr
	mov	x2, x19
	b	.Lunix_path_BB65_296
.Lunix_path_BB65_103:
	mov	x19, x2
	mov	x21, xzr
	b	.Lunix_path_BB65_164
.Lunix_path_BB65_104:
	mov	w26, wzr
	mov	x21, xzr
	mov	x28, xzr
	sub	x25, x29, #17
	b	.Lunix_path_BB65_168
.Lunix_path_BB65_105:
	subs	x9, x23, #16
	mov	x2, x19
	mov	x12, x21
	b.eq	.Lunix_path_BB65_109
	mov	x10, xzr
.Lunix_path_BB65_107:
	ldr	q0, [x20, x10]
	ldr	q1, [x12, :lo12:.Lunix_path_CPI65_0]
	cmeq	v0.16b, v0.16b, #0
	and	v0.16b, v0.16b, v1.16b
	addp	v0.16b, v0.16b, v0.16b
	addp	v0.16b, v0.16b, v0.16b
	addp	v0.16b, v0.16b, v0.16b
	umov	w11, v0.h[0]
	orr	w11, w11, #0x10000
	rbit	w11, w11
	clz	w11, w11
	cmp	w11, #15
	b.ls	.Lunix_path_BB65_290
	add	x10, x10, #16
	cmp	x10, x9
	b.lo	.Lunix_path_BB65_107
.Lunix_path_BB65_109:
	ldr	q0, [x20, x9]
	ldr	q1, [x12, :lo12:.Lunix_path_CPI65_0]
	cmeq	v0.16b, v0.16b, #0
	and	v0.16b, v0.16b, v1.16b
	addp	v0.16b, v0.16b, v0.16b
	addp	v0.16b, v0.16b, v0.16b
	addp	v0.16b, v0.16b, v0.16b
	umov	w10, v0.h[0]
	orr	w10, w10, #0x10000
	rbit	w10, w10
	clz	w10, w10
	add	x9, x9, x10
	b	.Lunix_path_BB65_291
.Lunix_path_BB65_110:
	cmp	x23, #1
	add	x8, x20, x23
	b.eq	.Lunix_path_BB65_113
	cmp	w9, #46
	b.ne	.Lunix_path_BB65_113
	ldurb	w9, [x8, #-2]
	cmp	w9, #47
	b.eq	.Lunix_path_BB65_75
.Lunix_path_BB65_113:
	ldurb	w9, [x8, #-1]
	cmp	w9, #46
	b.ne	.Lunix_path_BB65_76
	cmp	x23, #1
	b.eq	.Lunix_path_BB65_75
	ldurb	w8, [x8, #-2]
	cmp	w8, #47
	b.eq	.Lunix_path_BB65_75
	b	.Lunix_path_BB65_76
.Lunix_path_BB65_116:
	sub	x10, x25, #1
.Lunix_path_BB65_117:
	cbz	x8, .Lunix_path_BB65_123
	ldrb	w9, [x10, x8]
	and	w11, w9, #0xfe
	sub	x9, x8, #1
	cmp	w11, #46
	mov	x8, x9
	b.ne	.Lunix_path_BB65_117
	add	x8, x9, #1
.Lunix_path_BB65_120:
	cbz	x9, .Lunix_path_BB65_123
	ldrb	w10, [x25, x9]
	cmp	w10, #47
	b.eq	.Lunix_path_BB65_123
	add	x8, x25, x8
	ldurb	w8, [x8, #-2]
	cmp	w8, #47
	csel	x21, x21, x9, eq
.Lunix_path_BB65_123:
	mov	w26, wzr
	mov	w22, wzr
	mov	x28, xzr
	mov	w24, #1
	b	.Lunix_path_BB65_296
.Lunix_path_BB65_124:
	ldr	w8, [x5]
	ldr	w9, [x20]
	cmp	w8, w9
	b.ne	.Lunix_path_BB65_308
	mov	x0, x5
	mov	x1, x23
	mov	x21, x2
	mov	x2, x20
	mov	x22, x3
	mov	x24, x5
	mov	x25, x6
	bl	core.cmp.slices.groups_equal.i8.31.core.cmp.numbers.U8PartialEq.
	add	x8, sp, #208
	mov	x2, x21
	tbnz	w0, #0, .Lunix_path_BB65_538
	movi	v0.2d, #0000000000000000
	mov	x6, x25
	mov	x5, x24
	mov	x3, x22
	stp	q0, q0, [x8, #128]
	b	.Lunix_path_BB65_309
.Lunix_path_BB65_127:
	cbz	x23, .Lunix_path_BB65_298
	ldrb	w8, [x20]
	cmp	w8, #47
	b.eq	.Lunix_path_BB65_1
	mov	x0, x20
	mov	x1, x23
	mov	x24, x6
	mov	x22, x5
	mov	x21, x3
	mov	x19, x2
	bl	path_within.check.check_escape
	ands	w8, w0, #0xff
	b.eq	.Lunix_path_BB65_100
	cmp	x23, #15
	mov	x2, x19
	b.hi	.Lunix_path_BB65_522
	mov	x9, xzr
	add	x13, sp, #208
	mov	x5, x22
	mov	x6, x24
.Lunix_path_BB65_132:
	ldrb	w10, [x20, x9]
	cbz	w10, .Lunix_path_BB65_299
	add	x9, x9, #1
	cmp	x23, x9
	b.ne	.Lunix_path_BB65_132
	b	.Lunix_path_BB65_300
.Lunix_path_BB65_134:
	stp	q0, q0, [x13, #128]
	cbz	x23, .Lunix_path_BB65_301
	ldrb	w8, [x20]
	cmp	w8, #47
	b.eq	.Lunix_path_BB65_1
	cmp	w8, #46
	b.ne	.Lunix_path_BB65_142
	cmp	x23, #1
	b.eq	.Lunix_path_BB65_748
	ldrb	w9, [x20, #1]
	cmp	w9, #47
	b.eq	.Lunix_path_BB65_748
	cmp	w9, #46
	b.ne	.Lunix_path_BB65_142
	cmp	x23, #2
	b.eq	.Lunix_path_BB65_763
	ldrb	w9, [x20, #2]
	cmp	w9, #47
	b.eq	.Lunix_path_BB65_763
.Lunix_path_BB65_142:
	add	x11, x20, x23
	ldurb	w9, [x11, #-1]
	and	w9, w9, #0xfe
	cmp	w9, #46
	b.eq	.Lunix_path_BB65_745
	subs	x9, x23, #17
	b.hs	.Lunix_path_BB65_543
.Lunix_path_BB65_144:
	cmp	x23, #9
	b.hs	.Lunix_path_BB65_571
	mov	x9, xzr
	b	.Lunix_path_BB65_739
.Lunix_path_BB65_146:
	sub	x22, x29, #17
.Lunix_path_BB65_147:
	ldrb	w8, [x20]
	cmp	w8, #47
	b.eq	.Lunix_path_BB65_151
	cmp	w8, #46
	b.ne	.Lunix_path_BB65_180
	cmp	x23, #1
	b.eq	.Lunix_path_BB65_151
	ldrb	w9, [x20, #1]
	cmp	w9, #47
	b.ne	.Lunix_path_BB65_180
.Lunix_path_BB65_151:
	cmp	w8, #47
	mov	w8, #512
	mov	w9, #256
	mov	x27, x2
	csel	w8, w9, w8, eq
	mov	w19, #2
	strh	w8, [x22]
	b	.Lunix_path_BB65_181
.Lunix_path_BB65_152:
	ldrb	w9, [x20]
	and	w9, w9, #0xfe
	cmp	w9, #46
	b.ne	.Lunix_path_BB65_277
	b	.Lunix_path_BB65_1
.Lunix_path_BB65_153:
	subs	x8, x21, #18
	b.hs	.Lunix_path_BB65_269
.Lunix_path_BB65_154:
	mov	x24, xzr
.Lunix_path_BB65_155:
	sub	x8, x21, #2
	add	x9, x20, #1
	b	.Lunix_path_BB65_159
.Lunix_path_BB65_156:
	add	x10, x9, x24
	ldrb	w10, [x10, #1]
.Lunix_path_BB65_157:
	cmp	w10, #47
	b.eq	.Lunix_path_BB65_499
.Lunix_path_BB65_158:
	add	x24, x24, #1
	cmp	x21, x24
	b.eq	.Lunix_path_BB65_510
.Lunix_path_BB65_159:
	add	x10, x9, x24
	ldurb	w10, [x10, #-1]
	cmp	w10, #47
	b.ne	.Lunix_path_BB65_158
	cmp	x22, x24
	b.eq	.Lunix_path_BB65_499
	ldrb	w10, [x9, x24]
	cmp	w10, #46
	b.ne	.Lunix_path_BB65_157
	cmp	x8, x24
	b.ne	.Lunix_path_BB65_156
	b	.Lunix_path_BB65_499
.Lunix_path_BB65_163:
	mov	x19, x2
.Lunix_path_BB65_164:
	sub	x25, x29, #17
.Lunix_path_BB65_165:
	mov	x0, x25
	mov	x1, x20
	mov	x2, x21
	bl	memmove
	mov	x28, x21
.Lunix_path_BB65_166:
	mov	x2, x19
.Lunix_path_BB65_167:
	mov	w26, wzr
.Lunix_path_BB65_168:
	mov	w24, #1
	mov	w22, #1
	b	.Lunix_path_BB65_296
.Lunix_path_BB65_169:
	cbz	x23, .Lunix_path_BB65_312
	ldrb	w8, [x20]
	cmp	w8, #47
	b.eq	.Lunix_path_BB65_1
	mov	x25, x3
	mov	w21, wzr
	mov	w22, #1
	str	x2, [sp, #48]
	b	.Lunix_path_BB65_314
.Lunix_path_BB65_172:
	mov	w26, wzr
	mov	w24, wzr
	mov	x25, xzr
	mov	x21, xzr
	mov	x28, xzr
	mov	x2, x22
	mov	w22, wzr
	b	.Lunix_path_BB65_296
.Lunix_path_BB65_173:
	mov	w9, #1
	mov	x2, x19
	b	.Lunix_path_BB65_292
.Lunix_path_BB65_174:
	ldp	x21, x24, [x29, #-168]
	add	x0, sp, #128
	ldur	x19, [x29, #-152]
	mov	x1, x20
	mov	x2, x23
	bl	path_within.resolved.resolved
	ldrb	w8, [sp, #128]
	cbz	w8, .Lunix_path_BB65_332
	cbz	x19, .Lunix_path_BB65_46
	mov	x0, x21
	bl	rattle_dealloc
	b	.Lunix_path_BB65_46
.Lunix_path_BB65_177:
	mov	x2, x25
	tbz	w27, #0, .Lunix_path_BB65_179
	b	.Lunix_path_BB65_294
.Lunix_path_BB65_178:
	mov	x2, x25
	tbz	w27, #0, .Lunix_path_BB65_294
.Lunix_path_BB65_179:
	mov	w26, wzr
	mov	w24, wzr
	mov	w22, wzr
	mov	x20, xzr
	mov	x23, xzr
	mov	x28, xzr
	b	.Lunix_path_BB65_295
.Lunix_path_BB65_180:
	mov	x27, x2
	mov	x19, xzr
.Lunix_path_BB65_181:
	mov	x2, xzr
	b	.Lunix_path_BB65_183
.Lunix_path_BB65_182:
	mov	w8, #1
	add	x2, x8, x2
	cmp	x2, #4
	b.hs	.Lunix_path_BB65_189
.Lunix_path_BB65_183:
	cmp	x2, x23
	b.hs	.Lunix_path_BB65_190
	ldrb	w8, [x20, x2]
	cmp	w8, #47
	b.eq	.Lunix_path_BB65_182
	cmp	w8, #46
	b.ne	.Lunix_path_BB65_190
	add	x8, x2, #1
	cmp	x8, x23
	b.eq	.Lunix_path_BB65_182
	ldrb	w8, [x20, x8]
	cmp	w8, #47
	b.ne	.Lunix_path_BB65_190
	mov	w8, #2
	add	x2, x8, x2
	cmp	x2, #4
	b.lo	.Lunix_path_BB65_183
.Lunix_path_BB65_189:
	mov	x0, x20
	mov	x1, x23
	mov	x21, x3
	bl	unix_path.filler.filler_end_from
	mov	x3, x21
	mov	x2, x0
.Lunix_path_BB65_190:
	subs	x8, x23, x2
	b.eq	.Lunix_path_BB65_250
	add	x9, x20, x2
	b	.Lunix_path_BB65_194
.Lunix_path_BB65_192:
	mov	x0, x20
	mov	x1, x21
	mov	x23, x3
	bl	unix_path.filler.filler_end_from
	mov	x3, x23
	mov	x2, x0
.Lunix_path_BB65_193:
	subs	x8, x21, x2
	add	x9, x20, x2
	b.eq	.Lunix_path_BB65_250
.Lunix_path_BB65_194:
	ldrb	w10, [x9]
	cmp	x8, #2
	b.lo	.Lunix_path_BB65_200
	cmp	w10, #46
	b.ne	.Lunix_path_BB65_200
	ldrb	w11, [x9, #1]
	cmp	w11, #46
	b.ne	.Lunix_path_BB65_200
	cmp	x8, #2
	b.eq	.Lunix_path_BB65_199
	ldrb	w11, [x9, #2]
	cmp	w11, #47
	b.ne	.Lunix_path_BB65_200
.Lunix_path_BB65_199:
	mov	w11, #2
	b	.Lunix_path_BB65_227
.Lunix_path_BB65_200:
	cmp	x8, #18
	b.hi	.Lunix_path_BB65_203
	cmp	x8, #9
	b.hs	.Lunix_path_BB65_211
	mov	x11, xzr
	cmp	xzr, x8
	b.lo	.Lunix_path_BB65_215
	b	.Lunix_path_BB65_227
.Lunix_path_BB65_203:
	mov	x12, xzr
	subs	x11, x8, #19
	b.ne	.Lunix_path_BB65_207
.Lunix_path_BB65_204:
	sub	x13, x8, #17
	movi	v0.16b, #208
	cmp	x13, x12
	csel	x12, x13, x12, lo
	add	x13, x9, x12
	ldur	q1, [x13, #1]
	ldr	q2, [x13]
	and	v1.16b, v1.16b, v0.16b
	movi	v0.16b, #47
	orr	v1.16b, v1.16b, v2.16b
	cmeq	v2.16b, v1.16b, v0.16b
	ldr	q1, [x3, :lo12:.Lunix_path_CPI65_0]
	and	v2.16b, v2.16b, v1.16b
	addp	v2.16b, v2.16b, v2.16b
	addp	v2.16b, v2.16b, v2.16b
	addp	v2.16b, v2.16b, v2.16b
	umov	w13, v2.h[0]
	cbz	w13, .Lunix_path_BB65_226
	movi	v2.16b, #46
	add	x12, x9, x11
	ldur	q3, [x12, #2]
	ldur	q4, [x12, #3]
	cmeq	v4.16b, v4.16b, v0.16b
	cmeq	v5.16b, v3.16b, v2.16b
	cmeq	v3.16b, v3.16b, v0.16b
	and	v4.16b, v5.16b, v4.16b
	ldur	q5, [x12, #1]
	cmeq	v2.16b, v5.16b, v2.16b
	orr	v3.16b, v3.16b, v4.16b
	ldr	q4, [x12]
	and	v2.16b, v2.16b, v3.16b
	cmeq	v3.16b, v4.16b, v0.16b
	cmeq	v0.16b, v5.16b, v0.16b
	orr	v0.16b, v0.16b, v2.16b
	and	v1.16b, v3.16b, v1.16b
	and	v0.16b, v1.16b, v0.16b
	addp	v0.16b, v0.16b, v0.16b
	addp	v0.16b, v0.16b, v0.16b
	addp	v0.16b, v0.16b, v0.16b
	umov	w12, v0.h[0]
	orr	w12, w12, #0x10000
	rbit	w12, w12
	clz	w12, w12
	add	x11, x11, x12
	cmp	x11, x8
	b.lo	.Lunix_path_BB65_215
	b	.Lunix_path_BB65_227
.Lunix_path_BB65_206:
	cmp	x12, x11
	b.hs	.Lunix_path_BB65_204
.Lunix_path_BB65_207:
	movi	v1.16b, #208
	add	x13, x9, x12
	movi	v2.16b, #47
	ldur	q0, [x13, #1]
	and	v3.16b, v0.16b, v1.16b
	ldr	q1, [x13]
	orr	v3.16b, v3.16b, v1.16b
	cmeq	v4.16b, v3.16b, v2.16b
	ldr	q3, [x3, :lo12:.Lunix_path_CPI65_0]
	and	v4.16b, v4.16b, v3.16b
	addp	v4.16b, v4.16b, v4.16b
	addp	v4.16b, v4.16b, v4.16b
	addp	v4.16b, v4.16b, v4.16b
	umov	w14, v4.h[0]
	cbz	w14, .Lunix_path_BB65_210
	movi	v4.16b, #46
	ldur	q5, [x13, #2]
	ldur	q6, [x13, #3]
	cmeq	v1.16b, v1.16b, v2.16b
	cmeq	v6.16b, v6.16b, v2.16b
	cmeq	v7.16b, v5.16b, v4.16b
	cmeq	v5.16b, v5.16b, v2.16b
	cmeq	v4.16b, v0.16b, v4.16b
	cmeq	v0.16b, v0.16b, v2.16b
	and	v1.16b, v1.16b, v3.16b
	and	v6.16b, v7.16b, v6.16b
	orr	v5.16b, v5.16b, v6.16b
	and	v4.16b, v4.16b, v5.16b
	orr	v0.16b, v0.16b, v4.16b
	and	v0.16b, v1.16b, v0.16b
	addp	v0.16b, v0.16b, v0.16b
	addp	v0.16b, v0.16b, v0.16b
	addp	v0.16b, v0.16b, v0.16b
	umov	w13, v0.h[0]
	orr	w13, w13, #0x10000
	rbit	w13, w13
	clz	w13, w13
	cmp	w13, #15
	b.ls	.Lunix_path_BB65_213
	add	x12, x12, #16
	b	.Lunix_path_BB65_206
.Lunix_path_BB65_210:
	add	x12, x12, #16
	cmp	x12, x11
	b.lo	.Lunix_path_BB65_207
	b	.Lunix_path_BB65_206
.Lunix_path_BB65_211:
	movi	v0.8b, #254
	movi	v1.8b, #47
	ldr	d3, [x9]
	ldur	d4, [x9, #1]
	movi	v2.8b, #46
	adrp	x11, .Lunix_path_CPI65_1
	and	v4.8b, v4.8b, v0.8b
	cmeq	v5.8b, v3.8b, v1.8b
	ldr	d3, [x11, :lo12:.Lunix_path_CPI65_1]
	cmeq	v4.8b, v4.8b, v2.8b
	and	v5.8b, v5.8b, v3.8b
	and	v4.8b, v5.8b, v4.8b
	addv	b4, v4.8b
	fmov	w11, s4
	orr	w11, w11, #0x100
	rbit	w11, w11
	clz	w11, w11
	cmp	w11, #8
	b.lo	.Lunix_path_BB65_214
	cmp	x8, #17
	mov	w11, #17
	csel	x11, x8, x11, lo
	sub	x11, x11, #9
	add	x12, x9, x11
	ldr	d4, [x12]
	ldur	d5, [x12, #1]
	and	v0.8b, v5.8b, v0.8b
	cmeq	v1.8b, v4.8b, v1.8b
	cmeq	v0.8b, v0.8b, v2.8b
	and	v1.8b, v1.8b, v3.8b
	and	v0.8b, v1.8b, v0.8b
	addv	b0, v0.8b
	fmov	w12, s0
	orr	w12, w12, #0x100
	rbit	w12, w12
	clz	w12, w12
	add	x11, x11, x12
	cmp	x11, x8
	b.lo	.Lunix_path_BB65_215
	b	.Lunix_path_BB65_227
.Lunix_path_BB65_213:
	add	x11, x12, w13, uxtw
.Lunix_path_BB65_214:
	cmp	x11, x8
	b.hs	.Lunix_path_BB65_227
.Lunix_path_BB65_215:
	add	x12, x9, #1
	b	.Lunix_path_BB65_219
.Lunix_path_BB65_216:
	add	x14, x12, x11
	ldrb	w14, [x14, #2]
.Lunix_path_BB65_217:
	cmp	w14, #47
	b.eq	.Lunix_path_BB65_227
.Lunix_path_BB65_218:
	cmp	x8, x13
	mov	x11, x13
	b.eq	.Lunix_path_BB65_225
.Lunix_path_BB65_219:
	add	x13, x12, x11
	ldurb	w13, [x13, #-1]
	cmp	w13, #47
	add	x13, x11, #1
	b.ne	.Lunix_path_BB65_218
	cmp	x8, x13
	b.ls	.Lunix_path_BB65_227
	ldrb	w14, [x12, x11]
	cmp	w14, #46
	b.ne	.Lunix_path_BB65_217
	add	x14, x11, #2
	cmp	x8, x14
	b.ls	.Lunix_path_BB65_227
	add	x14, x12, x11
	ldrb	w14, [x14, #1]
	cmp	w14, #46
	b.ne	.Lunix_path_BB65_217
	add	x14, x11, #3
	cmp	x8, x14
	b.hi	.Lunix_path_BB65_216
	b	.Lunix_path_BB65_227
.Lunix_path_BB65_225:
	mov	x11, x8
	b	.Lunix_path_BB65_227
.Lunix_path_BB65_226:
	add	x11, x12, #16
	cmp	x11, x8
	b.lo	.Lunix_path_BB65_215
.Lunix_path_BB65_227:
	cmp	x8, #1
	b.eq	.Lunix_path_BB65_233
	cmp	w10, #46
	b.ne	.Lunix_path_BB65_233
	ldrb	w10, [x9, #1]
	cmp	w10, #46
	b.ne	.Lunix_path_BB65_233
	cmp	x8, #2
	b.eq	.Lunix_path_BB65_232
	ldrb	w10, [x9, #2]
	cmp	w10, #47
	b.ne	.Lunix_path_BB65_233
.Lunix_path_BB65_232:
	mov	w10, #768
	strh	w10, [x22, x19]
	mov	w10, #2
	b	.Lunix_path_BB65_242
.Lunix_path_BB65_233:
	cmp	x11, #15
	b.hi	.Lunix_path_BB65_237
	cbz	x11, .Lunix_path_BB65_241
	add	x10, x22, x19
	mov	x12, x9
	mov	x13, x11
.Lunix_path_BB65_236:
	ldrb	w14, [x12], #1
	cmp	w14, #47
	cinc	w14, w14, lo
	csel	w14, wzr, w14, eq
	subs	x13, x13, #1
	strb	w14, [x10], #1
	b.ne	.Lunix_path_BB65_236
	b	.Lunix_path_BB65_241
.Lunix_path_BB65_237:
	subs	x10, x11, #16
	b.eq	.Lunix_path_BB65_240
	mov	x12, xzr
	add	x13, x22, x19
.Lunix_path_BB65_239:
	movi	v0.16b, #47
	ldr	q1, [x9, x12]
	cmhi	v2.16b, v0.16b, v1.16b
	cmeq	v0.16b, v1.16b, v0.16b
	sub	v2.16b, v1.16b, v2.16b
	bic	v0.16b, v2.16b, v0.16b
	str	q0, [x13, x12]
	add	x12, x12, #16
	cmp	x12, x10
	b.lo	.Lunix_path_BB65_239
.Lunix_path_BB65_240:
	movi	v0.16b, #47
	ldr	q1, [x9, x10]
	add	x12, x22, x19
	cmhi	v2.16b, v0.16b, v1.16b
	cmeq	v0.16b, v1.16b, v0.16b
	sub	v2.16b, v1.16b, v2.16b
	bic	v0.16b, v2.16b, v0.16b
	str	q0, [x12, x10]
.Lunix_path_BB65_241:
	add	x10, x22, x19
	strb	wzr, [x10, x11]
	add	x10, x11, #1
.Lunix_path_BB65_242:
	mov	x2, xzr
	add	x19, x10, x19
	add	x20, x9, x11
	sub	x21, x8, x11
	b	.Lunix_path_BB65_244
.Lunix_path_BB65_243:
	mov	w8, #1
	add	x2, x8, x2
	cmp	x2, #4
	b.hs	.Lunix_path_BB65_192
.Lunix_path_BB65_244:
	cmp	x2, x21
	b.hs	.Lunix_path_BB65_193
	ldrb	w8, [x20, x2]
	cmp	w8, #47
	b.eq	.Lunix_path_BB65_243
	cmp	w8, #46
	b.ne	.Lunix_path_BB65_193
	add	x8, x2, #1
	cmp	x8, x21
	b.eq	.Lunix_path_BB65_243
	ldrb	w8, [x20, x8]
	cmp	w8, #47
	b.ne	.Lunix_path_BB65_193
	mov	w8, #2
	add	x2, x8, x2
	cmp	x2, #4
	b.lo	.Lunix_path_BB65_244
	b	.Lunix_path_BB65_192
.Lunix_path_BB65_250:
	cmp	x24, x19
	sub	x25, x29, #17
	stp	xzr, xzr, [x29, #-168]
	csel	x19, x24, x19, lo
	stur	x25, [x29, #-176]
	cbz	x19, .Lunix_path_BB65_260
	mov	x21, xzr
	mov	x20, xzr
	b	.Lunix_path_BB65_253
.Lunix_path_BB65_252:
	ldur	x25, [x29, #-176]
	add	x20, x20, #1
	add	x21, x8, #1
	cmp	x19, x20
	strb	w23, [x25, x8]
	stur	x21, [x29, #-168]
	b.eq	.Lunix_path_BB65_259
.Lunix_path_BB65_253:
	ldrb	w8, [x22, x20]
	ldur	x10, [x29, #-160]
	lsr	w9, w8, #4
	cmp	w8, #160
	orr	w11, w9, #0x30
	add	w9, w9, #87
	csel	w23, w11, w9, lo
	cmp	x10, x21
	b.eq	.Lunix_path_BB65_257
.Lunix_path_BB65_254:
	add	x8, x21, #1
	strb	w23, [x25, x21]
	mov	w10, #48
	stur	x8, [x29, #-168]
	ldrb	w9, [x22, x20]
	and	w11, w9, #0xf
	bfxil	w10, w9, #0, #4
	ldur	x9, [x29, #-160]
	add	w12, w11, #87
	cmp	w11, #10
	csel	w23, w10, w12, lo
	cmp	x9, x8
	b.ne	.Lunix_path_BB65_252
	sub	x0, x29, #176
	mov	w1, #1
	bl	std_alloc.vec.Vec.grow_amortized.f4a78633ca2a48c6.
	cbz	w0, .Lunix_path_BB65_528
	ldur	x8, [x29, #-168]
	b	.Lunix_path_BB65_252
.Lunix_path_BB65_257:
	sub	x0, x29, #176
	mov	w1, #1
	bl	std_alloc.vec.Vec.grow_amortized.f4a78633ca2a48c6.
	cbz	w0, .Lunix_path_BB65_528
	ldp	x25, x21, [x29, #-176]
	b	.Lunix_path_BB65_254
.Lunix_path_BB65_259:
	ldur	x28, [x29, #-160]
	b	.Lunix_path_BB65_261
.Lunix_path_BB65_260:
	mov	x28, xzr
	mov	x21, xzr
.Lunix_path_BB65_261:
	cbz	x24, .Lunix_path_BB65_263
	mov	x0, x22
	bl	rattle_dealloc
.Lunix_path_BB65_263:
	mov	w26, wzr
	mov	w24, #1
	mov	w22, #1
	mov	x2, x27
	b	.Lunix_path_BB65_296
.Lunix_path_BB65_264:
	subs	x8, x23, #16
	b.eq	.Lunix_path_BB65_268
	mov	x9, xzr
.Lunix_path_BB65_266:
	ldr	q0, [x20, x9]
	ldr	q1, [x3, :lo12:.Lunix_path_CPI65_0]
	cmeq	v0.16b, v0.16b, #0
	and	v0.16b, v0.16b, v1.16b
	addp	v0.16b, v0.16b, v0.16b
	addp	v0.16b, v0.16b, v0.16b
	addp	v0.16b, v0.16b, v0.16b
	umov	w10, v0.h[0]
	orr	w10, w10, #0x10000
	rbit	w10, w10
	clz	w10, w10
	cmp	w10, #15
	b.ls	.Lunix_path_BB65_361
	add	x9, x9, #16
	cmp	x9, x8
	b.lo	.Lunix_path_BB65_266
.Lunix_path_BB65_268:
	ldr	q0, [x20, x8]
	ldr	q1, [x3, :lo12:.Lunix_path_CPI65_0]
	cmeq	v0.16b, v0.16b, #0
	and	v0.16b, v0.16b, v1.16b
	addp	v0.16b, v0.16b, v0.16b
	addp	v0.16b, v0.16b, v0.16b
	addp	v0.16b, v0.16b, v0.16b
	umov	w9, v0.h[0]
	orr	w9, w9, #0x10000
	rbit	w9, w9
	clz	w9, w9
	add	x8, x8, x9
	b	.Lunix_path_BB65_362
.Lunix_path_BB65_269:
	b.eq	.Lunix_path_BB65_273
	mov	x9, xzr
.Lunix_path_BB65_271:
	movi	v0.16b, #46
	movi	v1.16b, #47
	add	x10, x20, x9
	ldur	q2, [x10, #1]
	ldur	q3, [x10, #2]
	ldr	q4, [x10]
	cmeq	v0.16b, v2.16b, v0.16b
	cmeq	v3.16b, v3.16b, v1.16b
	and	v0.16b, v0.16b, v3.16b
	cmeq	v3.16b, v4.16b, v1.16b
	cmeq	v1.16b, v2.16b, v1.16b
	ldr	q2, [x3, :lo12:.Lunix_path_CPI65_0]
	orr	v0.16b, v1.16b, v0.16b
	and	v1.16b, v3.16b, v2.16b
	and	v0.16b, v1.16b, v0.16b
	addp	v0.16b, v0.16b, v0.16b
	addp	v0.16b, v0.16b, v0.16b
	addp	v0.16b, v0.16b, v0.16b
	umov	w10, v0.h[0]
	orr	w10, w10, #0x10000
	rbit	w10, w10
	clz	w10, w10
	cmp	w10, #15
	b.ls	.Lunix_path_BB65_497
	add	x9, x9, #16
	cmp	x9, x8
	b.lo	.Lunix_path_BB65_271
.Lunix_path_BB65_273:
	movi	v0.16b, #46
	movi	v1.16b, #47
	add	x9, x20, x8
	ldur	q2, [x9, #1]
	ldur	q3, [x9, #2]
	ldr	q4, [x9]
	cmeq	v0.16b, v2.16b, v0.16b
	cmeq	v3.16b, v3.16b, v1.16b
	and	v0.16b, v0.16b, v3.16b
	cmeq	v3.16b, v4.16b, v1.16b
	cmeq	v1.16b, v2.16b, v1.16b
	ldr	q2, [x3, :lo12:.Lunix_path_CPI65_0]
	orr	v0.16b, v1.16b, v0.16b
	and	v1.16b, v3.16b, v2.16b
	and	v0.16b, v1.16b, v0.16b
	addp	v0.16b, v0.16b, v0.16b
	addp	v0.16b, v0.16b, v0.16b
	addp	v0.16b, v0.16b, v0.16b
	umov	w9, v0.h[0]
	orr	w9, w9, #0x10000
	rbit	w9, w9
	clz	w9, w9
	add	x24, x8, x9
	b	.Lunix_path_BB65_498
.Lunix_path_BB65_274:
	cmp	w9, #46
	b.ne	.Lunix_path_BB65_277
	cmp	x8, #2
	b.eq	.Lunix_path_BB65_1
	add	x9, x20, x8
	ldurb	w9, [x9, #-3]
	cmp	w9, #47
	b.eq	.Lunix_path_BB65_1
.Lunix_path_BB65_277:
	sub	x10, x20, #16
	mov	x9, x8
.Lunix_path_BB65_278:
	cmp	x9, #15
	b.ls	.Lunix_path_BB65_281
	movi	v0.16b, #46
	movi	v1.16b, #47
	ldr	q2, [x10, x9]
	mov	w14, #64
	cmeq	v0.16b, v2.16b, v0.16b
	cmeq	v1.16b, v2.16b, v1.16b
	ldr	q2, [x3, :lo12:.Lunix_path_CPI65_0]
	and	v0.16b, v0.16b, v2.16b
	and	v1.16b, v1.16b, v2.16b
	addp	v0.16b, v0.16b, v0.16b
	addp	v1.16b, v1.16b, v1.16b
	addp	v0.16b, v0.16b, v0.16b
	addp	v1.16b, v1.16b, v1.16b
	addp	v0.16b, v0.16b, v0.16b
	addp	v1.16b, v1.16b, v1.16b
	umov	w11, v0.h[0]
	umov	w12, v1.h[0]
	clz	x11, x11
	clz	x13, x12
	sub	x12, x9, #16
	sub	x15, x14, x11
	sub	x14, x14, x13
	mov	x9, x12
	cmp	x15, x14
	csel	x14, x15, x14, hi
	cbz	x14, .Lunix_path_BB65_278
	mov	w9, #64
	sub	x10, x9, x13
	sub	x9, x9, x11
	cmp	x10, x9
	csel	x9, x10, x9, hi
	add	x9, x9, x12
	sub	x10, x9, #1
	b	.Lunix_path_BB65_285
.Lunix_path_BB65_281:
	sub	x11, x20, #1
.Lunix_path_BB65_282:
	cbz	x9, .Lunix_path_BB65_1
	ldrb	w10, [x11, x9]
	and	w12, w10, #0xfe
	sub	x10, x9, #1
	cmp	w12, #46
	mov	x9, x10
	b.ne	.Lunix_path_BB65_282
	add	x9, x10, #1
.Lunix_path_BB65_285:
	cbz	x10, .Lunix_path_BB65_1
	ldrb	w11, [x20, x10]
	cmp	w11, #47
	b.eq	.Lunix_path_BB65_1
	mov	x25, xzr
	cmp	x10, x8
	mov	w26, wzr
	b.eq	.Lunix_path_BB65_542
	add	x9, x20, x9
	mov	w24, w26
	mov	w22, w26
	ldurb	w9, [x9, #-2]
	mov	x21, x25
	mov	x28, x25
	cmp	w9, #47
	b.eq	.Lunix_path_BB65_296
	add	x9, x10, #1
	mov	w26, wzr
	mov	w22, wzr
	mov	x28, xzr
	add	x25, x20, x9
	sub	x21, x8, x9
	mov	w24, #1
	b	.Lunix_path_BB65_296
.Lunix_path_BB65_290:
	add	x9, x10, w11, uxtw
.Lunix_path_BB65_291:
	cmp	x9, x23
	and	w10, w27, #0x1
	cset	w9, lo
	cmp	w9, w10
	b.eq	.Lunix_path_BB65_1
.Lunix_path_BB65_292:
	cbz	w9, .Lunix_path_BB65_294
	tbnz	w27, #8, .Lunix_path_BB65_517
.Lunix_path_BB65_294:
	mov	w26, wzr
	mov	w22, wzr
	mov	x28, xzr
	mov	w24, #1
.Lunix_path_BB65_295:
	mov	x25, x20
	mov	x21, x23
.Lunix_path_BB65_296:
	mov	w8, w24
	mov	w9, w22
	strb	w26, [x2]
	stp	x8, x9, [x2, #8]
	stp	x25, x21, [x2, #24]
	str	x28, [x2, #40]
.Lunix_path_BB65_297:
	add	sp, sp, #416
	ldp	x20, x19, [sp, #80]
	ldp	x22, x21, [sp, #64]
	ldp	x24, x23, [sp, #48]
	ldp	x26, x25, [sp, #32]
	ldp	x28, x27, [sp, #16]
	ldp	x29, x30, [sp], #96
	ret
.Lunix_path_BB65_298:
	mov	x9, xzr
	mov	w8, #2
.Lunix_path_BB65_299:
	cmp	x9, x23
	b.lo	.Lunix_path_BB65_1
.Lunix_path_BB65_300:
	cmp	w8, #1
	sub	x0, x29, #176
	sub	x3, x29, #80
	cset	w8, eq
	mov	x1, x5
	mov	x19, x2
	mov	x2, x6
	stp	x20, x23, [x29, #-80]
	sturb	w8, [x29, #-64]
	stur	wzr, [x13, #145]
	stur	wzr, [x29, #-60]
	bl	upath_commands.joins.join_request
	ldp	x25, x21, [x29, #-152]
	mov	x2, x19
	ldurb	w26, [x29, #-176]
	ldurb	w24, [x29, #-168]
	ldurb	w22, [x29, #-160]
	ldur	x28, [x29, #-136]
	b	.Lunix_path_BB65_296
.Lunix_path_BB65_301:
	mov	x8, xzr
	b	.Lunix_path_BB65_765
.Lunix_path_BB65_302:
	b.hi	.Lunix_path_BB65_356
	mov	x8, xzr
	cbz	x21, .Lunix_path_BB65_556
.Lunix_path_BB65_304:
	ldrb	w9, [x25, x8]
	cmp	w9, #10
	b.eq	.Lunix_path_BB65_556
	add	x8, x8, #1
	mov	w24, #1
	cmp	x21, x8
	b.ne	.Lunix_path_BB65_304
.Lunix_path_BB65_306:
	mov	w26, wzr
	mov	w22, w24
	b	.Lunix_path_BB65_296
.Lunix_path_BB65_307:
	cmp	xzr, x23
	b.hs	.Lunix_path_BB65_538
.Lunix_path_BB65_308:
	stp	q0, q0, [x13, #128]
.Lunix_path_BB65_309:
	ldrb	w8, [x5]
	cmp	w8, #47
	cset	w8, eq
.Lunix_path_BB65_310:
	ldrb	w9, [x20]
	cmp	w9, #47
	cset	w9, eq
	cmp	w8, w9
	b.ne	.Lunix_path_BB65_1
	mov	x25, x3
	str	x2, [sp, #48]
	mov	w22, wzr
	mov	w21, wzr
	b	.Lunix_path_BB65_314
.Lunix_path_BB65_312:
	mov	x25, x3
	str	x2, [sp, #48]
	mov	w22, #1
.Lunix_path_BB65_313:
	mov	w21, #1
.Lunix_path_BB65_314:
	mov	x0, x5
	mov	x1, x6
	mov	x24, x5
	mov	x26, x6
	bl	path_within.outlined.is_names_only
	cbz	w0, .Lunix_path_BB65_326
	mov	x0, x20
	mov	x1, x23
	bl	path_within.outlined.is_names_only
	cbz	w0, .Lunix_path_BB65_326
	cmp	x23, x19
	mov	x14, x24
	csel	x8, x23, x19, lo
	cmp	x8, #15
	b.hi	.Lunix_path_BB65_341
	cmp	x8, #7
	mov	x16, x25
	b.hi	.Lunix_path_BB65_520
	cbz	x8, .Lunix_path_BB65_577
	ldrb	w9, [x14]
	ldrb	w10, [x20]
	cmp	w9, w10
	b.ne	.Lunix_path_BB65_576
	cmp	x8, #1
	b.eq	.Lunix_path_BB65_577
	ldrb	w9, [x14, #1]
	ldrb	w10, [x20, #1]
	cmp	w9, w10
	b.ne	.Lunix_path_BB65_818
	cmp	x8, #2
	b.eq	.Lunix_path_BB65_577
	ldrb	w9, [x14, #2]
	ldrb	w10, [x20, #2]
	cmp	w9, w10
	b.ne	.Lunix_path_BB65_1098
	cmp	x8, #3
	b.ne	.Lunix_path_BB65_1204
.Lunix_path_BB65_325:
	mov	x14, x24
	b	.Lunix_path_BB65_577
.Lunix_path_BB65_326:
	add	x0, sp, #128
	mov	x1, x24
	mov	x2, x26
	stp	xzr, xzr, [sp, #136]
	str	xzr, [sp, #128]
	stp	xzr, xzr, [x29, #-40]
	stur	xzr, [x29, #-48]
	bl	path_within.backward.count_resolved
	sub	x0, x29, #48
	mov	x1, x20
	mov	x2, x23
	bl	path_within.backward.count_resolved
	ldur	x8, [x29, #-48]
	ldr	x9, [sp, #128]
	subs	x10, x8, x9
	b.hs	.Lunix_path_BB65_328
	ldr	x2, [sp, #48]
	b	.Lunix_path_BB65_1
.Lunix_path_BB65_328:
	b.ls	.Lunix_path_BB65_330
	movi	v0.2d, #0000000000000000
	ldr	x11, [sp, #136]
	add	x12, sp, #208
	ldp	x8, x9, [x29, #-40]
	add	x19, x10, x11
	b	.Lunix_path_BB65_496
.Lunix_path_BB65_330:
	ldr	x27, [sp, #136]
	ldur	x28, [x29, #-40]
	tbz	w22, #0, .Lunix_path_BB65_377
	mov	x3, xzr
	mov	x17, x25
	mov	x18, x24
	b	.Lunix_path_BB65_378
.Lunix_path_BB65_332:
	ldp	x3, x4, [sp, #136]
	sub	x0, x29, #80
	ldr	x8, [sp, #152]
	mov	x1, x21
	mov	x2, x24
	stp	xzr, xzr, [x29, #-80]
	stp	x8, x19, [sp, #56]
	stur	xzr, [x29, #-64]
	str	x3, [sp, #48]
	bl	upath_commands.bases.rest_after
	ldurb	w8, [x29, #-80]
	cmp	w8, #1
	b.ne	.Lunix_path_BB65_1192
	ldp	x28, x26, [x29, #-72]
	cbz	x26, .Lunix_path_BB65_1112
	ldrb	w8, [x28]
	cmp	w8, #47
	b.eq	.Lunix_path_BB65_1192
	mov	x16, x22
	mov	x24, x28
	cmp	w8, #46
	b.ne	.Lunix_path_BB65_844
	cmp	x26, #1
	b.eq	.Lunix_path_BB65_1138
	ldrb	w9, [x24, #1]
	cmp	w9, #47
	b.eq	.Lunix_path_BB65_1138
	cmp	w9, #46
	b.ne	.Lunix_path_BB65_844
	cmp	x26, #2
	b.ne	.Lunix_path_BB65_843
	mov	w19, wzr
	mov	x16, x22
	b	.Lunix_path_BB65_1145
.Lunix_path_BB65_341:
	cmp	x8, #64
	sub	x9, x8, #16
	mov	x16, x25
	mov	x10, xzr
	b.lo	.Lunix_path_BB65_348
	and	x11, x8, #0xffffffffffffffc0
.Lunix_path_BB65_343:
	add	x12, x14, x10
	add	x13, x20, x10
	ldp	q0, q1, [x12]
	ldp	q2, q3, [x12, #32]
	ldp	q4, q5, [x13]
	ldp	q6, q7, [x13, #32]
	cmeq	v0.16b, v0.16b, v4.16b
	cmeq	v1.16b, v1.16b, v5.16b
	ldr	q4, [x16, :lo12:.Lunix_path_CPI65_0]
	cmeq	v3.16b, v3.16b, v7.16b
	cmeq	v2.16b, v2.16b, v6.16b
	bic	v0.16b, v4.16b, v0.16b
	bic	v1.16b, v4.16b, v1.16b
	bic	v2.16b, v4.16b, v2.16b
	bic	v3.16b, v4.16b, v3.16b
	addp	v0.16b, v0.16b, v1.16b
	addp	v1.16b, v2.16b, v3.16b
	addp	v0.16b, v0.16b, v1.16b
	addp	v0.16b, v0.16b, v0.16b
	fmov	x12, d0
	cbnz	x12, .Lunix_path_BB65_348
	sub	x8, x8, #64
	add	x10, x10, #64
	cmp	x8, #63
	b.hi	.Lunix_path_BB65_343
	mov	x10, x11
	b	.Lunix_path_BB65_348
.Lunix_path_BB65_346:
	ldr	q0, [x14, x10]
	ldr	q1, [x20, x10]
	cmeq	v0.16b, v0.16b, v1.16b
	ldr	q1, [x16, :lo12:.Lunix_path_CPI65_0]
	bic	v0.16b, v1.16b, v0.16b
	addp	v0.16b, v0.16b, v0.16b
	addp	v0.16b, v0.16b, v0.16b
	addp	v0.16b, v0.16b, v0.16b
	umov	w8, v0.h[0]
	orr	w8, w8, #0x10000
	rbit	w8, w8
	clz	w8, w8
	cmp	w8, #15
	b.ls	.Lunix_path_BB65_560
	add	x10, x10, #16
.Lunix_path_BB65_348:
	cmp	x10, x9
	b.lo	.Lunix_path_BB65_346
	ldr	q0, [x14, x9]
	ldr	q1, [x20, x9]
	cmeq	v0.16b, v0.16b, v1.16b
	ldr	q1, [x16, :lo12:.Lunix_path_CPI65_0]
	bic	v0.16b, v1.16b, v0.16b
	addp	v0.16b, v0.16b, v0.16b
	addp	v0.16b, v0.16b, v0.16b
	addp	v0.16b, v0.16b, v0.16b
	umov	w8, v0.h[0]
	orr	w8, w8, #0x10000
	rbit	w8, w8
	clz	w8, w8
	add	x8, x9, x8
	b	.Lunix_path_BB65_577
.Lunix_path_BB65_350:
	mov	w24, wzr
	mov	w22, wzr
	mov	x20, xzr
	mov	x23, xzr
	mov	x28, xzr
	b	.Lunix_path_BB65_47
.Lunix_path_BB65_351:
	mov	x11, x24
	subs	x8, x21, #16
	b.eq	.Lunix_path_BB65_355
	mov	x9, xzr
.Lunix_path_BB65_353:
	ldr	q0, [x25, x9]
	ldr	q1, [x11, :lo12:.Lunix_path_CPI65_0]
	cmeq	v0.16b, v0.16b, #0
	and	v0.16b, v0.16b, v1.16b
	addp	v0.16b, v0.16b, v0.16b
	addp	v0.16b, v0.16b, v0.16b
	addp	v0.16b, v0.16b, v0.16b
	umov	w10, v0.h[0]
	orr	w10, w10, #0x10000
	rbit	w10, w10
	clz	w10, w10
	cmp	w10, #15
	b.ls	.Lunix_path_BB65_551
	add	x9, x9, #16
	cmp	x9, x8
	b.lo	.Lunix_path_BB65_353
.Lunix_path_BB65_355:
	ldr	q0, [x25, x8]
	ldr	q1, [x11, :lo12:.Lunix_path_CPI65_0]
	cmeq	v0.16b, v0.16b, #0
	and	v0.16b, v0.16b, v1.16b
	addp	v0.16b, v0.16b, v0.16b
	addp	v0.16b, v0.16b, v0.16b
	addp	v0.16b, v0.16b, v0.16b
	umov	w9, v0.h[0]
	orr	w9, w9, #0x10000
	rbit	w9, w9
	clz	w9, w9
	add	x8, x8, x9
	b	.Lunix_path_BB65_552
.Lunix_path_BB65_356:
	mov	x11, x24
	subs	x8, x21, #16
	b.eq	.Lunix_path_BB65_360
	mov	x9, xzr
.Lunix_path_BB65_358:
	movi	v0.16b, #10
	ldr	q1, [x25, x9]
	cmeq	v0.16b, v1.16b, v0.16b
	ldr	q1, [x11, :lo12:.Lunix_path_CPI65_0]
	and	v0.16b, v0.16b, v1.16b
	addp	v0.16b, v0.16b, v0.16b
	addp	v0.16b, v0.16b, v0.16b
	addp	v0.16b, v0.16b, v0.16b
	umov	w10, v0.h[0]
	orr	w10, w10, #0x10000
	rbit	w10, w10
	clz	w10, w10
	cmp	w10, #15
	b.ls	.Lunix_path_BB65_555
	add	x9, x9, #16
	cmp	x9, x8
	b.lo	.Lunix_path_BB65_358
.Lunix_path_BB65_360:
	movi	v0.16b, #10
	ldr	q1, [x25, x8]
	cmeq	v0.16b, v1.16b, v0.16b
	ldr	q1, [x11, :lo12:.Lunix_path_CPI65_0]
	and	v0.16b, v0.16b, v1.16b
	addp	v0.16b, v0.16b, v0.16b
	addp	v0.16b, v0.16b, v0.16b
	addp	v0.16b, v0.16b, v0.16b
	umov	w9, v0.h[0]
	orr	w9, w9, #0x10000
	rbit	w9, w9
	clz	w9, w9
	add	x8, x8, x9
	b	.Lunix_path_BB65_556
.Lunix_path_BB65_361:
	add	x8, x9, w10, uxtw
.Lunix_path_BB65_362:
	cmp	x8, x23
	b.lo	.Lunix_path_BB65_1
	cbz	x23, .Lunix_path_BB65_367
.Lunix_path_BB65_364:
	mov	x10, xzr
	sub	x12, x20, #9
	sub	x13, x23, #17
	neg	x8, x23
	mov	x14, x23
.Lunix_path_BB65_365:
	ldrb	w9, [x20, x10]
	cmp	w9, #47
	b.ne	.Lunix_path_BB65_369
	add	x10, x10, #1
	sub	x14, x14, #1
	add	x12, x12, #1
	cmn	x8, x10
	sub	x13, x13, #1
	b.ne	.Lunix_path_BB65_365
.Lunix_path_BB65_367:
	add	x4, sp, #208
	mov	x19, x2
	mov	x9, xzr
	mov	w17, wzr
	add	x8, x20, x23
.Lunix_path_BB65_368:
	add	x0, sp, #128
	sub	x3, x29, #80
	mov	x1, x5
	mov	x2, x6
	stp	x8, x9, [x29, #-80]
	sturb	w17, [x29, #-64]
	stur	wzr, [x4, #145]
	stur	wzr, [x29, #-60]
	bl	upath_commands.joins.join_request
	ldp	x25, x21, [sp, #152]
	mov	x2, x19
	ldrb	w26, [sp, #128]
	ldrb	w24, [sp, #136]
	ldrb	w22, [sp, #144]
	ldr	x28, [sp, #168]
	b	.Lunix_path_BB65_296
.Lunix_path_BB65_369:
	subs	x11, x10, x23
	add	x8, x20, x10
	b.eq	.Lunix_path_BB65_541
	cmp	w9, #46
	sub	x9, x23, x10
	b.ne	.Lunix_path_BB65_539
	cmp	x9, #2
	b.lo	.Lunix_path_BB65_376
	add	x15, x20, x10
	ldrb	w15, [x15, #1]
	cmp	w15, #46
	b.ne	.Lunix_path_BB65_375
	add	x15, x11, #2
	cbz	x15, .Lunix_path_BB65_825
	add	x15, x20, x10
	ldrb	w15, [x15, #2]
.Lunix_path_BB65_375:
	cmp	w15, #47
	b.ne	.Lunix_path_BB65_539
.Lunix_path_BB65_376:
	add	x4, sp, #208
	b	.Lunix_path_BB65_540
.Lunix_path_BB65_377:
	add	x8, x24, x19
	mov	x18, x24
	mov	x17, x25
	ldurb	w8, [x8, #-1]
	mov	x3, x26
	and	w8, w8, #0xfe
	cmp	w8, #46
	b.eq	.Lunix_path_BB65_381
.Lunix_path_BB65_378:
	tbz	w21, #0, .Lunix_path_BB65_387
	mov	x19, xzr
	b	.Lunix_path_BB65_396
.Lunix_path_BB65_380:
	mov	x3, x1
	cbz	x1, .Lunix_path_BB65_378
.Lunix_path_BB65_381:
	subs	x1, x3, #1
	b.eq	.Lunix_path_BB65_378
	add	x8, x18, x1
	ldrb	w9, [x8]
	cmp	w9, #47
	b.eq	.Lunix_path_BB65_385
	cmp	w9, #46
	b.ne	.Lunix_path_BB65_378
	ldurb	w8, [x8, #-1]
	cmp	w8, #47
	b.ne	.Lunix_path_BB65_378
.Lunix_path_BB65_385:
	sub	x8, x19, x1
	cmp	x8, #8
	b.ne	.Lunix_path_BB65_380
	mov	x0, x18
	mov	x22, x17
	bl	unix_path.filler.trimmed_blocks_len
	mov	x18, x24
	mov	x17, x22
	mov	x1, x0
	b	.Lunix_path_BB65_380
.Lunix_path_BB65_387:
	add	x8, x20, x23
	mov	x19, x23
	ldurb	w8, [x8, #-1]
	and	w8, w8, #0xfe
	cmp	w8, #46
	b.ne	.Lunix_path_BB65_396
	mov	x19, x23
	b	.Lunix_path_BB65_390
.Lunix_path_BB65_389:
	mov	x19, x1
	cbz	x1, .Lunix_path_BB65_396
.Lunix_path_BB65_390:
	subs	x1, x19, #1
	b.eq	.Lunix_path_BB65_396
	add	x8, x20, x1
	ldrb	w9, [x8]
	cmp	w9, #47
	b.eq	.Lunix_path_BB65_394
	cmp	w9, #46
	b.ne	.Lunix_path_BB65_396
	ldurb	w8, [x8, #-1]
	cmp	w8, #47
	b.ne	.Lunix_path_BB65_396
.Lunix_path_BB65_394:
	sub	x8, x23, x1
	cmp	x8, #8
	b.ne	.Lunix_path_BB65_389
	mov	x0, x20
	mov	x19, x17
	mov	x21, x3
	bl	unix_path.filler.trimmed_blocks_len
	mov	x3, x21
	mov	x18, x24
	mov	x17, x19
	mov	x1, x0
	b	.Lunix_path_BB65_389
.Lunix_path_BB65_396:
	mov	w8, wzr
	subs	x9, x27, x28
	b.ls	.Lunix_path_BB65_420
	sub	x10, x18, #16
	sub	x11, x18, #1
.Lunix_path_BB65_398:
	tbnz	w8, #0, .Lunix_path_BB65_819
	mov	x12, xzr
	b	.Lunix_path_BB65_402
.Lunix_path_BB65_400:
	add	x12, x12, #1
.Lunix_path_BB65_401:
	cbz	x13, .Lunix_path_BB65_419
.Lunix_path_BB65_402:
	mov	x14, x3
	mov	x8, x3
.Lunix_path_BB65_403:
	cmp	x8, #15
	b.ls	.Lunix_path_BB65_406
	movi	v0.16b, #47
	ldr	q1, [x10, x8]
	sub	x13, x8, #16
	mov	x8, x13
	cmeq	v0.16b, v1.16b, v0.16b
	ldr	q1, [x17, :lo12:.Lunix_path_CPI65_0]
	and	v0.16b, v0.16b, v1.16b
	addp	v0.16b, v0.16b, v0.16b
	addp	v0.16b, v0.16b, v0.16b
	addp	v0.16b, v0.16b, v0.16b
	umov	w15, v0.h[0]
	cbz	w15, .Lunix_path_BB65_403
	umov	w8, v0.h[0]
	and	x8, x8, #0xffff
	clz	x8, x8
	sub	x8, x13, x8
	add	x13, x8, #64
	b	.Lunix_path_BB65_410
.Lunix_path_BB65_406:
	cbz	x8, .Lunix_path_BB65_409
	ldrb	w15, [x11, x8]
	sub	x13, x8, #1
	mov	x8, x13
	cmp	w15, #47
	b.ne	.Lunix_path_BB65_406
	add	x13, x13, #1
	b	.Lunix_path_BB65_410
.Lunix_path_BB65_409:
	mov	x13, xzr
.Lunix_path_BB65_410:
	cmp	x13, #0
	cset	w16, ne
	cset	w8, eq
	subs	x15, x14, x13
	sub	x3, x13, x16
	b.eq	.Lunix_path_BB65_401
	cmp	x15, #1
	add	x14, x18, x13
	b.ne	.Lunix_path_BB65_413
	ldrb	w14, [x14]
	cmp	w14, #46
	b.eq	.Lunix_path_BB65_401
	b	.Lunix_path_BB65_416
.Lunix_path_BB65_413:
	cmp	x15, #2
	b.hi	.Lunix_path_BB65_416
	ldrb	w15, [x14]
	cmp	w15, #46
	b.ne	.Lunix_path_BB65_416
	ldrb	w14, [x14, #1]
	cmp	w14, #46
	b.eq	.Lunix_path_BB65_400
.Lunix_path_BB65_416:
	cbz	x12, .Lunix_path_BB65_418
	sub	x12, x12, #1
	b	.Lunix_path_BB65_401
.Lunix_path_BB65_418:
	subs	x9, x9, #1
	b.ne	.Lunix_path_BB65_398
	b	.Lunix_path_BB65_420
.Lunix_path_BB65_419:
	mov	w8, #1
.Lunix_path_BB65_420:
	mov	w26, wzr
	mov	x4, xzr
	subs	x9, x28, x27
	b.ls	.Lunix_path_BB65_443
.Lunix_path_BB65_421:
	sub	x10, x20, #16
	sub	x11, x20, #1
.Lunix_path_BB65_422:
	tbnz	w26, #0, .Lunix_path_BB65_442
	mov	x12, xzr
	b	.Lunix_path_BB65_426
.Lunix_path_BB65_424:
	add	x12, x12, #1
.Lunix_path_BB65_425:
	cbz	x13, .Lunix_path_BB65_442
.Lunix_path_BB65_426:
	mov	x13, x19
.Lunix_path_BB65_427:
	cmp	x13, #15
	b.ls	.Lunix_path_BB65_430
	movi	v0.16b, #47
	ldr	q1, [x10, x13]
	sub	x14, x13, #16
	mov	x13, x14
	cmeq	v0.16b, v1.16b, v0.16b
	ldr	q1, [x17, :lo12:.Lunix_path_CPI65_0]
	and	v0.16b, v0.16b, v1.16b
	addp	v0.16b, v0.16b, v0.16b
	addp	v0.16b, v0.16b, v0.16b
	addp	v0.16b, v0.16b, v0.16b
	umov	w15, v0.h[0]
	cbz	w15, .Lunix_path_BB65_427
	umov	w13, v0.h[0]
	and	x13, x13, #0xffff
	clz	x13, x13
	sub	x13, x14, x13
	add	x13, x13, #64
	b	.Lunix_path_BB65_433
.Lunix_path_BB65_430:
	cbz	x13, .Lunix_path_BB65_433
	ldrb	w15, [x11, x13]
	sub	x14, x13, #1
	mov	x13, x14
	cmp	w15, #47
	b.ne	.Lunix_path_BB65_430
	add	x13, x14, #1
.Lunix_path_BB65_433:
	cmp	x13, #0
	cset	w15, ne
	cset	w26, eq
	subs	x14, x19, x13
	sub	x19, x13, x15
	b.eq	.Lunix_path_BB65_425
	cmp	x14, #1
	add	x15, x20, x13
	b.ne	.Lunix_path_BB65_436
	ldrb	w15, [x15]
	cmp	w15, #46
	b.eq	.Lunix_path_BB65_425
	b	.Lunix_path_BB65_439
.Lunix_path_BB65_436:
	cmp	x14, #2
	b.hi	.Lunix_path_BB65_439
	ldrb	w16, [x15]
	cmp	w16, #46
	b.ne	.Lunix_path_BB65_439
	ldrb	w15, [x15, #1]
	cmp	w15, #46
	b.eq	.Lunix_path_BB65_424
.Lunix_path_BB65_439:
	cbz	x12, .Lunix_path_BB65_441
	sub	x12, x12, #1
	b	.Lunix_path_BB65_425
.Lunix_path_BB65_441:
	add	x12, x4, x14
	subs	x9, x9, #1
	add	x4, x12, #1
	b.ne	.Lunix_path_BB65_422
	b	.Lunix_path_BB65_443
.Lunix_path_BB65_442:
	mov	w26, #1
.Lunix_path_BB65_443:
	cmp	x28, x27
	stp	x28, x27, [sp, #56]
	csel	x13, x28, x27, lo
	tbz	w8, #0, .Lunix_path_BB65_445
	mov	x9, x4
	mov	x11, x13
	b	.Lunix_path_BB65_495
.Lunix_path_BB65_445:
	sub	x27, x18, #16
	sub	x28, x18, #1
	sub	x22, x20, #16
	sub	x25, x20, #1
	mov	x5, x13
	mov	x6, x4
.Lunix_path_BB65_446:
	mov	x9, xzr
	b	.Lunix_path_BB65_450
.Lunix_path_BB65_447:
	cbz	x9, .Lunix_path_BB65_465
	sub	x9, x9, #1
.Lunix_path_BB65_449:
	cbz	x21, .Lunix_path_BB65_494
.Lunix_path_BB65_450:
	mov	x8, x3
	mov	x10, x3
.Lunix_path_BB65_451:
	cmp	x10, #15
	b.ls	.Lunix_path_BB65_454
	movi	v0.16b, #47
	ldr	q1, [x27, x10]
	sub	x11, x10, #16
	mov	x10, x11
	cmeq	v0.16b, v1.16b, v0.16b
	ldr	q1, [x17, :lo12:.Lunix_path_CPI65_0]
	and	v0.16b, v0.16b, v1.16b
	addp	v0.16b, v0.16b, v0.16b
	addp	v0.16b, v0.16b, v0.16b
	addp	v0.16b, v0.16b, v0.16b
	umov	w12, v0.h[0]
	cbz	w12, .Lunix_path_BB65_451
	umov	w10, v0.h[0]
	and	x10, x10, #0xffff
	clz	x10, x10
	sub	x10, x11, x10
	add	x21, x10, #64
	b	.Lunix_path_BB65_458
.Lunix_path_BB65_454:
	cbz	x10, .Lunix_path_BB65_457
	ldrb	w12, [x28, x10]
	sub	x11, x10, #1
	mov	x10, x11
	cmp	w12, #47
	b.ne	.Lunix_path_BB65_454
	add	x21, x11, #1
	b	.Lunix_path_BB65_458
.Lunix_path_BB65_457:
	mov	x21, xzr
.Lunix_path_BB65_458:
	cmp	x21, #0
	cset	w10, ne
	subs	x1, x8, x21
	sub	x3, x21, x10
	b.eq	.Lunix_path_BB65_449
	cmp	x1, #1
	add	x8, x18, x21
	b.ne	.Lunix_path_BB65_461
	ldrb	w10, [x8]
	cmp	w10, #46
	b.ne	.Lunix_path_BB65_447
	b	.Lunix_path_BB65_449
.Lunix_path_BB65_461:
	cmp	x1, #2
	b.hi	.Lunix_path_BB65_447
	ldrb	w10, [x8]
	cmp	w10, #46
	b.ne	.Lunix_path_BB65_447
	ldrb	w10, [x8, #1]
	cmp	w10, #46
	b.ne	.Lunix_path_BB65_447
	add	x9, x9, #1
	cbnz	x21, .Lunix_path_BB65_450
	b	.Lunix_path_BB65_494
.Lunix_path_BB65_465:
	tbnz	w26, #0, .Lunix_path_BB65_494
	mov	x9, xzr
	b	.Lunix_path_BB65_469
.Lunix_path_BB65_467:
	add	x9, x9, #1
.Lunix_path_BB65_468:
	cbz	x10, .Lunix_path_BB65_494
.Lunix_path_BB65_469:
	mov	x10, x19
.Lunix_path_BB65_470:
	cmp	x10, #15
	b.ls	.Lunix_path_BB65_473
	movi	v0.16b, #47
	ldr	q1, [x22, x10]
	sub	x11, x10, #16
	mov	x10, x11
	cmeq	v0.16b, v1.16b, v0.16b
	ldr	q1, [x17, :lo12:.Lunix_path_CPI65_0]
	and	v0.16b, v0.16b, v1.16b
	addp	v0.16b, v0.16b, v0.16b
	addp	v0.16b, v0.16b, v0.16b
	addp	v0.16b, v0.16b, v0.16b
	umov	w12, v0.h[0]
	cbz	w12, .Lunix_path_BB65_470
	umov	w10, v0.h[0]
	and	x10, x10, #0xffff
	clz	x10, x10
	sub	x10, x11, x10
	add	x10, x10, #64
	b	.Lunix_path_BB65_476
.Lunix_path_BB65_473:
	cbz	x10, .Lunix_path_BB65_476
	ldrb	w12, [x25, x10]
	sub	x11, x10, #1
	mov	x10, x11
	cmp	w12, #47
	b.ne	.Lunix_path_BB65_473
	add	x10, x11, #1
.Lunix_path_BB65_476:
	cmp	x10, #0
	cset	w12, ne
	cset	w26, eq
	subs	x11, x19, x10
	sub	x19, x10, x12
	b.eq	.Lunix_path_BB65_468
	cmp	x11, #1
	add	x2, x20, x10
	b.ne	.Lunix_path_BB65_479
	ldrb	w12, [x2]
	cmp	w12, #46
	b.eq	.Lunix_path_BB65_468
	b	.Lunix_path_BB65_482
.Lunix_path_BB65_479:
	cmp	x11, #2
	b.hi	.Lunix_path_BB65_482
	ldrb	w12, [x2]
	cmp	w12, #46
	b.ne	.Lunix_path_BB65_482
	ldrb	w12, [x2, #1]
	cmp	w12, #46
	b.eq	.Lunix_path_BB65_467
.Lunix_path_BB65_482:
	cbz	x9, .Lunix_path_BB65_484
	sub	x9, x9, #1
	cbnz	x10, .Lunix_path_BB65_469
	b	.Lunix_path_BB65_494
.Lunix_path_BB65_484:
	add	x9, x4, x11
	sub	x13, x13, #1
	cmp	x1, x11
	add	x4, x9, #1
	mov	x11, x13
	mov	x9, x4
	b.ne	.Lunix_path_BB65_493
	cmp	x1, #3
	b.hi	.Lunix_path_BB65_489
	mov	x8, xzr
	add	x9, x20, x10
	add	x10, x18, x21
.Lunix_path_BB65_487:
	ldrb	w11, [x10, x8]
	ldrb	w12, [x9, x8]
	cmp	w11, w12
	b.ne	.Lunix_path_BB65_491
	add	x8, x8, #1
	cmp	x1, x8
	b.ne	.Lunix_path_BB65_487
	b	.Lunix_path_BB65_492
.Lunix_path_BB65_489:
	ldr	w8, [x8]
	ldr	w9, [x2]
	mov	x11, x13
	cmp	w8, w9
	mov	x9, x4
	b.ne	.Lunix_path_BB65_493
	add	x0, x18, x21
	stp	x4, x3, [sp, #32]
	stp	x5, x13, [sp, #16]
	str	x6, [sp, #8]
	bl	core.cmp.slices.groups_equal.i8.31.core.cmp.numbers.U8PartialEq.
	ldp	x13, x4, [sp, #24]
	mov	x18, x24
	ldp	x6, x5, [sp, #8]
	adrp	x17, .Lunix_path_CPI65_0
	ldr	x3, [sp, #40]
	mov	x9, x4
	mov	x11, x13
	cbnz	w0, .Lunix_path_BB65_492
	b	.Lunix_path_BB65_493
.Lunix_path_BB65_491:
	cmp	x8, x1
	mov	x9, x4
	mov	x11, x13
	b.lo	.Lunix_path_BB65_493
.Lunix_path_BB65_492:
	mov	x9, x6
	mov	x11, x5
.Lunix_path_BB65_493:
	mov	x5, x11
	mov	x6, x9
	cbnz	x21, .Lunix_path_BB65_446
	b	.Lunix_path_BB65_495
.Lunix_path_BB65_494:
	mov	x9, x6
	mov	x11, x5
.Lunix_path_BB65_495:
	movi	v0.2d, #0000000000000000
	ldp	x8, x10, [sp, #56]
	add	x12, sp, #208
	sub	x8, x8, x11
	sub	x19, x10, x11
.Lunix_path_BB65_496:
	stp	q0, q0, [x12, #128]
	ldp	q0, q1, [x12, #128]
	mov	x10, xzr
	stp	q0, q1, [x12]
	b	.Lunix_path_BB65_1034
.Lunix_path_BB65_497:
	add	x24, x9, w10, uxtw
.Lunix_path_BB65_498:
	cmp	x24, x21
	b.lo	.Lunix_path_BB65_155
.Lunix_path_BB65_499:
	cmp	x21, #2
	b.lo	.Lunix_path_BB65_510
	cmp	x24, x21
	b.eq	.Lunix_path_BB65_510
	tbnz	x21, #63, .Lunix_path_BB65_824
	mov	x0, x21
	mov	w1, #1
	str	x2, [sp, #48]
	bl	rattle_alloc
	ldr	x2, [sp, #48]
	adrp	x14, .Lunix_path_CPI65_0
	tbz	w0, #0, .Lunix_path_BB65_824
	mov	x23, x1
	cmp	x24, x21
	stp	x1, xzr, [x29, #-176]
	stur	x21, [x29, #-160]
	b.hi	.Lunix_path_BB65_674
	mov	x8, xzr
	mov	x28, x21
	add	x0, x23, xzr
	add	x19, xzr, x24
	sub	x9, x0, x20
	cmp	x9, x24
	b.hs	.Lunix_path_BB65_676
.Lunix_path_BB65_505:
	cmp	x24, #8
	b.lo	.Lunix_path_BB65_507
	add	x9, x8, x23
	sub	x9, x9, x20
	cmp	x9, #32
	b.hs	.Lunix_path_BB65_650
.Lunix_path_BB65_507:
	mov	x9, xzr
.Lunix_path_BB65_508:
	add	x10, x9, x8
	sub	x8, x24, x9
	add	x9, x20, x9
	add	x10, x23, x10
.Lunix_path_BB65_509:
	ldrb	w11, [x9], #1
	subs	x8, x8, #1
	strb	w11, [x10], #1
	b.ne	.Lunix_path_BB65_509
	b	.Lunix_path_BB65_677
.Lunix_path_BB65_510:
	tbnz	x21, #63, .Lunix_path_BB65_824
	mov	x0, x21
	mov	w1, #1
	mov	x19, x2
	bl	rattle_alloc
	mov	x2, x19
	tbz	w0, #0, .Lunix_path_BB65_824
	sub	x8, x1, x20
	mov	x25, x1
	cmp	x8, x21
	b.hs	.Lunix_path_BB65_165
	cmp	x21, #8
	mov	x8, xzr
	b.lo	.Lunix_path_BB65_569
	sub	x9, x25, x20
	cmp	x9, #32
	b.lo	.Lunix_path_BB65_569
	cmp	x21, #32
	b.hs	.Lunix_path_BB65_562
	mov	x8, xzr
	b	.Lunix_path_BB65_566
.Lunix_path_BB65_517:
	cbz	x23, .Lunix_path_BB65_531
	ldrb	w9, [x20]
	cmp	w9, #47
	b.ne	.Lunix_path_BB65_531
	adrp	x22, .Lunix_path_static.87
	add	x22, x22, :lo12:.Lunix_path_static.87
	mov	w21, #4
	b	.Lunix_path_BB65_532
.Lunix_path_BB65_520:
	ldr	d0, [x14]
	ldr	d1, [x20]
	adrp	x9, .Lunix_path_CPI65_1
	cmeq	v1.8b, v0.8b, v1.8b
	ldr	d0, [x9, :lo12:.Lunix_path_CPI65_1]
	bic	v1.8b, v0.8b, v1.8b
	addv	b1, v1.8b
	fmov	w9, s1
	orr	w9, w9, #0x100
	rbit	w9, w9
	clz	w9, w9
	cmp	w9, #8
	b.hs	.Lunix_path_BB65_561
	mov	x8, x9
	b	.Lunix_path_BB65_577
.Lunix_path_BB65_522:
	subs	x9, x23, #16
	mov	x12, x21
	add	x13, sp, #208
	mov	x5, x22
	mov	x6, x24
	b.eq	.Lunix_path_BB65_526
	mov	x10, xzr
.Lunix_path_BB65_524:
	ldr	q0, [x20, x10]
	ldr	q1, [x12, :lo12:.Lunix_path_CPI65_0]
	cmeq	v0.16b, v0.16b, #0
	and	v0.16b, v0.16b, v1.16b
	addp	v0.16b, v0.16b, v0.16b
	addp	v0.16b, v0.16b, v0.16b
	addp	v0.16b, v0.16b, v0.16b
	umov	w11, v0.h[0]
	orr	w11, w11, #0x10000
	rbit	w11, w11
	clz	w11, w11
	cmp	w11, #15
	b.ls	.Lunix_path_BB65_628
	add	x10, x10, #16
	cmp	x10, x9
	b.lo	.Lunix_path_BB65_524
.Lunix_path_BB65_526:
	ldr	q0, [x20, x9]
	ldr	q1, [x12, :lo12:.Lunix_path_CPI65_0]
	cmeq	v0.16b, v0.16b, #0
	and	v0.16b, v0.16b, v1.16b
	addp	v0.16b, v0.16b, v0.16b
	addp	v0.16b, v0.16b, v0.16b
	addp	v0.16b, v0.16b, v0.16b
	umov	w10, v0.h[0]
	orr	w10, w10, #0x10000
	rbit	w10, w10
	clz	w10, w10
	add	x9, x9, x10
	b	.Lunix_path_BB65_299
.Lunix_path_BB65_527:
	mov	x0, x20
	mov	x1, x22
	mov	x2, x23
	bl	memmove
	mov	w26, wzr
	mov	w24, #1
	mov	w22, #1
	mov	x28, x23
	b	.Lunix_path_BB65_47
.Lunix_path_BB65_528:
	ldur	x8, [x29, #-160]
	cbz	x8, .Lunix_path_BB65_530
	ldur	x0, [x29, #-176]
	bl	rattle_dealloc
.Lunix_path_BB65_530:
	mov	x0, x22
	bl	rattle_dealloc
	mov	w24, wzr
	mov	w22, wzr
	mov	x25, xzr
	mov	x21, xzr
	mov	x28, xzr
	mov	w26, #1
	mov	x2, x27
	b	.Lunix_path_BB65_296
.Lunix_path_BB65_531:
	adrp	x9, .Lunix_path_static.88
	add	x9, x9, :lo12:.Lunix_path_static.88
	adrp	x10, .Lunix_path_static.23
	add	x10, x10, :lo12:.Lunix_path_static.23
	cmp	w8, #0
	mov	w8, #3
	mov	w11, #7
	csel	x22, x10, x9, eq
	csel	x21, x11, x8, eq
.Lunix_path_BB65_532:
	sub	x8, x29, #17
	sub	x0, x29, #176
	mov	x1, x21
	stp	xzr, xzr, [x29, #-168]
	stur	x8, [x29, #-176]
	bl	std_alloc.vec.Vec.grow_amortized.f4a78633ca2a48c6.
	cbz	w0, .Lunix_path_BB65_841
	ldp	x25, x8, [x29, #-176]
	ldur	x28, [x29, #-160]
	add	x0, x25, x8
	add	x24, x8, x21
	sub	x9, x0, x22
	cmp	x9, x21
	b.hs	.Lunix_path_BB65_629
	ldrh	w8, [x22]
	cmp	x21, #3
	strh	w8, [x0]
	ldrb	w8, [x22, #2]
	strb	w8, [x0, #2]
	b.eq	.Lunix_path_BB65_630
	ldrb	w8, [x22, #3]
	cmp	x21, #4
	strb	w8, [x0, #3]
	b.eq	.Lunix_path_BB65_630
	ldrh	w8, [x22, #4]
	strh	w8, [x0, #4]
	ldrb	w8, [x22, #6]
	strb	w8, [x0, #6]
	b	.Lunix_path_BB65_630
.Lunix_path_BB65_537:
	mov	w8, #1
	cmp	x8, x23
	b.lo	.Lunix_path_BB65_308
.Lunix_path_BB65_538:
	mov	w26, wzr
	mov	w22, wzr
	mov	x28, xzr
	adrp	x25, .Lunix_path_static.53
	add	x25, x25, :lo12:.Lunix_path_static.53
	mov	w24, #1
	mov	w21, #1
	b	.Lunix_path_BB65_296
.Lunix_path_BB65_539:
	add	x17, x20, x23
	add	x4, sp, #208
	ldurb	w15, [x17, #-1]
	and	w15, w15, #0xfe
	cmp	w15, #46
	b.ne	.Lunix_path_BB65_573
.Lunix_path_BB65_540:
	mov	x19, x2
	mov	w17, wzr
	b	.Lunix_path_BB65_368
.Lunix_path_BB65_541:
	add	x4, sp, #208
	mov	x19, x2
	mov	x9, xzr
	mov	w17, wzr
	b	.Lunix_path_BB65_368
.Lunix_path_BB65_542:
	mov	w24, w26
	mov	w22, w26
	mov	x21, x25
	mov	x28, x25
	b	.Lunix_path_BB65_296
.Lunix_path_BB65_543:
	cmp	x23, #32
	b.hi	.Lunix_path_BB65_620
	movi	v0.16b, #208
	ldur	q1, [x20, #1]
	ldr	q3, [x20]
	and	v2.16b, v1.16b, v0.16b
	movi	v1.16b, #47
	orr	v2.16b, v2.16b, v3.16b
	cmeq	v3.16b, v2.16b, v1.16b
	ldr	q2, [x3, :lo12:.Lunix_path_CPI65_0]
	and	v3.16b, v3.16b, v2.16b
	addp	v3.16b, v3.16b, v3.16b
	addp	v3.16b, v3.16b, v3.16b
	addp	v3.16b, v3.16b, v3.16b
	umov	w10, v3.h[0]
	cbnz	w10, .Lunix_path_BB65_546
	ldur	q3, [x11, #-16]
	and	v0.16b, v3.16b, v0.16b
	ldur	q3, [x11, #-17]
	orr	v0.16b, v0.16b, v3.16b
	cmeq	v0.16b, v0.16b, v1.16b
	and	v0.16b, v0.16b, v2.16b
	addp	v0.16b, v0.16b, v0.16b
	addp	v0.16b, v0.16b, v0.16b
	addp	v0.16b, v0.16b, v0.16b
	umov	w10, v0.h[0]
	cbz	w10, .Lunix_path_BB65_730
.Lunix_path_BB65_546:
	cmp	x23, #18
	b.ls	.Lunix_path_BB65_144
	subs	x10, x23, #19
	b.ne	.Lunix_path_BB65_622
	mov	x11, xzr
.Lunix_path_BB65_549:
	cmp	x9, x11
	movi	v0.16b, #208
	csel	x9, x9, x11, lo
	add	x11, x20, x9
	ldur	q1, [x11, #1]
	ldr	q2, [x11]
	and	v1.16b, v1.16b, v0.16b
	movi	v0.16b, #47
	orr	v1.16b, v1.16b, v2.16b
	cmeq	v2.16b, v1.16b, v0.16b
	ldr	q1, [x3, :lo12:.Lunix_path_CPI65_0]
	and	v2.16b, v2.16b, v1.16b
	addp	v2.16b, v2.16b, v2.16b
	addp	v2.16b, v2.16b, v2.16b
	addp	v2.16b, v2.16b, v2.16b
	umov	w11, v2.h[0]
	cbz	w11, .Lunix_path_BB65_738
	movi	v2.16b, #46
	add	x9, x20, x10
	ldur	q3, [x9, #2]
	ldur	q4, [x9, #3]
	cmeq	v4.16b, v4.16b, v0.16b
	cmeq	v5.16b, v3.16b, v2.16b
	cmeq	v3.16b, v3.16b, v0.16b
	and	v4.16b, v5.16b, v4.16b
	ldur	q5, [x9, #1]
	cmeq	v2.16b, v5.16b, v2.16b
	orr	v3.16b, v3.16b, v4.16b
	ldr	q4, [x9]
	and	v2.16b, v2.16b, v3.16b
	cmeq	v3.16b, v4.16b, v0.16b
	cmeq	v0.16b, v5.16b, v0.16b
	orr	v0.16b, v0.16b, v2.16b
	and	v1.16b, v3.16b, v1.16b
	and	v0.16b, v1.16b, v0.16b
	addp	v0.16b, v0.16b, v0.16b
	addp	v0.16b, v0.16b, v0.16b
	addp	v0.16b, v0.16b, v0.16b
	umov	w9, v0.h[0]
	orr	w9, w9, #0x10000
	rbit	w9, w9
	clz	w9, w9
	add	x9, x10, x9
	b	.Lunix_path_BB65_739
.Lunix_path_BB65_551:
	add	x8, x9, w10, uxtw
.Lunix_path_BB65_552:
	cmp	x8, x21
	b.hs	.Lunix_path_BB65_559
	cbnz	x28, .Lunix_path_BB65_558
.Lunix_path_BB65_554:
	mov	w26, wzr
	mov	w24, wzr
	mov	x25, xzr
	mov	x21, xzr
	mov	w22, wzr
	b	.Lunix_path_BB65_296
.Lunix_path_BB65_555:
	add	x8, x9, w10, uxtw
.Lunix_path_BB65_556:
	cmp	x8, x21
	b.hs	.Lunix_path_BB65_559
	cbz	x28, .Lunix_path_BB65_554
.Lunix_path_BB65_558:
	mov	x0, x25
	bl	rattle_dealloc
	mov	x2, x22
	mov	w26, wzr
	mov	w24, wzr
	mov	x25, xzr
	mov	x21, xzr
	mov	x28, xzr
	mov	w22, wzr
	b	.Lunix_path_BB65_296
.Lunix_path_BB65_559:
	mov	w24, #1
	mov	w26, wzr
	mov	w22, w24
	b	.Lunix_path_BB65_296
.Lunix_path_BB65_560:
	add	x8, x10, w8, uxtw
	b	.Lunix_path_BB65_577
.Lunix_path_BB65_561:
	sub	x8, x8, #8
	ldr	d1, [x14, x8]
	ldr	d2, [x20, x8]
	cmeq	v1.8b, v1.8b, v2.8b
	bic	v0.8b, v0.8b, v1.8b
	addv	b0, v0.8b
	fmov	w9, s0
	orr	w9, w9, #0x100
	rbit	w9, w9
	clz	w9, w9
	add	x8, x8, x9
	b	.Lunix_path_BB65_577
.Lunix_path_BB65_562:
	and	x9, x21, #0x18
	and	x8, x21, #0x7fffffffffffffe0
	add	x10, x20, #16
	add	x11, x25, #16
	and	x12, x21, #0x7fffffffffffffe0
.Lunix_path_BB65_563:
	ldp	q0, q1, [x10, #-16]
	subs	x12, x12, #32
	add	x10, x10, #32
	stp	q0, q1, [x11, #-16]
	add	x11, x11, #32
	b.ne	.Lunix_path_BB65_563
	cmp	x21, x8
	b.eq	.Lunix_path_BB65_570
	cbz	x9, .Lunix_path_BB65_569
.Lunix_path_BB65_566:
	mov	x9, x8
	and	x8, x21, #0x7ffffffffffffff8
.Lunix_path_BB65_567:
	ldr	d0, [x20, x9]
	str	d0, [x25, x9]
	add	x9, x9, #8
	cmp	x8, x9
	b.ne	.Lunix_path_BB65_567
	cmp	x21, x8
	b.eq	.Lunix_path_BB65_570
.Lunix_path_BB65_569:
	ldrb	w9, [x20, x8]
	strb	w9, [x25, x8]
	add	x8, x8, #1
	cmp	x21, x8
	b.ne	.Lunix_path_BB65_569
.Lunix_path_BB65_570:
	mov	x28, x21
	b	.Lunix_path_BB65_167
.Lunix_path_BB65_571:
	movi	v0.8b, #254
	movi	v1.8b, #47
	ldr	d3, [x20]
	ldur	d4, [x20, #1]
	movi	v2.8b, #46
	adrp	x9, .Lunix_path_CPI65_1
	and	v4.8b, v4.8b, v0.8b
	cmeq	v5.8b, v3.8b, v1.8b
	ldr	d3, [x9, :lo12:.Lunix_path_CPI65_1]
	cmeq	v4.8b, v4.8b, v2.8b
	and	v5.8b, v5.8b, v3.8b
	and	v4.8b, v5.8b, v4.8b
	addv	b4, v4.8b
	fmov	w9, s4
	orr	w9, w9, #0x100
	rbit	w9, w9
	clz	w9, w9
	cmp	w9, #8
	b.lo	.Lunix_path_BB65_739
	cmp	x23, #17
	mov	w9, #17
	csel	x9, x23, x9, lo
	sub	x9, x9, #9
	add	x10, x20, x9
	ldr	d4, [x10]
	ldur	d5, [x10, #1]
	and	v0.8b, v5.8b, v0.8b
	cmeq	v1.8b, v4.8b, v1.8b
	cmeq	v0.8b, v0.8b, v2.8b
	and	v1.8b, v1.8b, v3.8b
	and	v0.8b, v1.8b, v0.8b
	addv	b0, v0.8b
	fmov	w10, s0
	orr	w10, w10, #0x100
	rbit	w10, w10
	clz	w10, w10
	add	x9, x9, x10
	b	.Lunix_path_BB65_739
.Lunix_path_BB65_573:
	subs	x15, x9, #17
	b.hs	.Lunix_path_BB65_652
.Lunix_path_BB65_574:
	cmp	x9, #9
	b.hs	.Lunix_path_BB65_665
	mov	x12, xzr
	b	.Lunix_path_BB65_868
.Lunix_path_BB65_576:
	mov	x8, xzr
.Lunix_path_BB65_577:
	sub	x9, x14, #16
.Lunix_path_BB65_578:
	cmp	x8, #15
	b.ls	.Lunix_path_BB65_581
	movi	v0.16b, #47
	ldr	q1, [x9, x8]
	sub	x10, x8, #16
	mov	x8, x10
	cmeq	v0.16b, v1.16b, v0.16b
	ldr	q1, [x16, :lo12:.Lunix_path_CPI65_0]
	and	v0.16b, v0.16b, v1.16b
	addp	v0.16b, v0.16b, v0.16b
	addp	v0.16b, v0.16b, v0.16b
	addp	v0.16b, v0.16b, v0.16b
	umov	w11, v0.h[0]
	cbz	w11, .Lunix_path_BB65_578
	umov	w8, v0.h[0]
	and	x8, x8, #0xffff
	clz	x8, x8
	sub	x8, x10, x8
	add	x21, x8, #64
	b	.Lunix_path_BB65_586
.Lunix_path_BB65_581:
	sub	x9, x14, #1
.Lunix_path_BB65_582:
	cbz	x8, .Lunix_path_BB65_585
	ldrb	w11, [x9, x8]
	sub	x10, x8, #1
	mov	x8, x10
	cmp	w11, #47
	b.ne	.Lunix_path_BB65_582
	add	x21, x10, #1
	b	.Lunix_path_BB65_586
.Lunix_path_BB65_585:
	mov	x21, xzr
.Lunix_path_BB65_586:
	cmp	x19, x21
	b.ls	.Lunix_path_BB65_603
	ldrb	w8, [x14, x21]
	cmp	w8, #47
	b.eq	.Lunix_path_BB65_603
	cmp	w8, #46
	b.ne	.Lunix_path_BB65_595
	add	x8, x21, #1
	cmp	x19, x8
	b.ls	.Lunix_path_BB65_603
	ldrb	w8, [x14, x8]
	cmp	w8, #47
	b.eq	.Lunix_path_BB65_603
	cmp	w8, #46
	b.ne	.Lunix_path_BB65_595
	add	x8, x21, #2
	cmp	x19, x8
	b.ls	.Lunix_path_BB65_603
	cmp	x23, x21
	b.ls	.Lunix_path_BB65_603
	ldrb	w8, [x14, x8]
	cmp	w8, #47
	b.ne	.Lunix_path_BB65_596
	b	.Lunix_path_BB65_603
.Lunix_path_BB65_595:
	cmp	x23, x21
	b.ls	.Lunix_path_BB65_603
.Lunix_path_BB65_596:
	ldrb	w8, [x20, x21]
	cmp	w8, #47
	b.eq	.Lunix_path_BB65_603
	cmp	w8, #46
	b.ne	.Lunix_path_BB65_604
	add	x8, x21, #1
	cmp	x23, x8
	b.ls	.Lunix_path_BB65_603
	ldrb	w8, [x20, x8]
	cmp	w8, #47
	b.eq	.Lunix_path_BB65_603
	cmp	w8, #46
	b.ne	.Lunix_path_BB65_880
	add	x8, x21, #2
	mov	x14, x24
	cmp	x23, x8
	b.ls	.Lunix_path_BB65_603
	ldrb	w8, [x20, x8]
	cmp	w8, #47
	b.ne	.Lunix_path_BB65_604
.Lunix_path_BB65_603:
	mov	x21, xzr
.Lunix_path_BB65_604:
	subs	x19, x19, x21
	add	x15, x14, x21
	str	x15, [sp, #56]
	b.eq	.Lunix_path_BB65_881
.Lunix_path_BB65_605:
	ldrb	w8, [x15]
	cmp	w8, #47
	b.eq	.Lunix_path_BB65_608
	cmp	w8, #46
	b.ne	.Lunix_path_BB65_609
	cmp	x19, #1
	b.ne	.Lunix_path_BB65_610
.Lunix_path_BB65_608:
	mov	w8, #257
	b	.Lunix_path_BB65_611
.Lunix_path_BB65_609:
	str	xzr, [sp, #64]
	b	.Lunix_path_BB65_612
.Lunix_path_BB65_610:
	ldrb	w8, [x15, #1]
	cmp	w8, #47
	mov	w8, #257
	csel	x8, x8, xzr, eq
.Lunix_path_BB65_611:
	str	x8, [sp, #64]
.Lunix_path_BB65_612:
	mov	x25, x19
	b	.Lunix_path_BB65_614
.Lunix_path_BB65_613:
	mov	x25, x1
	cbz	x1, .Lunix_path_BB65_882
.Lunix_path_BB65_614:
	subs	x1, x25, #1
	b.eq	.Lunix_path_BB65_882
	add	x8, x15, x1
	ldrb	w9, [x8]
	cmp	w9, #47
	b.eq	.Lunix_path_BB65_618
	cmp	w9, #46
	b.ne	.Lunix_path_BB65_882
	ldurb	w8, [x8, #-1]
	cmp	w8, #47
	b.ne	.Lunix_path_BB65_882
.Lunix_path_BB65_618:
	sub	x8, x19, x1
	cmp	x8, #8
	b.ne	.Lunix_path_BB65_613
	mov	x0, x15
	mov	x22, x16
	bl	unix_path.filler.trimmed_blocks_len
	ldr	x15, [sp, #56]
	mov	x16, x22
	mov	x1, x0
	b	.Lunix_path_BB65_613
.Lunix_path_BB65_620:
	sub	x10, x23, #33
	movi	v0.16b, #208
	ldur	q2, [x11, #-16]
	add	x12, x20, x10
	ldur	q3, [x11, #-17]
	movi	v4.16b, #47
	ldur	q1, [x12, #1]
	and	v1.16b, v1.16b, v0.16b
	and	v0.16b, v2.16b, v0.16b
	ldr	q2, [x12]
	orr	v1.16b, v1.16b, v2.16b
	orr	v0.16b, v0.16b, v3.16b
	cmeq	v1.16b, v1.16b, v4.16b
	cmeq	v2.16b, v0.16b, v4.16b
	ldr	q0, [x3, :lo12:.Lunix_path_CPI65_0]
	and	v1.16b, v1.16b, v0.16b
	and	v2.16b, v2.16b, v0.16b
	addp	v1.16b, v1.16b, v1.16b
	addp	v2.16b, v2.16b, v2.16b
	addp	v1.16b, v1.16b, v1.16b
	addp	v2.16b, v2.16b, v2.16b
	addp	v1.16b, v1.16b, v1.16b
	addp	v2.16b, v2.16b, v2.16b
	orr	v1.16b, v2.16b, v1.16b
	umov	w11, v1.h[0]
	cbz	w11, .Lunix_path_BB65_661
	sub	x10, x23, #19
.Lunix_path_BB65_622:
	mov	x11, xzr
	b	.Lunix_path_BB65_624
.Lunix_path_BB65_623:
	cmp	x11, x10
	b.hs	.Lunix_path_BB65_549
.Lunix_path_BB65_624:
	movi	v1.16b, #208
	add	x12, x20, x11
	movi	v2.16b, #47
	ldur	q0, [x12, #1]
	and	v3.16b, v0.16b, v1.16b
	ldr	q1, [x12]
	orr	v3.16b, v3.16b, v1.16b
	cmeq	v4.16b, v3.16b, v2.16b
	ldr	q3, [x3, :lo12:.Lunix_path_CPI65_0]
	and	v4.16b, v4.16b, v3.16b
	addp	v4.16b, v4.16b, v4.16b
	addp	v4.16b, v4.16b, v4.16b
	addp	v4.16b, v4.16b, v4.16b
	umov	w13, v4.h[0]
	cbz	w13, .Lunix_path_BB65_627
	movi	v4.16b, #46
	ldur	q5, [x12, #2]
	ldur	q6, [x12, #3]
	cmeq	v1.16b, v1.16b, v2.16b
	cmeq	v6.16b, v6.16b, v2.16b
	cmeq	v7.16b, v5.16b, v4.16b
	cmeq	v5.16b, v5.16b, v2.16b
	cmeq	v4.16b, v0.16b, v4.16b
	cmeq	v0.16b, v0.16b, v2.16b
	and	v1.16b, v1.16b, v3.16b
	and	v6.16b, v7.16b, v6.16b
	orr	v5.16b, v5.16b, v6.16b
	and	v4.16b, v4.16b, v5.16b
	orr	v0.16b, v0.16b, v4.16b
	and	v0.16b, v1.16b, v0.16b
	addp	v0.16b, v0.16b, v0.16b
	addp	v0.16b, v0.16b, v0.16b
	addp	v0.16b, v0.16b, v0.16b
	umov	w12, v0.h[0]
	orr	w12, w12, #0x10000
	rbit	w12, w12
	clz	w12, w12
	cmp	w12, #15
	b.ls	.Lunix_path_BB65_660
	add	x11, x11, #16
	b	.Lunix_path_BB65_623
.Lunix_path_BB65_627:
	add	x11, x11, #16
	cmp	x11, x10
	b.lo	.Lunix_path_BB65_624
	b	.Lunix_path_BB65_623
.Lunix_path_BB65_628:
	add	x9, x10, w11, uxtw
	b	.Lunix_path_BB65_299
.Lunix_path_BB65_629:
	mov	x1, x22
	mov	x2, x21
	bl	memcpy
.Lunix_path_BB65_630:
	cmp	x28, x24
	stur	x24, [x29, #-168]
	b.eq	.Lunix_path_BB65_836
.Lunix_path_BB65_631:
	add	x8, x24, #1
	mov	w10, #9
	strb	w10, [x25, x24]
	sub	x9, x28, x8
	stur	x8, [x29, #-168]
	cmp	x23, x9
	b.hi	.Lunix_path_BB65_838
	add	x0, x25, x8
	add	x21, x8, x23
	sub	x9, x0, x20
	cmp	x9, x23
	b.hs	.Lunix_path_BB65_840
.Lunix_path_BB65_633:
	cmp	x23, #8
	b.lo	.Lunix_path_BB65_635
	add	x9, x8, x25
	sub	x9, x9, x20
	cmp	x9, #32
	b.hs	.Lunix_path_BB65_820
.Lunix_path_BB65_635:
	mov	x9, xzr
	mov	x2, x19
.Lunix_path_BB65_636:
	add	x10, x9, x8
	sub	x8, x23, x9
	add	x9, x20, x9
	add	x10, x25, x10
.Lunix_path_BB65_637:
	ldrb	w11, [x9], #1
	subs	x8, x8, #1
	strb	w11, [x10], #1
	b.ne	.Lunix_path_BB65_637
	b	.Lunix_path_BB65_167
.Lunix_path_BB65_638:
	mov	x2, x25
	b	.Lunix_path_BB65_647
.Lunix_path_BB65_639:
	and	x9, x23, #0x18
	and	x8, x23, #0x7fffffffffffffe0
	add	x10, x22, #16
	add	x11, x20, #16
	and	x12, x23, #0x7fffffffffffffe0
.Lunix_path_BB65_640:
	ldp	q0, q1, [x10, #-16]
	subs	x12, x12, #32
	add	x10, x10, #32
	stp	q0, q1, [x11, #-16]
	add	x11, x11, #32
	b.ne	.Lunix_path_BB65_640
	cmp	x19, x8
	b.eq	.Lunix_path_BB65_646
	cbz	x9, .Lunix_path_BB65_647
.Lunix_path_BB65_643:
	mov	x9, x8
	and	x8, x23, #0x7ffffffffffffff8
.Lunix_path_BB65_644:
	ldr	d0, [x22, x9]
	str	d0, [x20, x9]
	add	x9, x9, #8
	cmp	x8, x9
	b.ne	.Lunix_path_BB65_644
	cmp	x19, x8
	b.ne	.Lunix_path_BB65_647
.Lunix_path_BB65_646:
	mov	w26, wzr
	mov	w24, #1
	b	.Lunix_path_BB65_649
.Lunix_path_BB65_647:
	ldrb	w9, [x22, x8]
	mov	w24, #1
	strb	w9, [x20, x8]
	add	x8, x8, #1
	cmp	x23, x8
	b.ne	.Lunix_path_BB65_647
	mov	w26, wzr
.Lunix_path_BB65_649:
	mov	w22, #1
	mov	x28, x23
	b	.Lunix_path_BB65_295
.Lunix_path_BB65_650:
	cmp	x24, #32
	b.hs	.Lunix_path_BB65_667
	mov	x9, xzr
	b	.Lunix_path_BB65_671
.Lunix_path_BB65_652:
	cmp	x9, #32
	b.hi	.Lunix_path_BB65_731
	movi	v0.16b, #208
	add	x16, x20, x10
	ldur	q1, [x16, #1]
	ldr	q3, [x16]
	and	v2.16b, v1.16b, v0.16b
	movi	v1.16b, #47
	orr	v2.16b, v2.16b, v3.16b
	cmeq	v3.16b, v2.16b, v1.16b
	ldr	q2, [x3, :lo12:.Lunix_path_CPI65_0]
	and	v3.16b, v3.16b, v2.16b
	addp	v3.16b, v3.16b, v3.16b
	addp	v3.16b, v3.16b, v3.16b
	addp	v3.16b, v3.16b, v3.16b
	umov	w16, v3.h[0]
	cbnz	w16, .Lunix_path_BB65_655
	ldur	q3, [x17, #-16]
	and	v0.16b, v3.16b, v0.16b
	ldur	q3, [x17, #-17]
	orr	v0.16b, v0.16b, v3.16b
	cmeq	v0.16b, v0.16b, v1.16b
	and	v0.16b, v0.16b, v2.16b
	addp	v0.16b, v0.16b, v0.16b
	addp	v0.16b, v0.16b, v0.16b
	addp	v0.16b, v0.16b, v0.16b
	umov	w16, v0.h[0]
	cbz	w16, .Lunix_path_BB65_1107
.Lunix_path_BB65_655:
	cmp	x9, #18
	b.ls	.Lunix_path_BB65_574
	sub	x14, x23, #19
	mov	x1, x3
	mov	x19, x2
	cmp	x14, x10
	b.ne	.Lunix_path_BB65_732
	mov	x14, xzr
	mov	x16, xzr
	mov	x0, x1
.Lunix_path_BB65_658:
	cmp	x15, x16
	movi	v0.16b, #208
	csel	x15, x15, x16, lo
	cmp	x16, x13
	csel	x13, x16, x13, lo
	add	x12, x12, x13
	ldur	q1, [x12, #10]
	ldur	q2, [x12, #9]
	and	v1.16b, v1.16b, v0.16b
	movi	v0.16b, #47
	orr	v1.16b, v1.16b, v2.16b
	cmeq	v2.16b, v1.16b, v0.16b
	ldr	q1, [x0, :lo12:.Lunix_path_CPI65_0]
	and	v2.16b, v2.16b, v1.16b
	addp	v2.16b, v2.16b, v2.16b
	addp	v2.16b, v2.16b, v2.16b
	addp	v2.16b, v2.16b, v2.16b
	umov	w12, v2.h[0]
	cbz	w12, .Lunix_path_BB65_866
	add	x12, x20, x14
	movi	v2.16b, #46
	add	x12, x12, x10
	ldur	q3, [x12, #2]
	ldur	q4, [x12, #3]
	cmeq	v5.16b, v3.16b, v2.16b
	cmeq	v4.16b, v4.16b, v0.16b
	cmeq	v3.16b, v3.16b, v0.16b
	and	v4.16b, v5.16b, v4.16b
	ldur	q5, [x12, #1]
	cmeq	v2.16b, v5.16b, v2.16b
	orr	v3.16b, v3.16b, v4.16b
	ldr	q4, [x12]
	and	v2.16b, v2.16b, v3.16b
	cmeq	v3.16b, v4.16b, v0.16b
	cmeq	v0.16b, v5.16b, v0.16b
	orr	v0.16b, v0.16b, v2.16b
	and	v1.16b, v3.16b, v1.16b
	and	v0.16b, v1.16b, v0.16b
	addp	v0.16b, v0.16b, v0.16b
	addp	v0.16b, v0.16b, v0.16b
	addp	v0.16b, v0.16b, v0.16b
	umov	w12, v0.h[0]
	orr	w12, w12, #0x10000
	rbit	w12, w12
	clz	w12, w12
	add	x12, x14, x12
	b	.Lunix_path_BB65_867
.Lunix_path_BB65_660:
	add	x9, x11, w12, uxtw
	b	.Lunix_path_BB65_739
.Lunix_path_BB65_661:
	cbz	x10, .Lunix_path_BB65_730
	mov	x11, xzr
.Lunix_path_BB65_663:
	movi	v1.16b, #208
	add	x12, x20, x11
	movi	v5.16b, #47
	ldur	q2, [x12, #1]
	ldur	q3, [x12, #17]
	and	v2.16b, v2.16b, v1.16b
	and	v1.16b, v3.16b, v1.16b
	ldp	q3, q4, [x12]
	orr	v2.16b, v2.16b, v3.16b
	orr	v1.16b, v1.16b, v4.16b
	cmeq	v2.16b, v2.16b, v5.16b
	cmeq	v1.16b, v1.16b, v5.16b
	and	v2.16b, v2.16b, v0.16b
	and	v1.16b, v1.16b, v0.16b
	addp	v2.16b, v2.16b, v2.16b
	addp	v1.16b, v1.16b, v1.16b
	addp	v2.16b, v2.16b, v2.16b
	addp	v1.16b, v1.16b, v1.16b
	addp	v2.16b, v2.16b, v2.16b
	addp	v1.16b, v1.16b, v1.16b
	orr	v1.16b, v1.16b, v2.16b
	umov	w12, v1.h[0]
	cbnz	w12, .Lunix_path_BB65_546
	add	x11, x11, #32
	cmp	x11, x10
	b.lo	.Lunix_path_BB65_663
	b	.Lunix_path_BB65_741
.Lunix_path_BB65_665:
	movi	v0.8b, #254
	movi	v1.8b, #47
	add	x13, x20, x10
	ldr	d3, [x13]
	ldur	d4, [x13, #1]
	movi	v2.8b, #46
	adrp	x12, .Lunix_path_CPI65_1
	and	v4.8b, v4.8b, v0.8b
	cmeq	v5.8b, v3.8b, v1.8b
	ldr	d3, [x12, :lo12:.Lunix_path_CPI65_1]
	cmeq	v4.8b, v4.8b, v2.8b
	and	v5.8b, v5.8b, v3.8b
	and	v4.8b, v5.8b, v4.8b
	addv	b4, v4.8b
	fmov	w12, s4
	orr	w12, w12, #0x100
	rbit	w12, w12
	clz	w12, w12
	cmp	w12, #8
	b.lo	.Lunix_path_BB65_868
	cmp	x9, #17
	mov	w12, #17
	csel	x15, x9, x12, lo
	cmp	x14, #17
	csel	x12, x14, x12, lo
	add	x12, x12, x13
	ldur	d4, [x12, #-9]
	ldur	d5, [x12, #-8]
	and	v0.8b, v5.8b, v0.8b
	cmeq	v1.8b, v4.8b, v1.8b
	cmeq	v0.8b, v0.8b, v2.8b
	and	v1.8b, v1.8b, v3.8b
	and	v0.8b, v1.8b, v0.8b
	addv	b0, v0.8b
	fmov	w12, s0
	orr	w12, w12, #0x100
	rbit	w12, w12
	clz	w12, w12
	add	x12, x15, x12
	sub	x12, x12, #9
	b	.Lunix_path_BB65_868
.Lunix_path_BB65_667:
	add	x12, x8, x23
	and	x10, x24, #0x18
	and	x9, x24, #0xffffffffffffffe0
	add	x11, x20, #16
	add	x12, x12, #16
	and	x13, x24, #0xffffffffffffffe0
.Lunix_path_BB65_668:
	ldp	q0, q1, [x11, #-16]
	subs	x13, x13, #32
	add	x11, x11, #32
	stp	q0, q1, [x12, #-16]
	add	x12, x12, #32
	b.ne	.Lunix_path_BB65_668
	cmp	x24, x9
	b.eq	.Lunix_path_BB65_677
	cbz	x10, .Lunix_path_BB65_508
.Lunix_path_BB65_671:
	mov	x11, x9
	and	x9, x24, #0xfffffffffffffff8
	add	x12, x8, x11
	sub	x10, x11, x9
	add	x11, x20, x11
	add	x12, x23, x12
.Lunix_path_BB65_672:
	ldr	d0, [x11], #8
	adds	x10, x10, #8
	str	d0, [x12], #8
	b.ne	.Lunix_path_BB65_672
	cmp	x24, x9
	b.eq	.Lunix_path_BB65_677
	b	.Lunix_path_BB65_508
.Lunix_path_BB65_674:
	sub	x0, x29, #176
	mov	x1, x24
	bl	std_alloc.vec.Vec.grow_amortized.a04925db02c9ae72.
	cbz	w0, .Lunix_path_BB65_822
	ldp	x8, x28, [x29, #-168]
	adrp	x14, .Lunix_path_CPI65_0
	ldur	x23, [x29, #-176]
	ldr	x2, [sp, #48]
	add	x0, x23, x8
	add	x19, x8, x24
	sub	x9, x0, x20
	cmp	x9, x24
	b.lo	.Lunix_path_BB65_505
.Lunix_path_BB65_676:
	mov	x1, x20
	mov	x2, x24
	bl	memmove
	ldr	x2, [sp, #48]
	adrp	x14, .Lunix_path_CPI65_0
.Lunix_path_BB65_677:
	cmp	x24, x21
	stp	x19, x28, [x29, #-168]
	b.hs	.Lunix_path_BB65_685
	add	x12, x20, x24
	mov	w10, #1
	neg	x8, x24
	neg	x9, x21
	sub	x10, x10, x21
	mov	x11, x12
	b	.Lunix_path_BB65_681
.Lunix_path_BB65_679:
	cmp	w13, #47
	b.ne	.Lunix_path_BB65_684
.Lunix_path_BB65_680:
	sub	x8, x8, #1
	add	x24, x24, #1
	mov	x12, x11
	cmp	x9, x8
	b.eq	.Lunix_path_BB65_729
.Lunix_path_BB65_681:
	ldrb	w13, [x11], #1
	cmp	w13, #46
	b.ne	.Lunix_path_BB65_679
	cmp	x10, x8
	b.eq	.Lunix_path_BB65_729
	ldrb	w12, [x12, #1]
	cmp	w12, #47
	b.eq	.Lunix_path_BB65_680
.Lunix_path_BB65_684:
	neg	x24, x8
.Lunix_path_BB65_685:
	cmp	x24, x21
	b.hs	.Lunix_path_BB65_729
	sub	x8, x21, x24
	add	x27, x20, x24
	subs	x9, x8, #18
	b.hs	.Lunix_path_BB65_688
	mov	x26, xzr
	b	.Lunix_path_BB65_694
.Lunix_path_BB65_688:
	b.eq	.Lunix_path_BB65_692
	mov	x10, xzr
.Lunix_path_BB65_690:
	movi	v0.16b, #46
	movi	v1.16b, #47
	add	x11, x27, x10
	ldur	q2, [x11, #1]
	ldur	q3, [x11, #2]
	ldr	q4, [x11]
	cmeq	v0.16b, v2.16b, v0.16b
	cmeq	v3.16b, v3.16b, v1.16b
	and	v0.16b, v0.16b, v3.16b
	cmeq	v3.16b, v4.16b, v1.16b
	cmeq	v1.16b, v2.16b, v1.16b
	ldr	q2, [x14, :lo12:.Lunix_path_CPI65_0]
	orr	v0.16b, v1.16b, v0.16b
	and	v1.16b, v3.16b, v2.16b
	and	v0.16b, v1.16b, v0.16b
	addp	v0.16b, v0.16b, v0.16b
	addp	v0.16b, v0.16b, v0.16b
	addp	v0.16b, v0.16b, v0.16b
	umov	w11, v0.h[0]
	orr	w11, w11, #0x10000
	rbit	w11, w11
	clz	w11, w11
	cmp	w11, #15
	b.ls	.Lunix_path_BB65_693
	add	x10, x10, #16
	cmp	x10, x9
	b.lo	.Lunix_path_BB65_690
.Lunix_path_BB65_692:
	movi	v0.16b, #46
	movi	v1.16b, #47
	add	x10, x27, x9
	ldur	q2, [x10, #1]
	ldur	q3, [x10, #2]
	ldr	q4, [x10]
	cmeq	v0.16b, v2.16b, v0.16b
	cmeq	v3.16b, v3.16b, v1.16b
	and	v0.16b, v0.16b, v3.16b
	cmeq	v3.16b, v4.16b, v1.16b
	cmeq	v1.16b, v2.16b, v1.16b
	ldr	q2, [x14, :lo12:.Lunix_path_CPI65_0]
	orr	v0.16b, v1.16b, v0.16b
	and	v1.16b, v3.16b, v2.16b
	and	v0.16b, v1.16b, v0.16b
	addp	v0.16b, v0.16b, v0.16b
	addp	v0.16b, v0.16b, v0.16b
	addp	v0.16b, v0.16b, v0.16b
	umov	w10, v0.h[0]
	orr	w10, w10, #0x10000
	rbit	w10, w10
	clz	w10, w10
	add	x26, x9, x10
	b	.Lunix_path_BB65_694
.Lunix_path_BB65_693:
	add	x26, x10, w11, uxtw
.Lunix_path_BB65_694:
	cmp	x26, x8
	b.hs	.Lunix_path_BB65_704
	add	x10, x20, #1
	sub	x9, x8, #2
	sub	x11, x8, #1
	add	x10, x10, x24
	b	.Lunix_path_BB65_698
.Lunix_path_BB65_696:
	cmp	w12, #47
	b.eq	.Lunix_path_BB65_704
.Lunix_path_BB65_697:
	add	x26, x26, #1
	cmp	x8, x26
	b.eq	.Lunix_path_BB65_703
.Lunix_path_BB65_698:
	add	x12, x10, x26
	ldurb	w12, [x12, #-1]
	cmp	w12, #47
	b.ne	.Lunix_path_BB65_697
	cmp	x11, x26
	b.eq	.Lunix_path_BB65_704
	ldrb	w12, [x10, x26]
	cmp	w12, #46
	b.ne	.Lunix_path_BB65_696
	cmp	x9, x26
	b.eq	.Lunix_path_BB65_704
	add	x12, x10, x26
	ldrb	w12, [x12, #1]
	b	.Lunix_path_BB65_696
.Lunix_path_BB65_703:
	sub	x26, x21, x24
.Lunix_path_BB65_704:
	add	x25, x26, #1
	sub	x8, x28, x19
	cmp	x25, x8
	b.hi	.Lunix_path_BB65_720
	sub	x1, x27, #1
	add	x8, x23, x19
	sub	x8, x8, x1
	cmp	x8, x25
	b.hs	.Lunix_path_BB65_722
.Lunix_path_BB65_706:
	cmp	x25, #8
	b.lo	.Lunix_path_BB65_708
	sub	x8, x19, x20
	add	x8, x8, x23
	sub	x8, x8, x24
	add	x8, x8, #1
	cmp	x8, #32
	b.hs	.Lunix_path_BB65_711
.Lunix_path_BB65_708:
	mov	x8, xzr
.Lunix_path_BB65_709:
	sub	x9, x26, x8
	add	x10, x8, x24
	add	x11, x8, x19
	add	x8, x9, #1
	sub	x9, x20, #1
	add	x9, x9, x10
	add	x10, x23, x11
.Lunix_path_BB65_710:
	ldrb	w11, [x9], #1
	subs	x8, x8, #1
	strb	w11, [x10], #1
	b.ne	.Lunix_path_BB65_710
	b	.Lunix_path_BB65_723
.Lunix_path_BB65_711:
	cmp	x25, #32
	b.hs	.Lunix_path_BB65_713
	mov	x8, xzr
	b	.Lunix_path_BB65_717
.Lunix_path_BB65_713:
	add	x10, x23, x19
	add	x11, x20, #15
	and	x9, x25, #0x18
	and	x8, x25, #0xffffffffffffffe0
	add	x10, x10, #16
	add	x11, x11, x24
	and	x12, x25, #0xffffffffffffffe0
.Lunix_path_BB65_714:
	ldp	q0, q1, [x11, #-16]
	subs	x12, x12, #32
	add	x11, x11, #32
	stp	q0, q1, [x10, #-16]
	add	x10, x10, #32
	b.ne	.Lunix_path_BB65_714
	cmp	x25, x8
	b.eq	.Lunix_path_BB65_723
	cbz	x9, .Lunix_path_BB65_709
.Lunix_path_BB65_717:
	mov	x9, x8
	and	x8, x25, #0xfffffffffffffff8
	sub	x12, x20, #1
	add	x10, x24, x9
	add	x11, x19, x9
	sub	x9, x9, x8
	add	x10, x12, x10
	add	x11, x23, x11
.Lunix_path_BB65_718:
	ldr	d0, [x10], #8
	adds	x9, x9, #8
	str	d0, [x11], #8
	b.ne	.Lunix_path_BB65_718
	cmp	x25, x8
	b.eq	.Lunix_path_BB65_723
	b	.Lunix_path_BB65_709
.Lunix_path_BB65_720:
	sub	x0, x29, #176
	add	x1, x26, #1
	bl	std_alloc.vec.Vec.grow_amortized.a04925db02c9ae72.
	cbz	w0, .Lunix_path_BB65_822
	ldp	x19, x28, [x29, #-168]
	adrp	x14, .Lunix_path_CPI65_0
	ldur	x23, [x29, #-176]
	ldr	x2, [sp, #48]
	sub	x1, x27, #1
	add	x8, x23, x19
	sub	x8, x8, x1
	cmp	x8, x25
	b.lo	.Lunix_path_BB65_706
.Lunix_path_BB65_722:
	add	x0, x23, x19
	add	x2, x26, #1
	bl	memmove
	ldr	x2, [sp, #48]
	adrp	x14, .Lunix_path_CPI65_0
.Lunix_path_BB65_723:
	add	x24, x26, x24
	add	x19, x19, x25
	cmp	x24, x21
	stp	x19, x28, [x29, #-168]
	b.hs	.Lunix_path_BB65_685
	b	.Lunix_path_BB65_725
.Lunix_path_BB65_724:
	add	x24, x24, #1
	cmp	x21, x24
	b.eq	.Lunix_path_BB65_729
.Lunix_path_BB65_725:
	ldrb	w8, [x20, x24]
	cmp	w8, #47
	b.eq	.Lunix_path_BB65_724
	cmp	w8, #46
	b.ne	.Lunix_path_BB65_685
	cmp	x22, x24
	b.eq	.Lunix_path_BB65_729
	add	x8, x20, x24
	ldrb	w8, [x8, #1]
	cmp	w8, #47
	b.eq	.Lunix_path_BB65_724
	b	.Lunix_path_BB65_685
.Lunix_path_BB65_729:
	ldur	x25, [x29, #-176]
	mov	x21, x19
	b	.Lunix_path_BB65_167
.Lunix_path_BB65_730:
	sub	x8, x23, #16
	b	.Lunix_path_BB65_750
.Lunix_path_BB65_731:
	sub	x16, x9, #33
	movi	v0.16b, #208
	ldur	q2, [x17, #-16]
	add	x18, x8, x16
	ldur	q3, [x17, #-17]
	movi	v4.16b, #47
	ldur	q1, [x18, #1]
	mov	x19, x2
	mov	x1, x3
	and	v1.16b, v1.16b, v0.16b
	and	v0.16b, v2.16b, v0.16b
	ldr	q2, [x18]
	orr	v1.16b, v1.16b, v2.16b
	orr	v0.16b, v0.16b, v3.16b
	cmeq	v1.16b, v1.16b, v4.16b
	cmeq	v2.16b, v0.16b, v4.16b
	ldr	q0, [x3, :lo12:.Lunix_path_CPI65_0]
	and	v1.16b, v1.16b, v0.16b
	and	v2.16b, v2.16b, v0.16b
	addp	v1.16b, v1.16b, v1.16b
	addp	v2.16b, v2.16b, v2.16b
	addp	v1.16b, v1.16b, v1.16b
	addp	v2.16b, v2.16b, v2.16b
	addp	v1.16b, v1.16b, v1.16b
	addp	v2.16b, v2.16b, v2.16b
	orr	v1.16b, v2.16b, v1.16b
	umov	w17, v1.h[0]
	cbz	w17, .Lunix_path_BB65_827
.Lunix_path_BB65_732:
	sub	x14, x9, #19
	mov	x16, xzr
	mov	x0, x1
	b	.Lunix_path_BB65_734
.Lunix_path_BB65_733:
	cmp	x16, x14
	b.hs	.Lunix_path_BB65_658
.Lunix_path_BB65_734:
	add	x17, x20, x16
	movi	v1.16b, #208
	movi	v2.16b, #47
	add	x17, x17, x10
	ldur	q0, [x17, #1]
	and	v3.16b, v0.16b, v1.16b
	ldr	q1, [x17]
	orr	v3.16b, v3.16b, v1.16b
	cmeq	v4.16b, v3.16b, v2.16b
	ldr	q3, [x0, :lo12:.Lunix_path_CPI65_0]
	and	v4.16b, v4.16b, v3.16b
	addp	v4.16b, v4.16b, v4.16b
	addp	v4.16b, v4.16b, v4.16b
	addp	v4.16b, v4.16b, v4.16b
	umov	w18, v4.h[0]
	cbz	w18, .Lunix_path_BB65_737
	movi	v4.16b, #46
	ldur	q5, [x17, #2]
	ldur	q6, [x17, #3]
	cmeq	v1.16b, v1.16b, v2.16b
	cmeq	v6.16b, v6.16b, v2.16b
	cmeq	v7.16b, v5.16b, v4.16b
	cmeq	v5.16b, v5.16b, v2.16b
	cmeq	v4.16b, v0.16b, v4.16b
	cmeq	v0.16b, v0.16b, v2.16b
	and	v1.16b, v1.16b, v3.16b
	and	v6.16b, v7.16b, v6.16b
	orr	v5.16b, v5.16b, v6.16b
	and	v4.16b, v4.16b, v5.16b
	orr	v0.16b, v0.16b, v4.16b
	and	v0.16b, v1.16b, v0.16b
	addp	v0.16b, v0.16b, v0.16b
	addp	v0.16b, v0.16b, v0.16b
	addp	v0.16b, v0.16b, v0.16b
	umov	w17, v0.h[0]
	orr	w17, w17, #0x10000
	rbit	w17, w17
	clz	w17, w17
	cmp	w17, #15
	b.ls	.Lunix_path_BB65_826
	add	x16, x16, #16
	b	.Lunix_path_BB65_733
.Lunix_path_BB65_737:
	add	x16, x16, #16
	cmp	x16, x14
	b.lo	.Lunix_path_BB65_734
	b	.Lunix_path_BB65_733
.Lunix_path_BB65_738:
	add	x9, x9, #16
.Lunix_path_BB65_739:
	cmp	x9, x23
	b.lo	.Lunix_path_BB65_757
.Lunix_path_BB65_740:
	cmp	x9, x23
	b.ne	.Lunix_path_BB65_745
.Lunix_path_BB65_741:
	cmp	x23, #15
	b.hi	.Lunix_path_BB65_749
	mov	x8, xzr
.Lunix_path_BB65_743:
	ldrb	w9, [x20, x8]
	cbz	w9, .Lunix_path_BB65_765
	add	x8, x8, #1
	cmp	x23, x8
	b.ne	.Lunix_path_BB65_743
	b	.Lunix_path_BB65_766
.Lunix_path_BB65_745:
	cmp	w8, #47
	b.eq	.Lunix_path_BB65_748
	cmp	w8, #46
	b.ne	.Lunix_path_BB65_763
	cmp	x23, #1
	b.ne	.Lunix_path_BB65_770
.Lunix_path_BB65_748:
	mov	w19, #1
	b	.Lunix_path_BB65_771
.Lunix_path_BB65_749:
	subs	x8, x23, #16
	b.eq	.Lunix_path_BB65_753
.Lunix_path_BB65_750:
	mov	x9, xzr
.Lunix_path_BB65_751:
	ldr	q0, [x20, x9]
	ldr	q1, [x3, :lo12:.Lunix_path_CPI65_0]
	cmeq	v0.16b, v0.16b, #0
	and	v0.16b, v0.16b, v1.16b
	addp	v0.16b, v0.16b, v0.16b
	addp	v0.16b, v0.16b, v0.16b
	addp	v0.16b, v0.16b, v0.16b
	umov	w10, v0.h[0]
	orr	w10, w10, #0x10000
	rbit	w10, w10
	clz	w10, w10
	cmp	w10, #15
	b.ls	.Lunix_path_BB65_764
	add	x9, x9, #16
	cmp	x9, x8
	b.lo	.Lunix_path_BB65_751
.Lunix_path_BB65_753:
	ldr	q0, [x20, x8]
	ldr	q1, [x3, :lo12:.Lunix_path_CPI65_0]
	cmeq	v0.16b, v0.16b, #0
	and	v0.16b, v0.16b, v1.16b
	addp	v0.16b, v0.16b, v0.16b
	addp	v0.16b, v0.16b, v0.16b
	addp	v0.16b, v0.16b, v0.16b
	umov	w9, v0.h[0]
	orr	w9, w9, #0x10000
	rbit	w9, w9
	clz	w9, w9
	add	x8, x8, x9
	b	.Lunix_path_BB65_765
.Lunix_path_BB65_754:
	add	x11, x20, x9
	ldrb	w11, [x11, #3]
.Lunix_path_BB65_755:
	cmp	w11, #47
	b.eq	.Lunix_path_BB65_740
.Lunix_path_BB65_756:
	cmp	x23, x10
	mov	x9, x10
	b.eq	.Lunix_path_BB65_741
.Lunix_path_BB65_757:
	ldrb	w10, [x20, x9]
	cmp	w10, #47
	add	x10, x9, #1
	b.ne	.Lunix_path_BB65_756
	cmp	x23, x10
	b.ls	.Lunix_path_BB65_740
	add	x11, x20, x9
	ldrb	w11, [x11, #1]
	cmp	w11, #46
	b.ne	.Lunix_path_BB65_755
	add	x11, x9, #2
	cmp	x23, x11
	b.ls	.Lunix_path_BB65_740
	add	x11, x20, x9
	ldrb	w11, [x11, #2]
	cmp	w11, #46
	b.ne	.Lunix_path_BB65_755
	add	x11, x9, #3
	cmp	x23, x11
	b.hi	.Lunix_path_BB65_754
	b	.Lunix_path_BB65_740
.Lunix_path_BB65_763:
	mov	w19, wzr
	b	.Lunix_path_BB65_771
.Lunix_path_BB65_764:
	add	x8, x9, w10, uxtw
.Lunix_path_BB65_765:
	cmp	x8, x23
	b.lo	.Lunix_path_BB65_1
.Lunix_path_BB65_766:
	mov	x19, x2
	sub	x0, x29, #80
	mov	x1, x5
	mov	x2, x6
	mov	x3, x20
	mov	x4, x23
	bl	unix_path.path.Path.join
	ldurb	w8, [x29, #-80]
	cbz	w8, .Lunix_path_BB65_768
.Lunix_path_BB65_767:
	mov	w24, wzr
	mov	w22, wzr
	mov	x25, xzr
	mov	x21, xzr
	mov	x28, xzr
	mov	w26, #1
	mov	x2, x19
	b	.Lunix_path_BB65_296
.Lunix_path_BB65_768:
	ldp	x25, x21, [x29, #-72]
	mov	w26, wzr
	ldur	x28, [x29, #-56]
.Lunix_path_BB65_769:
	mov	w24, #1
	mov	w22, #1
	mov	x2, x19
	b	.Lunix_path_BB65_296
.Lunix_path_BB65_770:
	ldrb	w8, [x20, #1]
	cmp	w8, #47
	cset	w19, eq
.Lunix_path_BB65_771:
	mov	x8, x23
	b	.Lunix_path_BB65_773
.Lunix_path_BB65_772:
	mov	x8, x1
	cbz	x1, .Lunix_path_BB65_741
.Lunix_path_BB65_773:
	subs	x1, x8, #1
	b.eq	.Lunix_path_BB65_779
	add	x9, x20, x1
	ldrb	w10, [x9]
	cmp	w10, #47
	b.eq	.Lunix_path_BB65_777
	cmp	w10, #46
	b.ne	.Lunix_path_BB65_779
	ldurb	w9, [x9, #-1]
	cmp	w9, #47
	b.ne	.Lunix_path_BB65_779
.Lunix_path_BB65_777:
	sub	x8, x23, x1
	cmp	x8, #8
	b.ne	.Lunix_path_BB65_772
	mov	x0, x20
	mov	x21, x2
	mov	x22, x3
	mov	x24, x5
	mov	x25, x6
	bl	unix_path.filler.trimmed_blocks_len
	mov	x6, x25
	mov	x5, x24
	mov	x3, x22
	mov	x2, x21
	mov	x1, x0
	b	.Lunix_path_BB65_772
.Lunix_path_BB65_779:
	mov	x9, xzr
	mov	x11, x8
	mov	x10, x20
	b	.Lunix_path_BB65_783
.Lunix_path_BB65_780:
	mov	x11, xzr
.Lunix_path_BB65_781:
	add	x11, x11, x12
.Lunix_path_BB65_782:
	add	x9, x11, x9
	mov	w19, wzr
	subs	x11, x8, x9
	add	x10, x20, x9
	b.eq	.Lunix_path_BB65_741
.Lunix_path_BB65_783:
	tbz	w19, #0, .Lunix_path_BB65_791
	subs	x13, x11, #1
	b.eq	.Lunix_path_BB65_808
	mov	x12, xzr
	sub	x11, x11, #2
	b	.Lunix_path_BB65_787
.Lunix_path_BB65_786:
	add	x12, x12, #1
	cmp	x13, x12
	b.eq	.Lunix_path_BB65_806
.Lunix_path_BB65_787:
	add	x14, x10, x12
	ldrb	w14, [x14, #1]
	cmp	w14, #47
	b.eq	.Lunix_path_BB65_786
	cmp	w14, #46
	b.ne	.Lunix_path_BB65_807
	cmp	x11, x12
	b.eq	.Lunix_path_BB65_806
	add	x14, x10, x12
	ldrb	w14, [x14, #2]
	cmp	w14, #47
	b.eq	.Lunix_path_BB65_786
	b	.Lunix_path_BB65_807
.Lunix_path_BB65_791:
	cmp	x11, #1
	b.eq	.Lunix_path_BB65_796
	ldrb	w12, [x10]
	cmp	w12, #46
	b.ne	.Lunix_path_BB65_796
	ldrb	w12, [x10, #1]
	cmp	w12, #46
	b.ne	.Lunix_path_BB65_796
	cmp	x11, #2
	b.eq	.Lunix_path_BB65_1
	ldrb	w12, [x10, #2]
	cmp	w12, #47
	b.eq	.Lunix_path_BB65_1
.Lunix_path_BB65_796:
	cmp	x11, #15
	b.hi	.Lunix_path_BB65_801
	mov	x12, xzr
.Lunix_path_BB65_798:
	ldrb	w13, [x10, x12]
	cmp	w13, #47
	b.eq	.Lunix_path_BB65_810
	add	x12, x12, #1
	cmp	x11, x12
	b.ne	.Lunix_path_BB65_798
	mov	x12, x11
	b	.Lunix_path_BB65_810
.Lunix_path_BB65_801:
	subs	x12, x11, #16
	b.eq	.Lunix_path_BB65_805
	mov	x13, xzr
.Lunix_path_BB65_803:
	movi	v0.16b, #47
	ldr	q1, [x10, x13]
	cmeq	v0.16b, v1.16b, v0.16b
	ldr	q1, [x3, :lo12:.Lunix_path_CPI65_0]
	and	v0.16b, v0.16b, v1.16b
	addp	v0.16b, v0.16b, v0.16b
	addp	v0.16b, v0.16b, v0.16b
	addp	v0.16b, v0.16b, v0.16b
	umov	w14, v0.h[0]
	orr	w14, w14, #0x10000
	rbit	w14, w14
	clz	w14, w14
	cmp	w14, #15
	b.ls	.Lunix_path_BB65_809
	add	x13, x13, #16
	cmp	x13, x12
	b.lo	.Lunix_path_BB65_803
.Lunix_path_BB65_805:
	movi	v0.16b, #47
	ldr	q1, [x10, x12]
	cmeq	v0.16b, v1.16b, v0.16b
	ldr	q1, [x3, :lo12:.Lunix_path_CPI65_0]
	and	v0.16b, v0.16b, v1.16b
	addp	v0.16b, v0.16b, v0.16b
	addp	v0.16b, v0.16b, v0.16b
	addp	v0.16b, v0.16b, v0.16b
	umov	w13, v0.h[0]
	orr	w13, w13, #0x10000
	rbit	w13, w13
	clz	w13, w13
	add	x12, x12, x13
	b	.Lunix_path_BB65_810
.Lunix_path_BB65_806:
	mov	x12, x13
.Lunix_path_BB65_807:
	add	x11, x12, #1
.Lunix_path_BB65_808:
	ldrb	w10, [x10]
	cmp	w10, #47
	b.ne	.Lunix_path_BB65_782
	b	.Lunix_path_BB65_1
.Lunix_path_BB65_809:
	add	x12, x13, w14, uxtw
.Lunix_path_BB65_810:
	subs	x13, x11, x12
	b.eq	.Lunix_path_BB65_780
	mov	x11, xzr
	add	x10, x10, x12
	sub	x14, x13, #1
	b	.Lunix_path_BB65_813
.Lunix_path_BB65_812:
	add	x11, x11, #1
	cmp	x13, x11
	b.eq	.Lunix_path_BB65_817
.Lunix_path_BB65_813:
	ldrb	w15, [x10, x11]
	cmp	w15, #47
	b.eq	.Lunix_path_BB65_812
	cmp	w15, #46
	b.ne	.Lunix_path_BB65_781
	cmp	x14, x11
	b.eq	.Lunix_path_BB65_817
	add	x15, x10, x11
	ldrb	w15, [x15, #1]
	cmp	w15, #47
	b.eq	.Lunix_path_BB65_812
	b	.Lunix_path_BB65_781
.Lunix_path_BB65_817:
	mov	x11, x13
	b	.Lunix_path_BB65_781
.Lunix_path_BB65_818:
	mov	w8, #1
	b	.Lunix_path_BB65_577
.Lunix_path_BB65_819:
	mov	w8, #1
	mov	w26, wzr
	mov	x4, xzr
	subs	x9, x28, x27
	b.hi	.Lunix_path_BB65_421
	b	.Lunix_path_BB65_443
.Lunix_path_BB65_820:
	cmp	x23, #32
	b.hs	.Lunix_path_BB65_829
	mov	x9, xzr
	b	.Lunix_path_BB65_833
.Lunix_path_BB65_822:
	ldur	x8, [x29, #-160]
	ldr	x2, [sp, #48]
	cbz	x8, .Lunix_path_BB65_824
	ldur	x0, [x29, #-176]
	bl	rattle_dealloc
	ldr	x2, [sp, #48]
.Lunix_path_BB65_824:
	movi	v0.2d, #0000000000000000
	mov	w8, #1
	str	xzr, [x2, #40]
	strb	w8, [x2]
	stur	q0, [x2, #8]
	stur	q0, [x2, #24]
	b	.Lunix_path_BB65_297
.Lunix_path_BB65_825:
	add	x4, sp, #208
	mov	x19, x2
	mov	w17, wzr
	mov	w9, #2
	b	.Lunix_path_BB65_368
.Lunix_path_BB65_826:
	add	x12, x16, w17, uxtw
	b	.Lunix_path_BB65_867
.Lunix_path_BB65_827:
	sub	x17, x23, #33
	cmp	x17, x10
	b.ne	.Lunix_path_BB65_1104
	mov	w17, #1
	mov	w9, #33
	b	.Lunix_path_BB65_368
.Lunix_path_BB65_829:
	add	x12, x8, x25
	and	x10, x23, #0x18
	and	x9, x23, #0xffffffffffffffe0
	add	x11, x20, #16
	add	x12, x12, #16
	and	x13, x23, #0xffffffffffffffe0
.Lunix_path_BB65_830:
	ldp	q0, q1, [x11, #-16]
	subs	x13, x13, #32
	add	x11, x11, #32
	stp	q0, q1, [x12, #-16]
	add	x12, x12, #32
	b.ne	.Lunix_path_BB65_830
	cmp	x23, x9
	mov	x2, x19
	b.eq	.Lunix_path_BB65_167
	cbz	x10, .Lunix_path_BB65_636
.Lunix_path_BB65_833:
	mov	x11, x9
	and	x9, x23, #0xfffffffffffffff8
	add	x12, x8, x11
	sub	x10, x11, x9
	add	x11, x20, x11
	add	x12, x25, x12
.Lunix_path_BB65_834:
	ldr	d0, [x11], #8
	adds	x10, x10, #8
	str	d0, [x12], #8
	b.ne	.Lunix_path_BB65_834
	cmp	x23, x9
	mov	x2, x19
	b.eq	.Lunix_path_BB65_167
	b	.Lunix_path_BB65_636
.Lunix_path_BB65_836:
	sub	x0, x29, #176
	mov	w1, #1
	bl	std_alloc.vec.Vec.grow_amortized.f4a78633ca2a48c6.
	cbz	w0, .Lunix_path_BB65_841
	ldp	x25, x24, [x29, #-176]
	ldur	x28, [x29, #-160]
	b	.Lunix_path_BB65_631
.Lunix_path_BB65_838:
	sub	x0, x29, #176
	mov	x1, x23
	bl	std_alloc.vec.Vec.grow_amortized.f4a78633ca2a48c6.
	cbz	w0, .Lunix_path_BB65_841
	ldp	x8, x28, [x29, #-168]
	ldur	x25, [x29, #-176]
	add	x0, x25, x8
	add	x21, x8, x23
	sub	x9, x0, x20
	cmp	x9, x23
	b.lo	.Lunix_path_BB65_633
.Lunix_path_BB65_840:
	mov	x1, x20
	mov	x2, x23
	bl	memmove
	b	.Lunix_path_BB65_166
.Lunix_path_BB65_841:
	ldur	x8, [x29, #-160]
	cbz	x8, .Lunix_path_BB65_767
	ldur	x0, [x29, #-176]
	bl	rattle_dealloc
	b	.Lunix_path_BB65_767
.Lunix_path_BB65_843:
	ldrb	w9, [x24, #2]
	mov	x16, x22
	cmp	w9, #47
	b.eq	.Lunix_path_BB65_1141
.Lunix_path_BB65_844:
	add	x11, x28, x26
	ldurb	w9, [x11, #-1]
	and	w9, w9, #0xfe
	cmp	w9, #46
	b.eq	.Lunix_path_BB65_1135
	subs	x9, x26, #17
	b.hs	.Lunix_path_BB65_848
.Lunix_path_BB65_846:
	cmp	x26, #9
	b.hs	.Lunix_path_BB65_856
	mov	x9, xzr
	b	.Lunix_path_BB65_1110
.Lunix_path_BB65_848:
	cmp	x26, #32
	b.hi	.Lunix_path_BB65_858
	movi	v0.16b, #208
	ldur	q1, [x24, #1]
	ldr	q3, [x24]
	and	v2.16b, v1.16b, v0.16b
	movi	v1.16b, #47
	orr	v2.16b, v2.16b, v3.16b
	cmeq	v3.16b, v2.16b, v1.16b
	ldr	q2, [x16, :lo12:.Lunix_path_CPI65_0]
	and	v3.16b, v3.16b, v2.16b
	addp	v3.16b, v3.16b, v3.16b
	addp	v3.16b, v3.16b, v3.16b
	addp	v3.16b, v3.16b, v3.16b
	umov	w10, v3.h[0]
	cbnz	w10, .Lunix_path_BB65_851
	ldur	q3, [x11, #-16]
	and	v0.16b, v3.16b, v0.16b
	ldur	q3, [x11, #-17]
	orr	v0.16b, v0.16b, v3.16b
	cmeq	v0.16b, v0.16b, v1.16b
	and	v0.16b, v0.16b, v2.16b
	addp	v0.16b, v0.16b, v0.16b
	addp	v0.16b, v0.16b, v0.16b
	addp	v0.16b, v0.16b, v0.16b
	umov	w10, v0.h[0]
	cbz	w10, .Lunix_path_BB65_1112
.Lunix_path_BB65_851:
	cmp	x26, #18
	b.ls	.Lunix_path_BB65_846
	subs	x10, x26, #19
	b.ne	.Lunix_path_BB65_860
	mov	x11, xzr
.Lunix_path_BB65_854:
	cmp	x9, x11
	movi	v0.16b, #208
	csel	x9, x9, x11, lo
	add	x11, x28, x9
	ldur	q1, [x11, #1]
	ldr	q2, [x11]
	and	v1.16b, v1.16b, v0.16b
	movi	v0.16b, #47
	orr	v1.16b, v1.16b, v2.16b
	cmeq	v2.16b, v1.16b, v0.16b
	ldr	q1, [x22, :lo12:.Lunix_path_CPI65_0]
	and	v2.16b, v2.16b, v1.16b
	addp	v2.16b, v2.16b, v2.16b
	addp	v2.16b, v2.16b, v2.16b
	addp	v2.16b, v2.16b, v2.16b
	umov	w11, v2.h[0]
	cbz	w11, .Lunix_path_BB65_1108
	movi	v2.16b, #46
	add	x9, x28, x10
	ldur	q3, [x9, #2]
	ldur	q4, [x9, #3]
	cmeq	v4.16b, v4.16b, v0.16b
	cmeq	v5.16b, v3.16b, v2.16b
	cmeq	v3.16b, v3.16b, v0.16b
	and	v4.16b, v5.16b, v4.16b
	ldur	q5, [x9, #1]
	cmeq	v2.16b, v5.16b, v2.16b
	orr	v3.16b, v3.16b, v4.16b
	ldr	q4, [x9]
	and	v2.16b, v2.16b, v3.16b
	cmeq	v3.16b, v4.16b, v0.16b
	cmeq	v0.16b, v5.16b, v0.16b
	orr	v0.16b, v0.16b, v2.16b
	and	v1.16b, v3.16b, v1.16b
	and	v0.16b, v1.16b, v0.16b
	addp	v0.16b, v0.16b, v0.16b
	addp	v0.16b, v0.16b, v0.16b
	addp	v0.16b, v0.16b, v0.16b
	umov	w9, v0.h[0]
	orr	w9, w9, #0x10000
	rbit	w9, w9
	clz	w9, w9
	add	x9, x10, x9
	b	.Lunix_path_BB65_1109
.Lunix_path_BB65_856:
	movi	v0.8b, #254
	movi	v1.8b, #47
	ldr	d3, [x24]
	ldur	d4, [x24, #1]
	movi	v2.8b, #46
	adrp	x9, .Lunix_path_CPI65_1
	and	v4.8b, v4.8b, v0.8b
	cmeq	v5.8b, v3.8b, v1.8b
	ldr	d3, [x9, :lo12:.Lunix_path_CPI65_1]
	cmeq	v4.8b, v4.8b, v2.8b
	and	v5.8b, v5.8b, v3.8b
	and	v4.8b, v5.8b, v4.8b
	addv	b4, v4.8b
	fmov	w9, s4
	orr	w9, w9, #0x100
	rbit	w9, w9
	clz	w9, w9
	cmp	w9, #8
	b.lo	.Lunix_path_BB65_1110
	cmp	x26, #17
	mov	w9, #17
	csel	x9, x26, x9, lo
	sub	x9, x9, #9
	add	x10, x28, x9
	ldr	d4, [x10]
	ldur	d5, [x10, #1]
	and	v0.8b, v5.8b, v0.8b
	cmeq	v1.8b, v4.8b, v1.8b
	cmeq	v0.8b, v0.8b, v2.8b
	and	v1.8b, v1.8b, v3.8b
	and	v0.8b, v1.8b, v0.8b
	addv	b0, v0.8b
	fmov	w10, s0
	orr	w10, w10, #0x100
	rbit	w10, w10
	clz	w10, w10
	add	x9, x9, x10
	b	.Lunix_path_BB65_1110
.Lunix_path_BB65_858:
	sub	x10, x26, #33
	movi	v0.16b, #208
	ldur	q2, [x11, #-16]
	add	x12, x28, x10
	ldur	q3, [x11, #-17]
	movi	v4.16b, #47
	ldur	q1, [x12, #1]
	and	v1.16b, v1.16b, v0.16b
	and	v0.16b, v2.16b, v0.16b
	ldr	q2, [x12]
	orr	v1.16b, v1.16b, v2.16b
	orr	v0.16b, v0.16b, v3.16b
	cmeq	v1.16b, v1.16b, v4.16b
	cmeq	v2.16b, v0.16b, v4.16b
	ldr	q0, [x16, :lo12:.Lunix_path_CPI65_0]
	and	v1.16b, v1.16b, v0.16b
	and	v2.16b, v2.16b, v0.16b
	addp	v1.16b, v1.16b, v1.16b
	addp	v2.16b, v2.16b, v2.16b
	addp	v1.16b, v1.16b, v1.16b
	addp	v2.16b, v2.16b, v2.16b
	addp	v1.16b, v1.16b, v1.16b
	addp	v2.16b, v2.16b, v2.16b
	orr	v1.16b, v2.16b, v1.16b
	umov	w11, v1.h[0]
	cbz	w11, .Lunix_path_BB65_1100
	sub	x10, x26, #19
.Lunix_path_BB65_860:
	mov	x11, xzr
	mov	x16, x22
	b	.Lunix_path_BB65_862
.Lunix_path_BB65_861:
	cmp	x11, x10
	b.hs	.Lunix_path_BB65_854
.Lunix_path_BB65_862:
	movi	v1.16b, #208
	add	x12, x28, x11
	movi	v2.16b, #47
	ldur	q0, [x12, #1]
	and	v3.16b, v0.16b, v1.16b
	ldr	q1, [x12]
	orr	v3.16b, v3.16b, v1.16b
	cmeq	v4.16b, v3.16b, v2.16b
	ldr	q3, [x16, :lo12:.Lunix_path_CPI65_0]
	and	v4.16b, v4.16b, v3.16b
	addp	v4.16b, v4.16b, v4.16b
	addp	v4.16b, v4.16b, v4.16b
	addp	v4.16b, v4.16b, v4.16b
	umov	w13, v4.h[0]
	cbz	w13, .Lunix_path_BB65_865
	movi	v4.16b, #46
	ldur	q5, [x12, #2]
	ldur	q6, [x12, #3]
	cmeq	v1.16b, v1.16b, v2.16b
	cmeq	v6.16b, v6.16b, v2.16b
	cmeq	v7.16b, v5.16b, v4.16b
	cmeq	v5.16b, v5.16b, v2.16b
	cmeq	v4.16b, v0.16b, v4.16b
	cmeq	v0.16b, v0.16b, v2.16b
	and	v1.16b, v1.16b, v3.16b
	and	v6.16b, v7.16b, v6.16b
	orr	v5.16b, v5.16b, v6.16b
	and	v4.16b, v4.16b, v5.16b
	orr	v0.16b, v0.16b, v4.16b
	and	v0.16b, v1.16b, v0.16b
	addp	v0.16b, v0.16b, v0.16b
	addp	v0.16b, v0.16b, v0.16b
	addp	v0.16b, v0.16b, v0.16b
	umov	w12, v0.h[0]
	orr	w12, w12, #0x10000
	rbit	w12, w12
	clz	w12, w12
	cmp	w12, #15
	b.ls	.Lunix_path_BB65_1099
	add	x11, x11, #16
	b	.Lunix_path_BB65_861
.Lunix_path_BB65_865:
	add	x11, x11, #16
	cmp	x11, x10
	b.lo	.Lunix_path_BB65_862
	b	.Lunix_path_BB65_861
.Lunix_path_BB65_866:
	add	x12, x15, #16
.Lunix_path_BB65_867:
	mov	x2, x19
.Lunix_path_BB65_868:
	cmp	x12, x9
	b.lo	.Lunix_path_BB65_871
	b	.Lunix_path_BB65_879
.Lunix_path_BB65_869:
	cmp	w14, #47
	b.eq	.Lunix_path_BB65_879
.Lunix_path_BB65_870:
	add	x12, x11, x12
	cmn	x12, #1
	mov	x12, x13
	b.hs	.Lunix_path_BB65_878
.Lunix_path_BB65_871:
	add	x13, x20, x12
	ldrb	w13, [x13, x10]
	cmp	w13, #47
	add	x13, x12, #1
	b.ne	.Lunix_path_BB65_870
	cmp	x9, x13
	b.ls	.Lunix_path_BB65_879
	add	x14, x20, x12
	add	x14, x14, x10
	ldrb	w14, [x14, #1]
	cmp	w14, #46
	b.ne	.Lunix_path_BB65_869
	add	x14, x12, #2
	cmp	x9, x14
	b.ls	.Lunix_path_BB65_879
	add	x14, x20, x12
	add	x14, x14, x10
	ldrb	w14, [x14, #2]
	cmp	w14, #46
	b.ne	.Lunix_path_BB65_869
	add	x14, x12, #3
	cmp	x9, x14
	b.ls	.Lunix_path_BB65_879
	add	x14, x20, x12
	add	x14, x14, x10
	ldrb	w14, [x14, #3]
	b	.Lunix_path_BB65_869
.Lunix_path_BB65_878:
	sub	x12, x23, x10
.Lunix_path_BB65_879:
	sub	x11, x12, x23
	mov	x19, x2
	cmn	x11, x10
	cset	w17, eq
	b	.Lunix_path_BB65_368
.Lunix_path_BB65_880:
	subs	x19, x19, x21
	add	x15, x24, x21
	str	x15, [sp, #56]
	b.ne	.Lunix_path_BB65_605
.Lunix_path_BB65_881:
	str	xzr, [sp, #64]
	mov	x25, xzr
.Lunix_path_BB65_882:
	subs	x22, x23, x21
	add	x24, x20, x21
	b.eq	.Lunix_path_BB65_887
	ldrb	w8, [x24]
	cmp	w8, #47
	b.eq	.Lunix_path_BB65_886
	cmp	w8, #46
	b.ne	.Lunix_path_BB65_1019
	cmp	x22, #1
	b.ne	.Lunix_path_BB65_1089
.Lunix_path_BB65_886:
	mov	w19, wzr
	b	.Lunix_path_BB65_1090
.Lunix_path_BB65_887:
	mov	x27, xzr
	mov	w19, #1
.Lunix_path_BB65_888:
	mov	x28, xzr
	mov	x21, xzr
	b	.Lunix_path_BB65_890
.Lunix_path_BB65_889:
	cmp	xzr, x1
	b.lo	.Lunix_path_BB65_1014
.Lunix_path_BB65_890:
	subs	x26, x25, x28
	add	x22, x15, x28
	b.eq	.Lunix_path_BB65_898
	ldr	x8, [sp, #64]
	tbnz	w8, #8, .Lunix_path_BB65_900
	cmp	x26, #1
	b.eq	.Lunix_path_BB65_913
	ldrb	w8, [x22]
	cmp	w8, #46
	b.ne	.Lunix_path_BB65_913
	ldrb	w8, [x22, #1]
	cmp	w8, #46
	b.ne	.Lunix_path_BB65_913
	subs	x9, x26, #2
	b.ne	.Lunix_path_BB65_911
	subs	x23, x27, x21
	add	x20, x24, x21
	b.eq	.Lunix_path_BB65_1014
	mov	x1, xzr
	str	xzr, [sp, #64]
	mov	x0, xzr
	add	x28, x28, #2
	mov	w8, #2
	b	.Lunix_path_BB65_939
.Lunix_path_BB65_898:
	subs	x23, x27, x21
	add	x20, x24, x21
	b.eq	.Lunix_path_BB65_1029
	mov	w8, wzr
	mov	x1, xzr
	mov	x0, xzr
	b	.Lunix_path_BB65_939
.Lunix_path_BB65_900:
	subs	x9, x26, #1
	b.eq	.Lunix_path_BB65_907
	mov	x8, xzr
	add	x10, x22, #1
	sub	x11, x26, #2
	b	.Lunix_path_BB65_903
.Lunix_path_BB65_902:
	add	x8, x8, #1
	cmp	x9, x8
	b.eq	.Lunix_path_BB65_908
.Lunix_path_BB65_903:
	ldrb	w12, [x10, x8]
	cmp	w12, #47
	b.eq	.Lunix_path_BB65_902
	cmp	w12, #46
	b.ne	.Lunix_path_BB65_909
	cmp	x11, x8
	b.eq	.Lunix_path_BB65_908
	add	x12, x10, x8
	ldrb	w12, [x12, #1]
	cmp	w12, #47
	b.eq	.Lunix_path_BB65_902
	b	.Lunix_path_BB65_909
.Lunix_path_BB65_907:
	mov	w9, #1
	b	.Lunix_path_BB65_910
.Lunix_path_BB65_908:
	mov	x8, x9
.Lunix_path_BB65_909:
	add	x9, x8, #1
.Lunix_path_BB65_910:
	ldrb	w8, [x22]
	mov	x0, xzr
	mov	x1, xzr
	cmp	w8, #47
	cset	w8, ne
	subs	x23, x27, x21
	add	x20, x24, x21
	str	xzr, [sp, #64]
	b.ne	.Lunix_path_BB65_938
	b	.Lunix_path_BB65_1013
.Lunix_path_BB65_911:
	add	x10, x15, x28
	ldrb	w8, [x10, #2]!
	cmp	w8, #47
	b.ne	.Lunix_path_BB65_913
	mov	x8, xzr
	sub	x11, x26, #3
	b	.Lunix_path_BB65_919
.Lunix_path_BB65_913:
	cmp	x26, #15
	b.hi	.Lunix_path_BB65_923
	mov	x1, xzr
.Lunix_path_BB65_915:
	ldrb	w8, [x22, x1]
	cmp	w8, #47
	b.eq	.Lunix_path_BB65_929
	add	x1, x1, #1
	cmp	x26, x1
	b.ne	.Lunix_path_BB65_915
	mov	x1, x26
	b	.Lunix_path_BB65_929
.Lunix_path_BB65_918:
	add	x8, x8, #1
	cmp	x9, x8
	b.eq	.Lunix_path_BB65_1011
.Lunix_path_BB65_919:
	ldrb	w12, [x10, x8]
	cmp	w12, #47
	b.eq	.Lunix_path_BB65_918
	cmp	w12, #46
	b.ne	.Lunix_path_BB65_1012
	cmp	x11, x8
	b.eq	.Lunix_path_BB65_1011
	add	x12, x10, x8
	ldrb	w12, [x12, #1]
	cmp	w12, #47
	b.eq	.Lunix_path_BB65_918
	b	.Lunix_path_BB65_1012
.Lunix_path_BB65_923:
	subs	x8, x26, #16
	b.eq	.Lunix_path_BB65_927
	mov	x9, xzr
.Lunix_path_BB65_925:
	movi	v0.16b, #47
	ldr	q1, [x22, x9]
	cmeq	v0.16b, v1.16b, v0.16b
	ldr	q1, [x16, :lo12:.Lunix_path_CPI65_0]
	and	v0.16b, v0.16b, v1.16b
	addp	v0.16b, v0.16b, v0.16b
	addp	v0.16b, v0.16b, v0.16b
	addp	v0.16b, v0.16b, v0.16b
	umov	w10, v0.h[0]
	orr	w10, w10, #0x10000
	rbit	w10, w10
	clz	w10, w10
	cmp	w10, #15
	b.ls	.Lunix_path_BB65_928
	add	x9, x9, #16
	cmp	x9, x8
	b.lo	.Lunix_path_BB65_925
.Lunix_path_BB65_927:
	movi	v0.16b, #47
	ldr	q1, [x22, x8]
	cmeq	v0.16b, v1.16b, v0.16b
	ldr	q1, [x16, :lo12:.Lunix_path_CPI65_0]
	and	v0.16b, v0.16b, v1.16b
	addp	v0.16b, v0.16b, v0.16b
	addp	v0.16b, v0.16b, v0.16b
	addp	v0.16b, v0.16b, v0.16b
	umov	w9, v0.h[0]
	orr	w9, w9, #0x10000
	rbit	w9, w9
	clz	w9, w9
	add	x1, x8, x9
	b	.Lunix_path_BB65_929
.Lunix_path_BB65_928:
	add	x1, x9, w10, uxtw
.Lunix_path_BB65_929:
	mov	x8, xzr
	subs	x9, x26, x1
	b.eq	.Lunix_path_BB65_937
	add	x10, x22, x1
	sub	x11, x9, #1
	b	.Lunix_path_BB65_932
.Lunix_path_BB65_931:
	add	x8, x8, #1
	cmp	x9, x8
	b.eq	.Lunix_path_BB65_936
.Lunix_path_BB65_932:
	ldrb	w12, [x10, x8]
	cmp	w12, #47
	b.eq	.Lunix_path_BB65_931
	cmp	w12, #46
	b.ne	.Lunix_path_BB65_937
	cmp	x11, x8
	b.eq	.Lunix_path_BB65_936
	add	x12, x10, x8
	ldrb	w12, [x12, #1]
	cmp	w12, #47
	b.eq	.Lunix_path_BB65_931
	b	.Lunix_path_BB65_937
.Lunix_path_BB65_936:
	mov	x8, x9
.Lunix_path_BB65_937:
	add	x9, x8, x1
	mov	w8, #3
	add	x0, x15, x28
	subs	x23, x27, x21
	add	x20, x24, x21
	str	xzr, [sp, #64]
	b.eq	.Lunix_path_BB65_1013
.Lunix_path_BB65_938:
	add	x28, x9, x28
.Lunix_path_BB65_939:
	tbz	w19, #0, .Lunix_path_BB65_945
	cmp	x23, #1
	b.eq	.Lunix_path_BB65_958
	ldrb	w9, [x20]
	cmp	w9, #46
	b.ne	.Lunix_path_BB65_958
	add	x9, x24, x21
	ldrb	w10, [x9, #1]
	cmp	w10, #46
	b.ne	.Lunix_path_BB65_958
	subs	x11, x23, #2
	b.ne	.Lunix_path_BB65_956
	mov	x2, xzr
	mov	x9, xzr
	mov	w10, #2
	mov	w11, #2
	cbnz	x26, .Lunix_path_BB65_983
	b	.Lunix_path_BB65_1029
.Lunix_path_BB65_945:
	subs	x10, x23, #1
	b.eq	.Lunix_path_BB65_952
	add	x11, x24, x21
	mov	x9, xzr
	sub	x12, x23, #2
	add	x11, x11, #1
	b	.Lunix_path_BB65_948
.Lunix_path_BB65_947:
	add	x9, x9, #1
	cmp	x10, x9
	b.eq	.Lunix_path_BB65_953
.Lunix_path_BB65_948:
	ldrb	w13, [x11, x9]
	cmp	w13, #47
	b.eq	.Lunix_path_BB65_947
	cmp	w13, #46
	b.ne	.Lunix_path_BB65_954
	cmp	x12, x9
	b.eq	.Lunix_path_BB65_953
	add	x13, x11, x9
	ldrb	w13, [x13, #1]
	cmp	w13, #47
	b.eq	.Lunix_path_BB65_947
	b	.Lunix_path_BB65_954
.Lunix_path_BB65_952:
	mov	w10, #1
	b	.Lunix_path_BB65_955
.Lunix_path_BB65_953:
	mov	x9, x10
.Lunix_path_BB65_954:
	add	x10, x9, #1
.Lunix_path_BB65_955:
	ldrb	w11, [x20]
	mov	x2, xzr
	mov	x9, xzr
	cmp	w11, #47
	cset	w11, ne
	cbnz	x26, .Lunix_path_BB65_983
	b	.Lunix_path_BB65_1029
.Lunix_path_BB65_956:
	ldrb	w10, [x9, #2]!
	cmp	w10, #47
	b.ne	.Lunix_path_BB65_958
	mov	x10, xzr
	sub	x12, x23, #3
	b	.Lunix_path_BB65_964
.Lunix_path_BB65_958:
	cmp	x23, #15
	b.hi	.Lunix_path_BB65_968
	mov	x9, xzr
	add	x10, x24, x21
.Lunix_path_BB65_960:
	ldrb	w11, [x10, x9]
	cmp	w11, #47
	b.eq	.Lunix_path_BB65_974
	add	x9, x9, #1
	cmp	x23, x9
	b.ne	.Lunix_path_BB65_960
	mov	x9, x23
	b	.Lunix_path_BB65_974
.Lunix_path_BB65_963:
	add	x10, x10, #1
	cmp	x11, x10
	b.eq	.Lunix_path_BB65_1009
.Lunix_path_BB65_964:
	ldrb	w13, [x9, x10]
	cmp	w13, #47
	b.eq	.Lunix_path_BB65_963
	cmp	w13, #46
	b.ne	.Lunix_path_BB65_1010
	cmp	x12, x10
	b.eq	.Lunix_path_BB65_1009
	add	x13, x9, x10
	ldrb	w13, [x13, #1]
	cmp	w13, #47
	b.eq	.Lunix_path_BB65_963
	b	.Lunix_path_BB65_1010
.Lunix_path_BB65_968:
	subs	x9, x23, #16
	b.eq	.Lunix_path_BB65_972
	mov	x10, xzr
	add	x11, x24, x21
.Lunix_path_BB65_970:
	movi	v0.16b, #47
	ldr	q1, [x11, x10]
	cmeq	v0.16b, v1.16b, v0.16b
	ldr	q1, [x16, :lo12:.Lunix_path_CPI65_0]
	and	v0.16b, v0.16b, v1.16b
	addp	v0.16b, v0.16b, v0.16b
	addp	v0.16b, v0.16b, v0.16b
	addp	v0.16b, v0.16b, v0.16b
	umov	w12, v0.h[0]
	orr	w12, w12, #0x10000
	rbit	w12, w12
	clz	w12, w12
	cmp	w12, #15
	b.ls	.Lunix_path_BB65_973
	add	x10, x10, #16
	cmp	x10, x9
	b.lo	.Lunix_path_BB65_970
.Lunix_path_BB65_972:
	movi	v0.16b, #47
	add	x10, x24, x21
	ldr	q1, [x10, x9]
	cmeq	v0.16b, v1.16b, v0.16b
	ldr	q1, [x16, :lo12:.Lunix_path_CPI65_0]
	and	v0.16b, v0.16b, v1.16b
	addp	v0.16b, v0.16b, v0.16b
	addp	v0.16b, v0.16b, v0.16b
	addp	v0.16b, v0.16b, v0.16b
	umov	w10, v0.h[0]
	orr	w10, w10, #0x10000
	rbit	w10, w10
	clz	w10, w10
	add	x9, x9, x10
	b	.Lunix_path_BB65_974
.Lunix_path_BB65_973:
	add	x9, x10, w12, uxtw
.Lunix_path_BB65_974:
	mov	x10, xzr
	subs	x11, x23, x9
	b.eq	.Lunix_path_BB65_982
	add	x12, x24, x21
	sub	x13, x11, #1
	add	x12, x12, x9
	b	.Lunix_path_BB65_977
.Lunix_path_BB65_976:
	add	x10, x10, #1
	cmp	x11, x10
	b.eq	.Lunix_path_BB65_981
.Lunix_path_BB65_977:
	ldrb	w14, [x12, x10]
	cmp	w14, #47
	b.eq	.Lunix_path_BB65_976
	cmp	w14, #46
	b.ne	.Lunix_path_BB65_982
	cmp	x13, x10
	b.eq	.Lunix_path_BB65_981
	add	x14, x12, x10
	ldrb	w14, [x14, #1]
	cmp	w14, #47
	b.eq	.Lunix_path_BB65_976
	b	.Lunix_path_BB65_982
.Lunix_path_BB65_981:
	mov	x10, x11
.Lunix_path_BB65_982:
	add	x10, x10, x9
	mov	w11, #3
	mov	x2, x20
	cbz	x26, .Lunix_path_BB65_1029
.Lunix_path_BB65_983:
	cmp	w8, #1
	b.gt	.Lunix_path_BB65_986
	cbnz	w8, .Lunix_path_BB65_988
	adrp	x0, .Lunix_path_static.82
	add	x0, x0, :lo12:.Lunix_path_static.82
	b	.Lunix_path_BB65_989
.Lunix_path_BB65_986:
	cmp	w8, #2
	b.ne	.Lunix_path_BB65_990
	adrp	x0, .Lunix_path_static.83
	add	x0, x0, :lo12:.Lunix_path_static.83
	mov	w1, #2
	b	.Lunix_path_BB65_990
.Lunix_path_BB65_988:
	adrp	x0, .Lunix_path_static.53
	add	x0, x0, :lo12:.Lunix_path_static.53
.Lunix_path_BB65_989:
	mov	w1, #1
.Lunix_path_BB65_990:
	cmp	w11, #1
	b.gt	.Lunix_path_BB65_993
	cbnz	w11, .Lunix_path_BB65_995
	adrp	x2, .Lunix_path_static.82
	add	x2, x2, :lo12:.Lunix_path_static.82
	b	.Lunix_path_BB65_996
.Lunix_path_BB65_993:
	cmp	w11, #2
	b.ne	.Lunix_path_BB65_997
	adrp	x2, .Lunix_path_static.83
	add	x2, x2, :lo12:.Lunix_path_static.83
	mov	w9, #2
	b	.Lunix_path_BB65_997
.Lunix_path_BB65_995:
	adrp	x2, .Lunix_path_static.53
	add	x2, x2, :lo12:.Lunix_path_static.53
.Lunix_path_BB65_996:
	mov	w9, #1
.Lunix_path_BB65_997:
	cmp	x1, x9
	b.ne	.Lunix_path_BB65_1014
	cmp	x1, #4
	add	x21, x10, x21
	b.hs	.Lunix_path_BB65_1006
	mov	w19, #1
	cbz	x1, .Lunix_path_BB65_890
	ldrb	w8, [x0]
	ldrb	w9, [x2]
	cmp	w8, w9
	b.ne	.Lunix_path_BB65_889
	cmp	x1, #1
	b.eq	.Lunix_path_BB65_890
	ldrb	w8, [x0, #1]
	ldrb	w9, [x2, #1]
	cmp	w8, w9
	b.ne	.Lunix_path_BB65_1008
	cmp	x1, #2
	b.eq	.Lunix_path_BB65_890
	ldrb	w8, [x0, #2]
	ldrb	w9, [x2, #2]
	cmp	w8, w9
	b.eq	.Lunix_path_BB65_890
	mov	w8, #2
	cmp	x8, x1
	b.hs	.Lunix_path_BB65_890
	b	.Lunix_path_BB65_1014
.Lunix_path_BB65_1006:
	ldr	w8, [x0]
	ldr	w9, [x2]
	cmp	w8, w9
	b.ne	.Lunix_path_BB65_1014
	mov	x19, x16
	bl	core.cmp.slices.groups_equal.i8.31.core.cmp.numbers.U8PartialEq.
	ldr	x15, [sp, #56]
	mov	x16, x19
	mov	w19, #1
	tbnz	w0, #0, .Lunix_path_BB65_890
	b	.Lunix_path_BB65_1014
.Lunix_path_BB65_1008:
	mov	w8, #1
	cmp	x8, x1
	b.hs	.Lunix_path_BB65_890
	b	.Lunix_path_BB65_1014
.Lunix_path_BB65_1009:
	mov	x10, x11
.Lunix_path_BB65_1010:
	mov	x2, xzr
	mov	x9, xzr
	add	x10, x10, #2
	mov	w11, #2
	cbnz	x26, .Lunix_path_BB65_983
	b	.Lunix_path_BB65_1029
.Lunix_path_BB65_1011:
	mov	x8, x9
.Lunix_path_BB65_1012:
	mov	x0, xzr
	mov	x1, xzr
	add	x9, x8, #2
	mov	w8, #2
	subs	x23, x27, x21
	add	x20, x24, x21
	str	xzr, [sp, #64]
	b.ne	.Lunix_path_BB65_938
.Lunix_path_BB65_1013:
	ldr	x23, [sp, #64]
.Lunix_path_BB65_1014:
	ldrb	w8, [x22]
	cmp	w8, #47
	b.eq	.Lunix_path_BB65_1017
	cmp	w8, #46
	b.ne	.Lunix_path_BB65_1018
	cmp	x26, #1
	b.ne	.Lunix_path_BB65_1020
.Lunix_path_BB65_1017:
	mov	w21, #1
	b	.Lunix_path_BB65_1021
.Lunix_path_BB65_1018:
	mov	w21, wzr
	b	.Lunix_path_BB65_1021
.Lunix_path_BB65_1019:
	mov	w19, #1
	b	.Lunix_path_BB65_1090
.Lunix_path_BB65_1020:
	ldrb	w8, [x22, #1]
	cmp	w8, #47
	cset	w21, eq
.Lunix_path_BB65_1021:
	mov	x8, x26
	b	.Lunix_path_BB65_1023
.Lunix_path_BB65_1022:
	mov	x8, x1
	cbz	x1, .Lunix_path_BB65_1029
.Lunix_path_BB65_1023:
	subs	x1, x8, #1
	b.eq	.Lunix_path_BB65_1043
	add	x9, x22, x1
	ldrb	w10, [x9]
	cmp	w10, #47
	b.eq	.Lunix_path_BB65_1027
	cmp	w10, #46
	b.ne	.Lunix_path_BB65_1043
	ldurb	w9, [x9, #-1]
	cmp	w9, #47
	b.ne	.Lunix_path_BB65_1043
.Lunix_path_BB65_1027:
	sub	x8, x26, x1
	cmp	x8, #8
	b.ne	.Lunix_path_BB65_1022
	mov	x0, x22
	mov	x19, x16
	bl	unix_path.filler.trimmed_blocks_len
	mov	x16, x19
	mov	x1, x0
	b	.Lunix_path_BB65_1022
.Lunix_path_BB65_1029:
	mov	x19, xzr
.Lunix_path_BB65_1030:
	mov	x0, x20
	mov	x1, x23
	bl	path_within.outlined.is_names_only
	movi	v0.2d, #0000000000000000
	str	xzr, [sp, #160]
	stp	q0, q0, [sp, #128]
	cbz	w0, .Lunix_path_BB65_1032
	mov	w8, #1
	stur	wzr, [sp, #161]
	add	x9, x23, #1
	strb	w8, [sp, #160]
	mov	x8, #-1
	str	wzr, [sp, #164]
	ldr	x10, [sp, #160]
	b	.Lunix_path_BB65_1033
.Lunix_path_BB65_1032:
	add	x0, sp, #128
	mov	x1, x20
	mov	x2, x23
	bl	path_within.write.Layout.resolve_names
	ldp	x20, x23, [sp, #128]
	ldr	x10, [sp, #160]
	ldp	x8, x9, [sp, #144]
.Lunix_path_BB65_1033:
	movi	v0.2d, #0000000000000000
	add	x12, sp, #208
	stp	q0, q0, [x12]
.Lunix_path_BB65_1034:
	ldp	q0, q1, [x12]
	add	x0, sp, #176
	stp	x8, x9, [x29, #-144]
	adrp	x8, .Lunix_path_static.5
	add	x8, x8, :lo12:.Lunix_path_static.5
	sub	x1, x29, #176
	stp	xzr, x19, [x29, #-176]
	stp	x20, x23, [x29, #-160]
	stp	x10, x8, [x29, #-128]
	stp	q0, q1, [x12, #96]
	bl	path_within.write.Layout.to_path_buf
	ldrb	w8, [sp, #176]
	cbz	w8, .Lunix_path_BB65_1037
	ldr	x2, [sp, #48]
.Lunix_path_BB65_1036:
	mov	w24, wzr
	mov	w22, wzr
	mov	x25, xzr
	mov	x21, xzr
	mov	x28, xzr
	mov	w26, #1
	b	.Lunix_path_BB65_296
.Lunix_path_BB65_1037:
	ldp	x25, x21, [sp, #184]
	ldr	x28, [sp, #200]
	ldr	x2, [sp, #48]
	cbnz	x21, .Lunix_path_BB65_167
	cbz	x28, .Lunix_path_BB65_1041
	mov	x0, x25
	mov	x19, x2
.Lunix_path_BB65_1040:
	bl	rattle_dealloc
	mov	x2, x19
	mov	w26, wzr
	mov	w22, wzr
	mov	x28, xzr
	b	.Lunix_path_BB65_1042
.Lunix_path_BB65_1041:
	mov	w26, wzr
	mov	w22, wzr
.Lunix_path_BB65_1042:
	mov	w21, #1
	adrp	x25, .Lunix_path_static.53
	add	x25, x25, :lo12:.Lunix_path_static.53
	mov	w24, w21
	b	.Lunix_path_BB65_296
.Lunix_path_BB65_1043:
	mov	x19, xzr
	mov	x9, xzr
	mov	x10, x8
	b	.Lunix_path_BB65_1047
.Lunix_path_BB65_1044:
	mov	x10, xzr
.Lunix_path_BB65_1045:
	add	x10, x10, x12
.Lunix_path_BB65_1046:
	add	x9, x10, x9
	mov	w21, wzr
	add	x19, x19, #1
	subs	x10, x8, x9
	b.eq	.Lunix_path_BB65_1030
.Lunix_path_BB65_1047:
	add	x11, x22, x9
	tbz	w21, #0, .Lunix_path_BB65_1055
	subs	x13, x10, #1
	b.eq	.Lunix_path_BB65_1046
	mov	x12, xzr
	add	x11, x11, #1
	sub	x10, x10, #2
	b	.Lunix_path_BB65_1051
.Lunix_path_BB65_1050:
	add	x12, x12, #1
	cmp	x13, x12
	b.eq	.Lunix_path_BB65_1076
.Lunix_path_BB65_1051:
	ldrb	w14, [x11, x12]
	cmp	w14, #47
	b.eq	.Lunix_path_BB65_1050
	cmp	w14, #46
	b.ne	.Lunix_path_BB65_1077
	cmp	x10, x12
	b.eq	.Lunix_path_BB65_1076
	add	x14, x11, x12
	ldrb	w14, [x14, #1]
	cmp	w14, #47
	b.eq	.Lunix_path_BB65_1050
	b	.Lunix_path_BB65_1077
.Lunix_path_BB65_1055:
	cmp	x10, #1
	b.eq	.Lunix_path_BB65_1061
	ldrb	w12, [x11]
	cmp	w12, #46
	b.ne	.Lunix_path_BB65_1061
	ldrb	w12, [x11, #1]
	cmp	w12, #46
	b.ne	.Lunix_path_BB65_1061
	subs	x12, x10, #2
	b.eq	.Lunix_path_BB65_1046
	add	x13, x22, x9
	ldrb	w14, [x13, #2]!
	cmp	w14, #47
	b.ne	.Lunix_path_BB65_1061
	mov	x11, xzr
	sub	x10, x10, #3
	b	.Lunix_path_BB65_1067
.Lunix_path_BB65_1061:
	cmp	x10, #15
	b.hi	.Lunix_path_BB65_1071
	mov	x12, xzr
.Lunix_path_BB65_1063:
	ldrb	w13, [x11, x12]
	cmp	w13, #47
	b.eq	.Lunix_path_BB65_1079
	add	x12, x12, #1
	cmp	x10, x12
	b.ne	.Lunix_path_BB65_1063
	mov	x12, x10
	b	.Lunix_path_BB65_1079
.Lunix_path_BB65_1066:
	add	x11, x11, #1
	cmp	x12, x11
	b.eq	.Lunix_path_BB65_1087
.Lunix_path_BB65_1067:
	ldrb	w14, [x13, x11]
	cmp	w14, #47
	b.eq	.Lunix_path_BB65_1066
	cmp	w14, #46
	b.ne	.Lunix_path_BB65_1088
	cmp	x10, x11
	b.eq	.Lunix_path_BB65_1087
	add	x14, x13, x11
	ldrb	w14, [x14, #1]
	cmp	w14, #47
	b.eq	.Lunix_path_BB65_1066
	b	.Lunix_path_BB65_1088
.Lunix_path_BB65_1071:
	subs	x12, x10, #16
	b.eq	.Lunix_path_BB65_1075
	mov	x13, xzr
.Lunix_path_BB65_1073:
	movi	v0.16b, #47
	ldr	q1, [x11, x13]
	cmeq	v0.16b, v1.16b, v0.16b
	ldr	q1, [x16, :lo12:.Lunix_path_CPI65_0]
	and	v0.16b, v0.16b, v1.16b
	addp	v0.16b, v0.16b, v0.16b
	addp	v0.16b, v0.16b, v0.16b
	addp	v0.16b, v0.16b, v0.16b
	umov	w14, v0.h[0]
	orr	w14, w14, #0x10000
	rbit	w14, w14
	clz	w14, w14
	cmp	w14, #15
	b.ls	.Lunix_path_BB65_1078
	add	x13, x13, #16
	cmp	x13, x12
	b.lo	.Lunix_path_BB65_1073
.Lunix_path_BB65_1075:
	movi	v0.16b, #47
	ldr	q1, [x11, x12]
	cmeq	v0.16b, v1.16b, v0.16b
	ldr	q1, [x16, :lo12:.Lunix_path_CPI65_0]
	and	v0.16b, v0.16b, v1.16b
	addp	v0.16b, v0.16b, v0.16b
	addp	v0.16b, v0.16b, v0.16b
	addp	v0.16b, v0.16b, v0.16b
	umov	w13, v0.h[0]
	orr	w13, w13, #0x10000
	rbit	w13, w13
	clz	w13, w13
	add	x12, x12, x13
	b	.Lunix_path_BB65_1079
.Lunix_path_BB65_1076:
	mov	x12, x13
.Lunix_path_BB65_1077:
	add	x10, x12, #1
	b	.Lunix_path_BB65_1046
.Lunix_path_BB65_1078:
	add	x12, x13, w14, uxtw
.Lunix_path_BB65_1079:
	subs	x13, x10, x12
	b.eq	.Lunix_path_BB65_1044
	mov	x10, xzr
	add	x11, x11, x12
	sub	x14, x13, #1
	b	.Lunix_path_BB65_1082
.Lunix_path_BB65_1081:
	add	x10, x10, #1
	cmp	x13, x10
	b.eq	.Lunix_path_BB65_1086
.Lunix_path_BB65_1082:
	ldrb	w15, [x11, x10]
	cmp	w15, #47
	b.eq	.Lunix_path_BB65_1081
	cmp	w15, #46
	b.ne	.Lunix_path_BB65_1045
	cmp	x14, x10
	b.eq	.Lunix_path_BB65_1086
	add	x15, x11, x10
	ldrb	w15, [x15, #1]
	cmp	w15, #47
	b.eq	.Lunix_path_BB65_1081
	b	.Lunix_path_BB65_1045
.Lunix_path_BB65_1086:
	mov	x10, x13
	b	.Lunix_path_BB65_1045
.Lunix_path_BB65_1087:
	mov	x11, x12
.Lunix_path_BB65_1088:
	add	x10, x11, #2
	b	.Lunix_path_BB65_1046
.Lunix_path_BB65_1089:
	ldrb	w8, [x24, #1]
	cmp	w8, #47
	cset	w19, ne
.Lunix_path_BB65_1090:
	mov	x27, x22
	b	.Lunix_path_BB65_1092
.Lunix_path_BB65_1091:
	mov	x27, x1
	cbz	x1, .Lunix_path_BB65_888
.Lunix_path_BB65_1092:
	subs	x1, x27, #1
	b.eq	.Lunix_path_BB65_888
	add	x8, x24, x1
	ldrb	w9, [x8]
	cmp	w9, #47
	b.eq	.Lunix_path_BB65_1096
	cmp	w9, #46
	b.ne	.Lunix_path_BB65_888
	ldurb	w8, [x8, #-1]
	cmp	w8, #47
	b.ne	.Lunix_path_BB65_888
.Lunix_path_BB65_1096:
	sub	x8, x22, x1
	cmp	x8, #8
	b.ne	.Lunix_path_BB65_1091
	mov	x0, x24
	mov	x20, x16
	bl	unix_path.filler.trimmed_blocks_len
	ldr	x15, [sp, #56]
	mov	x16, x20
	mov	x1, x0
	b	.Lunix_path_BB65_1091
.Lunix_path_BB65_1098:
	mov	w8, #2
	mov	x14, x24
	b	.Lunix_path_BB65_577
.Lunix_path_BB65_1099:
	add	x9, x11, w12, uxtw
	b	.Lunix_path_BB65_1110
.Lunix_path_BB65_1100:
	cbz	x10, .Lunix_path_BB65_1112
	mov	x16, x22
	mov	x11, xzr
.Lunix_path_BB65_1102:
	movi	v1.16b, #208
	add	x12, x28, x11
	movi	v5.16b, #47
	ldur	q2, [x12, #1]
	ldur	q3, [x12, #17]
	and	v2.16b, v2.16b, v1.16b
	and	v1.16b, v3.16b, v1.16b
	ldp	q3, q4, [x12]
	orr	v2.16b, v2.16b, v3.16b
	orr	v1.16b, v1.16b, v4.16b
	cmeq	v2.16b, v2.16b, v5.16b
	cmeq	v1.16b, v1.16b, v5.16b
	and	v2.16b, v2.16b, v0.16b
	and	v1.16b, v1.16b, v0.16b
	addp	v2.16b, v2.16b, v2.16b
	addp	v1.16b, v1.16b, v1.16b
	addp	v2.16b, v2.16b, v2.16b
	addp	v1.16b, v1.16b, v1.16b
	addp	v2.16b, v2.16b, v2.16b
	addp	v1.16b, v1.16b, v1.16b
	orr	v1.16b, v1.16b, v2.16b
	umov	w12, v1.h[0]
	cbnz	w12, .Lunix_path_BB65_851
	add	x11, x11, #32
	cmp	x11, x10
	b.lo	.Lunix_path_BB65_1102
	b	.Lunix_path_BB65_1112
.Lunix_path_BB65_1104:
	mov	x18, xzr
	add	x0, x20, x10
	mov	x2, x19
	mov	x3, x1
.Lunix_path_BB65_1105:
	add	x17, x20, x18
	movi	v1.16b, #208
	add	x1, x0, x18
	add	x17, x17, x10
	ldur	q2, [x1, #17]
	movi	v5.16b, #47
	ldur	q3, [x17, #1]
	ldr	q4, [x17, #16]
	and	v3.16b, v3.16b, v1.16b
	and	v1.16b, v2.16b, v1.16b
	ldr	q2, [x0, x18]
	orr	v2.16b, v3.16b, v2.16b
	orr	v1.16b, v1.16b, v4.16b
	cmeq	v2.16b, v2.16b, v5.16b
	cmeq	v1.16b, v1.16b, v5.16b
	and	v2.16b, v2.16b, v0.16b
	and	v1.16b, v1.16b, v0.16b
	addp	v2.16b, v2.16b, v2.16b
	addp	v1.16b, v1.16b, v1.16b
	addp	v2.16b, v2.16b, v2.16b
	addp	v1.16b, v1.16b, v1.16b
	addp	v2.16b, v2.16b, v2.16b
	addp	v1.16b, v1.16b, v1.16b
	orr	v1.16b, v1.16b, v2.16b
	umov	w17, v1.h[0]
	cbnz	w17, .Lunix_path_BB65_655
	add	x18, x18, #32
	mov	w17, #1
	cmp	x18, x16
	b.lo	.Lunix_path_BB65_1105
	b	.Lunix_path_BB65_368
.Lunix_path_BB65_1107:
	mov	x19, x2
	mov	w17, #1
	b	.Lunix_path_BB65_368
.Lunix_path_BB65_1108:
	add	x9, x9, #16
.Lunix_path_BB65_1109:
	mov	x16, x22
.Lunix_path_BB65_1110:
	cmp	x9, x26
	b.lo	.Lunix_path_BB65_1123
.Lunix_path_BB65_1111:
	cmp	x9, x26
	b.ne	.Lunix_path_BB65_1135
.Lunix_path_BB65_1112:
	tbnz	w27, #0, .Lunix_path_BB65_1130
	lsr	x8, x27, #32
	tbz	w8, #0, .Lunix_path_BB65_1130
	adrp	x8, .Lunix_path_static.53
	add	x8, x8, :lo12:.Lunix_path_static.53
	cmp	x26, #0
	csel	x27, x8, x28, eq
	cmp	x26, #1
	csinc	x23, x26, xzr, hi
	tbnz	x23, #63, .Lunix_path_BB65_1139
	mov	x0, x23
	mov	w1, #1
	mov	w19, #1
	bl	rattle_alloc
	tbz	w0, #0, .Lunix_path_BB65_1140
	sub	x8, x1, x27
	mov	x20, x1
	cmp	x8, x23
	b.hs	.Lunix_path_BB65_1142
	cmp	x26, #8
	mov	x8, xzr
	b.lo	.Lunix_path_BB65_1201
	sub	x9, x20, x27
	cmp	x9, #32
	b.lo	.Lunix_path_BB65_1201
	cmp	x26, #32
	b.hs	.Lunix_path_BB65_1194
	mov	x8, xzr
	b	.Lunix_path_BB65_1198
.Lunix_path_BB65_1121:
	cmp	w11, #47
	b.eq	.Lunix_path_BB65_1111
.Lunix_path_BB65_1122:
	cmp	x26, x10
	mov	x9, x10
	b.eq	.Lunix_path_BB65_1112
.Lunix_path_BB65_1123:
	ldrb	w10, [x24, x9]
	cmp	w10, #47
	add	x10, x9, #1
	b.ne	.Lunix_path_BB65_1122
	cmp	x26, x10
	b.ls	.Lunix_path_BB65_1111
	add	x11, x28, x9
	ldrb	w11, [x11, #1]
	cmp	w11, #46
	b.ne	.Lunix_path_BB65_1121
	add	x11, x9, #2
	cmp	x26, x11
	b.ls	.Lunix_path_BB65_1111
	add	x11, x28, x9
	ldrb	w11, [x11, #2]
	cmp	w11, #46
	b.ne	.Lunix_path_BB65_1121
	add	x11, x9, #3
	cmp	x26, x11
	b.ls	.Lunix_path_BB65_1111
	add	x11, x28, x9
	ldrb	w11, [x11, #3]
	b	.Lunix_path_BB65_1121
.Lunix_path_BB65_1130:
	ldr	x8, [sp, #56]
	tbnz	w27, #0, .Lunix_path_BB65_1193
.Lunix_path_BB65_1131:
	mov	w26, wzr
	mov	w22, wzr
	mov	x28, xzr
	mov	w24, #1
	cbz	x8, .Lunix_path_BB65_1133
.Lunix_path_BB65_1132:
	ldr	x0, [sp, #48]
	bl	rattle_dealloc
.Lunix_path_BB65_1133:
	ldr	x8, [sp, #64]
	cbz	x8, .Lunix_path_BB65_47
	mov	x0, x21
	bl	rattle_dealloc
	b	.Lunix_path_BB65_47
.Lunix_path_BB65_1135:
	cmp	w8, #47
	b.eq	.Lunix_path_BB65_1138
	cmp	w8, #46
	b.ne	.Lunix_path_BB65_1141
	cmp	x26, #1
	b.ne	.Lunix_path_BB65_1144
.Lunix_path_BB65_1138:
	mov	w19, #1
	b	.Lunix_path_BB65_1145
.Lunix_path_BB65_1139:
	ldr	x8, [sp, #56]
	mov	w24, wzr
	mov	w22, wzr
	mov	x20, xzr
	mov	x23, xzr
	mov	x28, xzr
	mov	w26, #1
	cbnz	x8, .Lunix_path_BB65_1132
	b	.Lunix_path_BB65_1133
.Lunix_path_BB65_1140:
	ldr	x8, [sp, #56]
	mov	w24, wzr
	mov	w22, wzr
	mov	x20, xzr
	mov	x23, xzr
	mov	x28, xzr
	mov	w26, w19
	cbnz	x8, .Lunix_path_BB65_1132
	b	.Lunix_path_BB65_1133
.Lunix_path_BB65_1141:
	mov	w19, wzr
	b	.Lunix_path_BB65_1145
.Lunix_path_BB65_1142:
	mov	x0, x20
	mov	x1, x27
	mov	x2, x23
	bl	memmove
.Lunix_path_BB65_1143:
	mov	w26, wzr
	mov	w24, #1
	b	.Lunix_path_BB65_1203
.Lunix_path_BB65_1144:
	ldrb	w8, [x24, #1]
	cmp	w8, #47
	cset	w19, eq
.Lunix_path_BB65_1145:
	mov	x8, x26
	b	.Lunix_path_BB65_1147
.Lunix_path_BB65_1146:
	mov	x8, x1
	cbz	x1, .Lunix_path_BB65_1112
.Lunix_path_BB65_1147:
	subs	x1, x8, #1
	b.eq	.Lunix_path_BB65_1153
	add	x9, x28, x1
	ldrb	w10, [x9]
	cmp	w10, #47
	b.eq	.Lunix_path_BB65_1151
	cmp	w10, #46
	b.ne	.Lunix_path_BB65_1153
	ldurb	w9, [x9, #-1]
	cmp	w9, #47
	b.ne	.Lunix_path_BB65_1153
.Lunix_path_BB65_1151:
	sub	x8, x26, x1
	cmp	x8, #8
	b.ne	.Lunix_path_BB65_1146
	mov	x0, x24
	bl	unix_path.filler.trimmed_blocks_len
	mov	x16, x22
	mov	x1, x0
	b	.Lunix_path_BB65_1146
.Lunix_path_BB65_1153:
	mov	x9, xzr
	mov	x10, x8
	b	.Lunix_path_BB65_1157
.Lunix_path_BB65_1154:
	mov	x10, xzr
.Lunix_path_BB65_1155:
	add	x10, x10, x11
.Lunix_path_BB65_1156:
	add	x9, x10, x9
	mov	w19, wzr
	subs	x10, x8, x9
	add	x24, x28, x9
	b.eq	.Lunix_path_BB65_1112
.Lunix_path_BB65_1157:
	tbz	w19, #0, .Lunix_path_BB65_1165
	subs	x12, x10, #1
	b.eq	.Lunix_path_BB65_1182
	mov	x11, xzr
	sub	x10, x10, #2
	b	.Lunix_path_BB65_1161
.Lunix_path_BB65_1160:
	add	x11, x11, #1
	cmp	x12, x11
	b.eq	.Lunix_path_BB65_1180
.Lunix_path_BB65_1161:
	add	x13, x24, x11
	ldrb	w13, [x13, #1]
	cmp	w13, #47
	b.eq	.Lunix_path_BB65_1160
	cmp	w13, #46
	b.ne	.Lunix_path_BB65_1181
	cmp	x10, x11
	b.eq	.Lunix_path_BB65_1180
	add	x13, x24, x11
	ldrb	w13, [x13, #2]
	cmp	w13, #47
	b.eq	.Lunix_path_BB65_1160
	b	.Lunix_path_BB65_1181
.Lunix_path_BB65_1165:
	cmp	x10, #1
	b.eq	.Lunix_path_BB65_1170
	ldrb	w11, [x24]
	cmp	w11, #46
	b.ne	.Lunix_path_BB65_1170
	ldrb	w11, [x24, #1]
	cmp	w11, #46
	b.ne	.Lunix_path_BB65_1170
	cmp	x10, #2
	b.eq	.Lunix_path_BB65_1192
	ldrb	w11, [x24, #2]
	cmp	w11, #47
	b.eq	.Lunix_path_BB65_1192
.Lunix_path_BB65_1170:
	cmp	x10, #15
	b.hi	.Lunix_path_BB65_1175
	mov	x11, xzr
.Lunix_path_BB65_1172:
	ldrb	w12, [x24, x11]
	cmp	w12, #47
	b.eq	.Lunix_path_BB65_1184
	add	x11, x11, #1
	cmp	x10, x11
	b.ne	.Lunix_path_BB65_1172
	mov	x11, x10
	b	.Lunix_path_BB65_1184
.Lunix_path_BB65_1175:
	subs	x11, x10, #16
	b.eq	.Lunix_path_BB65_1179
	mov	x12, xzr
.Lunix_path_BB65_1177:
	movi	v0.16b, #47
	ldr	q1, [x24, x12]
	cmeq	v0.16b, v1.16b, v0.16b
	ldr	q1, [x16, :lo12:.Lunix_path_CPI65_0]
	and	v0.16b, v0.16b, v1.16b
	addp	v0.16b, v0.16b, v0.16b
	addp	v0.16b, v0.16b, v0.16b
	addp	v0.16b, v0.16b, v0.16b
	umov	w13, v0.h[0]
	orr	w13, w13, #0x10000
	rbit	w13, w13
	clz	w13, w13
	cmp	w13, #15
	b.ls	.Lunix_path_BB65_1183
	add	x12, x12, #16
	cmp	x12, x11
	b.lo	.Lunix_path_BB65_1177
.Lunix_path_BB65_1179:
	movi	v0.16b, #47
	ldr	q1, [x24, x11]
	cmeq	v0.16b, v1.16b, v0.16b
	ldr	q1, [x16, :lo12:.Lunix_path_CPI65_0]
	and	v0.16b, v0.16b, v1.16b
	addp	v0.16b, v0.16b, v0.16b
	addp	v0.16b, v0.16b, v0.16b
	addp	v0.16b, v0.16b, v0.16b
	umov	w12, v0.h[0]
	orr	w12, w12, #0x10000
	rbit	w12, w12
	clz	w12, w12
	add	x11, x11, x12
	b	.Lunix_path_BB65_1184
.Lunix_path_BB65_1180:
	mov	x11, x12
.Lunix_path_BB65_1181:
	add	x10, x11, #1
.Lunix_path_BB65_1182:
	ldrb	w11, [x24]
	cmp	w11, #47
	b.ne	.Lunix_path_BB65_1156
	b	.Lunix_path_BB65_1192
.Lunix_path_BB65_1183:
	add	x11, x12, w13, uxtw
.Lunix_path_BB65_1184:
	subs	x12, x10, x11
	b.eq	.Lunix_path_BB65_1154
	mov	x10, xzr
	add	x13, x24, x11
	sub	x14, x12, #1
	b	.Lunix_path_BB65_1187
.Lunix_path_BB65_1186:
	add	x10, x10, #1
	cmp	x12, x10
	b.eq	.Lunix_path_BB65_1191
.Lunix_path_BB65_1187:
	ldrb	w15, [x13, x10]
	cmp	w15, #47
	b.eq	.Lunix_path_BB65_1186
	cmp	w15, #46
	b.ne	.Lunix_path_BB65_1155
	cmp	x14, x10
	b.eq	.Lunix_path_BB65_1191
	add	x15, x13, x10
	ldrb	w15, [x15, #1]
	cmp	w15, #47
	b.eq	.Lunix_path_BB65_1186
	b	.Lunix_path_BB65_1155
.Lunix_path_BB65_1191:
	mov	x10, x12
	b	.Lunix_path_BB65_1155
.Lunix_path_BB65_1192:
	ldr	x8, [sp, #56]
	tbnz	w27, #0, .Lunix_path_BB65_1131
.Lunix_path_BB65_1193:
	mov	w26, wzr
	mov	w24, wzr
	mov	w22, wzr
	mov	x20, xzr
	mov	x23, xzr
	mov	x28, xzr
	cbnz	x8, .Lunix_path_BB65_1132
	b	.Lunix_path_BB65_1133
.Lunix_path_BB65_1194:
	and	x9, x23, #0x18
	and	x8, x23, #0x7fffffffffffffe0
	add	x10, x27, #16
	add	x11, x20, #16
	and	x12, x23, #0x7fffffffffffffe0
.Lunix_path_BB65_1195:
	ldp	q0, q1, [x10, #-16]
	subs	x12, x12, #32
	add	x10, x10, #32
	stp	q0, q1, [x11, #-16]
	add	x11, x11, #32
	b.ne	.Lunix_path_BB65_1195
	cmp	x26, x8
	b.eq	.Lunix_path_BB65_1143
	cbz	x9, .Lunix_path_BB65_1201
.Lunix_path_BB65_1198:
	mov	x9, x8
	and	x8, x23, #0x7ffffffffffffff8
.Lunix_path_BB65_1199:
	ldr	d0, [x27, x9]
	str	d0, [x20, x9]
	add	x9, x9, #8
	cmp	x8, x9
	b.ne	.Lunix_path_BB65_1199
	cmp	x26, x8
	b.eq	.Lunix_path_BB65_1143
.Lunix_path_BB65_1201:
	ldrb	w9, [x27, x8]
	mov	w24, #1
	strb	w9, [x20, x8]
	add	x8, x8, #1
	cmp	x23, x8
	b.ne	.Lunix_path_BB65_1201
	mov	w26, wzr
.Lunix_path_BB65_1203:
	ldr	x8, [sp, #56]
	mov	w22, #1
	mov	x28, x23
	cbnz	x8, .Lunix_path_BB65_1132
	b	.Lunix_path_BB65_1133
.Lunix_path_BB65_1204:
	ldrb	w9, [x24, #3]
	ldrb	w10, [x20, #3]
	cmp	w9, w10
	b.ne	.Lunix_path_BB65_1211
	cmp	x8, #4
	b.eq	.Lunix_path_BB65_325
	ldrb	w9, [x24, #4]
	ldrb	w10, [x20, #4]
	cmp	w9, w10
	b.ne	.Lunix_path_BB65_1212
	cmp	x8, #5
	b.eq	.Lunix_path_BB65_325
	ldrb	w9, [x24, #5]
	ldrb	w10, [x20, #5]
	cmp	w9, w10
	b.ne	.Lunix_path_BB65_1213
	cmp	x8, #6
	mov	x14, x24
	b.eq	.Lunix_path_BB65_577
	ldrb	w9, [x14, #6]
	ldrb	w10, [x20, #6]
	cmp	w9, w10
	mov	w9, #6
	csel	x8, x8, x9, eq
	b	.Lunix_path_BB65_577
.Lunix_path_BB65_1211:
	mov	w8, #3
	mov	x14, x24
	b	.Lunix_path_BB65_577
.Lunix_path_BB65_1212:
	mov	w8, #4
	mov	x14, x24
	b	.Lunix_path_BB65_577
.Lunix_path_BB65_1213:
	mov	w8, #5
	mov	x14, x24
	b	.Lunix_path_BB65_577
.Lunix_path_func_end65:
	.size	upath_commands.task.answer_of, .Lunix_path_func_end65-upath_commands.task.answer_of
	.section	.rodata.upath_commands.task.answer_of,"a",@progbits
	.p2align	1, 0x0
.Lunix_path_JTI65_0:
	.hword	(.Lunix_path_BB65_28-.Lunix_path_BB65_1)>>2
	.hword	(.Lunix_path_BB65_20-.Lunix_path_BB65_1)>>2
	.hword	(.Lunix_path_BB65_16-.Lunix_path_BB65_1)>>2
	.hword	(.Lunix_path_BB65_1-.Lunix_path_BB65_1)>>2
	.hword	(.Lunix_path_BB65_2-.Lunix_path_BB65_1)>>2
	.hword	(.Lunix_path_BB65_37-.Lunix_path_BB65_1)>>2
	.hword	(.Lunix_path_BB65_53-.Lunix_path_BB65_1)>>2
	.hword	(.Lunix_path_BB65_1-.Lunix_path_BB65_1)>>2
	.hword	(.Lunix_path_BB65_12-.Lunix_path_BB65_1)>>2
	.hword	(.Lunix_path_BB65_42-.Lunix_path_BB65_1)>>2
	.hword	(.Lunix_path_BB65_3-.Lunix_path_BB65_1)>>2
	.hword	(.Lunix_path_BB65_48-.Lunix_path_BB65_1)>>2
	.hword	(.Lunix_path_BB65_18-.Lunix_path_BB65_1)>>2
	.hword	(.Lunix_path_BB65_22-.Lunix_path_BB65_1)>>2
	.hword	(.Lunix_path_BB65_1-.Lunix_path_BB65_1)>>2
	.hword	(.Lunix_path_BB65_44-.Lunix_path_BB65_1)>>2
	.hword	(.Lunix_path_BB65_296-.Lunix_path_BB65_1)>>2
	.hword	(.Lunix_path_BB65_1-.Lunix_path_BB65_1)>>2
	.hword	(.Lunix_path_BB65_296-.Lunix_path_BB65_1)>>2
	.hword	(.Lunix_path_BB65_1-.Lunix_path_BB65_1)>>2
	.section	.rodata.cst16,"aM",@progbits,16
	.p2align	4, 0x0
.Lunix_path_CPI66_0:
	.byte	1
	.byte	2
	.byte	4
	.byte	8
	.byte	16
	.byte	32
	.byte	64
	.byte	128
	.byte	1
	.byte	2
	.byte	4
	.byte	8
	.byte	16
	.byte	32
	.byte	64
	.byte	128
	.section	.rodata.cst8,"aM",@progbits,8
	.p2align	3, 0x0
.Lunix_path_CPI66_1:
	.byte	1
	.byte	2
	.byte	4
	.byte	8
	.byte	16
	.byte	32
	.byte	64
	.byte	128
	.section	.text.path_within.resolved.resolved,"ax",@progbits
	.p2align	2
	.type	path_within.resolved.resolved,@function
// path_within::resolved::resolved
path_within.resolved.resolved:
	sub	sp, sp, #96
	movi	v0.2d, #0000000000000000
	stp	x22, x21, [sp, #64]
	mov	x21, x1
	stp	x20, x19, [sp, #80]
	mov	x20, x2
	mov	x19, x0
	stp	x29, x30, [sp, #32]
	add	x29, sp, #32
	str	x23, [sp, #48]
	stp	q0, q0, [sp]
	cbz	x2, .Lunix_path_BB66_49
	mov	x9, x21
	ldrb	w8, [x9], #1
	cmp	w8, #47
	cset	w11, eq
	csel	x10, x21, x9, ne
	subs	x9, x20, x11
	b.eq	.Lunix_path_BB66_39
	ldrb	w11, [x10]
	cmp	w11, #47
	b.eq	.Lunix_path_BB66_39
	cmp	w11, #46
	b.ne	.Lunix_path_BB66_9
	cmp	x9, #2
	b.lo	.Lunix_path_BB66_39
	ldrb	w11, [x10, #1]
	cmp	w11, #47
	b.eq	.Lunix_path_BB66_39
	cmp	w11, #46
	b.ne	.Lunix_path_BB66_9
	cmp	x9, #2
	b.eq	.Lunix_path_BB66_39
	ldrb	w11, [x10, #2]
	cmp	w11, #47
	b.eq	.Lunix_path_BB66_39
.Lunix_path_BB66_9:
	add	x14, x21, x20
	ldurb	w11, [x14, #-1]
	and	w11, w11, #0xfe
	cmp	w11, #46
	b.eq	.Lunix_path_BB66_39
	subs	x12, x9, #17
	b.hs	.Lunix_path_BB66_13
.Lunix_path_BB66_11:
	cmp	x9, #9
	b.hs	.Lunix_path_BB66_21
	mov	x11, xzr
	b	.Lunix_path_BB66_37
.Lunix_path_BB66_13:
	cmp	x9, #32
	adrp	x11, .Lunix_path_CPI66_0
	b.hi	.Lunix_path_BB66_23
	movi	v0.16b, #208
	ldur	q1, [x10, #1]
	ldr	q3, [x10]
	and	v2.16b, v1.16b, v0.16b
	movi	v1.16b, #47
	orr	v2.16b, v2.16b, v3.16b
	cmeq	v3.16b, v2.16b, v1.16b
	ldr	q2, [x11, :lo12:.Lunix_path_CPI66_0]
	and	v3.16b, v3.16b, v2.16b
	addp	v3.16b, v3.16b, v3.16b
	addp	v3.16b, v3.16b, v3.16b
	addp	v3.16b, v3.16b, v3.16b
	umov	w13, v3.h[0]
	cbnz	w13, .Lunix_path_BB66_16
	ldur	q3, [x14, #-16]
	and	v0.16b, v3.16b, v0.16b
	ldur	q3, [x14, #-17]
	orr	v0.16b, v0.16b, v3.16b
	cmeq	v0.16b, v0.16b, v1.16b
	and	v0.16b, v0.16b, v2.16b
	addp	v0.16b, v0.16b, v0.16b
	addp	v0.16b, v0.16b, v0.16b
	addp	v0.16b, v0.16b, v0.16b
	umov	w13, v0.h[0]
	cbz	w13, .Lunix_path_BB66_51
.Lunix_path_BB66_16:
	cmp	x9, #18
	b.ls	.Lunix_path_BB66_11
	subs	x13, x9, #19
	b.ne	.Lunix_path_BB66_25
	mov	x14, xzr
.Lunix_path_BB66_19:
	cmp	x12, x14
	movi	v0.16b, #208
	csel	x12, x12, x14, lo
	add	x14, x10, x12
	ldur	q1, [x14, #1]
	ldr	q2, [x14]
	and	v1.16b, v1.16b, v0.16b
	movi	v0.16b, #47
	orr	v1.16b, v1.16b, v2.16b
	cmeq	v2.16b, v1.16b, v0.16b
	ldr	q1, [x11, :lo12:.Lunix_path_CPI66_0]
	and	v2.16b, v2.16b, v1.16b
	addp	v2.16b, v2.16b, v2.16b
	addp	v2.16b, v2.16b, v2.16b
	addp	v2.16b, v2.16b, v2.16b
	umov	w11, v2.h[0]
	cbz	w11, .Lunix_path_BB66_36
	movi	v2.16b, #46
	add	x11, x10, x13
	ldur	q3, [x11, #2]
	ldur	q4, [x11, #3]
	cmeq	v4.16b, v4.16b, v0.16b
	cmeq	v5.16b, v3.16b, v2.16b
	cmeq	v3.16b, v3.16b, v0.16b
	and	v4.16b, v5.16b, v4.16b
	ldur	q5, [x11, #1]
	cmeq	v2.16b, v5.16b, v2.16b
	orr	v3.16b, v3.16b, v4.16b
	ldr	q4, [x11]
	and	v2.16b, v2.16b, v3.16b
	cmeq	v3.16b, v4.16b, v0.16b
	cmeq	v0.16b, v5.16b, v0.16b
	orr	v0.16b, v0.16b, v2.16b
	and	v1.16b, v3.16b, v1.16b
	and	v0.16b, v1.16b, v0.16b
	addp	v0.16b, v0.16b, v0.16b
	addp	v0.16b, v0.16b, v0.16b
	addp	v0.16b, v0.16b, v0.16b
	umov	w11, v0.h[0]
	orr	w11, w11, #0x10000
	rbit	w11, w11
	clz	w11, w11
	add	x11, x13, x11
	b	.Lunix_path_BB66_37
.Lunix_path_BB66_21:
	movi	v0.8b, #254
	movi	v1.8b, #47
	ldr	d3, [x10]
	ldur	d4, [x10, #1]
	movi	v2.8b, #46
	adrp	x11, .Lunix_path_CPI66_1
	and	v4.8b, v4.8b, v0.8b
	cmeq	v5.8b, v3.8b, v1.8b
	ldr	d3, [x11, :lo12:.Lunix_path_CPI66_1]
	cmeq	v4.8b, v4.8b, v2.8b
	and	v5.8b, v5.8b, v3.8b
	and	v4.8b, v5.8b, v4.8b
	addv	b4, v4.8b
	fmov	w11, s4
	orr	w11, w11, #0x100
	rbit	w11, w11
	clz	w11, w11
	cmp	w11, #8
	b.lo	.Lunix_path_BB66_37
	cmp	x9, #17
	mov	w11, #17
	csel	x11, x9, x11, lo
	sub	x11, x11, #9
	add	x12, x10, x11
	ldr	d4, [x12]
	ldur	d5, [x12, #1]
	and	v0.8b, v5.8b, v0.8b
	cmeq	v1.8b, v4.8b, v1.8b
	cmeq	v0.8b, v0.8b, v2.8b
	and	v1.8b, v1.8b, v3.8b
	and	v0.8b, v1.8b, v0.8b
	addv	b0, v0.8b
	fmov	w12, s0
	orr	w12, w12, #0x100
	rbit	w12, w12
	clz	w12, w12
	add	x11, x11, x12
	b	.Lunix_path_BB66_37
.Lunix_path_BB66_23:
	sub	x13, x9, #33
	movi	v0.16b, #208
	ldur	q2, [x14, #-16]
	add	x15, x10, x13
	ldur	q3, [x14, #-17]
	movi	v4.16b, #47
	ldur	q1, [x15, #1]
	and	v1.16b, v1.16b, v0.16b
	and	v0.16b, v2.16b, v0.16b
	ldr	q2, [x15]
	orr	v1.16b, v1.16b, v2.16b
	orr	v0.16b, v0.16b, v3.16b
	cmeq	v1.16b, v1.16b, v4.16b
	cmeq	v2.16b, v0.16b, v4.16b
	ldr	q0, [x11, :lo12:.Lunix_path_CPI66_0]
	and	v1.16b, v1.16b, v0.16b
	and	v2.16b, v2.16b, v0.16b
	addp	v1.16b, v1.16b, v1.16b
	addp	v2.16b, v2.16b, v2.16b
	addp	v1.16b, v1.16b, v1.16b
	addp	v2.16b, v2.16b, v2.16b
	addp	v1.16b, v1.16b, v1.16b
	addp	v2.16b, v2.16b, v2.16b
	orr	v1.16b, v2.16b, v1.16b
	umov	w14, v1.h[0]
	cbz	w14, .Lunix_path_BB66_32
	sub	x13, x9, #19
.Lunix_path_BB66_25:
	mov	x14, xzr
	b	.Lunix_path_BB66_27
.Lunix_path_BB66_26:
	cmp	x14, x13
	b.hs	.Lunix_path_BB66_19
.Lunix_path_BB66_27:
	movi	v1.16b, #208
	add	x15, x10, x14
	movi	v2.16b, #47
	ldur	q0, [x15, #1]
	and	v3.16b, v0.16b, v1.16b
	ldr	q1, [x15]
	orr	v3.16b, v3.16b, v1.16b
	cmeq	v4.16b, v3.16b, v2.16b
	ldr	q3, [x11, :lo12:.Lunix_path_CPI66_0]
	and	v4.16b, v4.16b, v3.16b
	addp	v4.16b, v4.16b, v4.16b
	addp	v4.16b, v4.16b, v4.16b
	addp	v4.16b, v4.16b, v4.16b
	umov	w16, v4.h[0]
	cbz	w16, .Lunix_path_BB66_30
	movi	v4.16b, #46
	ldur	q5, [x15, #2]
	ldur	q6, [x15, #3]
	cmeq	v1.16b, v1.16b, v2.16b
	cmeq	v6.16b, v6.16b, v2.16b
	cmeq	v7.16b, v5.16b, v4.16b
	cmeq	v5.16b, v5.16b, v2.16b
	cmeq	v4.16b, v0.16b, v4.16b
	cmeq	v0.16b, v0.16b, v2.16b
	and	v1.16b, v1.16b, v3.16b
	and	v6.16b, v7.16b, v6.16b
	orr	v5.16b, v5.16b, v6.16b
	and	v4.16b, v4.16b, v5.16b
	orr	v0.16b, v0.16b, v4.16b
	and	v0.16b, v1.16b, v0.16b
	addp	v0.16b, v0.16b, v0.16b
	addp	v0.16b, v0.16b, v0.16b
	addp	v0.16b, v0.16b, v0.16b
	umov	w15, v0.h[0]
	orr	w15, w15, #0x10000
	rbit	w15, w15
	clz	w15, w15
	cmp	w15, #15
	b.ls	.Lunix_path_BB66_31
	add	x14, x14, #16
	b	.Lunix_path_BB66_26
.Lunix_path_BB66_30:
	add	x14, x14, #16
	cmp	x14, x13
	b.lo	.Lunix_path_BB66_27
	b	.Lunix_path_BB66_26
.Lunix_path_BB66_31:
	add	x11, x14, w15, uxtw
	b	.Lunix_path_BB66_37
.Lunix_path_BB66_32:
	cbz	x13, .Lunix_path_BB66_51
	mov	x14, xzr
.Lunix_path_BB66_34:
	movi	v1.16b, #208
	add	x15, x10, x14
	movi	v5.16b, #47
	ldur	q2, [x15, #1]
	ldur	q3, [x15, #17]
	and	v2.16b, v2.16b, v1.16b
	and	v1.16b, v3.16b, v1.16b
	ldp	q3, q4, [x15]
	orr	v2.16b, v2.16b, v3.16b
	orr	v1.16b, v1.16b, v4.16b
	cmeq	v2.16b, v2.16b, v5.16b
	cmeq	v1.16b, v1.16b, v5.16b
	and	v2.16b, v2.16b, v0.16b
	and	v1.16b, v1.16b, v0.16b
	addp	v2.16b, v2.16b, v2.16b
	addp	v1.16b, v1.16b, v1.16b
	addp	v2.16b, v2.16b, v2.16b
	addp	v1.16b, v1.16b, v1.16b
	addp	v2.16b, v2.16b, v2.16b
	addp	v1.16b, v1.16b, v1.16b
	orr	v1.16b, v1.16b, v2.16b
	umov	w15, v1.h[0]
	cbnz	w15, .Lunix_path_BB66_16
	add	x14, x14, #32
	cmp	x14, x13
	b.lo	.Lunix_path_BB66_34
	b	.Lunix_path_BB66_50
.Lunix_path_BB66_36:
	add	x11, x12, #16
.Lunix_path_BB66_37:
	cmp	x11, x9
	b.lo	.Lunix_path_BB66_58
.Lunix_path_BB66_38:
	cmp	x11, x9
	b.eq	.Lunix_path_BB66_50
.Lunix_path_BB66_39:
	cmp	w8, #47
	b.eq	.Lunix_path_BB66_49
	cmp	w8, #46
	b.ne	.Lunix_path_BB66_46
	cmp	x20, #1
	b.eq	.Lunix_path_BB66_49
	ldrb	w8, [x21, #1]
	cmp	w8, #47
	b.eq	.Lunix_path_BB66_49
	cmp	w8, #46
	b.ne	.Lunix_path_BB66_46
	cmp	x20, #3
	b.lo	.Lunix_path_BB66_49
	ldrb	w8, [x21, #2]
	cmp	w8, #47
	b.eq	.Lunix_path_BB66_49
.Lunix_path_BB66_46:
	add	x8, x21, x20
	ldurb	w9, [x8, #-1]
	cmp	w9, #46
	b.ne	.Lunix_path_BB66_55
	cmp	x20, #1
	b.eq	.Lunix_path_BB66_49
	ldurb	w8, [x8, #-2]
	cmp	w8, #47
	b.eq	.Lunix_path_BB66_55
.Lunix_path_BB66_49:
	mov	x0, x21
	mov	x1, x20
	bl	path_within.normal.is_resolved
	tbz	w0, #0, .Lunix_path_BB66_55
.Lunix_path_BB66_50:
	cbz	x20, .Lunix_path_BB66_65
.Lunix_path_BB66_51:
	tbnz	x20, #63, .Lunix_path_BB66_70
	mov	x0, x20
	mov	w1, #1
	mov	w23, #1
	bl	rattle_alloc
	tbz	w0, #0, .Lunix_path_BB66_71
	mov	x22, x1
	sub	x9, x1, x21
	cmp	x9, x20
	b.lo	.Lunix_path_BB66_66
.Lunix_path_BB66_54:
	mov	x0, x22
	mov	x1, x21
	mov	x2, x20
	bl	memmove
	b	.Lunix_path_BB66_80
.Lunix_path_BB66_55:
	mov	x0, sp
	mov	x1, x21
	mov	x2, x20
	bl	path_within.resolved.resolve_to_path_buf
	ldrb	w8, [sp]
	ldur	q0, [sp, #8]
	ldr	x9, [sp, #24]
	strb	w8, [x19]
	stur	q0, [x19, #8]
	str	x9, [x19, #24]
	ldp	x20, x19, [sp, #80]
	ldr	x23, [sp, #48]
	ldp	x22, x21, [sp, #64]
	ldp	x29, x30, [sp, #32]
	add	sp, sp, #96
	ret
.Lunix_path_BB66_56:
	cmp	w13, #47
	b.eq	.Lunix_path_BB66_38
.Lunix_path_BB66_57:
	cmp	x12, x9
	mov	x11, x12
	b.hs	.Lunix_path_BB66_50
.Lunix_path_BB66_58:
	ldrb	w12, [x10, x11]
	cmp	w12, #47
	add	x12, x11, #1
	b.ne	.Lunix_path_BB66_57
	cmp	x9, x12
	b.ls	.Lunix_path_BB66_38
	add	x13, x10, x11
	ldrb	w13, [x13, #1]
	cmp	w13, #46
	b.ne	.Lunix_path_BB66_56
	add	x13, x11, #2
	cmp	x9, x13
	b.ls	.Lunix_path_BB66_38
	add	x13, x10, x11
	ldrb	w13, [x13, #2]
	cmp	w13, #46
	b.ne	.Lunix_path_BB66_56
	add	x13, x11, #3
	cmp	x9, x13
	b.ls	.Lunix_path_BB66_38
	add	x13, x10, x11
	ldrb	w13, [x13, #3]
	b	.Lunix_path_BB66_56
.Lunix_path_BB66_65:
	add	x22, x29, #31
	sub	x9, x22, x21
	cmp	x9, x20
	b.hs	.Lunix_path_BB66_54
.Lunix_path_BB66_66:
	cmp	x20, #8
	mov	x8, xzr
	b.lo	.Lunix_path_BB66_78
	cmp	x9, #32
	b.lo	.Lunix_path_BB66_78
	cmp	x20, #32
	b.hs	.Lunix_path_BB66_72
	mov	x8, xzr
	b	.Lunix_path_BB66_76
.Lunix_path_BB66_70:
	mov	x22, xzr
	mov	x20, xzr
	mov	w23, #1
	b	.Lunix_path_BB66_81
.Lunix_path_BB66_71:
	mov	x22, xzr
	mov	x20, xzr
	b	.Lunix_path_BB66_81
.Lunix_path_BB66_72:
	and	x9, x20, #0x18
	and	x8, x20, #0xffffffffffffffe0
	add	x10, x21, #16
	add	x11, x22, #16
	and	x12, x20, #0xffffffffffffffe0
.Lunix_path_BB66_73:
	ldp	q0, q1, [x10, #-16]
	subs	x12, x12, #32
	add	x10, x10, #32
	stp	q0, q1, [x11, #-16]
	add	x11, x11, #32
	b.ne	.Lunix_path_BB66_73
	cmp	x20, x8
	b.eq	.Lunix_path_BB66_80
	cbz	x9, .Lunix_path_BB66_78
.Lunix_path_BB66_76:
	mov	x9, x8
	and	x8, x20, #0xfffffffffffffff8
.Lunix_path_BB66_77:
	ldr	d0, [x21, x9]
	str	d0, [x22, x9]
	add	x9, x9, #8
	cmp	x8, x9
	b.ne	.Lunix_path_BB66_77
	b	.Lunix_path_BB66_79
.Lunix_path_BB66_78:
	ldrb	w9, [x21, x8]
	strb	w9, [x22, x8]
	add	x8, x8, #1
.Lunix_path_BB66_79:
	cmp	x20, x8
	b.ne	.Lunix_path_BB66_78
.Lunix_path_BB66_80:
	mov	w23, wzr
.Lunix_path_BB66_81:
	stp	x22, x20, [sp, #8]
	ldur	q0, [sp, #8]
	str	x20, [sp, #24]
	strb	w23, [x19]
	str	x20, [x19, #24]
	stur	q0, [x19, #8]
	ldp	x20, x19, [sp, #80]
	ldr	x23, [sp, #48]
	ldp	x22, x21, [sp, #64]
	ldp	x29, x30, [sp, #32]
	add	sp, sp, #96
	ret
.Lunix_path_func_end66:
	.size	path_within.resolved.resolved, .Lunix_path_func_end66-path_within.resolved.resolved
	.section	.rodata.cst16,"aM",@progbits,16
	.p2align	4, 0x0
.Lunix_path_CPI67_0:
	.byte	1
	.byte	2
	.byte	4
	.byte	8
	.byte	16
	.byte	32
	.byte	64
	.byte	128
	.byte	1
	.byte	2
	.byte	4
	.byte	8
	.byte	16
	.byte	32
	.byte	64
	.byte	128
	.section	.text.path_within.normal.is_resolved,"ax",@progbits
	.p2align	2
	.type	path_within.normal.is_resolved,@function
// path_within::normal::is_resolved
path_within.normal.is_resolved:
	sub	sp, sp, #144
	stp	x20, x19, [sp, #128]
	mov	x19, x1
	mov	x20, x0
	stp	x29, x30, [sp, #96]
	add	x29, sp, #96
	stp	x22, x21, [sp, #112]
	cbz	x1, .Lunix_path_BB67_9
	mov	x8, x19
	b	.Lunix_path_BB67_3
.Lunix_path_BB67_2:
	mov	x8, x1
	cbz	x1, .Lunix_path_BB67_10
.Lunix_path_BB67_3:
	subs	x1, x8, #1
	b.eq	.Lunix_path_BB67_10
	add	x9, x20, x1
	ldrb	w10, [x9]
	cmp	w10, #47
	b.eq	.Lunix_path_BB67_7
	cmp	w10, #46
	b.ne	.Lunix_path_BB67_10
	ldurb	w9, [x9, #-1]
	cmp	w9, #47
	b.ne	.Lunix_path_BB67_10
.Lunix_path_BB67_7:
	sub	x8, x19, x1
	cmp	x8, #8
	b.ne	.Lunix_path_BB67_2
	mov	x0, x20
	bl	unix_path.filler.trimmed_blocks_len
	mov	x1, x0
	b	.Lunix_path_BB67_2
.Lunix_path_BB67_9:
	mov	x8, xzr
.Lunix_path_BB67_10:
	cmp	x8, x19
	b.hs	.Lunix_path_BB67_12
.Lunix_path_BB67_11:
	ldp	x20, x19, [sp, #128]
	and	w0, wzr, #0x1
	ldp	x22, x21, [sp, #112]
	ldp	x29, x30, [sp, #96]
	add	sp, sp, #144
	ret
.Lunix_path_BB67_12:
	subs	x9, x8, #2
	b.lo	.Lunix_path_BB67_30
	subs	x10, x8, #18
	b.hs	.Lunix_path_BB67_15
	mov	x10, xzr
	cmp	xzr, x8
	b.lo	.Lunix_path_BB67_21
	b	.Lunix_path_BB67_29
.Lunix_path_BB67_15:
	adrp	x11, .Lunix_path_CPI67_0
	b.eq	.Lunix_path_BB67_19
	mov	x12, xzr
.Lunix_path_BB67_17:
	movi	v0.16b, #46
	movi	v1.16b, #47
	add	x13, x20, x12
	ldur	q2, [x13, #1]
	ldur	q3, [x13, #2]
	ldr	q4, [x13]
	cmeq	v0.16b, v2.16b, v0.16b
	cmeq	v3.16b, v3.16b, v1.16b
	and	v0.16b, v0.16b, v3.16b
	cmeq	v3.16b, v4.16b, v1.16b
	cmeq	v1.16b, v2.16b, v1.16b
	ldr	q2, [x11, :lo12:.Lunix_path_CPI67_0]
	orr	v0.16b, v1.16b, v0.16b
	and	v1.16b, v3.16b, v2.16b
	and	v0.16b, v1.16b, v0.16b
	addp	v0.16b, v0.16b, v0.16b
	addp	v0.16b, v0.16b, v0.16b
	addp	v0.16b, v0.16b, v0.16b
	umov	w13, v0.h[0]
	orr	w13, w13, #0x10000
	rbit	w13, w13
	clz	w13, w13
	cmp	w13, #15
	b.ls	.Lunix_path_BB67_20
	add	x12, x12, #16
	cmp	x12, x10
	b.lo	.Lunix_path_BB67_17
.Lunix_path_BB67_19:
	movi	v0.16b, #46
	movi	v1.16b, #47
	add	x12, x20, x10
	ldur	q2, [x12, #1]
	ldur	q3, [x12, #2]
	ldr	q4, [x12]
	cmeq	v0.16b, v2.16b, v0.16b
	cmeq	v3.16b, v3.16b, v1.16b
	and	v0.16b, v0.16b, v3.16b
	cmeq	v3.16b, v4.16b, v1.16b
	cmeq	v1.16b, v2.16b, v1.16b
	ldr	q2, [x11, :lo12:.Lunix_path_CPI67_0]
	orr	v0.16b, v1.16b, v0.16b
	and	v1.16b, v3.16b, v2.16b
	and	v0.16b, v1.16b, v0.16b
	addp	v0.16b, v0.16b, v0.16b
	addp	v0.16b, v0.16b, v0.16b
	addp	v0.16b, v0.16b, v0.16b
	umov	w11, v0.h[0]
	orr	w11, w11, #0x10000
	rbit	w11, w11
	clz	w11, w11
	add	x10, x10, x11
	cmp	x10, x8
	b.hs	.Lunix_path_BB67_29
	b	.Lunix_path_BB67_21
.Lunix_path_BB67_20:
	add	x10, x12, w13, uxtw
	cmp	x10, x8
	b.hs	.Lunix_path_BB67_29
.Lunix_path_BB67_21:
	add	x11, x20, #1
	sub	x12, x8, #1
	b	.Lunix_path_BB67_24
.Lunix_path_BB67_22:
	cmp	w13, #47
	b.eq	.Lunix_path_BB67_29
.Lunix_path_BB67_23:
	add	x10, x10, #1
	cmp	x8, x10
	b.eq	.Lunix_path_BB67_30
.Lunix_path_BB67_24:
	add	x13, x11, x10
	ldurb	w13, [x13, #-1]
	cmp	w13, #47
	b.ne	.Lunix_path_BB67_23
	cmp	x12, x10
	b.eq	.Lunix_path_BB67_29
	ldrb	w13, [x11, x10]
	cmp	w13, #46
	b.ne	.Lunix_path_BB67_22
	cmp	x9, x10
	b.eq	.Lunix_path_BB67_29
	add	x13, x11, x10
	ldrb	w13, [x13, #1]
	b	.Lunix_path_BB67_22
.Lunix_path_BB67_29:
	cmp	x10, x8
	b.ne	.Lunix_path_BB67_11
.Lunix_path_BB67_30:
	cbz	x19, .Lunix_path_BB67_45
	ldrb	w22, [x20]
	cmp	w22, #47
	b.eq	.Lunix_path_BB67_34
	cmp	w22, #46
	b.ne	.Lunix_path_BB67_35
	cmp	x19, #1
	b.ne	.Lunix_path_BB67_36
.Lunix_path_BB67_34:
	mov	w21, #1
	b	.Lunix_path_BB67_37
.Lunix_path_BB67_35:
	mov	w21, wzr
	b	.Lunix_path_BB67_37
.Lunix_path_BB67_36:
	ldrb	w8, [x20, #1]
	cmp	w8, #47
	cset	w21, eq
.Lunix_path_BB67_37:
	mov	x8, x19
	b	.Lunix_path_BB67_39
.Lunix_path_BB67_38:
	mov	x8, x1
	cbz	x1, .Lunix_path_BB67_45
.Lunix_path_BB67_39:
	subs	x1, x8, #1
	b.eq	.Lunix_path_BB67_46
	add	x9, x20, x1
	ldrb	w10, [x9]
	cmp	w10, #47
	b.eq	.Lunix_path_BB67_43
	cmp	w10, #46
	b.ne	.Lunix_path_BB67_48
	ldurb	w9, [x9, #-1]
	cmp	w9, #47
	b.ne	.Lunix_path_BB67_48
.Lunix_path_BB67_43:
	sub	x8, x19, x1
	cmp	x8, #8
	b.ne	.Lunix_path_BB67_38
	mov	x0, x20
	bl	unix_path.filler.trimmed_blocks_len
	mov	x1, x0
	b	.Lunix_path_BB67_38
.Lunix_path_BB67_45:
	mov	w0, #1
	ldp	x20, x19, [sp, #128]
	and	w0, w0, #0x1
	ldp	x22, x21, [sp, #112]
	ldp	x29, x30, [sp, #96]
	add	sp, sp, #144
	ret
.Lunix_path_BB67_46:
	strh	wzr, [sp, #4]
	str	wzr, [sp]
	tbz	w21, #0, .Lunix_path_BB67_63
	mov	w10, #1
	cmp	w22, #47
	mov	w9, #1
	b.eq	.Lunix_path_BB67_66
	b	.Lunix_path_BB67_69
.Lunix_path_BB67_48:
	strh	wzr, [sp, #4]
	str	wzr, [sp]
	tbz	w21, #0, .Lunix_path_BB67_55
	mov	x9, xzr
	sub	x10, x8, #2
	b	.Lunix_path_BB67_51
.Lunix_path_BB67_50:
	add	x9, x9, #1
	cmp	x1, x9
	b.eq	.Lunix_path_BB67_64
.Lunix_path_BB67_51:
	add	x11, x20, x9
	ldrb	w11, [x11, #1]
	cmp	w11, #47
	b.eq	.Lunix_path_BB67_50
	cmp	w11, #46
	b.ne	.Lunix_path_BB67_65
	cmp	x10, x9
	b.eq	.Lunix_path_BB67_64
	add	x11, x20, x9
	ldrb	w11, [x11, #2]
	cmp	w11, #47
	b.eq	.Lunix_path_BB67_50
	b	.Lunix_path_BB67_65
.Lunix_path_BB67_55:
	cmp	w22, #46
	b.ne	.Lunix_path_BB67_59
	ldrb	w9, [x20, #1]
	cmp	w9, #46
	b.ne	.Lunix_path_BB67_59
	cmp	x8, #2
	b.ne	.Lunix_path_BB67_67
	mov	w9, wzr
	strh	wzr, [sp, #12]
	str	wzr, [sp, #8]
	b	.Lunix_path_BB67_70
.Lunix_path_BB67_59:
	cmp	x8, #16
	b.lo	.Lunix_path_BB67_63
.Lunix_path_BB67_60:
	subs	x9, x8, #16
	b.eq	.Lunix_path_BB67_69
	mov	x10, xzr
.Lunix_path_BB67_62:
	movi	v0.16b, #47
	ldr	q1, [x20, x10]
	adrp	x11, .Lunix_path_CPI67_0
	add	x10, x10, #16
	cmeq	v0.16b, v1.16b, v0.16b
	ldr	q1, [x11, :lo12:.Lunix_path_CPI67_0]
	and	v0.16b, v0.16b, v1.16b
	addp	v0.16b, v0.16b, v0.16b
	addp	v0.16b, v0.16b, v0.16b
	addp	v0.16b, v0.16b, v0.16b
	umov	w11, v0.h[0]
	cmp	w11, #0
	ccmp	x10, x9, #2, eq
	b.lo	.Lunix_path_BB67_62
.Lunix_path_BB67_63:
	mov	w9, wzr
	b	.Lunix_path_BB67_69
.Lunix_path_BB67_64:
	mov	x9, x1
.Lunix_path_BB67_65:
	add	x10, x9, #1
	cmp	w22, #47
	mov	w9, #1
	b.ne	.Lunix_path_BB67_69
.Lunix_path_BB67_66:
	stp	x10, x8, [sp, #32]
	ldr	w8, [sp]
	add	x0, sp, #16
	strh	w9, [sp, #48]
	ldrh	w9, [sp, #4]
	stp	x20, x19, [sp, #16]
	stur	w8, [sp, #50]
	strh	w9, [sp, #54]
	b	.Lunix_path_BB67_107
.Lunix_path_BB67_67:
	ldrb	w9, [x20, #2]
	cmp	w9, #47
	mov	w9, wzr
	b.eq	.Lunix_path_BB67_69
	cmp	x8, #16
	b.hs	.Lunix_path_BB67_60
.Lunix_path_BB67_69:
	ldr	w10, [sp]
	ldrh	w11, [sp, #4]
	str	w10, [sp, #8]
	strh	w11, [sp, #12]
.Lunix_path_BB67_70:
	mov	x10, xzr
	mov	x12, x8
	b	.Lunix_path_BB67_73
.Lunix_path_BB67_71:
	mov	x14, xzr
.Lunix_path_BB67_72:
	add	x10, x10, x14
	mov	w21, wzr
	add	x10, x10, #2
	subs	x12, x8, x10
	b.eq	.Lunix_path_BB67_92
.Lunix_path_BB67_73:
	mov	w13, w21
	tbnz	w21, #0, .Lunix_path_BB67_92
	cmp	x12, #1
	add	x11, x20, x10
	b.eq	.Lunix_path_BB67_86
	ldrb	w14, [x11]
	cmp	w14, #46
	b.ne	.Lunix_path_BB67_86
	ldrb	w14, [x11, #1]
	cmp	w14, #46
	b.ne	.Lunix_path_BB67_86
	subs	x15, x12, #2
	b.eq	.Lunix_path_BB67_71
	ldrb	w14, [x11, #2]
	cmp	w14, #47
	b.ne	.Lunix_path_BB67_86
	mov	x14, xzr
	sub	x12, x12, #3
	b	.Lunix_path_BB67_81
.Lunix_path_BB67_80:
	add	x14, x14, #1
	cmp	x15, x14
	b.eq	.Lunix_path_BB67_85
.Lunix_path_BB67_81:
	add	x16, x11, x14
	ldrb	w16, [x16, #2]
	cmp	w16, #47
	b.eq	.Lunix_path_BB67_80
	cmp	w16, #46
	b.ne	.Lunix_path_BB67_72
	cmp	x12, x14
	b.eq	.Lunix_path_BB67_85
	add	x16, x11, x14
	ldrb	w16, [x16, #3]
	cmp	w16, #47
	b.eq	.Lunix_path_BB67_80
	b	.Lunix_path_BB67_72
.Lunix_path_BB67_85:
	mov	x14, x15
	b	.Lunix_path_BB67_72
.Lunix_path_BB67_86:
	cmp	x12, #15
	b.hi	.Lunix_path_BB67_93
	mov	x13, xzr
	add	x14, x20, x10
.Lunix_path_BB67_88:
	ldrb	w15, [x14, x13]
	cmp	w15, #47
	b.eq	.Lunix_path_BB67_98
	add	x13, x13, #1
	cmp	x12, x13
	b.ne	.Lunix_path_BB67_88
	mov	x13, x12
	subs	x14, x12, x12
	b.ne	.Lunix_path_BB67_99
.Lunix_path_BB67_91:
	mov	x12, xzr
	b	.Lunix_path_BB67_106
.Lunix_path_BB67_92:
	eor	w0, w13, #0x1
	ldp	x20, x19, [sp, #128]
	and	w0, w0, #0x1
	ldp	x22, x21, [sp, #112]
	ldp	x29, x30, [sp, #96]
	add	sp, sp, #144
	ret
.Lunix_path_BB67_93:
	subs	x13, x12, #16
	b.eq	.Lunix_path_BB67_97
	mov	x14, xzr
	add	x15, x20, x10
.Lunix_path_BB67_95:
	movi	v0.16b, #47
	ldr	q1, [x15, x14]
	adrp	x16, .Lunix_path_CPI67_0
	cmeq	v0.16b, v1.16b, v0.16b
	ldr	q1, [x16, :lo12:.Lunix_path_CPI67_0]
	and	v0.16b, v0.16b, v1.16b
	addp	v0.16b, v0.16b, v0.16b
	addp	v0.16b, v0.16b, v0.16b
	addp	v0.16b, v0.16b, v0.16b
	umov	w16, v0.h[0]
	orr	w16, w16, #0x10000
	rbit	w16, w16
	clz	w16, w16
	cmp	w16, #15
	b.ls	.Lunix_path_BB67_108
	add	x14, x14, #16
	cmp	x14, x13
	b.lo	.Lunix_path_BB67_95
.Lunix_path_BB67_97:
	movi	v0.16b, #47
	ldr	q1, [x11, x13]
	adrp	x14, .Lunix_path_CPI67_0
	cmeq	v0.16b, v1.16b, v0.16b
	ldr	q1, [x14, :lo12:.Lunix_path_CPI67_0]
	and	v0.16b, v0.16b, v1.16b
	addp	v0.16b, v0.16b, v0.16b
	addp	v0.16b, v0.16b, v0.16b
	addp	v0.16b, v0.16b, v0.16b
	umov	w14, v0.h[0]
	orr	w14, w14, #0x10000
	rbit	w14, w14
	clz	w14, w14
	add	x13, x13, x14
.Lunix_path_BB67_98:
	subs	x14, x12, x13
	b.eq	.Lunix_path_BB67_91
.Lunix_path_BB67_99:
	mov	x12, xzr
	add	x11, x11, x13
	sub	x15, x14, #1
	b	.Lunix_path_BB67_101
.Lunix_path_BB67_100:
	add	x12, x12, #1
	cmp	x14, x12
	b.eq	.Lunix_path_BB67_105
.Lunix_path_BB67_101:
	ldrb	w16, [x11, x12]
	cmp	w16, #47
	b.eq	.Lunix_path_BB67_100
	cmp	w16, #46
	b.ne	.Lunix_path_BB67_106
	cmp	x15, x12
	b.eq	.Lunix_path_BB67_105
	add	x16, x11, x12
	ldrb	w16, [x16, #1]
	cmp	w16, #47
	b.eq	.Lunix_path_BB67_100
	b	.Lunix_path_BB67_106
.Lunix_path_BB67_105:
	mov	x12, x14
.Lunix_path_BB67_106:
	add	x10, x13, x10
	sturb	w9, [x29, #-8]
	ldrh	w9, [sp, #12]
	add	x10, x10, x12
	sub	x0, x29, #40
	stp	x20, x19, [x29, #-40]
	stp	x10, x8, [x29, #-24]
	ldr	w8, [sp, #8]
	sturb	wzr, [x29, #-7]
	stur	w8, [x29, #-6]
	sturh	w9, [x29, #-2]
.Lunix_path_BB67_107:
	bl	path_within.normal.are_names
	ldp	x20, x19, [sp, #128]
	and	w0, w0, #0x1
	ldp	x22, x21, [sp, #112]
	ldp	x29, x30, [sp, #96]
	add	sp, sp, #144
	ret
.Lunix_path_BB67_108:
	add	x13, x14, w16, uxtw
	subs	x14, x12, x13
	b.ne	.Lunix_path_BB67_99
	b	.Lunix_path_BB67_91
.Lunix_path_func_end67:
	.size	path_within.normal.is_resolved, .Lunix_path_func_end67-path_within.normal.is_resolved
	.section	.rodata.cst16,"aM",@progbits,16
	.p2align	4, 0x0
.Lunix_path_CPI68_0:
	.byte	1
	.byte	2
	.byte	4
	.byte	8
	.byte	16
	.byte	32
	.byte	64
	.byte	128
	.byte	1
	.byte	2
	.byte	4
	.byte	8
	.byte	16
	.byte	32
	.byte	64
	.byte	128
	.section	.rodata.cst8,"aM",@progbits,8
	.p2align	3, 0x0
.Lunix_path_CPI68_1:
	.byte	1
	.byte	2
	.byte	4
	.byte	8
	.byte	16
	.byte	32
	.byte	64
	.byte	128
	.section	.text.path_within.normal.are_names,"ax",@progbits
	.p2align	2
	.type	path_within.normal.are_names,@function
// path_within::normal::are_names
path_within.normal.are_names:
	ldp	x8, x9, [x0, #16]
	subs	x12, x9, x8
	b.eq	.Lunix_path_BB68_79
	ldr	x10, [x0]
	add	x11, x10, x8
	add	x14, x10, x8
	ldrb	w13, [x11], #1
	cmp	w13, #47
	ldrb	w13, [x0, #33]
	cset	w17, eq
	csel	x16, x14, x11, ne
	adrp	x11, .Lunix_path_CPI68_0
	subs	x15, x12, x17
	b.eq	.Lunix_path_BB68_54
	ldrb	w18, [x16]
	cmp	w18, #47
	b.eq	.Lunix_path_BB68_54
	cmp	w18, #46
	b.ne	.Lunix_path_BB68_9
	cmp	x15, #2
	b.lo	.Lunix_path_BB68_54
	ldrb	w18, [x16, #1]
	cmp	w18, #47
	b.eq	.Lunix_path_BB68_54
	cmp	w18, #46
	b.ne	.Lunix_path_BB68_9
	cmp	x15, #2
	b.eq	.Lunix_path_BB68_54
	ldrb	w18, [x16, #2]
	cmp	w18, #47
	b.eq	.Lunix_path_BB68_54
.Lunix_path_BB68_9:
	add	x1, x10, x9
	ldurb	w18, [x1, #-1]
	and	w18, w18, #0xfe
	cmp	w18, #46
	b.eq	.Lunix_path_BB68_54
	subs	x18, x15, #17
	b.hs	.Lunix_path_BB68_13
.Lunix_path_BB68_11:
	cmp	x15, #9
	b.hs	.Lunix_path_BB68_21
	mov	x18, xzr
	b	.Lunix_path_BB68_37
.Lunix_path_BB68_13:
	cmp	x15, #32
	b.hi	.Lunix_path_BB68_23
	movi	v0.16b, #208
	ldur	q1, [x16, #1]
	ldr	q3, [x16]
	and	v2.16b, v1.16b, v0.16b
	movi	v1.16b, #47
	orr	v2.16b, v2.16b, v3.16b
	cmeq	v3.16b, v2.16b, v1.16b
	ldr	q2, [x11, :lo12:.Lunix_path_CPI68_0]
	and	v3.16b, v3.16b, v2.16b
	addp	v3.16b, v3.16b, v3.16b
	addp	v3.16b, v3.16b, v3.16b
	addp	v3.16b, v3.16b, v3.16b
	umov	w0, v3.h[0]
	cbnz	w0, .Lunix_path_BB68_16
	ldur	q3, [x1, #-16]
	and	v0.16b, v3.16b, v0.16b
	ldur	q3, [x1, #-17]
	orr	v0.16b, v0.16b, v3.16b
	cmeq	v0.16b, v0.16b, v1.16b
	and	v0.16b, v0.16b, v2.16b
	addp	v0.16b, v0.16b, v0.16b
	addp	v0.16b, v0.16b, v0.16b
	addp	v0.16b, v0.16b, v0.16b
	umov	w0, v0.h[0]
	cbz	w0, .Lunix_path_BB68_51
.Lunix_path_BB68_16:
	cmp	x15, #18
	b.ls	.Lunix_path_BB68_11
	subs	x0, x15, #19
	b.ne	.Lunix_path_BB68_25
	mov	x1, xzr
.Lunix_path_BB68_19:
	cmp	x18, x1
	movi	v0.16b, #208
	csel	x18, x18, x1, lo
	add	x1, x16, x18
	ldur	q1, [x1, #1]
	ldr	q2, [x1]
	and	v1.16b, v1.16b, v0.16b
	movi	v0.16b, #47
	orr	v1.16b, v1.16b, v2.16b
	cmeq	v2.16b, v1.16b, v0.16b
	ldr	q1, [x11, :lo12:.Lunix_path_CPI68_0]
	and	v2.16b, v2.16b, v1.16b
	addp	v2.16b, v2.16b, v2.16b
	addp	v2.16b, v2.16b, v2.16b
	addp	v2.16b, v2.16b, v2.16b
	umov	w1, v2.h[0]
	cbz	w1, .Lunix_path_BB68_36
	movi	v2.16b, #46
	add	x18, x16, x0
	ldur	q3, [x18, #2]
	ldur	q4, [x18, #3]
	cmeq	v4.16b, v4.16b, v0.16b
	cmeq	v5.16b, v3.16b, v2.16b
	cmeq	v3.16b, v3.16b, v0.16b
	and	v4.16b, v5.16b, v4.16b
	ldur	q5, [x18, #1]
	cmeq	v2.16b, v5.16b, v2.16b
	orr	v3.16b, v3.16b, v4.16b
	ldr	q4, [x18]
	and	v2.16b, v2.16b, v3.16b
	cmeq	v3.16b, v4.16b, v0.16b
	cmeq	v0.16b, v5.16b, v0.16b
	orr	v0.16b, v0.16b, v2.16b
	and	v1.16b, v3.16b, v1.16b
	and	v0.16b, v1.16b, v0.16b
	addp	v0.16b, v0.16b, v0.16b
	addp	v0.16b, v0.16b, v0.16b
	addp	v0.16b, v0.16b, v0.16b
	umov	w18, v0.h[0]
	orr	w18, w18, #0x10000
	rbit	w18, w18
	clz	w18, w18
	add	x18, x0, x18
	b	.Lunix_path_BB68_37
.Lunix_path_BB68_21:
	movi	v0.8b, #254
	movi	v1.8b, #47
	ldr	d3, [x16]
	ldur	d4, [x16, #1]
	movi	v2.8b, #46
	adrp	x18, .Lunix_path_CPI68_1
	and	v4.8b, v4.8b, v0.8b
	cmeq	v5.8b, v3.8b, v1.8b
	ldr	d3, [x18, :lo12:.Lunix_path_CPI68_1]
	cmeq	v4.8b, v4.8b, v2.8b
	and	v5.8b, v5.8b, v3.8b
	and	v4.8b, v5.8b, v4.8b
	addv	b4, v4.8b
	fmov	w18, s4
	orr	w18, w18, #0x100
	rbit	w18, w18
	clz	w18, w18
	cmp	w18, #8
	b.lo	.Lunix_path_BB68_37
	cmp	x15, #17
	mov	w18, #17
	csel	x18, x15, x18, lo
	sub	x18, x18, #9
	add	x0, x16, x18
	ldr	d4, [x0]
	ldur	d5, [x0, #1]
	and	v0.8b, v5.8b, v0.8b
	cmeq	v1.8b, v4.8b, v1.8b
	cmeq	v0.8b, v0.8b, v2.8b
	and	v1.8b, v1.8b, v3.8b
	and	v0.8b, v1.8b, v0.8b
	addv	b0, v0.8b
	fmov	w0, s0
	orr	w0, w0, #0x100
	rbit	w0, w0
	clz	w0, w0
	add	x18, x18, x0
	b	.Lunix_path_BB68_37
.Lunix_path_BB68_23:
	sub	x0, x15, #33
	movi	v0.16b, #208
	ldur	q2, [x1, #-16]
	add	x2, x16, x0
	ldur	q3, [x1, #-17]
	movi	v4.16b, #47
	ldur	q1, [x2, #1]
	and	v1.16b, v1.16b, v0.16b
	and	v0.16b, v2.16b, v0.16b
	ldr	q2, [x2]
	orr	v1.16b, v1.16b, v2.16b
	orr	v0.16b, v0.16b, v3.16b
	cmeq	v1.16b, v1.16b, v4.16b
	cmeq	v2.16b, v0.16b, v4.16b
	ldr	q0, [x11, :lo12:.Lunix_path_CPI68_0]
	and	v1.16b, v1.16b, v0.16b
	and	v2.16b, v2.16b, v0.16b
	addp	v1.16b, v1.16b, v1.16b
	addp	v2.16b, v2.16b, v2.16b
	addp	v1.16b, v1.16b, v1.16b
	addp	v2.16b, v2.16b, v2.16b
	addp	v1.16b, v1.16b, v1.16b
	addp	v2.16b, v2.16b, v2.16b
	orr	v1.16b, v2.16b, v1.16b
	umov	w1, v1.h[0]
	cbz	w1, .Lunix_path_BB68_32
	sub	x0, x15, #19
.Lunix_path_BB68_25:
	mov	x1, xzr
	b	.Lunix_path_BB68_29
.Lunix_path_BB68_26:
	movi	v4.16b, #46
	ldur	q5, [x2, #2]
	ldur	q6, [x2, #3]
	cmeq	v1.16b, v1.16b, v2.16b
	cmeq	v6.16b, v6.16b, v2.16b
	cmeq	v7.16b, v5.16b, v4.16b
	cmeq	v5.16b, v5.16b, v2.16b
	cmeq	v4.16b, v0.16b, v4.16b
	cmeq	v0.16b, v0.16b, v2.16b
	and	v1.16b, v1.16b, v3.16b
	and	v6.16b, v7.16b, v6.16b
	orr	v5.16b, v5.16b, v6.16b
	and	v4.16b, v4.16b, v5.16b
	orr	v0.16b, v0.16b, v4.16b
	and	v0.16b, v1.16b, v0.16b
	addp	v0.16b, v0.16b, v0.16b
	addp	v0.16b, v0.16b, v0.16b
	addp	v0.16b, v0.16b, v0.16b
	umov	w2, v0.h[0]
	orr	w2, w2, #0x10000
	rbit	w2, w2
	clz	w2, w2
	cmp	w2, #15
	b.ls	.Lunix_path_BB68_31
	add	x1, x1, #16
.Lunix_path_BB68_28:
	cmp	x1, x0
	b.hs	.Lunix_path_BB68_19
.Lunix_path_BB68_29:
	movi	v1.16b, #208
	add	x2, x16, x1
	movi	v2.16b, #47
	ldur	q0, [x2, #1]
	and	v3.16b, v0.16b, v1.16b
	ldr	q1, [x2]
	orr	v3.16b, v3.16b, v1.16b
	cmeq	v4.16b, v3.16b, v2.16b
	ldr	q3, [x11, :lo12:.Lunix_path_CPI68_0]
	and	v4.16b, v4.16b, v3.16b
	addp	v4.16b, v4.16b, v4.16b
	addp	v4.16b, v4.16b, v4.16b
	addp	v4.16b, v4.16b, v4.16b
	umov	w3, v4.h[0]
	cbnz	w3, .Lunix_path_BB68_26
	add	x1, x1, #16
	cmp	x1, x0
	b.lo	.Lunix_path_BB68_29
	b	.Lunix_path_BB68_28
.Lunix_path_BB68_31:
	add	x18, x1, w2, uxtw
	b	.Lunix_path_BB68_37
.Lunix_path_BB68_32:
	cbz	x0, .Lunix_path_BB68_51
	add	x2, x8, x17
	mov	x1, xzr
	add	x2, x2, x10
	add	x2, x2, #17
.Lunix_path_BB68_34:
	movi	v1.16b, #208
	add	x3, x2, x1
	movi	v5.16b, #47
	ldp	q2, q3, [x3, #-16]
	ldur	q4, [x3, #-1]
	and	v2.16b, v2.16b, v1.16b
	and	v1.16b, v3.16b, v1.16b
	ldur	q3, [x3, #-17]
	orr	v2.16b, v2.16b, v3.16b
	orr	v1.16b, v1.16b, v4.16b
	cmeq	v2.16b, v2.16b, v5.16b
	cmeq	v1.16b, v1.16b, v5.16b
	and	v2.16b, v2.16b, v0.16b
	and	v1.16b, v1.16b, v0.16b
	addp	v2.16b, v2.16b, v2.16b
	addp	v1.16b, v1.16b, v1.16b
	addp	v2.16b, v2.16b, v2.16b
	addp	v1.16b, v1.16b, v1.16b
	addp	v2.16b, v2.16b, v2.16b
	addp	v1.16b, v1.16b, v1.16b
	orr	v1.16b, v1.16b, v2.16b
	umov	w3, v1.h[0]
	cbnz	w3, .Lunix_path_BB68_16
	add	x1, x1, #32
	cmp	x1, x0
	b.lo	.Lunix_path_BB68_34
	b	.Lunix_path_BB68_51
.Lunix_path_BB68_36:
	add	x18, x18, #16
.Lunix_path_BB68_37:
	cmp	x18, x15
	b.hs	.Lunix_path_BB68_50
	add	x17, x8, x17
	add	x0, x18, #3
	sub	x17, x9, x17
	b	.Lunix_path_BB68_41
.Lunix_path_BB68_39:
	cmp	w2, #47
	b.eq	.Lunix_path_BB68_50
.Lunix_path_BB68_40:
	cmp	x1, x15
	add	x0, x0, #1
	add	x18, x18, #1
	b.hs	.Lunix_path_BB68_49
.Lunix_path_BB68_41:
	add	x1, x16, x0
	ldurb	w1, [x1, #-3]
	cmp	w1, #47
	sub	x1, x0, #2
	b.ne	.Lunix_path_BB68_40
	cmp	x15, x1
	b.ls	.Lunix_path_BB68_50
	add	x2, x16, x0
	ldurb	w2, [x2, #-2]
	cmp	w2, #46
	b.ne	.Lunix_path_BB68_39
	sub	x2, x0, #1
	cmp	x15, x2
	b.ls	.Lunix_path_BB68_50
	add	x2, x16, x0
	ldurb	w2, [x2, #-1]
	cmp	w2, #46
	b.ne	.Lunix_path_BB68_39
	cmp	x15, x0
	b.ls	.Lunix_path_BB68_50
	ldrb	w2, [x16, x0]
	cmp	w2, #47
	b.ne	.Lunix_path_BB68_40
	sub	x18, x0, #3
	b	.Lunix_path_BB68_50
.Lunix_path_BB68_49:
	mov	x18, x17
.Lunix_path_BB68_50:
	cmp	x18, x15
	b.ne	.Lunix_path_BB68_54
.Lunix_path_BB68_51:
	ldrb	w8, [x14]
	cmp	w8, #47
	cset	w0, ne
	ret
.Lunix_path_BB68_52:
	mov	x12, xzr
.Lunix_path_BB68_53:
	add	x8, x14, x8
	mov	w13, wzr
	add	x8, x8, x12
	subs	x12, x9, x8
	b.eq	.Lunix_path_BB68_79
.Lunix_path_BB68_54:
	tbnz	w13, #0, .Lunix_path_BB68_80
	cmp	x12, #1
	add	x13, x10, x8
	b.eq	.Lunix_path_BB68_60
	ldrb	w14, [x13]
	cmp	w14, #46
	b.ne	.Lunix_path_BB68_60
	ldrb	w14, [x13, #1]
	cmp	w14, #46
	b.ne	.Lunix_path_BB68_60
	cmp	x12, #2
	b.eq	.Lunix_path_BB68_80
	ldrb	w14, [x13, #2]
	cmp	w14, #47
	b.eq	.Lunix_path_BB68_80
.Lunix_path_BB68_60:
	cmp	x12, #15
	b.hi	.Lunix_path_BB68_65
	mov	x14, xzr
.Lunix_path_BB68_62:
	ldrb	w15, [x13, x14]
	cmp	w15, #47
	b.eq	.Lunix_path_BB68_70
	add	x14, x14, #1
	cmp	x12, x14
	b.ne	.Lunix_path_BB68_62
	mov	x14, x12
	subs	x15, x12, x12
	b.ne	.Lunix_path_BB68_71
	b	.Lunix_path_BB68_52
.Lunix_path_BB68_65:
	subs	x14, x12, #16
	b.eq	.Lunix_path_BB68_69
	mov	x15, xzr
.Lunix_path_BB68_67:
	movi	v0.16b, #47
	ldr	q1, [x13, x15]
	cmeq	v0.16b, v1.16b, v0.16b
	ldr	q1, [x11, :lo12:.Lunix_path_CPI68_0]
	and	v0.16b, v0.16b, v1.16b
	addp	v0.16b, v0.16b, v0.16b
	addp	v0.16b, v0.16b, v0.16b
	addp	v0.16b, v0.16b, v0.16b
	umov	w16, v0.h[0]
	orr	w16, w16, #0x10000
	rbit	w16, w16
	clz	w16, w16
	cmp	w16, #15
	b.ls	.Lunix_path_BB68_78
	add	x15, x15, #16
	cmp	x15, x14
	b.lo	.Lunix_path_BB68_67
.Lunix_path_BB68_69:
	movi	v0.16b, #47
	ldr	q1, [x13, x14]
	cmeq	v0.16b, v1.16b, v0.16b
	ldr	q1, [x11, :lo12:.Lunix_path_CPI68_0]
	and	v0.16b, v0.16b, v1.16b
	addp	v0.16b, v0.16b, v0.16b
	addp	v0.16b, v0.16b, v0.16b
	addp	v0.16b, v0.16b, v0.16b
	umov	w15, v0.h[0]
	orr	w15, w15, #0x10000
	rbit	w15, w15
	clz	w15, w15
	add	x14, x14, x15
.Lunix_path_BB68_70:
	subs	x15, x12, x14
	b.eq	.Lunix_path_BB68_52
.Lunix_path_BB68_71:
	mov	x12, xzr
	add	x13, x13, x14
	sub	x16, x15, #1
	b	.Lunix_path_BB68_73
.Lunix_path_BB68_72:
	add	x12, x12, #1
	cmp	x15, x12
	b.eq	.Lunix_path_BB68_77
.Lunix_path_BB68_73:
	ldrb	w17, [x13, x12]
	cmp	w17, #47
	b.eq	.Lunix_path_BB68_72
	cmp	w17, #46
	b.ne	.Lunix_path_BB68_53
	cmp	x16, x12
	b.eq	.Lunix_path_BB68_77
	add	x17, x13, x12
	ldrb	w17, [x17, #1]
	cmp	w17, #47
	b.eq	.Lunix_path_BB68_72
	b	.Lunix_path_BB68_53
.Lunix_path_BB68_77:
	mov	x12, x15
	b	.Lunix_path_BB68_53
.Lunix_path_BB68_78:
	add	x14, x15, w16, uxtw
	subs	x15, x12, x14
	b.ne	.Lunix_path_BB68_71
	b	.Lunix_path_BB68_52
.Lunix_path_BB68_79:
	mov	w0, #1
	ret
.Lunix_path_BB68_80:
	mov	w0, wzr
	ret
.Lunix_path_func_end68:
	.size	path_within.normal.are_names, .Lunix_path_func_end68-path_within.normal.are_names
	.section	.rodata.cst16,"aM",@progbits,16
	.p2align	4, 0x0
.Lunix_path_CPI69_0:
	.byte	1
	.byte	2
	.byte	4
	.byte	8
	.byte	16
	.byte	32
	.byte	64
	.byte	128
	.byte	1
	.byte	2
	.byte	4
	.byte	8
	.byte	16
	.byte	32
	.byte	64
	.byte	128
	.section	.rodata.cst8,"aM",@progbits,8
	.p2align	3, 0x0
.Lunix_path_CPI69_1:
	.byte	1
	.byte	2
	.byte	4
	.byte	8
	.byte	16
	.byte	32
	.byte	64
	.byte	128
	.section	.text.path_within.resolved.resolve_to_path_buf,"ax",@progbits
	.p2align	2
	.type	path_within.resolved.resolve_to_path_buf,@function
// path_within::resolved::resolve_to_path_buf
path_within.resolved.resolve_to_path_buf:
	sub	sp, sp, #288
	movi	v0.2d, #0000000000000000
	stp	x29, x30, [sp, #208]
	add	x29, sp, #208
	stp	x24, x23, [sp, #240]
	sub	x23, x29, #72
	stp	x22, x21, [sp, #256]
	mov	x21, x1
	stp	x20, x19, [sp, #272]
	mov	x20, x2
	mov	x19, x0
	str	x28, [sp, #224]
	stur	wzr, [x29, #-72]
	stur	wzr, [x23, #3]
	stp	q0, q0, [x29, #-64]
	stp	q0, q0, [sp]
	stp	q0, q0, [sp, #32]
	stp	q0, q0, [sp, #64]
	stp	q0, q0, [sp, #96]
	stp	xzr, xzr, [x29, #-24]
	stur	xzr, [x29, #-8]
	cbz	x2, .Lunix_path_BB69_9
	add	x8, x21, x20
	ldrb	w9, [x21]
	mov	x22, x20
	ldurb	w8, [x8, #-1]
	cmp	w9, #47
	and	w8, w8, #0xfe
	cset	w24, eq
	cmp	w8, #46
	b.eq	.Lunix_path_BB69_3
	b	.Lunix_path_BB69_10
.Lunix_path_BB69_2:
	mov	x22, x1
	cbz	x1, .Lunix_path_BB69_10
.Lunix_path_BB69_3:
	subs	x1, x22, #1
	b.eq	.Lunix_path_BB69_10
	add	x8, x21, x1
	ldrb	w9, [x8]
	cmp	w9, #47
	b.eq	.Lunix_path_BB69_7
	cmp	w9, #46
	b.ne	.Lunix_path_BB69_10
	ldurb	w8, [x8, #-1]
	cmp	w8, #47
	b.ne	.Lunix_path_BB69_10
.Lunix_path_BB69_7:
	sub	x8, x20, x1
	cmp	x8, #8
	b.ne	.Lunix_path_BB69_2
	mov	x0, x21
	bl	unix_path.filler.trimmed_blocks_len
	mov	x1, x0
	b	.Lunix_path_BB69_2
.Lunix_path_BB69_9:
	mov	w24, wzr
	mov	x22, xzr
.Lunix_path_BB69_10:
	mov	x2, xzr
	b	.Lunix_path_BB69_12
.Lunix_path_BB69_11:
	mov	w8, #1
	add	x2, x8, x2
	cmp	x2, #4
	b.hs	.Lunix_path_BB69_18
.Lunix_path_BB69_12:
	cmp	x2, x22
	b.hs	.Lunix_path_BB69_19
	ldrb	w8, [x21, x2]
	cmp	w8, #47
	b.eq	.Lunix_path_BB69_11
	cmp	w8, #46
	b.ne	.Lunix_path_BB69_19
	add	x8, x2, #1
	cmp	x8, x22
	b.eq	.Lunix_path_BB69_11
	ldrb	w8, [x21, x8]
	cmp	w8, #47
	b.ne	.Lunix_path_BB69_19
	mov	w8, #2
	add	x2, x8, x2
	cmp	x2, #4
	b.lo	.Lunix_path_BB69_12
.Lunix_path_BB69_18:
	mov	x0, x21
	mov	x1, x22
	bl	unix_path.filler.filler_end_from
	mov	x2, x0
.Lunix_path_BB69_19:
	subs	x8, x22, x2
	b.eq	.Lunix_path_BB69_71
	add	x10, x21, x2
	ldrb	w9, [x10], #1
	cmp	w9, #47
	add	x9, x21, x2
	cset	w12, eq
	csel	x11, x9, x10, ne
	subs	x10, x8, x12
	b.eq	.Lunix_path_BB69_71
	ldrb	w13, [x11]
	cmp	w13, #47
	b.eq	.Lunix_path_BB69_71
	cmp	w13, #46
	b.ne	.Lunix_path_BB69_28
	cmp	x10, #2
	b.lo	.Lunix_path_BB69_71
	ldrb	w13, [x11, #1]
	cmp	w13, #47
	b.eq	.Lunix_path_BB69_71
	cmp	w13, #46
	b.ne	.Lunix_path_BB69_28
	cmp	x10, #2
	b.eq	.Lunix_path_BB69_71
	ldrb	w13, [x11, #2]
	cmp	w13, #47
	b.eq	.Lunix_path_BB69_71
.Lunix_path_BB69_28:
	add	x16, x21, x22
	ldurb	w13, [x16, #-1]
	and	w13, w13, #0xfe
	cmp	w13, #46
	b.eq	.Lunix_path_BB69_71
	subs	x14, x10, #17
	b.hs	.Lunix_path_BB69_32
.Lunix_path_BB69_30:
	cmp	x10, #9
	b.hs	.Lunix_path_BB69_40
	mov	x13, xzr
	b	.Lunix_path_BB69_56
.Lunix_path_BB69_32:
	cmp	x10, #32
	adrp	x13, .Lunix_path_CPI69_0
	b.hi	.Lunix_path_BB69_42
	movi	v0.16b, #208
	ldur	q1, [x11, #1]
	ldr	q3, [x11]
	and	v2.16b, v1.16b, v0.16b
	movi	v1.16b, #47
	orr	v2.16b, v2.16b, v3.16b
	cmeq	v3.16b, v2.16b, v1.16b
	ldr	q2, [x13, :lo12:.Lunix_path_CPI69_0]
	and	v3.16b, v3.16b, v2.16b
	addp	v3.16b, v3.16b, v3.16b
	addp	v3.16b, v3.16b, v3.16b
	addp	v3.16b, v3.16b, v3.16b
	umov	w15, v3.h[0]
	cbnz	w15, .Lunix_path_BB69_35
	ldur	q3, [x16, #-16]
	and	v0.16b, v3.16b, v0.16b
	ldur	q3, [x16, #-17]
	orr	v0.16b, v0.16b, v3.16b
	cmeq	v0.16b, v0.16b, v1.16b
	and	v0.16b, v0.16b, v2.16b
	addp	v0.16b, v0.16b, v0.16b
	addp	v0.16b, v0.16b, v0.16b
	addp	v0.16b, v0.16b, v0.16b
	umov	w15, v0.h[0]
	cbz	w15, .Lunix_path_BB69_70
.Lunix_path_BB69_35:
	cmp	x10, #18
	b.ls	.Lunix_path_BB69_30
	subs	x15, x10, #19
	b.ne	.Lunix_path_BB69_44
	mov	x16, xzr
.Lunix_path_BB69_38:
	cmp	x14, x16
	movi	v0.16b, #208
	csel	x14, x14, x16, lo
	add	x16, x11, x14
	ldur	q1, [x16, #1]
	ldr	q2, [x16]
	and	v1.16b, v1.16b, v0.16b
	movi	v0.16b, #47
	orr	v1.16b, v1.16b, v2.16b
	cmeq	v2.16b, v1.16b, v0.16b
	ldr	q1, [x13, :lo12:.Lunix_path_CPI69_0]
	and	v2.16b, v2.16b, v1.16b
	addp	v2.16b, v2.16b, v2.16b
	addp	v2.16b, v2.16b, v2.16b
	addp	v2.16b, v2.16b, v2.16b
	umov	w13, v2.h[0]
	cbz	w13, .Lunix_path_BB69_55
	movi	v2.16b, #46
	add	x13, x11, x15
	ldur	q3, [x13, #2]
	ldur	q4, [x13, #3]
	cmeq	v4.16b, v4.16b, v0.16b
	cmeq	v5.16b, v3.16b, v2.16b
	cmeq	v3.16b, v3.16b, v0.16b
	and	v4.16b, v5.16b, v4.16b
	ldur	q5, [x13, #1]
	cmeq	v2.16b, v5.16b, v2.16b
	orr	v3.16b, v3.16b, v4.16b
	ldr	q4, [x13]
	and	v2.16b, v2.16b, v3.16b
	cmeq	v3.16b, v4.16b, v0.16b
	cmeq	v0.16b, v5.16b, v0.16b
	orr	v0.16b, v0.16b, v2.16b
	and	v1.16b, v3.16b, v1.16b
	and	v0.16b, v1.16b, v0.16b
	addp	v0.16b, v0.16b, v0.16b
	addp	v0.16b, v0.16b, v0.16b
	addp	v0.16b, v0.16b, v0.16b
	umov	w13, v0.h[0]
	orr	w13, w13, #0x10000
	rbit	w13, w13
	clz	w13, w13
	add	x13, x15, x13
	b	.Lunix_path_BB69_56
.Lunix_path_BB69_40:
	movi	v0.8b, #254
	movi	v1.8b, #47
	ldr	d3, [x11]
	ldur	d4, [x11, #1]
	movi	v2.8b, #46
	adrp	x13, .Lunix_path_CPI69_1
	and	v4.8b, v4.8b, v0.8b
	cmeq	v5.8b, v3.8b, v1.8b
	ldr	d3, [x13, :lo12:.Lunix_path_CPI69_1]
	cmeq	v4.8b, v4.8b, v2.8b
	and	v5.8b, v5.8b, v3.8b
	and	v4.8b, v5.8b, v4.8b
	addv	b4, v4.8b
	fmov	w13, s4
	orr	w13, w13, #0x100
	rbit	w13, w13
	clz	w13, w13
	cmp	w13, #8
	b.lo	.Lunix_path_BB69_56
	cmp	x10, #17
	mov	w13, #17
	csel	x13, x10, x13, lo
	sub	x13, x13, #9
	add	x14, x11, x13
	ldr	d4, [x14]
	ldur	d5, [x14, #1]
	and	v0.8b, v5.8b, v0.8b
	cmeq	v1.8b, v4.8b, v1.8b
	cmeq	v0.8b, v0.8b, v2.8b
	and	v1.8b, v1.8b, v3.8b
	and	v0.8b, v1.8b, v0.8b
	addv	b0, v0.8b
	fmov	w14, s0
	orr	w14, w14, #0x100
	rbit	w14, w14
	clz	w14, w14
	add	x13, x13, x14
	b	.Lunix_path_BB69_56
.Lunix_path_BB69_42:
	sub	x15, x10, #33
	movi	v0.16b, #208
	ldur	q2, [x16, #-16]
	add	x17, x11, x15
	ldur	q3, [x16, #-17]
	movi	v4.16b, #47
	ldur	q1, [x17, #1]
	and	v1.16b, v1.16b, v0.16b
	and	v0.16b, v2.16b, v0.16b
	ldr	q2, [x17]
	orr	v1.16b, v1.16b, v2.16b
	orr	v0.16b, v0.16b, v3.16b
	cmeq	v1.16b, v1.16b, v4.16b
	cmeq	v2.16b, v0.16b, v4.16b
	ldr	q0, [x13, :lo12:.Lunix_path_CPI69_0]
	and	v1.16b, v1.16b, v0.16b
	and	v2.16b, v2.16b, v0.16b
	addp	v1.16b, v1.16b, v1.16b
	addp	v2.16b, v2.16b, v2.16b
	addp	v1.16b, v1.16b, v1.16b
	addp	v2.16b, v2.16b, v2.16b
	addp	v1.16b, v1.16b, v1.16b
	addp	v2.16b, v2.16b, v2.16b
	orr	v1.16b, v2.16b, v1.16b
	umov	w16, v1.h[0]
	cbz	w16, .Lunix_path_BB69_51
	sub	x15, x10, #19
.Lunix_path_BB69_44:
	mov	x16, xzr
	b	.Lunix_path_BB69_48
.Lunix_path_BB69_45:
	movi	v4.16b, #46
	ldur	q5, [x17, #2]
	ldur	q6, [x17, #3]
	cmeq	v1.16b, v1.16b, v2.16b
	cmeq	v6.16b, v6.16b, v2.16b
	cmeq	v7.16b, v5.16b, v4.16b
	cmeq	v5.16b, v5.16b, v2.16b
	cmeq	v4.16b, v0.16b, v4.16b
	cmeq	v0.16b, v0.16b, v2.16b
	and	v1.16b, v1.16b, v3.16b
	and	v6.16b, v7.16b, v6.16b
	orr	v5.16b, v5.16b, v6.16b
	and	v4.16b, v4.16b, v5.16b
	orr	v0.16b, v0.16b, v4.16b
	and	v0.16b, v1.16b, v0.16b
	addp	v0.16b, v0.16b, v0.16b
	addp	v0.16b, v0.16b, v0.16b
	addp	v0.16b, v0.16b, v0.16b
	umov	w17, v0.h[0]
	orr	w17, w17, #0x10000
	rbit	w17, w17
	clz	w17, w17
	cmp	w17, #15
	b.ls	.Lunix_path_BB69_50
	add	x16, x16, #16
.Lunix_path_BB69_47:
	cmp	x16, x15
	b.hs	.Lunix_path_BB69_38
.Lunix_path_BB69_48:
	movi	v1.16b, #208
	add	x17, x11, x16
	movi	v2.16b, #47
	ldur	q0, [x17, #1]
	and	v3.16b, v0.16b, v1.16b
	ldr	q1, [x17]
	orr	v3.16b, v3.16b, v1.16b
	cmeq	v4.16b, v3.16b, v2.16b
	ldr	q3, [x13, :lo12:.Lunix_path_CPI69_0]
	and	v4.16b, v4.16b, v3.16b
	addp	v4.16b, v4.16b, v4.16b
	addp	v4.16b, v4.16b, v4.16b
	addp	v4.16b, v4.16b, v4.16b
	umov	w18, v4.h[0]
	cbnz	w18, .Lunix_path_BB69_45
	add	x16, x16, #16
	cmp	x16, x15
	b.lo	.Lunix_path_BB69_48
	b	.Lunix_path_BB69_47
.Lunix_path_BB69_50:
	add	x13, x16, w17, uxtw
	b	.Lunix_path_BB69_56
.Lunix_path_BB69_51:
	cbz	x15, .Lunix_path_BB69_70
	add	x16, x2, x12
	mov	w17, #17
	add	x16, x16, x21
	add	x16, x16, #17
.Lunix_path_BB69_53:
	movi	v1.16b, #208
	ldp	q2, q3, [x16, #-16]
	ldur	q4, [x16, #-1]
	movi	v5.16b, #47
	and	v2.16b, v2.16b, v1.16b
	and	v1.16b, v3.16b, v1.16b
	ldur	q3, [x16, #-17]
	orr	v2.16b, v2.16b, v3.16b
	orr	v1.16b, v1.16b, v4.16b
	cmeq	v2.16b, v2.16b, v5.16b
	cmeq	v1.16b, v1.16b, v5.16b
	and	v2.16b, v2.16b, v0.16b
	and	v1.16b, v1.16b, v0.16b
	addp	v2.16b, v2.16b, v2.16b
	addp	v1.16b, v1.16b, v1.16b
	addp	v2.16b, v2.16b, v2.16b
	addp	v1.16b, v1.16b, v1.16b
	addp	v2.16b, v2.16b, v2.16b
	addp	v1.16b, v1.16b, v1.16b
	orr	v1.16b, v1.16b, v2.16b
	umov	w18, v1.h[0]
	cbnz	w18, .Lunix_path_BB69_35
	add	x18, x17, #15
	add	x17, x17, #32
	add	x16, x16, #32
	cmp	x18, x15
	b.lo	.Lunix_path_BB69_53
	b	.Lunix_path_BB69_70
.Lunix_path_BB69_55:
	add	x13, x14, #16
.Lunix_path_BB69_56:
	cmp	x13, x10
	b.hs	.Lunix_path_BB69_69
	add	x12, x2, x12
	add	x14, x13, #3
	sub	x12, x22, x12
	b	.Lunix_path_BB69_60
.Lunix_path_BB69_58:
	cmp	w16, #47
	b.eq	.Lunix_path_BB69_69
.Lunix_path_BB69_59:
	cmp	x15, x10
	add	x14, x14, #1
	add	x13, x13, #1
	b.hs	.Lunix_path_BB69_68
.Lunix_path_BB69_60:
	add	x15, x11, x14
	ldurb	w15, [x15, #-3]
	cmp	w15, #47
	sub	x15, x14, #2
	b.ne	.Lunix_path_BB69_59
	cmp	x10, x15
	b.ls	.Lunix_path_BB69_69
	add	x16, x11, x14
	ldurb	w16, [x16, #-2]
	cmp	w16, #46
	b.ne	.Lunix_path_BB69_58
	sub	x16, x14, #1
	cmp	x10, x16
	b.ls	.Lunix_path_BB69_69
	add	x16, x11, x14
	ldurb	w16, [x16, #-1]
	cmp	w16, #46
	b.ne	.Lunix_path_BB69_58
	cmp	x10, x14
	b.ls	.Lunix_path_BB69_69
	ldrb	w16, [x11, x14]
	cmp	w16, #47
	b.ne	.Lunix_path_BB69_59
	sub	x13, x14, #3
	b	.Lunix_path_BB69_69
.Lunix_path_BB69_68:
	mov	x13, x12
.Lunix_path_BB69_69:
	cmp	x13, x10
	b.ne	.Lunix_path_BB69_71
.Lunix_path_BB69_70:
	movi	v0.2d, #0000000000000000
	mov	x11, xzr
	stur	wzr, [x23, #3]
	stur	wzr, [x29, #-72]
	add	x12, x8, #1
	mov	x13, #-1
	mov	w10, #1
	mov	x21, x9
	mov	x20, x8
	b	.Lunix_path_BB69_72
.Lunix_path_BB69_71:
	sub	x0, x29, #24
	mov	x1, x21
	mov	x2, x20
	bl	path_within.backward.count_resolved
	movi	v0.2d, #0000000000000000
	ldp	x13, x12, [x29, #-16]
	ldur	x11, [x29, #-24]
	mov	x10, xzr
	stur	wzr, [x29, #-72]
	stur	wzr, [x23, #3]
.Lunix_path_BB69_72:
	stp	q0, q0, [sp, #96]
	ldur	w8, [x29, #-72]
	ldp	q0, q1, [sp, #96]
	ldur	w9, [x23, #3]
	sub	x0, x29, #64
	mov	x1, sp
	stur	w8, [sp, #1]
	adrp	x8, .Lunix_path_static.5
	add	x8, x8, :lo12:.Lunix_path_static.5
	strb	w24, [sp]
	str	w9, [sp, #4]
	stp	x11, x21, [sp, #8]
	stp	x20, x13, [sp, #24]
	stp	x12, x10, [sp, #40]
	str	x8, [sp, #56]
	stp	q0, q1, [sp, #64]
	bl	path_within.write.Layout.to_path_buf
	ldurb	w8, [x29, #-64]
	ldur	q0, [x23, #16]
	ldur	x9, [x29, #-40]
	ldp	x22, x21, [sp, #256]
	ldr	x28, [sp, #224]
	strb	w8, [x19]
	ldp	x24, x23, [sp, #240]
	stur	q0, [x19, #8]
	ldp	x29, x30, [sp, #208]
	str	x9, [x19, #24]
	ldp	x20, x19, [sp, #272]
	add	sp, sp, #288
	ret
.Lunix_path_func_end69:
	.size	path_within.resolved.resolve_to_path_buf, .Lunix_path_func_end69-path_within.resolved.resolve_to_path_buf
	.section	.rodata.cst16,"aM",@progbits,16
	.p2align	4, 0x0
.Lunix_path_CPI70_0:
	.byte	1
	.byte	2
	.byte	4
	.byte	8
	.byte	16
	.byte	32
	.byte	64
	.byte	128
	.byte	1
	.byte	2
	.byte	4
	.byte	8
	.byte	16
	.byte	32
	.byte	64
	.byte	128
	.section	.text.path_within.backward.count_resolved,"ax",@progbits
	.p2align	2
	.type	path_within.backward.count_resolved,@function
// path_within::backward::count_resolved
path_within.backward.count_resolved:
	stp	x29, x30, [sp, #-48]!
	str	x21, [sp, #16]
	mov	x21, x2
	mov	x29, sp
	stp	x20, x19, [sp, #32]
	mov	x20, x1
	mov	x19, x0
	cbz	x2, .Lunix_path_BB70_10
	add	x8, x20, x21
	mov	x12, x21
	ldurb	w8, [x8, #-1]
	and	w8, w8, #0xfe
	cmp	w8, #46
	b.ne	.Lunix_path_BB70_11
	mov	x12, x21
	b	.Lunix_path_BB70_4
.Lunix_path_BB70_3:
	mov	x12, x1
	cbz	x1, .Lunix_path_BB70_11
.Lunix_path_BB70_4:
	subs	x1, x12, #1
	b.eq	.Lunix_path_BB70_11
	add	x8, x20, x1
	ldrb	w9, [x8]
	cmp	w9, #47
	b.eq	.Lunix_path_BB70_8
	cmp	w9, #46
	b.ne	.Lunix_path_BB70_11
	ldurb	w8, [x8, #-1]
	cmp	w8, #47
	b.ne	.Lunix_path_BB70_11
.Lunix_path_BB70_8:
	sub	x8, x21, x1
	cmp	x8, #8
	b.ne	.Lunix_path_BB70_3
	mov	x0, x20
	bl	unix_path.filler.trimmed_blocks_len
	mov	x1, x0
	b	.Lunix_path_BB70_3
.Lunix_path_BB70_10:
	mov	x12, xzr
.Lunix_path_BB70_11:
	mov	x8, xzr
	mov	x9, xzr
	sub	x10, x20, #1
.Lunix_path_BB70_12:
	mov	x11, xzr
	b	.Lunix_path_BB70_15
.Lunix_path_BB70_13:
	add	x11, x11, #1
.Lunix_path_BB70_14:
	cbz	x13, .Lunix_path_BB70_32
.Lunix_path_BB70_15:
	mov	x13, x12
.Lunix_path_BB70_16:
	cmp	x13, #15
	b.ls	.Lunix_path_BB70_19
	movi	v0.16b, #47
	add	x14, x20, x13
	ldur	q1, [x14, #-16]
	adrp	x14, .Lunix_path_CPI70_0
	cmeq	v0.16b, v1.16b, v0.16b
	ldr	q1, [x14, :lo12:.Lunix_path_CPI70_0]
	sub	x14, x13, #16
	mov	x13, x14
	and	v0.16b, v0.16b, v1.16b
	addp	v0.16b, v0.16b, v0.16b
	addp	v0.16b, v0.16b, v0.16b
	addp	v0.16b, v0.16b, v0.16b
	umov	w15, v0.h[0]
	cbz	w15, .Lunix_path_BB70_16
	umov	w13, v0.h[0]
	and	x13, x13, #0xffff
	clz	x13, x13
	sub	x13, x14, x13
	add	x13, x13, #64
	b	.Lunix_path_BB70_22
.Lunix_path_BB70_19:
	cbz	x13, .Lunix_path_BB70_22
	ldrb	w15, [x10, x13]
	sub	x14, x13, #1
	mov	x13, x14
	cmp	w15, #47
	b.ne	.Lunix_path_BB70_19
	add	x13, x14, #1
.Lunix_path_BB70_22:
	cmp	x13, #0
	cset	w15, ne
	subs	x14, x12, x13
	sub	x12, x13, x15
	b.eq	.Lunix_path_BB70_14
	cmp	x14, #1
	add	x15, x20, x13
	b.ne	.Lunix_path_BB70_25
	ldrb	w15, [x15]
	cmp	w15, #46
	b.eq	.Lunix_path_BB70_14
	b	.Lunix_path_BB70_28
.Lunix_path_BB70_25:
	cmp	x14, #2
	b.hi	.Lunix_path_BB70_28
	ldrb	w16, [x15]
	cmp	w16, #46
	b.ne	.Lunix_path_BB70_28
	ldrb	w15, [x15, #1]
	cmp	w15, #46
	b.eq	.Lunix_path_BB70_13
.Lunix_path_BB70_28:
	cbz	x11, .Lunix_path_BB70_30
	sub	x11, x11, #1
	cbnz	x13, .Lunix_path_BB70_15
	b	.Lunix_path_BB70_32
.Lunix_path_BB70_30:
	add	x9, x9, x14
	add	x8, x8, #1
	add	x9, x9, #1
	cbnz	x13, .Lunix_path_BB70_12
	mov	x11, xzr
.Lunix_path_BB70_32:
	cbz	x21, .Lunix_path_BB70_34
	ldrb	w10, [x20]
	cmp	w10, #47
	csel	x11, xzr, x11, eq
.Lunix_path_BB70_34:
	stp	x11, x8, [x19]
	ldr	x21, [sp, #16]
	str	x9, [x19, #16]
	ldp	x20, x19, [sp, #32]
	ldp	x29, x30, [sp], #48
	ret
.Lunix_path_func_end70:
	.size	path_within.backward.count_resolved, .Lunix_path_func_end70-path_within.backward.count_resolved
	.section	.text.path_within.write.Layout.to_path_buf,"ax",@progbits
	.p2align	2
	.type	path_within.write.Layout.to_path_buf,@function
// path_within::write::Layout::to_path_buf
path_within.write.Layout.to_path_buf:
	sub	sp, sp, #96
	ldrb	w10, [x1]
	ldr	x9, [x1, #40]
	ldr	x8, [x1, #80]
	stp	x24, x23, [sp, #48]
	mov	x23, x1
	stp	x20, x19, [sp, #80]
	cmp	w10, #1
	mov	x19, x0
	stp	x29, x30, [sp, #16]
	add	x29, sp, #16
	stp	x26, x25, [sp, #32]
	stp	x22, x21, [sp, #64]
	b.ne	.Lunix_path_BB71_2
	adds	x8, x8, x9
	csinv	x8, x8, xzr, lo
	cmp	x8, #1
	csinc	x20, x8, xzr, hi
	b	.Lunix_path_BB71_4
.Lunix_path_BB71_2:
	ldr	x10, [x23, #8]
	cbz	x10, .Lunix_path_BB71_17
	sub	x10, x10, #1
	mov	x11, #6148914691236517205
	cmp	x10, x11
	csel	x10, x10, x11, lo
	add	x10, x10, x10, lsl #1
	adds	x10, x10, #2
	csinv	x10, x10, xzr, lo
	adds	x9, x9, x10
	csinv	x9, x9, xzr, lo
	adds	x8, x8, x9
	csinv	x20, x8, xzr, lo
.Lunix_path_BB71_4:
	tbnz	x20, #63, .Lunix_path_BB71_15
	mov	x0, x20
	mov	w1, #1
	bl	rattle_alloc
	tbz	w0, #0, .Lunix_path_BB71_15
	mov	x21, x1
	cmp	x20, #2
	b.lo	.Lunix_path_BB71_19
	sub	x2, x20, #1
	mov	x0, x21
	mov	w1, wzr
	sub	x24, x20, #1
	bl	memset
	strb	wzr, [x21, x24]
	add	x22, x24, #1
	ldrb	w9, [x23]
	ldrb	w8, [x23, #88]
	cmp	w9, #1
	b.eq	.Lunix_path_BB71_20
.Lunix_path_BB71_8:
	add	x24, x24, #2
	cbz	w8, .Lunix_path_BB71_27
	ldp	x1, x2, [x23, #56]
	mvn	x8, x2
	add	x24, x24, x8
	add	x25, x21, x24
	sub	x8, x25, x1
	cmp	x8, x2
	b.hs	.Lunix_path_BB71_33
	cmp	x2, #8
	b.lo	.Lunix_path_BB71_12
	add	x8, x21, x22
	add	x9, x2, x1
	sub	x8, x8, x9
	cmp	x8, #32
	b.hs	.Lunix_path_BB71_80
.Lunix_path_BB71_12:
	mov	x8, xzr
.Lunix_path_BB71_13:
	sub	x9, x8, x2
	add	x8, x1, x8
	add	x10, x21, x22
.Lunix_path_BB71_14:
	ldrb	w11, [x8], #1
	strb	w11, [x10, x9]
	adds	x9, x9, #1
	b.lo	.Lunix_path_BB71_14
	b	.Lunix_path_BB71_34
.Lunix_path_BB71_15:
	mov	w8, #1
	str	xzr, [x19, #24]
	strb	w8, [x19]
	str	xzr, [x19, #8]
.Lunix_path_BB71_16:
	str	xzr, [x19, #16]
	b	.Lunix_path_BB71_79
.Lunix_path_BB71_17:
	cbz	x9, .Lunix_path_BB71_31
	sub	x9, x9, #1
	adds	x8, x8, x9
	csinv	x20, x8, xzr, lo
	cbnz	x20, .Lunix_path_BB71_4
	b	.Lunix_path_BB71_32
.Lunix_path_BB71_19:
	mov	x24, xzr
	strb	wzr, [x21, xzr]
	add	x22, x24, #1
	ldrb	w9, [x23]
	ldrb	w8, [x23, #88]
	cmp	w9, #1
	b.ne	.Lunix_path_BB71_8
.Lunix_path_BB71_20:
	add	x25, x21, #1
	cbz	w8, .Lunix_path_BB71_29
	ldp	x1, x2, [x23, #56]
	sub	x24, x24, x2
	add	x26, x25, x24
	sub	x8, x26, x1
	cmp	x8, x2
	b.hs	.Lunix_path_BB71_45
	cmp	x2, #8
	b.lo	.Lunix_path_BB71_24
	add	x8, x21, x22
	add	x9, x2, x1
	sub	x8, x8, x9
	cmp	x8, #32
	b.hs	.Lunix_path_BB71_82
.Lunix_path_BB71_24:
	mov	x8, xzr
.Lunix_path_BB71_25:
	sub	x9, x8, x2
	add	x8, x1, x8
	add	x10, x21, x22
.Lunix_path_BB71_26:
	ldrb	w11, [x8], #1
	strb	w11, [x10, x9]
	adds	x9, x9, #1
	b.lo	.Lunix_path_BB71_26
	b	.Lunix_path_BB71_46
.Lunix_path_BB71_27:
	ldr	x8, [x23, #80]
	cbz	x8, .Lunix_path_BB71_36
	ldp	x2, x3, [x23, #56]
	mov	x0, x21
	ldr	x4, [x23, #72]
	mov	x1, x24
	bl	path_within.backward.put_names_before
	mov	x24, x0
	b	.Lunix_path_BB71_36
.Lunix_path_BB71_29:
	ldr	x8, [x23, #80]
	mov	x24, x22
	cbz	x8, .Lunix_path_BB71_48
	ldp	x2, x3, [x23, #56]
	add	x0, x21, #1
	ldr	x4, [x23, #72]
	mov	x1, x22
	bl	path_within.backward.put_names_before
	mov	x24, x0
	b	.Lunix_path_BB71_48
.Lunix_path_BB71_31:
	cmp	x8, #0
	cset	w9, ne
	sub	x20, x8, x9
	cbnz	x20, .Lunix_path_BB71_4
.Lunix_path_BB71_32:
	sub	x8, x29, #1
	strb	wzr, [x19]
	str	xzr, [x19, #24]
	str	x8, [x19, #8]
	b	.Lunix_path_BB71_16
.Lunix_path_BB71_33:
	add	x0, x21, x24
	bl	memmove
.Lunix_path_BB71_34:
	cbz	x24, .Lunix_path_BB71_36
	mov	w8, #47
	sturb	w8, [x25, #-1]
.Lunix_path_BB71_36:
	ldrb	w8, [x23, #48]
	cmp	w8, #1
	b.ne	.Lunix_path_BB71_43
	ldp	x1, x2, [x23, #16]
	mvn	x8, x2
	add	x23, x24, x8
	add	x25, x21, x23
	sub	x8, x25, x1
	cmp	x8, x2
	b.hs	.Lunix_path_BB71_57
	cmp	x2, #8
	b.lo	.Lunix_path_BB71_40
	add	x8, x24, x21
	sub	x8, x2, x8
	add	x8, x8, x1
	cmn	x8, #33
	b.ls	.Lunix_path_BB71_84
.Lunix_path_BB71_40:
	mov	x8, xzr
.Lunix_path_BB71_41:
	add	x10, x24, x21
	sub	x9, x8, x2
	add	x8, x1, x8
	sub	x10, x10, #1
.Lunix_path_BB71_42:
	ldrb	w11, [x8], #1
	strb	w11, [x10, x9]
	adds	x9, x9, #1
	b.lo	.Lunix_path_BB71_42
	b	.Lunix_path_BB71_58
.Lunix_path_BB71_43:
	ldr	x8, [x23, #40]
	cbz	x8, .Lunix_path_BB71_63
	ldp	x2, x3, [x23, #16]
	mov	x0, x21
	ldr	x4, [x23, #32]
	mov	x1, x24
	bl	path_within.backward.put_names_before
	mov	x23, x0
	subs	x8, x0, #3
	b.lo	.Lunix_path_BB71_78
	b	.Lunix_path_BB71_64
.Lunix_path_BB71_45:
	add	x0, x25, x24
	bl	memmove
.Lunix_path_BB71_46:
	cbz	x24, .Lunix_path_BB71_48
	mov	w8, #47
	sturb	w8, [x26, #-1]
.Lunix_path_BB71_48:
	ldrb	w8, [x23, #48]
	cmp	w8, #1
	b.ne	.Lunix_path_BB71_55
	ldp	x1, x2, [x23, #16]
	mvn	x8, x2
	add	x23, x24, x8
	add	x25, x25, x23
	sub	x8, x25, x1
	cmp	x8, x2
	b.hs	.Lunix_path_BB71_60
	cmp	x2, #8
	b.lo	.Lunix_path_BB71_52
	add	x8, x24, x21
	add	x9, x2, x1
	sub	x8, x8, x9
	cmp	x8, #32
	b.hs	.Lunix_path_BB71_86
.Lunix_path_BB71_52:
	mov	x8, xzr
.Lunix_path_BB71_53:
	sub	x9, x8, x2
	add	x8, x1, x8
	add	x10, x21, x24
.Lunix_path_BB71_54:
	ldrb	w11, [x8], #1
	strb	w11, [x10, x9]
	adds	x9, x9, #1
	b.lo	.Lunix_path_BB71_54
	b	.Lunix_path_BB71_61
.Lunix_path_BB71_55:
	ldr	x8, [x23, #40]
	cbz	x8, .Lunix_path_BB71_70
	ldp	x2, x3, [x23, #16]
	add	x0, x21, #1
	ldr	x4, [x23, #32]
	mov	x1, x24
	bl	path_within.backward.put_names_before
	subs	x8, x0, #3
	b.lo	.Lunix_path_BB71_77
	b	.Lunix_path_BB71_71
.Lunix_path_BB71_57:
	add	x0, x21, x23
	bl	memmove
.Lunix_path_BB71_58:
	cbz	x23, .Lunix_path_BB71_78
	mov	w8, #47
	sturb	w8, [x25, #-1]
	subs	x8, x23, #3
	b.lo	.Lunix_path_BB71_78
	b	.Lunix_path_BB71_64
.Lunix_path_BB71_60:
	mov	x0, x25
	bl	memmove
.Lunix_path_BB71_61:
	cbz	x23, .Lunix_path_BB71_77
	mov	w8, #47
	sturb	w8, [x25, #-1]
	subs	x8, x23, #3
	b.lo	.Lunix_path_BB71_77
	b	.Lunix_path_BB71_71
.Lunix_path_BB71_63:
	mov	x23, x24
	subs	x8, x24, #3
	b.lo	.Lunix_path_BB71_78
.Lunix_path_BB71_64:
	mov	x9, #-6148914691236517206
	movk	x9, #43691
	umulh	x9, x8, x9
	lsr	x10, x9, #1
	add	x9, x23, x21
	sub	x9, x9, #4
	add	x10, x10, #1
	b	.Lunix_path_BB71_68
.Lunix_path_BB71_65:
	mov	w12, #11822
	strh	w12, [x11]
	cbz	x8, .Lunix_path_BB71_67
.Lunix_path_BB71_66:
	mov	w11, #47
	strb	w11, [x9]
.Lunix_path_BB71_67:
	sub	x10, x10, #1
	sub	x9, x9, #3
	sub	x8, x8, #3
	cbz	x10, .Lunix_path_BB71_78
.Lunix_path_BB71_68:
	add	x11, x9, #1
	adrp	x12, .Lunix_path_static.83
	add	x12, x12, :lo12:.Lunix_path_static.83
	sub	x12, x11, x12
	cmp	x12, #1
	b.hi	.Lunix_path_BB71_65
	mov	w11, #11822
	sturh	w11, [x9, #1]
	cbnz	x8, .Lunix_path_BB71_66
	b	.Lunix_path_BB71_67
.Lunix_path_BB71_70:
	subs	x8, x24, #3
	b.lo	.Lunix_path_BB71_77
.Lunix_path_BB71_71:
	mov	x9, #-6148914691236517206
	movk	x9, #43691
	umulh	x9, x8, x9
	lsr	x10, x9, #1
	add	x9, x21, x8
	add	x10, x10, #1
	b	.Lunix_path_BB71_75
.Lunix_path_BB71_72:
	mov	w12, #11822
	strh	w12, [x11]
	cbz	x8, .Lunix_path_BB71_74
.Lunix_path_BB71_73:
	mov	w11, #47
	strb	w11, [x9]
.Lunix_path_BB71_74:
	sub	x10, x10, #1
	sub	x9, x9, #3
	sub	x8, x8, #3
	cbz	x10, .Lunix_path_BB71_77
.Lunix_path_BB71_75:
	add	x11, x9, #1
	adrp	x12, .Lunix_path_static.83
	add	x12, x12, :lo12:.Lunix_path_static.83
	sub	x12, x11, x12
	cmp	x12, #1
	b.hi	.Lunix_path_BB71_72
	mov	w11, #11822
	sturh	w11, [x9, #1]
	cbnz	x8, .Lunix_path_BB71_73
	b	.Lunix_path_BB71_74
.Lunix_path_BB71_77:
	mov	w8, #47
	strb	w8, [x21]
.Lunix_path_BB71_78:
	strb	wzr, [x19]
	stp	x21, x22, [x19, #8]
	str	x20, [x19, #24]
.Lunix_path_BB71_79:
	ldp	x20, x19, [sp, #80]
	ldp	x22, x21, [sp, #64]
	ldp	x24, x23, [sp, #48]
	ldp	x26, x25, [sp, #32]
	ldp	x29, x30, [sp, #16]
	add	sp, sp, #96
	ret
.Lunix_path_BB71_80:
	cmp	x2, #32
	b.hs	.Lunix_path_BB71_88
	mov	x8, xzr
	b	.Lunix_path_BB71_92
.Lunix_path_BB71_82:
	cmp	x2, #32
	b.hs	.Lunix_path_BB71_95
	mov	x8, xzr
	b	.Lunix_path_BB71_99
.Lunix_path_BB71_84:
	cmp	x2, #32
	b.hs	.Lunix_path_BB71_102
	mov	x8, xzr
	b	.Lunix_path_BB71_106
.Lunix_path_BB71_86:
	cmp	x2, #32
	b.hs	.Lunix_path_BB71_109
	mov	x8, xzr
	b	.Lunix_path_BB71_113
.Lunix_path_BB71_88:
	sub	x10, x22, x2
	and	x9, x2, #0x18
	and	x8, x2, #0xffffffffffffffe0
	add	x11, x10, x21
	add	x10, x1, #16
	and	x12, x2, #0xffffffffffffffe0
	add	x11, x11, #16
.Lunix_path_BB71_89:
	ldp	q0, q1, [x10, #-16]
	subs	x12, x12, #32
	add	x10, x10, #32
	stp	q0, q1, [x11, #-16]
	add	x11, x11, #32
	b.ne	.Lunix_path_BB71_89
	cmp	x2, x8
	b.eq	.Lunix_path_BB71_34
	cbz	x9, .Lunix_path_BB71_13
.Lunix_path_BB71_92:
	mov	x10, x8
	and	x8, x2, #0xfffffffffffffff8
	add	x9, x10, x22
	sub	x11, x9, x2
	sub	x9, x10, x8
	add	x10, x1, x10
	add	x11, x21, x11
.Lunix_path_BB71_93:
	ldr	d0, [x10], #8
	adds	x9, x9, #8
	str	d0, [x11], #8
	b.ne	.Lunix_path_BB71_93
	cmp	x2, x8
	b.eq	.Lunix_path_BB71_34
	b	.Lunix_path_BB71_13
.Lunix_path_BB71_95:
	sub	x10, x22, x2
	and	x9, x2, #0x18
	and	x8, x2, #0xffffffffffffffe0
	add	x11, x10, x21
	add	x10, x1, #16
	and	x12, x2, #0xffffffffffffffe0
	add	x11, x11, #16
.Lunix_path_BB71_96:
	ldp	q0, q1, [x10, #-16]
	subs	x12, x12, #32
	add	x10, x10, #32
	stp	q0, q1, [x11, #-16]
	add	x11, x11, #32
	b.ne	.Lunix_path_BB71_96
	cmp	x2, x8
	b.eq	.Lunix_path_BB71_46
	cbz	x9, .Lunix_path_BB71_25
.Lunix_path_BB71_99:
	mov	x10, x8
	and	x8, x2, #0xfffffffffffffff8
	add	x9, x10, x22
	sub	x11, x9, x2
	sub	x9, x10, x8
	add	x10, x1, x10
	add	x11, x21, x11
.Lunix_path_BB71_100:
	ldr	d0, [x10], #8
	adds	x9, x9, #8
	str	d0, [x11], #8
	b.ne	.Lunix_path_BB71_100
	cmp	x2, x8
	b.eq	.Lunix_path_BB71_46
	b	.Lunix_path_BB71_25
.Lunix_path_BB71_102:
	sub	x10, x24, x2
	and	x9, x2, #0x18
	and	x8, x2, #0xffffffffffffffe0
	add	x11, x10, x21
	add	x10, x1, #16
	and	x12, x2, #0xffffffffffffffe0
	add	x11, x11, #15
.Lunix_path_BB71_103:
	ldp	q0, q1, [x10, #-16]
	subs	x12, x12, #32
	add	x10, x10, #32
	stp	q0, q1, [x11, #-16]
	add	x11, x11, #32
	b.ne	.Lunix_path_BB71_103
	cmp	x2, x8
	b.eq	.Lunix_path_BB71_58
	cbz	x9, .Lunix_path_BB71_41
.Lunix_path_BB71_106:
	add	x9, x24, x8
	mvn	x11, x2
	mov	x10, x8
	and	x8, x2, #0xfffffffffffffff8
	add	x11, x11, x9
	sub	x9, x10, x8
	add	x10, x1, x10
	add	x11, x21, x11
.Lunix_path_BB71_107:
	ldr	d0, [x10], #8
	adds	x9, x9, #8
	str	d0, [x11], #8
	b.ne	.Lunix_path_BB71_107
	cmp	x2, x8
	b.eq	.Lunix_path_BB71_58
	b	.Lunix_path_BB71_41
.Lunix_path_BB71_109:
	sub	x10, x24, x2
	and	x9, x2, #0x18
	and	x8, x2, #0xffffffffffffffe0
	add	x11, x10, x21
	add	x10, x1, #16
	and	x12, x2, #0xffffffffffffffe0
	add	x11, x11, #16
.Lunix_path_BB71_110:
	ldp	q0, q1, [x10, #-16]
	subs	x12, x12, #32
	add	x10, x10, #32
	stp	q0, q1, [x11, #-16]
	add	x11, x11, #32
	b.ne	.Lunix_path_BB71_110
	cmp	x2, x8
	b.eq	.Lunix_path_BB71_61
	cbz	x9, .Lunix_path_BB71_53
.Lunix_path_BB71_113:
	mov	x10, x8
	and	x8, x2, #0xfffffffffffffff8
	add	x9, x24, x10
	sub	x11, x9, x2
	sub	x9, x10, x8
	add	x10, x1, x10
	add	x11, x21, x11
.Lunix_path_BB71_114:
	ldr	d0, [x10], #8
	adds	x9, x9, #8
	str	d0, [x11], #8
	b.ne	.Lunix_path_BB71_114
	cmp	x2, x8
	b.eq	.Lunix_path_BB71_61
	b	.Lunix_path_BB71_53
.Lunix_path_func_end71:
	.size	path_within.write.Layout.to_path_buf, .Lunix_path_func_end71-path_within.write.Layout.to_path_buf
	.section	.rodata.cst16,"aM",@progbits,16
	.p2align	4, 0x0
.Lunix_path_CPI72_0:
	.byte	1
	.byte	2
	.byte	4
	.byte	8
	.byte	16
	.byte	32
	.byte	64
	.byte	128
	.byte	1
	.byte	2
	.byte	4
	.byte	8
	.byte	16
	.byte	32
	.byte	64
	.byte	128
	.section	.text.path_within.backward.put_names_before,"ax",@progbits
	.p2align	2
	.type	path_within.backward.put_names_before,@function
// path_within::backward::put_names_before
path_within.backward.put_names_before:
	stp	x29, x30, [sp, #-96]!
	stp	x22, x21, [sp, #64]
	mov	x22, x1
	mov	x21, x0
	stp	x20, x19, [sp, #80]
	mov	x19, x4
	mov	x20, x2
	stp	x28, x27, [sp, #16]
	mov	x29, sp
	stp	x26, x25, [sp, #32]
	stp	x24, x23, [sp, #48]
	cbz	x3, .Lunix_path_BB72_10
	add	x8, x20, x3
	mov	x23, x3
	ldurb	w8, [x8, #-1]
	and	w8, w8, #0xfe
	cmp	w8, #46
	b.ne	.Lunix_path_BB72_12
	mov	x28, x23
	b	.Lunix_path_BB72_4
.Lunix_path_BB72_3:
	mov	x28, x1
	cbz	x1, .Lunix_path_BB72_11
.Lunix_path_BB72_4:
	subs	x1, x28, #1
	b.eq	.Lunix_path_BB72_11
	add	x8, x20, x1
	ldrb	w9, [x8]
	cmp	w9, #47
	b.eq	.Lunix_path_BB72_8
	cmp	w9, #46
	b.ne	.Lunix_path_BB72_11
	ldurb	w8, [x8, #-1]
	cmp	w8, #47
	b.ne	.Lunix_path_BB72_11
.Lunix_path_BB72_8:
	sub	x8, x23, x1
	cmp	x8, #8
	b.ne	.Lunix_path_BB72_3
	mov	x0, x20
	bl	unix_path.filler.trimmed_blocks_len
	mov	x1, x0
	b	.Lunix_path_BB72_3
.Lunix_path_BB72_10:
	mov	x28, xzr
.Lunix_path_BB72_11:
	cbnz	x19, .Lunix_path_BB72_13
	b	.Lunix_path_BB72_52
.Lunix_path_BB72_12:
	mov	x28, x23
	cbz	x19, .Lunix_path_BB72_52
.Lunix_path_BB72_13:
	mov	w26, wzr
	sub	x23, x21, #1
	sub	x24, x20, #16
	sub	x25, x20, #1
	add	x16, x21, #15
	add	x17, x20, #16
.Lunix_path_BB72_14:
	tbnz	w26, #0, .Lunix_path_BB72_52
	mov	x10, xzr
	b	.Lunix_path_BB72_18
.Lunix_path_BB72_16:
	add	x10, x10, #1
.Lunix_path_BB72_17:
	cbz	x9, .Lunix_path_BB72_52
.Lunix_path_BB72_18:
	mov	x8, x28
	mov	x9, x28
.Lunix_path_BB72_19:
	cmp	x9, #15
	b.ls	.Lunix_path_BB72_22
	movi	v0.16b, #47
	ldr	q1, [x24, x9]
	adrp	x11, .Lunix_path_CPI72_0
	cmeq	v0.16b, v1.16b, v0.16b
	ldr	q1, [x11, :lo12:.Lunix_path_CPI72_0]
	sub	x11, x9, #16
	mov	x9, x11
	and	v0.16b, v0.16b, v1.16b
	addp	v0.16b, v0.16b, v0.16b
	addp	v0.16b, v0.16b, v0.16b
	addp	v0.16b, v0.16b, v0.16b
	umov	w12, v0.h[0]
	cbz	w12, .Lunix_path_BB72_19
	umov	w9, v0.h[0]
	and	x9, x9, #0xffff
	clz	x9, x9
	sub	x9, x11, x9
	add	x9, x9, #64
	b	.Lunix_path_BB72_25
.Lunix_path_BB72_22:
	cbz	x9, .Lunix_path_BB72_25
	ldrb	w12, [x25, x9]
	sub	x11, x9, #1
	mov	x9, x11
	cmp	w12, #47
	b.ne	.Lunix_path_BB72_22
	add	x9, x11, #1
.Lunix_path_BB72_25:
	cmp	x9, #0
	cset	w11, ne
	cset	w26, eq
	subs	x2, x8, x9
	sub	x28, x9, x11
	b.eq	.Lunix_path_BB72_17
	cmp	x2, #1
	add	x1, x20, x9
	b.ne	.Lunix_path_BB72_28
	ldrb	w11, [x1]
	cmp	w11, #46
	b.eq	.Lunix_path_BB72_17
	b	.Lunix_path_BB72_31
.Lunix_path_BB72_28:
	cmp	x2, #2
	b.hi	.Lunix_path_BB72_31
	ldrb	w11, [x1]
	cmp	w11, #46
	b.ne	.Lunix_path_BB72_31
	ldrb	w11, [x1, #1]
	cmp	w11, #46
	b.eq	.Lunix_path_BB72_16
.Lunix_path_BB72_31:
	cbz	x10, .Lunix_path_BB72_33
	sub	x10, x10, #1
	b	.Lunix_path_BB72_17
.Lunix_path_BB72_33:
	mvn	x10, x2
	add	x0, x22, x10
	add	x27, x21, x0
	sub	x10, x27, x1
	cmp	x10, x2
	b.hs	.Lunix_path_BB72_39
	cmp	x2, #8
	b.lo	.Lunix_path_BB72_36
	add	x10, x23, x22
	add	x11, x8, x20
	sub	x10, x10, x11
	cmp	x10, #32
	b.hs	.Lunix_path_BB72_43
.Lunix_path_BB72_36:
	mov	x10, xzr
.Lunix_path_BB72_37:
	add	x9, x10, x9
	add	x10, x23, x22
	sub	x8, x9, x8
	add	x9, x9, x20
.Lunix_path_BB72_38:
	ldrb	w11, [x9], #1
	strb	w11, [x10, x8]
	adds	x8, x8, #1
	b.lo	.Lunix_path_BB72_38
	b	.Lunix_path_BB72_40
.Lunix_path_BB72_39:
	mov	x22, x0
	add	x0, x21, x0
	bl	memmove
	add	x17, x20, #16
	add	x16, x21, #15
	mov	x0, x22
.Lunix_path_BB72_40:
	cbz	x0, .Lunix_path_BB72_42
	mov	w8, #47
	sturb	w8, [x27, #-1]
.Lunix_path_BB72_42:
	subs	x19, x19, #1
	mov	x22, x0
	b.ne	.Lunix_path_BB72_14
	b	.Lunix_path_BB72_53
.Lunix_path_BB72_43:
	cmp	x2, #32
	b.hs	.Lunix_path_BB72_45
	mov	x10, xzr
	b	.Lunix_path_BB72_49
.Lunix_path_BB72_45:
	add	x12, x16, x22
	sub	x13, x9, x8
	and	x11, x2, #0x18
	and	x10, x2, #0xffffffffffffffe0
	add	x12, x12, x13
	add	x13, x17, x9
	and	x14, x2, #0xffffffffffffffe0
.Lunix_path_BB72_46:
	ldp	q0, q1, [x13, #-16]
	subs	x14, x14, #32
	add	x13, x13, #32
	stp	q0, q1, [x12, #-16]
	add	x12, x12, #32
	b.ne	.Lunix_path_BB72_46
	cmp	x2, x10
	b.eq	.Lunix_path_BB72_40
	cbz	x11, .Lunix_path_BB72_37
.Lunix_path_BB72_49:
	mov	x11, x10
	and	x10, x2, #0xfffffffffffffff8
	sub	x15, x9, x8
	add	x12, x11, x22
	add	x13, x20, x11
	sub	x11, x11, x10
	add	x14, x23, x12
	add	x12, x13, x9
	add	x13, x14, x15
.Lunix_path_BB72_50:
	ldr	d0, [x12], #8
	adds	x11, x11, #8
	str	d0, [x13], #8
	b.ne	.Lunix_path_BB72_50
	cmp	x2, x10
	b.eq	.Lunix_path_BB72_40
	b	.Lunix_path_BB72_37
.Lunix_path_BB72_52:
	mov	x0, x22
.Lunix_path_BB72_53:
	ldp	x20, x19, [sp, #80]
	ldp	x22, x21, [sp, #64]
	ldp	x24, x23, [sp, #48]
	ldp	x26, x25, [sp, #32]
	ldp	x28, x27, [sp, #16]
	ldp	x29, x30, [sp], #96
	ret
.Lunix_path_func_end72:
	.size	path_within.backward.put_names_before, .Lunix_path_func_end72-path_within.backward.put_names_before
	.section	.rodata.cst16,"aM",@progbits,16
	.p2align	4, 0x0
.Lunix_path_CPI73_0:
	.byte	1
	.byte	2
	.byte	4
	.byte	8
	.byte	16
	.byte	32
	.byte	64
	.byte	128
	.byte	1
	.byte	2
	.byte	4
	.byte	8
	.byte	16
	.byte	32
	.byte	64
	.byte	128
	.section	.text.unix_path.path.Path.file_name,"ax",@progbits
	.p2align	2
	.type	unix_path.path.Path.file_name,@function
// unix_path::path::Path::file_name
unix_path.path.Path.file_name:
	stp	x29, x30, [sp, #-64]!
	stp	x20, x19, [sp, #48]
	mov	x19, x0
	mov	x29, sp
	str	x23, [sp, #16]
	stp	x22, x21, [sp, #32]
	cbz	x2, .Lunix_path_BB73_9
	mov	x21, x2
	mov	x20, x1
	mov	x22, x2
	b	.Lunix_path_BB73_3
.Lunix_path_BB73_2:
	mov	x22, x1
	cbz	x1, .Lunix_path_BB73_9
.Lunix_path_BB73_3:
	subs	x1, x22, #1
	b.eq	.Lunix_path_BB73_10
	add	x8, x20, x1
	ldrb	w9, [x8]
	cmp	w9, #47
	b.eq	.Lunix_path_BB73_7
	cmp	w9, #46
	b.ne	.Lunix_path_BB73_12
	ldurb	w8, [x8, #-1]
	cmp	w8, #47
	b.ne	.Lunix_path_BB73_12
.Lunix_path_BB73_7:
	sub	x8, x21, x1
	cmp	x8, #8
	b.ne	.Lunix_path_BB73_2
	mov	x0, x20
	bl	unix_path.filler.trimmed_blocks_len
	mov	x1, x0
	b	.Lunix_path_BB73_2
.Lunix_path_BB73_9:
	stp	xzr, xzr, [x19]
	str	xzr, [x19, #16]
	ldp	x20, x19, [sp, #48]
	ldr	x23, [sp, #16]
	ldp	x22, x21, [sp, #32]
	ldp	x29, x30, [sp], #64
	ret
.Lunix_path_BB73_10:
	ldrb	w8, [x20]
	cmp	w8, #46
	b.ne	.Lunix_path_BB73_24
.Lunix_path_BB73_11:
	mov	x21, xzr
	mov	x22, xzr
	mov	x8, xzr
	b	.Lunix_path_BB73_44
.Lunix_path_BB73_12:
	add	x8, x20, x22
	ldurb	w9, [x8, #-1]
	cmp	w9, #46
	b.ne	.Lunix_path_BB73_25
	ldurb	w9, [x8, #-2]
	cmp	w9, #46
	b.ne	.Lunix_path_BB73_25
	subs	x23, x22, #2
	b.eq	.Lunix_path_BB73_11
	ldurb	w8, [x8, #-3]
	cmp	w8, #47
	b.ne	.Lunix_path_BB73_25
	mov	x1, x23
	b	.Lunix_path_BB73_18
.Lunix_path_BB73_17:
	mov	x21, xzr
	mov	x22, xzr
	mov	x8, xzr
	cbz	x1, .Lunix_path_BB73_44
.Lunix_path_BB73_18:
	subs	x1, x1, #1
	b.eq	.Lunix_path_BB73_11
	add	x8, x20, x1
	ldrb	w9, [x8]
	cmp	w9, #47
	b.eq	.Lunix_path_BB73_22
	cmp	w9, #46
	b.ne	.Lunix_path_BB73_11
	ldurb	w8, [x8, #-1]
	cmp	w8, #47
	b.ne	.Lunix_path_BB73_11
.Lunix_path_BB73_22:
	sub	x8, x23, x1
	cmp	x8, #8
	b.ne	.Lunix_path_BB73_17
	mov	x0, x20
	bl	unix_path.filler.trimmed_blocks_len
	mov	x1, x0
	b	.Lunix_path_BB73_17
.Lunix_path_BB73_24:
	mov	w22, #1
.Lunix_path_BB73_25:
	mov	x8, x22
.Lunix_path_BB73_26:
	cmp	x8, #15
	b.ls	.Lunix_path_BB73_30
	movi	v0.16b, #47
	add	x9, x20, x8
	ldur	q1, [x9, #-16]
	adrp	x9, .Lunix_path_CPI73_0
	cmeq	v0.16b, v1.16b, v0.16b
	ldr	q1, [x9, :lo12:.Lunix_path_CPI73_0]
	sub	x9, x8, #16
	mov	x8, x9
	and	v0.16b, v0.16b, v1.16b
	addp	v0.16b, v0.16b, v0.16b
	addp	v0.16b, v0.16b, v0.16b
	addp	v0.16b, v0.16b, v0.16b
	umov	w10, v0.h[0]
	cbz	w10, .Lunix_path_BB73_26
	umov	w8, v0.h[0]
	and	x8, x8, #0xffff
	clz	x8, x8
	sub	x8, x9, x8
	add	x23, x8, #64
	subs	x22, x22, x23
	b.ne	.Lunix_path_BB73_34
.Lunix_path_BB73_29:
	mov	x21, xzr
	mov	x8, xzr
	b	.Lunix_path_BB73_44
.Lunix_path_BB73_30:
	sub	x8, x8, #1
.Lunix_path_BB73_31:
	cmn	x8, #1
	b.eq	.Lunix_path_BB73_43
	ldrb	w9, [x20, x8]
	sub	x8, x8, #1
	cmp	w9, #47
	b.ne	.Lunix_path_BB73_31
	add	x23, x8, #2
	subs	x22, x22, x23
	b.eq	.Lunix_path_BB73_29
.Lunix_path_BB73_34:
	add	x21, x20, x23
	mov	x1, x23
	b	.Lunix_path_BB73_36
.Lunix_path_BB73_35:
	cbz	x1, .Lunix_path_BB73_42
.Lunix_path_BB73_36:
	subs	x1, x1, #1
	b.eq	.Lunix_path_BB73_42
	add	x8, x20, x1
	ldrb	w9, [x8]
	cmp	w9, #47
	b.eq	.Lunix_path_BB73_40
	cmp	w9, #46
	b.ne	.Lunix_path_BB73_42
	ldurb	w8, [x8, #-1]
	cmp	w8, #47
	b.ne	.Lunix_path_BB73_42
.Lunix_path_BB73_40:
	sub	x8, x23, x1
	cmp	x8, #8
	b.ne	.Lunix_path_BB73_35
	mov	x0, x20
	bl	unix_path.filler.trimmed_blocks_len
	mov	x1, x0
	b	.Lunix_path_BB73_35
.Lunix_path_BB73_42:
	mov	w8, #1
	b	.Lunix_path_BB73_44
.Lunix_path_BB73_43:
	mov	w8, #1
	mov	x21, x20
.Lunix_path_BB73_44:
	stp	x8, x21, [x19]
	str	x22, [x19, #16]
	ldp	x20, x19, [sp, #48]
	ldr	x23, [sp, #16]
	ldp	x22, x21, [sp, #32]
	ldp	x29, x30, [sp], #64
	ret
.Lunix_path_func_end73:
	.size	unix_path.path.Path.file_name, .Lunix_path_func_end73-unix_path.path.Path.file_name
	.section	.text.unix_path.path.Path.join,"ax",@progbits
	.p2align	2
	.type	unix_path.path.Path.join,@function
// unix_path::path::Path::join
unix_path.path.Path.join:
	sub	sp, sp, #144
	stp	x22, x21, [sp, #112]
	mov	x21, x3
	stp	x20, x19, [sp, #128]
	mov	x20, x4
	mov	x19, x0
	stp	x29, x30, [sp, #64]
	add	x29, sp, #64
	stp	x26, x25, [sp, #80]
	stp	x24, x23, [sp, #96]
	stp	xzr, xzr, [sp]
	stur	xzr, [sp, #23]
	str	xzr, [sp, #16]
	cbz	x4, .Lunix_path_BB74_10
	ldrb	w8, [x21]
	mov	w26, wzr
	mov	x23, xzr
	mov	w25, wzr
	cmp	w8, #47
	b.eq	.Lunix_path_BB74_3
	cbnz	x2, .Lunix_path_BB74_11
.Lunix_path_BB74_3:
	add	x8, x23, x20
	adds	x22, x8, w26, uxtw
	b.eq	.Lunix_path_BB74_12
.Lunix_path_BB74_4:
	tbnz	x22, #63, .Lunix_path_BB74_56
	mov	x0, x22
	mov	x24, x1
	mov	w1, #1
	bl	rattle_alloc
	tbz	w0, #0, .Lunix_path_BB74_56
	mov	x8, x1
	mov	x1, x24
	mov	x9, xzr
	cmp	x23, x22
	stp	x8, xzr, [sp, #32]
	str	x22, [sp, #48]
	b.ls	.Lunix_path_BB74_13
.Lunix_path_BB74_7:
	mov	x24, x1
	add	x0, sp, #32
	mov	x1, x23
	bl	std_alloc.vec.Vec.grow_amortized.a04925db02c9ae72.
	cbz	w0, .Lunix_path_BB74_54
	ldp	x9, x22, [sp, #40]
	mov	x1, x24
	ldr	x8, [sp, #32]
	add	x0, x8, x9
	add	x24, x9, x23
	sub	x10, x0, x1
	cmp	x10, x23
	b.lo	.Lunix_path_BB74_14
.Lunix_path_BB74_9:
	mov	x2, x23
	bl	memmove
	b	.Lunix_path_BB74_19
.Lunix_path_BB74_10:
	cbz	x2, .Lunix_path_BB74_29
.Lunix_path_BB74_11:
	add	x8, x1, x2
	mov	x23, x2
	ldurb	w8, [x8, #-1]
	cmp	w8, #47
	mov	w8, #47
	cset	w26, ne
	csel	w25, w8, wzr, ne
	add	x8, x2, x20
	adds	x22, x8, w26, uxtw
	b.ne	.Lunix_path_BB74_4
.Lunix_path_BB74_12:
	sub	x8, x29, #1
	mov	x9, xzr
	cmp	x23, x22
	stp	x8, xzr, [sp, #32]
	str	x22, [sp, #48]
	b.hi	.Lunix_path_BB74_7
.Lunix_path_BB74_13:
	add	x0, x8, x9
	add	x24, x9, x23
	sub	x10, x0, x1
	cmp	x10, x23
	b.hs	.Lunix_path_BB74_9
.Lunix_path_BB74_14:
	cmp	x23, #8
	b.lo	.Lunix_path_BB74_16
	add	x10, x9, x8
	sub	x10, x10, x1
	cmp	x10, #32
	b.hs	.Lunix_path_BB74_30
.Lunix_path_BB74_16:
	mov	x10, xzr
.Lunix_path_BB74_17:
	add	x11, x10, x9
	sub	x9, x23, x10
	add	x10, x1, x10
	add	x8, x8, x11
.Lunix_path_BB74_18:
	ldrb	w11, [x10], #1
	subs	x9, x9, #1
	strb	w11, [x8], #1
	b.ne	.Lunix_path_BB74_18
.Lunix_path_BB74_19:
	stp	x24, x22, [sp, #40]
	cbz	w26, .Lunix_path_BB74_22
	cmp	x22, x24
	b.eq	.Lunix_path_BB74_52
.Lunix_path_BB74_21:
	ldr	x8, [sp, #32]
	strb	w25, [x8, x24]
	add	x24, x24, #1
	stp	x24, x22, [sp, #40]
.Lunix_path_BB74_22:
	sub	x8, x22, x24
	cmp	x20, x8
	b.hi	.Lunix_path_BB74_48
	ldr	x8, [sp, #32]
	add	x23, x24, x20
	add	x0, x8, x24
	sub	x9, x0, x21
	cmp	x9, x20
	b.hs	.Lunix_path_BB74_50
.Lunix_path_BB74_24:
	cmp	x20, #8
	b.lo	.Lunix_path_BB74_26
	add	x9, x24, x8
	sub	x9, x9, x21
	cmp	x9, #32
	b.hs	.Lunix_path_BB74_32
.Lunix_path_BB74_26:
	mov	x9, xzr
.Lunix_path_BB74_27:
	add	x11, x9, x24
	sub	x10, x20, x9
	add	x9, x21, x9
	add	x8, x8, x11
.Lunix_path_BB74_28:
	ldrb	w11, [x9], #1
	subs	x10, x10, #1
	strb	w11, [x8], #1
	b.ne	.Lunix_path_BB74_28
	b	.Lunix_path_BB74_51
.Lunix_path_BB74_29:
	mov	x23, xzr
	mov	w26, wzr
	mov	w25, wzr
	add	x8, xzr, x20
	adds	x22, x8, wzr, uxtw
	b.ne	.Lunix_path_BB74_4
	b	.Lunix_path_BB74_12
.Lunix_path_BB74_30:
	cmp	x23, #32
	b.hs	.Lunix_path_BB74_34
	mov	x10, xzr
	b	.Lunix_path_BB74_38
.Lunix_path_BB74_32:
	cmp	x20, #32
	b.hs	.Lunix_path_BB74_41
	mov	x9, xzr
	b	.Lunix_path_BB74_45
.Lunix_path_BB74_34:
	add	x13, x9, x8
	and	x11, x23, #0x18
	and	x10, x23, #0xffffffffffffffe0
	add	x12, x1, #16
	add	x13, x13, #16
	and	x14, x23, #0xffffffffffffffe0
.Lunix_path_BB74_35:
	ldp	q0, q1, [x12, #-16]
	subs	x14, x14, #32
	add	x12, x12, #32
	stp	q0, q1, [x13, #-16]
	add	x13, x13, #32
	b.ne	.Lunix_path_BB74_35
	cmp	x23, x10
	b.eq	.Lunix_path_BB74_19
	cbz	x11, .Lunix_path_BB74_17
.Lunix_path_BB74_38:
	mov	x12, x10
	and	x10, x23, #0xfffffffffffffff8
	add	x13, x9, x12
	sub	x11, x12, x10
	add	x12, x1, x12
	add	x13, x8, x13
.Lunix_path_BB74_39:
	ldr	d0, [x12], #8
	adds	x11, x11, #8
	str	d0, [x13], #8
	b.ne	.Lunix_path_BB74_39
	cmp	x23, x10
	b.eq	.Lunix_path_BB74_19
	b	.Lunix_path_BB74_17
.Lunix_path_BB74_41:
	add	x12, x24, x8
	and	x10, x20, #0x18
	and	x9, x20, #0xffffffffffffffe0
	add	x11, x21, #16
	add	x12, x12, #16
	and	x13, x20, #0xffffffffffffffe0
.Lunix_path_BB74_42:
	ldp	q0, q1, [x11, #-16]
	subs	x13, x13, #32
	add	x11, x11, #32
	stp	q0, q1, [x12, #-16]
	add	x12, x12, #32
	b.ne	.Lunix_path_BB74_42
	cmp	x20, x9
	b.eq	.Lunix_path_BB74_51
	cbz	x10, .Lunix_path_BB74_27
.Lunix_path_BB74_45:
	mov	x11, x9
	and	x9, x20, #0xfffffffffffffff8
	add	x12, x24, x11
	sub	x10, x11, x9
	add	x11, x21, x11
	add	x12, x8, x12
.Lunix_path_BB74_46:
	ldr	d0, [x11], #8
	adds	x10, x10, #8
	str	d0, [x12], #8
	b.ne	.Lunix_path_BB74_46
	cmp	x20, x9
	b.eq	.Lunix_path_BB74_51
	b	.Lunix_path_BB74_27
.Lunix_path_BB74_48:
	add	x0, sp, #32
	mov	x1, x20
	bl	std_alloc.vec.Vec.grow_amortized.a04925db02c9ae72.
	cbz	w0, .Lunix_path_BB74_54
	ldp	x24, x22, [sp, #40]
	ldr	x8, [sp, #32]
	add	x23, x24, x20
	add	x0, x8, x24
	sub	x9, x0, x21
	cmp	x9, x20
	b.lo	.Lunix_path_BB74_24
.Lunix_path_BB74_50:
	mov	x1, x21
	mov	x2, x20
	bl	memmove
.Lunix_path_BB74_51:
	stp	x23, x22, [sp, #40]
	mov	w8, wzr
	ldr	q0, [sp, #32]
	stur	x22, [sp, #23]
	stur	q0, [sp, #7]
	b	.Lunix_path_BB74_57
.Lunix_path_BB74_52:
	add	x0, sp, #32
	mov	w1, #1
	bl	std_alloc.vec.Vec.grow_amortized.a04925db02c9ae72.
	cbz	w0, .Lunix_path_BB74_54
	ldp	x24, x22, [sp, #40]
	b	.Lunix_path_BB74_21
.Lunix_path_BB74_54:
	ldr	x8, [sp, #48]
	cbz	x8, .Lunix_path_BB74_56
	ldr	x0, [sp, #32]
	bl	rattle_dealloc
.Lunix_path_BB74_56:
	mov	w8, #1
	stur	xzr, [sp, #15]
	stur	xzr, [sp, #7]
	stur	xzr, [sp, #23]
.Lunix_path_BB74_57:
	ldur	q0, [sp, #7]
	strb	w8, [x19]
	ldur	x8, [sp, #23]
	ldp	x22, x21, [sp, #112]
	stur	q0, [x19, #8]
	ldp	x24, x23, [sp, #96]
	str	x8, [x19, #24]
	ldp	x20, x19, [sp, #128]
	ldp	x26, x25, [sp, #80]
	ldp	x29, x30, [sp, #64]
	add	sp, sp, #144
	ret
.Lunix_path_func_end74:
	.size	unix_path.path.Path.join, .Lunix_path_func_end74-unix_path.path.Path.join
	.section	.rodata.cst16,"aM",@progbits,16
	.p2align	4, 0x0
.Lunix_path_CPI75_0:
	.byte	1
	.byte	2
	.byte	4
	.byte	8
	.byte	16
	.byte	32
	.byte	64
	.byte	128
	.byte	1
	.byte	2
	.byte	4
	.byte	8
	.byte	16
	.byte	32
	.byte	64
	.byte	128
	.section	.rodata.cst8,"aM",@progbits,8
	.p2align	3, 0x0
.Lunix_path_CPI75_1:
	.byte	1
	.byte	2
	.byte	4
	.byte	8
	.byte	16
	.byte	32
	.byte	64
	.byte	128
	.section	.text.path_within.check.check_escape,"ax",@progbits
	.p2align	2
	.type	path_within.check.check_escape,@function
// path_within::check::check_escape
path_within.check.check_escape:
	cbz	x1, .Lunix_path_BB75_4
	stp	x29, x30, [sp, #-48]!
	ldrb	w8, [x0]
	stp	x20, x19, [sp, #32]
	mov	x19, x0
	stp	x22, x21, [sp, #16]
	mov	x29, sp
	cmp	w8, #47
	b.ne	.Lunix_path_BB75_5
	mov	w0, wzr
.Lunix_path_BB75_3:
	ldp	x20, x19, [sp, #32]
	ldp	x22, x21, [sp, #16]
	ldp	x29, x30, [sp], #48
	ret
.Lunix_path_BB75_4:
	mov	w0, #2
	ret
.Lunix_path_BB75_5:
	ldrb	w8, [x19]
	mov	x20, x1
	adrp	x21, .Lunix_path_CPI75_0
	cmp	w8, #47
	b.eq	.Lunix_path_BB75_13
	cmp	w8, #46
	b.ne	.Lunix_path_BB75_12
	cmp	x20, #1
	b.eq	.Lunix_path_BB75_13
	ldrb	w9, [x19, #1]
	cmp	w9, #47
	b.eq	.Lunix_path_BB75_13
	cmp	w9, #46
	b.ne	.Lunix_path_BB75_12
	cmp	x20, #2
	b.eq	.Lunix_path_BB75_13
	ldrb	w9, [x19, #2]
	cmp	w9, #47
	b.eq	.Lunix_path_BB75_13
.Lunix_path_BB75_12:
	add	x11, x19, x20
	ldurb	w9, [x11, #-1]
	and	w9, w9, #0xfe
	cmp	w9, #46
	b.ne	.Lunix_path_BB75_19
.Lunix_path_BB75_13:
	ldrb	w8, [x19]
.Lunix_path_BB75_14:
	and	w8, w8, #0xff
	cmp	w8, #47
	b.eq	.Lunix_path_BB75_17
	cmp	w8, #46
	b.ne	.Lunix_path_BB75_18
	cmp	x20, #1
	b.ne	.Lunix_path_BB75_22
.Lunix_path_BB75_17:
	mov	w22, #1
	b	.Lunix_path_BB75_23
.Lunix_path_BB75_18:
	mov	w22, wzr
	b	.Lunix_path_BB75_23
.Lunix_path_BB75_19:
	subs	x9, x20, #17
	b.hs	.Lunix_path_BB75_82
.Lunix_path_BB75_20:
	cmp	x20, #9
	b.hs	.Lunix_path_BB75_90
	mov	x9, xzr
	b	.Lunix_path_BB75_106
.Lunix_path_BB75_22:
	ldrb	w8, [x19, #1]
	cmp	w8, #47
	cset	w22, eq
.Lunix_path_BB75_23:
	mov	x8, x20
	b	.Lunix_path_BB75_25
.Lunix_path_BB75_24:
	mov	x8, x1
	cbz	x1, .Lunix_path_BB75_80
.Lunix_path_BB75_25:
	subs	x1, x8, #1
	b.eq	.Lunix_path_BB75_31
	add	x9, x19, x1
	ldrb	w10, [x9]
	cmp	w10, #47
	b.eq	.Lunix_path_BB75_29
	cmp	w10, #46
	b.ne	.Lunix_path_BB75_31
	ldurb	w9, [x9, #-1]
	cmp	w9, #47
	b.ne	.Lunix_path_BB75_31
.Lunix_path_BB75_29:
	sub	x8, x20, x1
	cmp	x8, #8
	b.ne	.Lunix_path_BB75_24
	mov	x0, x19
	bl	unix_path.filler.trimmed_blocks_len
	mov	x1, x0
	b	.Lunix_path_BB75_24
.Lunix_path_BB75_31:
	mov	x9, xzr
	mov	x10, xzr
	mov	x12, x8
	mov	x11, x19
	b	.Lunix_path_BB75_35
.Lunix_path_BB75_32:
	mov	x12, xzr
.Lunix_path_BB75_33:
	add	x12, x12, x13
	add	x9, x9, #1
.Lunix_path_BB75_34:
	add	x10, x12, x10
	mov	w22, wzr
	subs	x12, x8, x10
	add	x11, x19, x10
	b.eq	.Lunix_path_BB75_80
.Lunix_path_BB75_35:
	tbz	w22, #0, .Lunix_path_BB75_43
	subs	x14, x12, #1
	b.eq	.Lunix_path_BB75_73
	mov	x13, xzr
	sub	x12, x12, #2
	b	.Lunix_path_BB75_39
.Lunix_path_BB75_38:
	add	x13, x13, #1
	cmp	x14, x13
	b.eq	.Lunix_path_BB75_71
.Lunix_path_BB75_39:
	add	x15, x11, x13
	ldrb	w15, [x15, #1]
	cmp	w15, #47
	b.eq	.Lunix_path_BB75_38
	cmp	w15, #46
	b.ne	.Lunix_path_BB75_72
	cmp	x12, x13
	b.eq	.Lunix_path_BB75_71
	add	x15, x11, x13
	ldrb	w15, [x15, #2]
	cmp	w15, #47
	b.eq	.Lunix_path_BB75_38
	b	.Lunix_path_BB75_72
.Lunix_path_BB75_43:
	cmp	x12, #1
	b.eq	.Lunix_path_BB75_49
	ldrb	w13, [x11]
	cmp	w13, #46
	b.ne	.Lunix_path_BB75_49
	ldrb	w13, [x11, #1]
	cmp	w13, #46
	b.ne	.Lunix_path_BB75_49
	subs	x14, x12, #2
	b.eq	.Lunix_path_BB75_78
	ldrb	w13, [x11, #2]
	cmp	w13, #47
	b.ne	.Lunix_path_BB75_49
	mov	x13, xzr
	sub	x12, x12, #3
	b	.Lunix_path_BB75_55
.Lunix_path_BB75_49:
	cmp	x12, #15
	b.hi	.Lunix_path_BB75_59
	mov	x13, xzr
.Lunix_path_BB75_51:
	ldrb	w14, [x11, x13]
	cmp	w14, #47
	b.eq	.Lunix_path_BB75_64
	add	x13, x13, #1
	cmp	x12, x13
	b.ne	.Lunix_path_BB75_51
	mov	x13, x12
	subs	x14, x12, x12
	b.ne	.Lunix_path_BB75_65
	b	.Lunix_path_BB75_32
.Lunix_path_BB75_54:
	add	x13, x13, #1
	cmp	x14, x13
	b.eq	.Lunix_path_BB75_76
.Lunix_path_BB75_55:
	add	x15, x11, x13
	ldrb	w15, [x15, #2]
	cmp	w15, #47
	b.eq	.Lunix_path_BB75_54
	cmp	w15, #46
	b.ne	.Lunix_path_BB75_77
	cmp	x12, x13
	b.eq	.Lunix_path_BB75_76
	add	x15, x11, x13
	ldrb	w15, [x15, #3]
	cmp	w15, #47
	b.eq	.Lunix_path_BB75_54
	b	.Lunix_path_BB75_77
.Lunix_path_BB75_59:
	subs	x13, x12, #16
	b.eq	.Lunix_path_BB75_63
	mov	x14, xzr
.Lunix_path_BB75_61:
	movi	v0.16b, #47
	ldr	q1, [x11, x14]
	cmeq	v0.16b, v1.16b, v0.16b
	ldr	q1, [x21, :lo12:.Lunix_path_CPI75_0]
	and	v0.16b, v0.16b, v1.16b
	addp	v0.16b, v0.16b, v0.16b
	addp	v0.16b, v0.16b, v0.16b
	addp	v0.16b, v0.16b, v0.16b
	umov	w15, v0.h[0]
	orr	w15, w15, #0x10000
	rbit	w15, w15
	clz	w15, w15
	cmp	w15, #15
	b.ls	.Lunix_path_BB75_75
	add	x14, x14, #16
	cmp	x14, x13
	b.lo	.Lunix_path_BB75_61
.Lunix_path_BB75_63:
	movi	v0.16b, #47
	ldr	q1, [x11, x13]
	cmeq	v0.16b, v1.16b, v0.16b
	ldr	q1, [x21, :lo12:.Lunix_path_CPI75_0]
	and	v0.16b, v0.16b, v1.16b
	addp	v0.16b, v0.16b, v0.16b
	addp	v0.16b, v0.16b, v0.16b
	addp	v0.16b, v0.16b, v0.16b
	umov	w14, v0.h[0]
	orr	w14, w14, #0x10000
	rbit	w14, w14
	clz	w14, w14
	add	x13, x13, x14
.Lunix_path_BB75_64:
	subs	x14, x12, x13
	b.eq	.Lunix_path_BB75_32
.Lunix_path_BB75_65:
	mov	x12, xzr
	add	x11, x11, x13
	sub	x15, x14, #1
	b	.Lunix_path_BB75_67
.Lunix_path_BB75_66:
	add	x12, x12, #1
	cmp	x14, x12
	b.eq	.Lunix_path_BB75_74
.Lunix_path_BB75_67:
	ldrb	w16, [x11, x12]
	cmp	w16, #47
	b.eq	.Lunix_path_BB75_66
	cmp	w16, #46
	b.ne	.Lunix_path_BB75_33
	cmp	x15, x12
	b.eq	.Lunix_path_BB75_74
	add	x16, x11, x12
	ldrb	w16, [x16, #1]
	cmp	w16, #47
	b.eq	.Lunix_path_BB75_66
	b	.Lunix_path_BB75_33
.Lunix_path_BB75_71:
	mov	x13, x14
.Lunix_path_BB75_72:
	add	x12, x13, #1
.Lunix_path_BB75_73:
	ldrb	w11, [x11]
	cmp	w11, #47
	b.ne	.Lunix_path_BB75_34
	b	.Lunix_path_BB75_81
.Lunix_path_BB75_74:
	mov	x12, x14
	b	.Lunix_path_BB75_33
.Lunix_path_BB75_75:
	add	x13, x14, w15, uxtw
	subs	x14, x12, x13
	b.ne	.Lunix_path_BB75_65
	b	.Lunix_path_BB75_32
.Lunix_path_BB75_76:
	mov	x13, x14
.Lunix_path_BB75_77:
	add	x12, x13, #2
.Lunix_path_BB75_78:
	cbz	x9, .Lunix_path_BB75_81
	sub	x9, x9, #1
	b	.Lunix_path_BB75_34
.Lunix_path_BB75_80:
	mov	w0, #2
	ldp	x20, x19, [sp, #32]
	ldp	x22, x21, [sp, #16]
	ldp	x29, x30, [sp], #48
	ret
.Lunix_path_BB75_81:
	mov	w0, wzr
	ldp	x20, x19, [sp, #32]
	ldp	x22, x21, [sp, #16]
	ldp	x29, x30, [sp], #48
	ret
.Lunix_path_BB75_82:
	cmp	x20, #32
	b.hi	.Lunix_path_BB75_92
	movi	v0.16b, #208
	ldur	q1, [x19, #1]
	ldr	q3, [x19]
	umov	w8, v3.b[0]
	and	v2.16b, v1.16b, v0.16b
	movi	v1.16b, #47
	orr	v2.16b, v2.16b, v3.16b
	cmeq	v4.16b, v2.16b, v1.16b
	ldr	q2, [x21, :lo12:.Lunix_path_CPI75_0]
	and	v4.16b, v4.16b, v2.16b
	addp	v4.16b, v4.16b, v4.16b
	addp	v4.16b, v4.16b, v4.16b
	addp	v4.16b, v4.16b, v4.16b
	umov	w10, v4.h[0]
	cbnz	w10, .Lunix_path_BB75_85
	ldur	q3, [x11, #-16]
	and	v0.16b, v3.16b, v0.16b
	ldur	q3, [x11, #-17]
	orr	v0.16b, v0.16b, v3.16b
	cmeq	v0.16b, v0.16b, v1.16b
	and	v0.16b, v0.16b, v2.16b
	addp	v0.16b, v0.16b, v0.16b
	addp	v0.16b, v0.16b, v0.16b
	addp	v0.16b, v0.16b, v0.16b
	umov	w10, v0.h[0]
	cbz	w10, .Lunix_path_BB75_108
.Lunix_path_BB75_85:
	cmp	x20, #18
	b.ls	.Lunix_path_BB75_20
	subs	x10, x20, #19
	b.ne	.Lunix_path_BB75_94
	mov	x11, xzr
.Lunix_path_BB75_88:
	cmp	x9, x11
	movi	v0.16b, #208
	csel	x9, x9, x11, lo
	add	x11, x19, x9
	ldur	q1, [x11, #1]
	ldr	q2, [x11]
	and	v1.16b, v1.16b, v0.16b
	movi	v0.16b, #47
	orr	v1.16b, v1.16b, v2.16b
	cmeq	v2.16b, v1.16b, v0.16b
	ldr	q1, [x21, :lo12:.Lunix_path_CPI75_0]
	and	v2.16b, v2.16b, v1.16b
	addp	v2.16b, v2.16b, v2.16b
	addp	v2.16b, v2.16b, v2.16b
	addp	v2.16b, v2.16b, v2.16b
	umov	w11, v2.h[0]
	cbz	w11, .Lunix_path_BB75_105
	movi	v2.16b, #46
	add	x9, x19, x10
	ldur	q3, [x9, #2]
	ldur	q4, [x9, #3]
	cmeq	v4.16b, v4.16b, v0.16b
	cmeq	v5.16b, v3.16b, v2.16b
	cmeq	v3.16b, v3.16b, v0.16b
	and	v4.16b, v5.16b, v4.16b
	ldur	q5, [x9, #1]
	cmeq	v2.16b, v5.16b, v2.16b
	orr	v3.16b, v3.16b, v4.16b
	ldr	q4, [x9]
	and	v2.16b, v2.16b, v3.16b
	cmeq	v3.16b, v4.16b, v0.16b
	cmeq	v0.16b, v5.16b, v0.16b
	orr	v0.16b, v0.16b, v2.16b
	and	v1.16b, v3.16b, v1.16b
	and	v0.16b, v1.16b, v0.16b
	addp	v0.16b, v0.16b, v0.16b
	addp	v0.16b, v0.16b, v0.16b
	addp	v0.16b, v0.16b, v0.16b
	umov	w9, v0.h[0]
	orr	w9, w9, #0x10000
	rbit	w9, w9
	clz	w9, w9
	add	x9, x10, x9
	b	.Lunix_path_BB75_106
.Lunix_path_BB75_90:
	movi	v0.8b, #254
	movi	v1.8b, #47
	ldr	d4, [x19]
	ldur	d3, [x19, #1]
	movi	v2.8b, #46
	adrp	x8, .Lunix_path_CPI75_1
	and	v5.8b, v3.8b, v0.8b
	cmeq	v6.8b, v4.8b, v1.8b
	ldr	d3, [x8, :lo12:.Lunix_path_CPI75_1]
	cmeq	v5.8b, v5.8b, v2.8b
	and	v6.8b, v6.8b, v3.8b
	and	v5.8b, v6.8b, v5.8b
	addv	b5, v5.8b
	fmov	w8, s5
	orr	w8, w8, #0x100
	rbit	w9, w8
	umov	w8, v4.b[0]
	clz	w9, w9
	cmp	w9, #8
	b.lo	.Lunix_path_BB75_106
	cmp	x20, #17
	mov	w9, #17
	csel	x9, x20, x9, lo
	sub	x9, x9, #9
	add	x10, x19, x9
	ldr	d4, [x10]
	ldur	d5, [x10, #1]
	and	v0.8b, v5.8b, v0.8b
	cmeq	v1.8b, v4.8b, v1.8b
	cmeq	v0.8b, v0.8b, v2.8b
	and	v1.8b, v1.8b, v3.8b
	and	v0.8b, v1.8b, v0.8b
	addv	b0, v0.8b
	fmov	w10, s0
	orr	w10, w10, #0x100
	rbit	w10, w10
	clz	w10, w10
	add	x9, x9, x10
	b	.Lunix_path_BB75_106
.Lunix_path_BB75_92:
	sub	x10, x20, #33
	movi	v0.16b, #208
	ldur	q2, [x11, #-16]
	add	x12, x19, x10
	ldur	q3, [x11, #-17]
	movi	v4.16b, #47
	ldur	q1, [x12, #1]
	and	v1.16b, v1.16b, v0.16b
	and	v0.16b, v2.16b, v0.16b
	ldr	q2, [x12]
	orr	v1.16b, v1.16b, v2.16b
	orr	v0.16b, v0.16b, v3.16b
	cmeq	v1.16b, v1.16b, v4.16b
	cmeq	v2.16b, v0.16b, v4.16b
	ldr	q0, [x21, :lo12:.Lunix_path_CPI75_0]
	and	v1.16b, v1.16b, v0.16b
	and	v2.16b, v2.16b, v0.16b
	addp	v1.16b, v1.16b, v1.16b
	addp	v2.16b, v2.16b, v2.16b
	addp	v1.16b, v1.16b, v1.16b
	addp	v2.16b, v2.16b, v2.16b
	addp	v1.16b, v1.16b, v1.16b
	addp	v2.16b, v2.16b, v2.16b
	orr	v1.16b, v2.16b, v1.16b
	umov	w11, v1.h[0]
	cbz	w11, .Lunix_path_BB75_101
	sub	x10, x20, #19
.Lunix_path_BB75_94:
	mov	x11, xzr
	b	.Lunix_path_BB75_98
.Lunix_path_BB75_95:
	movi	v4.16b, #46
	ldur	q5, [x12, #2]
	ldur	q6, [x12, #3]
	cmeq	v1.16b, v1.16b, v2.16b
	cmeq	v6.16b, v6.16b, v2.16b
	cmeq	v7.16b, v5.16b, v4.16b
	cmeq	v5.16b, v5.16b, v2.16b
	cmeq	v4.16b, v0.16b, v4.16b
	cmeq	v0.16b, v0.16b, v2.16b
	and	v1.16b, v1.16b, v3.16b
	and	v6.16b, v7.16b, v6.16b
	orr	v5.16b, v5.16b, v6.16b
	and	v4.16b, v4.16b, v5.16b
	orr	v0.16b, v0.16b, v4.16b
	and	v0.16b, v1.16b, v0.16b
	addp	v0.16b, v0.16b, v0.16b
	addp	v0.16b, v0.16b, v0.16b
	addp	v0.16b, v0.16b, v0.16b
	umov	w12, v0.h[0]
	orr	w12, w12, #0x10000
	rbit	w12, w12
	clz	w12, w12
	cmp	w12, #15
	b.ls	.Lunix_path_BB75_100
	add	x11, x11, #16
.Lunix_path_BB75_97:
	cmp	x11, x10
	b.hs	.Lunix_path_BB75_88
.Lunix_path_BB75_98:
	movi	v1.16b, #208
	add	x12, x19, x11
	movi	v2.16b, #47
	ldur	q0, [x12, #1]
	and	v3.16b, v0.16b, v1.16b
	ldr	q1, [x12]
	orr	v3.16b, v3.16b, v1.16b
	cmeq	v4.16b, v3.16b, v2.16b
	ldr	q3, [x21, :lo12:.Lunix_path_CPI75_0]
	and	v4.16b, v4.16b, v3.16b
	addp	v4.16b, v4.16b, v4.16b
	addp	v4.16b, v4.16b, v4.16b
	addp	v4.16b, v4.16b, v4.16b
	umov	w13, v4.h[0]
	cbnz	w13, .Lunix_path_BB75_95
	add	x11, x11, #16
	cmp	x11, x10
	b.lo	.Lunix_path_BB75_98
	b	.Lunix_path_BB75_97
.Lunix_path_BB75_100:
	add	x9, x11, w12, uxtw
	b	.Lunix_path_BB75_106
.Lunix_path_BB75_101:
	cbz	x10, .Lunix_path_BB75_108
	mov	x11, xzr
.Lunix_path_BB75_103:
	movi	v1.16b, #208
	add	x12, x19, x11
	movi	v5.16b, #47
	ldur	q2, [x12, #1]
	ldur	q3, [x12, #17]
	and	v2.16b, v2.16b, v1.16b
	and	v1.16b, v3.16b, v1.16b
	ldp	q3, q4, [x12]
	orr	v2.16b, v2.16b, v3.16b
	orr	v1.16b, v1.16b, v4.16b
	cmeq	v2.16b, v2.16b, v5.16b
	cmeq	v1.16b, v1.16b, v5.16b
	and	v2.16b, v2.16b, v0.16b
	and	v1.16b, v1.16b, v0.16b
	addp	v2.16b, v2.16b, v2.16b
	addp	v1.16b, v1.16b, v1.16b
	addp	v2.16b, v2.16b, v2.16b
	addp	v1.16b, v1.16b, v1.16b
	addp	v2.16b, v2.16b, v2.16b
	addp	v1.16b, v1.16b, v1.16b
	orr	v1.16b, v1.16b, v2.16b
	umov	w12, v1.h[0]
	cbnz	w12, .Lunix_path_BB75_85
	add	x11, x11, #32
	mov	w0, #1
	cmp	x11, x10
	b.lo	.Lunix_path_BB75_103
	b	.Lunix_path_BB75_3
.Lunix_path_BB75_105:
	add	x9, x9, #16
.Lunix_path_BB75_106:
	cmp	x9, x20
	b.lo	.Lunix_path_BB75_112
.Lunix_path_BB75_107:
	cmp	x9, x20
	b.ne	.Lunix_path_BB75_14
.Lunix_path_BB75_108:
	mov	w0, #1
	ldp	x20, x19, [sp, #32]
	ldp	x22, x21, [sp, #16]
	ldp	x29, x30, [sp], #48
	ret
.Lunix_path_BB75_109:
	add	x11, x19, x9
	ldrb	w11, [x11, #3]
.Lunix_path_BB75_110:
	cmp	w11, #47
	b.eq	.Lunix_path_BB75_107
.Lunix_path_BB75_111:
	cmp	x10, x20
	mov	w0, #1
	mov	x9, x10
	b.hs	.Lunix_path_BB75_3
.Lunix_path_BB75_112:
	ldrb	w10, [x19, x9]
	cmp	w10, #47
	add	x10, x9, #1
	b.ne	.Lunix_path_BB75_111
	cmp	x20, x10
	b.ls	.Lunix_path_BB75_107
	add	x11, x19, x9
	ldrb	w11, [x11, #1]
	cmp	w11, #46
	b.ne	.Lunix_path_BB75_110
	add	x11, x9, #2
	cmp	x20, x11
	b.ls	.Lunix_path_BB75_107
	add	x11, x19, x9
	ldrb	w11, [x11, #2]
	cmp	w11, #46
	b.ne	.Lunix_path_BB75_110
	add	x11, x9, #3
	cmp	x20, x11
	b.hi	.Lunix_path_BB75_109
	b	.Lunix_path_BB75_107
.Lunix_path_func_end75:
	.size	path_within.check.check_escape, .Lunix_path_func_end75-path_within.check.check_escape
	.section	.text.upath_commands.joins.join_request,"ax",@progbits
	.p2align	2
	.type	upath_commands.joins.join_request,@function
// upath_commands::joins::join_request
upath_commands.joins.join_request:
	sub	sp, sp, #144
	stp	x26, x25, [sp, #80]
	ldr	x26, [x3, #16]
	stp	x24, x23, [sp, #96]
	ldp	x24, x25, [x3]
	stp	x20, x19, [sp, #128]
	mov	x20, x2
	mov	x19, x0
	stp	x29, x30, [sp, #48]
	add	x29, sp, #48
	str	x27, [sp, #64]
	stp	x22, x21, [sp, #112]
	cbz	x2, .Lunix_path_BB76_5
	tbnz	x20, #63, .Lunix_path_BB76_27
	mov	x0, x20
	mov	x22, x1
	mov	w1, #1
	bl	rattle_alloc
	tbz	w0, #0, .Lunix_path_BB76_27
	mov	x21, x1
	mov	x1, x22
	sub	x9, x21, x22
	cmp	x9, x20
	b.lo	.Lunix_path_BB76_6
.Lunix_path_BB76_4:
	mov	x0, x21
	mov	x2, x20
	bl	memmove
	b	.Lunix_path_BB76_19
.Lunix_path_BB76_5:
	add	x21, x29, #31
	sub	x9, x21, x1
	cmp	x9, x20
	b.hs	.Lunix_path_BB76_4
.Lunix_path_BB76_6:
	cmp	x20, #8
	mov	x8, xzr
	b.lo	.Lunix_path_BB76_17
	cmp	x9, #32
	b.lo	.Lunix_path_BB76_17
	cmp	x20, #32
	b.hs	.Lunix_path_BB76_10
	mov	x8, xzr
	b	.Lunix_path_BB76_14
.Lunix_path_BB76_10:
	and	x9, x20, #0x18
	and	x8, x20, #0xffffffffffffffe0
	add	x10, x1, #16
	add	x11, x21, #16
	and	x12, x20, #0xffffffffffffffe0
.Lunix_path_BB76_11:
	ldp	q0, q1, [x10, #-16]
	subs	x12, x12, #32
	add	x10, x10, #32
	stp	q0, q1, [x11, #-16]
	add	x11, x11, #32
	b.ne	.Lunix_path_BB76_11
	cmp	x20, x8
	b.eq	.Lunix_path_BB76_19
	cbz	x9, .Lunix_path_BB76_17
.Lunix_path_BB76_14:
	mov	x11, x8
	and	x8, x20, #0xfffffffffffffff8
	sub	x9, x11, x8
	add	x10, x1, x11
	add	x11, x21, x11
.Lunix_path_BB76_15:
	ldr	d0, [x10], #8
	adds	x9, x9, #8
	str	d0, [x11], #8
	b.ne	.Lunix_path_BB76_15
	cmp	x20, x8
	b.eq	.Lunix_path_BB76_19
.Lunix_path_BB76_17:
	sub	x9, x20, x8
	add	x10, x1, x8
	add	x8, x21, x8
.Lunix_path_BB76_18:
	ldrb	w11, [x10], #1
	subs	x9, x9, #1
	strb	w11, [x8], #1
	b.ne	.Lunix_path_BB76_18
.Lunix_path_BB76_19:
	add	x8, x20, x25
	adds	x22, x8, #1
	b.eq	.Lunix_path_BB76_28
	tbnz	x22, #63, .Lunix_path_BB76_25
	mov	x0, x22
	mov	w1, #1
	bl	rattle_alloc
	tbz	w0, #0, .Lunix_path_BB76_25
	mov	x23, x1
	cmp	x22, x20
	tbnz	w26, #0, .Lunix_path_BB76_29
.Lunix_path_BB76_23:
	b.hs	.Lunix_path_BB76_31
	mov	x8, xzr
	b	.Lunix_path_BB76_52
.Lunix_path_BB76_25:
	cbz	x20, .Lunix_path_BB76_27
	mov	x0, x21
	bl	rattle_dealloc
.Lunix_path_BB76_27:
	movi	v0.2d, #0000000000000000
	mov	w8, #1
	str	xzr, [x19, #40]
	strb	w8, [x19]
	stur	q0, [x19, #8]
	stur	q0, [x19, #24]
	b	.Lunix_path_BB76_126
.Lunix_path_BB76_28:
	add	x23, x29, #31
	cmp	x22, x20
	tbz	w26, #0, .Lunix_path_BB76_23
.Lunix_path_BB76_29:
	b.hs	.Lunix_path_BB76_36
	mov	x8, xzr
	b	.Lunix_path_BB76_99
.Lunix_path_BB76_31:
	sub	x8, x23, x21
	cmp	x8, x20
	b.hs	.Lunix_path_BB76_41
	cmp	x20, #8
	mov	x9, xzr
	b.lo	.Lunix_path_BB76_50
	cmp	x8, #32
	b.lo	.Lunix_path_BB76_50
	cmp	x20, #32
	b.hs	.Lunix_path_BB76_43
	mov	x9, xzr
	b	.Lunix_path_BB76_47
.Lunix_path_BB76_36:
	sub	x8, x23, x21
	cmp	x8, x20
	b.hs	.Lunix_path_BB76_42
	cmp	x20, #8
	mov	x9, xzr
	b.lo	.Lunix_path_BB76_97
	cmp	x8, #32
	b.lo	.Lunix_path_BB76_97
	cmp	x20, #32
	b.hs	.Lunix_path_BB76_90
	mov	x9, xzr
	b	.Lunix_path_BB76_94
.Lunix_path_BB76_41:
	mov	x0, x23
	mov	x1, x21
	mov	x2, x20
	bl	memmove
	mov	x8, x20
	cbnz	x20, .Lunix_path_BB76_52
	b	.Lunix_path_BB76_55
.Lunix_path_BB76_42:
	mov	x0, x23
	mov	x1, x21
	mov	x2, x20
	bl	memmove
	mov	x8, x20
	cbnz	x20, .Lunix_path_BB76_99
	b	.Lunix_path_BB76_102
.Lunix_path_BB76_43:
	and	x10, x20, #0x18
	and	x9, x20, #0xffffffffffffffe0
	add	x8, x21, #16
	add	x11, x23, #16
	and	x12, x20, #0xffffffffffffffe0
.Lunix_path_BB76_44:
	ldp	q0, q1, [x8, #-16]
	subs	x12, x12, #32
	add	x8, x8, #32
	stp	q0, q1, [x11, #-16]
	add	x11, x11, #32
	b.ne	.Lunix_path_BB76_44
	cmp	x20, x9
	mov	x8, x20
	b.eq	.Lunix_path_BB76_52
	cbz	x10, .Lunix_path_BB76_50
.Lunix_path_BB76_47:
	mov	x11, x9
	and	x9, x20, #0xfffffffffffffff8
	sub	x8, x11, x9
	add	x10, x21, x11
	add	x11, x23, x11
.Lunix_path_BB76_48:
	ldr	d0, [x10], #8
	adds	x8, x8, #8
	str	d0, [x11], #8
	b.ne	.Lunix_path_BB76_48
	cmp	x20, x9
	mov	x8, x20
	b.eq	.Lunix_path_BB76_52
.Lunix_path_BB76_50:
	ldrb	w8, [x21, x9]
	strb	w8, [x23, x9]
	add	x9, x9, #1
	cmp	x20, x9
	b.ne	.Lunix_path_BB76_50
	mov	x8, x20
.Lunix_path_BB76_52:
	cmp	x22, x8
	b.eq	.Lunix_path_BB76_55
	add	x9, x21, x20
	ldurb	w9, [x9, #-1]
	cmp	w9, #47
	b.eq	.Lunix_path_BB76_55
	add	x9, x8, #1
	mov	w10, #47
	strb	w10, [x23, x8]
	mov	x8, x9
.Lunix_path_BB76_55:
	sub	x9, x22, x8
	cmp	x9, x25
	b.hs	.Lunix_path_BB76_57
	mov	x26, x8
	b	.Lunix_path_BB76_64
.Lunix_path_BB76_57:
	add	x0, x23, x8
	add	x26, x8, x25
	sub	x9, x0, x24
	cmp	x9, x25
	b.hs	.Lunix_path_BB76_63
	cmp	x25, #8
	b.lo	.Lunix_path_BB76_60
	add	x9, x8, x23
	sub	x9, x9, x24
	cmp	x9, #32
	b.hs	.Lunix_path_BB76_88
.Lunix_path_BB76_60:
	mov	x9, xzr
.Lunix_path_BB76_61:
	add	x10, x9, x8
	sub	x8, x25, x9
	add	x9, x24, x9
	add	x10, x23, x10
.Lunix_path_BB76_62:
	ldrb	w11, [x9], #1
	subs	x8, x8, #1
	strb	w11, [x10], #1
	b.ne	.Lunix_path_BB76_62
	b	.Lunix_path_BB76_64
.Lunix_path_BB76_63:
	mov	x1, x24
	mov	x2, x25
	bl	memmove
.Lunix_path_BB76_64:
	movi	v0.2d, #0000000000000000
	mov	x0, sp
	mov	x1, x24
	mov	x2, x25
	str	xzr, [sp, #32]
	stp	q0, q0, [sp]
	bl	path_within.write.Layout.resolve_names
	ldr	x8, [sp, #24]
	mov	x27, x20
	cbz	x8, .Lunix_path_BB76_69
	add	x9, x8, x20
	cbz	x20, .Lunix_path_BB76_67
	add	x10, x21, x20
	ldurb	w10, [x10, #-1]
	cmp	w10, #47
	csetm	x10, eq
	b	.Lunix_path_BB76_68
.Lunix_path_BB76_67:
	mov	x10, #-1
.Lunix_path_BB76_68:
	add	x27, x9, x10
.Lunix_path_BB76_69:
	cmp	x27, x26
	b.hi	.Lunix_path_BB76_122
	ldp	x2, x24, [sp]
	ldrb	w9, [sp, #32]
	tbz	w9, #0, .Lunix_path_BB76_77
	sub	x10, x27, x24
	add	x25, x23, x10
	sub	x8, x25, x2
	cmp	x8, x24
	b.hs	.Lunix_path_BB76_79
	cmp	x24, #8
	b.lo	.Lunix_path_BB76_74
	add	x8, x27, x23
	add	x9, x24, x2
	sub	x8, x8, x9
	cmp	x8, #32
	b.hs	.Lunix_path_BB76_127
.Lunix_path_BB76_74:
	mov	x8, xzr
.Lunix_path_BB76_75:
	sub	x9, x8, x24
	add	x8, x2, x8
	add	x10, x23, x27
.Lunix_path_BB76_76:
	ldrb	w11, [x8], #1
	strb	w11, [x10, x9]
	adds	x9, x9, #1
	b.lo	.Lunix_path_BB76_76
	b	.Lunix_path_BB76_80
.Lunix_path_BB76_77:
	cbz	x8, .Lunix_path_BB76_82
	ldr	x4, [sp, #16]
	add	x1, x27, #1
	mov	x0, x23
	mov	x3, x24
	bl	path_within.backward.put_names_before
	b	.Lunix_path_BB76_82
.Lunix_path_BB76_79:
	mov	x0, x25
	mov	x1, x2
	mov	x2, x24
	bl	memmove
.Lunix_path_BB76_80:
	cmp	x27, x24
	b.eq	.Lunix_path_BB76_82
	mov	w8, #47
	sturb	w8, [x25, #-1]
.Lunix_path_BB76_82:
	sub	x9, x23, x21
	cmp	x9, x20
	b.hs	.Lunix_path_BB76_87
	cmp	x20, #8
	mov	x8, xzr
	b.lo	.Lunix_path_BB76_120
	cmp	x9, #32
	b.lo	.Lunix_path_BB76_120
	cmp	x20, #32
	b.hs	.Lunix_path_BB76_113
	mov	x8, xzr
	b	.Lunix_path_BB76_117
.Lunix_path_BB76_87:
	mov	x0, x23
	mov	x1, x21
	mov	x2, x20
	bl	memmove
	b	.Lunix_path_BB76_122
.Lunix_path_BB76_88:
	cmp	x25, #32
	b.hs	.Lunix_path_BB76_129
	mov	x9, xzr
	b	.Lunix_path_BB76_133
.Lunix_path_BB76_90:
	and	x10, x20, #0x18
	and	x9, x20, #0xffffffffffffffe0
	add	x8, x21, #16
	add	x11, x23, #16
	and	x12, x20, #0xffffffffffffffe0
.Lunix_path_BB76_91:
	ldp	q0, q1, [x8, #-16]
	subs	x12, x12, #32
	add	x8, x8, #32
	stp	q0, q1, [x11, #-16]
	add	x11, x11, #32
	b.ne	.Lunix_path_BB76_91
	cmp	x20, x9
	mov	x8, x20
	b.eq	.Lunix_path_BB76_99
	cbz	x10, .Lunix_path_BB76_97
.Lunix_path_BB76_94:
	mov	x11, x9
	and	x9, x20, #0xfffffffffffffff8
	sub	x8, x11, x9
	add	x10, x21, x11
	add	x11, x23, x11
.Lunix_path_BB76_95:
	ldr	d0, [x10], #8
	adds	x8, x8, #8
	str	d0, [x11], #8
	b.ne	.Lunix_path_BB76_95
	cmp	x20, x9
	mov	x8, x20
	b.eq	.Lunix_path_BB76_99
.Lunix_path_BB76_97:
	ldrb	w8, [x21, x9]
	strb	w8, [x23, x9]
	add	x9, x9, #1
	cmp	x20, x9
	b.ne	.Lunix_path_BB76_97
	mov	x8, x20
.Lunix_path_BB76_99:
	cmp	x22, x8
	b.eq	.Lunix_path_BB76_102
	add	x9, x21, x20
	ldurb	w9, [x9, #-1]
	cmp	w9, #47
	b.eq	.Lunix_path_BB76_102
	add	x9, x8, #1
	mov	w10, #47
	strb	w10, [x23, x8]
	mov	x8, x9
.Lunix_path_BB76_102:
	sub	x9, x22, x8
	cmp	x9, x25
	b.hs	.Lunix_path_BB76_104
	mov	x26, x8
	b	.Lunix_path_BB76_123
.Lunix_path_BB76_104:
	add	x0, x23, x8
	add	x26, x8, x25
	sub	x9, x0, x24
	cmp	x9, x25
	b.hs	.Lunix_path_BB76_110
	cmp	x25, #8
	b.lo	.Lunix_path_BB76_107
	add	x9, x8, x23
	sub	x9, x9, x24
	cmp	x9, #32
	b.hs	.Lunix_path_BB76_111
.Lunix_path_BB76_107:
	mov	x9, xzr
.Lunix_path_BB76_108:
	add	x10, x9, x8
	sub	x8, x25, x9
	add	x9, x24, x9
	add	x10, x23, x10
.Lunix_path_BB76_109:
	ldrb	w11, [x9], #1
	subs	x8, x8, #1
	strb	w11, [x10], #1
	b.ne	.Lunix_path_BB76_109
	b	.Lunix_path_BB76_123
.Lunix_path_BB76_110:
	mov	x1, x24
	mov	x2, x25
	bl	memmove
	b	.Lunix_path_BB76_123
.Lunix_path_BB76_111:
	cmp	x25, #32
	b.hs	.Lunix_path_BB76_136
	mov	x9, xzr
	b	.Lunix_path_BB76_140
.Lunix_path_BB76_113:
	and	x9, x20, #0x18
	and	x8, x20, #0xffffffffffffffe0
	add	x10, x21, #16
	add	x11, x23, #16
	and	x12, x20, #0xffffffffffffffe0
.Lunix_path_BB76_114:
	ldp	q0, q1, [x10, #-16]
	subs	x12, x12, #32
	add	x10, x10, #32
	stp	q0, q1, [x11, #-16]
	add	x11, x11, #32
	b.ne	.Lunix_path_BB76_114
	cmp	x20, x8
	b.eq	.Lunix_path_BB76_122
	cbz	x9, .Lunix_path_BB76_120
.Lunix_path_BB76_117:
	mov	x11, x8
	and	x8, x20, #0xfffffffffffffff8
	sub	x9, x11, x8
	add	x10, x21, x11
	add	x11, x23, x11
.Lunix_path_BB76_118:
	ldr	d0, [x10], #8
	adds	x9, x9, #8
	str	d0, [x11], #8
	b.ne	.Lunix_path_BB76_118
	cmp	x20, x8
	b.eq	.Lunix_path_BB76_122
.Lunix_path_BB76_120:
	sub	x9, x20, x8
	add	x10, x21, x8
	add	x8, x23, x8
.Lunix_path_BB76_121:
	ldrb	w11, [x10], #1
	subs	x9, x9, #1
	strb	w11, [x8], #1
	b.ne	.Lunix_path_BB76_121
.Lunix_path_BB76_122:
	cmp	x26, x27
	csel	x26, x26, x27, lo
.Lunix_path_BB76_123:
	cbz	x20, .Lunix_path_BB76_125
	mov	x0, x21
	bl	rattle_dealloc
.Lunix_path_BB76_125:
	mov	w8, #1
	strb	wzr, [x19]
	dup	v0.2d, x8
	stp	x23, x26, [x19, #24]
	str	x22, [x19, #40]
	stur	q0, [x19, #8]
.Lunix_path_BB76_126:
	ldp	x20, x19, [sp, #128]
	ldr	x27, [sp, #64]
	ldp	x22, x21, [sp, #112]
	ldp	x24, x23, [sp, #96]
	ldp	x26, x25, [sp, #80]
	ldp	x29, x30, [sp, #48]
	add	sp, sp, #144
	ret
.Lunix_path_BB76_127:
	cmp	x24, #32
	b.hs	.Lunix_path_BB76_143
	mov	x8, xzr
	b	.Lunix_path_BB76_147
.Lunix_path_BB76_129:
	add	x12, x8, x23
	and	x10, x25, #0x18
	and	x9, x25, #0xffffffffffffffe0
	add	x11, x24, #16
	add	x12, x12, #16
	and	x13, x25, #0xffffffffffffffe0
.Lunix_path_BB76_130:
	ldp	q0, q1, [x11, #-16]
	subs	x13, x13, #32
	add	x11, x11, #32
	stp	q0, q1, [x12, #-16]
	add	x12, x12, #32
	b.ne	.Lunix_path_BB76_130
	cmp	x25, x9
	b.eq	.Lunix_path_BB76_64
	cbz	x10, .Lunix_path_BB76_61
.Lunix_path_BB76_133:
	mov	x11, x9
	and	x9, x25, #0xfffffffffffffff8
	add	x12, x8, x11
	sub	x10, x11, x9
	add	x11, x24, x11
	add	x12, x23, x12
.Lunix_path_BB76_134:
	ldr	d0, [x11], #8
	adds	x10, x10, #8
	str	d0, [x12], #8
	b.ne	.Lunix_path_BB76_134
	cmp	x25, x9
	b.eq	.Lunix_path_BB76_64
	b	.Lunix_path_BB76_61
.Lunix_path_BB76_136:
	add	x12, x8, x23
	and	x10, x25, #0x18
	and	x9, x25, #0xffffffffffffffe0
	add	x11, x24, #16
	add	x12, x12, #16
	and	x13, x25, #0xffffffffffffffe0
.Lunix_path_BB76_137:
	ldp	q0, q1, [x11, #-16]
	subs	x13, x13, #32
	add	x11, x11, #32
	stp	q0, q1, [x12, #-16]
	add	x12, x12, #32
	b.ne	.Lunix_path_BB76_137
	cmp	x25, x9
	b.eq	.Lunix_path_BB76_123
	cbz	x10, .Lunix_path_BB76_108
.Lunix_path_BB76_140:
	mov	x11, x9
	and	x9, x25, #0xfffffffffffffff8
	add	x12, x8, x11
	sub	x10, x11, x9
	add	x11, x24, x11
	add	x12, x23, x12
.Lunix_path_BB76_141:
	ldr	d0, [x11], #8
	adds	x10, x10, #8
	str	d0, [x12], #8
	b.ne	.Lunix_path_BB76_141
	cmp	x25, x9
	b.eq	.Lunix_path_BB76_123
	b	.Lunix_path_BB76_108
.Lunix_path_BB76_143:
	add	x11, x10, x23
	and	x9, x24, #0x18
	and	x8, x24, #0xffffffffffffffe0
	add	x10, x2, #16
	add	x11, x11, #16
	and	x12, x24, #0xffffffffffffffe0
.Lunix_path_BB76_144:
	ldp	q0, q1, [x10, #-16]
	subs	x12, x12, #32
	add	x10, x10, #32
	stp	q0, q1, [x11, #-16]
	add	x11, x11, #32
	b.ne	.Lunix_path_BB76_144
	cmp	x24, x8
	b.eq	.Lunix_path_BB76_80
	cbz	x9, .Lunix_path_BB76_75
.Lunix_path_BB76_147:
	mov	x10, x8
	and	x8, x24, #0xfffffffffffffff8
	add	x9, x10, x27
	sub	x11, x9, x24
	sub	x9, x10, x8
	add	x10, x2, x10
	add	x11, x23, x11
.Lunix_path_BB76_148:
	ldr	d0, [x10], #8
	adds	x9, x9, #8
	str	d0, [x11], #8
	b.ne	.Lunix_path_BB76_148
	cmp	x24, x8
	b.eq	.Lunix_path_BB76_80
	b	.Lunix_path_BB76_75
.Lunix_path_func_end76:
	.size	upath_commands.joins.join_request, .Lunix_path_func_end76-upath_commands.joins.join_request
	.section	.rodata.cst16,"aM",@progbits,16
	.p2align	4, 0x0
.Lunix_path_CPI77_0:
	.byte	1
	.byte	2
	.byte	4
	.byte	8
	.byte	16
	.byte	32
	.byte	64
	.byte	128
	.byte	1
	.byte	2
	.byte	4
	.byte	8
	.byte	16
	.byte	32
	.byte	64
	.byte	128
	.section	.rodata.cst8,"aM",@progbits,8
	.p2align	3, 0x0
.Lunix_path_CPI77_1:
	.byte	1
	.byte	2
	.byte	4
	.byte	8
	.byte	16
	.byte	32
	.byte	64
	.byte	128
	.section	.text.path_within.write.Layout.resolve_names,"ax",@progbits
	.p2align	2
	.type	path_within.write.Layout.resolve_names,@function
// path_within::write::Layout::resolve_names
path_within.write.Layout.resolve_names:
	sub	sp, sp, #80
	stp	x22, x21, [sp, #48]
	mov	x21, x1
	stp	x20, x19, [sp, #64]
	mov	x20, x2
	mov	x19, x0
	stp	x29, x30, [sp, #32]
	add	x29, sp, #32
	stp	xzr, xzr, [sp, #8]
	str	xzr, [sp, #24]
	cbz	x2, .Lunix_path_BB77_10
	add	x8, x21, x20
	mov	x22, x20
	ldurb	w8, [x8, #-1]
	and	w8, w8, #0xfe
	cmp	w8, #46
	b.ne	.Lunix_path_BB77_11
	mov	x22, x20
	b	.Lunix_path_BB77_4
.Lunix_path_BB77_3:
	mov	x22, x1
	cbz	x1, .Lunix_path_BB77_11
.Lunix_path_BB77_4:
	subs	x1, x22, #1
	b.eq	.Lunix_path_BB77_11
	add	x8, x21, x1
	ldrb	w9, [x8]
	cmp	w9, #47
	b.eq	.Lunix_path_BB77_8
	cmp	w9, #46
	b.ne	.Lunix_path_BB77_11
	ldurb	w8, [x8, #-1]
	cmp	w8, #47
	b.ne	.Lunix_path_BB77_11
.Lunix_path_BB77_8:
	sub	x8, x20, x1
	cmp	x8, #8
	b.ne	.Lunix_path_BB77_3
	mov	x0, x21
	bl	unix_path.filler.trimmed_blocks_len
	mov	x1, x0
	b	.Lunix_path_BB77_3
.Lunix_path_BB77_10:
	mov	x22, xzr
.Lunix_path_BB77_11:
	mov	x2, xzr
	b	.Lunix_path_BB77_13
.Lunix_path_BB77_12:
	mov	w8, #1
	add	x2, x8, x2
	cmp	x2, #4
	b.hs	.Lunix_path_BB77_19
.Lunix_path_BB77_13:
	cmp	x2, x22
	b.hs	.Lunix_path_BB77_20
	ldrb	w8, [x21, x2]
	cmp	w8, #47
	b.eq	.Lunix_path_BB77_12
	cmp	w8, #46
	b.ne	.Lunix_path_BB77_20
	add	x8, x2, #1
	cmp	x8, x22
	b.eq	.Lunix_path_BB77_12
	ldrb	w8, [x21, x8]
	cmp	w8, #47
	b.ne	.Lunix_path_BB77_20
	mov	w8, #2
	add	x2, x8, x2
	cmp	x2, #4
	b.lo	.Lunix_path_BB77_13
.Lunix_path_BB77_19:
	mov	x0, x21
	mov	x1, x22
	bl	unix_path.filler.filler_end_from
	mov	x2, x0
.Lunix_path_BB77_20:
	subs	x8, x22, x2
	b.eq	.Lunix_path_BB77_72
	add	x10, x21, x2
	ldrb	w9, [x10], #1
	cmp	w9, #47
	add	x9, x21, x2
	cset	w12, eq
	csel	x11, x9, x10, ne
	subs	x10, x8, x12
	b.eq	.Lunix_path_BB77_72
	ldrb	w13, [x11]
	cmp	w13, #47
	b.eq	.Lunix_path_BB77_72
	cmp	w13, #46
	b.ne	.Lunix_path_BB77_29
	cmp	x10, #2
	b.lo	.Lunix_path_BB77_72
	ldrb	w13, [x11, #1]
	cmp	w13, #47
	b.eq	.Lunix_path_BB77_72
	cmp	w13, #46
	b.ne	.Lunix_path_BB77_29
	cmp	x10, #2
	b.eq	.Lunix_path_BB77_72
	ldrb	w13, [x11, #2]
	cmp	w13, #47
	b.eq	.Lunix_path_BB77_72
.Lunix_path_BB77_29:
	add	x16, x21, x22
	ldurb	w13, [x16, #-1]
	and	w13, w13, #0xfe
	cmp	w13, #46
	b.eq	.Lunix_path_BB77_72
	subs	x14, x10, #17
	b.hs	.Lunix_path_BB77_33
.Lunix_path_BB77_31:
	cmp	x10, #9
	b.hs	.Lunix_path_BB77_41
	mov	x13, xzr
	b	.Lunix_path_BB77_57
.Lunix_path_BB77_33:
	cmp	x10, #32
	adrp	x13, .Lunix_path_CPI77_0
	b.hi	.Lunix_path_BB77_43
	movi	v0.16b, #208
	ldur	q1, [x11, #1]
	ldr	q3, [x11]
	and	v2.16b, v1.16b, v0.16b
	movi	v1.16b, #47
	orr	v2.16b, v2.16b, v3.16b
	cmeq	v3.16b, v2.16b, v1.16b
	ldr	q2, [x13, :lo12:.Lunix_path_CPI77_0]
	and	v3.16b, v3.16b, v2.16b
	addp	v3.16b, v3.16b, v3.16b
	addp	v3.16b, v3.16b, v3.16b
	addp	v3.16b, v3.16b, v3.16b
	umov	w15, v3.h[0]
	cbnz	w15, .Lunix_path_BB77_36
	ldur	q3, [x16, #-16]
	and	v0.16b, v3.16b, v0.16b
	ldur	q3, [x16, #-17]
	orr	v0.16b, v0.16b, v3.16b
	cmeq	v0.16b, v0.16b, v1.16b
	and	v0.16b, v0.16b, v2.16b
	addp	v0.16b, v0.16b, v0.16b
	addp	v0.16b, v0.16b, v0.16b
	addp	v0.16b, v0.16b, v0.16b
	umov	w15, v0.h[0]
	cbz	w15, .Lunix_path_BB77_71
.Lunix_path_BB77_36:
	cmp	x10, #18
	b.ls	.Lunix_path_BB77_31
	subs	x15, x10, #19
	b.ne	.Lunix_path_BB77_45
	mov	x16, xzr
.Lunix_path_BB77_39:
	cmp	x14, x16
	movi	v0.16b, #208
	csel	x14, x14, x16, lo
	add	x16, x11, x14
	ldur	q1, [x16, #1]
	ldr	q2, [x16]
	and	v1.16b, v1.16b, v0.16b
	movi	v0.16b, #47
	orr	v1.16b, v1.16b, v2.16b
	cmeq	v2.16b, v1.16b, v0.16b
	ldr	q1, [x13, :lo12:.Lunix_path_CPI77_0]
	and	v2.16b, v2.16b, v1.16b
	addp	v2.16b, v2.16b, v2.16b
	addp	v2.16b, v2.16b, v2.16b
	addp	v2.16b, v2.16b, v2.16b
	umov	w13, v2.h[0]
	cbz	w13, .Lunix_path_BB77_56
	movi	v2.16b, #46
	add	x13, x11, x15
	ldur	q3, [x13, #2]
	ldur	q4, [x13, #3]
	cmeq	v4.16b, v4.16b, v0.16b
	cmeq	v5.16b, v3.16b, v2.16b
	cmeq	v3.16b, v3.16b, v0.16b
	and	v4.16b, v5.16b, v4.16b
	ldur	q5, [x13, #1]
	cmeq	v2.16b, v5.16b, v2.16b
	orr	v3.16b, v3.16b, v4.16b
	ldr	q4, [x13]
	and	v2.16b, v2.16b, v3.16b
	cmeq	v3.16b, v4.16b, v0.16b
	cmeq	v0.16b, v5.16b, v0.16b
	orr	v0.16b, v0.16b, v2.16b
	and	v1.16b, v3.16b, v1.16b
	and	v0.16b, v1.16b, v0.16b
	addp	v0.16b, v0.16b, v0.16b
	addp	v0.16b, v0.16b, v0.16b
	addp	v0.16b, v0.16b, v0.16b
	umov	w13, v0.h[0]
	orr	w13, w13, #0x10000
	rbit	w13, w13
	clz	w13, w13
	add	x13, x15, x13
	b	.Lunix_path_BB77_57
.Lunix_path_BB77_41:
	movi	v0.8b, #254
	movi	v1.8b, #47
	ldr	d3, [x11]
	ldur	d4, [x11, #1]
	movi	v2.8b, #46
	adrp	x13, .Lunix_path_CPI77_1
	and	v4.8b, v4.8b, v0.8b
	cmeq	v5.8b, v3.8b, v1.8b
	ldr	d3, [x13, :lo12:.Lunix_path_CPI77_1]
	cmeq	v4.8b, v4.8b, v2.8b
	and	v5.8b, v5.8b, v3.8b
	and	v4.8b, v5.8b, v4.8b
	addv	b4, v4.8b
	fmov	w13, s4
	orr	w13, w13, #0x100
	rbit	w13, w13
	clz	w13, w13
	cmp	w13, #8
	b.lo	.Lunix_path_BB77_57
	cmp	x10, #17
	mov	w13, #17
	csel	x13, x10, x13, lo
	sub	x13, x13, #9
	add	x14, x11, x13
	ldr	d4, [x14]
	ldur	d5, [x14, #1]
	and	v0.8b, v5.8b, v0.8b
	cmeq	v1.8b, v4.8b, v1.8b
	cmeq	v0.8b, v0.8b, v2.8b
	and	v1.8b, v1.8b, v3.8b
	and	v0.8b, v1.8b, v0.8b
	addv	b0, v0.8b
	fmov	w14, s0
	orr	w14, w14, #0x100
	rbit	w14, w14
	clz	w14, w14
	add	x13, x13, x14
	b	.Lunix_path_BB77_57
.Lunix_path_BB77_43:
	sub	x15, x10, #33
	movi	v0.16b, #208
	ldur	q2, [x16, #-16]
	add	x17, x11, x15
	ldur	q3, [x16, #-17]
	movi	v4.16b, #47
	ldur	q1, [x17, #1]
	and	v1.16b, v1.16b, v0.16b
	and	v0.16b, v2.16b, v0.16b
	ldr	q2, [x17]
	orr	v1.16b, v1.16b, v2.16b
	orr	v0.16b, v0.16b, v3.16b
	cmeq	v1.16b, v1.16b, v4.16b
	cmeq	v2.16b, v0.16b, v4.16b
	ldr	q0, [x13, :lo12:.Lunix_path_CPI77_0]
	and	v1.16b, v1.16b, v0.16b
	and	v2.16b, v2.16b, v0.16b
	addp	v1.16b, v1.16b, v1.16b
	addp	v2.16b, v2.16b, v2.16b
	addp	v1.16b, v1.16b, v1.16b
	addp	v2.16b, v2.16b, v2.16b
	addp	v1.16b, v1.16b, v1.16b
	addp	v2.16b, v2.16b, v2.16b
	orr	v1.16b, v2.16b, v1.16b
	umov	w16, v1.h[0]
	cbz	w16, .Lunix_path_BB77_52
	sub	x15, x10, #19
.Lunix_path_BB77_45:
	mov	x16, xzr
	b	.Lunix_path_BB77_49
.Lunix_path_BB77_46:
	movi	v4.16b, #46
	ldur	q5, [x17, #2]
	ldur	q6, [x17, #3]
	cmeq	v1.16b, v1.16b, v2.16b
	cmeq	v6.16b, v6.16b, v2.16b
	cmeq	v7.16b, v5.16b, v4.16b
	cmeq	v5.16b, v5.16b, v2.16b
	cmeq	v4.16b, v0.16b, v4.16b
	cmeq	v0.16b, v0.16b, v2.16b
	and	v1.16b, v1.16b, v3.16b
	and	v6.16b, v7.16b, v6.16b
	orr	v5.16b, v5.16b, v6.16b
	and	v4.16b, v4.16b, v5.16b
	orr	v0.16b, v0.16b, v4.16b
	and	v0.16b, v1.16b, v0.16b
	addp	v0.16b, v0.16b, v0.16b
	addp	v0.16b, v0.16b, v0.16b
	addp	v0.16b, v0.16b, v0.16b
	umov	w17, v0.h[0]
	orr	w17, w17, #0x10000
	rbit	w17, w17
	clz	w17, w17
	cmp	w17, #15
	b.ls	.Lunix_path_BB77_51
	add	x16, x16, #16
.Lunix_path_BB77_48:
	cmp	x16, x15
	b.hs	.Lunix_path_BB77_39
.Lunix_path_BB77_49:
	movi	v1.16b, #208
	add	x17, x11, x16
	movi	v2.16b, #47
	ldur	q0, [x17, #1]
	and	v3.16b, v0.16b, v1.16b
	ldr	q1, [x17]
	orr	v3.16b, v3.16b, v1.16b
	cmeq	v4.16b, v3.16b, v2.16b
	ldr	q3, [x13, :lo12:.Lunix_path_CPI77_0]
	and	v4.16b, v4.16b, v3.16b
	addp	v4.16b, v4.16b, v4.16b
	addp	v4.16b, v4.16b, v4.16b
	addp	v4.16b, v4.16b, v4.16b
	umov	w18, v4.h[0]
	cbnz	w18, .Lunix_path_BB77_46
	add	x16, x16, #16
	cmp	x16, x15
	b.lo	.Lunix_path_BB77_49
	b	.Lunix_path_BB77_48
.Lunix_path_BB77_51:
	add	x13, x16, w17, uxtw
	b	.Lunix_path_BB77_57
.Lunix_path_BB77_52:
	cbz	x15, .Lunix_path_BB77_71
	add	x16, x2, x12
	mov	w17, #17
	add	x16, x16, x21
	add	x16, x16, #17
.Lunix_path_BB77_54:
	movi	v1.16b, #208
	ldp	q2, q3, [x16, #-16]
	ldur	q4, [x16, #-1]
	movi	v5.16b, #47
	and	v2.16b, v2.16b, v1.16b
	and	v1.16b, v3.16b, v1.16b
	ldur	q3, [x16, #-17]
	orr	v2.16b, v2.16b, v3.16b
	orr	v1.16b, v1.16b, v4.16b
	cmeq	v2.16b, v2.16b, v5.16b
	cmeq	v1.16b, v1.16b, v5.16b
	and	v2.16b, v2.16b, v0.16b
	and	v1.16b, v1.16b, v0.16b
	addp	v2.16b, v2.16b, v2.16b
	addp	v1.16b, v1.16b, v1.16b
	addp	v2.16b, v2.16b, v2.16b
	addp	v1.16b, v1.16b, v1.16b
	addp	v2.16b, v2.16b, v2.16b
	addp	v1.16b, v1.16b, v1.16b
	orr	v1.16b, v1.16b, v2.16b
	umov	w18, v1.h[0]
	cbnz	w18, .Lunix_path_BB77_36
	add	x18, x17, #15
	add	x17, x17, #32
	add	x16, x16, #32
	cmp	x18, x15
	b.lo	.Lunix_path_BB77_54
	b	.Lunix_path_BB77_71
.Lunix_path_BB77_56:
	add	x13, x14, #16
.Lunix_path_BB77_57:
	cmp	x13, x10
	b.hs	.Lunix_path_BB77_70
	add	x12, x2, x12
	add	x14, x13, #3
	sub	x12, x22, x12
	b	.Lunix_path_BB77_61
.Lunix_path_BB77_59:
	cmp	w16, #47
	b.eq	.Lunix_path_BB77_70
.Lunix_path_BB77_60:
	cmp	x15, x10
	add	x14, x14, #1
	add	x13, x13, #1
	b.hs	.Lunix_path_BB77_69
.Lunix_path_BB77_61:
	add	x15, x11, x14
	ldurb	w15, [x15, #-3]
	cmp	w15, #47
	sub	x15, x14, #2
	b.ne	.Lunix_path_BB77_60
	cmp	x10, x15
	b.ls	.Lunix_path_BB77_70
	add	x16, x11, x14
	ldurb	w16, [x16, #-2]
	cmp	w16, #46
	b.ne	.Lunix_path_BB77_59
	sub	x16, x14, #1
	cmp	x10, x16
	b.ls	.Lunix_path_BB77_70
	add	x16, x11, x14
	ldurb	w16, [x16, #-1]
	cmp	w16, #46
	b.ne	.Lunix_path_BB77_59
	cmp	x10, x14
	b.ls	.Lunix_path_BB77_70
	ldrb	w16, [x11, x14]
	cmp	w16, #47
	b.ne	.Lunix_path_BB77_60
	sub	x13, x14, #3
	b	.Lunix_path_BB77_70
.Lunix_path_BB77_69:
	mov	x13, x12
.Lunix_path_BB77_70:
	cmp	x13, x10
	b.ne	.Lunix_path_BB77_72
.Lunix_path_BB77_71:
	add	x11, x8, #1
	mov	x10, #-1
	mov	w12, #1
	mov	x21, x9
	mov	x20, x8
	b	.Lunix_path_BB77_73
.Lunix_path_BB77_72:
	add	x0, sp, #8
	mov	x1, x21
	mov	x2, x20
	bl	path_within.backward.count_resolved
	ldp	x10, x11, [sp, #16]
	mov	x12, xzr
.Lunix_path_BB77_73:
	stp	x21, x20, [x19]
	ldp	x22, x21, [sp, #48]
	stp	x10, x11, [x19, #16]
	ldp	x29, x30, [sp, #32]
	str	x12, [x19, #32]
	ldp	x20, x19, [sp, #64]
	add	sp, sp, #80
	ret
.Lunix_path_func_end77:
	.size	path_within.write.Layout.resolve_names, .Lunix_path_func_end77-path_within.write.Layout.resolve_names
	.section	.rodata.cst16,"aM",@progbits,16
	.p2align	4, 0x0
.Lunix_path_CPI78_0:
	.byte	1
	.byte	2
	.byte	4
	.byte	8
	.byte	16
	.byte	32
	.byte	64
	.byte	128
	.byte	1
	.byte	2
	.byte	4
	.byte	8
	.byte	16
	.byte	32
	.byte	64
	.byte	128
	.section	.rodata.cst8,"aM",@progbits,8
	.p2align	3, 0x0
.Lunix_path_CPI78_1:
	.byte	1
	.byte	2
	.byte	4
	.byte	8
	.byte	16
	.byte	32
	.byte	64
	.byte	128
	.section	.text.upath_commands.bases.rest_after,"ax",@progbits
	.p2align	2
	.type	upath_commands.bases.rest_after,@function
// upath_commands::bases::rest_after
upath_commands.bases.rest_after:
	sub	sp, sp, #96
	stp	x22, x21, [sp, #64]
	mov	x22, x2
	mov	x21, x1
	stp	x20, x19, [sp, #80]
	mov	x20, x3
	mov	x19, x0
	stp	x29, x30, [sp, #32]
	add	x29, sp, #32
	str	x23, [sp, #48]
	cbz	x4, .Lunix_path_BB78_9
	mov	x23, x4
	mov	x8, x4
	b	.Lunix_path_BB78_3
.Lunix_path_BB78_2:
	mov	x8, x1
	cbz	x1, .Lunix_path_BB78_10
.Lunix_path_BB78_3:
	subs	x1, x8, #1
	b.eq	.Lunix_path_BB78_10
	add	x9, x20, x1
	ldrb	w10, [x9]
	cmp	w10, #47
	b.eq	.Lunix_path_BB78_7
	cmp	w10, #46
	b.ne	.Lunix_path_BB78_10
	ldurb	w9, [x9, #-1]
	cmp	w9, #47
	b.ne	.Lunix_path_BB78_10
.Lunix_path_BB78_7:
	sub	x8, x23, x1
	cmp	x8, #8
	b.ne	.Lunix_path_BB78_2
	mov	x0, x20
	bl	unix_path.filler.trimmed_blocks_len
	mov	x1, x0
	b	.Lunix_path_BB78_2
.Lunix_path_BB78_9:
	mov	x8, xzr
.Lunix_path_BB78_10:
	cbz	x22, .Lunix_path_BB78_72
	cmp	x22, x8
	stp	xzr, xzr, [sp, #8]
	csel	x9, x22, x8, lo
	str	xzr, [sp, #24]
	cmp	x9, #15
	b.hi	.Lunix_path_BB78_27
	cmp	x9, #7
	b.hi	.Lunix_path_BB78_36
	cbz	x8, .Lunix_path_BB78_40
	ldrb	w10, [x20]
	ldrb	w11, [x21]
	cmp	w10, w11
	b.ne	.Lunix_path_BB78_41
	cmp	x9, #1
	b.eq	.Lunix_path_BB78_42
	ldrb	w10, [x20, #1]
	ldrb	w11, [x21, #1]
	cmp	w10, w11
	b.ne	.Lunix_path_BB78_79
	cmp	x9, #2
	b.eq	.Lunix_path_BB78_42
	ldrb	w10, [x20, #2]
	ldrb	w11, [x21, #2]
	cmp	w10, w11
	b.ne	.Lunix_path_BB78_80
	cmp	x9, #3
	b.eq	.Lunix_path_BB78_42
	ldrb	w10, [x20, #3]
	ldrb	w11, [x21, #3]
	cmp	w10, w11
	b.ne	.Lunix_path_BB78_81
	cmp	x9, #4
	b.eq	.Lunix_path_BB78_42
	ldrb	w10, [x20, #4]
	ldrb	w11, [x21, #4]
	cmp	w10, w11
	b.ne	.Lunix_path_BB78_82
	cmp	x9, #5
	b.eq	.Lunix_path_BB78_42
	ldrb	w10, [x20, #5]
	ldrb	w11, [x21, #5]
	cmp	w10, w11
	b.ne	.Lunix_path_BB78_83
	cmp	x9, #6
	b.eq	.Lunix_path_BB78_42
	ldrb	w10, [x20, #6]
	ldrb	w11, [x21, #6]
	cmp	w10, w11
	mov	w10, #6
	csel	x9, x9, x10, eq
	b	.Lunix_path_BB78_42
.Lunix_path_BB78_27:
	cmp	x9, #64
	sub	x10, x9, #16
	adrp	x11, .Lunix_path_CPI78_0
	mov	x12, xzr
	b.lo	.Lunix_path_BB78_34
	and	x13, x9, #0xffffffffffffffc0
.Lunix_path_BB78_29:
	add	x14, x20, x12
	add	x15, x21, x12
	ldp	q0, q1, [x14]
	ldp	q2, q3, [x14, #32]
	ldp	q4, q5, [x15]
	ldp	q6, q7, [x15, #32]
	cmeq	v0.16b, v0.16b, v4.16b
	cmeq	v1.16b, v1.16b, v5.16b
	ldr	q4, [x11, :lo12:.Lunix_path_CPI78_0]
	cmeq	v3.16b, v3.16b, v7.16b
	cmeq	v2.16b, v2.16b, v6.16b
	bic	v0.16b, v4.16b, v0.16b
	bic	v1.16b, v4.16b, v1.16b
	bic	v2.16b, v4.16b, v2.16b
	bic	v3.16b, v4.16b, v3.16b
	addp	v0.16b, v0.16b, v1.16b
	addp	v1.16b, v2.16b, v3.16b
	addp	v0.16b, v0.16b, v1.16b
	addp	v0.16b, v0.16b, v0.16b
	fmov	x14, d0
	cbnz	x14, .Lunix_path_BB78_34
	sub	x9, x9, #64
	add	x12, x12, #64
	cmp	x9, #63
	b.hi	.Lunix_path_BB78_29
	mov	x12, x13
	b	.Lunix_path_BB78_34
.Lunix_path_BB78_32:
	ldr	q0, [x20, x12]
	ldr	q1, [x21, x12]
	cmeq	v0.16b, v0.16b, v1.16b
	ldr	q1, [x11, :lo12:.Lunix_path_CPI78_0]
	bic	v0.16b, v1.16b, v0.16b
	addp	v0.16b, v0.16b, v0.16b
	addp	v0.16b, v0.16b, v0.16b
	addp	v0.16b, v0.16b, v0.16b
	umov	w9, v0.h[0]
	orr	w9, w9, #0x10000
	rbit	w9, w9
	clz	w9, w9
	cmp	w9, #15
	b.ls	.Lunix_path_BB78_38
	add	x12, x12, #16
.Lunix_path_BB78_34:
	cmp	x12, x10
	b.lo	.Lunix_path_BB78_32
	ldr	q0, [x20, x10]
	ldr	q1, [x21, x10]
	cmeq	v0.16b, v0.16b, v1.16b
	ldr	q1, [x11, :lo12:.Lunix_path_CPI78_0]
	bic	v0.16b, v1.16b, v0.16b
	addp	v0.16b, v0.16b, v0.16b
	addp	v0.16b, v0.16b, v0.16b
	addp	v0.16b, v0.16b, v0.16b
	umov	w9, v0.h[0]
	orr	w9, w9, #0x10000
	rbit	w9, w9
	clz	w9, w9
	add	x9, x10, x9
	b	.Lunix_path_BB78_42
.Lunix_path_BB78_36:
	ldr	d0, [x20]
	ldr	d1, [x21]
	adrp	x10, .Lunix_path_CPI78_1
	cmeq	v1.8b, v0.8b, v1.8b
	ldr	d0, [x10, :lo12:.Lunix_path_CPI78_1]
	bic	v1.8b, v0.8b, v1.8b
	addv	b1, v1.8b
	fmov	w10, s1
	orr	w10, w10, #0x100
	rbit	w10, w10
	clz	w10, w10
	cmp	w10, #8
	b.hs	.Lunix_path_BB78_39
	mov	x9, x10
	b	.Lunix_path_BB78_42
.Lunix_path_BB78_38:
	add	x9, x12, w9, uxtw
	b	.Lunix_path_BB78_42
.Lunix_path_BB78_39:
	sub	x9, x9, #8
	ldr	d1, [x20, x9]
	ldr	d2, [x21, x9]
	cmeq	v1.8b, v1.8b, v2.8b
	bic	v0.8b, v0.8b, v1.8b
	addv	b0, v0.8b
	fmov	w10, s0
	orr	w10, w10, #0x100
	rbit	w10, w10
	clz	w10, w10
	add	x9, x9, x10
	b	.Lunix_path_BB78_42
.Lunix_path_BB78_40:
	mov	x9, xzr
	mov	w10, #1
	cmp	xzr, x8
	b.lo	.Lunix_path_BB78_44
	b	.Lunix_path_BB78_45
.Lunix_path_BB78_41:
	mov	x9, xzr
.Lunix_path_BB78_42:
	cmp	x22, x9
	b.ls	.Lunix_path_BB78_48
	mov	w10, #1
	cmp	x9, x8
	b.hs	.Lunix_path_BB78_45
.Lunix_path_BB78_44:
	ldrb	w11, [x20, x9]
	cmp	w11, #47
	b.ne	.Lunix_path_BB78_52
.Lunix_path_BB78_45:
	mov	w11, wzr
	cbz	w10, .Lunix_path_BB78_55
.Lunix_path_BB78_46:
	ldrb	w10, [x21, x9]
	cmp	w10, #47
	b.ne	.Lunix_path_BB78_57
	mov	w10, wzr
	b	.Lunix_path_BB78_55
.Lunix_path_BB78_48:
	subs	x23, x8, x22
	b.ls	.Lunix_path_BB78_51
	add	x10, x20, x22
	ldrb	w11, [x10]
	cmp	w11, #47
	b.eq	.Lunix_path_BB78_51
	ldurb	w10, [x10, #-1]
	cmp	w10, #47
	b.ne	.Lunix_path_BB78_78
.Lunix_path_BB78_51:
	add	x20, x20, x22
	b	.Lunix_path_BB78_62
.Lunix_path_BB78_52:
	cmp	w11, #46
	eor	w12, w10, #0x1
	csinc	w12, w12, wzr, ne
	tbnz	w12, #0, .Lunix_path_BB78_54
	ldrb	w12, [x21, x9]
	and	w12, w12, #0xfe
	cmp	w12, #46
	b.ne	.Lunix_path_BB78_76
.Lunix_path_BB78_54:
	add	w11, w11, #1
	cbnz	w10, .Lunix_path_BB78_46
.Lunix_path_BB78_55:
	cmp	w11, w10
	b.ne	.Lunix_path_BB78_58
.Lunix_path_BB78_56:
	cbnz	x9, .Lunix_path_BB78_60
	b	.Lunix_path_BB78_76
.Lunix_path_BB78_57:
	add	w10, w10, #1
	cmp	w11, w10
	b.eq	.Lunix_path_BB78_56
.Lunix_path_BB78_58:
	cbz	x9, .Lunix_path_BB78_76
	add	x10, x20, x9
	ldurb	w10, [x10, #-1]
	cmp	w10, #47
	b.ne	.Lunix_path_BB78_73
.Lunix_path_BB78_60:
	sub	x2, x8, x9
	sub	x4, x22, x9
	add	x0, sp, #8
	add	x1, x20, x9
	add	x3, x21, x9
	bl	unix_path.pair.Comparison.rest_after_cut
	ldrb	w8, [sp, #8]
	cmp	w8, #1
	b.ne	.Lunix_path_BB78_76
	ldp	x20, x23, [sp, #16]
.Lunix_path_BB78_62:
	mov	x2, xzr
	b	.Lunix_path_BB78_64
.Lunix_path_BB78_63:
	mov	w8, #1
	add	x2, x8, x2
	cmp	x2, #4
	b.hs	.Lunix_path_BB78_70
.Lunix_path_BB78_64:
	cmp	x2, x23
	b.hs	.Lunix_path_BB78_71
	ldrb	w8, [x20, x2]
	cmp	w8, #47
	b.eq	.Lunix_path_BB78_63
	cmp	w8, #46
	b.ne	.Lunix_path_BB78_71
	add	x8, x2, #1
	cmp	x8, x23
	b.eq	.Lunix_path_BB78_63
	ldrb	w8, [x20, x8]
	cmp	w8, #47
	b.ne	.Lunix_path_BB78_71
	mov	w8, #2
	add	x2, x8, x2
	cmp	x2, #4
	b.lo	.Lunix_path_BB78_64
.Lunix_path_BB78_70:
	mov	x0, x20
	mov	x1, x23
	bl	unix_path.filler.filler_end_from
	mov	x2, x0
.Lunix_path_BB78_71:
	add	x20, x20, x2
	sub	x8, x23, x2
.Lunix_path_BB78_72:
	mov	w9, #1
	b	.Lunix_path_BB78_77
.Lunix_path_BB78_73:
	subs	x9, x9, #1
	b.eq	.Lunix_path_BB78_76
	cmp	w10, #46
	b.ne	.Lunix_path_BB78_76
	add	x10, x20, x9
	ldurb	w10, [x10, #-1]
	cmp	w10, #47
	b.eq	.Lunix_path_BB78_60
.Lunix_path_BB78_76:
	mov	x20, xzr
	mov	x8, xzr
	mov	x9, xzr
.Lunix_path_BB78_77:
	stp	x9, x20, [x19]
	ldp	x22, x21, [sp, #64]
	str	x8, [x19, #16]
	ldr	x23, [sp, #48]
	ldp	x20, x19, [sp, #80]
	ldp	x29, x30, [sp, #32]
	add	sp, sp, #96
	ret
.Lunix_path_BB78_78:
	mov	w10, wzr
	cmp	x9, x8
	b.lo	.Lunix_path_BB78_44
	b	.Lunix_path_BB78_45
.Lunix_path_BB78_79:
	mov	w9, #1
	b	.Lunix_path_BB78_42
.Lunix_path_BB78_80:
	mov	w9, #2
	b	.Lunix_path_BB78_42
.Lunix_path_BB78_81:
	mov	w9, #3
	b	.Lunix_path_BB78_42
.Lunix_path_BB78_82:
	mov	w9, #4
	b	.Lunix_path_BB78_42
.Lunix_path_BB78_83:
	mov	w9, #5
	b	.Lunix_path_BB78_42
.Lunix_path_func_end78:
	.size	upath_commands.bases.rest_after, .Lunix_path_func_end78-upath_commands.bases.rest_after
	.section	.rodata.cst16,"aM",@progbits,16
	.p2align	4, 0x0
.Lunix_path_CPI79_0:
	.byte	1
	.byte	2
	.byte	4
	.byte	8
	.byte	16
	.byte	32
	.byte	64
	.byte	128
	.byte	1
	.byte	2
	.byte	4
	.byte	8
	.byte	16
	.byte	32
	.byte	64
	.byte	128
	.section	.rodata.cst8,"aM",@progbits,8
	.p2align	3, 0x0
.Lunix_path_CPI79_1:
	.byte	1
	.byte	2
	.byte	4
	.byte	8
	.byte	16
	.byte	32
	.byte	64
	.byte	128
	.section	.text.path_within.outlined.is_names_only,"ax",@progbits
	.p2align	2
	.type	path_within.outlined.is_names_only,@function
// path_within::outlined::is_names_only
path_within.outlined.is_names_only:
	cbz	x1, .Lunix_path_BB79_10
	mov	x8, x0
	ldrb	w9, [x8], #1
	cmp	w9, #47
	cset	w10, eq
	csel	x9, x0, x8, ne
	subs	x8, x1, x10
	b.eq	.Lunix_path_BB79_10
	ldrb	w10, [x9]
	cmp	w10, #47
	b.eq	.Lunix_path_BB79_10
	cmp	w10, #46
	b.ne	.Lunix_path_BB79_9
	cmp	x8, #2
	b.lo	.Lunix_path_BB79_10
	ldrb	w10, [x9, #1]
	cmp	w10, #47
	b.eq	.Lunix_path_BB79_10
	cmp	w10, #46
	b.ne	.Lunix_path_BB79_9
	cmp	x8, #2
	b.eq	.Lunix_path_BB79_10
	ldrb	w10, [x9, #2]
	cmp	w10, #47
	b.eq	.Lunix_path_BB79_10
.Lunix_path_BB79_9:
	add	x13, x0, x1
	ldurb	w10, [x13, #-1]
	and	w10, w10, #0xfe
	cmp	w10, #46
	b.ne	.Lunix_path_BB79_11
.Lunix_path_BB79_10:
	mov	w0, wzr
	ret
.Lunix_path_BB79_11:
	subs	x11, x8, #17
	b.hs	.Lunix_path_BB79_14
.Lunix_path_BB79_12:
	cmp	x8, #9
	b.hs	.Lunix_path_BB79_22
	mov	x10, xzr
	b	.Lunix_path_BB79_39
.Lunix_path_BB79_14:
	cmp	x8, #32
	adrp	x10, .Lunix_path_CPI79_0
	b.hi	.Lunix_path_BB79_24
	movi	v0.16b, #208
	ldur	q1, [x9, #1]
	ldr	q3, [x9]
	and	v2.16b, v1.16b, v0.16b
	movi	v1.16b, #47
	orr	v2.16b, v2.16b, v3.16b
	cmeq	v3.16b, v2.16b, v1.16b
	ldr	q2, [x10, :lo12:.Lunix_path_CPI79_0]
	and	v3.16b, v3.16b, v2.16b
	addp	v3.16b, v3.16b, v3.16b
	addp	v3.16b, v3.16b, v3.16b
	addp	v3.16b, v3.16b, v3.16b
	umov	w12, v3.h[0]
	cbnz	w12, .Lunix_path_BB79_17
	ldur	q3, [x13, #-16]
	and	v0.16b, v3.16b, v0.16b
	ldur	q3, [x13, #-17]
	orr	v0.16b, v0.16b, v3.16b
	cmeq	v0.16b, v0.16b, v1.16b
	and	v0.16b, v0.16b, v2.16b
	addp	v0.16b, v0.16b, v0.16b
	addp	v0.16b, v0.16b, v0.16b
	addp	v0.16b, v0.16b, v0.16b
	umov	w12, v0.h[0]
	cbz	w12, .Lunix_path_BB79_37
.Lunix_path_BB79_17:
	cmp	x8, #18
	b.ls	.Lunix_path_BB79_12
	subs	x12, x8, #19
	b.ne	.Lunix_path_BB79_26
	mov	x13, xzr
.Lunix_path_BB79_20:
	cmp	x11, x13
	movi	v0.16b, #208
	csel	x11, x11, x13, lo
	add	x13, x9, x11
	ldur	q1, [x13, #1]
	ldr	q2, [x13]
	and	v1.16b, v1.16b, v0.16b
	movi	v0.16b, #47
	orr	v1.16b, v1.16b, v2.16b
	cmeq	v2.16b, v1.16b, v0.16b
	ldr	q1, [x10, :lo12:.Lunix_path_CPI79_0]
	and	v2.16b, v2.16b, v1.16b
	addp	v2.16b, v2.16b, v2.16b
	addp	v2.16b, v2.16b, v2.16b
	addp	v2.16b, v2.16b, v2.16b
	umov	w10, v2.h[0]
	cbz	w10, .Lunix_path_BB79_38
	movi	v2.16b, #46
	add	x10, x9, x12
	ldur	q3, [x10, #2]
	ldur	q4, [x10, #3]
	cmeq	v4.16b, v4.16b, v0.16b
	cmeq	v5.16b, v3.16b, v2.16b
	cmeq	v3.16b, v3.16b, v0.16b
	and	v4.16b, v5.16b, v4.16b
	ldur	q5, [x10, #1]
	cmeq	v2.16b, v5.16b, v2.16b
	orr	v3.16b, v3.16b, v4.16b
	ldr	q4, [x10]
	and	v2.16b, v2.16b, v3.16b
	cmeq	v3.16b, v4.16b, v0.16b
	cmeq	v0.16b, v5.16b, v0.16b
	orr	v0.16b, v0.16b, v2.16b
	and	v1.16b, v3.16b, v1.16b
	and	v0.16b, v1.16b, v0.16b
	addp	v0.16b, v0.16b, v0.16b
	addp	v0.16b, v0.16b, v0.16b
	addp	v0.16b, v0.16b, v0.16b
	umov	w10, v0.h[0]
	orr	w10, w10, #0x10000
	rbit	w10, w10
	clz	w10, w10
	add	x10, x12, x10
	b	.Lunix_path_BB79_39
.Lunix_path_BB79_22:
	movi	v0.8b, #254
	movi	v1.8b, #47
	ldr	d3, [x9]
	ldur	d4, [x9, #1]
	movi	v2.8b, #46
	adrp	x10, .Lunix_path_CPI79_1
	and	v4.8b, v4.8b, v0.8b
	cmeq	v5.8b, v3.8b, v1.8b
	ldr	d3, [x10, :lo12:.Lunix_path_CPI79_1]
	cmeq	v4.8b, v4.8b, v2.8b
	and	v5.8b, v5.8b, v3.8b
	and	v4.8b, v5.8b, v4.8b
	addv	b4, v4.8b
	fmov	w10, s4
	orr	w10, w10, #0x100
	rbit	w10, w10
	clz	w10, w10
	cmp	w10, #8
	b.lo	.Lunix_path_BB79_39
	cmp	x8, #17
	mov	w10, #17
	csel	x10, x8, x10, lo
	sub	x10, x10, #9
	add	x11, x9, x10
	ldr	d4, [x11]
	ldur	d5, [x11, #1]
	and	v0.8b, v5.8b, v0.8b
	cmeq	v1.8b, v4.8b, v1.8b
	cmeq	v0.8b, v0.8b, v2.8b
	and	v1.8b, v1.8b, v3.8b
	and	v0.8b, v1.8b, v0.8b
	addv	b0, v0.8b
	fmov	w11, s0
	orr	w11, w11, #0x100
	rbit	w11, w11
	clz	w11, w11
	add	x10, x10, x11
	b	.Lunix_path_BB79_39
.Lunix_path_BB79_24:
	sub	x12, x8, #33
	movi	v0.16b, #208
	ldur	q2, [x13, #-16]
	add	x14, x9, x12
	ldur	q3, [x13, #-17]
	movi	v4.16b, #47
	ldur	q1, [x14, #1]
	and	v1.16b, v1.16b, v0.16b
	and	v0.16b, v2.16b, v0.16b
	ldr	q2, [x14]
	orr	v1.16b, v1.16b, v2.16b
	orr	v0.16b, v0.16b, v3.16b
	cmeq	v1.16b, v1.16b, v4.16b
	cmeq	v2.16b, v0.16b, v4.16b
	ldr	q0, [x10, :lo12:.Lunix_path_CPI79_0]
	and	v1.16b, v1.16b, v0.16b
	and	v2.16b, v2.16b, v0.16b
	addp	v1.16b, v1.16b, v1.16b
	addp	v2.16b, v2.16b, v2.16b
	addp	v1.16b, v1.16b, v1.16b
	addp	v2.16b, v2.16b, v2.16b
	addp	v1.16b, v1.16b, v1.16b
	addp	v2.16b, v2.16b, v2.16b
	orr	v1.16b, v2.16b, v1.16b
	umov	w13, v1.h[0]
	cbz	w13, .Lunix_path_BB79_33
	sub	x12, x8, #19
.Lunix_path_BB79_26:
	mov	x13, xzr
	b	.Lunix_path_BB79_30
.Lunix_path_BB79_27:
	movi	v4.16b, #46
	ldur	q5, [x14, #2]
	ldur	q6, [x14, #3]
	cmeq	v1.16b, v1.16b, v2.16b
	cmeq	v6.16b, v6.16b, v2.16b
	cmeq	v7.16b, v5.16b, v4.16b
	cmeq	v5.16b, v5.16b, v2.16b
	cmeq	v4.16b, v0.16b, v4.16b
	cmeq	v0.16b, v0.16b, v2.16b
	and	v1.16b, v1.16b, v3.16b
	and	v6.16b, v7.16b, v6.16b
	orr	v5.16b, v5.16b, v6.16b
	and	v4.16b, v4.16b, v5.16b
	orr	v0.16b, v0.16b, v4.16b
	and	v0.16b, v1.16b, v0.16b
	addp	v0.16b, v0.16b, v0.16b
	addp	v0.16b, v0.16b, v0.16b
	addp	v0.16b, v0.16b, v0.16b
	umov	w14, v0.h[0]
	orr	w14, w14, #0x10000
	rbit	w14, w14
	clz	w14, w14
	cmp	w14, #15
	b.ls	.Lunix_path_BB79_32
	add	x13, x13, #16
.Lunix_path_BB79_29:
	cmp	x13, x12
	b.hs	.Lunix_path_BB79_20
.Lunix_path_BB79_30:
	movi	v1.16b, #208
	add	x14, x9, x13
	movi	v2.16b, #47
	ldur	q0, [x14, #1]
	and	v3.16b, v0.16b, v1.16b
	ldr	q1, [x14]
	orr	v3.16b, v3.16b, v1.16b
	cmeq	v4.16b, v3.16b, v2.16b
	ldr	q3, [x10, :lo12:.Lunix_path_CPI79_0]
	and	v4.16b, v4.16b, v3.16b
	addp	v4.16b, v4.16b, v4.16b
	addp	v4.16b, v4.16b, v4.16b
	addp	v4.16b, v4.16b, v4.16b
	umov	w15, v4.h[0]
	cbnz	w15, .Lunix_path_BB79_27
	add	x13, x13, #16
	cmp	x13, x12
	b.lo	.Lunix_path_BB79_30
	b	.Lunix_path_BB79_29
.Lunix_path_BB79_32:
	add	x10, x13, w14, uxtw
	b	.Lunix_path_BB79_39
.Lunix_path_BB79_33:
	cbz	x12, .Lunix_path_BB79_37
	mov	x13, xzr
.Lunix_path_BB79_35:
	movi	v1.16b, #208
	add	x14, x9, x13
	movi	v5.16b, #47
	ldur	q2, [x14, #1]
	ldur	q3, [x14, #17]
	and	v2.16b, v2.16b, v1.16b
	and	v1.16b, v3.16b, v1.16b
	ldp	q3, q4, [x14]
	orr	v2.16b, v2.16b, v3.16b
	orr	v1.16b, v1.16b, v4.16b
	cmeq	v2.16b, v2.16b, v5.16b
	cmeq	v1.16b, v1.16b, v5.16b
	and	v2.16b, v2.16b, v0.16b
	and	v1.16b, v1.16b, v0.16b
	addp	v2.16b, v2.16b, v2.16b
	addp	v1.16b, v1.16b, v1.16b
	addp	v2.16b, v2.16b, v2.16b
	addp	v1.16b, v1.16b, v1.16b
	addp	v2.16b, v2.16b, v2.16b
	addp	v1.16b, v1.16b, v1.16b
	orr	v1.16b, v1.16b, v2.16b
	umov	w14, v1.h[0]
	cbnz	w14, .Lunix_path_BB79_17
	add	x13, x13, #32
	mov	w0, #1
	cmp	x13, x12
	b.lo	.Lunix_path_BB79_35
	b	.Lunix_path_BB79_51
.Lunix_path_BB79_37:
	mov	w0, #1
	ret
.Lunix_path_BB79_38:
	add	x10, x11, #16
.Lunix_path_BB79_39:
	cmp	x10, x8
	b.lo	.Lunix_path_BB79_42
	b	.Lunix_path_BB79_50
.Lunix_path_BB79_40:
	cmp	w12, #47
	b.eq	.Lunix_path_BB79_50
.Lunix_path_BB79_41:
	cmp	x11, x8
	mov	x10, x11
	b.hs	.Lunix_path_BB79_49
.Lunix_path_BB79_42:
	ldrb	w11, [x9, x10]
	cmp	w11, #47
	add	x11, x10, #1
	b.ne	.Lunix_path_BB79_41
	cmp	x8, x11
	b.ls	.Lunix_path_BB79_50
	add	x12, x9, x10
	ldrb	w12, [x12, #1]
	cmp	w12, #46
	b.ne	.Lunix_path_BB79_40
	add	x12, x10, #2
	cmp	x8, x12
	b.ls	.Lunix_path_BB79_50
	add	x12, x9, x10
	ldrb	w12, [x12, #2]
	cmp	w12, #46
	b.ne	.Lunix_path_BB79_40
	add	x12, x10, #3
	cmp	x8, x12
	b.ls	.Lunix_path_BB79_50
	add	x12, x9, x10
	ldrb	w12, [x12, #3]
	b	.Lunix_path_BB79_40
.Lunix_path_BB79_49:
	mov	x10, x8
.Lunix_path_BB79_50:
	cmp	x10, x8
	cset	w0, eq
.Lunix_path_BB79_51:
	ret
.Lunix_path_func_end79:
	.size	path_within.outlined.is_names_only, .Lunix_path_func_end79-path_within.outlined.is_names_only
	.section	.rodata.cst16,"aM",@progbits,16
	.p2align	4, 0x0
.Lunix_path_CPI80_0:
	.byte	1
	.byte	2
	.byte	4
	.byte	8
	.byte	16
	.byte	32
	.byte	64
	.byte	128
	.byte	1
	.byte	2
	.byte	4
	.byte	8
	.byte	16
	.byte	32
	.byte	64
	.byte	128
	.section	.rodata.cst8,"aM",@progbits,8
	.p2align	3, 0x0
.Lunix_path_CPI80_1:
	.byte	1
	.byte	2
	.byte	4
	.byte	8
	.byte	16
	.byte	32
	.byte	64
	.byte	128
	.section	.text.upath_commands.keys.unkeyed_path,"ax",@progbits
	.p2align	2
	.type	upath_commands.keys.unkeyed_path,@function
// upath_commands::keys::unkeyed_path
upath_commands.keys.unkeyed_path:
	sub	sp, sp, #112
	stp	x29, x30, [sp, #32]
	add	x29, sp, #32
	cmp	x2, #2
	stp	x20, x19, [sp, #96]
	mov	x19, x0
	sub	x8, x29, #1
	stp	x26, x25, [sp, #48]
	stp	x24, x23, [sp, #64]
	stp	x22, x21, [sp, #80]
	stp	xzr, xzr, [sp, #8]
	str	x8, [sp]
	b.hs	.Lunix_path_BB80_3
	cbnz	x2, .Lunix_path_BB80_23
	ldr	x0, [sp]
	ldr	x24, [sp, #16]
	mov	x23, xzr
	mov	x9, xzr
	mov	x8, xzr
	mov	w26, #1
	mov	x10, x0
	b	.Lunix_path_BB80_38
.Lunix_path_BB80_3:
	mov	x23, xzr
.Lunix_path_BB80_4:
	ldrb	w9, [x1]
	subs	w20, w9, #48
	b.hs	.Lunix_path_BB80_6
.Lunix_path_BB80_5:
	mov	w20, wzr
	mov	w9, wzr
	ldrb	w10, [x1, #1]
	subs	w21, w10, #48
	b.hs	.Lunix_path_BB80_8
	b	.Lunix_path_BB80_23
.Lunix_path_BB80_6:
	cmp	w9, #57
	b.hi	.Lunix_path_BB80_13
	mov	w9, #1
	ldrb	w10, [x1, #1]
	subs	w21, w10, #48
	b.lo	.Lunix_path_BB80_23
.Lunix_path_BB80_8:
	cmp	w10, #57
	b.hi	.Lunix_path_BB80_10
	mov	w10, #1
	and	w9, w9, w10
	cmp	w9, #1
	b.eq	.Lunix_path_BB80_17
	b	.Lunix_path_BB80_23
.Lunix_path_BB80_10:
	cmp	w10, #65
	b.lo	.Lunix_path_BB80_23
	cmp	w10, #70
	b.hi	.Lunix_path_BB80_16
	sub	w21, w10, #55
	mov	w10, #1
	and	w9, w9, w10
	cmp	w9, #1
	b.eq	.Lunix_path_BB80_17
	b	.Lunix_path_BB80_23
.Lunix_path_BB80_13:
	cmp	w9, #65
	b.lo	.Lunix_path_BB80_5
	cmp	w9, #70
	b.hi	.Lunix_path_BB80_19
	sub	w20, w9, #55
	mov	w9, #1
	ldrb	w10, [x1, #1]
	subs	w21, w10, #48
	b.hs	.Lunix_path_BB80_8
	b	.Lunix_path_BB80_23
.Lunix_path_BB80_16:
	sub	w11, w10, #97
	sub	w12, w10, #87
	and	w11, w11, #0xff
	cmp	w11, #6
	cset	w10, lo
	csel	w21, w12, wzr, lo
	and	w9, w9, w10
	cmp	w9, #1
	b.ne	.Lunix_path_BB80_23
.Lunix_path_BB80_17:
	ldr	x9, [sp, #16]
	cmp	x9, x23
	mov	x9, x23
	b.eq	.Lunix_path_BB80_20
.Lunix_path_BB80_18:
	sub	x2, x2, #2
	add	w10, w21, w20, lsl #4
	add	x23, x9, #1
	cmp	x2, #2
	add	x1, x1, #2
	strb	w10, [x8, x9]
	str	x23, [sp, #8]
	b.hs	.Lunix_path_BB80_4
	b	.Lunix_path_BB80_22
.Lunix_path_BB80_19:
	sub	w10, w9, #97
	sub	w11, w9, #87
	and	w10, w10, #0xff
	cmp	w10, #6
	cset	w9, lo
	csel	w20, w11, wzr, lo
	ldrb	w10, [x1, #1]
	subs	w21, w10, #48
	b.hs	.Lunix_path_BB80_8
	b	.Lunix_path_BB80_23
.Lunix_path_BB80_20:
	mov	x22, x1
	mov	x0, sp
	mov	w1, #1
	mov	x23, x2
	bl	std_alloc.vec.Vec.grow_amortized.f4a78633ca2a48c6.
	cbz	w0, .Lunix_path_BB80_33
	ldp	x8, x9, [sp]
	mov	x2, x23
	mov	x1, x22
	b	.Lunix_path_BB80_18
.Lunix_path_BB80_22:
	cbz	x2, .Lunix_path_BB80_25
.Lunix_path_BB80_23:
	ldr	x8, [sp, #16]
	cbz	x8, .Lunix_path_BB80_78
	ldr	x0, [sp]
	b	.Lunix_path_BB80_77
.Lunix_path_BB80_25:
	ldr	x0, [sp]
	ldr	x24, [sp, #16]
	cmp	x23, #2
	b.hs	.Lunix_path_BB80_27
	mov	x8, xzr
	mov	w26, #1
	b	.Lunix_path_BB80_29
.Lunix_path_BB80_27:
	ldrb	w8, [x0]
	cbz	w8, .Lunix_path_BB80_30
.Lunix_path_BB80_28:
	mov	w26, wzr
	mov	x8, xzr
.Lunix_path_BB80_29:
	mov	x9, x23
	mov	x10, x0
	b	.Lunix_path_BB80_38
.Lunix_path_BB80_30:
	ldrb	w8, [x0, #1]
	cmp	w8, #2
	b.eq	.Lunix_path_BB80_35
	cmp	w8, #1
	b.ne	.Lunix_path_BB80_28
	mov	w26, wzr
	add	x10, x0, #2
	sub	x9, x9, #1
	mov	w8, #1
	b	.Lunix_path_BB80_38
.Lunix_path_BB80_33:
	ldr	x8, [sp, #16]
	cbz	x8, .Lunix_path_BB80_88
	ldr	x0, [sp]
	b	.Lunix_path_BB80_87
.Lunix_path_BB80_35:
	mov	w26, wzr
	add	x10, x0, #2
	sub	x9, x9, #1
	mov	w8, #2
	b	.Lunix_path_BB80_38
.Lunix_path_BB80_36:
	mov	w11, #2
	mov	w12, #3
.Lunix_path_BB80_37:
	add	x8, x12, x8
	add	x10, x10, x11
	sub	x9, x9, x11
.Lunix_path_BB80_38:
	cmp	x9, #1
	adrp	x25, .Lunix_path_CPI80_0
	b.eq	.Lunix_path_BB80_43
	cbz	x9, .Lunix_path_BB80_81
	ldrb	w11, [x10]
	cbnz	w11, .Lunix_path_BB80_42
	ldrb	w12, [x10, #1]
	cmp	w12, #3
	b.eq	.Lunix_path_BB80_36
.Lunix_path_BB80_42:
	cmp	w11, #47
	b.ne	.Lunix_path_BB80_46
	b	.Lunix_path_BB80_44
.Lunix_path_BB80_43:
	ldrb	w11, [x10]
	cmp	w11, #47
	b.ne	.Lunix_path_BB80_46
.Lunix_path_BB80_44:
	cmp	x9, #1
	b.eq	.Lunix_path_BB80_76
	ldrb	w11, [x10, #1]
	cmp	w11, #47
	b.eq	.Lunix_path_BB80_47
.Lunix_path_BB80_46:
	cbnz	w11, .Lunix_path_BB80_49
	b	.Lunix_path_BB80_76
.Lunix_path_BB80_47:
	cmp	x9, #3
	b.lo	.Lunix_path_BB80_76
	ldrb	w11, [x10, #2]
	cbz	w11, .Lunix_path_BB80_76
.Lunix_path_BB80_49:
	cmp	x9, #18
	b.hi	.Lunix_path_BB80_52
	cmp	x9, #9
	b.hs	.Lunix_path_BB80_60
	mov	x11, xzr
	cmp	xzr, x9
	b.lo	.Lunix_path_BB80_69
	b	.Lunix_path_BB80_64
.Lunix_path_BB80_52:
	mov	x12, xzr
	subs	x11, x9, #19
	b.ne	.Lunix_path_BB80_56
.Lunix_path_BB80_53:
	sub	x13, x9, #17
	movi	v0.16b, #208
	cmp	x13, x12
	csel	x12, x13, x12, lo
	add	x13, x10, x12
	ldur	q1, [x13, #1]
	and	v0.16b, v1.16b, v0.16b
	ldr	q1, [x13]
	orr	v0.16b, v0.16b, v1.16b
	cmeq	v1.16b, v0.16b, #0
	ldr	q0, [x25, :lo12:.Lunix_path_CPI80_0]
	and	v1.16b, v1.16b, v0.16b
	addp	v1.16b, v1.16b, v1.16b
	addp	v1.16b, v1.16b, v1.16b
	addp	v1.16b, v1.16b, v1.16b
	umov	w13, v1.h[0]
	cbz	w13, .Lunix_path_BB80_66
	movi	v1.16b, #47
	add	x12, x10, x11
	ldur	q2, [x12, #2]
	ldur	q3, [x12, #3]
	cmeq	v3.16b, v3.16b, #0
	cmeq	v4.16b, v2.16b, v1.16b
	cmeq	v2.16b, v2.16b, #0
	and	v3.16b, v4.16b, v3.16b
	ldur	q4, [x12, #1]
	cmeq	v1.16b, v4.16b, v1.16b
	orr	v2.16b, v2.16b, v3.16b
	ldr	q3, [x12]
	and	v1.16b, v1.16b, v2.16b
	cmeq	v2.16b, v3.16b, #0
	cmeq	v3.16b, v4.16b, #0
	orr	v1.16b, v3.16b, v1.16b
	and	v0.16b, v2.16b, v0.16b
	and	v0.16b, v0.16b, v1.16b
	addp	v0.16b, v0.16b, v0.16b
	addp	v0.16b, v0.16b, v0.16b
	addp	v0.16b, v0.16b, v0.16b
	umov	w12, v0.h[0]
	orr	w12, w12, #0x10000
	rbit	w12, w12
	clz	w12, w12
	add	x11, x11, x12
	cmp	x11, x9
	b.lo	.Lunix_path_BB80_69
	b	.Lunix_path_BB80_64
.Lunix_path_BB80_55:
	cmp	x12, x11
	b.hs	.Lunix_path_BB80_53
.Lunix_path_BB80_56:
	movi	v1.16b, #208
	add	x13, x10, x12
	ldur	q0, [x13, #1]
	and	v2.16b, v0.16b, v1.16b
	ldr	q1, [x13]
	orr	v2.16b, v2.16b, v1.16b
	cmeq	v3.16b, v2.16b, #0
	ldr	q2, [x25, :lo12:.Lunix_path_CPI80_0]
	and	v3.16b, v3.16b, v2.16b
	addp	v3.16b, v3.16b, v3.16b
	addp	v3.16b, v3.16b, v3.16b
	addp	v3.16b, v3.16b, v3.16b
	umov	w14, v3.h[0]
	cbz	w14, .Lunix_path_BB80_59
	movi	v3.16b, #47
	ldur	q4, [x13, #2]
	ldur	q5, [x13, #3]
	cmeq	v1.16b, v1.16b, #0
	cmeq	v5.16b, v5.16b, #0
	cmeq	v6.16b, v4.16b, v3.16b
	cmeq	v4.16b, v4.16b, #0
	cmeq	v3.16b, v0.16b, v3.16b
	cmeq	v0.16b, v0.16b, #0
	and	v1.16b, v1.16b, v2.16b
	and	v5.16b, v6.16b, v5.16b
	orr	v4.16b, v4.16b, v5.16b
	and	v3.16b, v3.16b, v4.16b
	orr	v0.16b, v0.16b, v3.16b
	and	v0.16b, v1.16b, v0.16b
	addp	v0.16b, v0.16b, v0.16b
	addp	v0.16b, v0.16b, v0.16b
	addp	v0.16b, v0.16b, v0.16b
	umov	w13, v0.h[0]
	orr	w13, w13, #0x10000
	rbit	w13, w13
	clz	w13, w13
	cmp	w13, #15
	b.ls	.Lunix_path_BB80_62
	add	x12, x12, #16
	b	.Lunix_path_BB80_55
.Lunix_path_BB80_59:
	add	x12, x12, #16
	cmp	x12, x11
	b.lo	.Lunix_path_BB80_56
	b	.Lunix_path_BB80_55
.Lunix_path_BB80_60:
	movi	v0.8b, #47
	ldur	d1, [x10, #1]
	ldr	d2, [x10]
	adrp	x11, .Lunix_path_CPI80_1
	cmeq	v3.8b, v1.8b, #0
	cmeq	v2.8b, v2.8b, #0
	cmeq	v4.8b, v1.8b, v0.8b
	ldr	d1, [x11, :lo12:.Lunix_path_CPI80_1]
	and	v2.8b, v2.8b, v1.8b
	orr	v3.8b, v3.8b, v4.8b
	and	v2.8b, v2.8b, v3.8b
	addv	b2, v2.8b
	fmov	w11, s2
	orr	w11, w11, #0x100
	rbit	w11, w11
	clz	w11, w11
	cmp	w11, #8
	b.lo	.Lunix_path_BB80_63
	cmp	x9, #17
	mov	w11, #17
	csel	x11, x9, x11, lo
	sub	x11, x11, #9
	add	x12, x10, x11
	ldr	d2, [x12]
	ldur	d3, [x12, #1]
	cmeq	v4.8b, v3.8b, #0
	cmeq	v0.8b, v3.8b, v0.8b
	cmeq	v2.8b, v2.8b, #0
	orr	v0.8b, v4.8b, v0.8b
	and	v1.8b, v2.8b, v1.8b
	and	v0.8b, v1.8b, v0.8b
	addv	b0, v0.8b
	fmov	w12, s0
	orr	w12, w12, #0x100
	rbit	w12, w12
	clz	w12, w12
	add	x11, x11, x12
	cmp	x11, x9
	b.lo	.Lunix_path_BB80_69
	b	.Lunix_path_BB80_64
.Lunix_path_BB80_62:
	add	x11, x12, w13, uxtw
.Lunix_path_BB80_63:
	cmp	x11, x9
	b.lo	.Lunix_path_BB80_69
.Lunix_path_BB80_64:
	cmp	x11, x9
	b.eq	.Lunix_path_BB80_76
	add	x12, x11, #1
	mov	x11, x12
	b	.Lunix_path_BB80_37
.Lunix_path_BB80_66:
	add	x11, x12, #16
	cmp	x11, x9
	b.lo	.Lunix_path_BB80_69
	b	.Lunix_path_BB80_64
.Lunix_path_BB80_67:
	cbz	w13, .Lunix_path_BB80_64
.Lunix_path_BB80_68:
	cmp	x9, x12
	mov	x11, x12
	b.eq	.Lunix_path_BB80_76
.Lunix_path_BB80_69:
	ldrb	w13, [x10, x11]
	add	x12, x11, #1
	cbnz	w13, .Lunix_path_BB80_68
	cmp	x9, x12
	b.ls	.Lunix_path_BB80_64
	add	x13, x10, x11
	ldrb	w13, [x13, #1]
	cmp	w13, #47
	b.ne	.Lunix_path_BB80_67
	add	x13, x11, #2
	cmp	x9, x13
	b.ls	.Lunix_path_BB80_64
	add	x13, x10, x11
	ldrb	w13, [x13, #2]
	cmp	w13, #47
	b.ne	.Lunix_path_BB80_67
	add	x13, x11, #3
	cmp	x9, x13
	b.ls	.Lunix_path_BB80_64
	add	x13, x10, x11
	ldrb	w13, [x13, #3]
	cbnz	w13, .Lunix_path_BB80_68
	b	.Lunix_path_BB80_64
.Lunix_path_BB80_76:
	cbz	x24, .Lunix_path_BB80_78
.Lunix_path_BB80_77:
	bl	rattle_dealloc
.Lunix_path_BB80_78:
	movi	v0.2d, #0000000000000000
	strb	wzr, [x19]
.Lunix_path_BB80_79:
	stur	q0, [x19, #8]
	stur	q0, [x19, #24]
.Lunix_path_BB80_80:
	ldp	x20, x19, [sp, #96]
	ldp	x22, x21, [sp, #80]
	ldp	x24, x23, [sp, #64]
	ldp	x26, x25, [sp, #48]
	ldp	x29, x30, [sp, #32]
	add	sp, sp, #112
	ret
.Lunix_path_BB80_81:
	cmp	x8, #1
	cset	w9, hi
	subs	x20, x8, x9
	b.eq	.Lunix_path_BB80_89
	mov	x22, x0
	tbnz	x20, #63, .Lunix_path_BB80_85
	mov	x0, x20
	mov	w1, #1
	bl	rattle_alloc
	tbz	w0, #0, .Lunix_path_BB80_85
	mov	x21, x1
	mov	x0, x1
	mov	w1, wzr
	mov	x2, x20
	bl	memset
	mov	x0, x22
	b	.Lunix_path_BB80_90
.Lunix_path_BB80_85:
	cbz	x24, .Lunix_path_BB80_88
	mov	x0, x22
.Lunix_path_BB80_87:
	bl	rattle_dealloc
.Lunix_path_BB80_88:
	mov	w8, #1
	movi	v0.2d, #0000000000000000
	strb	w8, [x19]
	b	.Lunix_path_BB80_79
.Lunix_path_BB80_89:
	sub	x21, x29, #1
.Lunix_path_BB80_90:
	tbnz	w26, #0, .Lunix_path_BB80_92
	ldrb	w8, [x0]
	cbz	w8, .Lunix_path_BB80_153
.Lunix_path_BB80_92:
	mov	x9, xzr
	mov	x8, x0
.Lunix_path_BB80_93:
	add	x10, x20, #1
	b	.Lunix_path_BB80_96
.Lunix_path_BB80_94:
	add	x12, x11, #1
	mov	x11, x12
.Lunix_path_BB80_95:
	add	x9, x12, x9
	add	x8, x8, x11
	sub	x23, x23, x11
.Lunix_path_BB80_96:
	subs	x11, x10, x9
	b.eq	.Lunix_path_BB80_99
	cmp	x23, x11
	b.ne	.Lunix_path_BB80_99
	sub	x11, x23, #1
	b	.Lunix_path_BB80_131
.Lunix_path_BB80_99:
	cmp	x23, #2
	b.hs	.Lunix_path_BB80_102
	cbz	x23, .Lunix_path_BB80_150
	ldrb	w11, [x8]
	b	.Lunix_path_BB80_107
.Lunix_path_BB80_102:
	ldrb	w11, [x8]
	cbnz	w11, .Lunix_path_BB80_107
	ldrb	w12, [x8, #1]
	cmp	w12, #3
	b.ne	.Lunix_path_BB80_107
	add	x11, x9, #2
	mov	w12, #11822
	strh	w12, [x21, x9]
	cmp	x11, x20
	b.hs	.Lunix_path_BB80_106
	mov	w12, #47
	strb	w12, [x21, x11]
.Lunix_path_BB80_106:
	mov	w11, #2
	mov	w12, #3
	b	.Lunix_path_BB80_95
.Lunix_path_BB80_107:
	cmp	w11, #47
	b.ne	.Lunix_path_BB80_110
	cmp	x23, #2
	b.lo	.Lunix_path_BB80_150
	ldrb	w11, [x8, #1]
	cmp	w11, #47
	b.eq	.Lunix_path_BB80_111
.Lunix_path_BB80_110:
	cbnz	w11, .Lunix_path_BB80_113
	b	.Lunix_path_BB80_150
.Lunix_path_BB80_111:
	cmp	x23, #2
	b.eq	.Lunix_path_BB80_150
	ldrb	w11, [x8, #2]
	cbz	w11, .Lunix_path_BB80_150
.Lunix_path_BB80_113:
	cmp	x23, #18
	b.hi	.Lunix_path_BB80_116
	cmp	x23, #9
	b.hs	.Lunix_path_BB80_124
	mov	x11, xzr
	b	.Lunix_path_BB80_129
.Lunix_path_BB80_116:
	mov	x12, xzr
	subs	x11, x23, #19
	b.ne	.Lunix_path_BB80_122
.Lunix_path_BB80_117:
	sub	x13, x23, #17
	movi	v0.16b, #208
	cmp	x13, x12
	csel	x12, x13, x12, lo
	add	x13, x8, x12
	ldur	q1, [x13, #1]
	and	v0.16b, v1.16b, v0.16b
	ldr	q1, [x13]
	orr	v0.16b, v0.16b, v1.16b
	cmeq	v1.16b, v0.16b, #0
	ldr	q0, [x25, :lo12:.Lunix_path_CPI80_0]
	and	v1.16b, v1.16b, v0.16b
	addp	v1.16b, v1.16b, v1.16b
	addp	v1.16b, v1.16b, v1.16b
	addp	v1.16b, v1.16b, v1.16b
	umov	w13, v1.h[0]
	cbz	w13, .Lunix_path_BB80_128
	movi	v1.16b, #47
	add	x12, x8, x11
	ldur	q2, [x12, #2]
	ldur	q3, [x12, #3]
	cmeq	v3.16b, v3.16b, #0
	cmeq	v4.16b, v2.16b, v1.16b
	cmeq	v2.16b, v2.16b, #0
	and	v3.16b, v4.16b, v3.16b
	ldur	q4, [x12, #1]
	cmeq	v1.16b, v4.16b, v1.16b
	orr	v2.16b, v2.16b, v3.16b
	ldr	q3, [x12]
	and	v1.16b, v1.16b, v2.16b
	cmeq	v2.16b, v3.16b, #0
	cmeq	v3.16b, v4.16b, #0
	orr	v1.16b, v3.16b, v1.16b
	and	v0.16b, v2.16b, v0.16b
	and	v0.16b, v0.16b, v1.16b
	addp	v0.16b, v0.16b, v0.16b
	addp	v0.16b, v0.16b, v0.16b
	addp	v0.16b, v0.16b, v0.16b
	umov	w12, v0.h[0]
	orr	w12, w12, #0x10000
	b	.Lunix_path_BB80_126
.Lunix_path_BB80_119:
	movi	v3.16b, #47
	ldur	q4, [x13, #2]
	ldur	q5, [x13, #3]
	cmeq	v1.16b, v1.16b, #0
	cmeq	v5.16b, v5.16b, #0
	cmeq	v6.16b, v4.16b, v3.16b
	cmeq	v4.16b, v4.16b, #0
	cmeq	v3.16b, v0.16b, v3.16b
	cmeq	v0.16b, v0.16b, #0
	and	v1.16b, v1.16b, v2.16b
	and	v5.16b, v6.16b, v5.16b
	orr	v4.16b, v4.16b, v5.16b
	and	v3.16b, v3.16b, v4.16b
	orr	v0.16b, v0.16b, v3.16b
	and	v0.16b, v1.16b, v0.16b
	addp	v0.16b, v0.16b, v0.16b
	addp	v0.16b, v0.16b, v0.16b
	addp	v0.16b, v0.16b, v0.16b
	umov	w13, v0.h[0]
	orr	w13, w13, #0x10000
	rbit	w13, w13
	clz	w13, w13
	cmp	w13, #15
	b.ls	.Lunix_path_BB80_127
	add	x12, x12, #16
.Lunix_path_BB80_121:
	cmp	x12, x11
	b.hs	.Lunix_path_BB80_117
.Lunix_path_BB80_122:
	movi	v1.16b, #208
	add	x13, x8, x12
	ldur	q0, [x13, #1]
	and	v2.16b, v0.16b, v1.16b
	ldr	q1, [x13]
	orr	v2.16b, v2.16b, v1.16b
	cmeq	v3.16b, v2.16b, #0
	ldr	q2, [x25, :lo12:.Lunix_path_CPI80_0]
	and	v3.16b, v3.16b, v2.16b
	addp	v3.16b, v3.16b, v3.16b
	addp	v3.16b, v3.16b, v3.16b
	addp	v3.16b, v3.16b, v3.16b
	umov	w14, v3.h[0]
	cbnz	w14, .Lunix_path_BB80_119
	add	x12, x12, #16
	cmp	x12, x11
	b.lo	.Lunix_path_BB80_122
	b	.Lunix_path_BB80_121
.Lunix_path_BB80_124:
	movi	v0.8b, #47
	ldur	d1, [x8, #1]
	ldr	d2, [x8]
	adrp	x11, .Lunix_path_CPI80_1
	cmeq	v3.8b, v1.8b, #0
	cmeq	v2.8b, v2.8b, #0
	cmeq	v4.8b, v1.8b, v0.8b
	ldr	d1, [x11, :lo12:.Lunix_path_CPI80_1]
	and	v2.8b, v2.8b, v1.8b
	orr	v3.8b, v3.8b, v4.8b
	and	v2.8b, v2.8b, v3.8b
	addv	b2, v2.8b
	fmov	w11, s2
	orr	w11, w11, #0x100
	rbit	w11, w11
	clz	w11, w11
	cmp	w11, #8
	b.lo	.Lunix_path_BB80_129
	cmp	x23, #17
	mov	w11, #17
	csel	x11, x23, x11, lo
	sub	x11, x11, #9
	add	x12, x8, x11
	ldr	d2, [x12]
	ldur	d3, [x12, #1]
	cmeq	v4.8b, v3.8b, #0
	cmeq	v0.8b, v3.8b, v0.8b
	cmeq	v2.8b, v2.8b, #0
	orr	v0.8b, v4.8b, v0.8b
	and	v1.8b, v2.8b, v1.8b
	and	v0.8b, v1.8b, v0.8b
	addv	b0, v0.8b
	fmov	w12, s0
	orr	w12, w12, #0x100
.Lunix_path_BB80_126:
	rbit	w12, w12
	clz	w12, w12
	add	x11, x11, x12
	b	.Lunix_path_BB80_129
.Lunix_path_BB80_127:
	add	x11, x12, w13, uxtw
	b	.Lunix_path_BB80_129
.Lunix_path_BB80_128:
	add	x11, x12, #16
.Lunix_path_BB80_129:
	cmp	x11, x23
	b.lo	.Lunix_path_BB80_137
.Lunix_path_BB80_130:
	cmp	x11, x23
	b.eq	.Lunix_path_BB80_150
.Lunix_path_BB80_131:
	cmp	x11, #15
	b.hi	.Lunix_path_BB80_144
	cbz	x11, .Lunix_path_BB80_148
	add	x12, x21, x9
	mov	x13, x8
	mov	x14, x11
.Lunix_path_BB80_134:
	ldrb	w15, [x13], #1
	cmp	w15, #48
	sbc	w16, w15, wzr
	cmp	w15, #0
	mov	w15, #47
	csel	w15, w15, w16, eq
	subs	x14, x14, #1
	strb	w15, [x12], #1
	b.ne	.Lunix_path_BB80_134
	b	.Lunix_path_BB80_148
.Lunix_path_BB80_135:
	cbz	w13, .Lunix_path_BB80_130
.Lunix_path_BB80_136:
	cmp	x23, x12
	mov	x11, x12
	b.eq	.Lunix_path_BB80_150
.Lunix_path_BB80_137:
	ldrb	w13, [x8, x11]
	add	x12, x11, #1
	cbnz	w13, .Lunix_path_BB80_136
	cmp	x23, x12
	b.ls	.Lunix_path_BB80_130
	add	x13, x8, x11
	ldrb	w13, [x13, #1]
	cmp	w13, #47
	b.ne	.Lunix_path_BB80_135
	add	x13, x11, #2
	cmp	x23, x13
	b.ls	.Lunix_path_BB80_130
	add	x13, x8, x11
	ldrb	w13, [x13, #2]
	cmp	w13, #47
	b.ne	.Lunix_path_BB80_135
	add	x13, x11, #3
	cmp	x23, x13
	b.ls	.Lunix_path_BB80_130
	add	x13, x8, x11
	ldrb	w13, [x13, #3]
	cbnz	w13, .Lunix_path_BB80_136
	b	.Lunix_path_BB80_130
.Lunix_path_BB80_144:
	subs	x12, x11, #16
	b.eq	.Lunix_path_BB80_147
	mov	x13, xzr
	add	x14, x21, x9
.Lunix_path_BB80_146:
	movi	v0.16b, #48
	ldr	q1, [x8, x13]
	movi	v2.16b, #47
	cmhi	v0.16b, v0.16b, v1.16b
	add	v0.16b, v1.16b, v0.16b
	cmeq	v1.16b, v1.16b, #0
	bit	v0.16b, v2.16b, v1.16b
	str	q0, [x14, x13]
	add	x13, x13, #16
	cmp	x13, x12
	b.lo	.Lunix_path_BB80_146
.Lunix_path_BB80_147:
	movi	v0.16b, #48
	ldr	q1, [x8, x12]
	movi	v2.16b, #47
	add	x13, x21, x9
	cmhi	v0.16b, v0.16b, v1.16b
	add	v0.16b, v1.16b, v0.16b
	cmeq	v1.16b, v1.16b, #0
	bit	v0.16b, v2.16b, v1.16b
	str	q0, [x13, x12]
.Lunix_path_BB80_148:
	add	x12, x11, x9
	cmp	x12, x20
	b.hs	.Lunix_path_BB80_94
	mov	w13, #47
	strb	w13, [x21, x12]
	b	.Lunix_path_BB80_94
.Lunix_path_BB80_150:
	cbz	x24, .Lunix_path_BB80_152
	bl	rattle_dealloc
.Lunix_path_BB80_152:
	mov	w8, #1
	strb	wzr, [x19]
	stp	x8, x21, [x19, #8]
	stp	x20, x20, [x19, #24]
	b	.Lunix_path_BB80_80
.Lunix_path_BB80_153:
	ldrb	w8, [x0, #1]
	cmp	w8, #2
	b.eq	.Lunix_path_BB80_157
	cmp	w8, #1
	b.ne	.Lunix_path_BB80_92
	add	x8, x0, #2
	sub	x23, x23, #2
	cbz	x20, .Lunix_path_BB80_162
	mov	w9, #47
	strb	w9, [x21]
	mov	w9, #1
	b	.Lunix_path_BB80_93
.Lunix_path_BB80_157:
	cmp	x20, #2
	add	x8, x0, #2
	sub	x23, x23, #2
	b.lo	.Lunix_path_BB80_159
	adrp	x9, .Lunix_path_static.86
	add	x9, x9, :lo12:.Lunix_path_static.86
	sub	x9, x21, x9
	cmp	x9, #1
	mov	w9, #12078
	strh	w9, [x21]
	b	.Lunix_path_BB80_161
.Lunix_path_BB80_159:
	cmp	x20, #1
	b.ne	.Lunix_path_BB80_161
	mov	w9, #46
	strb	w9, [x21]
.Lunix_path_BB80_161:
	mov	w9, #2
	b	.Lunix_path_BB80_93
.Lunix_path_BB80_162:
	mov	w9, #1
	b	.Lunix_path_BB80_93
.Lunix_path_func_end80:
	.size	upath_commands.keys.unkeyed_path, .Lunix_path_func_end80-upath_commands.keys.unkeyed_path
	.section	.rodata.cst16,"aM",@progbits,16
	.p2align	4, 0x0
.Lunix_path_CPI81_0:
	.byte	0
	.byte	1
	.byte	2
	.byte	3
	.byte	4
	.byte	5
	.byte	6
	.byte	7
	.byte	8
	.byte	9
	.byte	10
	.byte	11
	.byte	12
	.byte	13
	.byte	14
	.byte	15
.Lunix_path_CPI81_1:
	.byte	16
	.byte	17
	.byte	18
	.byte	19
	.byte	20
	.byte	21
	.byte	22
	.byte	23
	.byte	24
	.byte	25
	.byte	26
	.byte	27
	.byte	28
	.byte	29
	.byte	30
	.byte	31
	.section	.rodata.cst8,"aM",@progbits,8
	.p2align	3, 0x0
.Lunix_path_CPI81_2:
	.byte	32
	.byte	33
	.byte	34
	.byte	35
	.byte	36
	.byte	37
	.byte	38
	.byte	39
	.section	.text.upath_commands.output.Output.write_out.0c02296ad0e184a5.,"ax",@progbits
	.p2align	2
	.type	upath_commands.output.Output.write_out.0c02296ad0e184a5.,@function
// upath_commands::output::Output::write_out::<#0c02296ad0e184a5>
upath_commands.output.Output.write_out.0c02296ad0e184a5.:
	sub	sp, sp, #192
	stp	x22, x21, [sp, #160]
	ldr	x22, [x0, #24]
	stp	x29, x30, [sp, #96]
	add	x29, sp, #96
	stp	x28, x27, [sp, #112]
	stp	x26, x25, [sp, #128]
	stp	x24, x23, [sp, #144]
	stp	x20, x19, [sp, #176]
	cbz	x22, .Lunix_path_BB81_12
	ldr	x24, [x0, #16]
	mov	x19, x0
	mov	x25, xzr
.Lunix_path_BB81_2:
	sub	x26, x22, x25
	strb	wzr, [x19, #10]
	mov	x27, #-1
.Lunix_path_BB81_3:
	add	x1, x24, x25
	sub	x2, x22, x25
	mov	w0, #1
	bl	write
	adrp	x23, .Lunix_path_CPI81_0
	adrp	x21, .Lunix_path_CPI81_1
	adrp	x20, .Lunix_path_CPI81_2
	tbz	x0, #63, .Lunix_path_BB81_8
	bl	rattle_errno
	mov	w1, w0
	mov	x0, sp
	mov	x28, sp
	bl	std_io.io.error.Error.from_raw_os_error
	ldr	x9, [sp]
	ldr	q0, [x23, :lo12:.Lunix_path_CPI81_0]
	mov	w10, #40
	ldr	q1, [x21, :lo12:.Lunix_path_CPI81_1]
	ldr	d2, [x20, :lo12:.Lunix_path_CPI81_2]
	strb	w10, [sp, #40]
	ubfx	w8, w9, #8, #8
	stp	q0, q1, [sp]
	cmp	w8, #41
	str	d2, [sp, #32]
	b.hs	.Lunix_path_BB81_15
	ubfx	x9, x9, #8, #6
	ldrb	w9, [x28, x9]
	cmp	w9, #35
	b.ne	.Lunix_path_BB81_15
	subs	x27, x27, #1
	b.ne	.Lunix_path_BB81_3
	add	x1, x24, x25
	sub	x2, x22, x25
	mov	w0, #1
	bl	write
	tbnz	x0, #63, .Lunix_path_BB81_14
.Lunix_path_BB81_8:
	cmp	x0, x26
	csel	x8, x0, x26, lo
	cbz	x8, .Lunix_path_BB81_13
	add	x25, x8, x25
	cmp	x25, x22
	b.lo	.Lunix_path_BB81_2
	ldr	x8, [x19, #24]
	cbz	x8, .Lunix_path_BB81_12
	mov	w0, wzr
	mov	w1, wzr
	str	xzr, [x19, #24]
	b	.Lunix_path_BB81_19
.Lunix_path_BB81_12:
	mov	w0, wzr
	mov	w1, wzr
	b	.Lunix_path_BB81_19
.Lunix_path_BB81_13:
	mov	w8, #1
	strb	w8, [x19, #8]
	mov	w8, #23
	b	.Lunix_path_BB81_16
.Lunix_path_BB81_14:
	bl	rattle_errno
	mov	w1, w0
	mov	x0, sp
	bl	std_io.io.error.Error.from_raw_os_error
	ldrb	w8, [sp, #1]
.Lunix_path_BB81_15:
	mov	w9, #1
	strb	w9, [x19, #8]
.Lunix_path_BB81_16:
	ldr	q0, [x23, :lo12:.Lunix_path_CPI81_0]
	ldr	q1, [x21, :lo12:.Lunix_path_CPI81_1]
	mov	w9, #40
	ldr	d2, [x20, :lo12:.Lunix_path_CPI81_2]
	cmp	w8, #41
	strb	w9, [sp, #40]
	stp	q0, q1, [sp]
	str	d2, [sp, #32]
	b.hs	.Lunix_path_BB81_18
	mov	x9, sp
	mov	w0, #1
	ldrb	w8, [x9, w8, uxtw]
	and	w8, w8, #0xff
	cmp	w8, #11
	cinc	w1, w0, eq
	b	.Lunix_path_BB81_19
.Lunix_path_BB81_18:
	mov	w0, #1
	mov	w1, #1
.Lunix_path_BB81_19:
	ldp	x20, x19, [sp, #176]
	ldp	x22, x21, [sp, #160]
	ldp	x24, x23, [sp, #144]
	ldp	x26, x25, [sp, #128]
	ldp	x28, x27, [sp, #112]
	ldp	x29, x30, [sp, #96]
	add	sp, sp, #192
	ret
.Lunix_path_func_end81:
	.size	upath_commands.output.Output.write_out.0c02296ad0e184a5., .Lunix_path_func_end81-upath_commands.output.Output.write_out.0c02296ad0e184a5.
	.section	.text.std_collections.btree.node.Node.destroy.793632148a6f265d.,"ax",@progbits
	.p2align	2
	.type	std_collections.btree.node.Node.destroy.793632148a6f265d.,@function
// std_collections::btree::node::Node::destroy::<#793632148a6f265d>
std_collections.btree.node.Node.destroy.793632148a6f265d.:
	sub	sp, sp, #160
	ldrh	w11, [x0, #2]
	stp	x20, x19, [sp, #144]
	mov	w10, #15
	ldrh	w20, [x0]
	add	x9, x0, #368
	mov	w12, #16
	cmp	w11, #0
	add	x8, x0, #8
	stp	x10, x9, [sp, #16]
	stp	x20, x10, [sp, #32]
	csinc	x10, xzr, x20, eq
	csel	x12, xzr, x12, eq
	stp	x29, x30, [sp, #112]
	add	x29, sp, #112
	str	x21, [sp, #128]
	stp	x8, x20, [sp]
	stp	x9, x10, [sp, #48]
	stp	x12, x0, [sp, #64]
	cbz	w11, .Lunix_path_BB82_23
	cbnz	w20, .Lunix_path_BB82_11
	ldr	x19, [x9]
	cmp	x20, #257
	b.lo	.Lunix_path_BB82_22
.Lunix_path_BB82_3:
	mov	x8, xzr
	add	x10, x9, #16
.Lunix_path_BB82_4:
	mov	w11, #256
	mov	x12, x10
.Lunix_path_BB82_5:
	ldur	q0, [x12, #-8]
	ldur	q1, [x12, #8]
	subs	x11, x11, #4
	stp	q0, q1, [x12, #-16]
	add	x12, x12, #32
	b.ne	.Lunix_path_BB82_5
	add	x8, x8, #256
	add	x10, x10, #2048
	sub	x11, x20, x8
	cmp	x11, #256
	b.hi	.Lunix_path_BB82_4
	cmp	x20, x8
	b.eq	.Lunix_path_BB82_9
.Lunix_path_BB82_8:
	add	x0, x9, x8, lsl #3
	lsl	x2, x11, #3
	add	x1, x0, #8
	bl	memmove
.Lunix_path_BB82_9:
	mov	x0, x19
	bl	std_collections.btree.node.Node.destroy.793632148a6f265d.
	ldr	x0, [sp, #72]
	ldp	x20, x19, [sp, #144]
	ldr	x21, [sp, #128]
	ldp	x29, x30, [sp, #112]
	add	sp, sp, #160
	b	rattle_dealloc
.Lunix_path_BB82_10:
	ldr	x8, [sp, #8]
	cbz	x8, .Lunix_path_BB82_21
.Lunix_path_BB82_11:
	ldp	x8, x9, [sp, #48]
	sub	x20, x9, #1
	ldr	x19, [x8]
	cmp	x20, #257
	b.lo	.Lunix_path_BB82_20
	mov	x9, xzr
	add	x10, x8, #16
.Lunix_path_BB82_13:
	mov	w11, #256
	mov	x12, x10
.Lunix_path_BB82_14:
	ldur	q0, [x12, #-8]
	ldur	q1, [x12, #8]
	subs	x11, x11, #4
	stp	q0, q1, [x12, #-16]
	add	x12, x12, #32
	b.ne	.Lunix_path_BB82_14
	add	x9, x9, #256
	add	x10, x10, #2048
	sub	x11, x20, x9
	cmp	x11, #256
	b.hi	.Lunix_path_BB82_13
	ldr	x21, [sp, #64]
	cmp	x20, x9
	b.eq	.Lunix_path_BB82_18
.Lunix_path_BB82_17:
	add	x0, x8, x9, lsl #3
	lsl	x2, x11, #3
	add	x1, x0, #8
	bl	memmove
.Lunix_path_BB82_18:
	mov	x0, x19
	stp	x20, x21, [sp, #56]
	bl	std_collections.btree.node.Node.destroy.793632148a6f265d.
	sub	x0, x29, #32
	mov	x1, sp
	mov	x2, xzr
	stp	xzr, xzr, [x29, #-32]
	stur	xzr, [x29, #-16]
	bl	std_alloc.vec.Vec.remove.b40003dd673f1bd1.
	ldr	x8, [sp, #32]
	ldur	x9, [x29, #-16]
	sub	x8, x8, #1
	str	x8, [sp, #32]
	cbz	x9, .Lunix_path_BB82_10
	ldur	x0, [x29, #-32]
	bl	rattle_dealloc
	b	.Lunix_path_BB82_10
.Lunix_path_BB82_20:
	mov	x9, xzr
	mov	x11, x20
	ldr	x21, [sp, #64]
	cmp	x20, xzr
	b.ne	.Lunix_path_BB82_17
	b	.Lunix_path_BB82_18
.Lunix_path_BB82_21:
	ldp	x9, x8, [sp, #48]
	sub	x20, x8, #1
	ldr	x19, [x9]
	cmp	x20, #257
	b.hs	.Lunix_path_BB82_3
.Lunix_path_BB82_22:
	mov	x8, xzr
	mov	x11, x20
	cmp	x20, xzr
	b.ne	.Lunix_path_BB82_8
	b	.Lunix_path_BB82_9
.Lunix_path_BB82_23:
	mov	x19, x0
	cmp	w20, #15
	b.ls	.Lunix_path_BB82_25
	lsr	x2, x20, #1
	mov	w10, #24
	add	x0, x19, #8
	sub	x9, x20, x2
	smaddl	x1, w9, w10, x8
	bl	core.slice.edits.mirror.23.unix_path.buf.PathBuf.
	b	.Lunix_path_BB82_59
.Lunix_path_BB82_25:
	cmp	w20, #2
	b.lo	.Lunix_path_BB82_58
	sub	x10, x20, #2
	subs	x11, x20, #1
	lsr	x9, x10, #1
	b.eq	.Lunix_path_BB82_28
	mov	w12, #24
	ldr	q1, [x8]
	ldr	x13, [x8, #16]
	smaddl	x11, w11, w12, x8
	ldr	q0, [x11]
	ldr	x12, [x11, #16]
	str	q0, [x8]
	str	x12, [x8, #16]
	str	q1, [x11]
	str	x13, [x11, #16]
.Lunix_path_BB82_28:
	cbz	x9, .Lunix_path_BB82_58
	cmp	x10, #1
	b.ls	.Lunix_path_BB82_31
	mov	w11, #24
	ldr	q1, [x19, #32]
	ldr	x12, [x19, #48]
	smaddl	x10, w10, w11, x8
	ldr	q0, [x10]
	ldr	x11, [x10, #16]
	str	q0, [x19, #32]
	str	x11, [x19, #48]
	str	q1, [x10]
	str	x12, [x10, #16]
	b	.Lunix_path_BB82_33
.Lunix_path_BB82_31:
	cbnz	x10, .Lunix_path_BB82_33
	mov	w11, #24
	ldr	q0, [x19, #32]
	smaddl	x10, w10, w11, x8
	ldr	x11, [x19, #48]
	ldr	q1, [x10]
	ldr	x12, [x10, #16]
	str	q0, [x10]
	str	x11, [x10, #16]
	str	q1, [x19, #32]
	str	x12, [x19, #48]
.Lunix_path_BB82_33:
	cmp	x9, #1
	b.eq	.Lunix_path_BB82_58
	sub	x10, x20, #3
	cmp	x10, #2
	b.ls	.Lunix_path_BB82_36
	mov	w11, #24
	ldur	q1, [x19, #56]
	ldr	x12, [x19, #72]
	smaddl	x10, w10, w11, x8
	ldr	q0, [x10]
	ldr	x11, [x10, #16]
	stur	q0, [x19, #56]
	str	x11, [x19, #72]
	str	q1, [x10]
	str	x12, [x10, #16]
	b	.Lunix_path_BB82_38
.Lunix_path_BB82_36:
	b.eq	.Lunix_path_BB82_38
	mov	w11, #24
	ldur	q0, [x19, #56]
	smaddl	x10, w10, w11, x8
	ldr	x11, [x19, #72]
	ldr	q1, [x10]
	ldr	x12, [x10, #16]
	str	q0, [x10]
	str	x11, [x10, #16]
	stur	q1, [x19, #56]
	str	x12, [x19, #72]
.Lunix_path_BB82_38:
	cmp	x9, #2
	b.eq	.Lunix_path_BB82_58
	sub	x10, x20, #4
	cmp	x10, #3
	b.ls	.Lunix_path_BB82_41
	mov	w11, #24
	ldr	q1, [x19, #80]
	ldr	x12, [x19, #96]
	smaddl	x10, w10, w11, x8
	ldr	q0, [x10]
	ldr	x11, [x10, #16]
	str	q0, [x19, #80]
	str	x11, [x19, #96]
	str	q1, [x10]
	str	x12, [x10, #16]
	b	.Lunix_path_BB82_43
.Lunix_path_BB82_41:
	b.eq	.Lunix_path_BB82_43
	mov	w11, #24
	ldr	q0, [x19, #80]
	smaddl	x10, w10, w11, x8
	ldr	x11, [x19, #96]
	ldr	q1, [x10]
	ldr	x12, [x10, #16]
	str	q0, [x10]
	str	x11, [x10, #16]
	str	q1, [x19, #80]
	str	x12, [x19, #96]
.Lunix_path_BB82_43:
	cmp	x9, #3
	b.eq	.Lunix_path_BB82_58
	sub	x10, x20, #5
	cmp	x10, #4
	b.ls	.Lunix_path_BB82_46
	mov	w11, #24
	ldur	q1, [x19, #104]
	ldr	x12, [x19, #120]
	smaddl	x10, w10, w11, x8
	ldr	q0, [x10]
	ldr	x11, [x10, #16]
	stur	q0, [x19, #104]
	str	x11, [x19, #120]
	str	q1, [x10]
	str	x12, [x10, #16]
	b	.Lunix_path_BB82_48
.Lunix_path_BB82_46:
	b.eq	.Lunix_path_BB82_48
	mov	w11, #24
	ldur	q0, [x19, #104]
	smaddl	x10, w10, w11, x8
	ldr	x11, [x19, #120]
	ldr	q1, [x10]
	ldr	x12, [x10, #16]
	str	q0, [x10]
	str	x11, [x10, #16]
	stur	q1, [x19, #104]
	str	x12, [x19, #120]
.Lunix_path_BB82_48:
	cmp	x9, #4
	b.eq	.Lunix_path_BB82_58
	sub	x10, x20, #6
	cmp	x10, #5
	b.ls	.Lunix_path_BB82_51
	mov	w11, #24
	ldr	q1, [x19, #128]
	ldr	x12, [x19, #144]
	smaddl	x10, w10, w11, x8
	ldr	q0, [x10]
	ldr	x11, [x10, #16]
	str	q0, [x19, #128]
	str	x11, [x19, #144]
	str	q1, [x10]
	str	x12, [x10, #16]
	b	.Lunix_path_BB82_53
.Lunix_path_BB82_51:
	b.eq	.Lunix_path_BB82_53
	mov	w11, #24
	ldr	q0, [x19, #128]
	smaddl	x10, w10, w11, x8
	ldr	x11, [x19, #144]
	ldr	q1, [x10]
	ldr	x12, [x10, #16]
	str	q0, [x10]
	str	x11, [x10, #16]
	str	q1, [x19, #128]
	str	x12, [x19, #144]
.Lunix_path_BB82_53:
	cmp	x9, #5
	b.eq	.Lunix_path_BB82_58
	sub	x9, x20, #7
	cmp	x9, #6
	b.ls	.Lunix_path_BB82_56
	mov	w10, #24
	ldur	q1, [x19, #152]
	smaddl	x8, w9, w10, x8
	ldr	x10, [x19, #168]
	ldr	q0, [x8]
	ldr	x9, [x8, #16]
	stur	q0, [x19, #152]
	str	x9, [x19, #168]
	str	q1, [x8]
	str	x10, [x8, #16]
	b	.Lunix_path_BB82_58
.Lunix_path_BB82_56:
	b.eq	.Lunix_path_BB82_58
	mov	w10, #24
	ldur	q0, [x19, #152]
	smaddl	x8, w9, w10, x8
	ldr	x9, [x19, #168]
	ldr	q1, [x8]
	ldr	x10, [x8, #16]
	str	q0, [x8]
	str	x9, [x8, #16]
	stur	q1, [x19, #152]
	str	x10, [x19, #168]
.Lunix_path_BB82_58:
	cbz	w20, .Lunix_path_BB82_63
.Lunix_path_BB82_59:
	mov	w8, #24
	umaddl	x21, w20, w8, x19
	b	.Lunix_path_BB82_61
.Lunix_path_BB82_60:
	sub	x20, x20, #1
	sub	x21, x21, #24
	cbz	x20, .Lunix_path_BB82_63
.Lunix_path_BB82_61:
	ldr	x8, [x21]
	cbz	x8, .Lunix_path_BB82_60
	ldur	x0, [x21, #-16]
	bl	rattle_dealloc
	b	.Lunix_path_BB82_60
.Lunix_path_BB82_63:
	mov	x0, x19
	ldp	x20, x19, [sp, #144]
	ldr	x21, [sp, #128]
	ldp	x29, x30, [sp, #112]
	add	sp, sp, #160
	b	rattle_dealloc
.Lunix_path_func_end82:
	.size	std_collections.btree.node.Node.destroy.793632148a6f265d., .Lunix_path_func_end82-std_collections.btree.node.Node.destroy.793632148a6f265d.
	.section	.text.core.slice.edits.mirror.23.unix_path.buf.PathBuf.,"ax",@progbits
	.p2align	2
	.type	core.slice.edits.mirror.23.unix_path.buf.PathBuf.,@function
// core::slice::edits::mirror::<23'unix_path::buf::PathBuf>
core.slice.edits.mirror.23.unix_path.buf.PathBuf.:
	sub	sp, sp, #32
	mov	w8, #24
	madd	x8, x2, x8, x1
	sub	x8, x8, #24
.Lunix_path_BB83_1:
	ldr	q0, [x8]
	ldr	x9, [x8, #16]
	sub	x2, x2, #1
	ldr	q1, [x0]
	ldr	x10, [x0, #16]
	str	q0, [x0]
	str	x9, [x0, #16]
	add	x0, x0, #24
	str	q1, [x8]
	str	x10, [x8, #16]
	sub	x8, x8, #24
	cbnz	x2, .Lunix_path_BB83_1
	add	sp, sp, #32
	ret
.Lunix_path_func_end83:
	.size	core.slice.edits.mirror.23.unix_path.buf.PathBuf., .Lunix_path_func_end83-core.slice.edits.mirror.23.unix_path.buf.PathBuf.
	.section	.rodata.cst16,"aM",@progbits,16
	.p2align	4, 0x0
.Lunix_path_CPI84_0:
	.byte	1
	.byte	2
	.byte	4
	.byte	8
	.byte	16
	.byte	32
	.byte	64
	.byte	128
	.byte	1
	.byte	2
	.byte	4
	.byte	8
	.byte	16
	.byte	32
	.byte	64
	.byte	128
	.section	.text.upath_commands.engine.answer_records.3596f8ae3b0ff399.,"ax",@progbits
	.p2align	2
	.type	upath_commands.engine.answer_records.3596f8ae3b0ff399.,@function
// upath_commands::engine::answer_records::<#3596f8ae3b0ff399>
upath_commands.engine.answer_records.3596f8ae3b0ff399.:
	sub	sp, sp, #144
	stp	x29, x30, [sp, #48]
	add	x29, sp, #48
	ldrb	w9, [x0, #1]
	add	x8, x29, #24
	stp	x24, x23, [sp, #96]
	stp	x8, xzr, [sp, #24]
	tst	w9, #0x1
	mov	w8, #10
	stp	x22, x21, [sp, #112]
	mov	x21, x0
	csel	w24, wzr, w8, ne
	stp	x20, x19, [sp, #128]
	mov	x19, x4
	mov	x20, x1
	str	x27, [sp, #64]
	stp	x26, x25, [sp, #80]
	str	xzr, [sp, #40]
	cbz	x3, .Lunix_path_BB84_19
	dup	v2.16b, w24
	mov	x22, x3
	mov	x23, x2
	mov	x3, xzr
	mov	x25, xzr
	add	x8, x29, #24
	str	q2, [sp]
	b	.Lunix_path_BB84_5
.Lunix_path_BB84_2:
	ldr	q0, [x26, x9]
	ldr	q1, [x10, :lo12:.Lunix_path_CPI84_0]
	cmeq	v0.16b, v0.16b, v2.16b
	and	v0.16b, v0.16b, v1.16b
	addp	v0.16b, v0.16b, v0.16b
	addp	v0.16b, v0.16b, v0.16b
	addp	v0.16b, v0.16b, v0.16b
	umov	w10, v0.h[0]
	orr	w10, w10, #0x10000
	rbit	w10, w10
	clz	w10, w10
	add	x27, x9, x10
.Lunix_path_BB84_3:
	ldr	x9, [sp, #40]
	cmp	x9, x3
	b.eq	.Lunix_path_BB84_15
.Lunix_path_BB84_4:
	add	x10, x27, x25
	add	x9, x8, x3, lsl #4
	add	x3, x3, #1
	cmp	x10, x22
	cinc	x25, x10, lo
	stp	x26, x27, [x9]
	cmp	x25, x22
	str	x3, [sp, #32]
	b.hs	.Lunix_path_BB84_17
.Lunix_path_BB84_5:
	sub	x9, x22, x25
	add	x26, x23, x25
	cmp	x9, #15
	b.hi	.Lunix_path_BB84_10
	mov	x27, xzr
.Lunix_path_BB84_7:
	ldrb	w10, [x26, x27]
	cmp	w10, w24
	b.eq	.Lunix_path_BB84_3
	add	x27, x27, #1
	cmp	x9, x27
	b.ne	.Lunix_path_BB84_7
	sub	x27, x22, x25
	b	.Lunix_path_BB84_3
.Lunix_path_BB84_10:
	subs	x9, x9, #16
	adrp	x10, .Lunix_path_CPI84_0
	b.eq	.Lunix_path_BB84_2
	mov	x11, xzr
.Lunix_path_BB84_12:
	ldr	q0, [x26, x11]
	ldr	q1, [x10, :lo12:.Lunix_path_CPI84_0]
	cmeq	v0.16b, v0.16b, v2.16b
	and	v0.16b, v0.16b, v1.16b
	addp	v0.16b, v0.16b, v0.16b
	addp	v0.16b, v0.16b, v0.16b
	addp	v0.16b, v0.16b, v0.16b
	umov	w12, v0.h[0]
	orr	w12, w12, #0x10000
	rbit	w12, w12
	clz	w12, w12
	cmp	w12, #15
	b.ls	.Lunix_path_BB84_14
	add	x11, x11, #16
	cmp	x11, x9
	b.lo	.Lunix_path_BB84_12
	b	.Lunix_path_BB84_2
.Lunix_path_BB84_14:
	add	x27, x11, w12, uxtw
	b	.Lunix_path_BB84_3
.Lunix_path_BB84_15:
	add	x0, sp, #24
	mov	w1, #1
	bl	std_alloc.vec.Vec.grow_amortized.a60b1bb647f5ec87.
	cbz	w0, .Lunix_path_BB84_21
	ldp	x8, x3, [sp, #24]
	ldr	q2, [sp]
	b	.Lunix_path_BB84_4
.Lunix_path_BB84_17:
	ldr	x22, [sp, #24]
	ldr	x23, [sp, #40]
	mov	x0, x21
	mov	x1, x20
	mov	x4, x19
	mov	x2, x22
	bl	upath_commands.engine.answer_paths.3596f8ae3b0ff399.
	cbz	x23, .Lunix_path_BB84_20
	mov	w19, w0
	mov	x0, x22
	mov	w20, w1
	bl	rattle_dealloc
	mov	w1, w20
	mov	w0, w19
	b	.Lunix_path_BB84_20
.Lunix_path_BB84_19:
	add	x2, x29, #24
	mov	x0, x21
	mov	x1, x20
	mov	x4, x19
	bl	upath_commands.engine.answer_paths.3596f8ae3b0ff399.
.Lunix_path_BB84_20:
	ldp	x20, x19, [sp, #128]
	ldr	x27, [sp, #64]
	ldp	x22, x21, [sp, #112]
	ldp	x24, x23, [sp, #96]
	ldp	x26, x25, [sp, #80]
	ldp	x29, x30, [sp, #48]
	add	sp, sp, #144
	ret
.Lunix_path_BB84_21:
	ldr	x8, [sp, #40]
	cbz	x8, .Lunix_path_BB84_23
	ldr	x0, [sp, #24]
	bl	rattle_dealloc
.Lunix_path_BB84_23:
	mov	w0, #1
	mov	w1, #3
	b	.Lunix_path_BB84_20
.Lunix_path_func_end84:
	.size	upath_commands.engine.answer_records.3596f8ae3b0ff399., .Lunix_path_func_end84-upath_commands.engine.answer_records.3596f8ae3b0ff399.
	.section	.rodata.cst8,"aM",@progbits,8
	.p2align	3, 0x0
.Lunix_path_CPI85_0:
	.byte	117
	.byte	112
	.byte	97
	.byte	116
	.zero	1
	.zero	1
	.zero	1
	.zero	1
.Lunix_path_CPI85_2:
	.byte	108
	.byte	112
	.byte	39
	.byte	46
	.zero	1
	.zero	1
	.zero	1
	.zero	1
	.section	.rodata.cst16,"aM",@progbits,16
	.p2align	4, 0x0
.Lunix_path_CPI85_1:
	.byte	10
	.byte	84
	.byte	114
	.byte	121
	.byte	32
	.byte	39
	.byte	117
	.byte	112
	.byte	97
	.byte	116
	.byte	104
	.byte	32
	.byte	45
	.byte	45
	.byte	104
	.byte	101
	.section	.text.unlikely.upath_commands.runs.refuse.3596f8ae3b0ff399.,"ax",@progbits
	.p2align	2
	.type	upath_commands.runs.refuse.3596f8ae3b0ff399.,@function
// upath_commands::runs::refuse::<#3596f8ae3b0ff399>
upath_commands.runs.refuse.3596f8ae3b0ff399.:
	sub	sp, sp, #112
	stp	x29, x30, [sp, #32]
	add	x29, sp, #32
	stp	x22, x21, [sp, #80]
	ldp	x21, x22, [x0, #8]
	str	x25, [sp, #48]
	ldrb	w25, [x0]
	add	x8, x29, #31
	stp	x20, x19, [sp, #96]
	mov	x19, x1
	add	x0, sp, #8
	mov	w1, #7
	stp	x24, x23, [sp, #64]
	add	x23, sp, #8
	stp	xzr, xzr, [sp, #16]
	str	x8, [sp, #8]
	bl	std_alloc.vec.Vec.grow_amortized.f4a78633ca2a48c6.
	cbz	w0, .Lunix_path_BB85_10
	ldp	x20, x8, [sp, #8]
	adrp	x10, .Lunix_path_static.65
	add	x10, x10, :lo12:.Lunix_path_static.65
	add	x9, x20, x8
	add	x8, x8, #7
	sub	x10, x9, x10
	cmp	x10, #6
	b.hi	.Lunix_path_BB85_3
	adrp	x10, .Lunix_path_CPI85_0
	mov	w11, #14952
	ldr	d0, [x10, :lo12:.Lunix_path_CPI85_0]
	mov	w10, #32
	strh	w11, [x9, #4]
	strb	w10, [x9, #6]
	str	s0, [x9]
	sub	w9, w25, #4
	ldr	x24, [sp, #24]
	str	x8, [sp, #16]
	cmp	w9, #11
	b.lo	.Lunix_path_BB85_9
	b	.Lunix_path_BB85_4
.Lunix_path_BB85_3:
	mov	w10, #26740
	mov	w11, #28789
	movk	w10, #8250, lsl #16
	movk	w11, #29793, lsl #16
	stur	w10, [x9, #3]
	str	w11, [x9]
	sub	w9, w25, #4
	ldr	x24, [sp, #24]
	str	x8, [sp, #16]
	cmp	w9, #11
	b.lo	.Lunix_path_BB85_9
.Lunix_path_BB85_4:
	sub	w9, w25, #1
	cmp	w9, #2
	b.lo	.Lunix_path_BB85_9
	cbnz	w25, .Lunix_path_BB85_7
	mov	w21, wzr
	adrp	x1, .Lunix_path_static.108
	add	x1, x1, :lo12:.Lunix_path_static.108
	mov	w2, #18
	b	.Lunix_path_BB85_28
.Lunix_path_BB85_7:
	cmp	x24, x8
	b.eq	.Lunix_path_BB85_58
.Lunix_path_BB85_8:
	mov	w9, #45
	strb	w9, [x20, x8]
	add	x8, x8, #1
	str	x8, [sp, #16]
.Lunix_path_BB85_9:
	add	x2, sp, #8
	mov	x0, x21
	mov	x1, x22
	bl	upath_commands.shown.push_shown
	and	w8, w0, #0xff
	tbz	w8, #0, .Lunix_path_BB85_13
.Lunix_path_BB85_10:
	ldr	x8, [sp, #24]
	cbz	x8, .Lunix_path_BB85_12
	ldr	x0, [sp, #8]
	bl	rattle_dealloc
.Lunix_path_BB85_12:
	adrp	x1, .Lunix_path_static.106
	add	x1, x1, :lo12:.Lunix_path_static.106
	add	x0, x19, #40
	mov	w2, #21
	bl	upath_commands.messages.send.5821a58b74a7d609.
	mov	w1, #3
	mov	w0, #1
	b	.Lunix_path_BB85_53
.Lunix_path_BB85_13:
	ldp	x8, x24, [sp, #16]
	sub	x9, x24, x8
	cmp	x9, #1
	b.ls	.Lunix_path_BB85_56
.Lunix_path_BB85_14:
	ldr	x20, [sp, #8]
	adrp	x10, .Lunix_path_static.66
	add	x10, x10, :lo12:.Lunix_path_static.66
	adrp	x1, .Lunix_path_static.109
	add	x1, x1, :lo12:.Lunix_path_static.109
	mov	w21, #1
	add	x9, x20, x8
	add	x8, x8, #2
	mov	w2, #15
	sub	x10, x9, x10
	stp	x8, x24, [sp, #16]
	cmp	x10, #1
	mov	w10, #8250
	strh	w10, [x9]
	sub	w9, w25, #1
	adrp	x10, .Lunix_path_JTI85_0
	add	x10, x10, :lo12:.Lunix_path_JTI85_0
	adr	x11, .Lunix_path_BB85_15
	ldrb	w12, [x10, x9]
	add	x11, x11, x12, lsl #2
	br	x11
.Lunix_path_BB85_15:
	adrp	x1, .Lunix_path_static.110
	add	x1, x1, :lo12:.Lunix_path_static.110
	mov	w2, #14
	b	.Lunix_path_BB85_28
.Lunix_path_BB85_16:
	mov	w21, wzr
	adrp	x1, .Lunix_path_static.119
	add	x1, x1, :lo12:.Lunix_path_static.119
	mov	w2, #20
	b	.Lunix_path_BB85_28
.Lunix_path_BB85_17:
	mov	w21, wzr
	adrp	x1, .Lunix_path_static.112
	add	x1, x1, :lo12:.Lunix_path_static.112
	mov	w2, #20
	b	.Lunix_path_BB85_28
.Lunix_path_BB85_18:
	adrp	x1, .Lunix_path_static.120
	add	x1, x1, :lo12:.Lunix_path_static.120
	b	.Lunix_path_BB85_27
.Lunix_path_BB85_19:
	mov	w21, wzr
	adrp	x1, .Lunix_path_static.117
	add	x1, x1, :lo12:.Lunix_path_static.117
	mov	w2, #21
	b	.Lunix_path_BB85_28
.Lunix_path_BB85_20:
	mov	w21, wzr
	adrp	x1, .Lunix_path_static.111
	add	x1, x1, :lo12:.Lunix_path_static.111
	mov	w2, #48
	b	.Lunix_path_BB85_28
.Lunix_path_BB85_21:
	adrp	x1, .Lunix_path_static.115
	add	x1, x1, :lo12:.Lunix_path_static.115
	b	.Lunix_path_BB85_27
.Lunix_path_BB85_22:
	adrp	x1, .Lunix_path_static.113
	add	x1, x1, :lo12:.Lunix_path_static.113
	mov	w2, #14
	b	.Lunix_path_BB85_28
.Lunix_path_BB85_23:
	mov	w21, wzr
	adrp	x1, .Lunix_path_static.101
	add	x1, x1, :lo12:.Lunix_path_static.101
	mov	w2, #29
	b	.Lunix_path_BB85_28
.Lunix_path_BB85_24:
	mov	w21, wzr
	adrp	x1, .Lunix_path_static.114
	add	x1, x1, :lo12:.Lunix_path_static.114
	mov	w2, #55
	b	.Lunix_path_BB85_28
.Lunix_path_BB85_25:
	mov	w21, wzr
	adrp	x1, .Lunix_path_static.118
	add	x1, x1, :lo12:.Lunix_path_static.118
	mov	w2, #17
	b	.Lunix_path_BB85_28
.Lunix_path_BB85_26:
	adrp	x1, .Lunix_path_static.116
	add	x1, x1, :lo12:.Lunix_path_static.116
.Lunix_path_BB85_27:
	mov	w2, #15
.Lunix_path_BB85_28:
	sub	x9, x24, x8
	cmp	x2, x9
	b.hi	.Lunix_path_BB85_43
	add	x0, x20, x8
	add	x22, x8, x2
	sub	x9, x0, x1
	cmp	x9, x2
	b.hs	.Lunix_path_BB85_45
.Lunix_path_BB85_30:
	add	x9, x8, x20
	sub	x9, x9, x1
	cmp	x9, #16
	b.hs	.Lunix_path_BB85_32
	mov	x9, xzr
	b	.Lunix_path_BB85_41
.Lunix_path_BB85_32:
	tbz	w21, #0, .Lunix_path_BB85_34
	mov	x9, xzr
	b	.Lunix_path_BB85_38
.Lunix_path_BB85_34:
	and	x10, x2, #0xc
	and	x9, x2, #0x30
	mov	x11, x1
	and	x12, x2, #0x30
.Lunix_path_BB85_35:
	ldr	q0, [x11], #16
	subs	x12, x12, #16
	str	q0, [x0], #16
	b.ne	.Lunix_path_BB85_35
	cmp	x2, x9
	b.eq	.Lunix_path_BB85_46
	cbz	x10, .Lunix_path_BB85_41
.Lunix_path_BB85_38:
	mov	x11, x9
	and	x9, x2, #0x3c
	add	x12, x8, x11
	sub	x10, x11, x9
	add	x11, x1, x11
	add	x12, x20, x12
.Lunix_path_BB85_39:
	ldr	w13, [x11], #4
	adds	x10, x10, #4
	str	w13, [x12], #4
	b.ne	.Lunix_path_BB85_39
	cmp	x2, x9
	b.eq	.Lunix_path_BB85_46
.Lunix_path_BB85_41:
	add	x10, x9, x8
	sub	x8, x2, x9
	add	x9, x1, x9
	add	x10, x20, x10
.Lunix_path_BB85_42:
	ldrb	w11, [x9], #1
	subs	x8, x8, #1
	strb	w11, [x10], #1
	b.ne	.Lunix_path_BB85_42
	b	.Lunix_path_BB85_46
.Lunix_path_BB85_43:
	mov	x22, x1
	add	x0, sp, #8
	mov	x1, x2
	mov	x25, x2
	bl	std_alloc.vec.Vec.grow_amortized.f4a78633ca2a48c6.
	cbz	w0, .Lunix_path_BB85_10
	ldp	x8, x24, [sp, #16]
	mov	x1, x22
	ldr	x20, [sp, #8]
	mov	x2, x25
	add	x0, x20, x8
	add	x22, x8, x25
	sub	x9, x0, x1
	cmp	x9, x25
	b.lo	.Lunix_path_BB85_30
.Lunix_path_BB85_45:
	bl	memmove
.Lunix_path_BB85_46:
	sub	x8, x24, x22
	stp	x20, x22, [sp, #8]
	cmp	x8, #20
	str	x24, [sp, #24]
	b.ls	.Lunix_path_BB85_54
.Lunix_path_BB85_47:
	add	x8, x20, x22
	adrp	x9, .Lunix_path_static.107
	add	x9, x9, :lo12:.Lunix_path_static.107
	sub	x10, x8, x9
	add	x2, x22, #21
	stp	xzr, xzr, [x23, #8]
	cmp	x10, #20
	b.hi	.Lunix_path_BB85_49
	adrp	x9, .Lunix_path_CPI85_1
	adrp	x10, .Lunix_path_CPI85_2
	ldr	q0, [x9, :lo12:.Lunix_path_CPI85_1]
	ldr	d1, [x10, :lo12:.Lunix_path_CPI85_2]
	mov	w9, #10
	strb	w9, [x8, #20]
	str	q0, [x8]
	str	s1, [x8, #16]
	b	.Lunix_path_BB85_50
.Lunix_path_BB85_49:
	ldr	q0, [x9]
	ldur	x9, [x9, #13]
	str	q0, [x8]
	stur	x9, [x8, #13]
.Lunix_path_BB85_50:
	add	x0, x19, #40
	mov	x1, x20
	stp	x20, x2, [sp, #8]
	str	x24, [sp, #24]
	bl	upath_commands.messages.send.5821a58b74a7d609.
	ldr	x8, [sp, #24]
	cbz	x8, .Lunix_path_BB85_52
	mov	x0, x20
	bl	rattle_dealloc
.Lunix_path_BB85_52:
	mov	w0, wzr
	mov	w1, #2
.Lunix_path_BB85_53:
	ldp	x20, x19, [sp, #96]
	ldr	x25, [sp, #48]
	ldp	x22, x21, [sp, #80]
	ldp	x24, x23, [sp, #64]
	ldp	x29, x30, [sp, #32]
	add	sp, sp, #112
	ret
.Lunix_path_BB85_54:
	add	x0, sp, #8
	mov	w1, #21
	bl	std_alloc.vec.Vec.grow_amortized.f4a78633ca2a48c6.
	cbz	w0, .Lunix_path_BB85_10
	ldp	x22, x24, [sp, #16]
	ldr	x20, [sp, #8]
	b	.Lunix_path_BB85_47
.Lunix_path_BB85_56:
	add	x0, sp, #8
	mov	w1, #2
	bl	std_alloc.vec.Vec.grow_amortized.f4a78633ca2a48c6.
	cbz	w0, .Lunix_path_BB85_10
	ldp	x8, x24, [sp, #16]
	b	.Lunix_path_BB85_14
.Lunix_path_BB85_58:
	add	x0, sp, #8
	mov	w1, #1
	bl	std_alloc.vec.Vec.grow_amortized.f4a78633ca2a48c6.
	cbz	w0, .Lunix_path_BB85_10
	ldp	x20, x8, [sp, #8]
	b	.Lunix_path_BB85_8
.Lunix_path_func_end85:
	.size	upath_commands.runs.refuse.3596f8ae3b0ff399., .Lunix_path_func_end85-upath_commands.runs.refuse.3596f8ae3b0ff399.
	.section	.rodata.unlikely.upath_commands.runs.refuse.3596f8ae3b0ff399.,"a",@progbits
.Lunix_path_JTI85_0:
	.byte	(.Lunix_path_BB85_28-.Lunix_path_BB85_15)>>2
	.byte	(.Lunix_path_BB85_15-.Lunix_path_BB85_15)>>2
	.byte	(.Lunix_path_BB85_15-.Lunix_path_BB85_15)>>2
	.byte	(.Lunix_path_BB85_20-.Lunix_path_BB85_15)>>2
	.byte	(.Lunix_path_BB85_17-.Lunix_path_BB85_15)>>2
	.byte	(.Lunix_path_BB85_22-.Lunix_path_BB85_15)>>2
	.byte	(.Lunix_path_BB85_24-.Lunix_path_BB85_15)>>2
	.byte	(.Lunix_path_BB85_21-.Lunix_path_BB85_15)>>2
	.byte	(.Lunix_path_BB85_26-.Lunix_path_BB85_15)>>2
	.byte	(.Lunix_path_BB85_19-.Lunix_path_BB85_15)>>2
	.byte	(.Lunix_path_BB85_25-.Lunix_path_BB85_15)>>2
	.byte	(.Lunix_path_BB85_16-.Lunix_path_BB85_15)>>2
	.byte	(.Lunix_path_BB85_18-.Lunix_path_BB85_15)>>2
	.byte	(.Lunix_path_BB85_23-.Lunix_path_BB85_15)>>2
	.section	.rodata.cst16,"aM",@progbits,16
	.p2align	4, 0x0
.Lunix_path_CPI86_0:
	.xword	8458358670138239095
	.xword	3327647951695996518
.Lunix_path_CPI86_1:
	.xword	8367798494427701606
	.xword	2334399978102268015
	.section	.rodata.cst8,"aM",@progbits,8
	.p2align	3, 0x0
.Lunix_path_CPI86_2:
	.hword	2
	.hword	23
	.hword	28
	.hword	0
.Lunix_path_CPI86_3:
	.hword	0
	.hword	35
	.hword	0
	.hword	0
	.section	.text.std_io.io.buffer.Buffer.flush,"ax",@progbits
	.p2align	2
	.type	std_io.io.buffer.Buffer.flush,@function
// std_io::io::buffer::Buffer::flush
std_io.io.buffer.Buffer.flush:
	sub	sp, sp, #224
	stp	x22, x21, [sp, #192]
	ldr	x22, [x0, #1032]
	stp	x29, x30, [sp, #144]
	add	x29, sp, #144
	cmp	x22, #1025
	str	x25, [sp, #160]
	stp	x24, x23, [sp, #176]
	stp	x20, x19, [sp, #208]
	str	xzr, [x0, #1032]
	b.lo	.Lunix_path_BB86_2
	mov	w0, wzr
	b	.Lunix_path_BB86_15
.Lunix_path_BB86_2:
	mov	x24, x0
	mov	x19, x0
	mov	x23, xzr
	ldr	w20, [x24], #4
	add	x25, x22, #64
	b	.Lunix_path_BB86_5
.Lunix_path_BB86_3:
	bl	rattle_errno
	cmp	w0, #4
	b.ne	.Lunix_path_BB86_13
	subs	x25, x25, #1
	b.eq	.Lunix_path_BB86_9
.Lunix_path_BB86_5:
	subs	x21, x22, x23
	b.ls	.Lunix_path_BB86_11
	add	x1, x24, x23
	mov	w0, w20
	mov	x2, x21
	bl	write
	tbnz	x0, #63, .Lunix_path_BB86_3
	cbz	x0, .Lunix_path_BB86_12
	cmp	x0, x21
	csel	x8, x0, x21, lo
	add	x23, x8, x23
	subs	x25, x25, #1
	b.ne	.Lunix_path_BB86_5
.Lunix_path_BB86_9:
	cmp	x22, x23
	b.ls	.Lunix_path_BB86_11
	movi	v0.2d, #0000000000000000
	movi	v1.2d, #0000000000000000
	adrp	x8, .Lunix_path_CPI86_3
	ldr	d2, [x8, :lo12:.Lunix_path_CPI86_3]
	mov	w8, #4
	stp	q0, q0, [sp, #16]
	str	q0, [sp]
	b	.Lunix_path_BB86_14
.Lunix_path_BB86_11:
	mov	w0, #1
	b	.Lunix_path_BB86_15
.Lunix_path_BB86_12:
	movi	v3.16b, #46
	adrp	x9, .Lunix_path_CPI86_0
	adrp	x10, .Lunix_path_CPI86_1
	adrp	x11, .Lunix_path_CPI86_2
	ldr	q1, [x9, :lo12:.Lunix_path_CPI86_0]
	ldr	q0, [x10, :lo12:.Lunix_path_CPI86_1]
	ldr	d2, [x11, :lo12:.Lunix_path_CPI86_2]
	mov	w8, wzr
	stp	q3, q3, [sp, #16]
	str	q3, [sp]
	b	.Lunix_path_BB86_14
.Lunix_path_BB86_13:
	mov	w1, w0
	add	x0, sp, #56
	bl	std_io.io.error.Error.from_raw_os_error
	ldp	q1, q3, [sp, #96]
	ldr	s0, [sp, #56]
	ldur	q4, [sp, #128]
	ldr	w8, [sp, #60]
	ushll	v2.8h, v0.8b, #0
	stp	q1, q3, [sp]
	ldp	q0, q1, [sp, #64]
	str	q4, [sp, #32]
.Lunix_path_BB86_14:
	uzp1	v2.8b, v2.8b, v0.8b
	str	q0, [x19, #1056]
	mov	w0, wzr
	str	q1, [x19, #1072]
	ldp	q0, q1, [sp]
	str	w8, [x19, #1052]
	mov	w8, #1
	str	x8, [x19, #1040]
	str	q0, [x19, #1088]
	ldr	q0, [sp, #32]
	str	s2, [x19, #1048]
	str	q1, [x19, #1104]
	str	q0, [x19, #1120]
.Lunix_path_BB86_15:
	ldp	x20, x19, [sp, #208]
	ldr	x25, [sp, #160]
	ldp	x22, x21, [sp, #192]
	ldp	x24, x23, [sp, #176]
	ldp	x29, x30, [sp, #144]
	add	sp, sp, #224
	ret
.Lunix_path_func_end86:
	.size	std_io.io.buffer.Buffer.flush, .Lunix_path_func_end86-std_io.io.buffer.Buffer.flush
	.section	.rodata.cst16,"aM",@progbits,16
	.p2align	4, 0x0
.Lunix_path_CPI87_0:
	.byte	117
	.byte	112
	.byte	97
	.byte	116
	.byte	104
	.byte	58
	.byte	32
	.byte	111
	.byte	117
	.byte	116
	.byte	32
	.byte	111
	.byte	102
	.byte	32
	.byte	109
	.byte	101
	.section	.rodata.cst8,"aM",@progbits,8
	.p2align	3, 0x0
.Lunix_path_CPI87_1:
	.byte	109
	.byte	111
	.byte	114
	.byte	121
	.zero	1
	.zero	1
	.zero	1
	.zero	1
	.section	.text.main,"ax",@progbits
	.globl	program_main
	.p2align	2
	.type	program_main,@function
program_main:
	stp	x29, x30, [sp, #-96]!
	stp	x28, x27, [sp, #16]
	mov	x29, sp
	stp	x26, x25, [sp, #32]
	stp	x24, x23, [sp, #48]
	stp	x22, x21, [sp, #64]
	stp	x20, x19, [sp, #80]
	sub	sp, sp, #3072
	str	xzr, [sp]
	sub	sp, sp, #3072
	str	xzr, [sp]
	sub	sp, sp, #2240
	mov	w0, #13
	mov	w1, #1
	str	xzr, [sp]
	mov	w20, #1
	bl	__sysv_signal
	sub	x24, x29, #16
	add	x25, sp, #144
	stp	xzr, xzr, [sp, #72]
	str	x24, [sp, #64]
.Lunix_path_BB87_1:
	mov	x19, xzr
	mov	x23, xzr
	sub	x21, x29, #16
	str	x24, [sp, #144]
	stp	xzr, xzr, [x25, #8]
.Lunix_path_BB87_2:
	mov	w8, #256
	lsl	x8, x8, x23
	subs	x2, x8, x19
	b.ls	.Lunix_path_BB87_7
	ldr	x22, [sp, #160]
	sub	x8, x22, x19
	cmp	x2, x8
	b.hi	.Lunix_path_BB87_12
	add	x26, x19, x2
	ldr	x21, [sp, #144]
	cmp	x19, x26
	b.hs	.Lunix_path_BB87_6
.Lunix_path_BB87_5:
	add	x0, x21, x19
	mov	w1, wzr
	bl	memset
.Lunix_path_BB87_6:
	mov	x19, x26
	stp	x26, x22, [sp, #152]
	b	.Lunix_path_BB87_10
.Lunix_path_BB87_7:
	b.hs	.Lunix_path_BB87_9
	str	x8, [sp, #152]
	mov	x19, x8
	b	.Lunix_path_BB87_10
.Lunix_path_BB87_9:
	ldr	x19, [sp, #152]
.Lunix_path_BB87_10:
	mov	x0, x20
	mov	x1, x21
	mov	x2, x19
	bl	rattle_arg
	mov	w8, #36
	cmn	x0, #1
	mov	w9, #22
	csel	w8, w9, w8, eq
	mov	x22, x0
	csel	w0, wzr, w8, gt
	bl	rattle_set_errno
	bl	rattle_errno
	cmp	w0, #36
	b.ne	.Lunix_path_BB87_14
	add	x23, x23, #1
	cmp	x23, #32
	b.ne	.Lunix_path_BB87_2
	b	.Lunix_path_BB87_31
.Lunix_path_BB87_12:
	add	x0, sp, #144
	mov	x1, x2
	mov	x21, x2
	bl	std_alloc.vec.Vec.grow_amortized.482225946d19deb9.
	cbz	w0, .Lunix_path_BB87_31
	ldp	x19, x22, [sp, #152]
	mov	x2, x21
	add	x26, x19, x21
	ldr	x21, [sp, #144]
	cmp	x19, x26
	b.lo	.Lunix_path_BB87_5
	b	.Lunix_path_BB87_6
.Lunix_path_BB87_14:
	cbnz	w0, .Lunix_path_BB87_19
	cmp	x22, x19
	ldp	x21, x10, [sp, #144]
	csel	x8, x22, x19, lo
	cmp	x22, #0
	ldr	x22, [sp, #160]
	csel	x9, x8, xzr, gt
	ldp	x8, x11, [sp, #72]
	cmp	x19, x9
	csel	x23, x9, x10, hi
	cmp	x11, x8
	b.eq	.Lunix_path_BB87_17
.Lunix_path_BB87_16:
	mov	w9, #24
	ldr	x19, [sp, #64]
	add	x20, x20, #1
	madd	x9, x8, x9, x19
	cmn	x20, #1
	stp	x21, x23, [x9]
	add	x23, x8, #1
	str	x22, [x9, #16]
	str	x23, [sp, #72]
	b.ne	.Lunix_path_BB87_1
	b	.Lunix_path_BB87_22
.Lunix_path_BB87_17:
	add	x0, sp, #64
	bl	std_alloc.vec.Vec.grow_amortized.22ca91936d612ecb.
	cbz	w0, .Lunix_path_BB87_57
	ldr	x8, [sp, #72]
	b	.Lunix_path_BB87_16
.Lunix_path_BB87_19:
	ldr	x8, [sp, #160]
	cbz	x8, .Lunix_path_BB87_21
	mov	x0, x21
	bl	rattle_dealloc
.Lunix_path_BB87_21:
	ldp	x19, x23, [sp, #64]
.Lunix_path_BB87_22:
	ldr	x24, [sp, #80]
	sub	x22, x29, #16
	stp	xzr, xzr, [sp, #152]
	str	x22, [sp, #144]
	cbz	x23, .Lunix_path_BB87_39
	mov	x20, xzr
	add	x21, x19, #8
	sub	x8, x29, #16
	mov	x26, x23
	b	.Lunix_path_BB87_26
.Lunix_path_BB87_24:
	ldp	x8, x20, [sp, #144]
.Lunix_path_BB87_25:
	add	x9, x8, x20, lsl #4
	add	x20, x20, #1
	subs	x26, x26, #1
	add	x21, x21, #24
	stp	x28, x27, [x9]
	str	x20, [sp, #152]
	b.eq	.Lunix_path_BB87_38
.Lunix_path_BB87_26:
	ldr	x9, [sp, #160]
	ldp	x28, x27, [x21, #-8]
	cmp	x9, x20
	b.ne	.Lunix_path_BB87_25
	add	x0, sp, #144
	mov	w1, #1
	bl	std_alloc.vec.Vec.grow_amortized.a60b1bb647f5ec87.
	cbnz	w0, .Lunix_path_BB87_24
	ldr	x8, [sp, #160]
	cbz	x8, .Lunix_path_BB87_30
	ldr	x0, [sp, #144]
	bl	rattle_dealloc
.Lunix_path_BB87_30:
	mov	w22, #1
	mov	w20, #4
	cbnz	x23, .Lunix_path_BB87_49
	b	.Lunix_path_BB87_53
.Lunix_path_BB87_31:
	ldr	x8, [sp, #160]
	cbz	x8, .Lunix_path_BB87_33
	ldr	x0, [sp, #144]
	bl	rattle_dealloc
.Lunix_path_BB87_33:
	ldp	x19, x20, [sp, #64]
	ldr	x21, [sp, #80]
	cbz	x20, .Lunix_path_BB87_64
	add	x22, x19, #16
	b	.Lunix_path_BB87_36
.Lunix_path_BB87_35:
	subs	x20, x20, #1
	add	x22, x22, #24
	b.eq	.Lunix_path_BB87_64
.Lunix_path_BB87_36:
	ldr	x8, [x22]
	cbz	x8, .Lunix_path_BB87_35
	ldur	x0, [x22, #-16]
	bl	rattle_dealloc
	b	.Lunix_path_BB87_35
.Lunix_path_BB87_38:
	ldr	x8, [sp, #160]
	ldr	x21, [sp, #144]
	mov	x26, x24
	mov	w24, #1
	cmp	x8, #0
	cset	w8, eq
	str	w8, [sp, #12]
	b	.Lunix_path_BB87_40
.Lunix_path_BB87_39:
	mov	w8, #1
	mov	x26, x24
	mov	w24, #1
	mov	x20, xzr
	str	w8, [sp, #12]
	sub	x21, x29, #16
.Lunix_path_BB87_40:
	mov	w0, wzr
	mov	x1, xzr
	mov	w2, #1
	bl	lseek
	lsr	x8, x0, #63
	mov	w1, wzr
	add	x0, sp, #144
	mov	w2, #8208
	mov	w28, #8208
	add	x25, sp, #144
	eor	w27, w8, #0x1
	bl	memset
	mov	w8, #8209
	mov	w9, #3244
	add	x2, sp, #16
	str	xzr, [x25, x8]
	adrp	x8, .Lunix_path_static.1
	add	x8, x8, :lo12:.Lunix_path_static.1
	stp	x8, x9, [sp, #16]
	adrp	x8, .Lunix_path_static.2
	add	x8, x8, :lo12:.Lunix_path_static.2
	mov	w9, #345
	add	x3, sp, #144
	add	x4, sp, #64
	stp	x8, x9, [sp, #32]
	adrp	x8, .Lunix_path_static.3
	add	x8, x8, :lo12:.Lunix_path_static.3
	mov	w9, #19
	mov	x0, x21
	mov	x1, x20
	strb	w27, [x25, x28]
	str	xzr, [sp, #8360]
	stp	x22, xzr, [sp, #64]
	stp	x22, xzr, [sp, #80]
	stp	xzr, xzr, [sp, #96]
	stp	xzr, xzr, [sp, #120]
	str	x22, [sp, #112]
	strb	w24, [sp, #136]
	stur	wzr, [sp, #137]
	str	wzr, [sp, #140]
	stp	x8, x9, [sp, #48]
	bl	upath_commands.runs.run_arguments.84bfbe5ddfee3cac.
	ldr	x8, [sp, #96]
	mov	w22, w0
	mov	w20, w1
	cbz	x8, .Lunix_path_BB87_42
	ldr	x0, [sp, #80]
	bl	rattle_dealloc
.Lunix_path_BB87_42:
	ldr	x8, [sp, #128]
	mov	x24, x26
	cbz	x8, .Lunix_path_BB87_44
	ldr	x0, [sp, #112]
	bl	rattle_dealloc
.Lunix_path_BB87_44:
	ldr	x8, [sp, #8336]
	ldr	x9, [sp, #8344]
	subs	x1, x8, x9
	b.ne	.Lunix_path_BB87_47
	ldr	w8, [sp, #12]
	tbz	w8, #0, .Lunix_path_BB87_48
.Lunix_path_BB87_46:
	cbnz	x23, .Lunix_path_BB87_49
	b	.Lunix_path_BB87_53
.Lunix_path_BB87_47:
	mov	w0, wzr
	mov	w2, #1
	bl	lseek
	ldr	w8, [sp, #12]
	tbnz	w8, #0, .Lunix_path_BB87_46
.Lunix_path_BB87_48:
	mov	x0, x21
	bl	rattle_dealloc
	cbz	x23, .Lunix_path_BB87_53
.Lunix_path_BB87_49:
	add	x21, x19, #16
	b	.Lunix_path_BB87_51
.Lunix_path_BB87_50:
	subs	x23, x23, #1
	add	x21, x21, #24
	b.eq	.Lunix_path_BB87_53
.Lunix_path_BB87_51:
	ldr	x8, [x21]
	cbz	x8, .Lunix_path_BB87_50
	ldur	x0, [x21, #-16]
	bl	rattle_dealloc
	b	.Lunix_path_BB87_50
.Lunix_path_BB87_53:
	cbz	x24, .Lunix_path_BB87_55
	mov	x0, x19
	bl	rattle_dealloc
.Lunix_path_BB87_55:
	tst	w22, #0xff
	b.eq	.Lunix_path_BB87_68
	and	w8, w20, #0xff
	cmp	w8, #4
	b.ne	.Lunix_path_BB87_67
	b	.Lunix_path_BB87_66
.Lunix_path_BB87_57:
	cbz	x22, .Lunix_path_BB87_59
	mov	x0, x21
	bl	rattle_dealloc
.Lunix_path_BB87_59:
	ldp	x19, x20, [sp, #64]
	ldr	x21, [sp, #80]
	cbz	x20, .Lunix_path_BB87_64
	add	x22, x19, #16
	b	.Lunix_path_BB87_62
.Lunix_path_BB87_61:
	subs	x20, x20, #1
	add	x22, x22, #24
	b.eq	.Lunix_path_BB87_64
.Lunix_path_BB87_62:
	ldr	x8, [x22]
	cbz	x8, .Lunix_path_BB87_61
	ldur	x0, [x22, #-16]
	bl	rattle_dealloc
	b	.Lunix_path_BB87_61
.Lunix_path_BB87_64:
	cbz	x21, .Lunix_path_BB87_66
	mov	x0, x19
	bl	rattle_dealloc
.Lunix_path_BB87_66:
	adrp	x8, .Lunix_path_CPI87_0
	adrp	x10, .Lunix_path_CPI87_1
	mov	w9, #2
	ldr	q0, [x8, :lo12:.Lunix_path_CPI87_0]
	mov	w8, #10
	ldr	d1, [x10, :lo12:.Lunix_path_CPI87_1]
	strb	w8, [sp, #168]
	add	x8, sp, #144
	mov	w1, wzr
	add	x0, x8, #25
	mov	w2, #1007
	str	w9, [sp, #144]
	stur	q0, [sp, #148]
	str	s1, [sp, #164]
	bl	memset
	movi	v0.2d, #0000000000000000
	mov	w8, #21
	add	x0, sp, #144
	str	x8, [sp, #1176]
	str	q0, [sp, #1184]
	str	q0, [sp, #1200]
	str	q0, [sp, #1216]
	str	q0, [sp, #1232]
	str	q0, [sp, #1248]
	str	q0, [sp, #1264]
	bl	std_io.io.buffer.Buffer.flush
.Lunix_path_BB87_67:
	mov	w20, #3
.Lunix_path_BB87_68:
	and	w0, w20, #0xff
	add	sp, sp, #2, lsl #12
	add	sp, sp, #192
	ldp	x20, x19, [sp, #80]
	ldp	x22, x21, [sp, #64]
	ldp	x24, x23, [sp, #48]
	ldp	x26, x25, [sp, #32]
	ldp	x28, x27, [sp, #16]
	ldp	x29, x30, [sp], #96
	ret
.Lunix_path_func_end87:
	.size	program_main, .Lunix_path_func_end87-program_main
	.type	.Lunix_path_static.1,@object
	.section	.rodata..Lstatic.1,"a",@progbits
.Lunix_path_static.1:
	.ascii	"Usage: upath COMMAND [OPTION]... [--] [PATH]...\n\nApplies COMMAND to each PATH and prints the result. Without a PATH, reads paths\nfrom standard input, one per line. Purely lexical: no file is accessed, and no\nsymbolic link is followed.\n\nCommands:\n  canon                the shortest path with the same components\n  resolve              the path with each `..` resolved and without `.`\n  parent               the path without its last component\n  ancestors            the path, its parent, the parent of that, and so on\n  name                 the file name: the last component, if it is a name\n  stem                 the file name without its extension\n  ext                  the part of the file name after its last dot\n  parts                the components, each as a record\n  join ROOT            ROOT joined with the path; if untrusted, use --beneath\n  strip BASE           what follows BASE, for a path that starts with it\n  relative --from=DIR  the relative path from DIR\n  key                  the key in hexadecimal: keys sort as their paths do\n  unkey                the path, in canonical form, of a key in hexadecimal\n  escapes              the paths that leave the directory they are joined to\n  archive              the entries by which an archive could write outside\n  under BASE           the paths at BASE or below it, unchanged\n  sort                 the paths in path order, component by component\n  uniq                 each path once: the first of equal paths, unchanged\n  equal A B            nothing: the exit status says whether A and B are equal\n\nOptions:\n  -z, --null     end the records of input and output with NUL, not newline. A\n                 path with a newline needs it\n  -p, --pair     print the path, a tab (with -z a NUL) and then the result\n  -q, --quiet    print nothing, except for wrong usage\n      --or=TEXT  print TEXT for a path without a result\n  -h, --help     print this help, or just after COMMAND the help on it\n      --version  print the version\n\n`--` ends the options. After COMMAND and its ROOT or BASE, it also means that\nonly the arguments after it are paths: if there are none, nothing is read (but\nby archive). Write it before each variable, whose value may begin with a dash.\n\nExit status:\n  0  every path has a result. escapes: no path escapes. under: a path is\n     printed. archive: every entry is accepted. equal: they are equal. sort -c:\n     the paths are in order\n  1  a path has no result or is refused. escapes, under, sort -c, archive,\n     equal: otherwise\n  2  wrong usage; nothing was read or written\n  3  a read, a write or an allocation failed\n\nExamples:\n  whether GNU tar may extract what it listed (see `upath archive --help`):\n    upath archive --tar-list < list\n  paths in order, each once (./a and a are two):\n    find . -print0 | upath sort -zu\n  the canonical form of each argument:\n    upath canon -z -- \"$@\"\n  a path for a request from outside, or a message:\n    upath join --beneath /srv -- \"$request\"\n  whether a path is at /srv or below it:\n    if upath under -qz /srv -- \"$path\"; then echo yes; fi\n  a link in bin to lib/tool:\n    ln -s -- \"$(upath relative --from=bin lib/tool)\" bin/tool\n\n`upath COMMAND --help` shows the options of a command, and an example.\n"
	.size	.Lunix_path_static.1, 3244
	.type	.Lunix_path_static.2,@object
	.section	.rodata..Lstatic.2,"a",@progbits
.Lunix_path_static.2:
	.ascii	"upath 1.1.0\nProved with rattle-kit-13b logic dac8208d650f15bf and rattle-kit-13f logic\ndac8208d650f15bf.\n\nProved, for readers and writers whose bytes are known: what is written and the\nexit status are those of the definitions in crates/upath_commands/specs. Of\nstandard streams no contract can state the bytes, but which calls of theirs\nfailed.\n"
	.size	.Lunix_path_static.2, 345
	.type	.Lunix_path_static.3,@object
	.section	.data.rel.ro..Lstatic.3,"aw",@progbits
	.p2align	3, 0x0
.Lunix_path_static.3:
	.xword	.Lunix_path_static.3+6954
	.asciz	"\005\000\000\000\000\000\000"
	.xword	.Lunix_path_static.3+6760
	.asciz	"\302\000\000\000\000\000\000"
	.xword	.Lunix_path_static.3+6753
	.asciz	"\007\000\000\000\000\000\000"
	.xword	.Lunix_path_static.3+6522
	.asciz	"\347\000\000\000\000\000\000"
	.xword	.Lunix_path_static.3+6516
	.asciz	"\006\000\000\000\000\000\000"
	.xword	.Lunix_path_static.3+6311
	.asciz	"\315\000\000\000\000\000\000"
	.xword	.Lunix_path_static.3+6302
	.asciz	"\t\000\000\000\000\000\000"
	.xword	.Lunix_path_static.3+6078
	.asciz	"\340\000\000\000\000\000\000"
	.xword	.Lunix_path_static.3+6074
	.asciz	"\004\000\000\000\000\000\000"
	.xword	.Lunix_path_static.3+5865
	.asciz	"\321\000\000\000\000\000\000"
	.xword	.Lunix_path_static.3+5861
	.asciz	"\004\000\000\000\000\000\000"
	.xword	.Lunix_path_static.3+5672
	.asciz	"\275\000\000\000\000\000\000"
	.xword	.Lunix_path_static.3+5669
	.asciz	"\003\000\000\000\000\000\000"
	.xword	.Lunix_path_static.3+5476
	.asciz	"\301\000\000\000\000\000\000"
	.xword	.Lunix_path_static.3+5471
	.asciz	"\005\000\000\000\000\000\000"
	.xword	.Lunix_path_static.3+5228
	.asciz	"\363\000\000\000\000\000\000"
	.xword	.Lunix_path_static.3+5224
	.asciz	"\004\000\000\000\000\000\000"
	.xword	.Lunix_path_static.3+4722
	.asciz	"\366\001\000\000\000\000\000"
	.xword	.Lunix_path_static.3+4717
	.asciz	"\005\000\000\000\000\000\000"
	.xword	.Lunix_path_static.3+4493
	.asciz	"\340\000\000\000\000\000\000"
	.xword	.Lunix_path_static.3+4485
	.asciz	"\b\000\000\000\000\000\000"
	.xword	.Lunix_path_static.3+4194
	.asciz	"#\001\000\000\000\000\000"
	.xword	.Lunix_path_static.3+4191
	.asciz	"\003\000\000\000\000\000\000"
	.xword	.Lunix_path_static.3+3974
	.asciz	"\331\000\000\000\000\000\000"
	.xword	.Lunix_path_static.3+3969
	.asciz	"\005\000\000\000\000\000\000"
	.xword	.Lunix_path_static.3+3748
	.asciz	"\335\000\000\000\000\000\000"
	.xword	.Lunix_path_static.3+3741
	.asciz	"\007\000\000\000\000\000\000"
	.xword	.Lunix_path_static.3+3365
	.asciz	"x\001\000\000\000\000\000"
	.xword	.Lunix_path_static.3+3358
	.asciz	"\007\000\000\000\000\000\000"
	.xword	.Lunix_path_static.3+1910
	.asciz	"\250\005\000\000\000\000\000"
	.xword	.Lunix_path_static.3+1905
	.asciz	"\005\000\000\000\000\000\000"
	.xword	.Lunix_path_static.3+1466
	.asciz	"\267\001\000\000\000\000\000"
	.xword	.Lunix_path_static.3+1462
	.asciz	"\004\000\000\000\000\000\000"
	.xword	.Lunix_path_static.3+1055
	.asciz	"\227\001\000\000\000\000\000"
	.xword	.Lunix_path_static.3+1051
	.asciz	"\004\000\000\000\000\000\000"
	.xword	.Lunix_path_static.3+829
	.asciz	"\336\000\000\000\000\000\000"
	.xword	.Lunix_path_static.3+824
	.asciz	"\005\000\000\000\000\000\000"
	.xword	.Lunix_path_static.3+608
	.asciz	"\330\000\000\000\000\000\000\000Usage: upath equal [OPTION]... [--] A B\n\nPrints nothing: the exit status says whether A and B are equal.\n\nExample:\n  $ upath equal a//b/. a/b && echo equal\n  equal\n\n`upath --help` shows the options of every command.\nequalUsage: upath uniq [OPTION]... [--] [PATH]...\n\nPrints each path once: the first of equal paths, unchanged.\n\nExample:\n  $ printf 'a//b\\nc\\na/b/.\\n' | upath uniq\n  a//b\n  c\n\n`upath --help` shows the options of every command.\nuniqUsage: upath sort [-c] [-u] [-r] [OPTION]... [--] [PATH]...\n\nPrints the paths in path order, component by component.\n\n  -c  print no path; the exit status says whether the paths are in order\n  -u  print each path once: the first of equal paths\n  -r  print from the last to the first\n\nExample:\n  $ printf 'a.b\\na/c\\na//b\\n' | upath sort\n  a//b\n  a/c\n  a.b\n\n`upath --help` shows the options of every command.\nsortUsage: upath under [-v] [--strip] [--by-components] [OPTION]... BASE [--]\n    [PATH]...\n\nPrints the paths at BASE or below it, unchanged.\n\n  -v                   print the other paths: those that are not\n      --strip          print what follows BASE\n      --by-components  compare components, and resolve no `..`\n\nExample:\n  $ printf '/srv/a\\n/srv/../etc\\n' | upath under /srv\n  /srv/a\n\n`upath --help` shows the options of every command.\nunderUsage: upath archive [--tar-list] [--closed] [--reason] [OPTION]...\n\nPrints the entries by which an archive could write outside.\n\n      --tar-list  read what GNU tar prints with LC_ALL=C and -tvP --numeric-\n                  owner --quoting-style=c\n      --closed    print symbolic links that lead out, too\n      --reason    print a reason and a tab before each path: `name`, `kind`,\n                  `below`, `twice`, `target` or `out`\n\nWithout --tar-list, reads three fields for each entry, with a NUL after each\nfield: the kind (d for a directory, f for a file, l for a symbolic link, h for a\nhard link; others are refused), the path, and the target of a link or nothing.\n\nExit status 0: GNU tar may extract these entries into a new, empty directory;\nnothing outside is created, changed or removed. With --closed so may programs\nthat follow a symbolic link which they have just made, such as unzip and 7z, and\nafterwards no path leads out of the directory. 1: an entry was refused, there is\nnone, or the input is malformed: do not extract.\n\nList with the program that extracts, to a file and not to a pipe. If it gets\noptions that change names, such as --strip-components, list with these and, for\nGNU tar, with --show-transformed-names.\n\nExample:\n  $ printf 'l\\0x\\0/etc\\0f\\0x/new\\0\\0' | upath archive\n  upath: x/new: lies below the symbolic link x\n  x/new\n\n`upath --help` shows the options of every command, but archive has no -p and no\n--or.\narchiveUsage: upath escapes [-v] [--reason] [OPTION]... [--] [PATH]...\n\nPrints the paths that leave the directory they are joined to.\n\n  -v            print the other paths: those that stay\n      --reason  print `root`, `escapes` or `nul` and a tab before each path\n\nExample:\n  $ printf 'a/../b\\n../etc\\n' | upath escapes\n  ../etc\n\n`upath --help` shows the options of every command.\nescapesUsage: upath unkey [OPTION]... [--] [PATH]...\n\nPrints the path, in canonical form, of a key in hexadecimal.\n\nExample:\n  $ upath unkey 0001612f6200 61006200\n  /a.b\n  a/b\n\n`upath --help` shows the options of every command.\nunkeyUsage: upath key [OPTION]... [--] [PATH]...\n\nPrints the key in hexadecimal: keys sort as their paths do.\n\nExample:\n  $ upath key /a.b a//b\n  0001612f6200\n  61006200\n\n`upath --help` shows the options of every command.\nkeyUsage: upath relative --from=DIR [OPTION]... [--] [PATH]...\n\nPrints the relative path from DIR.\n\n      --from=DIR  the directory where the relative path starts\n\nExample:\n  $ upath relative --from=/usr/bin /usr/lib/libc.so\n  ../lib/libc.so\n\n`upath --help` shows the options of every command.\nrelativeUsage: upath strip [OPTION]... BASE [--] [PATH]...\n\nPrints what follows BASE, for a path that starts with it.\n\nExample:\n  $ upath strip /usr /usr/lib/libc.so\n  lib/libc.so\n\n`upath --help` shows the options of every command.\nstripUsage: upath join [--beneath | --in-root | --verbatim] [OPTION]... ROOT [--]\n    [PATH]...\n\nPrints ROOT joined with the path; if untrusted, use --beneath.\n\n      --beneath   refuse a path that leaves ROOT, as an entry of an archive may\n      --in-root   treat ROOT as the root directory, for example of a URL's path\n      --verbatim  refuse a leading slash and any `..`: ROOT may contain links\n\nExample:\n  $ upath join --beneath /srv a/../b\n  /srv/b\n\n`upath --help` shows the options of every command.\njoinUsage: upath parts [-b] [OPTION]... [--] [PATH]...\n\nPrints the components, each as a record.\n\n  -b  from the last component to the first\n\nExample:\n  $ upath parts -b /usr/lib\n  lib\n  usr\n  /\n\n`upath --help` shows the options of every command.\npartsUsage: upath ext [OPTION]... [--] [PATH]...\n\nPrints the part of the file name after its last dot.\n\nExample:\n  $ upath ext /srv/x.tar.gz\n  gz\n\n`upath --help` shows the options of every command.\nextUsage: upath stem [OPTION]... [--] [PATH]...\n\nPrints the file name without its extension.\n\nExample:\n  $ upath stem /srv/x.tar.gz\n  x.tar\n\n`upath --help` shows the options of every command.\nstemUsage: upath name [OPTION]... [--] [PATH]...\n\nPrints the file name: the last component, if it is a name.\n\nExample:\n  $ upath name /usr/lib/libc.so\n  libc.so\n\n`upath --help` shows the options of every command.\nnameUsage: upath ancestors [OPTION]... [--] [PATH]...\n\nPrints the path, its parent, the parent of that, and so on.\n\nExample:\n  $ upath ancestors /usr/lib\n  /usr/lib\n  /usr\n  /\n\n`upath --help` shows the options of every command.\nancestorsUsage: upath parent [OPTION]... [--] [PATH]...\n\nPrints the path without its last component.\n\nExample:\n  $ upath parent /usr/lib/libc.so a\n  /usr/lib\n  .\n\n`upath --help` shows the options of every command.\nparentUsage: upath resolve [OPTION]... [--] [PATH]...\n\nPrints the path with each `..` resolved and without `.`.\n\nExample:\n  $ upath resolve /srv/../etc a/../../b a/..\n  /etc\n  ../b\n  .\n\n`upath --help` shows the options of every command.\nresolveUsage: upath canon [OPTION]... [--] [PATH]...\n\nPrints the shortest path with the same components.\n\nExample:\n  $ upath canon .//a/./b/\n  ./a/b\n\n`upath --help` shows the options of every command.\ncanon"
	.size	.Lunix_path_static.3, 6960
	.type	.Lunix_path_static.4,@object
	.section	.rodata.cst4,"aM",@progbits,4
.Lunix_path_static.4:
	.ascii	"help"
	.size	.Lunix_path_static.4, 4
	.type	.Lunix_path_static.5,@object
	.section	.rodata..Lstatic.5,"a",@progbits
.Lunix_path_static.5:
	.size	.Lunix_path_static.5, 0
	.type	.Lunix_path_static.7,@object
	.section	.rodata..Lstatic.7,"a",@progbits
.Lunix_path_static.7:
	.ascii	"--help"
	.size	.Lunix_path_static.7, 6
	.type	.Lunix_path_static.9,@object
	.section	.rodata..Lstatic.9,"a",@progbits
.Lunix_path_static.9:
	.ascii	"--version"
	.size	.Lunix_path_static.9, 9
	.type	.Lunix_path_static.10,@object
	.section	.rodata..Lstatic.10,"a",@progbits
.Lunix_path_static.10:
	.ascii	"canon"
	.size	.Lunix_path_static.10, 5
	.type	.Lunix_path_static.11,@object
	.section	.rodata..Lstatic.11,"a",@progbits
.Lunix_path_static.11:
	.ascii	"resolve"
	.size	.Lunix_path_static.11, 7
	.type	.Lunix_path_static.12,@object
	.section	.rodata..Lstatic.12,"a",@progbits
.Lunix_path_static.12:
	.ascii	"parent"
	.size	.Lunix_path_static.12, 6
	.type	.Lunix_path_static.13,@object
	.section	.rodata..Lstatic.13,"a",@progbits
.Lunix_path_static.13:
	.ascii	"ancestors"
	.size	.Lunix_path_static.13, 9
	.type	.Lunix_path_static.14,@object
	.section	.rodata.cst4,"aM",@progbits,4
.Lunix_path_static.14:
	.ascii	"name"
	.size	.Lunix_path_static.14, 4
	.type	.Lunix_path_static.15,@object
.Lunix_path_static.15:
	.ascii	"stem"
	.size	.Lunix_path_static.15, 4
	.type	.Lunix_path_static.16,@object
	.section	.rodata..Lstatic.16,"a",@progbits
.Lunix_path_static.16:
	.ascii	"ext"
	.size	.Lunix_path_static.16, 3
	.type	.Lunix_path_static.17,@object
	.section	.rodata..Lstatic.17,"a",@progbits
.Lunix_path_static.17:
	.ascii	"parts"
	.size	.Lunix_path_static.17, 5
	.type	.Lunix_path_static.18,@object
	.section	.rodata.cst4,"aM",@progbits,4
.Lunix_path_static.18:
	.ascii	"join"
	.size	.Lunix_path_static.18, 4
	.type	.Lunix_path_static.19,@object
	.section	.rodata..Lstatic.19,"a",@progbits
.Lunix_path_static.19:
	.ascii	"strip"
	.size	.Lunix_path_static.19, 5
	.type	.Lunix_path_static.20,@object
	.section	.rodata.cst8,"aM",@progbits,8
.Lunix_path_static.20:
	.ascii	"relative"
	.size	.Lunix_path_static.20, 8
	.type	.Lunix_path_static.21,@object
	.section	.rodata..Lstatic.21,"a",@progbits
.Lunix_path_static.21:
	.ascii	"key"
	.size	.Lunix_path_static.21, 3
	.type	.Lunix_path_static.22,@object
	.section	.rodata..Lstatic.22,"a",@progbits
.Lunix_path_static.22:
	.ascii	"unkey"
	.size	.Lunix_path_static.22, 5
	.type	.Lunix_path_static.23,@object
	.section	.rodata..Lstatic.23,"a",@progbits
.Lunix_path_static.23:
	.ascii	"escapes"
	.size	.Lunix_path_static.23, 7
	.type	.Lunix_path_static.24,@object
	.section	.rodata..Lstatic.24,"a",@progbits
.Lunix_path_static.24:
	.ascii	"archive"
	.size	.Lunix_path_static.24, 7
	.type	.Lunix_path_static.25,@object
	.section	.rodata..Lstatic.25,"a",@progbits
.Lunix_path_static.25:
	.ascii	"under"
	.size	.Lunix_path_static.25, 5
	.type	.Lunix_path_static.26,@object
	.section	.rodata.cst4,"aM",@progbits,4
.Lunix_path_static.26:
	.ascii	"sort"
	.size	.Lunix_path_static.26, 4
	.type	.Lunix_path_static.27,@object
.Lunix_path_static.27:
	.ascii	"uniq"
	.size	.Lunix_path_static.27, 4
	.type	.Lunix_path_static.28,@object
	.section	.rodata..Lstatic.28,"a",@progbits
.Lunix_path_static.28:
	.ascii	"equal"
	.size	.Lunix_path_static.28, 5
	.type	.Lunix_path_static.30,@object
	.section	.rodata.cst4,"aM",@progbits,4
.Lunix_path_static.30:
	.ascii	"null"
	.size	.Lunix_path_static.30, 4
	.type	.Lunix_path_static.31,@object
.Lunix_path_static.31:
	.ascii	"pair"
	.size	.Lunix_path_static.31, 4
	.type	.Lunix_path_static.32,@object
	.section	.rodata..Lstatic.32,"a",@progbits
.Lunix_path_static.32:
	.ascii	"quiet"
	.size	.Lunix_path_static.32, 5
	.type	.Lunix_path_static.34,@object
	.section	.rodata..Lstatic.34,"a",@progbits
.Lunix_path_static.34:
	.ascii	"beneath"
	.size	.Lunix_path_static.34, 7
	.type	.Lunix_path_static.35,@object
	.section	.rodata..Lstatic.35,"a",@progbits
.Lunix_path_static.35:
	.ascii	"in-root"
	.size	.Lunix_path_static.35, 7
	.type	.Lunix_path_static.36,@object
	.section	.rodata.cst8,"aM",@progbits,8
.Lunix_path_static.36:
	.ascii	"verbatim"
	.size	.Lunix_path_static.36, 8
	.type	.Lunix_path_static.37,@object
	.section	.rodata.cst4,"aM",@progbits,4
.Lunix_path_static.37:
	.ascii	"from"
	.size	.Lunix_path_static.37, 4
	.type	.Lunix_path_static.38,@object
	.section	.rodata..Lstatic.38,"a",@progbits
.Lunix_path_static.38:
	.ascii	"reason"
	.size	.Lunix_path_static.38, 6
	.type	.Lunix_path_static.39,@object
	.section	.rodata..Lstatic.39,"a",@progbits
.Lunix_path_static.39:
	.ascii	"closed"
	.size	.Lunix_path_static.39, 6
	.type	.Lunix_path_static.40,@object
	.section	.rodata.cst8,"aM",@progbits,8
.Lunix_path_static.40:
	.ascii	"tar-list"
	.size	.Lunix_path_static.40, 8
	.type	.Lunix_path_static.41,@object
	.section	.rodata..Lstatic.41,"a",@progbits
.Lunix_path_static.41:
	.ascii	"by-components"
	.size	.Lunix_path_static.41, 13
	.type	.Lunix_path_static.42,@object
	.section	.rodata..Lstatic.42,"a",@progbits
.Lunix_path_static.42:
	.ascii	"--from"
	.size	.Lunix_path_static.42, 6
	.type	.Lunix_path_static.43,@object
	.section	.rodata.cst4,"aM",@progbits,4
.Lunix_path_static.43:
	.ascii	"--or"
	.size	.Lunix_path_static.43, 4
	.type	.Lunix_path_static.48,@object
	.section	.rodata..Lstatic.48,"a",@progbits
.Lunix_path_static.48:
	.ascii	" link to \""
	.size	.Lunix_path_static.48, 10
	.type	.Lunix_path_static.53,@object
	.section	.rodata..Lstatic.53,"a",@progbits
.Lunix_path_static.53:
	.byte	46
	.size	.Lunix_path_static.53, 1
	.type	.Lunix_path_static.54,@object
	.section	.rodata..Lstatic.54,"a",@progbits
.Lunix_path_static.54:
	.ascii	"upath: record "
	.size	.Lunix_path_static.54, 14
	.type	.Lunix_path_static.55,@object
	.section	.rodata..Lstatic.55,"a",@progbits
.Lunix_path_static.55:
	.ascii	" is cut off\n"
	.size	.Lunix_path_static.55, 12
	.type	.Lunix_path_static.56,@object
	.section	.rodata.cst4,"aM",@progbits,4
.Lunix_path_static.56:
	.zero	4,32
	.size	.Lunix_path_static.56, 4
	.type	.Lunix_path_static.58,@object
.Lunix_path_static.58:
	.ascii	"kind"
	.size	.Lunix_path_static.58, 4
	.type	.Lunix_path_static.59,@object
	.section	.rodata..Lstatic.59,"a",@progbits
.Lunix_path_static.59:
	.ascii	"below"
	.size	.Lunix_path_static.59, 5
	.type	.Lunix_path_static.60,@object
	.section	.rodata..Lstatic.60,"a",@progbits
.Lunix_path_static.60:
	.ascii	"twice"
	.size	.Lunix_path_static.60, 5
	.type	.Lunix_path_static.61,@object
	.section	.rodata..Lstatic.61,"a",@progbits
.Lunix_path_static.61:
	.ascii	"target"
	.size	.Lunix_path_static.61, 6
	.type	.Lunix_path_static.62,@object
	.section	.rodata..Lstatic.62,"a",@progbits
.Lunix_path_static.62:
	.ascii	"out"
	.size	.Lunix_path_static.62, 3
	.type	.Lunix_path_static.63,@object
	.section	.rodata..Lstatic.63,"a",@progbits
.Lunix_path_static.63:
	.ascii	"\\x"
	.size	.Lunix_path_static.63, 2
	.type	.Lunix_path_static.64,@object
	.section	.rodata..Lstatic.64,"a",@progbits
.Lunix_path_static.64:
	.ascii	"upath: no entries\n"
	.size	.Lunix_path_static.64, 18
	.type	.Lunix_path_static.65,@object
	.section	.rodata..Lstatic.65,"a",@progbits
.Lunix_path_static.65:
	.ascii	"upath: "
	.size	.Lunix_path_static.65, 7
	.type	.Lunix_path_static.66,@object
	.section	.rodata..Lstatic.66,"a",@progbits
.Lunix_path_static.66:
	.ascii	": "
	.size	.Lunix_path_static.66, 2
	.type	.Lunix_path_static.67,@object
	.section	.rodata..Lstatic.67,"a",@progbits
.Lunix_path_static.67:
	.ascii	"has a root, has a .., or does not end in a name"
	.size	.Lunix_path_static.67, 47
	.type	.Lunix_path_static.68,@object
	.section	.rodata..Lstatic.68,"a",@progbits
.Lunix_path_static.68:
	.ascii	"neither a directory, a file nor a link"
	.size	.Lunix_path_static.68, 38
	.type	.Lunix_path_static.69,@object
	.section	.rodata..Lstatic.69,"a",@progbits
.Lunix_path_static.69:
	.ascii	"lies below "
	.size	.Lunix_path_static.69, 11
	.type	.Lunix_path_static.70,@object
	.section	.rodata..Lstatic.70,"a",@progbits
.Lunix_path_static.70:
	.ascii	"is a symbolic link, and used twice"
	.size	.Lunix_path_static.70, 34
	.type	.Lunix_path_static.71,@object
	.section	.rodata..Lstatic.71,"a",@progbits
.Lunix_path_static.71:
	.ascii	"hard link to the link "
	.size	.Lunix_path_static.71, 22
	.type	.Lunix_path_static.72,@object
	.section	.rodata..Lstatic.72,"a",@progbits
.Lunix_path_static.72:
	.ascii	"leads out, to "
	.size	.Lunix_path_static.72, 14
	.type	.Lunix_path_static.73,@object
	.section	.rodata..Lstatic.73,"a",@progbits
.Lunix_path_static.73:
	.ascii	"this path or the target "
	.size	.Lunix_path_static.73, 24
	.type	.Lunix_path_static.74,@object
	.section	.rodata..Lstatic.74,"a",@progbits
.Lunix_path_static.74:
	.ascii	"the directory "
	.size	.Lunix_path_static.74, 14
	.type	.Lunix_path_static.75,@object
	.section	.rodata..Lstatic.75,"a",@progbits
.Lunix_path_static.75:
	.ascii	"the file "
	.size	.Lunix_path_static.75, 9
	.type	.Lunix_path_static.76,@object
	.section	.rodata..Lstatic.76,"a",@progbits
.Lunix_path_static.76:
	.ascii	"the symbolic link "
	.size	.Lunix_path_static.76, 18
	.type	.Lunix_path_static.77,@object
	.section	.rodata..Lstatic.77,"a",@progbits
.Lunix_path_static.77:
	.ascii	"the hard link "
	.size	.Lunix_path_static.77, 14
	.type	.Lunix_path_static.78,@object
	.section	.rodata..Lstatic.78,"a",@progbits
.Lunix_path_static.78:
	.ascii	"the entry "
	.size	.Lunix_path_static.78, 10
	.type	.Lunix_path_static.79,@object
	.section	.rodata..Lstatic.79,"a",@progbits
.Lunix_path_static.79:
	.ascii	" or its target "
	.size	.Lunix_path_static.79, 15
	.type	.Lunix_path_static.80,@object
	.section	.rodata..Lstatic.80,"a",@progbits
.Lunix_path_static.80:
	.ascii	"upath: line "
	.size	.Lunix_path_static.80, 12
	.type	.Lunix_path_static.81,@object
	.section	.rodata..Lstatic.81,"a",@progbits
.Lunix_path_static.81:
	.ascii	": not a line of tar's listing\n"
	.size	.Lunix_path_static.81, 30
	.type	.Lunix_path_static.82,@object
	.section	.rodata..Lstatic.82,"a",@progbits
.Lunix_path_static.82:
	.byte	47
	.size	.Lunix_path_static.82, 1
	.type	.Lunix_path_static.83,@object
	.section	.rodata..Lstatic.83,"a",@progbits
.Lunix_path_static.83:
	.zero	2,46
	.size	.Lunix_path_static.83, 2
	.type	.Lunix_path_static.86,@object
	.section	.rodata..Lstatic.86,"a",@progbits
.Lunix_path_static.86:
	.ascii	"./"
	.size	.Lunix_path_static.86, 2
	.type	.Lunix_path_static.87,@object
	.section	.rodata.cst4,"aM",@progbits,4
.Lunix_path_static.87:
	.ascii	"root"
	.size	.Lunix_path_static.87, 4
	.type	.Lunix_path_static.88,@object
	.section	.rodata..Lstatic.88,"a",@progbits
.Lunix_path_static.88:
	.ascii	"nul"
	.size	.Lunix_path_static.88, 3
	.type	.Lunix_path_static.90,@object
	.section	.rodata..Lstatic.90,"a",@progbits
.Lunix_path_static.90:
	.ascii	"no parent"
	.size	.Lunix_path_static.90, 9
	.type	.Lunix_path_static.91,@object
	.section	.rodata..Lstatic.91,"a",@progbits
.Lunix_path_static.91:
	.ascii	"no file name"
	.size	.Lunix_path_static.91, 12
	.type	.Lunix_path_static.92,@object
	.section	.rodata..Lstatic.92,"a",@progbits
.Lunix_path_static.92:
	.ascii	"no extension"
	.size	.Lunix_path_static.92, 12
	.type	.Lunix_path_static.93,@object
	.section	.rodata..Lstatic.93,"a",@progbits
.Lunix_path_static.93:
	.ascii	"doesn't start with the base"
	.size	.Lunix_path_static.93, 27
	.type	.Lunix_path_static.94,@object
	.section	.rodata..Lstatic.94,"a",@progbits
.Lunix_path_static.94:
	.ascii	"is out of order"
	.size	.Lunix_path_static.94, 15
	.type	.Lunix_path_static.95,@object
	.section	.rodata..Lstatic.95,"a",@progbits
.Lunix_path_static.95:
	.ascii	"has a root"
	.size	.Lunix_path_static.95, 10
	.type	.Lunix_path_static.96,@object
	.section	.rodata..Lstatic.96,"a",@progbits
.Lunix_path_static.96:
	.ascii	"leaves its root"
	.size	.Lunix_path_static.96, 15
	.type	.Lunix_path_static.97,@object
	.section	.rodata.cst8,"aM",@progbits,8
.Lunix_path_static.97:
	.ascii	"has a .."
	.size	.Lunix_path_static.97, 8
	.type	.Lunix_path_static.98,@object
	.section	.rodata..Lstatic.98,"a",@progbits
.Lunix_path_static.98:
	.ascii	"has a NUL byte"
	.size	.Lunix_path_static.98, 14
	.type	.Lunix_path_static.99,@object
	.section	.rodata..Lstatic.99,"a",@progbits
.Lunix_path_static.99:
	.ascii	", as only one of them has a leading slash"
	.size	.Lunix_path_static.99, 41
	.type	.Lunix_path_static.100,@object
	.section	.rodata..Lstatic.100,"a",@progbits
.Lunix_path_static.100:
	.ascii	", which has a .. that the path lacks"
	.size	.Lunix_path_static.100, 36
	.type	.Lunix_path_static.101,@object
	.section	.rodata..Lstatic.101,"a",@progbits
.Lunix_path_static.101:
	.ascii	"has a newline, which needs -z"
	.size	.Lunix_path_static.101, 29
	.type	.Lunix_path_static.102,@object
	.section	.rodata..Lstatic.102,"a",@progbits
.Lunix_path_static.102:
	.ascii	"not a key"
	.size	.Lunix_path_static.102, 9
	.type	.Lunix_path_static.103,@object
	.section	.rodata..Lstatic.103,"a",@progbits
.Lunix_path_static.103:
	.ascii	"no relative path from "
	.size	.Lunix_path_static.103, 22
	.type	.Lunix_path_static.104,@object
	.section	.rodata..Lstatic.104,"a",@progbits
.Lunix_path_static.104:
	.ascii	"upath: read error\n"
	.size	.Lunix_path_static.104, 18
	.type	.Lunix_path_static.105,@object
	.section	.rodata..Lstatic.105,"a",@progbits
.Lunix_path_static.105:
	.ascii	"upath: write error\n"
	.size	.Lunix_path_static.105, 19
	.type	.Lunix_path_static.106,@object
	.section	.rodata..Lstatic.106,"a",@progbits
.Lunix_path_static.106:
	.ascii	"upath: out of memory\n"
	.size	.Lunix_path_static.106, 21
	.type	.Lunix_path_static.107,@object
	.section	.rodata..Lstatic.107,"a",@progbits
.Lunix_path_static.107:
	.ascii	"\nTry 'upath --help'.\n"
	.size	.Lunix_path_static.107, 21
	.type	.Lunix_path_static.108,@object
	.section	.rodata..Lstatic.108,"a",@progbits
.Lunix_path_static.108:
	.ascii	"COMMAND is missing"
	.size	.Lunix_path_static.108, 18
	.type	.Lunix_path_static.109,@object
	.section	.rodata..Lstatic.109,"a",@progbits
.Lunix_path_static.109:
	.ascii	"unknown command"
	.size	.Lunix_path_static.109, 15
	.type	.Lunix_path_static.110,@object
	.section	.rodata..Lstatic.110,"a",@progbits
.Lunix_path_static.110:
	.ascii	"unknown option"
	.size	.Lunix_path_static.110, 14
	.type	.Lunix_path_static.111,@object
	.section	.rodata..Lstatic.111,"a",@progbits
.Lunix_path_static.111:
	.ascii	"must be the first argument or follow the command"
	.size	.Lunix_path_static.111, 48
	.type	.Lunix_path_static.112,@object
	.section	.rodata..Lstatic.112,"a",@progbits
.Lunix_path_static.112:
	.ascii	"its value is missing"
	.size	.Lunix_path_static.112, 20
	.type	.Lunix_path_static.113,@object
	.section	.rodata..Lstatic.113,"a",@progbits
.Lunix_path_static.113:
	.ascii	"takes no value"
	.size	.Lunix_path_static.113, 14
	.type	.Lunix_path_static.114,@object
	.section	.rodata..Lstatic.114,"a",@progbits
.Lunix_path_static.114:
	.ascii	"--beneath, --in-root and --verbatim exclude one another"
	.size	.Lunix_path_static.114, 55
	.type	.Lunix_path_static.115,@object
	.section	.rodata..Lstatic.115,"a",@progbits
.Lunix_path_static.115:
	.ascii	"ROOT is missing"
	.size	.Lunix_path_static.115, 15
	.type	.Lunix_path_static.116,@object
	.section	.rodata..Lstatic.116,"a",@progbits
.Lunix_path_static.116:
	.ascii	"BASE is missing"
	.size	.Lunix_path_static.116, 15
	.type	.Lunix_path_static.117,@object
	.section	.rodata..Lstatic.117,"a",@progbits
.Lunix_path_static.117:
	.ascii	"--from=DIR is missing"
	.size	.Lunix_path_static.117, 21
	.type	.Lunix_path_static.118,@object
	.section	.rodata..Lstatic.118,"a",@progbits
.Lunix_path_static.118:
	.ascii	"A or B is missing"
	.size	.Lunix_path_static.118, 17
	.type	.Lunix_path_static.119,@object
	.section	.rodata..Lstatic.119,"a",@progbits
.Lunix_path_static.119:
	.ascii	"one operand too many"
	.size	.Lunix_path_static.119, 20
	.type	.Lunix_path_static.120,@object
	.section	.rodata..Lstatic.120,"a",@progbits
.Lunix_path_static.120:
	.ascii	"comes before --"
	.size	.Lunix_path_static.120, 15
	.type	.Lunix_path_switch.table.upath_commands.archive.decide_records,@object
	.section	.rodata.Lswitch.table.upath_commands.archive.decide_records,"a",@progbits
	.p2align	3, 0x0
.Lunix_path_switch.table.upath_commands.archive.decide_records:
	.xword	4
	.xword	4
	.xword	5
	.xword	5
	.xword	6
	.xword	3
	.size	.Lunix_path_switch.table.upath_commands.archive.decide_records, 48
	.type	.Lunix_path_switch.table.upath_commands.archive.decide_records.370,@object
	.section	.data.rel.ro.Lswitch.table.upath_commands.archive.decide_records.370,"aw",@progbits
	.p2align	3, 0x0
.Lunix_path_switch.table.upath_commands.archive.decide_records.370:
	.xword	.Lunix_path_static.14
	.xword	.Lunix_path_static.58
	.xword	.Lunix_path_static.59
	.xword	.Lunix_path_static.60
	.xword	.Lunix_path_static.61
	.xword	.Lunix_path_static.62
	.size	.Lunix_path_switch.table.upath_commands.archive.decide_records.370, 48
	.type	.Lunix_path_switch.table.path_archive.records.record_at,@object
	.section	.rodata.Lswitch.table.path_archive.records.record_at,"a",@progbits
	.p2align	3, 0x0
.Lunix_path_switch.table.path_archive.records.record_at:
	.xword	5
	.xword	4
	.xword	3
	.xword	4
	.xword	1
	.xword	4
	.xword	4
	.xword	4
	.xword	0
	.size	.Lunix_path_switch.table.path_archive.records.record_at, 72
	.section	.note.GNU-stack,"",@progbits
