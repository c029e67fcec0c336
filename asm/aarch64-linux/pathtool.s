// unix_path 1.1.0: the program pathtool, except support.c, for aarch64 Linux. Compiled from proved sources.
// tools/generate made this file. PROVED.txt has its SHA-256, and says what it was made from.
// Licensed under MIT or Apache-2.0.
	.section	.text.std_io.io.error.Error.from_raw_os_error,"ax",@progbits
	.p2align	2
	.type	std_io.io.error.Error.from_raw_os_error,@function
// std_io::io::error::Error::from_raw_os_error
std_io.io.error.Error.from_raw_os_error:
	tbnz	w1, #31, .Lunix_path_BB0_4
	sub	w8, w1, #1
	cmp	w8, #121
	b.hi	.Lunix_path_BB0_4
	adrp	x9, .Lunix_path_JTI0_0
	add	x9, x9, :lo12:.Lunix_path_JTI0_0
	adr	x10, .Lunix_path_BB0_3
	ldrb	w11, [x9, x8]
	add	x10, x10, x11, lsl #2
	mov	w8, #1
	br	x10
.Lunix_path_BB0_3:
	mov	w8, #36
	b	.Lunix_path_BB0_5
.Lunix_path_BB0_4:
	mov	w8, #41
.Lunix_path_BB0_5:
	movi	v0.2d, #0000000000000000
	strb	wzr, [x0]
	strb	w8, [x0, #1]
	strh	wzr, [x0, #2]
	str	w1, [x0, #4]
	stur	q0, [x0, #8]
	stur	q0, [x0, #24]
	stur	q0, [x0, #40]
	stur	q0, [x0, #56]
	stur	q0, [x0, #72]
	ret
.Lunix_path_BB0_6:
	mov	w8, #4
	b	.Lunix_path_BB0_5
.Lunix_path_BB0_7:
	mov	w8, #7
	b	.Lunix_path_BB0_5
.Lunix_path_BB0_8:
	mov	w8, #26
	b	.Lunix_path_BB0_5
.Lunix_path_BB0_9:
	mov	w8, #39
	b	.Lunix_path_BB0_5
.Lunix_path_BB0_10:
	mov	w8, #9
	b	.Lunix_path_BB0_5
.Lunix_path_BB0_11:
	mov	w8, #8
	b	.Lunix_path_BB0_5
.Lunix_path_BB0_12:
	mov	w8, #30
	b	.Lunix_path_BB0_5
.Lunix_path_BB0_13:
	mov	w8, #25
	b	.Lunix_path_BB0_5
.Lunix_path_BB0_14:
	mov	w8, #32
	b	.Lunix_path_BB0_5
.Lunix_path_BB0_15:
	mov	w8, #33
	b	.Lunix_path_BB0_5
.Lunix_path_BB0_16:
	mov	w8, #22
	b	.Lunix_path_BB0_5
.Lunix_path_BB0_17:
	mov	w8, #31
	b	.Lunix_path_BB0_5
.Lunix_path_BB0_18:
	mov	w8, #29
	b	.Lunix_path_BB0_5
.Lunix_path_BB0_19:
	mov	w8, #18
	b	.Lunix_path_BB0_5
.Lunix_path_BB0_20:
	mov	w8, #10
	b	.Lunix_path_BB0_5
.Lunix_path_BB0_21:
	mov	w8, #28
	b	.Lunix_path_BB0_5
.Lunix_path_BB0_22:
	mov	w8, #14
	b	.Lunix_path_BB0_5
.Lunix_path_BB0_23:
	mov	w8, #12
	b	.Lunix_path_BB0_5
.Lunix_path_BB0_24:
	mov	w8, #5
	b	.Lunix_path_BB0_5
.Lunix_path_BB0_25:
	mov	w8, #3
	b	.Lunix_path_BB0_5
.Lunix_path_BB0_26:
	mov	w8, wzr
	b	.Lunix_path_BB0_5
.Lunix_path_BB0_27:
	mov	w8, #13
	b	.Lunix_path_BB0_5
.Lunix_path_BB0_28:
	mov	w8, #38
	b	.Lunix_path_BB0_5
.Lunix_path_BB0_29:
	mov	w8, #11
	b	.Lunix_path_BB0_5
.Lunix_path_BB0_30:
	mov	w8, #35
	b	.Lunix_path_BB0_5
.Lunix_path_BB0_31:
	mov	w8, #34
	b	.Lunix_path_BB0_5
.Lunix_path_BB0_32:
	mov	w8, #20
	b	.Lunix_path_BB0_5
.Lunix_path_BB0_33:
	mov	w8, #15
	b	.Lunix_path_BB0_5
.Lunix_path_BB0_34:
	mov	w8, #19
	b	.Lunix_path_BB0_5
.Lunix_path_BB0_35:
	mov	w8, #16
	b	.Lunix_path_BB0_5
.Lunix_path_BB0_36:
	mov	w8, #6
	b	.Lunix_path_BB0_5
.Lunix_path_BB0_37:
	mov	w8, #27
	b	.Lunix_path_BB0_5
.Lunix_path_BB0_38:
	mov	w8, #24
	b	.Lunix_path_BB0_5
.Lunix_path_BB0_39:
	mov	w8, #2
	b	.Lunix_path_BB0_5
.Lunix_path_BB0_40:
	mov	w8, #17
	b	.Lunix_path_BB0_5
.Lunix_path_func_end0:
	.size	std_io.io.error.Error.from_raw_os_error, .Lunix_path_func_end0-std_io.io.error.Error.from_raw_os_error
	.section	.rodata.std_io.io.error.Error.from_raw_os_error,"a",@progbits
.Lunix_path_JTI0_0:
	.byte	(.Lunix_path_BB0_5-.Lunix_path_BB0_3)>>2
	.byte	(.Lunix_path_BB0_26-.Lunix_path_BB0_3)>>2
	.byte	(.Lunix_path_BB0_4-.Lunix_path_BB0_3)>>2
	.byte	(.Lunix_path_BB0_30-.Lunix_path_BB0_3)>>2
	.byte	(.Lunix_path_BB0_4-.Lunix_path_BB0_3)>>2
	.byte	(.Lunix_path_BB0_4-.Lunix_path_BB0_3)>>2
	.byte	(.Lunix_path_BB0_31-.Lunix_path_BB0_3)>>2
	.byte	(.Lunix_path_BB0_4-.Lunix_path_BB0_3)>>2
	.byte	(.Lunix_path_BB0_4-.Lunix_path_BB0_3)>>2
	.byte	(.Lunix_path_BB0_4-.Lunix_path_BB0_3)>>2
	.byte	(.Lunix_path_BB0_27-.Lunix_path_BB0_3)>>2
	.byte	(.Lunix_path_BB0_28-.Lunix_path_BB0_3)>>2
	.byte	(.Lunix_path_BB0_5-.Lunix_path_BB0_3)>>2
	.byte	(.Lunix_path_BB0_4-.Lunix_path_BB0_3)>>2
	.byte	(.Lunix_path_BB0_4-.Lunix_path_BB0_3)>>2
	.byte	(.Lunix_path_BB0_21-.Lunix_path_BB0_3)>>2
	.byte	(.Lunix_path_BB0_23-.Lunix_path_BB0_3)>>2
	.byte	(.Lunix_path_BB0_17-.Lunix_path_BB0_3)>>2
	.byte	(.Lunix_path_BB0_4-.Lunix_path_BB0_3)>>2
	.byte	(.Lunix_path_BB0_22-.Lunix_path_BB0_3)>>2
	.byte	(.Lunix_path_BB0_33-.Lunix_path_BB0_3)>>2
	.byte	(.Lunix_path_BB0_32-.Lunix_path_BB0_3)>>2
	.byte	(.Lunix_path_BB0_4-.Lunix_path_BB0_3)>>2
	.byte	(.Lunix_path_BB0_4-.Lunix_path_BB0_3)>>2
	.byte	(.Lunix_path_BB0_4-.Lunix_path_BB0_3)>>2
	.byte	(.Lunix_path_BB0_18-.Lunix_path_BB0_3)>>2
	.byte	(.Lunix_path_BB0_37-.Lunix_path_BB0_3)>>2
	.byte	(.Lunix_path_BB0_38-.Lunix_path_BB0_3)>>2
	.byte	(.Lunix_path_BB0_13-.Lunix_path_BB0_3)>>2
	.byte	(.Lunix_path_BB0_40-.Lunix_path_BB0_3)>>2
	.byte	(.Lunix_path_BB0_14-.Lunix_path_BB0_3)>>2
	.byte	(.Lunix_path_BB0_29-.Lunix_path_BB0_3)>>2
	.byte	(.Lunix_path_BB0_4-.Lunix_path_BB0_3)>>2
	.byte	(.Lunix_path_BB0_4-.Lunix_path_BB0_3)>>2
	.byte	(.Lunix_path_BB0_12-.Lunix_path_BB0_3)>>2
	.byte	(.Lunix_path_BB0_15-.Lunix_path_BB0_3)>>2
	.byte	(.Lunix_path_BB0_4-.Lunix_path_BB0_3)>>2
	.byte	(.Lunix_path_BB0_3-.Lunix_path_BB0_3)>>2
	.byte	(.Lunix_path_BB0_35-.Lunix_path_BB0_3)>>2
	.byte	(.Lunix_path_BB0_19-.Lunix_path_BB0_3)>>2
	.byte	(.Lunix_path_BB0_4-.Lunix_path_BB0_3)>>2
	.byte	(.Lunix_path_BB0_4-.Lunix_path_BB0_3)>>2
	.byte	(.Lunix_path_BB0_4-.Lunix_path_BB0_3)>>2
	.byte	(.Lunix_path_BB0_4-.Lunix_path_BB0_3)>>2
	.byte	(.Lunix_path_BB0_4-.Lunix_path_BB0_3)>>2
	.byte	(.Lunix_path_BB0_4-.Lunix_path_BB0_3)>>2
	.byte	(.Lunix_path_BB0_4-.Lunix_path_BB0_3)>>2
	.byte	(.Lunix_path_BB0_4-.Lunix_path_BB0_3)>>2
	.byte	(.Lunix_path_BB0_4-.Lunix_path_BB0_3)>>2
	.byte	(.Lunix_path_BB0_4-.Lunix_path_BB0_3)>>2
	.byte	(.Lunix_path_BB0_4-.Lunix_path_BB0_3)>>2
	.byte	(.Lunix_path_BB0_4-.Lunix_path_BB0_3)>>2
	.byte	(.Lunix_path_BB0_4-.Lunix_path_BB0_3)>>2
	.byte	(.Lunix_path_BB0_4-.Lunix_path_BB0_3)>>2
	.byte	(.Lunix_path_BB0_4-.Lunix_path_BB0_3)>>2
	.byte	(.Lunix_path_BB0_4-.Lunix_path_BB0_3)>>2
	.byte	(.Lunix_path_BB0_4-.Lunix_path_BB0_3)>>2
	.byte	(.Lunix_path_BB0_4-.Lunix_path_BB0_3)>>2
	.byte	(.Lunix_path_BB0_4-.Lunix_path_BB0_3)>>2
	.byte	(.Lunix_path_BB0_4-.Lunix_path_BB0_3)>>2
	.byte	(.Lunix_path_BB0_4-.Lunix_path_BB0_3)>>2
	.byte	(.Lunix_path_BB0_4-.Lunix_path_BB0_3)>>2
	.byte	(.Lunix_path_BB0_4-.Lunix_path_BB0_3)>>2
	.byte	(.Lunix_path_BB0_4-.Lunix_path_BB0_3)>>2
	.byte	(.Lunix_path_BB0_4-.Lunix_path_BB0_3)>>2
	.byte	(.Lunix_path_BB0_4-.Lunix_path_BB0_3)>>2
	.byte	(.Lunix_path_BB0_4-.Lunix_path_BB0_3)>>2
	.byte	(.Lunix_path_BB0_4-.Lunix_path_BB0_3)>>2
	.byte	(.Lunix_path_BB0_4-.Lunix_path_BB0_3)>>2
	.byte	(.Lunix_path_BB0_4-.Lunix_path_BB0_3)>>2
	.byte	(.Lunix_path_BB0_4-.Lunix_path_BB0_3)>>2
	.byte	(.Lunix_path_BB0_4-.Lunix_path_BB0_3)>>2
	.byte	(.Lunix_path_BB0_4-.Lunix_path_BB0_3)>>2
	.byte	(.Lunix_path_BB0_4-.Lunix_path_BB0_3)>>2
	.byte	(.Lunix_path_BB0_4-.Lunix_path_BB0_3)>>2
	.byte	(.Lunix_path_BB0_4-.Lunix_path_BB0_3)>>2
	.byte	(.Lunix_path_BB0_4-.Lunix_path_BB0_3)>>2
	.byte	(.Lunix_path_BB0_4-.Lunix_path_BB0_3)>>2
	.byte	(.Lunix_path_BB0_4-.Lunix_path_BB0_3)>>2
	.byte	(.Lunix_path_BB0_4-.Lunix_path_BB0_3)>>2
	.byte	(.Lunix_path_BB0_4-.Lunix_path_BB0_3)>>2
	.byte	(.Lunix_path_BB0_4-.Lunix_path_BB0_3)>>2
	.byte	(.Lunix_path_BB0_4-.Lunix_path_BB0_3)>>2
	.byte	(.Lunix_path_BB0_4-.Lunix_path_BB0_3)>>2
	.byte	(.Lunix_path_BB0_4-.Lunix_path_BB0_3)>>2
	.byte	(.Lunix_path_BB0_4-.Lunix_path_BB0_3)>>2
	.byte	(.Lunix_path_BB0_4-.Lunix_path_BB0_3)>>2
	.byte	(.Lunix_path_BB0_4-.Lunix_path_BB0_3)>>2
	.byte	(.Lunix_path_BB0_4-.Lunix_path_BB0_3)>>2
	.byte	(.Lunix_path_BB0_4-.Lunix_path_BB0_3)>>2
	.byte	(.Lunix_path_BB0_4-.Lunix_path_BB0_3)>>2
	.byte	(.Lunix_path_BB0_4-.Lunix_path_BB0_3)>>2
	.byte	(.Lunix_path_BB0_4-.Lunix_path_BB0_3)>>2
	.byte	(.Lunix_path_BB0_4-.Lunix_path_BB0_3)>>2
	.byte	(.Lunix_path_BB0_3-.Lunix_path_BB0_3)>>2
	.byte	(.Lunix_path_BB0_4-.Lunix_path_BB0_3)>>2
	.byte	(.Lunix_path_BB0_4-.Lunix_path_BB0_3)>>2
	.byte	(.Lunix_path_BB0_11-.Lunix_path_BB0_3)>>2
	.byte	(.Lunix_path_BB0_10-.Lunix_path_BB0_3)>>2
	.byte	(.Lunix_path_BB0_20-.Lunix_path_BB0_3)>>2
	.byte	(.Lunix_path_BB0_24-.Lunix_path_BB0_3)>>2
	.byte	(.Lunix_path_BB0_4-.Lunix_path_BB0_3)>>2
	.byte	(.Lunix_path_BB0_36-.Lunix_path_BB0_3)>>2
	.byte	(.Lunix_path_BB0_25-.Lunix_path_BB0_3)>>2
	.byte	(.Lunix_path_BB0_4-.Lunix_path_BB0_3)>>2
	.byte	(.Lunix_path_BB0_4-.Lunix_path_BB0_3)>>2
	.byte	(.Lunix_path_BB0_7-.Lunix_path_BB0_3)>>2
	.byte	(.Lunix_path_BB0_4-.Lunix_path_BB0_3)>>2
	.byte	(.Lunix_path_BB0_4-.Lunix_path_BB0_3)>>2
	.byte	(.Lunix_path_BB0_16-.Lunix_path_BB0_3)>>2
	.byte	(.Lunix_path_BB0_39-.Lunix_path_BB0_3)>>2
	.byte	(.Lunix_path_BB0_4-.Lunix_path_BB0_3)>>2
	.byte	(.Lunix_path_BB0_6-.Lunix_path_BB0_3)>>2
	.byte	(.Lunix_path_BB0_4-.Lunix_path_BB0_3)>>2
	.byte	(.Lunix_path_BB0_9-.Lunix_path_BB0_3)>>2
	.byte	(.Lunix_path_BB0_34-.Lunix_path_BB0_3)>>2
	.byte	(.Lunix_path_BB0_4-.Lunix_path_BB0_3)>>2
	.byte	(.Lunix_path_BB0_4-.Lunix_path_BB0_3)>>2
	.byte	(.Lunix_path_BB0_4-.Lunix_path_BB0_3)>>2
	.byte	(.Lunix_path_BB0_4-.Lunix_path_BB0_3)>>2
	.byte	(.Lunix_path_BB0_4-.Lunix_path_BB0_3)>>2
	.byte	(.Lunix_path_BB0_8-.Lunix_path_BB0_3)>>2
	.section	.text.unlikely.std_alloc.vec.Vec.grow_amortized.307f257cf2d167af.,"ax",@progbits
	.p2align	2
	.type	std_alloc.vec.Vec.grow_amortized.307f257cf2d167af.,@function
// std_alloc::vec::Vec::grow_amortized::<#307f257cf2d167af>
std_alloc.vec.Vec.grow_amortized.307f257cf2d167af.:
	ldr	x8, [x0, #8]
	cmn	x8, x1
	b.lo	.Lunix_path_BB1_2
	mov	w0, wzr
	ret
.Lunix_path_BB1_2:
	stp	x29, x30, [sp, #-32]!
	ldr	x10, [x0, #16]
	add	x9, x8, x1
	mov	w11, #8
	cmp	x9, #8
	stp	x20, x19, [sp, #16]
	mov	x29, sp
	lsl	x12, x10, #1
	csel	x11, x9, x11, hi
	lsr	x13, x10, #62
	cmp	x11, x12
	csel	x9, x11, x12, hi
	cmp	x13, #0
	csel	x19, x9, x11, eq
	tbnz	x19, #63, .Lunix_path_BB1_7
	cbz	x10, .Lunix_path_BB1_6
	mov	x20, x0
	ldr	x0, [x0]
	mov	x1, x8
	mov	x2, x19
	mov	w3, #1
	bl	rattle_realloc
	tbz	w0, #0, .Lunix_path_BB1_7
.Lunix_path_BB1_5:
	mov	w0, #1
	str	x1, [x20]
	str	x19, [x20, #16]
	ldp	x20, x19, [sp, #16]
	ldp	x29, x30, [sp], #32
	ret
.Lunix_path_BB1_6:
	mov	x20, x0
	mov	x0, x9
	mov	w1, #1
	bl	rattle_alloc
	tbnz	w0, #0, .Lunix_path_BB1_5
.Lunix_path_BB1_7:
	mov	w0, wzr
	ldp	x20, x19, [sp, #16]
	ldp	x29, x30, [sp], #32
	ret
.Lunix_path_func_end1:
	.size	std_alloc.vec.Vec.grow_amortized.307f257cf2d167af., .Lunix_path_func_end1-std_alloc.vec.Vec.grow_amortized.307f257cf2d167af.
	.section	.rodata.cst16,"aM",@progbits,16
	.p2align	4, 0x0
.Lunix_path_CPI2_0:
	.byte	1
	.byte	2
	.byte	4
	.byte	8
	.byte	16
	.byte	32
	.byte	64
	.byte	128
	.byte	1
	.byte	2
	.byte	4
	.byte	8
	.byte	16
	.byte	32
	.byte	64
	.byte	128
.Lunix_path_CPI2_6:
	.byte	112
	.byte	114
	.byte	101
	.byte	102
	.byte	105
	.byte	120
	.byte	32
	.byte	110
	.byte	111
	.byte	116
	.byte	32
	.byte	102
	.byte	111
	.byte	117
	.byte	110
	.byte	100
.Lunix_path_CPI2_7:
	.xword	0
	.xword	128
.Lunix_path_CPI2_8:
	.byte	2
	.byte	2
	.byte	2
	.byte	2
	.byte	2
	.byte	2
	.byte	2
	.byte	2
	.byte	128
	.byte	128
	.byte	128
	.byte	128
	.byte	33
	.byte	1
	.byte	21
	.byte	73
.Lunix_path_CPI2_9:
	.byte	231
	.byte	163
	.byte	131
	.byte	131
	.byte	139
	.byte	203
	.byte	203
	.byte	203
	.byte	203
	.byte	203
	.byte	203
	.byte	203
	.byte	203
	.byte	219
	.byte	203
	.byte	203
.Lunix_path_CPI2_10:
	.byte	1
	.byte	1
	.byte	1
	.byte	1
	.byte	1
	.byte	1
	.byte	1
	.byte	1
	.byte	230
	.byte	174
	.byte	186
	.byte	186
	.byte	1
	.byte	1
	.byte	1
	.byte	1
.Lunix_path_CPI2_11:
	.byte	255
	.byte	255
	.byte	255
	.byte	255
	.byte	255
	.byte	255
	.byte	255
	.byte	255
	.byte	255
	.byte	255
	.byte	255
	.byte	255
	.byte	255
	.byte	239
	.byte	223
	.byte	191
.Lunix_path_CPI2_12:
	.byte	112
	.byte	97
	.byte	116
	.byte	104
	.byte	32
	.byte	99
	.byte	111
	.byte	110
	.byte	116
	.byte	97
	.byte	105
	.byte	110
	.byte	115
	.byte	32
	.byte	105
	.byte	110
.Lunix_path_CPI2_13:
	.byte	118
	.byte	97
	.byte	108
	.byte	105
	.byte	100
	.byte	32
	.byte	85
	.byte	84
	.byte	70
	.byte	45
	.byte	56
	.byte	32
	.byte	99
	.byte	104
	.byte	97
	.byte	114
.Lunix_path_CPI2_15:
	.byte	0
	.byte	1
	.byte	2
	.byte	3
	.byte	4
	.byte	5
	.byte	6
	.byte	7
	.byte	8
	.byte	9
	.byte	10
	.byte	11
	.byte	12
	.byte	13
	.byte	14
	.byte	15
.Lunix_path_CPI2_16:
	.byte	16
	.byte	17
	.byte	18
	.byte	19
	.byte	20
	.byte	21
	.byte	22
	.byte	23
	.byte	24
	.byte	25
	.byte	26
	.byte	27
	.byte	28
	.byte	29
	.byte	30
	.byte	31
	.section	.rodata.cst8,"aM",@progbits,8
	.p2align	3, 0x0
.Lunix_path_CPI2_1:
	.byte	1
	.byte	2
	.byte	4
	.byte	8
	.byte	16
	.byte	32
	.byte	64
	.byte	128
.Lunix_path_CPI2_2:
	.byte	103
	.byte	114
	.byte	101
	.byte	97
	.zero	1
	.zero	1
	.zero	1
	.zero	1
.Lunix_path_CPI2_3:
	.byte	101
	.byte	113
	.byte	117
	.byte	97
	.zero	1
	.zero	1
	.zero	1
	.zero	1
.Lunix_path_CPI2_4:
	.byte	102
	.byte	97
	.byte	108
	.byte	115
	.zero	1
	.zero	1
	.zero	1
	.zero	1
.Lunix_path_CPI2_5:
	.byte	98
	.byte	97
	.byte	100
	.byte	32
	.byte	99
	.byte	111
	.byte	109
	.byte	109
.Lunix_path_CPI2_14:
	.byte	97
	.byte	99
	.byte	116
	.byte	101
	.zero	1
	.zero	1
	.zero	1
	.zero	1
.Lunix_path_CPI2_17:
	.byte	32
	.byte	33
	.byte	34
	.byte	35
	.byte	36
	.byte	37
	.byte	38
	.byte	39
	.section	.text.pathtool.run.write_answers.7729a8c5e160c09a.,"ax",@progbits
	.p2align	2
	.type	pathtool.run.write_answers.7729a8c5e160c09a.,@function
// pathtool::run::write_answers::<#7729a8c5e160c09a>
pathtool.run.write_answers.7729a8c5e160c09a.:
	stp	d15, d14, [sp, #-160]!
	stp	d13, d12, [sp, #16]
	stp	d11, d10, [sp, #32]
	stp	d9, d8, [sp, #48]
	stp	x29, x30, [sp, #64]
	add	x29, sp, #64
	stp	x28, x27, [sp, #80]
	stp	x26, x25, [sp, #96]
	stp	x24, x23, [sp, #112]
	stp	x22, x21, [sp, #128]
	stp	x20, x19, [sp, #144]
	sub	sp, sp, #464
	sub	x8, x29, #88
	stp	xzr, xzr, [sp, #224]
	str	x8, [sp, #216]
	cbz	x1, .Lunix_path_BB2_1277
	sub	x8, x29, #248
	mov	x19, x2
	mov	x26, x0
	sub	x21, x29, #224
	add	x8, x8, #8
	str	x8, [sp, #136]
	b	.Lunix_path_BB2_3
.Lunix_path_BB2_2:
	ldp	x26, x1, [sp, #160]
	sub	x21, x29, #224
	cbz	x1, .Lunix_path_BB2_1277
.Lunix_path_BB2_3:
	cmp	x1, #15
	adrp	x13, .Lunix_path_CPI2_0
	b.hi	.Lunix_path_BB2_7
	mov	x8, xzr
.Lunix_path_BB2_5:
	ldrb	w9, [x26, x8]
	cmp	w9, #10
	b.eq	.Lunix_path_BB2_12
	add	x8, x8, #1
	cmp	x1, x8
	b.ne	.Lunix_path_BB2_5
	b	.Lunix_path_BB2_13
.Lunix_path_BB2_7:
	subs	x8, x1, #16
	b.eq	.Lunix_path_BB2_11
	mov	x9, xzr
.Lunix_path_BB2_9:
	movi	v0.16b, #10
	ldr	q1, [x26, x9]
	cmeq	v0.16b, v1.16b, v0.16b
	ldr	q1, [x13, :lo12:.Lunix_path_CPI2_0]
	and	v0.16b, v0.16b, v1.16b
	addp	v0.16b, v0.16b, v0.16b
	addp	v0.16b, v0.16b, v0.16b
	addp	v0.16b, v0.16b, v0.16b
	umov	w10, v0.h[0]
	orr	w10, w10, #0x10000
	rbit	w10, w10
	clz	w10, w10
	cmp	w10, #15
	b.ls	.Lunix_path_BB2_44
	add	x9, x9, #16
	cmp	x9, x8
	b.lo	.Lunix_path_BB2_9
.Lunix_path_BB2_11:
	movi	v0.16b, #10
	ldr	q1, [x26, x8]
	cmeq	v0.16b, v1.16b, v0.16b
	ldr	q1, [x13, :lo12:.Lunix_path_CPI2_0]
	and	v0.16b, v0.16b, v1.16b
	addp	v0.16b, v0.16b, v0.16b
	addp	v0.16b, v0.16b, v0.16b
	addp	v0.16b, v0.16b, v0.16b
	umov	w9, v0.h[0]
	orr	w9, w9, #0x10000
	rbit	w9, w9
	clz	w9, w9
	add	x8, x8, x9
.Lunix_path_BB2_12:
	cmp	x8, x1
	b.ne	.Lunix_path_BB2_45
.Lunix_path_BB2_13:
	adrp	x25, .Lunix_path_static.1
	add	x25, x25, :lo12:.Lunix_path_static.1
	mov	x8, x1
	mov	x1, xzr
	ldr	x9, [sp, #224]
	cbz	x9, .Lunix_path_BB2_15
.Lunix_path_BB2_14:
	str	xzr, [sp, #224]
.Lunix_path_BB2_15:
	cmp	x8, #15
	stp	x25, x1, [sp, #160]
	b.hi	.Lunix_path_BB2_19
	mov	x27, xzr
	cbz	x8, .Lunix_path_BB2_24
.Lunix_path_BB2_17:
	ldrb	w9, [x26, x27]
	cmp	w9, #9
	b.eq	.Lunix_path_BB2_24
	add	x27, x27, #1
	cmp	x8, x27
	b.ne	.Lunix_path_BB2_17
	b	.Lunix_path_BB2_326
.Lunix_path_BB2_19:
	subs	x9, x8, #16
	b.eq	.Lunix_path_BB2_23
	mov	x10, xzr
.Lunix_path_BB2_21:
	movi	v0.16b, #9
	ldr	q1, [x26, x10]
	cmeq	v0.16b, v1.16b, v0.16b
	ldr	q1, [x13, :lo12:.Lunix_path_CPI2_0]
	and	v0.16b, v0.16b, v1.16b
	addp	v0.16b, v0.16b, v0.16b
	addp	v0.16b, v0.16b, v0.16b
	addp	v0.16b, v0.16b, v0.16b
	umov	w11, v0.h[0]
	orr	w11, w11, #0x10000
	rbit	w11, w11
	clz	w11, w11
	cmp	w11, #15
	b.ls	.Lunix_path_BB2_46
	add	x10, x10, #16
	cmp	x10, x9
	b.lo	.Lunix_path_BB2_21
.Lunix_path_BB2_23:
	movi	v0.16b, #9
	ldr	q1, [x26, x9]
	cmeq	v0.16b, v1.16b, v0.16b
	ldr	q1, [x13, :lo12:.Lunix_path_CPI2_0]
	and	v0.16b, v0.16b, v1.16b
	addp	v0.16b, v0.16b, v0.16b
	addp	v0.16b, v0.16b, v0.16b
	addp	v0.16b, v0.16b, v0.16b
	umov	w10, v0.h[0]
	orr	w10, w10, #0x10000
	rbit	w10, w10
	clz	w10, w10
	add	x27, x9, x10
.Lunix_path_BB2_24:
	cmp	x27, x8
	b.eq	.Lunix_path_BB2_326
.Lunix_path_BB2_25:
	add	x10, x27, #1
	sub	x9, x8, x10
	add	x11, x26, x10
	add	x15, x26, x10
	cmp	x9, #15
	str	x11, [sp, #192]
	b.hi	.Lunix_path_BB2_29
	mov	x23, xzr
	cbz	x9, .Lunix_path_BB2_34
.Lunix_path_BB2_27:
	ldrb	w10, [x15, x23]
	cmp	w10, #9
	b.eq	.Lunix_path_BB2_34
	add	x23, x23, #1
	cmp	x9, x23
	b.ne	.Lunix_path_BB2_27
	b	.Lunix_path_BB2_35
.Lunix_path_BB2_29:
	subs	x10, x9, #16
	b.eq	.Lunix_path_BB2_33
	mov	x11, xzr
.Lunix_path_BB2_31:
	movi	v0.16b, #9
	ldr	q1, [x15, x11]
	cmeq	v0.16b, v1.16b, v0.16b
	ldr	q1, [x13, :lo12:.Lunix_path_CPI2_0]
	and	v0.16b, v0.16b, v1.16b
	addp	v0.16b, v0.16b, v0.16b
	addp	v0.16b, v0.16b, v0.16b
	addp	v0.16b, v0.16b, v0.16b
	umov	w12, v0.h[0]
	orr	w12, w12, #0x10000
	rbit	w12, w12
	clz	w12, w12
	cmp	w12, #15
	b.ls	.Lunix_path_BB2_47
	add	x11, x11, #16
	cmp	x11, x10
	b.lo	.Lunix_path_BB2_31
.Lunix_path_BB2_33:
	movi	v0.16b, #9
	ldr	q1, [x15, x10]
	cmeq	v0.16b, v1.16b, v0.16b
	ldr	q1, [x13, :lo12:.Lunix_path_CPI2_0]
	and	v0.16b, v0.16b, v1.16b
	addp	v0.16b, v0.16b, v0.16b
	addp	v0.16b, v0.16b, v0.16b
	addp	v0.16b, v0.16b, v0.16b
	umov	w11, v0.h[0]
	orr	w11, w11, #0x10000
	rbit	w11, w11
	clz	w11, w11
	add	x23, x10, x11
.Lunix_path_BB2_34:
	cmp	x23, x9
	b.ne	.Lunix_path_BB2_48
.Lunix_path_BB2_35:
	mov	w22, wzr
	mov	x24, xzr
	mov	x28, xzr
	mov	x23, x9
	cmp	x27, #4
	str	x15, [sp, #176]
	b.ne	.Lunix_path_BB2_60
.Lunix_path_BB2_36:
	ldr	w8, [x26]
	mov	w9, #25701
	movk	w9, #29801, lsl #16
	cmp	w8, w9
	b.ne	.Lunix_path_BB2_73
	adrp	x2, .Lunix_path_static.2
	add	x2, x2, :lo12:.Lunix_path_static.2
	mov	x0, x26
	mov	w1, #4
	bl	core.cmp.slices.groups_equal.i8.31.core.cmp.numbers.U8PartialEq.
	cbz	w0, .Lunix_path_BB2_72
	cmp	w22, #2
	stp	xzr, xzr, [sp, #240]
	stp	xzr, xzr, [x29, #-240]
	stur	xzr, [x29, #-248]
	b.eq	.Lunix_path_BB2_209
	cmp	w22, #1
	b.ne	.Lunix_path_BB2_233
	movi	v0.2d, #0000000000000000
	cmp	x28, #15
	stp	q0, q0, [x29, #-224]
	b.hi	.Lunix_path_BB2_301
	mov	x8, xzr
	cbz	x28, .Lunix_path_BB2_609
.Lunix_path_BB2_42:
	ldrb	w9, [x24, x8]
	cmp	w9, #58
	b.eq	.Lunix_path_BB2_609
	add	x8, x8, #1
	cmp	x28, x8
	b.ne	.Lunix_path_BB2_42
	b	.Lunix_path_BB2_610
.Lunix_path_BB2_44:
	add	x8, x9, w10, uxtw
	cmp	x8, x1
	b.eq	.Lunix_path_BB2_13
.Lunix_path_BB2_45:
	add	x9, x8, #1
	add	x25, x26, x9
	sub	x1, x1, x9
	ldr	x9, [sp, #224]
	cbnz	x9, .Lunix_path_BB2_14
	b	.Lunix_path_BB2_15
.Lunix_path_BB2_46:
	add	x27, x10, w11, uxtw
	cmp	x27, x8
	b.eq	.Lunix_path_BB2_326
	b	.Lunix_path_BB2_25
.Lunix_path_BB2_47:
	add	x23, x11, w12, uxtw
	cmp	x23, x9
	b.eq	.Lunix_path_BB2_35
.Lunix_path_BB2_48:
	add	x10, x23, #1
	sub	x28, x9, x10
	ldr	x9, [sp, #192]
	cmp	x28, #15
	add	x24, x9, x10
	b.hi	.Lunix_path_BB2_54
	mov	x9, xzr
	cbz	x28, .Lunix_path_BB2_59
	sub	x8, x8, x23
	sub	x8, x8, x27
	sub	x8, x8, #2
.Lunix_path_BB2_51:
	ldrb	w10, [x24, x9]
	cmp	w10, #9
	b.eq	.Lunix_path_BB2_59
	add	x9, x9, #1
	cmp	x8, x9
	b.ne	.Lunix_path_BB2_51
	mov	w22, #1
	cmp	x27, #4
	str	x15, [sp, #176]
	b.eq	.Lunix_path_BB2_36
	b	.Lunix_path_BB2_60
.Lunix_path_BB2_54:
	subs	x8, x28, #16
	b.eq	.Lunix_path_BB2_58
	add	x10, x27, x23
	mov	x9, xzr
	add	x10, x26, x10
	add	x10, x10, #2
.Lunix_path_BB2_56:
	movi	v0.16b, #9
	ldr	q1, [x10, x9]
	cmeq	v0.16b, v1.16b, v0.16b
	ldr	q1, [x13, :lo12:.Lunix_path_CPI2_0]
	and	v0.16b, v0.16b, v1.16b
	addp	v0.16b, v0.16b, v0.16b
	addp	v0.16b, v0.16b, v0.16b
	addp	v0.16b, v0.16b, v0.16b
	umov	w11, v0.h[0]
	orr	w11, w11, #0x10000
	rbit	w11, w11
	clz	w11, w11
	cmp	w11, #15
	b.ls	.Lunix_path_BB2_150
	add	x9, x9, #16
	cmp	x9, x8
	b.lo	.Lunix_path_BB2_56
.Lunix_path_BB2_58:
	movi	v0.16b, #9
	ldr	q1, [x24, x8]
	cmeq	v0.16b, v1.16b, v0.16b
	ldr	q1, [x13, :lo12:.Lunix_path_CPI2_0]
	and	v0.16b, v0.16b, v1.16b
	addp	v0.16b, v0.16b, v0.16b
	addp	v0.16b, v0.16b, v0.16b
	addp	v0.16b, v0.16b, v0.16b
	umov	w9, v0.h[0]
	orr	w9, w9, #0x10000
	rbit	w9, w9
	clz	w9, w9
	add	x9, x8, x9
.Lunix_path_BB2_59:
	cmp	x9, x28
	mov	w8, #1
	cinc	w22, w8, ne
	cmp	x27, #4
	str	x15, [sp, #176]
	b.eq	.Lunix_path_BB2_36
.Lunix_path_BB2_60:
	cmp	x27, #5
	b.ne	.Lunix_path_BB2_73
	ldr	w8, [x26]
	mov	w9, #28277
	movk	w9, #25956, lsl #16
	cmp	w8, w9
	b.ne	.Lunix_path_BB2_131
	adrp	x2, .Lunix_path_static.3
	add	x2, x2, :lo12:.Lunix_path_static.3
	mov	x0, x26
	mov	w1, #5
	bl	core.cmp.slices.groups_equal.i8.31.core.cmp.numbers.U8PartialEq.
	cbz	w0, .Lunix_path_BB2_151
	ldr	x1, [sp, #176]
	stp	xzr, xzr, [x29, #-248]
	stur	xzr, [x29, #-232]
	cbz	x23, .Lunix_path_BB2_296
	tbnz	x23, #63, .Lunix_path_BB2_1293
	mov	x0, x23
	mov	w1, #1
	bl	rattle_alloc
	tbz	w0, #0, .Lunix_path_BB2_1293
	mov	x25, x1
	ldr	x1, [sp, #176]
	ldr	x8, [sp, #192]
	sub	x8, x25, x8
	cmp	x8, x23
	b.hs	.Lunix_path_BB2_297
.Lunix_path_BB2_67:
	cmp	x23, #8
	adrp	x13, .Lunix_path_CPI2_0
	b.lo	.Lunix_path_BB2_69
	sub	x8, x25, x26
	sub	x8, x8, #6
	cmp	x8, #32
	b.hs	.Lunix_path_BB2_598
.Lunix_path_BB2_69:
	mov	x8, xzr
.Lunix_path_BB2_70:
	add	x9, x8, x27
	add	x10, x26, x9
	sub	x9, x23, x8
	add	x8, x25, x8
	add	x10, x10, #1
.Lunix_path_BB2_71:
	ldrb	w11, [x10], #1
	subs	x9, x9, #1
	strb	w11, [x8], #1
	b.ne	.Lunix_path_BB2_71
	b	.Lunix_path_BB2_298
.Lunix_path_BB2_72:
	ldr	x15, [sp, #176]
.Lunix_path_BB2_73:
	mov	w20, wzr
.Lunix_path_BB2_74:
	cmp	w22, #2
	b.eq	.Lunix_path_BB2_326
	cmp	w22, #1
	b.ne	.Lunix_path_BB2_82
	cmp	x27, #4
	b.ne	.Lunix_path_BB2_90
	ldr	w8, [x26]
	mov	w9, #28522
	movk	w9, #28265, lsl #16
	cmp	w8, w9
	b.ne	.Lunix_path_BB2_90
	adrp	x2, .Lunix_path_static.14
	add	x2, x2, :lo12:.Lunix_path_static.14
	mov	x0, x26
	mov	w1, #4
	bl	core.cmp.slices.groups_equal.i8.31.core.cmp.numbers.U8PartialEq.
	ldr	x15, [sp, #176]
	cbz	w0, .Lunix_path_BB2_90
	cbz	x28, .Lunix_path_BB2_381
	mov	w22, wzr
	mov	x25, xzr
	cbz	x23, .Lunix_path_BB2_617
	ldrb	w8, [x24]
	mov	w21, w22
	cmp	w8, #47
	b.ne	.Lunix_path_BB2_382
	b	.Lunix_path_BB2_641
.Lunix_path_BB2_82:
	cbz	w20, .Lunix_path_BB2_95
	ldr	w8, [x26]
	mov	w9, #24944
	movk	w9, #29810, lsl #16
	cmp	w8, w9
	b.ne	.Lunix_path_BB2_95
	adrp	x2, .Lunix_path_static.4
	add	x2, x2, :lo12:.Lunix_path_static.4
	mov	x0, x26
	mov	x1, x27
	bl	core.cmp.slices.groups_equal.i8.31.core.cmp.numbers.U8PartialEq.
	ldr	x15, [sp, #176]
	adrp	x14, .Lunix_path_CPI2_0
	cbz	w0, .Lunix_path_BB2_95
	cbz	x23, .Lunix_path_BB2_333
	ldrb	w8, [x15]
	cmp	w8, #47
	b.eq	.Lunix_path_BB2_89
	cmp	w8, #46
	b.ne	.Lunix_path_BB2_607
	cmp	x23, #1
	b.ne	.Lunix_path_BB2_684
.Lunix_path_BB2_89:
	mov	w21, #1
	b	.Lunix_path_BB2_685
.Lunix_path_BB2_90:
	cbz	w20, .Lunix_path_BB2_103
	ldr	w8, [x26]
	mov	w9, #29811
	movk	w9, #26994, lsl #16
	cmp	w8, w9
	b.ne	.Lunix_path_BB2_103
	adrp	x2, .Lunix_path_static.15
	add	x2, x2, :lo12:.Lunix_path_static.15
	mov	x0, x26
	mov	x1, x27
	bl	core.cmp.slices.groups_equal.i8.31.core.cmp.numbers.U8PartialEq.
	ldr	x15, [sp, #176]
	adrp	x14, .Lunix_path_CPI2_0
	cbz	w0, .Lunix_path_BB2_103
	cbz	x23, .Lunix_path_BB2_383
	mov	x8, x23
	b	.Lunix_path_BB2_118
.Lunix_path_BB2_95:
	cmp	x27, #4
	b.ne	.Lunix_path_BB2_132
	ldrb	w22, [x26, #1]
	ldrb	w24, [x26]
	ldrb	w20, [x26, #2]
	ldrb	w21, [x26, #3]
	cmp	w22, #97
	b.ne	.Lunix_path_BB2_182
	cmp	w24, #98
	b.ne	.Lunix_path_BB2_182
	cmp	w20, #99
	b.ne	.Lunix_path_BB2_182
	cmp	w21, #107
	b.ne	.Lunix_path_BB2_182
	adrp	x2, .Lunix_path_static.5
	add	x2, x2, :lo12:.Lunix_path_static.5
	mov	x0, x26
	mov	w1, #4
	bl	core.cmp.slices.groups_equal.i8.31.core.cmp.numbers.U8PartialEq.
	adrp	x13, .Lunix_path_CPI2_0
	cbz	w0, .Lunix_path_BB2_189
	cbz	x23, .Lunix_path_BB2_395
	mov	x22, x23
	b	.Lunix_path_BB2_125
.Lunix_path_BB2_103:
	cmp	x27, #6
	b.ne	.Lunix_path_BB2_138
	ldr	w8, [x26]
	mov	w9, #29811
	movk	w9, #29281, lsl #16
	cmp	w8, w9
	b.ne	.Lunix_path_BB2_326
	adrp	x2, .Lunix_path_static.16
	add	x2, x2, :lo12:.Lunix_path_static.16
	mov	x0, x26
	mov	w1, #6
	bl	core.cmp.slices.groups_equal.i8.31.core.cmp.numbers.U8PartialEq.
	ldr	x14, [sp, #176]
	adrp	x13, .Lunix_path_CPI2_0
	cbz	w0, .Lunix_path_BB2_326
	cbz	x28, .Lunix_path_BB2_805
	cmp	x28, x23
	stp	xzr, xzr, [x29, #-224]
	csel	x8, x28, x23, lo
	stur	xzr, [x29, #-208]
	cmp	x8, #15
	b.hi	.Lunix_path_BB2_593
	cmp	x8, #7
	b.hi	.Lunix_path_BB2_670
	cbz	x23, .Lunix_path_BB2_864
	ldrb	w9, [x14]
	ldrb	w10, [x24]
	cmp	w9, w10
	b.ne	.Lunix_path_BB2_866
	cmp	x8, #1
	b.eq	.Lunix_path_BB2_796
	ldrb	w9, [x14, #1]
	ldrb	w10, [x24, #1]
	cmp	w9, w10
	b.ne	.Lunix_path_BB2_1159
	cmp	x8, #2
	b.eq	.Lunix_path_BB2_796
	ldrb	w9, [x14, #2]
	ldrb	w10, [x24, #2]
	cmp	w9, w10
	b.ne	.Lunix_path_BB2_1237
	cmp	x8, #3
	b.ne	.Lunix_path_BB2_1258
.Lunix_path_BB2_116:
	ldr	x14, [sp, #176]
	b	.Lunix_path_BB2_796
.Lunix_path_BB2_117:
	mov	x8, x2
	cbz	x2, .Lunix_path_BB2_384
.Lunix_path_BB2_118:
	subs	x2, x8, #1
	b.eq	.Lunix_path_BB2_384
	ldr	x9, [sp, #192]
	add	x9, x9, x2
	ldrb	w10, [x9]
	cmp	w10, #47
	b.eq	.Lunix_path_BB2_122
	cmp	w10, #46
	b.ne	.Lunix_path_BB2_384
	ldurb	w9, [x9, #-1]
	cmp	w9, #47
	b.ne	.Lunix_path_BB2_384
.Lunix_path_BB2_122:
	sub	x8, x23, x2
	cmp	x8, #8
	b.ne	.Lunix_path_BB2_117
	mov	x0, x15
	mov	x1, xzr
	bl	unix_path.filler.trimmed_blocks_len
	ldr	x15, [sp, #176]
	adrp	x14, .Lunix_path_CPI2_0
	mov	x2, x0
	b	.Lunix_path_BB2_117
.Lunix_path_BB2_124:
	mov	x22, x2
	cbz	x2, .Lunix_path_BB2_396
.Lunix_path_BB2_125:
	subs	x2, x22, #1
	b.eq	.Lunix_path_BB2_396
	ldr	x8, [sp, #192]
	ldr	x14, [sp, #176]
	add	x8, x8, x2
	ldrb	w9, [x8]
	cmp	w9, #47
	b.eq	.Lunix_path_BB2_129
	cmp	w9, #46
	b.ne	.Lunix_path_BB2_397
	ldurb	w8, [x8, #-1]
	cmp	w8, #47
	b.ne	.Lunix_path_BB2_397
.Lunix_path_BB2_129:
	sub	x8, x23, x2
	cmp	x8, #8
	b.ne	.Lunix_path_BB2_124
	mov	x0, x14
	mov	x1, xzr
	bl	unix_path.filler.trimmed_blocks_len
	adrp	x13, .Lunix_path_CPI2_0
	mov	x2, x0
	b	.Lunix_path_BB2_124
.Lunix_path_BB2_131:
	mov	w20, #1
	b	.Lunix_path_BB2_74
.Lunix_path_BB2_132:
	cmp	x27, #5
	b.gt	.Lunix_path_BB2_152
	cmp	x27, #3
	b.eq	.Lunix_path_BB2_288
	cmp	x27, #5
	b.ne	.Lunix_path_BB2_326
	ldr	w8, [x26]
	mov	w9, #24931
	movk	w9, #28526, lsl #16
	cmp	w8, w9
	b.ne	.Lunix_path_BB2_326
	adrp	x2, .Lunix_path_static.11
	add	x2, x2, :lo12:.Lunix_path_static.11
	mov	x0, x26
	mov	w1, #5
	bl	core.cmp.slices.groups_equal.i8.31.core.cmp.numbers.U8PartialEq.
	ldr	x8, [sp, #176]
	cbz	w0, .Lunix_path_BB2_326
	add	x2, sp, #216
	mov	x0, x8
	mov	x1, x23
	bl	pathtool.paths.push_canon
	and	w8, w0, #0xff
	tbz	w8, #0, .Lunix_path_BB2_333
	b	.Lunix_path_BB2_1293
.Lunix_path_BB2_138:
	cmp	x27, #4
	b.ne	.Lunix_path_BB2_199
	ldrb	w25, [x26]
	ldrb	w22, [x26, #1]
	ldrb	w21, [x26, #2]
	ldrb	w20, [x26, #3]
	cmp	w25, #101
	b.ne	.Lunix_path_BB2_234
	cmp	w22, #110
	b.ne	.Lunix_path_BB2_234
	cmp	w21, #100
	b.ne	.Lunix_path_BB2_234
	cmp	w20, #115
	b.ne	.Lunix_path_BB2_234
	adrp	x2, .Lunix_path_static.17
	add	x2, x2, :lo12:.Lunix_path_static.17
	mov	x0, x26
	mov	w1, #4
	bl	core.cmp.slices.groups_equal.i8.31.core.cmp.numbers.U8PartialEq.
	ldr	x14, [sp, #176]
	cbz	w0, .Lunix_path_BB2_234
	cbz	x23, .Lunix_path_BB2_810
	ldr	x8, [sp, #192]
	add	x8, x8, x23
	ldurb	w9, [x8, #-1]
	cmp	w9, #47
	b.eq	.Lunix_path_BB2_810
	cmp	x23, #1
	b.eq	.Lunix_path_BB2_808
	cmp	w9, #46
	b.ne	.Lunix_path_BB2_808
	mov	x9, xzr
	cbz	x28, .Lunix_path_BB2_811
	ldurb	w8, [x8, #-2]
	cmp	w8, #47
	b.ne	.Lunix_path_BB2_809
	b	.Lunix_path_BB2_811
.Lunix_path_BB2_150:
	add	x9, x9, w11, uxtw
	cmp	x9, x28
	mov	w8, #1
	cinc	w22, w8, ne
	cmp	x27, #4
	str	x15, [sp, #176]
	b.ne	.Lunix_path_BB2_60
	b	.Lunix_path_BB2_36
.Lunix_path_BB2_151:
	ldr	x15, [sp, #176]
	mov	w20, #1
	b	.Lunix_path_BB2_74
.Lunix_path_BB2_152:
	cmp	x27, #6
	b.eq	.Lunix_path_BB2_292
	cmp	x27, #9
	b.ne	.Lunix_path_BB2_326
	ldr	w8, [x26]
	mov	w9, #28257
	movk	w9, #25955, lsl #16
	cmp	w8, w9
	b.ne	.Lunix_path_BB2_326
	adrp	x2, .Lunix_path_static.10
	add	x2, x2, :lo12:.Lunix_path_static.10
	mov	x0, x26
	mov	w1, #9
	bl	core.cmp.slices.groups_equal.i8.31.core.cmp.numbers.U8PartialEq.
	ldr	x1, [sp, #176]
	cbz	w0, .Lunix_path_BB2_326
	add	x22, x27, x26
	mov	x28, xzr
	mov	w27, #1
	add	x25, x22, #1
	b	.Lunix_path_BB2_159
.Lunix_path_BB2_157:
	add	x0, x21, x28
	mov	x2, x23
	bl	memmove
	ldr	x1, [sp, #176]
.Lunix_path_BB2_158:
	and	w8, w24, #0xff
	mov	w27, wzr
	add	x28, x28, x23
	cmp	w8, #1
	mov	x23, x20
	stp	x21, x28, [sp, #216]
	str	x26, [sp, #232]
	b.ne	.Lunix_path_BB2_333
.Lunix_path_BB2_159:
	mov	x0, x1
	mov	x1, x23
	bl	unix_path.path.Path.parent_len
	mov	w24, w0
	mov	x20, x1
	tbnz	w27, #0, .Lunix_path_BB2_162
	ldr	x8, [sp, #232]
	cmp	x8, x28
	b.eq	.Lunix_path_BB2_180
.Lunix_path_BB2_161:
	ldr	x8, [sp, #216]
	mov	w9, #9
	strb	w9, [x8, x28]
	add	x28, x28, #1
	str	x28, [sp, #224]
.Lunix_path_BB2_162:
	ldr	x26, [sp, #232]
	ldr	x1, [sp, #176]
	sub	x8, x26, x28
	cmp	x23, x8
	b.hi	.Lunix_path_BB2_178
.Lunix_path_BB2_163:
	ldr	x21, [sp, #216]
	ldr	x9, [sp, #192]
	add	x8, x21, x28
	sub	x8, x8, x9
	cmp	x8, x23
	add	x8, sp, #216
	stp	xzr, xzr, [x8, #8]
	b.hs	.Lunix_path_BB2_157
	cmp	x23, #8
	b.lo	.Lunix_path_BB2_166
	sub	x8, x22, x28
	sub	x8, x8, x21
	cmn	x8, #33
	b.ls	.Lunix_path_BB2_169
.Lunix_path_BB2_166:
	mov	x8, xzr
.Lunix_path_BB2_167:
	add	x10, x8, x28
	sub	x9, x23, x8
	add	x8, x25, x8
	add	x10, x21, x10
.Lunix_path_BB2_168:
	ldrb	w11, [x8], #1
	subs	x9, x9, #1
	strb	w11, [x10], #1
	b.ne	.Lunix_path_BB2_168
	b	.Lunix_path_BB2_158
.Lunix_path_BB2_169:
	cmp	x23, #32
	b.hs	.Lunix_path_BB2_171
	mov	x8, xzr
	b	.Lunix_path_BB2_175
.Lunix_path_BB2_171:
	add	x10, x21, x28
	and	x9, x23, #0x18
	and	x8, x23, #0xffffffffffffffe0
	add	x10, x10, #16
	add	x11, x22, #17
	and	x12, x23, #0xffffffffffffffe0
.Lunix_path_BB2_172:
	ldp	q0, q1, [x11, #-16]
	subs	x12, x12, #32
	add	x11, x11, #32
	stp	q0, q1, [x10, #-16]
	add	x10, x10, #32
	b.ne	.Lunix_path_BB2_172
	cmp	x23, x8
	b.eq	.Lunix_path_BB2_158
	cbz	x9, .Lunix_path_BB2_167
.Lunix_path_BB2_175:
	mov	x10, x8
	and	x8, x23, #0xfffffffffffffff8
	add	x11, x28, x10
	sub	x9, x10, x8
	add	x10, x25, x10
	add	x11, x21, x11
.Lunix_path_BB2_176:
	ldr	d0, [x10], #8
	adds	x9, x9, #8
	str	d0, [x11], #8
	b.ne	.Lunix_path_BB2_176
	cmp	x23, x8
	b.eq	.Lunix_path_BB2_158
	b	.Lunix_path_BB2_167
.Lunix_path_BB2_178:
	add	x0, sp, #216
	mov	x1, x23
	bl	std_alloc.vec.Vec.grow_amortized.307f257cf2d167af.
	ldr	x1, [sp, #176]
	cbz	w0, .Lunix_path_BB2_1293
	ldp	x28, x26, [sp, #224]
	b	.Lunix_path_BB2_163
.Lunix_path_BB2_180:
	add	x0, sp, #216
	mov	w1, #1
	bl	std_alloc.vec.Vec.grow_amortized.307f257cf2d167af.
	cbz	w0, .Lunix_path_BB2_1293
	ldr	x28, [sp, #224]
	b	.Lunix_path_BB2_161
.Lunix_path_BB2_182:
	cmp	w22, #97
	b.ne	.Lunix_path_BB2_189
	cmp	w24, #110
	b.ne	.Lunix_path_BB2_189
	cmp	w20, #109
	b.ne	.Lunix_path_BB2_189
	cmp	w21, #101
	b.ne	.Lunix_path_BB2_189
	adrp	x2, .Lunix_path_static.7
	add	x2, x2, :lo12:.Lunix_path_static.7
	mov	x0, x26
	mov	w1, #4
	bl	core.cmp.slices.groups_equal.i8.31.core.cmp.numbers.U8PartialEq.
	cbz	w0, .Lunix_path_BB2_189
	ldr	x1, [sp, #176]
	sub	x0, x29, #224
	mov	x2, x23
	stp	xzr, xzr, [x29, #-224]
	stur	xzr, [x29, #-208]
	bl	unix_path.path.Path.file_name
.Lunix_path_BB2_188:
	sub	x0, x29, #224
	b	.Lunix_path_BB2_919
.Lunix_path_BB2_189:
	cmp	w22, #116
	b.ne	.Lunix_path_BB2_242
	cmp	w20, #101
	b.ne	.Lunix_path_BB2_242
	cmp	w21, #109
	b.ne	.Lunix_path_BB2_242
	cmp	w24, #115
	b.ne	.Lunix_path_BB2_242
	adrp	x2, .Lunix_path_static.8
	add	x2, x2, :lo12:.Lunix_path_static.8
	mov	x0, x26
	mov	w1, #4
	bl	core.cmp.slices.groups_equal.i8.31.core.cmp.numbers.U8PartialEq.
	ldr	x1, [sp, #176]
	cbz	w0, .Lunix_path_BB2_326
	sub	x0, x29, #224
	mov	x2, x23
	stp	xzr, xzr, [x29, #-224]
	stur	xzr, [x29, #-208]
	bl	unix_path.path.Path.file_name
	ldurb	w8, [x29, #-224]
	cmp	w8, #1
	b.ne	.Lunix_path_BB2_592
	ldp	x9, x8, [x29, #-216]
	adrp	x16, .Lunix_path_CPI2_0
	mov	x10, x8
.Lunix_path_BB2_196:
	cmp	x10, #15
	b.ls	.Lunix_path_BB2_653
	movi	v0.16b, #46
	movi	v1.16b, #47
	add	x11, x9, x10
	ldur	q2, [x11, #-16]
	mov	w14, #64
	cmeq	v0.16b, v2.16b, v0.16b
	cmeq	v1.16b, v2.16b, v1.16b
	ldr	q2, [x16, :lo12:.Lunix_path_CPI2_0]
	and	v0.16b, v0.16b, v2.16b
	and	v1.16b, v1.16b, v2.16b
	addp	v0.16b, v0.16b, v0.16b
	addp	v1.16b, v1.16b, v1.16b
	addp	v0.16b, v0.16b, v0.16b
	addp	v1.16b, v1.16b, v1.16b
	addp	v0.16b, v0.16b, v0.16b
	addp	v1.16b, v1.16b, v1.16b
	umov	w11, v0.h[0]
	umov	w12, v1.h[0]
	clz	x11, x11
	clz	x13, x12
	sub	x12, x10, #16
	sub	x15, x14, x11
	sub	x14, x14, x13
	mov	x10, x12
	cmp	x15, x14
	csel	x14, x15, x14, hi
	cbz	x14, .Lunix_path_BB2_196
	mov	w10, #64
	sub	x13, x10, x13
	sub	x10, x10, x11
	cmp	x13, x10
	csel	x10, x13, x10, hi
	add	x10, x10, x12
	sub	x11, x10, #1
	b	.Lunix_path_BB2_657
.Lunix_path_BB2_199:
	cmp	x27, #3
	b.ne	.Lunix_path_BB2_326
	ldrb	w8, [x26]
	cmp	w8, #99
	b.ne	.Lunix_path_BB2_326
	ldrb	w8, [x26, #1]
	cmp	w8, #109
	b.ne	.Lunix_path_BB2_326
	ldrb	w8, [x26, #2]
	cmp	w8, #112
	b.ne	.Lunix_path_BB2_326
	mov	x0, x15
	mov	x1, x23
	mov	x2, x24
	mov	x3, x28
	bl	unix_path.order.PathOrd.cmp
	ldr	x8, [sp, #232]
	and	w9, w0, #0xff
	cmp	w9, #2
	b.eq	.Lunix_path_BB2_889
	cmp	w9, #1
	b.ne	.Lunix_path_BB2_893
	cmp	x8, #4
	b.ls	.Lunix_path_BB2_1238
	mov	x9, xzr
.Lunix_path_BB2_207:
	ldr	x10, [sp, #216]
	adrp	x12, .Lunix_path_static.51
	add	x12, x12, :lo12:.Lunix_path_static.51
	add	x11, x10, x9
	sub	x12, x11, x12
	cmp	x12, #4
	b.hi	.Lunix_path_BB2_964
	adrp	x12, .Lunix_path_CPI2_3
	ldr	d0, [x12, :lo12:.Lunix_path_CPI2_3]
	mov	w12, #108
	b	.Lunix_path_BB2_884
.Lunix_path_BB2_209:
	sub	x8, x29, #88
	stp	xzr, xzr, [sp, #256]
	stur	x8, [x29, #-120]
	sub	x8, x29, #120
	stp	xzr, xzr, [x8, #8]
.Lunix_path_BB2_210:
	mov	x2, xzr
	adrp	x11, .Lunix_path_CPI2_0
	cbz	x28, .Lunix_path_BB2_213
.Lunix_path_BB2_211:
	ldrb	w8, [x24, x2]
	cmp	w8, #9
	b.eq	.Lunix_path_BB2_213
	add	x2, x2, #1
	cmp	x28, x2
	b.ne	.Lunix_path_BB2_211
	b	.Lunix_path_BB2_220
.Lunix_path_BB2_213:
	cmp	x2, x28
	b.hs	.Lunix_path_BB2_220
	add	x8, x24, x2
	mvn	x9, x2
	mov	w22, wzr
	add	x26, x8, #1
	add	x28, x28, x9
	movi	v0.2d, #0000000000000000
	cmp	x2, #15
	stp	q0, q0, [x29, #-224]
	b.ls	.Lunix_path_BB2_221
.Lunix_path_BB2_215:
	subs	x8, x2, #16
	b.eq	.Lunix_path_BB2_219
	mov	x9, xzr
.Lunix_path_BB2_217:
	movi	v0.16b, #58
	ldr	q1, [x24, x9]
	cmeq	v0.16b, v1.16b, v0.16b
	ldr	q1, [x11, :lo12:.Lunix_path_CPI2_0]
	and	v0.16b, v0.16b, v1.16b
	addp	v0.16b, v0.16b, v0.16b
	addp	v0.16b, v0.16b, v0.16b
	addp	v0.16b, v0.16b, v0.16b
	umov	w10, v0.h[0]
	orr	w10, w10, #0x10000
	rbit	w10, w10
	clz	w10, w10
	cmp	w10, #15
	b.ls	.Lunix_path_BB2_224
	add	x9, x9, #16
	cmp	x9, x8
	b.lo	.Lunix_path_BB2_217
.Lunix_path_BB2_219:
	movi	v0.16b, #58
	ldr	q1, [x24, x8]
	cmeq	v0.16b, v1.16b, v0.16b
	ldr	q1, [x11, :lo12:.Lunix_path_CPI2_0]
	and	v0.16b, v0.16b, v1.16b
	addp	v0.16b, v0.16b, v0.16b
	addp	v0.16b, v0.16b, v0.16b
	addp	v0.16b, v0.16b, v0.16b
	umov	w9, v0.h[0]
	orr	w9, w9, #0x10000
	rbit	w9, w9
	clz	w9, w9
	add	x8, x8, x9
	b	.Lunix_path_BB2_225
.Lunix_path_BB2_220:
	mov	w22, #1
	mov	x26, x24
	mov	x2, x28
	movi	v0.2d, #0000000000000000
	cmp	x28, #15
	stp	q0, q0, [x29, #-224]
	b.hi	.Lunix_path_BB2_215
.Lunix_path_BB2_221:
	mov	x8, xzr
	cbz	x2, .Lunix_path_BB2_225
.Lunix_path_BB2_222:
	ldrb	w9, [x24, x8]
	cmp	w9, #58
	b.eq	.Lunix_path_BB2_225
	add	x8, x8, #1
	cmp	x2, x8
	b.ne	.Lunix_path_BB2_222
	b	.Lunix_path_BB2_226
.Lunix_path_BB2_224:
	add	x8, x9, w10, uxtw
.Lunix_path_BB2_225:
	cmp	x8, x2
	b.ne	.Lunix_path_BB2_227
.Lunix_path_BB2_226:
	adrp	x3, .Lunix_path_static.1
	add	x3, x3, :lo12:.Lunix_path_static.1
	sub	x0, x29, #224
	mov	x1, x24
	mov	x4, xzr
	b	.Lunix_path_BB2_228
.Lunix_path_BB2_227:
	add	x8, x8, #1
	sub	x0, x29, #224
	mov	x1, x24
	sub	x4, x2, x8
	add	x3, x24, x8
	mov	x2, x8
.Lunix_path_BB2_228:
	bl	pathtool.edits.edit_by_name
	ldurb	w8, [x29, #-224]
	ldur	q0, [x21, #16]
	ldurb	w20, [x29, #-216]
	ldur	x9, [x29, #-104]
	cmp	w8, #1
	str	q0, [sp, #256]
	b.ne	.Lunix_path_BB2_306
	ldur	x8, [x29, #-112]
	cmp	x9, x8
	b.eq	.Lunix_path_BB2_231
.Lunix_path_BB2_230:
	mov	w9, #24
	ldur	x25, [x29, #-120]
	ldr	q0, [sp, #256]
	madd	x9, x8, x9, x25
	add	x3, x8, #1
	mov	x24, x26
	str	x20, [x9]
	stur	q0, [x9, #8]
	stur	x3, [x29, #-112]
	tbz	w22, #0, .Lunix_path_BB2_210
	b	.Lunix_path_BB2_317
.Lunix_path_BB2_231:
	sub	x0, x29, #120
	bl	std_alloc.vec.Vec.grow_amortized.d6e9c2ff9b21f748.
	cbz	w0, .Lunix_path_BB2_1287
	ldur	x8, [x29, #-112]
	b	.Lunix_path_BB2_230
.Lunix_path_BB2_233:
	ldr	x0, [sp, #176]
	sub	x2, x29, #88
	add	x4, sp, #216
	mov	x1, x23
	mov	x3, xzr
	bl	pathtool.edits.push_edited
	and	w8, w0, #0xff
	tbz	w8, #0, .Lunix_path_BB2_333
	b	.Lunix_path_BB2_1293
.Lunix_path_BB2_234:
	cmp	w25, #119
	b.ne	.Lunix_path_BB2_326
	cmp	w22, #97
	b.ne	.Lunix_path_BB2_326
	cmp	w21, #108
	b.ne	.Lunix_path_BB2_326
	cmp	w20, #107
	b.ne	.Lunix_path_BB2_326
	adrp	x2, .Lunix_path_static.19
	add	x2, x2, :lo12:.Lunix_path_static.19
	mov	x0, x26
	mov	w1, #4
	bl	core.cmp.slices.groups_equal.i8.31.core.cmp.numbers.U8PartialEq.
	ldr	x11, [sp, #176]
	adrp	x13, .Lunix_path_CPI2_0
	cbz	w0, .Lunix_path_BB2_326
	mov	x8, xzr
	sub	x21, x29, #224
.Lunix_path_BB2_240:
	cmp	x28, x8
	b.eq	.Lunix_path_BB2_618
	ldrb	w9, [x24, x8]
	mov	w10, #251
	add	x8, x8, #1
	sub	w9, w9, #98
	tst	w9, w10
	b.eq	.Lunix_path_BB2_240
	b	.Lunix_path_BB2_326
.Lunix_path_BB2_242:
	cmp	w22, #104
	b.ne	.Lunix_path_BB2_319
	cmp	w21, #119
	b.ne	.Lunix_path_BB2_319
	cmp	w24, #115
	b.ne	.Lunix_path_BB2_319
	cmp	w20, #111
	b.ne	.Lunix_path_BB2_319
	adrp	x2, .Lunix_path_static.12
	add	x2, x2, :lo12:.Lunix_path_static.12
	mov	x0, x26
	mov	w1, #4
	bl	core.cmp.slices.groups_equal.i8.31.core.cmp.numbers.U8PartialEq.
	ldr	x1, [sp, #176]
	adrp	x13, .Lunix_path_CPI2_0
	cbz	w0, .Lunix_path_BB2_326
	cbz	x23, .Lunix_path_BB2_333
	mov	x25, xzr
	b	.Lunix_path_BB2_252
.Lunix_path_BB2_249:
	mov	w9, #189
	mov	w10, #49135
	strb	w9, [x8, #2]
	strh	w10, [x8]
.Lunix_path_BB2_250:
	add	x25, x25, #3
	str	x26, [sp, #232]
	stp	x27, x25, [sp, #216]
.Lunix_path_BB2_251:
	add	x8, x22, x24
	sub	x23, x23, x8
	add	x1, x8, x1
	cbz	x23, .Lunix_path_BB2_333
.Lunix_path_BB2_252:
	cmp	x23, #15
	mov	x20, x1
	b.hi	.Lunix_path_BB2_256
.Lunix_path_BB2_253:
	mov	x0, x1
	mov	x1, x23
	mov	x2, xzr
.Lunix_path_BB2_254:
	bl	unix_bytes.utf8.scans.scan_by_sequence
.Lunix_path_BB2_255:
	mov	x22, x0
	mov	x24, x1
	ldr	x26, [sp, #232]
	sub	x8, x26, x25
	cmp	x0, x8
	b.ls	.Lunix_path_BB2_263
	b	.Lunix_path_BB2_261
.Lunix_path_BB2_256:
	ldr	q0, [x1]
	ldr	q1, [x13, :lo12:.Lunix_path_CPI2_0]
	cmlt	v0.16b, v0.16b, #0
	and	v0.16b, v0.16b, v1.16b
	addp	v0.16b, v0.16b, v0.16b
	addp	v0.16b, v0.16b, v0.16b
	addp	v0.16b, v0.16b, v0.16b
	umov	w8, v0.h[0]
	cbz	w8, .Lunix_path_BB2_274
	umov	w8, v0.h[0]
	orr	w8, w8, #0x10000
	rbit	w8, w8
	clz	w22, w8
	add	x9, x1, x22
	ldrb	w8, [x9]
	sub	w10, w8, #194
	sub	x8, x23, x22
	cmp	w10, #50
	ccmp	x8, #2, #0, ls
	b.lo	.Lunix_path_BB2_260
	ldrsb	w9, [x9, #1]
	cmn	w9, #65
	b.gt	.Lunix_path_BB2_260
	mov	x0, x1
	mov	x1, x23
	mov	x2, x22
	cmp	x8, #31
	b.ls	.Lunix_path_BB2_254
	b	.Lunix_path_BB2_276
.Lunix_path_BB2_260:
	mov	w24, #1
	ldr	x26, [sp, #232]
	sub	x8, x26, x25
	cmp	x22, x8
	b.ls	.Lunix_path_BB2_263
.Lunix_path_BB2_261:
	add	x0, sp, #216
	mov	x1, x22
	bl	std_alloc.vec.Vec.grow_amortized.307f257cf2d167af.
	cbz	w0, .Lunix_path_BB2_1293
	ldp	x25, x26, [sp, #224]
.Lunix_path_BB2_263:
	ldr	x27, [sp, #216]
	mov	x1, x20
	add	x8, x27, x25
	sub	x8, x8, x20
	cmp	x8, x22
	add	x8, sp, #216
	stp	xzr, xzr, [x8, #8]
	b.hs	.Lunix_path_BB2_269
	cmp	x22, #8
	adrp	x13, .Lunix_path_CPI2_0
	b.lo	.Lunix_path_BB2_266
	add	x8, x25, x27
	sub	x8, x8, x1
	cmp	x8, #32
	b.hs	.Lunix_path_BB2_277
.Lunix_path_BB2_266:
	mov	x8, xzr
.Lunix_path_BB2_267:
	add	x10, x8, x25
	sub	x9, x22, x8
	add	x8, x1, x8
	add	x10, x27, x10
.Lunix_path_BB2_268:
	ldrb	w11, [x8], #1
	subs	x9, x9, #1
	strb	w11, [x10], #1
	b.ne	.Lunix_path_BB2_268
	b	.Lunix_path_BB2_270
.Lunix_path_BB2_269:
	add	x0, x27, x25
	mov	x2, x22
	bl	memmove
	mov	x1, x20
	adrp	x13, .Lunix_path_CPI2_0
.Lunix_path_BB2_270:
	add	x25, x25, x22
	str	x26, [sp, #232]
	stp	x27, x25, [sp, #216]
	cbz	x24, .Lunix_path_BB2_251
	sub	x8, x26, x25
	cmp	x8, #2
	b.ls	.Lunix_path_BB2_286
	add	x8, x27, x25
	adrp	x9, .Lunix_path_static.35
	add	x9, x9, :lo12:.Lunix_path_static.35
	sub	x9, x8, x9
	cmp	x9, #2
	b.hi	.Lunix_path_BB2_249
.Lunix_path_BB2_273:
	mov	w9, #49135
	mov	w10, #189
	strh	w9, [x8]
	strb	w10, [x8, #2]
	b	.Lunix_path_BB2_250
.Lunix_path_BB2_274:
	cmp	x23, #31
	b.ls	.Lunix_path_BB2_253
	mov	x0, x1
	mov	x1, x23
	mov	x2, xzr
.Lunix_path_BB2_276:
	bl	unix_bytes.utf8.scans.scan_by_window
	b	.Lunix_path_BB2_255
.Lunix_path_BB2_277:
	cmp	x22, #32
	b.hs	.Lunix_path_BB2_279
	mov	x8, xzr
	b	.Lunix_path_BB2_283
.Lunix_path_BB2_279:
	add	x11, x27, x25
	and	x9, x22, #0x18
	and	x8, x22, #0xffffffffffffffe0
	add	x10, x1, #16
	add	x11, x11, #16
	and	x12, x22, #0xffffffffffffffe0
.Lunix_path_BB2_280:
	ldp	q0, q1, [x10, #-16]
	subs	x12, x12, #32
	add	x10, x10, #32
	stp	q0, q1, [x11, #-16]
	add	x11, x11, #32
	b.ne	.Lunix_path_BB2_280
	cmp	x22, x8
	b.eq	.Lunix_path_BB2_270
	cbz	x9, .Lunix_path_BB2_267
.Lunix_path_BB2_283:
	mov	x10, x8
	and	x8, x22, #0xfffffffffffffff8
	add	x11, x25, x10
	sub	x9, x10, x8
	add	x10, x1, x10
	add	x11, x27, x11
.Lunix_path_BB2_284:
	ldr	d0, [x10], #8
	adds	x9, x9, #8
	str	d0, [x11], #8
	b.ne	.Lunix_path_BB2_284
	cmp	x22, x8
	b.eq	.Lunix_path_BB2_270
	b	.Lunix_path_BB2_267
.Lunix_path_BB2_286:
	add	x0, sp, #216
	mov	w1, #3
	bl	std_alloc.vec.Vec.grow_amortized.307f257cf2d167af.
	adrp	x13, .Lunix_path_CPI2_0
	cbz	w0, .Lunix_path_BB2_1293
	ldp	x25, x26, [sp, #224]
	mov	x1, x20
	ldr	x27, [sp, #216]
	add	x8, x27, x25
	adrp	x9, .Lunix_path_static.35
	add	x9, x9, :lo12:.Lunix_path_static.35
	sub	x9, x8, x9
	cmp	x9, #2
	b.hi	.Lunix_path_BB2_249
	b	.Lunix_path_BB2_273
.Lunix_path_BB2_288:
	ldrb	w8, [x26]
	cmp	w8, #101
	b.ne	.Lunix_path_BB2_326
	ldrb	w8, [x26, #1]
	cmp	w8, #120
	b.ne	.Lunix_path_BB2_326
	ldrb	w8, [x26, #2]
	cmp	w8, #116
	b.ne	.Lunix_path_BB2_326
	add	x2, sp, #216
	mov	x0, x15
	mov	x1, x23
	bl	pathtool.names.push_extension
	and	w8, w0, #0xff
	tbz	w8, #0, .Lunix_path_BB2_333
	b	.Lunix_path_BB2_1293
.Lunix_path_BB2_292:
	ldr	w8, [x26]
	mov	w9, #24944
	movk	w9, #25970, lsl #16
	cmp	w8, w9
	b.ne	.Lunix_path_BB2_326
	adrp	x2, .Lunix_path_static.6
	add	x2, x2, :lo12:.Lunix_path_static.6
	mov	x0, x26
	mov	w1, #6
	bl	core.cmp.slices.groups_equal.i8.31.core.cmp.numbers.U8PartialEq.
	ldr	x9, [sp, #176]
	cbz	w0, .Lunix_path_BB2_326
	sub	x8, x29, #120
	mov	x0, x9
	mov	x1, x23
	stp	xzr, xzr, [x8, #8]
	mov	x20, x9
	bl	unix_path.path.Path.parent_len
	and	w8, w0, #0xff
	cmp	w8, #1
	b.ne	.Lunix_path_BB2_765
	mov	w8, #1
	stur	x1, [x29, #-208]
	stp	x8, x20, [x29, #-224]
	b	.Lunix_path_BB2_188
.Lunix_path_BB2_296:
	sub	x25, x29, #88
	ldr	x8, [sp, #192]
	sub	x8, x25, x8
	cmp	x8, x23
	b.lo	.Lunix_path_BB2_67
.Lunix_path_BB2_297:
	mov	x0, x25
	mov	x2, x23
	bl	memmove
	adrp	x13, .Lunix_path_CPI2_0
.Lunix_path_BB2_298:
	stp	xzr, xzr, [x29, #-224]
	stur	xzr, [x29, #-208]
	cbz	w22, .Lunix_path_BB2_459
	cmp	w22, #1
	b.ne	.Lunix_path_BB2_308
	sub	x0, x29, #224
	mov	x1, x24
	mov	x2, x28
	bl	pathtool.tables.insert_path
	ldurb	w22, [x29, #-224]
	adrp	x13, .Lunix_path_CPI2_0
	tst	w0, #0xff
	b.eq	.Lunix_path_BB2_459
	b	.Lunix_path_BB2_1289
.Lunix_path_BB2_301:
	subs	x8, x28, #16
	adrp	x12, .Lunix_path_CPI2_0
	b.eq	.Lunix_path_BB2_305
	mov	x9, xzr
.Lunix_path_BB2_303:
	movi	v0.16b, #58
	ldr	q1, [x24, x9]
	cmeq	v0.16b, v1.16b, v0.16b
	ldr	q1, [x12, :lo12:.Lunix_path_CPI2_0]
	and	v0.16b, v0.16b, v1.16b
	addp	v0.16b, v0.16b, v0.16b
	addp	v0.16b, v0.16b, v0.16b
	addp	v0.16b, v0.16b, v0.16b
	umov	w10, v0.h[0]
	orr	w10, w10, #0x10000
	rbit	w10, w10
	clz	w10, w10
	cmp	w10, #15
	b.ls	.Lunix_path_BB2_608
	add	x9, x9, #16
	cmp	x9, x8
	b.lo	.Lunix_path_BB2_303
.Lunix_path_BB2_305:
	movi	v0.16b, #58
	ldr	q1, [x24, x8]
	cmeq	v0.16b, v1.16b, v0.16b
	ldr	q1, [x12, :lo12:.Lunix_path_CPI2_0]
	and	v0.16b, v0.16b, v1.16b
	addp	v0.16b, v0.16b, v0.16b
	addp	v0.16b, v0.16b, v0.16b
	addp	v0.16b, v0.16b, v0.16b
	umov	w9, v0.h[0]
	orr	w9, w9, #0x10000
	rbit	w9, w9
	clz	w9, w9
	add	x8, x8, x9
	b	.Lunix_path_BB2_609
.Lunix_path_BB2_306:
	cbz	x9, .Lunix_path_BB2_614
	ldur	x0, [x29, #-120]
	bl	rattle_dealloc
	b	.Lunix_path_BB2_614
.Lunix_path_BB2_308:
	mov	w20, wzr
	b	.Lunix_path_BB2_311
.Lunix_path_BB2_309:
	mov	w20, #1
	mov	x21, x24
	mov	x2, x28
.Lunix_path_BB2_310:
	sub	x0, x29, #224
	mov	x1, x24
	bl	pathtool.tables.insert_path
	tst	w0, #0xff
	mov	x24, x21
	adrp	x13, .Lunix_path_CPI2_0
	b.ne	.Lunix_path_BB2_1281
.Lunix_path_BB2_311:
	tbnz	w20, #0, .Lunix_path_BB2_458
	mov	x2, xzr
	cbz	x28, .Lunix_path_BB2_315
.Lunix_path_BB2_313:
	ldrb	w8, [x24, x2]
	cmp	w8, #9
	b.eq	.Lunix_path_BB2_315
	add	x2, x2, #1
	cmp	x28, x2
	b.ne	.Lunix_path_BB2_313
	b	.Lunix_path_BB2_309
.Lunix_path_BB2_315:
	cmp	x2, x28
	b.hs	.Lunix_path_BB2_309
	add	x8, x24, x2
	mvn	x9, x2
	mov	w20, wzr
	add	x21, x8, #1
	add	x28, x28, x9
	b	.Lunix_path_BB2_310
.Lunix_path_BB2_317:
	ldr	x0, [sp, #176]
	ldur	x21, [x29, #-104]
	add	x4, sp, #216
	mov	x1, x23
	mov	x2, x25
	bl	pathtool.edits.push_edited
	and	w20, w0, #0xff
	cbz	x21, .Lunix_path_BB2_600
	mov	x0, x25
	bl	rattle_dealloc
	tbz	w20, #0, .Lunix_path_BB2_333
	b	.Lunix_path_BB2_1293
.Lunix_path_BB2_319:
	cmp	w24, #106
	b.ne	.Lunix_path_BB2_326
	cmp	w22, #115
	b.ne	.Lunix_path_BB2_326
	cmp	w21, #110
	b.ne	.Lunix_path_BB2_326
	cmp	w20, #111
	b.ne	.Lunix_path_BB2_326
	adrp	x2, .Lunix_path_static.13
	add	x2, x2, :lo12:.Lunix_path_static.13
	mov	x0, x26
	mov	w1, #4
	bl	core.cmp.slices.groups_equal.i8.31.core.cmp.numbers.U8PartialEq.
	ldr	x8, [sp, #176]
	cbz	w0, .Lunix_path_BB2_326
	cmp	x23, #31
	mov	x0, x8
	mov	x1, x23
	mov	x2, xzr
	stur	xzr, [x29, #-120]
	b.hi	.Lunix_path_BB2_779
	bl	unix_bytes.utf8.scans.scan_by_sequence
	b	.Lunix_path_BB2_780
.Lunix_path_BB2_326:
	ldr	x8, [sp, #232]
	cmp	x8, #10
	b.ls	.Lunix_path_BB2_615
	mov	x9, xzr
.Lunix_path_BB2_328:
	ldr	x10, [sp, #216]
	adrp	x12, .Lunix_path_static.55
	add	x12, x12, :lo12:.Lunix_path_static.55
	add	x11, x10, x9
	sub	x13, x11, x12
	cmp	x13, #10
	b.hi	.Lunix_path_BB2_330
	adrp	x12, .Lunix_path_CPI2_5
	mov	w13, #28257
	ldr	d0, [x12, :lo12:.Lunix_path_CPI2_5]
	mov	w12, #100
	strh	w13, [x11, #8]
	strb	w12, [x11, #10]
	str	d0, [x11]
	b	.Lunix_path_BB2_331
.Lunix_path_BB2_330:
	mov	w13, #24941
	ldr	x12, [x12]
	movk	w13, #25710, lsl #16
	stur	w13, [x11, #7]
	str	x12, [x11]
.Lunix_path_BB2_331:
	add	x9, x9, #11
.Lunix_path_BB2_332:
	stp	x10, x9, [sp, #216]
	str	x8, [sp, #232]
.Lunix_path_BB2_333:
	ldp	x8, x9, [sp, #224]
	cmp	x9, x8
	b.eq	.Lunix_path_BB2_379
	ldr	x9, [sp, #216]
	adds	x20, x8, #1
	mov	w10, #10
	strb	w10, [x9, x8]
	str	x20, [sp, #224]
	b.hs	.Lunix_path_BB2_2
.Lunix_path_BB2_335:
	ldr	x22, [sp, #216]
	mov	x21, xzr
	mvn	x24, x8
.Lunix_path_BB2_336:
	add	x23, x22, x21
	sub	x25, x20, x21
	strb	wzr, [x19, #34]
	mov	x28, #-1
.Lunix_path_BB2_337:
	movi	v0.2d, #0000000000000000
	ldp	x27, x26, [x19, #16]
	sub	x8, x29, #224
	stp	q0, q0, [x8, #64]
	str	q0, [x8, #48]
	sub	x8, x26, x27
	cmp	x25, x8
	stp	q0, q0, [x29, #-208]
	stur	q0, [x29, #-224]
	b.lo	.Lunix_path_BB2_349
	sub	x0, x29, #224
	add	x2, x22, x21
	sub	x3, x20, x21
	mov	x1, x19
	bl	std.io.buffered.BufWriter.write_cold.30751c9e8e42e953.
	ldurb	w9, [x29, #-224]
	ldur	x8, [x29, #-216]
	cmp	w9, #1
	b.ne	.Lunix_path_BB2_378
	adrp	x9, .Lunix_path_CPI2_15
	adrp	x10, .Lunix_path_CPI2_16
	ldr	q0, [x9, :lo12:.Lunix_path_CPI2_15]
	adrp	x9, .Lunix_path_CPI2_17
	ldr	q1, [x10, :lo12:.Lunix_path_CPI2_16]
	ubfx	w10, w8, #8, #8
	ldr	d2, [x9, :lo12:.Lunix_path_CPI2_17]
	mov	w9, #40
	stp	q0, q1, [x29, #-224]
	cmp	w10, #41
	stur	d2, [x29, #-192]
	sturb	w9, [x29, #-184]
	b.hs	.Lunix_path_BB2_1274
	ubfx	x8, x8, #8, #6
	sub	x9, x29, #224
	ldrb	w8, [x9, x8]
	cmp	w8, #35
	b.ne	.Lunix_path_BB2_1274
	subs	x28, x28, #1
	b.ne	.Lunix_path_BB2_337
	movi	v0.2d, #0000000000000000
	ldp	x27, x26, [x19, #16]
	sub	x8, x29, #224
	stp	q0, q0, [x8, #64]
	str	q0, [x8, #48]
	sub	x8, x26, x27
	cmp	x25, x8
	stp	q0, q0, [x29, #-208]
	stur	q0, [x29, #-224]
	b.hs	.Lunix_path_BB2_376
	ldr	x28, [x19, #8]
	stp	xzr, xzr, [x19, #16]
	add	x8, x28, x27
	sub	x8, x8, x23
	cmp	x8, x25
	b.hs	.Lunix_path_BB2_355
	cmp	x25, #8
	b.lo	.Lunix_path_BB2_346
	add	x8, x27, x28
	add	x9, x21, x22
	sub	x8, x8, x9
	cmp	x8, #32
	b.hs	.Lunix_path_BB2_367
.Lunix_path_BB2_346:
	mov	x8, xzr
.Lunix_path_BB2_347:
	add	x9, x8, x21
	add	x10, x8, x27
	add	x8, x9, x24
	add	x9, x22, x9
	add	x10, x28, x10
.Lunix_path_BB2_348:
	ldrb	w11, [x9], #1
	adds	x8, x8, #1
	strb	w11, [x10], #1
	b.lo	.Lunix_path_BB2_348
	b	.Lunix_path_BB2_356
.Lunix_path_BB2_349:
	ldr	x28, [x19, #8]
	stp	xzr, xzr, [x19, #16]
	add	x8, x28, x27
	sub	x8, x8, x23
	cmp	x8, x25
	b.hs	.Lunix_path_BB2_355
	cmp	x25, #8
	b.lo	.Lunix_path_BB2_352
	add	x8, x21, x22
	sub	x8, x28, x8
	add	x8, x8, x27
	cmp	x8, #32
	b.hs	.Lunix_path_BB2_358
.Lunix_path_BB2_352:
	mov	x8, xzr
.Lunix_path_BB2_353:
	add	x9, x8, x21
	add	x10, x28, x8
	add	x8, x9, x24
	add	x9, x22, x9
	add	x10, x10, x27
.Lunix_path_BB2_354:
	ldrb	w11, [x9], #1
	adds	x8, x8, #1
	strb	w11, [x10], #1
	b.lo	.Lunix_path_BB2_354
	b	.Lunix_path_BB2_356
.Lunix_path_BB2_355:
	add	x0, x28, x27
	add	x1, x22, x21
	sub	x2, x20, x21
	bl	memmove
.Lunix_path_BB2_356:
	add	x8, x27, x25
	str	x26, [x19, #24]
	stp	x28, x8, [x19, #8]
	sub	x8, x20, x21
	cbz	x8, .Lunix_path_BB2_1274
.Lunix_path_BB2_357:
	add	x21, x8, x21
	cmp	x21, x20
	b.lo	.Lunix_path_BB2_336
	b	.Lunix_path_BB2_2
.Lunix_path_BB2_358:
	cmp	x25, #32
	b.hs	.Lunix_path_BB2_360
	mov	x8, xzr
	b	.Lunix_path_BB2_364
.Lunix_path_BB2_360:
	add	x11, x28, x27
	add	x10, x22, #16
	and	x9, x25, #0x18
	and	x8, x25, #0xffffffffffffffe0
	add	x10, x10, x21
	add	x11, x11, #16
	and	x12, x25, #0xffffffffffffffe0
.Lunix_path_BB2_361:
	ldp	q0, q1, [x10, #-16]
	subs	x12, x12, #32
	add	x10, x10, #32
	stp	q0, q1, [x11, #-16]
	add	x11, x11, #32
	b.ne	.Lunix_path_BB2_361
	cmp	x25, x8
	b.eq	.Lunix_path_BB2_356
	cbz	x9, .Lunix_path_BB2_353
.Lunix_path_BB2_364:
	mov	x9, x8
	and	x8, x25, #0xfffffffffffffff8
	add	x10, x9, x21
	add	x11, x28, x9
	sub	x9, x9, x8
	add	x10, x22, x10
	add	x11, x11, x27
.Lunix_path_BB2_365:
	ldr	d0, [x10], #8
	adds	x9, x9, #8
	str	d0, [x11], #8
	b.ne	.Lunix_path_BB2_365
	cmp	x25, x8
	b.eq	.Lunix_path_BB2_356
	b	.Lunix_path_BB2_353
.Lunix_path_BB2_367:
	cmp	x25, #32
	b.hs	.Lunix_path_BB2_369
	mov	x8, xzr
	b	.Lunix_path_BB2_373
.Lunix_path_BB2_369:
	add	x11, x28, x27
	add	x10, x22, #16
	and	x9, x25, #0x18
	and	x8, x25, #0xffffffffffffffe0
	add	x10, x10, x21
	add	x11, x11, #16
	and	x12, x25, #0xffffffffffffffe0
.Lunix_path_BB2_370:
	ldp	q0, q1, [x10, #-16]
	subs	x12, x12, #32
	add	x10, x10, #32
	stp	q0, q1, [x11, #-16]
	add	x11, x11, #32
	b.ne	.Lunix_path_BB2_370
	cmp	x25, x8
	b.eq	.Lunix_path_BB2_356
	cbz	x9, .Lunix_path_BB2_347
.Lunix_path_BB2_373:
	mov	x9, x8
	and	x8, x25, #0xfffffffffffffff8
	add	x10, x9, x21
	add	x11, x9, x27
	sub	x9, x9, x8
	add	x10, x22, x10
	add	x11, x28, x11
.Lunix_path_BB2_374:
	ldr	d0, [x10], #8
	adds	x9, x9, #8
	str	d0, [x11], #8
	b.ne	.Lunix_path_BB2_374
	cmp	x25, x8
	b.eq	.Lunix_path_BB2_356
	b	.Lunix_path_BB2_347
.Lunix_path_BB2_376:
	sub	x0, x29, #224
	add	x2, x22, x21
	sub	x3, x20, x21
	mov	x1, x19
	bl	std.io.buffered.BufWriter.write_cold.30751c9e8e42e953.
	ldurb	w8, [x29, #-224]
	cbnz	w8, .Lunix_path_BB2_1274
	ldur	x8, [x29, #-216]
.Lunix_path_BB2_378:
	cbnz	x8, .Lunix_path_BB2_357
	b	.Lunix_path_BB2_1274
.Lunix_path_BB2_379:
	add	x0, sp, #216
	mov	w1, #1
	bl	std_alloc.vec.Vec.grow_amortized.307f257cf2d167af.
	cbz	w0, .Lunix_path_BB2_1293
	ldp	x9, x8, [sp, #216]
	adds	x20, x8, #1
	mov	w10, #10
	strb	w10, [x9, x8]
	str	x20, [sp, #224]
	b.hs	.Lunix_path_BB2_2
	b	.Lunix_path_BB2_335
.Lunix_path_BB2_381:
	cbz	x23, .Lunix_path_BB2_640
.Lunix_path_BB2_382:
	ldr	x8, [sp, #192]
	mov	x25, x23
	add	x8, x8, x23
	ldurb	w8, [x8, #-1]
	cmp	w8, #47
	mov	w8, #47
	cset	w22, ne
	csel	w21, w8, wzr, ne
	b	.Lunix_path_BB2_641
.Lunix_path_BB2_383:
	mov	x8, xzr
.Lunix_path_BB2_384:
	cbz	x28, .Lunix_path_BB2_918
	cmp	x28, x8
	stp	xzr, xzr, [x29, #-224]
	csel	x9, x28, x8, lo
	stur	xzr, [x29, #-208]
	cmp	x9, #15
	b.hi	.Lunix_path_BB2_587
	cmp	x9, #7
	b.hi	.Lunix_path_BB2_661
	cbz	x8, .Lunix_path_BB2_863
	ldrb	w10, [x15]
	ldrb	w11, [x24]
	cmp	w10, w11
	b.ne	.Lunix_path_BB2_865
	cmp	x9, #1
	b.eq	.Lunix_path_BB2_769
	ldrb	w10, [x15, #1]
	ldrb	w11, [x24, #1]
	cmp	w10, w11
	b.ne	.Lunix_path_BB2_1153
	cmp	x9, #2
	b.eq	.Lunix_path_BB2_769
	ldrb	w10, [x15, #2]
	ldrb	w11, [x24, #2]
	cmp	w10, w11
	b.ne	.Lunix_path_BB2_1162
	cmp	x9, #3
	b.ne	.Lunix_path_BB2_1244
.Lunix_path_BB2_394:
	ldr	x15, [sp, #176]
	b	.Lunix_path_BB2_769
.Lunix_path_BB2_395:
	mov	x22, xzr
.Lunix_path_BB2_396:
	ldr	x14, [sp, #176]
.Lunix_path_BB2_397:
	add	x25, x26, x27
	mov	x24, xzr
	mov	w28, #1
	sub	x26, x25, #15
	b	.Lunix_path_BB2_400
.Lunix_path_BB2_398:
	add	x0, x21, x24
	mov	x1, x23
	mov	x2, x27
	bl	memmove
	ldr	x14, [sp, #176]
	adrp	x13, .Lunix_path_CPI2_0
.Lunix_path_BB2_399:
	add	x24, x24, x27
	mov	w28, wzr
	str	x20, [sp, #232]
	stp	x21, x24, [sp, #216]
.Lunix_path_BB2_400:
	cmp	x22, #1
	b.eq	.Lunix_path_BB2_406
	cbz	x22, .Lunix_path_BB2_333
	ldr	x8, [sp, #192]
	add	x9, x8, x22
	ldurb	w8, [x9, #-1]
	cmp	w8, #46
	mov	x8, x22
	b.ne	.Lunix_path_BB2_410
	ldurb	w8, [x9, #-2]
	cmp	w8, #46
	mov	x8, x22
	b.ne	.Lunix_path_BB2_410
	subs	x20, x22, #2
	b.ne	.Lunix_path_BB2_408
	mov	x22, xzr
	adrp	x23, .Lunix_path_static.33
	add	x23, x23, :lo12:.Lunix_path_static.33
	mov	w27, #2
	b	.Lunix_path_BB2_433
.Lunix_path_BB2_406:
	ldrb	w8, [x14]
	cmp	w8, #46
	mov	x8, x22
	b.ne	.Lunix_path_BB2_410
	mov	x22, xzr
	adrp	x23, .Lunix_path_static.27
	add	x23, x23, :lo12:.Lunix_path_static.27
	mov	w27, #1
	b	.Lunix_path_BB2_433
.Lunix_path_BB2_408:
	ldurb	w8, [x9, #-3]
	cmp	w8, #47
	mov	x8, x22
	b.ne	.Lunix_path_BB2_410
	mov	x8, x20
	b	.Lunix_path_BB2_426
.Lunix_path_BB2_410:
	cmp	x8, #15
	b.ls	.Lunix_path_BB2_414
	movi	v0.16b, #47
	ldr	q1, [x26, x8]
	sub	x9, x8, #16
	mov	x8, x9
	cmeq	v0.16b, v1.16b, v0.16b
	ldr	q1, [x13, :lo12:.Lunix_path_CPI2_0]
	and	v0.16b, v0.16b, v1.16b
	addp	v0.16b, v0.16b, v0.16b
	addp	v0.16b, v0.16b, v0.16b
	addp	v0.16b, v0.16b, v0.16b
	umov	w10, v0.h[0]
	cbz	w10, .Lunix_path_BB2_410
	umov	w8, v0.h[0]
	and	x8, x8, #0xffff
	clz	x8, x8
	sub	x8, x9, x8
	add	x20, x8, #64
	subs	x27, x22, x20
	b.ne	.Lunix_path_BB2_417
.Lunix_path_BB2_413:
	mov	x22, xzr
	adrp	x23, .Lunix_path_static.26
	add	x23, x23, :lo12:.Lunix_path_static.26
	mov	w27, #1
	b	.Lunix_path_BB2_433
.Lunix_path_BB2_414:
	cbz	x8, .Lunix_path_BB2_432
	ldrb	w10, [x25, x8]
	sub	x9, x8, #1
	mov	x8, x9
	cmp	w10, #47
	b.ne	.Lunix_path_BB2_414
	add	x20, x9, #1
	subs	x27, x22, x20
	b.eq	.Lunix_path_BB2_413
.Lunix_path_BB2_417:
	ldr	x8, [sp, #192]
	mov	x22, x20
	add	x23, x8, x20
	b	.Lunix_path_BB2_419
.Lunix_path_BB2_418:
	mov	x22, x2
	cbz	x2, .Lunix_path_BB2_433
.Lunix_path_BB2_419:
	subs	x2, x22, #1
	b.eq	.Lunix_path_BB2_433
	ldr	x8, [sp, #192]
	add	x8, x8, x2
	ldrb	w9, [x8]
	cmp	w9, #47
	b.eq	.Lunix_path_BB2_423
	cmp	w9, #46
	b.ne	.Lunix_path_BB2_433
	ldurb	w8, [x8, #-1]
	cmp	w8, #47
	b.ne	.Lunix_path_BB2_433
.Lunix_path_BB2_423:
	sub	x8, x20, x2
	cmp	x8, #8
	b.ne	.Lunix_path_BB2_418
	mov	x0, x14
	mov	x1, xzr
	bl	unix_path.filler.trimmed_blocks_len
	ldr	x14, [sp, #176]
	mov	x2, x0
	b	.Lunix_path_BB2_418
.Lunix_path_BB2_425:
	mov	x22, xzr
	adrp	x23, .Lunix_path_static.33
	add	x23, x23, :lo12:.Lunix_path_static.33
	mov	w27, #2
	mov	x8, x2
	cbz	x2, .Lunix_path_BB2_433
.Lunix_path_BB2_426:
	subs	x2, x8, #1
	b.eq	.Lunix_path_BB2_456
	ldr	x9, [sp, #192]
	add	x9, x9, x2
	ldrb	w10, [x9]
	cmp	w10, #47
	b.eq	.Lunix_path_BB2_430
	cmp	w10, #46
	b.ne	.Lunix_path_BB2_457
	ldurb	w9, [x9, #-1]
	cmp	w9, #47
	b.ne	.Lunix_path_BB2_457
.Lunix_path_BB2_430:
	sub	x8, x20, x2
	cmp	x8, #8
	b.ne	.Lunix_path_BB2_425
	mov	x0, x14
	mov	x1, xzr
	bl	unix_path.filler.trimmed_blocks_len
	ldr	x14, [sp, #176]
	mov	x2, x0
	b	.Lunix_path_BB2_425
.Lunix_path_BB2_432:
	ldr	x8, [sp, #192]
	cmp	x22, #0
	adrp	x9, .Lunix_path_static.26
	add	x9, x9, :lo12:.Lunix_path_static.26
	csel	x23, x9, x8, eq
	cmp	x22, #1
	csinc	x27, x22, xzr, hi
	mov	x22, xzr
.Lunix_path_BB2_433:
	tbnz	w28, #0, .Lunix_path_BB2_436
	ldr	x8, [sp, #232]
	cmp	x8, x24
	b.eq	.Lunix_path_BB2_454
.Lunix_path_BB2_435:
	ldr	x8, [sp, #216]
	mov	w9, #9
	strb	w9, [x8, x24]
	add	x24, x24, #1
	str	x24, [sp, #224]
.Lunix_path_BB2_436:
	ldr	x20, [sp, #232]
	sub	x8, x20, x24
	cmp	x27, x8
	b.hi	.Lunix_path_BB2_452
.Lunix_path_BB2_437:
	ldr	x21, [sp, #216]
	add	x8, x21, x24
	sub	x8, x8, x23
	cmp	x8, x27
	add	x8, sp, #216
	stp	xzr, xzr, [x8, #8]
	b.hs	.Lunix_path_BB2_398
	cmp	x27, #8
	adrp	x13, .Lunix_path_CPI2_0
	b.lo	.Lunix_path_BB2_440
	add	x8, x24, x21
	sub	x8, x8, x23
	cmp	x8, #32
	b.hs	.Lunix_path_BB2_443
.Lunix_path_BB2_440:
	mov	x8, xzr
.Lunix_path_BB2_441:
	add	x10, x8, x24
	sub	x9, x27, x8
	add	x8, x23, x8
	add	x10, x21, x10
.Lunix_path_BB2_442:
	ldrb	w11, [x8], #1
	subs	x9, x9, #1
	strb	w11, [x10], #1
	b.ne	.Lunix_path_BB2_442
	b	.Lunix_path_BB2_399
.Lunix_path_BB2_443:
	cmp	x27, #32
	b.hs	.Lunix_path_BB2_445
	mov	x8, xzr
	b	.Lunix_path_BB2_449
.Lunix_path_BB2_445:
	add	x11, x21, x24
	and	x9, x27, #0x18
	and	x8, x27, #0xffffffffffffffe0
	add	x10, x23, #16
	add	x11, x11, #16
	and	x12, x27, #0xffffffffffffffe0
.Lunix_path_BB2_446:
	ldp	q0, q1, [x10, #-16]
	subs	x12, x12, #32
	add	x10, x10, #32
	stp	q0, q1, [x11, #-16]
	add	x11, x11, #32
	b.ne	.Lunix_path_BB2_446
	cmp	x27, x8
	b.eq	.Lunix_path_BB2_399
	cbz	x9, .Lunix_path_BB2_441
.Lunix_path_BB2_449:
	mov	x10, x8
	and	x8, x27, #0xfffffffffffffff8
	add	x11, x24, x10
	sub	x9, x10, x8
	add	x10, x23, x10
	add	x11, x21, x11
.Lunix_path_BB2_450:
	ldr	d0, [x10], #8
	adds	x9, x9, #8
	str	d0, [x11], #8
	b.ne	.Lunix_path_BB2_450
	cmp	x27, x8
	b.eq	.Lunix_path_BB2_399
	b	.Lunix_path_BB2_441
.Lunix_path_BB2_452:
	add	x0, sp, #216
	mov	x1, x27
	bl	std_alloc.vec.Vec.grow_amortized.307f257cf2d167af.
	ldr	x14, [sp, #176]
	cbz	w0, .Lunix_path_BB2_1293
	ldp	x24, x20, [sp, #224]
	b	.Lunix_path_BB2_437
.Lunix_path_BB2_454:
	add	x0, sp, #216
	mov	w1, #1
	bl	std_alloc.vec.Vec.grow_amortized.307f257cf2d167af.
	ldr	x14, [sp, #176]
	cbz	w0, .Lunix_path_BB2_1293
	ldr	x24, [sp, #224]
	b	.Lunix_path_BB2_435
.Lunix_path_BB2_456:
	adrp	x23, .Lunix_path_static.33
	add	x23, x23, :lo12:.Lunix_path_static.33
	mov	w27, #2
	mov	w22, #1
	b	.Lunix_path_BB2_433
.Lunix_path_BB2_457:
	adrp	x23, .Lunix_path_static.33
	add	x23, x23, :lo12:.Lunix_path_static.33
	mov	w27, #2
	mov	x22, x8
	b	.Lunix_path_BB2_433
.Lunix_path_BB2_458:
	ldurb	w22, [x29, #-224]
.Lunix_path_BB2_459:
	mov	w8, w22
	ldur	q0, [x29, #-216]
	ldur	x20, [x29, #-216]
	stur	x8, [x29, #-248]
	sub	x8, x29, #88
	sub	x9, x29, #88
	str	x8, [sp, #192]
	cmp	w22, #1
	sub	x8, x29, #120
	stur	x9, [x29, #-120]
	stur	q0, [x29, #-240]
	stp	xzr, xzr, [x8, #8]
	b.ne	.Lunix_path_BB2_475
	mov	x8, x20
	mov	x26, xzr
	ldrh	w22, [x8], #8
	str	x8, [sp, #192]
	cbz	x22, .Lunix_path_BB2_466
	add	x21, x20, #16
.Lunix_path_BB2_462:
	ldp	x2, x3, [x21, #-8]
	mov	x0, x25
	mov	x1, x23
	bl	unix_path.order.PathOrd.cmp
	and	w8, w0, #0xff
	cmp	w8, #2
	b.ne	.Lunix_path_BB2_465
	add	x26, x26, #1
	add	x21, x21, #24
	cmp	x22, x26
	b.ne	.Lunix_path_BB2_462
	mov	x26, x22
.Lunix_path_BB2_465:
	adrp	x13, .Lunix_path_CPI2_0
.Lunix_path_BB2_466:
	ldrh	w8, [x20, #2]
	cbz	w8, .Lunix_path_BB2_477
	ldr	x8, [sp, #136]
	mov	x21, xzr
	b	.Lunix_path_BB2_471
.Lunix_path_BB2_468:
	mov	x26, x22
.Lunix_path_BB2_469:
	adrp	x13, .Lunix_path_CPI2_0
.Lunix_path_BB2_470:
	ldrh	w9, [x20, #2]
	add	x21, x24, x21, lsl #4
	add	x8, x27, #368
	cbz	w9, .Lunix_path_BB2_476
.Lunix_path_BB2_471:
	add	x27, x20, x26, lsl #3
	mov	x24, x26
	mov	x26, xzr
	str	x8, [sp, #112]
	ldr	x20, [x27, #368]
	mov	x9, x20
	ldrh	w22, [x9], #8
	str	x9, [sp, #192]
	cbz	x22, .Lunix_path_BB2_470
	add	x28, x20, #16
.Lunix_path_BB2_473:
	ldp	x2, x3, [x28, #-8]
	mov	x0, x25
	mov	x1, x23
	bl	unix_path.order.PathOrd.cmp
	and	w8, w0, #0xff
	cmp	w8, #2
	b.ne	.Lunix_path_BB2_469
	add	x26, x26, #1
	add	x28, x28, #24
	cmp	x22, x26
	b.ne	.Lunix_path_BB2_473
	b	.Lunix_path_BB2_468
.Lunix_path_BB2_475:
	mov	x26, xzr
	mov	x22, xzr
	str	wzr, [sp, #176]
	str	xzr, [sp, #80]
	mov	x21, xzr
	sub	x8, x29, #88
	str	xzr, [sp, #112]
	str	xzr, [sp, #96]
	b	.Lunix_path_BB2_479
.Lunix_path_BB2_476:
	mov	x8, #-1
	str	x8, [sp, #96]
	mov	w8, #1
	str	w8, [sp, #176]
	ldr	x8, [sp, #136]
	str	x8, [sp, #80]
	b	.Lunix_path_BB2_478
.Lunix_path_BB2_477:
	mov	x21, xzr
	str	xzr, [sp, #112]
	str	wzr, [sp, #176]
	str	xzr, [sp, #80]
	str	xzr, [sp, #96]
.Lunix_path_BB2_478:
	add	x8, x20, #368
.Lunix_path_BB2_479:
	str	x8, [sp, #144]
	b	.Lunix_path_BB2_484
.Lunix_path_BB2_480:
	mov	x0, x27
	mov	x1, x28
	bl	unix_path.filler.filler_end_from
	adrp	x13, .Lunix_path_CPI2_0
	mov	x2, x0
.Lunix_path_BB2_481:
	add	x27, x27, x2
	sub	x24, x28, x2
	mov	x28, x20
.Lunix_path_BB2_482:
	ldp	x8, x9, [x29, #-112]
	cmp	x9, x8
	b.eq	.Lunix_path_BB2_547
.Lunix_path_BB2_483:
	mov	w9, #24
	ldur	x10, [x29, #-120]
	madd	x9, x8, x9, x10
	add	x8, x8, #1
	stp	x27, x24, [x9]
	str	x28, [x9, #16]
	stur	x8, [x29, #-112]
.Lunix_path_BB2_484:
	cmp	x26, x22
	b.lo	.Lunix_path_BB2_488
	movi	v0.2d, #0000000000000000
	ldr	w8, [sp, #176]
	cmp	w8, #1
	stp	q0, q0, [x29, #-208]
	stur	q0, [x29, #-224]
	b.eq	.Lunix_path_BB2_497
	str	wzr, [sp, #176]
.Lunix_path_BB2_487:
	cmp	x26, x22
	b.hs	.Lunix_path_BB2_575
.Lunix_path_BB2_488:
	mov	w8, #24
	ldr	x28, [sp, #144]
	ldr	x9, [sp, #192]
	madd	x8, x26, x8, x9
	add	x26, x26, #1
	ldp	x27, x20, [x8]
	cbz	x20, .Lunix_path_BB2_501
.Lunix_path_BB2_489:
	mov	x24, x20
	b	.Lunix_path_BB2_491
.Lunix_path_BB2_490:
	mov	x24, x2
	cbz	x2, .Lunix_path_BB2_502
.Lunix_path_BB2_491:
	subs	x2, x24, #1
	b.eq	.Lunix_path_BB2_502
	add	x8, x27, x2
	ldrb	w9, [x8]
	cmp	w9, #47
	b.eq	.Lunix_path_BB2_495
	cmp	w9, #46
	b.ne	.Lunix_path_BB2_502
	ldurb	w8, [x8, #-1]
	cmp	w8, #47
	b.ne	.Lunix_path_BB2_502
.Lunix_path_BB2_495:
	sub	x8, x20, x2
	cmp	x8, #8
	b.ne	.Lunix_path_BB2_490
	mov	x0, x27
	mov	x1, xzr
	bl	unix_path.filler.trimmed_blocks_len
	adrp	x13, .Lunix_path_CPI2_0
	mov	x2, x0
	b	.Lunix_path_BB2_490
.Lunix_path_BB2_497:
	ldr	x2, [sp, #112]
	ldr	x3, [sp, #80]
	sub	x0, x29, #224
	ldr	x4, [sp, #96]
	mov	x1, x21
	bl	std_collections.btree.iter.Cursor.advance.23.unix_path.buf.PathBuf.
	ldurb	w8, [x29, #-200]
	cmp	w8, #1
	b.ne	.Lunix_path_BB2_499
	ldp	x21, x8, [x29, #-192]
	mov	x26, xzr
	str	x8, [sp, #112]
	ldr	x8, [x8]
	ubfiz	x9, x21, #3, #4
	add	x8, x8, x9
	ldr	x8, [x8, #368]
	mov	x9, x8
	add	x8, x8, #368
	ldrh	w22, [x9], #8
	str	x8, [sp, #144]
	mov	w8, #1
	str	x9, [sp, #192]
	str	w8, [sp, #176]
	ldurb	w8, [x29, #-224]
	adrp	x13, .Lunix_path_CPI2_0
	cmp	w8, #1
	b.ne	.Lunix_path_BB2_487
	b	.Lunix_path_BB2_500
.Lunix_path_BB2_499:
	str	wzr, [sp, #176]
	mov	x21, xzr
	str	xzr, [sp, #80]
	str	xzr, [sp, #112]
	str	xzr, [sp, #96]
	ldurb	w8, [x29, #-224]
	adrp	x13, .Lunix_path_CPI2_0
	cmp	w8, #1
	b.ne	.Lunix_path_BB2_487
.Lunix_path_BB2_500:
	ldp	x8, x28, [x29, #-216]
	ldp	x27, x20, [x8]
	cbnz	x20, .Lunix_path_BB2_489
.Lunix_path_BB2_501:
	mov	x24, xzr
.Lunix_path_BB2_502:
	cbz	x23, .Lunix_path_BB2_482
	cmp	x23, x24
	stp	xzr, xzr, [x29, #-224]
	csel	x8, x23, x24, lo
	stur	xzr, [x29, #-208]
	cmp	x8, #15
	b.hi	.Lunix_path_BB2_519
	cmp	x8, #7
	b.hi	.Lunix_path_BB2_524
	cbz	x24, .Lunix_path_BB2_546
	ldrb	w9, [x27]
	ldrb	w10, [x25]
	cmp	w9, w10
	b.ne	.Lunix_path_BB2_549
	cmp	x8, #1
	b.eq	.Lunix_path_BB2_534
	ldrb	w9, [x27, #1]
	ldrb	w10, [x25, #1]
	cmp	w9, w10
	b.ne	.Lunix_path_BB2_570
	cmp	x8, #2
	b.eq	.Lunix_path_BB2_534
	ldrb	w9, [x27, #2]
	ldrb	w10, [x25, #2]
	cmp	w9, w10
	b.ne	.Lunix_path_BB2_571
	cmp	x8, #3
	b.eq	.Lunix_path_BB2_534
	ldrb	w9, [x27, #3]
	ldrb	w10, [x25, #3]
	cmp	w9, w10
	b.ne	.Lunix_path_BB2_572
	cmp	x8, #4
	b.eq	.Lunix_path_BB2_534
	ldrb	w9, [x27, #4]
	ldrb	w10, [x25, #4]
	cmp	w9, w10
	b.ne	.Lunix_path_BB2_573
	cmp	x8, #5
	b.eq	.Lunix_path_BB2_534
	ldrb	w9, [x27, #5]
	ldrb	w10, [x25, #5]
	cmp	w9, w10
	b.ne	.Lunix_path_BB2_574
	cmp	x8, #6
	b.eq	.Lunix_path_BB2_534
	ldrb	w9, [x27, #6]
	ldrb	w10, [x25, #6]
	cmp	w9, w10
	mov	w9, #6
	csel	x8, x8, x9, eq
	b	.Lunix_path_BB2_534
.Lunix_path_BB2_519:
	cmp	x8, #64
	b.lo	.Lunix_path_BB2_526
	mov	x9, xzr
	mov	x10, x8
.Lunix_path_BB2_521:
	add	x11, x27, x9
	add	x12, x25, x9
	ldp	q0, q1, [x11]
	ldp	q2, q3, [x11, #32]
	ldp	q4, q5, [x12]
	ldp	q6, q7, [x12, #32]
	cmeq	v0.16b, v0.16b, v4.16b
	cmeq	v1.16b, v1.16b, v5.16b
	ldr	q4, [x13, :lo12:.Lunix_path_CPI2_0]
	cmeq	v3.16b, v3.16b, v7.16b
	cmeq	v2.16b, v2.16b, v6.16b
	bic	v0.16b, v4.16b, v0.16b
	bic	v1.16b, v4.16b, v1.16b
	bic	v2.16b, v4.16b, v2.16b
	bic	v3.16b, v4.16b, v3.16b
	addp	v0.16b, v0.16b, v1.16b
	addp	v1.16b, v2.16b, v3.16b
	addp	v0.16b, v0.16b, v1.16b
	addp	v0.16b, v0.16b, v0.16b
	fmov	x11, d0
	cbnz	x11, .Lunix_path_BB2_527
	sub	x10, x10, #64
	add	x9, x9, #64
	cmp	x10, #63
	b.hi	.Lunix_path_BB2_521
	and	x9, x8, #0xffffffffffffffc0
	sub	x8, x8, #16
	cmp	x9, x8
	b.lo	.Lunix_path_BB2_528
	b	.Lunix_path_BB2_530
.Lunix_path_BB2_524:
	ldr	d0, [x27]
	ldr	d1, [x25]
	adrp	x9, .Lunix_path_CPI2_1
	cmeq	v1.8b, v0.8b, v1.8b
	ldr	d0, [x9, :lo12:.Lunix_path_CPI2_1]
	bic	v1.8b, v0.8b, v1.8b
	addv	b1, v1.8b
	fmov	w9, s1
	orr	w9, w9, #0x100
	rbit	w9, w9
	clz	w9, w9
	cmp	w9, #8
	b.hs	.Lunix_path_BB2_532
	mov	x8, x9
	b	.Lunix_path_BB2_534
.Lunix_path_BB2_526:
	mov	x9, xzr
.Lunix_path_BB2_527:
	sub	x8, x8, #16
	cmp	x9, x8
	b.hs	.Lunix_path_BB2_530
.Lunix_path_BB2_528:
	ldr	q0, [x27, x9]
	ldr	q1, [x25, x9]
	cmeq	v0.16b, v0.16b, v1.16b
	ldr	q1, [x13, :lo12:.Lunix_path_CPI2_0]
	bic	v0.16b, v1.16b, v0.16b
	addp	v0.16b, v0.16b, v0.16b
	addp	v0.16b, v0.16b, v0.16b
	addp	v0.16b, v0.16b, v0.16b
	umov	w10, v0.h[0]
	orr	w10, w10, #0x10000
	rbit	w10, w10
	clz	w10, w10
	cmp	w10, #15
	b.ls	.Lunix_path_BB2_531
	add	x9, x9, #16
	cmp	x9, x8
	b.lo	.Lunix_path_BB2_528
.Lunix_path_BB2_530:
	ldr	q0, [x27, x8]
	ldr	q1, [x25, x8]
	cmeq	v0.16b, v0.16b, v1.16b
	ldr	q1, [x13, :lo12:.Lunix_path_CPI2_0]
	bic	v0.16b, v1.16b, v0.16b
	addp	v0.16b, v0.16b, v0.16b
	addp	v0.16b, v0.16b, v0.16b
	addp	v0.16b, v0.16b, v0.16b
	umov	w9, v0.h[0]
	orr	w9, w9, #0x10000
	b	.Lunix_path_BB2_533
.Lunix_path_BB2_531:
	add	x8, x9, w10, uxtw
	b	.Lunix_path_BB2_534
.Lunix_path_BB2_532:
	sub	x8, x8, #8
	ldr	d1, [x27, x8]
	ldr	d2, [x25, x8]
	cmeq	v1.8b, v1.8b, v2.8b
	bic	v0.8b, v0.8b, v1.8b
	addv	b0, v0.8b
	fmov	w9, s0
	orr	w9, w9, #0x100
.Lunix_path_BB2_533:
	rbit	w9, w9
	clz	w9, w9
	add	x8, x8, x9
.Lunix_path_BB2_534:
	cmp	x23, x8
	b.ls	.Lunix_path_BB2_542
	mov	w9, #1
	cmp	x8, x24
	b.hs	.Lunix_path_BB2_551
.Lunix_path_BB2_536:
	ldrb	w10, [x27, x8]
	cmp	w10, #47
	b.eq	.Lunix_path_BB2_551
	cmp	w10, #46
	eor	w11, w9, #0x1
	csinc	w11, w11, wzr, ne
	tbnz	w11, #0, .Lunix_path_BB2_539
	ldrb	w11, [x25, x8]
	and	w11, w11, #0xfe
	cmp	w11, #46
	b.ne	.Lunix_path_BB2_575
.Lunix_path_BB2_539:
	add	w10, w10, #1
	cbnz	w9, .Lunix_path_BB2_552
.Lunix_path_BB2_540:
	cmp	w10, w9
	b.ne	.Lunix_path_BB2_555
.Lunix_path_BB2_541:
	cbnz	x8, .Lunix_path_BB2_560
	b	.Lunix_path_BB2_575
.Lunix_path_BB2_542:
	mov	x20, x28
	subs	x28, x24, x23
	b.ls	.Lunix_path_BB2_545
	add	x9, x27, x23
	ldrb	w10, [x9]
	cmp	w10, #47
	b.eq	.Lunix_path_BB2_545
	ldurb	w9, [x9, #-1]
	cmp	w9, #47
	b.ne	.Lunix_path_BB2_550
.Lunix_path_BB2_545:
	add	x27, x27, x23
	b	.Lunix_path_BB2_562
.Lunix_path_BB2_546:
	mov	x8, xzr
	mov	w9, #1
	cmp	xzr, x24
	b.hs	.Lunix_path_BB2_551
	b	.Lunix_path_BB2_536
.Lunix_path_BB2_547:
	sub	x0, x29, #120
	bl	std_alloc.vec.Vec.grow_amortized.d6e9c2ff9b21f748.
	cbz	w0, .Lunix_path_BB2_1283
	ldur	x8, [x29, #-112]
	adrp	x13, .Lunix_path_CPI2_0
	b	.Lunix_path_BB2_483
.Lunix_path_BB2_549:
	mov	x8, xzr
	b	.Lunix_path_BB2_534
.Lunix_path_BB2_550:
	mov	w9, wzr
	mov	x28, x20
	cmp	x8, x24
	b.lo	.Lunix_path_BB2_536
.Lunix_path_BB2_551:
	mov	w10, wzr
	cbz	w9, .Lunix_path_BB2_540
.Lunix_path_BB2_552:
	ldrb	w9, [x25, x8]
	cmp	w9, #47
	b.ne	.Lunix_path_BB2_554
	cmp	w10, wzr
	b.ne	.Lunix_path_BB2_555
	b	.Lunix_path_BB2_541
.Lunix_path_BB2_554:
	add	w9, w9, #1
	cmp	w10, w9
	b.eq	.Lunix_path_BB2_541
.Lunix_path_BB2_555:
	cbz	x8, .Lunix_path_BB2_575
	add	x9, x27, x8
	ldurb	w9, [x9, #-1]
	cmp	w9, #47
	b.eq	.Lunix_path_BB2_560
	subs	x8, x8, #1
	b.eq	.Lunix_path_BB2_575
	cmp	w9, #46
	b.ne	.Lunix_path_BB2_575
	add	x9, x27, x8
	ldurb	w9, [x9, #-1]
	cmp	w9, #47
	b.ne	.Lunix_path_BB2_575
.Lunix_path_BB2_560:
	sub	x2, x24, x8
	sub	x4, x23, x8
	sub	x0, x29, #224
	add	x1, x27, x8
	add	x3, x25, x8
	bl	unix_path.pair.Comparison.rest_after_cut
	ldurb	w8, [x29, #-224]
	adrp	x13, .Lunix_path_CPI2_0
	cmp	w8, #1
	b.ne	.Lunix_path_BB2_575
	mov	x20, x28
	ldp	x27, x28, [x29, #-216]
.Lunix_path_BB2_562:
	mov	x2, xzr
	b	.Lunix_path_BB2_564
.Lunix_path_BB2_563:
	mov	w8, #1
	add	x2, x8, x2
	cmp	x2, #4
	b.hs	.Lunix_path_BB2_480
.Lunix_path_BB2_564:
	cmp	x2, x28
	b.hs	.Lunix_path_BB2_481
	ldrb	w8, [x27, x2]
	cmp	w8, #47
	b.eq	.Lunix_path_BB2_563
	cmp	w8, #46
	b.ne	.Lunix_path_BB2_481
	add	x8, x2, #1
	cmp	x8, x28
	b.eq	.Lunix_path_BB2_563
	ldrb	w8, [x27, x8]
	cmp	w8, #47
	b.ne	.Lunix_path_BB2_481
	mov	w8, #2
	add	x2, x8, x2
	cmp	x2, #4
	b.lo	.Lunix_path_BB2_564
	b	.Lunix_path_BB2_480
.Lunix_path_BB2_570:
	mov	w8, #1
	b	.Lunix_path_BB2_534
.Lunix_path_BB2_571:
	mov	w8, #2
	b	.Lunix_path_BB2_534
.Lunix_path_BB2_572:
	mov	w8, #3
	b	.Lunix_path_BB2_534
.Lunix_path_BB2_573:
	mov	w8, #4
	b	.Lunix_path_BB2_534
.Lunix_path_BB2_574:
	mov	w8, #5
	b	.Lunix_path_BB2_534
.Lunix_path_BB2_575:
	ldp	x21, x22, [x29, #-120]
	ldur	x20, [x29, #-104]
	cbz	x22, .Lunix_path_BB2_579
	ldp	x0, x1, [x21]
	add	x2, sp, #216
	bl	pathtool.paths.push_canon
	and	w8, w0, #0xff
	tbz	w8, #0, .Lunix_path_BB2_578
.Lunix_path_BB2_577:
	mov	w26, #1
	b	.Lunix_path_BB2_580
.Lunix_path_BB2_578:
	subs	x22, x22, #1
	b.ne	.Lunix_path_BB2_601
.Lunix_path_BB2_579:
	mov	w26, wzr
.Lunix_path_BB2_580:
	cbz	x20, .Lunix_path_BB2_582
	mov	x0, x21
	bl	rattle_dealloc
.Lunix_path_BB2_582:
	ldurb	w8, [x29, #-248]
	cmp	w8, #1
	b.ne	.Lunix_path_BB2_584
	ldur	x0, [x29, #-240]
	bl	std_collections.btree.node.Node.destroy.08dd9cc935c3c3a8.
.Lunix_path_BB2_584:
	cbz	x23, .Lunix_path_BB2_586
	mov	x0, x25
	bl	rattle_dealloc
.Lunix_path_BB2_586:
	tbz	w26, #0, .Lunix_path_BB2_333
	b	.Lunix_path_BB2_1293
.Lunix_path_BB2_587:
	cmp	x9, #64
	b.lo	.Lunix_path_BB2_663
	mov	x10, xzr
	mov	x11, x9
.Lunix_path_BB2_589:
	ldr	x12, [sp, #192]
	add	x13, x24, x10
	ldp	q4, q5, [x13]
	add	x12, x12, x10
	ldp	q6, q7, [x13, #32]
	ldp	q0, q1, [x12]
	ldp	q2, q3, [x12, #32]
	cmeq	v0.16b, v0.16b, v4.16b
	cmeq	v1.16b, v1.16b, v5.16b
	ldr	q4, [x14, :lo12:.Lunix_path_CPI2_0]
	cmeq	v3.16b, v3.16b, v7.16b
	cmeq	v2.16b, v2.16b, v6.16b
	bic	v0.16b, v4.16b, v0.16b
	bic	v1.16b, v4.16b, v1.16b
	bic	v2.16b, v4.16b, v2.16b
	bic	v3.16b, v4.16b, v3.16b
	addp	v0.16b, v0.16b, v1.16b
	addp	v1.16b, v2.16b, v3.16b
	addp	v0.16b, v0.16b, v1.16b
	addp	v0.16b, v0.16b, v0.16b
	fmov	x12, d0
	cbnz	x12, .Lunix_path_BB2_664
	sub	x11, x11, #64
	add	x10, x10, #64
	cmp	x11, #63
	b.hi	.Lunix_path_BB2_589
	and	x10, x9, #0xffffffffffffffc0
	sub	x9, x9, #16
	cmp	x10, x9
	b.lo	.Lunix_path_BB2_665
	b	.Lunix_path_BB2_667
.Lunix_path_BB2_592:
	stp	xzr, xzr, [x29, #-120]
	sub	x0, x29, #120
	stur	xzr, [x29, #-104]
	b	.Lunix_path_BB2_919
.Lunix_path_BB2_593:
	cmp	x8, #64
	b.lo	.Lunix_path_BB2_672
	mov	x9, xzr
	mov	x10, x8
.Lunix_path_BB2_595:
	ldr	x11, [sp, #192]
	add	x12, x24, x9
	ldp	q4, q5, [x12]
	add	x11, x11, x9
	ldp	q6, q7, [x12, #32]
	ldp	q0, q1, [x11]
	ldp	q2, q3, [x11, #32]
	cmeq	v0.16b, v0.16b, v4.16b
	cmeq	v1.16b, v1.16b, v5.16b
	ldr	q4, [x13, :lo12:.Lunix_path_CPI2_0]
	cmeq	v3.16b, v3.16b, v7.16b
	cmeq	v2.16b, v2.16b, v6.16b
	bic	v0.16b, v4.16b, v0.16b
	bic	v1.16b, v4.16b, v1.16b
	bic	v2.16b, v4.16b, v2.16b
	bic	v3.16b, v4.16b, v3.16b
	addp	v0.16b, v0.16b, v1.16b
	addp	v1.16b, v2.16b, v3.16b
	addp	v0.16b, v0.16b, v1.16b
	addp	v0.16b, v0.16b, v0.16b
	fmov	x11, d0
	cbnz	x11, .Lunix_path_BB2_673
	sub	x10, x10, #64
	add	x9, x9, #64
	cmp	x10, #63
	b.hi	.Lunix_path_BB2_595
	and	x9, x8, #0xffffffffffffffc0
	sub	x8, x8, #16
	cmp	x9, x8
	b.lo	.Lunix_path_BB2_674
	b	.Lunix_path_BB2_676
.Lunix_path_BB2_598:
	cmp	x23, #32
	b.hs	.Lunix_path_BB2_677
	mov	x8, xzr
	b	.Lunix_path_BB2_681
.Lunix_path_BB2_600:
	tbz	w20, #0, .Lunix_path_BB2_333
	b	.Lunix_path_BB2_1293
.Lunix_path_BB2_601:
	add	x24, x21, #32
.Lunix_path_BB2_602:
	ldp	x8, x9, [sp, #224]
	ldp	x0, x1, [x24, #-8]
	cmp	x9, x8
	b.eq	.Lunix_path_BB2_605
.Lunix_path_BB2_603:
	ldr	x9, [sp, #216]
	add	x11, x8, #1
	add	x2, sp, #216
	mov	w10, #9
	strb	w10, [x9, x8]
	str	x11, [sp, #224]
	bl	pathtool.paths.push_canon
	tst	w0, #0xff
	b.ne	.Lunix_path_BB2_577
	subs	x22, x22, #1
	add	x24, x24, #24
	b.ne	.Lunix_path_BB2_602
	b	.Lunix_path_BB2_579
.Lunix_path_BB2_605:
	mov	x27, x1
	mov	x28, x0
	add	x0, sp, #216
	mov	w1, #1
	mov	w26, #1
	bl	std_alloc.vec.Vec.grow_amortized.307f257cf2d167af.
	cbz	w0, .Lunix_path_BB2_580
	ldr	x8, [sp, #224]
	mov	x0, x28
	mov	x1, x27
	b	.Lunix_path_BB2_603
.Lunix_path_BB2_607:
	mov	w21, wzr
	b	.Lunix_path_BB2_685
.Lunix_path_BB2_608:
	add	x8, x9, w10, uxtw
.Lunix_path_BB2_609:
	cmp	x8, x28
	b.ne	.Lunix_path_BB2_611
.Lunix_path_BB2_610:
	adrp	x3, .Lunix_path_static.1
	add	x3, x3, :lo12:.Lunix_path_static.1
	sub	x0, x29, #224
	mov	x1, x24
	mov	x2, x28
	mov	x4, xzr
	b	.Lunix_path_BB2_612
.Lunix_path_BB2_611:
	add	x2, x8, #1
	sub	x0, x29, #224
	mov	x1, x24
	sub	x4, x28, x2
	add	x3, x24, x2
.Lunix_path_BB2_612:
	bl	pathtool.edits.edit_by_name
	ldurb	w9, [x29, #-224]
	ldur	q0, [x21, #16]
	ldurb	w8, [x29, #-216]
	cmp	w9, #1
	str	q0, [sp, #240]
	b.ne	.Lunix_path_BB2_614
	ldr	q0, [sp, #240]
	stur	x8, [x29, #-248]
	sub	x2, x29, #248
	ldr	x8, [sp, #136]
	ldr	x0, [sp, #176]
	add	x4, sp, #216
	mov	x1, x23
	mov	w3, #1
	str	q0, [x8]
	bl	pathtool.edits.push_edited
	and	w8, w0, #0xff
	tbz	w8, #0, .Lunix_path_BB2_333
	b	.Lunix_path_BB2_1293
.Lunix_path_BB2_614:
	ldp	x9, x8, [sp, #224]
	sub	x10, x8, x9
	cmp	x10, #10
	b.hi	.Lunix_path_BB2_328
.Lunix_path_BB2_615:
	add	x0, sp, #216
	mov	w1, #11
	bl	std_alloc.vec.Vec.grow_amortized.307f257cf2d167af.
	cbz	w0, .Lunix_path_BB2_1293
	ldp	x9, x8, [sp, #224]
	b	.Lunix_path_BB2_328
.Lunix_path_BB2_617:
	mov	w21, w22
	b	.Lunix_path_BB2_641
.Lunix_path_BB2_618:
	mov	x10, xzr
	mov	x15, xzr
	sub	x14, x29, #88
	stur	x14, [x29, #-224]
.Lunix_path_BB2_619:
	cmp	x15, #0
	stp	xzr, xzr, [x21, #8]
	csel	x8, xzr, x10, eq
.Lunix_path_BB2_620:
	cbz	x28, .Lunix_path_BB2_635
	ldrb	w9, [x24], #1
	sub	x28, x28, #1
	cmp	w9, #102
	b.eq	.Lunix_path_BB2_624
	cmp	w9, #98
	b.ne	.Lunix_path_BB2_620
	mov	w20, #1
	b	.Lunix_path_BB2_625
.Lunix_path_BB2_624:
	mov	w20, wzr
.Lunix_path_BB2_625:
	cmp	x15, x8
	b.eq	.Lunix_path_BB2_627
	strb	w20, [x14, x15]
	add	x15, x15, #1
	b	.Lunix_path_BB2_620
.Lunix_path_BB2_627:
	cmp	x10, x8
	stp	x8, x10, [x29, #-216]
	b.eq	.Lunix_path_BB2_629
.Lunix_path_BB2_628:
	ldur	x14, [x29, #-224]
	add	x15, x8, #1
	strb	w20, [x14, x8]
	stur	x15, [x29, #-216]
	b	.Lunix_path_BB2_619
.Lunix_path_BB2_629:
	sub	x0, x29, #224
	mov	w1, #1
	bl	std_alloc.vec.Vec.grow_amortized.2c3341b61b28ed12.
	ldp	x8, x10, [x29, #-216]
	tbnz	w0, #0, .Lunix_path_BB2_633
	ldr	x11, [sp, #176]
	cmp	x10, x8
	sub	x21, x29, #224
	adrp	x13, .Lunix_path_CPI2_0
	b.ne	.Lunix_path_BB2_628
	sub	x0, x29, #224
	mov	w1, #1
	bl	std_alloc.vec.Vec.grow_amortized.2c3341b61b28ed12.
	cbz	w0, .Lunix_path_BB2_1300
	ldp	x8, x10, [x29, #-216]
	b	.Lunix_path_BB2_634
.Lunix_path_BB2_633:
	sub	x21, x29, #224
.Lunix_path_BB2_634:
	ldr	x11, [sp, #176]
	adrp	x13, .Lunix_path_CPI2_0
	b	.Lunix_path_BB2_628
.Lunix_path_BB2_635:
	str	x14, [sp, #96]
	str	x15, [sp, #144]
	str	x10, [sp, #48]
	cbz	x23, .Lunix_path_BB2_862
	ldrb	w8, [x11]
	cmp	w8, #47
	b.eq	.Lunix_path_BB2_639
	cmp	w8, #46
	b.ne	.Lunix_path_BB2_930
	cmp	x23, #1
	b.ne	.Lunix_path_BB2_966
.Lunix_path_BB2_639:
	mov	w25, #1
	b	.Lunix_path_BB2_967
.Lunix_path_BB2_640:
	mov	x25, xzr
	mov	w22, wzr
	mov	w21, wzr
.Lunix_path_BB2_641:
	add	x8, x25, x28
	adds	x23, x8, w22, uxtw
	b.eq	.Lunix_path_BB2_645
	tbnz	x23, #63, .Lunix_path_BB2_1293
	mov	x0, x23
	mov	w1, #1
	bl	rattle_alloc
	tbz	w0, #0, .Lunix_path_BB2_1293
	ldr	x15, [sp, #176]
	b	.Lunix_path_BB2_646
.Lunix_path_BB2_645:
	sub	x1, x29, #88
.Lunix_path_BB2_646:
	mov	x20, xzr
	cmp	x25, x23
	stp	x1, xzr, [x29, #-224]
	stur	x23, [x29, #-208]
	b.hi	.Lunix_path_BB2_816
	ldr	x8, [sp, #192]
	add	x0, x1, x20
	sub	x8, x0, x8
	cmp	x8, x25
	b.hs	.Lunix_path_BB2_818
.Lunix_path_BB2_648:
	cmp	x25, #8
	b.lo	.Lunix_path_BB2_650
	add	x8, x27, x26
	add	x9, x20, x1
	mvn	x8, x8
	add	x8, x8, x9
	cmp	x8, #32
	b.hs	.Lunix_path_BB2_668
.Lunix_path_BB2_650:
	mov	x8, xzr
.Lunix_path_BB2_651:
	add	x9, x8, x27
	add	x10, x8, x20
	sub	x8, x25, x8
	add	x9, x26, x9
	add	x10, x1, x10
	add	x9, x9, #1
.Lunix_path_BB2_652:
	ldrb	w11, [x9], #1
	subs	x8, x8, #1
	strb	w11, [x10], #1
	b.ne	.Lunix_path_BB2_652
	b	.Lunix_path_BB2_819
.Lunix_path_BB2_653:
	sub	x12, x9, #1
.Lunix_path_BB2_654:
	cbz	x10, .Lunix_path_BB2_660
	ldrb	w11, [x12, x10]
	and	w13, w11, #0xfe
	sub	x11, x10, #1
	cmp	w13, #46
	mov	x10, x11
	b.ne	.Lunix_path_BB2_654
	add	x10, x11, #1
.Lunix_path_BB2_657:
	cbz	x11, .Lunix_path_BB2_660
	ldrb	w12, [x9, x11]
	cmp	w12, #47
	b.eq	.Lunix_path_BB2_660
	add	x10, x9, x10
	ldurb	w10, [x10, #-2]
	cmp	w10, #47
	csel	x8, x8, x11, eq
.Lunix_path_BB2_660:
	mov	w10, #1
	stur	x8, [x29, #-104]
	sub	x0, x29, #120
	stp	x10, x9, [x29, #-120]
	b	.Lunix_path_BB2_919
.Lunix_path_BB2_661:
	ldr	d0, [x15]
	ldr	d1, [x24]
	adrp	x10, .Lunix_path_CPI2_1
	cmeq	v1.8b, v0.8b, v1.8b
	ldr	d0, [x10, :lo12:.Lunix_path_CPI2_1]
	bic	v1.8b, v0.8b, v1.8b
	addv	b1, v1.8b
	fmov	w10, s1
	orr	w10, w10, #0x100
	rbit	w10, w10
	clz	w10, w10
	cmp	w10, #8
	b.hs	.Lunix_path_BB2_767
	mov	x9, x10
	b	.Lunix_path_BB2_769
.Lunix_path_BB2_663:
	mov	x10, xzr
.Lunix_path_BB2_664:
	sub	x9, x9, #16
	cmp	x10, x9
	b.hs	.Lunix_path_BB2_667
.Lunix_path_BB2_665:
	ldr	q0, [x15, x10]
	ldr	q1, [x24, x10]
	cmeq	v0.16b, v0.16b, v1.16b
	ldr	q1, [x14, :lo12:.Lunix_path_CPI2_0]
	bic	v0.16b, v1.16b, v0.16b
	addp	v0.16b, v0.16b, v0.16b
	addp	v0.16b, v0.16b, v0.16b
	addp	v0.16b, v0.16b, v0.16b
	umov	w11, v0.h[0]
	orr	w11, w11, #0x10000
	rbit	w11, w11
	clz	w11, w11
	cmp	w11, #15
	b.ls	.Lunix_path_BB2_766
	add	x10, x10, #16
	cmp	x10, x9
	b.lo	.Lunix_path_BB2_665
.Lunix_path_BB2_667:
	ldr	q0, [x15, x9]
	ldr	q1, [x24, x9]
	cmeq	v0.16b, v0.16b, v1.16b
	ldr	q1, [x14, :lo12:.Lunix_path_CPI2_0]
	bic	v0.16b, v1.16b, v0.16b
	addp	v0.16b, v0.16b, v0.16b
	addp	v0.16b, v0.16b, v0.16b
	addp	v0.16b, v0.16b, v0.16b
	umov	w10, v0.h[0]
	orr	w10, w10, #0x10000
	b	.Lunix_path_BB2_768
.Lunix_path_BB2_668:
	cmp	x25, #32
	b.hs	.Lunix_path_BB2_787
	mov	x8, xzr
	b	.Lunix_path_BB2_791
.Lunix_path_BB2_670:
	ldr	d0, [x14]
	ldr	d1, [x24]
	adrp	x9, .Lunix_path_CPI2_1
	cmeq	v1.8b, v0.8b, v1.8b
	ldr	d0, [x9, :lo12:.Lunix_path_CPI2_1]
	bic	v1.8b, v0.8b, v1.8b
	addv	b1, v1.8b
	fmov	w9, s1
	orr	w9, w9, #0x100
	rbit	w9, w9
	clz	w9, w9
	cmp	w9, #8
	b.hs	.Lunix_path_BB2_794
	mov	x8, x9
	b	.Lunix_path_BB2_796
.Lunix_path_BB2_672:
	mov	x9, xzr
.Lunix_path_BB2_673:
	sub	x8, x8, #16
	cmp	x9, x8
	b.hs	.Lunix_path_BB2_676
.Lunix_path_BB2_674:
	ldr	q0, [x14, x9]
	ldr	q1, [x24, x9]
	cmeq	v0.16b, v0.16b, v1.16b
	ldr	q1, [x13, :lo12:.Lunix_path_CPI2_0]
	bic	v0.16b, v1.16b, v0.16b
	addp	v0.16b, v0.16b, v0.16b
	addp	v0.16b, v0.16b, v0.16b
	addp	v0.16b, v0.16b, v0.16b
	umov	w10, v0.h[0]
	orr	w10, w10, #0x10000
	rbit	w10, w10
	clz	w10, w10
	cmp	w10, #15
	b.ls	.Lunix_path_BB2_786
	add	x9, x9, #16
	cmp	x9, x8
	b.lo	.Lunix_path_BB2_674
.Lunix_path_BB2_676:
	ldr	q0, [x14, x8]
	ldr	q1, [x24, x8]
	cmeq	v0.16b, v0.16b, v1.16b
	ldr	q1, [x13, :lo12:.Lunix_path_CPI2_0]
	bic	v0.16b, v1.16b, v0.16b
	addp	v0.16b, v0.16b, v0.16b
	addp	v0.16b, v0.16b, v0.16b
	addp	v0.16b, v0.16b, v0.16b
	umov	w9, v0.h[0]
	orr	w9, w9, #0x10000
	b	.Lunix_path_BB2_795
.Lunix_path_BB2_677:
	add	x10, x26, x27
	and	x9, x23, #0x18
	and	x8, x23, #0xffffffffffffffe0
	add	x10, x10, #17
	add	x11, x25, #16
	and	x12, x23, #0xffffffffffffffe0
.Lunix_path_BB2_678:
	ldp	q0, q1, [x10, #-16]
	subs	x12, x12, #32
	add	x10, x10, #32
	stp	q0, q1, [x11, #-16]
	add	x11, x11, #32
	b.ne	.Lunix_path_BB2_678
	cmp	x23, x8
	b.eq	.Lunix_path_BB2_298
	cbz	x9, .Lunix_path_BB2_70
.Lunix_path_BB2_681:
	mov	x11, x8
	and	x8, x23, #0xfffffffffffffff8
	add	x9, x27, x11
	add	x10, x26, x9
	sub	x9, x11, x8
	add	x11, x25, x11
	add	x10, x10, #1
.Lunix_path_BB2_682:
	ldr	d0, [x10], #8
	adds	x9, x9, #8
	str	d0, [x11], #8
	b.ne	.Lunix_path_BB2_682
	cmp	x23, x8
	b.eq	.Lunix_path_BB2_298
	b	.Lunix_path_BB2_70
.Lunix_path_BB2_684:
	ldrb	w8, [x15, #1]
	cmp	w8, #47
	cset	w21, eq
.Lunix_path_BB2_685:
	adrp	x24, .Lunix_path_static.27
	add	x24, x24, :lo12:.Lunix_path_static.27
	mov	x25, x23
	b	.Lunix_path_BB2_687
.Lunix_path_BB2_686:
	mov	x25, x2
	cbz	x2, .Lunix_path_BB2_333
.Lunix_path_BB2_687:
	subs	x2, x25, #1
	b.eq	.Lunix_path_BB2_693
	ldr	x8, [sp, #192]
	add	x8, x8, x2
	ldrb	w9, [x8]
	cmp	w9, #47
	b.eq	.Lunix_path_BB2_691
	cmp	w9, #46
	b.ne	.Lunix_path_BB2_693
	ldurb	w8, [x8, #-1]
	cmp	w8, #47
	b.ne	.Lunix_path_BB2_693
.Lunix_path_BB2_691:
	sub	x8, x23, x2
	cmp	x8, #8
	b.ne	.Lunix_path_BB2_686
	mov	x0, x15
	mov	x1, xzr
	bl	unix_path.filler.trimmed_blocks_len
	ldr	x15, [sp, #176]
	adrp	x14, .Lunix_path_CPI2_0
	mov	x2, x0
	b	.Lunix_path_BB2_686
.Lunix_path_BB2_693:
	mov	x27, xzr
	mov	x26, xzr
	mov	w8, #1
	mov	x9, x25
	b	.Lunix_path_BB2_696
.Lunix_path_BB2_694:
	add	x0, x20, x27
	mov	x1, x15
	mov	x2, x22
	bl	memmove
	adrp	x14, .Lunix_path_CPI2_0
.Lunix_path_BB2_695:
	ldr	x10, [sp, #192]
	add	x26, x23, x26
	mov	w8, wzr
	mov	w21, wzr
	add	x27, x27, x22
	subs	x9, x25, x26
	add	x15, x10, x26
	stp	x20, x27, [sp, #216]
	str	x28, [sp, #232]
	b.eq	.Lunix_path_BB2_333
.Lunix_path_BB2_696:
	tbz	w21, #0, .Lunix_path_BB2_704
	subs	x11, x9, #1
	b.eq	.Lunix_path_BB2_709
	mov	x10, xzr
	sub	x9, x9, #2
	b	.Lunix_path_BB2_700
.Lunix_path_BB2_699:
	add	x10, x10, #1
	cmp	x11, x10
	b.eq	.Lunix_path_BB2_710
.Lunix_path_BB2_700:
	add	x12, x15, x10
	ldrb	w12, [x12, #1]
	cmp	w12, #47
	b.eq	.Lunix_path_BB2_699
	cmp	w12, #46
	b.ne	.Lunix_path_BB2_711
	cmp	x9, x10
	b.eq	.Lunix_path_BB2_710
	add	x12, x15, x10
	ldrb	w12, [x12, #2]
	cmp	w12, #47
	b.eq	.Lunix_path_BB2_699
	b	.Lunix_path_BB2_711
.Lunix_path_BB2_704:
	cmp	x9, #1
	b.eq	.Lunix_path_BB2_715
	ldrb	w10, [x15]
	cmp	w10, #46
	b.ne	.Lunix_path_BB2_715
	ldrb	w10, [x15, #1]
	cmp	w10, #46
	b.ne	.Lunix_path_BB2_715
	subs	x11, x9, #2
	b.ne	.Lunix_path_BB2_713
	adrp	x15, .Lunix_path_static.33
	add	x15, x15, :lo12:.Lunix_path_static.33
	mov	w23, #2
	mov	w22, #2
	tbz	w8, #0, .Lunix_path_BB2_740
	b	.Lunix_path_BB2_742
.Lunix_path_BB2_709:
	mov	w23, #1
	b	.Lunix_path_BB2_712
.Lunix_path_BB2_710:
	mov	x10, x11
.Lunix_path_BB2_711:
	add	x23, x10, #1
.Lunix_path_BB2_712:
	ldrb	w9, [x15]
	mov	w22, #1
	cmp	w9, #47
	adrp	x9, .Lunix_path_static.26
	add	x9, x9, :lo12:.Lunix_path_static.26
	csel	x15, x9, x24, eq
	tbz	w8, #0, .Lunix_path_BB2_740
	b	.Lunix_path_BB2_742
.Lunix_path_BB2_713:
	ldrb	w10, [x15, #2]
	cmp	w10, #47
	b.ne	.Lunix_path_BB2_715
	mov	x10, xzr
	sub	x9, x9, #3
	b	.Lunix_path_BB2_722
.Lunix_path_BB2_715:
	cmp	x9, #15
	b.hi	.Lunix_path_BB2_726
	mov	x22, xzr
.Lunix_path_BB2_717:
	ldrb	w10, [x15, x22]
	cmp	w10, #47
	b.eq	.Lunix_path_BB2_731
	add	x22, x22, #1
	cmp	x9, x22
	b.ne	.Lunix_path_BB2_717
	mov	x22, x9
	subs	x10, x9, x9
	b.ne	.Lunix_path_BB2_732
.Lunix_path_BB2_720:
	mov	x9, xzr
	b	.Lunix_path_BB2_738
.Lunix_path_BB2_721:
	add	x10, x10, #1
	cmp	x11, x10
	b.eq	.Lunix_path_BB2_763
.Lunix_path_BB2_722:
	add	x12, x15, x10
	ldrb	w12, [x12, #2]
	cmp	w12, #47
	b.eq	.Lunix_path_BB2_721
	cmp	w12, #46
	b.ne	.Lunix_path_BB2_764
	cmp	x9, x10
	b.eq	.Lunix_path_BB2_763
	add	x12, x15, x10
	ldrb	w12, [x12, #3]
	cmp	w12, #47
	b.eq	.Lunix_path_BB2_721
	b	.Lunix_path_BB2_764
.Lunix_path_BB2_726:
	subs	x10, x9, #16
	b.eq	.Lunix_path_BB2_730
	mov	x11, xzr
.Lunix_path_BB2_728:
	movi	v0.16b, #47
	ldr	q1, [x15, x11]
	cmeq	v0.16b, v1.16b, v0.16b
	ldr	q1, [x14, :lo12:.Lunix_path_CPI2_0]
	and	v0.16b, v0.16b, v1.16b
	addp	v0.16b, v0.16b, v0.16b
	addp	v0.16b, v0.16b, v0.16b
	addp	v0.16b, v0.16b, v0.16b
	umov	w12, v0.h[0]
	orr	w12, w12, #0x10000
	rbit	w12, w12
	clz	w12, w12
	cmp	w12, #15
	b.ls	.Lunix_path_BB2_751
	add	x11, x11, #16
	cmp	x11, x10
	b.lo	.Lunix_path_BB2_728
.Lunix_path_BB2_730:
	movi	v0.16b, #47
	ldr	q1, [x15, x10]
	cmeq	v0.16b, v1.16b, v0.16b
	ldr	q1, [x14, :lo12:.Lunix_path_CPI2_0]
	and	v0.16b, v0.16b, v1.16b
	addp	v0.16b, v0.16b, v0.16b
	addp	v0.16b, v0.16b, v0.16b
	addp	v0.16b, v0.16b, v0.16b
	umov	w11, v0.h[0]
	orr	w11, w11, #0x10000
	rbit	w11, w11
	clz	w11, w11
	add	x22, x10, x11
.Lunix_path_BB2_731:
	subs	x10, x9, x22
	b.eq	.Lunix_path_BB2_720
.Lunix_path_BB2_732:
	mov	x9, xzr
	add	x11, x15, x22
	sub	x12, x10, #1
	b	.Lunix_path_BB2_734
.Lunix_path_BB2_733:
	add	x9, x9, #1
	cmp	x10, x9
	b.eq	.Lunix_path_BB2_739
.Lunix_path_BB2_734:
	ldrb	w13, [x11, x9]
	cmp	w13, #47
	b.eq	.Lunix_path_BB2_733
	cmp	w13, #46
	b.ne	.Lunix_path_BB2_738
	cmp	x12, x9
	b.eq	.Lunix_path_BB2_739
	add	x13, x11, x9
	ldrb	w13, [x13, #1]
	cmp	w13, #47
	b.eq	.Lunix_path_BB2_733
.Lunix_path_BB2_738:
	add	x23, x9, x22
	tbnz	w8, #0, .Lunix_path_BB2_742
	b	.Lunix_path_BB2_740
.Lunix_path_BB2_739:
	add	x23, x10, x22
	tbnz	w8, #0, .Lunix_path_BB2_742
.Lunix_path_BB2_740:
	ldr	x8, [sp, #232]
	cmp	x8, x27
	b.eq	.Lunix_path_BB2_761
.Lunix_path_BB2_741:
	ldr	x8, [sp, #216]
	mov	w9, #9
	strb	w9, [x8, x27]
	add	x27, x27, #1
	str	x27, [sp, #224]
.Lunix_path_BB2_742:
	ldr	x28, [sp, #232]
	sub	x8, x28, x27
	cmp	x22, x8
	b.hi	.Lunix_path_BB2_759
.Lunix_path_BB2_743:
	ldr	x20, [sp, #216]
	add	x8, x20, x27
	sub	x8, x8, x15
	cmp	x8, x22
	add	x8, sp, #216
	stp	xzr, xzr, [x8, #8]
	b.hs	.Lunix_path_BB2_694
	cmp	x22, #8
	b.lo	.Lunix_path_BB2_746
	add	x8, x27, x20
	sub	x8, x8, x15
	cmp	x8, #32
	b.hs	.Lunix_path_BB2_749
.Lunix_path_BB2_746:
	mov	x8, xzr
.Lunix_path_BB2_747:
	add	x10, x8, x27
	sub	x9, x22, x8
	add	x8, x15, x8
	add	x10, x20, x10
.Lunix_path_BB2_748:
	ldrb	w11, [x8], #1
	subs	x9, x9, #1
	strb	w11, [x10], #1
	b.ne	.Lunix_path_BB2_748
	b	.Lunix_path_BB2_695
.Lunix_path_BB2_749:
	cmp	x22, #32
	b.hs	.Lunix_path_BB2_752
	mov	x8, xzr
	b	.Lunix_path_BB2_756
.Lunix_path_BB2_751:
	add	x22, x11, w12, uxtw
	subs	x10, x9, x22
	b.ne	.Lunix_path_BB2_732
	b	.Lunix_path_BB2_720
.Lunix_path_BB2_752:
	add	x11, x20, x27
	and	x9, x22, #0x18
	and	x8, x22, #0xffffffffffffffe0
	add	x10, x15, #16
	add	x11, x11, #16
	and	x12, x22, #0xffffffffffffffe0
.Lunix_path_BB2_753:
	ldp	q0, q1, [x10, #-16]
	subs	x12, x12, #32
	add	x10, x10, #32
	stp	q0, q1, [x11, #-16]
	add	x11, x11, #32
	b.ne	.Lunix_path_BB2_753
	cmp	x22, x8
	b.eq	.Lunix_path_BB2_695
	cbz	x9, .Lunix_path_BB2_747
.Lunix_path_BB2_756:
	mov	x10, x8
	and	x8, x22, #0xfffffffffffffff8
	add	x11, x27, x10
	sub	x9, x10, x8
	add	x10, x15, x10
	add	x11, x20, x11
.Lunix_path_BB2_757:
	ldr	d0, [x10], #8
	adds	x9, x9, #8
	str	d0, [x11], #8
	b.ne	.Lunix_path_BB2_757
	cmp	x22, x8
	b.eq	.Lunix_path_BB2_695
	b	.Lunix_path_BB2_747
.Lunix_path_BB2_759:
	add	x0, sp, #216
	mov	x1, x22
	mov	x20, x15
	bl	std_alloc.vec.Vec.grow_amortized.307f257cf2d167af.
	adrp	x14, .Lunix_path_CPI2_0
	cbz	w0, .Lunix_path_BB2_1293
	ldp	x27, x28, [sp, #224]
	mov	x15, x20
	b	.Lunix_path_BB2_743
.Lunix_path_BB2_761:
	add	x0, sp, #216
	mov	w1, #1
	mov	x20, x15
	bl	std_alloc.vec.Vec.grow_amortized.307f257cf2d167af.
	adrp	x14, .Lunix_path_CPI2_0
	cbz	w0, .Lunix_path_BB2_1293
	ldr	x27, [sp, #224]
	mov	x15, x20
	b	.Lunix_path_BB2_741
.Lunix_path_BB2_763:
	mov	x10, x11
.Lunix_path_BB2_764:
	add	x23, x10, #2
	adrp	x15, .Lunix_path_static.33
	add	x15, x15, :lo12:.Lunix_path_static.33
	mov	w22, #2
	tbz	w8, #0, .Lunix_path_BB2_740
	b	.Lunix_path_BB2_742
.Lunix_path_BB2_765:
	stur	xzr, [x29, #-120]
	sub	x0, x29, #120
	b	.Lunix_path_BB2_919
.Lunix_path_BB2_766:
	add	x9, x10, w11, uxtw
	b	.Lunix_path_BB2_769
.Lunix_path_BB2_767:
	sub	x9, x9, #8
	ldr	d1, [x15, x9]
	ldr	d2, [x24, x9]
	cmeq	v1.8b, v1.8b, v2.8b
	bic	v0.8b, v0.8b, v1.8b
	addv	b0, v0.8b
	fmov	w10, s0
	orr	w10, w10, #0x100
.Lunix_path_BB2_768:
	rbit	w10, w10
	clz	w10, w10
	add	x9, x9, x10
.Lunix_path_BB2_769:
	cmp	x28, x9
	b.ls	.Lunix_path_BB2_775
	mov	w10, #1
	cmp	x9, x8
	b.hs	.Lunix_path_BB2_897
.Lunix_path_BB2_771:
	ldrb	w11, [x15, x9]
	cmp	w11, #47
	b.eq	.Lunix_path_BB2_897
	cmp	w11, #46
	eor	w12, w10, #0x1
	csinc	w12, w12, wzr, ne
	tbnz	w12, #0, .Lunix_path_BB2_774
	ldrb	w12, [x24, x9]
	and	w12, w12, #0xfe
	cmp	w12, #46
	b.ne	.Lunix_path_BB2_924
.Lunix_path_BB2_774:
	add	w11, w11, #1
	b	.Lunix_path_BB2_898
.Lunix_path_BB2_775:
	subs	x22, x8, x28
	b.ls	.Lunix_path_BB2_778
	ldr	x10, [sp, #192]
	add	x10, x10, x28
	ldrb	w11, [x10]
	cmp	w11, #47
	b.eq	.Lunix_path_BB2_778
	ldurb	w10, [x10, #-1]
	cmp	w10, #47
	b.ne	.Lunix_path_BB2_896
.Lunix_path_BB2_778:
	ldr	x8, [sp, #192]
	add	x21, x8, x28
	b	.Lunix_path_BB2_908
.Lunix_path_BB2_779:
	bl	unix_bytes.utf8.scans.scan_by_window
.Lunix_path_BB2_780:
	cmp	x0, x23
	b.hs	.Lunix_path_BB2_782
	mov	w20, wzr
	b	.Lunix_path_BB2_1208
.Lunix_path_BB2_782:
	sub	x20, x29, #224
	cbz	x23, .Lunix_path_BB2_952
	tbnz	x23, #63, .Lunix_path_BB2_931
	mov	x0, x23
	mov	w1, #1
	bl	rattle_alloc
	tbz	w0, #0, .Lunix_path_BB2_931
	mov	x22, x1
	b	.Lunix_path_BB2_953
.Lunix_path_BB2_786:
	add	x8, x9, w10, uxtw
	b	.Lunix_path_BB2_796
.Lunix_path_BB2_787:
	add	x10, x26, x27
	add	x11, x1, x20
	and	x9, x25, #0x18
	and	x8, x25, #0xffffffffffffffe0
	add	x10, x10, #17
	add	x11, x11, #16
	and	x12, x25, #0xffffffffffffffe0
.Lunix_path_BB2_788:
	ldp	q0, q1, [x10, #-16]
	subs	x12, x12, #32
	add	x10, x10, #32
	stp	q0, q1, [x11, #-16]
	add	x11, x11, #32
	b.ne	.Lunix_path_BB2_788
	cmp	x25, x8
	b.eq	.Lunix_path_BB2_819
	cbz	x9, .Lunix_path_BB2_651
.Lunix_path_BB2_791:
	mov	x9, x8
	and	x8, x25, #0xfffffffffffffff8
	add	x10, x27, x9
	add	x11, x20, x9
	sub	x9, x9, x8
	add	x10, x26, x10
	add	x11, x1, x11
	add	x10, x10, #1
.Lunix_path_BB2_792:
	ldr	d0, [x10], #8
	adds	x9, x9, #8
	str	d0, [x11], #8
	b.ne	.Lunix_path_BB2_792
	cmp	x25, x8
	b.eq	.Lunix_path_BB2_819
	b	.Lunix_path_BB2_651
.Lunix_path_BB2_794:
	sub	x8, x8, #8
	ldr	d1, [x14, x8]
	ldr	d2, [x24, x8]
	cmeq	v1.8b, v1.8b, v2.8b
	bic	v0.8b, v0.8b, v1.8b
	addv	b0, v0.8b
	fmov	w9, s0
	orr	w9, w9, #0x100
.Lunix_path_BB2_795:
	rbit	w9, w9
	clz	w9, w9
	add	x8, x8, x9
.Lunix_path_BB2_796:
	cmp	x28, x8
	b.ls	.Lunix_path_BB2_802
	mov	w9, #1
	cmp	x8, x23
	b.hs	.Lunix_path_BB2_935
.Lunix_path_BB2_798:
	ldrb	w10, [x14, x8]
	cmp	w10, #47
	b.eq	.Lunix_path_BB2_935
	cmp	w10, #46
	eor	w11, w9, #0x1
	csinc	w11, w11, wzr, ne
	tbnz	w11, #0, .Lunix_path_BB2_801
	ldrb	w11, [x24, x8]
	and	w11, w11, #0xfe
	cmp	w11, #46
	b.ne	.Lunix_path_BB2_946
.Lunix_path_BB2_801:
	add	w10, w10, #1
	b	.Lunix_path_BB2_936
.Lunix_path_BB2_802:
	cmp	x28, x23
	b.hs	.Lunix_path_BB2_805
	ldr	x9, [sp, #192]
	add	x9, x9, x28
	ldrb	w10, [x9]
	cmp	w10, #47
	b.eq	.Lunix_path_BB2_805
	ldurb	w9, [x9, #-1]
	cmp	w9, #47
	b.ne	.Lunix_path_BB2_934
.Lunix_path_BB2_805:
	ldr	x10, [sp, #232]
	mov	x8, xzr
	mov	x9, x10
.Lunix_path_BB2_806:
	cmp	x10, #3
	b.ls	.Lunix_path_BB2_887
.Lunix_path_BB2_807:
	ldr	x10, [sp, #216]
	mov	w11, #29300
	movk	w11, #25973, lsl #16
	str	w11, [x10, x8]
	add	x8, x8, #4
	b	.Lunix_path_BB2_951
.Lunix_path_BB2_808:
	cbz	x28, .Lunix_path_BB2_810
.Lunix_path_BB2_809:
	add	x8, x24, x28
	ldurb	w9, [x8, #-1]
	cmp	w9, #47
	b.ne	.Lunix_path_BB2_867
.Lunix_path_BB2_810:
	mov	x9, xzr
.Lunix_path_BB2_811:
	sub	x1, x23, x9
	sub	x3, x28, x9
	mov	x0, x14
	mov	x2, x24
	bl	unix_path.suffixes.ends_with_parts
	ldr	x8, [sp, #232]
	cbz	w0, .Lunix_path_BB2_880
	cmp	x8, #3
	b.ls	.Lunix_path_BB2_1148
	mov	x9, xzr
.Lunix_path_BB2_814:
	ldr	x10, [sp, #216]
	mov	w11, #29300
	movk	w11, #25973, lsl #16
.Lunix_path_BB2_815:
	str	w11, [x10, x9]
	add	x9, x9, #4
	b	.Lunix_path_BB2_332
.Lunix_path_BB2_816:
	sub	x0, x29, #224
	mov	x1, x25
	bl	std_alloc.vec.Vec.grow_amortized.2c3341b61b28ed12.
	cbz	w0, .Lunix_path_BB2_1300
	ldp	x20, x23, [x29, #-216]
	ldur	x1, [x29, #-224]
	ldr	x15, [sp, #176]
	ldr	x8, [sp, #192]
	add	x0, x1, x20
	sub	x8, x0, x8
	cmp	x8, x25
	b.lo	.Lunix_path_BB2_648
.Lunix_path_BB2_818:
	mov	x1, x15
	mov	x2, x25
	bl	memmove
.Lunix_path_BB2_819:
	add	x20, x20, x25
	stp	x20, x23, [x29, #-216]
	cbz	w22, .Lunix_path_BB2_822
	cmp	x23, x20
	b.eq	.Lunix_path_BB2_932
.Lunix_path_BB2_821:
	ldur	x8, [x29, #-224]
	strb	w21, [x8, x20]
	add	x20, x20, #1
	stp	x20, x23, [x29, #-216]
.Lunix_path_BB2_822:
	sub	x8, x23, x20
	cmp	x28, x8
	b.hi	.Lunix_path_BB2_838
	ldur	x21, [x29, #-224]
	add	x8, x21, x20
	sub	x8, x8, x24
	cmp	x8, x28
	b.hs	.Lunix_path_BB2_840
.Lunix_path_BB2_824:
	cmp	x28, #8
	b.lo	.Lunix_path_BB2_826
	add	x8, x20, x21
	sub	x8, x8, x24
	cmp	x8, #32
	b.hs	.Lunix_path_BB2_829
.Lunix_path_BB2_826:
	mov	x8, xzr
.Lunix_path_BB2_827:
	add	x10, x8, x20
	sub	x9, x28, x8
	add	x8, x24, x8
	add	x10, x21, x10
.Lunix_path_BB2_828:
	ldrb	w11, [x8], #1
	subs	x9, x9, #1
	strb	w11, [x10], #1
	b.ne	.Lunix_path_BB2_828
	b	.Lunix_path_BB2_841
.Lunix_path_BB2_829:
	cmp	x28, #32
	b.hs	.Lunix_path_BB2_831
	mov	x8, xzr
	b	.Lunix_path_BB2_835
.Lunix_path_BB2_831:
	add	x11, x21, x20
	and	x9, x28, #0x18
	and	x8, x28, #0xffffffffffffffe0
	add	x10, x24, #16
	add	x11, x11, #16
	and	x12, x28, #0xffffffffffffffe0
.Lunix_path_BB2_832:
	ldp	q0, q1, [x10, #-16]
	subs	x12, x12, #32
	add	x10, x10, #32
	stp	q0, q1, [x11, #-16]
	add	x11, x11, #32
	b.ne	.Lunix_path_BB2_832
	cmp	x28, x8
	b.eq	.Lunix_path_BB2_841
	cbz	x9, .Lunix_path_BB2_827
.Lunix_path_BB2_835:
	mov	x10, x8
	and	x8, x28, #0xfffffffffffffff8
	add	x11, x20, x10
	sub	x9, x10, x8
	add	x10, x24, x10
	add	x11, x21, x11
.Lunix_path_BB2_836:
	ldr	d0, [x10], #8
	adds	x9, x9, #8
	str	d0, [x11], #8
	b.ne	.Lunix_path_BB2_836
	cmp	x28, x8
	b.eq	.Lunix_path_BB2_841
	b	.Lunix_path_BB2_827
.Lunix_path_BB2_838:
	sub	x0, x29, #224
	mov	x1, x28
	bl	std_alloc.vec.Vec.grow_amortized.2c3341b61b28ed12.
	cbz	w0, .Lunix_path_BB2_1300
	ldp	x20, x23, [x29, #-216]
	ldur	x21, [x29, #-224]
	add	x8, x21, x20
	sub	x8, x8, x24
	cmp	x8, x28
	b.lo	.Lunix_path_BB2_824
.Lunix_path_BB2_840:
	add	x0, x21, x20
	mov	x1, x24
	mov	x2, x28
	bl	memmove
.Lunix_path_BB2_841:
	ldp	x25, x22, [sp, #224]
	add	x24, x20, x28
	sub	x8, x22, x25
	cmp	x24, x8
	b.hi	.Lunix_path_BB2_860
.Lunix_path_BB2_842:
	ldr	x26, [sp, #216]
	add	x8, x26, x25
	sub	x8, x8, x21
	cmp	x8, x24
	add	x8, sp, #216
	stp	xzr, xzr, [x8, #8]
	b.hs	.Lunix_path_BB2_848
	cmp	x24, #8
	b.lo	.Lunix_path_BB2_845
	add	x8, x25, x26
	sub	x8, x8, x21
	cmp	x8, #32
	b.hs	.Lunix_path_BB2_851
.Lunix_path_BB2_845:
	mov	x8, xzr
.Lunix_path_BB2_846:
	add	x9, x28, x20
	add	x10, x8, x25
	sub	x9, x9, x8
	add	x8, x21, x8
	add	x10, x26, x10
.Lunix_path_BB2_847:
	ldrb	w11, [x8], #1
	subs	x9, x9, #1
	strb	w11, [x10], #1
	b.ne	.Lunix_path_BB2_847
	b	.Lunix_path_BB2_849
.Lunix_path_BB2_848:
	add	x0, x26, x25
	mov	x1, x21
	mov	x2, x24
	bl	memmove
.Lunix_path_BB2_849:
	add	x8, x25, x24
	str	x22, [sp, #232]
	stp	x26, x8, [sp, #216]
	cbz	x23, .Lunix_path_BB2_333
	mov	x0, x21
	bl	rattle_dealloc
	b	.Lunix_path_BB2_333
.Lunix_path_BB2_851:
	cmp	x24, #32
	b.hs	.Lunix_path_BB2_853
	mov	x8, xzr
	b	.Lunix_path_BB2_857
.Lunix_path_BB2_853:
	add	x11, x26, x25
	and	x9, x24, #0x18
	and	x8, x24, #0xffffffffffffffe0
	add	x10, x21, #16
	add	x11, x11, #16
	and	x12, x24, #0xffffffffffffffe0
.Lunix_path_BB2_854:
	ldp	q0, q1, [x10, #-16]
	subs	x12, x12, #32
	add	x10, x10, #32
	stp	q0, q1, [x11, #-16]
	add	x11, x11, #32
	b.ne	.Lunix_path_BB2_854
	cmp	x24, x8
	b.eq	.Lunix_path_BB2_849
	cbz	x9, .Lunix_path_BB2_846
.Lunix_path_BB2_857:
	mov	x10, x8
	and	x8, x24, #0xfffffffffffffff8
	add	x11, x25, x10
	sub	x9, x10, x8
	add	x10, x21, x10
	add	x11, x26, x11
.Lunix_path_BB2_858:
	ldr	d0, [x10], #8
	adds	x9, x9, #8
	str	d0, [x11], #8
	b.ne	.Lunix_path_BB2_858
	cmp	x24, x8
	b.eq	.Lunix_path_BB2_849
	b	.Lunix_path_BB2_846
.Lunix_path_BB2_860:
	add	x0, sp, #216
	add	x1, x20, x28
	bl	std_alloc.vec.Vec.grow_amortized.307f257cf2d167af.
	cbz	w0, .Lunix_path_BB2_1306
	ldp	x25, x22, [sp, #224]
	b	.Lunix_path_BB2_842
.Lunix_path_BB2_862:
	mov	w25, wzr
	mov	x22, xzr
	b	.Lunix_path_BB2_976
.Lunix_path_BB2_863:
	mov	x9, xzr
	mov	w10, #1
	cmp	xzr, x8
	b.hs	.Lunix_path_BB2_897
	b	.Lunix_path_BB2_771
.Lunix_path_BB2_864:
	mov	x8, xzr
	mov	w9, #1
	cmp	xzr, x23
	b.hs	.Lunix_path_BB2_935
	b	.Lunix_path_BB2_798
.Lunix_path_BB2_865:
	mov	x9, xzr
	b	.Lunix_path_BB2_769
.Lunix_path_BB2_866:
	mov	x8, xzr
	b	.Lunix_path_BB2_796
.Lunix_path_BB2_867:
	cmp	x28, #1
	b.eq	.Lunix_path_BB2_870
	cmp	w9, #46
	b.ne	.Lunix_path_BB2_870
	ldurb	w8, [x8, #-2]
	cmp	w8, #47
	b.eq	.Lunix_path_BB2_810
.Lunix_path_BB2_870:
	cmp	x28, x23
	mov	x8, xzr
	sub	x10, x24, #1
	csel	x9, x28, x23, lo
	add	x11, x26, x27
.Lunix_path_BB2_871:
	ldrb	w12, [x11, x23]
	cmp	w12, #47
	b.eq	.Lunix_path_BB2_875
	ldrb	w13, [x10, x28]
	cmp	w12, w13
	b.ne	.Lunix_path_BB2_875
	add	x8, x8, #1
	sub	x10, x10, #1
	sub	x11, x11, #1
	cmp	x9, x8
	b.ne	.Lunix_path_BB2_871
	mov	x8, x9
.Lunix_path_BB2_875:
	subs	x9, x23, x8
	b.eq	.Lunix_path_BB2_877
	ldr	x10, [sp, #192]
	add	x9, x10, x9
	ldurb	w9, [x9, #-1]
	cmp	w9, #47
	b.ne	.Lunix_path_BB2_879
.Lunix_path_BB2_877:
	subs	x10, x28, x8
	mov	x9, x28
	b.eq	.Lunix_path_BB2_811
	add	x9, x24, x10
	ldurb	w9, [x9, #-1]
	cmp	w9, #47
	mov	x9, x8
	b.eq	.Lunix_path_BB2_811
.Lunix_path_BB2_879:
	ldr	x8, [sp, #232]
.Lunix_path_BB2_880:
	cmp	x8, #4
	b.ls	.Lunix_path_BB2_1146
	mov	x9, xzr
.Lunix_path_BB2_882:
	ldr	x10, [sp, #216]
	adrp	x12, .Lunix_path_static.30
	add	x12, x12, :lo12:.Lunix_path_static.30
	add	x11, x10, x9
	sub	x12, x11, x12
	cmp	x12, #4
	b.hi	.Lunix_path_BB2_885
	adrp	x12, .Lunix_path_CPI2_4
	ldr	d0, [x12, :lo12:.Lunix_path_CPI2_4]
	mov	w12, #101
.Lunix_path_BB2_884:
	str	s0, [x11]
	add	x9, x9, #5
	strb	w12, [x11, #4]
	b	.Lunix_path_BB2_332
.Lunix_path_BB2_885:
	mov	w13, #24934
	mov	w12, #101
	movk	w13, #29548, lsl #16
.Lunix_path_BB2_886:
	strb	w12, [x11, #4]
	add	x9, x9, #5
	str	w13, [x11]
	b	.Lunix_path_BB2_332
.Lunix_path_BB2_887:
	add	x0, sp, #216
	mov	w1, #4
	bl	std_alloc.vec.Vec.grow_amortized.307f257cf2d167af.
	cbz	w0, .Lunix_path_BB2_1293
	ldp	x8, x9, [sp, #224]
	b	.Lunix_path_BB2_807
.Lunix_path_BB2_889:
	cmp	x8, #6
	b.ls	.Lunix_path_BB2_1240
	mov	x9, xzr
.Lunix_path_BB2_891:
	ldr	x10, [sp, #216]
	adrp	x12, .Lunix_path_static.52
	add	x12, x12, :lo12:.Lunix_path_static.52
	add	x11, x10, x9
	sub	x12, x11, x12
	cmp	x12, #6
	b.hi	.Lunix_path_BB2_965
	adrp	x12, .Lunix_path_CPI2_2
	mov	w13, #25972
	add	x9, x9, #7
	ldr	d0, [x12, :lo12:.Lunix_path_CPI2_2]
	mov	w12, #114
	strh	w13, [x11, #4]
	strb	w12, [x11, #6]
	str	s0, [x11]
	b	.Lunix_path_BB2_332
.Lunix_path_BB2_893:
	cmp	x8, #3
	b.ls	.Lunix_path_BB2_1242
	mov	x9, xzr
.Lunix_path_BB2_895:
	ldr	x10, [sp, #216]
	mov	w11, #25964
	movk	w11, #29555, lsl #16
	b	.Lunix_path_BB2_815
.Lunix_path_BB2_896:
	mov	w10, wzr
	cmp	x9, x8
	b.lo	.Lunix_path_BB2_771
.Lunix_path_BB2_897:
	mov	w11, wzr
.Lunix_path_BB2_898:
	cbz	w10, .Lunix_path_BB2_902
	ldrb	w10, [x24, x9]
	cmp	w10, #47
	b.ne	.Lunix_path_BB2_901
	mov	w10, wzr
	b	.Lunix_path_BB2_902
.Lunix_path_BB2_901:
	add	w10, w10, #1
.Lunix_path_BB2_902:
	cmp	w11, w10
	b.ne	.Lunix_path_BB2_904
	cbnz	x9, .Lunix_path_BB2_906
	b	.Lunix_path_BB2_924
.Lunix_path_BB2_904:
	cbz	x9, .Lunix_path_BB2_924
	ldr	x10, [sp, #192]
	add	x10, x10, x9
	ldurb	w10, [x10, #-1]
	cmp	w10, #47
	b.ne	.Lunix_path_BB2_921
.Lunix_path_BB2_906:
	sub	x2, x8, x9
	ldr	x8, [sp, #192]
	sub	x4, x28, x9
	sub	x0, x29, #224
	add	x3, x24, x9
	add	x1, x8, x9
	bl	unix_path.pair.Comparison.rest_after_cut
	ldurb	w8, [x29, #-224]
	cmp	w8, #1
	b.ne	.Lunix_path_BB2_920
	ldp	x21, x22, [x29, #-216]
.Lunix_path_BB2_908:
	mov	x2, xzr
	b	.Lunix_path_BB2_910
.Lunix_path_BB2_909:
	mov	w8, #1
	add	x2, x8, x2
	cmp	x2, #4
	b.hs	.Lunix_path_BB2_916
.Lunix_path_BB2_910:
	cmp	x2, x22
	b.hs	.Lunix_path_BB2_917
	ldrb	w8, [x21, x2]
	cmp	w8, #47
	b.eq	.Lunix_path_BB2_909
	cmp	w8, #46
	b.ne	.Lunix_path_BB2_917
	add	x8, x2, #1
	cmp	x8, x22
	b.eq	.Lunix_path_BB2_909
	ldrb	w8, [x21, x8]
	cmp	w8, #47
	b.ne	.Lunix_path_BB2_917
	mov	w8, #2
	add	x2, x8, x2
	cmp	x2, #4
	b.lo	.Lunix_path_BB2_910
.Lunix_path_BB2_916:
	mov	x0, x21
	mov	x1, x22
	bl	unix_path.filler.filler_end_from
	mov	x2, x0
.Lunix_path_BB2_917:
	add	x15, x21, x2
	sub	x8, x22, x2
.Lunix_path_BB2_918:
	mov	w9, #1
	stur	x8, [x29, #-104]
	sub	x0, x29, #120
	stp	x9, x15, [x29, #-120]
.Lunix_path_BB2_919:
	add	x1, sp, #216
	bl	pathtool.names.push_optional
	and	w8, w0, #0xff
	tbz	w8, #0, .Lunix_path_BB2_333
	b	.Lunix_path_BB2_1293
.Lunix_path_BB2_920:
	ldr	x8, [sp, #224]
	b	.Lunix_path_BB2_925
.Lunix_path_BB2_921:
	subs	x9, x9, #1
	b.eq	.Lunix_path_BB2_924
	cmp	w10, #46
	b.ne	.Lunix_path_BB2_924
	ldr	x10, [sp, #192]
	add	x10, x10, x9
	ldurb	w10, [x10, #-1]
	cmp	w10, #47
	b.eq	.Lunix_path_BB2_906
.Lunix_path_BB2_924:
	mov	x8, xzr
.Lunix_path_BB2_925:
	ldr	x9, [sp, #232]
	sub	x10, x9, x8
	cmp	x10, #15
	b.ls	.Lunix_path_BB2_1142
.Lunix_path_BB2_926:
	ldr	x10, [sp, #216]
	adrp	x12, .Lunix_path_static.49
	add	x12, x12, :lo12:.Lunix_path_static.49
	add	x11, x10, x8
	sub	x13, x11, x12
	cmp	x13, #15
	b.hi	.Lunix_path_BB2_928
	adrp	x12, .Lunix_path_CPI2_6
	ldr	q0, [x12, :lo12:.Lunix_path_CPI2_6]
	b	.Lunix_path_BB2_929
.Lunix_path_BB2_928:
	ldr	q0, [x12]
.Lunix_path_BB2_929:
	add	x8, x8, #16
	str	q0, [x11]
	b	.Lunix_path_BB2_951
.Lunix_path_BB2_930:
	mov	w25, wzr
	b	.Lunix_path_BB2_967
.Lunix_path_BB2_931:
	mov	w20, #2
	b	.Lunix_path_BB2_1208
.Lunix_path_BB2_932:
	sub	x0, x29, #224
	mov	w1, #1
	bl	std_alloc.vec.Vec.grow_amortized.2c3341b61b28ed12.
	cbz	w0, .Lunix_path_BB2_1300
	ldp	x20, x23, [x29, #-216]
	b	.Lunix_path_BB2_821
.Lunix_path_BB2_934:
	mov	w9, wzr
	cmp	x8, x23
	b.lo	.Lunix_path_BB2_798
.Lunix_path_BB2_935:
	mov	w10, wzr
.Lunix_path_BB2_936:
	cbz	w9, .Lunix_path_BB2_938
	ldrb	w9, [x24, x8]
	cmp	w9, #47
	csinc	w9, wzr, w9, eq
.Lunix_path_BB2_938:
	cmp	w10, w9
	b.ne	.Lunix_path_BB2_940
	cbnz	x8, .Lunix_path_BB2_942
	b	.Lunix_path_BB2_946
.Lunix_path_BB2_940:
	cbz	x8, .Lunix_path_BB2_946
	ldr	x9, [sp, #192]
	add	x9, x9, x8
	ldurb	w9, [x9, #-1]
	cmp	w9, #47
	b.ne	.Lunix_path_BB2_943
.Lunix_path_BB2_942:
	ldr	x9, [sp, #192]
	sub	x2, x23, x8
	sub	x4, x28, x8
	sub	x0, x29, #224
	add	x3, x24, x8
	add	x1, x9, x8
	bl	unix_path.pair.Comparison.rest_after_cut
	ldp	x8, x9, [sp, #224]
	ldurb	w10, [x29, #-224]
	cmp	w10, #1
	sub	x10, x9, x8
	b.eq	.Lunix_path_BB2_806
	b	.Lunix_path_BB2_947
.Lunix_path_BB2_943:
	subs	x8, x8, #1
	b.eq	.Lunix_path_BB2_946
	cmp	w9, #46
	b.ne	.Lunix_path_BB2_946
	ldr	x9, [sp, #192]
	add	x9, x9, x8
	ldurb	w9, [x9, #-1]
	cmp	w9, #47
	b.eq	.Lunix_path_BB2_942
.Lunix_path_BB2_946:
	ldr	x10, [sp, #232]
	mov	x8, xzr
	mov	x9, x10
.Lunix_path_BB2_947:
	cmp	x10, #4
	b.ls	.Lunix_path_BB2_1144
.Lunix_path_BB2_948:
	ldr	x10, [sp, #216]
	adrp	x12, .Lunix_path_static.30
	add	x12, x12, :lo12:.Lunix_path_static.30
	add	x11, x10, x8
	sub	x12, x11, x12
	cmp	x12, #4
	b.hi	.Lunix_path_BB2_950
	adrp	x12, .Lunix_path_CPI2_4
	add	x8, x8, #5
	ldr	d0, [x12, :lo12:.Lunix_path_CPI2_4]
	mov	w12, #101
	strb	w12, [x11, #4]
	str	s0, [x11]
	b	.Lunix_path_BB2_951
.Lunix_path_BB2_950:
	mov	w13, #24934
	mov	w12, #101
	add	x8, x8, #5
	movk	w13, #29548, lsl #16
	strb	w12, [x11, #4]
	str	w13, [x11]
.Lunix_path_BB2_951:
	stp	x10, x8, [sp, #216]
	str	x9, [sp, #232]
	b	.Lunix_path_BB2_333
.Lunix_path_BB2_952:
	sub	x22, x29, #88
.Lunix_path_BB2_953:
	ldr	x8, [sp, #192]
	ldr	x1, [sp, #176]
	sub	x8, x22, x8
	cmp	x8, x23
	b.hs	.Lunix_path_BB2_959
	cmp	x23, #8
	b.lo	.Lunix_path_BB2_956
	sub	x8, x22, x26
	sub	x8, x8, #5
	cmp	x8, #32
	b.hs	.Lunix_path_BB2_1160
.Lunix_path_BB2_956:
	mov	x8, xzr
.Lunix_path_BB2_957:
	add	x9, x8, x27
	add	x10, x26, x9
	sub	x9, x23, x8
	add	x8, x22, x8
	add	x10, x10, #1
.Lunix_path_BB2_958:
	ldrb	w11, [x10], #1
	subs	x9, x9, #1
	strb	w11, [x8], #1
	b.ne	.Lunix_path_BB2_958
	b	.Lunix_path_BB2_960
.Lunix_path_BB2_959:
	mov	x0, x22
	mov	x2, x23
	bl	memmove
.Lunix_path_BB2_960:
	mov	w8, #3
	mov	w0, #128
	mov	w1, #1
	sturh	w8, [x29, #-120]
	stp	x22, x23, [x29, #-112]
	stur	x23, [x29, #-96]
	bl	rattle_alloc
	tbz	w0, #0, .Lunix_path_BB2_1196
	adrp	x8, .Lunix_path_CPI2_7
	stur	x1, [x29, #-224]
	sub	x0, x29, #120
	ldr	q0, [x8, :lo12:.Lunix_path_CPI2_7]
	sub	x1, x29, #224
	stp	xzr, xzr, [x20, #32]
	stur	xzr, [x20, #24]
	stur	q0, [x29, #-216]
	bl	serde_json.ser.write.d02ee1697995db96.
	tst	w0, #0xff
	b.eq	.Lunix_path_BB2_1154
	ldur	x8, [x29, #-208]
	cbz	x8, .Lunix_path_BB2_1196
	ldur	x0, [x29, #-224]
	b	.Lunix_path_BB2_1195
.Lunix_path_BB2_964:
	mov	w13, #29029
	mov	w12, #108
	movk	w13, #24949, lsl #16
	b	.Lunix_path_BB2_886
.Lunix_path_BB2_965:
	mov	w12, #29793
	mov	w13, #29287
	add	x9, x9, #7
	movk	w12, #29285, lsl #16
	movk	w13, #24933, lsl #16
	stur	w12, [x11, #3]
	str	w13, [x11]
	b	.Lunix_path_BB2_332
.Lunix_path_BB2_966:
	ldrb	w8, [x11, #1]
	cmp	w8, #47
	cset	w25, eq
.Lunix_path_BB2_967:
	mov	x22, x23
	b	.Lunix_path_BB2_969
.Lunix_path_BB2_968:
	mov	x22, x2
	cbz	x2, .Lunix_path_BB2_975
.Lunix_path_BB2_969:
	subs	x2, x22, #1
	b.eq	.Lunix_path_BB2_975
	ldr	x8, [sp, #192]
	add	x8, x8, x2
	ldrb	w9, [x8]
	cmp	w9, #47
	b.eq	.Lunix_path_BB2_973
	cmp	w9, #46
	b.ne	.Lunix_path_BB2_975
	ldurb	w8, [x8, #-1]
	cmp	w8, #47
	b.ne	.Lunix_path_BB2_975
.Lunix_path_BB2_973:
	sub	x8, x23, x2
	cmp	x8, #8
	b.ne	.Lunix_path_BB2_968
	mov	x0, x11
	mov	x1, xzr
	bl	unix_path.filler.trimmed_blocks_len
	ldr	x11, [sp, #176]
	adrp	x13, .Lunix_path_CPI2_0
	mov	x2, x0
	b	.Lunix_path_BB2_968
.Lunix_path_BB2_975:
	ldr	x14, [sp, #96]
	ldr	x15, [sp, #144]
.Lunix_path_BB2_976:
	sub	x8, x29, #88
	stp	xzr, xzr, [x21, #8]
	stur	x8, [x29, #-224]
	stur	x8, [x29, #-120]
	sub	x8, x29, #120
	stp	xzr, xzr, [x8, #8]
	cbz	x15, .Lunix_path_BB2_1075
	add	x8, x26, x27
	mov	x24, xzr
	mov	x23, xzr
	str	x8, [sp, #112]
	sub	x8, x8, #15
	str	x8, [sp, #80]
	sub	x8, x29, #88
	str	x8, [sp, #64]
	str	x8, [sp, #176]
	b	.Lunix_path_BB2_982
.Lunix_path_BB2_978:
	mov	x8, x9
.Lunix_path_BB2_979:
	add	x26, x8, x20
	mov	w28, #3
	ldp	x8, x9, [x29, #-216]
	cmp	x9, x8
	b.eq	.Lunix_path_BB2_1009
.Lunix_path_BB2_980:
	mov	w9, #24
	ldr	x10, [sp, #64]
	mov	w25, wzr
	madd	x9, x8, x9, x10
	add	x8, x8, #1
	add	x23, x26, x23
	stp	x28, x21, [x9]
	str	x20, [x9, #16]
	stur	x8, [x29, #-216]
.Lunix_path_BB2_981:
	add	x24, x24, #1
	cmp	x24, x15
	b.eq	.Lunix_path_BB2_1072
.Lunix_path_BB2_982:
	ldr	x9, [sp, #192]
	ldrb	w8, [x14, x24]
	sub	x28, x22, x23
	add	x21, x9, x23
	cbz	w8, .Lunix_path_BB2_987
	cbz	x28, .Lunix_path_BB2_981
	cmp	x28, #1
	b.ne	.Lunix_path_BB2_996
	ldrb	w8, [x21]
	cmp	w8, #46
	b.ne	.Lunix_path_BB2_1013
	mov	x22, xzr
	mov	x28, xzr
	mov	x20, xzr
	mov	w26, #1
	b	.Lunix_path_BB2_1039
.Lunix_path_BB2_987:
	cbz	x28, .Lunix_path_BB2_981
	tbz	w25, #0, .Lunix_path_BB2_1000
	subs	x9, x28, #1
	b.eq	.Lunix_path_BB2_1005
	mov	x8, xzr
	add	x10, x21, #1
	sub	x11, x28, #2
	b	.Lunix_path_BB2_992
.Lunix_path_BB2_991:
	add	x8, x8, #1
	cmp	x9, x8
	b.eq	.Lunix_path_BB2_1006
.Lunix_path_BB2_992:
	ldrb	w12, [x10, x8]
	cmp	w12, #47
	b.eq	.Lunix_path_BB2_991
	cmp	w12, #46
	b.ne	.Lunix_path_BB2_1007
	cmp	x11, x8
	b.eq	.Lunix_path_BB2_1006
	add	x12, x10, x8
	ldrb	w12, [x12, #1]
	cmp	w12, #47
	b.eq	.Lunix_path_BB2_991
	b	.Lunix_path_BB2_1007
.Lunix_path_BB2_996:
	ldr	x8, [sp, #192]
	add	x8, x8, x22
	ldurb	w9, [x8, #-1]
	cmp	w9, #46
	b.ne	.Lunix_path_BB2_1013
	ldurb	w9, [x8, #-2]
	cmp	w9, #46
	b.ne	.Lunix_path_BB2_1013
	subs	x27, x28, #2
	b.ne	.Lunix_path_BB2_1011
	mov	x22, xzr
	mov	x28, xzr
	mov	x20, xzr
	mov	w26, #2
	b	.Lunix_path_BB2_1039
.Lunix_path_BB2_1000:
	cmp	x28, #1
	b.eq	.Lunix_path_BB2_1045
	ldrb	w8, [x21]
	cmp	w8, #46
	b.ne	.Lunix_path_BB2_1045
	ldrb	w8, [x21, #1]
	cmp	w8, #46
	b.ne	.Lunix_path_BB2_1045
	subs	x9, x28, #2
	b.ne	.Lunix_path_BB2_1043
	mov	x21, xzr
	mov	x20, xzr
	mov	w26, #2
	ldp	x8, x9, [x29, #-216]
	cmp	x9, x8
	b.ne	.Lunix_path_BB2_980
	b	.Lunix_path_BB2_1009
.Lunix_path_BB2_1005:
	mov	w26, #1
	b	.Lunix_path_BB2_1008
.Lunix_path_BB2_1006:
	mov	x8, x9
.Lunix_path_BB2_1007:
	add	x26, x8, #1
.Lunix_path_BB2_1008:
	ldrb	w8, [x21]
	mov	x20, xzr
	mov	x21, xzr
	cmp	w8, #47
	cset	w28, ne
	ldp	x8, x9, [x29, #-216]
	cmp	x9, x8
	b.ne	.Lunix_path_BB2_980
.Lunix_path_BB2_1009:
	sub	x0, x29, #224
	bl	std_alloc.vec.Vec.grow_amortized.d6e9c2ff9b21f748.
	cbz	w0, .Lunix_path_BB2_1308
	ldp	x9, x8, [x29, #-224]
	adrp	x13, .Lunix_path_CPI2_0
	ldr	x14, [sp, #96]
	ldr	x15, [sp, #144]
	str	x9, [sp, #64]
	b	.Lunix_path_BB2_980
.Lunix_path_BB2_1011:
	ldurb	w8, [x8, #-3]
	cmp	w8, #47
	b.ne	.Lunix_path_BB2_1013
	mov	x8, x27
	b	.Lunix_path_BB2_1029
.Lunix_path_BB2_1013:
	ldr	x8, [sp, #80]
	add	x26, x28, #1
	mov	x10, x28
	add	x9, x8, x22
	ldr	x8, [sp, #112]
	add	x8, x8, x22
.Lunix_path_BB2_1014:
	cmp	x10, #15
	b.ls	.Lunix_path_BB2_1017
	movi	v0.16b, #47
	ldr	q1, [x9], #-16
	sub	x10, x10, #16
	sub	x26, x26, #16
	sub	x8, x8, #16
	cmeq	v0.16b, v1.16b, v0.16b
	ldr	q1, [x13, :lo12:.Lunix_path_CPI2_0]
	and	v0.16b, v0.16b, v1.16b
	addp	v0.16b, v0.16b, v0.16b
	addp	v0.16b, v0.16b, v0.16b
	addp	v0.16b, v0.16b, v0.16b
	umov	w11, v0.h[0]
	cbz	w11, .Lunix_path_BB2_1014
	umov	w8, v0.h[0]
	and	x8, x8, #0xffff
	clz	x8, x8
	sub	x8, x10, x8
	add	x26, x8, #64
	b	.Lunix_path_BB2_1019
.Lunix_path_BB2_1017:
	subs	x26, x26, #1
	b.eq	.Lunix_path_BB2_1036
	ldrb	w9, [x8], #-1
	cmp	w9, #47
	b.ne	.Lunix_path_BB2_1017
.Lunix_path_BB2_1019:
	subs	x28, x28, x26
	b.eq	.Lunix_path_BB2_1038
	add	x22, x21, x26
	mov	x20, x26
	b	.Lunix_path_BB2_1022
.Lunix_path_BB2_1021:
	mov	x20, x2
	cbz	x2, .Lunix_path_BB2_1035
.Lunix_path_BB2_1022:
	subs	x2, x20, #1
	b.eq	.Lunix_path_BB2_1035
	add	x8, x21, x2
	ldrb	w9, [x8]
	cmp	w9, #47
	b.eq	.Lunix_path_BB2_1026
	cmp	w9, #46
	b.ne	.Lunix_path_BB2_1035
	ldurb	w8, [x8, #-1]
	cmp	w8, #47
	b.ne	.Lunix_path_BB2_1035
.Lunix_path_BB2_1026:
	sub	x8, x26, x2
	cmp	x8, #8
	b.ne	.Lunix_path_BB2_1021
	ldr	x8, [sp, #192]
	mov	x1, xzr
	add	x0, x8, x23
	bl	unix_path.filler.trimmed_blocks_len
	adrp	x13, .Lunix_path_CPI2_0
	mov	x2, x0
	b	.Lunix_path_BB2_1021
.Lunix_path_BB2_1028:
	mov	x22, xzr
	mov	x28, xzr
	mov	x20, xzr
	mov	w26, #2
	mov	x8, x2
	cbz	x2, .Lunix_path_BB2_1039
.Lunix_path_BB2_1029:
	subs	x2, x8, #1
	b.eq	.Lunix_path_BB2_1068
	add	x9, x21, x2
	ldrb	w10, [x9]
	cmp	w10, #47
	b.eq	.Lunix_path_BB2_1033
	cmp	w10, #46
	b.ne	.Lunix_path_BB2_1071
	ldurb	w9, [x9, #-1]
	cmp	w9, #47
	b.ne	.Lunix_path_BB2_1071
.Lunix_path_BB2_1033:
	sub	x8, x27, x2
	cmp	x8, #8
	b.ne	.Lunix_path_BB2_1028
	ldr	x8, [sp, #192]
	mov	x1, xzr
	add	x0, x8, x23
	bl	unix_path.filler.trimmed_blocks_len
	adrp	x13, .Lunix_path_CPI2_0
	mov	x2, x0
	b	.Lunix_path_BB2_1028
.Lunix_path_BB2_1035:
	mov	w26, #3
	b	.Lunix_path_BB2_1039
.Lunix_path_BB2_1036:
	cbz	x28, .Lunix_path_BB2_1038
	ldr	x8, [sp, #192]
	mov	x20, xzr
	mov	w26, #3
	add	x22, x8, x23
	b	.Lunix_path_BB2_1039
.Lunix_path_BB2_1038:
	mov	x22, xzr
	mov	x20, xzr
	mov	x26, xzr
.Lunix_path_BB2_1039:
	ldp	x8, x9, [x29, #-112]
	cmp	x20, #0
	cset	w21, ne
	cmp	x9, x8
	b.eq	.Lunix_path_BB2_1041
.Lunix_path_BB2_1040:
	mov	w9, #24
	ldr	x10, [sp, #176]
	ldr	x14, [sp, #96]
	madd	x9, x8, x9, x10
	ldr	x15, [sp, #144]
	add	x8, x8, #1
	and	w25, w25, w21
	stp	x26, x22, [x9]
	add	x22, x20, x23
	str	x28, [x9, #16]
	stur	x8, [x29, #-112]
	b	.Lunix_path_BB2_981
.Lunix_path_BB2_1041:
	sub	x0, x29, #120
	bl	std_alloc.vec.Vec.grow_amortized.d6e9c2ff9b21f748.
	cbz	w0, .Lunix_path_BB2_1302
	ldp	x9, x8, [x29, #-120]
	adrp	x13, .Lunix_path_CPI2_0
	str	x9, [sp, #176]
	b	.Lunix_path_BB2_1040
.Lunix_path_BB2_1043:
	ldr	x8, [sp, #192]
	add	x10, x8, x23
	ldrb	w8, [x10, #2]!
	cmp	w8, #47
	b.ne	.Lunix_path_BB2_1045
	mov	x8, xzr
	sub	x11, x28, #3
	b	.Lunix_path_BB2_1051
.Lunix_path_BB2_1045:
	cmp	x28, #15
	b.hi	.Lunix_path_BB2_1055
	mov	x20, xzr
.Lunix_path_BB2_1047:
	ldrb	w8, [x21, x20]
	cmp	w8, #47
	b.eq	.Lunix_path_BB2_1061
	add	x20, x20, #1
	cmp	x28, x20
	b.ne	.Lunix_path_BB2_1047
	sub	x20, x22, x23
	b	.Lunix_path_BB2_1061
.Lunix_path_BB2_1050:
	add	x8, x8, #1
	cmp	x9, x8
	b.eq	.Lunix_path_BB2_1069
.Lunix_path_BB2_1051:
	ldrb	w12, [x10, x8]
	cmp	w12, #47
	b.eq	.Lunix_path_BB2_1050
	cmp	w12, #46
	b.ne	.Lunix_path_BB2_1070
	cmp	x11, x8
	b.eq	.Lunix_path_BB2_1069
	add	x12, x10, x8
	ldrb	w12, [x12, #1]
	cmp	w12, #47
	b.eq	.Lunix_path_BB2_1050
	b	.Lunix_path_BB2_1070
.Lunix_path_BB2_1055:
	subs	x8, x28, #16
	b.eq	.Lunix_path_BB2_1059
	mov	x9, xzr
.Lunix_path_BB2_1057:
	movi	v0.16b, #47
	ldr	q1, [x21, x9]
	cmeq	v0.16b, v1.16b, v0.16b
	ldr	q1, [x13, :lo12:.Lunix_path_CPI2_0]
	and	v0.16b, v0.16b, v1.16b
	addp	v0.16b, v0.16b, v0.16b
	addp	v0.16b, v0.16b, v0.16b
	addp	v0.16b, v0.16b, v0.16b
	umov	w10, v0.h[0]
	orr	w10, w10, #0x10000
	rbit	w10, w10
	clz	w10, w10
	cmp	w10, #15
	b.ls	.Lunix_path_BB2_1060
	add	x9, x9, #16
	cmp	x9, x8
	b.lo	.Lunix_path_BB2_1057
.Lunix_path_BB2_1059:
	movi	v0.16b, #47
	ldr	q1, [x21, x8]
	cmeq	v0.16b, v1.16b, v0.16b
	ldr	q1, [x13, :lo12:.Lunix_path_CPI2_0]
	and	v0.16b, v0.16b, v1.16b
	addp	v0.16b, v0.16b, v0.16b
	addp	v0.16b, v0.16b, v0.16b
	addp	v0.16b, v0.16b, v0.16b
	umov	w9, v0.h[0]
	orr	w9, w9, #0x10000
	rbit	w9, w9
	clz	w9, w9
	add	x20, x8, x9
	b	.Lunix_path_BB2_1061
.Lunix_path_BB2_1060:
	add	x20, x9, w10, uxtw
.Lunix_path_BB2_1061:
	mov	x8, xzr
	subs	x9, x28, x20
	b.eq	.Lunix_path_BB2_979
	add	x10, x21, x20
	sub	x11, x9, #1
	b	.Lunix_path_BB2_1064
.Lunix_path_BB2_1063:
	add	x8, x8, #1
	cmp	x9, x8
	b.eq	.Lunix_path_BB2_978
.Lunix_path_BB2_1064:
	ldrb	w12, [x10, x8]
	cmp	w12, #47
	b.eq	.Lunix_path_BB2_1063
	cmp	w12, #46
	b.ne	.Lunix_path_BB2_979
	cmp	x11, x8
	b.eq	.Lunix_path_BB2_978
	add	x12, x10, x8
	ldrb	w12, [x12, #1]
	cmp	w12, #47
	b.eq	.Lunix_path_BB2_1063
	b	.Lunix_path_BB2_979
.Lunix_path_BB2_1068:
	mov	x22, xzr
	mov	x28, xzr
	mov	w26, #2
	mov	w20, #1
	b	.Lunix_path_BB2_1039
.Lunix_path_BB2_1069:
	mov	x8, x9
.Lunix_path_BB2_1070:
	mov	x21, xzr
	mov	x20, xzr
	add	x26, x8, #2
	mov	w28, #2
	ldp	x8, x9, [x29, #-216]
	cmp	x9, x8
	b.ne	.Lunix_path_BB2_980
	b	.Lunix_path_BB2_1009
.Lunix_path_BB2_1071:
	mov	x22, xzr
	mov	x28, xzr
	mov	w26, #2
	mov	x20, x8
	b	.Lunix_path_BB2_1039
.Lunix_path_BB2_1072:
	ldp	x0, x21, [x29, #-216]
	add	x1, sp, #216
	ldp	x26, x20, [x29, #-112]
	ldur	x27, [x29, #-224]
	ldur	x24, [x29, #-120]
	cmp	x21, #0
	str	x0, [sp, #144]
	cset	w8, eq
	cmp	x20, #0
	str	w8, [sp, #80]
	cset	w25, eq
	bl	pathtool.walks.push_count
	and	w8, w0, #0xff
	tbnz	w8, #0, .Lunix_path_BB2_1296
	add	x1, sp, #216
	mov	x0, x26
	bl	pathtool.walks.push_count
	and	w8, w0, #0xff
	tbnz	w8, #0, .Lunix_path_BB2_1296
	ldr	x8, [sp, #192]
	str	w25, [sp, #24]
	sub	x22, x22, x23
	add	x28, x8, x23
	b	.Lunix_path_BB2_1078
.Lunix_path_BB2_1075:
	add	x1, sp, #216
	mov	x0, xzr
	bl	pathtool.walks.push_count
	and	w8, w0, #0xff
	tbnz	w8, #0, .Lunix_path_BB2_1313
	add	x1, sp, #216
	mov	x0, xzr
	bl	pathtool.walks.push_count
	and	w8, w0, #0xff
	tbnz	w8, #0, .Lunix_path_BB2_1313
	ldr	x28, [sp, #176]
	mov	x26, xzr
	sub	x24, x29, #88
	mov	w8, #1
	sub	x27, x29, #88
	str	xzr, [sp, #144]
	str	w8, [sp, #24]
	str	w8, [sp, #80]
.Lunix_path_BB2_1078:
	mov	w8, #1
	mov	w25, wzr
	mov	x20, x24
	str	x8, [sp, #112]
	mov	w8, #1
	str	xzr, [sp, #192]
	str	x27, [sp, #32]
	str	x27, [sp, #176]
	str	x24, [sp, #64]
	b	.Lunix_path_BB2_1081
.Lunix_path_BB2_1079:
	add	x0, x21, x23
	mov	x2, x27
	bl	memmove
.Lunix_path_BB2_1080:
	add	x9, x23, x27
	mov	w8, wzr
	str	x24, [sp, #232]
	stp	x21, x9, [sp, #216]
.Lunix_path_BB2_1081:
	mov	x27, x22
	mov	x1, x28
	tbz	w25, #0, .Lunix_path_BB2_1086
	cbz	x26, .Lunix_path_BB2_1136
	mov	x9, x20
	sub	x26, x26, #1
	ldrb	w10, [x9], #24
	cmp	w10, #1
	b.gt	.Lunix_path_BB2_1092
	cbnz	w10, .Lunix_path_BB2_1100
	adrp	x10, .Lunix_path_static.26
	add	x10, x10, :lo12:.Lunix_path_static.26
	mov	x28, x1
	mov	w25, #1
	mov	x22, x27
	mov	x20, x9
	mov	x1, x10
	mov	w27, #1
	b	.Lunix_path_BB2_1112
.Lunix_path_BB2_1086:
	ldr	x11, [sp, #144]
	ldr	x10, [sp, #192]
	cmp	x11, #0
	cset	w9, eq
	orr	w9, w10, w9
	tbz	w9, #0, .Lunix_path_BB2_1089
	ldr	x9, [sp, #112]
	cmp	w9, #1
	b.ne	.Lunix_path_BB2_1094
	mov	w9, #1
	str	xzr, [sp, #112]
	mov	x28, xzr
	mov	x22, xzr
	mov	w25, wzr
	b	.Lunix_path_BB2_1111
.Lunix_path_BB2_1089:
	ldr	x9, [sp, #176]
	sub	x11, x11, #1
	str	x11, [sp, #144]
	ldrb	w10, [x9], #24
	cmp	w10, #1
	b.gt	.Lunix_path_BB2_1098
	cbnz	w10, .Lunix_path_BB2_1102
	mov	w25, wzr
	mov	x28, x1
	adrp	x1, .Lunix_path_static.26
	add	x1, x1, :lo12:.Lunix_path_static.26
	str	xzr, [sp, #192]
	b	.Lunix_path_BB2_1103
.Lunix_path_BB2_1092:
	cmp	w10, #2
	b.ne	.Lunix_path_BB2_1101
	adrp	x10, .Lunix_path_static.33
	add	x10, x10, :lo12:.Lunix_path_static.33
	mov	x28, x1
	mov	w25, #1
	mov	x22, x27
	mov	x20, x9
	mov	x1, x10
	mov	w27, #2
	b	.Lunix_path_BB2_1112
.Lunix_path_BB2_1094:
	cbz	x26, .Lunix_path_BB2_1136
	mov	x9, x20
	sub	x26, x26, #1
	ldrb	w22, [x9], #24
	cmp	w22, #1
	b.gt	.Lunix_path_BB2_1106
	cbnz	w22, .Lunix_path_BB2_1108
	mov	w25, #1
	mov	x20, x9
	mov	w9, #1
	mov	x28, xzr
	adrp	x1, .Lunix_path_static.26
	add	x1, x1, :lo12:.Lunix_path_static.26
	str	x22, [sp, #112]
	mov	w27, #1
	b	.Lunix_path_BB2_1111
.Lunix_path_BB2_1098:
	cmp	w10, #2
	b.ne	.Lunix_path_BB2_1104
	str	xzr, [sp, #192]
	mov	w25, wzr
	mov	x28, x1
	adrp	x1, .Lunix_path_static.33
	add	x1, x1, :lo12:.Lunix_path_static.33
	str	x9, [sp, #176]
	mov	x22, x27
	mov	w27, #2
	b	.Lunix_path_BB2_1112
.Lunix_path_BB2_1100:
	mov	w25, #1
	mov	x28, x1
	adrp	x1, .Lunix_path_static.27
	add	x1, x1, :lo12:.Lunix_path_static.27
	mov	x22, x27
	mov	x20, x9
	mov	w27, #1
	b	.Lunix_path_BB2_1112
.Lunix_path_BB2_1101:
	ldp	x11, x10, [x20, #8]
	mov	x28, x1
	mov	x22, x27
	mov	w25, #1
	mov	x20, x9
	b	.Lunix_path_BB2_1105
.Lunix_path_BB2_1102:
	str	xzr, [sp, #192]
	mov	w25, wzr
	mov	x28, x1
	adrp	x1, .Lunix_path_static.27
	add	x1, x1, :lo12:.Lunix_path_static.27
.Lunix_path_BB2_1103:
	str	x9, [sp, #176]
	mov	x22, x27
	mov	w27, #1
	b	.Lunix_path_BB2_1112
.Lunix_path_BB2_1104:
	ldr	x11, [sp, #176]
	str	xzr, [sp, #192]
	mov	w25, wzr
	mov	x28, x1
	mov	x22, x27
	str	x9, [sp, #176]
	ldp	x11, x10, [x11, #8]
.Lunix_path_BB2_1105:
	mov	x1, x11
	mov	x27, x10
	b	.Lunix_path_BB2_1112
.Lunix_path_BB2_1106:
	cmp	w22, #2
	b.ne	.Lunix_path_BB2_1109
	str	xzr, [sp, #112]
	mov	x28, xzr
	mov	x22, xzr
	adrp	x1, .Lunix_path_static.33
	add	x1, x1, :lo12:.Lunix_path_static.33
	mov	w25, #1
	mov	w27, #2
	b	.Lunix_path_BB2_1110
.Lunix_path_BB2_1108:
	mov	w27, #1
	str	xzr, [sp, #112]
	mov	x28, xzr
	mov	w10, w27
	mov	x22, xzr
	adrp	x1, .Lunix_path_static.27
	add	x1, x1, :lo12:.Lunix_path_static.27
	str	x10, [sp, #192]
	mov	x20, x9
	mov	w25, w27
	b	.Lunix_path_BB2_1112
.Lunix_path_BB2_1109:
	ldp	x1, x27, [x20, #8]
	mov	x28, xzr
	mov	x22, xzr
	mov	w25, #1
	str	xzr, [sp, #112]
.Lunix_path_BB2_1110:
	mov	x20, x9
	mov	w9, #1
.Lunix_path_BB2_1111:
	str	x9, [sp, #192]
.Lunix_path_BB2_1112:
	tbz	w8, #0, .Lunix_path_BB2_1114
	ldr	x23, [sp, #224]
	b	.Lunix_path_BB2_1116
.Lunix_path_BB2_1114:
	ldp	x8, x9, [sp, #224]
	cmp	x9, x8
	b.eq	.Lunix_path_BB2_1134
.Lunix_path_BB2_1115:
	ldr	x9, [sp, #216]
	add	x23, x8, #1
	mov	w10, #9
	strb	w10, [x9, x8]
	str	x23, [sp, #224]
.Lunix_path_BB2_1116:
	ldr	x24, [sp, #232]
	sub	x8, x24, x23
	cmp	x27, x8
	b.hi	.Lunix_path_BB2_1132
.Lunix_path_BB2_1117:
	ldr	x21, [sp, #216]
	add	x8, x21, x23
	sub	x8, x8, x1
	cmp	x8, x27
	add	x8, sp, #216
	stp	xzr, xzr, [x8, #8]
	b.hs	.Lunix_path_BB2_1079
	cmp	x27, #8
	b.lo	.Lunix_path_BB2_1120
	add	x8, x23, x21
	sub	x8, x8, x1
	cmp	x8, #32
	b.hs	.Lunix_path_BB2_1123
.Lunix_path_BB2_1120:
	mov	x8, xzr
.Lunix_path_BB2_1121:
	add	x10, x8, x23
	sub	x9, x27, x8
	add	x8, x1, x8
	add	x10, x21, x10
.Lunix_path_BB2_1122:
	ldrb	w11, [x8], #1
	subs	x9, x9, #1
	strb	w11, [x10], #1
	b.ne	.Lunix_path_BB2_1122
	b	.Lunix_path_BB2_1080
.Lunix_path_BB2_1123:
	cmp	x27, #32
	b.hs	.Lunix_path_BB2_1125
	mov	x8, xzr
	b	.Lunix_path_BB2_1129
.Lunix_path_BB2_1125:
	add	x11, x21, x23
	and	x9, x27, #0x18
	and	x8, x27, #0xffffffffffffffe0
	add	x10, x1, #16
	add	x11, x11, #16
	and	x12, x27, #0xffffffffffffffe0
.Lunix_path_BB2_1126:
	ldp	q0, q1, [x10, #-16]
	subs	x12, x12, #32
	add	x10, x10, #32
	stp	q0, q1, [x11, #-16]
	add	x11, x11, #32
	b.ne	.Lunix_path_BB2_1126
	cmp	x27, x8
	b.eq	.Lunix_path_BB2_1080
	cbz	x9, .Lunix_path_BB2_1121
.Lunix_path_BB2_1129:
	mov	x10, x8
	and	x8, x27, #0xfffffffffffffff8
	add	x11, x23, x10
	sub	x9, x10, x8
	add	x10, x1, x10
	add	x11, x21, x11
.Lunix_path_BB2_1130:
	ldr	d0, [x10], #8
	adds	x9, x9, #8
	str	d0, [x11], #8
	b.ne	.Lunix_path_BB2_1130
	cmp	x27, x8
	b.eq	.Lunix_path_BB2_1080
	b	.Lunix_path_BB2_1121
.Lunix_path_BB2_1132:
	mov	x21, x1
	add	x0, sp, #216
	mov	x1, x27
	bl	std_alloc.vec.Vec.grow_amortized.307f257cf2d167af.
	cbz	w0, .Lunix_path_BB2_1150
	ldp	x23, x24, [sp, #224]
	mov	x1, x21
	b	.Lunix_path_BB2_1117
.Lunix_path_BB2_1134:
	mov	x23, x1
	add	x0, sp, #216
	mov	w1, #1
	mov	w21, #1
	bl	std_alloc.vec.Vec.grow_amortized.307f257cf2d167af.
	cbz	w0, .Lunix_path_BB2_1137
	ldr	x8, [sp, #224]
	mov	x1, x23
	b	.Lunix_path_BB2_1115
.Lunix_path_BB2_1136:
	mov	w21, wzr
.Lunix_path_BB2_1137:
	ldr	x20, [sp, #48]
	ldr	x22, [sp, #64]
	ldr	x0, [sp, #32]
	ldr	w23, [sp, #24]
	ldr	w8, [sp, #80]
	tbz	w8, #0, .Lunix_path_BB2_1151
.Lunix_path_BB2_1138:
	tbz	w23, #0, .Lunix_path_BB2_1152
.Lunix_path_BB2_1139:
	ldr	x0, [sp, #96]
	cbz	x20, .Lunix_path_BB2_1141
.Lunix_path_BB2_1140:
	bl	rattle_dealloc
.Lunix_path_BB2_1141:
	tbz	w21, #0, .Lunix_path_BB2_333
	b	.Lunix_path_BB2_1293
.Lunix_path_BB2_1142:
	add	x0, sp, #216
	mov	w1, #16
	bl	std_alloc.vec.Vec.grow_amortized.307f257cf2d167af.
	tbz	w0, #0, .Lunix_path_BB2_1293
	ldp	x8, x9, [sp, #224]
	b	.Lunix_path_BB2_926
.Lunix_path_BB2_1144:
	add	x0, sp, #216
	mov	w1, #5
	bl	std_alloc.vec.Vec.grow_amortized.307f257cf2d167af.
	cbz	w0, .Lunix_path_BB2_1293
	ldp	x8, x9, [sp, #224]
	b	.Lunix_path_BB2_948
.Lunix_path_BB2_1146:
	add	x0, sp, #216
	mov	w1, #5
	bl	std_alloc.vec.Vec.grow_amortized.307f257cf2d167af.
	cbz	w0, .Lunix_path_BB2_1293
	ldp	x9, x8, [sp, #224]
	b	.Lunix_path_BB2_882
.Lunix_path_BB2_1148:
	add	x0, sp, #216
	mov	w1, #4
	bl	std_alloc.vec.Vec.grow_amortized.307f257cf2d167af.
	cbz	w0, .Lunix_path_BB2_1293
	ldp	x9, x8, [sp, #224]
	b	.Lunix_path_BB2_814
.Lunix_path_BB2_1150:
	mov	w21, #1
	ldr	x20, [sp, #48]
	ldr	x22, [sp, #64]
	ldr	x0, [sp, #32]
	ldr	w23, [sp, #24]
	ldr	w8, [sp, #80]
	tbnz	w8, #0, .Lunix_path_BB2_1138
.Lunix_path_BB2_1151:
	bl	rattle_dealloc
	tbnz	w23, #0, .Lunix_path_BB2_1139
.Lunix_path_BB2_1152:
	mov	x0, x22
	bl	rattle_dealloc
	ldr	x0, [sp, #96]
	cbnz	x20, .Lunix_path_BB2_1140
	b	.Lunix_path_BB2_1141
.Lunix_path_BB2_1153:
	mov	w9, #1
	b	.Lunix_path_BB2_769
.Lunix_path_BB2_1154:
	ldp	x21, x8, [x29, #-224]
	sub	x20, x29, #224
	ldur	x9, [x29, #-200]
	adrp	x25, .Lunix_path_CPI2_8
	adrp	x26, .Lunix_path_CPI2_9
	adrp	x27, .Lunix_path_CPI2_10
	adrp	x28, .Lunix_path_CPI2_11
	cmp	x8, x9
	csel	x9, x8, x9, lo
	ldur	x8, [x29, #-208]
	cmp	x9, #64
	stp	x8, x9, [sp, #16]
	b.lo	.Lunix_path_BB2_1172
	ldr	x2, [sp, #24]
	mov	x1, x21
	adrp	x10, .Lunix_path_CPI2_0
	and	x8, x2, #0xffffffffffffffc0
.Lunix_path_BB2_1156:
	ldp	q0, q1, [x1]
	ldr	q10, [x10, :lo12:.Lunix_path_CPI2_0]
	ldp	q2, q3, [x1, #32]
	cmlt	v0.16b, v0.16b, #0
	cmlt	v1.16b, v1.16b, #0
	cmlt	v3.16b, v3.16b, #0
	cmlt	v2.16b, v2.16b, #0
	and	v0.16b, v0.16b, v10.16b
	and	v1.16b, v1.16b, v10.16b
	and	v2.16b, v2.16b, v10.16b
	and	v3.16b, v3.16b, v10.16b
	addp	v0.16b, v0.16b, v1.16b
	addp	v1.16b, v2.16b, v3.16b
	addp	v0.16b, v0.16b, v1.16b
	addp	v0.16b, v0.16b, v0.16b
	fmov	x9, d0
	cbnz	x9, .Lunix_path_BB2_1163
	sub	x2, x2, #64
	add	x1, x1, #64
	cmp	x2, #63
	b.hi	.Lunix_path_BB2_1156
	movi	v0.2d, #0000000000000000
	mov	x3, xzr
	add	x1, x21, x8
	stp	q0, q0, [sp, #48]
	stp	q0, q10, [sp, #80]
	str	q0, [sp, #32]
	stp	q0, q0, [sp, #176]
	str	q0, [sp, #144]
	str	q0, [sp, #112]
	str	q0, [sp]
	b	.Lunix_path_BB2_1169
.Lunix_path_BB2_1159:
	mov	w8, #1
	b	.Lunix_path_BB2_796
.Lunix_path_BB2_1160:
	cmp	x23, #32
	b.hs	.Lunix_path_BB2_1228
	mov	x8, xzr
	b	.Lunix_path_BB2_1232
.Lunix_path_BB2_1162:
	mov	w9, #2
	b	.Lunix_path_BB2_769
.Lunix_path_BB2_1163:
	movi	v3.2d, #0000000000000000
	movi	v18.2d, #0000000000000000
	mov	x8, x2
	movi	v22.2d, #0000000000000000
	movi	v19.2d, #0000000000000000
	mov	x9, x1
	movi	v21.2d, #0000000000000000
	movi	v11.2d, #0000000000000000
	movi	v12.2d, #0000000000000000
	movi	v13.2d, #0000000000000000
	movi	v14.2d, #0000000000000000
	b	.Lunix_path_BB2_1166
.Lunix_path_BB2_1164:
	ext	v4.16b, v3.16b, v0.16b, #15
	ext	v5.16b, v0.16b, v1.16b, #15
	ldr	q17, [x25, :lo12:.Lunix_path_CPI2_8]
	ext	v6.16b, v1.16b, v2.16b, #15
	ext	v7.16b, v2.16b, v15.16b, #15
	ldr	q24, [x26, :lo12:.Lunix_path_CPI2_9]
	movi	v16.16b, #15
	movi	v26.16b, #112
	ldr	q9, [x27, :lo12:.Lunix_path_CPI2_10]
	ext	v27.16b, v1.16b, v2.16b, #14
	ext	v28.16b, v2.16b, v15.16b, #13
	ext	v31.16b, v1.16b, v2.16b, #13
	ushr	v19.16b, v5.16b, #4
	ushr	v20.16b, v4.16b, #4
	ushr	v30.16b, v1.16b, #4
	ushr	v18.16b, v6.16b, #4
	ushr	v21.16b, v7.16b, #4
	ushr	v29.16b, v2.16b, #4
	and	v23.16b, v4.16b, v16.16b
	and	v25.16b, v7.16b, v16.16b
	and	v22.16b, v5.16b, v16.16b
	and	v16.16b, v6.16b, v16.16b
	tbl	v6.16b, { v17.16b }, v20.16b
	tbl	v7.16b, { v17.16b }, v19.16b
	tbl	v4.16b, { v17.16b }, v18.16b
	tbl	v5.16b, { v17.16b }, v21.16b
	ext	v21.16b, v0.16b, v1.16b, #14
	tbl	v18.16b, { v24.16b }, v23.16b
	tbl	v17.16b, { v24.16b }, v25.16b
	movi	v23.16b, #96
	ext	v25.16b, v0.16b, v1.16b, #13
	tbl	v19.16b, { v24.16b }, v22.16b
	tbl	v16.16b, { v24.16b }, v16.16b
	ext	v22.16b, v3.16b, v0.16b, #14
	ext	v24.16b, v2.16b, v15.16b, #14
	ext	v3.16b, v3.16b, v0.16b, #13
	ushr	v20.16b, v15.16b, #4
	ushr	v8.16b, v0.16b, #4
	tbl	v30.16b, { v9.16b }, v30.16b
	uqsub	v21.16b, v21.16b, v23.16b
	tbl	v29.16b, { v9.16b }, v29.16b
	and	v6.16b, v18.16b, v6.16b
	uqsub	v25.16b, v25.16b, v26.16b
	and	v7.16b, v19.16b, v7.16b
	and	v4.16b, v16.16b, v4.16b
	uqsub	v22.16b, v22.16b, v23.16b
	uqsub	v24.16b, v24.16b, v23.16b
	uqsub	v23.16b, v27.16b, v23.16b
	uqsub	v3.16b, v3.16b, v26.16b
	uqsub	v27.16b, v28.16b, v26.16b
	uqsub	v26.16b, v31.16b, v26.16b
	movi	v31.16b, #128
	tbl	v28.16b, { v9.16b }, v8.16b
	tbl	v20.16b, { v9.16b }, v20.16b
	orr	v18.16b, v21.16b, v25.16b
	ldr	q21, [x28, :lo12:.Lunix_path_CPI2_11]
	and	v5.16b, v17.16b, v5.16b
	movi	v19.2d, #0xffffffffffffffff
	and	v7.16b, v7.16b, v30.16b
	and	v4.16b, v4.16b, v29.16b
	orr	v3.16b, v22.16b, v3.16b
	orr	v16.16b, v23.16b, v26.16b
	orr	v17.16b, v24.16b, v27.16b
	and	v18.16b, v18.16b, v31.16b
	and	v6.16b, v6.16b, v28.16b
	and	v5.16b, v5.16b, v20.16b
	uqsub	v21.16b, v15.16b, v21.16b
	and	v20.16b, v3.16b, v31.16b
	and	v17.16b, v17.16b, v31.16b
	and	v16.16b, v16.16b, v31.16b
	eor	v3.16b, v7.16b, v18.16b
	uqsub	v18.16b, v0.16b, v19.16b
	uqsub	v22.16b, v1.16b, v19.16b
	uqsub	v19.16b, v2.16b, v19.16b
	eor	v0.16b, v4.16b, v16.16b
	eor	v1.16b, v5.16b, v17.16b
	eor	v2.16b, v6.16b, v20.16b
.Lunix_path_BB2_1165:
	orr	v11.16b, v2.16b, v11.16b
	orr	v12.16b, v3.16b, v12.16b
	sub	x8, x8, #64
	orr	v13.16b, v0.16b, v13.16b
	orr	v14.16b, v1.16b, v14.16b
	cmp	x8, #63
	mov	v3.16b, v15.16b
	add	x9, x9, #64
	b.ls	.Lunix_path_BB2_1168
.Lunix_path_BB2_1166:
	ldp	q0, q1, [x9]
	ldp	q2, q15, [x9, #32]
	cmlt	v4.16b, v0.16b, #0
	cmlt	v7.16b, v1.16b, #0
	cmlt	v5.16b, v15.16b, #0
	cmlt	v6.16b, v2.16b, #0
	and	v4.16b, v4.16b, v10.16b
	and	v7.16b, v7.16b, v10.16b
	and	v6.16b, v6.16b, v10.16b
	and	v5.16b, v5.16b, v10.16b
	addp	v4.16b, v4.16b, v7.16b
	addp	v5.16b, v6.16b, v5.16b
	addp	v4.16b, v4.16b, v5.16b
	addp	v4.16b, v4.16b, v4.16b
	fmov	x10, d4
	cbnz	x10, .Lunix_path_BB2_1164
	mov	v2.16b, v18.16b
	mov	v3.16b, v22.16b
	mov	v0.16b, v19.16b
	mov	v1.16b, v21.16b
	movi	v18.2d, #0000000000000000
	movi	v22.2d, #0000000000000000
	movi	v19.2d, #0000000000000000
	movi	v21.2d, #0000000000000000
	b	.Lunix_path_BB2_1165
.Lunix_path_BB2_1168:
	and	x3, x2, #0xffffffffffffffc0
	stp	q14, q13, [sp, #32]
	stp	q12, q11, [sp, #64]
	stp	q10, q21, [sp, #96]
	str	q19, [sp, #144]
	stp	q22, q18, [sp, #176]
	str	q15, [sp]
.Lunix_path_BB2_1169:
	sub	x0, x29, #224
	bl	simdutf8.last_block
	ldp	q3, q1, [x29, #-224]
	ldr	q0, [x20, #48]
	ldur	q2, [x29, #-192]
	ldr	q31, [sp, #96]
	cmlt	v5.16b, v0.16b, #0
	cmlt	v4.16b, v3.16b, #0
	cmlt	v6.16b, v2.16b, #0
	cmlt	v7.16b, v1.16b, #0
	and	v5.16b, v5.16b, v31.16b
	and	v4.16b, v4.16b, v31.16b
	and	v7.16b, v7.16b, v31.16b
	and	v6.16b, v6.16b, v31.16b
	addp	v4.16b, v4.16b, v7.16b
	addp	v5.16b, v6.16b, v5.16b
	addp	v4.16b, v4.16b, v5.16b
	addp	v4.16b, v4.16b, v4.16b
	fmov	x8, d4
	cbz	x8, .Lunix_path_BB2_1171
	ldr	q30, [sp]
	ext	v5.16b, v3.16b, v1.16b, #15
	ext	v6.16b, v1.16b, v2.16b, #15
	ext	v7.16b, v2.16b, v0.16b, #15
	movi	v16.16b, #15
	ldr	q17, [x25, :lo12:.Lunix_path_CPI2_8]
	ext	v4.16b, v30.16b, v3.16b, #15
	ldr	q18, [x26, :lo12:.Lunix_path_CPI2_9]
	ext	v28.16b, v3.16b, v1.16b, #14
	ushr	v27.16b, v3.16b, #4
	ext	v29.16b, v1.16b, v2.16b, #13
	ushr	v26.16b, v0.16b, #4
	ushr	v19.16b, v5.16b, #4
	ushr	v22.16b, v6.16b, #4
	ushr	v21.16b, v7.16b, #4
	and	v24.16b, v7.16b, v16.16b
	and	v25.16b, v6.16b, v16.16b
	ushr	v20.16b, v4.16b, #4
	and	v23.16b, v4.16b, v16.16b
	and	v16.16b, v5.16b, v16.16b
	tbl	v5.16b, { v17.16b }, v19.16b
	tbl	v6.16b, { v17.16b }, v22.16b
	movi	v22.16b, #96
	tbl	v19.16b, { v17.16b }, v21.16b
	ext	v21.16b, v2.16b, v0.16b, #14
	tbl	v4.16b, { v17.16b }, v20.16b
	tbl	v7.16b, { v18.16b }, v23.16b
	tbl	v16.16b, { v18.16b }, v16.16b
	tbl	v17.16b, { v18.16b }, v25.16b
	tbl	v18.16b, { v18.16b }, v24.16b
	ext	v20.16b, v1.16b, v2.16b, #14
	ext	v23.16b, v30.16b, v3.16b, #14
	movi	v25.16b, #112
	ext	v24.16b, v2.16b, v0.16b, #13
	uqsub	v21.16b, v21.16b, v22.16b
	ushr	v2.16b, v2.16b, #4
	and	v5.16b, v16.16b, v5.16b
	and	v4.16b, v7.16b, v4.16b
	and	v18.16b, v18.16b, v19.16b
	ext	v19.16b, v3.16b, v1.16b, #13
	ext	v3.16b, v30.16b, v3.16b, #13
	ldr	q30, [x27, :lo12:.Lunix_path_CPI2_10]
	uqsub	v23.16b, v23.16b, v22.16b
	uqsub	v20.16b, v20.16b, v22.16b
	uqsub	v22.16b, v28.16b, v22.16b
	ushr	v1.16b, v1.16b, #4
	uqsub	v24.16b, v24.16b, v25.16b
	uqsub	v28.16b, v29.16b, v25.16b
	tbl	v26.16b, { v30.16b }, v26.16b
	tbl	v2.16b, { v30.16b }, v2.16b
	uqsub	v19.16b, v19.16b, v25.16b
	uqsub	v3.16b, v3.16b, v25.16b
	movi	v25.16b, #128
	tbl	v1.16b, { v30.16b }, v1.16b
	and	v6.16b, v17.16b, v6.16b
	tbl	v27.16b, { v30.16b }, v27.16b
	orr	v21.16b, v21.16b, v24.16b
	orr	v17.16b, v20.16b, v28.16b
	and	v7.16b, v18.16b, v26.16b
	orr	v16.16b, v22.16b, v19.16b
	ldr	q19, [x28, :lo12:.Lunix_path_CPI2_11]
	orr	v3.16b, v23.16b, v3.16b
	and	v1.16b, v5.16b, v1.16b
	and	v18.16b, v21.16b, v25.16b
	and	v2.16b, v6.16b, v2.16b
	and	v6.16b, v17.16b, v25.16b
	uqsub	v0.16b, v0.16b, v19.16b
	and	v4.16b, v4.16b, v27.16b
	and	v5.16b, v16.16b, v25.16b
	and	v3.16b, v3.16b, v25.16b
	eor	v7.16b, v7.16b, v18.16b
	eor	v1.16b, v1.16b, v5.16b
	orr	v0.16b, v7.16b, v0.16b
	str	q1, [sp, #176]
	eor	v1.16b, v2.16b, v6.16b
	str	q0, [sp, #112]
	str	q1, [sp, #144]
	eor	v1.16b, v4.16b, v3.16b
	str	q1, [sp, #192]
.Lunix_path_BB2_1171:
	ldp	q2, q1, [sp, #176]
	ldr	q0, [sp, #80]
	ldr	q3, [sp, #144]
	ldr	q4, [sp, #112]
	orr	v0.16b, v1.16b, v0.16b
	ldr	q1, [sp, #64]
	orr	v1.16b, v2.16b, v1.16b
	ldr	q2, [sp, #48]
	cmeq	v0.16b, v0.16b, #0
	orr	v2.16b, v3.16b, v2.16b
	ldr	q3, [sp, #32]
	cmeq	v1.16b, v1.16b, #0
	orr	v3.16b, v4.16b, v3.16b
	bic	v0.16b, v31.16b, v0.16b
	cmeq	v2.16b, v2.16b, #0
	bic	v1.16b, v31.16b, v1.16b
	cmeq	v3.16b, v3.16b, #0
	bic	v2.16b, v31.16b, v2.16b
	addp	v0.16b, v0.16b, v1.16b
	bic	v3.16b, v31.16b, v3.16b
	addp	v1.16b, v2.16b, v3.16b
	addp	v0.16b, v0.16b, v1.16b
	addp	v0.16b, v0.16b, v0.16b
	fmov	x8, d0
	cbz	x8, .Lunix_path_BB2_1216
.Lunix_path_BB2_1172:
	mov	x22, xzr
	adrp	x14, .Lunix_path_CPI2_0
	b	.Lunix_path_BB2_1174
.Lunix_path_BB2_1173:
	ldp	q2, q1, [sp, #176]
	ldr	q3, [sp, #144]
	ldr	q4, [sp, #112]
	orr	v3.16b, v7.16b, v3.16b
	orr	v1.16b, v5.16b, v1.16b
	orr	v2.16b, v6.16b, v2.16b
	orr	v4.16b, v16.16b, v4.16b
	cmeq	v3.16b, v3.16b, #0
	cmeq	v1.16b, v1.16b, #0
	cmeq	v4.16b, v4.16b, #0
	cmeq	v2.16b, v2.16b, #0
	bic	v3.16b, v0.16b, v3.16b
	bic	v1.16b, v0.16b, v1.16b
	bic	v2.16b, v0.16b, v2.16b
	bic	v0.16b, v0.16b, v4.16b
	addp	v1.16b, v1.16b, v2.16b
	addp	v0.16b, v3.16b, v0.16b
	addp	v0.16b, v1.16b, v0.16b
	addp	v0.16b, v0.16b, v0.16b
	fmov	x8, d0
	cbnz	x8, .Lunix_path_BB2_1192
.Lunix_path_BB2_1174:
	ldr	x8, [sp, #24]
	mov	x24, x22
	sub	x23, x8, x22
	cmp	x23, #1025
	b.lo	.Lunix_path_BB2_1192
	add	x8, x24, #1024
	mov	x10, xzr
	ldrsb	w9, [x21, x8]
	cmn	w9, #64
	cset	w9, lt
	csetm	x11, lt
	sub	x8, x8, x9
	ldrsb	w9, [x21, x8]
	cmn	w9, #64
	cset	w9, lt
	csetm	x12, lt
	sub	x8, x8, x9
	ldrsb	w9, [x21, x8]
	cmn	w9, #64
	cset	w9, lt
	csetm	x13, lt
	sub	x22, x8, x9
	add	x9, x21, x24
	sub	x8, x22, x24
	cmp	x8, #64
	b.lo	.Lunix_path_BB2_1180
	add	x11, x11, x12
	add	x1, x21, x24
	add	x11, x11, x13
	add	x11, x11, #960
.Lunix_path_BB2_1177:
	ldp	q1, q2, [x1]
	ldr	q0, [x14, :lo12:.Lunix_path_CPI2_0]
	ldp	q3, q4, [x1, #32]
	cmlt	v1.16b, v1.16b, #0
	cmlt	v2.16b, v2.16b, #0
	cmlt	v4.16b, v4.16b, #0
	cmlt	v3.16b, v3.16b, #0
	and	v1.16b, v1.16b, v0.16b
	and	v2.16b, v2.16b, v0.16b
	and	v3.16b, v3.16b, v0.16b
	and	v4.16b, v4.16b, v0.16b
	addp	v1.16b, v1.16b, v2.16b
	addp	v2.16b, v3.16b, v4.16b
	addp	v1.16b, v1.16b, v2.16b
	addp	v1.16b, v1.16b, v1.16b
	fmov	x12, d1
	cbnz	x12, .Lunix_path_BB2_1184
	sub	x12, x11, #64
	add	x10, x10, #64
	cmp	x11, #63
	add	x1, x1, #64
	sub	x8, x8, #64
	mov	x11, x12
	b.hi	.Lunix_path_BB2_1177
	add	x8, x12, #64
.Lunix_path_BB2_1180:
	movi	v0.2d, #0000000000000000
	mov	x3, xzr
	add	x1, x9, x10
	mov	x2, x8
.Lunix_path_BB2_1181:
	str	q0, [sp, #144]
	stp	q0, q0, [sp, #32]
	stp	q0, q0, [sp, #64]
	stp	q0, q0, [sp, #96]
	stp	q0, q0, [sp, #176]
.Lunix_path_BB2_1182:
	sub	x0, x29, #224
	bl	simdutf8.last_block
	ldp	q4, q2, [x29, #-224]
	adrp	x14, .Lunix_path_CPI2_0
	ldr	q1, [x20, #48]
	ldur	q3, [x29, #-192]
	ldr	q0, [x14, :lo12:.Lunix_path_CPI2_0]
	cmlt	v5.16b, v4.16b, #0
	cmlt	v6.16b, v1.16b, #0
	cmlt	v7.16b, v3.16b, #0
	cmlt	v16.16b, v2.16b, #0
	and	v5.16b, v5.16b, v0.16b
	and	v7.16b, v7.16b, v0.16b
	and	v6.16b, v6.16b, v0.16b
	and	v16.16b, v16.16b, v0.16b
	addp	v6.16b, v7.16b, v6.16b
	addp	v5.16b, v5.16b, v16.16b
	ldp	q16, q7, [sp, #48]
	addp	v5.16b, v5.16b, v6.16b
	addp	v5.16b, v5.16b, v5.16b
	fmov	x8, d5
	ldp	q6, q5, [sp, #80]
	cbz	x8, .Lunix_path_BB2_1173
	ldr	q31, [sp, #32]
	ext	v6.16b, v4.16b, v2.16b, #15
	ext	v7.16b, v2.16b, v3.16b, #15
	ext	v16.16b, v3.16b, v1.16b, #15
	movi	v17.16b, #15
	ldr	q18, [x25, :lo12:.Lunix_path_CPI2_8]
	ext	v5.16b, v31.16b, v4.16b, #15
	ldr	q19, [x26, :lo12:.Lunix_path_CPI2_9]
	ushr	v28.16b, v4.16b, #4
	ext	v29.16b, v4.16b, v2.16b, #14
	ext	v30.16b, v2.16b, v3.16b, #13
	ushr	v27.16b, v1.16b, #4
	ushr	v20.16b, v6.16b, #4
	ushr	v23.16b, v7.16b, #4
	ushr	v22.16b, v16.16b, #4
	and	v25.16b, v16.16b, v17.16b
	and	v26.16b, v7.16b, v17.16b
	ushr	v21.16b, v5.16b, #4
	and	v24.16b, v5.16b, v17.16b
	and	v17.16b, v6.16b, v17.16b
	tbl	v6.16b, { v18.16b }, v20.16b
	tbl	v7.16b, { v18.16b }, v23.16b
	movi	v23.16b, #96
	tbl	v20.16b, { v18.16b }, v22.16b
	ext	v22.16b, v3.16b, v1.16b, #14
	tbl	v5.16b, { v18.16b }, v21.16b
	tbl	v16.16b, { v19.16b }, v24.16b
	tbl	v17.16b, { v19.16b }, v17.16b
	tbl	v18.16b, { v19.16b }, v26.16b
	tbl	v19.16b, { v19.16b }, v25.16b
	ext	v25.16b, v3.16b, v1.16b, #13
	movi	v26.16b, #112
	ext	v21.16b, v2.16b, v3.16b, #14
	ext	v24.16b, v31.16b, v4.16b, #14
	uqsub	v22.16b, v22.16b, v23.16b
	ushr	v3.16b, v3.16b, #4
	and	v5.16b, v16.16b, v5.16b
	and	v6.16b, v17.16b, v6.16b
	and	v19.16b, v19.16b, v20.16b
	ext	v20.16b, v4.16b, v2.16b, #13
	ext	v4.16b, v31.16b, v4.16b, #13
	ldr	q31, [x27, :lo12:.Lunix_path_CPI2_10]
	uqsub	v25.16b, v25.16b, v26.16b
	uqsub	v24.16b, v24.16b, v23.16b
	uqsub	v21.16b, v21.16b, v23.16b
	uqsub	v23.16b, v29.16b, v23.16b
	ushr	v2.16b, v2.16b, #4
	tbl	v27.16b, { v31.16b }, v27.16b
	uqsub	v29.16b, v30.16b, v26.16b
	tbl	v28.16b, { v31.16b }, v28.16b
	uqsub	v20.16b, v20.16b, v26.16b
	uqsub	v4.16b, v4.16b, v26.16b
	movi	v26.16b, #128
	orr	v22.16b, v22.16b, v25.16b
	tbl	v2.16b, { v31.16b }, v2.16b
	tbl	v3.16b, { v31.16b }, v3.16b
	and	v7.16b, v18.16b, v7.16b
	and	v16.16b, v19.16b, v27.16b
	orr	v18.16b, v21.16b, v29.16b
	and	v5.16b, v5.16b, v28.16b
	orr	v17.16b, v23.16b, v20.16b
	ldr	q20, [x28, :lo12:.Lunix_path_CPI2_11]
	orr	v4.16b, v24.16b, v4.16b
	and	v19.16b, v22.16b, v26.16b
	and	v2.16b, v6.16b, v2.16b
	and	v3.16b, v7.16b, v3.16b
	uqsub	v1.16b, v1.16b, v20.16b
	and	v7.16b, v18.16b, v26.16b
	and	v6.16b, v17.16b, v26.16b
	and	v4.16b, v4.16b, v26.16b
	eor	v16.16b, v16.16b, v19.16b
	eor	v7.16b, v3.16b, v7.16b
	eor	v6.16b, v2.16b, v6.16b
	eor	v5.16b, v5.16b, v4.16b
	orr	v16.16b, v16.16b, v1.16b
	b	.Lunix_path_BB2_1173
.Lunix_path_BB2_1184:
	add	x2, x11, #64
	cmp	x2, #64
	b.lo	.Lunix_path_BB2_1190
	movi	v4.2d, #0000000000000000
	movi	v16.2d, #0000000000000000
	mov	x9, xzr
	movi	v5.2d, #0000000000000000
	movi	v6.2d, #0000000000000000
	movi	v7.2d, #0000000000000000
	movi	v11.2d, #0000000000000000
	movi	v12.2d, #0000000000000000
	movi	v13.2d, #0000000000000000
	movi	v14.2d, #0000000000000000
	b	.Lunix_path_BB2_1188
.Lunix_path_BB2_1186:
	ext	v5.16b, v4.16b, v1.16b, #15
	ext	v6.16b, v1.16b, v2.16b, #15
	ldr	q18, [x25, :lo12:.Lunix_path_CPI2_8]
	ext	v7.16b, v2.16b, v3.16b, #15
	ext	v16.16b, v3.16b, v15.16b, #15
	ldr	q25, [x26, :lo12:.Lunix_path_CPI2_9]
	movi	v17.16b, #15
	movi	v27.16b, #112
	ldr	q10, [x27, :lo12:.Lunix_path_CPI2_10]
	ext	v28.16b, v2.16b, v3.16b, #14
	ext	v29.16b, v3.16b, v15.16b, #13
	ext	v8.16b, v2.16b, v3.16b, #13
	ushr	v20.16b, v6.16b, #4
	ushr	v21.16b, v5.16b, #4
	ushr	v30.16b, v3.16b, #4
	ushr	v19.16b, v7.16b, #4
	ushr	v22.16b, v16.16b, #4
	ushr	v31.16b, v2.16b, #4
	and	v23.16b, v6.16b, v17.16b
	and	v24.16b, v5.16b, v17.16b
	and	v26.16b, v16.16b, v17.16b
	and	v17.16b, v7.16b, v17.16b
	tbl	v7.16b, { v18.16b }, v21.16b
	tbl	v16.16b, { v18.16b }, v20.16b
	tbl	v5.16b, { v18.16b }, v19.16b
	tbl	v6.16b, { v18.16b }, v22.16b
	ext	v22.16b, v1.16b, v2.16b, #14
	tbl	v19.16b, { v25.16b }, v24.16b
	tbl	v20.16b, { v25.16b }, v23.16b
	tbl	v18.16b, { v25.16b }, v26.16b
	tbl	v17.16b, { v25.16b }, v17.16b
	ext	v23.16b, v4.16b, v1.16b, #14
	movi	v24.16b, #96
	ext	v25.16b, v3.16b, v15.16b, #14
	ext	v26.16b, v1.16b, v2.16b, #13
	ext	v4.16b, v4.16b, v1.16b, #13
	ushr	v21.16b, v15.16b, #4
	ushr	v9.16b, v1.16b, #4
	tbl	v31.16b, { v10.16b }, v31.16b
	tbl	v30.16b, { v10.16b }, v30.16b
	and	v7.16b, v19.16b, v7.16b
	and	v16.16b, v20.16b, v16.16b
	uqsub	v23.16b, v23.16b, v24.16b
	uqsub	v22.16b, v22.16b, v24.16b
	and	v5.16b, v17.16b, v5.16b
	uqsub	v25.16b, v25.16b, v24.16b
	uqsub	v26.16b, v26.16b, v27.16b
	uqsub	v24.16b, v28.16b, v24.16b
	uqsub	v4.16b, v4.16b, v27.16b
	uqsub	v28.16b, v29.16b, v27.16b
	uqsub	v27.16b, v8.16b, v27.16b
	tbl	v29.16b, { v10.16b }, v9.16b
	tbl	v21.16b, { v10.16b }, v21.16b
	movi	v8.16b, #128
	and	v6.16b, v18.16b, v6.16b
	movi	v20.2d, #0xffffffffffffffff
	orr	v19.16b, v22.16b, v26.16b
	orr	v4.16b, v23.16b, v4.16b
	orr	v17.16b, v24.16b, v27.16b
	orr	v18.16b, v25.16b, v28.16b
	and	v22.16b, v7.16b, v29.16b
	and	v7.16b, v16.16b, v31.16b
	and	v21.16b, v6.16b, v21.16b
	and	v16.16b, v19.16b, v8.16b
	and	v19.16b, v5.16b, v30.16b
	uqsub	v1.16b, v1.16b, v20.16b
	and	v4.16b, v4.16b, v8.16b
	and	v18.16b, v18.16b, v8.16b
	and	v6.16b, v17.16b, v8.16b
	ldr	q17, [x28, :lo12:.Lunix_path_CPI2_11]
	uqsub	v2.16b, v2.16b, v20.16b
	uqsub	v3.16b, v3.16b, v20.16b
	eor	v5.16b, v7.16b, v16.16b
	uqsub	v17.16b, v15.16b, v17.16b
	eor	v6.16b, v19.16b, v6.16b
	eor	v7.16b, v21.16b, v18.16b
	eor	v16.16b, v22.16b, v4.16b
.Lunix_path_BB2_1187:
	orr	v11.16b, v16.16b, v11.16b
	orr	v12.16b, v5.16b, v12.16b
	sub	x8, x8, #64
	orr	v13.16b, v6.16b, v13.16b
	orr	v14.16b, v7.16b, v14.16b
	add	x9, x9, #64
	mov	v4.16b, v15.16b
	mov	v16.16b, v1.16b
	cmp	x8, #63
	mov	v5.16b, v2.16b
	mov	v6.16b, v3.16b
	mov	v7.16b, v17.16b
	b.ls	.Lunix_path_BB2_1191
.Lunix_path_BB2_1188:
	add	x10, x1, x9
	ldp	q1, q2, [x10]
	ldp	q3, q15, [x10, #32]
	cmlt	v17.16b, v1.16b, #0
	cmlt	v20.16b, v2.16b, #0
	cmlt	v18.16b, v15.16b, #0
	cmlt	v19.16b, v3.16b, #0
	and	v17.16b, v17.16b, v0.16b
	and	v20.16b, v20.16b, v0.16b
	and	v19.16b, v19.16b, v0.16b
	and	v18.16b, v18.16b, v0.16b
	addp	v17.16b, v17.16b, v20.16b
	addp	v18.16b, v19.16b, v18.16b
	addp	v17.16b, v17.16b, v18.16b
	addp	v17.16b, v17.16b, v17.16b
	fmov	x10, d17
	cbnz	x10, .Lunix_path_BB2_1186
	movi	v1.2d, #0000000000000000
	movi	v2.2d, #0000000000000000
	movi	v3.2d, #0000000000000000
	movi	v17.2d, #0000000000000000
	b	.Lunix_path_BB2_1187
.Lunix_path_BB2_1190:
	movi	v0.2d, #0000000000000000
	mov	x3, xzr
	b	.Lunix_path_BB2_1181
.Lunix_path_BB2_1191:
	and	x3, x2, #0xffffffffffffffc0
	stp	q17, q3, [sp, #48]
	stp	q2, q1, [sp, #80]
	str	q15, [sp, #32]
	str	q14, [sp, #112]
	str	q13, [sp, #144]
	stp	q12, q11, [sp, #176]
	b	.Lunix_path_BB2_1182
.Lunix_path_BB2_1192:
	sub	x0, x29, #224
	add	x1, x21, x24
	mov	x2, x23
	stp	xzr, xzr, [x29, #-224]
	stur	xzr, [x29, #-208]
	bl	core.str.utf8.from_utf8
	ldurb	w8, [x29, #-224]
	cbz	w8, .Lunix_path_BB2_1216
	ldr	x8, [sp, #16]
	cbz	x8, .Lunix_path_BB2_1196
	mov	x0, x21
.Lunix_path_BB2_1195:
	bl	rattle_dealloc
.Lunix_path_BB2_1196:
	mov	w22, wzr
	mov	x21, xzr
	mov	x26, xzr
	mov	x28, xzr
	mov	w20, #2
	ldurb	w8, [x29, #-120]
	cmp	w8, #2
	b.gt	.Lunix_path_BB2_1217
.Lunix_path_BB2_1197:
	cbz	w22, .Lunix_path_BB2_1208
	ldp	x22, x20, [sp, #224]
	sub	x8, x20, x22
	cmp	x26, x8
	b.hi	.Lunix_path_BB2_1265
.Lunix_path_BB2_1199:
	ldr	x23, [sp, #216]
	add	x8, x23, x22
	sub	x8, x8, x21
	cmp	x8, x26
	add	x8, sp, #216
	stp	xzr, xzr, [x8, #8]
	b.hs	.Lunix_path_BB2_1213
	cmp	x26, #8
	b.lo	.Lunix_path_BB2_1202
	add	x8, x22, x23
	sub	x8, x8, x21
	cmp	x8, #32
	b.hs	.Lunix_path_BB2_1235
.Lunix_path_BB2_1202:
	mov	x8, xzr
.Lunix_path_BB2_1203:
	add	x10, x8, x22
	sub	x9, x26, x8
	add	x8, x21, x8
	add	x10, x23, x10
.Lunix_path_BB2_1204:
	ldrb	w11, [x8], #1
	subs	x9, x9, #1
	strb	w11, [x10], #1
	b.ne	.Lunix_path_BB2_1204
.Lunix_path_BB2_1205:
	mov	w24, wzr
	add	x8, x22, x26
	str	x20, [sp, #232]
	stp	x23, x8, [sp, #216]
	cbz	x28, .Lunix_path_BB2_1207
.Lunix_path_BB2_1206:
	mov	x0, x21
	bl	rattle_dealloc
.Lunix_path_BB2_1207:
	tbz	w24, #0, .Lunix_path_BB2_333
	b	.Lunix_path_BB2_1293
.Lunix_path_BB2_1208:
	cbnz	w20, .Lunix_path_BB2_1293
	ldp	x9, x8, [sp, #224]
	sub	x10, x8, x9
	cmp	x10, #37
	b.ls	.Lunix_path_BB2_1214
.Lunix_path_BB2_1210:
	ldr	x10, [sp, #216]
	adrp	x12, .Lunix_path_static.48
	add	x12, x12, :lo12:.Lunix_path_static.48
	add	x11, x10, x9
	sub	x13, x11, x12
	cmp	x13, #37
	add	x13, sp, #216
	stp	xzr, xzr, [x13, #8]
	b.hi	.Lunix_path_BB2_1212
	adrp	x12, .Lunix_path_CPI2_12
	adrp	x13, .Lunix_path_CPI2_13
	add	x9, x9, #38
	ldr	q0, [x12, :lo12:.Lunix_path_CPI2_12]
	adrp	x12, .Lunix_path_CPI2_14
	ldr	q1, [x13, :lo12:.Lunix_path_CPI2_13]
	ldr	d2, [x12, :lo12:.Lunix_path_CPI2_14]
	mov	w12, #29554
	stp	q0, q1, [x11]
	str	s2, [x11, #32]
	strh	w12, [x11, #36]
	b	.Lunix_path_BB2_332
.Lunix_path_BB2_1212:
	ldp	q0, q1, [x12]
	add	x9, x9, #38
	ldur	x12, [x12, #30]
	stp	q0, q1, [x11]
	stur	x12, [x11, #30]
	b	.Lunix_path_BB2_332
.Lunix_path_BB2_1213:
	add	x0, x23, x22
	mov	x1, x21
	mov	x2, x26
	bl	memmove
	mov	w24, wzr
	add	x8, x22, x26
	str	x20, [sp, #232]
	stp	x23, x8, [sp, #216]
	cbnz	x28, .Lunix_path_BB2_1206
	b	.Lunix_path_BB2_1207
.Lunix_path_BB2_1214:
	add	x0, sp, #216
	mov	w1, #38
	bl	std_alloc.vec.Vec.grow_amortized.307f257cf2d167af.
	cbz	w0, .Lunix_path_BB2_1293
	ldp	x9, x8, [sp, #224]
	b	.Lunix_path_BB2_1210
.Lunix_path_BB2_1216:
	ldp	x28, x26, [sp, #16]
	mov	w20, wzr
	mov	w22, #1
	ldurb	w8, [x29, #-120]
	cmp	w8, #2
	b.le	.Lunix_path_BB2_1197
.Lunix_path_BB2_1217:
	cmp	w8, #5
	b.eq	.Lunix_path_BB2_1224
	cmp	w8, #4
	b.ne	.Lunix_path_BB2_1226
	ldp	x23, x24, [x29, #-112]
	sub	x27, x29, #224
	ldur	x25, [x29, #-96]
	str	x26, [sp, #24]
	cbz	x24, .Lunix_path_BB2_1222
	mov	x26, x23
.Lunix_path_BB2_1221:
	ldrh	w8, [x26]
	stur	xzr, [x29, #-224]
	sub	x0, x29, #224
	sturh	w8, [x29, #-224]
	ldur	q0, [x26, #8]
	stur	q0, [x27, #8]
	ldr	x8, [x26, #24]
	stur	x8, [x27, #24]
	bl	pathtool.serde_json.value.Value.Destruct.drop
	subs	x24, x24, #1
	add	x26, x26, #32
	b.ne	.Lunix_path_BB2_1221
.Lunix_path_BB2_1222:
	ldr	x26, [sp, #24]
	cbz	x25, .Lunix_path_BB2_1197
	mov	x0, x23
	bl	rattle_dealloc
	b	.Lunix_path_BB2_1197
.Lunix_path_BB2_1224:
	ldurb	w8, [x29, #-112]
	cmp	w8, #1
	b.ne	.Lunix_path_BB2_1197
	ldur	x0, [x29, #-104]
	bl	std_collections.btree.node.Node.destroy.60b19ca0713cc2a9.
	b	.Lunix_path_BB2_1197
.Lunix_path_BB2_1226:
	ldur	x8, [x29, #-96]
	cbz	x8, .Lunix_path_BB2_1197
	ldur	x0, [x29, #-112]
	bl	rattle_dealloc
	b	.Lunix_path_BB2_1197
.Lunix_path_BB2_1228:
	add	x10, x26, x27
	and	x9, x23, #0x18
	and	x8, x23, #0xffffffffffffffe0
	add	x10, x10, #17
	add	x11, x22, #16
	and	x12, x23, #0xffffffffffffffe0
.Lunix_path_BB2_1229:
	ldp	q0, q1, [x10, #-16]
	subs	x12, x12, #32
	add	x10, x10, #32
	stp	q0, q1, [x11, #-16]
	add	x11, x11, #32
	b.ne	.Lunix_path_BB2_1229
	cmp	x23, x8
	sub	x20, x29, #224
	b.eq	.Lunix_path_BB2_960
	cbz	x9, .Lunix_path_BB2_957
.Lunix_path_BB2_1232:
	mov	x11, x8
	and	x8, x23, #0xfffffffffffffff8
	add	x9, x27, x11
	add	x10, x26, x9
	sub	x9, x11, x8
	add	x11, x22, x11
	add	x10, x10, #1
.Lunix_path_BB2_1233:
	ldr	d0, [x10], #8
	adds	x9, x9, #8
	str	d0, [x11], #8
	b.ne	.Lunix_path_BB2_1233
	cmp	x23, x8
	b.eq	.Lunix_path_BB2_960
	b	.Lunix_path_BB2_957
.Lunix_path_BB2_1235:
	mov	x13, x28
	mov	x14, x26
	cmp	x26, #32
	b.hs	.Lunix_path_BB2_1251
	mov	x8, xzr
	mov	x26, x14
	b	.Lunix_path_BB2_1255
.Lunix_path_BB2_1237:
	mov	w8, #2
	b	.Lunix_path_BB2_796
.Lunix_path_BB2_1238:
	add	x0, sp, #216
	mov	w1, #5
	bl	std_alloc.vec.Vec.grow_amortized.307f257cf2d167af.
	cbz	w0, .Lunix_path_BB2_1293
	ldp	x9, x8, [sp, #224]
	b	.Lunix_path_BB2_207
.Lunix_path_BB2_1240:
	add	x0, sp, #216
	mov	w1, #7
	bl	std_alloc.vec.Vec.grow_amortized.307f257cf2d167af.
	cbz	w0, .Lunix_path_BB2_1293
	ldp	x9, x8, [sp, #224]
	b	.Lunix_path_BB2_891
.Lunix_path_BB2_1242:
	add	x0, sp, #216
	mov	w1, #4
	bl	std_alloc.vec.Vec.grow_amortized.307f257cf2d167af.
	cbz	w0, .Lunix_path_BB2_1293
	ldp	x9, x8, [sp, #224]
	b	.Lunix_path_BB2_895
.Lunix_path_BB2_1244:
	ldr	x10, [sp, #176]
	ldrb	w11, [x24, #3]
	ldrb	w10, [x10, #3]
	cmp	w10, w11
	b.ne	.Lunix_path_BB2_1267
	cmp	x9, #4
	b.eq	.Lunix_path_BB2_394
	ldr	x10, [sp, #176]
	ldrb	w11, [x24, #4]
	ldrb	w10, [x10, #4]
	cmp	w10, w11
	b.ne	.Lunix_path_BB2_1270
	cmp	x9, #5
	b.eq	.Lunix_path_BB2_394
	ldr	x10, [sp, #176]
	ldrb	w11, [x24, #5]
	ldrb	w10, [x10, #5]
	cmp	w10, w11
	b.ne	.Lunix_path_BB2_1272
	ldr	x15, [sp, #176]
	cmp	x9, #6
	b.eq	.Lunix_path_BB2_769
	ldrb	w10, [x15, #6]
	ldrb	w11, [x24, #6]
	cmp	w10, w11
	mov	w10, #6
	csel	x9, x9, x10, eq
	b	.Lunix_path_BB2_769
.Lunix_path_BB2_1251:
	add	x11, x23, x22
	and	x9, x14, #0x18
	and	x8, x14, #0xffffffffffffffe0
	add	x10, x21, #16
	add	x11, x11, #16
	and	x12, x14, #0xffffffffffffffe0
.Lunix_path_BB2_1252:
	ldp	q0, q1, [x10, #-16]
	subs	x12, x12, #32
	add	x10, x10, #32
	stp	q0, q1, [x11, #-16]
	add	x11, x11, #32
	b.ne	.Lunix_path_BB2_1252
	mov	x26, x14
	cmp	x14, x8
	mov	x28, x13
	b.eq	.Lunix_path_BB2_1205
	cbz	x9, .Lunix_path_BB2_1203
.Lunix_path_BB2_1255:
	mov	x10, x8
	and	x8, x26, #0xfffffffffffffff8
	add	x11, x22, x10
	sub	x9, x10, x8
	add	x10, x21, x10
	add	x11, x23, x11
.Lunix_path_BB2_1256:
	ldr	d0, [x10], #8
	adds	x9, x9, #8
	str	d0, [x11], #8
	b.ne	.Lunix_path_BB2_1256
	mov	x26, x14
	cmp	x14, x8
	mov	x28, x13
	b.eq	.Lunix_path_BB2_1205
	b	.Lunix_path_BB2_1203
.Lunix_path_BB2_1258:
	ldr	x9, [sp, #176]
	ldrb	w10, [x24, #3]
	ldrb	w9, [x9, #3]
	cmp	w9, w10
	b.ne	.Lunix_path_BB2_1268
	cmp	x8, #4
	b.eq	.Lunix_path_BB2_116
	ldr	x9, [sp, #176]
	ldrb	w10, [x24, #4]
	ldrb	w9, [x9, #4]
	cmp	w9, w10
	b.ne	.Lunix_path_BB2_1271
	cmp	x8, #5
	b.eq	.Lunix_path_BB2_116
	ldr	x9, [sp, #176]
	ldrb	w10, [x24, #5]
	ldrb	w9, [x9, #5]
	cmp	w9, w10
	b.ne	.Lunix_path_BB2_1273
	ldr	x14, [sp, #176]
	cmp	x8, #6
	b.eq	.Lunix_path_BB2_796
	ldrb	w9, [x14, #6]
	ldrb	w10, [x24, #6]
	cmp	w9, w10
	mov	w9, #6
	csel	x8, x8, x9, eq
	b	.Lunix_path_BB2_796
.Lunix_path_BB2_1265:
	add	x0, sp, #216
	mov	x1, x26
	mov	x23, x26
	bl	std_alloc.vec.Vec.grow_amortized.307f257cf2d167af.
	cbz	w0, .Lunix_path_BB2_1269
	ldp	x22, x20, [sp, #224]
	mov	x26, x23
	b	.Lunix_path_BB2_1199
.Lunix_path_BB2_1267:
	ldr	x15, [sp, #176]
	mov	w9, #3
	b	.Lunix_path_BB2_769
.Lunix_path_BB2_1268:
	ldr	x14, [sp, #176]
	mov	w8, #3
	b	.Lunix_path_BB2_796
.Lunix_path_BB2_1269:
	mov	w24, #1
	cbnz	x28, .Lunix_path_BB2_1206
	b	.Lunix_path_BB2_1207
.Lunix_path_BB2_1270:
	ldr	x15, [sp, #176]
	mov	w9, #4
	b	.Lunix_path_BB2_769
.Lunix_path_BB2_1271:
	ldr	x14, [sp, #176]
	mov	w8, #4
	b	.Lunix_path_BB2_796
.Lunix_path_BB2_1272:
	ldr	x15, [sp, #176]
	mov	w9, #5
	b	.Lunix_path_BB2_769
.Lunix_path_BB2_1273:
	ldr	x14, [sp, #176]
	mov	w8, #5
	b	.Lunix_path_BB2_796
.Lunix_path_BB2_1274:
	ldr	x8, [sp, #232]
	mov	w1, #1
	strb	w1, [x19, #32]
	cbz	x8, .Lunix_path_BB2_1276
	ldr	x0, [sp, #216]
	bl	rattle_dealloc
	mov	w1, #1
.Lunix_path_BB2_1276:
	mov	w0, #1
	b	.Lunix_path_BB2_1280
.Lunix_path_BB2_1277:
	ldr	x8, [sp, #232]
	cbz	x8, .Lunix_path_BB2_1279
	ldr	x0, [sp, #216]
	bl	rattle_dealloc
.Lunix_path_BB2_1279:
	mov	w1, wzr
	mov	w0, wzr
.Lunix_path_BB2_1280:
	add	sp, sp, #464
	ldp	x20, x19, [sp, #144]
	ldp	x22, x21, [sp, #128]
	ldp	x24, x23, [sp, #112]
	ldp	x26, x25, [sp, #96]
	ldp	x28, x27, [sp, #80]
	ldp	x29, x30, [sp, #64]
	ldp	d9, d8, [sp, #48]
	ldp	d11, d10, [sp, #32]
	ldp	d13, d12, [sp, #16]
	ldp	d15, d14, [sp], #160
	ret
.Lunix_path_BB2_1281:
	ldurb	w8, [x29, #-224]
	cmp	w8, #1
	b.ne	.Lunix_path_BB2_1290
.Lunix_path_BB2_1282:
	ldur	x0, [x29, #-216]
	bl	std_collections.btree.node.Node.destroy.08dd9cc935c3c3a8.
	cbnz	x23, .Lunix_path_BB2_1291
	b	.Lunix_path_BB2_1293
.Lunix_path_BB2_1283:
	ldur	x8, [x29, #-104]
	cbz	x8, .Lunix_path_BB2_1285
	ldur	x0, [x29, #-120]
	bl	rattle_dealloc
.Lunix_path_BB2_1285:
	ldurb	w8, [x29, #-248]
	cmp	w8, #1
	b.ne	.Lunix_path_BB2_1290
	ldur	x0, [x29, #-240]
	bl	std_collections.btree.node.Node.destroy.08dd9cc935c3c3a8.
	b	.Lunix_path_BB2_1290
.Lunix_path_BB2_1287:
	ldur	x8, [x29, #-104]
	cbz	x8, .Lunix_path_BB2_1293
	ldur	x0, [x29, #-120]
	b	.Lunix_path_BB2_1292
.Lunix_path_BB2_1289:
	cmp	w22, #1
	b.eq	.Lunix_path_BB2_1282
.Lunix_path_BB2_1290:
	cbz	x23, .Lunix_path_BB2_1293
.Lunix_path_BB2_1291:
	mov	x0, x25
.Lunix_path_BB2_1292:
	bl	rattle_dealloc
.Lunix_path_BB2_1293:
	ldr	x8, [sp, #232]
	cbz	x8, .Lunix_path_BB2_1295
	ldr	x0, [sp, #216]
	bl	rattle_dealloc
.Lunix_path_BB2_1295:
	mov	w0, #1
	mov	w1, #2
	b	.Lunix_path_BB2_1280
.Lunix_path_BB2_1296:
	cbz	x21, .Lunix_path_BB2_1298
	mov	x0, x27
	bl	rattle_dealloc
.Lunix_path_BB2_1298:
	cbz	x20, .Lunix_path_BB2_1313
	mov	x0, x24
	b	.Lunix_path_BB2_1312
.Lunix_path_BB2_1300:
	ldur	x8, [x29, #-208]
	cbz	x8, .Lunix_path_BB2_1293
	ldur	x0, [x29, #-224]
	b	.Lunix_path_BB2_1292
.Lunix_path_BB2_1302:
	ldur	x8, [x29, #-104]
	cbz	x8, .Lunix_path_BB2_1304
	ldur	x0, [x29, #-120]
	bl	rattle_dealloc
.Lunix_path_BB2_1304:
	ldur	x8, [x29, #-208]
	cbz	x8, .Lunix_path_BB2_1313
	ldr	x0, [sp, #64]
	b	.Lunix_path_BB2_1312
.Lunix_path_BB2_1306:
	cbz	x23, .Lunix_path_BB2_1293
	mov	x0, x21
	b	.Lunix_path_BB2_1292
.Lunix_path_BB2_1308:
	ldur	x8, [x29, #-104]
	cbz	x8, .Lunix_path_BB2_1310
	ldur	x0, [x29, #-120]
	bl	rattle_dealloc
.Lunix_path_BB2_1310:
	ldur	x8, [x29, #-208]
	cbz	x8, .Lunix_path_BB2_1313
	ldur	x0, [x29, #-224]
.Lunix_path_BB2_1312:
	bl	rattle_dealloc
.Lunix_path_BB2_1313:
	ldr	x8, [sp, #48]
	cbz	x8, .Lunix_path_BB2_1293
	ldr	x0, [sp, #96]
	b	.Lunix_path_BB2_1292
.Lunix_path_func_end2:
	.size	pathtool.run.write_answers.7729a8c5e160c09a., .Lunix_path_func_end2-pathtool.run.write_answers.7729a8c5e160c09a.
	.section	.rodata.cst16,"aM",@progbits,16
	.p2align	4, 0x0
.Lunix_path_CPI3_0:
	.xword	1
	.xword	3
.Lunix_path_CPI3_1:
	.xword	1
	.xword	4
.Lunix_path_CPI3_2:
	.xword	1
	.xword	0
.Lunix_path_CPI3_3:
	.xword	1
	.xword	2
.Lunix_path_CPI3_4:
	.xword	1
	.xword	5
	.section	.text.pathtool.edits.edit_by_name,"ax",@progbits
	.p2align	2
	.type	pathtool.edits.edit_by_name,@function
// pathtool::edits::edit_by_name
pathtool.edits.edit_by_name:
	stp	x29, x30, [sp, #-80]!
	stp	x22, x21, [sp, #48]
	mov	x21, x4
	cmp	x2, #5
	stp	x20, x19, [sp, #64]
	mov	x20, x3
	mov	x19, x0
	stp	x26, x25, [sp, #16]
	mov	x29, sp
	stp	x24, x23, [sp, #32]
	b.eq	.Lunix_path_BB3_13
	cmp	x2, #4
	b.eq	.Lunix_path_BB3_7
	cmp	x2, #3
	b.ne	.Lunix_path_BB3_37
	ldrb	w8, [x1]
	cmp	w8, #112
	b.ne	.Lunix_path_BB3_37
	ldrb	w8, [x1, #1]
	cmp	w8, #111
	b.ne	.Lunix_path_BB3_37
	ldrb	w8, [x1, #2]
	cmp	w8, #112
	b.ne	.Lunix_path_BB3_37
	mov	w8, #1
	mov	x20, xzr
	dup	v0.2d, x8
	b	.Lunix_path_BB3_38
.Lunix_path_BB3_7:
	ldrb	w11, [x1]
	ldrb	w10, [x1, #1]
	ldrb	w9, [x1, #2]
	ldrb	w8, [x1, #3]
	cmp	w11, #101
	b.ne	.Lunix_path_BB3_31
	cmp	w10, #120
	b.ne	.Lunix_path_BB3_31
	cmp	w9, #116
	b.ne	.Lunix_path_BB3_31
	cmp	w8, #58
	b.ne	.Lunix_path_BB3_31
	adrp	x2, .Lunix_path_static.23
	add	x2, x2, :lo12:.Lunix_path_static.23
	mov	x0, x1
	mov	w1, #4
	bl	core.cmp.slices.groups_equal.i8.31.core.cmp.numbers.U8PartialEq.
	tbz	w0, #0, .Lunix_path_BB3_37
	adrp	x8, .Lunix_path_CPI3_0
	ldr	q0, [x8, :lo12:.Lunix_path_CPI3_0]
	b	.Lunix_path_BB3_39
.Lunix_path_BB3_13:
	ldrb	w25, [x1]
	ldrb	w24, [x1, #1]
	ldrb	w23, [x1, #2]
	ldrb	w22, [x1, #3]
	cmp	w25, #112
	b.ne	.Lunix_path_BB3_19
	cmp	w24, #117
	b.ne	.Lunix_path_BB3_19
	cmp	w23, #115
	b.ne	.Lunix_path_BB3_19
	cmp	w22, #104
	b.ne	.Lunix_path_BB3_19
	adrp	x2, .Lunix_path_static.20
	add	x2, x2, :lo12:.Lunix_path_static.20
	mov	x0, x1
	mov	x26, x1
	mov	w1, #5
	bl	core.cmp.slices.groups_equal.i8.31.core.cmp.numbers.U8PartialEq.
	mov	x1, x26
	tbz	w0, #0, .Lunix_path_BB3_19
	adrp	x8, .Lunix_path_CPI3_2
	ldr	q0, [x8, :lo12:.Lunix_path_CPI3_2]
	b	.Lunix_path_BB3_39
.Lunix_path_BB3_19:
	cmp	w25, #110
	b.ne	.Lunix_path_BB3_25
	cmp	w24, #97
	b.ne	.Lunix_path_BB3_25
	cmp	w23, #109
	b.ne	.Lunix_path_BB3_25
	cmp	w22, #101
	b.ne	.Lunix_path_BB3_25
	adrp	x2, .Lunix_path_static.22
	add	x2, x2, :lo12:.Lunix_path_static.22
	mov	x0, x1
	mov	x26, x1
	mov	w1, #5
	bl	core.cmp.slices.groups_equal.i8.31.core.cmp.numbers.U8PartialEq.
	mov	x1, x26
	tbz	w0, #0, .Lunix_path_BB3_25
	adrp	x8, .Lunix_path_CPI3_3
	ldr	q0, [x8, :lo12:.Lunix_path_CPI3_3]
	b	.Lunix_path_BB3_39
.Lunix_path_BB3_25:
	cmp	w25, #99
	b.ne	.Lunix_path_BB3_37
	cmp	w24, #108
	b.ne	.Lunix_path_BB3_37
	cmp	w23, #101
	b.ne	.Lunix_path_BB3_37
	cmp	w22, #97
	b.ne	.Lunix_path_BB3_37
	adrp	x2, .Lunix_path_static.25
	add	x2, x2, :lo12:.Lunix_path_static.25
	mov	x0, x1
	mov	w1, #5
	bl	core.cmp.slices.groups_equal.i8.31.core.cmp.numbers.U8PartialEq.
	tbz	w0, #0, .Lunix_path_BB3_37
	adrp	x8, .Lunix_path_CPI3_4
	mov	x20, xzr
	ldr	q0, [x8, :lo12:.Lunix_path_CPI3_4]
	b	.Lunix_path_BB3_38
.Lunix_path_BB3_31:
	cmp	w11, #97
	b.ne	.Lunix_path_BB3_37
	cmp	w10, #100
	b.ne	.Lunix_path_BB3_37
	cmp	w9, #100
	b.ne	.Lunix_path_BB3_37
	cmp	w8, #58
	b.ne	.Lunix_path_BB3_37
	adrp	x2, .Lunix_path_static.24
	add	x2, x2, :lo12:.Lunix_path_static.24
	mov	x0, x1
	mov	w1, #4
	bl	core.cmp.slices.groups_equal.i8.31.core.cmp.numbers.U8PartialEq.
	tbz	w0, #0, .Lunix_path_BB3_37
	adrp	x8, .Lunix_path_CPI3_1
	ldr	q0, [x8, :lo12:.Lunix_path_CPI3_1]
	b	.Lunix_path_BB3_39
.Lunix_path_BB3_37:
	movi	v0.2d, #0000000000000000
	mov	x20, xzr
.Lunix_path_BB3_38:
	mov	x21, xzr
.Lunix_path_BB3_39:
	str	q0, [x19]
	ldp	x24, x23, [sp, #32]
	stp	x20, x21, [x19, #16]
	ldp	x20, x19, [sp, #64]
	ldp	x22, x21, [sp, #48]
	ldp	x26, x25, [sp, #16]
	ldp	x29, x30, [sp], #80
	ret
.Lunix_path_func_end3:
	.size	pathtool.edits.edit_by_name, .Lunix_path_func_end3-pathtool.edits.edit_by_name
	.section	.rodata.cst16,"aM",@progbits,16
	.p2align	4, 0x0
.Lunix_path_CPI4_0:
	.byte	1
	.byte	2
	.byte	4
	.byte	8
	.byte	16
	.byte	32
	.byte	64
	.byte	128
	.byte	1
	.byte	2
	.byte	4
	.byte	8
	.byte	16
	.byte	32
	.byte	64
	.byte	128
	.section	.text.pathtool.edits.push_edited,"ax",@progbits
	.p2align	2
	.type	pathtool.edits.push_edited,@function
// pathtool::edits::push_edited
pathtool.edits.push_edited:
	sub	sp, sp, #464
	stp	x24, x23, [sp, #416]
	mov	x23, x1
	stp	x22, x21, [sp, #432]
	mov	x22, x2
	mov	x21, x0
	stp	x20, x19, [sp, #448]
	mov	x20, x4
	mov	x19, x3
	stp	x29, x30, [sp, #368]
	add	x29, sp, #368
	stp	x28, x27, [sp, #384]
	stp	x26, x25, [sp, #400]
	cbz	x1, .Lunix_path_BB4_5
	tbnz	x23, #63, .Lunix_path_BB4_297
	mov	x0, x23
	mov	w1, #1
	mov	w25, #1
	bl	rattle_alloc
	tbz	w0, #0, .Lunix_path_BB4_298
	mov	x24, x1
	sub	x9, x1, x21
	cmp	x9, x23
	b.lo	.Lunix_path_BB4_6
.Lunix_path_BB4_4:
	mov	x0, x24
	mov	x1, x21
	mov	x2, x23
	bl	memmove
	b	.Lunix_path_BB4_19
.Lunix_path_BB4_5:
	sub	x24, x29, #17
	sub	x9, x24, x21
	cmp	x9, x23
	b.hs	.Lunix_path_BB4_4
.Lunix_path_BB4_6:
	cmp	x23, #8
	mov	x8, xzr
	b.lo	.Lunix_path_BB4_17
	cmp	x9, #32
	b.lo	.Lunix_path_BB4_17
	cmp	x23, #32
	b.hs	.Lunix_path_BB4_10
	mov	x8, xzr
	b	.Lunix_path_BB4_14
.Lunix_path_BB4_10:
	and	x9, x23, #0x18
	and	x8, x23, #0xffffffffffffffe0
	add	x10, x21, #16
	add	x11, x24, #16
	and	x12, x23, #0xffffffffffffffe0
.Lunix_path_BB4_11:
	ldp	q0, q1, [x10, #-16]
	subs	x12, x12, #32
	add	x10, x10, #32
	stp	q0, q1, [x11, #-16]
	add	x11, x11, #32
	b.ne	.Lunix_path_BB4_11
	cmp	x23, x8
	b.eq	.Lunix_path_BB4_19
	cbz	x9, .Lunix_path_BB4_17
.Lunix_path_BB4_14:
	mov	x11, x8
	and	x8, x23, #0xfffffffffffffff8
	sub	x9, x11, x8
	add	x10, x21, x11
	add	x11, x24, x11
.Lunix_path_BB4_15:
	ldr	d0, [x10], #8
	adds	x9, x9, #8
	str	d0, [x11], #8
	b.ne	.Lunix_path_BB4_15
	cmp	x23, x8
	b.eq	.Lunix_path_BB4_19
.Lunix_path_BB4_17:
	sub	x9, x23, x8
	add	x10, x21, x8
	add	x8, x24, x8
.Lunix_path_BB4_18:
	ldrb	w11, [x10], #1
	subs	x9, x9, #1
	strb	w11, [x8], #1
	b.ne	.Lunix_path_BB4_18
.Lunix_path_BB4_19:
	stp	x24, x23, [sp, #40]
	str	x23, [sp, #56]
	cbz	x19, .Lunix_path_BB4_262
	lsr	x8, x19, #62
	cbnz	x8, .Lunix_path_BB4_295
	lsl	x0, x19, #1
	mov	w1, #1
	bl	rattle_alloc
	tbz	w0, #0, .Lunix_path_BB4_294
	movi	v0.2d, #0000000000000000
	add	x8, sp, #64
	mov	x21, x1
	mov	x27, xzr
	str	xzr, [sp, #336]
	str	x22, [sp, #32]
	stp	q0, q0, [x8, #112]
	stp	q0, q0, [x8, #144]
	stp	q0, q0, [x8, #176]
	stp	q0, q0, [x8, #208]
	stp	q0, q0, [x8, #240]
	add	x8, sp, #64
	add	x9, x8, #16
	orr	x8, x8, #0x8
	stp	q0, q0, [sp, #80]
	stp	q0, q0, [sp, #112]
	stp	q0, q0, [sp, #144]
	stp	x8, x9, [sp, #8]
	str	q0, [sp, #64]
	b	.Lunix_path_BB4_25
.Lunix_path_BB4_23:
	mov	w8, #1
.Lunix_path_BB4_24:
	add	x9, x21, x27, lsl #1
	add	x27, x27, #1
	cmp	x27, x19
	strb	w8, [x9]
	strb	w1, [x9, #1]
	b.eq	.Lunix_path_BB4_263
.Lunix_path_BB4_25:
	mov	w8, #24
	madd	x8, x27, x8, x22
	ldrb	w9, [x8]
	cmp	w9, #2
	b.gt	.Lunix_path_BB4_32
	cbz	w9, .Lunix_path_BB4_35
	cmp	w9, #1
	b.ne	.Lunix_path_BB4_41
	ldr	x8, [sp, #72]
	ldr	x9, [sp, #336]
	orr	x8, x8, x9
	cbnz	x8, .Lunix_path_BB4_68
	ldp	x24, x23, [sp, #40]
	mov	x0, x24
	mov	x1, x23
	bl	unix_path.path.Path.parent_len
	and	w8, w0, #0xff
	cmp	w8, #1
	b.ne	.Lunix_path_BB4_69
	cmp	x23, x1
	b.ls	.Lunix_path_BB4_122
	str	x1, [sp, #48]
	mov	w1, #1
	mov	w8, #1
	b	.Lunix_path_BB4_24
.Lunix_path_BB4_32:
	cmp	w9, #3
	b.eq	.Lunix_path_BB4_38
	cmp	w9, #4
	b.ne	.Lunix_path_BB4_55
	ldp	x2, x3, [x8, #8]
	add	x0, sp, #40
	add	x1, sp, #64
	bl	path_runs.edits.step.add_extension
	tbnz	w0, #0, .Lunix_path_BB4_39
	b	.Lunix_path_BB4_23
.Lunix_path_BB4_35:
	ldp	x1, x23, [x8, #8]
	cbz	x23, .Lunix_path_BB4_59
	ldrb	w8, [x1]
	cmp	w8, #47
	b.ne	.Lunix_path_BB4_59
.Lunix_path_BB4_37:
	add	x0, sp, #40
	mov	x2, x23
	str	xzr, [sp, #336]
	stp	xzr, xzr, [sp, #64]
	bl	unix_path.buf.PathBuf.replace
	and	w8, w0, #0xff
	tbz	w8, #0, .Lunix_path_BB4_154
	b	.Lunix_path_BB4_293
.Lunix_path_BB4_38:
	ldp	x2, x3, [x8, #8]
	add	x0, sp, #40
	add	x1, sp, #64
	bl	path_runs.edits.step.set_extension
	tbz	w0, #0, .Lunix_path_BB4_23
.Lunix_path_BB4_39:
	tst	w1, #0xff
	b.ne	.Lunix_path_BB4_293
	lsl	w8, w1, #1
	mov	w1, wzr
	eor	w8, w8, #0x2
	b	.Lunix_path_BB4_155
.Lunix_path_BB4_41:
	ldp	x25, x22, [sp, #40]
	ldp	x9, x23, [x8, #8]
	str	x9, [sp, #24]
	cbz	x22, .Lunix_path_BB4_130
	subs	x9, x22, #1
	mov	x8, x22
	b.eq	.Lunix_path_BB4_114
	add	x9, x25, x9
	ldrb	w24, [x9]
	cmp	w24, #47
	b.eq	.Lunix_path_BB4_46
	cmp	w24, #46
	mov	x8, x22
	b.ne	.Lunix_path_BB4_114
	ldurb	w8, [x9, #-1]
	cmp	w8, #47
	mov	x8, x22
	b.ne	.Lunix_path_BB4_114
.Lunix_path_BB4_46:
	ldr	x26, [sp, #72]
	mov	x8, x22
	cmp	x26, x22
	b.hs	.Lunix_path_BB4_93
	mov	x8, x22
	b	.Lunix_path_BB4_49
.Lunix_path_BB4_48:
	cmp	x26, x2
	mov	x8, x2
	b.hs	.Lunix_path_BB4_93
.Lunix_path_BB4_49:
	subs	x2, x8, #1
	b.eq	.Lunix_path_BB4_93
	add	x9, x25, x2
	ldrb	w10, [x9]
	cmp	w10, #47
	b.eq	.Lunix_path_BB4_53
	cmp	w10, #46
	b.ne	.Lunix_path_BB4_93
	ldurb	w9, [x9, #-1]
	cmp	w9, #47
	b.ne	.Lunix_path_BB4_93
.Lunix_path_BB4_53:
	sub	x8, x22, x2
	cmp	x8, #8
	b.ne	.Lunix_path_BB4_48
	mov	x0, x25
	mov	x1, x26
	bl	unix_path.filler.trimmed_blocks_len
	mov	x2, x0
	b	.Lunix_path_BB4_48
.Lunix_path_BB4_55:
	ldr	x8, [sp, #48]
	cbz	x8, .Lunix_path_BB4_57
	str	xzr, [sp, #48]
.Lunix_path_BB4_57:
	mov	w1, wzr
	mov	w8, wzr
	str	xzr, [sp, #336]
.Lunix_path_BB4_58:
	stp	xzr, xzr, [sp, #64]
	b	.Lunix_path_BB4_24
.Lunix_path_BB4_59:
	ldr	x24, [sp, #48]
	cbz	x24, .Lunix_path_BB4_61
	ldr	x8, [sp, #40]
	add	x8, x8, x24
	ldurb	w8, [x8, #-1]
	cmp	w8, #47
	b.ne	.Lunix_path_BB4_84
.Lunix_path_BB4_61:
	ldr	x25, [sp, #56]
	sub	x8, x25, x24
	cmp	x23, x8
	b.hi	.Lunix_path_BB4_203
.Lunix_path_BB4_62:
	ldr	x26, [sp, #40]
	add	x8, x26, x24
	sub	x8, x8, x1
	cmp	x8, x23
	add	x8, sp, #40
	stp	xzr, xzr, [x8, #8]
	b.hs	.Lunix_path_BB4_82
	cmp	x23, #8
	b.lo	.Lunix_path_BB4_65
	add	x8, x24, x26
	sub	x8, x8, x1
	cmp	x8, #32
	b.hs	.Lunix_path_BB4_174
.Lunix_path_BB4_65:
	mov	x8, xzr
.Lunix_path_BB4_66:
	add	x10, x8, x24
	sub	x9, x23, x8
	add	x8, x1, x8
	add	x10, x26, x10
.Lunix_path_BB4_67:
	ldrb	w11, [x8], #1
	subs	x9, x9, #1
	strb	w11, [x10], #1
	b.ne	.Lunix_path_BB4_67
	b	.Lunix_path_BB4_83
.Lunix_path_BB4_68:
	add	x0, sp, #40
	add	x1, sp, #64
	bl	path_runs.edits.step.pop_with_cache
	mov	w1, w0
	mov	w8, #1
	b	.Lunix_path_BB4_24
.Lunix_path_BB4_69:
	cbz	x23, .Lunix_path_BB4_231
	subs	x8, x23, #1
	b.eq	.Lunix_path_BB4_231
	add	x8, x24, x8
	ldrb	w9, [x8]
	cmp	w9, #47
	b.eq	.Lunix_path_BB4_74
	cmp	w9, #46
	b.ne	.Lunix_path_BB4_231
	ldurb	w8, [x8, #-1]
	cmp	w8, #47
	b.ne	.Lunix_path_BB4_231
.Lunix_path_BB4_74:
	mov	x8, x23
	b	.Lunix_path_BB4_76
.Lunix_path_BB4_75:
	mov	x8, x2
	cbz	x2, .Lunix_path_BB4_211
.Lunix_path_BB4_76:
	subs	x2, x8, #1
	b.eq	.Lunix_path_BB4_210
	add	x9, x24, x2
	ldrb	w10, [x9]
	cmp	w10, #47
	b.eq	.Lunix_path_BB4_80
	cmp	w10, #46
	b.ne	.Lunix_path_BB4_228
	ldurb	w9, [x9, #-1]
	cmp	w9, #47
	mov	x9, x8
	b.ne	.Lunix_path_BB4_229
.Lunix_path_BB4_80:
	sub	x8, x23, x2
	cmp	x8, #8
	b.ne	.Lunix_path_BB4_75
	mov	x0, x24
	mov	x1, xzr
	bl	unix_path.filler.trimmed_blocks_len
	mov	x2, x0
	b	.Lunix_path_BB4_75
.Lunix_path_BB4_82:
	add	x0, x26, x24
	mov	x2, x23
	bl	memmove
.Lunix_path_BB4_83:
	mov	w1, wzr
	mov	w8, wzr
	add	x9, x24, x23
	b	.Lunix_path_BB4_227
.Lunix_path_BB4_84:
	ldr	x25, [sp, #56]
	add	x8, x23, #1
	sub	x9, x25, x24
	cmp	x8, x9
	b.hi	.Lunix_path_BB4_219
	cmp	x25, x24
	b.eq	.Lunix_path_BB4_221
.Lunix_path_BB4_86:
	ldr	x26, [sp, #40]
	add	x28, x24, #1
	mov	w8, #47
	strb	w8, [x26, x24]
	sub	x8, x25, x28
	cmp	x23, x8
	stp	x26, x28, [sp, #40]
	str	x25, [sp, #56]
	b.hi	.Lunix_path_BB4_223
	add	x8, x26, x28
	sub	x8, x8, x1
	cmp	x8, x23
	add	x8, sp, #40
	stp	xzr, xzr, [x8, #8]
	b.hs	.Lunix_path_BB4_225
.Lunix_path_BB4_88:
	cmp	x23, #8
	b.lo	.Lunix_path_BB4_90
	add	x8, x28, x26
	sub	x8, x8, x1
	cmp	x8, #32
	b.hs	.Lunix_path_BB4_206
.Lunix_path_BB4_90:
	mov	x8, xzr
.Lunix_path_BB4_91:
	add	x10, x8, x28
	sub	x9, x23, x8
	add	x8, x1, x8
	add	x10, x26, x10
.Lunix_path_BB4_92:
	ldrb	w11, [x8], #1
	subs	x9, x9, #1
	strb	w11, [x10], #1
	b.ne	.Lunix_path_BB4_92
	b	.Lunix_path_BB4_226
.Lunix_path_BB4_93:
	ldr	x9, [sp, #64]
	cmp	x8, x26
	sub	x10, x22, x8
	csel	x9, x9, x8, eq
	cmp	x10, #16
	b.lo	.Lunix_path_BB4_95
	stp	x9, x22, [sp, #64]
.Lunix_path_BB4_95:
	cbz	x9, .Lunix_path_BB4_103
	add	x10, x25, x9
	ldurb	w8, [x10, #-1]
	cmp	w8, #47
	b.eq	.Lunix_path_BB4_103
	cmp	w8, #46
	mov	x8, x22
	b.ne	.Lunix_path_BB4_114
	cmp	x9, #1
	b.eq	.Lunix_path_BB4_103
	ldurb	w8, [x10, #-2]
	cmp	w8, #47
	b.eq	.Lunix_path_BB4_103
	cmp	w8, #46
	mov	x8, x22
	b.ne	.Lunix_path_BB4_114
	cmp	x9, #2
	b.eq	.Lunix_path_BB4_103
	ldurb	w8, [x10, #-3]
	cmp	w8, #47
	mov	x8, x22
	b.ne	.Lunix_path_BB4_114
.Lunix_path_BB4_103:
	ldr	x1, [sp, #24]
	cbz	x23, .Lunix_path_BB4_105
	ldrb	w8, [x1]
	cmp	w8, #47
	b.eq	.Lunix_path_BB4_37
.Lunix_path_BB4_105:
	cmp	w24, #47
	b.ne	.Lunix_path_BB4_183
	ldr	x26, [sp, #56]
	sub	x8, x26, x22
	cmp	x23, x8
	b.hi	.Lunix_path_BB4_250
	add	x8, x25, x22
	sub	x8, x8, x1
	cmp	x8, x23
	add	x8, sp, #40
	stp	xzr, xzr, [x8, #8]
	b.hs	.Lunix_path_BB4_252
.Lunix_path_BB4_108:
	cmp	x23, #8
	b.lo	.Lunix_path_BB4_110
	add	x8, x22, x25
	sub	x8, x8, x1
	cmp	x8, #32
	b.hs	.Lunix_path_BB4_232
.Lunix_path_BB4_110:
	mov	x8, xzr
.Lunix_path_BB4_111:
	add	x10, x8, x22
	sub	x9, x23, x8
	add	x8, x1, x8
	add	x10, x25, x10
.Lunix_path_BB4_112:
	ldrb	w11, [x8], #1
	subs	x9, x9, #1
	strb	w11, [x10], #1
	b.ne	.Lunix_path_BB4_112
	b	.Lunix_path_BB4_253
.Lunix_path_BB4_113:
	mov	x8, x2
	cbz	x2, .Lunix_path_BB4_121
.Lunix_path_BB4_114:
	subs	x2, x8, #1
	b.eq	.Lunix_path_BB4_120
	add	x9, x25, x2
	ldrb	w10, [x9]
	cmp	w10, #47
	b.eq	.Lunix_path_BB4_118
	cmp	w10, #46
	b.ne	.Lunix_path_BB4_126
	ldurb	w9, [x9, #-1]
	cmp	w9, #47
	b.ne	.Lunix_path_BB4_123
.Lunix_path_BB4_118:
	sub	x8, x22, x2
	cmp	x8, #8
	b.ne	.Lunix_path_BB4_113
	mov	x0, x25
	mov	x1, xzr
	bl	unix_path.filler.trimmed_blocks_len
	mov	x2, x0
	b	.Lunix_path_BB4_113
.Lunix_path_BB4_120:
	ldrb	w9, [x25]
	and	w9, w9, #0xfe
	cmp	w9, #46
	mov	x9, x22
	b.ne	.Lunix_path_BB4_126
	b	.Lunix_path_BB4_131
.Lunix_path_BB4_121:
	mov	x9, x22
	b	.Lunix_path_BB4_131
.Lunix_path_BB4_122:
	mov	w1, #1
	mov	w8, #1
	b	.Lunix_path_BB4_24
.Lunix_path_BB4_123:
	cmp	w9, #46
	b.ne	.Lunix_path_BB4_126
	cmp	x8, #2
	mov	x9, x22
	b.eq	.Lunix_path_BB4_131
	add	x9, x25, x8
	ldurb	w9, [x9, #-3]
	cmp	w9, #47
	mov	x9, x22
	b.eq	.Lunix_path_BB4_131
.Lunix_path_BB4_126:
	mov	x9, x8
.Lunix_path_BB4_127:
	cmp	x9, #15
	b.ls	.Lunix_path_BB4_160
	movi	v0.16b, #47
	add	x10, x25, x9
	ldur	q1, [x10, #-16]
	adrp	x10, .Lunix_path_CPI4_0
	cmeq	v0.16b, v1.16b, v0.16b
	ldr	q1, [x10, :lo12:.Lunix_path_CPI4_0]
	sub	x10, x9, #16
	mov	x9, x10
	and	v0.16b, v0.16b, v1.16b
	addp	v0.16b, v0.16b, v0.16b
	addp	v0.16b, v0.16b, v0.16b
	addp	v0.16b, v0.16b, v0.16b
	umov	w11, v0.h[0]
	cbz	w11, .Lunix_path_BB4_127
	umov	w9, v0.h[0]
	and	x9, x9, #0xffff
	clz	x9, x9
	sub	x9, x10, x9
	add	x24, x9, #64
	cmp	x24, x8
	b.ne	.Lunix_path_BB4_164
.Lunix_path_BB4_130:
	mov	x9, xzr
.Lunix_path_BB4_131:
	cbz	x23, .Lunix_path_BB4_135
	ldr	x13, [sp, #24]
.Lunix_path_BB4_133:
	mov	w26, wzr
	mov	x28, xzr
	cbz	x9, .Lunix_path_BB4_137
	ldrb	w8, [x13]
	mov	w24, w26
	cmp	w8, #47
	b.ne	.Lunix_path_BB4_136
	b	.Lunix_path_BB4_139
.Lunix_path_BB4_135:
	ldr	x13, [sp, #24]
	cbz	x9, .Lunix_path_BB4_138
.Lunix_path_BB4_136:
	add	x8, x25, x9
	mov	x28, x9
	ldurb	w8, [x8, #-1]
	cmp	w8, #47
	mov	w8, #47
	cset	w26, ne
	csel	w24, w8, wzr, ne
	b	.Lunix_path_BB4_139
.Lunix_path_BB4_137:
	mov	w24, w26
	b	.Lunix_path_BB4_139
.Lunix_path_BB4_138:
	mov	x28, xzr
	mov	w26, wzr
	mov	w24, wzr
.Lunix_path_BB4_139:
	add	x8, x28, x23
	ldr	x9, [sp, #56]
	add	x8, x8, w26, uxtw
	subs	x8, x8, x22
	csel	x1, xzr, x8, lo
	sub	x8, x9, x22
	cmp	x1, x8
	b.hi	.Lunix_path_BB4_192
	cmp	x22, x28
	b.ls	.Lunix_path_BB4_142
.Lunix_path_BB4_141:
	mov	x22, x28
	str	x28, [sp, #48]
.Lunix_path_BB4_142:
	ldr	x25, [sp, #56]
	cbz	w26, .Lunix_path_BB4_145
	cmp	x25, x22
	b.eq	.Lunix_path_BB4_208
.Lunix_path_BB4_144:
	ldr	x8, [sp, #40]
	strb	w24, [x8, x22]
	add	x22, x22, #1
	stp	x8, x22, [sp, #40]
	str	x25, [sp, #56]
.Lunix_path_BB4_145:
	sub	x8, x25, x22
	cmp	x23, x8
	b.hi	.Lunix_path_BB4_194
.Lunix_path_BB4_146:
	ldr	x26, [sp, #40]
	add	x8, x26, x22
	sub	x8, x8, x13
	cmp	x8, x23
	add	x8, sp, #40
	stp	xzr, xzr, [x8, #8]
	b.hs	.Lunix_path_BB4_152
	cmp	x23, #8
	b.lo	.Lunix_path_BB4_149
	add	x8, x22, x26
	sub	x8, x8, x13
	cmp	x8, #32
	b.hs	.Lunix_path_BB4_172
.Lunix_path_BB4_149:
	mov	x8, xzr
.Lunix_path_BB4_150:
	add	x10, x8, x22
	sub	x9, x23, x8
	add	x8, x13, x8
	add	x10, x26, x10
.Lunix_path_BB4_151:
	ldrb	w11, [x8], #1
	subs	x9, x9, #1
	strb	w11, [x10], #1
	b.ne	.Lunix_path_BB4_151
	b	.Lunix_path_BB4_153
.Lunix_path_BB4_152:
	add	x0, x26, x22
	mov	x1, x13
	mov	x2, x23
	bl	memmove
.Lunix_path_BB4_153:
	ldr	x8, [sp, #72]
	ldr	x10, [sp, #336]
	add	x9, x22, x23
	stp	x26, x9, [sp, #40]
	orr	x11, x8, x10
	str	x25, [sp, #56]
	cbnz	x11, .Lunix_path_BB4_156
.Lunix_path_BB4_154:
	mov	w1, wzr
	mov	w8, wzr
.Lunix_path_BB4_155:
	ldr	x22, [sp, #32]
	b	.Lunix_path_BB4_24
.Lunix_path_BB4_156:
	add	x11, x23, #1
	subs	x9, x9, x11
	ldr	x11, [sp, #16]
	csel	x9, xzr, x9, lo
	ldr	x11, [x11, x10, lsl #3]
	cmp	x9, x11
	b.hs	.Lunix_path_BB4_159
	ldr	x11, [sp, #8]
	add	x11, x11, x10, lsl #3
	sub	x10, x10, #1
.Lunix_path_BB4_158:
	str	x10, [sp, #336]
	sub	x10, x10, #1
	ldr	x12, [x11], #-8
	cmp	x9, x12
	b.lo	.Lunix_path_BB4_158
.Lunix_path_BB4_159:
	ldr	x22, [sp, #32]
	cmp	x9, x8
	mov	w1, wzr
	mov	w8, wzr
	b.hs	.Lunix_path_BB4_24
	b	.Lunix_path_BB4_58
.Lunix_path_BB4_160:
	sub	x10, x25, #1
.Lunix_path_BB4_161:
	cbz	x9, .Lunix_path_BB4_131
	ldrb	w12, [x10, x9]
	sub	x11, x9, #1
	mov	x9, x11
	cmp	w12, #47
	b.ne	.Lunix_path_BB4_161
	add	x24, x11, #1
	cmp	x24, x8
	b.eq	.Lunix_path_BB4_130
.Lunix_path_BB4_164:
	mov	x9, x24
	b	.Lunix_path_BB4_166
.Lunix_path_BB4_165:
	mov	x9, x2
	cbz	x2, .Lunix_path_BB4_131
.Lunix_path_BB4_166:
	subs	x2, x9, #1
	b.eq	.Lunix_path_BB4_205
	add	x8, x25, x2
	ldrb	w10, [x8]
	cmp	w10, #47
	b.eq	.Lunix_path_BB4_170
	cmp	w10, #46
	b.ne	.Lunix_path_BB4_131
	ldurb	w8, [x8, #-1]
	cmp	w8, #47
	b.ne	.Lunix_path_BB4_131
.Lunix_path_BB4_170:
	sub	x8, x24, x2
	cmp	x8, #8
	b.ne	.Lunix_path_BB4_165
	mov	x0, x25
	mov	x1, xzr
	bl	unix_path.filler.trimmed_blocks_len
	mov	x2, x0
	b	.Lunix_path_BB4_165
.Lunix_path_BB4_172:
	cmp	x23, #32
	b.hs	.Lunix_path_BB4_176
	mov	x8, xzr
	b	.Lunix_path_BB4_180
.Lunix_path_BB4_174:
	cmp	x23, #32
	b.hs	.Lunix_path_BB4_196
	mov	x8, xzr
	b	.Lunix_path_BB4_200
.Lunix_path_BB4_176:
	add	x11, x26, x22
	and	x9, x23, #0x18
	and	x8, x23, #0xffffffffffffffe0
	add	x10, x13, #16
	add	x11, x11, #16
	and	x12, x23, #0xffffffffffffffe0
.Lunix_path_BB4_177:
	ldp	q0, q1, [x10, #-16]
	subs	x12, x12, #32
	add	x10, x10, #32
	stp	q0, q1, [x11, #-16]
	add	x11, x11, #32
	b.ne	.Lunix_path_BB4_177
	cmp	x23, x8
	b.eq	.Lunix_path_BB4_153
	cbz	x9, .Lunix_path_BB4_150
.Lunix_path_BB4_180:
	mov	x10, x8
	and	x8, x23, #0xfffffffffffffff8
	add	x11, x22, x10
	sub	x9, x10, x8
	add	x10, x13, x10
	add	x11, x26, x11
.Lunix_path_BB4_181:
	ldr	d0, [x10], #8
	adds	x9, x9, #8
	str	d0, [x11], #8
	b.ne	.Lunix_path_BB4_181
	cmp	x23, x8
	b.eq	.Lunix_path_BB4_153
	b	.Lunix_path_BB4_150
.Lunix_path_BB4_183:
	ldr	x24, [sp, #56]
	add	x8, x23, #1
	sub	x9, x24, x22
	cmp	x8, x9
	b.hi	.Lunix_path_BB4_254
	cmp	x24, x22
	b.eq	.Lunix_path_BB4_256
.Lunix_path_BB4_185:
	ldr	x26, [sp, #40]
	add	x25, x22, #1
	mov	w8, #47
	strb	w8, [x26, x22]
	sub	x8, x24, x25
	cmp	x23, x8
	stp	x26, x25, [sp, #40]
	str	x24, [sp, #56]
	b.hi	.Lunix_path_BB4_258
	add	x8, x26, x25
	sub	x8, x8, x1
	cmp	x8, x23
	add	x8, sp, #40
	stp	xzr, xzr, [x8, #8]
	b.hs	.Lunix_path_BB4_260
.Lunix_path_BB4_187:
	ldr	x22, [sp, #32]
	cmp	x23, #8
	b.lo	.Lunix_path_BB4_189
	add	x8, x25, x26
	sub	x8, x8, x1
	cmp	x8, #32
	b.hs	.Lunix_path_BB4_234
.Lunix_path_BB4_189:
	mov	x8, xzr
.Lunix_path_BB4_190:
	add	x10, x8, x25
	sub	x9, x23, x8
	add	x8, x1, x8
	add	x10, x26, x10
.Lunix_path_BB4_191:
	ldrb	w11, [x8], #1
	subs	x9, x9, #1
	strb	w11, [x10], #1
	b.ne	.Lunix_path_BB4_191
	b	.Lunix_path_BB4_261
.Lunix_path_BB4_192:
	add	x0, sp, #40
	bl	std_alloc.vec.Vec.grow_amortized.2c3341b61b28ed12.
	cbz	w0, .Lunix_path_BB4_293
	ldr	x22, [sp, #48]
	ldr	x13, [sp, #24]
	cmp	x22, x28
	b.hi	.Lunix_path_BB4_141
	b	.Lunix_path_BB4_142
.Lunix_path_BB4_194:
	add	x0, sp, #40
	mov	x1, x23
	bl	std_alloc.vec.Vec.grow_amortized.2c3341b61b28ed12.
	cbz	w0, .Lunix_path_BB4_293
	ldp	x22, x25, [sp, #48]
	ldr	x13, [sp, #24]
	b	.Lunix_path_BB4_146
.Lunix_path_BB4_196:
	add	x11, x26, x24
	and	x9, x23, #0x18
	and	x8, x23, #0xffffffffffffffe0
	add	x10, x1, #16
	add	x11, x11, #16
	and	x12, x23, #0xffffffffffffffe0
.Lunix_path_BB4_197:
	ldp	q0, q1, [x10, #-16]
	subs	x12, x12, #32
	add	x10, x10, #32
	stp	q0, q1, [x11, #-16]
	add	x11, x11, #32
	b.ne	.Lunix_path_BB4_197
	cmp	x23, x8
	b.eq	.Lunix_path_BB4_83
	cbz	x9, .Lunix_path_BB4_66
.Lunix_path_BB4_200:
	mov	x10, x8
	and	x8, x23, #0xfffffffffffffff8
	add	x11, x24, x10
	sub	x9, x10, x8
	add	x10, x1, x10
	add	x11, x26, x11
.Lunix_path_BB4_201:
	ldr	d0, [x10], #8
	adds	x9, x9, #8
	str	d0, [x11], #8
	b.ne	.Lunix_path_BB4_201
	cmp	x23, x8
	b.eq	.Lunix_path_BB4_83
	b	.Lunix_path_BB4_66
.Lunix_path_BB4_203:
	mov	x22, x1
	add	x0, sp, #40
	mov	x1, x23
	bl	std_alloc.vec.Vec.grow_amortized.2c3341b61b28ed12.
	cbz	w0, .Lunix_path_BB4_293
	ldp	x24, x25, [sp, #48]
	mov	x1, x22
	ldr	x22, [sp, #32]
	b	.Lunix_path_BB4_62
.Lunix_path_BB4_205:
	ldr	x13, [sp, #24]
	cbnz	x23, .Lunix_path_BB4_133
	b	.Lunix_path_BB4_136
.Lunix_path_BB4_206:
	cmp	x23, #32
	b.hs	.Lunix_path_BB4_212
	mov	x8, xzr
	b	.Lunix_path_BB4_216
.Lunix_path_BB4_208:
	add	x0, sp, #40
	mov	w1, #1
	bl	std_alloc.vec.Vec.grow_amortized.2c3341b61b28ed12.
	cbz	w0, .Lunix_path_BB4_293
	ldp	x22, x25, [sp, #48]
	ldr	x13, [sp, #24]
	b	.Lunix_path_BB4_144
.Lunix_path_BB4_210:
	mov	w9, #1
	b	.Lunix_path_BB4_229
.Lunix_path_BB4_211:
	ldr	x9, [sp, #64]
	b	.Lunix_path_BB4_229
.Lunix_path_BB4_212:
	add	x11, x26, x28
	and	x9, x23, #0x18
	and	x8, x23, #0xffffffffffffffe0
	add	x10, x1, #16
	add	x11, x11, #16
	and	x12, x23, #0xffffffffffffffe0
.Lunix_path_BB4_213:
	ldp	q0, q1, [x10, #-16]
	subs	x12, x12, #32
	add	x10, x10, #32
	stp	q0, q1, [x11, #-16]
	add	x11, x11, #32
	b.ne	.Lunix_path_BB4_213
	cmp	x23, x8
	b.eq	.Lunix_path_BB4_226
	cbz	x9, .Lunix_path_BB4_91
.Lunix_path_BB4_216:
	mov	x10, x8
	and	x8, x23, #0xfffffffffffffff8
	add	x11, x28, x10
	sub	x9, x10, x8
	add	x10, x1, x10
	add	x11, x26, x11
.Lunix_path_BB4_217:
	ldr	d0, [x10], #8
	adds	x9, x9, #8
	str	d0, [x11], #8
	b.ne	.Lunix_path_BB4_217
	cmp	x23, x8
	b.eq	.Lunix_path_BB4_226
	b	.Lunix_path_BB4_91
.Lunix_path_BB4_219:
	mov	x22, x1
	add	x0, sp, #40
	add	x1, x23, #1
	bl	std_alloc.vec.Vec.grow_amortized.2c3341b61b28ed12.
	cbz	w0, .Lunix_path_BB4_293
	ldp	x24, x25, [sp, #48]
	mov	x1, x22
	ldr	x22, [sp, #32]
	cmp	x25, x24
	b.ne	.Lunix_path_BB4_86
.Lunix_path_BB4_221:
	mov	x22, x1
	add	x0, sp, #40
	mov	w1, #1
	bl	std_alloc.vec.Vec.grow_amortized.2c3341b61b28ed12.
	cbz	w0, .Lunix_path_BB4_293
	ldp	x24, x25, [sp, #48]
	mov	x1, x22
	ldr	x22, [sp, #32]
	b	.Lunix_path_BB4_86
.Lunix_path_BB4_223:
	mov	x22, x1
	add	x0, sp, #40
	mov	x1, x23
	bl	std_alloc.vec.Vec.grow_amortized.2c3341b61b28ed12.
	cbz	w0, .Lunix_path_BB4_293
	ldp	x28, x25, [sp, #48]
	mov	x1, x22
	ldp	x22, x26, [sp, #32]
	add	x8, x26, x28
	sub	x8, x8, x1
	cmp	x8, x23
	add	x8, sp, #40
	stp	xzr, xzr, [x8, #8]
	b.lo	.Lunix_path_BB4_88
.Lunix_path_BB4_225:
	add	x0, x26, x28
	mov	x2, x23
	bl	memmove
.Lunix_path_BB4_226:
	mov	w1, wzr
	mov	w8, wzr
	add	x9, x28, x23
.Lunix_path_BB4_227:
	stp	x26, x9, [sp, #40]
	str	x25, [sp, #56]
	b	.Lunix_path_BB4_24
.Lunix_path_BB4_228:
	mov	x9, x8
.Lunix_path_BB4_229:
	sub	x8, x23, x8
	cmp	x8, #16
	b.lo	.Lunix_path_BB4_231
	mov	w1, wzr
	stp	x9, x23, [sp, #64]
	mov	w8, #1
	b	.Lunix_path_BB4_24
.Lunix_path_BB4_231:
	mov	w1, wzr
	mov	w8, #1
	b	.Lunix_path_BB4_24
.Lunix_path_BB4_232:
	cmp	x23, #32
	b.hs	.Lunix_path_BB4_236
	mov	x8, xzr
	b	.Lunix_path_BB4_240
.Lunix_path_BB4_234:
	cmp	x23, #32
	b.hs	.Lunix_path_BB4_243
	mov	x8, xzr
	b	.Lunix_path_BB4_247
.Lunix_path_BB4_236:
	add	x11, x25, x22
	and	x9, x23, #0x18
	and	x8, x23, #0xffffffffffffffe0
	add	x10, x1, #16
	add	x11, x11, #16
	and	x12, x23, #0xffffffffffffffe0
.Lunix_path_BB4_237:
	ldp	q0, q1, [x10, #-16]
	subs	x12, x12, #32
	add	x10, x10, #32
	stp	q0, q1, [x11, #-16]
	add	x11, x11, #32
	b.ne	.Lunix_path_BB4_237
	cmp	x23, x8
	b.eq	.Lunix_path_BB4_253
	cbz	x9, .Lunix_path_BB4_111
.Lunix_path_BB4_240:
	mov	x10, x8
	and	x8, x23, #0xfffffffffffffff8
	add	x11, x22, x10
	sub	x9, x10, x8
	add	x10, x1, x10
	add	x11, x25, x11
.Lunix_path_BB4_241:
	ldr	d0, [x10], #8
	adds	x9, x9, #8
	str	d0, [x11], #8
	b.ne	.Lunix_path_BB4_241
	cmp	x23, x8
	b.eq	.Lunix_path_BB4_253
	b	.Lunix_path_BB4_111
.Lunix_path_BB4_243:
	add	x11, x26, x25
	and	x9, x23, #0x18
	and	x8, x23, #0xffffffffffffffe0
	add	x10, x1, #16
	add	x11, x11, #16
	and	x12, x23, #0xffffffffffffffe0
.Lunix_path_BB4_244:
	ldp	q0, q1, [x10, #-16]
	subs	x12, x12, #32
	add	x10, x10, #32
	stp	q0, q1, [x11, #-16]
	add	x11, x11, #32
	b.ne	.Lunix_path_BB4_244
	cmp	x23, x8
	b.eq	.Lunix_path_BB4_261
	cbz	x9, .Lunix_path_BB4_190
.Lunix_path_BB4_247:
	mov	x10, x8
	and	x8, x23, #0xfffffffffffffff8
	add	x11, x25, x10
	sub	x9, x10, x8
	add	x10, x1, x10
	add	x11, x26, x11
.Lunix_path_BB4_248:
	ldr	d0, [x10], #8
	adds	x9, x9, #8
	str	d0, [x11], #8
	b.ne	.Lunix_path_BB4_248
	cmp	x23, x8
	b.eq	.Lunix_path_BB4_261
	b	.Lunix_path_BB4_190
.Lunix_path_BB4_250:
	add	x0, sp, #40
	mov	x1, x23
	bl	std_alloc.vec.Vec.grow_amortized.2c3341b61b28ed12.
	cbz	w0, .Lunix_path_BB4_293
	ldp	x22, x26, [sp, #48]
	ldr	x25, [sp, #40]
	ldr	x1, [sp, #24]
	add	x8, x25, x22
	sub	x8, x8, x1
	cmp	x8, x23
	add	x8, sp, #40
	stp	xzr, xzr, [x8, #8]
	b.lo	.Lunix_path_BB4_108
.Lunix_path_BB4_252:
	add	x0, x25, x22
	mov	x2, x23
	bl	memmove
.Lunix_path_BB4_253:
	add	x9, x22, x23
	mov	w1, wzr
	mov	w8, wzr
	stp	x25, x9, [sp, #40]
	str	x26, [sp, #56]
	b	.Lunix_path_BB4_155
.Lunix_path_BB4_254:
	add	x0, sp, #40
	add	x1, x23, #1
	bl	std_alloc.vec.Vec.grow_amortized.2c3341b61b28ed12.
	cbz	w0, .Lunix_path_BB4_293
	ldp	x22, x24, [sp, #48]
	ldr	x1, [sp, #24]
	cmp	x24, x22
	b.ne	.Lunix_path_BB4_185
.Lunix_path_BB4_256:
	add	x0, sp, #40
	mov	w1, #1
	bl	std_alloc.vec.Vec.grow_amortized.2c3341b61b28ed12.
	cbz	w0, .Lunix_path_BB4_293
	ldp	x22, x24, [sp, #48]
	ldr	x1, [sp, #24]
	b	.Lunix_path_BB4_185
.Lunix_path_BB4_258:
	add	x0, sp, #40
	mov	x1, x23
	bl	std_alloc.vec.Vec.grow_amortized.2c3341b61b28ed12.
	cbz	w0, .Lunix_path_BB4_293
	ldp	x25, x24, [sp, #48]
	ldr	x26, [sp, #40]
	ldr	x1, [sp, #24]
	add	x8, x26, x25
	sub	x8, x8, x1
	cmp	x8, x23
	add	x8, sp, #40
	stp	xzr, xzr, [x8, #8]
	b.lo	.Lunix_path_BB4_187
.Lunix_path_BB4_260:
	add	x0, x26, x25
	mov	x2, x23
	bl	memmove
	ldr	x22, [sp, #32]
.Lunix_path_BB4_261:
	add	x9, x25, x23
	mov	w1, wzr
	mov	w8, wzr
	stp	x26, x9, [sp, #40]
	str	x24, [sp, #56]
	b	.Lunix_path_BB4_24
.Lunix_path_BB4_262:
	sub	x21, x29, #17
	mov	x25, x20
	ldp	x8, x26, [x25, #8]!
	sub	x9, x26, x8
	cmp	x23, x9
	b.ls	.Lunix_path_BB4_264
	b	.Lunix_path_BB4_306
.Lunix_path_BB4_263:
	ldp	x24, x23, [sp, #40]
	mov	x25, x20
	ldp	x8, x26, [x25, #8]!
	sub	x9, x26, x8
	cmp	x23, x9
	b.hi	.Lunix_path_BB4_306
.Lunix_path_BB4_264:
	ldr	x27, [x20]
	add	x22, x8, x23
	stp	xzr, xzr, [x25]
	add	x0, x27, x8
	sub	x9, x0, x24
	cmp	x9, x23
	b.hs	.Lunix_path_BB4_270
	cmp	x23, #8
	b.lo	.Lunix_path_BB4_267
	add	x9, x8, x27
	sub	x9, x9, x24
	cmp	x9, #32
	b.hs	.Lunix_path_BB4_291
.Lunix_path_BB4_267:
	mov	x9, xzr
.Lunix_path_BB4_268:
	add	x10, x9, x8
	sub	x8, x23, x9
	add	x9, x24, x9
	add	x10, x27, x10
.Lunix_path_BB4_269:
	ldrb	w11, [x9], #1
	subs	x8, x8, #1
	strb	w11, [x10], #1
	b.ne	.Lunix_path_BB4_269
	b	.Lunix_path_BB4_271
.Lunix_path_BB4_270:
	mov	x1, x24
	mov	x2, x23
	bl	memmove
.Lunix_path_BB4_271:
	stp	x27, x22, [x20]
	str	x26, [x20, #16]
	cbz	x19, .Lunix_path_BB4_289
	mov	x23, xzr
	b	.Lunix_path_BB4_275
.Lunix_path_BB4_273:
	add	x0, x27, x24
	mov	x2, x22
	bl	memcpy
.Lunix_path_BB4_274:
	add	x23, x23, #1
	add	x22, x24, x22
	str	x26, [x20, #16]
	cmp	x23, x19
	stp	x27, x22, [x20]
	b.eq	.Lunix_path_BB4_288
.Lunix_path_BB4_275:
	cmp	x26, x22
	b.eq	.Lunix_path_BB4_286
.Lunix_path_BB4_276:
	mov	w8, #9
	strb	w8, [x27, x22]
	add	x24, x22, #1
	add	x8, x21, x23, lsl #1
	str	x24, [x25]
	ldrb	w9, [x8]
	cbz	w9, .Lunix_path_BB4_282
	cmp	w9, #2
	b.ne	.Lunix_path_BB4_285
	adrp	x1, .Lunix_path_static.31
	add	x1, x1, :lo12:.Lunix_path_static.31
	mov	w22, #9
	ldr	x26, [x20, #16]
	sub	x8, x26, x24
	cmp	x22, x8
	b.hi	.Lunix_path_BB4_283
.Lunix_path_BB4_279:
	ldr	x27, [x20]
	add	x8, x27, x24
	sub	x9, x8, x1
	cmp	x9, x22
	b.hs	.Lunix_path_BB4_273
.Lunix_path_BB4_280:
	mov	x9, x22
.Lunix_path_BB4_281:
	ldrb	w10, [x1], #1
	subs	x9, x9, #1
	strb	w10, [x8], #1
	b.ne	.Lunix_path_BB4_281
	b	.Lunix_path_BB4_274
.Lunix_path_BB4_282:
	adrp	x1, .Lunix_path_static.28
	add	x1, x1, :lo12:.Lunix_path_static.28
	mov	w22, #2
	ldr	x26, [x20, #16]
	sub	x8, x26, x24
	cmp	x22, x8
	b.ls	.Lunix_path_BB4_279
.Lunix_path_BB4_283:
	mov	x27, x1
	mov	x0, x20
	mov	x1, x22
	bl	std_alloc.vec.Vec.grow_amortized.307f257cf2d167af.
	cbz	w0, .Lunix_path_BB4_309
	ldp	x24, x26, [x20, #8]
	mov	x1, x27
	ldr	x27, [x20]
	add	x8, x27, x24
	sub	x9, x8, x1
	cmp	x9, x22
	b.hs	.Lunix_path_BB4_273
	b	.Lunix_path_BB4_280
.Lunix_path_BB4_285:
	ldrb	w8, [x8, #1]
	mov	w9, #4
	tst	w8, #0x1
	adrp	x8, .Lunix_path_static.30
	add	x8, x8, :lo12:.Lunix_path_static.30
	cinc	x22, x9, eq
	adrp	x9, .Lunix_path_static.29
	add	x9, x9, :lo12:.Lunix_path_static.29
	csel	x1, x9, x8, ne
	ldr	x26, [x20, #16]
	sub	x8, x26, x24
	cmp	x22, x8
	b.ls	.Lunix_path_BB4_279
	b	.Lunix_path_BB4_283
.Lunix_path_BB4_286:
	mov	x0, x20
	mov	w1, #1
	mov	w22, #1
	bl	std_alloc.vec.Vec.grow_amortized.307f257cf2d167af.
	cbz	w0, .Lunix_path_BB4_308
	ldp	x27, x22, [x20]
	b	.Lunix_path_BB4_276
.Lunix_path_BB4_288:
	mov	w25, wzr
	mov	x0, x21
	bl	rattle_dealloc
	ldr	x8, [sp, #56]
	cbnz	x8, .Lunix_path_BB4_290
	b	.Lunix_path_BB4_298
.Lunix_path_BB4_289:
	mov	w25, wzr
	ldr	x8, [sp, #56]
	cbz	x8, .Lunix_path_BB4_298
.Lunix_path_BB4_290:
	ldr	x0, [sp, #40]
	bl	rattle_dealloc
	b	.Lunix_path_BB4_298
.Lunix_path_BB4_291:
	cmp	x23, #32
	b.hs	.Lunix_path_BB4_299
	mov	x9, xzr
	b	.Lunix_path_BB4_303
.Lunix_path_BB4_293:
	mov	x0, x21
	bl	rattle_dealloc
.Lunix_path_BB4_294:
	ldr	x23, [sp, #56]
.Lunix_path_BB4_295:
	cbz	x23, .Lunix_path_BB4_297
.Lunix_path_BB4_296:
	ldr	x0, [sp, #40]
	bl	rattle_dealloc
.Lunix_path_BB4_297:
	mov	w25, #1
.Lunix_path_BB4_298:
	mov	w0, w25
	ldp	x20, x19, [sp, #448]
	ldp	x22, x21, [sp, #432]
	ldp	x24, x23, [sp, #416]
	ldp	x26, x25, [sp, #400]
	ldp	x28, x27, [sp, #384]
	ldp	x29, x30, [sp, #368]
	add	sp, sp, #464
	ret
.Lunix_path_BB4_299:
	add	x12, x8, x27
	and	x10, x23, #0x18
	and	x9, x23, #0xffffffffffffffe0
	add	x11, x24, #16
	add	x12, x12, #16
	and	x13, x23, #0xffffffffffffffe0
.Lunix_path_BB4_300:
	ldp	q0, q1, [x11, #-16]
	subs	x13, x13, #32
	add	x11, x11, #32
	stp	q0, q1, [x12, #-16]
	add	x12, x12, #32
	b.ne	.Lunix_path_BB4_300
	cmp	x23, x9
	b.eq	.Lunix_path_BB4_271
	cbz	x10, .Lunix_path_BB4_268
.Lunix_path_BB4_303:
	mov	x11, x9
	and	x9, x23, #0xfffffffffffffff8
	add	x12, x8, x11
	sub	x10, x11, x9
	add	x11, x24, x11
	add	x12, x27, x12
.Lunix_path_BB4_304:
	ldr	d0, [x11], #8
	adds	x10, x10, #8
	str	d0, [x12], #8
	b.ne	.Lunix_path_BB4_304
	cmp	x23, x9
	b.eq	.Lunix_path_BB4_271
	b	.Lunix_path_BB4_268
.Lunix_path_BB4_306:
	mov	x0, x20
	mov	x1, x23
	bl	std_alloc.vec.Vec.grow_amortized.307f257cf2d167af.
	cbz	w0, .Lunix_path_BB4_310
	ldp	x8, x26, [x20, #8]
	b	.Lunix_path_BB4_264
.Lunix_path_BB4_308:
	mov	w25, w22
	mov	x0, x21
	bl	rattle_dealloc
	ldr	x8, [sp, #56]
	cbnz	x8, .Lunix_path_BB4_290
	b	.Lunix_path_BB4_298
.Lunix_path_BB4_309:
	mov	w25, #1
	mov	x0, x21
	bl	rattle_dealloc
	ldr	x8, [sp, #56]
	cbnz	x8, .Lunix_path_BB4_290
	b	.Lunix_path_BB4_298
.Lunix_path_BB4_310:
	cbz	x19, .Lunix_path_BB4_312
	mov	x0, x21
	bl	rattle_dealloc
.Lunix_path_BB4_312:
	ldr	x8, [sp, #56]
	cbnz	x8, .Lunix_path_BB4_296
	b	.Lunix_path_BB4_297
.Lunix_path_func_end4:
	.size	pathtool.edits.push_edited, .Lunix_path_func_end4-pathtool.edits.push_edited
	.section	.text.unix_path.buf.PathBuf.replace,"ax",@progbits
	.p2align	2
	.type	unix_path.buf.PathBuf.replace,@function
// unix_path::buf::PathBuf::replace
unix_path.buf.PathBuf.replace:
	stp	x29, x30, [sp, #-64]!
	str	x23, [sp, #16]
	mov	x23, x0
	mov	x29, sp
	ldp	x9, x10, [x23, #8]!
	stp	x20, x19, [sp, #48]
	mov	x19, x0
	stp	x22, x21, [sp, #32]
	subs	x8, x2, x9
	sub	x10, x10, x9
	csel	x8, xzr, x8, lo
	cmp	x8, x10
	b.hi	.Lunix_path_BB5_22
	cbz	x9, .Lunix_path_BB5_3
.Lunix_path_BB5_2:
	str	xzr, [x23]
.Lunix_path_BB5_3:
	ldr	x20, [x19, #16]
	cmp	x2, x20
	b.hi	.Lunix_path_BB5_24
	mov	x8, xzr
.Lunix_path_BB5_5:
	ldr	x21, [x19]
	add	x22, x8, x2
	stp	xzr, xzr, [x23]
	add	x0, x21, x8
	sub	x9, x0, x1
	cmp	x9, x2
	b.hs	.Lunix_path_BB5_11
	cmp	x2, #8
	b.lo	.Lunix_path_BB5_8
	add	x9, x8, x21
	sub	x9, x9, x1
	cmp	x9, #32
	b.hs	.Lunix_path_BB5_13
.Lunix_path_BB5_8:
	mov	x9, xzr
.Lunix_path_BB5_9:
	add	x10, x9, x8
	sub	x8, x2, x9
	add	x9, x1, x9
	add	x10, x21, x10
.Lunix_path_BB5_10:
	ldrb	w11, [x9], #1
	subs	x8, x8, #1
	strb	w11, [x10], #1
	b.ne	.Lunix_path_BB5_10
	b	.Lunix_path_BB5_12
.Lunix_path_BB5_11:
	bl	memmove
.Lunix_path_BB5_12:
	mov	w0, wzr
	stp	x21, x22, [x19]
	str	x20, [x19, #16]
	ldp	x20, x19, [sp, #48]
	ldr	x23, [sp, #16]
	ldp	x22, x21, [sp, #32]
	ldp	x29, x30, [sp], #64
	ret
.Lunix_path_BB5_13:
	cmp	x2, #32
	b.hs	.Lunix_path_BB5_15
	mov	x9, xzr
	b	.Lunix_path_BB5_19
.Lunix_path_BB5_15:
	add	x12, x8, x21
	and	x10, x2, #0x18
	and	x9, x2, #0xffffffffffffffe0
	add	x11, x1, #16
	add	x12, x12, #16
	and	x13, x2, #0xffffffffffffffe0
.Lunix_path_BB5_16:
	ldp	q0, q1, [x11, #-16]
	subs	x13, x13, #32
	add	x11, x11, #32
	stp	q0, q1, [x12, #-16]
	add	x12, x12, #32
	b.ne	.Lunix_path_BB5_16
	cmp	x2, x9
	b.eq	.Lunix_path_BB5_12
	cbz	x10, .Lunix_path_BB5_9
.Lunix_path_BB5_19:
	mov	x11, x9
	and	x9, x2, #0xfffffffffffffff8
	add	x12, x8, x11
	sub	x10, x11, x9
	add	x11, x1, x11
	add	x12, x21, x12
.Lunix_path_BB5_20:
	ldr	d0, [x11], #8
	adds	x10, x10, #8
	str	d0, [x12], #8
	b.ne	.Lunix_path_BB5_20
	cmp	x2, x9
	b.eq	.Lunix_path_BB5_12
	b	.Lunix_path_BB5_9
.Lunix_path_BB5_22:
	mov	x20, x1
	mov	x0, x19
	mov	x1, x8
	mov	x21, x2
	bl	std_alloc.vec.Vec.grow_amortized.2c3341b61b28ed12.
	cbz	w0, .Lunix_path_BB5_26
	ldr	x9, [x23]
	mov	x2, x21
	mov	x1, x20
	cbnz	x9, .Lunix_path_BB5_2
	b	.Lunix_path_BB5_3
.Lunix_path_BB5_24:
	mov	x21, x1
	mov	x0, x19
	mov	x1, x2
	mov	x22, x2
	bl	std_alloc.vec.Vec.grow_amortized.2c3341b61b28ed12.
	cbz	w0, .Lunix_path_BB5_26
	ldp	x8, x20, [x19, #8]
	mov	x2, x22
	mov	x1, x21
	b	.Lunix_path_BB5_5
.Lunix_path_BB5_26:
	mov	w0, #1
	ldp	x20, x19, [sp, #48]
	ldr	x23, [sp, #16]
	ldp	x22, x21, [sp, #32]
	ldp	x29, x30, [sp], #64
	ret
.Lunix_path_func_end5:
	.size	unix_path.buf.PathBuf.replace, .Lunix_path_func_end5-unix_path.buf.PathBuf.replace
	.section	.text.path_runs.edits.step.pop_with_cache,"ax",@progbits
	.p2align	2
	.type	path_runs.edits.step.pop_with_cache,@function
// path_runs::edits::step::pop_with_cache
path_runs.edits.step.pop_with_cache:
	stp	x29, x30, [sp, #-64]!
	stp	x22, x21, [sp, #32]
	mov	x21, x0
	mov	x29, sp
	stp	x20, x19, [sp, #48]
	ldp	x0, x20, [x0]
	mov	x19, x1
	str	x23, [sp, #16]
	cbz	x20, .Lunix_path_BB6_23
	subs	x8, x20, #1
	b.eq	.Lunix_path_BB6_23
	add	x8, x0, x8
	ldrb	w9, [x8]
	cmp	w9, #47
	b.eq	.Lunix_path_BB6_5
	cmp	w9, #46
	b.ne	.Lunix_path_BB6_23
	ldurb	w8, [x8, #-1]
	cmp	w8, #47
	b.ne	.Lunix_path_BB6_23
.Lunix_path_BB6_5:
	ldrb	w8, [x0]
	cmp	w8, #47
	b.ne	.Lunix_path_BB6_23
	ldr	x22, [x19, #8]
	mov	x8, x20
	cmp	x22, x20
	b.hs	.Lunix_path_BB6_15
	mov	x8, x20
	b	.Lunix_path_BB6_9
.Lunix_path_BB6_8:
	cmp	x22, x2
	mov	x8, x2
	b.hs	.Lunix_path_BB6_15
.Lunix_path_BB6_9:
	subs	x2, x8, #1
	b.eq	.Lunix_path_BB6_15
	add	x9, x0, x2
	ldrb	w10, [x9]
	cmp	w10, #47
	b.eq	.Lunix_path_BB6_13
	cmp	w10, #46
	b.ne	.Lunix_path_BB6_15
	ldurb	w9, [x9, #-1]
	cmp	w9, #47
	b.ne	.Lunix_path_BB6_15
.Lunix_path_BB6_13:
	sub	x8, x20, x2
	cmp	x8, #8
	b.ne	.Lunix_path_BB6_8
	mov	x1, x22
	mov	x23, x0
	bl	unix_path.filler.trimmed_blocks_len
	mov	x2, x0
	mov	x0, x23
	b	.Lunix_path_BB6_8
.Lunix_path_BB6_15:
	cmp	x8, x22
	mov	x9, x8
	b.eq	.Lunix_path_BB6_20
	sub	x8, x20, x8
	cmp	x8, #16
	b.hs	.Lunix_path_BB6_21
.Lunix_path_BB6_17:
	cmp	x9, #2
	b.hs	.Lunix_path_BB6_22
.Lunix_path_BB6_18:
	mov	w0, wzr
.Lunix_path_BB6_19:
	ldp	x20, x19, [sp, #48]
	ldr	x23, [sp, #16]
	ldp	x22, x21, [sp, #32]
	ldp	x29, x30, [sp], #64
	ret
.Lunix_path_BB6_20:
	ldr	x9, [x19]
	sub	x8, x20, x8
	cmp	x8, #16
	b.lo	.Lunix_path_BB6_17
.Lunix_path_BB6_21:
	stp	x9, x20, [x19]
	cmp	x9, #2
	b.lo	.Lunix_path_BB6_18
.Lunix_path_BB6_22:
	ldp	x0, x20, [x21]
.Lunix_path_BB6_23:
	mov	x1, x20
	bl	unix_path.path.Path.parent_len
	and	w8, w0, #0xff
	cmp	w8, #1
	cset	w0, eq
	b.ne	.Lunix_path_BB6_26
	cmp	x20, x1
	b.ls	.Lunix_path_BB6_26
	mov	x20, x1
	str	x1, [x21, #8]
.Lunix_path_BB6_26:
	ldr	x9, [x19, #272]
	add	x8, x19, x9, lsl #3
	ldr	x10, [x8, #16]
	cmp	x20, x10
	b.hs	.Lunix_path_BB6_29
	add	x8, x8, #8
	sub	x9, x9, #1
.Lunix_path_BB6_28:
	str	x9, [x19, #272]
	sub	x9, x9, #1
	ldr	x10, [x8], #-8
	cmp	x20, x10
	b.lo	.Lunix_path_BB6_28
.Lunix_path_BB6_29:
	ldr	x8, [x19, #8]
	cmp	x20, x8
	b.hs	.Lunix_path_BB6_19
	stp	xzr, xzr, [x19]
	ldp	x20, x19, [sp, #48]
	ldr	x23, [sp, #16]
	ldp	x22, x21, [sp, #32]
	ldp	x29, x30, [sp], #64
	ret
.Lunix_path_func_end6:
	.size	path_runs.edits.step.pop_with_cache, .Lunix_path_func_end6-path_runs.edits.step.pop_with_cache
	.section	.rodata.cst16,"aM",@progbits,16
	.p2align	4, 0x0
.Lunix_path_CPI7_0:
	.byte	1
	.byte	2
	.byte	4
	.byte	8
	.byte	16
	.byte	32
	.byte	64
	.byte	128
	.byte	1
	.byte	2
	.byte	4
	.byte	8
	.byte	16
	.byte	32
	.byte	64
	.byte	128
	.section	.text.unix_path.filler.trimmed_blocks_len,"ax",@progbits
	.p2align	2
	.type	unix_path.filler.trimmed_blocks_len,@function
// unix_path::filler::trimmed_blocks_len
unix_path.filler.trimmed_blocks_len:
	neg	x9, x1
.Lunix_path_BB7_1:
	add	x10, x9, x2
	mov	x8, x2
	cmp	x10, #17
	b.lo	.Lunix_path_BB7_3
	movi	v0.16b, #46
	add	x10, x0, x8
	movi	v2.16b, #47
	ldur	q1, [x10, #-16]
	ldur	q3, [x10, #-17]
	adrp	x10, .Lunix_path_CPI7_0
	sub	x2, x8, #16
	cmeq	v0.16b, v1.16b, v0.16b
	cmeq	v3.16b, v3.16b, v2.16b
	cmeq	v1.16b, v1.16b, v2.16b
	mvn	v0.16b, v0.16b
	orn	v0.16b, v0.16b, v3.16b
	bic	v0.16b, v0.16b, v1.16b
	ldr	q1, [x10, :lo12:.Lunix_path_CPI7_0]
	and	v0.16b, v0.16b, v1.16b
	addp	v0.16b, v0.16b, v0.16b
	addp	v0.16b, v0.16b, v0.16b
	addp	v0.16b, v0.16b, v0.16b
	umov	w10, v0.h[0]
	cbz	w10, .Lunix_path_BB7_1
.Lunix_path_BB7_3:
	mov	x0, x8
	ret
.Lunix_path_func_end7:
	.size	unix_path.filler.trimmed_blocks_len, .Lunix_path_func_end7-unix_path.filler.trimmed_blocks_len
	.section	.rodata.cst16,"aM",@progbits,16
	.p2align	4, 0x0
.Lunix_path_CPI8_0:
	.byte	1
	.byte	2
	.byte	4
	.byte	8
	.byte	16
	.byte	32
	.byte	64
	.byte	128
	.byte	1
	.byte	2
	.byte	4
	.byte	8
	.byte	16
	.byte	32
	.byte	64
	.byte	128
	.section	.text.unix_path.path.Path.parent_len,"ax",@progbits
	.p2align	2
	.type	unix_path.path.Path.parent_len,@function
// unix_path::path::Path::parent_len
unix_path.path.Path.parent_len:
	cbz	x1, .Lunix_path_BB8_9
	stp	x29, x30, [sp, #-32]!
	stp	x20, x19, [sp, #16]
	mov	x20, x1
	mov	x19, x0
	mov	x0, x1
	mov	x29, sp
	b	.Lunix_path_BB8_3
.Lunix_path_BB8_2:
	mov	x0, x2
	cbz	x2, .Lunix_path_BB8_18
.Lunix_path_BB8_3:
	subs	x2, x0, #1
	b.eq	.Lunix_path_BB8_10
	add	x8, x19, x2
	ldrb	w9, [x8]
	cmp	w9, #47
	b.eq	.Lunix_path_BB8_7
	cmp	w9, #46
	b.ne	.Lunix_path_BB8_13
	ldurb	w8, [x8, #-1]
	cmp	w8, #47
	b.ne	.Lunix_path_BB8_13
.Lunix_path_BB8_7:
	sub	x8, x20, x2
	cmp	x8, #8
	b.ne	.Lunix_path_BB8_2
	mov	x0, x19
	mov	x1, xzr
	bl	unix_path.filler.trimmed_blocks_len
	mov	x2, x0
	b	.Lunix_path_BB8_2
.Lunix_path_BB8_9:
	mov	w0, wzr
	ret
.Lunix_path_BB8_10:
	ldrb	w8, [x19]
	cmp	w8, #46
	b.ne	.Lunix_path_BB8_21
	mov	x1, xzr
.Lunix_path_BB8_12:
	ldp	x20, x19, [sp, #16]
	ldp	x29, x30, [sp], #32
	ret
.Lunix_path_BB8_13:
	add	x8, x19, x0
	ldurb	w9, [x8, #-1]
	cmp	w9, #46
	b.ne	.Lunix_path_BB8_21
	ldurb	w9, [x8, #-2]
	cmp	w9, #46
	b.ne	.Lunix_path_BB8_21
	subs	x20, x0, #2
	b.ne	.Lunix_path_BB8_19
.Lunix_path_BB8_16:
	mov	x1, xzr
.Lunix_path_BB8_17:
	mov	w0, #1
	ldp	x20, x19, [sp, #16]
	ldp	x29, x30, [sp], #32
	ret
.Lunix_path_BB8_18:
	mov	x1, xzr
	ldp	x20, x19, [sp, #16]
	ldp	x29, x30, [sp], #32
	ret
.Lunix_path_BB8_19:
	ldurb	w8, [x8, #-3]
	cmp	w8, #47
	b.ne	.Lunix_path_BB8_21
	mov	x8, x20
	b	.Lunix_path_BB8_39
.Lunix_path_BB8_21:
	mov	x8, x0
.Lunix_path_BB8_22:
	cmp	x8, #15
	b.ls	.Lunix_path_BB8_26
	movi	v0.16b, #47
	add	x9, x19, x8
	ldur	q1, [x9, #-16]
	adrp	x9, .Lunix_path_CPI8_0
	cmeq	v0.16b, v1.16b, v0.16b
	ldr	q1, [x9, :lo12:.Lunix_path_CPI8_0]
	sub	x9, x8, #16
	mov	x8, x9
	and	v0.16b, v0.16b, v1.16b
	addp	v0.16b, v0.16b, v0.16b
	addp	v0.16b, v0.16b, v0.16b
	addp	v0.16b, v0.16b, v0.16b
	umov	w10, v0.h[0]
	cbz	w10, .Lunix_path_BB8_22
	umov	w8, v0.h[0]
	and	x8, x8, #0xffff
	clz	x8, x8
	sub	x8, x9, x8
	add	x20, x8, #64
	cmp	x20, x0
	b.ne	.Lunix_path_BB8_30
.Lunix_path_BB8_25:
	mov	x1, xzr
	mov	w0, wzr
	ldp	x20, x19, [sp, #16]
	ldp	x29, x30, [sp], #32
	ret
.Lunix_path_BB8_26:
	sub	x9, x19, #1
.Lunix_path_BB8_27:
	cbz	x8, .Lunix_path_BB8_16
	ldrb	w11, [x9, x8]
	sub	x10, x8, #1
	mov	x8, x10
	cmp	w11, #47
	b.ne	.Lunix_path_BB8_27
	add	x20, x10, #1
	cmp	x20, x0
	b.eq	.Lunix_path_BB8_25
.Lunix_path_BB8_30:
	mov	x1, x20
	b	.Lunix_path_BB8_32
.Lunix_path_BB8_31:
	mov	x1, x2
	cbz	x2, .Lunix_path_BB8_17
.Lunix_path_BB8_32:
	subs	x2, x1, #1
	b.eq	.Lunix_path_BB8_45
	add	x8, x19, x2
	ldrb	w9, [x8]
	cmp	w9, #47
	b.eq	.Lunix_path_BB8_36
	cmp	w9, #46
	b.ne	.Lunix_path_BB8_17
	ldurb	w8, [x8, #-1]
	cmp	w8, #47
	b.ne	.Lunix_path_BB8_17
.Lunix_path_BB8_36:
	sub	x8, x20, x2
	cmp	x8, #8
	b.ne	.Lunix_path_BB8_31
	mov	x0, x19
	mov	x1, xzr
	bl	unix_path.filler.trimmed_blocks_len
	mov	x2, x0
	b	.Lunix_path_BB8_31
.Lunix_path_BB8_38:
	mov	x1, xzr
	mov	w0, #1
	mov	x8, x2
	cbz	x2, .Lunix_path_BB8_12
.Lunix_path_BB8_39:
	subs	x2, x8, #1
	b.eq	.Lunix_path_BB8_46
	add	x9, x19, x2
	ldrb	w10, [x9]
	cmp	w10, #47
	b.eq	.Lunix_path_BB8_43
	cmp	w10, #46
	b.ne	.Lunix_path_BB8_47
	ldurb	w9, [x9, #-1]
	cmp	w9, #47
	b.ne	.Lunix_path_BB8_47
.Lunix_path_BB8_43:
	sub	x8, x20, x2
	cmp	x8, #8
	b.ne	.Lunix_path_BB8_38
	mov	x0, x19
	mov	x1, xzr
	bl	unix_path.filler.trimmed_blocks_len
	mov	x2, x0
	b	.Lunix_path_BB8_38
.Lunix_path_BB8_45:
	mov	w0, w1
	ldp	x20, x19, [sp, #16]
	ldp	x29, x30, [sp], #32
	ret
.Lunix_path_BB8_46:
	mov	w1, #1
	mov	w0, w1
	ldp	x20, x19, [sp, #16]
	ldp	x29, x30, [sp], #32
	ret
.Lunix_path_BB8_47:
	mov	w0, #1
	mov	x1, x8
	ldp	x20, x19, [sp, #16]
	ldp	x29, x30, [sp], #32
	ret
.Lunix_path_func_end8:
	.size	unix_path.path.Path.parent_len, .Lunix_path_func_end8-unix_path.path.Path.parent_len
	.section	.rodata.cst16,"aM",@progbits,16
	.p2align	4, 0x0
.Lunix_path_CPI9_0:
	.byte	1
	.byte	2
	.byte	4
	.byte	8
	.byte	16
	.byte	32
	.byte	64
	.byte	128
	.byte	1
	.byte	2
	.byte	4
	.byte	8
	.byte	16
	.byte	32
	.byte	64
	.byte	128
	.section	.text.core.cmp.slices.groups_equal.i8.31.core.cmp.numbers.U8PartialEq.,"ax",@progbits
	.p2align	2
	.type	core.cmp.slices.groups_equal.i8.31.core.cmp.numbers.U8PartialEq.,@function
// core::cmp::slices::groups_equal::<i8,31'core::cmp::numbers::U8PartialEq{}>
core.cmp.slices.groups_equal.i8.31.core.cmp.numbers.U8PartialEq.:
	subs	x9, x1, #8
	b.hi	.Lunix_path_BB9_2
	sub	x8, x1, #4
	ldr	s0, [x0]
	ldr	s1, [x2]
	add	x9, x0, x8
	add	x8, x2, x8
	ld1	{ v0.s }[1], [x9]
	ld1	{ v1.s }[1], [x8]
	fmov	x8, d0
	fmov	x9, d1
	cmp	x8, x9
	cset	w8, ne
	eor	w0, w8, #0x1
	ret
.Lunix_path_BB9_2:
	subs	x8, x1, #32
	b.hi	.Lunix_path_BB9_4
	cmp	x9, #8
	mov	w8, #8
	mov	w10, #16
	csel	x8, x9, x8, lo
	cmp	x9, #16
	ldr	d0, [x0]
	ldr	d1, [x2]
	ldr	d2, [x0, x8]
	ldr	d3, [x2, x8]
	csel	x8, x9, x10, lo
	ldr	d5, [x2, x9]
	ldr	d4, [x0, x8]
	mov	v0.d[1], v2.d[0]
	mov	v1.d[1], v3.d[0]
	ldr	d2, [x2, x8]
	ldr	d3, [x0, x9]
	mov	v4.d[1], v3.d[0]
	mov	v2.d[1], v5.d[0]
	cmeq	v0.16b, v0.16b, v1.16b
	cmeq	v1.16b, v4.16b, v2.16b
	b	.Lunix_path_BB9_17
.Lunix_path_BB9_4:
	cmp	x1, #65
	b.hs	.Lunix_path_BB9_6
	ldp	q1, q0, [x0]
	add	x9, x2, x8
	ldp	q3, q2, [x2]
	add	x8, x0, x8
	ldp	q4, q5, [x9]
	cmeq	v1.16b, v1.16b, v3.16b
	cmeq	v0.16b, v0.16b, v2.16b
	ldp	q2, q3, [x8]
	mvn	v1.16b, v1.16b
	mvn	v0.16b, v0.16b
	cmeq	v2.16b, v2.16b, v4.16b
	cmeq	v3.16b, v3.16b, v5.16b
	orn	v0.16b, v0.16b, v3.16b
	orn	v1.16b, v1.16b, v2.16b
	orr	v0.16b, v1.16b, v0.16b
	umaxv	b0, v0.16b
	fmov	w8, s0
	and	w8, w8, #0x1
	eor	w0, w8, #0x1
	ret
.Lunix_path_BB9_6:
	and	x9, x1, #0xffffffffffffffc0
	add	x10, x0, #32
	add	x12, x2, #32
	mov	w11, #32
	mov	x13, x1
.Lunix_path_BB9_7:
	ldp	q0, q3, [x12, #-32]
	ldp	q1, q2, [x10, #-32]
	ldp	q4, q5, [x12], #64
	cmeq	v0.16b, v1.16b, v0.16b
	cmeq	v1.16b, v2.16b, v3.16b
	ldp	q2, q3, [x10], #64
	mvn	v0.16b, v0.16b
	mvn	v1.16b, v1.16b
	cmeq	v2.16b, v2.16b, v4.16b
	cmeq	v3.16b, v3.16b, v5.16b
	orn	v0.16b, v0.16b, v2.16b
	orn	v1.16b, v1.16b, v3.16b
	orr	v0.16b, v1.16b, v0.16b
	umaxv	b0, v0.16b
	fmov	w14, s0
	tbnz	w14, #0, .Lunix_path_BB9_10
	sub	x13, x13, #64
	add	x11, x11, #64
	cmp	x13, #64
	b.hs	.Lunix_path_BB9_7
	sub	x10, x1, x9
	cmp	x10, #32
	b.hs	.Lunix_path_BB9_11
	b	.Lunix_path_BB9_16
.Lunix_path_BB9_10:
	sub	x9, x11, #32
	sub	x10, x1, x9
	cmp	x10, #32
	b.lo	.Lunix_path_BB9_16
.Lunix_path_BB9_11:
	add	x11, x0, x9
	add	x9, x2, x9
.Lunix_path_BB9_12:
	ldp	q0, q1, [x11], #32
	ldp	q2, q3, [x9], #32
	adrp	x12, .Lunix_path_CPI9_0
	cmeq	v1.16b, v1.16b, v3.16b
	cmeq	v0.16b, v0.16b, v2.16b
	ldr	q2, [x12, :lo12:.Lunix_path_CPI9_0]
	bic	v1.16b, v2.16b, v1.16b
	bic	v0.16b, v2.16b, v0.16b
	ext	v2.16b, v1.16b, v1.16b, #8
	ext	v3.16b, v0.16b, v0.16b, #8
	zip1	v1.16b, v1.16b, v2.16b
	zip1	v0.16b, v0.16b, v3.16b
	addv	h1, v1.8h
	addv	h0, v0.8h
	fmov	w12, s1
	fmov	w13, s0
	orr	w12, w13, w12
	tst	w12, #0xffff
	b.ne	.Lunix_path_BB9_14
	sub	x10, x10, #32
	cmp	x10, #32
	b.hs	.Lunix_path_BB9_12
	b	.Lunix_path_BB9_16
.Lunix_path_BB9_14:
	cmp	x10, #31
	b.ls	.Lunix_path_BB9_16
	mov	w8, #1
	eor	w0, w8, #0x1
	ret
.Lunix_path_BB9_16:
	add	x9, x0, x8
	add	x8, x2, x8
	ldp	q0, q3, [x8]
	ldp	q1, q2, [x9]
	cmeq	v0.16b, v1.16b, v0.16b
	cmeq	v1.16b, v2.16b, v3.16b
.Lunix_path_BB9_17:
	mvn	v0.16b, v0.16b
	orn	v0.16b, v0.16b, v1.16b
	umaxv	b0, v0.16b
	fmov	w8, s0
	and	w8, w8, #0x1
	eor	w0, w8, #0x1
	ret
.Lunix_path_func_end9:
	.size	core.cmp.slices.groups_equal.i8.31.core.cmp.numbers.U8PartialEq., .Lunix_path_func_end9-core.cmp.slices.groups_equal.i8.31.core.cmp.numbers.U8PartialEq.
	.section	.rodata.cst16,"aM",@progbits,16
	.p2align	4, 0x0
.Lunix_path_CPI10_0:
	.byte	1
	.byte	2
	.byte	4
	.byte	8
	.byte	16
	.byte	32
	.byte	64
	.byte	128
	.byte	1
	.byte	2
	.byte	4
	.byte	8
	.byte	16
	.byte	32
	.byte	64
	.byte	128
	.section	.text.path_runs.edits.step.set_extension,"ax",@progbits
	.p2align	2
	.type	path_runs.edits.step.set_extension,@function
// path_runs::edits::step::set_extension
path_runs.edits.step.set_extension:
	stp	x29, x30, [sp, #-96]!
	stp	x22, x21, [sp, #64]
	mov	x22, x1
	mov	x1, x3
	stp	x20, x19, [sp, #80]
	mov	x19, x0
	mov	x0, x2
	stp	x28, x27, [sp, #16]
	mov	x29, sp
	mov	x20, x3
	stp	x26, x25, [sp, #32]
	mov	x21, x2
	stp	x24, x23, [sp, #48]
	bl	unix_path.stems.has_slash
	tbz	w0, #0, .Lunix_path_BB10_2
	mov	w1, wzr
	mov	w0, #1
	b	.Lunix_path_BB10_68
.Lunix_path_BB10_2:
	mov	x25, x19
	ldr	x23, [x22, #8]
	ldr	x24, [x19]
	ldr	x27, [x25, #8]!
	cmp	x23, x27
	mov	x8, x27
	b.hs	.Lunix_path_BB10_11
	mov	x8, x27
	b	.Lunix_path_BB10_5
.Lunix_path_BB10_4:
	cmp	x23, x2
	mov	x8, x2
	b.hs	.Lunix_path_BB10_11
.Lunix_path_BB10_5:
	subs	x2, x8, #1
	b.eq	.Lunix_path_BB10_11
	add	x9, x24, x2
	ldrb	w10, [x9]
	cmp	w10, #47
	b.eq	.Lunix_path_BB10_9
	cmp	w10, #46
	b.ne	.Lunix_path_BB10_11
	ldurb	w9, [x9, #-1]
	cmp	w9, #47
	b.ne	.Lunix_path_BB10_11
.Lunix_path_BB10_9:
	sub	x8, x27, x2
	cmp	x8, #8
	b.ne	.Lunix_path_BB10_4
	mov	x0, x24
	mov	x1, x23
	bl	unix_path.filler.trimmed_blocks_len
	mov	x2, x0
	b	.Lunix_path_BB10_4
.Lunix_path_BB10_11:
	cmp	x8, x23
	mov	x26, x8
	b.ne	.Lunix_path_BB10_22
	ldr	x26, [x22]
	sub	x8, x27, x8
	cmp	x8, #16
	b.hs	.Lunix_path_BB10_23
.Lunix_path_BB10_13:
	cbz	x26, .Lunix_path_BB10_24
.Lunix_path_BB10_14:
	add	x8, x24, x26
	ldurb	w9, [x8, #-1]
	cmp	w9, #47
	b.eq	.Lunix_path_BB10_21
	cmp	w9, #46
	b.ne	.Lunix_path_BB10_25
	cmp	x26, #1
	b.eq	.Lunix_path_BB10_21
	ldurb	w9, [x8, #-2]
	cmp	w9, #47
	b.eq	.Lunix_path_BB10_21
	cmp	w9, #46
	b.ne	.Lunix_path_BB10_25
	cmp	x26, #2
	b.eq	.Lunix_path_BB10_21
	ldurb	w9, [x8, #-3]
	cmp	w9, #47
	b.ne	.Lunix_path_BB10_25
.Lunix_path_BB10_21:
	mov	w27, wzr
	mov	x26, xzr
	b	.Lunix_path_BB10_46
.Lunix_path_BB10_22:
	sub	x8, x27, x8
	cmp	x8, #16
	b.lo	.Lunix_path_BB10_13
.Lunix_path_BB10_23:
	mov	x23, x27
	stp	x26, x27, [x22]
	cbnz	x26, .Lunix_path_BB10_14
.Lunix_path_BB10_24:
	mov	w27, wzr
	b	.Lunix_path_BB10_46
.Lunix_path_BB10_25:
	ldr	x28, [x22, #272]
	add	x9, x22, #16
	add	x10, x26, x24
	mov	w27, #1
	sub	x10, x10, #1
	ldr	x16, [x9, x28, lsl #3]
	cmp	x26, x16
	csel	x9, xzr, x16, lo
	sub	x11, x26, x9
.Lunix_path_BB10_26:
	cmp	x11, #15
	b.ls	.Lunix_path_BB10_29
	movi	v0.16b, #46
	movi	v1.16b, #47
	ldur	q2, [x10, #-15]
	adrp	x12, .Lunix_path_CPI10_0
	mov	w14, #64
	sub	x11, x11, #16
	sub	x10, x10, #16
	cmeq	v0.16b, v2.16b, v0.16b
	cmeq	v1.16b, v2.16b, v1.16b
	ldr	q2, [x12, :lo12:.Lunix_path_CPI10_0]
	and	v0.16b, v0.16b, v2.16b
	and	v1.16b, v1.16b, v2.16b
	addp	v0.16b, v0.16b, v0.16b
	addp	v1.16b, v1.16b, v1.16b
	addp	v0.16b, v0.16b, v0.16b
	addp	v1.16b, v1.16b, v1.16b
	addp	v0.16b, v0.16b, v0.16b
	addp	v1.16b, v1.16b, v1.16b
	umov	w12, v0.h[0]
	umov	w13, v1.h[0]
	clz	x12, x12
	clz	x13, x13
	sub	x15, x14, x12
	sub	x14, x14, x13
	cmp	x15, x14
	csel	x14, x15, x14, hi
	cbz	x14, .Lunix_path_BB10_26
	mov	w10, #64
	sub	x13, x10, x13
	sub	x10, x10, x12
	cmp	x13, x10
	csel	x10, x13, x10, hi
	add	x11, x10, x11
	b	.Lunix_path_BB10_32
.Lunix_path_BB10_29:
	add	x11, x11, #1
.Lunix_path_BB10_30:
	subs	x11, x11, #1
	b.eq	.Lunix_path_BB10_35
	ldrb	w12, [x10], #-1
	and	w12, w12, #0xfe
	cmp	w12, #46
	b.ne	.Lunix_path_BB10_30
.Lunix_path_BB10_32:
	add	x10, x11, x9
	subs	x9, x10, #1
	b.eq	.Lunix_path_BB10_35
	ldrb	w11, [x24, x9]
	cmp	w11, #47
	b.eq	.Lunix_path_BB10_35
	add	x10, x24, x10
	ldurb	w10, [x10, #-2]
	cmp	w10, #47
	csel	x9, x26, x9, eq
	cmp	x9, x26
	b.ne	.Lunix_path_BB10_43
.Lunix_path_BB10_35:
	cmp	x26, #64
	b.lo	.Lunix_path_BB10_46
	sub	x0, x8, #64
	mov	w1, #64
	mov	x24, x16
	bl	unix_path.stems.has_slash
	tbnz	w0, #0, .Lunix_path_BB10_46
	subs	x8, x26, x24
	add	x11, x22, #16
	b.lo	.Lunix_path_BB10_46
	cmp	x8, #64
	b.lo	.Lunix_path_BB10_46
	cbz	x28, .Lunix_path_BB10_45
	add	x8, x22, x28, lsl #3
	add	x8, x8, #16
.Lunix_path_BB10_41:
	ldr	x9, [x8]
	ldr	x10, [x8, #-8]!
	subs	x10, x9, x10
	csel	x10, xzr, x10, lo
	subs	x9, x26, x9
	csel	x9, xzr, x9, lo
	cmp	x9, x10, lsr #2
	b.ls	.Lunix_path_BB10_44
	subs	x28, x28, #1
	str	x28, [x22, #272]
	b.ne	.Lunix_path_BB10_41
	b	.Lunix_path_BB10_45
.Lunix_path_BB10_43:
	mov	x26, x9
	b	.Lunix_path_BB10_46
.Lunix_path_BB10_44:
	cmp	x28, #30
	b.hi	.Lunix_path_BB10_46
.Lunix_path_BB10_45:
	add	x8, x28, #1
	str	x8, [x22, #272]
	str	x26, [x11, x8, lsl #3]
.Lunix_path_BB10_46:
	and	w8, w27, #0xff
	cmp	w8, #1
	b.ne	.Lunix_path_BB10_65
	ldr	x9, [x22, #272]
	add	x8, x22, x9, lsl #3
	ldr	x10, [x8, #16]
	cmp	x26, x10
	b.hs	.Lunix_path_BB10_50
	add	x8, x8, #8
	sub	x9, x9, #1
.Lunix_path_BB10_49:
	str	x9, [x22, #272]
	sub	x9, x9, #1
	ldr	x10, [x8], #-8
	cmp	x26, x10
	b.lo	.Lunix_path_BB10_49
.Lunix_path_BB10_50:
	cmp	x26, x23
	b.hs	.Lunix_path_BB10_52
	stp	xzr, xzr, [x22]
.Lunix_path_BB10_52:
	cmp	x20, #0
	ldp	x8, x10, [x19, #8]
	cinc	x9, x20, ne
	add	x9, x9, x26
	subs	x9, x9, x8
	csel	x1, xzr, x9, lo
	sub	x9, x10, x8
	cmp	x1, x9
	b.hi	.Lunix_path_BB10_71
	cmp	x8, x26
	b.ls	.Lunix_path_BB10_55
.Lunix_path_BB10_54:
	mov	x8, x26
	str	x26, [x25]
.Lunix_path_BB10_55:
	ldr	x22, [x19, #16]
	cbz	x20, .Lunix_path_BB10_58
	cmp	x22, x8
	b.eq	.Lunix_path_BB10_83
.Lunix_path_BB10_57:
	ldr	x9, [x19]
	mov	w10, #46
	strb	w10, [x9, x8]
	add	x8, x8, #1
	stp	x9, x8, [x19]
	str	x22, [x19, #16]
.Lunix_path_BB10_58:
	sub	x9, x22, x8
	cmp	x20, x9
	b.hi	.Lunix_path_BB10_80
.Lunix_path_BB10_59:
	ldr	x23, [x19]
	add	x24, x8, x20
	stp	xzr, xzr, [x25]
	add	x0, x23, x8
	sub	x9, x0, x21
	cmp	x9, x20
	b.hs	.Lunix_path_BB10_66
	cmp	x20, #8
	b.lo	.Lunix_path_BB10_62
	add	x9, x8, x23
	sub	x9, x9, x21
	cmp	x9, #32
	b.hs	.Lunix_path_BB10_69
.Lunix_path_BB10_62:
	mov	x9, xzr
.Lunix_path_BB10_63:
	add	x10, x9, x8
	sub	x8, x20, x9
	add	x9, x21, x9
	add	x10, x23, x10
.Lunix_path_BB10_64:
	ldrb	w11, [x9], #1
	subs	x8, x8, #1
	strb	w11, [x10], #1
	b.ne	.Lunix_path_BB10_64
	b	.Lunix_path_BB10_67
.Lunix_path_BB10_65:
	mov	w1, wzr
	mov	w0, wzr
	b	.Lunix_path_BB10_68
.Lunix_path_BB10_66:
	mov	x1, x21
	mov	x2, x20
	bl	memmove
.Lunix_path_BB10_67:
	mov	w0, wzr
	mov	w1, #1
	stp	x23, x24, [x19]
	str	x22, [x19, #16]
.Lunix_path_BB10_68:
	ldp	x20, x19, [sp, #80]
	ldp	x22, x21, [sp, #64]
	ldp	x24, x23, [sp, #48]
	ldp	x26, x25, [sp, #32]
	ldp	x28, x27, [sp, #16]
	ldp	x29, x30, [sp], #96
	ret
.Lunix_path_BB10_69:
	cmp	x20, #32
	b.hs	.Lunix_path_BB10_73
	mov	x9, xzr
	b	.Lunix_path_BB10_77
.Lunix_path_BB10_71:
	mov	x0, x19
	bl	std_alloc.vec.Vec.grow_amortized.2c3341b61b28ed12.
	cbz	w0, .Lunix_path_BB10_82
	ldr	x8, [x25]
	cmp	x8, x26
	b.hi	.Lunix_path_BB10_54
	b	.Lunix_path_BB10_55
.Lunix_path_BB10_73:
	add	x12, x8, x23
	and	x10, x20, #0x18
	and	x9, x20, #0xffffffffffffffe0
	add	x11, x21, #16
	add	x12, x12, #16
	and	x13, x20, #0xffffffffffffffe0
.Lunix_path_BB10_74:
	ldp	q0, q1, [x11, #-16]
	subs	x13, x13, #32
	add	x11, x11, #32
	stp	q0, q1, [x12, #-16]
	add	x12, x12, #32
	b.ne	.Lunix_path_BB10_74
	cmp	x20, x9
	b.eq	.Lunix_path_BB10_67
	cbz	x10, .Lunix_path_BB10_63
.Lunix_path_BB10_77:
	mov	x11, x9
	and	x9, x20, #0xfffffffffffffff8
	add	x12, x8, x11
	sub	x10, x11, x9
	add	x11, x21, x11
	add	x12, x23, x12
.Lunix_path_BB10_78:
	ldr	d0, [x11], #8
	adds	x10, x10, #8
	str	d0, [x12], #8
	b.ne	.Lunix_path_BB10_78
	cmp	x20, x9
	b.eq	.Lunix_path_BB10_67
	b	.Lunix_path_BB10_63
.Lunix_path_BB10_80:
	mov	x0, x19
	mov	x1, x20
	bl	std_alloc.vec.Vec.grow_amortized.2c3341b61b28ed12.
	cbz	w0, .Lunix_path_BB10_82
	ldp	x8, x22, [x19, #8]
	b	.Lunix_path_BB10_59
.Lunix_path_BB10_82:
	mov	w1, #1
	mov	w0, #1
	b	.Lunix_path_BB10_68
.Lunix_path_BB10_83:
	mov	x0, x19
	mov	w1, #1
	bl	std_alloc.vec.Vec.grow_amortized.2c3341b61b28ed12.
	mov	w1, #1
	mov	w8, w0
	mov	w0, #1
	cbz	w8, .Lunix_path_BB10_68
	ldp	x8, x22, [x19, #8]
	b	.Lunix_path_BB10_57
.Lunix_path_func_end10:
	.size	path_runs.edits.step.set_extension, .Lunix_path_func_end10-path_runs.edits.step.set_extension
	.section	.rodata.cst16,"aM",@progbits,16
	.p2align	4, 0x0
.Lunix_path_CPI11_0:
	.byte	1
	.byte	2
	.byte	4
	.byte	8
	.byte	16
	.byte	32
	.byte	64
	.byte	128
	.byte	1
	.byte	2
	.byte	4
	.byte	8
	.byte	16
	.byte	32
	.byte	64
	.byte	128
	.section	.text.unix_path.stems.has_slash,"ax",@progbits
	.p2align	2
	.type	unix_path.stems.has_slash,@function
// unix_path::stems::has_slash
unix_path.stems.has_slash:
	cmp	x1, #3
	b.hi	.Lunix_path_BB11_3
	cbz	x1, .Lunix_path_BB11_7
	lsr	x8, x1, #1
	ldrb	w9, [x0]
	add	x10, x0, x1
	ldrb	w8, [x0, x8]
	cmp	w9, #47
	ldurb	w9, [x10, #-1]
	mov	w10, #47
	ccmp	w8, w10, #4, ne
	ccmp	w9, w10, #4, ne
	cset	w0, eq
	ret
.Lunix_path_BB11_3:
	subs	x8, x1, #8
	b.hi	.Lunix_path_BB11_5
	add	x8, x0, x1
	ldr	s0, [x0]
	movi	v1.8b, #47
	sub	x8, x8, #4
	ld1	{ v0.s }[1], [x8]
	cmeq	v0.8b, v0.8b, v1.8b
	umaxv	b0, v0.8b
	fmov	w8, s0
	and	w0, w8, #0x1
	ret
.Lunix_path_BB11_5:
	cmp	x1, #32
	b.hi	.Lunix_path_BB11_8
	cmp	x8, #8
	mov	w9, #8
	mov	w10, #16
	csel	x9, x8, x9, lo
	cmp	x8, #16
	ldr	d0, [x0]
	csel	x10, x8, x10, lo
	ldr	d1, [x0, x9]
	ldr	d3, [x0, x8]
	ldr	d2, [x0, x10]
	mov	v0.d[1], v1.d[0]
	movi	v1.16b, #47
	mov	v2.d[1], v3.d[0]
	cmeq	v0.16b, v0.16b, v1.16b
	cmeq	v2.16b, v2.16b, v1.16b
	orr	v0.16b, v0.16b, v2.16b
	umaxv	b0, v0.16b
	fmov	w8, s0
	and	w0, w8, #0x1
	ret
.Lunix_path_BB11_7:
	mov	w0, wzr
	ret
.Lunix_path_BB11_8:
	cmp	x1, #65
	b.hs	.Lunix_path_BB11_10
	movi	v0.16b, #47
	add	x8, x0, x1
	ldp	q1, q2, [x0]
	ldp	q4, q3, [x8, #-32]
	cmeq	v1.16b, v1.16b, v0.16b
	cmeq	v2.16b, v2.16b, v0.16b
	cmeq	v4.16b, v4.16b, v0.16b
	cmeq	v0.16b, v3.16b, v0.16b
	orr	v0.16b, v2.16b, v0.16b
	orr	v1.16b, v1.16b, v4.16b
	orr	v0.16b, v1.16b, v0.16b
	umaxv	b0, v0.16b
	fmov	w8, s0
	and	w0, w8, #0x1
	ret
.Lunix_path_BB11_10:
	mov	x8, xzr
	mov	x9, x1
.Lunix_path_BB11_11:
	movi	v1.16b, #47
	add	x10, x0, x8
	adrp	x11, .Lunix_path_CPI11_0
	ldp	q3, q2, [x10, #32]
	ldr	q0, [x11, :lo12:.Lunix_path_CPI11_0]
	ldp	q5, q4, [x10]
	cmeq	v3.16b, v3.16b, v1.16b
	cmeq	v2.16b, v2.16b, v1.16b
	cmeq	v5.16b, v5.16b, v1.16b
	cmeq	v1.16b, v4.16b, v1.16b
	and	v3.16b, v3.16b, v0.16b
	and	v2.16b, v2.16b, v0.16b
	and	v4.16b, v5.16b, v0.16b
	and	v1.16b, v1.16b, v0.16b
	ext	v5.16b, v3.16b, v3.16b, #8
	ext	v7.16b, v2.16b, v2.16b, #8
	ext	v6.16b, v4.16b, v4.16b, #8
	ext	v16.16b, v1.16b, v1.16b, #8
	zip1	v3.16b, v3.16b, v5.16b
	zip1	v2.16b, v2.16b, v7.16b
	zip1	v4.16b, v4.16b, v6.16b
	zip1	v1.16b, v1.16b, v16.16b
	addv	h3, v3.8h
	addv	h2, v2.8h
	addv	h4, v4.8h
	addv	h1, v1.8h
	fmov	w10, s3
	fmov	w12, s2
	fmov	w11, s4
	fmov	w13, s1
	orr	w10, w11, w10
	orr	w11, w13, w12
	orr	w10, w10, w11
	tst	w10, #0xffff
	b.ne	.Lunix_path_BB11_14
	sub	x9, x9, #64
	add	x8, x8, #64
	cmp	x9, #63
	b.hi	.Lunix_path_BB11_11
	and	x8, x1, #0xffffffffffffffc0
.Lunix_path_BB11_14:
	sub	x9, x1, x8
	cmp	x9, #32
	b.lo	.Lunix_path_BB11_20
	add	x8, x0, x8
.Lunix_path_BB11_16:
	movi	v1.16b, #47
	ldp	q2, q3, [x8], #32
	cmeq	v3.16b, v3.16b, v1.16b
	cmeq	v1.16b, v2.16b, v1.16b
	and	v2.16b, v3.16b, v0.16b
	and	v1.16b, v1.16b, v0.16b
	ext	v3.16b, v2.16b, v2.16b, #8
	ext	v4.16b, v1.16b, v1.16b, #8
	zip1	v2.16b, v2.16b, v3.16b
	zip1	v1.16b, v1.16b, v4.16b
	addv	h2, v2.8h
	addv	h1, v1.8h
	fmov	w10, s2
	fmov	w11, s1
	orr	w10, w11, w10
	tst	w10, #0xffff
	b.ne	.Lunix_path_BB11_18
	sub	x9, x9, #32
	cmp	x9, #32
	b.hs	.Lunix_path_BB11_16
	b	.Lunix_path_BB11_20
.Lunix_path_BB11_18:
	cmp	x9, #31
	b.ls	.Lunix_path_BB11_20
	mov	w0, #1
	ret
.Lunix_path_BB11_20:
	movi	v0.16b, #47
	add	x8, x0, x1
	ldp	q1, q2, [x8, #-32]
	cmeq	v2.16b, v2.16b, v0.16b
	cmeq	v0.16b, v1.16b, v0.16b
	orr	v0.16b, v0.16b, v2.16b
	umaxv	b0, v0.16b
	fmov	w8, s0
	and	w0, w8, #0x1
	ret
.Lunix_path_func_end11:
	.size	unix_path.stems.has_slash, .Lunix_path_func_end11-unix_path.stems.has_slash
	.section	.text.path_runs.edits.step.add_extension,"ax",@progbits
	.p2align	2
	.type	path_runs.edits.step.add_extension,@function
// path_runs::edits::step::add_extension
path_runs.edits.step.add_extension:
	stp	x29, x30, [sp, #-96]!
	stp	x22, x21, [sp, #64]
	mov	x22, x1
	mov	x1, x3
	stp	x20, x19, [sp, #80]
	mov	x19, x0
	mov	x0, x2
	str	x27, [sp, #16]
	mov	x29, sp
	mov	x20, x3
	stp	x26, x25, [sp, #32]
	mov	x21, x2
	stp	x24, x23, [sp, #48]
	bl	unix_path.stems.has_slash
	tbz	w0, #0, .Lunix_path_BB12_2
	mov	w1, wzr
	mov	w0, #1
	b	.Lunix_path_BB12_24
.Lunix_path_BB12_2:
	mov	x25, x19
	ldr	x23, [x22, #8]
	ldr	x24, [x19]
	ldr	x27, [x25, #8]!
	cmp	x23, x27
	mov	x8, x27
	b.hs	.Lunix_path_BB12_11
	mov	x8, x27
	b	.Lunix_path_BB12_5
.Lunix_path_BB12_4:
	cmp	x23, x2
	mov	x8, x2
	b.hs	.Lunix_path_BB12_11
.Lunix_path_BB12_5:
	subs	x2, x8, #1
	b.eq	.Lunix_path_BB12_11
	add	x9, x24, x2
	ldrb	w10, [x9]
	cmp	w10, #47
	b.eq	.Lunix_path_BB12_9
	cmp	w10, #46
	b.ne	.Lunix_path_BB12_11
	ldurb	w9, [x9, #-1]
	cmp	w9, #47
	b.ne	.Lunix_path_BB12_11
.Lunix_path_BB12_9:
	sub	x8, x27, x2
	cmp	x8, #8
	b.ne	.Lunix_path_BB12_4
	mov	x0, x24
	mov	x1, x23
	bl	unix_path.filler.trimmed_blocks_len
	mov	x2, x0
	b	.Lunix_path_BB12_4
.Lunix_path_BB12_11:
	cmp	x8, x23
	mov	x26, x8
	b.ne	.Lunix_path_BB12_14
	ldr	x26, [x22]
	sub	x8, x27, x8
	cmp	x8, #16
	b.hs	.Lunix_path_BB12_15
.Lunix_path_BB12_13:
	cbnz	x26, .Lunix_path_BB12_16
	b	.Lunix_path_BB12_23
.Lunix_path_BB12_14:
	sub	x8, x27, x8
	cmp	x8, #16
	b.lo	.Lunix_path_BB12_13
.Lunix_path_BB12_15:
	mov	x23, x27
	stp	x26, x27, [x22]
	cbz	x26, .Lunix_path_BB12_23
.Lunix_path_BB12_16:
	add	x8, x24, x26
	ldurb	w9, [x8, #-1]
	cmp	w9, #47
	b.eq	.Lunix_path_BB12_23
	cmp	w9, #46
	b.ne	.Lunix_path_BB12_25
	cmp	x26, #1
	b.eq	.Lunix_path_BB12_23
	ldurb	w9, [x8, #-2]
	cmp	w9, #47
	b.eq	.Lunix_path_BB12_23
	cmp	w9, #46
	b.ne	.Lunix_path_BB12_25
	cmp	x26, #2
	b.eq	.Lunix_path_BB12_23
	ldurb	w8, [x8, #-3]
	cmp	w8, #47
	b.ne	.Lunix_path_BB12_25
.Lunix_path_BB12_23:
	mov	w1, wzr
	mov	w0, wzr
.Lunix_path_BB12_24:
	ldp	x20, x19, [sp, #80]
	ldr	x27, [sp, #16]
	ldp	x22, x21, [sp, #64]
	ldp	x24, x23, [sp, #48]
	ldp	x26, x25, [sp, #32]
	ldp	x29, x30, [sp], #96
	ret
.Lunix_path_BB12_25:
	cbz	x20, .Lunix_path_BB12_42
	ldr	x9, [x22, #272]
	add	x8, x22, x9, lsl #3
	ldr	x10, [x8, #16]
	cmp	x26, x10
	b.hs	.Lunix_path_BB12_29
	add	x8, x8, #8
	sub	x9, x9, #1
.Lunix_path_BB12_28:
	str	x9, [x22, #272]
	sub	x9, x9, #1
	ldr	x10, [x8], #-8
	cmp	x26, x10
	b.lo	.Lunix_path_BB12_28
.Lunix_path_BB12_29:
	cmp	x26, x23
	b.hs	.Lunix_path_BB12_31
	stp	xzr, xzr, [x22]
.Lunix_path_BB12_31:
	ldp	x9, x10, [x19, #8]
	add	x8, x20, x26
	add	x8, x8, #1
	subs	x8, x8, x9
	csel	x1, xzr, x8, lo
	sub	x8, x10, x9
	cmp	x1, x8
	b.hi	.Lunix_path_BB12_45
	cmp	x9, x26
	b.ls	.Lunix_path_BB12_34
.Lunix_path_BB12_33:
	mov	x9, x26
	str	x26, [x25]
.Lunix_path_BB12_34:
	ldr	x22, [x19, #16]
	cmp	x22, x9
	b.eq	.Lunix_path_BB12_54
.Lunix_path_BB12_35:
	ldr	x23, [x19]
	add	x8, x9, #1
	mov	w10, #46
	strb	w10, [x23, x9]
	sub	x9, x22, x8
	cmp	x20, x9
	stp	x23, x8, [x19]
	str	x22, [x19, #16]
	b.hi	.Lunix_path_BB12_56
	add	x0, x23, x8
	add	x24, x8, x20
	stp	xzr, xzr, [x25]
	sub	x9, x0, x21
	cmp	x9, x20
	b.hs	.Lunix_path_BB12_58
.Lunix_path_BB12_37:
	cmp	x20, #8
	b.lo	.Lunix_path_BB12_39
	add	x9, x8, x23
	sub	x9, x9, x21
	cmp	x9, #32
	b.hs	.Lunix_path_BB12_43
.Lunix_path_BB12_39:
	mov	x9, xzr
.Lunix_path_BB12_40:
	add	x10, x9, x8
	sub	x8, x20, x9
	add	x9, x21, x9
	add	x10, x23, x10
.Lunix_path_BB12_41:
	ldrb	w11, [x9], #1
	subs	x8, x8, #1
	strb	w11, [x10], #1
	b.ne	.Lunix_path_BB12_41
	b	.Lunix_path_BB12_59
.Lunix_path_BB12_42:
	mov	w0, wzr
	mov	w1, #1
	b	.Lunix_path_BB12_24
.Lunix_path_BB12_43:
	cmp	x20, #32
	b.hs	.Lunix_path_BB12_47
	mov	x9, xzr
	b	.Lunix_path_BB12_51
.Lunix_path_BB12_45:
	mov	x0, x19
	bl	std_alloc.vec.Vec.grow_amortized.2c3341b61b28ed12.
	cbz	w0, .Lunix_path_BB12_60
	ldr	x9, [x25]
	cmp	x9, x26
	b.hi	.Lunix_path_BB12_33
	b	.Lunix_path_BB12_34
.Lunix_path_BB12_47:
	add	x12, x8, x23
	and	x10, x20, #0x18
	and	x9, x20, #0xffffffffffffffe0
	add	x11, x21, #16
	add	x12, x12, #16
	and	x13, x20, #0xffffffffffffffe0
.Lunix_path_BB12_48:
	ldp	q0, q1, [x11, #-16]
	subs	x13, x13, #32
	add	x11, x11, #32
	stp	q0, q1, [x12, #-16]
	add	x12, x12, #32
	b.ne	.Lunix_path_BB12_48
	cmp	x20, x9
	b.eq	.Lunix_path_BB12_59
	cbz	x10, .Lunix_path_BB12_40
.Lunix_path_BB12_51:
	mov	x11, x9
	and	x9, x20, #0xfffffffffffffff8
	add	x12, x8, x11
	sub	x10, x11, x9
	add	x11, x21, x11
	add	x12, x23, x12
.Lunix_path_BB12_52:
	ldr	d0, [x11], #8
	adds	x10, x10, #8
	str	d0, [x12], #8
	b.ne	.Lunix_path_BB12_52
	cmp	x20, x9
	b.eq	.Lunix_path_BB12_59
	b	.Lunix_path_BB12_40
.Lunix_path_BB12_54:
	mov	x0, x19
	mov	w1, #1
	bl	std_alloc.vec.Vec.grow_amortized.2c3341b61b28ed12.
	mov	w1, #1
	mov	w8, w0
	mov	w0, #1
	cbz	w8, .Lunix_path_BB12_24
	ldp	x9, x22, [x19, #8]
	b	.Lunix_path_BB12_35
.Lunix_path_BB12_56:
	mov	x0, x19
	mov	x1, x20
	bl	std_alloc.vec.Vec.grow_amortized.2c3341b61b28ed12.
	cbz	w0, .Lunix_path_BB12_60
	ldp	x8, x22, [x19, #8]
	ldr	x23, [x19]
	add	x0, x23, x8
	add	x24, x8, x20
	stp	xzr, xzr, [x25]
	sub	x9, x0, x21
	cmp	x9, x20
	b.lo	.Lunix_path_BB12_37
.Lunix_path_BB12_58:
	mov	x1, x21
	mov	x2, x20
	bl	memmove
.Lunix_path_BB12_59:
	mov	w0, wzr
	mov	w1, #1
	stp	x23, x24, [x19]
	str	x22, [x19, #16]
	b	.Lunix_path_BB12_24
.Lunix_path_BB12_60:
	mov	w1, #1
	mov	w0, #1
	b	.Lunix_path_BB12_24
.Lunix_path_func_end12:
	.size	path_runs.edits.step.add_extension, .Lunix_path_func_end12-path_runs.edits.step.add_extension
	.section	.text.unlikely.std_alloc.vec.Vec.grow_amortized.d6e9c2ff9b21f748.,"ax",@progbits
	.p2align	2
	.type	std_alloc.vec.Vec.grow_amortized.d6e9c2ff9b21f748.,@function
// std_alloc::vec::Vec::grow_amortized::<#d6e9c2ff9b21f748>
std_alloc.vec.Vec.grow_amortized.d6e9c2ff9b21f748.:
	ldr	x8, [x0, #8]
	cmn	x8, #1
	b.eq	.Lunix_path_BB13_5
	stp	x29, x30, [sp, #-32]!
	ldr	x9, [x0, #16]
	cmp	x8, #3
	mov	w10, #3
	csel	x11, x8, x10, hi
	stp	x20, x19, [sp, #16]
	mov	x29, sp
	lsl	x10, x9, #1
	add	x12, x11, #1
	lsr	x13, x9, #62
	cmp	x12, x10
	csinc	x10, x10, x11, ls
	cmp	x13, #0
	csinc	x19, x10, x11, eq
	mov	x11, #6148914691236517205
	movk	x11, #1365, lsl #48
	cmp	x19, x11
	b.hi	.Lunix_path_BB13_7
	cbz	x9, .Lunix_path_BB13_6
	add	x8, x8, x8, lsl #1
	add	x9, x19, x19, lsl #1
	mov	x20, x0
	ldr	x0, [x0]
	mov	w3, #8
	lsl	x1, x8, #3
	lsl	x2, x9, #3
	bl	rattle_realloc
	tbz	w0, #0, .Lunix_path_BB13_7
.Lunix_path_BB13_4:
	mov	w0, #1
	str	x1, [x20]
	str	x19, [x20, #16]
	ldp	x20, x19, [sp, #16]
	ldp	x29, x30, [sp], #32
	ret
.Lunix_path_BB13_5:
	mov	w0, wzr
	ret
.Lunix_path_BB13_6:
	add	x8, x10, x10, lsl #1
	mov	x20, x0
	mov	w1, #8
	lsl	x0, x8, #3
	bl	rattle_alloc
	tbnz	w0, #0, .Lunix_path_BB13_4
.Lunix_path_BB13_7:
	mov	w0, wzr
	ldp	x20, x19, [sp, #16]
	ldp	x29, x30, [sp], #32
	ret
.Lunix_path_func_end13:
	.size	std_alloc.vec.Vec.grow_amortized.d6e9c2ff9b21f748., .Lunix_path_func_end13-std_alloc.vec.Vec.grow_amortized.d6e9c2ff9b21f748.
	.section	.text.pathtool.tables.insert_path,"ax",@progbits
	.p2align	2
	.type	pathtool.tables.insert_path,@function
// pathtool::tables::insert_path
pathtool.tables.insert_path:
	sub	sp, sp, #448
	stp	x24, x23, [sp, #400]
	mov	x23, x0
	stp	x20, x19, [sp, #432]
	mov	x20, x2
	stp	x29, x30, [sp, #352]
	add	x29, sp, #352
	stp	x28, x27, [sp, #368]
	stp	x26, x25, [sp, #384]
	stp	x22, x21, [sp, #416]
	cbz	x2, .Lunix_path_BB14_5
	tbnz	x20, #63, .Lunix_path_BB14_39
	mov	x19, x1
	mov	x0, x20
	mov	w1, #1
	mov	w22, #1
	bl	rattle_alloc
	tbz	w0, #0, .Lunix_path_BB14_40
	mov	x21, x1
	mov	x1, x19
	sub	x9, x21, x19
	cmp	x9, x20
	b.lo	.Lunix_path_BB14_6
.Lunix_path_BB14_4:
	mov	x0, x21
	mov	x2, x20
	bl	memmove
	b	.Lunix_path_BB14_19
.Lunix_path_BB14_5:
	sub	x21, x29, #9
	sub	x9, x21, x1
	cmp	x9, x20
	b.hs	.Lunix_path_BB14_4
.Lunix_path_BB14_6:
	cmp	x20, #8
	mov	x8, xzr
	b.lo	.Lunix_path_BB14_17
	cmp	x9, #32
	b.lo	.Lunix_path_BB14_17
	cmp	x20, #32
	b.hs	.Lunix_path_BB14_10
	mov	x8, xzr
	b	.Lunix_path_BB14_14
.Lunix_path_BB14_10:
	and	x9, x20, #0x18
	and	x8, x20, #0xffffffffffffffe0
	add	x10, x1, #16
	add	x11, x21, #16
	and	x12, x20, #0xffffffffffffffe0
.Lunix_path_BB14_11:
	ldp	q0, q1, [x10, #-16]
	subs	x12, x12, #32
	add	x10, x10, #32
	stp	q0, q1, [x11, #-16]
	add	x11, x11, #32
	b.ne	.Lunix_path_BB14_11
	cmp	x20, x8
	b.eq	.Lunix_path_BB14_19
	cbz	x9, .Lunix_path_BB14_17
.Lunix_path_BB14_14:
	mov	x11, x8
	and	x8, x20, #0xfffffffffffffff8
	sub	x9, x11, x8
	add	x10, x1, x11
	add	x11, x21, x11
.Lunix_path_BB14_15:
	ldr	d0, [x10], #8
	adds	x9, x9, #8
	str	d0, [x11], #8
	b.ne	.Lunix_path_BB14_15
	cmp	x20, x8
	b.eq	.Lunix_path_BB14_19
.Lunix_path_BB14_17:
	sub	x9, x20, x8
	add	x10, x1, x8
	add	x8, x21, x8
.Lunix_path_BB14_18:
	ldrb	w11, [x10], #1
	subs	x9, x9, #1
	strb	w11, [x8], #1
	b.ne	.Lunix_path_BB14_18
.Lunix_path_BB14_19:
	ldrb	w8, [x23]
	cmp	w8, #1
	b.ne	.Lunix_path_BB14_21
	ldr	x24, [x23, #8]
	b	.Lunix_path_BB14_23
.Lunix_path_BB14_21:
	mov	w0, #368
	mov	w1, #8
	bl	rattle_alloc
	tbz	w0, #0, .Lunix_path_BB14_37
	str	wzr, [x1]
	mov	x24, x1
	mov	w9, #1
	ldrb	w8, [x23]
	stp	x9, x1, [x23]
	cmp	w8, #1
	b.eq	.Lunix_path_BB14_86
.Lunix_path_BB14_23:
	ldrh	w10, [x24, #2]
	mov	w8, #15
	mov	x25, xzr
	add	x9, x23, #8
	sub	x28, x8, x10
	neg	x26, x10
	mov	x8, x24
	stp	x23, x10, [sp, #16]
	stp	x9, xzr, [sp, #32]
	stp	x24, x28, [sp]
	ldrh	w23, [x8]
	mov	x22, x8
	cbnz	x23, .Lunix_path_BB14_27
.Lunix_path_BB14_24:
	mov	x27, xzr
.Lunix_path_BB14_25:
	ldrh	w8, [x22, #2]
	add	x25, x27, x25, lsl #4
	add	x28, x28, #1
	cbz	w8, .Lunix_path_BB14_36
	add	x8, x22, x27, lsl #3
	add	x26, x26, #1
	str	x27, [sp, #40]
	mov	x24, x22
	ldr	x8, [x8, #368]
	ldrh	w23, [x8]
	mov	x22, x8
	cbz	x23, .Lunix_path_BB14_24
.Lunix_path_BB14_27:
	mov	x27, xzr
	add	x19, x22, #16
.Lunix_path_BB14_28:
	ldp	x2, x3, [x19, #-8]
	mov	x0, x21
	mov	x1, x20
	bl	unix_path.order.PathOrd.cmp
	and	w8, w0, #0xff
	cmp	w8, #2
	b.ne	.Lunix_path_BB14_31
	add	x27, x27, #1
	add	x19, x19, #24
	cmp	x23, x27
	b.ne	.Lunix_path_BB14_28
	mov	x27, x23
	b	.Lunix_path_BB14_25
.Lunix_path_BB14_31:
	cbz	w8, .Lunix_path_BB14_25
	ldr	x8, [sp, #40]
	ldr	x9, [sp, #24]
	add	x8, x24, x8, lsl #3
	add	x9, x9, x28
	cmp	x9, #15
	ldr	x9, [sp, #32]
	add	x8, x8, #368
	csel	x8, x9, x8, eq
	and	x9, x27, #0xf
	ldr	x8, [x8]
	ldrh	w8, [x8]
	cmp	x9, x8
	b.hs	.Lunix_path_BB14_86
	cbz	x20, .Lunix_path_BB14_35
	mov	x0, x21
	bl	rattle_dealloc
.Lunix_path_BB14_35:
	mov	w22, wzr
	b	.Lunix_path_BB14_40
.Lunix_path_BB14_36:
	ldr	x23, [sp, #16]
	mov	x9, #9223372036854775806
	ldr	x8, [x23, #16]
	cmp	x8, x9
	b.ls	.Lunix_path_BB14_41
.Lunix_path_BB14_37:
	cbz	x20, .Lunix_path_BB14_39
	mov	x0, x21
	bl	rattle_dealloc
.Lunix_path_BB14_39:
	mov	w22, #1
.Lunix_path_BB14_40:
	mov	w0, w22
	ldp	x20, x19, [sp, #432]
	ldp	x22, x21, [sp, #416]
	ldp	x24, x23, [sp, #400]
	ldp	x26, x25, [sp, #384]
	ldp	x28, x27, [sp, #368]
	ldp	x29, x30, [sp, #352]
	add	sp, sp, #448
	ret
.Lunix_path_BB14_41:
	ldp	x11, x8, [sp, #32]
	mov	x13, x24
	ldr	x14, [sp, #8]
	lsl	x8, x8, #3
	sub	x12, x28, x14
	cmp	x12, #1
	add	x9, x24, x8
	add	x9, x9, #368
	csel	x9, x11, x9, eq
	ldr	x9, [x9]
	ldrh	w9, [x9]
	cmp	w9, #14
	b.ls	.Lunix_path_BB14_82
	ldr	x1, [sp]
	ldrh	w8, [x1]
	cmp	w8, #15
	b.hs	.Lunix_path_BB14_75
	subs	x12, x28, x14
	stp	xzr, xzr, [sp, #48]
	b.ls	.Lunix_path_BB14_46
.Lunix_path_BB14_44:
	add	x8, sp, #48
	add	x8, x8, #15
.Lunix_path_BB14_45:
	add	x9, x26, #15
	and	w10, w25, #0xf
	lsr	x25, x25, #4
	cmp	x14, x9
	strb	w10, [x8, x26]
	sub	x26, x26, #1
	b.lo	.Lunix_path_BB14_45
.Lunix_path_BB14_46:
	mov	w8, #16
	sub	x26, x8, x14
	cmp	x26, #2
	b.lo	.Lunix_path_BB14_79
	add	x8, sp, #48
	str	x12, [sp, #24]
	add	x27, x8, x14
	ldr	x8, [sp, #16]
	add	x28, x8, #8
	b	.Lunix_path_BB14_50
.Lunix_path_BB14_48:
	add	w25, w25, #1
	sub	w8, w8, #8
	strb	w25, [x27]
	strb	w8, [x27, #1]
.Lunix_path_BB14_49:
	add	x8, x13, w25, uxtb #3
	cmp	x26, #2
	sub	x26, x26, #1
	add	x27, x27, #1
	add	x28, x8, #368
	b.ls	.Lunix_path_BB14_78
.Lunix_path_BB14_50:
	ldrb	w25, [x27]
	ldr	x13, [x28]
	add	x8, x13, x25, lsl #3
	ldr	x8, [x8, #368]
	ldrh	w8, [x8]
	cmp	w8, #15
	b.lo	.Lunix_path_BB14_49
	ldrh	w8, [x13, #2]
	subs	x19, x8, #1
	b.eq	.Lunix_path_BB14_53
	mov	w0, #496
	b	.Lunix_path_BB14_54
.Lunix_path_BB14_53:
	mov	w0, #368
.Lunix_path_BB14_54:
	mov	w1, #8
	bl	rattle_alloc
	tbz	w0, #0, .Lunix_path_BB14_83
	strh	w19, [x1, #2]
	mov	x24, x1
	ldr	x8, [x28]
	stp	xzr, xzr, [sp, #64]
	str	xzr, [sp, #80]
	ldrh	w9, [x8]
	ldrh	w11, [x8, #2]
	add	x10, x8, #8
	add	x22, x8, #368
	stp	xzr, xzr, [sp, #176]
	stp	x10, x9, [sp, #96]
	mov	w10, #15
	cmp	w11, #0
	stp	x9, x10, [sp, #128]
	csinc	x9, xzr, x9, eq
	mov	w11, #16
	stp	x22, x9, [sp, #144]
	ldr	x9, [x22, x25, lsl #3]
	csel	x12, xzr, x11, eq
	stp	x12, x8, [sp, #160]
	ldrh	w12, [x9]
	ldrh	w19, [x9, #2]
	add	x8, x9, #8
	stur	x8, [x29, #-96]
	add	x13, x9, #368
	add	x8, x1, #8
	sub	x15, x12, #8
	cmp	w19, #0
	add	x1, x9, #200
	add	x14, x15, x15, lsl #1
	stp	x10, x22, [sp, #112]
	csinc	x12, xzr, x12, eq
	stp	x10, x13, [x29, #-80]
	lsl	x2, x14, #3
	stp	x10, x13, [x29, #-56]
	csel	x10, xzr, x11, eq
	sub	x11, x8, x1
	str	xzr, [sp, #192]
	cmp	x11, x2
	stp	xzr, xzr, [x29, #-144]
	stur	xzr, [x29, #-128]
	stp	x12, x10, [x29, #-40]
	stur	x9, [x29, #-24]
	b.hs	.Lunix_path_BB14_58
	mov	x9, x15
	mov	x23, x15
	cbz	x15, .Lunix_path_BB14_59
.Lunix_path_BB14_57:
	ldr	x10, [x1, #16]
	ldr	q0, [x1], #24
	subs	x9, x9, #1
	str	x10, [x8, #16]
	str	q0, [x8], #24
	b.ne	.Lunix_path_BB14_57
	b	.Lunix_path_BB14_59
.Lunix_path_BB14_58:
	add	x0, x24, #8
	mov	x23, x15
	bl	memmove
.Lunix_path_BB14_59:
	mov	w8, #8
	sub	x0, x29, #120
	sub	x1, x29, #96
	mov	w2, #7
	stur	x8, [x29, #-88]
	stur	x8, [x29, #-64]
	stp	xzr, xzr, [x29, #-112]
	stur	xzr, [x29, #-120]
	bl	std_alloc.vec.Vec.remove.b40003dd673f1bd1.
	cbz	w19, .Lunix_path_BB14_68
	ldp	x9, x8, [x29, #-48]
	add	x11, x24, #368
	sub	x10, x8, #8
	add	x1, x9, #64
	lsl	x2, x10, #3
	sub	x11, x11, x1
	cmp	x11, x2
	b.hs	.Lunix_path_BB14_67
	cbz	x10, .Lunix_path_BB14_68
	cmp	x10, #4
	b.lo	.Lunix_path_BB14_64
	sub	x11, x24, x9
	add	x11, x11, #304
	cmp	x11, #32
	b.hs	.Lunix_path_BB14_72
.Lunix_path_BB14_64:
	mov	x11, xzr
.Lunix_path_BB14_65:
	lsl	x10, x11, #3
	sub	x8, x8, x11
	sub	x8, x8, #8
	add	x9, x9, x10
	add	x10, x24, x10
	add	x9, x9, #64
	add	x10, x10, #368
.Lunix_path_BB14_66:
	ldr	x11, [x9], #8
	subs	x8, x8, #1
	str	x11, [x10], #8
	b.ne	.Lunix_path_BB14_66
	b	.Lunix_path_BB14_68
.Lunix_path_BB14_67:
	add	x0, x24, #368
	bl	memmove
.Lunix_path_BB14_68:
	ldur	x8, [x29, #-88]
	ldur	x9, [x29, #-24]
	add	x0, sp, #96
	ldur	q0, [x29, #-120]
	add	x2, sp, #64
	mov	x1, x25
	strh	w8, [x9]
	ldur	x8, [x29, #-104]
	strh	w23, [x24]
	str	q0, [sp, #176]
	str	x8, [sp, #192]
	str	x9, [x22, x25, lsl #3]
	str	x8, [sp, #80]
	str	q0, [sp, #64]
	bl	std_alloc.vec.lodged.Vec.T.Lodged.insert_reserved.23.unix_path.buf.PathBuf.
	ldp	x19, x8, [sp, #144]
	add	x9, x25, #1
	lsl	x22, x9, #3
	subs	x8, x8, x9
	b.eq	.Lunix_path_BB14_70
	lsl	x2, x8, #3
	add	x8, x19, x22
	add	x1, x19, x22
	add	x0, x8, #8
	bl	memmove
.Lunix_path_BB14_70:
	ldrb	w8, [x27, #1]
	ldr	x9, [sp, #104]
	ldr	x13, [sp, #168]
	str	x24, [x19, x22]
	cmp	w8, #7
	strh	w9, [x13]
	str	x13, [x28]
	b.hi	.Lunix_path_BB14_48
	ldrb	w25, [x27]
	b	.Lunix_path_BB14_49
.Lunix_path_BB14_72:
	and	x11, x10, #0xfffffffffffffffc
	add	x12, x9, #80
	add	x13, x24, #384
	and	x14, x10, #0xfffffffffffffffc
.Lunix_path_BB14_73:
	ldp	q0, q1, [x12, #-16]
	subs	x14, x14, #4
	add	x12, x12, #32
	stp	q0, q1, [x13, #-16]
	add	x13, x13, #32
	b.ne	.Lunix_path_BB14_73
	cmp	x10, x11
	b.eq	.Lunix_path_BB14_68
	b	.Lunix_path_BB14_65
.Lunix_path_BB14_75:
	ldr	x8, [sp, #24]
	cmp	w8, #10
	b.hi	.Lunix_path_BB14_37
	mov	w0, #496
	mov	w1, #8
	bl	rattle_alloc
	tbz	w0, #0, .Lunix_path_BB14_37
	ldp	x10, x11, [sp, #24]
	mov	w9, #14
	mov	x13, x24
	add	w8, w10, #1
	sub	x14, x9, x10
	strh	w8, [x1, #2]
	ldr	x8, [x11]
	strh	wzr, [x1]
	str	x8, [x1, #368]
	str	x1, [x11]
	subs	x12, x28, x14
	stp	xzr, xzr, [sp, #48]
	b.hi	.Lunix_path_BB14_44
	b	.Lunix_path_BB14_46
.Lunix_path_BB14_78:
	ldp	x12, x11, [sp, #24]
	and	x8, x25, #0xff
	str	x8, [sp, #40]
	ldr	x1, [x11]
.Lunix_path_BB14_79:
	ldrh	w8, [x1]
	cbz	w8, .Lunix_path_BB14_84
	ldr	x23, [sp, #16]
	ldrb	w8, [x23]
	cmp	w8, #1
	b.ne	.Lunix_path_BB14_86
	ldr	x8, [sp, #40]
	ldrb	w25, [sp, #63]
	lsl	x8, x8, #3
.Lunix_path_BB14_82:
	add	x8, x13, x8
	cmp	x12, #1
	stp	x21, x20, [sp, #96]
	add	x8, x8, #368
	str	x20, [sp, #112]
	mov	w10, #15
	csel	x19, x11, x8, eq
	sub	x0, x29, #96
	and	x1, x25, #0xf
	ldr	x8, [x19]
	add	x2, sp, #96
	ldrh	w11, [x8]
	ldrh	w12, [x8, #2]
	add	x9, x8, #8
	stp	x9, x11, [x29, #-96]
	add	x9, x8, #368
	cmp	w12, #0
	stp	x10, x9, [x29, #-80]
	stp	x11, x10, [x29, #-64]
	mov	w10, #16
	csinc	x11, xzr, x11, eq
	stp	x9, x11, [x29, #-48]
	csel	x9, xzr, x10, eq
	stp	x9, x8, [x29, #-32]
	bl	std_alloc.vec.lodged.Vec.T.Lodged.insert_reserved.23.unix_path.buf.PathBuf.
	ldur	x8, [x29, #-88]
	ldur	x9, [x29, #-24]
	mov	w22, wzr
	strh	w8, [x9]
	str	x9, [x19]
	ldr	x8, [x23, #16]
	add	x8, x8, #1
	str	x8, [x23, #16]
	b	.Lunix_path_BB14_40
.Lunix_path_BB14_83:
	ldr	x8, [sp, #32]
	ldr	x8, [x8]
	mov	x1, x8
	ldrh	w8, [x8]
	cbnz	w8, .Lunix_path_BB14_37
.Lunix_path_BB14_84:
	ldrh	w8, [x1, #2]
	cbz	w8, .Lunix_path_BB14_37
	mov	x0, x1
	ldr	x19, [x1, #368]
	bl	rattle_dealloc
	ldr	x8, [sp, #32]
	str	x19, [x8]
	b	.Lunix_path_BB14_37
.Lunix_path_BB14_86:
	brk	#0x1
.Lunix_path_func_end14:
	.size	pathtool.tables.insert_path, .Lunix_path_func_end14-pathtool.tables.insert_path
	.section	.rodata.cst16,"aM",@progbits,16
	.p2align	4, 0x0
.Lunix_path_CPI15_0:
	.byte	1
	.byte	2
	.byte	4
	.byte	8
	.byte	16
	.byte	32
	.byte	64
	.byte	128
	.byte	1
	.byte	2
	.byte	4
	.byte	8
	.byte	16
	.byte	32
	.byte	64
	.byte	128
	.section	.rodata.cst8,"aM",@progbits,8
	.p2align	3, 0x0
.Lunix_path_CPI15_1:
	.byte	1
	.byte	2
	.byte	4
	.byte	8
	.byte	16
	.byte	32
	.byte	64
	.byte	128
	.section	.text.unix_path.order.PathOrd.cmp,"ax",@progbits
	.p2align	2
	.type	unix_path.order.PathOrd.cmp,@function
// unix_path::order::PathOrd::cmp
unix_path.order.PathOrd.cmp:
	stp	x29, x30, [sp, #-16]!
	cmp	x3, x1
	mov	x29, sp
	csel	x8, x3, x1, lo
	cmp	x8, #15
	b.hi	.Lunix_path_BB15_16
	cmp	x8, #7
	b.hi	.Lunix_path_BB15_25
	cbz	x8, .Lunix_path_BB15_30
	ldrb	w9, [x0]
	ldrb	w10, [x2]
	cmp	w9, w10
	b.ne	.Lunix_path_BB15_29
	cmp	x8, #1
	b.eq	.Lunix_path_BB15_30
	ldrb	w9, [x0, #1]
	ldrb	w10, [x2, #1]
	cmp	w9, w10
	b.ne	.Lunix_path_BB15_90
	cmp	x8, #2
	b.eq	.Lunix_path_BB15_30
	ldrb	w9, [x0, #2]
	ldrb	w10, [x2, #2]
	cmp	w9, w10
	b.ne	.Lunix_path_BB15_91
	cmp	x8, #3
	b.eq	.Lunix_path_BB15_30
	ldrb	w9, [x0, #3]
	ldrb	w10, [x2, #3]
	cmp	w9, w10
	b.ne	.Lunix_path_BB15_92
	cmp	x8, #4
	b.eq	.Lunix_path_BB15_30
	ldrb	w9, [x0, #4]
	ldrb	w10, [x2, #4]
	cmp	w9, w10
	b.ne	.Lunix_path_BB15_93
	cmp	x8, #5
	b.eq	.Lunix_path_BB15_30
	ldrb	w9, [x0, #5]
	ldrb	w10, [x2, #5]
	cmp	w9, w10
	b.ne	.Lunix_path_BB15_94
	cmp	x8, #6
	b.eq	.Lunix_path_BB15_30
	ldrb	w9, [x0, #6]
	ldrb	w10, [x2, #6]
	cmp	w9, w10
	mov	w9, #6
	csel	x8, x8, x9, eq
	b	.Lunix_path_BB15_30
.Lunix_path_BB15_16:
	cmp	x8, #64
	sub	x9, x8, #16
	adrp	x10, .Lunix_path_CPI15_0
	mov	x11, xzr
	b.lo	.Lunix_path_BB15_23
	and	x12, x8, #0xffffffffffffffc0
.Lunix_path_BB15_18:
	add	x13, x0, x11
	add	x14, x2, x11
	ldp	q0, q1, [x13]
	ldp	q2, q3, [x13, #32]
	ldp	q4, q5, [x14]
	ldp	q6, q7, [x14, #32]
	cmeq	v0.16b, v0.16b, v4.16b
	cmeq	v1.16b, v1.16b, v5.16b
	ldr	q4, [x10, :lo12:.Lunix_path_CPI15_0]
	cmeq	v3.16b, v3.16b, v7.16b
	cmeq	v2.16b, v2.16b, v6.16b
	bic	v0.16b, v4.16b, v0.16b
	bic	v1.16b, v4.16b, v1.16b
	bic	v2.16b, v4.16b, v2.16b
	bic	v3.16b, v4.16b, v3.16b
	addp	v0.16b, v0.16b, v1.16b
	addp	v1.16b, v2.16b, v3.16b
	addp	v0.16b, v0.16b, v1.16b
	addp	v0.16b, v0.16b, v0.16b
	fmov	x13, d0
	cbnz	x13, .Lunix_path_BB15_23
	sub	x8, x8, #64
	add	x11, x11, #64
	cmp	x8, #63
	b.hi	.Lunix_path_BB15_18
	mov	x11, x12
	b	.Lunix_path_BB15_23
.Lunix_path_BB15_21:
	ldr	q0, [x0, x11]
	ldr	q1, [x2, x11]
	cmeq	v0.16b, v0.16b, v1.16b
	ldr	q1, [x10, :lo12:.Lunix_path_CPI15_0]
	bic	v0.16b, v1.16b, v0.16b
	addp	v0.16b, v0.16b, v0.16b
	addp	v0.16b, v0.16b, v0.16b
	addp	v0.16b, v0.16b, v0.16b
	umov	w8, v0.h[0]
	orr	w8, w8, #0x10000
	rbit	w8, w8
	clz	w8, w8
	cmp	w8, #15
	b.ls	.Lunix_path_BB15_27
	add	x11, x11, #16
.Lunix_path_BB15_23:
	cmp	x11, x9
	b.lo	.Lunix_path_BB15_21
	ldr	q0, [x0, x9]
	ldr	q1, [x2, x9]
	cmeq	v0.16b, v0.16b, v1.16b
	ldr	q1, [x10, :lo12:.Lunix_path_CPI15_0]
	bic	v0.16b, v1.16b, v0.16b
	addp	v0.16b, v0.16b, v0.16b
	addp	v0.16b, v0.16b, v0.16b
	addp	v0.16b, v0.16b, v0.16b
	umov	w8, v0.h[0]
	orr	w8, w8, #0x10000
	rbit	w8, w8
	clz	w8, w8
	add	x8, x9, x8
	b	.Lunix_path_BB15_30
.Lunix_path_BB15_25:
	ldr	d0, [x0]
	ldr	d1, [x2]
	adrp	x9, .Lunix_path_CPI15_1
	cmeq	v1.8b, v0.8b, v1.8b
	ldr	d0, [x9, :lo12:.Lunix_path_CPI15_1]
	bic	v1.8b, v0.8b, v1.8b
	addv	b1, v1.8b
	fmov	w9, s1
	orr	w9, w9, #0x100
	rbit	w9, w9
	clz	w9, w9
	cmp	w9, #8
	b.hs	.Lunix_path_BB15_28
	mov	x8, x9
	b	.Lunix_path_BB15_30
.Lunix_path_BB15_27:
	add	x8, x11, w8, uxtw
	b	.Lunix_path_BB15_30
.Lunix_path_BB15_28:
	sub	x8, x8, #8
	ldr	d1, [x0, x8]
	ldr	d2, [x2, x8]
	cmeq	v1.8b, v1.8b, v2.8b
	bic	v0.8b, v0.8b, v1.8b
	addv	b0, v0.8b
	fmov	w9, s0
	orr	w9, w9, #0x100
	rbit	w9, w9
	clz	w9, w9
	add	x8, x8, x9
	b	.Lunix_path_BB15_30
.Lunix_path_BB15_29:
	mov	x8, xzr
.Lunix_path_BB15_30:
	cmp	x8, x1
	ccmp	x8, x3, #0, eq
	b.eq	.Lunix_path_BB15_42
	cmp	x8, x1
	b.hs	.Lunix_path_BB15_33
	ldrb	w9, [x0, x8]
	cmp	w9, #47
	b.ne	.Lunix_path_BB15_43
.Lunix_path_BB15_33:
	mov	w9, wzr
	cmp	x8, x3
	b.hs	.Lunix_path_BB15_47
.Lunix_path_BB15_34:
	ldrb	w10, [x2, x8]
	cmp	w10, #47
	b.eq	.Lunix_path_BB15_47
	add	w10, w10, #1
	cmp	w9, w10
	b.eq	.Lunix_path_BB15_48
.Lunix_path_BB15_36:
	cbz	x8, .Lunix_path_BB15_52
	add	x11, x0, x8
	ldurb	w11, [x11, #-1]
	cmp	w11, #47
	b.eq	.Lunix_path_BB15_49
	cmp	w11, #46
	b.ne	.Lunix_path_BB15_41
	sub	x11, x8, #1
	cbz	x11, .Lunix_path_BB15_52
	add	x8, x0, x11
	ldurb	w8, [x8, #-1]
	cmp	w8, #47
	b.eq	.Lunix_path_BB15_50
.Lunix_path_BB15_41:
	cmp	w9, w10
	mov	w8, #2
	csel	w0, wzr, w8, lo
	ldp	x29, x30, [sp], #16
	ret
.Lunix_path_BB15_42:
	mov	w0, #1
	ldp	x29, x30, [sp], #16
	ret
.Lunix_path_BB15_43:
	cmp	x8, x3
	b.hs	.Lunix_path_BB15_46
	cmp	w9, #46
	b.eq	.Lunix_path_BB15_46
	ldrb	w10, [x2, x8]
	and	w11, w10, #0xfe
	cmp	w11, #46
	b.ne	.Lunix_path_BB15_77
.Lunix_path_BB15_46:
	add	w9, w9, #1
	cmp	x8, x3
	b.lo	.Lunix_path_BB15_34
.Lunix_path_BB15_47:
	mov	w10, wzr
	cmp	w9, wzr
	b.ne	.Lunix_path_BB15_36
.Lunix_path_BB15_48:
	cbz	x8, .Lunix_path_BB15_52
.Lunix_path_BB15_49:
	mov	x11, x8
.Lunix_path_BB15_50:
	subs	x1, x1, x11
	sub	x8, x3, x11
	b.ne	.Lunix_path_BB15_61
	add	x0, x2, x11
	mov	x1, x8
	bl	unix_path.pair.rest_len
	cmp	x0, #0
	cset	w0, eq
	ldp	x29, x30, [sp], #16
	ret
.Lunix_path_BB15_52:
	cbz	x1, .Lunix_path_BB15_63
	ldrb	w9, [x0]
	cmp	w9, #47
	b.eq	.Lunix_path_BB15_66
	cmp	w9, #46
	b.ne	.Lunix_path_BB15_65
	cmp	x1, #1
	b.eq	.Lunix_path_BB15_78
	ldrb	w9, [x0, #1]
	cmp	w9, #47
	b.eq	.Lunix_path_BB15_78
	cmp	w9, #46
	b.ne	.Lunix_path_BB15_65
	cmp	x1, #2
	b.eq	.Lunix_path_BB15_60
	ldrb	w9, [x0, #2]
	cmp	w9, #47
	b.ne	.Lunix_path_BB15_65
.Lunix_path_BB15_60:
	mov	w9, #3
	cbnz	x3, .Lunix_path_BB15_67
	b	.Lunix_path_BB15_79
.Lunix_path_BB15_61:
	cmp	x3, x11
	b.ne	.Lunix_path_BB15_64
	add	x0, x0, x11
	bl	unix_path.pair.rest_len
	mov	w8, #1
	cmp	x0, #0
	cinc	w0, w8, ne
	ldp	x29, x30, [sp], #16
	ret
.Lunix_path_BB15_63:
	mov	w9, wzr
	cbnz	x3, .Lunix_path_BB15_67
	b	.Lunix_path_BB15_79
.Lunix_path_BB15_64:
	add	x0, x0, x11
	add	x2, x2, x11
	mov	x3, x8
	ldp	x29, x30, [sp], #16
	b	unix_path.pair.Comparison.order_after_cut
.Lunix_path_BB15_65:
	mov	w9, #4
	cbnz	x3, .Lunix_path_BB15_67
	b	.Lunix_path_BB15_79
.Lunix_path_BB15_66:
	mov	w9, #1
	cbz	x3, .Lunix_path_BB15_79
.Lunix_path_BB15_67:
	ldrb	w10, [x2]
	cmp	w10, #47
	b.eq	.Lunix_path_BB15_76
	cmp	w10, #46
	b.ne	.Lunix_path_BB15_75
	cmp	x3, #1
	b.eq	.Lunix_path_BB15_85
	ldrb	w10, [x2, #1]
	cmp	w10, #47
	b.eq	.Lunix_path_BB15_85
	cmp	w10, #46
	b.ne	.Lunix_path_BB15_75
	cmp	x3, #2
	b.eq	.Lunix_path_BB15_74
	ldrb	w10, [x2, #2]
	cmp	w10, #47
	b.ne	.Lunix_path_BB15_75
.Lunix_path_BB15_74:
	mov	w10, #3
	cmp	w9, w10
	mov	w9, #2
	csel	w9, wzr, w9, lo
	b.ne	.Lunix_path_BB15_86
	b	.Lunix_path_BB15_80
.Lunix_path_BB15_75:
	mov	w10, #4
	cmp	w9, w10
	mov	w9, #2
	csel	w9, wzr, w9, lo
	b.ne	.Lunix_path_BB15_86
	b	.Lunix_path_BB15_80
.Lunix_path_BB15_76:
	mov	w10, #1
	cmp	w9, w10
	mov	w9, #2
	csel	w9, wzr, w9, lo
	b.ne	.Lunix_path_BB15_86
	b	.Lunix_path_BB15_80
.Lunix_path_BB15_77:
	cmp	w9, w10
	mov	w8, #2
	csel	w8, wzr, w8, lo
	csinc	w0, w8, wzr, ne
	ldp	x29, x30, [sp], #16
	ret
.Lunix_path_BB15_78:
	mov	w9, #2
	cbnz	x3, .Lunix_path_BB15_67
.Lunix_path_BB15_79:
	cmp	w9, wzr
	mov	w9, #2
	csel	w9, wzr, w9, lo
	b.ne	.Lunix_path_BB15_86
.Lunix_path_BB15_80:
	cmp	x8, x1
	b.hs	.Lunix_path_BB15_82
	ldrb	w9, [x0, x8]
	cmp	w9, #47
	b.ne	.Lunix_path_BB15_87
.Lunix_path_BB15_82:
	mov	w9, wzr
	cmp	x8, x3
	b.hs	.Lunix_path_BB15_88
.Lunix_path_BB15_83:
	ldrb	w8, [x2, x8]
	cmp	w8, #47
	b.ne	.Lunix_path_BB15_89
	cmp	w9, wzr
	mov	w8, #2
	csel	w8, wzr, w8, lo
	csinc	w0, w8, wzr, ne
	ldp	x29, x30, [sp], #16
	ret
.Lunix_path_BB15_85:
	mov	w10, #2
	cmp	w9, w10
	mov	w9, #2
	csel	w9, wzr, w9, lo
	b.eq	.Lunix_path_BB15_80
.Lunix_path_BB15_86:
	mov	w0, w9
	ldp	x29, x30, [sp], #16
	ret
.Lunix_path_BB15_87:
	add	w9, w9, #1
	cmp	x8, x3
	b.lo	.Lunix_path_BB15_83
.Lunix_path_BB15_88:
	cmp	w9, wzr
	mov	w8, #2
	csel	w8, wzr, w8, lo
	csinc	w0, w8, wzr, ne
	ldp	x29, x30, [sp], #16
	ret
.Lunix_path_BB15_89:
	add	w8, w8, #1
	cmp	w9, w8
	mov	w8, #2
	csel	w8, wzr, w8, lo
	csinc	w0, w8, wzr, ne
	ldp	x29, x30, [sp], #16
	ret
.Lunix_path_BB15_90:
	mov	w8, #1
	b	.Lunix_path_BB15_30
.Lunix_path_BB15_91:
	mov	w8, #2
	b	.Lunix_path_BB15_30
.Lunix_path_BB15_92:
	mov	w8, #3
	b	.Lunix_path_BB15_30
.Lunix_path_BB15_93:
	mov	w8, #4
	b	.Lunix_path_BB15_30
.Lunix_path_BB15_94:
	mov	w8, #5
	b	.Lunix_path_BB15_30
.Lunix_path_func_end15:
	.size	unix_path.order.PathOrd.cmp, .Lunix_path_func_end15-unix_path.order.PathOrd.cmp
	.section	.text.unix_path.pair.rest_len,"ax",@progbits
	.p2align	2
	.type	unix_path.pair.rest_len,@function
// unix_path::pair::rest_len
unix_path.pair.rest_len:
	mov	x2, xzr
	b	.Lunix_path_BB16_2
.Lunix_path_BB16_1:
	mov	w8, #1
	add	x2, x8, x2
	cmp	x2, #4
	b.hs	.Lunix_path_BB16_8
.Lunix_path_BB16_2:
	cmp	x2, x1
	b.hs	.Lunix_path_BB16_9
	ldrb	w8, [x0, x2]
	cmp	w8, #47
	b.eq	.Lunix_path_BB16_1
	cmp	w8, #46
	b.ne	.Lunix_path_BB16_9
	add	x8, x2, #1
	cmp	x8, x1
	b.eq	.Lunix_path_BB16_1
	ldrb	w8, [x0, x8]
	cmp	w8, #47
	b.ne	.Lunix_path_BB16_9
	mov	w8, #2
	add	x2, x8, x2
	cmp	x2, #4
	b.lo	.Lunix_path_BB16_2
.Lunix_path_BB16_8:
	stp	x29, x30, [sp, #-32]!
	str	x19, [sp, #16]
	mov	x29, sp
	mov	x19, x1
	bl	unix_path.filler.filler_end_from
	mov	x1, x19
	ldr	x19, [sp, #16]
	mov	x2, x0
	ldp	x29, x30, [sp], #32
.Lunix_path_BB16_9:
	sub	x0, x1, x2
	ret
.Lunix_path_func_end16:
	.size	unix_path.pair.rest_len, .Lunix_path_func_end16-unix_path.pair.rest_len
	.section	.rodata.cst16,"aM",@progbits,16
	.p2align	4, 0x0
.Lunix_path_CPI17_0:
	.byte	1
	.byte	2
	.byte	4
	.byte	8
	.byte	16
	.byte	32
	.byte	64
	.byte	128
	.byte	1
	.byte	2
	.byte	4
	.byte	8
	.byte	16
	.byte	32
	.byte	64
	.byte	128
	.section	.text.unlikely.unix_path.filler.filler_end_from,"ax",@progbits
	.p2align	2
	.type	unix_path.filler.filler_end_from,@function
// unix_path::filler::filler_end_from
unix_path.filler.filler_end_from:
	sub	x8, x1, x2
	cmp	x8, #17
	b.lo	.Lunix_path_BB17_3
.Lunix_path_BB17_1:
	movi	v0.16b, #46
	add	x9, x0, x2
	movi	v2.16b, #47
	ldr	q1, [x9]
	ldur	q3, [x9, #1]
	adrp	x9, .Lunix_path_CPI17_0
	cmeq	v0.16b, v1.16b, v0.16b
	cmeq	v3.16b, v3.16b, v2.16b
	cmeq	v1.16b, v1.16b, v2.16b
	mvn	v0.16b, v0.16b
	orn	v0.16b, v0.16b, v3.16b
	bic	v0.16b, v0.16b, v1.16b
	ldr	q1, [x9, :lo12:.Lunix_path_CPI17_0]
	and	v0.16b, v0.16b, v1.16b
	addp	v0.16b, v0.16b, v0.16b
	addp	v0.16b, v0.16b, v0.16b
	addp	v0.16b, v0.16b, v0.16b
	umov	w9, v0.h[0]
	cbnz	w9, .Lunix_path_BB17_3
	sub	x8, x8, #16
	add	x2, x2, #16
	cmp	x8, #16
	b.hi	.Lunix_path_BB17_1
.Lunix_path_BB17_3:
	cmp	x2, x1
	b.hs	.Lunix_path_BB17_10
	add	x8, x0, #1
	sub	x9, x1, #1
	b	.Lunix_path_BB17_6
.Lunix_path_BB17_5:
	add	x2, x2, #1
	cmp	x1, x2
	b.eq	.Lunix_path_BB17_11
.Lunix_path_BB17_6:
	add	x10, x8, x2
	ldurb	w10, [x10, #-1]
	cmp	w10, #47
	b.eq	.Lunix_path_BB17_5
	cmp	w10, #46
	b.ne	.Lunix_path_BB17_10
	cmp	x9, x2
	b.eq	.Lunix_path_BB17_5
	ldrb	w10, [x8, x2]
	cmp	w10, #47
	b.eq	.Lunix_path_BB17_5
.Lunix_path_BB17_10:
	mov	x0, x2
	ret
.Lunix_path_BB17_11:
	mov	x2, x1
	mov	x0, x2
	ret
.Lunix_path_func_end17:
	.size	unix_path.filler.filler_end_from, .Lunix_path_func_end17-unix_path.filler.filler_end_from
	.section	.rodata.cst16,"aM",@progbits,16
	.p2align	4, 0x0
.Lunix_path_CPI18_0:
	.byte	1
	.byte	2
	.byte	4
	.byte	8
	.byte	16
	.byte	32
	.byte	64
	.byte	128
	.byte	1
	.byte	2
	.byte	4
	.byte	8
	.byte	16
	.byte	32
	.byte	64
	.byte	128
	.section	.rodata.cst8,"aM",@progbits,8
	.p2align	3, 0x0
.Lunix_path_CPI18_1:
	.byte	1
	.byte	2
	.byte	4
	.byte	8
	.byte	16
	.byte	32
	.byte	64
	.byte	128
	.section	.text.unix_path.pair.Comparison.order_after_cut,"ax",@progbits
	.p2align	2
	.type	unix_path.pair.Comparison.order_after_cut,@function
// unix_path::pair::Comparison::order_after_cut
unix_path.pair.Comparison.order_after_cut:
	stp	x29, x30, [sp, #-64]!
	stp	x24, x23, [sp, #16]
	mov	x23, x0
	mov	x29, sp
	stp	x22, x21, [sp, #32]
	mov	x22, x3
	mov	x21, x2
	stp	x20, x19, [sp, #48]
	mov	x19, x1
	b	.Lunix_path_BB18_4
.Lunix_path_BB18_1:
	cbz	x10, .Lunix_path_BB18_61
.Lunix_path_BB18_2:
	mov	x13, x10
.Lunix_path_BB18_3:
	add	x23, x23, x13
	sub	x19, x24, x13
	add	x21, x9, x13
	sub	x22, x8, x13
.Lunix_path_BB18_4:
	mov	x20, xzr
	b	.Lunix_path_BB18_6
.Lunix_path_BB18_5:
	mov	w8, #1
	add	x20, x8, x20
	cmp	x20, #4
	b.hs	.Lunix_path_BB18_12
.Lunix_path_BB18_6:
	cmp	x20, x19
	b.hs	.Lunix_path_BB18_13
	ldrb	w8, [x23, x20]
	cmp	w8, #47
	b.eq	.Lunix_path_BB18_5
	cmp	w8, #46
	b.ne	.Lunix_path_BB18_13
	add	x8, x20, #1
	cmp	x8, x19
	b.eq	.Lunix_path_BB18_5
	ldrb	w8, [x23, x8]
	cmp	w8, #47
	b.ne	.Lunix_path_BB18_13
	mov	w8, #2
	add	x20, x8, x20
	cmp	x20, #4
	b.lo	.Lunix_path_BB18_6
.Lunix_path_BB18_12:
	mov	x0, x23
	mov	x1, x19
	mov	x2, x20
	bl	unix_path.filler.filler_end_from
	mov	x20, x0
.Lunix_path_BB18_13:
	mov	x2, xzr
	add	x23, x23, x20
	sub	x24, x19, x20
	b	.Lunix_path_BB18_15
.Lunix_path_BB18_14:
	mov	w8, #1
	add	x2, x8, x2
	cmp	x2, #4
	b.hs	.Lunix_path_BB18_21
.Lunix_path_BB18_15:
	cmp	x2, x22
	b.hs	.Lunix_path_BB18_22
	ldrb	w8, [x21, x2]
	cmp	w8, #47
	b.eq	.Lunix_path_BB18_14
	cmp	w8, #46
	b.ne	.Lunix_path_BB18_22
	add	x8, x2, #1
	cmp	x8, x22
	b.eq	.Lunix_path_BB18_14
	ldrb	w8, [x21, x8]
	cmp	w8, #47
	b.ne	.Lunix_path_BB18_22
	mov	w8, #2
	add	x2, x8, x2
	cmp	x2, #4
	b.lo	.Lunix_path_BB18_15
.Lunix_path_BB18_21:
	mov	x0, x21
	mov	x1, x22
	bl	unix_path.filler.filler_end_from
	mov	x2, x0
.Lunix_path_BB18_22:
	subs	x8, x22, x2
	b.eq	.Lunix_path_BB18_60
	cmp	x8, x24
	add	x9, x21, x2
	csel	x11, x8, x24, lo
	cmp	x11, #15
	b.hi	.Lunix_path_BB18_27
	cmp	x11, #7
	b.hi	.Lunix_path_BB18_33
	cmp	x19, x20
	b.ne	.Lunix_path_BB18_35
	mov	x10, xzr
	cmp	xzr, x24
	b.lo	.Lunix_path_BB18_45
	b	.Lunix_path_BB18_46
.Lunix_path_BB18_27:
	ldr	q0, [x23]
	ldr	q1, [x9]
	adrp	x10, .Lunix_path_CPI18_0
	cmeq	v1.16b, v0.16b, v1.16b
	ldr	q0, [x10, :lo12:.Lunix_path_CPI18_0]
	bic	v1.16b, v0.16b, v1.16b
	addp	v1.16b, v1.16b, v1.16b
	addp	v1.16b, v1.16b, v1.16b
	addp	v1.16b, v1.16b, v1.16b
	umov	w10, v1.h[0]
	orr	w10, w10, #0x10000
	rbit	w10, w10
	clz	w10, w10
	cmp	w10, #16
	b.lo	.Lunix_path_BB18_44
	cmp	x11, #64
	b.lo	.Lunix_path_BB18_39
	mov	x10, xzr
	mov	x12, x11
.Lunix_path_BB18_30:
	add	x13, x23, x10
	add	x14, x9, x10
	ldp	q1, q2, [x13]
	ldp	q3, q4, [x13, #32]
	ldp	q5, q6, [x14]
	ldp	q7, q16, [x14, #32]
	cmeq	v1.16b, v1.16b, v5.16b
	cmeq	v2.16b, v2.16b, v6.16b
	cmeq	v4.16b, v4.16b, v16.16b
	cmeq	v3.16b, v3.16b, v7.16b
	bic	v1.16b, v0.16b, v1.16b
	bic	v2.16b, v0.16b, v2.16b
	bic	v3.16b, v0.16b, v3.16b
	bic	v4.16b, v0.16b, v4.16b
	addp	v1.16b, v1.16b, v2.16b
	addp	v2.16b, v3.16b, v4.16b
	addp	v1.16b, v1.16b, v2.16b
	addp	v1.16b, v1.16b, v1.16b
	fmov	x13, d1
	cbnz	x13, .Lunix_path_BB18_40
	sub	x12, x12, #64
	add	x10, x10, #64
	cmp	x12, #63
	b.hi	.Lunix_path_BB18_30
	and	x10, x11, #0xffffffffffffffc0
	sub	x11, x11, #16
	cmp	x10, x11
	b.lo	.Lunix_path_BB18_41
	b	.Lunix_path_BB18_43
.Lunix_path_BB18_33:
	ldr	d0, [x23]
	ldr	d1, [x9]
	adrp	x10, .Lunix_path_CPI18_1
	cmeq	v1.8b, v0.8b, v1.8b
	ldr	d0, [x10, :lo12:.Lunix_path_CPI18_1]
	bic	v1.8b, v0.8b, v1.8b
	addv	b1, v1.8b
	fmov	w10, s1
	orr	w10, w10, #0x100
	rbit	w10, w10
	clz	w10, w10
	cmp	w10, #8
	b.lo	.Lunix_path_BB18_44
	sub	x10, x11, #8
	ldr	d1, [x23, x10]
	ldr	d2, [x9, x10]
	cmeq	v1.8b, v1.8b, v2.8b
	bic	v0.8b, v0.8b, v1.8b
	addv	b0, v0.8b
	fmov	w11, s0
	orr	w11, w11, #0x100
	rbit	w11, w11
	clz	w11, w11
	add	x10, x10, x11
	cmp	x10, x24
	b.lo	.Lunix_path_BB18_45
	b	.Lunix_path_BB18_46
.Lunix_path_BB18_35:
	mov	x10, xzr
.Lunix_path_BB18_36:
	ldrb	w12, [x23, x10]
	ldrb	w13, [x9, x10]
	cmp	w12, w13
	b.ne	.Lunix_path_BB18_44
	add	x10, x10, #1
	cmp	x11, x10
	b.ne	.Lunix_path_BB18_36
	mov	x10, x11
	cmp	x11, x24
	b.lo	.Lunix_path_BB18_45
	b	.Lunix_path_BB18_46
.Lunix_path_BB18_39:
	mov	x10, xzr
.Lunix_path_BB18_40:
	sub	x11, x11, #16
	cmp	x10, x11
	b.hs	.Lunix_path_BB18_43
.Lunix_path_BB18_41:
	ldr	q1, [x23, x10]
	ldr	q2, [x9, x10]
	cmeq	v1.16b, v1.16b, v2.16b
	bic	v1.16b, v0.16b, v1.16b
	addp	v1.16b, v1.16b, v1.16b
	addp	v1.16b, v1.16b, v1.16b
	addp	v1.16b, v1.16b, v1.16b
	umov	w12, v1.h[0]
	orr	w12, w12, #0x10000
	rbit	w12, w12
	clz	w12, w12
	cmp	w12, #15
	b.ls	.Lunix_path_BB18_59
	add	x10, x10, #16
	cmp	x10, x11
	b.lo	.Lunix_path_BB18_41
.Lunix_path_BB18_43:
	ldr	q1, [x23, x11]
	ldr	q2, [x9, x11]
	cmeq	v1.16b, v1.16b, v2.16b
	bic	v0.16b, v0.16b, v1.16b
	addp	v0.16b, v0.16b, v0.16b
	addp	v0.16b, v0.16b, v0.16b
	addp	v0.16b, v0.16b, v0.16b
	umov	w10, v0.h[0]
	orr	w10, w10, #0x10000
	rbit	w10, w10
	clz	w10, w10
	add	x10, x11, x10
.Lunix_path_BB18_44:
	cmp	x10, x24
	b.hs	.Lunix_path_BB18_46
.Lunix_path_BB18_45:
	ldrb	w11, [x23, x10]
	cmp	w11, #47
	b.ne	.Lunix_path_BB18_47
.Lunix_path_BB18_46:
	mov	w11, wzr
	cmp	x10, x8
	b.hs	.Lunix_path_BB18_52
	b	.Lunix_path_BB18_51
.Lunix_path_BB18_47:
	cmp	x10, x8
	b.hs	.Lunix_path_BB18_50
	cmp	w11, #46
	b.eq	.Lunix_path_BB18_50
	ldrb	w12, [x9, x10]
	and	w13, w12, #0xfe
	cmp	w13, #46
	b.ne	.Lunix_path_BB18_90
.Lunix_path_BB18_50:
	add	w11, w11, #1
	cmp	x10, x8
	b.hs	.Lunix_path_BB18_52
.Lunix_path_BB18_51:
	ldrb	w12, [x9, x10]
	cmp	w12, #47
	b.ne	.Lunix_path_BB18_53
.Lunix_path_BB18_52:
	mov	w12, wzr
	cmp	w11, wzr
	b.eq	.Lunix_path_BB18_1
	b	.Lunix_path_BB18_54
.Lunix_path_BB18_53:
	add	w12, w12, #1
	cmp	w11, w12
	b.eq	.Lunix_path_BB18_1
.Lunix_path_BB18_54:
	cbz	x10, .Lunix_path_BB18_61
	add	x13, x23, x10
	ldurb	w13, [x13, #-1]
	cmp	w13, #47
	b.eq	.Lunix_path_BB18_2
	cmp	w13, #46
	b.ne	.Lunix_path_BB18_63
	sub	x13, x10, #1
	cbz	x13, .Lunix_path_BB18_64
	add	x10, x23, x13
	ldurb	w10, [x10, #-1]
	cmp	w10, #47
	b.eq	.Lunix_path_BB18_3
	b	.Lunix_path_BB18_63
.Lunix_path_BB18_59:
	add	x10, x10, w12, uxtw
	cmp	x10, x24
	b.lo	.Lunix_path_BB18_45
	b	.Lunix_path_BB18_46
.Lunix_path_BB18_60:
	cmp	x19, x20
	mov	w8, #1
	cinc	w0, w8, ne
	ldp	x20, x19, [sp, #48]
	ldp	x22, x21, [sp, #32]
	ldp	x24, x23, [sp, #16]
	ldp	x29, x30, [sp], #64
	ret
.Lunix_path_BB18_61:
	mov	x11, xzr
	cmp	x19, x20
	b.ne	.Lunix_path_BB18_65
.Lunix_path_BB18_62:
	mov	w0, wzr
	ldp	x20, x19, [sp, #48]
	ldp	x22, x21, [sp, #32]
	ldp	x24, x23, [sp, #16]
	ldp	x29, x30, [sp], #64
	ret
.Lunix_path_BB18_63:
	cmp	w11, w12
	mov	w8, #2
	csel	w0, wzr, w8, lo
	ldp	x20, x19, [sp, #48]
	ldp	x22, x21, [sp, #32]
	ldp	x24, x23, [sp, #16]
	ldp	x29, x30, [sp], #64
	ret
.Lunix_path_BB18_64:
	mov	w11, #1
	cmp	x19, x20
	b.eq	.Lunix_path_BB18_62
.Lunix_path_BB18_65:
	ldrb	w12, [x23]
	cmp	w12, #47
	b.eq	.Lunix_path_BB18_74
	cmp	w12, #46
	b.ne	.Lunix_path_BB18_73
	cmp	x24, #1
	b.eq	.Lunix_path_BB18_83
	ldrb	w12, [x23, #1]
	cmp	w12, #47
	b.eq	.Lunix_path_BB18_83
	cmp	w12, #46
	b.ne	.Lunix_path_BB18_73
	cmp	x24, #2
	b.eq	.Lunix_path_BB18_72
	ldrb	w12, [x23, #2]
	cmp	w12, #47
	b.ne	.Lunix_path_BB18_73
.Lunix_path_BB18_72:
	mov	w12, #3
	ldrb	w13, [x9]
	cmp	w13, #47
	b.ne	.Lunix_path_BB18_75
	b	.Lunix_path_BB18_84
.Lunix_path_BB18_73:
	mov	w12, #4
	ldrb	w13, [x9]
	cmp	w13, #47
	b.ne	.Lunix_path_BB18_75
	b	.Lunix_path_BB18_84
.Lunix_path_BB18_74:
	mov	w12, #1
	ldrb	w13, [x9]
	cmp	w13, #47
	b.eq	.Lunix_path_BB18_84
.Lunix_path_BB18_75:
	cmp	w13, #46
	b.ne	.Lunix_path_BB18_82
	cmp	x8, #1
	b.eq	.Lunix_path_BB18_88
	ldrb	w13, [x9, #1]
	cmp	w13, #47
	b.eq	.Lunix_path_BB18_88
	cmp	w13, #46
	b.ne	.Lunix_path_BB18_82
	cmp	x8, #2
	b.eq	.Lunix_path_BB18_81
	ldrb	w13, [x9, #2]
	cmp	w13, #47
	b.ne	.Lunix_path_BB18_82
.Lunix_path_BB18_81:
	mov	w13, #3
	cmp	w12, w13
	mov	w12, #2
	csel	w0, wzr, w12, lo
	b.ne	.Lunix_path_BB18_89
	b	.Lunix_path_BB18_85
.Lunix_path_BB18_82:
	mov	w13, #4
	cmp	w12, w13
	mov	w12, #2
	csel	w0, wzr, w12, lo
	b.ne	.Lunix_path_BB18_89
	b	.Lunix_path_BB18_85
.Lunix_path_BB18_83:
	mov	w12, #2
	ldrb	w13, [x9]
	cmp	w13, #47
	b.ne	.Lunix_path_BB18_75
.Lunix_path_BB18_84:
	mov	w13, #1
	cmp	w12, w13
	mov	w12, #2
	csel	w0, wzr, w12, lo
	b.ne	.Lunix_path_BB18_89
.Lunix_path_BB18_85:
	cmp	x10, x24
	b.hs	.Lunix_path_BB18_87
	ldrb	w10, [x23, x11]
	cmp	w10, #47
	b.ne	.Lunix_path_BB18_91
.Lunix_path_BB18_87:
	mov	w10, wzr
	cmp	x11, x8
	b.hs	.Lunix_path_BB18_93
	b	.Lunix_path_BB18_92
.Lunix_path_BB18_88:
	mov	w13, #2
	cmp	w12, w13
	mov	w12, #2
	csel	w0, wzr, w12, lo
	b.eq	.Lunix_path_BB18_85
.Lunix_path_BB18_89:
	ldp	x20, x19, [sp, #48]
	ldp	x22, x21, [sp, #32]
	ldp	x24, x23, [sp, #16]
	ldp	x29, x30, [sp], #64
	ret
.Lunix_path_BB18_90:
	cmp	w11, w12
	b	.Lunix_path_BB18_95
.Lunix_path_BB18_91:
	add	w10, w10, #1
	cmp	x11, x8
	b.hs	.Lunix_path_BB18_93
.Lunix_path_BB18_92:
	ldrb	w8, [x9, x11]
	cmp	w8, #47
	b.ne	.Lunix_path_BB18_94
.Lunix_path_BB18_93:
	cmp	w10, wzr
	b	.Lunix_path_BB18_95
.Lunix_path_BB18_94:
	add	w8, w8, #1
	cmp	w10, w8
.Lunix_path_BB18_95:
	mov	w8, #2
	csel	w8, wzr, w8, lo
	csinc	w0, w8, wzr, ne
	ldp	x20, x19, [sp, #48]
	ldp	x22, x21, [sp, #32]
	ldp	x24, x23, [sp, #16]
	ldp	x29, x30, [sp], #64
	ret
.Lunix_path_func_end18:
	.size	unix_path.pair.Comparison.order_after_cut, .Lunix_path_func_end18-unix_path.pair.Comparison.order_after_cut
	.section	.text.std_alloc.vec.Vec.remove.b40003dd673f1bd1.,"ax",@progbits
	.p2align	2
	.type	std_alloc.vec.Vec.remove.b40003dd673f1bd1.,@function
// std_alloc::vec::Vec::remove::<#b40003dd673f1bd1>
std_alloc.vec.Vec.remove.b40003dd673f1bd1.:
	sub	sp, sp, #32
	add	x8, x2, x2, lsl #1
	ldp	x9, x11, [x1]
	lsl	x14, x8, #3
	ldr	x8, [x1, #16]
	stp	xzr, xzr, [x1, #8]
	sub	x10, x11, #1
	add	x12, x9, x14
	sub	x17, x10, x2
	ldr	x13, [x12, #16]
	ldr	q0, [x12]
	cmp	x17, #86
	str	x13, [sp, #16]
	str	q0, [sp]
	b.lo	.Lunix_path_BB19_8
	lsl	x13, x2, #3
	sub	x14, x13, x2, lsl #5
	neg	x13, x2
.Lunix_path_BB19_2:
	ldr	q1, [x12, #48]
	ldur	q0, [x12, #24]
	add	x15, x12, #264
	add	x16, x12, #312
	add	x17, x12, #360
	ldr	x18, [x12, #64]
	stur	q1, [x12, #24]
	ldr	q1, [x12, #96]
	sub	x13, x13, #85
	str	q0, [x12]
	ldur	q0, [x12, #72]
	ldr	x2, [x12, #2056]
	stur	q1, [x12, #72]
	ldr	q1, [x12, #144]
	sub	x14, x14, #2040
	str	q0, [x12, #48]
	ldur	q0, [x12, #120]
	stur	q1, [x12, #120]
	ldr	q1, [x12, #192]
	str	q0, [x12, #96]
	ldur	q0, [x12, #168]
	stur	q1, [x12, #168]
	ldr	q1, [x12, #240]
	str	q0, [x12, #144]
	ldur	q0, [x12, #216]
	stur	q1, [x12, #216]
	ldr	q1, [x12, #288]
	str	q0, [x12, #192]
	ldr	q0, [x15]
	str	q1, [x15]
	ldr	q1, [x12, #336]
	add	x15, x12, #408
	str	q0, [x12, #240]
	ldr	q0, [x16]
	str	q1, [x16]
	ldr	q1, [x12, #384]
	add	x16, x12, #456
	str	q0, [x12, #288]
	ldr	q0, [x17]
	str	q1, [x17]
	ldr	q1, [x12, #432]
	add	x17, x12, #504
	str	q0, [x12, #336]
	ldr	q0, [x15]
	str	q1, [x15]
	ldr	q1, [x12, #480]
	add	x15, x12, #552
	str	q0, [x12, #384]
	ldr	q0, [x16]
	str	q1, [x16]
	ldr	q1, [x12, #528]
	add	x16, x12, #600
	str	q0, [x12, #432]
	ldr	q0, [x17]
	str	q1, [x17]
	ldr	q1, [x12, #576]
	add	x17, x12, #648
	str	q0, [x12, #480]
	ldr	q0, [x15]
	str	q1, [x15]
	ldr	q1, [x12, #624]
	add	x15, x12, #696
	str	q0, [x12, #528]
	ldr	q0, [x16]
	str	q1, [x16]
	ldr	q1, [x12, #672]
	add	x16, x12, #744
	str	q0, [x12, #576]
	ldr	q0, [x17]
	str	q1, [x17]
	ldr	q1, [x12, #720]
	add	x17, x12, #792
	str	q0, [x12, #624]
	ldr	q0, [x15]
	str	q1, [x15]
	ldr	q1, [x12, #768]
	add	x15, x12, #840
	str	q0, [x12, #672]
	ldr	q0, [x16]
	str	q1, [x16]
	ldr	q1, [x12, #816]
	add	x16, x12, #888
	str	q0, [x12, #720]
	ldr	q0, [x17]
	str	q1, [x17]
	ldr	q1, [x12, #864]
	add	x17, x12, #936
	str	q0, [x12, #768]
	ldr	q0, [x15]
	str	q1, [x15]
	ldr	q1, [x12, #912]
	add	x15, x12, #984
	str	q0, [x12, #816]
	ldr	q0, [x16]
	str	q1, [x16]
	ldr	q1, [x12, #960]
	add	x16, x12, #1032
	str	q0, [x12, #864]
	ldr	q0, [x17]
	str	q1, [x17]
	ldr	q1, [x12, #1008]
	add	x17, x12, #1080
	str	q0, [x12, #912]
	ldr	q0, [x15]
	str	q1, [x15]
	ldr	q1, [x12, #1056]
	add	x15, x12, #1128
	str	q0, [x12, #960]
	ldr	q0, [x16]
	str	q1, [x16]
	ldr	q1, [x12, #1104]
	add	x16, x12, #1176
	str	q0, [x12, #1008]
	ldr	q0, [x17]
	str	q1, [x17]
	ldr	q1, [x12, #1152]
	add	x17, x12, #1224
	str	q0, [x12, #1056]
	ldr	q0, [x15]
	str	q1, [x15]
	ldr	q1, [x12, #1200]
	add	x15, x12, #1272
	str	q0, [x12, #1104]
	ldr	q0, [x16]
	str	q1, [x16]
	ldr	q1, [x12, #1248]
	add	x16, x12, #1320
	str	q0, [x12, #1152]
	ldr	q0, [x17]
	str	q1, [x17]
	ldr	q1, [x12, #1296]
	add	x17, x12, #1368
	str	q0, [x12, #1200]
	ldr	q0, [x15]
	str	q1, [x15]
	ldr	q1, [x12, #1344]
	add	x15, x12, #1416
	str	q0, [x12, #1248]
	ldr	q0, [x16]
	str	q1, [x16]
	ldr	q1, [x12, #1392]
	add	x16, x12, #1464
	str	q0, [x12, #1296]
	ldr	q0, [x17]
	str	q1, [x17]
	ldr	q1, [x12, #1440]
	add	x17, x12, #1512
	str	q0, [x12, #1344]
	ldr	q0, [x15]
	str	q1, [x15]
	ldr	q1, [x12, #1488]
	add	x15, x12, #1560
	str	q0, [x12, #1392]
	ldr	q0, [x16]
	str	q1, [x16]
	ldr	q1, [x12, #1536]
	add	x16, x12, #1608
	str	q0, [x12, #1440]
	ldr	q0, [x17]
	str	q1, [x17]
	ldr	q1, [x12, #1584]
	add	x17, x12, #1656
	str	q0, [x12, #1488]
	ldr	q0, [x15]
	str	q1, [x15]
	ldr	q1, [x12, #1632]
	add	x15, x12, #1704
	str	q0, [x12, #1536]
	ldr	q0, [x16]
	str	q1, [x16]
	ldr	q1, [x12, #1680]
	add	x16, x12, #1752
	str	q0, [x12, #1584]
	ldr	q0, [x17]
	str	q1, [x17]
	ldr	q1, [x12, #1728]
	add	x17, x12, #1800
	str	q0, [x12, #1632]
	ldr	q0, [x15]
	str	q1, [x15]
	ldr	q1, [x12, #1776]
	add	x15, x12, #1848
	str	q0, [x12, #1680]
	ldr	q0, [x16]
	str	q1, [x16]
	ldr	q1, [x12, #1824]
	add	x16, x12, #1896
	str	q0, [x12, #1728]
	ldr	q0, [x17]
	str	q1, [x17]
	ldr	q1, [x12, #1872]
	add	x17, x12, #1944
	str	q0, [x12, #1776]
	ldr	q0, [x15]
	str	q1, [x15]
	ldr	q1, [x12, #1920]
	add	x15, x12, #1992
	str	q0, [x12, #1824]
	ldr	q0, [x16]
	str	q1, [x16]
	ldr	q1, [x12, #1968]
	add	x16, x12, #2040
	str	q0, [x12, #1872]
	ldr	q0, [x17]
	str	q1, [x17]
	ldr	x17, [x12, #40]
	ldr	q1, [x16]
	str	x18, [x12, #40]
	ldr	x18, [x12, #112]
	str	x17, [x12, #16]
	ldr	x17, [x12, #88]
	str	x18, [x12, #88]
	ldr	x18, [x12, #160]
	str	x17, [x12, #64]
	ldr	x17, [x12, #136]
	str	x18, [x12, #136]
	ldr	x18, [x12, #208]
	str	x17, [x12, #112]
	ldr	x17, [x12, #184]
	str	x18, [x12, #184]
	ldr	x18, [x12, #256]
	str	x17, [x12, #160]
	ldr	x17, [x12, #232]
	str	x18, [x12, #232]
	ldr	x18, [x12, #304]
	str	x17, [x12, #208]
	ldr	x17, [x12, #280]
	str	x18, [x12, #280]
	ldr	x18, [x12, #352]
	str	x17, [x12, #256]
	ldr	x17, [x12, #328]
	str	x18, [x12, #328]
	ldr	x18, [x12, #400]
	str	x17, [x12, #304]
	ldr	x17, [x12, #376]
	str	x18, [x12, #376]
	ldr	x18, [x12, #448]
	str	x17, [x12, #352]
	ldr	x17, [x12, #424]
	str	x18, [x12, #424]
	ldr	x18, [x12, #496]
	str	x17, [x12, #400]
	ldr	x17, [x12, #472]
	str	x18, [x12, #472]
	ldr	x18, [x12, #544]
	str	x17, [x12, #448]
	ldr	x17, [x12, #520]
	str	x18, [x12, #520]
	ldr	x18, [x12, #592]
	str	x17, [x12, #496]
	ldr	x17, [x12, #568]
	str	x18, [x12, #568]
	ldr	x18, [x12, #640]
	str	x17, [x12, #544]
	ldr	x17, [x12, #616]
	str	x18, [x12, #616]
	ldr	x18, [x12, #688]
	str	x17, [x12, #592]
	ldr	x17, [x12, #664]
	str	x18, [x12, #664]
	ldr	x18, [x12, #736]
	str	x17, [x12, #640]
	ldr	x17, [x12, #712]
	str	x18, [x12, #712]
	ldr	x18, [x12, #784]
	str	x17, [x12, #688]
	ldr	x17, [x12, #760]
	str	x18, [x12, #760]
	ldr	x18, [x12, #832]
	str	x17, [x12, #736]
	ldr	x17, [x12, #808]
	str	x18, [x12, #808]
	ldr	x18, [x12, #880]
	str	x17, [x12, #784]
	ldr	x17, [x12, #856]
	str	x18, [x12, #856]
	ldr	x18, [x12, #928]
	str	x17, [x12, #832]
	ldr	x17, [x12, #904]
	str	x18, [x12, #904]
	ldr	x18, [x12, #976]
	str	x17, [x12, #880]
	ldr	x17, [x12, #952]
	str	x18, [x12, #952]
	ldr	x18, [x12, #1024]
	str	x17, [x12, #928]
	ldr	x17, [x12, #1000]
	str	x18, [x12, #1000]
	ldr	x18, [x12, #1072]
	str	x17, [x12, #976]
	ldr	x17, [x12, #1048]
	str	x18, [x12, #1048]
	ldr	x18, [x12, #1120]
	str	x17, [x12, #1024]
	ldr	x17, [x12, #1096]
	str	x18, [x12, #1096]
	ldr	x18, [x12, #1168]
	str	x17, [x12, #1072]
	ldr	x17, [x12, #1144]
	str	x18, [x12, #1144]
	ldr	x18, [x12, #1216]
	str	x17, [x12, #1120]
	ldr	x17, [x12, #1192]
	str	x18, [x12, #1192]
	ldr	x18, [x12, #1264]
	str	x17, [x12, #1168]
	ldr	x17, [x12, #1240]
	str	x18, [x12, #1240]
	ldr	x18, [x12, #1312]
	str	x17, [x12, #1216]
	ldr	x17, [x12, #1288]
	str	x18, [x12, #1288]
	ldr	x18, [x12, #1360]
	str	x17, [x12, #1264]
	ldr	x17, [x12, #1336]
	str	x18, [x12, #1336]
	ldr	x18, [x12, #1408]
	str	x17, [x12, #1312]
	ldr	x17, [x12, #1384]
	str	x18, [x12, #1384]
	ldr	x18, [x12, #1456]
	str	x17, [x12, #1360]
	ldr	x17, [x12, #1432]
	str	x18, [x12, #1432]
	ldr	x18, [x12, #1504]
	str	x17, [x12, #1408]
	ldr	x17, [x12, #1480]
	str	x18, [x12, #1480]
	ldr	x18, [x12, #1552]
	str	x17, [x12, #1456]
	ldr	x17, [x12, #1528]
	str	x18, [x12, #1528]
	ldr	x18, [x12, #1600]
	str	x17, [x12, #1504]
	ldr	x17, [x12, #1576]
	str	x18, [x12, #1576]
	ldr	x18, [x12, #1648]
	str	x17, [x12, #1552]
	ldr	x17, [x12, #1624]
	str	x18, [x12, #1624]
	ldr	x18, [x12, #1696]
	str	x17, [x12, #1600]
	ldr	x17, [x12, #1672]
	str	x18, [x12, #1672]
	ldr	x18, [x12, #1744]
	str	x17, [x12, #1648]
	ldr	x17, [x12, #1720]
	str	x18, [x12, #1720]
	ldr	x18, [x12, #1792]
	str	x17, [x12, #1696]
	ldr	x17, [x12, #1768]
	str	x18, [x12, #1768]
	ldr	x18, [x12, #1840]
	str	x17, [x12, #1744]
	ldr	x17, [x12, #1816]
	str	x18, [x12, #1816]
	ldr	x18, [x12, #1888]
	str	x17, [x12, #1792]
	ldr	x17, [x12, #1864]
	str	x18, [x12, #1864]
	ldr	x18, [x12, #1936]
	str	x17, [x12, #1840]
	ldr	x17, [x12, #1912]
	str	x18, [x12, #1912]
	ldr	x18, [x12, #1984]
	str	x17, [x12, #1888]
	ldr	x17, [x12, #1960]
	str	q0, [x12, #1920]
	ldr	q0, [x15]
	str	x17, [x12, #1936]
	ldr	x17, [x12, #2008]
	str	x18, [x12, #1960]
	ldr	x18, [x12, #2032]
	str	q0, [x12, #1968]
	ldr	q0, [x12, #2016]
	str	x17, [x12, #1984]
	add	x17, x10, x13
	str	q1, [x12, #2016]
	cmp	x17, #85
	str	x18, [x12, #2008]
	str	x2, [x12, #2032]
	mov	x12, x16
	str	q0, [x15]
	b.hi	.Lunix_path_BB19_2
	cmp	x13, #1
	b.ne	.Lunix_path_BB19_7
	cbz	x11, .Lunix_path_BB19_11
	mov	w12, #24
	madd	x11, x11, x12, x9
	sub	x11, x11, #24
.Lunix_path_BB19_6:
	ldr	q0, [x11]
	ldr	x12, [x11, #16]
	sub	x13, x11, #24
	subs	x17, x17, #1
	stur	q0, [x11, #-24]
	stur	x12, [x11, #-8]
	mov	x11, x13
	b.ne	.Lunix_path_BB19_6
	b	.Lunix_path_BB19_11
.Lunix_path_BB19_7:
	neg	x14, x14
	neg	x2, x13
.Lunix_path_BB19_8:
	cmp	x10, x2
	b.eq	.Lunix_path_BB19_11
	add	x11, x9, x14
.Lunix_path_BB19_10:
	ldur	q0, [x11, #24]
	ldr	x12, [x11, #40]
	add	x13, x11, #24
	subs	x17, x17, #1
	str	q0, [x11]
	str	x12, [x11, #16]
	mov	x11, x13
	b.ne	.Lunix_path_BB19_10
.Lunix_path_BB19_11:
	ldr	q0, [sp]
	str	x8, [x1, #16]
	ldr	x8, [sp, #16]
	stp	x9, x10, [x1]
	str	q0, [x0]
	str	x8, [x0, #16]
	add	sp, sp, #32
	ret
.Lunix_path_func_end19:
	.size	std_alloc.vec.Vec.remove.b40003dd673f1bd1., .Lunix_path_func_end19-std_alloc.vec.Vec.remove.b40003dd673f1bd1.
	.section	.rodata.cst16,"aM",@progbits,16
	.p2align	4, 0x0
.Lunix_path_CPI20_0:
	.xword	1
	.xword	0
	.section	.text.std_alloc.vec.lodged.Vec.T.Lodged.insert_reserved.23.unix_path.buf.PathBuf.,"ax",@progbits
	.p2align	2
	.type	std_alloc.vec.lodged.Vec.T.Lodged.insert_reserved.23.unix_path.buf.PathBuf.,@function
// std_alloc::vec::lodged::Vec+T+Lodged::insert_reserved::<23'unix_path::buf::PathBuf>
std_alloc.vec.lodged.Vec.T.Lodged.insert_reserved.23.unix_path.buf.PathBuf.:
	ldr	q0, [x2]
	ldr	x9, [x2, #16]
	str	q0, [sp, #-32]!
	str	x9, [sp, #16]
	ldp	x8, x9, [x0]
	ldur	q0, [x0, #8]
	cmn	x1, #1
	stp	xzr, xzr, [x0, #8]
	b.eq	.Lunix_path_BB20_4
	cmp	x9, x1
	b.eq	.Lunix_path_BB20_17
	mov	w10, #24
	madd	x10, x9, x10, x8
	sub	x9, x9, x1
.Lunix_path_BB20_3:
	ldur	q1, [x10, #-24]
	ldur	x11, [x10, #-8]
	sub	x12, x10, #24
	subs	x9, x9, #1
	str	q1, [x10]
	str	x11, [x10, #16]
	mov	x10, x12
	b.ne	.Lunix_path_BB20_3
	b	.Lunix_path_BB20_17
.Lunix_path_BB20_4:
	add	x10, x9, #1
	cmp	x10, #86
	b.lo	.Lunix_path_BB20_11
	mov	x13, xzr
	add	x12, x8, #1992
	b	.Lunix_path_BB20_8
.Lunix_path_BB20_6:
	mov	w13, #24
	madd	x13, x11, x13, x8
	sub	x14, x13, #24
	add	x16, x13, #264
	ldr	q1, [x14]
	ldr	x15, [x14, #16]
	str	q1, [x13]
	stur	q1, [x13, #24]
	str	q1, [x13, #48]
	stur	q1, [x13, #72]
	str	q1, [x13, #96]
	stur	q1, [x13, #120]
	str	q1, [x13, #144]
	stur	q1, [x13, #168]
	ldr	q1, [x14]
	str	x15, [x13, #16]
	str	x15, [x13, #40]
	str	x15, [x13, #64]
	str	x15, [x13, #88]
	str	x15, [x13, #112]
	str	x15, [x13, #136]
	str	x15, [x13, #160]
	str	x15, [x13, #184]
	ldr	x15, [x14, #16]
	str	q1, [x16]
	add	x16, x13, #312
	str	q1, [x16]
	add	x16, x13, #360
	str	x15, [x13, #208]
	str	q1, [x13, #192]
	str	x15, [x13, #232]
	stur	q1, [x13, #216]
	str	x15, [x13, #256]
	str	q1, [x13, #240]
	str	x15, [x13, #280]
	str	x15, [x13, #304]
	str	q1, [x13, #288]
	str	x15, [x13, #328]
	str	x15, [x13, #352]
	str	q1, [x13, #336]
	str	x15, [x13, #376]
	ldr	x15, [x14, #16]
	str	q1, [x16]
	ldr	q1, [x14]
	add	x16, x13, #408
	str	x15, [x13, #400]
	ldr	x15, [x14, #16]
	str	q1, [x13, #384]
	ldr	q1, [x14]
	str	x15, [x13, #424]
	ldr	x15, [x14, #16]
	str	q1, [x16]
	ldr	q1, [x14]
	add	x16, x13, #456
	str	x15, [x13, #448]
	ldr	x15, [x14, #16]
	str	q1, [x13, #432]
	ldr	q1, [x14]
	str	x15, [x13, #472]
	ldr	x15, [x14, #16]
	str	q1, [x16]
	ldr	q1, [x14]
	add	x16, x13, #504
	str	x15, [x13, #496]
	ldr	x15, [x14, #16]
	str	q1, [x13, #480]
	ldr	q1, [x14]
	str	x15, [x13, #520]
	ldr	x15, [x14, #16]
	str	q1, [x16]
	ldr	q1, [x14]
	add	x16, x13, #552
	str	x15, [x13, #544]
	ldr	x15, [x14, #16]
	str	q1, [x13, #528]
	ldr	q1, [x14]
	str	x15, [x13, #568]
	ldr	x15, [x14, #16]
	str	q1, [x16]
	ldr	q1, [x14]
	add	x16, x13, #600
	str	x15, [x13, #592]
	ldr	x15, [x14, #16]
	str	q1, [x13, #576]
	ldr	q1, [x14]
	str	x15, [x13, #616]
	ldr	x15, [x14, #16]
	str	q1, [x16]
	ldr	q1, [x14]
	add	x16, x13, #648
	str	x15, [x13, #640]
	ldr	x15, [x14, #16]
	str	q1, [x13, #624]
	ldr	q1, [x14]
	str	x15, [x13, #664]
	ldr	x15, [x14, #16]
	str	q1, [x16]
	ldr	q1, [x14]
	add	x16, x13, #696
	str	x15, [x13, #688]
	ldr	x15, [x14, #16]
	str	q1, [x13, #672]
	ldr	q1, [x14]
	str	x15, [x13, #712]
	ldr	x15, [x14, #16]
	str	q1, [x16]
	ldr	q1, [x14]
	add	x16, x13, #744
	str	x15, [x13, #736]
	ldr	x15, [x14, #16]
	str	q1, [x13, #720]
	ldr	q1, [x14]
	str	x15, [x13, #760]
	ldr	x15, [x14, #16]
	str	q1, [x16]
	ldr	q1, [x14]
	add	x16, x13, #792
	str	x15, [x13, #784]
	ldr	x15, [x14, #16]
	str	q1, [x13, #768]
	ldr	q1, [x14]
	str	x15, [x13, #808]
	ldr	x15, [x14, #16]
	str	q1, [x16]
	ldr	q1, [x14]
	add	x16, x13, #840
	str	x15, [x13, #832]
	ldr	x15, [x14, #16]
	str	q1, [x13, #816]
	ldr	q1, [x14]
	str	x15, [x13, #856]
	ldr	x15, [x14, #16]
	str	q1, [x16]
	ldr	q1, [x14]
	add	x16, x13, #888
	str	x15, [x13, #880]
	ldr	x15, [x14, #16]
	str	q1, [x13, #864]
	ldr	q1, [x14]
	str	x15, [x13, #904]
	ldr	x15, [x14, #16]
	str	q1, [x16]
	ldr	q1, [x14]
	add	x16, x13, #936
	str	x15, [x13, #928]
	ldr	x15, [x14, #16]
	str	q1, [x13, #912]
	ldr	q1, [x14]
	str	x15, [x13, #952]
	ldr	x15, [x14, #16]
	str	q1, [x16]
	ldr	q1, [x14]
	add	x16, x13, #984
	str	x15, [x13, #976]
	ldr	x15, [x14, #16]
	str	q1, [x13, #960]
	ldr	q1, [x14]
	str	x15, [x13, #1000]
	ldr	x15, [x14, #16]
	str	q1, [x16]
	ldr	q1, [x14]
	add	x16, x13, #1032
	str	x15, [x13, #1024]
	ldr	x15, [x14, #16]
	str	q1, [x13, #1008]
	ldr	q1, [x14]
	str	x15, [x13, #1048]
	ldr	x15, [x14, #16]
	str	q1, [x16]
	ldr	q1, [x14]
	add	x16, x13, #1080
	str	x15, [x13, #1072]
	ldr	x15, [x14, #16]
	str	q1, [x13, #1056]
	ldr	q1, [x14]
	str	x15, [x13, #1096]
	ldr	x15, [x14, #16]
	str	q1, [x16]
	ldr	q1, [x14]
	add	x16, x13, #1128
	str	x15, [x13, #1120]
	ldr	x15, [x14, #16]
	str	q1, [x13, #1104]
	ldr	q1, [x14]
	str	x15, [x13, #1144]
	ldr	x15, [x14, #16]
	str	q1, [x16]
	ldr	q1, [x14]
	add	x16, x13, #1176
	str	x15, [x13, #1168]
	ldr	x15, [x14, #16]
	str	q1, [x13, #1152]
	ldr	q1, [x14]
	str	x15, [x13, #1192]
	ldr	x15, [x14, #16]
	str	q1, [x16]
	ldr	q1, [x14]
	add	x16, x13, #1224
	str	x15, [x13, #1216]
	ldr	x15, [x14, #16]
	str	q1, [x13, #1200]
	ldr	q1, [x14]
	str	x15, [x13, #1240]
	ldr	x15, [x14, #16]
	str	q1, [x16]
	ldr	q1, [x14]
	add	x16, x13, #1272
	str	x15, [x13, #1264]
	ldr	x15, [x14, #16]
	str	q1, [x13, #1248]
	ldr	q1, [x14]
	str	x15, [x13, #1288]
	ldr	x15, [x14, #16]
	str	q1, [x16]
	ldr	q1, [x14]
	add	x16, x13, #1320
	str	x15, [x13, #1312]
	ldr	x15, [x14, #16]
	str	q1, [x13, #1296]
	ldr	q1, [x14]
	str	x15, [x13, #1336]
	ldr	x15, [x14, #16]
	str	q1, [x16]
	ldr	q1, [x14]
	add	x16, x13, #1368
	str	x15, [x13, #1360]
	ldr	x15, [x14, #16]
	str	q1, [x13, #1344]
	ldr	q1, [x14]
	str	x15, [x13, #1384]
	ldr	x15, [x14, #16]
	str	q1, [x16]
	ldr	q1, [x14]
	add	x16, x13, #1416
	str	x15, [x13, #1408]
	ldr	x15, [x14, #16]
	str	q1, [x13, #1392]
	ldr	q1, [x14]
	str	x15, [x13, #1432]
	ldr	x15, [x14, #16]
	str	q1, [x16]
	ldr	q1, [x14]
	add	x16, x13, #1464
	str	x15, [x13, #1456]
	ldr	x15, [x14, #16]
	str	q1, [x13, #1440]
	ldr	q1, [x14]
	str	x15, [x13, #1480]
	ldr	x15, [x14, #16]
	str	q1, [x16]
	ldr	q1, [x14]
	add	x16, x13, #1512
	str	x15, [x13, #1504]
	ldr	x15, [x14, #16]
	str	q1, [x13, #1488]
	ldr	q1, [x14]
	str	x15, [x13, #1528]
	ldr	x15, [x14, #16]
	str	q1, [x16]
	ldr	q1, [x14]
	add	x16, x13, #1560
	str	x15, [x13, #1552]
	ldr	x15, [x14, #16]
	str	q1, [x13, #1536]
	ldr	q1, [x14]
	str	x15, [x13, #1576]
	ldr	x15, [x14, #16]
	str	q1, [x16]
	ldr	q1, [x14]
	add	x16, x13, #1608
	str	x15, [x13, #1600]
	ldr	x15, [x14, #16]
	str	q1, [x13, #1584]
	ldr	q1, [x14]
	str	x15, [x13, #1624]
	ldr	x15, [x14, #16]
	str	q1, [x16]
	ldr	q1, [x14]
	add	x16, x13, #1656
	str	x15, [x13, #1648]
	ldr	x15, [x14, #16]
	str	q1, [x13, #1632]
	ldr	q1, [x14]
	str	x15, [x13, #1672]
	ldr	x15, [x14, #16]
	str	q1, [x16]
	ldr	q1, [x14]
	add	x16, x13, #1704
	str	x15, [x13, #1696]
	ldr	x15, [x14, #16]
	str	q1, [x13, #1680]
	ldr	q1, [x14]
	str	x15, [x13, #1720]
	ldr	x15, [x14, #16]
	str	q1, [x16]
	ldr	q1, [x14]
	add	x16, x13, #1752
	str	x15, [x13, #1744]
	ldr	x15, [x14, #16]
	str	q1, [x13, #1728]
	ldr	q1, [x14]
	str	x15, [x13, #1768]
	ldr	x15, [x14, #16]
	str	q1, [x16]
	ldr	q1, [x14]
	add	x16, x13, #1800
	str	x15, [x13, #1792]
	ldr	x15, [x14, #16]
	str	q1, [x13, #1776]
	ldr	q1, [x14]
	str	x15, [x13, #1816]
	ldr	x15, [x14, #16]
	str	q1, [x16]
	ldr	q1, [x14]
	add	x16, x13, #1848
	str	x15, [x13, #1840]
	ldr	x15, [x14, #16]
	str	q1, [x13, #1824]
	ldr	q1, [x14]
	str	x15, [x13, #1864]
	ldr	x15, [x14, #16]
	str	q1, [x16]
	ldr	q1, [x14]
	add	x16, x13, #1896
	str	x15, [x13, #1888]
	ldr	x15, [x14, #16]
	str	q1, [x13, #1872]
	ldr	q1, [x14]
	str	x15, [x13, #1912]
	ldr	x15, [x14, #16]
	str	q1, [x16]
	ldr	q1, [x14]
	add	x16, x13, #1944
	str	x15, [x13, #1936]
	ldr	x15, [x14, #16]
	str	q1, [x13, #1920]
	ldr	q1, [x14]
	str	x15, [x13, #1960]
	ldr	x15, [x14, #16]
	str	q1, [x16]
	ldr	q1, [x14]
	add	x16, x13, #1992
	str	x15, [x13, #1984]
	ldr	x15, [x14, #16]
	str	q1, [x13, #1968]
	ldr	q1, [x14]
	str	x15, [x13, #2008]
	ldr	x15, [x14, #16]
	str	q1, [x16]
	ldr	q1, [x14]
	str	x15, [x13, #2032]
	str	q1, [x13, #2016]
.Lunix_path_BB20_7:
	add	x13, x11, #85
	add	x12, x12, #2040
	sub	x14, x10, x13
	cmp	x14, #85
	b.ls	.Lunix_path_BB20_14
.Lunix_path_BB20_8:
	mov	x11, x13
	cbz	x13, .Lunix_path_BB20_6
	mov	w13, #85
	mov	x14, x12
.Lunix_path_BB20_10:
	ldr	q1, [x14]
	ldr	x15, [x14, #16]
	sub	x13, x13, #1
	stur	q1, [x14, #24]
	str	x15, [x14, #40]
	sub	x14, x14, #24
	cbnz	x13, .Lunix_path_BB20_10
	b	.Lunix_path_BB20_7
.Lunix_path_BB20_11:
	cbz	x10, .Lunix_path_BB20_17
	add	x9, x1, x1, lsl #1
	mov	x11, x8
	lsl	x9, x9, #3
.Lunix_path_BB20_13:
	add	x12, x11, x9
	subs	x10, x10, #1
	ldr	x13, [x12, #16]
	ldr	q1, [x12]
	str	x13, [x11, #16]
	str	q1, [x11], #24
	b.ne	.Lunix_path_BB20_13
	b	.Lunix_path_BB20_17
.Lunix_path_BB20_14:
	cmp	x10, x13
	b.eq	.Lunix_path_BB20_17
	mov	w10, #24
	madd	x10, x9, x10, x8
	sub	x9, x9, x11
	sub	x9, x9, #84
.Lunix_path_BB20_16:
	ldur	q1, [x10, #-24]
	ldur	x11, [x10, #-8]
	sub	x12, x10, #24
	subs	x9, x9, #1
	str	q1, [x10]
	str	x11, [x10, #16]
	mov	x10, x12
	b.ne	.Lunix_path_BB20_16
.Lunix_path_BB20_17:
	mov	w9, #24
	adrp	x10, .Lunix_path_CPI20_0
	ldr	q1, [sp]
	madd	x9, x1, x9, x8
	ldr	q2, [x10, :lo12:.Lunix_path_CPI20_0]
	ldr	x10, [sp, #16]
	add	v0.2d, v0.2d, v2.2d
	str	q1, [x9]
	str	x10, [x9, #16]
	str	x8, [x0]
	stur	q0, [x0, #8]
	add	sp, sp, #32
	ret
.Lunix_path_func_end20:
	.size	std_alloc.vec.lodged.Vec.T.Lodged.insert_reserved.23.unix_path.buf.PathBuf., .Lunix_path_func_end20-std_alloc.vec.lodged.Vec.T.Lodged.insert_reserved.23.unix_path.buf.PathBuf.
	.section	.text.std_collections.btree.iter.Cursor.advance.23.unix_path.buf.PathBuf.,"ax",@progbits
	.p2align	2
	.type	std_collections.btree.iter.Cursor.advance.23.unix_path.buf.PathBuf.,@function
// std_collections::btree::iter::Cursor::advance::<23'unix_path::buf::PathBuf,()>
std_collections.btree.iter.Cursor.advance.23.unix_path.buf.PathBuf.:
	cmn	x1, #1
	b.eq	.Lunix_path_BB21_3
	ldr	x8, [x2]
	and	x9, x1, #0xf
	ldrh	w10, [x8]
	cmp	x9, x10
	b.hs	.Lunix_path_BB21_5
	mov	w10, #24
	mov	w12, #1
	mov	x3, x2
	umaddl	x10, w9, w10, x8
	add	x9, x8, #368
	add	x8, x1, #1
	add	x10, x10, #8
	cmp	x8, x4
	b.ne	.Lunix_path_BB21_15
	b	.Lunix_path_BB21_20
.Lunix_path_BB21_3:
	ldr	x11, [x3]
	ldrh	w8, [x11, #2]
	cmp	w8, #1
	b.ne	.Lunix_path_BB21_17
	mov	x12, xzr
	mov	x10, xzr
	mov	x9, xzr
	mov	x8, xzr
	cmp	xzr, x4
	b.ne	.Lunix_path_BB21_15
	b	.Lunix_path_BB21_20
.Lunix_path_BB21_5:
	ldr	x9, [x3]
	ldrh	w14, [x9, #2]
	cmp	w14, #1
	b.eq	.Lunix_path_BB21_16
	mov	x12, xzr
	mov	x8, xzr
	mov	x11, xzr
	mov	w10, wzr
	mov	x13, xzr
.Lunix_path_BB21_7:
	ubfiz	x14, x14, #2, #32
	sub	x14, x14, #4
	lsr	x14, x1, x14
	and	x15, x14, #0xf
	ldrh	w14, [x9]
	add	x16, x9, x15, lsl #3
	cmp	x15, x14
	ldr	x9, [x16, #368]
	csel	x8, x8, x13, hs
	orr	x13, x15, x13, lsl #4
	csel	x11, x11, x3, hs
	csinc	w10, w10, wzr, hs
	csel	x12, x12, x15, hs
	ldrh	w14, [x9, #2]
	add	x3, x16, #368
	cmp	w14, #1
	b.ne	.Lunix_path_BB21_7
	cbz	w10, .Lunix_path_BB21_16
	mov	w9, #24
	ldr	x13, [x11]
	madd	x10, x12, x9, x13
	add	x12, x12, #1
	ldrh	w9, [x13, #2]
	cmp	w9, #1
	add	x9, x13, #368
	add	x10, x10, #8
	b.eq	.Lunix_path_BB21_14
	lsl	x14, x12, #3
	add	x8, x12, x8, lsl #4
	ldr	x11, [x9, x14]
	ldrh	w15, [x11, #2]
	cmp	w15, #1
	b.eq	.Lunix_path_BB21_13
.Lunix_path_BB21_11:
	mov	x13, x11
	ldr	x11, [x11, #368]
	lsl	x8, x8, #4
	ldrh	w12, [x11, #2]
	cmp	w12, #1
	b.ne	.Lunix_path_BB21_11
	mov	x14, xzr
.Lunix_path_BB21_13:
	add	x11, x13, x14
	mov	x12, xzr
	add	x11, x11, #368
.Lunix_path_BB21_14:
	add	x8, x12, x8, lsl #4
	mov	w12, #1
	mov	x3, x11
	cmp	x8, x4
	b.eq	.Lunix_path_BB21_20
.Lunix_path_BB21_15:
	stp	x12, x10, [x0]
	mov	w10, #1
	stp	x9, x10, [x0, #16]
	stp	x8, x3, [x0, #32]
	ret
.Lunix_path_BB21_16:
	movi	v0.2d, #0000000000000000
	stp	q0, q0, [x0, #16]
	str	q0, [x0]
	ret
.Lunix_path_BB21_17:
	ldr	x8, [x11, #368]
	ldrh	w9, [x8, #2]
	cmp	w9, #1
	b.eq	.Lunix_path_BB21_19
.Lunix_path_BB21_18:
	mov	x11, x8
	ldr	x8, [x8, #368]
	ldrh	w9, [x8, #2]
	cmp	w9, #1
	b.ne	.Lunix_path_BB21_18
.Lunix_path_BB21_19:
	mov	x12, xzr
	mov	x10, xzr
	mov	x9, xzr
	mov	x8, xzr
	add	x3, x11, #368
	cmp	xzr, x4
	b.ne	.Lunix_path_BB21_15
.Lunix_path_BB21_20:
	stp	x12, x10, [x0]
	stp	x9, xzr, [x0, #16]
	stp	xzr, xzr, [x0, #32]
	ret
.Lunix_path_func_end21:
	.size	std_collections.btree.iter.Cursor.advance.23.unix_path.buf.PathBuf., .Lunix_path_func_end21-std_collections.btree.iter.Cursor.advance.23.unix_path.buf.PathBuf.
	.section	.rodata.cst16,"aM",@progbits,16
	.p2align	4, 0x0
.Lunix_path_CPI22_0:
	.byte	1
	.byte	2
	.byte	4
	.byte	8
	.byte	16
	.byte	32
	.byte	64
	.byte	128
	.byte	1
	.byte	2
	.byte	4
	.byte	8
	.byte	16
	.byte	32
	.byte	64
	.byte	128
	.section	.rodata.cst8,"aM",@progbits,8
	.p2align	3, 0x0
.Lunix_path_CPI22_1:
	.byte	1
	.byte	2
	.byte	4
	.byte	8
	.byte	16
	.byte	32
	.byte	64
	.byte	128
	.section	.text.unix_path.pair.Comparison.rest_after_cut,"ax",@progbits
	.p2align	2
	.type	unix_path.pair.Comparison.rest_after_cut,@function
// unix_path::pair::Comparison::rest_after_cut
unix_path.pair.Comparison.rest_after_cut:
	stp	x29, x30, [sp, #-64]!
	str	x23, [sp, #16]
	mov	x23, x1
	mov	x29, sp
	stp	x22, x21, [sp, #32]
	mov	x21, x4
	mov	x22, x2
	stp	x20, x19, [sp, #48]
	mov	x20, x3
	mov	x19, x0
	b	.Lunix_path_BB22_3
.Lunix_path_BB22_1:
	cbz	x10, .Lunix_path_BB22_57
.Lunix_path_BB22_2:
	add	x23, x23, x10
	sub	x22, x22, x10
	add	x20, x9, x10
	sub	x21, x8, x10
.Lunix_path_BB22_3:
	mov	x8, xzr
	b	.Lunix_path_BB22_5
.Lunix_path_BB22_4:
	mov	w9, #1
	add	x8, x9, x8
	cmp	x8, #4
	b.hs	.Lunix_path_BB22_11
.Lunix_path_BB22_5:
	cmp	x8, x22
	b.hs	.Lunix_path_BB22_12
	ldrb	w9, [x23, x8]
	cmp	w9, #47
	b.eq	.Lunix_path_BB22_4
	cmp	w9, #46
	b.ne	.Lunix_path_BB22_12
	add	x9, x8, #1
	cmp	x9, x22
	b.eq	.Lunix_path_BB22_4
	ldrb	w9, [x23, x9]
	cmp	w9, #47
	b.ne	.Lunix_path_BB22_12
	mov	w9, #2
	add	x8, x9, x8
	cmp	x8, #4
	b.lo	.Lunix_path_BB22_5
.Lunix_path_BB22_11:
	mov	x0, x23
	mov	x1, x22
	mov	x2, x8
	bl	unix_path.filler.filler_end_from
	mov	x8, x0
.Lunix_path_BB22_12:
	mov	x2, xzr
	add	x23, x23, x8
	sub	x22, x22, x8
	b	.Lunix_path_BB22_14
.Lunix_path_BB22_13:
	mov	w8, #1
	add	x2, x8, x2
	cmp	x2, #4
	b.hs	.Lunix_path_BB22_20
.Lunix_path_BB22_14:
	cmp	x2, x21
	b.hs	.Lunix_path_BB22_21
	ldrb	w8, [x20, x2]
	cmp	w8, #47
	b.eq	.Lunix_path_BB22_13
	cmp	w8, #46
	b.ne	.Lunix_path_BB22_21
	add	x8, x2, #1
	cmp	x8, x21
	b.eq	.Lunix_path_BB22_13
	ldrb	w8, [x20, x8]
	cmp	w8, #47
	b.ne	.Lunix_path_BB22_21
	mov	w8, #2
	add	x2, x8, x2
	cmp	x2, #4
	b.lo	.Lunix_path_BB22_14
.Lunix_path_BB22_20:
	mov	x0, x20
	mov	x1, x21
	bl	unix_path.filler.filler_end_from
	mov	x2, x0
.Lunix_path_BB22_21:
	subs	x8, x21, x2
	b.eq	.Lunix_path_BB22_58
	cmp	x8, x22
	add	x9, x20, x2
	csel	x11, x8, x22, lo
	cmp	x11, #15
	b.hi	.Lunix_path_BB22_28
	cmp	x11, #7
	b.hi	.Lunix_path_BB22_34
	mov	x10, xzr
	cbz	x22, .Lunix_path_BB22_41
.Lunix_path_BB22_25:
	ldrb	w12, [x23, x10]
	ldrb	w13, [x9, x10]
	cmp	w12, w13
	b.ne	.Lunix_path_BB22_41
	add	x10, x10, #1
	cmp	x11, x10
	b.ne	.Lunix_path_BB22_25
	mov	x10, x11
	cmp	x11, x22
	b.lo	.Lunix_path_BB22_42
	b	.Lunix_path_BB22_43
.Lunix_path_BB22_28:
	ldr	q0, [x23]
	ldr	q1, [x9]
	adrp	x10, .Lunix_path_CPI22_0
	cmeq	v1.16b, v0.16b, v1.16b
	ldr	q0, [x10, :lo12:.Lunix_path_CPI22_0]
	bic	v1.16b, v0.16b, v1.16b
	addp	v1.16b, v1.16b, v1.16b
	addp	v1.16b, v1.16b, v1.16b
	addp	v1.16b, v1.16b, v1.16b
	umov	w10, v1.h[0]
	orr	w10, w10, #0x10000
	rbit	w10, w10
	clz	w10, w10
	cmp	w10, #16
	b.lo	.Lunix_path_BB22_41
	cmp	x11, #64
	b.lo	.Lunix_path_BB22_36
	mov	x10, xzr
	mov	x12, x11
.Lunix_path_BB22_31:
	add	x13, x23, x10
	add	x14, x9, x10
	ldp	q1, q2, [x13]
	ldp	q3, q4, [x13, #32]
	ldp	q5, q6, [x14]
	ldp	q7, q16, [x14, #32]
	cmeq	v1.16b, v1.16b, v5.16b
	cmeq	v2.16b, v2.16b, v6.16b
	cmeq	v4.16b, v4.16b, v16.16b
	cmeq	v3.16b, v3.16b, v7.16b
	bic	v1.16b, v0.16b, v1.16b
	bic	v2.16b, v0.16b, v2.16b
	bic	v3.16b, v0.16b, v3.16b
	bic	v4.16b, v0.16b, v4.16b
	addp	v1.16b, v1.16b, v2.16b
	addp	v2.16b, v3.16b, v4.16b
	addp	v1.16b, v1.16b, v2.16b
	addp	v1.16b, v1.16b, v1.16b
	fmov	x13, d1
	cbnz	x13, .Lunix_path_BB22_37
	sub	x12, x12, #64
	add	x10, x10, #64
	cmp	x12, #63
	b.hi	.Lunix_path_BB22_31
	and	x10, x11, #0xffffffffffffffc0
	sub	x11, x11, #16
	cmp	x10, x11
	b.lo	.Lunix_path_BB22_38
	b	.Lunix_path_BB22_40
.Lunix_path_BB22_34:
	ldr	d0, [x23]
	ldr	d1, [x9]
	adrp	x10, .Lunix_path_CPI22_1
	cmeq	v1.8b, v0.8b, v1.8b
	ldr	d0, [x10, :lo12:.Lunix_path_CPI22_1]
	bic	v1.8b, v0.8b, v1.8b
	addv	b1, v1.8b
	fmov	w10, s1
	orr	w10, w10, #0x100
	rbit	w10, w10
	clz	w10, w10
	cmp	w10, #8
	b.lo	.Lunix_path_BB22_41
	sub	x10, x11, #8
	ldr	d1, [x23, x10]
	ldr	d2, [x9, x10]
	cmeq	v1.8b, v1.8b, v2.8b
	bic	v0.8b, v0.8b, v1.8b
	addv	b0, v0.8b
	fmov	w11, s0
	orr	w11, w11, #0x100
	rbit	w11, w11
	clz	w11, w11
	add	x10, x10, x11
	cmp	x10, x22
	b.lo	.Lunix_path_BB22_42
	b	.Lunix_path_BB22_43
.Lunix_path_BB22_36:
	mov	x10, xzr
.Lunix_path_BB22_37:
	sub	x11, x11, #16
	cmp	x10, x11
	b.hs	.Lunix_path_BB22_40
.Lunix_path_BB22_38:
	ldr	q1, [x23, x10]
	ldr	q2, [x9, x10]
	cmeq	v1.16b, v1.16b, v2.16b
	bic	v1.16b, v0.16b, v1.16b
	addp	v1.16b, v1.16b, v1.16b
	addp	v1.16b, v1.16b, v1.16b
	addp	v1.16b, v1.16b, v1.16b
	umov	w12, v1.h[0]
	orr	w12, w12, #0x10000
	rbit	w12, w12
	clz	w12, w12
	cmp	w12, #15
	b.ls	.Lunix_path_BB22_56
	add	x10, x10, #16
	cmp	x10, x11
	b.lo	.Lunix_path_BB22_38
.Lunix_path_BB22_40:
	ldr	q1, [x23, x11]
	ldr	q2, [x9, x11]
	cmeq	v1.16b, v1.16b, v2.16b
	bic	v0.16b, v0.16b, v1.16b
	addp	v0.16b, v0.16b, v0.16b
	addp	v0.16b, v0.16b, v0.16b
	addp	v0.16b, v0.16b, v0.16b
	umov	w10, v0.h[0]
	orr	w10, w10, #0x10000
	rbit	w10, w10
	clz	w10, w10
	add	x10, x11, x10
.Lunix_path_BB22_41:
	cmp	x10, x22
	b.hs	.Lunix_path_BB22_43
.Lunix_path_BB22_42:
	ldrb	w11, [x23, x10]
	cmp	w11, #47
	b.ne	.Lunix_path_BB22_44
.Lunix_path_BB22_43:
	mov	w11, wzr
	cmp	x10, x8
	b.hs	.Lunix_path_BB22_49
	b	.Lunix_path_BB22_48
.Lunix_path_BB22_44:
	cmp	x10, x8
	b.hs	.Lunix_path_BB22_47
	cmp	w11, #46
	b.eq	.Lunix_path_BB22_47
	ldrb	w12, [x9, x10]
	and	w12, w12, #0xfe
	cmp	w12, #46
	b.ne	.Lunix_path_BB22_57
.Lunix_path_BB22_47:
	add	w11, w11, #1
	cmp	x10, x8
	b.hs	.Lunix_path_BB22_49
.Lunix_path_BB22_48:
	ldrb	w12, [x9, x10]
	cmp	w12, #47
	b.ne	.Lunix_path_BB22_50
.Lunix_path_BB22_49:
	cmp	w11, wzr
	b.eq	.Lunix_path_BB22_1
	b	.Lunix_path_BB22_51
.Lunix_path_BB22_50:
	add	w12, w12, #1
	cmp	w11, w12
	b.eq	.Lunix_path_BB22_1
.Lunix_path_BB22_51:
	cbz	x10, .Lunix_path_BB22_57
	add	x11, x23, x10
	ldurb	w11, [x11, #-1]
	cmp	w11, #47
	b.eq	.Lunix_path_BB22_2
	cmp	w11, #46
	mov	x11, xzr
	b.ne	.Lunix_path_BB22_60
	sub	x10, x10, #1
	mov	x12, x11
	mov	x13, x11
	cbz	x10, .Lunix_path_BB22_59
	add	x11, x23, x10
	ldurb	w11, [x11, #-1]
	cmp	w11, #47
	b.eq	.Lunix_path_BB22_2
	b	.Lunix_path_BB22_57
.Lunix_path_BB22_56:
	add	x10, x10, w12, uxtw
	cmp	x10, x22
	b.lo	.Lunix_path_BB22_42
	b	.Lunix_path_BB22_43
.Lunix_path_BB22_57:
	mov	x11, xzr
	mov	x12, xzr
	mov	x13, xzr
	b	.Lunix_path_BB22_59
.Lunix_path_BB22_58:
	mov	w11, #1
	mov	x12, x23
	mov	x13, x22
.Lunix_path_BB22_59:
	stp	x11, x12, [x19]
	ldp	x22, x21, [sp, #32]
	str	x13, [x19, #16]
	ldr	x23, [sp, #16]
	ldp	x20, x19, [sp, #48]
	ldp	x29, x30, [sp], #64
	ret
.Lunix_path_BB22_60:
	mov	x12, x11
	mov	x13, x11
	b	.Lunix_path_BB22_59
.Lunix_path_func_end22:
	.size	unix_path.pair.Comparison.rest_after_cut, .Lunix_path_func_end22-unix_path.pair.Comparison.rest_after_cut
	.section	.text.std_collections.btree.node.Node.destroy.08dd9cc935c3c3a8.,"ax",@progbits
	.p2align	2
	.type	std_collections.btree.node.Node.destroy.08dd9cc935c3c3a8.,@function
// std_collections::btree::node::Node::destroy::<#08dd9cc935c3c3a8>
std_collections.btree.node.Node.destroy.08dd9cc935c3c3a8.:
	sub	sp, sp, #160
	ldrh	w11, [x0, #2]
	stp	x20, x19, [sp, #144]
	mov	w10, #15
	ldrh	w20, [x0]
	add	x9, x0, #368
	mov	w12, #16
	cmp	w11, #0
	add	x8, x0, #8
	stp	x10, x9, [sp, #16]
	stp	x20, x10, [sp, #32]
	csinc	x10, xzr, x20, eq
	csel	x12, xzr, x12, eq
	stp	x29, x30, [sp, #112]
	add	x29, sp, #112
	str	x21, [sp, #128]
	stp	x8, x20, [sp]
	stp	x9, x10, [sp, #48]
	stp	x12, x0, [sp, #64]
	cbz	w11, .Lunix_path_BB23_23
	cbnz	w20, .Lunix_path_BB23_11
	ldr	x19, [x9]
	cmp	x20, #257
	b.lo	.Lunix_path_BB23_22
.Lunix_path_BB23_3:
	mov	x8, xzr
	add	x10, x9, #16
.Lunix_path_BB23_4:
	mov	w11, #256
	mov	x12, x10
.Lunix_path_BB23_5:
	ldur	q0, [x12, #-8]
	ldur	q1, [x12, #8]
	subs	x11, x11, #4
	stp	q0, q1, [x12, #-16]
	add	x12, x12, #32
	b.ne	.Lunix_path_BB23_5
	add	x8, x8, #256
	add	x10, x10, #2048
	sub	x11, x20, x8
	cmp	x11, #256
	b.hi	.Lunix_path_BB23_4
	cmp	x20, x8
	b.eq	.Lunix_path_BB23_9
.Lunix_path_BB23_8:
	add	x0, x9, x8, lsl #3
	lsl	x2, x11, #3
	add	x1, x0, #8
	bl	memmove
.Lunix_path_BB23_9:
	mov	x0, x19
	bl	std_collections.btree.node.Node.destroy.08dd9cc935c3c3a8.
	ldr	x0, [sp, #72]
	ldp	x20, x19, [sp, #144]
	ldr	x21, [sp, #128]
	ldp	x29, x30, [sp, #112]
	add	sp, sp, #160
	b	rattle_dealloc
.Lunix_path_BB23_10:
	ldr	x8, [sp, #8]
	cbz	x8, .Lunix_path_BB23_21
.Lunix_path_BB23_11:
	ldp	x8, x9, [sp, #48]
	sub	x20, x9, #1
	ldr	x19, [x8]
	cmp	x20, #257
	b.lo	.Lunix_path_BB23_20
	mov	x9, xzr
	add	x10, x8, #16
.Lunix_path_BB23_13:
	mov	w11, #256
	mov	x12, x10
.Lunix_path_BB23_14:
	ldur	q0, [x12, #-8]
	ldur	q1, [x12, #8]
	subs	x11, x11, #4
	stp	q0, q1, [x12, #-16]
	add	x12, x12, #32
	b.ne	.Lunix_path_BB23_14
	add	x9, x9, #256
	add	x10, x10, #2048
	sub	x11, x20, x9
	cmp	x11, #256
	b.hi	.Lunix_path_BB23_13
	ldr	x21, [sp, #64]
	cmp	x20, x9
	b.eq	.Lunix_path_BB23_18
.Lunix_path_BB23_17:
	add	x0, x8, x9, lsl #3
	lsl	x2, x11, #3
	add	x1, x0, #8
	bl	memmove
.Lunix_path_BB23_18:
	mov	x0, x19
	stp	x20, x21, [sp, #56]
	bl	std_collections.btree.node.Node.destroy.08dd9cc935c3c3a8.
	sub	x0, x29, #32
	mov	x1, sp
	mov	x2, xzr
	stp	xzr, xzr, [x29, #-32]
	stur	xzr, [x29, #-16]
	bl	std_alloc.vec.Vec.remove.b40003dd673f1bd1.
	ldr	x8, [sp, #32]
	ldur	x9, [x29, #-16]
	sub	x8, x8, #1
	str	x8, [sp, #32]
	cbz	x9, .Lunix_path_BB23_10
	ldur	x0, [x29, #-32]
	bl	rattle_dealloc
	b	.Lunix_path_BB23_10
.Lunix_path_BB23_20:
	mov	x9, xzr
	mov	x11, x20
	ldr	x21, [sp, #64]
	cmp	x20, xzr
	b.ne	.Lunix_path_BB23_17
	b	.Lunix_path_BB23_18
.Lunix_path_BB23_21:
	ldp	x9, x8, [sp, #48]
	sub	x20, x8, #1
	ldr	x19, [x9]
	cmp	x20, #257
	b.hs	.Lunix_path_BB23_3
.Lunix_path_BB23_22:
	mov	x8, xzr
	mov	x11, x20
	cmp	x20, xzr
	b.ne	.Lunix_path_BB23_8
	b	.Lunix_path_BB23_9
.Lunix_path_BB23_23:
	mov	x19, x0
	cmp	w20, #15
	b.ls	.Lunix_path_BB23_25
	lsr	x2, x20, #1
	mov	w10, #24
	add	x0, x19, #8
	sub	x9, x20, x2
	smaddl	x1, w9, w10, x8
	bl	core.slice.edits.mirror.483ec8513fd57e54.
	b	.Lunix_path_BB23_59
.Lunix_path_BB23_25:
	cmp	w20, #2
	b.lo	.Lunix_path_BB23_58
	sub	x10, x20, #2
	subs	x11, x20, #1
	lsr	x9, x10, #1
	b.eq	.Lunix_path_BB23_28
	mov	w12, #24
	ldr	q1, [x8]
	ldr	x13, [x8, #16]
	smaddl	x11, w11, w12, x8
	ldr	q0, [x11]
	ldr	x12, [x11, #16]
	str	q0, [x8]
	str	x12, [x8, #16]
	str	q1, [x11]
	str	x13, [x11, #16]
.Lunix_path_BB23_28:
	cbz	x9, .Lunix_path_BB23_58
	cmp	x10, #1
	b.ls	.Lunix_path_BB23_31
	mov	w11, #24
	ldr	q1, [x19, #32]
	ldr	x12, [x19, #48]
	smaddl	x10, w10, w11, x8
	ldr	q0, [x10]
	ldr	x11, [x10, #16]
	str	q0, [x19, #32]
	str	x11, [x19, #48]
	str	q1, [x10]
	str	x12, [x10, #16]
	b	.Lunix_path_BB23_33
.Lunix_path_BB23_31:
	cbnz	x10, .Lunix_path_BB23_33
	mov	w11, #24
	ldr	q0, [x19, #32]
	smaddl	x10, w10, w11, x8
	ldr	x11, [x19, #48]
	ldr	q1, [x10]
	ldr	x12, [x10, #16]
	str	q0, [x10]
	str	x11, [x10, #16]
	str	q1, [x19, #32]
	str	x12, [x19, #48]
.Lunix_path_BB23_33:
	cmp	x9, #1
	b.eq	.Lunix_path_BB23_58
	sub	x10, x20, #3
	cmp	x10, #2
	b.ls	.Lunix_path_BB23_36
	mov	w11, #24
	ldur	q1, [x19, #56]
	ldr	x12, [x19, #72]
	smaddl	x10, w10, w11, x8
	ldr	q0, [x10]
	ldr	x11, [x10, #16]
	stur	q0, [x19, #56]
	str	x11, [x19, #72]
	str	q1, [x10]
	str	x12, [x10, #16]
	b	.Lunix_path_BB23_38
.Lunix_path_BB23_36:
	b.eq	.Lunix_path_BB23_38
	mov	w11, #24
	ldur	q0, [x19, #56]
	smaddl	x10, w10, w11, x8
	ldr	x11, [x19, #72]
	ldr	q1, [x10]
	ldr	x12, [x10, #16]
	str	q0, [x10]
	str	x11, [x10, #16]
	stur	q1, [x19, #56]
	str	x12, [x19, #72]
.Lunix_path_BB23_38:
	cmp	x9, #2
	b.eq	.Lunix_path_BB23_58
	sub	x10, x20, #4
	cmp	x10, #3
	b.ls	.Lunix_path_BB23_41
	mov	w11, #24
	ldr	q1, [x19, #80]
	ldr	x12, [x19, #96]
	smaddl	x10, w10, w11, x8
	ldr	q0, [x10]
	ldr	x11, [x10, #16]
	str	q0, [x19, #80]
	str	x11, [x19, #96]
	str	q1, [x10]
	str	x12, [x10, #16]
	b	.Lunix_path_BB23_43
.Lunix_path_BB23_41:
	b.eq	.Lunix_path_BB23_43
	mov	w11, #24
	ldr	q0, [x19, #80]
	smaddl	x10, w10, w11, x8
	ldr	x11, [x19, #96]
	ldr	q1, [x10]
	ldr	x12, [x10, #16]
	str	q0, [x10]
	str	x11, [x10, #16]
	str	q1, [x19, #80]
	str	x12, [x19, #96]
.Lunix_path_BB23_43:
	cmp	x9, #3
	b.eq	.Lunix_path_BB23_58
	sub	x10, x20, #5
	cmp	x10, #4
	b.ls	.Lunix_path_BB23_46
	mov	w11, #24
	ldur	q1, [x19, #104]
	ldr	x12, [x19, #120]
	smaddl	x10, w10, w11, x8
	ldr	q0, [x10]
	ldr	x11, [x10, #16]
	stur	q0, [x19, #104]
	str	x11, [x19, #120]
	str	q1, [x10]
	str	x12, [x10, #16]
	b	.Lunix_path_BB23_48
.Lunix_path_BB23_46:
	b.eq	.Lunix_path_BB23_48
	mov	w11, #24
	ldur	q0, [x19, #104]
	smaddl	x10, w10, w11, x8
	ldr	x11, [x19, #120]
	ldr	q1, [x10]
	ldr	x12, [x10, #16]
	str	q0, [x10]
	str	x11, [x10, #16]
	stur	q1, [x19, #104]
	str	x12, [x19, #120]
.Lunix_path_BB23_48:
	cmp	x9, #4
	b.eq	.Lunix_path_BB23_58
	sub	x10, x20, #6
	cmp	x10, #5
	b.ls	.Lunix_path_BB23_51
	mov	w11, #24
	ldr	q1, [x19, #128]
	ldr	x12, [x19, #144]
	smaddl	x10, w10, w11, x8
	ldr	q0, [x10]
	ldr	x11, [x10, #16]
	str	q0, [x19, #128]
	str	x11, [x19, #144]
	str	q1, [x10]
	str	x12, [x10, #16]
	b	.Lunix_path_BB23_53
.Lunix_path_BB23_51:
	b.eq	.Lunix_path_BB23_53
	mov	w11, #24
	ldr	q0, [x19, #128]
	smaddl	x10, w10, w11, x8
	ldr	x11, [x19, #144]
	ldr	q1, [x10]
	ldr	x12, [x10, #16]
	str	q0, [x10]
	str	x11, [x10, #16]
	str	q1, [x19, #128]
	str	x12, [x19, #144]
.Lunix_path_BB23_53:
	cmp	x9, #5
	b.eq	.Lunix_path_BB23_58
	sub	x9, x20, #7
	cmp	x9, #6
	b.ls	.Lunix_path_BB23_56
	mov	w10, #24
	ldur	q1, [x19, #152]
	smaddl	x8, w9, w10, x8
	ldr	x10, [x19, #168]
	ldr	q0, [x8]
	ldr	x9, [x8, #16]
	stur	q0, [x19, #152]
	str	x9, [x19, #168]
	str	q1, [x8]
	str	x10, [x8, #16]
	b	.Lunix_path_BB23_58
.Lunix_path_BB23_56:
	b.eq	.Lunix_path_BB23_58
	mov	w10, #24
	ldur	q0, [x19, #152]
	smaddl	x8, w9, w10, x8
	ldr	x9, [x19, #168]
	ldr	q1, [x8]
	ldr	x10, [x8, #16]
	str	q0, [x8]
	str	x9, [x8, #16]
	stur	q1, [x19, #152]
	str	x10, [x19, #168]
.Lunix_path_BB23_58:
	cbz	w20, .Lunix_path_BB23_63
.Lunix_path_BB23_59:
	mov	w8, #24
	umaddl	x21, w20, w8, x19
	b	.Lunix_path_BB23_61
.Lunix_path_BB23_60:
	sub	x20, x20, #1
	sub	x21, x21, #24
	cbz	x20, .Lunix_path_BB23_63
.Lunix_path_BB23_61:
	ldr	x8, [x21]
	cbz	x8, .Lunix_path_BB23_60
	ldur	x0, [x21, #-16]
	bl	rattle_dealloc
	b	.Lunix_path_BB23_60
.Lunix_path_BB23_63:
	mov	x0, x19
	ldp	x20, x19, [sp, #144]
	ldr	x21, [sp, #128]
	ldp	x29, x30, [sp, #112]
	add	sp, sp, #160
	b	rattle_dealloc
.Lunix_path_func_end23:
	.size	std_collections.btree.node.Node.destroy.08dd9cc935c3c3a8., .Lunix_path_func_end23-std_collections.btree.node.Node.destroy.08dd9cc935c3c3a8.
	.section	.text.pathtool.names.push_optional,"ax",@progbits
	.p2align	2
	.type	pathtool.names.push_optional,@function
// pathtool::names::push_optional
pathtool.names.push_optional:
	stp	x29, x30, [sp, #-64]!
	str	x23, [sp, #16]
	mov	x23, x1
	ldrb	w10, [x0]
	ldp	x8, x9, [x23, #8]!
	stp	x22, x21, [sp, #32]
	mov	x29, sp
	stp	x20, x19, [sp, #48]
	cbz	w10, .Lunix_path_BB24_9
	ldp	x19, x2, [x0, #8]
	cmp	x9, x8
	b.eq	.Lunix_path_BB24_23
.Lunix_path_BB24_2:
	ldr	x9, [x1]
	mov	w10, #43
	strb	w10, [x9, x8]
	add	x8, x8, #1
	ldr	x20, [x1, #16]
	str	x8, [x1, #8]
	sub	x9, x20, x8
	cmp	x2, x9
	b.hi	.Lunix_path_BB24_25
.Lunix_path_BB24_3:
	ldr	x21, [x1]
	add	x22, x8, x2
	stp	xzr, xzr, [x23]
	add	x0, x21, x8
	sub	x9, x0, x19
	cmp	x9, x2
	b.hs	.Lunix_path_BB24_12
	cmp	x2, #8
	b.lo	.Lunix_path_BB24_6
	add	x9, x8, x21
	sub	x9, x9, x19
	cmp	x9, #32
	b.hs	.Lunix_path_BB24_14
.Lunix_path_BB24_6:
	mov	x9, xzr
.Lunix_path_BB24_7:
	add	x10, x9, x8
	sub	x8, x2, x9
	add	x9, x19, x9
	add	x10, x21, x10
.Lunix_path_BB24_8:
	ldrb	w11, [x9], #1
	subs	x8, x8, #1
	strb	w11, [x10], #1
	b.ne	.Lunix_path_BB24_8
	b	.Lunix_path_BB24_13
.Lunix_path_BB24_9:
	cmp	x9, x8
	b.eq	.Lunix_path_BB24_27
.Lunix_path_BB24_10:
	ldr	x10, [x1]
	mov	w11, #45
	mov	w0, wzr
	strb	w11, [x10, x8]
	add	x8, x8, #1
	stp	x10, x8, [x1]
	str	x9, [x1, #16]
.Lunix_path_BB24_11:
	ldp	x20, x19, [sp, #48]
	ldr	x23, [sp, #16]
	ldp	x22, x21, [sp, #32]
	ldp	x29, x30, [sp], #64
	ret
.Lunix_path_BB24_12:
	mov	x23, x1
	mov	x1, x19
	bl	memmove
	mov	x1, x23
.Lunix_path_BB24_13:
	mov	w0, wzr
	stp	x21, x22, [x1]
	str	x20, [x1, #16]
	ldp	x20, x19, [sp, #48]
	ldr	x23, [sp, #16]
	ldp	x22, x21, [sp, #32]
	ldp	x29, x30, [sp], #64
	ret
.Lunix_path_BB24_14:
	cmp	x2, #32
	b.hs	.Lunix_path_BB24_16
	mov	x9, xzr
	b	.Lunix_path_BB24_20
.Lunix_path_BB24_16:
	add	x12, x8, x21
	and	x10, x2, #0x18
	and	x9, x2, #0xffffffffffffffe0
	add	x11, x19, #16
	add	x12, x12, #16
	and	x13, x2, #0xffffffffffffffe0
.Lunix_path_BB24_17:
	ldp	q0, q1, [x11, #-16]
	subs	x13, x13, #32
	add	x11, x11, #32
	stp	q0, q1, [x12, #-16]
	add	x12, x12, #32
	b.ne	.Lunix_path_BB24_17
	cmp	x2, x9
	b.eq	.Lunix_path_BB24_13
	cbz	x10, .Lunix_path_BB24_7
.Lunix_path_BB24_20:
	mov	x11, x9
	and	x9, x2, #0xfffffffffffffff8
	add	x12, x8, x11
	sub	x10, x11, x9
	add	x11, x19, x11
	add	x12, x21, x12
.Lunix_path_BB24_21:
	ldr	d0, [x11], #8
	adds	x10, x10, #8
	str	d0, [x12], #8
	b.ne	.Lunix_path_BB24_21
	cmp	x2, x9
	b.eq	.Lunix_path_BB24_13
	b	.Lunix_path_BB24_7
.Lunix_path_BB24_23:
	mov	x21, x1
	mov	x0, x1
	mov	w1, #1
	mov	x20, x2
	mov	w22, #1
	bl	std_alloc.vec.Vec.grow_amortized.307f257cf2d167af.
	mov	w8, w0
	mov	w0, w22
	cbz	w8, .Lunix_path_BB24_11
	ldr	x8, [x23]
	mov	x1, x21
	mov	x2, x20
	b	.Lunix_path_BB24_2
.Lunix_path_BB24_25:
	mov	x20, x1
	mov	x0, x1
	mov	x1, x2
	mov	x21, x2
	bl	std_alloc.vec.Vec.grow_amortized.307f257cf2d167af.
	cbz	w0, .Lunix_path_BB24_29
	mov	x1, x20
	ldp	x8, x20, [x20, #8]
	mov	x2, x21
	b	.Lunix_path_BB24_3
.Lunix_path_BB24_27:
	mov	x19, x1
	mov	x0, x1
	mov	w1, #1
	bl	std_alloc.vec.Vec.grow_amortized.307f257cf2d167af.
	mov	w8, w0
	mov	w0, #1
	cbz	w8, .Lunix_path_BB24_11
	ldp	x8, x9, [x19, #8]
	mov	x1, x19
	b	.Lunix_path_BB24_10
.Lunix_path_BB24_29:
	mov	w0, #1
	ldp	x20, x19, [sp, #48]
	ldr	x23, [sp, #16]
	ldp	x22, x21, [sp, #32]
	ldp	x29, x30, [sp], #64
	ret
.Lunix_path_func_end24:
	.size	pathtool.names.push_optional, .Lunix_path_func_end24-pathtool.names.push_optional
	.section	.rodata.cst16,"aM",@progbits,16
	.p2align	4, 0x0
.Lunix_path_CPI25_0:
	.byte	1
	.byte	2
	.byte	4
	.byte	8
	.byte	16
	.byte	32
	.byte	64
	.byte	128
	.byte	1
	.byte	2
	.byte	4
	.byte	8
	.byte	16
	.byte	32
	.byte	64
	.byte	128
	.section	.text.unix_path.path.Path.file_name,"ax",@progbits
	.p2align	2
	.type	unix_path.path.Path.file_name,@function
// unix_path::path::Path::file_name
unix_path.path.Path.file_name:
	stp	x29, x30, [sp, #-64]!
	stp	x20, x19, [sp, #48]
	mov	x19, x0
	mov	x29, sp
	str	x23, [sp, #16]
	stp	x22, x21, [sp, #32]
	cbz	x2, .Lunix_path_BB25_9
	mov	x21, x2
	mov	x20, x1
	mov	x22, x2
	b	.Lunix_path_BB25_3
.Lunix_path_BB25_2:
	mov	x22, x2
	cbz	x2, .Lunix_path_BB25_9
.Lunix_path_BB25_3:
	subs	x2, x22, #1
	b.eq	.Lunix_path_BB25_10
	add	x8, x20, x2
	ldrb	w9, [x8]
	cmp	w9, #47
	b.eq	.Lunix_path_BB25_7
	cmp	w9, #46
	b.ne	.Lunix_path_BB25_12
	ldurb	w8, [x8, #-1]
	cmp	w8, #47
	b.ne	.Lunix_path_BB25_12
.Lunix_path_BB25_7:
	sub	x8, x21, x2
	cmp	x8, #8
	b.ne	.Lunix_path_BB25_2
	mov	x0, x20
	mov	x1, xzr
	bl	unix_path.filler.trimmed_blocks_len
	mov	x2, x0
	b	.Lunix_path_BB25_2
.Lunix_path_BB25_9:
	stp	xzr, xzr, [x19]
	str	xzr, [x19, #16]
	ldp	x20, x19, [sp, #48]
	ldr	x23, [sp, #16]
	ldp	x22, x21, [sp, #32]
	ldp	x29, x30, [sp], #64
	ret
.Lunix_path_BB25_10:
	ldrb	w8, [x20]
	cmp	w8, #46
	b.ne	.Lunix_path_BB25_24
.Lunix_path_BB25_11:
	mov	x21, xzr
	mov	x22, xzr
	mov	x8, xzr
	b	.Lunix_path_BB25_44
.Lunix_path_BB25_12:
	add	x8, x20, x22
	ldurb	w9, [x8, #-1]
	cmp	w9, #46
	b.ne	.Lunix_path_BB25_25
	ldurb	w9, [x8, #-2]
	cmp	w9, #46
	b.ne	.Lunix_path_BB25_25
	subs	x23, x22, #2
	b.eq	.Lunix_path_BB25_11
	ldurb	w8, [x8, #-3]
	cmp	w8, #47
	b.ne	.Lunix_path_BB25_25
	mov	x2, x23
	b	.Lunix_path_BB25_18
.Lunix_path_BB25_17:
	mov	x21, xzr
	mov	x22, xzr
	mov	x8, xzr
	cbz	x2, .Lunix_path_BB25_44
.Lunix_path_BB25_18:
	subs	x2, x2, #1
	b.eq	.Lunix_path_BB25_11
	add	x8, x20, x2
	ldrb	w9, [x8]
	cmp	w9, #47
	b.eq	.Lunix_path_BB25_22
	cmp	w9, #46
	b.ne	.Lunix_path_BB25_11
	ldurb	w8, [x8, #-1]
	cmp	w8, #47
	b.ne	.Lunix_path_BB25_11
.Lunix_path_BB25_22:
	sub	x8, x23, x2
	cmp	x8, #8
	b.ne	.Lunix_path_BB25_17
	mov	x0, x20
	mov	x1, xzr
	bl	unix_path.filler.trimmed_blocks_len
	mov	x2, x0
	b	.Lunix_path_BB25_17
.Lunix_path_BB25_24:
	mov	w22, #1
.Lunix_path_BB25_25:
	mov	x8, x22
.Lunix_path_BB25_26:
	cmp	x8, #15
	b.ls	.Lunix_path_BB25_30
	movi	v0.16b, #47
	add	x9, x20, x8
	ldur	q1, [x9, #-16]
	adrp	x9, .Lunix_path_CPI25_0
	cmeq	v0.16b, v1.16b, v0.16b
	ldr	q1, [x9, :lo12:.Lunix_path_CPI25_0]
	sub	x9, x8, #16
	mov	x8, x9
	and	v0.16b, v0.16b, v1.16b
	addp	v0.16b, v0.16b, v0.16b
	addp	v0.16b, v0.16b, v0.16b
	addp	v0.16b, v0.16b, v0.16b
	umov	w10, v0.h[0]
	cbz	w10, .Lunix_path_BB25_26
	umov	w8, v0.h[0]
	and	x8, x8, #0xffff
	clz	x8, x8
	sub	x8, x9, x8
	add	x23, x8, #64
	subs	x22, x22, x23
	b.ne	.Lunix_path_BB25_34
.Lunix_path_BB25_29:
	mov	x21, xzr
	mov	x8, xzr
	b	.Lunix_path_BB25_44
.Lunix_path_BB25_30:
	sub	x8, x8, #1
.Lunix_path_BB25_31:
	cmn	x8, #1
	b.eq	.Lunix_path_BB25_43
	ldrb	w9, [x20, x8]
	sub	x8, x8, #1
	cmp	w9, #47
	b.ne	.Lunix_path_BB25_31
	add	x23, x8, #2
	subs	x22, x22, x23
	b.eq	.Lunix_path_BB25_29
.Lunix_path_BB25_34:
	add	x21, x20, x23
	mov	x2, x23
	b	.Lunix_path_BB25_36
.Lunix_path_BB25_35:
	cbz	x2, .Lunix_path_BB25_42
.Lunix_path_BB25_36:
	subs	x2, x2, #1
	b.eq	.Lunix_path_BB25_42
	add	x8, x20, x2
	ldrb	w9, [x8]
	cmp	w9, #47
	b.eq	.Lunix_path_BB25_40
	cmp	w9, #46
	b.ne	.Lunix_path_BB25_42
	ldurb	w8, [x8, #-1]
	cmp	w8, #47
	b.ne	.Lunix_path_BB25_42
.Lunix_path_BB25_40:
	sub	x8, x23, x2
	cmp	x8, #8
	b.ne	.Lunix_path_BB25_35
	mov	x0, x20
	mov	x1, xzr
	bl	unix_path.filler.trimmed_blocks_len
	mov	x2, x0
	b	.Lunix_path_BB25_35
.Lunix_path_BB25_42:
	mov	w8, #1
	b	.Lunix_path_BB25_44
.Lunix_path_BB25_43:
	mov	w8, #1
	mov	x21, x20
.Lunix_path_BB25_44:
	stp	x8, x21, [x19]
	str	x22, [x19, #16]
	ldp	x20, x19, [sp, #48]
	ldr	x23, [sp, #16]
	ldp	x22, x21, [sp, #32]
	ldp	x29, x30, [sp], #64
	ret
.Lunix_path_func_end25:
	.size	unix_path.path.Path.file_name, .Lunix_path_func_end25-unix_path.path.Path.file_name
	.section	.rodata.cst16,"aM",@progbits,16
	.p2align	4, 0x0
.Lunix_path_CPI26_0:
	.byte	1
	.byte	2
	.byte	4
	.byte	8
	.byte	16
	.byte	32
	.byte	64
	.byte	128
	.byte	1
	.byte	2
	.byte	4
	.byte	8
	.byte	16
	.byte	32
	.byte	64
	.byte	128
	.section	.text.pathtool.names.push_extension,"ax",@progbits
	.p2align	2
	.type	pathtool.names.push_extension,@function
// pathtool::names::push_extension
pathtool.names.push_extension:
	sub	sp, sp, #80
	stp	x20, x19, [sp, #64]
	mov	x19, x2
	stp	x29, x30, [sp, #32]
	add	x29, sp, #32
	str	x21, [sp, #48]
	cbz	x1, .Lunix_path_BB26_22
	mov	x21, x1
	mov	x20, x0
	mov	x8, x1
	b	.Lunix_path_BB26_3
.Lunix_path_BB26_2:
	mov	x8, x2
	cbz	x2, .Lunix_path_BB26_22
.Lunix_path_BB26_3:
	subs	x2, x8, #1
	b.eq	.Lunix_path_BB26_9
	add	x9, x20, x2
	ldrb	w10, [x9]
	cmp	w10, #47
	b.eq	.Lunix_path_BB26_7
	cmp	w10, #46
	b.ne	.Lunix_path_BB26_13
	ldurb	w9, [x9, #-1]
	cmp	w9, #47
	b.ne	.Lunix_path_BB26_10
.Lunix_path_BB26_7:
	sub	x8, x21, x2
	cmp	x8, #8
	b.ne	.Lunix_path_BB26_2
	mov	x0, x20
	mov	x1, xzr
	bl	unix_path.filler.trimmed_blocks_len
	mov	x2, x0
	b	.Lunix_path_BB26_2
.Lunix_path_BB26_9:
	ldrb	w9, [x20]
	and	w9, w9, #0xfe
	cmp	w9, #46
	b.ne	.Lunix_path_BB26_13
	b	.Lunix_path_BB26_22
.Lunix_path_BB26_10:
	cmp	w9, #46
	b.ne	.Lunix_path_BB26_13
	cmp	x8, #2
	b.eq	.Lunix_path_BB26_22
	add	x9, x20, x8
	ldurb	w9, [x9, #-3]
	cmp	w9, #47
	b.eq	.Lunix_path_BB26_22
.Lunix_path_BB26_13:
	sub	x10, x20, #16
	mov	x9, x8
.Lunix_path_BB26_14:
	cmp	x9, #15
	b.ls	.Lunix_path_BB26_17
	movi	v0.16b, #46
	movi	v1.16b, #47
	ldr	q2, [x10, x9]
	adrp	x11, .Lunix_path_CPI26_0
	mov	w14, #64
	cmeq	v0.16b, v2.16b, v0.16b
	cmeq	v1.16b, v2.16b, v1.16b
	ldr	q2, [x11, :lo12:.Lunix_path_CPI26_0]
	and	v0.16b, v0.16b, v2.16b
	and	v1.16b, v1.16b, v2.16b
	addp	v0.16b, v0.16b, v0.16b
	addp	v1.16b, v1.16b, v1.16b
	addp	v0.16b, v0.16b, v0.16b
	addp	v1.16b, v1.16b, v1.16b
	addp	v0.16b, v0.16b, v0.16b
	addp	v1.16b, v1.16b, v1.16b
	umov	w11, v0.h[0]
	umov	w12, v1.h[0]
	clz	x11, x11
	clz	x13, x12
	sub	x12, x9, #16
	sub	x15, x14, x11
	sub	x14, x14, x13
	mov	x9, x12
	cmp	x15, x14
	csel	x14, x15, x14, hi
	cbz	x14, .Lunix_path_BB26_14
	mov	w9, #64
	sub	x10, x9, x13
	sub	x9, x9, x11
	cmp	x10, x9
	csel	x9, x10, x9, hi
	add	x9, x9, x12
	sub	x10, x9, #1
	cbnz	x10, .Lunix_path_BB26_21
	b	.Lunix_path_BB26_22
.Lunix_path_BB26_17:
	sub	x11, x20, #1
.Lunix_path_BB26_18:
	cbz	x9, .Lunix_path_BB26_22
	ldrb	w10, [x11, x9]
	and	w12, w10, #0xfe
	sub	x10, x9, #1
	cmp	w12, #46
	mov	x9, x10
	b.ne	.Lunix_path_BB26_18
	add	x9, x10, #1
	cbz	x10, .Lunix_path_BB26_22
.Lunix_path_BB26_21:
	ldrb	w11, [x20, x10]
	cmp	w11, #47
	b.ne	.Lunix_path_BB26_24
.Lunix_path_BB26_22:
	stp	xzr, xzr, [sp, #8]
	str	xzr, [sp, #24]
.Lunix_path_BB26_23:
	add	x0, sp, #8
	mov	x1, x19
	bl	pathtool.names.push_optional
	ldp	x20, x19, [sp, #64]
	and	w0, w0, #0xff
	ldp	x29, x30, [sp, #32]
	ldr	x21, [sp, #48]
	add	sp, sp, #80
	ret
.Lunix_path_BB26_24:
	cmp	x10, x8
	b.eq	.Lunix_path_BB26_22
	add	x10, x20, x9
	ldurb	w11, [x10, #-2]
	cmp	w11, #47
	b.eq	.Lunix_path_BB26_22
	mov	w11, #1
	sub	x8, x8, x9
	stp	x11, x10, [sp, #8]
	str	x8, [sp, #24]
	b	.Lunix_path_BB26_23
.Lunix_path_func_end26:
	.size	pathtool.names.push_extension, .Lunix_path_func_end26-pathtool.names.push_extension
	.section	.rodata.cst16,"aM",@progbits,16
	.p2align	4, 0x0
.Lunix_path_CPI27_0:
	.byte	1
	.byte	2
	.byte	4
	.byte	8
	.byte	16
	.byte	32
	.byte	64
	.byte	128
	.byte	1
	.byte	2
	.byte	4
	.byte	8
	.byte	16
	.byte	32
	.byte	64
	.byte	128
	.section	.text.pathtool.paths.push_canon,"ax",@progbits
	.p2align	2
	.type	pathtool.paths.push_canon,@function
// pathtool::paths::push_canon
pathtool.paths.push_canon:
	sub	sp, sp, #128
	stp	x22, x21, [sp, #96]
	mov	x21, x0
	stp	x20, x19, [sp, #112]
	mov	x19, x2
	stp	x29, x30, [sp, #32]
	add	x29, sp, #32
	stp	x28, x27, [sp, #48]
	stp	x26, x25, [sp, #64]
	stp	x24, x23, [sp, #80]
	cbz	x1, .Lunix_path_BB27_9
	mov	x23, x1
	mov	x20, x1
	b	.Lunix_path_BB27_3
.Lunix_path_BB27_2:
	mov	x20, x22
	cbz	x22, .Lunix_path_BB27_10
.Lunix_path_BB27_3:
	subs	x22, x20, #1
	b.eq	.Lunix_path_BB27_23
	add	x8, x21, x22
	ldrb	w9, [x8]
	cmp	w9, #47
	b.eq	.Lunix_path_BB27_7
	cmp	w9, #46
	b.ne	.Lunix_path_BB27_22
	ldurb	w8, [x8, #-1]
	cmp	w8, #47
	b.ne	.Lunix_path_BB27_22
.Lunix_path_BB27_7:
	sub	x8, x23, x22
	cmp	x8, #8
	b.ne	.Lunix_path_BB27_2
	mov	x0, x21
	mov	x1, xzr
	mov	x2, x22
	bl	unix_path.filler.trimmed_blocks_len
	mov	x22, x0
	b	.Lunix_path_BB27_2
.Lunix_path_BB27_9:
	mov	x20, xzr
.Lunix_path_BB27_10:
	sub	x22, x29, #1
.Lunix_path_BB27_11:
	mov	x0, x22
	mov	x1, x21
	mov	x2, x20
	bl	memmove
	mov	x25, x20
.Lunix_path_BB27_12:
	mov	x26, x19
	ldp	x8, x21, [x26, #8]!
	sub	x9, x21, x8
	cmp	x20, x9
	b.hi	.Lunix_path_BB27_46
.Lunix_path_BB27_13:
	ldr	x23, [x19]
	add	x24, x8, x20
	stp	xzr, xzr, [x26]
	add	x0, x23, x8
	sub	x9, x0, x22
	cmp	x9, x20
	b.hs	.Lunix_path_BB27_20
	cmp	x20, #8
	b.lo	.Lunix_path_BB27_16
	add	x9, x8, x23
	sub	x9, x9, x22
	cmp	x9, #32
	b.hs	.Lunix_path_BB27_37
.Lunix_path_BB27_16:
	mov	x9, xzr
.Lunix_path_BB27_17:
	add	x10, x9, x8
	sub	x8, x20, x9
	add	x9, x22, x9
	add	x10, x23, x10
.Lunix_path_BB27_18:
	ldrb	w11, [x9], #1
	subs	x8, x8, #1
	strb	w11, [x10], #1
	b.ne	.Lunix_path_BB27_18
.Lunix_path_BB27_19:
	mov	w20, wzr
	stp	x23, x24, [x19]
	str	x21, [x19, #16]
	cbnz	x25, .Lunix_path_BB27_21
	b	.Lunix_path_BB27_145
.Lunix_path_BB27_20:
	mov	x1, x22
	mov	x2, x20
	bl	memmove
	mov	w20, wzr
	stp	x23, x24, [x19]
	str	x21, [x19, #16]
	cbz	x25, .Lunix_path_BB27_145
.Lunix_path_BB27_21:
	mov	x0, x22
	bl	rattle_dealloc
	b	.Lunix_path_BB27_145
.Lunix_path_BB27_22:
	subs	x8, x20, #18
	b.hs	.Lunix_path_BB27_32
.Lunix_path_BB27_23:
	mov	x23, xzr
.Lunix_path_BB27_24:
	sub	x8, x20, #2
	add	x9, x21, #1
	b	.Lunix_path_BB27_27
.Lunix_path_BB27_25:
	cmp	w10, #47
	b.eq	.Lunix_path_BB27_49
.Lunix_path_BB27_26:
	add	x23, x23, #1
	cmp	x20, x23
	b.eq	.Lunix_path_BB27_60
.Lunix_path_BB27_27:
	add	x10, x9, x23
	ldurb	w10, [x10, #-1]
	cmp	w10, #47
	b.ne	.Lunix_path_BB27_26
	cmp	x22, x23
	b.eq	.Lunix_path_BB27_49
	ldrb	w10, [x9, x23]
	cmp	w10, #46
	b.ne	.Lunix_path_BB27_25
	cmp	x8, x23
	b.eq	.Lunix_path_BB27_49
	add	x10, x9, x23
	ldrb	w10, [x10, #1]
	b	.Lunix_path_BB27_25
.Lunix_path_BB27_32:
	adrp	x9, .Lunix_path_CPI27_0
	b.eq	.Lunix_path_BB27_36
	mov	x10, xzr
.Lunix_path_BB27_34:
	movi	v0.16b, #46
	movi	v1.16b, #47
	add	x11, x21, x10
	ldur	q2, [x11, #1]
	ldur	q3, [x11, #2]
	ldr	q4, [x11]
	cmeq	v0.16b, v2.16b, v0.16b
	cmeq	v3.16b, v3.16b, v1.16b
	and	v0.16b, v0.16b, v3.16b
	cmeq	v3.16b, v4.16b, v1.16b
	cmeq	v1.16b, v2.16b, v1.16b
	ldr	q2, [x9, :lo12:.Lunix_path_CPI27_0]
	orr	v0.16b, v1.16b, v0.16b
	and	v1.16b, v3.16b, v2.16b
	and	v0.16b, v1.16b, v0.16b
	addp	v0.16b, v0.16b, v0.16b
	addp	v0.16b, v0.16b, v0.16b
	addp	v0.16b, v0.16b, v0.16b
	umov	w11, v0.h[0]
	orr	w11, w11, #0x10000
	rbit	w11, w11
	clz	w11, w11
	cmp	w11, #15
	b.ls	.Lunix_path_BB27_48
	add	x10, x10, #16
	cmp	x10, x8
	b.lo	.Lunix_path_BB27_34
.Lunix_path_BB27_36:
	movi	v0.16b, #46
	movi	v1.16b, #47
	add	x10, x21, x8
	ldur	q2, [x10, #1]
	ldur	q3, [x10, #2]
	ldr	q4, [x10]
	cmeq	v0.16b, v2.16b, v0.16b
	cmeq	v3.16b, v3.16b, v1.16b
	and	v0.16b, v0.16b, v3.16b
	cmeq	v3.16b, v4.16b, v1.16b
	cmeq	v1.16b, v2.16b, v1.16b
	ldr	q2, [x9, :lo12:.Lunix_path_CPI27_0]
	orr	v0.16b, v1.16b, v0.16b
	and	v1.16b, v3.16b, v2.16b
	and	v0.16b, v1.16b, v0.16b
	addp	v0.16b, v0.16b, v0.16b
	addp	v0.16b, v0.16b, v0.16b
	addp	v0.16b, v0.16b, v0.16b
	umov	w9, v0.h[0]
	orr	w9, w9, #0x10000
	rbit	w9, w9
	clz	w9, w9
	add	x23, x8, x9
	cmp	x23, x20
	b.lo	.Lunix_path_BB27_24
	b	.Lunix_path_BB27_49
.Lunix_path_BB27_37:
	cmp	x20, #32
	b.hs	.Lunix_path_BB27_39
	mov	x9, xzr
	b	.Lunix_path_BB27_43
.Lunix_path_BB27_39:
	add	x12, x8, x23
	and	x10, x20, #0x18
	and	x9, x20, #0xffffffffffffffe0
	add	x11, x22, #16
	add	x12, x12, #16
	and	x13, x20, #0xffffffffffffffe0
.Lunix_path_BB27_40:
	ldp	q0, q1, [x11, #-16]
	subs	x13, x13, #32
	add	x11, x11, #32
	stp	q0, q1, [x12, #-16]
	add	x12, x12, #32
	b.ne	.Lunix_path_BB27_40
	cmp	x20, x9
	b.eq	.Lunix_path_BB27_19
	cbz	x10, .Lunix_path_BB27_17
.Lunix_path_BB27_43:
	mov	x11, x9
	and	x9, x20, #0xfffffffffffffff8
	add	x12, x8, x11
	sub	x10, x11, x9
	add	x11, x22, x11
	add	x12, x23, x12
.Lunix_path_BB27_44:
	ldr	d0, [x11], #8
	adds	x10, x10, #8
	str	d0, [x12], #8
	b.ne	.Lunix_path_BB27_44
	cmp	x20, x9
	b.eq	.Lunix_path_BB27_19
	b	.Lunix_path_BB27_17
.Lunix_path_BB27_46:
	mov	x0, x19
	mov	x1, x20
	bl	std_alloc.vec.Vec.grow_amortized.307f257cf2d167af.
	cbz	w0, .Lunix_path_BB27_67
	ldp	x8, x21, [x19, #8]
	b	.Lunix_path_BB27_13
.Lunix_path_BB27_48:
	add	x23, x10, w11, uxtw
	cmp	x23, x20
	b.lo	.Lunix_path_BB27_24
.Lunix_path_BB27_49:
	cmp	x20, #2
	b.lo	.Lunix_path_BB27_60
	cmp	x23, x20
	b.eq	.Lunix_path_BB27_60
	tbnz	x20, #63, .Lunix_path_BB27_144
	mov	x0, x20
	mov	w1, #1
	bl	rattle_alloc
	tbz	w0, #0, .Lunix_path_BB27_144
	mov	x14, x1
	cmp	x23, x20
	stp	x1, xzr, [sp]
	str	x20, [sp, #16]
	b.hi	.Lunix_path_BB27_86
	mov	x8, xzr
	mov	x25, x20
	add	x0, x14, xzr
	add	x26, xzr, x23
	sub	x9, x0, x21
	cmp	x9, x23
	b.hs	.Lunix_path_BB27_88
.Lunix_path_BB27_55:
	cmp	x23, #8
	b.lo	.Lunix_path_BB27_57
	add	x9, x8, x14
	sub	x9, x9, x21
	cmp	x9, #32
	b.hs	.Lunix_path_BB27_77
.Lunix_path_BB27_57:
	mov	x9, xzr
.Lunix_path_BB27_58:
	add	x10, x9, x8
	sub	x8, x23, x9
	add	x9, x21, x9
	add	x10, x14, x10
.Lunix_path_BB27_59:
	ldrb	w11, [x9], #1
	subs	x8, x8, #1
	strb	w11, [x10], #1
	b.ne	.Lunix_path_BB27_59
	b	.Lunix_path_BB27_89
.Lunix_path_BB27_60:
	tbnz	x20, #63, .Lunix_path_BB27_144
	mov	x0, x20
	mov	w1, #1
	bl	rattle_alloc
	tbz	w0, #0, .Lunix_path_BB27_144
	sub	x8, x1, x21
	mov	x22, x1
	cmp	x8, x20
	b.hs	.Lunix_path_BB27_11
	cmp	x20, #8
	mov	x8, xzr
	b.lo	.Lunix_path_BB27_75
	sub	x9, x22, x21
	cmp	x9, #32
	b.lo	.Lunix_path_BB27_75
	cmp	x20, #32
	b.hs	.Lunix_path_BB27_68
	mov	x8, xzr
	b	.Lunix_path_BB27_72
.Lunix_path_BB27_67:
	mov	w20, #1
	cbnz	x25, .Lunix_path_BB27_21
	b	.Lunix_path_BB27_145
.Lunix_path_BB27_68:
	and	x9, x20, #0x18
	and	x8, x20, #0x7fffffffffffffe0
	add	x10, x21, #16
	add	x11, x22, #16
	and	x12, x20, #0x7fffffffffffffe0
.Lunix_path_BB27_69:
	ldp	q0, q1, [x10, #-16]
	subs	x12, x12, #32
	add	x10, x10, #32
	stp	q0, q1, [x11, #-16]
	add	x11, x11, #32
	b.ne	.Lunix_path_BB27_69
	cmp	x20, x8
	b.eq	.Lunix_path_BB27_76
	cbz	x9, .Lunix_path_BB27_75
.Lunix_path_BB27_72:
	mov	x9, x8
	and	x8, x20, #0x7ffffffffffffff8
.Lunix_path_BB27_73:
	ldr	d0, [x21, x9]
	str	d0, [x22, x9]
	add	x9, x9, #8
	cmp	x8, x9
	b.ne	.Lunix_path_BB27_73
	cmp	x20, x8
	b.eq	.Lunix_path_BB27_76
.Lunix_path_BB27_75:
	ldrb	w9, [x21, x8]
	strb	w9, [x22, x8]
	add	x8, x8, #1
	cmp	x20, x8
	b.ne	.Lunix_path_BB27_75
.Lunix_path_BB27_76:
	mov	w25, #1
	b	.Lunix_path_BB27_12
.Lunix_path_BB27_77:
	cmp	x23, #32
	b.hs	.Lunix_path_BB27_79
	mov	x9, xzr
	b	.Lunix_path_BB27_83
.Lunix_path_BB27_79:
	add	x12, x8, x14
	and	x10, x23, #0x18
	and	x9, x23, #0xffffffffffffffe0
	add	x11, x21, #16
	add	x12, x12, #16
	and	x13, x23, #0xffffffffffffffe0
.Lunix_path_BB27_80:
	ldp	q0, q1, [x11, #-16]
	subs	x13, x13, #32
	add	x11, x11, #32
	stp	q0, q1, [x12, #-16]
	add	x12, x12, #32
	b.ne	.Lunix_path_BB27_80
	cmp	x23, x9
	b.eq	.Lunix_path_BB27_89
	cbz	x10, .Lunix_path_BB27_58
.Lunix_path_BB27_83:
	mov	x11, x9
	and	x9, x23, #0xfffffffffffffff8
	add	x12, x8, x11
	sub	x10, x11, x9
	add	x11, x21, x11
	add	x12, x14, x12
.Lunix_path_BB27_84:
	ldr	d0, [x11], #8
	adds	x10, x10, #8
	str	d0, [x12], #8
	b.ne	.Lunix_path_BB27_84
	cmp	x23, x9
	b.eq	.Lunix_path_BB27_89
	b	.Lunix_path_BB27_58
.Lunix_path_BB27_86:
	mov	x0, sp
	mov	x1, x23
	bl	std_alloc.vec.Vec.grow_amortized.2c3341b61b28ed12.
	cbz	w0, .Lunix_path_BB27_142
	ldp	x8, x25, [sp, #8]
	ldr	x14, [sp]
	add	x0, x14, x8
	add	x26, x8, x23
	sub	x9, x0, x21
	cmp	x9, x23
	b.lo	.Lunix_path_BB27_55
.Lunix_path_BB27_88:
	mov	x1, x21
	mov	x2, x23
	mov	x24, x14
	bl	memmove
	mov	x14, x24
.Lunix_path_BB27_89:
	cmp	x23, x20
	stp	x26, x25, [sp, #8]
	b.hs	.Lunix_path_BB27_97
	add	x12, x21, x23
	mov	w10, #1
	neg	x8, x23
	neg	x9, x20
	sub	x10, x10, x20
	mov	x11, x12
	b	.Lunix_path_BB27_93
.Lunix_path_BB27_91:
	cmp	w13, #47
	b.ne	.Lunix_path_BB27_96
.Lunix_path_BB27_92:
	sub	x8, x8, #1
	add	x23, x23, #1
	mov	x12, x11
	cmp	x9, x8
	b.eq	.Lunix_path_BB27_141
.Lunix_path_BB27_93:
	ldrb	w13, [x11], #1
	cmp	w13, #46
	b.ne	.Lunix_path_BB27_91
	cmp	x10, x8
	b.eq	.Lunix_path_BB27_141
	ldrb	w12, [x12, #1]
	cmp	w12, #47
	b.eq	.Lunix_path_BB27_92
.Lunix_path_BB27_96:
	neg	x23, x8
.Lunix_path_BB27_97:
	cmp	x23, x20
	b.hs	.Lunix_path_BB27_141
	sub	x8, x20, x23
	add	x24, x21, x23
	subs	x9, x8, #18
	b.hs	.Lunix_path_BB27_100
	mov	x27, xzr
	b	.Lunix_path_BB27_106
.Lunix_path_BB27_100:
	b.eq	.Lunix_path_BB27_104
	mov	x10, xzr
.Lunix_path_BB27_102:
	movi	v0.16b, #46
	movi	v1.16b, #47
	add	x11, x24, x10
	ldur	q2, [x11, #1]
	ldur	q3, [x11, #2]
	ldr	q4, [x11]
	adrp	x11, .Lunix_path_CPI27_0
	cmeq	v0.16b, v2.16b, v0.16b
	cmeq	v3.16b, v3.16b, v1.16b
	and	v0.16b, v0.16b, v3.16b
	cmeq	v3.16b, v4.16b, v1.16b
	cmeq	v1.16b, v2.16b, v1.16b
	ldr	q2, [x11, :lo12:.Lunix_path_CPI27_0]
	orr	v0.16b, v1.16b, v0.16b
	and	v1.16b, v3.16b, v2.16b
	and	v0.16b, v1.16b, v0.16b
	addp	v0.16b, v0.16b, v0.16b
	addp	v0.16b, v0.16b, v0.16b
	addp	v0.16b, v0.16b, v0.16b
	umov	w11, v0.h[0]
	orr	w11, w11, #0x10000
	rbit	w11, w11
	clz	w11, w11
	cmp	w11, #15
	b.ls	.Lunix_path_BB27_105
	add	x10, x10, #16
	cmp	x10, x9
	b.lo	.Lunix_path_BB27_102
.Lunix_path_BB27_104:
	movi	v0.16b, #46
	movi	v1.16b, #47
	add	x10, x24, x9
	ldur	q2, [x10, #1]
	ldur	q3, [x10, #2]
	ldr	q4, [x10]
	adrp	x10, .Lunix_path_CPI27_0
	cmeq	v0.16b, v2.16b, v0.16b
	cmeq	v3.16b, v3.16b, v1.16b
	and	v0.16b, v0.16b, v3.16b
	cmeq	v3.16b, v4.16b, v1.16b
	cmeq	v1.16b, v2.16b, v1.16b
	ldr	q2, [x10, :lo12:.Lunix_path_CPI27_0]
	orr	v0.16b, v1.16b, v0.16b
	and	v1.16b, v3.16b, v2.16b
	and	v0.16b, v1.16b, v0.16b
	addp	v0.16b, v0.16b, v0.16b
	addp	v0.16b, v0.16b, v0.16b
	addp	v0.16b, v0.16b, v0.16b
	umov	w10, v0.h[0]
	orr	w10, w10, #0x10000
	rbit	w10, w10
	clz	w10, w10
	add	x27, x9, x10
	b	.Lunix_path_BB27_106
.Lunix_path_BB27_105:
	add	x27, x10, w11, uxtw
.Lunix_path_BB27_106:
	cmp	x27, x8
	b.hs	.Lunix_path_BB27_116
	add	x10, x21, #1
	sub	x9, x8, #2
	sub	x11, x8, #1
	add	x10, x10, x23
	b	.Lunix_path_BB27_110
.Lunix_path_BB27_108:
	cmp	w12, #47
	b.eq	.Lunix_path_BB27_116
.Lunix_path_BB27_109:
	add	x27, x27, #1
	cmp	x8, x27
	b.eq	.Lunix_path_BB27_115
.Lunix_path_BB27_110:
	add	x12, x10, x27
	ldurb	w12, [x12, #-1]
	cmp	w12, #47
	b.ne	.Lunix_path_BB27_109
	cmp	x11, x27
	b.eq	.Lunix_path_BB27_116
	ldrb	w12, [x10, x27]
	cmp	w12, #46
	b.ne	.Lunix_path_BB27_108
	cmp	x9, x27
	b.eq	.Lunix_path_BB27_116
	add	x12, x10, x27
	ldrb	w12, [x12, #1]
	b	.Lunix_path_BB27_108
.Lunix_path_BB27_115:
	sub	x27, x20, x23
.Lunix_path_BB27_116:
	add	x28, x27, #1
	sub	x8, x25, x26
	cmp	x28, x8
	b.hi	.Lunix_path_BB27_132
	sub	x1, x24, #1
	add	x8, x14, x26
	sub	x8, x8, x1
	cmp	x8, x28
	b.hs	.Lunix_path_BB27_134
.Lunix_path_BB27_118:
	cmp	x28, #8
	b.lo	.Lunix_path_BB27_120
	sub	x8, x26, x21
	add	x8, x8, x14
	sub	x8, x8, x23
	add	x8, x8, #1
	cmp	x8, #32
	b.hs	.Lunix_path_BB27_123
.Lunix_path_BB27_120:
	mov	x8, xzr
.Lunix_path_BB27_121:
	sub	x9, x27, x8
	add	x10, x8, x23
	add	x11, x8, x26
	add	x8, x9, #1
	sub	x9, x21, #1
	add	x9, x9, x10
	add	x10, x14, x11
.Lunix_path_BB27_122:
	ldrb	w11, [x9], #1
	subs	x8, x8, #1
	strb	w11, [x10], #1
	b.ne	.Lunix_path_BB27_122
	b	.Lunix_path_BB27_135
.Lunix_path_BB27_123:
	cmp	x28, #32
	b.hs	.Lunix_path_BB27_125
	mov	x8, xzr
	b	.Lunix_path_BB27_129
.Lunix_path_BB27_125:
	add	x10, x14, x26
	add	x11, x21, #15
	and	x9, x28, #0x18
	and	x8, x28, #0xffffffffffffffe0
	add	x10, x10, #16
	add	x11, x11, x23
	and	x12, x28, #0xffffffffffffffe0
.Lunix_path_BB27_126:
	ldp	q0, q1, [x11, #-16]
	subs	x12, x12, #32
	add	x11, x11, #32
	stp	q0, q1, [x10, #-16]
	add	x10, x10, #32
	b.ne	.Lunix_path_BB27_126
	cmp	x28, x8
	b.eq	.Lunix_path_BB27_135
	cbz	x9, .Lunix_path_BB27_121
.Lunix_path_BB27_129:
	mov	x9, x8
	and	x8, x28, #0xfffffffffffffff8
	sub	x12, x21, #1
	add	x10, x23, x9
	add	x11, x26, x9
	sub	x9, x9, x8
	add	x10, x12, x10
	add	x11, x14, x11
.Lunix_path_BB27_130:
	ldr	d0, [x10], #8
	adds	x9, x9, #8
	str	d0, [x11], #8
	b.ne	.Lunix_path_BB27_130
	cmp	x28, x8
	b.eq	.Lunix_path_BB27_135
	b	.Lunix_path_BB27_121
.Lunix_path_BB27_132:
	mov	x0, sp
	add	x1, x27, #1
	bl	std_alloc.vec.Vec.grow_amortized.2c3341b61b28ed12.
	cbz	w0, .Lunix_path_BB27_142
	ldp	x26, x25, [sp, #8]
	ldr	x14, [sp]
	sub	x1, x24, #1
	add	x8, x14, x26
	sub	x8, x8, x1
	cmp	x8, x28
	b.lo	.Lunix_path_BB27_118
.Lunix_path_BB27_134:
	add	x0, x14, x26
	add	x2, x27, #1
	mov	x24, x14
	bl	memmove
	mov	x14, x24
.Lunix_path_BB27_135:
	add	x23, x27, x23
	add	x26, x26, x28
	cmp	x23, x20
	stp	x26, x25, [sp, #8]
	b.hs	.Lunix_path_BB27_97
	b	.Lunix_path_BB27_137
.Lunix_path_BB27_136:
	add	x23, x23, #1
	cmp	x20, x23
	b.eq	.Lunix_path_BB27_141
.Lunix_path_BB27_137:
	ldrb	w8, [x21, x23]
	cmp	w8, #47
	b.eq	.Lunix_path_BB27_136
	cmp	w8, #46
	b.ne	.Lunix_path_BB27_97
	cmp	x22, x23
	b.eq	.Lunix_path_BB27_141
	add	x8, x21, x23
	ldrb	w8, [x8, #1]
	cmp	w8, #47
	b.eq	.Lunix_path_BB27_136
	b	.Lunix_path_BB27_97
.Lunix_path_BB27_141:
	ldr	x22, [sp]
	mov	x20, x26
	b	.Lunix_path_BB27_12
.Lunix_path_BB27_142:
	ldr	x8, [sp, #16]
	cbz	x8, .Lunix_path_BB27_144
	ldr	x0, [sp]
	bl	rattle_dealloc
.Lunix_path_BB27_144:
	mov	w20, #1
.Lunix_path_BB27_145:
	mov	w0, w20
	ldp	x20, x19, [sp, #112]
	ldp	x22, x21, [sp, #96]
	ldp	x24, x23, [sp, #80]
	ldp	x26, x25, [sp, #64]
	ldp	x28, x27, [sp, #48]
	ldp	x29, x30, [sp, #32]
	add	sp, sp, #128
	ret
.Lunix_path_func_end27:
	.size	pathtool.paths.push_canon, .Lunix_path_func_end27-pathtool.paths.push_canon
	.section	.rodata.cst16,"aM",@progbits,16
	.p2align	4, 0x0
.Lunix_path_CPI28_0:
	.byte	1
	.byte	2
	.byte	4
	.byte	8
	.byte	16
	.byte	32
	.byte	64
	.byte	128
	.byte	1
	.byte	2
	.byte	4
	.byte	8
	.byte	16
	.byte	32
	.byte	64
	.byte	128
	.section	.text.unix_bytes.utf8.scans.scan_by_sequence,"ax",@progbits
	.p2align	2
	.type	unix_bytes.utf8.scans.scan_by_sequence,@function
// unix_bytes::utf8::scans::scan_by_sequence
unix_bytes.utf8.scans.scan_by_sequence:
	mov	x8, x1
	subs	x9, x1, x2
	b.eq	.Lunix_path_BB28_72
	add	x10, x0, x2
	b	.Lunix_path_BB28_4
.Lunix_path_BB28_2:
	mov	w12, #1
.Lunix_path_BB28_3:
	add	x10, x10, x12
	sub	x9, x9, x12
	cbz	x9, .Lunix_path_BB28_72
.Lunix_path_BB28_4:
	ldrsb	w11, [x10]
	tbnz	w11, #31, .Lunix_path_BB28_18
	cmp	x9, #8
	b.lo	.Lunix_path_BB28_2
	ldrsb	w11, [x10, #1]
	tbnz	w11, #31, .Lunix_path_BB28_2
	subs	x11, x9, #16
	b.lo	.Lunix_path_BB28_33
	cmp	x9, #64
	adrp	x12, .Lunix_path_CPI28_0
	mov	x13, xzr
	b.lo	.Lunix_path_BB28_13
	mov	x14, x9
.Lunix_path_BB28_10:
	add	x15, x10, x13
	ldr	q4, [x12, :lo12:.Lunix_path_CPI28_0]
	ldp	q0, q1, [x15]
	ldp	q2, q3, [x15, #32]
	cmlt	v0.16b, v0.16b, #0
	cmlt	v1.16b, v1.16b, #0
	cmlt	v3.16b, v3.16b, #0
	cmlt	v2.16b, v2.16b, #0
	and	v0.16b, v0.16b, v4.16b
	and	v1.16b, v1.16b, v4.16b
	and	v2.16b, v2.16b, v4.16b
	and	v3.16b, v3.16b, v4.16b
	addp	v0.16b, v0.16b, v1.16b
	addp	v1.16b, v2.16b, v3.16b
	addp	v0.16b, v0.16b, v1.16b
	addp	v0.16b, v0.16b, v0.16b
	fmov	x15, d0
	cbnz	x15, .Lunix_path_BB28_13
	sub	x14, x14, #64
	add	x13, x13, #64
	cmp	x14, #63
	b.hi	.Lunix_path_BB28_10
	and	x13, x9, #0xffffffffffffffc0
.Lunix_path_BB28_13:
	cmp	x13, x11
	b.hs	.Lunix_path_BB28_16
.Lunix_path_BB28_14:
	ldr	q0, [x10, x13]
	ldr	q1, [x12, :lo12:.Lunix_path_CPI28_0]
	cmlt	v0.16b, v0.16b, #0
	and	v0.16b, v0.16b, v1.16b
	addp	v0.16b, v0.16b, v0.16b
	addp	v0.16b, v0.16b, v0.16b
	addp	v0.16b, v0.16b, v0.16b
	umov	w14, v0.h[0]
	cbnz	w14, .Lunix_path_BB28_69
	add	x13, x13, #16
	cmp	x13, x11
	b.lo	.Lunix_path_BB28_14
.Lunix_path_BB28_16:
	ldr	q0, [x10, x11]
	ldr	q1, [x12, :lo12:.Lunix_path_CPI28_0]
	mov	x12, x9
	cmlt	v0.16b, v0.16b, #0
	and	v0.16b, v0.16b, v1.16b
	addp	v0.16b, v0.16b, v0.16b
	addp	v0.16b, v0.16b, v0.16b
	addp	v0.16b, v0.16b, v0.16b
	umov	w13, v0.h[0]
	cbz	w13, .Lunix_path_BB28_3
	umov	w12, v0.h[0]
	rbit	w12, w12
	clz	w12, w12
	add	x12, x11, x12
	b	.Lunix_path_BB28_3
.Lunix_path_BB28_18:
	and	w11, w11, #0xff
	sub	w12, w11, #194
	cmp	w12, #29
	b.hi	.Lunix_path_BB28_28
	cmp	x9, #1
	b.eq	.Lunix_path_BB28_102
	ldrsb	w11, [x10, #1]
	cmn	w11, #64
	b.ge	.Lunix_path_BB28_102
	sub	x12, x9, #2
	add	x11, x10, #2
	cmp	x12, #2
	b.lo	.Lunix_path_BB28_44
	ldrb	w13, [x11]
	sub	w13, w13, #194
	cmp	w13, #29
	b.hi	.Lunix_path_BB28_45
	and	x12, x9, #0xfffffffffffffffe
	mov	x14, xzr
	sub	x15, x9, #4
	sub	x13, x12, #2
.Lunix_path_BB28_24:
	add	x9, x10, x14
	mov	x12, x15
	ldrsb	w9, [x9, #3]
	cmn	w9, #65
	b.gt	.Lunix_path_BB28_70
	cmp	x12, #1
	b.ls	.Lunix_path_BB28_71
	add	x9, x10, x14
	ldrb	w9, [x9, #4]
	sub	w15, w9, #194
	add	x9, x14, #2
	cmp	w15, #29
	sub	x15, x12, #2
	mov	x14, x9
	b.ls	.Lunix_path_BB28_24
	add	x10, x11, x9
	mov	x9, x12
	cbnz	x12, .Lunix_path_BB28_4
	b	.Lunix_path_BB28_72
.Lunix_path_BB28_28:
	and	w12, w11, #0xf0
	cmp	w12, #224
	b.ne	.Lunix_path_BB28_39
	subs	x13, x9, #3
	b.lo	.Lunix_path_BB28_73
	ldrb	w12, [x10, #1]
	cmp	w11, #237
	b.eq	.Lunix_path_BB28_46
	cmp	w11, #224
	b.ne	.Lunix_path_BB28_47
	and	w14, w12, #0xe0
	cmp	w14, #160
	b.eq	.Lunix_path_BB28_48
	b	.Lunix_path_BB28_102
.Lunix_path_BB28_33:
	ldr	d0, [x10]
	cmlt	v0.8b, v0.8b, #0
	umaxv	b0, v0.8b
	fmov	w11, s0
	tbnz	w11, #0, .Lunix_path_BB28_35
	add	x11, x10, x9
	mov	x12, x9
	ldur	d0, [x11, #-8]
	cmlt	v0.8b, v0.8b, #0
	umaxv	b0, v0.8b
	fmov	w11, s0
	tbz	w11, #0, .Lunix_path_BB28_3
.Lunix_path_BB28_35:
	mov	x12, xzr
.Lunix_path_BB28_36:
	ldrsb	w11, [x10, x12]
	tbnz	w11, #31, .Lunix_path_BB28_3
	add	x12, x12, #1
	cmp	x9, x12
	b.ne	.Lunix_path_BB28_36
	mov	x12, x9
	b	.Lunix_path_BB28_3
.Lunix_path_BB28_39:
	sub	w12, w11, #240
	cmp	w12, #4
	b.hi	.Lunix_path_BB28_102
	cmp	x9, #4
	b.lo	.Lunix_path_BB28_79
	ldrb	w12, [x10, #1]
	cmp	w11, #244
	b.eq	.Lunix_path_BB28_50
	cmp	w11, #240
	b.ne	.Lunix_path_BB28_51
	sub	w13, w12, #144
	cmp	w13, #48
	b.lo	.Lunix_path_BB28_52
	b	.Lunix_path_BB28_102
.Lunix_path_BB28_44:
	add	x10, x11, xzr
	mov	x9, x12
	cbnz	x12, .Lunix_path_BB28_4
	b	.Lunix_path_BB28_72
.Lunix_path_BB28_45:
	add	x10, x11, xzr
	mov	x9, x12
	cbnz	x12, .Lunix_path_BB28_4
	b	.Lunix_path_BB28_72
.Lunix_path_BB28_46:
	sxtb	w14, w12
	cmn	w14, #96
	b.lt	.Lunix_path_BB28_48
	b	.Lunix_path_BB28_102
.Lunix_path_BB28_47:
	sxtb	w14, w12
	cmn	w14, #65
	b.gt	.Lunix_path_BB28_75
.Lunix_path_BB28_48:
	ldrsb	w14, [x10, #2]
	cmn	w14, #64
	b.ge	.Lunix_path_BB28_75
	add	x10, x10, #3
	mov	x9, x13
	cbnz	x13, .Lunix_path_BB28_4
	b	.Lunix_path_BB28_72
.Lunix_path_BB28_50:
	sxtb	w13, w12
	cmn	w13, #112
	b.lt	.Lunix_path_BB28_52
	b	.Lunix_path_BB28_102
.Lunix_path_BB28_51:
	sxtb	w13, w12
	cmn	w13, #65
	b.gt	.Lunix_path_BB28_82
.Lunix_path_BB28_52:
	ldrsb	w13, [x10, #2]
	cmn	w13, #65
	b.gt	.Lunix_path_BB28_82
	ldrsb	w13, [x10, #3]
	cmn	w13, #64
	b.ge	.Lunix_path_BB28_82
	subs	x11, x9, #4
	add	x10, x10, #4
	b.eq	.Lunix_path_BB28_68
	mov	x12, x10
	mov	x9, x11
.Lunix_path_BB28_56:
	cmp	x9, #4
	b.lo	.Lunix_path_BB28_67
	ldrb	w14, [x12]
	sub	w13, w14, #240
	cmp	w13, #4
	b.hi	.Lunix_path_BB28_67
	ldrb	w13, [x12, #1]
	cmp	w14, #244
	b.eq	.Lunix_path_BB28_61
	cmp	w14, #240
	b.ne	.Lunix_path_BB28_62
	sub	w13, w13, #144
	cmp	w13, #48
	b.lo	.Lunix_path_BB28_64
	b	.Lunix_path_BB28_67
.Lunix_path_BB28_61:
	sxtb	w13, w13
	cmn	w13, #112
	b.lt	.Lunix_path_BB28_64
	b	.Lunix_path_BB28_67
.Lunix_path_BB28_62:
	cmp	w14, #243
	b.hi	.Lunix_path_BB28_67
	sxtb	w13, w13
	cmn	w13, #65
	b.gt	.Lunix_path_BB28_67
.Lunix_path_BB28_64:
	ldrsb	w13, [x12, #2]
	cmn	w13, #65
	b.gt	.Lunix_path_BB28_67
	ldrsb	w13, [x12, #3]
	cmn	w13, #65
	b.gt	.Lunix_path_BB28_67
	subs	x9, x9, #4
	add	x12, x12, #4
	b.ne	.Lunix_path_BB28_56
.Lunix_path_BB28_67:
	sub	x11, x11, x9
	add	x10, x10, x11
	cbnz	x9, .Lunix_path_BB28_4
	b	.Lunix_path_BB28_72
.Lunix_path_BB28_68:
	mov	x9, xzr
	sub	x11, x11, xzr
	add	x10, x10, x11
	b	.Lunix_path_BB28_72
.Lunix_path_BB28_69:
	umov	w11, v0.h[0]
	rbit	w11, w11
	clz	w11, w11
	add	x12, x11, x13
	b	.Lunix_path_BB28_3
.Lunix_path_BB28_70:
	add	x12, x12, #2
	add	x10, x11, x14
	mov	x9, x12
	cbnz	x12, .Lunix_path_BB28_4
	b	.Lunix_path_BB28_72
.Lunix_path_BB28_71:
	add	x10, x11, x13
	mov	x9, x12
	cbnz	x12, .Lunix_path_BB28_4
.Lunix_path_BB28_72:
	mov	x1, xzr
	mov	x0, x8
	ret
.Lunix_path_BB28_73:
	cmp	x9, #1
	b.eq	.Lunix_path_BB28_102
	ldrb	w12, [x10, #1]
.Lunix_path_BB28_75:
	cmp	w11, #239
	b.gt	.Lunix_path_BB28_89
	cmp	w11, #224
	b.eq	.Lunix_path_BB28_101
.Lunix_path_BB28_77:
	cmp	w11, #237
	b.ne	.Lunix_path_BB28_105
	sxtb	w10, w12
	cmn	w10, #96
	b.ge	.Lunix_path_BB28_102
	b	.Lunix_path_BB28_106
.Lunix_path_BB28_79:
	cmp	x9, #1
	b.eq	.Lunix_path_BB28_97
	cmp	x9, #3
	b.ne	.Lunix_path_BB28_98
	ldrb	w12, [x10, #1]
.Lunix_path_BB28_82:
	cmp	w11, #239
	b.gt	.Lunix_path_BB28_86
	cmp	w11, #224
	b.eq	.Lunix_path_BB28_93
	cmp	w11, #237
	b.ne	.Lunix_path_BB28_92
	sxtb	w13, w12
	cmn	w13, #96
	b.lt	.Lunix_path_BB28_95
	b	.Lunix_path_BB28_102
.Lunix_path_BB28_86:
	cmp	w11, #240
	b.eq	.Lunix_path_BB28_94
	cmp	w11, #244
	b.ne	.Lunix_path_BB28_92
	sxtb	w13, w12
	cmn	w13, #113
	b.le	.Lunix_path_BB28_95
	b	.Lunix_path_BB28_102
.Lunix_path_BB28_89:
	cmp	w11, #240
	b.eq	.Lunix_path_BB28_107
	cmp	w11, #244
	b.ne	.Lunix_path_BB28_105
.Lunix_path_BB28_91:
	sxtb	w10, w12
	cmn	w10, #113
	b.le	.Lunix_path_BB28_106
	b	.Lunix_path_BB28_102
.Lunix_path_BB28_92:
	sxtb	w13, w12
	cmn	w13, #64
	b.lt	.Lunix_path_BB28_95
	b	.Lunix_path_BB28_99
.Lunix_path_BB28_93:
	and	w13, w12, #0xe0
	cmp	w13, #160
	b.eq	.Lunix_path_BB28_95
	b	.Lunix_path_BB28_102
.Lunix_path_BB28_94:
	sub	w13, w12, #144
	cmp	w13, #48
	b.hs	.Lunix_path_BB28_102
.Lunix_path_BB28_95:
	ldrsb	w10, [x10, #2]
	cmn	w10, #64
	b.ge	.Lunix_path_BB28_99
	mov	w1, #3
	sub	x0, x8, x9
	ret
.Lunix_path_BB28_97:
	mov	x1, x9
	sub	x0, x8, x9
	ret
.Lunix_path_BB28_98:
	ldrb	w12, [x10, #1]
.Lunix_path_BB28_99:
	cmp	w11, #239
	b.gt	.Lunix_path_BB28_103
	cmp	w11, #224
	b.ne	.Lunix_path_BB28_77
.Lunix_path_BB28_101:
	and	w10, w12, #0xe0
	cmp	w10, #160
	b.eq	.Lunix_path_BB28_106
.Lunix_path_BB28_102:
	mov	w1, #1
	sub	x0, x8, x9
	ret
.Lunix_path_BB28_103:
	cmp	w11, #240
	b.eq	.Lunix_path_BB28_107
	cmp	w11, #244
	b.eq	.Lunix_path_BB28_91
.Lunix_path_BB28_105:
	sxtb	w10, w12
	cmn	w10, #64
	b.ge	.Lunix_path_BB28_102
.Lunix_path_BB28_106:
	mov	w1, #2
	sub	x0, x8, x9
	ret
.Lunix_path_BB28_107:
	sub	w10, w12, #144
	cmp	w10, #48
	b.hs	.Lunix_path_BB28_102
	b	.Lunix_path_BB28_106
.Lunix_path_func_end28:
	.size	unix_bytes.utf8.scans.scan_by_sequence, .Lunix_path_func_end28-unix_bytes.utf8.scans.scan_by_sequence
	.section	.rodata.cst16,"aM",@progbits,16
	.p2align	4, 0x0
.Lunix_path_CPI29_0:
	.byte	1
	.byte	2
	.byte	4
	.byte	8
	.byte	16
	.byte	32
	.byte	64
	.byte	128
	.byte	1
	.byte	2
	.byte	4
	.byte	8
	.byte	16
	.byte	32
	.byte	64
	.byte	128
	.section	.text.unix_bytes.utf8.scans.scan_by_window,"ax",@progbits
	.p2align	2
	.type	unix_bytes.utf8.scans.scan_by_window,@function
// unix_bytes::utf8::scans::scan_by_window
unix_bytes.utf8.scans.scan_by_window:
	cmp	x2, x1
	b.hs	.Lunix_path_BB29_62
	add	x8, x0, x1
	b	.Lunix_path_BB29_5
.Lunix_path_BB29_2:
	mov	w11, #1
.Lunix_path_BB29_3:
	add	x2, x11, x2
.Lunix_path_BB29_4:
	cmp	x2, x1
	b.hs	.Lunix_path_BB29_62
.Lunix_path_BB29_5:
	add	x10, x0, x2
	sub	x11, x1, x2
	adrp	x9, .Lunix_path_CPI29_0
	ldrsb	w12, [x10]
	tbnz	w12, #31, .Lunix_path_BB29_14
	cmp	x11, #8
	b.lo	.Lunix_path_BB29_2
	ldrsb	w12, [x10, #1]
	tbnz	w12, #31, .Lunix_path_BB29_2
	subs	x12, x11, #16
	b.lo	.Lunix_path_BB29_23
	cmp	x11, #64
	b.lo	.Lunix_path_BB29_33
	mov	x13, xzr
	sub	x14, x1, x2
.Lunix_path_BB29_11:
	add	x15, x10, x13
	ldr	q4, [x9, :lo12:.Lunix_path_CPI29_0]
	ldp	q0, q1, [x15]
	ldp	q2, q3, [x15, #32]
	cmlt	v0.16b, v0.16b, #0
	cmlt	v1.16b, v1.16b, #0
	cmlt	v3.16b, v3.16b, #0
	cmlt	v2.16b, v2.16b, #0
	and	v0.16b, v0.16b, v4.16b
	and	v1.16b, v1.16b, v4.16b
	and	v2.16b, v2.16b, v4.16b
	and	v3.16b, v3.16b, v4.16b
	addp	v0.16b, v0.16b, v1.16b
	addp	v1.16b, v2.16b, v3.16b
	addp	v0.16b, v0.16b, v1.16b
	addp	v0.16b, v0.16b, v0.16b
	fmov	x15, d0
	cbnz	x15, .Lunix_path_BB29_34
	sub	x14, x14, #64
	add	x13, x13, #64
	cmp	x14, #63
	b.hi	.Lunix_path_BB29_11
	and	x13, x11, #0xffffffffffffffc0
	cmp	x13, x12
	b.lo	.Lunix_path_BB29_35
	b	.Lunix_path_BB29_37
.Lunix_path_BB29_14:
	and	w12, w12, #0xff
	sub	w13, w12, #194
	cmp	w13, #29
	b.hi	.Lunix_path_BB29_18
	cmp	x11, #2
	b.lo	.Lunix_path_BB29_91
	ldrsb	w10, [x10, #1]
	cmn	w10, #64
	b.ge	.Lunix_path_BB29_91
	mov	w10, #2
	add	x2, x10, x2
	cmp	x2, #3
	b.hs	.Lunix_path_BB29_49
	b	.Lunix_path_BB29_4
.Lunix_path_BB29_18:
	and	w13, w12, #0xf0
	cmp	w13, #224
	b.ne	.Lunix_path_BB29_28
	cmp	x11, #3
	b.lo	.Lunix_path_BB29_63
	ldrb	w11, [x10, #1]
	cmp	w12, #237
	b.eq	.Lunix_path_BB29_40
	cmp	w12, #224
	b.ne	.Lunix_path_BB29_41
	and	w13, w11, #0xe0
	cmp	w13, #160
	b.eq	.Lunix_path_BB29_42
	b	.Lunix_path_BB29_91
.Lunix_path_BB29_23:
	ldr	d0, [x10]
	cmlt	v0.8b, v0.8b, #0
	umaxv	b0, v0.8b
	fmov	w9, s0
	tbnz	w9, #0, .Lunix_path_BB29_25
	ldur	d0, [x8, #-8]
	cmlt	v0.8b, v0.8b, #0
	umaxv	b0, v0.8b
	fmov	w9, s0
	tbz	w9, #0, .Lunix_path_BB29_3
.Lunix_path_BB29_25:
	mov	x9, xzr
.Lunix_path_BB29_26:
	ldrsb	w12, [x10, x9]
	tbnz	w12, #31, .Lunix_path_BB29_39
	add	x9, x9, #1
	cmp	x11, x9
	b.ne	.Lunix_path_BB29_26
	b	.Lunix_path_BB29_3
.Lunix_path_BB29_28:
	sub	w13, w12, #240
	cmp	w13, #4
	b.hi	.Lunix_path_BB29_91
	cmp	x11, #4
	b.lo	.Lunix_path_BB29_69
	ldrb	w11, [x10, #1]
	cmp	w12, #244
	b.eq	.Lunix_path_BB29_44
	cmp	w12, #240
	b.ne	.Lunix_path_BB29_45
	sub	w13, w11, #144
	cmp	w13, #48
	b.lo	.Lunix_path_BB29_46
	b	.Lunix_path_BB29_91
.Lunix_path_BB29_33:
	mov	x13, xzr
.Lunix_path_BB29_34:
	cmp	x13, x12
	b.hs	.Lunix_path_BB29_37
.Lunix_path_BB29_35:
	ldr	q0, [x10, x13]
	ldr	q1, [x9, :lo12:.Lunix_path_CPI29_0]
	cmlt	v0.16b, v0.16b, #0
	and	v0.16b, v0.16b, v1.16b
	addp	v0.16b, v0.16b, v0.16b
	addp	v0.16b, v0.16b, v0.16b
	addp	v0.16b, v0.16b, v0.16b
	umov	w14, v0.h[0]
	cbnz	w14, .Lunix_path_BB29_61
	add	x13, x13, #16
	cmp	x13, x12
	b.lo	.Lunix_path_BB29_35
.Lunix_path_BB29_37:
	ldr	q0, [x10, x12]
	ldr	q1, [x9, :lo12:.Lunix_path_CPI29_0]
	cmlt	v0.16b, v0.16b, #0
	and	v0.16b, v0.16b, v1.16b
	addp	v0.16b, v0.16b, v0.16b
	addp	v0.16b, v0.16b, v0.16b
	addp	v0.16b, v0.16b, v0.16b
	umov	w9, v0.h[0]
	cbz	w9, .Lunix_path_BB29_3
	umov	w9, v0.h[0]
	rbit	w9, w9
	clz	w9, w9
	add	x11, x12, x9
	b	.Lunix_path_BB29_3
.Lunix_path_BB29_39:
	mov	x11, x9
	b	.Lunix_path_BB29_3
.Lunix_path_BB29_40:
	sxtb	w13, w11
	cmn	w13, #96
	b.lt	.Lunix_path_BB29_42
	b	.Lunix_path_BB29_91
.Lunix_path_BB29_41:
	sxtb	w13, w11
	cmn	w13, #65
	b.gt	.Lunix_path_BB29_65
.Lunix_path_BB29_42:
	ldrsb	w10, [x10, #2]
	cmn	w10, #64
	b.ge	.Lunix_path_BB29_65
	mov	w10, #3
	add	x2, x10, x2
	cmp	x2, #3
	b.hs	.Lunix_path_BB29_49
	b	.Lunix_path_BB29_4
.Lunix_path_BB29_44:
	sxtb	w13, w11
	cmn	w13, #112
	b.lt	.Lunix_path_BB29_46
	b	.Lunix_path_BB29_91
.Lunix_path_BB29_45:
	sxtb	w13, w11
	cmn	w13, #65
	b.gt	.Lunix_path_BB29_71
.Lunix_path_BB29_46:
	ldrsb	w13, [x10, #2]
	cmn	w13, #65
	b.gt	.Lunix_path_BB29_71
	ldrsb	w13, [x10, #3]
	cmn	w13, #64
	b.ge	.Lunix_path_BB29_71
	mov	w10, #4
	add	x2, x10, x2
	cmp	x2, #3
	b.lo	.Lunix_path_BB29_4
.Lunix_path_BB29_49:
	sub	x10, x1, x2
	cmp	x10, #16
	b.hs	.Lunix_path_BB29_52
	b	.Lunix_path_BB29_4
.Lunix_path_BB29_50:
	mov	w10, #15
.Lunix_path_BB29_51:
	add	x2, x10, x2
	sub	x10, x1, x2
	cmp	x10, #15
	b.ls	.Lunix_path_BB29_4
.Lunix_path_BB29_52:
	add	x10, x0, x2
	ldr	q2, [x9, :lo12:.Lunix_path_CPI29_0]
	ldr	q0, [x10]
	cmlt	v1.16b, v0.16b, #0
	and	v1.16b, v1.16b, v2.16b
	addp	v1.16b, v1.16b, v1.16b
	addp	v1.16b, v1.16b, v1.16b
	addp	v3.16b, v1.16b, v1.16b
	umov	w11, v3.h[0]
	cbz	w11, .Lunix_path_BB29_4
	movi	v4.16b, #192
	movi	v5.16b, #224
	ldur	q6, [x10, #-2]
	ldur	q1, [x10, #-1]
	movi	v7.16b, #240
	umov	w12, v3.h[0]
	cmhi	v16.16b, v4.16b, v1.16b
	cmhi	v5.16b, v5.16b, v6.16b
	ldur	q6, [x10, #-3]
	cmhs	v4.16b, v0.16b, v4.16b
	cmhi	v6.16b, v7.16b, v6.16b
	and	v5.16b, v5.16b, v16.16b
	and	v4.16b, v4.16b, v2.16b
	and	v5.16b, v6.16b, v5.16b
	addp	v4.16b, v4.16b, v4.16b
	bic	v5.16b, v2.16b, v5.16b
	addp	v4.16b, v4.16b, v4.16b
	addp	v5.16b, v5.16b, v5.16b
	addp	v4.16b, v4.16b, v4.16b
	addp	v5.16b, v5.16b, v5.16b
	umov	w10, v4.h[0]
	addp	v5.16b, v5.16b, v5.16b
	umov	w11, v5.h[0]
	add	x10, x11, w10, uxth
	cmp	x10, w12, uxth
	b.ne	.Lunix_path_BB29_4
	movi	v3.16b, #194
	cmhs	v3.16b, v0.16b, v3.16b
	and	v3.16b, v3.16b, v2.16b
	addp	v3.16b, v3.16b, v3.16b
	addp	v3.16b, v3.16b, v3.16b
	addp	v3.16b, v3.16b, v3.16b
	cmeq	v3.8h, v4.8h, v3.8h
	xtn	v3.8b, v3.8h
	umov	w10, v3.b[0]
	tbz	w10, #0, .Lunix_path_BB29_4
	movi	v3.16b, #240
	movi	v4.16b, #224
	movi	v5.16b, #144
	movi	v6.16b, #160
	cmeq	v3.16b, v1.16b, v3.16b
	cmeq	v4.16b, v1.16b, v4.16b
	bic	v3.16b, v3.16b, v4.16b
	and	v4.16b, v4.16b, v6.16b
	and	v3.16b, v3.16b, v5.16b
	orr	v3.16b, v4.16b, v3.16b
	cmhi	v3.16b, v3.16b, v0.16b
	and	v3.16b, v3.16b, v2.16b
	addp	v3.16b, v3.16b, v3.16b
	addp	v3.16b, v3.16b, v3.16b
	addp	v3.16b, v3.16b, v3.16b
	umov	w10, v3.h[0]
	cbnz	w10, .Lunix_path_BB29_4
	movi	v3.16b, #244
	movi	v4.16b, #143
	movi	v6.16b, #237
	cmeq	v5.16b, v1.16b, v3.16b
	bit	v3.16b, v4.16b, v5.16b
	movi	v4.16b, #159
	cmeq	v5.16b, v1.16b, v6.16b
	bit	v3.16b, v4.16b, v5.16b
	cmhi	v3.16b, v0.16b, v3.16b
	and	v2.16b, v3.16b, v2.16b
	addp	v2.16b, v2.16b, v2.16b
	addp	v2.16b, v2.16b, v2.16b
	addp	v2.16b, v2.16b, v2.16b
	umov	w10, v2.h[0]
	cbnz	w10, .Lunix_path_BB29_4
	umov	w10, v0.b[15]
	and	w10, w10, #0xff
	cmp	w10, #191
	b.hi	.Lunix_path_BB29_50
	umov	w10, v1.b[15]
	and	w10, w10, #0xff
	cmp	w10, #223
	b.ls	.Lunix_path_BB29_60
	mov	w10, #14
	b	.Lunix_path_BB29_51
.Lunix_path_BB29_60:
	umov	w10, v1.b[14]
	mov	w11, #13
	and	w10, w10, #0xff
	cmp	w10, #239
	mov	w10, #16
	csel	x10, x11, x10, hi
	b	.Lunix_path_BB29_51
.Lunix_path_BB29_61:
	umov	w9, v0.h[0]
	rbit	w9, w9
	clz	w9, w9
	add	x11, x9, x13
	b	.Lunix_path_BB29_3
.Lunix_path_BB29_62:
	mov	x1, xzr
	mov	x0, x2
	ret
.Lunix_path_BB29_63:
	cmp	x11, #2
	b.ne	.Lunix_path_BB29_91
	ldrb	w11, [x10, #1]
.Lunix_path_BB29_65:
	cmp	w12, #239
	b.gt	.Lunix_path_BB29_78
	cmp	w12, #224
	b.eq	.Lunix_path_BB29_90
.Lunix_path_BB29_67:
	cmp	w12, #237
	b.ne	.Lunix_path_BB29_94
	sxtb	w8, w11
	cmn	w8, #96
	b.ge	.Lunix_path_BB29_91
	b	.Lunix_path_BB29_95
.Lunix_path_BB29_69:
	cmp	x11, #3
	b.ne	.Lunix_path_BB29_86
	ldrb	w11, [x10, #1]
.Lunix_path_BB29_71:
	cmp	w12, #239
	b.gt	.Lunix_path_BB29_75
	cmp	w12, #224
	b.eq	.Lunix_path_BB29_82
	cmp	w12, #237
	b.ne	.Lunix_path_BB29_81
	sxtb	w8, w11
	cmn	w8, #96
	b.lt	.Lunix_path_BB29_84
	b	.Lunix_path_BB29_91
.Lunix_path_BB29_75:
	cmp	w12, #240
	b.eq	.Lunix_path_BB29_83
	cmp	w12, #244
	b.ne	.Lunix_path_BB29_81
	sxtb	w8, w11
	cmn	w8, #113
	b.le	.Lunix_path_BB29_84
	b	.Lunix_path_BB29_91
.Lunix_path_BB29_78:
	cmp	w12, #240
	b.eq	.Lunix_path_BB29_96
	cmp	w12, #244
	b.ne	.Lunix_path_BB29_94
.Lunix_path_BB29_80:
	sxtb	w8, w11
	cmn	w8, #113
	b.le	.Lunix_path_BB29_95
	b	.Lunix_path_BB29_91
.Lunix_path_BB29_81:
	sxtb	w8, w11
	cmn	w8, #64
	b.lt	.Lunix_path_BB29_84
	b	.Lunix_path_BB29_88
.Lunix_path_BB29_82:
	and	w8, w11, #0xe0
	cmp	w8, #160
	b.eq	.Lunix_path_BB29_84
	b	.Lunix_path_BB29_91
.Lunix_path_BB29_83:
	sub	w8, w11, #144
	cmp	w8, #48
	b.hs	.Lunix_path_BB29_91
.Lunix_path_BB29_84:
	ldrsb	w8, [x10, #2]
	cmn	w8, #64
	b.ge	.Lunix_path_BB29_88
	mov	w1, #3
	mov	x0, x2
	ret
.Lunix_path_BB29_86:
	cmp	x11, #2
	b.lo	.Lunix_path_BB29_91
	ldrb	w11, [x10, #1]
.Lunix_path_BB29_88:
	cmp	w12, #239
	b.gt	.Lunix_path_BB29_92
	cmp	w12, #224
	b.ne	.Lunix_path_BB29_67
.Lunix_path_BB29_90:
	and	w8, w11, #0xe0
	cmp	w8, #160
	b.eq	.Lunix_path_BB29_95
.Lunix_path_BB29_91:
	mov	w1, #1
	mov	x0, x2
	ret
.Lunix_path_BB29_92:
	cmp	w12, #240
	b.eq	.Lunix_path_BB29_96
	cmp	w12, #244
	b.eq	.Lunix_path_BB29_80
.Lunix_path_BB29_94:
	sxtb	w8, w11
	cmn	w8, #64
	b.ge	.Lunix_path_BB29_91
.Lunix_path_BB29_95:
	mov	w1, #2
	mov	x0, x2
	ret
.Lunix_path_BB29_96:
	sub	w8, w11, #144
	cmp	w8, #48
	b.hs	.Lunix_path_BB29_91
	b	.Lunix_path_BB29_95
.Lunix_path_func_end29:
	.size	unix_bytes.utf8.scans.scan_by_window, .Lunix_path_func_end29-unix_bytes.utf8.scans.scan_by_window
	.section	.rodata.cst16,"aM",@progbits,16
	.p2align	4, 0x0
.Lunix_path_CPI30_0:
	.byte	1
	.byte	2
	.byte	4
	.byte	8
	.byte	16
	.byte	32
	.byte	64
	.byte	128
	.byte	1
	.byte	2
	.byte	4
	.byte	8
	.byte	16
	.byte	32
	.byte	64
	.byte	128
	.section	.rodata.cst8,"aM",@progbits,8
	.p2align	3, 0x0
.Lunix_path_CPI30_1:
	.byte	102
	.byte	97
	.byte	108
	.byte	115
	.zero	1
	.zero	1
	.zero	1
	.zero	1
.Lunix_path_CPI30_2:
	.byte	116
	.byte	114
	.byte	117
	.byte	101
	.zero	1
	.zero	1
	.zero	1
	.zero	1
	.section	.text.serde_json.ser.write.d02ee1697995db96.,"ax",@progbits
	.p2align	2
	.type	serde_json.ser.write.d02ee1697995db96.,@function
// serde_json::ser::write::<#d02ee1697995db96>
serde_json.ser.write.d02ee1697995db96.:
	sub	sp, sp, #208
	ldrb	w8, [x0]
	stp	x20, x19, [sp, #192]
	mov	x20, x0
	mov	x19, x1
	stp	x29, x30, [sp, #112]
	add	x29, sp, #112
	cmp	w8, #2
	stp	x28, x27, [sp, #128]
	stp	x26, x25, [sp, #144]
	stp	x24, x23, [sp, #160]
	stp	x22, x21, [sp, #176]
	b.gt	.Lunix_path_BB30_7
	cbz	w8, .Lunix_path_BB30_20
	cmp	w8, #1
	b.ne	.Lunix_path_BB30_26
	ldrb	w9, [x20, #1]
	ldr	x10, [x19, #8]
	ldr	x8, [x19, #24]
	ldrb	w20, [x19, #40]
	cmp	w9, #1
	sub	x9, x10, x8
	b.ne	.Lunix_path_BB30_42
	cmp	x9, #4
	b.ls	.Lunix_path_BB30_146
.Lunix_path_BB30_5:
	ldr	x10, [x19]
	add	x11, x8, x20
	adrp	x12, .Lunix_path_static.29
	add	x12, x12, :lo12:.Lunix_path_static.29
	add	x9, x10, x11
	sub	x12, x9, x12
	cmp	x12, #3
	mov	w12, #44
	strb	w12, [x10, x8]
	add	x8, x11, #4
	b.hi	.Lunix_path_BB30_112
	adrp	x10, .Lunix_path_CPI30_2
	ldr	d0, [x10, :lo12:.Lunix_path_CPI30_2]
	str	s0, [x9]
	b	.Lunix_path_BB30_114
.Lunix_path_BB30_7:
	cmp	w8, #3
	adrp	x25, .Lunix_path_CPI30_0
	b.eq	.Lunix_path_BB30_22
	cmp	w8, #4
	b.ne	.Lunix_path_BB30_29
	ldr	x9, [x19, #8]
	ldr	x8, [x19, #24]
	ldrb	w21, [x19, #40]
	sub	x9, x9, x8
	cmp	x9, #1
	b.ls	.Lunix_path_BB30_132
.Lunix_path_BB30_10:
	ldr	x9, [x19]
	add	x11, x8, x21
	mov	w10, #44
	strb	w10, [x9, x8]
	add	x8, x11, #1
	mov	w10, #91
	strb	w10, [x9, x11]
	str	x8, [x19, #24]
	strb	wzr, [x19, #40]
	ldr	x21, [x20, #16]
	cbz	x21, .Lunix_path_BB30_107
	ldr	x20, [x20, #8]
	b	.Lunix_path_BB30_14
.Lunix_path_BB30_12:
	mov	x0, x20
	mov	x1, x19
	bl	serde_json.ser.write.d02ee1697995db96.
	and	w8, w0, #0xff
	tbnz	w8, #0, .Lunix_path_BB30_157
.Lunix_path_BB30_13:
	subs	x21, x21, #1
	add	x20, x20, #32
	b.eq	.Lunix_path_BB30_106
.Lunix_path_BB30_14:
	ldrb	w8, [x20]
	cmp	w8, #2
	b.ne	.Lunix_path_BB30_12
	ldrb	w8, [x20, #8]
	cmp	w8, #2
	b.eq	.Lunix_path_BB30_18
	cmp	w8, #1
	b.ne	.Lunix_path_BB30_19
	ldr	x0, [x20, #16]
	mov	x1, x19
	bl	serde_json.number.write_negative.d02ee1697995db96.
	and	w8, w0, #0xff
	tbz	w8, #0, .Lunix_path_BB30_13
	b	.Lunix_path_BB30_157
.Lunix_path_BB30_18:
	ldr	d0, [x20, #16]
	mov	x0, x19
	bl	serde_json.number.write_float.d02ee1697995db96.
	and	w8, w0, #0xff
	tbz	w8, #0, .Lunix_path_BB30_13
	b	.Lunix_path_BB30_157
.Lunix_path_BB30_19:
	ldr	x0, [x20, #16]
	mov	x1, x19
	bl	serde_json.number.write_positive.d02ee1697995db96.
	and	w8, w0, #0xff
	tbz	w8, #0, .Lunix_path_BB30_13
	b	.Lunix_path_BB30_157
.Lunix_path_BB30_20:
	ldr	x9, [x19, #8]
	ldr	x8, [x19, #24]
	ldrb	w20, [x19, #40]
	sub	x9, x9, x8
	cmp	x9, #4
	b.ls	.Lunix_path_BB30_130
.Lunix_path_BB30_21:
	ldr	x9, [x19]
	mov	w10, #44
	add	x11, x8, x20
	mov	w0, wzr
	strb	w10, [x9, x8]
	mov	w8, #30062
	add	x10, x11, #4
	movk	w8, #27756, lsl #16
	str	w8, [x9, x11]
	str	x10, [x19, #24]
	b	.Lunix_path_BB30_140
.Lunix_path_BB30_22:
	ldp	x2, x3, [x20, #8]
	ldrb	w1, [x19, #40]
	cmp	x3, #32
	b.hs	.Lunix_path_BB30_33
	cmp	x3, #16
	b.lo	.Lunix_path_BB30_109
	movi	v0.16b, #34
	movi	v1.16b, #92
	ldr	q3, [x2]
	movi	v2.16b, #32
	cmeq	v4.16b, v3.16b, v0.16b
	cmeq	v5.16b, v3.16b, v1.16b
	cmhi	v3.16b, v2.16b, v3.16b
	orr	v4.16b, v4.16b, v5.16b
	orr	v4.16b, v3.16b, v4.16b
	ldr	q3, [x25, :lo12:.Lunix_path_CPI30_0]
	and	v4.16b, v4.16b, v3.16b
	addp	v4.16b, v4.16b, v4.16b
	addp	v4.16b, v4.16b, v4.16b
	addp	v4.16b, v4.16b, v4.16b
	umov	w8, v4.h[0]
	cbnz	w8, .Lunix_path_BB30_129
	add	x8, x2, x3
	ldur	q4, [x8, #-16]
	cmeq	v0.16b, v4.16b, v0.16b
	cmeq	v1.16b, v4.16b, v1.16b
	orr	v0.16b, v0.16b, v1.16b
	cmhi	v1.16b, v2.16b, v4.16b
	orr	v0.16b, v1.16b, v0.16b
	and	v0.16b, v0.16b, v3.16b
	addp	v0.16b, v0.16b, v0.16b
	addp	v0.16b, v0.16b, v0.16b
	addp	v0.16b, v0.16b, v0.16b
	umov	w8, v0.h[0]
	cbnz	w8, .Lunix_path_BB30_129
	b	.Lunix_path_BB30_37
.Lunix_path_BB30_26:
	ldrb	w8, [x20, #8]
	cmp	w8, #2
	b.eq	.Lunix_path_BB30_104
	cmp	w8, #1
	b.ne	.Lunix_path_BB30_105
	ldr	x0, [x20, #16]
	mov	x1, x19
	ldp	x20, x19, [sp, #192]
	ldp	x22, x21, [sp, #176]
	ldp	x24, x23, [sp, #160]
	ldp	x26, x25, [sp, #144]
	ldp	x28, x27, [sp, #128]
	ldp	x29, x30, [sp, #112]
	add	sp, sp, #208
	b	serde_json.number.write_negative.d02ee1697995db96.
.Lunix_path_BB30_29:
	ldr	x9, [x19, #8]
	ldr	x8, [x19, #24]
	ldrb	w21, [x19, #40]
	sub	x9, x9, x8
	cmp	x9, #1
	b.ls	.Lunix_path_BB30_134
.Lunix_path_BB30_30:
	ldr	x9, [x19]
	mov	w10, #44
	add	x11, x8, x21
	strb	w10, [x9, x8]
	add	x10, x11, #1
	mov	w8, #123
	strb	w8, [x9, x11]
	str	x10, [x19, #24]
	strb	wzr, [x19, #40]
	ldrb	w8, [x20, #8]
	cmp	w8, #1
	b.ne	.Lunix_path_BB30_45
	ldr	x8, [x20, #16]!
	ldrh	w9, [x8, #2]
	cbz	w9, .Lunix_path_BB30_118
	mov	x26, xzr
	mov	x21, #-1
	mov	w22, #1
	b	.Lunix_path_BB30_46
.Lunix_path_BB30_33:
	mov	x8, x2
	mov	x9, x3
	b.eq	.Lunix_path_BB30_36
.Lunix_path_BB30_34:
	movi	v0.16b, #34
	movi	v1.16b, #92
	movi	v4.16b, #32
	ldp	q2, q3, [x8], #32
	cmeq	v5.16b, v2.16b, v0.16b
	cmeq	v6.16b, v2.16b, v1.16b
	cmeq	v0.16b, v3.16b, v0.16b
	cmeq	v1.16b, v3.16b, v1.16b
	orr	v5.16b, v5.16b, v6.16b
	orr	v0.16b, v0.16b, v1.16b
	cmhi	v1.16b, v4.16b, v2.16b
	cmhi	v2.16b, v4.16b, v3.16b
	orr	v0.16b, v2.16b, v0.16b
	orr	v1.16b, v1.16b, v5.16b
	ldr	q2, [x25, :lo12:.Lunix_path_CPI30_0]
	and	v1.16b, v1.16b, v2.16b
	and	v0.16b, v0.16b, v2.16b
	addp	v0.16b, v1.16b, v0.16b
	addp	v0.16b, v0.16b, v0.16b
	addp	v0.16b, v0.16b, v0.16b
	fmov	w10, s0
	cbnz	w10, .Lunix_path_BB30_129
	sub	x9, x9, #32
	cmp	x9, #33
	b.hs	.Lunix_path_BB30_34
.Lunix_path_BB30_36:
	movi	v0.16b, #34
	movi	v1.16b, #92
	add	x8, x2, x3
	ldp	q2, q3, [x8, #-32]
	movi	v4.16b, #32
	cmeq	v5.16b, v2.16b, v0.16b
	cmeq	v6.16b, v2.16b, v1.16b
	cmeq	v0.16b, v3.16b, v0.16b
	cmeq	v1.16b, v3.16b, v1.16b
	orr	v5.16b, v5.16b, v6.16b
	orr	v0.16b, v0.16b, v1.16b
	cmhi	v1.16b, v4.16b, v2.16b
	cmhi	v2.16b, v4.16b, v3.16b
	orr	v0.16b, v2.16b, v0.16b
	orr	v1.16b, v1.16b, v5.16b
	ldr	q2, [x25, :lo12:.Lunix_path_CPI30_0]
	and	v1.16b, v1.16b, v2.16b
	and	v0.16b, v0.16b, v2.16b
	addp	v0.16b, v1.16b, v0.16b
	addp	v0.16b, v0.16b, v0.16b
	addp	v0.16b, v0.16b, v0.16b
	fmov	w8, s0
	cbnz	w8, .Lunix_path_BB30_129
.Lunix_path_BB30_37:
	ldr	x8, [x19, #8]
	ldr	x9, [x19, #24]
	add	x10, x3, #3
	sub	x8, x8, x9
	cmp	x10, x8
	b.hi	.Lunix_path_BB30_154
.Lunix_path_BB30_38:
	ldr	x8, [x19]
	mov	w11, #44
	add	x10, x9, x1
	cmp	x3, #33
	strb	w11, [x8, x9]
	mov	w9, #34
	strb	w9, [x8, x10]
	add	x9, x10, #1
	b.lo	.Lunix_path_BB30_123
	cmp	x3, #65
	b.lo	.Lunix_path_BB30_136
	mov	x10, xzr
	add	x12, x8, x9
	mov	x11, x3
.Lunix_path_BB30_41:
	add	x13, x2, x10
	sub	x11, x11, #32
	ldp	q1, q0, [x13]
	add	x13, x12, x10
	cmp	x11, #64
	add	x10, x10, #32
	stp	q1, q0, [x13]
	b.hi	.Lunix_path_BB30_41
	b	.Lunix_path_BB30_137
.Lunix_path_BB30_42:
	cmp	x9, #5
	b.ls	.Lunix_path_BB30_148
.Lunix_path_BB30_43:
	ldr	x10, [x19]
	add	x11, x8, x20
	adrp	x12, .Lunix_path_static.30
	add	x12, x12, :lo12:.Lunix_path_static.30
	add	x9, x10, x11
	sub	x12, x9, x12
	cmp	x12, #4
	mov	w12, #44
	strb	w12, [x10, x8]
	add	x8, x11, #5
	b.hi	.Lunix_path_BB30_113
	adrp	x10, .Lunix_path_CPI30_1
	ldr	d0, [x10, :lo12:.Lunix_path_CPI30_1]
	mov	w10, #101
	strb	w10, [x9, #4]
	str	s0, [x9]
	b	.Lunix_path_BB30_114
.Lunix_path_BB30_45:
	mov	x26, xzr
	mov	w22, wzr
	mov	x20, xzr
	mov	x21, xzr
.Lunix_path_BB30_46:
	sub	x27, x29, #8
	sub	x28, x29, #8
.Lunix_path_BB30_47:
	mov	x23, xzr
	stp	x21, x20, [sp, #32]
	b	.Lunix_path_BB30_51
.Lunix_path_BB30_48:
	movi	v0.16b, #34
	movi	v1.16b, #92
	add	x8, x2, x3
	ldp	q2, q3, [x8, #-32]
	movi	v4.16b, #32
	cmeq	v5.16b, v2.16b, v0.16b
	cmeq	v6.16b, v2.16b, v1.16b
	cmeq	v0.16b, v3.16b, v0.16b
	cmeq	v1.16b, v3.16b, v1.16b
	orr	v5.16b, v5.16b, v6.16b
	orr	v0.16b, v0.16b, v1.16b
	cmhi	v1.16b, v4.16b, v2.16b
	cmhi	v2.16b, v4.16b, v3.16b
	orr	v0.16b, v2.16b, v0.16b
	orr	v1.16b, v1.16b, v5.16b
	ldr	q2, [x25, :lo12:.Lunix_path_CPI30_0]
	and	v1.16b, v1.16b, v2.16b
	and	v0.16b, v0.16b, v2.16b
	addp	v0.16b, v1.16b, v0.16b
	addp	v0.16b, v0.16b, v0.16b
	addp	v0.16b, v0.16b, v0.16b
	fmov	w8, s0
	cbz	w8, .Lunix_path_BB30_77
.Lunix_path_BB30_49:
	adrp	x4, .Lunix_path_static.42
	add	x4, x4, :lo12:.Lunix_path_static.42
	mov	x0, x19
	mov	w5, #2
	bl	json.write.put.put_escaped.2df68bf702f5d045.
	and	w8, w0, #0xff
	tbnz	w8, #0, .Lunix_path_BB30_157
	mov	x0, x24
	mov	x1, x19
	strb	wzr, [x19, #40]
	bl	serde_json.ser.write.d02ee1697995db96.
	and	w8, w0, #0xff
	tbnz	w8, #0, .Lunix_path_BB30_157
.Lunix_path_BB30_51:
	cmp	x23, x26
	b.lo	.Lunix_path_BB30_55
	movi	v0.2d, #0000000000000000
	cmp	w22, #1
	stp	q0, q0, [sp, #64]
	str	q0, [sp, #48]
	b.eq	.Lunix_path_BB30_62
	mov	w22, wzr
.Lunix_path_BB30_54:
	cmp	x23, x26
	b.hs	.Lunix_path_BB30_115
.Lunix_path_BB30_55:
	mov	w8, #24
	add	x24, x28, x23, lsl #5
	madd	x8, x23, x8, x27
	add	x23, x23, #1
	ldp	x2, x3, [x8]
	ldrb	w1, [x19, #40]
	cmp	x3, #32
	b.hs	.Lunix_path_BB30_69
.Lunix_path_BB30_56:
	cmp	x3, #16
	b.lo	.Lunix_path_BB30_59
	movi	v0.16b, #34
	movi	v1.16b, #92
	ldr	q3, [x2]
	movi	v2.16b, #32
	cmeq	v4.16b, v3.16b, v0.16b
	cmeq	v5.16b, v3.16b, v1.16b
	cmhi	v3.16b, v2.16b, v3.16b
	orr	v4.16b, v4.16b, v5.16b
	orr	v4.16b, v3.16b, v4.16b
	ldr	q3, [x25, :lo12:.Lunix_path_CPI30_0]
	and	v4.16b, v4.16b, v3.16b
	addp	v4.16b, v4.16b, v4.16b
	addp	v4.16b, v4.16b, v4.16b
	addp	v4.16b, v4.16b, v4.16b
	umov	w8, v4.h[0]
	cbnz	w8, .Lunix_path_BB30_49
	add	x8, x2, x3
	ldur	q4, [x8, #-16]
	cmeq	v0.16b, v4.16b, v0.16b
	cmeq	v1.16b, v4.16b, v1.16b
	orr	v0.16b, v0.16b, v1.16b
	cmhi	v1.16b, v2.16b, v4.16b
	orr	v0.16b, v1.16b, v0.16b
	and	v0.16b, v0.16b, v3.16b
	addp	v0.16b, v0.16b, v0.16b
	addp	v0.16b, v0.16b, v0.16b
	addp	v0.16b, v0.16b, v0.16b
	umov	w8, v0.h[0]
	cbnz	w8, .Lunix_path_BB30_49
	b	.Lunix_path_BB30_77
.Lunix_path_BB30_59:
	cmp	x3, #8
	b.lo	.Lunix_path_BB30_64
	movi	v0.8b, #34
	movi	v1.8b, #92
	ldr	d3, [x2]
	movi	v2.8b, #32
	cmeq	v4.8b, v3.8b, v0.8b
	cmeq	v5.8b, v3.8b, v1.8b
	cmhi	v3.8b, v2.8b, v3.8b
	orr	v4.8b, v4.8b, v5.8b
	orr	v3.8b, v3.8b, v4.8b
	umaxv	b3, v3.8b
	fmov	w8, s3
	tbnz	w8, #0, .Lunix_path_BB30_49
	add	x8, x2, x3
	ldur	d3, [x8, #-8]
	cmeq	v0.8b, v3.8b, v0.8b
	cmeq	v1.8b, v3.8b, v1.8b
	orr	v0.8b, v0.8b, v1.8b
	cmhi	v1.8b, v2.8b, v3.8b
	orr	v0.8b, v1.8b, v0.8b
	umaxv	b0, v0.8b
	fmov	w8, s0
	tbnz	w8, #0, .Lunix_path_BB30_49
	b	.Lunix_path_BB30_77
.Lunix_path_BB30_62:
	ldp	x4, x2, [sp, #32]
	add	x0, sp, #48
	mov	x1, x21
	mov	x3, x20
	bl	std_collections.btree.iter.Cursor.advance.dd2386031c731943.
	ldrb	w8, [sp, #72]
	cmp	w8, #1
	b.ne	.Lunix_path_BB30_67
	ldp	x21, x8, [sp, #80]
	mov	x23, xzr
	mov	w22, #1
	str	x8, [sp, #40]
	ldr	x8, [x8]
	ubfiz	x9, x21, #3, #4
	add	x8, x8, x9
	ldr	x8, [x8, #848]
	mov	x27, x8
	add	x28, x8, #368
	ldrh	w26, [x27], #8
	ldrb	w8, [sp, #48]
	cmp	w8, #1
	b.ne	.Lunix_path_BB30_54
	b	.Lunix_path_BB30_68
.Lunix_path_BB30_64:
	cmp	x3, #3
	b.ls	.Lunix_path_BB30_72
	ldr	s2, [x2]
	movi	v0.4h, #34
	movi	v1.4h, #92
	ushll	v3.8h, v2.8b, #0
	movi	v2.4h, #32
	cmeq	v4.4h, v3.4h, v0.4h
	cmeq	v5.4h, v3.4h, v1.4h
	cmhi	v3.4h, v2.4h, v3.4h
	orr	v4.8b, v4.8b, v5.8b
	orr	v3.8b, v3.8b, v4.8b
	umaxv	h3, v3.4h
	fmov	w8, s3
	tbnz	w8, #0, .Lunix_path_BB30_49
	add	x8, x2, x3
	ldur	s3, [x8, #-4]
	ushll	v3.8h, v3.8b, #0
	cmeq	v0.4h, v3.4h, v0.4h
	cmeq	v1.4h, v3.4h, v1.4h
	orr	v0.8b, v0.8b, v1.8b
	cmhi	v1.4h, v2.4h, v3.4h
	orr	v0.8b, v1.8b, v0.8b
	umaxv	h0, v0.4h
	fmov	w8, s0
	tbnz	w8, #0, .Lunix_path_BB30_49
	b	.Lunix_path_BB30_77
.Lunix_path_BB30_67:
	mov	w22, wzr
	mov	x20, xzr
	mov	x21, xzr
	stp	xzr, xzr, [sp, #32]
	ldrb	w8, [sp, #48]
	cmp	w8, #1
	b.ne	.Lunix_path_BB30_54
.Lunix_path_BB30_68:
	ldp	x8, x24, [sp, #56]
	ldp	x2, x3, [x8]
	ldrb	w1, [x19, #40]
	cmp	x3, #32
	b.lo	.Lunix_path_BB30_56
.Lunix_path_BB30_69:
	mov	x8, x2
	mov	x9, x3
	b.eq	.Lunix_path_BB30_48
.Lunix_path_BB30_70:
	movi	v0.16b, #34
	movi	v1.16b, #92
	movi	v4.16b, #32
	ldp	q2, q3, [x8], #32
	cmeq	v5.16b, v2.16b, v0.16b
	cmeq	v6.16b, v2.16b, v1.16b
	cmeq	v0.16b, v3.16b, v0.16b
	cmeq	v1.16b, v3.16b, v1.16b
	orr	v5.16b, v5.16b, v6.16b
	orr	v0.16b, v0.16b, v1.16b
	cmhi	v1.16b, v4.16b, v2.16b
	cmhi	v2.16b, v4.16b, v3.16b
	orr	v0.16b, v2.16b, v0.16b
	orr	v1.16b, v1.16b, v5.16b
	ldr	q2, [x25, :lo12:.Lunix_path_CPI30_0]
	and	v1.16b, v1.16b, v2.16b
	and	v0.16b, v0.16b, v2.16b
	addp	v0.16b, v1.16b, v0.16b
	addp	v0.16b, v0.16b, v0.16b
	addp	v0.16b, v0.16b, v0.16b
	fmov	w10, s0
	cbnz	w10, .Lunix_path_BB30_49
	sub	x9, x9, #32
	cmp	x9, #33
	b.hs	.Lunix_path_BB30_70
	b	.Lunix_path_BB30_48
.Lunix_path_BB30_72:
	cbz	x3, .Lunix_path_BB30_77
	ldrb	w8, [x2]
	cmp	w8, #34
	b.eq	.Lunix_path_BB30_49
	cmp	w8, #92
	b.eq	.Lunix_path_BB30_49
	cmp	w8, #32
	b.lo	.Lunix_path_BB30_49
	cmp	x3, #1
	b.ne	.Lunix_path_BB30_97
.Lunix_path_BB30_77:
	ldr	x8, [x19, #8]
	ldr	x9, [x19, #24]
	add	x10, x3, #4
	sub	x8, x8, x9
	cmp	x10, x8
	b.hi	.Lunix_path_BB30_93
.Lunix_path_BB30_78:
	ldr	x8, [x19]
	mov	w11, #44
	add	x10, x9, x1
	cmp	x3, #33
	strb	w11, [x8, x9]
	mov	w9, #34
	strb	w9, [x8, x10]
	add	x9, x10, #1
	b.lo	.Lunix_path_BB30_82
	cmp	x3, #65
	b.lo	.Lunix_path_BB30_84
	mov	x10, xzr
	add	x12, x8, x9
	mov	x11, x3
.Lunix_path_BB30_81:
	add	x13, x2, x10
	sub	x11, x11, #32
	ldp	q1, q0, [x13]
	add	x13, x12, x10
	cmp	x11, #64
	add	x10, x10, #32
	stp	q1, q0, [x13]
	b.hi	.Lunix_path_BB30_81
	b	.Lunix_path_BB30_85
.Lunix_path_BB30_82:
	subs	x11, x3, #16
	b.lo	.Lunix_path_BB30_87
	ldr	q0, [x2]
	add	x10, x8, x9
	add	x9, x9, x3
	str	q0, [x10]
	ldr	q0, [x2, x11]
	str	q0, [x10, x11]
	b	.Lunix_path_BB30_86
.Lunix_path_BB30_84:
	mov	x10, xzr
	mov	x11, x3
.Lunix_path_BB30_85:
	add	x12, x2, x10
	add	x10, x8, x10
	sub	x11, x11, #32
	ldp	q1, q0, [x12]
	add	x10, x10, x9
	add	x12, x12, x11
	add	x9, x9, x3
	stp	q1, q0, [x10]
	add	x10, x10, x11
	ldp	q1, q0, [x12]
	stp	q1, q0, [x10]
.Lunix_path_BB30_86:
	add	x8, x8, x9
	adrp	x10, .Lunix_path_static.42
	add	x10, x10, :lo12:.Lunix_path_static.42
	sub	x10, x8, x10
	add	x9, x9, #2
	cmp	x10, #1
	mov	w10, #14882
	strh	w10, [x8]
	str	x9, [x19, #24]
	mov	x0, x24
	mov	x1, x19
	strb	wzr, [x19, #40]
	bl	serde_json.ser.write.d02ee1697995db96.
	and	w8, w0, #0xff
	tbz	w8, #0, .Lunix_path_BB30_51
	b	.Lunix_path_BB30_157
.Lunix_path_BB30_87:
	subs	x11, x3, #8
	b.lo	.Lunix_path_BB30_89
	ldr	d0, [x2]
	add	x10, x8, x9
	add	x9, x9, x3
	str	d0, [x10]
	ldr	d0, [x2, x11]
	str	d0, [x10, x11]
	b	.Lunix_path_BB30_86
.Lunix_path_BB30_89:
	subs	x11, x3, #4
	b.lo	.Lunix_path_BB30_91
	ldr	w10, [x2]
	add	x12, x8, x9
	add	x9, x9, x3
	str	w10, [x12]
	ldr	w10, [x2, x11]
	str	w10, [x12, x11]
	b	.Lunix_path_BB30_86
.Lunix_path_BB30_91:
	subs	x11, x3, #2
	b.lo	.Lunix_path_BB30_95
	ldr	h0, [x2]
	add	x10, x8, x9
	add	x9, x9, x3
	ushll	v0.8h, v0.8b, #0
	ushll	v0.4s, v0.4h, #0
	mov	s1, v0.s[1]
	str	b0, [x10]
	stur	b1, [x10, #1]
	add	x10, x10, x11
	ldr	h0, [x2, x11]
	ushll	v0.8h, v0.8b, #0
	ushll	v0.4s, v0.4h, #0
	mov	s1, v0.s[1]
	str	b0, [x10]
	stur	b1, [x10, #1]
	b	.Lunix_path_BB30_86
.Lunix_path_BB30_93:
	str	x1, [sp, #24]
	add	x1, x3, #4
	mov	x0, x19
	stp	x28, x21, [sp, #8]
	mov	x21, x2
	mov	x28, x3
	bl	json.write.sink.Sink.grow.2df68bf702f5d045.
	and	w8, w0, #0xff
	tbnz	w8, #0, .Lunix_path_BB30_157
	mov	x2, x21
	ldp	x21, x1, [sp, #16]
	ldr	x9, [x19, #24]
	mov	x3, x28
	ldr	x28, [sp, #8]
	b	.Lunix_path_BB30_78
.Lunix_path_BB30_95:
	cmp	x3, #1
	b.ne	.Lunix_path_BB30_86
	ldrb	w11, [x2]
	strb	w11, [x8, x9]
	add	x9, x10, #2
	b	.Lunix_path_BB30_86
.Lunix_path_BB30_97:
	ldrb	w8, [x2, #1]
	cmp	w8, #34
	b.eq	.Lunix_path_BB30_49
	cmp	w8, #92
	b.eq	.Lunix_path_BB30_49
	cmp	w8, #32
	b.lo	.Lunix_path_BB30_49
	cmp	x3, #2
	b.eq	.Lunix_path_BB30_77
	ldrb	w8, [x2, #2]
	cmp	w8, #34
	b.eq	.Lunix_path_BB30_49
	cmp	w8, #92
	b.eq	.Lunix_path_BB30_49
	cmp	w8, #32
	b.lo	.Lunix_path_BB30_49
	b	.Lunix_path_BB30_77
.Lunix_path_BB30_104:
	ldr	d0, [x20, #16]
	mov	x0, x19
	ldp	x20, x19, [sp, #192]
	ldp	x22, x21, [sp, #176]
	ldp	x24, x23, [sp, #160]
	ldp	x26, x25, [sp, #144]
	ldp	x28, x27, [sp, #128]
	ldp	x29, x30, [sp, #112]
	add	sp, sp, #208
	b	serde_json.number.write_float.d02ee1697995db96.
.Lunix_path_BB30_105:
	ldr	x0, [x20, #16]
	mov	x1, x19
	ldp	x20, x19, [sp, #192]
	ldp	x22, x21, [sp, #176]
	ldp	x24, x23, [sp, #160]
	ldp	x26, x25, [sp, #144]
	ldp	x28, x27, [sp, #128]
	ldp	x29, x30, [sp, #112]
	add	sp, sp, #208
	b	serde_json.number.write_positive.d02ee1697995db96.
.Lunix_path_BB30_106:
	ldr	x8, [x19, #24]
.Lunix_path_BB30_107:
	ldr	x9, [x19, #8]
	sub	x9, x9, x8
	cmp	x9, #1
	b.ls	.Lunix_path_BB30_144
.Lunix_path_BB30_108:
	ldr	x9, [x19]
	mov	w0, wzr
	add	x10, x8, #1
	mov	w11, #93
	b	.Lunix_path_BB30_117
.Lunix_path_BB30_109:
	cmp	x3, #8
	b.lo	.Lunix_path_BB30_119
	movi	v0.8b, #34
	movi	v1.8b, #92
	ldr	d3, [x2]
	movi	v2.8b, #32
	cmeq	v4.8b, v3.8b, v0.8b
	cmeq	v5.8b, v3.8b, v1.8b
	cmhi	v3.8b, v2.8b, v3.8b
	orr	v4.8b, v4.8b, v5.8b
	orr	v3.8b, v3.8b, v4.8b
	umaxv	b3, v3.8b
	fmov	w8, s3
	tbnz	w8, #0, .Lunix_path_BB30_129
	add	x8, x2, x3
	ldur	d3, [x8, #-8]
	cmeq	v0.8b, v3.8b, v0.8b
	cmeq	v1.8b, v3.8b, v1.8b
	orr	v0.8b, v0.8b, v1.8b
	cmhi	v1.8b, v2.8b, v3.8b
	orr	v0.8b, v1.8b, v0.8b
	umaxv	b0, v0.8b
	b	.Lunix_path_BB30_122
.Lunix_path_BB30_112:
	mov	w10, #29300
	movk	w10, #25973, lsl #16
	str	w10, [x9]
	b	.Lunix_path_BB30_114
.Lunix_path_BB30_113:
	mov	w11, #24934
	mov	w10, #101
	movk	w11, #29548, lsl #16
	strb	w10, [x9, #4]
	str	w11, [x9]
.Lunix_path_BB30_114:
	mov	w0, wzr
	str	x8, [x19, #24]
	b	.Lunix_path_BB30_140
.Lunix_path_BB30_115:
	ldr	x9, [x19, #8]
	ldr	x8, [x19, #24]
	sub	x9, x9, x8
	cmp	x9, #1
	b.ls	.Lunix_path_BB30_156
.Lunix_path_BB30_116:
	ldr	x9, [x19]
	mov	w0, wzr
	add	x10, x8, #1
	mov	w11, #125
.Lunix_path_BB30_117:
	strb	w11, [x9, x8]
	mov	w8, #1
	str	x10, [x19, #24]
	b	.Lunix_path_BB30_141
.Lunix_path_BB30_118:
	mov	x27, x8
	mov	w22, wzr
	mov	x20, xzr
	ldrh	w26, [x27], #8
	mov	x21, xzr
	add	x28, x8, #368
	b	.Lunix_path_BB30_47
.Lunix_path_BB30_119:
	cmp	x3, #3
	b.ls	.Lunix_path_BB30_125
	ldr	s2, [x2]
	movi	v0.4h, #34
	movi	v1.4h, #92
	ushll	v3.8h, v2.8b, #0
	movi	v2.4h, #32
	cmeq	v4.4h, v3.4h, v0.4h
	cmeq	v5.4h, v3.4h, v1.4h
	cmhi	v3.4h, v2.4h, v3.4h
	orr	v4.8b, v4.8b, v5.8b
	orr	v3.8b, v3.8b, v4.8b
	umaxv	h3, v3.4h
	fmov	w8, s3
	tbnz	w8, #0, .Lunix_path_BB30_129
	add	x8, x2, x3
	ldur	s3, [x8, #-4]
	ushll	v3.8h, v3.8b, #0
	cmeq	v0.4h, v3.4h, v0.4h
	cmeq	v1.4h, v3.4h, v1.4h
	orr	v0.8b, v0.8b, v1.8b
	cmhi	v1.4h, v2.4h, v3.4h
	orr	v0.8b, v1.8b, v0.8b
	umaxv	h0, v0.4h
.Lunix_path_BB30_122:
	fmov	w8, s0
	tbnz	w8, #0, .Lunix_path_BB30_129
	b	.Lunix_path_BB30_37
.Lunix_path_BB30_123:
	subs	x11, x3, #16
	b.lo	.Lunix_path_BB30_142
	ldr	q0, [x2]
	add	x10, x8, x9
	add	x9, x9, x3
	str	q0, [x10]
	ldr	q0, [x2, x11]
	str	q0, [x10, x11]
	b	.Lunix_path_BB30_138
.Lunix_path_BB30_125:
	cbz	x3, .Lunix_path_BB30_37
	ldrb	w8, [x2]
	cmp	w8, #34
	b.eq	.Lunix_path_BB30_129
	cmp	w8, #92
	b.eq	.Lunix_path_BB30_129
	cmp	w8, #32
	b.hs	.Lunix_path_BB30_161
.Lunix_path_BB30_129:
	adrp	x4, .Lunix_path_static.43
	add	x4, x4, :lo12:.Lunix_path_static.43
	mov	x0, x19
	mov	w5, #1
	bl	json.write.put.put_escaped.2df68bf702f5d045.
	mov	w8, w0
	mov	w0, #1
	and	w8, w8, #0xff
	tbnz	w8, #0, .Lunix_path_BB30_158
	b	.Lunix_path_BB30_139
.Lunix_path_BB30_130:
	mov	x0, x19
	mov	w1, #5
	bl	json.write.sink.Sink.grow.2df68bf702f5d045.
	and	w8, w0, #0xff
	tbnz	w8, #0, .Lunix_path_BB30_157
	ldr	x8, [x19, #24]
	b	.Lunix_path_BB30_21
.Lunix_path_BB30_132:
	mov	x0, x19
	mov	w1, #2
	bl	json.write.sink.Sink.grow.2df68bf702f5d045.
	and	w8, w0, #0xff
	tbnz	w8, #0, .Lunix_path_BB30_157
	ldr	x8, [x19, #24]
	b	.Lunix_path_BB30_10
.Lunix_path_BB30_134:
	mov	x0, x19
	mov	w1, #2
	bl	json.write.sink.Sink.grow.2df68bf702f5d045.
	and	w8, w0, #0xff
	tbnz	w8, #0, .Lunix_path_BB30_157
	ldr	x8, [x19, #24]
	b	.Lunix_path_BB30_30
.Lunix_path_BB30_136:
	mov	x10, xzr
	mov	x11, x3
.Lunix_path_BB30_137:
	add	x12, x2, x10
	add	x10, x8, x10
	sub	x11, x11, #32
	ldp	q1, q0, [x12]
	add	x10, x10, x9
	add	x12, x12, x11
	add	x9, x9, x3
	stp	q1, q0, [x10]
	add	x10, x10, x11
	ldp	q1, q0, [x12]
	stp	q1, q0, [x10]
.Lunix_path_BB30_138:
	add	x10, x9, #1
	mov	w11, #34
	strb	w11, [x8, x9]
	str	x10, [x19, #24]
.Lunix_path_BB30_139:
	mov	w0, wzr
.Lunix_path_BB30_140:
	mov	w8, #1
.Lunix_path_BB30_141:
	strb	w8, [x19, #40]
	b	.Lunix_path_BB30_158
.Lunix_path_BB30_142:
	subs	x11, x3, #8
	b.lo	.Lunix_path_BB30_150
	ldr	d0, [x2]
	add	x10, x8, x9
	add	x9, x9, x3
	str	d0, [x10]
	ldr	d0, [x2, x11]
	str	d0, [x10, x11]
	b	.Lunix_path_BB30_138
.Lunix_path_BB30_144:
	mov	x0, x19
	mov	w1, #2
	bl	json.write.sink.Sink.grow.2df68bf702f5d045.
	and	w8, w0, #0xff
	tbnz	w8, #0, .Lunix_path_BB30_157
	ldr	x8, [x19, #24]
	b	.Lunix_path_BB30_108
.Lunix_path_BB30_146:
	mov	x0, x19
	mov	w1, #5
	bl	json.write.sink.Sink.grow.2df68bf702f5d045.
	and	w8, w0, #0xff
	tbnz	w8, #0, .Lunix_path_BB30_157
	ldr	x8, [x19, #24]
	b	.Lunix_path_BB30_5
.Lunix_path_BB30_148:
	mov	x0, x19
	mov	w1, #6
	bl	json.write.sink.Sink.grow.2df68bf702f5d045.
	and	w8, w0, #0xff
	tbnz	w8, #0, .Lunix_path_BB30_157
	ldr	x8, [x19, #24]
	b	.Lunix_path_BB30_43
.Lunix_path_BB30_150:
	subs	x11, x3, #4
	b.lo	.Lunix_path_BB30_152
	ldr	w10, [x2]
	add	x12, x8, x9
	add	x9, x9, x3
	str	w10, [x12]
	ldr	w10, [x2, x11]
	str	w10, [x12, x11]
	b	.Lunix_path_BB30_138
.Lunix_path_BB30_152:
	subs	x11, x3, #2
	b.lo	.Lunix_path_BB30_159
	ldr	h0, [x2]
	add	x10, x8, x9
	add	x9, x9, x3
	ushll	v0.8h, v0.8b, #0
	ushll	v0.4s, v0.4h, #0
	mov	s1, v0.s[1]
	str	b0, [x10]
	stur	b1, [x10, #1]
	add	x10, x10, x11
	ldr	h0, [x2, x11]
	ushll	v0.8h, v0.8b, #0
	ushll	v0.4s, v0.4h, #0
	mov	s1, v0.s[1]
	str	b0, [x10]
	stur	b1, [x10, #1]
	b	.Lunix_path_BB30_138
.Lunix_path_BB30_154:
	mov	x20, x1
	add	x1, x3, #3
	mov	x0, x19
	mov	x21, x2
	mov	x22, x3
	bl	json.write.sink.Sink.grow.2df68bf702f5d045.
	and	w8, w0, #0xff
	tbnz	w8, #0, .Lunix_path_BB30_157
	ldr	x9, [x19, #24]
	mov	x3, x22
	mov	x2, x21
	mov	x1, x20
	b	.Lunix_path_BB30_38
.Lunix_path_BB30_156:
	mov	x0, x19
	mov	w1, #2
	bl	json.write.sink.Sink.grow.2df68bf702f5d045.
	and	w8, w0, #0xff
	tbz	w8, #0, .Lunix_path_BB30_169
.Lunix_path_BB30_157:
	mov	w0, #1
.Lunix_path_BB30_158:
	ldp	x20, x19, [sp, #192]
	ldp	x22, x21, [sp, #176]
	ldp	x24, x23, [sp, #160]
	ldp	x26, x25, [sp, #144]
	ldp	x28, x27, [sp, #128]
	ldp	x29, x30, [sp, #112]
	add	sp, sp, #208
	ret
.Lunix_path_BB30_159:
	cmp	x3, #1
	b.ne	.Lunix_path_BB30_138
	ldrb	w11, [x2]
	strb	w11, [x8, x9]
	add	x9, x10, #2
	b	.Lunix_path_BB30_138
.Lunix_path_BB30_161:
	cmp	x3, #1
	b.eq	.Lunix_path_BB30_37
	ldrb	w8, [x2, #1]
	cmp	w8, #34
	b.eq	.Lunix_path_BB30_129
	cmp	w8, #92
	b.eq	.Lunix_path_BB30_129
	cmp	w8, #32
	b.lo	.Lunix_path_BB30_129
	cmp	x3, #2
	b.eq	.Lunix_path_BB30_37
	ldrb	w8, [x2, #2]
	cmp	w8, #34
	b.eq	.Lunix_path_BB30_129
	cmp	w8, #92
	b.eq	.Lunix_path_BB30_129
	cmp	w8, #32
	b.hs	.Lunix_path_BB30_37
	b	.Lunix_path_BB30_129
.Lunix_path_BB30_169:
	ldr	x8, [x19, #24]
	b	.Lunix_path_BB30_116
.Lunix_path_func_end30:
	.size	serde_json.ser.write.d02ee1697995db96., .Lunix_path_func_end30-serde_json.ser.write.d02ee1697995db96.
	.section	.text.serde_json.number.write_positive.d02ee1697995db96.,"ax",@progbits
	.p2align	2
	.type	serde_json.number.write_positive.d02ee1697995db96.,@function
// serde_json::number::write_positive::<#d02ee1697995db96>
serde_json.number.write_positive.d02ee1697995db96.:
	sub	sp, sp, #128
	movi	v0.2d, #0000000000000000
	lsr	x8, x0, #4
	stp	x29, x30, [sp, #48]
	stp	x26, x25, [sp, #64]
	add	x29, sp, #48
	cmp	x8, #625
	adrp	x8, .Lunix_path_static.36
	add	x8, x8, :lo12:.Lunix_path_static.36
	stp	x24, x23, [sp, #80]
	stp	x22, x21, [sp, #96]
	stp	x20, x19, [sp, #112]
	str	xzr, [sp, #32]
	stp	q0, q0, [sp]
	b.lo	.Lunix_path_BB31_6
	mov	x9, xzr
.Lunix_path_BB31_2:
	mov	x11, #22859
	mov	x10, x0
	mov	w13, #5243
	movk	x11, #14470, lsl #16
	mov	w14, #57599
	movk	x11, #50646, lsl #32
	movk	w14, #1525, lsl #16
	movk	x11, #13421, lsl #48
	cmp	x0, x14
	umulh	x11, x0, x11
	lsr	x0, x11, #11
	mov	w11, #10000
	msub	w11, w0, w11, w10
	ubfx	w12, w11, #2, #14
	mul	w12, w12, w13
	mov	w13, #100
	lsr	w12, w12, #17
	msub	w11, w12, w13, w11
	mov	x13, sp
	ldrh	w12, [x8, w12, uxtw #1]
	add	x13, x13, x9
	sub	x9, x9, #4
	strh	w12, [x13, #36]
	and	x11, x11, #0xffff
	ldrh	w11, [x8, x11, lsl #1]
	strh	w11, [x13, #38]
	b.hi	.Lunix_path_BB31_2
	add	x9, x9, #40
	cmp	x0, #99
	b.ls	.Lunix_path_BB31_7
.Lunix_path_BB31_4:
	ubfx	w10, w0, #2, #14
	mov	w11, #5243
	cmp	x0, #999
	mul	w10, w10, w11
	lsr	w11, w10, #17
	mov	w10, #100
	msub	w10, w11, w10, w0
	and	x10, x10, #0xffff
	ldrh	w12, [x8, x10, lsl #1]
	mov	x10, sp
	add	x13, x10, x9
	sturh	w12, [x13, #-2]
	b.hi	.Lunix_path_BB31_9
	sub	x20, x9, #3
	orr	w19, w11, #0x30
	strb	w19, [x10, x20]
	b	.Lunix_path_BB31_12
.Lunix_path_BB31_6:
	mov	w9, #40
	cmp	x0, #99
	b.hi	.Lunix_path_BB31_4
.Lunix_path_BB31_7:
	cmp	x0, #9
	b.hi	.Lunix_path_BB31_10
	sub	x20, x9, #1
	mov	x8, sp
	orr	w19, w0, #0x30
	strb	w19, [x8, x20]
	b	.Lunix_path_BB31_12
.Lunix_path_BB31_9:
	add	x8, x8, w11, uxtw #1
	sub	x20, x9, #4
	add	x9, x10, x20
	b	.Lunix_path_BB31_11
.Lunix_path_BB31_10:
	add	x8, x8, x0, lsl #1
	sub	x20, x9, #2
	mov	x9, sp
	add	x9, x9, x20
.Lunix_path_BB31_11:
	ldrb	w19, [x8]
	ldrb	w8, [x8, #1]
	strb	w19, [x9]
	strb	w8, [x9, #1]
.Lunix_path_BB31_12:
	ldr	x10, [x1, #8]
	ldr	x9, [x1, #24]
	mov	w8, #41
	sub	x8, x8, x20
	ldrb	w21, [x1, #40]
	sub	x10, x10, x9
	cmp	x8, x10
	b.hi	.Lunix_path_BB31_28
.Lunix_path_BB31_13:
	mov	w8, #40
	ldr	x22, [x1]
	add	x21, x9, x21
	sub	x23, x8, x20
	mov	w8, #44
	cmp	x23, #33
	strb	w8, [x22, x9]
	b.lo	.Lunix_path_BB31_16
	mov	x8, sp
	cmp	x23, #65
	add	x19, x8, x20
	b.lo	.Lunix_path_BB31_18
	mov	x8, #-25
	add	x0, x22, x21
	mov	x25, x1
	sub	x8, x8, x20
	mov	x1, x19
	and	x26, x8, #0xffffffffffffffe0
	add	x2, x26, #32
	add	x24, x26, #32
	bl	memcpy
	mov	w8, #8
	mov	x1, x25
	sub	x8, x8, x20
	sub	x8, x8, x26
	b	.Lunix_path_BB31_19
.Lunix_path_BB31_16:
	cmp	x23, #16
	b.lo	.Lunix_path_BB31_22
	mov	x8, sp
	sub	x9, x21, x20
	ldur	q0, [sp, #24]
	ldr	q1, [x8, x20]
	add	x8, x22, x9
	str	q1, [x22, x21]
	add	x21, x9, #40
	stur	q0, [x8, #24]
	b	.Lunix_path_BB31_20
.Lunix_path_BB31_18:
	mov	x24, xzr
	mov	x8, x23
.Lunix_path_BB31_19:
	add	x9, x19, x24
	sub	x8, x8, #32
	add	x10, x22, x24
	ldp	q1, q0, [x9]
	add	x10, x10, x21
	add	x9, x9, x8
	add	x8, x10, x8
	add	x21, x21, x23
	stp	q1, q0, [x10]
	ldp	q0, q2, [x9]
	stp	q0, q2, [x8]
.Lunix_path_BB31_20:
	mov	w0, wzr
	mov	w8, #1
	str	x21, [x1, #24]
	strb	w8, [x1, #40]
.Lunix_path_BB31_21:
	ldp	x20, x19, [sp, #112]
	ldp	x22, x21, [sp, #96]
	ldp	x24, x23, [sp, #80]
	ldp	x26, x25, [sp, #64]
	ldp	x29, x30, [sp, #48]
	add	sp, sp, #128
	ret
.Lunix_path_BB31_22:
	cmp	x23, #8
	b.lo	.Lunix_path_BB31_24
	mov	x8, sp
	sub	x9, x21, x20
	ldr	d0, [sp, #32]
	ldr	d1, [x8, x20]
	add	x8, x22, x9
	str	d1, [x22, x21]
	add	x21, x9, #40
	str	d0, [x8, #32]
	b	.Lunix_path_BB31_20
.Lunix_path_BB31_24:
	cmp	x23, #4
	b.lo	.Lunix_path_BB31_26
	mov	x8, sp
	sub	x9, x21, x20
	ldr	w10, [sp, #36]
	ldr	w8, [x8, x20]
	add	x11, x22, x9
	str	w8, [x22, x21]
	add	x21, x9, #40
	str	w10, [x11, #36]
	b	.Lunix_path_BB31_20
.Lunix_path_BB31_26:
	cmp	x23, #2
	b.lo	.Lunix_path_BB31_30
	mov	x8, sp
	ldr	h1, [sp, #38]
	sub	x9, x21, x20
	ldr	h0, [x8, x20]
	add	x8, x22, x21
	add	x21, x9, #40
	ushll	v1.8h, v1.8b, #0
	ushll	v0.8h, v0.8b, #0
	ushll	v1.4s, v1.4h, #0
	ushll	v0.4s, v0.4h, #0
	mov	s3, v1.s[1]
	mov	s2, v0.s[1]
	str	b0, [x8]
	stur	b2, [x8, #1]
	add	x8, x22, x9
	stur	b3, [x8, #39]
	stur	b1, [x8, #38]
	b	.Lunix_path_BB31_20
.Lunix_path_BB31_28:
	mov	x22, x1
	mov	x0, x1
	mov	x1, x8
	bl	json.write.sink.Sink.grow.2df68bf702f5d045.
	and	w8, w0, #0xff
	tbz	w8, #0, .Lunix_path_BB31_32
	mov	w0, #1
	b	.Lunix_path_BB31_21
.Lunix_path_BB31_30:
	cmp	x20, #39
	b.ne	.Lunix_path_BB31_20
	strb	w19, [x22, x21]
	add	x21, x21, #1
	b	.Lunix_path_BB31_20
.Lunix_path_BB31_32:
	ldr	x9, [x22, #24]
	mov	x1, x22
	b	.Lunix_path_BB31_13
.Lunix_path_func_end31:
	.size	serde_json.number.write_positive.d02ee1697995db96., .Lunix_path_func_end31-serde_json.number.write_positive.d02ee1697995db96.
	.section	.rodata.cst16,"aM",@progbits,16
	.p2align	4, 0x0
.Lunix_path_CPI32_0:
	.byte	1
	.byte	2
	.byte	4
	.byte	8
	.byte	16
	.byte	32
	.byte	64
	.byte	128
	.byte	1
	.byte	2
	.byte	4
	.byte	8
	.byte	16
	.byte	32
	.byte	64
	.byte	128
	.section	.text.json.write.put.put_escaped.2df68bf702f5d045.,"ax",@progbits
	.p2align	2
	.type	json.write.put.put_escaped.2df68bf702f5d045.,@function
// json::write::put::put_escaped::<#2df68bf702f5d045>
json.write.put.put_escaped.2df68bf702f5d045.:
	sub	sp, sp, #128
	stp	x26, x25, [sp, #64]
	ldr	x25, [x0, #24]
	ldr	x8, [x0, #8]
	stp	x29, x30, [sp, #32]
	add	x29, sp, #32
	sub	x8, x8, x25
	stp	x24, x23, [sp, #80]
	mov	x23, x2
	stp	x22, x21, [sp, #96]
	mov	x22, x3
	cmp	x8, #1
	stp	x20, x19, [sp, #112]
	mov	x19, x0
	mov	x8, x25
	stp	x28, x27, [sp, #48]
	stp	x4, x5, [sp, #8]
	sturh	wzr, [x29, #-4]
	stur	wzr, [x29, #-8]
	b.ls	.Lunix_path_BB32_58
.Lunix_path_BB32_1:
	add	x10, x8, w1, uxtw
	ldr	x9, [x19]
	mov	x24, xzr
	mov	w11, #44
	add	x26, x10, #1
	strb	w11, [x9, x8]
	mov	w8, #34
	strb	w8, [x9, x10]
	str	x26, [x19, #24]
	b	.Lunix_path_BB32_4
.Lunix_path_BB32_2:
	ldur	w9, [x29, #-8]
	sub	x10, x24, #4
	sub	x11, x29, #8
	add	x8, x8, x26
	ldr	w11, [x11, x10]
	str	w9, [x8]
	str	w11, [x8, x10]
.Lunix_path_BB32_3:
	add	x26, x24, x26
	add	x24, x0, #1
	str	x26, [x19, #24]
.Lunix_path_BB32_4:
	sub	x8, x22, x24
	mov	x2, x24
	cmp	x8, #32
	b.lo	.Lunix_path_BB32_8
	mov	x2, x24
.Lunix_path_BB32_6:
	movi	v0.16b, #34
	movi	v1.16b, #92
	add	x9, x23, x2
	ldp	q2, q3, [x9]
	movi	v4.16b, #32
	adrp	x9, .Lunix_path_CPI32_0
	cmeq	v5.16b, v2.16b, v0.16b
	cmeq	v6.16b, v2.16b, v1.16b
	cmeq	v0.16b, v3.16b, v0.16b
	cmeq	v1.16b, v3.16b, v1.16b
	orr	v5.16b, v5.16b, v6.16b
	orr	v0.16b, v0.16b, v1.16b
	cmhi	v1.16b, v4.16b, v2.16b
	cmhi	v2.16b, v4.16b, v3.16b
	orr	v0.16b, v2.16b, v0.16b
	orr	v1.16b, v1.16b, v5.16b
	ldr	q2, [x9, :lo12:.Lunix_path_CPI32_0]
	and	v1.16b, v1.16b, v2.16b
	and	v0.16b, v0.16b, v2.16b
	addp	v0.16b, v1.16b, v0.16b
	addp	v0.16b, v0.16b, v0.16b
	addp	v0.16b, v0.16b, v0.16b
	fmov	w9, s0
	cbnz	w9, .Lunix_path_BB32_13
	sub	x8, x8, #32
	add	x2, x2, #32
	cmp	x8, #31
	b.hi	.Lunix_path_BB32_6
.Lunix_path_BB32_8:
	mov	x0, x23
	mov	x1, x22
	bl	json.run.plain_end_16
	ldr	x8, [x19, #8]
	sub	x20, x0, x24
	sub	x8, x8, x26
	cmp	x20, x8
	b.hi	.Lunix_path_BB32_14
.Lunix_path_BB32_9:
	ldr	x9, [x19]
	cmp	x20, #33
	add	x8, x23, x24
	b.lo	.Lunix_path_BB32_16
.Lunix_path_BB32_10:
	cmp	x20, #65
	b.lo	.Lunix_path_BB32_18
	mov	x10, xzr
	add	x12, x9, x26
	mov	x11, x20
.Lunix_path_BB32_12:
	add	x13, x8, x10
	sub	x11, x11, #32
	ldp	q1, q0, [x13]
	add	x13, x12, x10
	cmp	x11, #64
	add	x10, x10, #32
	stp	q1, q0, [x13]
	b.hi	.Lunix_path_BB32_12
	b	.Lunix_path_BB32_19
.Lunix_path_BB32_13:
	rbit	w8, w9
	clz	w8, w8
	add	x0, x8, x2
	ldr	x8, [x19, #8]
	sub	x20, x0, x24
	sub	x8, x8, x26
	cmp	x20, x8
	b.ls	.Lunix_path_BB32_9
.Lunix_path_BB32_14:
	mov	x27, x0
	sub	x1, x0, x24
	mov	x0, x19
	bl	json.write.sink.Sink.grow.2df68bf702f5d045.
	and	w8, w0, #0xff
	tbnz	w8, #0, .Lunix_path_BB32_61
	ldr	x26, [x19, #24]
	mov	x0, x27
	ldr	x9, [x19]
	cmp	x20, #33
	add	x8, x23, x24
	b.hs	.Lunix_path_BB32_10
.Lunix_path_BB32_16:
	subs	x10, x20, #16
	b.lo	.Lunix_path_BB32_33
	ldr	q0, [x8]
	add	x9, x9, x26
	add	x26, x26, x20
	str	q0, [x9]
	ldr	q0, [x8, x10]
	str	q0, [x9, x10]
	b	.Lunix_path_BB32_20
.Lunix_path_BB32_18:
	mov	x10, xzr
	mov	x11, x20
.Lunix_path_BB32_19:
	add	x8, x8, x10
	add	x9, x9, x26
	add	x26, x26, x20
	ldp	q1, q0, [x8]
	add	x9, x9, x10
	sub	x10, x11, #32
	add	x8, x8, x10
	stp	q1, q0, [x9]
	ldp	q1, q0, [x8]
	add	x8, x9, x10
	stp	q1, q0, [x8]
.Lunix_path_BB32_20:
	cmp	x0, x22
	str	x26, [x19, #24]
	b.eq	.Lunix_path_BB32_55
	ldrb	w9, [x23, x0]
	cmp	w9, #11
	b.le	.Lunix_path_BB32_26
	cmp	w9, #33
	b.gt	.Lunix_path_BB32_30
	cmp	w9, #12
	b.eq	.Lunix_path_BB32_40
	cmp	w9, #13
	b.ne	.Lunix_path_BB32_38
	mov	w8, wzr
	mov	w10, wzr
	mov	w11, wzr
	mov	w27, wzr
	mov	w28, #1
	mov	w9, #114
	b	.Lunix_path_BB32_42
.Lunix_path_BB32_26:
	cmp	w9, #8
	b.eq	.Lunix_path_BB32_37
	cmp	w9, #9
	b.eq	.Lunix_path_BB32_41
	cmp	w9, #10
	b.ne	.Lunix_path_BB32_38
	mov	w8, wzr
	mov	w10, wzr
	mov	w11, wzr
	mov	w27, wzr
	mov	w28, #1
	mov	w9, #110
	b	.Lunix_path_BB32_42
.Lunix_path_BB32_30:
	mov	w8, wzr
	cmp	w9, #34
	mov	w28, #1
	mov	w20, #92
	mov	w24, #2
	b.eq	.Lunix_path_BB32_32
	cmp	w9, #92
	b.ne	.Lunix_path_BB32_38
.Lunix_path_BB32_32:
	mov	w10, w8
	mov	w11, w8
	mov	w27, w8
	b	.Lunix_path_BB32_43
.Lunix_path_BB32_33:
	subs	x10, x20, #8
	b.lo	.Lunix_path_BB32_35
	ldr	d0, [x8]
	add	x9, x9, x26
	add	x26, x26, x20
	str	d0, [x9]
	ldr	d0, [x8, x10]
	str	d0, [x9, x10]
	b	.Lunix_path_BB32_20
.Lunix_path_BB32_35:
	subs	x10, x20, #4
	b.lo	.Lunix_path_BB32_48
	ldr	w11, [x8]
	add	x9, x9, x26
	add	x26, x26, x20
	str	w11, [x9]
	ldr	w8, [x8, x10]
	str	w8, [x9, x10]
	b	.Lunix_path_BB32_20
.Lunix_path_BB32_37:
	mov	w8, wzr
	mov	w10, wzr
	mov	w11, wzr
	mov	w27, wzr
	mov	w28, #1
	mov	w9, #98
	b	.Lunix_path_BB32_42
.Lunix_path_BB32_38:
	cmp	w9, #31
	b.hi	.Lunix_path_BB32_50
	lsr	w10, w9, #4
	and	w8, w9, #0xf
	orr	w9, w9, #0x30
	add	w11, w8, #87
	cmp	w8, #10
	mov	w27, #1
	mov	w8, #48
	orr	w10, w10, #0x30
	csel	w11, w9, w11, lo
	mov	w9, #117
	mov	w20, #92
	mov	w24, #6
	mov	w28, #1
	b	.Lunix_path_BB32_43
.Lunix_path_BB32_40:
	mov	w8, wzr
	mov	w10, wzr
	mov	w11, wzr
	mov	w27, wzr
	mov	w28, #1
	mov	w9, #102
	b	.Lunix_path_BB32_42
.Lunix_path_BB32_41:
	mov	w8, wzr
	mov	w10, wzr
	mov	w11, wzr
	mov	w27, wzr
	mov	w28, #1
	mov	w9, #116
.Lunix_path_BB32_42:
	mov	w20, #92
	mov	w24, #2
.Lunix_path_BB32_43:
	sturb	w9, [x29, #-7]
	ldr	x9, [x19, #8]
	sturb	w8, [x29, #-6]
	sturb	w8, [x29, #-5]
	sub	x8, x9, x26
	cmp	x24, x8
	sturb	w20, [x29, #-8]
	sturb	w10, [x29, #-4]
	sturb	w11, [x29, #-3]
	b.hi	.Lunix_path_BB32_51
	ldr	x8, [x19]
	cbnz	w27, .Lunix_path_BB32_2
.Lunix_path_BB32_45:
	cbz	w28, .Lunix_path_BB32_47
	ldur	h0, [x29, #-8]
	sub	x9, x24, #2
	sub	x10, x29, #8
	ldr	h1, [x10, x9]
	add	x8, x8, x26
	ushll	v0.8h, v0.8b, #0
	ushll	v1.8h, v1.8b, #0
	ushll	v0.4s, v0.4h, #0
	ushll	v1.4s, v1.4h, #0
	mov	s2, v0.s[1]
	str	b0, [x8]
	mov	s3, v1.s[1]
	stur	b2, [x8, #1]
	add	x8, x8, x9
	str	b1, [x8]
	stur	b3, [x8, #1]
	b	.Lunix_path_BB32_3
.Lunix_path_BB32_47:
	mov	w24, #1
	strb	w20, [x8, x26]
	b	.Lunix_path_BB32_3
.Lunix_path_BB32_48:
	subs	x10, x20, #2
	b.lo	.Lunix_path_BB32_53
	ldr	h0, [x8]
	add	x9, x9, x26
	add	x26, x26, x20
	ushll	v0.8h, v0.8b, #0
	ushll	v0.4s, v0.4h, #0
	mov	s1, v0.s[1]
	str	b0, [x9]
	stur	b1, [x9, #1]
	ldr	h0, [x8, x10]
	add	x8, x9, x10
	ushll	v0.8h, v0.8b, #0
	ushll	v0.4s, v0.4h, #0
	mov	s1, v0.s[1]
	str	b0, [x8]
	stur	b1, [x8, #1]
	b	.Lunix_path_BB32_20
.Lunix_path_BB32_50:
	mov	w8, wzr
	mov	w10, wzr
	mov	w11, wzr
	mov	w27, wzr
	mov	w28, wzr
	mov	w24, #1
	mov	w20, w9
	mov	w9, wzr
	b	.Lunix_path_BB32_43
.Lunix_path_BB32_51:
	mov	x21, x0
	mov	x0, x19
	mov	x1, x24
	bl	json.write.sink.Sink.grow.2df68bf702f5d045.
	and	w8, w0, #0xff
	tbnz	w8, #0, .Lunix_path_BB32_61
	ldr	x26, [x19, #24]
	mov	x0, x21
	ldr	x8, [x19]
	cbnz	w27, .Lunix_path_BB32_2
	b	.Lunix_path_BB32_45
.Lunix_path_BB32_53:
	cmp	x20, #1
	b.ne	.Lunix_path_BB32_20
	ldrb	w8, [x8]
	strb	w8, [x9, x26]
	add	x26, x26, #1
	b	.Lunix_path_BB32_20
.Lunix_path_BB32_55:
	ldr	x8, [x19, #8]
	ldr	x1, [sp, #16]
	sub	x8, x8, x26
	cmp	x1, x8
	b.hi	.Lunix_path_BB32_60
	ldr	x8, [x19]
	cmp	x1, #2
	b.lo	.Lunix_path_BB32_65
.Lunix_path_BB32_57:
	ldr	x9, [sp, #8]
	add	x8, x8, x26
	ldr	h0, [x9]
	ushll	v0.8h, v0.8b, #0
	ushll	v0.4s, v0.4h, #0
	mov	s1, v0.s[1]
	str	b0, [x8]
	stur	b1, [x8, #1]
	ldr	h0, [x9]
	ushll	v0.8h, v0.8b, #0
	ushll	v0.4s, v0.4h, #0
	mov	s1, v0.s[1]
	str	b0, [x8]
	stur	b1, [x8, #1]
	add	x8, x26, #2
	b	.Lunix_path_BB32_66
.Lunix_path_BB32_58:
	mov	w20, w1
	mov	x0, x19
	mov	w1, #2
	bl	json.write.sink.Sink.grow.2df68bf702f5d045.
	and	w8, w0, #0xff
	tbnz	w8, #0, .Lunix_path_BB32_61
	ldr	x8, [x19, #24]
	mov	w1, w20
	b	.Lunix_path_BB32_1
.Lunix_path_BB32_60:
	mov	x0, x19
	bl	json.write.sink.Sink.grow.2df68bf702f5d045.
	and	w8, w0, #0xff
	tbz	w8, #0, .Lunix_path_BB32_64
.Lunix_path_BB32_61:
	ldr	x8, [x19, #24]
	cmp	x25, x8
	b.hs	.Lunix_path_BB32_63
	str	x25, [x19, #24]
.Lunix_path_BB32_63:
	mov	w0, #1
	b	.Lunix_path_BB32_67
.Lunix_path_BB32_64:
	ldr	x26, [x19, #24]
	ldr	x1, [sp, #16]
	ldr	x8, [x19]
	cmp	x1, #2
	b.hs	.Lunix_path_BB32_57
.Lunix_path_BB32_65:
	ldr	x9, [sp, #8]
	ldrb	w9, [x9]
	strb	w9, [x8, x26]
	add	x8, x26, #1
.Lunix_path_BB32_66:
	mov	w0, wzr
	str	x8, [x19, #24]
.Lunix_path_BB32_67:
	ldp	x20, x19, [sp, #112]
	ldp	x22, x21, [sp, #96]
	ldp	x24, x23, [sp, #80]
	ldp	x26, x25, [sp, #64]
	ldp	x28, x27, [sp, #48]
	ldp	x29, x30, [sp, #32]
	add	sp, sp, #128
	ret
.Lunix_path_func_end32:
	.size	json.write.put.put_escaped.2df68bf702f5d045., .Lunix_path_func_end32-json.write.put.put_escaped.2df68bf702f5d045.
	.section	.rodata.cst16,"aM",@progbits,16
	.p2align	4, 0x0
.Lunix_path_CPI33_0:
	.byte	1
	.byte	2
	.byte	4
	.byte	8
	.byte	16
	.byte	32
	.byte	64
	.byte	128
	.byte	1
	.byte	2
	.byte	4
	.byte	8
	.byte	16
	.byte	32
	.byte	64
	.byte	128
	.section	.rodata.cst8,"aM",@progbits,8
	.p2align	3, 0x0
.Lunix_path_CPI33_1:
	.byte	1
	.byte	2
	.byte	4
	.byte	8
	.byte	16
	.byte	32
	.byte	64
	.byte	128
	.section	.text.json.run.plain_end_16,"ax",@progbits
	.p2align	2
	.type	json.run.plain_end_16,@function
// json::run::plain_end_16
json.run.plain_end_16:
	sub	x8, x1, x2
	cmp	x8, #16
	b.hs	.Lunix_path_BB33_8
	cmp	x8, #7
	b.hi	.Lunix_path_BB33_10
	cmp	x1, x2
	b.ls	.Lunix_path_BB33_12
.Lunix_path_BB33_3:
	ldrb	w8, [x0, x2]
	cmp	w8, #34
	b.eq	.Lunix_path_BB33_12
	cmp	w8, #92
	b.eq	.Lunix_path_BB33_12
	cmp	w8, #32
	b.lo	.Lunix_path_BB33_12
	add	x2, x2, #1
	cmp	x1, x2
	b.ne	.Lunix_path_BB33_3
	mov	x0, x1
	ret
.Lunix_path_BB33_8:
	movi	v0.16b, #34
	movi	v1.16b, #92
	ldr	q2, [x0, x2]
	movi	v3.16b, #32
	adrp	x8, .Lunix_path_CPI33_0
	cmeq	v0.16b, v2.16b, v0.16b
	cmeq	v1.16b, v2.16b, v1.16b
	orr	v0.16b, v0.16b, v1.16b
	cmhi	v1.16b, v3.16b, v2.16b
	orr	v0.16b, v1.16b, v0.16b
	ldr	q1, [x8, :lo12:.Lunix_path_CPI33_0]
	and	v0.16b, v0.16b, v1.16b
	addp	v0.16b, v0.16b, v0.16b
	addp	v0.16b, v0.16b, v0.16b
	addp	v0.16b, v0.16b, v0.16b
	umov	w8, v0.h[0]
	cbz	w8, .Lunix_path_BB33_13
	umov	w8, v0.h[0]
	rbit	w8, w8
	clz	w8, w8
	add	x0, x2, x8
	ret
.Lunix_path_BB33_10:
	movi	v0.8b, #34
	movi	v1.8b, #92
	ldr	d2, [x0, x2]
	movi	v3.8b, #32
	cmeq	v0.8b, v2.8b, v0.8b
	cmeq	v1.8b, v2.8b, v1.8b
	orr	v0.8b, v0.8b, v1.8b
	cmhi	v1.8b, v3.8b, v2.8b
	orr	v0.8b, v1.8b, v0.8b
	umaxv	b1, v0.8b
	fmov	w8, s1
	tbz	w8, #0, .Lunix_path_BB33_20
	adrp	x8, .Lunix_path_CPI33_1
	ldr	d1, [x8, :lo12:.Lunix_path_CPI33_1]
	and	v0.8b, v0.8b, v1.8b
	addv	b0, v0.8b
	fmov	w8, s0
	rbit	w8, w8
	clz	w8, w8
	add	x0, x2, x8
	ret
.Lunix_path_BB33_12:
	mov	x0, x2
	ret
.Lunix_path_BB33_13:
	add	x8, x2, #16
	sub	x9, x1, x8
	cmp	x9, #7
	b.hi	.Lunix_path_BB33_26
	cmp	x1, x8
	b.ls	.Lunix_path_BB33_34
.Lunix_path_BB33_15:
	ldrb	w9, [x0, x8]
	cmp	w9, #34
	b.eq	.Lunix_path_BB33_34
	cmp	w9, #92
	b.eq	.Lunix_path_BB33_34
	cmp	w9, #32
	b.lo	.Lunix_path_BB33_34
	add	x8, x8, #1
	cmp	x1, x8
	b.ne	.Lunix_path_BB33_15
	mov	x0, x1
	ret
.Lunix_path_BB33_20:
	add	x8, x2, #8
	cmp	x8, x1
	b.hs	.Lunix_path_BB33_34
.Lunix_path_BB33_21:
	ldrb	w9, [x0, x8]
	cmp	w9, #34
	b.eq	.Lunix_path_BB33_34
	cmp	w9, #92
	b.eq	.Lunix_path_BB33_34
	cmp	w9, #32
	b.lo	.Lunix_path_BB33_34
	add	x8, x8, #1
	cmp	x1, x8
	b.ne	.Lunix_path_BB33_21
	mov	x0, x1
	ret
.Lunix_path_BB33_26:
	movi	v0.8b, #34
	movi	v1.8b, #92
	ldr	d2, [x0, x8]
	movi	v3.8b, #32
	cmeq	v0.8b, v2.8b, v0.8b
	cmeq	v1.8b, v2.8b, v1.8b
	orr	v0.8b, v0.8b, v1.8b
	cmhi	v1.8b, v3.8b, v2.8b
	orr	v0.8b, v1.8b, v0.8b
	umaxv	b1, v0.8b
	fmov	w9, s1
	tbz	w9, #0, .Lunix_path_BB33_28
	adrp	x9, .Lunix_path_CPI33_1
	ldr	d1, [x9, :lo12:.Lunix_path_CPI33_1]
	and	v0.8b, v0.8b, v1.8b
	addv	b0, v0.8b
	fmov	w9, s0
	rbit	w9, w9
	clz	w9, w9
	add	x8, x8, x9
	b	.Lunix_path_BB33_34
.Lunix_path_BB33_28:
	add	x8, x2, #24
	cmp	x8, x1
	b.hs	.Lunix_path_BB33_34
.Lunix_path_BB33_29:
	ldrb	w9, [x0, x8]
	cmp	w9, #34
	b.eq	.Lunix_path_BB33_34
	cmp	w9, #92
	b.eq	.Lunix_path_BB33_34
	cmp	w9, #32
	b.lo	.Lunix_path_BB33_34
	add	x8, x8, #1
	cmp	x1, x8
	b.ne	.Lunix_path_BB33_29
	mov	x0, x1
	ret
.Lunix_path_BB33_34:
	mov	x0, x8
	ret
.Lunix_path_func_end33:
	.size	json.run.plain_end_16, .Lunix_path_func_end33-json.run.plain_end_16
	.section	.text.unlikely.json.write.sink.Sink.grow.2df68bf702f5d045.,"ax",@progbits
	.p2align	2
	.type	json.write.sink.Sink.grow.2df68bf702f5d045.,@function
// json::write::sink::Sink::grow::<#2df68bf702f5d045>
json.write.sink.Sink.grow.2df68bf702f5d045.:
	stp	x29, x30, [sp, #-64]!
	ldp	x9, x8, [x0, #16]
	mov	x29, sp
	stp	x22, x21, [sp, #32]
	ldr	x21, [x0, #8]
	stp	x20, x19, [sp, #48]
	mov	x19, x0
	sub	x8, x8, x21
	sub	x9, x9, x21
	str	x23, [sp, #16]
	add	x20, x8, x1
	cmp	x20, x9
	b.hi	.Lunix_path_BB34_9
	mov	x8, x21
.Lunix_path_BB34_2:
	cmp	x21, #128
	mov	w10, #128
	mov	w11, #16384
	csel	x10, x21, x10, hi
	cmp	x10, #4, lsl #12
	csel	x10, x10, x11, lo
	cmp	x10, x20
	csel	x10, x10, x20, hi
	cmp	x9, x10
	csel	x9, x9, x10, lo
	add	x20, x9, x21
	b	.Lunix_path_BB34_5
.Lunix_path_BB34_3:
	ldr	x21, [x19, #16]
	mov	x2, x22
.Lunix_path_BB34_4:
	ldr	x22, [x19]
	mov	w1, wzr
	add	x23, x8, x2
	add	x0, x22, x8
	bl	memset
	stp	x22, x23, [x19]
	mov	x8, x23
	str	x21, [x19, #16]
.Lunix_path_BB34_5:
	cmp	x8, x20
	b.hs	.Lunix_path_BB34_8
	sub	x9, x20, x8
	ldr	x21, [x19, #16]
	mov	w10, #1024
	cmp	x9, #1024
	csel	x2, x9, x10, lo
	sub	x9, x21, x8
	cmp	x2, x9
	b.ls	.Lunix_path_BB34_4
	mov	x0, x19
	mov	x1, x2
	mov	x22, x2
	bl	std_alloc.vec.Vec.grow_amortized.2c3341b61b28ed12.
	ldr	x8, [x19, #8]
	cbz	w0, .Lunix_path_BB34_5
	b	.Lunix_path_BB34_3
.Lunix_path_BB34_8:
	mov	w0, wzr
	ldp	x20, x19, [sp, #48]
	ldr	x23, [sp, #16]
	ldp	x22, x21, [sp, #32]
	ldp	x29, x30, [sp], #64
	ret
.Lunix_path_BB34_9:
	mov	x0, x19
	mov	x1, x20
	bl	std_alloc.vec.Vec.grow_amortized.2c3341b61b28ed12.
	cbz	w0, .Lunix_path_BB34_11
	ldp	x8, x9, [x19, #8]
	sub	x9, x9, x21
	b	.Lunix_path_BB34_2
.Lunix_path_BB34_11:
	mov	w0, #1
	ldp	x20, x19, [sp, #48]
	ldr	x23, [sp, #16]
	ldp	x22, x21, [sp, #32]
	ldp	x29, x30, [sp], #64
	ret
.Lunix_path_func_end34:
	.size	json.write.sink.Sink.grow.2df68bf702f5d045., .Lunix_path_func_end34-json.write.sink.Sink.grow.2df68bf702f5d045.
	.section	.text.serde_json.number.write_negative.d02ee1697995db96.,"ax",@progbits
	.p2align	2
	.type	serde_json.number.write_negative.d02ee1697995db96.,@function
// serde_json::number::write_negative::<#d02ee1697995db96>
serde_json.number.write_negative.d02ee1697995db96.:
	sub	sp, sp, #128
	cmp	x0, #0
	movi	v0.2d, #0000000000000000
	stp	x29, x30, [sp, #48]
	cneg	x8, x0, mi
	stp	x26, x25, [sp, #64]
	add	x29, sp, #48
	lsr	x9, x8, #4
	stp	x24, x23, [sp, #80]
	stp	x22, x21, [sp, #96]
	cmp	x9, #625
	adrp	x9, .Lunix_path_static.36
	add	x9, x9, :lo12:.Lunix_path_static.36
	stp	x20, x19, [sp, #112]
	str	xzr, [sp, #32]
	stp	q0, q0, [sp]
	b.lo	.Lunix_path_BB35_6
	mov	x10, xzr
.Lunix_path_BB35_2:
	mov	x11, x8
	mov	x8, #22859
	mov	w12, #10000
	movk	x8, #14470, lsl #16
	mov	w14, #5243
	mov	w15, #57599
	movk	x8, #50646, lsl #32
	movk	w15, #1525, lsl #16
	movk	x8, #13421, lsl #48
	cmp	x11, x15
	umulh	x8, x11, x8
	lsr	x8, x8, #11
	msub	w12, w8, w12, w11
	ubfx	w13, w12, #2, #14
	mul	w13, w13, w14
	mov	w14, #100
	lsr	w13, w13, #17
	msub	w12, w13, w14, w12
	mov	x14, sp
	ldrh	w13, [x9, w13, uxtw #1]
	add	x14, x14, x10
	sub	x10, x10, #4
	strh	w13, [x14, #36]
	and	x12, x12, #0xffff
	ldrh	w12, [x9, x12, lsl #1]
	strh	w12, [x14, #38]
	b.hi	.Lunix_path_BB35_2
	add	x10, x10, #40
	cmp	x8, #99
	b.ls	.Lunix_path_BB35_7
.Lunix_path_BB35_4:
	ubfx	w11, w8, #2, #14
	mov	w12, #5243
	cmp	x8, #999
	mul	w11, w11, w12
	mov	w12, #100
	lsr	w11, w11, #17
	msub	w12, w11, w12, w8
	and	x12, x12, #0xffff
	ldrh	w13, [x9, x12, lsl #1]
	mov	x12, sp
	add	x14, x12, x10
	sturh	w13, [x14, #-2]
	b.hi	.Lunix_path_BB35_9
	sub	x20, x10, #3
	orr	w8, w11, #0x30
	strb	w8, [x12, x20]
	tbz	x0, #63, .Lunix_path_BB35_12
	b	.Lunix_path_BB35_11
.Lunix_path_BB35_6:
	mov	w10, #40
	cmp	x8, #99
	b.hi	.Lunix_path_BB35_4
.Lunix_path_BB35_7:
	cmp	x8, #9
	b.hi	.Lunix_path_BB35_10
	sub	x20, x10, #1
	mov	x9, sp
	orr	w8, w8, #0x30
	strb	w8, [x9, x20]
	tbz	x0, #63, .Lunix_path_BB35_12
	b	.Lunix_path_BB35_11
.Lunix_path_BB35_9:
	sub	x20, x10, #4
	ldrh	w8, [x9, w11, uxtw #1]
	strh	w8, [x12, x20]
	tbz	x0, #63, .Lunix_path_BB35_12
	b	.Lunix_path_BB35_11
.Lunix_path_BB35_10:
	sub	x20, x10, #2
	ldrh	w8, [x9, x8, lsl #1]
	mov	x9, sp
	strh	w8, [x9, x20]
	tbz	x0, #63, .Lunix_path_BB35_12
.Lunix_path_BB35_11:
	sub	x20, x20, #1
	mov	x8, sp
	mov	w9, #45
	strb	w9, [x8, x20]
.Lunix_path_BB35_12:
	ldr	x10, [x1, #8]
	ldr	x9, [x1, #24]
	mov	w8, #41
	sub	x8, x8, x20
	ldrb	w21, [x1, #40]
	sub	x10, x10, x9
	cmp	x8, x10
	b.hi	.Lunix_path_BB35_28
.Lunix_path_BB35_13:
	mov	w8, #40
	mov	x10, sp
	ldr	x22, [x1]
	sub	x23, x8, x20
	add	x19, x10, x20
	add	x21, x9, x21
	cmp	x23, #33
	mov	w8, #44
	strb	w8, [x22, x9]
	b.lo	.Lunix_path_BB35_16
	cmp	x23, #65
	b.lo	.Lunix_path_BB35_18
	mov	x8, #-25
	add	x0, x22, x21
	mov	x25, x1
	sub	x8, x8, x20
	mov	x1, x19
	and	x26, x8, #0xffffffffffffffe0
	add	x2, x26, #32
	add	x24, x26, #32
	bl	memcpy
	mov	w8, #8
	mov	x1, x25
	sub	x8, x8, x20
	sub	x8, x8, x26
	b	.Lunix_path_BB35_19
.Lunix_path_BB35_16:
	cmp	x23, #16
	b.lo	.Lunix_path_BB35_22
	mov	x8, sp
	sub	x9, x21, x20
	ldur	q0, [sp, #24]
	ldr	q1, [x8, x20]
	add	x8, x22, x9
	str	q1, [x22, x21]
	add	x21, x9, #40
	stur	q0, [x8, #24]
	b	.Lunix_path_BB35_20
.Lunix_path_BB35_18:
	mov	x24, xzr
	mov	x8, x23
.Lunix_path_BB35_19:
	add	x9, x19, x24
	sub	x8, x8, #32
	add	x10, x22, x24
	ldp	q1, q0, [x9]
	add	x10, x10, x21
	add	x9, x9, x8
	add	x8, x10, x8
	add	x21, x21, x23
	stp	q1, q0, [x10]
	ldp	q0, q2, [x9]
	stp	q0, q2, [x8]
.Lunix_path_BB35_20:
	mov	w0, wzr
	mov	w8, #1
	str	x21, [x1, #24]
	strb	w8, [x1, #40]
.Lunix_path_BB35_21:
	ldp	x20, x19, [sp, #112]
	ldp	x22, x21, [sp, #96]
	ldp	x24, x23, [sp, #80]
	ldp	x26, x25, [sp, #64]
	ldp	x29, x30, [sp, #48]
	add	sp, sp, #128
	ret
.Lunix_path_BB35_22:
	cmp	x23, #8
	b.lo	.Lunix_path_BB35_24
	mov	x8, sp
	sub	x9, x21, x20
	ldr	d0, [sp, #32]
	ldr	d1, [x8, x20]
	add	x8, x22, x9
	str	d1, [x22, x21]
	add	x21, x9, #40
	str	d0, [x8, #32]
	b	.Lunix_path_BB35_20
.Lunix_path_BB35_24:
	cmp	x23, #4
	b.lo	.Lunix_path_BB35_26
	mov	x8, sp
	sub	x9, x21, x20
	ldr	w10, [sp, #36]
	ldr	w8, [x8, x20]
	add	x11, x22, x9
	str	w8, [x22, x21]
	add	x21, x9, #40
	str	w10, [x11, #36]
	b	.Lunix_path_BB35_20
.Lunix_path_BB35_26:
	cmp	x23, #2
	b.lo	.Lunix_path_BB35_30
	mov	x8, sp
	ldr	h1, [sp, #38]
	sub	x9, x21, x20
	ldr	h0, [x8, x20]
	add	x8, x22, x21
	add	x21, x9, #40
	ushll	v1.8h, v1.8b, #0
	ushll	v0.8h, v0.8b, #0
	ushll	v1.4s, v1.4h, #0
	ushll	v0.4s, v0.4h, #0
	mov	s3, v1.s[1]
	mov	s2, v0.s[1]
	str	b0, [x8]
	stur	b2, [x8, #1]
	add	x8, x22, x9
	stur	b3, [x8, #39]
	stur	b1, [x8, #38]
	b	.Lunix_path_BB35_20
.Lunix_path_BB35_28:
	mov	x19, x1
	mov	x0, x1
	mov	x1, x8
	bl	json.write.sink.Sink.grow.2df68bf702f5d045.
	and	w8, w0, #0xff
	tbz	w8, #0, .Lunix_path_BB35_32
	mov	w0, #1
	b	.Lunix_path_BB35_21
.Lunix_path_BB35_30:
	cmp	x20, #39
	b.ne	.Lunix_path_BB35_20
	ldrb	w8, [x19]
	strb	w8, [x22, x21]
	add	x21, x21, #1
	b	.Lunix_path_BB35_20
.Lunix_path_BB35_32:
	ldr	x9, [x19, #24]
	mov	x1, x19
	b	.Lunix_path_BB35_13
.Lunix_path_func_end35:
	.size	serde_json.number.write_negative.d02ee1697995db96., .Lunix_path_func_end35-serde_json.number.write_negative.d02ee1697995db96.
	.section	.rodata.cst16,"aM",@progbits,16
	.p2align	4, 0x0
.Lunix_path_CPI36_0:
	.byte	1
	.byte	2
	.byte	4
	.byte	8
	.byte	16
	.byte	32
	.byte	64
	.byte	128
	.byte	1
	.byte	2
	.byte	4
	.byte	8
	.byte	16
	.byte	32
	.byte	64
	.byte	128
	.section	.text.serde_json.number.write_float.d02ee1697995db96.,"ax",@progbits
	.p2align	2
	.type	serde_json.number.write_float.d02ee1697995db96.,@function
// serde_json::number::write_float::<#d02ee1697995db96>
serde_json.number.write_float.d02ee1697995db96.:
	sub	sp, sp, #80
	ldr	x9, [x0, #8]
	ldr	x8, [x0, #24]
	stp	x20, x19, [sp, #64]
	mov	x19, x0
	stp	x29, x30, [sp, #32]
	add	x29, sp, #32
	sub	x9, x9, x8
	stp	x22, x21, [sp, #48]
	cmp	x9, #33
	b.lo	.Lunix_path_BB36_17
	ldrb	w9, [x19, #40]
	ldr	x10, [x19]
	mov	w11, #44
	add	x20, x8, x9
	fmov	x9, d0
	strb	w11, [x10, x8]
	add	x21, x10, x20
	mov	w8, #45
	strb	w8, [x21]
	lsr	x22, x9, #63
	ands	x1, x9, #0x7fffffffffffffff
	b.eq	.Lunix_path_BB36_11
	lsr	x8, x1, #52
	stp	xzr, xzr, [sp, #8]
	str	xzr, [sp, #24]
	cbz	x8, .Lunix_path_BB36_7
	ands	x9, x1, #0xfffffffffffff
	b.eq	.Lunix_path_BB36_7
	sub	x10, x8, #1
	mov	w8, #53509
	mov	w11, #6406
	movk	w8, #4, lsl #16
	movk	w11, #1227, lsl #16
	mov	w12, #21098
	smaddl	x8, w10, w8, x11
	mov	w11, #741
	movk	w12, #3, lsl #16
	mov	w13, #58980
	orr	x9, x9, #0x10000000000000
	mov	w14, #2211
	lsr	x8, x8, #20
	sub	x11, x11, x8
	umaddl	x12, w11, w12, x13
	add	x10, x10, x12, lsr #16
	adrp	x12, .Lunix_path_static.45
	add	x12, x12, :lo12:.Lunix_path_static.45
	add	x11, x12, x11, lsl #4
	sub	x12, x10, #2204
	sub	x10, x14, x10
	lsl	x9, x9, x12
	ldp	x11, x12, [x11]
	mul	x13, x12, x9
	lsr	x10, x12, x10
	umulh	x11, x11, x9
	umulh	x9, x12, x9
	mov	x12, #-3689348814741910324
	movk	x12, #52449
	movk	x12, #3276, lsl #48
	adds	x11, x11, x13
	cinc	x9, x9, hs
	cmp	x10, x12
	b.lo	.Lunix_path_BB36_7
	extr	x11, x9, x11, #6
	add	x12, x10, x11
	sub	x13, x10, x11
	sub	x12, x12, #1
	cmn	x12, #3
	ccmp	x13, #1, #0, ls
	b.ls	.Lunix_path_BB36_7
	mov	w12, #10
	mov	x13, #4611686018427387904
	add	x14, x11, x11, lsl #2
	umulh	x12, x11, x12
	cmp	x11, x13
	mov	x13, #6
	movk	x13, #32768, lsl #48
	lsr	x9, x9, #6
	cset	w15, eq
	cmn	x13, x14, lsl #1
	cinc	x12, x12, hs
	cmn	x11, x10
	cset	w13, hs
	cinc	x9, x9, hs
	cmp	x10, x11
	csinc	w10, w13, wzr, ls
	sub	x11, x12, x15
	cmp	w10, #0
	csel	x10, xzr, x11, ne
	b	.Lunix_path_BB36_8
.Lunix_path_BB36_7:
	add	x0, sp, #8
	bl	ryu.shortest.shortest_slowly.fb1fd16ba1bdda57.
	ldp	x9, x10, [sp, #8]
	ldr	x8, [sp, #24]
.Lunix_path_BB36_8:
	mov	x11, #52989
	mov	w12, #57600
	mov	w13, #47291
	movk	x11, #33889, lsl #16
	movk	w12, #1525, lsl #16
	movk	w13, #1677, lsl #16
	movk	x11, #30481, lsl #32
	mov	x15, #-65535
	mov	x16, #4294967296
	movk	x11, #43980, lsl #48
	movk	x15, #55536, lsl #16
	movk	x16, #55536, lsl #48
	umulh	x11, x9, x11
	movi	v0.2d, #0000000000000000
	tst	w10, #0xff
	mov	w17, #64
	lsr	x11, x11, #26
	msub	x12, x11, x12, x9
	mul	x14, x11, x13
	mul	x13, x12, x13
	lsl	x12, x12, #48
	lsr	x14, x14, #40
	add	x11, x12, x11, lsl #16
	smaddl	x11, w14, w15, x11
	mov	x15, #1125899906809856
	lsr	x13, x13, #40
	movk	x15, #42182, lsl #16
	movk	x15, #36222, lsl #32
	madd	x11, x13, x16, x11
	mov	v0.d[0], x11
	mov	w11, #5243
	dup	v2.8h, w11
	mov	w11, #52429
	ushr	v1.8h, v0.8h, #2
	umull2	v3.4s, v1.8h, v2.8h
	umull	v1.4s, v1.4h, v2.4h
	mvni	v2.8h, #99
	uzp2	v1.8h, v1.8h, v3.8h
	ushr	v1.8h, v1.8h, #1
	mla	v0.8h, v1.8h, v2.8h
	zip1	v0.8h, v1.8h, v0.8h
	dup	v1.8h, w11
	mov	w11, #62977
	umull2	v2.4s, v0.8h, v1.8h
	umull	v1.4s, v0.4h, v1.4h
	shl	v0.8h, v0.8h, #8
	uzp2	v1.8h, v1.8h, v2.8h
	dup	v2.8h, w11
	adrp	x11, .Lunix_path_CPI36_0
	ushr	v1.8h, v1.8h, #3
	mla	v0.8h, v1.8h, v2.8h
	ldr	q2, [x11, :lo12:.Lunix_path_CPI36_0]
	mov	w11, #65536
	csel	x16, xzr, x11, eq
	cmp	x9, x15
	cset	w11, lo
	csetm	x13, lo
	sub	x14, x8, x11
	cmeq	v1.16b, v0.16b, #0
	bic	v1.16b, v2.16b, v1.16b
	addp	v1.16b, v1.16b, v1.16b
	addp	v1.16b, v1.16b, v1.16b
	addp	v1.16b, v1.16b, v1.16b
	umov	w12, v1.h[0]
	movi	v1.16b, #48
	bfxil	x16, x12, #0, #16
	add	v0.16b, v0.16b, v1.16b
	sub	x12, x14, #384
	cmp	x12, #15
	add	w12, w10, #48
	clz	x16, x16
	sub	x10, x17, x16
	b.hi	.Lunix_path_BB36_12
	sub	x8, x8, #383
	cmp	x8, x10
	b.hs	.Lunix_path_BB36_14
	add	x14, x8, x8, lsl #4
	add	x9, x21, x22
	adrp	x15, .Lunix_path_static.47
	add	x15, x15, :lo12:.Lunix_path_static.47
	add	x16, x9, x13
	add	x14, x15, x14
	stur	q0, [x16, #1]
	strb	w12, [x16, #17]
	add	x11, x14, x11
	ldur	q1, [x11, #-17]
	add	x11, x22, x13
	add	x10, x11, x10
	tbl	v0.16b, { v0.16b }, v1.16b
	str	q0, [x9]
	mov	w9, #46
	strb	w9, [x16, x8]
	add	x8, x10, #1
	b	.Lunix_path_BB36_16
.Lunix_path_BB36_11:
	add	x8, x21, x22
	mov	w9, #11824
	mov	w10, #48
	strh	w9, [x8]
	strb	w10, [x8, #2]
	add	x8, x22, #3
	b	.Lunix_path_BB36_16
.Lunix_path_BB36_12:
	add	x14, x14, #17
	sub	x16, x14, #396
	cmp	x16, #4
	b.hi	.Lunix_path_BB36_15
	sub	x8, x22, x8
	add	x9, x21, x22
	mov	w13, #46
	add	x8, x8, #385
	str	q1, [x9]
	add	x11, x21, x8
	add	x8, x10, x8
	str	q0, [x11]
	strb	w12, [x11, #16]
	strb	w13, [x9, #1]
	b	.Lunix_path_BB36_16
.Lunix_path_BB36_14:
	adrp	x9, .Lunix_path_static.47
	add	x9, x9, :lo12:.Lunix_path_static.47
	add	x10, x22, x13
	add	x9, x9, x11
	add	x8, x10, x8
	ldur	q1, [x9, #255]
	add	x9, x21, x22
	add	x11, x9, x13
	tbl	v0.16b, { v0.16b }, v1.16b
	str	q0, [x9]
	mov	w9, #12334
	strb	w12, [x11, #16]
	strh	w9, [x21, x8]
	add	x8, x8, #2
	b	.Lunix_path_BB36_16
.Lunix_path_BB36_15:
	cmp	x9, x15
	mov	w15, #17
	add	x8, x21, x22
	lsl	x15, x15, x11
	adrp	x16, .Lunix_path_static.47
	add	x16, x16, :lo12:.Lunix_path_static.47
	mov	w9, #1
	add	x13, x8, x13
	add	x16, x16, x11
	sub	x10, x10, x11
	cinc	x9, x9, lo
	strb	w12, [x13, #17]
	add	x12, x16, x15
	mov	w15, #401
	sub	x16, x14, #1
	mov	w11, #65135
	add	x17, x10, x22
	cmp	x10, #1
	sub	w15, w15, w14
	add	w10, w14, w11
	cinc	x11, x17, hi
	cmp	x16, #400
	stur	q0, [x13, #1]
	mov	w14, #52429
	csel	x10, x15, x10, lo
	ldur	q1, [x12, #-17]
	mov	w16, #6554
	and	w12, w10, #0xffff
	mov	w15, #46
	mov	w17, #43
	mul	w14, w12, w14
	tbl	v0.16b, { v0.16b }, v1.16b
	lsr	w14, w14, #19
	str	q0, [x8]
	ubfx	w8, w10, #2, #14
	strb	w15, [x13, x9]
	mul	w9, w14, w16
	mov	w16, #5243
	mul	w8, w8, w16
	add	x13, x21, x11
	mov	w15, #101
	mov	w16, #45
	strb	w15, [x13]
	lsr	w9, w9, #16
	csel	w15, w16, w17, lo
	mov	w17, #10
	lsr	w8, w8, #17
	add	x16, x11, #2
	cmp	w12, #99
	msub	w9, w9, w17, w14
	add	x11, x11, #3
	strb	w15, [x13, #1]
	msub	w10, w14, w17, w10
	csel	x11, x16, x11, ls
	cmp	w12, #9
	add	w8, w8, #48
	strb	w8, [x21, x16]
	cinc	x8, x11, hi
	orr	w9, w9, #0x30
	strb	w9, [x21, x11]
	orr	w9, w10, #0x30
	strb	w9, [x21, x8]
	add	x8, x8, #1
.Lunix_path_BB36_16:
	add	x8, x8, x20
	mov	w9, #1
	mov	w0, wzr
	str	x8, [x19, #24]
	ldp	x22, x21, [sp, #48]
	strb	w9, [x19, #40]
	ldp	x20, x19, [sp, #64]
	ldp	x29, x30, [sp, #32]
	add	sp, sp, #80
	ret
.Lunix_path_BB36_17:
	mov	x0, x19
	ldp	x20, x19, [sp, #64]
	ldp	x22, x21, [sp, #48]
	ldp	x29, x30, [sp, #32]
	add	sp, sp, #80
	b	json.write.Writer.float_slowly.e23ad144bd04ea1b.
.Lunix_path_func_end36:
	.size	serde_json.number.write_float.d02ee1697995db96., .Lunix_path_func_end36-serde_json.number.write_float.d02ee1697995db96.
	.section	.text.ryu.shortest.shortest_slowly.fb1fd16ba1bdda57.,"ax",@progbits
	.p2align	2
	.type	ryu.shortest.shortest_slowly.fb1fd16ba1bdda57.,@function
// ryu::shortest::shortest_slowly::<#fb1fd16ba1bdda57>
ryu.shortest.shortest_slowly.fb1fd16ba1bdda57.:
	stp	x29, x30, [sp, #-96]!
	stp	x28, x27, [sp, #16]
	mov	x29, sp
	stp	x26, x25, [sp, #32]
	stp	x24, x23, [sp, #48]
	stp	x22, x21, [sp, #64]
	stp	x20, x19, [sp, #80]
	sub	sp, sp, #624
	lsr	x9, x1, #52
	mov	x8, #4503599627370496
	mov	w12, #6406
	bfxil	x8, x1, #0, #52
	movk	w12, #1225, lsl #16
	sub	x10, x9, #1
	cmp	x9, #0
	mov	w9, #53509
	csel	x20, xzr, x10, eq
	movk	w9, #4, lsl #16
	mov	x10, #4503599627370496
	mul	x11, x20, x9
	csel	x21, x1, x8, eq
	mov	w8, #21098
	cmp	x21, x10
	movk	w8, #3, lsl #16
	adrp	x9, .Lunix_path_static.45
	add	x9, x9, :lo12:.Lunix_path_static.45
	ccmp	x20, #0, #4, eq
	cset	w27, ne
	b.eq	.Lunix_path_BB37_2
	add	x11, x11, x12
	mov	w12, #58980
	mov	w15, #2211
	lsr	x19, x11, #20
	mov	w11, #741
	mov	x18, #9223372036854775807
	sub	x11, x11, x19
	madd	x12, x11, x8, x12
	add	x11, x9, x11, lsl #4
	add	x12, x20, x12, lsr #16
	sub	x13, x12, #2204
	sub	x12, x15, x12
	lsl	x10, x10, x13
	ldp	x11, x13, [x11]
	mul	x14, x13, x10
	lsr	x12, x13, x12
	umulh	x11, x11, x10
	umulh	x10, x13, x10
	mov	w13, #10
	adds	x11, x11, x14
	lsr	x14, x12, #1
	cinc	x10, x10, hs
	extr	x11, x10, x11, #6
	lsr	x10, x10, #6
	umulh	x15, x11, x13
	sub	x16, x11, x14
	add	x17, x11, x11, lsl #2
	umulh	x13, x16, x13
	add	x16, x16, x16, lsl #2
	cmn	x18, x17, lsl #1
	lsl	x16, x16, #1
	cinc	x15, x15, hs
	cmp	x16, #1
	cinc	x13, x13, hs
	cmp	x13, x15
	csel	x13, x13, x15, hi
	cmp	x11, x14
	csel	x13, xzr, x13, lo
	cmn	x11, x12
	cinc	x10, x10, hs
	csel	x11, x13, xzr, lo
	b	.Lunix_path_BB37_3
.Lunix_path_BB37_2:
	add	x10, x12, x11
	mov	w11, #58980
	mov	w15, #2211
	add	x10, x10, #32, lsl #12
	mvn	w16, w21
	lsr	x19, x10, #20
	mov	w10, #741
	and	x16, x16, #0x1
	sub	x10, x10, x19
	madd	x11, x10, x8, x11
	add	x10, x9, x10, lsl #4
	ldp	x10, x13, [x10]
	add	x11, x20, x11, lsr #16
	sub	x12, x11, #2204
	sub	x11, x15, x11
	lsl	x12, x21, x12
	lsr	x11, x13, x11
	mul	x14, x13, x12
	add	x11, x11, x16
	umulh	x10, x10, x12
	umulh	x12, x13, x12
	mov	x13, #4611686018427387904
	adds	x10, x10, x14
	cinc	x12, x12, hs
	extr	x14, x12, x10, #6
	mov	w10, #10
	lsr	x12, x12, #6
	umulh	x10, x14, x10
	add	x15, x14, x14, lsl #2
	cmp	x14, x13
	mov	x13, #6
	cset	w16, eq
	movk	x13, #32768, lsl #48
	cmn	x13, x15, lsl #1
	cinc	x13, x10, hs
	cmn	x14, x11
	cset	w15, hs
	cinc	x10, x12, hs
	cmp	x11, x14
	csinc	w11, w15, wzr, ls
	sub	x12, x13, x16
	cmp	w11, #0
	csel	x11, xzr, x12, ne
.Lunix_path_BB37_3:
	mov	w12, #10
	madd	x22, x10, x12, x11
	mov	x11, #-2725642241
	movk	x11, #17784, lsl #32
	movk	x11, #355, lsl #48
	sub	x10, x22, #1
	cmp	x10, x11
	b.hs	.Lunix_path_BB37_13
	cmp	x19, #708
	b.hi	.Lunix_path_BB37_13
	sub	x26, x19, #58
	clz	x10, x22
	add	x9, x9, x26, lsl #4
	lsl	x11, x22, x10
	add	x10, x10, #1191
	ldr	x9, [x9, #8]
	umulh	x9, x9, x11
	mov	w11, #58980
	madd	x8, x26, x8, x11
	lsr	x11, x9, #63
	add	x8, x11, x8, lsr #16
	add	x8, x8, #1139
	cmp	x8, x10
	b.lo	.Lunix_path_BB37_11
	mov	x12, #-1024
	lsl	x13, x12, x11
	mov	w12, #512
	lsl	x12, x12, x11
	bic	x13, x9, x13
	sub	x14, x12, x13
	cmp	x14, #2
	b.lo	.Lunix_path_BB37_11
	mov	w14, #10
	sub	w8, w8, w10
	cmp	x12, x13
	orr	x11, x11, x14
	lsr	x9, x9, x11
	add	x8, x9, x8, lsl #52
	mov	x9, #9218868437227405312
	cinc	x8, x8, lo
	cmp	x8, x9
	csel	x23, x8, x9, lo
	cmp	x23, x1
	b.ne	.Lunix_path_BB37_13
.Lunix_path_BB37_8:
	mov	x8, #32767
	movk	x8, #42182, lsl #16
	movk	x8, #36222, lsl #32
	movk	x8, #3, lsl #48
	cmp	x22, x8
	b.hi	.Lunix_path_BB37_10
.Lunix_path_BB37_9:
	mov	x9, #16384
	add	x8, x22, x22, lsl #2
	sub	x19, x19, #1
	movk	x9, #4218, lsl #16
	movk	x9, #23283, lsl #32
	cmp	x22, x9
	lsl	x22, x8, #1
	b.lo	.Lunix_path_BB37_9
.Lunix_path_BB37_10:
	mov	x8, #-3689348814741910324
	mov	w9, #10
	str	x19, [x0, #16]
	movk	x8, #52429
	umulh	x8, x22, x8
	lsr	x8, x8, #3
	msub	x9, x8, x9, x22
	stp	x8, x9, [x0]
	add	sp, sp, #624
	ldp	x20, x19, [sp, #80]
	ldp	x22, x21, [sp, #64]
	ldp	x24, x23, [sp, #48]
	ldp	x26, x25, [sp, #32]
	ldp	x28, x27, [sp, #16]
	ldp	x29, x30, [sp], #96
	ret
.Lunix_path_BB37_11:
	mov	x28, x1
	mov	x24, x0
	add	x0, sp, #16
	sub	x2, x19, #58
	mov	x1, x22
	add	x25, sp, #16
	bl	core.dec2flt.lemire.eisel_lemire_wide.1d521972340cebc2.
	ldrb	w8, [sp, #16]
	ldr	x23, [sp, #24]
	cbnz	w8, .Lunix_path_BB37_17
	mov	x0, x24
	cmp	x23, x28
	b.eq	.Lunix_path_BB37_8
.Lunix_path_BB37_13:
	mov	x23, x0
	cbz	w27, .Lunix_path_BB37_15
	sub	x1, x20, #1
	mov	x0, #9007199254740992
	b	.Lunix_path_BB37_16
.Lunix_path_BB37_15:
	mov	x0, x21
	mov	x1, x20
.Lunix_path_BB37_16:
	bl	ryu.shortest.long_form.fb1fd16ba1bdda57.
	mov	x22, x0
	mov	x19, x1
	mov	x0, x23
	mov	x8, #32767
	movk	x8, #42182, lsl #16
	movk	x8, #36222, lsl #32
	movk	x8, #3, lsl #48
	cmp	x22, x8
	b.ls	.Lunix_path_BB37_9
	b	.Lunix_path_BB37_10
.Lunix_path_BB37_17:
	subs	x8, x26, #342
	ldr	x10, [sp, #32]
	mov	w9, #342
	csel	x8, xzr, x8, lo
	add	x0, x25, #8
	mov	w1, wzr
	stp	x8, x10, [sp]
	subs	x8, x9, x26
	mov	w2, #584
	csel	x26, xzr, x8, lo
	str	x22, [sp, #16]
	bl	memset
	ldp	x1, x4, [sp]
	mov	w8, #1
	add	x0, sp, #16
	mov	x2, x26
	mov	x3, x23
	str	x8, [sp, #608]
	bl	core.dec2flt.decimal.break_tie.1d521972340cebc2.
	mov	x23, x0
	mov	x0, x24
	cmp	x23, x28
	b.eq	.Lunix_path_BB37_8
	b	.Lunix_path_BB37_13
.Lunix_path_func_end37:
	.size	ryu.shortest.shortest_slowly.fb1fd16ba1bdda57., .Lunix_path_func_end37-ryu.shortest.shortest_slowly.fb1fd16ba1bdda57.
	.section	.text.unlikely.core.dec2flt.lemire.eisel_lemire_wide.1d521972340cebc2.,"ax",@progbits
	.p2align	2
	.type	core.dec2flt.lemire.eisel_lemire_wide.1d521972340cebc2.,@function
// core::dec2flt::lemire::eisel_lemire_wide::<#1d521972340cebc2>
core.dec2flt.lemire.eisel_lemire_wide.1d521972340cebc2.:
	adrp	x11, .Lunix_path_static.45
	add	x11, x11, :lo12:.Lunix_path_static.45
	clz	x10, x1
	add	x11, x11, x2, lsl #4
	lsl	x12, x1, x10
	mov	w15, #58980
	add	x10, x10, #1191
	mov	x9, xzr
	mov	x8, xzr
	ldp	x11, x13, [x11]
	mul	x14, x13, x12
	umulh	x11, x11, x12
	umulh	x12, x13, x12
	mov	w13, #21098
	movk	w13, #3, lsl #16
	madd	x15, x2, x13, x15
	adds	x13, x11, x14
	cinc	x14, x12, hs
	lsr	x11, x14, #63
	add	x12, x11, x15, lsr #16
	add	x12, x12, #1139
	subs	x15, x10, x12
	csel	x15, xzr, x15, lo
	subs	x10, x12, x10
	mov	x12, xzr
	add	x11, x15, x11
	csel	x10, xzr, x10, lo
	add	x11, x11, #72
	cmp	x11, #127
	b.hi	.Lunix_path_BB38_3
	lsr	x15, x14, #2
	extr	x9, x14, x13, #2
	mvn	w12, w11
	mov	x13, #-1
	mov	x14, #9223372036854775807
	tst	x11, #0x40
	lsl	x8, x15, #1
	lsr	x16, x9, x11
	lsl	x13, x13, x11
	lsl	x8, x8, x12
	lsr	x12, x14, x12
	lsr	x14, x15, x11
	sub	x11, x11, #1
	orr	x8, x8, x16
	mov	w16, #1
	orr	x12, x13, x12
	csel	x8, x14, x8, ne
	lsl	x14, x16, x11
	csel	x16, x13, x12, ne
	csel	x12, xzr, x13, ne
	tst	x11, #0x40
	bic	x11, x15, x16
	bic	x9, x9, x12
	csel	x12, xzr, x14, ne
	csel	x13, x14, xzr, ne
	cmp	x12, x9
	sbcs	xzr, x13, x11
	b.hs	.Lunix_path_BB38_4
	add	x8, x8, x10, lsl #52
	mov	x11, #9218868437227405312
	mov	x9, xzr
	mov	x12, xzr
	add	x10, x8, #1
	cmp	x10, x11
	csinc	x8, x11, x8, hs
.Lunix_path_BB38_3:
	stp	x9, x8, [x0]
	str	x12, [x0, #16]
	ret
.Lunix_path_BB38_4:
	subs	x9, x12, x9
	sbc	x11, x13, x11
	cmp	x9, #2
	sbcs	xzr, x11, xzr
	b.lo	.Lunix_path_BB38_6
	add	x8, x8, x10, lsl #52
	mov	x10, #9218868437227405312
	cmp	x8, x10
	csel	x8, x8, x10, lo
	stp	xzr, x8, [x0]
	str	xzr, [x0, #16]
	ret
.Lunix_path_BB38_6:
	mov	w9, #1
	stp	x9, x8, [x0]
	str	x10, [x0, #16]
	ret
.Lunix_path_func_end38:
	.size	core.dec2flt.lemire.eisel_lemire_wide.1d521972340cebc2., .Lunix_path_func_end38-core.dec2flt.lemire.eisel_lemire_wide.1d521972340cebc2.
	.section	.text.unlikely.core.dec2flt.decimal.break_tie.1d521972340cebc2.,"ax",@progbits
	.p2align	2
	.type	core.dec2flt.decimal.break_tie.1d521972340cebc2.,@function
// core::dec2flt::decimal::break_tie::<#1d521972340cebc2>
core.dec2flt.decimal.break_tie.1d521972340cebc2.:
	stp	x29, x30, [sp, #-64]!
	stp	x28, x23, [sp, #16]
	mov	x29, sp
	stp	x22, x21, [sp, #32]
	stp	x20, x19, [sp, #48]
	sub	sp, sp, #1200
	mov	x21, x2
	mov	x22, x1
	mov	x1, x0
	add	x0, sp, #600
	mov	w2, #600
	str	xzr, [sp]
	mov	x19, x4
	mov	x20, x3
	bl	memcpy
	subs	x8, x22, #20
	b.lo	.Lunix_path_BB39_9
	ldr	x9, [sp, #1192]
	cbz	x9, .Lunix_path_BB39_27
	mov	x8, #2313682944
	movk	x8, #8964, lsl #32
	movk	x8, #35527, lsl #48
	cbnz	x9, .Lunix_path_BB39_4
	b	.Lunix_path_BB39_8
.Lunix_path_BB39_3:
	ldr	x9, [sp, #1192]
	cbz	x9, .Lunix_path_BB39_8
.Lunix_path_BB39_4:
	mov	x10, xzr
	add	x11, sp, #600
	mov	x12, x9
.Lunix_path_BB39_5:
	ldr	x13, [x11]
	mul	x14, x13, x8
	umulh	x13, x13, x8
	adds	x14, x14, x10
	str	x14, [x11], #8
	cinc	x10, x13, hs
	subs	x12, x12, #1
	b.ne	.Lunix_path_BB39_5
	cbz	x10, .Lunix_path_BB39_8
	add	x11, sp, #600
	add	x12, x9, #1
	str	x10, [x11, x9, lsl #3]
	str	x12, [sp, #1192]
.Lunix_path_BB39_8:
	sub	x22, x22, #19
	cmp	x22, #19
	b.hi	.Lunix_path_BB39_3
.Lunix_path_BB39_9:
	ldr	x9, [sp, #1192]
	adrp	x23, .Lunix_path_static.46
	add	x23, x23, :lo12:.Lunix_path_static.46
	cbz	x9, .Lunix_path_BB39_28
.Lunix_path_BB39_10:
	ldr	x8, [x23, x22, lsl #3]
	mov	x10, xzr
	add	x11, sp, #600
	mov	x12, x9
.Lunix_path_BB39_11:
	ldr	x13, [x11]
	mul	x14, x13, x8
	umulh	x13, x13, x8
	adds	x14, x14, x10
	str	x14, [x11], #8
	cinc	x10, x13, hs
	subs	x12, x12, #1
	b.ne	.Lunix_path_BB39_11
	cbz	x10, .Lunix_path_BB39_14
	add	x11, sp, #600
	add	x8, x9, #1
	str	x10, [x11, x9, lsl #3]
	str	x8, [sp, #1192]
	mov	w9, #1075
	subs	x9, x9, x19
	csel	x9, xzr, x9, lo
	cmp	x9, #64
	b.hs	.Lunix_path_BB39_15
	b	.Lunix_path_BB39_22
.Lunix_path_BB39_14:
	ldr	x8, [sp, #1192]
	mov	w9, #1075
	subs	x9, x9, x19
	csel	x9, xzr, x9, lo
	cmp	x9, #64
	b.lo	.Lunix_path_BB39_22
.Lunix_path_BB39_15:
	cbnz	x8, .Lunix_path_BB39_17
	b	.Lunix_path_BB39_28
.Lunix_path_BB39_16:
	sub	x9, x9, #63
	ldr	x8, [sp, #1192]
	cmp	x9, #63
	b.ls	.Lunix_path_BB39_22
.Lunix_path_BB39_17:
	cbz	x8, .Lunix_path_BB39_16
	mov	x10, xzr
	add	x11, sp, #600
	mov	x12, x8
.Lunix_path_BB39_19:
	ldr	x13, [x11]
	subs	x12, x12, #1
	orr	x14, x10, x13, lsl #63
	lsr	x10, x13, #1
	str	x14, [x11], #8
	b.ne	.Lunix_path_BB39_19
	cbz	x10, .Lunix_path_BB39_16
	add	x11, sp, #600
	add	x12, x8, #1
	str	x10, [x11, x8, lsl #3]
	str	x12, [sp, #1192]
	b	.Lunix_path_BB39_16
.Lunix_path_BB39_22:
	cbz	x8, .Lunix_path_BB39_28
	mov	x10, xzr
	add	x11, sp, #600
	mov	x12, x8
.Lunix_path_BB39_24:
	ldr	x13, [x11]
	mvn	w15, w9
	tst	x9, #0x40
	lsr	x14, x13, #1
	lsl	x13, x13, x9
	lsr	x14, x14, x15
	csel	x15, xzr, x13, ne
	csel	x13, x13, x14, ne
	adds	x14, x15, x10
	cinc	x10, x13, hs
	subs	x12, x12, #1
	str	x14, [x11], #8
	b.ne	.Lunix_path_BB39_24
	cbz	x10, .Lunix_path_BB39_28
	add	x9, sp, #600
	add	x11, x8, #1
	str	x10, [x9, x8, lsl #3]
	str	x11, [sp, #1192]
	b	.Lunix_path_BB39_28
.Lunix_path_BB39_27:
	mov	x9, #17247
	mov	w10, #19
	movk	x9, #3449, lsl #16
	movk	x9, #13797, lsl #32
	movk	x9, #55188, lsl #48
	umulh	x9, x8, x9
	lsr	x9, x9, #4
	msub	x8, x9, x10, x8
	add	x22, x8, #1
	ldr	x9, [sp, #1192]
	adrp	x23, .Lunix_path_static.46
	add	x23, x23, :lo12:.Lunix_path_static.46
	cbnz	x9, .Lunix_path_BB39_10
.Lunix_path_BB39_28:
	mov	w22, #1
	mov	w1, wzr
	mov	w2, #584
	orr	x8, x22, x20, lsl #1
	str	x8, [sp]
	mov	x8, sp
	add	x0, x8, #8
	bl	memset
	cmp	x21, #20
	str	x22, [sp, #592]
	b.lo	.Lunix_path_BB39_37
	mov	x8, #2313682944
	mov	w22, #1
	movk	x8, #8964, lsl #32
	movk	x8, #35527, lsl #48
	b	.Lunix_path_BB39_31
.Lunix_path_BB39_30:
	sub	x21, x21, #19
	ldr	x22, [sp, #592]
	cmp	x21, #19
	b.ls	.Lunix_path_BB39_36
.Lunix_path_BB39_31:
	cbz	x22, .Lunix_path_BB39_30
	mov	x9, xzr
	mov	x10, sp
	mov	x11, x22
.Lunix_path_BB39_33:
	ldr	x12, [x10]
	mul	x13, x12, x8
	umulh	x12, x12, x8
	adds	x13, x13, x9
	str	x13, [x10], #8
	cinc	x9, x12, hs
	subs	x11, x11, #1
	b.ne	.Lunix_path_BB39_33
	cbz	x9, .Lunix_path_BB39_30
	mov	x10, sp
	add	x11, x22, #1
	str	x9, [x10, x22, lsl #3]
	str	x11, [sp, #592]
	b	.Lunix_path_BB39_30
.Lunix_path_BB39_36:
	cbz	x22, .Lunix_path_BB39_54
.Lunix_path_BB39_37:
	ldr	x8, [x23, x21, lsl #3]
	mov	x9, xzr
	mov	x10, sp
	mov	x11, x22
.Lunix_path_BB39_38:
	ldr	x12, [x10]
	mul	x13, x12, x8
	umulh	x12, x12, x8
	adds	x13, x13, x9
	str	x13, [x10], #8
	cinc	x9, x12, hs
	subs	x11, x11, #1
	b.ne	.Lunix_path_BB39_38
	cbz	x9, .Lunix_path_BB39_41
	mov	x10, sp
	add	x8, x22, #1
	str	x9, [x10, x22, lsl #3]
	str	x8, [sp, #592]
	subs	x9, x19, #1075
	csel	x9, xzr, x9, lo
	cmp	x9, #64
	b.hs	.Lunix_path_BB39_42
	b	.Lunix_path_BB39_49
.Lunix_path_BB39_41:
	ldr	x8, [sp, #592]
	subs	x9, x19, #1075
	csel	x9, xzr, x9, lo
	cmp	x9, #64
	b.lo	.Lunix_path_BB39_49
.Lunix_path_BB39_42:
	cbnz	x8, .Lunix_path_BB39_44
	b	.Lunix_path_BB39_54
.Lunix_path_BB39_43:
	sub	x9, x9, #63
	ldr	x8, [sp, #592]
	cmp	x9, #63
	b.ls	.Lunix_path_BB39_49
.Lunix_path_BB39_44:
	cbz	x8, .Lunix_path_BB39_43
	mov	x10, xzr
	mov	x11, sp
	mov	x12, x8
.Lunix_path_BB39_46:
	ldr	x13, [x11]
	subs	x12, x12, #1
	orr	x14, x10, x13, lsl #63
	lsr	x10, x13, #1
	str	x14, [x11], #8
	b.ne	.Lunix_path_BB39_46
	cbz	x10, .Lunix_path_BB39_43
	mov	x11, sp
	add	x12, x8, #1
	str	x10, [x11, x8, lsl #3]
	str	x12, [sp, #592]
	b	.Lunix_path_BB39_43
.Lunix_path_BB39_49:
	cbz	x8, .Lunix_path_BB39_54
	mov	x10, xzr
	mov	x11, sp
	mov	x12, x8
.Lunix_path_BB39_51:
	ldr	x13, [x11]
	mvn	w15, w9
	tst	x9, #0x40
	lsr	x14, x13, #1
	lsl	x13, x13, x9
	lsr	x14, x14, x15
	csel	x15, xzr, x13, ne
	csel	x13, x13, x14, ne
	adds	x14, x15, x10
	cinc	x10, x13, hs
	subs	x12, x12, #1
	str	x14, [x11], #8
	b.ne	.Lunix_path_BB39_51
	cbz	x10, .Lunix_path_BB39_55
	mov	x11, sp
	add	x9, x8, #1
	str	x10, [x11, x8, lsl #3]
	str	x9, [sp, #592]
	b	.Lunix_path_BB39_56
.Lunix_path_BB39_54:
	mov	x9, xzr
	b	.Lunix_path_BB39_56
.Lunix_path_BB39_55:
	ldr	x9, [sp, #592]
.Lunix_path_BB39_56:
	ldr	x8, [sp, #1192]
	mov	x10, sp
	add	x11, sp, #600
	cmp	x9, x8
	csel	x8, x9, x8, hi
	sub	x9, x10, #8
	sub	x10, x11, #8
.Lunix_path_BB39_57:
	cbz	x8, .Lunix_path_BB39_61
	ldr	x11, [x10, x8, lsl #3]
	ldr	x12, [x9, x8, lsl #3]
	cmp	x11, x12
	b.lo	.Lunix_path_BB39_62
	cmp	x12, x11
	sub	x8, x8, #1
	b.hs	.Lunix_path_BB39_57
	add	x8, x20, x19, lsl #52
	mov	x10, #9218868437227405312
	add	x9, x8, #1
	cmp	x9, x10
	csinc	x0, x10, x8, hs
	add	sp, sp, #1200
	ldp	x20, x19, [sp, #48]
	ldp	x22, x21, [sp, #32]
	ldp	x28, x23, [sp, #16]
	ldp	x29, x30, [sp], #64
	ret
.Lunix_path_BB39_61:
	and	x8, x20, #0x1
	add	x8, x8, x20
	add	x8, x8, x19, lsl #52
	b	.Lunix_path_BB39_63
.Lunix_path_BB39_62:
	add	x8, x20, x19, lsl #52
.Lunix_path_BB39_63:
	mov	x9, #9218868437227405312
	cmp	x8, x9
	csel	x0, x8, x9, lo
	add	sp, sp, #1200
	ldp	x20, x19, [sp, #48]
	ldp	x22, x21, [sp, #32]
	ldp	x28, x23, [sp, #16]
	ldp	x29, x30, [sp], #64
	ret
.Lunix_path_func_end39:
	.size	core.dec2flt.decimal.break_tie.1d521972340cebc2., .Lunix_path_func_end39-core.dec2flt.decimal.break_tie.1d521972340cebc2.
	.section	.text.unlikely.ryu.shortest.long_form.fb1fd16ba1bdda57.,"ax",@progbits
	.p2align	2
	.type	ryu.shortest.long_form.fb1fd16ba1bdda57.,@function
// ryu::shortest::long_form::<#fb1fd16ba1bdda57>
ryu.shortest.long_form.fb1fd16ba1bdda57.:
	mov	w8, #53509
	mov	w9, #49723
	mov	w10, #21098
	movk	w8, #4, lsl #16
	movk	w9, #1226, lsl #16
	movk	w10, #3, lsl #16
	madd	x8, x1, x8, x9
	mov	w9, #741
	mov	w11, #58980
	lsr	x8, x8, #20
	sub	x9, x9, x8
	madd	x10, x9, x10, x11
	adrp	x11, .Lunix_path_static.45
	add	x11, x11, :lo12:.Lunix_path_static.45
	add	x9, x11, x9, lsl #4
	ldp	x9, x11, [x9]
	add	x10, x1, x10, lsr #16
	mov	x1, x8
	sub	x10, x10, #2204
	lsl	x10, x0, x10
	mul	x12, x11, x10
	umulh	x9, x9, x10
	umulh	x10, x11, x10
	mov	w11, #10
	adds	x9, x9, x12
	mov	x12, #-9223372036854775808
	cinc	x10, x10, hs
	extr	x9, x10, x9, #6
	lsr	x10, x10, #6
	umulh	x11, x9, x11
	add	x10, x10, x10, lsl #2
	add	x9, x9, x9, lsl #2
	lsl	x10, x10, #1
	cmn	x12, x9, lsl #1
	adc	x0, x10, x11
	ret
.Lunix_path_func_end40:
	.size	ryu.shortest.long_form.fb1fd16ba1bdda57., .Lunix_path_func_end40-ryu.shortest.long_form.fb1fd16ba1bdda57.
	.section	.rodata.cst16,"aM",@progbits,16
	.p2align	4, 0x0
.Lunix_path_CPI41_0:
	.byte	1
	.byte	2
	.byte	4
	.byte	8
	.byte	16
	.byte	32
	.byte	64
	.byte	128
	.byte	1
	.byte	2
	.byte	4
	.byte	8
	.byte	16
	.byte	32
	.byte	64
	.byte	128
	.section	.text.unlikely.json.write.Writer.float_slowly.e23ad144bd04ea1b.,"ax",@progbits
	.p2align	2
	.type	json.write.Writer.float_slowly.e23ad144bd04ea1b.,@function
// json::write::Writer::float_slowly::<#e23ad144bd04ea1b>
json.write.Writer.float_slowly.e23ad144bd04ea1b.:
	sub	sp, sp, #128
	fmov	x8, d0
	stp	x20, x19, [sp, #112]
	mov	x19, x0
	stp	x29, x30, [sp, #64]
	add	x29, sp, #64
	stp	x24, x23, [sp, #80]
	lsr	x20, x8, #63
	ands	x1, x8, #0x7fffffffffffffff
	mov	w8, #45
	stp	x22, x21, [sp, #96]
	stur	xzr, [sp, #9]
	stur	xzr, [sp, #1]
	str	xzr, [sp, #24]
	stur	xzr, [sp, #17]
	strb	w8, [sp]
	b.eq	.Lunix_path_BB41_10
	lsr	x8, x1, #52
	stp	xzr, xzr, [x29, #-24]
	stur	xzr, [x29, #-8]
	cbz	x8, .Lunix_path_BB41_6
	ands	x9, x1, #0xfffffffffffff
	b.eq	.Lunix_path_BB41_6
	sub	x10, x8, #1
	mov	w8, #53509
	mov	w11, #6406
	movk	w8, #4, lsl #16
	movk	w11, #1227, lsl #16
	mov	w12, #21098
	smaddl	x8, w10, w8, x11
	mov	w11, #741
	movk	w12, #3, lsl #16
	mov	w13, #58980
	orr	x9, x9, #0x10000000000000
	mov	w14, #2211
	lsr	x8, x8, #20
	sub	x11, x11, x8
	umaddl	x12, w11, w12, x13
	add	x10, x10, x12, lsr #16
	adrp	x12, .Lunix_path_static.45
	add	x12, x12, :lo12:.Lunix_path_static.45
	add	x11, x12, x11, lsl #4
	sub	x12, x10, #2204
	sub	x10, x14, x10
	lsl	x9, x9, x12
	ldp	x11, x12, [x11]
	mul	x13, x12, x9
	lsr	x10, x12, x10
	umulh	x11, x11, x9
	umulh	x9, x12, x9
	mov	x12, #-3689348814741910324
	movk	x12, #52449
	movk	x12, #3276, lsl #48
	adds	x11, x11, x13
	cinc	x9, x9, hs
	cmp	x10, x12
	b.lo	.Lunix_path_BB41_6
	extr	x11, x9, x11, #6
	add	x12, x10, x11
	sub	x13, x10, x11
	sub	x12, x12, #1
	cmn	x12, #3
	ccmp	x13, #1, #0, ls
	b.ls	.Lunix_path_BB41_6
	mov	w12, #10
	mov	x13, #4611686018427387904
	add	x14, x11, x11, lsl #2
	umulh	x12, x11, x12
	cmp	x11, x13
	mov	x13, #6
	movk	x13, #32768, lsl #48
	lsr	x9, x9, #6
	cset	w15, eq
	cmn	x13, x14, lsl #1
	cinc	x12, x12, hs
	cmn	x11, x10
	cset	w13, hs
	cinc	x9, x9, hs
	cmp	x10, x11
	csinc	w10, w13, wzr, ls
	sub	x11, x12, x15
	cmp	w10, #0
	csel	x10, xzr, x11, ne
	b	.Lunix_path_BB41_7
.Lunix_path_BB41_6:
	sub	x0, x29, #24
	bl	ryu.shortest.shortest_slowly.fb1fd16ba1bdda57.
	ldp	x9, x10, [x29, #-24]
	ldur	x8, [x29, #-8]
.Lunix_path_BB41_7:
	mov	x11, #52989
	mov	w12, #57600
	mov	w13, #47291
	movk	x11, #33889, lsl #16
	movk	w12, #1525, lsl #16
	movk	w13, #1677, lsl #16
	movk	x11, #30481, lsl #32
	mov	x15, #-65535
	mov	x16, #4294967296
	movk	x11, #43980, lsl #48
	movk	x15, #55536, lsl #16
	movk	x16, #55536, lsl #48
	umulh	x11, x9, x11
	movi	v0.2d, #0000000000000000
	mov	x17, #1125899906809856
	movk	x17, #42182, lsl #16
	tst	w10, #0xff
	add	w10, w10, #48
	movk	x17, #36222, lsl #32
	lsr	x11, x11, #26
	msub	x12, x11, x12, x9
	mul	x14, x11, x13
	mul	x13, x12, x13
	lsl	x12, x12, #48
	lsr	x14, x14, #40
	add	x11, x12, x11, lsl #16
	mov	w12, #65536
	smaddl	x11, w14, w15, x11
	lsr	x13, x13, #40
	madd	x11, x13, x16, x11
	csel	x13, xzr, x12, eq
	cmp	x9, x17
	cset	w15, lo
	sub	x12, x8, x15
	sub	x14, x12, #384
	mov	v0.d[0], x11
	mov	w11, #5243
	dup	v2.8h, w11
	mov	w11, #52429
	ushr	v1.8h, v0.8h, #2
	umull2	v3.4s, v1.8h, v2.8h
	umull	v1.4s, v1.4h, v2.4h
	mvni	v2.8h, #99
	uzp2	v1.8h, v1.8h, v3.8h
	ushr	v1.8h, v1.8h, #1
	mla	v0.8h, v1.8h, v2.8h
	zip1	v0.8h, v1.8h, v0.8h
	dup	v1.8h, w11
	mov	w11, #62977
	umull2	v2.4s, v0.8h, v1.8h
	umull	v1.4s, v0.4h, v1.4h
	shl	v0.8h, v0.8h, #8
	uzp2	v1.8h, v1.8h, v2.8h
	dup	v2.8h, w11
	adrp	x11, .Lunix_path_CPI41_0
	ushr	v1.8h, v1.8h, #3
	mla	v0.8h, v1.8h, v2.8h
	ldr	q2, [x11, :lo12:.Lunix_path_CPI41_0]
	cmeq	v1.16b, v0.16b, #0
	bic	v1.16b, v2.16b, v1.16b
	addp	v1.16b, v1.16b, v1.16b
	addp	v1.16b, v1.16b, v1.16b
	addp	v1.16b, v1.16b, v1.16b
	umov	w11, v1.h[0]
	movi	v1.16b, #48
	bfxil	x13, x11, #0, #16
	add	v0.16b, v0.16b, v1.16b
	csetm	x11, lo
	cmp	x14, #15
	mov	w14, #64
	clz	x13, x13
	sub	x14, x14, x13
	b.hi	.Lunix_path_BB41_11
	sub	x8, x8, #383
	cmp	x8, x14
	b.hs	.Lunix_path_BB41_13
	add	x9, x8, x8, lsl #4
	adrp	x12, .Lunix_path_static.47
	add	x12, x12, :lo12:.Lunix_path_static.47
	add	x9, x12, x9
	add	x9, x9, x15
	ldur	q1, [x9, #-17]
	mov	x9, sp
	orr	x9, x9, x20
	tbl	v1.16b, { v0.16b }, v1.16b
	add	x12, x9, x11
	add	x11, x20, x11
	strb	w10, [x12, #17]
	add	x10, x11, x14
	stur	q0, [x12, #1]
	add	x20, x10, #1
	str	q1, [x9]
	mov	w9, #46
	strb	w9, [x12, x8]
	b	.Lunix_path_BB41_15
.Lunix_path_BB41_10:
	mov	x8, sp
	mov	w9, #11824
	mov	w10, #48
	orr	x8, x8, x20
	add	x20, x20, #3
	strh	w9, [x8]
	strb	w10, [x8, #2]
	b	.Lunix_path_BB41_15
.Lunix_path_BB41_11:
	add	x16, x12, #17
	mov	x12, sp
	sub	x13, x16, #396
	cmp	x13, #4
	orr	x13, x12, x20
	b.hi	.Lunix_path_BB41_14
	sub	x8, x20, x8
	mov	w11, #46
	str	q1, [x13]
	add	x8, x8, #385
	add	x9, x12, x8
	add	x20, x14, x8
	str	q0, [x9]
	strb	w10, [x9, #16]
	strb	w11, [x13, #1]
	b	.Lunix_path_BB41_15
.Lunix_path_BB41_13:
	adrp	x9, .Lunix_path_static.47
	add	x9, x9, :lo12:.Lunix_path_static.47
	add	x13, x20, x11
	add	x9, x9, x15
	add	x8, x13, x8
	ldur	q1, [x9, #255]
	mov	x9, sp
	orr	x12, x9, x20
	add	x20, x8, #2
	tbl	v0.16b, { v0.16b }, v1.16b
	add	x11, x12, x11
	str	q0, [x12]
	strb	w10, [x11, #16]
	mov	w10, #12334
	strh	w10, [x9, x8]
	b	.Lunix_path_BB41_15
.Lunix_path_BB41_14:
	mov	w8, #17
	adrp	x18, .Lunix_path_static.47
	add	x18, x18, :lo12:.Lunix_path_static.47
	lsl	x8, x8, x15
	cmp	x9, x17
	add	x9, x18, x15
	mov	w17, #1
	sub	x14, x14, x15
	mov	w15, #401
	add	x8, x9, x8
	sub	x9, x16, #1
	cinc	x17, x17, lo
	add	x18, x14, x20
	cmp	x14, #1
	mov	w14, #65135
	sub	w15, w15, w16
	add	w14, w16, w14
	cinc	x16, x18, hi
	cmp	x9, #400
	ldur	q1, [x8, #-17]
	mov	w18, #46
	csel	x8, x15, x14, lo
	mov	w14, #52429
	add	x15, x13, x11
	and	w9, w8, #0xffff
	tbl	v1.16b, { v0.16b }, v1.16b
	stur	q0, [x15, #1]
	mul	w14, w9, w14
	strb	w10, [x15, #17]
	add	x15, x13, x17
	mov	w17, #5243
	lsr	w10, w14, #19
	str	q1, [x13]
	mov	w14, #6554
	strb	w18, [x15, x11]
	ubfx	w11, w8, #2, #14
	mov	w15, #101
	mul	w13, w10, w14
	add	x14, x12, x16
	mov	w18, #43
	mul	w11, w11, w17
	mov	w17, #45
	strb	w15, [x14]
	csel	w15, w17, w18, lo
	add	x17, x16, #2
	cmp	w9, #99
	lsr	w13, w13, #16
	mov	w18, #10
	add	x16, x16, #3
	lsr	w11, w11, #17
	strb	w15, [x14, #1]
	csel	x14, x17, x16, ls
	msub	w13, w13, w18, w10
	cmp	w9, #9
	msub	w8, w10, w18, w8
	add	w9, w11, #48
	strb	w9, [x12, x17]
	cinc	x9, x14, hi
	add	x20, x9, #1
	orr	w10, w13, #0x30
	strb	w10, [x12, x14]
	orr	w8, w8, #0x30
	strb	w8, [x12, x9]
.Lunix_path_BB41_15:
	ldr	x9, [x19, #8]
	ldr	x8, [x19, #24]
	add	x10, x20, #1
	ldrb	w21, [x19, #40]
	sub	x9, x9, x8
	cmp	x10, x9
	b.hi	.Lunix_path_BB41_21
	ldr	x22, [x19]
	cmp	x20, #33
	add	x21, x8, x21
	mov	w9, #44
	strb	w9, [x22, x8]
	b.lo	.Lunix_path_BB41_24
.Lunix_path_BB41_17:
	subs	x8, x20, #65
	b.lo	.Lunix_path_BB41_19
	and	x24, x8, #0xffffffffffffffe0
	add	x0, x22, x21
	mov	x1, sp
	add	x2, x24, #32
	add	x23, x24, #32
	bl	memcpy
	sub	x8, x20, x24
	sub	x8, x8, #32
	b	.Lunix_path_BB41_20
.Lunix_path_BB41_19:
	mov	x23, xzr
	mov	x8, x20
.Lunix_path_BB41_20:
	mov	x9, sp
	sub	x8, x8, #32
	add	x10, x22, x23
	add	x9, x9, x23
	add	x10, x10, x21
	add	x21, x21, x20
	ldp	q1, q0, [x9]
	add	x9, x9, x8
	add	x8, x10, x8
	stp	q1, q0, [x10]
	ldp	q0, q2, [x9]
	stp	q0, q2, [x8]
	b	.Lunix_path_BB41_34
.Lunix_path_BB41_21:
	add	x1, x20, #1
	mov	x0, x19
	bl	json.write.sink.Sink.grow.2df68bf702f5d045.
	and	w8, w0, #0xff
	tbz	w8, #0, .Lunix_path_BB41_23
	mov	w0, #1
	ldp	x20, x19, [sp, #112]
	ldp	x22, x21, [sp, #96]
	ldp	x24, x23, [sp, #80]
	ldp	x29, x30, [sp, #64]
	add	sp, sp, #128
	ret
.Lunix_path_BB41_23:
	ldr	x8, [x19, #24]
	ldr	x22, [x19]
	cmp	x20, #33
	add	x21, x8, x21
	mov	w9, #44
	strb	w9, [x22, x8]
	b.hs	.Lunix_path_BB41_17
.Lunix_path_BB41_24:
	subs	x8, x20, #16
	b.lo	.Lunix_path_BB41_26
	ldr	q0, [sp]
	mov	x10, sp
	add	x9, x22, x21
	ldr	q1, [x10, x8]
	add	x21, x21, x20
	str	q0, [x9]
	str	q1, [x9, x8]
	b	.Lunix_path_BB41_34
.Lunix_path_BB41_26:
	subs	x8, x20, #8
	b.lo	.Lunix_path_BB41_28
	ldr	d0, [sp]
	mov	x10, sp
	add	x9, x22, x21
	ldr	d1, [x10, x8]
	add	x21, x21, x20
	str	d0, [x9]
	str	d1, [x9, x8]
	b	.Lunix_path_BB41_34
.Lunix_path_BB41_28:
	subs	x8, x20, #4
	b.lo	.Lunix_path_BB41_30
	ldr	w9, [sp]
	mov	x11, sp
	add	x10, x22, x21
	ldr	w11, [x11, x8]
	add	x21, x21, x20
	str	w9, [x10]
	str	w11, [x10, x8]
	b	.Lunix_path_BB41_34
.Lunix_path_BB41_30:
	subs	x8, x20, #2
	b.lo	.Lunix_path_BB41_32
	mov	x9, sp
	ldr	h0, [sp]
	ldr	h1, [x9, x8]
	add	x9, x22, x21
	add	x21, x21, x20
	ushll	v0.8h, v0.8b, #0
	add	x8, x9, x8
	ushll	v1.8h, v1.8b, #0
	ushll	v0.4s, v0.4h, #0
	ushll	v1.4s, v1.4h, #0
	mov	s2, v0.s[1]
	str	b0, [x9]
	mov	s3, v1.s[1]
	stur	b2, [x9, #1]
	str	b1, [x8]
	stur	b3, [x8, #1]
	b	.Lunix_path_BB41_34
.Lunix_path_BB41_32:
	cmp	x20, #1
	b.ne	.Lunix_path_BB41_34
	ldrb	w8, [sp]
	strb	w8, [x22, x21]
	add	x21, x21, #1
.Lunix_path_BB41_34:
	mov	w0, wzr
	mov	w8, #1
	str	x21, [x19, #24]
	strb	w8, [x19, #40]
	ldp	x20, x19, [sp, #112]
	ldp	x22, x21, [sp, #96]
	ldp	x24, x23, [sp, #80]
	ldp	x29, x30, [sp, #64]
	add	sp, sp, #128
	ret
.Lunix_path_func_end41:
	.size	json.write.Writer.float_slowly.e23ad144bd04ea1b., .Lunix_path_func_end41-json.write.Writer.float_slowly.e23ad144bd04ea1b.
	.section	.text.std_collections.btree.iter.Cursor.advance.dd2386031c731943.,"ax",@progbits
	.p2align	2
	.type	std_collections.btree.iter.Cursor.advance.dd2386031c731943.,@function
// std_collections::btree::iter::Cursor::advance::<#dd2386031c731943>
std_collections.btree.iter.Cursor.advance.dd2386031c731943.:
	cmn	x1, #1
	b.eq	.Lunix_path_BB42_3
	ldr	x8, [x2]
	and	x9, x1, #0xf
	ldrh	w10, [x8]
	cmp	x9, x10
	b.hs	.Lunix_path_BB42_5
	mov	w10, #24
	mov	w12, #1
	mov	x3, x2
	umaddl	x10, w9, w10, x8
	add	x8, x8, x9, lsl #5
	add	x9, x8, #368
	add	x8, x1, #1
	add	x10, x10, #8
	cmp	x8, x4
	b.ne	.Lunix_path_BB42_15
	b	.Lunix_path_BB42_20
.Lunix_path_BB42_3:
	ldr	x11, [x3]
	ldrh	w8, [x11, #2]
	cmp	w8, #1
	b.ne	.Lunix_path_BB42_17
	mov	x12, xzr
	mov	x10, xzr
	mov	x9, xzr
	mov	x8, xzr
	cmp	xzr, x4
	b.ne	.Lunix_path_BB42_15
	b	.Lunix_path_BB42_20
.Lunix_path_BB42_5:
	ldr	x9, [x3]
	ldrh	w14, [x9, #2]
	cmp	w14, #1
	b.eq	.Lunix_path_BB42_16
	mov	x12, xzr
	mov	x8, xzr
	mov	x11, xzr
	mov	w10, wzr
	mov	x13, xzr
.Lunix_path_BB42_7:
	ubfiz	x14, x14, #2, #32
	sub	x14, x14, #4
	lsr	x14, x1, x14
	and	x15, x14, #0xf
	ldrh	w14, [x9]
	add	x16, x9, x15, lsl #3
	cmp	x15, x14
	ldr	x9, [x16, #848]
	csel	x8, x8, x13, hs
	orr	x13, x15, x13, lsl #4
	csel	x11, x11, x3, hs
	csinc	w10, w10, wzr, hs
	csel	x12, x12, x15, hs
	ldrh	w14, [x9, #2]
	add	x3, x16, #848
	cmp	w14, #1
	b.ne	.Lunix_path_BB42_7
	cbz	w10, .Lunix_path_BB42_16
	mov	w9, #24
	ldr	x13, [x11]
	madd	x9, x12, x9, x13
	ldrh	w10, [x13, #2]
	add	x14, x13, x12, lsl #5
	add	x12, x12, #1
	cmp	w10, #1
	add	x10, x9, #8
	add	x9, x14, #368
	b.eq	.Lunix_path_BB42_14
	lsl	x11, x12, #3
	add	x8, x12, x8, lsl #4
	add	x14, x13, x11
	ldr	x14, [x14, #848]
	ldrh	w15, [x14, #2]
	cmp	w15, #1
	b.eq	.Lunix_path_BB42_13
.Lunix_path_BB42_11:
	mov	x13, x14
	ldr	x14, [x14, #848]
	lsl	x8, x8, #4
	ldrh	w11, [x14, #2]
	cmp	w11, #1
	b.ne	.Lunix_path_BB42_11
	mov	x11, xzr
.Lunix_path_BB42_13:
	add	x11, x13, x11
	mov	x12, xzr
	add	x11, x11, #848
.Lunix_path_BB42_14:
	add	x8, x12, x8, lsl #4
	mov	w12, #1
	mov	x3, x11
	cmp	x8, x4
	b.eq	.Lunix_path_BB42_20
.Lunix_path_BB42_15:
	stp	x12, x10, [x0]
	mov	w10, #1
	stp	x9, x10, [x0, #16]
	stp	x8, x3, [x0, #32]
	ret
.Lunix_path_BB42_16:
	movi	v0.2d, #0000000000000000
	stp	q0, q0, [x0, #16]
	str	q0, [x0]
	ret
.Lunix_path_BB42_17:
	ldr	x8, [x11, #848]
	ldrh	w9, [x8, #2]
	cmp	w9, #1
	b.eq	.Lunix_path_BB42_19
.Lunix_path_BB42_18:
	mov	x11, x8
	ldr	x8, [x8, #848]
	ldrh	w9, [x8, #2]
	cmp	w9, #1
	b.ne	.Lunix_path_BB42_18
.Lunix_path_BB42_19:
	mov	x12, xzr
	mov	x10, xzr
	mov	x9, xzr
	mov	x8, xzr
	add	x3, x11, #848
	cmp	xzr, x4
	b.ne	.Lunix_path_BB42_15
.Lunix_path_BB42_20:
	stp	x12, x10, [x0]
	stp	x9, xzr, [x0, #16]
	stp	xzr, xzr, [x0, #32]
	ret
.Lunix_path_func_end42:
	.size	std_collections.btree.iter.Cursor.advance.dd2386031c731943., .Lunix_path_func_end42-std_collections.btree.iter.Cursor.advance.dd2386031c731943.
	.section	.text.simdutf8.last_block,"ax",@progbits
	.p2align	2
	.type	simdutf8.last_block,@function
// simdutf8::last_block
simdutf8.last_block:
	stp	x29, x30, [sp, #-32]!
	sub	x9, sp, #96
	str	x19, [sp, #16]
	mov	x29, sp
	and	sp, x9, #0xffffffffffffffc0
	movi	v0.2d, #0000000000000000
	mov	x19, x0
	sub	x2, x2, x3
	mov	x0, sp
	add	x1, x1, x3
	stp	q0, q0, [sp]
	stp	q0, q0, [sp, #32]
	bl	memcpy
	ldp	q1, q0, [sp, #32]
	stp	q1, q0, [x19, #32]
	ldp	q2, q0, [sp]
	stp	q2, q0, [x19]
	mov	sp, x29
	ldr	x19, [sp, #16]
	ldp	x29, x30, [sp], #32
	ret
.Lunix_path_func_end43:
	.size	simdutf8.last_block, .Lunix_path_func_end43-simdutf8.last_block
	.section	.text.core.str.utf8.from_utf8,"ax",@progbits
	.p2align	2
	.type	core.str.utf8.from_utf8,@function
// core::str::utf8::from_utf8
core.str.utf8.from_utf8:
	sub	sp, sp, #64
	stp	x22, x21, [sp, #32]
	mov	x21, x1
	stp	x20, x19, [sp, #48]
	mov	x20, x2
	mov	x19, x0
	stp	x29, x30, [sp, #16]
	add	x29, sp, #16
	cbz	x2, .Lunix_path_BB44_51
	mov	x9, xzr
	sub	x22, x20, #8
	b	.Lunix_path_BB44_6
.Lunix_path_BB44_2:
	and	w11, w11, #0xff
	tbnz	w11, #7, .Lunix_path_BB44_23
.Lunix_path_BB44_3:
	mov	w12, #1
.Lunix_path_BB44_4:
	add	x8, x12, x9
.Lunix_path_BB44_5:
	cmp	x8, x20
	mov	x9, x8
	b.hs	.Lunix_path_BB44_51
.Lunix_path_BB44_6:
	add	x8, x21, x9
	sub	x10, x20, x9
	ldrsb	w11, [x8]
	cmp	x10, #2
	b.lo	.Lunix_path_BB44_2
	tbnz	w11, #31, .Lunix_path_BB44_2
	ldrsb	w11, [x8, #1]
	tbnz	w11, #31, .Lunix_path_BB44_3
	cmp	x10, #7
	stp	x21, x20, [sp]
	b.hi	.Lunix_path_BB44_28
	ldrsb	w8, [x21, x9]
	tbnz	w8, #31, .Lunix_path_BB44_43
	add	x8, x9, #1
	cmp	x8, x20
	b.eq	.Lunix_path_BB44_51
	ldrsb	w10, [x21, x8]
	tbnz	w10, #31, .Lunix_path_BB44_5
	add	x8, x9, #2
	cmp	x8, x20
	b.eq	.Lunix_path_BB44_51
	ldrsb	w10, [x21, x8]
	tbnz	w10, #31, .Lunix_path_BB44_5
	add	x8, x9, #3
	cmp	x8, x20
	b.eq	.Lunix_path_BB44_51
	ldrsb	w10, [x21, x8]
	tbnz	w10, #31, .Lunix_path_BB44_5
	add	x8, x9, #4
	cmp	x8, x20
	b.eq	.Lunix_path_BB44_51
	ldrsb	w10, [x21, x8]
	tbnz	w10, #31, .Lunix_path_BB44_5
	add	x8, x9, #5
	cmp	x8, x20
	b.eq	.Lunix_path_BB44_51
	ldrsb	w10, [x21, x8]
	tbnz	w10, #31, .Lunix_path_BB44_5
	add	x8, x9, #6
	cmp	x8, x20
	b.eq	.Lunix_path_BB44_51
	ldrsb	w9, [x21, x8]
	tbnz	w9, #31, .Lunix_path_BB44_5
	b	.Lunix_path_BB44_51
.Lunix_path_BB44_23:
	cmp	w11, #194
	b.lo	.Lunix_path_BB44_59
	cmp	w11, #223
	b.hi	.Lunix_path_BB44_36
	cmp	x10, #2
	b.lo	.Lunix_path_BB44_58
	ldrsb	w12, [x8, #1]
	cmn	w12, #65
	b.gt	.Lunix_path_BB44_55
	mov	w12, #2
	b	.Lunix_path_BB44_4
.Lunix_path_BB44_28:
	ldr	x8, [x8]
	mov	w10, #8
	ands	x8, x8, #0x8080808080808080
	rbit	x8, x8
	clz	x8, x8
	lsr	x8, x8, #3
	csel	x8, x10, x8, eq
	add	x8, x8, x9
	add	x9, x9, #8
	cmp	x8, x9
	b.lo	.Lunix_path_BB44_5
	sub	x9, x20, x8
	cmp	x9, #32
	b.lo	.Lunix_path_BB44_32
.Lunix_path_BB44_30:
	add	x9, x21, x8
	ldp	q1, q0, [x9]
	orr	v0.16b, v1.16b, v0.16b
	ext	v1.16b, v0.16b, v0.16b, #8
	orr	v0.8b, v0.8b, v1.8b
	fmov	x9, d0
	tst	x9, #0x8080808080808080
	b.ne	.Lunix_path_BB44_32
	mov	x0, sp
	add	x1, x8, #32
	mov	x2, x20
	bl	core.slice.words.skip_far.52f9edcae2f82f51.
	sub	x9, x20, x0
	mov	x8, x0
	cmp	x9, #31
	b.hi	.Lunix_path_BB44_30
.Lunix_path_BB44_32:
	sub	x9, x20, x8
.Lunix_path_BB44_33:
	cmp	x9, #9
	b.lo	.Lunix_path_BB44_50
	ldr	x10, [x21, x8]
	mov	w11, #8
	sub	x9, x9, #8
	ands	x10, x10, #0x8080808080808080
	rbit	x10, x10
	clz	x10, x10
	lsr	x10, x10, #3
	csel	x10, x11, x10, eq
	add	x11, x10, x8
	add	x8, x8, #8
	cmp	x11, x8
	b.hs	.Lunix_path_BB44_33
	add	x8, x10, x8
	sub	x8, x8, #8
	b	.Lunix_path_BB44_5
.Lunix_path_BB44_36:
	cmp	w11, #239
	b.hi	.Lunix_path_BB44_44
	cmp	x10, #3
	b.lo	.Lunix_path_BB44_53
	ldrsb	w12, [x8, #1]
	cmn	w12, #65
	b.gt	.Lunix_path_BB44_55
	ldrsb	w13, [x8, #2]
	cmn	w13, #65
	b.gt	.Lunix_path_BB44_55
	and	w13, w12, #0xff
	mov	w14, #-14464
	add	w13, w13, w11, lsl #6
	add	w13, w13, w14
	cmp	w13, #32
	b.lo	.Lunix_path_BB44_55
	cmp	w13, #896
	mov	w12, #3
	csel	x14, xzr, x12, lo
	cmp	w13, #864
	b.lo	.Lunix_path_BB44_4
	mov	x12, x14
	b	.Lunix_path_BB44_49
.Lunix_path_BB44_43:
	mov	x8, x9
	b	.Lunix_path_BB44_5
.Lunix_path_BB44_44:
	cmp	x10, #4
	b.lo	.Lunix_path_BB44_52
	ldrsb	w12, [x8, #1]
	cmn	w12, #65
	b.gt	.Lunix_path_BB44_52
	ldrsb	w13, [x8, #2]
	cmn	w13, #65
	b.gt	.Lunix_path_BB44_52
	ldrsb	w13, [x8, #3]
	cmn	w13, #65
	b.gt	.Lunix_path_BB44_52
	and	w12, w12, #0xff
	mov	w13, #-15488
	add	w12, w12, w11, lsl #6
	add	w13, w12, w13
	mov	w12, #4
	cmp	w13, #272
	csel	x12, x12, xzr, lo
	cmp	w13, #16
	b.lo	.Lunix_path_BB44_52
.Lunix_path_BB44_49:
	cbnz	x12, .Lunix_path_BB44_4
	b	.Lunix_path_BB44_52
.Lunix_path_BB44_50:
	ldr	x8, [x21, x22]
	mov	w9, #8
	ands	x8, x8, #0x8080808080808080
	rbit	x8, x8
	clz	x8, x8
	lsr	x8, x8, #3
	csel	x8, x9, x8, eq
	add	x8, x8, x22
	b	.Lunix_path_BB44_5
.Lunix_path_BB44_51:
	stp	xzr, x21, [x19]
	str	x20, [x19, #16]
	ldp	x20, x19, [sp, #48]
	ldp	x22, x21, [sp, #32]
	ldp	x29, x30, [sp, #16]
	add	sp, sp, #64
	ret
.Lunix_path_BB44_52:
	cmp	w11, #244
	b.hi	.Lunix_path_BB44_59
.Lunix_path_BB44_53:
	cmp	x10, #2
	b.lo	.Lunix_path_BB44_58
	ldrb	w12, [x8, #1]
.Lunix_path_BB44_55:
	cmp	w11, #240
	mov	w13, #-128
	mov	w14, #-112
	mov	w15, #-96
	csel	w13, w14, w13, eq
	cmp	w11, #224
	mov	w14, #-65
	csel	w13, w15, w13, eq
	mov	w15, #-113
	cmp	w11, #244
	and	w16, w13, #0xf0
	csel	w13, w15, w14, eq
	cmp	w11, #237
	mov	w11, #-97
	csel	w13, w11, w13, eq
	cmp	w16, w12, uxtb
	mov	w11, #257
	b.hi	.Lunix_path_BB44_60
	and	w12, w12, #0xff
	cmp	w12, w13, uxtb
	b.hi	.Lunix_path_BB44_60
	cmp	x10, #2
	b.ne	.Lunix_path_BB44_61
.Lunix_path_BB44_58:
	mov	x11, xzr
	b	.Lunix_path_BB44_60
.Lunix_path_BB44_59:
	mov	w11, #257
.Lunix_path_BB44_60:
	mov	w8, #1
	str	x11, [x19, #16]
	stp	x8, x9, [x19]
	ldp	x20, x19, [sp, #48]
	ldp	x22, x21, [sp, #32]
	ldp	x29, x30, [sp, #16]
	add	sp, sp, #64
	ret
.Lunix_path_BB44_61:
	ldrsb	w8, [x8, #2]
	cmn	w8, #65
	b.gt	.Lunix_path_BB44_63
	cmp	x10, #3
	mov	w8, #769
	csel	x11, x8, xzr, hi
	b	.Lunix_path_BB44_60
.Lunix_path_BB44_63:
	mov	w11, #513
	b	.Lunix_path_BB44_60
.Lunix_path_func_end44:
	.size	core.str.utf8.from_utf8, .Lunix_path_func_end44-core.str.utf8.from_utf8
	.section	.text.core.slice.words.skip_far.52f9edcae2f82f51.,"ax",@progbits
	.p2align	2
	.type	core.slice.words.skip_far.52f9edcae2f82f51.,@function
// core::slice::words::skip_far::<#52f9edcae2f82f51>
core.slice.words.skip_far.52f9edcae2f82f51.:
	sub	x8, x2, x1
	cmp	x8, #64
	b.lo	.Lunix_path_BB45_4
	ldr	x9, [x0]
.Lunix_path_BB45_2:
	add	x10, x9, x1
	ldp	q0, q1, [x10, #32]
	ldp	q2, q3, [x10]
	orr	v1.16b, v3.16b, v1.16b
	orr	v0.16b, v2.16b, v0.16b
	orr	v0.16b, v0.16b, v1.16b
	ext	v1.16b, v0.16b, v0.16b, #8
	orr	v0.8b, v0.8b, v1.8b
	fmov	x10, d0
	tst	x10, #0x8080808080808080
	b.ne	.Lunix_path_BB45_4
	sub	x8, x8, #64
	add	x1, x1, #64
	cmp	x8, #63
	b.hi	.Lunix_path_BB45_2
.Lunix_path_BB45_4:
	mov	x0, x1
	ret
.Lunix_path_func_end45:
	.size	core.slice.words.skip_far.52f9edcae2f82f51., .Lunix_path_func_end45-core.slice.words.skip_far.52f9edcae2f82f51.
	.section	.text.pathtool.serde_json.value.Value.Destruct.drop,"ax",@progbits
	.p2align	2
	.type	pathtool.serde_json.value.Value.Destruct.drop,@function
// pathtool::serde_json++value++Value+Destruct::drop
pathtool.serde_json.value.Value.Destruct.drop:
	sub	sp, sp, #96
	ldrb	w8, [x0]
	stp	x29, x30, [sp, #32]
	add	x29, sp, #32
	str	x23, [sp, #48]
	cmp	w8, #2
	stp	x22, x21, [sp, #64]
	stp	x20, x19, [sp, #80]
	b.gt	.Lunix_path_BB46_2
.Lunix_path_BB46_1:
	ldp	x20, x19, [sp, #80]
	ldr	x23, [sp, #48]
	ldp	x22, x21, [sp, #64]
	ldp	x29, x30, [sp, #32]
	add	sp, sp, #96
	ret
.Lunix_path_BB46_2:
	ldp	x19, x20, [x0, #8]
	cmp	w8, #5
	b.eq	.Lunix_path_BB46_9
	ldr	x21, [x0, #24]
	cmp	w8, #4
	b.ne	.Lunix_path_BB46_7
	cbz	x20, .Lunix_path_BB46_7
	mov	x22, sp
	mov	x23, x19
.Lunix_path_BB46_6:
	ldrh	w8, [x23]
	ldur	q0, [x23, #8]
	mov	x0, sp
	ldr	x9, [x23, #24]
	str	xzr, [sp]
	strh	w8, [sp]
	stur	q0, [x22, #8]
	stur	x9, [x22, #24]
	bl	pathtool.serde_json.value.Value.Destruct.drop
	subs	x20, x20, #1
	add	x23, x23, #32
	b.ne	.Lunix_path_BB46_6
.Lunix_path_BB46_7:
	cbz	x21, .Lunix_path_BB46_1
	mov	x0, x19
	ldp	x20, x19, [sp, #80]
	ldp	x22, x21, [sp, #64]
	ldr	x23, [sp, #48]
	ldp	x29, x30, [sp, #32]
	add	sp, sp, #96
	b	rattle_dealloc
.Lunix_path_BB46_9:
	and	x8, x19, #0xff
	cmp	x8, #1
	b.ne	.Lunix_path_BB46_1
	mov	x0, x20
	ldp	x20, x19, [sp, #80]
	ldp	x22, x21, [sp, #64]
	ldr	x23, [sp, #48]
	ldp	x29, x30, [sp, #32]
	add	sp, sp, #96
	b	std_collections.btree.node.Node.destroy.60b19ca0713cc2a9.
.Lunix_path_func_end46:
	.size	pathtool.serde_json.value.Value.Destruct.drop, .Lunix_path_func_end46-pathtool.serde_json.value.Value.Destruct.drop
	.section	.text.std_collections.btree.node.Node.destroy.60b19ca0713cc2a9.,"ax",@progbits
	.p2align	2
	.type	std_collections.btree.node.Node.destroy.60b19ca0713cc2a9.,@function
// std_collections::btree::node::Node::destroy::<#60b19ca0713cc2a9>
std_collections.btree.node.Node.destroy.60b19ca0713cc2a9.:
	sub	sp, sp, #192
	stp	x22, x21, [sp, #160]
	ldrh	w8, [x0, #2]
	ldrh	w21, [x0]
	stp	x20, x19, [sp, #176]
	mov	x19, x0
	add	x22, x0, #8
	stp	x29, x30, [sp, #96]
	add	x29, sp, #96
	stp	x28, x27, [sp, #112]
	stp	x26, x25, [sp, #128]
	stp	x24, x23, [sp, #144]
	stp	xzr, xzr, [sp]
	stur	xzr, [sp, #22]
	str	xzr, [sp, #16]
	cbz	w8, .Lunix_path_BB47_35
	cbz	w21, .Lunix_path_BB47_33
	mov	w8, #24
	mov	x9, sp
	add	x23, x21, #1
	umaddl	x8, w21, w8, x19
	sub	x26, x29, #32
	orr	x28, x9, #0x6
	sub	x24, x21, #86
	sub	x25, x8, #16
	b	.Lunix_path_BB47_4
.Lunix_path_BB47_3:
	ldr	q0, [x28]
	ldr	x8, [x28, #16]
	sub	x0, x29, #32
	sturb	w27, [x29, #-32]
	sturb	w20, [x29, #-31]
	stur	q0, [x26, #8]
	stur	x8, [x26, #24]
	bl	pathtool.serde_json.value.Value.Destruct.drop
	sub	x24, x24, #1
	sub	x25, x25, #24
	cbz	x21, .Lunix_path_BB47_33
.Lunix_path_BB47_4:
	add	x8, x19, #848
	sub	x23, x23, #1
	ldr	x20, [x8]
	cmp	x23, #257
	b.lo	.Lunix_path_BB47_20
	mov	x8, xzr
	add	x9, x19, #872
.Lunix_path_BB47_6:
	mov	w10, #256
	mov	x11, x9
.Lunix_path_BB47_7:
	ldp	q0, q1, [x11, #-16]
	subs	x10, x10, #4
	stur	q0, [x11, #-24]
	stur	q1, [x11, #-8]
	add	x11, x11, #32
	b.ne	.Lunix_path_BB47_7
	add	x8, x8, #256
	add	x9, x9, #2048
	sub	x10, x23, x8
	cmp	x10, #256
	b.hi	.Lunix_path_BB47_6
	cmp	x23, x8
	b.eq	.Lunix_path_BB47_11
.Lunix_path_BB47_10:
	add	x9, x19, #848
	lsl	x2, x10, #3
	add	x0, x9, x8, lsl #3
	add	x1, x0, #8
	bl	memmove
.Lunix_path_BB47_11:
	mov	x0, x20
	bl	std_collections.btree.node.Node.destroy.60b19ca0713cc2a9.
	sub	x21, x21, #1
	ldr	x14, [x19, #8]
	ldr	x15, [x19, #24]
	mov	x10, xzr
	cmp	x21, #86
	add	x0, x19, #8
	mov	x11, x21
	stp	xzr, xzr, [sp, #32]
	stur	xzr, [sp, #54]
	str	xzr, [sp, #48]
	b.lo	.Lunix_path_BB47_16
	mov	x10, xzr
.Lunix_path_BB47_13:
	mov	w9, #24
	mov	x8, x10
	madd	x9, x10, x9, x22
	ldur	q0, [x9, #24]
	ldr	q1, [x9, #48]
	add	x10, x9, #264
	add	x11, x9, #312
	add	x12, x9, #360
	ldr	q2, [x9, #2016]
	str	q0, [x9]
	ldur	q0, [x9, #72]
	add	x13, x9, #2040
	stur	q1, [x9, #24]
	ldr	q1, [x9, #96]
	str	q0, [x9, #48]
	ldur	q0, [x9, #120]
	stur	q1, [x9, #72]
	ldr	q1, [x9, #144]
	str	q0, [x9, #96]
	ldur	q0, [x9, #168]
	stur	q1, [x9, #120]
	ldr	q1, [x9, #192]
	str	q0, [x9, #144]
	ldur	q0, [x9, #216]
	stur	q1, [x9, #168]
	ldr	q1, [x9, #240]
	str	q0, [x9, #192]
	ldr	q0, [x10]
	stur	q1, [x9, #216]
	ldr	q1, [x9, #288]
	str	q0, [x9, #240]
	ldr	q0, [x11]
	str	q1, [x10]
	ldr	q1, [x9, #336]
	add	x10, x9, #408
	str	q0, [x9, #288]
	ldr	q0, [x12]
	str	q1, [x11]
	ldr	q1, [x9, #384]
	add	x11, x9, #456
	str	q0, [x9, #336]
	ldr	q0, [x10]
	str	q1, [x12]
	ldr	q1, [x9, #432]
	add	x12, x9, #504
	str	q0, [x9, #384]
	ldr	q0, [x11]
	str	q1, [x10]
	ldr	q1, [x9, #480]
	add	x10, x9, #552
	str	q0, [x9, #432]
	ldr	q0, [x12]
	str	q1, [x11]
	ldr	q1, [x9, #528]
	add	x11, x9, #600
	str	q0, [x9, #480]
	ldr	q0, [x10]
	str	q1, [x12]
	ldr	q1, [x9, #576]
	add	x12, x9, #648
	str	q0, [x9, #528]
	ldr	q0, [x11]
	str	q1, [x10]
	ldr	q1, [x9, #624]
	add	x10, x9, #696
	str	q0, [x9, #576]
	ldr	q0, [x12]
	str	q1, [x11]
	ldr	q1, [x9, #672]
	add	x11, x9, #744
	str	q0, [x9, #624]
	ldr	q0, [x10]
	str	q1, [x12]
	ldr	q1, [x9, #720]
	add	x12, x9, #792
	str	q0, [x9, #672]
	ldr	q0, [x11]
	str	q1, [x10]
	ldr	q1, [x9, #768]
	add	x10, x9, #840
	str	q0, [x9, #720]
	ldr	q0, [x12]
	str	q1, [x11]
	ldr	q1, [x9, #816]
	add	x11, x9, #888
	str	q0, [x9, #768]
	ldr	q0, [x10]
	str	q1, [x12]
	ldr	q1, [x9, #864]
	add	x12, x9, #936
	str	q0, [x9, #816]
	ldr	q0, [x11]
	str	q1, [x10]
	ldr	q1, [x9, #912]
	add	x10, x9, #984
	str	q0, [x9, #864]
	ldr	q0, [x12]
	str	q1, [x11]
	ldr	q1, [x9, #960]
	add	x11, x9, #1032
	str	q0, [x9, #912]
	ldr	q0, [x10]
	str	q1, [x12]
	ldr	q1, [x9, #1008]
	add	x12, x9, #1080
	str	q0, [x9, #960]
	ldr	q0, [x11]
	str	q1, [x10]
	ldr	q1, [x9, #1056]
	add	x10, x9, #1128
	str	q0, [x9, #1008]
	ldr	q0, [x12]
	str	q1, [x11]
	ldr	q1, [x9, #1104]
	add	x11, x9, #1176
	str	q0, [x9, #1056]
	ldr	q0, [x10]
	str	q1, [x12]
	ldr	q1, [x9, #1152]
	add	x12, x9, #1224
	str	q0, [x9, #1104]
	ldr	q0, [x11]
	str	q1, [x10]
	ldr	q1, [x9, #1200]
	add	x10, x9, #1272
	str	q0, [x9, #1152]
	ldr	q0, [x12]
	str	q1, [x11]
	ldr	q1, [x9, #1248]
	add	x11, x9, #1320
	str	q0, [x9, #1200]
	ldr	q0, [x10]
	str	q1, [x12]
	ldr	q1, [x9, #1296]
	add	x12, x9, #1368
	str	q0, [x9, #1248]
	ldr	q0, [x11]
	str	q1, [x10]
	ldr	q1, [x9, #1344]
	add	x10, x9, #1416
	str	q0, [x9, #1296]
	ldr	q0, [x12]
	str	q1, [x11]
	ldr	q1, [x9, #1392]
	add	x11, x9, #1464
	str	q0, [x9, #1344]
	ldr	q0, [x10]
	str	q1, [x12]
	ldr	q1, [x9, #1440]
	add	x12, x9, #1512
	str	q0, [x9, #1392]
	ldr	q0, [x11]
	str	q1, [x10]
	ldr	q1, [x9, #1488]
	add	x10, x9, #1560
	str	q0, [x9, #1440]
	ldr	q0, [x12]
	str	q1, [x11]
	ldr	q1, [x9, #1536]
	add	x11, x9, #1608
	str	q0, [x9, #1488]
	ldr	q0, [x10]
	str	q1, [x12]
	ldr	q1, [x9, #1584]
	add	x12, x9, #1656
	str	q0, [x9, #1536]
	ldr	q0, [x11]
	str	q1, [x10]
	ldr	q1, [x9, #1632]
	add	x10, x9, #1704
	str	q0, [x9, #1584]
	ldr	q0, [x12]
	str	q1, [x11]
	ldr	q1, [x9, #1680]
	add	x11, x9, #1752
	str	q0, [x9, #1632]
	ldr	q0, [x10]
	str	q1, [x12]
	ldr	q1, [x9, #1728]
	add	x12, x9, #1800
	str	q0, [x9, #1680]
	ldr	q0, [x11]
	str	q1, [x10]
	ldr	q1, [x9, #1776]
	add	x10, x9, #1848
	str	q0, [x9, #1728]
	ldr	q0, [x12]
	str	q1, [x11]
	ldr	q1, [x9, #1824]
	add	x11, x9, #1896
	str	q0, [x9, #1776]
	ldr	q0, [x10]
	str	q1, [x12]
	ldr	q1, [x9, #1872]
	add	x12, x9, #1944
	str	q0, [x9, #1824]
	ldr	q0, [x11]
	str	q1, [x10]
	ldr	q1, [x9, #1920]
	add	x10, x9, #1992
	str	q0, [x9, #1872]
	ldr	q0, [x12]
	str	q1, [x11]
	ldr	x11, [x9, #40]
	ldr	q1, [x9, #1968]
	str	q0, [x9, #1920]
	ldr	q0, [x10]
	str	q2, [x10]
	ldr	x10, [x9, #64]
	str	x11, [x9, #16]
	ldr	x11, [x9, #88]
	str	x10, [x9, #40]
	ldr	x10, [x9, #112]
	str	x11, [x9, #64]
	ldr	x11, [x9, #136]
	str	x10, [x9, #88]
	ldr	x10, [x9, #160]
	str	x11, [x9, #112]
	ldr	x11, [x9, #184]
	str	x10, [x9, #136]
	ldr	x10, [x9, #208]
	str	x11, [x9, #160]
	ldr	x11, [x9, #232]
	str	x10, [x9, #184]
	ldr	x10, [x9, #256]
	str	x11, [x9, #208]
	ldr	x11, [x9, #280]
	str	x10, [x9, #232]
	ldr	x10, [x9, #304]
	str	x11, [x9, #256]
	ldr	x11, [x9, #328]
	str	x10, [x9, #280]
	ldr	x10, [x9, #352]
	str	x11, [x9, #304]
	ldr	x11, [x9, #376]
	str	x10, [x9, #328]
	ldr	x10, [x9, #400]
	str	x11, [x9, #352]
	ldr	x11, [x9, #424]
	str	x10, [x9, #376]
	ldr	x10, [x9, #448]
	str	x11, [x9, #400]
	ldr	x11, [x9, #472]
	str	x10, [x9, #424]
	ldr	x10, [x9, #496]
	str	x11, [x9, #448]
	ldr	x11, [x9, #520]
	str	x10, [x9, #472]
	ldr	x10, [x9, #544]
	str	x11, [x9, #496]
	ldr	x11, [x9, #568]
	str	x10, [x9, #520]
	ldr	x10, [x9, #592]
	str	x11, [x9, #544]
	ldr	x11, [x9, #616]
	str	x10, [x9, #568]
	ldr	x10, [x9, #640]
	str	x11, [x9, #592]
	ldr	x11, [x9, #664]
	str	x10, [x9, #616]
	ldr	x10, [x9, #688]
	str	x11, [x9, #640]
	ldr	x11, [x9, #712]
	str	x10, [x9, #664]
	ldr	x10, [x9, #736]
	str	x11, [x9, #688]
	ldr	x11, [x9, #760]
	str	x10, [x9, #712]
	ldr	x10, [x9, #784]
	str	x11, [x9, #736]
	ldr	x11, [x9, #808]
	str	x10, [x9, #760]
	ldr	x10, [x9, #832]
	str	x11, [x9, #784]
	ldr	x11, [x9, #856]
	str	x10, [x9, #808]
	ldr	x10, [x9, #880]
	str	x11, [x9, #832]
	ldr	x11, [x9, #904]
	str	x10, [x9, #856]
	ldr	x10, [x9, #928]
	str	x11, [x9, #880]
	ldr	x11, [x9, #952]
	str	x10, [x9, #904]
	ldr	x10, [x9, #976]
	str	x11, [x9, #928]
	ldr	x11, [x9, #1000]
	str	x10, [x9, #952]
	ldr	x10, [x9, #1024]
	str	x11, [x9, #976]
	ldr	x11, [x9, #1048]
	str	x10, [x9, #1000]
	ldr	x10, [x9, #1072]
	str	x11, [x9, #1024]
	ldr	x11, [x9, #1096]
	str	x10, [x9, #1048]
	ldr	x10, [x9, #1120]
	str	x11, [x9, #1072]
	ldr	x11, [x9, #1144]
	str	x10, [x9, #1096]
	ldr	x10, [x9, #1168]
	str	x11, [x9, #1120]
	ldr	x11, [x9, #1192]
	str	x10, [x9, #1144]
	ldr	x10, [x9, #1216]
	str	x11, [x9, #1168]
	ldr	x11, [x9, #1240]
	str	x10, [x9, #1192]
	ldr	x10, [x9, #1264]
	str	x11, [x9, #1216]
	ldr	x11, [x9, #1288]
	str	x10, [x9, #1240]
	ldr	x10, [x9, #1312]
	str	x11, [x9, #1264]
	ldr	x11, [x9, #1336]
	str	x10, [x9, #1288]
	ldr	x10, [x9, #1360]
	str	x11, [x9, #1312]
	ldr	x11, [x9, #1384]
	str	x10, [x9, #1336]
	ldr	x10, [x9, #1408]
	str	x11, [x9, #1360]
	ldr	x11, [x9, #1432]
	str	x10, [x9, #1384]
	ldr	x10, [x9, #1456]
	str	x11, [x9, #1408]
	ldr	x11, [x9, #1480]
	str	x10, [x9, #1432]
	ldr	x10, [x9, #1504]
	str	x11, [x9, #1456]
	ldr	x11, [x9, #1528]
	str	x10, [x9, #1480]
	ldr	x10, [x9, #1552]
	str	x11, [x9, #1504]
	ldr	x11, [x9, #1576]
	str	x10, [x9, #1528]
	ldr	x10, [x9, #1600]
	str	x11, [x9, #1552]
	ldr	x11, [x9, #1624]
	str	x10, [x9, #1576]
	ldr	x10, [x9, #1648]
	str	x11, [x9, #1600]
	ldr	x11, [x9, #1672]
	str	x10, [x9, #1624]
	ldr	x10, [x9, #1696]
	str	x11, [x9, #1648]
	ldr	x11, [x9, #1720]
	str	x10, [x9, #1672]
	ldr	x10, [x9, #1744]
	str	x11, [x9, #1696]
	ldr	x11, [x9, #1768]
	str	x10, [x9, #1720]
	ldr	x10, [x9, #1792]
	str	x11, [x9, #1744]
	ldr	x11, [x9, #1816]
	str	x10, [x9, #1768]
	ldr	x10, [x9, #1840]
	str	x11, [x9, #1792]
	ldr	x11, [x9, #1864]
	str	x10, [x9, #1816]
	ldr	x10, [x9, #1888]
	str	x11, [x9, #1840]
	ldr	x11, [x9, #1912]
	str	x10, [x9, #1864]
	ldr	x10, [x9, #1936]
	str	x11, [x9, #1888]
	ldr	x11, [x9, #1960]
	str	x10, [x9, #1912]
	ldr	x10, [x9, #1984]
	str	q1, [x12]
	ldr	x12, [x9, #2032]
	str	x11, [x9, #1936]
	ldr	x11, [x9, #2008]
	str	x10, [x9, #1960]
	add	x10, x8, #85
	str	x11, [x9, #1984]
	sub	x11, x21, x10
	str	x12, [x9, #2008]
	ldr	x12, [x9, #2056]
	cmp	x11, #85
	str	q0, [x9, #1968]
	ldr	q0, [x13]
	str	x12, [x9, #2032]
	str	q0, [x9, #2016]
	b.hi	.Lunix_path_BB47_13
	cmn	x10, #1
	b.eq	.Lunix_path_BB47_21
	mov	w8, #24
	madd	x0, x10, x8, x22
.Lunix_path_BB47_16:
	cmp	x21, x10
	b.eq	.Lunix_path_BB47_18
	add	x8, x11, x11, lsl #1
	add	x1, x0, #24
	mov	x20, x14
	mov	x27, x15
	lsl	x2, x8, #3
	bl	memmove
	mov	x15, x27
	mov	x14, x20
.Lunix_path_BB47_18:
	add	x8, x19, #376
	ldrb	w27, [x19, #368]
	ldrb	w20, [x19, #369]
	ldr	q0, [x8]
	ldr	x8, [x8, #16]
	cmp	x21, #65
	stur	q0, [x26, #6]
	stur	x8, [x26, #22]
	b.hs	.Lunix_path_BB47_24
	mov	x8, xzr
	mov	x9, x21
	b	.Lunix_path_BB47_28
.Lunix_path_BB47_20:
	mov	x8, xzr
	mov	x10, x23
	cmp	x23, xzr
	b.ne	.Lunix_path_BB47_10
	b	.Lunix_path_BB47_11
.Lunix_path_BB47_21:
	sub	x8, x24, x8
	mov	x9, x25
.Lunix_path_BB47_22:
	ldr	q0, [x9]
	ldr	x10, [x9, #16]
	sub	x11, x9, #24
	subs	x8, x8, #1
	stur	q0, [x9, #-24]
	stur	x10, [x9, #-8]
	mov	x9, x11
	b.ne	.Lunix_path_BB47_22
	add	x8, x19, #376
	ldrb	w27, [x19, #368]
	ldrb	w20, [x19, #369]
	ldr	q0, [x8]
	ldr	x8, [x8, #16]
	stur	q0, [x26, #6]
	stur	x8, [x26, #22]
.Lunix_path_BB47_24:
	mov	x8, xzr
	add	x10, x19, #408
.Lunix_path_BB47_25:
	mov	w9, #64
	mov	x11, x10
.Lunix_path_BB47_26:
	ldurh	w12, [x11, #-8]
	ldr	q0, [x11]
	subs	x9, x9, #1
	ldr	x13, [x11, #16]
	sturh	w12, [x11, #-40]
	stur	q0, [x11, #-32]
	stur	x13, [x11, #-16]
	add	x11, x11, #32
	b.ne	.Lunix_path_BB47_26
	add	x8, x8, #64
	add	x10, x10, #2048
	sub	x9, x21, x8
	cmp	x9, #64
	b.hi	.Lunix_path_BB47_25
.Lunix_path_BB47_28:
	cmp	x21, x8
	b.eq	.Lunix_path_BB47_31
	lsl	x8, x8, #5
	add	x10, x19, #408
	add	x8, x10, x8
.Lunix_path_BB47_30:
	ldurh	w10, [x8, #-8]
	ldr	q0, [x8]
	subs	x9, x9, #1
	ldr	x11, [x8, #16]
	sturh	w10, [x8, #-40]
	stur	q0, [x8, #-32]
	stur	x11, [x8, #-16]
	add	x8, x8, #32
	b.ne	.Lunix_path_BB47_30
.Lunix_path_BB47_31:
	ldur	q0, [x26, #6]
	add	x9, sp, #32
	ldur	x8, [x26, #22]
	stur	xzr, [x29, #-32]
	stur	q0, [x9, #6]
	ldur	q0, [x9, #6]
	stur	x8, [x9, #22]
	str	x8, [x28, #16]
	str	q0, [x28]
	cbz	x15, .Lunix_path_BB47_3
	mov	x0, x14
	bl	rattle_dealloc
	b	.Lunix_path_BB47_3
.Lunix_path_BB47_33:
	ldr	x0, [x19, #848]
	bl	std_collections.btree.node.Node.destroy.60b19ca0713cc2a9.
.Lunix_path_BB47_34:
	mov	x0, x19
	ldp	x20, x19, [sp, #176]
	ldp	x22, x21, [sp, #160]
	ldp	x24, x23, [sp, #144]
	ldp	x26, x25, [sp, #128]
	ldp	x28, x27, [sp, #112]
	ldp	x29, x30, [sp, #96]
	add	sp, sp, #192
	b	rattle_dealloc
.Lunix_path_BB47_35:
	cmp	w21, #15
	b.ls	.Lunix_path_BB47_37
	lsr	x20, x21, #1
	mov	w8, #24
	add	x0, x19, #8
	sub	x23, x21, x20
	mov	x2, x20
	smaddl	x1, w23, w8, x22
	add	x22, x19, #368
	bl	core.slice.edits.mirror.483ec8513fd57e54.
	add	x1, x22, x23, lsl #5
	add	x0, x19, #368
	mov	x2, x20
	bl	core.slice.edits.mirror.24.serde_json.value.Value.
	b	.Lunix_path_BB47_77
.Lunix_path_BB47_37:
	cmp	w21, #2
	b.lo	.Lunix_path_BB47_76
	sub	x10, x21, #2
	subs	x8, x21, #1
	lsr	x9, x10, #1
	b.eq	.Lunix_path_BB47_40
	mov	w11, #24
	ldr	q1, [x22]
	ldr	x13, [x22, #16]
	smaddl	x11, w8, w11, x22
	ldr	q0, [x11]
	ldr	x12, [x11, #16]
	str	q0, [x22]
	str	x12, [x22, #16]
	str	q1, [x11]
	str	x13, [x11, #16]
.Lunix_path_BB47_40:
	cbz	x9, .Lunix_path_BB47_70
	cmp	x10, #1
	b.ls	.Lunix_path_BB47_43
	mov	w11, #24
	ldr	q1, [x19, #32]
	ldr	x12, [x19, #48]
	smaddl	x10, w10, w11, x22
	ldr	q0, [x10]
	ldr	x11, [x10, #16]
	str	q0, [x19, #32]
	str	x11, [x19, #48]
	str	q1, [x10]
	str	x12, [x10, #16]
	b	.Lunix_path_BB47_45
.Lunix_path_BB47_43:
	cbnz	x10, .Lunix_path_BB47_45
	mov	w11, #24
	ldr	q0, [x19, #32]
	smaddl	x10, w10, w11, x22
	ldr	x11, [x19, #48]
	ldr	q1, [x10]
	ldr	x12, [x10, #16]
	str	q0, [x10]
	str	x11, [x10, #16]
	str	q1, [x19, #32]
	str	x12, [x19, #48]
.Lunix_path_BB47_45:
	cmp	x9, #1
	b.eq	.Lunix_path_BB47_70
	sub	x10, x21, #3
	cmp	x10, #2
	b.ls	.Lunix_path_BB47_48
	mov	w11, #24
	ldur	q1, [x19, #56]
	ldr	x12, [x19, #72]
	smaddl	x10, w10, w11, x22
	ldr	q0, [x10]
	ldr	x11, [x10, #16]
	stur	q0, [x19, #56]
	str	x11, [x19, #72]
	str	q1, [x10]
	str	x12, [x10, #16]
	b	.Lunix_path_BB47_50
.Lunix_path_BB47_48:
	b.eq	.Lunix_path_BB47_50
	mov	w11, #24
	ldur	q0, [x19, #56]
	smaddl	x10, w10, w11, x22
	ldr	x11, [x19, #72]
	ldr	q1, [x10]
	ldr	x12, [x10, #16]
	str	q0, [x10]
	str	x11, [x10, #16]
	stur	q1, [x19, #56]
	str	x12, [x19, #72]
.Lunix_path_BB47_50:
	cmp	x9, #2
	b.eq	.Lunix_path_BB47_70
	sub	x10, x21, #4
	cmp	x10, #3
	b.ls	.Lunix_path_BB47_53
	mov	w11, #24
	ldr	q1, [x19, #80]
	ldr	x12, [x19, #96]
	smaddl	x10, w10, w11, x22
	ldr	q0, [x10]
	ldr	x11, [x10, #16]
	str	q0, [x19, #80]
	str	x11, [x19, #96]
	str	q1, [x10]
	str	x12, [x10, #16]
	b	.Lunix_path_BB47_55
.Lunix_path_BB47_53:
	b.eq	.Lunix_path_BB47_55
	mov	w11, #24
	ldr	q0, [x19, #80]
	smaddl	x10, w10, w11, x22
	ldr	x11, [x19, #96]
	ldr	q1, [x10]
	ldr	x12, [x10, #16]
	str	q0, [x10]
	str	x11, [x10, #16]
	str	q1, [x19, #80]
	str	x12, [x19, #96]
.Lunix_path_BB47_55:
	cmp	x9, #3
	b.eq	.Lunix_path_BB47_70
	sub	x10, x21, #5
	cmp	x10, #4
	b.ls	.Lunix_path_BB47_58
	mov	w11, #24
	ldur	q1, [x19, #104]
	ldr	x12, [x19, #120]
	smaddl	x10, w10, w11, x22
	ldr	q0, [x10]
	ldr	x11, [x10, #16]
	stur	q0, [x19, #104]
	str	x11, [x19, #120]
	str	q1, [x10]
	str	x12, [x10, #16]
	b	.Lunix_path_BB47_60
.Lunix_path_BB47_58:
	b.eq	.Lunix_path_BB47_60
	mov	w11, #24
	ldur	q0, [x19, #104]
	smaddl	x10, w10, w11, x22
	ldr	x11, [x19, #120]
	ldr	q1, [x10]
	ldr	x12, [x10, #16]
	str	q0, [x10]
	str	x11, [x10, #16]
	stur	q1, [x19, #104]
	str	x12, [x19, #120]
.Lunix_path_BB47_60:
	cmp	x9, #4
	b.eq	.Lunix_path_BB47_70
	sub	x10, x21, #6
	cmp	x10, #5
	b.ls	.Lunix_path_BB47_63
	mov	w11, #24
	ldr	q1, [x19, #128]
	ldr	x12, [x19, #144]
	smaddl	x10, w10, w11, x22
	ldr	q0, [x10]
	ldr	x11, [x10, #16]
	str	q0, [x19, #128]
	str	x11, [x19, #144]
	str	q1, [x10]
	str	x12, [x10, #16]
	b	.Lunix_path_BB47_65
.Lunix_path_BB47_63:
	b.eq	.Lunix_path_BB47_65
	mov	w11, #24
	ldr	q0, [x19, #128]
	smaddl	x10, w10, w11, x22
	ldr	x11, [x19, #144]
	ldr	q1, [x10]
	ldr	x12, [x10, #16]
	str	q0, [x10]
	str	x11, [x10, #16]
	str	q1, [x19, #128]
	str	x12, [x19, #144]
.Lunix_path_BB47_65:
	cmp	x9, #5
	b.eq	.Lunix_path_BB47_70
	sub	x10, x21, #7
	cmp	x10, #6
	b.ls	.Lunix_path_BB47_68
	mov	w11, #24
	ldur	q1, [x19, #152]
	ldr	x12, [x19, #168]
	smaddl	x10, w10, w11, x22
	ldr	q0, [x10]
	ldr	x11, [x10, #16]
	stur	q0, [x19, #152]
	str	x11, [x19, #168]
	str	q1, [x10]
	str	x12, [x10, #16]
	b	.Lunix_path_BB47_70
.Lunix_path_BB47_68:
	b.eq	.Lunix_path_BB47_70
	mov	w11, #24
	ldur	q0, [x19, #152]
	smaddl	x10, w10, w11, x22
	ldr	x11, [x19, #168]
	ldr	q1, [x10]
	ldr	x12, [x10, #16]
	str	q0, [x10]
	str	x11, [x10, #16]
	stur	q1, [x19, #152]
	str	x12, [x19, #168]
.Lunix_path_BB47_70:
	lsl	x12, x21, #5
	mov	x10, xzr
	mov	x11, xzr
	sub	x13, x29, #32
	add	x9, x9, #1
	b	.Lunix_path_BB47_73
.Lunix_path_BB47_71:
	add	x14, x19, x12
	add	x15, x19, x10
	ldrh	w16, [x14, #336]
	add	x17, x15, #376
	ldrh	w0, [x15, #368]
	ldr	x18, [x15, #392]
	ldr	q0, [x17]
	strh	w16, [x15, #368]
	add	x16, x14, #344
	ldr	x1, [x14, #360]
	ldr	q1, [x16]
	stur	x18, [x13, #22]
	stur	q0, [x13, #6]
	str	x1, [x15, #392]
	str	q1, [x17]
	strh	w0, [x14, #336]
	str	q0, [x16]
	str	x18, [x14, #360]
.Lunix_path_BB47_72:
	add	x11, x11, #1
	add	x10, x10, #32
	sub	x8, x8, #1
	cmp	x9, x11
	sub	x12, x12, #32
	b.eq	.Lunix_path_BB47_76
.Lunix_path_BB47_73:
	cmp	x11, x8
	b.lo	.Lunix_path_BB47_71
	cmp	x8, x11
	b.hs	.Lunix_path_BB47_72
	add	x14, x19, x10
	add	x15, x19, x12
	ldrh	w16, [x14, #368]
	add	x17, x15, #344
	ldrh	w0, [x15, #336]
	ldr	x18, [x15, #360]
	ldr	q0, [x17]
	strh	w16, [x15, #336]
	add	x16, x14, #376
	ldr	x1, [x14, #392]
	ldr	q1, [x16]
	stur	x18, [x13, #22]
	stur	q0, [x13, #6]
	str	x1, [x15, #360]
	str	q1, [x17]
	strh	w0, [x14, #368]
	str	q0, [x16]
	str	x18, [x14, #392]
	b	.Lunix_path_BB47_72
.Lunix_path_BB47_76:
	cbz	w21, .Lunix_path_BB47_34
.Lunix_path_BB47_77:
	mov	w8, #24
	add	x22, sp, #32
	sub	x23, x29, #32
	umaddl	x20, w21, w8, x19
	add	x8, x19, x21, lsl #5
	add	x24, x8, #336
	b	.Lunix_path_BB47_79
.Lunix_path_BB47_78:
	ldur	q0, [x22, #6]
	ldur	x8, [x22, #22]
	sub	x0, x29, #32
	sturb	w26, [x29, #-32]
	sub	x21, x21, #1
	sub	x20, x20, #24
	sturb	w25, [x29, #-31]
	stur	q0, [x23, #8]
	stur	x8, [x23, #24]
	bl	pathtool.serde_json.value.Value.Destruct.drop
	sub	x24, x24, #32
	cbz	x21, .Lunix_path_BB47_34
.Lunix_path_BB47_79:
	ldur	q0, [x24, #8]
	ldr	x8, [x24, #24]
	ldur	x0, [x20, #-16]
	ldr	x9, [x20]
	ldrb	w26, [x24]
	ldrb	w25, [x24, #1]
	stur	q0, [x22, #6]
	stur	x8, [x22, #22]
	stur	xzr, [x29, #-32]
	cbz	x9, .Lunix_path_BB47_78
	bl	rattle_dealloc
	b	.Lunix_path_BB47_78
.Lunix_path_func_end47:
	.size	std_collections.btree.node.Node.destroy.60b19ca0713cc2a9., .Lunix_path_func_end47-std_collections.btree.node.Node.destroy.60b19ca0713cc2a9.
	.section	.text.core.slice.edits.mirror.483ec8513fd57e54.,"ax",@progbits
	.p2align	2
	.type	core.slice.edits.mirror.483ec8513fd57e54.,@function
// core::slice::edits::mirror::<#483ec8513fd57e54>
core.slice.edits.mirror.483ec8513fd57e54.:
	sub	sp, sp, #32
	mov	w8, #24
	madd	x8, x2, x8, x1
	sub	x8, x8, #24
.Lunix_path_BB48_1:
	ldr	q0, [x8]
	ldr	x9, [x8, #16]
	sub	x2, x2, #1
	ldr	q1, [x0]
	ldr	x10, [x0, #16]
	str	q0, [x0]
	str	x9, [x0, #16]
	add	x0, x0, #24
	str	q1, [x8]
	str	x10, [x8, #16]
	sub	x8, x8, #24
	cbnz	x2, .Lunix_path_BB48_1
	add	sp, sp, #32
	ret
.Lunix_path_func_end48:
	.size	core.slice.edits.mirror.483ec8513fd57e54., .Lunix_path_func_end48-core.slice.edits.mirror.483ec8513fd57e54.
	.section	.text.core.slice.edits.mirror.24.serde_json.value.Value.,"ax",@progbits
	.p2align	2
	.type	core.slice.edits.mirror.24.serde_json.value.Value.,@function
// core::slice::edits::mirror::<24'serde_json::value::Value>
core.slice.edits.mirror.24.serde_json.value.Value.:
	sub	sp, sp, #64
	add	x10, x1, x2, lsl #5
	add	x8, sp, #34
	add	x9, sp, #4
	sub	x10, x10, #32
.Lunix_path_BB49_1:
	ldur	q0, [x0, #8]
	ldr	x11, [x0, #24]
	sub	x2, x2, #1
	ldur	q1, [x10, #8]
	ldrh	w12, [x10]
	ldrh	w13, [x0]
	ldr	x14, [x10, #24]
	stur	q0, [x8, #6]
	strh	w12, [x0]
	stur	q1, [x0, #8]
	str	x14, [x0, #24]
	add	x0, x0, #32
	strh	w13, [x10]
	stur	q0, [x10, #8]
	str	x11, [x10, #24]
	sub	x10, x10, #32
	stur	x11, [x8, #22]
	stur	q1, [x9, #6]
	stur	x14, [x9, #22]
	cbnz	x2, .Lunix_path_BB49_1
	add	sp, sp, #64
	ret
.Lunix_path_func_end49:
	.size	core.slice.edits.mirror.24.serde_json.value.Value., .Lunix_path_func_end49-core.slice.edits.mirror.24.serde_json.value.Value.
	.section	.rodata.cst16,"aM",@progbits,16
	.p2align	4, 0x0
.Lunix_path_CPI50_0:
	.byte	1
	.byte	2
	.byte	4
	.byte	8
	.byte	16
	.byte	32
	.byte	64
	.byte	128
	.byte	1
	.byte	2
	.byte	4
	.byte	8
	.byte	16
	.byte	32
	.byte	64
	.byte	128
	.section	.text.unix_path.suffixes.ends_with_parts,"ax",@progbits
	.p2align	2
	.type	unix_path.suffixes.ends_with_parts,@function
// unix_path::suffixes::ends_with_parts
unix_path.suffixes.ends_with_parts:
	stp	x29, x30, [sp, #-96]!
	stp	x22, x21, [sp, #64]
	mov	x21, x3
	mov	x29, sp
	stp	x20, x19, [sp, #80]
	mov	x19, x2
	mov	x20, x0
	stp	x28, x27, [sp, #16]
	stp	x26, x25, [sp, #32]
	stp	x24, x23, [sp, #48]
	cbz	x1, .Lunix_path_BB50_9
	mov	x22, x1
	mov	x24, x1
	b	.Lunix_path_BB50_3
.Lunix_path_BB50_2:
	mov	x24, x2
	cbz	x2, .Lunix_path_BB50_10
.Lunix_path_BB50_3:
	subs	x2, x24, #1
	b.eq	.Lunix_path_BB50_10
	add	x8, x20, x2
	ldrb	w9, [x8]
	cmp	w9, #47
	b.eq	.Lunix_path_BB50_7
	cmp	w9, #46
	b.ne	.Lunix_path_BB50_10
	ldurb	w8, [x8, #-1]
	cmp	w8, #47
	b.ne	.Lunix_path_BB50_10
.Lunix_path_BB50_7:
	sub	x8, x22, x2
	cmp	x8, #8
	b.ne	.Lunix_path_BB50_2
	mov	x0, x20
	mov	x1, xzr
	bl	unix_path.filler.trimmed_blocks_len
	mov	x2, x0
	b	.Lunix_path_BB50_2
.Lunix_path_BB50_9:
	mov	x24, xzr
.Lunix_path_BB50_10:
	cbz	x21, .Lunix_path_BB50_19
	mov	x25, x21
	b	.Lunix_path_BB50_13
.Lunix_path_BB50_12:
	mov	x25, x2
	cbz	x2, .Lunix_path_BB50_20
.Lunix_path_BB50_13:
	subs	x2, x25, #1
	b.eq	.Lunix_path_BB50_20
	add	x8, x19, x2
	ldrb	w9, [x8]
	cmp	w9, #47
	b.eq	.Lunix_path_BB50_17
	cmp	w9, #46
	b.ne	.Lunix_path_BB50_20
	ldurb	w8, [x8, #-1]
	cmp	w8, #47
	b.ne	.Lunix_path_BB50_20
.Lunix_path_BB50_17:
	sub	x8, x21, x2
	cmp	x8, #8
	b.ne	.Lunix_path_BB50_12
	mov	x0, x19
	mov	x1, xzr
	bl	unix_path.filler.trimmed_blocks_len
	mov	x2, x0
	b	.Lunix_path_BB50_12
.Lunix_path_BB50_19:
	mov	x25, xzr
.Lunix_path_BB50_20:
	subs	x8, x25, #1
	adrp	x23, .Lunix_path_CPI50_0
	b.eq	.Lunix_path_BB50_26
	cbz	x25, .Lunix_path_BB50_116
	add	x9, x19, x25
	ldurb	w10, [x9, #-1]
	cmp	w10, #46
	b.ne	.Lunix_path_BB50_30
	ldurb	w10, [x9, #-2]
	cmp	w10, #46
	b.ne	.Lunix_path_BB50_30
	subs	x27, x25, #2
	b.ne	.Lunix_path_BB50_28
	mov	x22, xzr
	mov	x21, xzr
	mov	x25, xzr
	mov	w26, #2
	b	.Lunix_path_BB50_57
.Lunix_path_BB50_26:
	ldrb	w9, [x19]
	cmp	w9, #46
	b.ne	.Lunix_path_BB50_30
	mov	x22, xzr
	mov	x21, xzr
	mov	x25, xzr
	mov	w26, #1
	b	.Lunix_path_BB50_57
.Lunix_path_BB50_28:
	ldurb	w9, [x9, #-3]
	cmp	w9, #47
	b.ne	.Lunix_path_BB50_30
	mov	x8, x27
	b	.Lunix_path_BB50_47
.Lunix_path_BB50_30:
	mov	x9, x25
.Lunix_path_BB50_31:
	cmp	x9, #15
	b.ls	.Lunix_path_BB50_35
	movi	v0.16b, #47
	add	x10, x19, x9
	sub	x8, x8, #16
	ldur	q1, [x10, #-16]
	sub	x10, x9, #16
	mov	x9, x10
	cmeq	v0.16b, v1.16b, v0.16b
	ldr	q1, [x23, :lo12:.Lunix_path_CPI50_0]
	and	v0.16b, v0.16b, v1.16b
	addp	v0.16b, v0.16b, v0.16b
	addp	v0.16b, v0.16b, v0.16b
	addp	v0.16b, v0.16b, v0.16b
	umov	w11, v0.h[0]
	cbz	w11, .Lunix_path_BB50_31
	umov	w8, v0.h[0]
	and	x8, x8, #0xffff
	clz	x8, x8
	sub	x8, x10, x8
	add	x26, x8, #64
	subs	x21, x25, x26
	b.ne	.Lunix_path_BB50_38
.Lunix_path_BB50_34:
	mov	x22, xzr
	mov	x25, xzr
	mov	w26, wzr
	b	.Lunix_path_BB50_57
.Lunix_path_BB50_35:
	cmn	x8, #1
	b.eq	.Lunix_path_BB50_54
	ldrb	w9, [x19, x8]
	sub	x8, x8, #1
	cmp	w9, #47
	b.ne	.Lunix_path_BB50_35
	add	x26, x8, #2
	subs	x21, x25, x26
	b.eq	.Lunix_path_BB50_34
.Lunix_path_BB50_38:
	add	x22, x19, x26
	mov	x25, x26
	b	.Lunix_path_BB50_40
.Lunix_path_BB50_39:
	mov	x25, x2
	cbz	x2, .Lunix_path_BB50_53
.Lunix_path_BB50_40:
	subs	x2, x25, #1
	b.eq	.Lunix_path_BB50_53
	add	x8, x19, x2
	ldrb	w9, [x8]
	cmp	w9, #47
	b.eq	.Lunix_path_BB50_44
	cmp	w9, #46
	b.ne	.Lunix_path_BB50_53
	ldurb	w8, [x8, #-1]
	cmp	w8, #47
	b.ne	.Lunix_path_BB50_53
.Lunix_path_BB50_44:
	sub	x8, x26, x2
	cmp	x8, #8
	b.ne	.Lunix_path_BB50_39
	mov	x0, x19
	mov	x1, xzr
	bl	unix_path.filler.trimmed_blocks_len
	mov	x2, x0
	b	.Lunix_path_BB50_39
.Lunix_path_BB50_46:
	mov	x22, xzr
	mov	x21, xzr
	mov	x25, xzr
	mov	w26, #2
	mov	x8, x2
	cbz	x2, .Lunix_path_BB50_57
.Lunix_path_BB50_47:
	subs	x2, x8, #1
	b.eq	.Lunix_path_BB50_110
	add	x9, x19, x2
	ldrb	w10, [x9]
	cmp	w10, #47
	b.eq	.Lunix_path_BB50_51
	cmp	w10, #46
	b.ne	.Lunix_path_BB50_112
	ldurb	w9, [x9, #-1]
	cmp	w9, #47
	b.ne	.Lunix_path_BB50_112
.Lunix_path_BB50_51:
	sub	x8, x27, x2
	cmp	x8, #8
	b.ne	.Lunix_path_BB50_46
	mov	x0, x19
	mov	x1, xzr
	bl	unix_path.filler.trimmed_blocks_len
	mov	x2, x0
	b	.Lunix_path_BB50_46
.Lunix_path_BB50_53:
	mov	w26, #3
	b	.Lunix_path_BB50_57
.Lunix_path_BB50_54:
	cbnz	x25, .Lunix_path_BB50_56
	mov	x22, xzr
	mov	x21, xzr
	mov	w26, wzr
	b	.Lunix_path_BB50_57
.Lunix_path_BB50_56:
	mov	w26, #3
	mov	x22, x19
	mov	x21, x25
	mov	x25, xzr
.Lunix_path_BB50_57:
	subs	x8, x24, #1
	b.eq	.Lunix_path_BB50_63
	cbz	x24, .Lunix_path_BB50_114
	add	x9, x20, x24
	ldurb	w10, [x9, #-1]
	cmp	w10, #46
	b.ne	.Lunix_path_BB50_67
	ldurb	w10, [x9, #-2]
	cmp	w10, #46
	b.ne	.Lunix_path_BB50_67
	subs	x28, x24, #2
	b.ne	.Lunix_path_BB50_65
	mov	x23, xzr
	mov	x27, xzr
	mov	x24, xzr
	mov	w9, wzr
	mov	w8, #2
	b	.Lunix_path_BB50_94
.Lunix_path_BB50_63:
	ldrb	w9, [x20]
	cmp	w9, #46
	b.ne	.Lunix_path_BB50_67
	mov	x23, xzr
	mov	x27, xzr
	mov	x24, xzr
	mov	w9, wzr
	mov	w8, #1
	b	.Lunix_path_BB50_94
.Lunix_path_BB50_65:
	ldurb	w9, [x9, #-3]
	cmp	w9, #47
	b.ne	.Lunix_path_BB50_67
	mov	x10, x28
	b	.Lunix_path_BB50_84
.Lunix_path_BB50_67:
	mov	x9, x24
.Lunix_path_BB50_68:
	cmp	x9, #15
	b.ls	.Lunix_path_BB50_72
	movi	v0.16b, #47
	add	x10, x20, x9
	sub	x8, x8, #16
	ldur	q1, [x10, #-16]
	sub	x10, x9, #16
	mov	x9, x10
	cmeq	v0.16b, v1.16b, v0.16b
	ldr	q1, [x23, :lo12:.Lunix_path_CPI50_0]
	and	v0.16b, v0.16b, v1.16b
	addp	v0.16b, v0.16b, v0.16b
	addp	v0.16b, v0.16b, v0.16b
	addp	v0.16b, v0.16b, v0.16b
	umov	w11, v0.h[0]
	cbz	w11, .Lunix_path_BB50_68
	umov	w8, v0.h[0]
	and	x8, x8, #0xffff
	clz	x8, x8
	sub	x8, x10, x8
	add	x28, x8, #64
	subs	x27, x24, x28
	b.ne	.Lunix_path_BB50_75
.Lunix_path_BB50_71:
	mov	x23, xzr
	mov	x24, xzr
	b	.Lunix_path_BB50_93
.Lunix_path_BB50_72:
	cmn	x8, #1
	b.eq	.Lunix_path_BB50_91
	ldrb	w9, [x20, x8]
	sub	x8, x8, #1
	cmp	w9, #47
	b.ne	.Lunix_path_BB50_72
	add	x28, x8, #2
	subs	x27, x24, x28
	b.eq	.Lunix_path_BB50_71
.Lunix_path_BB50_75:
	add	x23, x20, x28
	mov	x24, x28
	b	.Lunix_path_BB50_77
.Lunix_path_BB50_76:
	mov	x24, x2
	cbz	x2, .Lunix_path_BB50_90
.Lunix_path_BB50_77:
	subs	x2, x24, #1
	b.eq	.Lunix_path_BB50_90
	add	x8, x20, x2
	ldrb	w9, [x8]
	cmp	w9, #47
	b.eq	.Lunix_path_BB50_81
	cmp	w9, #46
	b.ne	.Lunix_path_BB50_90
	ldurb	w8, [x8, #-1]
	cmp	w8, #47
	b.ne	.Lunix_path_BB50_90
.Lunix_path_BB50_81:
	sub	x8, x28, x2
	cmp	x8, #8
	b.ne	.Lunix_path_BB50_76
	mov	x0, x20
	mov	x1, xzr
	bl	unix_path.filler.trimmed_blocks_len
	mov	x2, x0
	b	.Lunix_path_BB50_76
.Lunix_path_BB50_83:
	mov	x23, xzr
	mov	x27, xzr
	mov	x24, xzr
	mov	w9, wzr
	mov	w8, #2
	mov	x10, x2
	cbz	x2, .Lunix_path_BB50_94
.Lunix_path_BB50_84:
	subs	x2, x10, #1
	b.eq	.Lunix_path_BB50_111
	add	x8, x20, x2
	ldrb	w9, [x8]
	cmp	w9, #47
	b.eq	.Lunix_path_BB50_88
	cmp	w9, #46
	b.ne	.Lunix_path_BB50_113
	ldurb	w8, [x8, #-1]
	cmp	w8, #47
	b.ne	.Lunix_path_BB50_113
.Lunix_path_BB50_88:
	sub	x8, x28, x2
	cmp	x8, #8
	b.ne	.Lunix_path_BB50_83
	mov	x0, x20
	mov	x1, xzr
	bl	unix_path.filler.trimmed_blocks_len
	mov	x2, x0
	b	.Lunix_path_BB50_83
.Lunix_path_BB50_90:
	mov	w8, #3
	mov	w9, #1
	b	.Lunix_path_BB50_94
.Lunix_path_BB50_91:
	cbnz	x24, .Lunix_path_BB50_108
	mov	x23, xzr
	mov	x27, xzr
.Lunix_path_BB50_93:
	mov	w9, wzr
	mov	w8, wzr
.Lunix_path_BB50_94:
	cmp	w8, w26
	b.ne	.Lunix_path_BB50_114
	cbz	w9, .Lunix_path_BB50_20
	cmp	x27, x21
	b.ne	.Lunix_path_BB50_114
	cmp	x21, #4
	b.hs	.Lunix_path_BB50_105
	cbz	x21, .Lunix_path_BB50_20
	ldrb	w8, [x23]
	ldrb	w9, [x22]
	cmp	w8, w9
	b.ne	.Lunix_path_BB50_107
	cmp	x21, #1
	b.eq	.Lunix_path_BB50_20
	ldrb	w8, [x23, #1]
	ldrb	w9, [x22, #1]
	cmp	w8, w9
	b.ne	.Lunix_path_BB50_109
	cmp	x21, #2
	b.eq	.Lunix_path_BB50_20
	ldrb	w8, [x23, #2]
	ldrb	w9, [x22, #2]
	cmp	w8, w9
	b.eq	.Lunix_path_BB50_20
	mov	w8, #2
	cmp	x8, x21
	b.hs	.Lunix_path_BB50_20
	b	.Lunix_path_BB50_114
.Lunix_path_BB50_105:
	ldr	w8, [x23]
	ldr	w9, [x22]
	cmp	w8, w9
	b.ne	.Lunix_path_BB50_114
	mov	x0, x23
	mov	x1, x21
	mov	x2, x22
	bl	core.cmp.slices.groups_equal.i8.31.core.cmp.numbers.U8PartialEq.
	tbnz	w0, #0, .Lunix_path_BB50_20
	b	.Lunix_path_BB50_114
.Lunix_path_BB50_107:
	cmp	xzr, x21
	b.hs	.Lunix_path_BB50_20
	b	.Lunix_path_BB50_114
.Lunix_path_BB50_108:
	mov	w8, #3
	mov	w9, #1
	mov	x23, x20
	mov	x27, x24
	mov	x24, xzr
	b	.Lunix_path_BB50_94
.Lunix_path_BB50_109:
	mov	w8, #1
	cmp	x8, x21
	b.hs	.Lunix_path_BB50_20
	b	.Lunix_path_BB50_114
.Lunix_path_BB50_110:
	mov	x22, xzr
	mov	x21, xzr
	mov	w26, #2
	mov	w25, #1
	b	.Lunix_path_BB50_57
.Lunix_path_BB50_111:
	mov	x23, xzr
	mov	x27, xzr
	mov	w9, wzr
	mov	w8, #2
	mov	w24, #1
	b	.Lunix_path_BB50_94
.Lunix_path_BB50_112:
	mov	x22, xzr
	mov	x21, xzr
	mov	w26, #2
	mov	x25, x8
	b	.Lunix_path_BB50_57
.Lunix_path_BB50_113:
	mov	x23, xzr
	mov	x27, xzr
	mov	w9, wzr
	mov	w8, #2
	mov	x24, x10
	b	.Lunix_path_BB50_94
.Lunix_path_BB50_114:
	mov	w0, wzr
.Lunix_path_BB50_115:
	ldp	x20, x19, [sp, #80]
	ldp	x22, x21, [sp, #64]
	ldp	x24, x23, [sp, #48]
	ldp	x26, x25, [sp, #32]
	ldp	x28, x27, [sp, #16]
	ldp	x29, x30, [sp], #96
	ret
.Lunix_path_BB50_116:
	mov	w0, #1
	b	.Lunix_path_BB50_115
.Lunix_path_func_end50:
	.size	unix_path.suffixes.ends_with_parts, .Lunix_path_func_end50-unix_path.suffixes.ends_with_parts
	.section	.text.unlikely.std_alloc.vec.Vec.grow_amortized.2c3341b61b28ed12.,"ax",@progbits
	.p2align	2
	.type	std_alloc.vec.Vec.grow_amortized.2c3341b61b28ed12.,@function
// std_alloc::vec::Vec::grow_amortized::<#2c3341b61b28ed12>
std_alloc.vec.Vec.grow_amortized.2c3341b61b28ed12.:
	ldr	x8, [x0, #8]
	cmn	x8, x1
	b.lo	.Lunix_path_BB51_2
	mov	w0, wzr
	ret
.Lunix_path_BB51_2:
	stp	x29, x30, [sp, #-32]!
	ldr	x10, [x0, #16]
	add	x9, x8, x1
	mov	w11, #8
	cmp	x9, #8
	stp	x20, x19, [sp, #16]
	mov	x29, sp
	lsl	x12, x10, #1
	csel	x11, x9, x11, hi
	lsr	x13, x10, #62
	cmp	x11, x12
	csel	x9, x11, x12, hi
	cmp	x13, #0
	csel	x19, x9, x11, eq
	tbnz	x19, #63, .Lunix_path_BB51_7
	cbz	x10, .Lunix_path_BB51_6
	mov	x20, x0
	ldr	x0, [x0]
	mov	x1, x8
	mov	x2, x19
	mov	w3, #1
	bl	rattle_realloc
	tbz	w0, #0, .Lunix_path_BB51_7
.Lunix_path_BB51_5:
	mov	w0, #1
	str	x1, [x20]
	str	x19, [x20, #16]
	ldp	x20, x19, [sp, #16]
	ldp	x29, x30, [sp], #32
	ret
.Lunix_path_BB51_6:
	mov	x20, x0
	mov	x0, x9
	mov	w1, #1
	bl	rattle_alloc
	tbnz	w0, #0, .Lunix_path_BB51_5
.Lunix_path_BB51_7:
	mov	w0, wzr
	ldp	x20, x19, [sp, #16]
	ldp	x29, x30, [sp], #32
	ret
.Lunix_path_func_end51:
	.size	std_alloc.vec.Vec.grow_amortized.2c3341b61b28ed12., .Lunix_path_func_end51-std_alloc.vec.Vec.grow_amortized.2c3341b61b28ed12.
	.section	.text.pathtool.walks.push_count,"ax",@progbits
	.p2align	2
	.type	pathtool.walks.push_count,@function
// pathtool::walks::push_count
pathtool.walks.push_count:
	sub	sp, sp, #192
	stp	x29, x30, [sp, #96]
	add	x29, sp, #96
	cmp	x0, #100
	sub	x8, x29, #1
	stp	x20, x19, [sp, #176]
	mov	x19, x1
	str	x8, [sp]
	mov	w8, #32
	str	w8, [sp, #24]
	mov	x8, #-1
	stp	x28, x27, [sp, #112]
	stp	x26, x25, [sp, #128]
	stp	x24, x23, [sp, #144]
	stp	x22, x21, [sp, #160]
	stp	xzr, xzr, [sp, #8]
	stp	xzr, xzr, [sp, #48]
	stur	xzr, [sp, #28]
	str	wzr, [sp, #36]
	str	x8, [sp, #40]
	stp	xzr, xzr, [x29, #-32]
	stur	xzr, [x29, #-16]
	b.lo	.Lunix_path_BB52_7
	mov	x8, xzr
.Lunix_path_BB52_2:
	mov	x11, #62915
	lsr	x10, x0, #2
	mov	x9, x0
	movk	x11, #23592, lsl #16
	movk	x11, #49807, lsl #32
	movk	x11, #10485, lsl #48
	umulh	x10, x10, x11
	mov	w11, #205
	lsr	x0, x10, #2
	mov	w10, #100
	msub	w10, w0, w10, w9
	lsr	x9, x9, #4
	cmp	x9, #624
	and	w12, w10, #0xff
	mul	w11, w12, w11
	mov	w12, #10
	lsr	w11, w11, #11
	msub	w10, w11, w12, w10
	sub	x12, x29, #32
	orr	w9, w11, #0x30
	add	x12, x12, x8
	sub	x8, x8, #2
	strb	w9, [x12, #22]
	orr	w10, w10, #0x30
	strb	w10, [x12, #23]
	b.hi	.Lunix_path_BB52_2
	add	x8, x8, #24
	cmp	x0, #10
	b.hs	.Lunix_path_BB52_8
.Lunix_path_BB52_4:
	sub	x24, x8, #1
	sub	x8, x29, #32
	orr	w9, w0, #0x30
	strb	w9, [x8, x24]
	mov	w8, #24
	cmp	x24, #24
	sub	x2, x8, x24
	b.eq	.Lunix_path_BB52_9
.Lunix_path_BB52_5:
	mov	x0, sp
	mov	x1, x2
	mov	x21, x2
	bl	std_alloc.vec.Vec.grow_amortized.307f257cf2d167af.
	cbz	w0, .Lunix_path_BB52_38
	ldp	x25, x8, [sp, #8]
	mov	x2, x21
	ldr	x20, [sp]
	cmp	x8, #0
	cset	w22, eq
	b	.Lunix_path_BB52_10
.Lunix_path_BB52_7:
	mov	w8, #24
	cmp	x0, #10
	b.lo	.Lunix_path_BB52_4
.Lunix_path_BB52_8:
	and	w9, w0, #0xff
	mov	w10, #205
	sub	x11, x29, #32
	mul	w9, w9, w10
	mov	w10, #10
	add	x11, x11, x8
	sub	x24, x8, #2
	lsr	w9, w9, #11
	msub	w10, w9, w10, w0
	orr	w9, w9, #0x30
	sturb	w9, [x11, #-2]
	orr	w10, w10, #0x30
	sturb	w10, [x11, #-1]
	mov	w8, #24
	cmp	x24, #24
	sub	x2, x8, x24
	b.ne	.Lunix_path_BB52_5
.Lunix_path_BB52_9:
	mov	x25, xzr
	mov	w22, #1
	sub	x20, x29, #1
.Lunix_path_BB52_10:
	sub	x8, x29, #32
	add	x0, x20, x25
	add	x21, x25, x2
	add	x1, x8, x24
	bl	memcpy
	mov	x23, x19
	ldp	x8, x26, [x23, #8]!
	sub	x9, x26, x8
	cmp	x21, x9
	b.hi	.Lunix_path_BB52_32
.Lunix_path_BB52_11:
	ldr	x27, [x19]
	add	x28, x8, x21
	stp	xzr, xzr, [x23]
	add	x0, x27, x8
	sub	x9, x0, x20
	cmp	x9, x21
	b.hs	.Lunix_path_BB52_17
	cmp	x21, #8
	b.lo	.Lunix_path_BB52_14
	add	x9, x8, x27
	sub	x9, x9, x20
	cmp	x9, #32
	b.hs	.Lunix_path_BB52_23
.Lunix_path_BB52_14:
	mov	x9, xzr
.Lunix_path_BB52_15:
	add	x10, x9, x24
	add	x11, x9, x8
	add	x9, x20, x9
	sub	x10, x10, x25
	sub	x8, x10, #24
	add	x10, x27, x11
.Lunix_path_BB52_16:
	ldrb	w11, [x9], #1
	adds	x8, x8, #1
	strb	w11, [x10], #1
	b.lo	.Lunix_path_BB52_16
	b	.Lunix_path_BB52_18
.Lunix_path_BB52_17:
	mov	x1, x20
	mov	x2, x21
	bl	memmove
.Lunix_path_BB52_18:
	cmp	x26, x28
	stp	x27, x28, [x19]
	str	x26, [x19, #16]
	b.eq	.Lunix_path_BB52_34
	mov	w8, #9
	strb	w8, [x27, x28]
	add	x8, x28, #1
	str	x8, [x23]
	tbnz	w22, #0, .Lunix_path_BB52_21
.Lunix_path_BB52_20:
	mov	x0, x20
	bl	rattle_dealloc
.Lunix_path_BB52_21:
	mov	w0, wzr
.Lunix_path_BB52_22:
	ldp	x20, x19, [sp, #176]
	ldp	x22, x21, [sp, #160]
	ldp	x24, x23, [sp, #144]
	ldp	x26, x25, [sp, #128]
	ldp	x28, x27, [sp, #112]
	ldp	x29, x30, [sp, #96]
	add	sp, sp, #192
	ret
.Lunix_path_BB52_23:
	cmp	x21, #32
	b.hs	.Lunix_path_BB52_25
	mov	x9, xzr
	b	.Lunix_path_BB52_29
.Lunix_path_BB52_25:
	add	x12, x8, x27
	and	x10, x21, #0x18
	and	x9, x21, #0xffffffffffffffe0
	add	x11, x20, #16
	add	x12, x12, #16
	and	x13, x21, #0xffffffffffffffe0
.Lunix_path_BB52_26:
	ldp	q0, q1, [x11, #-16]
	subs	x13, x13, #32
	add	x11, x11, #32
	stp	q0, q1, [x12, #-16]
	add	x12, x12, #32
	b.ne	.Lunix_path_BB52_26
	cmp	x21, x9
	b.eq	.Lunix_path_BB52_18
	cbz	x10, .Lunix_path_BB52_15
.Lunix_path_BB52_29:
	mov	x11, x9
	and	x9, x21, #0xfffffffffffffff8
	add	x12, x8, x11
	sub	x10, x11, x9
	add	x11, x20, x11
	add	x12, x27, x12
.Lunix_path_BB52_30:
	ldr	d0, [x11], #8
	adds	x10, x10, #8
	str	d0, [x12], #8
	b.ne	.Lunix_path_BB52_30
	cmp	x21, x9
	b.eq	.Lunix_path_BB52_18
	b	.Lunix_path_BB52_15
.Lunix_path_BB52_32:
	mov	x0, x19
	mov	x1, x21
	bl	std_alloc.vec.Vec.grow_amortized.307f257cf2d167af.
	cbz	w0, .Lunix_path_BB52_36
	ldp	x8, x26, [x19, #8]
	b	.Lunix_path_BB52_11
.Lunix_path_BB52_34:
	mov	x0, x19
	mov	w1, #1
	bl	std_alloc.vec.Vec.grow_amortized.307f257cf2d167af.
	cbz	w0, .Lunix_path_BB52_36
	ldp	x27, x28, [x19]
	mov	w8, #9
	strb	w8, [x27, x28]
	add	x8, x28, #1
	str	x8, [x23]
	tbnz	w22, #0, .Lunix_path_BB52_21
	b	.Lunix_path_BB52_20
.Lunix_path_BB52_36:
	tbnz	w22, #0, .Lunix_path_BB52_41
	mov	x0, x20
	b	.Lunix_path_BB52_40
.Lunix_path_BB52_38:
	ldr	x8, [sp, #16]
	cbz	x8, .Lunix_path_BB52_41
	ldr	x0, [sp]
.Lunix_path_BB52_40:
	bl	rattle_dealloc
.Lunix_path_BB52_41:
	mov	w0, #1
	b	.Lunix_path_BB52_22
.Lunix_path_func_end52:
	.size	pathtool.walks.push_count, .Lunix_path_func_end52-pathtool.walks.push_count
	.section	.text.unlikely.std.io.buffered.BufWriter.write_cold.30751c9e8e42e953.,"ax",@progbits
	.p2align	2
	.type	std.io.buffered.BufWriter.write_cold.30751c9e8e42e953.,@function
// std::io::buffered::BufWriter::write_cold::<#30751c9e8e42e953>
std.io.buffered.BufWriter.write_cold.30751c9e8e42e953.:
	sub	sp, sp, #432
	movi	v0.2d, #0000000000000000
	stp	x22, x21, [sp, #400]
	ldr	x22, [x1, #24]
	stp	x20, x19, [sp, #416]
	mov	x20, x3
	mov	x21, x2
	mov	x19, x0
	cmp	x22, x3
	stp	x29, x30, [sp, #352]
	stp	x28, x25, [sp, #368]
	add	x29, sp, #352
	stp	x24, x23, [sp, #384]
	stp	q0, q0, [sp, #80]
	stp	q0, q0, [sp, #112]
	stp	q0, q0, [sp, #144]
	b.ls	.Lunix_path_BB53_4
	mov	x25, x1
	stp	q0, q0, [x29, #-96]
	ldr	x8, [x25, #16]!
	stp	q0, q0, [x29, #-64]
	stp	q0, q0, [x29, #-32]
	sub	x9, x22, x8
	cmp	x9, x20
	b.hs	.Lunix_path_BB53_9
	sub	x0, x29, #96
	mov	x23, x1
	bl	std.io.buffered.BufWriter.flush_buf.30751c9e8e42e953.
	ldurb	w8, [x29, #-96]
	cbz	w8, .Lunix_path_BB53_8
	ldp	q0, q1, [x29, #-64]
	mov	w8, #1
	ldp	q2, q4, [x29, #-32]
	ldur	q3, [x29, #-80]
	ldur	x9, [x29, #-88]
	stp	q0, q1, [sp, #16]
	stp	q2, q4, [sp, #48]
	str	q3, [sp]
	stp	x8, x9, [x19]
	str	q4, [x19, #80]
	stp	q3, q0, [x19, #16]
	stp	q1, q2, [x19, #48]
	b	.Lunix_path_BB53_19
.Lunix_path_BB53_4:
	add	x0, sp, #80
	bl	std.io.buffered.BufWriter.flush_buf.30751c9e8e42e953.
	ldrb	w8, [sp, #80]
	cbz	w8, .Lunix_path_BB53_6
	ldp	q0, q1, [sp, #128]
	mov	w9, #1
	ldr	x8, [sp, #88]
	stp	q0, q1, [x19, #48]
	ldr	q0, [sp, #160]
	stp	x9, x8, [x19]
	str	q0, [x19, #80]
	ldp	q0, q2, [sp, #96]
	stp	q0, q2, [x19, #16]
	b	.Lunix_path_BB53_19
.Lunix_path_BB53_6:
	movi	v0.2d, #0000000000000000
	mov	w0, #1
	mov	x1, x21
	mov	x2, x20
	stp	q0, q0, [sp, #192]
	stp	q0, q0, [sp, #224]
	str	q0, [sp, #176]
	bl	write
	tbnz	x0, #63, .Lunix_path_BB53_17
	cmp	x0, x20
	mov	x9, xzr
	csel	x8, x0, x20, lo
	b	.Lunix_path_BB53_18
.Lunix_path_BB53_8:
	ldp	x8, x22, [x23, #16]
	mov	x1, x23
	sub	x9, x22, x8
	cmp	x20, x9
	b.hi	.Lunix_path_BB53_29
.Lunix_path_BB53_9:
	ldr	x23, [x1, #8]
	add	x24, x8, x20
	stp	xzr, xzr, [x25]
	add	x0, x23, x8
	sub	x9, x0, x21
	cmp	x9, x20
	b.hs	.Lunix_path_BB53_15
	cmp	x20, #8
	b.lo	.Lunix_path_BB53_12
	add	x9, x8, x23
	sub	x9, x9, x21
	cmp	x9, #32
	b.hs	.Lunix_path_BB53_20
.Lunix_path_BB53_12:
	mov	x9, xzr
.Lunix_path_BB53_13:
	add	x10, x9, x8
	sub	x8, x20, x9
	add	x9, x21, x9
	add	x10, x23, x10
.Lunix_path_BB53_14:
	ldrb	w11, [x9], #1
	subs	x8, x8, #1
	strb	w11, [x10], #1
	b.ne	.Lunix_path_BB53_14
	b	.Lunix_path_BB53_16
.Lunix_path_BB53_15:
	mov	x25, x1
	mov	x1, x21
	mov	x2, x20
	bl	memmove
	mov	x1, x25
.Lunix_path_BB53_16:
	movi	v0.2d, #0000000000000000
	stp	x23, x24, [x1, #8]
	str	x22, [x1, #24]
	stp	xzr, x20, [x19]
	stp	q0, q0, [x19, #16]
	stp	q0, q0, [x19, #48]
	str	q0, [x19, #80]
	b	.Lunix_path_BB53_19
.Lunix_path_BB53_17:
	sub	x20, x29, #96
	bl	rattle_errno
	mov	w1, w0
	sub	x0, x29, #96
	bl	std_io.io.error.Error.from_raw_os_error
	ldur	q0, [x20, #24]
	ldur	q1, [x20, #40]
	mov	w9, #1
	ldur	q2, [x20, #56]
	ldur	q3, [x20, #8]
	ldur	x8, [x29, #-96]
	stp	q0, q1, [sp, #192]
	ldur	q0, [x20, #72]
	str	q3, [sp, #176]
	stp	q2, q0, [sp, #224]
.Lunix_path_BB53_18:
	ldp	q0, q1, [sp, #208]
	ldr	q2, [sp, #240]
	stp	x9, x8, [x19]
	str	q2, [x19, #80]
	stp	q0, q1, [x19, #48]
	ldp	q1, q0, [sp, #176]
	stp	q1, q0, [x19, #16]
.Lunix_path_BB53_19:
	ldp	x20, x19, [sp, #416]
	ldp	x22, x21, [sp, #400]
	ldp	x24, x23, [sp, #384]
	ldp	x28, x25, [sp, #368]
	ldp	x29, x30, [sp, #352]
	add	sp, sp, #432
	ret
.Lunix_path_BB53_20:
	cmp	x20, #32
	b.hs	.Lunix_path_BB53_22
	mov	x9, xzr
	b	.Lunix_path_BB53_26
.Lunix_path_BB53_22:
	add	x12, x8, x23
	and	x10, x20, #0x18
	and	x9, x20, #0xffffffffffffffe0
	add	x11, x21, #16
	add	x12, x12, #16
	and	x13, x20, #0xffffffffffffffe0
.Lunix_path_BB53_23:
	ldp	q0, q1, [x11, #-16]
	subs	x13, x13, #32
	add	x11, x11, #32
	stp	q0, q1, [x12, #-16]
	add	x12, x12, #32
	b.ne	.Lunix_path_BB53_23
	cmp	x20, x9
	b.eq	.Lunix_path_BB53_16
	cbz	x10, .Lunix_path_BB53_13
.Lunix_path_BB53_26:
	mov	x11, x9
	and	x9, x20, #0xfffffffffffffff8
	add	x12, x8, x11
	sub	x10, x11, x9
	add	x11, x21, x11
	add	x12, x23, x12
.Lunix_path_BB53_27:
	ldr	d0, [x11], #8
	adds	x10, x10, #8
	str	d0, [x12], #8
	b.ne	.Lunix_path_BB53_27
	cmp	x20, x9
	b.eq	.Lunix_path_BB53_16
	b	.Lunix_path_BB53_13
.Lunix_path_BB53_29:
	add	x0, x1, #8
	mov	x1, x20
	bl	std_alloc.vec.Vec.grow_amortized.307f257cf2d167af.
	cbz	w0, .Lunix_path_BB53_31
	ldp	x8, x22, [x23, #16]
	mov	x1, x23
	b	.Lunix_path_BB53_9
.Lunix_path_BB53_31:
	brk	#0x1
.Lunix_path_func_end53:
	.size	std.io.buffered.BufWriter.write_cold.30751c9e8e42e953., .Lunix_path_func_end53-std.io.buffered.BufWriter.write_cold.30751c9e8e42e953.
	.section	.rodata.cst16,"aM",@progbits,16
	.p2align	4, 0x0
.Lunix_path_CPI54_0:
	.xword	8386094071426675301
	.xword	3327647950551527009
.Lunix_path_CPI54_1:
	.xword	2334399978102268015
	.xword	7378714103803897972
.Lunix_path_CPI54_2:
	.xword	2168578
	.xword	8367798494427701606
.Lunix_path_CPI54_3:
	.byte	0
	.byte	1
	.byte	2
	.byte	3
	.byte	4
	.byte	5
	.byte	6
	.byte	7
	.byte	8
	.byte	9
	.byte	10
	.byte	11
	.byte	12
	.byte	13
	.byte	14
	.byte	15
.Lunix_path_CPI54_4:
	.byte	16
	.byte	17
	.byte	18
	.byte	19
	.byte	20
	.byte	21
	.byte	22
	.byte	23
	.byte	24
	.byte	25
	.byte	26
	.byte	27
	.byte	28
	.byte	29
	.byte	30
	.byte	31
	.section	.rodata.cst8,"aM",@progbits,8
	.p2align	3, 0x0
.Lunix_path_CPI54_5:
	.byte	32
	.byte	33
	.byte	34
	.byte	35
	.byte	36
	.byte	37
	.byte	38
	.byte	39
	.section	.text.std.io.buffered.BufWriter.flush_buf.30751c9e8e42e953.,"ax",@progbits
	.p2align	2
	.type	std.io.buffered.BufWriter.flush_buf.30751c9e8e42e953.,@function
// std::io::buffered::BufWriter::flush_buf::<#30751c9e8e42e953>
std.io.buffered.BufWriter.flush_buf.30751c9e8e42e953.:
	sub	sp, sp, #288
	stp	x24, x23, [sp, #240]
	ldr	x23, [x1, #16]
	stp	x22, x21, [sp, #256]
	mov	x21, xzr
	stp	x20, x19, [sp, #272]
	mov	x20, x1
	mov	x19, x0
	stp	x29, x30, [sp, #192]
	add	x29, sp, #192
	stp	x28, x27, [sp, #208]
	stp	x26, x25, [sp, #224]
	cbz	x23, .Lunix_path_BB54_9
	ldr	x24, [x20, #8]
	add	x22, sp, #96
.Lunix_path_BB54_2:
	mov	x26, xzr
	sub	x25, x23, x21
.Lunix_path_BB54_3:
	adds	x26, x26, #1
	b.hs	.Lunix_path_BB54_11
	add	x1, x24, x21
	sub	x2, x23, x21
	mov	w0, #1
	bl	write
	tbz	x0, #63, .Lunix_path_BB54_7
	bl	rattle_errno
	mov	w1, w0
	add	x0, sp, #96
	add	x27, sp, #96
	bl	std_io.io.error.Error.from_raw_os_error
	ldur	q0, [x22, #56]
	ldur	q1, [x22, #72]
	adrp	x8, .Lunix_path_CPI54_3
	ldr	x9, [sp, #96]
	ldr	q3, [x8, :lo12:.Lunix_path_CPI54_3]
	adrp	x8, .Lunix_path_CPI54_4
	stp	q0, q1, [sp, #64]
	ldp	q0, q1, [sp, #96]
	ubfx	w10, w9, #8, #8
	ldr	q4, [x8, :lo12:.Lunix_path_CPI54_4]
	adrp	x8, .Lunix_path_CPI54_5
	ldr	q2, [sp, #128]
	ldr	d5, [x8, :lo12:.Lunix_path_CPI54_5]
	mov	w11, #40
	ldr	x8, [sp, #144]
	cmp	w10, #41
	stp	q3, q4, [sp, #96]
	str	d5, [sp, #128]
	strb	w11, [sp, #136]
	b.hs	.Lunix_path_BB54_10
	ubfx	x9, x9, #8, #6
	ldrb	w9, [x27, x9]
	cmp	w9, #35
	b.eq	.Lunix_path_BB54_3
	b	.Lunix_path_BB54_10
.Lunix_path_BB54_7:
	cmp	x0, x25
	csel	x8, x0, x25, lo
	cbz	x8, .Lunix_path_BB54_30
	add	x21, x8, x21
	cmp	x21, x23
	b.lo	.Lunix_path_BB54_2
.Lunix_path_BB54_9:
	movi	v0.2d, #0000000000000000
	mov	w9, wzr
	mov	x8, xzr
	movi	v1.2d, #0000000000000000
	movi	v2.2d, #0000000000000000
	stp	q0, q0, [sp]
	ldr	x11, [x20, #16]
	subs	x10, x11, x21
	b.ne	.Lunix_path_BB54_13
	b	.Lunix_path_BB54_27
.Lunix_path_BB54_10:
	ldp	q3, q4, [sp, #64]
	b	.Lunix_path_BB54_12
.Lunix_path_BB54_11:
	adrp	x2, .Lunix_path_static.57
	add	x2, x2, :lo12:.Lunix_path_static.57
	add	x0, sp, #96
	mov	w1, #22
	mov	w3, #43
	bl	std_io.io.error.Error.from_static_message
	ldp	q0, q1, [sp, #96]
	ldur	q3, [x22, #56]
	ldur	q4, [x22, #72]
	ldr	q2, [sp, #128]
	ldr	x8, [sp, #144]
.Lunix_path_BB54_12:
	stp	q3, q4, [sp, #32]
	ldp	q3, q4, [sp, #32]
	stp	q3, q4, [sp]
	mov	w9, #1
	ldr	x11, [x20, #16]
	subs	x10, x11, x21
	b.eq	.Lunix_path_BB54_27
.Lunix_path_BB54_13:
	ldr	x12, [x20, #8]
	cmp	x10, #8
	mov	x13, xzr
	b.lo	.Lunix_path_BB54_24
	add	x14, x21, #31
	cmp	x14, #32
	b.lo	.Lunix_path_BB54_24
	cmp	x10, #32
	b.hs	.Lunix_path_BB54_17
	mov	x13, xzr
	b	.Lunix_path_BB54_21
.Lunix_path_BB54_17:
	and	x14, x10, #0x18
	and	x13, x10, #0xffffffffffffffe0
	mov	x15, x12
	and	x16, x10, #0xffffffffffffffe0
.Lunix_path_BB54_18:
	add	x17, x15, x21
	subs	x16, x16, #32
	ldp	q3, q4, [x17]
	stp	q3, q4, [x15], #32
	b.ne	.Lunix_path_BB54_18
	cmp	x10, x13
	b.eq	.Lunix_path_BB54_26
	cbz	x14, .Lunix_path_BB54_24
.Lunix_path_BB54_21:
	mov	x15, x13
	and	x13, x10, #0xfffffffffffffff8
	sub	x14, x15, x13
	add	x15, x12, x15
.Lunix_path_BB54_22:
	ldr	d3, [x15, x21]
	adds	x14, x14, #8
	str	d3, [x15], #8
	b.ne	.Lunix_path_BB54_22
	cmp	x10, x13
	b.eq	.Lunix_path_BB54_26
.Lunix_path_BB54_24:
	sub	x11, x11, x13
	add	x12, x12, x13
	sub	x11, x11, x21
.Lunix_path_BB54_25:
	ldrb	w13, [x12, x21]
	subs	x11, x11, #1
	strb	w13, [x12], #1
	b.ne	.Lunix_path_BB54_25
.Lunix_path_BB54_26:
	ldr	x21, [x20, #16]
.Lunix_path_BB54_27:
	cmp	x21, x10
	b.ls	.Lunix_path_BB54_29
	str	x10, [x20, #16]
.Lunix_path_BB54_29:
	stur	q0, [x19, #8]
	ldp	x22, x21, [sp, #256]
	stur	q1, [x19, #24]
	ldp	q0, q1, [sp]
	strb	w9, [x19]
	ldp	x24, x23, [sp, #240]
	stur	q2, [x19, #40]
	ldp	x26, x25, [sp, #224]
	str	x8, [x19, #56]
	ldp	x28, x27, [sp, #208]
	stp	q0, q1, [x19, #64]
	ldp	x20, x19, [sp, #272]
	ldp	x29, x30, [sp, #192]
	add	sp, sp, #288
	ret
.Lunix_path_BB54_30:
	movi	v3.16b, #46
	adrp	x8, .Lunix_path_CPI54_0
	adrp	x9, .Lunix_path_CPI54_1
	adrp	x10, .Lunix_path_CPI54_2
	ldr	q2, [x8, :lo12:.Lunix_path_CPI54_0]
	ldr	q1, [x9, :lo12:.Lunix_path_CPI54_1]
	ldr	q0, [x10, :lo12:.Lunix_path_CPI54_2]
	mov	x8, #1012762419733073422
	orr	x8, x8, #0x2222222222222222
	stp	q3, q3, [sp]
	mov	w9, #1
	ldr	x11, [x20, #16]
	subs	x10, x11, x21
	b.ne	.Lunix_path_BB54_13
	b	.Lunix_path_BB54_27
.Lunix_path_func_end54:
	.size	std.io.buffered.BufWriter.flush_buf.30751c9e8e42e953., .Lunix_path_func_end54-std.io.buffered.BufWriter.flush_buf.30751c9e8e42e953.
	.section	.text.std_io.io.error.Error.from_static_message,"ax",@progbits
	.p2align	2
	.type	std_io.io.error.Error.from_static_message,@function
// std_io::io::error::Error::from_static_message
std_io.io.error.Error.from_static_message:
	sub	sp, sp, #192
	ldr	x8, [x2]
	cmp	x3, #15
	stp	x28, x27, [sp, #112]
	stp	x26, x25, [sp, #128]
	stp	x30, x8, [sp, #96]
	ldr	w8, [x2, #8]
	stp	x24, x23, [sp, #144]
	str	x8, [sp, #64]
	ldrb	w8, [x2, #12]
	stp	x22, x21, [sp, #160]
	str	x8, [sp, #56]
	ldrb	w8, [x2, #13]
	stp	x20, x19, [sp, #176]
	str	x8, [sp, #72]
	ldrb	w8, [x2, #14]
	str	w1, [sp, #92]
	str	x8, [sp, #80]
	b.ne	.Lunix_path_BB55_2
	mov	x17, #12947848928690176
	mov	x14, #197568495616
	mov	w15, #46
	mov	x22, #50577534877696
	mov	x2, #3314649325744685056
	mov	w16, #3014656
	mov	w25, #771751936
	mov	w21, #11776
	mov	w8, #11776
	mov	x9, #3314649325744685056
	mov	x11, #50577534877696
	mov	w12, #771751936
	mov	w20, #11776
	mov	x7, #3314649325744685056
	mov	x6, #50577534877696
	mov	w4, #771751936
	mov	w18, #11776
	mov	x13, #3314649325744685056
	b	.Lunix_path_BB55_6
.Lunix_path_BB55_2:
	ldrb	w8, [x2, #15]
	cmp	x3, #17
	lsl	x13, x8, #56
	b.lo	.Lunix_path_BB55_5
	ldrb	w15, [x2, #16]
	cmp	x3, #17
	b.ne	.Lunix_path_BB55_16
	mov	w5, #46
	mov	x17, #12947848928690176
	mov	x14, #197568495616
	mov	x22, #50577534877696
	mov	x2, #3314649325744685056
	mov	w16, #3014656
	mov	w25, #771751936
	mov	w21, #11776
	mov	w8, #11776
	mov	x9, #3314649325744685056
	mov	x11, #50577534877696
	mov	w12, #771751936
	mov	w20, #11776
	mov	x7, #3314649325744685056
	mov	x6, #50577534877696
	mov	w4, #771751936
	mov	w18, #11776
	b	.Lunix_path_BB55_7
.Lunix_path_BB55_5:
	mov	x17, #12947848928690176
	mov	x14, #197568495616
	mov	w15, #46
	mov	x22, #50577534877696
	mov	x2, #3314649325744685056
	mov	w16, #3014656
	mov	w25, #771751936
	mov	w21, #11776
	mov	w8, #11776
	mov	x9, #3314649325744685056
	mov	x11, #50577534877696
	mov	w12, #771751936
	mov	w20, #11776
	mov	x7, #3314649325744685056
	mov	x6, #50577534877696
	mov	w4, #771751936
	mov	w18, #11776
.Lunix_path_BB55_6:
	mov	w5, #46
.Lunix_path_BB55_7:
	mov	w19, #3014656
.Lunix_path_BB55_8:
	mov	x30, #197568495616
.Lunix_path_BB55_9:
	mov	x28, #12947848928690176
.Lunix_path_BB55_10:
	mov	w10, #46
.Lunix_path_BB55_11:
	mov	w23, #3014656
.Lunix_path_BB55_12:
	mov	x24, #197568495616
.Lunix_path_BB55_13:
	mov	x26, #12947848928690176
.Lunix_path_BB55_14:
	mov	w27, #46
	mov	w1, #3014656
.Lunix_path_BB55_15:
	orr	x2, x22, x2
	orr	x8, x25, x8
	mov	w10, w10
	orr	x2, x2, x8
	orr	x10, x10, x23
	orr	x9, x11, x9
	orr	x10, x2, x10
	orr	x11, x12, x20
	mov	w15, w15
	ldp	x2, x12, [sp, #56]
	orr	x15, x15, x16
	mov	w5, w5
	orr	x9, x9, x11
	orr	x11, x6, x7
	orr	x18, x4, x18
	orr	x14, x14, x17
	orr	x12, x12, x2, lsl #32
	mov	w2, #2
	orr	x11, x11, x18
	strb	w2, [x0]
	ldp	x2, x16, [sp, #72]
	orr	x11, x11, x15
	orr	x11, x11, x14
	movi	v0.16b, #46
	orr	x1, x21, x1
	orr	x12, x12, x2, lsl #40
	ldr	w2, [sp, #92]
	mov	w8, w27
	orr	x8, x1, x8
	orr	x1, x24, x26
	strb	w3, [x0, #2]
	orr	x12, x12, x16, lsl #48
	strb	w2, [x0, #1]
	orr	x2, x5, x19
	orr	x9, x9, x2
	ldp	x20, x19, [sp, #176]
	orr	x12, x12, x13
	ldr	x13, [sp, #104]
	orr	x10, x10, x1
	ldp	x22, x21, [sp, #160]
	strb	wzr, [x0, #3]
	stp	x13, x12, [x0, #8]
	orr	x13, x30, x28
	ldr	x30, [sp, #96]
	orr	x9, x9, x13
	ldp	x24, x23, [sp, #144]
	stp	x11, x9, [x0, #24]
	mov	x11, #771751936
	movk	x11, #11822, lsl #32
	ldp	x26, x25, [sp, #128]
	movk	x11, #11822, lsl #48
	ldp	x28, x27, [sp, #112]
	orr	x8, x8, x11
	str	wzr, [x0, #4]
	stp	x10, x8, [x0, #40]
	stur	q0, [x0, #56]
	stur	q0, [x0, #72]
	add	sp, sp, #192
	ret
.Lunix_path_BB55_16:
	ldrb	w8, [x2, #17]
	cmp	x3, #19
	lsl	x18, x8, #8
	b.lo	.Lunix_path_BB55_19
	ldrb	w8, [x2, #18]
	cmp	x3, #19
	lsl	x16, x8, #16
	b.ne	.Lunix_path_BB55_20
	mov	w5, #46
	mov	x17, #12947848928690176
	mov	x14, #197568495616
	mov	x22, #50577534877696
	mov	x2, #3314649325744685056
	mov	w19, #3014656
	mov	w25, #771751936
	mov	w21, #11776
	mov	w8, #11776
	mov	x9, #3314649325744685056
	mov	x11, #50577534877696
	mov	w12, #771751936
	mov	w20, #11776
	mov	x7, #3314649325744685056
	mov	x6, #50577534877696
	mov	w4, #771751936
	b	.Lunix_path_BB55_8
.Lunix_path_BB55_19:
	mov	w5, #46
	mov	x17, #12947848928690176
	mov	x14, #197568495616
	mov	x22, #50577534877696
	mov	x2, #3314649325744685056
	mov	w16, #3014656
	mov	w25, #771751936
	mov	w21, #11776
	mov	w8, #11776
	mov	x9, #3314649325744685056
	mov	x11, #50577534877696
	mov	w12, #771751936
	mov	w20, #11776
	mov	x7, #3314649325744685056
	mov	x6, #50577534877696
	mov	w4, #771751936
	b	.Lunix_path_BB55_7
.Lunix_path_BB55_20:
	ldrb	w8, [x2, #19]
	cmp	x3, #21
	lsl	x4, x8, #24
	b.lo	.Lunix_path_BB55_23
	ldrb	w8, [x2, #20]
	cmp	x3, #21
	lsl	x14, x8, #32
	b.ne	.Lunix_path_BB55_24
	mov	x30, #197568495616
	mov	w5, #46
	mov	x17, #12947848928690176
	mov	x22, #50577534877696
	mov	x2, #3314649325744685056
	mov	w19, #3014656
	mov	w25, #771751936
	mov	w21, #11776
	mov	w8, #11776
	mov	x9, #3314649325744685056
	mov	x11, #50577534877696
	mov	w12, #771751936
	mov	w20, #11776
	mov	x7, #3314649325744685056
	mov	x6, #50577534877696
	b	.Lunix_path_BB55_9
.Lunix_path_BB55_23:
	mov	w5, #46
	mov	x17, #12947848928690176
	mov	x14, #197568495616
	mov	x22, #50577534877696
	mov	x2, #3314649325744685056
	mov	w19, #3014656
	mov	w25, #771751936
	mov	w21, #11776
	mov	w8, #11776
	mov	x9, #3314649325744685056
	mov	x11, #50577534877696
	mov	w12, #771751936
	mov	w20, #11776
	mov	x7, #3314649325744685056
	mov	x6, #50577534877696
	b	.Lunix_path_BB55_8
.Lunix_path_BB55_24:
	ldrb	w8, [x2, #21]
	cmp	x3, #23
	lsl	x6, x8, #40
	b.lo	.Lunix_path_BB55_27
	ldrb	w8, [x2, #22]
	cmp	x3, #23
	lsl	x17, x8, #48
	b.ne	.Lunix_path_BB55_28
	mov	x28, #12947848928690176
	mov	x30, #197568495616
	mov	w5, #46
	mov	x22, #50577534877696
	mov	x2, #3314649325744685056
	mov	w19, #3014656
	mov	w25, #771751936
	mov	w21, #11776
	mov	w8, #11776
	mov	x9, #3314649325744685056
	mov	x11, #50577534877696
	mov	w12, #771751936
	mov	w20, #11776
	mov	x7, #3314649325744685056
	b	.Lunix_path_BB55_10
.Lunix_path_BB55_27:
	mov	x30, #197568495616
	mov	w5, #46
	mov	x17, #12947848928690176
	mov	x22, #50577534877696
	mov	x2, #3314649325744685056
	mov	w19, #3014656
	mov	w25, #771751936
	mov	w21, #11776
	mov	w8, #11776
	mov	x9, #3314649325744685056
	mov	x11, #50577534877696
	mov	w12, #771751936
	mov	w20, #11776
	mov	x7, #3314649325744685056
	b	.Lunix_path_BB55_9
.Lunix_path_BB55_28:
	ldrb	w8, [x2, #23]
	cmp	x3, #25
	lsl	x7, x8, #56
	b.lo	.Lunix_path_BB55_31
	ldrb	w5, [x2, #24]
	cmp	x3, #25
	b.ne	.Lunix_path_BB55_32
	mov	w10, #46
	mov	x28, #12947848928690176
	mov	x30, #197568495616
	mov	x22, #50577534877696
	mov	x2, #3314649325744685056
	mov	w19, #3014656
	mov	w25, #771751936
	mov	w21, #11776
	mov	w8, #11776
	mov	x9, #3314649325744685056
	mov	x11, #50577534877696
	mov	w12, #771751936
	mov	w20, #11776
	b	.Lunix_path_BB55_11
.Lunix_path_BB55_31:
	mov	x28, #12947848928690176
	mov	x30, #197568495616
	mov	w5, #46
	mov	x22, #50577534877696
	mov	x2, #3314649325744685056
	mov	w19, #3014656
	mov	w25, #771751936
	mov	w21, #11776
	mov	w8, #11776
	mov	x9, #3314649325744685056
	mov	x11, #50577534877696
	mov	w12, #771751936
	mov	w20, #11776
	b	.Lunix_path_BB55_10
.Lunix_path_BB55_32:
	ldrb	w8, [x2, #25]
	cmp	x3, #27
	lsl	x20, x8, #8
	b.lo	.Lunix_path_BB55_35
	ldrb	w8, [x2, #26]
	cmp	x3, #27
	lsl	x19, x8, #16
	b.ne	.Lunix_path_BB55_36
	mov	w10, #46
	mov	x28, #12947848928690176
	mov	x30, #197568495616
	mov	x22, #50577534877696
	mov	x2, #3314649325744685056
	mov	w23, #3014656
	mov	w25, #771751936
	mov	w21, #11776
	mov	w8, #11776
	mov	x9, #3314649325744685056
	mov	x11, #50577534877696
	mov	w12, #771751936
	b	.Lunix_path_BB55_12
.Lunix_path_BB55_35:
	mov	w10, #46
	mov	x28, #12947848928690176
	mov	x30, #197568495616
	mov	x22, #50577534877696
	mov	x2, #3314649325744685056
	mov	w19, #3014656
	mov	w25, #771751936
	mov	w21, #11776
	mov	w8, #11776
	mov	x9, #3314649325744685056
	mov	x11, #50577534877696
	mov	w12, #771751936
	b	.Lunix_path_BB55_11
.Lunix_path_BB55_36:
	ldrb	w8, [x2, #27]
	cmp	x3, #29
	lsl	x8, x8, #24
	str	x8, [sp, #48]
	b.lo	.Lunix_path_BB55_39
	ldrb	w8, [x2, #28]
	cmp	x3, #29
	lsl	x8, x8, #32
	str	x8, [sp, #40]
	b.ne	.Lunix_path_BB55_40
	ldp	x30, x12, [sp, #40]
	mov	x24, #197568495616
	mov	w10, #46
	mov	x28, #12947848928690176
	mov	x22, #50577534877696
	mov	x2, #3314649325744685056
	mov	w23, #3014656
	mov	w25, #771751936
	mov	w21, #11776
	mov	w8, #11776
	mov	x9, #3314649325744685056
	mov	x11, #50577534877696
	b	.Lunix_path_BB55_13
.Lunix_path_BB55_39:
	ldr	x12, [sp, #48]
	mov	w10, #46
	mov	x28, #12947848928690176
	mov	x30, #197568495616
	mov	x22, #50577534877696
	mov	x2, #3314649325744685056
	mov	w23, #3014656
	mov	w25, #771751936
	mov	w21, #11776
	mov	w8, #11776
	mov	x9, #3314649325744685056
	mov	x11, #50577534877696
	b	.Lunix_path_BB55_12
.Lunix_path_BB55_40:
	ldrb	w8, [x2, #29]
	cmp	x3, #31
	lsl	x8, x8, #40
	str	x8, [sp, #32]
	b.lo	.Lunix_path_BB55_43
	ldrb	w8, [x2, #30]
	cmp	x3, #31
	lsl	x8, x8, #48
	str	x8, [sp, #24]
	b.ne	.Lunix_path_BB55_45
	ldr	x30, [sp, #40]
	ldr	x28, [sp, #24]
	mov	x26, #12947848928690176
	mov	x24, #197568495616
	mov	w10, #46
	mov	x22, #50577534877696
	mov	x2, #3314649325744685056
	mov	w23, #3014656
	mov	w25, #771751936
	mov	w21, #11776
	mov	w8, #11776
	mov	x9, #3314649325744685056
	b	.Lunix_path_BB55_44
.Lunix_path_BB55_43:
	ldr	x30, [sp, #40]
	mov	x24, #197568495616
	mov	w10, #46
	mov	x28, #12947848928690176
	mov	x22, #50577534877696
	mov	x2, #3314649325744685056
	mov	w23, #3014656
	mov	w25, #771751936
	mov	w21, #11776
	mov	w8, #11776
	mov	x9, #3314649325744685056
	mov	x26, #12947848928690176
.Lunix_path_BB55_44:
	mov	w27, #46
	mov	w1, #3014656
	ldr	x12, [sp, #48]
	ldr	x11, [sp, #32]
	b	.Lunix_path_BB55_15
.Lunix_path_BB55_45:
	ldrb	w8, [x2, #31]
	cmp	x3, #33
	lsl	x8, x8, #56
	str	x8, [sp, #16]
	b.lo	.Lunix_path_BB55_48
	ldrb	w8, [x2, #32]
	cmp	x3, #33
	str	w8, [sp, #12]
	b.ne	.Lunix_path_BB55_49
	mov	w27, #46
	mov	x26, #12947848928690176
	mov	x24, #197568495616
	mov	x22, #50577534877696
	mov	x2, #3314649325744685056
	mov	w23, #3014656
	mov	w25, #771751936
	mov	w21, #11776
	mov	w8, #11776
	b	.Lunix_path_BB55_53
.Lunix_path_BB55_48:
	ldp	x30, x12, [sp, #40]
	mov	x26, #12947848928690176
	ldp	x28, x11, [sp, #24]
	mov	x24, #197568495616
	ldr	x9, [sp, #16]
	mov	w10, #46
	mov	x22, #50577534877696
	mov	x2, #3314649325744685056
	mov	w23, #3014656
	mov	w25, #771751936
	mov	w21, #11776
	mov	w8, #11776
	b	.Lunix_path_BB55_14
.Lunix_path_BB55_49:
	ldrb	w8, [x2, #33]
	cmp	x3, #35
	lsl	x8, x8, #8
	b.lo	.Lunix_path_BB55_52
	ldrb	w9, [x2, #34]
	cmp	x3, #35
	lsl	x23, x9, #16
	b.ne	.Lunix_path_BB55_56
	mov	w27, #46
	mov	x26, #12947848928690176
	mov	x24, #197568495616
	mov	x22, #50577534877696
	mov	x2, #3314649325744685056
	mov	w1, #3014656
	mov	w25, #771751936
	mov	w21, #11776
	b	.Lunix_path_BB55_54
.Lunix_path_BB55_52:
	mov	w27, #46
	mov	x26, #12947848928690176
	mov	x24, #197568495616
	mov	x22, #50577534877696
	mov	x2, #3314649325744685056
	mov	w23, #3014656
	mov	w25, #771751936
	mov	w21, #11776
.Lunix_path_BB55_53:
	mov	w1, #3014656
.Lunix_path_BB55_54:
	ldp	x30, x12, [sp, #40]
.Lunix_path_BB55_55:
	ldp	x28, x11, [sp, #24]
	ldr	x9, [sp, #16]
	ldr	w10, [sp, #12]
	b	.Lunix_path_BB55_15
.Lunix_path_BB55_56:
	ldrb	w9, [x2, #35]
	cmp	x3, #37
	lsl	x25, x9, #24
	b.lo	.Lunix_path_BB55_59
	ldrb	w9, [x2, #36]
	cmp	x3, #37
	lsl	x24, x9, #32
	b.ne	.Lunix_path_BB55_62
	mov	w27, #46
	mov	x26, #12947848928690176
	b	.Lunix_path_BB55_60
.Lunix_path_BB55_59:
	mov	w27, #46
	mov	x26, #12947848928690176
	mov	x24, #197568495616
.Lunix_path_BB55_60:
	mov	x22, #50577534877696
.Lunix_path_BB55_61:
	mov	x2, #3314649325744685056
	mov	w1, #3014656
	mov	w21, #11776
	b	.Lunix_path_BB55_54
.Lunix_path_BB55_62:
	ldrb	w9, [x2, #37]
	cmp	x3, #39
	lsl	x22, x9, #40
	b.lo	.Lunix_path_BB55_65
	ldrb	w9, [x2, #38]
	cmp	x3, #39
	lsl	x26, x9, #48
	b.ne	.Lunix_path_BB55_66
	mov	w27, #46
	b	.Lunix_path_BB55_61
.Lunix_path_BB55_65:
	mov	w27, #46
	mov	x26, #12947848928690176
	b	.Lunix_path_BB55_61
.Lunix_path_BB55_66:
	ldrb	w9, [x2, #39]
	cmp	x3, #41
	lsl	x9, x9, #56
	b.lo	.Lunix_path_BB55_70
	ldrb	w27, [x2, #40]
	cmp	x3, #41
	b.eq	.Lunix_path_BB55_71
	ldrb	w10, [x2, #41]
	cmp	x3, #43
	lsl	x21, x10, #8
	b.lo	.Lunix_path_BB55_73
	ldrb	w10, [x2, #42]
	lsl	x1, x10, #16
	b	.Lunix_path_BB55_72
.Lunix_path_BB55_70:
	mov	w27, #46
.Lunix_path_BB55_71:
	mov	w1, #3014656
	mov	w21, #11776
.Lunix_path_BB55_72:
	ldp	x30, x12, [sp, #40]
	mov	x2, x9
	b	.Lunix_path_BB55_55
.Lunix_path_BB55_73:
	mov	w1, #3014656
	b	.Lunix_path_BB55_72
.Lunix_path_func_end55:
	.size	std_io.io.error.Error.from_static_message, .Lunix_path_func_end55-std_io.io.error.Error.from_static_message
	.section	.rodata.cst16,"aM",@progbits,16
	.p2align	4, 0x0
.Lunix_path_CPI56_0:
	.xword	8458358670138239095
	.xword	3327647951695996518
.Lunix_path_CPI56_1:
	.xword	8367798494427701606
	.xword	2334399978102268015
	.section	.rodata.cst8,"aM",@progbits,8
	.p2align	3, 0x0
.Lunix_path_CPI56_2:
	.hword	2
	.hword	23
	.hword	28
	.hword	0
.Lunix_path_CPI56_3:
	.hword	0
	.hword	35
	.hword	0
	.hword	0
	.section	.text.std_io.io.buffer.Buffer.flush,"ax",@progbits
	.p2align	2
	.type	std_io.io.buffer.Buffer.flush,@function
// std_io::io::buffer::Buffer::flush
std_io.io.buffer.Buffer.flush:
	sub	sp, sp, #208
	stp	x22, x21, [sp, #176]
	ldr	x22, [x0, #1032]
	stp	x29, x30, [sp, #128]
	add	x29, sp, #128
	cmp	x22, #1025
	str	x25, [sp, #144]
	stp	x24, x23, [sp, #160]
	stp	x20, x19, [sp, #192]
	str	xzr, [x0, #1032]
	b.lo	.Lunix_path_BB56_2
	mov	w0, wzr
	b	.Lunix_path_BB56_15
.Lunix_path_BB56_2:
	mov	x24, x0
	mov	x19, x0
	mov	x23, xzr
	ldr	w20, [x24], #4
	add	x25, x22, #64
	b	.Lunix_path_BB56_5
.Lunix_path_BB56_3:
	bl	rattle_errno
	cmp	w0, #4
	b.ne	.Lunix_path_BB56_13
	subs	x25, x25, #1
	b.eq	.Lunix_path_BB56_9
.Lunix_path_BB56_5:
	subs	x21, x22, x23
	b.ls	.Lunix_path_BB56_11
	add	x1, x24, x23
	mov	w0, w20
	mov	x2, x21
	bl	write
	tbnz	x0, #63, .Lunix_path_BB56_3
	cbz	x0, .Lunix_path_BB56_12
	cmp	x0, x21
	csel	x8, x0, x21, lo
	add	x23, x8, x23
	subs	x25, x25, #1
	b.ne	.Lunix_path_BB56_5
.Lunix_path_BB56_9:
	cmp	x22, x23
	b.ls	.Lunix_path_BB56_11
	movi	v1.2d, #0000000000000000
	movi	v2.2d, #0000000000000000
	adrp	x8, .Lunix_path_CPI56_3
	movi	v0.2d, #0000000000000000
	ldr	d3, [x8, :lo12:.Lunix_path_CPI56_3]
	mov	w8, #4
	stp	q1, q1, [sp]
	b	.Lunix_path_BB56_14
.Lunix_path_BB56_11:
	mov	w0, #1
	b	.Lunix_path_BB56_15
.Lunix_path_BB56_12:
	movi	v0.16b, #46
	adrp	x9, .Lunix_path_CPI56_0
	adrp	x10, .Lunix_path_CPI56_1
	adrp	x11, .Lunix_path_CPI56_2
	ldr	q2, [x9, :lo12:.Lunix_path_CPI56_0]
	ldr	q1, [x10, :lo12:.Lunix_path_CPI56_1]
	ldr	d3, [x11, :lo12:.Lunix_path_CPI56_2]
	mov	w8, wzr
	stp	q0, q0, [sp]
	b	.Lunix_path_BB56_14
.Lunix_path_BB56_13:
	mov	w1, w0
	add	x0, sp, #40
	bl	std_io.io.error.Error.from_raw_os_error
	ldr	s0, [sp, #40]
	ldp	q4, q5, [sp, #96]
	ldp	q1, q2, [sp, #48]
	ldr	w8, [sp, #44]
	ushll	v3.8h, v0.8b, #0
	ldur	q0, [sp, #80]
	stp	q4, q5, [sp]
.Lunix_path_BB56_14:
	uzp1	v3.8b, v3.8b, v0.8b
	str	q1, [x19, #1056]
	mov	w0, wzr
	str	q0, [x19, #1088]
	ldp	q1, q0, [sp]
	str	w8, [x19, #1052]
	mov	w8, #1
	str	q2, [x19, #1072]
	str	x8, [x19, #1040]
	str	s3, [x19, #1048]
	str	q1, [x19, #1104]
	str	q0, [x19, #1120]
.Lunix_path_BB56_15:
	ldp	x20, x19, [sp, #192]
	ldr	x25, [sp, #144]
	ldp	x22, x21, [sp, #176]
	ldp	x24, x23, [sp, #160]
	ldp	x29, x30, [sp, #128]
	add	sp, sp, #208
	ret
.Lunix_path_func_end56:
	.size	std_io.io.buffer.Buffer.flush, .Lunix_path_func_end56-std_io.io.buffer.Buffer.flush
	.section	.text.unlikely.core.fmt.formatter.Formatter.write_indented.bf264aed5fa78656.,"ax",@progbits
	.p2align	2
	.type	core.fmt.formatter.Formatter.write_indented.bf264aed5fa78656.,@function
// core::fmt::formatter::Formatter::write_indented::<#bf264aed5fa78656>
core.fmt.formatter.Formatter.write_indented.bf264aed5fa78656.:
	stp	x29, x30, [sp, #-80]!
	str	x25, [sp, #16]
	mov	x29, sp
	stp	x24, x23, [sp, #32]
	stp	x22, x21, [sp, #48]
	stp	x20, x19, [sp, #64]
	cbz	x2, .Lunix_path_BB57_16
	mov	x21, x2
	mov	x20, x1
	mov	x19, x0
	mov	x8, xzr
	mov	x24, xzr
	b	.Lunix_path_BB57_4
.Lunix_path_BB57_2:
	mov	w23, #1
	add	x1, x20, x25
	mov	x0, x19
	mov	x2, x22
	strb	w23, [x19, #1168]
	bl	core.fmt.formatter.Formatter.write_raw.bf264aed5fa78656.
	and	w9, w0, #0xff
	mov	x8, x24
	tbnz	w9, #0, .Lunix_path_BB57_18
.Lunix_path_BB57_3:
	cmp	x24, x21
	b.eq	.Lunix_path_BB57_10
.Lunix_path_BB57_4:
	ldrb	w10, [x20, x24]
	mov	x9, x24
	add	x24, x24, #1
	cmp	w10, #10
	b.ne	.Lunix_path_BB57_3
	subs	x22, x24, x8
	csel	x25, xzr, x8, lo
	cmp	x8, x9
	mov	x8, x24
	b.hi	.Lunix_path_BB57_3
	ldrb	w8, [x19, #1168]
	cmp	w8, #1
	b.ne	.Lunix_path_BB57_2
	ldr	x23, [x19, #1160]
	cbz	x23, .Lunix_path_BB57_2
.Lunix_path_BB57_8:
	adrp	x1, .Lunix_path_static.53
	add	x1, x1, :lo12:.Lunix_path_static.53
	mov	x0, x19
	mov	w2, #4
	bl	core.fmt.formatter.Formatter.write_raw.bf264aed5fa78656.
	and	w8, w0, #0xff
	tbnz	w8, #0, .Lunix_path_BB57_17
	subs	x23, x23, #1
	b.ne	.Lunix_path_BB57_8
	b	.Lunix_path_BB57_2
.Lunix_path_BB57_10:
	cmp	x8, x21
	csel	x22, xzr, x8, hi
	subs	x8, x21, x8
	csel	x21, xzr, x8, lo
	b.ls	.Lunix_path_BB57_16
	ldrb	w8, [x19, #1168]
	cmp	w8, #1
	b.ne	.Lunix_path_BB57_15
	ldr	x23, [x19, #1160]
	cbz	x23, .Lunix_path_BB57_15
.Lunix_path_BB57_13:
	adrp	x1, .Lunix_path_static.53
	add	x1, x1, :lo12:.Lunix_path_static.53
	mov	x0, x19
	mov	w2, #4
	bl	core.fmt.formatter.Formatter.write_raw.bf264aed5fa78656.
	and	w8, w0, #0xff
	tbnz	w8, #0, .Lunix_path_BB57_17
	subs	x23, x23, #1
	b.ne	.Lunix_path_BB57_13
.Lunix_path_BB57_15:
	add	x1, x20, x22
	mov	x0, x19
	mov	x2, x21
	strb	wzr, [x19, #1168]
	ldp	x20, x19, [sp, #64]
	ldp	x22, x21, [sp, #48]
	ldr	x25, [sp, #16]
	ldp	x24, x23, [sp, #32]
	ldp	x29, x30, [sp], #80
	b	core.fmt.formatter.Formatter.write_raw.bf264aed5fa78656.
.Lunix_path_BB57_16:
	mov	w23, wzr
	b	.Lunix_path_BB57_18
.Lunix_path_BB57_17:
	mov	w23, #1
.Lunix_path_BB57_18:
	mov	w0, w23
	ldp	x20, x19, [sp, #64]
	ldp	x22, x21, [sp, #48]
	ldr	x25, [sp, #16]
	ldp	x24, x23, [sp, #32]
	ldp	x29, x30, [sp], #80
	ret
.Lunix_path_func_end57:
	.size	core.fmt.formatter.Formatter.write_indented.bf264aed5fa78656., .Lunix_path_func_end57-core.fmt.formatter.Formatter.write_indented.bf264aed5fa78656.
	.section	.text.core.fmt.formatter.Formatter.write_raw.bf264aed5fa78656.,"ax",@progbits
	.p2align	2
	.type	core.fmt.formatter.Formatter.write_raw.bf264aed5fa78656.,@function
// core::fmt::formatter::Formatter::write_raw::<#bf264aed5fa78656>
core.fmt.formatter.Formatter.write_raw.bf264aed5fa78656.:
	cbz	x2, .Lunix_path_BB58_21
	stp	x29, x30, [sp, #-64]!
	stp	x22, x21, [sp, #32]
	mov	x21, x0
	mov	x8, xzr
	stp	x20, x19, [sp, #48]
	mov	x19, x2
	mov	x20, x1
	str	x23, [sp, #16]
	mov	x29, sp
	b	.Lunix_path_BB58_4
.Lunix_path_BB58_2:
	mov	w10, #1
.Lunix_path_BB58_3:
	add	x8, x10, x8
	cmp	x8, x19
	b.hs	.Lunix_path_BB58_22
.Lunix_path_BB58_4:
	ldrsb	w9, [x20, x8]
	tbz	w9, #31, .Lunix_path_BB58_2
	add	x10, x8, #1
	cmp	x19, x10
	b.ls	.Lunix_path_BB58_29
	ldrsb	w10, [x20, x10]
	tbz	w10, #31, .Lunix_path_BB58_29
	and	w9, w9, #0xff
	cmn	w10, #64
	mov	w11, #-64
	csel	w10, w10, w11, lo
	cmp	w9, #194
	mov	w0, #1
	b.lo	.Lunix_path_BB58_28
	and	w10, w10, #0x7f
	cmp	w10, #63
	b.hi	.Lunix_path_BB58_28
	cmp	w9, #224
	b.hs	.Lunix_path_BB58_11
	mov	w10, #2
	b	.Lunix_path_BB58_3
.Lunix_path_BB58_11:
	add	x11, x8, #2
	cmp	x19, x11
	b.ls	.Lunix_path_BB58_28
	ldrsb	w11, [x20, x11]
	cmn	w11, #65
	b.gt	.Lunix_path_BB58_28
	cmp	w9, #239
	b.hi	.Lunix_path_BB58_17
	lsl	w11, w9, #12
	add	w10, w11, w10, lsl #6
	sub	w10, w10, #224, lsl #12
	cmp	w10, #2048
	b.lo	.Lunix_path_BB58_28
	lsr	w10, w10, #11
	cmp	w10, #27
	mov	w10, #3
	b.lo	.Lunix_path_BB58_3
	cmp	w9, #238
	b.hs	.Lunix_path_BB58_3
	b	.Lunix_path_BB58_28
.Lunix_path_BB58_17:
	add	x11, x8, #3
	cmp	x19, x11
	b.ls	.Lunix_path_BB58_28
	ldrsb	w11, [x20, x11]
	cmn	w11, #65
	b.gt	.Lunix_path_BB58_28
	lsl	w9, w9, #18
	add	w9, w9, w10, lsl #12
	mov	w10, #-62980096
	add	w9, w9, w10
	lsr	w9, w9, #20
	cbnz	w9, .Lunix_path_BB58_28
	mov	w10, #4
	b	.Lunix_path_BB58_3
.Lunix_path_BB58_21:
	mov	w0, wzr
	ret
.Lunix_path_BB58_22:
	ldr	x8, [x21, #1032]
	add	x22, x21, #4
	b	.Lunix_path_BB58_24
.Lunix_path_BB58_23:
	sub	x19, x19, #1
	strb	w23, [x22, x8]
	add	x8, x8, #1
	str	x8, [x21, #1032]
	cbz	x19, .Lunix_path_BB58_30
.Lunix_path_BB58_24:
	ldrb	w23, [x20], #1
	cmp	x8, #1024
	b.lo	.Lunix_path_BB58_23
	mov	x0, x21
	bl	std_io.io.buffer.Buffer.flush
	cbz	w0, .Lunix_path_BB58_29
	ldr	x8, [x21, #1032]
	cmp	x8, #1023
	b.ls	.Lunix_path_BB58_23
	mov	w0, #1
.Lunix_path_BB58_28:
	ldp	x20, x19, [sp, #48]
	ldr	x23, [sp, #16]
	ldp	x22, x21, [sp, #32]
	ldp	x29, x30, [sp], #64
	ret
.Lunix_path_BB58_29:
	mov	w0, #1
	ldp	x20, x19, [sp, #48]
	ldr	x23, [sp, #16]
	ldp	x22, x21, [sp, #32]
	ldp	x29, x30, [sp], #64
	ret
.Lunix_path_BB58_30:
	mov	w0, wzr
	ldp	x20, x19, [sp, #48]
	ldr	x23, [sp, #16]
	ldp	x22, x21, [sp, #32]
	ldp	x29, x30, [sp], #64
	ret
.Lunix_path_func_end58:
	.size	core.fmt.formatter.Formatter.write_raw.bf264aed5fa78656., .Lunix_path_func_end58-core.fmt.formatter.Formatter.write_raw.bf264aed5fa78656.
	.section	.rodata.cst16,"aM",@progbits,16
	.p2align	4, 0x0
.Lunix_path_CPI59_0:
	.xword	0
	.xword	8192
.Lunix_path_CPI59_1:
	.byte	0
	.byte	1
	.byte	2
	.byte	3
	.byte	4
	.byte	5
	.byte	6
	.byte	7
	.byte	8
	.byte	9
	.byte	10
	.byte	11
	.byte	12
	.byte	13
	.byte	14
	.byte	15
.Lunix_path_CPI59_2:
	.byte	16
	.byte	17
	.byte	18
	.byte	19
	.byte	20
	.byte	21
	.byte	22
	.byte	23
	.byte	24
	.byte	25
	.byte	26
	.byte	27
	.byte	28
	.byte	29
	.byte	30
	.byte	31
	.section	.rodata.cst8,"aM",@progbits,8
	.p2align	3, 0x0
.Lunix_path_CPI59_3:
	.byte	32
	.byte	33
	.byte	34
	.byte	35
	.byte	36
	.byte	37
	.byte	38
	.byte	39
	.section	.text.main,"ax",@progbits
	.globl	program_main
	.p2align	2
	.type	program_main,@function
program_main:
	stp	x29, x30, [sp, #-96]!
	sub	x9, sp, #18, lsl #12
	stp	x28, x27, [sp, #16]
	mov	x29, sp
	stp	x26, x25, [sp, #32]
	stp	x24, x23, [sp, #48]
	stp	x22, x21, [sp, #64]
	stp	x20, x19, [sp, #80]
.Lunix_path_BB59_1:
	sub	sp, sp, #3072
	cmp	sp, x9
	str	xzr, [sp]
	b.ne	.Lunix_path_BB59_1
	sub	sp, sp, #224
	add	x22, sp, #2, lsl #12
	mov	w0, #13
	mov	w1, #1
	add	x22, x22, #80
	bl	__sysv_signal
	mov	w0, #8192
	mov	w1, #1
	bl	rattle_alloc
	tbz	w0, #0, .Lunix_path_BB59_33
	mov	x19, x1
	mov	w0, wzr
	mov	x1, xzr
	mov	w2, #1
	sub	x23, x29, #136
	bl	lseek
	lsr	x8, x0, #63
	mov	w1, wzr
	add	x0, sp, #48
	mov	w2, #8208
	mov	w21, #8208
	add	x22, sp, #48
	eor	w20, w8, #0x1
	bl	memset
	mov	w8, #8209
	add	x0, sp, #2, lsl #12
	strb	w20, [x22, x21]
	str	xzr, [x22, x8]
	adrp	x8, .Lunix_path_CPI59_0
	sub	x21, x29, #17
	ldr	q0, [x8, :lo12:.Lunix_path_CPI59_0]
	add	x0, x0, #80
	mov	w1, wzr
	mov	w2, #65536
	str	xzr, [sp, #8264]
	stp	x21, x19, [sp, #8]
	stur	q0, [sp, #24]
	str	xzr, [sp, #40]
	stp	xzr, xzr, [x23, #8]
	str	x21, [x23]
	bl	memset
	mov	x25, xzr
	mov	x26, xzr
	mov	x19, xzr
	mov	x24, xzr
	b	.Lunix_path_BB59_6
.Lunix_path_BB59_4:
	add	x1, sp, #2, lsl #12
	add	x0, x21, x19
	mov	x2, x20
	add	x1, x1, #80
	bl	memmove
.Lunix_path_BB59_5:
	add	x19, x19, x20
	ldr	x26, [sp, #8240]
	ldr	x25, [sp, #8248]
	stp	x19, x24, [x23, #8]
.Lunix_path_BB59_6:
	subs	x8, x25, x26
	adrp	x27, .Lunix_path_CPI59_1
	adrp	x28, .Lunix_path_CPI59_2
	adrp	x22, .Lunix_path_CPI59_3
	b.ne	.Lunix_path_BB59_14
	mov	x20, #-1
.Lunix_path_BB59_8:
	add	x1, sp, #2, lsl #12
	mov	w0, wzr
	mov	w2, #65536
	add	x1, x1, #80
	bl	read
	tbz	x0, #63, .Lunix_path_BB59_13
	bl	rattle_errno
	mov	w1, w0
	sub	x0, x29, #112
	sub	x26, x29, #112
	bl	std_io.io.error.Error.from_raw_os_error
	ldr	x8, [x23, #24]
	ldr	q0, [x27, :lo12:.Lunix_path_CPI59_1]
	mov	w10, #40
	ldr	q1, [x28, :lo12:.Lunix_path_CPI59_2]
	strb	w10, [x23, #64]
	ubfx	w9, w8, #8, #8
	stur	q0, [x23, #24]
	ldr	d0, [x22, :lo12:.Lunix_path_CPI59_3]
	stur	q1, [x23, #40]
	cmp	w9, #41
	str	d0, [x23, #56]
	b.hs	.Lunix_path_BB59_48
	ubfx	x8, x8, #8, #6
	ldrb	w8, [x26, x8]
	cmp	w8, #35
	b.ne	.Lunix_path_BB59_48
	subs	x20, x20, #1
	b.ne	.Lunix_path_BB59_8
	add	x1, sp, #2, lsl #12
	mov	w0, wzr
	mov	w2, #65536
	add	x1, x1, #80
	bl	read
	tbnz	x0, #63, .Lunix_path_BB59_47
.Lunix_path_BB59_13:
	cmp	x0, #16, lsl #12
	mov	w8, #65536
	mov	x26, x25
	csel	x20, x0, x8, lo
	cbnz	x20, .Lunix_path_BB59_15
	b	.Lunix_path_BB59_34
.Lunix_path_BB59_14:
	cmp	x8, #16, lsl #12
	mov	w9, #65536
	add	x10, sp, #48
	csel	x20, x8, x9, lo
	add	x0, sp, #2, lsl #12
	add	x1, x10, x26
	add	x0, x0, #80
	mov	x2, x20
	bl	memcpy
	add	x26, x20, x26
	str	x26, [sp, #8240]
	cbz	x20, .Lunix_path_BB59_34
.Lunix_path_BB59_15:
	sub	x8, x24, x19
	cmp	x20, x8
	b.hi	.Lunix_path_BB59_31
	add	x9, sp, #2, lsl #12
	add	x8, x21, x19
	add	x9, x9, #80
	sub	x8, x8, x9
	cmp	x8, x20
	b.hs	.Lunix_path_BB59_4
.Lunix_path_BB59_17:
	cmp	x20, #8
	b.lo	.Lunix_path_BB59_19
	add	x8, sp, #2, lsl #12
	add	x8, x8, #80
	sub	x8, x19, x8
	add	x8, x8, x21
	cmp	x8, #32
	b.hs	.Lunix_path_BB59_22
.Lunix_path_BB59_19:
	mov	x8, xzr
.Lunix_path_BB59_20:
	add	x10, sp, #2, lsl #12
	add	x11, x8, x19
	sub	x9, x20, x8
	add	x10, x10, #80
	add	x8, x10, x8
	add	x10, x21, x11
.Lunix_path_BB59_21:
	ldrb	w11, [x8], #1
	subs	x9, x9, #1
	strb	w11, [x10], #1
	b.ne	.Lunix_path_BB59_21
	b	.Lunix_path_BB59_5
.Lunix_path_BB59_22:
	cmp	x20, #32
	b.hs	.Lunix_path_BB59_24
	mov	x8, xzr
	b	.Lunix_path_BB59_28
.Lunix_path_BB59_24:
	add	x11, sp, #2, lsl #12
	add	x10, x21, x19
	and	x9, x20, #0x18
	add	x11, x11, #80
	and	x8, x20, #0x1ffe0
	add	x10, x10, #16
	add	x11, x11, #16
	and	x12, x20, #0x1ffe0
.Lunix_path_BB59_25:
	ldp	q0, q1, [x11, #-16]
	subs	x12, x12, #32
	add	x11, x11, #32
	stp	q0, q1, [x10, #-16]
	add	x10, x10, #32
	b.ne	.Lunix_path_BB59_25
	cmp	x20, x8
	b.eq	.Lunix_path_BB59_5
	cbz	x9, .Lunix_path_BB59_20
.Lunix_path_BB59_28:
	mov	x10, x8
	add	x11, sp, #2, lsl #12
	and	x8, x20, #0x1fff8
	add	x11, x11, #80
	add	x12, x19, x10
	sub	x9, x10, x8
	add	x10, x11, x10
	add	x11, x21, x12
.Lunix_path_BB59_29:
	ldr	d0, [x10], #8
	adds	x9, x9, #8
	str	d0, [x11], #8
	b.ne	.Lunix_path_BB59_29
	cmp	x20, x8
	b.eq	.Lunix_path_BB59_5
	b	.Lunix_path_BB59_20
.Lunix_path_BB59_31:
	sub	x0, x29, #136
	mov	x1, x20
	bl	std_alloc.vec.Vec.grow_amortized.307f257cf2d167af.
	cbz	w0, .Lunix_path_BB59_75
	ldp	x19, x24, [x23, #8]
	ldr	x21, [x23]
	add	x9, sp, #2, lsl #12
	add	x8, x21, x19
	add	x9, x9, #80
	sub	x8, x8, x9
	cmp	x8, x20
	b.hs	.Lunix_path_BB59_4
	b	.Lunix_path_BB59_17
.Lunix_path_BB59_33:
	mov	w20, #2
	b	.Lunix_path_BB59_58
.Lunix_path_BB59_34:
	ldr	x21, [x23]
	add	x2, sp, #8
	mov	x1, x19
	mov	x0, x21
	bl	pathtool.run.write_answers.7729a8c5e160c09a.
	tst	w0, #0xff
	b.eq	.Lunix_path_BB59_37
	mov	w20, w1
	cbz	x24, .Lunix_path_BB59_46
	mov	x0, x21
	bl	rattle_dealloc
	mov	w19, wzr
	b	.Lunix_path_BB59_74
.Lunix_path_BB59_37:
	mov	x19, #-1
.Lunix_path_BB59_38:
	movi	v0.2d, #0000000000000000
	add	x20, sp, #2, lsl #12
	add	x0, sp, #2, lsl #12
	add	x0, x0, #80
	add	x1, sp, #8
	stp	q0, q0, [x20, #80]!
	stp	q0, q0, [x20, #32]
	stp	q0, q0, [x20, #64]
	bl	std.io.buffered.BufWriter.flush_buf.30751c9e8e42e953.
	ldrb	w8, [x20]
	cbz	w8, .Lunix_path_BB59_71
	ldrb	w8, [x20, #9]
	ldr	q0, [x27, :lo12:.Lunix_path_CPI59_1]
	mov	w9, #40
	ldr	q1, [x28, :lo12:.Lunix_path_CPI59_2]
	ldr	d2, [x22, :lo12:.Lunix_path_CPI59_3]
	strb	w9, [x20, #40]
	cmp	x8, #41
	stp	q0, q1, [x20]
	str	d2, [sp, #8304]
	b.hs	.Lunix_path_BB59_43
	add	x9, sp, #2, lsl #12
	add	x9, x9, #80
	ldrb	w8, [x9, x8]
	cmp	w8, #35
	b.ne	.Lunix_path_BB59_43
	subs	x19, x19, #1
	b.ne	.Lunix_path_BB59_38
	movi	v0.2d, #0000000000000000
	add	x19, sp, #2, lsl #12
	add	x0, sp, #2, lsl #12
	add	x0, x0, #80
	add	x1, sp, #8
	stp	q0, q0, [x19, #80]!
	stp	q0, q0, [x19, #32]
	stp	q0, q0, [x19, #64]
	bl	std.io.buffered.BufWriter.flush_buf.30751c9e8e42e953.
	ldrb	w8, [x19]
	cbz	w8, .Lunix_path_BB59_71
.Lunix_path_BB59_43:
	cbz	x24, .Lunix_path_BB59_45
	mov	x0, x21
	bl	rattle_dealloc
.Lunix_path_BB59_45:
	mov	w19, wzr
	mov	w20, #1
	b	.Lunix_path_BB59_74
.Lunix_path_BB59_46:
	mov	w19, wzr
	b	.Lunix_path_BB59_74
.Lunix_path_BB59_47:
	bl	rattle_errno
.Lunix_path_BB59_48:
	cbz	x24, .Lunix_path_BB59_50
	ldr	x0, [x23]
	bl	rattle_dealloc
.Lunix_path_BB59_50:
	mov	w20, wzr
	mov	x26, x25
.Lunix_path_BB59_51:
	add	x22, sp, #2, lsl #12
	mov	w19, wzr
.Lunix_path_BB59_52:
	add	x22, x22, #80
	ldur	q0, [sp, #8]
	ldur	q1, [sp, #24]
	add	x0, sp, #2, lsl #12
	add	x0, x0, #80
	sub	x1, x29, #112
	stur	q0, [x23, #24]
	stur	q1, [x23, #40]
	bl	std.io.buffered.BufWriter.flush_buf.30751c9e8e42e953.
	ldr	x8, [x23, #48]
	cbz	x8, .Lunix_path_BB59_54
	ldr	x0, [x23, #32]
	bl	rattle_dealloc
.Lunix_path_BB59_54:
	subs	x1, x26, x25
	b.eq	.Lunix_path_BB59_56
	mov	w0, wzr
	mov	w2, #1
	bl	lseek
.Lunix_path_BB59_56:
	tbz	w19, #0, .Lunix_path_BB59_58
	mov	w0, wzr
	b	.Lunix_path_BB59_69
.Lunix_path_BB59_58:
	add	x23, sp, #2, lsl #12
	mov	w8, #2
	mov	w1, wzr
	add	x23, x23, #80
	mov	w2, #1132
	str	w8, [sp, #8272]
	orr	x0, x23, #0x4
	orr	x19, x23, #0x4
	bl	memset
	movi	v0.2d, #0000000000000000
	add	x10, x23, #1160
	mov	w9, #32
	add	x21, x23, #1140
	str	wzr, [sp, #9420]
	and	x11, x20, #0xff
	str	w9, [sp, #9408]
	adrp	x12, .Lunix_path_switch.table.main
	add	x12, x12, :lo12:.Lunix_path_switch.table.main
	str	xzr, [x21]
	mov	x8, xzr
	add	x20, x23, #1136
	str	q0, [x10]
	mov	x10, #-1
	ldr	q0, [x22, #1136]
	str	x10, [sp, #9424]
	ldr	x22, [x12, x11, lsl #3]
	str	x10, [sp, #64]
	adrp	x10, .Lunix_path_switch.table.main.332.rel
	add	x10, x10, :lo12:.Lunix_path_switch.table.main.332.rel
	str	w9, [sp, #9408]
	ldrsw	x9, [x10, x11, lsl #2]
	str	q0, [sp, #48]
	add	x23, x10, x9
	str	xzr, [x21]
	str	wzr, [sp, #9420]
	b	.Lunix_path_BB59_60
.Lunix_path_BB59_59:
	sub	x22, x22, #1
	add	x8, x9, #1
	strb	w24, [x19, x9]
	str	x8, [sp, #9304]
	cbz	x22, .Lunix_path_BB59_63
.Lunix_path_BB59_60:
	ldrb	w24, [x23], #1
	cmp	x8, #1024
	mov	x9, x8
	b.lo	.Lunix_path_BB59_59
	add	x0, sp, #2, lsl #12
	add	x0, x0, #80
	bl	std_io.io.buffer.Buffer.flush
	cbz	w0, .Lunix_path_BB59_68
	ldr	x9, [sp, #9304]
	cmp	x9, #1023
	b.ls	.Lunix_path_BB59_59
	b	.Lunix_path_BB59_68
.Lunix_path_BB59_63:
	ldr	q0, [sp, #48]
	ldr	x10, [sp, #64]
	mov	w11, #32
	str	q0, [x20]
	str	x10, [x20, #16]
	ldr	q0, [x20]
	str	w11, [sp, #9408]
	ldr	x11, [sp, #9432]
	str	x10, [sp, #64]
	mov	x10, #-1
	str	xzr, [x21]
	str	q0, [sp, #48]
	str	wzr, [x21, #8]
	str	x10, [sp, #9424]
	cbnz	x11, .Lunix_path_BB59_70
	cmp	x9, #1023
	b.lo	.Lunix_path_BB59_67
	add	x0, sp, #2, lsl #12
	add	x0, x0, #80
	bl	std_io.io.buffer.Buffer.flush
	cbz	w0, .Lunix_path_BB59_68
	ldr	x8, [sp, #9304]
	cmp	x8, #1023
	b.hi	.Lunix_path_BB59_68
.Lunix_path_BB59_67:
	mov	w9, #10
	strb	w9, [x19, x8]
	add	x8, x8, #1
	str	x8, [sp, #9304]
.Lunix_path_BB59_68:
	ldr	x8, [sp, #64]
	ldr	q0, [sp, #48]
	mov	x1, x19
	mov	w2, #1132
	str	x8, [x20, #16]
	ldr	w8, [sp, #8272]
	str	q0, [x20]
	str	w8, [sp, #48]
	add	x8, sp, #48
	orr	x0, x8, #0x4
	bl	memcpy
	add	x0, sp, #48
	bl	std_io.io.buffer.Buffer.flush
	mov	w0, #1
.Lunix_path_BB59_69:
	add	sp, sp, #18, lsl #12
	add	sp, sp, #224
	ldp	x20, x19, [sp, #80]
	ldp	x22, x21, [sp, #64]
	ldp	x24, x23, [sp, #48]
	ldp	x26, x25, [sp, #32]
	ldp	x28, x27, [sp, #16]
	ldp	x29, x30, [sp], #96
	ret
.Lunix_path_BB59_70:
	add	x0, sp, #2, lsl #12
	adrp	x1, .Lunix_path_static.58
	add	x1, x1, :lo12:.Lunix_path_static.58
	add	x0, x0, #80
	mov	w2, #1
	bl	core.fmt.formatter.Formatter.write_indented.bf264aed5fa78656.
	b	.Lunix_path_BB59_68
.Lunix_path_BB59_71:
	cbz	x24, .Lunix_path_BB59_73
	mov	x0, x21
	bl	rattle_dealloc
.Lunix_path_BB59_73:
	mov	w20, wzr
	mov	w19, #1
.Lunix_path_BB59_74:
	add	x22, sp, #2, lsl #12
	b	.Lunix_path_BB59_52
.Lunix_path_BB59_75:
	ldr	x8, [x23, #16]
	cbz	x8, .Lunix_path_BB59_77
	ldr	x0, [x23]
	bl	rattle_dealloc
.Lunix_path_BB59_77:
	mov	w20, #2
	b	.Lunix_path_BB59_51
.Lunix_path_func_end59:
	.size	program_main, .Lunix_path_func_end59-program_main
	.type	.Lunix_path_static.1,@object
	.section	.rodata..Lstatic.1,"a",@progbits
.Lunix_path_static.1:
	.size	.Lunix_path_static.1, 0
	.type	.Lunix_path_static.2,@object
	.section	.rodata.cst4,"aM",@progbits,4
.Lunix_path_static.2:
	.ascii	"edit"
	.size	.Lunix_path_static.2, 4
	.type	.Lunix_path_static.3,@object
	.section	.rodata..Lstatic.3,"a",@progbits
.Lunix_path_static.3:
	.ascii	"under"
	.size	.Lunix_path_static.3, 5
	.type	.Lunix_path_static.4,@object
	.section	.rodata..Lstatic.4,"a",@progbits
.Lunix_path_static.4:
	.ascii	"parts"
	.size	.Lunix_path_static.4, 5
	.type	.Lunix_path_static.5,@object
	.section	.rodata.cst4,"aM",@progbits,4
.Lunix_path_static.5:
	.ascii	"back"
	.size	.Lunix_path_static.5, 4
	.type	.Lunix_path_static.6,@object
	.section	.rodata..Lstatic.6,"a",@progbits
.Lunix_path_static.6:
	.ascii	"parent"
	.size	.Lunix_path_static.6, 6
	.type	.Lunix_path_static.7,@object
	.section	.rodata.cst4,"aM",@progbits,4
.Lunix_path_static.7:
	.ascii	"name"
	.size	.Lunix_path_static.7, 4
	.type	.Lunix_path_static.8,@object
.Lunix_path_static.8:
	.ascii	"stem"
	.size	.Lunix_path_static.8, 4
	.type	.Lunix_path_static.10,@object
	.section	.rodata..Lstatic.10,"a",@progbits
.Lunix_path_static.10:
	.ascii	"ancestors"
	.size	.Lunix_path_static.10, 9
	.type	.Lunix_path_static.11,@object
	.section	.rodata..Lstatic.11,"a",@progbits
.Lunix_path_static.11:
	.ascii	"canon"
	.size	.Lunix_path_static.11, 5
	.type	.Lunix_path_static.12,@object
	.section	.rodata.cst4,"aM",@progbits,4
.Lunix_path_static.12:
	.ascii	"show"
	.size	.Lunix_path_static.12, 4
	.type	.Lunix_path_static.13,@object
.Lunix_path_static.13:
	.ascii	"json"
	.size	.Lunix_path_static.13, 4
	.type	.Lunix_path_static.14,@object
.Lunix_path_static.14:
	.ascii	"join"
	.size	.Lunix_path_static.14, 4
	.type	.Lunix_path_static.15,@object
	.section	.rodata..Lstatic.15,"a",@progbits
.Lunix_path_static.15:
	.ascii	"strip"
	.size	.Lunix_path_static.15, 5
	.type	.Lunix_path_static.16,@object
	.section	.rodata..Lstatic.16,"a",@progbits
.Lunix_path_static.16:
	.ascii	"starts"
	.size	.Lunix_path_static.16, 6
	.type	.Lunix_path_static.17,@object
	.section	.rodata.cst4,"aM",@progbits,4
.Lunix_path_static.17:
	.ascii	"ends"
	.size	.Lunix_path_static.17, 4
	.type	.Lunix_path_static.19,@object
.Lunix_path_static.19:
	.ascii	"walk"
	.size	.Lunix_path_static.19, 4
	.type	.Lunix_path_static.20,@object
	.section	.rodata..Lstatic.20,"a",@progbits
.Lunix_path_static.20:
	.ascii	"push:"
	.size	.Lunix_path_static.20, 5
	.type	.Lunix_path_static.22,@object
	.section	.rodata..Lstatic.22,"a",@progbits
.Lunix_path_static.22:
	.ascii	"name:"
	.size	.Lunix_path_static.22, 5
	.type	.Lunix_path_static.23,@object
	.section	.rodata.cst4,"aM",@progbits,4
.Lunix_path_static.23:
	.ascii	"ext:"
	.size	.Lunix_path_static.23, 4
	.type	.Lunix_path_static.24,@object
.Lunix_path_static.24:
	.ascii	"add:"
	.size	.Lunix_path_static.24, 4
	.type	.Lunix_path_static.25,@object
	.section	.rodata..Lstatic.25,"a",@progbits
.Lunix_path_static.25:
	.ascii	"clear"
	.size	.Lunix_path_static.25, 5
	.type	.Lunix_path_static.26,@object
	.section	.rodata..Lstatic.26,"a",@progbits
.Lunix_path_static.26:
	.byte	47
	.size	.Lunix_path_static.26, 1
	.type	.Lunix_path_static.27,@object
	.section	.rodata..Lstatic.27,"a",@progbits
.Lunix_path_static.27:
	.byte	46
	.size	.Lunix_path_static.27, 1
	.type	.Lunix_path_static.28,@object
	.section	.rodata..Lstatic.28,"a",@progbits
.Lunix_path_static.28:
	.ascii	"ok"
	.size	.Lunix_path_static.28, 2
	.type	.Lunix_path_static.29,@object
	.section	.rodata.cst4,"aM",@progbits,4
.Lunix_path_static.29:
	.ascii	"true"
	.size	.Lunix_path_static.29, 4
	.type	.Lunix_path_static.30,@object
	.section	.rodata..Lstatic.30,"a",@progbits
.Lunix_path_static.30:
	.ascii	"false"
	.size	.Lunix_path_static.30, 5
	.type	.Lunix_path_static.31,@object
	.section	.rodata..Lstatic.31,"a",@progbits
.Lunix_path_static.31:
	.ascii	"separator"
	.size	.Lunix_path_static.31, 9
	.type	.Lunix_path_static.33,@object
	.section	.rodata..Lstatic.33,"a",@progbits
.Lunix_path_static.33:
	.zero	2,46
	.size	.Lunix_path_static.33, 2
	.type	.Lunix_path_static.35,@object
	.section	.rodata..Lstatic.35,"a",@progbits
.Lunix_path_static.35:
	.ascii	"\357\277\275"
	.size	.Lunix_path_static.35, 3
	.type	.Lunix_path_static.36,@object
	.section	.rodata..Lstatic.36,"a",@progbits
.Lunix_path_static.36:
	.ascii	"00010203040506070809101112131415161718192021222324252627282930313233343536373839404142434445464748495051525354555657585960616263646566676869707172737475767778798081828384858687888990919293949596979899"
	.size	.Lunix_path_static.36, 200
	.type	.Lunix_path_static.42,@object
	.section	.rodata..Lstatic.42,"a",@progbits
.Lunix_path_static.42:
	.ascii	"\":"
	.size	.Lunix_path_static.42, 2
	.type	.Lunix_path_static.43,@object
	.section	.rodata..Lstatic.43,"a",@progbits
.Lunix_path_static.43:
	.byte	34
	.size	.Lunix_path_static.43, 1
	.type	.Lunix_path_static.45,@object
	.section	.rodata..Lstatic.45,"a",@progbits
	.p2align	4, 0x0
.Lunix_path_static.45:
	.ascii	"?;\241\006)\252?\021Z\326;\222\326S\364\356\007\305$\244Y\312\307J\370ee\033f\264X\225I\366-\r\360\274y]v\277>\242\177\341\256\272\334sy\020,,\330\364So\316\212\337\231Z\351i\350K\212\233\033\007y\224\005\301\266+\240\330\221\204\342\336l\202\342H\227\371Fq\2446\310N\266%\233\026\b#\033\033\375\267\230\215MDz\342\343\367 \016\345\365\3600\376r\177x\260j\214m\2165\251Q^3-\275\275O\237\226\\\205\357\b\262\202\023\3465\200x,\255#G\274\263f+\213\3361\314\257!P\313;Lv\254U0 \373\026\213=\277\033*$\276J\337\223\027k<\350\271\334\255\r\257\2424\255m\035\327x\335\205Kb\350S\331h\255\345@\214dr\206k\2523o=q\324\207\302\030\037Q\257\375\016h\006\225\000\313\214\215\311\251\362\336f%\033\275\022\002H\272\300\375\357\360;\324WK`\3670\266K\001mt\230\376\225v\245\204-^85\275\243\236A\210\221>~;\324\316\245\271u\206\202\254L\006R\3525\316]J\211B\317\223\t\224\321\353\357Cs\262\341\240z\316\225\211\201\370\013\371\305\346\353\024\020\037\032I\031B\373\353\241\366Nww\340&\032\324\246`\233\237\022\372f\312\264\"U\225\230\260 \211\3208\202G\227\270\000\375\2605U]_n\264U\202c\261\214^s \236\035\203\2524\367\211!\353b\274\335/6\220\250\305\344#\325\001u\354\351\245{+\325\273C\264\022\367n6%!\3113\262G-;eU\252\260k\232\n\204ni\273\300\236\231\370\211\276\352\324\234\006\301\r%\312C\352p\006\300v,n%\nDH\361(W^j\222\006\0048\312\333dW\206*\315\226\362\354\365\0047\b\005\306\274\022>\355'u\200\274.h3\306DJ\206\367k\227\215\350q\222\240\353\035!\340\373j\356\263z\243~X1\207[D\223d)\330\272\005\352`YL\236\256\375hr\025\270\2753\216)\207$\271o\337E\032=\003\317\032\346V\340\370y\324\266\323\245\253k0\006b\301\320\217l\030w\230\211\244H\217\226\206\274\207\272\361\304\263\207\336\224\376\253\315\0323<\250\253)).\266\340\024\013\035\177\213\300\360\237%I\013\272\331\334q\214\331M\344^\256\360\354\007o\033\216(\020T\216\257Pa\235\366\331,\350\311J\242\2612\024\351q\333\322\\\":\b\0341\276n\005\257\237\2541'\211\006\364\252H\nc\275m\312\306\232\307\027\376p\253\b\261\325\332\314\273,\t}x\201\271\235=M\326\245\216\305\b`\365\273%N\353\360\223\202F\360\205N\362\366\n\270\362*\257!&\3558#Xl\247\341\256\264\rf\257\365\032\252o(\007,nG\321M\355\220\310\237\215\331P\312Ey\204\333\244\314\202\240(\265\272\007\361\017\345<\227\227e\022\316\177\243\310rb\251I\355S\036\f}\375\376\226\301_\314z\017\273\023\234\350\350%O\334\274\276\374\261w\377\254\351T\214a\221\261w\261\t6\367=\317\252\237\027$j\357\271\365\235\325\035\214\003u\r\203\225\307\035\255Dk(s\005K%oD\322\320\343z\3712\354\nC\371g\343Nw\305j\203b\316\354\233?\247\315\223\367A\234\"\325vE$\373\001\350\302\017\021\301xuRCk\212\324V\355y\002\242\363\251\252xk\211\023\n\203\326DV4\214AE\230S\325V\306k\230\314#\f\326kA\357\221V\276\250\212\354\267\206\276\277,\217\313\306\021k6\354\355\251\326\3632\024\327\367{9?\034\353\002\242\263\224S\314\260?\331\314\365\332\007O\343\245\203\212\340\271h\377\234\217\017@\263\321\311\"\\\217$\255X\350\241\037\302\271\t\b\020#\276\225\231\3316l7\221\212\2472(\f\n\324\253-\373\377\217DG\205\265lQ?2\217\f\311\026\371\371\377\263\025\231\346\342\343\222g\177\331\247=\256;\374\177\220\255\037\320\215\234wA\337\317\021\315\231J\373\237\364\230'D\261\203\325\021\327CV@@\035\372\3071\1771\225\335r%kf\3525(HR\374\034\177\357>}\212\317\356\005\000eC2\332f;\344^\253\216\034\255\202j\007@>\324\276\220@J\2356V\262c\330\221\242\004\350\246DwZhN\"\342uO>\2076\313\005\242\320\025\025q\002\342\252ZS\343\r\251\003>\207\312D[Z\r\203\232U1(\\Q\323\302\206\224\376\nyX\350\221\200\325\036\231\331\022\204r\2509\276M\227nb\266\340\212f\377\217\027\245\217\022\310-!=\n\373\343\230-@\377s]\316\231\013\235\2744f\346|\216\177\034\210\177h\372\200\200N\304\353\301\377\037\034r\237#j\237\0029\241 b\265f\262\377'\243N\207\254DGC\207\311\250\272b\000\237\377\361K\"\251\327\025\031\024\351\373\251\264=`\303?wo\265\311\246\255\217\254q\235\323!M8\264\017U\313\"|\020\231\263\027\316\304Hj`F\241S*~+\233T\177\240\235\001\366mB\374\313Dt\332.\373\340\224O\204\002\301\231\bS\373\376U\021\221\3729\031zc%C1\300\312'\272~\253U5y\210\237X\274\356\223=\360\336X4/\213U\301K\265c\2675u|&\226\026o\001\373\355\252\261\236\242<%\203\222\033\260\273\334\312\301y\251\025^F\313\213\356#w\"\234\352\311\036\031\354\211\315\372\013_\027uv\212\225\241\222{f\037g\354\200\371\3166]\022\024\355\372I\267\032@\347\200'\341\267\202\204\364\026Y\250y\034\345\020\210\220\260\270\354\262\321\322X\2567\t\3141\217\025\252\264\334\346\247\037\206\007\357\231\205\013?\376\262\232\324\341\223\340\221\247g\311j\000g\316\316\275\337\340$m\\,\273\310\340\275B`\000A\241\326\213\030n\210s\367\351\372XmSx@\221I\314\256\236\211jPu\2449\257Hh\226\220\365[\177\332\003\226BR\311\006\204m-\001^zy\231\217\210\203;\323\246{\b\345\310x\201\365\330\327\177\263\252d\n\210\220\232J\036\373\326\3412\317\315_`\325\177\006U\232\240\356\362\\&\315\177\241\340;\\\205\036H\352\300H\252/\364o\300\337\311\330J\263\246&\332$\361\332\224;\361\213\260W\374\216\035`\320X\b\267\326\b=\305vW\316\266]y\022<\202n\312d\fK\214vT\355\201$\265\027\027\313\242\t\375}\317]/\224\251h\242m\242\335\334}\313L|]C5;\371\323\002\013\t\013\025T]\376\257m\032J\001\305{\304\341\246\345&\215T\372\236\033\t\241\234A\266\2325\232\020\237p\260\351\270\306bK\311\003\322c\001\303\300\324\306\214\034$g\370\035\317]Bc\336\340y\370D\374\327\221v@\233\344B\365\022\374\025Y\2306V\373M6\224\020\302\235\223\262\027{[o>\304+z\341C\271\224\362B\234\317\356,\231\005\247Z[\354l\312\363\234\227S\203\203*x\377\306P1r'\b\2750\204\275(d$5V\277\370\244\275N1J\354<\345\354\231\2766\341\225w\033\2076\321^\256\023F\017\224?n\204Y{U\342(\204\205\366\231\230\027\023\271\317\211\345/\332\352\0323\345&t\300~\335W\347!v\357]\310\322\360?O\230H8o\352\226\220\251Skuz\007\355\017c\276Z\006\013\245\274\264\224(\306\022YI\350\323\373m\361\307M\316\353\341\\\331\273\253\327-qd\275\344\366\234\360`3\215\263\317\252\226My\215\275\354\2354\304,9\200\260\240\203U\374\240\327\360\354g\305A\365wG\240\334Dr\265\235\304\206\026\364`\033I\371\252,\344\211\325\316\"\305u(\03419b\233\267\3257]\254\213\202k6\2232c}\307:\202%\313\205t\327\2271\003\002\234\377]\256\274dq\367\236\323\250\206\374\375\203\002\203\177\365\331\353\275M\265\206\bS\250{\375$\303c\337r\320f-\241b\250\312g\322m\036\367Y\236\313GB`\274\244=\251\336\200\203\b\346t\360\205\276\331Rx\353\r\215S\026a\244\213\037\222l'.\220gVfQp\350[y\315\266S\333\243\330\034\272\000\366\3372Fq\331k\200\244(\322\314\016\244\350\200\363\227\277\227\315\317\206\240\315\262\006\200\022\315\"a\360}\257\375\300\203\250\310\201_\b W\200kyl]\033=\261\244\322\372\260;\005t60\343\313c\0321\306\356\246\303\234\234\212\006\021D\374\333\276\374`\275w\252\220\364\303D-H\025U\373\222\356;\271\254\025\325\264\361\364J\034M-\025\335\033u\305\363\213-\005\021\027\231]c\240xZ\324b\322\266\360\356xF\325\\\2774|\310\026q\211\373\206\344\254*\027\230\n4\357\240M=\256\3465]\324\016\254z\016\237\206\200\225\t\241\314Y`\203t\211\022W\031\322F\250\340\272K\311?p8\244\321+\327\254\237\206X\322\230\351\317\335'F\243\006c{\006\314#Tw\203\377\221B\325\261\027L\310;\032\b\277,)Ud\177\266\223J\236\035_\272\312 \312\356wsj=\037\344\234\356\202r{\264~T>\365*\210b\206\223\216C\252#O\232a\236\351\215\2625*\373g8\262\324\224\354\342\000\372\005d1\037\303\364\371\201\306\336\004\335\323\215@\274\203\336~\363\3718<\021<\213E\324H\261P\253$\226^p8G\213\025\013\256W\t\233\335$\326\255;v\214\006\031\356\332\215\331\326\345\200\n\327\245L\345\311\027\244\317\324\250\370\207L\037!\315L\317\237^\274\035\215\003\n\323\366\251\037gi\000 \303Gv+ep\204\314\207t\324s\340A\000\364\331\354);?\306\322\337\324\310\204\220XR\000q\020h\364\t\317w\307\027\n\373\245\264\356f@\215\024\202q\314\302U\271\235\314y\3170U@H\330L\361\306\277\231\325\223\342\037\254\201|jPZ\016\240\255\270/\000\3138\333'\027\242\034\205\344\360\021\b\331\246;\300\375\006\322\361\234\312c\246\035m\026J\217\220J0\275\210F.D\375\376\2072\004N\216Y\232.>v\025\354\234J\236\375)?\205\341\361\357@\272\315\323\032'D\335\305|\364\216\346Y\356+\321(\301\210\3410\225T\367\316X\0310\370t\273\202\271x\365\214>\335\224\232\001\257\037<6Rj\343\347\32620\216\024:\301\301\232'\313\303\346D\334\241\214?\274\261\231\210\361\271\300\370^:\020\253)\345\267\247\025\017`\365\226\347\360\266\366H\324\025t\336\245\021\333\022\270\262\274!\255d4[I\033\021V\017\326\221\027f\337\3534\354\276\000\331\r\261\312\225\311%\273\316\237k\223B\247\356@OQ]=\373;\357i\302\207F\270\022Q*\021\243\245\264\f\372\nk\004\263)X\346\253r\272\352\205\347\360G\334\346\302\342\017\032\367\217V\017ieg!\355Y\223\240s\333\223\340\364\263,S\303>\301ih0\270\210P\322\270\030\362\340\373\023:\307\030BA\036sUr\203sO\227\214\372\230\b\371\236\222\321\345\317\352NdP#\275\2579\277J\267F\367E\337\203\245b}$l\254\333\203\267\2162\214\272\213kr\247]\316\226\303K\211de2?/\251n\006O\021\365\201|\264\236\253\275\376\376\016{S\n\310\242Ur\242\233a\206\3266__\351,t\006\275\205u\207E\001\375\023\206\0047\267#8\021H,\347R\351\226A\374\230\247\305\004\245,\206\025Z\367\240\247\243\374Q;\177\321\373\"\347\333sM\230\232\304H\346=\023\205\357\202\272\353\340\322\320`>\301\365\332_\rXf\253\243\250&\231\007\005\371\2151\263\321\267\020\356?\226\314Rp\177IFw\361\375\037\306\345\224\351\317\273\3773\246\357\355\213\352\266\376\323\233\017\375\361a\325\237\300\217k\351.\245d\376\310\202S|n\272\312\307\260s\306\243z\316\375={ch\033\ni\275\371N\b\\\246\f\241\276\006->!Q\246a\026\234b\n\363\317OInH\270\215i\345\017\372\033\303\372\314\357\303\243\333\211Z&\361\303\336\223\370\342\363\034\340uZF)\226\370\267v:k\\\333m\230#X\023\361\227\263\273\366e\024\t\2063R\211\276,.X\355}\240jt\177Y\213g\300\246+\356\334\034W\264N\244\302\250\357\027\267@8H\333\224\023\344labM\363\222\353\335\344PF\032\022\272\027\035\310\371\272 \260wf\025\036\345\327\240\226\350.\022\035\334t\024\316\n`\3152\357\206$^\221\272V$\023\222\231\201\r\270\200\377\252\250\255\265\265il\355\227\366\377\341\020\346`\277\325\022\031#\343\301c\364\036\372?\215\312\217\234\227\305\253\357\365\215\262|\261\246\370\2170\275\263\203\375\266\226ks\261\336\333]\320\366\263|\254\240\344\274d|F\320\335k\251:Bz\360\315k\344\016\366\276\r,\242\212\306S\311\322\230l\301\206\235\222\263.\021\267J\255\267\250{\007\277\307q\350Dw`z\325d\235\330rI\255d\327\034G\021\213J|l\005_b\207\317\233\330=\r\344\230\325-]\233\307\306\366:\251\303\302N\215\020\035\377Jy4\202yx\264\211\323\2729QX*r\337\316\313`\361K\313\0206\204(\210e\356\264N\227\302\376\270\355\036\376\224C\2452\352\376)b\"=s>'\251\246=z\224\316_R?Z}5\006\b\207\270)\210f\314\034\201\367&\317\260\334\302\007\312\250&4*\200\377c\241\265\360\002\335\223\263\211\374R0\3014`\377\274\311\342\254C\324x \254\273g|\361A8?,\374\rL\252\204K\224K\325\300\3556)\203\247\233\235\021\337\324e^y\236\n1\251\204\363c\221\002\305\325\026J\377\265\027FM}\323e\360\2745C\366EN\216\277\321\316KP.\244?\026\226\001\352\231\326\341q/\206\302^\3449\215\317\233\373\201d\300LZN\273'sv]\210p\303\202z\242}\360o\370\020\325\370\007j:U&\272\221\214\205N\226\2136U\n\367\211\004\211\352\257(\266\357&\342\273.\204\352\314t\254E+\345\333\262\243\253\260\332\352\235\222\022\000\311\213\013;o\311OFk\256\310\222D7\027@\273n\316\t\313\273\343\027\006\332z\267\025\005\035\020j\nB\314\275\252\334\235\207\220Y\345-#\022J\202F\251\237\266\352\251\302T\372W\217\371\253\226\334\"\230\223GdeT\363\351\370-\263\367V\274\223+~xY\275~)p$w\371\337Z\266U<\333N\353W6\357\031\306v\352\373\213\361#k\013\222\"\346\355\003k\240w\024\345\372\256\355\354E\2166\253_\351\304\205\210\225Y\236\271\332\024\264\353\030\002\313\333\021\233Su\375\367\002\264\210\031\241&\237\302\275R\326\201\250\322\374\265\003\341\252_I\360F3m\347K\242R\007|\243D\231\325\333-V\f@\244po\245\223\204-\346\312\177\205R\271k\017P\315L\313\216\270\345\270\237\275\337\246\247\247F\023\244\000 ~\262&\037\247\007\255\227\320\310(\f\214f\000\324\216/xs\310$\314^\202\3722\017/\200\000\211r;V\220\372-\177\366\242\271\377\322:\240@+O\312k4y\371\036\264\313\250\277\207I\310\020\366\342\274\206\201\327\267&\241\376\311\327\364-}\312\331\r6\364\260\3462\270$\237\273\rry\034=P\221C1]\240?\346\355\306*\221\316\227cL\244u\224}t\210\317_\251\370\272\032\341>\276\257\206\311|\316H\265\341\333i\233ha\231\316\255[\350\373\033\002\233\"\332RD\302\303\271?B\231r\342\372\242\302A\253\220g\325\362\032\324g\311\237\207\315\334\245\031\tk\272`\305\227 \311\301\273\207\351\000T\017`\313\005\351\270\266\275h;\262\252\351#\001)\0238>G#g$\355!e\257\nr\266\240\371\013\343\206\fv\3006\224i>[\215\016\344\b\370\316\233\250\217\223pD\271\004\016\2620\022\035\013\266\302\302\222s\270\214\225\347\302Ho^+\362\306\261\271\271;H\363w\275\220\363\032\0136\266\2568\036(\250J\032\360\325\354\264\260\341\215\303c\332\306%2R\335 l\013(\342\016\2558Z~H\234W_S\212\224#\007Y\215Q\330\306\360\235Z\203-7\350\254y\354H\257\260e\216\370lE1\344\370D\"\030\230'\033\333\334\377X\033d\313\236\216\033k\025\017\277\370\360\b\212?/\"=~Fr\342\305\332\322\3566-\213\254\017\273j\314\035\330\016[w\221\207\252\204\370\255\327\351\264\302\237\022G\351\230\352\272\224\352R\273\314\206$b\263G\327\230#?\245\3519\245'\352\177\250\255:\240\031\r\177\354\216\016d\210\216\261\344\237\322\254$\0040h\317S\031\211>\025\371\356\356\243\203\327-\005<B\303\250_+\216Z\267\252\352\214\244My\006\313\022\364\2227\26611eU%\260\315\320\013\344\276\213\330\273\342\021\277>_U\027\216\200\304\016\235\256\256\316j[\326n\016\267*\235\261\240uRDZZ\202E\362\213\n\322du\004\336\310\022g\325\360\360\342\326\356.\215\006\276\222\205\025\373k`\205\226\326MFU=\030\304\266{s\355\234\206\270&<L\341\227\252L\036u\244Z\320(\304\250f0K\237\331=\325\337e\222Mq\0043\365)@\376\216\003\250F\345\253\177{\320\306\342?\2313\320\275r\004R\230\336\226_\232\204x\333\217\277@Dm\217\205f>\226|\367\300\245V\322s\357\250J\244y\023\000\347\335\255\232\230'vc\250\225R]\rX\030\300`UY\301~\261S|\022\273\246\264\020n\036\360\270\252\257q\336\235h\033\327\351\350p\312\004\023\226\263\312\r\007\253b!q&\222\"\r\375\305\227{`=\321\310U\273i\r\260\266jP|\267}\232\270\214\005;+*\304\020\\\344B\262\255\222\216`\363w\343\004[\232z\212\271\216\323\036Y7\2628\360U\034\306\361@\031\355g\262\210f/\305\336Flk\2437.\221_\350\001\337\025\240=;K\254##\306\342\274\272;1a\213\032\b\r\n^\227\354\253w\033l\251\212}9\256!J\220\2145\275\347\226U\"\307S\355\334\307\331T.\332wA\326P~uu\\T\024\352\034\210\351\271\320\325\321\013\345\335\322\222si\231$$\252d\350DK\306N^\225\207w\320\303\277-\255\324>\021\013\357;\361Z\275\264Jb\332\227<\354\204\216\325\315\352\212\255\261\354a\335\372\320\275K'\246\362J\201\245\355\030\336g\272\2249E\255\036\261\317\327\316p\207\224\317\352\200\364\374CK,\263\316\201\215\002M\251y\203%\2411\374\024^\367_B\2420C\240\023X\344n\t>;\2325\365\367\322\312\374S\210\030n\235\312\213\r\312\000\203\362\265\207\375}4U\317d\242^wH~\340\221\267\321t\236\235\201*\003\376J6\225\332\235Xv%\006\022\306\004\"\365\203\275\335\203:Q\305\356\323\256\207\226\367B5yr\226j\222\304R;uD\315\024\276\232\223\202\027\017<\005\267u'\212\222\225\000\232m\3018c\335\022\213\306$S\261,\367\272\200\000\311\361\003^\312\353\026\374\366\323\356{\332tP\240\035\227\204\365\274\246\034\273\364\210\352\032\021\222d\b\345\274\3452l\320\343\3511+\245a\225\266}J\036\354\317\237Cb.2\377:\007]\035\222\216\356\222\223\302\207\324\372\271\376\276\tI\264\24462\252w\270\263\251\211yh\276.L[\341M\304\276\224\225\346\020\n\366K\0017\235\017\331\254\260:\367|\035\220\224\214\363\236\301\204\204S\017\330\\\t5\334$\264\271o\260\006\362\245e(\023\016\264KB\023.\341\323E.D\267\207?\371\313\210Po\t\314\274\214H\3279\025\245i\217\367\376\252$\313\013\377\353\257\033M\210Z\016Ds\265\276\325\355\275\316\376\346\33300\225\370\210\nh1\227\245\2646A_p\211=|\2726+\r\302\375\374\316a\204\021w\314\253L\033i\004v\2202=\274Bz\345\325\224\277\326\017\261\301\302I\232?\246\265il\257\005\2757\206S\035r3\334\200\317\017#\204G\033G\254\305\247\250\244N@\023a\303\323+e\031\342X\027\267\321\351&1\b\254\034Zd;\337O\215\227n\022\203\243p=\n\327\243p=\n\327\243p=\n\327\243\314\314\314\314\314\314\314\314\314\314\314\314\314\314\314\314\000\000\000\000\000\000\000\000\000\000\000\000\000\000\000\200\000\000\000\000\000\000\000\000\000\000\000\000\000\000\000\240\000\000\000\000\000\000\000\000\000\000\000\000\000\000\000\310\000\000\000\000\000\000\000\000\000\000\000\000\000\000\000\372\000\000\000\000\000\000\000\000\000\000\000\000\000\000@\234\000\000\000\000\000\000\000\000\000\000\000\000\000\000P\303\000\000\000\000\000\000\000\000\000\000\000\000\000\000$\364\000\000\000\000\000\000\000\000\000\000\000\000\000\200\226\230\000\000\000\000\000\000\000\000\000\000\000\000\000 \274\276\000\000\000\000\000\000\000\000\000\000\000\000\000(k\356\000\000\000\000\000\000\000\000\000\000\000\000\000\371\002\225\000\000\000\000\000\000\000\000\000\000\000\000@\267C\272\000\000\000\000\000\000\000\000\000\000\000\000\020\245\324\350\000\000\000\000\000\000\000\000\000\000\000\000*\347\204\221\000\000\000\000\000\000\000\000\000\000\000\200\364 \346\265\000\000\000\000\000\000\000\000\000\000\000\2401\251_\343\000\000\000\000\000\000\000\000\000\000\000\004\277\311\033\216\000\000\000\000\000\000\000\000\000\000\000\305.\274\242\261\000\000\000\000\000\000\000\000\000\000@v:k\013\336\000\000\000\000\000\000\000\000\000\000\350\211\004#\307\212\000\000\000\000\000\000\000\000\000\000b\254\305\353x\255\000\000\000\000\000\000\000\000\000\200z\027\267&\327\330\000\000\000\000\000\000\000\000\000\220\254n2x\206\207\000\000\000\000\000\000\000\000\000\264W\n?\026h\251\000\000\000\000\000\000\000\000\000\241\355\314\316\033\302\323\000\000\000\000\000\000\000\000\240\204\024@aQY\204\000\000\000\000\000\000\000\000\310\245\031\220\271\245o\245\000\000\000\000\000\000\000\000:\017 \364'\217\313\316\000\000\000\000\000\000\000@\204\t\224\370x9?\201\000\000\000\000\000\000\000P\345\013\2716\327\007\217\241\000\000\000\000\000\000\000\244\336Ng\004\315\311\362\311\000\000\000\000\000\000\000M\226\"\201E@|o\374\000\000\000\000\000\000 \360\235\265p+\250\255\305\235\000\000\000\000\000\000(l\005\343L6\022\0317\305\000\000\000\000\000\0002\307\306\033\340\303V\337\204\366\000\000\000\000\000@\177<\\\021l:\226\013\023\232\000\000\000\000\000\020\237K\263\025\007\311{\316\227\300\000\000\000\000\000\324\206\036 \333H\273\032\302\275\360\000\000\000\000\200D\024\023\364\210\r\265P\231v\226\000\000\000\000\240U\331\0271\353P\342\244?\024\274\000\000\000\000\b\253\317]\375%\345\032\216O\031\353\000\000\000\000\345\312\241Z\2767\317\320\270\321\357\222\000\000\000@\236=J\361\255\005\003\005'\306\253\267\000\000\000\320\005\315\234m\031\307C\306\260\267\226\345\000\000\000\242#\000\202\344o\\\352{\3162~\217\000\000\200\212,\200\242\335\213\363\344\032\202\277]\263\000\000 \2557 \013\325n0\236\241b/5\340\000\0004\314\"\364&EE\336\002\245\235=!\214\000\000A\177+\261p\226\326\225C\016\005\215)\257\000@\021_v\335\f<L{\324QF\360\363\332\000\310j\373i\n\210\245\017\315$\363+v\330\210\000zEz\004\r\352\216S\000\356\357\266\223\016\253\200\330\326\230E\220\244rh\200\351\253\2448\322\325PG\206\177+\332\246GA\360q\353fc\243\205$\331g_\266\220\220\231QlN\246@<\f\247m\317A\367\343\264\364\377e\007\342\317PK\317\320\244!\211z\016\361\370\277\237D\355\201\022\217\201\202\rj+\031R-\367\257\307\225h\"\327\362!\243\220Dv\237\246\370\364\2339\273\002\353\214o\352\313\264\325SG\3206\362\002\bj\303%p\013\345\376\220e\224,Bb\327\001E\"\232\027&'O\237\365~\271\267\322:MB\326\252\200\235\357\360\"\307\262\336\247e\207\211\340\322\213\325\340\204+\255\353\370/\353\210\237\364U\314cw\205\f3;L\223\233\373%k\307qk\277<\325\246\317\377I\037x\302z\357E9NF\357\213\212\220\303\177\034'\026\363\254\265\313\343\360\213u\227V:\332\317q\330\355\227\027\243\276\034\355\356R=\354\310\320C\216N\351\275\335K\356c\250\252\247L'\373\304\3241\242c\355j\357t>\251\312\350\217\370\034\373$_E^\224D+\022\216S\375\342\2636\3449\356\266\326u\271\026\266\226q\250\274\333`D]\310\251dL\323\347\3151\376F\351U\211\274J:\035\352\276\017\344\220A\276\275\230c\253\253k\335\210\244\244\256\023\035\265\321-\355~<\226\226\306\024\253\315M\232Xd\342\242<T\317\345\035\036\374\354\212\240p`\267~\215\313K)C_\245%;\250\255\310\2148e\336\260\276\236\363\023\267\016\357I\022\331\372\257\206\376\025\3357Cxl2i5n\253\307\374-\024\277-\212\004T\226\007\177\303\302I\226\371{9\331.\271\254\006\351{\311^t3\334\373\367\332\207\217z\347\327\243q\355=\273(\240i\375\332\350\264\231\254\360\206\f\316h\r\3522\b\304\274\021#\"\300\327\254\250\220\001\303\220\244?\n\365+\326\253*\260\r\330\322\372\340y\332\306g&y\333e\253\032\216\b\307\2038Y\030\221\270\001pWR?V\241\261\312\270\244\206o^\265&\002L\355&\317\253\t^\375\346\315\264\005[1X\201OTxa\013\306Z^\260\200!\307\261=\256aci\3269\216w\361u\334\240\3518\036\315\031:\274\003L\310q\325m\223\023\311#\307e@\240H\253\004_:\316JIxX\373v\234?(d\r\353b{\344\300\316-K\027\235\224\203O2\275\320\245;\232\035qB\371\035]\304yd\343~\354D\217\312\000e\r\223wet\365\313\036N\317\023\213\231~ _\350\273j\277h\231~\246!\303\330\355?\236\350v\342jE\357\302\277\036\020\352\363N\351\317\305\242\024\233\305\026\253\263\357\022JrX\321\361\241\273\345\354\200;\356J\320\225\227\334\216\256En\212*\037(a\312\251]D\273\275\2232\032\327\t-\365&r\371<\024u\025\352V\234_p&&<YX\347\033\246,iM\222l\203w\f\260/\213o.\341\242\317w\303\340\266Gd\225\017\234\373m\013z\231\213\303U\364\230\344\254^\275\211A\275$G\354?7\232\265\230\337\216W\266,\354\221\354\355X\347\017\305\000\343~\227\262\355\3437g\266g)/\341S\366\300\233^=\337t\356\202\000\322\340y\275l\364\231X![\206\213\021\252\243\200\006Y\330\354\207q\300\256\351\361g\256\225\224\314 Ho\016\350\351\215p\032d\356\001\332\335\334\177\024\215\005\t1\262X\206\220\3764A\210\025\324\237Y\360FK\275\336\356\2474>\202Q\252\032\311\007p\254\030\236l\226\352\321\301\315\342\345\324\260\335\004\306k\317\342\003\2362#\231\300\255\017\205\034\025\206\267F\203\333\204E\377k\2770\231S\246c\232ge\030d\022\346\026\377F\357|\177\350\317~\300`?\217~\313On_\214\025\256O\361\201\235\3608\0173^\276\343Iw\357\232\231\243m\242\305,\007\323\277\365\255\\\034U\253\001\200\f\t\313\366\367\310\307/s\331sc*\026\002\240O\313\375\372\232\335\334\375\347g(~\332M\001\304\021\237\236\270\001\025T\375\341\201\262\035Q\241\0015\326F\306&B\032\251|Z\"\037e\245\tB\302\213\330\367Xi\260\351\215xu3_\007FiYW\347\232\256\203\034d\261\326R\0007\211\227\303/-\241\301\232\244#\275]\214g\300\204k}\264{x\t\362\340F6\226\272\267@\3702c\316PM\353E\227\230\330\303;\251\345P\266\377\373\001\245 f\027\275\276\316\264\212\023\037\345\243\377zB\316\250?]\3547\001\2616l3o\306\337\214\351\200\311G\272\223\204A]DG\000\013\270\027\360#\341\273\331\250\270\345\221t\025Y\300\r\246\035\354l\331*\020\323\346/\333h\2557\230\310\207\222\023\344\307\032\352C\220\373\021\303\230E\276\272)w\030\335y\241\344T\264z\326\363\376\326m)\364\224^T\330\311\035j\341\ffX_\246\344\231\030\035\2734'\236R\342\214\217\177.\367\317]\300^\344\351\001\261E\347\032\260s\037\372\364Cupv]dB\035\027\241!\334\250S\034yJI\006j\272~Ir\256\004\225\211\222hc\027\235\333\207\004i\336\333\016\332E\372\253\266B<]\204\322\251E\003\326\222\222P\327\370\326\262\251E\272\222#\212\013\302\305\233[\222\206[\206\036\024\327hw\254l\2162\267\202\3626h\362\247&\331\fC\225\327\0072\377d#\257D\002\357\321\270\007\350I\275\346D\177\037\037v\355ja5\203\246\tb\234l \026_\347\246\323\250\305\271\002\244\017\214z\303\207\250\3336\241\220\b\0237h\003\315\211\227,\332TII\302dZ\345k\"!\"\200l\275\267\020\252\233\333\362\375\260\336\006k\251*\240\307\254\345\224\224\202\222o=]\226\310\305S5\310\371\027\037\2729#w\313\214\364\273:\267\250B\372\373nS\024\004v*\377\327x\265\204r\251i\234\272Jh\031\205\023\365\376\r\327\342%\317\023\204\303i]\302_fX\262~\321\214[\357\302\030e\364az\331\373?w/\357\0028\231\325y/\277\230\372\330\317\372\017U\373\252\003\206\377JX\373\356\2768\317\203\371S*\272\225\204g\277].\272\252\356\203a\362{tZ\224\335\262\240\227\372\\\264*\225\344\371\356\232\021q\371\224\337\210=9tau\272]\270\252\001V\3157z\027\353\214G\321\271\022\351:\263\n\301U\340b\254\356\022\270\314\"\264\253\221\t`M1k\230{W\252\027\346\177+\241\026\266\013\270\240\375\205~Z\355\224\235\337_vI\234\343\007s\204\276\023\217X\024}\302\353\373\351\255A\216\310\217%\256\330\262nY\034\263\346zd\031\322\261\273\363\256\331\216_\312o\343_\240\231\275\237F\336TX\rH\271{\336%\356;\004\200\326#\354\212j\256\020\232\247\032V\257\351J\005 \314,\247\255\004\332\224\200Q\241+\033\244\235\006(\377\367\020\331B\b]\360\322D\373\220\206\"\004y\377\232\252\207SJt\254\007\026:5(+EW\277A\225\251\350\\\221\227\211\233\210B\362u\026-/\222\372\323\021\332\272\3765a\225i\267\t.|]\233|\204\225\220i~\203\271\372C%\2149\3334\302\233\245\273\364\003^\344g\371\224.\357\007\022\302\262\002\317\365x\302\272\356\340\033\035}\365DK\271\257a\2012\027si*\331bd\3342\026\236\247\033\272\241\376\334\317\003u\217{}\223\277\233\205\221\242(\312>\324\303DRs\332\\x\257\002\3475\313\262\374\247d\372j\023\210\b:\253\255a\260\001\277\357\235\320\375\270E\030\252\212\b\026\031z\034\302\256k\305E='W\236T\255\212[\237\230\243r\232\306\366K\206x\366\342T\2546\231c?\246\207 <\232\335\247\026\264\033jW\204\177<\317\217\251(\313\300\325Q\034\241\242Dme\237\013\303\363\323\362\375\360%\263\261\244\345Jd\237C\347Yx\304\267\236\226\356\037\336\r\237]=\207\024ap\226\265eF\274\352\247U\321\006\265\f\251Yy\f\374\"\377W\353\362\210\325B$\361\247\t\330\313\207\335u\377\026\223/\353\212Sm\355\021\f\316\276\351TS\277\334\267\372\245m\250\310h\026\217\201.$*(\357\323\345\274\207Di}\001n\371\020\235V\032yu\244\217\254\251\225\303\334\201\3117UD\354`\327\222\215\263\027\024{\364S\342\273\205jU'9\215\367p\340\216\354\314xtm\225\223b\225\270C\270\232F\214\262'\000\227\321\310z8\273\272\246TfAX\257\2361\300\374\005{\231\006ji\320\351\277Q.\333\003\037\370\275\343\354\037D\342A\"\362\027\363\374\210\303&v\255\034\350'\325Z\322\252\356\335/<\253t\260\323\330#\342q\212\361\206Uj\325;\013\326IN\204gV-\207\366Vtube\005\307\205\333ae\001\254\370(\264l\321\022\273\276\3068\247R\272\276\001\32763\341\307\205\327in\370\006\321s4\027aF\002\300\354\234\263&\002E[\244\202\220\001]\371\327\002\360'\204`\260B\026rM\243\364A\264\367\215\003\3541\245x\\\323\233\316 \314qR\241uq\004g~\316\2263\310B\002)\377\206\323\204\351\306b\000\017A> \275i\241y\237h\b\346\243x{\300R\321Mh,\304\tX\307\202\212\337\314V\232p\247Ea\20275\f.\371\221\266\013@v`\246\210\313|\261B\241\307\274\2335\244\016\320\223\370\317j\376\333]\223\211\371\253\302CM\022\304\270\366\203\005\376R5\370\353\367V\363Jp\213z3zr\303\336S!{\363Z\026\230\\L.Y\300\030Ot\326\250\351Y\260\361\033\276s\337yo\360\336b\021\f\023dp\034\356\242\355\250+\254EV\313\335\212\347\213>\306\321\324\205\224\2226\027\327+>\225m\341.\3167\006J\247\2717\004\335\314\266\215\372\310\231\272\301\305\207\034\021\350\242\"\n@\222\230\234\035\240\024\231\333\324\261\n\221K\253\f\320\266\276\003%\310Y\177\022J^M\265\035\326\017\204d\256D.:0\037\227\334\265\240\342\322\345\211\322\376\354\352\\$~s\336\251q\244\215G_,\207>\250%t\255]\020V\024\216\r\261\031w\367(N\022/\321\030u\224k\231\361P\335o\252\232\331pk\275\202/\311<\343\377\226R\212\013U\001\020M\306lc{\373\013\334\277<\347\254N\252\001T\340\367G<Z\372\016\323\357\013!\330q\n\2014\354\372\254ex\\\351\343u\247\024\207\rM\241A\2479\030\177\226\263\343\\S\321\331\250P\240\t\022\021H\336\036|\240\0344\250E\020\3232\004F\253\n\355J\223M\344\221 \211+\352\203?\205\027VM\250\035\370`]\266hk\266\344\244\216f\235\253`\022%6\271\364\343B\006\344\035\316\031`Bk|+\327\301\363x\316\351\203\256\322\200\037\370\022\206[\366L\2620\027B\344$Z\007\241'\266\227g\3623\340\336\374\234R\035\2560I\311\261\243}\001\357@\230\026<D\247\244\331|\233\373N\206\356`\225(\037\216\245\212\350\006\b.A\235\342'*\271\272\362\246\361N\255\242\b\212y\221\304\333\261tgi\257\020\256\242X\313\212\354\327\265\365)\357\250\340\241m\312\254e\027\277\326\363\246\221\231\363*\323X\n\t\375\027?\335n\314\260\020\366\277\260\365\007\357LK\374\335\216\224\212\377\334\224\363\357\216\371d\025\020\257\275J\331\234\266\037\n=\370\225\3617\276\032\324\032m\235\017D\244\247LLv\273\355\305m!\211a\310\204\023U\215\321_\337S\352\264\233\344\264\365<\3752,U\370\342\233kt\222\241\302\035\"3\214\274?wj\266\333\202\206\021\267J3\245\352?\257\253\017\025\005\244\222#\350\325\344\016@\247\362\207M\313)-\203\246;\026\261\005\217\022\020Q\357\351 >t\370#\220\312[\035\307\262\026T%k$\251M\221\366,4\275\262\344x\337\216T\367\302\266\211\320\032\032\234@\266\357\216\253\213\261)\265s$\254\204\241 \303\320\243\253r\226\256\036t\242\220-\327\345\311\350\363\304\214V\017<\332\222\210ez|\246/~q\030\373\027\226\211e\210\267\352\376\230\033\220\273\335\215\336\371\235\373\353~\252e\245>\177\"t*U1Vx\205\372\246\036\325_'\207\217\225\210:\325\3365k\223\\(3\2057\361h\363\272*\211\212V\003F\270s\362\177\246\205-C\260iu+-,\204W\246\020\357\037\320s\374)\016b);\234\233\262\366gj\365\023\202\217{\264\221\272\363I\203B_\364\001\305\362\230\242s\232!6\251p\034$\023wqBv/?\313\020\001\252\203\323\214#\355\327\324\r\323S\373\016\376\252@J2\00486\364\006\245\350c\024]\311\236\325\320\334>\005\306C\261H\316\342|Y\264{\306\n\005\224\216\206\267\224\335\332\201\033\334o\241\032\370&\203\034\031\264\362|\312(1\221\351\345\244\020\233\360\243c\037a/\034\375r}\365c\037\316\324\301\354\214<g9;c\274\317\334\362<\247\001J\362\023\330\205\340\003\005\276\325\001\312\027\206\bAn\227\030N\247\330D\206-K\202\274\235\247J\321I\275\236!\321\016\326\347\370\335\242+\205Q\235E\234\354\003\265B\311\345\220\273\312E;\363R\202\253\341\223Cb\223;\037uj=\027\n\260\347b\026\332\270\324:x\ng\022\305\f\235\f\234\241\373\233\020\347\305$\213f\200+\373'\342\207\001E}aj\220\366\355-\200`\366\371\261\332\351A\226\334\371\204\264si9\240\370sx^Qd\322\273S8\246\341\350\341#d{H\013\333\262~cU4\343\007\215b\332,=\232\032\316\221_^\274j\001\334I\260\373\020x\314@\241Av\367uk\305\001S\\\334\235\n\313\177\310\004\351\251\272)c\033\341\263\271\211D\315\275\237\372EcT)\364;b\331 (\254\225@\255Gy\027|\2513\361\312\272\017)2\327]H\314\314\253\216\355I\300\326\276\324\251Y\177\206tZ\377\277V\362h\\p\214\356I\0240\037\250\0211\377o\354.\203s\214/j\\\031\374&\322\253~\377\305S\3751\310\267]\302\331\217]X\203U^\177\267\250|>\272%\3652\320\363t.\244\3535_\345\322\033\316(o\262?\3040\022:\315\263\201[\317c\321\200y\205\317\247z^KD\200\037b2\303\274\005\341\327f\303Q\0316^U\240\247\372\376\363+G\331\215@4\246\237\303\265j\310Q\271\376\360\366\230O\261P\301\217\2074c\205\372\3233\237V\232\277\321n\322\330\271\324\000^\223\234\310\000G\354\200/\206\n\007O\350\t\2015\270\303\372\300X'a\273'\315\310bbL\341B\246\364\234x\227\270\034\3258\200\275}\275\317\314\351\347\230\303V\275\346c\nG\340,\335\254\003@\344!\277t\254l\340\374\314X\030x\024\230\004P]\352\356\310\353C\f\036\2007\017\313\f\337\002RzR\225\272\346T\217%`\005\323\375\317\226\203\346\030\247\272i *\363.\270\306G\375\203|$ \337P\351AT\372W\0353\334L~\322\315\026t\213\322\221R\351\370\255\344?\023\340\035G\201\034Q.G\266\246#w\331\335\017\030X\345\230\241c\345\371\330\343Hv\352\247\352\t\017W\217\377D^/\234g\216\332\023\345Qe\314\322,s?\3265;\203\001\262\321X^\246~\177\007\370O\317K\003\n\344\201\336\202\367\372'\257\257\004\373\221a\017B\206.\021\213c\265\371\361\232\333\305y\3669\223\322'z\325\255\274\"x\256\201R7\030t\b8\307\261\330J\331\265\025\013\r\221\223\"\217H\005\203\034o\307\316\207\"\333MPu8\353\262\232\306\243\343Jy\302\251\353Qa\244\222\006\246_A\270\214\234\235\0273\3243\323\274\246\033\304\307\333(\363\327\201\302\356\237\204\000\bl\220\"\265\271\022\363\357M\"s\352\307\245\000\n\2074k\"h\327\357k\341\352\017\3459\317@f\324\000\203\025\241\346u\343\314\362)/\204\201\320\177\t\301\343ZI`S\034\200o\364:\345\241\304\337K\261\234\261[8h#`\213\261\211^\312\265\327\236\335\003\236rFB,8\356\035,\366\374\321F\203j\302\242\007l\251\033\343\264\222\333\031\236\205\030$\005s\213\t\307\223\342\033bwR\240\305"
	.size	.Lunix_path_static.45, 10688
	.type	.Lunix_path_static.46,@object
	.section	.rodata..Lstatic.46,"a",@progbits
	.p2align	3, 0x0
.Lunix_path_static.46:
	.ascii	"\001\000\000\000\000\000\000\000\n\000\000\000\000\000\000\000d\000\000\000\000\000\000\000\350\003\000\000\000\000\000\000\020'\000\000\000\000\000\000\240\206\001\000\000\000\000\000@B\017\000\000\000\000\000\200\226\230\000\000\000\000\000\000\341\365\005\000\000\000\000\000\312\232;\000\000\000\000\000\344\013T\002\000\000\000\000\350vH\027\000\000\000\000\020\245\324\350\000\000\000\000\240rN\030\t\000\000\000@z\020\363Z\000\000\000\200\306\244~\215\003\000\000\000\301o\362\206#\000\000\000\212]xEc\001\000\000d\247\263\266\340\r\000\000\350\211\004#\307\212"
	.size	.Lunix_path_static.46, 160
	.type	.Lunix_path_static.47,@object
	.section	.rodata..Lstatic.47,"a",@progbits
.Lunix_path_static.47:
	.ascii	"\000\001\001\002\003\004\005\006\007\b\t\n\013\f\r\016\017\000\001\002\002\003\004\005\006\007\b\t\n\013\f\r\016\017\000\001\002\003\003\004\005\006\007\b\t\n\013\f\r\016\017\000\001\002\003\004\004\005\006\007\b\t\n\013\f\r\016\017\000\001\002\003\004\005\005\006\007\b\t\n\013\f\r\016\017\000\001\002\003\004\005\006\006\007\b\t\n\013\f\r\016\017\000\001\002\003\004\005\006\007\007\b\t\n\013\f\r\016\017\000\001\002\003\004\005\006\007\b\b\t\n\013\f\r\016\017\000\001\002\003\004\005\006\007\b\t\t\n\013\f\r\016\017\000\001\002\003\004\005\006\007\b\t\n\n\013\f\r\016\017\000\001\002\003\004\005\006\007\b\t\n\013\013\f\r\016\017\000\001\002\003\004\005\006\007\b\t\n\013\f\f\r\016\017\000\001\002\003\004\005\006\007\b\t\n\013\f\r\r\016\017\000\001\002\003\004\005\006\007\b\t\n\013\f\r\016\016\017\000\001\002\003\004\005\006\007\b\t\n\013\f\r\016\017\017\000\001\002\003\004\005\006\007\b\t\n\013\f\r\016\017\017"
	.size	.Lunix_path_static.47, 272
	.type	.Lunix_path_static.48,@object
	.section	.rodata..Lstatic.48,"a",@progbits
.Lunix_path_static.48:
	.ascii	"path contains invalid UTF-8 characters"
	.size	.Lunix_path_static.48, 38
	.type	.Lunix_path_static.49,@object
	.section	.rodata.cst16,"aM",@progbits,16
.Lunix_path_static.49:
	.ascii	"prefix not found"
	.size	.Lunix_path_static.49, 16
	.type	.Lunix_path_static.51,@object
	.section	.rodata..Lstatic.51,"a",@progbits
.Lunix_path_static.51:
	.ascii	"equal"
	.size	.Lunix_path_static.51, 5
	.type	.Lunix_path_static.52,@object
	.section	.rodata..Lstatic.52,"a",@progbits
.Lunix_path_static.52:
	.ascii	"greater"
	.size	.Lunix_path_static.52, 7
	.type	.Lunix_path_static.53,@object
	.section	.rodata.cst4,"aM",@progbits,4
.Lunix_path_static.53:
	.zero	4,32
	.size	.Lunix_path_static.53, 4
	.type	.Lunix_path_static.55,@object
	.section	.rodata..Lstatic.55,"a",@progbits
.Lunix_path_static.55:
	.ascii	"bad command"
	.size	.Lunix_path_static.55, 11
	.type	.Lunix_path_static.57,@object
	.section	.rodata..Lstatic.57,"a",@progbits
.Lunix_path_static.57:
	.ascii	"gave up reading or writing after 2^64 tries"
	.size	.Lunix_path_static.57, 43
	.type	.Lunix_path_static.58,@object
	.section	.rodata..Lstatic.58,"a",@progbits
.Lunix_path_static.58:
	.byte	10
	.size	.Lunix_path_static.58, 1
	.type	.Lunix_path_static.59,@object
	.section	.rodata..Lstatic.59,"a",@progbits
.Lunix_path_static.59:
	.ascii	"read error"
	.size	.Lunix_path_static.59, 10
	.type	.Lunix_path_static.60,@object
	.section	.rodata..Lstatic.60,"a",@progbits
.Lunix_path_static.60:
	.ascii	"write error"
	.size	.Lunix_path_static.60, 11
	.type	.Lunix_path_static.61,@object
	.section	.rodata..Lstatic.61,"a",@progbits
.Lunix_path_static.61:
	.ascii	"out of memory"
	.size	.Lunix_path_static.61, 13
	.type	.Lunix_path_switch.table.main,@object
	.section	.rodata..Lswitch.table.main,"a",@progbits
	.p2align	3, 0x0
.Lunix_path_switch.table.main:
	.xword	10
	.xword	11
	.xword	13
	.size	.Lunix_path_switch.table.main, 24
	.type	.Lunix_path_switch.table.main.332.rel,@object
	.section	.rodata..Lswitch.table.main.332.rel,"a",@progbits
	.p2align	2, 0x0
.Lunix_path_switch.table.main.332.rel:
	.word	.Lunix_path_static.59-.Lunix_path_switch.table.main.332.rel
	.word	.Lunix_path_static.60-.Lunix_path_switch.table.main.332.rel
	.word	.Lunix_path_static.61-.Lunix_path_switch.table.main.332.rel
	.size	.Lunix_path_switch.table.main.332.rel, 12
	.section	.note.GNU-stack,"",@progbits
