# unix_path 1.1.0: the program pathtool, except support.c, for x86-64 Linux. Compiled from proved sources.
# tools/generate made this file. PROVED.txt has its SHA-256, and says what it was made from.
# Licensed under MIT or Apache-2.0.
	.section	.text.std_io.io.error.Error.from_raw_os_error,"ax",@progbits
	.p2align	4
	.type	std_io.io.error.Error.from_raw_os_error,@function
# std_io::io::error::Error::from_raw_os_error
std_io.io.error.Error.from_raw_os_error:
	movb	$41, %al
	testl	%esi, %esi
	js	.Lunix_path_BB0_40
	leal	-1(%rsi), %ecx
	cmpl	$121, %ecx
	ja	.Lunix_path_BB0_40
	leaq	.Lunix_path_JTI0_0(%rip), %rdx
	movslq	(%rdx,%rcx,4), %rcx
	addq	%rdx, %rcx
	jmpq	*%rcx
.Lunix_path_BB0_3:
	movb	$1, %al
	jmp	.Lunix_path_BB0_40
.Lunix_path_BB0_24:
	movb	$36, %al
	jmp	.Lunix_path_BB0_40
.Lunix_path_BB0_36:
	movb	$4, %al
	jmp	.Lunix_path_BB0_40
.Lunix_path_BB0_33:
	movb	$7, %al
	jmp	.Lunix_path_BB0_40
.Lunix_path_BB0_39:
	movb	$26, %al
	jmp	.Lunix_path_BB0_40
.Lunix_path_BB0_37:
	movb	$39, %al
	jmp	.Lunix_path_BB0_40
.Lunix_path_BB0_28:
	movb	$9, %al
	jmp	.Lunix_path_BB0_40
.Lunix_path_BB0_27:
	movb	$8, %al
	jmp	.Lunix_path_BB0_40
.Lunix_path_BB0_22:
	movb	$30, %al
	jmp	.Lunix_path_BB0_40
.Lunix_path_BB0_18:
	movb	$25, %al
	jmp	.Lunix_path_BB0_40
.Lunix_path_BB0_20:
	movb	$32, %al
	jmp	.Lunix_path_BB0_40
.Lunix_path_BB0_23:
	movb	$33, %al
	jmp	.Lunix_path_BB0_40
.Lunix_path_BB0_34:
	movb	$22, %al
	jmp	.Lunix_path_BB0_40
.Lunix_path_BB0_11:
	movb	$31, %al
	jmp	.Lunix_path_BB0_40
.Lunix_path_BB0_15:
	movb	$29, %al
	jmp	.Lunix_path_BB0_40
.Lunix_path_BB0_26:
	movb	$18, %al
	jmp	.Lunix_path_BB0_40
.Lunix_path_BB0_29:
	movb	$10, %al
	jmp	.Lunix_path_BB0_40
.Lunix_path_BB0_9:
	movb	$28, %al
	jmp	.Lunix_path_BB0_40
.Lunix_path_BB0_12:
	movb	$14, %al
	jmp	.Lunix_path_BB0_40
.Lunix_path_BB0_10:
	movb	$12, %al
	jmp	.Lunix_path_BB0_40
.Lunix_path_BB0_30:
	movb	$5, %al
	jmp	.Lunix_path_BB0_40
.Lunix_path_BB0_32:
	movb	$3, %al
	jmp	.Lunix_path_BB0_40
.Lunix_path_BB0_4:
	xorl	%eax, %eax
	jmp	.Lunix_path_BB0_40
.Lunix_path_BB0_7:
	movb	$13, %al
	jmp	.Lunix_path_BB0_40
.Lunix_path_BB0_8:
	movb	$38, %al
	jmp	.Lunix_path_BB0_40
.Lunix_path_BB0_21:
	movb	$11, %al
	jmp	.Lunix_path_BB0_40
.Lunix_path_BB0_5:
	movb	$35, %al
	jmp	.Lunix_path_BB0_40
.Lunix_path_BB0_6:
	movb	$34, %al
	jmp	.Lunix_path_BB0_40
.Lunix_path_BB0_14:
	movb	$20, %al
	jmp	.Lunix_path_BB0_40
.Lunix_path_BB0_13:
	movb	$15, %al
	jmp	.Lunix_path_BB0_40
.Lunix_path_BB0_38:
	movb	$19, %al
	jmp	.Lunix_path_BB0_40
.Lunix_path_BB0_25:
	movb	$16, %al
	jmp	.Lunix_path_BB0_40
.Lunix_path_BB0_31:
	movb	$6, %al
	jmp	.Lunix_path_BB0_40
.Lunix_path_BB0_16:
	movb	$27, %al
	jmp	.Lunix_path_BB0_40
.Lunix_path_BB0_17:
	movb	$24, %al
	jmp	.Lunix_path_BB0_40
.Lunix_path_BB0_35:
	movb	$2, %al
	jmp	.Lunix_path_BB0_40
.Lunix_path_BB0_19:
	movb	$17, %al
.Lunix_path_BB0_40:
	movb	$0, (%rdi)
	movb	%al, 1(%rdi)
	movw	$0, 2(%rdi)
	movl	%esi, 4(%rdi)
	xorps	%xmm0, %xmm0
	movups	%xmm0, 8(%rdi)
	movups	%xmm0, 24(%rdi)
	movups	%xmm0, 40(%rdi)
	movups	%xmm0, 56(%rdi)
	movups	%xmm0, 72(%rdi)
	retq
.Lunix_path_func_end0:
	.size	std_io.io.error.Error.from_raw_os_error, .Lunix_path_func_end0-std_io.io.error.Error.from_raw_os_error
	.section	.rodata.std_io.io.error.Error.from_raw_os_error,"a",@progbits
	.p2align	2, 0x0
.Lunix_path_JTI0_0:
	.long	.Lunix_path_BB0_3-.Lunix_path_JTI0_0
	.long	.Lunix_path_BB0_4-.Lunix_path_JTI0_0
	.long	.Lunix_path_BB0_40-.Lunix_path_JTI0_0
	.long	.Lunix_path_BB0_5-.Lunix_path_JTI0_0
	.long	.Lunix_path_BB0_40-.Lunix_path_JTI0_0
	.long	.Lunix_path_BB0_40-.Lunix_path_JTI0_0
	.long	.Lunix_path_BB0_6-.Lunix_path_JTI0_0
	.long	.Lunix_path_BB0_40-.Lunix_path_JTI0_0
	.long	.Lunix_path_BB0_40-.Lunix_path_JTI0_0
	.long	.Lunix_path_BB0_40-.Lunix_path_JTI0_0
	.long	.Lunix_path_BB0_7-.Lunix_path_JTI0_0
	.long	.Lunix_path_BB0_8-.Lunix_path_JTI0_0
	.long	.Lunix_path_BB0_3-.Lunix_path_JTI0_0
	.long	.Lunix_path_BB0_40-.Lunix_path_JTI0_0
	.long	.Lunix_path_BB0_40-.Lunix_path_JTI0_0
	.long	.Lunix_path_BB0_9-.Lunix_path_JTI0_0
	.long	.Lunix_path_BB0_10-.Lunix_path_JTI0_0
	.long	.Lunix_path_BB0_11-.Lunix_path_JTI0_0
	.long	.Lunix_path_BB0_40-.Lunix_path_JTI0_0
	.long	.Lunix_path_BB0_12-.Lunix_path_JTI0_0
	.long	.Lunix_path_BB0_13-.Lunix_path_JTI0_0
	.long	.Lunix_path_BB0_14-.Lunix_path_JTI0_0
	.long	.Lunix_path_BB0_40-.Lunix_path_JTI0_0
	.long	.Lunix_path_BB0_40-.Lunix_path_JTI0_0
	.long	.Lunix_path_BB0_40-.Lunix_path_JTI0_0
	.long	.Lunix_path_BB0_15-.Lunix_path_JTI0_0
	.long	.Lunix_path_BB0_16-.Lunix_path_JTI0_0
	.long	.Lunix_path_BB0_17-.Lunix_path_JTI0_0
	.long	.Lunix_path_BB0_18-.Lunix_path_JTI0_0
	.long	.Lunix_path_BB0_19-.Lunix_path_JTI0_0
	.long	.Lunix_path_BB0_20-.Lunix_path_JTI0_0
	.long	.Lunix_path_BB0_21-.Lunix_path_JTI0_0
	.long	.Lunix_path_BB0_40-.Lunix_path_JTI0_0
	.long	.Lunix_path_BB0_40-.Lunix_path_JTI0_0
	.long	.Lunix_path_BB0_22-.Lunix_path_JTI0_0
	.long	.Lunix_path_BB0_23-.Lunix_path_JTI0_0
	.long	.Lunix_path_BB0_40-.Lunix_path_JTI0_0
	.long	.Lunix_path_BB0_24-.Lunix_path_JTI0_0
	.long	.Lunix_path_BB0_25-.Lunix_path_JTI0_0
	.long	.Lunix_path_BB0_26-.Lunix_path_JTI0_0
	.long	.Lunix_path_BB0_40-.Lunix_path_JTI0_0
	.long	.Lunix_path_BB0_40-.Lunix_path_JTI0_0
	.long	.Lunix_path_BB0_40-.Lunix_path_JTI0_0
	.long	.Lunix_path_BB0_40-.Lunix_path_JTI0_0
	.long	.Lunix_path_BB0_40-.Lunix_path_JTI0_0
	.long	.Lunix_path_BB0_40-.Lunix_path_JTI0_0
	.long	.Lunix_path_BB0_40-.Lunix_path_JTI0_0
	.long	.Lunix_path_BB0_40-.Lunix_path_JTI0_0
	.long	.Lunix_path_BB0_40-.Lunix_path_JTI0_0
	.long	.Lunix_path_BB0_40-.Lunix_path_JTI0_0
	.long	.Lunix_path_BB0_40-.Lunix_path_JTI0_0
	.long	.Lunix_path_BB0_40-.Lunix_path_JTI0_0
	.long	.Lunix_path_BB0_40-.Lunix_path_JTI0_0
	.long	.Lunix_path_BB0_40-.Lunix_path_JTI0_0
	.long	.Lunix_path_BB0_40-.Lunix_path_JTI0_0
	.long	.Lunix_path_BB0_40-.Lunix_path_JTI0_0
	.long	.Lunix_path_BB0_40-.Lunix_path_JTI0_0
	.long	.Lunix_path_BB0_40-.Lunix_path_JTI0_0
	.long	.Lunix_path_BB0_40-.Lunix_path_JTI0_0
	.long	.Lunix_path_BB0_40-.Lunix_path_JTI0_0
	.long	.Lunix_path_BB0_40-.Lunix_path_JTI0_0
	.long	.Lunix_path_BB0_40-.Lunix_path_JTI0_0
	.long	.Lunix_path_BB0_40-.Lunix_path_JTI0_0
	.long	.Lunix_path_BB0_40-.Lunix_path_JTI0_0
	.long	.Lunix_path_BB0_40-.Lunix_path_JTI0_0
	.long	.Lunix_path_BB0_40-.Lunix_path_JTI0_0
	.long	.Lunix_path_BB0_40-.Lunix_path_JTI0_0
	.long	.Lunix_path_BB0_40-.Lunix_path_JTI0_0
	.long	.Lunix_path_BB0_40-.Lunix_path_JTI0_0
	.long	.Lunix_path_BB0_40-.Lunix_path_JTI0_0
	.long	.Lunix_path_BB0_40-.Lunix_path_JTI0_0
	.long	.Lunix_path_BB0_40-.Lunix_path_JTI0_0
	.long	.Lunix_path_BB0_40-.Lunix_path_JTI0_0
	.long	.Lunix_path_BB0_40-.Lunix_path_JTI0_0
	.long	.Lunix_path_BB0_40-.Lunix_path_JTI0_0
	.long	.Lunix_path_BB0_40-.Lunix_path_JTI0_0
	.long	.Lunix_path_BB0_40-.Lunix_path_JTI0_0
	.long	.Lunix_path_BB0_40-.Lunix_path_JTI0_0
	.long	.Lunix_path_BB0_40-.Lunix_path_JTI0_0
	.long	.Lunix_path_BB0_40-.Lunix_path_JTI0_0
	.long	.Lunix_path_BB0_40-.Lunix_path_JTI0_0
	.long	.Lunix_path_BB0_40-.Lunix_path_JTI0_0
	.long	.Lunix_path_BB0_40-.Lunix_path_JTI0_0
	.long	.Lunix_path_BB0_40-.Lunix_path_JTI0_0
	.long	.Lunix_path_BB0_40-.Lunix_path_JTI0_0
	.long	.Lunix_path_BB0_40-.Lunix_path_JTI0_0
	.long	.Lunix_path_BB0_40-.Lunix_path_JTI0_0
	.long	.Lunix_path_BB0_40-.Lunix_path_JTI0_0
	.long	.Lunix_path_BB0_40-.Lunix_path_JTI0_0
	.long	.Lunix_path_BB0_40-.Lunix_path_JTI0_0
	.long	.Lunix_path_BB0_40-.Lunix_path_JTI0_0
	.long	.Lunix_path_BB0_40-.Lunix_path_JTI0_0
	.long	.Lunix_path_BB0_40-.Lunix_path_JTI0_0
	.long	.Lunix_path_BB0_40-.Lunix_path_JTI0_0
	.long	.Lunix_path_BB0_24-.Lunix_path_JTI0_0
	.long	.Lunix_path_BB0_40-.Lunix_path_JTI0_0
	.long	.Lunix_path_BB0_40-.Lunix_path_JTI0_0
	.long	.Lunix_path_BB0_27-.Lunix_path_JTI0_0
	.long	.Lunix_path_BB0_28-.Lunix_path_JTI0_0
	.long	.Lunix_path_BB0_29-.Lunix_path_JTI0_0
	.long	.Lunix_path_BB0_30-.Lunix_path_JTI0_0
	.long	.Lunix_path_BB0_40-.Lunix_path_JTI0_0
	.long	.Lunix_path_BB0_31-.Lunix_path_JTI0_0
	.long	.Lunix_path_BB0_32-.Lunix_path_JTI0_0
	.long	.Lunix_path_BB0_40-.Lunix_path_JTI0_0
	.long	.Lunix_path_BB0_40-.Lunix_path_JTI0_0
	.long	.Lunix_path_BB0_33-.Lunix_path_JTI0_0
	.long	.Lunix_path_BB0_40-.Lunix_path_JTI0_0
	.long	.Lunix_path_BB0_40-.Lunix_path_JTI0_0
	.long	.Lunix_path_BB0_34-.Lunix_path_JTI0_0
	.long	.Lunix_path_BB0_35-.Lunix_path_JTI0_0
	.long	.Lunix_path_BB0_40-.Lunix_path_JTI0_0
	.long	.Lunix_path_BB0_36-.Lunix_path_JTI0_0
	.long	.Lunix_path_BB0_40-.Lunix_path_JTI0_0
	.long	.Lunix_path_BB0_37-.Lunix_path_JTI0_0
	.long	.Lunix_path_BB0_38-.Lunix_path_JTI0_0
	.long	.Lunix_path_BB0_40-.Lunix_path_JTI0_0
	.long	.Lunix_path_BB0_40-.Lunix_path_JTI0_0
	.long	.Lunix_path_BB0_40-.Lunix_path_JTI0_0
	.long	.Lunix_path_BB0_40-.Lunix_path_JTI0_0
	.long	.Lunix_path_BB0_40-.Lunix_path_JTI0_0
	.long	.Lunix_path_BB0_39-.Lunix_path_JTI0_0
	.section	.text.unlikely.std_alloc.vec.Vec.grow_amortized.307f257cf2d167af.,"ax",@progbits
	.p2align	4
	.type	std_alloc.vec.Vec.grow_amortized.307f257cf2d167af.,@function
# std_alloc::vec::Vec::grow_amortized::<#307f257cf2d167af>
std_alloc.vec.Vec.grow_amortized.307f257cf2d167af.:
	movq	%rsi, %rax
	movq	8(%rdi), %rsi
	addq	%rsi, %rax
	jae	.Lunix_path_BB1_2
	xorl	%eax, %eax
	retq
.Lunix_path_BB1_2:
	pushq	%r14
	pushq	%rbx
	pushq	%rax
	cmpq	$9, %rax
	movl	$8, %ebx
	cmovaeq	%rax, %rbx
	movq	16(%rdi), %rcx
	movq	%rcx, %rdx
	shrq	$62, %rdx
	leaq	(%rcx,%rcx), %rax
	cmpq	%rax, %rbx
	cmovaq	%rbx, %rax
	testq	%rdx, %rdx
	cmoveq	%rax, %rbx
	testq	%rbx, %rbx
	js	.Lunix_path_BB1_6
	testq	%rcx, %rcx
	je	.Lunix_path_BB1_8
	movq	%rdi, %r14
	movq	(%rdi), %rdi
	movl	$1, %ecx
	movq	%rbx, %rdx
	callq	rattle_realloc@PLT
	testb	$1, %al
	je	.Lunix_path_BB1_6
.Lunix_path_BB1_9:
	movq	%rdx, (%r14)
	movq	%rbx, 16(%r14)
	movb	$1, %al
	addq	$8, %rsp
	popq	%rbx
	popq	%r14
	retq
.Lunix_path_BB1_8:
	movq	%rdi, %r14
	movl	$1, %esi
	movq	%rax, %rdi
	callq	rattle_alloc@PLT
	testb	$1, %al
	jne	.Lunix_path_BB1_9
.Lunix_path_BB1_6:
	xorl	%eax, %eax
	addq	$8, %rsp
	popq	%rbx
	popq	%r14
	retq
.Lunix_path_func_end1:
	.size	std_alloc.vec.Vec.grow_amortized.307f257cf2d167af., .Lunix_path_func_end1-std_alloc.vec.Vec.grow_amortized.307f257cf2d167af.
	.section	.rodata.cst16,"aM",@progbits,16
	.p2align	4, 0x0
.Lunix_path_CPI2_0:
	.zero	16,10
.Lunix_path_CPI2_1:
	.zero	16,9
.Lunix_path_CPI2_2:
	.zero	16,47
.Lunix_path_CPI2_3:
	.byte	112
	.byte	114
	.byte	101
	.byte	102
	.byte	105
	.byte	120
	.byte	32
	.byte	110
	.byte	111
	.byte	116
	.byte	32
	.byte	102
	.byte	111
	.byte	117
	.byte	110
	.byte	100
.Lunix_path_CPI2_4:
	.zero	16,46
.Lunix_path_CPI2_5:
	.byte	112
	.byte	97
	.byte	116
	.byte	104
	.byte	32
	.byte	99
	.byte	111
	.byte	110
	.byte	116
	.byte	97
	.byte	105
	.byte	110
	.byte	115
	.byte	32
	.byte	105
	.byte	110
.Lunix_path_CPI2_6:
	.byte	118
	.byte	97
	.byte	108
	.byte	105
	.byte	100
	.byte	32
	.byte	85
	.byte	84
	.byte	70
	.byte	45
	.byte	56
	.byte	32
	.byte	99
	.byte	104
	.byte	97
	.byte	114
.Lunix_path_CPI2_7:
	.byte	0
	.byte	1
	.byte	2
	.byte	3
	.byte	4
	.byte	5
	.byte	6
	.byte	7
	.byte	8
	.byte	9
	.byte	10
	.byte	11
	.byte	12
	.byte	13
	.byte	14
	.byte	15
.Lunix_path_CPI2_8:
	.byte	16
	.byte	17
	.byte	18
	.byte	19
	.byte	20
	.byte	21
	.byte	22
	.byte	23
	.byte	24
	.byte	25
	.byte	26
	.byte	27
	.byte	28
	.byte	29
	.byte	30
	.byte	31
	.section	.text.pathtool.run.write_answers.7729a8c5e160c09a.,"ax",@progbits
	.p2align	4
	.type	pathtool.run.write_answers.7729a8c5e160c09a.,@function
# pathtool::run::write_answers::<#7729a8c5e160c09a>
pathtool.run.write_answers.7729a8c5e160c09a.:
	pushq	%rbp
	pushq	%r15
	pushq	%r14
	pushq	%r13
	pushq	%r12
	pushq	%rbx
	subq	$360, %rsp
	pxor	%xmm0, %xmm0
	movdqu	%xmm0, 8(%rsp)
	leaq	32(%rsp), %rax
	movq	%rax, (%rsp)
	testq	%rsi, %rsi
	je	.Lunix_path_BB2_1240
	movq	%rdi, %r14
	leaq	16(%rdx), %rax
	movq	%rax, 312(%rsp)
	movq	%rdx, 248(%rsp)
	jmp	.Lunix_path_BB2_3
	.p2align	4
.Lunix_path_BB2_2:
	movq	320(%rsp), %r14
	movq	328(%rsp), %rsi
	testq	%rsi, %rsi
	je	.Lunix_path_BB2_1240
.Lunix_path_BB2_3:
	cmpq	$15, %rsi
	ja	.Lunix_path_BB2_7
	xorl	%eax, %eax
	.p2align	4
.Lunix_path_BB2_5:
	cmpb	$10, (%r14,%rax)
	je	.Lunix_path_BB2_12
	incq	%rax
	cmpq	%rax, %rsi
	jne	.Lunix_path_BB2_5
	jmp	.Lunix_path_BB2_13
	.p2align	4
.Lunix_path_BB2_7:
	movq	%rsi, %rcx
	addq	$-16, %rcx
	je	.Lunix_path_BB2_11
	xorl	%edx, %edx
	.p2align	4
.Lunix_path_BB2_9:
	movdqu	(%r14,%rdx), %xmm0
	pcmpeqb	.Lunix_path_CPI2_0(%rip), %xmm0
	pmovmskb	%xmm0, %eax
	orl	$65536, %eax
	rep		bsfl	%eax, %eax
	cmpw	$15, %ax
	jbe	.Lunix_path_BB2_26
	addq	$16, %rdx
	cmpq	%rcx, %rdx
	jb	.Lunix_path_BB2_9
.Lunix_path_BB2_11:
	movdqu	(%r14,%rcx), %xmm0
	pcmpeqb	.Lunix_path_CPI2_0(%rip), %xmm0
	pmovmskb	%xmm0, %eax
	orl	$65536, %eax
	rep		bsfl	%eax, %eax
	addq	%rcx, %rax
.Lunix_path_BB2_12:
	cmpq	%rsi, %rax
	jne	.Lunix_path_BB2_27
.Lunix_path_BB2_13:
	leaq	.Lunix_path_static.1(%rip), %r8
	movq	%rsi, %rax
	xorl	%esi, %esi
	cmpq	$0, 8(%rsp)
	je	.Lunix_path_BB2_15
.Lunix_path_BB2_14:
	movq	$0, 8(%rsp)
.Lunix_path_BB2_15:
	cmpq	$15, %rax
	movq	%rsi, 328(%rsp)
	movq	%r8, 320(%rsp)
	ja	.Lunix_path_BB2_19
	xorl	%r15d, %r15d
	testq	%rax, %rax
	je	.Lunix_path_BB2_24
	.p2align	4
.Lunix_path_BB2_17:
	cmpb	$9, (%r14,%r15)
	je	.Lunix_path_BB2_24
	incq	%r15
	cmpq	%r15, %rax
	jne	.Lunix_path_BB2_17
	jmp	.Lunix_path_BB2_187
	.p2align	4
.Lunix_path_BB2_19:
	movq	%rax, %rcx
	addq	$-16, %rcx
	je	.Lunix_path_BB2_23
	xorl	%edx, %edx
	.p2align	4
.Lunix_path_BB2_21:
	movdqu	(%r14,%rdx), %xmm0
	pcmpeqb	.Lunix_path_CPI2_1(%rip), %xmm0
	pmovmskb	%xmm0, %edi
	orl	$65536, %edi
	rep		bsfl	%edi, %edi
	cmpw	$15, %di
	jbe	.Lunix_path_BB2_28
	addq	$16, %rdx
	cmpq	%rcx, %rdx
	jb	.Lunix_path_BB2_21
.Lunix_path_BB2_23:
	movdqu	(%r14,%rcx), %xmm0
	pcmpeqb	.Lunix_path_CPI2_1(%rip), %xmm0
	pmovmskb	%xmm0, %edx
	orl	$65536, %edx
	rep		bsfl	%edx, %r15d
	addq	%rcx, %r15
.Lunix_path_BB2_24:
	cmpq	%rax, %r15
	je	.Lunix_path_BB2_187
.Lunix_path_BB2_29:
	leaq	1(%r15), %rcx
	leaq	(%r14,%r15), %r9
	incq	%r9
	movq	%rax, %r13
	subq	%rcx, %r13
	cmpq	$15, %r13
	ja	.Lunix_path_BB2_33
	xorl	%r12d, %r12d
	testq	%r13, %r13
	je	.Lunix_path_BB2_38
	.p2align	4
.Lunix_path_BB2_31:
	cmpb	$9, (%r9,%r12)
	je	.Lunix_path_BB2_38
	incq	%r12
	cmpq	%r12, %r13
	jne	.Lunix_path_BB2_31
	jmp	.Lunix_path_BB2_39
	.p2align	4
.Lunix_path_BB2_33:
	movq	%r13, %rcx
	addq	$-16, %rcx
	je	.Lunix_path_BB2_37
	xorl	%edx, %edx
	.p2align	4
.Lunix_path_BB2_35:
	movdqu	(%r9,%rdx), %xmm0
	pcmpeqb	.Lunix_path_CPI2_1(%rip), %xmm0
	pmovmskb	%xmm0, %edi
	orl	$65536, %edi
	rep		bsfl	%edi, %edi
	cmpw	$15, %di
	jbe	.Lunix_path_BB2_40
	addq	$16, %rdx
	cmpq	%rcx, %rdx
	jb	.Lunix_path_BB2_35
.Lunix_path_BB2_37:
	movdqu	(%r9,%rcx), %xmm0
	pcmpeqb	.Lunix_path_CPI2_1(%rip), %xmm0
	pmovmskb	%xmm0, %edx
	orl	$65536, %edx
	rep		bsfl	%edx, %r12d
	addq	%rcx, %r12
.Lunix_path_BB2_38:
	cmpq	%r13, %r12
	jne	.Lunix_path_BB2_41
.Lunix_path_BB2_39:
	xorl	%ebx, %ebx
	movq	%r13, %r12
	xorl	%ebp, %ebp
	xorl	%r13d, %r13d
	cmpq	$4, %r15
	movq	%r9, 24(%rsp)
	jne	.Lunix_path_BB2_47
.Lunix_path_BB2_72:
	cmpl	$1953064037, (%r14)
	jne	.Lunix_path_BB2_78
	leaq	.Lunix_path_static.2(%rip), %rdx
	movl	$4, %esi
	movq	%r14, %rdi
	callq	core.cmp.slices.groups_equal.i8.31.core.cmp.numbers.U8PartialEq.
	testb	%al, %al
	je	.Lunix_path_BB2_253
	pxor	%xmm0, %xmm0
	movdqa	%xmm0, 80(%rsp)
	movdqa	%xmm0, 96(%rsp)
	movdqa	%xmm0, 336(%rsp)
	movq	$0, 352(%rsp)
	cmpb	$2, %bl
	movq	24(%rsp), %rdi
	je	.Lunix_path_BB2_167
	movzbl	%bl, %eax
	cmpl	$1, %eax
	jne	.Lunix_path_BB2_181
	leaq	80(%rsp), %rdi
	movq	%rbp, %rsi
	movq	%r13, %rdx
	callq	pathtool.edits.edit_from
	cmpb	$1, 80(%rsp)
	jne	.Lunix_path_BB2_244
	movzbl	88(%rsp), %eax
	movq	%rax, 336(%rsp)
	leaq	88(%rsp), %rax
	movdqu	8(%rax), %xmm0
	leaq	344(%rsp), %rax
	movdqu	%xmm0, (%rax)
	leaq	336(%rsp), %rdx
	movq	%rsp, %r8
	movl	$1, %ecx
	movq	24(%rsp), %rdi
	movq	%r12, %rsi
	callq	pathtool.edits.push_edited
	jmp	.Lunix_path_BB2_1149
.Lunix_path_BB2_26:
	movzwl	%ax, %eax
	addq	%rdx, %rax
	cmpq	%rsi, %rax
	je	.Lunix_path_BB2_13
.Lunix_path_BB2_27:
	leaq	1(%rax), %rcx
	leaq	(%r14,%rax), %r8
	incq	%r8
	subq	%rcx, %rsi
	cmpq	$0, 8(%rsp)
	jne	.Lunix_path_BB2_14
	jmp	.Lunix_path_BB2_15
.Lunix_path_BB2_28:
	movzwl	%di, %r15d
	addq	%rdx, %r15
	cmpq	%rax, %r15
	je	.Lunix_path_BB2_187
	jmp	.Lunix_path_BB2_29
.Lunix_path_BB2_78:
	movq	%rbp, 40(%rsp)
	jmp	.Lunix_path_BB2_79
.Lunix_path_BB2_40:
	movzwl	%di, %r12d
	addq	%rdx, %r12
	cmpq	%r13, %r12
	je	.Lunix_path_BB2_39
.Lunix_path_BB2_41:
	leaq	1(%r12), %rcx
	leaq	(%r9,%r12), %rbp
	incq	%rbp
	subq	%rcx, %r13
	cmpq	$15, %r13
	ja	.Lunix_path_BB2_64
	testq	%r13, %r13
	je	.Lunix_path_BB2_69
	subq	%r12, %rax
	subq	%r15, %rax
	addq	$-2, %rax
	leaq	(%r15,%r12), %rcx
	leaq	(%r14,%rcx), %rdx
	addq	$2, %rdx
	xorl	%ecx, %ecx
	.p2align	4
.Lunix_path_BB2_44:
	cmpb	$9, (%rdx,%rcx)
	je	.Lunix_path_BB2_71
	incq	%rcx
	cmpq	%rcx, %rax
	jne	.Lunix_path_BB2_44
	movb	$1, %bl
	cmpq	$4, %r15
	movq	%r9, 24(%rsp)
	je	.Lunix_path_BB2_72
	jmp	.Lunix_path_BB2_47
.Lunix_path_BB2_64:
	movq	%r13, %rax
	addq	$-16, %rax
	je	.Lunix_path_BB2_68
	leaq	(%r15,%r12), %rcx
	addq	%r14, %rcx
	addq	$2, %rcx
	xorl	%edx, %edx
	.p2align	4
.Lunix_path_BB2_66:
	movdqu	(%rcx,%rdx), %xmm0
	pcmpeqb	.Lunix_path_CPI2_1(%rip), %xmm0
	pmovmskb	%xmm0, %edi
	orl	$65536, %edi
	rep		bsfl	%edi, %edi
	cmpw	$15, %di
	jbe	.Lunix_path_BB2_70
	addq	$16, %rdx
	cmpq	%rax, %rdx
	jb	.Lunix_path_BB2_66
.Lunix_path_BB2_68:
	movdqu	(%rbp,%rax), %xmm0
	pcmpeqb	.Lunix_path_CPI2_1(%rip), %xmm0
	pmovmskb	%xmm0, %ecx
	orl	$65536, %ecx
	rep		bsfl	%ecx, %ecx
	addq	%rax, %rcx
	jmp	.Lunix_path_BB2_71
.Lunix_path_BB2_253:
	movq	%rbp, 40(%rsp)
	xorl	%ebp, %ebp
	leaq	(%r14,%r15), %r9
	incq	%r9
	cmpb	$2, %bl
	jne	.Lunix_path_BB2_81
	jmp	.Lunix_path_BB2_187
.Lunix_path_BB2_69:
	xorl	%ecx, %ecx
	jmp	.Lunix_path_BB2_71
.Lunix_path_BB2_70:
	movzwl	%di, %ecx
	addq	%rdx, %rcx
.Lunix_path_BB2_71:
	cmpq	%r13, %rcx
	sete	%al
	movb	$2, %bl
	subb	%al, %bl
	cmpq	$4, %r15
	movq	%r9, 24(%rsp)
	je	.Lunix_path_BB2_72
.Lunix_path_BB2_47:
	movq	%rbp, 40(%rsp)
	cmpq	$5, %r15
	jne	.Lunix_path_BB2_79
	movb	$1, %bpl
	cmpl	$1701080693, (%r14)
	jne	.Lunix_path_BB2_80
	leaq	.Lunix_path_static.3(%rip), %rdx
	movl	$5, %esi
	movq	%r14, %rdi
	callq	core.cmp.slices.groups_equal.i8.31.core.cmp.numbers.U8PartialEq.
	leaq	(%r14,%r15), %r9
	incq	%r9
	testb	%al, %al
	je	.Lunix_path_BB2_80
	pxor	%xmm0, %xmm0
	movdqa	%xmm0, 256(%rsp)
	movq	$0, 272(%rsp)
	leaq	32(%rsp), %rdi
	testq	%r12, %r12
	movq	40(%rsp), %rsi
	je	.Lunix_path_BB2_54
	movb	$1, %bpl
	js	.Lunix_path_BB2_561
	movl	$1, %esi
	movq	%r12, %rdi
	callq	rattle_alloc@PLT
	testb	$1, %al
	je	.Lunix_path_BB2_561
	leaq	(%r14,%r15), %r9
	incq	%r9
	movq	40(%rsp), %rsi
	movq	%rdx, %rdi
.Lunix_path_BB2_54:
	movq	%rdi, %rax
	subq	%r9, %rax
	cmpq	%r12, %rax
	movq	%rdi, 24(%rsp)
	jae	.Lunix_path_BB2_353
	cmpq	$4, %r12
	jb	.Lunix_path_BB2_57
	movq	24(%rsp), %rax
	subq	%r14, %rax
	addq	$-6, %rax
	cmpq	$32, %rax
	jae	.Lunix_path_BB2_717
.Lunix_path_BB2_57:
	xorl	%eax, %eax
	movq	24(%rsp), %r8
.Lunix_path_BB2_58:
	movq	%rsi, %rdi
	movq	%r12, %rdx
	movq	%rax, %rcx
	andq	$3, %rdx
	je	.Lunix_path_BB2_61
	movq	%rax, %rcx
.Lunix_path_BB2_60:
	movzbl	(%r9,%rcx), %esi
	movb	%sil, (%r8,%rcx)
	incq	%rcx
	decq	%rdx
	jne	.Lunix_path_BB2_60
.Lunix_path_BB2_61:
	subq	%r12, %rax
	cmpq	$-4, %rax
	movq	%rdi, %rsi
	ja	.Lunix_path_BB2_354
	leaq	(%r14,%r15), %rax
	addq	$4, %rax
.Lunix_path_BB2_63:
	movzbl	-3(%rax,%rcx), %edx
	movb	%dl, (%r8,%rcx)
	movzbl	-2(%rax,%rcx), %edx
	movb	%dl, 1(%r8,%rcx)
	movzbl	-1(%rax,%rcx), %edx
	movb	%dl, 2(%r8,%rcx)
	movzbl	(%rax,%rcx), %edx
	movb	%dl, 3(%r8,%rcx)
	addq	$4, %rcx
	cmpq	%rcx, %r12
	jne	.Lunix_path_BB2_63
	jmp	.Lunix_path_BB2_354
	.p2align	4
.Lunix_path_BB2_79:
	xorl	%ebp, %ebp
.Lunix_path_BB2_80:
	cmpb	$2, %bl
	je	.Lunix_path_BB2_187
.Lunix_path_BB2_81:
	movzbl	%bl, %eax
	cmpl	$1, %eax
	jne	.Lunix_path_BB2_88
	cmpq	$4, %r15
	jne	.Lunix_path_BB2_96
	cmpl	$1852403562, (%r14)
	jne	.Lunix_path_BB2_96
	leaq	.Lunix_path_static.14(%rip), %rdx
	movl	$4, %esi
	movq	%r14, %rdi
	callq	core.cmp.slices.groups_equal.i8.31.core.cmp.numbers.U8PartialEq.
	leaq	(%r14,%r15), %r9
	incq	%r9
	testb	%al, %al
	je	.Lunix_path_BB2_96
	testq	%r13, %r13
	je	.Lunix_path_BB2_358
	xorl	%ebp, %ebp
	movl	$0, %ecx
	movl	$0, %ebx
	testq	%r12, %r12
	je	.Lunix_path_BB2_587
	movq	40(%rsp), %rax
	cmpb	$47, (%rax)
	jne	.Lunix_path_BB2_359
	jmp	.Lunix_path_BB2_587
.Lunix_path_BB2_88:
	testb	%bpl, %bpl
	je	.Lunix_path_BB2_101
	cmpl	$1953653104, (%r14)
	jne	.Lunix_path_BB2_101
	leaq	.Lunix_path_static.4(%rip), %rdx
	movq	%r14, %rdi
	movq	%r15, %rsi
	callq	core.cmp.slices.groups_equal.i8.31.core.cmp.numbers.U8PartialEq.
	leaq	(%r14,%r15), %r9
	incq	%r9
	testb	%al, %al
	je	.Lunix_path_BB2_101
	testq	%r12, %r12
	je	.Lunix_path_BB2_260
	movzbl	(%r9), %eax
	movb	$1, %bl
	cmpl	$47, %eax
	je	.Lunix_path_BB2_378
	cmpl	$46, %eax
	jne	.Lunix_path_BB2_377
	cmpq	$1, %r12
	je	.Lunix_path_BB2_378
	cmpb	$47, 1(%r9)
	sete	%bl
	jmp	.Lunix_path_BB2_378
.Lunix_path_BB2_96:
	testb	%bpl, %bpl
	je	.Lunix_path_BB2_109
	cmpl	$1769108595, (%r14)
	jne	.Lunix_path_BB2_109
	leaq	.Lunix_path_static.15(%rip), %rdx
	movq	%r14, %rdi
	movq	%r15, %rsi
	callq	core.cmp.slices.groups_equal.i8.31.core.cmp.numbers.U8PartialEq.
	leaq	(%r14,%r15), %r9
	incq	%r9
	testb	%al, %al
	je	.Lunix_path_BB2_109
	testq	%r12, %r12
	je	.Lunix_path_BB2_370
	movq	%r12, %rdx
	movq	%r12, %rax
	movq	40(%rsp), %rbx
	jmp	.Lunix_path_BB2_120
.Lunix_path_BB2_101:
	cmpq	$4, %r15
	jne	.Lunix_path_BB2_133
	movzbl	(%r14), %esi
	movzbl	1(%r14), %ebp
	movzbl	2(%r14), %r13d
	movzbl	3(%r14), %ebx
	cmpb	$97, %bpl
	jne	.Lunix_path_BB2_145
	cmpb	$98, %sil
	jne	.Lunix_path_BB2_145
	cmpb	$99, %r13b
	jne	.Lunix_path_BB2_145
	cmpb	$107, %bl
	jne	.Lunix_path_BB2_145
	leaq	.Lunix_path_static.5(%rip), %rdx
	movb	%sil, 40(%rsp)
	movl	$4, %esi
	movq	%r14, %rdi
	callq	core.cmp.slices.groups_equal.i8.31.core.cmp.numbers.U8PartialEq.
	movzbl	40(%rsp), %esi
	testb	%al, %al
	je	.Lunix_path_BB2_151
	testq	%r12, %r12
	je	.Lunix_path_BB2_371
	movq	%r12, %rbp
	movq	%r12, %rax
	leaq	(%r14,%r15), %r8
	incq	%r8
	jmp	.Lunix_path_BB2_127
.Lunix_path_BB2_109:
	cmpq	$6, %r15
	jne	.Lunix_path_BB2_139
	cmpl	$1918989427, (%r14)
	jne	.Lunix_path_BB2_187
	leaq	.Lunix_path_static.16(%rip), %rdx
	movl	$6, %esi
	movq	%r14, %rdi
	callq	core.cmp.slices.groups_equal.i8.31.core.cmp.numbers.U8PartialEq.
	movq	24(%rsp), %rsi
	testb	%al, %al
	je	.Lunix_path_BB2_187
	testq	%r13, %r13
	je	.Lunix_path_BB2_871
	pxor	%xmm0, %xmm0
	movdqa	%xmm0, 144(%rsp)
	movq	$0, 160(%rsp)
	cmpq	%r12, %r13
	movq	%r12, %r8
	cmovbq	%r13, %r8
	cmpq	$15, %r8
	ja	.Lunix_path_BB2_373
	cmpq	$7, %r8
	movq	40(%rsp), %rcx
	ja	.Lunix_path_BB2_719
	testq	%r12, %r12
	je	.Lunix_path_BB2_849
	movzbl	(%rsi), %eax
	cmpb	(%rcx), %al
	jne	.Lunix_path_BB2_861
	cmpq	$1, %r8
	jne	.Lunix_path_BB2_1133
.Lunix_path_BB2_118:
	movq	%r8, %rax
	jmp	.Lunix_path_BB2_862
.Lunix_path_BB2_119:
	movq	%rax, %rdx
	testq	%rax, %rax
	je	.Lunix_path_BB2_471
.Lunix_path_BB2_120:
	decq	%rax
	je	.Lunix_path_BB2_461
	movzbl	(%r9,%rax), %ecx
	cmpl	$47, %ecx
	je	.Lunix_path_BB2_124
	cmpl	$46, %ecx
	jne	.Lunix_path_BB2_472
	cmpb	$47, -1(%r9,%rax)
	jne	.Lunix_path_BB2_472
.Lunix_path_BB2_124:
	movq	%r12, %rcx
	subq	%rax, %rcx
	cmpq	$8, %rcx
	jne	.Lunix_path_BB2_119
	movq	%r9, %rdi
	xorl	%esi, %esi
	movq	%rax, %rdx
	callq	unix_path.filler.trimmed_blocks_len
	movq	24(%rsp), %r9
	jmp	.Lunix_path_BB2_119
.Lunix_path_BB2_126:
	movq	%rax, %rbp
	testq	%rax, %rax
	je	.Lunix_path_BB2_487
.Lunix_path_BB2_127:
	decq	%rax
	je	.Lunix_path_BB2_462
	movzbl	(%r8,%rax), %ecx
	cmpl	$47, %ecx
	je	.Lunix_path_BB2_131
	cmpl	$46, %ecx
	jne	.Lunix_path_BB2_488
	cmpb	$47, -1(%r8,%rax)
	jne	.Lunix_path_BB2_488
.Lunix_path_BB2_131:
	movq	%r12, %rcx
	subq	%rax, %rcx
	cmpq	$8, %rcx
	jne	.Lunix_path_BB2_126
	movq	%r8, %rdi
	xorl	%esi, %esi
	movq	%rax, %rdx
	callq	unix_path.filler.trimmed_blocks_len
	leaq	(%r14,%r15), %r8
	incq	%r8
	jmp	.Lunix_path_BB2_126
.Lunix_path_BB2_133:
	leaq	-3(%r15), %rax
	cmpq	$6, %rax
	ja	.Lunix_path_BB2_187
	leaq	.Lunix_path_JTI2_3(%rip), %rcx
	movslq	(%rcx,%rax,4), %rax
	addq	%rcx, %rax
	jmpq	*%rax
.Lunix_path_BB2_135:
	cmpb	$101, (%r14)
	jne	.Lunix_path_BB2_187
	cmpb	$120, 1(%r14)
	jne	.Lunix_path_BB2_187
	cmpb	$116, 2(%r14)
	jne	.Lunix_path_BB2_187
	movq	%rsp, %rdx
	movq	%r9, %rdi
	movq	%r12, %rsi
	callq	pathtool.names.push_extension
	jmp	.Lunix_path_BB2_1149
.Lunix_path_BB2_139:
	cmpq	$4, %r15
	jne	.Lunix_path_BB2_157
	movzbl	(%r14), %edx
	movzbl	1(%r14), %ebx
	movl	%edx, %eax
	xorb	$101, %al
	movl	%ebx, %ecx
	xorb	$110, %cl
	orb	%al, %cl
	movzbl	2(%r14), %ebp
	movl	%ebp, %eax
	xorb	$100, %al
	orb	%cl, %al
	movzbl	3(%r14), %esi
	movl	%esi, %ecx
	xorb	$115, %cl
	orb	%al, %cl
	jne	.Lunix_path_BB2_182
	movb	%dl, 48(%rsp)
	leaq	.Lunix_path_static.17(%rip), %rdx
	movb	%sil, 72(%rsp)
	movl	$4, %esi
	movq	%r14, %rdi
	callq	core.cmp.slices.groups_equal.i8.31.core.cmp.numbers.U8PartialEq.
	movzbl	72(%rsp), %esi
	movzbl	48(%rsp), %edx
	leaq	(%r14,%r15), %rdi
	incq	%rdi
	testb	%al, %al
	je	.Lunix_path_BB2_182
	testq	%r12, %r12
	je	.Lunix_path_BB2_582
	movzbl	-1(%rdi,%r12), %eax
	cmpb	$47, %al
	movq	40(%rsp), %rdx
	je	.Lunix_path_BB2_144
	cmpq	$1, %r12
	je	.Lunix_path_BB2_806
	cmpb	$46, %al
	jne	.Lunix_path_BB2_806
	xorl	%ecx, %ecx
	testq	%r13, %r13
	je	.Lunix_path_BB2_583
	cmpb	$47, -2(%rdi,%r12)
	jne	.Lunix_path_BB2_807
	jmp	.Lunix_path_BB2_583
.Lunix_path_BB2_145:
	cmpb	$97, %bpl
	jne	.Lunix_path_BB2_151
	cmpb	$110, %sil
	jne	.Lunix_path_BB2_151
	cmpb	$109, %r13b
	jne	.Lunix_path_BB2_151
	cmpb	$101, %bl
	jne	.Lunix_path_BB2_151
	leaq	.Lunix_path_static.7(%rip), %rdx
	movb	%sil, 40(%rsp)
	movl	$4, %esi
	movq	%r14, %rdi
	callq	core.cmp.slices.groups_equal.i8.31.core.cmp.numbers.U8PartialEq.
	movzbl	40(%rsp), %esi
	testb	%al, %al
	je	.Lunix_path_BB2_151
	pxor	%xmm0, %xmm0
	movdqa	%xmm0, 144(%rsp)
	movq	$0, 160(%rsp)
	leaq	144(%rsp), %r14
	movq	%r14, %rdi
	movq	24(%rsp), %rsi
	movq	%r12, %rdx
	callq	unix_path.path.Path.file_name
	movq	%rsp, %rsi
	movq	%r14, %rdi
	jmp	.Lunix_path_BB2_1148
.Lunix_path_BB2_151:
	movl	%esi, %eax
	xorb	$115, %al
	movl	%ebp, %ecx
	xorb	$116, %cl
	movl	%r13d, %edx
	xorb	$101, %dl
	orb	%cl, %dl
	movl	%ebx, %ecx
	xorb	$109, %cl
	orb	%dl, %cl
	orb	%al, %cl
	je	.Lunix_path_BB2_190
	movl	%ebp, %ecx
	xorb	$104, %cl
	xorb	$111, %r13b
	movl	%ebx, %edx
	xorb	$119, %dl
	orb	%cl, %dl
	orb	%al, %dl
	orb	%r13b, %dl
	je	.Lunix_path_BB2_250
	xorb	$106, %sil
	xorb	$115, %bpl
	orb	%sil, %bpl
	xorb	$110, %bl
	orb	%bpl, %bl
	orb	%r13b, %bl
	jne	.Lunix_path_BB2_187
	leaq	.Lunix_path_static.13(%rip), %rdx
	movl	$4, %esi
	movq	%r14, %rdi
	callq	core.cmp.slices.groups_equal.i8.31.core.cmp.numbers.U8PartialEq.
	leaq	(%r14,%r15), %rdi
	incq	%rdi
	testb	%al, %al
	je	.Lunix_path_BB2_187
	movq	$0, 80(%rsp)
	movq	%r12, %rsi
	xorl	%edx, %edx
	cmpq	$31, %r12
	ja	.Lunix_path_BB2_741
	callq	unix_bytes.utf8.scans.scan_by_sequence
	jmp	.Lunix_path_BB2_742
.Lunix_path_BB2_157:
	cmpq	$3, %r15
	jne	.Lunix_path_BB2_187
	cmpb	$99, (%r14)
	jne	.Lunix_path_BB2_187
	cmpb	$109, 1(%r14)
	jne	.Lunix_path_BB2_187
	cmpb	$112, 2(%r14)
	jne	.Lunix_path_BB2_187
	movq	%r9, %rdi
	movq	%r12, %rsi
	movq	40(%rsp), %rdx
	movq	%r13, %rcx
	callq	unix_path.order.PathOrd.cmp
	movq	16(%rsp), %rcx
	cmpb	$2, %al
	je	.Lunix_path_BB2_879
	movzbl	%al, %eax
	cmpl	$1, %eax
	jne	.Lunix_path_BB2_883
	cmpq	$4, %rcx
	jbe	.Lunix_path_BB2_1179
	xorl	%eax, %eax
.Lunix_path_BB2_165:
	movq	(%rsp), %rdx
	leaq	(%rdx,%rax), %rsi
	leaq	.Lunix_path_static.51(%rip), %rdi
	movq	%rsi, %r8
	subq	%rdi, %r8
	cmpq	$4, %r8
	ja	.Lunix_path_BB2_1139
	movl	$1635086693, (%rsi)
	movb	$108, 4(%rsi)
	addq	$5, %rax
	jmp	.Lunix_path_BB2_1201
.Lunix_path_BB2_167:
	movdqa	%xmm0, 160(%rsp)
	movdqa	%xmm0, 144(%rsp)
	leaq	32(%rsp), %rax
	movq	%rax, 256(%rsp)
	leaq	264(%rsp), %rax
	movdqu	%xmm0, (%rax)
	.p2align	4
.Lunix_path_BB2_168:
	xorl	%edx, %edx
	testq	%r13, %r13
	je	.Lunix_path_BB2_173
	.p2align	4
.Lunix_path_BB2_169:
	cmpb	$9, (%rbp,%rdx)
	je	.Lunix_path_BB2_173
	incq	%rdx
	cmpq	%rdx, %r13
	jne	.Lunix_path_BB2_169
	movb	$1, %bl
	jmp	.Lunix_path_BB2_172
	.p2align	4
.Lunix_path_BB2_173:
	movb	$1, %bl
	cmpq	%r13, %rdx
	jae	.Lunix_path_BB2_172
	leaq	(%rdx,%rbp), %r15
	incq	%r15
	movq	%rdx, %rax
	notq	%rax
	addq	%rax, %r13
	xorl	%ebx, %ebx
	jmp	.Lunix_path_BB2_175
	.p2align	4
.Lunix_path_BB2_172:
	movq	%rbp, %r15
	movq	%r13, %rdx
.Lunix_path_BB2_175:
	leaq	144(%rsp), %rdi
	movq	%rbp, %rsi
	callq	pathtool.edits.edit_from
	cmpb	$1, 144(%rsp)
	jne	.Lunix_path_BB2_242
	movzbl	152(%rsp), %ebp
	movq	264(%rsp), %rcx
	cmpq	%rcx, 272(%rsp)
	je	.Lunix_path_BB2_179
.Lunix_path_BB2_177:
	movq	256(%rsp), %r14
	leaq	(%rcx,%rcx,2), %rax
	movq	%rbp, (%r14,%rax,8)
	leaq	160(%rsp), %rdx
	movdqu	(%rdx), %xmm0
	movdqu	%xmm0, 8(%r14,%rax,8)
	incq	%rcx
	movq	%rcx, 264(%rsp)
	movq	%r15, %rbp
	testb	%bl, %bl
	movq	24(%rsp), %rdi
	je	.Lunix_path_BB2_168
	jmp	.Lunix_path_BB2_178
.Lunix_path_BB2_179:
	leaq	256(%rsp), %rdi
	callq	std_alloc.vec.Vec.grow_amortized.d6e9c2ff9b21f748.
	testb	%al, %al
	je	.Lunix_path_BB2_876
	movq	264(%rsp), %rcx
	jmp	.Lunix_path_BB2_177
.Lunix_path_BB2_181:
	leaq	32(%rsp), %rdx
	movq	%rsp, %r8
	movq	%r12, %rsi
	xorl	%ecx, %ecx
	callq	pathtool.edits.push_edited
	jmp	.Lunix_path_BB2_1149
.Lunix_path_BB2_182:
	xorb	$119, %dl
	xorb	$97, %bl
	orb	%dl, %bl
	xorb	$108, %bpl
	orb	%bl, %bpl
	xorb	$107, %sil
	orb	%bpl, %sil
	jne	.Lunix_path_BB2_187
	leaq	.Lunix_path_static.19(%rip), %rdx
	movl	$4, %esi
	movq	%r14, %rdi
	callq	core.cmp.slices.groups_equal.i8.31.core.cmp.numbers.U8PartialEq.
	leaq	(%r14,%r15), %rdi
	incq	%rdi
	testb	%al, %al
	je	.Lunix_path_BB2_187
	xorl	%eax, %eax
	movq	40(%rsp), %rdx
.Lunix_path_BB2_185:
	cmpq	%rax, %r13
	je	.Lunix_path_BB2_562
	movzbl	(%rdx,%rax), %ecx
	addb	$-98, %cl
	incq	%rax
	testb	$-5, %cl
	je	.Lunix_path_BB2_185
	jmp	.Lunix_path_BB2_187
.Lunix_path_BB2_190:
	leaq	.Lunix_path_static.8(%rip), %rdx
	movl	$4, %esi
	movq	%r14, %rdi
	callq	core.cmp.slices.groups_equal.i8.31.core.cmp.numbers.U8PartialEq.
	testb	%al, %al
	movq	24(%rsp), %rsi
	je	.Lunix_path_BB2_187
	pxor	%xmm0, %xmm0
	movdqa	%xmm0, 144(%rsp)
	movq	$0, 160(%rsp)
	leaq	144(%rsp), %rdi
	movq	%r12, %rdx
	callq	unix_path.path.Path.file_name
	cmpb	$1, 144(%rsp)
	jne	.Lunix_path_BB2_372
	movq	152(%rsp), %rax
	movq	160(%rsp), %rcx
	movq	%rcx, %rdx
.Lunix_path_BB2_193:
	cmpq	$15, %rdx
	jbe	.Lunix_path_BB2_196
	movdqu	-16(%rax,%rdx), %xmm0
	addq	$-16, %rdx
	movdqa	.Lunix_path_CPI2_4(%rip), %xmm1
	pcmpeqb	%xmm0, %xmm1
	pmovmskb	%xmm1, %esi
	movl	$127, %r8d
	movl	$127, %r9d
	bsrq	%rsi, %r9
	xorq	$63, %r9
	movl	$64, %edi
	movl	$64, %esi
	subq	%r9, %rsi
	pcmpeqb	.Lunix_path_CPI2_2(%rip), %xmm0
	pmovmskb	%xmm0, %r9d
	bsrq	%r9, %r8
	xorq	$63, %r8
	subq	%r8, %rdi
	cmpq	%rdi, %rsi
	movq	%rdi, %r8
	cmovaq	%rsi, %r8
	testq	%r8, %r8
	je	.Lunix_path_BB2_193
	cmpq	%rsi, %rdi
	cmovaq	%rdi, %rsi
	leaq	(%rsi,%rdx), %rdi
	addq	%rsi, %rdx
	decq	%rdx
	jmp	.Lunix_path_BB2_199
.Lunix_path_BB2_196:
	testq	%rdx, %rdx
	je	.Lunix_path_BB2_202
	movzbl	-1(%rax,%rdx), %esi
	decq	%rdx
	andb	$-2, %sil
	cmpb	$46, %sil
	jne	.Lunix_path_BB2_196
	leaq	1(%rdx), %rdi
.Lunix_path_BB2_199:
	testq	%rdx, %rdx
	je	.Lunix_path_BB2_202
	cmpb	$47, (%rax,%rdx)
	je	.Lunix_path_BB2_202
	cmpb	$47, -2(%rax,%rdi)
	cmovneq	%rdx, %rcx
.Lunix_path_BB2_202:
	movq	$1, 80(%rsp)
	movq	%rax, 88(%rsp)
	movq	%rcx, 96(%rsp)
	jmp	.Lunix_path_BB2_737
.Lunix_path_BB2_203:
	cmpl	$1701994864, (%r14)
	jne	.Lunix_path_BB2_187
	leaq	.Lunix_path_static.6(%rip), %rdx
	movl	$6, %esi
	movq	%r14, %rdi
	callq	core.cmp.slices.groups_equal.i8.31.core.cmp.numbers.U8PartialEq.
	movq	24(%rsp), %rdi
	testb	%al, %al
	je	.Lunix_path_BB2_187
	pxor	%xmm0, %xmm0
	leaq	88(%rsp), %rax
	movdqu	%xmm0, (%rax)
	movq	%r12, %rsi
	movq	%rdi, %rbx
	callq	unix_path.path.Path.parent_len
	cmpb	$1, %al
	jne	.Lunix_path_BB2_736
	movq	$1, 144(%rsp)
	movq	%rbx, 152(%rsp)
	jmp	.Lunix_path_BB2_1146
.Lunix_path_BB2_207:
	cmpl	$1869504867, (%r14)
	jne	.Lunix_path_BB2_187
	leaq	.Lunix_path_static.11(%rip), %rdx
	movl	$5, %esi
	movq	%r14, %rdi
	callq	core.cmp.slices.groups_equal.i8.31.core.cmp.numbers.U8PartialEq.
	movq	24(%rsp), %rdi
	testb	%al, %al
	je	.Lunix_path_BB2_187
	movq	%rsp, %rdx
	movq	%r12, %rsi
	callq	pathtool.paths.push_canon
	jmp	.Lunix_path_BB2_1149
.Lunix_path_BB2_210:
	cmpl	$1701015137, (%r14)
	jne	.Lunix_path_BB2_187
	leaq	.Lunix_path_static.10(%rip), %rdx
	movl	$9, %esi
	movq	%r14, %rdi
	callq	core.cmp.slices.groups_equal.i8.31.core.cmp.numbers.U8PartialEq.
	leaq	(%r14,%r15), %r8
	incq	%r8
	testb	%al, %al
	je	.Lunix_path_BB2_187
	leaq	(%r15,%r14), %rax
	movq	%rax, 48(%rsp)
	addq	%r14, %r15
	addq	$17, %r15
	movb	$1, %r14b
	xorl	%r13d, %r13d
	jmp	.Lunix_path_BB2_215
.Lunix_path_BB2_213:
	movq	%r8, %rsi
	movq	%r12, %rdx
	movl	%r9d, %r14d
	movq	%rbx, 40(%rsp)
	movq	%r10, %rbx
	movq	%r11, %rbp
	callq	memmove@PLT
	movq	%rbp, %r11
	movq	%rbx, %r10
	movq	40(%rsp), %rbx
	movl	%r14d, %r9d
	movq	24(%rsp), %r8
.Lunix_path_BB2_214:
	addq	%r12, %r13
	xorl	%r14d, %r14d
	movq	%rbx, (%rsp)
	movq	%r13, 8(%rsp)
	movq	%r11, 16(%rsp)
	movq	%r10, %r12
	cmpb	$1, %r9b
	jne	.Lunix_path_BB2_260
.Lunix_path_BB2_215:
	movq	%r8, %rdi
	movq	%r12, %rsi
	callq	unix_path.path.Path.parent_len
	movl	%eax, %r9d
	movq	%rdx, %r10
	testb	$1, %r14b
	jne	.Lunix_path_BB2_218
	cmpq	%r13, 16(%rsp)
	je	.Lunix_path_BB2_240
.Lunix_path_BB2_217:
	movq	(%rsp), %rax
	movb	$9, (%rax,%r13)
	incq	%r13
	movq	%r13, 8(%rsp)
.Lunix_path_BB2_218:
	movq	16(%rsp), %r11
	movq	%r11, %rax
	subq	%r13, %rax
	cmpq	%rax, %r12
	movq	24(%rsp), %r8
	ja	.Lunix_path_BB2_238
.Lunix_path_BB2_219:
	movq	(%rsp), %rbx
	pxor	%xmm0, %xmm0
	leaq	8(%rsp), %rax
	movdqu	%xmm0, (%rax)
	leaq	(%rbx,%r13), %rdi
	movq	%rdi, %rax
	subq	%r8, %rax
	cmpq	%r12, %rax
	jae	.Lunix_path_BB2_213
	cmpq	$4, %r12
	jb	.Lunix_path_BB2_221
	movq	48(%rsp), %rax
	subq	%rdi, %rax
	cmpq	$-33, %rax
	jbe	.Lunix_path_BB2_223
.Lunix_path_BB2_221:
	xorl	%eax, %eax
.Lunix_path_BB2_232:
	movq	%r12, %rdx
	movq	%rax, %rcx
	andq	$3, %rdx
	je	.Lunix_path_BB2_235
	movq	%rax, %rcx
	.p2align	4
.Lunix_path_BB2_234:
	movzbl	(%r8,%rcx), %esi
	movb	%sil, (%rdi,%rcx)
	incq	%rcx
	decq	%rdx
	jne	.Lunix_path_BB2_234
.Lunix_path_BB2_235:
	subq	%r12, %rax
	cmpq	$-4, %rax
	ja	.Lunix_path_BB2_214
	leaq	(%rbx,%r13), %rax
	addq	$3, %rax
	.p2align	4
.Lunix_path_BB2_237:
	movzbl	-16(%r15,%rcx), %edx
	movb	%dl, -3(%rax,%rcx)
	movzbl	-15(%r15,%rcx), %edx
	movb	%dl, -2(%rax,%rcx)
	movzbl	-14(%r15,%rcx), %edx
	movb	%dl, -1(%rax,%rcx)
	movzbl	-13(%r15,%rcx), %edx
	movb	%dl, (%rax,%rcx)
	addq	$4, %rcx
	cmpq	%rcx, %r12
	jne	.Lunix_path_BB2_237
	jmp	.Lunix_path_BB2_214
.Lunix_path_BB2_223:
	cmpq	$32, %r12
	jae	.Lunix_path_BB2_225
	xorl	%eax, %eax
	jmp	.Lunix_path_BB2_229
.Lunix_path_BB2_225:
	movq	%r12, %rax
	andq	$-32, %rax
	leaq	(%rbx,%r13), %rcx
	addq	$16, %rcx
	xorl	%edx, %edx
	.p2align	4
.Lunix_path_BB2_226:
	movdqu	-16(%r15,%rdx), %xmm0
	movdqu	(%r15,%rdx), %xmm1
	movdqu	%xmm0, -16(%rcx,%rdx)
	movdqu	%xmm1, (%rcx,%rdx)
	addq	$32, %rdx
	cmpq	%rdx, %rax
	jne	.Lunix_path_BB2_226
	cmpq	%rax, %r12
	je	.Lunix_path_BB2_214
	testb	$28, %r12b
	je	.Lunix_path_BB2_232
.Lunix_path_BB2_229:
	movq	%rax, %rcx
	movq	%r12, %rax
	andq	$-4, %rax
	.p2align	4
.Lunix_path_BB2_230:
	movl	(%r8,%rcx), %edx
	movl	%edx, (%rdi,%rcx)
	addq	$4, %rcx
	cmpq	%rcx, %rax
	jne	.Lunix_path_BB2_230
	cmpq	%rax, %r12
	je	.Lunix_path_BB2_214
	jmp	.Lunix_path_BB2_232
.Lunix_path_BB2_238:
	movq	%r10, %r14
	movl	%r9d, %ebp
	movq	%rsp, %rdi
	movq	%r12, %rsi
	callq	std_alloc.vec.Vec.grow_amortized.307f257cf2d167af.
	movq	24(%rsp), %r8
	testb	%al, %al
	je	.Lunix_path_BB2_1261
	movq	8(%rsp), %r13
	movq	16(%rsp), %r11
	movl	%ebp, %r9d
	movq	%r14, %r10
	jmp	.Lunix_path_BB2_219
.Lunix_path_BB2_240:
	movq	%r10, %r14
	movl	%r9d, %ebx
	movq	%rsp, %rdi
	movl	$1, %esi
	callq	std_alloc.vec.Vec.grow_amortized.307f257cf2d167af.
	testb	%al, %al
	je	.Lunix_path_BB2_1261
	movq	8(%rsp), %r13
	movl	%ebx, %r9d
	movq	%r14, %r10
	jmp	.Lunix_path_BB2_217
.Lunix_path_BB2_242:
	cmpq	$0, 272(%rsp)
	je	.Lunix_path_BB2_244
	movq	256(%rsp), %rdi
	callq	rattle_dealloc@PLT
.Lunix_path_BB2_244:
	movq	8(%rsp), %rax
	movq	16(%rsp), %rcx
	movq	%rcx, %rdx
	subq	%rax, %rdx
	cmpq	$10, %rdx
	jbe	.Lunix_path_BB2_738
.Lunix_path_BB2_245:
	movq	(%rsp), %rdx
	leaq	(%rdx,%rax), %rsi
	leaq	.Lunix_path_static.55(%rip), %rdi
	movq	%rsi, %r8
	subq	%rdi, %r8
	movabsq	$7885080994131501410, %rdi
	cmpq	$10, %r8
	ja	.Lunix_path_BB2_247
	movq	%rdi, (%rsi)
	movw	$28257, 8(%rsi)
	movb	$100, 10(%rsi)
	jmp	.Lunix_path_BB2_248
.Lunix_path_BB2_247:
	movq	%rdi, (%rsi)
	movl	$1684955501, 7(%rsi)
.Lunix_path_BB2_248:
	addq	$11, %rax
.Lunix_path_BB2_249:
	movq	%rdx, (%rsp)
	movq	%rax, 8(%rsp)
	movq	%rcx, 16(%rsp)
	xorl	%eax, %eax
	jmp	.Lunix_path_BB2_1150
.Lunix_path_BB2_178:
	movq	272(%rsp), %rbx
	movq	%rsp, %r8
	movq	%r12, %rsi
	movq	%r14, %rdx
	callq	pathtool.edits.push_edited
	testq	%rbx, %rbx
	jne	.Lunix_path_BB2_838
	jmp	.Lunix_path_BB2_1150
.Lunix_path_BB2_250:
	leaq	.Lunix_path_static.12(%rip), %rdx
	movl	$4, %esi
	movq	%r14, %rdi
	callq	core.cmp.slices.groups_equal.i8.31.core.cmp.numbers.U8PartialEq.
	testb	%al, %al
	movq	24(%rsp), %r8
	je	.Lunix_path_BB2_187
	testq	%r12, %r12
	je	.Lunix_path_BB2_260
	xorl	%ebx, %ebx
	jmp	.Lunix_path_BB2_311
	.p2align	4
.Lunix_path_BB2_187:
	movq	16(%rsp), %rax
	cmpq	$10, %rax
	jbe	.Lunix_path_BB2_188
	xorl	%ecx, %ecx
.Lunix_path_BB2_256:
	movq	(%rsp), %rdx
	leaq	(%rdx,%rcx), %rsi
	leaq	.Lunix_path_static.55(%rip), %rdi
	movq	%rsi, %r8
	subq	%rdi, %r8
	movabsq	$7885080994131501410, %rdi
	cmpq	$10, %r8
	ja	.Lunix_path_BB2_258
	movq	%rdi, (%rsi)
	movw	$28257, 8(%rsi)
	movb	$100, 10(%rsi)
	jmp	.Lunix_path_BB2_259
	.p2align	4
.Lunix_path_BB2_258:
	movq	%rdi, (%rsi)
	movl	$1684955501, 7(%rsi)
.Lunix_path_BB2_259:
	addq	$11, %rcx
	movq	%rdx, (%rsp)
	movq	%rcx, 8(%rsp)
	movq	%rax, 16(%rsp)
.Lunix_path_BB2_260:
	movq	8(%rsp), %r14
	cmpq	%r14, 16(%rsp)
	je	.Lunix_path_BB2_306
.Lunix_path_BB2_261:
	movq	(%rsp), %rax
	movb	$10, (%rax,%r14)
	incq	%r14
	movq	%r14, 8(%rsp)
	movq	248(%rsp), %rsi
	je	.Lunix_path_BB2_2
	movq	(%rsp), %rax
	movq	%rax, 24(%rsp)
	addq	$16, %rax
	movq	%rax, 48(%rsp)
	xorl	%ebp, %ebp
	movq	%r14, 40(%rsp)
	.p2align	4
.Lunix_path_BB2_263:
	movq	24(%rsp), %rax
	leaq	(%rax,%rbp), %r15
	subq	%rbp, %r14
	movb	$0, 34(%rsi)
	movq	$-1, %rbx
.Lunix_path_BB2_264:
	pxor	%xmm0, %xmm0
	movdqa	%xmm0, 224(%rsp)
	movdqa	%xmm0, 208(%rsp)
	movdqa	%xmm0, 192(%rsp)
	movdqa	%xmm0, 176(%rsp)
	movdqa	%xmm0, 160(%rsp)
	movdqa	%xmm0, 144(%rsp)
	movq	16(%rsi), %r12
	movq	24(%rsi), %r13
	movq	%r13, %rax
	subq	%r12, %rax
	cmpq	%rax, %r14
	jb	.Lunix_path_BB2_276
	leaq	144(%rsp), %rdi
	movq	%r15, %rdx
	movq	%r14, %rcx
	callq	std.io.buffered.BufWriter.write_cold.30751c9e8e42e953.
	movq	152(%rsp), %rax
	cmpb	$1, 144(%rsp)
	jne	.Lunix_path_BB2_292
	shrq	$8, %rax
	movaps	.Lunix_path_CPI2_7(%rip), %xmm0
	movaps	%xmm0, 144(%rsp)
	movdqa	.Lunix_path_CPI2_8(%rip), %xmm0
	movdqa	%xmm0, 160(%rsp)
	movabsq	$2820983053732684064, %rcx
	movq	%rcx, 176(%rsp)
	movb	$40, 184(%rsp)
	cmpb	$41, %al
	jae	.Lunix_path_BB2_1243
	andl	$63, %eax
	cmpb	$35, 144(%rsp,%rax)
	movq	248(%rsp), %rsi
	jne	.Lunix_path_BB2_1244
	decq	%rbx
	jne	.Lunix_path_BB2_264
	pxor	%xmm0, %xmm0
	movdqa	%xmm0, 224(%rsp)
	movdqa	%xmm0, 208(%rsp)
	movdqa	%xmm0, 192(%rsp)
	movdqa	%xmm0, 176(%rsp)
	movdqa	%xmm0, 160(%rsp)
	movdqa	%xmm0, 144(%rsp)
	movq	16(%rsi), %r13
	movq	24(%rsi), %r12
	movq	%r12, %rax
	subq	%r13, %rax
	cmpq	%rax, %r14
	jae	.Lunix_path_BB2_303
	movq	8(%rsi), %rbx
	movq	312(%rsp), %rax
	movdqu	%xmm0, (%rax)
	leaq	(%rbx,%r13), %rdi
	movq	%rdi, %rax
	subq	%r15, %rax
	cmpq	%r14, %rax
	jae	.Lunix_path_BB2_293
	cmpq	$4, %r14
	jb	.Lunix_path_BB2_273
	cmpq	$32, %rax
	jae	.Lunix_path_BB2_295
.Lunix_path_BB2_273:
	xorl	%eax, %eax
	jmp	.Lunix_path_BB2_274
	.p2align	4
.Lunix_path_BB2_276:
	movq	8(%rsi), %rbx
	movq	312(%rsp), %rax
	movdqu	%xmm0, (%rax)
	leaq	(%rbx,%r12), %rdi
	movq	%rdi, %rax
	subq	%r15, %rax
	cmpq	%r14, %rax
	jae	.Lunix_path_BB2_282
	cmpq	$4, %r14
	jb	.Lunix_path_BB2_279
	movq	%rbx, %rax
	subq	%r15, %rax
	addq	%r12, %rax
	cmpq	$32, %rax
	jae	.Lunix_path_BB2_284
.Lunix_path_BB2_279:
	xorl	%eax, %eax
	jmp	.Lunix_path_BB2_280
	.p2align	4
.Lunix_path_BB2_282:
	movq	%r15, %rsi
	movq	%r14, %rdx
	callq	memmove@PLT
	movq	248(%rsp), %rsi
	jmp	.Lunix_path_BB2_283
.Lunix_path_BB2_284:
	cmpq	$32, %r14
	jae	.Lunix_path_BB2_286
	xorl	%eax, %eax
	jmp	.Lunix_path_BB2_290
.Lunix_path_BB2_286:
	movq	%r14, %rax
	andq	$-32, %rax
	movq	48(%rsp), %rcx
	addq	%rbp, %rcx
	leaq	(%rbx,%r12), %rdx
	addq	$16, %rdx
	xorl	%esi, %esi
	.p2align	4
.Lunix_path_BB2_287:
	movdqu	-16(%rcx,%rsi), %xmm0
	movdqu	(%rcx,%rsi), %xmm1
	movdqu	%xmm0, -16(%rdx,%rsi)
	movdqu	%xmm1, (%rdx,%rsi)
	addq	$32, %rsi
	cmpq	%rsi, %rax
	jne	.Lunix_path_BB2_287
	cmpq	%rax, %r14
	movq	248(%rsp), %rsi
	je	.Lunix_path_BB2_283
	testb	$28, %r14b
	je	.Lunix_path_BB2_280
.Lunix_path_BB2_290:
	movq	%rax, %rcx
	movq	%r14, %rax
	andq	$-4, %rax
	.p2align	4
.Lunix_path_BB2_291:
	movl	(%r15,%rcx), %edx
	movl	%edx, (%rdi,%rcx)
	addq	$4, %rcx
	cmpq	%rcx, %rax
	jne	.Lunix_path_BB2_291
	jmp	.Lunix_path_BB2_281
.Lunix_path_BB2_292:
	movq	%rax, %r14
	movq	248(%rsp), %rsi
	testq	%r14, %r14
	jne	.Lunix_path_BB2_305
	jmp	.Lunix_path_BB2_1244
.Lunix_path_BB2_293:
	movq	%r15, %rsi
	movq	%r14, %rdx
	callq	memmove@PLT
	movq	248(%rsp), %rsi
	jmp	.Lunix_path_BB2_294
.Lunix_path_BB2_295:
	cmpq	$32, %r14
	jae	.Lunix_path_BB2_297
	xorl	%eax, %eax
	jmp	.Lunix_path_BB2_301
.Lunix_path_BB2_297:
	movq	%r14, %rax
	andq	$-32, %rax
	movq	48(%rsp), %rcx
	addq	%rbp, %rcx
	leaq	(%rbx,%r13), %rdx
	addq	$16, %rdx
	xorl	%esi, %esi
	.p2align	4
.Lunix_path_BB2_298:
	movdqu	-16(%rcx,%rsi), %xmm0
	movdqu	(%rcx,%rsi), %xmm1
	movdqu	%xmm0, -16(%rdx,%rsi)
	movdqu	%xmm1, (%rdx,%rsi)
	addq	$32, %rsi
	cmpq	%rsi, %rax
	jne	.Lunix_path_BB2_298
	cmpq	%rax, %r14
	movq	248(%rsp), %rsi
	je	.Lunix_path_BB2_294
	testb	$28, %r14b
	je	.Lunix_path_BB2_274
.Lunix_path_BB2_301:
	movq	%rax, %rcx
	movq	%r14, %rax
	andq	$-4, %rax
	.p2align	4
.Lunix_path_BB2_302:
	movl	(%r15,%rcx), %edx
	movl	%edx, (%rdi,%rcx)
	addq	$4, %rcx
	cmpq	%rcx, %rax
	jne	.Lunix_path_BB2_302
	jmp	.Lunix_path_BB2_275
.Lunix_path_BB2_303:
	leaq	144(%rsp), %rdi
	movq	248(%rsp), %rsi
	movq	%r15, %rdx
	movq	%r14, %rcx
	callq	std.io.buffered.BufWriter.write_cold.30751c9e8e42e953.
	movq	248(%rsp), %rsi
	cmpb	$0, 144(%rsp)
	jne	.Lunix_path_BB2_1244
	movq	152(%rsp), %r14
	testq	%r14, %r14
	jne	.Lunix_path_BB2_305
	jmp	.Lunix_path_BB2_1244
	.p2align	4
.Lunix_path_BB2_274:
	movzbl	(%r15,%rax), %ecx
	movb	%cl, (%rdi,%rax)
	incq	%rax
.Lunix_path_BB2_275:
	cmpq	%rax, %r14
	jne	.Lunix_path_BB2_274
.Lunix_path_BB2_294:
	addq	%r14, %r13
	movq	%rbx, 8(%rsi)
	movq	%r13, 16(%rsi)
	movq	%r12, 24(%rsi)
	testq	%r14, %r14
	jne	.Lunix_path_BB2_305
	jmp	.Lunix_path_BB2_1244
	.p2align	4
.Lunix_path_BB2_280:
	movzbl	(%r15,%rax), %ecx
	movb	%cl, (%rdi,%rax)
	incq	%rax
.Lunix_path_BB2_281:
	cmpq	%rax, %r14
	jne	.Lunix_path_BB2_280
.Lunix_path_BB2_283:
	addq	%r14, %r12
	movq	%rbx, 8(%rsi)
	movq	%r12, 16(%rsi)
	movq	%r13, 24(%rsi)
	testq	%r14, %r14
	je	.Lunix_path_BB2_1244
.Lunix_path_BB2_305:
	addq	%r14, %rbp
	movq	40(%rsp), %r14
	cmpq	%r14, %rbp
	jb	.Lunix_path_BB2_263
	jmp	.Lunix_path_BB2_2
.Lunix_path_BB2_306:
	movq	%rsp, %rdi
	movl	$1, %esi
	callq	std_alloc.vec.Vec.grow_amortized.307f257cf2d167af.
	testb	%al, %al
	je	.Lunix_path_BB2_1261
	movq	8(%rsp), %r14
	jmp	.Lunix_path_BB2_261
.Lunix_path_BB2_188:
	movq	%rsp, %rdi
	movl	$11, %esi
	callq	std_alloc.vec.Vec.grow_amortized.307f257cf2d167af.
	testb	%al, %al
	je	.Lunix_path_BB2_1261
	movq	8(%rsp), %rcx
	movq	16(%rsp), %rax
	jmp	.Lunix_path_BB2_256
.Lunix_path_BB2_308:
	movb	$-67, 2(%rax)
	movw	$-16401, (%rax)
.Lunix_path_BB2_309:
	addq	$3, %rbx
	movq	%rbp, (%rsp)
	movq	%rbx, 8(%rsp)
	movq	%r13, 16(%rsp)
.Lunix_path_BB2_310:
	addq	%r15, %r14
	addq	%r14, %r8
	subq	%r14, %r12
	je	.Lunix_path_BB2_260
.Lunix_path_BB2_311:
	cmpq	$15, %r12
	movq	%r8, 24(%rsp)
	ja	.Lunix_path_BB2_315
.Lunix_path_BB2_312:
	movq	%r8, %rdi
	movq	%r12, %rsi
	xorl	%edx, %edx
.Lunix_path_BB2_313:
	callq	unix_bytes.utf8.scans.scan_by_sequence
.Lunix_path_BB2_314:
	movq	%rax, %r14
	movq	%rdx, %r15
	jmp	.Lunix_path_BB2_321
.Lunix_path_BB2_315:
	movdqu	(%r8), %xmm0
	pmovmskb	%xmm0, %eax
	testl	%eax, %eax
	je	.Lunix_path_BB2_329
	orl	$65536, %eax
	rep		bsfl	%eax, %r14d
	movzbl	(%r8,%r14), %eax
	addb	$62, %al
	cmpb	$50, %al
	ja	.Lunix_path_BB2_320
	movq	%r12, %rax
	subq	%r14, %rax
	cmpq	$2, %rax
	jb	.Lunix_path_BB2_320
	cmpb	$-65, 1(%r8,%r14)
	jg	.Lunix_path_BB2_320
	movq	%r8, %rdi
	movq	%r12, %rsi
	movq	%r14, %rdx
	cmpq	$31, %rax
	jbe	.Lunix_path_BB2_313
	jmp	.Lunix_path_BB2_331
.Lunix_path_BB2_320:
	movl	$1, %r15d
.Lunix_path_BB2_321:
	movq	16(%rsp), %r13
	movq	%r13, %rax
	subq	%rbx, %rax
	cmpq	%rax, %r14
	ja	.Lunix_path_BB2_349
.Lunix_path_BB2_322:
	movq	(%rsp), %rbp
	pxor	%xmm0, %xmm0
	leaq	8(%rsp), %rax
	movdqu	%xmm0, (%rax)
	leaq	(%rbx,%rbp), %rdi
	movq	%rdi, %rax
	movq	24(%rsp), %r8
	subq	%r8, %rax
	cmpq	%r14, %rax
	jae	.Lunix_path_BB2_325
	cmpq	$4, %r14
	jb	.Lunix_path_BB2_324
	cmpq	$32, %rax
	jae	.Lunix_path_BB2_327
.Lunix_path_BB2_324:
	xorl	%eax, %eax
.Lunix_path_BB2_339:
	movq	%r14, %rdx
	movq	%rax, %rcx
	andq	$3, %rdx
	je	.Lunix_path_BB2_342
	movq	%rax, %rcx
	.p2align	4
.Lunix_path_BB2_341:
	movzbl	(%r8,%rcx), %esi
	movb	%sil, (%rdi,%rcx)
	incq	%rcx
	decq	%rdx
	jne	.Lunix_path_BB2_341
.Lunix_path_BB2_342:
	subq	%r14, %rax
	cmpq	$-4, %rax
	ja	.Lunix_path_BB2_345
	leaq	(%rbx,%rbp), %rax
	addq	$3, %rax
	.p2align	4
.Lunix_path_BB2_344:
	movzbl	(%r8,%rcx), %edx
	movb	%dl, -3(%rax,%rcx)
	movzbl	1(%r8,%rcx), %edx
	movb	%dl, -2(%rax,%rcx)
	movzbl	2(%r8,%rcx), %edx
	movb	%dl, -1(%rax,%rcx)
	movzbl	3(%r8,%rcx), %edx
	movb	%dl, (%rax,%rcx)
	addq	$4, %rcx
	cmpq	%rcx, %r14
	jne	.Lunix_path_BB2_344
	jmp	.Lunix_path_BB2_345
.Lunix_path_BB2_325:
	movq	%r8, %rsi
	movq	%r14, %rdx
	callq	memmove@PLT
	movq	24(%rsp), %r8
.Lunix_path_BB2_345:
	addq	%r14, %rbx
	movq	%rbp, (%rsp)
	movq	%rbx, 8(%rsp)
	movq	%r13, 16(%rsp)
	testq	%r15, %r15
	je	.Lunix_path_BB2_310
	movq	%r13, %rax
	subq	%rbx, %rax
	cmpq	$2, %rax
	jbe	.Lunix_path_BB2_351
.Lunix_path_BB2_347:
	leaq	(%rbx,%rbp), %rax
	leaq	.Lunix_path_static.35(%rip), %rcx
	movq	%rax, %rdx
	subq	%rcx, %rdx
	cmpq	$2, %rdx
	ja	.Lunix_path_BB2_308
	movw	$-16401, (%rax)
	movb	$-67, 2(%rax)
	jmp	.Lunix_path_BB2_309
.Lunix_path_BB2_329:
	cmpq	$31, %r12
	jbe	.Lunix_path_BB2_312
	movq	%r8, %rdi
	movq	%r12, %rsi
	xorl	%edx, %edx
.Lunix_path_BB2_331:
	callq	unix_bytes.utf8.scans.scan_by_window
	jmp	.Lunix_path_BB2_314
.Lunix_path_BB2_327:
	cmpq	$32, %r14
	jae	.Lunix_path_BB2_332
	xorl	%eax, %eax
	jmp	.Lunix_path_BB2_336
.Lunix_path_BB2_332:
	movq	%r14, %rax
	andq	$-32, %rax
	leaq	(%rbx,%rbp), %rcx
	addq	$16, %rcx
	xorl	%edx, %edx
	.p2align	4
.Lunix_path_BB2_333:
	movdqu	(%r8,%rdx), %xmm0
	movdqu	16(%r8,%rdx), %xmm1
	movdqu	%xmm0, -16(%rcx,%rdx)
	movdqu	%xmm1, (%rcx,%rdx)
	addq	$32, %rdx
	cmpq	%rdx, %rax
	jne	.Lunix_path_BB2_333
	cmpq	%rax, %r14
	je	.Lunix_path_BB2_345
	testb	$28, %r14b
	je	.Lunix_path_BB2_339
.Lunix_path_BB2_336:
	movq	%rax, %rcx
	movq	%r14, %rax
	andq	$-4, %rax
	.p2align	4
.Lunix_path_BB2_337:
	movl	(%r8,%rcx), %edx
	movl	%edx, (%rdi,%rcx)
	addq	$4, %rcx
	cmpq	%rcx, %rax
	jne	.Lunix_path_BB2_337
	cmpq	%rax, %r14
	je	.Lunix_path_BB2_345
	jmp	.Lunix_path_BB2_339
.Lunix_path_BB2_349:
	movq	%rsp, %rdi
	movq	%r14, %rsi
	callq	std_alloc.vec.Vec.grow_amortized.307f257cf2d167af.
	testb	%al, %al
	je	.Lunix_path_BB2_1261
	movq	8(%rsp), %rbx
	movq	16(%rsp), %r13
	jmp	.Lunix_path_BB2_322
.Lunix_path_BB2_351:
	movq	%rsp, %rdi
	movl	$3, %esi
	callq	std_alloc.vec.Vec.grow_amortized.307f257cf2d167af.
	movq	24(%rsp), %r8
	testb	%al, %al
	je	.Lunix_path_BB2_1261
	movq	(%rsp), %rbp
	movq	8(%rsp), %rbx
	movq	16(%rsp), %r13
	jmp	.Lunix_path_BB2_347
.Lunix_path_BB2_353:
	movq	%rsi, %r14
	movq	%r9, %rsi
	movq	%r12, %rdx
	callq	memmove@PLT
	movq	%r14, %rsi
.Lunix_path_BB2_354:
	pxor	%xmm0, %xmm0
	movdqa	%xmm0, 144(%rsp)
	movq	$0, 160(%rsp)
	testb	%bl, %bl
	je	.Lunix_path_BB2_464
	movzbl	%bl, %eax
	cmpl	$1, %eax
	jne	.Lunix_path_BB2_360
	leaq	144(%rsp), %rdi
	movq	%r13, %rdx
	callq	pathtool.tables.insert_path
	movzbl	144(%rsp), %ebx
	testb	%al, %al
	je	.Lunix_path_BB2_464
	cmpb	$1, %bl
	movq	24(%rsp), %r15
	je	.Lunix_path_BB2_556
	jmp	.Lunix_path_BB2_558
.Lunix_path_BB2_358:
	testq	%r12, %r12
	je	.Lunix_path_BB2_586
.Lunix_path_BB2_359:
	xorl	%eax, %eax
	cmpb	$47, -1(%r9,%r12)
	setne	%bl
	movl	$47, %ecx
	cmovel	%eax, %ecx
	movq	%r12, %rbp
	jmp	.Lunix_path_BB2_587
.Lunix_path_BB2_360:
	xorl	%ebx, %ebx
	movq	24(%rsp), %r15
	jmp	.Lunix_path_BB2_364
.Lunix_path_BB2_361:
	movb	$1, %bl
.Lunix_path_BB2_362:
	movq	%rsi, %r14
	movq	%r13, %rdx
.Lunix_path_BB2_363:
	leaq	144(%rsp), %rdi
	callq	pathtool.tables.insert_path
	movq	%r14, %rsi
	testb	%al, %al
	jne	.Lunix_path_BB2_555
.Lunix_path_BB2_364:
	testb	$1, %bl
	jne	.Lunix_path_BB2_463
	xorl	%edx, %edx
	testq	%r13, %r13
	je	.Lunix_path_BB2_368
	.p2align	4
.Lunix_path_BB2_366:
	cmpb	$9, (%rsi,%rdx)
	je	.Lunix_path_BB2_368
	incq	%rdx
	cmpq	%rdx, %r13
	jne	.Lunix_path_BB2_366
	jmp	.Lunix_path_BB2_361
.Lunix_path_BB2_368:
	movb	$1, %bl
	cmpq	%r13, %rdx
	jae	.Lunix_path_BB2_362
	leaq	(%rsi,%rdx), %r14
	incq	%r14
	movq	%rdx, %rax
	notq	%rax
	addq	%rax, %r13
	xorl	%ebx, %ebx
	jmp	.Lunix_path_BB2_363
.Lunix_path_BB2_370:
	xorl	%edx, %edx
	movq	40(%rsp), %rbx
	jmp	.Lunix_path_BB2_472
.Lunix_path_BB2_371:
	xorl	%ebp, %ebp
	leaq	(%r14,%r15), %r8
	incq	%r8
	jmp	.Lunix_path_BB2_488
.Lunix_path_BB2_372:
	pxor	%xmm0, %xmm0
	movdqa	%xmm0, 80(%rsp)
	movq	$0, 96(%rsp)
	jmp	.Lunix_path_BB2_737
.Lunix_path_BB2_373:
	cmpq	$64, %r8
	movq	40(%rsp), %rcx
	jb	.Lunix_path_BB2_725
	xorl	%edx, %edx
	movq	%r8, %rax
.Lunix_path_BB2_375:
	movdqu	(%rsi,%rdx), %xmm0
	movdqu	16(%rsi,%rdx), %xmm1
	movdqu	32(%rsi,%rdx), %xmm2
	movdqu	48(%rsi,%rdx), %xmm3
	movdqu	(%rcx,%rdx), %xmm4
	pcmpeqb	%xmm0, %xmm4
	movdqu	16(%rcx,%rdx), %xmm0
	pcmpeqb	%xmm1, %xmm0
	pand	%xmm4, %xmm0
	movdqu	32(%rcx,%rdx), %xmm1
	pcmpeqb	%xmm2, %xmm1
	movdqu	48(%rcx,%rdx), %xmm2
	pcmpeqb	%xmm3, %xmm2
	pand	%xmm1, %xmm2
	pand	%xmm0, %xmm2
	pmovmskb	%xmm2, %edi
	cmpl	$65535, %edi
	jne	.Lunix_path_BB2_726
	addq	$64, %rdx
	addq	$-64, %rax
	cmpq	$63, %rax
	ja	.Lunix_path_BB2_375
	jmp	.Lunix_path_BB2_726
.Lunix_path_BB2_377:
	xorl	%ebx, %ebx
.Lunix_path_BB2_378:
	movq	%r12, %r10
	movq	%r12, %rax
	jmp	.Lunix_path_BB2_380
.Lunix_path_BB2_379:
	movq	%rax, %r10
	testq	%rax, %rax
	je	.Lunix_path_BB2_260
.Lunix_path_BB2_380:
	decq	%rax
	je	.Lunix_path_BB2_386
	movzbl	(%r9,%rax), %ecx
	cmpl	$47, %ecx
	je	.Lunix_path_BB2_384
	cmpl	$46, %ecx
	jne	.Lunix_path_BB2_386
	cmpb	$47, -1(%r9,%rax)
	jne	.Lunix_path_BB2_386
.Lunix_path_BB2_384:
	movq	%r12, %rcx
	subq	%rax, %rcx
	cmpq	$8, %rcx
	jne	.Lunix_path_BB2_379
	movq	%r9, %rdi
	xorl	%esi, %esi
	movq	%rax, %rdx
	callq	unix_path.filler.trimmed_blocks_len
	movq	24(%rsp), %r9
	jmp	.Lunix_path_BB2_379
.Lunix_path_BB2_386:
	movb	$1, %al
	xorl	%r13d, %r13d
	movq	%r10, %rcx
	movq	%r9, %rsi
	xorl	%r12d, %r12d
	movq	%r10, 40(%rsp)
	jmp	.Lunix_path_BB2_389
.Lunix_path_BB2_387:
	movq	%r14, %rdx
	callq	memmove@PLT
	movq	40(%rsp), %r10
	movq	24(%rsp), %r9
.Lunix_path_BB2_388:
	addq	%rbx, %r12
	addq	%r14, %r13
	movq	%r15, (%rsp)
	movq	%r13, 8(%rsp)
	movq	%rbp, 16(%rsp)
	leaq	(%r9,%r12), %rsi
	xorl	%eax, %eax
	movq	%r10, %rcx
	movl	$0, %ebx
	subq	%r12, %rcx
	je	.Lunix_path_BB2_260
.Lunix_path_BB2_389:
	testb	$1, %bl
	je	.Lunix_path_BB2_397
	movq	%rcx, %rdx
	movl	$1, %r14d
	movl	$1, %ebx
	decq	%rdx
	je	.Lunix_path_BB2_404
	leaq	-1(%rcx), %rdi
	addq	$-2, %rcx
	xorl	%ebx, %ebx
	jmp	.Lunix_path_BB2_393
	.p2align	4
.Lunix_path_BB2_392:
	incq	%rbx
	cmpq	%rbx, %rdi
	je	.Lunix_path_BB2_402
.Lunix_path_BB2_393:
	movzbl	1(%rsi,%rbx), %r8d
	cmpl	$47, %r8d
	je	.Lunix_path_BB2_392
	cmpl	$46, %r8d
	jne	.Lunix_path_BB2_403
	cmpq	%rbx, %rcx
	je	.Lunix_path_BB2_402
	cmpb	$47, 2(%rsi,%rbx)
	je	.Lunix_path_BB2_392
	jmp	.Lunix_path_BB2_403
.Lunix_path_BB2_397:
	cmpq	$1, %rcx
	je	.Lunix_path_BB2_407
	cmpb	$46, (%rsi)
	jne	.Lunix_path_BB2_407
	cmpb	$46, 1(%rsi)
	jne	.Lunix_path_BB2_407
	leaq	.Lunix_path_static.33(%rip), %rdx
	movl	$2, %r14d
	cmpq	$2, %rcx
	jne	.Lunix_path_BB2_405
	movl	$2, %ebx
	movq	%rdx, %rsi
	testb	$1, %al
	je	.Lunix_path_BB2_433
	jmp	.Lunix_path_BB2_435
.Lunix_path_BB2_402:
	movq	%rdx, %rbx
.Lunix_path_BB2_403:
	incq	%rbx
.Lunix_path_BB2_404:
	cmpb	$47, (%rsi)
	leaq	.Lunix_path_static.26(%rip), %rcx
	leaq	.Lunix_path_static.27(%rip), %rsi
	cmoveq	%rcx, %rsi
	testb	$1, %al
	je	.Lunix_path_BB2_433
	jmp	.Lunix_path_BB2_435
.Lunix_path_BB2_405:
	cmpb	$47, 2(%rsi)
	jne	.Lunix_path_BB2_407
	leaq	-2(%rcx), %rdi
	addq	$-3, %rcx
	xorl	%ebx, %ebx
	jmp	.Lunix_path_BB2_413
.Lunix_path_BB2_407:
	cmpq	$15, %rcx
	ja	.Lunix_path_BB2_417
	xorl	%r14d, %r14d
	.p2align	4
.Lunix_path_BB2_409:
	cmpb	$47, (%rsi,%r14)
	je	.Lunix_path_BB2_422
	incq	%r14
	cmpq	%r14, %rcx
	jne	.Lunix_path_BB2_409
	movq	%rcx, %r14
	subq	%r14, %rcx
	jne	.Lunix_path_BB2_423
.Lunix_path_BB2_431:
	xorl	%ebx, %ebx
	jmp	.Lunix_path_BB2_432
.Lunix_path_BB2_412:
	incq	%rbx
	cmpq	%rbx, %rdi
	je	.Lunix_path_BB2_459
.Lunix_path_BB2_413:
	movzbl	2(%rsi,%rbx), %r8d
	cmpl	$47, %r8d
	je	.Lunix_path_BB2_412
	cmpl	$46, %r8d
	jne	.Lunix_path_BB2_460
	cmpq	%rbx, %rcx
	je	.Lunix_path_BB2_459
	cmpb	$47, 3(%rsi,%rbx)
	je	.Lunix_path_BB2_412
	jmp	.Lunix_path_BB2_460
.Lunix_path_BB2_417:
	movq	%rcx, %rdx
	addq	$-16, %rdx
	je	.Lunix_path_BB2_421
	xorl	%edi, %edi
	.p2align	4
.Lunix_path_BB2_419:
	movdqu	(%rsi,%rdi), %xmm0
	pcmpeqb	.Lunix_path_CPI2_2(%rip), %xmm0
	pmovmskb	%xmm0, %r8d
	orl	$65536, %r8d
	rep		bsfl	%r8d, %r8d
	cmpw	$15, %r8w
	jbe	.Lunix_path_BB2_430
	addq	$16, %rdi
	cmpq	%rdx, %rdi
	jb	.Lunix_path_BB2_419
.Lunix_path_BB2_421:
	movdqu	(%rsi,%rdx), %xmm0
	pcmpeqb	.Lunix_path_CPI2_2(%rip), %xmm0
	pmovmskb	%xmm0, %edi
	orl	$65536, %edi
	rep		bsfl	%edi, %r14d
	addq	%rdx, %r14
.Lunix_path_BB2_422:
	subq	%r14, %rcx
	je	.Lunix_path_BB2_431
.Lunix_path_BB2_423:
	leaq	(%rsi,%r14), %rdx
	incq	%rdx
	leaq	-1(%rcx), %rdi
	xorl	%ebx, %ebx
	jmp	.Lunix_path_BB2_425
	.p2align	4
.Lunix_path_BB2_424:
	incq	%rbx
	cmpq	%rbx, %rcx
	je	.Lunix_path_BB2_429
.Lunix_path_BB2_425:
	movzbl	-1(%rdx,%rbx), %r8d
	cmpl	$47, %r8d
	je	.Lunix_path_BB2_424
	cmpl	$46, %r8d
	jne	.Lunix_path_BB2_432
	cmpq	%rbx, %rdi
	je	.Lunix_path_BB2_429
	cmpb	$47, (%rdx,%rbx)
	je	.Lunix_path_BB2_424
.Lunix_path_BB2_432:
	addq	%r14, %rbx
	testb	$1, %al
	jne	.Lunix_path_BB2_435
	jmp	.Lunix_path_BB2_433
.Lunix_path_BB2_429:
	movq	%rcx, %rbx
	addq	%r14, %rbx
	testb	$1, %al
	jne	.Lunix_path_BB2_435
.Lunix_path_BB2_433:
	cmpq	%r13, 16(%rsp)
	je	.Lunix_path_BB2_457
.Lunix_path_BB2_434:
	movq	(%rsp), %rax
	movb	$9, (%rax,%r13)
	incq	%r13
	movq	%r13, 8(%rsp)
.Lunix_path_BB2_435:
	movq	16(%rsp), %rbp
	movq	%rbp, %rax
	subq	%r13, %rax
	cmpq	%rax, %r14
	ja	.Lunix_path_BB2_455
.Lunix_path_BB2_436:
	movq	(%rsp), %r15
	pxor	%xmm0, %xmm0
	leaq	8(%rsp), %rax
	movdqu	%xmm0, (%rax)
	leaq	(%r15,%r13), %rdi
	movq	%rdi, %rax
	subq	%rsi, %rax
	cmpq	%r14, %rax
	jae	.Lunix_path_BB2_387
	cmpq	$4, %r14
	jb	.Lunix_path_BB2_438
	cmpq	$32, %rax
	jae	.Lunix_path_BB2_440
.Lunix_path_BB2_438:
	xorl	%eax, %eax
.Lunix_path_BB2_449:
	movq	%r14, %rdx
	movq	%rax, %rcx
	andq	$3, %rdx
	je	.Lunix_path_BB2_452
	movq	%rax, %rcx
	.p2align	4
.Lunix_path_BB2_451:
	movzbl	(%rsi,%rcx), %r8d
	movb	%r8b, (%rdi,%rcx)
	incq	%rcx
	decq	%rdx
	jne	.Lunix_path_BB2_451
.Lunix_path_BB2_452:
	subq	%r14, %rax
	cmpq	$-4, %rax
	ja	.Lunix_path_BB2_388
	leaq	(%r15,%r13), %rax
	addq	$3, %rax
	.p2align	4
.Lunix_path_BB2_454:
	movzbl	(%rsi,%rcx), %edx
	movb	%dl, -3(%rax,%rcx)
	movzbl	1(%rsi,%rcx), %edx
	movb	%dl, -2(%rax,%rcx)
	movzbl	2(%rsi,%rcx), %edx
	movb	%dl, -1(%rax,%rcx)
	movzbl	3(%rsi,%rcx), %edx
	movb	%dl, (%rax,%rcx)
	addq	$4, %rcx
	cmpq	%rcx, %r14
	jne	.Lunix_path_BB2_454
	jmp	.Lunix_path_BB2_388
.Lunix_path_BB2_440:
	cmpq	$32, %r14
	jae	.Lunix_path_BB2_442
	xorl	%eax, %eax
	jmp	.Lunix_path_BB2_446
.Lunix_path_BB2_430:
	movzwl	%r8w, %r14d
	addq	%rdi, %r14
	subq	%r14, %rcx
	jne	.Lunix_path_BB2_423
	jmp	.Lunix_path_BB2_431
.Lunix_path_BB2_442:
	movq	%r14, %rax
	andq	$-32, %rax
	leaq	(%r15,%r13), %rcx
	addq	$16, %rcx
	xorl	%edx, %edx
	.p2align	4
.Lunix_path_BB2_443:
	movdqu	(%rsi,%rdx), %xmm0
	movdqu	16(%rsi,%rdx), %xmm1
	movdqu	%xmm0, -16(%rcx,%rdx)
	movdqu	%xmm1, (%rcx,%rdx)
	addq	$32, %rdx
	cmpq	%rdx, %rax
	jne	.Lunix_path_BB2_443
	cmpq	%rax, %r14
	je	.Lunix_path_BB2_388
	testb	$28, %r14b
	je	.Lunix_path_BB2_449
.Lunix_path_BB2_446:
	movq	%rax, %rcx
	movq	%r14, %rax
	andq	$-4, %rax
	.p2align	4
.Lunix_path_BB2_447:
	movl	(%rsi,%rcx), %edx
	movl	%edx, (%rdi,%rcx)
	addq	$4, %rcx
	cmpq	%rcx, %rax
	jne	.Lunix_path_BB2_447
	cmpq	%rax, %r14
	je	.Lunix_path_BB2_388
	jmp	.Lunix_path_BB2_449
.Lunix_path_BB2_455:
	movq	%rsp, %rdi
	movq	%rsi, %r15
	movq	%r14, %rsi
	callq	std_alloc.vec.Vec.grow_amortized.307f257cf2d167af.
	movq	40(%rsp), %r10
	movq	24(%rsp), %r9
	testb	%al, %al
	je	.Lunix_path_BB2_1261
	movq	%r15, %rsi
	movq	8(%rsp), %r13
	movq	16(%rsp), %rbp
	jmp	.Lunix_path_BB2_436
.Lunix_path_BB2_457:
	movq	%rsp, %rdi
	movq	%rsi, %r15
	movl	$1, %esi
	callq	std_alloc.vec.Vec.grow_amortized.307f257cf2d167af.
	movq	40(%rsp), %r10
	movq	24(%rsp), %r9
	testb	%al, %al
	je	.Lunix_path_BB2_1261
	movq	%r15, %rsi
	movq	8(%rsp), %r13
	jmp	.Lunix_path_BB2_434
.Lunix_path_BB2_459:
	movq	%rdi, %rbx
.Lunix_path_BB2_460:
	addq	$2, %rbx
	movq	%rdx, %rsi
	testb	$1, %al
	je	.Lunix_path_BB2_433
	jmp	.Lunix_path_BB2_435
.Lunix_path_BB2_461:
	movl	$1, %edx
	jmp	.Lunix_path_BB2_472
.Lunix_path_BB2_462:
	movl	$1, %ebp
	jmp	.Lunix_path_BB2_488
.Lunix_path_BB2_463:
	movzbl	144(%rsp), %ebx
.Lunix_path_BB2_464:
	movzbl	%bl, %eax
	movq	152(%rsp), %rcx
	movq	160(%rsp), %rdx
	movq	152(%rsp), %rbx
	movq	%rax, 256(%rsp)
	movq	%rcx, 264(%rsp)
	movq	%rdx, 272(%rsp)
	leaq	32(%rsp), %rdx
	movq	%rdx, 80(%rsp)
	leaq	88(%rsp), %rcx
	pxor	%xmm0, %xmm0
	movdqu	%xmm0, (%rcx)
	cmpb	$1, %al
	jne	.Lunix_path_BB2_470
	movzwl	(%rbx), %r13d
	testq	%r13, %r13
	movq	24(%rsp), %r15
	je	.Lunix_path_BB2_603
	leaq	16(%rbx), %r14
	xorl	%ebp, %ebp
.Lunix_path_BB2_467:
	movq	-8(%r14), %rdx
	movq	(%r14), %rcx
	movq	%r15, %rdi
	movq	%r12, %rsi
	callq	unix_path.order.PathOrd.cmp
	cmpb	$2, %al
	jne	.Lunix_path_BB2_604
	incq	%rbp
	addq	$24, %r14
	cmpq	%rbp, %r13
	jne	.Lunix_path_BB2_467
	movq	%r13, %rbp
	jmp	.Lunix_path_BB2_604
.Lunix_path_BB2_470:
	xorl	%ebp, %ebp
	movq	%rdx, 72(%rsp)
	movq	%rdx, 136(%rsp)
	xorl	%r13d, %r13d
	movq	$0, 120(%rsp)
	movq	$0, 64(%rsp)
	movq	$0, 128(%rsp)
	movq	$0, 112(%rsp)
	movq	$0, 56(%rsp)
	movq	24(%rsp), %r15
	jmp	.Lunix_path_BB2_621
.Lunix_path_BB2_471:
	xorl	%edx, %edx
.Lunix_path_BB2_472:
	testq	%r13, %r13
	je	.Lunix_path_BB2_1145
	pxor	%xmm0, %xmm0
	movdqa	%xmm0, 144(%rsp)
	movq	$0, 160(%rsp)
	cmpq	%rdx, %r13
	movq	%rdx, %rcx
	cmovbq	%r13, %rcx
	cmpq	$15, %rcx
	ja	.Lunix_path_BB2_479
	cmpq	$7, %rcx
	ja	.Lunix_path_BB2_601
	testq	%rdx, %rdx
	je	.Lunix_path_BB2_848
	movzbl	(%r9), %eax
	cmpb	(%rbx), %al
	jne	.Lunix_path_BB2_850
	cmpq	$1, %rcx
	jne	.Lunix_path_BB2_1127
.Lunix_path_BB2_478:
	movq	%rcx, %rax
	jmp	.Lunix_path_BB2_851
.Lunix_path_BB2_479:
	xorl	%esi, %esi
	cmpq	$64, %rcx
	jb	.Lunix_path_BB2_483
	movq	%rcx, %rax
.Lunix_path_BB2_481:
	movdqu	(%r9,%rsi), %xmm0
	movdqu	16(%r9,%rsi), %xmm1
	movdqu	32(%r9,%rsi), %xmm2
	movdqu	48(%r9,%rsi), %xmm3
	movdqu	(%rbx,%rsi), %xmm4
	pcmpeqb	%xmm0, %xmm4
	movdqu	16(%rbx,%rsi), %xmm0
	pcmpeqb	%xmm1, %xmm0
	pand	%xmm4, %xmm0
	movdqu	32(%rbx,%rsi), %xmm1
	pcmpeqb	%xmm2, %xmm1
	movdqu	48(%rbx,%rsi), %xmm2
	pcmpeqb	%xmm3, %xmm2
	pand	%xmm1, %xmm2
	pand	%xmm0, %xmm2
	pmovmskb	%xmm2, %edi
	cmpl	$65535, %edi
	jne	.Lunix_path_BB2_483
	addq	$64, %rsi
	addq	$-64, %rax
	cmpq	$63, %rax
	ja	.Lunix_path_BB2_481
.Lunix_path_BB2_483:
	addq	$-16, %rcx
	cmpq	%rcx, %rsi
	jae	.Lunix_path_BB2_486
.Lunix_path_BB2_484:
	movdqu	(%r9,%rsi), %xmm0
	movdqu	(%rbx,%rsi), %xmm1
	pcmpeqb	%xmm0, %xmm1
	pmovmskb	%xmm1, %eax
	notl	%eax
	rep		bsfl	%eax, %eax
	cmpw	$15, %ax
	jbe	.Lunix_path_BB2_740
	addq	$16, %rsi
	cmpq	%rcx, %rsi
	jb	.Lunix_path_BB2_484
.Lunix_path_BB2_486:
	movdqu	(%r9,%rcx), %xmm0
	movdqu	(%rbx,%rcx), %xmm1
	pcmpeqb	%xmm0, %xmm1
	pmovmskb	%xmm1, %eax
	notl	%eax
	rep		bsfl	%eax, %eax
	addq	%rcx, %rax
	jmp	.Lunix_path_BB2_851
.Lunix_path_BB2_487:
	xorl	%ebp, %ebp
.Lunix_path_BB2_488:
	leaq	(%r14,%r15), %r13
	addq	$-15, %r13
	addq	%r15, %r14
	movb	$1, %al
	xorl	%r9d, %r9d
	jmp	.Lunix_path_BB2_491
	.p2align	4
.Lunix_path_BB2_489:
	movq	%r12, %rsi
	movq	%r15, %rdx
	movq	%r9, %r12
	movq	%rbp, 40(%rsp)
	movq	%r14, %rbp
	movq	%r13, %r14
	movq	%r11, %r13
	callq	memmove@PLT
	movq	%r13, %r11
	movq	%r14, %r13
	movq	%rbp, %r14
	movq	40(%rsp), %rbp
	movq	%r12, %r9
	movq	24(%rsp), %r8
.Lunix_path_BB2_490:
	addq	%r15, %r9
	movq	%r11, (%rsp)
	movq	%r9, 8(%rsp)
	movq	%rbx, 16(%rsp)
	xorl	%eax, %eax
.Lunix_path_BB2_491:
	cmpq	$1, %rbp
	je	.Lunix_path_BB2_497
	testq	%rbp, %rbp
	je	.Lunix_path_BB2_260
	cmpb	$46, -1(%r8,%rbp)
	jne	.Lunix_path_BB2_501
	cmpb	$46, -2(%r8,%rbp)
	jne	.Lunix_path_BB2_501
	movl	$2, %r15d
	leaq	.Lunix_path_static.33(%rip), %r12
	cmpq	$2, %rbp
	jne	.Lunix_path_BB2_499
	xorl	%ebp, %ebp
	testb	$1, %al
	je	.Lunix_path_BB2_527
	jmp	.Lunix_path_BB2_529
	.p2align	4
.Lunix_path_BB2_497:
	cmpb	$46, (%r8)
	jne	.Lunix_path_BB2_501
	movl	$1, %r15d
	leaq	.Lunix_path_static.27(%rip), %r12
	xorl	%ebp, %ebp
	testb	$1, %al
	je	.Lunix_path_BB2_527
	jmp	.Lunix_path_BB2_529
.Lunix_path_BB2_499:
	cmpb	$47, -3(%r8,%rbp)
	jne	.Lunix_path_BB2_501
	movl	%eax, 40(%rsp)
	addq	$-2, %rbp
	movq	%rbp, %rcx
	movq	%rbp, %rax
	jmp	.Lunix_path_BB2_510
	.p2align	4
.Lunix_path_BB2_501:
	movl	%eax, 40(%rsp)
	leaq	1(%rbp), %rax
	movq	%rbp, %rbx
	.p2align	4
.Lunix_path_BB2_502:
	cmpq	$15, %rbx
	jbe	.Lunix_path_BB2_505
	movdqu	(%r13,%rbx), %xmm0
	pcmpeqb	.Lunix_path_CPI2_2(%rip), %xmm0
	addq	$-16, %rbx
	pmovmskb	%xmm0, %ecx
	addq	$-16, %rax
	testl	%ecx, %ecx
	je	.Lunix_path_BB2_502
	movzwl	%cx, %eax
	bsrq	%rax, %rax
	xorq	$63, %rax
	subq	%rax, %rbx
	addq	$64, %rbx
	jmp	.Lunix_path_BB2_507
	.p2align	4
.Lunix_path_BB2_505:
	cmpq	$1, %rax
	je	.Lunix_path_BB2_524
	leaq	-1(%rax), %rbx
	cmpb	$47, -1(%r14,%rax)
	movq	%rbx, %rax
	jne	.Lunix_path_BB2_505
.Lunix_path_BB2_507:
	movq	%rbp, %r15
	subq	%rbx, %r15
	jne	.Lunix_path_BB2_516
	movl	$1, %r15d
	leaq	.Lunix_path_static.26(%rip), %r12
	jmp	.Lunix_path_BB2_525
	.p2align	4
.Lunix_path_BB2_509:
	movq	%rax, %rcx
	testq	%rax, %rax
	je	.Lunix_path_BB2_525
.Lunix_path_BB2_510:
	decq	%rax
	je	.Lunix_path_BB2_536
	movzbl	(%r8,%rax), %edx
	cmpl	$47, %edx
	je	.Lunix_path_BB2_514
	cmpl	$46, %edx
	jne	.Lunix_path_BB2_554
	cmpb	$47, -1(%r8,%rax)
	jne	.Lunix_path_BB2_554
.Lunix_path_BB2_514:
	movq	%rbp, %rcx
	subq	%rax, %rcx
	cmpq	$8, %rcx
	jne	.Lunix_path_BB2_509
	movq	%r8, %rdi
	xorl	%esi, %esi
	movq	%rax, %rdx
	movq	%r9, %rbx
	callq	unix_path.filler.trimmed_blocks_len
	movq	%rbx, %r9
	movq	24(%rsp), %r8
	jmp	.Lunix_path_BB2_509
	.p2align	4
.Lunix_path_BB2_516:
	leaq	(%r8,%rbx), %r12
	movq	%rbx, %rbp
	movq	%rbx, %rax
	jmp	.Lunix_path_BB2_518
	.p2align	4
.Lunix_path_BB2_517:
	movq	%rax, %rbp
	testq	%rax, %rax
	je	.Lunix_path_BB2_525
.Lunix_path_BB2_518:
	decq	%rax
	je	.Lunix_path_BB2_536
	movzbl	(%r8,%rax), %ecx
	cmpl	$47, %ecx
	je	.Lunix_path_BB2_522
	cmpl	$46, %ecx
	jne	.Lunix_path_BB2_526
	cmpb	$47, -1(%r8,%rax)
	jne	.Lunix_path_BB2_526
.Lunix_path_BB2_522:
	movq	%rbx, %rcx
	subq	%rax, %rcx
	cmpq	$8, %rcx
	jne	.Lunix_path_BB2_517
	movq	%r8, %rdi
	xorl	%esi, %esi
	movq	%rax, %rdx
	movq	%r9, %rbp
	callq	unix_path.filler.trimmed_blocks_len
	movq	%rbp, %r9
	movq	24(%rsp), %r8
	jmp	.Lunix_path_BB2_517
.Lunix_path_BB2_524:
	testq	%rbp, %rbp
	leaq	.Lunix_path_static.26(%rip), %r12
	cmovneq	%r8, %r12
	cmpq	$1, %rbp
	movq	%rbp, %r15
	adcq	$0, %r15
.Lunix_path_BB2_525:
	xorl	%ebp, %ebp
.Lunix_path_BB2_526:
	movl	40(%rsp), %eax
	testb	$1, %al
	jne	.Lunix_path_BB2_529
.Lunix_path_BB2_527:
	cmpq	%r9, 16(%rsp)
	je	.Lunix_path_BB2_552
.Lunix_path_BB2_528:
	movq	(%rsp), %rax
	movb	$9, (%rax,%r9)
	incq	%r9
	movq	%r9, 8(%rsp)
.Lunix_path_BB2_529:
	movq	16(%rsp), %rbx
	movq	%rbx, %rax
	subq	%r9, %rax
	cmpq	%rax, %r15
	ja	.Lunix_path_BB2_550
.Lunix_path_BB2_530:
	movq	(%rsp), %r11
	pxor	%xmm0, %xmm0
	leaq	8(%rsp), %rax
	movdqu	%xmm0, (%rax)
	leaq	(%r11,%r9), %rdi
	movq	%rdi, %rax
	subq	%r12, %rax
	cmpq	%r15, %rax
	jae	.Lunix_path_BB2_489
	cmpq	$4, %r15
	jb	.Lunix_path_BB2_532
	cmpq	$32, %rax
	jae	.Lunix_path_BB2_534
.Lunix_path_BB2_532:
	xorl	%eax, %eax
.Lunix_path_BB2_544:
	movq	%r15, %rdx
	movq	%rax, %rcx
	andq	$3, %rdx
	je	.Lunix_path_BB2_547
	movq	%rax, %rcx
	.p2align	4
.Lunix_path_BB2_546:
	movzbl	(%r12,%rcx), %esi
	movb	%sil, (%rdi,%rcx)
	incq	%rcx
	decq	%rdx
	jne	.Lunix_path_BB2_546
.Lunix_path_BB2_547:
	subq	%r15, %rax
	cmpq	$-4, %rax
	ja	.Lunix_path_BB2_490
	leaq	(%r11,%r9), %rax
	addq	$3, %rax
	.p2align	4
.Lunix_path_BB2_549:
	movzbl	(%r12,%rcx), %edx
	movb	%dl, -3(%rax,%rcx)
	movzbl	1(%r12,%rcx), %edx
	movb	%dl, -2(%rax,%rcx)
	movzbl	2(%r12,%rcx), %edx
	movb	%dl, -1(%rax,%rcx)
	movzbl	3(%r12,%rcx), %edx
	movb	%dl, (%rax,%rcx)
	addq	$4, %rcx
	cmpq	%rcx, %r15
	jne	.Lunix_path_BB2_549
	jmp	.Lunix_path_BB2_490
.Lunix_path_BB2_534:
	cmpq	$32, %r15
	jae	.Lunix_path_BB2_537
	xorl	%eax, %eax
	jmp	.Lunix_path_BB2_541
.Lunix_path_BB2_536:
	movl	$1, %ebp
	jmp	.Lunix_path_BB2_526
.Lunix_path_BB2_537:
	movq	%r15, %rax
	andq	$-32, %rax
	leaq	(%r11,%r9), %rcx
	addq	$16, %rcx
	xorl	%edx, %edx
	.p2align	4
.Lunix_path_BB2_538:
	movdqu	(%r12,%rdx), %xmm0
	movdqu	16(%r12,%rdx), %xmm1
	movdqu	%xmm0, -16(%rcx,%rdx)
	movdqu	%xmm1, (%rcx,%rdx)
	addq	$32, %rdx
	cmpq	%rdx, %rax
	jne	.Lunix_path_BB2_538
	cmpq	%rax, %r15
	je	.Lunix_path_BB2_490
	testb	$28, %r15b
	je	.Lunix_path_BB2_544
.Lunix_path_BB2_541:
	movq	%rax, %rcx
	movq	%r15, %rax
	andq	$-4, %rax
	.p2align	4
.Lunix_path_BB2_542:
	movl	(%r12,%rcx), %edx
	movl	%edx, (%rdi,%rcx)
	addq	$4, %rcx
	cmpq	%rcx, %rax
	jne	.Lunix_path_BB2_542
	cmpq	%rax, %r15
	je	.Lunix_path_BB2_490
	jmp	.Lunix_path_BB2_544
.Lunix_path_BB2_550:
	movq	%rsp, %rdi
	movq	%r15, %rsi
	callq	std_alloc.vec.Vec.grow_amortized.307f257cf2d167af.
	movq	24(%rsp), %r8
	testb	%al, %al
	je	.Lunix_path_BB2_1261
	movq	8(%rsp), %r9
	movq	16(%rsp), %rbx
	jmp	.Lunix_path_BB2_530
.Lunix_path_BB2_552:
	movq	%rsp, %rdi
	movl	$1, %esi
	callq	std_alloc.vec.Vec.grow_amortized.307f257cf2d167af.
	movq	24(%rsp), %r8
	testb	%al, %al
	je	.Lunix_path_BB2_1261
	movq	8(%rsp), %r9
	jmp	.Lunix_path_BB2_528
.Lunix_path_BB2_554:
	movq	%rcx, %rbp
	jmp	.Lunix_path_BB2_526
.Lunix_path_BB2_555:
	cmpb	$1, 144(%rsp)
	jne	.Lunix_path_BB2_558
.Lunix_path_BB2_556:
	movq	152(%rsp), %rdi
.Lunix_path_BB2_557:
	callq	std_collections.btree.node.Node.destroy.08dd9cc935c3c3a8.
.Lunix_path_BB2_558:
	movb	$1, %bpl
	testq	%r12, %r12
	je	.Lunix_path_BB2_561
	movq	%r15, %rdi
	jmp	.Lunix_path_BB2_560
.Lunix_path_BB2_562:
	leaq	32(%rsp), %rax
	movq	%rax, 136(%rsp)
	movq	%rax, 144(%rsp)
	xorl	%eax, %eax
	xorl	%ecx, %ecx
.Lunix_path_BB2_563:
	movq	%rcx, %rbp
	testq	%rcx, %rcx
	movq	%rax, 304(%rsp)
	movq	%rax, %rcx
	cmoveq	%rbp, %rcx
	pxor	%xmm0, %xmm0
	leaq	160(%rsp), %rax
	movdqu	%xmm0, -8(%rax)
.Lunix_path_BB2_564:
	testq	%r13, %r13
	je	.Lunix_path_BB2_577
	decq	%r13
	movzbl	(%rdx), %eax
	incq	%rdx
	cmpl	$102, %eax
	je	.Lunix_path_BB2_568
	cmpl	$98, %eax
	jne	.Lunix_path_BB2_564
	movb	$1, %bl
	jmp	.Lunix_path_BB2_569
.Lunix_path_BB2_568:
	xorl	%ebx, %ebx
.Lunix_path_BB2_569:
	cmpq	%rcx, %rbp
	je	.Lunix_path_BB2_571
	movq	136(%rsp), %rax
	movb	%bl, (%rax,%rbp)
	incq	%rbp
	jmp	.Lunix_path_BB2_564
.Lunix_path_BB2_571:
	movq	%rcx, 152(%rsp)
	movq	304(%rsp), %rax
	movq	%rax, 160(%rsp)
	cmpq	%rcx, %rax
	je	.Lunix_path_BB2_573
.Lunix_path_BB2_572:
	movq	144(%rsp), %rsi
	movq	%rsi, 136(%rsp)
	movb	%bl, (%rsi,%rcx)
	incq	%rcx
	movq	%rcx, 152(%rsp)
	jmp	.Lunix_path_BB2_563
.Lunix_path_BB2_573:
	movq	%rdx, %rbp
	leaq	144(%rsp), %rdi
	movl	$1, %esi
	callq	std_alloc.vec.Vec.grow_amortized.2c3341b61b28ed12.
	movq	152(%rsp), %rcx
	movq	160(%rsp), %rdx
	movq	%rdx, %rsi
	cmpq	%rcx, %rdx
	setne	%dl
	orb	%al, %dl
	je	.Lunix_path_BB2_575
	leaq	(%r14,%r15), %rdi
	incq	%rdi
	movq	%rbp, %rdx
	movq	%rsi, %rax
	jmp	.Lunix_path_BB2_572
.Lunix_path_BB2_575:
	leaq	144(%rsp), %rdi
	movl	$1, %esi
	callq	std_alloc.vec.Vec.grow_amortized.2c3341b61b28ed12.
	testb	%al, %al
	je	.Lunix_path_BB2_1251
	movq	152(%rsp), %rcx
	movq	160(%rsp), %rax
	leaq	(%r14,%r15), %rdi
	incq	%rdi
	movq	%rbp, %rdx
	jmp	.Lunix_path_BB2_572
.Lunix_path_BB2_577:
	testq	%r12, %r12
	je	.Lunix_path_BB2_846
	movzbl	(%rdi), %eax
	movb	$1, %bl
	cmpl	$47, %eax
	je	.Lunix_path_BB2_916
	cmpl	$46, %eax
	jne	.Lunix_path_BB2_915
	cmpq	$1, %r12
	je	.Lunix_path_BB2_916
	cmpb	$47, 1(%rdi)
	sete	%bl
	jmp	.Lunix_path_BB2_916
.Lunix_path_BB2_582:
	xorl	%ecx, %ecx
	movq	40(%rsp), %rdx
	jmp	.Lunix_path_BB2_583
.Lunix_path_BB2_586:
	xorl	%ebp, %ebp
	xorl	%ebx, %ebx
	xorl	%ecx, %ecx
.Lunix_path_BB2_587:
	movq	%rcx, 48(%rsp)
	movzbl	%bl, %r10d
	movq	%rbp, %rax
	addq	%r13, %rax
	addq	%rax, %r10
	je	.Lunix_path_BB2_591
	js	.Lunix_path_BB2_1261
	movl	$1, %esi
	movq	%r10, %rdi
	movq	%r10, %r12
	callq	rattle_alloc@PLT
	testb	$1, %al
	je	.Lunix_path_BB2_1261
	movq	%r12, %r10
	leaq	(%r14,%r15), %r9
	incq	%r9
	jmp	.Lunix_path_BB2_592
.Lunix_path_BB2_591:
	leaq	32(%rsp), %rdx
.Lunix_path_BB2_592:
	movq	%rdx, 144(%rsp)
	movq	$0, 152(%rsp)
	movq	%r10, 160(%rsp)
	cmpq	%r10, %rbp
	ja	.Lunix_path_BB2_840
	xorl	%r12d, %r12d
.Lunix_path_BB2_594:
	leaq	(%rdx,%r12), %rdi
	movq	%rdi, %rax
	subq	%r9, %rax
	cmpq	%rbp, %rax
	jae	.Lunix_path_BB2_597
	cmpq	$4, %rbp
	jb	.Lunix_path_BB2_596
	leaq	(%r15,%r14), %rax
	notq	%rax
	addq	%rdi, %rax
	cmpq	$32, %rax
	jae	.Lunix_path_BB2_599
.Lunix_path_BB2_596:
	xorl	%eax, %eax
.Lunix_path_BB2_767:
	movq	%rbp, %rsi
	movq	%rax, %rcx
	andq	$3, %rsi
	je	.Lunix_path_BB2_770
	movq	%rax, %rcx
.Lunix_path_BB2_769:
	movzbl	(%r9,%rcx), %r8d
	movb	%r8b, (%rdi,%rcx)
	incq	%rcx
	decq	%rsi
	jne	.Lunix_path_BB2_769
.Lunix_path_BB2_770:
	subq	%rbp, %rax
	cmpq	$-4, %rax
	ja	.Lunix_path_BB2_773
	leaq	(%r14,%r15), %rax
	addq	$4, %rax
	addq	%r12, %rdx
	addq	$3, %rdx
.Lunix_path_BB2_772:
	movzbl	-3(%rax,%rcx), %esi
	movb	%sil, -3(%rdx,%rcx)
	movzbl	-2(%rax,%rcx), %esi
	movb	%sil, -2(%rdx,%rcx)
	movzbl	-1(%rax,%rcx), %esi
	movb	%sil, -1(%rdx,%rcx)
	movzbl	(%rax,%rcx), %esi
	movb	%sil, (%rdx,%rcx)
	addq	$4, %rcx
	cmpq	%rcx, %rbp
	jne	.Lunix_path_BB2_772
	jmp	.Lunix_path_BB2_773
.Lunix_path_BB2_597:
	movq	%r9, %rsi
	movq	%rbp, %rdx
	movq	%r10, %r14
	callq	memmove@PLT
	movq	%r14, %r10
.Lunix_path_BB2_773:
	addq	%rbp, %r12
	movq	%r12, 152(%rsp)
	movq	%r10, 160(%rsp)
	testb	%bl, %bl
	je	.Lunix_path_BB2_776
	cmpq	%r12, %r10
	movq	40(%rsp), %rbx
	je	.Lunix_path_BB2_1096
.Lunix_path_BB2_775:
	movq	144(%rsp), %rax
	movq	48(%rsp), %rcx
	movb	%cl, (%rax,%r12)
	incq	%r12
	movq	%r12, 152(%rsp)
	movq	%r10, 160(%rsp)
	jmp	.Lunix_path_BB2_777
.Lunix_path_BB2_776:
	movq	40(%rsp), %rbx
.Lunix_path_BB2_777:
	movq	%r10, %rax
	subq	%r12, %rax
	cmpq	%rax, %r13
	ja	.Lunix_path_BB2_842
.Lunix_path_BB2_778:
	movq	144(%rsp), %r14
	leaq	(%r14,%r12), %rdi
	movq	%rdi, %rax
	subq	%rbx, %rax
	cmpq	%r13, %rax
	movq	%r10, 24(%rsp)
	jae	.Lunix_path_BB2_781
	cmpq	$4, %r13
	jb	.Lunix_path_BB2_780
	cmpq	$32, %rax
	jae	.Lunix_path_BB2_783
.Lunix_path_BB2_780:
	xorl	%eax, %eax
.Lunix_path_BB2_792:
	movq	%r13, %rdx
	movq	%rax, %rcx
	andq	$3, %rdx
	je	.Lunix_path_BB2_795
	movq	%rax, %rcx
.Lunix_path_BB2_794:
	movzbl	(%rbx,%rcx), %esi
	movb	%sil, (%rdi,%rcx)
	incq	%rcx
	decq	%rdx
	jne	.Lunix_path_BB2_794
.Lunix_path_BB2_795:
	subq	%r13, %rax
	cmpq	$-4, %rax
	ja	.Lunix_path_BB2_798
	leaq	(%r14,%r12), %rax
	addq	$3, %rax
.Lunix_path_BB2_797:
	movzbl	(%rbx,%rcx), %edx
	movb	%dl, -3(%rax,%rcx)
	movzbl	1(%rbx,%rcx), %edx
	movb	%dl, -2(%rax,%rcx)
	movzbl	2(%rbx,%rcx), %edx
	movb	%dl, -1(%rax,%rcx)
	movzbl	3(%rbx,%rcx), %edx
	movb	%dl, (%rax,%rcx)
	addq	$4, %rcx
	cmpq	%rcx, %r13
	jne	.Lunix_path_BB2_797
	jmp	.Lunix_path_BB2_798
.Lunix_path_BB2_781:
	movq	%rbx, %rsi
	movq	%r13, %rdx
	callq	memmove@PLT
.Lunix_path_BB2_798:
	leaq	(%r12,%r13), %r15
	movq	8(%rsp), %rbx
	movq	16(%rsp), %r8
	movq	%r8, %rax
	subq	%rbx, %rax
	cmpq	%rax, %r15
	ja	.Lunix_path_BB2_844
.Lunix_path_BB2_799:
	movq	(%rsp), %rbp
	pxor	%xmm0, %xmm0
	leaq	8(%rsp), %rax
	movdqu	%xmm0, (%rax)
	leaq	(%rbx,%rbp), %rdi
	movq	%rdi, %rax
	subq	%r14, %rax
	cmpq	%r15, %rax
	jae	.Lunix_path_BB2_802
	cmpq	$4, %r15
	movq	24(%rsp), %rsi
	jb	.Lunix_path_BB2_801
	cmpq	$32, %rax
	jae	.Lunix_path_BB2_804
.Lunix_path_BB2_801:
	xorl	%eax, %eax
.Lunix_path_BB2_830:
	addl	%r12d, %r13d
	movq	%rax, %rcx
	andl	$3, %r13d
	je	.Lunix_path_BB2_833
	movq	%rax, %rcx
.Lunix_path_BB2_832:
	movzbl	(%r14,%rcx), %edx
	movb	%dl, (%rdi,%rcx)
	incq	%rcx
	decq	%r13
	jne	.Lunix_path_BB2_832
.Lunix_path_BB2_833:
	notq	%rax
	addq	%r15, %rax
	cmpq	$3, %rax
	jb	.Lunix_path_BB2_836
	leaq	(%rbx,%rbp), %rax
	addq	$3, %rax
.Lunix_path_BB2_835:
	movzbl	(%r14,%rcx), %edx
	movb	%dl, -3(%rax,%rcx)
	movzbl	1(%r14,%rcx), %edx
	movb	%dl, -2(%rax,%rcx)
	movzbl	2(%r14,%rcx), %edx
	movb	%dl, -1(%rax,%rcx)
	movzbl	3(%r14,%rcx), %edx
	movb	%dl, (%rax,%rcx)
	addq	$4, %rcx
	cmpq	%rcx, %r15
	jne	.Lunix_path_BB2_835
	jmp	.Lunix_path_BB2_836
.Lunix_path_BB2_802:
	movq	%r14, %rsi
	movq	%r15, %rdx
	movq	%r8, %r12
	callq	memmove@PLT
	movq	%r12, %r8
	movq	24(%rsp), %rsi
.Lunix_path_BB2_836:
	addq	%r15, %rbx
	movq	%rbp, (%rsp)
	movq	%rbx, 8(%rsp)
	movq	%r8, 16(%rsp)
	xorl	%eax, %eax
.Lunix_path_BB2_837:
	testq	%rsi, %rsi
	je	.Lunix_path_BB2_1150
.Lunix_path_BB2_838:
	movq	%r14, %rdi
.Lunix_path_BB2_839:
	movl	%eax, %ebx
	callq	rattle_dealloc@PLT
	movl	%ebx, %eax
	jmp	.Lunix_path_BB2_1150
.Lunix_path_BB2_601:
	movq	(%r9), %xmm0
	movq	(%rbx), %xmm1
	pcmpeqb	%xmm0, %xmm1
	pmovmskb	%xmm1, %eax
	notl	%eax
	orl	$256, %eax
	rep		bsfl	%eax, %eax
	cmpb	$8, %al
	jb	.Lunix_path_BB2_851
	movq	-8(%r9,%rcx), %xmm0
	movq	-8(%rbx,%rcx), %xmm1
	pcmpeqb	%xmm0, %xmm1
	pmovmskb	%xmm1, %eax
	notl	%eax
	orl	$256, %eax
	rep		bsfl	%eax, %eax
	addq	%rcx, %rax
	addq	$-8, %rax
	jmp	.Lunix_path_BB2_851
.Lunix_path_BB2_603:
	xorl	%ebp, %ebp
.Lunix_path_BB2_604:
	cmpw	$0, 2(%rbx)
	je	.Lunix_path_BB2_615
	movq	$0, 128(%rsp)
	movq	%rbx, %r14
	leaq	264(%rsp), %rax
	jmp	.Lunix_path_BB2_608
.Lunix_path_BB2_606:
	xorl	%ebp, %ebp
.Lunix_path_BB2_607:
	leaq	(%r14,%rbx,8), %rax
	addq	$368, %rax
	movq	128(%rsp), %rcx
	shlq	$4, %rcx
	addq	%rbx, %rcx
	movq	%rcx, 128(%rsp)
	movq	72(%rsp), %r14
	cmpw	$0, 2(%r14)
	je	.Lunix_path_BB2_614
.Lunix_path_BB2_608:
	movq	%rax, 112(%rsp)
	movq	%rbp, %rbx
	movq	368(%r14,%rbp,8), %rax
	movzwl	(%rax), %r13d
	testq	%r13, %r13
	movq	%rax, 72(%rsp)
	je	.Lunix_path_BB2_606
	leaq	16(%rax), %r15
	xorl	%ebp, %ebp
	.p2align	4
.Lunix_path_BB2_610:
	movq	-8(%r15), %rdx
	movq	(%r15), %rcx
	movq	24(%rsp), %rdi
	movq	%r12, %rsi
	callq	unix_path.order.PathOrd.cmp
	cmpb	$2, %al
	jne	.Lunix_path_BB2_613
	incq	%rbp
	addq	$24, %r15
	cmpq	%rbp, %r13
	jne	.Lunix_path_BB2_610
	movq	%r13, %rbp
.Lunix_path_BB2_613:
	movq	24(%rsp), %r15
	jmp	.Lunix_path_BB2_607
.Lunix_path_BB2_614:
	leaq	8(%r14), %rax
	movq	%rax, 136(%rsp)
	movq	$-1, 56(%rsp)
	movb	$1, %al
	movq	%rax, 120(%rsp)
	leaq	264(%rsp), %rax
	movq	%rax, 64(%rsp)
	jmp	.Lunix_path_BB2_616
.Lunix_path_BB2_615:
	leaq	8(%rbx), %rax
	movq	%rax, 136(%rsp)
	movq	$0, 128(%rsp)
	movq	$0, 112(%rsp)
	movq	%rbx, %r14
	movq	$0, 120(%rsp)
	movq	$0, 64(%rsp)
	movq	$0, 56(%rsp)
.Lunix_path_BB2_616:
	addq	$368, %r14
	movq	%r14, 72(%rsp)
	jmp	.Lunix_path_BB2_621
.Lunix_path_BB2_617:
	movq	%r13, %rdi
	movq	%r15, %rsi
	callq	unix_path.filler.filler_end_from
.Lunix_path_BB2_618:
	addq	%rax, %r13
	subq	%rax, %r15
	movq	%r15, %r14
	movq	24(%rsp), %r15
.Lunix_path_BB2_619:
	movq	88(%rsp), %rax
	cmpq	%rax, 96(%rsp)
	je	.Lunix_path_BB2_662
.Lunix_path_BB2_620:
	movq	80(%rsp), %rcx
	leaq	(%rax,%rax,2), %rdx
	movq	%r13, (%rcx,%rdx,8)
	movq	%r14, 8(%rcx,%rdx,8)
	movq	48(%rsp), %rsi
	movq	%rsi, 16(%rcx,%rdx,8)
	incq	%rax
	movq	%rax, 88(%rsp)
	movq	40(%rsp), %r13
.Lunix_path_BB2_621:
	cmpq	%r13, %rbp
	jae	.Lunix_path_BB2_623
	movq	%r13, 40(%rsp)
	jmp	.Lunix_path_BB2_626
.Lunix_path_BB2_623:
	pxor	%xmm0, %xmm0
	movdqa	%xmm0, 176(%rsp)
	movdqa	%xmm0, 160(%rsp)
	movdqa	%xmm0, 144(%rsp)
	cmpb	$1, 120(%rsp)
	je	.Lunix_path_BB2_653
	movq	$0, 120(%rsp)
.Lunix_path_BB2_625:
	movq	%r13, 40(%rsp)
	cmpq	%r13, %rbp
	jae	.Lunix_path_BB2_684
.Lunix_path_BB2_626:
	leaq	(,%rbp,2), %rax
	addq	%rbp, %rax
	incq	%rbp
	movq	136(%rsp), %rcx
	leaq	(%rcx,%rax,8), %rax
	movq	72(%rsp), %rcx
.Lunix_path_BB2_627:
	movq	%rcx, 48(%rsp)
	movq	(%rax), %r13
	movq	8(%rax), %rbx
	testq	%rbx, %rbx
	je	.Lunix_path_BB2_636
	movq	%rbx, %r14
	movq	%rbx, %rax
	jmp	.Lunix_path_BB2_630
	.p2align	4
.Lunix_path_BB2_629:
	movq	%rax, %r14
	testq	%rax, %rax
	je	.Lunix_path_BB2_636
.Lunix_path_BB2_630:
	decq	%rax
	je	.Lunix_path_BB2_652
	movzbl	(%r13,%rax), %ecx
	cmpl	$47, %ecx
	je	.Lunix_path_BB2_634
	cmpl	$46, %ecx
	jne	.Lunix_path_BB2_637
	cmpb	$47, -1(%r13,%rax)
	jne	.Lunix_path_BB2_637
.Lunix_path_BB2_634:
	movq	%rbx, %rcx
	subq	%rax, %rcx
	cmpq	$8, %rcx
	jne	.Lunix_path_BB2_629
	movq	%r13, %rdi
	xorl	%esi, %esi
	movq	%rax, %rdx
	callq	unix_path.filler.trimmed_blocks_len
	jmp	.Lunix_path_BB2_629
.Lunix_path_BB2_636:
	xorl	%r14d, %r14d
.Lunix_path_BB2_637:
	testq	%r12, %r12
	je	.Lunix_path_BB2_619
.Lunix_path_BB2_638:
	pxor	%xmm0, %xmm0
	movdqa	%xmm0, 144(%rsp)
	movq	$0, 160(%rsp)
	cmpq	%r14, %r12
	movq	%r14, %rcx
	cmovbq	%r12, %rcx
	cmpq	$15, %rcx
	ja	.Lunix_path_BB2_644
	cmpq	$7, %rcx
	ja	.Lunix_path_BB2_655
	testq	%r14, %r14
	je	.Lunix_path_BB2_661
	movzbl	(%r13), %eax
	cmpb	(%r15), %al
	jne	.Lunix_path_BB2_664
	cmpq	$1, %rcx
	jne	.Lunix_path_BB2_705
.Lunix_path_BB2_643:
	movq	%rcx, %rax
	jmp	.Lunix_path_BB2_665
.Lunix_path_BB2_644:
	xorl	%edx, %edx
	cmpq	$64, %rcx
	jb	.Lunix_path_BB2_648
	movq	%rcx, %rax
	.p2align	4
.Lunix_path_BB2_646:
	movdqu	(%r13,%rdx), %xmm0
	movdqu	16(%r13,%rdx), %xmm1
	movdqu	32(%r13,%rdx), %xmm2
	movdqu	48(%r13,%rdx), %xmm3
	movdqu	(%r15,%rdx), %xmm4
	pcmpeqb	%xmm0, %xmm4
	movdqu	16(%r15,%rdx), %xmm0
	pcmpeqb	%xmm1, %xmm0
	pand	%xmm4, %xmm0
	movdqu	32(%r15,%rdx), %xmm1
	pcmpeqb	%xmm2, %xmm1
	movdqu	48(%r15,%rdx), %xmm2
	pcmpeqb	%xmm3, %xmm2
	pand	%xmm1, %xmm2
	pand	%xmm0, %xmm2
	pmovmskb	%xmm2, %esi
	cmpl	$65535, %esi
	jne	.Lunix_path_BB2_648
	addq	$64, %rdx
	addq	$-64, %rax
	cmpq	$63, %rax
	ja	.Lunix_path_BB2_646
.Lunix_path_BB2_648:
	addq	$-16, %rcx
	cmpq	%rcx, %rdx
	jae	.Lunix_path_BB2_651
	.p2align	4
.Lunix_path_BB2_649:
	movdqu	(%r13,%rdx), %xmm0
	movdqu	(%r15,%rdx), %xmm1
	pcmpeqb	%xmm0, %xmm1
	pmovmskb	%xmm1, %eax
	notl	%eax
	rep		bsfl	%eax, %eax
	cmpw	$15, %ax
	jbe	.Lunix_path_BB2_660
	addq	$16, %rdx
	cmpq	%rcx, %rdx
	jb	.Lunix_path_BB2_649
.Lunix_path_BB2_651:
	movdqu	(%r13,%rcx), %xmm0
	movdqu	(%r15,%rcx), %xmm1
	pcmpeqb	%xmm0, %xmm1
	pmovmskb	%xmm1, %eax
	notl	%eax
	rep		bsfl	%eax, %eax
	addq	%rcx, %rax
	jmp	.Lunix_path_BB2_665
.Lunix_path_BB2_652:
	movl	$1, %r14d
	testq	%r12, %r12
	jne	.Lunix_path_BB2_638
	jmp	.Lunix_path_BB2_619
.Lunix_path_BB2_653:
	leaq	144(%rsp), %rdi
	movq	128(%rsp), %rsi
	movq	112(%rsp), %rdx
	movq	64(%rsp), %rcx
	movq	56(%rsp), %r8
	callq	std_collections.btree.iter.Cursor.advance.23.unix_path.buf.PathBuf.
	cmpb	$1, 168(%rsp)
	jne	.Lunix_path_BB2_657
	movq	176(%rsp), %rcx
	movq	184(%rsp), %rdx
	movq	%rdx, 112(%rsp)
	movq	(%rdx), %rax
	movq	%rcx, 128(%rsp)
	andl	$15, %ecx
	movq	368(%rax,%rcx,8), %rax
	movzwl	(%rax), %r13d
	leaq	8(%rax), %rcx
	movq	%rcx, 136(%rsp)
	addq	$368, %rax
	movq	%rax, 72(%rsp)
	movb	$1, %al
	movq	%rax, 120(%rsp)
	xorl	%ebp, %ebp
	jmp	.Lunix_path_BB2_658
.Lunix_path_BB2_655:
	movq	(%r13), %xmm0
	movq	(%r15), %xmm1
	pcmpeqb	%xmm0, %xmm1
	pmovmskb	%xmm1, %eax
	notl	%eax
	orl	$256, %eax
	rep		bsfl	%eax, %eax
	cmpb	$8, %al
	jb	.Lunix_path_BB2_665
	movq	-8(%r13,%rcx), %xmm0
	movq	-8(%r15,%rcx), %xmm1
	pcmpeqb	%xmm0, %xmm1
	pmovmskb	%xmm1, %eax
	notl	%eax
	orl	$256, %eax
	rep		bsfl	%eax, %eax
	addq	%rcx, %rax
	addq	$-8, %rax
	jmp	.Lunix_path_BB2_665
.Lunix_path_BB2_657:
	movq	$0, 120(%rsp)
	movq	$0, 64(%rsp)
	movq	$0, 128(%rsp)
	movq	$0, 112(%rsp)
	movq	$0, 56(%rsp)
.Lunix_path_BB2_658:
	testb	$1, 144(%rsp)
	je	.Lunix_path_BB2_625
	movq	%r13, 40(%rsp)
	movq	152(%rsp), %rax
	movq	160(%rsp), %rcx
	jmp	.Lunix_path_BB2_627
.Lunix_path_BB2_660:
	movzwl	%ax, %eax
	addq	%rdx, %rax
	jmp	.Lunix_path_BB2_665
.Lunix_path_BB2_661:
	movb	$1, %cl
	xorl	%eax, %eax
	cmpq	%r14, %rax
	jb	.Lunix_path_BB2_667
	jmp	.Lunix_path_BB2_676
.Lunix_path_BB2_662:
	leaq	80(%rsp), %rdi
	callq	std_alloc.vec.Vec.grow_amortized.d6e9c2ff9b21f748.
	testb	%al, %al
	je	.Lunix_path_BB2_1098
	movq	88(%rsp), %rax
	jmp	.Lunix_path_BB2_620
.Lunix_path_BB2_664:
	xorl	%eax, %eax
.Lunix_path_BB2_665:
	movb	$1, %cl
	cmpq	%rax, %r12
	jbe	.Lunix_path_BB2_671
	cmpq	%r14, %rax
	jae	.Lunix_path_BB2_676
.Lunix_path_BB2_667:
	movzbl	(%r13,%rax), %edx
	cmpw	$47, %dx
	jne	.Lunix_path_BB2_668
.Lunix_path_BB2_676:
	xorl	%edx, %edx
	testb	%cl, %cl
	je	.Lunix_path_BB2_678
	jmp	.Lunix_path_BB2_677
.Lunix_path_BB2_671:
	movq	%r14, %r15
	subq	%r12, %r15
	jbe	.Lunix_path_BB2_674
	cmpb	$47, (%r13,%r12)
	je	.Lunix_path_BB2_674
	cmpb	$47, -1(%r13,%r12)
	jne	.Lunix_path_BB2_675
.Lunix_path_BB2_674:
	addq	%r12, %r13
	jmp	.Lunix_path_BB2_698
.Lunix_path_BB2_668:
	cmpb	$46, %dl
	sete	%sil
	movl	%ecx, %edi
	xorb	$1, %dil
	orb	%sil, %dil
	jne	.Lunix_path_BB2_670
	movzbl	(%r15,%rax), %esi
	andb	$-2, %sil
	cmpb	$46, %sil
	jne	.Lunix_path_BB2_684
.Lunix_path_BB2_670:
	movzwl	%dx, %edx
	incl	%edx
	testb	%cl, %cl
	je	.Lunix_path_BB2_678
.Lunix_path_BB2_677:
	movzbl	(%r15,%rax), %ecx
	cmpw	$47, %cx
	jne	.Lunix_path_BB2_694
.Lunix_path_BB2_678:
	xorl	%ecx, %ecx
	cmpw	%cx, %dx
	jne	.Lunix_path_BB2_679
.Lunix_path_BB2_695:
	testq	%rax, %rax
	jne	.Lunix_path_BB2_696
	jmp	.Lunix_path_BB2_684
.Lunix_path_BB2_694:
	movzwl	%cx, %ecx
	incl	%ecx
	cmpw	%cx, %dx
	je	.Lunix_path_BB2_695
.Lunix_path_BB2_679:
	testq	%rax, %rax
	je	.Lunix_path_BB2_684
	movzbl	-1(%r13,%rax), %ecx
	cmpb	$47, %cl
	je	.Lunix_path_BB2_696
	decq	%rax
	je	.Lunix_path_BB2_684
	cmpb	$46, %cl
	jne	.Lunix_path_BB2_684
	cmpb	$47, -1(%r13,%rax)
	jne	.Lunix_path_BB2_684
.Lunix_path_BB2_696:
	addq	%rax, %r13
	subq	%rax, %r14
	leaq	(%r15,%rax), %rcx
	movq	%r12, %r8
	subq	%rax, %r8
	leaq	144(%rsp), %rdi
	movq	%r13, %rsi
	movq	%r14, %rdx
	callq	unix_path.pair.Comparison.rest_after_cut
	cmpb	$1, 144(%rsp)
	jne	.Lunix_path_BB2_684
	movq	152(%rsp), %r13
	movq	160(%rsp), %r15
.Lunix_path_BB2_698:
	xorl	%edx, %edx
	jmp	.Lunix_path_BB2_700
	.p2align	4
.Lunix_path_BB2_699:
	addq	%rax, %rdx
	cmpq	$4, %rdx
	jae	.Lunix_path_BB2_617
.Lunix_path_BB2_700:
	movq	%rdx, %rax
	cmpq	%r15, %rdx
	jae	.Lunix_path_BB2_618
	movzbl	(%r13,%rax), %ecx
	movl	$1, %edx
	cmpl	$47, %ecx
	je	.Lunix_path_BB2_699
	cmpl	$46, %ecx
	jne	.Lunix_path_BB2_618
	leaq	1(%rax), %rcx
	cmpq	%r15, %rcx
	je	.Lunix_path_BB2_699
	movl	$2, %edx
	cmpb	$47, (%r13,%rcx)
	je	.Lunix_path_BB2_699
	jmp	.Lunix_path_BB2_618
.Lunix_path_BB2_675:
	xorl	%ecx, %ecx
	movq	24(%rsp), %r15
	cmpq	%r14, %rax
	jb	.Lunix_path_BB2_667
	jmp	.Lunix_path_BB2_676
.Lunix_path_BB2_705:
	movzbl	1(%r13), %edx
	movl	$1, %eax
	cmpb	1(%r15), %dl
	jne	.Lunix_path_BB2_665
	cmpq	$2, %rcx
	je	.Lunix_path_BB2_643
	movzbl	2(%r13), %edx
	movl	$2, %eax
	cmpb	2(%r15), %dl
	jne	.Lunix_path_BB2_665
	cmpq	$3, %rcx
	je	.Lunix_path_BB2_643
	movzbl	3(%r13), %edx
	movl	$3, %eax
	cmpb	3(%r15), %dl
	jne	.Lunix_path_BB2_665
	cmpq	$4, %rcx
	je	.Lunix_path_BB2_643
	movzbl	4(%r13), %edx
	movl	$4, %eax
	cmpb	4(%r15), %dl
	jne	.Lunix_path_BB2_665
	cmpq	$5, %rcx
	je	.Lunix_path_BB2_643
	movzbl	5(%r13), %edx
	movl	$5, %eax
	cmpb	5(%r15), %dl
	jne	.Lunix_path_BB2_665
	cmpq	$6, %rcx
	jne	.Lunix_path_BB2_716
	movq	%rcx, %rax
	movq	24(%rsp), %r15
	jmp	.Lunix_path_BB2_665
.Lunix_path_BB2_716:
	movzbl	6(%r13), %eax
	movq	24(%rsp), %r15
	cmpb	6(%r15), %al
	movl	$6, %eax
	cmoveq	%rcx, %rax
	jmp	.Lunix_path_BB2_665
.Lunix_path_BB2_684:
	movq	80(%rsp), %r14
	movq	88(%rsp), %r15
	movq	96(%rsp), %rbx
	testq	%r15, %r15
	je	.Lunix_path_BB2_687
	movq	(%r14), %rdi
	movq	8(%r14), %rsi
	movq	%rsp, %rdx
	callq	pathtool.paths.push_canon
	movb	$1, %bpl
	testb	%al, %al
	jne	.Lunix_path_BB2_688
	cmpq	$1, %r15
	jne	.Lunix_path_BB2_730
.Lunix_path_BB2_687:
	xorl	%ebp, %ebp
.Lunix_path_BB2_688:
	testq	%rbx, %rbx
	movq	24(%rsp), %rbx
	je	.Lunix_path_BB2_690
	movq	%r14, %rdi
	callq	rattle_dealloc@PLT
.Lunix_path_BB2_690:
	cmpb	$1, 256(%rsp)
	jne	.Lunix_path_BB2_692
	movq	264(%rsp), %rdi
	callq	std_collections.btree.node.Node.destroy.08dd9cc935c3c3a8.
.Lunix_path_BB2_692:
	testq	%r12, %r12
	je	.Lunix_path_BB2_561
	movq	%rbx, %rdi
.Lunix_path_BB2_560:
	callq	rattle_dealloc@PLT
.Lunix_path_BB2_561:
	movl	%ebp, %eax
	jmp	.Lunix_path_BB2_1150
.Lunix_path_BB2_717:
	cmpq	$32, %r12
	jae	.Lunix_path_BB2_752
	xorl	%eax, %eax
	movq	24(%rsp), %r8
	jmp	.Lunix_path_BB2_756
.Lunix_path_BB2_599:
	cmpq	$32, %rbp
	jae	.Lunix_path_BB2_760
	xorl	%eax, %eax
	jmp	.Lunix_path_BB2_764
.Lunix_path_BB2_783:
	cmpq	$32, %r13
	jae	.Lunix_path_BB2_785
	xorl	%eax, %eax
	jmp	.Lunix_path_BB2_789
.Lunix_path_BB2_719:
	movq	(%rsi), %xmm0
	movq	(%rcx), %xmm1
	pcmpeqb	%xmm0, %xmm1
	pmovmskb	%xmm1, %eax
	notl	%eax
	orl	$256, %eax
	rep		bsfl	%eax, %eax
	cmpb	$8, %al
	jb	.Lunix_path_BB2_862
	movq	-8(%rsi,%r8), %xmm0
	movq	-8(%rcx,%r8), %xmm1
	pcmpeqb	%xmm0, %xmm1
	pmovmskb	%xmm1, %eax
	notl	%eax
	orl	$256, %eax
	rep		bsfl	%eax, %eax
	addq	%r8, %rax
	addq	$-8, %rax
	jmp	.Lunix_path_BB2_862
.Lunix_path_BB2_725:
	xorl	%edx, %edx
.Lunix_path_BB2_726:
	addq	$-16, %r8
	cmpq	%r8, %rdx
	jae	.Lunix_path_BB2_729
.Lunix_path_BB2_727:
	movdqu	(%rsi,%rdx), %xmm0
	movdqu	(%rcx,%rdx), %xmm1
	pcmpeqb	%xmm0, %xmm1
	pmovmskb	%xmm1, %eax
	notl	%eax
	rep		bsfl	%eax, %eax
	cmpw	$15, %ax
	jbe	.Lunix_path_BB2_759
	addq	$16, %rdx
	cmpq	%r8, %rdx
	jb	.Lunix_path_BB2_727
.Lunix_path_BB2_729:
	movdqu	(%rsi,%r8), %xmm0
	movdqu	(%rcx,%r8), %xmm1
	pcmpeqb	%xmm0, %xmm1
	pmovmskb	%xmm1, %eax
	notl	%eax
	rep		bsfl	%eax, %eax
	addq	%r8, %rax
	jmp	.Lunix_path_BB2_862
.Lunix_path_BB2_804:
	cmpq	$32, %r15
	jae	.Lunix_path_BB2_823
	xorl	%eax, %eax
	jmp	.Lunix_path_BB2_827
.Lunix_path_BB2_730:
	decq	%r15
	leaq	32(%r14), %r13
.Lunix_path_BB2_731:
	movq	-8(%r13), %rdi
	movq	(%r13), %rsi
	movq	8(%rsp), %rax
	cmpq	%rax, 16(%rsp)
	je	.Lunix_path_BB2_734
.Lunix_path_BB2_732:
	movq	(%rsp), %rcx
	movb	$9, (%rcx,%rax)
	incq	%rax
	movq	%rax, 8(%rsp)
	movq	%rsp, %rdx
	callq	pathtool.paths.push_canon
	testb	%al, %al
	jne	.Lunix_path_BB2_688
	addq	$24, %r13
	decq	%r15
	jne	.Lunix_path_BB2_731
	jmp	.Lunix_path_BB2_687
.Lunix_path_BB2_734:
	movq	%rsi, 40(%rsp)
	movq	%rdi, %rbp
	movq	%rsp, %rdi
	movl	$1, %esi
	callq	std_alloc.vec.Vec.grow_amortized.307f257cf2d167af.
	testb	%al, %al
	je	.Lunix_path_BB2_1154
	movq	8(%rsp), %rax
	movq	%rbp, %rdi
	movq	40(%rsp), %rsi
	movb	$1, %bpl
	jmp	.Lunix_path_BB2_732
.Lunix_path_BB2_736:
	movq	$0, 80(%rsp)
.Lunix_path_BB2_737:
	leaq	80(%rsp), %rdi
	jmp	.Lunix_path_BB2_1147
.Lunix_path_BB2_738:
	movq	%rsp, %rdi
	movl	$11, %esi
	callq	std_alloc.vec.Vec.grow_amortized.307f257cf2d167af.
	testb	%al, %al
	movb	$1, %al
	je	.Lunix_path_BB2_1150
	movq	8(%rsp), %rax
	movq	16(%rsp), %rcx
	jmp	.Lunix_path_BB2_245
.Lunix_path_BB2_740:
	movzwl	%ax, %eax
	addq	%rsi, %rax
	jmp	.Lunix_path_BB2_851
.Lunix_path_BB2_741:
	callq	unix_bytes.utf8.scans.scan_by_window
.Lunix_path_BB2_742:
	cmpq	%r12, %rax
	jae	.Lunix_path_BB2_748
	xorl	%ebp, %ebp
	jmp	.Lunix_path_BB2_744
.Lunix_path_BB2_748:
	testq	%r12, %r12
	je	.Lunix_path_BB2_1120
	movb	$2, %bpl
	js	.Lunix_path_BB2_744
	movl	$1, %esi
	movq	%r12, %rdi
	callq	rattle_alloc@PLT
	testb	$1, %al
	je	.Lunix_path_BB2_744
	movq	%rdx, %r13
	jmp	.Lunix_path_BB2_1121
.Lunix_path_BB2_752:
	movq	%r12, %rax
	andq	$-32, %rax
	leaq	(%r14,%r15), %rcx
	addq	$17, %rcx
	xorl	%edx, %edx
	movq	24(%rsp), %r8
.Lunix_path_BB2_753:
	movdqu	-16(%rcx,%rdx), %xmm0
	movdqu	(%rcx,%rdx), %xmm1
	movdqu	%xmm0, (%r8,%rdx)
	movdqu	%xmm1, 16(%r8,%rdx)
	addq	$32, %rdx
	cmpq	%rdx, %rax
	jne	.Lunix_path_BB2_753
	cmpq	%rax, %r12
	je	.Lunix_path_BB2_354
	testb	$28, %r12b
	je	.Lunix_path_BB2_58
.Lunix_path_BB2_756:
	movq	%rax, %rcx
	movq	%r12, %rax
	andq	$-4, %rax
.Lunix_path_BB2_757:
	movl	(%r9,%rcx), %edx
	movl	%edx, (%r8,%rcx)
	addq	$4, %rcx
	cmpq	%rcx, %rax
	jne	.Lunix_path_BB2_757
	cmpq	%rax, %r12
	jne	.Lunix_path_BB2_58
	jmp	.Lunix_path_BB2_354
.Lunix_path_BB2_759:
	movzwl	%ax, %eax
	addq	%rdx, %rax
	jmp	.Lunix_path_BB2_862
.Lunix_path_BB2_760:
	movq	%rbp, %rax
	andq	$-32, %rax
	leaq	(%r14,%r15), %rcx
	addq	$17, %rcx
	leaq	(%rdx,%r12), %rsi
	addq	$16, %rsi
	xorl	%r8d, %r8d
.Lunix_path_BB2_761:
	movdqu	-16(%rcx,%r8), %xmm0
	movdqu	(%rcx,%r8), %xmm1
	movdqu	%xmm0, -16(%rsi,%r8)
	movdqu	%xmm1, (%rsi,%r8)
	addq	$32, %r8
	cmpq	%r8, %rax
	jne	.Lunix_path_BB2_761
	cmpq	%rax, %rbp
	je	.Lunix_path_BB2_773
	testb	$28, %bpl
	je	.Lunix_path_BB2_767
.Lunix_path_BB2_764:
	movq	%rax, %rcx
	movq	%rbp, %rax
	andq	$-4, %rax
.Lunix_path_BB2_765:
	movl	(%r9,%rcx), %esi
	movl	%esi, (%rdi,%rcx)
	addq	$4, %rcx
	cmpq	%rcx, %rax
	jne	.Lunix_path_BB2_765
	cmpq	%rax, %rbp
	je	.Lunix_path_BB2_773
	jmp	.Lunix_path_BB2_767
.Lunix_path_BB2_785:
	movq	%r13, %rax
	andq	$-32, %rax
	leaq	(%r14,%r12), %rcx
	addq	$16, %rcx
	xorl	%edx, %edx
.Lunix_path_BB2_786:
	movdqu	(%rbx,%rdx), %xmm0
	movdqu	16(%rbx,%rdx), %xmm1
	movdqu	%xmm0, -16(%rcx,%rdx)
	movdqu	%xmm1, (%rcx,%rdx)
	addq	$32, %rdx
	cmpq	%rdx, %rax
	jne	.Lunix_path_BB2_786
	cmpq	%rax, %r13
	je	.Lunix_path_BB2_798
	testb	$28, %r13b
	je	.Lunix_path_BB2_792
.Lunix_path_BB2_789:
	movq	%rax, %rcx
	movq	%r13, %rax
	andq	$-4, %rax
.Lunix_path_BB2_790:
	movl	(%rbx,%rcx), %edx
	movl	%edx, (%rdi,%rcx)
	addq	$4, %rcx
	cmpq	%rcx, %rax
	jne	.Lunix_path_BB2_790
	cmpq	%rax, %r13
	je	.Lunix_path_BB2_798
	jmp	.Lunix_path_BB2_792
.Lunix_path_BB2_806:
	testq	%r13, %r13
	je	.Lunix_path_BB2_144
.Lunix_path_BB2_807:
	movzbl	-1(%rdx,%r13), %eax
	cmpb	$47, %al
	jne	.Lunix_path_BB2_808
.Lunix_path_BB2_144:
	xorl	%ecx, %ecx
.Lunix_path_BB2_583:
	subq	%rcx, %r12
	subq	%rcx, %r13
	movq	%r12, %rsi
	movq	%r13, %rcx
	callq	unix_path.suffixes.ends_with_parts
	movq	16(%rsp), %rcx
	testb	%al, %al
	je	.Lunix_path_BB2_821
	cmpq	$3, %rcx
	jbe	.Lunix_path_BB2_874
	xorl	%eax, %eax
	jmp	.Lunix_path_BB2_873
.Lunix_path_BB2_823:
	movq	%r15, %rax
	andq	$-32, %rax
	leaq	(%rbx,%rbp), %rcx
	addq	$16, %rcx
	xorl	%edx, %edx
.Lunix_path_BB2_824:
	movdqu	(%r14,%rdx), %xmm0
	movdqu	16(%r14,%rdx), %xmm1
	movdqu	%xmm0, -16(%rcx,%rdx)
	movdqu	%xmm1, (%rcx,%rdx)
	addq	$32, %rdx
	cmpq	%rdx, %rax
	jne	.Lunix_path_BB2_824
	cmpq	%rax, %r15
	je	.Lunix_path_BB2_836
	testb	$28, %r15b
	je	.Lunix_path_BB2_830
.Lunix_path_BB2_827:
	movq	%rax, %rcx
	movq	%r15, %rax
	andq	$-4, %rax
.Lunix_path_BB2_828:
	movl	(%r14,%rcx), %edx
	movl	%edx, (%rdi,%rcx)
	addq	$4, %rcx
	cmpq	%rcx, %rax
	jne	.Lunix_path_BB2_828
	cmpq	%rax, %r15
	je	.Lunix_path_BB2_836
	jmp	.Lunix_path_BB2_830
.Lunix_path_BB2_840:
	leaq	144(%rsp), %rdi
	movq	%rbp, %rsi
	callq	std_alloc.vec.Vec.grow_amortized.2c3341b61b28ed12.
	testb	%al, %al
	je	.Lunix_path_BB2_1251
	movq	144(%rsp), %rdx
	movq	152(%rsp), %r12
	movq	160(%rsp), %r10
	leaq	(%r14,%r15), %r9
	incq	%r9
	jmp	.Lunix_path_BB2_594
.Lunix_path_BB2_842:
	leaq	144(%rsp), %rdi
	movq	%r13, %rsi
	callq	std_alloc.vec.Vec.grow_amortized.2c3341b61b28ed12.
	testb	%al, %al
	je	.Lunix_path_BB2_1251
	movq	152(%rsp), %r12
	movq	160(%rsp), %r10
	jmp	.Lunix_path_BB2_778
.Lunix_path_BB2_844:
	movq	%rsp, %rdi
	movq	%r15, %rsi
	callq	std_alloc.vec.Vec.grow_amortized.307f257cf2d167af.
	testb	%al, %al
	movb	$1, %al
	movq	24(%rsp), %rsi
	je	.Lunix_path_BB2_837
	movq	8(%rsp), %rbx
	movq	16(%rsp), %r8
	jmp	.Lunix_path_BB2_799
.Lunix_path_BB2_846:
	xorl	%ebx, %ebx
.Lunix_path_BB2_847:
	xorl	%r13d, %r13d
	jmp	.Lunix_path_BB2_925
.Lunix_path_BB2_848:
	movb	$1, %cl
	xorl	%eax, %eax
	cmpq	%rdx, %rax
	jb	.Lunix_path_BB2_853
	jmp	.Lunix_path_BB2_887
.Lunix_path_BB2_849:
	movb	$1, %r9b
	xorl	%eax, %eax
	cmpq	%r12, %rax
	jb	.Lunix_path_BB2_864
	jmp	.Lunix_path_BB2_1103
.Lunix_path_BB2_850:
	xorl	%eax, %eax
.Lunix_path_BB2_851:
	movb	$1, %cl
	cmpq	%rax, %r13
	jbe	.Lunix_path_BB2_857
	cmpq	%rdx, %rax
	jae	.Lunix_path_BB2_887
.Lunix_path_BB2_853:
	movzbl	(%r9,%rax), %esi
	cmpw	$47, %si
	jne	.Lunix_path_BB2_854
.Lunix_path_BB2_887:
	xorl	%esi, %esi
	testb	%cl, %cl
	je	.Lunix_path_BB2_890
.Lunix_path_BB2_889:
	movzbl	(%rbx,%rax), %ecx
	cmpw	$47, %cx
	je	.Lunix_path_BB2_890
	movzwl	%cx, %ecx
	incl	%ecx
	jmp	.Lunix_path_BB2_892
.Lunix_path_BB2_857:
	movq	%rdx, %r14
	subq	%r13, %r14
	jbe	.Lunix_path_BB2_860
	cmpb	$47, (%r9,%r13)
	je	.Lunix_path_BB2_860
	cmpb	$47, -1(%r9,%r13)
	jne	.Lunix_path_BB2_886
.Lunix_path_BB2_860:
	addq	%r13, %r9
	jmp	.Lunix_path_BB2_898
.Lunix_path_BB2_854:
	cmpb	$46, %sil
	sete	%dil
	movl	%ecx, %r8d
	xorb	$1, %r8b
	orb	%dil, %r8b
	jne	.Lunix_path_BB2_856
	movzbl	(%rbx,%rax), %edi
	andb	$-2, %dil
	cmpb	$46, %dil
	jne	.Lunix_path_BB2_909
.Lunix_path_BB2_856:
	movzwl	%si, %esi
	incl	%esi
	testb	%cl, %cl
	jne	.Lunix_path_BB2_889
.Lunix_path_BB2_890:
	xorl	%ecx, %ecx
.Lunix_path_BB2_892:
	cmpw	%cx, %si
	jne	.Lunix_path_BB2_894
	testq	%rax, %rax
	jne	.Lunix_path_BB2_896
	jmp	.Lunix_path_BB2_909
.Lunix_path_BB2_894:
	testq	%rax, %rax
	je	.Lunix_path_BB2_909
	movzbl	-1(%r9,%rax), %ecx
	cmpb	$47, %cl
	jne	.Lunix_path_BB2_906
.Lunix_path_BB2_896:
	addq	%rax, %r9
	subq	%rax, %rdx
	addq	%rax, %rbx
	subq	%rax, %r13
	leaq	144(%rsp), %rdi
	movq	%r9, %rsi
	movq	%rbx, %rcx
	movq	%r13, %r8
	callq	unix_path.pair.Comparison.rest_after_cut
	cmpb	$1, 144(%rsp)
	jne	.Lunix_path_BB2_905
	movq	152(%rsp), %r9
	movq	160(%rsp), %r14
.Lunix_path_BB2_898:
	xorl	%edx, %edx
	jmp	.Lunix_path_BB2_900
.Lunix_path_BB2_899:
	addq	%rax, %rdx
	cmpq	$4, %rdx
	jae	.Lunix_path_BB2_1143
.Lunix_path_BB2_900:
	movq	%rdx, %rax
	cmpq	%r14, %rdx
	jae	.Lunix_path_BB2_1144
	movzbl	(%r9,%rax), %ecx
	movl	$1, %edx
	cmpl	$47, %ecx
	je	.Lunix_path_BB2_899
	cmpl	$46, %ecx
	jne	.Lunix_path_BB2_1144
	leaq	1(%rax), %rcx
	cmpq	%r14, %rcx
	je	.Lunix_path_BB2_899
	movl	$2, %edx
	cmpb	$47, (%r9,%rcx)
	je	.Lunix_path_BB2_899
	jmp	.Lunix_path_BB2_1144
.Lunix_path_BB2_905:
	movq	8(%rsp), %rax
	jmp	.Lunix_path_BB2_910
.Lunix_path_BB2_906:
	decq	%rax
	je	.Lunix_path_BB2_909
	cmpb	$46, %cl
	jne	.Lunix_path_BB2_909
	cmpb	$47, -1(%r9,%rax)
	je	.Lunix_path_BB2_896
.Lunix_path_BB2_909:
	xorl	%eax, %eax
.Lunix_path_BB2_910:
	movq	16(%rsp), %rcx
	movq	%rcx, %rdx
	subq	%rax, %rdx
	cmpq	$15, %rdx
	jbe	.Lunix_path_BB2_1141
.Lunix_path_BB2_911:
	movq	(%rsp), %rdx
	leaq	(%rdx,%rax), %rsi
	leaq	.Lunix_path_static.49(%rip), %rdi
	movq	%rsi, %r8
	subq	%rdi, %r8
	cmpq	$15, %r8
	ja	.Lunix_path_BB2_913
	movdqa	.Lunix_path_CPI2_3(%rip), %xmm0
	jmp	.Lunix_path_BB2_914
.Lunix_path_BB2_913:
	movdqu	.Lunix_path_static.49(%rip), %xmm0
.Lunix_path_BB2_914:
	movdqu	%xmm0, (%rsi)
	addq	$16, %rax
	jmp	.Lunix_path_BB2_249
.Lunix_path_BB2_861:
	xorl	%eax, %eax
.Lunix_path_BB2_862:
	movb	$1, %r9b
	cmpq	%rax, %r13
	jbe	.Lunix_path_BB2_868
	cmpq	%r12, %rax
	jae	.Lunix_path_BB2_1103
.Lunix_path_BB2_864:
	movzbl	(%rsi,%rax), %edx
	cmpw	$47, %dx
	jne	.Lunix_path_BB2_865
.Lunix_path_BB2_1103:
	xorl	%edx, %edx
	testb	%r9b, %r9b
	je	.Lunix_path_BB2_1106
.Lunix_path_BB2_1105:
	movzbl	(%rcx,%rax), %edi
	cmpw	$47, %di
	je	.Lunix_path_BB2_1106
	movzwl	%di, %edi
	incl	%edi
	jmp	.Lunix_path_BB2_1108
.Lunix_path_BB2_868:
	cmpq	%r12, %r13
	jae	.Lunix_path_BB2_871
	cmpb	$47, (%rsi,%r13)
	je	.Lunix_path_BB2_871
	cmpb	$47, -1(%rsi,%r13)
	jne	.Lunix_path_BB2_1102
.Lunix_path_BB2_871:
	movq	16(%rsp), %rdx
	xorl	%eax, %eax
	movq	%rdx, %rcx
.Lunix_path_BB2_872:
	cmpq	$3, %rdx
	jbe	.Lunix_path_BB2_874
.Lunix_path_BB2_873:
	movq	(%rsp), %rdx
	movl	$1702195828, (%rdx,%rax)
	addq	$4, %rax
	jmp	.Lunix_path_BB2_1201
.Lunix_path_BB2_865:
	cmpb	$46, %dl
	sete	%r8b
	movl	%r9d, %edi
	xorb	$1, %dil
	orb	%r8b, %dil
	jne	.Lunix_path_BB2_867
	movzbl	(%rcx,%rax), %edi
	andb	$-2, %dil
	cmpb	$46, %dil
	jne	.Lunix_path_BB2_1116
.Lunix_path_BB2_867:
	movzwl	%dx, %edx
	incl	%edx
	testb	%r9b, %r9b
	jne	.Lunix_path_BB2_1105
.Lunix_path_BB2_1106:
	xorl	%edi, %edi
.Lunix_path_BB2_1108:
	cmpw	%di, %dx
	jne	.Lunix_path_BB2_1110
	testq	%rax, %rax
	jne	.Lunix_path_BB2_1112
	jmp	.Lunix_path_BB2_1116
.Lunix_path_BB2_1110:
	testq	%rax, %rax
	je	.Lunix_path_BB2_1116
	movzbl	-1(%rsi,%rax), %edx
	cmpb	$47, %dl
	jne	.Lunix_path_BB2_1113
.Lunix_path_BB2_1112:
	addq	%rax, %rsi
	subq	%rax, %r12
	addq	%rax, %rcx
	subq	%rax, %r13
	leaq	144(%rsp), %rdi
	movq	%r12, %rdx
	movq	%r13, %r8
	callq	unix_path.pair.Comparison.rest_after_cut
	movq	8(%rsp), %rax
	movq	16(%rsp), %rcx
	movq	%rcx, %rdx
	subq	%rax, %rdx
	cmpb	$1, 144(%rsp)
	je	.Lunix_path_BB2_872
	jmp	.Lunix_path_BB2_1117
.Lunix_path_BB2_874:
	movq	%rsp, %rdi
	movl	$4, %esi
	callq	std_alloc.vec.Vec.grow_amortized.307f257cf2d167af.
	testb	%al, %al
	je	.Lunix_path_BB2_1261
	movq	8(%rsp), %rax
	movq	16(%rsp), %rcx
	jmp	.Lunix_path_BB2_873
.Lunix_path_BB2_1113:
	decq	%rax
	je	.Lunix_path_BB2_1116
	cmpb	$46, %dl
	jne	.Lunix_path_BB2_1116
	cmpb	$47, -1(%rsi,%rax)
	je	.Lunix_path_BB2_1112
.Lunix_path_BB2_1116:
	movq	16(%rsp), %rdx
	xorl	%eax, %eax
	movq	%rdx, %rcx
.Lunix_path_BB2_1117:
	cmpq	$4, %rdx
	ja	.Lunix_path_BB2_1118
	jmp	.Lunix_path_BB2_1125
.Lunix_path_BB2_876:
	cmpq	$0, 272(%rsp)
	je	.Lunix_path_BB2_878
	movq	256(%rsp), %rdi
	callq	rattle_dealloc@PLT
.Lunix_path_BB2_878:
	movb	$1, %al
	jmp	.Lunix_path_BB2_1150
.Lunix_path_BB2_808:
	cmpq	$1, %r13
	je	.Lunix_path_BB2_811
	cmpb	$46, %al
	jne	.Lunix_path_BB2_811
	cmpb	$47, -2(%rdx,%r13)
	je	.Lunix_path_BB2_144
.Lunix_path_BB2_811:
	cmpq	%r12, %r13
	movq	%r12, %rcx
	cmovbq	%r13, %rcx
	leaq	(%rdx,%r13), %r9
	decq	%r9
	addq	%r12, %r15
	addq	%r15, %r14
	xorl	%eax, %eax
	xorl	%esi, %esi
.Lunix_path_BB2_812:
	movzbl	(%r14,%rsi), %r8d
	cmpb	$47, %r8b
	je	.Lunix_path_BB2_816
	cmpb	(%r9,%rsi), %r8b
	jne	.Lunix_path_BB2_816
	incq	%rax
	decq	%rsi
	cmpq	%rax, %rcx
	jne	.Lunix_path_BB2_812
	movq	%rcx, %rax
.Lunix_path_BB2_816:
	movq	%r12, %rcx
	subq	%rax, %rcx
	je	.Lunix_path_BB2_818
	cmpb	$47, -1(%rdi,%rcx)
	jne	.Lunix_path_BB2_820
.Lunix_path_BB2_818:
	movq	%r13, %rsi
	movq	%r13, %rcx
	subq	%rax, %rsi
	je	.Lunix_path_BB2_583
	cmpb	$47, -1(%rdx,%rsi)
	movq	%rax, %rcx
	je	.Lunix_path_BB2_583
.Lunix_path_BB2_820:
	movq	16(%rsp), %rcx
.Lunix_path_BB2_821:
	cmpq	$4, %rcx
	jbe	.Lunix_path_BB2_1125
	xorl	%eax, %eax
.Lunix_path_BB2_1118:
	movq	(%rsp), %rdx
	leaq	(%rdx,%rax), %rsi
	leaq	.Lunix_path_static.30(%rip), %rdi
	movq	%rsi, %r8
	subq	%rdi, %r8
	cmpq	$4, %r8
	ja	.Lunix_path_BB2_1124
	movl	$1936482662, (%rsi)
	movb	$101, 4(%rsi)
	addq	$5, %rax
	jmp	.Lunix_path_BB2_1201
.Lunix_path_BB2_1124:
	movb	$101, 4(%rsi)
	movl	$1936482662, (%rsi)
	addq	$5, %rax
	jmp	.Lunix_path_BB2_1201
.Lunix_path_BB2_879:
	cmpq	$6, %rcx
	jbe	.Lunix_path_BB2_1181
	xorl	%eax, %eax
.Lunix_path_BB2_881:
	movq	(%rsp), %rdx
	leaq	(%rdx,%rax), %rsi
	leaq	.Lunix_path_static.52(%rip), %rdi
	movq	%rsi, %r8
	subq	%rdi, %r8
	cmpq	$6, %r8
	ja	.Lunix_path_BB2_1140
	movl	$1634038375, (%rsi)
	movw	$25972, 4(%rsi)
	movb	$114, 6(%rsi)
	addq	$7, %rax
	jmp	.Lunix_path_BB2_1201
.Lunix_path_BB2_883:
	cmpq	$3, %rcx
	jbe	.Lunix_path_BB2_1183
	xorl	%eax, %eax
.Lunix_path_BB2_885:
	movq	(%rsp), %rdx
	movl	$1936942444, (%rdx,%rax)
	addq	$4, %rax
	jmp	.Lunix_path_BB2_1201
.Lunix_path_BB2_886:
	xorl	%ecx, %ecx
	cmpq	%rdx, %rax
	jb	.Lunix_path_BB2_853
	jmp	.Lunix_path_BB2_887
.Lunix_path_BB2_915:
	xorl	%ebx, %ebx
.Lunix_path_BB2_916:
	movq	%r12, %r13
	movq	%r12, %rax
	jmp	.Lunix_path_BB2_918
.Lunix_path_BB2_917:
	movq	%rax, %r13
	testq	%rax, %rax
	je	.Lunix_path_BB2_847
.Lunix_path_BB2_918:
	decq	%rax
	je	.Lunix_path_BB2_924
	movzbl	(%rdi,%rax), %ecx
	cmpl	$47, %ecx
	je	.Lunix_path_BB2_922
	cmpl	$46, %ecx
	jne	.Lunix_path_BB2_925
	cmpb	$47, -1(%rdi,%rax)
	jne	.Lunix_path_BB2_925
.Lunix_path_BB2_922:
	movq	%r12, %rcx
	subq	%rax, %rcx
	cmpq	$8, %rcx
	jne	.Lunix_path_BB2_917
	xorl	%esi, %esi
	movq	%rax, %rdx
	callq	unix_path.filler.trimmed_blocks_len
	leaq	(%r14,%r15), %rdi
	incq	%rdi
	jmp	.Lunix_path_BB2_917
.Lunix_path_BB2_924:
	movl	$1, %r13d
.Lunix_path_BB2_925:
	leaq	32(%rsp), %rcx
	movq	%rcx, 144(%rsp)
	pxor	%xmm0, %xmm0
	leaq	160(%rsp), %rax
	movdqu	%xmm0, -8(%rax)
	movq	%rcx, 80(%rsp)
	leaq	88(%rsp), %rax
	movdqu	%xmm0, (%rax)
	testq	%rbp, %rbp
	je	.Lunix_path_BB2_1031
	leaq	(%r14,%r15), %rax
	addq	$-15, %rax
	movq	%rax, 120(%rsp)
	leaq	(%r14,%r15), %rax
	movq	%rax, 112(%rsp)
	leaq	2(%r14,%r15), %rax
	movq	%rax, 296(%rsp)
	leaq	4(%r14,%r15), %rax
	movq	%rax, 288(%rsp)
	leaq	(%r14,%r15), %rax
	addq	$3, %rax
	movq	%rax, 64(%rsp)
	xorl	%r9d, %r9d
	movq	%rcx, 56(%rsp)
	movq	%rcx, 128(%rsp)
	xorl	%r8d, %r8d
	movq	%rbp, 72(%rsp)
	jmp	.Lunix_path_BB2_933
.Lunix_path_BB2_927:
	movl	$1, %ebx
.Lunix_path_BB2_928:
	movq	%r12, %r15
.Lunix_path_BB2_929:
	testq	%rbx, %rbx
	setne	%r14b
	movq	88(%rsp), %rax
	cmpq	%rax, 96(%rsp)
	je	.Lunix_path_BB2_990
.Lunix_path_BB2_930:
	addq	%r8, %rbx
	andb	48(%rsp), %r14b
	leaq	(%rax,%rax,2), %rcx
	movq	128(%rsp), %rdx
	movq	%rbp, (%rdx,%rcx,8)
	movq	40(%rsp), %rsi
	movq	%rsi, 8(%rdx,%rcx,8)
	movq	%r15, 16(%rdx,%rcx,8)
	incq	%rax
	movq	%rax, 88(%rsp)
	movq	%rbx, %r13
	movl	%r14d, %ebx
.Lunix_path_BB2_931:
	movq	72(%rsp), %rbp
.Lunix_path_BB2_932:
	incq	%r9
	cmpq	%rbp, %r9
	je	.Lunix_path_BB2_1028
.Lunix_path_BB2_933:
	leaq	(%rdi,%r8), %r14
	movq	%r13, %r12
	subq	%r8, %r12
	movq	136(%rsp), %rax
	cmpb	$0, (%rax,%r9)
	je	.Lunix_path_BB2_940
	testq	%r12, %r12
	je	.Lunix_path_BB2_932
	cmpq	$1, %r12
	movq	%rbx, 48(%rsp)
	jne	.Lunix_path_BB2_949
	cmpb	$46, (%r14)
	jne	.Lunix_path_BB2_954
	movl	$1, %ebp
.Lunix_path_BB2_938:
	movq	$0, 40(%rsp)
.Lunix_path_BB2_939:
	xorl	%r15d, %r15d
	xorl	%ebx, %ebx
	jmp	.Lunix_path_BB2_929
.Lunix_path_BB2_940:
	testq	%r12, %r12
	je	.Lunix_path_BB2_932
	cmpb	$1, %bl
	jne	.Lunix_path_BB2_976
	movq	%r12, %rax
	decq	%rax
	je	.Lunix_path_BB2_983
	leaq	-1(%r12), %rcx
	movq	64(%rsp), %rdx
	addq	%r8, %rdx
	addq	$-2, %r12
	xorl	%r15d, %r15d
	jmp	.Lunix_path_BB2_945
.Lunix_path_BB2_944:
	incq	%r15
	cmpq	%r15, %rcx
	je	.Lunix_path_BB2_984
.Lunix_path_BB2_945:
	movzbl	-1(%rdx,%r15), %esi
	cmpl	$47, %esi
	je	.Lunix_path_BB2_944
	cmpl	$46, %esi
	jne	.Lunix_path_BB2_985
	cmpq	%r15, %r12
	je	.Lunix_path_BB2_984
	cmpb	$47, (%rdx,%r15)
	je	.Lunix_path_BB2_944
	jmp	.Lunix_path_BB2_985
.Lunix_path_BB2_949:
	cmpb	$46, -1(%rdi,%r13)
	jne	.Lunix_path_BB2_954
	cmpb	$46, -2(%rdi,%r13)
	jne	.Lunix_path_BB2_954
	movl	$2, %ebp
	movq	$0, 40(%rsp)
	cmpq	$2, %r12
	je	.Lunix_path_BB2_939
	cmpb	$47, -3(%rdi,%r13)
	jne	.Lunix_path_BB2_954
	addq	$-2, %r12
	movq	%r12, %rbx
	movq	%r12, %rax
	jmp	.Lunix_path_BB2_970
.Lunix_path_BB2_954:
	movq	120(%rsp), %rax
	leaq	(%rax,%r13), %rdx
	movq	112(%rsp), %rax
	addq	%r13, %rax
	subq	%r8, %r13
	incq	%r13
	movq	%r12, %rcx
	.p2align	4
.Lunix_path_BB2_955:
	cmpq	$15, %rcx
	jbe	.Lunix_path_BB2_958
	addq	$-16, %rcx
	movdqu	(%rdx), %xmm0
	pcmpeqb	.Lunix_path_CPI2_2(%rip), %xmm0
	pmovmskb	%xmm0, %esi
	addq	$-16, %rdx
	addq	$-16, %r13
	addq	$-16, %rax
	testl	%esi, %esi
	je	.Lunix_path_BB2_955
	movzwl	%si, %eax
	bsrq	%rax, %rax
	xorq	$63, %rax
	subq	%rax, %rcx
	addq	$64, %rcx
	movq	%rcx, %r13
	jmp	.Lunix_path_BB2_960
.Lunix_path_BB2_958:
	cmpq	$1, %r13
	je	.Lunix_path_BB2_981
	decq	%r13
	cmpb	$47, (%rax)
	leaq	-1(%rax), %rax
	jne	.Lunix_path_BB2_958
.Lunix_path_BB2_960:
	movq	$0, 40(%rsp)
	movl	$0, %r15d
	movl	$0, %ebx
	movl	$0, %ebp
	subq	%r13, %r12
	je	.Lunix_path_BB2_929
	leaq	(%r14,%r13), %rax
	movq	%rax, 40(%rsp)
	movq	%r13, %rbx
	movq	%r13, %rax
	jmp	.Lunix_path_BB2_963
.Lunix_path_BB2_962:
	movq	%rax, %rbx
	testq	%rax, %rax
	je	.Lunix_path_BB2_988
.Lunix_path_BB2_963:
	movl	$3, %ebp
	decq	%rax
	je	.Lunix_path_BB2_927
	movzbl	(%r14,%rax), %ecx
	cmpl	$47, %ecx
	je	.Lunix_path_BB2_967
	cmpl	$46, %ecx
	jne	.Lunix_path_BB2_928
	cmpb	$47, -1(%r14,%rax)
	jne	.Lunix_path_BB2_928
.Lunix_path_BB2_967:
	movq	%r13, %rcx
	subq	%rax, %rcx
	cmpq	$8, %rcx
	jne	.Lunix_path_BB2_962
	movq	%r14, %rdi
	xorl	%esi, %esi
	movq	%rax, %rdx
	movq	%r8, %rbx
	movq	%r9, %r15
	callq	unix_path.filler.trimmed_blocks_len
	movq	%r15, %r9
	movq	%rbx, %r8
	movq	24(%rsp), %rdi
	jmp	.Lunix_path_BB2_962
.Lunix_path_BB2_969:
	movq	%rax, %rbx
	testq	%rax, %rax
	je	.Lunix_path_BB2_938
.Lunix_path_BB2_970:
	decq	%rax
	je	.Lunix_path_BB2_1024
	movzbl	(%r14,%rax), %ecx
	cmpl	$47, %ecx
	je	.Lunix_path_BB2_974
	cmpl	$46, %ecx
	jne	.Lunix_path_BB2_1027
	cmpb	$47, -1(%r14,%rax)
	jne	.Lunix_path_BB2_1027
.Lunix_path_BB2_974:
	movq	%r12, %rcx
	subq	%rax, %rcx
	cmpq	$8, %rcx
	jne	.Lunix_path_BB2_969
	movq	%r14, %rdi
	xorl	%esi, %esi
	movq	%rax, %rdx
	movq	%r8, %rbx
	movq	%r9, %r15
	callq	unix_path.filler.trimmed_blocks_len
	movq	%r15, %r9
	movq	%rbx, %r8
	movq	24(%rsp), %rdi
	jmp	.Lunix_path_BB2_969
.Lunix_path_BB2_976:
	cmpq	$1, %r12
	je	.Lunix_path_BB2_994
	cmpb	$46, (%r14)
	jne	.Lunix_path_BB2_994
	cmpb	$46, 1(%r14)
	jne	.Lunix_path_BB2_994
	movl	$2, %ebp
	xorl	%ebx, %ebx
	cmpq	$2, %r12
	jne	.Lunix_path_BB2_992
	movl	$2, %r15d
	xorl	%r14d, %r14d
	jmp	.Lunix_path_BB2_1020
.Lunix_path_BB2_981:
	testq	%r12, %r12
	je	.Lunix_path_BB2_989
	movl	$3, %ebp
	xorl	%ebx, %ebx
	movq	%r14, 40(%rsp)
	jmp	.Lunix_path_BB2_928
.Lunix_path_BB2_983:
	movl	$1, %r15d
	jmp	.Lunix_path_BB2_986
.Lunix_path_BB2_984:
	movq	%rax, %r15
.Lunix_path_BB2_985:
	incq	%r15
.Lunix_path_BB2_986:
	xorl	%ebp, %ebp
	cmpb	$47, (%r14)
	setne	%bpl
.Lunix_path_BB2_987:
	xorl	%r14d, %r14d
	xorl	%ebx, %ebx
	jmp	.Lunix_path_BB2_1020
.Lunix_path_BB2_988:
	xorl	%ebx, %ebx
	jmp	.Lunix_path_BB2_928
.Lunix_path_BB2_989:
	movq	$0, 40(%rsp)
	xorl	%r15d, %r15d
	xorl	%ebx, %ebx
	xorl	%ebp, %ebp
	jmp	.Lunix_path_BB2_929
.Lunix_path_BB2_990:
	movq	%r9, %r13
	movq	%r8, %r12
	leaq	80(%rsp), %rdi
	callq	std_alloc.vec.Vec.grow_amortized.d6e9c2ff9b21f748.
	testb	%al, %al
	je	.Lunix_path_BB2_1253
	movq	80(%rsp), %rax
	movq	%rax, 128(%rsp)
	movq	88(%rsp), %rax
	movq	24(%rsp), %rdi
	movq	%r12, %r8
	movq	%r13, %r9
	jmp	.Lunix_path_BB2_930
.Lunix_path_BB2_992:
	cmpb	$47, 2(%r14)
	jne	.Lunix_path_BB2_994
	leaq	-2(%r12), %rax
	movq	288(%rsp), %rcx
	addq	%r8, %rcx
	addq	$-3, %r12
	xorl	%r15d, %r15d
	jmp	.Lunix_path_BB2_1000
.Lunix_path_BB2_994:
	cmpq	$15, %r12
	ja	.Lunix_path_BB2_1004
	xorl	%ebx, %ebx
.Lunix_path_BB2_996:
	cmpb	$47, (%r14,%rbx)
	je	.Lunix_path_BB2_1010
	incq	%rbx
	cmpq	%rbx, %r12
	jne	.Lunix_path_BB2_996
	movq	%r12, %rbx
	jmp	.Lunix_path_BB2_1010
.Lunix_path_BB2_999:
	incq	%r15
	cmpq	%r15, %rax
	je	.Lunix_path_BB2_1025
.Lunix_path_BB2_1000:
	movzbl	-1(%rcx,%r15), %edx
	cmpl	$47, %edx
	je	.Lunix_path_BB2_999
	cmpl	$46, %edx
	jne	.Lunix_path_BB2_1026
	cmpq	%r15, %r12
	je	.Lunix_path_BB2_1025
	cmpb	$47, (%rcx,%r15)
	je	.Lunix_path_BB2_999
	jmp	.Lunix_path_BB2_1026
.Lunix_path_BB2_1004:
	movq	%r12, %rax
	addq	$-16, %rax
	je	.Lunix_path_BB2_1008
	xorl	%ecx, %ecx
.Lunix_path_BB2_1006:
	movdqu	(%r14,%rcx), %xmm0
	pcmpeqb	.Lunix_path_CPI2_2(%rip), %xmm0
	pmovmskb	%xmm0, %edx
	orl	$65536, %edx
	rep		bsfl	%edx, %edx
	cmpw	$15, %dx
	jbe	.Lunix_path_BB2_1009
	addq	$16, %rcx
	cmpq	%rax, %rcx
	jb	.Lunix_path_BB2_1006
.Lunix_path_BB2_1008:
	movdqu	(%r14,%rax), %xmm0
	pcmpeqb	.Lunix_path_CPI2_2(%rip), %xmm0
	pmovmskb	%xmm0, %ecx
	orl	$65536, %ecx
	rep		bsfl	%ecx, %ebx
	addq	%rax, %rbx
	jmp	.Lunix_path_BB2_1010
.Lunix_path_BB2_1009:
	movzwl	%dx, %ebx
	addq	%rcx, %rbx
.Lunix_path_BB2_1010:
	subq	%rbx, %r12
	je	.Lunix_path_BB2_1017
	leaq	(%rbx,%r8), %rax
	addq	296(%rsp), %rax
	leaq	-1(%r12), %rcx
	xorl	%r15d, %r15d
	jmp	.Lunix_path_BB2_1013
.Lunix_path_BB2_1012:
	incq	%r15
	cmpq	%r15, %r12
	je	.Lunix_path_BB2_1018
.Lunix_path_BB2_1013:
	movzbl	-1(%rax,%r15), %edx
	cmpl	$47, %edx
	je	.Lunix_path_BB2_1012
	cmpl	$46, %edx
	jne	.Lunix_path_BB2_1019
	cmpq	%r15, %rcx
	je	.Lunix_path_BB2_1018
	cmpb	$47, (%rax,%r15)
	je	.Lunix_path_BB2_1012
	jmp	.Lunix_path_BB2_1019
.Lunix_path_BB2_1017:
	xorl	%r15d, %r15d
	jmp	.Lunix_path_BB2_1019
.Lunix_path_BB2_1018:
	movq	%r12, %r15
.Lunix_path_BB2_1019:
	addq	%rbx, %r15
	movl	$3, %ebp
.Lunix_path_BB2_1020:
	movq	152(%rsp), %rax
	cmpq	%rax, 160(%rsp)
	je	.Lunix_path_BB2_1022
.Lunix_path_BB2_1021:
	addq	%r15, %r8
	leaq	(%rax,%rax,2), %rcx
	movq	56(%rsp), %rdx
	movq	%rbp, (%rdx,%rcx,8)
	movq	%r14, 8(%rdx,%rcx,8)
	movq	%rbx, 16(%rdx,%rcx,8)
	incq	%rax
	movq	%rax, 152(%rsp)
	xorl	%ebx, %ebx
	jmp	.Lunix_path_BB2_931
.Lunix_path_BB2_1022:
	movq	%r9, 40(%rsp)
	movq	%r8, %r12
	leaq	144(%rsp), %rdi
	callq	std_alloc.vec.Vec.grow_amortized.d6e9c2ff9b21f748.
	testb	%al, %al
	je	.Lunix_path_BB2_1263
	movq	144(%rsp), %rax
	movq	%rax, 56(%rsp)
	movq	152(%rsp), %rax
	movq	24(%rsp), %rdi
	movq	%r12, %r8
	movq	40(%rsp), %r9
	jmp	.Lunix_path_BB2_1021
.Lunix_path_BB2_1024:
	movq	$0, 40(%rsp)
	movl	$1, %ebx
	xorl	%r15d, %r15d
	jmp	.Lunix_path_BB2_929
.Lunix_path_BB2_1025:
	movq	%rax, %r15
.Lunix_path_BB2_1026:
	addq	$2, %r15
	jmp	.Lunix_path_BB2_987
.Lunix_path_BB2_1027:
	movq	$0, 40(%rsp)
	xorl	%r15d, %r15d
	jmp	.Lunix_path_BB2_929
.Lunix_path_BB2_1028:
	movq	%r8, %r15
	movq	144(%rsp), %rax
	movq	%rax, 64(%rsp)
	movq	152(%rsp), %rdi
	movq	160(%rsp), %r14
	movq	80(%rsp), %rax
	movq	%rax, 56(%rsp)
	movq	88(%rsp), %r12
	movq	96(%rsp), %rbp
	testq	%r14, %r14
	sete	288(%rsp)
	testq	%rbp, %rbp
	sete	296(%rsp)
	movq	%rsp, %rsi
	movq	%rdi, 128(%rsp)
	callq	pathtool.walks.push_count
	testb	%al, %al
	jne	.Lunix_path_BB2_1248
	movq	%rsp, %rsi
	movq	%r12, %rbx
	movq	%r12, %rdi
	callq	pathtool.walks.push_count
	testb	%al, %al
	jne	.Lunix_path_BB2_1248
	subq	%r15, %r13
	movq	24(%rsp), %r8
	addq	%r15, %r8
	movq	56(%rsp), %r12
	movq	64(%rsp), %rbp
	movq	%rbx, %r9
	jmp	.Lunix_path_BB2_1034
.Lunix_path_BB2_1031:
	movq	%rsp, %rsi
	xorl	%edi, %edi
	callq	pathtool.walks.push_count
	testb	%al, %al
	jne	.Lunix_path_BB2_1258
	movq	%rsp, %rsi
	xorl	%edi, %edi
	callq	pathtool.walks.push_count
	testb	%al, %al
	jne	.Lunix_path_BB2_1258
	leaq	32(%rsp), %r12
	movb	$1, 296(%rsp)
	movb	$1, 288(%rsp)
	movq	$0, 128(%rsp)
	movq	%r12, %rbp
	movq	24(%rsp), %r8
	xorl	%r9d, %r9d
.Lunix_path_BB2_1034:
	movb	$1, %al
	movq	%rax, 112(%rsp)
	movl	$0, 40(%rsp)
	movq	%rbp, 64(%rsp)
	movq	%rbp, 120(%rsp)
	movq	%r12, 56(%rsp)
	xorl	%r10d, %r10d
	movb	$1, %al
	jmp	.Lunix_path_BB2_1037
.Lunix_path_BB2_1035:
	movq	%r15, %rsi
	movq	%rbp, %rdx
	movq	%r8, %r15
	movq	%r12, 24(%rsp)
	movq	%r9, %r12
	movq	%rbp, 48(%rsp)
	movq	%r13, %rbp
	movl	%r10d, %r13d
	movq	%rbx, 72(%rsp)
	movq	%r11, %rbx
	callq	memmove@PLT
	movq	%rbx, %r11
	movq	72(%rsp), %rbx
	movl	%r13d, %r10d
	movq	%rbp, %r13
	movq	48(%rsp), %rbp
	movq	%r12, %r9
	movq	24(%rsp), %r12
	movq	%r15, %r8
.Lunix_path_BB2_1036:
	addq	%rbp, %r14
	movq	%rbx, (%rsp)
	movq	%r14, 8(%rsp)
	movq	%r11, 16(%rsp)
	xorl	%eax, %eax
.Lunix_path_BB2_1037:
	movq	%r13, %rcx
	movq	%r8, %r15
	testb	$1, %r10b
	je	.Lunix_path_BB2_1041
	testq	%r9, %r9
	je	.Lunix_path_BB2_1089
	leaq	24(%r12), %rdx
	decq	%r9
	movzbl	(%r12), %esi
	movl	$1, %ebp
	movb	$1, %r10b
	leaq	.Lunix_path_JTI2_2(%rip), %rdi
	movslq	(%rdi,%rsi,4), %rsi
	addq	%rdi, %rsi
	jmpq	*%rsi
.Lunix_path_BB2_1040:
	movq	%r15, %r8
	leaq	.Lunix_path_static.26(%rip), %r15
	jmp	.Lunix_path_BB2_1052
.Lunix_path_BB2_1041:
	movq	128(%rsp), %rsi
	testq	%rsi, %rsi
	sete	%dl
	movl	40(%rsp), %edi
	orb	%dl, %dil
	testb	$1, %dil
	movq	120(%rsp), %r10
	je	.Lunix_path_BB2_1044
	cmpb	$1, 112(%rsp)
	jne	.Lunix_path_BB2_1046
	movb	$1, %dl
	movl	%edx, 40(%rsp)
	movq	$0, 112(%rsp)
	xorl	%r8d, %r8d
	xorl	%r13d, %r13d
	xorl	%r10d, %r10d
	movq	%rcx, %rbp
	testb	$1, %al
	jne	.Lunix_path_BB2_1057
	jmp	.Lunix_path_BB2_1063
.Lunix_path_BB2_1044:
	leaq	24(%r10), %rdx
	decq	%rsi
	movq	%rsi, 128(%rsp)
	movzbl	(%r10), %esi
	movl	$1, %ebp
	leaq	.Lunix_path_JTI2_0(%rip), %rdi
	movslq	(%rdi,%rsi,4), %rsi
	addq	%rdi, %rsi
	jmpq	*%rsi
.Lunix_path_BB2_1045:
	movq	%r15, %r8
	leaq	.Lunix_path_static.26(%rip), %r15
	jmp	.Lunix_path_BB2_1056
.Lunix_path_BB2_1046:
	testq	%r9, %r9
	je	.Lunix_path_BB2_1089
	leaq	24(%r12), %rcx
	decq	%r9
	movzbl	(%r12), %edi
	movzbl	%dil, %r13d
	movl	$1, %ebp
	movb	$1, %dl
	movl	%edx, 40(%rsp)
	leaq	.Lunix_path_JTI2_1(%rip), %rdx
	movslq	(%rdx,%r13,4), %rsi
	addq	%rdx, %rsi
	jmpq	*%rsi
.Lunix_path_BB2_1048:
	movq	%rdi, 112(%rsp)
	leaq	.Lunix_path_static.26(%rip), %r15
	xorl	%r8d, %r8d
	jmp	.Lunix_path_BB2_1062
.Lunix_path_BB2_1049:
	movl	$2, %ebp
	movq	%r15, %r8
	leaq	.Lunix_path_static.33(%rip), %r15
	jmp	.Lunix_path_BB2_1052
.Lunix_path_BB2_1050:
	movq	%r15, %r8
	movq	8(%r12), %r15
	movq	16(%r12), %rbp
	jmp	.Lunix_path_BB2_1052
.Lunix_path_BB2_1051:
	movq	%r15, %r8
	leaq	.Lunix_path_static.27(%rip), %r15
.Lunix_path_BB2_1052:
	movq	%rcx, %r13
	movq	%rdx, %r12
	testb	$1, %al
	je	.Lunix_path_BB2_1063
.Lunix_path_BB2_1057:
	movq	8(%rsp), %r14
	jmp	.Lunix_path_BB2_1065
.Lunix_path_BB2_1053:
	movl	$2, %ebp
	movq	%r15, %r8
	leaq	.Lunix_path_static.33(%rip), %r15
	jmp	.Lunix_path_BB2_1056
.Lunix_path_BB2_1054:
	movq	%r15, %r8
	movq	8(%r10), %r15
	movq	16(%r10), %rbp
	jmp	.Lunix_path_BB2_1056
.Lunix_path_BB2_1055:
	movq	%r15, %r8
	leaq	.Lunix_path_static.27(%rip), %r15
.Lunix_path_BB2_1056:
	movl	$0, 40(%rsp)
	movq	%rdx, 120(%rsp)
	movq	%rcx, %r13
	xorl	%r10d, %r10d
	testb	$1, %al
	jne	.Lunix_path_BB2_1057
.Lunix_path_BB2_1063:
	movq	8(%rsp), %r14
	cmpq	%r14, 16(%rsp)
	je	.Lunix_path_BB2_1087
.Lunix_path_BB2_1064:
	movq	(%rsp), %rax
	movb	$9, (%rax,%r14)
	incq	%r14
	movq	%r14, 8(%rsp)
.Lunix_path_BB2_1065:
	movq	16(%rsp), %r11
	movq	%r11, %rax
	subq	%r14, %rax
	cmpq	%rax, %rbp
	ja	.Lunix_path_BB2_1085
.Lunix_path_BB2_1066:
	movq	(%rsp), %rbx
	pxor	%xmm0, %xmm0
	leaq	8(%rsp), %rax
	movdqu	%xmm0, (%rax)
	leaq	(%rbx,%r14), %rdi
	movq	%rdi, %rax
	subq	%r15, %rax
	cmpq	%rbp, %rax
	jae	.Lunix_path_BB2_1035
	cmpq	$4, %rbp
	jb	.Lunix_path_BB2_1068
	cmpq	$32, %rax
	jae	.Lunix_path_BB2_1070
.Lunix_path_BB2_1068:
	xorl	%eax, %eax
.Lunix_path_BB2_1079:
	movq	%rbp, %rdx
	movq	%rax, %rcx
	andq	$3, %rdx
	je	.Lunix_path_BB2_1082
	movq	%rax, %rcx
	.p2align	4
.Lunix_path_BB2_1081:
	movzbl	(%r15,%rcx), %esi
	movb	%sil, (%rdi,%rcx)
	incq	%rcx
	decq	%rdx
	jne	.Lunix_path_BB2_1081
.Lunix_path_BB2_1082:
	subq	%rbp, %rax
	cmpq	$-4, %rax
	ja	.Lunix_path_BB2_1036
	leaq	(%rbx,%r14), %rax
	addq	$3, %rax
	.p2align	4
.Lunix_path_BB2_1084:
	movzbl	(%r15,%rcx), %edx
	movb	%dl, -3(%rax,%rcx)
	movzbl	1(%r15,%rcx), %edx
	movb	%dl, -2(%rax,%rcx)
	movzbl	2(%r15,%rcx), %edx
	movb	%dl, -1(%rax,%rcx)
	movzbl	3(%r15,%rcx), %edx
	movb	%dl, (%rax,%rcx)
	addq	$4, %rcx
	cmpq	%rcx, %rbp
	jne	.Lunix_path_BB2_1084
	jmp	.Lunix_path_BB2_1036
.Lunix_path_BB2_1070:
	cmpq	$32, %rbp
	jae	.Lunix_path_BB2_1072
	xorl	%eax, %eax
	jmp	.Lunix_path_BB2_1076
.Lunix_path_BB2_1072:
	movq	%rbp, %rax
	andq	$-32, %rax
	leaq	(%rbx,%r14), %rcx
	addq	$16, %rcx
	xorl	%edx, %edx
	.p2align	4
.Lunix_path_BB2_1073:
	movdqu	(%r15,%rdx), %xmm0
	movdqu	16(%r15,%rdx), %xmm1
	movdqu	%xmm0, -16(%rcx,%rdx)
	movdqu	%xmm1, (%rcx,%rdx)
	addq	$32, %rdx
	cmpq	%rdx, %rax
	jne	.Lunix_path_BB2_1073
	cmpq	%rax, %rbp
	je	.Lunix_path_BB2_1036
	testb	$28, %bpl
	je	.Lunix_path_BB2_1079
.Lunix_path_BB2_1076:
	movq	%rax, %rcx
	movq	%rbp, %rax
	andq	$-4, %rax
	.p2align	4
.Lunix_path_BB2_1077:
	movl	(%r15,%rcx), %edx
	movl	%edx, (%rdi,%rcx)
	addq	$4, %rcx
	cmpq	%rcx, %rax
	jne	.Lunix_path_BB2_1077
	cmpq	%rax, %rbp
	je	.Lunix_path_BB2_1036
	jmp	.Lunix_path_BB2_1079
.Lunix_path_BB2_1085:
	movl	%r10d, 48(%rsp)
	movq	%r9, 24(%rsp)
	movq	%r8, %rbx
	movq	%rsp, %rdi
	movq	%rbp, %rsi
	callq	std_alloc.vec.Vec.grow_amortized.307f257cf2d167af.
	testb	%al, %al
	je	.Lunix_path_BB2_1138
	movq	8(%rsp), %r14
	movq	16(%rsp), %r11
	movq	%rbx, %r8
	movq	24(%rsp), %r9
	movl	48(%rsp), %r10d
	jmp	.Lunix_path_BB2_1066
.Lunix_path_BB2_1058:
	movl	$2, %ebp
	leaq	.Lunix_path_static.33(%rip), %r15
	jmp	.Lunix_path_BB2_1061
.Lunix_path_BB2_1059:
	movq	8(%r12), %r15
	movq	16(%r12), %rbp
	jmp	.Lunix_path_BB2_1061
.Lunix_path_BB2_1060:
	leaq	.Lunix_path_static.27(%rip), %r15
.Lunix_path_BB2_1061:
	movq	$0, 112(%rsp)
	xorl	%r8d, %r8d
	xorl	%r13d, %r13d
.Lunix_path_BB2_1062:
	movq	%rcx, %r12
	movb	$1, %r10b
	testb	$1, %al
	jne	.Lunix_path_BB2_1057
	jmp	.Lunix_path_BB2_1063
.Lunix_path_BB2_1087:
	movl	%r10d, 48(%rsp)
	movq	%r12, 24(%rsp)
	movq	%r9, %r12
	movq	%r8, %rbx
	movq	%rsp, %rdi
	movl	$1, %esi
	callq	std_alloc.vec.Vec.grow_amortized.307f257cf2d167af.
	testb	%al, %al
	je	.Lunix_path_BB2_1138
	movq	8(%rsp), %r14
	movq	%rbx, %r8
	movq	%r12, %r9
	movq	24(%rsp), %r12
	movl	48(%rsp), %r10d
	jmp	.Lunix_path_BB2_1064
.Lunix_path_BB2_1089:
	xorl	%r14d, %r14d
.Lunix_path_BB2_1090:
	movq	56(%rsp), %rbx
	movq	64(%rsp), %rdi
	movzbl	296(%rsp), %ebp
	movzbl	288(%rsp), %eax
	testb	%al, %al
	je	.Lunix_path_BB2_1093
	testb	%bpl, %bpl
	je	.Lunix_path_BB2_1094
.Lunix_path_BB2_1092:
	cmpq	$0, 304(%rsp)
	movl	%r14d, %eax
	jne	.Lunix_path_BB2_1095
	jmp	.Lunix_path_BB2_1150
.Lunix_path_BB2_1093:
	callq	rattle_dealloc@PLT
	testb	%bpl, %bpl
	jne	.Lunix_path_BB2_1092
.Lunix_path_BB2_1094:
	movq	%rbx, %rdi
	callq	rattle_dealloc@PLT
	cmpq	$0, 304(%rsp)
	movl	%r14d, %eax
	je	.Lunix_path_BB2_1150
.Lunix_path_BB2_1095:
	movq	136(%rsp), %rdi
	jmp	.Lunix_path_BB2_839
.Lunix_path_BB2_1096:
	leaq	144(%rsp), %rdi
	movl	$1, %esi
	callq	std_alloc.vec.Vec.grow_amortized.2c3341b61b28ed12.
	testb	%al, %al
	je	.Lunix_path_BB2_1251
	movq	152(%rsp), %r12
	movq	160(%rsp), %r10
	jmp	.Lunix_path_BB2_775
.Lunix_path_BB2_1098:
	cmpq	$0, 96(%rsp)
	je	.Lunix_path_BB2_1100
	movq	80(%rsp), %rdi
	callq	rattle_dealloc@PLT
.Lunix_path_BB2_1100:
	cmpb	$1, 256(%rsp)
	jne	.Lunix_path_BB2_558
	movq	264(%rsp), %rdi
	jmp	.Lunix_path_BB2_557
.Lunix_path_BB2_1102:
	xorl	%r9d, %r9d
	cmpq	%r12, %rax
	jb	.Lunix_path_BB2_864
	jmp	.Lunix_path_BB2_1103
.Lunix_path_BB2_1120:
	leaq	32(%rsp), %r13
.Lunix_path_BB2_1121:
	movq	%r13, %rax
	leaq	(%r14,%r15), %rsi
	incq	%rsi
	subq	%rsi, %rax
	cmpq	%r12, %rax
	jae	.Lunix_path_BB2_1132
	cmpq	$4, %r12
	jb	.Lunix_path_BB2_1123
	movq	%r13, %rax
	subq	%r14, %rax
	addq	$-5, %rax
	cmpq	$32, %rax
	jae	.Lunix_path_BB2_1152
.Lunix_path_BB2_1123:
	xorl	%eax, %eax
.Lunix_path_BB2_1162:
	movq	%r12, %rdx
	movq	%rax, %rcx
	andq	$3, %rdx
	je	.Lunix_path_BB2_1165
	movq	%rax, %rcx
.Lunix_path_BB2_1164:
	movzbl	(%rsi,%rcx), %edi
	movb	%dil, (%r13,%rcx)
	incq	%rcx
	decq	%rdx
	jne	.Lunix_path_BB2_1164
.Lunix_path_BB2_1165:
	subq	%r12, %rax
	cmpq	$-4, %rax
	ja	.Lunix_path_BB2_1168
	leaq	(%r14,%r15), %rax
	addq	$4, %rax
.Lunix_path_BB2_1167:
	movzbl	-3(%rax,%rcx), %edx
	movb	%dl, (%r13,%rcx)
	movzbl	-2(%rax,%rcx), %edx
	movb	%dl, 1(%r13,%rcx)
	movzbl	-1(%rax,%rcx), %edx
	movb	%dl, 2(%r13,%rcx)
	movzbl	(%rax,%rcx), %edx
	movb	%dl, 3(%r13,%rcx)
	addq	$4, %rcx
	cmpq	%rcx, %r12
	jne	.Lunix_path_BB2_1167
	jmp	.Lunix_path_BB2_1168
.Lunix_path_BB2_1125:
	movq	%rsp, %rdi
	movl	$5, %esi
	callq	std_alloc.vec.Vec.grow_amortized.307f257cf2d167af.
	testb	%al, %al
	je	.Lunix_path_BB2_1261
	movq	8(%rsp), %rax
	movq	16(%rsp), %rcx
	jmp	.Lunix_path_BB2_1118
.Lunix_path_BB2_1127:
	movzbl	1(%r9), %esi
	movl	$1, %eax
	cmpb	1(%rbx), %sil
	jne	.Lunix_path_BB2_851
	cmpq	$2, %rcx
	je	.Lunix_path_BB2_478
	movzbl	2(%r9), %esi
	movl	$2, %eax
	cmpb	2(%rbx), %sil
	jne	.Lunix_path_BB2_851
	movq	%rbx, %rdi
	cmpq	$3, %rcx
	jne	.Lunix_path_BB2_1208
.Lunix_path_BB2_1131:
	movq	%rcx, %rax
	movq	24(%rsp), %r9
	movq	%rdi, %rbx
	jmp	.Lunix_path_BB2_851
.Lunix_path_BB2_1132:
	movq	%r13, %rdi
	movq	%r12, %rdx
	callq	memmove@PLT
.Lunix_path_BB2_1168:
	movw	$3, 80(%rsp)
	movq	%r13, 88(%rsp)
	movq	%r12, 96(%rsp)
	movq	%r12, 104(%rsp)
	movl	$128, %edi
	movl	$1, %esi
	callq	rattle_alloc@PLT
	testb	$1, %al
	je	.Lunix_path_BB2_1172
	movq	%rdx, 144(%rsp)
	movq	$0, 152(%rsp)
	movq	$128, 160(%rsp)
	pxor	%xmm0, %xmm0
	leaq	160(%rsp), %rax
	movdqu	%xmm0, 8(%rax)
	movq	$0, 24(%rax)
	leaq	80(%rsp), %rdi
	leaq	144(%rsp), %rsi
	callq	serde_json.ser.write.d02ee1697995db96.
	testb	%al, %al
	je	.Lunix_path_BB2_1175
	cmpq	$0, 160(%rsp)
	je	.Lunix_path_BB2_1172
	movq	144(%rsp), %rdi
	callq	rattle_dealloc@PLT
	movb	$2, %bpl
	movb	$1, %bl
	xorl	%r14d, %r14d
	movzbl	80(%rsp), %eax
	leaq	.Lunix_path_JTI2_4(%rip), %rcx
	movslq	(%rcx,%rax,4), %rax
	addq	%rcx, %rax
	xorl	%r15d, %r15d
	xorl	%r12d, %r12d
	jmpq	*%rax
.Lunix_path_BB2_1172:
	movb	$2, %bpl
	movb	$1, %bl
	xorl	%r14d, %r14d
	movzbl	80(%rsp), %eax
	leaq	.Lunix_path_JTI2_4(%rip), %rcx
	movslq	(%rcx,%rax,4), %rax
	addq	%rcx, %rax
	xorl	%r15d, %r15d
	xorl	%r12d, %r12d
	jmpq	*%rax
.Lunix_path_BB2_1173:
	cmpq	$0, 104(%rsp)
	je	.Lunix_path_BB2_1194
	movq	88(%rsp), %rdi
	callq	rattle_dealloc@PLT
	jmp	.Lunix_path_BB2_1194
.Lunix_path_BB2_1133:
	movzbl	1(%rsi), %edx
	movl	$1, %eax
	cmpb	1(%rcx), %dl
	jne	.Lunix_path_BB2_862
	cmpq	$2, %r8
	je	.Lunix_path_BB2_118
	movzbl	2(%rsi), %edx
	movl	$2, %eax
	cmpb	2(%rcx), %dl
	jne	.Lunix_path_BB2_862
	movq	%rcx, %rdi
	cmpq	$3, %r8
	jne	.Lunix_path_BB2_1230
.Lunix_path_BB2_1137:
	movq	%r8, %rax
	movq	24(%rsp), %rsi
	movq	%rdi, %rcx
	jmp	.Lunix_path_BB2_862
.Lunix_path_BB2_1138:
	movb	$1, %r14b
	jmp	.Lunix_path_BB2_1090
.Lunix_path_BB2_1139:
	movb	$108, 4(%rsi)
	movl	$1635086693, (%rsi)
	addq	$5, %rax
	jmp	.Lunix_path_BB2_1201
.Lunix_path_BB2_1140:
	movl	$1919251553, 3(%rsi)
	movl	$1634038375, (%rsi)
	addq	$7, %rax
	jmp	.Lunix_path_BB2_1201
.Lunix_path_BB2_1141:
	movq	%rsp, %rdi
	movl	$16, %esi
	callq	std_alloc.vec.Vec.grow_amortized.307f257cf2d167af.
	testb	%al, %al
	movb	$1, %al
	je	.Lunix_path_BB2_1150
	movq	8(%rsp), %rax
	movq	16(%rsp), %rcx
	jmp	.Lunix_path_BB2_911
.Lunix_path_BB2_1143:
	movq	%r9, %rdi
	movq	%r14, %rsi
	movq	%r9, %rbx
	callq	unix_path.filler.filler_end_from
	movq	%rbx, %r9
.Lunix_path_BB2_1144:
	addq	%rax, %r9
	subq	%rax, %r14
	movq	%r14, %rdx
.Lunix_path_BB2_1145:
	movq	$1, 144(%rsp)
	movq	%r9, 152(%rsp)
.Lunix_path_BB2_1146:
	movq	%rdx, 160(%rsp)
	leaq	144(%rsp), %rdi
.Lunix_path_BB2_1147:
	movq	%rsp, %rsi
.Lunix_path_BB2_1148:
	callq	pathtool.names.push_optional
.Lunix_path_BB2_1149:
.Lunix_path_BB2_1150:
	testb	%al, %al
	je	.Lunix_path_BB2_260
	jmp	.Lunix_path_BB2_1261
.Lunix_path_BB2_1175:
	movq	144(%rsp), %r15
	movq	152(%rsp), %rax
	movq	160(%rsp), %rbx
	movq	168(%rsp), %r14
	cmpq	%r14, %rax
	cmovbq	%rax, %r14
	pxor	%xmm0, %xmm0
	movdqa	%xmm0, 160(%rsp)
	movdqa	%xmm0, 144(%rsp)
	leaq	144(%rsp), %rdi
	movq	%r15, %rsi
	movq	%r14, %rdx
	callq	simdutf8.compat.from_utf8
	cmpb	$1, 144(%rsp)
	jne	.Lunix_path_BB2_1178
	testq	%rbx, %rbx
	je	.Lunix_path_BB2_1185
	movq	%r15, %rdi
	callq	rattle_dealloc@PLT
	movb	$2, %bpl
	movb	$1, %bl
	xorl	%r14d, %r14d
	movzbl	80(%rsp), %eax
	leaq	.Lunix_path_JTI2_4(%rip), %rcx
	movslq	(%rcx,%rax,4), %rax
	addq	%rcx, %rax
	xorl	%r15d, %r15d
	xorl	%r12d, %r12d
	jmpq	*%rax
.Lunix_path_BB2_1152:
	cmpq	$32, %r12
	jae	.Lunix_path_BB2_1155
	xorl	%eax, %eax
	jmp	.Lunix_path_BB2_1159
.Lunix_path_BB2_1178:
	testq	%rbx, %rbx
	sete	%bl
	movb	$1, %r12b
	xorl	%ebp, %ebp
	movzbl	80(%rsp), %eax
	leaq	.Lunix_path_JTI2_4(%rip), %rcx
	movslq	(%rcx,%rax,4), %rax
	addq	%rcx, %rax
	jmpq	*%rax
.Lunix_path_BB2_1154:
	movb	$1, %bpl
	jmp	.Lunix_path_BB2_688
.Lunix_path_BB2_1155:
	movq	%r12, %rax
	andq	$-32, %rax
	movq	%r14, %rsi
	leaq	(%r14,%r15), %rcx
	addq	$17, %rcx
	xorl	%edx, %edx
.Lunix_path_BB2_1156:
	movdqu	-16(%rcx,%rdx), %xmm0
	movdqu	(%rcx,%rdx), %xmm1
	movdqu	%xmm0, (%r13,%rdx)
	movdqu	%xmm1, 16(%r13,%rdx)
	addq	$32, %rdx
	cmpq	%rdx, %rax
	jne	.Lunix_path_BB2_1156
	cmpq	%rax, %r12
	movq	%rsi, %r14
	leaq	1(%rsi,%r15), %rsi
	je	.Lunix_path_BB2_1168
	testb	$28, %r12b
	je	.Lunix_path_BB2_1162
.Lunix_path_BB2_1159:
	movq	%rax, %rcx
	movq	%r12, %rax
	andq	$-4, %rax
.Lunix_path_BB2_1160:
	movl	(%rsi,%rcx), %edx
	movl	%edx, (%r13,%rcx)
	addq	$4, %rcx
	cmpq	%rcx, %rax
	jne	.Lunix_path_BB2_1160
	cmpq	%rax, %r12
	je	.Lunix_path_BB2_1168
	jmp	.Lunix_path_BB2_1162
.Lunix_path_BB2_1179:
	movq	%rsp, %rdi
	movl	$5, %esi
	callq	std_alloc.vec.Vec.grow_amortized.307f257cf2d167af.
	testb	%al, %al
	je	.Lunix_path_BB2_1261
	movq	8(%rsp), %rax
	movq	16(%rsp), %rcx
	jmp	.Lunix_path_BB2_165
.Lunix_path_BB2_1181:
	movq	%rsp, %rdi
	movl	$7, %esi
	callq	std_alloc.vec.Vec.grow_amortized.307f257cf2d167af.
	testb	%al, %al
	je	.Lunix_path_BB2_1261
	movq	8(%rsp), %rax
	movq	16(%rsp), %rcx
	jmp	.Lunix_path_BB2_881
.Lunix_path_BB2_1183:
	movq	%rsp, %rdi
	movl	$4, %esi
	callq	std_alloc.vec.Vec.grow_amortized.307f257cf2d167af.
	testb	%al, %al
	je	.Lunix_path_BB2_1261
	movq	8(%rsp), %rax
	movq	16(%rsp), %rcx
	jmp	.Lunix_path_BB2_885
.Lunix_path_BB2_1185:
	movb	$2, %bpl
	movb	$1, %bl
	xorl	%r14d, %r14d
	movzbl	80(%rsp), %eax
	leaq	.Lunix_path_JTI2_4(%rip), %rcx
	movslq	(%rcx,%rax,4), %rax
	addq	%rcx, %rax
	xorl	%r15d, %r15d
	xorl	%r12d, %r12d
	jmpq	*%rax
.Lunix_path_BB2_1186:
	movq	%r12, 48(%rsp)
	movb	%bl, 40(%rsp)
	movq	88(%rsp), %rax
	movq	%rax, 24(%rsp)
	movq	96(%rsp), %rbx
	movq	104(%rsp), %rax
	movq	%rax, 72(%rsp)
	testq	%rbx, %rbx
	leaq	160(%rsp), %r13
	je	.Lunix_path_BB2_1189
	movq	24(%rsp), %r12
.Lunix_path_BB2_1188:
	movzwl	(%r12), %eax
	movq	$0, 144(%rsp)
	movw	%ax, 144(%rsp)
	movq	24(%r12), %rax
	movq	%rax, 8(%r13)
	movdqu	8(%r12), %xmm0
	movdqu	%xmm0, -8(%r13)
	leaq	144(%rsp), %rdi
	callq	pathtool.serde_json.value.Value.Destruct.drop
	addq	$32, %r12
	decq	%rbx
	jne	.Lunix_path_BB2_1188
.Lunix_path_BB2_1189:
	cmpq	$0, 72(%rsp)
	je	.Lunix_path_BB2_1191
	movq	24(%rsp), %rdi
	callq	rattle_dealloc@PLT
.Lunix_path_BB2_1191:
	movzbl	40(%rsp), %ebx
	movq	48(%rsp), %r12
	jmp	.Lunix_path_BB2_1194
.Lunix_path_BB2_1192:
	cmpb	$1, 88(%rsp)
	jne	.Lunix_path_BB2_1194
	movq	96(%rsp), %rdi
	callq	std_collections.btree.node.Node.destroy.60b19ca0713cc2a9.
.Lunix_path_BB2_1194:
	testb	%r12b, %r12b
	je	.Lunix_path_BB2_744
	movq	8(%rsp), %r12
	movq	16(%rsp), %r13
	movq	%r13, %rax
	subq	%r12, %rax
	cmpq	%rax, %r14
	ja	.Lunix_path_BB2_1237
.Lunix_path_BB2_1196:
	movq	(%rsp), %rbp
	pxor	%xmm0, %xmm0
	leaq	8(%rsp), %rax
	movdqu	%xmm0, (%rax)
	leaq	(%r12,%rbp), %rdi
	movq	%rdi, %rax
	subq	%r15, %rax
	cmpq	%r14, %rax
	jae	.Lunix_path_BB2_1202
	cmpq	$4, %r14
	jb	.Lunix_path_BB2_1198
	cmpq	$32, %rax
	jae	.Lunix_path_BB2_1206
.Lunix_path_BB2_1198:
	xorl	%eax, %eax
.Lunix_path_BB2_1222:
	movq	%r14, %rdx
	movq	%rax, %rcx
	andq	$3, %rdx
	je	.Lunix_path_BB2_1225
	movq	%rax, %rcx
.Lunix_path_BB2_1224:
	movzbl	(%r15,%rcx), %esi
	movb	%sil, (%rdi,%rcx)
	incq	%rcx
	decq	%rdx
	jne	.Lunix_path_BB2_1224
.Lunix_path_BB2_1225:
	subq	%r14, %rax
	cmpq	$-4, %rax
	ja	.Lunix_path_BB2_1228
	leaq	(%r12,%rbp), %rax
	addq	$3, %rax
.Lunix_path_BB2_1227:
	movzbl	(%r15,%rcx), %edx
	movb	%dl, -3(%rax,%rcx)
	movzbl	1(%r15,%rcx), %edx
	movb	%dl, -2(%rax,%rcx)
	movzbl	2(%r15,%rcx), %edx
	movb	%dl, -1(%rax,%rcx)
	movzbl	3(%r15,%rcx), %edx
	movb	%dl, (%rax,%rcx)
	addq	$4, %rcx
	cmpq	%rcx, %r14
	jne	.Lunix_path_BB2_1227
	jmp	.Lunix_path_BB2_1228
.Lunix_path_BB2_744:
	testb	%bpl, %bpl
	jne	.Lunix_path_BB2_1261
	movq	8(%rsp), %rax
	movq	16(%rsp), %rcx
	movq	%rcx, %rdx
	subq	%rax, %rdx
	cmpq	$37, %rdx
	jbe	.Lunix_path_BB2_1203
.Lunix_path_BB2_746:
	movq	(%rsp), %rdx
	pxor	%xmm0, %xmm0
	leaq	8(%rsp), %rsi
	movdqu	%xmm0, (%rsi)
	leaq	(%rdx,%rax), %rsi
	leaq	.Lunix_path_static.48(%rip), %rdi
	movq	%rsi, %r8
	subq	%rdi, %r8
	cmpq	$37, %r8
	ja	.Lunix_path_BB2_1199
	movaps	.Lunix_path_CPI2_5(%rip), %xmm0
	movups	%xmm0, (%rsi)
	movdqa	.Lunix_path_CPI2_6(%rip), %xmm0
	movdqu	%xmm0, 16(%rsi)
	movl	$1702126433, 32(%rsi)
	movw	$29554, 36(%rsi)
	jmp	.Lunix_path_BB2_1200
.Lunix_path_BB2_1199:
	movups	.Lunix_path_static.48+16(%rip), %xmm0
	movups	%xmm0, 16(%rsi)
	movdqu	.Lunix_path_static.48(%rip), %xmm0
	movdqu	%xmm0, (%rsi)
	movabsq	$8318823012264669793, %rdi
	movq	%rdi, 30(%rsi)
.Lunix_path_BB2_1200:
	addq	$38, %rax
.Lunix_path_BB2_1201:
	movq	%rdx, (%rsp)
	movq	%rax, 8(%rsp)
	movq	%rcx, 16(%rsp)
	jmp	.Lunix_path_BB2_260
.Lunix_path_BB2_1202:
	movq	%r15, %rsi
	movq	%r14, %rdx
	callq	memmove@PLT
.Lunix_path_BB2_1228:
	addq	%r14, %r12
	movq	%rbp, (%rsp)
	movq	%r12, 8(%rsp)
	movq	%r13, 16(%rsp)
	xorl	%eax, %eax
	testb	%bl, %bl
	jne	.Lunix_path_BB2_1150
.Lunix_path_BB2_1229:
	movq	%r15, %rdi
	jmp	.Lunix_path_BB2_839
.Lunix_path_BB2_1203:
	movq	%rsp, %rdi
	movl	$38, %esi
	callq	std_alloc.vec.Vec.grow_amortized.307f257cf2d167af.
	testb	%al, %al
	je	.Lunix_path_BB2_1261
	movq	8(%rsp), %rax
	movq	16(%rsp), %rcx
	jmp	.Lunix_path_BB2_746
.Lunix_path_BB2_1206:
	movl	%ebx, %esi
	cmpq	$32, %r14
	jae	.Lunix_path_BB2_1215
	xorl	%eax, %eax
	jmp	.Lunix_path_BB2_1219
.Lunix_path_BB2_1208:
	movq	24(%rsp), %r9
	movzbl	3(%r9), %esi
	movl	$3, %eax
	movq	%rdi, %rbx
	cmpb	3(%rdi), %sil
	jne	.Lunix_path_BB2_851
	cmpq	$4, %rcx
	je	.Lunix_path_BB2_1131
	movq	24(%rsp), %r9
	movzbl	4(%r9), %esi
	movl	$4, %eax
	movq	%rdi, %rbx
	cmpb	4(%rdi), %sil
	jne	.Lunix_path_BB2_851
	cmpq	$5, %rcx
	je	.Lunix_path_BB2_1131
	movq	24(%rsp), %r9
	movzbl	5(%r9), %esi
	movl	$5, %eax
	movq	%rdi, %rbx
	cmpb	5(%rdi), %sil
	jne	.Lunix_path_BB2_851
	cmpq	$6, %rcx
	je	.Lunix_path_BB2_1131
	movq	24(%rsp), %r9
	movzbl	6(%r9), %eax
	movq	%rdi, %rbx
	cmpb	6(%rdi), %al
	movl	$6, %eax
	cmoveq	%rcx, %rax
	jmp	.Lunix_path_BB2_851
.Lunix_path_BB2_1215:
	movq	%r14, %rax
	andq	$-32, %rax
	leaq	(%r12,%rbp), %rcx
	addq	$16, %rcx
	xorl	%edx, %edx
.Lunix_path_BB2_1216:
	movdqu	(%r15,%rdx), %xmm0
	movdqu	16(%r15,%rdx), %xmm1
	movdqu	%xmm0, -16(%rcx,%rdx)
	movdqu	%xmm1, (%rcx,%rdx)
	addq	$32, %rdx
	cmpq	%rdx, %rax
	jne	.Lunix_path_BB2_1216
	cmpq	%rax, %r14
	movl	%esi, %ebx
	je	.Lunix_path_BB2_1228
	testb	$28, %r14b
	je	.Lunix_path_BB2_1222
.Lunix_path_BB2_1219:
	movq	%rax, %rcx
	movq	%r14, %rax
	andq	$-4, %rax
.Lunix_path_BB2_1220:
	movl	(%r15,%rcx), %edx
	movl	%edx, (%rdi,%rcx)
	addq	$4, %rcx
	cmpq	%rcx, %rax
	jne	.Lunix_path_BB2_1220
	cmpq	%rax, %r14
	movl	%esi, %ebx
	je	.Lunix_path_BB2_1228
	jmp	.Lunix_path_BB2_1222
.Lunix_path_BB2_1230:
	movq	24(%rsp), %rsi
	movzbl	3(%rsi), %edx
	movl	$3, %eax
	movq	%rdi, %rcx
	cmpb	3(%rdi), %dl
	jne	.Lunix_path_BB2_862
	cmpq	$4, %r8
	je	.Lunix_path_BB2_1137
	movq	24(%rsp), %rsi
	movzbl	4(%rsi), %edx
	movl	$4, %eax
	movq	%rdi, %rcx
	cmpb	4(%rdi), %dl
	jne	.Lunix_path_BB2_862
	cmpq	$5, %r8
	je	.Lunix_path_BB2_1137
	movq	24(%rsp), %rsi
	movzbl	5(%rsi), %edx
	movl	$5, %eax
	movq	%rdi, %rcx
	cmpb	5(%rdi), %dl
	jne	.Lunix_path_BB2_862
	cmpq	$6, %r8
	je	.Lunix_path_BB2_1137
	movq	24(%rsp), %rsi
	movzbl	6(%rsi), %eax
	movq	%rdi, %rcx
	cmpb	6(%rdi), %al
	movl	$6, %eax
	cmoveq	%r8, %rax
	jmp	.Lunix_path_BB2_862
.Lunix_path_BB2_1237:
	movq	%rsp, %rdi
	movq	%r14, %rsi
	callq	std_alloc.vec.Vec.grow_amortized.307f257cf2d167af.
	testb	%al, %al
	je	.Lunix_path_BB2_1239
	movq	8(%rsp), %r12
	movq	16(%rsp), %r13
	jmp	.Lunix_path_BB2_1196
.Lunix_path_BB2_1239:
	movb	$1, %al
	testb	%bl, %bl
	jne	.Lunix_path_BB2_1150
	jmp	.Lunix_path_BB2_1229
.Lunix_path_BB2_1240:
	cmpq	$0, 16(%rsp)
	je	.Lunix_path_BB2_1242
	movq	(%rsp), %rdi
	callq	rattle_dealloc@PLT
.Lunix_path_BB2_1242:
	xorl	%edx, %edx
	xorl	%eax, %eax
	jmp	.Lunix_path_BB2_1247
.Lunix_path_BB2_1243:
	movq	248(%rsp), %rsi
.Lunix_path_BB2_1244:
	movb	$1, 32(%rsi)
	movb	$1, %dl
	cmpq	$0, 16(%rsp)
	je	.Lunix_path_BB2_1246
	movq	(%rsp), %rdi
	callq	rattle_dealloc@PLT
	movb	$1, %dl
.Lunix_path_BB2_1246:
	movb	$1, %al
.Lunix_path_BB2_1247:
	addq	$360, %rsp
	popq	%rbx
	popq	%r12
	popq	%r13
	popq	%r14
	popq	%r15
	popq	%rbp
	retq
.Lunix_path_BB2_1248:
	testq	%r14, %r14
	je	.Lunix_path_BB2_1250
	movq	64(%rsp), %rdi
	callq	rattle_dealloc@PLT
.Lunix_path_BB2_1250:
	testq	%rbp, %rbp
	jne	.Lunix_path_BB2_1256
	jmp	.Lunix_path_BB2_1258
.Lunix_path_BB2_1251:
	cmpq	$0, 160(%rsp)
	je	.Lunix_path_BB2_1261
	movq	144(%rsp), %rdi
	jmp	.Lunix_path_BB2_1260
.Lunix_path_BB2_1253:
	cmpq	$0, 96(%rsp)
	je	.Lunix_path_BB2_1255
	movq	80(%rsp), %rdi
	callq	rattle_dealloc@PLT
.Lunix_path_BB2_1255:
	cmpq	$0, 160(%rsp)
	je	.Lunix_path_BB2_1258
.Lunix_path_BB2_1256:
	movq	56(%rsp), %rdi
.Lunix_path_BB2_1257:
	callq	rattle_dealloc@PLT
.Lunix_path_BB2_1258:
	cmpq	$0, 304(%rsp)
	je	.Lunix_path_BB2_1261
	movq	136(%rsp), %rdi
.Lunix_path_BB2_1260:
	callq	rattle_dealloc@PLT
.Lunix_path_BB2_1261:
	movb	$1, %al
	movb	$2, %dl
	cmpq	$0, 16(%rsp)
	je	.Lunix_path_BB2_1247
	movq	(%rsp), %rdi
	callq	rattle_dealloc@PLT
	movb	$1, %al
	movb	$2, %dl
	jmp	.Lunix_path_BB2_1247
.Lunix_path_BB2_1263:
	cmpq	$0, 96(%rsp)
	je	.Lunix_path_BB2_1265
	movq	80(%rsp), %rdi
	callq	rattle_dealloc@PLT
.Lunix_path_BB2_1265:
	cmpq	$0, 160(%rsp)
	je	.Lunix_path_BB2_1258
	movq	144(%rsp), %rdi
	jmp	.Lunix_path_BB2_1257
.Lunix_path_func_end2:
	.size	pathtool.run.write_answers.7729a8c5e160c09a., .Lunix_path_func_end2-pathtool.run.write_answers.7729a8c5e160c09a.
	.section	.rodata.pathtool.run.write_answers.7729a8c5e160c09a.,"a",@progbits
	.p2align	2, 0x0
.Lunix_path_JTI2_0:
	.long	.Lunix_path_BB2_1045-.Lunix_path_JTI2_0
	.long	.Lunix_path_BB2_1055-.Lunix_path_JTI2_0
	.long	.Lunix_path_BB2_1053-.Lunix_path_JTI2_0
	.long	.Lunix_path_BB2_1054-.Lunix_path_JTI2_0
.Lunix_path_JTI2_1:
	.long	.Lunix_path_BB2_1048-.Lunix_path_JTI2_1
	.long	.Lunix_path_BB2_1060-.Lunix_path_JTI2_1
	.long	.Lunix_path_BB2_1058-.Lunix_path_JTI2_1
	.long	.Lunix_path_BB2_1059-.Lunix_path_JTI2_1
.Lunix_path_JTI2_2:
	.long	.Lunix_path_BB2_1040-.Lunix_path_JTI2_2
	.long	.Lunix_path_BB2_1051-.Lunix_path_JTI2_2
	.long	.Lunix_path_BB2_1049-.Lunix_path_JTI2_2
	.long	.Lunix_path_BB2_1050-.Lunix_path_JTI2_2
.Lunix_path_JTI2_3:
	.long	.Lunix_path_BB2_135-.Lunix_path_JTI2_3
	.long	.Lunix_path_BB2_187-.Lunix_path_JTI2_3
	.long	.Lunix_path_BB2_207-.Lunix_path_JTI2_3
	.long	.Lunix_path_BB2_203-.Lunix_path_JTI2_3
	.long	.Lunix_path_BB2_187-.Lunix_path_JTI2_3
	.long	.Lunix_path_BB2_187-.Lunix_path_JTI2_3
	.long	.Lunix_path_BB2_210-.Lunix_path_JTI2_3
.Lunix_path_JTI2_4:
	.long	.Lunix_path_BB2_1194-.Lunix_path_JTI2_4
	.long	.Lunix_path_BB2_1194-.Lunix_path_JTI2_4
	.long	.Lunix_path_BB2_1194-.Lunix_path_JTI2_4
	.long	.Lunix_path_BB2_1173-.Lunix_path_JTI2_4
	.long	.Lunix_path_BB2_1186-.Lunix_path_JTI2_4
	.long	.Lunix_path_BB2_1192-.Lunix_path_JTI2_4
	.section	.rodata.cst16,"aM",@progbits,16
	.p2align	4, 0x0
.Lunix_path_CPI3_0:
	.zero	16,58
	.section	.text.pathtool.edits.edit_from,"ax",@progbits
	.p2align	4
	.type	pathtool.edits.edit_from,@function
# pathtool::edits::edit_from
pathtool.edits.edit_from:
	pushq	%rbx
	subq	$32, %rsp
	movq	%rdx, %r8
	movq	%rdi, %rbx
	pxor	%xmm0, %xmm0
	movdqa	%xmm0, 16(%rsp)
	movdqa	%xmm0, (%rsp)
	cmpq	$15, %rdx
	ja	.Lunix_path_BB3_4
	xorl	%edx, %edx
	testq	%r8, %r8
	je	.Lunix_path_BB3_10
	.p2align	4
.Lunix_path_BB3_2:
	cmpb	$58, (%rsi,%rdx)
	je	.Lunix_path_BB3_10
	incq	%rdx
	cmpq	%rdx, %r8
	jne	.Lunix_path_BB3_2
	jmp	.Lunix_path_BB3_11
.Lunix_path_BB3_4:
	movq	%r8, %rax
	addq	$-16, %rax
	je	.Lunix_path_BB3_9
	xorl	%ecx, %ecx
	.p2align	4
.Lunix_path_BB3_6:
	movdqu	(%rsi,%rcx), %xmm0
	pcmpeqb	.Lunix_path_CPI3_0(%rip), %xmm0
	pmovmskb	%xmm0, %edx
	orl	$65536, %edx
	rep		bsfl	%edx, %edx
	cmpw	$15, %dx
	jbe	.Lunix_path_BB3_7
	addq	$16, %rcx
	cmpq	%rax, %rcx
	jb	.Lunix_path_BB3_6
.Lunix_path_BB3_9:
	movdqu	(%rsi,%rax), %xmm0
	pcmpeqb	.Lunix_path_CPI3_0(%rip), %xmm0
	pmovmskb	%xmm0, %ecx
	orl	$65536, %ecx
	rep		bsfl	%ecx, %edx
	addq	%rax, %rdx
.Lunix_path_BB3_10:
	cmpq	%r8, %rdx
	jne	.Lunix_path_BB3_12
.Lunix_path_BB3_11:
	leaq	.Lunix_path_static.1(%rip), %rcx
	movq	%rsp, %rdi
	movq	%r8, %rdx
	xorl	%r8d, %r8d
	jmp	.Lunix_path_BB3_13
.Lunix_path_BB3_7:
	movzwl	%dx, %edx
	addq	%rcx, %rdx
	cmpq	%r8, %rdx
	je	.Lunix_path_BB3_11
.Lunix_path_BB3_12:
	leaq	(%rsi,%rdx), %rcx
	incq	%rcx
	incq	%rdx
	subq	%rdx, %r8
	movq	%rsp, %rdi
.Lunix_path_BB3_13:
	callq	pathtool.edits.edit_by_name
	movzbl	(%rsp), %eax
	movzbl	8(%rsp), %ecx
	movq	%rax, (%rbx)
	movq	%rcx, 8(%rbx)
	movaps	16(%rsp), %xmm0
	movups	%xmm0, 16(%rbx)
	addq	$32, %rsp
	popq	%rbx
	retq
.Lunix_path_func_end3:
	.size	pathtool.edits.edit_from, .Lunix_path_func_end3-pathtool.edits.edit_from
	.section	.rodata.cst16,"aM",@progbits,16
	.p2align	4, 0x0
.Lunix_path_CPI4_0:
	.zero	1
	.zero	1
	.zero	1
	.zero	1
	.zero	1
	.zero	1
	.byte	58
	.byte	58
	.zero	1
	.zero	1
	.zero	1
	.zero	1
	.zero	1
	.zero	1
	.zero	1
	.zero	1
.Lunix_path_CPI4_1:
	.quad	1
	.quad	4
.Lunix_path_CPI4_2:
	.quad	1
	.quad	3
.Lunix_path_CPI4_3:
	.quad	1
	.quad	1
.Lunix_path_CPI4_4:
	.long	1
	.long	0
	.long	0
	.long	0
.Lunix_path_CPI4_5:
	.quad	1
	.quad	2
.Lunix_path_CPI4_6:
	.quad	1
	.quad	5
	.section	.rodata.cst4,"aM",@progbits,4
	.p2align	2, 0x0
.Lunix_path_CPI4_7:
	.long	1
	.section	.text.pathtool.edits.edit_by_name,"ax",@progbits
	.p2align	4
	.type	pathtool.edits.edit_by_name,@function
# pathtool::edits::edit_by_name
pathtool.edits.edit_by_name:
	pushq	%rbp
	pushq	%r15
	pushq	%r14
	pushq	%r13
	pushq	%r12
	pushq	%rbx
	subq	$40, %rsp
	movq	%r8, %r15
	movq	%rsi, %r12
	movq	%rdi, %rbx
	cmpq	$5, %rdx
	je	.Lunix_path_BB4_7
	cmpq	$4, %rdx
	je	.Lunix_path_BB4_13
	cmpq	$3, %rdx
	jne	.Lunix_path_BB4_22
	cmpb	$112, (%r12)
	jne	.Lunix_path_BB4_22
	cmpb	$111, 1(%r12)
	jne	.Lunix_path_BB4_22
	cmpb	$112, 2(%r12)
	jne	.Lunix_path_BB4_22
	movdqa	.Lunix_path_CPI4_3(%rip), %xmm0
	jmp	.Lunix_path_BB4_23
.Lunix_path_BB4_13:
	movq	%rcx, %r14
	movl	(%r12), %eax
	cmpl	$980711525, %eax
	je	.Lunix_path_BB4_14
	movd	%eax, %xmm0
	movzbl	(%r12), %eax
	movdqa	%xmm0, 16(%rsp)
	psllq	$24, %xmm0
	pcmpeqb	.Lunix_path_CPI4_0(%rip), %xmm0
	pcmpeqd	%xmm1, %xmm1
	pxor	%xmm0, %xmm1
	xorb	$97, %al
	movzbl	17(%rsp), %ecx
	movzbl	18(%rsp), %edx
	xorb	$100, %cl
	orb	%al, %cl
	xorb	$100, %dl
	orb	%cl, %dl
	setne	%al
	pextrw	$3, %xmm1, %ecx
	orb	%al, %cl
	testb	$1, %cl
	jne	.Lunix_path_BB4_22
	leaq	.Lunix_path_static.24(%rip), %rdx
	movl	$4, %esi
	movq	%r12, %rdi
	callq	core.cmp.slices.groups_equal.i8.31.core.cmp.numbers.U8PartialEq.
	testb	%al, %al
	je	.Lunix_path_BB4_22
	movdqa	.Lunix_path_CPI4_1(%rip), %xmm0
	jmp	.Lunix_path_BB4_24
.Lunix_path_BB4_7:
	movq	%rcx, 8(%rsp)
	movzbl	(%r12), %edx
	movzbl	1(%r12), %ebp
	movl	%edx, %eax
	xorb	$112, %al
	movl	%ebp, %ecx
	xorb	$117, %cl
	orb	%al, %cl
	movzbl	2(%r12), %r13d
	movl	%r13d, %eax
	xorb	$115, %al
	orb	%cl, %al
	movzbl	3(%r12), %r14d
	movl	%r14d, %ecx
	xorb	$104, %cl
	orb	%al, %cl
	jne	.Lunix_path_BB4_10
	movb	%dl, 7(%rsp)
	leaq	.Lunix_path_static.20(%rip), %rdx
	movl	$5, %esi
	movq	%r12, %rdi
	callq	core.cmp.slices.groups_equal.i8.31.core.cmp.numbers.U8PartialEq.
	movzbl	7(%rsp), %edx
	testb	%al, %al
	je	.Lunix_path_BB4_10
	movd	.Lunix_path_CPI4_7(%rip), %xmm0
	movq	8(%rsp), %r14
	jmp	.Lunix_path_BB4_24
.Lunix_path_BB4_10:
	movl	%edx, %eax
	xorb	$110, %al
	movl	%ebp, %ecx
	xorb	$97, %cl
	orb	%al, %cl
	movl	%r13d, %eax
	xorb	$109, %al
	orb	%cl, %al
	movl	%r14d, %ecx
	xorb	$101, %cl
	orb	%al, %cl
	jne	.Lunix_path_BB4_19
	movb	%dl, 7(%rsp)
	leaq	.Lunix_path_static.22(%rip), %rdx
	movl	$5, %esi
	movq	%r12, %rdi
	callq	core.cmp.slices.groups_equal.i8.31.core.cmp.numbers.U8PartialEq.
	movzbl	7(%rsp), %edx
	testb	%al, %al
	je	.Lunix_path_BB4_19
	movdqa	.Lunix_path_CPI4_5(%rip), %xmm0
	movq	8(%rsp), %r14
	jmp	.Lunix_path_BB4_24
.Lunix_path_BB4_19:
	xorb	$99, %dl
	xorb	$108, %bpl
	orb	%dl, %bpl
	xorb	$101, %r13b
	orb	%bpl, %r13b
	xorb	$97, %r14b
	orb	%r13b, %r14b
	jne	.Lunix_path_BB4_22
	leaq	.Lunix_path_static.25(%rip), %rdx
	movl	$5, %esi
	movq	%r12, %rdi
	callq	core.cmp.slices.groups_equal.i8.31.core.cmp.numbers.U8PartialEq.
	testb	%al, %al
	je	.Lunix_path_BB4_22
	movdqa	.Lunix_path_CPI4_6(%rip), %xmm0
	jmp	.Lunix_path_BB4_23
.Lunix_path_BB4_14:
	leaq	.Lunix_path_static.23(%rip), %rdx
	movl	$4, %esi
	movq	%r12, %rdi
	callq	core.cmp.slices.groups_equal.i8.31.core.cmp.numbers.U8PartialEq.
	testb	%al, %al
	je	.Lunix_path_BB4_22
	movdqa	.Lunix_path_CPI4_2(%rip), %xmm0
	jmp	.Lunix_path_BB4_24
.Lunix_path_BB4_22:
	pxor	%xmm0, %xmm0
.Lunix_path_BB4_23:
	xorl	%r14d, %r14d
	xorl	%r15d, %r15d
.Lunix_path_BB4_24:
	movdqu	%xmm0, (%rbx)
	movq	%r14, 16(%rbx)
	movq	%r15, 24(%rbx)
	addq	$40, %rsp
	popq	%rbx
	popq	%r12
	popq	%r13
	popq	%r14
	popq	%r15
	popq	%rbp
	retq
.Lunix_path_func_end4:
	.size	pathtool.edits.edit_by_name, .Lunix_path_func_end4-pathtool.edits.edit_by_name
	.section	.rodata.cst16,"aM",@progbits,16
	.p2align	4, 0x0
.Lunix_path_CPI5_0:
	.zero	16,47
	.section	.text.pathtool.edits.push_edited,"ax",@progbits
	.p2align	4
	.type	pathtool.edits.push_edited,@function
# pathtool::edits::push_edited
pathtool.edits.push_edited:
	pushq	%rbp
	pushq	%r15
	pushq	%r14
	pushq	%r13
	pushq	%r12
	pushq	%rbx
	subq	$360, %rsp
	movq	%r8, %r14
	movq	%rdx, 32(%rsp)
	movq	%rsi, %r12
	movq	%rdi, %r15
	testq	%rsi, %rsi
	movq	%rcx, 56(%rsp)
	je	.Lunix_path_BB5_5
	movb	$1, %bpl
	js	.Lunix_path_BB5_299
	movl	$1, %esi
	movq	%r12, %rdi
	callq	rattle_alloc@PLT
	testb	$1, %al
	je	.Lunix_path_BB5_299
	movq	%rdx, %r13
	movq	56(%rsp), %rbp
	movq	%r13, %rcx
	subq	%r15, %rcx
	cmpq	%r12, %rcx
	jb	.Lunix_path_BB5_6
.Lunix_path_BB5_4:
	movq	%r13, %rdi
	movq	%r15, %rsi
	movq	%r12, %rdx
	callq	memmove@PLT
	jmp	.Lunix_path_BB5_22
.Lunix_path_BB5_5:
	movq	%rcx, %rbp
	leaq	55(%rsp), %r13
	movq	%r13, %rcx
	subq	%r15, %rcx
	cmpq	%r12, %rcx
	jae	.Lunix_path_BB5_4
.Lunix_path_BB5_6:
	xorl	%eax, %eax
	cmpq	$4, %r12
	jb	.Lunix_path_BB5_17
	cmpq	$32, %rcx
	jb	.Lunix_path_BB5_17
	cmpq	$32, %r12
	jae	.Lunix_path_BB5_10
	xorl	%eax, %eax
	jmp	.Lunix_path_BB5_14
.Lunix_path_BB5_10:
	movq	%r12, %rax
	andq	$-32, %rax
	xorl	%ecx, %ecx
	.p2align	4
.Lunix_path_BB5_11:
	movdqu	(%r15,%rcx), %xmm0
	movups	16(%r15,%rcx), %xmm1
	movdqu	%xmm0, (%r13,%rcx)
	movups	%xmm1, 16(%r13,%rcx)
	addq	$32, %rcx
	cmpq	%rcx, %rax
	jne	.Lunix_path_BB5_11
	cmpq	%rax, %r12
	je	.Lunix_path_BB5_22
	testb	$28, %r12b
	je	.Lunix_path_BB5_17
.Lunix_path_BB5_14:
	movq	%rax, %rcx
	movq	%r12, %rax
	andq	$-4, %rax
	.p2align	4
.Lunix_path_BB5_15:
	movl	(%r15,%rcx), %edx
	movl	%edx, (%r13,%rcx)
	addq	$4, %rcx
	cmpq	%rcx, %rax
	jne	.Lunix_path_BB5_15
	cmpq	%rax, %r12
	je	.Lunix_path_BB5_22
.Lunix_path_BB5_17:
	movq	%r12, %rdx
	movq	%rax, %rcx
	andq	$3, %rdx
	je	.Lunix_path_BB5_20
	movq	%rax, %rcx
	.p2align	4
.Lunix_path_BB5_19:
	movzbl	(%r15,%rcx), %esi
	movb	%sil, (%r13,%rcx)
	incq	%rcx
	decq	%rdx
	jne	.Lunix_path_BB5_19
.Lunix_path_BB5_20:
	subq	%r12, %rax
	cmpq	$-4, %rax
	ja	.Lunix_path_BB5_22
	.p2align	4
.Lunix_path_BB5_21:
	movzbl	(%r15,%rcx), %eax
	movb	%al, (%r13,%rcx)
	movzbl	1(%r15,%rcx), %eax
	movb	%al, 1(%r13,%rcx)
	movzbl	2(%r15,%rcx), %eax
	movb	%al, 2(%r13,%rcx)
	movzbl	3(%r15,%rcx), %eax
	movb	%al, 3(%r13,%rcx)
	addq	$4, %rcx
	cmpq	%rcx, %r12
	jne	.Lunix_path_BB5_21
.Lunix_path_BB5_22:
	movq	%r13, 8(%rsp)
	movq	%r12, 16(%rsp)
	movq	%r12, 24(%rsp)
	testq	%rbp, %rbp
	je	.Lunix_path_BB5_26
	movq	%rbp, %rax
	shrq	$62, %rax
	jne	.Lunix_path_BB5_297
	leaq	(,%rbp,2), %rdi
	movl	$1, %esi
	callq	rattle_alloc@PLT
	movq	%rdx, 64(%rsp)
	testb	$1, %al
	je	.Lunix_path_BB5_296
	leaq	80(%rsp), %rdi
	xorl	%r15d, %r15d
	movl	$280, %edx
	xorl	%esi, %esi
	callq	memset@PLT
	movq	32(%rsp), %r13
	jmp	.Lunix_path_BB5_33
.Lunix_path_BB5_26:
	leaq	55(%rsp), %rax
	movq	%rax, 64(%rsp)
	jmp	.Lunix_path_BB5_286
.Lunix_path_BB5_196:
	movq	%rbp, %rsi
	movq	%r8, %rdx
	movq	%r9, %r13
	callq	memmove@PLT
	movq	%r13, %r9
	movq	40(%rsp), %r8
	movq	32(%rsp), %r13
.Lunix_path_BB5_197:
	addq	%r8, %r9
	movq	%r12, 8(%rsp)
	movq	%r9, 16(%rsp)
	movq	%rbx, 24(%rsp)
.Lunix_path_BB5_181:
	xorl	%edx, %edx
	xorl	%ebx, %ebx
	movq	56(%rsp), %rbp
	.p2align	4
.Lunix_path_BB5_32:
	movq	64(%rsp), %rax
	movb	%bl, (%rax,%r15,2)
	movb	%dl, 1(%rax,%r15,2)
	incq	%r15
	cmpq	%rbp, %r15
	je	.Lunix_path_BB5_285
.Lunix_path_BB5_33:
	leaq	(,%r15,8), %rax
	leaq	(%rax,%rax,2), %rax
	movzbl	(%r13,%rax), %ecx
	leaq	.Lunix_path_JTI5_0(%rip), %rdx
	movslq	(%rdx,%rcx,4), %rcx
	addq	%rdx, %rcx
	jmpq	*%rcx
.Lunix_path_BB5_34:
	movq	8(%r13,%rax), %rsi
	movq	16(%r13,%rax), %r12
	testq	%r12, %r12
	je	.Lunix_path_BB5_64
	cmpb	$47, (%rsi)
	jne	.Lunix_path_BB5_64
	movq	$0, 352(%rsp)
	pxor	%xmm0, %xmm0
	movdqa	%xmm0, 80(%rsp)
	leaq	8(%rsp), %rdi
	movq	%r12, %rdx
	callq	unix_path.buf.PathBuf.replace
	testb	%al, %al
	je	.Lunix_path_BB5_29
	jmp	.Lunix_path_BB5_295
.Lunix_path_BB5_37:
	movq	8(%r13,%rax), %rdx
	movq	16(%r13,%rax), %rcx
	leaq	8(%rsp), %rdi
	leaq	80(%rsp), %rsi
	callq	path_runs.edits.step.add_extension
	movb	$1, %bl
	testb	$1, %al
	je	.Lunix_path_BB5_32
	jmp	.Lunix_path_BB5_53
.Lunix_path_BB5_38:
	movq	8(%r13,%rax), %rbp
	movq	16(%r13,%rax), %r8
	movq	8(%rsp), %r12
	movq	16(%rsp), %r9
	testq	%r9, %r9
	movq	%r8, 40(%rsp)
	je	.Lunix_path_BB5_137
	movq	%r9, %rax
	movq	%r9, %rcx
	decq	%rax
	movq	%r9, %r13
	je	.Lunix_path_BB5_114
	movzbl	(%r12,%rax), %edx
	cmpl	$47, %edx
	je	.Lunix_path_BB5_43
	movq	%r9, %rcx
	cmpl	$46, %edx
	jne	.Lunix_path_BB5_114
	cmpb	$47, -1(%r12,%rax)
	movq	%r9, %rcx
	jne	.Lunix_path_BB5_114
.Lunix_path_BB5_43:
	movl	%edx, 76(%rsp)
	movq	88(%rsp), %rbx
	movq	%r9, %rcx
	cmpq	%r9, %rbx
	jae	.Lunix_path_BB5_98
	movq	%r9, %rcx
	movq	%r9, %rax
	jmp	.Lunix_path_BB5_46
	.p2align	4
.Lunix_path_BB5_45:
	movq	%rax, %rcx
	cmpq	%rax, %rbx
	jae	.Lunix_path_BB5_98
.Lunix_path_BB5_46:
	decq	%rax
	je	.Lunix_path_BB5_97
	movzbl	(%r12,%rax), %edx
	cmpl	$47, %edx
	je	.Lunix_path_BB5_50
	cmpl	$46, %edx
	jne	.Lunix_path_BB5_98
	cmpb	$47, -1(%r12,%rax)
	jne	.Lunix_path_BB5_98
.Lunix_path_BB5_50:
	movq	%r9, %rcx
	subq	%rax, %rcx
	cmpq	$8, %rcx
	jne	.Lunix_path_BB5_45
	movq	%r12, %rdi
	movq	%rbx, %rsi
	movq	%rax, %rdx
	callq	unix_path.filler.trimmed_blocks_len
	movq	%r13, %r9
	movq	40(%rsp), %r8
	jmp	.Lunix_path_BB5_45
.Lunix_path_BB5_52:
	movq	8(%r13,%rax), %rdx
	movq	16(%r13,%rax), %rcx
	leaq	8(%rsp), %rdi
	leaq	80(%rsp), %rsi
	callq	path_runs.edits.step.set_extension
	movb	$1, %bl
	testb	$1, %al
	je	.Lunix_path_BB5_32
.Lunix_path_BB5_53:
	testb	%dl, %dl
	jne	.Lunix_path_BB5_295
	addb	%dl, %dl
	movl	%edx, %ebx
	xorb	$2, %bl
	xorl	%edx, %edx
	jmp	.Lunix_path_BB5_30
.Lunix_path_BB5_55:
	movq	352(%rsp), %rax
	orq	88(%rsp), %rax
	jne	.Lunix_path_BB5_70
	movq	8(%rsp), %r13
	movq	16(%rsp), %r12
	movq	%r13, %rdi
	movq	%r12, %rsi
	callq	unix_path.path.Path.parent_len
	cmpb	$1, %al
	jne	.Lunix_path_BB5_72
	movq	%rdx, %rcx
	movb	$1, %dl
	cmpq	%rcx, %r12
	movq	32(%rsp), %r13
	jbe	.Lunix_path_BB5_71
	movq	%rcx, 16(%rsp)
	jmp	.Lunix_path_BB5_71
.Lunix_path_BB5_59:
	cmpq	$0, 16(%rsp)
	je	.Lunix_path_BB5_61
	movq	$0, 16(%rsp)
.Lunix_path_BB5_61:
	movq	$0, 352(%rsp)
.Lunix_path_BB5_62:
	pxor	%xmm0, %xmm0
	movdqa	%xmm0, 80(%rsp)
.Lunix_path_BB5_63:
	xorl	%edx, %edx
	xorl	%ebx, %ebx
	jmp	.Lunix_path_BB5_32
.Lunix_path_BB5_64:
	movq	16(%rsp), %rbx
	testq	%rbx, %rbx
	je	.Lunix_path_BB5_66
	movq	8(%rsp), %rax
	cmpb	$47, -1(%rax,%rbx)
	jne	.Lunix_path_BB5_85
.Lunix_path_BB5_66:
	movq	24(%rsp), %r13
	movq	%r13, %rax
	subq	%rbx, %rax
	cmpq	%rax, %r12
	ja	.Lunix_path_BB5_211
.Lunix_path_BB5_67:
	movq	8(%rsp), %rbp
	pxor	%xmm0, %xmm0
	leaq	16(%rsp), %rax
	movdqu	%xmm0, (%rax)
	leaq	(%rbx,%rbp), %rdi
	movq	%rdi, %rax
	subq	%rsi, %rax
	cmpq	%r12, %rax
	jae	.Lunix_path_BB5_27
	cmpq	$4, %r12
	jb	.Lunix_path_BB5_69
	cmpq	$32, %rax
	jae	.Lunix_path_BB5_93
.Lunix_path_BB5_69:
	xorl	%eax, %eax
.Lunix_path_BB5_205:
	movq	%r12, %rdx
	movq	%rax, %rcx
	andq	$3, %rdx
	je	.Lunix_path_BB5_208
	movq	%rax, %rcx
	.p2align	4
.Lunix_path_BB5_207:
	movzbl	(%rsi,%rcx), %r8d
	movb	%r8b, (%rdi,%rcx)
	incq	%rcx
	decq	%rdx
	jne	.Lunix_path_BB5_207
.Lunix_path_BB5_208:
	subq	%r12, %rax
	cmpq	$-4, %rax
	ja	.Lunix_path_BB5_28
	leaq	(%rbx,%rbp), %rax
	addq	$3, %rax
	.p2align	4
.Lunix_path_BB5_210:
	movzbl	(%rsi,%rcx), %edx
	movb	%dl, -3(%rax,%rcx)
	movzbl	1(%rsi,%rcx), %edx
	movb	%dl, -2(%rax,%rcx)
	movzbl	2(%rsi,%rcx), %edx
	movb	%dl, -1(%rax,%rcx)
	movzbl	3(%rsi,%rcx), %edx
	movb	%dl, (%rax,%rcx)
	addq	$4, %rcx
	cmpq	%rcx, %r12
	jne	.Lunix_path_BB5_210
	jmp	.Lunix_path_BB5_28
.Lunix_path_BB5_70:
	leaq	8(%rsp), %rdi
	leaq	80(%rsp), %rsi
	callq	path_runs.edits.step.pop_with_cache
	movl	%eax, %edx
.Lunix_path_BB5_71:
	movb	$1, %bl
	jmp	.Lunix_path_BB5_32
.Lunix_path_BB5_72:
	movb	$1, %bl
	testq	%r12, %r12
	je	.Lunix_path_BB5_246
	movq	%r12, %rax
	decq	%rax
	je	.Lunix_path_BB5_246
	movzbl	(%r13,%rax), %ecx
	cmpl	$47, %ecx
	je	.Lunix_path_BB5_77
	cmpl	$46, %ecx
	jne	.Lunix_path_BB5_246
	cmpb	$47, -1(%r13,%rax)
	jne	.Lunix_path_BB5_246
.Lunix_path_BB5_77:
	movq	%r12, %rcx
	movq	%r12, %rax
	jmp	.Lunix_path_BB5_79
.Lunix_path_BB5_78:
	movq	%rax, %rcx
	testq	%rax, %rax
	je	.Lunix_path_BB5_219
.Lunix_path_BB5_79:
	decq	%rax
	je	.Lunix_path_BB5_218
	movzbl	(%r13,%rax), %edx
	cmpl	$47, %edx
	je	.Lunix_path_BB5_83
	cmpl	$46, %edx
	jne	.Lunix_path_BB5_243
	cmpb	$47, -1(%r13,%rax)
	movq	%rcx, %rdx
	jne	.Lunix_path_BB5_244
.Lunix_path_BB5_83:
	movq	%r12, %rcx
	subq	%rax, %rcx
	cmpq	$8, %rcx
	jne	.Lunix_path_BB5_78
	movq	%r13, %rdi
	xorl	%esi, %esi
	movq	%rax, %rdx
	callq	unix_path.filler.trimmed_blocks_len
	jmp	.Lunix_path_BB5_78
.Lunix_path_BB5_85:
	leaq	1(%r12), %rax
	movq	24(%rsp), %r13
	movq	%r13, %rcx
	subq	%rbx, %rcx
	cmpq	%rcx, %rax
	ja	.Lunix_path_BB5_233
	cmpq	%rbx, %r13
	je	.Lunix_path_BB5_235
.Lunix_path_BB5_87:
	movq	8(%rsp), %rbp
	movb	$47, (%rbp,%rbx)
	incq	%rbx
	movq	%rbp, 8(%rsp)
	movq	%rbx, 16(%rsp)
	movq	%r13, 24(%rsp)
	movq	%r13, %rax
	subq	%rbx, %rax
	cmpq	%rax, %r12
	ja	.Lunix_path_BB5_237
.Lunix_path_BB5_88:
	pxor	%xmm0, %xmm0
	leaq	16(%rsp), %rax
	movdqu	%xmm0, (%rax)
	leaq	(%rbx,%rbp), %rdi
	movq	%rdi, %rax
	subq	%rsi, %rax
	cmpq	%r12, %rax
	jae	.Lunix_path_BB5_27
	cmpq	$4, %r12
	jb	.Lunix_path_BB5_90
	cmpq	$32, %rax
	jae	.Lunix_path_BB5_214
.Lunix_path_BB5_90:
	xorl	%eax, %eax
.Lunix_path_BB5_227:
	movq	%r12, %rdx
	movq	%rax, %rcx
	andq	$3, %rdx
	je	.Lunix_path_BB5_230
	movq	%rax, %rcx
	.p2align	4
.Lunix_path_BB5_229:
	movzbl	(%rsi,%rcx), %r8d
	movb	%r8b, (%rdi,%rcx)
	incq	%rcx
	decq	%rdx
	jne	.Lunix_path_BB5_229
.Lunix_path_BB5_230:
	subq	%r12, %rax
	cmpq	$-4, %rax
	ja	.Lunix_path_BB5_28
	leaq	(%rbx,%rbp), %rax
	addq	$3, %rax
	.p2align	4
.Lunix_path_BB5_232:
	movzbl	(%rsi,%rcx), %edx
	movb	%dl, -3(%rax,%rcx)
	movzbl	1(%rsi,%rcx), %edx
	movb	%dl, -2(%rax,%rcx)
	movzbl	2(%rsi,%rcx), %edx
	movb	%dl, -1(%rax,%rcx)
	movzbl	3(%rsi,%rcx), %edx
	movb	%dl, (%rax,%rcx)
	addq	$4, %rcx
	cmpq	%rcx, %r12
	jne	.Lunix_path_BB5_232
	jmp	.Lunix_path_BB5_28
.Lunix_path_BB5_27:
	movq	%r12, %rdx
	callq	memmove@PLT
.Lunix_path_BB5_28:
	addq	%r12, %rbx
	movq	%rbp, 8(%rsp)
	movq	%rbx, 16(%rsp)
	movq	%r13, 24(%rsp)
.Lunix_path_BB5_29:
	xorl	%edx, %edx
	xorl	%ebx, %ebx
.Lunix_path_BB5_30:
	movq	56(%rsp), %rbp
.Lunix_path_BB5_31:
	movq	32(%rsp), %r13
	jmp	.Lunix_path_BB5_32
.Lunix_path_BB5_93:
	cmpq	$32, %r12
	jae	.Lunix_path_BB5_198
	xorl	%eax, %eax
	jmp	.Lunix_path_BB5_202
.Lunix_path_BB5_97:
	movl	$1, %ecx
.Lunix_path_BB5_98:
	movq	%rcx, %rax
	cmpq	%rbx, %rcx
	jne	.Lunix_path_BB5_100
	movq	80(%rsp), %rax
.Lunix_path_BB5_100:
	movq	%r9, %rdx
	subq	%rcx, %rdx
	cmpq	$16, %rdx
	movl	76(%rsp), %esi
	jb	.Lunix_path_BB5_102
	movq	%rax, 80(%rsp)
	movq	%r9, 88(%rsp)
.Lunix_path_BB5_102:
	testq	%rax, %rax
	je	.Lunix_path_BB5_110
	movzbl	-1(%r12,%rax), %edx
	cmpl	$47, %edx
	je	.Lunix_path_BB5_110
	movq	%r9, %rcx
	cmpl	$46, %edx
	jne	.Lunix_path_BB5_114
	cmpq	$1, %rax
	je	.Lunix_path_BB5_110
	movzbl	-2(%r12,%rax), %edx
	cmpl	$47, %edx
	je	.Lunix_path_BB5_110
	movq	%r9, %rcx
	cmpl	$46, %edx
	jne	.Lunix_path_BB5_114
	cmpq	$2, %rax
	je	.Lunix_path_BB5_110
	cmpb	$47, -3(%r12,%rax)
	movq	%r9, %rcx
	jne	.Lunix_path_BB5_114
.Lunix_path_BB5_110:
	testq	%r8, %r8
	je	.Lunix_path_BB5_122
	cmpb	$47, (%rbp)
	jne	.Lunix_path_BB5_122
	movq	$0, 352(%rsp)
	pxor	%xmm0, %xmm0
	movdqa	%xmm0, 80(%rsp)
	leaq	8(%rsp), %rdi
	movq	%rbp, %rsi
	movq	%r8, %rdx
	callq	unix_path.buf.PathBuf.replace
	testb	%al, %al
	je	.Lunix_path_BB5_29
	jmp	.Lunix_path_BB5_295
	.p2align	4
.Lunix_path_BB5_113:
	movq	%rax, %rcx
	testq	%rax, %rax
	je	.Lunix_path_BB5_121
.Lunix_path_BB5_114:
	movq	%rcx, %rax
	decq	%rax
	je	.Lunix_path_BB5_120
	movzbl	(%r12,%rax), %edx
	cmpl	$47, %edx
	je	.Lunix_path_BB5_118
	cmpl	$46, %edx
	jne	.Lunix_path_BB5_130
	movzbl	-1(%r12,%rax), %edx
	cmpb	$47, %dl
	jne	.Lunix_path_BB5_127
.Lunix_path_BB5_118:
	movq	%r9, %rcx
	subq	%rax, %rcx
	cmpq	$8, %rcx
	jne	.Lunix_path_BB5_113
	movq	%r12, %rdi
	xorl	%esi, %esi
	movq	%rax, %rdx
	callq	unix_path.filler.trimmed_blocks_len
	movq	%r13, %r9
	movq	40(%rsp), %r8
	jmp	.Lunix_path_BB5_113
.Lunix_path_BB5_120:
	movzbl	(%r12), %eax
	andb	$-2, %al
	movq	%r9, %rdx
	cmpb	$46, %al
	jne	.Lunix_path_BB5_130
	jmp	.Lunix_path_BB5_138
.Lunix_path_BB5_121:
	movq	%r9, %rdx
	jmp	.Lunix_path_BB5_138
.Lunix_path_BB5_122:
	cmpb	$47, %sil
	jne	.Lunix_path_BB5_186
	movq	24(%rsp), %rbx
	movq	%rbx, %rax
	subq	%r9, %rax
	cmpq	%rax, %r8
	ja	.Lunix_path_BB5_277
.Lunix_path_BB5_124:
	pxor	%xmm0, %xmm0
	leaq	16(%rsp), %rax
	movdqu	%xmm0, (%rax)
	leaq	(%r12,%r9), %rdi
	movq	%rdi, %rax
	subq	%rbp, %rax
	cmpq	%r8, %rax
	jae	.Lunix_path_BB5_196
	cmpq	$4, %r8
	movq	32(%rsp), %r13
	jb	.Lunix_path_BB5_126
	cmpq	$32, %rax
	jae	.Lunix_path_BB5_247
.Lunix_path_BB5_126:
	xorl	%eax, %eax
.Lunix_path_BB5_258:
	movq	%r8, %rdx
	movq	%rax, %rcx
	andq	$3, %rdx
	je	.Lunix_path_BB5_261
	movq	%rax, %rcx
.Lunix_path_BB5_260:
	movzbl	(%rbp,%rcx), %esi
	movb	%sil, (%rdi,%rcx)
	incq	%rcx
	decq	%rdx
	jne	.Lunix_path_BB5_260
.Lunix_path_BB5_261:
	subq	%r8, %rax
	cmpq	$-4, %rax
	ja	.Lunix_path_BB5_197
	leaq	(%r12,%r9), %rax
	addq	$3, %rax
.Lunix_path_BB5_263:
	movzbl	(%rbp,%rcx), %edx
	movb	%dl, -3(%rax,%rcx)
	movzbl	1(%rbp,%rcx), %edx
	movb	%dl, -2(%rax,%rcx)
	movzbl	2(%rbp,%rcx), %edx
	movb	%dl, -1(%rax,%rcx)
	movzbl	3(%rbp,%rcx), %edx
	movb	%dl, (%rax,%rcx)
	addq	$4, %rcx
	cmpq	%rcx, %r8
	jne	.Lunix_path_BB5_263
	jmp	.Lunix_path_BB5_197
.Lunix_path_BB5_127:
	cmpb	$46, %dl
	jne	.Lunix_path_BB5_130
	movq	%r9, %rdx
	cmpq	$2, %rcx
	je	.Lunix_path_BB5_138
	cmpb	$47, -3(%r12,%rcx)
	movq	%r9, %rdx
	je	.Lunix_path_BB5_138
.Lunix_path_BB5_130:
	leaq	1(%rcx), %rax
	movq	%rcx, %rbx
	.p2align	4
.Lunix_path_BB5_131:
	cmpq	$15, %rbx
	jbe	.Lunix_path_BB5_134
	movdqu	-16(%r12,%rbx), %xmm0
	pcmpeqb	.Lunix_path_CPI5_0(%rip), %xmm0
	addq	$-16, %rbx
	pmovmskb	%xmm0, %edx
	addq	$-16, %rax
	testl	%edx, %edx
	je	.Lunix_path_BB5_131
	movzwl	%dx, %eax
	bsrq	%rax, %rax
	xorq	$63, %rax
	subq	%rax, %rbx
	addq	$64, %rbx
	jmp	.Lunix_path_BB5_136
	.p2align	4
.Lunix_path_BB5_134:
	cmpq	$1, %rax
	je	.Lunix_path_BB5_137
	leaq	-1(%rax), %rbx
	cmpb	$47, -2(%r12,%rax)
	movq	%rbx, %rax
	jne	.Lunix_path_BB5_134
.Lunix_path_BB5_136:
	cmpq	%rcx, %rbx
	jne	.Lunix_path_BB5_159
.Lunix_path_BB5_137:
	xorl	%edx, %edx
.Lunix_path_BB5_138:
	testq	%r8, %r8
	je	.Lunix_path_BB5_141
.Lunix_path_BB5_139:
	xorl	%r13d, %r13d
	movl	$0, %edi
	movl	$0, %ebx
	testq	%rdx, %rdx
	je	.Lunix_path_BB5_143
	cmpb	$47, (%rbp)
	jne	.Lunix_path_BB5_142
	jmp	.Lunix_path_BB5_143
.Lunix_path_BB5_141:
	testq	%rdx, %rdx
	je	.Lunix_path_BB5_156
.Lunix_path_BB5_142:
	xorl	%eax, %eax
	cmpb	$47, -1(%r12,%rdx)
	setne	%bl
	movl	$47, %edi
	cmovel	%eax, %edi
	movq	%rdx, %r13
.Lunix_path_BB5_143:
	movzbl	%bl, %eax
	addq	%r13, %rax
	addq	%r8, %rax
	xorl	%esi, %esi
	subq	%r9, %rax
	cmovaeq	%rax, %rsi
	movq	24(%rsp), %rax
	subq	%r9, %rax
	cmpq	%rax, %rsi
	ja	.Lunix_path_BB5_192
	cmpq	%r13, %r9
	jbe	.Lunix_path_BB5_146
.Lunix_path_BB5_145:
	movq	%r13, 16(%rsp)
	movq	%r13, %r9
.Lunix_path_BB5_146:
	movq	24(%rsp), %r10
	testb	%bl, %bl
	je	.Lunix_path_BB5_149
	cmpq	%r9, %r10
	je	.Lunix_path_BB5_216
.Lunix_path_BB5_148:
	movq	8(%rsp), %rax
	movb	%dil, (%rax,%r9)
	incq	%r9
	movq	%rax, 8(%rsp)
	movq	%r9, 16(%rsp)
	movq	%r10, 24(%rsp)
.Lunix_path_BB5_149:
	movq	%r10, %rax
	subq	%r9, %rax
	cmpq	%rax, %r8
	ja	.Lunix_path_BB5_194
.Lunix_path_BB5_150:
	movq	8(%rsp), %r12
	pxor	%xmm0, %xmm0
	leaq	16(%rsp), %rax
	movdqu	%xmm0, (%rax)
	leaq	(%r12,%r9), %rdi
	movq	%rdi, %rax
	subq	%rbp, %rax
	cmpq	%r8, %rax
	jae	.Lunix_path_BB5_153
	cmpq	$4, %r8
	movq	32(%rsp), %r13
	jb	.Lunix_path_BB5_152
	cmpq	$32, %rax
	jae	.Lunix_path_BB5_157
.Lunix_path_BB5_152:
	xorl	%eax, %eax
.Lunix_path_BB5_174:
	movq	%r8, %rdx
	movq	%rax, %rcx
	andq	$3, %rdx
	je	.Lunix_path_BB5_177
	movq	%rax, %rcx
	.p2align	4
.Lunix_path_BB5_176:
	movzbl	(%rbp,%rcx), %esi
	movb	%sil, (%rdi,%rcx)
	incq	%rcx
	decq	%rdx
	jne	.Lunix_path_BB5_176
.Lunix_path_BB5_177:
	subq	%r8, %rax
	cmpq	$-4, %rax
	ja	.Lunix_path_BB5_180
	leaq	(%r12,%r9), %rax
	addq	$3, %rax
	.p2align	4
.Lunix_path_BB5_179:
	movzbl	(%rbp,%rcx), %edx
	movb	%dl, -3(%rax,%rcx)
	movzbl	1(%rbp,%rcx), %edx
	movb	%dl, -2(%rax,%rcx)
	movzbl	2(%rbp,%rcx), %edx
	movb	%dl, -1(%rax,%rcx)
	movzbl	3(%rbp,%rcx), %edx
	movb	%dl, (%rax,%rcx)
	addq	$4, %rcx
	cmpq	%rcx, %r8
	jne	.Lunix_path_BB5_179
	jmp	.Lunix_path_BB5_180
.Lunix_path_BB5_153:
	movq	%rbp, %rsi
	movq	%r8, %rdx
	movq	%r9, %rbx
	movq	%r10, %r13
	callq	memmove@PLT
	movq	%r13, %r10
	movq	%rbx, %r9
	movq	40(%rsp), %r8
	movq	32(%rsp), %r13
.Lunix_path_BB5_180:
	addq	%r8, %r9
	movq	%r12, 8(%rsp)
	movq	%r9, 16(%rsp)
	movq	%r10, 24(%rsp)
	movq	88(%rsp), %rax
	movq	352(%rsp), %rcx
	movq	%rax, %rdx
	orq	%rcx, %rdx
	je	.Lunix_path_BB5_181
	incq	%r8
	xorl	%edx, %edx
	subq	%r8, %r9
	cmovaeq	%r9, %rdx
	cmpq	96(%rsp,%rcx,8), %rdx
	movq	56(%rsp), %rbp
	jae	.Lunix_path_BB5_185
	decq	%rcx
	.p2align	4
.Lunix_path_BB5_184:
	movq	%rcx, 352(%rsp)
	cmpq	96(%rsp,%rcx,8), %rdx
	leaq	-1(%rcx), %rcx
	jb	.Lunix_path_BB5_184
.Lunix_path_BB5_185:
	cmpq	%rax, %rdx
	jb	.Lunix_path_BB5_62
	jmp	.Lunix_path_BB5_63
.Lunix_path_BB5_156:
	xorl	%r13d, %r13d
	xorl	%ebx, %ebx
	xorl	%edi, %edi
	jmp	.Lunix_path_BB5_143
.Lunix_path_BB5_157:
	cmpq	$32, %r8
	jae	.Lunix_path_BB5_167
	xorl	%eax, %eax
	jmp	.Lunix_path_BB5_171
.Lunix_path_BB5_159:
	movq	%rbx, %rdx
	movq	%rbx, %rax
	jmp	.Lunix_path_BB5_161
	.p2align	4
.Lunix_path_BB5_160:
	movq	%rax, %rdx
	testq	%rax, %rax
	je	.Lunix_path_BB5_137
.Lunix_path_BB5_161:
	decq	%rax
	je	.Lunix_path_BB5_213
	movzbl	(%r12,%rax), %ecx
	cmpl	$47, %ecx
	je	.Lunix_path_BB5_165
	cmpl	$46, %ecx
	jne	.Lunix_path_BB5_138
	cmpb	$47, -1(%r12,%rax)
	jne	.Lunix_path_BB5_138
.Lunix_path_BB5_165:
	movq	%rbx, %rcx
	subq	%rax, %rcx
	cmpq	$8, %rcx
	jne	.Lunix_path_BB5_160
	movq	%r12, %rdi
	xorl	%esi, %esi
	movq	%rax, %rdx
	callq	unix_path.filler.trimmed_blocks_len
	movq	%r13, %r9
	movq	40(%rsp), %r8
	jmp	.Lunix_path_BB5_160
.Lunix_path_BB5_167:
	movq	%r8, %rax
	andq	$-32, %rax
	leaq	(%r12,%r9), %rcx
	addq	$16, %rcx
	xorl	%edx, %edx
	.p2align	4
.Lunix_path_BB5_168:
	movdqu	(%rbp,%rdx), %xmm0
	movups	16(%rbp,%rdx), %xmm1
	movdqu	%xmm0, -16(%rcx,%rdx)
	movups	%xmm1, (%rcx,%rdx)
	addq	$32, %rdx
	cmpq	%rdx, %rax
	jne	.Lunix_path_BB5_168
	cmpq	%rax, %r8
	je	.Lunix_path_BB5_180
	testb	$28, %r8b
	je	.Lunix_path_BB5_174
.Lunix_path_BB5_171:
	movq	%rax, %rcx
	movq	%r8, %rax
	andq	$-4, %rax
	.p2align	4
.Lunix_path_BB5_172:
	movl	(%rbp,%rcx), %edx
	movl	%edx, (%rdi,%rcx)
	addq	$4, %rcx
	cmpq	%rcx, %rax
	jne	.Lunix_path_BB5_172
	cmpq	%rax, %r8
	je	.Lunix_path_BB5_180
	jmp	.Lunix_path_BB5_174
.Lunix_path_BB5_186:
	leaq	1(%r8), %rsi
	movq	24(%rsp), %rbx
	movq	%rbx, %rax
	subq	%r9, %rax
	cmpq	%rax, %rsi
	ja	.Lunix_path_BB5_279
	cmpq	%r9, %rbx
	je	.Lunix_path_BB5_281
.Lunix_path_BB5_188:
	movq	8(%rsp), %r12
	movb	$47, (%r12,%r9)
	incq	%r9
	movq	%r12, 8(%rsp)
	movq	%r9, 16(%rsp)
	movq	%rbx, 24(%rsp)
	movq	%rbx, %rax
	subq	%r9, %rax
	cmpq	%rax, %r8
	ja	.Lunix_path_BB5_283
.Lunix_path_BB5_189:
	pxor	%xmm0, %xmm0
	leaq	16(%rsp), %rax
	movdqu	%xmm0, (%rax)
	leaq	(%r12,%r9), %rdi
	movq	%rdi, %rax
	subq	%rbp, %rax
	cmpq	%r8, %rax
	jae	.Lunix_path_BB5_196
	cmpq	$4, %r8
	movq	32(%rsp), %r13
	jb	.Lunix_path_BB5_191
	cmpq	$32, %rax
	jae	.Lunix_path_BB5_249
.Lunix_path_BB5_191:
	xorl	%eax, %eax
.Lunix_path_BB5_271:
	movq	%r8, %rdx
	movq	%rax, %rcx
	andq	$3, %rdx
	je	.Lunix_path_BB5_274
	movq	%rax, %rcx
.Lunix_path_BB5_273:
	movzbl	(%rbp,%rcx), %esi
	movb	%sil, (%rdi,%rcx)
	incq	%rcx
	decq	%rdx
	jne	.Lunix_path_BB5_273
.Lunix_path_BB5_274:
	subq	%r8, %rax
	cmpq	$-4, %rax
	ja	.Lunix_path_BB5_197
	leaq	(%r12,%r9), %rax
	addq	$3, %rax
.Lunix_path_BB5_276:
	movzbl	(%rbp,%rcx), %edx
	movb	%dl, -3(%rax,%rcx)
	movzbl	1(%rbp,%rcx), %edx
	movb	%dl, -2(%rax,%rcx)
	movzbl	2(%rbp,%rcx), %edx
	movb	%dl, -1(%rax,%rcx)
	movzbl	3(%rbp,%rcx), %edx
	movb	%dl, (%rax,%rcx)
	addq	$4, %rcx
	cmpq	%rcx, %r8
	jne	.Lunix_path_BB5_276
	jmp	.Lunix_path_BB5_197
.Lunix_path_BB5_192:
	movq	%rdi, %r12
	leaq	8(%rsp), %rdi
	callq	std_alloc.vec.Vec.grow_amortized.2c3341b61b28ed12.
	testb	%al, %al
	je	.Lunix_path_BB5_295
	movq	16(%rsp), %r9
	movq	40(%rsp), %r8
	movq	%r12, %rdi
	cmpq	%r13, %r9
	ja	.Lunix_path_BB5_145
	jmp	.Lunix_path_BB5_146
.Lunix_path_BB5_194:
	leaq	8(%rsp), %rdi
	movq	%r8, %rsi
	callq	std_alloc.vec.Vec.grow_amortized.2c3341b61b28ed12.
	testb	%al, %al
	je	.Lunix_path_BB5_295
	movq	16(%rsp), %r9
	movq	24(%rsp), %r10
	movq	40(%rsp), %r8
	jmp	.Lunix_path_BB5_150
.Lunix_path_BB5_198:
	movq	%r12, %rax
	andq	$-32, %rax
	leaq	(%rbx,%rbp), %rcx
	addq	$16, %rcx
	xorl	%edx, %edx
	.p2align	4
.Lunix_path_BB5_199:
	movdqu	(%rsi,%rdx), %xmm0
	movups	16(%rsi,%rdx), %xmm1
	movdqu	%xmm0, -16(%rcx,%rdx)
	movups	%xmm1, (%rcx,%rdx)
	addq	$32, %rdx
	cmpq	%rdx, %rax
	jne	.Lunix_path_BB5_199
	cmpq	%rax, %r12
	je	.Lunix_path_BB5_28
	testb	$28, %r12b
	je	.Lunix_path_BB5_205
.Lunix_path_BB5_202:
	movq	%rax, %rcx
	movq	%r12, %rax
	andq	$-4, %rax
	.p2align	4
.Lunix_path_BB5_203:
	movl	(%rsi,%rcx), %edx
	movl	%edx, (%rdi,%rcx)
	addq	$4, %rcx
	cmpq	%rcx, %rax
	jne	.Lunix_path_BB5_203
	cmpq	%rax, %r12
	je	.Lunix_path_BB5_28
	jmp	.Lunix_path_BB5_205
.Lunix_path_BB5_211:
	movq	%rsi, %rbp
	leaq	8(%rsp), %rdi
	movq	%r12, %rsi
	callq	std_alloc.vec.Vec.grow_amortized.2c3341b61b28ed12.
	testb	%al, %al
	je	.Lunix_path_BB5_295
	movq	16(%rsp), %rbx
	movq	24(%rsp), %r13
	movq	%rbp, %rsi
	jmp	.Lunix_path_BB5_67
.Lunix_path_BB5_213:
	movl	$1, %edx
	testq	%r8, %r8
	jne	.Lunix_path_BB5_139
	jmp	.Lunix_path_BB5_142
.Lunix_path_BB5_214:
	cmpq	$32, %r12
	jae	.Lunix_path_BB5_220
	xorl	%eax, %eax
	jmp	.Lunix_path_BB5_224
.Lunix_path_BB5_216:
	movq	%rdi, %rbx
	leaq	8(%rsp), %rdi
	movl	$1, %esi
	callq	std_alloc.vec.Vec.grow_amortized.2c3341b61b28ed12.
	testb	%al, %al
	je	.Lunix_path_BB5_295
	movq	16(%rsp), %r9
	movq	24(%rsp), %r10
	movq	40(%rsp), %r8
	movq	%rbx, %rdi
	jmp	.Lunix_path_BB5_148
.Lunix_path_BB5_218:
	movl	$1, %ecx
	movl	$1, %edx
	jmp	.Lunix_path_BB5_244
.Lunix_path_BB5_219:
	movq	80(%rsp), %rdx
	xorl	%ecx, %ecx
	jmp	.Lunix_path_BB5_244
.Lunix_path_BB5_220:
	movq	%r12, %rax
	andq	$-32, %rax
	leaq	(%rbx,%rbp), %rcx
	addq	$16, %rcx
	xorl	%edx, %edx
.Lunix_path_BB5_221:
	movdqu	(%rsi,%rdx), %xmm0
	movups	16(%rsi,%rdx), %xmm1
	movdqu	%xmm0, -16(%rcx,%rdx)
	movups	%xmm1, (%rcx,%rdx)
	addq	$32, %rdx
	cmpq	%rdx, %rax
	jne	.Lunix_path_BB5_221
	cmpq	%rax, %r12
	je	.Lunix_path_BB5_28
	testb	$28, %r12b
	je	.Lunix_path_BB5_227
.Lunix_path_BB5_224:
	movq	%rax, %rcx
	movq	%r12, %rax
	andq	$-4, %rax
	.p2align	4
.Lunix_path_BB5_225:
	movl	(%rsi,%rcx), %edx
	movl	%edx, (%rdi,%rcx)
	addq	$4, %rcx
	cmpq	%rcx, %rax
	jne	.Lunix_path_BB5_225
	cmpq	%rax, %r12
	je	.Lunix_path_BB5_28
	jmp	.Lunix_path_BB5_227
.Lunix_path_BB5_233:
	movq	%rsi, %rbp
	leaq	8(%rsp), %rdi
	movq	%rax, %rsi
	callq	std_alloc.vec.Vec.grow_amortized.2c3341b61b28ed12.
	testb	%al, %al
	je	.Lunix_path_BB5_295
	movq	16(%rsp), %rbx
	movq	24(%rsp), %r13
	movq	%rbp, %rsi
	cmpq	%rbx, %r13
	jne	.Lunix_path_BB5_87
.Lunix_path_BB5_235:
	movq	%rsi, %rbp
	leaq	8(%rsp), %rdi
	movl	$1, %esi
	callq	std_alloc.vec.Vec.grow_amortized.2c3341b61b28ed12.
	testb	%al, %al
	je	.Lunix_path_BB5_295
	movq	16(%rsp), %rbx
	movq	24(%rsp), %r13
	movq	%rbp, %rsi
	jmp	.Lunix_path_BB5_87
.Lunix_path_BB5_237:
	movq	%rsi, 40(%rsp)
	leaq	8(%rsp), %rdi
	movq	%r12, %rsi
	callq	std_alloc.vec.Vec.grow_amortized.2c3341b61b28ed12.
	testb	%al, %al
	je	.Lunix_path_BB5_295
	movq	8(%rsp), %rbp
	movq	16(%rsp), %rbx
	movq	24(%rsp), %r13
	movq	40(%rsp), %rsi
	jmp	.Lunix_path_BB5_88
.Lunix_path_BB5_243:
	movq	%rcx, %rdx
.Lunix_path_BB5_244:
	movq	%r12, %rax
	subq	%rcx, %rax
	cmpq	$16, %rax
	jb	.Lunix_path_BB5_246
	movq	%rdx, 80(%rsp)
	movq	%r12, 88(%rsp)
.Lunix_path_BB5_246:
	xorl	%edx, %edx
	jmp	.Lunix_path_BB5_31
.Lunix_path_BB5_247:
	cmpq	$32, %r8
	jae	.Lunix_path_BB5_251
	xorl	%eax, %eax
	jmp	.Lunix_path_BB5_255
.Lunix_path_BB5_249:
	cmpq	$32, %r8
	jae	.Lunix_path_BB5_264
	xorl	%eax, %eax
	jmp	.Lunix_path_BB5_268
.Lunix_path_BB5_251:
	movq	%r8, %rax
	andq	$-32, %rax
	leaq	(%r12,%r9), %rcx
	addq	$16, %rcx
	xorl	%edx, %edx
.Lunix_path_BB5_252:
	movdqu	(%rbp,%rdx), %xmm0
	movups	16(%rbp,%rdx), %xmm1
	movdqu	%xmm0, -16(%rcx,%rdx)
	movups	%xmm1, (%rcx,%rdx)
	addq	$32, %rdx
	cmpq	%rdx, %rax
	jne	.Lunix_path_BB5_252
	cmpq	%rax, %r8
	je	.Lunix_path_BB5_197
	testb	$28, %r8b
	je	.Lunix_path_BB5_258
.Lunix_path_BB5_255:
	movq	%rax, %rcx
	movq	%r8, %rax
	andq	$-4, %rax
.Lunix_path_BB5_256:
	movl	(%rbp,%rcx), %edx
	movl	%edx, (%rdi,%rcx)
	addq	$4, %rcx
	cmpq	%rcx, %rax
	jne	.Lunix_path_BB5_256
	cmpq	%rax, %r8
	je	.Lunix_path_BB5_197
	jmp	.Lunix_path_BB5_258
.Lunix_path_BB5_264:
	movq	%r8, %rax
	andq	$-32, %rax
	leaq	(%r12,%r9), %rcx
	addq	$16, %rcx
	xorl	%edx, %edx
.Lunix_path_BB5_265:
	movdqu	(%rbp,%rdx), %xmm0
	movups	16(%rbp,%rdx), %xmm1
	movdqu	%xmm0, -16(%rcx,%rdx)
	movups	%xmm1, (%rcx,%rdx)
	addq	$32, %rdx
	cmpq	%rdx, %rax
	jne	.Lunix_path_BB5_265
	cmpq	%rax, %r8
	je	.Lunix_path_BB5_197
	testb	$28, %r8b
	je	.Lunix_path_BB5_271
.Lunix_path_BB5_268:
	movq	%rax, %rcx
	movq	%r8, %rax
	andq	$-4, %rax
.Lunix_path_BB5_269:
	movl	(%rbp,%rcx), %edx
	movl	%edx, (%rdi,%rcx)
	addq	$4, %rcx
	cmpq	%rcx, %rax
	jne	.Lunix_path_BB5_269
	cmpq	%rax, %r8
	je	.Lunix_path_BB5_197
	jmp	.Lunix_path_BB5_271
.Lunix_path_BB5_277:
	leaq	8(%rsp), %rdi
	movq	%r8, %rsi
	callq	std_alloc.vec.Vec.grow_amortized.2c3341b61b28ed12.
	testb	%al, %al
	je	.Lunix_path_BB5_295
	movq	8(%rsp), %r12
	movq	16(%rsp), %r9
	movq	24(%rsp), %rbx
	movq	40(%rsp), %r8
	jmp	.Lunix_path_BB5_124
.Lunix_path_BB5_279:
	leaq	8(%rsp), %rdi
	callq	std_alloc.vec.Vec.grow_amortized.2c3341b61b28ed12.
	testb	%al, %al
	je	.Lunix_path_BB5_295
	movq	16(%rsp), %r9
	movq	24(%rsp), %rbx
	movq	40(%rsp), %r8
	cmpq	%r9, %rbx
	jne	.Lunix_path_BB5_188
.Lunix_path_BB5_281:
	leaq	8(%rsp), %rdi
	movl	$1, %esi
	callq	std_alloc.vec.Vec.grow_amortized.2c3341b61b28ed12.
	testb	%al, %al
	je	.Lunix_path_BB5_295
	movq	16(%rsp), %r9
	movq	24(%rsp), %rbx
	movq	40(%rsp), %r8
	jmp	.Lunix_path_BB5_188
.Lunix_path_BB5_283:
	leaq	8(%rsp), %rdi
	movq	%r8, %rsi
	callq	std_alloc.vec.Vec.grow_amortized.2c3341b61b28ed12.
	testb	%al, %al
	je	.Lunix_path_BB5_295
	movq	8(%rsp), %r12
	movq	16(%rsp), %r9
	movq	24(%rsp), %rbx
	movq	40(%rsp), %r8
	jmp	.Lunix_path_BB5_189
.Lunix_path_BB5_285:
	movq	8(%rsp), %r13
	movq	16(%rsp), %r12
.Lunix_path_BB5_286:
	movq	8(%r14), %rax
	movq	16(%r14), %rbp
	movq	%rbp, %rcx
	subq	%rax, %rcx
	cmpq	%rcx, %r12
	ja	.Lunix_path_BB5_339
.Lunix_path_BB5_287:
	leaq	8(%r14), %rcx
	leaq	(%rax,%r12), %r15
	movq	(%r14), %rbx
	pxor	%xmm0, %xmm0
	movdqu	%xmm0, (%rcx)
	leaq	(%rbx,%rax), %rdi
	movq	%rdi, %rcx
	subq	%r13, %rcx
	cmpq	%r12, %rcx
	jae	.Lunix_path_BB5_290
	cmpq	$4, %r12
	jb	.Lunix_path_BB5_289
	cmpq	$32, %rcx
	jae	.Lunix_path_BB5_293
.Lunix_path_BB5_289:
	xorl	%ecx, %ecx
.Lunix_path_BB5_307:
	movq	%r12, %rsi
	movq	%rcx, %rdx
	andq	$3, %rsi
	je	.Lunix_path_BB5_310
	movq	%rcx, %rdx
	.p2align	4
.Lunix_path_BB5_309:
	movzbl	(%r13,%rdx), %r8d
	movb	%r8b, (%rdi,%rdx)
	incq	%rdx
	decq	%rsi
	jne	.Lunix_path_BB5_309
.Lunix_path_BB5_310:
	subq	%r12, %rcx
	cmpq	$-4, %rcx
	ja	.Lunix_path_BB5_313
	addq	%rbx, %rax
	addq	$3, %rax
	.p2align	4
.Lunix_path_BB5_312:
	movzbl	(%r13,%rdx), %ecx
	movb	%cl, -3(%rax,%rdx)
	movzbl	1(%r13,%rdx), %ecx
	movb	%cl, -2(%rax,%rdx)
	movzbl	2(%r13,%rdx), %ecx
	movb	%cl, -1(%rax,%rdx)
	movzbl	3(%r13,%rdx), %ecx
	movb	%cl, (%rax,%rdx)
	addq	$4, %rdx
	cmpq	%rdx, %r12
	jne	.Lunix_path_BB5_312
	jmp	.Lunix_path_BB5_313
.Lunix_path_BB5_290:
	movq	%r13, %rsi
	movq	%r12, %rdx
	callq	memmove@PLT
.Lunix_path_BB5_313:
	movq	%rbx, (%r14)
	movq	%r15, 8(%r14)
	movq	%rbp, 16(%r14)
	cmpq	$0, 56(%rsp)
	je	.Lunix_path_BB5_338
	xorl	%r13d, %r13d
	jmp	.Lunix_path_BB5_317
	.p2align	4
.Lunix_path_BB5_315:
	movq	%r12, %rdx
	callq	memcpy@PLT
.Lunix_path_BB5_316:
	addq	%r12, %r15
	movq	%rbx, (%r14)
	movq	%r15, 8(%r14)
	movq	%rbp, 16(%r14)
	incq	%r13
	cmpq	56(%rsp), %r13
	je	.Lunix_path_BB5_336
.Lunix_path_BB5_317:
	cmpq	%r15, %rbp
	je	.Lunix_path_BB5_332
.Lunix_path_BB5_318:
	movb	$9, (%rbx,%r15)
	incq	%r15
	leaq	8(%r14), %rax
	movq	%r15, (%rax)
	movq	64(%rsp), %rax
	movzbl	(%rax,%r13,2), %eax
	testl	%eax, %eax
	je	.Lunix_path_BB5_321
	cmpl	$2, %eax
	jne	.Lunix_path_BB5_322
	leaq	.Lunix_path_static.31(%rip), %rsi
	movl	$9, %r12d
	jmp	.Lunix_path_BB5_323
	.p2align	4
.Lunix_path_BB5_321:
	leaq	.Lunix_path_static.28(%rip), %rsi
	movl	$2, %r12d
	jmp	.Lunix_path_BB5_323
	.p2align	4
.Lunix_path_BB5_322:
	movq	64(%rsp), %rax
	movzbl	1(%rax,%r13,2), %r12d
	movl	%r12d, %eax
	andl	$1, %r12d
	xorq	$5, %r12
	leaq	.Lunix_path_static.29(%rip), %rcx
	leaq	.Lunix_path_static.30(%rip), %rsi
	testb	$1, %al
	cmovneq	%rcx, %rsi
.Lunix_path_BB5_323:
	movq	16(%r14), %rbp
	movq	%rbp, %rax
	subq	%r15, %rax
	cmpq	%rax, %r12
	ja	.Lunix_path_BB5_334
.Lunix_path_BB5_324:
	movq	(%r14), %rbx
	leaq	(%rbx,%r15), %rdi
	movq	%rdi, %rax
	subq	%rsi, %rax
	cmpq	%r12, %rax
	jae	.Lunix_path_BB5_315
	movl	%r12d, %eax
	andl	$3, %eax
	cmpq	$4, %r12
	jae	.Lunix_path_BB5_327
	xorl	%ecx, %ecx
	jmp	.Lunix_path_BB5_330
	.p2align	4
.Lunix_path_BB5_327:
	movl	%r12d, %edx
	andl	$-4, %edx
	leaq	(%rbx,%r15), %rdi
	addq	$3, %rdi
	xorl	%ecx, %ecx
	.p2align	4
.Lunix_path_BB5_328:
	movl	(%rsi,%rcx), %r8d
	movl	%r8d, -3(%rdi,%rcx)
	addq	$4, %rcx
	cmpq	%rcx, %rdx
	jne	.Lunix_path_BB5_328
	testq	%rax, %rax
	je	.Lunix_path_BB5_316
.Lunix_path_BB5_330:
	addq	%rcx, %rsi
	addq	%r15, %rcx
	addq	%rbx, %rcx
	xorl	%edx, %edx
	.p2align	4
.Lunix_path_BB5_331:
	movzbl	(%rsi,%rdx), %edi
	movb	%dil, (%rcx,%rdx)
	incq	%rdx
	cmpq	%rdx, %rax
	jne	.Lunix_path_BB5_331
	jmp	.Lunix_path_BB5_316
.Lunix_path_BB5_332:
	movl	$1, %esi
	movq	%r14, %rdi
	callq	std_alloc.vec.Vec.grow_amortized.307f257cf2d167af.
	testb	%al, %al
	je	.Lunix_path_BB5_342
	movq	(%r14), %rbx
	movq	8(%r14), %r15
	jmp	.Lunix_path_BB5_318
.Lunix_path_BB5_334:
	movq	%rsi, %rbx
	movq	%r14, %rdi
	movq	%r12, %rsi
	callq	std_alloc.vec.Vec.grow_amortized.307f257cf2d167af.
	testb	%al, %al
	je	.Lunix_path_BB5_342
	movq	8(%r14), %r15
	movq	16(%r14), %rbp
	movq	%rbx, %rsi
	jmp	.Lunix_path_BB5_324
.Lunix_path_BB5_336:
	xorl	%ebp, %ebp
.Lunix_path_BB5_337:
	movq	64(%rsp), %rdi
	callq	rattle_dealloc@PLT
	cmpq	$0, 24(%rsp)
	jne	.Lunix_path_BB5_298
	jmp	.Lunix_path_BB5_299
.Lunix_path_BB5_338:
	xorl	%ebp, %ebp
	cmpq	$0, 24(%rsp)
	jne	.Lunix_path_BB5_298
	jmp	.Lunix_path_BB5_299
.Lunix_path_BB5_293:
	cmpq	$32, %r12
	jae	.Lunix_path_BB5_300
	xorl	%ecx, %ecx
	jmp	.Lunix_path_BB5_304
.Lunix_path_BB5_295:
	movq	64(%rsp), %rdi
	callq	rattle_dealloc@PLT
.Lunix_path_BB5_296:
	movq	24(%rsp), %r12
.Lunix_path_BB5_297:
	movb	$1, %bpl
	testq	%r12, %r12
	je	.Lunix_path_BB5_299
.Lunix_path_BB5_298:
	movq	8(%rsp), %rdi
	callq	rattle_dealloc@PLT
.Lunix_path_BB5_299:
	movl	%ebp, %eax
	addq	$360, %rsp
	popq	%rbx
	popq	%r12
	popq	%r13
	popq	%r14
	popq	%r15
	popq	%rbp
	retq
.Lunix_path_BB5_342:
	movb	$1, %bpl
	jmp	.Lunix_path_BB5_337
.Lunix_path_BB5_300:
	movq	%r12, %rcx
	andq	$-32, %rcx
	leaq	(%rax,%rbx), %rdx
	addq	$16, %rdx
	xorl	%esi, %esi
	.p2align	4
.Lunix_path_BB5_301:
	movdqu	(%r13,%rsi), %xmm0
	movups	16(%r13,%rsi), %xmm1
	movdqu	%xmm0, -16(%rdx,%rsi)
	movups	%xmm1, (%rdx,%rsi)
	addq	$32, %rsi
	cmpq	%rsi, %rcx
	jne	.Lunix_path_BB5_301
	cmpq	%rcx, %r12
	je	.Lunix_path_BB5_313
	testb	$28, %r12b
	je	.Lunix_path_BB5_307
.Lunix_path_BB5_304:
	movq	%rcx, %rdx
	movq	%r12, %rcx
	andq	$-4, %rcx
	.p2align	4
.Lunix_path_BB5_305:
	movl	(%r13,%rdx), %esi
	movl	%esi, (%rdi,%rdx)
	addq	$4, %rdx
	cmpq	%rdx, %rcx
	jne	.Lunix_path_BB5_305
	cmpq	%rcx, %r12
	je	.Lunix_path_BB5_313
	jmp	.Lunix_path_BB5_307
.Lunix_path_BB5_339:
	movq	%r14, %rdi
	movq	%r12, %rsi
	callq	std_alloc.vec.Vec.grow_amortized.307f257cf2d167af.
	testb	%al, %al
	je	.Lunix_path_BB5_343
	movq	8(%r14), %rax
	movq	16(%r14), %rbp
	jmp	.Lunix_path_BB5_287
.Lunix_path_BB5_343:
	cmpq	$0, 56(%rsp)
	je	.Lunix_path_BB5_345
	movq	64(%rsp), %rdi
	callq	rattle_dealloc@PLT
.Lunix_path_BB5_345:
	movb	$1, %bpl
	cmpq	$0, 24(%rsp)
	jne	.Lunix_path_BB5_298
	jmp	.Lunix_path_BB5_299
.Lunix_path_func_end5:
	.size	pathtool.edits.push_edited, .Lunix_path_func_end5-pathtool.edits.push_edited
	.section	.rodata.pathtool.edits.push_edited,"a",@progbits
	.p2align	2, 0x0
.Lunix_path_JTI5_0:
	.long	.Lunix_path_BB5_34-.Lunix_path_JTI5_0
	.long	.Lunix_path_BB5_55-.Lunix_path_JTI5_0
	.long	.Lunix_path_BB5_38-.Lunix_path_JTI5_0
	.long	.Lunix_path_BB5_52-.Lunix_path_JTI5_0
	.long	.Lunix_path_BB5_37-.Lunix_path_JTI5_0
	.long	.Lunix_path_BB5_59-.Lunix_path_JTI5_0
	.section	.text.unix_path.buf.PathBuf.replace,"ax",@progbits
	.p2align	4
	.type	unix_path.buf.PathBuf.replace,@function
# unix_path::buf::PathBuf::replace
unix_path.buf.PathBuf.replace:
	pushq	%r15
	pushq	%r14
	pushq	%r13
	pushq	%r12
	pushq	%rbx
	movq	%rdi, %rbx
	leaq	8(%rdi), %r13
	movq	8(%rdi), %rcx
	movq	16(%rdi), %rdi
	xorl	%eax, %eax
	movq	%rdx, %r8
	subq	%rcx, %r8
	cmovaeq	%r8, %rax
	subq	%rcx, %rdi
	cmpq	%rdi, %rax
	ja	.Lunix_path_BB6_28
	testq	%rcx, %rcx
	je	.Lunix_path_BB6_3
.Lunix_path_BB6_2:
	movq	$0, (%r13)
.Lunix_path_BB6_3:
	movq	16(%rbx), %r14
	cmpq	%r14, %rdx
	ja	.Lunix_path_BB6_30
	xorl	%eax, %eax
.Lunix_path_BB6_5:
	leaq	(%rax,%rdx), %r15
	movq	(%rbx), %r12
	xorps	%xmm0, %xmm0
	movups	%xmm0, (%r13)
	leaq	(%r12,%rax), %rdi
	movq	%rdi, %rcx
	subq	%rsi, %rcx
	cmpq	%rdx, %rcx
	jae	.Lunix_path_BB6_8
	cmpq	$4, %rdx
	jb	.Lunix_path_BB6_7
	cmpq	$32, %rcx
	jae	.Lunix_path_BB6_11
.Lunix_path_BB6_7:
	xorl	%ecx, %ecx
.Lunix_path_BB6_20:
	movq	%rdx, %r9
	movq	%rcx, %r8
	andq	$3, %r9
	je	.Lunix_path_BB6_23
	movq	%rcx, %r8
	.p2align	4
.Lunix_path_BB6_22:
	movzbl	(%rsi,%r8), %r10d
	movb	%r10b, (%rdi,%r8)
	incq	%r8
	decq	%r9
	jne	.Lunix_path_BB6_22
.Lunix_path_BB6_23:
	subq	%rdx, %rcx
	cmpq	$-4, %rcx
	ja	.Lunix_path_BB6_26
	addq	%r12, %rax
	addq	$3, %rax
	.p2align	4
.Lunix_path_BB6_25:
	movzbl	(%rsi,%r8), %ecx
	movb	%cl, -3(%rax,%r8)
	movzbl	1(%rsi,%r8), %ecx
	movb	%cl, -2(%rax,%r8)
	movzbl	2(%rsi,%r8), %ecx
	movb	%cl, -1(%rax,%r8)
	movzbl	3(%rsi,%r8), %ecx
	movb	%cl, (%rax,%r8)
	addq	$4, %r8
	cmpq	%r8, %rdx
	jne	.Lunix_path_BB6_25
	jmp	.Lunix_path_BB6_26
.Lunix_path_BB6_8:
	callq	memmove@PLT
.Lunix_path_BB6_26:
	movq	%r12, (%rbx)
	movq	%r15, 8(%rbx)
	movq	%r14, 16(%rbx)
	xorl	%eax, %eax
.Lunix_path_BB6_27:
	popq	%rbx
	popq	%r12
	popq	%r13
	popq	%r14
	popq	%r15
	retq
.Lunix_path_BB6_11:
	cmpq	$32, %rdx
	jae	.Lunix_path_BB6_13
	xorl	%ecx, %ecx
	jmp	.Lunix_path_BB6_17
.Lunix_path_BB6_13:
	movq	%rdx, %rcx
	andq	$-32, %rcx
	leaq	(%rax,%r12), %r8
	addq	$16, %r8
	xorl	%r9d, %r9d
	.p2align	4
.Lunix_path_BB6_14:
	movups	(%rsi,%r9), %xmm0
	movups	16(%rsi,%r9), %xmm1
	movups	%xmm0, -16(%r8,%r9)
	movups	%xmm1, (%r8,%r9)
	addq	$32, %r9
	cmpq	%r9, %rcx
	jne	.Lunix_path_BB6_14
	cmpq	%rcx, %rdx
	je	.Lunix_path_BB6_26
	testb	$28, %dl
	je	.Lunix_path_BB6_20
.Lunix_path_BB6_17:
	movq	%rcx, %r8
	movq	%rdx, %rcx
	andq	$-4, %rcx
	.p2align	4
.Lunix_path_BB6_18:
	movl	(%rsi,%r8), %r9d
	movl	%r9d, (%rdi,%r8)
	addq	$4, %r8
	cmpq	%r8, %rcx
	jne	.Lunix_path_BB6_18
	cmpq	%rcx, %rdx
	je	.Lunix_path_BB6_26
	jmp	.Lunix_path_BB6_20
.Lunix_path_BB6_28:
	movq	%rsi, %r14
	movq	%rdx, %r15
	movq	%rbx, %rdi
	movq	%rax, %rsi
	callq	std_alloc.vec.Vec.grow_amortized.2c3341b61b28ed12.
	movl	%eax, %ecx
	movb	$1, %al
	testb	%cl, %cl
	je	.Lunix_path_BB6_27
	movq	(%r13), %rcx
	movq	%r15, %rdx
	movq	%r14, %rsi
	testq	%rcx, %rcx
	jne	.Lunix_path_BB6_2
	jmp	.Lunix_path_BB6_3
.Lunix_path_BB6_30:
	movq	%rsi, %r15
	movq	%rbx, %rdi
	movq	%rdx, %r12
	movq	%rdx, %rsi
	callq	std_alloc.vec.Vec.grow_amortized.2c3341b61b28ed12.
	movl	%eax, %ecx
	movb	$1, %al
	testb	%cl, %cl
	je	.Lunix_path_BB6_27
	movq	8(%rbx), %rax
	movq	16(%rbx), %r14
	movq	%r12, %rdx
	movq	%r15, %rsi
	jmp	.Lunix_path_BB6_5
.Lunix_path_func_end6:
	.size	unix_path.buf.PathBuf.replace, .Lunix_path_func_end6-unix_path.buf.PathBuf.replace
	.section	.text.path_runs.edits.step.pop_with_cache,"ax",@progbits
	.p2align	4
	.type	path_runs.edits.step.pop_with_cache,@function
# path_runs::edits::step::pop_with_cache
path_runs.edits.step.pop_with_cache:
	pushq	%r15
	pushq	%r14
	pushq	%r13
	pushq	%r12
	pushq	%rbx
	movq	%rsi, %rbx
	movq	%rdi, %r15
	movq	(%rdi), %rdi
	movq	8(%r15), %r14
	testq	%r14, %r14
	je	.Lunix_path_BB7_1
	movq	%r14, %rax
	decq	%rax
	je	.Lunix_path_BB7_3
	movzbl	(%rdi,%rax), %ecx
	cmpl	$47, %ecx
	je	.Lunix_path_BB7_7
	cmpl	$46, %ecx
	jne	.Lunix_path_BB7_26
	cmpb	$47, -1(%rdi,%rax)
	jne	.Lunix_path_BB7_26
.Lunix_path_BB7_7:
	cmpb	$47, (%rdi)
	jne	.Lunix_path_BB7_26
	movq	8(%rbx), %r12
	movq	%r14, %rcx
	cmpq	%r14, %r12
	jae	.Lunix_path_BB7_18
	movq	%r14, %rcx
	movq	%r14, %rax
	jmp	.Lunix_path_BB7_10
	.p2align	4
.Lunix_path_BB7_17:
	movq	%rax, %rcx
	cmpq	%rax, %r12
	jae	.Lunix_path_BB7_18
.Lunix_path_BB7_10:
	decq	%rax
	je	.Lunix_path_BB7_11
	movzbl	(%rdi,%rax), %edx
	cmpl	$47, %edx
	je	.Lunix_path_BB7_15
	cmpl	$46, %edx
	jne	.Lunix_path_BB7_18
	cmpb	$47, -1(%rdi,%rax)
	jne	.Lunix_path_BB7_18
.Lunix_path_BB7_15:
	movq	%r14, %rcx
	subq	%rax, %rcx
	cmpq	$8, %rcx
	jne	.Lunix_path_BB7_17
	movq	%rdi, %r13
	movq	%r12, %rsi
	movq	%rax, %rdx
	callq	unix_path.filler.trimmed_blocks_len
	movq	%r13, %rdi
	jmp	.Lunix_path_BB7_17
.Lunix_path_BB7_1:
	xorl	%r14d, %r14d
	jmp	.Lunix_path_BB7_26
.Lunix_path_BB7_3:
	movl	$1, %r14d
.Lunix_path_BB7_26:
	movq	%r14, %rsi
	callq	unix_path.path.Path.parent_len
	cmpb	$1, %al
	sete	%al
	jne	.Lunix_path_BB7_29
	cmpq	%rdx, %r14
	jbe	.Lunix_path_BB7_29
	movq	%rdx, 8(%r15)
	movq	%rdx, %r14
.Lunix_path_BB7_29:
	movq	272(%rbx), %rcx
	cmpq	16(%rbx,%rcx,8), %r14
	jae	.Lunix_path_BB7_32
	decq	%rcx
	.p2align	4
.Lunix_path_BB7_31:
	movq	%rcx, 272(%rbx)
	cmpq	16(%rbx,%rcx,8), %r14
	leaq	-1(%rcx), %rcx
	jb	.Lunix_path_BB7_31
.Lunix_path_BB7_32:
	cmpq	8(%rbx), %r14
	jae	.Lunix_path_BB7_24
	xorps	%xmm0, %xmm0
	movups	%xmm0, (%rbx)
.Lunix_path_BB7_24:
	popq	%rbx
	popq	%r12
	popq	%r13
	popq	%r14
	popq	%r15
	retq
.Lunix_path_BB7_11:
	movl	$1, %ecx
.Lunix_path_BB7_18:
	movq	%rcx, %rax
	cmpq	%r12, %rcx
	je	.Lunix_path_BB7_19
	movq	%r14, %rdx
	subq	%rcx, %rdx
	cmpq	$16, %rdx
	jae	.Lunix_path_BB7_21
.Lunix_path_BB7_22:
	cmpq	$2, %rax
	jae	.Lunix_path_BB7_25
.Lunix_path_BB7_23:
	xorl	%eax, %eax
	jmp	.Lunix_path_BB7_24
.Lunix_path_BB7_19:
	movq	(%rbx), %rax
	movq	%r14, %rdx
	subq	%rcx, %rdx
	cmpq	$16, %rdx
	jb	.Lunix_path_BB7_22
.Lunix_path_BB7_21:
	movq	%rax, (%rbx)
	movq	%r14, 8(%rbx)
	cmpq	$2, %rax
	jb	.Lunix_path_BB7_23
.Lunix_path_BB7_25:
	movq	(%r15), %rdi
	movq	8(%r15), %r14
	jmp	.Lunix_path_BB7_26
.Lunix_path_func_end7:
	.size	path_runs.edits.step.pop_with_cache, .Lunix_path_func_end7-path_runs.edits.step.pop_with_cache
	.section	.rodata.cst16,"aM",@progbits,16
	.p2align	4, 0x0
.Lunix_path_CPI8_0:
	.zero	16,46
.Lunix_path_CPI8_1:
	.zero	16,47
	.section	.text.unix_path.filler.trimmed_blocks_len,"ax",@progbits
	.p2align	4
	.type	unix_path.filler.trimmed_blocks_len,@function
# unix_path::filler::trimmed_blocks_len
unix_path.filler.trimmed_blocks_len:
	negq	%rsi
	.p2align	4
.Lunix_path_BB8_1:
	movq	%rdx, %rax
	leaq	(%rsi,%rdx), %rcx
	cmpq	$17, %rcx
	jb	.Lunix_path_BB8_3
	leaq	-16(%rax), %rdx
	movdqu	-17(%rdi,%rax), %xmm0
	movdqu	-16(%rdi,%rax), %xmm1
	movdqa	.Lunix_path_CPI8_0(%rip), %xmm2
	pcmpeqb	%xmm1, %xmm2
	movdqa	.Lunix_path_CPI8_1(%rip), %xmm3
	pcmpeqb	%xmm3, %xmm1
	pcmpeqb	%xmm3, %xmm0
	pand	%xmm2, %xmm0
	por	%xmm1, %xmm0
	pmovmskb	%xmm0, %ecx
	cmpl	$65535, %ecx
	je	.Lunix_path_BB8_1
.Lunix_path_BB8_3:
	retq
.Lunix_path_func_end8:
	.size	unix_path.filler.trimmed_blocks_len, .Lunix_path_func_end8-unix_path.filler.trimmed_blocks_len
	.section	.rodata.cst16,"aM",@progbits,16
	.p2align	4, 0x0
.Lunix_path_CPI9_0:
	.zero	16,47
	.section	.text.unix_path.path.Path.parent_len,"ax",@progbits
	.p2align	4
	.type	unix_path.path.Path.parent_len,@function
# unix_path::path::Path::parent_len
unix_path.path.Path.parent_len:
	pushq	%r15
	pushq	%r14
	pushq	%r12
	pushq	%rbx
	pushq	%rax
	testq	%rsi, %rsi
	je	.Lunix_path_BB9_25
	movq	%rsi, %r14
	movq	%rdi, %rbx
	movq	%rsi, %r15
	movq	%r14, %rax
	jmp	.Lunix_path_BB9_3
	.p2align	4
.Lunix_path_BB9_2:
	movq	%rax, %r15
	testq	%rax, %rax
	je	.Lunix_path_BB9_25
.Lunix_path_BB9_3:
	decq	%rax
	je	.Lunix_path_BB9_9
	movzbl	(%rbx,%rax), %ecx
	cmpl	$47, %ecx
	je	.Lunix_path_BB9_7
	cmpl	$46, %ecx
	jne	.Lunix_path_BB9_12
	cmpb	$47, -1(%rbx,%rax)
	jne	.Lunix_path_BB9_12
.Lunix_path_BB9_7:
	movq	%r14, %rcx
	subq	%rax, %rcx
	cmpq	$8, %rcx
	jne	.Lunix_path_BB9_2
	movq	%rbx, %rdi
	xorl	%esi, %esi
	movq	%rax, %rdx
	callq	unix_path.filler.trimmed_blocks_len
	jmp	.Lunix_path_BB9_2
.Lunix_path_BB9_9:
	movl	$1, %r15d
	cmpb	$46, (%rbx)
	jne	.Lunix_path_BB9_17
.Lunix_path_BB9_10:
	movb	$1, %r14b
.Lunix_path_BB9_11:
	xorl	%edx, %edx
	jmp	.Lunix_path_BB9_26
.Lunix_path_BB9_12:
	cmpb	$46, -1(%rbx,%r15)
	jne	.Lunix_path_BB9_17
	cmpb	$46, -2(%rbx,%r15)
	jne	.Lunix_path_BB9_17
	movb	$1, %r14b
	cmpq	$2, %r15
	je	.Lunix_path_BB9_11
	cmpb	$47, -3(%rbx,%r15)
	jne	.Lunix_path_BB9_17
	addq	$-2, %r15
	movq	%r15, %rdx
	movq	%r15, %rax
	jmp	.Lunix_path_BB9_28
.Lunix_path_BB9_17:
	movq	%r15, %rax
	.p2align	4
.Lunix_path_BB9_18:
	cmpq	$15, %rax
	jbe	.Lunix_path_BB9_21
	movdqu	-16(%rbx,%rax), %xmm0
	addq	$-16, %rax
	pcmpeqb	.Lunix_path_CPI9_0(%rip), %xmm0
	pmovmskb	%xmm0, %ecx
	testl	%ecx, %ecx
	je	.Lunix_path_BB9_18
	movzwl	%cx, %ecx
	bsrq	%rcx, %rcx
	xorq	$63, %rcx
	subq	%rcx, %rax
	addq	$64, %rax
	movq	%rax, %r12
	jmp	.Lunix_path_BB9_24
.Lunix_path_BB9_21:
	incq	%rax
	.p2align	4
.Lunix_path_BB9_22:
	cmpq	$1, %rax
	je	.Lunix_path_BB9_10
	leaq	-1(%rax), %r12
	cmpb	$47, -2(%rbx,%rax)
	movq	%r12, %rax
	jne	.Lunix_path_BB9_22
.Lunix_path_BB9_24:
	cmpq	%r15, %r12
	jne	.Lunix_path_BB9_34
.Lunix_path_BB9_25:
	xorl	%edx, %edx
	xorl	%r14d, %r14d
.Lunix_path_BB9_26:
	movl	%r14d, %eax
	addq	$8, %rsp
	popq	%rbx
	popq	%r12
	popq	%r14
	popq	%r15
	retq
.Lunix_path_BB9_27:
	movq	%rax, %rdx
	testq	%rax, %rax
	je	.Lunix_path_BB9_11
.Lunix_path_BB9_28:
	decq	%rax
	je	.Lunix_path_BB9_43
	movzbl	(%rbx,%rax), %ecx
	cmpl	$47, %ecx
	je	.Lunix_path_BB9_32
	cmpl	$46, %ecx
	jne	.Lunix_path_BB9_26
	cmpb	$47, -1(%rbx,%rax)
	jne	.Lunix_path_BB9_26
.Lunix_path_BB9_32:
	movq	%r15, %rcx
	subq	%rax, %rcx
	cmpq	$8, %rcx
	jne	.Lunix_path_BB9_27
	movq	%rbx, %rdi
	xorl	%esi, %esi
	movq	%rax, %rdx
	callq	unix_path.filler.trimmed_blocks_len
	jmp	.Lunix_path_BB9_27
.Lunix_path_BB9_34:
	movq	%r12, %rdx
	movq	%r12, %rax
	jmp	.Lunix_path_BB9_36
	.p2align	4
.Lunix_path_BB9_35:
	movq	%rax, %rdx
	testq	%rax, %rax
	je	.Lunix_path_BB9_11
.Lunix_path_BB9_36:
	movb	$1, %r14b
	decq	%rax
	je	.Lunix_path_BB9_43
	movzbl	(%rbx,%rax), %ecx
	cmpl	$47, %ecx
	je	.Lunix_path_BB9_40
	cmpl	$46, %ecx
	jne	.Lunix_path_BB9_26
	cmpb	$47, -1(%rbx,%rax)
	jne	.Lunix_path_BB9_26
.Lunix_path_BB9_40:
	movq	%r12, %rcx
	subq	%rax, %rcx
	cmpq	$8, %rcx
	jne	.Lunix_path_BB9_35
	movq	%rbx, %rdi
	xorl	%esi, %esi
	movq	%rax, %rdx
	callq	unix_path.filler.trimmed_blocks_len
	jmp	.Lunix_path_BB9_35
.Lunix_path_BB9_43:
	movl	$1, %edx
	jmp	.Lunix_path_BB9_26
.Lunix_path_func_end9:
	.size	unix_path.path.Path.parent_len, .Lunix_path_func_end9-unix_path.path.Path.parent_len
	.section	.text.core.cmp.slices.groups_equal.i8.31.core.cmp.numbers.U8PartialEq.,"ax",@progbits
	.p2align	4
	.type	core.cmp.slices.groups_equal.i8.31.core.cmp.numbers.U8PartialEq.,@function
# core::cmp::slices::groups_equal::<i8,31'core::cmp::numbers::U8PartialEq{}>
core.cmp.slices.groups_equal.i8.31.core.cmp.numbers.U8PartialEq.:
	cmpq	$8, %rsi
	ja	.Lunix_path_BB10_2
	movd	-4(%rdi,%rsi), %xmm0
	movd	(%rdi), %xmm1
	punpckldq	%xmm0, %xmm1
	movd	-4(%rdx,%rsi), %xmm0
	movd	(%rdx), %xmm2
	punpckldq	%xmm0, %xmm2
	movq	%xmm1, %rax
	movq	%xmm2, %rcx
	cmpq	%rcx, %rax
	jmp	.Lunix_path_BB10_17
.Lunix_path_BB10_2:
	cmpq	$32, %rsi
	ja	.Lunix_path_BB10_4
	leaq	-8(%rsi), %rax
	cmpq	$8, %rax
	movl	$8, %ecx
	cmovbq	%rax, %rcx
	cmpq	$16, %rax
	movl	$16, %r8d
	cmovbq	%rax, %r8
	movq	(%rdi,%rcx), %xmm0
	movq	(%rdi), %xmm1
	punpcklqdq	%xmm0, %xmm1
	movq	(%rdi,%r8), %xmm0
	movq	-8(%rdi,%rsi), %xmm2
	punpcklqdq	%xmm2, %xmm0
	movq	(%rdx,%rcx), %xmm2
	movq	(%rdx), %xmm3
	punpcklqdq	%xmm2, %xmm3
	pcmpeqb	%xmm1, %xmm3
	movq	(%rdx,%r8), %xmm1
	movq	-8(%rdx,%rsi), %xmm2
	punpcklqdq	%xmm2, %xmm1
	pcmpeqb	%xmm0, %xmm1
	pand	%xmm3, %xmm1
	pmovmskb	%xmm1, %eax
	jmp	.Lunix_path_BB10_16
.Lunix_path_BB10_4:
	cmpq	$65, %rsi
	jae	.Lunix_path_BB10_5
	movdqu	(%rdi), %xmm0
	movdqu	16(%rdi), %xmm1
	movdqu	(%rdx), %xmm2
	pcmpeqb	%xmm0, %xmm2
	movdqu	16(%rdx), %xmm0
	pcmpeqb	%xmm1, %xmm0
	movdqu	-32(%rdi,%rsi), %xmm1
	movdqu	-16(%rdi,%rsi), %xmm3
	movdqu	-32(%rdx,%rsi), %xmm4
	pcmpeqb	%xmm1, %xmm4
	pand	%xmm2, %xmm4
	movdqu	-16(%rdx,%rsi), %xmm1
	pcmpeqb	%xmm3, %xmm1
	pand	%xmm0, %xmm1
	pand	%xmm4, %xmm1
	pmovmskb	%xmm1, %eax
	jmp	.Lunix_path_BB10_16
.Lunix_path_BB10_5:
	xorl	%eax, %eax
	movq	%rsi, %rcx
	.p2align	4
.Lunix_path_BB10_6:
	movdqu	(%rdi,%rax), %xmm0
	movdqu	16(%rdi,%rax), %xmm1
	movdqu	32(%rdi,%rax), %xmm2
	movdqu	48(%rdi,%rax), %xmm3
	movdqu	(%rdx,%rax), %xmm4
	pcmpeqb	%xmm0, %xmm4
	movdqu	16(%rdx,%rax), %xmm0
	pcmpeqb	%xmm1, %xmm0
	movdqu	32(%rdx,%rax), %xmm1
	pcmpeqb	%xmm2, %xmm1
	pand	%xmm4, %xmm1
	movdqu	48(%rdx,%rax), %xmm2
	pcmpeqb	%xmm3, %xmm2
	pand	%xmm0, %xmm2
	pand	%xmm1, %xmm2
	pmovmskb	%xmm2, %r8d
	cmpl	$65535, %r8d
	jne	.Lunix_path_BB10_8
	addq	$64, %rax
	addq	$-64, %rcx
	cmpq	$63, %rcx
	ja	.Lunix_path_BB10_6
.Lunix_path_BB10_8:
	cmpq	$32, %rcx
	jb	.Lunix_path_BB10_15
	movq	%rsi, %rcx
	subq	%rax, %rcx
	.p2align	4
.Lunix_path_BB10_10:
	movdqu	(%rdi,%rax), %xmm0
	movdqu	16(%rdi,%rax), %xmm1
	movdqu	(%rdx,%rax), %xmm2
	pcmpeqb	%xmm0, %xmm2
	movdqu	16(%rdx,%rax), %xmm0
	pcmpeqb	%xmm1, %xmm0
	pand	%xmm2, %xmm0
	pmovmskb	%xmm0, %r8d
	xorl	$65535, %r8d
	jne	.Lunix_path_BB10_14
	addq	$32, %rax
	addq	$-32, %rcx
	cmpq	$32, %rcx
	jae	.Lunix_path_BB10_10
	jmp	.Lunix_path_BB10_15
.Lunix_path_BB10_14:
	movb	$1, %al
	cmpq	$31, %rcx
	ja	.Lunix_path_BB10_18
.Lunix_path_BB10_15:
	movdqu	-32(%rdi,%rsi), %xmm0
	movdqu	-16(%rdi,%rsi), %xmm1
	movdqu	-32(%rdx,%rsi), %xmm2
	pcmpeqb	%xmm0, %xmm2
	movdqu	-16(%rdx,%rsi), %xmm0
	pcmpeqb	%xmm1, %xmm0
	pand	%xmm2, %xmm0
	pmovmskb	%xmm0, %eax
.Lunix_path_BB10_16:
	xorl	$65535, %eax
.Lunix_path_BB10_17:
	setne	%al
.Lunix_path_BB10_18:
	xorb	$1, %al
	retq
.Lunix_path_func_end10:
	.size	core.cmp.slices.groups_equal.i8.31.core.cmp.numbers.U8PartialEq., .Lunix_path_func_end10-core.cmp.slices.groups_equal.i8.31.core.cmp.numbers.U8PartialEq.
	.section	.rodata.cst16,"aM",@progbits,16
	.p2align	4, 0x0
.Lunix_path_CPI11_0:
	.zero	16,46
.Lunix_path_CPI11_1:
	.zero	16,47
	.section	.text.path_runs.edits.step.set_extension,"ax",@progbits
	.p2align	4
	.type	path_runs.edits.step.set_extension,@function
# path_runs::edits::step::set_extension
path_runs.edits.step.set_extension:
	pushq	%rbp
	pushq	%r15
	pushq	%r14
	pushq	%r13
	pushq	%r12
	pushq	%rbx
	subq	$24, %rsp
	movq	%rcx, %r14
	movq	%rdx, %r15
	movq	%rsi, %r12
	movq	%rdi, %rbx
	movq	%rdx, %rdi
	movq	%rcx, %rsi
	callq	unix_path.stems.has_slash
	testb	%al, %al
	je	.Lunix_path_BB11_2
	movb	$1, %al
	xorl	%edx, %edx
	jmp	.Lunix_path_BB11_83
.Lunix_path_BB11_2:
	movq	%r14, (%rsp)
	movq	(%rbx), %rbp
	movq	%rbx, 16(%rsp)
	movq	8(%rbx), %r13
	movq	8(%r12), %r14
	movq	%r13, %rcx
	cmpq	%r13, %r14
	jae	.Lunix_path_BB11_12
	movq	%r13, %rcx
	movq	%r13, %rax
	jmp	.Lunix_path_BB11_5
	.p2align	4
.Lunix_path_BB11_4:
	movq	%rax, %rcx
	cmpq	%rax, %r14
	jae	.Lunix_path_BB11_12
.Lunix_path_BB11_5:
	decq	%rax
	je	.Lunix_path_BB11_11
	movzbl	(%rbp,%rax), %edx
	cmpl	$47, %edx
	je	.Lunix_path_BB11_9
	cmpl	$46, %edx
	jne	.Lunix_path_BB11_12
	cmpb	$47, -1(%rbp,%rax)
	jne	.Lunix_path_BB11_12
.Lunix_path_BB11_9:
	movq	%r13, %rcx
	subq	%rax, %rcx
	cmpq	$8, %rcx
	jne	.Lunix_path_BB11_4
	movq	%rbp, %rdi
	movq	%r14, %rsi
	movq	%rax, %rdx
	callq	unix_path.filler.trimmed_blocks_len
	jmp	.Lunix_path_BB11_4
.Lunix_path_BB11_11:
	movl	$1, %ecx
.Lunix_path_BB11_12:
	movq	%rcx, %rbx
	cmpq	%r14, %rcx
	jne	.Lunix_path_BB11_13
	movq	(%r12), %rbx
	movq	%r13, %rax
	subq	%rcx, %rax
	cmpq	$16, %rax
	jae	.Lunix_path_BB11_16
.Lunix_path_BB11_14:
	testq	%rbx, %rbx
	jne	.Lunix_path_BB11_17
	jmp	.Lunix_path_BB11_24
.Lunix_path_BB11_13:
	movq	%r13, %rax
	subq	%rcx, %rax
	cmpq	$16, %rax
	jb	.Lunix_path_BB11_14
.Lunix_path_BB11_16:
	movq	%rbx, (%r12)
	movq	%r13, 8(%r12)
	movq	%r13, %r14
	testq	%rbx, %rbx
	je	.Lunix_path_BB11_24
.Lunix_path_BB11_17:
	movzbl	-1(%rbp,%rbx), %eax
	cmpl	$47, %eax
	je	.Lunix_path_BB11_24
	leaq	(%rbx,%rbp), %rdi
	cmpl	$46, %eax
	jne	.Lunix_path_BB11_42
	cmpq	$1, %rbx
	je	.Lunix_path_BB11_24
	movzbl	-2(%rdi), %eax
	cmpl	$47, %eax
	je	.Lunix_path_BB11_24
	cmpl	$46, %eax
	jne	.Lunix_path_BB11_42
	cmpq	$2, %rbx
	je	.Lunix_path_BB11_24
	cmpb	$47, -3(%rdi)
	jne	.Lunix_path_BB11_42
.Lunix_path_BB11_24:
	xorl	%r13d, %r13d
	xorl	%ebx, %ebx
.Lunix_path_BB11_25:
	cmpb	$1, %r13b
	jne	.Lunix_path_BB11_41
	movq	272(%r12), %rax
	cmpq	16(%r12,%rax,8), %rbx
	jae	.Lunix_path_BB11_29
	decq	%rax
	.p2align	4
.Lunix_path_BB11_28:
	movq	%rax, 272(%r12)
	cmpq	16(%r12,%rax,8), %rbx
	leaq	-1(%rax), %rax
	jb	.Lunix_path_BB11_28
.Lunix_path_BB11_29:
	cmpq	%r14, %rbx
	jae	.Lunix_path_BB11_31
	pxor	%xmm0, %xmm0
	movdqu	%xmm0, (%r12)
.Lunix_path_BB11_31:
	movq	16(%rsp), %r14
	leaq	8(%r14), %rbp
	movq	8(%r14), %rax
	movq	(%rsp), %rcx
	cmpq	$1, %rcx
	sbbq	$-1, %rcx
	movq	16(%r14), %rdx
	addq	%rbx, %rcx
	xorl	%esi, %esi
	subq	%rax, %rcx
	cmovaeq	%rcx, %rsi
	subq	%rax, %rdx
	cmpq	%rdx, %rsi
	ja	.Lunix_path_BB11_65
	cmpq	%rbx, %rax
	jbe	.Lunix_path_BB11_34
.Lunix_path_BB11_33:
	movq	%rbx, (%rbp)
	movq	%rbx, %rax
.Lunix_path_BB11_34:
	movq	16(%r14), %rbx
	cmpq	$0, (%rsp)
	je	.Lunix_path_BB11_37
	cmpq	%rax, %rbx
	je	.Lunix_path_BB11_86
.Lunix_path_BB11_36:
	movq	(%r14), %rcx
	movb	$46, (%rcx,%rax)
	incq	%rax
	movq	%rcx, (%r14)
	movq	%rax, 8(%r14)
	movq	%rbx, 16(%r14)
.Lunix_path_BB11_37:
	movq	%rbx, %rcx
	subq	%rax, %rcx
	movq	(%rsp), %rsi
	cmpq	%rcx, %rsi
	ja	.Lunix_path_BB11_84
.Lunix_path_BB11_38:
	leaq	(%rax,%rsi), %r12
	movq	(%r14), %r13
	pxor	%xmm0, %xmm0
	movdqu	%xmm0, (%rbp)
	leaq	(%rax,%r13), %rdi
	movq	%rdi, %rcx
	subq	%r15, %rcx
	cmpq	%rsi, %rcx
	movq	%rsi, %rdx
	jae	.Lunix_path_BB11_46
	cmpq	$4, %rdx
	jb	.Lunix_path_BB11_40
	cmpq	$32, %rcx
	jae	.Lunix_path_BB11_63
.Lunix_path_BB11_40:
	xorl	%ecx, %ecx
.Lunix_path_BB11_75:
	movq	%rdx, %rsi
	movq	%rcx, %r9
	andq	$3, %rsi
	je	.Lunix_path_BB11_78
	movq	%rcx, %r9
	.p2align	4
.Lunix_path_BB11_77:
	movzbl	(%r15,%r9), %r8d
	movb	%r8b, (%rdi,%r9)
	incq	%r9
	decq	%rsi
	jne	.Lunix_path_BB11_77
.Lunix_path_BB11_78:
	subq	%rdx, %rcx
	cmpq	$-4, %rcx
	ja	.Lunix_path_BB11_81
	addq	%r13, %rax
	addq	$3, %rax
	.p2align	4
.Lunix_path_BB11_80:
	movzbl	(%r15,%r9), %ecx
	movb	%cl, -3(%rax,%r9)
	movzbl	1(%r15,%r9), %ecx
	movb	%cl, -2(%rax,%r9)
	movzbl	2(%r15,%r9), %ecx
	movb	%cl, -1(%rax,%r9)
	movzbl	3(%r15,%r9), %ecx
	movb	%cl, (%rax,%r9)
	addq	$4, %r9
	cmpq	%r9, %rdx
	jne	.Lunix_path_BB11_80
	jmp	.Lunix_path_BB11_81
.Lunix_path_BB11_41:
	xorl	%edx, %edx
	jmp	.Lunix_path_BB11_82
.Lunix_path_BB11_42:
	movq	272(%r12), %r11
	movq	16(%r12,%r11,8), %rax
	xorl	%ecx, %ecx
	cmpq	%rax, %rbx
	movq	%rax, 8(%rsp)
	cmovaeq	%rax, %rcx
	movb	$1, %r13b
	movq	%rbx, %rax
	subq	%rcx, %rax
	leaq	(%rbx,%rbp), %rdx
	decq	%rdx
	.p2align	4
.Lunix_path_BB11_43:
	cmpq	$15, %rax
	jbe	.Lunix_path_BB11_47
	addq	$-16, %rax
	movdqu	-15(%rdx), %xmm0
	movdqa	.Lunix_path_CPI11_0(%rip), %xmm1
	pcmpeqb	%xmm0, %xmm1
	pmovmskb	%xmm1, %esi
	movl	$127, %r9d
	movl	$127, %r10d
	bsrq	%rsi, %r10
	xorq	$63, %r10
	movl	$64, %r8d
	movl	$64, %esi
	subq	%r10, %rsi
	pcmpeqb	.Lunix_path_CPI11_1(%rip), %xmm0
	pmovmskb	%xmm0, %r10d
	bsrq	%r10, %r9
	xorq	$63, %r9
	subq	%r9, %r8
	cmpq	%r8, %rsi
	movq	%r8, %r9
	cmovaq	%rsi, %r9
	addq	$-16, %rdx
	testq	%r9, %r9
	je	.Lunix_path_BB11_43
	cmpq	%rsi, %r8
	cmovaq	%r8, %rsi
	addq	%rsi, %rax
	jmp	.Lunix_path_BB11_50
.Lunix_path_BB11_46:
	movq	%r15, %rsi
	callq	memmove@PLT
.Lunix_path_BB11_81:
	movq	%r13, (%r14)
	movq	%r12, 8(%r14)
	movq	%rbx, 16(%r14)
	movb	$1, %dl
.Lunix_path_BB11_82:
	xorl	%eax, %eax
.Lunix_path_BB11_83:
	addq	$24, %rsp
	popq	%rbx
	popq	%r12
	popq	%r13
	popq	%r14
	popq	%r15
	popq	%rbp
	retq
.Lunix_path_BB11_47:
	incq	%rax
	.p2align	4
.Lunix_path_BB11_48:
	cmpq	$1, %rax
	je	.Lunix_path_BB11_53
	movzbl	(%rdx), %esi
	andb	$-2, %sil
	decq	%rax
	decq	%rdx
	cmpb	$46, %sil
	jne	.Lunix_path_BB11_48
.Lunix_path_BB11_50:
	addq	%rcx, %rax
	movq	%rax, %rcx
	decq	%rcx
	je	.Lunix_path_BB11_53
	cmpb	$47, (%rbp,%rcx)
	je	.Lunix_path_BB11_53
	cmpb	$47, -2(%rbp,%rax)
	cmoveq	%rbx, %rcx
	cmpq	%rbx, %rcx
	jne	.Lunix_path_BB11_67
.Lunix_path_BB11_53:
	cmpq	$64, %rbx
	jb	.Lunix_path_BB11_25
	movq	%r11, %rbp
	addq	$-64, %rdi
	movl	$64, %esi
	callq	unix_path.stems.has_slash
	testb	%al, %al
	jne	.Lunix_path_BB11_25
	movq	%rbx, %rax
	subq	8(%rsp), %rax
	setb	%cl
	cmpq	$64, %rax
	setb	%al
	orb	%cl, %al
	jne	.Lunix_path_BB11_25
	testq	%rbp, %rbp
	je	.Lunix_path_BB11_88
	movq	%rbp, %rdi
.Lunix_path_BB11_58:
	movq	16(%r12,%rdi,8), %rax
	xorl	%ecx, %ecx
	movq	%rax, %rdx
	subq	8(%r12,%rdi,8), %rdx
	cmovbq	%rcx, %rdx
	shrq	$2, %rdx
	movq	%rbx, %rsi
	subq	%rax, %rsi
	cmovbq	%rcx, %rsi
	cmpq	%rsi, %rdx
	jae	.Lunix_path_BB11_89
	decq	%rdi
	movq	%rdi, 272(%r12)
	jne	.Lunix_path_BB11_58
.Lunix_path_BB11_88:
	xorl	%edi, %edi
.Lunix_path_BB11_90:
	leaq	1(%rdi), %rax
	movq	%rax, 272(%r12)
	movq	%rbx, 24(%r12,%rdi,8)
	jmp	.Lunix_path_BB11_25
.Lunix_path_BB11_63:
	cmpq	$32, %rdx
	jae	.Lunix_path_BB11_68
	xorl	%ecx, %ecx
	jmp	.Lunix_path_BB11_72
.Lunix_path_BB11_65:
	movq	%r14, %rdi
	callq	std_alloc.vec.Vec.grow_amortized.2c3341b61b28ed12.
	movl	%eax, %ecx
	movb	$1, %dl
	movb	$1, %al
	testb	%cl, %cl
	je	.Lunix_path_BB11_83
	movq	(%rbp), %rax
	cmpq	%rbx, %rax
	ja	.Lunix_path_BB11_33
	jmp	.Lunix_path_BB11_34
.Lunix_path_BB11_67:
	movq	%rcx, %rbx
	jmp	.Lunix_path_BB11_25
.Lunix_path_BB11_68:
	movq	%rdx, %rcx
	andq	$-32, %rcx
	leaq	(%rax,%r13), %r8
	addq	$16, %r8
	xorl	%esi, %esi
	.p2align	4
.Lunix_path_BB11_69:
	movdqu	(%r15,%rsi), %xmm0
	movdqu	16(%r15,%rsi), %xmm1
	movdqu	%xmm0, -16(%r8,%rsi)
	movdqu	%xmm1, (%r8,%rsi)
	addq	$32, %rsi
	cmpq	%rsi, %rcx
	jne	.Lunix_path_BB11_69
	cmpq	%rcx, %rdx
	je	.Lunix_path_BB11_81
	testb	$28, %dl
	je	.Lunix_path_BB11_75
.Lunix_path_BB11_72:
	movq	%rcx, %r8
	movq	%rdx, %rcx
	andq	$-4, %rcx
	.p2align	4
.Lunix_path_BB11_73:
	movl	(%r15,%r8), %esi
	movl	%esi, (%rdi,%r8)
	addq	$4, %r8
	cmpq	%r8, %rcx
	jne	.Lunix_path_BB11_73
	cmpq	%rcx, %rdx
	je	.Lunix_path_BB11_81
	jmp	.Lunix_path_BB11_75
.Lunix_path_BB11_84:
	movq	%r14, %rdi
	callq	std_alloc.vec.Vec.grow_amortized.2c3341b61b28ed12.
	movl	%eax, %ecx
	movb	$1, %dl
	movb	$1, %al
	testb	%cl, %cl
	je	.Lunix_path_BB11_83
	movq	8(%r14), %rax
	movq	16(%r14), %rbx
	movq	(%rsp), %rsi
	jmp	.Lunix_path_BB11_38
.Lunix_path_BB11_86:
	movl	$1, %esi
	movq	%r14, %rdi
	callq	std_alloc.vec.Vec.grow_amortized.2c3341b61b28ed12.
	movl	%eax, %ecx
	movb	$1, %dl
	movb	$1, %al
	testb	%cl, %cl
	je	.Lunix_path_BB11_83
	movq	8(%r14), %rax
	movq	16(%r14), %rbx
	jmp	.Lunix_path_BB11_36
.Lunix_path_BB11_89:
	cmpq	$30, %rdi
	ja	.Lunix_path_BB11_25
	jmp	.Lunix_path_BB11_90
.Lunix_path_func_end11:
	.size	path_runs.edits.step.set_extension, .Lunix_path_func_end11-path_runs.edits.step.set_extension
	.section	.rodata.cst16,"aM",@progbits,16
	.p2align	4, 0x0
.Lunix_path_CPI12_0:
	.zero	16,47
.Lunix_path_CPI12_1:
	.byte	47
	.byte	47
	.byte	47
	.byte	47
	.byte	47
	.byte	47
	.byte	47
	.byte	47
	.zero	1
	.zero	1
	.zero	1
	.zero	1
	.zero	1
	.zero	1
	.zero	1
	.zero	1
	.section	.text.unix_path.stems.has_slash,"ax",@progbits
	.p2align	4
	.type	unix_path.stems.has_slash,@function
# unix_path::stems::has_slash
unix_path.stems.has_slash:
	cmpq	$3, %rsi
	ja	.Lunix_path_BB12_4
	testq	%rsi, %rsi
	je	.Lunix_path_BB12_8
	cmpb	$47, (%rdi)
	sete	%cl
	movq	%rsi, %rax
	shrq	%rax
	cmpb	$47, (%rdi,%rax)
	sete	%dl
	cmpb	$47, -1(%rdi,%rsi)
	sete	%al
	orb	%cl, %al
	orb	%dl, %al
.Lunix_path_BB12_3:
	retq
.Lunix_path_BB12_4:
	cmpq	$8, %rsi
	ja	.Lunix_path_BB12_6
	movd	-4(%rdi,%rsi), %xmm0
	movd	(%rdi), %xmm1
	punpckldq	%xmm0, %xmm1
	pcmpeqb	.Lunix_path_CPI12_1(%rip), %xmm1
	pmovmskb	%xmm1, %eax
	testb	%al, %al
	setne	%al
	retq
.Lunix_path_BB12_6:
	cmpq	$32, %rsi
	ja	.Lunix_path_BB12_9
	leaq	-8(%rsi), %rax
	cmpq	$8, %rax
	movl	$8, %ecx
	cmovbq	%rax, %rcx
	cmpq	$16, %rax
	movl	$16, %edx
	cmovbq	%rax, %rdx
	movq	(%rdi,%rcx), %xmm0
	movq	(%rdi), %xmm1
	punpcklqdq	%xmm0, %xmm1
	movq	(%rdi,%rdx), %xmm0
	movq	-8(%rdi,%rsi), %xmm2
	punpcklqdq	%xmm2, %xmm0
	movdqa	.Lunix_path_CPI12_0(%rip), %xmm2
	pcmpeqb	%xmm2, %xmm0
	pcmpeqb	%xmm2, %xmm1
	jmp	.Lunix_path_BB12_11
.Lunix_path_BB12_8:
	xorl	%eax, %eax
	retq
.Lunix_path_BB12_9:
	cmpq	$65, %rsi
	jae	.Lunix_path_BB12_13
	movdqu	(%rdi), %xmm0
	movdqu	16(%rdi), %xmm1
	movdqu	-32(%rdi,%rsi), %xmm2
	movdqu	-16(%rdi,%rsi), %xmm3
	movdqa	.Lunix_path_CPI12_0(%rip), %xmm4
	pcmpeqb	%xmm4, %xmm2
	pcmpeqb	%xmm4, %xmm0
	por	%xmm2, %xmm0
	pcmpeqb	%xmm4, %xmm3
	pcmpeqb	%xmm4, %xmm1
	por	%xmm3, %xmm1
.Lunix_path_BB12_11:
	por	%xmm0, %xmm1
	pmovmskb	%xmm1, %eax
	testl	%eax, %eax
	setne	%al
	retq
.Lunix_path_BB12_13:
	xorl	%eax, %eax
	movq	%rsi, %rcx
	.p2align	4
.Lunix_path_BB12_14:
	movdqu	(%rdi,%rax), %xmm1
	movdqu	16(%rdi,%rax), %xmm2
	movdqu	32(%rdi,%rax), %xmm3
	movdqu	48(%rdi,%rax), %xmm4
	movdqa	.Lunix_path_CPI12_0(%rip), %xmm0
	pcmpeqb	%xmm0, %xmm3
	pcmpeqb	%xmm0, %xmm1
	por	%xmm3, %xmm1
	pcmpeqb	%xmm0, %xmm4
	pcmpeqb	%xmm0, %xmm2
	por	%xmm4, %xmm2
	por	%xmm1, %xmm2
	pmovmskb	%xmm2, %edx
	testl	%edx, %edx
	jne	.Lunix_path_BB12_16
	addq	$64, %rax
	addq	$-64, %rcx
	cmpq	$63, %rcx
	ja	.Lunix_path_BB12_14
.Lunix_path_BB12_16:
	cmpq	$32, %rcx
	jb	.Lunix_path_BB12_21
	movq	%rsi, %rcx
	subq	%rax, %rcx
	addq	%rdi, %rax
	.p2align	4
.Lunix_path_BB12_18:
	movdqu	(%rax), %xmm1
	movdqu	16(%rax), %xmm2
	pcmpeqb	%xmm0, %xmm2
	pcmpeqb	%xmm0, %xmm1
	por	%xmm2, %xmm1
	pmovmskb	%xmm1, %edx
	testl	%edx, %edx
	jne	.Lunix_path_BB12_20
	addq	$-32, %rcx
	addq	$32, %rax
	cmpq	$32, %rcx
	jae	.Lunix_path_BB12_18
	jmp	.Lunix_path_BB12_21
.Lunix_path_BB12_20:
	movb	$1, %al
	cmpq	$31, %rcx
	ja	.Lunix_path_BB12_3
.Lunix_path_BB12_21:
	movdqu	-32(%rdi,%rsi), %xmm1
	movdqu	-16(%rdi,%rsi), %xmm2
	pcmpeqb	%xmm0, %xmm2
	pcmpeqb	%xmm0, %xmm1
	por	%xmm2, %xmm1
	pmovmskb	%xmm1, %eax
	testl	%eax, %eax
	setne	%al
	retq
.Lunix_path_func_end12:
	.size	unix_path.stems.has_slash, .Lunix_path_func_end12-unix_path.stems.has_slash
	.section	.text.path_runs.edits.step.add_extension,"ax",@progbits
	.p2align	4
	.type	path_runs.edits.step.add_extension,@function
# path_runs::edits::step::add_extension
path_runs.edits.step.add_extension:
	pushq	%rbp
	pushq	%r15
	pushq	%r14
	pushq	%r13
	pushq	%r12
	pushq	%rbx
	subq	$24, %rsp
	movq	%rdx, %r15
	movq	%rsi, %r12
	movq	%rdi, %rbx
	movq	%rdx, %rdi
	movq	%rcx, 8(%rsp)
	movq	%rcx, %rsi
	callq	unix_path.stems.has_slash
	testb	%al, %al
	je	.Lunix_path_BB13_2
	movb	$1, %al
	xorl	%edx, %edx
	jmp	.Lunix_path_BB13_26
.Lunix_path_BB13_2:
	movq	(%rbx), %rbp
	movq	%rbx, 16(%rsp)
	movq	8(%rbx), %r13
	movq	8(%r12), %r14
	movq	%r13, %rcx
	cmpq	%r13, %r14
	jae	.Lunix_path_BB13_12
	movq	%r13, %rcx
	movq	%r13, %rax
	jmp	.Lunix_path_BB13_5
	.p2align	4
.Lunix_path_BB13_4:
	movq	%rax, %rcx
	cmpq	%rax, %r14
	jae	.Lunix_path_BB13_12
.Lunix_path_BB13_5:
	decq	%rax
	je	.Lunix_path_BB13_11
	movzbl	(%rbp,%rax), %edx
	cmpl	$47, %edx
	je	.Lunix_path_BB13_9
	cmpl	$46, %edx
	jne	.Lunix_path_BB13_12
	cmpb	$47, -1(%rbp,%rax)
	jne	.Lunix_path_BB13_12
.Lunix_path_BB13_9:
	movq	%r13, %rcx
	subq	%rax, %rcx
	cmpq	$8, %rcx
	jne	.Lunix_path_BB13_4
	movq	%rbp, %rdi
	movq	%r14, %rsi
	movq	%rax, %rdx
	callq	unix_path.filler.trimmed_blocks_len
	jmp	.Lunix_path_BB13_4
.Lunix_path_BB13_11:
	movl	$1, %ecx
.Lunix_path_BB13_12:
	movq	%rcx, %rbx
	cmpq	%r14, %rcx
	jne	.Lunix_path_BB13_13
	movq	(%r12), %rbx
	movq	%r13, %rax
	subq	%rcx, %rax
	cmpq	$16, %rax
	jae	.Lunix_path_BB13_16
.Lunix_path_BB13_14:
	testq	%rbx, %rbx
	jne	.Lunix_path_BB13_17
	jmp	.Lunix_path_BB13_24
.Lunix_path_BB13_13:
	movq	%r13, %rax
	subq	%rcx, %rax
	cmpq	$16, %rax
	jb	.Lunix_path_BB13_14
.Lunix_path_BB13_16:
	movq	%rbx, (%r12)
	movq	%r13, 8(%r12)
	movq	%r13, %r14
	testq	%rbx, %rbx
	je	.Lunix_path_BB13_24
.Lunix_path_BB13_17:
	movzbl	-1(%rbp,%rbx), %eax
	cmpl	$47, %eax
	je	.Lunix_path_BB13_24
	cmpl	$46, %eax
	jne	.Lunix_path_BB13_27
	cmpq	$1, %rbx
	je	.Lunix_path_BB13_24
	movzbl	-2(%rbp,%rbx), %eax
	cmpl	$47, %eax
	je	.Lunix_path_BB13_24
	cmpl	$46, %eax
	jne	.Lunix_path_BB13_27
	cmpq	$2, %rbx
	je	.Lunix_path_BB13_24
	cmpb	$47, -3(%rbp,%rbx)
	jne	.Lunix_path_BB13_27
.Lunix_path_BB13_24:
	xorl	%edx, %edx
.Lunix_path_BB13_25:
	xorl	%eax, %eax
.Lunix_path_BB13_26:
	addq	$24, %rsp
	popq	%rbx
	popq	%r12
	popq	%r13
	popq	%r14
	popq	%r15
	popq	%rbp
	retq
.Lunix_path_BB13_27:
	movb	$1, %dl
	cmpq	$0, 8(%rsp)
	je	.Lunix_path_BB13_25
	movq	272(%r12), %rax
	cmpq	16(%r12,%rax,8), %rbx
	jae	.Lunix_path_BB13_31
	decq	%rax
	.p2align	4
.Lunix_path_BB13_30:
	movq	%rax, 272(%r12)
	cmpq	16(%r12,%rax,8), %rbx
	leaq	-1(%rax), %rax
	jb	.Lunix_path_BB13_30
.Lunix_path_BB13_31:
	cmpq	%r14, %rbx
	jae	.Lunix_path_BB13_33
	xorps	%xmm0, %xmm0
	movups	%xmm0, (%r12)
.Lunix_path_BB13_33:
	movq	16(%rsp), %r14
	leaq	8(%r14), %rdi
	movq	8(%r14), %rax
	movq	16(%r14), %rcx
	movq	8(%rsp), %rdx
	addq	%rbx, %rdx
	incq	%rdx
	xorl	%esi, %esi
	subq	%rax, %rdx
	cmovaeq	%rdx, %rsi
	subq	%rax, %rcx
	cmpq	%rcx, %rsi
	ja	.Lunix_path_BB13_47
	cmpq	%rbx, %rax
	jbe	.Lunix_path_BB13_36
.Lunix_path_BB13_35:
	movq	%rbx, (%rdi)
	movq	%rbx, %rax
.Lunix_path_BB13_36:
	movq	16(%r14), %r12
	cmpq	%rax, %r12
	je	.Lunix_path_BB13_63
.Lunix_path_BB13_37:
	movq	(%r14), %r13
	movb	$46, (%r13,%rax)
	incq	%rax
	movq	%r13, (%r14)
	movq	%rax, 8(%r14)
	movq	%r12, 16(%r14)
	movq	%r12, %rcx
	subq	%rax, %rcx
	movq	8(%rsp), %rdx
	cmpq	%rcx, %rdx
	ja	.Lunix_path_BB13_65
.Lunix_path_BB13_38:
	leaq	(%rax,%rdx), %rbp
	xorps	%xmm0, %xmm0
	movups	%xmm0, (%rdi)
	leaq	(%rax,%r13), %rdi
	movq	%rdi, %rcx
	subq	%r15, %rcx
	cmpq	%rdx, %rcx
	jae	.Lunix_path_BB13_42
	cmpq	$4, %rdx
	jb	.Lunix_path_BB13_40
	cmpq	$32, %rcx
	jae	.Lunix_path_BB13_45
.Lunix_path_BB13_40:
	xorl	%ecx, %ecx
.Lunix_path_BB13_56:
	movq	%rdx, %rsi
	movq	%rcx, %r9
	andq	$3, %rsi
	je	.Lunix_path_BB13_59
	movq	%rcx, %r9
	.p2align	4
.Lunix_path_BB13_58:
	movzbl	(%r15,%r9), %r8d
	movb	%r8b, (%rdi,%r9)
	incq	%r9
	decq	%rsi
	jne	.Lunix_path_BB13_58
.Lunix_path_BB13_59:
	subq	%rdx, %rcx
	cmpq	$-4, %rcx
	ja	.Lunix_path_BB13_62
	addq	%r13, %rax
	addq	$3, %rax
	.p2align	4
.Lunix_path_BB13_61:
	movzbl	(%r15,%r9), %ecx
	movb	%cl, -3(%rax,%r9)
	movzbl	1(%r15,%r9), %ecx
	movb	%cl, -2(%rax,%r9)
	movzbl	2(%r15,%r9), %ecx
	movb	%cl, -1(%rax,%r9)
	movzbl	3(%r15,%r9), %ecx
	movb	%cl, (%rax,%r9)
	addq	$4, %r9
	cmpq	%r9, %rdx
	jne	.Lunix_path_BB13_61
	jmp	.Lunix_path_BB13_62
.Lunix_path_BB13_42:
	movq	%r15, %rsi
	callq	memmove@PLT
.Lunix_path_BB13_62:
	movq	%r13, (%r14)
	movq	%rbp, 8(%r14)
	movq	%r12, 16(%r14)
	xorl	%eax, %eax
	movb	$1, %dl
	jmp	.Lunix_path_BB13_26
.Lunix_path_BB13_45:
	cmpq	$32, %rdx
	jae	.Lunix_path_BB13_49
	xorl	%ecx, %ecx
	jmp	.Lunix_path_BB13_53
.Lunix_path_BB13_47:
	movq	%rdi, %r12
	movq	%r14, %rdi
	callq	std_alloc.vec.Vec.grow_amortized.2c3341b61b28ed12.
	movl	%eax, %ecx
	movb	$1, %dl
	movb	$1, %al
	testb	%cl, %cl
	je	.Lunix_path_BB13_26
	movq	%r12, %rdi
	movq	(%r12), %rax
	cmpq	%rbx, %rax
	ja	.Lunix_path_BB13_35
	jmp	.Lunix_path_BB13_36
.Lunix_path_BB13_49:
	movq	%rdx, %rcx
	andq	$-32, %rcx
	leaq	(%rax,%r13), %r8
	addq	$16, %r8
	xorl	%esi, %esi
.Lunix_path_BB13_50:
	movups	(%r15,%rsi), %xmm0
	movups	16(%r15,%rsi), %xmm1
	movups	%xmm0, -16(%r8,%rsi)
	movups	%xmm1, (%r8,%rsi)
	addq	$32, %rsi
	cmpq	%rsi, %rcx
	jne	.Lunix_path_BB13_50
	cmpq	%rcx, %rdx
	je	.Lunix_path_BB13_62
	testb	$28, %dl
	je	.Lunix_path_BB13_56
.Lunix_path_BB13_53:
	movq	%rcx, %r8
	movq	%rdx, %rcx
	andq	$-4, %rcx
	.p2align	4
.Lunix_path_BB13_54:
	movl	(%r15,%r8), %esi
	movl	%esi, (%rdi,%r8)
	addq	$4, %r8
	cmpq	%r8, %rcx
	jne	.Lunix_path_BB13_54
	cmpq	%rcx, %rdx
	je	.Lunix_path_BB13_62
	jmp	.Lunix_path_BB13_56
.Lunix_path_BB13_63:
	movq	%rdi, %rbx
	movl	$1, %esi
	movq	%r14, %rdi
	callq	std_alloc.vec.Vec.grow_amortized.2c3341b61b28ed12.
	movl	%eax, %ecx
	movb	$1, %dl
	movb	$1, %al
	testb	%cl, %cl
	je	.Lunix_path_BB13_26
	movq	8(%r14), %rax
	movq	16(%r14), %r12
	movq	%rbx, %rdi
	jmp	.Lunix_path_BB13_37
.Lunix_path_BB13_65:
	movq	%rdi, %rbx
	movq	%r14, %rdi
	movq	%rdx, %rsi
	callq	std_alloc.vec.Vec.grow_amortized.2c3341b61b28ed12.
	movl	%eax, %ecx
	movb	$1, %dl
	movb	$1, %al
	testb	%cl, %cl
	je	.Lunix_path_BB13_26
	movq	(%r14), %r13
	movq	8(%r14), %rax
	movq	16(%r14), %r12
	movq	8(%rsp), %rdx
	movq	%rbx, %rdi
	jmp	.Lunix_path_BB13_38
.Lunix_path_func_end13:
	.size	path_runs.edits.step.add_extension, .Lunix_path_func_end13-path_runs.edits.step.add_extension
	.section	.text.unlikely.std_alloc.vec.Vec.grow_amortized.d6e9c2ff9b21f748.,"ax",@progbits
	.p2align	4
	.type	std_alloc.vec.Vec.grow_amortized.d6e9c2ff9b21f748.,@function
# std_alloc::vec::Vec::grow_amortized::<#d6e9c2ff9b21f748>
std_alloc.vec.Vec.grow_amortized.d6e9c2ff9b21f748.:
	movq	8(%rdi), %rax
	cmpq	$-1, %rax
	je	.Lunix_path_BB14_5
	pushq	%r14
	pushq	%rbx
	pushq	%rax
	movq	16(%rdi), %rcx
	cmpq	$4, %rax
	movl	$3, %ebx
	cmovaeq	%rax, %rbx
	incq	%rbx
	movq	%rcx, %rsi
	shrq	$62, %rsi
	leaq	(%rcx,%rcx), %rdx
	cmpq	%rdx, %rbx
	cmovaq	%rbx, %rdx
	testq	%rsi, %rsi
	cmoveq	%rdx, %rbx
	movabsq	$384307168202282325, %rsi
	cmpq	%rsi, %rbx
	ja	.Lunix_path_BB14_6
	testq	%rcx, %rcx
	je	.Lunix_path_BB14_8
	movq	%rdi, %r14
	movq	(%rdi), %rdi
	shlq	$3, %rax
	leaq	(%rax,%rax,2), %rsi
	leaq	(,%rbx,8), %rax
	leaq	(%rax,%rax,2), %rdx
	movl	$8, %ecx
	callq	rattle_realloc@PLT
	testb	$1, %al
	je	.Lunix_path_BB14_6
.Lunix_path_BB14_9:
	movq	%rdx, (%r14)
	movq	%rbx, 16(%r14)
	movb	$1, %al
	addq	$8, %rsp
	popq	%rbx
	popq	%r14
	retq
.Lunix_path_BB14_5:
	xorl	%eax, %eax
	retq
.Lunix_path_BB14_8:
	movq	%rdi, %r14
	shlq	$3, %rdx
	leaq	(%rdx,%rdx,2), %rdi
	movl	$8, %esi
	callq	rattle_alloc@PLT
	testb	$1, %al
	jne	.Lunix_path_BB14_9
.Lunix_path_BB14_6:
	xorl	%eax, %eax
	addq	$8, %rsp
	popq	%rbx
	popq	%r14
	retq
.Lunix_path_func_end14:
	.size	std_alloc.vec.Vec.grow_amortized.d6e9c2ff9b21f748., .Lunix_path_func_end14-std_alloc.vec.Vec.grow_amortized.d6e9c2ff9b21f748.
	.section	.text.pathtool.tables.insert_path,"ax",@progbits
	.p2align	4
	.type	pathtool.tables.insert_path,@function
# pathtool::tables::insert_path
pathtool.tables.insert_path:
	pushq	%rbp
	pushq	%r15
	pushq	%r14
	pushq	%r13
	pushq	%r12
	pushq	%rbx
	subq	$392, %rsp
	movq	%rdx, %r15
	movq	%rdi, %r14
	testq	%rdx, %rdx
	je	.Lunix_path_BB15_5
	movb	$1, %r13b
	js	.Lunix_path_BB15_44
	movq	%rsi, %rbx
	movl	$1, %esi
	movq	%r15, %rdi
	callq	rattle_alloc@PLT
	testb	$1, %al
	je	.Lunix_path_BB15_44
	movq	%rdx, %r12
	movq	%rbx, %rsi
	movq	%r12, %rcx
	subq	%rsi, %rcx
	cmpq	%r15, %rcx
	jb	.Lunix_path_BB15_6
.Lunix_path_BB15_4:
	movq	%r12, %rdi
	movq	%r15, %rdx
	callq	memmove@PLT
	jmp	.Lunix_path_BB15_22
.Lunix_path_BB15_5:
	leaq	31(%rsp), %r12
	movq	%r12, %rcx
	subq	%rsi, %rcx
	cmpq	%r15, %rcx
	jae	.Lunix_path_BB15_4
.Lunix_path_BB15_6:
	xorl	%eax, %eax
	cmpq	$4, %r15
	jb	.Lunix_path_BB15_17
	cmpq	$32, %rcx
	jb	.Lunix_path_BB15_17
	cmpq	$32, %r15
	jae	.Lunix_path_BB15_10
	xorl	%eax, %eax
	jmp	.Lunix_path_BB15_14
.Lunix_path_BB15_10:
	movq	%r15, %rax
	andq	$-32, %rax
	xorl	%ecx, %ecx
	.p2align	4
.Lunix_path_BB15_11:
	movups	(%rsi,%rcx), %xmm0
	movups	16(%rsi,%rcx), %xmm1
	movups	%xmm0, (%r12,%rcx)
	movups	%xmm1, 16(%r12,%rcx)
	addq	$32, %rcx
	cmpq	%rcx, %rax
	jne	.Lunix_path_BB15_11
	cmpq	%rax, %r15
	je	.Lunix_path_BB15_22
	testb	$28, %r15b
	je	.Lunix_path_BB15_17
.Lunix_path_BB15_14:
	movq	%rax, %rcx
	movq	%r15, %rax
	andq	$-4, %rax
	.p2align	4
.Lunix_path_BB15_15:
	movl	(%rsi,%rcx), %edx
	movl	%edx, (%r12,%rcx)
	addq	$4, %rcx
	cmpq	%rcx, %rax
	jne	.Lunix_path_BB15_15
	cmpq	%rax, %r15
	je	.Lunix_path_BB15_22
.Lunix_path_BB15_17:
	movq	%r15, %rdx
	movq	%rax, %rcx
	andq	$3, %rdx
	je	.Lunix_path_BB15_20
	movq	%rax, %rcx
	.p2align	4
.Lunix_path_BB15_19:
	movzbl	(%rsi,%rcx), %edi
	movb	%dil, (%r12,%rcx)
	incq	%rcx
	decq	%rdx
	jne	.Lunix_path_BB15_19
.Lunix_path_BB15_20:
	subq	%r15, %rax
	cmpq	$-4, %rax
	ja	.Lunix_path_BB15_22
	.p2align	4
.Lunix_path_BB15_21:
	movzbl	(%rsi,%rcx), %eax
	movb	%al, (%r12,%rcx)
	movzbl	1(%rsi,%rcx), %eax
	movb	%al, 1(%r12,%rcx)
	movzbl	2(%rsi,%rcx), %eax
	movb	%al, 2(%r12,%rcx)
	movzbl	3(%rsi,%rcx), %eax
	movb	%al, 3(%r12,%rcx)
	addq	$4, %rcx
	cmpq	%rcx, %r15
	jne	.Lunix_path_BB15_21
.Lunix_path_BB15_22:
	cmpb	$1, (%r14)
	jne	.Lunix_path_BB15_24
	movq	%r12, 56(%rsp)
	movq	%r15, 64(%rsp)
	movq	8(%r14), %rdx
	jmp	.Lunix_path_BB15_26
.Lunix_path_BB15_24:
	movl	$368, %edi
	movl	$8, %esi
	callq	rattle_alloc@PLT
	testb	$1, %al
	je	.Lunix_path_BB15_42
	movq	%r12, 56(%rsp)
	movq	%r15, 64(%rsp)
	movl	$0, (%rdx)
	movzbl	(%r14), %eax
	movq	$1, (%r14)
	movq	%rdx, 8(%r14)
	cmpb	$1, %al
	je	.Lunix_path_BB15_105
.Lunix_path_BB15_26:
	movq	%r14, 96(%rsp)
	leaq	8(%r14), %rax
	movq	%rax, 8(%rsp)
	movzwl	2(%rdx), %eax
	movl	$15, %ebp
	subq	%rax, %rbp
	movq	%rax, 40(%rsp)
	movl	%eax, %r9d
	negb	%r9b
	xorl	%r15d, %r15d
	movq	%rdx, %rax
	movq	$0, 32(%rsp)
	movq	%rdx, 216(%rsp)
	movq	%rdx, 16(%rsp)
	movq	%rbp, 104(%rsp)
	xorl	%r12d, %r12d
	movq	%rax, %r13
	movzwl	(%rax), %ebx
	testq	%rbx, %rbx
	jne	.Lunix_path_BB15_27
	jmp	.Lunix_path_BB15_33
	.p2align	4
.Lunix_path_BB15_32:
	movq	72(%rsp), %r15
	jmp	.Lunix_path_BB15_34
	.p2align	4
.Lunix_path_BB15_33:
	xorl	%r14d, %r14d
.Lunix_path_BB15_34:
	shlq	$4, %r12
	addq	%r14, %r12
	incq	%rbp
	cmpw	$0, 2(%r13)
	je	.Lunix_path_BB15_40
	movq	368(%r13,%r14,8), %rax
	incq	%r15
	incb	%r9b
	movq	%r14, 32(%rsp)
	movq	%r13, 16(%rsp)
	movq	%rax, %r13
	movzwl	(%rax), %ebx
	testq	%rbx, %rbx
	je	.Lunix_path_BB15_33
.Lunix_path_BB15_27:
	movb	%r9b, 48(%rsp)
	movq	%r15, 72(%rsp)
	leaq	16(%r13), %r15
	xorl	%r14d, %r14d
	.p2align	4
.Lunix_path_BB15_28:
	movq	-8(%r15), %rdx
	movq	(%r15), %rcx
	movq	56(%rsp), %rdi
	movq	64(%rsp), %rsi
	callq	unix_path.order.PathOrd.cmp
	cmpb	$2, %al
	jne	.Lunix_path_BB15_31
	incq	%r14
	addq	$24, %r15
	cmpq	%r14, %rbx
	jne	.Lunix_path_BB15_28
	movq	%rbx, %r14
	movq	72(%rsp), %r15
	movzbl	48(%rsp), %r9d
	jmp	.Lunix_path_BB15_34
	.p2align	4
.Lunix_path_BB15_31:
	movzbl	%al, %eax
	testl	%eax, %eax
	movzbl	48(%rsp), %r9d
	je	.Lunix_path_BB15_32
	andl	$15, %r14d
	movq	40(%rsp), %rax
	addq	%rbp, %rax
	cmpq	$15, %rax
	movq	16(%rsp), %rax
	movq	32(%rsp), %rcx
	leaq	368(%rax,%rcx,8), %rax
	cmoveq	8(%rsp), %rax
	movq	(%rax), %rax
	movzwl	(%rax), %eax
	cmpl	%eax, %r14d
	jae	.Lunix_path_BB15_105
	cmpq	$0, 64(%rsp)
	movq	56(%rsp), %rdi
	je	.Lunix_path_BB15_39
	callq	rattle_dealloc@PLT
.Lunix_path_BB15_39:
	xorl	%r13d, %r13d
	jmp	.Lunix_path_BB15_44
.Lunix_path_BB15_40:
	movabsq	$9223372036854775806, %rax
	movq	96(%rsp), %rcx
	cmpq	%rax, 16(%rcx)
	jbe	.Lunix_path_BB15_45
.Lunix_path_BB15_41:
	movq	64(%rsp), %r15
	movq	56(%rsp), %r12
.Lunix_path_BB15_42:
	movb	$1, %r13b
	testq	%r15, %r15
	je	.Lunix_path_BB15_44
	movq	%r12, %rdi
	callq	rattle_dealloc@PLT
.Lunix_path_BB15_44:
	movl	%r13d, %eax
	addq	$392, %rsp
	popq	%rbx
	popq	%r12
	popq	%r13
	popq	%r14
	popq	%r15
	popq	%rbp
	retq
.Lunix_path_BB15_45:
	movq	%rbp, %rcx
	movq	104(%rsp), %rdx
	subq	%rdx, %rcx
	cmpq	$1, %rcx
	movq	16(%rsp), %rsi
	movq	32(%rsp), %rdi
	leaq	368(%rsi,%rdi,8), %rax
	cmoveq	8(%rsp), %rax
	movq	(%rax), %rax
	cmpw	$14, (%rax)
	ja	.Lunix_path_BB15_47
	shlq	$3, %rdi
	movq	96(%rsp), %r14
	jmp	.Lunix_path_BB15_101
.Lunix_path_BB15_47:
	movq	216(%rsp), %r8
	cmpw	$15, (%r8)
	movq	%rdx, %rax
	jae	.Lunix_path_BB15_94
.Lunix_path_BB15_48:
	xorps	%xmm0, %xmm0
	movaps	%xmm0, 80(%rsp)
	movq	%rbp, %rcx
	subq	%rax, %rcx
	movq	%rcx, 40(%rsp)
	jbe	.Lunix_path_BB15_54
	movl	%ebp, %ecx
	subl	%eax, %ecx
	addq	%rdx, %r15
	subq	%rax, %r15
	testb	$3, %cl
	je	.Lunix_path_BB15_52
	subb	%al, %r9b
	movzbl	%r9b, %ecx
	andl	$3, %ecx
.Lunix_path_BB15_51:
	movl	%r12d, %edx
	andb	$15, %dl
	movb	%dl, 79(%rsp,%rbp)
	decq	%rbp
	shrq	$4, %r12
	decq	%rcx
	jne	.Lunix_path_BB15_51
.Lunix_path_BB15_52:
	cmpq	$3, %r15
	jb	.Lunix_path_BB15_54
.Lunix_path_BB15_53:
	movl	%r12d, %ecx
	andb	$15, %cl
	movb	%cl, 79(%rsp,%rbp)
	movl	%r12d, %ecx
	shrb	$4, %cl
	movb	%cl, 78(%rsp,%rbp)
	movl	%r12d, %ecx
	shrl	$8, %ecx
	andb	$15, %cl
	movb	%cl, 77(%rsp,%rbp)
	movl	%r12d, %ecx
	shrl	$12, %ecx
	andb	$15, %cl
	movb	%cl, 76(%rsp,%rbp)
	addq	$-4, %rbp
	shrq	$16, %r12
	cmpq	%rbp, %rax
	jb	.Lunix_path_BB15_53
.Lunix_path_BB15_54:
	movl	$16, %r14d
	subq	%rax, %r14
	cmpq	$2, %r14
	jb	.Lunix_path_BB15_98
	leaq	(%rsp,%rax), %rbp
	addq	$80, %rbp
	movq	8(%rsp), %r15
	jmp	.Lunix_path_BB15_59
.Lunix_path_BB15_56:
	movq	72(%rsp), %rcx
	incl	%ecx
	movb	%cl, (%rbp)
	addb	$-8, %al
	movb	%al, 1(%rbp)
.Lunix_path_BB15_57:
	movq	16(%rsp), %r14
.Lunix_path_BB15_58:
	movzbl	%cl, %edi
	leaq	(%rsi,%rdi,8), %r15
	addq	$368, %r15
	incq	%rbp
	cmpq	$2, %r14
	leaq	-1(%r14), %r14
	jbe	.Lunix_path_BB15_97
.Lunix_path_BB15_59:
	movzbl	(%rbp), %r12d
	movl	%r12d, %ecx
	movq	(%r15), %rsi
	movq	368(%rsi,%r12,8), %rax
	cmpw	$15, (%rax)
	jb	.Lunix_path_BB15_58
	movq	%rcx, 72(%rsp)
	movzwl	2(%rsi), %ebx
	decq	%rbx
	je	.Lunix_path_BB15_62
	movl	$496, %edi
	jmp	.Lunix_path_BB15_63
.Lunix_path_BB15_62:
	movl	$368, %edi
.Lunix_path_BB15_63:
	movl	$8, %esi
	callq	rattle_alloc@PLT
	testb	$1, %al
	je	.Lunix_path_BB15_102
	movq	%rdx, %r13
	movw	%bx, 2(%rdx)
	leaq	8(%rdx), %rdi
	movq	(%r15), %rax
	xorps	%xmm0, %xmm0
	movaps	%xmm0, 304(%rsp)
	movq	$0, 320(%rsp)
	movzwl	(%rax), %edx
	xorl	%ecx, %ecx
	xorl	%esi, %esi
	cmpw	$0, 2(%rax)
	leaq	1(%rdx), %r8
	setne	%sil
	cmoveq	%rcx, %r8
	shll	$4, %esi
	leaq	368(%rax), %r10
	leaq	8(%rax), %r9
	movq	%r9, 224(%rsp)
	movq	%rdx, 232(%rsp)
	movq	$15, 240(%rsp)
	movq	%r10, 248(%rsp)
	movq	%rdx, 256(%rsp)
	movq	$15, 264(%rsp)
	movq	%r10, 32(%rsp)
	movq	%r10, 272(%rsp)
	movq	%r8, 280(%rsp)
	movq	%rsi, 288(%rsp)
	movq	%rax, 296(%rsp)
	movaps	%xmm0, 192(%rsp)
	movq	$0, 208(%rsp)
	movq	368(%rax,%r12,8), %rax
	movaps	%xmm0, 368(%rsp)
	movq	$0, 384(%rsp)
	movzwl	2(%rax), %ebx
	movzwl	(%rax), %r8d
	leaq	1(%r8), %rdx
	xorl	%esi, %esi
	testw	%bx, %bx
	setne	%sil
	cmoveq	%rcx, %rdx
	shll	$4, %esi
	leaq	368(%rax), %rcx
	leaq	8(%rax), %r9
	movq	%r9, 112(%rsp)
	movq	$15, 128(%rsp)
	movq	%rcx, 136(%rsp)
	movq	$15, 152(%rsp)
	movq	%rcx, 160(%rsp)
	movq	%rdx, 168(%rsp)
	movq	%rsi, 176(%rsp)
	movq	%rax, 184(%rsp)
	leaq	-8(%r8), %r9
	leaq	200(%rax), %rsi
	leaq	-64(,%r8,8), %rcx
	leaq	(%rcx,%rcx,2), %rdx
	movq	%rdi, %rcx
	subq	%rsi, %rcx
	cmpq	%rdx, %rcx
	movq	%r9, 48(%rsp)
	jae	.Lunix_path_BB15_68
	testq	%r9, %r9
	je	.Lunix_path_BB15_74
	movl	%r8d, %ecx
	andl	$7, %ecx
	addl	$-9, %r8d
	cmpw	$7, %r8w
	jae	.Lunix_path_BB15_69
	xorl	%edx, %edx
	jmp	.Lunix_path_BB15_72
.Lunix_path_BB15_68:
	callq	memmove@PLT
	jmp	.Lunix_path_BB15_74
.Lunix_path_BB15_69:
	movq	48(%rsp), %r8
	andq	$-8, %r8
	xorl	%edx, %edx
	xorl	%r9d, %r9d
.Lunix_path_BB15_70:
	movups	(%rsi,%r9), %xmm0
	movq	16(%rsi,%r9), %r10
	movq	%r10, 16(%rdi,%r9)
	movups	%xmm0, (%rdi,%r9)
	movups	24(%rsi,%r9), %xmm0
	movq	40(%rsi,%r9), %r10
	movq	%r10, 40(%rdi,%r9)
	movups	%xmm0, 24(%rdi,%r9)
	movups	48(%rsi,%r9), %xmm0
	movq	64(%rsi,%r9), %r10
	movq	%r10, 64(%rdi,%r9)
	movups	%xmm0, 48(%rdi,%r9)
	movups	72(%rsi,%r9), %xmm0
	movq	88(%rsi,%r9), %r10
	movq	%r10, 88(%rdi,%r9)
	movups	%xmm0, 72(%rdi,%r9)
	movups	96(%rsi,%r9), %xmm0
	movq	112(%rsi,%r9), %r10
	movq	%r10, 112(%rdi,%r9)
	movups	%xmm0, 96(%rdi,%r9)
	movups	120(%rsi,%r9), %xmm0
	movq	136(%rsi,%r9), %r10
	movq	%r10, 136(%rdi,%r9)
	movups	%xmm0, 120(%rdi,%r9)
	movups	144(%rsi,%r9), %xmm0
	movq	160(%rsi,%r9), %r10
	movq	%r10, 160(%rdi,%r9)
	movups	%xmm0, 144(%rdi,%r9)
	movups	168(%rsi,%r9), %xmm0
	movq	184(%rsi,%r9), %r10
	movq	%r10, 184(%rdi,%r9)
	movups	%xmm0, 168(%rdi,%r9)
	addq	$8, %rdx
	addq	$192, %r9
	cmpq	%rdx, %r8
	jne	.Lunix_path_BB15_70
	testq	%rcx, %rcx
	je	.Lunix_path_BB15_74
.Lunix_path_BB15_72:
	shlq	$3, %rdx
	leaq	(%rdx,%rdx,2), %rdx
	addq	%rdx, %rax
	addq	$200, %rax
	addq	%r13, %rdx
	addq	$8, %rdx
	shll	$3, %ecx
	leaq	(%rcx,%rcx,2), %rcx
	xorl	%esi, %esi
	.p2align	4
.Lunix_path_BB15_73:
	movups	(%rax,%rsi), %xmm0
	movq	16(%rax,%rsi), %rdi
	movq	%rdi, 16(%rdx,%rsi)
	movups	%xmm0, (%rdx,%rsi)
	addq	$24, %rsi
	cmpq	%rsi, %rcx
	jne	.Lunix_path_BB15_73
.Lunix_path_BB15_74:
	movq	$8, 120(%rsp)
	movq	$8, 144(%rsp)
	xorps	%xmm0, %xmm0
	movaps	%xmm0, 336(%rsp)
	movq	$0, 352(%rsp)
	leaq	336(%rsp), %rdi
	leaq	112(%rsp), %rsi
	movl	$7, %edx
	callq	std_alloc.vec.Vec.remove.b40003dd673f1bd1.
	testw	%bx, %bx
	je	.Lunix_path_BB15_90
	leaq	368(%r13), %rdi
	movq	160(%rsp), %rax
	movq	168(%rsp), %r8
	leaq	64(%rax), %rsi
	leaq	-64(,%r8,8), %rdx
	movq	%rdi, %rcx
	subq	%rsi, %rcx
	cmpq	%rdx, %rcx
	jae	.Lunix_path_BB15_79
	movq	%r8, %rcx
	addq	$-8, %rcx
	je	.Lunix_path_BB15_90
	cmpq	$4, %rcx
	jb	.Lunix_path_BB15_78
	movq	%r13, %rdx
	subq	%rax, %rdx
	addq	$304, %rdx
	cmpq	$32, %rdx
	jae	.Lunix_path_BB15_82
.Lunix_path_BB15_78:
	xorl	%edx, %edx
.Lunix_path_BB15_85:
	movq	%r8, %r10
	movq	%rdx, %r9
	andq	$3, %r10
	je	.Lunix_path_BB15_88
	movq	%rdx, %r9
.Lunix_path_BB15_87:
	movq	(%rsi,%r9,8), %r11
	movq	%r11, (%rdi,%r9,8)
	incq	%r9
	decq	%r10
	jne	.Lunix_path_BB15_87
.Lunix_path_BB15_88:
	subq	%rdx, %r8
	addq	$-9, %r8
	cmpq	$3, %r8
	jb	.Lunix_path_BB15_90
.Lunix_path_BB15_89:
	movq	64(%rax,%r9,8), %rdx
	movq	%rdx, 368(%r13,%r9,8)
	movq	72(%rax,%r9,8), %rdx
	movq	%rdx, 376(%r13,%r9,8)
	movq	80(%rax,%r9,8), %rdx
	movq	%rdx, 384(%r13,%r9,8)
	movq	88(%rax,%r9,8), %rdx
	movq	%rdx, 392(%r13,%r9,8)
	addq	$4, %r9
	cmpq	%r9, %rcx
	jne	.Lunix_path_BB15_89
	jmp	.Lunix_path_BB15_90
.Lunix_path_BB15_79:
	callq	memmove@PLT
.Lunix_path_BB15_90:
	movq	%r14, 16(%rsp)
	movzwl	120(%rsp), %eax
	movq	184(%rsp), %rcx
	movw	%ax, (%rcx)
	movq	48(%rsp), %rax
	movw	%ax, (%r13)
	movq	352(%rsp), %rax
	movaps	336(%rsp), %xmm0
	movaps	%xmm0, 192(%rsp)
	movq	%rax, 208(%rsp)
	movq	32(%rsp), %rax
	movq	%rcx, (%rax,%r12,8)
	movq	208(%rsp), %rax
	movq	%rax, 320(%rsp)
	movaps	192(%rsp), %xmm0
	movaps	%xmm0, 304(%rsp)
	leaq	224(%rsp), %rdi
	leaq	304(%rsp), %rdx
	movq	%r12, %rsi
	callq	std_alloc.vec.lodged.Vec.T.Lodged.insert_reserved.23.unix_path.buf.PathBuf.
	incq	%r12
	movq	272(%rsp), %rbx
	movq	280(%rsp), %rdx
	leal	(,%r12,8), %r14d
	subq	%r12, %rdx
	je	.Lunix_path_BB15_92
	leaq	(%rbx,%r14), %rsi
	leaq	(%rbx,%r14), %rdi
	addq	$8, %rdi
	shlq	$3, %rdx
	callq	memmove@PLT
.Lunix_path_BB15_92:
	movq	%r13, (%rbx,%r14)
	movzwl	232(%rsp), %eax
	movq	296(%rsp), %rsi
	movw	%ax, (%rsi)
	movq	%rsi, (%r15)
	movzbl	1(%rbp), %eax
	cmpb	$7, %al
	ja	.Lunix_path_BB15_56
	movzbl	(%rbp), %ecx
	jmp	.Lunix_path_BB15_57
.Lunix_path_BB15_82:
	movq	%rcx, %rdx
	andq	$-4, %rdx
	xorl	%r9d, %r9d
.Lunix_path_BB15_83:
	movups	64(%rax,%r9,8), %xmm0
	movups	80(%rax,%r9,8), %xmm1
	movups	%xmm0, 368(%r13,%r9,8)
	movups	%xmm1, 384(%r13,%r9,8)
	addq	$4, %r9
	cmpq	%r9, %rdx
	jne	.Lunix_path_BB15_83
	cmpq	%rdx, %rcx
	je	.Lunix_path_BB15_90
	jmp	.Lunix_path_BB15_85
.Lunix_path_BB15_94:
	cmpw	$10, 40(%rsp)
	ja	.Lunix_path_BB15_41
	movl	$496, %edi
	movl	$8, %esi
	movl	%r9d, %ebx
	callq	rattle_alloc@PLT
	testb	$1, %al
	je	.Lunix_path_BB15_41
	movl	%ebx, %r9d
	movq	40(%rsp), %rsi
	leal	1(%rsi), %eax
	movq	%rdx, %r8
	movw	%ax, 2(%rdx)
	movq	8(%rsp), %rcx
	movq	(%rcx), %rax
	movq	%rax, 368(%rdx)
	movw	$0, (%rdx)
	movq	%rdx, (%rcx)
	movl	$14, %eax
	subq	%rsi, %rax
	movq	16(%rsp), %rsi
	movq	32(%rsp), %rdi
	movq	104(%rsp), %rdx
	jmp	.Lunix_path_BB15_48
.Lunix_path_BB15_97:
	movq	8(%rsp), %rax
	movq	(%rax), %r8
.Lunix_path_BB15_98:
	movq	%r8, %rax
	cmpw	$0, (%r8)
	je	.Lunix_path_BB15_103
	movq	96(%rsp), %r14
	cmpb	$1, (%r14)
	movq	40(%rsp), %rcx
	jne	.Lunix_path_BB15_105
	movzbl	95(%rsp), %r12d
	shlq	$3, %rdi
.Lunix_path_BB15_101:
	cmpq	$1, %rcx
	leaq	368(%rsi,%rdi), %rbx
	cmoveq	8(%rsp), %rbx
	andl	$15, %r12d
	movq	56(%rsp), %rax
	movq	%rax, 224(%rsp)
	movq	64(%rsp), %rax
	movq	%rax, 232(%rsp)
	movq	%rax, 240(%rsp)
	movq	(%rbx), %rax
	movzwl	(%rax), %ecx
	leaq	1(%rcx), %rdx
	xorl	%r13d, %r13d
	xorl	%esi, %esi
	cmpw	$0, 2(%rax)
	setne	%sil
	movl	$0, %edi
	cmovneq	%rdx, %rdi
	shll	$4, %esi
	leaq	368(%rax), %rdx
	leaq	8(%rax), %r8
	movq	%r8, 112(%rsp)
	movq	%rcx, 120(%rsp)
	movq	$15, 128(%rsp)
	movq	%rdx, 136(%rsp)
	movq	%rcx, 144(%rsp)
	movq	$15, 152(%rsp)
	movq	%rdx, 160(%rsp)
	movq	%rdi, 168(%rsp)
	movq	%rsi, 176(%rsp)
	movq	%rax, 184(%rsp)
	leaq	112(%rsp), %rdi
	leaq	224(%rsp), %rdx
	movq	%r12, %rsi
	callq	std_alloc.vec.lodged.Vec.T.Lodged.insert_reserved.23.unix_path.buf.PathBuf.
	movzwl	120(%rsp), %eax
	movq	184(%rsp), %rcx
	movw	%ax, (%rcx)
	movq	%rcx, (%rbx)
	incq	16(%r14)
	jmp	.Lunix_path_BB15_44
.Lunix_path_BB15_102:
	movq	8(%rsp), %rax
	movq	(%rax), %rcx
	movq	%rcx, %rax
	cmpw	$0, (%rcx)
	jne	.Lunix_path_BB15_41
.Lunix_path_BB15_103:
	cmpw	$0, 2(%rax)
	je	.Lunix_path_BB15_41
	movq	%rax, %rdi
	movq	368(%rax), %rbx
	callq	rattle_dealloc@PLT
	movq	8(%rsp), %rax
	movq	%rbx, (%rax)
	jmp	.Lunix_path_BB15_41
.Lunix_path_BB15_105:
	ud2
.Lunix_path_func_end15:
	.size	pathtool.tables.insert_path, .Lunix_path_func_end15-pathtool.tables.insert_path
	.section	.text.unix_path.order.PathOrd.cmp,"ax",@progbits
	.p2align	4
	.type	unix_path.order.PathOrd.cmp,@function
# unix_path::order::PathOrd::cmp
unix_path.order.PathOrd.cmp:
	pushq	%rax
	cmpq	%rsi, %rcx
	movq	%rsi, %rax
	cmovbq	%rcx, %rax
	cmpq	$15, %rax
	ja	.Lunix_path_BB16_6
	cmpq	$7, %rax
	ja	.Lunix_path_BB16_13
	testq	%rax, %rax
	je	.Lunix_path_BB16_17
	movzbl	(%rdi), %r8d
	cmpb	(%rdx), %r8b
	jne	.Lunix_path_BB16_17
	cmpq	$1, %rax
	jne	.Lunix_path_BB16_76
.Lunix_path_BB16_5:
	movq	%rax, %r8
	jmp	.Lunix_path_BB16_18
.Lunix_path_BB16_6:
	leaq	-16(%rax), %r9
	xorl	%r10d, %r10d
	cmpq	$64, %rax
	jb	.Lunix_path_BB16_11
	.p2align	4
.Lunix_path_BB16_7:
	movdqu	(%rdi,%r10), %xmm0
	movdqu	16(%rdi,%r10), %xmm1
	movdqu	32(%rdi,%r10), %xmm2
	movdqu	48(%rdi,%r10), %xmm3
	movdqu	(%rdx,%r10), %xmm4
	pcmpeqb	%xmm0, %xmm4
	movdqu	16(%rdx,%r10), %xmm0
	pcmpeqb	%xmm1, %xmm0
	pand	%xmm4, %xmm0
	movdqu	32(%rdx,%r10), %xmm1
	pcmpeqb	%xmm2, %xmm1
	movdqu	48(%rdx,%r10), %xmm2
	pcmpeqb	%xmm3, %xmm2
	pand	%xmm1, %xmm2
	pand	%xmm0, %xmm2
	pmovmskb	%xmm2, %r8d
	cmpl	$65535, %r8d
	jne	.Lunix_path_BB16_11
	addq	$64, %r10
	addq	$-64, %rax
	cmpq	$63, %rax
	ja	.Lunix_path_BB16_7
	jmp	.Lunix_path_BB16_11
	.p2align	4
.Lunix_path_BB16_9:
	movdqu	(%rdi,%r10), %xmm0
	movdqu	(%rdx,%r10), %xmm1
	pcmpeqb	%xmm0, %xmm1
	pmovmskb	%xmm1, %eax
	notl	%eax
	rep		bsfl	%eax, %eax
	cmpw	$15, %ax
	jbe	.Lunix_path_BB16_15
	addq	$16, %r10
.Lunix_path_BB16_11:
	cmpq	%r9, %r10
	jb	.Lunix_path_BB16_9
	movdqu	(%rdi,%r9), %xmm0
	movdqu	(%rdx,%r9), %xmm1
	pcmpeqb	%xmm0, %xmm1
	pmovmskb	%xmm1, %eax
	notl	%eax
	rep		bsfl	%eax, %r8d
	addq	%r9, %r8
	jmp	.Lunix_path_BB16_18
.Lunix_path_BB16_13:
	movq	(%rdi), %xmm0
	movq	(%rdx), %xmm1
	pcmpeqb	%xmm0, %xmm1
	pmovmskb	%xmm1, %r8d
	notl	%r8d
	orl	$256, %r8d
	rep		bsfl	%r8d, %r8d
	cmpb	$8, %r8b
	jb	.Lunix_path_BB16_18
	movq	-8(%rdi,%rax), %xmm0
	movq	-8(%rdx,%rax), %xmm1
	pcmpeqb	%xmm0, %xmm1
	pmovmskb	%xmm1, %r8d
	notl	%r8d
	orl	$256, %r8d
	rep		bsfl	%r8d, %r8d
	addq	%rax, %r8
	addq	$-8, %r8
	jmp	.Lunix_path_BB16_18
.Lunix_path_BB16_17:
	xorl	%r8d, %r8d
	jmp	.Lunix_path_BB16_18
.Lunix_path_BB16_15:
	movzwl	%ax, %r8d
	addq	%r10, %r8
.Lunix_path_BB16_18:
	movq	%r8, %r9
	xorq	%rsi, %r9
	movq	%r8, %r10
	xorq	%rcx, %r10
	movb	$1, %al
	orq	%r9, %r10
	jne	.Lunix_path_BB16_20
	popq	%rcx
	retq
.Lunix_path_BB16_20:
	cmpq	%rsi, %r8
	jae	.Lunix_path_BB16_23
	movzbl	(%rdi,%r8), %eax
	cmpw	$47, %ax
	jne	.Lunix_path_BB16_26
.Lunix_path_BB16_23:
	xorl	%eax, %eax
	cmpq	%rcx, %r8
	jae	.Lunix_path_BB16_29
.Lunix_path_BB16_24:
	movzbl	(%rdx,%r8), %r9d
	cmpw	$47, %r9w
	je	.Lunix_path_BB16_29
	movzwl	%r9w, %r9d
	incl	%r9d
	cmpw	%r9w, %ax
	je	.Lunix_path_BB16_30
.Lunix_path_BB16_32:
	testq	%r8, %r8
	je	.Lunix_path_BB16_43
	movzbl	-1(%rdi,%r8), %r10d
	cmpb	$47, %r10b
	je	.Lunix_path_BB16_34
	cmpb	$46, %r10b
	jne	.Lunix_path_BB16_42
	movq	%r8, %r10
	decq	%r10
	je	.Lunix_path_BB16_43
	cmpb	$47, -1(%rdi,%r10)
	je	.Lunix_path_BB16_35
.Lunix_path_BB16_42:
	cmpw	%r9w, %ax
	setae	%al
	addb	%al, %al
	popq	%rcx
	retq
.Lunix_path_BB16_26:
	cmpb	$46, %al
	sete	%r9b
	cmpq	%rcx, %r8
	setae	%r10b
	orb	%r9b, %r10b
	jne	.Lunix_path_BB16_28
	movzbl	(%rdx,%r8), %r9d
	movl	%r9d, %r10d
	andb	$-2, %r10b
	cmpb	$46, %r10b
	jne	.Lunix_path_BB16_79
.Lunix_path_BB16_28:
	movzwl	%ax, %eax
	incl	%eax
	cmpq	%rcx, %r8
	jb	.Lunix_path_BB16_24
.Lunix_path_BB16_29:
	xorl	%r9d, %r9d
	cmpw	%r9w, %ax
	jne	.Lunix_path_BB16_32
.Lunix_path_BB16_30:
	testq	%r8, %r8
	je	.Lunix_path_BB16_43
.Lunix_path_BB16_34:
	movq	%r8, %r10
.Lunix_path_BB16_35:
	addq	%r10, %rdx
	movq	%rcx, %rax
	subq	%r10, %rax
	subq	%r10, %rsi
	jne	.Lunix_path_BB16_37
	movq	%rdx, %rdi
	movq	%rax, %rsi
	callq	unix_path.pair.rest_len
	testq	%rax, %rax
	sete	%al
	popq	%rcx
	retq
.Lunix_path_BB16_43:
	testq	%rsi, %rsi
	je	.Lunix_path_BB16_52
	movzbl	(%rdi), %eax
	cmpl	$47, %eax
	je	.Lunix_path_BB16_65
	cmpl	$46, %eax
	jne	.Lunix_path_BB16_54
	movb	$2, %al
	cmpq	$1, %rsi
	je	.Lunix_path_BB16_55
	movzbl	1(%rdi), %r9d
	cmpl	$47, %r9d
	je	.Lunix_path_BB16_55
	cmpl	$46, %r9d
	jne	.Lunix_path_BB16_54
	cmpq	$2, %rsi
	je	.Lunix_path_BB16_51
	movb	$4, %al
	cmpb	$47, 2(%rdi)
	jne	.Lunix_path_BB16_55
.Lunix_path_BB16_51:
	movb	$3, %al
	testq	%rcx, %rcx
	jne	.Lunix_path_BB16_56
	jmp	.Lunix_path_BB16_66
.Lunix_path_BB16_37:
	addq	%r10, %rdi
	cmpq	%r10, %rcx
	jne	.Lunix_path_BB16_53
	callq	unix_path.pair.rest_len
	cmpq	$1, %rax
	movb	$2, %al
	sbbb	$0, %al
	popq	%rcx
	retq
.Lunix_path_BB16_52:
	xorl	%eax, %eax
	testq	%rcx, %rcx
	jne	.Lunix_path_BB16_56
.Lunix_path_BB16_66:
	xorl	%r9d, %r9d
	jmp	.Lunix_path_BB16_67
.Lunix_path_BB16_53:
	movq	%rax, %rcx
	popq	%rax
	jmp	unix_path.pair.Comparison.order_after_cut
.Lunix_path_BB16_54:
	movb	$4, %al
.Lunix_path_BB16_55:
	testq	%rcx, %rcx
	je	.Lunix_path_BB16_66
.Lunix_path_BB16_56:
	movzbl	(%rdx), %r9d
	cmpl	$47, %r9d
	je	.Lunix_path_BB16_74
	cmpl	$46, %r9d
	jne	.Lunix_path_BB16_64
	movb	$2, %r9b
	cmpq	$1, %rcx
	je	.Lunix_path_BB16_67
	movzbl	1(%rdx), %r10d
	cmpl	$47, %r10d
	je	.Lunix_path_BB16_67
	cmpl	$46, %r10d
	jne	.Lunix_path_BB16_64
	cmpq	$2, %rcx
	je	.Lunix_path_BB16_63
	movb	$4, %r9b
	cmpb	$47, 2(%rdx)
	jne	.Lunix_path_BB16_67
.Lunix_path_BB16_63:
	movb	$3, %r9b
	cmpb	%r9b, %al
	setae	%al
	je	.Lunix_path_BB16_68
	jmp	.Lunix_path_BB16_75
.Lunix_path_BB16_67:
	cmpb	%r9b, %al
	setae	%al
	jne	.Lunix_path_BB16_75
.Lunix_path_BB16_68:
	cmpq	%rsi, %r8
	jae	.Lunix_path_BB16_71
	movzbl	(%rdi,%r8), %eax
	cmpw	$47, %ax
	jne	.Lunix_path_BB16_81
.Lunix_path_BB16_71:
	xorl	%eax, %eax
	cmpq	%rcx, %r8
	jae	.Lunix_path_BB16_82
	jmp	.Lunix_path_BB16_72
.Lunix_path_BB16_64:
	movb	$4, %r9b
	cmpb	%r9b, %al
	setae	%al
	je	.Lunix_path_BB16_68
.Lunix_path_BB16_75:
	addb	%al, %al
	popq	%rcx
	retq
.Lunix_path_BB16_65:
	movb	$1, %al
	testq	%rcx, %rcx
	jne	.Lunix_path_BB16_56
	jmp	.Lunix_path_BB16_66
.Lunix_path_BB16_74:
	movb	$1, %r9b
	cmpb	%r9b, %al
	setae	%al
	je	.Lunix_path_BB16_68
	jmp	.Lunix_path_BB16_75
.Lunix_path_BB16_76:
	movzbl	1(%rdi), %r9d
	movl	$1, %r8d
	cmpb	1(%rdx), %r9b
	jne	.Lunix_path_BB16_18
	cmpq	$2, %rax
	je	.Lunix_path_BB16_5
	movzbl	2(%rdi), %r9d
	movl	$2, %r8d
	cmpb	2(%rdx), %r9b
	jne	.Lunix_path_BB16_18
	cmpq	$3, %rax
	je	.Lunix_path_BB16_5
	movzbl	3(%rdi), %r9d
	movl	$3, %r8d
	cmpb	3(%rdx), %r9b
	jne	.Lunix_path_BB16_18
	cmpq	$4, %rax
	je	.Lunix_path_BB16_5
	movzbl	4(%rdi), %r9d
	movl	$4, %r8d
	cmpb	4(%rdx), %r9b
	jne	.Lunix_path_BB16_18
	cmpq	$5, %rax
	je	.Lunix_path_BB16_5
	movzbl	5(%rdi), %r9d
	movl	$5, %r8d
	cmpb	5(%rdx), %r9b
	jne	.Lunix_path_BB16_18
	cmpq	$6, %rax
	je	.Lunix_path_BB16_5
	movzbl	6(%rdi), %r8d
	cmpb	6(%rdx), %r8b
	movl	$6, %r8d
	cmoveq	%rax, %r8
	jmp	.Lunix_path_BB16_18
.Lunix_path_BB16_79:
	cmpb	%r9b, %al
	setae	%cl
	addb	%cl, %cl
	cmpb	%r9b, %al
	movzbl	%cl, %ecx
	movl	$1, %eax
	cmovnel	%ecx, %eax
	popq	%rcx
	retq
.Lunix_path_BB16_81:
	movzwl	%ax, %eax
	incl	%eax
	cmpq	%rcx, %r8
	jae	.Lunix_path_BB16_82
.Lunix_path_BB16_72:
	movzbl	(%rdx,%r8), %ecx
	cmpw	$47, %cx
	jne	.Lunix_path_BB16_83
.Lunix_path_BB16_82:
	xorl	%ecx, %ecx
	jmp	.Lunix_path_BB16_84
.Lunix_path_BB16_83:
	movzwl	%cx, %ecx
	incl	%ecx
.Lunix_path_BB16_84:
	cmpw	%cx, %ax
	setae	%dl
	addb	%dl, %dl
	cmpw	%cx, %ax
	movzbl	%dl, %ecx
	movl	$1, %eax
	cmovnel	%ecx, %eax
	popq	%rcx
	retq
.Lunix_path_func_end16:
	.size	unix_path.order.PathOrd.cmp, .Lunix_path_func_end16-unix_path.order.PathOrd.cmp
	.section	.text.unix_path.pair.rest_len,"ax",@progbits
	.p2align	4
	.type	unix_path.pair.rest_len,@function
# unix_path::pair::rest_len
unix_path.pair.rest_len:
	xorl	%edx, %edx
	jmp	.Lunix_path_BB17_1
	.p2align	4
.Lunix_path_BB17_6:
	addq	%rax, %rdx
	cmpq	$4, %rdx
	jae	.Lunix_path_BB17_7
.Lunix_path_BB17_1:
	movq	%rdx, %rax
	cmpq	%rsi, %rdx
	jae	.Lunix_path_BB17_8
	movzbl	(%rdi,%rax), %ecx
	movl	$1, %edx
	cmpl	$47, %ecx
	je	.Lunix_path_BB17_6
	cmpl	$46, %ecx
	jne	.Lunix_path_BB17_8
	leaq	1(%rax), %rcx
	cmpq	%rsi, %rcx
	je	.Lunix_path_BB17_6
	movl	$2, %edx
	cmpb	$47, (%rdi,%rcx)
	je	.Lunix_path_BB17_6
.Lunix_path_BB17_8:
	subq	%rax, %rsi
	movq	%rsi, %rax
	retq
.Lunix_path_BB17_7:
	pushq	%rbx
	movq	%rsi, %rbx
	callq	unix_path.filler.filler_end_from
	movq	%rbx, %rsi
	popq	%rbx
	subq	%rax, %rsi
	movq	%rsi, %rax
	retq
.Lunix_path_func_end17:
	.size	unix_path.pair.rest_len, .Lunix_path_func_end17-unix_path.pair.rest_len
	.section	.rodata.cst16,"aM",@progbits,16
	.p2align	4, 0x0
.Lunix_path_CPI18_0:
	.zero	16,46
.Lunix_path_CPI18_1:
	.zero	16,47
	.section	.text.unlikely.unix_path.filler.filler_end_from,"ax",@progbits
	.p2align	4
	.type	unix_path.filler.filler_end_from,@function
# unix_path::filler::filler_end_from
unix_path.filler.filler_end_from:
	movq	%rdx, %rax
	movq	%rsi, %rcx
	subq	%rdx, %rcx
	cmpq	$17, %rcx
	jb	.Lunix_path_BB18_3
	.p2align	4
.Lunix_path_BB18_1:
	movdqu	(%rdi,%rax), %xmm0
	movdqu	1(%rdi,%rax), %xmm1
	movdqa	.Lunix_path_CPI18_0(%rip), %xmm2
	pcmpeqb	%xmm0, %xmm2
	movdqa	.Lunix_path_CPI18_1(%rip), %xmm3
	pcmpeqb	%xmm3, %xmm0
	pcmpeqb	%xmm3, %xmm1
	pand	%xmm2, %xmm1
	por	%xmm0, %xmm1
	pmovmskb	%xmm1, %edx
	cmpl	$65535, %edx
	jne	.Lunix_path_BB18_3
	addq	$16, %rax
	addq	$-16, %rcx
	cmpq	$16, %rcx
	ja	.Lunix_path_BB18_1
.Lunix_path_BB18_3:
	cmpq	%rsi, %rax
	jae	.Lunix_path_BB18_11
	leaq	-1(%rsi), %rcx
	jmp	.Lunix_path_BB18_5
	.p2align	4
.Lunix_path_BB18_9:
	incq	%rax
	cmpq	%rax, %rsi
	je	.Lunix_path_BB18_10
.Lunix_path_BB18_5:
	movzbl	(%rdi,%rax), %edx
	cmpl	$47, %edx
	je	.Lunix_path_BB18_9
	cmpl	$46, %edx
	jne	.Lunix_path_BB18_11
	cmpq	%rax, %rcx
	je	.Lunix_path_BB18_9
	cmpb	$47, 1(%rdi,%rax)
	je	.Lunix_path_BB18_9
.Lunix_path_BB18_11:
	retq
.Lunix_path_BB18_10:
	movq	%rsi, %rax
	retq
.Lunix_path_func_end18:
	.size	unix_path.filler.filler_end_from, .Lunix_path_func_end18-unix_path.filler.filler_end_from
	.section	.text.unix_path.pair.Comparison.order_after_cut,"ax",@progbits
	.p2align	4
	.type	unix_path.pair.Comparison.order_after_cut,@function
# unix_path::pair::Comparison::order_after_cut
unix_path.pair.Comparison.order_after_cut:
	pushq	%rbp
	pushq	%r15
	pushq	%r14
	pushq	%r13
	pushq	%r12
	pushq	%rbx
	pushq	%rax
	movq	%rcx, %r14
	movq	%rdx, %rbx
	movq	%rsi, %r12
	movq	%rdi, %r15
	jmp	.Lunix_path_BB19_4
	.p2align	4
.Lunix_path_BB19_1:
	testq	%rcx, %rcx
	je	.Lunix_path_BB19_57
.Lunix_path_BB19_2:
	movq	%rcx, %rsi
.Lunix_path_BB19_3:
	addq	%rsi, %r15
	subq	%rsi, %rbp
	addq	%rsi, %rbx
	subq	%rsi, %r14
	movq	%rbp, %r12
.Lunix_path_BB19_4:
	xorl	%edx, %edx
	jmp	.Lunix_path_BB19_6
	.p2align	4
.Lunix_path_BB19_5:
	addq	%r13, %rdx
	cmpq	$4, %rdx
	jae	.Lunix_path_BB19_11
.Lunix_path_BB19_6:
	movq	%rdx, %r13
	cmpq	%r12, %rdx
	jae	.Lunix_path_BB19_12
	movzbl	(%r15,%r13), %eax
	movl	$1, %edx
	cmpl	$47, %eax
	je	.Lunix_path_BB19_5
	cmpl	$46, %eax
	jne	.Lunix_path_BB19_12
	leaq	1(%r13), %rax
	cmpq	%r12, %rax
	je	.Lunix_path_BB19_5
	movl	$2, %edx
	cmpb	$47, (%r15,%rax)
	je	.Lunix_path_BB19_5
	jmp	.Lunix_path_BB19_12
.Lunix_path_BB19_11:
	movq	%r15, %rdi
	movq	%r12, %rsi
	callq	unix_path.filler.filler_end_from
	movq	%rax, %r13
	.p2align	4
.Lunix_path_BB19_12:
	addq	%r13, %r15
	movq	%r12, %rbp
	subq	%r13, %rbp
	xorl	%edx, %edx
	jmp	.Lunix_path_BB19_14
	.p2align	4
.Lunix_path_BB19_13:
	addq	%rax, %rdx
	cmpq	$4, %rdx
	jae	.Lunix_path_BB19_55
.Lunix_path_BB19_14:
	movq	%rdx, %rax
	cmpq	%r14, %rdx
	jae	.Lunix_path_BB19_19
	movzbl	(%rbx,%rax), %ecx
	movl	$1, %edx
	cmpl	$47, %ecx
	je	.Lunix_path_BB19_13
	cmpl	$46, %ecx
	jne	.Lunix_path_BB19_19
	leaq	1(%rax), %rcx
	cmpq	%r14, %rcx
	je	.Lunix_path_BB19_13
	movl	$2, %edx
	cmpb	$47, (%rbx,%rcx)
	je	.Lunix_path_BB19_13
	.p2align	4
.Lunix_path_BB19_19:
	subq	%rax, %r14
	je	.Lunix_path_BB19_56
.Lunix_path_BB19_20:
	addq	%rax, %rbx
	cmpq	%rbp, %r14
	movq	%rbp, %rax
	cmovbq	%r14, %rax
	cmpq	$15, %rax
	ja	.Lunix_path_BB19_26
	cmpq	$7, %rax
	ja	.Lunix_path_BB19_35
	xorl	%ecx, %ecx
	cmpq	%r13, %r12
	je	.Lunix_path_BB19_37
	.p2align	4
.Lunix_path_BB19_23:
	movzbl	(%r15,%rcx), %edx
	cmpb	(%rbx,%rcx), %dl
	jne	.Lunix_path_BB19_37
	incq	%rcx
	cmpq	%rcx, %rax
	jne	.Lunix_path_BB19_23
	movq	%rax, %rcx
	cmpq	%rbp, %rcx
	jb	.Lunix_path_BB19_38
	jmp	.Lunix_path_BB19_46
	.p2align	4
.Lunix_path_BB19_26:
	movdqu	(%r15), %xmm0
	movdqu	(%rbx), %xmm1
	pcmpeqb	%xmm0, %xmm1
	pmovmskb	%xmm1, %ecx
	notl	%ecx
	rep		bsfl	%ecx, %ecx
	cmpw	$16, %cx
	jb	.Lunix_path_BB19_37
	xorl	%edx, %edx
	cmpq	$64, %rax
	jb	.Lunix_path_BB19_31
	movq	%rax, %rcx
	.p2align	4
.Lunix_path_BB19_29:
	movdqu	(%r15,%rdx), %xmm0
	movdqu	16(%r15,%rdx), %xmm1
	movdqu	32(%r15,%rdx), %xmm2
	movdqu	48(%r15,%rdx), %xmm3
	movdqu	(%rbx,%rdx), %xmm4
	pcmpeqb	%xmm0, %xmm4
	movdqu	16(%rbx,%rdx), %xmm0
	pcmpeqb	%xmm1, %xmm0
	pand	%xmm4, %xmm0
	movdqu	32(%rbx,%rdx), %xmm1
	pcmpeqb	%xmm2, %xmm1
	movdqu	48(%rbx,%rdx), %xmm2
	pcmpeqb	%xmm3, %xmm2
	pand	%xmm1, %xmm2
	pand	%xmm0, %xmm2
	pmovmskb	%xmm2, %esi
	cmpl	$65535, %esi
	jne	.Lunix_path_BB19_31
	addq	$64, %rdx
	addq	$-64, %rcx
	cmpq	$63, %rcx
	ja	.Lunix_path_BB19_29
.Lunix_path_BB19_31:
	addq	$-16, %rax
	cmpq	%rax, %rdx
	jae	.Lunix_path_BB19_34
	.p2align	4
.Lunix_path_BB19_32:
	movdqu	(%r15,%rdx), %xmm0
	movdqu	(%rbx,%rdx), %xmm1
	pcmpeqb	%xmm0, %xmm1
	pmovmskb	%xmm1, %ecx
	notl	%ecx
	rep		bsfl	%ecx, %ecx
	cmpw	$15, %cx
	jbe	.Lunix_path_BB19_45
	addq	$16, %rdx
	cmpq	%rax, %rdx
	jb	.Lunix_path_BB19_32
.Lunix_path_BB19_34:
	movdqu	(%r15,%rax), %xmm0
	movdqu	(%rbx,%rax), %xmm1
	pcmpeqb	%xmm0, %xmm1
	pmovmskb	%xmm1, %ecx
	notl	%ecx
	rep		bsfl	%ecx, %ecx
	addq	%rax, %rcx
	cmpq	%rbp, %rcx
	jb	.Lunix_path_BB19_38
	jmp	.Lunix_path_BB19_46
	.p2align	4
.Lunix_path_BB19_35:
	movq	(%r15), %xmm0
	movq	(%rbx), %xmm1
	pcmpeqb	%xmm0, %xmm1
	pmovmskb	%xmm1, %ecx
	notl	%ecx
	orl	$256, %ecx
	rep		bsfl	%ecx, %ecx
	cmpb	$8, %cl
	jb	.Lunix_path_BB19_37
	movq	-8(%r15,%rax), %xmm0
	movq	-8(%rbx,%rax), %xmm1
	pcmpeqb	%xmm0, %xmm1
	pmovmskb	%xmm1, %ecx
	notl	%ecx
	orl	$256, %ecx
	rep		bsfl	%ecx, %ecx
	addq	%rax, %rcx
	addq	$-8, %rcx
	.p2align	4
.Lunix_path_BB19_37:
	cmpq	%rbp, %rcx
	jae	.Lunix_path_BB19_46
.Lunix_path_BB19_38:
	movzbl	(%r15,%rcx), %eax
	cmpw	$47, %ax
	jne	.Lunix_path_BB19_40
.Lunix_path_BB19_46:
	xorl	%eax, %eax
	cmpq	%r14, %rcx
	jae	.Lunix_path_BB19_44
	jmp	.Lunix_path_BB19_47
	.p2align	4
.Lunix_path_BB19_40:
	cmpq	%r14, %rcx
	jae	.Lunix_path_BB19_43
	cmpb	$46, %al
	je	.Lunix_path_BB19_43
	movzbl	(%rbx,%rcx), %edx
	movl	%edx, %esi
	andb	$-2, %sil
	cmpb	$46, %sil
	jne	.Lunix_path_BB19_87
.Lunix_path_BB19_43:
	movzwl	%ax, %eax
	incl	%eax
	cmpq	%r14, %rcx
	jae	.Lunix_path_BB19_44
.Lunix_path_BB19_47:
	movzbl	(%rbx,%rcx), %edx
	cmpw	$47, %dx
	jne	.Lunix_path_BB19_49
.Lunix_path_BB19_44:
	xorl	%edx, %edx
	cmpw	%dx, %ax
	je	.Lunix_path_BB19_1
	jmp	.Lunix_path_BB19_50
	.p2align	4
.Lunix_path_BB19_49:
	movzwl	%dx, %edx
	incl	%edx
	cmpw	%dx, %ax
	je	.Lunix_path_BB19_1
.Lunix_path_BB19_50:
	testq	%rcx, %rcx
	je	.Lunix_path_BB19_57
	movzbl	-1(%r15,%rcx), %esi
	cmpb	$47, %sil
	je	.Lunix_path_BB19_2
	cmpb	$46, %sil
	jne	.Lunix_path_BB19_59
	movq	%rcx, %rsi
	decq	%rsi
	je	.Lunix_path_BB19_60
	cmpb	$47, -1(%r15,%rsi)
	je	.Lunix_path_BB19_3
	jmp	.Lunix_path_BB19_59
.Lunix_path_BB19_45:
	movzwl	%cx, %ecx
	addq	%rdx, %rcx
	cmpq	%rbp, %rcx
	jb	.Lunix_path_BB19_38
	jmp	.Lunix_path_BB19_46
.Lunix_path_BB19_55:
	movq	%rbx, %rdi
	movq	%r14, %rsi
	callq	unix_path.filler.filler_end_from
	subq	%rax, %r14
	jne	.Lunix_path_BB19_20
.Lunix_path_BB19_56:
	cmpq	%r13, %r12
	sete	%cl
	movb	$2, %al
	subb	%cl, %al
	jmp	.Lunix_path_BB19_93
.Lunix_path_BB19_57:
	xorl	%edx, %edx
	cmpq	%r13, %r12
	jne	.Lunix_path_BB19_61
.Lunix_path_BB19_58:
	xorl	%eax, %eax
	jmp	.Lunix_path_BB19_93
.Lunix_path_BB19_59:
	cmpw	%dx, %ax
	setae	%al
	addb	%al, %al
	jmp	.Lunix_path_BB19_93
.Lunix_path_BB19_60:
	movl	$1, %edx
	cmpq	%r13, %r12
	je	.Lunix_path_BB19_58
.Lunix_path_BB19_61:
	movzbl	(%r15), %edi
	movb	$1, %al
	movb	$1, %sil
	cmpl	$47, %edi
	je	.Lunix_path_BB19_70
	cmpl	$46, %edi
	jne	.Lunix_path_BB19_69
	movb	$2, %sil
	cmpq	$1, %rbp
	je	.Lunix_path_BB19_70
	movzbl	1(%r15), %edi
	cmpl	$47, %edi
	je	.Lunix_path_BB19_70
	cmpl	$46, %edi
	jne	.Lunix_path_BB19_69
	cmpq	$2, %rbp
	je	.Lunix_path_BB19_68
	movb	$4, %sil
	cmpb	$47, 2(%r15)
	jne	.Lunix_path_BB19_70
.Lunix_path_BB19_68:
	movb	$3, %sil
	jmp	.Lunix_path_BB19_70
.Lunix_path_BB19_69:
	movb	$4, %sil
.Lunix_path_BB19_70:
	movzbl	(%rbx), %edi
	cmpl	$47, %edi
	je	.Lunix_path_BB19_79
	cmpl	$46, %edi
	jne	.Lunix_path_BB19_78
	movb	$2, %al
	cmpq	$1, %r14
	je	.Lunix_path_BB19_79
	movzbl	1(%rbx), %edi
	cmpl	$47, %edi
	je	.Lunix_path_BB19_79
	cmpl	$46, %edi
	jne	.Lunix_path_BB19_78
	cmpq	$2, %r14
	je	.Lunix_path_BB19_77
	movb	$4, %al
	cmpb	$47, 2(%rbx)
	jne	.Lunix_path_BB19_79
.Lunix_path_BB19_77:
	movb	$3, %al
	jmp	.Lunix_path_BB19_79
.Lunix_path_BB19_78:
	movb	$4, %al
.Lunix_path_BB19_79:
	cmpb	%al, %sil
	setae	%al
	jne	.Lunix_path_BB19_83
	cmpq	%rbp, %rcx
	jae	.Lunix_path_BB19_84
	movzbl	(%r15,%rdx), %eax
	cmpw	$47, %ax
	jne	.Lunix_path_BB19_88
.Lunix_path_BB19_84:
	xorl	%eax, %eax
	cmpq	%r14, %rdx
	jae	.Lunix_path_BB19_89
	jmp	.Lunix_path_BB19_85
.Lunix_path_BB19_83:
	addb	%al, %al
	jmp	.Lunix_path_BB19_93
.Lunix_path_BB19_87:
	cmpb	%dl, %al
	setae	%cl
	addb	%cl, %cl
	cmpb	%dl, %al
	movzbl	%cl, %ecx
	jmp	.Lunix_path_BB19_92
.Lunix_path_BB19_88:
	movzwl	%ax, %eax
	incl	%eax
	cmpq	%r14, %rdx
	jae	.Lunix_path_BB19_89
.Lunix_path_BB19_85:
	movzbl	(%rbx,%rdx), %ecx
	cmpw	$47, %cx
	jne	.Lunix_path_BB19_90
.Lunix_path_BB19_89:
	xorl	%ecx, %ecx
	jmp	.Lunix_path_BB19_91
.Lunix_path_BB19_90:
	movzwl	%cx, %ecx
	incl	%ecx
.Lunix_path_BB19_91:
	cmpw	%cx, %ax
	setae	%dl
	addb	%dl, %dl
	cmpw	%cx, %ax
	movzbl	%dl, %ecx
.Lunix_path_BB19_92:
	movl	$1, %eax
	cmovnel	%ecx, %eax
.Lunix_path_BB19_93:
	addq	$8, %rsp
	popq	%rbx
	popq	%r12
	popq	%r13
	popq	%r14
	popq	%r15
	popq	%rbp
	retq
.Lunix_path_func_end19:
	.size	unix_path.pair.Comparison.order_after_cut, .Lunix_path_func_end19-unix_path.pair.Comparison.order_after_cut
	.section	.text.std_alloc.vec.Vec.remove.b40003dd673f1bd1.,"ax",@progbits
	.p2align	4
	.type	std_alloc.vec.Vec.remove.b40003dd673f1bd1.,@function
# std_alloc::vec::Vec::remove::<#b40003dd673f1bd1>
std_alloc.vec.Vec.remove.b40003dd673f1bd1.:
	pushq	%r14
	pushq	%rbx
	movq	(%rsi), %rax
	movq	8(%rsi), %r11
	movq	16(%rsi), %rcx
	xorps	%xmm0, %xmm0
	movups	%xmm0, 8(%rsi)
	leaq	(,%rdx,8), %r8
	leaq	(%r8,%r8,2), %r9
	movq	16(%rax,%r9), %r8
	movq	%r8, -8(%rsp)
	movups	(%rax,%r9), %xmm0
	movaps	%xmm0, -24(%rsp)
	leaq	-1(%r11), %r8
	movq	%r8, %r10
	subq	%rdx, %r10
	cmpq	$86, %r10
	jb	.Lunix_path_BB20_5
	xorl	%ebx, %ebx
	.p2align	4
.Lunix_path_BB20_2:
	movq	40(%rax,%r9), %r14
	movq	%r14, 16(%rax,%r9)
	movups	24(%rax,%r9), %xmm0
	movups	%xmm0, (%rax,%r9)
	movups	48(%rax,%r9), %xmm0
	movups	%xmm0, 24(%rax,%r9)
	movq	64(%rax,%r9), %r14
	movq	%r14, 40(%rax,%r9)
	movups	72(%rax,%r9), %xmm0
	movups	%xmm0, 48(%rax,%r9)
	movq	88(%rax,%r9), %r14
	movq	%r14, 64(%rax,%r9)
	movups	96(%rax,%r9), %xmm0
	movups	%xmm0, 72(%rax,%r9)
	movq	112(%rax,%r9), %r14
	movq	%r14, 88(%rax,%r9)
	movq	136(%rax,%r9), %r14
	movq	%r14, 112(%rax,%r9)
	movups	120(%rax,%r9), %xmm0
	movups	%xmm0, 96(%rax,%r9)
	movq	160(%rax,%r9), %r14
	movq	%r14, 136(%rax,%r9)
	movups	144(%rax,%r9), %xmm0
	movups	%xmm0, 120(%rax,%r9)
	movq	184(%rax,%r9), %r14
	movq	%r14, 160(%rax,%r9)
	movups	168(%rax,%r9), %xmm0
	movups	%xmm0, 144(%rax,%r9)
	movq	208(%rax,%r9), %r14
	movq	%r14, 184(%rax,%r9)
	movups	192(%rax,%r9), %xmm0
	movups	%xmm0, 168(%rax,%r9)
	movq	232(%rax,%r9), %r14
	movq	%r14, 208(%rax,%r9)
	movups	216(%rax,%r9), %xmm0
	movups	%xmm0, 192(%rax,%r9)
	movq	256(%rax,%r9), %r14
	movq	%r14, 232(%rax,%r9)
	movups	240(%rax,%r9), %xmm0
	movups	%xmm0, 216(%rax,%r9)
	movq	280(%rax,%r9), %r14
	movq	%r14, 256(%rax,%r9)
	movups	264(%rax,%r9), %xmm0
	movups	%xmm0, 240(%rax,%r9)
	movq	304(%rax,%r9), %r14
	movq	%r14, 280(%rax,%r9)
	movups	288(%rax,%r9), %xmm0
	movups	%xmm0, 264(%rax,%r9)
	movq	328(%rax,%r9), %r14
	movq	%r14, 304(%rax,%r9)
	movups	312(%rax,%r9), %xmm0
	movups	%xmm0, 288(%rax,%r9)
	movq	352(%rax,%r9), %r14
	movq	%r14, 328(%rax,%r9)
	movups	336(%rax,%r9), %xmm0
	movups	%xmm0, 312(%rax,%r9)
	movq	376(%rax,%r9), %r14
	movq	%r14, 352(%rax,%r9)
	movups	360(%rax,%r9), %xmm0
	movups	%xmm0, 336(%rax,%r9)
	movq	400(%rax,%r9), %r14
	movq	%r14, 376(%rax,%r9)
	movups	384(%rax,%r9), %xmm0
	movups	%xmm0, 360(%rax,%r9)
	movq	424(%rax,%r9), %r14
	movq	%r14, 400(%rax,%r9)
	movups	408(%rax,%r9), %xmm0
	movups	%xmm0, 384(%rax,%r9)
	movq	448(%rax,%r9), %r14
	movq	%r14, 424(%rax,%r9)
	movups	432(%rax,%r9), %xmm0
	movups	%xmm0, 408(%rax,%r9)
	movq	472(%rax,%r9), %r14
	movq	%r14, 448(%rax,%r9)
	movups	456(%rax,%r9), %xmm0
	movups	%xmm0, 432(%rax,%r9)
	movq	496(%rax,%r9), %r14
	movq	%r14, 472(%rax,%r9)
	movups	480(%rax,%r9), %xmm0
	movups	%xmm0, 456(%rax,%r9)
	movq	520(%rax,%r9), %r14
	movq	%r14, 496(%rax,%r9)
	movups	504(%rax,%r9), %xmm0
	movups	%xmm0, 480(%rax,%r9)
	movq	544(%rax,%r9), %r14
	movq	%r14, 520(%rax,%r9)
	movups	528(%rax,%r9), %xmm0
	movups	%xmm0, 504(%rax,%r9)
	movq	568(%rax,%r9), %r14
	movq	%r14, 544(%rax,%r9)
	movups	552(%rax,%r9), %xmm0
	movups	%xmm0, 528(%rax,%r9)
	movq	592(%rax,%r9), %r14
	movq	%r14, 568(%rax,%r9)
	movups	576(%rax,%r9), %xmm0
	movups	%xmm0, 552(%rax,%r9)
	movq	616(%rax,%r9), %r14
	movq	%r14, 592(%rax,%r9)
	movups	600(%rax,%r9), %xmm0
	movups	%xmm0, 576(%rax,%r9)
	movq	640(%rax,%r9), %r14
	movq	%r14, 616(%rax,%r9)
	movups	624(%rax,%r9), %xmm0
	movups	%xmm0, 600(%rax,%r9)
	movq	664(%rax,%r9), %r14
	movq	%r14, 640(%rax,%r9)
	movups	648(%rax,%r9), %xmm0
	movups	%xmm0, 624(%rax,%r9)
	movq	688(%rax,%r9), %r14
	movq	%r14, 664(%rax,%r9)
	movups	672(%rax,%r9), %xmm0
	movups	%xmm0, 648(%rax,%r9)
	movq	712(%rax,%r9), %r14
	movq	%r14, 688(%rax,%r9)
	movups	696(%rax,%r9), %xmm0
	movups	%xmm0, 672(%rax,%r9)
	movq	736(%rax,%r9), %r14
	movq	%r14, 712(%rax,%r9)
	movups	720(%rax,%r9), %xmm0
	movups	%xmm0, 696(%rax,%r9)
	movq	760(%rax,%r9), %r14
	movq	%r14, 736(%rax,%r9)
	movups	744(%rax,%r9), %xmm0
	movups	%xmm0, 720(%rax,%r9)
	movq	784(%rax,%r9), %r14
	movq	%r14, 760(%rax,%r9)
	movups	768(%rax,%r9), %xmm0
	movups	%xmm0, 744(%rax,%r9)
	movq	808(%rax,%r9), %r14
	movq	%r14, 784(%rax,%r9)
	movups	792(%rax,%r9), %xmm0
	movups	%xmm0, 768(%rax,%r9)
	movq	832(%rax,%r9), %r14
	movq	%r14, 808(%rax,%r9)
	movups	816(%rax,%r9), %xmm0
	movups	%xmm0, 792(%rax,%r9)
	movq	856(%rax,%r9), %r14
	movq	%r14, 832(%rax,%r9)
	movups	840(%rax,%r9), %xmm0
	movups	%xmm0, 816(%rax,%r9)
	movq	880(%rax,%r9), %r14
	movq	%r14, 856(%rax,%r9)
	movups	864(%rax,%r9), %xmm0
	movups	%xmm0, 840(%rax,%r9)
	movq	904(%rax,%r9), %r14
	movq	%r14, 880(%rax,%r9)
	movups	888(%rax,%r9), %xmm0
	movups	%xmm0, 864(%rax,%r9)
	movq	928(%rax,%r9), %r14
	movq	%r14, 904(%rax,%r9)
	movups	912(%rax,%r9), %xmm0
	movups	%xmm0, 888(%rax,%r9)
	movq	952(%rax,%r9), %r14
	movq	%r14, 928(%rax,%r9)
	movups	936(%rax,%r9), %xmm0
	movups	%xmm0, 912(%rax,%r9)
	movq	976(%rax,%r9), %r14
	movq	%r14, 952(%rax,%r9)
	movups	960(%rax,%r9), %xmm0
	movups	%xmm0, 936(%rax,%r9)
	movq	1000(%rax,%r9), %r14
	movq	%r14, 976(%rax,%r9)
	movups	984(%rax,%r9), %xmm0
	movups	%xmm0, 960(%rax,%r9)
	movq	1024(%rax,%r9), %r14
	movq	%r14, 1000(%rax,%r9)
	movups	1008(%rax,%r9), %xmm0
	movups	%xmm0, 984(%rax,%r9)
	movq	1048(%rax,%r9), %r14
	movq	%r14, 1024(%rax,%r9)
	movups	1032(%rax,%r9), %xmm0
	movups	%xmm0, 1008(%rax,%r9)
	movq	1072(%rax,%r9), %r14
	movq	%r14, 1048(%rax,%r9)
	movups	1056(%rax,%r9), %xmm0
	movups	%xmm0, 1032(%rax,%r9)
	movq	1096(%rax,%r9), %r14
	movq	%r14, 1072(%rax,%r9)
	movups	1080(%rax,%r9), %xmm0
	movups	%xmm0, 1056(%rax,%r9)
	movq	1120(%rax,%r9), %r14
	movq	%r14, 1096(%rax,%r9)
	movups	1104(%rax,%r9), %xmm0
	movups	%xmm0, 1080(%rax,%r9)
	movq	1144(%rax,%r9), %r14
	movq	%r14, 1120(%rax,%r9)
	movups	1128(%rax,%r9), %xmm0
	movups	%xmm0, 1104(%rax,%r9)
	movq	1168(%rax,%r9), %r14
	movq	%r14, 1144(%rax,%r9)
	movups	1152(%rax,%r9), %xmm0
	movups	%xmm0, 1128(%rax,%r9)
	movq	1192(%rax,%r9), %r14
	movq	%r14, 1168(%rax,%r9)
	movups	1176(%rax,%r9), %xmm0
	movups	%xmm0, 1152(%rax,%r9)
	movq	1216(%rax,%r9), %r14
	movq	%r14, 1192(%rax,%r9)
	movups	1200(%rax,%r9), %xmm0
	movups	%xmm0, 1176(%rax,%r9)
	movq	1240(%rax,%r9), %r14
	movq	%r14, 1216(%rax,%r9)
	movups	1224(%rax,%r9), %xmm0
	movups	%xmm0, 1200(%rax,%r9)
	movq	1264(%rax,%r9), %r14
	movq	%r14, 1240(%rax,%r9)
	movups	1248(%rax,%r9), %xmm0
	movups	%xmm0, 1224(%rax,%r9)
	movq	1288(%rax,%r9), %r14
	movq	%r14, 1264(%rax,%r9)
	movups	1272(%rax,%r9), %xmm0
	movups	%xmm0, 1248(%rax,%r9)
	movq	1312(%rax,%r9), %r14
	movq	%r14, 1288(%rax,%r9)
	movups	1296(%rax,%r9), %xmm0
	movups	%xmm0, 1272(%rax,%r9)
	movq	1336(%rax,%r9), %r14
	movq	%r14, 1312(%rax,%r9)
	movups	1320(%rax,%r9), %xmm0
	movups	%xmm0, 1296(%rax,%r9)
	movq	1360(%rax,%r9), %r14
	movq	%r14, 1336(%rax,%r9)
	movups	1344(%rax,%r9), %xmm0
	movups	%xmm0, 1320(%rax,%r9)
	movq	1384(%rax,%r9), %r14
	movq	%r14, 1360(%rax,%r9)
	movups	1368(%rax,%r9), %xmm0
	movups	%xmm0, 1344(%rax,%r9)
	movq	1408(%rax,%r9), %r14
	movq	%r14, 1384(%rax,%r9)
	movups	1392(%rax,%r9), %xmm0
	movups	%xmm0, 1368(%rax,%r9)
	movq	1432(%rax,%r9), %r14
	movq	%r14, 1408(%rax,%r9)
	movups	1416(%rax,%r9), %xmm0
	movups	%xmm0, 1392(%rax,%r9)
	movq	1456(%rax,%r9), %r14
	movq	%r14, 1432(%rax,%r9)
	movups	1440(%rax,%r9), %xmm0
	movups	%xmm0, 1416(%rax,%r9)
	movq	1480(%rax,%r9), %r14
	movq	%r14, 1456(%rax,%r9)
	movups	1464(%rax,%r9), %xmm0
	movups	%xmm0, 1440(%rax,%r9)
	movq	1504(%rax,%r9), %r14
	movq	%r14, 1480(%rax,%r9)
	movups	1488(%rax,%r9), %xmm0
	movups	%xmm0, 1464(%rax,%r9)
	movq	1528(%rax,%r9), %r14
	movq	%r14, 1504(%rax,%r9)
	movups	1512(%rax,%r9), %xmm0
	movups	%xmm0, 1488(%rax,%r9)
	movq	1552(%rax,%r9), %r14
	movq	%r14, 1528(%rax,%r9)
	movups	1536(%rax,%r9), %xmm0
	movups	%xmm0, 1512(%rax,%r9)
	movq	1576(%rax,%r9), %r14
	movq	%r14, 1552(%rax,%r9)
	movups	1560(%rax,%r9), %xmm0
	movups	%xmm0, 1536(%rax,%r9)
	movq	1600(%rax,%r9), %r14
	movq	%r14, 1576(%rax,%r9)
	movups	1584(%rax,%r9), %xmm0
	movups	%xmm0, 1560(%rax,%r9)
	movq	1624(%rax,%r9), %r14
	movq	%r14, 1600(%rax,%r9)
	movups	1608(%rax,%r9), %xmm0
	movups	%xmm0, 1584(%rax,%r9)
	movq	1648(%rax,%r9), %r14
	movq	%r14, 1624(%rax,%r9)
	movups	1632(%rax,%r9), %xmm0
	movups	%xmm0, 1608(%rax,%r9)
	movq	1672(%rax,%r9), %r14
	movq	%r14, 1648(%rax,%r9)
	movups	1656(%rax,%r9), %xmm0
	movups	%xmm0, 1632(%rax,%r9)
	movq	1696(%rax,%r9), %r14
	movq	%r14, 1672(%rax,%r9)
	movups	1680(%rax,%r9), %xmm0
	movups	%xmm0, 1656(%rax,%r9)
	movq	1720(%rax,%r9), %r14
	movq	%r14, 1696(%rax,%r9)
	movups	1704(%rax,%r9), %xmm0
	movups	%xmm0, 1680(%rax,%r9)
	movq	1744(%rax,%r9), %r14
	movq	%r14, 1720(%rax,%r9)
	movups	1728(%rax,%r9), %xmm0
	movups	%xmm0, 1704(%rax,%r9)
	movq	1768(%rax,%r9), %r14
	movq	%r14, 1744(%rax,%r9)
	movups	1752(%rax,%r9), %xmm0
	movups	%xmm0, 1728(%rax,%r9)
	movq	1792(%rax,%r9), %r14
	movq	%r14, 1768(%rax,%r9)
	movups	1776(%rax,%r9), %xmm0
	movups	%xmm0, 1752(%rax,%r9)
	movq	1816(%rax,%r9), %r14
	movq	%r14, 1792(%rax,%r9)
	movups	1800(%rax,%r9), %xmm0
	movups	%xmm0, 1776(%rax,%r9)
	movq	1840(%rax,%r9), %r14
	movq	%r14, 1816(%rax,%r9)
	movups	1824(%rax,%r9), %xmm0
	movups	%xmm0, 1800(%rax,%r9)
	movq	1864(%rax,%r9), %r14
	movq	%r14, 1840(%rax,%r9)
	movups	1848(%rax,%r9), %xmm0
	movups	%xmm0, 1824(%rax,%r9)
	movq	1888(%rax,%r9), %r14
	movq	%r14, 1864(%rax,%r9)
	movups	1872(%rax,%r9), %xmm0
	movups	%xmm0, 1848(%rax,%r9)
	movq	1912(%rax,%r9), %r14
	movq	%r14, 1888(%rax,%r9)
	movups	1896(%rax,%r9), %xmm0
	movups	%xmm0, 1872(%rax,%r9)
	movq	1936(%rax,%r9), %r14
	movq	%r14, 1912(%rax,%r9)
	movups	1920(%rax,%r9), %xmm0
	movups	%xmm0, 1896(%rax,%r9)
	movq	1960(%rax,%r9), %r14
	movq	%r14, 1936(%rax,%r9)
	movups	1944(%rax,%r9), %xmm0
	movups	%xmm0, 1920(%rax,%r9)
	movq	1984(%rax,%r9), %r14
	movq	%r14, 1960(%rax,%r9)
	movups	1968(%rax,%r9), %xmm0
	movups	%xmm0, 1944(%rax,%r9)
	movq	2008(%rax,%r9), %r14
	movq	%r14, 1984(%rax,%r9)
	movups	1992(%rax,%r9), %xmm0
	movups	%xmm0, 1968(%rax,%r9)
	movq	2032(%rax,%r9), %r14
	movq	%r14, 2008(%rax,%r9)
	movups	2016(%rax,%r9), %xmm0
	movups	%xmm0, 1992(%rax,%r9)
	movq	2056(%rax,%r9), %r14
	movq	%r14, 2032(%rax,%r9)
	movups	2040(%rax,%r9), %xmm0
	movups	%xmm0, 2016(%rax,%r9)
	addq	$2040, %r9
	leaq	(%r10,%rbx), %r14
	addq	$-85, %r14
	addq	$-85, %rbx
	cmpq	$85, %r14
	ja	.Lunix_path_BB20_2
	leaq	1(%rdx), %r14
	subq	%rbx, %rdx
	cmpq	%rbx, %r14
	jne	.Lunix_path_BB20_4
	testq	%r11, %r11
	je	.Lunix_path_BB20_16
	addq	$-85, %rdx
	leaq	(%r11,%r11,2), %r9
	addq	$-86, %r11
	leaq	(%rax,%r9,8), %r9
	addq	$-24, %r9
	.p2align	4
.Lunix_path_BB20_15:
	movq	16(%r9), %r10
	movq	%r10, -8(%r9)
	movups	(%r9), %xmm0
	movups	%xmm0, -24(%r9)
	addq	$-24, %r9
	decq	%r11
	cmpq	%r11, %rdx
	jne	.Lunix_path_BB20_15
	jmp	.Lunix_path_BB20_16
.Lunix_path_BB20_4:
	addq	%rbx, %r10
.Lunix_path_BB20_5:
	cmpq	%rdx, %r8
	je	.Lunix_path_BB20_16
	leaq	-1(%r10), %r11
	movl	%r10d, %edx
	andl	$3, %edx
	cmpq	$3, %r11
	jae	.Lunix_path_BB20_8
	xorl	%r11d, %r11d
	jmp	.Lunix_path_BB20_11
.Lunix_path_BB20_8:
	andl	$124, %r10d
	leaq	(%rax,%r9), %rbx
	xorl	%r11d, %r11d
	.p2align	4
.Lunix_path_BB20_9:
	movq	40(%rbx), %r14
	movq	%r14, 16(%rbx)
	movups	24(%rbx), %xmm0
	movups	%xmm0, (%rbx)
	movups	48(%rbx), %xmm0
	movups	%xmm0, 24(%rbx)
	movq	64(%rbx), %r14
	movq	%r14, 40(%rbx)
	movups	72(%rbx), %xmm0
	movups	%xmm0, 48(%rbx)
	movq	88(%rbx), %r14
	movq	%r14, 64(%rbx)
	movups	96(%rbx), %xmm0
	movups	%xmm0, 72(%rbx)
	movq	112(%rbx), %r14
	movq	%r14, 88(%rbx)
	addq	$96, %rbx
	addq	$4, %r11
	cmpq	%r11, %r10
	jne	.Lunix_path_BB20_9
	testq	%rdx, %rdx
	je	.Lunix_path_BB20_16
.Lunix_path_BB20_11:
	leaq	(%r11,%r11,2), %r10
	leaq	(%r9,%r10,8), %r9
	addq	%rax, %r9
	shll	$3, %edx
	leaq	(%rdx,%rdx,2), %rdx
	xorl	%r10d, %r10d
	.p2align	4
.Lunix_path_BB20_12:
	movq	40(%r9,%r10), %r11
	movq	%r11, 16(%r9,%r10)
	movups	24(%r9,%r10), %xmm0
	movups	%xmm0, (%r9,%r10)
	addq	$24, %r10
	cmpq	%r10, %rdx
	jne	.Lunix_path_BB20_12
.Lunix_path_BB20_16:
	movq	%rax, (%rsi)
	movq	%r8, 8(%rsi)
	movq	%rcx, 16(%rsi)
	movq	-8(%rsp), %rax
	movq	%rax, 16(%rdi)
	movaps	-24(%rsp), %xmm0
	movups	%xmm0, (%rdi)
	popq	%rbx
	popq	%r14
	retq
.Lunix_path_func_end20:
	.size	std_alloc.vec.Vec.remove.b40003dd673f1bd1., .Lunix_path_func_end20-std_alloc.vec.Vec.remove.b40003dd673f1bd1.
	.section	.rodata.cst16,"aM",@progbits,16
	.p2align	4, 0x0
.Lunix_path_CPI21_0:
	.long	1
	.long	0
	.long	0
	.long	0
	.section	.text.std_alloc.vec.lodged.Vec.T.Lodged.insert_reserved.23.unix_path.buf.PathBuf.,"ax",@progbits
	.p2align	4
	.type	std_alloc.vec.lodged.Vec.T.Lodged.insert_reserved.23.unix_path.buf.PathBuf.,@function
# std_alloc::vec::lodged::Vec+T+Lodged::insert_reserved::<23'unix_path::buf::PathBuf>
std_alloc.vec.lodged.Vec.T.Lodged.insert_reserved.23.unix_path.buf.PathBuf.:
	pushq	%r14
	pushq	%rbx
	movq	16(%rdx), %rax
	movq	%rax, -8(%rsp)
	movups	(%rdx), %xmm0
	movaps	%xmm0, -24(%rsp)
	movq	(%rdi), %rax
	movq	8(%rdi), %rcx
	movdqu	8(%rdi), %xmm0
	xorps	%xmm1, %xmm1
	movups	%xmm1, 8(%rdi)
	movq	%rsi, %r10
	incq	%r10
	je	.Lunix_path_BB21_1
	cmpq	%rsi, %rcx
	je	.Lunix_path_BB21_27
	movq	%rcx, %rdx
	subq	%rsi, %rdx
	leaq	(%rsi,%rsi,2), %r8
	leaq	(%rax,%r8,8), %r8
	leaq	(%r10,%r10,2), %r9
	leaq	(%rax,%r9,8), %r9
	cmpq	%r10, %rcx
	jne	.Lunix_path_BB21_23
	xorl	%ecx, %ecx
	jmp	.Lunix_path_BB21_26
.Lunix_path_BB21_1:
	leaq	1(%rcx), %rdx
	cmpq	$86, %rdx
	jb	.Lunix_path_BB21_12
	xorl	%r10d, %r10d
	movq	%rax, %r9
	jmp	.Lunix_path_BB21_3
	.p2align	4
.Lunix_path_BB21_7:
	leaq	(%r8,%r8,2), %r10
	leaq	(%rax,%r10,8), %r10
	movq	-8(%r10), %r11
	movq	%r11, 16(%r10)
	movups	-24(%r10), %xmm1
	movups	%xmm1, (%r10)
	movq	-8(%r10), %r11
	movq	%r11, 40(%r10)
	movups	-24(%r10), %xmm1
	movups	%xmm1, 24(%r10)
	movq	-8(%r10), %r11
	movq	%r11, 64(%r10)
	movups	-24(%r10), %xmm1
	movups	%xmm1, 48(%r10)
	movq	-8(%r10), %r11
	movq	%r11, 88(%r10)
	movups	-24(%r10), %xmm1
	movups	%xmm1, 72(%r10)
	movq	-8(%r10), %r11
	movq	%r11, 112(%r10)
	movups	-24(%r10), %xmm1
	movups	%xmm1, 96(%r10)
	movups	-24(%r10), %xmm1
	movups	%xmm1, 120(%r10)
	movq	-8(%r10), %r11
	movq	%r11, 136(%r10)
	movups	-24(%r10), %xmm1
	movups	%xmm1, 144(%r10)
	movq	-8(%r10), %r11
	movq	%r11, 160(%r10)
	movq	-8(%r10), %r11
	movq	%r11, 184(%r10)
	movups	-24(%r10), %xmm1
	movups	%xmm1, 168(%r10)
	movups	-24(%r10), %xmm1
	movups	%xmm1, 192(%r10)
	movq	-8(%r10), %r11
	movq	%r11, 208(%r10)
	movups	-24(%r10), %xmm1
	movups	%xmm1, 216(%r10)
	movq	-8(%r10), %r11
	movq	%r11, 232(%r10)
	movq	-8(%r10), %r11
	movq	%r11, 256(%r10)
	movups	-24(%r10), %xmm1
	movups	%xmm1, 240(%r10)
	movq	-8(%r10), %r11
	movq	%r11, 280(%r10)
	movups	-24(%r10), %xmm1
	movups	%xmm1, 264(%r10)
	movups	-24(%r10), %xmm1
	movups	%xmm1, 288(%r10)
	movq	-8(%r10), %r11
	movq	%r11, 304(%r10)
	movups	-24(%r10), %xmm1
	movups	%xmm1, 312(%r10)
	movq	-8(%r10), %r11
	movq	%r11, 328(%r10)
	movups	-24(%r10), %xmm1
	movups	%xmm1, 336(%r10)
	movq	-8(%r10), %r11
	movq	%r11, 352(%r10)
	movq	-8(%r10), %r11
	movq	%r11, 376(%r10)
	movups	-24(%r10), %xmm1
	movups	%xmm1, 360(%r10)
	movups	-24(%r10), %xmm1
	movups	%xmm1, 384(%r10)
	movq	-8(%r10), %r11
	movq	%r11, 400(%r10)
	movups	-24(%r10), %xmm1
	movups	%xmm1, 408(%r10)
	movq	-8(%r10), %r11
	movq	%r11, 424(%r10)
	movups	-24(%r10), %xmm1
	movups	%xmm1, 432(%r10)
	movq	-8(%r10), %r11
	movq	%r11, 448(%r10)
	movq	-8(%r10), %r11
	movq	%r11, 472(%r10)
	movups	-24(%r10), %xmm1
	movups	%xmm1, 456(%r10)
	movups	-24(%r10), %xmm1
	movups	%xmm1, 480(%r10)
	movq	-8(%r10), %r11
	movq	%r11, 496(%r10)
	movups	-24(%r10), %xmm1
	movups	%xmm1, 504(%r10)
	movq	-8(%r10), %r11
	movq	%r11, 520(%r10)
	movups	-24(%r10), %xmm1
	movups	%xmm1, 528(%r10)
	movq	-8(%r10), %r11
	movq	%r11, 544(%r10)
	movq	-8(%r10), %r11
	movq	%r11, 568(%r10)
	movups	-24(%r10), %xmm1
	movups	%xmm1, 552(%r10)
	movups	-24(%r10), %xmm1
	movups	%xmm1, 576(%r10)
	movq	-8(%r10), %r11
	movq	%r11, 592(%r10)
	movups	-24(%r10), %xmm1
	movups	%xmm1, 600(%r10)
	movq	-8(%r10), %r11
	movq	%r11, 616(%r10)
	movups	-24(%r10), %xmm1
	movups	%xmm1, 624(%r10)
	movq	-8(%r10), %r11
	movq	%r11, 640(%r10)
	movq	-8(%r10), %r11
	movq	%r11, 664(%r10)
	movups	-24(%r10), %xmm1
	movups	%xmm1, 648(%r10)
	movups	-24(%r10), %xmm1
	movups	%xmm1, 672(%r10)
	movq	-8(%r10), %r11
	movq	%r11, 688(%r10)
	movups	-24(%r10), %xmm1
	movups	%xmm1, 696(%r10)
	movq	-8(%r10), %r11
	movq	%r11, 712(%r10)
	movups	-24(%r10), %xmm1
	movups	%xmm1, 720(%r10)
	movq	-8(%r10), %r11
	movq	%r11, 736(%r10)
	movq	-8(%r10), %r11
	movq	%r11, 760(%r10)
	movups	-24(%r10), %xmm1
	movups	%xmm1, 744(%r10)
	movups	-24(%r10), %xmm1
	movups	%xmm1, 768(%r10)
	movq	-8(%r10), %r11
	movq	%r11, 784(%r10)
	movups	-24(%r10), %xmm1
	movups	%xmm1, 792(%r10)
	movq	-8(%r10), %r11
	movq	%r11, 808(%r10)
	movups	-24(%r10), %xmm1
	movups	%xmm1, 816(%r10)
	movq	-8(%r10), %r11
	movq	%r11, 832(%r10)
	movq	-8(%r10), %r11
	movq	%r11, 856(%r10)
	movups	-24(%r10), %xmm1
	movups	%xmm1, 840(%r10)
	movups	-24(%r10), %xmm1
	movups	%xmm1, 864(%r10)
	movq	-8(%r10), %r11
	movq	%r11, 880(%r10)
	movups	-24(%r10), %xmm1
	movups	%xmm1, 888(%r10)
	movq	-8(%r10), %r11
	movq	%r11, 904(%r10)
	movups	-24(%r10), %xmm1
	movups	%xmm1, 912(%r10)
	movq	-8(%r10), %r11
	movq	%r11, 928(%r10)
	movq	-8(%r10), %r11
	movq	%r11, 952(%r10)
	movups	-24(%r10), %xmm1
	movups	%xmm1, 936(%r10)
	movups	-24(%r10), %xmm1
	movups	%xmm1, 960(%r10)
	movq	-8(%r10), %r11
	movq	%r11, 976(%r10)
	movups	-24(%r10), %xmm1
	movups	%xmm1, 984(%r10)
	movq	-8(%r10), %r11
	movq	%r11, 1000(%r10)
	movups	-24(%r10), %xmm1
	movups	%xmm1, 1008(%r10)
	movq	-8(%r10), %r11
	movq	%r11, 1024(%r10)
	movq	-8(%r10), %r11
	movq	%r11, 1048(%r10)
	movups	-24(%r10), %xmm1
	movups	%xmm1, 1032(%r10)
	movups	-24(%r10), %xmm1
	movups	%xmm1, 1056(%r10)
	movq	-8(%r10), %r11
	movq	%r11, 1072(%r10)
	movups	-24(%r10), %xmm1
	movups	%xmm1, 1080(%r10)
	movq	-8(%r10), %r11
	movq	%r11, 1096(%r10)
	movups	-24(%r10), %xmm1
	movups	%xmm1, 1104(%r10)
	movq	-8(%r10), %r11
	movq	%r11, 1120(%r10)
	movq	-8(%r10), %r11
	movq	%r11, 1144(%r10)
	movups	-24(%r10), %xmm1
	movups	%xmm1, 1128(%r10)
	movups	-24(%r10), %xmm1
	movups	%xmm1, 1152(%r10)
	movq	-8(%r10), %r11
	movq	%r11, 1168(%r10)
	movups	-24(%r10), %xmm1
	movups	%xmm1, 1176(%r10)
	movq	-8(%r10), %r11
	movq	%r11, 1192(%r10)
	movups	-24(%r10), %xmm1
	movups	%xmm1, 1200(%r10)
	movq	-8(%r10), %r11
	movq	%r11, 1216(%r10)
	movq	-8(%r10), %r11
	movq	%r11, 1240(%r10)
	movups	-24(%r10), %xmm1
	movups	%xmm1, 1224(%r10)
	movups	-24(%r10), %xmm1
	movups	%xmm1, 1248(%r10)
	movq	-8(%r10), %r11
	movq	%r11, 1264(%r10)
	movups	-24(%r10), %xmm1
	movups	%xmm1, 1272(%r10)
	movq	-8(%r10), %r11
	movq	%r11, 1288(%r10)
	movups	-24(%r10), %xmm1
	movups	%xmm1, 1296(%r10)
	movq	-8(%r10), %r11
	movq	%r11, 1312(%r10)
	movq	-8(%r10), %r11
	movq	%r11, 1336(%r10)
	movups	-24(%r10), %xmm1
	movups	%xmm1, 1320(%r10)
	movups	-24(%r10), %xmm1
	movups	%xmm1, 1344(%r10)
	movq	-8(%r10), %r11
	movq	%r11, 1360(%r10)
	movups	-24(%r10), %xmm1
	movups	%xmm1, 1368(%r10)
	movq	-8(%r10), %r11
	movq	%r11, 1384(%r10)
	movups	-24(%r10), %xmm1
	movups	%xmm1, 1392(%r10)
	movq	-8(%r10), %r11
	movq	%r11, 1408(%r10)
	movq	-8(%r10), %r11
	movq	%r11, 1432(%r10)
	movups	-24(%r10), %xmm1
	movups	%xmm1, 1416(%r10)
	movups	-24(%r10), %xmm1
	movups	%xmm1, 1440(%r10)
	movq	-8(%r10), %r11
	movq	%r11, 1456(%r10)
	movups	-24(%r10), %xmm1
	movups	%xmm1, 1464(%r10)
	movq	-8(%r10), %r11
	movq	%r11, 1480(%r10)
	movups	-24(%r10), %xmm1
	movups	%xmm1, 1488(%r10)
	movq	-8(%r10), %r11
	movq	%r11, 1504(%r10)
	movq	-8(%r10), %r11
	movq	%r11, 1528(%r10)
	movups	-24(%r10), %xmm1
	movups	%xmm1, 1512(%r10)
	movups	-24(%r10), %xmm1
	movups	%xmm1, 1536(%r10)
	movq	-8(%r10), %r11
	movq	%r11, 1552(%r10)
	movups	-24(%r10), %xmm1
	movups	%xmm1, 1560(%r10)
	movq	-8(%r10), %r11
	movq	%r11, 1576(%r10)
	movups	-24(%r10), %xmm1
	movups	%xmm1, 1584(%r10)
	movq	-8(%r10), %r11
	movq	%r11, 1600(%r10)
	movq	-8(%r10), %r11
	movq	%r11, 1624(%r10)
	movups	-24(%r10), %xmm1
	movups	%xmm1, 1608(%r10)
	movups	-24(%r10), %xmm1
	movups	%xmm1, 1632(%r10)
	movq	-8(%r10), %r11
	movq	%r11, 1648(%r10)
	movups	-24(%r10), %xmm1
	movups	%xmm1, 1656(%r10)
	movq	-8(%r10), %r11
	movq	%r11, 1672(%r10)
	movups	-24(%r10), %xmm1
	movups	%xmm1, 1680(%r10)
	movq	-8(%r10), %r11
	movq	%r11, 1696(%r10)
	movq	-8(%r10), %r11
	movq	%r11, 1720(%r10)
	movups	-24(%r10), %xmm1
	movups	%xmm1, 1704(%r10)
	movups	-24(%r10), %xmm1
	movups	%xmm1, 1728(%r10)
	movq	-8(%r10), %r11
	movq	%r11, 1744(%r10)
	movups	-24(%r10), %xmm1
	movups	%xmm1, 1752(%r10)
	movq	-8(%r10), %r11
	movq	%r11, 1768(%r10)
	movups	-24(%r10), %xmm1
	movups	%xmm1, 1776(%r10)
	movq	-8(%r10), %r11
	movq	%r11, 1792(%r10)
	movq	-8(%r10), %r11
	movq	%r11, 1816(%r10)
	movups	-24(%r10), %xmm1
	movups	%xmm1, 1800(%r10)
	movups	-24(%r10), %xmm1
	movups	%xmm1, 1824(%r10)
	movq	-8(%r10), %r11
	movq	%r11, 1840(%r10)
	movups	-24(%r10), %xmm1
	movups	%xmm1, 1848(%r10)
	movq	-8(%r10), %r11
	movq	%r11, 1864(%r10)
	movups	-24(%r10), %xmm1
	movups	%xmm1, 1872(%r10)
	movq	-8(%r10), %r11
	movq	%r11, 1888(%r10)
	movq	-8(%r10), %r11
	movq	%r11, 1912(%r10)
	movups	-24(%r10), %xmm1
	movups	%xmm1, 1896(%r10)
	movups	-24(%r10), %xmm1
	movups	%xmm1, 1920(%r10)
	movq	-8(%r10), %r11
	movq	%r11, 1936(%r10)
	movups	-24(%r10), %xmm1
	movups	%xmm1, 1944(%r10)
	movq	-8(%r10), %r11
	movq	%r11, 1960(%r10)
	movups	-24(%r10), %xmm1
	movups	%xmm1, 1968(%r10)
	movq	-8(%r10), %r11
	movq	%r11, 1984(%r10)
	movq	-8(%r10), %r11
	movq	%r11, 2008(%r10)
	movups	-24(%r10), %xmm1
	movups	%xmm1, 1992(%r10)
	movups	-24(%r10), %xmm1
	movups	%xmm1, 2016(%r10)
	movq	-8(%r10), %r11
	movq	%r11, 2032(%r10)
.Lunix_path_BB21_8:
	leaq	85(%r8), %r10
	movq	%rdx, %r11
	subq	%r10, %r11
	addq	$2040, %r9
	cmpq	$85, %r11
	jbe	.Lunix_path_BB21_9
.Lunix_path_BB21_3:
	movq	%r10, %r8
	testq	%r10, %r10
	je	.Lunix_path_BB21_7
	movl	$2016, %r10d
	.p2align	4
.Lunix_path_BB21_5:
	movq	-8(%r9,%r10), %r11
	movq	%r11, 16(%r9,%r10)
	movups	-24(%r9,%r10), %xmm1
	movups	%xmm1, (%r9,%r10)
	testq	%r10, %r10
	je	.Lunix_path_BB21_8
	movq	-32(%r9,%r10), %r11
	movq	%r11, -8(%r9,%r10)
	movups	-48(%r9,%r10), %xmm1
	movups	%xmm1, -24(%r9,%r10)
	addq	$-48, %r10
	jmp	.Lunix_path_BB21_5
.Lunix_path_BB21_12:
	testq	%rdx, %rdx
	je	.Lunix_path_BB21_27
	movl	%edx, %r8d
	andl	$3, %r8d
	cmpq	$3, %rcx
	jae	.Lunix_path_BB21_15
	xorl	%ecx, %ecx
	jmp	.Lunix_path_BB21_18
.Lunix_path_BB21_9:
	cmpq	%r10, %rdx
	je	.Lunix_path_BB21_27
	leaq	(%rcx,%rcx,2), %rdx
	subq	%r8, %rcx
	addq	$-84, %rcx
	leaq	(%rax,%rdx,8), %rdx
	.p2align	4
.Lunix_path_BB21_11:
	movq	-8(%rdx), %r8
	movq	%r8, 16(%rdx)
	movups	-24(%rdx), %xmm1
	movups	%xmm1, (%rdx)
	addq	$-24, %rdx
	decq	%rcx
	jne	.Lunix_path_BB21_11
	jmp	.Lunix_path_BB21_27
.Lunix_path_BB21_23:
	movq	%rdx, %r10
	andq	$-2, %r10
	leaq	(%rcx,%rcx,2), %rcx
	leaq	(%rax,%rcx,8), %r11
	xorl	%ecx, %ecx
	.p2align	4
.Lunix_path_BB21_24:
	movq	-8(%r11), %rbx
	movq	%rbx, 16(%r11)
	movups	-24(%r11), %xmm1
	movups	%xmm1, (%r11)
	movabsq	$2305843009213693950, %rbx
	xorq	%rcx, %rbx
	addq	%rdx, %rbx
	shlq	$3, %rbx
	leaq	(%rbx,%rbx,2), %rbx
	movq	16(%r8,%rbx), %r14
	movq	%r14, 16(%r9,%rbx)
	movups	(%r8,%rbx), %xmm1
	movups	%xmm1, (%r9,%rbx)
	addq	$2, %rcx
	addq	$-48, %r11
	cmpq	%rcx, %r10
	jne	.Lunix_path_BB21_24
	testb	$1, %dl
	je	.Lunix_path_BB21_27
.Lunix_path_BB21_26:
	notq	%rcx
	addq	%rcx, %rdx
	shlq	$3, %rdx
	leaq	(%rdx,%rdx,2), %rcx
	movq	16(%r8,%rcx), %rdx
	movq	%rdx, 16(%r9,%rcx)
	movups	(%r8,%rcx), %xmm1
	movups	%xmm1, (%r9,%rcx)
	jmp	.Lunix_path_BB21_27
.Lunix_path_BB21_15:
	andl	$124, %edx
	leaq	(,%rsi,8), %rcx
	leaq	(%rcx,%rcx,2), %r9
	xorl	%ecx, %ecx
	movq	%rax, %r10
	.p2align	4
.Lunix_path_BB21_16:
	movq	16(%r10,%r9), %r11
	movq	%r11, 16(%r10)
	movups	(%r10,%r9), %xmm1
	movups	%xmm1, (%r10)
	movq	40(%r10,%r9), %r11
	movq	%r11, 40(%r10)
	movups	24(%r10,%r9), %xmm1
	movups	%xmm1, 24(%r10)
	movq	64(%r10,%r9), %r11
	movq	%r11, 64(%r10)
	movups	48(%r10,%r9), %xmm1
	movups	%xmm1, 48(%r10)
	movups	72(%r10,%r9), %xmm1
	movups	%xmm1, 72(%r10)
	movq	88(%r10,%r9), %r11
	movq	%r11, 88(%r10)
	addq	$4, %rcx
	addq	$96, %r10
	cmpq	%rcx, %rdx
	jne	.Lunix_path_BB21_16
	testq	%r8, %r8
	je	.Lunix_path_BB21_27
.Lunix_path_BB21_18:
	shlq	$3, %rcx
	leaq	(%rcx,%rcx,2), %rcx
	leaq	(%rsi,%rsi,2), %rdx
	leaq	(%rcx,%rdx,8), %rdx
	addq	%rax, %rdx
	addq	%rax, %rcx
	shll	$3, %r8d
	leaq	(%r8,%r8,2), %r8
	xorl	%r9d, %r9d
	.p2align	4
.Lunix_path_BB21_19:
	movq	16(%rdx,%r9), %r10
	movq	%r10, 16(%rcx,%r9)
	movups	(%rdx,%r9), %xmm1
	movups	%xmm1, (%rcx,%r9)
	addq	$24, %r9
	cmpq	%r9, %r8
	jne	.Lunix_path_BB21_19
.Lunix_path_BB21_27:
	leaq	(%rsi,%rsi,2), %rcx
	movq	-8(%rsp), %rdx
	movq	%rdx, 16(%rax,%rcx,8)
	movaps	-24(%rsp), %xmm1
	movups	%xmm1, (%rax,%rcx,8)
	movq	%rax, (%rdi)
	paddq	.Lunix_path_CPI21_0(%rip), %xmm0
	movdqu	%xmm0, 8(%rdi)
	popq	%rbx
	popq	%r14
	retq
.Lunix_path_func_end21:
	.size	std_alloc.vec.lodged.Vec.T.Lodged.insert_reserved.23.unix_path.buf.PathBuf., .Lunix_path_func_end21-std_alloc.vec.lodged.Vec.T.Lodged.insert_reserved.23.unix_path.buf.PathBuf.
	.section	.text.std_collections.btree.iter.Cursor.advance.23.unix_path.buf.PathBuf.,"ax",@progbits
	.p2align	4
	.type	std_collections.btree.iter.Cursor.advance.23.unix_path.buf.PathBuf.,@function
# std_collections::btree::iter::Cursor::advance::<23'unix_path::buf::PathBuf,()>
std_collections.btree.iter.Cursor.advance.23.unix_path.buf.PathBuf.:
	pushq	%r15
	pushq	%r14
	pushq	%rbx
	movq	%rcx, %rax
	cmpq	$-1, %rsi
	je	.Lunix_path_BB22_1
	movl	%esi, %r9d
	andl	$15, %r9d
	movq	(%rdx), %rcx
	movzwl	(%rcx), %r10d
	cmpq	%r10, %r9
	jae	.Lunix_path_BB22_8
	leaq	(%r9,%r9,2), %rax
	leaq	(%rcx,%rax,8), %r11
	addq	$8, %r11
	addq	$368, %rcx
	incq	%rsi
	movl	$1, %ebx
	movq	%rsi, %r9
	movq	%rdx, %rax
	cmpq	%r8, %r9
	je	.Lunix_path_BB22_22
	jmp	.Lunix_path_BB22_25
.Lunix_path_BB22_1:
	movq	(%rax), %rdx
	xorl	%ebx, %ebx
	cmpw	$1, 2(%rdx)
	movl	$0, %r11d
	movl	$0, %ecx
	movl	$0, %r9d
	je	.Lunix_path_BB22_21
	movq	368(%rdx), %rax
	cmpw	$1, 2(%rax)
	je	.Lunix_path_BB22_5
	.p2align	4
.Lunix_path_BB22_3:
	movq	%rax, %rdx
	movq	368(%rax), %rax
	cmpw	$1, 2(%rax)
	jne	.Lunix_path_BB22_3
.Lunix_path_BB22_5:
	addq	$368, %rdx
	xorl	%ebx, %ebx
	xorl	%r11d, %r11d
	xorl	%ecx, %ecx
	xorl	%r9d, %r9d
	movq	%rdx, %rax
.Lunix_path_BB22_21:
	cmpq	%r8, %r9
	jne	.Lunix_path_BB22_25
.Lunix_path_BB22_22:
	movq	%rbx, (%rdi)
	movq	%r11, 8(%rdi)
	movq	%rcx, 16(%rdi)
	xorps	%xmm0, %xmm0
	movups	%xmm0, 24(%rdi)
	movq	$0, 40(%rdi)
	popq	%rbx
	popq	%r14
	popq	%r15
	retq
.Lunix_path_BB22_8:
	movq	(%rax), %r11
	movzwl	2(%r11), %ecx
	cmpw	$1, %cx
	je	.Lunix_path_BB22_23
	xorl	%edx, %edx
	xorl	%r9d, %r9d
	xorl	%r10d, %r10d
	xorl	%ebx, %ebx
	xorl	%r14d, %r14d
	jmp	.Lunix_path_BB22_10
	.p2align	4
.Lunix_path_BB22_12:
	shlq	$4, %r14
	orq	%r15, %r14
	leaq	(%r11,%r15,8), %rax
	addq	$368, %rax
	movq	368(%r11,%r15,8), %r11
	movzwl	2(%r11), %ecx
	cmpw	$1, %cx
	je	.Lunix_path_BB22_13
.Lunix_path_BB22_10:
	shll	$2, %ecx
	addb	$-4, %cl
	movq	%rsi, %r15
	shrq	%cl, %r15
	andl	$15, %r15d
	movzwl	(%r11), %ecx
	cmpq	%rcx, %r15
	jae	.Lunix_path_BB22_12
	movb	$1, %bl
	movq	%rax, %r10
	movq	%r14, %r9
	movq	%r15, %rdx
	jmp	.Lunix_path_BB22_12
.Lunix_path_BB22_13:
	testb	%bl, %bl
	je	.Lunix_path_BB22_23
	movq	(%r10), %rax
	leaq	368(%rax), %rcx
	leaq	(%rdx,%rdx,2), %rsi
	incq	%rdx
	cmpw	$1, 2(%rax)
	je	.Lunix_path_BB22_20
	shlq	$4, %r9
	addq	%rdx, %r9
	movq	(%rcx,%rdx,8), %r11
	cmpw	$1, 2(%r11)
	jne	.Lunix_path_BB22_17
	shlq	$3, %rdx
	movq	%rax, %r10
	jmp	.Lunix_path_BB22_19
	.p2align	4
.Lunix_path_BB22_17:
	movq	%r11, %r10
	shlq	$4, %r9
	movq	368(%r11), %r11
	cmpw	$1, 2(%r11)
	jne	.Lunix_path_BB22_17
	xorl	%edx, %edx
.Lunix_path_BB22_19:
	addq	%rdx, %r10
	addq	$368, %r10
	xorl	%edx, %edx
.Lunix_path_BB22_20:
	leaq	(%rax,%rsi,8), %r11
	addq	$8, %r11
	shlq	$4, %r9
	addq	%rdx, %r9
	movl	$1, %ebx
	movq	%r10, %rax
	cmpq	%r8, %r9
	je	.Lunix_path_BB22_22
.Lunix_path_BB22_25:
	movq	%rbx, (%rdi)
	movq	%r11, 8(%rdi)
	movq	%rcx, 16(%rdi)
	movq	$1, 24(%rdi)
	movq	%r9, 32(%rdi)
	movq	%rax, 40(%rdi)
	popq	%rbx
	popq	%r14
	popq	%r15
	retq
.Lunix_path_BB22_23:
	xorps	%xmm0, %xmm0
	movups	%xmm0, 32(%rdi)
	movups	%xmm0, 16(%rdi)
	movups	%xmm0, (%rdi)
	popq	%rbx
	popq	%r14
	popq	%r15
	retq
.Lunix_path_func_end22:
	.size	std_collections.btree.iter.Cursor.advance.23.unix_path.buf.PathBuf., .Lunix_path_func_end22-std_collections.btree.iter.Cursor.advance.23.unix_path.buf.PathBuf.
	.section	.text.unix_path.pair.Comparison.rest_after_cut,"ax",@progbits
	.p2align	4
	.type	unix_path.pair.Comparison.rest_after_cut,@function
# unix_path::pair::Comparison::rest_after_cut
unix_path.pair.Comparison.rest_after_cut:
	pushq	%r15
	pushq	%r14
	pushq	%r13
	pushq	%r12
	pushq	%rbx
	movq	%r8, %r12
	movq	%rcx, %r13
	movq	%rdx, %r14
	movq	%rsi, %r15
	movq	%rdi, %rbx
	jmp	.Lunix_path_BB23_3
	.p2align	4
.Lunix_path_BB23_1:
	testq	%rax, %rax
	je	.Lunix_path_BB23_56
.Lunix_path_BB23_2:
	addq	%rax, %r15
	subq	%rax, %r14
	addq	%rax, %r13
	subq	%rax, %r12
.Lunix_path_BB23_3:
	xorl	%edx, %edx
	jmp	.Lunix_path_BB23_5
	.p2align	4
.Lunix_path_BB23_4:
	addq	%rax, %rdx
	cmpq	$4, %rdx
	jae	.Lunix_path_BB23_10
.Lunix_path_BB23_5:
	movq	%rdx, %rax
	cmpq	%r14, %rdx
	jae	.Lunix_path_BB23_11
	movzbl	(%r15,%rax), %ecx
	movl	$1, %edx
	cmpl	$47, %ecx
	je	.Lunix_path_BB23_4
	cmpl	$46, %ecx
	jne	.Lunix_path_BB23_11
	leaq	1(%rax), %rcx
	cmpq	%r14, %rcx
	je	.Lunix_path_BB23_4
	movl	$2, %edx
	cmpb	$47, (%r15,%rcx)
	je	.Lunix_path_BB23_4
	jmp	.Lunix_path_BB23_11
.Lunix_path_BB23_10:
	movq	%r15, %rdi
	movq	%r14, %rsi
	callq	unix_path.filler.filler_end_from
	.p2align	4
.Lunix_path_BB23_11:
	addq	%rax, %r15
	subq	%rax, %r14
	xorl	%edx, %edx
	jmp	.Lunix_path_BB23_13
	.p2align	4
.Lunix_path_BB23_12:
	addq	%rax, %rdx
	cmpq	$4, %rdx
	jae	.Lunix_path_BB23_54
.Lunix_path_BB23_13:
	movq	%rdx, %rax
	cmpq	%r12, %rdx
	jae	.Lunix_path_BB23_18
	movzbl	(%r13,%rax), %ecx
	movl	$1, %edx
	cmpl	$47, %ecx
	je	.Lunix_path_BB23_12
	cmpl	$46, %ecx
	jne	.Lunix_path_BB23_18
	leaq	1(%rax), %rcx
	cmpq	%r12, %rcx
	je	.Lunix_path_BB23_12
	movl	$2, %edx
	cmpb	$47, (%r13,%rcx)
	je	.Lunix_path_BB23_12
	.p2align	4
.Lunix_path_BB23_18:
	subq	%rax, %r12
	je	.Lunix_path_BB23_55
.Lunix_path_BB23_19:
	addq	%rax, %r13
	cmpq	%r14, %r12
	movq	%r14, %rcx
	cmovbq	%r12, %rcx
	cmpq	$15, %rcx
	ja	.Lunix_path_BB23_25
	cmpq	$7, %rcx
	ja	.Lunix_path_BB23_34
	xorl	%eax, %eax
	testq	%r14, %r14
	je	.Lunix_path_BB23_36
	.p2align	4
.Lunix_path_BB23_22:
	movzbl	(%r15,%rax), %edx
	cmpb	(%r13,%rax), %dl
	jne	.Lunix_path_BB23_36
	incq	%rax
	cmpq	%rax, %rcx
	jne	.Lunix_path_BB23_22
	movq	%rcx, %rax
	cmpq	%r14, %rax
	jb	.Lunix_path_BB23_37
	jmp	.Lunix_path_BB23_45
	.p2align	4
.Lunix_path_BB23_25:
	movdqu	(%r15), %xmm0
	movdqu	(%r13), %xmm1
	pcmpeqb	%xmm0, %xmm1
	pmovmskb	%xmm1, %eax
	notl	%eax
	rep		bsfl	%eax, %eax
	cmpw	$16, %ax
	jb	.Lunix_path_BB23_36
	xorl	%edx, %edx
	cmpq	$64, %rcx
	jb	.Lunix_path_BB23_30
	movq	%rcx, %rax
	.p2align	4
.Lunix_path_BB23_28:
	movdqu	(%r15,%rdx), %xmm0
	movdqu	16(%r15,%rdx), %xmm1
	movdqu	32(%r15,%rdx), %xmm2
	movdqu	48(%r15,%rdx), %xmm3
	movdqu	(%r13,%rdx), %xmm4
	pcmpeqb	%xmm0, %xmm4
	movdqu	16(%r13,%rdx), %xmm0
	pcmpeqb	%xmm1, %xmm0
	pand	%xmm4, %xmm0
	movdqu	32(%r13,%rdx), %xmm1
	pcmpeqb	%xmm2, %xmm1
	movdqu	48(%r13,%rdx), %xmm2
	pcmpeqb	%xmm3, %xmm2
	pand	%xmm1, %xmm2
	pand	%xmm0, %xmm2
	pmovmskb	%xmm2, %esi
	cmpl	$65535, %esi
	jne	.Lunix_path_BB23_30
	addq	$64, %rdx
	addq	$-64, %rax
	cmpq	$63, %rax
	ja	.Lunix_path_BB23_28
.Lunix_path_BB23_30:
	addq	$-16, %rcx
	cmpq	%rcx, %rdx
	jae	.Lunix_path_BB23_33
	.p2align	4
.Lunix_path_BB23_31:
	movdqu	(%r15,%rdx), %xmm0
	movdqu	(%r13,%rdx), %xmm1
	pcmpeqb	%xmm0, %xmm1
	pmovmskb	%xmm1, %eax
	notl	%eax
	rep		bsfl	%eax, %eax
	cmpw	$15, %ax
	jbe	.Lunix_path_BB23_44
	addq	$16, %rdx
	cmpq	%rcx, %rdx
	jb	.Lunix_path_BB23_31
.Lunix_path_BB23_33:
	movdqu	(%r15,%rcx), %xmm0
	movdqu	(%r13,%rcx), %xmm1
	pcmpeqb	%xmm0, %xmm1
	pmovmskb	%xmm1, %eax
	notl	%eax
	rep		bsfl	%eax, %eax
	addq	%rcx, %rax
	cmpq	%r14, %rax
	jb	.Lunix_path_BB23_37
	jmp	.Lunix_path_BB23_45
	.p2align	4
.Lunix_path_BB23_34:
	movq	(%r15), %xmm0
	movq	(%r13), %xmm1
	pcmpeqb	%xmm0, %xmm1
	pmovmskb	%xmm1, %eax
	notl	%eax
	orl	$256, %eax
	rep		bsfl	%eax, %eax
	cmpb	$8, %al
	jb	.Lunix_path_BB23_36
	movq	-8(%r15,%rcx), %xmm0
	movq	-8(%r13,%rcx), %xmm1
	pcmpeqb	%xmm0, %xmm1
	pmovmskb	%xmm1, %eax
	notl	%eax
	orl	$256, %eax
	rep		bsfl	%eax, %eax
	addq	%rcx, %rax
	addq	$-8, %rax
	.p2align	4
.Lunix_path_BB23_36:
	cmpq	%r14, %rax
	jae	.Lunix_path_BB23_45
.Lunix_path_BB23_37:
	movzbl	(%r15,%rax), %ecx
	cmpw	$47, %cx
	jne	.Lunix_path_BB23_39
.Lunix_path_BB23_45:
	xorl	%ecx, %ecx
	cmpq	%r12, %rax
	jae	.Lunix_path_BB23_43
	jmp	.Lunix_path_BB23_46
	.p2align	4
.Lunix_path_BB23_39:
	cmpq	%r12, %rax
	jae	.Lunix_path_BB23_42
	cmpb	$46, %cl
	je	.Lunix_path_BB23_42
	movzbl	(%r13,%rax), %edx
	andb	$-2, %dl
	cmpb	$46, %dl
	jne	.Lunix_path_BB23_56
.Lunix_path_BB23_42:
	movzwl	%cx, %ecx
	incl	%ecx
	cmpq	%r12, %rax
	jae	.Lunix_path_BB23_43
.Lunix_path_BB23_46:
	movzbl	(%r13,%rax), %edx
	cmpw	$47, %dx
	jne	.Lunix_path_BB23_48
.Lunix_path_BB23_43:
	xorl	%edx, %edx
	cmpw	%dx, %cx
	je	.Lunix_path_BB23_1
	jmp	.Lunix_path_BB23_49
	.p2align	4
.Lunix_path_BB23_48:
	movzwl	%dx, %edx
	incl	%edx
	cmpw	%dx, %cx
	je	.Lunix_path_BB23_1
.Lunix_path_BB23_49:
	testq	%rax, %rax
	je	.Lunix_path_BB23_56
	movzbl	-1(%r15,%rax), %edx
	cmpb	$47, %dl
	je	.Lunix_path_BB23_2
	xorl	%ecx, %ecx
	cmpb	$46, %dl
	jne	.Lunix_path_BB23_57
	movl	$0, %edx
	movl	$0, %esi
	decq	%rax
	je	.Lunix_path_BB23_58
	cmpb	$47, -1(%r15,%rax)
	je	.Lunix_path_BB23_2
	jmp	.Lunix_path_BB23_56
.Lunix_path_BB23_44:
	movzwl	%ax, %eax
	addq	%rdx, %rax
	cmpq	%r14, %rax
	jb	.Lunix_path_BB23_37
	jmp	.Lunix_path_BB23_45
.Lunix_path_BB23_54:
	movq	%r13, %rdi
	movq	%r12, %rsi
	callq	unix_path.filler.filler_end_from
	subq	%rax, %r12
	jne	.Lunix_path_BB23_19
.Lunix_path_BB23_55:
	movl	$1, %ecx
	movq	%r15, %rdx
	movq	%r14, %rsi
	jmp	.Lunix_path_BB23_58
.Lunix_path_BB23_56:
	xorl	%ecx, %ecx
.Lunix_path_BB23_57:
	xorl	%edx, %edx
	xorl	%esi, %esi
.Lunix_path_BB23_58:
	movq	%rcx, (%rbx)
	movq	%rdx, 8(%rbx)
	movq	%rsi, 16(%rbx)
	popq	%rbx
	popq	%r12
	popq	%r13
	popq	%r14
	popq	%r15
	retq
.Lunix_path_func_end23:
	.size	unix_path.pair.Comparison.rest_after_cut, .Lunix_path_func_end23-unix_path.pair.Comparison.rest_after_cut
	.section	.text.std_collections.btree.node.Node.destroy.08dd9cc935c3c3a8.,"ax",@progbits
	.p2align	4
	.type	std_collections.btree.node.Node.destroy.08dd9cc935c3c3a8.,@function
# std_collections::btree::node::Node::destroy::<#08dd9cc935c3c3a8>
std_collections.btree.node.Node.destroy.08dd9cc935c3c3a8.:
	pushq	%r15
	pushq	%r14
	pushq	%rbx
	subq	$112, %rsp
	movq	%rdi, %rbx
	movzwl	(%rdi), %r14d
	movzwl	2(%rdi), %ecx
	xorl	%edx, %edx
	testw	%cx, %cx
	setne	%dl
	leaq	1(%r14), %rsi
	shll	$4, %edx
	leaq	368(%rdi), %rax
	addq	$8, %rdi
	xorl	%r8d, %r8d
	testw	%cx, %cx
	cmovneq	%rsi, %r8
	movq	%rdi, 32(%rsp)
	movq	%r14, 40(%rsp)
	movq	$15, 48(%rsp)
	movq	%rax, 56(%rsp)
	movq	%r14, 64(%rsp)
	movq	$15, 72(%rsp)
	movq	%rax, 80(%rsp)
	movq	%r8, 88(%rsp)
	movq	%rdx, 96(%rsp)
	movq	%rbx, 104(%rsp)
	je	.Lunix_path_BB24_4
	testq	%r14, %r14
	jne	.Lunix_path_BB24_2
	movq	(%rax), %rbx
	cmpq	$257, %r14
	jb	.Lunix_path_BB24_56
.Lunix_path_BB24_57:
	leaq	56(%rax), %rsi
	xorl	%ecx, %ecx
	.p2align	4
.Lunix_path_BB24_58:
	xorl	%edx, %edx
	.p2align	4
.Lunix_path_BB24_59:
	movups	-48(%rsi,%rdx,8), %xmm0
	movups	-32(%rsi,%rdx,8), %xmm1
	movups	-16(%rsi,%rdx,8), %xmm2
	movups	(%rsi,%rdx,8), %xmm3
	movups	%xmm0, -56(%rsi,%rdx,8)
	movups	%xmm1, -40(%rsi,%rdx,8)
	movups	%xmm2, -24(%rsi,%rdx,8)
	movups	%xmm3, -8(%rsi,%rdx,8)
	addq	$8, %rdx
	cmpq	$256, %rdx
	jne	.Lunix_path_BB24_59
	addq	$256, %rcx
	movq	%r14, %rdx
	subq	%rcx, %rdx
	addq	$2048, %rsi
	cmpq	$256, %rdx
	ja	.Lunix_path_BB24_58
	cmpq	%rcx, %r14
	je	.Lunix_path_BB24_63
.Lunix_path_BB24_62:
	leaq	(%rax,%rcx,8), %rdi
	leaq	(%rax,%rcx,8), %rsi
	addq	$8, %rsi
	shlq	$3, %rdx
	callq	memmove@PLT
.Lunix_path_BB24_63:
	movq	%rbx, %rdi
	callq	std_collections.btree.node.Node.destroy.08dd9cc935c3c3a8.
	movq	104(%rsp), %rdi
	jmp	.Lunix_path_BB24_44
	.p2align	4
.Lunix_path_BB24_53:
	cmpq	$0, 40(%rsp)
	je	.Lunix_path_BB24_54
.Lunix_path_BB24_2:
	movq	80(%rsp), %rax
	movq	88(%rsp), %r14
	movq	(%rax), %rbx
	decq	%r14
	cmpq	$257, %r14
	jb	.Lunix_path_BB24_3
	leaq	56(%rax), %rsi
	xorl	%ecx, %ecx
	.p2align	4
.Lunix_path_BB24_46:
	xorl	%edx, %edx
	.p2align	4
.Lunix_path_BB24_47:
	movups	-48(%rsi,%rdx,8), %xmm0
	movups	-32(%rsi,%rdx,8), %xmm1
	movups	-16(%rsi,%rdx,8), %xmm2
	movups	(%rsi,%rdx,8), %xmm3
	movups	%xmm0, -56(%rsi,%rdx,8)
	movups	%xmm1, -40(%rsi,%rdx,8)
	movups	%xmm2, -24(%rsi,%rdx,8)
	movups	%xmm3, -8(%rsi,%rdx,8)
	addq	$8, %rdx
	cmpq	$256, %rdx
	jne	.Lunix_path_BB24_47
	addq	$256, %rcx
	movq	%r14, %rdx
	subq	%rcx, %rdx
	addq	$2048, %rsi
	cmpq	$256, %rdx
	ja	.Lunix_path_BB24_46
	movq	96(%rsp), %r15
	cmpq	%rcx, %r14
	je	.Lunix_path_BB24_51
.Lunix_path_BB24_50:
	leaq	(%rax,%rcx,8), %rdi
	leaq	(%rax,%rcx,8), %rsi
	addq	$8, %rsi
	shlq	$3, %rdx
	callq	memmove@PLT
.Lunix_path_BB24_51:
	movq	%r14, 88(%rsp)
	movq	%r15, 96(%rsp)
	movq	%rbx, %rdi
	callq	std_collections.btree.node.Node.destroy.08dd9cc935c3c3a8.
	xorps	%xmm0, %xmm0
	movaps	%xmm0, (%rsp)
	movq	$0, 16(%rsp)
	movq	%rsp, %rdi
	leaq	32(%rsp), %rsi
	xorl	%edx, %edx
	callq	std_alloc.vec.Vec.remove.b40003dd673f1bd1.
	decq	64(%rsp)
	cmpq	$0, 16(%rsp)
	je	.Lunix_path_BB24_53
	movq	(%rsp), %rdi
	callq	rattle_dealloc@PLT
	jmp	.Lunix_path_BB24_53
	.p2align	4
.Lunix_path_BB24_3:
	xorl	%ecx, %ecx
	movq	%r14, %rdx
	movq	96(%rsp), %r15
	cmpq	%rcx, %r14
	jne	.Lunix_path_BB24_50
	jmp	.Lunix_path_BB24_51
.Lunix_path_BB24_54:
	movq	80(%rsp), %rax
	movq	88(%rsp), %r14
	decq	%r14
	movq	(%rax), %rbx
	cmpq	$257, %r14
	jae	.Lunix_path_BB24_57
.Lunix_path_BB24_56:
	xorl	%ecx, %ecx
	movq	%r14, %rdx
	cmpq	%rcx, %r14
	jne	.Lunix_path_BB24_62
	jmp	.Lunix_path_BB24_63
.Lunix_path_BB24_4:
	cmpw	$15, %r14w
	jbe	.Lunix_path_BB24_5
	movl	%r14d, %edx
	shrl	%edx
	movq	%r14, %rax
	subq	%rdx, %rax
	leaq	(%rax,%rax,2), %rax
	leaq	(%rdi,%rax,8), %rsi
	callq	core.slice.edits.mirror.483ec8513fd57e54.
	jmp	.Lunix_path_BB24_39
.Lunix_path_BB24_5:
	cmpw	$2, %r14w
	jb	.Lunix_path_BB24_38
	leaq	-2(%r14), %rcx
	movq	%rcx, %rax
	shrq	%rax
	movq	%r14, %rdx
	decq	%rdx
	je	.Lunix_path_BB24_8
	leaq	(%rdx,%rdx,2), %rdx
	movq	16(%rdi), %rsi
	movq	%rsi, 16(%rsp)
	movups	(%rdi), %xmm0
	movaps	%xmm0, (%rsp)
	movq	16(%rdi,%rdx,8), %rsi
	movups	(%rdi,%rdx,8), %xmm0
	movups	%xmm0, (%rdi)
	movq	%rsi, 16(%rdi)
	movq	16(%rsp), %rsi
	movq	%rsi, 16(%rdi,%rdx,8)
	movaps	(%rsp), %xmm0
	movups	%xmm0, (%rdi,%rdx,8)
.Lunix_path_BB24_8:
	testq	%rax, %rax
	je	.Lunix_path_BB24_38
	cmpq	$1, %rcx
	jbe	.Lunix_path_BB24_10
	leaq	(%rcx,%rcx,2), %rcx
	movq	48(%rbx), %rdx
	movq	%rdx, 16(%rsp)
	movups	32(%rbx), %xmm0
	movaps	%xmm0, (%rsp)
	movq	16(%rdi,%rcx,8), %rdx
	movups	(%rdi,%rcx,8), %xmm0
	movups	%xmm0, 32(%rbx)
	movq	%rdx, 48(%rbx)
	movq	16(%rsp), %rdx
	movq	%rdx, 16(%rdi,%rcx,8)
	movaps	(%rsp), %xmm0
	movups	%xmm0, (%rdi,%rcx,8)
	jmp	.Lunix_path_BB24_13
.Lunix_path_BB24_10:
	testq	%rcx, %rcx
	jne	.Lunix_path_BB24_13
	leaq	(%rcx,%rcx,2), %rcx
	movq	16(%rdi,%rcx,8), %rdx
	movq	%rdx, 16(%rsp)
	movups	(%rdi,%rcx,8), %xmm0
	movaps	%xmm0, (%rsp)
	movq	48(%rbx), %rdx
	movups	32(%rbx), %xmm0
	movups	%xmm0, (%rdi,%rcx,8)
	movq	%rdx, 16(%rdi,%rcx,8)
	movq	16(%rsp), %rcx
	movq	%rcx, 48(%rbx)
	movaps	(%rsp), %xmm0
	movups	%xmm0, 32(%rbx)
.Lunix_path_BB24_13:
	cmpq	$1, %rax
	je	.Lunix_path_BB24_38
	leaq	-3(%r14), %rcx
	cmpq	$2, %rcx
	jbe	.Lunix_path_BB24_15
	leaq	(%rcx,%rcx,2), %rcx
	movq	72(%rbx), %rdx
	movq	%rdx, 16(%rsp)
	movups	56(%rbx), %xmm0
	movaps	%xmm0, (%rsp)
	movq	16(%rdi,%rcx,8), %rdx
	movups	(%rdi,%rcx,8), %xmm0
	movups	%xmm0, 56(%rbx)
	movq	%rdx, 72(%rbx)
	movq	16(%rsp), %rdx
	movq	%rdx, 16(%rdi,%rcx,8)
	movaps	(%rsp), %xmm0
	movups	%xmm0, (%rdi,%rcx,8)
	jmp	.Lunix_path_BB24_18
.Lunix_path_BB24_15:
	cmpl	$2, %ecx
	je	.Lunix_path_BB24_18
	leaq	(%rcx,%rcx,2), %rcx
	movq	16(%rdi,%rcx,8), %rdx
	movq	%rdx, 16(%rsp)
	movups	(%rdi,%rcx,8), %xmm0
	movaps	%xmm0, (%rsp)
	movq	72(%rbx), %rdx
	movups	56(%rbx), %xmm0
	movups	%xmm0, (%rdi,%rcx,8)
	movq	%rdx, 16(%rdi,%rcx,8)
	movq	16(%rsp), %rcx
	movq	%rcx, 72(%rbx)
	movaps	(%rsp), %xmm0
	movups	%xmm0, 56(%rbx)
.Lunix_path_BB24_18:
	cmpq	$2, %rax
	je	.Lunix_path_BB24_38
	leaq	-4(%r14), %rcx
	cmpq	$3, %rcx
	jbe	.Lunix_path_BB24_20
	leaq	(%rcx,%rcx,2), %rcx
	movq	96(%rbx), %rdx
	movq	%rdx, 16(%rsp)
	movups	80(%rbx), %xmm0
	movaps	%xmm0, (%rsp)
	movq	16(%rdi,%rcx,8), %rdx
	movups	(%rdi,%rcx,8), %xmm0
	movups	%xmm0, 80(%rbx)
	movq	%rdx, 96(%rbx)
	movq	16(%rsp), %rdx
	movq	%rdx, 16(%rdi,%rcx,8)
	movaps	(%rsp), %xmm0
	movups	%xmm0, (%rdi,%rcx,8)
	jmp	.Lunix_path_BB24_23
.Lunix_path_BB24_20:
	cmpl	$3, %ecx
	je	.Lunix_path_BB24_23
	leaq	(%rcx,%rcx,2), %rcx
	movq	16(%rdi,%rcx,8), %rdx
	movq	%rdx, 16(%rsp)
	movups	(%rdi,%rcx,8), %xmm0
	movaps	%xmm0, (%rsp)
	movq	96(%rbx), %rdx
	movups	80(%rbx), %xmm0
	movups	%xmm0, (%rdi,%rcx,8)
	movq	%rdx, 16(%rdi,%rcx,8)
	movq	16(%rsp), %rcx
	movq	%rcx, 96(%rbx)
	movaps	(%rsp), %xmm0
	movups	%xmm0, 80(%rbx)
.Lunix_path_BB24_23:
	cmpq	$3, %rax
	je	.Lunix_path_BB24_38
	leaq	-5(%r14), %rcx
	cmpq	$4, %rcx
	jbe	.Lunix_path_BB24_25
	leaq	(%rcx,%rcx,2), %rcx
	movq	120(%rbx), %rdx
	movq	%rdx, 16(%rsp)
	movups	104(%rbx), %xmm0
	movaps	%xmm0, (%rsp)
	movq	16(%rdi,%rcx,8), %rdx
	movups	(%rdi,%rcx,8), %xmm0
	movups	%xmm0, 104(%rbx)
	movq	%rdx, 120(%rbx)
	movq	16(%rsp), %rdx
	movq	%rdx, 16(%rdi,%rcx,8)
	movaps	(%rsp), %xmm0
	movups	%xmm0, (%rdi,%rcx,8)
	jmp	.Lunix_path_BB24_28
.Lunix_path_BB24_25:
	cmpl	$4, %ecx
	je	.Lunix_path_BB24_28
	leaq	(%rcx,%rcx,2), %rcx
	movq	16(%rdi,%rcx,8), %rdx
	movq	%rdx, 16(%rsp)
	movups	(%rdi,%rcx,8), %xmm0
	movaps	%xmm0, (%rsp)
	movq	120(%rbx), %rdx
	movups	104(%rbx), %xmm0
	movups	%xmm0, (%rdi,%rcx,8)
	movq	%rdx, 16(%rdi,%rcx,8)
	movq	16(%rsp), %rcx
	movq	%rcx, 120(%rbx)
	movaps	(%rsp), %xmm0
	movups	%xmm0, 104(%rbx)
.Lunix_path_BB24_28:
	cmpq	$4, %rax
	je	.Lunix_path_BB24_38
	leaq	-6(%r14), %rcx
	cmpq	$5, %rcx
	jbe	.Lunix_path_BB24_30
	leaq	(%rcx,%rcx,2), %rcx
	movq	144(%rbx), %rdx
	movq	%rdx, 16(%rsp)
	movups	128(%rbx), %xmm0
	movaps	%xmm0, (%rsp)
	movq	16(%rdi,%rcx,8), %rdx
	movups	(%rdi,%rcx,8), %xmm0
	movups	%xmm0, 128(%rbx)
	movq	%rdx, 144(%rbx)
	movq	16(%rsp), %rdx
	movq	%rdx, 16(%rdi,%rcx,8)
	movaps	(%rsp), %xmm0
	movups	%xmm0, (%rdi,%rcx,8)
	jmp	.Lunix_path_BB24_33
.Lunix_path_BB24_30:
	cmpl	$5, %ecx
	je	.Lunix_path_BB24_33
	leaq	(%rcx,%rcx,2), %rcx
	movq	16(%rdi,%rcx,8), %rdx
	movq	%rdx, 16(%rsp)
	movups	(%rdi,%rcx,8), %xmm0
	movaps	%xmm0, (%rsp)
	movq	144(%rbx), %rdx
	movups	128(%rbx), %xmm0
	movups	%xmm0, (%rdi,%rcx,8)
	movq	%rdx, 16(%rdi,%rcx,8)
	movq	16(%rsp), %rcx
	movq	%rcx, 144(%rbx)
	movaps	(%rsp), %xmm0
	movups	%xmm0, 128(%rbx)
.Lunix_path_BB24_33:
	cmpq	$5, %rax
	je	.Lunix_path_BB24_38
	leaq	-7(%r14), %rax
	cmpq	$6, %rax
	jbe	.Lunix_path_BB24_35
	leaq	(%rax,%rax,2), %rax
	movq	168(%rbx), %rcx
	movq	%rcx, 16(%rsp)
	movups	152(%rbx), %xmm0
	movaps	%xmm0, (%rsp)
	movq	16(%rdi,%rax,8), %rcx
	movups	(%rdi,%rax,8), %xmm0
	movups	%xmm0, 152(%rbx)
	movq	%rcx, 168(%rbx)
	movq	16(%rsp), %rcx
	movq	%rcx, 16(%rdi,%rax,8)
	movaps	(%rsp), %xmm0
	movups	%xmm0, (%rdi,%rax,8)
	jmp	.Lunix_path_BB24_38
.Lunix_path_BB24_35:
	cmpl	$6, %eax
	je	.Lunix_path_BB24_38
	leaq	(%rax,%rax,2), %rax
	movq	16(%rdi,%rax,8), %rcx
	movq	%rcx, 16(%rsp)
	movups	(%rdi,%rax,8), %xmm0
	movaps	%xmm0, (%rsp)
	movq	168(%rbx), %rcx
	movups	152(%rbx), %xmm0
	movups	%xmm0, (%rdi,%rax,8)
	movq	%rcx, 16(%rdi,%rax,8)
	movq	16(%rsp), %rax
	movq	%rax, 168(%rbx)
	movaps	(%rsp), %xmm0
	movups	%xmm0, 152(%rbx)
.Lunix_path_BB24_38:
	testq	%r14, %r14
	je	.Lunix_path_BB24_43
.Lunix_path_BB24_39:
	leaq	(%r14,%r14,2), %rax
	leaq	(%rbx,%rax,8), %r15
	jmp	.Lunix_path_BB24_40
	.p2align	4
.Lunix_path_BB24_42:
	decq	%r14
	addq	$-24, %r15
	testq	%r14, %r14
	je	.Lunix_path_BB24_43
.Lunix_path_BB24_40:
	cmpq	$0, (%r15)
	je	.Lunix_path_BB24_42
	movq	-16(%r15), %rdi
	callq	rattle_dealloc@PLT
	jmp	.Lunix_path_BB24_42
.Lunix_path_BB24_43:
	movq	%rbx, %rdi
.Lunix_path_BB24_44:
	addq	$112, %rsp
	popq	%rbx
	popq	%r14
	popq	%r15
	jmp	rattle_dealloc@PLT
.Lunix_path_func_end24:
	.size	std_collections.btree.node.Node.destroy.08dd9cc935c3c3a8., .Lunix_path_func_end24-std_collections.btree.node.Node.destroy.08dd9cc935c3c3a8.
	.section	.text.pathtool.names.push_optional,"ax",@progbits
	.p2align	4
	.type	pathtool.names.push_optional,@function
# pathtool::names::push_optional
pathtool.names.push_optional:
	pushq	%r15
	pushq	%r14
	pushq	%r13
	pushq	%r12
	pushq	%rbx
	movq	%rsi, %rbx
	cmpb	$0, (%rdi)
	movq	8(%rsi), %rax
	movq	16(%rsi), %rcx
	je	.Lunix_path_BB25_6
	movq	8(%rdi), %rsi
	movq	16(%rdi), %rdx
	leaq	8(%rbx), %r13
	cmpq	%rax, %rcx
	je	.Lunix_path_BB25_29
.Lunix_path_BB25_2:
	movq	(%rbx), %rcx
	movb	$43, (%rcx,%rax)
	incq	%rax
	movq	%rax, 8(%rbx)
	movq	16(%rbx), %r14
	movq	%r14, %rcx
	subq	%rax, %rcx
	cmpq	%rcx, %rdx
	ja	.Lunix_path_BB25_31
.Lunix_path_BB25_3:
	leaq	(%rax,%rdx), %r15
	movq	(%rbx), %r12
	xorps	%xmm0, %xmm0
	movups	%xmm0, (%r13)
	leaq	(%r12,%rax), %rdi
	movq	%rdi, %rcx
	subq	%rsi, %rcx
	cmpq	%rdx, %rcx
	jae	.Lunix_path_BB25_8
	cmpq	$4, %rdx
	jb	.Lunix_path_BB25_5
	cmpq	$32, %rcx
	jae	.Lunix_path_BB25_11
.Lunix_path_BB25_5:
	xorl	%ecx, %ecx
.Lunix_path_BB25_20:
	movq	%rdx, %r9
	movq	%rcx, %r8
	andq	$3, %r9
	je	.Lunix_path_BB25_23
	movq	%rcx, %r8
	.p2align	4
.Lunix_path_BB25_22:
	movzbl	(%rsi,%r8), %r10d
	movb	%r10b, (%rdi,%r8)
	incq	%r8
	decq	%r9
	jne	.Lunix_path_BB25_22
.Lunix_path_BB25_23:
	subq	%rdx, %rcx
	cmpq	$-4, %rcx
	ja	.Lunix_path_BB25_26
	addq	%r12, %rax
	addq	$3, %rax
	.p2align	4
.Lunix_path_BB25_25:
	movzbl	(%rsi,%r8), %ecx
	movb	%cl, -3(%rax,%r8)
	movzbl	1(%rsi,%r8), %ecx
	movb	%cl, -2(%rax,%r8)
	movzbl	2(%rsi,%r8), %ecx
	movb	%cl, -1(%rax,%r8)
	movzbl	3(%rsi,%r8), %ecx
	movb	%cl, (%rax,%r8)
	addq	$4, %r8
	cmpq	%r8, %rdx
	jne	.Lunix_path_BB25_25
	jmp	.Lunix_path_BB25_26
.Lunix_path_BB25_6:
	cmpq	%rax, %rcx
	je	.Lunix_path_BB25_33
.Lunix_path_BB25_7:
	movq	(%rbx), %rdx
	movb	$45, (%rdx,%rax)
	incq	%rax
	movq	%rdx, (%rbx)
	movq	%rax, 8(%rbx)
	movq	%rcx, 16(%rbx)
	jmp	.Lunix_path_BB25_27
.Lunix_path_BB25_8:
	callq	memmove@PLT
.Lunix_path_BB25_26:
	movq	%r12, (%rbx)
	movq	%r15, 8(%rbx)
	movq	%r14, 16(%rbx)
.Lunix_path_BB25_27:
	xorl	%eax, %eax
.Lunix_path_BB25_28:
	popq	%rbx
	popq	%r12
	popq	%r13
	popq	%r14
	popq	%r15
	retq
.Lunix_path_BB25_11:
	cmpq	$32, %rdx
	jae	.Lunix_path_BB25_13
	xorl	%ecx, %ecx
	jmp	.Lunix_path_BB25_17
.Lunix_path_BB25_13:
	movq	%rdx, %rcx
	andq	$-32, %rcx
	leaq	(%rax,%r12), %r8
	addq	$16, %r8
	xorl	%r9d, %r9d
	.p2align	4
.Lunix_path_BB25_14:
	movups	(%rsi,%r9), %xmm0
	movups	16(%rsi,%r9), %xmm1
	movups	%xmm0, -16(%r8,%r9)
	movups	%xmm1, (%r8,%r9)
	addq	$32, %r9
	cmpq	%r9, %rcx
	jne	.Lunix_path_BB25_14
	cmpq	%rcx, %rdx
	je	.Lunix_path_BB25_26
	testb	$28, %dl
	je	.Lunix_path_BB25_20
.Lunix_path_BB25_17:
	movq	%rcx, %r8
	movq	%rdx, %rcx
	andq	$-4, %rcx
	.p2align	4
.Lunix_path_BB25_18:
	movl	(%rsi,%r8), %r9d
	movl	%r9d, (%rdi,%r8)
	addq	$4, %r8
	cmpq	%r8, %rcx
	jne	.Lunix_path_BB25_18
	cmpq	%rcx, %rdx
	je	.Lunix_path_BB25_26
	jmp	.Lunix_path_BB25_20
.Lunix_path_BB25_29:
	movq	%rdx, %r14
	movq	%rsi, %r15
	movl	$1, %esi
	movq	%rbx, %rdi
	callq	std_alloc.vec.Vec.grow_amortized.307f257cf2d167af.
	movl	%eax, %ecx
	movb	$1, %al
	testb	%cl, %cl
	je	.Lunix_path_BB25_28
	movq	(%r13), %rax
	movq	%r15, %rsi
	movq	%r14, %rdx
	jmp	.Lunix_path_BB25_2
.Lunix_path_BB25_31:
	movq	%rsi, %r15
	movq	%rbx, %rdi
	movq	%rdx, %r12
	movq	%rdx, %rsi
	callq	std_alloc.vec.Vec.grow_amortized.307f257cf2d167af.
	movl	%eax, %ecx
	movb	$1, %al
	testb	%cl, %cl
	je	.Lunix_path_BB25_28
	movq	8(%rbx), %rax
	movq	16(%rbx), %r14
	movq	%r15, %rsi
	movq	%r12, %rdx
	jmp	.Lunix_path_BB25_3
.Lunix_path_BB25_33:
	movl	$1, %esi
	movq	%rbx, %rdi
	callq	std_alloc.vec.Vec.grow_amortized.307f257cf2d167af.
	movl	%eax, %ecx
	movb	$1, %al
	testb	%cl, %cl
	je	.Lunix_path_BB25_28
	movq	8(%rbx), %rax
	movq	16(%rbx), %rcx
	jmp	.Lunix_path_BB25_7
.Lunix_path_func_end25:
	.size	pathtool.names.push_optional, .Lunix_path_func_end25-pathtool.names.push_optional
	.section	.rodata.cst16,"aM",@progbits,16
	.p2align	4, 0x0
.Lunix_path_CPI26_0:
	.zero	16,47
	.section	.text.unix_path.path.Path.file_name,"ax",@progbits
	.p2align	4
	.type	unix_path.path.Path.file_name,@function
# unix_path::path::Path::file_name
unix_path.path.Path.file_name:
	pushq	%rbp
	pushq	%r15
	pushq	%r14
	pushq	%r13
	pushq	%r12
	pushq	%rbx
	pushq	%rax
	movq	%rdi, %rbx
	testq	%rdx, %rdx
	je	.Lunix_path_BB26_9
	movq	%rdx, %r15
	movq	%rsi, %r14
	movq	%rdx, %r12
	movq	%r15, %rax
	jmp	.Lunix_path_BB26_2
	.p2align	4
.Lunix_path_BB26_8:
	movq	%rax, %r12
	testq	%rax, %rax
	je	.Lunix_path_BB26_9
.Lunix_path_BB26_2:
	decq	%rax
	je	.Lunix_path_BB26_23
	movzbl	(%r14,%rax), %ecx
	cmpl	$47, %ecx
	je	.Lunix_path_BB26_6
	cmpl	$46, %ecx
	jne	.Lunix_path_BB26_10
	cmpb	$47, -1(%r14,%rax)
	jne	.Lunix_path_BB26_10
.Lunix_path_BB26_6:
	movq	%r15, %rcx
	subq	%rax, %rcx
	cmpq	$8, %rcx
	jne	.Lunix_path_BB26_8
	movq	%r14, %rdi
	xorl	%esi, %esi
	movq	%rax, %rdx
	callq	unix_path.filler.trimmed_blocks_len
	jmp	.Lunix_path_BB26_8
.Lunix_path_BB26_9:
	pxor	%xmm0, %xmm0
	movdqu	%xmm0, (%rbx)
	movq	$0, 16(%rbx)
	jmp	.Lunix_path_BB26_43
.Lunix_path_BB26_23:
	movl	$1, %r12d
	xorl	%r15d, %r15d
	cmpb	$46, (%r14)
	movl	$0, %r13d
	movl	$0, %ecx
	jne	.Lunix_path_BB26_24
	jmp	.Lunix_path_BB26_42
.Lunix_path_BB26_10:
	cmpb	$46, -1(%r14,%r12)
	jne	.Lunix_path_BB26_24
	cmpb	$46, -2(%r14,%r12)
	jne	.Lunix_path_BB26_24
	xorl	%r15d, %r15d
	movl	$0, %r13d
	movl	$0, %ecx
	cmpq	$2, %r12
	je	.Lunix_path_BB26_42
	cmpb	$47, -3(%r14,%r12)
	jne	.Lunix_path_BB26_24
	addq	$-2, %r12
	movq	%r12, %rax
	jmp	.Lunix_path_BB26_15
.Lunix_path_BB26_24:
	movq	%r12, %rax
	.p2align	4
.Lunix_path_BB26_25:
	cmpq	$15, %rax
	jbe	.Lunix_path_BB26_26
	movdqu	-16(%r14,%rax), %xmm0
	addq	$-16, %rax
	pcmpeqb	.Lunix_path_CPI26_0(%rip), %xmm0
	pmovmskb	%xmm0, %ecx
	testl	%ecx, %ecx
	je	.Lunix_path_BB26_25
	movzwl	%cx, %ecx
	bsrq	%rcx, %rcx
	xorq	$63, %rcx
	subq	%rcx, %rax
	addq	$64, %rax
	movq	%rax, %rbp
	jmp	.Lunix_path_BB26_32
.Lunix_path_BB26_26:
	incq	%rax
	.p2align	4
.Lunix_path_BB26_27:
	cmpq	$1, %rax
	je	.Lunix_path_BB26_28
	leaq	-1(%rax), %rbp
	cmpb	$47, -2(%r14,%rax)
	movq	%rbp, %rax
	jne	.Lunix_path_BB26_27
.Lunix_path_BB26_32:
	xorl	%r15d, %r15d
	movl	$0, %r13d
	movl	$0, %ecx
	subq	%rbp, %r12
	je	.Lunix_path_BB26_42
	leaq	(%r14,%rbp), %r15
	movq	%rbp, %rax
	jmp	.Lunix_path_BB26_34
	.p2align	4
.Lunix_path_BB26_40:
	testq	%rax, %rax
	je	.Lunix_path_BB26_41
.Lunix_path_BB26_34:
	movl	$1, %r13d
	decq	%rax
	je	.Lunix_path_BB26_41
	movzbl	(%r14,%rax), %ecx
	cmpl	$47, %ecx
	je	.Lunix_path_BB26_38
	cmpl	$46, %ecx
	jne	.Lunix_path_BB26_41
	cmpb	$47, -1(%r14,%rax)
	jne	.Lunix_path_BB26_41
.Lunix_path_BB26_38:
	movq	%rbp, %rcx
	subq	%rax, %rcx
	cmpq	$8, %rcx
	jne	.Lunix_path_BB26_40
	movq	%r14, %rdi
	xorl	%esi, %esi
	movq	%rax, %rdx
	callq	unix_path.filler.trimmed_blocks_len
	jmp	.Lunix_path_BB26_40
.Lunix_path_BB26_22:
	xorl	%r15d, %r15d
	movl	$0, %r13d
	movl	$0, %ecx
	testq	%rax, %rax
	je	.Lunix_path_BB26_42
.Lunix_path_BB26_15:
	decq	%rax
	je	.Lunix_path_BB26_16
	movzbl	(%r14,%rax), %ecx
	cmpl	$47, %ecx
	je	.Lunix_path_BB26_20
	cmpl	$46, %ecx
	jne	.Lunix_path_BB26_16
	cmpb	$47, -1(%r14,%rax)
	jne	.Lunix_path_BB26_16
.Lunix_path_BB26_20:
	movq	%r12, %rcx
	subq	%rax, %rcx
	cmpq	$8, %rcx
	jne	.Lunix_path_BB26_22
	movq	%r14, %rdi
	xorl	%esi, %esi
	movq	%rax, %rdx
	callq	unix_path.filler.trimmed_blocks_len
	jmp	.Lunix_path_BB26_22
.Lunix_path_BB26_28:
	movl	$1, %r13d
	movq	%r14, %r15
.Lunix_path_BB26_41:
	movq	%r12, %rcx
.Lunix_path_BB26_42:
	movq	%r13, (%rbx)
	movq	%r15, 8(%rbx)
	movq	%rcx, 16(%rbx)
.Lunix_path_BB26_43:
	addq	$8, %rsp
	popq	%rbx
	popq	%r12
	popq	%r13
	popq	%r14
	popq	%r15
	popq	%rbp
	retq
.Lunix_path_BB26_16:
	xorl	%r15d, %r15d
	xorl	%r13d, %r13d
	xorl	%ecx, %ecx
	jmp	.Lunix_path_BB26_42
.Lunix_path_func_end26:
	.size	unix_path.path.Path.file_name, .Lunix_path_func_end26-unix_path.path.Path.file_name
	.section	.rodata.cst16,"aM",@progbits,16
	.p2align	4, 0x0
.Lunix_path_CPI27_0:
	.zero	16,46
.Lunix_path_CPI27_1:
	.zero	16,47
	.section	.text.pathtool.names.push_extension,"ax",@progbits
	.p2align	4
	.type	pathtool.names.push_extension,@function
# pathtool::names::push_extension
pathtool.names.push_extension:
	pushq	%r15
	pushq	%r14
	pushq	%rbx
	subq	$32, %rsp
	movq	%rdx, %rbx
	testq	%rsi, %rsi
	je	.Lunix_path_BB27_25
	movq	%rsi, %r15
	movq	%rdi, %r14
	movq	%rsi, %rcx
	movq	%r15, %rax
	jmp	.Lunix_path_BB27_2
	.p2align	4
.Lunix_path_BB27_8:
	movq	%rax, %rcx
	testq	%rax, %rax
	je	.Lunix_path_BB27_25
.Lunix_path_BB27_2:
	decq	%rax
	je	.Lunix_path_BB27_24
	movzbl	(%r14,%rax), %edx
	cmpl	$47, %edx
	je	.Lunix_path_BB27_6
	cmpl	$46, %edx
	jne	.Lunix_path_BB27_12
	movzbl	-1(%r14,%rax), %edx
	cmpb	$47, %dl
	jne	.Lunix_path_BB27_9
.Lunix_path_BB27_6:
	movq	%r15, %rcx
	subq	%rax, %rcx
	cmpq	$8, %rcx
	jne	.Lunix_path_BB27_8
	movq	%r14, %rdi
	xorl	%esi, %esi
	movq	%rax, %rdx
	callq	unix_path.filler.trimmed_blocks_len
	jmp	.Lunix_path_BB27_8
.Lunix_path_BB27_24:
	movzbl	(%r14), %eax
	andb	$-2, %al
	cmpb	$46, %al
	jne	.Lunix_path_BB27_12
	jmp	.Lunix_path_BB27_25
.Lunix_path_BB27_9:
	cmpb	$46, %dl
	jne	.Lunix_path_BB27_12
	cmpq	$2, %rcx
	je	.Lunix_path_BB27_25
	cmpb	$47, -3(%r14,%rcx)
	je	.Lunix_path_BB27_25
.Lunix_path_BB27_12:
	movq	%rcx, %rax
	.p2align	4
.Lunix_path_BB27_13:
	cmpq	$15, %rax
	jbe	.Lunix_path_BB27_16
	movdqu	-16(%r14,%rax), %xmm0
	addq	$-16, %rax
	movdqa	.Lunix_path_CPI27_0(%rip), %xmm1
	pcmpeqb	%xmm0, %xmm1
	pmovmskb	%xmm1, %edx
	movl	$127, %edi
	movl	$127, %r8d
	bsrq	%rdx, %r8
	xorq	$63, %r8
	movl	$64, %edx
	movl	$64, %esi
	subq	%r8, %rsi
	pcmpeqb	.Lunix_path_CPI27_1(%rip), %xmm0
	pmovmskb	%xmm0, %r8d
	bsrq	%r8, %rdi
	xorq	$63, %rdi
	subq	%rdi, %rdx
	cmpq	%rdx, %rsi
	movq	%rdx, %rdi
	cmovaq	%rsi, %rdi
	testq	%rdi, %rdi
	je	.Lunix_path_BB27_13
	cmpq	%rsi, %rdx
	cmovaq	%rdx, %rsi
	leaq	(%rsi,%rax), %rdx
	addq	%rsi, %rax
	decq	%rax
	testq	%rax, %rax
	jne	.Lunix_path_BB27_20
	jmp	.Lunix_path_BB27_25
	.p2align	4
.Lunix_path_BB27_17:
	movzbl	-1(%r14,%rax), %edx
	decq	%rax
	andb	$-2, %dl
	cmpb	$46, %dl
	je	.Lunix_path_BB27_18
.Lunix_path_BB27_16:
	testq	%rax, %rax
	jne	.Lunix_path_BB27_17
	jmp	.Lunix_path_BB27_25
.Lunix_path_BB27_18:
	leaq	1(%rax), %rdx
	testq	%rax, %rax
	je	.Lunix_path_BB27_25
.Lunix_path_BB27_20:
	cmpb	$47, (%r14,%rax)
	jne	.Lunix_path_BB27_21
.Lunix_path_BB27_25:
	pxor	%xmm0, %xmm0
	movdqa	%xmm0, (%rsp)
	movq	$0, 16(%rsp)
.Lunix_path_BB27_26:
	movq	%rsp, %rdi
	movq	%rbx, %rsi
	callq	pathtool.names.push_optional
	addq	$32, %rsp
	popq	%rbx
	popq	%r14
	popq	%r15
	retq
.Lunix_path_BB27_21:
	cmpq	%rcx, %rax
	je	.Lunix_path_BB27_25
	cmpb	$47, -2(%r14,%rdx)
	je	.Lunix_path_BB27_25
	addq	%rdx, %r14
	subq	%rdx, %rcx
	movq	$1, (%rsp)
	movq	%r14, 8(%rsp)
	movq	%rcx, 16(%rsp)
	jmp	.Lunix_path_BB27_26
.Lunix_path_func_end27:
	.size	pathtool.names.push_extension, .Lunix_path_func_end27-pathtool.names.push_extension
	.section	.rodata.cst16,"aM",@progbits,16
	.p2align	4, 0x0
.Lunix_path_CPI28_0:
	.zero	16,46
.Lunix_path_CPI28_1:
	.zero	16,47
	.section	.text.pathtool.paths.push_canon,"ax",@progbits
	.p2align	4
	.type	pathtool.paths.push_canon,@function
# pathtool::paths::push_canon
pathtool.paths.push_canon:
	pushq	%rbp
	pushq	%r15
	pushq	%r14
	pushq	%r13
	pushq	%r12
	pushq	%rbx
	subq	$56, %rsp
	movq	%rdx, %rbx
	movq	%rdi, %r15
	leaq	15(%rsp), %r12
	testq	%rsi, %rsi
	je	.Lunix_path_BB28_9
	movq	%rsi, %r13
	movq	%rsi, %r14
	movq	%r13, %rax
	jmp	.Lunix_path_BB28_3
	.p2align	4
.Lunix_path_BB28_2:
	movq	%rax, %r14
	testq	%rax, %rax
	je	.Lunix_path_BB28_9
.Lunix_path_BB28_3:
	decq	%rax
	je	.Lunix_path_BB28_16
	movzbl	(%r15,%rax), %ecx
	cmpl	$47, %ecx
	je	.Lunix_path_BB28_7
	cmpl	$46, %ecx
	jne	.Lunix_path_BB28_17
	cmpb	$47, -1(%r15,%rax)
	jne	.Lunix_path_BB28_17
.Lunix_path_BB28_7:
	movq	%r13, %rcx
	subq	%rax, %rcx
	cmpq	$8, %rcx
	jne	.Lunix_path_BB28_2
	movq	%r15, %rdi
	xorl	%esi, %esi
	movq	%rax, %rdx
	callq	unix_path.filler.trimmed_blocks_len
	jmp	.Lunix_path_BB28_2
.Lunix_path_BB28_9:
	xorl	%r14d, %r14d
.Lunix_path_BB28_10:
	movq	%r12, %rdi
	movq	%r15, %rsi
	movq	%r14, %rdx
	callq	memmove@PLT
	movq	%r14, %r9
.Lunix_path_BB28_11:
	movq	8(%rbx), %rax
	movq	16(%rbx), %r15
	movq	%r15, %rcx
	subq	%rax, %rcx
	cmpq	%rcx, %r14
	ja	.Lunix_path_BB28_44
.Lunix_path_BB28_12:
	leaq	8(%rbx), %rcx
	leaq	(%rax,%r14), %r13
	movq	(%rbx), %rbp
	pxor	%xmm0, %xmm0
	movdqu	%xmm0, (%rcx)
	leaq	(%rax,%rbp), %rdi
	movq	%rdi, %rcx
	subq	%r12, %rcx
	cmpq	%r14, %rcx
	jae	.Lunix_path_BB28_15
	cmpq	$4, %r14
	jb	.Lunix_path_BB28_14
	cmpq	$32, %rcx
	jae	.Lunix_path_BB28_26
.Lunix_path_BB28_14:
	xorl	%ecx, %ecx
.Lunix_path_BB28_35:
	movq	%r14, %rsi
	movq	%rcx, %rdx
	andq	$3, %rsi
	je	.Lunix_path_BB28_38
	movq	%rcx, %rdx
	.p2align	4
.Lunix_path_BB28_37:
	movzbl	(%r12,%rdx), %r8d
	movb	%r8b, (%rdi,%rdx)
	incq	%rdx
	decq	%rsi
	jne	.Lunix_path_BB28_37
.Lunix_path_BB28_38:
	subq	%r14, %rcx
	cmpq	$-4, %rcx
	ja	.Lunix_path_BB28_41
	addq	%rbp, %rax
	addq	$3, %rax
	.p2align	4
.Lunix_path_BB28_40:
	movzbl	(%r12,%rdx), %ecx
	movb	%cl, -3(%rax,%rdx)
	movzbl	1(%r12,%rdx), %ecx
	movb	%cl, -2(%rax,%rdx)
	movzbl	2(%r12,%rdx), %ecx
	movb	%cl, -1(%rax,%rdx)
	movzbl	3(%r12,%rdx), %ecx
	movb	%cl, (%rax,%rdx)
	addq	$4, %rdx
	cmpq	%rdx, %r14
	jne	.Lunix_path_BB28_40
	jmp	.Lunix_path_BB28_41
.Lunix_path_BB28_15:
	movq	%r12, %rsi
	movq	%r14, %rdx
	movq	%r9, %r14
	callq	memmove@PLT
	movq	%r14, %r9
.Lunix_path_BB28_41:
	movq	%rbp, (%rbx)
	movq	%r13, 8(%rbx)
	movq	%r15, 16(%rbx)
	xorl	%ebp, %ebp
.Lunix_path_BB28_42:
	testq	%r9, %r9
	je	.Lunix_path_BB28_167
	movq	%r12, %rdi
	callq	rattle_dealloc@PLT
	jmp	.Lunix_path_BB28_167
.Lunix_path_BB28_17:
	cmpq	$18, %r14
	jae	.Lunix_path_BB28_21
.Lunix_path_BB28_16:
	xorl	%r12d, %r12d
.Lunix_path_BB28_47:
	leaq	-2(%r14), %rax
	leaq	-1(%r14), %rcx
	jmp	.Lunix_path_BB28_50
	.p2align	4
.Lunix_path_BB28_48:
	cmpl	$47, %edx
	je	.Lunix_path_BB28_55
.Lunix_path_BB28_49:
	incq	%r12
	cmpq	%r12, %r14
	je	.Lunix_path_BB28_64
.Lunix_path_BB28_50:
	cmpb	$47, (%r15,%r12)
	jne	.Lunix_path_BB28_49
	cmpq	%r12, %rcx
	je	.Lunix_path_BB28_55
	movzbl	1(%r15,%r12), %edx
	cmpl	$46, %edx
	jne	.Lunix_path_BB28_48
	cmpq	%r12, %rax
	je	.Lunix_path_BB28_55
	cmpb	$47, 2(%r15,%r12)
	jne	.Lunix_path_BB28_49
	jmp	.Lunix_path_BB28_55
.Lunix_path_BB28_21:
	movq	%r14, %rax
	addq	$-18, %rax
	je	.Lunix_path_BB28_25
	xorl	%ecx, %ecx
	.p2align	4
.Lunix_path_BB28_23:
	movdqu	(%r15,%rcx), %xmm0
	movdqu	1(%r15,%rcx), %xmm1
	movdqu	2(%r15,%rcx), %xmm2
	movdqa	.Lunix_path_CPI28_0(%rip), %xmm3
	pcmpeqb	%xmm1, %xmm3
	movdqa	.Lunix_path_CPI28_1(%rip), %xmm4
	pcmpeqb	%xmm4, %xmm2
	pand	%xmm3, %xmm2
	pcmpeqb	%xmm4, %xmm0
	pcmpeqb	%xmm4, %xmm1
	por	%xmm2, %xmm1
	pand	%xmm0, %xmm1
	pmovmskb	%xmm1, %edx
	orl	$65536, %edx
	rep		bsfl	%edx, %edx
	cmpw	$15, %dx
	jbe	.Lunix_path_BB28_46
	addq	$16, %rcx
	cmpq	%rax, %rcx
	jb	.Lunix_path_BB28_23
.Lunix_path_BB28_25:
	movdqu	(%r15,%rax), %xmm0
	movdqu	1(%r15,%rax), %xmm1
	movdqu	2(%r15,%rax), %xmm2
	movdqa	.Lunix_path_CPI28_0(%rip), %xmm3
	pcmpeqb	%xmm1, %xmm3
	movdqa	.Lunix_path_CPI28_1(%rip), %xmm4
	pcmpeqb	%xmm4, %xmm2
	pand	%xmm3, %xmm2
	pcmpeqb	%xmm4, %xmm0
	pcmpeqb	%xmm4, %xmm1
	por	%xmm2, %xmm1
	pand	%xmm0, %xmm1
	pmovmskb	%xmm1, %ecx
	orl	$65536, %ecx
	rep		bsfl	%ecx, %r12d
	addq	%rax, %r12
	cmpq	%r14, %r12
	jb	.Lunix_path_BB28_47
	jmp	.Lunix_path_BB28_55
.Lunix_path_BB28_26:
	cmpq	$32, %r14
	jae	.Lunix_path_BB28_28
	xorl	%ecx, %ecx
	jmp	.Lunix_path_BB28_32
.Lunix_path_BB28_28:
	movq	%r14, %rcx
	andq	$-32, %rcx
	leaq	(%rax,%rbp), %rdx
	addq	$16, %rdx
	xorl	%esi, %esi
	.p2align	4
.Lunix_path_BB28_29:
	movdqu	(%r12,%rsi), %xmm0
	movdqu	16(%r12,%rsi), %xmm1
	movdqu	%xmm0, -16(%rdx,%rsi)
	movdqu	%xmm1, (%rdx,%rsi)
	addq	$32, %rsi
	cmpq	%rsi, %rcx
	jne	.Lunix_path_BB28_29
	cmpq	%rcx, %r14
	je	.Lunix_path_BB28_41
	testb	$28, %r14b
	je	.Lunix_path_BB28_35
.Lunix_path_BB28_32:
	movq	%rcx, %rdx
	movq	%r14, %rcx
	andq	$-4, %rcx
	.p2align	4
.Lunix_path_BB28_33:
	movl	(%r12,%rdx), %esi
	movl	%esi, (%rdi,%rdx)
	addq	$4, %rdx
	cmpq	%rdx, %rcx
	jne	.Lunix_path_BB28_33
	cmpq	%rcx, %r14
	je	.Lunix_path_BB28_41
	jmp	.Lunix_path_BB28_35
.Lunix_path_BB28_44:
	movq	%rbx, %rdi
	movq	%r14, %rsi
	movq	%r9, %r15
	callq	std_alloc.vec.Vec.grow_amortized.307f257cf2d167af.
	movq	%r15, %r9
	movb	$1, %bpl
	testb	%al, %al
	je	.Lunix_path_BB28_42
	movq	8(%rbx), %rax
	movq	16(%rbx), %r15
	jmp	.Lunix_path_BB28_12
.Lunix_path_BB28_46:
	movzwl	%dx, %r12d
	addq	%rcx, %r12
	cmpq	%r14, %r12
	jb	.Lunix_path_BB28_47
.Lunix_path_BB28_55:
	cmpq	$2, %r14
	jb	.Lunix_path_BB28_64
	cmpq	%r14, %r12
	je	.Lunix_path_BB28_64
	testq	%r14, %r14
	js	.Lunix_path_BB28_166
	movl	$1, %esi
	movq	%r14, %rdi
	callq	rattle_alloc@PLT
	movq	%rdx, (%rsp)
	testb	$1, %al
	je	.Lunix_path_BB28_166
	movq	(%rsp), %rax
	movq	%rax, 16(%rsp)
	movq	$0, 24(%rsp)
	movq	%r14, 32(%rsp)
	cmpq	%r14, %r12
	ja	.Lunix_path_BB28_162
	xorl	%eax, %eax
	movq	%r14, %r9
.Lunix_path_BB28_61:
	leaq	(%rax,%r12), %r11
	movq	(%rsp), %rcx
	leaq	(%rcx,%rax), %rdi
	movq	%rdi, %rcx
	subq	%r15, %rcx
	cmpq	%r12, %rcx
	jae	.Lunix_path_BB28_71
	cmpq	$4, %r12
	jb	.Lunix_path_BB28_63
	cmpq	$32, %rcx
	jae	.Lunix_path_BB28_88
.Lunix_path_BB28_63:
	xorl	%ecx, %ecx
.Lunix_path_BB28_97:
	movq	%r12, %rsi
	movq	%rcx, %rdx
	andq	$3, %rsi
	je	.Lunix_path_BB28_100
	movq	%rcx, %rdx
	.p2align	4
.Lunix_path_BB28_99:
	movzbl	(%r15,%rdx), %r8d
	movb	%r8b, (%rdi,%rdx)
	incq	%rdx
	decq	%rsi
	jne	.Lunix_path_BB28_99
.Lunix_path_BB28_100:
	subq	%r12, %rcx
	cmpq	$-4, %rcx
	ja	.Lunix_path_BB28_103
	movq	(%rsp), %rcx
	addq	%rcx, %rax
	addq	$3, %rax
	.p2align	4
.Lunix_path_BB28_102:
	movzbl	(%r15,%rdx), %ecx
	movb	%cl, -3(%rax,%rdx)
	movzbl	1(%r15,%rdx), %ecx
	movb	%cl, -2(%rax,%rdx)
	movzbl	2(%r15,%rdx), %ecx
	movb	%cl, -1(%rax,%rdx)
	movzbl	3(%r15,%rdx), %ecx
	movb	%cl, (%rax,%rdx)
	addq	$4, %rdx
	cmpq	%rdx, %r12
	jne	.Lunix_path_BB28_102
	jmp	.Lunix_path_BB28_103
.Lunix_path_BB28_64:
	testq	%r14, %r14
	js	.Lunix_path_BB28_166
	movl	$1, %esi
	movq	%r14, %rdi
	callq	rattle_alloc@PLT
	testb	$1, %al
	je	.Lunix_path_BB28_166
	movq	%rdx, %r12
	movq	%rdx, %rax
	subq	%r15, %rax
	cmpq	%r14, %rax
	jae	.Lunix_path_BB28_10
	cmpq	$4, %r14
	setb	%al
	movq	%r12, %rcx
	subq	%r15, %rcx
	cmpq	$32, %rcx
	setb	%cl
	orb	%al, %cl
	je	.Lunix_path_BB28_69
	xorl	%eax, %eax
	jmp	.Lunix_path_BB28_83
.Lunix_path_BB28_69:
	movabsq	$9223372036854775776, %rcx
	cmpq	$32, %r14
	jae	.Lunix_path_BB28_72
	xorl	%eax, %eax
	jmp	.Lunix_path_BB28_79
.Lunix_path_BB28_71:
	movq	%r15, %rsi
	movq	%r12, %rdx
	movq	%r9, %r13
	movq	%r11, 40(%rsp)
	callq	memmove@PLT
	movq	40(%rsp), %r11
	movq	%r13, %r9
.Lunix_path_BB28_103:
	movq	%r11, 24(%rsp)
	movq	%r9, 32(%rsp)
	cmpq	%r14, %r12
	jae	.Lunix_path_BB28_110
	leaq	-1(%r14), %rax
	jmp	.Lunix_path_BB28_106
	.p2align	4
.Lunix_path_BB28_105:
	incq	%r12
	cmpq	%r12, %r14
	je	.Lunix_path_BB28_111
.Lunix_path_BB28_106:
	movzbl	(%r15,%r12), %ecx
	cmpl	$47, %ecx
	je	.Lunix_path_BB28_105
	cmpl	$46, %ecx
	jne	.Lunix_path_BB28_110
	cmpq	%r12, %rax
	je	.Lunix_path_BB28_111
	cmpb	$47, 1(%r15,%r12)
	je	.Lunix_path_BB28_105
.Lunix_path_BB28_110:
	cmpq	%r14, %r12
	jb	.Lunix_path_BB28_113
.Lunix_path_BB28_111:
	movq	16(%rsp), %r12
	movq	%r11, %r14
	jmp	.Lunix_path_BB28_11
.Lunix_path_BB28_112:
	movq	%r13, %r12
	cmpq	%r14, %r13
	jae	.Lunix_path_BB28_111
.Lunix_path_BB28_113:
	leaq	(%r15,%r12), %rbp
	movq	%r14, %rax
	subq	%r12, %rax
	cmpq	$18, %rax
	jae	.Lunix_path_BB28_115
	xorl	%r13d, %r13d
	jmp	.Lunix_path_BB28_121
.Lunix_path_BB28_115:
	movq	%rax, %rcx
	addq	$-18, %rcx
	je	.Lunix_path_BB28_119
	leaq	2(%r15), %rdx
	leaq	(%rdx,%r12), %rsi
	xorl	%edx, %edx
	.p2align	4
.Lunix_path_BB28_117:
	movdqu	-2(%rsi,%rdx), %xmm0
	movdqu	-1(%rsi,%rdx), %xmm1
	movdqu	(%rsi,%rdx), %xmm2
	movdqa	.Lunix_path_CPI28_0(%rip), %xmm3
	pcmpeqb	%xmm1, %xmm3
	movdqa	.Lunix_path_CPI28_1(%rip), %xmm4
	pcmpeqb	%xmm4, %xmm2
	pand	%xmm3, %xmm2
	pcmpeqb	%xmm4, %xmm0
	pcmpeqb	%xmm4, %xmm1
	por	%xmm2, %xmm1
	pand	%xmm0, %xmm1
	pmovmskb	%xmm1, %edi
	orl	$65536, %edi
	rep		bsfl	%edi, %edi
	cmpw	$15, %di
	jbe	.Lunix_path_BB28_120
	addq	$16, %rdx
	cmpq	%rcx, %rdx
	jb	.Lunix_path_BB28_117
.Lunix_path_BB28_119:
	movdqu	(%rbp,%rcx), %xmm0
	movdqu	1(%rbp,%rcx), %xmm1
	movdqu	2(%rbp,%rcx), %xmm2
	movdqa	.Lunix_path_CPI28_0(%rip), %xmm3
	pcmpeqb	%xmm1, %xmm3
	movdqa	.Lunix_path_CPI28_1(%rip), %xmm4
	pcmpeqb	%xmm4, %xmm2
	pand	%xmm3, %xmm2
	pcmpeqb	%xmm4, %xmm0
	pcmpeqb	%xmm4, %xmm1
	por	%xmm2, %xmm1
	pand	%xmm0, %xmm1
	pmovmskb	%xmm1, %edx
	orl	$65536, %edx
	rep		bsfl	%edx, %r13d
	addq	%rcx, %r13
	jmp	.Lunix_path_BB28_121
.Lunix_path_BB28_120:
	movzwl	%di, %r13d
	addq	%rdx, %r13
.Lunix_path_BB28_121:
	cmpq	%rax, %r13
	jae	.Lunix_path_BB28_131
	leaq	2(%r15), %rcx
	addq	%r12, %rcx
	leaq	-2(%rax), %rdx
	leaq	-1(%rax), %rsi
	jmp	.Lunix_path_BB28_125
.Lunix_path_BB28_123:
	cmpl	$47, %edi
	je	.Lunix_path_BB28_131
.Lunix_path_BB28_124:
	incq	%r13
	cmpq	%r13, %rax
	je	.Lunix_path_BB28_130
.Lunix_path_BB28_125:
	cmpb	$47, -2(%rcx,%r13)
	jne	.Lunix_path_BB28_124
	cmpq	%r13, %rsi
	je	.Lunix_path_BB28_131
	movzbl	-1(%rcx,%r13), %edi
	cmpl	$46, %edi
	jne	.Lunix_path_BB28_123
	cmpq	%r13, %rdx
	je	.Lunix_path_BB28_131
	cmpb	$47, (%rcx,%r13)
	jne	.Lunix_path_BB28_124
	jmp	.Lunix_path_BB28_131
.Lunix_path_BB28_130:
	movq	%rax, %r13
.Lunix_path_BB28_131:
	leaq	1(%r13), %rdx
	movq	%r9, %rax
	subq	%r11, %rax
	cmpq	%rax, %rdx
	ja	.Lunix_path_BB28_160
.Lunix_path_BB28_132:
	leaq	-1(%rbp), %rsi
	movq	(%rsp), %rax
	leaq	(%rax,%r11), %rdi
	movq	%rdi, %rax
	subq	%rsi, %rax
	cmpq	%rdx, %rax
	jae	.Lunix_path_BB28_135
	cmpq	$4, %rdx
	jb	.Lunix_path_BB28_134
	movq	%r11, %rax
	subq	%r15, %rax
	addq	(%rsp), %rax
	subq	%r12, %rax
	incq	%rax
	cmpq	$32, %rax
	jae	.Lunix_path_BB28_138
.Lunix_path_BB28_134:
	xorl	%eax, %eax
.Lunix_path_BB28_147:
	movq	%rdx, %r10
	movl	%r13d, %edx
	notl	%edx
	movq	%rax, %rcx
	testb	$3, %dl
	je	.Lunix_path_BB28_150
	leal	1(%r13), %edx
	andl	$3, %edx
	movq	%rax, %rcx
	.p2align	4
.Lunix_path_BB28_149:
	movzbl	(%rsi,%rcx), %r8d
	movb	%r8b, (%rdi,%rcx)
	incq	%rcx
	decq	%rdx
	jne	.Lunix_path_BB28_149
.Lunix_path_BB28_150:
	movq	%r13, %rdx
	subq	%rax, %rdx
	cmpq	$3, %rdx
	movq	%r10, %rdx
	jb	.Lunix_path_BB28_153
	movq	(%rsp), %rax
	addq	%r11, %rax
	addq	$3, %rax
	.p2align	4
.Lunix_path_BB28_152:
	movzbl	-1(%rbp,%rcx), %esi
	movb	%sil, -3(%rax,%rcx)
	movzbl	(%rbp,%rcx), %esi
	movb	%sil, -2(%rax,%rcx)
	movzbl	1(%rbp,%rcx), %esi
	movb	%sil, -1(%rax,%rcx)
	movzbl	2(%rbp,%rcx), %esi
	movb	%sil, (%rax,%rcx)
	addq	$4, %rcx
	cmpq	%rcx, %rdx
	jne	.Lunix_path_BB28_152
	jmp	.Lunix_path_BB28_153
.Lunix_path_BB28_135:
	movq	%r9, 48(%rsp)
	movq	%r11, 40(%rsp)
	movq	%rdx, %rbp
	callq	memmove@PLT
	movq	%rbp, %rdx
	movq	40(%rsp), %r11
	movq	48(%rsp), %r9
.Lunix_path_BB28_153:
	addq	%rdx, %r11
	movq	%r11, 24(%rsp)
	movq	%r9, 32(%rsp)
	addq	%r12, %r13
	cmpq	%r14, %r13
	jae	.Lunix_path_BB28_112
	leaq	-1(%r14), %rcx
	jmp	.Lunix_path_BB28_156
	.p2align	4
.Lunix_path_BB28_155:
	incq	%r13
	cmpq	%r13, %r14
	je	.Lunix_path_BB28_111
.Lunix_path_BB28_156:
	movzbl	(%r15,%r13), %eax
	cmpl	$47, %eax
	je	.Lunix_path_BB28_155
	cmpl	$46, %eax
	jne	.Lunix_path_BB28_112
	cmpq	%r13, %rcx
	je	.Lunix_path_BB28_111
	cmpb	$47, 1(%r15,%r13)
	je	.Lunix_path_BB28_155
	jmp	.Lunix_path_BB28_112
.Lunix_path_BB28_138:
	cmpq	$32, %rdx
	jae	.Lunix_path_BB28_140
	xorl	%eax, %eax
	jmp	.Lunix_path_BB28_144
.Lunix_path_BB28_140:
	movq	%rdx, %r10
	movq	%rdx, %rax
	andq	$-32, %rax
	leaq	15(%r15), %rcx
	addq	%r12, %rcx
	movq	(%rsp), %rdx
	addq	%r11, %rdx
	addq	$16, %rdx
	xorl	%r8d, %r8d
.Lunix_path_BB28_141:
	movdqu	-16(%rcx,%r8), %xmm0
	movdqu	(%rcx,%r8), %xmm1
	movdqu	%xmm0, -16(%rdx,%r8)
	movdqu	%xmm1, (%rdx,%r8)
	addq	$32, %r8
	cmpq	%r8, %rax
	jne	.Lunix_path_BB28_141
	movq	%r10, %rdx
	cmpq	%rax, %r10
	je	.Lunix_path_BB28_153
	testb	$28, %dl
	je	.Lunix_path_BB28_147
.Lunix_path_BB28_144:
	movq	%rax, %rcx
	movq	%rdx, %rax
	andq	$-4, %rax
.Lunix_path_BB28_145:
	movl	(%rsi,%rcx), %r8d
	movl	%r8d, (%rdi,%rcx)
	addq	$4, %rcx
	cmpq	%rcx, %rax
	jne	.Lunix_path_BB28_145
	cmpq	%rax, %rdx
	je	.Lunix_path_BB28_153
	jmp	.Lunix_path_BB28_147
.Lunix_path_BB28_160:
	leaq	16(%rsp), %rdi
	movq	%rdx, %rsi
	callq	std_alloc.vec.Vec.grow_amortized.2c3341b61b28ed12.
	testb	%al, %al
	je	.Lunix_path_BB28_164
	movq	16(%rsp), %rax
	movq	%rax, (%rsp)
	movq	24(%rsp), %r11
	movq	32(%rsp), %r9
	leaq	1(%r13), %rdx
	jmp	.Lunix_path_BB28_132
.Lunix_path_BB28_72:
	movq	%r14, %rax
	andq	%rcx, %rax
	xorl	%edx, %edx
	.p2align	4
.Lunix_path_BB28_73:
	movdqu	(%r15,%rdx), %xmm0
	movdqu	16(%r15,%rdx), %xmm1
	movdqu	%xmm0, (%r12,%rdx)
	movdqu	%xmm1, 16(%r12,%rdx)
	addq	$32, %rdx
	cmpq	%rdx, %rax
	jne	.Lunix_path_BB28_73
	cmpq	%rax, %r14
	je	.Lunix_path_BB28_75
	testb	$28, %r14b
	je	.Lunix_path_BB28_83
.Lunix_path_BB28_79:
	movq	%rax, %rdx
	addq	$28, %rcx
	movq	%rcx, %rax
	andq	%r14, %rax
	.p2align	4
.Lunix_path_BB28_80:
	movl	(%r15,%rdx), %ecx
	movl	%ecx, (%r12,%rdx)
	addq	$4, %rdx
	cmpq	%rdx, %rax
	jne	.Lunix_path_BB28_80
	cmpq	%rax, %r14
	jne	.Lunix_path_BB28_83
.Lunix_path_BB28_75:
	movl	$1, %r9d
	jmp	.Lunix_path_BB28_11
.Lunix_path_BB28_83:
	movq	%r14, %rdx
	movq	%rax, %rcx
	andq	$3, %rdx
	je	.Lunix_path_BB28_86
	movq	%rax, %rcx
	.p2align	4
.Lunix_path_BB28_85:
	movzbl	(%r15,%rcx), %esi
	movb	%sil, (%r12,%rcx)
	incq	%rcx
	decq	%rdx
	jne	.Lunix_path_BB28_85
.Lunix_path_BB28_86:
	subq	%r14, %rax
	movl	$1, %r9d
	cmpq	$-4, %rax
	ja	.Lunix_path_BB28_11
	.p2align	4
.Lunix_path_BB28_87:
	movzbl	(%r15,%rcx), %eax
	movb	%al, (%r12,%rcx)
	movzbl	1(%r15,%rcx), %eax
	movb	%al, 1(%r12,%rcx)
	movzbl	2(%r15,%rcx), %eax
	movb	%al, 2(%r12,%rcx)
	movzbl	3(%r15,%rcx), %eax
	movb	%al, 3(%r12,%rcx)
	addq	$4, %rcx
	cmpq	%rcx, %r14
	jne	.Lunix_path_BB28_87
	jmp	.Lunix_path_BB28_11
.Lunix_path_BB28_88:
	cmpq	$32, %r12
	jae	.Lunix_path_BB28_90
	xorl	%ecx, %ecx
	jmp	.Lunix_path_BB28_94
.Lunix_path_BB28_90:
	movq	%r12, %rcx
	andq	$-32, %rcx
	movq	(%rsp), %rdx
	addq	%rax, %rdx
	addq	$16, %rdx
	xorl	%esi, %esi
.Lunix_path_BB28_91:
	movdqu	(%r15,%rsi), %xmm0
	movdqu	16(%r15,%rsi), %xmm1
	movdqu	%xmm0, -16(%rdx,%rsi)
	movdqu	%xmm1, (%rdx,%rsi)
	addq	$32, %rsi
	cmpq	%rsi, %rcx
	jne	.Lunix_path_BB28_91
	cmpq	%rcx, %r12
	je	.Lunix_path_BB28_103
	testb	$28, %r12b
	je	.Lunix_path_BB28_97
.Lunix_path_BB28_94:
	movq	%rcx, %rdx
	movq	%r12, %rcx
	andq	$-4, %rcx
.Lunix_path_BB28_95:
	movl	(%r15,%rdx), %esi
	movl	%esi, (%rdi,%rdx)
	addq	$4, %rdx
	cmpq	%rdx, %rcx
	jne	.Lunix_path_BB28_95
	cmpq	%rcx, %r12
	je	.Lunix_path_BB28_103
	jmp	.Lunix_path_BB28_97
.Lunix_path_BB28_162:
	leaq	16(%rsp), %rdi
	movq	%r12, %rsi
	callq	std_alloc.vec.Vec.grow_amortized.2c3341b61b28ed12.
	testb	%al, %al
	je	.Lunix_path_BB28_164
	movq	16(%rsp), %rax
	movq	%rax, (%rsp)
	movq	24(%rsp), %rax
	movq	32(%rsp), %r9
	jmp	.Lunix_path_BB28_61
.Lunix_path_BB28_164:
	cmpq	$0, 32(%rsp)
	je	.Lunix_path_BB28_166
	movq	16(%rsp), %rdi
	callq	rattle_dealloc@PLT
.Lunix_path_BB28_166:
	movb	$1, %bpl
.Lunix_path_BB28_167:
	movl	%ebp, %eax
	addq	$56, %rsp
	popq	%rbx
	popq	%r12
	popq	%r13
	popq	%r14
	popq	%r15
	popq	%rbp
	retq
.Lunix_path_func_end28:
	.size	pathtool.paths.push_canon, .Lunix_path_func_end28-pathtool.paths.push_canon
	.section	.text.unix_bytes.utf8.scans.scan_by_sequence,"ax",@progbits
	.p2align	4
	.type	unix_bytes.utf8.scans.scan_by_sequence,@function
# unix_bytes::utf8::scans::scan_by_sequence
unix_bytes.utf8.scans.scan_by_sequence:
	movq	%rsi, %rax
	movq	%rsi, %rcx
	subq	%rdx, %rcx
	je	.Lunix_path_BB29_71
	addq	%rdx, %rdi
	jmp	.Lunix_path_BB29_5
.Lunix_path_BB29_67:
	rep		bsfl	%esi, %esi
	addq	%rdx, %rsi
	.p2align	4
.Lunix_path_BB29_68:
	addq	%rsi, %rdi
	subq	%rsi, %rcx
.Lunix_path_BB29_69:
	movq	%rcx, %rdx
.Lunix_path_BB29_4:
	movq	%rdx, %rcx
	testq	%rdx, %rdx
	je	.Lunix_path_BB29_71
.Lunix_path_BB29_5:
	movzbl	(%rdi), %esi
	testb	%sil, %sil
	js	.Lunix_path_BB29_18
	movl	$1, %esi
	cmpq	$8, %rcx
	jb	.Lunix_path_BB29_68
	cmpb	$0, 1(%rdi)
	js	.Lunix_path_BB29_68
	cmpq	$16, %rcx
	jb	.Lunix_path_BB29_33
	xorl	%edx, %edx
	cmpq	$64, %rcx
	jb	.Lunix_path_BB29_13
	movq	%rcx, %rsi
	.p2align	4
.Lunix_path_BB29_11:
	movdqu	(%rdi,%rdx), %xmm0
	movdqu	16(%rdi,%rdx), %xmm1
	por	%xmm0, %xmm1
	movdqu	32(%rdi,%rdx), %xmm0
	movdqu	48(%rdi,%rdx), %xmm2
	por	%xmm0, %xmm2
	por	%xmm1, %xmm2
	pmovmskb	%xmm2, %r8d
	testl	%r8d, %r8d
	jne	.Lunix_path_BB29_13
	addq	$64, %rdx
	addq	$-64, %rsi
	cmpq	$63, %rsi
	ja	.Lunix_path_BB29_11
.Lunix_path_BB29_13:
	leaq	-16(%rcx), %r8
	cmpq	%r8, %rdx
	jae	.Lunix_path_BB29_16
	.p2align	4
.Lunix_path_BB29_14:
	movdqu	(%rdi,%rdx), %xmm0
	pmovmskb	%xmm0, %esi
	testl	%esi, %esi
	jne	.Lunix_path_BB29_67
	addq	$16, %rdx
	cmpq	%r8, %rdx
	jb	.Lunix_path_BB29_14
.Lunix_path_BB29_16:
	movdqu	(%rdi,%r8), %xmm0
	pmovmskb	%xmm0, %edx
	movq	%rcx, %rsi
	testl	%edx, %edx
	je	.Lunix_path_BB29_68
	rep		bsfl	%edx, %edx
	addq	%rdx, %r8
	movq	%r8, %rsi
	jmp	.Lunix_path_BB29_68
	.p2align	4
.Lunix_path_BB29_18:
	leal	62(%rsi), %edx
	cmpb	$29, %dl
	ja	.Lunix_path_BB29_28
	movl	$1, %edx
	cmpq	$1, %rcx
	je	.Lunix_path_BB29_72
	cmpb	$-64, 1(%rdi)
	jge	.Lunix_path_BB29_105
	leaq	2(%rdi), %rsi
	leaq	-2(%rcx), %rdx
	cmpq	$2, %rdx
	jb	.Lunix_path_BB29_2
	movzbl	(%rsi), %r8d
	addb	$62, %r8b
	cmpb	$29, %r8b
	ja	.Lunix_path_BB29_2
	addq	$-4, %rcx
	xorl	%r9d, %r9d
	.p2align	4
.Lunix_path_BB29_24:
	movq	%r9, %r8
	movq	%rcx, %rdx
	cmpb	$-65, 3(%rdi,%r9)
	jg	.Lunix_path_BB29_70
	cmpq	$1, %rdx
	jbe	.Lunix_path_BB29_27
	movzbl	4(%rdi,%r8), %r10d
	addb	$62, %r10b
	leaq	-2(%rdx), %rcx
	leaq	2(%r8), %r9
	cmpb	$29, %r10b
	jbe	.Lunix_path_BB29_24
.Lunix_path_BB29_27:
	addq	$2, %r8
	jmp	.Lunix_path_BB29_3
.Lunix_path_BB29_28:
	movl	%esi, %edx
	andb	$-16, %dl
	cmpb	$-32, %dl
	jne	.Lunix_path_BB29_39
	cmpq	$3, %rcx
	jb	.Lunix_path_BB29_74
	movzbl	1(%rdi), %edx
	cmpl	$237, %esi
	je	.Lunix_path_BB29_45
	cmpl	$224, %esi
	jne	.Lunix_path_BB29_46
	movl	%edx, %r8d
	andb	$-32, %r8b
	cmpb	$-96, %r8b
	je	.Lunix_path_BB29_47
	jmp	.Lunix_path_BB29_78
.Lunix_path_BB29_2:
	xorl	%r8d, %r8d
.Lunix_path_BB29_3:
	addq	%r8, %rsi
	movq	%rsi, %rdi
	jmp	.Lunix_path_BB29_4
.Lunix_path_BB29_33:
	movq	(%rdi), %xmm0
	pmovmskb	%xmm0, %edx
	testb	%dl, %dl
	jne	.Lunix_path_BB29_35
	movq	-8(%rdi,%rcx), %xmm0
	pmovmskb	%xmm0, %edx
	movq	%rcx, %rsi
	testb	%dl, %dl
	je	.Lunix_path_BB29_68
.Lunix_path_BB29_35:
	xorl	%esi, %esi
	.p2align	4
.Lunix_path_BB29_36:
	cmpb	$0, (%rdi,%rsi)
	js	.Lunix_path_BB29_68
	incq	%rsi
	cmpq	%rsi, %rcx
	jne	.Lunix_path_BB29_36
	movq	%rcx, %rsi
	jmp	.Lunix_path_BB29_68
.Lunix_path_BB29_39:
	leal	16(%rsi), %edx
	cmpb	$4, %dl
	ja	.Lunix_path_BB29_73
	cmpq	$4, %rcx
	jb	.Lunix_path_BB29_79
	movzbl	1(%rdi), %r8d
	cmpl	$240, %esi
	je	.Lunix_path_BB29_49
	cmpl	$244, %esi
	jne	.Lunix_path_BB29_50
	cmpb	$-112, %r8b
	jl	.Lunix_path_BB29_51
	jmp	.Lunix_path_BB29_99
.Lunix_path_BB29_45:
	cmpb	$-96, %dl
	jl	.Lunix_path_BB29_47
	jmp	.Lunix_path_BB29_86
.Lunix_path_BB29_46:
	cmpb	$-65, %dl
	jg	.Lunix_path_BB29_76
.Lunix_path_BB29_47:
	cmpb	$-64, 2(%rdi)
	jge	.Lunix_path_BB29_76
	addq	$3, %rdi
	addq	$-3, %rcx
	jmp	.Lunix_path_BB29_69
.Lunix_path_BB29_49:
	leal	112(%r8), %edx
	cmpb	$47, %dl
	jbe	.Lunix_path_BB29_51
	jmp	.Lunix_path_BB29_85
.Lunix_path_BB29_50:
	cmpb	$-64, %r8b
	jge	.Lunix_path_BB29_82
.Lunix_path_BB29_51:
	cmpb	$-65, 2(%rdi)
	jg	.Lunix_path_BB29_82
	cmpb	$-64, 3(%rdi)
	jge	.Lunix_path_BB29_82
	addq	$4, %rdi
	addq	$-4, %rcx
	je	.Lunix_path_BB29_65
	movq	%rdi, %rsi
	movq	%rcx, %rdx
	.p2align	4
.Lunix_path_BB29_55:
	cmpq	$4, %rdx
	jb	.Lunix_path_BB29_66
	movzbl	(%rsi), %r8d
	leal	16(%r8), %r9d
	cmpb	$4, %r9b
	ja	.Lunix_path_BB29_66
	movzbl	1(%rsi), %r9d
	cmpl	$240, %r8d
	je	.Lunix_path_BB29_60
	cmpl	$244, %r8d
	jne	.Lunix_path_BB29_61
	cmpb	$-112, %r9b
	jl	.Lunix_path_BB29_62
	jmp	.Lunix_path_BB29_66
	.p2align	4
.Lunix_path_BB29_60:
	addb	$112, %r9b
	cmpb	$47, %r9b
	jbe	.Lunix_path_BB29_62
	jmp	.Lunix_path_BB29_66
	.p2align	4
.Lunix_path_BB29_61:
	cmpb	$-64, %r9b
	jge	.Lunix_path_BB29_66
.Lunix_path_BB29_62:
	cmpb	$-65, 2(%rsi)
	jg	.Lunix_path_BB29_66
	cmpb	$-65, 3(%rsi)
	jg	.Lunix_path_BB29_66
	addq	$4, %rsi
	addq	$-4, %rdx
	jne	.Lunix_path_BB29_55
.Lunix_path_BB29_65:
	xorl	%edx, %edx
.Lunix_path_BB29_66:
	subq	%rdx, %rcx
	addq	%rcx, %rdi
	jmp	.Lunix_path_BB29_4
.Lunix_path_BB29_70:
	addq	$2, %rdx
	jmp	.Lunix_path_BB29_3
.Lunix_path_BB29_71:
	xorl	%edx, %edx
	retq
.Lunix_path_BB29_72:
	movl	$1, %r8d
	subq	%r8, %rax
	retq
.Lunix_path_BB29_73:
	movl	$1, %edx
	jmp	.Lunix_path_BB29_105
.Lunix_path_BB29_74:
	movl	$1, %r8d
	movl	$1, %edx
	cmpq	$1, %rcx
	je	.Lunix_path_BB29_106
	movzbl	1(%rdi), %edx
.Lunix_path_BB29_76:
	addl	$-224, %esi
	cmpl	$20, %esi
	ja	.Lunix_path_BB29_93
	leaq	.Lunix_path_JTI29_2(%rip), %rdi
	movslq	(%rdi,%rsi,4), %rsi
	addq	%rdi, %rsi
	jmpq	*%rsi
.Lunix_path_BB29_78:
	andb	$-32, %dl
	cmpb	$-96, %dl
	sete	%dl
	jmp	.Lunix_path_BB29_104
.Lunix_path_BB29_79:
	cmpq	$1, %rcx
	je	.Lunix_path_BB29_94
	cmpq	$3, %rcx
	jne	.Lunix_path_BB29_95
	movzbl	1(%rdi), %r8d
.Lunix_path_BB29_82:
	leal	-224(%rsi), %edx
	cmpl	$20, %edx
	ja	.Lunix_path_BB29_89
	leaq	.Lunix_path_JTI29_0(%rip), %r9
	movslq	(%r9,%rdx,4), %rdx
	addq	%r9, %rdx
	jmpq	*%rdx
.Lunix_path_BB29_84:
	movl	%r8d, %edx
	andb	$-32, %dl
	cmpb	$-96, %dl
	je	.Lunix_path_BB29_90
	jmp	.Lunix_path_BB29_98
.Lunix_path_BB29_85:
	leal	112(%r8), %edx
	cmpb	$47, %dl
	jbe	.Lunix_path_BB29_90
	jmp	.Lunix_path_BB29_100
.Lunix_path_BB29_86:
	cmpb	$-96, %dl
	jmp	.Lunix_path_BB29_103
.Lunix_path_BB29_87:
	cmpb	$-96, %r8b
	jl	.Lunix_path_BB29_90
	jmp	.Lunix_path_BB29_101
.Lunix_path_BB29_88:
	cmpb	$-112, %r8b
	jl	.Lunix_path_BB29_90
	jmp	.Lunix_path_BB29_99
.Lunix_path_BB29_89:
	cmpb	$-64, %r8b
	jge	.Lunix_path_BB29_96
.Lunix_path_BB29_90:
	movl	$3, %edx
	cmpb	$-64, 2(%rdi)
	jge	.Lunix_path_BB29_96
	jmp	.Lunix_path_BB29_105
.Lunix_path_BB29_91:
	addb	$112, %dl
	cmpb	$48, %dl
	setb	%dl
	jmp	.Lunix_path_BB29_104
.Lunix_path_BB29_92:
	cmpb	$-112, %dl
	jmp	.Lunix_path_BB29_103
.Lunix_path_BB29_93:
	cmpb	$-64, %dl
	jmp	.Lunix_path_BB29_103
.Lunix_path_BB29_94:
	movq	%rcx, %rdx
	subq	%rcx, %rax
	retq
.Lunix_path_BB29_95:
	movzbl	1(%rdi), %r8d
.Lunix_path_BB29_96:
	addl	$-224, %esi
	cmpl	$20, %esi
	ja	.Lunix_path_BB29_102
	leaq	.Lunix_path_JTI29_1(%rip), %rdx
	movslq	(%rdx,%rsi,4), %rsi
	addq	%rdx, %rsi
	jmpq	*%rsi
.Lunix_path_BB29_98:
	andb	$-32, %r8b
	cmpb	$-96, %r8b
	sete	%dl
	jmp	.Lunix_path_BB29_104
.Lunix_path_BB29_99:
	cmpb	$-112, %r8b
	jmp	.Lunix_path_BB29_103
.Lunix_path_BB29_100:
	addb	$112, %r8b
	cmpb	$48, %r8b
	setb	%dl
	jmp	.Lunix_path_BB29_104
.Lunix_path_BB29_101:
	cmpb	$-96, %r8b
	jmp	.Lunix_path_BB29_103
.Lunix_path_BB29_102:
	cmpb	$-64, %r8b
.Lunix_path_BB29_103:
	setl	%dl
.Lunix_path_BB29_104:
	movzbl	%dl, %edx
	incq	%rdx
.Lunix_path_BB29_105:
	movq	%rcx, %r8
.Lunix_path_BB29_106:
	subq	%r8, %rax
	retq
.Lunix_path_func_end29:
	.size	unix_bytes.utf8.scans.scan_by_sequence, .Lunix_path_func_end29-unix_bytes.utf8.scans.scan_by_sequence
	.section	.rodata.unix_bytes.utf8.scans.scan_by_sequence,"a",@progbits
	.p2align	2, 0x0
.Lunix_path_JTI29_0:
	.long	.Lunix_path_BB29_84-.Lunix_path_JTI29_0
	.long	.Lunix_path_BB29_89-.Lunix_path_JTI29_0
	.long	.Lunix_path_BB29_89-.Lunix_path_JTI29_0
	.long	.Lunix_path_BB29_89-.Lunix_path_JTI29_0
	.long	.Lunix_path_BB29_89-.Lunix_path_JTI29_0
	.long	.Lunix_path_BB29_89-.Lunix_path_JTI29_0
	.long	.Lunix_path_BB29_89-.Lunix_path_JTI29_0
	.long	.Lunix_path_BB29_89-.Lunix_path_JTI29_0
	.long	.Lunix_path_BB29_89-.Lunix_path_JTI29_0
	.long	.Lunix_path_BB29_89-.Lunix_path_JTI29_0
	.long	.Lunix_path_BB29_89-.Lunix_path_JTI29_0
	.long	.Lunix_path_BB29_89-.Lunix_path_JTI29_0
	.long	.Lunix_path_BB29_89-.Lunix_path_JTI29_0
	.long	.Lunix_path_BB29_87-.Lunix_path_JTI29_0
	.long	.Lunix_path_BB29_89-.Lunix_path_JTI29_0
	.long	.Lunix_path_BB29_89-.Lunix_path_JTI29_0
	.long	.Lunix_path_BB29_85-.Lunix_path_JTI29_0
	.long	.Lunix_path_BB29_89-.Lunix_path_JTI29_0
	.long	.Lunix_path_BB29_89-.Lunix_path_JTI29_0
	.long	.Lunix_path_BB29_89-.Lunix_path_JTI29_0
	.long	.Lunix_path_BB29_88-.Lunix_path_JTI29_0
.Lunix_path_JTI29_1:
	.long	.Lunix_path_BB29_98-.Lunix_path_JTI29_1
	.long	.Lunix_path_BB29_102-.Lunix_path_JTI29_1
	.long	.Lunix_path_BB29_102-.Lunix_path_JTI29_1
	.long	.Lunix_path_BB29_102-.Lunix_path_JTI29_1
	.long	.Lunix_path_BB29_102-.Lunix_path_JTI29_1
	.long	.Lunix_path_BB29_102-.Lunix_path_JTI29_1
	.long	.Lunix_path_BB29_102-.Lunix_path_JTI29_1
	.long	.Lunix_path_BB29_102-.Lunix_path_JTI29_1
	.long	.Lunix_path_BB29_102-.Lunix_path_JTI29_1
	.long	.Lunix_path_BB29_102-.Lunix_path_JTI29_1
	.long	.Lunix_path_BB29_102-.Lunix_path_JTI29_1
	.long	.Lunix_path_BB29_102-.Lunix_path_JTI29_1
	.long	.Lunix_path_BB29_102-.Lunix_path_JTI29_1
	.long	.Lunix_path_BB29_101-.Lunix_path_JTI29_1
	.long	.Lunix_path_BB29_102-.Lunix_path_JTI29_1
	.long	.Lunix_path_BB29_102-.Lunix_path_JTI29_1
	.long	.Lunix_path_BB29_100-.Lunix_path_JTI29_1
	.long	.Lunix_path_BB29_102-.Lunix_path_JTI29_1
	.long	.Lunix_path_BB29_102-.Lunix_path_JTI29_1
	.long	.Lunix_path_BB29_102-.Lunix_path_JTI29_1
	.long	.Lunix_path_BB29_99-.Lunix_path_JTI29_1
.Lunix_path_JTI29_2:
	.long	.Lunix_path_BB29_78-.Lunix_path_JTI29_2
	.long	.Lunix_path_BB29_93-.Lunix_path_JTI29_2
	.long	.Lunix_path_BB29_93-.Lunix_path_JTI29_2
	.long	.Lunix_path_BB29_93-.Lunix_path_JTI29_2
	.long	.Lunix_path_BB29_93-.Lunix_path_JTI29_2
	.long	.Lunix_path_BB29_93-.Lunix_path_JTI29_2
	.long	.Lunix_path_BB29_93-.Lunix_path_JTI29_2
	.long	.Lunix_path_BB29_93-.Lunix_path_JTI29_2
	.long	.Lunix_path_BB29_93-.Lunix_path_JTI29_2
	.long	.Lunix_path_BB29_93-.Lunix_path_JTI29_2
	.long	.Lunix_path_BB29_93-.Lunix_path_JTI29_2
	.long	.Lunix_path_BB29_93-.Lunix_path_JTI29_2
	.long	.Lunix_path_BB29_93-.Lunix_path_JTI29_2
	.long	.Lunix_path_BB29_86-.Lunix_path_JTI29_2
	.long	.Lunix_path_BB29_93-.Lunix_path_JTI29_2
	.long	.Lunix_path_BB29_93-.Lunix_path_JTI29_2
	.long	.Lunix_path_BB29_91-.Lunix_path_JTI29_2
	.long	.Lunix_path_BB29_93-.Lunix_path_JTI29_2
	.long	.Lunix_path_BB29_93-.Lunix_path_JTI29_2
	.long	.Lunix_path_BB29_93-.Lunix_path_JTI29_2
	.long	.Lunix_path_BB29_92-.Lunix_path_JTI29_2
	.section	.rodata.cst16,"aM",@progbits,16
	.p2align	4, 0x0
.Lunix_path_CPI30_0:
	.zero	16,192
.Lunix_path_CPI30_1:
	.zero	16,224
.Lunix_path_CPI30_2:
	.zero	16,240
.Lunix_path_CPI30_3:
	.zero	16,194
.Lunix_path_CPI30_4:
	.zero	16,144
.Lunix_path_CPI30_5:
	.zero	16,160
.Lunix_path_CPI30_6:
	.zero	16,244
.Lunix_path_CPI30_7:
	.zero	16,143
.Lunix_path_CPI30_8:
	.zero	16,237
.Lunix_path_CPI30_9:
	.zero	16,159
	.section	.text.unix_bytes.utf8.scans.scan_by_window,"ax",@progbits
	.p2align	4
	.type	unix_bytes.utf8.scans.scan_by_window,@function
# unix_bytes::utf8::scans::scan_by_window
unix_bytes.utf8.scans.scan_by_window:
	movq	%rdx, %rax
	cmpq	%rsi, %rdx
	jb	.Lunix_path_BB30_6
.Lunix_path_BB30_1:
	xorl	%edx, %edx
.Lunix_path_BB30_2:
	retq
.Lunix_path_BB30_3:
	rep		bsfl	%r8d, %r8d
	addq	%rdx, %r8
	.p2align	4
.Lunix_path_BB30_4:
	addq	%r8, %rax
.Lunix_path_BB30_5:
	cmpq	%rsi, %rax
	jae	.Lunix_path_BB30_1
.Lunix_path_BB30_6:
	leaq	(%rdi,%rax), %rcx
	movzbl	(%rdi,%rax), %r8d
	movq	%rsi, %r9
	subq	%rax, %r9
	testb	%r8b, %r8b
	js	.Lunix_path_BB30_19
	movl	$1, %r8d
	cmpq	$8, %r9
	jb	.Lunix_path_BB30_4
	cmpb	$0, 1(%rcx)
	js	.Lunix_path_BB30_4
	cmpq	$16, %r9
	jb	.Lunix_path_BB30_27
	xorl	%edx, %edx
	cmpq	$64, %r9
	jb	.Lunix_path_BB30_14
	movq	%r9, %r8
	.p2align	4
.Lunix_path_BB30_12:
	movdqu	(%rcx,%rdx), %xmm0
	movdqu	16(%rcx,%rdx), %xmm1
	por	%xmm0, %xmm1
	movdqu	32(%rcx,%rdx), %xmm0
	movdqu	48(%rcx,%rdx), %xmm2
	por	%xmm0, %xmm2
	por	%xmm1, %xmm2
	pmovmskb	%xmm2, %r10d
	testl	%r10d, %r10d
	jne	.Lunix_path_BB30_14
	addq	$64, %rdx
	addq	$-64, %r8
	cmpq	$63, %r8
	ja	.Lunix_path_BB30_12
.Lunix_path_BB30_14:
	leaq	-16(%r9), %r10
	cmpq	%r10, %rdx
	jae	.Lunix_path_BB30_17
	.p2align	4
.Lunix_path_BB30_15:
	movdqu	(%rcx,%rdx), %xmm0
	pmovmskb	%xmm0, %r8d
	testl	%r8d, %r8d
	jne	.Lunix_path_BB30_3
	addq	$16, %rdx
	cmpq	%r10, %rdx
	jb	.Lunix_path_BB30_15
.Lunix_path_BB30_17:
	movdqu	(%rcx,%r10), %xmm0
	pmovmskb	%xmm0, %ecx
	movq	%r9, %r8
	testl	%ecx, %ecx
	je	.Lunix_path_BB30_4
	rep		bsfl	%ecx, %ecx
	addq	%rcx, %r10
	movq	%r10, %r8
	jmp	.Lunix_path_BB30_4
	.p2align	4
.Lunix_path_BB30_19:
	leal	62(%r8), %edx
	cmpb	$29, %dl
	ja	.Lunix_path_BB30_22
	movl	$1, %edx
	cmpq	$2, %r9
	jb	.Lunix_path_BB30_2
	movl	$2, %r9d
	cmpb	$-64, 1(%rcx)
	jl	.Lunix_path_BB30_45
	jmp	.Lunix_path_BB30_2
.Lunix_path_BB30_22:
	movl	%r8d, %edx
	andb	$-16, %dl
	cmpb	$-32, %dl
	jne	.Lunix_path_BB30_33
	cmpq	$3, %r9
	jb	.Lunix_path_BB30_61
	movzbl	1(%rcx), %edx
	cmpl	$237, %r8d
	je	.Lunix_path_BB30_38
	cmpl	$224, %r8d
	jne	.Lunix_path_BB30_39
	movl	%edx, %r9d
	andb	$-32, %r9b
	cmpb	$-96, %r9b
	je	.Lunix_path_BB30_40
	jmp	.Lunix_path_BB30_65
.Lunix_path_BB30_27:
	movq	(%rcx), %xmm0
	pmovmskb	%xmm0, %edx
	testb	%dl, %dl
	jne	.Lunix_path_BB30_29
	movq	-8(%rdi,%rsi), %xmm0
	pmovmskb	%xmm0, %edx
	testb	%dl, %dl
	je	.Lunix_path_BB30_32
.Lunix_path_BB30_29:
	xorl	%r8d, %r8d
	.p2align	4
.Lunix_path_BB30_30:
	cmpb	$0, (%rcx,%r8)
	js	.Lunix_path_BB30_4
	incq	%r8
	cmpq	%r8, %r9
	jne	.Lunix_path_BB30_30
.Lunix_path_BB30_32:
	movq	%r9, %r8
	jmp	.Lunix_path_BB30_4
.Lunix_path_BB30_33:
	leal	16(%r8), %r10d
	movl	$1, %edx
	cmpb	$4, %r10b
	ja	.Lunix_path_BB30_2
	cmpq	$4, %r9
	jb	.Lunix_path_BB30_66
	movzbl	1(%rcx), %r10d
	cmpl	$240, %r8d
	je	.Lunix_path_BB30_41
	cmpl	$244, %r8d
	jne	.Lunix_path_BB30_42
	cmpb	$-112, %r10b
	jl	.Lunix_path_BB30_43
	jmp	.Lunix_path_BB30_82
.Lunix_path_BB30_38:
	cmpb	$-96, %dl
	jl	.Lunix_path_BB30_40
	jmp	.Lunix_path_BB30_72
.Lunix_path_BB30_39:
	cmpb	$-65, %dl
	jg	.Lunix_path_BB30_63
.Lunix_path_BB30_40:
	movl	$3, %r9d
	cmpb	$-64, 2(%rcx)
	jl	.Lunix_path_BB30_45
	jmp	.Lunix_path_BB30_63
.Lunix_path_BB30_41:
	leal	112(%r10), %edx
	cmpb	$47, %dl
	jbe	.Lunix_path_BB30_43
	jmp	.Lunix_path_BB30_71
.Lunix_path_BB30_42:
	cmpb	$-64, %r10b
	jge	.Lunix_path_BB30_68
.Lunix_path_BB30_43:
	cmpb	$-65, 2(%rcx)
	jg	.Lunix_path_BB30_68
	movl	$4, %r9d
	cmpb	$-64, 3(%rcx)
	jge	.Lunix_path_BB30_68
.Lunix_path_BB30_45:
	addq	%rax, %r9
	cmpq	$3, %r9
	setb	%al
	movq	%rsi, %rcx
	subq	%r9, %rcx
	cmpq	$16, %rcx
	setb	%cl
	orb	%al, %cl
	je	.Lunix_path_BB30_48
.Lunix_path_BB30_46:
	movq	%r9, %rax
	jmp	.Lunix_path_BB30_5
	.p2align	4
.Lunix_path_BB30_47:
	addq	%r9, %rax
	movq	%rsi, %rcx
	subq	%rax, %rcx
	movq	%rax, %r9
	cmpq	$15, %rcx
	jbe	.Lunix_path_BB30_5
.Lunix_path_BB30_48:
	movdqu	(%rdi,%r9), %xmm0
	pmovmskb	%xmm0, %eax
	movdqa	%xmm0, -24(%rsp)
	testl	%eax, %eax
	je	.Lunix_path_BB30_46
	movzbl	-9(%rsp), %ecx
	movdqu	-3(%rdi,%r9), %xmm2
	movdqu	-2(%rdi,%r9), %xmm3
	movdqu	-1(%rdi,%r9), %xmm1
	movdqa	.Lunix_path_CPI30_0(%rip), %xmm4
	movdqa	%xmm0, %xmm5
	pmaxub	%xmm4, %xmm5
	pcmpeqb	%xmm0, %xmm5
	pmovmskb	%xmm5, %edx
	movdqa	.Lunix_path_CPI30_3(%rip), %xmm5
	pmaxub	%xmm0, %xmm5
	pcmpeqb	%xmm0, %xmm5
	pmovmskb	%xmm5, %r8d
	movdqa	%xmm1, -40(%rsp)
	cmpw	%r8w, %dx
	jne	.Lunix_path_BB30_46
	pmaxub	%xmm1, %xmm4
	pcmpeqb	%xmm1, %xmm4
	movdqa	.Lunix_path_CPI30_1(%rip), %xmm5
	pmaxub	%xmm3, %xmm5
	pcmpeqb	%xmm3, %xmm5
	por	%xmm4, %xmm5
	movdqa	.Lunix_path_CPI30_2(%rip), %xmm3
	pmaxub	%xmm2, %xmm3
	pcmpeqb	%xmm2, %xmm3
	por	%xmm5, %xmm3
	pmovmskb	%xmm3, %r8d
	addq	%rdx, %r8
	movzwl	%ax, %eax
	cmpl	%eax, %r8d
	jne	.Lunix_path_BB30_46
	movdqa	.Lunix_path_CPI30_2(%rip), %xmm2
	pcmpeqb	%xmm1, %xmm2
	movdqa	.Lunix_path_CPI30_1(%rip), %xmm3
	pcmpeqb	%xmm1, %xmm3
	movdqa	%xmm3, %xmm4
	pandn	%xmm2, %xmm4
	pand	.Lunix_path_CPI30_4(%rip), %xmm4
	pand	.Lunix_path_CPI30_5(%rip), %xmm3
	por	%xmm4, %xmm3
	pmaxub	%xmm0, %xmm3
	pcmpeqb	%xmm0, %xmm3
	pmovmskb	%xmm3, %eax
	cmpl	$65535, %eax
	jne	.Lunix_path_BB30_46
	movdqa	.Lunix_path_CPI30_6(%rip), %xmm2
	movdqa	%xmm1, %xmm3
	pcmpeqb	%xmm2, %xmm3
	movdqa	%xmm3, %xmm4
	pandn	%xmm2, %xmm4
	pand	.Lunix_path_CPI30_7(%rip), %xmm3
	por	%xmm4, %xmm3
	pcmpeqb	.Lunix_path_CPI30_8(%rip), %xmm1
	movdqa	%xmm1, %xmm2
	pandn	%xmm3, %xmm2
	pand	.Lunix_path_CPI30_9(%rip), %xmm1
	por	%xmm2, %xmm1
	pmaxub	%xmm1, %xmm0
	pcmpeqb	%xmm1, %xmm0
	pmovmskb	%xmm0, %eax
	cmpl	$65535, %eax
	jne	.Lunix_path_BB30_46
	movl	$15, %eax
	cmpb	$-65, %cl
	ja	.Lunix_path_BB30_47
	movl	$14, %eax
	cmpb	$-33, -25(%rsp)
	ja	.Lunix_path_BB30_47
	xorl	%eax, %eax
	cmpb	$-16, -26(%rsp)
	setb	%al
	leaq	(%rax,%rax,2), %rax
	addq	$13, %rax
	jmp	.Lunix_path_BB30_47
.Lunix_path_BB30_61:
	movl	$1, %edx
	cmpq	$2, %r9
	jne	.Lunix_path_BB30_2
	movzbl	1(%rcx), %edx
.Lunix_path_BB30_63:
	addl	$-224, %r8d
	cmpl	$20, %r8d
	ja	.Lunix_path_BB30_87
	leaq	.Lunix_path_JTI30_2(%rip), %rcx
	movslq	(%rcx,%r8,4), %rsi
	addq	%rcx, %rsi
	jmpq	*%rsi
.Lunix_path_BB30_65:
	andb	$-32, %dl
	cmpb	$-96, %dl
	sete	%cl
	movzbl	%cl, %edx
	incq	%rdx
	retq
.Lunix_path_BB30_66:
	cmpq	$3, %r9
	jne	.Lunix_path_BB30_77
	movzbl	1(%rcx), %r10d
.Lunix_path_BB30_68:
	leal	-224(%r8), %edx
	cmpl	$20, %edx
	ja	.Lunix_path_BB30_75
	leaq	.Lunix_path_JTI30_0(%rip), %rsi
	movslq	(%rsi,%rdx,4), %rdx
	addq	%rsi, %rdx
	jmpq	*%rdx
.Lunix_path_BB30_70:
	movl	%r10d, %edx
	andb	$-32, %dl
	cmpb	$-96, %dl
	je	.Lunix_path_BB30_76
	jmp	.Lunix_path_BB30_81
.Lunix_path_BB30_71:
	leal	112(%r10), %edx
	cmpb	$47, %dl
	jbe	.Lunix_path_BB30_76
	jmp	.Lunix_path_BB30_83
.Lunix_path_BB30_72:
	cmpb	$-96, %dl
	setl	%cl
	movzbl	%cl, %edx
	incq	%rdx
	retq
.Lunix_path_BB30_73:
	cmpb	$-96, %r10b
	jl	.Lunix_path_BB30_76
	jmp	.Lunix_path_BB30_84
.Lunix_path_BB30_74:
	cmpb	$-112, %r10b
	jl	.Lunix_path_BB30_76
	jmp	.Lunix_path_BB30_82
.Lunix_path_BB30_75:
	cmpb	$-64, %r10b
	jge	.Lunix_path_BB30_79
.Lunix_path_BB30_76:
	movl	$3, %edx
	cmpb	$-64, 2(%rcx)
	jl	.Lunix_path_BB30_2
	jmp	.Lunix_path_BB30_79
.Lunix_path_BB30_77:
	cmpq	$2, %r9
	jb	.Lunix_path_BB30_2
	movzbl	1(%rcx), %r10d
.Lunix_path_BB30_79:
	addl	$-224, %r8d
	cmpl	$20, %r8d
	ja	.Lunix_path_BB30_88
	leaq	.Lunix_path_JTI30_1(%rip), %rcx
	movslq	(%rcx,%r8,4), %rdx
	addq	%rcx, %rdx
	jmpq	*%rdx
.Lunix_path_BB30_81:
	andb	$-32, %r10b
	cmpb	$-96, %r10b
	sete	%cl
	movzbl	%cl, %edx
	incq	%rdx
	retq
.Lunix_path_BB30_82:
	cmpb	$-112, %r10b
	setl	%cl
	movzbl	%cl, %edx
	incq	%rdx
	retq
.Lunix_path_BB30_83:
	addb	$112, %r10b
	cmpb	$48, %r10b
	setb	%cl
	movzbl	%cl, %edx
	incq	%rdx
	retq
.Lunix_path_BB30_84:
	cmpb	$-96, %r10b
	setl	%cl
	movzbl	%cl, %edx
	incq	%rdx
	retq
.Lunix_path_BB30_85:
	addb	$112, %dl
	cmpb	$48, %dl
	setb	%cl
	movzbl	%cl, %edx
	incq	%rdx
	retq
.Lunix_path_BB30_86:
	cmpb	$-112, %dl
	setl	%cl
	movzbl	%cl, %edx
	incq	%rdx
	retq
.Lunix_path_BB30_87:
	cmpb	$-64, %dl
	setl	%cl
	movzbl	%cl, %edx
	incq	%rdx
	retq
.Lunix_path_BB30_88:
	cmpb	$-64, %r10b
	setl	%cl
	movzbl	%cl, %edx
	incq	%rdx
	retq
.Lunix_path_func_end30:
	.size	unix_bytes.utf8.scans.scan_by_window, .Lunix_path_func_end30-unix_bytes.utf8.scans.scan_by_window
	.section	.rodata.unix_bytes.utf8.scans.scan_by_window,"a",@progbits
	.p2align	2, 0x0
.Lunix_path_JTI30_0:
	.long	.Lunix_path_BB30_70-.Lunix_path_JTI30_0
	.long	.Lunix_path_BB30_75-.Lunix_path_JTI30_0
	.long	.Lunix_path_BB30_75-.Lunix_path_JTI30_0
	.long	.Lunix_path_BB30_75-.Lunix_path_JTI30_0
	.long	.Lunix_path_BB30_75-.Lunix_path_JTI30_0
	.long	.Lunix_path_BB30_75-.Lunix_path_JTI30_0
	.long	.Lunix_path_BB30_75-.Lunix_path_JTI30_0
	.long	.Lunix_path_BB30_75-.Lunix_path_JTI30_0
	.long	.Lunix_path_BB30_75-.Lunix_path_JTI30_0
	.long	.Lunix_path_BB30_75-.Lunix_path_JTI30_0
	.long	.Lunix_path_BB30_75-.Lunix_path_JTI30_0
	.long	.Lunix_path_BB30_75-.Lunix_path_JTI30_0
	.long	.Lunix_path_BB30_75-.Lunix_path_JTI30_0
	.long	.Lunix_path_BB30_73-.Lunix_path_JTI30_0
	.long	.Lunix_path_BB30_75-.Lunix_path_JTI30_0
	.long	.Lunix_path_BB30_75-.Lunix_path_JTI30_0
	.long	.Lunix_path_BB30_71-.Lunix_path_JTI30_0
	.long	.Lunix_path_BB30_75-.Lunix_path_JTI30_0
	.long	.Lunix_path_BB30_75-.Lunix_path_JTI30_0
	.long	.Lunix_path_BB30_75-.Lunix_path_JTI30_0
	.long	.Lunix_path_BB30_74-.Lunix_path_JTI30_0
.Lunix_path_JTI30_1:
	.long	.Lunix_path_BB30_81-.Lunix_path_JTI30_1
	.long	.Lunix_path_BB30_88-.Lunix_path_JTI30_1
	.long	.Lunix_path_BB30_88-.Lunix_path_JTI30_1
	.long	.Lunix_path_BB30_88-.Lunix_path_JTI30_1
	.long	.Lunix_path_BB30_88-.Lunix_path_JTI30_1
	.long	.Lunix_path_BB30_88-.Lunix_path_JTI30_1
	.long	.Lunix_path_BB30_88-.Lunix_path_JTI30_1
	.long	.Lunix_path_BB30_88-.Lunix_path_JTI30_1
	.long	.Lunix_path_BB30_88-.Lunix_path_JTI30_1
	.long	.Lunix_path_BB30_88-.Lunix_path_JTI30_1
	.long	.Lunix_path_BB30_88-.Lunix_path_JTI30_1
	.long	.Lunix_path_BB30_88-.Lunix_path_JTI30_1
	.long	.Lunix_path_BB30_88-.Lunix_path_JTI30_1
	.long	.Lunix_path_BB30_84-.Lunix_path_JTI30_1
	.long	.Lunix_path_BB30_88-.Lunix_path_JTI30_1
	.long	.Lunix_path_BB30_88-.Lunix_path_JTI30_1
	.long	.Lunix_path_BB30_83-.Lunix_path_JTI30_1
	.long	.Lunix_path_BB30_88-.Lunix_path_JTI30_1
	.long	.Lunix_path_BB30_88-.Lunix_path_JTI30_1
	.long	.Lunix_path_BB30_88-.Lunix_path_JTI30_1
	.long	.Lunix_path_BB30_82-.Lunix_path_JTI30_1
.Lunix_path_JTI30_2:
	.long	.Lunix_path_BB30_65-.Lunix_path_JTI30_2
	.long	.Lunix_path_BB30_87-.Lunix_path_JTI30_2
	.long	.Lunix_path_BB30_87-.Lunix_path_JTI30_2
	.long	.Lunix_path_BB30_87-.Lunix_path_JTI30_2
	.long	.Lunix_path_BB30_87-.Lunix_path_JTI30_2
	.long	.Lunix_path_BB30_87-.Lunix_path_JTI30_2
	.long	.Lunix_path_BB30_87-.Lunix_path_JTI30_2
	.long	.Lunix_path_BB30_87-.Lunix_path_JTI30_2
	.long	.Lunix_path_BB30_87-.Lunix_path_JTI30_2
	.long	.Lunix_path_BB30_87-.Lunix_path_JTI30_2
	.long	.Lunix_path_BB30_87-.Lunix_path_JTI30_2
	.long	.Lunix_path_BB30_87-.Lunix_path_JTI30_2
	.long	.Lunix_path_BB30_87-.Lunix_path_JTI30_2
	.long	.Lunix_path_BB30_72-.Lunix_path_JTI30_2
	.long	.Lunix_path_BB30_87-.Lunix_path_JTI30_2
	.long	.Lunix_path_BB30_87-.Lunix_path_JTI30_2
	.long	.Lunix_path_BB30_85-.Lunix_path_JTI30_2
	.long	.Lunix_path_BB30_87-.Lunix_path_JTI30_2
	.long	.Lunix_path_BB30_87-.Lunix_path_JTI30_2
	.long	.Lunix_path_BB30_87-.Lunix_path_JTI30_2
	.long	.Lunix_path_BB30_86-.Lunix_path_JTI30_2
	.section	.rodata.cst16,"aM",@progbits,16
	.p2align	4, 0x0
.Lunix_path_CPI31_0:
	.zero	16,34
.Lunix_path_CPI31_1:
	.zero	16,92
.Lunix_path_CPI31_2:
	.zero	16,31
.Lunix_path_CPI31_3:
	.byte	34
	.byte	34
	.byte	34
	.byte	34
	.zero	1
	.zero	1
	.zero	1
	.zero	1
	.zero	1
	.zero	1
	.zero	1
	.zero	1
	.zero	1
	.zero	1
	.zero	1
	.zero	1
.Lunix_path_CPI31_4:
	.byte	92
	.byte	92
	.byte	92
	.byte	92
	.zero	1
	.zero	1
	.zero	1
	.zero	1
	.zero	1
	.zero	1
	.zero	1
	.zero	1
	.zero	1
	.zero	1
	.zero	1
	.zero	1
.Lunix_path_CPI31_5:
	.byte	32
	.byte	32
	.byte	32
	.byte	32
	.zero	1
	.zero	1
	.zero	1
	.zero	1
	.zero	1
	.zero	1
	.zero	1
	.zero	1
	.zero	1
	.zero	1
	.zero	1
	.zero	1
.Lunix_path_CPI31_6:
	.byte	34
	.byte	34
	.byte	34
	.byte	34
	.byte	34
	.byte	34
	.byte	34
	.byte	34
	.zero	1
	.zero	1
	.zero	1
	.zero	1
	.zero	1
	.zero	1
	.zero	1
	.zero	1
.Lunix_path_CPI31_7:
	.byte	92
	.byte	92
	.byte	92
	.byte	92
	.byte	92
	.byte	92
	.byte	92
	.byte	92
	.zero	1
	.zero	1
	.zero	1
	.zero	1
	.zero	1
	.zero	1
	.zero	1
	.zero	1
.Lunix_path_CPI31_8:
	.byte	32
	.byte	32
	.byte	32
	.byte	32
	.byte	32
	.byte	32
	.byte	32
	.byte	32
	.zero	1
	.zero	1
	.zero	1
	.zero	1
	.zero	1
	.zero	1
	.zero	1
	.zero	1
	.section	.text.serde_json.ser.write.d02ee1697995db96.,"ax",@progbits
	.p2align	4
	.type	serde_json.ser.write.d02ee1697995db96.,@function
# serde_json::ser::write::<#d02ee1697995db96>
serde_json.ser.write.d02ee1697995db96.:
	pushq	%rbp
	pushq	%r15
	pushq	%r14
	pushq	%r13
	pushq	%r12
	pushq	%rbx
	subq	$136, %rsp
	movq	%rsi, %rbx
	movzbl	(%rdi), %eax
	leaq	.Lunix_path_JTI31_0(%rip), %rcx
	movslq	(%rcx,%rax,4), %rax
	addq	%rcx, %rax
	jmpq	*%rax
.Lunix_path_BB31_1:
	movzbl	40(%rbx), %r14d
	movq	8(%rbx), %rcx
	movq	24(%rbx), %rax
	subq	%rax, %rcx
	cmpq	$4, %rcx
	jbe	.Lunix_path_BB31_141
.Lunix_path_BB31_2:
	movq	(%rbx), %rcx
	movb	$44, (%rcx,%rax)
	leaq	(%rax,%r14), %rdx
	addq	%r14, %rax
	addq	$4, %rax
	movl	$1819047278, (%rcx,%rdx)
	jmp	.Lunix_path_BB31_125
.Lunix_path_BB31_3:
	movzbl	40(%rbx), %r14d
	movq	8(%rbx), %rcx
	movq	24(%rbx), %rax
	subq	%rax, %rcx
	cmpq	$1, %rcx
	jbe	.Lunix_path_BB31_139
.Lunix_path_BB31_4:
	movq	(%rbx), %rcx
	movb	$44, (%rcx,%rax)
	leaq	(%rax,%r14), %rdx
	addq	%r14, %rax
	incq	%rax
	movb	$91, (%rcx,%rdx)
	movq	%rax, 24(%rbx)
	movb	$0, 40(%rbx)
	movq	16(%rdi), %r15
	testq	%r15, %r15
	je	.Lunix_path_BB31_45
	movq	8(%rdi), %r14
	jmp	.Lunix_path_BB31_8
	.p2align	4
.Lunix_path_BB31_6:
	movq	%r14, %rdi
	movq	%rbx, %rsi
	callq	serde_json.ser.write.d02ee1697995db96.
	testb	%al, %al
	jne	.Lunix_path_BB31_14
.Lunix_path_BB31_7:
	addq	$32, %r14
	decq	%r15
	je	.Lunix_path_BB31_44
.Lunix_path_BB31_8:
	cmpb	$2, (%r14)
	jne	.Lunix_path_BB31_6
	movzbl	8(%r14), %eax
	cmpl	$2, %eax
	je	.Lunix_path_BB31_12
	cmpl	$1, %eax
	jne	.Lunix_path_BB31_13
	movq	16(%r14), %rdi
	movq	%rbx, %rsi
	callq	serde_json.number.write_negative.d02ee1697995db96.
	testb	%al, %al
	je	.Lunix_path_BB31_7
	jmp	.Lunix_path_BB31_14
.Lunix_path_BB31_12:
	movq	16(%r14), %xmm0
	movq	%rbx, %rdi
	callq	serde_json.number.write_float.d02ee1697995db96.
	testb	%al, %al
	je	.Lunix_path_BB31_7
	jmp	.Lunix_path_BB31_14
.Lunix_path_BB31_13:
	movq	16(%r14), %rdi
	movq	%rbx, %rsi
	callq	serde_json.number.write_positive.d02ee1697995db96.
	testb	%al, %al
	je	.Lunix_path_BB31_7
.Lunix_path_BB31_14:
	movb	$1, %al
	jmp	.Lunix_path_BB31_127
.Lunix_path_BB31_15:
	movzbl	8(%rdi), %eax
	cmpl	$2, %eax
	je	.Lunix_path_BB31_42
	cmpl	$1, %eax
	jne	.Lunix_path_BB31_43
	movq	16(%rdi), %rdi
	movq	%rbx, %rsi
	addq	$136, %rsp
	popq	%rbx
	popq	%r12
	popq	%r13
	popq	%r14
	popq	%r15
	popq	%rbp
	jmp	serde_json.number.write_negative.d02ee1697995db96.
.Lunix_path_BB31_18:
	movq	8(%rdi), %rdx
	movq	16(%rdi), %rcx
	movzbl	40(%rbx), %esi
	cmpq	$32, %rcx
	jae	.Lunix_path_BB31_29
	cmpq	$16, %rcx
	jb	.Lunix_path_BB31_47
	movdqu	(%rdx), %xmm0
	movdqa	.Lunix_path_CPI31_0(%rip), %xmm1
	pcmpeqb	%xmm0, %xmm1
	movdqa	.Lunix_path_CPI31_1(%rip), %xmm2
	pcmpeqb	%xmm0, %xmm2
	por	%xmm1, %xmm2
	movdqa	.Lunix_path_CPI31_2(%rip), %xmm1
	pminub	%xmm0, %xmm1
	pcmpeqb	%xmm0, %xmm1
	por	%xmm2, %xmm1
	pmovmskb	%xmm1, %eax
	testl	%eax, %eax
	jne	.Lunix_path_BB31_138
	movdqu	-16(%rdx,%rcx), %xmm0
	movdqa	.Lunix_path_CPI31_0(%rip), %xmm1
	pcmpeqb	%xmm0, %xmm1
	movdqa	.Lunix_path_CPI31_1(%rip), %xmm2
	pcmpeqb	%xmm0, %xmm2
	por	%xmm1, %xmm2
	movdqa	.Lunix_path_CPI31_2(%rip), %xmm1
	pminub	%xmm0, %xmm1
	pcmpeqb	%xmm0, %xmm1
	por	%xmm2, %xmm1
	pmovmskb	%xmm1, %eax
	testl	%eax, %eax
	jne	.Lunix_path_BB31_138
	jmp	.Lunix_path_BB31_33
.Lunix_path_BB31_22:
	movzbl	40(%rbx), %r14d
	movq	8(%rbx), %rcx
	movq	24(%rbx), %rax
	subq	%rax, %rcx
	cmpb	$1, 1(%rdi)
	jne	.Lunix_path_BB31_38
	cmpq	$4, %rcx
	jbe	.Lunix_path_BB31_150
.Lunix_path_BB31_24:
	movq	(%rbx), %rdx
	movb	$44, (%rdx,%rax)
	leaq	(%rax,%r14), %rcx
	addq	%r14, %rax
	addq	$4, %rax
	addq	%rdx, %rcx
	leaq	.Lunix_path_static.29(%rip), %rdx
	movq	%rcx, %rsi
	subq	%rdx, %rsi
	cmpq	$3, %rsi
	movl	$1702195828, (%rcx)
	jmp	.Lunix_path_BB31_125
.Lunix_path_BB31_25:
	movzbl	40(%rbx), %r14d
	movq	8(%rbx), %rcx
	movq	24(%rbx), %rax
	subq	%rax, %rcx
	cmpq	$1, %rcx
	jbe	.Lunix_path_BB31_143
.Lunix_path_BB31_26:
	movq	(%rbx), %rcx
	movb	$44, (%rcx,%rax)
	leaq	(%rax,%r14), %rdx
	addq	%r14, %rax
	incq	%rax
	movb	$123, (%rcx,%rdx)
	movq	%rax, 24(%rbx)
	movb	$0, 40(%rbx)
	cmpb	$1, 8(%rdi)
	jne	.Lunix_path_BB31_41
	movq	16(%rdi), %rcx
	cmpw	$0, 2(%rcx)
	je	.Lunix_path_BB31_51
	addq	$16, %rdi
	movq	$-1, %rsi
	movb	$1, %al
	movq	%rax, 16(%rsp)
	leaq	8(%rsp), %rax
	movq	$0, 40(%rsp)
	movq	%rax, 32(%rsp)
	movq	%rax, 24(%rsp)
	movq	%rdi, %rax
	jmp	.Lunix_path_BB31_53
.Lunix_path_BB31_29:
	movq	%rdx, %rax
	movq	%rcx, %rdi
	je	.Lunix_path_BB31_32
	.p2align	4
.Lunix_path_BB31_30:
	movdqu	(%rax), %xmm1
	movdqu	16(%rax), %xmm0
	movdqa	.Lunix_path_CPI31_0(%rip), %xmm2
	movdqa	%xmm1, %xmm3
	movdqa	.Lunix_path_CPI31_2(%rip), %xmm4
	movdqa	%xmm0, %xmm5
	pminub	%xmm4, %xmm5
	pminub	%xmm1, %xmm4
	pcmpeqb	%xmm1, %xmm4
	pcmpeqb	%xmm2, %xmm1
	movdqa	.Lunix_path_CPI31_1(%rip), %xmm6
	pcmpeqb	%xmm6, %xmm3
	por	%xmm1, %xmm3
	pcmpeqb	%xmm0, %xmm2
	pcmpeqb	%xmm0, %xmm6
	por	%xmm2, %xmm6
	pcmpeqb	%xmm0, %xmm5
	por	%xmm6, %xmm5
	por	%xmm3, %xmm4
	por	%xmm5, %xmm4
	pmovmskb	%xmm4, %r8d
	testl	%r8d, %r8d
	jne	.Lunix_path_BB31_138
	addq	$-32, %rdi
	addq	$32, %rax
	cmpq	$33, %rdi
	jae	.Lunix_path_BB31_30
.Lunix_path_BB31_32:
	movdqu	-32(%rdx,%rcx), %xmm1
	movdqu	-16(%rdx,%rcx), %xmm0
	movdqa	.Lunix_path_CPI31_0(%rip), %xmm2
	movdqa	%xmm1, %xmm3
	movdqa	.Lunix_path_CPI31_2(%rip), %xmm4
	movdqa	%xmm0, %xmm5
	pminub	%xmm4, %xmm5
	pminub	%xmm1, %xmm4
	pcmpeqb	%xmm1, %xmm4
	pcmpeqb	%xmm2, %xmm1
	movdqa	.Lunix_path_CPI31_1(%rip), %xmm6
	pcmpeqb	%xmm6, %xmm3
	por	%xmm1, %xmm3
	pcmpeqb	%xmm0, %xmm2
	pcmpeqb	%xmm0, %xmm6
	por	%xmm2, %xmm6
	pcmpeqb	%xmm0, %xmm5
	por	%xmm6, %xmm5
	por	%xmm3, %xmm4
	por	%xmm5, %xmm4
	pmovmskb	%xmm4, %eax
	testl	%eax, %eax
	jne	.Lunix_path_BB31_138
.Lunix_path_BB31_33:
	leaq	3(%rcx), %rax
	movq	8(%rbx), %rdi
	movq	24(%rbx), %r8
	subq	%r8, %rdi
	cmpq	%rdi, %rax
	ja	.Lunix_path_BB31_167
.Lunix_path_BB31_34:
	movq	(%rbx), %rax
	movb	$44, (%rax,%r8)
	leaq	(%r8,%rsi), %rdi
	movb	$34, (%rax,%rdi)
	addq	%r8, %rsi
	incq	%rsi
	cmpq	$33, %rcx
	jb	.Lunix_path_BB31_132
	cmpq	$65, %rcx
	jb	.Lunix_path_BB31_145
	leaq	-65(%rcx), %r10
	movq	%r10, %r9
	shrq	$5, %r9
	incq	%r9
	movl	%r9d, %r8d
	andl	$3, %r8d
	cmpq	$96, %r10
	jae	.Lunix_path_BB31_154
	xorl	%edi, %edi
	jmp	.Lunix_path_BB31_157
.Lunix_path_BB31_38:
	cmpq	$5, %rcx
	jbe	.Lunix_path_BB31_152
.Lunix_path_BB31_39:
	movq	(%rbx), %rdx
	movb	$44, (%rdx,%rax)
	leaq	(%rax,%r14), %rcx
	addq	%r14, %rax
	addq	$5, %rax
	addq	%rdx, %rcx
	leaq	.Lunix_path_static.30(%rip), %rdx
	movq	%rcx, %rsi
	subq	%rdx, %rsi
	cmpq	$4, %rsi
	ja	.Lunix_path_BB31_50
	movl	$1936482662, (%rcx)
	movb	$101, 4(%rcx)
	jmp	.Lunix_path_BB31_125
.Lunix_path_BB31_41:
	leaq	8(%rsp), %rax
	movq	$0, 40(%rsp)
	movq	%rax, 32(%rsp)
	movq	%rax, 24(%rsp)
	jmp	.Lunix_path_BB31_52
.Lunix_path_BB31_42:
	movsd	16(%rdi), %xmm0
	movq	%rbx, %rdi
	addq	$136, %rsp
	popq	%rbx
	popq	%r12
	popq	%r13
	popq	%r14
	popq	%r15
	popq	%rbp
	jmp	serde_json.number.write_float.d02ee1697995db96.
.Lunix_path_BB31_43:
	movq	16(%rdi), %rdi
	movq	%rbx, %rsi
	addq	$136, %rsp
	popq	%rbx
	popq	%r12
	popq	%r13
	popq	%r14
	popq	%r15
	popq	%rbp
	jmp	serde_json.number.write_positive.d02ee1697995db96.
.Lunix_path_BB31_44:
	movq	24(%rbx), %rax
.Lunix_path_BB31_45:
	movq	8(%rbx), %rcx
	subq	%rax, %rcx
	cmpq	$1, %rcx
	jbe	.Lunix_path_BB31_148
.Lunix_path_BB31_46:
	movq	(%rbx), %rcx
	movb	$93, (%rcx,%rax)
	jmp	.Lunix_path_BB31_124
.Lunix_path_BB31_47:
	cmpq	$8, %rcx
	jb	.Lunix_path_BB31_129
	movq	(%rdx), %xmm0
	movdqa	.Lunix_path_CPI31_6(%rip), %xmm1
	pcmpeqb	%xmm0, %xmm1
	movdqa	.Lunix_path_CPI31_7(%rip), %xmm2
	pcmpeqb	%xmm0, %xmm2
	por	%xmm1, %xmm2
	movdqa	.Lunix_path_CPI31_8(%rip), %xmm1
	pmaxub	%xmm0, %xmm1
	pcmpeqb	%xmm0, %xmm1
	pcmpeqd	%xmm0, %xmm0
	pxor	%xmm0, %xmm1
	por	%xmm2, %xmm1
	pmovmskb	%xmm1, %eax
	testb	%al, %al
	jne	.Lunix_path_BB31_138
	movq	-8(%rdx,%rcx), %xmm1
	movdqa	.Lunix_path_CPI31_6(%rip), %xmm2
	pcmpeqb	%xmm1, %xmm2
	movdqa	.Lunix_path_CPI31_7(%rip), %xmm3
	pcmpeqb	%xmm1, %xmm3
	por	%xmm2, %xmm3
	movdqa	.Lunix_path_CPI31_8(%rip), %xmm2
	pmaxub	%xmm1, %xmm2
	pcmpeqb	%xmm1, %xmm2
	pxor	%xmm0, %xmm2
	por	%xmm3, %xmm2
	pmovmskb	%xmm2, %eax
	testb	%al, %al
	jne	.Lunix_path_BB31_138
	jmp	.Lunix_path_BB31_33
.Lunix_path_BB31_50:
	movb	$101, 4(%rcx)
	movl	$1936482662, (%rcx)
	jmp	.Lunix_path_BB31_125
.Lunix_path_BB31_51:
	movzwl	(%rcx), %eax
	movq	%rax, 40(%rsp)
	leaq	8(%rcx), %rax
	movq	%rax, 32(%rsp)
	addq	$368, %rcx
	movq	%rcx, 24(%rsp)
.Lunix_path_BB31_52:
	movq	$0, 16(%rsp)
	xorl	%eax, %eax
	xorl	%esi, %esi
.Lunix_path_BB31_53:
	xorl	%ebp, %ebp
	movq	%rax, 72(%rsp)
	movq	%rax, 48(%rsp)
	movq	%rsi, 64(%rsp)
	jmp	.Lunix_path_BB31_57
	.p2align	4
.Lunix_path_BB31_54:
	movdqu	(%r13), %xmm0
	movdqa	.Lunix_path_CPI31_0(%rip), %xmm1
	pcmpeqb	%xmm0, %xmm1
	movdqa	.Lunix_path_CPI31_1(%rip), %xmm2
	pcmpeqb	%xmm0, %xmm2
	por	%xmm1, %xmm2
	movdqa	.Lunix_path_CPI31_2(%rip), %xmm1
	pminub	%xmm0, %xmm1
	pcmpeqb	%xmm0, %xmm1
	por	%xmm2, %xmm1
	pmovmskb	%xmm1, %eax
	testl	%eax, %eax
	je	.Lunix_path_BB31_77
.Lunix_path_BB31_55:
	leaq	.Lunix_path_static.42(%rip), %r8
	movl	$2, %r9d
	movq	%rbx, %rdi
	movl	%r15d, %esi
	movq	%r13, %rdx
	movq	%r12, %rcx
	callq	json.write.put.put_escaped.2df68bf702f5d045.
	testb	%al, %al
	jne	.Lunix_path_BB31_14
.Lunix_path_BB31_56:
	movb	$0, 40(%rbx)
	movq	%r14, %rdi
	movq	%rbx, %rsi
	callq	serde_json.ser.write.d02ee1697995db96.
	testb	%al, %al
	movq	56(%rsp), %rsi
	jne	.Lunix_path_BB31_14
.Lunix_path_BB31_57:
	cmpq	40(%rsp), %rbp
	jb	.Lunix_path_BB31_62
	pxor	%xmm0, %xmm0
	movdqa	%xmm0, 112(%rsp)
	movdqa	%xmm0, 96(%rsp)
	movdqa	%xmm0, 80(%rsp)
	cmpb	$1, 16(%rsp)
	je	.Lunix_path_BB31_72
	xorl	%eax, %eax
.Lunix_path_BB31_60:
	cmpq	40(%rsp), %rbp
	jae	.Lunix_path_BB31_122
	movq	%rax, 16(%rsp)
.Lunix_path_BB31_62:
	movq	%rsi, 56(%rsp)
	leaq	1(%rbp), %rcx
	leaq	(,%rbp,2), %rax
	addq	%rbp, %rax
	movq	32(%rsp), %rdx
	leaq	(%rdx,%rax,8), %rax
	shlq	$5, %rbp
	movq	%rbp, %r14
	addq	24(%rsp), %r14
	movq	%rcx, %rbp
.Lunix_path_BB31_63:
	movq	(%rax), %r13
	movq	8(%rax), %r12
	movzbl	40(%rbx), %r15d
	cmpq	$32, %r12
	jae	.Lunix_path_BB31_68
	cmpq	$16, %r12
	jae	.Lunix_path_BB31_54
	cmpq	$8, %r12
	jb	.Lunix_path_BB31_74
	movq	(%r13), %xmm0
	movdqa	.Lunix_path_CPI31_6(%rip), %xmm1
	pcmpeqb	%xmm0, %xmm1
	movdqa	.Lunix_path_CPI31_7(%rip), %xmm2
	pcmpeqb	%xmm0, %xmm2
	por	%xmm1, %xmm2
	movdqa	.Lunix_path_CPI31_8(%rip), %xmm1
	pmaxub	%xmm0, %xmm1
	pcmpeqb	%xmm0, %xmm1
	pcmpeqd	%xmm0, %xmm0
	pxor	%xmm0, %xmm1
	por	%xmm2, %xmm1
	pmovmskb	%xmm1, %eax
	testb	%al, %al
	jne	.Lunix_path_BB31_55
	movq	-8(%r13,%r12), %xmm1
	movdqa	.Lunix_path_CPI31_6(%rip), %xmm2
	pcmpeqb	%xmm1, %xmm2
	movdqa	.Lunix_path_CPI31_7(%rip), %xmm3
	pcmpeqb	%xmm1, %xmm3
	por	%xmm2, %xmm3
	movdqa	.Lunix_path_CPI31_8(%rip), %xmm2
	pmaxub	%xmm1, %xmm2
	pcmpeqb	%xmm1, %xmm2
	pxor	%xmm0, %xmm2
	por	%xmm3, %xmm2
	pmovmskb	%xmm2, %eax
	testb	%al, %al
	jne	.Lunix_path_BB31_55
	jmp	.Lunix_path_BB31_79
	.p2align	4
.Lunix_path_BB31_68:
	movq	%r13, %rax
	movq	%r12, %rcx
	je	.Lunix_path_BB31_71
	.p2align	4
.Lunix_path_BB31_69:
	movdqu	(%rax), %xmm1
	movdqu	16(%rax), %xmm0
	movdqa	.Lunix_path_CPI31_0(%rip), %xmm2
	movdqa	%xmm1, %xmm3
	movdqa	.Lunix_path_CPI31_2(%rip), %xmm4
	movdqa	%xmm0, %xmm5
	pminub	%xmm4, %xmm5
	pminub	%xmm1, %xmm4
	pcmpeqb	%xmm1, %xmm4
	pcmpeqb	%xmm2, %xmm1
	movdqa	.Lunix_path_CPI31_1(%rip), %xmm6
	pcmpeqb	%xmm6, %xmm3
	por	%xmm1, %xmm3
	pcmpeqb	%xmm0, %xmm2
	pcmpeqb	%xmm0, %xmm6
	por	%xmm2, %xmm6
	pcmpeqb	%xmm0, %xmm5
	por	%xmm6, %xmm5
	por	%xmm3, %xmm4
	por	%xmm5, %xmm4
	pmovmskb	%xmm4, %edx
	testl	%edx, %edx
	jne	.Lunix_path_BB31_55
	addq	$-32, %rcx
	addq	$32, %rax
	cmpq	$33, %rcx
	jae	.Lunix_path_BB31_69
.Lunix_path_BB31_71:
	movdqu	-32(%r13,%r12), %xmm1
	movdqu	-16(%r13,%r12), %xmm0
	movdqa	.Lunix_path_CPI31_0(%rip), %xmm2
	movdqa	%xmm1, %xmm3
	movdqa	.Lunix_path_CPI31_2(%rip), %xmm4
	movdqa	%xmm0, %xmm5
	pminub	%xmm4, %xmm5
	pminub	%xmm1, %xmm4
	pcmpeqb	%xmm1, %xmm4
	pcmpeqb	%xmm2, %xmm1
	movdqa	.Lunix_path_CPI31_1(%rip), %xmm6
	pcmpeqb	%xmm6, %xmm3
	por	%xmm1, %xmm3
	pcmpeqb	%xmm0, %xmm2
	pcmpeqb	%xmm0, %xmm6
	por	%xmm2, %xmm6
	pcmpeqb	%xmm0, %xmm5
	por	%xmm6, %xmm5
	por	%xmm3, %xmm4
	por	%xmm5, %xmm4
	pmovmskb	%xmm4, %eax
	jmp	.Lunix_path_BB31_78
.Lunix_path_BB31_72:
	leaq	80(%rsp), %rdi
	movq	48(%rsp), %rdx
	movq	72(%rsp), %rcx
	movq	64(%rsp), %r8
	callq	std_collections.btree.iter.Cursor.advance.dd2386031c731943.
	cmpb	$1, 104(%rsp)
	jne	.Lunix_path_BB31_86
	movq	112(%rsp), %rsi
	movq	120(%rsp), %rcx
	movq	%rcx, 48(%rsp)
	movq	(%rcx), %rax
	movl	%esi, %ecx
	andl	$15, %ecx
	movq	848(%rax,%rcx,8), %rcx
	movzwl	(%rcx), %eax
	movq	%rax, 40(%rsp)
	leaq	8(%rcx), %rax
	movq	%rax, 32(%rsp)
	addq	$368, %rcx
	movq	%rcx, 24(%rsp)
	movb	$1, %al
	xorl	%ebp, %ebp
	testb	$1, 80(%rsp)
	je	.Lunix_path_BB31_60
	jmp	.Lunix_path_BB31_87
.Lunix_path_BB31_74:
	cmpq	$3, %r12
	jbe	.Lunix_path_BB31_88
	movd	(%r13), %xmm0
	movdqa	.Lunix_path_CPI31_3(%rip), %xmm1
	pcmpeqb	%xmm0, %xmm1
	movdqa	.Lunix_path_CPI31_4(%rip), %xmm2
	pcmpeqb	%xmm0, %xmm2
	por	%xmm1, %xmm2
	movdqa	.Lunix_path_CPI31_5(%rip), %xmm1
	pmaxub	%xmm0, %xmm1
	pcmpeqb	%xmm0, %xmm1
	pcmpeqd	%xmm0, %xmm0
	pxor	%xmm0, %xmm1
	por	%xmm2, %xmm1
	punpcklbw	%xmm1, %xmm1
	punpcklwd	%xmm1, %xmm1
	movmskps	%xmm1, %eax
	testl	%eax, %eax
	jne	.Lunix_path_BB31_55
	movd	-4(%r13,%r12), %xmm1
	movdqa	.Lunix_path_CPI31_3(%rip), %xmm2
	pcmpeqb	%xmm1, %xmm2
	movdqa	.Lunix_path_CPI31_4(%rip), %xmm3
	pcmpeqb	%xmm1, %xmm3
	por	%xmm2, %xmm3
	movdqa	.Lunix_path_CPI31_5(%rip), %xmm2
	pmaxub	%xmm1, %xmm2
	pcmpeqb	%xmm1, %xmm2
	pxor	%xmm0, %xmm2
	por	%xmm3, %xmm2
	punpcklbw	%xmm2, %xmm2
	punpcklwd	%xmm2, %xmm2
	movmskps	%xmm2, %eax
	jmp	.Lunix_path_BB31_78
.Lunix_path_BB31_77:
	movdqu	-16(%r13,%r12), %xmm0
	movdqa	.Lunix_path_CPI31_0(%rip), %xmm1
	pcmpeqb	%xmm0, %xmm1
	movdqa	.Lunix_path_CPI31_1(%rip), %xmm2
	pcmpeqb	%xmm0, %xmm2
	por	%xmm1, %xmm2
	movdqa	.Lunix_path_CPI31_2(%rip), %xmm1
	pminub	%xmm0, %xmm1
	pcmpeqb	%xmm0, %xmm1
	por	%xmm2, %xmm1
	pmovmskb	%xmm1, %eax
	.p2align	4
.Lunix_path_BB31_78:
	testl	%eax, %eax
	jne	.Lunix_path_BB31_55
.Lunix_path_BB31_79:
	leaq	4(%r12), %rsi
	movq	8(%rbx), %rax
	movq	24(%rbx), %rcx
	subq	%rcx, %rax
	cmpq	%rax, %rsi
	ja	.Lunix_path_BB31_116
.Lunix_path_BB31_80:
	movq	(%rbx), %rax
	movb	$44, (%rax,%rcx)
	leaq	(%rcx,%r15), %rdx
	movb	$34, (%rax,%rdx)
	addq	%r15, %rcx
	incq	%rcx
	cmpq	$33, %r12
	jb	.Lunix_path_BB31_84
	cmpq	$65, %r12
	jb	.Lunix_path_BB31_100
	leaq	-65(%r12), %r8
	movq	%r8, %rdi
	shrq	$5, %rdi
	incq	%rdi
	movl	%edi, %esi
	andl	$3, %esi
	cmpq	$96, %r8
	jae	.Lunix_path_BB31_103
	xorl	%edx, %edx
	jmp	.Lunix_path_BB31_106
.Lunix_path_BB31_84:
	cmpq	$16, %r12
	jb	.Lunix_path_BB31_101
	movups	(%r13), %xmm0
	leaq	(%rax,%rcx), %rdx
	movups	%xmm0, (%rax,%rcx)
	movdqu	-16(%r13,%r12), %xmm0
	movdqu	%xmm0, -16(%r12,%rdx)
	jmp	.Lunix_path_BB31_110
.Lunix_path_BB31_86:
	xorl	%eax, %eax
	movq	$0, 72(%rsp)
	xorl	%esi, %esi
	movq	$0, 48(%rsp)
	movq	$0, 64(%rsp)
	testb	$1, 80(%rsp)
	je	.Lunix_path_BB31_60
.Lunix_path_BB31_87:
	movq	%rax, 16(%rsp)
	movq	%rsi, 56(%rsp)
	movq	88(%rsp), %rax
	movq	96(%rsp), %r14
	jmp	.Lunix_path_BB31_63
.Lunix_path_BB31_88:
	testq	%r12, %r12
	je	.Lunix_path_BB31_79
	movzbl	(%r13), %eax
	cmpl	$34, %eax
	je	.Lunix_path_BB31_55
	cmpl	$92, %eax
	je	.Lunix_path_BB31_55
	cmpb	$32, %al
	jb	.Lunix_path_BB31_55
	cmpq	$1, %r12
	je	.Lunix_path_BB31_79
	movzbl	1(%r13), %eax
	cmpl	$34, %eax
	je	.Lunix_path_BB31_55
	cmpl	$92, %eax
	je	.Lunix_path_BB31_55
	cmpb	$32, %al
	jb	.Lunix_path_BB31_55
	cmpq	$2, %r12
	je	.Lunix_path_BB31_79
	movzbl	2(%r13), %eax
	cmpl	$34, %eax
	je	.Lunix_path_BB31_55
	cmpl	$92, %eax
	je	.Lunix_path_BB31_55
	cmpb	$32, %al
	jb	.Lunix_path_BB31_55
	jmp	.Lunix_path_BB31_79
.Lunix_path_BB31_100:
	xorl	%edx, %edx
	movq	%r12, %rsi
	jmp	.Lunix_path_BB31_109
.Lunix_path_BB31_101:
	cmpq	$8, %r12
	jb	.Lunix_path_BB31_112
	movq	(%r13), %rdx
	leaq	(%rax,%rcx), %rsi
	movq	%rdx, (%rax,%rcx)
	movq	-8(%r13,%r12), %rdx
	movq	%rdx, -8(%r12,%rsi)
	jmp	.Lunix_path_BB31_110
.Lunix_path_BB31_103:
	andq	$-4, %rdi
	leaq	(%rax,%rdx), %r8
	addq	$97, %r8
	xorl	%edx, %edx
	.p2align	4
.Lunix_path_BB31_104:
	movups	(%r13,%rdx), %xmm0
	movups	16(%r13,%rdx), %xmm1
	movups	%xmm1, -80(%r8,%rdx)
	movups	%xmm0, -96(%r8,%rdx)
	movups	32(%r13,%rdx), %xmm0
	movups	48(%r13,%rdx), %xmm1
	movups	%xmm1, -48(%r8,%rdx)
	movups	%xmm0, -64(%r8,%rdx)
	movups	64(%r13,%rdx), %xmm0
	movups	80(%r13,%rdx), %xmm1
	movups	%xmm1, -16(%r8,%rdx)
	movups	%xmm0, -32(%r8,%rdx)
	movdqu	96(%r13,%rdx), %xmm0
	movdqu	112(%r13,%rdx), %xmm1
	movdqu	%xmm1, 16(%r8,%rdx)
	movdqu	%xmm0, (%r8,%rdx)
	subq	$-128, %rdx
	addq	$-4, %rdi
	jne	.Lunix_path_BB31_104
	testq	%rsi, %rsi
	je	.Lunix_path_BB31_108
.Lunix_path_BB31_106:
	leaq	(%rax,%rcx), %rdi
	.p2align	4
.Lunix_path_BB31_107:
	movdqu	(%r13,%rdx), %xmm0
	movdqu	16(%r13,%rdx), %xmm1
	movdqu	%xmm1, 16(%rdi,%rdx)
	movdqu	%xmm0, (%rdi,%rdx)
	addq	$32, %rdx
	decq	%rsi
	jne	.Lunix_path_BB31_107
.Lunix_path_BB31_108:
	movq	%r12, %rsi
	subq	%rdx, %rsi
.Lunix_path_BB31_109:
	leaq	(%rdx,%r13), %rdi
	movups	(%r13,%rdx), %xmm0
	movups	16(%r13,%rdx), %xmm1
	addq	%rax, %rdx
	leaq	(%rdx,%rcx), %r8
	movups	%xmm1, 16(%rcx,%rdx)
	movups	%xmm0, (%rcx,%rdx)
	movdqu	-32(%rsi,%rdi), %xmm0
	movdqu	-16(%rsi,%rdi), %xmm1
	movdqu	%xmm1, -16(%rsi,%r8)
	movdqu	%xmm0, -32(%rsi,%r8)
.Lunix_path_BB31_110:
	addq	%r12, %rcx
.Lunix_path_BB31_111:
	addq	%rcx, %rax
	addq	$2, %rcx
	leaq	.Lunix_path_static.42(%rip), %rdx
	movq	%rax, %rsi
	subq	%rdx, %rsi
	cmpq	$1, %rsi
	movw	$14882, (%rax)
	movq	%rcx, 24(%rbx)
	jmp	.Lunix_path_BB31_56
.Lunix_path_BB31_112:
	cmpq	$4, %r12
	jb	.Lunix_path_BB31_114
	movl	(%r13), %edx
	leaq	(%rax,%rcx), %rsi
	movl	%edx, (%rax,%rcx)
	movl	-4(%r13,%r12), %edx
	movl	%edx, -4(%r12,%rsi)
	jmp	.Lunix_path_BB31_110
.Lunix_path_BB31_114:
	cmpq	$2, %r12
	jb	.Lunix_path_BB31_118
	movzwl	(%r13), %edx
	leaq	(%rax,%rcx), %rsi
	movw	%dx, (%rax,%rcx)
	movzwl	-2(%r13,%r12), %edx
	movw	%dx, -2(%r12,%rsi)
	jmp	.Lunix_path_BB31_110
.Lunix_path_BB31_116:
	movq	%rbx, %rdi
	callq	json.write.sink.Sink.grow.2df68bf702f5d045.
	testb	%al, %al
	jne	.Lunix_path_BB31_14
	movq	24(%rbx), %rcx
	jmp	.Lunix_path_BB31_80
.Lunix_path_BB31_118:
	cmpq	$1, %r12
	jne	.Lunix_path_BB31_111
	movzbl	(%r13), %ecx
	movb	%cl, 1(%rax,%rdx)
	addq	$2, %rdx
	movq	%rdx, %rcx
	jmp	.Lunix_path_BB31_111
.Lunix_path_BB31_122:
	movq	8(%rbx), %rcx
	movq	24(%rbx), %rax
	subq	%rax, %rcx
	cmpq	$1, %rcx
	jbe	.Lunix_path_BB31_169
.Lunix_path_BB31_123:
	movq	(%rbx), %rcx
	movb	$125, (%rcx,%rax)
.Lunix_path_BB31_124:
	incq	%rax
.Lunix_path_BB31_125:
	movq	%rax, 24(%rbx)
.Lunix_path_BB31_126:
	movb	$1, 40(%rbx)
	xorl	%eax, %eax
.Lunix_path_BB31_127:
	addq	$136, %rsp
	popq	%rbx
	popq	%r12
	popq	%r13
	popq	%r14
	popq	%r15
	popq	%rbp
	retq
.Lunix_path_BB31_129:
	cmpq	$3, %rcx
	jbe	.Lunix_path_BB31_134
	movd	(%rdx), %xmm0
	movdqa	.Lunix_path_CPI31_3(%rip), %xmm1
	pcmpeqb	%xmm0, %xmm1
	movdqa	.Lunix_path_CPI31_4(%rip), %xmm2
	pcmpeqb	%xmm0, %xmm2
	por	%xmm1, %xmm2
	movdqa	.Lunix_path_CPI31_5(%rip), %xmm1
	pmaxub	%xmm0, %xmm1
	pcmpeqb	%xmm0, %xmm1
	pcmpeqd	%xmm0, %xmm0
	pxor	%xmm0, %xmm1
	por	%xmm2, %xmm1
	punpcklbw	%xmm1, %xmm1
	punpcklwd	%xmm1, %xmm1
	movmskps	%xmm1, %eax
	testl	%eax, %eax
	jne	.Lunix_path_BB31_138
	movd	-4(%rdx,%rcx), %xmm1
	movdqa	.Lunix_path_CPI31_3(%rip), %xmm2
	pcmpeqb	%xmm1, %xmm2
	movdqa	.Lunix_path_CPI31_4(%rip), %xmm3
	pcmpeqb	%xmm1, %xmm3
	por	%xmm2, %xmm3
	movdqa	.Lunix_path_CPI31_5(%rip), %xmm2
	pmaxub	%xmm1, %xmm2
	pcmpeqb	%xmm1, %xmm2
	pxor	%xmm0, %xmm2
	por	%xmm3, %xmm2
	punpcklbw	%xmm2, %xmm2
	punpcklwd	%xmm2, %xmm2
	movmskps	%xmm2, %eax
	testl	%eax, %eax
	jne	.Lunix_path_BB31_138
	jmp	.Lunix_path_BB31_33
.Lunix_path_BB31_132:
	cmpq	$16, %rcx
	jb	.Lunix_path_BB31_146
	movups	(%rdx), %xmm0
	leaq	(%rax,%rsi), %rdi
	movups	%xmm0, (%rax,%rsi)
	movdqu	-16(%rdx,%rcx), %xmm0
	movdqu	%xmm0, -16(%rcx,%rdi)
	jmp	.Lunix_path_BB31_161
.Lunix_path_BB31_134:
	testq	%rcx, %rcx
	je	.Lunix_path_BB31_33
	movzbl	(%rdx), %eax
	cmpl	$34, %eax
	je	.Lunix_path_BB31_138
	cmpl	$92, %eax
	je	.Lunix_path_BB31_138
	cmpb	$32, %al
	jae	.Lunix_path_BB31_173
.Lunix_path_BB31_138:
	leaq	.Lunix_path_static.43(%rip), %r8
	movl	$1, %r9d
	movq	%rbx, %rdi
	callq	json.write.put.put_escaped.2df68bf702f5d045.
	movl	%eax, %ecx
	movb	$1, %al
	testb	%cl, %cl
	jne	.Lunix_path_BB31_127
	jmp	.Lunix_path_BB31_126
.Lunix_path_BB31_139:
	movq	%rdi, %r15
	movl	$2, %esi
	movq	%rbx, %rdi
	callq	json.write.sink.Sink.grow.2df68bf702f5d045.
	movl	%eax, %ecx
	movb	$1, %al
	testb	%cl, %cl
	jne	.Lunix_path_BB31_127
	movq	24(%rbx), %rax
	movq	%r15, %rdi
	jmp	.Lunix_path_BB31_4
.Lunix_path_BB31_141:
	movl	$5, %esi
	movq	%rbx, %rdi
	callq	json.write.sink.Sink.grow.2df68bf702f5d045.
	movl	%eax, %ecx
	movb	$1, %al
	testb	%cl, %cl
	jne	.Lunix_path_BB31_127
	movq	24(%rbx), %rax
	jmp	.Lunix_path_BB31_2
.Lunix_path_BB31_143:
	movq	%rdi, %r15
	movl	$2, %esi
	movq	%rbx, %rdi
	callq	json.write.sink.Sink.grow.2df68bf702f5d045.
	movl	%eax, %ecx
	movb	$1, %al
	testb	%cl, %cl
	jne	.Lunix_path_BB31_127
	movq	24(%rbx), %rax
	movq	%r15, %rdi
	jmp	.Lunix_path_BB31_26
.Lunix_path_BB31_145:
	xorl	%edi, %edi
	movq	%rcx, %r8
	jmp	.Lunix_path_BB31_160
.Lunix_path_BB31_146:
	cmpq	$8, %rcx
	jb	.Lunix_path_BB31_163
	movq	(%rdx), %rdi
	leaq	(%rax,%rsi), %r8
	movq	%rdi, (%rax,%rsi)
	movq	-8(%rdx,%rcx), %rdx
	movq	%rdx, -8(%rcx,%r8)
	jmp	.Lunix_path_BB31_161
.Lunix_path_BB31_148:
	movl	$2, %esi
	movq	%rbx, %rdi
	callq	json.write.sink.Sink.grow.2df68bf702f5d045.
	movl	%eax, %ecx
	movb	$1, %al
	testb	%cl, %cl
	jne	.Lunix_path_BB31_127
	movq	24(%rbx), %rax
	jmp	.Lunix_path_BB31_46
.Lunix_path_BB31_150:
	movl	$5, %esi
	movq	%rbx, %rdi
	callq	json.write.sink.Sink.grow.2df68bf702f5d045.
	movl	%eax, %ecx
	movb	$1, %al
	testb	%cl, %cl
	jne	.Lunix_path_BB31_127
	movq	24(%rbx), %rax
	jmp	.Lunix_path_BB31_24
.Lunix_path_BB31_152:
	movl	$6, %esi
	movq	%rbx, %rdi
	callq	json.write.sink.Sink.grow.2df68bf702f5d045.
	movl	%eax, %ecx
	movb	$1, %al
	testb	%cl, %cl
	jne	.Lunix_path_BB31_127
	movq	24(%rbx), %rax
	jmp	.Lunix_path_BB31_39
.Lunix_path_BB31_154:
	andq	$-4, %r9
	leaq	(%rax,%rdi), %r10
	addq	$97, %r10
	xorl	%edi, %edi
.Lunix_path_BB31_155:
	movups	(%rdx,%rdi), %xmm0
	movups	16(%rdx,%rdi), %xmm1
	movups	%xmm1, -80(%r10,%rdi)
	movups	%xmm0, -96(%r10,%rdi)
	movups	32(%rdx,%rdi), %xmm0
	movups	48(%rdx,%rdi), %xmm1
	movups	%xmm1, -48(%r10,%rdi)
	movups	%xmm0, -64(%r10,%rdi)
	movups	64(%rdx,%rdi), %xmm0
	movups	80(%rdx,%rdi), %xmm1
	movups	%xmm1, -16(%r10,%rdi)
	movups	%xmm0, -32(%r10,%rdi)
	movdqu	96(%rdx,%rdi), %xmm0
	movdqu	112(%rdx,%rdi), %xmm1
	movdqu	%xmm1, 16(%r10,%rdi)
	movdqu	%xmm0, (%r10,%rdi)
	subq	$-128, %rdi
	addq	$-4, %r9
	jne	.Lunix_path_BB31_155
	testq	%r8, %r8
	je	.Lunix_path_BB31_159
.Lunix_path_BB31_157:
	leaq	(%rax,%rsi), %r9
	.p2align	4
.Lunix_path_BB31_158:
	movdqu	(%rdx,%rdi), %xmm0
	movdqu	16(%rdx,%rdi), %xmm1
	movdqu	%xmm1, 16(%r9,%rdi)
	movdqu	%xmm0, (%r9,%rdi)
	addq	$32, %rdi
	decq	%r8
	jne	.Lunix_path_BB31_158
.Lunix_path_BB31_159:
	movq	%rcx, %r8
	subq	%rdi, %r8
.Lunix_path_BB31_160:
	leaq	(%rdx,%rdi), %r9
	movups	(%rdx,%rdi), %xmm0
	movups	16(%rdx,%rdi), %xmm1
	addq	%rax, %rdi
	leaq	(%rdi,%rsi), %rdx
	movups	%xmm1, 16(%rsi,%rdi)
	movups	%xmm0, (%rsi,%rdi)
	movdqu	-32(%r8,%r9), %xmm0
	movdqu	-16(%r8,%r9), %xmm1
	movdqu	%xmm1, -16(%r8,%rdx)
	movdqu	%xmm0, -32(%r8,%rdx)
.Lunix_path_BB31_161:
	addq	%rcx, %rsi
.Lunix_path_BB31_162:
	movb	$34, (%rax,%rsi)
	incq	%rsi
	movq	%rsi, 24(%rbx)
	jmp	.Lunix_path_BB31_126
.Lunix_path_BB31_163:
	cmpq	$4, %rcx
	jb	.Lunix_path_BB31_165
	movl	(%rdx), %edi
	leaq	(%rax,%rsi), %r8
	movl	%edi, (%rax,%rsi)
	movl	-4(%rdx,%rcx), %edx
	movl	%edx, -4(%rcx,%r8)
	jmp	.Lunix_path_BB31_161
.Lunix_path_BB31_165:
	cmpq	$2, %rcx
	jb	.Lunix_path_BB31_171
	movzwl	(%rdx), %edi
	leaq	(%rax,%rsi), %r8
	movw	%di, (%rax,%rsi)
	movzwl	-2(%rdx,%rcx), %edx
	movw	%dx, -2(%rcx,%r8)
	jmp	.Lunix_path_BB31_161
.Lunix_path_BB31_167:
	movq	%rsi, %r14
	movq	%rdx, %r15
	movq	%rcx, %r12
	movq	%rbx, %rdi
	movq	%rax, %rsi
	callq	json.write.sink.Sink.grow.2df68bf702f5d045.
	movl	%eax, %ecx
	movb	$1, %al
	testb	%cl, %cl
	jne	.Lunix_path_BB31_127
	movq	24(%rbx), %r8
	movq	%r12, %rcx
	movq	%r15, %rdx
	movq	%r14, %rsi
	jmp	.Lunix_path_BB31_34
.Lunix_path_BB31_169:
	movl	$2, %esi
	movq	%rbx, %rdi
	callq	json.write.sink.Sink.grow.2df68bf702f5d045.
	movl	%eax, %ecx
	movb	$1, %al
	testb	%cl, %cl
	jne	.Lunix_path_BB31_127
	movq	24(%rbx), %rax
	jmp	.Lunix_path_BB31_123
.Lunix_path_BB31_171:
	cmpq	$1, %rcx
	jne	.Lunix_path_BB31_162
	movzbl	(%rdx), %ecx
	movb	%cl, 1(%rax,%rdi)
	addq	$2, %rdi
	movq	%rdi, %rsi
	jmp	.Lunix_path_BB31_162
.Lunix_path_BB31_173:
	cmpq	$1, %rcx
	je	.Lunix_path_BB31_33
	movzbl	1(%rdx), %eax
	cmpl	$34, %eax
	je	.Lunix_path_BB31_138
	cmpl	$92, %eax
	je	.Lunix_path_BB31_138
	cmpb	$32, %al
	jb	.Lunix_path_BB31_138
	cmpq	$2, %rcx
	je	.Lunix_path_BB31_33
	movzbl	2(%rdx), %eax
	cmpl	$34, %eax
	je	.Lunix_path_BB31_138
	cmpl	$92, %eax
	je	.Lunix_path_BB31_138
	cmpb	$32, %al
	jae	.Lunix_path_BB31_33
	jmp	.Lunix_path_BB31_138
.Lunix_path_func_end31:
	.size	serde_json.ser.write.d02ee1697995db96., .Lunix_path_func_end31-serde_json.ser.write.d02ee1697995db96.
	.section	.rodata.serde_json.ser.write.d02ee1697995db96.,"a",@progbits
	.p2align	2, 0x0
.Lunix_path_JTI31_0:
	.long	.Lunix_path_BB31_1-.Lunix_path_JTI31_0
	.long	.Lunix_path_BB31_22-.Lunix_path_JTI31_0
	.long	.Lunix_path_BB31_15-.Lunix_path_JTI31_0
	.long	.Lunix_path_BB31_18-.Lunix_path_JTI31_0
	.long	.Lunix_path_BB31_3-.Lunix_path_JTI31_0
	.long	.Lunix_path_BB31_25-.Lunix_path_JTI31_0
	.section	.text.serde_json.number.write_positive.d02ee1697995db96.,"ax",@progbits
	.p2align	4
	.type	serde_json.number.write_positive.d02ee1697995db96.,@function
# serde_json::number::write_positive::<#d02ee1697995db96>
serde_json.number.write_positive.d02ee1697995db96.:
	pushq	%rbp
	pushq	%r15
	pushq	%r14
	pushq	%r13
	pushq	%r12
	pushq	%rbx
	subq	$56, %rsp
	xorps	%xmm0, %xmm0
	movaps	%xmm0, 16(%rsp)
	movaps	%xmm0, (%rsp)
	movq	$0, 32(%rsp)
	movl	$40, %r15d
	cmpq	$10000, %rdi
	jb	.Lunix_path_BB32_1
	.p2align	4
.Lunix_path_BB32_2:
	movabsq	$3777893186295716171, %rcx
	movq	%rdi, %rax
	mulq	%rcx
	shrq	$11, %rdx
	imull	$10000, %edx, %eax
	movl	%edi, %ecx
	subl	%eax, %ecx
	imull	$5243, %ecx, %eax
	shrl	$19, %eax
	imull	$100, %eax, %r8d
	subl	%r8d, %ecx
	movzwl	%cx, %ecx
	leaq	.Lunix_path_static.36(%rip), %r8
	movzwl	(%r8,%rcx,2), %ecx
	movw	%cx, -2(%rsp,%r15)
	movzwl	(%r8,%rax,2), %eax
	movw	%ax, -4(%rsp,%r15)
	addq	$-4, %r15
	cmpq	$99999999, %rdi
	movq	%rdx, %rdi
	ja	.Lunix_path_BB32_2
	cmpq	$99, %rdx
	ja	.Lunix_path_BB32_7
.Lunix_path_BB32_4:
	cmpq	$9, %rdx
	ja	.Lunix_path_BB32_6
	orb	$48, %dl
	movb	%dl, -1(%rsp,%r15)
	decq	%r15
	jmp	.Lunix_path_BB32_10
.Lunix_path_BB32_1:
	movq	%rdi, %rdx
	cmpq	$99, %rdx
	jbe	.Lunix_path_BB32_4
.Lunix_path_BB32_7:
	movl	%edx, %eax
	shrl	$2, %eax
	movzwl	%ax, %eax
	imull	$5243, %eax, %eax
	shrl	$17, %eax
	imull	$100, %eax, %ecx
	movl	%edx, %edi
	subl	%ecx, %edi
	movzwl	%di, %edi
	leaq	.Lunix_path_static.36(%rip), %rcx
	movzwl	(%rcx,%rdi,2), %edi
	movw	%di, -2(%rsp,%r15)
	cmpq	$999, %rdx
	ja	.Lunix_path_BB32_9
	orb	$48, %al
	movb	%al, -3(%rsp,%r15)
	addq	$-3, %r15
	movl	%eax, %edx
	jmp	.Lunix_path_BB32_10
.Lunix_path_BB32_6:
	leaq	.Lunix_path_static.36(%rip), %rax
	movzbl	1(%rax,%rdx,2), %ecx
	movzbl	(%rax,%rdx,2), %eax
	movb	%al, -2(%rsp,%r15)
	movb	%cl, -1(%rsp,%r15)
	addq	$-2, %r15
	movl	%eax, %edx
	jmp	.Lunix_path_BB32_10
.Lunix_path_BB32_9:
	movzwl	%ax, %eax
	movzbl	(%rcx,%rax,2), %edx
	movzbl	1(%rcx,%rax,2), %eax
	movb	%dl, -4(%rsp,%r15)
	movb	%al, -3(%rsp,%r15)
	addq	$-4, %r15
.Lunix_path_BB32_10:
	movzbl	40(%rsi), %r12d
	movl	$41, %eax
	subq	%r15, %rax
	movq	8(%rsi), %rdi
	movq	24(%rsi), %rcx
	subq	%rcx, %rdi
	cmpq	%rdi, %rax
	ja	.Lunix_path_BB32_11
.Lunix_path_BB32_13:
	movl	$40, %ebp
	subq	%r15, %rbp
	movq	(%rsi), %r13
	movb	$44, (%r13,%rcx)
	addq	%rcx, %r12
	cmpq	$33, %rbp
	jb	.Lunix_path_BB32_18
	leaq	(%rsp,%r15), %rdx
	cmpq	$65, %rbp
	jb	.Lunix_path_BB32_15
	leaq	(%r12,%r13), %rdi
	movq	$-25, %rbx
	subq	%r15, %rbx
	andq	$-32, %rbx
	leaq	32(%rbx), %r14
	movq	%rsi, 48(%rsp)
	movq	%rdx, %rsi
	movq	%r14, %rdx
	callq	memcpy@PLT
	leaq	(%rsp,%r15), %rdx
	movq	48(%rsp), %rsi
	addq	%r15, %rbx
	movl	$8, %eax
	subq	%rbx, %rax
	jmp	.Lunix_path_BB32_17
.Lunix_path_BB32_18:
	cmpq	$16, %rbp
	jb	.Lunix_path_BB32_20
	movups	(%rsp,%r15), %xmm0
	movups	%xmm0, (%r13,%r12)
	subq	%r15, %r12
	movups	24(%rsp), %xmm0
	movups	%xmm0, 24(%r13,%r12)
	addq	$40, %r12
	jmp	.Lunix_path_BB32_28
.Lunix_path_BB32_15:
	xorl	%r14d, %r14d
	movq	%rbp, %rax
.Lunix_path_BB32_17:
	leaq	(%rdx,%r14), %rcx
	movups	(%rdx,%r14), %xmm0
	movups	16(%rdx,%r14), %xmm1
	addq	%r14, %r13
	leaq	(%r12,%r13), %rdx
	movups	%xmm1, 16(%r12,%r13)
	movups	%xmm0, (%r12,%r13)
	movups	-32(%rax,%rcx), %xmm0
	movups	-16(%rax,%rcx), %xmm1
	movups	%xmm1, -16(%rax,%rdx)
	movups	%xmm0, -32(%rax,%rdx)
	addq	%rbp, %r12
.Lunix_path_BB32_28:
	movq	%r12, 24(%rsi)
	movb	$1, 40(%rsi)
	xorl	%eax, %eax
.Lunix_path_BB32_29:
	addq	$56, %rsp
	popq	%rbx
	popq	%r12
	popq	%r13
	popq	%r14
	popq	%r15
	popq	%rbp
	retq
.Lunix_path_BB32_20:
	cmpq	$8, %rbp
	jb	.Lunix_path_BB32_22
	movq	(%rsp,%r15), %rax
	movq	%rax, (%r13,%r12)
	subq	%r15, %r12
	movq	32(%rsp), %rax
	movq	%rax, 32(%r13,%r12)
	addq	$40, %r12
	jmp	.Lunix_path_BB32_28
.Lunix_path_BB32_22:
	cmpq	$4, %rbp
	jb	.Lunix_path_BB32_24
	movl	(%rsp,%r15), %eax
	movl	%eax, (%r13,%r12)
	subq	%r15, %r12
	movl	36(%rsp), %eax
	movl	%eax, 36(%r13,%r12)
	addq	$40, %r12
	jmp	.Lunix_path_BB32_28
.Lunix_path_BB32_24:
	cmpq	$2, %rbp
	jb	.Lunix_path_BB32_26
	movzwl	(%rsp,%r15), %eax
	movw	%ax, (%r13,%r12)
	subq	%r15, %r12
	movzwl	38(%rsp), %eax
	movw	%ax, 38(%r13,%r12)
	addq	$40, %r12
	jmp	.Lunix_path_BB32_28
.Lunix_path_BB32_11:
	movq	%rdx, %rbx
	movq	%rsi, %r14
	movq	%rsi, %rdi
	movq	%rax, %rsi
	callq	json.write.sink.Sink.grow.2df68bf702f5d045.
	movl	%eax, %ecx
	movb	$1, %al
	testb	%cl, %cl
	jne	.Lunix_path_BB32_29
	movq	%r14, %rsi
	movq	24(%r14), %rcx
	movq	%rbx, %rdx
	jmp	.Lunix_path_BB32_13
.Lunix_path_BB32_26:
	cmpq	$39, %r15
	jne	.Lunix_path_BB32_28
	movb	%dl, (%r13,%r12)
	incq	%r12
	jmp	.Lunix_path_BB32_28
.Lunix_path_func_end32:
	.size	serde_json.number.write_positive.d02ee1697995db96., .Lunix_path_func_end32-serde_json.number.write_positive.d02ee1697995db96.
	.section	.rodata.cst16,"aM",@progbits,16
	.p2align	4, 0x0
.Lunix_path_CPI33_0:
	.zero	16,34
.Lunix_path_CPI33_1:
	.zero	16,92
.Lunix_path_CPI33_2:
	.zero	16,31
	.section	.text.json.write.put.put_escaped.2df68bf702f5d045.,"ax",@progbits
	.p2align	4
	.type	json.write.put.put_escaped.2df68bf702f5d045.,@function
# json::write::put::put_escaped::<#2df68bf702f5d045>
json.write.put.put_escaped.2df68bf702f5d045.:
	pushq	%rbp
	pushq	%r15
	pushq	%r14
	pushq	%r13
	pushq	%r12
	pushq	%rbx
	subq	$56, %rsp
	movq	%r9, 32(%rsp)
	movq	%r8, 24(%rsp)
	movq	%rcx, %r12
	movq	%rdx, %r13
	movq	%rdi, %rbx
	movq	24(%rdi), %rax
	movw	$0, 4(%rsp)
	movl	$0, (%rsp)
	movq	8(%rdi), %rcx
	subq	%rax, %rcx
	movq	%rax, 40(%rsp)
	cmpq	$1, %rcx
	movq	%rdx, 8(%rsp)
	jbe	.Lunix_path_BB33_1
.Lunix_path_BB33_3:
	movq	(%rbx), %rcx
	movb	$44, (%rcx,%rax)
	movzbl	%sil, %edx
	leaq	(%rax,%rdx), %rsi
	leaq	(%rax,%rdx), %r15
	incq	%r15
	movb	$34, (%rcx,%rsi)
	movq	%r15, 24(%rbx)
	xorl	%r14d, %r14d
	jmp	.Lunix_path_BB33_4
	.p2align	4
.Lunix_path_BB33_52:
	movl	(%rsp), %edx
	movl	%edx, (%rcx,%r15)
	addq	%r15, %rcx
	movl	-4(%rsp,%rbp), %edx
	movl	%edx, -4(%rbp,%rcx)
	movq	8(%rsp), %r13
.Lunix_path_BB33_56:
	addq	%rbp, %r15
	movq	%r15, 24(%rbx)
	incq	%rax
	movq	%rax, %r14
.Lunix_path_BB33_4:
	movq	%r12, %rax
	subq	%r14, %rax
	movq	%r14, %rdx
	cmpq	$32, %rax
	jb	.Lunix_path_BB33_10
	movq	%r14, %rdx
	negq	%rdx
	leaq	(%r14,%r13), %rax
	.p2align	4
.Lunix_path_BB33_6:
	movdqu	(%rax), %xmm0
	movdqu	16(%rax), %xmm1
	movdqa	.Lunix_path_CPI33_0(%rip), %xmm2
	movdqa	%xmm1, %xmm3
	movdqa	.Lunix_path_CPI33_2(%rip), %xmm4
	movdqa	%xmm0, %xmm5
	pminub	%xmm4, %xmm5
	pminub	%xmm1, %xmm4
	pcmpeqb	%xmm1, %xmm4
	pcmpeqb	%xmm2, %xmm1
	movdqa	.Lunix_path_CPI33_1(%rip), %xmm6
	pcmpeqb	%xmm6, %xmm3
	por	%xmm1, %xmm3
	pcmpeqb	%xmm0, %xmm2
	pcmpeqb	%xmm0, %xmm6
	por	%xmm2, %xmm6
	pcmpeqb	%xmm0, %xmm5
	por	%xmm6, %xmm5
	por	%xmm3, %xmm4
	pmovmskb	%xmm5, %esi
	pmovmskb	%xmm4, %ecx
	shll	$16, %ecx
	orl	%esi, %ecx
	jne	.Lunix_path_BB33_7
	leaq	(%r12,%rdx), %rcx
	addq	$-32, %rcx
	addq	$-32, %rdx
	addq	$32, %rax
	cmpq	$31, %rcx
	ja	.Lunix_path_BB33_6
	negq	%rdx
.Lunix_path_BB33_10:
	movq	%r13, %rdi
	movq	%r12, %rsi
	callq	json.run.plain_end_16
	jmp	.Lunix_path_BB33_11
	.p2align	4
.Lunix_path_BB33_7:
	rep		bsfl	%ecx, %eax
	subq	%rdx, %rax
.Lunix_path_BB33_11:
	movq	%rax, %rbp
	subq	%r14, %rbp
	movq	8(%rbx), %rcx
	subq	%r15, %rcx
	cmpq	%rcx, %rbp
	ja	.Lunix_path_BB33_12
	addq	%r13, %r14
	movq	(%rbx), %rcx
	cmpq	$33, %rbp
	jb	.Lunix_path_BB33_20
.Lunix_path_BB33_15:
	cmpq	$65, %rbp
	jb	.Lunix_path_BB33_16
	leaq	(%rcx,%r15), %rdi
	xorl	%esi, %esi
	movq	%rbp, %rdx
	.p2align	4
.Lunix_path_BB33_18:
	movdqu	(%r14,%rsi), %xmm0
	movdqu	16(%r14,%rsi), %xmm1
	movdqu	%xmm1, 16(%rdi,%rsi)
	movdqu	%xmm0, (%rdi,%rsi)
	addq	$32, %rsi
	addq	$-32, %rdx
	cmpq	$64, %rdx
	ja	.Lunix_path_BB33_18
	jmp	.Lunix_path_BB33_19
	.p2align	4
.Lunix_path_BB33_16:
	xorl	%esi, %esi
	movq	%rbp, %rdx
.Lunix_path_BB33_19:
	leaq	(%r14,%rsi), %rdi
	movups	(%r14,%rsi), %xmm0
	movups	16(%r14,%rsi), %xmm1
	addq	%rsi, %rcx
	leaq	(%rcx,%r15), %rsi
	movups	%xmm1, 16(%r15,%rcx)
	movups	%xmm0, (%r15,%rcx)
	movdqu	-32(%rdx,%rdi), %xmm0
	movdqu	-16(%rdx,%rdi), %xmm1
	movdqu	%xmm1, -16(%rdx,%rsi)
	movdqu	%xmm0, -32(%rdx,%rsi)
	addq	%rbp, %r15
	jmp	.Lunix_path_BB33_30
.Lunix_path_BB33_12:
	movq	%rax, %r13
	movq	%rbx, %rdi
	movq	%rbp, %rsi
	callq	json.write.sink.Sink.grow.2df68bf702f5d045.
	testb	%al, %al
	jne	.Lunix_path_BB33_59
	movq	24(%rbx), %r15
	movq	%r13, %rax
	movq	8(%rsp), %r13
	addq	%r13, %r14
	movq	(%rbx), %rcx
	cmpq	$33, %rbp
	jae	.Lunix_path_BB33_15
	.p2align	4
.Lunix_path_BB33_20:
	cmpq	$16, %rbp
	jb	.Lunix_path_BB33_22
	movups	(%r14), %xmm0
	movups	%xmm0, (%rcx,%r15)
	addq	%r15, %rcx
	movdqu	-16(%r14,%rbp), %xmm0
	movdqu	%xmm0, -16(%rbp,%rcx)
	addq	%rbp, %r15
	jmp	.Lunix_path_BB33_30
	.p2align	4
.Lunix_path_BB33_22:
	cmpq	$8, %rbp
	jb	.Lunix_path_BB33_24
	movq	(%r14), %rdx
	movq	%rdx, (%rcx,%r15)
	addq	%r15, %rcx
	movq	-8(%r14,%rbp), %rdx
	movq	%rdx, -8(%rbp,%rcx)
	addq	%rbp, %r15
	jmp	.Lunix_path_BB33_30
.Lunix_path_BB33_24:
	cmpq	$4, %rbp
	jb	.Lunix_path_BB33_26
	movl	(%r14), %edx
	movl	%edx, (%rcx,%r15)
	addq	%r15, %rcx
	movl	-4(%r14,%rbp), %edx
	movl	%edx, -4(%rbp,%rcx)
	addq	%rbp, %r15
	jmp	.Lunix_path_BB33_30
.Lunix_path_BB33_26:
	cmpq	$2, %rbp
	jb	.Lunix_path_BB33_28
	movzwl	(%r14), %edx
	movw	%dx, (%rcx,%r15)
	addq	%r15, %rcx
	movzwl	-2(%r14,%rbp), %edx
	movw	%dx, -2(%rbp,%rcx)
	addq	%rbp, %r15
	jmp	.Lunix_path_BB33_30
.Lunix_path_BB33_28:
	cmpq	$1, %rbp
	jne	.Lunix_path_BB33_30
	movzbl	(%r14), %edx
	movb	%dl, (%rcx,%r15)
	incq	%r15
	.p2align	4
.Lunix_path_BB33_30:
	movq	%r15, 24(%rbx)
	cmpq	%r12, %rax
	je	.Lunix_path_BB33_31
	movzbl	(%r13,%rax), %ecx
	movzbl	%cl, %esi
	movl	$2, %ebp
	movb	$1, %r8b
	movb	$92, %r14b
	xorl	%r13d, %r13d
	xorl	%edx, %edx
	leal	-8(%rsi), %edi
	cmpl	$26, %edi
	ja	.Lunix_path_BB33_37
	leaq	.Lunix_path_JTI33_0(%rip), %rsi
	movslq	(%rsi,%rdi,4), %rdi
	addq	%rsi, %rdi
	jmpq	*%rdi
.Lunix_path_BB33_39:
	movb	$98, %cl
	jmp	.Lunix_path_BB33_40
.Lunix_path_BB33_37:
	cmpl	$92, %esi
	jne	.Lunix_path_BB33_45
.Lunix_path_BB33_38:
	xorl	%esi, %esi
	xorl	%edi, %edi
	jmp	.Lunix_path_BB33_48
.Lunix_path_BB33_45:
	cmpb	$31, %cl
	ja	.Lunix_path_BB33_46
	movl	%ecx, %esi
	shrb	$4, %sil
	orb	$48, %sil
	movl	%ecx, %edx
	andb	$15, %dl
	orb	$48, %cl
	leal	87(%rdx), %edi
	cmpb	$10, %dl
	movzbl	%cl, %ecx
	movzbl	%dil, %edi
	cmovbl	%ecx, %edi
	movl	$6, %ebp
	movb	$1, %r13b
	movb	$48, %dl
	movb	$117, %cl
	movb	$1, %r8b
	jmp	.Lunix_path_BB33_48
.Lunix_path_BB33_44:
	movb	$116, %cl
	jmp	.Lunix_path_BB33_40
.Lunix_path_BB33_43:
	movb	$114, %cl
	jmp	.Lunix_path_BB33_40
.Lunix_path_BB33_42:
	movb	$110, %cl
	jmp	.Lunix_path_BB33_40
.Lunix_path_BB33_41:
	movb	$102, %cl
	.p2align	4
.Lunix_path_BB33_40:
	xorl	%edx, %edx
	xorl	%esi, %esi
	xorl	%edi, %edi
	xorl	%r13d, %r13d
.Lunix_path_BB33_48:
	movb	%r14b, (%rsp)
	movb	%cl, 1(%rsp)
	movb	%dl, 2(%rsp)
	movb	%dl, 3(%rsp)
	movb	%sil, 4(%rsp)
	movb	%dil, 5(%rsp)
	movq	8(%rbx), %rcx
	subq	%r15, %rcx
	cmpq	%rcx, %rbp
	ja	.Lunix_path_BB33_49
	movq	(%rbx), %rcx
	testb	%r13b, %r13b
	jne	.Lunix_path_BB33_52
.Lunix_path_BB33_53:
	testb	%r8b, %r8b
	movq	8(%rsp), %r13
	je	.Lunix_path_BB33_55
	movl	(%rsp), %edx
	movw	%dx, (%rcx,%r15)
	addq	%r15, %rcx
	movzwl	-2(%rsp,%rbp), %edx
	movw	%dx, -2(%rbp,%rcx)
	jmp	.Lunix_path_BB33_56
	.p2align	4
.Lunix_path_BB33_55:
	movb	%r14b, (%rcx,%r15)
	movl	$1, %ebp
	jmp	.Lunix_path_BB33_56
.Lunix_path_BB33_46:
	movl	$1, %ebp
	xorl	%edx, %edx
	movl	%ecx, %r14d
	xorl	%ecx, %ecx
	xorl	%esi, %esi
	xorl	%edi, %edi
	xorl	%r13d, %r13d
	xorl	%r8d, %r8d
	jmp	.Lunix_path_BB33_48
.Lunix_path_BB33_49:
	movl	%r8d, 20(%rsp)
	movq	%rax, 48(%rsp)
	movq	%rbx, %rdi
	movq	%rbp, %rsi
	callq	json.write.sink.Sink.grow.2df68bf702f5d045.
	testb	%al, %al
	jne	.Lunix_path_BB33_59
	movq	24(%rbx), %r15
	movq	48(%rsp), %rax
	movl	20(%rsp), %r8d
	movq	(%rbx), %rcx
	testb	%r13b, %r13b
	jne	.Lunix_path_BB33_52
	jmp	.Lunix_path_BB33_53
.Lunix_path_BB33_31:
	movq	8(%rbx), %rax
	subq	%r15, %rax
	movq	32(%rsp), %rsi
	cmpq	%rax, %rsi
	ja	.Lunix_path_BB33_32
	movq	(%rbx), %rax
	cmpq	$2, %rsi
	jb	.Lunix_path_BB33_57
.Lunix_path_BB33_35:
	movq	24(%rsp), %rdx
	movzwl	(%rdx), %ecx
	movw	%cx, (%rax,%r15)
	movzwl	(%rdx), %ecx
	movw	%cx, (%rax,%r15)
	addq	$2, %r15
	jmp	.Lunix_path_BB33_58
.Lunix_path_BB33_1:
	movl	%esi, %ebp
	movl	$2, %esi
	movq	%rbx, %rdi
	callq	json.write.sink.Sink.grow.2df68bf702f5d045.
	testb	%al, %al
	jne	.Lunix_path_BB33_59
	movq	24(%rbx), %rax
	movl	%ebp, %esi
	movq	8(%rsp), %r13
	jmp	.Lunix_path_BB33_3
.Lunix_path_BB33_32:
	movq	%rbx, %rdi
	callq	json.write.sink.Sink.grow.2df68bf702f5d045.
	testb	%al, %al
	je	.Lunix_path_BB33_33
.Lunix_path_BB33_59:
	movb	$1, %al
	movq	40(%rsp), %rcx
	cmpq	24(%rbx), %rcx
	jae	.Lunix_path_BB33_61
	movq	%rcx, 24(%rbx)
	jmp	.Lunix_path_BB33_61
.Lunix_path_BB33_33:
	movq	24(%rbx), %r15
	movq	32(%rsp), %rsi
	movq	(%rbx), %rax
	cmpq	$2, %rsi
	jae	.Lunix_path_BB33_35
.Lunix_path_BB33_57:
	movq	24(%rsp), %rcx
	movzbl	(%rcx), %ecx
	movb	%cl, (%rax,%r15)
	incq	%r15
.Lunix_path_BB33_58:
	movq	%r15, 24(%rbx)
	xorl	%eax, %eax
.Lunix_path_BB33_61:
	addq	$56, %rsp
	popq	%rbx
	popq	%r12
	popq	%r13
	popq	%r14
	popq	%r15
	popq	%rbp
	retq
.Lunix_path_func_end33:
	.size	json.write.put.put_escaped.2df68bf702f5d045., .Lunix_path_func_end33-json.write.put.put_escaped.2df68bf702f5d045.
	.section	.rodata.json.write.put.put_escaped.2df68bf702f5d045.,"a",@progbits
	.p2align	2, 0x0
.Lunix_path_JTI33_0:
	.long	.Lunix_path_BB33_39-.Lunix_path_JTI33_0
	.long	.Lunix_path_BB33_44-.Lunix_path_JTI33_0
	.long	.Lunix_path_BB33_42-.Lunix_path_JTI33_0
	.long	.Lunix_path_BB33_45-.Lunix_path_JTI33_0
	.long	.Lunix_path_BB33_41-.Lunix_path_JTI33_0
	.long	.Lunix_path_BB33_43-.Lunix_path_JTI33_0
	.long	.Lunix_path_BB33_45-.Lunix_path_JTI33_0
	.long	.Lunix_path_BB33_45-.Lunix_path_JTI33_0
	.long	.Lunix_path_BB33_45-.Lunix_path_JTI33_0
	.long	.Lunix_path_BB33_45-.Lunix_path_JTI33_0
	.long	.Lunix_path_BB33_45-.Lunix_path_JTI33_0
	.long	.Lunix_path_BB33_45-.Lunix_path_JTI33_0
	.long	.Lunix_path_BB33_45-.Lunix_path_JTI33_0
	.long	.Lunix_path_BB33_45-.Lunix_path_JTI33_0
	.long	.Lunix_path_BB33_45-.Lunix_path_JTI33_0
	.long	.Lunix_path_BB33_45-.Lunix_path_JTI33_0
	.long	.Lunix_path_BB33_45-.Lunix_path_JTI33_0
	.long	.Lunix_path_BB33_45-.Lunix_path_JTI33_0
	.long	.Lunix_path_BB33_45-.Lunix_path_JTI33_0
	.long	.Lunix_path_BB33_45-.Lunix_path_JTI33_0
	.long	.Lunix_path_BB33_45-.Lunix_path_JTI33_0
	.long	.Lunix_path_BB33_45-.Lunix_path_JTI33_0
	.long	.Lunix_path_BB33_45-.Lunix_path_JTI33_0
	.long	.Lunix_path_BB33_45-.Lunix_path_JTI33_0
	.long	.Lunix_path_BB33_45-.Lunix_path_JTI33_0
	.long	.Lunix_path_BB33_45-.Lunix_path_JTI33_0
	.long	.Lunix_path_BB33_38-.Lunix_path_JTI33_0
	.section	.rodata.cst16,"aM",@progbits,16
	.p2align	4, 0x0
.Lunix_path_CPI34_0:
	.zero	16,34
.Lunix_path_CPI34_1:
	.zero	16,92
.Lunix_path_CPI34_2:
	.zero	16,31
.Lunix_path_CPI34_3:
	.byte	34
	.byte	34
	.byte	34
	.byte	34
	.byte	34
	.byte	34
	.byte	34
	.byte	34
	.zero	1
	.zero	1
	.zero	1
	.zero	1
	.zero	1
	.zero	1
	.zero	1
	.zero	1
.Lunix_path_CPI34_4:
	.byte	92
	.byte	92
	.byte	92
	.byte	92
	.byte	92
	.byte	92
	.byte	92
	.byte	92
	.zero	1
	.zero	1
	.zero	1
	.zero	1
	.zero	1
	.zero	1
	.zero	1
	.zero	1
.Lunix_path_CPI34_5:
	.byte	32
	.byte	32
	.byte	32
	.byte	32
	.byte	32
	.byte	32
	.byte	32
	.byte	32
	.zero	1
	.zero	1
	.zero	1
	.zero	1
	.zero	1
	.zero	1
	.zero	1
	.zero	1
	.section	.text.json.run.plain_end_16,"ax",@progbits
	.p2align	4
	.type	json.run.plain_end_16,@function
# json::run::plain_end_16
json.run.plain_end_16:
	movq	%rdx, %rax
	movq	%rsi, %rcx
	subq	%rdx, %rcx
	cmpq	$16, %rcx
	jae	.Lunix_path_BB34_8
	cmpq	$7, %rcx
	ja	.Lunix_path_BB34_16
	cmpq	%rax, %rsi
	jbe	.Lunix_path_BB34_19
	.p2align	4
.Lunix_path_BB34_3:
	movzbl	(%rdi,%rax), %ecx
	cmpl	$34, %ecx
	je	.Lunix_path_BB34_19
	cmpl	$92, %ecx
	je	.Lunix_path_BB34_19
	cmpb	$32, %cl
	jb	.Lunix_path_BB34_19
	incq	%rax
	cmpq	%rax, %rsi
	jne	.Lunix_path_BB34_3
	movq	%rsi, %rax
	retq
.Lunix_path_BB34_8:
	movdqu	(%rdi,%rax), %xmm0
	movdqa	.Lunix_path_CPI34_0(%rip), %xmm1
	pcmpeqb	%xmm0, %xmm1
	movdqa	.Lunix_path_CPI34_1(%rip), %xmm2
	pcmpeqb	%xmm0, %xmm2
	por	%xmm1, %xmm2
	movdqa	.Lunix_path_CPI34_2(%rip), %xmm1
	pminub	%xmm0, %xmm1
	pcmpeqb	%xmm0, %xmm1
	por	%xmm2, %xmm1
	pmovmskb	%xmm1, %ecx
	testl	%ecx, %ecx
	jne	.Lunix_path_BB34_18
	leaq	16(%rax), %rcx
	movq	%rsi, %rdx
	subq	%rcx, %rdx
	cmpq	$7, %rdx
	ja	.Lunix_path_BB34_20
	cmpq	%rcx, %rsi
	jbe	.Lunix_path_BB34_28
	.p2align	4
.Lunix_path_BB34_11:
	movzbl	(%rdi,%rcx), %eax
	cmpl	$34, %eax
	je	.Lunix_path_BB34_28
	cmpl	$92, %eax
	je	.Lunix_path_BB34_28
	cmpb	$32, %al
	jb	.Lunix_path_BB34_28
	incq	%rcx
	cmpq	%rcx, %rsi
	jne	.Lunix_path_BB34_11
	movq	%rsi, %rax
	retq
.Lunix_path_BB34_16:
	movq	(%rdi,%rax), %xmm0
	movdqa	.Lunix_path_CPI34_3(%rip), %xmm1
	pcmpeqb	%xmm0, %xmm1
	movdqa	.Lunix_path_CPI34_4(%rip), %xmm2
	pcmpeqb	%xmm0, %xmm2
	por	%xmm1, %xmm2
	movdqa	.Lunix_path_CPI34_5(%rip), %xmm1
	pmaxub	%xmm0, %xmm1
	pcmpeqb	%xmm0, %xmm1
	pcmpeqd	%xmm0, %xmm0
	pxor	%xmm1, %xmm0
	por	%xmm2, %xmm0
	pmovmskb	%xmm0, %ecx
	testb	%cl, %cl
	je	.Lunix_path_BB34_22
	movzbl	%cl, %ecx
.Lunix_path_BB34_18:
	rep		bsfl	%ecx, %ecx
	addq	%rcx, %rax
.Lunix_path_BB34_19:
	retq
.Lunix_path_BB34_20:
	movq	(%rdi,%rcx), %xmm0
	movdqa	.Lunix_path_CPI34_3(%rip), %xmm1
	pcmpeqb	%xmm0, %xmm1
	movdqa	.Lunix_path_CPI34_4(%rip), %xmm2
	pcmpeqb	%xmm0, %xmm2
	por	%xmm1, %xmm2
	movdqa	.Lunix_path_CPI34_5(%rip), %xmm1
	pmaxub	%xmm0, %xmm1
	pcmpeqb	%xmm0, %xmm1
	pcmpeqd	%xmm0, %xmm0
	pxor	%xmm1, %xmm0
	por	%xmm2, %xmm0
	pmovmskb	%xmm0, %edx
	testb	%dl, %dl
	je	.Lunix_path_BB34_29
	movzbl	%dl, %eax
	rep		bsfl	%eax, %eax
	addq	%rax, %rcx
	movq	%rcx, %rax
	retq
.Lunix_path_BB34_22:
	addq	$8, %rax
	cmpq	%rsi, %rax
	jae	.Lunix_path_BB34_19
	.p2align	4
.Lunix_path_BB34_23:
	movzbl	(%rdi,%rax), %ecx
	cmpl	$34, %ecx
	je	.Lunix_path_BB34_19
	cmpl	$92, %ecx
	je	.Lunix_path_BB34_19
	cmpb	$32, %cl
	jb	.Lunix_path_BB34_19
	incq	%rax
	cmpq	%rax, %rsi
	jne	.Lunix_path_BB34_23
	movq	%rsi, %rax
	retq
.Lunix_path_BB34_28:
	movq	%rcx, %rax
	retq
.Lunix_path_BB34_29:
	addq	$24, %rax
	cmpq	%rsi, %rax
	jae	.Lunix_path_BB34_19
.Lunix_path_BB34_30:
	movzbl	(%rdi,%rax), %ecx
	cmpl	$34, %ecx
	je	.Lunix_path_BB34_19
	cmpl	$92, %ecx
	je	.Lunix_path_BB34_19
	cmpb	$32, %cl
	jb	.Lunix_path_BB34_19
	incq	%rax
	cmpq	%rax, %rsi
	jne	.Lunix_path_BB34_30
	movq	%rsi, %rax
	retq
.Lunix_path_func_end34:
	.size	json.run.plain_end_16, .Lunix_path_func_end34-json.run.plain_end_16
	.section	.text.unlikely.json.write.sink.Sink.grow.2df68bf702f5d045.,"ax",@progbits
	.p2align	4
	.type	json.write.sink.Sink.grow.2df68bf702f5d045.,@function
# json::write::sink::Sink::grow::<#2df68bf702f5d045>
json.write.sink.Sink.grow.2df68bf702f5d045.:
	pushq	%r15
	pushq	%r14
	pushq	%r13
	pushq	%r12
	pushq	%rbx
	movq	%rdi, %rbx
	movq	8(%rdi), %r13
	movq	16(%rdi), %rax
	movq	24(%rdi), %r14
	subq	%r13, %r14
	addq	%rsi, %r14
	subq	%r13, %rax
	movq	%r13, %r15
	cmpq	%rax, %r14
	ja	.Lunix_path_BB35_1
.Lunix_path_BB35_3:
	cmpq	$129, %r13
	movl	$128, %ecx
	cmovaeq	%r13, %rcx
	cmpq	$16384, %rcx
	movl	$16384, %r12d
	cmovbq	%rcx, %r12
	cmpq	%r14, %r12
	cmovbeq	%r14, %r12
	cmpq	%r12, %rax
	cmovbq	%rax, %r12
	addq	%r13, %r12
	jmp	.Lunix_path_BB35_4
.Lunix_path_BB35_7:
	movq	16(%rbx), %r14
	movq	%r13, %rdx
	.p2align	4
.Lunix_path_BB35_8:
	movq	(%rbx), %r13
	leaq	(%r15,%r13), %rdi
	addq	%rdx, %r15
	xorl	%esi, %esi
	callq	memset@PLT
	movq	%r13, (%rbx)
	movq	%r15, 8(%rbx)
	movq	%r14, 16(%rbx)
.Lunix_path_BB35_4:
	cmpq	%r12, %r15
	jae	.Lunix_path_BB35_9
	movq	%r12, %rax
	subq	%r15, %rax
	cmpq	$1024, %rax
	movl	$1024, %edx
	cmovbq	%rax, %rdx
	movq	16(%rbx), %r14
	movq	%r14, %rax
	subq	%r15, %rax
	cmpq	%rax, %rdx
	jbe	.Lunix_path_BB35_8
	movq	%rbx, %rdi
	movq	%rdx, %r13
	movq	%rdx, %rsi
	callq	std_alloc.vec.Vec.grow_amortized.2c3341b61b28ed12.
	movq	8(%rbx), %r15
	testb	%al, %al
	je	.Lunix_path_BB35_4
	jmp	.Lunix_path_BB35_7
.Lunix_path_BB35_9:
	xorl	%eax, %eax
.Lunix_path_BB35_10:
	popq	%rbx
	popq	%r12
	popq	%r13
	popq	%r14
	popq	%r15
	retq
.Lunix_path_BB35_1:
	movq	%rbx, %rdi
	movq	%r14, %rsi
	callq	std_alloc.vec.Vec.grow_amortized.2c3341b61b28ed12.
	movl	%eax, %ecx
	movb	$1, %al
	testb	%cl, %cl
	je	.Lunix_path_BB35_10
	movq	8(%rbx), %r15
	movq	16(%rbx), %rax
	subq	%r13, %rax
	jmp	.Lunix_path_BB35_3
.Lunix_path_func_end35:
	.size	json.write.sink.Sink.grow.2df68bf702f5d045., .Lunix_path_func_end35-json.write.sink.Sink.grow.2df68bf702f5d045.
	.section	.text.serde_json.number.write_negative.d02ee1697995db96.,"ax",@progbits
	.p2align	4
	.type	serde_json.number.write_negative.d02ee1697995db96.,@function
# serde_json::number::write_negative::<#d02ee1697995db96>
serde_json.number.write_negative.d02ee1697995db96.:
	pushq	%rbp
	pushq	%r15
	pushq	%r14
	pushq	%r13
	pushq	%r12
	pushq	%rbx
	subq	$56, %rsp
	xorps	%xmm0, %xmm0
	movaps	%xmm0, 16(%rsp)
	movaps	%xmm0, (%rsp)
	movq	$0, 32(%rsp)
	movq	%rdi, %rcx
	negq	%rcx
	cmovsq	%rdi, %rcx
	movl	$40, %r15d
	cmpq	$10000, %rcx
	jb	.Lunix_path_BB36_1
	.p2align	4
.Lunix_path_BB36_2:
	movabsq	$3777893186295716171, %rdx
	movq	%rcx, %rax
	mulq	%rdx
	shrq	$11, %rdx
	imull	$10000, %edx, %eax
	movl	%ecx, %r8d
	subl	%eax, %r8d
	imull	$5243, %r8d, %eax
	shrl	$19, %eax
	imull	$100, %eax, %r9d
	subl	%r9d, %r8d
	movzwl	%r8w, %r8d
	leaq	.Lunix_path_static.36(%rip), %r9
	movzwl	(%r9,%r8,2), %r8d
	movw	%r8w, -2(%rsp,%r15)
	movzwl	(%r9,%rax,2), %eax
	movw	%ax, -4(%rsp,%r15)
	addq	$-4, %r15
	cmpq	$99999999, %rcx
	movq	%rdx, %rcx
	ja	.Lunix_path_BB36_2
	cmpq	$99, %rdx
	ja	.Lunix_path_BB36_7
.Lunix_path_BB36_4:
	cmpq	$9, %rdx
	ja	.Lunix_path_BB36_6
	orb	$48, %dl
	movb	%dl, -1(%rsp,%r15)
	decq	%r15
	testq	%rdi, %rdi
	jns	.Lunix_path_BB36_12
	jmp	.Lunix_path_BB36_11
.Lunix_path_BB36_1:
	movq	%rcx, %rdx
	cmpq	$99, %rdx
	jbe	.Lunix_path_BB36_4
.Lunix_path_BB36_7:
	movl	%edx, %eax
	shrl	$2, %eax
	movzwl	%ax, %eax
	imull	$5243, %eax, %eax
	shrl	$17, %eax
	imull	$100, %eax, %ecx
	movl	%edx, %r8d
	subl	%ecx, %r8d
	movzwl	%r8w, %r8d
	leaq	.Lunix_path_static.36(%rip), %rcx
	movzwl	(%rcx,%r8,2), %r8d
	movw	%r8w, -2(%rsp,%r15)
	cmpq	$999, %rdx
	ja	.Lunix_path_BB36_9
	orb	$48, %al
	movb	%al, -3(%rsp,%r15)
	addq	$-3, %r15
	testq	%rdi, %rdi
	jns	.Lunix_path_BB36_12
	jmp	.Lunix_path_BB36_11
.Lunix_path_BB36_6:
	leaq	.Lunix_path_static.36(%rip), %rax
	movzwl	(%rax,%rdx,2), %eax
	movw	%ax, -2(%rsp,%r15)
	addq	$-2, %r15
	testq	%rdi, %rdi
	jns	.Lunix_path_BB36_12
	jmp	.Lunix_path_BB36_11
.Lunix_path_BB36_9:
	movzwl	%ax, %eax
	movzwl	(%rcx,%rax,2), %eax
	movw	%ax, -4(%rsp,%r15)
	addq	$-4, %r15
	testq	%rdi, %rdi
	jns	.Lunix_path_BB36_12
.Lunix_path_BB36_11:
	movb	$45, -1(%rsp,%r15)
	decq	%r15
.Lunix_path_BB36_12:
	movzbl	40(%rsi), %r12d
	movl	$41, %eax
	subq	%r15, %rax
	movq	8(%rsi), %rdx
	movq	24(%rsi), %rcx
	subq	%rcx, %rdx
	cmpq	%rdx, %rax
	ja	.Lunix_path_BB36_13
.Lunix_path_BB36_15:
	leaq	(%rsp,%r15), %rdx
	movl	$40, %ebp
	subq	%r15, %rbp
	movq	(%rsi), %r13
	movb	$44, (%r13,%rcx)
	addq	%rcx, %r12
	cmpq	$33, %rbp
	jb	.Lunix_path_BB36_20
	cmpq	$65, %rbp
	jb	.Lunix_path_BB36_17
	leaq	(%r12,%r13), %rdi
	movq	$-25, %rbx
	subq	%r15, %rbx
	andq	$-32, %rbx
	leaq	32(%rbx), %r14
	movq	%rsi, 48(%rsp)
	movq	%rdx, %rsi
	movq	%r14, %rdx
	callq	memcpy@PLT
	leaq	(%rsp,%r15), %rdx
	movq	48(%rsp), %rsi
	addq	%r15, %rbx
	movl	$8, %eax
	subq	%rbx, %rax
	jmp	.Lunix_path_BB36_19
.Lunix_path_BB36_20:
	cmpq	$16, %rbp
	jb	.Lunix_path_BB36_22
	movups	(%rsp,%r15), %xmm0
	movups	%xmm0, (%r13,%r12)
	subq	%r15, %r12
	movups	24(%rsp), %xmm0
	movups	%xmm0, 24(%r13,%r12)
	addq	$40, %r12
	jmp	.Lunix_path_BB36_30
.Lunix_path_BB36_17:
	xorl	%r14d, %r14d
	movq	%rbp, %rax
.Lunix_path_BB36_19:
	leaq	(%rdx,%r14), %rcx
	movups	(%rdx,%r14), %xmm0
	movups	16(%rdx,%r14), %xmm1
	addq	%r14, %r13
	leaq	(%r12,%r13), %rdx
	movups	%xmm1, 16(%r12,%r13)
	movups	%xmm0, (%r12,%r13)
	movups	-32(%rax,%rcx), %xmm0
	movups	-16(%rax,%rcx), %xmm1
	movups	%xmm1, -16(%rax,%rdx)
	movups	%xmm0, -32(%rax,%rdx)
	addq	%rbp, %r12
.Lunix_path_BB36_30:
	movq	%r12, 24(%rsi)
	movb	$1, 40(%rsi)
	xorl	%eax, %eax
.Lunix_path_BB36_31:
	addq	$56, %rsp
	popq	%rbx
	popq	%r12
	popq	%r13
	popq	%r14
	popq	%r15
	popq	%rbp
	retq
.Lunix_path_BB36_22:
	cmpq	$8, %rbp
	jb	.Lunix_path_BB36_24
	movq	(%rsp,%r15), %rax
	movq	%rax, (%r13,%r12)
	subq	%r15, %r12
	movq	32(%rsp), %rax
	movq	%rax, 32(%r13,%r12)
	addq	$40, %r12
	jmp	.Lunix_path_BB36_30
.Lunix_path_BB36_24:
	cmpq	$4, %rbp
	jb	.Lunix_path_BB36_26
	movl	(%rsp,%r15), %eax
	movl	%eax, (%r13,%r12)
	subq	%r15, %r12
	movl	36(%rsp), %eax
	movl	%eax, 36(%r13,%r12)
	addq	$40, %r12
	jmp	.Lunix_path_BB36_30
.Lunix_path_BB36_26:
	cmpq	$2, %rbp
	jb	.Lunix_path_BB36_28
	movzwl	(%rsp,%r15), %eax
	movw	%ax, (%r13,%r12)
	subq	%r15, %r12
	movzwl	38(%rsp), %eax
	movw	%ax, 38(%r13,%r12)
	addq	$40, %r12
	jmp	.Lunix_path_BB36_30
.Lunix_path_BB36_13:
	movq	%rsi, %rbx
	movq	%rsi, %rdi
	movq	%rax, %rsi
	callq	json.write.sink.Sink.grow.2df68bf702f5d045.
	movl	%eax, %ecx
	movb	$1, %al
	testb	%cl, %cl
	jne	.Lunix_path_BB36_31
	movq	%rbx, %rsi
	movq	24(%rbx), %rcx
	jmp	.Lunix_path_BB36_15
.Lunix_path_BB36_28:
	cmpq	$39, %r15
	jne	.Lunix_path_BB36_30
	movzbl	(%rdx), %eax
	movb	%al, (%r13,%r12)
	incq	%r12
	jmp	.Lunix_path_BB36_30
.Lunix_path_func_end36:
	.size	serde_json.number.write_negative.d02ee1697995db96., .Lunix_path_func_end36-serde_json.number.write_negative.d02ee1697995db96.
	.section	.rodata.cst16,"aM",@progbits,16
	.p2align	4, 0x0
.Lunix_path_CPI37_0:
	.short	5243
	.short	5243
	.short	5243
	.short	5243
	.short	5243
	.short	5243
	.short	5243
	.short	5243
.Lunix_path_CPI37_1:
	.short	65436
	.short	65436
	.short	65436
	.short	65436
	.zero	2
	.zero	2
	.zero	2
	.zero	2
.Lunix_path_CPI37_2:
	.short	52429
	.short	52429
	.short	52429
	.short	52429
	.short	52429
	.short	52429
	.short	52429
	.short	52429
.Lunix_path_CPI37_3:
	.short	62977
	.short	62977
	.short	62977
	.short	62977
	.short	62977
	.short	62977
	.short	62977
	.short	62977
.Lunix_path_CPI37_4:
	.zero	16,48
.Lunix_path_CPI37_5:
	.zero	16,15
	.section	.text.serde_json.number.write_float.d02ee1697995db96.,"ax",@progbits
	.p2align	4
	.type	serde_json.number.write_float.d02ee1697995db96.,@function
# serde_json::number::write_float::<#d02ee1697995db96>
serde_json.number.write_float.d02ee1697995db96.:
	pushq	%rbp
	pushq	%r15
	pushq	%r14
	pushq	%r13
	pushq	%r12
	pushq	%rbx
	subq	$88, %rsp
	movq	%rdi, %rbx
	movq	8(%rdi), %rcx
	movq	24(%rdi), %rax
	subq	%rax, %rcx
	cmpq	$33, %rcx
	jb	.Lunix_path_BB37_18
	movq	(%rbx), %rcx
	movzbl	40(%rbx), %r14d
	movb	$44, (%rcx,%rax)
	addq	%rax, %r14
	leaq	(%rcx,%r14), %r15
	movq	%xmm0, %rax
	movq	%rax, %r12
	shrq	$63, %r12
	movabsq	$9223372036854775807, %rsi
	movb	$45, (%rcx,%r14)
	andq	%rax, %rsi
	je	.Lunix_path_BB37_2
	pxor	%xmm0, %xmm0
	movdqa	%xmm0, (%rsp)
	movq	$0, 16(%rsp)
	movq	%rsi, %rax
	shrq	$52, %rax
	je	.Lunix_path_BB37_5
	movabsq	$4503599627370496, %rcx
	leaq	-1(%rcx), %r9
	andq	%rsi, %r9
	je	.Lunix_path_BB37_5
	orq	%rcx, %r9
	imull	$315653, %eax, %r10d
	addl	$80103425, %r10d
	shrl	$20, %r10d
	movl	$741, %r13d
	subl	%r10d, %r13d
	imull	$217706, %r13d, %r11d
	addl	$58980, %r11d
	shrl	$16, %r11d
	addl	%eax, %r11d
	shll	$4, %r13d
	leaq	.Lunix_path_static.45(%rip), %rbp
	movq	8(%r13,%rbp), %r8
	leal	99(%r11), %ecx
	shlq	%cl, %r9
	movq	%r8, %rax
	mulq	%r9
	movq	%rdx, %rdi
	movq	%rax, %rcx
	movq	%r9, %rax
	mulq	(%r13,%rbp)
	addq	%rcx, %rdx
	adcq	$0, %rdi
	movb	$-92, %cl
	subb	%r11b, %cl
	shrq	%cl, %r8
	movabsq	$922337203685477601, %rax
	cmpq	%rax, %r8
	jb	.Lunix_path_BB37_5
	shrdq	$6, %rdi, %rdx
	leaq	(%r8,%rdx), %rax
	decq	%rax
	cmpq	$-3, %rax
	ja	.Lunix_path_BB37_5
	movq	%r8, %rax
	subq	%rdx, %rax
	cmpq	$1, %rax
	jbe	.Lunix_path_BB37_5
	shrq	$6, %rdi
	movabsq	$4611686018427387904, %rax
	xorl	%ecx, %ecx
	cmpq	%rax, %rdx
	sete	%cl
	movl	$10, %esi
	movq	%rdx, %rax
	movq	%rdx, %r9
	mulq	%rsi
	movq	%rdx, %rsi
	movabsq	$-9223372036854775802, %rdx
	addq	%rax, %rdx
	adcq	$0, %rsi
	subq	%rcx, %rsi
	movq	%r9, %rax
	addq	%r8, %rax
	adcq	$0, %rdi
	xorl	%eax, %eax
	cmpq	%r9, %r8
	cmovaq	%rax, %rsi
	addq	%r8, %r9
	cmovbq	%rax, %rsi
	jmp	.Lunix_path_BB37_10
.Lunix_path_BB37_5:
	movq	%rsp, %rdi
	callq	ryu.shortest.shortest_slowly.fb1fd16ba1bdda57.
	movq	(%rsp), %rdi
	movq	8(%rsp), %rsi
	movq	16(%rsp), %r10
.Lunix_path_BB37_10:
	movabsq	$-6067343680855748867, %rcx
	movq	%rdi, %rax
	mulq	%rcx
	shrq	$26, %rdx
	imulq	$109951163, %rdx, %rax
	imulq	$100000000, %rdx, %rcx
	shlq	$16, %rdx
	shrq	$40, %rax
	imulq	$-655359999, %rax, %rax
	movq	%rdi, %r8
	subq	%rcx, %r8
	imulq	$109951163, %r8, %rcx
	shrq	$40, %rcx
	shlq	$48, %r8
	addq	%rdx, %r8
	addq	%rax, %r8
	movabsq	$-2814749762811592704, %rax
	imulq	%rcx, %rax
	addq	%r8, %rax
	movq	%rax, %xmm0
	movdqa	%xmm0, %xmm2
	psrlw	$2, %xmm2
	pmulhuw	.Lunix_path_CPI37_0(%rip), %xmm2
	psrlw	$1, %xmm2
	movdqa	.Lunix_path_CPI37_1(%rip), %xmm1
	pmullw	%xmm2, %xmm1
	paddw	%xmm0, %xmm1
	punpcklwd	%xmm1, %xmm2
	movdqa	.Lunix_path_CPI37_2(%rip), %xmm1
	pmulhuw	%xmm2, %xmm1
	psrlw	$3, %xmm1
	pmullw	.Lunix_path_CPI37_3(%rip), %xmm1
	psllw	$8, %xmm2
	paddw	%xmm2, %xmm1
	xorl	%r8d, %r8d
	testb	%sil, %sil
	setne	%r8b
	pxor	%xmm0, %xmm0
	pcmpeqb	%xmm1, %xmm0
	pmovmskb	%xmm0, %eax
	xorl	$65535, %eax
	shll	$16, %r8d
	paddb	.Lunix_path_CPI37_4(%rip), %xmm1
	orl	%eax, %r8d
	addb	$48, %sil
	movabsq	$1000000000000000, %r9
	xorl	%ecx, %ecx
	cmpq	%r9, %rdi
	setb	%cl
	movq	%rcx, %rax
	negq	%rax
	movl	$127, %edx
	bsrq	%r8, %rdx
	xorq	$-64, %rdx
	addq	$65, %rdx
	movq	%r10, %r8
	subq	%rcx, %r8
	leaq	-384(%r8), %r11
	cmpq	$15, %r11
	ja	.Lunix_path_BB37_14
	addq	$-383, %r10
	cmpq	%rdx, %r10
	jae	.Lunix_path_BB37_13
	leaq	(%r15,%r12), %rdi
	movdqu	%xmm1, 1(%rax,%rdi)
	movb	%sil, 17(%rax,%rdi)
	movq	%r10, %rsi
	shlq	$4, %rsi
	leaq	.Lunix_path_static.47(%rip), %r8
	addq	%r10, %r8
	addq	%rsi, %r8
	movdqu	-17(%rcx,%r8), %xmm0
	movdqa	%xmm1, (%rsp)
	movdqa	.Lunix_path_CPI37_5(%rip), %xmm1
	pand	%xmm0, %xmm1
	movdqa	%xmm1, 32(%rsp)
	movzbl	47(%rsp), %ecx
	movzbl	(%rsp,%rcx), %ecx
	movd	%ecx, %xmm2
	movzbl	46(%rsp), %ecx
	movzbl	(%rsp,%rcx), %ecx
	movd	%ecx, %xmm1
	movzbl	45(%rsp), %ecx
	movzbl	(%rsp,%rcx), %ecx
	movd	%ecx, %xmm4
	movzbl	44(%rsp), %ecx
	movzbl	(%rsp,%rcx), %ecx
	movd	%ecx, %xmm3
	movzbl	43(%rsp), %ecx
	movzbl	(%rsp,%rcx), %ecx
	movd	%ecx, %xmm6
	movzbl	42(%rsp), %ecx
	movzbl	(%rsp,%rcx), %ecx
	movd	%ecx, %xmm7
	movzbl	41(%rsp), %ecx
	movzbl	(%rsp,%rcx), %ecx
	movd	%ecx, %xmm8
	movzbl	40(%rsp), %ecx
	movzbl	(%rsp,%rcx), %ecx
	movd	%ecx, %xmm5
	movzbl	39(%rsp), %ecx
	movzbl	(%rsp,%rcx), %ecx
	movd	%ecx, %xmm9
	movzbl	38(%rsp), %ecx
	movzbl	(%rsp,%rcx), %ecx
	movd	%ecx, %xmm10
	movzbl	37(%rsp), %ecx
	movzbl	(%rsp,%rcx), %ecx
	movd	%ecx, %xmm12
	movzbl	36(%rsp), %ecx
	movzbl	(%rsp,%rcx), %ecx
	movd	%ecx, %xmm11
	movzbl	35(%rsp), %ecx
	movzbl	(%rsp,%rcx), %ecx
	movd	%ecx, %xmm13
	movzbl	34(%rsp), %ecx
	movzbl	(%rsp,%rcx), %ecx
	movd	%ecx, %xmm14
	movzbl	33(%rsp), %ecx
	movzbl	(%rsp,%rcx), %ecx
	movd	%ecx, %xmm15
	movzbl	32(%rsp), %ecx
	punpcklbw	%xmm2, %xmm1
	movzbl	(%rsp,%rcx), %ecx
	movd	%ecx, %xmm2
	punpcklbw	%xmm4, %xmm3
	punpcklwd	%xmm1, %xmm3
	punpcklbw	%xmm6, %xmm7
	punpcklbw	%xmm8, %xmm5
	punpcklwd	%xmm7, %xmm5
	punpckldq	%xmm3, %xmm5
	punpcklbw	%xmm9, %xmm10
	punpcklbw	%xmm12, %xmm11
	punpcklwd	%xmm10, %xmm11
	punpcklbw	%xmm13, %xmm14
	punpcklbw	%xmm15, %xmm2
	punpcklwd	%xmm14, %xmm2
	punpckldq	%xmm11, %xmm2
	punpcklqdq	%xmm5, %xmm2
	pcmpeqd	%xmm1, %xmm1
	pcmpgtb	%xmm1, %xmm0
	pand	%xmm2, %xmm0
	movdqu	%xmm0, (%r15,%r12)
	addq	%rax, %rdi
	movb	$46, (%r10,%rdi)
	addq	%rax, %r12
	addq	%rdx, %r12
	incq	%r12
	jmp	.Lunix_path_BB37_17
.Lunix_path_BB37_2:
	movw	$11824, (%r15,%r12)
	movb	$48, 2(%r15,%r12)
	addq	$3, %r12
	jmp	.Lunix_path_BB37_17
.Lunix_path_BB37_14:
	addq	$17, %r8
	leaq	-396(%r8), %r11
	cmpq	$4, %r11
	ja	.Lunix_path_BB37_16
	movdqa	.Lunix_path_CPI37_4(%rip), %xmm0
	movdqu	%xmm0, (%r15,%r12)
	movq	%r12, %rax
	subq	%r10, %rax
	movdqu	%xmm1, 385(%r15,%rax)
	movb	%sil, 401(%r15,%rax)
	movb	$46, 1(%r15,%r12)
	leaq	(%rdx,%rax), %r12
	addq	$385, %r12
	jmp	.Lunix_path_BB37_17
.Lunix_path_BB37_13:
	leaq	.Lunix_path_static.47(%rip), %rdx
	movdqu	255(%rcx,%rdx), %xmm0
	movdqa	%xmm1, (%rsp)
	movdqa	.Lunix_path_CPI37_5(%rip), %xmm1
	pand	%xmm0, %xmm1
	movdqa	%xmm1, 48(%rsp)
	movzbl	63(%rsp), %ecx
	movzbl	(%rsp,%rcx), %ecx
	movd	%ecx, %xmm1
	movzbl	62(%rsp), %ecx
	movzbl	(%rsp,%rcx), %ecx
	movd	%ecx, %xmm3
	movzbl	61(%rsp), %ecx
	movzbl	(%rsp,%rcx), %ecx
	movd	%ecx, %xmm4
	movzbl	60(%rsp), %ecx
	movzbl	(%rsp,%rcx), %ecx
	movd	%ecx, %xmm2
	movzbl	59(%rsp), %ecx
	movzbl	(%rsp,%rcx), %ecx
	movd	%ecx, %xmm5
	movzbl	58(%rsp), %ecx
	punpcklbw	%xmm1, %xmm3
	movzbl	(%rsp,%rcx), %ecx
	movd	%ecx, %xmm6
	movzbl	57(%rsp), %ecx
	punpcklbw	%xmm4, %xmm2
	movzbl	(%rsp,%rcx), %ecx
	movd	%ecx, %xmm4
	movzbl	56(%rsp), %ecx
	punpcklwd	%xmm3, %xmm2
	movzbl	(%rsp,%rcx), %ecx
	movd	%ecx, %xmm1
	movzbl	55(%rsp), %ecx
	punpcklbw	%xmm5, %xmm6
	movzbl	(%rsp,%rcx), %ecx
	movd	%ecx, %xmm3
	movzbl	54(%rsp), %ecx
	punpcklbw	%xmm4, %xmm1
	movzbl	(%rsp,%rcx), %ecx
	movd	%ecx, %xmm4
	movzbl	53(%rsp), %ecx
	punpcklwd	%xmm6, %xmm1
	movzbl	(%rsp,%rcx), %ecx
	movd	%ecx, %xmm5
	movzbl	52(%rsp), %ecx
	punpckldq	%xmm2, %xmm1
	movzbl	(%rsp,%rcx), %ecx
	movd	%ecx, %xmm2
	movzbl	51(%rsp), %ecx
	punpcklbw	%xmm3, %xmm4
	movzbl	(%rsp,%rcx), %ecx
	movd	%ecx, %xmm3
	movzbl	50(%rsp), %ecx
	punpcklbw	%xmm5, %xmm2
	movzbl	(%rsp,%rcx), %ecx
	movd	%ecx, %xmm5
	movzbl	49(%rsp), %ecx
	punpcklwd	%xmm4, %xmm2
	movzbl	(%rsp,%rcx), %ecx
	movd	%ecx, %xmm4
	movzbl	48(%rsp), %ecx
	punpcklbw	%xmm3, %xmm5
	movzbl	(%rsp,%rcx), %ecx
	movd	%ecx, %xmm3
	punpcklbw	%xmm4, %xmm3
	punpcklwd	%xmm5, %xmm3
	punpckldq	%xmm2, %xmm3
	punpcklqdq	%xmm1, %xmm3
	pcmpeqd	%xmm1, %xmm1
	pcmpgtb	%xmm1, %xmm0
	pand	%xmm3, %xmm0
	leaq	(%r15,%r12), %rcx
	movdqu	%xmm0, (%r15,%r12)
	movb	%sil, 16(%rax,%rcx)
	addq	%rax, %r12
	leaq	(%r12,%r10), %rax
	movw	$12334, (%r15,%rax)
	addq	%r10, %r12
	addq	$2, %r12
	jmp	.Lunix_path_BB37_17
.Lunix_path_BB37_16:
	movl	$17, %r10d
	shlq	%cl, %r10
	leaq	.Lunix_path_static.47(%rip), %r11
	addq	%r10, %r11
	cmpq	%r9, %rdi
	leaq	(%r15,%r12), %rdi
	movdqu	%xmm1, 1(%rax,%rdi)
	movb	%sil, 17(%rax,%rdi)
	movdqa	%xmm1, (%rsp)
	movdqu	-17(%rcx,%r11), %xmm0
	movdqa	.Lunix_path_CPI37_5(%rip), %xmm1
	pand	%xmm0, %xmm1
	movdqa	%xmm1, 64(%rsp)
	movzbl	79(%rsp), %esi
	movzbl	(%rsp,%rsi), %esi
	movd	%esi, %xmm8
	movzbl	78(%rsp), %esi
	movzbl	(%rsp,%rsi), %esi
	movd	%esi, %xmm1
	movzbl	77(%rsp), %esi
	movzbl	(%rsp,%rsi), %esi
	movd	%esi, %xmm3
	movzbl	76(%rsp), %esi
	movzbl	(%rsp,%rsi), %esi
	movd	%esi, %xmm2
	movzbl	75(%rsp), %esi
	movzbl	(%rsp,%rsi), %esi
	movd	%esi, %xmm4
	movzbl	74(%rsp), %esi
	movzbl	(%rsp,%rsi), %esi
	movd	%esi, %xmm6
	movzbl	73(%rsp), %esi
	movzbl	(%rsp,%rsi), %esi
	movd	%esi, %xmm7
	movzbl	72(%rsp), %esi
	movzbl	(%rsp,%rsi), %esi
	movd	%esi, %xmm5
	movzbl	71(%rsp), %esi
	movzbl	(%rsp,%rsi), %esi
	movd	%esi, %xmm9
	movzbl	70(%rsp), %esi
	movzbl	(%rsp,%rsi), %esi
	movd	%esi, %xmm10
	movzbl	69(%rsp), %esi
	movzbl	(%rsp,%rsi), %esi
	movd	%esi, %xmm12
	movzbl	68(%rsp), %esi
	movzbl	(%rsp,%rsi), %esi
	movd	%esi, %xmm11
	movzbl	67(%rsp), %esi
	movzbl	(%rsp,%rsi), %esi
	movd	%esi, %xmm13
	movzbl	66(%rsp), %esi
	movzbl	(%rsp,%rsi), %esi
	movd	%esi, %xmm14
	movzbl	65(%rsp), %esi
	movzbl	(%rsp,%rsi), %esi
	movd	%esi, %xmm15
	movzbl	64(%rsp), %esi
	punpcklbw	%xmm8, %xmm1
	movzbl	(%rsp,%rsi), %esi
	adcq	%rax, %rdi
	movd	%esi, %xmm8
	leaq	-1(%r8), %rax
	movl	$401, %esi
	subl	%r8d, %esi
	addl	$65135, %r8d
	cmpq	$400, %rax
	punpcklbw	%xmm3, %xmm2
	punpcklwd	%xmm1, %xmm2
	punpcklbw	%xmm4, %xmm6
	punpcklbw	%xmm7, %xmm5
	punpcklwd	%xmm6, %xmm5
	punpckldq	%xmm2, %xmm5
	punpcklbw	%xmm9, %xmm10
	punpcklbw	%xmm12, %xmm11
	punpcklwd	%xmm10, %xmm11
	punpcklbw	%xmm13, %xmm14
	punpcklbw	%xmm15, %xmm8
	punpcklwd	%xmm14, %xmm8
	punpckldq	%xmm11, %xmm8
	punpcklqdq	%xmm5, %xmm8
	pcmpeqd	%xmm1, %xmm1
	pcmpgtb	%xmm1, %xmm0
	pand	%xmm8, %xmm0
	movdqu	%xmm0, (%r15,%r12)
	cmovbq	%rsi, %r8
	setb	%sil
	subq	%rcx, %rdx
	addq	%rdx, %r12
	cmpq	$2, %rdx
	sbbq	$-1, %r12
	movb	$46, 1(%rdi)
	movb	$101, (%r15,%r12)
	addb	%sil, %sil
	addb	$43, %sil
	leaq	2(%r12), %rcx
	cmpw	$100, %r8w
	sbbq	$-1, %rcx
	cmpw	$10, %r8w
	movq	%rcx, %rax
	sbbq	$-1, %rax
	movb	%sil, 1(%r15,%r12)
	movzwl	%r8w, %edx
	imull	$52429, %edx, %esi
	shrl	$2, %edx
	imull	$5243, %edx, %edx
	shrl	$17, %edx
	addb	$48, %dl
	movb	%dl, 2(%r15,%r12)
	shrl	$19, %esi
	imull	$6554, %esi, %edx
	shrl	$15, %edx
	andl	$-2, %edx
	leal	(%rdx,%rdx,4), %edx
	movl	%esi, %edi
	subl	%edx, %edi
	orb	$48, %dil
	movb	%dil, (%r15,%rcx)
	addl	%esi, %esi
	leal	(%rsi,%rsi,4), %ecx
	subl	%ecx, %r8d
	orb	$48, %r8b
	movb	%r8b, (%r15,%rax)
	incq	%rax
	movq	%rax, %r12
.Lunix_path_BB37_17:
	addq	%r14, %r12
	movq	%r12, 24(%rbx)
	movb	$1, 40(%rbx)
	xorl	%eax, %eax
	addq	$88, %rsp
	popq	%rbx
	popq	%r12
	popq	%r13
	popq	%r14
	popq	%r15
	popq	%rbp
	retq
.Lunix_path_BB37_18:
	movq	%rbx, %rdi
	addq	$88, %rsp
	popq	%rbx
	popq	%r12
	popq	%r13
	popq	%r14
	popq	%r15
	popq	%rbp
	jmp	json.write.Writer.float_slowly.e23ad144bd04ea1b.
.Lunix_path_func_end37:
	.size	serde_json.number.write_float.d02ee1697995db96., .Lunix_path_func_end37-serde_json.number.write_float.d02ee1697995db96.
	.section	.text.ryu.shortest.shortest_slowly.fb1fd16ba1bdda57.,"ax",@progbits
	.p2align	4
	.type	ryu.shortest.shortest_slowly.fb1fd16ba1bdda57.,@function
# ryu::shortest::shortest_slowly::<#fb1fd16ba1bdda57>
ryu.shortest.shortest_slowly.fb1fd16ba1bdda57.:
	pushq	%rbp
	pushq	%r15
	pushq	%r14
	pushq	%r13
	pushq	%r12
	pushq	%rbx
	subq	$648, %rsp
	movabsq	$4503599627370496, %r8
	movq	%rsi, %rax
	shrq	$52, %rax
	leaq	-1(%r8), %r15
	andq	%rsi, %r15
	orq	%r8, %r15
	leaq	-1(%rax), %r14
	testq	%rax, %rax
	cmoveq	%rax, %r14
	cmoveq	%rsi, %r15
	cmpq	%r8, %r15
	sete	%al
	testq	%r14, %r14
	setne	%cl
	andb	%al, %cl
	imulq	$315653, %r14, %rbx
	movb	%cl, 15(%rsp)
	cmpb	$1, %cl
	jne	.Lunix_path_BB38_6
	addq	$80288006, %rbx
	shrq	$20, %rbx
	movl	$741, %r11d
	subq	%rbx, %r11
	imull	$217706, %r11d, %eax
	addl	$58980, %eax
	shrl	$16, %eax
	leal	(%r14,%rax), %r12d
	shlq	$4, %r11
	leaq	.Lunix_path_static.45(%rip), %r13
	movq	8(%r11,%r13), %r9
	leal	100(%r12), %ecx
	shlq	%cl, %r8
	movq	%r9, %rax
	mulq	%r8
	movq	%rdx, %r10
	movq	%rax, %rcx
	movq	%r8, %rax
	mulq	(%r11,%r13)
	addq	%rcx, %rdx
	adcq	$0, %r10
	movq	%r10, %r11
	shrq	$6, %r11
	movb	$-93, %cl
	subb	%r12b, %cl
	shrq	%cl, %r9
	shldq	$58, %rdx, %r10
	movq	%r10, %rax
	addq	%r9, %rax
	jae	.Lunix_path_BB38_3
	incq	%r11
	xorl	%edx, %edx
	jmp	.Lunix_path_BB38_7
.Lunix_path_BB38_6:
	addq	$80419078, %rbx
	shrq	$20, %rbx
	movl	$741, %r11d
	subq	%rbx, %r11
	imull	$217706, %r11d, %eax
	addl	$58980, %eax
	shrl	$16, %eax
	leal	(%r14,%rax), %r13d
	shlq	$4, %r11
	leaq	.Lunix_path_static.45(%rip), %rbp
	leal	100(%r13), %ecx
	movq	%r15, %r10
	shlq	%cl, %r10
	movq	8(%r11,%rbp), %r9
	movl	%r15d, %r12d
	notl	%r12d
	movq	%r9, %rax
	mulq	%r10
	movq	%rdx, %r8
	movq	%rax, %rcx
	movq	%r10, %rax
	mulq	(%r11,%rbp)
	addq	%rcx, %rdx
	adcq	$0, %r8
	movq	%r8, %r11
	shrq	$6, %r11
	movb	$-93, %cl
	subb	%r13b, %cl
	shrq	%cl, %r9
	shldq	$58, %rdx, %r8
	andl	$1, %r12d
	addq	%r9, %r12
	movabsq	$4611686018427387904, %rax
	xorl	%ecx, %ecx
	cmpq	%rax, %r8
	sete	%cl
	movl	$10, %edx
	movq	%r8, %rax
	mulq	%rdx
	movabsq	$-9223372036854775802, %r9
	addq	%rax, %r9
	adcq	$0, %rdx
	subq	%rcx, %rdx
	movq	%r8, %rax
	addq	%r12, %rax
	adcq	$0, %r11
	xorl	%eax, %eax
	cmpq	%r8, %r12
	cmovaq	%rax, %rdx
	addq	%r8, %r12
	cmovbq	%rax, %rdx
.Lunix_path_BB38_7:
	leaq	(%r11,%r11,4), %rax
	leaq	(%rdx,%rax,2), %rcx
	decq	%rcx
	movabsq	$99999999999999998, %r8
	cmpq	%r8, %rcx
	ja	.Lunix_path_BB38_16
	cmpq	$708, %rbx
	ja	.Lunix_path_BB38_16
	leaq	(%rdx,%rax,2), %r12
	leaq	-58(%rbx), %rbp
	bsrq	%r12, %r8
	xorq	$63, %r8
	movq	%r12, %rax
	movl	%r8d, %ecx
	shlq	%cl, %rax
	movq	%rbp, %rcx
	shlq	$4, %rcx
	leaq	.Lunix_path_static.45(%rip), %rdx
	mulq	8(%rcx,%rdx)
	movq	%rdx, %rcx
	shrq	$63, %rcx
	imulq	$217706, %rbp, %rax
	addq	$58980, %rax
	shrq	$16, %rax
	leaq	(%rax,%rcx), %r13
	addq	$1139, %r13
	addq	$1191, %r8
	cmpq	%r8, %r13
	jb	.Lunix_path_BB38_12
	movl	$-1024, %r10d
	shll	%cl, %r10d
	notl	%r10d
	movl	%edx, %eax
	movl	$512, %r9d
	shlq	%cl, %r9
	andl	%r10d, %eax
	movq	%r9, %r10
	subq	%rax, %r10
	cmpq	$2, %r10
	jb	.Lunix_path_BB38_12
	orb	$10, %cl
	shrq	%cl, %rdx
	subl	%r8d, %r13d
	shlq	$52, %r13
	cmpl	%eax, %r9d
	adcq	%rdx, %r13
	movabsq	$9218868437227405312, %rax
	cmpq	%rax, %r13
	cmovaeq	%rax, %r13
	cmpq	%rsi, %r13
	jne	.Lunix_path_BB38_16
.Lunix_path_BB38_20:
	movabsq	$999999999999999, %rax
	cmpq	%rax, %r12
	ja	.Lunix_path_BB38_22
	.p2align	4
.Lunix_path_BB38_21:
	leaq	(%r12,%r12), %rax
	decq	%rbx
	movabsq	$100000000000000, %rcx
	cmpq	%rcx, %r12
	leaq	(%rax,%rax,4), %r12
	jb	.Lunix_path_BB38_21
.Lunix_path_BB38_22:
	movabsq	$-3689348814741910323, %rcx
	movq	%r12, %rax
	mulq	%rcx
	shrq	$3, %rdx
	leaq	(%rdx,%rdx), %rax
	leaq	(%rax,%rax,4), %rax
	subq	%rax, %r12
	movq	%rdx, (%rdi)
	movq	%r12, 8(%rdi)
	movq	%rbx, 16(%rdi)
	addq	$648, %rsp
	popq	%rbx
	popq	%r12
	popq	%r13
	popq	%r14
	popq	%r15
	popq	%rbp
	retq
.Lunix_path_BB38_3:
	shrq	%r9
	movq	%r10, %rcx
	subq	%r9, %rcx
	jae	.Lunix_path_BB38_5
	xorl	%edx, %edx
	jmp	.Lunix_path_BB38_7
.Lunix_path_BB38_5:
	movl	$10, %r9d
	movq	%r10, %rax
	mulq	%r9
	movq	%rdx, %r8
	movabsq	$9223372036854775807, %rdx
	addq	%rax, %rdx
	adcq	$0, %r8
	movq	%rcx, %rax
	mulq	%r9
	addq	$-1, %rax
	adcq	$0, %rdx
	cmpq	%r8, %rdx
	cmovbeq	%r8, %rdx
	jmp	.Lunix_path_BB38_7
.Lunix_path_BB38_12:
	movq	%rsi, 24(%rsp)
	movq	%rdi, 16(%rsp)
	leaq	48(%rsp), %rdi
	movq	%r12, %rsi
	movq	%rbp, %rdx
	callq	core.dec2flt.lemire.eisel_lemire_wide.1d521972340cebc2.
	movq	56(%rsp), %r13
	cmpb	$0, 48(%rsp)
	jne	.Lunix_path_BB38_13
.Lunix_path_BB38_14:
	movq	16(%rsp), %rdi
	movq	24(%rsp), %rsi
	cmpq	%rsi, %r13
	je	.Lunix_path_BB38_20
.Lunix_path_BB38_16:
	movq	%rdi, %r13
	cmpb	$0, 15(%rsp)
	je	.Lunix_path_BB38_18
	decq	%r14
	movabsq	$9007199254740992, %rdi
	jmp	.Lunix_path_BB38_19
.Lunix_path_BB38_18:
	movq	%r15, %rdi
.Lunix_path_BB38_19:
	movq	%r14, %rsi
	callq	ryu.shortest.long_form.fb1fd16ba1bdda57.
	movq	%rax, %r12
	movq	%rdx, %rbx
	movq	%r13, %rdi
	movabsq	$999999999999999, %rax
	cmpq	%rax, %r12
	jbe	.Lunix_path_BB38_21
	jmp	.Lunix_path_BB38_22
.Lunix_path_BB38_13:
	movq	64(%rsp), %rax
	movq	%rax, 40(%rsp)
	xorl	%eax, %eax
	movq	%rbp, %rcx
	subq	$342, %rcx
	cmovbq	%rax, %rcx
	movq	%rcx, 32(%rsp)
	movl	$342, %ecx
	subq	%rbp, %rcx
	cmovbq	%rax, %rcx
	movq	%rcx, %rbp
	movq	%r12, 48(%rsp)
	leaq	56(%rsp), %rdi
	movl	$584, %edx
	xorl	%esi, %esi
	callq	memset@PLT
	movq	$1, 640(%rsp)
	leaq	48(%rsp), %rdi
	movq	32(%rsp), %rsi
	movq	%rbp, %rdx
	movq	%r13, %rcx
	movq	40(%rsp), %r8
	callq	core.dec2flt.decimal.break_tie.1d521972340cebc2.
	movq	%rax, %r13
	jmp	.Lunix_path_BB38_14
.Lunix_path_func_end38:
	.size	ryu.shortest.shortest_slowly.fb1fd16ba1bdda57., .Lunix_path_func_end38-ryu.shortest.shortest_slowly.fb1fd16ba1bdda57.
	.section	.text.unlikely.core.dec2flt.lemire.eisel_lemire_wide.1d521972340cebc2.,"ax",@progbits
	.p2align	4
	.type	core.dec2flt.lemire.eisel_lemire_wide.1d521972340cebc2.,@function
# core::dec2flt::lemire::eisel_lemire_wide::<#1d521972340cebc2>
core.dec2flt.lemire.eisel_lemire_wide.1d521972340cebc2.:
	pushq	%rbx
	movq	%rsi, %r8
	bsrq	%rsi, %rcx
	xorq	$63, %rcx
	shlq	%cl, %r8
	movq	%rdx, %r9
	movq	%rdx, %r11
	shlq	$4, %r11
	leaq	.Lunix_path_static.45(%rip), %rbx
	movq	%r8, %rax
	mulq	8(%r11,%rbx)
	movq	%rdx, %rsi
	movq	%rax, %r10
	movq	%r8, %rax
	mulq	(%r11,%rbx)
	addq	%r10, %rdx
	adcq	$0, %rsi
	movq	%rsi, %r8
	shrq	$63, %r8
	imulq	$217706, %r9, %rax
	addq	$58980, %rax
	shrq	$16, %rax
	addq	%r8, %rax
	addq	$1139, %rax
	addq	$1191, %rcx
	xorl	%r9d, %r9d
	movq	%rcx, %r10
	subq	%rax, %r10
	cmovbq	%r9, %r10
	subq	%rcx, %rax
	cmovbq	%r9, %rax
	leaq	(%r10,%r8), %rcx
	addq	$72, %rcx
	movl	$0, %r8d
	movl	$0, %r10d
	cmpq	$127, %rcx
	ja	.Lunix_path_BB39_7
	shrdq	$2, %rsi, %rdx
	shrq	$2, %rsi
	movq	%rdx, %r9
	shrdq	%cl, %rsi, %r9
	movq	%rsi, %r8
	shrq	%cl, %r8
	movq	$-1, %r10
	shlq	%cl, %r10
	xorl	%ebx, %ebx
	testb	$64, %cl
	cmoveq	%r9, %r8
	movq	$-1, %r9
	movq	%r10, %r11
	cmovneq	%rbx, %r11
	cmoveq	%r9, %r10
	notq	%r11
	andq	%rdx, %r11
	decb	%cl
	movl	$1, %r9d
	xorl	%edx, %edx
	shldq	%cl, %r9, %rdx
	notq	%r10
	andq	%rsi, %r10
	movl	$1, %esi
	shlq	%cl, %rsi
	testb	$64, %cl
	cmovneq	%rsi, %rdx
	cmovneq	%rbx, %rsi
	cmpq	%r11, %rsi
	movq	%rdx, %rcx
	sbbq	%r10, %rcx
	jae	.Lunix_path_BB39_3
	shlq	$52, %rax
	addq	%r8, %rax
	incq	%rax
	movabsq	$9218868437227405312, %r8
	cmpq	%r8, %rax
	cmovbq	%rax, %r8
	xorl	%r9d, %r9d
	jmp	.Lunix_path_BB39_6
.Lunix_path_BB39_3:
	subq	%r11, %rsi
	sbbq	%r10, %rdx
	cmpq	$2, %rsi
	sbbq	$0, %rdx
	jb	.Lunix_path_BB39_4
	shlq	$52, %rax
	addq	%r8, %rax
	movabsq	$9218868437227405312, %rcx
	cmpq	%rcx, %rax
	cmovaeq	%rcx, %rax
	xorl	%r9d, %r9d
	movq	%rax, %r8
.Lunix_path_BB39_6:
	xorl	%r10d, %r10d
	jmp	.Lunix_path_BB39_7
.Lunix_path_BB39_4:
	movq	%rax, %r10
.Lunix_path_BB39_7:
	movq	%r9, (%rdi)
	movq	%r8, 8(%rdi)
	movq	%r10, 16(%rdi)
	popq	%rbx
	retq
.Lunix_path_func_end39:
	.size	core.dec2flt.lemire.eisel_lemire_wide.1d521972340cebc2., .Lunix_path_func_end39-core.dec2flt.lemire.eisel_lemire_wide.1d521972340cebc2.
	.section	.text.unlikely.core.dec2flt.decimal.break_tie.1d521972340cebc2.,"ax",@progbits
	.p2align	4
	.type	core.dec2flt.decimal.break_tie.1d521972340cebc2.,@function
# core::dec2flt::decimal::break_tie::<#1d521972340cebc2>
core.dec2flt.decimal.break_tie.1d521972340cebc2.:
	pushq	%r15
	pushq	%r14
	pushq	%r13
	pushq	%r12
	pushq	%rbx
	subq	$1200, %rsp
	movq	%r8, %rbx
	movq	%rcx, %r14
	movq	%rdx, %r15
	movq	%rsi, %r12
	movq	%rdi, %rsi
	leaq	600(%rsp), %rdi
	movl	$600, %edx
	callq	memcpy@PLT
	cmpq	$20, %r12
	jb	.Lunix_path_BB40_14
	movq	1192(%rsp), %r8
	testq	%r8, %r8
	jne	.Lunix_path_BB40_4
	addq	$-20, %r12
	movabsq	$-2912643801112034465, %rcx
	movq	%r12, %rax
	mulq	%rcx
	shrq	$4, %rdx
	leaq	(%rdx,%rdx,8), %rax
	leaq	(%rdx,%rax,2), %rax
	subq	%rax, %r12
	incq	%r12
	jmp	.Lunix_path_BB40_14
	.p2align	4
.Lunix_path_BB40_3:
	movq	1192(%rsp), %r8
.Lunix_path_BB40_4:
	testq	%r8, %r8
	je	.Lunix_path_BB40_13
	cmpq	$1, %r8
	jne	.Lunix_path_BB40_7
	xorl	%r9d, %r9d
	xorl	%r10d, %r10d
	jmp	.Lunix_path_BB40_10
	.p2align	4
.Lunix_path_BB40_7:
	movq	%r8, %r11
	andq	$-2, %r11
	xorl	%r9d, %r9d
	xorl	%r10d, %r10d
	.p2align	4
.Lunix_path_BB40_8:
	movabsq	$-8446744073709551616, %rcx
	movq	%rcx, %rax
	mulq	600(%rsp,%r10,8)
	movq	%rdx, %rsi
	movq	%rax, %rdi
	movq	%rcx, %rax
	mulq	608(%rsp,%r10,8)
	addq	%r9, %rdi
	adcq	%rsi, %rax
	movq	%rdx, %r9
	adcq	$0, %r9
	movq	%rdi, 600(%rsp,%r10,8)
	movq	%rax, 608(%rsp,%r10,8)
	addq	$2, %r10
	cmpq	%r10, %r11
	jne	.Lunix_path_BB40_8
	testb	$1, %r8b
	je	.Lunix_path_BB40_11
.Lunix_path_BB40_10:
	movabsq	$-8446744073709551616, %rax
	mulq	600(%rsp,%r10,8)
	addq	%r9, %rax
	adcq	$0, %rdx
	movq	%rax, 600(%rsp,%r10,8)
	movq	%rdx, %r9
.Lunix_path_BB40_11:
	testq	%r9, %r9
	je	.Lunix_path_BB40_13
	movq	%r9, 600(%rsp,%r8,8)
	incq	%r8
	movq	%r8, 1192(%rsp)
.Lunix_path_BB40_13:
	addq	$-19, %r12
	cmpq	$19, %r12
	ja	.Lunix_path_BB40_3
.Lunix_path_BB40_14:
	movq	1192(%rsp), %r8
	testq	%r8, %r8
	je	.Lunix_path_BB40_45
	leaq	.Lunix_path_static.46(%rip), %rax
	movq	(%rax,%r12,8), %rcx
	cmpq	$1, %r8
	jne	.Lunix_path_BB40_17
	xorl	%r9d, %r9d
	xorl	%r10d, %r10d
	jmp	.Lunix_path_BB40_20
.Lunix_path_BB40_17:
	movq	%r8, %r11
	andq	$-2, %r11
	xorl	%r9d, %r9d
	xorl	%r10d, %r10d
	.p2align	4
.Lunix_path_BB40_18:
	movq	%rcx, %rax
	mulq	600(%rsp,%r10,8)
	movq	%rdx, %rsi
	movq	%rax, %rdi
	movq	%rcx, %rax
	mulq	608(%rsp,%r10,8)
	addq	%r9, %rdi
	adcq	%rsi, %rax
	movq	%rdx, %r9
	adcq	$0, %r9
	movq	%rdi, 600(%rsp,%r10,8)
	movq	%rax, 608(%rsp,%r10,8)
	addq	$2, %r10
	cmpq	%r10, %r11
	jne	.Lunix_path_BB40_18
	testb	$1, %r8b
	je	.Lunix_path_BB40_21
.Lunix_path_BB40_20:
	movq	%rcx, %rax
	mulq	600(%rsp,%r10,8)
	addq	%r9, %rax
	adcq	$0, %rdx
	movq	%rax, 600(%rsp,%r10,8)
	movq	%rdx, %r9
.Lunix_path_BB40_21:
	testq	%r9, %r9
	je	.Lunix_path_BB40_23
	movq	%r9, 600(%rsp,%r8,8)
	incq	%r8
	movq	%r8, 1192(%rsp)
	jmp	.Lunix_path_BB40_24
.Lunix_path_BB40_23:
	movq	1192(%rsp), %r8
.Lunix_path_BB40_24:
	xorl	%ecx, %ecx
	movl	$1075, %eax
	subq	%rbx, %rax
	cmovaeq	%rax, %rcx
	cmpq	$64, %rcx
	jb	.Lunix_path_BB40_36
	testq	%r8, %r8
	jne	.Lunix_path_BB40_27
	jmp	.Lunix_path_BB40_45
	.p2align	4
.Lunix_path_BB40_26:
	addq	$-63, %rcx
	movq	1192(%rsp), %r8
	cmpq	$63, %rcx
	jbe	.Lunix_path_BB40_36
.Lunix_path_BB40_27:
	testq	%r8, %r8
	je	.Lunix_path_BB40_26
	cmpq	$1, %r8
	jne	.Lunix_path_BB40_30
	xorl	%eax, %eax
	xorl	%edx, %edx
	jmp	.Lunix_path_BB40_33
	.p2align	4
.Lunix_path_BB40_30:
	movq	%r8, %rsi
	andq	$-2, %rsi
	xorl	%eax, %eax
	xorl	%edx, %edx
	.p2align	4
.Lunix_path_BB40_31:
	movq	600(%rsp,%rdx,8), %rdi
	movq	%rdi, %r9
	shlq	$63, %r9
	orq	%rax, %r9
	movq	608(%rsp,%rdx,8), %rax
	movq	%r9, 600(%rsp,%rdx,8)
	shrdq	$1, %rax, %rdi
	movq	%rdi, 608(%rsp,%rdx,8)
	shrq	%rax
	addq	$2, %rdx
	cmpq	%rdx, %rsi
	jne	.Lunix_path_BB40_31
	testb	$1, %r8b
	je	.Lunix_path_BB40_34
.Lunix_path_BB40_33:
	movq	600(%rsp,%rdx,8), %rsi
	movq	%rsi, %rdi
	shlq	$63, %rdi
	orq	%rax, %rdi
	movq	%rdi, 600(%rsp,%rdx,8)
	shrq	%rsi
	movq	%rsi, %rax
.Lunix_path_BB40_34:
	testq	%rax, %rax
	je	.Lunix_path_BB40_26
	movq	%rax, 600(%rsp,%r8,8)
	incq	%r8
	movq	%r8, 1192(%rsp)
	jmp	.Lunix_path_BB40_26
.Lunix_path_BB40_36:
	testq	%r8, %r8
	je	.Lunix_path_BB40_45
	cmpq	$1, %r8
	jne	.Lunix_path_BB40_39
	xorl	%eax, %eax
	xorl	%edx, %edx
	jmp	.Lunix_path_BB40_42
.Lunix_path_BB40_39:
	movq	%r8, %rsi
	andq	$-2, %rsi
	xorl	%eax, %eax
	xorl	%edx, %edx
	.p2align	4
.Lunix_path_BB40_40:
	movq	608(%rsp,%rdx,8), %r9
	movq	%r9, %r10
	shlq	%cl, %r10
	xorl	%edi, %edi
	testb	$64, %cl
	movq	%r10, %r11
	cmovneq	%rdi, %r11
	xorl	%r12d, %r12d
	shldq	%cl, %r9, %r12
	movq	600(%rsp,%rdx,8), %r9
	testb	$64, %cl
	cmovneq	%r10, %r12
	movq	%r9, %r10
	shlq	%cl, %r10
	testb	$64, %cl
	movq	%r10, %r13
	cmovneq	%rdi, %r13
	shldq	%cl, %r9, %rdi
	testb	$64, %cl
	cmovneq	%r10, %rdi
	addq	%rax, %r13
	adcq	$0, %rdi
	addq	%r11, %rdi
	movq	%r12, %rax
	adcq	$0, %rax
	movq	%r13, 600(%rsp,%rdx,8)
	movq	%rdi, 608(%rsp,%rdx,8)
	addq	$2, %rdx
	cmpq	%rdx, %rsi
	jne	.Lunix_path_BB40_40
	testb	$1, %r8b
	je	.Lunix_path_BB40_43
.Lunix_path_BB40_42:
	movq	600(%rsp,%rdx,8), %rsi
	xorl	%edi, %edi
	shldq	%cl, %rsi, %rdi
	shlq	%cl, %rsi
	xorl	%r9d, %r9d
	testb	$64, %cl
	cmovneq	%rsi, %rdi
	cmovneq	%r9, %rsi
	addq	%rax, %rsi
	adcq	$0, %rdi
	movq	%rsi, 600(%rsp,%rdx,8)
	movq	%rdi, %rax
.Lunix_path_BB40_43:
	testq	%rax, %rax
	je	.Lunix_path_BB40_45
	movq	%rax, 600(%rsp,%r8,8)
	incq	%r8
	movq	%r8, 1192(%rsp)
.Lunix_path_BB40_45:
	leaq	1(,%r14,2), %rax
	movq	%rax, (%rsp)
	leaq	8(%rsp), %rdi
	movl	$584, %edx
	xorl	%esi, %esi
	callq	memset@PLT
	movq	$1, 592(%rsp)
	movl	$1, %r8d
	cmpq	$20, %r15
	jae	.Lunix_path_BB40_47
	jmp	.Lunix_path_BB40_57
	.p2align	4
.Lunix_path_BB40_46:
	addq	$-19, %r15
	movq	592(%rsp), %r8
	cmpq	$19, %r15
	jbe	.Lunix_path_BB40_56
.Lunix_path_BB40_47:
	testq	%r8, %r8
	je	.Lunix_path_BB40_46
	cmpq	$1, %r8
	jne	.Lunix_path_BB40_50
	xorl	%r9d, %r9d
	xorl	%r10d, %r10d
	jmp	.Lunix_path_BB40_53
	.p2align	4
.Lunix_path_BB40_50:
	movq	%r8, %r11
	andq	$-2, %r11
	xorl	%r9d, %r9d
	xorl	%r10d, %r10d
	.p2align	4
.Lunix_path_BB40_51:
	movabsq	$-8446744073709551616, %rcx
	movq	%rcx, %rax
	mulq	(%rsp,%r10,8)
	movq	%rdx, %rsi
	movq	%rax, %rdi
	movq	%rcx, %rax
	mulq	8(%rsp,%r10,8)
	addq	%r9, %rdi
	adcq	%rsi, %rax
	movq	%rdx, %r9
	adcq	$0, %r9
	movq	%rdi, (%rsp,%r10,8)
	movq	%rax, 8(%rsp,%r10,8)
	addq	$2, %r10
	cmpq	%r10, %r11
	jne	.Lunix_path_BB40_51
	testb	$1, %r8b
	je	.Lunix_path_BB40_54
.Lunix_path_BB40_53:
	movabsq	$-8446744073709551616, %rax
	mulq	(%rsp,%r10,8)
	addq	%r9, %rax
	adcq	$0, %rdx
	movq	%rax, (%rsp,%r10,8)
	movq	%rdx, %r9
.Lunix_path_BB40_54:
	testq	%r9, %r9
	je	.Lunix_path_BB40_46
	movq	%r9, (%rsp,%r8,8)
	incq	%r8
	movq	%r8, 592(%rsp)
	jmp	.Lunix_path_BB40_46
.Lunix_path_BB40_56:
	testq	%r8, %r8
	je	.Lunix_path_BB40_89
.Lunix_path_BB40_57:
	leaq	.Lunix_path_static.46(%rip), %rax
	movq	(%rax,%r15,8), %rcx
	cmpq	$1, %r8
	jne	.Lunix_path_BB40_59
	xorl	%r9d, %r9d
	xorl	%r10d, %r10d
	jmp	.Lunix_path_BB40_62
.Lunix_path_BB40_59:
	movq	%r8, %r11
	andq	$-2, %r11
	xorl	%r9d, %r9d
	xorl	%r10d, %r10d
	.p2align	4
.Lunix_path_BB40_60:
	movq	%rcx, %rax
	mulq	(%rsp,%r10,8)
	movq	%rdx, %rsi
	movq	%rax, %rdi
	movq	%rcx, %rax
	mulq	8(%rsp,%r10,8)
	addq	%r9, %rdi
	adcq	%rsi, %rax
	movq	%rdx, %r9
	adcq	$0, %r9
	movq	%rdi, (%rsp,%r10,8)
	movq	%rax, 8(%rsp,%r10,8)
	addq	$2, %r10
	cmpq	%r10, %r11
	jne	.Lunix_path_BB40_60
	testb	$1, %r8b
	je	.Lunix_path_BB40_63
.Lunix_path_BB40_62:
	movq	%rcx, %rax
	mulq	(%rsp,%r10,8)
	addq	%r9, %rax
	adcq	$0, %rdx
	movq	%rax, (%rsp,%r10,8)
	movq	%rdx, %r9
.Lunix_path_BB40_63:
	testq	%r9, %r9
	je	.Lunix_path_BB40_65
	movq	%r9, (%rsp,%r8,8)
	incq	%r8
	movq	%r8, 592(%rsp)
	jmp	.Lunix_path_BB40_66
.Lunix_path_BB40_65:
	movq	592(%rsp), %r8
.Lunix_path_BB40_66:
	xorl	%ecx, %ecx
	movq	%rbx, %rax
	subq	$1075, %rax
	cmovaeq	%rax, %rcx
	cmpq	$64, %rcx
	jb	.Lunix_path_BB40_79
	testq	%r8, %r8
	jne	.Lunix_path_BB40_70
	jmp	.Lunix_path_BB40_89
	.p2align	4
.Lunix_path_BB40_69:
	addq	$-63, %rcx
	movq	592(%rsp), %r8
	cmpq	$63, %rcx
	jbe	.Lunix_path_BB40_79
.Lunix_path_BB40_70:
	testq	%r8, %r8
	je	.Lunix_path_BB40_69
	cmpq	$1, %r8
	jne	.Lunix_path_BB40_73
	xorl	%eax, %eax
	xorl	%edx, %edx
	jmp	.Lunix_path_BB40_76
	.p2align	4
.Lunix_path_BB40_73:
	movq	%r8, %rsi
	andq	$-2, %rsi
	xorl	%eax, %eax
	xorl	%edx, %edx
	.p2align	4
.Lunix_path_BB40_74:
	movq	(%rsp,%rdx,8), %rdi
	movq	%rdi, %r9
	shlq	$63, %r9
	orq	%rax, %r9
	movq	8(%rsp,%rdx,8), %rax
	movq	%r9, (%rsp,%rdx,8)
	shrdq	$1, %rax, %rdi
	movq	%rdi, 8(%rsp,%rdx,8)
	shrq	%rax
	addq	$2, %rdx
	cmpq	%rdx, %rsi
	jne	.Lunix_path_BB40_74
	testb	$1, %r8b
	je	.Lunix_path_BB40_77
.Lunix_path_BB40_76:
	movq	(%rsp,%rdx,8), %rsi
	movq	%rsi, %rdi
	shlq	$63, %rdi
	orq	%rax, %rdi
	movq	%rdi, (%rsp,%rdx,8)
	shrq	%rsi
	movq	%rsi, %rax
.Lunix_path_BB40_77:
	testq	%rax, %rax
	je	.Lunix_path_BB40_69
	movq	%rax, (%rsp,%r8,8)
	incq	%r8
	movq	%r8, 592(%rsp)
	jmp	.Lunix_path_BB40_69
.Lunix_path_BB40_79:
	testq	%r8, %r8
	je	.Lunix_path_BB40_89
	cmpq	$1, %r8
	jne	.Lunix_path_BB40_83
	xorl	%eax, %eax
	xorl	%edx, %edx
	jmp	.Lunix_path_BB40_86
.Lunix_path_BB40_89:
	xorl	%r8d, %r8d
	jmp	.Lunix_path_BB40_91
.Lunix_path_BB40_83:
	movq	%r8, %rsi
	andq	$-2, %rsi
	xorl	%eax, %eax
	xorl	%edx, %edx
	.p2align	4
.Lunix_path_BB40_84:
	movq	8(%rsp,%rdx,8), %r9
	movq	%r9, %r10
	shlq	%cl, %r10
	xorl	%edi, %edi
	testb	$64, %cl
	movq	%r10, %r11
	cmovneq	%rdi, %r11
	xorl	%r15d, %r15d
	shldq	%cl, %r9, %r15
	movq	(%rsp,%rdx,8), %r9
	testb	$64, %cl
	cmovneq	%r10, %r15
	movq	%r9, %r10
	shlq	%cl, %r10
	testb	$64, %cl
	movq	%r10, %r12
	cmovneq	%rdi, %r12
	shldq	%cl, %r9, %rdi
	testb	$64, %cl
	cmovneq	%r10, %rdi
	addq	%rax, %r12
	adcq	$0, %rdi
	addq	%r11, %rdi
	movq	%r15, %rax
	adcq	$0, %rax
	movq	%r12, (%rsp,%rdx,8)
	movq	%rdi, 8(%rsp,%rdx,8)
	addq	$2, %rdx
	cmpq	%rdx, %rsi
	jne	.Lunix_path_BB40_84
	testb	$1, %r8b
	je	.Lunix_path_BB40_87
.Lunix_path_BB40_86:
	movq	(%rsp,%rdx,8), %rsi
	xorl	%edi, %edi
	shldq	%cl, %rsi, %rdi
	shlq	%cl, %rsi
	xorl	%r9d, %r9d
	testb	$64, %cl
	cmovneq	%rsi, %rdi
	cmovneq	%r9, %rsi
	addq	%rax, %rsi
	adcq	$0, %rdi
	movq	%rsi, (%rsp,%rdx,8)
	movq	%rdi, %rax
.Lunix_path_BB40_87:
	testq	%rax, %rax
	je	.Lunix_path_BB40_90
	movq	%rax, (%rsp,%r8,8)
	incq	%r8
	movq	%r8, 592(%rsp)
	jmp	.Lunix_path_BB40_91
.Lunix_path_BB40_90:
	movq	592(%rsp), %r8
.Lunix_path_BB40_91:
	movq	1192(%rsp), %rax
	cmpq	%rax, %r8
	cmovaq	%r8, %rax
	.p2align	4
.Lunix_path_BB40_92:
	subq	$1, %rax
	jb	.Lunix_path_BB40_96
	movq	600(%rsp,%rax,8), %rcx
	movq	(%rsp,%rax,8), %rdx
	cmpq	%rdx, %rcx
	jb	.Lunix_path_BB40_97
	jbe	.Lunix_path_BB40_92
	shlq	$52, %rbx
	leaq	(%r14,%rbx), %rcx
	incq	%rcx
	movabsq	$9218868437227405312, %rax
	cmpq	%rax, %rcx
	cmovbq	%rcx, %rax
	jmp	.Lunix_path_BB40_99
.Lunix_path_BB40_96:
	movl	%r14d, %eax
	andl	$1, %eax
	addq	%r14, %rax
	shlq	$52, %rbx
	addq	%rax, %rbx
	jmp	.Lunix_path_BB40_98
.Lunix_path_BB40_97:
	shlq	$52, %rbx
	addq	%r14, %rbx
.Lunix_path_BB40_98:
	movabsq	$9218868437227405312, %rax
	cmpq	%rax, %rbx
	cmovaeq	%rax, %rbx
	movq	%rbx, %rax
.Lunix_path_BB40_99:
	addq	$1200, %rsp
	popq	%rbx
	popq	%r12
	popq	%r13
	popq	%r14
	popq	%r15
	retq
.Lunix_path_func_end40:
	.size	core.dec2flt.decimal.break_tie.1d521972340cebc2., .Lunix_path_func_end40-core.dec2flt.decimal.break_tie.1d521972340cebc2.
	.section	.text.unlikely.ryu.shortest.long_form.fb1fd16ba1bdda57.,"ax",@progbits
	.p2align	4
	.type	ryu.shortest.long_form.fb1fd16ba1bdda57.,@function
# ryu::shortest::long_form::<#fb1fd16ba1bdda57>
ryu.shortest.long_form.fb1fd16ba1bdda57.:
	imulq	$315653, %rsi, %r8
	addq	$80396859, %r8
	shrq	$20, %r8
	movl	$741, %r9d
	subq	%r8, %r9
	imull	$217706, %r9d, %ecx
	addl	$58980, %ecx
	shrl	$16, %ecx
	addl	%esi, %ecx
	shlq	$4, %r9
	leaq	.Lunix_path_static.45(%rip), %r10
	addb	$100, %cl
	shlq	%cl, %rdi
	movq	%rdi, %rax
	mulq	8(%r9,%r10)
	movq	%rdx, %rcx
	movq	%rax, %rsi
	movq	%rdi, %rax
	mulq	(%r9,%r10)
	addq	%rdx, %rsi
	adcq	$0, %rcx
	shrdq	$6, %rcx, %rsi
	shrq	$5, %rcx
	andq	$-2, %rcx
	leaq	(%rcx,%rcx,4), %rcx
	movl	$10, %edx
	movq	%rsi, %rax
	mulq	%rdx
	movabsq	$-9223372036854775808, %rsi
	addq	%rax, %rsi
	adcq	%rdx, %rcx
	movq	%rcx, %rax
	movq	%r8, %rdx
	retq
.Lunix_path_func_end41:
	.size	ryu.shortest.long_form.fb1fd16ba1bdda57., .Lunix_path_func_end41-ryu.shortest.long_form.fb1fd16ba1bdda57.
	.section	.rodata.cst16,"aM",@progbits,16
	.p2align	4, 0x0
.Lunix_path_CPI42_0:
	.short	5243
	.short	5243
	.short	5243
	.short	5243
	.short	5243
	.short	5243
	.short	5243
	.short	5243
.Lunix_path_CPI42_1:
	.short	65436
	.short	65436
	.short	65436
	.short	65436
	.zero	2
	.zero	2
	.zero	2
	.zero	2
.Lunix_path_CPI42_2:
	.short	52429
	.short	52429
	.short	52429
	.short	52429
	.short	52429
	.short	52429
	.short	52429
	.short	52429
.Lunix_path_CPI42_3:
	.short	62977
	.short	62977
	.short	62977
	.short	62977
	.short	62977
	.short	62977
	.short	62977
	.short	62977
.Lunix_path_CPI42_4:
	.zero	16,48
.Lunix_path_CPI42_5:
	.zero	16,15
	.section	.text.unlikely.json.write.Writer.float_slowly.e23ad144bd04ea1b.,"ax",@progbits
	.p2align	4
	.type	json.write.Writer.float_slowly.e23ad144bd04ea1b.,@function
# json::write::Writer::float_slowly::<#e23ad144bd04ea1b>
json.write.Writer.float_slowly.e23ad144bd04ea1b.:
	pushq	%rbp
	pushq	%r15
	pushq	%r14
	pushq	%r13
	pushq	%r12
	pushq	%rbx
	subq	$120, %rsp
	movq	%rdi, %rbx
	pxor	%xmm1, %xmm1
	movdqu	%xmm1, 96(%rsp)
	movdqu	%xmm1, 81(%rsp)
	movq	%xmm0, %rax
	movq	%rax, %r15
	shrq	$63, %r15
	movabsq	$9223372036854775807, %rsi
	movb	$45, 80(%rsp)
	andq	%rax, %rsi
	je	.Lunix_path_BB42_11
	movdqa	%xmm1, (%rsp)
	movq	$0, 16(%rsp)
	movq	%rsi, %rax
	shrq	$52, %rax
	je	.Lunix_path_BB42_7
	movabsq	$4503599627370496, %rcx
	leaq	-1(%rcx), %r9
	andq	%rsi, %r9
	je	.Lunix_path_BB42_7
	orq	%rcx, %r9
	imull	$315653, %eax, %r10d
	addl	$80103425, %r10d
	shrl	$20, %r10d
	movl	$741, %r14d
	subl	%r10d, %r14d
	imull	$217706, %r14d, %r11d
	addl	$58980, %r11d
	shrl	$16, %r11d
	addl	%eax, %r11d
	shll	$4, %r14d
	leaq	.Lunix_path_static.45(%rip), %r12
	movq	8(%r14,%r12), %r8
	leal	99(%r11), %ecx
	shlq	%cl, %r9
	movq	%r8, %rax
	mulq	%r9
	movq	%rdx, %rdi
	movq	%rax, %rcx
	movq	%r9, %rax
	mulq	(%r14,%r12)
	addq	%rcx, %rdx
	adcq	$0, %rdi
	movb	$-92, %cl
	subb	%r11b, %cl
	shrq	%cl, %r8
	movabsq	$922337203685477601, %rax
	cmpq	%rax, %r8
	jb	.Lunix_path_BB42_7
	shrdq	$6, %rdi, %rdx
	leaq	(%r8,%rdx), %rax
	decq	%rax
	cmpq	$-3, %rax
	ja	.Lunix_path_BB42_7
	movq	%r8, %rax
	subq	%rdx, %rax
	cmpq	$1, %rax
	jbe	.Lunix_path_BB42_7
	shrq	$6, %rdi
	movabsq	$4611686018427387904, %rax
	xorl	%ecx, %ecx
	cmpq	%rax, %rdx
	sete	%cl
	movl	$10, %esi
	movq	%rdx, %rax
	movq	%rdx, %r9
	mulq	%rsi
	movq	%rdx, %rsi
	movabsq	$-9223372036854775802, %rdx
	addq	%rax, %rdx
	adcq	$0, %rsi
	subq	%rcx, %rsi
	movq	%r9, %rax
	addq	%r8, %rax
	adcq	$0, %rdi
	xorl	%eax, %eax
	cmpq	%r9, %r8
	cmovaq	%rax, %rsi
	addq	%r8, %r9
	cmovbq	%rax, %rsi
	jmp	.Lunix_path_BB42_8
.Lunix_path_BB42_7:
	movq	%rsp, %rdi
	callq	ryu.shortest.shortest_slowly.fb1fd16ba1bdda57.
	movq	(%rsp), %rdi
	movq	8(%rsp), %rsi
	movq	16(%rsp), %r10
.Lunix_path_BB42_8:
	movabsq	$-6067343680855748867, %rcx
	movq	%rdi, %rax
	mulq	%rcx
	shrq	$26, %rdx
	imulq	$109951163, %rdx, %rax
	imulq	$100000000, %rdx, %rcx
	shlq	$16, %rdx
	shrq	$40, %rax
	imulq	$-655359999, %rax, %rax
	movq	%rdi, %r8
	subq	%rcx, %r8
	imulq	$109951163, %r8, %rcx
	shrq	$40, %rcx
	shlq	$48, %r8
	addq	%rdx, %r8
	addq	%rax, %r8
	movabsq	$-2814749762811592704, %rax
	imulq	%rcx, %rax
	addq	%r8, %rax
	movq	%rax, %xmm0
	movdqa	%xmm0, %xmm2
	psrlw	$2, %xmm2
	pmulhuw	.Lunix_path_CPI42_0(%rip), %xmm2
	psrlw	$1, %xmm2
	movdqa	.Lunix_path_CPI42_1(%rip), %xmm1
	pmullw	%xmm2, %xmm1
	paddw	%xmm0, %xmm1
	punpcklwd	%xmm1, %xmm2
	movdqa	.Lunix_path_CPI42_2(%rip), %xmm1
	pmulhuw	%xmm2, %xmm1
	psrlw	$3, %xmm1
	pmullw	.Lunix_path_CPI42_3(%rip), %xmm1
	psllw	$8, %xmm2
	paddw	%xmm2, %xmm1
	xorl	%r8d, %r8d
	testb	%sil, %sil
	setne	%r8b
	pxor	%xmm0, %xmm0
	pcmpeqb	%xmm1, %xmm0
	pmovmskb	%xmm0, %eax
	xorl	$65535, %eax
	shll	$16, %r8d
	paddb	.Lunix_path_CPI42_4(%rip), %xmm1
	orl	%eax, %r8d
	addb	$48, %sil
	movabsq	$1000000000000000, %r9
	xorl	%ecx, %ecx
	cmpq	%r9, %rdi
	setb	%cl
	movq	%rcx, %rax
	negq	%rax
	movl	$127, %edx
	bsrq	%r8, %rdx
	xorq	$-64, %rdx
	addq	$65, %rdx
	movq	%r10, %r8
	subq	%rcx, %r8
	leaq	-384(%r8), %r11
	cmpq	$15, %r11
	ja	.Lunix_path_BB42_12
	addq	$-383, %r10
	cmpq	%rdx, %r10
	jae	.Lunix_path_BB42_14
	movq	%r10, %rdi
	shlq	$4, %rdi
	leaq	.Lunix_path_static.47(%rip), %r8
	addq	%r10, %r8
	addq	%rdi, %r8
	movdqu	-17(%rcx,%r8), %xmm0
	leaq	(%rsp,%r15), %rcx
	addq	$80, %rcx
	movdqu	%xmm1, 1(%rax,%rcx)
	movb	%sil, 17(%rax,%rcx)
	movdqa	%xmm1, (%rsp)
	movdqa	.Lunix_path_CPI42_5(%rip), %xmm1
	pand	%xmm0, %xmm1
	movdqa	%xmm1, 32(%rsp)
	movzbl	47(%rsp), %esi
	movzbl	(%rsp,%rsi), %esi
	movd	%esi, %xmm2
	movzbl	46(%rsp), %esi
	movzbl	(%rsp,%rsi), %esi
	movd	%esi, %xmm1
	movzbl	45(%rsp), %esi
	movzbl	(%rsp,%rsi), %esi
	movd	%esi, %xmm4
	movzbl	44(%rsp), %esi
	movzbl	(%rsp,%rsi), %esi
	movd	%esi, %xmm3
	movzbl	43(%rsp), %esi
	movzbl	(%rsp,%rsi), %esi
	movd	%esi, %xmm6
	movzbl	42(%rsp), %esi
	movzbl	(%rsp,%rsi), %esi
	movd	%esi, %xmm7
	movzbl	41(%rsp), %esi
	movzbl	(%rsp,%rsi), %esi
	movd	%esi, %xmm8
	movzbl	40(%rsp), %esi
	movzbl	(%rsp,%rsi), %esi
	movd	%esi, %xmm5
	movzbl	39(%rsp), %esi
	movzbl	(%rsp,%rsi), %esi
	movd	%esi, %xmm9
	movzbl	38(%rsp), %esi
	movzbl	(%rsp,%rsi), %esi
	movd	%esi, %xmm10
	movzbl	37(%rsp), %esi
	movzbl	(%rsp,%rsi), %esi
	movd	%esi, %xmm12
	movzbl	36(%rsp), %esi
	movzbl	(%rsp,%rsi), %esi
	movd	%esi, %xmm11
	movzbl	35(%rsp), %esi
	movzbl	(%rsp,%rsi), %esi
	movd	%esi, %xmm13
	movzbl	34(%rsp), %esi
	movzbl	(%rsp,%rsi), %esi
	movd	%esi, %xmm14
	movzbl	33(%rsp), %esi
	movzbl	(%rsp,%rsi), %esi
	movd	%esi, %xmm15
	movzbl	32(%rsp), %esi
	punpcklbw	%xmm2, %xmm1
	movzbl	(%rsp,%rsi), %esi
	movd	%esi, %xmm2
	punpcklbw	%xmm4, %xmm3
	punpcklwd	%xmm1, %xmm3
	punpcklbw	%xmm6, %xmm7
	punpcklbw	%xmm8, %xmm5
	punpcklwd	%xmm7, %xmm5
	punpckldq	%xmm3, %xmm5
	punpcklbw	%xmm9, %xmm10
	punpcklbw	%xmm12, %xmm11
	punpcklwd	%xmm10, %xmm11
	punpcklbw	%xmm13, %xmm14
	punpcklbw	%xmm15, %xmm2
	punpcklwd	%xmm14, %xmm2
	punpckldq	%xmm11, %xmm2
	punpcklqdq	%xmm5, %xmm2
	pcmpeqd	%xmm1, %xmm1
	pcmpgtb	%xmm1, %xmm0
	pand	%xmm2, %xmm0
	movdqu	%xmm0, 80(%rsp,%r15)
	addq	%rax, %rcx
	movb	$46, (%r10,%rcx)
	addq	%rax, %r15
	addq	%rdx, %r15
	incq	%r15
	jmp	.Lunix_path_BB42_16
.Lunix_path_BB42_11:
	movw	$11824, 80(%rsp,%r15)
	movb	$48, 82(%rsp,%r15)
	addq	$3, %r15
	jmp	.Lunix_path_BB42_16
.Lunix_path_BB42_12:
	addq	$17, %r8
	leaq	-396(%r8), %r11
	cmpq	$4, %r11
	ja	.Lunix_path_BB42_15
	movdqa	.Lunix_path_CPI42_4(%rip), %xmm0
	movdqu	%xmm0, 80(%rsp,%r15)
	movq	%r15, %rax
	subq	%r10, %rax
	movdqu	%xmm1, 465(%rsp,%rax)
	movb	%sil, 481(%rsp,%rax)
	movb	$46, 81(%rsp,%r15)
	leaq	(%rdx,%rax), %r15
	addq	$385, %r15
	jmp	.Lunix_path_BB42_16
.Lunix_path_BB42_14:
	leaq	.Lunix_path_static.47(%rip), %rdx
	movdqu	255(%rcx,%rdx), %xmm0
	movdqa	%xmm1, (%rsp)
	movdqa	.Lunix_path_CPI42_5(%rip), %xmm1
	pand	%xmm0, %xmm1
	movdqa	%xmm1, 48(%rsp)
	movzbl	63(%rsp), %ecx
	movzbl	(%rsp,%rcx), %ecx
	movd	%ecx, %xmm1
	movzbl	62(%rsp), %ecx
	movzbl	(%rsp,%rcx), %ecx
	movd	%ecx, %xmm3
	movzbl	61(%rsp), %ecx
	movzbl	(%rsp,%rcx), %ecx
	movd	%ecx, %xmm4
	movzbl	60(%rsp), %ecx
	movzbl	(%rsp,%rcx), %ecx
	movd	%ecx, %xmm2
	movzbl	59(%rsp), %ecx
	movzbl	(%rsp,%rcx), %ecx
	movd	%ecx, %xmm5
	movzbl	58(%rsp), %ecx
	punpcklbw	%xmm1, %xmm3
	movzbl	(%rsp,%rcx), %ecx
	movd	%ecx, %xmm6
	movzbl	57(%rsp), %ecx
	punpcklbw	%xmm4, %xmm2
	movzbl	(%rsp,%rcx), %ecx
	movd	%ecx, %xmm4
	movzbl	56(%rsp), %ecx
	punpcklwd	%xmm3, %xmm2
	movzbl	(%rsp,%rcx), %ecx
	movd	%ecx, %xmm1
	movzbl	55(%rsp), %ecx
	punpcklbw	%xmm5, %xmm6
	movzbl	(%rsp,%rcx), %ecx
	movd	%ecx, %xmm3
	movzbl	54(%rsp), %ecx
	punpcklbw	%xmm4, %xmm1
	movzbl	(%rsp,%rcx), %ecx
	movd	%ecx, %xmm4
	movzbl	53(%rsp), %ecx
	punpcklwd	%xmm6, %xmm1
	movzbl	(%rsp,%rcx), %ecx
	movd	%ecx, %xmm5
	movzbl	52(%rsp), %ecx
	punpckldq	%xmm2, %xmm1
	movzbl	(%rsp,%rcx), %ecx
	movd	%ecx, %xmm2
	movzbl	51(%rsp), %ecx
	punpcklbw	%xmm3, %xmm4
	movzbl	(%rsp,%rcx), %ecx
	movd	%ecx, %xmm3
	movzbl	50(%rsp), %ecx
	punpcklbw	%xmm5, %xmm2
	movzbl	(%rsp,%rcx), %ecx
	movd	%ecx, %xmm5
	movzbl	49(%rsp), %ecx
	punpcklwd	%xmm4, %xmm2
	movzbl	(%rsp,%rcx), %ecx
	movd	%ecx, %xmm4
	movzbl	48(%rsp), %ecx
	punpcklbw	%xmm3, %xmm5
	movzbl	(%rsp,%rcx), %ecx
	movd	%ecx, %xmm3
	punpcklbw	%xmm4, %xmm3
	punpcklwd	%xmm5, %xmm3
	punpckldq	%xmm2, %xmm3
	punpcklqdq	%xmm1, %xmm3
	pcmpeqd	%xmm1, %xmm1
	pcmpgtb	%xmm1, %xmm0
	pand	%xmm3, %xmm0
	leaq	(%rsp,%r15), %rcx
	addq	$80, %rcx
	movdqu	%xmm0, 80(%rsp,%r15)
	movb	%sil, 16(%rax,%rcx)
	addq	%rax, %r15
	leaq	(%r15,%r10), %rax
	movw	$12334, 80(%rsp,%rax)
	addq	%r10, %r15
	addq	$2, %r15
	jmp	.Lunix_path_BB42_16
.Lunix_path_BB42_15:
	movl	$17, %r10d
	shlq	%cl, %r10
	leaq	.Lunix_path_static.47(%rip), %r11
	addq	%r10, %r11
	cmpq	%r9, %rdi
	leaq	80(%rsp,%r15), %rdi
	movdqu	%xmm1, 1(%rdi,%rax)
	movb	%sil, 17(%rdi,%rax)
	movdqa	%xmm1, (%rsp)
	movdqu	-17(%rcx,%r11), %xmm0
	movdqa	.Lunix_path_CPI42_5(%rip), %xmm1
	pand	%xmm0, %xmm1
	movdqa	%xmm1, 64(%rsp)
	movzbl	79(%rsp), %esi
	movzbl	(%rsp,%rsi), %esi
	movd	%esi, %xmm8
	movzbl	78(%rsp), %esi
	movzbl	(%rsp,%rsi), %esi
	movd	%esi, %xmm1
	movzbl	77(%rsp), %esi
	movzbl	(%rsp,%rsi), %esi
	movd	%esi, %xmm3
	movzbl	76(%rsp), %esi
	movzbl	(%rsp,%rsi), %esi
	movd	%esi, %xmm2
	movzbl	75(%rsp), %esi
	movzbl	(%rsp,%rsi), %esi
	movd	%esi, %xmm4
	movzbl	74(%rsp), %esi
	movzbl	(%rsp,%rsi), %esi
	movd	%esi, %xmm6
	movzbl	73(%rsp), %esi
	movzbl	(%rsp,%rsi), %esi
	movd	%esi, %xmm7
	movzbl	72(%rsp), %esi
	movzbl	(%rsp,%rsi), %esi
	movd	%esi, %xmm5
	movzbl	71(%rsp), %esi
	movzbl	(%rsp,%rsi), %esi
	movd	%esi, %xmm9
	movzbl	70(%rsp), %esi
	movzbl	(%rsp,%rsi), %esi
	movd	%esi, %xmm10
	movzbl	69(%rsp), %esi
	movzbl	(%rsp,%rsi), %esi
	movd	%esi, %xmm12
	movzbl	68(%rsp), %esi
	movzbl	(%rsp,%rsi), %esi
	movd	%esi, %xmm11
	movzbl	67(%rsp), %esi
	movzbl	(%rsp,%rsi), %esi
	movd	%esi, %xmm13
	movzbl	66(%rsp), %esi
	movzbl	(%rsp,%rsi), %esi
	movd	%esi, %xmm14
	movzbl	65(%rsp), %esi
	movzbl	(%rsp,%rsi), %esi
	movd	%esi, %xmm15
	movzbl	64(%rsp), %esi
	punpcklbw	%xmm8, %xmm1
	movzbl	(%rsp,%rsi), %esi
	adcq	%rdi, %rax
	movd	%esi, %xmm8
	leaq	-1(%r8), %rsi
	movl	$401, %edi
	subl	%r8d, %edi
	addl	$65135, %r8d
	cmpq	$400, %rsi
	punpcklbw	%xmm3, %xmm2
	punpcklwd	%xmm1, %xmm2
	punpcklbw	%xmm4, %xmm6
	punpcklbw	%xmm7, %xmm5
	punpcklwd	%xmm6, %xmm5
	punpckldq	%xmm2, %xmm5
	punpcklbw	%xmm9, %xmm10
	punpcklbw	%xmm12, %xmm11
	punpcklwd	%xmm10, %xmm11
	punpcklbw	%xmm13, %xmm14
	punpcklbw	%xmm15, %xmm8
	punpcklwd	%xmm14, %xmm8
	punpckldq	%xmm11, %xmm8
	punpcklqdq	%xmm5, %xmm8
	pcmpeqd	%xmm1, %xmm1
	pcmpgtb	%xmm1, %xmm0
	pand	%xmm8, %xmm0
	movdqu	%xmm0, 80(%rsp,%r15)
	cmovbq	%rdi, %r8
	setb	%sil
	subq	%rcx, %rdx
	addq	%rdx, %r15
	cmpq	$2, %rdx
	sbbq	$-1, %r15
	movb	$46, 1(%rax)
	movb	$101, 80(%rsp,%r15)
	addb	%sil, %sil
	addb	$43, %sil
	leaq	2(%r15), %rcx
	cmpw	$100, %r8w
	sbbq	$-1, %rcx
	cmpw	$10, %r8w
	movq	%rcx, %rax
	sbbq	$-1, %rax
	movb	%sil, 81(%rsp,%r15)
	movzwl	%r8w, %edx
	imull	$52429, %edx, %esi
	shrl	$2, %edx
	imull	$5243, %edx, %edx
	shrl	$17, %edx
	addb	$48, %dl
	movb	%dl, 82(%rsp,%r15)
	shrl	$19, %esi
	imull	$6554, %esi, %edx
	shrl	$15, %edx
	andl	$-2, %edx
	leal	(%rdx,%rdx,4), %edx
	movl	%esi, %edi
	subl	%edx, %edi
	orb	$48, %dil
	movb	%dil, 80(%rsp,%rcx)
	addl	%esi, %esi
	leal	(%rsi,%rsi,4), %ecx
	subl	%ecx, %r8d
	orb	$48, %r8b
	movb	%r8b, 80(%rsp,%rax)
	incq	%rax
	movq	%rax, %r15
.Lunix_path_BB42_16:
	movzbl	40(%rbx), %r12d
	leaq	1(%r15), %rsi
	movq	8(%rbx), %rcx
	movq	24(%rbx), %rax
	subq	%rax, %rcx
	cmpq	%rcx, %rsi
	ja	.Lunix_path_BB42_33
.Lunix_path_BB42_17:
	movq	(%rbx), %r13
	movb	$44, (%r13,%rax)
	addq	%rax, %r12
	cmpq	$33, %r15
	jb	.Lunix_path_BB42_20
	cmpq	$65, %r15
	jb	.Lunix_path_BB42_22
	leaq	(%r12,%r13), %rdi
	leaq	-65(%r15), %rbp
	andq	$-32, %rbp
	leaq	32(%rbp), %r14
	leaq	80(%rsp), %rsi
	movq	%r14, %rdx
	callq	memcpy@PLT
	movq	%r15, %rax
	subq	%rbp, %rax
	addq	$-32, %rax
	jmp	.Lunix_path_BB42_23
.Lunix_path_BB42_20:
	cmpq	$16, %r15
	jb	.Lunix_path_BB42_27
	movaps	80(%rsp), %xmm0
	movups	%xmm0, (%r13,%r12)
	addq	%r12, %r13
	movdqu	64(%rsp,%r15), %xmm0
	movdqu	%xmm0, -16(%r15,%r13)
	jmp	.Lunix_path_BB42_24
.Lunix_path_BB42_22:
	xorl	%r14d, %r14d
	movq	%r15, %rax
.Lunix_path_BB42_23:
	leaq	(%rsp,%r14), %rcx
	addq	$80, %rcx
	movups	80(%rsp,%r14), %xmm0
	movups	96(%rsp,%r14), %xmm1
	addq	%r14, %r13
	leaq	(%r12,%r13), %rdx
	movups	%xmm1, 16(%r12,%r13)
	movups	%xmm0, (%r12,%r13)
	movdqu	-32(%rax,%rcx), %xmm0
	movdqu	-16(%rax,%rcx), %xmm1
	movdqu	%xmm1, -16(%rax,%rdx)
	movdqu	%xmm0, -32(%rax,%rdx)
.Lunix_path_BB42_24:
	addq	%r15, %r12
.Lunix_path_BB42_25:
	movq	%r12, 24(%rbx)
	movb	$1, 40(%rbx)
	xorl	%eax, %eax
.Lunix_path_BB42_26:
	addq	$120, %rsp
	popq	%rbx
	popq	%r12
	popq	%r13
	popq	%r14
	popq	%r15
	popq	%rbp
	retq
.Lunix_path_BB42_27:
	cmpq	$8, %r15
	jb	.Lunix_path_BB42_29
	movq	80(%rsp), %rax
	movq	%rax, (%r13,%r12)
	addq	%r12, %r13
	movq	72(%rsp,%r15), %rax
	movq	%rax, -8(%r15,%r13)
	jmp	.Lunix_path_BB42_24
.Lunix_path_BB42_29:
	cmpq	$4, %r15
	jb	.Lunix_path_BB42_31
	movl	80(%rsp), %eax
	movl	%eax, (%r13,%r12)
	addq	%r12, %r13
	movl	76(%rsp,%r15), %eax
	movl	%eax, -4(%r15,%r13)
	jmp	.Lunix_path_BB42_24
.Lunix_path_BB42_31:
	cmpq	$2, %r15
	jb	.Lunix_path_BB42_35
	movl	80(%rsp), %eax
	movw	%ax, (%r13,%r12)
	addq	%r12, %r13
	movzwl	78(%rsp,%r15), %eax
	movw	%ax, -2(%r15,%r13)
	jmp	.Lunix_path_BB42_24
.Lunix_path_BB42_33:
	movq	%rbx, %rdi
	callq	json.write.sink.Sink.grow.2df68bf702f5d045.
	movl	%eax, %ecx
	movb	$1, %al
	testb	%cl, %cl
	jne	.Lunix_path_BB42_26
	movq	24(%rbx), %rax
	jmp	.Lunix_path_BB42_17
.Lunix_path_BB42_35:
	cmpq	$1, %r15
	jne	.Lunix_path_BB42_25
	movzbl	80(%rsp), %eax
	movb	%al, (%r13,%r12)
	incq	%r12
	jmp	.Lunix_path_BB42_25
.Lunix_path_func_end42:
	.size	json.write.Writer.float_slowly.e23ad144bd04ea1b., .Lunix_path_func_end42-json.write.Writer.float_slowly.e23ad144bd04ea1b.
	.section	.text.std_collections.btree.iter.Cursor.advance.dd2386031c731943.,"ax",@progbits
	.p2align	4
	.type	std_collections.btree.iter.Cursor.advance.dd2386031c731943.,@function
# std_collections::btree::iter::Cursor::advance::<#dd2386031c731943>
std_collections.btree.iter.Cursor.advance.dd2386031c731943.:
	pushq	%r15
	pushq	%r14
	pushq	%rbx
	movq	%rcx, %rax
	cmpq	$-1, %rsi
	je	.Lunix_path_BB43_1
	movl	%esi, %r9d
	andl	$15, %r9d
	movq	(%rdx), %r10
	movzwl	(%r10), %ecx
	cmpq	%rcx, %r9
	jae	.Lunix_path_BB43_8
	leaq	(%r9,%r9,2), %rax
	leaq	(%r10,%rax,8), %rcx
	addq	$8, %rcx
	shll	$5, %r9d
	leaq	(%r10,%r9), %r11
	addq	$368, %r11
	incq	%rsi
	movl	$1, %ebx
	movq	%rsi, %r9
	movq	%rdx, %rax
	cmpq	%r8, %r9
	je	.Lunix_path_BB43_22
	jmp	.Lunix_path_BB43_25
.Lunix_path_BB43_1:
	movq	(%rax), %rdx
	xorl	%ebx, %ebx
	cmpw	$1, 2(%rdx)
	movl	$0, %ecx
	movl	$0, %r11d
	movl	$0, %r9d
	je	.Lunix_path_BB43_21
	movq	848(%rdx), %rax
	cmpw	$1, 2(%rax)
	je	.Lunix_path_BB43_5
	.p2align	4
.Lunix_path_BB43_3:
	movq	%rax, %rdx
	movq	848(%rax), %rax
	cmpw	$1, 2(%rax)
	jne	.Lunix_path_BB43_3
.Lunix_path_BB43_5:
	addq	$848, %rdx
	xorl	%ebx, %ebx
	xorl	%ecx, %ecx
	xorl	%r11d, %r11d
	xorl	%r9d, %r9d
	movq	%rdx, %rax
.Lunix_path_BB43_21:
	cmpq	%r8, %r9
	jne	.Lunix_path_BB43_25
.Lunix_path_BB43_22:
	movq	%rbx, (%rdi)
	movq	%rcx, 8(%rdi)
	movq	%r11, 16(%rdi)
	xorps	%xmm0, %xmm0
	movups	%xmm0, 24(%rdi)
	movq	$0, 40(%rdi)
	popq	%rbx
	popq	%r14
	popq	%r15
	retq
.Lunix_path_BB43_8:
	movq	(%rax), %r11
	movzwl	2(%r11), %ecx
	cmpw	$1, %cx
	je	.Lunix_path_BB43_23
	xorl	%edx, %edx
	xorl	%r9d, %r9d
	xorl	%r10d, %r10d
	xorl	%ebx, %ebx
	xorl	%r14d, %r14d
	jmp	.Lunix_path_BB43_10
	.p2align	4
.Lunix_path_BB43_12:
	shlq	$4, %r14
	orq	%r15, %r14
	leaq	(%r11,%r15,8), %rax
	addq	$848, %rax
	movq	848(%r11,%r15,8), %r11
	movzwl	2(%r11), %ecx
	cmpw	$1, %cx
	je	.Lunix_path_BB43_13
.Lunix_path_BB43_10:
	shll	$2, %ecx
	addb	$-4, %cl
	movq	%rsi, %r15
	shrq	%cl, %r15
	andl	$15, %r15d
	movzwl	(%r11), %ecx
	cmpq	%rcx, %r15
	jae	.Lunix_path_BB43_12
	movb	$1, %bl
	movq	%rax, %r10
	movq	%r14, %r9
	movq	%r15, %rdx
	jmp	.Lunix_path_BB43_12
.Lunix_path_BB43_13:
	testb	%bl, %bl
	je	.Lunix_path_BB43_23
	movq	(%r10), %rax
	leaq	(%rdx,%rdx,2), %rcx
	movq	%rdx, %rsi
	shlq	$5, %rsi
	incq	%rdx
	cmpw	$1, 2(%rax)
	je	.Lunix_path_BB43_20
	shlq	$4, %r9
	addq	%rdx, %r9
	movq	848(%rax,%rdx,8), %r11
	cmpw	$1, 2(%r11)
	jne	.Lunix_path_BB43_17
	shlq	$3, %rdx
	movq	%rax, %r10
	jmp	.Lunix_path_BB43_19
	.p2align	4
.Lunix_path_BB43_17:
	movq	%r11, %r10
	shlq	$4, %r9
	movq	848(%r11), %r11
	cmpw	$1, 2(%r11)
	jne	.Lunix_path_BB43_17
	xorl	%edx, %edx
.Lunix_path_BB43_19:
	addq	%rdx, %r10
	addq	$848, %r10
	xorl	%edx, %edx
.Lunix_path_BB43_20:
	leaq	(%rax,%rcx,8), %rcx
	addq	$8, %rcx
	leaq	(%rax,%rsi), %r11
	addq	$368, %r11
	shlq	$4, %r9
	addq	%rdx, %r9
	movl	$1, %ebx
	movq	%r10, %rax
	cmpq	%r8, %r9
	je	.Lunix_path_BB43_22
.Lunix_path_BB43_25:
	movq	%rbx, (%rdi)
	movq	%rcx, 8(%rdi)
	movq	%r11, 16(%rdi)
	movq	$1, 24(%rdi)
	movq	%r9, 32(%rdi)
	movq	%rax, 40(%rdi)
	popq	%rbx
	popq	%r14
	popq	%r15
	retq
.Lunix_path_BB43_23:
	xorps	%xmm0, %xmm0
	movups	%xmm0, 32(%rdi)
	movups	%xmm0, 16(%rdi)
	movups	%xmm0, (%rdi)
	popq	%rbx
	popq	%r14
	popq	%r15
	retq
.Lunix_path_func_end43:
	.size	std_collections.btree.iter.Cursor.advance.dd2386031c731943., .Lunix_path_func_end43-std_collections.btree.iter.Cursor.advance.dd2386031c731943.
	.section	.rodata.cst16,"aM",@progbits,16
	.p2align	4, 0x0
.Lunix_path_CPI44_0:
	.byte	2
	.byte	2
	.byte	2
	.byte	2
	.byte	2
	.byte	2
	.byte	2
	.byte	2
	.byte	128
	.byte	128
	.byte	128
	.byte	128
	.byte	33
	.byte	1
	.byte	21
	.byte	73
.Lunix_path_CPI44_1:
	.zero	16,15
.Lunix_path_CPI44_2:
	.byte	231
	.byte	163
	.byte	131
	.byte	131
	.byte	139
	.byte	203
	.byte	203
	.byte	203
	.byte	203
	.byte	203
	.byte	203
	.byte	203
	.byte	203
	.byte	219
	.byte	203
	.byte	203
.Lunix_path_CPI44_3:
	.byte	1
	.byte	1
	.byte	1
	.byte	1
	.byte	1
	.byte	1
	.byte	1
	.byte	1
	.byte	230
	.byte	174
	.byte	186
	.byte	186
	.byte	1
	.byte	1
	.byte	1
	.byte	1
.Lunix_path_CPI44_4:
	.zero	16,96
.Lunix_path_CPI44_5:
	.zero	16,112
.Lunix_path_CPI44_6:
	.zero	16,128
.Lunix_path_CPI44_7:
	.byte	255
	.byte	255
	.byte	255
	.byte	255
	.byte	255
	.byte	255
	.byte	255
	.byte	255
	.byte	255
	.byte	255
	.byte	255
	.byte	255
	.byte	255
	.byte	239
	.byte	223
	.byte	191
	.section	.text.simdutf8.compat.from_utf8,"ax",@progbits
	.p2align	4
	.type	simdutf8.compat.from_utf8,@function
# simdutf8::compat::from_utf8
simdutf8.compat.from_utf8:
	pushq	%rbp
	pushq	%r15
	pushq	%r14
	pushq	%r13
	pushq	%r12
	pushq	%rbx
	subq	$2072, %rsp
	movq	%rdi, 2040(%rsp)
	movq	%rdx, 872(%rsp)
	cmpq	$64, %rdx
	movq	%rsi, 864(%rsp)
	jb	.Lunix_path_BB44_14
	movl	$64, %edi
	movq	872(%rsp), %r15
	subq	%r15, %rdi
	.p2align	4
.Lunix_path_BB44_2:
	movdqu	(%rsi), %xmm0
	movdqu	16(%rsi), %xmm1
	por	%xmm0, %xmm1
	movdqu	32(%rsi), %xmm0
	movdqu	48(%rsi), %xmm2
	por	%xmm0, %xmm2
	por	%xmm1, %xmm2
	pmovmskb	%xmm2, %eax
	testl	%eax, %eax
	jne	.Lunix_path_BB44_5
	addq	$64, %rsi
	addq	$-64, %r15
	addq	$64, %rdi
	cmpq	$63, %r15
	ja	.Lunix_path_BB44_2
	pxor	%xmm0, %xmm0
	movdqa	%xmm0, 512(%rsp)
	xorl	%r14d, %r14d
	movdqa	%xmm0, 816(%rsp)
	movdqa	%xmm0, 848(%rsp)
	movdqa	%xmm0, 832(%rsp)
	movdqa	%xmm0, 336(%rsp)
	movdqa	%xmm0, 288(%rsp)
	movdqa	%xmm0, 320(%rsp)
	movdqa	%xmm0, 352(%rsp)
	movdqa	%xmm0, 448(%rsp)
	jmp	.Lunix_path_BB44_11
.Lunix_path_BB44_5:
	pxor	%xmm9, %xmm9
	movdqa	%xmm9, 2016(%rsp)
	movdqa	%xmm9, 2000(%rsp)
	movdqa	%xmm9, 1984(%rsp)
	movdqa	%xmm9, 1968(%rsp)
	negq	%rdi
	xorl	%r14d, %r14d
	movq	%rsi, %r8
	pxor	%xmm15, %xmm15
	pxor	%xmm10, %xmm10
	pxor	%xmm14, %xmm14
	pxor	%xmm8, %xmm8
	pxor	%xmm0, %xmm0
	pxor	%xmm7, %xmm7
	pxor	%xmm3, %xmm3
	pxor	%xmm4, %xmm4
	movq	%r15, 1928(%rsp)
	movq	%rsi, 1920(%rsp)
	movq	%rdi, 1912(%rsp)
	jmp	.Lunix_path_BB44_8
	.p2align	4
.Lunix_path_BB44_6:
	movdqa	%xmm5, %xmm1
	pslldq	$1, %xmm1
	movdqa	%xmm9, %xmm8
	psrldq	$15, %xmm8
	por	%xmm1, %xmm8
	movdqa	%xmm5, %xmm1
	psrldq	$15, %xmm1
	movdqa	%xmm7, 816(%rsp)
	movdqa	%xmm11, %xmm7
	pslldq	$1, %xmm7
	por	%xmm1, %xmm7
	movdqa	%xmm11, %xmm1
	psrldq	$15, %xmm1
	movdqa	%xmm6, %xmm2
	movdqa	%xmm6, 336(%rsp)
	pslldq	$1, %xmm6
	por	%xmm1, %xmm6
	movdqa	%xmm2, %xmm1
	psrldq	$15, %xmm1
	movdqa	%xmm5, 352(%rsp)
	movdqa	%xmm12, %xmm5
	pslldq	$1, %xmm5
	por	%xmm1, %xmm5
	movaps	.Lunix_path_CPI44_0(%rip), %xmm1
	movaps	%xmm1, 48(%rsp)
	movaps	%xmm1, 32(%rsp)
	movaps	%xmm1, 16(%rsp)
	movaps	%xmm1, (%rsp)
	movdqa	%xmm9, 320(%rsp)
	movdqa	%xmm5, %xmm9
	psrlw	$4, %xmm9
	movdqa	%xmm4, 832(%rsp)
	movdqa	.Lunix_path_CPI44_1(%rip), %xmm4
	movdqa	%xmm9, %xmm10
	pand	%xmm4, %xmm10
	movdqa	%xmm6, %xmm1
	psrlw	$4, %xmm1
	movdqa	%xmm1, %xmm2
	pand	%xmm4, %xmm2
	movdqa	%xmm11, 288(%rsp)
	movdqa	%xmm7, %xmm11
	psrlw	$4, %xmm11
	movdqa	%xmm12, 448(%rsp)
	movdqa	%xmm11, %xmm12
	pand	%xmm4, %xmm12
	movdqa	%xmm3, 848(%rsp)
	movdqa	%xmm8, %xmm3
	psrlw	$4, %xmm3
	movdqa	%xmm3, %xmm13
	pand	%xmm4, %xmm13
	movdqa	%xmm13, 1872(%rsp)
	movzbl	1872(%rsp), %eax
	movq	%rax, 464(%rsp)
	movdqa	%xmm3, 1808(%rsp)
	movzbl	1809(%rsp), %eax
	movq	%rax, 264(%rsp)
	movq	%rsp, %rcx
	movzbl	1874(%rsp), %eax
	movq	%rax, 88(%rsp)
	movzbl	1811(%rsp), %r13d
	movzbl	1876(%rsp), %eax
	movq	%rax, 72(%rsp)
	movzbl	1813(%rsp), %r12d
	movzbl	1878(%rsp), %eax
	movq	%rax, 384(%rsp)
	movzbl	1815(%rsp), %r10d
	movzbl	1880(%rsp), %eax
	movq	%rax, 200(%rsp)
	movzbl	1817(%rsp), %r9d
	movzbl	1882(%rsp), %eax
	movq	%rax, 160(%rsp)
	movzbl	1819(%rsp), %edi
	movzbl	1884(%rsp), %eax
	movq	%rax, 376(%rsp)
	movzbl	1823(%rsp), %eax
	orq	%rcx, %rax
	movq	%r14, 312(%rsp)
	movzbl	1821(%rsp), %edx
	movzbl	1886(%rsp), %esi
	movq	%rsi, 368(%rsp)
	movdqa	%xmm12, 1744(%rsp)
	movzbl	1744(%rsp), %esi
	movq	%rsi, 128(%rsp)
	movdqa	%xmm11, 1712(%rsp)
	movzbl	1713(%rsp), %esi
	movq	%rsi, 192(%rsp)
	movzbl	1746(%rsp), %esi
	movq	%rsi, 184(%rsp)
	movzbl	1715(%rsp), %esi
	movq	%rsi, 112(%rsp)
	movzbl	1748(%rsp), %esi
	movq	%rsi, 416(%rsp)
	movzbl	1717(%rsp), %esi
	movq	%rsi, 96(%rsp)
	movzbl	1750(%rsp), %esi
	movq	%rsi, 248(%rsp)
	movzbl	1719(%rsp), %esi
	movq	%rsi, 224(%rsp)
	movzbl	1752(%rsp), %esi
	movq	%rsi, 216(%rsp)
	movzbl	1721(%rsp), %r14d
	movzbl	1754(%rsp), %esi
	movq	%rsi, 168(%rsp)
	movzbl	1723(%rsp), %r11d
	movzbl	1756(%rsp), %esi
	movq	%rsi, 208(%rsp)
	movq	%r8, 304(%rsp)
	movzbl	1725(%rsp), %r8d
	movzbl	1758(%rsp), %esi
	movq	%rsi, 280(%rsp)
	movzbl	1727(%rsp), %esi
	movdqa	%xmm2, 1824(%rsp)
	movzbl	1824(%rsp), %ebx
	movq	%rbx, 152(%rsp)
	movdqa	%xmm1, 1776(%rsp)
	movzbl	1777(%rsp), %ebx
	movq	%rbx, 512(%rsp)
	movzbl	1826(%rsp), %ebx
	movq	%rbx, 144(%rsp)
	movzbl	1779(%rsp), %ebx
	movq	%rbx, 400(%rsp)
	movzbl	1828(%rsp), %ebx
	movq	%rbx, 136(%rsp)
	movzbl	1781(%rsp), %ebx
	movq	%rbx, 272(%rsp)
	movzbl	1830(%rsp), %ebx
	movq	%rbx, 496(%rsp)
	movzbl	1783(%rsp), %ebx
	movq	%rbx, 256(%rsp)
	movzbl	1832(%rsp), %ebx
	movq	%rbx, 120(%rsp)
	movzbl	1785(%rsp), %ebx
	movq	%rbx, 80(%rsp)
	movzbl	1834(%rsp), %ebx
	movq	%rbx, 104(%rsp)
	movzbl	1787(%rsp), %ebx
	movq	%rbx, 240(%rsp)
	movzbl	1836(%rsp), %ebx
	movq	%rbx, 232(%rsp)
	movzbl	1789(%rsp), %r15d
	movzbl	1838(%rsp), %ebx
	movq	%rbx, 176(%rsp)
	movzbl	1791(%rsp), %ebx
	movdqa	%xmm10, 1888(%rsp)
	movzbl	1888(%rsp), %ebp
	movq	%rbp, 480(%rsp)
	movdqa	%xmm9, 1856(%rsp)
	movzbl	(%rax), %eax
	movd	%eax, %xmm3
	movq	368(%rsp), %rax
	movzbl	(%rsp,%rax), %eax
	movd	%eax, %xmm2
	orq	%rcx, %rdx
	movzbl	(%rdx), %eax
	movd	%eax, %xmm10
	movq	376(%rsp), %rax
	movzbl	(%rsp,%rax), %eax
	movd	%eax, %xmm9
	orq	%rcx, %rdi
	movzbl	(%rdi), %eax
	movd	%eax, %xmm12
	movq	160(%rsp), %rax
	movzbl	(%rsp,%rax), %eax
	movd	%eax, %xmm11
	orq	%rcx, %r9
	movzbl	(%r9), %eax
	movd	%eax, %xmm13
	movq	200(%rsp), %rax
	movzbl	(%rsp,%rax), %eax
	movd	%eax, %xmm1
	orq	%rcx, %r10
	punpcklbw	%xmm3, %xmm2
	movzbl	(%r10), %eax
	movd	%eax, %xmm14
	punpcklbw	%xmm10, %xmm9
	movq	384(%rsp), %rax
	movzbl	(%rsp,%rax), %eax
	movd	%eax, %xmm10
	orq	%rcx, %r12
	punpcklwd	%xmm2, %xmm9
	movzbl	(%r12), %eax
	movd	%eax, %xmm15
	punpcklbw	%xmm12, %xmm11
	movq	72(%rsp), %rax
	movzbl	(%rsp,%rax), %eax
	movd	%eax, %xmm2
	orq	%rcx, %r13
	punpcklbw	%xmm13, %xmm1
	movzbl	(%r13), %eax
	movd	%eax, %xmm12
	punpcklwd	%xmm11, %xmm1
	movq	88(%rsp), %rax
	movzbl	(%rsp,%rax), %eax
	movd	%eax, %xmm3
	movq	264(%rsp), %rax
	orq	%rcx, %rax
	punpckldq	%xmm9, %xmm1
	movzbl	(%rax), %eax
	movd	%eax, %xmm13
	punpcklbw	%xmm14, %xmm10
	movq	464(%rsp), %rax
	movzbl	(%rsp,%rax), %eax
	movd	%eax, %xmm9
	orq	%rcx, %rsi
	punpcklbw	%xmm15, %xmm2
	movzbl	16(%rsi), %eax
	movd	%eax, %xmm14
	punpcklwd	%xmm10, %xmm2
	movq	280(%rsp), %rax
	movzbl	16(%rsp,%rax), %eax
	movd	%eax, %xmm11
	orq	%rcx, %r8
	punpcklbw	%xmm12, %xmm3
	movzbl	16(%r8), %eax
	movd	%eax, %xmm12
	punpcklbw	%xmm13, %xmm9
	movq	208(%rsp), %rax
	movzbl	16(%rsp,%rax), %eax
	movd	%eax, %xmm10
	orq	%rcx, %r11
	punpcklwd	%xmm3, %xmm9
	movzbl	16(%r11), %eax
	movd	%eax, %xmm13
	punpckldq	%xmm2, %xmm9
	movq	168(%rsp), %rax
	movzbl	16(%rsp,%rax), %eax
	movd	%eax, %xmm3
	orq	%rcx, %r14
	punpcklqdq	%xmm1, %xmm9
	movzbl	16(%r14), %eax
	movd	%eax, %xmm2
	punpcklbw	%xmm14, %xmm11
	movq	216(%rsp), %rax
	movzbl	16(%rsp,%rax), %eax
	movd	%eax, %xmm1
	movq	224(%rsp), %rax
	orq	%rcx, %rax
	punpcklbw	%xmm12, %xmm10
	movzbl	16(%rax), %eax
	movd	%eax, %xmm12
	punpcklwd	%xmm11, %xmm10
	movq	248(%rsp), %rax
	movzbl	16(%rsp,%rax), %eax
	movd	%eax, %xmm11
	movq	96(%rsp), %rax
	orq	%rcx, %rax
	punpcklbw	%xmm13, %xmm3
	movzbl	16(%rax), %eax
	movd	%eax, %xmm13
	punpcklbw	%xmm2, %xmm1
	movq	416(%rsp), %rax
	movzbl	16(%rsp,%rax), %eax
	movd	%eax, %xmm2
	movq	112(%rsp), %rax
	orq	%rcx, %rax
	punpcklwd	%xmm3, %xmm1
	movzbl	16(%rax), %eax
	movd	%eax, %xmm14
	punpckldq	%xmm10, %xmm1
	movq	184(%rsp), %rax
	movzbl	16(%rsp,%rax), %eax
	movd	%eax, %xmm3
	movq	192(%rsp), %rax
	orq	%rcx, %rax
	punpcklbw	%xmm12, %xmm11
	movzbl	16(%rax), %eax
	movd	%eax, %xmm15
	punpcklbw	%xmm13, %xmm2
	movq	128(%rsp), %rax
	movzbl	16(%rsp,%rax), %eax
	movd	%eax, %xmm10
	orq	%rcx, %rbx
	punpcklwd	%xmm11, %xmm2
	movzbl	32(%rbx), %eax
	movd	%eax, %xmm13
	punpcklbw	%xmm14, %xmm3
	movq	176(%rsp), %rax
	movzbl	32(%rsp,%rax), %eax
	movd	%eax, %xmm12
	orq	%rcx, %r15
	punpcklbw	%xmm15, %xmm10
	movzbl	32(%r15), %eax
	movd	%eax, %xmm14
	movq	512(%rsp), %r12
	orq	%rcx, %r12
	movq	400(%rsp), %r14
	orq	%rcx, %r14
	movq	272(%rsp), %r11
	orq	%rcx, %r11
	movq	256(%rsp), %r10
	orq	%rcx, %r10
	movq	80(%rsp), %rdi
	orq	%rcx, %rdi
	movq	240(%rsp), %rdx
	orq	%rcx, %rdx
	punpcklwd	%xmm3, %xmm10
	movq	232(%rsp), %rax
	movzbl	32(%rsp,%rax), %eax
	movd	%eax, %xmm11
	movzbl	1857(%rsp), %eax
	orq	%rcx, %rax
	movq	%rcx, %rsi
	punpckldq	%xmm2, %xmm10
	movzbl	32(%rdx), %ecx
	movd	%ecx, %xmm3
	movzbl	1890(%rsp), %ecx
	punpcklqdq	%xmm1, %xmm10
	movq	104(%rsp), %rdx
	movzbl	32(%rsp,%rdx), %edx
	movd	%edx, %xmm2
	movzbl	1859(%rsp), %edx
	movq	%rsi, %r8
	orq	%rsi, %rdx
	punpcklbw	%xmm13, %xmm12
	movzbl	32(%rdi), %esi
	movd	%esi, %xmm13
	movzbl	1892(%rsp), %esi
	punpcklbw	%xmm14, %xmm11
	movq	120(%rsp), %rdi
	movzbl	32(%rsp,%rdi), %edi
	movd	%edi, %xmm1
	movzbl	1861(%rsp), %edi
	orq	%r8, %rdi
	movq	%r8, %r9
	punpcklwd	%xmm12, %xmm11
	movzbl	32(%r10), %r8d
	movd	%r8d, %xmm12
	movzbl	1894(%rsp), %r8d
	punpcklbw	%xmm3, %xmm2
	movq	496(%rsp), %r10
	movzbl	32(%rsp,%r10), %r10d
	movd	%r10d, %xmm3
	movzbl	1863(%rsp), %r10d
	orq	%r9, %r10
	punpcklbw	%xmm13, %xmm1
	movzbl	32(%r11), %r11d
	movd	%r11d, %xmm13
	movzbl	1896(%rsp), %r11d
	punpcklwd	%xmm2, %xmm1
	movq	136(%rsp), %rbx
	movzbl	32(%rsp,%rbx), %ebx
	movd	%ebx, %xmm2
	movzbl	1865(%rsp), %ebx
	orq	%r9, %rbx
	punpckldq	%xmm11, %xmm1
	movzbl	32(%r14), %ebp
	movd	%ebp, %xmm14
	movzbl	1898(%rsp), %r14d
	punpcklbw	%xmm12, %xmm3
	movq	144(%rsp), %r15
	movzbl	32(%rsp,%r15), %ebp
	movd	%ebp, %xmm12
	movzbl	1867(%rsp), %r15d
	orq	%r9, %r15
	punpcklbw	%xmm13, %xmm2
	movzbl	32(%r12), %ebp
	movd	%ebp, %xmm13
	movzbl	1900(%rsp), %r12d
	punpcklwd	%xmm3, %xmm2
	movq	152(%rsp), %r13
	movzbl	32(%rsp,%r13), %ebp
	movd	%ebp, %xmm11
	movzbl	1871(%rsp), %r13d
	orq	%r9, %r13
	punpcklbw	%xmm14, %xmm12
	movzbl	48(%r13), %ebp
	movd	%ebp, %xmm3
	movzbl	1902(%rsp), %r13d
	punpcklbw	%xmm13, %xmm11
	movzbl	48(%rsp,%r13), %ebp
	movd	%ebp, %xmm13
	movzbl	1869(%rsp), %r13d
	orq	%r9, %r13
	punpcklwd	%xmm12, %xmm11
	punpckldq	%xmm2, %xmm11
	punpcklqdq	%xmm1, %xmm11
	punpcklbw	%xmm3, %xmm13
	movzbl	48(%r13), %ebp
	movd	%ebp, %xmm1
	movzbl	48(%rsp,%r12), %ebp
	movd	%ebp, %xmm2
	punpcklbw	%xmm1, %xmm2
	punpcklwd	%xmm13, %xmm2
	movzbl	48(%r15), %ebp
	movd	%ebp, %xmm1
	movzbl	48(%rsp,%r14), %ebp
	movd	%ebp, %xmm3
	punpcklbw	%xmm1, %xmm3
	movzbl	48(%rbx), %ebx
	movd	%ebx, %xmm1
	movzbl	48(%rsp,%r11), %r11d
	movd	%r11d, %xmm12
	punpcklbw	%xmm1, %xmm12
	punpcklwd	%xmm3, %xmm12
	punpckldq	%xmm2, %xmm12
	movzbl	48(%r10), %r10d
	movd	%r10d, %xmm1
	movzbl	48(%rsp,%r8), %r8d
	movd	%r8d, %xmm14
	punpcklbw	%xmm1, %xmm14
	movzbl	48(%rdi), %edi
	movd	%edi, %xmm15
	movzbl	48(%rsp,%rsi), %esi
	movd	%esi, %xmm13
	movzbl	48(%rdx), %edx
	movzbl	48(%rsp,%rcx), %ecx
	movzbl	48(%rax), %r14d
	movq	480(%rsp), %rax
	movzbl	48(%rsp,%rax), %eax
	movaps	.Lunix_path_CPI44_2(%rip), %xmm1
	movaps	%xmm1, 48(%rsp)
	movaps	%xmm1, 32(%rsp)
	movaps	%xmm1, 16(%rsp)
	movaps	%xmm1, (%rsp)
	movd	%edx, %xmm1
	pand	%xmm4, %xmm8
	movdqa	%xmm8, 752(%rsp)
	movd	%ecx, %xmm8
	pand	%xmm4, %xmm7
	movzbl	752(%rsp), %ecx
	movq	%rcx, 80(%rsp)
	movzbl	753(%rsp), %ecx
	movq	%rcx, 232(%rsp)
	movzbl	754(%rsp), %ecx
	movq	%rcx, 216(%rsp)
	movzbl	755(%rsp), %ecx
	movq	%rcx, 384(%rsp)
	movzbl	756(%rsp), %ecx
	movq	%rcx, 208(%rsp)
	movzbl	757(%rsp), %ecx
	movq	%rcx, 160(%rsp)
	movzbl	758(%rsp), %ebp
	movzbl	759(%rsp), %r12d
	movzbl	760(%rsp), %ebx
	movzbl	761(%rsp), %r11d
	movzbl	762(%rsp), %r10d
	movzbl	763(%rsp), %r8d
	movzbl	764(%rsp), %edi
	movzbl	765(%rsp), %esi
	movzbl	766(%rsp), %edx
	movzbl	767(%rsp), %ecx
	movdqa	%xmm7, 720(%rsp)
	movd	%r14d, %xmm2
	pand	%xmm4, %xmm6
	movzbl	720(%rsp), %r9d
	movzbl	721(%rsp), %r14d
	movq	%r14, 112(%rsp)
	movzbl	722(%rsp), %r14d
	movq	%r14, 464(%rsp)
	movzbl	723(%rsp), %r14d
	movq	%r14, 416(%rsp)
	movzbl	724(%rsp), %r14d
	movq	%r14, 272(%rsp)
	movzbl	725(%rsp), %r14d
	movq	%r14, 96(%rsp)
	movzbl	726(%rsp), %r14d
	movq	%r14, 256(%rsp)
	movzbl	727(%rsp), %r14d
	movq	%r14, 88(%rsp)
	movzbl	728(%rsp), %r14d
	movq	%r14, 72(%rsp)
	movzbl	729(%rsp), %r14d
	movq	%r14, 176(%rsp)
	movzbl	730(%rsp), %r14d
	movq	%r14, 168(%rsp)
	movzbl	731(%rsp), %r14d
	movq	%r14, 200(%rsp)
	movzbl	732(%rsp), %r14d
	movq	%r14, 280(%rsp)
	movzbl	733(%rsp), %r13d
	movzbl	734(%rsp), %r15d
	movzbl	735(%rsp), %r14d
	movdqa	%xmm6, 736(%rsp)
	movd	%eax, %xmm7
	pand	%xmm4, %xmm5
	movzbl	736(%rsp), %eax
	movq	%rax, 480(%rsp)
	movzbl	737(%rsp), %eax
	movq	%rax, 152(%rsp)
	movzbl	738(%rsp), %eax
	movq	%rax, 144(%rsp)
	movzbl	739(%rsp), %eax
	movq	%rax, 136(%rsp)
	movzbl	740(%rsp), %eax
	movq	%rax, 128(%rsp)
	movzbl	741(%rsp), %eax
	movq	%rax, 496(%rsp)
	movzbl	742(%rsp), %eax
	movq	%rax, 192(%rsp)
	movzbl	743(%rsp), %eax
	movq	%rax, 184(%rsp)
	movzbl	744(%rsp), %eax
	movq	%rax, 120(%rsp)
	movzbl	745(%rsp), %eax
	movq	%rax, 512(%rsp)
	movzbl	746(%rsp), %eax
	movq	%rax, 400(%rsp)
	movzbl	747(%rsp), %eax
	movq	%rax, 104(%rsp)
	movzbl	748(%rsp), %eax
	movq	%rax, 264(%rsp)
	movzbl	749(%rsp), %eax
	movq	%rax, 248(%rsp)
	movzbl	750(%rsp), %eax
	movq	%rax, 240(%rsp)
	movzbl	751(%rsp), %eax
	movq	%rax, 224(%rsp)
	movdqa	%xmm5, 768(%rsp)
	movzbl	(%rsp,%rcx), %eax
	movd	%eax, %xmm6
	punpcklbw	%xmm15, %xmm13
	movzbl	(%rsp,%rdx), %eax
	movd	%eax, %xmm15
	punpcklwd	%xmm14, %xmm13
	movzbl	(%rsp,%rsi), %eax
	movd	%eax, %xmm14
	punpcklbw	%xmm1, %xmm8
	movzbl	(%rsp,%rdi), %eax
	movd	%eax, %xmm5
	punpcklbw	%xmm2, %xmm7
	movzbl	(%rsp,%r8), %eax
	movd	%eax, %xmm2
	punpcklwd	%xmm8, %xmm7
	movzbl	(%rsp,%r10), %eax
	movd	%eax, %xmm3
	punpckldq	%xmm13, %xmm7
	movzbl	(%rsp,%r11), %eax
	movd	%eax, %xmm8
	punpcklqdq	%xmm12, %xmm7
	movzbl	(%rsp,%rbx), %eax
	movd	%eax, %xmm1
	punpcklbw	%xmm6, %xmm15
	movzbl	(%rsp,%r12), %eax
	movd	%eax, %xmm12
	punpcklbw	%xmm14, %xmm5
	movzbl	(%rsp,%rbp), %eax
	movd	%eax, %xmm6
	punpcklwd	%xmm15, %xmm5
	movq	160(%rsp), %rax
	movzbl	(%rsp,%rax), %eax
	movd	%eax, %xmm13
	punpcklbw	%xmm2, %xmm3
	movq	208(%rsp), %rax
	movzbl	(%rsp,%rax), %eax
	movd	%eax, %xmm2
	punpcklbw	%xmm8, %xmm1
	movq	384(%rsp), %rax
	movzbl	(%rsp,%rax), %eax
	movd	%eax, %xmm14
	punpcklwd	%xmm3, %xmm1
	movq	216(%rsp), %rax
	movzbl	(%rsp,%rax), %eax
	movd	%eax, %xmm3
	punpckldq	%xmm5, %xmm1
	movq	232(%rsp), %rax
	movzbl	(%rsp,%rax), %eax
	movd	%eax, %xmm15
	punpcklbw	%xmm12, %xmm6
	movq	80(%rsp), %rax
	movzbl	(%rsp,%rax), %eax
	movd	%eax, %xmm5
	punpcklbw	%xmm13, %xmm2
	movzbl	16(%rsp,%r14), %eax
	movd	%eax, %xmm12
	punpcklwd	%xmm6, %xmm2
	movzbl	16(%rsp,%r15), %eax
	movd	%eax, %xmm8
	punpcklbw	%xmm14, %xmm3
	movzbl	16(%rsp,%r13), %eax
	movd	%eax, %xmm13
	punpcklbw	%xmm15, %xmm5
	movq	280(%rsp), %rax
	movzbl	16(%rsp,%rax), %eax
	movd	%eax, %xmm6
	punpcklwd	%xmm3, %xmm5
	movq	200(%rsp), %rax
	movzbl	16(%rsp,%rax), %eax
	movd	%eax, %xmm14
	punpckldq	%xmm2, %xmm5
	movq	168(%rsp), %rax
	movzbl	16(%rsp,%rax), %eax
	movd	%eax, %xmm3
	punpcklqdq	%xmm1, %xmm5
	movq	176(%rsp), %rax
	movzbl	16(%rsp,%rax), %eax
	movd	%eax, %xmm15
	pand	%xmm9, %xmm5
	movq	72(%rsp), %rax
	movzbl	16(%rsp,%rax), %eax
	movd	%eax, %xmm1
	punpcklbw	%xmm12, %xmm8
	movq	88(%rsp), %rax
	movzbl	16(%rsp,%rax), %eax
	movd	%eax, %xmm9
	punpcklbw	%xmm13, %xmm6
	movq	256(%rsp), %rax
	movzbl	16(%rsp,%rax), %eax
	movd	%eax, %xmm2
	punpcklwd	%xmm8, %xmm6
	movq	96(%rsp), %rax
	movzbl	16(%rsp,%rax), %eax
	movd	%eax, %xmm12
	punpcklbw	%xmm14, %xmm3
	movq	272(%rsp), %rax
	movzbl	16(%rsp,%rax), %eax
	movd	%eax, %xmm8
	punpcklbw	%xmm15, %xmm1
	movq	416(%rsp), %rax
	movzbl	16(%rsp,%rax), %eax
	movd	%eax, %xmm14
	punpcklwd	%xmm3, %xmm1
	movq	464(%rsp), %rax
	movzbl	16(%rsp,%rax), %eax
	movd	%eax, %xmm13
	punpckldq	%xmm6, %xmm1
	movq	112(%rsp), %rax
	movzbl	16(%rsp,%rax), %eax
	movd	%eax, %xmm15
	punpcklbw	%xmm9, %xmm2
	movzbl	16(%rsp,%r9), %eax
	movd	%eax, %xmm6
	punpcklbw	%xmm12, %xmm8
	movq	224(%rsp), %rax
	movzbl	32(%rsp,%rax), %eax
	movd	%eax, %xmm3
	punpcklwd	%xmm2, %xmm8
	movq	240(%rsp), %rax
	movzbl	32(%rsp,%rax), %eax
	movd	%eax, %xmm12
	punpcklbw	%xmm14, %xmm13
	movq	248(%rsp), %rax
	movzbl	32(%rsp,%rax), %eax
	movd	%eax, %xmm9
	movzbl	768(%rsp), %eax
	movq	%rax, 112(%rsp)
	punpcklbw	%xmm15, %xmm6
	movq	264(%rsp), %rax
	movzbl	32(%rsp,%rax), %eax
	movd	%eax, %xmm2
	movzbl	769(%rsp), %r9d
	punpcklwd	%xmm13, %xmm6
	movq	104(%rsp), %rax
	movzbl	32(%rsp,%rax), %eax
	movd	%eax, %xmm13
	movzbl	770(%rsp), %esi
	punpckldq	%xmm8, %xmm6
	movq	400(%rsp), %rax
	movzbl	32(%rsp,%rax), %ecx
	movd	%ecx, %xmm8
	movzbl	771(%rsp), %edx
	punpcklqdq	%xmm1, %xmm6
	movq	512(%rsp), %rax
	movzbl	32(%rsp,%rax), %edi
	movd	%edi, %xmm14
	movzbl	772(%rsp), %edi
	pand	%xmm10, %xmm6
	movq	120(%rsp), %rax
	movzbl	32(%rsp,%rax), %r8d
	movd	%r8d, %xmm1
	movzbl	773(%rsp), %r8d
	punpcklbw	%xmm3, %xmm12
	movq	184(%rsp), %rax
	movzbl	32(%rsp,%rax), %r10d
	movd	%r10d, %xmm3
	movzbl	774(%rsp), %r10d
	punpcklbw	%xmm9, %xmm2
	movq	192(%rsp), %rax
	movzbl	32(%rsp,%rax), %r11d
	movd	%r11d, %xmm9
	movzbl	775(%rsp), %r11d
	punpcklwd	%xmm12, %xmm2
	movq	496(%rsp), %rax
	movzbl	32(%rsp,%rax), %ebx
	movd	%ebx, %xmm15
	movzbl	776(%rsp), %ebx
	punpcklbw	%xmm13, %xmm8
	movq	128(%rsp), %rax
	movzbl	32(%rsp,%rax), %ebp
	movd	%ebp, %xmm10
	movzbl	777(%rsp), %r14d
	punpcklbw	%xmm14, %xmm1
	movq	136(%rsp), %rax
	movzbl	32(%rsp,%rax), %ebp
	movd	%ebp, %xmm12
	movzbl	778(%rsp), %r15d
	punpcklwd	%xmm8, %xmm1
	movq	144(%rsp), %rax
	movzbl	32(%rsp,%rax), %ebp
	movd	%ebp, %xmm13
	movzbl	779(%rsp), %r12d
	punpckldq	%xmm2, %xmm1
	movq	152(%rsp), %rax
	movzbl	32(%rsp,%rax), %ebp
	movd	%ebp, %xmm2
	movzbl	780(%rsp), %r13d
	punpcklbw	%xmm3, %xmm9
	movq	480(%rsp), %rax
	movzbl	32(%rsp,%rax), %ebp
	movd	%ebp, %xmm8
	movzbl	783(%rsp), %ebp
	punpcklbw	%xmm15, %xmm10
	movzbl	48(%rsp,%rbp), %ebp
	movd	%ebp, %xmm3
	movzbl	782(%rsp), %ebp
	punpcklwd	%xmm9, %xmm10
	movzbl	48(%rsp,%rbp), %ebp
	movd	%ebp, %xmm9
	movzbl	781(%rsp), %ebp
	punpcklbw	%xmm12, %xmm13
	punpcklbw	%xmm2, %xmm8
	punpcklwd	%xmm13, %xmm8
	punpckldq	%xmm10, %xmm8
	punpcklqdq	%xmm1, %xmm8
	pand	%xmm11, %xmm8
	punpcklbw	%xmm3, %xmm9
	movzbl	48(%rsp,%rbp), %ebp
	movd	%ebp, %xmm1
	movzbl	48(%rsp,%r13), %ebp
	movd	%ebp, %xmm2
	punpcklbw	%xmm1, %xmm2
	punpcklwd	%xmm9, %xmm2
	movzbl	48(%rsp,%r12), %ebp
	movd	%ebp, %xmm1
	movzbl	48(%rsp,%r15), %ebp
	movd	%ebp, %xmm3
	punpcklbw	%xmm1, %xmm3
	movzbl	48(%rsp,%r14), %ebp
	movd	%ebp, %xmm1
	movzbl	48(%rsp,%rbx), %ebx
	movd	%ebx, %xmm9
	punpcklbw	%xmm1, %xmm9
	punpcklwd	%xmm3, %xmm9
	punpckldq	%xmm2, %xmm9
	movzbl	48(%rsp,%r11), %r11d
	movzbl	48(%rsp,%r10), %r10d
	movzbl	48(%rsp,%r8), %eax
	movzbl	48(%rsp,%rdi), %ecx
	movzbl	48(%rsp,%rdx), %r12d
	movzbl	48(%rsp,%rsi), %ebp
	movzbl	48(%rsp,%r9), %edx
	movl	%edx, 168(%rsp)
	movq	112(%rsp), %rdx
	movzbl	48(%rsp,%rdx), %edx
	movl	%edx, 176(%rsp)
	movaps	.Lunix_path_CPI44_3(%rip), %xmm1
	movaps	%xmm1, 48(%rsp)
	movaps	%xmm1, 32(%rsp)
	movaps	%xmm1, 16(%rsp)
	movaps	%xmm1, (%rsp)
	movdqa	448(%rsp), %xmm12
	psrlw	$4, %xmm12
	movdqa	%xmm12, %xmm14
	pand	%xmm4, %xmm14
	movdqa	336(%rsp), %xmm1
	psrlw	$4, %xmm1
	movdqa	%xmm1, %xmm2
	pand	%xmm4, %xmm2
	movdqa	288(%rsp), %xmm11
	psrlw	$4, %xmm11
	movdqa	%xmm11, %xmm13
	pand	%xmm4, %xmm13
	movdqa	352(%rsp), %xmm3
	psrlw	$4, %xmm3
	pand	%xmm3, %xmm4
	movdqa	%xmm4, 1664(%rsp)
	movd	%r11d, %xmm10
	movzbl	1664(%rsp), %edx
	movq	%rdx, 464(%rsp)
	movdqa	%xmm3, 1648(%rsp)
	movd	%r10d, %xmm4
	movzbl	1649(%rsp), %edx
	movq	%rdx, 480(%rsp)
	movzbl	1666(%rsp), %esi
	movq	%rsi, 416(%rsp)
	movzbl	1651(%rsp), %edx
	movq	%rdx, 144(%rsp)
	movzbl	1668(%rsp), %r10d
	movq	%r10, 400(%rsp)
	movzbl	1653(%rsp), %edx
	movq	%rdx, 136(%rsp)
	movzbl	1670(%rsp), %r11d
	movq	%r11, 104(%rsp)
	movzbl	1655(%rsp), %edx
	movq	%rdx, 184(%rsp)
	movzbl	1672(%rsp), %ebx
	movq	%rbx, 272(%rsp)
	movzbl	1657(%rsp), %edx
	movq	%rdx, 128(%rsp)
	movzbl	1674(%rsp), %ebx
	movq	%rbx, 96(%rsp)
	movzbl	1659(%rsp), %edx
	movq	%rdx, 496(%rsp)
	movzbl	1676(%rsp), %ebx
	movq	%rbx, 264(%rsp)
	movzbl	1661(%rsp), %edx
	movq	%rdx, 192(%rsp)
	movzbl	1678(%rsp), %ebx
	movq	%rbx, 256(%rsp)
	movzbl	1663(%rsp), %edx
	movq	%rdx, 120(%rsp)
	movdqa	%xmm13, 1696(%rsp)
	movd	%eax, %xmm13
	movzbl	1696(%rsp), %ebx
	movq	%rbx, 248(%rsp)
	movdqa	%xmm11, 1680(%rsp)
	movd	%ecx, %xmm11
	movzbl	1681(%rsp), %eax
	movq	%rax, 112(%rsp)
	movzbl	1698(%rsp), %ebx
	movq	%rbx, 88(%rsp)
	movzbl	1683(%rsp), %ebx
	movq	%rbx, 152(%rsp)
	movzbl	1700(%rsp), %ebx
	movq	%rbx, 80(%rsp)
	movzbl	1685(%rsp), %r15d
	movzbl	1702(%rsp), %r9d
	movq	%r9, 240(%rsp)
	movzbl	1687(%rsp), %r14d
	movzbl	1704(%rsp), %r9d
	movq	%r9, 512(%rsp)
	movzbl	1689(%rsp), %r11d
	movzbl	1706(%rsp), %r9d
	movq	%r9, 232(%rsp)
	movzbl	1691(%rsp), %r10d
	movzbl	1708(%rsp), %r9d
	movq	%r9, 224(%rsp)
	movzbl	1693(%rsp), %r8d
	movzbl	1710(%rsp), %r9d
	movq	%r9, 72(%rsp)
	movzbl	1695(%rsp), %edi
	movdqa	%xmm2, 1760(%rsp)
	movd	%r12d, %xmm15
	movzbl	1760(%rsp), %r9d
	movq	%r9, 216(%rsp)
	movdqa	%xmm1, 1728(%rsp)
	movd	%ebp, %xmm1
	movzbl	1729(%rsp), %esi
	movzbl	1762(%rsp), %r9d
	movq	%r9, 384(%rsp)
	movzbl	1731(%rsp), %edx
	movzbl	1764(%rsp), %r9d
	movq	%r9, 200(%rsp)
	movzbl	1733(%rsp), %ecx
	movzbl	1766(%rsp), %r9d
	movq	%r9, 280(%rsp)
	movzbl	1735(%rsp), %eax
	movzbl	1768(%rsp), %r9d
	movq	%r9, 440(%rsp)
	movzbl	1737(%rsp), %ebp
	movzbl	1770(%rsp), %r9d
	movq	%r9, 800(%rsp)
	movzbl	1739(%rsp), %r13d
	movzbl	1772(%rsp), %r9d
	movq	%r9, 792(%rsp)
	movzbl	1741(%rsp), %r12d
	movzbl	1774(%rsp), %r9d
	movq	%r9, 1952(%rsp)
	movzbl	1743(%rsp), %ebx
	movdqa	%xmm14, 1840(%rsp)
	movd	168(%rsp), %xmm2
	movzbl	1840(%rsp), %r9d
	movq	%r9, 1936(%rsp)
	movdqa	%xmm12, 1792(%rsp)
	movd	176(%rsp), %xmm12
	movq	%rsp, %r9
	orq	%r9, 480(%rsp)
	orq	%r9, 144(%rsp)
	orq	%r9, 136(%rsp)
	orq	%r9, 184(%rsp)
	orq	%r9, 128(%rsp)
	orq	%r9, 496(%rsp)
	orq	%r9, 192(%rsp)
	orq	%r9, 120(%rsp)
	orq	%r9, 112(%rsp)
	orq	%r9, 152(%rsp)
	orq	%r9, %r15
	movq	%r15, 176(%rsp)
	orq	%r9, %r14
	movq	%r14, 168(%rsp)
	orq	%r9, %r11
	movq	%r11, 208(%rsp)
	orq	%r9, %r10
	movq	%r10, 160(%rsp)
	orq	%r9, %r8
	movq	%r8, 376(%rsp)
	orq	%r9, %rdi
	movq	%rdi, 368(%rsp)
	orq	%r9, %rsi
	movq	%rsi, 808(%rsp)
	orq	%r9, %rdx
	movq	%rdx, 1960(%rsp)
	orq	%r9, %rcx
	movq	%rcx, 784(%rsp)
	orq	%r9, %rax
	movq	%rax, 1944(%rsp)
	orq	%r9, %rbp
	orq	%r9, %r13
	orq	%r9, %r12
	orq	%r9, %rbx
	movq	%r9, %rsi
	movzbl	1793(%rsp), %r11d
	orq	%r9, %r11
	movzbl	1795(%rsp), %r10d
	orq	%r9, %r10
	movzbl	1797(%rsp), %r9d
	orq	%rsi, %r9
	movzbl	1799(%rsp), %r8d
	orq	%rsi, %r8
	movzbl	1801(%rsp), %edi
	orq	%rsi, %rdi
	movzbl	1803(%rsp), %edx
	orq	%rsi, %rdx
	movzbl	1805(%rsp), %ecx
	orq	%rsi, %rcx
	movzbl	1807(%rsp), %eax
	orq	%rsi, %rax
	punpcklbw	%xmm10, %xmm4
	movzbl	48(%rax), %eax
	movd	%eax, %xmm14
	punpcklbw	%xmm13, %xmm11
	movzbl	1854(%rsp), %eax
	movzbl	48(%rsp,%rax), %eax
	movd	%eax, %xmm10
	punpcklwd	%xmm4, %xmm11
	movzbl	48(%rcx), %eax
	movq	312(%rsp), %r14
	movd	%eax, %xmm3
	punpcklbw	%xmm15, %xmm1
	movzbl	1852(%rsp), %eax
	movzbl	48(%rsp,%rax), %eax
	movd	%eax, %xmm4
	punpcklbw	%xmm2, %xmm12
	movzbl	48(%rdx), %eax
	movq	1928(%rsp), %r15
	movd	%eax, %xmm15
	punpcklwd	%xmm1, %xmm12
	movzbl	1850(%rsp), %eax
	movzbl	48(%rsp,%rax), %eax
	movd	%eax, %xmm13
	punpckldq	%xmm11, %xmm12
	movzbl	48(%rdi), %eax
	movq	1920(%rsp), %rsi
	movd	%eax, %xmm11
	punpcklqdq	%xmm9, %xmm12
	movzbl	1848(%rsp), %eax
	movzbl	48(%rsp,%rax), %eax
	movd	%eax, %xmm1
	pand	%xmm7, %xmm12
	movzbl	48(%r8), %eax
	movq	1912(%rsp), %rdi
	movd	%eax, %xmm9
	punpcklbw	%xmm14, %xmm10
	movzbl	1846(%rsp), %eax
	movzbl	48(%rsp,%rax), %eax
	movd	%eax, %xmm7
	punpcklbw	%xmm3, %xmm4
	movzbl	48(%r9), %eax
	movq	304(%rsp), %r8
	movd	%eax, %xmm3
	punpcklwd	%xmm10, %xmm4
	movzbl	1844(%rsp), %eax
	movzbl	48(%rsp,%rax), %eax
	movd	%eax, %xmm2
	punpcklbw	%xmm15, %xmm13
	movzbl	48(%r10), %eax
	movd	%eax, %xmm14
	punpcklbw	%xmm11, %xmm1
	movzbl	1842(%rsp), %eax
	movzbl	48(%rsp,%rax), %eax
	movd	%eax, %xmm10
	punpcklwd	%xmm13, %xmm1
	movzbl	48(%r11), %eax
	movd	%eax, %xmm13
	punpckldq	%xmm4, %xmm1
	movq	1936(%rsp), %rax
	movzbl	48(%rsp,%rax), %eax
	movd	%eax, %xmm4
	punpcklbw	%xmm9, %xmm7
	movzbl	32(%rbx), %eax
	movd	%eax, %xmm11
	punpcklbw	%xmm3, %xmm2
	movq	1952(%rsp), %rax
	movzbl	32(%rsp,%rax), %eax
	movd	%eax, %xmm9
	punpcklwd	%xmm7, %xmm2
	movzbl	32(%r12), %eax
	movd	%eax, %xmm3
	punpcklbw	%xmm14, %xmm10
	movq	792(%rsp), %rax
	movzbl	32(%rsp,%rax), %eax
	movd	%eax, %xmm7
	punpcklbw	%xmm13, %xmm4
	movzbl	32(%r13), %eax
	movd	%eax, %xmm13
	punpcklwd	%xmm10, %xmm4
	movq	800(%rsp), %rax
	movzbl	32(%rsp,%rax), %eax
	movd	%eax, %xmm10
	punpckldq	%xmm2, %xmm4
	movzbl	32(%rbp), %eax
	movd	%eax, %xmm14
	punpcklqdq	%xmm1, %xmm4
	movq	440(%rsp), %rax
	movzbl	32(%rsp,%rax), %eax
	movd	%eax, %xmm1
	pand	%xmm12, %xmm4
	movq	1944(%rsp), %rax
	movzbl	32(%rax), %eax
	movd	%eax, %xmm12
	punpcklbw	%xmm11, %xmm9
	movq	280(%rsp), %rax
	movzbl	32(%rsp,%rax), %eax
	movd	%eax, %xmm2
	punpcklbw	%xmm3, %xmm7
	movq	784(%rsp), %rax
	movzbl	32(%rax), %eax
	movd	%eax, %xmm3
	punpcklwd	%xmm9, %xmm7
	movq	200(%rsp), %rax
	movzbl	32(%rsp,%rax), %eax
	movd	%eax, %xmm9
	punpcklbw	%xmm13, %xmm10
	movq	1960(%rsp), %rax
	movzbl	32(%rax), %eax
	movd	%eax, %xmm13
	punpcklbw	%xmm14, %xmm1
	movq	384(%rsp), %rax
	movzbl	32(%rsp,%rax), %eax
	movd	%eax, %xmm11
	punpcklwd	%xmm10, %xmm1
	movq	808(%rsp), %rax
	movzbl	32(%rax), %eax
	movd	%eax, %xmm14
	punpckldq	%xmm7, %xmm1
	movq	216(%rsp), %rax
	movzbl	32(%rsp,%rax), %eax
	movd	%eax, %xmm7
	punpcklbw	%xmm12, %xmm2
	movq	368(%rsp), %rax
	movzbl	16(%rax), %eax
	movd	%eax, %xmm12
	punpcklbw	%xmm3, %xmm9
	movq	72(%rsp), %rax
	movzbl	16(%rsp,%rax), %eax
	movd	%eax, %xmm10
	punpcklwd	%xmm2, %xmm9
	movq	376(%rsp), %rax
	movzbl	16(%rax), %eax
	movd	%eax, %xmm3
	punpcklbw	%xmm13, %xmm11
	movq	224(%rsp), %rax
	movzbl	16(%rsp,%rax), %eax
	movd	%eax, %xmm2
	punpcklbw	%xmm14, %xmm7
	movq	160(%rsp), %rax
	movzbl	16(%rax), %eax
	movd	%eax, %xmm14
	punpcklwd	%xmm11, %xmm7
	movq	232(%rsp), %rax
	movzbl	16(%rsp,%rax), %eax
	movd	%eax, %xmm13
	punpckldq	%xmm9, %xmm7
	movq	208(%rsp), %rax
	movzbl	16(%rax), %eax
	movd	%eax, %xmm15
	punpcklqdq	%xmm1, %xmm7
	movq	512(%rsp), %rax
	movzbl	16(%rsp,%rax), %eax
	movd	%eax, %xmm1
	pand	%xmm8, %xmm7
	movq	168(%rsp), %rax
	movzbl	16(%rax), %eax
	movdqa	%xmm0, 512(%rsp)
	movd	%eax, %xmm0
	punpcklbw	%xmm12, %xmm10
	movq	240(%rsp), %rax
	movzbl	16(%rsp,%rax), %eax
	movd	%eax, %xmm11
	punpcklbw	%xmm3, %xmm2
	movq	176(%rsp), %rax
	movzbl	16(%rax), %eax
	movd	%eax, %xmm3
	punpcklwd	%xmm10, %xmm2
	movq	80(%rsp), %rax
	movzbl	16(%rsp,%rax), %eax
	movd	%eax, %xmm9
	punpcklbw	%xmm14, %xmm13
	movq	152(%rsp), %rax
	movzbl	16(%rax), %eax
	movd	%eax, %xmm14
	punpcklbw	%xmm15, %xmm1
	movq	88(%rsp), %rax
	movzbl	16(%rsp,%rax), %eax
	movd	%eax, %xmm12
	punpcklwd	%xmm13, %xmm1
	movq	112(%rsp), %rax
	movzbl	16(%rax), %eax
	movd	%eax, %xmm13
	punpckldq	%xmm2, %xmm1
	movq	248(%rsp), %rax
	movzbl	16(%rsp,%rax), %eax
	movd	%eax, %xmm8
	punpcklbw	%xmm0, %xmm11
	movq	120(%rsp), %rax
	movzbl	(%rax), %eax
	movd	%eax, %xmm0
	punpcklbw	%xmm3, %xmm9
	punpcklwd	%xmm11, %xmm9
	movq	256(%rsp), %rax
	movzbl	(%rsp,%rax), %eax
	movd	%eax, %xmm10
	punpcklbw	%xmm14, %xmm12
	movq	192(%rsp), %rax
	movzbl	(%rax), %eax
	movd	%eax, %xmm11
	punpcklbw	%xmm13, %xmm8
	movq	264(%rsp), %rax
	movzbl	(%rsp,%rax), %eax
	movd	%eax, %xmm2
	punpcklwd	%xmm12, %xmm8
	movq	496(%rsp), %rax
	movzbl	(%rax), %eax
	movd	%eax, %xmm12
	punpckldq	%xmm9, %xmm8
	movq	96(%rsp), %rax
	movzbl	(%rsp,%rax), %eax
	movd	%eax, %xmm3
	punpcklqdq	%xmm1, %xmm8
	movq	128(%rsp), %rax
	movzbl	(%rax), %eax
	movd	%eax, %xmm1
	pand	%xmm6, %xmm8
	movq	272(%rsp), %rax
	movzbl	(%rsp,%rax), %eax
	movd	%eax, %xmm6
	punpcklbw	%xmm0, %xmm10
	movq	184(%rsp), %rax
	movzbl	(%rax), %eax
	movd	%eax, %xmm0
	punpcklbw	%xmm11, %xmm2
	movq	104(%rsp), %rax
	movzbl	(%rsp,%rax), %eax
	movd	%eax, %xmm9
	punpcklwd	%xmm10, %xmm2
	movq	136(%rsp), %rax
	movzbl	(%rax), %eax
	movd	%eax, %xmm10
	punpcklbw	%xmm12, %xmm3
	movq	400(%rsp), %rax
	movzbl	(%rsp,%rax), %eax
	movd	%eax, %xmm11
	punpcklbw	%xmm1, %xmm6
	movq	144(%rsp), %rax
	movzbl	(%rax), %eax
	movd	%eax, %xmm12
	punpcklwd	%xmm3, %xmm6
	movq	416(%rsp), %rax
	movzbl	(%rsp,%rax), %eax
	movd	%eax, %xmm3
	punpckldq	%xmm2, %xmm6
	movq	480(%rsp), %rax
	movzbl	(%rax), %eax
	movd	%eax, %xmm2
	punpcklbw	%xmm0, %xmm9
	movq	464(%rsp), %rax
	movzbl	(%rsp,%rax), %eax
	movd	%eax, %xmm1
	punpcklbw	%xmm10, %xmm11
	punpcklwd	%xmm9, %xmm11
	punpcklbw	%xmm12, %xmm3
	punpcklbw	%xmm2, %xmm1
	punpcklwd	%xmm3, %xmm1
	punpckldq	%xmm11, %xmm1
	punpcklqdq	%xmm6, %xmm1
	pand	%xmm5, %xmm1
	movdqa	336(%rsp), %xmm14
	movdqa	%xmm14, %xmm0
	psrldq	$14, %xmm0
	movdqa	448(%rsp), %xmm9
	pslldq	$2, %xmm9
	por	%xmm0, %xmm9
	movdqa	288(%rsp), %xmm3
	movdqa	%xmm3, %xmm0
	psrldq	$14, %xmm0
	movdqa	%xmm14, %xmm10
	pslldq	$2, %xmm10
	por	%xmm0, %xmm10
	movdqa	352(%rsp), %xmm15
	movdqa	%xmm15, %xmm0
	psrldq	$14, %xmm0
	movdqa	%xmm3, %xmm11
	pslldq	$2, %xmm11
	por	%xmm0, %xmm11
	movdqa	%xmm15, %xmm0
	pslldq	$2, %xmm0
	movdqa	320(%rsp), %xmm12
	psrldq	$14, %xmm12
	por	%xmm0, %xmm12
	movdqa	.Lunix_path_CPI44_4(%rip), %xmm0
	psubusb	%xmm0, %xmm12
	psubusb	%xmm0, %xmm11
	psubusb	%xmm0, %xmm10
	psubusb	%xmm0, %xmm9
	movdqa	%xmm14, %xmm0
	psrldq	$13, %xmm0
	movdqa	448(%rsp), %xmm2
	pslldq	$3, %xmm2
	por	%xmm0, %xmm2
	movdqa	%xmm3, %xmm0
	psrldq	$13, %xmm0
	movdqa	%xmm14, %xmm5
	pslldq	$3, %xmm5
	por	%xmm0, %xmm5
	movdqa	%xmm15, %xmm0
	psrldq	$13, %xmm0
	movdqa	%xmm3, %xmm6
	pslldq	$3, %xmm6
	por	%xmm0, %xmm6
	movdqa	%xmm15, %xmm0
	pslldq	$3, %xmm0
	movdqa	320(%rsp), %xmm13
	psrldq	$13, %xmm13
	movdqa	%xmm13, 320(%rsp)
	movdqa	320(%rsp), %xmm13
	por	%xmm0, %xmm13
	movdqa	%xmm13, 320(%rsp)
	movdqa	.Lunix_path_CPI44_5(%rip), %xmm0
	movdqa	320(%rsp), %xmm13
	psubusb	%xmm0, %xmm13
	movdqa	%xmm13, 320(%rsp)
	movdqa	320(%rsp), %xmm13
	por	%xmm12, %xmm13
	movdqa	%xmm13, 320(%rsp)
	movdqa	448(%rsp), %xmm12
	psubusb	%xmm0, %xmm6
	por	%xmm11, %xmm6
	psubusb	%xmm0, %xmm5
	por	%xmm10, %xmm5
	psubusb	%xmm0, %xmm2
	por	%xmm9, %xmm2
	movdqa	320(%rsp), %xmm9
	movdqa	.Lunix_path_CPI44_6(%rip), %xmm0
	pand	%xmm0, %xmm9
	pxor	%xmm1, %xmm9
	pand	%xmm0, %xmm6
	pxor	%xmm8, %xmm6
	pand	%xmm0, %xmm5
	pxor	%xmm7, %xmm5
	movdqa	816(%rsp), %xmm7
	pand	%xmm0, %xmm2
	pxor	%xmm4, %xmm2
	movdqa	832(%rsp), %xmm4
	pcmpeqd	%xmm0, %xmm0
	psubusb	%xmm0, %xmm15
	psubusb	%xmm0, %xmm3
	movdqa	%xmm12, %xmm8
	psubusb	.Lunix_path_CPI44_7(%rip), %xmm8
	psubusb	%xmm0, %xmm14
	movdqa	512(%rsp), %xmm0
	movdqa	%xmm3, %xmm10
	movdqa	848(%rsp), %xmm3
.Lunix_path_BB44_7:
	por	%xmm2, %xmm4
	por	%xmm5, %xmm3
	por	%xmm6, %xmm7
	por	%xmm9, %xmm0
	addq	$64, %r8
	leaq	(%rdi,%r14), %rax
	addq	$-64, %r14
	movdqa	%xmm12, %xmm9
	cmpq	$63, %rax
	jbe	.Lunix_path_BB44_10
.Lunix_path_BB44_8:
	movdqu	(%r8), %xmm5
	movdqu	16(%r8), %xmm11
	movdqu	32(%r8), %xmm6
	movdqu	48(%r8), %xmm12
	movdqa	%xmm11, %xmm1
	por	%xmm5, %xmm1
	movdqa	%xmm6, %xmm2
	por	%xmm12, %xmm2
	por	%xmm1, %xmm2
	pmovmskb	%xmm2, %eax
	testl	%eax, %eax
	jne	.Lunix_path_BB44_6
	movdqa	%xmm15, %xmm9
	movdqa	%xmm10, %xmm6
	movdqa	%xmm14, %xmm5
	movdqa	%xmm8, %xmm2
	pxor	%xmm15, %xmm15
	pxor	%xmm10, %xmm10
	pxor	%xmm14, %xmm14
	pxor	%xmm8, %xmm8
	jmp	.Lunix_path_BB44_7
.Lunix_path_BB44_10:
	movdqa	%xmm10, 288(%rsp)
	movdqa	%xmm15, 336(%rsp)
	movdqa	%xmm8, 352(%rsp)
	movdqa	%xmm14, 320(%rsp)
	movdqa	%xmm12, 448(%rsp)
	movdqa	%xmm7, 816(%rsp)
	movdqa	%xmm4, 832(%rsp)
	movdqa	%xmm3, 848(%rsp)
	movdqa	%xmm0, 512(%rsp)
	negq	%r14
.Lunix_path_BB44_11:
	leaq	1968(%rsp), %rdi
	movq	%r15, %rdx
	movq	%r14, %rcx
	callq	simdutf8.last_block
	movdqa	1968(%rsp), %xmm5
	movdqa	1984(%rsp), %xmm0
	movdqa	2000(%rsp), %xmm4
	movdqa	2016(%rsp), %xmm3
	movdqa	%xmm0, %xmm1
	por	%xmm5, %xmm1
	movdqa	%xmm4, %xmm2
	por	%xmm3, %xmm2
	por	%xmm1, %xmm2
	pmovmskb	%xmm2, %eax
	testl	%eax, %eax
	movdqa	320(%rsp), %xmm14
	movdqa	352(%rsp), %xmm1
	movdqa	336(%rsp), %xmm9
	movdqa	288(%rsp), %xmm2
	je	.Lunix_path_BB44_13
	movdqa	%xmm5, %xmm1
	pslldq	$1, %xmm1
	movdqa	448(%rsp), %xmm8
	psrldq	$15, %xmm8
	por	%xmm1, %xmm8
	movdqa	%xmm5, %xmm1
	psrldq	$15, %xmm1
	movdqa	%xmm0, %xmm7
	pslldq	$1, %xmm7
	por	%xmm1, %xmm7
	movdqa	%xmm0, %xmm1
	psrldq	$15, %xmm1
	movdqa	%xmm4, 480(%rsp)
	movdqa	%xmm4, %xmm6
	pslldq	$1, %xmm6
	por	%xmm1, %xmm6
	movdqa	%xmm4, %xmm1
	psrldq	$15, %xmm1
	movdqa	%xmm5, 320(%rsp)
	movdqa	%xmm3, %xmm5
	movdqa	%xmm3, 496(%rsp)
	pslldq	$1, %xmm5
	por	%xmm1, %xmm5
	movaps	.Lunix_path_CPI44_0(%rip), %xmm1
	movaps	%xmm1, 48(%rsp)
	movaps	%xmm1, 32(%rsp)
	movaps	%xmm1, 16(%rsp)
	movaps	%xmm1, (%rsp)
	movdqa	%xmm5, %xmm9
	psrlw	$4, %xmm9
	movdqa	.Lunix_path_CPI44_1(%rip), %xmm4
	movdqa	%xmm9, %xmm10
	pand	%xmm4, %xmm10
	movdqa	%xmm6, %xmm11
	psrlw	$4, %xmm11
	movdqa	%xmm11, %xmm12
	pand	%xmm4, %xmm12
	movdqa	%xmm8, %xmm2
	psrlw	$4, %xmm2
	movdqa	%xmm2, %xmm1
	pand	%xmm4, %xmm1
	movdqa	%xmm1, 1616(%rsp)
	movdqa	%xmm7, %xmm1
	psrlw	$4, %xmm1
	movzbl	1616(%rsp), %eax
	movq	%rax, 312(%rsp)
	movdqa	%xmm2, 1552(%rsp)
	movdqa	%xmm1, %xmm2
	pand	%xmm4, %xmm2
	movzbl	1553(%rsp), %eax
	movq	%rax, 104(%rsp)
	movzbl	1618(%rsp), %eax
	movq	%rax, 96(%rsp)
	movzbl	1555(%rsp), %eax
	movq	%rax, 248(%rsp)
	movzbl	1620(%rsp), %eax
	movq	%rax, 232(%rsp)
	movzbl	1557(%rsp), %r15d
	movzbl	1622(%rsp), %eax
	movq	%rax, 216(%rsp)
	movzbl	1559(%rsp), %ebx
	movzbl	1624(%rsp), %eax
	movq	%rax, 168(%rsp)
	movzbl	1561(%rsp), %edi
	movzbl	1626(%rsp), %eax
	movq	%rax, 200(%rsp)
	movzbl	1563(%rsp), %edx
	movzbl	1628(%rsp), %eax
	movq	%rax, 160(%rsp)
	movzbl	1565(%rsp), %ecx
	movzbl	1630(%rsp), %eax
	movq	%rax, 280(%rsp)
	movzbl	1567(%rsp), %eax
	movdqa	%xmm2, 1488(%rsp)
	movzbl	1488(%rsp), %esi
	movq	%rsi, 144(%rsp)
	movdqa	%xmm1, 1456(%rsp)
	movzbl	1457(%rsp), %esi
	movq	%rsi, 128(%rsp)
	movzbl	1490(%rsp), %esi
	movq	%rsi, 192(%rsp)
	movzbl	1459(%rsp), %esi
	movq	%rsi, 112(%rsp)
	movzbl	1492(%rsp), %esi
	movq	%rsi, 464(%rsp)
	movzbl	1461(%rsp), %esi
	movq	%rsi, 400(%rsp)
	movzbl	1494(%rsp), %esi
	movq	%rsi, 272(%rsp)
	movzbl	1463(%rsp), %esi
	movq	%rsi, 256(%rsp)
	movzbl	1496(%rsp), %esi
	movq	%rsi, 80(%rsp)
	movzbl	1465(%rsp), %r12d
	movzbl	1498(%rsp), %esi
	movq	%rsi, 72(%rsp)
	movzbl	1467(%rsp), %r14d
	movzbl	1500(%rsp), %esi
	movq	%rsi, 384(%rsp)
	movzbl	1469(%rsp), %r10d
	movzbl	1502(%rsp), %esi
	movq	%rsi, 208(%rsp)
	movzbl	1471(%rsp), %r9d
	movdqa	%xmm12, 1568(%rsp)
	movzbl	1568(%rsp), %esi
	movq	%rsi, 352(%rsp)
	movdqa	%xmm11, 1520(%rsp)
	movzbl	1521(%rsp), %esi
	movq	%rsi, 288(%rsp)
	movzbl	1570(%rsp), %esi
	movq	%rsi, 336(%rsp)
	movzbl	1523(%rsp), %esi
	movq	%rsi, 152(%rsp)
	movzbl	1572(%rsp), %esi
	movq	%rsi, 136(%rsp)
	movzbl	1525(%rsp), %esi
	movq	%rsi, 120(%rsp)
	movzbl	1574(%rsp), %esi
	movq	%rsi, 184(%rsp)
	movzbl	1527(%rsp), %esi
	movq	%rsi, 304(%rsp)
	movzbl	1576(%rsp), %esi
	movq	%rsi, 416(%rsp)
	movzbl	1529(%rsp), %esi
	movq	%rsi, 88(%rsp)
	movzbl	1578(%rsp), %esi
	movq	%rsi, 264(%rsp)
	movzbl	1531(%rsp), %esi
	movq	%rsi, 224(%rsp)
	movzbl	1580(%rsp), %esi
	movq	%rsi, 240(%rsp)
	movzbl	1533(%rsp), %r13d
	movzbl	1582(%rsp), %esi
	movq	%rsi, 176(%rsp)
	movzbl	1535(%rsp), %esi
	movdqa	%xmm10, 1632(%rsp)
	movzbl	1632(%rsp), %r8d
	movdqa	%xmm9, 1600(%rsp)
	movq	%rsp, %r11
	movzbl	1615(%rsp), %ebp
	orq	%r11, %rbp
	movzbl	48(%rbp), %ebp
	movd	%ebp, %xmm10
	movzbl	1646(%rsp), %ebp
	movzbl	48(%rsp,%rbp), %ebp
	movd	%ebp, %xmm2
	movzbl	1613(%rsp), %ebp
	orq	%r11, %rbp
	movzbl	48(%rbp), %ebp
	movd	%ebp, %xmm11
	movzbl	1644(%rsp), %ebp
	movzbl	48(%rsp,%rbp), %ebp
	movd	%ebp, %xmm1
	movzbl	1611(%rsp), %ebp
	orq	%r11, %rbp
	movzbl	48(%rbp), %ebp
	movd	%ebp, %xmm12
	movzbl	1642(%rsp), %ebp
	movzbl	48(%rsp,%rbp), %ebp
	movd	%ebp, %xmm9
	movzbl	1609(%rsp), %ebp
	orq	%r11, %rbp
	punpcklbw	%xmm10, %xmm2
	movzbl	48(%rbp), %ebp
	movd	%ebp, %xmm13
	punpcklbw	%xmm11, %xmm1
	movzbl	1640(%rsp), %ebp
	movzbl	48(%rsp,%rbp), %ebp
	movd	%ebp, %xmm10
	movzbl	1607(%rsp), %ebp
	orq	%r11, %rbp
	punpcklwd	%xmm2, %xmm1
	movzbl	48(%rbp), %ebp
	movd	%ebp, %xmm11
	punpcklbw	%xmm12, %xmm9
	movzbl	1638(%rsp), %ebp
	movzbl	48(%rsp,%rbp), %ebp
	movd	%ebp, %xmm12
	movzbl	1605(%rsp), %ebp
	orq	%r11, %rbp
	punpcklbw	%xmm13, %xmm10
	movzbl	48(%rbp), %ebp
	movd	%ebp, %xmm13
	punpcklwd	%xmm9, %xmm10
	movzbl	1636(%rsp), %ebp
	movzbl	48(%rsp,%rbp), %ebp
	movd	%ebp, %xmm2
	movzbl	1603(%rsp), %ebp
	orq	%r11, %rbp
	punpckldq	%xmm1, %xmm10
	movzbl	48(%rbp), %ebp
	movd	%ebp, %xmm1
	punpcklbw	%xmm11, %xmm12
	movzbl	1634(%rsp), %ebp
	movzbl	48(%rsp,%rbp), %ebp
	movd	%ebp, %xmm11
	movzbl	1601(%rsp), %ebp
	orq	%r11, %rbp
	punpcklbw	%xmm13, %xmm2
	movzbl	48(%rbp), %ebp
	movd	%ebp, %xmm13
	punpcklwd	%xmm12, %xmm2
	movzbl	48(%rsp,%r8), %r8d
	movd	%r8d, %xmm9
	orq	%r11, %rax
	punpcklbw	%xmm1, %xmm11
	movzbl	(%rax), %eax
	movd	%eax, %xmm12
	punpcklbw	%xmm13, %xmm9
	movq	280(%rsp), %rax
	movzbl	(%rsp,%rax), %eax
	movd	%eax, %xmm13
	orq	%r11, %rcx
	punpcklwd	%xmm11, %xmm9
	movzbl	(%rcx), %eax
	movd	%eax, %xmm11
	punpckldq	%xmm2, %xmm9
	movq	160(%rsp), %rax
	movzbl	(%rsp,%rax), %eax
	movd	%eax, %xmm1
	orq	%r11, %rdx
	punpcklqdq	%xmm10, %xmm9
	movzbl	(%rdx), %eax
	movd	%eax, %xmm2
	punpcklbw	%xmm12, %xmm13
	movq	200(%rsp), %rax
	movzbl	(%rsp,%rax), %eax
	movd	%eax, %xmm10
	orq	%r11, %rdi
	punpcklbw	%xmm11, %xmm1
	movzbl	(%rdi), %eax
	movd	%eax, %xmm12
	punpcklwd	%xmm13, %xmm1
	movq	168(%rsp), %rax
	movzbl	(%rsp,%rax), %eax
	movd	%eax, %xmm11
	orq	%r11, %rbx
	punpcklbw	%xmm2, %xmm10
	movzbl	(%rbx), %eax
	movd	%eax, %xmm2
	punpcklbw	%xmm12, %xmm11
	movq	216(%rsp), %rax
	movzbl	(%rsp,%rax), %eax
	movd	%eax, %xmm12
	orq	%r11, %r15
	punpcklwd	%xmm10, %xmm11
	movzbl	(%r15), %eax
	movd	%eax, %xmm10
	punpckldq	%xmm1, %xmm11
	movq	232(%rsp), %rax
	movzbl	(%rsp,%rax), %eax
	movd	%eax, %xmm1
	movq	248(%rsp), %rax
	orq	%r11, %rax
	punpcklbw	%xmm2, %xmm12
	movzbl	(%rax), %eax
	movd	%eax, %xmm2
	punpcklbw	%xmm10, %xmm1
	movq	96(%rsp), %rax
	movzbl	(%rsp,%rax), %eax
	movd	%eax, %xmm13
	movq	104(%rsp), %rax
	orq	%r11, %rax
	punpcklwd	%xmm12, %xmm1
	movzbl	(%rax), %eax
	movd	%eax, %xmm12
	punpcklbw	%xmm2, %xmm13
	movq	312(%rsp), %rax
	movzbl	(%rsp,%rax), %eax
	movd	%eax, %xmm10
	orq	%r11, %r9
	punpcklbw	%xmm12, %xmm10
	movzbl	16(%r9), %eax
	movd	%eax, %xmm12
	punpcklwd	%xmm13, %xmm10
	movq	208(%rsp), %rax
	movzbl	16(%rsp,%rax), %eax
	movd	%eax, %xmm13
	orq	%r11, %r10
	punpckldq	%xmm1, %xmm10
	movzbl	16(%r10), %eax
	movd	%eax, %xmm1
	punpcklqdq	%xmm11, %xmm10
	movq	384(%rsp), %rax
	movzbl	16(%rsp,%rax), %eax
	movd	%eax, %xmm2
	orq	%r11, %r14
	punpcklbw	%xmm12, %xmm13
	movzbl	16(%r14), %eax
	movd	%eax, %xmm11
	punpcklbw	%xmm1, %xmm2
	movq	72(%rsp), %rax
	movzbl	16(%rsp,%rax), %eax
	movd	%eax, %xmm12
	orq	%r11, %r12
	punpcklwd	%xmm13, %xmm2
	movzbl	16(%r12), %eax
	movd	%eax, %xmm13
	punpcklbw	%xmm11, %xmm12
	movq	80(%rsp), %rax
	movzbl	16(%rsp,%rax), %eax
	movd	%eax, %xmm1
	movq	256(%rsp), %rax
	orq	%r11, %rax
	punpcklbw	%xmm13, %xmm1
	movzbl	16(%rax), %eax
	movd	%eax, %xmm11
	punpcklwd	%xmm12, %xmm1
	movq	272(%rsp), %rax
	movzbl	16(%rsp,%rax), %eax
	movd	%eax, %xmm12
	movq	400(%rsp), %rax
	orq	%r11, %rax
	punpckldq	%xmm2, %xmm1
	movzbl	16(%rax), %eax
	movd	%eax, %xmm2
	punpcklbw	%xmm11, %xmm12
	movq	464(%rsp), %rax
	movzbl	16(%rsp,%rax), %eax
	movd	%eax, %xmm13
	movq	112(%rsp), %rax
	orq	%r11, %rax
	punpcklbw	%xmm2, %xmm13
	movzbl	16(%rax), %eax
	movd	%eax, %xmm2
	punpcklwd	%xmm12, %xmm13
	movq	192(%rsp), %rax
	movzbl	16(%rsp,%rax), %eax
	movd	%eax, %xmm12
	movq	128(%rsp), %rax
	orq	%r11, %rax
	punpcklbw	%xmm2, %xmm12
	movzbl	16(%rax), %eax
	movd	%eax, %xmm2
	movq	144(%rsp), %rax
	movzbl	16(%rsp,%rax), %eax
	movd	%eax, %xmm11
	punpcklbw	%xmm2, %xmm11
	orq	%r11, %rsi
	punpcklwd	%xmm12, %xmm11
	movzbl	32(%rsi), %eax
	movd	%eax, %xmm2
	punpckldq	%xmm13, %xmm11
	movq	176(%rsp), %rax
	movzbl	32(%rsp,%rax), %eax
	movd	%eax, %xmm12
	movq	88(%rsp), %rcx
	orq	%r11, %rcx
	movq	224(%rsp), %rdx
	orq	%r11, %rdx
	orq	%r11, %r13
	punpcklqdq	%xmm1, %xmm11
	punpcklbw	%xmm2, %xmm12
	movzbl	32(%r13), %eax
	movd	%eax, %xmm1
	movq	240(%rsp), %rax
	movzbl	32(%rsp,%rax), %eax
	movd	%eax, %xmm2
	punpcklbw	%xmm1, %xmm2
	punpcklwd	%xmm12, %xmm2
	movzbl	32(%rdx), %eax
	movd	%eax, %xmm1
	movq	264(%rsp), %rax
	movzbl	32(%rsp,%rax), %eax
	movd	%eax, %xmm13
	punpcklbw	%xmm1, %xmm13
	movzbl	32(%rcx), %eax
	movd	%eax, %xmm1
	movq	416(%rsp), %rax
	movzbl	32(%rsp,%rax), %eax
	movd	%eax, %xmm12
	punpcklbw	%xmm1, %xmm12
	movq	120(%rsp), %rcx
	orq	%r11, %rcx
	movq	304(%rsp), %rax
	orq	%r11, %rax
	punpcklwd	%xmm13, %xmm12
	punpckldq	%xmm2, %xmm12
	movzbl	32(%rax), %eax
	movd	%eax, %xmm1
	movq	184(%rsp), %rax
	movzbl	32(%rsp,%rax), %eax
	movd	%eax, %xmm2
	punpcklbw	%xmm1, %xmm2
	movzbl	32(%rcx), %eax
	movd	%eax, %xmm1
	movq	136(%rsp), %rax
	movzbl	32(%rsp,%rax), %eax
	movd	%eax, %xmm13
	punpcklbw	%xmm1, %xmm13
	movq	288(%rsp), %rax
	orq	%r11, %rax
	movq	152(%rsp), %rcx
	orq	%r11, %rcx
	punpcklwd	%xmm2, %xmm13
	movzbl	32(%rcx), %edx
	movq	336(%rsp), %rcx
	movzbl	32(%rsp,%rcx), %ecx
	movzbl	32(%rax), %r14d
	movq	352(%rsp), %rax
	movzbl	32(%rsp,%rax), %eax
	movaps	.Lunix_path_CPI44_2(%rip), %xmm1
	movaps	%xmm1, 48(%rsp)
	movaps	%xmm1, 32(%rsp)
	movaps	%xmm1, 16(%rsp)
	movaps	%xmm1, (%rsp)
	movd	%edx, %xmm14
	pand	%xmm4, %xmm8
	movdqa	%xmm8, 688(%rsp)
	movd	%ecx, %xmm8
	pand	%xmm4, %xmm7
	movzbl	688(%rsp), %ecx
	movq	%rcx, 88(%rsp)
	movzbl	689(%rsp), %ecx
	movq	%rcx, 240(%rsp)
	movzbl	690(%rsp), %ecx
	movq	%rcx, 72(%rsp)
	movzbl	691(%rsp), %ecx
	movq	%rcx, 176(%rsp)
	movzbl	692(%rsp), %ecx
	movq	%rcx, 168(%rsp)
	movzbl	693(%rsp), %ecx
	movq	%rcx, 200(%rsp)
	movzbl	694(%rsp), %ebp
	movzbl	695(%rsp), %r12d
	movzbl	696(%rsp), %ebx
	movzbl	697(%rsp), %r9d
	movzbl	698(%rsp), %r10d
	movzbl	699(%rsp), %edi
	movzbl	700(%rsp), %r8d
	movzbl	701(%rsp), %esi
	movzbl	702(%rsp), %edx
	movzbl	703(%rsp), %ecx
	movdqa	%xmm7, 656(%rsp)
	movd	%r14d, %xmm15
	pand	%xmm4, %xmm6
	movzbl	656(%rsp), %r14d
	movq	%r14, 192(%rsp)
	movzbl	657(%rsp), %r14d
	movq	%r14, 120(%rsp)
	movzbl	658(%rsp), %r14d
	movq	%r14, 312(%rsp)
	movzbl	659(%rsp), %r14d
	movq	%r14, 464(%rsp)
	movzbl	660(%rsp), %r14d
	movq	%r14, 104(%rsp)
	movzbl	661(%rsp), %r14d
	movq	%r14, 272(%rsp)
	movzbl	662(%rsp), %r14d
	movq	%r14, 256(%rsp)
	movzbl	663(%rsp), %r14d
	movq	%r14, 248(%rsp)
	movzbl	664(%rsp), %r14d
	movq	%r14, 224(%rsp)
	movzbl	665(%rsp), %r14d
	movq	%r14, 216(%rsp)
	movzbl	666(%rsp), %r14d
	movq	%r14, 384(%rsp)
	movzbl	667(%rsp), %r14d
	movq	%r14, 208(%rsp)
	movzbl	668(%rsp), %r14d
	movq	%r14, 160(%rsp)
	movzbl	669(%rsp), %r13d
	movzbl	670(%rsp), %r15d
	movzbl	671(%rsp), %r14d
	movdqa	%xmm6, 672(%rsp)
	movd	%eax, %xmm7
	pand	%xmm4, %xmm5
	movzbl	672(%rsp), %eax
	movq	%rax, 352(%rsp)
	movzbl	673(%rsp), %eax
	movq	%rax, 336(%rsp)
	movzbl	674(%rsp), %eax
	movq	%rax, 288(%rsp)
	movzbl	675(%rsp), %eax
	movq	%rax, 152(%rsp)
	movzbl	676(%rsp), %eax
	movq	%rax, 144(%rsp)
	movzbl	677(%rsp), %eax
	movq	%rax, 136(%rsp)
	movzbl	678(%rsp), %eax
	movq	%rax, 128(%rsp)
	movzbl	679(%rsp), %eax
	movq	%rax, 184(%rsp)
	movzbl	680(%rsp), %eax
	movq	%rax, 112(%rsp)
	movzbl	681(%rsp), %eax
	movq	%rax, 304(%rsp)
	movzbl	682(%rsp), %eax
	movq	%rax, 416(%rsp)
	movzbl	683(%rsp), %eax
	movq	%rax, 400(%rsp)
	movzbl	684(%rsp), %eax
	movq	%rax, 96(%rsp)
	movzbl	685(%rsp), %eax
	movq	%rax, 264(%rsp)
	movzbl	686(%rsp), %eax
	movq	%rax, 80(%rsp)
	movzbl	687(%rsp), %eax
	movq	%rax, 232(%rsp)
	movdqa	%xmm5, 704(%rsp)
	movzbl	719(%rsp), %eax
	movzbl	48(%rsp,%rax), %eax
	movd	%eax, %xmm5
	punpcklbw	%xmm14, %xmm8
	movzbl	718(%rsp), %eax
	movzbl	48(%rsp,%rax), %eax
	movd	%eax, %xmm2
	punpcklbw	%xmm15, %xmm7
	movzbl	717(%rsp), %eax
	movzbl	48(%rsp,%rax), %eax
	movd	%eax, %xmm6
	punpcklwd	%xmm8, %xmm7
	movzbl	716(%rsp), %eax
	movzbl	48(%rsp,%rax), %eax
	movd	%eax, %xmm1
	punpckldq	%xmm13, %xmm7
	movzbl	715(%rsp), %eax
	movzbl	48(%rsp,%rax), %eax
	movd	%eax, %xmm8
	punpcklqdq	%xmm12, %xmm7
	movzbl	714(%rsp), %eax
	movzbl	48(%rsp,%rax), %eax
	movd	%eax, %xmm12
	punpcklbw	%xmm5, %xmm2
	movzbl	713(%rsp), %eax
	movzbl	48(%rsp,%rax), %eax
	movd	%eax, %xmm5
	punpcklbw	%xmm6, %xmm1
	movzbl	712(%rsp), %eax
	movzbl	48(%rsp,%rax), %eax
	movd	%eax, %xmm6
	punpcklwd	%xmm2, %xmm1
	movzbl	711(%rsp), %eax
	movzbl	48(%rsp,%rax), %eax
	movd	%eax, %xmm13
	punpcklbw	%xmm8, %xmm12
	movzbl	710(%rsp), %eax
	movzbl	48(%rsp,%rax), %eax
	movd	%eax, %xmm8
	punpcklbw	%xmm5, %xmm6
	movzbl	709(%rsp), %eax
	movzbl	48(%rsp,%rax), %eax
	movd	%eax, %xmm5
	punpcklwd	%xmm12, %xmm6
	movzbl	708(%rsp), %eax
	movzbl	48(%rsp,%rax), %eax
	movd	%eax, %xmm2
	punpckldq	%xmm1, %xmm6
	movzbl	707(%rsp), %eax
	movzbl	48(%rsp,%rax), %eax
	movd	%eax, %xmm1
	punpcklbw	%xmm13, %xmm8
	movzbl	706(%rsp), %eax
	movzbl	48(%rsp,%rax), %eax
	movd	%eax, %xmm12
	punpcklbw	%xmm5, %xmm2
	movzbl	705(%rsp), %eax
	movzbl	48(%rsp,%rax), %eax
	movd	%eax, %xmm13
	punpcklwd	%xmm8, %xmm2
	movzbl	704(%rsp), %eax
	movzbl	48(%rsp,%rax), %eax
	movd	%eax, %xmm5
	punpcklbw	%xmm1, %xmm12
	movzbl	(%rsp,%rcx), %eax
	movd	%eax, %xmm1
	punpcklbw	%xmm13, %xmm5
	movzbl	(%rsp,%rdx), %eax
	movd	%eax, %xmm13
	punpcklwd	%xmm12, %xmm5
	movzbl	(%rsp,%rsi), %eax
	movd	%eax, %xmm8
	punpckldq	%xmm2, %xmm5
	movzbl	(%rsp,%r8), %eax
	movd	%eax, %xmm2
	punpcklqdq	%xmm6, %xmm5
	movzbl	(%rsp,%rdi), %eax
	movd	%eax, %xmm6
	pand	%xmm9, %xmm5
	movzbl	(%rsp,%r10), %eax
	movd	%eax, %xmm9
	punpcklbw	%xmm1, %xmm13
	movzbl	(%rsp,%r9), %eax
	movd	%eax, %xmm1
	punpcklbw	%xmm8, %xmm2
	movzbl	(%rsp,%rbx), %eax
	movd	%eax, %xmm8
	punpcklwd	%xmm13, %xmm2
	movzbl	(%rsp,%r12), %eax
	movd	%eax, %xmm12
	punpcklbw	%xmm6, %xmm9
	movzbl	(%rsp,%rbp), %eax
	movd	%eax, %xmm6
	punpcklbw	%xmm1, %xmm8
	movq	200(%rsp), %rax
	movzbl	(%rsp,%rax), %eax
	movd	%eax, %xmm13
	punpcklwd	%xmm9, %xmm8
	movq	168(%rsp), %rax
	movzbl	(%rsp,%rax), %eax
	movd	%eax, %xmm1
	punpckldq	%xmm2, %xmm8
	movq	176(%rsp), %rax
	movzbl	(%rsp,%rax), %eax
	movd	%eax, %xmm2
	punpcklbw	%xmm12, %xmm6
	movq	72(%rsp), %rax
	movzbl	(%rsp,%rax), %eax
	movd	%eax, %xmm9
	punpcklbw	%xmm13, %xmm1
	movq	240(%rsp), %rax
	movzbl	(%rsp,%rax), %eax
	movd	%eax, %xmm12
	punpcklwd	%xmm6, %xmm1
	movq	88(%rsp), %rax
	movzbl	(%rsp,%rax), %eax
	movd	%eax, %xmm6
	punpcklbw	%xmm2, %xmm9
	movzbl	16(%rsp,%r14), %eax
	movd	%eax, %xmm13
	punpcklbw	%xmm12, %xmm6
	movzbl	16(%rsp,%r15), %eax
	movd	%eax, %xmm12
	punpcklwd	%xmm9, %xmm6
	movzbl	16(%rsp,%r13), %eax
	movd	%eax, %xmm9
	punpckldq	%xmm1, %xmm6
	movq	160(%rsp), %rax
	movzbl	16(%rsp,%rax), %eax
	movd	%eax, %xmm2
	punpcklqdq	%xmm8, %xmm6
	movq	208(%rsp), %rax
	movzbl	16(%rsp,%rax), %eax
	movd	%eax, %xmm8
	pand	%xmm10, %xmm6
	movq	384(%rsp), %rax
	movzbl	16(%rsp,%rax), %eax
	movd	%eax, %xmm10
	punpcklbw	%xmm13, %xmm12
	movq	216(%rsp), %rax
	movzbl	16(%rsp,%rax), %eax
	movd	%eax, %xmm13
	punpcklbw	%xmm9, %xmm2
	movq	224(%rsp), %rax
	movzbl	16(%rsp,%rax), %eax
	movd	%eax, %xmm1
	punpcklwd	%xmm12, %xmm2
	movq	248(%rsp), %rax
	movzbl	16(%rsp,%rax), %eax
	movd	%eax, %xmm12
	punpcklbw	%xmm8, %xmm10
	movq	256(%rsp), %rax
	movzbl	16(%rsp,%rax), %eax
	movd	%eax, %xmm8
	punpcklbw	%xmm13, %xmm1
	movq	272(%rsp), %rax
	movzbl	16(%rsp,%rax), %eax
	movd	%eax, %xmm13
	punpcklwd	%xmm10, %xmm1
	movq	104(%rsp), %rax
	movzbl	16(%rsp,%rax), %eax
	movd	%eax, %xmm9
	punpckldq	%xmm2, %xmm1
	movq	464(%rsp), %rax
	movzbl	16(%rsp,%rax), %eax
	movd	%eax, %xmm2
	punpcklbw	%xmm12, %xmm8
	movq	312(%rsp), %rax
	movzbl	16(%rsp,%rax), %eax
	movd	%eax, %xmm10
	punpcklbw	%xmm13, %xmm9
	movq	120(%rsp), %rax
	movzbl	16(%rsp,%rax), %eax
	movd	%eax, %xmm12
	punpcklwd	%xmm8, %xmm9
	movq	192(%rsp), %rax
	movzbl	16(%rsp,%rax), %eax
	movd	%eax, %xmm8
	punpcklbw	%xmm2, %xmm10
	movq	232(%rsp), %rax
	movzbl	32(%rsp,%rax), %eax
	movd	%eax, %xmm2
	punpcklbw	%xmm12, %xmm8
	movq	80(%rsp), %rax
	movzbl	32(%rsp,%rax), %eax
	movd	%eax, %xmm12
	punpcklwd	%xmm10, %xmm8
	punpckldq	%xmm9, %xmm8
	punpcklqdq	%xmm1, %xmm8
	pand	%xmm11, %xmm8
	punpcklbw	%xmm2, %xmm12
	movq	264(%rsp), %rax
	movzbl	32(%rsp,%rax), %eax
	movd	%eax, %xmm1
	movq	96(%rsp), %rax
	movzbl	32(%rsp,%rax), %eax
	movd	%eax, %xmm2
	punpcklbw	%xmm1, %xmm2
	punpcklwd	%xmm12, %xmm2
	movq	400(%rsp), %rax
	movzbl	32(%rsp,%rax), %eax
	movd	%eax, %xmm1
	movq	416(%rsp), %rax
	movzbl	32(%rsp,%rax), %eax
	movd	%eax, %xmm10
	punpcklbw	%xmm1, %xmm10
	movq	304(%rsp), %rax
	movzbl	32(%rsp,%rax), %eax
	movd	%eax, %xmm1
	movq	112(%rsp), %rax
	movzbl	32(%rsp,%rax), %eax
	movd	%eax, %xmm9
	punpcklbw	%xmm1, %xmm9
	punpcklwd	%xmm10, %xmm9
	punpckldq	%xmm2, %xmm9
	movq	184(%rsp), %rax
	movzbl	32(%rsp,%rax), %eax
	movd	%eax, %xmm1
	movq	128(%rsp), %rax
	movzbl	32(%rsp,%rax), %eax
	movd	%eax, %xmm11
	punpcklbw	%xmm1, %xmm11
	movq	136(%rsp), %rax
	movzbl	32(%rsp,%rax), %eax
	movd	%eax, %xmm1
	movq	144(%rsp), %rax
	movzbl	32(%rsp,%rax), %eax
	movd	%eax, %xmm10
	punpcklbw	%xmm1, %xmm10
	movq	152(%rsp), %rax
	movzbl	32(%rsp,%rax), %ecx
	movq	288(%rsp), %rax
	movzbl	32(%rsp,%rax), %eax
	movq	336(%rsp), %rdx
	movzbl	32(%rsp,%rdx), %ebp
	movq	352(%rsp), %rdx
	movzbl	32(%rsp,%rdx), %edx
	movl	%edx, 104(%rsp)
	movaps	.Lunix_path_CPI44_3(%rip), %xmm1
	movaps	%xmm1, 48(%rsp)
	movaps	%xmm1, 32(%rsp)
	movaps	%xmm1, 16(%rsp)
	movaps	%xmm1, (%rsp)
	movdqa	%xmm3, %xmm12
	psrlw	$4, %xmm12
	movdqa	%xmm12, %xmm13
	pand	%xmm4, %xmm13
	movdqa	480(%rsp), %xmm15
	psrlw	$4, %xmm15
	movdqa	%xmm15, %xmm14
	pand	%xmm4, %xmm14
	movdqa	%xmm0, %xmm1
	psrlw	$4, %xmm1
	movdqa	%xmm1, %xmm2
	pand	%xmm4, %xmm2
	movdqa	320(%rsp), %xmm3
	psrlw	$4, %xmm3
	pand	%xmm3, %xmm4
	movdqa	%xmm4, 1408(%rsp)
	movzbl	1408(%rsp), %edx
	movq	%rdx, 192(%rsp)
	movdqa	%xmm3, 1392(%rsp)
	movzbl	1393(%rsp), %edx
	movq	%rdx, 336(%rsp)
	movzbl	1410(%rsp), %edx
	movq	%rdx, 184(%rsp)
	movzbl	1395(%rsp), %edx
	movq	%rdx, 288(%rsp)
	movzbl	1412(%rsp), %edx
	movq	%rdx, 120(%rsp)
	movzbl	1397(%rsp), %edx
	movq	%rdx, 352(%rsp)
	movzbl	1414(%rsp), %edx
	movq	%rdx, 112(%rsp)
	movzbl	1399(%rsp), %r15d
	movzbl	1416(%rsp), %edx
	movq	%rdx, 312(%rsp)
	movzbl	1401(%rsp), %edx
	movq	%rdx, 152(%rsp)
	movzbl	1418(%rsp), %edx
	movq	%rdx, 464(%rsp)
	movzbl	1403(%rsp), %edx
	movq	%rdx, 144(%rsp)
	movzbl	1420(%rsp), %edx
	movq	%rdx, 416(%rsp)
	movzbl	1405(%rsp), %r14d
	movzbl	1422(%rsp), %edx
	movq	%rdx, 400(%rsp)
	movzbl	1407(%rsp), %edx
	movq	%rdx, 136(%rsp)
	movdqa	%xmm2, 1440(%rsp)
	movzbl	1440(%rsp), %edx
	movq	%rdx, 272(%rsp)
	movdqa	%xmm1, 1424(%rsp)
	movzbl	1425(%rsp), %ebx
	movzbl	1442(%rsp), %edx
	movq	%rdx, 264(%rsp)
	movzbl	1427(%rsp), %r8d
	movzbl	1444(%rsp), %esi
	movq	%rsi, 256(%rsp)
	movzbl	1429(%rsp), %edi
	movzbl	1446(%rsp), %esi
	movq	%rsi, 248(%rsp)
	movzbl	1431(%rsp), %edx
	movq	%rdx, 128(%rsp)
	movzbl	1448(%rsp), %esi
	movq	%rsi, 232(%rsp)
	movzbl	1433(%rsp), %r12d
	movzbl	1450(%rsp), %esi
	movq	%rsi, 224(%rsp)
	movzbl	1435(%rsp), %edx
	movq	%rdx, 96(%rsp)
	movzbl	1452(%rsp), %esi
	movq	%rsi, 176(%rsp)
	movzbl	1437(%rsp), %edx
	movq	%rdx, 88(%rsp)
	movzbl	1454(%rsp), %esi
	movq	%rsi, 384(%rsp)
	movzbl	1439(%rsp), %edx
	movq	%rdx, 80(%rsp)
	movdqa	%xmm14, 1504(%rsp)
	movd	%ecx, %xmm14
	movzbl	1504(%rsp), %ecx
	movq	%rcx, 200(%rsp)
	movdqa	%xmm15, 1472(%rsp)
	movd	%eax, %xmm4
	movzbl	1473(%rsp), %eax
	movq	%rax, 72(%rsp)
	movzbl	1506(%rsp), %eax
	movq	%rax, 280(%rsp)
	movzbl	1475(%rsp), %esi
	movzbl	1508(%rsp), %ecx
	movq	%rcx, 376(%rsp)
	movzbl	1477(%rsp), %edx
	movzbl	1510(%rsp), %ecx
	movq	%rcx, 440(%rsp)
	movzbl	1479(%rsp), %r9d
	movzbl	1512(%rsp), %eax
	movq	%rax, 808(%rsp)
	movzbl	1481(%rsp), %r13d
	movzbl	1514(%rsp), %eax
	movq	%rax, 800(%rsp)
	movzbl	1483(%rsp), %r11d
	movzbl	1516(%rsp), %eax
	movq	%rax, 792(%rsp)
	movzbl	1485(%rsp), %r10d
	movzbl	1518(%rsp), %eax
	movq	%rax, 784(%rsp)
	movzbl	1487(%rsp), %ecx
	movdqa	%xmm13, 1584(%rsp)
	movd	%ebp, %xmm13
	movzbl	1584(%rsp), %ebp
	movq	%rbp, 304(%rsp)
	movdqa	%xmm12, 1536(%rsp)
	movd	104(%rsp), %xmm12
	movq	%rsp, %rax
	orq	%rax, 336(%rsp)
	orq	%rax, 288(%rsp)
	orq	%rax, 352(%rsp)
	orq	%rax, %r15
	movq	%r15, 240(%rsp)
	orq	%rax, 152(%rsp)
	orq	%rax, 144(%rsp)
	orq	%rax, %r14
	movq	%r14, 216(%rsp)
	orq	%rax, 136(%rsp)
	orq	%rax, %rbx
	movq	%rbx, 168(%rsp)
	orq	%rax, %r8
	movq	%r8, 208(%rsp)
	orq	%rax, %rdi
	movq	%rdi, 160(%rsp)
	orq	%rax, 128(%rsp)
	orq	%rax, %r12
	movq	%r12, 368(%rsp)
	movq	96(%rsp), %rbp
	orq	%rax, %rbp
	movq	88(%rsp), %r14
	orq	%rax, %r14
	movq	80(%rsp), %r12
	orq	%rax, %r12
	movq	72(%rsp), %rbx
	orq	%rax, %rbx
	orq	%rax, %rsi
	orq	%rax, %rdx
	orq	%rax, %r9
	orq	%rax, %r13
	orq	%rax, %r11
	orq	%rax, %r10
	orq	%rax, %rcx
	movzbl	1537(%rsp), %r8d
	orq	%rax, %r8
	movq	%r8, 104(%rsp)
	movzbl	1539(%rsp), %edi
	orq	%rax, %rdi
	movq	%rdi, 80(%rsp)
	movzbl	1541(%rsp), %r8d
	orq	%rax, %r8
	movq	%r8, 96(%rsp)
	movzbl	1543(%rsp), %edi
	orq	%rax, %rdi
	movzbl	1545(%rsp), %r8d
	orq	%rax, %r8
	movq	%r8, 88(%rsp)
	movzbl	1547(%rsp), %r8d
	orq	%rax, %r8
	movq	%r8, 72(%rsp)
	movzbl	1549(%rsp), %r15d
	orq	%rax, %r15
	movzbl	1551(%rsp), %r8d
	orq	%rax, %r8
	punpcklwd	%xmm11, %xmm10
	movzbl	32(%rcx), %eax
	movd	%eax, %xmm3
	punpcklbw	%xmm14, %xmm4
	movq	784(%rsp), %rax
	movzbl	32(%rsp,%rax), %eax
	movd	%eax, %xmm2
	punpcklbw	%xmm13, %xmm12
	movzbl	32(%r10), %eax
	movd	%eax, %xmm11
	punpcklwd	%xmm4, %xmm12
	movq	792(%rsp), %rax
	movzbl	32(%rsp,%rax), %eax
	movd	%eax, %xmm1
	punpckldq	%xmm10, %xmm12
	movzbl	32(%r11), %eax
	movd	%eax, %xmm4
	punpcklqdq	%xmm9, %xmm12
	movq	800(%rsp), %rax
	movzbl	32(%rsp,%rax), %eax
	movd	%eax, %xmm9
	pand	%xmm7, %xmm12
	movzbl	32(%r13), %eax
	movd	%eax, %xmm10
	punpcklbw	%xmm3, %xmm2
	movq	808(%rsp), %rax
	movzbl	32(%rsp,%rax), %eax
	movd	%eax, %xmm7
	punpcklbw	%xmm11, %xmm1
	movzbl	32(%r9), %eax
	movd	%eax, %xmm3
	punpcklwd	%xmm2, %xmm1
	movq	440(%rsp), %rax
	movzbl	32(%rsp,%rax), %eax
	movd	%eax, %xmm11
	punpcklbw	%xmm4, %xmm9
	movzbl	32(%rdx), %eax
	movd	%eax, %xmm4
	punpcklbw	%xmm10, %xmm7
	movq	376(%rsp), %rax
	movzbl	32(%rsp,%rax), %eax
	movd	%eax, %xmm2
	punpcklwd	%xmm9, %xmm7
	movzbl	32(%rsi), %eax
	movd	%eax, %xmm9
	punpckldq	%xmm1, %xmm7
	movq	280(%rsp), %rax
	movzbl	32(%rsp,%rax), %eax
	movd	%eax, %xmm1
	punpcklbw	%xmm3, %xmm11
	movzbl	32(%rbx), %eax
	movd	%eax, %xmm3
	punpcklbw	%xmm4, %xmm2
	movq	200(%rsp), %rax
	movzbl	32(%rsp,%rax), %eax
	movd	%eax, %xmm4
	punpcklwd	%xmm11, %xmm2
	movzbl	16(%r12), %eax
	movd	%eax, %xmm11
	punpcklbw	%xmm9, %xmm1
	movq	384(%rsp), %rax
	movzbl	16(%rsp,%rax), %eax
	movd	%eax, %xmm10
	punpcklbw	%xmm3, %xmm4
	movzbl	16(%r14), %eax
	movd	%eax, %xmm3
	punpcklwd	%xmm1, %xmm4
	movq	176(%rsp), %rax
	movzbl	16(%rsp,%rax), %eax
	movd	%eax, %xmm1
	punpckldq	%xmm2, %xmm4
	movzbl	16(%rbp), %eax
	movd	%eax, %xmm2
	punpcklqdq	%xmm7, %xmm4
	movq	224(%rsp), %rax
	movzbl	16(%rsp,%rax), %eax
	movd	%eax, %xmm7
	pand	%xmm12, %xmm4
	movq	368(%rsp), %rax
	movzbl	16(%rax), %eax
	movd	%eax, %xmm12
	punpcklbw	%xmm11, %xmm10
	movq	232(%rsp), %rax
	movzbl	16(%rsp,%rax), %eax
	movd	%eax, %xmm9
	punpcklbw	%xmm3, %xmm1
	movq	128(%rsp), %rax
	movzbl	16(%rax), %eax
	movd	%eax, %xmm3
	punpcklwd	%xmm10, %xmm1
	movq	248(%rsp), %rax
	movzbl	16(%rsp,%rax), %eax
	movd	%eax, %xmm10
	punpcklbw	%xmm2, %xmm7
	movq	160(%rsp), %rax
	movzbl	16(%rax), %eax
	movd	%eax, %xmm11
	punpcklbw	%xmm12, %xmm9
	movq	256(%rsp), %rax
	movzbl	16(%rsp,%rax), %eax
	movd	%eax, %xmm2
	punpcklwd	%xmm7, %xmm9
	movq	208(%rsp), %rax
	movzbl	16(%rax), %eax
	movd	%eax, %xmm12
	punpckldq	%xmm1, %xmm9
	movq	264(%rsp), %rax
	movzbl	16(%rsp,%rax), %eax
	movd	%eax, %xmm13
	punpcklbw	%xmm3, %xmm10
	movq	168(%rsp), %rax
	movzbl	16(%rax), %eax
	movd	%eax, %xmm3
	punpcklbw	%xmm11, %xmm2
	movq	272(%rsp), %rax
	movzbl	16(%rsp,%rax), %eax
	movd	%eax, %xmm7
	punpcklwd	%xmm10, %xmm2
	movq	136(%rsp), %rax
	movzbl	(%rax), %eax
	movd	%eax, %xmm11
	punpcklbw	%xmm12, %xmm13
	movq	400(%rsp), %rax
	movzbl	(%rsp,%rax), %eax
	movd	%eax, %xmm1
	punpcklbw	%xmm3, %xmm7
	movq	216(%rsp), %rax
	movzbl	(%rax), %eax
	movd	%eax, %xmm3
	punpcklwd	%xmm13, %xmm7
	movq	416(%rsp), %rax
	movzbl	(%rsp,%rax), %eax
	movd	%eax, %xmm10
	punpckldq	%xmm2, %xmm7
	movq	144(%rsp), %rax
	movzbl	(%rax), %eax
	movd	%eax, %xmm2
	punpcklqdq	%xmm9, %xmm7
	movq	464(%rsp), %rax
	movzbl	(%rsp,%rax), %eax
	movd	%eax, %xmm12
	pand	%xmm8, %xmm7
	movq	152(%rsp), %rax
	movzbl	(%rax), %eax
	movd	%eax, %xmm8
	punpcklbw	%xmm11, %xmm1
	movq	312(%rsp), %rax
	movzbl	(%rsp,%rax), %eax
	movd	%eax, %xmm9
	punpcklbw	%xmm3, %xmm10
	movq	240(%rsp), %rax
	movzbl	(%rax), %eax
	movd	%eax, %xmm3
	punpcklwd	%xmm1, %xmm10
	movq	112(%rsp), %rax
	movzbl	(%rsp,%rax), %eax
	movd	%eax, %xmm11
	punpcklbw	%xmm2, %xmm12
	punpcklbw	%xmm8, %xmm9
	movq	352(%rsp), %rax
	movzbl	(%rax), %eax
	movd	%eax, %xmm2
	punpcklwd	%xmm12, %xmm9
	movq	120(%rsp), %rax
	movzbl	(%rsp,%rax), %eax
	movd	%eax, %xmm1
	punpckldq	%xmm10, %xmm9
	movq	288(%rsp), %rax
	movzbl	(%rax), %eax
	movd	%eax, %xmm10
	punpcklbw	%xmm3, %xmm11
	movq	184(%rsp), %rax
	movzbl	(%rsp,%rax), %eax
	movd	%eax, %xmm3
	punpcklbw	%xmm2, %xmm1
	movq	336(%rsp), %rax
	movzbl	(%rax), %eax
	movd	%eax, %xmm2
	punpcklwd	%xmm11, %xmm1
	movq	192(%rsp), %rax
	movzbl	(%rsp,%rax), %eax
	movd	%eax, %xmm8
	punpcklbw	%xmm10, %xmm3
	movzbl	48(%r8), %eax
	movd	%eax, %xmm10
	movzbl	1598(%rsp), %eax
	punpcklbw	%xmm2, %xmm8
	movzbl	48(%rsp,%rax), %eax
	movd	%eax, %xmm11
	punpcklwd	%xmm3, %xmm8
	movzbl	48(%r15), %eax
	movd	%eax, %xmm3
	movzbl	1596(%rsp), %eax
	punpckldq	%xmm1, %xmm8
	movzbl	48(%rsp,%rax), %eax
	movd	%eax, %xmm2
	punpcklqdq	%xmm9, %xmm8
	movq	72(%rsp), %rax
	movzbl	48(%rax), %eax
	movd	%eax, %xmm9
	movzbl	1594(%rsp), %eax
	pand	%xmm6, %xmm8
	movzbl	48(%rsp,%rax), %eax
	movd	%eax, %xmm6
	punpcklbw	%xmm10, %xmm11
	movq	88(%rsp), %rax
	movzbl	48(%rax), %eax
	movd	%eax, %xmm10
	movzbl	1592(%rsp), %eax
	punpcklbw	%xmm3, %xmm2
	movzbl	48(%rsp,%rax), %eax
	movd	%eax, %xmm1
	punpcklwd	%xmm11, %xmm2
	movzbl	48(%rdi), %eax
	movd	%eax, %xmm3
	movzbl	1590(%rsp), %eax
	punpcklbw	%xmm9, %xmm6
	movzbl	48(%rsp,%rax), %eax
	movd	%eax, %xmm9
	punpcklbw	%xmm10, %xmm1
	movq	96(%rsp), %rax
	movzbl	48(%rax), %eax
	movd	%eax, %xmm10
	movzbl	1588(%rsp), %eax
	punpcklwd	%xmm6, %xmm1
	movzbl	48(%rsp,%rax), %eax
	movd	%eax, %xmm11
	punpckldq	%xmm2, %xmm1
	movq	80(%rsp), %rax
	movzbl	48(%rax), %eax
	movd	%eax, %xmm2
	movzbl	1586(%rsp), %eax
	punpcklbw	%xmm3, %xmm9
	movzbl	48(%rsp,%rax), %eax
	movd	%eax, %xmm3
	punpcklbw	%xmm10, %xmm11
	movq	104(%rsp), %rax
	movzbl	48(%rax), %eax
	movd	%eax, %xmm10
	punpcklwd	%xmm9, %xmm11
	movq	304(%rsp), %rax
	movzbl	48(%rsp,%rax), %eax
	movd	%eax, %xmm6
	punpcklbw	%xmm2, %xmm3
	punpcklbw	%xmm10, %xmm6
	punpcklwd	%xmm3, %xmm6
	punpckldq	%xmm11, %xmm6
	punpcklqdq	%xmm1, %xmm6
	pand	%xmm5, %xmm6
	movdqa	%xmm0, %xmm1
	psrldq	$14, %xmm1
	movdqa	480(%rsp), %xmm9
	movdqa	%xmm9, %xmm5
	pslldq	$2, %xmm5
	por	%xmm1, %xmm5
	movdqa	320(%rsp), %xmm13
	movdqa	%xmm13, %xmm2
	psrldq	$14, %xmm2
	movdqa	%xmm0, %xmm1
	pslldq	$2, %xmm1
	por	%xmm2, %xmm1
	movdqa	%xmm13, %xmm3
	pslldq	$2, %xmm3
	movdqa	448(%rsp), %xmm12
	movdqa	%xmm12, %xmm2
	psrldq	$14, %xmm2
	por	%xmm3, %xmm2
	movdqa	%xmm9, %xmm3
	movdqa	%xmm9, %xmm10
	psrldq	$14, %xmm3
	movdqa	496(%rsp), %xmm11
	movdqa	%xmm11, %xmm9
	pslldq	$2, %xmm9
	por	%xmm3, %xmm9
	movdqa	.Lunix_path_CPI44_4(%rip), %xmm3
	psubusb	%xmm3, %xmm9
	psubusb	%xmm3, %xmm2
	psubusb	%xmm3, %xmm1
	psubusb	%xmm3, %xmm5
	movdqa	%xmm0, %xmm3
	psrldq	$13, %xmm3
	movdqa	%xmm10, %xmm14
	pslldq	$3, %xmm14
	por	%xmm3, %xmm14
	movdqa	%xmm13, %xmm3
	psrldq	$13, %xmm3
	pslldq	$3, %xmm0
	por	%xmm3, %xmm0
	pslldq	$3, %xmm13
	psrldq	$13, %xmm12
	por	%xmm13, %xmm12
	psrldq	$13, %xmm10
	movdqa	%xmm11, %xmm3
	pslldq	$3, %xmm3
	por	%xmm10, %xmm3
	movdqa	.Lunix_path_CPI44_5(%rip), %xmm10
	psubusb	%xmm10, %xmm3
	por	%xmm9, %xmm3
	movdqa	%xmm12, %xmm9
	psubusb	%xmm10, %xmm9
	por	%xmm2, %xmm9
	psubusb	%xmm10, %xmm0
	por	%xmm1, %xmm0
	psubusb	%xmm10, %xmm14
	por	%xmm5, %xmm14
	movdqa	.Lunix_path_CPI44_6(%rip), %xmm1
	pand	%xmm1, %xmm3
	pxor	%xmm6, %xmm3
	pand	%xmm1, %xmm9
	pxor	%xmm8, %xmm9
	pand	%xmm1, %xmm0
	pxor	%xmm7, %xmm0
	pand	%xmm1, %xmm14
	pxor	%xmm4, %xmm14
	movdqa	%xmm11, %xmm1
	psubusb	.Lunix_path_CPI44_7(%rip), %xmm1
	por	%xmm3, %xmm1
	movdqa	%xmm0, %xmm2
.Lunix_path_BB44_13:
	por	816(%rsp), %xmm2
	por	512(%rsp), %xmm9
	por	%xmm2, %xmm9
	por	848(%rsp), %xmm14
	por	832(%rsp), %xmm1
	por	%xmm14, %xmm1
	por	%xmm9, %xmm1
	pxor	%xmm0, %xmm0
	pcmpeqb	%xmm1, %xmm0
	pmovmskb	%xmm0, %eax
	cmpl	$65535, %eax
	movq	864(%rsp), %rsi
	je	.Lunix_path_BB44_38
.Lunix_path_BB44_14:
	xorl	%ecx, %ecx
	jmp	.Lunix_path_BB44_16
	.p2align	4
.Lunix_path_BB44_15:
	por	816(%rsp), %xmm2
	por	848(%rsp), %xmm1
	por	%xmm2, %xmm1
	por	832(%rsp), %xmm11
	movdqa	288(%rsp), %xmm2
	por	512(%rsp), %xmm2
	por	%xmm11, %xmm2
	por	%xmm1, %xmm2
	pxor	%xmm0, %xmm0
	pcmpeqb	%xmm2, %xmm0
	pmovmskb	%xmm0, %eax
	cmpl	$65535, %eax
	movq	864(%rsp), %rsi
	movq	2064(%rsp), %rax
	movq	2056(%rsp), %rcx
	jne	.Lunix_path_BB44_35
.Lunix_path_BB44_16:
	movq	%rcx, %rax
	movq	872(%rsp), %rcx
	subq	%rax, %rcx
	movq	%rcx, 2048(%rsp)
	cmpq	$1025, %rcx
	jb	.Lunix_path_BB44_35
	leaq	1024(%rax), %r9
	xorl	%ecx, %ecx
	cmpb	$-64, 1024(%rsi,%rax)
	setl	%cl
	subq	%rcx, %r9
	xorl	%edx, %edx
	cmpb	$-64, (%rsi,%r9)
	setl	%dl
	subq	%rdx, %r9
	xorl	%edi, %edi
	cmpb	$-64, (%rsi,%r9)
	setl	%dil
	subq	%rdi, %r9
	movq	%rax, %r8
	addq	%rsi, %rax
	movq	%r9, 2056(%rsp)
	movq	%r8, 2064(%rsp)
	subq	%r8, %r9
	cmpq	$64, %r9
	jb	.Lunix_path_BB44_22
	negq	%rcx
	negq	%rdx
	negq	%rdi
	addq	%rcx, %rdx
	addq	%rdi, %rdx
	addq	$960, %rdx
	xorl	%ecx, %ecx
	movq	%rax, %rsi
	.p2align	4
.Lunix_path_BB44_19:
	movdqu	(%rsi), %xmm0
	movdqu	16(%rsi), %xmm1
	por	%xmm0, %xmm1
	movdqu	32(%rsi), %xmm0
	movdqu	48(%rsi), %xmm2
	por	%xmm0, %xmm2
	por	%xmm1, %xmm2
	pmovmskb	%xmm2, %edi
	testl	%edi, %edi
	jne	.Lunix_path_BB44_27
	addq	$64, %rcx
	leaq	-64(%rdx), %rdi
	addq	$64, %rsi
	addq	$-64, %r9
	cmpq	$63, %rdx
	movq	%rdi, %rdx
	ja	.Lunix_path_BB44_19
	addq	$64, %rdi
	movq	%rdi, %r9
	jmp	.Lunix_path_BB44_23
	.p2align	4
.Lunix_path_BB44_22:
	xorl	%ecx, %ecx
.Lunix_path_BB44_23:
	addq	%rcx, %rax
	pxor	%xmm0, %xmm0
	movdqa	%xmm0, 848(%rsp)
	xorl	%ecx, %ecx
	movq	%rax, %rsi
	movq	%r9, %rdx
	movdqa	%xmm0, 816(%rsp)
	movdqa	%xmm0, 832(%rsp)
	movdqa	%xmm0, 512(%rsp)
.Lunix_path_BB44_24:
	movdqa	%xmm0, 320(%rsp)
	movdqa	%xmm0, 352(%rsp)
	movdqa	%xmm0, 336(%rsp)
	movdqa	%xmm0, 288(%rsp)
	movdqa	%xmm0, 448(%rsp)
.Lunix_path_BB44_25:
	leaq	1968(%rsp), %rdi
	callq	simdutf8.last_block
	movdqa	1968(%rsp), %xmm5
	movdqa	1984(%rsp), %xmm0
	movdqa	2000(%rsp), %xmm4
	movdqa	2016(%rsp), %xmm3
	movdqa	%xmm0, %xmm1
	por	%xmm5, %xmm1
	movdqa	%xmm4, %xmm2
	por	%xmm3, %xmm2
	por	%xmm1, %xmm2
	pmovmskb	%xmm2, %eax
	testl	%eax, %eax
	movdqa	336(%rsp), %xmm11
	movdqa	320(%rsp), %xmm1
	movdqa	352(%rsp), %xmm2
	je	.Lunix_path_BB44_15
	movdqa	%xmm5, %xmm1
	pslldq	$1, %xmm1
	movdqa	448(%rsp), %xmm8
	psrldq	$15, %xmm8
	por	%xmm1, %xmm8
	movdqa	%xmm5, %xmm1
	psrldq	$15, %xmm1
	movdqa	%xmm0, %xmm7
	pslldq	$1, %xmm7
	por	%xmm1, %xmm7
	movdqa	%xmm0, %xmm1
	psrldq	$15, %xmm1
	movdqa	%xmm4, 480(%rsp)
	movdqa	%xmm4, %xmm6
	pslldq	$1, %xmm6
	por	%xmm1, %xmm6
	movdqa	%xmm4, %xmm1
	psrldq	$15, %xmm1
	movdqa	%xmm5, 320(%rsp)
	movdqa	%xmm3, %xmm5
	movdqa	%xmm3, 496(%rsp)
	pslldq	$1, %xmm5
	por	%xmm1, %xmm5
	movaps	.Lunix_path_CPI44_0(%rip), %xmm1
	movaps	%xmm1, 48(%rsp)
	movaps	%xmm1, 32(%rsp)
	movaps	%xmm1, 16(%rsp)
	movaps	%xmm1, (%rsp)
	movdqa	%xmm5, %xmm9
	psrlw	$4, %xmm9
	movdqa	.Lunix_path_CPI44_1(%rip), %xmm4
	movdqa	%xmm9, %xmm10
	pand	%xmm4, %xmm10
	movdqa	%xmm6, %xmm11
	psrlw	$4, %xmm11
	movdqa	%xmm11, %xmm12
	pand	%xmm4, %xmm12
	movdqa	%xmm8, %xmm2
	psrlw	$4, %xmm2
	movdqa	%xmm2, %xmm1
	pand	%xmm4, %xmm1
	movdqa	%xmm1, 1104(%rsp)
	movdqa	%xmm7, %xmm1
	psrlw	$4, %xmm1
	movzbl	1104(%rsp), %eax
	movq	%rax, 312(%rsp)
	movdqa	%xmm2, 1040(%rsp)
	movdqa	%xmm1, %xmm2
	pand	%xmm4, %xmm2
	movzbl	1041(%rsp), %eax
	movq	%rax, 104(%rsp)
	movzbl	1106(%rsp), %eax
	movq	%rax, 96(%rsp)
	movzbl	1043(%rsp), %eax
	movq	%rax, 248(%rsp)
	movzbl	1108(%rsp), %eax
	movq	%rax, 232(%rsp)
	movzbl	1045(%rsp), %r15d
	movzbl	1110(%rsp), %eax
	movq	%rax, 216(%rsp)
	movzbl	1047(%rsp), %ebx
	movzbl	1112(%rsp), %eax
	movq	%rax, 168(%rsp)
	movzbl	1049(%rsp), %edi
	movzbl	1114(%rsp), %eax
	movq	%rax, 200(%rsp)
	movzbl	1051(%rsp), %edx
	movzbl	1116(%rsp), %eax
	movq	%rax, 160(%rsp)
	movzbl	1053(%rsp), %ecx
	movzbl	1118(%rsp), %eax
	movq	%rax, 280(%rsp)
	movzbl	1055(%rsp), %eax
	movdqa	%xmm2, 976(%rsp)
	movzbl	976(%rsp), %esi
	movq	%rsi, 144(%rsp)
	movdqa	%xmm1, 944(%rsp)
	movzbl	945(%rsp), %esi
	movq	%rsi, 128(%rsp)
	movzbl	978(%rsp), %esi
	movq	%rsi, 192(%rsp)
	movzbl	947(%rsp), %esi
	movq	%rsi, 112(%rsp)
	movzbl	980(%rsp), %esi
	movq	%rsi, 464(%rsp)
	movzbl	949(%rsp), %esi
	movq	%rsi, 400(%rsp)
	movzbl	982(%rsp), %esi
	movq	%rsi, 272(%rsp)
	movzbl	951(%rsp), %esi
	movq	%rsi, 256(%rsp)
	movzbl	984(%rsp), %esi
	movq	%rsi, 80(%rsp)
	movzbl	953(%rsp), %r12d
	movzbl	986(%rsp), %esi
	movq	%rsi, 72(%rsp)
	movzbl	955(%rsp), %r14d
	movzbl	988(%rsp), %esi
	movq	%rsi, 384(%rsp)
	movzbl	957(%rsp), %r10d
	movzbl	990(%rsp), %esi
	movq	%rsi, 208(%rsp)
	movzbl	959(%rsp), %r9d
	movdqa	%xmm12, 1056(%rsp)
	movzbl	1056(%rsp), %esi
	movq	%rsi, 352(%rsp)
	movdqa	%xmm11, 1008(%rsp)
	movzbl	1009(%rsp), %esi
	movq	%rsi, 288(%rsp)
	movzbl	1058(%rsp), %esi
	movq	%rsi, 336(%rsp)
	movzbl	1011(%rsp), %esi
	movq	%rsi, 152(%rsp)
	movzbl	1060(%rsp), %esi
	movq	%rsi, 136(%rsp)
	movzbl	1013(%rsp), %esi
	movq	%rsi, 120(%rsp)
	movzbl	1062(%rsp), %esi
	movq	%rsi, 184(%rsp)
	movzbl	1015(%rsp), %esi
	movq	%rsi, 304(%rsp)
	movzbl	1064(%rsp), %esi
	movq	%rsi, 416(%rsp)
	movzbl	1017(%rsp), %esi
	movq	%rsi, 88(%rsp)
	movzbl	1066(%rsp), %esi
	movq	%rsi, 264(%rsp)
	movzbl	1019(%rsp), %esi
	movq	%rsi, 224(%rsp)
	movzbl	1068(%rsp), %esi
	movq	%rsi, 240(%rsp)
	movzbl	1021(%rsp), %r13d
	movzbl	1070(%rsp), %esi
	movq	%rsi, 176(%rsp)
	movzbl	1023(%rsp), %esi
	movdqa	%xmm10, 1120(%rsp)
	movzbl	1120(%rsp), %r8d
	movdqa	%xmm9, 1088(%rsp)
	movq	%rsp, %r11
	movzbl	1103(%rsp), %ebp
	orq	%r11, %rbp
	movzbl	48(%rbp), %ebp
	movd	%ebp, %xmm10
	movzbl	1134(%rsp), %ebp
	movzbl	48(%rsp,%rbp), %ebp
	movd	%ebp, %xmm2
	movzbl	1101(%rsp), %ebp
	orq	%r11, %rbp
	movzbl	48(%rbp), %ebp
	movd	%ebp, %xmm11
	movzbl	1132(%rsp), %ebp
	movzbl	48(%rsp,%rbp), %ebp
	movd	%ebp, %xmm1
	movzbl	1099(%rsp), %ebp
	orq	%r11, %rbp
	movzbl	48(%rbp), %ebp
	movd	%ebp, %xmm12
	movzbl	1130(%rsp), %ebp
	movzbl	48(%rsp,%rbp), %ebp
	movd	%ebp, %xmm9
	movzbl	1097(%rsp), %ebp
	orq	%r11, %rbp
	punpcklbw	%xmm10, %xmm2
	movzbl	48(%rbp), %ebp
	movd	%ebp, %xmm13
	punpcklbw	%xmm11, %xmm1
	movzbl	1128(%rsp), %ebp
	movzbl	48(%rsp,%rbp), %ebp
	movd	%ebp, %xmm10
	movzbl	1095(%rsp), %ebp
	orq	%r11, %rbp
	punpcklwd	%xmm2, %xmm1
	movzbl	48(%rbp), %ebp
	movd	%ebp, %xmm11
	punpcklbw	%xmm12, %xmm9
	movzbl	1126(%rsp), %ebp
	movzbl	48(%rsp,%rbp), %ebp
	movd	%ebp, %xmm12
	movzbl	1093(%rsp), %ebp
	orq	%r11, %rbp
	punpcklbw	%xmm13, %xmm10
	movzbl	48(%rbp), %ebp
	movd	%ebp, %xmm13
	punpcklwd	%xmm9, %xmm10
	movzbl	1124(%rsp), %ebp
	movzbl	48(%rsp,%rbp), %ebp
	movd	%ebp, %xmm2
	movzbl	1091(%rsp), %ebp
	orq	%r11, %rbp
	punpckldq	%xmm1, %xmm10
	movzbl	48(%rbp), %ebp
	movd	%ebp, %xmm1
	punpcklbw	%xmm11, %xmm12
	movzbl	1122(%rsp), %ebp
	movzbl	48(%rsp,%rbp), %ebp
	movd	%ebp, %xmm11
	movzbl	1089(%rsp), %ebp
	orq	%r11, %rbp
	punpcklbw	%xmm13, %xmm2
	movzbl	48(%rbp), %ebp
	movd	%ebp, %xmm13
	punpcklwd	%xmm12, %xmm2
	movzbl	48(%rsp,%r8), %r8d
	movd	%r8d, %xmm9
	orq	%r11, %rax
	punpcklbw	%xmm1, %xmm11
	movzbl	(%rax), %eax
	movd	%eax, %xmm12
	punpcklbw	%xmm13, %xmm9
	movq	280(%rsp), %rax
	movzbl	(%rsp,%rax), %eax
	movd	%eax, %xmm13
	orq	%r11, %rcx
	punpcklwd	%xmm11, %xmm9
	movzbl	(%rcx), %eax
	movd	%eax, %xmm11
	punpckldq	%xmm2, %xmm9
	movq	160(%rsp), %rax
	movzbl	(%rsp,%rax), %eax
	movd	%eax, %xmm1
	orq	%r11, %rdx
	punpcklqdq	%xmm10, %xmm9
	movzbl	(%rdx), %eax
	movd	%eax, %xmm2
	punpcklbw	%xmm12, %xmm13
	movq	200(%rsp), %rax
	movzbl	(%rsp,%rax), %eax
	movd	%eax, %xmm10
	orq	%r11, %rdi
	punpcklbw	%xmm11, %xmm1
	movzbl	(%rdi), %eax
	movd	%eax, %xmm12
	punpcklwd	%xmm13, %xmm1
	movq	168(%rsp), %rax
	movzbl	(%rsp,%rax), %eax
	movd	%eax, %xmm11
	orq	%r11, %rbx
	punpcklbw	%xmm2, %xmm10
	movzbl	(%rbx), %eax
	movd	%eax, %xmm2
	punpcklbw	%xmm12, %xmm11
	movq	216(%rsp), %rax
	movzbl	(%rsp,%rax), %eax
	movd	%eax, %xmm12
	orq	%r11, %r15
	punpcklwd	%xmm10, %xmm11
	movzbl	(%r15), %eax
	movd	%eax, %xmm10
	punpckldq	%xmm1, %xmm11
	movq	232(%rsp), %rax
	movzbl	(%rsp,%rax), %eax
	movd	%eax, %xmm1
	movq	248(%rsp), %rax
	orq	%r11, %rax
	punpcklbw	%xmm2, %xmm12
	movzbl	(%rax), %eax
	movd	%eax, %xmm2
	punpcklbw	%xmm10, %xmm1
	movq	96(%rsp), %rax
	movzbl	(%rsp,%rax), %eax
	movd	%eax, %xmm13
	movq	104(%rsp), %rax
	orq	%r11, %rax
	punpcklwd	%xmm12, %xmm1
	movzbl	(%rax), %eax
	movd	%eax, %xmm12
	punpcklbw	%xmm2, %xmm13
	movq	312(%rsp), %rax
	movzbl	(%rsp,%rax), %eax
	movd	%eax, %xmm10
	orq	%r11, %r9
	punpcklbw	%xmm12, %xmm10
	movzbl	16(%r9), %eax
	movd	%eax, %xmm12
	punpcklwd	%xmm13, %xmm10
	movq	208(%rsp), %rax
	movzbl	16(%rsp,%rax), %eax
	movd	%eax, %xmm13
	orq	%r11, %r10
	punpckldq	%xmm1, %xmm10
	movzbl	16(%r10), %eax
	movd	%eax, %xmm1
	punpcklqdq	%xmm11, %xmm10
	movq	384(%rsp), %rax
	movzbl	16(%rsp,%rax), %eax
	movd	%eax, %xmm2
	orq	%r11, %r14
	punpcklbw	%xmm12, %xmm13
	movzbl	16(%r14), %eax
	movd	%eax, %xmm11
	punpcklbw	%xmm1, %xmm2
	movq	72(%rsp), %rax
	movzbl	16(%rsp,%rax), %eax
	movd	%eax, %xmm12
	orq	%r11, %r12
	punpcklwd	%xmm13, %xmm2
	movzbl	16(%r12), %eax
	movd	%eax, %xmm13
	punpcklbw	%xmm11, %xmm12
	movq	80(%rsp), %rax
	movzbl	16(%rsp,%rax), %eax
	movd	%eax, %xmm1
	movq	256(%rsp), %rax
	orq	%r11, %rax
	punpcklbw	%xmm13, %xmm1
	movzbl	16(%rax), %eax
	movd	%eax, %xmm11
	punpcklwd	%xmm12, %xmm1
	movq	272(%rsp), %rax
	movzbl	16(%rsp,%rax), %eax
	movd	%eax, %xmm12
	movq	400(%rsp), %rax
	orq	%r11, %rax
	punpckldq	%xmm2, %xmm1
	movzbl	16(%rax), %eax
	movd	%eax, %xmm2
	punpcklbw	%xmm11, %xmm12
	movq	464(%rsp), %rax
	movzbl	16(%rsp,%rax), %eax
	movd	%eax, %xmm13
	movq	112(%rsp), %rax
	orq	%r11, %rax
	punpcklbw	%xmm2, %xmm13
	movzbl	16(%rax), %eax
	movd	%eax, %xmm2
	punpcklwd	%xmm12, %xmm13
	movq	192(%rsp), %rax
	movzbl	16(%rsp,%rax), %eax
	movd	%eax, %xmm12
	movq	128(%rsp), %rax
	orq	%r11, %rax
	punpcklbw	%xmm2, %xmm12
	movzbl	16(%rax), %eax
	movd	%eax, %xmm2
	movq	144(%rsp), %rax
	movzbl	16(%rsp,%rax), %eax
	movd	%eax, %xmm11
	punpcklbw	%xmm2, %xmm11
	orq	%r11, %rsi
	punpcklwd	%xmm12, %xmm11
	movzbl	32(%rsi), %eax
	movd	%eax, %xmm2
	punpckldq	%xmm13, %xmm11
	movq	176(%rsp), %rax
	movzbl	32(%rsp,%rax), %eax
	movd	%eax, %xmm12
	movq	88(%rsp), %rcx
	orq	%r11, %rcx
	movq	224(%rsp), %rdx
	orq	%r11, %rdx
	orq	%r11, %r13
	punpcklqdq	%xmm1, %xmm11
	punpcklbw	%xmm2, %xmm12
	movzbl	32(%r13), %eax
	movd	%eax, %xmm1
	movq	240(%rsp), %rax
	movzbl	32(%rsp,%rax), %eax
	movd	%eax, %xmm2
	punpcklbw	%xmm1, %xmm2
	punpcklwd	%xmm12, %xmm2
	movzbl	32(%rdx), %eax
	movd	%eax, %xmm1
	movq	264(%rsp), %rax
	movzbl	32(%rsp,%rax), %eax
	movd	%eax, %xmm13
	punpcklbw	%xmm1, %xmm13
	movzbl	32(%rcx), %eax
	movd	%eax, %xmm1
	movq	416(%rsp), %rax
	movzbl	32(%rsp,%rax), %eax
	movd	%eax, %xmm12
	punpcklbw	%xmm1, %xmm12
	movq	120(%rsp), %rcx
	orq	%r11, %rcx
	movq	304(%rsp), %rax
	orq	%r11, %rax
	punpcklwd	%xmm13, %xmm12
	punpckldq	%xmm2, %xmm12
	movzbl	32(%rax), %eax
	movd	%eax, %xmm1
	movq	184(%rsp), %rax
	movzbl	32(%rsp,%rax), %eax
	movd	%eax, %xmm2
	punpcklbw	%xmm1, %xmm2
	movzbl	32(%rcx), %eax
	movd	%eax, %xmm1
	movq	136(%rsp), %rax
	movzbl	32(%rsp,%rax), %eax
	movd	%eax, %xmm13
	punpcklbw	%xmm1, %xmm13
	movq	288(%rsp), %rax
	orq	%r11, %rax
	movq	152(%rsp), %rcx
	orq	%r11, %rcx
	punpcklwd	%xmm2, %xmm13
	movzbl	32(%rcx), %edx
	movq	336(%rsp), %rcx
	movzbl	32(%rsp,%rcx), %ecx
	movzbl	32(%rax), %r14d
	movq	352(%rsp), %rax
	movzbl	32(%rsp,%rax), %eax
	movaps	.Lunix_path_CPI44_2(%rip), %xmm1
	movaps	%xmm1, 48(%rsp)
	movaps	%xmm1, 32(%rsp)
	movaps	%xmm1, 16(%rsp)
	movaps	%xmm1, (%rsp)
	movd	%edx, %xmm14
	pand	%xmm4, %xmm8
	movdqa	%xmm8, 560(%rsp)
	movd	%ecx, %xmm8
	pand	%xmm4, %xmm7
	movzbl	560(%rsp), %ecx
	movq	%rcx, 88(%rsp)
	movzbl	561(%rsp), %ecx
	movq	%rcx, 240(%rsp)
	movzbl	562(%rsp), %ecx
	movq	%rcx, 72(%rsp)
	movzbl	563(%rsp), %ecx
	movq	%rcx, 176(%rsp)
	movzbl	564(%rsp), %ecx
	movq	%rcx, 168(%rsp)
	movzbl	565(%rsp), %ecx
	movq	%rcx, 200(%rsp)
	movzbl	566(%rsp), %ebp
	movzbl	567(%rsp), %r12d
	movzbl	568(%rsp), %ebx
	movzbl	569(%rsp), %r9d
	movzbl	570(%rsp), %r10d
	movzbl	571(%rsp), %edi
	movzbl	572(%rsp), %r8d
	movzbl	573(%rsp), %esi
	movzbl	574(%rsp), %edx
	movzbl	575(%rsp), %ecx
	movdqa	%xmm7, 528(%rsp)
	movd	%r14d, %xmm15
	pand	%xmm4, %xmm6
	movzbl	528(%rsp), %r14d
	movq	%r14, 192(%rsp)
	movzbl	529(%rsp), %r14d
	movq	%r14, 120(%rsp)
	movzbl	530(%rsp), %r14d
	movq	%r14, 312(%rsp)
	movzbl	531(%rsp), %r14d
	movq	%r14, 464(%rsp)
	movzbl	532(%rsp), %r14d
	movq	%r14, 104(%rsp)
	movzbl	533(%rsp), %r14d
	movq	%r14, 272(%rsp)
	movzbl	534(%rsp), %r14d
	movq	%r14, 256(%rsp)
	movzbl	535(%rsp), %r14d
	movq	%r14, 248(%rsp)
	movzbl	536(%rsp), %r14d
	movq	%r14, 224(%rsp)
	movzbl	537(%rsp), %r14d
	movq	%r14, 216(%rsp)
	movzbl	538(%rsp), %r14d
	movq	%r14, 384(%rsp)
	movzbl	539(%rsp), %r14d
	movq	%r14, 208(%rsp)
	movzbl	540(%rsp), %r14d
	movq	%r14, 160(%rsp)
	movzbl	541(%rsp), %r13d
	movzbl	542(%rsp), %r15d
	movzbl	543(%rsp), %r14d
	movdqa	%xmm6, 544(%rsp)
	movd	%eax, %xmm7
	pand	%xmm4, %xmm5
	movzbl	544(%rsp), %eax
	movq	%rax, 352(%rsp)
	movzbl	545(%rsp), %eax
	movq	%rax, 336(%rsp)
	movzbl	546(%rsp), %eax
	movq	%rax, 288(%rsp)
	movzbl	547(%rsp), %eax
	movq	%rax, 152(%rsp)
	movzbl	548(%rsp), %eax
	movq	%rax, 144(%rsp)
	movzbl	549(%rsp), %eax
	movq	%rax, 136(%rsp)
	movzbl	550(%rsp), %eax
	movq	%rax, 128(%rsp)
	movzbl	551(%rsp), %eax
	movq	%rax, 184(%rsp)
	movzbl	552(%rsp), %eax
	movq	%rax, 112(%rsp)
	movzbl	553(%rsp), %eax
	movq	%rax, 304(%rsp)
	movzbl	554(%rsp), %eax
	movq	%rax, 416(%rsp)
	movzbl	555(%rsp), %eax
	movq	%rax, 400(%rsp)
	movzbl	556(%rsp), %eax
	movq	%rax, 96(%rsp)
	movzbl	557(%rsp), %eax
	movq	%rax, 264(%rsp)
	movzbl	558(%rsp), %eax
	movq	%rax, 80(%rsp)
	movzbl	559(%rsp), %eax
	movq	%rax, 232(%rsp)
	movdqa	%xmm5, 576(%rsp)
	movzbl	591(%rsp), %eax
	movzbl	48(%rsp,%rax), %eax
	movd	%eax, %xmm5
	punpcklbw	%xmm14, %xmm8
	movzbl	590(%rsp), %eax
	movzbl	48(%rsp,%rax), %eax
	movd	%eax, %xmm2
	punpcklbw	%xmm15, %xmm7
	movzbl	589(%rsp), %eax
	movzbl	48(%rsp,%rax), %eax
	movd	%eax, %xmm6
	punpcklwd	%xmm8, %xmm7
	movzbl	588(%rsp), %eax
	movzbl	48(%rsp,%rax), %eax
	movd	%eax, %xmm1
	punpckldq	%xmm13, %xmm7
	movzbl	587(%rsp), %eax
	movzbl	48(%rsp,%rax), %eax
	movd	%eax, %xmm8
	punpcklqdq	%xmm12, %xmm7
	movzbl	586(%rsp), %eax
	movzbl	48(%rsp,%rax), %eax
	movd	%eax, %xmm12
	punpcklbw	%xmm5, %xmm2
	movzbl	585(%rsp), %eax
	movzbl	48(%rsp,%rax), %eax
	movd	%eax, %xmm5
	punpcklbw	%xmm6, %xmm1
	movzbl	584(%rsp), %eax
	movzbl	48(%rsp,%rax), %eax
	movd	%eax, %xmm6
	punpcklwd	%xmm2, %xmm1
	movzbl	583(%rsp), %eax
	movzbl	48(%rsp,%rax), %eax
	movd	%eax, %xmm13
	punpcklbw	%xmm8, %xmm12
	movzbl	582(%rsp), %eax
	movzbl	48(%rsp,%rax), %eax
	movd	%eax, %xmm8
	punpcklbw	%xmm5, %xmm6
	movzbl	581(%rsp), %eax
	movzbl	48(%rsp,%rax), %eax
	movd	%eax, %xmm5
	punpcklwd	%xmm12, %xmm6
	movzbl	580(%rsp), %eax
	movzbl	48(%rsp,%rax), %eax
	movd	%eax, %xmm2
	punpckldq	%xmm1, %xmm6
	movzbl	579(%rsp), %eax
	movzbl	48(%rsp,%rax), %eax
	movd	%eax, %xmm1
	punpcklbw	%xmm13, %xmm8
	movzbl	578(%rsp), %eax
	movzbl	48(%rsp,%rax), %eax
	movd	%eax, %xmm12
	punpcklbw	%xmm5, %xmm2
	movzbl	577(%rsp), %eax
	movzbl	48(%rsp,%rax), %eax
	movd	%eax, %xmm13
	punpcklwd	%xmm8, %xmm2
	movzbl	576(%rsp), %eax
	movzbl	48(%rsp,%rax), %eax
	movd	%eax, %xmm5
	punpcklbw	%xmm1, %xmm12
	movzbl	(%rsp,%rcx), %eax
	movd	%eax, %xmm1
	punpcklbw	%xmm13, %xmm5
	movzbl	(%rsp,%rdx), %eax
	movd	%eax, %xmm13
	punpcklwd	%xmm12, %xmm5
	movzbl	(%rsp,%rsi), %eax
	movd	%eax, %xmm8
	punpckldq	%xmm2, %xmm5
	movzbl	(%rsp,%r8), %eax
	movd	%eax, %xmm2
	punpcklqdq	%xmm6, %xmm5
	movzbl	(%rsp,%rdi), %eax
	movd	%eax, %xmm6
	pand	%xmm9, %xmm5
	movzbl	(%rsp,%r10), %eax
	movd	%eax, %xmm9
	punpcklbw	%xmm1, %xmm13
	movzbl	(%rsp,%r9), %eax
	movd	%eax, %xmm1
	punpcklbw	%xmm8, %xmm2
	movzbl	(%rsp,%rbx), %eax
	movd	%eax, %xmm8
	punpcklwd	%xmm13, %xmm2
	movzbl	(%rsp,%r12), %eax
	movd	%eax, %xmm12
	punpcklbw	%xmm6, %xmm9
	movzbl	(%rsp,%rbp), %eax
	movd	%eax, %xmm6
	punpcklbw	%xmm1, %xmm8
	movq	200(%rsp), %rax
	movzbl	(%rsp,%rax), %eax
	movd	%eax, %xmm13
	punpcklwd	%xmm9, %xmm8
	movq	168(%rsp), %rax
	movzbl	(%rsp,%rax), %eax
	movd	%eax, %xmm1
	punpckldq	%xmm2, %xmm8
	movq	176(%rsp), %rax
	movzbl	(%rsp,%rax), %eax
	movd	%eax, %xmm2
	punpcklbw	%xmm12, %xmm6
	movq	72(%rsp), %rax
	movzbl	(%rsp,%rax), %eax
	movd	%eax, %xmm9
	punpcklbw	%xmm13, %xmm1
	movq	240(%rsp), %rax
	movzbl	(%rsp,%rax), %eax
	movd	%eax, %xmm12
	punpcklwd	%xmm6, %xmm1
	movq	88(%rsp), %rax
	movzbl	(%rsp,%rax), %eax
	movd	%eax, %xmm6
	punpcklbw	%xmm2, %xmm9
	movzbl	16(%rsp,%r14), %eax
	movd	%eax, %xmm13
	punpcklbw	%xmm12, %xmm6
	movzbl	16(%rsp,%r15), %eax
	movd	%eax, %xmm12
	punpcklwd	%xmm9, %xmm6
	movzbl	16(%rsp,%r13), %eax
	movd	%eax, %xmm9
	punpckldq	%xmm1, %xmm6
	movq	160(%rsp), %rax
	movzbl	16(%rsp,%rax), %eax
	movd	%eax, %xmm2
	punpcklqdq	%xmm8, %xmm6
	movq	208(%rsp), %rax
	movzbl	16(%rsp,%rax), %eax
	movd	%eax, %xmm8
	pand	%xmm10, %xmm6
	movq	384(%rsp), %rax
	movzbl	16(%rsp,%rax), %eax
	movd	%eax, %xmm10
	punpcklbw	%xmm13, %xmm12
	movq	216(%rsp), %rax
	movzbl	16(%rsp,%rax), %eax
	movd	%eax, %xmm13
	punpcklbw	%xmm9, %xmm2
	movq	224(%rsp), %rax
	movzbl	16(%rsp,%rax), %eax
	movd	%eax, %xmm1
	punpcklwd	%xmm12, %xmm2
	movq	248(%rsp), %rax
	movzbl	16(%rsp,%rax), %eax
	movd	%eax, %xmm12
	punpcklbw	%xmm8, %xmm10
	movq	256(%rsp), %rax
	movzbl	16(%rsp,%rax), %eax
	movd	%eax, %xmm8
	punpcklbw	%xmm13, %xmm1
	movq	272(%rsp), %rax
	movzbl	16(%rsp,%rax), %eax
	movd	%eax, %xmm13
	punpcklwd	%xmm10, %xmm1
	movq	104(%rsp), %rax
	movzbl	16(%rsp,%rax), %eax
	movd	%eax, %xmm9
	punpckldq	%xmm2, %xmm1
	movq	464(%rsp), %rax
	movzbl	16(%rsp,%rax), %eax
	movd	%eax, %xmm2
	punpcklbw	%xmm12, %xmm8
	movq	312(%rsp), %rax
	movzbl	16(%rsp,%rax), %eax
	movd	%eax, %xmm10
	punpcklbw	%xmm13, %xmm9
	movq	120(%rsp), %rax
	movzbl	16(%rsp,%rax), %eax
	movd	%eax, %xmm12
	punpcklwd	%xmm8, %xmm9
	movq	192(%rsp), %rax
	movzbl	16(%rsp,%rax), %eax
	movd	%eax, %xmm8
	punpcklbw	%xmm2, %xmm10
	movq	232(%rsp), %rax
	movzbl	32(%rsp,%rax), %eax
	movd	%eax, %xmm2
	punpcklbw	%xmm12, %xmm8
	movq	80(%rsp), %rax
	movzbl	32(%rsp,%rax), %eax
	movd	%eax, %xmm12
	punpcklwd	%xmm10, %xmm8
	punpckldq	%xmm9, %xmm8
	punpcklqdq	%xmm1, %xmm8
	pand	%xmm11, %xmm8
	punpcklbw	%xmm2, %xmm12
	movq	264(%rsp), %rax
	movzbl	32(%rsp,%rax), %eax
	movd	%eax, %xmm1
	movq	96(%rsp), %rax
	movzbl	32(%rsp,%rax), %eax
	movd	%eax, %xmm2
	punpcklbw	%xmm1, %xmm2
	punpcklwd	%xmm12, %xmm2
	movq	400(%rsp), %rax
	movzbl	32(%rsp,%rax), %eax
	movd	%eax, %xmm1
	movq	416(%rsp), %rax
	movzbl	32(%rsp,%rax), %eax
	movd	%eax, %xmm10
	punpcklbw	%xmm1, %xmm10
	movq	304(%rsp), %rax
	movzbl	32(%rsp,%rax), %eax
	movd	%eax, %xmm1
	movq	112(%rsp), %rax
	movzbl	32(%rsp,%rax), %eax
	movd	%eax, %xmm9
	punpcklbw	%xmm1, %xmm9
	punpcklwd	%xmm10, %xmm9
	punpckldq	%xmm2, %xmm9
	movq	184(%rsp), %rax
	movzbl	32(%rsp,%rax), %eax
	movd	%eax, %xmm1
	movq	128(%rsp), %rax
	movzbl	32(%rsp,%rax), %eax
	movd	%eax, %xmm11
	punpcklbw	%xmm1, %xmm11
	movq	136(%rsp), %rax
	movzbl	32(%rsp,%rax), %eax
	movd	%eax, %xmm1
	movq	144(%rsp), %rax
	movzbl	32(%rsp,%rax), %eax
	movd	%eax, %xmm10
	punpcklbw	%xmm1, %xmm10
	movq	152(%rsp), %rax
	movzbl	32(%rsp,%rax), %ecx
	movq	288(%rsp), %rax
	movzbl	32(%rsp,%rax), %eax
	movq	336(%rsp), %rdx
	movzbl	32(%rsp,%rdx), %ebp
	movq	352(%rsp), %rdx
	movzbl	32(%rsp,%rdx), %edx
	movl	%edx, 104(%rsp)
	movaps	.Lunix_path_CPI44_3(%rip), %xmm1
	movaps	%xmm1, 48(%rsp)
	movaps	%xmm1, 32(%rsp)
	movaps	%xmm1, 16(%rsp)
	movaps	%xmm1, (%rsp)
	movdqa	%xmm3, %xmm12
	psrlw	$4, %xmm12
	movdqa	%xmm12, %xmm13
	pand	%xmm4, %xmm13
	movdqa	480(%rsp), %xmm15
	psrlw	$4, %xmm15
	movdqa	%xmm15, %xmm14
	pand	%xmm4, %xmm14
	movdqa	%xmm0, %xmm1
	psrlw	$4, %xmm1
	movdqa	%xmm1, %xmm2
	pand	%xmm4, %xmm2
	movdqa	320(%rsp), %xmm3
	psrlw	$4, %xmm3
	pand	%xmm3, %xmm4
	movdqa	%xmm4, 896(%rsp)
	movzbl	896(%rsp), %edx
	movq	%rdx, 192(%rsp)
	movdqa	%xmm3, 880(%rsp)
	movzbl	881(%rsp), %edx
	movq	%rdx, 336(%rsp)
	movzbl	898(%rsp), %edx
	movq	%rdx, 184(%rsp)
	movzbl	883(%rsp), %edx
	movq	%rdx, 288(%rsp)
	movzbl	900(%rsp), %edx
	movq	%rdx, 120(%rsp)
	movzbl	885(%rsp), %edx
	movq	%rdx, 352(%rsp)
	movzbl	902(%rsp), %edx
	movq	%rdx, 112(%rsp)
	movzbl	887(%rsp), %r15d
	movzbl	904(%rsp), %edx
	movq	%rdx, 312(%rsp)
	movzbl	889(%rsp), %edx
	movq	%rdx, 152(%rsp)
	movzbl	906(%rsp), %edx
	movq	%rdx, 464(%rsp)
	movzbl	891(%rsp), %edx
	movq	%rdx, 144(%rsp)
	movzbl	908(%rsp), %edx
	movq	%rdx, 416(%rsp)
	movzbl	893(%rsp), %r14d
	movzbl	910(%rsp), %edx
	movq	%rdx, 400(%rsp)
	movzbl	895(%rsp), %edx
	movq	%rdx, 136(%rsp)
	movdqa	%xmm2, 928(%rsp)
	movzbl	928(%rsp), %edx
	movq	%rdx, 272(%rsp)
	movdqa	%xmm1, 912(%rsp)
	movzbl	913(%rsp), %ebx
	movzbl	930(%rsp), %edx
	movq	%rdx, 264(%rsp)
	movzbl	915(%rsp), %r8d
	movzbl	932(%rsp), %esi
	movq	%rsi, 256(%rsp)
	movzbl	917(%rsp), %edi
	movzbl	934(%rsp), %esi
	movq	%rsi, 248(%rsp)
	movzbl	919(%rsp), %edx
	movq	%rdx, 128(%rsp)
	movzbl	936(%rsp), %esi
	movq	%rsi, 232(%rsp)
	movzbl	921(%rsp), %r12d
	movzbl	938(%rsp), %esi
	movq	%rsi, 224(%rsp)
	movzbl	923(%rsp), %edx
	movq	%rdx, 96(%rsp)
	movzbl	940(%rsp), %esi
	movq	%rsi, 176(%rsp)
	movzbl	925(%rsp), %edx
	movq	%rdx, 88(%rsp)
	movzbl	942(%rsp), %esi
	movq	%rsi, 384(%rsp)
	movzbl	927(%rsp), %edx
	movq	%rdx, 80(%rsp)
	movdqa	%xmm14, 992(%rsp)
	movd	%ecx, %xmm14
	movzbl	992(%rsp), %ecx
	movq	%rcx, 200(%rsp)
	movdqa	%xmm15, 960(%rsp)
	movd	%eax, %xmm4
	movzbl	961(%rsp), %eax
	movq	%rax, 72(%rsp)
	movzbl	994(%rsp), %eax
	movq	%rax, 280(%rsp)
	movzbl	963(%rsp), %esi
	movzbl	996(%rsp), %ecx
	movq	%rcx, 376(%rsp)
	movzbl	965(%rsp), %edx
	movzbl	998(%rsp), %ecx
	movq	%rcx, 440(%rsp)
	movzbl	967(%rsp), %r9d
	movzbl	1000(%rsp), %eax
	movq	%rax, 808(%rsp)
	movzbl	969(%rsp), %r13d
	movzbl	1002(%rsp), %eax
	movq	%rax, 800(%rsp)
	movzbl	971(%rsp), %r11d
	movzbl	1004(%rsp), %eax
	movq	%rax, 792(%rsp)
	movzbl	973(%rsp), %r10d
	movzbl	1006(%rsp), %eax
	movq	%rax, 784(%rsp)
	movzbl	975(%rsp), %ecx
	movdqa	%xmm13, 1072(%rsp)
	movd	%ebp, %xmm13
	movzbl	1072(%rsp), %ebp
	movq	%rbp, 304(%rsp)
	movdqa	%xmm12, 1024(%rsp)
	movd	104(%rsp), %xmm12
	movq	%rsp, %rax
	orq	%rax, 336(%rsp)
	orq	%rax, 288(%rsp)
	orq	%rax, 352(%rsp)
	orq	%rax, %r15
	movq	%r15, 240(%rsp)
	orq	%rax, 152(%rsp)
	orq	%rax, 144(%rsp)
	orq	%rax, %r14
	movq	%r14, 216(%rsp)
	orq	%rax, 136(%rsp)
	orq	%rax, %rbx
	movq	%rbx, 168(%rsp)
	orq	%rax, %r8
	movq	%r8, 208(%rsp)
	orq	%rax, %rdi
	movq	%rdi, 160(%rsp)
	orq	%rax, 128(%rsp)
	orq	%rax, %r12
	movq	%r12, 368(%rsp)
	movq	96(%rsp), %rbp
	orq	%rax, %rbp
	movq	88(%rsp), %r14
	orq	%rax, %r14
	movq	80(%rsp), %r12
	orq	%rax, %r12
	movq	72(%rsp), %rbx
	orq	%rax, %rbx
	orq	%rax, %rsi
	orq	%rax, %rdx
	orq	%rax, %r9
	orq	%rax, %r13
	orq	%rax, %r11
	orq	%rax, %r10
	orq	%rax, %rcx
	movzbl	1025(%rsp), %r8d
	orq	%rax, %r8
	movq	%r8, 104(%rsp)
	movzbl	1027(%rsp), %edi
	orq	%rax, %rdi
	movq	%rdi, 80(%rsp)
	movzbl	1029(%rsp), %r8d
	orq	%rax, %r8
	movq	%r8, 96(%rsp)
	movzbl	1031(%rsp), %edi
	orq	%rax, %rdi
	movzbl	1033(%rsp), %r8d
	orq	%rax, %r8
	movq	%r8, 88(%rsp)
	movzbl	1035(%rsp), %r8d
	orq	%rax, %r8
	movq	%r8, 72(%rsp)
	movzbl	1037(%rsp), %r15d
	orq	%rax, %r15
	movzbl	1039(%rsp), %r8d
	orq	%rax, %r8
	punpcklwd	%xmm11, %xmm10
	movzbl	32(%rcx), %eax
	movd	%eax, %xmm3
	punpcklbw	%xmm14, %xmm4
	movq	784(%rsp), %rax
	movzbl	32(%rsp,%rax), %eax
	movd	%eax, %xmm2
	punpcklbw	%xmm13, %xmm12
	movzbl	32(%r10), %eax
	movd	%eax, %xmm11
	punpcklwd	%xmm4, %xmm12
	movq	792(%rsp), %rax
	movzbl	32(%rsp,%rax), %eax
	movd	%eax, %xmm1
	punpckldq	%xmm10, %xmm12
	movzbl	32(%r11), %eax
	movd	%eax, %xmm4
	punpcklqdq	%xmm9, %xmm12
	movq	800(%rsp), %rax
	movzbl	32(%rsp,%rax), %eax
	movd	%eax, %xmm9
	pand	%xmm7, %xmm12
	movzbl	32(%r13), %eax
	movd	%eax, %xmm10
	punpcklbw	%xmm3, %xmm2
	movq	808(%rsp), %rax
	movzbl	32(%rsp,%rax), %eax
	movd	%eax, %xmm7
	punpcklbw	%xmm11, %xmm1
	movzbl	32(%r9), %eax
	movd	%eax, %xmm3
	punpcklwd	%xmm2, %xmm1
	movq	440(%rsp), %rax
	movzbl	32(%rsp,%rax), %eax
	movd	%eax, %xmm11
	punpcklbw	%xmm4, %xmm9
	movzbl	32(%rdx), %eax
	movd	%eax, %xmm4
	punpcklbw	%xmm10, %xmm7
	movq	376(%rsp), %rax
	movzbl	32(%rsp,%rax), %eax
	movd	%eax, %xmm2
	punpcklwd	%xmm9, %xmm7
	movzbl	32(%rsi), %eax
	movd	%eax, %xmm9
	punpckldq	%xmm1, %xmm7
	movq	280(%rsp), %rax
	movzbl	32(%rsp,%rax), %eax
	movd	%eax, %xmm1
	punpcklbw	%xmm3, %xmm11
	movzbl	32(%rbx), %eax
	movd	%eax, %xmm3
	punpcklbw	%xmm4, %xmm2
	movq	200(%rsp), %rax
	movzbl	32(%rsp,%rax), %eax
	movd	%eax, %xmm4
	punpcklwd	%xmm11, %xmm2
	movzbl	16(%r12), %eax
	movd	%eax, %xmm11
	punpcklbw	%xmm9, %xmm1
	movq	384(%rsp), %rax
	movzbl	16(%rsp,%rax), %eax
	movd	%eax, %xmm10
	punpcklbw	%xmm3, %xmm4
	movzbl	16(%r14), %eax
	movd	%eax, %xmm3
	punpcklwd	%xmm1, %xmm4
	movq	176(%rsp), %rax
	movzbl	16(%rsp,%rax), %eax
	movd	%eax, %xmm1
	punpckldq	%xmm2, %xmm4
	movzbl	16(%rbp), %eax
	movd	%eax, %xmm2
	punpcklqdq	%xmm7, %xmm4
	movq	224(%rsp), %rax
	movzbl	16(%rsp,%rax), %eax
	movd	%eax, %xmm7
	pand	%xmm12, %xmm4
	movq	368(%rsp), %rax
	movzbl	16(%rax), %eax
	movd	%eax, %xmm12
	punpcklbw	%xmm11, %xmm10
	movq	232(%rsp), %rax
	movzbl	16(%rsp,%rax), %eax
	movd	%eax, %xmm9
	punpcklbw	%xmm3, %xmm1
	movq	128(%rsp), %rax
	movzbl	16(%rax), %eax
	movd	%eax, %xmm3
	punpcklwd	%xmm10, %xmm1
	movq	248(%rsp), %rax
	movzbl	16(%rsp,%rax), %eax
	movd	%eax, %xmm10
	punpcklbw	%xmm2, %xmm7
	movq	160(%rsp), %rax
	movzbl	16(%rax), %eax
	movd	%eax, %xmm11
	punpcklbw	%xmm12, %xmm9
	movq	256(%rsp), %rax
	movzbl	16(%rsp,%rax), %eax
	movd	%eax, %xmm2
	punpcklwd	%xmm7, %xmm9
	movq	208(%rsp), %rax
	movzbl	16(%rax), %eax
	movd	%eax, %xmm12
	punpckldq	%xmm1, %xmm9
	movq	264(%rsp), %rax
	movzbl	16(%rsp,%rax), %eax
	movd	%eax, %xmm13
	punpcklbw	%xmm3, %xmm10
	movq	168(%rsp), %rax
	movzbl	16(%rax), %eax
	movd	%eax, %xmm3
	punpcklbw	%xmm11, %xmm2
	movq	272(%rsp), %rax
	movzbl	16(%rsp,%rax), %eax
	movd	%eax, %xmm7
	punpcklwd	%xmm10, %xmm2
	movq	136(%rsp), %rax
	movzbl	(%rax), %eax
	movd	%eax, %xmm11
	punpcklbw	%xmm12, %xmm13
	movq	400(%rsp), %rax
	movzbl	(%rsp,%rax), %eax
	movd	%eax, %xmm1
	punpcklbw	%xmm3, %xmm7
	movq	216(%rsp), %rax
	movzbl	(%rax), %eax
	movd	%eax, %xmm3
	punpcklwd	%xmm13, %xmm7
	movq	416(%rsp), %rax
	movzbl	(%rsp,%rax), %eax
	movd	%eax, %xmm10
	punpckldq	%xmm2, %xmm7
	movq	144(%rsp), %rax
	movzbl	(%rax), %eax
	movd	%eax, %xmm2
	punpcklqdq	%xmm9, %xmm7
	movq	464(%rsp), %rax
	movzbl	(%rsp,%rax), %eax
	movd	%eax, %xmm12
	pand	%xmm8, %xmm7
	movq	152(%rsp), %rax
	movzbl	(%rax), %eax
	movd	%eax, %xmm8
	punpcklbw	%xmm11, %xmm1
	movq	312(%rsp), %rax
	movzbl	(%rsp,%rax), %eax
	movd	%eax, %xmm9
	punpcklbw	%xmm3, %xmm10
	movq	240(%rsp), %rax
	movzbl	(%rax), %eax
	movd	%eax, %xmm3
	punpcklwd	%xmm1, %xmm10
	movq	112(%rsp), %rax
	movzbl	(%rsp,%rax), %eax
	movd	%eax, %xmm11
	punpcklbw	%xmm2, %xmm12
	punpcklbw	%xmm8, %xmm9
	movq	352(%rsp), %rax
	movzbl	(%rax), %eax
	movd	%eax, %xmm2
	punpcklwd	%xmm12, %xmm9
	movq	120(%rsp), %rax
	movzbl	(%rsp,%rax), %eax
	movd	%eax, %xmm1
	punpckldq	%xmm10, %xmm9
	movq	288(%rsp), %rax
	movzbl	(%rax), %eax
	movd	%eax, %xmm10
	punpcklbw	%xmm3, %xmm11
	movq	184(%rsp), %rax
	movzbl	(%rsp,%rax), %eax
	movd	%eax, %xmm3
	punpcklbw	%xmm2, %xmm1
	movq	336(%rsp), %rax
	movzbl	(%rax), %eax
	movd	%eax, %xmm2
	punpcklwd	%xmm11, %xmm1
	movq	192(%rsp), %rax
	movzbl	(%rsp,%rax), %eax
	movd	%eax, %xmm8
	punpcklbw	%xmm10, %xmm3
	movzbl	48(%r8), %eax
	movd	%eax, %xmm10
	movzbl	1086(%rsp), %eax
	punpcklbw	%xmm2, %xmm8
	movzbl	48(%rsp,%rax), %eax
	movd	%eax, %xmm11
	punpcklwd	%xmm3, %xmm8
	movzbl	48(%r15), %eax
	movd	%eax, %xmm3
	movzbl	1084(%rsp), %eax
	punpckldq	%xmm1, %xmm8
	movzbl	48(%rsp,%rax), %eax
	movd	%eax, %xmm2
	punpcklqdq	%xmm9, %xmm8
	movq	72(%rsp), %rax
	movzbl	48(%rax), %eax
	movd	%eax, %xmm9
	movzbl	1082(%rsp), %eax
	pand	%xmm6, %xmm8
	movzbl	48(%rsp,%rax), %eax
	movd	%eax, %xmm6
	punpcklbw	%xmm10, %xmm11
	movq	88(%rsp), %rax
	movzbl	48(%rax), %eax
	movd	%eax, %xmm10
	movzbl	1080(%rsp), %eax
	punpcklbw	%xmm3, %xmm2
	movzbl	48(%rsp,%rax), %eax
	movd	%eax, %xmm1
	punpcklwd	%xmm11, %xmm2
	movzbl	48(%rdi), %eax
	movd	%eax, %xmm3
	movzbl	1078(%rsp), %eax
	punpcklbw	%xmm9, %xmm6
	movzbl	48(%rsp,%rax), %eax
	movd	%eax, %xmm9
	punpcklbw	%xmm10, %xmm1
	movq	96(%rsp), %rax
	movzbl	48(%rax), %eax
	movd	%eax, %xmm10
	movzbl	1076(%rsp), %eax
	punpcklwd	%xmm6, %xmm1
	movzbl	48(%rsp,%rax), %eax
	movd	%eax, %xmm11
	punpckldq	%xmm2, %xmm1
	movq	80(%rsp), %rax
	movzbl	48(%rax), %eax
	movd	%eax, %xmm2
	movzbl	1074(%rsp), %eax
	punpcklbw	%xmm3, %xmm9
	movzbl	48(%rsp,%rax), %eax
	movd	%eax, %xmm3
	punpcklbw	%xmm10, %xmm11
	movq	104(%rsp), %rax
	movzbl	48(%rax), %eax
	movd	%eax, %xmm10
	punpcklwd	%xmm9, %xmm11
	movq	304(%rsp), %rax
	movzbl	48(%rsp,%rax), %eax
	movd	%eax, %xmm6
	punpcklbw	%xmm2, %xmm3
	punpcklbw	%xmm10, %xmm6
	punpcklwd	%xmm3, %xmm6
	punpckldq	%xmm11, %xmm6
	punpcklqdq	%xmm1, %xmm6
	pand	%xmm5, %xmm6
	movdqa	%xmm0, %xmm1
	psrldq	$14, %xmm1
	movdqa	480(%rsp), %xmm10
	movdqa	%xmm10, %xmm5
	pslldq	$2, %xmm5
	por	%xmm1, %xmm5
	movdqa	320(%rsp), %xmm14
	movdqa	%xmm14, %xmm2
	psrldq	$14, %xmm2
	movdqa	%xmm0, %xmm1
	pslldq	$2, %xmm1
	por	%xmm2, %xmm1
	movdqa	%xmm14, %xmm3
	pslldq	$2, %xmm3
	movdqa	448(%rsp), %xmm13
	movdqa	%xmm13, %xmm2
	psrldq	$14, %xmm2
	por	%xmm3, %xmm2
	movdqa	%xmm10, %xmm3
	psrldq	$14, %xmm3
	movdqa	496(%rsp), %xmm12
	movdqa	%xmm12, %xmm9
	pslldq	$2, %xmm9
	por	%xmm3, %xmm9
	movdqa	.Lunix_path_CPI44_4(%rip), %xmm3
	psubusb	%xmm3, %xmm9
	psubusb	%xmm3, %xmm2
	psubusb	%xmm3, %xmm1
	psubusb	%xmm3, %xmm5
	movdqa	%xmm0, %xmm3
	psrldq	$13, %xmm3
	movdqa	%xmm10, %xmm11
	pslldq	$3, %xmm11
	por	%xmm3, %xmm11
	movdqa	%xmm14, %xmm3
	psrldq	$13, %xmm3
	pslldq	$3, %xmm0
	por	%xmm3, %xmm0
	pslldq	$3, %xmm14
	psrldq	$13, %xmm13
	por	%xmm14, %xmm13
	psrldq	$13, %xmm10
	movdqa	%xmm12, %xmm3
	pslldq	$3, %xmm3
	por	%xmm10, %xmm3
	movdqa	.Lunix_path_CPI44_5(%rip), %xmm10
	psubusb	%xmm10, %xmm3
	por	%xmm9, %xmm3
	movdqa	%xmm13, %xmm9
	psubusb	%xmm10, %xmm9
	por	%xmm2, %xmm9
	movdqa	%xmm9, %xmm2
	psubusb	%xmm10, %xmm0
	por	%xmm1, %xmm0
	psubusb	%xmm10, %xmm11
	por	%xmm5, %xmm11
	movdqa	.Lunix_path_CPI44_6(%rip), %xmm1
	pand	%xmm1, %xmm3
	pxor	%xmm6, %xmm3
	pand	%xmm1, %xmm2
	pxor	%xmm8, %xmm2
	pand	%xmm1, %xmm0
	pxor	%xmm7, %xmm0
	pand	%xmm1, %xmm11
	pxor	%xmm4, %xmm11
	movdqa	%xmm12, %xmm1
	psubusb	.Lunix_path_CPI44_7(%rip), %xmm1
	por	%xmm3, %xmm1
	movdqa	%xmm1, %xmm3
	movdqa	%xmm2, %xmm1
	movdqa	%xmm0, %xmm2
	movdqa	%xmm3, 288(%rsp)
	jmp	.Lunix_path_BB44_15
	.p2align	4
.Lunix_path_BB44_27:
	pxor	%xmm0, %xmm0
	movdqa	%xmm0, 2016(%rsp)
	movdqa	%xmm0, 2000(%rsp)
	movdqa	%xmm0, 1984(%rsp)
	movdqa	%xmm0, 1968(%rsp)
	addq	$64, %rdx
	cmpq	$64, %rdx
	jb	.Lunix_path_BB44_33
	pxor	%xmm15, %xmm15
	xorl	%ecx, %ecx
	pxor	%xmm6, %xmm6
	pxor	%xmm3, %xmm3
	pxor	%xmm2, %xmm2
	pxor	%xmm7, %xmm7
	pxor	%xmm9, %xmm9
	pxor	%xmm8, %xmm8
	pxor	%xmm5, %xmm5
	movq	%rdx, 1920(%rsp)
	movq	%rsi, 1912(%rsp)
	jmp	.Lunix_path_BB44_31
	.p2align	4
.Lunix_path_BB44_29:
	movdqa	%xmm10, %xmm0
	pslldq	$1, %xmm0
	movdqa	%xmm5, 512(%rsp)
	movdqa	%xmm15, %xmm5
	psrldq	$15, %xmm5
	por	%xmm0, %xmm5
	movdqa	%xmm10, %xmm0
	psrldq	$15, %xmm0
	movdqa	%xmm13, 352(%rsp)
	movdqa	%xmm15, 464(%rsp)
	movdqa	352(%rsp), %xmm15
	pslldq	$1, %xmm15
	por	%xmm0, %xmm15
	movdqa	352(%rsp), %xmm0
	psrldq	$15, %xmm0
	movdqa	%xmm12, %xmm1
	pslldq	$1, %xmm1
	por	%xmm0, %xmm1
	movdqa	%xmm1, 480(%rsp)
	movdqa	%xmm12, %xmm0
	psrldq	$15, %xmm0
	movdqa	%xmm11, %xmm6
	pslldq	$1, %xmm6
	por	%xmm0, %xmm6
	movdqa	%xmm6, 288(%rsp)
	movaps	.Lunix_path_CPI44_0(%rip), %xmm0
	movaps	%xmm0, 48(%rsp)
	movaps	%xmm0, 32(%rsp)
	movaps	%xmm0, 16(%rsp)
	movaps	%xmm0, (%rsp)
	psrlw	$4, %xmm6
	movdqa	.Lunix_path_CPI44_1(%rip), %xmm3
	movdqa	%xmm7, 848(%rsp)
	movdqa	%xmm6, %xmm7
	pand	%xmm3, %xmm7
	movdqa	%xmm1, %xmm0
	psrlw	$4, %xmm0
	movdqa	%xmm8, 832(%rsp)
	movdqa	%xmm0, %xmm8
	pand	%xmm3, %xmm8
	movdqa	%xmm9, 816(%rsp)
	movdqa	%xmm15, %xmm9
	psrlw	$4, %xmm9
	movdqa	%xmm10, 320(%rsp)
	movdqa	%xmm9, %xmm10
	pand	%xmm3, %xmm10
	movdqa	%xmm5, %xmm1
	psrlw	$4, %xmm1
	movdqa	%xmm1, %xmm2
	pand	%xmm3, %xmm2
	movdqa	%xmm2, 1360(%rsp)
	movzbl	1360(%rsp), %eax
	movq	%rax, 400(%rsp)
	movdqa	%xmm1, 1296(%rsp)
	movzbl	1297(%rsp), %eax
	movq	%rax, 248(%rsp)
	movq	%rsp, %r10
	movzbl	1362(%rsp), %eax
	movq	%rax, 240(%rsp)
	movzbl	1299(%rsp), %eax
	movq	%rax, 176(%rsp)
	movzbl	1364(%rsp), %eax
	movq	%rax, 384(%rsp)
	movq	%r9, 312(%rsp)
	movzbl	1301(%rsp), %r9d
	movzbl	1366(%rsp), %eax
	movq	%rax, 200(%rsp)
	movzbl	1303(%rsp), %edi
	movzbl	1368(%rsp), %eax
	movq	%rax, 336(%rsp)
	movzbl	1305(%rsp), %r15d
	movzbl	1370(%rsp), %eax
	movq	%rax, 448(%rsp)
	movzbl	1307(%rsp), %ebx
	movzbl	1372(%rsp), %eax
	movq	%rax, 368(%rsp)
	movq	%rcx, 304(%rsp)
	movzbl	1311(%rsp), %ecx
	orq	%r10, %rcx
	movzbl	1309(%rsp), %r8d
	movzbl	1374(%rsp), %eax
	movq	%rax, 440(%rsp)
	movdqa	%xmm10, 1232(%rsp)
	movzbl	1232(%rsp), %eax
	movq	%rax, 496(%rsp)
	movdqa	%xmm9, 1200(%rsp)
	movzbl	1201(%rsp), %eax
	movq	%rax, 184(%rsp)
	movzbl	1234(%rsp), %eax
	movq	%rax, 120(%rsp)
	movzbl	1203(%rsp), %eax
	movq	%rax, 416(%rsp)
	movzbl	1236(%rsp), %eax
	movq	%rax, 104(%rsp)
	movzbl	1205(%rsp), %eax
	movq	%rax, 256(%rsp)
	movzbl	1238(%rsp), %eax
	movq	%rax, 80(%rsp)
	movzbl	1207(%rsp), %eax
	movq	%rax, 216(%rsp)
	movzbl	1240(%rsp), %eax
	movq	%rax, 168(%rsp)
	movzbl	1209(%rsp), %r11d
	movzbl	1242(%rsp), %eax
	movq	%rax, 160(%rsp)
	movzbl	1211(%rsp), %ebp
	movzbl	1244(%rsp), %eax
	movq	%rax, 280(%rsp)
	movzbl	1213(%rsp), %r14d
	movzbl	1246(%rsp), %eax
	movq	%rax, 376(%rsp)
	movzbl	1215(%rsp), %r12d
	movdqa	%xmm8, 1312(%rsp)
	movzbl	1312(%rsp), %eax
	movq	%rax, 144(%rsp)
	movdqa	%xmm0, 1264(%rsp)
	movzbl	1265(%rsp), %r13d
	movzbl	1314(%rsp), %eax
	movq	%rax, 136(%rsp)
	movzbl	1267(%rsp), %eax
	movq	%rax, 272(%rsp)
	movzbl	1316(%rsp), %eax
	movq	%rax, 128(%rsp)
	movzbl	1269(%rsp), %eax
	movq	%rax, 264(%rsp)
	movzbl	1318(%rsp), %eax
	movq	%rax, 192(%rsp)
	movzbl	1271(%rsp), %eax
	movq	%rax, 88(%rsp)
	movzbl	1320(%rsp), %eax
	movq	%rax, 112(%rsp)
	movzbl	1273(%rsp), %eax
	movq	%rax, 232(%rsp)
	movzbl	1322(%rsp), %eax
	movq	%rax, 96(%rsp)
	movzbl	1275(%rsp), %eax
	movq	%rax, 224(%rsp)
	movzbl	1324(%rsp), %eax
	movq	%rax, 72(%rsp)
	movzbl	1277(%rsp), %esi
	movzbl	1326(%rsp), %eax
	movq	%rax, 208(%rsp)
	movzbl	1279(%rsp), %eax
	movdqa	%xmm7, 1376(%rsp)
	movzbl	1376(%rsp), %edx
	movq	%rdx, 152(%rsp)
	movdqa	%xmm6, 1344(%rsp)
	movzbl	(%rcx), %ecx
	movd	%ecx, %xmm0
	movq	440(%rsp), %rcx
	movzbl	(%rsp,%rcx), %ecx
	movd	%ecx, %xmm7
	orq	%r10, %r8
	movzbl	(%r8), %ecx
	movd	%ecx, %xmm10
	movq	368(%rsp), %rcx
	movzbl	(%rsp,%rcx), %ecx
	movd	%ecx, %xmm8
	orq	%r10, %rbx
	movzbl	(%rbx), %ecx
	movd	%ecx, %xmm3
	movq	448(%rsp), %rcx
	movzbl	(%rsp,%rcx), %ecx
	movdqa	%xmm11, 448(%rsp)
	movd	%ecx, %xmm11
	orq	%r10, %r15
	movzbl	(%r15), %ecx
	movd	%ecx, %xmm2
	movq	336(%rsp), %rcx
	movzbl	(%rsp,%rcx), %ecx
	movd	%ecx, %xmm6
	orq	%r10, %rdi
	movzbl	(%rdi), %ecx
	movdqa	%xmm12, 336(%rsp)
	movd	%ecx, %xmm12
	movq	200(%rsp), %rcx
	movzbl	(%rsp,%rcx), %ecx
	movd	%ecx, %xmm9
	orq	%r10, %r9
	punpcklbw	%xmm0, %xmm7
	movzbl	(%r9), %ecx
	movd	%ecx, %xmm1
	punpcklbw	%xmm10, %xmm8
	movq	384(%rsp), %rcx
	movzbl	(%rsp,%rcx), %ecx
	movd	%ecx, %xmm0
	movq	176(%rsp), %rcx
	orq	%r10, %rcx
	punpcklwd	%xmm7, %xmm8
	movzbl	(%rcx), %ecx
	movd	%ecx, %xmm13
	punpcklbw	%xmm3, %xmm11
	movq	240(%rsp), %rcx
	movzbl	(%rsp,%rcx), %ecx
	movd	%ecx, %xmm10
	movq	248(%rsp), %rcx
	orq	%r10, %rcx
	punpcklbw	%xmm2, %xmm6
	movzbl	(%rcx), %ecx
	movd	%ecx, %xmm3
	punpcklwd	%xmm11, %xmm6
	movq	400(%rsp), %rcx
	movzbl	(%rsp,%rcx), %ecx
	movd	%ecx, %xmm7
	orq	%r10, %r12
	punpckldq	%xmm8, %xmm6
	movzbl	16(%r12), %ecx
	movd	%ecx, %xmm11
	punpcklbw	%xmm12, %xmm9
	movq	376(%rsp), %rcx
	movzbl	16(%rsp,%rcx), %ecx
	movd	%ecx, %xmm8
	orq	%r10, %r14
	punpcklbw	%xmm1, %xmm0
	movzbl	16(%r14), %ecx
	movd	%ecx, %xmm2
	punpcklwd	%xmm9, %xmm0
	movq	280(%rsp), %rcx
	movzbl	16(%rsp,%rcx), %ecx
	movd	%ecx, %xmm9
	orq	%r10, %rbp
	punpcklbw	%xmm13, %xmm10
	movzbl	16(%rbp), %ecx
	movd	%ecx, %xmm14
	punpcklbw	%xmm3, %xmm7
	movq	160(%rsp), %rcx
	movzbl	16(%rsp,%rcx), %ecx
	movd	%ecx, %xmm13
	orq	%r10, %r11
	punpcklwd	%xmm10, %xmm7
	movzbl	16(%r11), %ecx
	movd	%ecx, %xmm10
	punpckldq	%xmm0, %xmm7
	movq	168(%rsp), %rcx
	movzbl	16(%rsp,%rcx), %ecx
	movd	%ecx, %xmm0
	movq	216(%rsp), %rcx
	orq	%r10, %rcx
	punpcklqdq	%xmm6, %xmm7
	movzbl	16(%rcx), %ecx
	movd	%ecx, %xmm1
	punpcklbw	%xmm11, %xmm8
	movq	80(%rsp), %rcx
	movzbl	16(%rsp,%rcx), %ecx
	movd	%ecx, %xmm12
	movq	256(%rsp), %rcx
	orq	%r10, %rcx
	punpcklbw	%xmm2, %xmm9
	movzbl	16(%rcx), %ecx
	movd	%ecx, %xmm3
	punpcklwd	%xmm8, %xmm9
	movq	104(%rsp), %rcx
	movzbl	16(%rsp,%rcx), %ecx
	movd	%ecx, %xmm8
	movq	416(%rsp), %rcx
	orq	%r10, %rcx
	punpcklbw	%xmm14, %xmm13
	movzbl	16(%rcx), %ecx
	movd	%ecx, %xmm4
	punpcklbw	%xmm10, %xmm0
	movq	120(%rsp), %rcx
	movzbl	16(%rsp,%rcx), %ecx
	movd	%ecx, %xmm11
	movq	184(%rsp), %rcx
	orq	%r10, %rcx
	punpcklwd	%xmm13, %xmm0
	movzbl	16(%rcx), %ecx
	movd	%ecx, %xmm2
	punpckldq	%xmm9, %xmm0
	movq	496(%rsp), %rcx
	movzbl	16(%rsp,%rcx), %ecx
	movd	%ecx, %xmm6
	orq	%r10, %rax
	punpcklbw	%xmm1, %xmm12
	movzbl	32(%rax), %eax
	movd	%eax, %xmm14
	punpcklbw	%xmm3, %xmm8
	movq	208(%rsp), %rax
	movzbl	32(%rsp,%rax), %eax
	movd	%eax, %xmm10
	orq	%r10, %rsi
	punpcklwd	%xmm12, %xmm8
	movzbl	32(%rsi), %eax
	movd	%eax, %xmm13
	orq	%r10, %r13
	movq	272(%rsp), %rdi
	orq	%r10, %rdi
	movq	264(%rsp), %rbx
	orq	%r10, %rbx
	movq	88(%rsp), %r11
	orq	%r10, %r11
	movq	232(%rsp), %rsi
	orq	%r10, %rsi
	movq	224(%rsp), %rcx
	orq	%r10, %rcx
	punpcklbw	%xmm4, %xmm11
	movq	72(%rsp), %rax
	movzbl	32(%rsp,%rax), %eax
	movd	%eax, %xmm9
	movzbl	1345(%rsp), %eax
	orq	%r10, %rax
	punpcklbw	%xmm2, %xmm6
	movzbl	32(%rcx), %ecx
	movd	%ecx, %xmm1
	movzbl	1378(%rsp), %ecx
	punpcklwd	%xmm11, %xmm6
	movq	96(%rsp), %rdx
	movzbl	32(%rsp,%rdx), %edx
	movd	%edx, %xmm12
	movzbl	1347(%rsp), %r8d
	orq	%r10, %r8
	punpckldq	%xmm8, %xmm6
	movzbl	32(%rsi), %edx
	movd	%edx, %xmm2
	movzbl	1380(%rsp), %edx
	punpcklqdq	%xmm0, %xmm6
	movq	112(%rsp), %rsi
	movzbl	32(%rsp,%rsi), %esi
	movd	%esi, %xmm0
	movzbl	1349(%rsp), %r9d
	orq	%r10, %r9
	punpcklbw	%xmm14, %xmm10
	movzbl	32(%r11), %esi
	movd	%esi, %xmm3
	movzbl	1382(%rsp), %r12d
	punpcklbw	%xmm13, %xmm9
	movq	192(%rsp), %rsi
	movzbl	32(%rsp,%rsi), %esi
	movd	%esi, %xmm11
	movzbl	1351(%rsp), %r11d
	orq	%r10, %r11
	punpcklwd	%xmm10, %xmm9
	movzbl	32(%rbx), %esi
	movd	%esi, %xmm4
	movzbl	1384(%rsp), %esi
	punpcklbw	%xmm1, %xmm12
	movq	128(%rsp), %rbx
	movzbl	32(%rsp,%rbx), %ebx
	movd	%ebx, %xmm10
	movzbl	1353(%rsp), %ebx
	orq	%r10, %rbx
	punpcklbw	%xmm2, %xmm0
	movzbl	32(%rdi), %ebp
	movd	%ebp, %xmm1
	movzbl	1386(%rsp), %r14d
	punpcklwd	%xmm12, %xmm0
	movq	136(%rsp), %rdi
	movzbl	32(%rsp,%rdi), %ebp
	movd	%ebp, %xmm2
	movzbl	1355(%rsp), %r15d
	orq	%r10, %r15
	punpckldq	%xmm9, %xmm0
	movzbl	32(%r13), %ebp
	movd	%ebp, %xmm9
	movzbl	1388(%rsp), %r13d
	punpcklbw	%xmm3, %xmm11
	movq	144(%rsp), %rdi
	movzbl	32(%rsp,%rdi), %ebp
	movd	%ebp, %xmm8
	movzbl	1359(%rsp), %ebp
	orq	%r10, %rbp
	punpcklbw	%xmm4, %xmm10
	movzbl	48(%rbp), %ebp
	movd	%ebp, %xmm3
	movzbl	1390(%rsp), %ebp
	punpcklwd	%xmm11, %xmm10
	movzbl	48(%rsp,%rbp), %ebp
	movd	%ebp, %xmm4
	movzbl	1357(%rsp), %ebp
	orq	%r10, %rbp
	punpcklbw	%xmm1, %xmm2
	punpcklbw	%xmm9, %xmm8
	punpcklwd	%xmm2, %xmm8
	punpckldq	%xmm10, %xmm8
	punpcklqdq	%xmm0, %xmm8
	punpcklbw	%xmm3, %xmm4
	movzbl	48(%rbp), %ebp
	movd	%ebp, %xmm0
	movzbl	48(%rsp,%r13), %ebp
	movd	%ebp, %xmm10
	punpcklbw	%xmm0, %xmm10
	punpcklwd	%xmm4, %xmm10
	movzbl	48(%r15), %ebp
	movd	%ebp, %xmm0
	movzbl	48(%rsp,%r14), %ebp
	movd	%ebp, %xmm1
	punpcklbw	%xmm0, %xmm1
	movzbl	48(%rbx), %ebx
	movd	%ebx, %xmm0
	movzbl	48(%rsp,%rsi), %esi
	movd	%esi, %xmm9
	punpcklbw	%xmm0, %xmm9
	punpcklwd	%xmm1, %xmm9
	movzbl	48(%r11), %esi
	movd	%esi, %xmm0
	movdqa	%xmm0, 384(%rsp)
	movzbl	48(%rsp,%r12), %esi
	movd	%esi, %xmm12
	movzbl	48(%r9), %esi
	movd	%esi, %xmm14
	movzbl	48(%rsp,%rdx), %edx
	movd	%edx, %xmm11
	movzbl	48(%r8), %edx
	movzbl	48(%rsp,%rcx), %ecx
	movzbl	48(%rax), %ebp
	movq	152(%rsp), %rax
	movzbl	48(%rsp,%rax), %eax
	movaps	.Lunix_path_CPI44_2(%rip), %xmm0
	movaps	%xmm0, 48(%rsp)
	movaps	%xmm0, 32(%rsp)
	movaps	%xmm0, 16(%rsp)
	movaps	%xmm0, (%rsp)
	movd	%edx, %xmm13
	movdqa	.Lunix_path_CPI44_1(%rip), %xmm1
	pand	%xmm1, %xmm5
	movdqa	%xmm5, 624(%rsp)
	movd	%ecx, %xmm5
	pand	%xmm1, %xmm15
	movzbl	624(%rsp), %ecx
	movq	%rcx, 240(%rsp)
	movzbl	625(%rsp), %ecx
	movq	%rcx, 224(%rsp)
	movzbl	626(%rsp), %ecx
	movq	%rcx, 176(%rsp)
	movzbl	627(%rsp), %ecx
	movq	%rcx, 208(%rsp)
	movzbl	628(%rsp), %ecx
	movq	%rcx, 160(%rsp)
	movzbl	629(%rsp), %ecx
	movq	%rcx, 376(%rsp)
	movzbl	630(%rsp), %ecx
	movq	%rcx, 440(%rsp)
	movzbl	631(%rsp), %esi
	movzbl	632(%rsp), %r14d
	movzbl	633(%rsp), %ebx
	movzbl	634(%rsp), %r11d
	movzbl	635(%rsp), %r12d
	movzbl	636(%rsp), %r9d
	movzbl	637(%rsp), %r8d
	movzbl	638(%rsp), %edx
	movzbl	639(%rsp), %ecx
	movdqa	%xmm15, 592(%rsp)
	movd	%ebp, %xmm3
	movdqa	480(%rsp), %xmm0
	pand	%xmm1, %xmm0
	movzbl	592(%rsp), %edi
	movzbl	593(%rsp), %r15d
	movq	%r15, 120(%rsp)
	movzbl	594(%rsp), %r15d
	movq	%r15, 400(%rsp)
	movzbl	595(%rsp), %r15d
	movq	%r15, 104(%rsp)
	movzbl	596(%rsp), %r15d
	movq	%r15, 264(%rsp)
	movzbl	597(%rsp), %r15d
	movq	%r15, 256(%rsp)
	movzbl	598(%rsp), %r15d
	movq	%r15, 88(%rsp)
	movzbl	599(%rsp), %r15d
	movq	%r15, 416(%rsp)
	movzbl	600(%rsp), %r15d
	movq	%r15, 216(%rsp)
	movzbl	601(%rsp), %r15d
	movq	%r15, 168(%rsp)
	movzbl	602(%rsp), %r15d
	movq	%r15, 200(%rsp)
	movzbl	603(%rsp), %r15d
	movq	%r15, 280(%rsp)
	movzbl	604(%rsp), %r15d
	movq	%r15, 368(%rsp)
	movzbl	605(%rsp), %ebp
	movzbl	606(%rsp), %r13d
	movzbl	607(%rsp), %r15d
	movdqa	%xmm0, 608(%rsp)
	movd	%eax, %xmm4
	movdqa	288(%rsp), %xmm0
	pand	%xmm1, %xmm0
	movzbl	608(%rsp), %eax
	movq	%rax, 288(%rsp)
	movzbl	609(%rsp), %eax
	movq	%rax, 480(%rsp)
	movzbl	610(%rsp), %eax
	movq	%rax, 152(%rsp)
	movzbl	611(%rsp), %eax
	movq	%rax, 144(%rsp)
	movzbl	612(%rsp), %eax
	movq	%rax, 136(%rsp)
	movzbl	613(%rsp), %eax
	movq	%rax, 128(%rsp)
	movzbl	614(%rsp), %eax
	movq	%rax, 496(%rsp)
	movzbl	615(%rsp), %eax
	movq	%rax, 192(%rsp)
	movzbl	616(%rsp), %eax
	movq	%rax, 184(%rsp)
	movzbl	617(%rsp), %eax
	movq	%rax, 112(%rsp)
	movzbl	618(%rsp), %eax
	movq	%rax, 272(%rsp)
	movzbl	619(%rsp), %eax
	movq	%rax, 96(%rsp)
	movzbl	620(%rsp), %eax
	movq	%rax, 248(%rsp)
	movzbl	621(%rsp), %eax
	movq	%rax, 80(%rsp)
	movzbl	622(%rsp), %eax
	movq	%rax, 232(%rsp)
	movzbl	623(%rsp), %eax
	movq	%rax, 72(%rsp)
	movdqa	%xmm0, 640(%rsp)
	movzbl	(%rsp,%rcx), %eax
	movd	%eax, %xmm0
	punpckldq	%xmm10, %xmm9
	movzbl	(%rsp,%rdx), %eax
	movd	%eax, %xmm2
	punpcklbw	384(%rsp), %xmm12
	movzbl	(%rsp,%r8), %eax
	movd	%eax, %xmm1
	punpcklbw	%xmm14, %xmm11
	movzbl	(%rsp,%r9), %eax
	movd	%eax, %xmm10
	punpcklwd	%xmm12, %xmm11
	movzbl	(%rsp,%r12), %eax
	movd	%eax, %xmm14
	punpcklbw	%xmm13, %xmm5
	movzbl	(%rsp,%r11), %eax
	movd	%eax, %xmm12
	punpcklbw	%xmm3, %xmm4
	movzbl	(%rsp,%rbx), %eax
	movd	%eax, %xmm15
	punpcklwd	%xmm5, %xmm4
	movzbl	(%rsp,%r14), %eax
	movd	%eax, %xmm3
	punpckldq	%xmm11, %xmm4
	movzbl	(%rsp,%rsi), %eax
	movd	%eax, %xmm11
	punpcklqdq	%xmm9, %xmm4
	movq	440(%rsp), %rax
	movzbl	(%rsp,%rax), %eax
	movd	%eax, %xmm5
	punpcklbw	%xmm0, %xmm2
	movq	376(%rsp), %rax
	movzbl	(%rsp,%rax), %eax
	movd	%eax, %xmm9
	punpcklbw	%xmm1, %xmm10
	movq	160(%rsp), %rax
	movzbl	(%rsp,%rax), %eax
	movd	%eax, %xmm0
	punpcklwd	%xmm2, %xmm10
	movq	208(%rsp), %rax
	movzbl	(%rsp,%rax), %eax
	movd	%eax, %xmm2
	punpcklbw	%xmm14, %xmm12
	movq	176(%rsp), %rax
	movzbl	(%rsp,%rax), %eax
	movd	%eax, %xmm13
	punpcklbw	%xmm15, %xmm3
	movq	224(%rsp), %rax
	movzbl	(%rsp,%rax), %eax
	movd	%eax, %xmm14
	punpcklwd	%xmm12, %xmm3
	movq	240(%rsp), %rax
	movzbl	(%rsp,%rax), %eax
	movd	%eax, %xmm15
	punpckldq	%xmm10, %xmm3
	movzbl	16(%rsp,%r15), %eax
	movd	%eax, %xmm12
	punpcklbw	%xmm11, %xmm5
	movzbl	16(%rsp,%r13), %eax
	movd	%eax, %xmm10
	punpcklbw	%xmm9, %xmm0
	movzbl	16(%rsp,%rbp), %eax
	movd	%eax, %xmm1
	punpcklwd	%xmm5, %xmm0
	movq	368(%rsp), %rax
	movzbl	16(%rsp,%rax), %eax
	movd	%eax, %xmm9
	punpcklbw	%xmm2, %xmm13
	movq	280(%rsp), %rax
	movzbl	16(%rsp,%rax), %eax
	movd	%eax, %xmm2
	punpcklbw	%xmm14, %xmm15
	movq	200(%rsp), %rax
	movzbl	16(%rsp,%rax), %eax
	movd	%eax, %xmm11
	punpcklwd	%xmm13, %xmm15
	movq	168(%rsp), %rax
	movzbl	16(%rsp,%rax), %eax
	movd	%eax, %xmm13
	punpckldq	%xmm0, %xmm15
	movq	216(%rsp), %rax
	movzbl	16(%rsp,%rax), %eax
	movd	%eax, %xmm0
	punpcklqdq	%xmm3, %xmm15
	movq	416(%rsp), %rax
	movzbl	16(%rsp,%rax), %eax
	movd	%eax, %xmm14
	pand	%xmm7, %xmm15
	movdqa	%xmm15, 416(%rsp)
	movq	88(%rsp), %rax
	movzbl	16(%rsp,%rax), %eax
	movd	%eax, %xmm7
	punpcklbw	%xmm12, %xmm10
	movq	256(%rsp), %rax
	movzbl	16(%rsp,%rax), %eax
	movd	%eax, %xmm3
	punpcklbw	%xmm1, %xmm9
	movq	264(%rsp), %rax
	movzbl	16(%rsp,%rax), %eax
	movd	%eax, %xmm5
	punpcklwd	%xmm10, %xmm9
	movq	104(%rsp), %rax
	movzbl	16(%rsp,%rax), %eax
	movd	%eax, %xmm1
	punpcklbw	%xmm2, %xmm11
	movq	400(%rsp), %rax
	movzbl	16(%rsp,%rax), %eax
	movd	%eax, %xmm12
	punpcklbw	%xmm13, %xmm0
	movq	120(%rsp), %rax
	movzbl	16(%rsp,%rax), %eax
	movd	%eax, %xmm2
	punpcklwd	%xmm11, %xmm0
	movzbl	16(%rsp,%rdi), %eax
	movd	%eax, %xmm11
	punpckldq	%xmm9, %xmm0
	movq	72(%rsp), %rax
	movzbl	32(%rsp,%rax), %eax
	movd	%eax, %xmm13
	punpcklbw	%xmm14, %xmm7
	movq	232(%rsp), %rax
	movzbl	32(%rsp,%rax), %eax
	movd	%eax, %xmm10
	punpcklbw	%xmm3, %xmm5
	movq	80(%rsp), %rax
	movzbl	32(%rsp,%rax), %eax
	movd	%eax, %xmm14
	movzbl	640(%rsp), %eax
	movq	%rax, 120(%rsp)
	punpcklwd	%xmm7, %xmm5
	movq	248(%rsp), %rax
	movzbl	32(%rsp,%rax), %eax
	movd	%eax, %xmm9
	movzbl	641(%rsp), %r9d
	punpcklbw	%xmm1, %xmm12
	movq	96(%rsp), %rax
	movzbl	32(%rsp,%rax), %eax
	movd	%eax, %xmm15
	movzbl	642(%rsp), %edi
	movdqa	%xmm11, %xmm3
	punpcklbw	%xmm2, %xmm3
	movq	272(%rsp), %rax
	movzbl	32(%rsp,%rax), %edx
	movd	%edx, %xmm11
	movzbl	643(%rsp), %r8d
	punpcklwd	%xmm12, %xmm3
	movq	112(%rsp), %rax
	movzbl	32(%rsp,%rax), %edx
	movd	%edx, %xmm1
	movzbl	644(%rsp), %edx
	punpckldq	%xmm5, %xmm3
	movq	184(%rsp), %rax
	movzbl	32(%rsp,%rax), %esi
	movd	%esi, %xmm7
	movzbl	645(%rsp), %r12d
	punpcklqdq	%xmm0, %xmm3
	movq	192(%rsp), %rax
	movzbl	32(%rsp,%rax), %esi
	movd	%esi, %xmm12
	movzbl	646(%rsp), %r11d
	pand	%xmm6, %xmm3
	movdqa	%xmm3, 400(%rsp)
	movq	496(%rsp), %rax
	movzbl	32(%rsp,%rax), %esi
	movd	%esi, %xmm0
	movzbl	647(%rsp), %ebx
	punpcklbw	%xmm13, %xmm10
	movq	128(%rsp), %rax
	movzbl	32(%rsp,%rax), %esi
	movd	%esi, %xmm13
	movzbl	648(%rsp), %r14d
	punpcklbw	%xmm14, %xmm9
	movq	136(%rsp), %rax
	movzbl	32(%rsp,%rax), %esi
	movd	%esi, %xmm6
	movzbl	649(%rsp), %esi
	punpcklwd	%xmm10, %xmm9
	movq	144(%rsp), %rax
	movzbl	32(%rsp,%rax), %ebp
	movd	%ebp, %xmm2
	movzbl	650(%rsp), %r15d
	punpcklbw	%xmm15, %xmm11
	movq	152(%rsp), %rax
	movzbl	32(%rsp,%rax), %ebp
	movd	%ebp, %xmm3
	movzbl	651(%rsp), %r13d
	punpcklbw	%xmm1, %xmm7
	movq	480(%rsp), %rax
	movzbl	32(%rsp,%rax), %ebp
	movd	%ebp, %xmm1
	movzbl	652(%rsp), %ebp
	punpcklwd	%xmm11, %xmm7
	movq	288(%rsp), %rax
	movzbl	32(%rsp,%rax), %ecx
	movd	%ecx, %xmm5
	movzbl	655(%rsp), %ecx
	punpckldq	%xmm9, %xmm7
	movzbl	48(%rsp,%rcx), %ecx
	movd	%ecx, %xmm9
	movzbl	654(%rsp), %ecx
	punpcklbw	%xmm12, %xmm0
	movzbl	48(%rsp,%rcx), %ecx
	movd	%ecx, %xmm10
	movzbl	653(%rsp), %ecx
	punpcklbw	%xmm13, %xmm6
	punpcklwd	%xmm0, %xmm6
	punpcklbw	%xmm2, %xmm3
	punpcklbw	%xmm1, %xmm5
	punpcklwd	%xmm3, %xmm5
	punpckldq	%xmm6, %xmm5
	punpcklqdq	%xmm7, %xmm5
	pand	%xmm8, %xmm5
	punpcklbw	%xmm9, %xmm10
	movzbl	48(%rsp,%rcx), %ecx
	movd	%ecx, %xmm0
	movzbl	48(%rsp,%rbp), %ecx
	movd	%ecx, %xmm7
	punpcklbw	%xmm0, %xmm7
	punpcklwd	%xmm10, %xmm7
	movzbl	48(%rsp,%r13), %ecx
	movd	%ecx, %xmm0
	movzbl	48(%rsp,%r15), %ecx
	movd	%ecx, %xmm8
	punpcklbw	%xmm0, %xmm8
	movzbl	48(%rsp,%rsi), %ecx
	movd	%ecx, %xmm0
	movzbl	48(%rsp,%r14), %ecx
	movd	%ecx, %xmm6
	punpcklbw	%xmm0, %xmm6
	movzbl	48(%rsp,%rbx), %ebx
	movzbl	48(%rsp,%r11), %esi
	movzbl	48(%rsp,%r12), %eax
	movzbl	48(%rsp,%rdx), %r14d
	movzbl	48(%rsp,%r8), %r11d
	movzbl	48(%rsp,%rdi), %edx
	movzbl	48(%rsp,%r9), %ecx
	movl	%ecx, 280(%rsp)
	movq	120(%rsp), %rcx
	movzbl	48(%rsp,%rcx), %ecx
	movl	%ecx, 160(%rsp)
	movaps	.Lunix_path_CPI44_3(%rip), %xmm0
	movaps	%xmm0, 48(%rsp)
	movaps	%xmm0, 32(%rsp)
	movaps	%xmm0, 16(%rsp)
	movaps	%xmm0, (%rsp)
	movdqa	448(%rsp), %xmm11
	psrlw	$4, %xmm11
	movdqa	%xmm11, %xmm13
	movdqa	.Lunix_path_CPI44_1(%rip), %xmm1
	pand	%xmm1, %xmm13
	movdqa	336(%rsp), %xmm0
	psrlw	$4, %xmm0
	movdqa	%xmm0, %xmm14
	pand	%xmm1, %xmm14
	movdqa	352(%rsp), %xmm10
	psrlw	$4, %xmm10
	movdqa	%xmm10, %xmm12
	pand	%xmm1, %xmm12
	movdqa	320(%rsp), %xmm2
	psrlw	$4, %xmm2
	pand	%xmm2, %xmm1
	movdqa	%xmm1, 1152(%rsp)
	movd	%ebx, %xmm1
	movzbl	1152(%rsp), %ecx
	movq	%rcx, 104(%rsp)
	movdqa	%xmm2, 1136(%rsp)
	movd	%esi, %xmm9
	movzbl	1137(%rsp), %ecx
	movq	%rcx, 288(%rsp)
	movzbl	1154(%rsp), %esi
	movq	%rsi, 272(%rsp)
	movzbl	1139(%rsp), %ecx
	movq	%rcx, 496(%rsp)
	movzbl	1156(%rsp), %edi
	movq	%rdi, 96(%rsp)
	movzbl	1141(%rsp), %ecx
	movq	%rcx, 480(%rsp)
	movzbl	1158(%rsp), %r9d
	movq	%r9, 264(%rsp)
	movzbl	1143(%rsp), %ecx
	movq	%rcx, 152(%rsp)
	movzbl	1160(%rsp), %r9d
	movq	%r9, 256(%rsp)
	movzbl	1145(%rsp), %ecx
	movq	%rcx, 144(%rsp)
	movzbl	1162(%rsp), %r9d
	movq	%r9, 248(%rsp)
	movzbl	1147(%rsp), %ecx
	movq	%rcx, 136(%rsp)
	movzbl	1164(%rsp), %r9d
	movq	%r9, 88(%rsp)
	movzbl	1149(%rsp), %ecx
	movq	%rcx, 128(%rsp)
	movzbl	1166(%rsp), %r9d
	movq	%r9, 80(%rsp)
	movzbl	1151(%rsp), %ecx
	movq	%rcx, 192(%rsp)
	movdqa	%xmm12, 1184(%rsp)
	movd	%eax, %xmm12
	movzbl	1184(%rsp), %r9d
	movq	%r9, 240(%rsp)
	movdqa	%xmm10, 1168(%rsp)
	movd	%r14d, %xmm10
	movzbl	1169(%rsp), %eax
	movq	%rax, 184(%rsp)
	movzbl	1186(%rsp), %r9d
	movq	%r9, 232(%rsp)
	movzbl	1171(%rsp), %eax
	movq	%rax, 112(%rsp)
	movzbl	1188(%rsp), %r9d
	movq	%r9, 224(%rsp)
	movzbl	1173(%rsp), %eax
	movq	%rax, 120(%rsp)
	movzbl	1190(%rsp), %r9d
	movq	%r9, 72(%rsp)
	movzbl	1175(%rsp), %r13d
	movzbl	1192(%rsp), %r9d
	movq	%r9, 216(%rsp)
	movzbl	1177(%rsp), %r12d
	movzbl	1194(%rsp), %r9d
	movq	%r9, 176(%rsp)
	movzbl	1179(%rsp), %r8d
	movzbl	1196(%rsp), %r9d
	movq	%r9, 384(%rsp)
	movzbl	1181(%rsp), %edi
	movzbl	1198(%rsp), %r9d
	movq	%r9, 168(%rsp)
	movzbl	1183(%rsp), %esi
	movdqa	%xmm14, 1248(%rsp)
	movd	%r11d, %xmm15
	movzbl	1248(%rsp), %r9d
	movq	%r9, 208(%rsp)
	movdqa	%xmm0, 1216(%rsp)
	movd	%edx, %xmm14
	movzbl	1217(%rsp), %edx
	movzbl	1250(%rsp), %r9d
	movq	%r9, 200(%rsp)
	movzbl	1219(%rsp), %ecx
	movzbl	1252(%rsp), %r9d
	movq	%r9, 376(%rsp)
	movzbl	1221(%rsp), %ebp
	movzbl	1254(%rsp), %r9d
	movq	%r9, 440(%rsp)
	movzbl	1223(%rsp), %r15d
	movzbl	1256(%rsp), %r9d
	movq	%r9, 792(%rsp)
	movzbl	1225(%rsp), %r14d
	movzbl	1258(%rsp), %r9d
	movq	%r9, 784(%rsp)
	movzbl	1227(%rsp), %ebx
	movzbl	1260(%rsp), %r9d
	movq	%r9, 1952(%rsp)
	movzbl	1229(%rsp), %r11d
	movzbl	1262(%rsp), %r9d
	movq	%r9, 1936(%rsp)
	movzbl	1231(%rsp), %eax
	movdqa	%xmm13, 1328(%rsp)
	movd	280(%rsp), %xmm0
	movzbl	1328(%rsp), %r9d
	movq	%r9, 1928(%rsp)
	movdqa	%xmm11, 1280(%rsp)
	movd	160(%rsp), %xmm11
	orq	%r10, 288(%rsp)
	orq	%r10, 496(%rsp)
	orq	%r10, 480(%rsp)
	orq	%r10, 152(%rsp)
	orq	%r10, 144(%rsp)
	orq	%r10, 136(%rsp)
	orq	%r10, 128(%rsp)
	orq	%r10, 192(%rsp)
	orq	%r10, 184(%rsp)
	orq	%r10, 112(%rsp)
	orq	%r10, 120(%rsp)
	orq	%r10, %r13
	movq	%r13, 160(%rsp)
	orq	%r10, %r12
	movq	%r12, 280(%rsp)
	orq	%r10, %r8
	movq	%r8, 368(%rsp)
	orq	%r10, %rdi
	movq	%rdi, 808(%rsp)
	orq	%r10, %rsi
	movq	%rsi, 800(%rsp)
	orq	%r10, %rdx
	movq	%rdx, 1960(%rsp)
	orq	%r10, %rcx
	movq	%rcx, 1944(%rsp)
	orq	%r10, %rbp
	orq	%r10, %r15
	orq	%r10, %r14
	orq	%r10, %rbx
	orq	%r10, %r11
	orq	%r10, %rax
	movq	%rax, %r9
	movq	%r10, %rcx
	movzbl	1281(%rsp), %r8d
	orq	%r10, %r8
	movzbl	1283(%rsp), %edi
	orq	%r10, %rdi
	movzbl	1285(%rsp), %esi
	orq	%r10, %rsi
	movzbl	1287(%rsp), %edx
	orq	%r10, %rdx
	movzbl	1289(%rsp), %r13d
	orq	%r10, %r13
	movzbl	1291(%rsp), %r12d
	orq	%r10, %r12
	movzbl	1293(%rsp), %r10d
	orq	%rcx, %r10
	movzbl	1295(%rsp), %eax
	orq	%rcx, %rax
	punpcklwd	%xmm8, %xmm6
	movzbl	48(%rax), %eax
	movd	%eax, %xmm13
	punpckldq	%xmm7, %xmm6
	movzbl	1342(%rsp), %eax
	movzbl	48(%rsp,%rax), %eax
	movd	%eax, %xmm8
	punpcklbw	%xmm1, %xmm9
	movzbl	48(%r10), %eax
	movd	%eax, %xmm1
	punpcklbw	%xmm12, %xmm10
	movzbl	1340(%rsp), %eax
	movzbl	48(%rsp,%rax), %eax
	movd	%eax, %xmm7
	punpcklwd	%xmm9, %xmm10
	movzbl	48(%r12), %eax
	movd	%eax, %xmm12
	punpcklbw	%xmm15, %xmm14
	movzbl	1338(%rsp), %eax
	movzbl	48(%rsp,%rax), %eax
	movd	%eax, %xmm9
	punpcklbw	%xmm0, %xmm11
	movzbl	48(%r13), %eax
	movd	%eax, %xmm15
	punpcklwd	%xmm14, %xmm11
	movzbl	1336(%rsp), %eax
	movzbl	48(%rsp,%rax), %eax
	movd	%eax, %xmm0
	punpckldq	%xmm10, %xmm11
	movzbl	48(%rdx), %eax
	movq	304(%rsp), %rcx
	movd	%eax, %xmm10
	punpcklqdq	%xmm6, %xmm11
	movzbl	1334(%rsp), %eax
	movzbl	48(%rsp,%rax), %eax
	movd	%eax, %xmm6
	pand	%xmm4, %xmm11
	movzbl	48(%rsi), %eax
	movd	%eax, %xmm14
	punpcklbw	%xmm13, %xmm8
	movzbl	1332(%rsp), %eax
	movzbl	48(%rsp,%rax), %eax
	movd	%eax, %xmm4
	punpcklbw	%xmm1, %xmm7
	movzbl	48(%rdi), %eax
	movd	%eax, %xmm13
	punpcklwd	%xmm8, %xmm7
	movzbl	1330(%rsp), %eax
	movzbl	48(%rsp,%rax), %eax
	movd	%eax, %xmm8
	punpcklbw	%xmm12, %xmm9
	movzbl	48(%r8), %eax
	movd	%eax, %xmm2
	punpcklbw	%xmm15, %xmm0
	movq	1928(%rsp), %rax
	movzbl	48(%rsp,%rax), %eax
	movd	%eax, %xmm1
	punpcklwd	%xmm9, %xmm0
	movzbl	32(%r9), %eax
	movq	312(%rsp), %r9
	movd	%eax, %xmm12
	punpckldq	%xmm7, %xmm0
	movq	1936(%rsp), %rax
	movzbl	32(%rsp,%rax), %eax
	movd	%eax, %xmm9
	punpcklbw	%xmm10, %xmm6
	movzbl	32(%r11), %eax
	movd	%eax, %xmm10
	punpcklbw	%xmm14, %xmm4
	movq	1952(%rsp), %rax
	movzbl	32(%rsp,%rax), %eax
	movd	%eax, %xmm7
	punpcklwd	%xmm6, %xmm4
	movzbl	32(%rbx), %eax
	movq	1912(%rsp), %rsi
	movq	1920(%rsp), %rdx
	movd	%eax, %xmm3
	punpcklbw	%xmm13, %xmm8
	movq	784(%rsp), %rax
	movzbl	32(%rsp,%rax), %eax
	movd	%eax, %xmm13
	punpcklbw	%xmm2, %xmm1
	movzbl	32(%r14), %eax
	movd	%eax, %xmm2
	punpcklwd	%xmm8, %xmm1
	movq	792(%rsp), %rax
	movzbl	32(%rsp,%rax), %eax
	movd	%eax, %xmm6
	punpckldq	%xmm4, %xmm1
	movzbl	32(%r15), %eax
	movd	%eax, %xmm14
	punpcklqdq	%xmm0, %xmm1
	movq	440(%rsp), %rax
	movzbl	32(%rsp,%rax), %eax
	movd	%eax, %xmm0
	pand	%xmm11, %xmm1
	movzbl	32(%rbp), %eax
	movd	%eax, %xmm15
	punpcklbw	%xmm12, %xmm9
	movq	376(%rsp), %rax
	movzbl	32(%rsp,%rax), %eax
	movd	%eax, %xmm8
	punpcklbw	%xmm10, %xmm7
	movq	1944(%rsp), %rax
	movzbl	32(%rax), %eax
	movd	%eax, %xmm12
	punpcklwd	%xmm9, %xmm7
	movq	200(%rsp), %rax
	movzbl	32(%rsp,%rax), %eax
	movd	%eax, %xmm10
	punpcklbw	%xmm3, %xmm13
	movq	1960(%rsp), %rax
	movzbl	32(%rax), %eax
	movd	%eax, %xmm3
	punpcklbw	%xmm2, %xmm6
	movq	208(%rsp), %rax
	movzbl	32(%rsp,%rax), %eax
	movd	%eax, %xmm4
	punpcklwd	%xmm13, %xmm6
	movq	800(%rsp), %rax
	movzbl	16(%rax), %eax
	movd	%eax, %xmm11
	punpckldq	%xmm7, %xmm6
	movq	168(%rsp), %rax
	movzbl	16(%rsp,%rax), %eax
	movd	%eax, %xmm9
	punpcklbw	%xmm14, %xmm0
	movq	808(%rsp), %rax
	movzbl	16(%rax), %eax
	movd	%eax, %xmm2
	punpcklbw	%xmm15, %xmm8
	movq	384(%rsp), %rax
	movzbl	16(%rsp,%rax), %eax
	movd	%eax, %xmm7
	punpcklwd	%xmm0, %xmm8
	movq	368(%rsp), %rax
	movzbl	16(%rax), %eax
	movd	%eax, %xmm13
	punpcklbw	%xmm12, %xmm10
	movq	176(%rsp), %rax
	movzbl	16(%rsp,%rax), %eax
	movd	%eax, %xmm12
	punpcklbw	%xmm3, %xmm4
	movq	280(%rsp), %rax
	movzbl	16(%rax), %eax
	movd	%eax, %xmm3
	punpcklwd	%xmm10, %xmm4
	movq	216(%rsp), %rax
	movzbl	16(%rsp,%rax), %eax
	movd	%eax, %xmm0
	punpckldq	%xmm8, %xmm4
	movq	160(%rsp), %rax
	movzbl	16(%rax), %eax
	movd	%eax, %xmm8
	punpcklqdq	%xmm6, %xmm4
	movq	72(%rsp), %rax
	movzbl	16(%rsp,%rax), %eax
	movd	%eax, %xmm10
	pand	%xmm5, %xmm4
	movq	120(%rsp), %rax
	movzbl	16(%rax), %eax
	movd	%eax, %xmm14
	punpcklbw	%xmm11, %xmm9
	movq	224(%rsp), %rax
	movzbl	16(%rsp,%rax), %eax
	movd	%eax, %xmm6
	punpcklbw	%xmm2, %xmm7
	movq	112(%rsp), %rax
	movzbl	16(%rax), %eax
	movd	%eax, %xmm15
	punpcklwd	%xmm9, %xmm7
	movq	232(%rsp), %rax
	movzbl	16(%rsp,%rax), %eax
	movd	%eax, %xmm9
	punpcklbw	%xmm13, %xmm12
	movq	184(%rsp), %rax
	movzbl	16(%rax), %eax
	movd	%eax, %xmm13
	punpcklbw	%xmm3, %xmm0
	movq	240(%rsp), %rax
	movzbl	16(%rsp,%rax), %eax
	movd	%eax, %xmm5
	punpcklwd	%xmm12, %xmm0
	movdqa	336(%rsp), %xmm12
	movq	192(%rsp), %rax
	movzbl	(%rax), %eax
	movd	%eax, %xmm11
	punpckldq	%xmm7, %xmm0
	punpcklbw	%xmm8, %xmm10
	punpcklbw	%xmm14, %xmm6
	punpcklwd	%xmm10, %xmm6
	movq	80(%rsp), %rax
	movzbl	(%rsp,%rax), %eax
	movd	%eax, %xmm2
	punpcklbw	%xmm15, %xmm9
	movdqa	352(%rsp), %xmm14
	movq	128(%rsp), %rax
	movzbl	(%rax), %eax
	movd	%eax, %xmm8
	punpcklbw	%xmm13, %xmm5
	movq	88(%rsp), %rax
	movzbl	(%rsp,%rax), %eax
	movd	%eax, %xmm7
	punpcklwd	%xmm9, %xmm5
	movq	136(%rsp), %rax
	movzbl	(%rax), %eax
	movd	%eax, %xmm9
	punpckldq	%xmm6, %xmm5
	movq	248(%rsp), %rax
	movzbl	(%rsp,%rax), %eax
	movd	%eax, %xmm6
	punpcklqdq	%xmm0, %xmm5
	movq	144(%rsp), %rax
	movzbl	(%rax), %eax
	movd	%eax, %xmm0
	pand	400(%rsp), %xmm5
	movq	256(%rsp), %rax
	movzbl	(%rsp,%rax), %eax
	movd	%eax, %xmm3
	punpcklbw	%xmm11, %xmm2
	movq	152(%rsp), %rax
	movzbl	(%rax), %eax
	movd	%eax, %xmm10
	punpcklbw	%xmm8, %xmm7
	movq	264(%rsp), %rax
	movzbl	(%rsp,%rax), %eax
	movd	%eax, %xmm8
	punpcklwd	%xmm2, %xmm7
	movq	480(%rsp), %rax
	movzbl	(%rax), %eax
	movd	%eax, %xmm2
	punpcklbw	%xmm9, %xmm6
	movq	96(%rsp), %rax
	movzbl	(%rsp,%rax), %eax
	movd	%eax, %xmm9
	punpcklbw	%xmm0, %xmm3
	movq	496(%rsp), %rax
	movzbl	(%rax), %eax
	movd	%eax, %xmm11
	punpcklwd	%xmm6, %xmm3
	movq	272(%rsp), %rax
	movzbl	(%rsp,%rax), %eax
	movd	%eax, %xmm6
	punpckldq	%xmm7, %xmm3
	movq	288(%rsp), %rax
	movzbl	(%rax), %eax
	movd	%eax, %xmm7
	punpcklbw	%xmm10, %xmm8
	movq	104(%rsp), %rax
	movzbl	(%rsp,%rax), %eax
	movd	%eax, %xmm0
	punpcklbw	%xmm2, %xmm9
	punpcklwd	%xmm8, %xmm9
	punpcklbw	%xmm11, %xmm6
	punpcklbw	%xmm7, %xmm0
	punpcklwd	%xmm6, %xmm0
	punpckldq	%xmm9, %xmm0
	punpcklqdq	%xmm3, %xmm0
	pand	416(%rsp), %xmm0
	movdqa	%xmm12, %xmm2
	psrldq	$14, %xmm2
	movdqa	448(%rsp), %xmm7
	pslldq	$2, %xmm7
	por	%xmm2, %xmm7
	movdqa	%xmm14, %xmm2
	psrldq	$14, %xmm2
	movdqa	%xmm12, %xmm8
	pslldq	$2, %xmm8
	por	%xmm2, %xmm8
	movdqa	320(%rsp), %xmm2
	psrldq	$14, %xmm2
	movdqa	%xmm14, %xmm9
	pslldq	$2, %xmm9
	por	%xmm2, %xmm9
	movdqa	320(%rsp), %xmm2
	pslldq	$2, %xmm2
	movdqa	464(%rsp), %xmm13
	movdqa	%xmm13, %xmm10
	psrldq	$14, %xmm10
	por	%xmm2, %xmm10
	movdqa	.Lunix_path_CPI44_4(%rip), %xmm2
	psubusb	%xmm2, %xmm10
	psubusb	%xmm2, %xmm9
	psubusb	%xmm2, %xmm8
	psubusb	%xmm2, %xmm7
	movdqa	%xmm12, %xmm3
	psrldq	$13, %xmm3
	movdqa	448(%rsp), %xmm2
	pslldq	$3, %xmm2
	por	%xmm3, %xmm2
	movdqa	%xmm14, %xmm6
	psrldq	$13, %xmm6
	movdqa	%xmm12, %xmm3
	pslldq	$3, %xmm3
	por	%xmm6, %xmm3
	movdqa	320(%rsp), %xmm11
	psrldq	$13, %xmm11
	movdqa	%xmm14, %xmm6
	pslldq	$3, %xmm6
	por	%xmm11, %xmm6
	movdqa	320(%rsp), %xmm11
	pslldq	$3, %xmm11
	psrldq	$13, %xmm13
	por	%xmm11, %xmm13
	movdqa	.Lunix_path_CPI44_5(%rip), %xmm11
	psubusb	%xmm11, %xmm13
	por	%xmm10, %xmm13
	movdqa	320(%rsp), %xmm10
	psubusb	%xmm11, %xmm6
	por	%xmm9, %xmm6
	movdqa	816(%rsp), %xmm9
	psubusb	%xmm11, %xmm3
	por	%xmm8, %xmm3
	movdqa	832(%rsp), %xmm8
	psubusb	%xmm11, %xmm2
	movdqa	448(%rsp), %xmm11
	por	%xmm7, %xmm2
	movdqa	.Lunix_path_CPI44_6(%rip), %xmm7
	pand	%xmm7, %xmm13
	pxor	%xmm0, %xmm13
	pand	%xmm7, %xmm6
	pxor	%xmm5, %xmm6
	movdqa	512(%rsp), %xmm5
	pand	%xmm7, %xmm3
	pxor	%xmm4, %xmm3
	pand	%xmm7, %xmm2
	movdqa	848(%rsp), %xmm7
	pxor	%xmm1, %xmm2
	pcmpeqd	%xmm0, %xmm0
	psubusb	%xmm0, %xmm10
	psubusb	%xmm0, %xmm14
	psubusb	%xmm0, %xmm12
	movdqa	%xmm11, %xmm1
	psubusb	.Lunix_path_CPI44_7(%rip), %xmm1
	movdqa	%xmm13, %xmm0
.Lunix_path_BB44_30:
	por	%xmm2, %xmm5
	por	%xmm3, %xmm8
	por	%xmm6, %xmm9
	por	%xmm0, %xmm7
	addq	$64, %rcx
	addq	$-64, %r9
	movdqa	%xmm11, %xmm15
	movdqa	%xmm10, %xmm0
	movdqa	%xmm14, %xmm6
	movdqa	%xmm12, %xmm3
	movdqa	%xmm1, %xmm2
	cmpq	$63, %r9
	jbe	.Lunix_path_BB44_34
.Lunix_path_BB44_31:
	movdqu	(%rsi,%rcx), %xmm10
	movdqu	16(%rsi,%rcx), %xmm13
	movdqu	32(%rsi,%rcx), %xmm12
	movdqu	48(%rsi,%rcx), %xmm11
	movdqa	%xmm13, %xmm1
	por	%xmm10, %xmm1
	movdqa	%xmm12, %xmm4
	por	%xmm11, %xmm4
	por	%xmm1, %xmm4
	pmovmskb	%xmm4, %eax
	testl	%eax, %eax
	jne	.Lunix_path_BB44_29
	pxor	%xmm10, %xmm10
	pxor	%xmm14, %xmm14
	pxor	%xmm12, %xmm12
	pxor	%xmm1, %xmm1
	jmp	.Lunix_path_BB44_30
.Lunix_path_BB44_33:
	movdqa	%xmm0, 512(%rsp)
	xorl	%ecx, %ecx
	movdqa	%xmm0, 848(%rsp)
	movdqa	%xmm0, 816(%rsp)
	movdqa	%xmm0, 832(%rsp)
	jmp	.Lunix_path_BB44_24
.Lunix_path_BB44_34:
	movdqa	%xmm1, 288(%rsp)
	movdqa	%xmm14, 352(%rsp)
	movdqa	%xmm10, 320(%rsp)
	movdqa	%xmm12, 336(%rsp)
	movdqa	%xmm11, 448(%rsp)
	movdqa	%xmm9, 816(%rsp)
	movdqa	%xmm8, 832(%rsp)
	movdqa	%xmm7, 848(%rsp)
	movdqa	%xmm5, 512(%rsp)
	jmp	.Lunix_path_BB44_25
.Lunix_path_BB44_35:
	pxor	%xmm0, %xmm0
	movdqa	%xmm0, (%rsp)
	movq	$0, 16(%rsp)
	addq	%rax, %rsi
	movq	%rsp, %rdi
	movq	2048(%rsp), %rdx
	movq	%rax, %rbx
	callq	core.str.utf8.from_utf8
	movzbl	(%rsp), %eax
	testq	%rax, %rax
	je	.Lunix_path_BB44_39
	addq	8(%rsp), %rbx
	xorl	%ecx, %ecx
	xorl	%edx, %edx
	cmpb	$1, 16(%rsp)
	sete	%dl
	movq	%rdx, 872(%rsp)
	movzbl	17(%rsp), %edx
	cmovnel	%ecx, %edx
	movzbl	%dl, %ecx
	movq	%rbx, 864(%rsp)
	jmp	.Lunix_path_BB44_40
.Lunix_path_BB44_38:
	xorl	%eax, %eax
.Lunix_path_BB44_39:
	xorl	%ecx, %ecx
.Lunix_path_BB44_40:
	movq	2040(%rsp), %rdx
	movq	%rax, (%rdx)
	movq	864(%rsp), %rax
	movq	%rax, 8(%rdx)
	movq	872(%rsp), %rax
	movq	%rax, 16(%rdx)
	movq	%rcx, 24(%rdx)
	addq	$2072, %rsp
	popq	%rbx
	popq	%r12
	popq	%r13
	popq	%r14
	popq	%r15
	popq	%rbp
	retq
.Lunix_path_func_end44:
	.size	simdutf8.compat.from_utf8, .Lunix_path_func_end44-simdutf8.compat.from_utf8
	.section	.text.simdutf8.last_block,"ax",@progbits
	.p2align	4
	.type	simdutf8.last_block,@function
# simdutf8::last_block
simdutf8.last_block:
	pushq	%rbp
	movq	%rsp, %rbp
	pushq	%rbx
	andq	$-64, %rsp
	subq	$128, %rsp
	movq	%rdi, %rbx
	addq	%rcx, %rsi
	subq	%rcx, %rdx
	xorps	%xmm0, %xmm0
	movaps	%xmm0, 48(%rsp)
	movaps	%xmm0, 32(%rsp)
	movaps	%xmm0, 16(%rsp)
	movaps	%xmm0, (%rsp)
	movq	%rsp, %rdi
	callq	memcpy@PLT
	movaps	(%rsp), %xmm0
	movaps	16(%rsp), %xmm1
	movaps	32(%rsp), %xmm2
	movaps	48(%rsp), %xmm3
	movups	%xmm2, 32(%rbx)
	movups	%xmm3, 48(%rbx)
	movups	%xmm0, (%rbx)
	movups	%xmm1, 16(%rbx)
	leaq	-8(%rbp), %rsp
	popq	%rbx
	popq	%rbp
	retq
.Lunix_path_func_end45:
	.size	simdutf8.last_block, .Lunix_path_func_end45-simdutf8.last_block
	.section	.text.core.str.utf8.from_utf8,"ax",@progbits
	.p2align	4
	.type	core.str.utf8.from_utf8,@function
# core::str::utf8::from_utf8
core.str.utf8.from_utf8:
	pushq	%r15
	pushq	%r14
	pushq	%r13
	pushq	%r12
	pushq	%rbx
	subq	$16, %rsp
	movq	%rdx, %r15
	movq	%rsi, %r14
	movq	%rdi, %rbx
	testq	%rdx, %rdx
	je	.Lunix_path_BB46_57
	movabsq	$-9187201950435737472, %r12
	leaq	-8(%r15), %r13
	xorl	%ecx, %ecx
	jmp	.Lunix_path_BB46_5
.Lunix_path_BB46_25:
	movl	$1, %edi
.Lunix_path_BB46_3:
	addq	%rcx, %rdi
.Lunix_path_BB46_4:
	movq	%rdi, %rcx
	cmpq	%r15, %rdi
	jae	.Lunix_path_BB46_57
.Lunix_path_BB46_5:
	movzbl	(%r14,%rcx), %esi
	testb	%sil, %sil
	sets	%dl
	movq	%r15, %rax
	subq	%rcx, %rax
	cmpq	$2, %rax
	setb	%dil
	orb	%dl, %dil
	jne	.Lunix_path_BB46_2
	cmpb	$0, 1(%r14,%rcx)
	js	.Lunix_path_BB46_25
	movq	%r14, (%rsp)
	movq	%r15, 8(%rsp)
	cmpq	$7, %rax
	ja	.Lunix_path_BB46_26
	cmpb	$0, (%r14,%rcx)
	js	.Lunix_path_BB46_36
	leaq	1(%rcx), %rdi
	cmpq	%r15, %rdi
	je	.Lunix_path_BB46_57
	cmpb	$0, (%r14,%rdi)
	js	.Lunix_path_BB46_4
	leaq	2(%rcx), %rdi
	cmpq	%r15, %rdi
	je	.Lunix_path_BB46_57
	cmpb	$0, (%r14,%rdi)
	js	.Lunix_path_BB46_4
	leaq	3(%rcx), %rdi
	cmpq	%r15, %rdi
	je	.Lunix_path_BB46_57
	cmpb	$0, (%r14,%rdi)
	js	.Lunix_path_BB46_4
	leaq	4(%rcx), %rdi
	cmpq	%r15, %rdi
	je	.Lunix_path_BB46_57
	cmpb	$0, (%r14,%rdi)
	js	.Lunix_path_BB46_4
	leaq	5(%rcx), %rdi
	cmpq	%r15, %rdi
	je	.Lunix_path_BB46_57
	cmpb	$0, (%r14,%rdi)
	js	.Lunix_path_BB46_4
	addq	$6, %rcx
	cmpq	%r15, %rcx
	je	.Lunix_path_BB46_57
	cmpb	$0, (%r14,%rcx)
	movq	%rcx, %rdi
	js	.Lunix_path_BB46_4
	jmp	.Lunix_path_BB46_57
	.p2align	4
.Lunix_path_BB46_2:
	movl	$1, %edi
	testb	%sil, %sil
	jns	.Lunix_path_BB46_3
	movl	$257, %edx
	cmpb	$-62, %sil
	jb	.Lunix_path_BB46_66
	cmpb	$-33, %sil
	ja	.Lunix_path_BB46_29
	cmpq	$2, %rax
	jb	.Lunix_path_BB46_58
	movzbl	1(%r14,%rcx), %r8d
	movl	$2, %edi
	cmpb	$-65, %r8b
	jle	.Lunix_path_BB46_3
	jmp	.Lunix_path_BB46_60
.Lunix_path_BB46_26:
	movq	(%r14,%rcx), %rax
	andq	%r12, %rax
	je	.Lunix_path_BB46_37
	rep		bsfq	%rax, %rax
	shrl	$3, %eax
	addq	%rcx, %rax
	addq	$8, %rcx
	movq	%rax, %rdi
	cmpq	%rcx, %rax
	jb	.Lunix_path_BB46_4
	movq	%r15, %rcx
	subq	%rax, %rcx
	cmpq	$32, %rcx
	jae	.Lunix_path_BB46_38
	jmp	.Lunix_path_BB46_40
.Lunix_path_BB46_29:
	cmpb	$-17, %sil
	ja	.Lunix_path_BB46_48
	cmpq	$3, %rax
	jb	.Lunix_path_BB46_55
	movzbl	1(%r14,%rcx), %r8d
	cmpb	$-65, %r8b
	jg	.Lunix_path_BB46_60
	cmpb	$-65, 2(%r14,%rcx)
	jg	.Lunix_path_BB46_60
	movzbl	%r8b, %edi
	movl	%esi, %r9d
	shll	$6, %r9d
	addl	%edi, %r9d
	addl	$-14464, %r9d
	cmpl	$32, %r9d
	jb	.Lunix_path_BB46_60
	xorl	%r8d, %r8d
	cmpl	$896, %r9d
	setae	%r10b
	movl	$3, %edi
	cmpl	$864, %r9d
	jb	.Lunix_path_BB46_3
	movb	%r10b, %r8b
	leaq	(%r8,%r8,2), %rdi
	testq	%rdi, %rdi
	jne	.Lunix_path_BB46_3
	jmp	.Lunix_path_BB46_54
.Lunix_path_BB46_36:
	movq	%rcx, %rdi
	jmp	.Lunix_path_BB46_4
.Lunix_path_BB46_37:
	addq	$8, %rcx
	movq	%rcx, %rax
	movq	%r15, %rcx
	subq	%rax, %rcx
	cmpq	$32, %rcx
	jb	.Lunix_path_BB46_40
	.p2align	4
.Lunix_path_BB46_38:
	movdqu	(%r14,%rax), %xmm0
	movdqu	16(%r14,%rax), %xmm1
	por	%xmm0, %xmm1
	pshufd	$238, %xmm1, %xmm0
	por	%xmm1, %xmm0
	movq	%xmm0, %rcx
	testq	%r12, %rcx
	jne	.Lunix_path_BB46_40
	addq	$32, %rax
	movq	%rsp, %rdi
	movq	%rax, %rsi
	movq	%r15, %rdx
	callq	core.slice.words.skip_far.52f9edcae2f82f51.
	movq	%r15, %rcx
	subq	%rax, %rcx
	cmpq	$31, %rcx
	ja	.Lunix_path_BB46_38
.Lunix_path_BB46_40:
	movq	%r15, %rcx
	subq	%rax, %rcx
	jmp	.Lunix_path_BB46_43
	.p2align	4
.Lunix_path_BB46_41:
	rep		bsfq	%rdx, %rdi
	shrl	$3, %edi
	addq	%rax, %rdi
	addq	$8, %rax
	addq	$-8, %rcx
	cmpq	%rax, %rdi
	jb	.Lunix_path_BB46_4
.Lunix_path_BB46_43:
	cmpq	$9, %rcx
	jb	.Lunix_path_BB46_46
	movq	(%r14,%rax), %rdx
	andq	%r12, %rdx
	jne	.Lunix_path_BB46_41
	leaq	8(%rax), %rdi
	addq	$8, %rax
	addq	$-8, %rcx
	cmpq	%rax, %rdi
	jae	.Lunix_path_BB46_43
	jmp	.Lunix_path_BB46_4
.Lunix_path_BB46_46:
	movq	(%r14,%r13), %rax
	andq	%r12, %rax
	je	.Lunix_path_BB46_57
	rep		bsfq	%rax, %rdi
	shrl	$3, %edi
	addq	%r13, %rdi
	jmp	.Lunix_path_BB46_4
.Lunix_path_BB46_48:
	cmpq	$4, %rax
	jb	.Lunix_path_BB46_54
	movzbl	1(%r14,%rcx), %edi
	cmpb	$-65, %dil
	jg	.Lunix_path_BB46_54
	cmpb	$-65, 2(%r14,%rcx)
	jg	.Lunix_path_BB46_54
	cmpb	$-65, 3(%r14,%rcx)
	jg	.Lunix_path_BB46_54
	movl	%esi, %r8d
	shll	$6, %r8d
	leal	(%r8,%rdi), %r9d
	addl	$-15488, %r9d
	xorl	%edi, %edi
	cmpl	$272, %r9d
	setb	%r8b
	cmpl	$16, %r9d
	jb	.Lunix_path_BB46_54
	movb	%r8b, %dil
	shll	$2, %edi
	testq	%rdi, %rdi
	jne	.Lunix_path_BB46_3
.Lunix_path_BB46_54:
	cmpb	$-12, %sil
	ja	.Lunix_path_BB46_66
.Lunix_path_BB46_55:
	cmpq	$2, %rax
	jb	.Lunix_path_BB46_58
	movzbl	1(%r14,%rcx), %r8d
.Lunix_path_BB46_60:
	cmpl	$240, %esi
	sete	%dil
	shlb	$4, %dil
	orb	$-128, %dil
	cmpl	$224, %esi
	movzbl	%dil, %edi
	movl	$160, %r9d
	cmovnel	%edi, %r9d
	cmpl	$244, %esi
	movl	$143, %edi
	movl	$191, %r10d
	cmovel	%edi, %r10d
	cmpl	$237, %esi
	movl	$159, %esi
	cmovnel	%r10d, %esi
	cmpb	%r8b, %r9b
	ja	.Lunix_path_BB46_66
	cmpb	%sil, %r8b
	ja	.Lunix_path_BB46_66
	cmpq	$2, %rax
	jne	.Lunix_path_BB46_64
.Lunix_path_BB46_58:
	xorl	%edx, %edx
.Lunix_path_BB46_66:
	movq	$1, (%rbx)
	movq	%rcx, 8(%rbx)
	movq	%rdx, 16(%rbx)
	jmp	.Lunix_path_BB46_67
.Lunix_path_BB46_57:
	movq	$0, (%rbx)
	movq	%r14, 8(%rbx)
	movq	%r15, 16(%rbx)
.Lunix_path_BB46_67:
	addq	$16, %rsp
	popq	%rbx
	popq	%r12
	popq	%r13
	popq	%r14
	popq	%r15
	retq
.Lunix_path_BB46_64:
	movl	$513, %edx
	cmpb	$-65, 2(%r14,%rcx)
	jg	.Lunix_path_BB46_66
	xorl	%esi, %esi
	cmpq	$4, %rax
	movl	$769, %edx
	cmovbq	%rsi, %rdx
	jmp	.Lunix_path_BB46_66
.Lunix_path_func_end46:
	.size	core.str.utf8.from_utf8, .Lunix_path_func_end46-core.str.utf8.from_utf8
	.section	.text.core.slice.words.skip_far.52f9edcae2f82f51.,"ax",@progbits
	.p2align	4
	.type	core.slice.words.skip_far.52f9edcae2f82f51.,@function
# core::slice::words::skip_far::<#52f9edcae2f82f51>
core.slice.words.skip_far.52f9edcae2f82f51.:
	movq	%rsi, %rax
	subq	%rsi, %rdx
	cmpq	$64, %rdx
	jb	.Lunix_path_BB47_4
	movq	(%rdi), %rcx
	.p2align	4
.Lunix_path_BB47_2:
	movdqu	(%rcx,%rax), %xmm0
	movdqu	16(%rcx,%rax), %xmm1
	movdqu	32(%rcx,%rax), %xmm2
	por	%xmm0, %xmm2
	movdqu	48(%rcx,%rax), %xmm0
	por	%xmm1, %xmm0
	por	%xmm2, %xmm0
	pshufd	$238, %xmm0, %xmm1
	por	%xmm0, %xmm1
	movq	%xmm1, %rsi
	movabsq	$-9187201950435737472, %rdi
	testq	%rdi, %rsi
	jne	.Lunix_path_BB47_4
	addq	$64, %rax
	addq	$-64, %rdx
	cmpq	$63, %rdx
	ja	.Lunix_path_BB47_2
.Lunix_path_BB47_4:
	retq
.Lunix_path_func_end47:
	.size	core.slice.words.skip_far.52f9edcae2f82f51., .Lunix_path_func_end47-core.slice.words.skip_far.52f9edcae2f82f51.
	.section	.text.pathtool.serde_json.value.Value.Destruct.drop,"ax",@progbits
	.p2align	4
	.type	pathtool.serde_json.value.Value.Destruct.drop,@function
# pathtool::serde_json++value++Value+Destruct::drop
pathtool.serde_json.value.Value.Destruct.drop:
	pushq	%r15
	pushq	%r14
	pushq	%r13
	pushq	%r12
	pushq	%rbx
	subq	$32, %rsp
	movzbl	(%rdi), %eax
	movq	8(%rdi), %rbx
	movq	16(%rdi), %r14
	movq	24(%rdi), %r15
	leaq	.Lunix_path_JTI48_0(%rip), %rcx
	movslq	(%rcx,%rax,4), %rax
	addq	%rcx, %rax
	jmpq	*%rax
.Lunix_path_BB48_7:
	addq	$32, %rsp
	popq	%rbx
	popq	%r12
	popq	%r13
	popq	%r14
	popq	%r15
	retq
.Lunix_path_BB48_6:
	cmpb	$1, %bl
	jne	.Lunix_path_BB48_7
	movq	%r14, %rdi
	addq	$32, %rsp
	popq	%rbx
	popq	%r12
	popq	%r13
	popq	%r14
	popq	%r15
	jmp	std_collections.btree.node.Node.destroy.60b19ca0713cc2a9.
.Lunix_path_BB48_3:
	testq	%r14, %r14
	je	.Lunix_path_BB48_1
	leaq	8(%rsp), %r12
	movq	%rbx, %r13
	.p2align	4
.Lunix_path_BB48_5:
	movzwl	(%r13), %eax
	movq	$0, (%rsp)
	movw	%ax, (%rsp)
	movq	24(%r13), %rax
	movq	%rax, 16(%r12)
	movups	8(%r13), %xmm0
	movups	%xmm0, (%r12)
	movq	%rsp, %rdi
	callq	pathtool.serde_json.value.Value.Destruct.drop
	addq	$32, %r13
	decq	%r14
	jne	.Lunix_path_BB48_5
.Lunix_path_BB48_1:
	testq	%r15, %r15
	je	.Lunix_path_BB48_7
	movq	%rbx, %rdi
	addq	$32, %rsp
	popq	%rbx
	popq	%r12
	popq	%r13
	popq	%r14
	popq	%r15
	jmp	rattle_dealloc@PLT
.Lunix_path_func_end48:
	.size	pathtool.serde_json.value.Value.Destruct.drop, .Lunix_path_func_end48-pathtool.serde_json.value.Value.Destruct.drop
	.section	.rodata.pathtool.serde_json.value.Value.Destruct.drop,"a",@progbits
	.p2align	2, 0x0
.Lunix_path_JTI48_0:
	.long	.Lunix_path_BB48_7-.Lunix_path_JTI48_0
	.long	.Lunix_path_BB48_7-.Lunix_path_JTI48_0
	.long	.Lunix_path_BB48_7-.Lunix_path_JTI48_0
	.long	.Lunix_path_BB48_1-.Lunix_path_JTI48_0
	.long	.Lunix_path_BB48_3-.Lunix_path_JTI48_0
	.long	.Lunix_path_BB48_6-.Lunix_path_JTI48_0
	.section	.text.std_collections.btree.node.Node.destroy.60b19ca0713cc2a9.,"ax",@progbits
	.p2align	4
	.type	std_collections.btree.node.Node.destroy.60b19ca0713cc2a9.,@function
# std_collections::btree::node::Node::destroy::<#60b19ca0713cc2a9>
std_collections.btree.node.Node.destroy.60b19ca0713cc2a9.:
	pushq	%rbp
	pushq	%r15
	pushq	%r14
	pushq	%r13
	pushq	%r12
	pushq	%rbx
	subq	$168, %rsp
	movq	%rdi, %rbx
	xorps	%xmm0, %xmm0
	movups	%xmm0, 110(%rsp)
	movaps	%xmm0, 96(%rsp)
	movzwl	(%rdi), %ebp
	leaq	368(%rdi), %r14
	leaq	8(%rdi), %r15
	cmpw	$0, 2(%rdi)
	movq	%rdi, 32(%rsp)
	je	.Lunix_path_BB49_5
	movq	%r14, 72(%rsp)
	testq	%rbp, %rbp
	je	.Lunix_path_BB49_84
	leaq	1(%rbp), %r13
	leaq	848(%rbx), %rax
	movq	%rax, 64(%rsp)
	leaq	376(%rbx), %rax
	movq	%rax, 48(%rsp)
	leaq	904(%rbx), %rax
	movq	%rax, 80(%rsp)
	leaq	-86(%rbp), %rax
	movq	%rax, 56(%rsp)
	leaq	(%rbp,%rbp,2), %rax
	leaq	(%rbx,%rax,8), %r14
	addq	$-16, %r14
	leaq	440(%rbx), %rax
	movq	%rax, 40(%rsp)
	jmp	.Lunix_path_BB49_3
	.p2align	4
.Lunix_path_BB49_83:
	movb	%r12b, (%rsp)
	movb	%bl, 1(%rsp)
	leaq	102(%rsp), %rdx
	movq	16(%rdx), %rax
	leaq	6(%rsp), %rcx
	movq	%rax, 18(%rcx)
	movups	(%rdx), %xmm0
	movups	%xmm0, 2(%rcx)
	movq	%rsp, %rdi
	callq	pathtool.serde_json.value.Value.Destruct.drop
	decq	56(%rsp)
	addq	$-24, %r14
	testq	%rbp, %rbp
	movq	32(%rsp), %rbx
	je	.Lunix_path_BB49_84
.Lunix_path_BB49_3:
	movq	64(%rsp), %rax
	movq	(%rax), %r12
	decq	%r13
	xorl	%eax, %eax
	cmpq	$257, %r13
	jb	.Lunix_path_BB49_4
	movq	80(%rsp), %rcx
	.p2align	4
.Lunix_path_BB49_53:
	xorl	%edx, %edx
	.p2align	4
.Lunix_path_BB49_54:
	movups	-48(%rcx,%rdx,8), %xmm0
	movups	-32(%rcx,%rdx,8), %xmm1
	movups	-16(%rcx,%rdx,8), %xmm2
	movups	(%rcx,%rdx,8), %xmm3
	movups	%xmm0, -56(%rcx,%rdx,8)
	movups	%xmm1, -40(%rcx,%rdx,8)
	movups	%xmm2, -24(%rcx,%rdx,8)
	movups	%xmm3, -8(%rcx,%rdx,8)
	addq	$8, %rdx
	cmpq	$256, %rdx
	jne	.Lunix_path_BB49_54
	addq	$256, %rax
	movq	%r13, %rdx
	subq	%rax, %rdx
	addq	$2048, %rcx
	cmpq	$256, %rdx
	ja	.Lunix_path_BB49_53
	cmpq	%rax, %r13
	je	.Lunix_path_BB49_58
.Lunix_path_BB49_57:
	movq	64(%rsp), %rcx
	leaq	(%rcx,%rax,8), %rdi
	leaq	(%rcx,%rax,8), %rsi
	addq	$8, %rsi
	shlq	$3, %rdx
	callq	memmove@PLT
.Lunix_path_BB49_58:
	movq	%r12, %rdi
	callq	std_collections.btree.node.Node.destroy.60b19ca0713cc2a9.
	xorps	%xmm0, %xmm0
	movups	%xmm0, 142(%rsp)
	movaps	%xmm0, 128(%rsp)
	movq	8(%rbx), %r9
	movq	24(%rbx), %r10
	decq	%rbp
	xorl	%ecx, %ecx
	cmpq	$86, %rbp
	jb	.Lunix_path_BB49_59
	.p2align	4
.Lunix_path_BB49_60:
	movq	%rcx, %rax
	leaq	(%rcx,%rcx,2), %rcx
	movq	40(%r15,%rcx,8), %rdx
	movq	%rdx, 16(%r15,%rcx,8)
	movups	24(%r15,%rcx,8), %xmm0
	movups	%xmm0, (%r15,%rcx,8)
	movups	48(%r15,%rcx,8), %xmm0
	movups	%xmm0, 24(%r15,%rcx,8)
	movq	64(%r15,%rcx,8), %rdx
	movq	%rdx, 40(%r15,%rcx,8)
	movups	72(%r15,%rcx,8), %xmm0
	movups	%xmm0, 48(%r15,%rcx,8)
	movq	88(%r15,%rcx,8), %rdx
	movq	%rdx, 64(%r15,%rcx,8)
	movups	96(%r15,%rcx,8), %xmm0
	movups	%xmm0, 72(%r15,%rcx,8)
	movq	112(%r15,%rcx,8), %rdx
	movq	%rdx, 88(%r15,%rcx,8)
	movq	136(%r15,%rcx,8), %rdx
	movq	%rdx, 112(%r15,%rcx,8)
	movups	120(%r15,%rcx,8), %xmm0
	movups	%xmm0, 96(%r15,%rcx,8)
	movq	160(%r15,%rcx,8), %rdx
	movq	%rdx, 136(%r15,%rcx,8)
	movups	144(%r15,%rcx,8), %xmm0
	movups	%xmm0, 120(%r15,%rcx,8)
	movq	184(%r15,%rcx,8), %rdx
	movq	%rdx, 160(%r15,%rcx,8)
	movups	168(%r15,%rcx,8), %xmm0
	movups	%xmm0, 144(%r15,%rcx,8)
	movq	208(%r15,%rcx,8), %rdx
	movq	%rdx, 184(%r15,%rcx,8)
	movups	192(%r15,%rcx,8), %xmm0
	movups	%xmm0, 168(%r15,%rcx,8)
	movq	232(%r15,%rcx,8), %rdx
	movq	%rdx, 208(%r15,%rcx,8)
	movups	216(%r15,%rcx,8), %xmm0
	movups	%xmm0, 192(%r15,%rcx,8)
	movq	256(%r15,%rcx,8), %rdx
	movq	%rdx, 232(%r15,%rcx,8)
	movups	240(%r15,%rcx,8), %xmm0
	movups	%xmm0, 216(%r15,%rcx,8)
	movq	280(%r15,%rcx,8), %rdx
	movq	%rdx, 256(%r15,%rcx,8)
	movups	264(%r15,%rcx,8), %xmm0
	movups	%xmm0, 240(%r15,%rcx,8)
	movq	304(%r15,%rcx,8), %rdx
	movq	%rdx, 280(%r15,%rcx,8)
	movups	288(%r15,%rcx,8), %xmm0
	movups	%xmm0, 264(%r15,%rcx,8)
	movq	328(%r15,%rcx,8), %rdx
	movq	%rdx, 304(%r15,%rcx,8)
	movups	312(%r15,%rcx,8), %xmm0
	movups	%xmm0, 288(%r15,%rcx,8)
	movq	352(%r15,%rcx,8), %rdx
	movq	%rdx, 328(%r15,%rcx,8)
	movups	336(%r15,%rcx,8), %xmm0
	movups	%xmm0, 312(%r15,%rcx,8)
	movq	376(%r15,%rcx,8), %rdx
	movq	%rdx, 352(%r15,%rcx,8)
	movups	360(%r15,%rcx,8), %xmm0
	movups	%xmm0, 336(%r15,%rcx,8)
	movq	400(%r15,%rcx,8), %rdx
	movq	%rdx, 376(%r15,%rcx,8)
	movups	384(%r15,%rcx,8), %xmm0
	movups	%xmm0, 360(%r15,%rcx,8)
	movq	424(%r15,%rcx,8), %rdx
	movq	%rdx, 400(%r15,%rcx,8)
	movups	408(%r15,%rcx,8), %xmm0
	movups	%xmm0, 384(%r15,%rcx,8)
	movq	448(%r15,%rcx,8), %rdx
	movq	%rdx, 424(%r15,%rcx,8)
	movups	432(%r15,%rcx,8), %xmm0
	movups	%xmm0, 408(%r15,%rcx,8)
	movq	472(%r15,%rcx,8), %rdx
	movq	%rdx, 448(%r15,%rcx,8)
	movups	456(%r15,%rcx,8), %xmm0
	movups	%xmm0, 432(%r15,%rcx,8)
	movq	496(%r15,%rcx,8), %rdx
	movq	%rdx, 472(%r15,%rcx,8)
	movups	480(%r15,%rcx,8), %xmm0
	movups	%xmm0, 456(%r15,%rcx,8)
	movq	520(%r15,%rcx,8), %rdx
	movq	%rdx, 496(%r15,%rcx,8)
	movups	504(%r15,%rcx,8), %xmm0
	movups	%xmm0, 480(%r15,%rcx,8)
	movq	544(%r15,%rcx,8), %rdx
	movq	%rdx, 520(%r15,%rcx,8)
	movups	528(%r15,%rcx,8), %xmm0
	movups	%xmm0, 504(%r15,%rcx,8)
	movq	568(%r15,%rcx,8), %rdx
	movq	%rdx, 544(%r15,%rcx,8)
	movups	552(%r15,%rcx,8), %xmm0
	movups	%xmm0, 528(%r15,%rcx,8)
	movq	592(%r15,%rcx,8), %rdx
	movq	%rdx, 568(%r15,%rcx,8)
	movups	576(%r15,%rcx,8), %xmm0
	movups	%xmm0, 552(%r15,%rcx,8)
	movq	616(%r15,%rcx,8), %rdx
	movq	%rdx, 592(%r15,%rcx,8)
	movups	600(%r15,%rcx,8), %xmm0
	movups	%xmm0, 576(%r15,%rcx,8)
	movq	640(%r15,%rcx,8), %rdx
	movq	%rdx, 616(%r15,%rcx,8)
	movups	624(%r15,%rcx,8), %xmm0
	movups	%xmm0, 600(%r15,%rcx,8)
	movq	664(%r15,%rcx,8), %rdx
	movq	%rdx, 640(%r15,%rcx,8)
	movups	648(%r15,%rcx,8), %xmm0
	movups	%xmm0, 624(%r15,%rcx,8)
	movq	688(%r15,%rcx,8), %rdx
	movq	%rdx, 664(%r15,%rcx,8)
	movups	672(%r15,%rcx,8), %xmm0
	movups	%xmm0, 648(%r15,%rcx,8)
	movq	712(%r15,%rcx,8), %rdx
	movq	%rdx, 688(%r15,%rcx,8)
	movups	696(%r15,%rcx,8), %xmm0
	movups	%xmm0, 672(%r15,%rcx,8)
	movq	736(%r15,%rcx,8), %rdx
	movq	%rdx, 712(%r15,%rcx,8)
	movups	720(%r15,%rcx,8), %xmm0
	movups	%xmm0, 696(%r15,%rcx,8)
	movq	760(%r15,%rcx,8), %rdx
	movq	%rdx, 736(%r15,%rcx,8)
	movups	744(%r15,%rcx,8), %xmm0
	movups	%xmm0, 720(%r15,%rcx,8)
	movq	784(%r15,%rcx,8), %rdx
	movq	%rdx, 760(%r15,%rcx,8)
	movups	768(%r15,%rcx,8), %xmm0
	movups	%xmm0, 744(%r15,%rcx,8)
	movq	808(%r15,%rcx,8), %rdx
	movq	%rdx, 784(%r15,%rcx,8)
	movups	792(%r15,%rcx,8), %xmm0
	movups	%xmm0, 768(%r15,%rcx,8)
	movq	832(%r15,%rcx,8), %rdx
	movq	%rdx, 808(%r15,%rcx,8)
	movups	816(%r15,%rcx,8), %xmm0
	movups	%xmm0, 792(%r15,%rcx,8)
	movq	856(%r15,%rcx,8), %rdx
	movq	%rdx, 832(%r15,%rcx,8)
	movups	840(%r15,%rcx,8), %xmm0
	movups	%xmm0, 816(%r15,%rcx,8)
	movq	880(%r15,%rcx,8), %rdx
	movq	%rdx, 856(%r15,%rcx,8)
	movups	864(%r15,%rcx,8), %xmm0
	movups	%xmm0, 840(%r15,%rcx,8)
	movq	904(%r15,%rcx,8), %rdx
	movq	%rdx, 880(%r15,%rcx,8)
	movups	888(%r15,%rcx,8), %xmm0
	movups	%xmm0, 864(%r15,%rcx,8)
	movq	928(%r15,%rcx,8), %rdx
	movq	%rdx, 904(%r15,%rcx,8)
	movups	912(%r15,%rcx,8), %xmm0
	movups	%xmm0, 888(%r15,%rcx,8)
	movq	952(%r15,%rcx,8), %rdx
	movq	%rdx, 928(%r15,%rcx,8)
	movups	936(%r15,%rcx,8), %xmm0
	movups	%xmm0, 912(%r15,%rcx,8)
	movq	976(%r15,%rcx,8), %rdx
	movq	%rdx, 952(%r15,%rcx,8)
	movups	960(%r15,%rcx,8), %xmm0
	movups	%xmm0, 936(%r15,%rcx,8)
	movq	1000(%r15,%rcx,8), %rdx
	movq	%rdx, 976(%r15,%rcx,8)
	movups	984(%r15,%rcx,8), %xmm0
	movups	%xmm0, 960(%r15,%rcx,8)
	movq	1024(%r15,%rcx,8), %rdx
	movq	%rdx, 1000(%r15,%rcx,8)
	movups	1008(%r15,%rcx,8), %xmm0
	movups	%xmm0, 984(%r15,%rcx,8)
	movq	1048(%r15,%rcx,8), %rdx
	movq	%rdx, 1024(%r15,%rcx,8)
	movups	1032(%r15,%rcx,8), %xmm0
	movups	%xmm0, 1008(%r15,%rcx,8)
	movq	1072(%r15,%rcx,8), %rdx
	movq	%rdx, 1048(%r15,%rcx,8)
	movups	1056(%r15,%rcx,8), %xmm0
	movups	%xmm0, 1032(%r15,%rcx,8)
	movq	1096(%r15,%rcx,8), %rdx
	movq	%rdx, 1072(%r15,%rcx,8)
	movups	1080(%r15,%rcx,8), %xmm0
	movups	%xmm0, 1056(%r15,%rcx,8)
	movq	1120(%r15,%rcx,8), %rdx
	movq	%rdx, 1096(%r15,%rcx,8)
	movups	1104(%r15,%rcx,8), %xmm0
	movups	%xmm0, 1080(%r15,%rcx,8)
	movq	1144(%r15,%rcx,8), %rdx
	movq	%rdx, 1120(%r15,%rcx,8)
	movups	1128(%r15,%rcx,8), %xmm0
	movups	%xmm0, 1104(%r15,%rcx,8)
	movq	1168(%r15,%rcx,8), %rdx
	movq	%rdx, 1144(%r15,%rcx,8)
	movups	1152(%r15,%rcx,8), %xmm0
	movups	%xmm0, 1128(%r15,%rcx,8)
	movq	1192(%r15,%rcx,8), %rdx
	movq	%rdx, 1168(%r15,%rcx,8)
	movups	1176(%r15,%rcx,8), %xmm0
	movups	%xmm0, 1152(%r15,%rcx,8)
	movq	1216(%r15,%rcx,8), %rdx
	movq	%rdx, 1192(%r15,%rcx,8)
	movups	1200(%r15,%rcx,8), %xmm0
	movups	%xmm0, 1176(%r15,%rcx,8)
	movq	1240(%r15,%rcx,8), %rdx
	movq	%rdx, 1216(%r15,%rcx,8)
	movups	1224(%r15,%rcx,8), %xmm0
	movups	%xmm0, 1200(%r15,%rcx,8)
	movq	1264(%r15,%rcx,8), %rdx
	movq	%rdx, 1240(%r15,%rcx,8)
	movups	1248(%r15,%rcx,8), %xmm0
	movups	%xmm0, 1224(%r15,%rcx,8)
	movq	1288(%r15,%rcx,8), %rdx
	movq	%rdx, 1264(%r15,%rcx,8)
	movups	1272(%r15,%rcx,8), %xmm0
	movups	%xmm0, 1248(%r15,%rcx,8)
	movq	1312(%r15,%rcx,8), %rdx
	movq	%rdx, 1288(%r15,%rcx,8)
	movups	1296(%r15,%rcx,8), %xmm0
	movups	%xmm0, 1272(%r15,%rcx,8)
	movq	1336(%r15,%rcx,8), %rdx
	movq	%rdx, 1312(%r15,%rcx,8)
	movups	1320(%r15,%rcx,8), %xmm0
	movups	%xmm0, 1296(%r15,%rcx,8)
	movq	1360(%r15,%rcx,8), %rdx
	movq	%rdx, 1336(%r15,%rcx,8)
	movups	1344(%r15,%rcx,8), %xmm0
	movups	%xmm0, 1320(%r15,%rcx,8)
	movq	1384(%r15,%rcx,8), %rdx
	movq	%rdx, 1360(%r15,%rcx,8)
	movups	1368(%r15,%rcx,8), %xmm0
	movups	%xmm0, 1344(%r15,%rcx,8)
	movq	1408(%r15,%rcx,8), %rdx
	movq	%rdx, 1384(%r15,%rcx,8)
	movups	1392(%r15,%rcx,8), %xmm0
	movups	%xmm0, 1368(%r15,%rcx,8)
	movq	1432(%r15,%rcx,8), %rdx
	movq	%rdx, 1408(%r15,%rcx,8)
	movups	1416(%r15,%rcx,8), %xmm0
	movups	%xmm0, 1392(%r15,%rcx,8)
	movq	1456(%r15,%rcx,8), %rdx
	movq	%rdx, 1432(%r15,%rcx,8)
	movups	1440(%r15,%rcx,8), %xmm0
	movups	%xmm0, 1416(%r15,%rcx,8)
	movq	1480(%r15,%rcx,8), %rdx
	movq	%rdx, 1456(%r15,%rcx,8)
	movups	1464(%r15,%rcx,8), %xmm0
	movups	%xmm0, 1440(%r15,%rcx,8)
	movq	1504(%r15,%rcx,8), %rdx
	movq	%rdx, 1480(%r15,%rcx,8)
	movups	1488(%r15,%rcx,8), %xmm0
	movups	%xmm0, 1464(%r15,%rcx,8)
	movq	1528(%r15,%rcx,8), %rdx
	movq	%rdx, 1504(%r15,%rcx,8)
	movups	1512(%r15,%rcx,8), %xmm0
	movups	%xmm0, 1488(%r15,%rcx,8)
	movq	1552(%r15,%rcx,8), %rdx
	movq	%rdx, 1528(%r15,%rcx,8)
	movups	1536(%r15,%rcx,8), %xmm0
	movups	%xmm0, 1512(%r15,%rcx,8)
	movq	1576(%r15,%rcx,8), %rdx
	movq	%rdx, 1552(%r15,%rcx,8)
	movups	1560(%r15,%rcx,8), %xmm0
	movups	%xmm0, 1536(%r15,%rcx,8)
	movq	1600(%r15,%rcx,8), %rdx
	movq	%rdx, 1576(%r15,%rcx,8)
	movups	1584(%r15,%rcx,8), %xmm0
	movups	%xmm0, 1560(%r15,%rcx,8)
	movq	1624(%r15,%rcx,8), %rdx
	movq	%rdx, 1600(%r15,%rcx,8)
	movups	1608(%r15,%rcx,8), %xmm0
	movups	%xmm0, 1584(%r15,%rcx,8)
	movq	1648(%r15,%rcx,8), %rdx
	movq	%rdx, 1624(%r15,%rcx,8)
	movups	1632(%r15,%rcx,8), %xmm0
	movups	%xmm0, 1608(%r15,%rcx,8)
	movq	1672(%r15,%rcx,8), %rdx
	movq	%rdx, 1648(%r15,%rcx,8)
	movups	1656(%r15,%rcx,8), %xmm0
	movups	%xmm0, 1632(%r15,%rcx,8)
	movq	1696(%r15,%rcx,8), %rdx
	movq	%rdx, 1672(%r15,%rcx,8)
	movups	1680(%r15,%rcx,8), %xmm0
	movups	%xmm0, 1656(%r15,%rcx,8)
	movq	1720(%r15,%rcx,8), %rdx
	movq	%rdx, 1696(%r15,%rcx,8)
	movups	1704(%r15,%rcx,8), %xmm0
	movups	%xmm0, 1680(%r15,%rcx,8)
	movq	1744(%r15,%rcx,8), %rdx
	movq	%rdx, 1720(%r15,%rcx,8)
	movups	1728(%r15,%rcx,8), %xmm0
	movups	%xmm0, 1704(%r15,%rcx,8)
	movq	1768(%r15,%rcx,8), %rdx
	movq	%rdx, 1744(%r15,%rcx,8)
	movups	1752(%r15,%rcx,8), %xmm0
	movups	%xmm0, 1728(%r15,%rcx,8)
	movq	1792(%r15,%rcx,8), %rdx
	movq	%rdx, 1768(%r15,%rcx,8)
	movups	1776(%r15,%rcx,8), %xmm0
	movups	%xmm0, 1752(%r15,%rcx,8)
	movq	1816(%r15,%rcx,8), %rdx
	movq	%rdx, 1792(%r15,%rcx,8)
	movups	1800(%r15,%rcx,8), %xmm0
	movups	%xmm0, 1776(%r15,%rcx,8)
	movq	1840(%r15,%rcx,8), %rdx
	movq	%rdx, 1816(%r15,%rcx,8)
	movups	1824(%r15,%rcx,8), %xmm0
	movups	%xmm0, 1800(%r15,%rcx,8)
	movq	1864(%r15,%rcx,8), %rdx
	movq	%rdx, 1840(%r15,%rcx,8)
	movups	1848(%r15,%rcx,8), %xmm0
	movups	%xmm0, 1824(%r15,%rcx,8)
	movq	1888(%r15,%rcx,8), %rdx
	movq	%rdx, 1864(%r15,%rcx,8)
	movups	1872(%r15,%rcx,8), %xmm0
	movups	%xmm0, 1848(%r15,%rcx,8)
	movq	1912(%r15,%rcx,8), %rdx
	movq	%rdx, 1888(%r15,%rcx,8)
	movups	1896(%r15,%rcx,8), %xmm0
	movups	%xmm0, 1872(%r15,%rcx,8)
	movq	1936(%r15,%rcx,8), %rdx
	movq	%rdx, 1912(%r15,%rcx,8)
	movups	1920(%r15,%rcx,8), %xmm0
	movups	%xmm0, 1896(%r15,%rcx,8)
	movq	1960(%r15,%rcx,8), %rdx
	movq	%rdx, 1936(%r15,%rcx,8)
	movups	1944(%r15,%rcx,8), %xmm0
	movups	%xmm0, 1920(%r15,%rcx,8)
	movq	1984(%r15,%rcx,8), %rdx
	movq	%rdx, 1960(%r15,%rcx,8)
	movups	1968(%r15,%rcx,8), %xmm0
	movups	%xmm0, 1944(%r15,%rcx,8)
	movq	2008(%r15,%rcx,8), %rdx
	movq	%rdx, 1984(%r15,%rcx,8)
	movups	1992(%r15,%rcx,8), %xmm0
	movups	%xmm0, 1968(%r15,%rcx,8)
	movq	2032(%r15,%rcx,8), %rdx
	movq	%rdx, 2008(%r15,%rcx,8)
	movups	2016(%r15,%rcx,8), %xmm0
	movups	%xmm0, 1992(%r15,%rcx,8)
	movq	2056(%r15,%rcx,8), %rdx
	movq	%rdx, 2032(%r15,%rcx,8)
	movups	2040(%r15,%rcx,8), %xmm0
	movups	%xmm0, 2016(%r15,%rcx,8)
	leaq	85(%rax), %rcx
	movq	%rbp, %rdx
	subq	%rcx, %rdx
	cmpq	$85, %rdx
	ja	.Lunix_path_BB49_60
	cmpq	$-1, %rcx
	je	.Lunix_path_BB49_67
	leaq	(%rcx,%rcx,2), %rax
	leaq	(%r15,%rax,8), %rdi
	cmpq	%rcx, %rbp
	jne	.Lunix_path_BB49_64
	jmp	.Lunix_path_BB49_65
	.p2align	4
.Lunix_path_BB49_4:
	movq	%r13, %rdx
	cmpq	%rax, %r13
	jne	.Lunix_path_BB49_57
	jmp	.Lunix_path_BB49_58
	.p2align	4
.Lunix_path_BB49_59:
	movq	%r15, %rdi
	movq	%rbp, %rdx
	cmpq	%rcx, %rbp
	je	.Lunix_path_BB49_65
.Lunix_path_BB49_64:
	leaq	24(%rdi), %rsi
	shlq	$3, %rdx
	leaq	(%rdx,%rdx,2), %rdx
	movq	%r9, %r12
	movq	%r13, 88(%rsp)
	movq	%rbx, %r13
	movq	%r14, %rbx
	movq	%r10, %r14
	callq	memmove@PLT
	movq	%r14, %r10
	movq	%rbx, %r14
	movq	%r13, %rbx
	movq	88(%rsp), %r13
	movq	%r12, %r9
.Lunix_path_BB49_65:
	movzbl	368(%rbx), %r12d
	movzbl	369(%rbx), %ebx
	movq	48(%rsp), %rcx
	movq	16(%rcx), %rax
	leaq	6(%rsp), %rdx
	movq	%rax, 16(%rdx)
	movups	(%rcx), %xmm0
	movups	%xmm0, (%rdx)
	cmpq	$65, %rbp
	jae	.Lunix_path_BB49_70
	xorl	%eax, %eax
	movq	%rbp, %rcx
	jmp	.Lunix_path_BB49_74
.Lunix_path_BB49_67:
	movq	56(%rsp), %rcx
	subq	%rax, %rcx
	movq	%r14, %rax
	.p2align	4
.Lunix_path_BB49_68:
	movq	16(%rax), %rdx
	movq	%rdx, -8(%rax)
	movups	(%rax), %xmm0
	movups	%xmm0, -24(%rax)
	addq	$-24, %rax
	decq	%rcx
	jne	.Lunix_path_BB49_68
	movzbl	368(%rbx), %r12d
	movzbl	369(%rbx), %ebx
	movq	48(%rsp), %rcx
	movq	16(%rcx), %rax
	leaq	6(%rsp), %rdx
	movq	%rax, 16(%rdx)
	movups	(%rcx), %xmm0
	movups	%xmm0, (%rdx)
.Lunix_path_BB49_70:
	xorl	%eax, %eax
	movq	40(%rsp), %rdx
	.p2align	4
.Lunix_path_BB49_71:
	xorl	%ecx, %ecx
	.p2align	4
.Lunix_path_BB49_72:
	movzwl	-40(%rdx,%rcx), %esi
	movw	%si, -72(%rdx,%rcx)
	movups	-32(%rdx,%rcx), %xmm0
	movups	%xmm0, -64(%rdx,%rcx)
	movq	-16(%rdx,%rcx), %rsi
	movq	%rsi, -48(%rdx,%rcx)
	movzwl	-8(%rdx,%rcx), %esi
	movw	%si, -40(%rdx,%rcx)
	movups	(%rdx,%rcx), %xmm0
	movups	%xmm0, -32(%rdx,%rcx)
	movq	16(%rdx,%rcx), %rsi
	movq	%rsi, -16(%rdx,%rcx)
	addq	$64, %rcx
	cmpq	$2048, %rcx
	jne	.Lunix_path_BB49_72
	addq	$64, %rax
	movq	%rbp, %rcx
	subq	%rax, %rcx
	addq	$2048, %rdx
	cmpq	$64, %rcx
	ja	.Lunix_path_BB49_71
.Lunix_path_BB49_74:
	cmpq	%rax, %rbp
	je	.Lunix_path_BB49_81
	shlq	$5, %rax
	cmpq	$1, %rcx
	jne	.Lunix_path_BB49_77
	xorl	%edx, %edx
	jmp	.Lunix_path_BB49_80
	.p2align	4
.Lunix_path_BB49_77:
	movl	%ecx, %esi
	andl	$126, %esi
	movq	40(%rsp), %rdx
	leaq	(%rdx,%rax), %rdi
	xorl	%edx, %edx
	.p2align	4
.Lunix_path_BB49_78:
	movzwl	-40(%rdi), %r8d
	movw	%r8w, -72(%rdi)
	movups	-32(%rdi), %xmm0
	movups	%xmm0, -64(%rdi)
	movq	-16(%rdi), %r8
	movq	%r8, -48(%rdi)
	movzwl	-8(%rdi), %r8d
	movw	%r8w, -40(%rdi)
	movups	(%rdi), %xmm0
	movups	%xmm0, -32(%rdi)
	movq	16(%rdi), %r8
	movq	%r8, -16(%rdi)
	addq	$2, %rdx
	addq	$64, %rdi
	cmpq	%rdx, %rsi
	jne	.Lunix_path_BB49_78
	testb	$1, %cl
	je	.Lunix_path_BB49_81
.Lunix_path_BB49_80:
	movq	72(%rsp), %rsi
	leaq	(%rsi,%rax), %rcx
	addq	%rsi, %rax
	addq	$32, %rax
	shlq	$5, %rdx
	movzwl	32(%rcx,%rdx), %esi
	movw	%si, (%rcx,%rdx)
	movups	8(%rax,%rdx), %xmm0
	movups	%xmm0, 8(%rcx,%rdx)
	movq	24(%rax,%rdx), %rax
	movq	%rax, 24(%rcx,%rdx)
.Lunix_path_BB49_81:
	leaq	6(%rsp), %rcx
	movq	16(%rcx), %rax
	leaq	134(%rsp), %rdx
	movq	%rax, 16(%rdx)
	movups	(%rcx), %xmm0
	movups	%xmm0, (%rdx)
	movq	16(%rdx), %rax
	leaq	102(%rsp), %rcx
	movq	%rax, 16(%rcx)
	movups	(%rdx), %xmm0
	movups	%xmm0, (%rcx)
	movq	$0, (%rsp)
	testq	%r10, %r10
	je	.Lunix_path_BB49_83
	movq	%r9, %rdi
	callq	rattle_dealloc@PLT
	jmp	.Lunix_path_BB49_83
.Lunix_path_BB49_84:
	movq	848(%rbx), %rdi
	callq	std_collections.btree.node.Node.destroy.60b19ca0713cc2a9.
	movq	%rbx, %rdi
	jmp	.Lunix_path_BB49_51
.Lunix_path_BB49_5:
	cmpw	$15, %bp
	jbe	.Lunix_path_BB49_6
	movl	%ebp, %r12d
	shrl	%r12d
	movq	%rbp, %r13
	subq	%r12, %r13
	leaq	(,%r13,2), %rax
	addq	%r13, %rax
	leaq	(%r15,%rax,8), %rsi
	movq	%r15, %rdi
	movq	%r12, %rdx
	callq	core.slice.edits.mirror.483ec8513fd57e54.
	shlq	$5, %r13
	addq	%r14, %r13
	movq	%r14, %rdi
	movq	%r13, %rsi
	movq	%r12, %rdx
	callq	core.slice.edits.mirror.24.serde_json.value.Value.
	jmp	.Lunix_path_BB49_46
.Lunix_path_BB49_6:
	cmpw	$2, %bp
	jb	.Lunix_path_BB49_45
	leaq	-2(%rbp), %rdx
	movq	%rdx, %rax
	shrq	%rax
	movq	%rbp, %rcx
	decq	%rcx
	je	.Lunix_path_BB49_9
	leaq	(%rcx,%rcx,2), %rsi
	movq	16(%r15), %rdi
	movq	%rdi, 16(%rsp)
	movups	(%r15), %xmm0
	movaps	%xmm0, (%rsp)
	movq	16(%r15,%rsi,8), %rdi
	movups	(%r15,%rsi,8), %xmm0
	movups	%xmm0, (%r15)
	movq	%rdi, 16(%r15)
	movq	16(%rsp), %rdi
	movq	%rdi, 16(%r15,%rsi,8)
	movaps	(%rsp), %xmm0
	movups	%xmm0, (%r15,%rsi,8)
.Lunix_path_BB49_9:
	testq	%rax, %rax
	je	.Lunix_path_BB49_39
	cmpq	$1, %rdx
	jbe	.Lunix_path_BB49_11
	leaq	(%rdx,%rdx,2), %rdx
	movq	48(%rbx), %rsi
	movq	%rsi, 16(%rsp)
	movups	32(%rbx), %xmm0
	movaps	%xmm0, (%rsp)
	movq	16(%r15,%rdx,8), %rsi
	movups	(%r15,%rdx,8), %xmm0
	movups	%xmm0, 32(%rbx)
	movq	%rsi, 48(%rbx)
	movq	16(%rsp), %rsi
	movq	%rsi, 16(%r15,%rdx,8)
	movaps	(%rsp), %xmm0
	movups	%xmm0, (%r15,%rdx,8)
	jmp	.Lunix_path_BB49_14
.Lunix_path_BB49_11:
	testq	%rdx, %rdx
	jne	.Lunix_path_BB49_14
	leaq	(%rdx,%rdx,2), %rdx
	movq	16(%r15,%rdx,8), %rsi
	movq	%rsi, 16(%rsp)
	movups	(%r15,%rdx,8), %xmm0
	movaps	%xmm0, (%rsp)
	movq	48(%rbx), %rsi
	movups	32(%rbx), %xmm0
	movups	%xmm0, (%r15,%rdx,8)
	movq	%rsi, 16(%r15,%rdx,8)
	movq	16(%rsp), %rdx
	movq	%rdx, 48(%rbx)
	movaps	(%rsp), %xmm0
	movups	%xmm0, 32(%rbx)
.Lunix_path_BB49_14:
	cmpq	$1, %rax
	je	.Lunix_path_BB49_39
	leaq	-3(%rbp), %rdx
	cmpq	$2, %rdx
	jbe	.Lunix_path_BB49_16
	leaq	(%rdx,%rdx,2), %rdx
	movq	72(%rbx), %rsi
	movq	%rsi, 16(%rsp)
	movups	56(%rbx), %xmm0
	movaps	%xmm0, (%rsp)
	movq	16(%r15,%rdx,8), %rsi
	movups	(%r15,%rdx,8), %xmm0
	movups	%xmm0, 56(%rbx)
	movq	%rsi, 72(%rbx)
	movq	16(%rsp), %rsi
	movq	%rsi, 16(%r15,%rdx,8)
	movaps	(%rsp), %xmm0
	movups	%xmm0, (%r15,%rdx,8)
	jmp	.Lunix_path_BB49_19
.Lunix_path_BB49_16:
	cmpl	$2, %edx
	je	.Lunix_path_BB49_19
	leaq	(%rdx,%rdx,2), %rdx
	movq	16(%r15,%rdx,8), %rsi
	movq	%rsi, 16(%rsp)
	movups	(%r15,%rdx,8), %xmm0
	movaps	%xmm0, (%rsp)
	movq	72(%rbx), %rsi
	movups	56(%rbx), %xmm0
	movups	%xmm0, (%r15,%rdx,8)
	movq	%rsi, 16(%r15,%rdx,8)
	movq	16(%rsp), %rdx
	movq	%rdx, 72(%rbx)
	movaps	(%rsp), %xmm0
	movups	%xmm0, 56(%rbx)
.Lunix_path_BB49_19:
	cmpq	$2, %rax
	je	.Lunix_path_BB49_39
	leaq	-4(%rbp), %rdx
	cmpq	$3, %rdx
	jbe	.Lunix_path_BB49_21
	leaq	(%rdx,%rdx,2), %rdx
	movq	96(%rbx), %rsi
	movq	%rsi, 16(%rsp)
	movups	80(%rbx), %xmm0
	movaps	%xmm0, (%rsp)
	movq	16(%r15,%rdx,8), %rsi
	movups	(%r15,%rdx,8), %xmm0
	movups	%xmm0, 80(%rbx)
	movq	%rsi, 96(%rbx)
	movq	16(%rsp), %rsi
	movq	%rsi, 16(%r15,%rdx,8)
	movaps	(%rsp), %xmm0
	movups	%xmm0, (%r15,%rdx,8)
	jmp	.Lunix_path_BB49_24
.Lunix_path_BB49_21:
	cmpl	$3, %edx
	je	.Lunix_path_BB49_24
	leaq	(%rdx,%rdx,2), %rdx
	movq	16(%r15,%rdx,8), %rsi
	movq	%rsi, 16(%rsp)
	movups	(%r15,%rdx,8), %xmm0
	movaps	%xmm0, (%rsp)
	movq	96(%rbx), %rsi
	movups	80(%rbx), %xmm0
	movups	%xmm0, (%r15,%rdx,8)
	movq	%rsi, 16(%r15,%rdx,8)
	movq	16(%rsp), %rdx
	movq	%rdx, 96(%rbx)
	movaps	(%rsp), %xmm0
	movups	%xmm0, 80(%rbx)
.Lunix_path_BB49_24:
	cmpq	$3, %rax
	je	.Lunix_path_BB49_39
	leaq	-5(%rbp), %rdx
	cmpq	$4, %rdx
	jbe	.Lunix_path_BB49_26
	leaq	(%rdx,%rdx,2), %rdx
	movq	120(%rbx), %rsi
	movq	%rsi, 16(%rsp)
	movups	104(%rbx), %xmm0
	movaps	%xmm0, (%rsp)
	movq	16(%r15,%rdx,8), %rsi
	movups	(%r15,%rdx,8), %xmm0
	movups	%xmm0, 104(%rbx)
	movq	%rsi, 120(%rbx)
	movq	16(%rsp), %rsi
	movq	%rsi, 16(%r15,%rdx,8)
	movaps	(%rsp), %xmm0
	movups	%xmm0, (%r15,%rdx,8)
	jmp	.Lunix_path_BB49_29
.Lunix_path_BB49_26:
	cmpl	$4, %edx
	je	.Lunix_path_BB49_29
	leaq	(%rdx,%rdx,2), %rdx
	movq	16(%r15,%rdx,8), %rsi
	movq	%rsi, 16(%rsp)
	movups	(%r15,%rdx,8), %xmm0
	movaps	%xmm0, (%rsp)
	movq	120(%rbx), %rsi
	movups	104(%rbx), %xmm0
	movups	%xmm0, (%r15,%rdx,8)
	movq	%rsi, 16(%r15,%rdx,8)
	movq	16(%rsp), %rdx
	movq	%rdx, 120(%rbx)
	movaps	(%rsp), %xmm0
	movups	%xmm0, 104(%rbx)
.Lunix_path_BB49_29:
	cmpq	$4, %rax
	je	.Lunix_path_BB49_39
	leaq	-6(%rbp), %rdx
	cmpq	$5, %rdx
	jbe	.Lunix_path_BB49_31
	leaq	(%rdx,%rdx,2), %rdx
	movq	144(%rbx), %rsi
	movq	%rsi, 16(%rsp)
	movups	128(%rbx), %xmm0
	movaps	%xmm0, (%rsp)
	movq	16(%r15,%rdx,8), %rsi
	movups	(%r15,%rdx,8), %xmm0
	movups	%xmm0, 128(%rbx)
	movq	%rsi, 144(%rbx)
	movq	16(%rsp), %rsi
	movq	%rsi, 16(%r15,%rdx,8)
	movaps	(%rsp), %xmm0
	movups	%xmm0, (%r15,%rdx,8)
	jmp	.Lunix_path_BB49_34
.Lunix_path_BB49_31:
	cmpl	$5, %edx
	je	.Lunix_path_BB49_34
	leaq	(%rdx,%rdx,2), %rdx
	movq	16(%r15,%rdx,8), %rsi
	movq	%rsi, 16(%rsp)
	movups	(%r15,%rdx,8), %xmm0
	movaps	%xmm0, (%rsp)
	movq	144(%rbx), %rsi
	movups	128(%rbx), %xmm0
	movups	%xmm0, (%r15,%rdx,8)
	movq	%rsi, 16(%r15,%rdx,8)
	movq	16(%rsp), %rdx
	movq	%rdx, 144(%rbx)
	movaps	(%rsp), %xmm0
	movups	%xmm0, 128(%rbx)
.Lunix_path_BB49_34:
	cmpq	$5, %rax
	je	.Lunix_path_BB49_39
	leaq	-7(%rbp), %rdx
	cmpq	$6, %rdx
	jbe	.Lunix_path_BB49_36
	leaq	(%rdx,%rdx,2), %rdx
	movq	168(%rbx), %rsi
	movq	%rsi, 16(%rsp)
	movups	152(%rbx), %xmm0
	movaps	%xmm0, (%rsp)
	movq	16(%r15,%rdx,8), %rsi
	movups	(%r15,%rdx,8), %xmm0
	movups	%xmm0, 152(%rbx)
	movq	%rsi, 168(%rbx)
	movq	16(%rsp), %rsi
	movq	%rsi, 16(%r15,%rdx,8)
	movaps	(%rsp), %xmm0
	movups	%xmm0, (%r15,%rdx,8)
	jmp	.Lunix_path_BB49_39
.Lunix_path_BB49_36:
	cmpl	$6, %edx
	je	.Lunix_path_BB49_39
	leaq	(%rdx,%rdx,2), %rdx
	movq	16(%r15,%rdx,8), %rsi
	movq	%rsi, 16(%rsp)
	movups	(%r15,%rdx,8), %xmm0
	movaps	%xmm0, (%rsp)
	movq	168(%rbx), %rsi
	movups	152(%rbx), %xmm0
	movups	%xmm0, (%r15,%rdx,8)
	movq	%rsi, 16(%r15,%rdx,8)
	movq	16(%rsp), %rdx
	movq	%rdx, 168(%rbx)
	movaps	(%rsp), %xmm0
	movups	%xmm0, 152(%rbx)
.Lunix_path_BB49_39:
	leaq	6(%rsp), %rdx
	incq	%rax
	movl	%ebp, %esi
	shll	$5, %esi
	addq	%rbx, %rsi
	addq	$336, %rsi
	xorl	%edi, %edi
	jmp	.Lunix_path_BB49_40
	.p2align	4
.Lunix_path_BB49_41:
	movzwl	(%r14), %r8d
	movups	8(%r14), %xmm0
	movups	%xmm0, (%rdx)
	movq	24(%r14), %r9
	movq	%r9, 16(%rdx)
	movzwl	(%rsi), %r9d
	movw	%r9w, (%r14)
	movups	8(%rsi), %xmm0
	movq	24(%rsi), %r9
	movq	%r9, 24(%r14)
	movups	%xmm0, 8(%r14)
	movw	%r8w, (%rsi)
	movups	(%rdx), %xmm0
	movups	%xmm0, 8(%rsi)
	movq	16(%rdx), %r8
	movq	%r8, 24(%rsi)
.Lunix_path_BB49_44:
	incq	%rdi
	addq	$32, %r14
	addq	$-32, %rsi
	decq	%rcx
	cmpq	%rdi, %rax
	je	.Lunix_path_BB49_45
.Lunix_path_BB49_40:
	cmpq	%rcx, %rdi
	jb	.Lunix_path_BB49_41
	jbe	.Lunix_path_BB49_44
	movzwl	(%rsi), %r8d
	movups	8(%rsi), %xmm0
	movups	%xmm0, (%rdx)
	movq	24(%rsi), %r9
	movq	%r9, 16(%rdx)
	movzwl	(%r14), %r9d
	movw	%r9w, (%rsi)
	movups	8(%r14), %xmm0
	movq	24(%r14), %r9
	movq	%r9, 24(%rsi)
	movups	%xmm0, 8(%rsi)
	movw	%r8w, (%r14)
	movups	(%rdx), %xmm0
	movups	%xmm0, 8(%r14)
	movq	16(%rdx), %r8
	movq	%r8, 24(%r14)
	jmp	.Lunix_path_BB49_44
.Lunix_path_BB49_45:
	testq	%rbp, %rbp
	je	.Lunix_path_BB49_50
.Lunix_path_BB49_46:
	leaq	134(%rsp), %rbx
	leaq	(,%rbp,2), %rax
	addq	%rbp, %rax
	movq	32(%rsp), %rcx
	leaq	(%rcx,%rax,8), %r15
	movl	%ebp, %eax
	shll	$5, %eax
	leaq	(%rax,%rcx), %r12
	addq	$336, %r12
	jmp	.Lunix_path_BB49_47
	.p2align	4
.Lunix_path_BB49_49:
	decq	%rbp
	movb	%r13b, (%rsp)
	movb	%r14b, 1(%rsp)
	movq	16(%rbx), %rax
	leaq	8(%rsp), %rcx
	movq	%rax, 16(%rcx)
	movups	(%rbx), %xmm0
	movups	%xmm0, (%rcx)
	movq	%rsp, %rdi
	callq	pathtool.serde_json.value.Value.Destruct.drop
	addq	$-24, %r15
	addq	$-32, %r12
	testq	%rbp, %rbp
	je	.Lunix_path_BB49_50
.Lunix_path_BB49_47:
	movq	-16(%r15), %rdi
	movzbl	(%r12), %r13d
	movzbl	1(%r12), %r14d
	cmpq	$0, (%r15)
	movq	24(%r12), %rax
	movq	%rax, 16(%rbx)
	movups	8(%r12), %xmm0
	movups	%xmm0, (%rbx)
	movq	$0, (%rsp)
	je	.Lunix_path_BB49_49
	callq	rattle_dealloc@PLT
	jmp	.Lunix_path_BB49_49
.Lunix_path_BB49_50:
	movq	32(%rsp), %rdi
.Lunix_path_BB49_51:
	addq	$168, %rsp
	popq	%rbx
	popq	%r12
	popq	%r13
	popq	%r14
	popq	%r15
	popq	%rbp
	jmp	rattle_dealloc@PLT
.Lunix_path_func_end49:
	.size	std_collections.btree.node.Node.destroy.60b19ca0713cc2a9., .Lunix_path_func_end49-std_collections.btree.node.Node.destroy.60b19ca0713cc2a9.
	.section	.text.core.slice.edits.mirror.483ec8513fd57e54.,"ax",@progbits
	.p2align	4
	.type	core.slice.edits.mirror.483ec8513fd57e54.,@function
# core::slice::edits::mirror::<#483ec8513fd57e54>
core.slice.edits.mirror.483ec8513fd57e54.:
	leaq	(%rdx,%rdx,2), %rax
	leaq	(%rsi,%rax,8), %rax
	addq	$-24, %rax
	.p2align	4
.Lunix_path_BB50_1:
	movq	16(%rdi), %rcx
	movq	%rcx, -8(%rsp)
	movups	(%rdi), %xmm0
	movaps	%xmm0, -24(%rsp)
	movq	16(%rax), %rcx
	movups	(%rax), %xmm0
	movups	%xmm0, (%rdi)
	movq	%rcx, 16(%rdi)
	movq	-8(%rsp), %rcx
	movq	%rcx, 16(%rax)
	movaps	-24(%rsp), %xmm0
	movups	%xmm0, (%rax)
	addq	$24, %rdi
	addq	$-24, %rax
	decq	%rdx
	jne	.Lunix_path_BB50_1
	retq
.Lunix_path_func_end50:
	.size	core.slice.edits.mirror.483ec8513fd57e54., .Lunix_path_func_end50-core.slice.edits.mirror.483ec8513fd57e54.
	.section	.text.core.slice.edits.mirror.24.serde_json.value.Value.,"ax",@progbits
	.p2align	4
	.type	core.slice.edits.mirror.24.serde_json.value.Value.,@function
# core::slice::edits::mirror::<24'serde_json::value::Value>
core.slice.edits.mirror.24.serde_json.value.Value.:
	leaq	-24(%rsp), %rax
	leaq	-54(%rsp), %rcx
	movq	%rdx, %r8
	shlq	$5, %r8
	addq	%r8, %rsi
	addq	$-32, %rsi
	.p2align	4
.Lunix_path_BB51_1:
	movzwl	(%rdi), %r8d
	movups	8(%rdi), %xmm0
	movups	%xmm0, (%rax)
	movq	24(%rdi), %r9
	movq	%r9, 16(%rax)
	movzwl	(%rsi), %r9d
	movups	8(%rsi), %xmm0
	movups	%xmm0, (%rcx)
	movq	24(%rsi), %r10
	movq	%r10, 16(%rcx)
	movw	%r9w, (%rdi)
	movups	(%rcx), %xmm0
	movups	%xmm0, 8(%rdi)
	movq	16(%rcx), %r9
	movq	%r9, 24(%rdi)
	movw	%r8w, (%rsi)
	movups	(%rax), %xmm0
	movups	%xmm0, 8(%rsi)
	movq	16(%rax), %r8
	movq	%r8, 24(%rsi)
	addq	$32, %rdi
	addq	$-32, %rsi
	decq	%rdx
	jne	.Lunix_path_BB51_1
	retq
.Lunix_path_func_end51:
	.size	core.slice.edits.mirror.24.serde_json.value.Value., .Lunix_path_func_end51-core.slice.edits.mirror.24.serde_json.value.Value.
	.section	.rodata.cst16,"aM",@progbits,16
	.p2align	4, 0x0
.Lunix_path_CPI52_0:
	.zero	16,47
	.section	.text.unix_path.suffixes.ends_with_parts,"ax",@progbits
	.p2align	4
	.type	unix_path.suffixes.ends_with_parts,@function
# unix_path::suffixes::ends_with_parts
unix_path.suffixes.ends_with_parts:
	pushq	%rbp
	pushq	%r15
	pushq	%r14
	pushq	%r13
	pushq	%r12
	pushq	%rbx
	subq	$40, %rsp
	movq	%rcx, %r15
	movq	%rdx, %rbx
	movq	%rdi, %r14
	testq	%rsi, %rsi
	je	.Lunix_path_BB52_10
	movq	%rsi, %r12
	movq	%rsi, %rbp
	movq	%r12, %rax
	jmp	.Lunix_path_BB52_2
	.p2align	4
.Lunix_path_BB52_9:
	movq	%rax, %rbp
	testq	%rax, %rax
	je	.Lunix_path_BB52_10
.Lunix_path_BB52_2:
	decq	%rax
	je	.Lunix_path_BB52_3
	movzbl	(%r14,%rax), %ecx
	cmpl	$47, %ecx
	je	.Lunix_path_BB52_7
	cmpl	$46, %ecx
	jne	.Lunix_path_BB52_11
	cmpb	$47, -1(%r14,%rax)
	jne	.Lunix_path_BB52_11
.Lunix_path_BB52_7:
	movq	%r12, %rcx
	subq	%rax, %rcx
	cmpq	$8, %rcx
	jne	.Lunix_path_BB52_9
	movq	%r14, %rdi
	xorl	%esi, %esi
	movq	%rax, %rdx
	callq	unix_path.filler.trimmed_blocks_len
	jmp	.Lunix_path_BB52_9
.Lunix_path_BB52_10:
	xorl	%ebp, %ebp
.Lunix_path_BB52_11:
	testq	%r15, %r15
	je	.Lunix_path_BB52_21
.Lunix_path_BB52_12:
	movq	%r15, %r13
	movq	%r15, %rax
	jmp	.Lunix_path_BB52_13
	.p2align	4
.Lunix_path_BB52_20:
	movq	%rax, %r13
	testq	%rax, %rax
	je	.Lunix_path_BB52_21
.Lunix_path_BB52_13:
	decq	%rax
	je	.Lunix_path_BB52_14
	movzbl	(%rbx,%rax), %ecx
	cmpl	$47, %ecx
	je	.Lunix_path_BB52_18
	cmpl	$46, %ecx
	jne	.Lunix_path_BB52_22
	cmpb	$47, -1(%rbx,%rax)
	jne	.Lunix_path_BB52_22
.Lunix_path_BB52_18:
	movq	%r15, %rcx
	subq	%rax, %rcx
	cmpq	$8, %rcx
	jne	.Lunix_path_BB52_20
	movq	%rbx, %rdi
	xorl	%esi, %esi
	movq	%rax, %rdx
	callq	unix_path.filler.trimmed_blocks_len
	jmp	.Lunix_path_BB52_20
.Lunix_path_BB52_3:
	movl	$1, %ebp
	testq	%r15, %r15
	jne	.Lunix_path_BB52_12
.Lunix_path_BB52_21:
	xorl	%r13d, %r13d
	jmp	.Lunix_path_BB52_22
.Lunix_path_BB52_14:
	movl	$1, %r13d
	.p2align	4
.Lunix_path_BB52_22:
	cmpq	$1, %r13
	je	.Lunix_path_BB52_25
	testq	%r13, %r13
	je	.Lunix_path_BB52_24
	cmpb	$46, -1(%rbx,%r13)
	jne	.Lunix_path_BB52_32
	cmpb	$46, -2(%rbx,%r13)
	jne	.Lunix_path_BB52_32
	movb	$2, %r15b
	xorl	%r12d, %r12d
	cmpq	$2, %r13
	je	.Lunix_path_BB52_30
	cmpb	$47, -3(%rbx,%r13)
	jne	.Lunix_path_BB52_32
	addq	$-2, %r13
	movq	%r13, %rcx
	movq	%r13, %rax
	jmp	.Lunix_path_BB52_37
	.p2align	4
.Lunix_path_BB52_25:
	cmpb	$46, (%rbx)
	jne	.Lunix_path_BB52_32
	movb	$1, %r15b
	xorl	%r12d, %r12d
.Lunix_path_BB52_30:
	movq	$0, 8(%rsp)
	xorl	%ecx, %ecx
	jmp	.Lunix_path_BB52_64
	.p2align	4
.Lunix_path_BB52_32:
	leaq	1(%r13), %rax
	movq	%r13, %r12
	.p2align	4
.Lunix_path_BB52_33:
	cmpq	$15, %r12
	jbe	.Lunix_path_BB52_46
	movdqu	-16(%rbx,%r12), %xmm0
	pcmpeqb	.Lunix_path_CPI52_0(%rip), %xmm0
	addq	$-16, %r12
	pmovmskb	%xmm0, %ecx
	addq	$-16, %rax
	testl	%ecx, %ecx
	je	.Lunix_path_BB52_33
	movzwl	%cx, %eax
	bsrq	%rax, %rax
	xorq	$63, %rax
	subq	%rax, %r12
	addq	$64, %r12
	jmp	.Lunix_path_BB52_48
	.p2align	4
.Lunix_path_BB52_46:
	cmpq	$1, %rax
	je	.Lunix_path_BB52_50
	leaq	-1(%rax), %r12
	cmpb	$47, -2(%rbx,%rax)
	movq	%r12, %rax
	jne	.Lunix_path_BB52_46
.Lunix_path_BB52_48:
	subq	%r12, %r13
	je	.Lunix_path_BB52_49
	leaq	(%rbx,%r12), %rax
	movq	%rax, 16(%rsp)
	movq	%r12, %rcx
	movq	%r12, %rax
	jmp	.Lunix_path_BB52_53
	.p2align	4
.Lunix_path_BB52_61:
	movq	%rax, %rcx
	testq	%rax, %rax
	je	.Lunix_path_BB52_62
.Lunix_path_BB52_53:
	movb	$3, %r15b
	decq	%rax
	je	.Lunix_path_BB52_54
	movzbl	(%rbx,%rax), %edx
	cmpl	$47, %edx
	je	.Lunix_path_BB52_59
	cmpl	$46, %edx
	jne	.Lunix_path_BB52_57
	cmpb	$47, -1(%rbx,%rax)
	jne	.Lunix_path_BB52_57
.Lunix_path_BB52_59:
	movq	%r12, %rcx
	subq	%rax, %rcx
	cmpq	$8, %rcx
	jne	.Lunix_path_BB52_61
	movq	%rbx, %rdi
	xorl	%esi, %esi
	movq	%rax, %rdx
	callq	unix_path.filler.trimmed_blocks_len
	jmp	.Lunix_path_BB52_61
	.p2align	4
.Lunix_path_BB52_45:
	xorl	%r12d, %r12d
	movq	%rax, %rcx
	testq	%rax, %rax
	je	.Lunix_path_BB52_30
.Lunix_path_BB52_37:
	decq	%rax
	je	.Lunix_path_BB52_38
	movzbl	(%rbx,%rax), %edx
	cmpl	$47, %edx
	je	.Lunix_path_BB52_43
	cmpl	$46, %edx
	jne	.Lunix_path_BB52_41
	cmpb	$47, -1(%rbx,%rax)
	jne	.Lunix_path_BB52_41
.Lunix_path_BB52_43:
	movq	%r13, %rcx
	subq	%rax, %rcx
	cmpq	$8, %rcx
	jne	.Lunix_path_BB52_45
	movq	%rbx, %rdi
	xorl	%esi, %esi
	movq	%rax, %rdx
	callq	unix_path.filler.trimmed_blocks_len
	jmp	.Lunix_path_BB52_45
.Lunix_path_BB52_50:
	testq	%r13, %r13
	jne	.Lunix_path_BB52_51
.Lunix_path_BB52_49:
	xorl	%r12d, %r12d
	movq	$0, 8(%rsp)
	xorl	%ecx, %ecx
	xorl	%r15d, %r15d
	jmp	.Lunix_path_BB52_64
.Lunix_path_BB52_54:
	movq	%r13, 8(%rsp)
	movl	$1, %ecx
	jmp	.Lunix_path_BB52_63
.Lunix_path_BB52_57:
	movq	%r13, 8(%rsp)
	jmp	.Lunix_path_BB52_63
.Lunix_path_BB52_62:
	movq	%r13, 8(%rsp)
	xorl	%ecx, %ecx
.Lunix_path_BB52_63:
	movq	16(%rsp), %r12
.Lunix_path_BB52_64:
	cmpq	$1, %rbp
	movq	%rcx, 32(%rsp)
	je	.Lunix_path_BB52_74
	testq	%rbp, %rbp
	je	.Lunix_path_BB52_121
	cmpb	$46, -1(%r14,%rbp)
	jne	.Lunix_path_BB52_70
	cmpb	$46, -2(%r14,%rbp)
	jne	.Lunix_path_BB52_70
	movb	$2, %r13b
	cmpq	$2, %rbp
	je	.Lunix_path_BB52_76
	cmpb	$47, -3(%r14,%rbp)
	jne	.Lunix_path_BB52_70
	addq	$-2, %rbp
	movq	%rbp, %rcx
	movq	%rbp, %rax
	jmp	.Lunix_path_BB52_78
	.p2align	4
.Lunix_path_BB52_74:
	cmpb	$46, (%r14)
	jne	.Lunix_path_BB52_70
	movb	$1, %r13b
.Lunix_path_BB52_76:
	movq	$0, (%rsp)
	xorl	%eax, %eax
	xorl	%ecx, %ecx
	xorl	%ebp, %ebp
	cmpb	%r15b, %r13b
	je	.Lunix_path_BB52_108
	jmp	.Lunix_path_BB52_121
	.p2align	4
.Lunix_path_BB52_70:
	movq	%r12, 16(%rsp)
	leaq	1(%rbp), %rax
	movq	%rbp, %r12
	.p2align	4
.Lunix_path_BB52_71:
	cmpq	$15, %r12
	jbe	.Lunix_path_BB52_88
	movdqu	-16(%r14,%r12), %xmm0
	pcmpeqb	.Lunix_path_CPI52_0(%rip), %xmm0
	addq	$-16, %r12
	pmovmskb	%xmm0, %ecx
	addq	$-16, %rax
	testl	%ecx, %ecx
	je	.Lunix_path_BB52_71
	movzwl	%cx, %eax
	bsrq	%rax, %rax
	xorq	$63, %rax
	subq	%rax, %r12
	addq	$64, %r12
	jmp	.Lunix_path_BB52_90
	.p2align	4
.Lunix_path_BB52_88:
	cmpq	$1, %rax
	je	.Lunix_path_BB52_92
	leaq	-1(%rax), %r12
	cmpb	$47, -2(%r14,%rax)
	movq	%r12, %rax
	jne	.Lunix_path_BB52_88
.Lunix_path_BB52_90:
	subq	%r12, %rbp
	je	.Lunix_path_BB52_91
	movq	%rbp, 24(%rsp)
	leaq	(%r14,%r12), %rax
	movq	%rax, (%rsp)
	movq	%r12, %rcx
	movq	%r12, %rax
	jmp	.Lunix_path_BB52_95
	.p2align	4
.Lunix_path_BB52_103:
	movq	%rax, %rcx
	testq	%rax, %rax
	je	.Lunix_path_BB52_104
.Lunix_path_BB52_95:
	movb	$3, %r13b
	movb	$1, %bpl
	decq	%rax
	je	.Lunix_path_BB52_96
	movzbl	(%r14,%rax), %edx
	cmpl	$47, %edx
	je	.Lunix_path_BB52_101
	cmpl	$46, %edx
	jne	.Lunix_path_BB52_99
	cmpb	$47, -1(%r14,%rax)
	jne	.Lunix_path_BB52_99
.Lunix_path_BB52_101:
	movq	%r12, %rcx
	subq	%rax, %rcx
	cmpq	$8, %rcx
	jne	.Lunix_path_BB52_103
	movq	%r14, %rdi
	xorl	%esi, %esi
	movq	%rax, %rdx
	callq	unix_path.filler.trimmed_blocks_len
	jmp	.Lunix_path_BB52_103
	.p2align	4
.Lunix_path_BB52_87:
	movq	%rax, %rcx
	testq	%rax, %rax
	je	.Lunix_path_BB52_76
.Lunix_path_BB52_78:
	decq	%rax
	je	.Lunix_path_BB52_79
	movzbl	(%r14,%rax), %edx
	cmpl	$47, %edx
	je	.Lunix_path_BB52_85
	cmpl	$46, %edx
	jne	.Lunix_path_BB52_82
	cmpb	$47, -1(%r14,%rax)
	jne	.Lunix_path_BB52_82
.Lunix_path_BB52_85:
	movq	%rbp, %rcx
	subq	%rax, %rcx
	cmpq	$8, %rcx
	jne	.Lunix_path_BB52_87
	movq	%r14, %rdi
	xorl	%esi, %esi
	movq	%rax, %rdx
	callq	unix_path.filler.trimmed_blocks_len
	jmp	.Lunix_path_BB52_87
.Lunix_path_BB52_92:
	testq	%rbp, %rbp
	jne	.Lunix_path_BB52_93
.Lunix_path_BB52_91:
	movq	$0, (%rsp)
	xorl	%eax, %eax
	xorl	%ecx, %ecx
	xorl	%ebp, %ebp
	xorl	%r13d, %r13d
	movq	16(%rsp), %r12
	cmpb	%r15b, %r13b
	je	.Lunix_path_BB52_108
	jmp	.Lunix_path_BB52_121
.Lunix_path_BB52_96:
	movq	24(%rsp), %rax
	movl	$1, %ecx
	movq	16(%rsp), %r12
	cmpb	%r15b, %r13b
	je	.Lunix_path_BB52_108
	jmp	.Lunix_path_BB52_121
.Lunix_path_BB52_99:
	movq	24(%rsp), %rax
	movq	16(%rsp), %r12
	cmpb	%r15b, %r13b
	je	.Lunix_path_BB52_108
	jmp	.Lunix_path_BB52_121
.Lunix_path_BB52_104:
	movq	24(%rsp), %rax
	jmp	.Lunix_path_BB52_105
.Lunix_path_BB52_51:
	movb	$3, %r15b
	movq	%rbx, %r12
	movq	%r13, 8(%rsp)
	xorl	%ecx, %ecx
	jmp	.Lunix_path_BB52_64
.Lunix_path_BB52_93:
	movb	$3, %r13b
	movq	%rbp, %rax
	movb	$1, %bpl
	movq	%r14, (%rsp)
.Lunix_path_BB52_105:
	xorl	%ecx, %ecx
	movq	16(%rsp), %r12
	cmpb	%r15b, %r13b
	jne	.Lunix_path_BB52_121
	.p2align	4
.Lunix_path_BB52_108:
	testb	%bpl, %bpl
	movq	%rcx, %rbp
	movq	32(%rsp), %r13
	movq	8(%rsp), %rsi
	je	.Lunix_path_BB52_22
	cmpq	%rsi, %rax
	jne	.Lunix_path_BB52_121
	cmpq	$4, %rsi
	jae	.Lunix_path_BB52_111
	testq	%rsi, %rsi
	je	.Lunix_path_BB52_22
	movq	(%rsp), %rax
	movzbl	(%rax), %eax
	cmpb	(%r12), %al
	jne	.Lunix_path_BB52_115
	cmpq	$1, %rsi
	je	.Lunix_path_BB52_22
	movq	(%rsp), %rax
	movzbl	1(%rax), %ecx
	movl	$1, %eax
	cmpb	1(%r12), %cl
	jne	.Lunix_path_BB52_120
	cmpq	$2, %rsi
	je	.Lunix_path_BB52_22
	movq	(%rsp), %rax
	movzbl	2(%rax), %ecx
	movl	$2, %eax
	cmpb	2(%r12), %cl
	je	.Lunix_path_BB52_22
.Lunix_path_BB52_120:
	cmpq	%rsi, %rax
	jae	.Lunix_path_BB52_22
	jmp	.Lunix_path_BB52_121
	.p2align	4
.Lunix_path_BB52_111:
	movq	(%rsp), %rdi
	movl	(%rdi), %eax
	cmpl	(%r12), %eax
	jne	.Lunix_path_BB52_121
	movq	%r12, %rdx
	callq	core.cmp.slices.groups_equal.i8.31.core.cmp.numbers.U8PartialEq.
	testb	%al, %al
	jne	.Lunix_path_BB52_22
	jmp	.Lunix_path_BB52_121
.Lunix_path_BB52_115:
	xorl	%eax, %eax
	cmpq	%rsi, %rax
	jae	.Lunix_path_BB52_22
	jmp	.Lunix_path_BB52_121
.Lunix_path_BB52_38:
	xorl	%r12d, %r12d
	movl	$1, %ecx
	movq	$0, 8(%rsp)
	jmp	.Lunix_path_BB52_64
.Lunix_path_BB52_79:
	movq	$0, (%rsp)
	movl	$1, %ecx
	jmp	.Lunix_path_BB52_83
.Lunix_path_BB52_41:
	xorl	%r12d, %r12d
	movq	$0, 8(%rsp)
	jmp	.Lunix_path_BB52_64
.Lunix_path_BB52_82:
	movq	$0, (%rsp)
.Lunix_path_BB52_83:
	xorl	%eax, %eax
	xorl	%ebp, %ebp
	cmpb	%r15b, %r13b
	je	.Lunix_path_BB52_108
.Lunix_path_BB52_121:
	xorl	%eax, %eax
.Lunix_path_BB52_122:
	addq	$40, %rsp
	popq	%rbx
	popq	%r12
	popq	%r13
	popq	%r14
	popq	%r15
	popq	%rbp
	retq
.Lunix_path_BB52_24:
	movb	$1, %al
	jmp	.Lunix_path_BB52_122
.Lunix_path_func_end52:
	.size	unix_path.suffixes.ends_with_parts, .Lunix_path_func_end52-unix_path.suffixes.ends_with_parts
	.section	.text.unlikely.std_alloc.vec.Vec.grow_amortized.2c3341b61b28ed12.,"ax",@progbits
	.p2align	4
	.type	std_alloc.vec.Vec.grow_amortized.2c3341b61b28ed12.,@function
# std_alloc::vec::Vec::grow_amortized::<#2c3341b61b28ed12>
std_alloc.vec.Vec.grow_amortized.2c3341b61b28ed12.:
	movq	%rsi, %rax
	movq	8(%rdi), %rsi
	addq	%rsi, %rax
	jae	.Lunix_path_BB53_2
	xorl	%eax, %eax
	retq
.Lunix_path_BB53_2:
	pushq	%r14
	pushq	%rbx
	pushq	%rax
	cmpq	$9, %rax
	movl	$8, %ebx
	cmovaeq	%rax, %rbx
	movq	16(%rdi), %rcx
	movq	%rcx, %rdx
	shrq	$62, %rdx
	leaq	(%rcx,%rcx), %rax
	cmpq	%rax, %rbx
	cmovaq	%rbx, %rax
	testq	%rdx, %rdx
	cmoveq	%rax, %rbx
	testq	%rbx, %rbx
	js	.Lunix_path_BB53_6
	testq	%rcx, %rcx
	je	.Lunix_path_BB53_8
	movq	%rdi, %r14
	movq	(%rdi), %rdi
	movl	$1, %ecx
	movq	%rbx, %rdx
	callq	rattle_realloc@PLT
	testb	$1, %al
	je	.Lunix_path_BB53_6
.Lunix_path_BB53_9:
	movq	%rdx, (%r14)
	movq	%rbx, 16(%r14)
	movb	$1, %al
	addq	$8, %rsp
	popq	%rbx
	popq	%r14
	retq
.Lunix_path_BB53_8:
	movq	%rdi, %r14
	movl	$1, %esi
	movq	%rax, %rdi
	callq	rattle_alloc@PLT
	testb	$1, %al
	jne	.Lunix_path_BB53_9
.Lunix_path_BB53_6:
	xorl	%eax, %eax
	addq	$8, %rsp
	popq	%rbx
	popq	%r14
	retq
.Lunix_path_func_end53:
	.size	std_alloc.vec.Vec.grow_amortized.2c3341b61b28ed12., .Lunix_path_func_end53-std_alloc.vec.Vec.grow_amortized.2c3341b61b28ed12.
	.section	.text.pathtool.walks.push_count,"ax",@progbits
	.p2align	4
	.type	pathtool.walks.push_count,@function
# pathtool::walks::push_count
pathtool.walks.push_count:
	pushq	%rbp
	pushq	%r15
	pushq	%r14
	pushq	%r13
	pushq	%r12
	pushq	%rbx
	subq	$104, %rsp
	movq	%rsi, %r14
	xorps	%xmm0, %xmm0
	movups	%xmm0, 48(%rsp)
	movl	$0, 97(%rsp)
	movl	$0, 100(%rsp)
	leaq	15(%rsp), %rbx
	movq	%rbx, 40(%rsp)
	movq	$0, 88(%rsp)
	movb	$0, 96(%rsp)
	movl	$32, 64(%rsp)
	movq	$0, 68(%rsp)
	movl	$0, 76(%rsp)
	movq	$-1, 80(%rsp)
	movaps	%xmm0, 16(%rsp)
	movq	$0, 32(%rsp)
	movl	$24, %r12d
	cmpq	$100, %rdi
	jb	.Lunix_path_BB54_6
	.p2align	4
.Lunix_path_BB54_1:
	movq	%rdi, %rax
	shrq	$2, %rax
	movabsq	$2951479051793528259, %rcx
	mulq	%rcx
	shrq	$2, %rdx
	imull	$100, %edx, %eax
	movl	%edi, %ecx
	subl	%eax, %ecx
	movzbl	%cl, %eax
	imull	$205, %eax, %ecx
	shrl	$11, %ecx
	leal	(%rcx,%rcx), %esi
	leal	(%rsi,%rsi,4), %esi
	subb	%sil, %al
	orb	$48, %al
	movb	%al, 15(%rsp,%r12)
	orb	$48, %cl
	movb	%cl, 14(%rsp,%r12)
	addq	$-2, %r12
	cmpq	$9999, %rdi
	movq	%rdx, %rdi
	ja	.Lunix_path_BB54_1
	cmpq	$10, %rdx
	jb	.Lunix_path_BB54_7
.Lunix_path_BB54_3:
	movzbl	%dl, %eax
	imull	$205, %eax, %eax
	shrl	$11, %eax
	leal	(%rax,%rax), %ecx
	leal	(%rcx,%rcx,4), %ecx
	subb	%cl, %dl
	orb	$48, %dl
	movb	%dl, 15(%rsp,%r12)
	orb	$48, %al
	movb	%al, 14(%rsp,%r12)
	addq	$-2, %r12
	leaq	-24(%r12), %rdx
	negq	%rdx
	cmpq	$24, %r12
	je	.Lunix_path_BB54_8
.Lunix_path_BB54_4:
	leaq	40(%rsp), %rdi
	movq	%rdx, %r13
	movq	%rdx, %rsi
	callq	std_alloc.vec.Vec.grow_amortized.307f257cf2d167af.
	testb	%al, %al
	je	.Lunix_path_BB54_26
	movq	40(%rsp), %rbx
	movq	48(%rsp), %r15
	cmpq	$0, 56(%rsp)
	sete	%bpl
	movq	%r13, %rdx
	jmp	.Lunix_path_BB54_9
.Lunix_path_BB54_6:
	movq	%rdi, %rdx
	cmpq	$10, %rdx
	jae	.Lunix_path_BB54_3
.Lunix_path_BB54_7:
	orb	$48, %dl
	movb	%dl, 15(%rsp,%r12)
	decq	%r12
	leaq	-24(%r12), %rdx
	negq	%rdx
	cmpq	$24, %r12
	jne	.Lunix_path_BB54_4
.Lunix_path_BB54_8:
	xorl	%r15d, %r15d
	movb	$1, %bpl
.Lunix_path_BB54_9:
	leaq	(%rsp,%r12), %rsi
	addq	$16, %rsi
	leaq	(%rbx,%r15), %rdi
	addq	%rdx, %r15
	callq	memcpy@PLT
	movq	8(%r14), %rcx
	movq	16(%r14), %r13
	movq	%r13, %rax
	subq	%rcx, %rax
	cmpq	%rax, %r15
	ja	.Lunix_path_BB54_24
.Lunix_path_BB54_10:
	movb	%bpl, 14(%rsp)
	leaq	8(%r14), %rsi
	leaq	(%rcx,%r15), %rbp
	movq	(%r14), %r12
	xorps	%xmm0, %xmm0
	movups	%xmm0, (%rsi)
	leaq	(%r12,%rcx), %rdi
	movq	%rdi, %rax
	subq	%rbx, %rax
	cmpq	%r15, %rax
	jae	.Lunix_path_BB54_13
	cmpq	$4, %r15
	jb	.Lunix_path_BB54_12
	cmpq	$32, %rax
	jae	.Lunix_path_BB54_16
.Lunix_path_BB54_12:
	xorl	%eax, %eax
	jmp	.Lunix_path_BB54_30
.Lunix_path_BB54_13:
	movq	%rbx, %rsi
	movq	%r15, %rdx
	callq	memmove@PLT
	leaq	8(%r14), %rsi
	jmp	.Lunix_path_BB54_31
.Lunix_path_BB54_16:
	cmpq	$32, %r15
	jae	.Lunix_path_BB54_18
	xorl	%eax, %eax
	jmp	.Lunix_path_BB54_22
.Lunix_path_BB54_18:
	movq	%r15, %rax
	andq	$-32, %rax
	addq	%r12, %rcx
	addq	$16, %rcx
	xorl	%edx, %edx
	.p2align	4
.Lunix_path_BB54_19:
	movups	(%rbx,%rdx), %xmm0
	movups	16(%rbx,%rdx), %xmm1
	movups	%xmm0, -16(%rcx,%rdx)
	movups	%xmm1, (%rcx,%rdx)
	addq	$32, %rdx
	cmpq	%rdx, %rax
	jne	.Lunix_path_BB54_19
	cmpq	%rax, %r15
	je	.Lunix_path_BB54_31
	testb	$28, %r15b
	je	.Lunix_path_BB54_30
.Lunix_path_BB54_22:
	movq	%rax, %rcx
	movq	%r15, %rax
	andq	$-4, %rax
	.p2align	4
.Lunix_path_BB54_23:
	movl	(%rbx,%rcx), %edx
	movl	%edx, (%rdi,%rcx)
	addq	$4, %rcx
	cmpq	%rcx, %rax
	jne	.Lunix_path_BB54_23
	jmp	.Lunix_path_BB54_29
.Lunix_path_BB54_24:
	movq	%r14, %rdi
	movq	%r15, %rsi
	callq	std_alloc.vec.Vec.grow_amortized.307f257cf2d167af.
	testb	%al, %al
	je	.Lunix_path_BB54_28
	movq	8(%r14), %rcx
	movq	16(%r14), %r13
	jmp	.Lunix_path_BB54_10
.Lunix_path_BB54_26:
	cmpq	$0, 56(%rsp)
	je	.Lunix_path_BB54_42
	movq	40(%rsp), %rdi
	jmp	.Lunix_path_BB54_41
.Lunix_path_BB54_28:
	movb	$1, %al
	testb	%bpl, %bpl
	jne	.Lunix_path_BB54_36
	jmp	.Lunix_path_BB54_40
.Lunix_path_BB54_29:
	cmpq	%rax, %r15
	je	.Lunix_path_BB54_31
.Lunix_path_BB54_30:
	movzbl	(%rbx,%rax), %ecx
	movb	%cl, (%rdi,%rax)
	incq	%rax
	jmp	.Lunix_path_BB54_29
.Lunix_path_BB54_31:
	movq	%r12, (%r14)
	movq	%rbp, 8(%r14)
	movq	%r13, 16(%r14)
	cmpq	%rbp, %r13
	je	.Lunix_path_BB54_37
.Lunix_path_BB54_32:
	movb	$9, (%r12,%rbp)
	incq	%rbp
	movq	%rbp, (%rsi)
	cmpb	$0, 14(%rsp)
	jne	.Lunix_path_BB54_35
	movq	%rbx, %rdi
	callq	rattle_dealloc@PLT
.Lunix_path_BB54_35:
	xorl	%eax, %eax
.Lunix_path_BB54_36:
	addq	$104, %rsp
	popq	%rbx
	popq	%r12
	popq	%r13
	popq	%r14
	popq	%r15
	popq	%rbp
	retq
.Lunix_path_BB54_37:
	movq	%rsi, %r15
	movl	$1, %esi
	movq	%r14, %rdi
	callq	std_alloc.vec.Vec.grow_amortized.307f257cf2d167af.
	testb	%al, %al
	je	.Lunix_path_BB54_39
	movq	(%r14), %r12
	movq	8(%r14), %rbp
	movq	%r15, %rsi
	jmp	.Lunix_path_BB54_32
.Lunix_path_BB54_39:
	movb	$1, %al
	cmpb	$0, 14(%rsp)
	jne	.Lunix_path_BB54_36
.Lunix_path_BB54_40:
	movq	%rbx, %rdi
.Lunix_path_BB54_41:
	callq	rattle_dealloc@PLT
.Lunix_path_BB54_42:
	movb	$1, %al
	jmp	.Lunix_path_BB54_36
.Lunix_path_func_end54:
	.size	pathtool.walks.push_count, .Lunix_path_func_end54-pathtool.walks.push_count
	.section	.text.unlikely.std.io.buffered.BufWriter.write_cold.30751c9e8e42e953.,"ax",@progbits
	.p2align	4
	.type	std.io.buffered.BufWriter.write_cold.30751c9e8e42e953.,@function
# std::io::buffered::BufWriter::write_cold::<#30751c9e8e42e953>
std.io.buffered.BufWriter.write_cold.30751c9e8e42e953.:
	pushq	%rbp
	pushq	%r15
	pushq	%r14
	pushq	%r13
	pushq	%r12
	pushq	%rbx
	subq	$360, %rsp
	movq	%rcx, %r14
	movq	%rdx, %r15
	movq	%rdi, %rbx
	xorps	%xmm0, %xmm0
	movaps	%xmm0, 256(%rsp)
	movaps	%xmm0, 240(%rsp)
	movaps	%xmm0, 224(%rsp)
	movaps	%xmm0, 208(%rsp)
	movaps	%xmm0, 192(%rsp)
	movaps	%xmm0, 176(%rsp)
	movq	24(%rsi), %r12
	cmpq	%rcx, %r12
	jbe	.Lunix_path_BB55_4
	movaps	%xmm0, 80(%rsp)
	movaps	%xmm0, 64(%rsp)
	movaps	%xmm0, 48(%rsp)
	movaps	%xmm0, 32(%rsp)
	movaps	%xmm0, 16(%rsp)
	movaps	%xmm0, (%rsp)
	movq	16(%rsi), %rax
	movq	%r12, %rcx
	subq	%rax, %rcx
	cmpq	%r14, %rcx
	jae	.Lunix_path_BB55_9
	movq	%rsp, %rdi
	movq	%rsi, %r13
	callq	std.io.buffered.BufWriter.flush_buf.30751c9e8e42e953.
	cmpb	$0, (%rsp)
	je	.Lunix_path_BB55_8
	movq	8(%rsp), %rax
	movaps	16(%rsp), %xmm0
	movaps	%xmm0, 272(%rsp)
	movaps	32(%rsp), %xmm0
	movaps	%xmm0, 288(%rsp)
	movaps	48(%rsp), %xmm0
	movaps	%xmm0, 304(%rsp)
	movaps	64(%rsp), %xmm0
	movaps	%xmm0, 320(%rsp)
	movaps	80(%rsp), %xmm0
	movaps	%xmm0, 336(%rsp)
	movq	$1, (%rbx)
	movq	%rax, 8(%rbx)
	movaps	272(%rsp), %xmm0
	movaps	288(%rsp), %xmm1
	movaps	304(%rsp), %xmm2
	movaps	320(%rsp), %xmm3
	movups	%xmm0, 16(%rbx)
	movups	%xmm1, 32(%rbx)
	movups	%xmm2, 48(%rbx)
	movups	%xmm3, 64(%rbx)
	movaps	336(%rsp), %xmm0
	jmp	.Lunix_path_BB55_33
.Lunix_path_BB55_4:
	leaq	176(%rsp), %rdi
	callq	std.io.buffered.BufWriter.flush_buf.30751c9e8e42e953.
	cmpb	$0, 176(%rsp)
	je	.Lunix_path_BB55_6
	movq	184(%rsp), %rax
	movq	$1, (%rbx)
	movq	%rax, 8(%rbx)
	movaps	192(%rsp), %xmm0
	movaps	208(%rsp), %xmm1
	movaps	224(%rsp), %xmm2
	movaps	240(%rsp), %xmm3
	movups	%xmm0, 16(%rbx)
	movups	%xmm1, 32(%rbx)
	movups	%xmm2, 48(%rbx)
	movups	%xmm3, 64(%rbx)
	movaps	256(%rsp), %xmm0
	jmp	.Lunix_path_BB55_33
.Lunix_path_BB55_6:
	xorps	%xmm0, %xmm0
	movaps	%xmm0, 160(%rsp)
	movaps	%xmm0, 144(%rsp)
	movaps	%xmm0, 128(%rsp)
	movaps	%xmm0, 112(%rsp)
	movaps	%xmm0, 96(%rsp)
	movl	$1, %edi
	movq	%r15, %rsi
	movq	%r14, %rdx
	callq	write@PLT
	testq	%rax, %rax
	js	.Lunix_path_BB55_15
	cmpq	%r14, %rax
	cmovbq	%rax, %r14
	xorl	%eax, %eax
	jmp	.Lunix_path_BB55_16
.Lunix_path_BB55_8:
	movq	%r13, %rsi
	movq	16(%r13), %rax
	movq	24(%r13), %r12
	movq	%r12, %rcx
	subq	%rax, %rcx
	cmpq	%rcx, %r14
	ja	.Lunix_path_BB55_34
.Lunix_path_BB55_9:
	leaq	16(%rsi), %rcx
	leaq	(%rax,%r14), %r10
	movq	8(%rsi), %rbp
	xorps	%xmm0, %xmm0
	movups	%xmm0, (%rcx)
	leaq	(%rax,%rbp), %rdi
	movq	%rdi, %rcx
	subq	%r15, %rcx
	cmpq	%r14, %rcx
	jae	.Lunix_path_BB55_12
	cmpq	$4, %r14
	jb	.Lunix_path_BB55_11
	cmpq	$32, %rcx
	jae	.Lunix_path_BB55_17
.Lunix_path_BB55_11:
	xorl	%ecx, %ecx
.Lunix_path_BB55_26:
	movq	%r14, %r8
	movq	%rcx, %rdx
	andq	$3, %r8
	je	.Lunix_path_BB55_29
	movq	%rcx, %rdx
	.p2align	4
.Lunix_path_BB55_28:
	movzbl	(%r15,%rdx), %r9d
	movb	%r9b, (%rdi,%rdx)
	incq	%rdx
	decq	%r8
	jne	.Lunix_path_BB55_28
.Lunix_path_BB55_29:
	subq	%r14, %rcx
	cmpq	$-4, %rcx
	ja	.Lunix_path_BB55_32
	addq	%rbp, %rax
	addq	$3, %rax
	.p2align	4
.Lunix_path_BB55_31:
	movzbl	(%r15,%rdx), %ecx
	movb	%cl, -3(%rax,%rdx)
	movzbl	1(%r15,%rdx), %ecx
	movb	%cl, -2(%rax,%rdx)
	movzbl	2(%r15,%rdx), %ecx
	movb	%cl, -1(%rax,%rdx)
	movzbl	3(%r15,%rdx), %ecx
	movb	%cl, (%rax,%rdx)
	addq	$4, %rdx
	cmpq	%rdx, %r14
	jne	.Lunix_path_BB55_31
	jmp	.Lunix_path_BB55_32
.Lunix_path_BB55_12:
	movq	%rsi, %r13
	movq	%r15, %rsi
	movq	%r14, %rdx
	movq	%r10, %r15
	callq	memmove@PLT
	movq	%r15, %r10
	movq	%r13, %rsi
.Lunix_path_BB55_32:
	movq	%rbp, 8(%rsi)
	movq	%r10, 16(%rsi)
	movq	%r12, 24(%rsi)
	movq	$0, (%rbx)
	movq	%r14, 8(%rbx)
	xorps	%xmm0, %xmm0
	movups	%xmm0, 16(%rbx)
	movups	%xmm0, 32(%rbx)
	movups	%xmm0, 48(%rbx)
	movups	%xmm0, 64(%rbx)
	jmp	.Lunix_path_BB55_33
.Lunix_path_BB55_15:
	callq	rattle_errno@PLT
	movq	%rsp, %rdi
	movl	%eax, %esi
	callq	std_io.io.error.Error.from_raw_os_error
	movq	(%rsp), %r14
	movups	8(%rsp), %xmm0
	movaps	%xmm0, 96(%rsp)
	movups	24(%rsp), %xmm0
	movaps	%xmm0, 112(%rsp)
	movups	40(%rsp), %xmm0
	movaps	%xmm0, 128(%rsp)
	movups	56(%rsp), %xmm0
	movaps	%xmm0, 144(%rsp)
	movups	72(%rsp), %xmm0
	movaps	%xmm0, 160(%rsp)
	movl	$1, %eax
.Lunix_path_BB55_16:
	movq	%rax, (%rbx)
	movq	%r14, 8(%rbx)
	movaps	96(%rsp), %xmm0
	movaps	112(%rsp), %xmm1
	movaps	128(%rsp), %xmm2
	movaps	144(%rsp), %xmm3
	movups	%xmm0, 16(%rbx)
	movups	%xmm1, 32(%rbx)
	movups	%xmm2, 48(%rbx)
	movups	%xmm3, 64(%rbx)
	movaps	160(%rsp), %xmm0
.Lunix_path_BB55_33:
	movups	%xmm0, 80(%rbx)
	addq	$360, %rsp
	popq	%rbx
	popq	%r12
	popq	%r13
	popq	%r14
	popq	%r15
	popq	%rbp
	retq
.Lunix_path_BB55_17:
	cmpq	$32, %r14
	jae	.Lunix_path_BB55_19
	xorl	%ecx, %ecx
	jmp	.Lunix_path_BB55_23
.Lunix_path_BB55_19:
	movq	%r14, %rcx
	andq	$-32, %rcx
	leaq	(%rax,%rbp), %rdx
	addq	$16, %rdx
	xorl	%r8d, %r8d
	.p2align	4
.Lunix_path_BB55_20:
	movups	(%r15,%r8), %xmm0
	movups	16(%r15,%r8), %xmm1
	movups	%xmm0, -16(%rdx,%r8)
	movups	%xmm1, (%rdx,%r8)
	addq	$32, %r8
	cmpq	%r8, %rcx
	jne	.Lunix_path_BB55_20
	cmpq	%rcx, %r14
	je	.Lunix_path_BB55_32
	testb	$28, %r14b
	je	.Lunix_path_BB55_26
.Lunix_path_BB55_23:
	movq	%rcx, %rdx
	movq	%r14, %rcx
	andq	$-4, %rcx
	.p2align	4
.Lunix_path_BB55_24:
	movl	(%r15,%rdx), %r8d
	movl	%r8d, (%rdi,%rdx)
	addq	$4, %rdx
	cmpq	%rdx, %rcx
	jne	.Lunix_path_BB55_24
	cmpq	%rcx, %r14
	je	.Lunix_path_BB55_32
	jmp	.Lunix_path_BB55_26
.Lunix_path_BB55_34:
	leaq	8(%rsi), %rdi
	movq	%r14, %rsi
	callq	std_alloc.vec.Vec.grow_amortized.307f257cf2d167af.
	testb	%al, %al
	je	.Lunix_path_BB55_36
	movq	%r13, %rsi
	movq	16(%r13), %rax
	movq	24(%r13), %r12
	jmp	.Lunix_path_BB55_9
.Lunix_path_BB55_36:
	ud2
.Lunix_path_func_end55:
	.size	std.io.buffered.BufWriter.write_cold.30751c9e8e42e953., .Lunix_path_func_end55-std.io.buffered.BufWriter.write_cold.30751c9e8e42e953.
	.section	.rodata.cst16,"aM",@progbits,16
	.p2align	4, 0x0
.Lunix_path_CPI56_0:
	.zero	16,46
.Lunix_path_CPI56_1:
	.quad	8386094071426675301
	.quad	3327647950551527009
.Lunix_path_CPI56_2:
	.quad	2334399978102268015
	.quad	7378714103803897972
.Lunix_path_CPI56_3:
	.quad	2168578
	.quad	8367798494427701606
.Lunix_path_CPI56_4:
	.byte	0
	.byte	1
	.byte	2
	.byte	3
	.byte	4
	.byte	5
	.byte	6
	.byte	7
	.byte	8
	.byte	9
	.byte	10
	.byte	11
	.byte	12
	.byte	13
	.byte	14
	.byte	15
.Lunix_path_CPI56_5:
	.byte	16
	.byte	17
	.byte	18
	.byte	19
	.byte	20
	.byte	21
	.byte	22
	.byte	23
	.byte	24
	.byte	25
	.byte	26
	.byte	27
	.byte	28
	.byte	29
	.byte	30
	.byte	31
	.section	.text.std.io.buffered.BufWriter.flush_buf.30751c9e8e42e953.,"ax",@progbits
	.p2align	4
	.type	std.io.buffered.BufWriter.flush_buf.30751c9e8e42e953.,@function
# std::io::buffered::BufWriter::flush_buf::<#30751c9e8e42e953>
std.io.buffered.BufWriter.flush_buf.30751c9e8e42e953.:
	pushq	%rbp
	pushq	%r15
	pushq	%r14
	pushq	%r13
	pushq	%r12
	pushq	%rbx
	subq	$232, %rsp
	movq	16(%rsi), %rbp
	testq	%rbp, %rbp
	je	.Lunix_path_BB56_1
	movq	8(%rsi), %rax
	leaq	120(%rsp), %r14
	xorl	%r13d, %r13d
	movq	%rdi, (%rsp)
	movq	%rsi, 8(%rsp)
	movq	%rax, 56(%rsp)
.Lunix_path_BB56_5:
	leaq	(%rax,%r13), %r12
	movq	%rbp, %r15
	subq	%r13, %r15
	xorl	%ebx, %ebx
	.p2align	4
.Lunix_path_BB56_6:
	incq	%rbx
	je	.Lunix_path_BB56_13
	movl	$1, %edi
	movq	%r12, %rsi
	movq	%r15, %rdx
	callq	write@PLT
	testq	%rax, %rax
	jns	.Lunix_path_BB56_11
	callq	rattle_errno@PLT
	leaq	64(%rsp), %rdi
	movl	%eax, %esi
	callq	std_io.io.error.Error.from_raw_os_error
	movaps	64(%rsp), %xmm0
	movaps	80(%rsp), %xmm1
	movaps	96(%rsp), %xmm2
	movq	64(%rsp), %rcx
	movq	112(%rsp), %rax
	movups	(%r14), %xmm3
	movups	16(%r14), %xmm4
	movaps	%xmm3, 192(%rsp)
	movaps	%xmm4, 208(%rsp)
	shrq	$8, %rcx
	movaps	.Lunix_path_CPI56_4(%rip), %xmm3
	movaps	%xmm3, 64(%rsp)
	movaps	.Lunix_path_CPI56_5(%rip), %xmm3
	movaps	%xmm3, 80(%rsp)
	movabsq	$2820983053732684064, %rdx
	movq	%rdx, 96(%rsp)
	movb	$40, 104(%rsp)
	cmpb	$41, %cl
	jae	.Lunix_path_BB56_10
	andl	$63, %ecx
	cmpb	$35, 64(%rsp,%rcx)
	je	.Lunix_path_BB56_6
	jmp	.Lunix_path_BB56_10
	.p2align	4
.Lunix_path_BB56_11:
	cmpq	%r15, %rax
	cmovbq	%rax, %r15
	testq	%r15, %r15
	je	.Lunix_path_BB56_12
	addq	%r15, %r13
	cmpq	%rbp, %r13
	movq	(%rsp), %rdi
	movq	8(%rsp), %rsi
	movq	56(%rsp), %rax
	jb	.Lunix_path_BB56_5
	jmp	.Lunix_path_BB56_2
.Lunix_path_BB56_10:
	movaps	192(%rsp), %xmm3
	movaps	208(%rsp), %xmm4
	movaps	%xmm4, 176(%rsp)
	movaps	%xmm3, 160(%rsp)
	jmp	.Lunix_path_BB56_14
.Lunix_path_BB56_1:
	xorl	%r13d, %r13d
.Lunix_path_BB56_2:
	xorps	%xmm0, %xmm0
	movaps	%xmm0, 32(%rsp)
	movaps	%xmm0, 16(%rsp)
	xorl	%ecx, %ecx
	xorl	%eax, %eax
	xorps	%xmm1, %xmm1
	xorps	%xmm2, %xmm2
	movq	16(%rsi), %r14
	movq	%r14, %rdx
	subq	%r13, %rdx
	jne	.Lunix_path_BB56_17
	jmp	.Lunix_path_BB56_31
.Lunix_path_BB56_13:
	leaq	.Lunix_path_static.57(%rip), %rdx
	leaq	64(%rsp), %rdi
	movl	$43, %ecx
	movl	$22, %esi
	callq	std_io.io.error.Error.from_static_message
	movaps	64(%rsp), %xmm0
	movaps	80(%rsp), %xmm1
	movaps	96(%rsp), %xmm2
	movq	112(%rsp), %rax
	movups	120(%rsp), %xmm3
	movaps	%xmm3, 160(%rsp)
	movups	136(%rsp), %xmm3
	movaps	%xmm3, 176(%rsp)
.Lunix_path_BB56_14:
	movq	(%rsp), %rdi
	movaps	160(%rsp), %xmm3
	movaps	176(%rsp), %xmm4
	movaps	%xmm3, 16(%rsp)
	movaps	%xmm4, 32(%rsp)
	movb	$1, %cl
.Lunix_path_BB56_15:
	movq	8(%rsp), %rsi
	movq	16(%rsi), %r14
	movq	%r14, %rdx
	subq	%r13, %rdx
	je	.Lunix_path_BB56_31
.Lunix_path_BB56_17:
	movq	8(%rsi), %rbx
	cmpq	$4, %rdx
	setb	%r8b
	leaq	31(%r13), %r9
	cmpq	$32, %r9
	setb	%r9b
	orb	%r8b, %r9b
	je	.Lunix_path_BB56_19
	xorl	%r8d, %r8d
	jmp	.Lunix_path_BB56_28
.Lunix_path_BB56_19:
	cmpq	$32, %rdx
	jae	.Lunix_path_BB56_21
	xorl	%r8d, %r8d
	jmp	.Lunix_path_BB56_25
.Lunix_path_BB56_21:
	movq	%rdx, %r8
	andq	$-32, %r8
	leaq	16(%rbx), %r9
	movq	%r8, %r10
	.p2align	4
.Lunix_path_BB56_22:
	movups	-16(%r9,%r13), %xmm3
	movups	(%r9,%r13), %xmm4
	movups	%xmm3, -16(%r9)
	movups	%xmm4, (%r9)
	addq	$32, %r9
	addq	$-32, %r10
	jne	.Lunix_path_BB56_22
	cmpq	%r8, %rdx
	je	.Lunix_path_BB56_30
	testb	$28, %dl
	je	.Lunix_path_BB56_28
.Lunix_path_BB56_25:
	movq	%r8, %r9
	movq	%rdx, %r8
	andq	$-4, %r8
	leaq	(%rbx,%r9), %r10
	subq	%r8, %r9
	.p2align	4
.Lunix_path_BB56_26:
	movl	(%r10,%r13), %r11d
	movl	%r11d, (%r10)
	addq	$4, %r10
	addq	$4, %r9
	jne	.Lunix_path_BB56_26
	cmpq	%r8, %rdx
	je	.Lunix_path_BB56_30
.Lunix_path_BB56_28:
	subq	%r8, %r14
	addq	%r8, %rbx
	.p2align	4
.Lunix_path_BB56_29:
	movzbl	(%rbx,%r13), %r8d
	movb	%r8b, (%rbx)
	decq	%r14
	incq	%rbx
	cmpq	%r14, %r13
	jne	.Lunix_path_BB56_29
.Lunix_path_BB56_30:
	movq	16(%rsi), %r13
.Lunix_path_BB56_31:
	cmpq	%rdx, %r13
	jbe	.Lunix_path_BB56_33
	movq	%rdx, 16(%rsi)
.Lunix_path_BB56_33:
	movb	%cl, (%rdi)
	movups	%xmm0, 8(%rdi)
	movups	%xmm1, 24(%rdi)
	movups	%xmm2, 40(%rdi)
	movq	%rax, 56(%rdi)
	movaps	16(%rsp), %xmm0
	movaps	32(%rsp), %xmm1
	movups	%xmm0, 64(%rdi)
	movups	%xmm1, 80(%rdi)
	addq	$232, %rsp
	popq	%rbx
	popq	%r12
	popq	%r13
	popq	%r14
	popq	%r15
	popq	%rbp
	retq
.Lunix_path_BB56_12:
	movaps	.Lunix_path_CPI56_0(%rip), %xmm0
	movaps	%xmm0, 32(%rsp)
	movaps	%xmm0, 16(%rsp)
	movaps	.Lunix_path_CPI56_1(%rip), %xmm2
	movaps	.Lunix_path_CPI56_2(%rip), %xmm1
	movaps	.Lunix_path_CPI56_3(%rip), %xmm0
	movabsq	$3327647950551526958, %rax
	movb	$1, %cl
	movq	(%rsp), %rdi
	jmp	.Lunix_path_BB56_15
.Lunix_path_func_end56:
	.size	std.io.buffered.BufWriter.flush_buf.30751c9e8e42e953., .Lunix_path_func_end56-std.io.buffered.BufWriter.flush_buf.30751c9e8e42e953.
	.section	.rodata.cst16,"aM",@progbits,16
	.p2align	4, 0x0
.Lunix_path_CPI57_0:
	.zero	16,46
	.section	.text.std_io.io.error.Error.from_static_message,"ax",@progbits
	.p2align	4
	.type	std_io.io.error.Error.from_static_message,@function
# std_io::io::error::Error::from_static_message
std_io.io.error.Error.from_static_message:
	pushq	%rbp
	pushq	%r15
	pushq	%r14
	pushq	%r13
	pushq	%r12
	pushq	%rbx
	subq	$80, %rsp
	movl	%esi, 12(%rsp)
	movabsq	$3314649325744685056, %rbx
	movabsq	$12947848928690176, %r14
	movabsq	$50577534877696, %r11
	movabsq	$197568495616, %r10
	movq	(%rdx), %rsi
	movq	%rsi, 72(%rsp)
	movl	8(%rdx), %esi
	movq	%rsi, 64(%rsp)
	movzbl	12(%rdx), %r15d
	movzbl	13(%rdx), %esi
	movq	%rsi, 48(%rsp)
	movzbl	14(%rdx), %esi
	movq	%rsi, 56(%rsp)
	movl	$3014656, %esi
	movq	%rsi, 24(%rsp)
	movb	$46, -105(%rsp)
	movl	$771751936, %esi
	movq	%rsi, 40(%rsp)
	movl	$11776, %esi
	movq	%rsi, 32(%rsp)
	cmpq	$15, %rcx
	movq	%rcx, -32(%rsp)
	jne	.Lunix_path_BB57_2
	movl	$11776, %eax
	movq	%rax, -96(%rsp)
	movq	%rbx, %r8
	movq	%r11, -56(%rsp)
	movl	$771751936, %ebp
	movq	%rax, -40(%rsp)
	movq	%rbx, %r9
	movq	%r11, -24(%rsp)
	movl	$771751936, %esi
	movq	%rbx, 16(%rsp)
	movb	$46, -121(%rsp)
	movl	$3014656, %eax
	movq	%rax, (%rsp)
	movq	%r10, %r12
	movq	%r14, %rcx
	movb	$46, -122(%rsp)
	movq	%rax, -48(%rsp)
	movb	$46, -123(%rsp)
	movq	%r10, %r13
	movq	%r14, %rax
	movl	$3014656, %edx
	movq	%rdx, -104(%rsp)
	movl	$11776, %edx
	jmp	.Lunix_path_BB57_21
.Lunix_path_BB57_2:
	movq	%r15, -80(%rsp)
	movzbl	15(%rdx), %r11d
	shlq	$56, %r11
	cmpq	$17, %rcx
	movq	%r11, 16(%rsp)
	jb	.Lunix_path_BB57_5
	movzbl	16(%rdx), %r12d
	movb	%r12b, -121(%rsp)
	jne	.Lunix_path_BB57_8
	movl	$11776, %eax
	movq	%rax, -96(%rsp)
	movq	%rbx, %r8
	movabsq	$50577534877696, %r11
	movq	%r11, -56(%rsp)
	movl	$771751936, %ebp
	movq	%rax, -40(%rsp)
	movq	%rbx, %r9
	movq	%r11, -24(%rsp)
	movl	$771751936, %esi
	movl	$11776, %edx
	jmp	.Lunix_path_BB57_6
.Lunix_path_BB57_5:
	movl	$11776, %eax
	movq	%rax, -96(%rsp)
	movq	%rbx, %r8
	movabsq	$50577534877696, %r11
	movq	%r11, -56(%rsp)
	movl	$771751936, %ebp
	movq	%rax, -40(%rsp)
	movq	%rbx, %r9
	movq	%r11, -24(%rsp)
	movl	$771751936, %esi
	movl	$11776, %edx
	movb	$46, -121(%rsp)
.Lunix_path_BB57_6:
	movl	$3014656, %eax
	movq	%rax, (%rsp)
	movq	%r10, %r12
	movb	$46, -122(%rsp)
	movq	%rax, -48(%rsp)
	movq	%r10, %r13
	movb	$46, -123(%rsp)
	movq	%r14, %rax
	movl	$3014656, %ecx
	movq	%rcx, -104(%rsp)
	movq	%r14, %rcx
.Lunix_path_BB57_7:
	movq	-80(%rsp), %r15
	jmp	.Lunix_path_BB57_21
.Lunix_path_BB57_8:
	movzbl	17(%rdx), %esi
	shll	$8, %esi
	movq	%rsi, -120(%rsp)
	cmpq	$19, %rcx
	movq	-80(%rsp), %r15
	jb	.Lunix_path_BB57_11
	movzbl	18(%rdx), %r13d
	shll	$16, %r13d
	cmpq	$19, %rcx
	movq	%r13, (%rsp)
	jne	.Lunix_path_BB57_12
	movl	$11776, %eax
	movq	%rax, -96(%rsp)
	movq	%rbx, %r8
	movabsq	$50577534877696, %r11
	movq	%r11, -56(%rsp)
	movl	$771751936, %ebp
	movq	%rax, -40(%rsp)
	movq	%rbx, %r9
	movq	%r11, -24(%rsp)
	movl	$771751936, %esi
	jmp	.Lunix_path_BB57_16
.Lunix_path_BB57_11:
	movl	$11776, %eax
	movq	%rax, -96(%rsp)
	movq	%rbx, %r8
	movabsq	$50577534877696, %r11
	movq	%r11, -56(%rsp)
	movl	$771751936, %ebp
	movq	%rax, -40(%rsp)
	movq	%rbx, %r9
	movq	%r11, -24(%rsp)
	movl	$771751936, %esi
	movl	$3014656, %eax
	movq	%rax, (%rsp)
	movq	%r10, %r12
	movb	$46, -122(%rsp)
	jmp	.Lunix_path_BB57_18
.Lunix_path_BB57_12:
	movzbl	19(%rdx), %esi
	shll	$24, %esi
	cmpq	$21, %rcx
	jb	.Lunix_path_BB57_15
	movzbl	20(%rdx), %r12d
	shlq	$32, %r12
	cmpq	$21, %rcx
	jne	.Lunix_path_BB57_22
	movl	$11776, %eax
	movq	%rax, -96(%rsp)
	movq	%rbx, %r8
	movabsq	$50577534877696, %r11
	movq	%r11, -56(%rsp)
	movl	$771751936, %ebp
	movq	%rax, -40(%rsp)
	movq	%rbx, %r9
	movq	%r11, -24(%rsp)
	jmp	.Lunix_path_BB57_17
.Lunix_path_BB57_15:
	movl	$11776, %eax
	movq	%rax, -96(%rsp)
	movq	%rbx, %r8
	movabsq	$50577534877696, %r11
	movq	%r11, -56(%rsp)
	movl	$771751936, %ebp
	movq	%rax, -40(%rsp)
	movq	%rbx, %r9
	movq	%r11, -24(%rsp)
.Lunix_path_BB57_16:
	movq	%r10, %r12
.Lunix_path_BB57_17:
	movb	$46, -122(%rsp)
	movl	$3014656, %eax
.Lunix_path_BB57_18:
	movq	%rax, -48(%rsp)
.Lunix_path_BB57_19:
	movq	%r10, %r13
	movq	%r14, %rax
	movb	$46, -123(%rsp)
	movl	$3014656, %ecx
	movq	%rcx, -104(%rsp)
	movq	%r14, %rcx
.Lunix_path_BB57_20:
	movq	-120(%rsp), %rdx
.Lunix_path_BB57_21:
	orq	%rcx, %r12
	orq	%rdx, %rsi
	orq	-24(%rsp), %r9
	orq	%rsi, %r9
	orq	%rax, %r13
	orq	-40(%rsp), %rbp
	orq	-56(%rsp), %r8
	orq	%rbp, %r8
	orq	%r14, %r10
	movq	40(%rsp), %rdx
	orq	-96(%rsp), %rdx
	orq	%r11, %rbx
	orq	%rdx, %rbx
	movq	32(%rsp), %rsi
	orq	24(%rsp), %rsi
	shlq	$32, %r15
	addq	64(%rsp), %r15
	movq	48(%rsp), %rcx
	shlq	$40, %rcx
	orq	%rcx, %r15
	movq	56(%rsp), %rcx
	shlq	$48, %rcx
	orq	%rcx, %r15
	orq	16(%rsp), %r15
	movzbl	-105(%rsp), %edx
	orq	%rsi, %rdx
	movzbl	-123(%rsp), %ecx
	orq	-104(%rsp), %rcx
	orq	%rbx, %rcx
	orq	%r10, %rcx
	movzbl	-122(%rsp), %eax
	orq	-48(%rsp), %rax
	orq	%r8, %rax
	orq	%r13, %rax
	movzbl	-121(%rsp), %esi
	orq	(%rsp), %rsi
	orq	%r9, %rsi
	orq	%r12, %rsi
	movabsq	$3327647950548500480, %r9
	orq	%rdx, %r9
	movb	$2, (%rdi)
	movl	12(%rsp), %edx
	movb	%dl, 1(%rdi)
	movq	-32(%rsp), %rdx
	movb	%dl, 2(%rdi)
	movb	$0, 3(%rdi)
	movl	$0, 4(%rdi)
	movq	72(%rsp), %rdx
	movq	%rdx, 8(%rdi)
	movq	%r15, 16(%rdi)
	movq	%rsi, 24(%rdi)
	movq	%rax, 32(%rdi)
	movq	%rcx, 40(%rdi)
	movq	%r9, 48(%rdi)
	movaps	.Lunix_path_CPI57_0(%rip), %xmm0
	movups	%xmm0, 56(%rdi)
	movups	%xmm0, 72(%rdi)
	addq	$80, %rsp
	popq	%rbx
	popq	%r12
	popq	%r13
	popq	%r14
	popq	%r15
	popq	%rbp
	retq
.Lunix_path_BB57_22:
	movzbl	21(%rdx), %r10d
	shlq	$40, %r10
	cmpq	$23, %rcx
	movq	%r10, -24(%rsp)
	jb	.Lunix_path_BB57_25
	movzbl	22(%rdx), %eax
	shlq	$48, %rax
	cmpq	$23, %rcx
	jne	.Lunix_path_BB57_26
	movl	$11776, %ecx
	movq	%rcx, -96(%rsp)
	movq	%rbx, %r8
	movabsq	$50577534877696, %r11
	movq	%r11, -56(%rsp)
	movl	$771751936, %ebp
	movq	%rax, %rdx
	movl	$11776, %eax
	movq	%rax, -40(%rsp)
	movq	%rbx, %r9
	jmp	.Lunix_path_BB57_30
.Lunix_path_BB57_25:
	movl	$11776, %eax
	movq	%rax, -96(%rsp)
	movq	%rbx, %r8
	movabsq	$50577534877696, %r11
	movq	%r11, -56(%rsp)
	movl	$771751936, %ebp
	movq	%rax, -40(%rsp)
	movq	%rbx, %r9
	movb	$46, -122(%rsp)
	movl	$3014656, %eax
	movq	%rax, -48(%rsp)
	movabsq	$197568495616, %r10
	jmp	.Lunix_path_BB57_19
.Lunix_path_BB57_26:
	movzbl	23(%rdx), %r9d
	shlq	$56, %r9
	cmpq	$25, %rcx
	jb	.Lunix_path_BB57_29
	movq	%rax, -88(%rsp)
	movzbl	24(%rdx), %r8d
	movb	%r8b, -122(%rsp)
	jne	.Lunix_path_BB57_31
	movl	$11776, %eax
	movq	%rax, -96(%rsp)
	movq	%rbx, %r8
	movabsq	$50577534877696, %r11
	movq	%r11, -56(%rsp)
	movl	$771751936, %ebp
	movq	%rax, -40(%rsp)
	jmp	.Lunix_path_BB57_35
.Lunix_path_BB57_29:
	movl	$11776, %ecx
	movq	%rcx, -96(%rsp)
	movq	%rbx, %r8
	movabsq	$50577534877696, %r11
	movq	%r11, -56(%rsp)
	movl	$771751936, %ebp
	movq	%rax, %rdx
	movl	$11776, %eax
	movq	%rax, -40(%rsp)
.Lunix_path_BB57_30:
	movb	$46, -122(%rsp)
	movl	$3014656, %eax
	movq	%rax, -48(%rsp)
	movabsq	$197568495616, %r10
	movq	%r10, %r13
	movq	%r14, %rax
	movb	$46, -123(%rsp)
	movl	$3014656, %ecx
	movq	%rcx, -104(%rsp)
	movq	%rdx, %rcx
	jmp	.Lunix_path_BB57_20
.Lunix_path_BB57_31:
	movzbl	25(%rdx), %eax
	shll	$8, %eax
	cmpq	$27, %rcx
	movq	%rax, -40(%rsp)
	jb	.Lunix_path_BB57_34
	movq	%rsi, -72(%rsp)
	movzbl	26(%rdx), %esi
	shll	$16, %esi
	cmpq	$27, %rcx
	movq	%rsi, -48(%rsp)
	jne	.Lunix_path_BB57_36
	movl	$11776, %ecx
	movq	%rcx, -96(%rsp)
	movq	%rbx, %r8
	movabsq	$50577534877696, %r11
	movq	%r11, -56(%rsp)
	movl	$771751936, %ebp
	movabsq	$197568495616, %r10
	movq	%r10, %r13
	movq	%r14, %rax
	movb	$46, -123(%rsp)
	movl	$3014656, %ecx
	movq	%rcx, -104(%rsp)
	movq	-120(%rsp), %rdx
	movq	-72(%rsp), %rsi
	movq	-88(%rsp), %rcx
	jmp	.Lunix_path_BB57_21
.Lunix_path_BB57_34:
	movl	$11776, %ecx
	movq	%rcx, -96(%rsp)
	movq	%rbx, %r8
	movabsq	$50577534877696, %r11
	movq	%r11, -56(%rsp)
	movl	$771751936, %ebp
.Lunix_path_BB57_35:
	movl	$3014656, %eax
	movq	%rax, -48(%rsp)
	movabsq	$197568495616, %r10
	movq	%r10, %r13
	movq	%r14, %rax
	movb	$46, -123(%rsp)
	movl	$3014656, %ecx
	movq	%rcx, -104(%rsp)
	movq	-120(%rsp), %rdx
	movq	-88(%rsp), %rcx
	jmp	.Lunix_path_BB57_21
.Lunix_path_BB57_36:
	movzbl	27(%rdx), %eax
	shll	$24, %eax
	movq	%rax, -64(%rsp)
	cmpq	$29, %rcx
	jb	.Lunix_path_BB57_39
	movzbl	28(%rdx), %r13d
	shlq	$32, %r13
	cmpq	$29, %rcx
	jne	.Lunix_path_BB57_40
	movl	$11776, %eax
	movq	%rax, -96(%rsp)
	movq	%rbx, %r8
	movabsq	$50577534877696, %r11
	movq	%r11, -56(%rsp)
	movq	%r14, %rax
	movb	$46, -123(%rsp)
	movl	$3014656, %ecx
	movq	%rcx, -104(%rsp)
	jmp	.Lunix_path_BB57_47
.Lunix_path_BB57_39:
	movl	$11776, %eax
	movq	%rax, -96(%rsp)
	movq	%rbx, %r8
	movabsq	$50577534877696, %r11
	movq	%r11, -56(%rsp)
	movabsq	$197568495616, %r10
	movq	%r10, %r13
	movq	%r14, %rax
	movb	$46, -123(%rsp)
	movl	$3014656, %ecx
	movq	%rcx, -104(%rsp)
	movq	-120(%rsp), %rdx
	movq	-72(%rsp), %rsi
	movq	-64(%rsp), %rbp
	movq	-88(%rsp), %rcx
	jmp	.Lunix_path_BB57_21
.Lunix_path_BB57_40:
	movzbl	29(%rdx), %ecx
	shlq	$40, %rcx
	movq	%rcx, -56(%rsp)
	cmpq	$31, -32(%rsp)
	jb	.Lunix_path_BB57_43
	movzbl	30(%rdx), %eax
	shlq	$48, %rax
	cmpq	$31, -32(%rsp)
	jne	.Lunix_path_BB57_49
	movl	$11776, %ecx
	movq	%rcx, -96(%rsp)
	movq	%rbx, %r8
	jmp	.Lunix_path_BB57_44
.Lunix_path_BB57_43:
	movl	$11776, %eax
	movq	%rax, -96(%rsp)
	movq	%rbx, %r8
	movq	%r14, %rax
.Lunix_path_BB57_44:
	movb	$46, -123(%rsp)
.Lunix_path_BB57_45:
	movl	$3014656, %ecx
	movq	%rcx, -104(%rsp)
.Lunix_path_BB57_46:
	movabsq	$50577534877696, %r11
.Lunix_path_BB57_47:
	movq	-120(%rsp), %rdx
	movq	-72(%rsp), %rsi
	movabsq	$197568495616, %r10
.Lunix_path_BB57_48:
	movq	-64(%rsp), %rbp
	movq	-88(%rsp), %rcx
	jmp	.Lunix_path_BB57_7
.Lunix_path_BB57_49:
	movzbl	31(%rdx), %r8d
	shlq	$56, %r8
	cmpq	$33, -32(%rsp)
	jb	.Lunix_path_BB57_52
	movzbl	32(%rdx), %ecx
	movb	%cl, -123(%rsp)
	jne	.Lunix_path_BB57_53
	movl	$11776, %ecx
	movq	%rcx, -96(%rsp)
	jmp	.Lunix_path_BB57_45
.Lunix_path_BB57_52:
	movl	$11776, %ecx
	movq	%rcx, -96(%rsp)
	jmp	.Lunix_path_BB57_44
.Lunix_path_BB57_53:
	movzbl	33(%rdx), %ecx
	shll	$8, %ecx
	movq	%rcx, -96(%rsp)
	cmpq	$35, -32(%rsp)
	jb	.Lunix_path_BB57_45
	movzbl	34(%rdx), %ecx
	shll	$16, %ecx
	movq	%rcx, -104(%rsp)
	cmpq	$35, -32(%rsp)
	je	.Lunix_path_BB57_46
	movzbl	35(%rdx), %ecx
	shll	$24, %ecx
	movq	%rcx, 40(%rsp)
	cmpq	$37, -32(%rsp)
	jb	.Lunix_path_BB57_46
	movzbl	36(%rdx), %r10d
	shlq	$32, %r10
	cmpq	$37, -32(%rsp)
	jne	.Lunix_path_BB57_58
	movabsq	$50577534877696, %r11
	jmp	.Lunix_path_BB57_66
.Lunix_path_BB57_58:
	movzbl	37(%rdx), %ecx
	shlq	$40, %rcx
	movq	%rcx, -16(%rsp)
	cmpq	$39, -32(%rsp)
	jb	.Lunix_path_BB57_65
	movzbl	38(%rdx), %ecx
	shlq	$48, %rcx
	movq	%rcx, -8(%rsp)
	cmpq	$39, -32(%rsp)
	je	.Lunix_path_BB57_64
	movzbl	39(%rdx), %ebx
	shlq	$56, %rbx
	cmpq	$41, -32(%rsp)
	jb	.Lunix_path_BB57_64
	movzbl	40(%rdx), %ecx
	movb	%cl, -105(%rsp)
	je	.Lunix_path_BB57_64
	movzbl	41(%rdx), %ecx
	shll	$8, %ecx
	movq	%rcx, 32(%rsp)
	cmpq	$43, -32(%rsp)
	jb	.Lunix_path_BB57_64
	movzbl	42(%rdx), %ecx
	shll	$16, %ecx
	movq	%rcx, 24(%rsp)
.Lunix_path_BB57_64:
	movq	-16(%rsp), %r11
	movq	-8(%rsp), %r14
	jmp	.Lunix_path_BB57_66
.Lunix_path_BB57_65:
	movq	-16(%rsp), %r11
.Lunix_path_BB57_66:
	movq	-120(%rsp), %rdx
	movq	-72(%rsp), %rsi
	jmp	.Lunix_path_BB57_48
.Lunix_path_func_end57:
	.size	std_io.io.error.Error.from_static_message, .Lunix_path_func_end57-std_io.io.error.Error.from_static_message
	.section	.rodata.cst16,"aM",@progbits,16
	.p2align	4, 0x0
.Lunix_path_CPI58_0:
	.zero	16,46
.Lunix_path_CPI58_1:
	.quad	8458358670138239095
	.quad	3327647951695996518
.Lunix_path_CPI58_2:
	.quad	8367798494427701606
	.quad	2334399978102268015
.Lunix_path_CPI58_3:
	.byte	2
	.byte	23
	.byte	28
	.byte	0
	.zero	1
	.zero	1
	.zero	1
	.zero	1
	.zero	1
	.zero	1
	.zero	1
	.zero	1
	.zero	1
	.zero	1
	.zero	1
	.zero	1
.Lunix_path_CPI58_4:
	.byte	0
	.byte	35
	.byte	0
	.byte	0
	.zero	1
	.zero	1
	.zero	1
	.zero	1
	.zero	1
	.zero	1
	.zero	1
	.zero	1
	.zero	1
	.zero	1
	.zero	1
	.zero	1
.Lunix_path_CPI58_5:
	.byte	0
	.byte	35
	.byte	0
	.byte	0
	.byte	0
	.byte	0
	.byte	0
	.byte	0
	.byte	0
	.byte	0
	.byte	0
	.byte	0
	.byte	0
	.byte	0
	.byte	0
	.byte	0
.Lunix_path_CPI58_6:
	.byte	2
	.byte	23
	.byte	28
	.byte	0
	.byte	0
	.byte	0
	.byte	0
	.byte	0
	.byte	0
	.byte	0
	.byte	0
	.byte	0
	.byte	0
	.byte	0
	.byte	0
	.byte	0
	.section	.text.std_io.io.buffer.Buffer.flush,"ax",@progbits
	.p2align	4
	.type	std_io.io.buffer.Buffer.flush,@function
# std_io::io::buffer::Buffer::flush
std_io.io.buffer.Buffer.flush:
	pushq	%rbp
	pushq	%r15
	pushq	%r14
	pushq	%r13
	pushq	%r12
	pushq	%rbx
	subq	$120, %rsp
	movq	1032(%rdi), %r15
	movq	$0, 1032(%rdi)
	cmpq	$1025, %r15
	jae	.Lunix_path_BB58_15
	movq	%rdi, %rbx
	movl	(%rdi), %ebp
	movq	$-64, %r12
	xorl	%r13d, %r13d
	jmp	.Lunix_path_BB58_4
	.p2align	4
.Lunix_path_BB58_2:
	callq	rattle_errno@PLT
	cmpl	$4, %eax
	jne	.Lunix_path_BB58_13
	incq	%r12
	cmpq	%r12, %r15
	je	.Lunix_path_BB58_8
.Lunix_path_BB58_4:
	movq	%r15, %r14
	subq	%r13, %r14
	jbe	.Lunix_path_BB58_10
	leaq	4(%rbx), %rax
	leaq	(%rax,%r13), %rsi
	movl	%ebp, %edi
	movq	%r14, %rdx
	callq	write@PLT
	testq	%rax, %rax
	js	.Lunix_path_BB58_2
	je	.Lunix_path_BB58_11
	cmpq	%r14, %rax
	cmovbq	%rax, %r14
	addq	%r14, %r13
	incq	%r12
	cmpq	%r12, %r15
	jne	.Lunix_path_BB58_4
.Lunix_path_BB58_8:
	cmpq	%r13, %r15
	jbe	.Lunix_path_BB58_10
	xorps	%xmm0, %xmm0
	movaps	%xmm0, 16(%rsp)
	movaps	%xmm0, (%rsp)
	movss	.Lunix_path_CPI58_5(%rip), %xmm1
	movl	$4, %eax
	xorps	%xmm3, %xmm3
	xorps	%xmm2, %xmm2
	jmp	.Lunix_path_BB58_14
.Lunix_path_BB58_10:
	movb	$1, %al
	jmp	.Lunix_path_BB58_16
.Lunix_path_BB58_11:
	movaps	.Lunix_path_CPI58_0(%rip), %xmm2
	movaps	%xmm2, 16(%rsp)
	movaps	%xmm2, (%rsp)
	movaps	.Lunix_path_CPI58_1(%rip), %xmm3
	movaps	.Lunix_path_CPI58_2(%rip), %xmm0
	movss	.Lunix_path_CPI58_6(%rip), %xmm1
	xorl	%eax, %eax
	jmp	.Lunix_path_BB58_14
.Lunix_path_BB58_13:
	leaq	32(%rsp), %rdi
	movl	%eax, %esi
	callq	std_io.io.error.Error.from_raw_os_error
	movsd	32(%rsp), %xmm1
	movl	36(%rsp), %eax
	movups	40(%rsp), %xmm0
	movups	56(%rsp), %xmm3
	movups	72(%rsp), %xmm2
	movups	88(%rsp), %xmm4
	movaps	%xmm4, (%rsp)
	movups	104(%rsp), %xmm4
	movaps	%xmm4, 16(%rsp)
.Lunix_path_BB58_14:
	movq	$1, 1040(%rbx)
	movss	%xmm1, 1048(%rbx)
	movl	%eax, 1052(%rbx)
	movups	%xmm0, 1056(%rbx)
	movups	%xmm3, 1072(%rbx)
	movups	%xmm2, 1088(%rbx)
	movaps	(%rsp), %xmm0
	movaps	16(%rsp), %xmm1
	movups	%xmm0, 1104(%rbx)
	movups	%xmm1, 1120(%rbx)
.Lunix_path_BB58_15:
	xorl	%eax, %eax
.Lunix_path_BB58_16:
	addq	$120, %rsp
	popq	%rbx
	popq	%r12
	popq	%r13
	popq	%r14
	popq	%r15
	popq	%rbp
	retq
.Lunix_path_func_end58:
	.size	std_io.io.buffer.Buffer.flush, .Lunix_path_func_end58-std_io.io.buffer.Buffer.flush
	.section	.text.unlikely.core.fmt.formatter.Formatter.write_indented.bf264aed5fa78656.,"ax",@progbits
	.p2align	4
	.type	core.fmt.formatter.Formatter.write_indented.bf264aed5fa78656.,@function
# core::fmt::formatter::Formatter::write_indented::<#bf264aed5fa78656>
core.fmt.formatter.Formatter.write_indented.bf264aed5fa78656.:
	pushq	%rbp
	pushq	%r15
	pushq	%r14
	pushq	%r13
	pushq	%r12
	pushq	%rbx
	pushq	%rax
	testq	%rdx, %rdx
	je	.Lunix_path_BB59_1
	movq	%rsi, %r14
	movq	%rdi, %r15
	xorl	%ecx, %ecx
	xorl	%ebp, %ebp
	movq	%rdx, (%rsp)
	jmp	.Lunix_path_BB59_3
	.p2align	4
.Lunix_path_BB59_7:
	addq	%r14, %r13
	movb	$1, 1168(%r15)
	movq	%r15, %rdi
	movq	%r13, %rsi
	movq	%r12, %rdx
	callq	core.fmt.formatter.Formatter.write_raw.bf264aed5fa78656.
	movq	%rbp, %rcx
	testb	%al, %al
	movq	(%rsp), %rdx
	jne	.Lunix_path_BB59_17
.Lunix_path_BB59_8:
	cmpq	%rdx, %rbp
	je	.Lunix_path_BB59_9
.Lunix_path_BB59_3:
	movq	%rbp, %rax
	incq	%rbp
	cmpb	$10, (%r14,%rax)
	jne	.Lunix_path_BB59_8
	xorl	%r13d, %r13d
	movq	%rbp, %r12
	subq	%rcx, %r12
	cmovaeq	%rcx, %r13
	cmpq	%rax, %rcx
	movq	%rbp, %rcx
	ja	.Lunix_path_BB59_8
	cmpb	$1, 1168(%r15)
	jne	.Lunix_path_BB59_7
	movq	1160(%r15), %rbx
	testq	%rbx, %rbx
	je	.Lunix_path_BB59_7
	.p2align	4
.Lunix_path_BB59_14:
	leaq	.Lunix_path_static.53(%rip), %rsi
	movl	$4, %edx
	movq	%r15, %rdi
	callq	core.fmt.formatter.Formatter.write_raw.bf264aed5fa78656.
	testb	%al, %al
	jne	.Lunix_path_BB59_17
	decq	%rbx
	jne	.Lunix_path_BB59_14
	jmp	.Lunix_path_BB59_7
.Lunix_path_BB59_1:
	xorl	%eax, %eax
	jmp	.Lunix_path_BB59_18
.Lunix_path_BB59_9:
	xorl	%eax, %eax
	cmpq	%rdx, %rcx
	movq	%rcx, %r12
	cmovaq	%rax, %r12
	subq	%rcx, %rdx
	cmovbq	%rax, %rdx
	jbe	.Lunix_path_BB59_18
	movq	%rdx, %r13
	cmpb	$1, 1168(%r15)
	jne	.Lunix_path_BB59_12
	movq	1160(%r15), %rbx
	testq	%rbx, %rbx
	je	.Lunix_path_BB59_12
	.p2align	4
.Lunix_path_BB59_16:
	leaq	.Lunix_path_static.53(%rip), %rsi
	movl	$4, %edx
	movq	%r15, %rdi
	callq	core.fmt.formatter.Formatter.write_raw.bf264aed5fa78656.
	testb	%al, %al
	jne	.Lunix_path_BB59_17
	decq	%rbx
	jne	.Lunix_path_BB59_16
.Lunix_path_BB59_12:
	addq	%r12, %r14
	movb	$0, 1168(%r15)
	movq	%r15, %rdi
	movq	%r14, %rsi
	movq	%r13, %rdx
	addq	$8, %rsp
	popq	%rbx
	popq	%r12
	popq	%r13
	popq	%r14
	popq	%r15
	popq	%rbp
	jmp	core.fmt.formatter.Formatter.write_raw.bf264aed5fa78656.
.Lunix_path_BB59_17:
	movb	$1, %al
.Lunix_path_BB59_18:
	addq	$8, %rsp
	popq	%rbx
	popq	%r12
	popq	%r13
	popq	%r14
	popq	%r15
	popq	%rbp
	retq
.Lunix_path_func_end59:
	.size	core.fmt.formatter.Formatter.write_indented.bf264aed5fa78656., .Lunix_path_func_end59-core.fmt.formatter.Formatter.write_indented.bf264aed5fa78656.
	.section	.text.core.fmt.formatter.Formatter.write_raw.bf264aed5fa78656.,"ax",@progbits
	.p2align	4
	.type	core.fmt.formatter.Formatter.write_raw.bf264aed5fa78656.,@function
# core::fmt::formatter::Formatter::write_raw::<#bf264aed5fa78656>
core.fmt.formatter.Formatter.write_raw.bf264aed5fa78656.:
	testq	%rdx, %rdx
	je	.Lunix_path_BB60_1
	pushq	%rbp
	pushq	%r15
	pushq	%r14
	pushq	%r12
	pushq	%rbx
	movq	%rdx, %rbx
	movq	%rsi, %r14
	movq	%rdi, %r15
	xorl	%ecx, %ecx
	jmp	.Lunix_path_BB60_4
	.p2align	4
.Lunix_path_BB60_19:
	addq	%rdi, %rcx
	cmpq	%rbx, %rcx
	jae	.Lunix_path_BB60_20
.Lunix_path_BB60_4:
	movzbl	(%r14,%rcx), %edx
	movl	$1, %edi
	testb	%dl, %dl
	jns	.Lunix_path_BB60_19
	leaq	1(%rcx), %rsi
	movb	$1, %al
	cmpq	%rsi, %rbx
	jbe	.Lunix_path_BB60_26
	movzbl	(%r14,%rsi), %esi
	testb	%sil, %sil
	jns	.Lunix_path_BB60_26
	movzbl	%sil, %edi
	cmpb	$-64, %sil
	movl	$192, %esi
	cmovbl	%edi, %esi
	cmpb	$-62, %dl
	jb	.Lunix_path_BB60_26
	movl	%esi, %edi
	andb	$127, %dil
	cmpb	$63, %dil
	ja	.Lunix_path_BB60_26
	movl	$2, %edi
	cmpb	$-32, %dl
	jb	.Lunix_path_BB60_19
	leaq	2(%rcx), %rdi
	cmpq	%rdi, %rbx
	jbe	.Lunix_path_BB60_26
	cmpb	$-65, (%r14,%rdi)
	jg	.Lunix_path_BB60_26
	andl	$127, %esi
	cmpb	$-17, %dl
	ja	.Lunix_path_BB60_16
	movl	%edx, %edi
	shll	$12, %edi
	shll	$6, %esi
	addl	%edi, %esi
	addl	$-917504, %esi
	cmpl	$2048, %esi
	jb	.Lunix_path_BB60_26
	movl	$3, %edi
	cmpl	$55296, %esi
	jb	.Lunix_path_BB60_19
	cmpb	$-18, %dl
	jae	.Lunix_path_BB60_19
	jmp	.Lunix_path_BB60_26
.Lunix_path_BB60_16:
	leaq	3(%rcx), %rdi
	cmpq	%rdi, %rbx
	jbe	.Lunix_path_BB60_26
	cmpb	$-65, (%r14,%rdi)
	jg	.Lunix_path_BB60_26
	shll	$18, %edx
	shll	$12, %esi
	addl	%esi, %edx
	addl	$-62980096, %edx
	movl	$4, %edi
	cmpl	$1048575, %edx
	jbe	.Lunix_path_BB60_19
	jmp	.Lunix_path_BB60_26
.Lunix_path_BB60_1:
	xorl	%eax, %eax
	retq
.Lunix_path_BB60_20:
	movq	1032(%r15), %rcx
	xorl	%r12d, %r12d
	jmp	.Lunix_path_BB60_21
	.p2align	4
.Lunix_path_BB60_24:
	movb	%bpl, 4(%r15,%rcx)
	incq	%rcx
	movq	%rcx, 1032(%r15)
	incq	%r12
	cmpq	%r12, %rbx
	je	.Lunix_path_BB60_25
.Lunix_path_BB60_21:
	movzbl	(%r14,%r12), %ebp
	cmpq	$1024, %rcx
	jb	.Lunix_path_BB60_24
	movq	%r15, %rdi
	callq	std_io.io.buffer.Buffer.flush
	movl	%eax, %ecx
	movb	$1, %al
	testb	%cl, %cl
	je	.Lunix_path_BB60_26
	movq	1032(%r15), %rcx
	cmpq	$1023, %rcx
	jbe	.Lunix_path_BB60_24
	jmp	.Lunix_path_BB60_26
.Lunix_path_BB60_25:
	xorl	%eax, %eax
.Lunix_path_BB60_26:
	popq	%rbx
	popq	%r12
	popq	%r14
	popq	%r15
	popq	%rbp
	retq
.Lunix_path_func_end60:
	.size	core.fmt.formatter.Formatter.write_raw.bf264aed5fa78656., .Lunix_path_func_end60-core.fmt.formatter.Formatter.write_raw.bf264aed5fa78656.
	.section	.rodata.cst16,"aM",@progbits,16
	.p2align	4, 0x0
.Lunix_path_CPI61_0:
	.byte	0
	.byte	1
	.byte	2
	.byte	3
	.byte	4
	.byte	5
	.byte	6
	.byte	7
	.byte	8
	.byte	9
	.byte	10
	.byte	11
	.byte	12
	.byte	13
	.byte	14
	.byte	15
.Lunix_path_CPI61_1:
	.byte	16
	.byte	17
	.byte	18
	.byte	19
	.byte	20
	.byte	21
	.byte	22
	.byte	23
	.byte	24
	.byte	25
	.byte	26
	.byte	27
	.byte	28
	.byte	29
	.byte	30
	.byte	31
	.section	.text.main,"ax",@progbits
	.globl	program_main
	.p2align	4
	.type	program_main,@function
program_main:
	pushq	%rbp
	pushq	%r15
	pushq	%r14
	pushq	%r13
	pushq	%r12
	pushq	%rbx
	movq	%rsp, %r11
	subq	$73728, %r11
.Lunix_path_BB61_1:
	subq	$3072, %rsp
	movq	$0, (%rsp)
	cmpq	%r11, %rsp
	jne	.Lunix_path_BB61_1
	subq	$216, %rsp
	movl	$1, %esi
	movl	$13, %edi
	callq	__sysv_signal@PLT
	movl	$8192, %edi
	movl	$1, %esi
	callq	rattle_alloc@PLT
	testb	$1, %al
	je	.Lunix_path_BB61_39
	movq	%rdx, %rbx
	xorl	%r13d, %r13d
	xorl	%edi, %edi
	xorl	%esi, %esi
	movl	$1, %edx
	callq	lseek@PLT
	movq	%rax, %r14
	leaq	176(%rsp), %rdi
	movl	$8208, %edx
	xorl	%esi, %esi
	callq	memset@PLT
	testq	%r14, %r14
	setns	8384(%rsp)
	movq	$0, 8385(%rsp)
	movq	$0, 8392(%rsp)
	leaq	7(%rsp), %rax
	movq	%rax, 40(%rsp)
	movq	%rbx, 48(%rsp)
	movq	$0, 56(%rsp)
	movq	$8192, 64(%rsp)
	movq	$0, 72(%rsp)
	movq	%rax, 8(%rsp)
	movq	%rax, 16(%rsp)
	xorps	%xmm0, %xmm0
	movups	%xmm0, 24(%rsp)
	leaq	8400(%rsp), %rdi
	movl	$65536, %edx
	xorl	%esi, %esi
	callq	memset@PLT
	xorl	%r15d, %r15d
	xorl	%r14d, %r14d
	xorl	%ebp, %ebp
	jmp	.Lunix_path_BB61_6
	.p2align	4
.Lunix_path_BB61_4:
	leaq	8400(%rsp), %rsi
	movq	%r12, %rdx
	callq	memmove@PLT
.Lunix_path_BB61_5:
	addq	%r12, %r14
	movq	%r14, 24(%rsp)
	movq	%rbx, %rbp
	movq	%rbx, 32(%rsp)
	movq	8368(%rsp), %r15
	movq	8376(%rsp), %r13
.Lunix_path_BB61_6:
	movq	%r13, %rax
	movabsq	$2820983053732684064, %rbx
	subq	%r15, %rax
	jne	.Lunix_path_BB61_14
	movq	$-1, %r15
	.p2align	4
.Lunix_path_BB61_8:
	leaq	8400(%rsp), %rsi
	movl	$65536, %r12d
	movl	$65536, %edx
	xorl	%edi, %edi
	callq	read@PLT
	testq	%rax, %rax
	jns	.Lunix_path_BB61_13
	callq	rattle_errno@PLT
	leaq	80(%rsp), %rdi
	movl	%eax, %esi
	callq	std_io.io.error.Error.from_raw_os_error
	movq	80(%rsp), %rax
	shrq	$8, %rax
	movaps	.Lunix_path_CPI61_0(%rip), %xmm0
	movaps	%xmm0, 80(%rsp)
	movaps	.Lunix_path_CPI61_1(%rip), %xmm0
	movaps	%xmm0, 96(%rsp)
	movq	%rbx, 112(%rsp)
	movb	$40, 120(%rsp)
	cmpb	$41, %al
	jae	.Lunix_path_BB61_52
	andl	$63, %eax
	cmpb	$35, 80(%rsp,%rax)
	jne	.Lunix_path_BB61_52
	decq	%r15
	jne	.Lunix_path_BB61_8
	leaq	8400(%rsp), %rsi
	movl	$65536, %r12d
	movl	$65536, %edx
	xorl	%edi, %edi
	callq	read@PLT
	testq	%rax, %rax
	js	.Lunix_path_BB61_51
.Lunix_path_BB61_13:
	cmpq	$65536, %rax
	cmovbq	%rax, %r12
	movq	%r13, %r15
	jmp	.Lunix_path_BB61_15
	.p2align	4
.Lunix_path_BB61_14:
	leaq	(%rsp,%r15), %rsi
	addq	$176, %rsi
	cmpq	$65536, %rax
	movl	$65536, %r12d
	cmovbq	%rax, %r12
	leaq	8400(%rsp), %rdi
	movq	%r12, %rdx
	callq	memcpy@PLT
	addq	%r12, %r15
	movq	%r15, 8368(%rsp)
.Lunix_path_BB61_15:
	testq	%r12, %r12
	je	.Lunix_path_BB61_40
	movq	%rbp, %rbx
	movq	%rbp, %rax
	subq	%r14, %rax
	cmpq	%rax, %r12
	ja	.Lunix_path_BB61_37
.Lunix_path_BB61_17:
	movq	8(%rsp), %rax
	leaq	(%rax,%r14), %rdi
	movq	%rdi, %rax
	leaq	8400(%rsp), %rcx
	subq	%rcx, %rax
	cmpq	%r12, %rax
	jae	.Lunix_path_BB61_4
	cmpq	$4, %r12
	jb	.Lunix_path_BB61_19
	movq	%r14, %rax
	subq	%rcx, %rax
	addq	8(%rsp), %rax
	cmpq	$32, %rax
	jae	.Lunix_path_BB61_22
.Lunix_path_BB61_19:
	xorl	%eax, %eax
.Lunix_path_BB61_31:
	movq	%r12, %rdx
	movq	%rax, %rcx
	andq	$3, %rdx
	je	.Lunix_path_BB61_34
	movq	%rax, %rcx
	.p2align	4
.Lunix_path_BB61_33:
	movzbl	8400(%rsp,%rcx), %esi
	movb	%sil, (%rdi,%rcx)
	incq	%rcx
	decq	%rdx
	jne	.Lunix_path_BB61_33
.Lunix_path_BB61_34:
	subq	%r12, %rax
	cmpq	$-4, %rax
	ja	.Lunix_path_BB61_5
	movq	8(%rsp), %rax
	addq	%r14, %rax
	addq	$3, %rax
	.p2align	4
.Lunix_path_BB61_36:
	movzbl	8400(%rsp,%rcx), %edx
	movb	%dl, -3(%rax,%rcx)
	movzbl	8401(%rsp,%rcx), %edx
	movb	%dl, -2(%rax,%rcx)
	movzbl	8402(%rsp,%rcx), %edx
	movb	%dl, -1(%rax,%rcx)
	movzbl	8403(%rsp,%rcx), %edx
	movb	%dl, (%rax,%rcx)
	addq	$4, %rcx
	cmpq	%rcx, %r12
	jne	.Lunix_path_BB61_36
	jmp	.Lunix_path_BB61_5
.Lunix_path_BB61_22:
	cmpq	$32, %r12
	jae	.Lunix_path_BB61_24
	xorl	%eax, %eax
	jmp	.Lunix_path_BB61_28
.Lunix_path_BB61_24:
	movl	%r12d, %eax
	andl	$131040, %eax
	movq	8(%rsp), %rcx
	addq	%r14, %rcx
	addq	$16, %rcx
	xorl	%edx, %edx
	.p2align	4
.Lunix_path_BB61_25:
	movups	8400(%rsp,%rdx), %xmm0
	movups	8416(%rsp,%rdx), %xmm1
	movups	%xmm0, -16(%rcx,%rdx)
	movups	%xmm1, (%rcx,%rdx)
	addq	$32, %rdx
	cmpq	%rdx, %rax
	jne	.Lunix_path_BB61_25
	cmpq	%rax, %r12
	je	.Lunix_path_BB61_5
	testb	$28, %r12b
	je	.Lunix_path_BB61_31
.Lunix_path_BB61_28:
	movq	%rax, %rcx
	movl	%r12d, %eax
	andl	$131068, %eax
	.p2align	4
.Lunix_path_BB61_29:
	movl	8400(%rsp,%rcx), %edx
	movl	%edx, (%rdi,%rcx)
	addq	$4, %rcx
	cmpq	%rcx, %rax
	jne	.Lunix_path_BB61_29
	cmpq	%rax, %r12
	je	.Lunix_path_BB61_5
	jmp	.Lunix_path_BB61_31
.Lunix_path_BB61_37:
	leaq	16(%rsp), %rdi
	movq	%r12, %rsi
	callq	std_alloc.vec.Vec.grow_amortized.307f257cf2d167af.
	testb	%al, %al
	je	.Lunix_path_BB61_79
	movq	16(%rsp), %rax
	movq	%rax, 8(%rsp)
	movq	24(%rsp), %r14
	movq	32(%rsp), %rbx
	jmp	.Lunix_path_BB61_17
.Lunix_path_BB61_39:
	movb	$2, %r14b
	jmp	.Lunix_path_BB61_61
.Lunix_path_BB61_40:
	movq	16(%rsp), %r12
	leaq	40(%rsp), %rdx
	movq	%r12, %rdi
	movq	%r14, %rsi
	callq	pathtool.run.write_answers.7729a8c5e160c09a.
	testb	%al, %al
	je	.Lunix_path_BB61_43
	movl	%edx, %r14d
	testq	%rbp, %rbp
	jne	.Lunix_path_BB61_50
	jmp	.Lunix_path_BB61_55
.Lunix_path_BB61_43:
	movq	$-1, %r14
.Lunix_path_BB61_44:
	xorps	%xmm0, %xmm0
	movaps	%xmm0, 8480(%rsp)
	movaps	%xmm0, 8464(%rsp)
	movaps	%xmm0, 8448(%rsp)
	movaps	%xmm0, 8432(%rsp)
	movaps	%xmm0, 8416(%rsp)
	movaps	%xmm0, 8400(%rsp)
	leaq	8400(%rsp), %rdi
	leaq	40(%rsp), %rsi
	callq	std.io.buffered.BufWriter.flush_buf.30751c9e8e42e953.
	cmpb	$0, 8400(%rsp)
	je	.Lunix_path_BB61_75
	movzbl	8409(%rsp), %eax
	movaps	.Lunix_path_CPI61_0(%rip), %xmm0
	movaps	%xmm0, 8400(%rsp)
	movaps	.Lunix_path_CPI61_1(%rip), %xmm0
	movaps	%xmm0, 8416(%rsp)
	movq	%rbx, 8432(%rsp)
	movb	$40, 8440(%rsp)
	cmpq	$41, %rax
	jae	.Lunix_path_BB61_49
	cmpb	$35, 8400(%rsp,%rax)
	jne	.Lunix_path_BB61_49
	decq	%r14
	jne	.Lunix_path_BB61_44
	xorps	%xmm0, %xmm0
	movaps	%xmm0, 8480(%rsp)
	movaps	%xmm0, 8464(%rsp)
	movaps	%xmm0, 8448(%rsp)
	movaps	%xmm0, 8432(%rsp)
	movaps	%xmm0, 8416(%rsp)
	movaps	%xmm0, 8400(%rsp)
	leaq	8400(%rsp), %rdi
	leaq	40(%rsp), %rsi
	callq	std.io.buffered.BufWriter.flush_buf.30751c9e8e42e953.
	cmpb	$0, 8400(%rsp)
	je	.Lunix_path_BB61_75
.Lunix_path_BB61_49:
	movb	$1, %r14b
	testq	%rbp, %rbp
	je	.Lunix_path_BB61_55
.Lunix_path_BB61_50:
	movq	%r12, %rdi
	callq	rattle_dealloc@PLT
	jmp	.Lunix_path_BB61_55
.Lunix_path_BB61_51:
	callq	rattle_errno@PLT
.Lunix_path_BB61_52:
	testq	%rbp, %rbp
	je	.Lunix_path_BB61_54
	movq	16(%rsp), %rdi
	callq	rattle_dealloc@PLT
.Lunix_path_BB61_54:
	xorl	%r14d, %r14d
	movq	%r13, %r15
.Lunix_path_BB61_55:
	xorl	%ebx, %ebx
.Lunix_path_BB61_56:
	movups	40(%rsp), %xmm0
	movups	56(%rsp), %xmm1
	movaps	%xmm0, 80(%rsp)
	movaps	%xmm1, 96(%rsp)
	leaq	8400(%rsp), %rdi
	leaq	80(%rsp), %rsi
	callq	std.io.buffered.BufWriter.flush_buf.30751c9e8e42e953.
	cmpq	$0, 104(%rsp)
	je	.Lunix_path_BB61_58
	movq	88(%rsp), %rdi
	callq	rattle_dealloc@PLT
.Lunix_path_BB61_58:
	subq	%r13, %r15
	je	.Lunix_path_BB61_60
	xorl	%edi, %edi
	movq	%r15, %rsi
	movl	$1, %edx
	callq	lseek@PLT
.Lunix_path_BB61_60:
	xorl	%eax, %eax
	testb	%bl, %bl
	jne	.Lunix_path_BB61_73
.Lunix_path_BB61_61:
	movl	$2, 8400(%rsp)
	leaq	8404(%rsp), %rdi
	xorl	%ebx, %ebx
	movl	$1132, %edx
	xorl	%esi, %esi
	callq	memset@PLT
	movl	$32, 9536(%rsp)
	movq	$0, 9540(%rsp)
	movl	$0, 9548(%rsp)
	movq	$-1, 9552(%rsp)
	xorps	%xmm0, %xmm0
	movups	%xmm0, 9560(%rsp)
	movl	9536(%rsp), %eax
	movl	%eax, 176(%rsp)
	movq	9540(%rsp), %rax
	movq	%rax, 180(%rsp)
	movl	9548(%rsp), %eax
	movl	%eax, 188(%rsp)
	movq	$-1, 192(%rsp)
	movl	$32, 9536(%rsp)
	movl	$0, 9548(%rsp)
	movq	$0, 9540(%rsp)
	leaq	.Lunix_path_switch.table.main(%rip), %rax
	movzbl	%r14b, %ecx
	movq	(%rax,%rcx,8), %r15
	leaq	.Lunix_path_switch.table.main.332.rel(%rip), %r12
	movslq	(%r12,%rcx,4), %r13
	xorl	%ebp, %ebp
	jmp	.Lunix_path_BB61_63
	.p2align	4
.Lunix_path_BB61_62:
	movb	%r14b, 8404(%rsp,%rax)
	leaq	1(%rax), %rbx
	movq	%rbx, 9432(%rsp)
	incq	%rbp
	cmpq	%rbp, %r15
	je	.Lunix_path_BB61_67
.Lunix_path_BB61_63:
	movq	%r13, %rax
	addq	%rbp, %rax
	movzbl	(%r12,%rax), %r14d
	movq	%rbx, %rax
	cmpq	$1024, %rbx
	jb	.Lunix_path_BB61_62
	leaq	8400(%rsp), %rdi
	callq	std_io.io.buffer.Buffer.flush
	testb	%al, %al
	je	.Lunix_path_BB61_66
	movq	9432(%rsp), %rax
	cmpq	$1023, %rax
	jbe	.Lunix_path_BB61_62
.Lunix_path_BB61_66:
	movq	192(%rsp), %rax
	leaq	8404(%rsp), %rsi
	jmp	.Lunix_path_BB61_72
.Lunix_path_BB61_67:
	movq	192(%rsp), %rcx
	leaq	8404(%rsp), %rsi
	movq	%rcx, 1148(%rsi)
	movaps	176(%rsp), %xmm0
	movups	%xmm0, 1132(%rsi)
	movq	1148(%rsi), %rcx
	movq	%rcx, 192(%rsp)
	movups	1132(%rsi), %xmm0
	movaps	%xmm0, 176(%rsp)
	movl	$32, 9536(%rsp)
	movl	$0, 1144(%rsi)
	movq	$0, 1136(%rsi)
	movq	$-1, 9552(%rsp)
	cmpq	$0, 9560(%rsp)
	jne	.Lunix_path_BB61_74
	cmpq	$1023, %rax
	jb	.Lunix_path_BB61_70
	leaq	8400(%rsp), %rdi
	movq	%rsi, %rbx
	callq	std_io.io.buffer.Buffer.flush
	movq	%rbx, %rsi
	movq	9432(%rsp), %rbx
	cmpq	$1024, %rbx
	setb	%cl
	andb	%al, %cl
	cmpb	$1, %cl
	jne	.Lunix_path_BB61_71
.Lunix_path_BB61_70:
	movb	$10, 8404(%rsp,%rbx)
	incq	%rbx
	movq	%rbx, 9432(%rsp)
.Lunix_path_BB61_71:
	movq	192(%rsp), %rax
.Lunix_path_BB61_72:
	movq	%rax, 1148(%rsi)
	movaps	176(%rsp), %xmm0
	movups	%xmm0, 1132(%rsi)
	movl	8400(%rsp), %eax
	movl	%eax, 176(%rsp)
	leaq	180(%rsp), %rdi
	movl	$1132, %edx
	callq	memcpy@PLT
	leaq	176(%rsp), %rdi
	callq	std_io.io.buffer.Buffer.flush
	movl	$1, %eax
.Lunix_path_BB61_73:
	addq	$73944, %rsp
	popq	%rbx
	popq	%r12
	popq	%r13
	popq	%r14
	popq	%r15
	popq	%rbp
	retq
.Lunix_path_BB61_74:
	movq	%rsi, %rbx
	leaq	.Lunix_path_static.58(%rip), %rsi
	leaq	8400(%rsp), %rdi
	movl	$1, %edx
	callq	core.fmt.formatter.Formatter.write_indented.bf264aed5fa78656.
	movq	%rbx, %rsi
	jmp	.Lunix_path_BB61_71
.Lunix_path_BB61_75:
	movb	$1, %bl
	testq	%rbp, %rbp
	je	.Lunix_path_BB61_77
	movq	%r12, %rdi
	callq	rattle_dealloc@PLT
.Lunix_path_BB61_77:
	xorl	%r14d, %r14d
	jmp	.Lunix_path_BB61_56
.Lunix_path_BB61_79:
	movb	$2, %r14b
	cmpq	$0, 32(%rsp)
	je	.Lunix_path_BB61_55
	movq	16(%rsp), %rdi
	callq	rattle_dealloc@PLT
	jmp	.Lunix_path_BB61_55
.Lunix_path_func_end61:
	.size	program_main, .Lunix_path_func_end61-program_main
	.type	.Lunix_path_static.1,@object
	.section	.rodata..Lstatic.1,"a",@progbits
.Lunix_path_static.1:
	.size	.Lunix_path_static.1, 0
	.type	.Lunix_path_static.2,@object
	.section	.rodata.cst4,"aM",@progbits,4
.Lunix_path_static.2:
	.ascii	"edit"
	.size	.Lunix_path_static.2, 4
	.type	.Lunix_path_static.3,@object
	.section	.rodata..Lstatic.3,"a",@progbits
.Lunix_path_static.3:
	.ascii	"under"
	.size	.Lunix_path_static.3, 5
	.type	.Lunix_path_static.4,@object
	.section	.rodata..Lstatic.4,"a",@progbits
.Lunix_path_static.4:
	.ascii	"parts"
	.size	.Lunix_path_static.4, 5
	.type	.Lunix_path_static.5,@object
	.section	.rodata.cst4,"aM",@progbits,4
.Lunix_path_static.5:
	.ascii	"back"
	.size	.Lunix_path_static.5, 4
	.type	.Lunix_path_static.6,@object
	.section	.rodata..Lstatic.6,"a",@progbits
.Lunix_path_static.6:
	.ascii	"parent"
	.size	.Lunix_path_static.6, 6
	.type	.Lunix_path_static.7,@object
	.section	.rodata.cst4,"aM",@progbits,4
.Lunix_path_static.7:
	.ascii	"name"
	.size	.Lunix_path_static.7, 4
	.type	.Lunix_path_static.8,@object
.Lunix_path_static.8:
	.ascii	"stem"
	.size	.Lunix_path_static.8, 4
	.type	.Lunix_path_static.10,@object
	.section	.rodata..Lstatic.10,"a",@progbits
.Lunix_path_static.10:
	.ascii	"ancestors"
	.size	.Lunix_path_static.10, 9
	.type	.Lunix_path_static.11,@object
	.section	.rodata..Lstatic.11,"a",@progbits
.Lunix_path_static.11:
	.ascii	"canon"
	.size	.Lunix_path_static.11, 5
	.type	.Lunix_path_static.12,@object
	.section	.rodata.cst4,"aM",@progbits,4
.Lunix_path_static.12:
	.ascii	"show"
	.size	.Lunix_path_static.12, 4
	.type	.Lunix_path_static.13,@object
.Lunix_path_static.13:
	.ascii	"json"
	.size	.Lunix_path_static.13, 4
	.type	.Lunix_path_static.14,@object
.Lunix_path_static.14:
	.ascii	"join"
	.size	.Lunix_path_static.14, 4
	.type	.Lunix_path_static.15,@object
	.section	.rodata..Lstatic.15,"a",@progbits
.Lunix_path_static.15:
	.ascii	"strip"
	.size	.Lunix_path_static.15, 5
	.type	.Lunix_path_static.16,@object
	.section	.rodata..Lstatic.16,"a",@progbits
.Lunix_path_static.16:
	.ascii	"starts"
	.size	.Lunix_path_static.16, 6
	.type	.Lunix_path_static.17,@object
	.section	.rodata.cst4,"aM",@progbits,4
.Lunix_path_static.17:
	.ascii	"ends"
	.size	.Lunix_path_static.17, 4
	.type	.Lunix_path_static.19,@object
.Lunix_path_static.19:
	.ascii	"walk"
	.size	.Lunix_path_static.19, 4
	.type	.Lunix_path_static.20,@object
	.section	.rodata..Lstatic.20,"a",@progbits
.Lunix_path_static.20:
	.ascii	"push:"
	.size	.Lunix_path_static.20, 5
	.type	.Lunix_path_static.22,@object
	.section	.rodata..Lstatic.22,"a",@progbits
.Lunix_path_static.22:
	.ascii	"name:"
	.size	.Lunix_path_static.22, 5
	.type	.Lunix_path_static.23,@object
	.section	.rodata.cst4,"aM",@progbits,4
.Lunix_path_static.23:
	.ascii	"ext:"
	.size	.Lunix_path_static.23, 4
	.type	.Lunix_path_static.24,@object
.Lunix_path_static.24:
	.ascii	"add:"
	.size	.Lunix_path_static.24, 4
	.type	.Lunix_path_static.25,@object
	.section	.rodata..Lstatic.25,"a",@progbits
.Lunix_path_static.25:
	.ascii	"clear"
	.size	.Lunix_path_static.25, 5
	.type	.Lunix_path_static.26,@object
	.section	.rodata..Lstatic.26,"a",@progbits
.Lunix_path_static.26:
	.byte	47
	.size	.Lunix_path_static.26, 1
	.type	.Lunix_path_static.27,@object
	.section	.rodata..Lstatic.27,"a",@progbits
.Lunix_path_static.27:
	.byte	46
	.size	.Lunix_path_static.27, 1
	.type	.Lunix_path_static.28,@object
	.section	.rodata..Lstatic.28,"a",@progbits
.Lunix_path_static.28:
	.ascii	"ok"
	.size	.Lunix_path_static.28, 2
	.type	.Lunix_path_static.29,@object
	.section	.rodata.cst4,"aM",@progbits,4
.Lunix_path_static.29:
	.ascii	"true"
	.size	.Lunix_path_static.29, 4
	.type	.Lunix_path_static.30,@object
	.section	.rodata..Lstatic.30,"a",@progbits
.Lunix_path_static.30:
	.ascii	"false"
	.size	.Lunix_path_static.30, 5
	.type	.Lunix_path_static.31,@object
	.section	.rodata..Lstatic.31,"a",@progbits
.Lunix_path_static.31:
	.ascii	"separator"
	.size	.Lunix_path_static.31, 9
	.type	.Lunix_path_static.33,@object
	.section	.rodata..Lstatic.33,"a",@progbits
.Lunix_path_static.33:
	.zero	2,46
	.size	.Lunix_path_static.33, 2
	.type	.Lunix_path_static.35,@object
	.section	.rodata..Lstatic.35,"a",@progbits
.Lunix_path_static.35:
	.ascii	"\357\277\275"
	.size	.Lunix_path_static.35, 3
	.type	.Lunix_path_static.36,@object
	.section	.rodata..Lstatic.36,"a",@progbits
.Lunix_path_static.36:
	.ascii	"00010203040506070809101112131415161718192021222324252627282930313233343536373839404142434445464748495051525354555657585960616263646566676869707172737475767778798081828384858687888990919293949596979899"
	.size	.Lunix_path_static.36, 200
	.type	.Lunix_path_static.42,@object
	.section	.rodata..Lstatic.42,"a",@progbits
.Lunix_path_static.42:
	.ascii	"\":"
	.size	.Lunix_path_static.42, 2
	.type	.Lunix_path_static.43,@object
	.section	.rodata..Lstatic.43,"a",@progbits
.Lunix_path_static.43:
	.byte	34
	.size	.Lunix_path_static.43, 1
	.type	.Lunix_path_static.45,@object
	.section	.rodata..Lstatic.45,"a",@progbits
	.p2align	4, 0x0
.Lunix_path_static.45:
	.ascii	"?;\241\006)\252?\021Z\326;\222\326S\364\356\007\305$\244Y\312\307J\370ee\033f\264X\225I\366-\r\360\274y]v\277>\242\177\341\256\272\334sy\020,,\330\364So\316\212\337\231Z\351i\350K\212\233\033\007y\224\005\301\266+\240\330\221\204\342\336l\202\342H\227\371Fq\2446\310N\266%\233\026\b#\033\033\375\267\230\215MDz\342\343\367 \016\345\365\3600\376r\177x\260j\214m\2165\251Q^3-\275\275O\237\226\\\205\357\b\262\202\023\3465\200x,\255#G\274\263f+\213\3361\314\257!P\313;Lv\254U0 \373\026\213=\277\033*$\276J\337\223\027k<\350\271\334\255\r\257\2424\255m\035\327x\335\205Kb\350S\331h\255\345@\214dr\206k\2523o=q\324\207\302\030\037Q\257\375\016h\006\225\000\313\214\215\311\251\362\336f%\033\275\022\002H\272\300\375\357\360;\324WK`\3670\266K\001mt\230\376\225v\245\204-^85\275\243\236A\210\221>~;\324\316\245\271u\206\202\254L\006R\3525\316]J\211B\317\223\t\224\321\353\357Cs\262\341\240z\316\225\211\201\370\013\371\305\346\353\024\020\037\032I\031B\373\353\241\366Nww\340&\032\324\246`\233\237\022\372f\312\264\"U\225\230\260 \211\3208\202G\227\270\000\375\2605U]_n\264U\202c\261\214^s \236\035\203\2524\367\211!\353b\274\335/6\220\250\305\344#\325\001u\354\351\245{+\325\273C\264\022\367n6%!\3113\262G-;eU\252\260k\232\n\204ni\273\300\236\231\370\211\276\352\324\234\006\301\r%\312C\352p\006\300v,n%\nDH\361(W^j\222\006\0048\312\333dW\206*\315\226\362\354\365\0047\b\005\306\274\022>\355'u\200\274.h3\306DJ\206\367k\227\215\350q\222\240\353\035!\340\373j\356\263z\243~X1\207[D\223d)\330\272\005\352`YL\236\256\375hr\025\270\2753\216)\207$\271o\337E\032=\003\317\032\346V\340\370y\324\266\323\245\253k0\006b\301\320\217l\030w\230\211\244H\217\226\206\274\207\272\361\304\263\207\336\224\376\253\315\0323<\250\253)).\266\340\024\013\035\177\213\300\360\237%I\013\272\331\334q\214\331M\344^\256\360\354\007o\033\216(\020T\216\257Pa\235\366\331,\350\311J\242\2612\024\351q\333\322\\\":\b\0341\276n\005\257\237\2541'\211\006\364\252H\nc\275m\312\306\232\307\027\376p\253\b\261\325\332\314\273,\t}x\201\271\235=M\326\245\216\305\b`\365\273%N\353\360\223\202F\360\205N\362\366\n\270\362*\257!&\3558#Xl\247\341\256\264\rf\257\365\032\252o(\007,nG\321M\355\220\310\237\215\331P\312Ey\204\333\244\314\202\240(\265\272\007\361\017\345<\227\227e\022\316\177\243\310rb\251I\355S\036\f}\375\376\226\301_\314z\017\273\023\234\350\350%O\334\274\276\374\261w\377\254\351T\214a\221\261w\261\t6\367=\317\252\237\027$j\357\271\365\235\325\035\214\003u\r\203\225\307\035\255Dk(s\005K%oD\322\320\343z\3712\354\nC\371g\343Nw\305j\203b\316\354\233?\247\315\223\367A\234\"\325vE$\373\001\350\302\017\021\301xuRCk\212\324V\355y\002\242\363\251\252xk\211\023\n\203\326DV4\214AE\230S\325V\306k\230\314#\f\326kA\357\221V\276\250\212\354\267\206\276\277,\217\313\306\021k6\354\355\251\326\3632\024\327\367{9?\034\353\002\242\263\224S\314\260?\331\314\365\332\007O\343\245\203\212\340\271h\377\234\217\017@\263\321\311\"\\\217$\255X\350\241\037\302\271\t\b\020#\276\225\231\3316l7\221\212\2472(\f\n\324\253-\373\377\217DG\205\265lQ?2\217\f\311\026\371\371\377\263\025\231\346\342\343\222g\177\331\247=\256;\374\177\220\255\037\320\215\234wA\337\317\021\315\231J\373\237\364\230'D\261\203\325\021\327CV@@\035\372\3071\1771\225\335r%kf\3525(HR\374\034\177\357>}\212\317\356\005\000eC2\332f;\344^\253\216\034\255\202j\007@>\324\276\220@J\2356V\262c\330\221\242\004\350\246DwZhN\"\342uO>\2076\313\005\242\320\025\025q\002\342\252ZS\343\r\251\003>\207\312D[Z\r\203\232U1(\\Q\323\302\206\224\376\nyX\350\221\200\325\036\231\331\022\204r\2509\276M\227nb\266\340\212f\377\217\027\245\217\022\310-!=\n\373\343\230-@\377s]\316\231\013\235\2744f\346|\216\177\034\210\177h\372\200\200N\304\353\301\377\037\034r\237#j\237\0029\241 b\265f\262\377'\243N\207\254DGC\207\311\250\272b\000\237\377\361K\"\251\327\025\031\024\351\373\251\264=`\303?wo\265\311\246\255\217\254q\235\323!M8\264\017U\313\"|\020\231\263\027\316\304Hj`F\241S*~+\233T\177\240\235\001\366mB\374\313Dt\332.\373\340\224O\204\002\301\231\bS\373\376U\021\221\3729\031zc%C1\300\312'\272~\253U5y\210\237X\274\356\223=\360\336X4/\213U\301K\265c\2675u|&\226\026o\001\373\355\252\261\236\242<%\203\222\033\260\273\334\312\301y\251\025^F\313\213\356#w\"\234\352\311\036\031\354\211\315\372\013_\027uv\212\225\241\222{f\037g\354\200\371\3166]\022\024\355\372I\267\032@\347\200'\341\267\202\204\364\026Y\250y\034\345\020\210\220\260\270\354\262\321\322X\2567\t\3141\217\025\252\264\334\346\247\037\206\007\357\231\205\013?\376\262\232\324\341\223\340\221\247g\311j\000g\316\316\275\337\340$m\\,\273\310\340\275B`\000A\241\326\213\030n\210s\367\351\372XmSx@\221I\314\256\236\211jPu\2449\257Hh\226\220\365[\177\332\003\226BR\311\006\204m-\001^zy\231\217\210\203;\323\246{\b\345\310x\201\365\330\327\177\263\252d\n\210\220\232J\036\373\326\3412\317\315_`\325\177\006U\232\240\356\362\\&\315\177\241\340;\\\205\036H\352\300H\252/\364o\300\337\311\330J\263\246&\332$\361\332\224;\361\213\260W\374\216\035`\320X\b\267\326\b=\305vW\316\266]y\022<\202n\312d\fK\214vT\355\201$\265\027\027\313\242\t\375}\317]/\224\251h\242m\242\335\334}\313L|]C5;\371\323\002\013\t\013\025T]\376\257m\032J\001\305{\304\341\246\345&\215T\372\236\033\t\241\234A\266\2325\232\020\237p\260\351\270\306bK\311\003\322c\001\303\300\324\306\214\034$g\370\035\317]Bc\336\340y\370D\374\327\221v@\233\344B\365\022\374\025Y\2306V\373M6\224\020\302\235\223\262\027{[o>\304+z\341C\271\224\362B\234\317\356,\231\005\247Z[\354l\312\363\234\227S\203\203*x\377\306P1r'\b\2750\204\275(d$5V\277\370\244\275N1J\354<\345\354\231\2766\341\225w\033\2076\321^\256\023F\017\224?n\204Y{U\342(\204\205\366\231\230\027\023\271\317\211\345/\332\352\0323\345&t\300~\335W\347!v\357]\310\322\360?O\230H8o\352\226\220\251Skuz\007\355\017c\276Z\006\013\245\274\264\224(\306\022YI\350\323\373m\361\307M\316\353\341\\\331\273\253\327-qd\275\344\366\234\360`3\215\263\317\252\226My\215\275\354\2354\304,9\200\260\240\203U\374\240\327\360\354g\305A\365wG\240\334Dr\265\235\304\206\026\364`\033I\371\252,\344\211\325\316\"\305u(\03419b\233\267\3257]\254\213\202k6\2232c}\307:\202%\313\205t\327\2271\003\002\234\377]\256\274dq\367\236\323\250\206\374\375\203\002\203\177\365\331\353\275M\265\206\bS\250{\375$\303c\337r\320f-\241b\250\312g\322m\036\367Y\236\313GB`\274\244=\251\336\200\203\b\346t\360\205\276\331Rx\353\r\215S\026a\244\213\037\222l'.\220gVfQp\350[y\315\266S\333\243\330\034\272\000\366\3372Fq\331k\200\244(\322\314\016\244\350\200\363\227\277\227\315\317\206\240\315\262\006\200\022\315\"a\360}\257\375\300\203\250\310\201_\b W\200kyl]\033=\261\244\322\372\260;\005t60\343\313c\0321\306\356\246\303\234\234\212\006\021D\374\333\276\374`\275w\252\220\364\303D-H\025U\373\222\356;\271\254\025\325\264\361\364J\034M-\025\335\033u\305\363\213-\005\021\027\231]c\240xZ\324b\322\266\360\356xF\325\\\2774|\310\026q\211\373\206\344\254*\027\230\n4\357\240M=\256\3465]\324\016\254z\016\237\206\200\225\t\241\314Y`\203t\211\022W\031\322F\250\340\272K\311?p8\244\321+\327\254\237\206X\322\230\351\317\335'F\243\006c{\006\314#Tw\203\377\221B\325\261\027L\310;\032\b\277,)Ud\177\266\223J\236\035_\272\312 \312\356wsj=\037\344\234\356\202r{\264~T>\365*\210b\206\223\216C\252#O\232a\236\351\215\2625*\373g8\262\324\224\354\342\000\372\005d1\037\303\364\371\201\306\336\004\335\323\215@\274\203\336~\363\3718<\021<\213E\324H\261P\253$\226^p8G\213\025\013\256W\t\233\335$\326\255;v\214\006\031\356\332\215\331\326\345\200\n\327\245L\345\311\027\244\317\324\250\370\207L\037!\315L\317\237^\274\035\215\003\n\323\366\251\037gi\000 \303Gv+ep\204\314\207t\324s\340A\000\364\331\354);?\306\322\337\324\310\204\220XR\000q\020h\364\t\317w\307\027\n\373\245\264\356f@\215\024\202q\314\302U\271\235\314y\3170U@H\330L\361\306\277\231\325\223\342\037\254\201|jPZ\016\240\255\270/\000\3138\333'\027\242\034\205\344\360\021\b\331\246;\300\375\006\322\361\234\312c\246\035m\026J\217\220J0\275\210F.D\375\376\2072\004N\216Y\232.>v\025\354\234J\236\375)?\205\341\361\357@\272\315\323\032'D\335\305|\364\216\346Y\356+\321(\301\210\3410\225T\367\316X\0310\370t\273\202\271x\365\214>\335\224\232\001\257\037<6Rj\343\347\32620\216\024:\301\301\232'\313\303\346D\334\241\214?\274\261\231\210\361\271\300\370^:\020\253)\345\267\247\025\017`\365\226\347\360\266\366H\324\025t\336\245\021\333\022\270\262\274!\255d4[I\033\021V\017\326\221\027f\337\3534\354\276\000\331\r\261\312\225\311%\273\316\237k\223B\247\356@OQ]=\373;\357i\302\207F\270\022Q*\021\243\245\264\f\372\nk\004\263)X\346\253r\272\352\205\347\360G\334\346\302\342\017\032\367\217V\017ieg!\355Y\223\240s\333\223\340\364\263,S\303>\301ih0\270\210P\322\270\030\362\340\373\023:\307\030BA\036sUr\203sO\227\214\372\230\b\371\236\222\321\345\317\352NdP#\275\2579\277J\267F\367E\337\203\245b}$l\254\333\203\267\2162\214\272\213kr\247]\316\226\303K\211de2?/\251n\006O\021\365\201|\264\236\253\275\376\376\016{S\n\310\242Ur\242\233a\206\3266__\351,t\006\275\205u\207E\001\375\023\206\0047\267#8\021H,\347R\351\226A\374\230\247\305\004\245,\206\025Z\367\240\247\243\374Q;\177\321\373\"\347\333sM\230\232\304H\346=\023\205\357\202\272\353\340\322\320`>\301\365\332_\rXf\253\243\250&\231\007\005\371\2151\263\321\267\020\356?\226\314Rp\177IFw\361\375\037\306\345\224\351\317\273\3773\246\357\355\213\352\266\376\323\233\017\375\361a\325\237\300\217k\351.\245d\376\310\202S|n\272\312\307\260s\306\243z\316\375={ch\033\ni\275\371N\b\\\246\f\241\276\006->!Q\246a\026\234b\n\363\317OInH\270\215i\345\017\372\033\303\372\314\357\303\243\333\211Z&\361\303\336\223\370\342\363\034\340uZF)\226\370\267v:k\\\333m\230#X\023\361\227\263\273\366e\024\t\2063R\211\276,.X\355}\240jt\177Y\213g\300\246+\356\334\034W\264N\244\302\250\357\027\267@8H\333\224\023\344labM\363\222\353\335\344PF\032\022\272\027\035\310\371\272 \260wf\025\036\345\327\240\226\350.\022\035\334t\024\316\n`\3152\357\206$^\221\272V$\023\222\231\201\r\270\200\377\252\250\255\265\265il\355\227\366\377\341\020\346`\277\325\022\031#\343\301c\364\036\372?\215\312\217\234\227\305\253\357\365\215\262|\261\246\370\2170\275\263\203\375\266\226ks\261\336\333]\320\366\263|\254\240\344\274d|F\320\335k\251:Bz\360\315k\344\016\366\276\r,\242\212\306S\311\322\230l\301\206\235\222\263.\021\267J\255\267\250{\007\277\307q\350Dw`z\325d\235\330rI\255d\327\034G\021\213J|l\005_b\207\317\233\330=\r\344\230\325-]\233\307\306\366:\251\303\302N\215\020\035\377Jy4\202yx\264\211\323\2729QX*r\337\316\313`\361K\313\0206\204(\210e\356\264N\227\302\376\270\355\036\376\224C\2452\352\376)b\"=s>'\251\246=z\224\316_R?Z}5\006\b\207\270)\210f\314\034\201\367&\317\260\334\302\007\312\250&4*\200\377c\241\265\360\002\335\223\263\211\374R0\3014`\377\274\311\342\254C\324x \254\273g|\361A8?,\374\rL\252\204K\224K\325\300\3556)\203\247\233\235\021\337\324e^y\236\n1\251\204\363c\221\002\305\325\026J\377\265\027FM}\323e\360\2745C\366EN\216\277\321\316KP.\244?\026\226\001\352\231\326\341q/\206\302^\3449\215\317\233\373\201d\300LZN\273'sv]\210p\303\202z\242}\360o\370\020\325\370\007j:U&\272\221\214\205N\226\2136U\n\367\211\004\211\352\257(\266\357&\342\273.\204\352\314t\254E+\345\333\262\243\253\260\332\352\235\222\022\000\311\213\013;o\311OFk\256\310\222D7\027@\273n\316\t\313\273\343\027\006\332z\267\025\005\035\020j\nB\314\275\252\334\235\207\220Y\345-#\022J\202F\251\237\266\352\251\302T\372W\217\371\253\226\334\"\230\223GdeT\363\351\370-\263\367V\274\223+~xY\275~)p$w\371\337Z\266U<\333N\353W6\357\031\306v\352\373\213\361#k\013\222\"\346\355\003k\240w\024\345\372\256\355\354E\2166\253_\351\304\205\210\225Y\236\271\332\024\264\353\030\002\313\333\021\233Su\375\367\002\264\210\031\241&\237\302\275R\326\201\250\322\374\265\003\341\252_I\360F3m\347K\242R\007|\243D\231\325\333-V\f@\244po\245\223\204-\346\312\177\205R\271k\017P\315L\313\216\270\345\270\237\275\337\246\247\247F\023\244\000 ~\262&\037\247\007\255\227\320\310(\f\214f\000\324\216/xs\310$\314^\202\3722\017/\200\000\211r;V\220\372-\177\366\242\271\377\322:\240@+O\312k4y\371\036\264\313\250\277\207I\310\020\366\342\274\206\201\327\267&\241\376\311\327\364-}\312\331\r6\364\260\3462\270$\237\273\rry\034=P\221C1]\240?\346\355\306*\221\316\227cL\244u\224}t\210\317_\251\370\272\032\341>\276\257\206\311|\316H\265\341\333i\233ha\231\316\255[\350\373\033\002\233\"\332RD\302\303\271?B\231r\342\372\242\302A\253\220g\325\362\032\324g\311\237\207\315\334\245\031\tk\272`\305\227 \311\301\273\207\351\000T\017`\313\005\351\270\266\275h;\262\252\351#\001)\0238>G#g$\355!e\257\nr\266\240\371\013\343\206\fv\3006\224i>[\215\016\344\b\370\316\233\250\217\223pD\271\004\016\2620\022\035\013\266\302\302\222s\270\214\225\347\302Ho^+\362\306\261\271\271;H\363w\275\220\363\032\0136\266\2568\036(\250J\032\360\325\354\264\260\341\215\303c\332\306%2R\335 l\013(\342\016\2558Z~H\234W_S\212\224#\007Y\215Q\330\306\360\235Z\203-7\350\254y\354H\257\260e\216\370lE1\344\370D\"\030\230'\033\333\334\377X\033d\313\236\216\033k\025\017\277\370\360\b\212?/\"=~Fr\342\305\332\322\3566-\213\254\017\273j\314\035\330\016[w\221\207\252\204\370\255\327\351\264\302\237\022G\351\230\352\272\224\352R\273\314\206$b\263G\327\230#?\245\3519\245'\352\177\250\255:\240\031\r\177\354\216\016d\210\216\261\344\237\322\254$\0040h\317S\031\211>\025\371\356\356\243\203\327-\005<B\303\250_+\216Z\267\252\352\214\244My\006\313\022\364\2227\26611eU%\260\315\320\013\344\276\213\330\273\342\021\277>_U\027\216\200\304\016\235\256\256\316j[\326n\016\267*\235\261\240uRDZZ\202E\362\213\n\322du\004\336\310\022g\325\360\360\342\326\356.\215\006\276\222\205\025\373k`\205\226\326MFU=\030\304\266{s\355\234\206\270&<L\341\227\252L\036u\244Z\320(\304\250f0K\237\331=\325\337e\222Mq\0043\365)@\376\216\003\250F\345\253\177{\320\306\342?\2313\320\275r\004R\230\336\226_\232\204x\333\217\277@Dm\217\205f>\226|\367\300\245V\322s\357\250J\244y\023\000\347\335\255\232\230'vc\250\225R]\rX\030\300`UY\301~\261S|\022\273\246\264\020n\036\360\270\252\257q\336\235h\033\327\351\350p\312\004\023\226\263\312\r\007\253b!q&\222\"\r\375\305\227{`=\321\310U\273i\r\260\266jP|\267}\232\270\214\005;+*\304\020\\\344B\262\255\222\216`\363w\343\004[\232z\212\271\216\323\036Y7\2628\360U\034\306\361@\031\355g\262\210f/\305\336Flk\2437.\221_\350\001\337\025\240=;K\254##\306\342\274\272;1a\213\032\b\r\n^\227\354\253w\033l\251\212}9\256!J\220\2145\275\347\226U\"\307S\355\334\307\331T.\332wA\326P~uu\\T\024\352\034\210\351\271\320\325\321\013\345\335\322\222si\231$$\252d\350DK\306N^\225\207w\320\303\277-\255\324>\021\013\357;\361Z\275\264Jb\332\227<\354\204\216\325\315\352\212\255\261\354a\335\372\320\275K'\246\362J\201\245\355\030\336g\272\2249E\255\036\261\317\327\316p\207\224\317\352\200\364\374CK,\263\316\201\215\002M\251y\203%\2411\374\024^\367_B\2420C\240\023X\344n\t>;\2325\365\367\322\312\374S\210\030n\235\312\213\r\312\000\203\362\265\207\375}4U\317d\242^wH~\340\221\267\321t\236\235\201*\003\376J6\225\332\235Xv%\006\022\306\004\"\365\203\275\335\203:Q\305\356\323\256\207\226\367B5yr\226j\222\304R;uD\315\024\276\232\223\202\027\017<\005\267u'\212\222\225\000\232m\3018c\335\022\213\306$S\261,\367\272\200\000\311\361\003^\312\353\026\374\366\323\356{\332tP\240\035\227\204\365\274\246\034\273\364\210\352\032\021\222d\b\345\274\3452l\320\343\3511+\245a\225\266}J\036\354\317\237Cb.2\377:\007]\035\222\216\356\222\223\302\207\324\372\271\376\276\tI\264\24462\252w\270\263\251\211yh\276.L[\341M\304\276\224\225\346\020\n\366K\0017\235\017\331\254\260:\367|\035\220\224\214\363\236\301\204\204S\017\330\\\t5\334$\264\271o\260\006\362\245e(\023\016\264KB\023.\341\323E.D\267\207?\371\313\210Po\t\314\274\214H\3279\025\245i\217\367\376\252$\313\013\377\353\257\033M\210Z\016Ds\265\276\325\355\275\316\376\346\33300\225\370\210\nh1\227\245\2646A_p\211=|\2726+\r\302\375\374\316a\204\021w\314\253L\033i\004v\2202=\274Bz\345\325\224\277\326\017\261\301\302I\232?\246\265il\257\005\2757\206S\035r3\334\200\317\017#\204G\033G\254\305\247\250\244N@\023a\303\323+e\031\342X\027\267\321\351&1\b\254\034Zd;\337O\215\227n\022\203\243p=\n\327\243p=\n\327\243p=\n\327\243\314\314\314\314\314\314\314\314\314\314\314\314\314\314\314\314\000\000\000\000\000\000\000\000\000\000\000\000\000\000\000\200\000\000\000\000\000\000\000\000\000\000\000\000\000\000\000\240\000\000\000\000\000\000\000\000\000\000\000\000\000\000\000\310\000\000\000\000\000\000\000\000\000\000\000\000\000\000\000\372\000\000\000\000\000\000\000\000\000\000\000\000\000\000@\234\000\000\000\000\000\000\000\000\000\000\000\000\000\000P\303\000\000\000\000\000\000\000\000\000\000\000\000\000\000$\364\000\000\000\000\000\000\000\000\000\000\000\000\000\200\226\230\000\000\000\000\000\000\000\000\000\000\000\000\000 \274\276\000\000\000\000\000\000\000\000\000\000\000\000\000(k\356\000\000\000\000\000\000\000\000\000\000\000\000\000\371\002\225\000\000\000\000\000\000\000\000\000\000\000\000@\267C\272\000\000\000\000\000\000\000\000\000\000\000\000\020\245\324\350\000\000\000\000\000\000\000\000\000\000\000\000*\347\204\221\000\000\000\000\000\000\000\000\000\000\000\200\364 \346\265\000\000\000\000\000\000\000\000\000\000\000\2401\251_\343\000\000\000\000\000\000\000\000\000\000\000\004\277\311\033\216\000\000\000\000\000\000\000\000\000\000\000\305.\274\242\261\000\000\000\000\000\000\000\000\000\000@v:k\013\336\000\000\000\000\000\000\000\000\000\000\350\211\004#\307\212\000\000\000\000\000\000\000\000\000\000b\254\305\353x\255\000\000\000\000\000\000\000\000\000\200z\027\267&\327\330\000\000\000\000\000\000\000\000\000\220\254n2x\206\207\000\000\000\000\000\000\000\000\000\264W\n?\026h\251\000\000\000\000\000\000\000\000\000\241\355\314\316\033\302\323\000\000\000\000\000\000\000\000\240\204\024@aQY\204\000\000\000\000\000\000\000\000\310\245\031\220\271\245o\245\000\000\000\000\000\000\000\000:\017 \364'\217\313\316\000\000\000\000\000\000\000@\204\t\224\370x9?\201\000\000\000\000\000\000\000P\345\013\2716\327\007\217\241\000\000\000\000\000\000\000\244\336Ng\004\315\311\362\311\000\000\000\000\000\000\000M\226\"\201E@|o\374\000\000\000\000\000\000 \360\235\265p+\250\255\305\235\000\000\000\000\000\000(l\005\343L6\022\0317\305\000\000\000\000\000\0002\307\306\033\340\303V\337\204\366\000\000\000\000\000@\177<\\\021l:\226\013\023\232\000\000\000\000\000\020\237K\263\025\007\311{\316\227\300\000\000\000\000\000\324\206\036 \333H\273\032\302\275\360\000\000\000\000\200D\024\023\364\210\r\265P\231v\226\000\000\000\000\240U\331\0271\353P\342\244?\024\274\000\000\000\000\b\253\317]\375%\345\032\216O\031\353\000\000\000\000\345\312\241Z\2767\317\320\270\321\357\222\000\000\000@\236=J\361\255\005\003\005'\306\253\267\000\000\000\320\005\315\234m\031\307C\306\260\267\226\345\000\000\000\242#\000\202\344o\\\352{\3162~\217\000\000\200\212,\200\242\335\213\363\344\032\202\277]\263\000\000 \2557 \013\325n0\236\241b/5\340\000\0004\314\"\364&EE\336\002\245\235=!\214\000\000A\177+\261p\226\326\225C\016\005\215)\257\000@\021_v\335\f<L{\324QF\360\363\332\000\310j\373i\n\210\245\017\315$\363+v\330\210\000zEz\004\r\352\216S\000\356\357\266\223\016\253\200\330\326\230E\220\244rh\200\351\253\2448\322\325PG\206\177+\332\246GA\360q\353fc\243\205$\331g_\266\220\220\231QlN\246@<\f\247m\317A\367\343\264\364\377e\007\342\317PK\317\320\244!\211z\016\361\370\277\237D\355\201\022\217\201\202\rj+\031R-\367\257\307\225h\"\327\362!\243\220Dv\237\246\370\364\2339\273\002\353\214o\352\313\264\325SG\3206\362\002\bj\303%p\013\345\376\220e\224,Bb\327\001E\"\232\027&'O\237\365~\271\267\322:MB\326\252\200\235\357\360\"\307\262\336\247e\207\211\340\322\213\325\340\204+\255\353\370/\353\210\237\364U\314cw\205\f3;L\223\233\373%k\307qk\277<\325\246\317\377I\037x\302z\357E9NF\357\213\212\220\303\177\034'\026\363\254\265\313\343\360\213u\227V:\332\317q\330\355\227\027\243\276\034\355\356R=\354\310\320C\216N\351\275\335K\356c\250\252\247L'\373\304\3241\242c\355j\357t>\251\312\350\217\370\034\373$_E^\224D+\022\216S\375\342\2636\3449\356\266\326u\271\026\266\226q\250\274\333`D]\310\251dL\323\347\3151\376F\351U\211\274J:\035\352\276\017\344\220A\276\275\230c\253\253k\335\210\244\244\256\023\035\265\321-\355~<\226\226\306\024\253\315M\232Xd\342\242<T\317\345\035\036\374\354\212\240p`\267~\215\313K)C_\245%;\250\255\310\2148e\336\260\276\236\363\023\267\016\357I\022\331\372\257\206\376\025\3357Cxl2i5n\253\307\374-\024\277-\212\004T\226\007\177\303\302I\226\371{9\331.\271\254\006\351{\311^t3\334\373\367\332\207\217z\347\327\243q\355=\273(\240i\375\332\350\264\231\254\360\206\f\316h\r\3522\b\304\274\021#\"\300\327\254\250\220\001\303\220\244?\n\365+\326\253*\260\r\330\322\372\340y\332\306g&y\333e\253\032\216\b\307\2038Y\030\221\270\001pWR?V\241\261\312\270\244\206o^\265&\002L\355&\317\253\t^\375\346\315\264\005[1X\201OTxa\013\306Z^\260\200!\307\261=\256aci\3269\216w\361u\334\240\3518\036\315\031:\274\003L\310q\325m\223\023\311#\307e@\240H\253\004_:\316JIxX\373v\234?(d\r\353b{\344\300\316-K\027\235\224\203O2\275\320\245;\232\035qB\371\035]\304yd\343~\354D\217\312\000e\r\223wet\365\313\036N\317\023\213\231~ _\350\273j\277h\231~\246!\303\330\355?\236\350v\342jE\357\302\277\036\020\352\363N\351\317\305\242\024\233\305\026\253\263\357\022JrX\321\361\241\273\345\354\200;\356J\320\225\227\334\216\256En\212*\037(a\312\251]D\273\275\2232\032\327\t-\365&r\371<\024u\025\352V\234_p&&<YX\347\033\246,iM\222l\203w\f\260/\213o.\341\242\317w\303\340\266Gd\225\017\234\373m\013z\231\213\303U\364\230\344\254^\275\211A\275$G\354?7\232\265\230\337\216W\266,\354\221\354\355X\347\017\305\000\343~\227\262\355\3437g\266g)/\341S\366\300\233^=\337t\356\202\000\322\340y\275l\364\231X![\206\213\021\252\243\200\006Y\330\354\207q\300\256\351\361g\256\225\224\314 Ho\016\350\351\215p\032d\356\001\332\335\334\177\024\215\005\t1\262X\206\220\3764A\210\025\324\237Y\360FK\275\336\356\2474>\202Q\252\032\311\007p\254\030\236l\226\352\321\301\315\342\345\324\260\335\004\306k\317\342\003\2362#\231\300\255\017\205\034\025\206\267F\203\333\204E\377k\2770\231S\246c\232ge\030d\022\346\026\377F\357|\177\350\317~\300`?\217~\313On_\214\025\256O\361\201\235\3608\0173^\276\343Iw\357\232\231\243m\242\305,\007\323\277\365\255\\\034U\253\001\200\f\t\313\366\367\310\307/s\331sc*\026\002\240O\313\375\372\232\335\334\375\347g(~\332M\001\304\021\237\236\270\001\025T\375\341\201\262\035Q\241\0015\326F\306&B\032\251|Z\"\037e\245\tB\302\213\330\367Xi\260\351\215xu3_\007FiYW\347\232\256\203\034d\261\326R\0007\211\227\303/-\241\301\232\244#\275]\214g\300\204k}\264{x\t\362\340F6\226\272\267@\3702c\316PM\353E\227\230\330\303;\251\345P\266\377\373\001\245 f\027\275\276\316\264\212\023\037\345\243\377zB\316\250?]\3547\001\2616l3o\306\337\214\351\200\311G\272\223\204A]DG\000\013\270\027\360#\341\273\331\250\270\345\221t\025Y\300\r\246\035\354l\331*\020\323\346/\333h\2557\230\310\207\222\023\344\307\032\352C\220\373\021\303\230E\276\272)w\030\335y\241\344T\264z\326\363\376\326m)\364\224^T\330\311\035j\341\ffX_\246\344\231\030\035\2734'\236R\342\214\217\177.\367\317]\300^\344\351\001\261E\347\032\260s\037\372\364Cupv]dB\035\027\241!\334\250S\034yJI\006j\272~Ir\256\004\225\211\222hc\027\235\333\207\004i\336\333\016\332E\372\253\266B<]\204\322\251E\003\326\222\222P\327\370\326\262\251E\272\222#\212\013\302\305\233[\222\206[\206\036\024\327hw\254l\2162\267\202\3626h\362\247&\331\fC\225\327\0072\377d#\257D\002\357\321\270\007\350I\275\346D\177\037\037v\355ja5\203\246\tb\234l \026_\347\246\323\250\305\271\002\244\017\214z\303\207\250\3336\241\220\b\0237h\003\315\211\227,\332TII\302dZ\345k\"!\"\200l\275\267\020\252\233\333\362\375\260\336\006k\251*\240\307\254\345\224\224\202\222o=]\226\310\305S5\310\371\027\037\2729#w\313\214\364\273:\267\250B\372\373nS\024\004v*\377\327x\265\204r\251i\234\272Jh\031\205\023\365\376\r\327\342%\317\023\204\303i]\302_fX\262~\321\214[\357\302\030e\364az\331\373?w/\357\0028\231\325y/\277\230\372\330\317\372\017U\373\252\003\206\377JX\373\356\2768\317\203\371S*\272\225\204g\277].\272\252\356\203a\362{tZ\224\335\262\240\227\372\\\264*\225\344\371\356\232\021q\371\224\337\210=9tau\272]\270\252\001V\3157z\027\353\214G\321\271\022\351:\263\n\301U\340b\254\356\022\270\314\"\264\253\221\t`M1k\230{W\252\027\346\177+\241\026\266\013\270\240\375\205~Z\355\224\235\337_vI\234\343\007s\204\276\023\217X\024}\302\353\373\351\255A\216\310\217%\256\330\262nY\034\263\346zd\031\322\261\273\363\256\331\216_\312o\343_\240\231\275\237F\336TX\rH\271{\336%\356;\004\200\326#\354\212j\256\020\232\247\032V\257\351J\005 \314,\247\255\004\332\224\200Q\241+\033\244\235\006(\377\367\020\331B\b]\360\322D\373\220\206\"\004y\377\232\252\207SJt\254\007\026:5(+EW\277A\225\251\350\\\221\227\211\233\210B\362u\026-/\222\372\323\021\332\272\3765a\225i\267\t.|]\233|\204\225\220i~\203\271\372C%\2149\3334\302\233\245\273\364\003^\344g\371\224.\357\007\022\302\262\002\317\365x\302\272\356\340\033\035}\365DK\271\257a\2012\027si*\331bd\3342\026\236\247\033\272\241\376\334\317\003u\217{}\223\277\233\205\221\242(\312>\324\303DRs\332\\x\257\002\3475\313\262\374\247d\372j\023\210\b:\253\255a\260\001\277\357\235\320\375\270E\030\252\212\b\026\031z\034\302\256k\305E='W\236T\255\212[\237\230\243r\232\306\366K\206x\366\342T\2546\231c?\246\207 <\232\335\247\026\264\033jW\204\177<\317\217\251(\313\300\325Q\034\241\242Dme\237\013\303\363\323\362\375\360%\263\261\244\345Jd\237C\347Yx\304\267\236\226\356\037\336\r\237]=\207\024ap\226\265eF\274\352\247U\321\006\265\f\251Yy\f\374\"\377W\353\362\210\325B$\361\247\t\330\313\207\335u\377\026\223/\353\212Sm\355\021\f\316\276\351TS\277\334\267\372\245m\250\310h\026\217\201.$*(\357\323\345\274\207Di}\001n\371\020\235V\032yu\244\217\254\251\225\303\334\201\3117UD\354`\327\222\215\263\027\024{\364S\342\273\205jU'9\215\367p\340\216\354\314xtm\225\223b\225\270C\270\232F\214\262'\000\227\321\310z8\273\272\246TfAX\257\2361\300\374\005{\231\006ji\320\351\277Q.\333\003\037\370\275\343\354\037D\342A\"\362\027\363\374\210\303&v\255\034\350'\325Z\322\252\356\335/<\253t\260\323\330#\342q\212\361\206Uj\325;\013\326IN\204gV-\207\366Vtube\005\307\205\333ae\001\254\370(\264l\321\022\273\276\3068\247R\272\276\001\32763\341\307\205\327in\370\006\321s4\027aF\002\300\354\234\263&\002E[\244\202\220\001]\371\327\002\360'\204`\260B\026rM\243\364A\264\367\215\003\3541\245x\\\323\233\316 \314qR\241uq\004g~\316\2263\310B\002)\377\206\323\204\351\306b\000\017A> \275i\241y\237h\b\346\243x{\300R\321Mh,\304\tX\307\202\212\337\314V\232p\247Ea\20275\f.\371\221\266\013@v`\246\210\313|\261B\241\307\274\2335\244\016\320\223\370\317j\376\333]\223\211\371\253\302CM\022\304\270\366\203\005\376R5\370\353\367V\363Jp\213z3zr\303\336S!{\363Z\026\230\\L.Y\300\030Ot\326\250\351Y\260\361\033\276s\337yo\360\336b\021\f\023dp\034\356\242\355\250+\254EV\313\335\212\347\213>\306\321\324\205\224\2226\027\327+>\225m\341.\3167\006J\247\2717\004\335\314\266\215\372\310\231\272\301\305\207\034\021\350\242\"\n@\222\230\234\035\240\024\231\333\324\261\n\221K\253\f\320\266\276\003%\310Y\177\022J^M\265\035\326\017\204d\256D.:0\037\227\334\265\240\342\322\345\211\322\376\354\352\\$~s\336\251q\244\215G_,\207>\250%t\255]\020V\024\216\r\261\031w\367(N\022/\321\030u\224k\231\361P\335o\252\232\331pk\275\202/\311<\343\377\226R\212\013U\001\020M\306lc{\373\013\334\277<\347\254N\252\001T\340\367G<Z\372\016\323\357\013!\330q\n\2014\354\372\254ex\\\351\343u\247\024\207\rM\241A\2479\030\177\226\263\343\\S\321\331\250P\240\t\022\021H\336\036|\240\0344\250E\020\3232\004F\253\n\355J\223M\344\221 \211+\352\203?\205\027VM\250\035\370`]\266hk\266\344\244\216f\235\253`\022%6\271\364\343B\006\344\035\316\031`Bk|+\327\301\363x\316\351\203\256\322\200\037\370\022\206[\366L\2620\027B\344$Z\007\241'\266\227g\3623\340\336\374\234R\035\2560I\311\261\243}\001\357@\230\026<D\247\244\331|\233\373N\206\356`\225(\037\216\245\212\350\006\b.A\235\342'*\271\272\362\246\361N\255\242\b\212y\221\304\333\261tgi\257\020\256\242X\313\212\354\327\265\365)\357\250\340\241m\312\254e\027\277\326\363\246\221\231\363*\323X\n\t\375\027?\335n\314\260\020\366\277\260\365\007\357LK\374\335\216\224\212\377\334\224\363\357\216\371d\025\020\257\275J\331\234\266\037\n=\370\225\3617\276\032\324\032m\235\017D\244\247LLv\273\355\305m!\211a\310\204\023U\215\321_\337S\352\264\233\344\264\365<\3752,U\370\342\233kt\222\241\302\035\"3\214\274?wj\266\333\202\206\021\267J3\245\352?\257\253\017\025\005\244\222#\350\325\344\016@\247\362\207M\313)-\203\246;\026\261\005\217\022\020Q\357\351 >t\370#\220\312[\035\307\262\026T%k$\251M\221\366,4\275\262\344x\337\216T\367\302\266\211\320\032\032\234@\266\357\216\253\213\261)\265s$\254\204\241 \303\320\243\253r\226\256\036t\242\220-\327\345\311\350\363\304\214V\017<\332\222\210ez|\246/~q\030\373\027\226\211e\210\267\352\376\230\033\220\273\335\215\336\371\235\373\353~\252e\245>\177\"t*U1Vx\205\372\246\036\325_'\207\217\225\210:\325\3365k\223\\(3\2057\361h\363\272*\211\212V\003F\270s\362\177\246\205-C\260iu+-,\204W\246\020\357\037\320s\374)\016b);\234\233\262\366gj\365\023\202\217{\264\221\272\363I\203B_\364\001\305\362\230\242s\232!6\251p\034$\023wqBv/?\313\020\001\252\203\323\214#\355\327\324\r\323S\373\016\376\252@J2\00486\364\006\245\350c\024]\311\236\325\320\334>\005\306C\261H\316\342|Y\264{\306\n\005\224\216\206\267\224\335\332\201\033\334o\241\032\370&\203\034\031\264\362|\312(1\221\351\345\244\020\233\360\243c\037a/\034\375r}\365c\037\316\324\301\354\214<g9;c\274\317\334\362<\247\001J\362\023\330\205\340\003\005\276\325\001\312\027\206\bAn\227\030N\247\330D\206-K\202\274\235\247J\321I\275\236!\321\016\326\347\370\335\242+\205Q\235E\234\354\003\265B\311\345\220\273\312E;\363R\202\253\341\223Cb\223;\037uj=\027\n\260\347b\026\332\270\324:x\ng\022\305\f\235\f\234\241\373\233\020\347\305$\213f\200+\373'\342\207\001E}aj\220\366\355-\200`\366\371\261\332\351A\226\334\371\204\264si9\240\370sx^Qd\322\273S8\246\341\350\341#d{H\013\333\262~cU4\343\007\215b\332,=\232\032\316\221_^\274j\001\334I\260\373\020x\314@\241Av\367uk\305\001S\\\334\235\n\313\177\310\004\351\251\272)c\033\341\263\271\211D\315\275\237\372EcT)\364;b\331 (\254\225@\255Gy\027|\2513\361\312\272\017)2\327]H\314\314\253\216\355I\300\326\276\324\251Y\177\206tZ\377\277V\362h\\p\214\356I\0240\037\250\0211\377o\354.\203s\214/j\\\031\374&\322\253~\377\305S\3751\310\267]\302\331\217]X\203U^\177\267\250|>\272%\3652\320\363t.\244\3535_\345\322\033\316(o\262?\3040\022:\315\263\201[\317c\321\200y\205\317\247z^KD\200\037b2\303\274\005\341\327f\303Q\0316^U\240\247\372\376\363+G\331\215@4\246\237\303\265j\310Q\271\376\360\366\230O\261P\301\217\2074c\205\372\3233\237V\232\277\321n\322\330\271\324\000^\223\234\310\000G\354\200/\206\n\007O\350\t\2015\270\303\372\300X'a\273'\315\310bbL\341B\246\364\234x\227\270\034\3258\200\275}\275\317\314\351\347\230\303V\275\346c\nG\340,\335\254\003@\344!\277t\254l\340\374\314X\030x\024\230\004P]\352\356\310\353C\f\036\2007\017\313\f\337\002RzR\225\272\346T\217%`\005\323\375\317\226\203\346\030\247\272i *\363.\270\306G\375\203|$ \337P\351AT\372W\0353\334L~\322\315\026t\213\322\221R\351\370\255\344?\023\340\035G\201\034Q.G\266\246#w\331\335\017\030X\345\230\241c\345\371\330\343Hv\352\247\352\t\017W\217\377D^/\234g\216\332\023\345Qe\314\322,s?\3265;\203\001\262\321X^\246~\177\007\370O\317K\003\n\344\201\336\202\367\372'\257\257\004\373\221a\017B\206.\021\213c\265\371\361\232\333\305y\3669\223\322'z\325\255\274\"x\256\201R7\030t\b8\307\261\330J\331\265\025\013\r\221\223\"\217H\005\203\034o\307\316\207\"\333MPu8\353\262\232\306\243\343Jy\302\251\353Qa\244\222\006\246_A\270\214\234\235\0273\3243\323\274\246\033\304\307\333(\363\327\201\302\356\237\204\000\bl\220\"\265\271\022\363\357M\"s\352\307\245\000\n\2074k\"h\327\357k\341\352\017\3459\317@f\324\000\203\025\241\346u\343\314\362)/\204\201\320\177\t\301\343ZI`S\034\200o\364:\345\241\304\337K\261\234\261[8h#`\213\261\211^\312\265\327\236\335\003\236rFB,8\356\035,\366\374\321F\203j\302\242\007l\251\033\343\264\222\333\031\236\205\030$\005s\213\t\307\223\342\033bwR\240\305"
	.size	.Lunix_path_static.45, 10688
	.type	.Lunix_path_static.46,@object
	.section	.rodata..Lstatic.46,"a",@progbits
	.p2align	3, 0x0
.Lunix_path_static.46:
	.ascii	"\001\000\000\000\000\000\000\000\n\000\000\000\000\000\000\000d\000\000\000\000\000\000\000\350\003\000\000\000\000\000\000\020'\000\000\000\000\000\000\240\206\001\000\000\000\000\000@B\017\000\000\000\000\000\200\226\230\000\000\000\000\000\000\341\365\005\000\000\000\000\000\312\232;\000\000\000\000\000\344\013T\002\000\000\000\000\350vH\027\000\000\000\000\020\245\324\350\000\000\000\000\240rN\030\t\000\000\000@z\020\363Z\000\000\000\200\306\244~\215\003\000\000\000\301o\362\206#\000\000\000\212]xEc\001\000\000d\247\263\266\340\r\000\000\350\211\004#\307\212"
	.size	.Lunix_path_static.46, 160
	.type	.Lunix_path_static.47,@object
	.section	.rodata..Lstatic.47,"a",@progbits
.Lunix_path_static.47:
	.ascii	"\000\001\001\002\003\004\005\006\007\b\t\n\013\f\r\016\017\000\001\002\002\003\004\005\006\007\b\t\n\013\f\r\016\017\000\001\002\003\003\004\005\006\007\b\t\n\013\f\r\016\017\000\001\002\003\004\004\005\006\007\b\t\n\013\f\r\016\017\000\001\002\003\004\005\005\006\007\b\t\n\013\f\r\016\017\000\001\002\003\004\005\006\006\007\b\t\n\013\f\r\016\017\000\001\002\003\004\005\006\007\007\b\t\n\013\f\r\016\017\000\001\002\003\004\005\006\007\b\b\t\n\013\f\r\016\017\000\001\002\003\004\005\006\007\b\t\t\n\013\f\r\016\017\000\001\002\003\004\005\006\007\b\t\n\n\013\f\r\016\017\000\001\002\003\004\005\006\007\b\t\n\013\013\f\r\016\017\000\001\002\003\004\005\006\007\b\t\n\013\f\f\r\016\017\000\001\002\003\004\005\006\007\b\t\n\013\f\r\r\016\017\000\001\002\003\004\005\006\007\b\t\n\013\f\r\016\016\017\000\001\002\003\004\005\006\007\b\t\n\013\f\r\016\017\017\000\001\002\003\004\005\006\007\b\t\n\013\f\r\016\017\017"
	.size	.Lunix_path_static.47, 272
	.type	.Lunix_path_static.48,@object
	.section	.rodata..Lstatic.48,"a",@progbits
.Lunix_path_static.48:
	.ascii	"path contains invalid UTF-8 characters"
	.size	.Lunix_path_static.48, 38
	.type	.Lunix_path_static.49,@object
	.section	.rodata.cst16,"aM",@progbits,16
.Lunix_path_static.49:
	.ascii	"prefix not found"
	.size	.Lunix_path_static.49, 16
	.type	.Lunix_path_static.51,@object
	.section	.rodata..Lstatic.51,"a",@progbits
.Lunix_path_static.51:
	.ascii	"equal"
	.size	.Lunix_path_static.51, 5
	.type	.Lunix_path_static.52,@object
	.section	.rodata..Lstatic.52,"a",@progbits
.Lunix_path_static.52:
	.ascii	"greater"
	.size	.Lunix_path_static.52, 7
	.type	.Lunix_path_static.53,@object
	.section	.rodata.cst4,"aM",@progbits,4
.Lunix_path_static.53:
	.zero	4,32
	.size	.Lunix_path_static.53, 4
	.type	.Lunix_path_static.55,@object
	.section	.rodata..Lstatic.55,"a",@progbits
.Lunix_path_static.55:
	.ascii	"bad command"
	.size	.Lunix_path_static.55, 11
	.type	.Lunix_path_static.57,@object
	.section	.rodata..Lstatic.57,"a",@progbits
.Lunix_path_static.57:
	.ascii	"gave up reading or writing after 2^64 tries"
	.size	.Lunix_path_static.57, 43
	.type	.Lunix_path_static.58,@object
	.section	.rodata..Lstatic.58,"a",@progbits
.Lunix_path_static.58:
	.byte	10
	.size	.Lunix_path_static.58, 1
	.type	.Lunix_path_static.59,@object
	.section	.rodata..Lstatic.59,"a",@progbits
.Lunix_path_static.59:
	.ascii	"read error"
	.size	.Lunix_path_static.59, 10
	.type	.Lunix_path_static.60,@object
	.section	.rodata..Lstatic.60,"a",@progbits
.Lunix_path_static.60:
	.ascii	"write error"
	.size	.Lunix_path_static.60, 11
	.type	.Lunix_path_static.61,@object
	.section	.rodata..Lstatic.61,"a",@progbits
.Lunix_path_static.61:
	.ascii	"out of memory"
	.size	.Lunix_path_static.61, 13
	.type	.Lunix_path_switch.table.main,@object
	.section	.rodata..Lswitch.table.main,"a",@progbits
	.p2align	3, 0x0
.Lunix_path_switch.table.main:
	.quad	10
	.quad	11
	.quad	13
	.size	.Lunix_path_switch.table.main, 24
	.type	.Lunix_path_switch.table.main.332.rel,@object
	.section	.rodata..Lswitch.table.main.332.rel,"a",@progbits
	.p2align	2, 0x0
.Lunix_path_switch.table.main.332.rel:
	.long	.Lunix_path_static.59-.Lunix_path_switch.table.main.332.rel
	.long	.Lunix_path_static.60-.Lunix_path_switch.table.main.332.rel
	.long	.Lunix_path_static.61-.Lunix_path_switch.table.main.332.rel
	.size	.Lunix_path_switch.table.main.332.rel, 12
	.section	.note.GNU-stack,"",@progbits
