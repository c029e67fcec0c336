## unix_path 1.1.0: the calls of unix_path.h, for x86-64 macOS. Compiled from proved sources.
## tools/generate made this file. PROVED.txt has its SHA-256, and says what it was made from.
## Licensed under MIT or Apache-2.0.
	.section	__TEXT,__text,regular,pure_instructions
	.section	__TEXT,__literal16,16byte_literals
	.p2align	4, 0x0
Lunix_path_CPI0_0:
	.space	16,46
Lunix_path_CPI0_1:
	.space	16,47
	.section	__TEXT,__text,regular,pure_instructions
	.p2align	4
## unix_path::filler::trimmed_blocks_len
_unix_path.filler.trimmed_blocks_len:
	.p2align	4
Lunix_path_BB0_1:
	movq	%rsi, %rax
	cmpq	$17, %rsi
	jb	Lunix_path_BB0_3
	leaq	-16(%rax), %rsi
	movdqu	-17(%rdi,%rax), %xmm0
	movdqu	-16(%rdi,%rax), %xmm1
	movdqa	Lunix_path_CPI0_0(%rip), %xmm2
	pcmpeqb	%xmm1, %xmm2
	movdqa	Lunix_path_CPI0_1(%rip), %xmm3
	pcmpeqb	%xmm3, %xmm1
	pcmpeqb	%xmm3, %xmm0
	pand	%xmm2, %xmm0
	por	%xmm1, %xmm0
	pmovmskb	%xmm0, %ecx
	cmpl	$65535, %ecx
	je	Lunix_path_BB0_1
Lunix_path_BB0_3:
	retq
	.p2align	4
## path_archive::records::split
_path_archive.records.split:
	movb	$1, %al
	testq	%rsi, %rsi
	je	Lunix_path_BB1_54
	pushq	%rbp
	pushq	%r15
	pushq	%r14
	pushq	%r13
	pushq	%r12
	pushq	%rbx
	movq	%rcx, %rbp
	movq	%rsi, %r10
	xorl	%esi, %esi
	xorl	%ecx, %ecx
	xorl	%r11d, %r11d
Lunix_path_BB1_2:
	movq	%rsi, -16(%rsp)
	leaq	(%rdi,%r11), %rbx
	movq	%r10, %r15
	subq	%r11, %r15
	cmpq	$15, %r15
	ja	Lunix_path_BB1_6
	xorl	%esi, %esi
	.p2align	4
Lunix_path_BB1_4:
	cmpb	$0, (%rbx,%rsi)
	je	Lunix_path_BB1_12
	incq	%rsi
	cmpq	%rsi, %r15
	jne	Lunix_path_BB1_4
	jmp	Lunix_path_BB1_51
	.p2align	4
Lunix_path_BB1_6:
	movq	%r15, %r8
	addq	$-16, %r8
	je	Lunix_path_BB1_10
	xorl	%r9d, %r9d
	.p2align	4
Lunix_path_BB1_8:
	movdqu	(%rbx,%r9), %xmm0
	pxor	%xmm1, %xmm1
	pcmpeqb	%xmm0, %xmm1
	pmovmskb	%xmm1, %eax
	orl	$65536, %eax
	rep		bsfl	%eax, %eax
	cmpw	$15, %ax
	jbe	Lunix_path_BB1_11
	addq	$16, %r9
	cmpq	%r8, %r9
	jb	Lunix_path_BB1_8
Lunix_path_BB1_10:
	movdqu	(%rbx,%r8), %xmm0
	pxor	%xmm1, %xmm1
	pcmpeqb	%xmm0, %xmm1
	pmovmskb	%xmm1, %eax
	orl	$65536, %eax
	rep		bsfl	%eax, %esi
	addq	%r8, %rsi
	jmp	Lunix_path_BB1_12
Lunix_path_BB1_11:
	movzwl	%ax, %esi
	addq	%r9, %rsi
Lunix_path_BB1_12:
	leaq	(%rsi,%r11), %r14
	xorl	%r8d, %r8d
	cmpq	%r15, %rsi
	movl	$0, %r15d
	cmovbq	%r14, %r15
	jae	Lunix_path_BB1_52
	leaq	(%rdi,%r14), %r8
	incq	%r8
	incq	%r14
	movq	%r10, %r12
	subq	%r14, %r12
	cmpq	$15, %r12
	ja	Lunix_path_BB1_17
	xorl	%esi, %esi
	cmpq	%r14, %r10
	je	Lunix_path_BB1_23
	.p2align	4
Lunix_path_BB1_15:
	cmpb	$0, (%r8,%rsi)
	je	Lunix_path_BB1_23
	incq	%rsi
	cmpq	%rsi, %r12
	jne	Lunix_path_BB1_15
	jmp	Lunix_path_BB1_51
	.p2align	4
Lunix_path_BB1_17:
	movq	%r12, %r9
	addq	$-16, %r9
	je	Lunix_path_BB1_21
	xorl	%r13d, %r13d
	.p2align	4
Lunix_path_BB1_19:
	movdqu	(%r8,%r13), %xmm0
	pxor	%xmm1, %xmm1
	pcmpeqb	%xmm0, %xmm1
	pmovmskb	%xmm1, %eax
	orl	$65536, %eax
	rep		bsfl	%eax, %eax
	cmpw	$15, %ax
	jbe	Lunix_path_BB1_22
	addq	$16, %r13
	cmpq	%r9, %r13
	jb	Lunix_path_BB1_19
Lunix_path_BB1_21:
	movdqu	(%r8,%r9), %xmm0
	pxor	%xmm1, %xmm1
	pcmpeqb	%xmm0, %xmm1
	pmovmskb	%xmm1, %eax
	orl	$65536, %eax
	rep		bsfl	%eax, %esi
	addq	%r9, %rsi
	jmp	Lunix_path_BB1_23
Lunix_path_BB1_22:
	movzwl	%ax, %esi
	addq	%r13, %rsi
	.p2align	4
Lunix_path_BB1_23:
	leaq	(%rsi,%r14), %r13
	xorl	%r8d, %r8d
	cmpq	%r12, %rsi
	movl	$0, %r12d
	cmovbq	%r13, %r12
	jae	Lunix_path_BB1_52
	leaq	(%rdi,%r13), %r9
	incq	%r9
	incq	%r13
	movq	%r10, %rsi
	subq	%r13, %rsi
	cmpq	$15, %rsi
	ja	Lunix_path_BB1_28
	xorl	%r8d, %r8d
	cmpq	%r13, %r10
	je	Lunix_path_BB1_35
	.p2align	4
Lunix_path_BB1_26:
	cmpb	$0, (%r9,%r8)
	je	Lunix_path_BB1_35
	incq	%r8
	cmpq	%r8, %rsi
	jne	Lunix_path_BB1_26
	jmp	Lunix_path_BB1_51
	.p2align	4
Lunix_path_BB1_28:
	movq	%rdi, -8(%rsp)
	movq	%rbp, %rdi
	movq	%rsi, %rbp
	addq	$-16, %rbp
	je	Lunix_path_BB1_32
	xorl	%eax, %eax
	.p2align	4
Lunix_path_BB1_30:
	movdqu	(%r9,%rax), %xmm0
	pxor	%xmm1, %xmm1
	pcmpeqb	%xmm0, %xmm1
	pmovmskb	%xmm1, %r8d
	orl	$65536, %r8d
	rep		bsfl	%r8d, %r8d
	cmpw	$15, %r8w
	jbe	Lunix_path_BB1_33
	addq	$16, %rax
	cmpq	%rbp, %rax
	jb	Lunix_path_BB1_30
Lunix_path_BB1_32:
	movdqu	(%r9,%rbp), %xmm0
	pxor	%xmm1, %xmm1
	pcmpeqb	%xmm0, %xmm1
	pmovmskb	%xmm1, %eax
	orl	$65536, %eax
	rep		bsfl	%eax, %r8d
	addq	%rbp, %r8
	jmp	Lunix_path_BB1_34
Lunix_path_BB1_33:
	movzwl	%r8w, %r8d
	addq	%rax, %r8
Lunix_path_BB1_34:
	movq	%rdi, %rbp
	movq	-8(%rsp), %rdi
Lunix_path_BB1_35:
	cmpq	%rsi, %r8
	jae	Lunix_path_BB1_51
	subq	%r11, %r15
	movl	$4, %r9d
	cmpq	$1, %r15
	jne	Lunix_path_BB1_42
	movzbl	(%rbx), %eax
	addl	$-100, %eax
	cmpl	$8, %eax
	ja	Lunix_path_BB1_42
	leaq	Lunix_path_JTI1_0(%rip), %rsi
	movslq	(%rsi,%rax,4), %rax
	addq	%rsi, %rax
	jmpq	*%rax
Lunix_path_BB1_39:
	movl	$5, %r9d
	.p2align	4
Lunix_path_BB1_42:
	xorl	%r11d, %r11d
	movq	-16(%rsp), %rsi
	cmpq	%rbp, %rsi
	jae	Lunix_path_BB1_44
Lunix_path_BB1_43:
	leaq	(%rsi,%rsi,4), %rax
	movq	%r14, (%rdx,%rax,8)
	movq	%r12, 8(%rdx,%rax,8)
	movq	%r9, 16(%rdx,%rax,8)
	movq	%rcx, 24(%rdx,%rax,8)
	movq	$0, 32(%rdx,%rax,8)
Lunix_path_BB1_44:
	addq	%r13, %r8
	leaq	1(%rsi), %rax
	testb	%r11b, %r11b
	je	Lunix_path_BB1_48
	cmpq	%rbp, %rax
	jae	Lunix_path_BB1_47
	incq	%r12
	leaq	(%rax,%rax,4), %rax
	movq	%r12, (%rdx,%rax,8)
	movq	%r8, 8(%rdx,%rax,8)
	movq	$2, 16(%rdx,%rax,8)
	movq	%rcx, 24(%rdx,%rax,8)
	movq	$0, 32(%rdx,%rax,8)
Lunix_path_BB1_47:
	addq	$2, %rsi
	jmp	Lunix_path_BB1_49
	.p2align	4
Lunix_path_BB1_48:
	movq	%rax, %rsi
Lunix_path_BB1_49:
	incq	%r8
	incq	%rcx
	movq	%r8, %r11
	cmpq	%r10, %r8
	jb	Lunix_path_BB1_2
	jmp	Lunix_path_BB1_57
Lunix_path_BB1_40:
	movl	$1, %r9d
	movb	$1, %r11b
	movq	-16(%rsp), %rsi
	cmpq	%rbp, %rsi
	jb	Lunix_path_BB1_43
	jmp	Lunix_path_BB1_44
Lunix_path_BB1_41:
	movl	$3, %r9d
	xorl	%r11d, %r11d
	movq	-16(%rsp), %rsi
	cmpq	%rbp, %rsi
	jae	Lunix_path_BB1_44
	jmp	Lunix_path_BB1_43
Lunix_path_BB1_50:
	xorl	%r11d, %r11d
	xorl	%r9d, %r9d
	movq	-16(%rsp), %rsi
	cmpq	%rbp, %rsi
	jb	Lunix_path_BB1_43
	jmp	Lunix_path_BB1_44
Lunix_path_BB1_51:
	xorl	%r8d, %r8d
Lunix_path_BB1_52:
	xorl	%eax, %eax
Lunix_path_BB1_53:
	popq	%rbx
	popq	%r12
	popq	%r13
	popq	%r14
	popq	%r15
	popq	%rbp
	movq	%r8, %rdx
	retq
Lunix_path_BB1_54:
	xorl	%r8d, %r8d
	movq	%r8, %rdx
	retq
Lunix_path_BB1_57:
	movq	%rsi, %r8
	movb	$1, %al
	jmp	Lunix_path_BB1_53
	.p2align	2
	.data_region jt32
Lunix_path_1_0_set_39 = Lunix_path_BB1_39-Lunix_path_JTI1_0
Lunix_path_1_0_set_42 = Lunix_path_BB1_42-Lunix_path_JTI1_0
Lunix_path_1_0_set_41 = Lunix_path_BB1_41-Lunix_path_JTI1_0
Lunix_path_1_0_set_40 = Lunix_path_BB1_40-Lunix_path_JTI1_0
Lunix_path_1_0_set_50 = Lunix_path_BB1_50-Lunix_path_JTI1_0
Lunix_path_JTI1_0:
	.long	Lunix_path_1_0_set_39
	.long	Lunix_path_1_0_set_42
	.long	Lunix_path_1_0_set_41
	.long	Lunix_path_1_0_set_42
	.long	Lunix_path_1_0_set_40
	.long	Lunix_path_1_0_set_42
	.long	Lunix_path_1_0_set_42
	.long	Lunix_path_1_0_set_42
	.long	Lunix_path_1_0_set_50
	.end_data_region
	.p2align	4
## core::cmp::slices::groups_equal::<i8,31'core::cmp::numbers::U8PartialEq{}>
_core.cmp.slices.groups_equal.i8.31.core.cmp.numbers.U8PartialEq.:
	cmpq	$8, %rsi
	ja	Lunix_path_BB2_2
	movd	-4(%rdi,%rsi), %xmm0
	movd	(%rdi), %xmm1
	punpckldq	%xmm0, %xmm1
	movd	-4(%rdx,%rsi), %xmm0
	movd	(%rdx), %xmm2
	punpckldq	%xmm0, %xmm2
	movq	%xmm1, %rax
	movq	%xmm2, %rcx
	cmpq	%rcx, %rax
	jmp	Lunix_path_BB2_17
Lunix_path_BB2_2:
	cmpq	$32, %rsi
	ja	Lunix_path_BB2_4
	leaq	-8(%rsi), %rax
	cmpq	$8, %rax
	movl	$8, %ecx
	cmovbq	%rax, %rcx
	cmpq	$16, %rax
	movl	$16, %r8d
	cmovbq	%rax, %r8
	movq	(%rdi,%rcx), %xmm0
	movq	(%rdi), %xmm1
	punpcklqdq	%xmm0, %xmm1
	movq	(%rdi,%r8), %xmm0
	movq	-8(%rdi,%rsi), %xmm2
	punpcklqdq	%xmm2, %xmm0
	movq	(%rdx,%rcx), %xmm2
	movq	(%rdx), %xmm3
	punpcklqdq	%xmm2, %xmm3
	pcmpeqb	%xmm1, %xmm3
	movq	(%rdx,%r8), %xmm1
	movq	-8(%rdx,%rsi), %xmm2
	punpcklqdq	%xmm2, %xmm1
	pcmpeqb	%xmm0, %xmm1
	pand	%xmm3, %xmm1
	pmovmskb	%xmm1, %eax
	jmp	Lunix_path_BB2_16
Lunix_path_BB2_4:
	cmpq	$65, %rsi
	jae	Lunix_path_BB2_5
	movdqu	(%rdi), %xmm0
	movdqu	16(%rdi), %xmm1
	movdqu	(%rdx), %xmm2
	pcmpeqb	%xmm0, %xmm2
	movdqu	16(%rdx), %xmm0
	pcmpeqb	%xmm1, %xmm0
	movdqu	-32(%rdi,%rsi), %xmm1
	movdqu	-16(%rdi,%rsi), %xmm3
	movdqu	-32(%rdx,%rsi), %xmm4
	pcmpeqb	%xmm1, %xmm4
	pand	%xmm2, %xmm4
	movdqu	-16(%rdx,%rsi), %xmm1
	pcmpeqb	%xmm3, %xmm1
	pand	%xmm0, %xmm1
	pand	%xmm4, %xmm1
	pmovmskb	%xmm1, %eax
	jmp	Lunix_path_BB2_16
Lunix_path_BB2_5:
	xorl	%eax, %eax
	movq	%rsi, %rcx
	.p2align	4
Lunix_path_BB2_6:
	movdqu	(%rdi,%rax), %xmm0
	movdqu	16(%rdi,%rax), %xmm1
	movdqu	32(%rdi,%rax), %xmm2
	movdqu	48(%rdi,%rax), %xmm3
	movdqu	(%rdx,%rax), %xmm4
	pcmpeqb	%xmm0, %xmm4
	movdqu	16(%rdx,%rax), %xmm0
	pcmpeqb	%xmm1, %xmm0
	movdqu	32(%rdx,%rax), %xmm1
	pcmpeqb	%xmm2, %xmm1
	pand	%xmm4, %xmm1
	movdqu	48(%rdx,%rax), %xmm2
	pcmpeqb	%xmm3, %xmm2
	pand	%xmm0, %xmm2
	pand	%xmm1, %xmm2
	pmovmskb	%xmm2, %r8d
	cmpl	$65535, %r8d
	jne	Lunix_path_BB2_8
	addq	$64, %rax
	addq	$-64, %rcx
	cmpq	$63, %rcx
	ja	Lunix_path_BB2_6
Lunix_path_BB2_8:
	cmpq	$32, %rcx
	jb	Lunix_path_BB2_15
	movq	%rsi, %rcx
	subq	%rax, %rcx
	.p2align	4
Lunix_path_BB2_10:
	movdqu	(%rdi,%rax), %xmm0
	movdqu	16(%rdi,%rax), %xmm1
	movdqu	(%rdx,%rax), %xmm2
	pcmpeqb	%xmm0, %xmm2
	movdqu	16(%rdx,%rax), %xmm0
	pcmpeqb	%xmm1, %xmm0
	pand	%xmm2, %xmm0
	pmovmskb	%xmm0, %r8d
	xorl	$65535, %r8d
	jne	Lunix_path_BB2_14
	addq	$32, %rax
	addq	$-32, %rcx
	cmpq	$31, %rcx
	ja	Lunix_path_BB2_10
	jmp	Lunix_path_BB2_15
Lunix_path_BB2_14:
	movb	$1, %al
	cmpq	$31, %rcx
	ja	Lunix_path_BB2_18
Lunix_path_BB2_15:
	movdqu	-32(%rdi,%rsi), %xmm0
	movdqu	-16(%rdi,%rsi), %xmm1
	movdqu	-32(%rdx,%rsi), %xmm2
	pcmpeqb	%xmm0, %xmm2
	movdqu	-16(%rdx,%rsi), %xmm0
	pcmpeqb	%xmm1, %xmm0
	pand	%xmm2, %xmm0
	pmovmskb	%xmm0, %eax
Lunix_path_BB2_16:
	xorl	$65535, %eax
Lunix_path_BB2_17:
	setne	%al
Lunix_path_BB2_18:
	xorb	$1, %al
	retq
	.p2align	4
## core::slice::sort::small::insertion_sort::<#fd4dfef4a36ac24b>
_core.slice.sort.small.insertion_sort.fd4dfef4a36ac24b.:
	pushq	%rbp
	pushq	%r15
	pushq	%r14
	pushq	%r13
	pushq	%r12
	pushq	%rbx
	subq	$104, %rsp
	movq	%rdi, 8(%rsp)
	movq	(%rdx), %rax
	movq	%rax, 24(%rsp)
	movq	%rdx, 48(%rsp)
	movq	8(%rdx), %rax
	movq	%rax, 16(%rsp)
	movq	%rsi, 80(%rsp)
	cmpq	$2, %rsi
	jb	Lunix_path_BB3_12
	movq	8(%rsp), %rax
	addq	$-40, %rax
	movq	%rax, 32(%rsp)
	movl	$1, %edx
	jmp	Lunix_path_BB3_2
Lunix_path_BB3_4:
	xorl	%eax, %eax
Lunix_path_BB3_10:
	movq	8(%rsp), %rcx
	movq	%rdi, (%rcx,%rax)
	movq	%r8, 8(%rcx,%rax)
	movq	%r13, 16(%rcx,%rax)
	movq	%r15, 24(%rcx,%rax)
	movq	%rsi, 32(%rcx,%rax)
Lunix_path_BB3_11:
	incq	%rdx
	addq	$40, 32(%rsp)
	cmpq	80(%rsp), %rdx
	je	Lunix_path_BB3_12
Lunix_path_BB3_2:
	movq	%rdx, 40(%rsp)
	leaq	(%rdx,%rdx,4), %rbx
	movq	8(%rsp), %rbp
	movq	(%rbp,%rbx,8), %rax
	movq	8(%rbp,%rbx,8), %rsi
	movq	16(%rsp), %r15
	cmpq	%rsi, %r15
	cmovbq	%r15, %rsi
	cmpq	%rax, %rsi
	cmovbq	%rsi, %rax
	movq	24(%rsp), %r14
	leaq	(%r14,%rax), %rdi
	subq	%rax, %rsi
	callq	_path_archive.slot.without_dot
	movq	%rax, %r12
	movq	%rdx, %r13
	movq	-40(%rbp,%rbx,8), %rax
	movq	-32(%rbp,%rbx,8), %rsi
	cmpq	%rsi, %r15
	cmovbq	%r15, %rsi
	cmpq	%rax, %rsi
	cmovbq	%rsi, %rax
	leaq	(%r14,%rax), %rdi
	subq	%rax, %rsi
	callq	_path_archive.slot.without_dot
	movq	%rdx, %rcx
	movq	%r12, %rdi
	movq	%r13, %rsi
	movq	%rax, %rdx
	callq	_unix_path.compare.compare
	movq	16(%rbp,%rbx,8), %r13
	movq	24(%rbp,%rbx,8), %r15
	movq	-16(%rbp,%rbx,8), %rcx
	cmpq	%rcx, %r15
	setae	%dl
	addb	%dl, %dl
	cmpq	%rcx, %r15
	movq	-24(%rbp,%rbx,8), %rcx
	movzbl	%dl, %edx
	movl	$1, %esi
	cmovnel	%edx, %esi
	cmpq	%rcx, %r13
	setae	%dl
	addb	%dl, %dl
	cmpq	%rcx, %r13
	movzbl	%dl, %ecx
	movq	40(%rsp), %rdx
	cmovel	%esi, %ecx
	cmpb	$1, %al
	movzbl	%al, %eax
	cmovel	%ecx, %eax
	testb	%al, %al
	jne	Lunix_path_BB3_11
	movq	8(%rsp), %rax
	leaq	(%rax,%rbx,8), %rax
	movq	%rdx, %r14
	movq	(%rax), %rdi
	movq	8(%rax), %r8
	movq	32(%rax), %rsi
	movups	-40(%rax), %xmm0
	movups	-24(%rax), %xmm1
	movups	%xmm0, (%rax)
	movups	%xmm1, 16(%rax)
	movq	-8(%rax), %rcx
	movq	%rcx, 32(%rax)
	decq	%r14
	je	Lunix_path_BB3_4
	movq	%rsi, 72(%rsp)
	movq	16(%rsp), %rax
	cmpq	%r8, %rax
	movq	%r8, 56(%rsp)
	cmovbq	%rax, %r8
	cmpq	%rdi, %r8
	movq	%rdi, 64(%rsp)
	movq	%rdi, %rax
	cmovbq	%r8, %rax
	movq	24(%rsp), %rcx
	addq	%rax, %rcx
	movq	%rcx, 88(%rsp)
	subq	%rax, %r8
	movq	%r8, 96(%rsp)
	movq	32(%rsp), %r12
	.p2align	4
Lunix_path_BB3_6:
	movq	88(%rsp), %rdi
	movq	96(%rsp), %rsi
	callq	_path_archive.slot.without_dot
	movq	%rax, %rbp
	movq	%rdx, %rbx
	movq	(%r12), %rax
	movq	8(%r12), %rsi
	movq	16(%rsp), %rcx
	cmpq	%rsi, %rcx
	cmovbq	%rcx, %rsi
	cmpq	%rax, %rsi
	cmovbq	%rsi, %rax
	movq	24(%rsp), %rcx
	leaq	(%rcx,%rax), %rdi
	subq	%rax, %rsi
	callq	_path_archive.slot.without_dot
	movq	%rdx, %rcx
	movq	%rbp, %rdi
	movq	%rbx, %rsi
	movq	%rax, %rdx
	callq	_unix_path.compare.compare
	movq	24(%r12), %rcx
	cmpq	%rcx, %r15
	setae	%dl
	addb	%dl, %dl
	cmpq	%rcx, %r15
	movq	16(%r12), %rcx
	movzbl	%dl, %edx
	movl	$1, %esi
	cmovnel	%edx, %esi
	cmpq	%rcx, %r13
	setae	%dl
	addb	%dl, %dl
	cmpq	%rcx, %r13
	movzbl	%dl, %ecx
	cmovel	%esi, %ecx
	cmpb	$1, %al
	movzbl	%al, %eax
	cmovel	%ecx, %eax
	testb	%al, %al
	jne	Lunix_path_BB3_9
	decq	%r14
	movq	32(%r12), %rax
	movq	%rax, 72(%r12)
	movups	(%r12), %xmm0
	movups	16(%r12), %xmm1
	movups	%xmm1, 56(%r12)
	movups	%xmm0, 40(%r12)
	addq	$-40, %r12
	testq	%r14, %r14
	jne	Lunix_path_BB3_6
	xorl	%r14d, %r14d
Lunix_path_BB3_9:
	shlq	$3, %r14
	leaq	(%r14,%r14,4), %rax
	movq	40(%rsp), %rdx
	movq	72(%rsp), %rsi
	movq	64(%rsp), %rdi
	movq	56(%rsp), %r8
	jmp	Lunix_path_BB3_10
Lunix_path_BB3_12:
	movq	48(%rsp), %rax
	movq	24(%rsp), %rcx
	movq	%rcx, (%rax)
	movq	16(%rsp), %rcx
	movq	%rcx, 8(%rax)
	addq	$104, %rsp
	popq	%rbx
	popq	%r12
	popq	%r13
	popq	%r14
	popq	%r15
	popq	%rbp
	retq
	.p2align	4
## path_archive::slot::without_dot
_path_archive.slot.without_dot:
	pushq	%r14
	pushq	%rbx
	subq	$24, %rsp
	movq	%rsi, %r14
	movq	%rdi, %rbx
	testq	%rsi, %rsi
	je	Lunix_path_BB4_36
	movq	%r14, %rdx
	movq	%r14, %rax
	jmp	Lunix_path_BB4_3
	.p2align	4
Lunix_path_BB4_2:
	movq	%rax, %rdx
	testq	%rax, %rax
	je	Lunix_path_BB4_36
Lunix_path_BB4_3:
	decq	%rax
	je	Lunix_path_BB4_9
	movzbl	(%rbx,%rax), %ecx
	cmpl	$47, %ecx
	je	Lunix_path_BB4_7
	cmpl	$46, %ecx
	jne	Lunix_path_BB4_9
	cmpb	$47, -1(%rbx,%rax)
	jne	Lunix_path_BB4_9
Lunix_path_BB4_7:
	movq	%r14, %rcx
	subq	%rax, %rcx
	cmpq	$8, %rcx
	jne	Lunix_path_BB4_2
	movq	%rbx, %rdi
	movq	%rax, %rsi
	callq	_unix_path.filler.trimmed_blocks_len
	jmp	Lunix_path_BB4_2
Lunix_path_BB4_9:
	xorps	%xmm0, %xmm0
	movaps	%xmm0, (%rsp)
	movq	$0, 16(%rsp)
	movzbl	(%rbx), %ecx
	cmpb	$46, %cl
	jne	Lunix_path_BB4_14
	cmpq	$1, %rdx
	je	Lunix_path_BB4_13
	cmpb	$47, 1(%rbx)
	je	Lunix_path_BB4_13
	cmpb	$47, (%rbx)
	jne	Lunix_path_BB4_22
Lunix_path_BB4_13:
	incq	%rbx
	decq	%rdx
	movq	%rdx, %r14
	jmp	Lunix_path_BB4_27
Lunix_path_BB4_14:
	movw	$47, %si
	xorl	%eax, %eax
	cmpq	%rdx, %rax
	jae	Lunix_path_BB4_23
Lunix_path_BB4_15:
	movzbl	(%rbx,%rax), %edi
	cmpw	$47, %di
	jne	Lunix_path_BB4_17
Lunix_path_BB4_23:
	xorl	%edi, %edi
	cmpw	%si, %di
	jne	Lunix_path_BB4_18
Lunix_path_BB4_24:
	cmpb	$46, %cl
	jne	Lunix_path_BB4_36
	jmp	Lunix_path_BB4_25
Lunix_path_BB4_17:
	movzwl	%di, %edi
	incl	%edi
	cmpw	%si, %di
	je	Lunix_path_BB4_24
Lunix_path_BB4_18:
	cmpb	$46, %cl
	jne	Lunix_path_BB4_36
	movzbl	-1(%rbx,%rax), %ecx
	cmpb	$47, %cl
	jne	Lunix_path_BB4_20
Lunix_path_BB4_25:
	leaq	(%rbx,%rax), %rsi
	subq	%rax, %rdx
	leaq	lunix_path__static.5(%rip), %rcx
	addq	%rax, %rcx
	movl	$1, %r8d
	subq	%rax, %r8
	movq	%rsp, %rdi
	callq	_unix_path.pair.Comparison.rest_after_cut
	cmpb	$1, (%rsp)
	jne	Lunix_path_BB4_36
	movq	8(%rsp), %rbx
	movq	16(%rsp), %r14
Lunix_path_BB4_27:
	xorl	%edx, %edx
	jmp	Lunix_path_BB4_29
	.p2align	4
Lunix_path_BB4_28:
	addq	%rax, %rdx
	cmpq	$4, %rdx
	jae	Lunix_path_BB4_34
Lunix_path_BB4_29:
	movq	%rdx, %rax
	cmpq	%r14, %rdx
	jae	Lunix_path_BB4_35
	movzbl	(%rbx,%rax), %ecx
	movl	$1, %edx
	cmpl	$47, %ecx
	je	Lunix_path_BB4_28
	cmpl	$46, %ecx
	jne	Lunix_path_BB4_35
	leaq	1(%rax), %rcx
	cmpq	%r14, %rcx
	je	Lunix_path_BB4_28
	movl	$2, %edx
	cmpb	$47, (%rbx,%rcx)
	je	Lunix_path_BB4_28
	jmp	Lunix_path_BB4_35
Lunix_path_BB4_20:
	cmpb	$46, %cl
	setne	%cl
	decq	%rax
	sete	%sil
	orb	%cl, %sil
	jne	Lunix_path_BB4_36
	cmpb	$47, -1(%rbx,%rax)
	je	Lunix_path_BB4_25
	jmp	Lunix_path_BB4_36
Lunix_path_BB4_22:
	movl	$1, %eax
	xorl	%esi, %esi
	cmpq	%rdx, %rax
	jb	Lunix_path_BB4_15
	jmp	Lunix_path_BB4_23
Lunix_path_BB4_34:
	movq	%rbx, %rdi
	movq	%r14, %rsi
	callq	_unix_path.filler.filler_end_from
Lunix_path_BB4_35:
	addq	%rax, %rbx
	subq	%rax, %r14
Lunix_path_BB4_36:
	movq	%rbx, %rax
	movq	%r14, %rdx
	addq	$24, %rsp
	popq	%rbx
	popq	%r14
	retq
	.p2align	4
## unix_path::pair::Comparison::rest_after_cut
_unix_path.pair.Comparison.rest_after_cut:
	pushq	%r15
	pushq	%r14
	pushq	%r13
	pushq	%r12
	pushq	%rbx
	movq	%r8, %r12
	movq	%rcx, %r13
	movq	%rdx, %r14
	movq	%rsi, %r15
	movq	%rdi, %rbx
	jmp	Lunix_path_BB5_3
	.p2align	4
Lunix_path_BB5_1:
	testq	%rax, %rax
	je	Lunix_path_BB5_56
Lunix_path_BB5_2:
	addq	%rax, %r15
	subq	%rax, %r14
	addq	%rax, %r13
	subq	%rax, %r12
Lunix_path_BB5_3:
	xorl	%edx, %edx
	jmp	Lunix_path_BB5_5
	.p2align	4
Lunix_path_BB5_4:
	addq	%rax, %rdx
	cmpq	$4, %rdx
	jae	Lunix_path_BB5_10
Lunix_path_BB5_5:
	movq	%rdx, %rax
	cmpq	%r14, %rdx
	jae	Lunix_path_BB5_11
	movzbl	(%r15,%rax), %ecx
	movl	$1, %edx
	cmpl	$47, %ecx
	je	Lunix_path_BB5_4
	cmpl	$46, %ecx
	jne	Lunix_path_BB5_11
	leaq	1(%rax), %rcx
	cmpq	%r14, %rcx
	je	Lunix_path_BB5_4
	movl	$2, %edx
	cmpb	$47, (%r15,%rcx)
	je	Lunix_path_BB5_4
	jmp	Lunix_path_BB5_11
Lunix_path_BB5_10:
	movq	%r15, %rdi
	movq	%r14, %rsi
	callq	_unix_path.filler.filler_end_from
	.p2align	4
Lunix_path_BB5_11:
	addq	%rax, %r15
	subq	%rax, %r14
	xorl	%edx, %edx
	jmp	Lunix_path_BB5_13
	.p2align	4
Lunix_path_BB5_12:
	addq	%rax, %rdx
	cmpq	$4, %rdx
	jae	Lunix_path_BB5_54
Lunix_path_BB5_13:
	movq	%rdx, %rax
	cmpq	%r12, %rdx
	jae	Lunix_path_BB5_18
	movzbl	(%r13,%rax), %ecx
	movl	$1, %edx
	cmpl	$47, %ecx
	je	Lunix_path_BB5_12
	cmpl	$46, %ecx
	jne	Lunix_path_BB5_18
	leaq	1(%rax), %rcx
	cmpq	%r12, %rcx
	je	Lunix_path_BB5_12
	movl	$2, %edx
	cmpb	$47, (%r13,%rcx)
	je	Lunix_path_BB5_12
	.p2align	4
Lunix_path_BB5_18:
	subq	%rax, %r12
	je	Lunix_path_BB5_55
Lunix_path_BB5_19:
	addq	%rax, %r13
	cmpq	%r14, %r12
	movq	%r14, %rcx
	cmovbq	%r12, %rcx
	cmpq	$15, %rcx
	ja	Lunix_path_BB5_25
	cmpq	$7, %rcx
	ja	Lunix_path_BB5_34
	xorl	%eax, %eax
	testq	%r14, %r14
	je	Lunix_path_BB5_36
	.p2align	4
Lunix_path_BB5_22:
	movzbl	(%r15,%rax), %edx
	cmpb	(%r13,%rax), %dl
	jne	Lunix_path_BB5_36
	incq	%rax
	cmpq	%rax, %rcx
	jne	Lunix_path_BB5_22
	movq	%rcx, %rax
	cmpq	%r14, %rax
	jb	Lunix_path_BB5_37
	jmp	Lunix_path_BB5_45
	.p2align	4
Lunix_path_BB5_25:
	movdqu	(%r15), %xmm0
	movdqu	(%r13), %xmm1
	pcmpeqb	%xmm0, %xmm1
	pmovmskb	%xmm1, %eax
	notl	%eax
	rep		bsfl	%eax, %eax
	cmpw	$16, %ax
	jb	Lunix_path_BB5_36
	xorl	%edx, %edx
	cmpq	$64, %rcx
	jb	Lunix_path_BB5_30
	movq	%rcx, %rax
	.p2align	4
Lunix_path_BB5_28:
	movdqu	(%r15,%rdx), %xmm0
	movdqu	16(%r15,%rdx), %xmm1
	movdqu	32(%r15,%rdx), %xmm2
	movdqu	48(%r15,%rdx), %xmm3
	movdqu	(%r13,%rdx), %xmm4
	pcmpeqb	%xmm0, %xmm4
	movdqu	16(%r13,%rdx), %xmm0
	pcmpeqb	%xmm1, %xmm0
	pand	%xmm4, %xmm0
	movdqu	32(%r13,%rdx), %xmm1
	pcmpeqb	%xmm2, %xmm1
	movdqu	48(%r13,%rdx), %xmm2
	pcmpeqb	%xmm3, %xmm2
	pand	%xmm1, %xmm2
	pand	%xmm0, %xmm2
	pmovmskb	%xmm2, %esi
	cmpl	$65535, %esi
	jne	Lunix_path_BB5_30
	addq	$64, %rdx
	addq	$-64, %rax
	cmpq	$63, %rax
	ja	Lunix_path_BB5_28
Lunix_path_BB5_30:
	addq	$-16, %rcx
	cmpq	%rcx, %rdx
	jae	Lunix_path_BB5_33
	.p2align	4
Lunix_path_BB5_31:
	movdqu	(%r15,%rdx), %xmm0
	movdqu	(%r13,%rdx), %xmm1
	pcmpeqb	%xmm0, %xmm1
	pmovmskb	%xmm1, %eax
	notl	%eax
	rep		bsfl	%eax, %eax
	cmpw	$15, %ax
	jbe	Lunix_path_BB5_44
	addq	$16, %rdx
	cmpq	%rcx, %rdx
	jb	Lunix_path_BB5_31
Lunix_path_BB5_33:
	movdqu	(%r15,%rcx), %xmm0
	movdqu	(%r13,%rcx), %xmm1
	pcmpeqb	%xmm0, %xmm1
	pmovmskb	%xmm1, %eax
	notl	%eax
	rep		bsfl	%eax, %eax
	addq	%rcx, %rax
	cmpq	%r14, %rax
	jb	Lunix_path_BB5_37
	jmp	Lunix_path_BB5_45
	.p2align	4
Lunix_path_BB5_34:
	movq	(%r15), %xmm0
	movq	(%r13), %xmm1
	pcmpeqb	%xmm0, %xmm1
	pmovmskb	%xmm1, %eax
	notl	%eax
	orl	$256, %eax
	rep		bsfl	%eax, %eax
	cmpb	$8, %al
	jb	Lunix_path_BB5_36
	movq	-8(%r15,%rcx), %xmm0
	movq	-8(%r13,%rcx), %xmm1
	pcmpeqb	%xmm0, %xmm1
	pmovmskb	%xmm1, %eax
	notl	%eax
	orl	$256, %eax
	rep		bsfl	%eax, %eax
	addq	%rcx, %rax
	addq	$-8, %rax
	.p2align	4
Lunix_path_BB5_36:
	cmpq	%r14, %rax
	jae	Lunix_path_BB5_45
Lunix_path_BB5_37:
	movzbl	(%r15,%rax), %ecx
	cmpw	$47, %cx
	jne	Lunix_path_BB5_39
Lunix_path_BB5_45:
	xorl	%ecx, %ecx
	cmpq	%r12, %rax
	jae	Lunix_path_BB5_43
	jmp	Lunix_path_BB5_46
	.p2align	4
Lunix_path_BB5_39:
	cmpq	%r12, %rax
	jae	Lunix_path_BB5_42
	cmpb	$46, %cl
	je	Lunix_path_BB5_42
	movzbl	(%r13,%rax), %edx
	andb	$-2, %dl
	cmpb	$46, %dl
	jne	Lunix_path_BB5_56
Lunix_path_BB5_42:
	movzwl	%cx, %ecx
	incl	%ecx
	cmpq	%r12, %rax
	jae	Lunix_path_BB5_43
Lunix_path_BB5_46:
	movzbl	(%r13,%rax), %edx
	cmpw	$47, %dx
	jne	Lunix_path_BB5_48
Lunix_path_BB5_43:
	xorl	%edx, %edx
	cmpw	%dx, %cx
	je	Lunix_path_BB5_1
	jmp	Lunix_path_BB5_49
	.p2align	4
Lunix_path_BB5_48:
	movzwl	%dx, %edx
	incl	%edx
	cmpw	%dx, %cx
	je	Lunix_path_BB5_1
Lunix_path_BB5_49:
	testq	%rax, %rax
	je	Lunix_path_BB5_56
	movzbl	-1(%r15,%rax), %edx
	cmpb	$47, %dl
	je	Lunix_path_BB5_2
	xorl	%ecx, %ecx
	cmpb	$46, %dl
	jne	Lunix_path_BB5_57
	movl	$0, %edx
	movl	$0, %esi
	decq	%rax
	je	Lunix_path_BB5_58
	cmpb	$47, -1(%r15,%rax)
	je	Lunix_path_BB5_2
	jmp	Lunix_path_BB5_56
Lunix_path_BB5_44:
	movzwl	%ax, %eax
	addq	%rdx, %rax
	cmpq	%r14, %rax
	jb	Lunix_path_BB5_37
	jmp	Lunix_path_BB5_45
Lunix_path_BB5_54:
	movq	%r13, %rdi
	movq	%r12, %rsi
	callq	_unix_path.filler.filler_end_from
	subq	%rax, %r12
	jne	Lunix_path_BB5_19
Lunix_path_BB5_55:
	movl	$1, %ecx
	movq	%r15, %rdx
	movq	%r14, %rsi
	jmp	Lunix_path_BB5_58
Lunix_path_BB5_56:
	xorl	%ecx, %ecx
Lunix_path_BB5_57:
	xorl	%edx, %edx
	xorl	%esi, %esi
Lunix_path_BB5_58:
	movq	%rcx, (%rbx)
	movq	%rdx, 8(%rbx)
	movq	%rsi, 16(%rbx)
	popq	%rbx
	popq	%r12
	popq	%r13
	popq	%r14
	popq	%r15
	retq
	.section	__TEXT,__literal16,16byte_literals
	.p2align	4, 0x0
Lunix_path_CPI6_0:
	.space	16,46
Lunix_path_CPI6_1:
	.space	16,47
	.section	__TEXT,__text,regular,pure_instructions
	.p2align	4
## unix_path::filler::filler_end_from
_unix_path.filler.filler_end_from:
	movq	%rdx, %rax
	movq	%rsi, %rcx
	subq	%rdx, %rcx
	cmpq	$17, %rcx
	jb	Lunix_path_BB6_3
	.p2align	4
Lunix_path_BB6_1:
	movdqu	(%rdi,%rax), %xmm0
	movdqu	1(%rdi,%rax), %xmm1
	movdqa	Lunix_path_CPI6_0(%rip), %xmm2
	pcmpeqb	%xmm0, %xmm2
	movdqa	Lunix_path_CPI6_1(%rip), %xmm3
	pcmpeqb	%xmm3, %xmm0
	pcmpeqb	%xmm3, %xmm1
	pand	%xmm2, %xmm1
	por	%xmm0, %xmm1
	pmovmskb	%xmm1, %edx
	cmpl	$65535, %edx
	jne	Lunix_path_BB6_3
	addq	$16, %rax
	addq	$-16, %rcx
	cmpq	$16, %rcx
	ja	Lunix_path_BB6_1
Lunix_path_BB6_3:
	cmpq	%rsi, %rax
	jae	Lunix_path_BB6_11
	leaq	-1(%rsi), %rcx
	jmp	Lunix_path_BB6_5
	.p2align	4
Lunix_path_BB6_9:
	incq	%rax
	cmpq	%rax, %rsi
	je	Lunix_path_BB6_10
Lunix_path_BB6_5:
	movzbl	(%rdi,%rax), %edx
	cmpl	$47, %edx
	je	Lunix_path_BB6_9
	cmpl	$46, %edx
	jne	Lunix_path_BB6_11
	cmpq	%rax, %rcx
	je	Lunix_path_BB6_9
	cmpb	$47, 1(%rdi,%rax)
	je	Lunix_path_BB6_9
Lunix_path_BB6_11:
	retq
Lunix_path_BB6_10:
	movq	%rsi, %rax
	retq
	.p2align	4
## unix_path::compare::compare
_unix_path.compare.compare:
	pushq	%rax
	cmpq	%rsi, %rcx
	movq	%rsi, %rax
	cmovbq	%rcx, %rax
	cmpq	$15, %rax
	ja	Lunix_path_BB7_6
	cmpq	$7, %rax
	ja	Lunix_path_BB7_13
	testq	%rax, %rax
	je	Lunix_path_BB7_17
	movzbl	(%rdi), %r8d
	cmpb	(%rdx), %r8b
	jne	Lunix_path_BB7_17
	cmpq	$1, %rax
	jne	Lunix_path_BB7_76
Lunix_path_BB7_5:
	movq	%rax, %r8
	jmp	Lunix_path_BB7_18
Lunix_path_BB7_6:
	leaq	-16(%rax), %r9
	xorl	%r10d, %r10d
	cmpq	$64, %rax
	jb	Lunix_path_BB7_11
	.p2align	4
Lunix_path_BB7_7:
	movdqu	(%rdi,%r10), %xmm0
	movdqu	16(%rdi,%r10), %xmm1
	movdqu	32(%rdi,%r10), %xmm2
	movdqu	48(%rdi,%r10), %xmm3
	movdqu	(%rdx,%r10), %xmm4
	pcmpeqb	%xmm0, %xmm4
	movdqu	16(%rdx,%r10), %xmm0
	pcmpeqb	%xmm1, %xmm0
	pand	%xmm4, %xmm0
	movdqu	32(%rdx,%r10), %xmm1
	pcmpeqb	%xmm2, %xmm1
	movdqu	48(%rdx,%r10), %xmm2
	pcmpeqb	%xmm3, %xmm2
	pand	%xmm1, %xmm2
	pand	%xmm0, %xmm2
	pmovmskb	%xmm2, %r8d
	cmpl	$65535, %r8d
	jne	Lunix_path_BB7_11
	addq	$64, %r10
	addq	$-64, %rax
	cmpq	$63, %rax
	ja	Lunix_path_BB7_7
	jmp	Lunix_path_BB7_11
	.p2align	4
Lunix_path_BB7_9:
	movdqu	(%rdi,%r10), %xmm0
	movdqu	(%rdx,%r10), %xmm1
	pcmpeqb	%xmm0, %xmm1
	pmovmskb	%xmm1, %eax
	notl	%eax
	rep		bsfl	%eax, %eax
	cmpw	$15, %ax
	jbe	Lunix_path_BB7_15
	addq	$16, %r10
Lunix_path_BB7_11:
	cmpq	%r9, %r10
	jb	Lunix_path_BB7_9
	movdqu	(%rdi,%r9), %xmm0
	movdqu	(%rdx,%r9), %xmm1
	pcmpeqb	%xmm0, %xmm1
	pmovmskb	%xmm1, %eax
	notl	%eax
	rep		bsfl	%eax, %r8d
	addq	%r9, %r8
	jmp	Lunix_path_BB7_18
Lunix_path_BB7_13:
	movq	(%rdi), %xmm0
	movq	(%rdx), %xmm1
	pcmpeqb	%xmm0, %xmm1
	pmovmskb	%xmm1, %r8d
	notl	%r8d
	orl	$256, %r8d
	rep		bsfl	%r8d, %r8d
	cmpb	$8, %r8b
	jb	Lunix_path_BB7_18
	movq	-8(%rdi,%rax), %xmm0
	movq	-8(%rdx,%rax), %xmm1
	pcmpeqb	%xmm0, %xmm1
	pmovmskb	%xmm1, %r8d
	notl	%r8d
	orl	$256, %r8d
	rep		bsfl	%r8d, %r8d
	addq	%rax, %r8
	addq	$-8, %r8
	jmp	Lunix_path_BB7_18
Lunix_path_BB7_17:
	xorl	%r8d, %r8d
	jmp	Lunix_path_BB7_18
Lunix_path_BB7_15:
	movzwl	%ax, %r8d
	addq	%r10, %r8
Lunix_path_BB7_18:
	movq	%r8, %r9
	xorq	%rsi, %r9
	movq	%r8, %r10
	xorq	%rcx, %r10
	movb	$1, %al
	orq	%r9, %r10
	jne	Lunix_path_BB7_20
	popq	%rcx
	retq
Lunix_path_BB7_20:
	cmpq	%rsi, %r8
	jae	Lunix_path_BB7_23
	movzbl	(%rdi,%r8), %eax
	cmpw	$47, %ax
	jne	Lunix_path_BB7_26
Lunix_path_BB7_23:
	xorl	%eax, %eax
	cmpq	%rcx, %r8
	jae	Lunix_path_BB7_29
Lunix_path_BB7_24:
	movzbl	(%rdx,%r8), %r9d
	cmpw	$47, %r9w
	je	Lunix_path_BB7_29
	movzwl	%r9w, %r9d
	incl	%r9d
	cmpw	%r9w, %ax
	je	Lunix_path_BB7_30
Lunix_path_BB7_32:
	testq	%r8, %r8
	je	Lunix_path_BB7_43
	movzbl	-1(%rdi,%r8), %r10d
	cmpb	$47, %r10b
	je	Lunix_path_BB7_34
	cmpb	$46, %r10b
	jne	Lunix_path_BB7_42
	movq	%r8, %r10
	decq	%r10
	je	Lunix_path_BB7_43
	cmpb	$47, -1(%rdi,%r10)
	je	Lunix_path_BB7_35
Lunix_path_BB7_42:
	cmpw	%r9w, %ax
	setae	%al
	addb	%al, %al
	popq	%rcx
	retq
Lunix_path_BB7_26:
	cmpb	$46, %al
	sete	%r9b
	cmpq	%rcx, %r8
	setae	%r10b
	orb	%r9b, %r10b
	jne	Lunix_path_BB7_28
	movzbl	(%rdx,%r8), %r9d
	movl	%r9d, %r10d
	andb	$-2, %r10b
	cmpb	$46, %r10b
	jne	Lunix_path_BB7_79
Lunix_path_BB7_28:
	movzwl	%ax, %eax
	incl	%eax
	cmpq	%rcx, %r8
	jb	Lunix_path_BB7_24
Lunix_path_BB7_29:
	xorl	%r9d, %r9d
	cmpw	%r9w, %ax
	jne	Lunix_path_BB7_32
Lunix_path_BB7_30:
	testq	%r8, %r8
	je	Lunix_path_BB7_43
Lunix_path_BB7_34:
	movq	%r8, %r10
Lunix_path_BB7_35:
	addq	%r10, %rdx
	movq	%rcx, %rax
	subq	%r10, %rax
	subq	%r10, %rsi
	jne	Lunix_path_BB7_37
	movq	%rdx, %rdi
	movq	%rax, %rsi
	callq	_unix_path.pair.rest_len
	testq	%rax, %rax
	sete	%al
	popq	%rcx
	retq
Lunix_path_BB7_43:
	testq	%rsi, %rsi
	je	Lunix_path_BB7_52
	movzbl	(%rdi), %eax
	cmpl	$47, %eax
	je	Lunix_path_BB7_65
	cmpl	$46, %eax
	jne	Lunix_path_BB7_54
	movb	$2, %al
	cmpq	$1, %rsi
	je	Lunix_path_BB7_55
	movzbl	1(%rdi), %r9d
	cmpl	$47, %r9d
	je	Lunix_path_BB7_55
	cmpl	$46, %r9d
	jne	Lunix_path_BB7_54
	cmpq	$2, %rsi
	je	Lunix_path_BB7_51
	movb	$4, %al
	cmpb	$47, 2(%rdi)
	jne	Lunix_path_BB7_55
Lunix_path_BB7_51:
	movb	$3, %al
	testq	%rcx, %rcx
	jne	Lunix_path_BB7_56
	jmp	Lunix_path_BB7_66
Lunix_path_BB7_37:
	addq	%r10, %rdi
	cmpq	%r10, %rcx
	jne	Lunix_path_BB7_53
	callq	_unix_path.pair.rest_len
	cmpq	$1, %rax
	movb	$2, %al
	sbbb	$0, %al
	popq	%rcx
	retq
Lunix_path_BB7_52:
	xorl	%eax, %eax
	testq	%rcx, %rcx
	jne	Lunix_path_BB7_56
Lunix_path_BB7_66:
	xorl	%r9d, %r9d
	jmp	Lunix_path_BB7_67
Lunix_path_BB7_53:
	movq	%rax, %rcx
	popq	%rax
	jmp	_unix_path.pair.Comparison.order_after_cut
Lunix_path_BB7_54:
	movb	$4, %al
Lunix_path_BB7_55:
	testq	%rcx, %rcx
	je	Lunix_path_BB7_66
Lunix_path_BB7_56:
	movzbl	(%rdx), %r9d
	cmpl	$47, %r9d
	je	Lunix_path_BB7_74
	cmpl	$46, %r9d
	jne	Lunix_path_BB7_64
	movb	$2, %r9b
	cmpq	$1, %rcx
	je	Lunix_path_BB7_67
	movzbl	1(%rdx), %r10d
	cmpl	$47, %r10d
	je	Lunix_path_BB7_67
	cmpl	$46, %r10d
	jne	Lunix_path_BB7_64
	cmpq	$2, %rcx
	je	Lunix_path_BB7_63
	movb	$4, %r9b
	cmpb	$47, 2(%rdx)
	jne	Lunix_path_BB7_67
Lunix_path_BB7_63:
	movb	$3, %r9b
	cmpb	%r9b, %al
	setae	%al
	je	Lunix_path_BB7_68
	jmp	Lunix_path_BB7_75
Lunix_path_BB7_67:
	cmpb	%r9b, %al
	setae	%al
	jne	Lunix_path_BB7_75
Lunix_path_BB7_68:
	cmpq	%rsi, %r8
	jae	Lunix_path_BB7_71
	movzbl	(%rdi,%r8), %eax
	cmpw	$47, %ax
	jne	Lunix_path_BB7_81
Lunix_path_BB7_71:
	xorl	%eax, %eax
	cmpq	%rcx, %r8
	jae	Lunix_path_BB7_82
	jmp	Lunix_path_BB7_72
Lunix_path_BB7_64:
	movb	$4, %r9b
	cmpb	%r9b, %al
	setae	%al
	je	Lunix_path_BB7_68
Lunix_path_BB7_75:
	addb	%al, %al
	popq	%rcx
	retq
Lunix_path_BB7_65:
	movb	$1, %al
	testq	%rcx, %rcx
	jne	Lunix_path_BB7_56
	jmp	Lunix_path_BB7_66
Lunix_path_BB7_74:
	movb	$1, %r9b
	cmpb	%r9b, %al
	setae	%al
	je	Lunix_path_BB7_68
	jmp	Lunix_path_BB7_75
Lunix_path_BB7_76:
	movzbl	1(%rdi), %r9d
	movl	$1, %r8d
	cmpb	1(%rdx), %r9b
	jne	Lunix_path_BB7_18
	cmpq	$2, %rax
	je	Lunix_path_BB7_5
	movzbl	2(%rdi), %r9d
	movl	$2, %r8d
	cmpb	2(%rdx), %r9b
	jne	Lunix_path_BB7_18
	cmpq	$3, %rax
	je	Lunix_path_BB7_5
	movzbl	3(%rdi), %r9d
	movl	$3, %r8d
	cmpb	3(%rdx), %r9b
	jne	Lunix_path_BB7_18
	cmpq	$4, %rax
	je	Lunix_path_BB7_5
	movzbl	4(%rdi), %r9d
	movl	$4, %r8d
	cmpb	4(%rdx), %r9b
	jne	Lunix_path_BB7_18
	cmpq	$5, %rax
	je	Lunix_path_BB7_5
	movzbl	5(%rdi), %r9d
	movl	$5, %r8d
	cmpb	5(%rdx), %r9b
	jne	Lunix_path_BB7_18
	cmpq	$6, %rax
	je	Lunix_path_BB7_5
	movzbl	6(%rdi), %r8d
	cmpb	6(%rdx), %r8b
	movl	$6, %r8d
	cmoveq	%rax, %r8
	jmp	Lunix_path_BB7_18
Lunix_path_BB7_79:
	cmpb	%r9b, %al
	setae	%cl
	addb	%cl, %cl
	cmpb	%r9b, %al
	movzbl	%cl, %ecx
	movl	$1, %eax
	cmovnel	%ecx, %eax
	popq	%rcx
	retq
Lunix_path_BB7_81:
	movzwl	%ax, %eax
	incl	%eax
	cmpq	%rcx, %r8
	jae	Lunix_path_BB7_82
Lunix_path_BB7_72:
	movzbl	(%rdx,%r8), %ecx
	cmpw	$47, %cx
	jne	Lunix_path_BB7_83
Lunix_path_BB7_82:
	xorl	%ecx, %ecx
	jmp	Lunix_path_BB7_84
Lunix_path_BB7_83:
	movzwl	%cx, %ecx
	incl	%ecx
Lunix_path_BB7_84:
	cmpw	%cx, %ax
	setae	%dl
	addb	%dl, %dl
	cmpw	%cx, %ax
	movzbl	%dl, %ecx
	movl	$1, %eax
	cmovnel	%ecx, %eax
	popq	%rcx
	retq
	.p2align	4
## unix_path::pair::rest_len
_unix_path.pair.rest_len:
	xorl	%edx, %edx
	jmp	Lunix_path_BB8_1
	.p2align	4
Lunix_path_BB8_6:
	addq	%rax, %rdx
	cmpq	$4, %rdx
	jae	Lunix_path_BB8_7
Lunix_path_BB8_1:
	movq	%rdx, %rax
	cmpq	%rsi, %rdx
	jae	Lunix_path_BB8_8
	movzbl	(%rdi,%rax), %ecx
	movl	$1, %edx
	cmpl	$47, %ecx
	je	Lunix_path_BB8_6
	cmpl	$46, %ecx
	jne	Lunix_path_BB8_8
	leaq	1(%rax), %rcx
	cmpq	%rsi, %rcx
	je	Lunix_path_BB8_6
	movl	$2, %edx
	cmpb	$47, (%rdi,%rcx)
	je	Lunix_path_BB8_6
Lunix_path_BB8_8:
	subq	%rax, %rsi
	movq	%rsi, %rax
	retq
Lunix_path_BB8_7:
	pushq	%rbx
	movq	%rsi, %rbx
	callq	_unix_path.filler.filler_end_from
	movq	%rbx, %rsi
	popq	%rbx
	subq	%rax, %rsi
	movq	%rsi, %rax
	retq
	.p2align	4
## unix_path::pair::Comparison::order_after_cut
_unix_path.pair.Comparison.order_after_cut:
	pushq	%rbp
	pushq	%r15
	pushq	%r14
	pushq	%r13
	pushq	%r12
	pushq	%rbx
	pushq	%rax
	movq	%rcx, %r14
	movq	%rdx, %rbx
	movq	%rsi, %r12
	movq	%rdi, %r15
	jmp	Lunix_path_BB9_4
	.p2align	4
Lunix_path_BB9_1:
	testq	%rcx, %rcx
	je	Lunix_path_BB9_57
Lunix_path_BB9_2:
	movq	%rcx, %rsi
Lunix_path_BB9_3:
	addq	%rsi, %r15
	subq	%rsi, %rbp
	addq	%rsi, %rbx
	subq	%rsi, %r14
	movq	%rbp, %r12
Lunix_path_BB9_4:
	xorl	%edx, %edx
	jmp	Lunix_path_BB9_6
	.p2align	4
Lunix_path_BB9_5:
	addq	%r13, %rdx
	cmpq	$4, %rdx
	jae	Lunix_path_BB9_11
Lunix_path_BB9_6:
	movq	%rdx, %r13
	cmpq	%r12, %rdx
	jae	Lunix_path_BB9_12
	movzbl	(%r15,%r13), %eax
	movl	$1, %edx
	cmpl	$47, %eax
	je	Lunix_path_BB9_5
	cmpl	$46, %eax
	jne	Lunix_path_BB9_12
	leaq	1(%r13), %rax
	cmpq	%r12, %rax
	je	Lunix_path_BB9_5
	movl	$2, %edx
	cmpb	$47, (%r15,%rax)
	je	Lunix_path_BB9_5
	jmp	Lunix_path_BB9_12
Lunix_path_BB9_11:
	movq	%r15, %rdi
	movq	%r12, %rsi
	callq	_unix_path.filler.filler_end_from
	movq	%rax, %r13
	.p2align	4
Lunix_path_BB9_12:
	addq	%r13, %r15
	movq	%r12, %rbp
	subq	%r13, %rbp
	xorl	%edx, %edx
	jmp	Lunix_path_BB9_14
	.p2align	4
Lunix_path_BB9_13:
	addq	%rax, %rdx
	cmpq	$4, %rdx
	jae	Lunix_path_BB9_55
Lunix_path_BB9_14:
	movq	%rdx, %rax
	cmpq	%r14, %rdx
	jae	Lunix_path_BB9_19
	movzbl	(%rbx,%rax), %ecx
	movl	$1, %edx
	cmpl	$47, %ecx
	je	Lunix_path_BB9_13
	cmpl	$46, %ecx
	jne	Lunix_path_BB9_19
	leaq	1(%rax), %rcx
	cmpq	%r14, %rcx
	je	Lunix_path_BB9_13
	movl	$2, %edx
	cmpb	$47, (%rbx,%rcx)
	je	Lunix_path_BB9_13
	.p2align	4
Lunix_path_BB9_19:
	subq	%rax, %r14
	je	Lunix_path_BB9_56
Lunix_path_BB9_20:
	addq	%rax, %rbx
	cmpq	%rbp, %r14
	movq	%rbp, %rax
	cmovbq	%r14, %rax
	cmpq	$15, %rax
	ja	Lunix_path_BB9_26
	cmpq	$7, %rax
	ja	Lunix_path_BB9_35
	xorl	%ecx, %ecx
	cmpq	%r13, %r12
	je	Lunix_path_BB9_37
	.p2align	4
Lunix_path_BB9_23:
	movzbl	(%r15,%rcx), %edx
	cmpb	(%rbx,%rcx), %dl
	jne	Lunix_path_BB9_37
	incq	%rcx
	cmpq	%rcx, %rax
	jne	Lunix_path_BB9_23
	movq	%rax, %rcx
	cmpq	%rbp, %rcx
	jb	Lunix_path_BB9_38
	jmp	Lunix_path_BB9_46
	.p2align	4
Lunix_path_BB9_26:
	movdqu	(%r15), %xmm0
	movdqu	(%rbx), %xmm1
	pcmpeqb	%xmm0, %xmm1
	pmovmskb	%xmm1, %ecx
	notl	%ecx
	rep		bsfl	%ecx, %ecx
	cmpw	$16, %cx
	jb	Lunix_path_BB9_37
	xorl	%edx, %edx
	cmpq	$64, %rax
	jb	Lunix_path_BB9_31
	movq	%rax, %rcx
	.p2align	4
Lunix_path_BB9_29:
	movdqu	(%r15,%rdx), %xmm0
	movdqu	16(%r15,%rdx), %xmm1
	movdqu	32(%r15,%rdx), %xmm2
	movdqu	48(%r15,%rdx), %xmm3
	movdqu	(%rbx,%rdx), %xmm4
	pcmpeqb	%xmm0, %xmm4
	movdqu	16(%rbx,%rdx), %xmm0
	pcmpeqb	%xmm1, %xmm0
	pand	%xmm4, %xmm0
	movdqu	32(%rbx,%rdx), %xmm1
	pcmpeqb	%xmm2, %xmm1
	movdqu	48(%rbx,%rdx), %xmm2
	pcmpeqb	%xmm3, %xmm2
	pand	%xmm1, %xmm2
	pand	%xmm0, %xmm2
	pmovmskb	%xmm2, %esi
	cmpl	$65535, %esi
	jne	Lunix_path_BB9_31
	addq	$64, %rdx
	addq	$-64, %rcx
	cmpq	$63, %rcx
	ja	Lunix_path_BB9_29
Lunix_path_BB9_31:
	addq	$-16, %rax
	cmpq	%rax, %rdx
	jae	Lunix_path_BB9_34
	.p2align	4
Lunix_path_BB9_32:
	movdqu	(%r15,%rdx), %xmm0
	movdqu	(%rbx,%rdx), %xmm1
	pcmpeqb	%xmm0, %xmm1
	pmovmskb	%xmm1, %ecx
	notl	%ecx
	rep		bsfl	%ecx, %ecx
	cmpw	$15, %cx
	jbe	Lunix_path_BB9_45
	addq	$16, %rdx
	cmpq	%rax, %rdx
	jb	Lunix_path_BB9_32
Lunix_path_BB9_34:
	movdqu	(%r15,%rax), %xmm0
	movdqu	(%rbx,%rax), %xmm1
	pcmpeqb	%xmm0, %xmm1
	pmovmskb	%xmm1, %ecx
	notl	%ecx
	rep		bsfl	%ecx, %ecx
	addq	%rax, %rcx
	cmpq	%rbp, %rcx
	jb	Lunix_path_BB9_38
	jmp	Lunix_path_BB9_46
	.p2align	4
Lunix_path_BB9_35:
	movq	(%r15), %xmm0
	movq	(%rbx), %xmm1
	pcmpeqb	%xmm0, %xmm1
	pmovmskb	%xmm1, %ecx
	notl	%ecx
	orl	$256, %ecx
	rep		bsfl	%ecx, %ecx
	cmpb	$8, %cl
	jb	Lunix_path_BB9_37
	movq	-8(%r15,%rax), %xmm0
	movq	-8(%rbx,%rax), %xmm1
	pcmpeqb	%xmm0, %xmm1
	pmovmskb	%xmm1, %ecx
	notl	%ecx
	orl	$256, %ecx
	rep		bsfl	%ecx, %ecx
	addq	%rax, %rcx
	addq	$-8, %rcx
	.p2align	4
Lunix_path_BB9_37:
	cmpq	%rbp, %rcx
	jae	Lunix_path_BB9_46
Lunix_path_BB9_38:
	movzbl	(%r15,%rcx), %eax
	cmpw	$47, %ax
	jne	Lunix_path_BB9_40
Lunix_path_BB9_46:
	xorl	%eax, %eax
	cmpq	%r14, %rcx
	jae	Lunix_path_BB9_44
	jmp	Lunix_path_BB9_47
	.p2align	4
Lunix_path_BB9_40:
	cmpq	%r14, %rcx
	jae	Lunix_path_BB9_43
	cmpb	$46, %al
	je	Lunix_path_BB9_43
	movzbl	(%rbx,%rcx), %edx
	movl	%edx, %esi
	andb	$-2, %sil
	cmpb	$46, %sil
	jne	Lunix_path_BB9_87
Lunix_path_BB9_43:
	movzwl	%ax, %eax
	incl	%eax
	cmpq	%r14, %rcx
	jae	Lunix_path_BB9_44
Lunix_path_BB9_47:
	movzbl	(%rbx,%rcx), %edx
	cmpw	$47, %dx
	jne	Lunix_path_BB9_49
Lunix_path_BB9_44:
	xorl	%edx, %edx
	cmpw	%dx, %ax
	je	Lunix_path_BB9_1
	jmp	Lunix_path_BB9_50
	.p2align	4
Lunix_path_BB9_49:
	movzwl	%dx, %edx
	incl	%edx
	cmpw	%dx, %ax
	je	Lunix_path_BB9_1
Lunix_path_BB9_50:
	testq	%rcx, %rcx
	je	Lunix_path_BB9_57
	movzbl	-1(%r15,%rcx), %esi
	cmpb	$47, %sil
	je	Lunix_path_BB9_2
	cmpb	$46, %sil
	jne	Lunix_path_BB9_59
	movq	%rcx, %rsi
	decq	%rsi
	je	Lunix_path_BB9_60
	cmpb	$47, -1(%r15,%rsi)
	je	Lunix_path_BB9_3
	jmp	Lunix_path_BB9_59
Lunix_path_BB9_45:
	movzwl	%cx, %ecx
	addq	%rdx, %rcx
	cmpq	%rbp, %rcx
	jb	Lunix_path_BB9_38
	jmp	Lunix_path_BB9_46
Lunix_path_BB9_55:
	movq	%rbx, %rdi
	movq	%r14, %rsi
	callq	_unix_path.filler.filler_end_from
	subq	%rax, %r14
	jne	Lunix_path_BB9_20
Lunix_path_BB9_56:
	cmpq	%r13, %r12
	sete	%cl
	movb	$2, %al
	subb	%cl, %al
	jmp	Lunix_path_BB9_93
Lunix_path_BB9_57:
	xorl	%edx, %edx
	cmpq	%r13, %r12
	jne	Lunix_path_BB9_61
Lunix_path_BB9_58:
	xorl	%eax, %eax
	jmp	Lunix_path_BB9_93
Lunix_path_BB9_59:
	cmpw	%dx, %ax
	setae	%al
	addb	%al, %al
	jmp	Lunix_path_BB9_93
Lunix_path_BB9_60:
	movl	$1, %edx
	cmpq	%r13, %r12
	je	Lunix_path_BB9_58
Lunix_path_BB9_61:
	movzbl	(%r15), %edi
	movb	$1, %al
	movb	$1, %sil
	cmpl	$47, %edi
	je	Lunix_path_BB9_70
	cmpl	$46, %edi
	jne	Lunix_path_BB9_69
	movb	$2, %sil
	cmpq	$1, %rbp
	je	Lunix_path_BB9_70
	movzbl	1(%r15), %edi
	cmpl	$47, %edi
	je	Lunix_path_BB9_70
	cmpl	$46, %edi
	jne	Lunix_path_BB9_69
	cmpq	$2, %rbp
	je	Lunix_path_BB9_68
	movb	$4, %sil
	cmpb	$47, 2(%r15)
	jne	Lunix_path_BB9_70
Lunix_path_BB9_68:
	movb	$3, %sil
	jmp	Lunix_path_BB9_70
Lunix_path_BB9_69:
	movb	$4, %sil
Lunix_path_BB9_70:
	movzbl	(%rbx), %edi
	cmpl	$47, %edi
	je	Lunix_path_BB9_79
	cmpl	$46, %edi
	jne	Lunix_path_BB9_78
	movb	$2, %al
	cmpq	$1, %r14
	je	Lunix_path_BB9_79
	movzbl	1(%rbx), %edi
	cmpl	$47, %edi
	je	Lunix_path_BB9_79
	cmpl	$46, %edi
	jne	Lunix_path_BB9_78
	cmpq	$2, %r14
	je	Lunix_path_BB9_77
	movb	$4, %al
	cmpb	$47, 2(%rbx)
	jne	Lunix_path_BB9_79
Lunix_path_BB9_77:
	movb	$3, %al
	jmp	Lunix_path_BB9_79
Lunix_path_BB9_78:
	movb	$4, %al
Lunix_path_BB9_79:
	cmpb	%al, %sil
	setae	%al
	jne	Lunix_path_BB9_83
	cmpq	%rbp, %rcx
	jae	Lunix_path_BB9_84
	movzbl	(%r15,%rdx), %eax
	cmpw	$47, %ax
	jne	Lunix_path_BB9_88
Lunix_path_BB9_84:
	xorl	%eax, %eax
	cmpq	%r14, %rdx
	jae	Lunix_path_BB9_89
	jmp	Lunix_path_BB9_85
Lunix_path_BB9_83:
	addb	%al, %al
	jmp	Lunix_path_BB9_93
Lunix_path_BB9_87:
	cmpb	%dl, %al
	setae	%cl
	addb	%cl, %cl
	cmpb	%dl, %al
	movzbl	%cl, %ecx
	jmp	Lunix_path_BB9_92
Lunix_path_BB9_88:
	movzwl	%ax, %eax
	incl	%eax
	cmpq	%r14, %rdx
	jae	Lunix_path_BB9_89
Lunix_path_BB9_85:
	movzbl	(%rbx,%rdx), %ecx
	cmpw	$47, %cx
	jne	Lunix_path_BB9_90
Lunix_path_BB9_89:
	xorl	%ecx, %ecx
	jmp	Lunix_path_BB9_91
Lunix_path_BB9_90:
	movzwl	%cx, %ecx
	incl	%ecx
Lunix_path_BB9_91:
	cmpw	%cx, %ax
	setae	%dl
	addb	%dl, %dl
	cmpw	%cx, %ax
	movzbl	%dl, %ecx
Lunix_path_BB9_92:
	movl	$1, %eax
	cmovnel	%ecx, %eax
Lunix_path_BB9_93:
	addq	$8, %rsp
	popq	%rbx
	popq	%r12
	popq	%r13
	popq	%r14
	popq	%r15
	popq	%rbp
	retq
	.p2align	4
## core::slice::sort::unstable::quicksort::<#fd4dfef4a36ac24b>
_core.slice.sort.unstable.quicksort.fd4dfef4a36ac24b.:
	pushq	%rbp
	pushq	%r15
	pushq	%r14
	pushq	%r13
	pushq	%r12
	pushq	%rbx
	subq	$280, %rsp
	movq	%r8, %r14
	movq	%rdx, %r13
	movq	%rsi, %rbx
	movq	%rdi, %r15
	movq	%rdx, 272(%rsp)
	subq	%rsi, %r13
	cmpq	$17, %r13
	jb	Lunix_path_BB10_54
	movl	%ecx, %ebp
	leaq	64(%r15), %rax
	movq	%rax, 200(%rsp)
	leaq	104(%r15), %rax
	movq	%rax, 192(%rsp)
	movq	%r14, 72(%rsp)
	movq	%r15, 56(%rsp)
	jmp	Lunix_path_BB10_2
	.p2align	4
Lunix_path_BB10_51:
	leaq	(,%rdx,8), %rax
	leaq	(%rax,%rax,4), %rax
	movups	(%rdi,%rax), %xmm0
	movups	16(%rdi,%rax), %xmm1
	movq	32(%rdi,%rax), %rcx
	movq	%rcx, 32(%rdi)
	movups	%xmm1, 16(%rdi)
	movups	%xmm0, (%rdi)
Lunix_path_BB10_52:
	movq	136(%rsp), %rcx
	movq	%rcx, (%rdi,%rax)
	movq	128(%rsp), %rcx
	movq	%rcx, 8(%rdi,%rax)
	movq	32(%rsp), %rcx
	movq	%rcx, 16(%rdi,%rax)
	movaps	240(%rsp), %xmm0
	movups	%xmm0, 24(%rdi,%rax)
	movq	8(%rsp), %rax
	movq	%rax, (%r14)
	movq	40(%rsp), %rax
	movq	%rax, 8(%r14)
	movq	96(%rsp), %rbx
	addq	%rbx, %rdx
	movq	56(%rsp), %r15
	movq	%r15, %rdi
	movq	%rbx, %rsi
	movl	%ebp, %ecx
	movq	%r14, %r8
	callq	_core.slice.sort.unstable.quicksort.fd4dfef4a36ac24b.
Lunix_path_BB10_53:
	addq	%r13, %rbx
	movq	272(%rsp), %r13
	subq	%rbx, %r13
	cmpq	$16, %r13
	jbe	Lunix_path_BB10_54
Lunix_path_BB10_2:
	testl	%ebp, %ebp
	je	Lunix_path_BB10_3
	movq	%r13, %r8
	shrq	$3, %r8
	movq	%r13, %rcx
	andq	$-8, %rcx
	subq	%r8, %rcx
	addq	%rbx, %rcx
	leaq	(%rbx,%r8,4), %rdx
	movq	%r15, %rdi
	movq	%rbx, %rsi
	cmpq	$63, %r13
	ja	Lunix_path_BB10_10
	movq	%r14, %r8
	callq	_core.slice.sort.pivot.median_of_three.fd4dfef4a36ac24b.
	jmp	Lunix_path_BB10_11
	.p2align	4
Lunix_path_BB10_10:
	movq	%r14, %r9
	callq	_core.slice.sort.pivot.median_of_medians.fd4dfef4a36ac24b.
Lunix_path_BB10_11:
	movq	%rax, %r12
	decl	%ebp
	movl	%ebp, 52(%rsp)
	testq	%rbx, %rbx
	movq	%r13, 16(%rsp)
	movq	%rbx, 96(%rsp)
	je	Lunix_path_BB10_12
	movq	(%r14), %r15
	movq	8(%r14), %rbp
	leaq	(,%rbx,8), %rax
	leaq	(%rax,%rax,4), %r13
	movq	56(%rsp), %rax
	movq	-40(%rax,%r13), %rax
	movq	56(%rsp), %rcx
	movq	-32(%rcx,%r13), %rsi
	cmpq	%rsi, %rbp
	cmovbq	%rbp, %rsi
	cmpq	%rax, %rsi
	cmovbq	%rsi, %rax
	leaq	(%r15,%rax), %rdi
	subq	%rax, %rsi
	callq	_path_archive.slot.without_dot
	movq	%rax, %r14
	movq	%rdx, %rbx
	movq	56(%rsp), %rax
	leaq	(%r12,%r12,4), %rdx
	movq	(%rax,%rdx,8), %rax
	movq	56(%rsp), %rcx
	movq	8(%rcx,%rdx,8), %rsi
	cmpq	%rsi, %rbp
	cmovbq	%rbp, %rsi
	movq	%r13, %rbp
	cmpq	%rax, %rsi
	cmovbq	%rsi, %rax
	addq	%rax, %r15
	subq	%rax, %rsi
	movq	%r15, %rdi
	movq	56(%rsp), %r15
	callq	_path_archive.slot.without_dot
	movq	%rdx, %rcx
	movq	%r14, %rdi
	movq	%rbx, %rsi
	movq	%rax, %rdx
	callq	_unix_path.compare.compare
	movq	-24(%r15,%r13), %rcx
	movq	-16(%r15,%r13), %rdx
	leaq	(%r12,%r12,4), %r8
	movq	24(%r15,%r8,8), %rsi
	cmpq	%rsi, %rdx
	setae	%dil
	addb	%dil, %dil
	cmpq	%rsi, %rdx
	movq	16(%r15,%r8,8), %rdx
	movzbl	%dil, %esi
	movl	$1, %edi
	cmovnel	%esi, %edi
	cmpq	%rdx, %rcx
	setae	%sil
	addb	%sil, %sil
	cmpq	%rdx, %rcx
	movzbl	%sil, %ecx
	cmovel	%edi, %ecx
	cmpb	$1, %al
	movzbl	%al, %eax
	cmovel	%ecx, %eax
	testb	%al, %al
	je	Lunix_path_BB10_21
	leaq	(%r15,%rbp), %rdx
	subq	96(%rsp), %r12
	je	Lunix_path_BB10_24
	leaq	(%r12,%r12,4), %rax
	movq	32(%rdx), %rcx
	movq	%rcx, 176(%rsp)
	movups	(%rdx), %xmm0
	movups	16(%rdx), %xmm1
	movaps	%xmm1, 160(%rsp)
	movaps	%xmm0, 144(%rsp)
	movq	32(%rdx,%rax,8), %rcx
	movups	(%rdx,%rax,8), %xmm0
	movups	16(%rdx,%rax,8), %xmm1
	movups	%xmm0, (%rdx)
	movups	%xmm1, 16(%rdx)
	movq	%rcx, 32(%rdx)
	movq	176(%rsp), %rcx
	movq	%rcx, 32(%rdx,%rax,8)
	movaps	144(%rsp), %xmm0
	movaps	160(%rsp), %xmm1
	movups	%xmm1, 16(%rdx,%rax,8)
	movups	%xmm0, (%rdx,%rax,8)
Lunix_path_BB10_24:
	movq	72(%rsp), %rax
	movq	(%rax), %rcx
	movq	8(%rax), %rax
	movq	(%rdx), %r9
	movq	8(%rdx), %rsi
	movq	16(%rdx), %r8
	movups	24(%rdx), %xmm0
	movaps	%xmm0, 240(%rsp)
	movq	%rdx, %r15
	movq	24(%rdx), %r10
	cmpq	%rsi, %rax
	movq	%rsi, 128(%rsp)
	movq	%rax, 32(%rsp)
	cmovbq	%rax, %rsi
	cmpq	%r9, %rsi
	movq	%r9, 136(%rsp)
	movq	%r9, %rax
	cmovbq	%rsi, %rax
	movq	%rcx, 8(%rsp)
	leaq	(%rcx,%rax), %rdi
	subq	%rax, %rsi
	movq	200(%rsp), %rax
	movq	%rbp, 120(%rsp)
	addq	%rax, %rbp
	movl	$1, %r13d
	movq	%r8, 40(%rsp)
	movq	%rsi, 24(%rsp)
	movq	%r10, 80(%rsp)
	.p2align	4
Lunix_path_BB10_25:
	movq	%rdi, %r12
	callq	_path_archive.slot.without_dot
	movq	%rax, %rbx
	movq	%rdx, %r14
	movq	-24(%rbp), %rax
	movq	-16(%rbp), %rsi
	movq	32(%rsp), %rcx
	cmpq	%rsi, %rcx
	cmovbq	%rcx, %rsi
	cmpq	%rax, %rsi
	cmovbq	%rsi, %rax
	movq	8(%rsp), %rcx
	leaq	(%rcx,%rax), %rdi
	subq	%rax, %rsi
	callq	_path_archive.slot.without_dot
	movq	%rdx, %rcx
	movq	%rbx, %rdi
	movq	%r14, %rsi
	movq	%rax, %rdx
	callq	_unix_path.compare.compare
	movq	80(%rsp), %r10
	movq	40(%rsp), %r8
	movq	(%rbp), %rcx
	cmpq	%rcx, %r10
	setae	%dl
	addb	%dl, %dl
	cmpq	%rcx, %r10
	movq	-8(%rbp), %rcx
	movzbl	%dl, %edx
	movl	$1, %esi
	cmovnel	%edx, %esi
	cmpq	%rcx, %r8
	setae	%dl
	addb	%dl, %dl
	cmpq	%rcx, %r8
	movzbl	%dl, %ecx
	cmovel	%esi, %ecx
	cmpb	$1, %al
	movzbl	%al, %eax
	cmovel	%ecx, %eax
	testb	%al, %al
	je	Lunix_path_BB10_26
	incq	%r13
	addq	$40, %rbp
	cmpq	%r13, 16(%rsp)
	movq	24(%rsp), %rsi
	movq	%r12, %rdi
	jne	Lunix_path_BB10_25
	movq	16(%rsp), %rax
	movq	%rax, %r13
	jmp	Lunix_path_BB10_29
	.p2align	4
Lunix_path_BB10_12:
	xorl	%ebp, %ebp
	leaq	(%r15,%rbp), %rdx
	subq	%rbx, %r12
	je	Lunix_path_BB10_15
Lunix_path_BB10_14:
	leaq	(%r12,%r12,4), %rax
	movq	32(%rdx), %rcx
	movq	%rcx, 176(%rsp)
	movups	(%rdx), %xmm0
	movups	16(%rdx), %xmm1
	movaps	%xmm1, 160(%rsp)
	movaps	%xmm0, 144(%rsp)
	movq	32(%rdx,%rax,8), %rcx
	movups	(%rdx,%rax,8), %xmm0
	movups	16(%rdx,%rax,8), %xmm1
	movups	%xmm0, (%rdx)
	movups	%xmm1, 16(%rdx)
	movq	%rcx, 32(%rdx)
	movq	176(%rsp), %rcx
	movq	%rcx, 32(%rdx,%rax,8)
	movaps	144(%rsp), %xmm0
	movaps	160(%rsp), %xmm1
	movups	%xmm1, 16(%rdx,%rax,8)
	movups	%xmm0, (%rdx,%rax,8)
Lunix_path_BB10_15:
	movq	(%r14), %rcx
	movq	8(%r14), %rax
	movq	(%rdx), %rsi
	movq	8(%rdx), %rdi
	movq	16(%rdx), %r8
	movq	%r8, 32(%rsp)
	movups	24(%rdx), %xmm0
	movaps	%xmm0, 240(%rsp)
	movq	%rdx, 64(%rsp)
	movq	24(%rdx), %r12
	cmpq	%rdi, %rax
	movq	%rdi, 128(%rsp)
	movq	%rax, 40(%rsp)
	cmovbq	%rax, %rdi
	cmpq	%rsi, %rdi
	movq	%rsi, 136(%rsp)
	movq	%rsi, %rax
	cmovbq	%rdi, %rax
	movq	%rcx, 8(%rsp)
	addq	%rax, %rcx
	movq	%rcx, 80(%rsp)
	subq	%rax, %rdi
	movq	%rdi, 24(%rsp)
	movq	200(%rsp), %rax
	movq	%rbp, %r15
	addq	%rax, %rbp
	movl	$1, %r13d
	.p2align	4
Lunix_path_BB10_16:
	movq	-24(%rbp), %rax
	movq	-16(%rbp), %rsi
	movq	40(%rsp), %rcx
	cmpq	%rsi, %rcx
	cmovbq	%rcx, %rsi
	cmpq	%rax, %rsi
	cmovbq	%rsi, %rax
	movq	8(%rsp), %rcx
	leaq	(%rcx,%rax), %rdi
	subq	%rax, %rsi
	callq	_path_archive.slot.without_dot
	movq	%rax, %rbx
	movq	%rdx, %r14
	movq	80(%rsp), %rdi
	movq	24(%rsp), %rsi
	callq	_path_archive.slot.without_dot
	movq	%rdx, %rcx
	movq	%rbx, %rdi
	movq	%r14, %rsi
	movq	%rax, %rdx
	callq	_unix_path.compare.compare
	movq	-8(%rbp), %rcx
	movq	(%rbp), %rdx
	cmpq	%r12, %rdx
	setae	%sil
	addb	%sil, %sil
	cmpq	%r12, %rdx
	movzbl	%sil, %edx
	movl	$1, %esi
	cmovnel	%edx, %esi
	movq	32(%rsp), %rdi
	cmpq	%rdi, %rcx
	setae	%dl
	addb	%dl, %dl
	cmpq	%rdi, %rcx
	movzbl	%dl, %ecx
	cmovel	%esi, %ecx
	cmpb	$1, %al
	je	Lunix_path_BB10_18
	movzbl	%al, %ecx
Lunix_path_BB10_18:
	testb	%cl, %cl
	jne	Lunix_path_BB10_19
	incq	%r13
	addq	$40, %rbp
	cmpq	%r13, 16(%rsp)
	jne	Lunix_path_BB10_16
	movq	16(%rsp), %rax
	movq	%rax, %r13
	jmp	Lunix_path_BB10_41
	.p2align	4
Lunix_path_BB10_19:
	movq	16(%rsp), %rax
Lunix_path_BB10_41:
	leaq	-1(%rax), %rdi
	cmpq	%rdi, %r13
	movq	72(%rsp), %r14
	movl	52(%rsp), %ebp
	jae	Lunix_path_BB10_42
	leaq	1(%r13), %rax
	leaq	(%rax,%rax,4), %rcx
	movq	64(%rsp), %rdx
	movq	(%rdx,%rcx,8), %rsi
	movq	%rsi, 120(%rsp)
	movq	8(%rdx,%rcx,8), %rsi
	movq	%rsi, 112(%rsp)
	movq	16(%rdx,%rcx,8), %rsi
	movq	%rsi, 88(%rsp)
	movups	24(%rdx,%rcx,8), %xmm0
	movaps	%xmm0, 224(%rsp)
	movq	24(%rdx,%rcx,8), %rcx
	movq	%rcx, 208(%rsp)
	cmpq	%rdi, %rax
	movq	%rdi, 104(%rsp)
	jae	Lunix_path_BB10_48
	leaq	(,%r13,4), %rax
	addq	%r13, %rax
	leaq	(%r15,%rax,8), %rbp
	addq	192(%rsp), %rbp
	movq	16(%rsp), %r15
	subq	%r13, %r15
	addq	$-2, %r15
	jmp	Lunix_path_BB10_45
	.p2align	4
Lunix_path_BB10_47:
	leaq	(,%r13,4), %rax
	addq	%r13, %rax
	movq	64(%rsp), %rsi
	movq	32(%rsi,%rax,8), %rdx
	movups	(%rsi,%rax,8), %xmm0
	movups	16(%rsi,%rax,8), %xmm1
	movups	%xmm0, -64(%rbp)
	movups	%xmm1, -48(%rbp)
	movq	%rdx, -32(%rbp)
	movups	-24(%rbp), %xmm0
	movups	-8(%rbp), %xmm1
	movq	8(%rbp), %rdx
	movq	%rdx, 32(%rsi,%rax,8)
	movups	%xmm1, 16(%rsi,%rax,8)
	movups	%xmm0, (%rsi,%rax,8)
	cmpb	$1, %cl
	adcq	$0, %r13
	addq	$40, %rbp
	decq	%r15
	je	Lunix_path_BB10_48
Lunix_path_BB10_45:
	movq	-24(%rbp), %rax
	movq	-16(%rbp), %rsi
	movq	40(%rsp), %rcx
	cmpq	%rsi, %rcx
	cmovbq	%rcx, %rsi
	cmpq	%rax, %rsi
	cmovbq	%rsi, %rax
	movq	8(%rsp), %rcx
	leaq	(%rcx,%rax), %rdi
	subq	%rax, %rsi
	callq	_path_archive.slot.without_dot
	movq	%rax, %rbx
	movq	%rdx, %r14
	movq	80(%rsp), %rdi
	movq	24(%rsp), %rsi
	callq	_path_archive.slot.without_dot
	movq	%rdx, %rcx
	movq	%rbx, %rdi
	movq	%r14, %rsi
	movq	%rax, %rdx
	callq	_unix_path.compare.compare
	movq	(%rbp), %rcx
	cmpq	%r12, %rcx
	setae	%dl
	addb	%dl, %dl
	cmpq	%r12, %rcx
	movq	-8(%rbp), %rcx
	movzbl	%dl, %edx
	movl	$1, %esi
	cmovnel	%edx, %esi
	movq	32(%rsp), %rdi
	cmpq	%rdi, %rcx
	setae	%dl
	addb	%dl, %dl
	cmpq	%rdi, %rcx
	movzbl	%dl, %ecx
	cmovel	%esi, %ecx
	cmpb	$1, %al
	je	Lunix_path_BB10_47
	movzbl	%al, %ecx
	jmp	Lunix_path_BB10_47
	.p2align	4
Lunix_path_BB10_42:
	movq	64(%rsp), %rdi
	movq	%r13, %rdx
	decq	%rdx
	jne	Lunix_path_BB10_51
	jmp	Lunix_path_BB10_50
	.p2align	4
Lunix_path_BB10_48:
	movq	208(%rsp), %rcx
	cmpq	%r12, %rcx
	setae	%al
	addb	%al, %al
	cmpq	%r12, %rcx
	movzbl	%al, %eax
	movl	$1, %ecx
	cmovnel	%eax, %ecx
	movq	32(%rsp), %rdx
	movq	88(%rsp), %rsi
	cmpq	%rdx, %rsi
	setae	%al
	addb	%al, %al
	cmpq	%rdx, %rsi
	movzbl	%al, %ebp
	cmovel	%ecx, %ebp
	movq	40(%rsp), %rax
	movq	112(%rsp), %r12
	cmpq	%r12, %rax
	movq	%r12, %rsi
	cmovbq	%rax, %rsi
	movq	120(%rsp), %r15
	cmpq	%r15, %rsi
	movq	%r15, %rax
	cmovbq	%rsi, %rax
	movq	8(%rsp), %rcx
	leaq	(%rcx,%rax), %rdi
	subq	%rax, %rsi
	callq	_path_archive.slot.without_dot
	movq	%rax, %rbx
	movq	%rdx, %r14
	movq	80(%rsp), %rdi
	movq	24(%rsp), %rsi
	callq	_path_archive.slot.without_dot
	movq	%rdx, %rcx
	movq	%rbx, %rdi
	movq	%r14, %rsi
	movq	%rax, %rdx
	callq	_unix_path.compare.compare
	cmpb	$1, %al
	movzbl	%al, %eax
	cmovel	%ebp, %eax
	leaq	(%r13,%r13,4), %rcx
	movq	104(%rsp), %rdx
	leaq	(%rdx,%rdx,4), %rdx
	movq	64(%rsp), %rdi
	movq	32(%rdi,%rcx,8), %rsi
	movups	(%rdi,%rcx,8), %xmm0
	movups	16(%rdi,%rcx,8), %xmm1
	movups	%xmm0, (%rdi,%rdx,8)
	movups	%xmm1, 16(%rdi,%rdx,8)
	movq	%rsi, 32(%rdi,%rdx,8)
	movq	%r15, (%rdi,%rcx,8)
	movq	%r12, 8(%rdi,%rcx,8)
	movq	88(%rsp), %rdx
	movq	%rdx, 16(%rdi,%rcx,8)
	movaps	224(%rsp), %xmm0
	movups	%xmm0, 24(%rdi,%rcx,8)
	cmpb	$1, %al
	adcq	$0, %r13
	movq	72(%rsp), %r14
	movl	52(%rsp), %ebp
	movq	%r13, %rdx
	decq	%rdx
	jne	Lunix_path_BB10_51
Lunix_path_BB10_50:
	xorl	%eax, %eax
	jmp	Lunix_path_BB10_52
	.p2align	4
Lunix_path_BB10_21:
	movq	72(%rsp), %r14
	movq	96(%rsp), %rbx
	leaq	(%r15,%rbp), %rdx
	subq	%rbx, %r12
	jne	Lunix_path_BB10_14
	jmp	Lunix_path_BB10_15
Lunix_path_BB10_26:
	movq	16(%rsp), %rax
	movq	24(%rsp), %rsi
	movq	%r12, %rdi
Lunix_path_BB10_29:
	leaq	-1(%rax), %rbx
	cmpq	%rbx, %r13
	movq	72(%rsp), %r14
	movl	52(%rsp), %ebp
	movq	%r15, %r9
	jae	Lunix_path_BB10_30
	leaq	1(%r13), %rax
	leaq	(%rax,%rax,4), %rcx
	movq	(%r9,%rcx,8), %rdx
	movq	8(%r9,%rcx,8), %r11
	movq	%rbx, 88(%rsp)
	movq	16(%r9,%rcx,8), %rbx
	movq	%rbx, 104(%rsp)
	movups	24(%r9,%rcx,8), %xmm0
	movq	24(%r9,%rcx,8), %rcx
	movq	%rcx, 264(%rsp)
	cmpq	88(%rsp), %rax
	movq	%rdx, 112(%rsp)
	movq	%r11, 224(%rsp)
	movaps	%xmm0, 208(%rsp)
	movq	%r9, 64(%rsp)
	jae	Lunix_path_BB10_34
	leaq	(,%r13,4), %rax
	addq	%r13, %rax
	movq	120(%rsp), %rcx
	leaq	(%rcx,%rax,8), %rbp
	addq	192(%rsp), %rbp
	movq	16(%rsp), %r15
	subq	%r13, %r15
	addq	$-2, %r15
	.p2align	4
Lunix_path_BB10_33:
	movq	%r12, %rdi
	callq	_path_archive.slot.without_dot
	movq	%rax, %rbx
	movq	%rdx, %r14
	movq	-24(%rbp), %rax
	movq	-16(%rbp), %rsi
	movq	32(%rsp), %rcx
	cmpq	%rsi, %rcx
	cmovbq	%rcx, %rsi
	cmpq	%rax, %rsi
	cmovbq	%rsi, %rax
	movq	8(%rsp), %rcx
	leaq	(%rcx,%rax), %rdi
	subq	%rax, %rsi
	callq	_path_archive.slot.without_dot
	movq	%rdx, %rcx
	movq	%rbx, %rdi
	movq	%r14, %rsi
	movq	%rax, %rdx
	callq	_unix_path.compare.compare
	movq	80(%rsp), %r10
	movq	%r12, %rdi
	movq	40(%rsp), %r8
	movq	(%rbp), %rcx
	cmpq	%rcx, %r10
	setae	%dl
	addb	%dl, %dl
	cmpq	%rcx, %r10
	movq	-8(%rbp), %rcx
	movzbl	%dl, %edx
	movl	$1, %esi
	cmovnel	%edx, %esi
	cmpq	%rcx, %r8
	setae	%dl
	addb	%dl, %dl
	cmpq	%rcx, %r8
	movzbl	%dl, %ecx
	cmovel	%esi, %ecx
	cmpb	$1, %al
	movzbl	%al, %eax
	cmovel	%ecx, %eax
	leaq	(%r13,%r13,4), %rcx
	movq	64(%rsp), %r9
	movq	32(%r9,%rcx,8), %rdx
	movups	(%r9,%rcx,8), %xmm0
	movups	16(%r9,%rcx,8), %xmm1
	movups	%xmm0, -64(%rbp)
	movups	%xmm1, -48(%rbp)
	movq	%rdx, -32(%rbp)
	movups	-24(%rbp), %xmm0
	movups	-8(%rbp), %xmm1
	movq	8(%rbp), %rdx
	movq	%rdx, 32(%r9,%rcx,8)
	movq	24(%rsp), %rsi
	movups	%xmm1, 16(%r9,%rcx,8)
	movups	%xmm0, (%r9,%rcx,8)
	cmpb	$1, %al
	sbbq	$-1, %r13
	addq	$40, %rbp
	decq	%r15
	jne	Lunix_path_BB10_33
Lunix_path_BB10_34:
	movq	264(%rsp), %rcx
	cmpq	%rcx, %r10
	setae	%al
	addb	%al, %al
	cmpq	%rcx, %r10
	movzbl	%al, %eax
	movl	$1, %ecx
	cmovnel	%eax, %ecx
	movq	104(%rsp), %r14
	cmpq	%r14, %r8
	setae	%al
	addb	%al, %al
	cmpq	%r14, %r8
	movzbl	%al, %ebp
	cmovel	%ecx, %ebp
	callq	_path_archive.slot.without_dot
	movq	%rax, 16(%rsp)
	movq	%rdx, 24(%rsp)
	movq	224(%rsp), %r12
	movq	32(%rsp), %rbx
	cmpq	%r12, %rbx
	movq	%r12, %rsi
	cmovbq	%rbx, %rsi
	movq	112(%rsp), %r15
	cmpq	%r15, %rsi
	movq	%r15, %rax
	cmovbq	%rsi, %rax
	movq	8(%rsp), %rcx
	leaq	(%rcx,%rax), %rdi
	subq	%rax, %rsi
	callq	_path_archive.slot.without_dot
	movq	%rdx, %rcx
	movq	16(%rsp), %rdi
	movq	24(%rsp), %rsi
	movq	%rax, %rdx
	callq	_unix_path.compare.compare
	cmpb	$1, %al
	movzbl	%al, %eax
	cmovel	%ebp, %eax
	leaq	(%r13,%r13,4), %rcx
	movq	88(%rsp), %rdx
	leaq	(%rdx,%rdx,4), %rdx
	movq	64(%rsp), %r9
	movq	32(%r9,%rcx,8), %rsi
	movups	(%r9,%rcx,8), %xmm0
	movups	16(%r9,%rcx,8), %xmm1
	movups	%xmm0, (%r9,%rdx,8)
	movups	%xmm1, 16(%r9,%rdx,8)
	movq	%rsi, 32(%r9,%rdx,8)
	movq	%r15, (%r9,%rcx,8)
	movq	%r12, 8(%r9,%rcx,8)
	movq	%r14, 16(%r9,%rcx,8)
	movaps	208(%rsp), %xmm0
	movups	%xmm0, 24(%r9,%rcx,8)
	cmpb	$1, %al
	sbbq	$-1, %r13
	movq	72(%rsp), %r14
	movl	52(%rsp), %ebp
	movq	8(%rsp), %rdx
	movq	%r13, %rax
	decq	%rax
	je	Lunix_path_BB10_36
Lunix_path_BB10_37:
	shlq	$3, %rax
	leaq	(%rax,%rax,4), %rax
	movups	(%r9,%rax), %xmm0
	movups	16(%r9,%rax), %xmm1
	movq	32(%r9,%rax), %rcx
	movq	%rcx, 32(%r9)
	movups	%xmm1, 16(%r9)
	movups	%xmm0, (%r9)
	jmp	Lunix_path_BB10_38
Lunix_path_BB10_30:
	movq	8(%rsp), %rdx
	movq	32(%rsp), %rbx
	movq	%r13, %rax
	decq	%rax
	jne	Lunix_path_BB10_37
Lunix_path_BB10_36:
	xorl	%eax, %eax
Lunix_path_BB10_38:
	movq	40(%rsp), %rdi
	movq	136(%rsp), %rcx
	movq	%rcx, (%r9,%rax)
	movq	128(%rsp), %rcx
	movq	%rcx, 8(%r9,%rax)
	movq	%rdi, 16(%r9,%rax)
	movaps	240(%rsp), %xmm0
	movups	%xmm0, 24(%r9,%rax)
	movq	%rdx, (%r14)
	movq	%rbx, 8(%r14)
	movq	56(%rsp), %r15
	movq	96(%rsp), %rbx
	jmp	Lunix_path_BB10_53
Lunix_path_BB10_54:
	leaq	(%rbx,%rbx,4), %rax
	leaq	(%r15,%rax,8), %rdi
	movq	%r13, %rsi
	movq	%r14, %rdx
	addq	$280, %rsp
	popq	%rbx
	popq	%r12
	popq	%r13
	popq	%r14
	popq	%r15
	popq	%rbp
	jmp	_core.slice.sort.small.insertion_sort.fd4dfef4a36ac24b.
Lunix_path_BB10_3:
	shlq	$3, %rbx
	leaq	(%rbx,%rbx,4), %rbx
	addq	%rbx, %r15
	movq	%r13, %r12
	shrq	%r12
	decq	%r12
	.p2align	4
Lunix_path_BB10_4:
	movq	%r15, %rdi
	movq	%r12, %rsi
	movq	%r13, %rdx
	movq	%r14, %rcx
	callq	_core.slice.sort.heap.sift.fd4dfef4a36ac24b.
	addq	$-1, %r12
	jb	Lunix_path_BB10_4
	leaq	(,%r13,4), %rax
	addq	%r13, %rax
	leaq	(%rbx,%rax,8), %rax
	movq	56(%rsp), %rcx
	leaq	(%rcx,%rax), %rbx
	addq	$-40, %rbx
	.p2align	4
Lunix_path_BB10_6:
	decq	%r13
	movq	32(%r15), %rax
	movq	%rax, 176(%rsp)
	movups	(%r15), %xmm0
	movups	16(%r15), %xmm1
	movaps	%xmm1, 160(%rsp)
	movaps	%xmm0, 144(%rsp)
	movq	32(%rbx), %rax
	movups	(%rbx), %xmm0
	movups	16(%rbx), %xmm1
	movups	%xmm0, (%r15)
	movups	%xmm1, 16(%r15)
	movq	%rax, 32(%r15)
	movq	176(%rsp), %rax
	movq	%rax, 32(%rbx)
	movaps	144(%rsp), %xmm0
	movaps	160(%rsp), %xmm1
	movups	%xmm1, 16(%rbx)
	movups	%xmm0, (%rbx)
	movq	%r15, %rdi
	xorl	%esi, %esi
	movq	%r13, %rdx
	movq	%r14, %rcx
	callq	_core.slice.sort.heap.sift.fd4dfef4a36ac24b.
	addq	$-40, %rbx
	cmpq	$1, %r13
	ja	Lunix_path_BB10_6
	addq	$280, %rsp
	popq	%rbx
	popq	%r12
	popq	%r13
	popq	%r14
	popq	%r15
	popq	%rbp
	retq
	.p2align	4
## core::slice::sort::heap::sift::<#fd4dfef4a36ac24b>
_core.slice.sort.heap.sift.fd4dfef4a36ac24b.:
	pushq	%rbp
	pushq	%r15
	pushq	%r14
	pushq	%r13
	pushq	%r12
	pushq	%rbx
	subq	$104, %rsp
	movq	%rcx, 16(%rsp)
	movq	%rdx, 88(%rsp)
	shrq	%rdx
	movq	%rdx, 80(%rsp)
	cmpq	%rdx, %rsi
	jae	Lunix_path_BB11_26
	movq	%rdi, %r15
	jmp	Lunix_path_BB11_2
	.p2align	4
Lunix_path_BB11_22:
	movq	32(%rax), %rdx
	movq	%rdx, 64(%rsp)
	movups	(%rax), %xmm0
	movups	16(%rax), %xmm1
	movaps	%xmm1, 48(%rsp)
	movaps	%xmm0, 32(%rsp)
	movq	32(%rcx), %rdx
	movups	(%rcx), %xmm0
	movups	16(%rcx), %xmm1
	movups	%xmm0, (%rax)
	movups	%xmm1, 16(%rax)
	movq	%rdx, 32(%rax)
	movq	64(%rsp), %rax
	movq	%rax, 32(%rcx)
	movaps	32(%rsp), %xmm0
	movaps	48(%rsp), %xmm1
	movups	%xmm1, 16(%rcx)
	movups	%xmm0, (%rcx)
Lunix_path_BB11_25:
	cmpq	80(%rsp), %rsi
	jae	Lunix_path_BB11_26
Lunix_path_BB11_2:
	leaq	1(,%rsi,2), %rdx
	leaq	2(,%rsi,2), %r12
	cmpq	88(%rsp), %r12
	movq	%rsi, 24(%rsp)
	je	Lunix_path_BB11_14
	movq	16(%rsp), %rax
	movq	8(%rax), %r13
	leaq	(%rdx,%rdx,4), %rcx
	movq	8(%r15,%rcx,8), %rax
	movq	%r13, %rsi
	cmpq	%rax, %r13
	jb	Lunix_path_BB11_5
	movq	%rax, %rsi
Lunix_path_BB11_5:
	movq	16(%rsp), %rax
	movq	(%rax), %rbp
	movq	%rcx, 8(%rsp)
	movq	(%r15,%rcx,8), %rax
	cmpq	%rax, %rsi
	cmovbq	%rsi, %rax
	leaq	(%rax,%rbp), %rdi
	subq	%rax, %rsi
	callq	_path_archive.slot.without_dot
	movq	%rax, %r14
	movq	%rdx, %rbx
	leaq	(%r12,%r12,4), %rax
	movq	%rax, %rcx
	movq	8(%r15,%rax,8), %rax
	cmpq	%rax, %r13
	jb	Lunix_path_BB11_7
	movq	%rax, %r13
Lunix_path_BB11_7:
	movq	(%r15,%rcx,8), %rax
	cmpq	%rax, %r13
	cmovbq	%r13, %rax
	addq	%rax, %rbp
	subq	%rax, %r13
	movq	%rbp, %rdi
	movq	%r13, %rsi
	callq	_path_archive.slot.without_dot
	movq	%rdx, %rcx
	movq	%r14, %rdi
	movq	%rbx, %rsi
	movq	%rax, %rdx
	callq	_unix_path.compare.compare
	movq	8(%rsp), %rdx
	movq	16(%r15,%rdx,8), %rcx
	movq	24(%r15,%rdx,8), %rdi
	leaq	(%r12,%r12,4), %rdx
	movq	24(%r15,%rdx,8), %r8
	movq	16(%r15,%rdx,8), %rdx
	movl	$1, %esi
	cmpq	%r8, %rdi
	setae	%dil
	je	Lunix_path_BB11_9
	addb	%dil, %dil
	movzbl	%dil, %esi
Lunix_path_BB11_9:
	cmpq	%rdx, %rcx
	setae	%dil
	addb	%dil, %dil
	cmpq	%rdx, %rcx
	movzbl	%dil, %ecx
	cmovel	%esi, %ecx
	cmpb	$1, %al
	movq	24(%rsp), %rsi
	leaq	1(%rsi,%rsi), %rdx
	je	Lunix_path_BB11_11
	movzbl	%al, %ecx
Lunix_path_BB11_11:
	testb	%cl, %cl
	je	Lunix_path_BB11_13
	movq	%rdx, %r12
Lunix_path_BB11_13:
	movq	%r12, %rdx
Lunix_path_BB11_14:
	movq	16(%rsp), %rax
	movq	(%rax), %r13
	movq	8(%rax), %rbp
	leaq	(%rsi,%rsi,4), %rcx
	movq	(%r15,%rcx,8), %rax
	movq	%rcx, 96(%rsp)
	movq	8(%r15,%rcx,8), %rcx
	movq	%rbp, %rsi
	cmpq	%rcx, %rbp
	jb	Lunix_path_BB11_16
	movq	%rcx, %rsi
Lunix_path_BB11_16:
	movq	%rdx, 8(%rsp)
	leaq	(%rdx,%rdx,4), %r12
	cmpq	%rax, %rsi
	cmovbq	%rsi, %rax
	leaq	(%rax,%r13), %rdi
	subq	%rax, %rsi
	callq	_path_archive.slot.without_dot
	movq	%rax, %rbx
	movq	%rdx, %r14
	movq	(%r15,%r12,8), %rax
	movq	8(%r15,%r12,8), %rcx
	cmpq	%rcx, %rbp
	jb	Lunix_path_BB11_18
	movq	%rcx, %rbp
Lunix_path_BB11_18:
	cmpq	%rax, %rbp
	cmovbq	%rbp, %rax
	addq	%rax, %r13
	subq	%rax, %rbp
	movq	%r13, %rdi
	movq	%rbp, %rsi
	callq	_path_archive.slot.without_dot
	movq	%rdx, %rcx
	movq	%rbx, %rdi
	movq	%r14, %rsi
	movq	%rax, %rdx
	callq	_unix_path.compare.compare
	movq	96(%rsp), %r9
	movq	16(%r15,%r9,8), %rcx
	movq	24(%r15,%r9,8), %rdi
	movq	24(%r15,%r12,8), %r8
	movq	16(%r15,%r12,8), %rdx
	movl	$1, %esi
	cmpq	%r8, %rdi
	setae	%dil
	je	Lunix_path_BB11_20
	addb	%dil, %dil
	movzbl	%dil, %esi
Lunix_path_BB11_20:
	cmpq	%rdx, %rcx
	setae	%dil
	addb	%dil, %dil
	cmpq	%rdx, %rcx
	movzbl	%dil, %ecx
	cmovel	%esi, %ecx
	cmpb	$1, %al
	movzbl	%al, %eax
	cmovel	%ecx, %eax
	testb	%al, %al
	movq	8(%rsp), %rsi
	jne	Lunix_path_BB11_26
	leaq	(%r15,%r9,8), %rax
	leaq	(%r15,%r12,8), %rcx
	cmpq	%rsi, 24(%rsp)
	jb	Lunix_path_BB11_22
	jbe	Lunix_path_BB11_25
	movq	32(%rcx), %rdx
	movq	%rdx, 64(%rsp)
	movups	(%rcx), %xmm0
	movups	16(%rcx), %xmm1
	movaps	%xmm1, 48(%rsp)
	movaps	%xmm0, 32(%rsp)
	movq	32(%rax), %rdx
	movups	(%rax), %xmm0
	movups	16(%rax), %xmm1
	movups	%xmm0, (%rcx)
	movups	%xmm1, 16(%rcx)
	movq	%rdx, 32(%rcx)
	movq	64(%rsp), %rcx
	movq	%rcx, 32(%rax)
	movaps	32(%rsp), %xmm0
	movaps	48(%rsp), %xmm1
	movups	%xmm1, 16(%rax)
	movups	%xmm0, (%rax)
	jmp	Lunix_path_BB11_25
Lunix_path_BB11_26:
	addq	$104, %rsp
	popq	%rbx
	popq	%r12
	popq	%r13
	popq	%r14
	popq	%r15
	popq	%rbp
	retq
	.p2align	4
## core::slice::sort::pivot::median_of_three::<#fd4dfef4a36ac24b>
_core.slice.sort.pivot.median_of_three.fd4dfef4a36ac24b.:
	pushq	%rbp
	pushq	%r15
	pushq	%r14
	pushq	%r13
	pushq	%r12
	pushq	%rbx
	subq	$72, %rsp
	movq	%rcx, 40(%rsp)
	movq	%rsi, 24(%rsp)
	movq	%rdi, %r15
	movq	%r8, 8(%rsp)
	movq	(%r8), %rbp
	movq	8(%r8), %r12
	leaq	(%rsi,%rsi,4), %rbx
	movq	%rdx, 56(%rsp)
	leaq	(,%rdx,8), %rax
	leaq	(%rax,%rax,4), %r13
	movq	(%rdi,%rbx,8), %rax
	movq	8(%rdi,%rbx,8), %rsi
	cmpq	%rsi, %r12
	cmovbq	%r12, %rsi
	cmpq	%rax, %rsi
	cmovbq	%rsi, %rax
	leaq	(%rax,%rbp), %rdi
	subq	%rax, %rsi
	callq	_path_archive.slot.without_dot
	movq	%rax, %r14
	movq	%rdx, 16(%rsp)
	movq	(%r15,%r13), %rax
	movq	8(%r15,%r13), %rsi
	cmpq	%rsi, %r12
	cmovbq	%r12, %rsi
	cmpq	%rax, %rsi
	cmovbq	%rsi, %rax
	addq	%rax, %rbp
	subq	%rax, %rsi
	movq	%rbp, %rdi
	callq	_path_archive.slot.without_dot
	movq	%rdx, %rcx
	movq	%r14, %rdi
	movq	16(%rsp), %rsi
	movq	%rax, %rdx
	callq	_unix_path.compare.compare
	movb	%al, 16(%rsp)
	movq	24(%r15,%rbx,8), %rax
	movq	24(%r15,%r13), %rcx
	cmpq	%rcx, %rax
	setae	%dl
	addb	%dl, %dl
	cmpq	%rcx, %rax
	movq	16(%r15,%rbx,8), %rax
	movq	%r13, 48(%rsp)
	movq	16(%r15,%r13), %rcx
	movzbl	%dl, %edx
	movl	$1, %esi
	cmovel	%esi, %edx
	cmpq	%rcx, %rax
	setae	%sil
	addb	%sil, %sil
	cmpq	%rcx, %rax
	movzbl	%sil, %eax
	cmovel	%edx, %eax
	movl	%eax, 36(%rsp)
	movq	8(%rsp), %rax
	movq	(%rax), %r14
	movq	8(%rax), %r12
	movq	40(%rsp), %rax
	leaq	(,%rax,8), %rax
	leaq	(%rax,%rax,4), %rbp
	movq	(%r15,%rbx,8), %rax
	movq	8(%r15,%rbx,8), %rsi
	cmpq	%rsi, %r12
	cmovbq	%r12, %rsi
	cmpq	%rax, %rsi
	cmovbq	%rsi, %rax
	leaq	(%r14,%rax), %rdi
	subq	%rax, %rsi
	callq	_path_archive.slot.without_dot
	movq	%rax, 64(%rsp)
	movq	%rdx, %r13
	movq	(%r15,%rbp), %rax
	movq	8(%r15,%rbp), %rsi
	cmpq	%rsi, %r12
	cmovbq	%r12, %rsi
	cmpq	%rax, %rsi
	cmovbq	%rsi, %rax
	addq	%rax, %r14
	subq	%rax, %rsi
	movq	%r14, %rdi
	callq	_path_archive.slot.without_dot
	movq	%rdx, %rcx
	movq	64(%rsp), %rdi
	movq	%r13, %rsi
	movq	%rax, %rdx
	callq	_unix_path.compare.compare
	movq	16(%r15,%rbx,8), %rcx
	movq	24(%r15,%rbx,8), %rdx
	movq	24(%r15,%rbp), %rsi
	cmpq	%rsi, %rdx
	setae	%dil
	addb	%dil, %dil
	cmpq	%rsi, %rdx
	movq	16(%r15,%rbp), %rdx
	movzbl	%dil, %esi
	movl	$1, %edi
	cmovel	%edi, %esi
	cmpq	%rdx, %rcx
	setae	%dil
	addb	%dil, %dil
	cmpq	%rdx, %rcx
	movzbl	%dil, %ecx
	cmovel	%esi, %ecx
	movzbl	16(%rsp), %edx
	cmpb	$1, %dl
	movzbl	%dl, %r13d
	cmovel	36(%rsp), %r13d
	testb	%r13b, %r13b
	sete	%dl
	cmpb	$1, %al
	movzbl	%al, %eax
	cmovel	%ecx, %eax
	testb	%al, %al
	sete	%al
	cmpb	%al, %dl
	movq	24(%rsp), %rax
	jne	Lunix_path_BB12_2
	movq	8(%rsp), %rax
	movq	(%rax), %r14
	movq	8(%rax), %rbx
	movq	48(%rsp), %r12
	movq	(%r15,%r12), %rax
	movq	8(%r15,%r12), %rsi
	cmpq	%rsi, %rbx
	cmovbq	%rbx, %rsi
	cmpq	%rax, %rsi
	cmovbq	%rsi, %rax
	leaq	(%r14,%rax), %rdi
	subq	%rax, %rsi
	callq	_path_archive.slot.without_dot
	movq	%rax, 8(%rsp)
	movq	%rdx, 24(%rsp)
	movq	(%r15,%rbp), %rax
	movq	8(%r15,%rbp), %rsi
	cmpq	%rsi, %rbx
	cmovbq	%rbx, %rsi
	cmpq	%rax, %rsi
	cmovbq	%rsi, %rax
	addq	%rax, %r14
	subq	%rax, %rsi
	movq	%r14, %rdi
	callq	_path_archive.slot.without_dot
	movq	%rdx, %rcx
	movq	8(%rsp), %rdi
	movq	24(%rsp), %rsi
	movq	%rax, %rdx
	callq	_unix_path.compare.compare
	movq	16(%r15,%r12), %rcx
	movq	24(%r15,%r12), %rdx
	movq	24(%r15,%rbp), %rsi
	cmpq	%rsi, %rdx
	setae	%dil
	addb	%dil, %dil
	cmpq	%rsi, %rdx
	movzbl	%dil, %edx
	movl	$1, %esi
	cmovel	%esi, %edx
	movq	16(%r15,%rbp), %rsi
	cmpq	%rsi, %rcx
	setae	%dil
	addb	%dil, %dil
	cmpq	%rsi, %rcx
	movzbl	%dil, %ecx
	cmovel	%edx, %ecx
	testb	%r13b, %r13b
	sete	%dl
	cmpb	$1, %al
	movzbl	%al, %eax
	cmovel	%ecx, %eax
	testb	%al, %al
	sete	%al
	xorb	%dl, %al
	movq	56(%rsp), %rax
	cmovneq	40(%rsp), %rax
Lunix_path_BB12_2:
	addq	$72, %rsp
	popq	%rbx
	popq	%r12
	popq	%r13
	popq	%r14
	popq	%r15
	popq	%rbp
	retq
	.p2align	4
## core::slice::sort::pivot::median_of_medians::<#fd4dfef4a36ac24b>
_core.slice.sort.pivot.median_of_medians.fd4dfef4a36ac24b.:
	cmpq	$7, %r8
	ja	Lunix_path_BB13_2
	movq	%r9, %r8
	jmp	_core.slice.sort.pivot.median_of_three.fd4dfef4a36ac24b.
Lunix_path_BB13_2:
	pushq	%rbp
	pushq	%r15
	pushq	%r14
	pushq	%r13
	pushq	%r12
	pushq	%rbx
	pushq	%rax
	movq	%r8, %rbx
	shrq	$3, %rbx
	leaq	(%rsi,%rbx,4), %rax
	andq	$-8, %r8
	subq	%rbx, %r8
	leaq	(%r8,%rsi), %r10
	movq	%rdi, %r14
	movq	%rdx, %r12
	movq	%rax, %rdx
	movq	%rcx, %r13
	movq	%r10, %rcx
	movq	%r8, %rbp
	movq	%rbx, %r8
	movq	%r9, %r15
	callq	_core.slice.sort.pivot.median_of_medians.fd4dfef4a36ac24b.
	movq	%rax, (%rsp)
	leaq	(%r12,%rbx,4), %rdx
	leaq	(%r12,%rbp), %rcx
	movq	%r14, %rdi
	movq	%r12, %rsi
	movq	%rbx, %r8
	movq	%r15, %r9
	callq	_core.slice.sort.pivot.median_of_medians.fd4dfef4a36ac24b.
	movq	%rax, %r12
	leaq	(,%rbx,4), %rdx
	addq	%r13, %rdx
	addq	%r13, %rbp
	movq	%r14, %rdi
	movq	%r13, %rsi
	movq	%rbp, %rcx
	movq	%rbx, %r8
	movq	%r15, %r9
	callq	_core.slice.sort.pivot.median_of_medians.fd4dfef4a36ac24b.
	movq	%r14, %rdi
	movq	(%rsp), %rsi
	movq	%r12, %rdx
	movq	%rax, %rcx
	movq	%r15, %r8
	addq	$8, %rsp
	popq	%rbx
	popq	%r12
	popq	%r13
	popq	%r14
	popq	%r15
	popq	%rbp
	jmp	_core.slice.sort.pivot.median_of_three.fd4dfef4a36ac24b.
	.p2align	4
## core::slice::edits::mirror::<24'path_archive::slot::Slot>
_core.slice.edits.mirror.24.path_archive.slot.Slot.:
	leaq	(%rdx,%rdx,4), %rax
	leaq	(%rsi,%rax,8), %rax
	addq	$-40, %rax
	.p2align	4
Lunix_path_BB14_1:
	movq	32(%rdi), %rcx
	movq	%rcx, -8(%rsp)
	movups	(%rdi), %xmm0
	movups	16(%rdi), %xmm1
	movaps	%xmm1, -24(%rsp)
	movaps	%xmm0, -40(%rsp)
	movq	32(%rax), %rcx
	movups	(%rax), %xmm0
	movups	16(%rax), %xmm1
	movups	%xmm0, (%rdi)
	movups	%xmm1, 16(%rdi)
	movq	%rcx, 32(%rdi)
	movq	-8(%rsp), %rcx
	movq	%rcx, 32(%rax)
	movaps	-40(%rsp), %xmm0
	movaps	-24(%rsp), %xmm1
	movups	%xmm1, 16(%rax)
	movups	%xmm0, (%rax)
	addq	$40, %rdi
	addq	$-40, %rax
	decq	%rdx
	jne	Lunix_path_BB14_1
	retq
	.p2align	4
## path_archive::outlined::starts_with
_path_archive.outlined.starts_with:
	movq	%rcx, %r8
	testq	%rcx, %rcx
	je	Lunix_path_BB15_7
	subq	$24, %rsp
	movq	%rdx, %rcx
	movq	%rsi, %rdx
	movq	%rdi, %rsi
	pxor	%xmm0, %xmm0
	movdqa	%xmm0, (%rsp)
	movq	$0, 16(%rsp)
	cmpq	%rdx, %r8
	movq	%rdx, %rax
	cmovbq	%r8, %rax
	cmpq	$15, %rax
	ja	Lunix_path_BB15_8
	cmpq	$7, %rax
	ja	Lunix_path_BB15_15
	testq	%rdx, %rdx
	je	Lunix_path_BB15_18
	movzbl	(%rsi), %edi
	cmpb	(%rcx), %dil
	jne	Lunix_path_BB15_19
	cmpq	$1, %rax
	jne	Lunix_path_BB15_47
Lunix_path_BB15_6:
	movq	%rax, %rdi
	jmp	Lunix_path_BB15_20
Lunix_path_BB15_7:
	movb	$1, %al
	andb	$1, %al
	retq
Lunix_path_BB15_8:
	leaq	-16(%rax), %r9
	xorl	%r10d, %r10d
	cmpq	$64, %rax
	jb	Lunix_path_BB15_13
	.p2align	4
Lunix_path_BB15_9:
	movdqu	(%rsi,%r10), %xmm0
	movdqu	16(%rsi,%r10), %xmm1
	movdqu	32(%rsi,%r10), %xmm2
	movdqu	48(%rsi,%r10), %xmm3
	movdqu	(%rcx,%r10), %xmm4
	pcmpeqb	%xmm0, %xmm4
	movdqu	16(%rcx,%r10), %xmm0
	pcmpeqb	%xmm1, %xmm0
	pand	%xmm4, %xmm0
	movdqu	32(%rcx,%r10), %xmm1
	pcmpeqb	%xmm2, %xmm1
	movdqu	48(%rcx,%r10), %xmm2
	pcmpeqb	%xmm3, %xmm2
	pand	%xmm1, %xmm2
	pand	%xmm0, %xmm2
	pmovmskb	%xmm2, %edi
	cmpl	$65535, %edi
	jne	Lunix_path_BB15_13
	addq	$64, %r10
	addq	$-64, %rax
	cmpq	$63, %rax
	ja	Lunix_path_BB15_9
	jmp	Lunix_path_BB15_13
	.p2align	4
Lunix_path_BB15_11:
	movdqu	(%rsi,%r10), %xmm0
	movdqu	(%rcx,%r10), %xmm1
	pcmpeqb	%xmm0, %xmm1
	pmovmskb	%xmm1, %eax
	notl	%eax
	rep		bsfl	%eax, %eax
	cmpw	$15, %ax
	jbe	Lunix_path_BB15_17
	addq	$16, %r10
Lunix_path_BB15_13:
	cmpq	%r9, %r10
	jb	Lunix_path_BB15_11
	movdqu	(%rsi,%r9), %xmm0
	movdqu	(%rcx,%r9), %xmm1
	pcmpeqb	%xmm0, %xmm1
	pmovmskb	%xmm1, %eax
	notl	%eax
	rep		bsfl	%eax, %edi
	addq	%r9, %rdi
	jmp	Lunix_path_BB15_20
Lunix_path_BB15_15:
	movq	(%rsi), %xmm0
	movq	(%rcx), %xmm1
	pcmpeqb	%xmm0, %xmm1
	pmovmskb	%xmm1, %edi
	notl	%edi
	orl	$256, %edi
	rep		bsfl	%edi, %edi
	cmpb	$8, %dil
	jb	Lunix_path_BB15_20
	movq	-8(%rsi,%rax), %xmm0
	movq	-8(%rcx,%rax), %xmm1
	pcmpeqb	%xmm0, %xmm1
	pmovmskb	%xmm1, %edi
	notl	%edi
	orl	$256, %edi
	rep		bsfl	%edi, %edi
	addq	%rax, %rdi
	addq	$-8, %rdi
	jmp	Lunix_path_BB15_20
Lunix_path_BB15_17:
	movzwl	%ax, %edi
	addq	%r10, %rdi
	jmp	Lunix_path_BB15_20
Lunix_path_BB15_18:
	movb	$1, %al
	xorl	%edi, %edi
	cmpq	%rdx, %rdi
	jb	Lunix_path_BB15_22
	jmp	Lunix_path_BB15_28
Lunix_path_BB15_19:
	xorl	%edi, %edi
Lunix_path_BB15_20:
	movb	$1, %al
	cmpq	%rdi, %r8
	jbe	Lunix_path_BB15_24
	cmpq	%rdx, %rdi
	jae	Lunix_path_BB15_28
Lunix_path_BB15_22:
	movzbl	(%rsi,%rdi), %r9d
	cmpw	$47, %r9w
	jne	Lunix_path_BB15_31
Lunix_path_BB15_28:
	xorl	%r9d, %r9d
	testb	%al, %al
	je	Lunix_path_BB15_34
Lunix_path_BB15_29:
	movzbl	(%rcx,%rdi), %eax
	cmpw	$47, %ax
	je	Lunix_path_BB15_34
	movzwl	%ax, %eax
	incl	%eax
	cmpw	%ax, %r9w
	je	Lunix_path_BB15_35
Lunix_path_BB15_39:
	testq	%rdi, %rdi
	je	Lunix_path_BB15_50
	movzbl	-1(%rsi,%rdi), %eax
	cmpb	$47, %al
	je	Lunix_path_BB15_41
	cmpb	$46, %al
	setne	%al
	decq	%rdi
	sete	%r9b
	orb	%al, %r9b
	jne	Lunix_path_BB15_50
	cmpb	$47, -1(%rsi,%rdi)
	je	Lunix_path_BB15_41
	jmp	Lunix_path_BB15_50
Lunix_path_BB15_24:
	movb	$1, %al
	cmpq	%rdx, %r8
	jae	Lunix_path_BB15_37
	cmpb	$47, (%rsi,%r8)
	je	Lunix_path_BB15_37
	cmpb	$47, -1(%rsi,%r8)
	je	Lunix_path_BB15_37
	xorl	%eax, %eax
	cmpq	%rdx, %rdi
	jb	Lunix_path_BB15_22
	jmp	Lunix_path_BB15_28
Lunix_path_BB15_31:
	cmpb	$46, %r9b
	sete	%r10b
	movl	%eax, %r11d
	xorb	$1, %r11b
	orb	%r10b, %r11b
	jne	Lunix_path_BB15_33
	movzbl	(%rcx,%rdi), %r10d
	andb	$-2, %r10b
	cmpb	$46, %r10b
	jne	Lunix_path_BB15_50
Lunix_path_BB15_33:
	movzwl	%r9w, %r9d
	incl	%r9d
	testb	%al, %al
	jne	Lunix_path_BB15_29
Lunix_path_BB15_34:
	xorl	%eax, %eax
	cmpw	%ax, %r9w
	jne	Lunix_path_BB15_39
Lunix_path_BB15_35:
	testq	%rdi, %rdi
	je	Lunix_path_BB15_36
Lunix_path_BB15_41:
	addq	%rdi, %rsi
	subq	%rdi, %rdx
	addq	%rdi, %rcx
	subq	%rdi, %r8
	movq	%rsp, %rdi
	callq	_unix_path.pair.Comparison.rest_after_cut
	movzbl	(%rsp), %eax
	addq	$24, %rsp
	andb	$1, %al
	retq
Lunix_path_BB15_50:
	xorl	%eax, %eax
	addq	$24, %rsp
	andb	$1, %al
	retq
Lunix_path_BB15_36:
	xorl	%eax, %eax
Lunix_path_BB15_37:
	addq	$24, %rsp
	andb	$1, %al
	retq
Lunix_path_BB15_47:
	movzbl	1(%rsi), %r9d
	movl	$1, %edi
	cmpb	1(%rcx), %r9b
	jne	Lunix_path_BB15_20
	cmpq	$2, %rax
	je	Lunix_path_BB15_6
	movzbl	2(%rsi), %r9d
	movl	$2, %edi
	cmpb	2(%rcx), %r9b
	jne	Lunix_path_BB15_20
	cmpq	$3, %rax
	je	Lunix_path_BB15_6
	movzbl	3(%rsi), %r9d
	movl	$3, %edi
	cmpb	3(%rcx), %r9b
	jne	Lunix_path_BB15_20
	cmpq	$4, %rax
	je	Lunix_path_BB15_6
	movzbl	4(%rsi), %r9d
	movl	$4, %edi
	cmpb	4(%rcx), %r9b
	jne	Lunix_path_BB15_20
	cmpq	$5, %rax
	je	Lunix_path_BB15_6
	movzbl	5(%rsi), %r9d
	movl	$5, %edi
	cmpb	5(%rcx), %r9b
	jne	Lunix_path_BB15_20
	cmpq	$6, %rax
	je	Lunix_path_BB15_6
	movzbl	6(%rsi), %edi
	cmpb	6(%rcx), %dil
	movl	$6, %edi
	cmoveq	%rax, %rdi
	jmp	Lunix_path_BB15_20
	.section	__TEXT,__literal16,16byte_literals
	.p2align	4, 0x0
Lunix_path_CPI16_0:
	.space	16,208
Lunix_path_CPI16_1:
	.space	16,47
Lunix_path_CPI16_2:
	.space	16,46
Lunix_path_CPI16_3:
	.byte	254
	.byte	254
	.byte	254
	.byte	254
	.byte	254
	.byte	254
	.byte	254
	.byte	254
	.space	1
	.space	1
	.space	1
	.space	1
	.space	1
	.space	1
	.space	1
	.space	1
Lunix_path_CPI16_4:
	.byte	46
	.byte	46
	.byte	46
	.byte	46
	.byte	46
	.byte	46
	.byte	46
	.byte	46
	.space	1
	.space	1
	.space	1
	.space	1
	.space	1
	.space	1
	.space	1
	.space	1
Lunix_path_CPI16_5:
	.byte	47
	.byte	47
	.byte	47
	.byte	47
	.byte	47
	.byte	47
	.byte	47
	.byte	47
	.space	1
	.space	1
	.space	1
	.space	1
	.space	1
	.space	1
	.space	1
	.space	1
	.section	__TEXT,__text,regular,pure_instructions
	.p2align	4
## path_archive::outlined::has_root_or_parent_dir
_path_archive.outlined.has_root_or_parent_dir:
	pushq	%rbp
	pushq	%r14
	pushq	%rbx
	testq	%rsi, %rsi
	je	Lunix_path_BB16_6
	movq	%rdi, %rbx
	movb	$1, %bpl
	cmpb	$47, (%rdi)
	je	Lunix_path_BB16_7
	movq	%rsi, %r14
	movzbl	(%rbx), %eax
	cmpl	$47, %eax
	je	Lunix_path_BB16_8
	cmpl	$46, %eax
	jne	Lunix_path_BB16_13
	cmpq	$1, %r14
	je	Lunix_path_BB16_8
	movzbl	1(%rbx), %eax
	cmpl	$47, %eax
	je	Lunix_path_BB16_55
	cmpl	$46, %eax
	jne	Lunix_path_BB16_13
	cmpq	$2, %r14
	je	Lunix_path_BB16_55
	cmpb	$47, 2(%rbx)
	je	Lunix_path_BB16_55
Lunix_path_BB16_13:
	movzbl	-1(%rbx,%r14), %eax
	andb	$-2, %al
	cmpb	$46, %al
	je	Lunix_path_BB16_55
	cmpq	$17, %r14
	jae	Lunix_path_BB16_17
Lunix_path_BB16_15:
	cmpq	$9, %r14
	jae	Lunix_path_BB16_25
	xorl	%eax, %eax
	jmp	Lunix_path_BB16_42
Lunix_path_BB16_17:
	cmpq	$32, %r14
	ja	Lunix_path_BB16_27
	movdqu	(%rbx), %xmm0
	movdqu	1(%rbx), %xmm1
	pand	Lunix_path_CPI16_0(%rip), %xmm1
	por	%xmm0, %xmm1
	pcmpeqb	Lunix_path_CPI16_1(%rip), %xmm1
	pmovmskb	%xmm1, %eax
	testl	%eax, %eax
	jne	Lunix_path_BB16_20
	movdqu	-17(%rbx,%r14), %xmm0
	movdqu	-16(%rbx,%r14), %xmm1
	pand	Lunix_path_CPI16_0(%rip), %xmm1
	por	%xmm0, %xmm1
	pcmpeqb	Lunix_path_CPI16_1(%rip), %xmm1
	pmovmskb	%xmm1, %eax
	testl	%eax, %eax
	je	Lunix_path_BB16_6
Lunix_path_BB16_20:
	cmpq	$18, %r14
	jbe	Lunix_path_BB16_15
	movq	%r14, %rcx
	addq	$-19, %rcx
	jne	Lunix_path_BB16_29
	xorl	%ecx, %ecx
	xorl	%eax, %eax
Lunix_path_BB16_23:
	leaq	-17(%r14), %rdx
	cmpq	%rax, %rdx
	cmovbq	%rdx, %rax
	movdqu	(%rbx,%rax), %xmm0
	movdqu	1(%rbx,%rax), %xmm1
	pand	Lunix_path_CPI16_0(%rip), %xmm1
	por	%xmm0, %xmm1
	pcmpeqb	Lunix_path_CPI16_1(%rip), %xmm1
	pmovmskb	%xmm1, %edx
	testl	%edx, %edx
	je	Lunix_path_BB16_41
	movdqu	(%rbx,%rcx), %xmm0
	movdqu	1(%rbx,%rcx), %xmm1
	movdqu	2(%rbx,%rcx), %xmm2
	movdqu	3(%rbx,%rcx), %xmm3
	movdqa	Lunix_path_CPI16_2(%rip), %xmm4
	movdqa	%xmm2, %xmm5
	pcmpeqb	%xmm4, %xmm5
	movdqa	Lunix_path_CPI16_1(%rip), %xmm6
	pcmpeqb	%xmm6, %xmm3
	pand	%xmm5, %xmm3
	pcmpeqb	%xmm1, %xmm4
	pcmpeqb	%xmm6, %xmm2
	por	%xmm3, %xmm2
	pand	%xmm4, %xmm2
	pcmpeqb	%xmm6, %xmm0
	pcmpeqb	%xmm6, %xmm1
	por	%xmm2, %xmm1
	pand	%xmm0, %xmm1
	pmovmskb	%xmm1, %eax
	orl	$65536, %eax
	rep		bsfl	%eax, %eax
	jmp	Lunix_path_BB16_36
Lunix_path_BB16_25:
	movq	1(%rbx), %xmm0
	pand	Lunix_path_CPI16_3(%rip), %xmm0
	pcmpeqb	Lunix_path_CPI16_4(%rip), %xmm0
	movq	(%rbx), %xmm1
	pcmpeqb	Lunix_path_CPI16_5(%rip), %xmm1
	pand	%xmm0, %xmm1
	pmovmskb	%xmm1, %eax
	orl	$256, %eax
	rep		bsfl	%eax, %eax
	cmpb	$8, %al
	jb	Lunix_path_BB16_42
	cmpq	$17, %r14
	movl	$17, %eax
	cmovbq	%r14, %rax
	movq	-8(%rbx,%rax), %xmm0
	pand	Lunix_path_CPI16_3(%rip), %xmm0
	pcmpeqb	Lunix_path_CPI16_4(%rip), %xmm0
	movq	-9(%rbx,%rax), %xmm1
	pcmpeqb	Lunix_path_CPI16_5(%rip), %xmm1
	pand	%xmm0, %xmm1
	pmovmskb	%xmm1, %ecx
	orl	$256, %ecx
	rep		bsfl	%ecx, %ecx
	addq	%rcx, %rax
	addq	$-9, %rax
	jmp	Lunix_path_BB16_42
Lunix_path_BB16_27:
	movdqa	Lunix_path_CPI16_0(%rip), %xmm0
	movdqu	-33(%rbx,%r14), %xmm1
	movdqu	-32(%rbx,%r14), %xmm2
	movdqu	-17(%rbx,%r14), %xmm3
	movdqu	-16(%rbx,%r14), %xmm4
	pand	%xmm0, %xmm2
	por	%xmm1, %xmm2
	movdqa	Lunix_path_CPI16_1(%rip), %xmm1
	pcmpeqb	%xmm1, %xmm2
	pand	%xmm0, %xmm4
	por	%xmm3, %xmm4
	pcmpeqb	%xmm1, %xmm4
	por	%xmm2, %xmm4
	pmovmskb	%xmm4, %eax
	testl	%eax, %eax
	je	Lunix_path_BB16_37
	leaq	-19(%r14), %rcx
Lunix_path_BB16_29:
	xorl	%eax, %eax
	jmp	Lunix_path_BB16_33
	.p2align	4
Lunix_path_BB16_30:
	movdqu	2(%rbx,%rax), %xmm2
	movdqu	3(%rbx,%rax), %xmm3
	movdqa	Lunix_path_CPI16_2(%rip), %xmm4
	movdqa	%xmm2, %xmm5
	pcmpeqb	%xmm4, %xmm5
	movdqa	Lunix_path_CPI16_1(%rip), %xmm6
	pcmpeqb	%xmm6, %xmm3
	pand	%xmm5, %xmm3
	pcmpeqb	%xmm1, %xmm4
	pcmpeqb	%xmm6, %xmm2
	por	%xmm3, %xmm2
	pand	%xmm4, %xmm2
	pcmpeqb	%xmm6, %xmm0
	pcmpeqb	%xmm6, %xmm1
	por	%xmm2, %xmm1
	pand	%xmm0, %xmm1
	pmovmskb	%xmm1, %edx
	orl	$65536, %edx
	rep		bsfl	%edx, %edx
	cmpw	$15, %dx
	jbe	Lunix_path_BB16_35
	addq	$16, %rax
Lunix_path_BB16_32:
	cmpq	%rcx, %rax
	jae	Lunix_path_BB16_23
Lunix_path_BB16_33:
	movdqu	(%rbx,%rax), %xmm0
	movdqu	1(%rbx,%rax), %xmm1
	movdqa	Lunix_path_CPI16_0(%rip), %xmm2
	pand	%xmm1, %xmm2
	por	%xmm0, %xmm2
	pcmpeqb	Lunix_path_CPI16_1(%rip), %xmm2
	pmovmskb	%xmm2, %edx
	testl	%edx, %edx
	jne	Lunix_path_BB16_30
	addq	$16, %rax
	cmpq	%rcx, %rax
	jb	Lunix_path_BB16_33
	jmp	Lunix_path_BB16_32
Lunix_path_BB16_35:
	movzwl	%dx, %ecx
Lunix_path_BB16_36:
	addq	%rcx, %rax
	jmp	Lunix_path_BB16_42
Lunix_path_BB16_37:
	movq	%r14, %rax
	addq	$-33, %rax
	je	Lunix_path_BB16_6
	xorl	%ecx, %ecx
Lunix_path_BB16_39:
	movdqu	(%rbx,%rcx), %xmm2
	movdqu	1(%rbx,%rcx), %xmm3
	movdqu	16(%rbx,%rcx), %xmm4
	movdqu	17(%rbx,%rcx), %xmm5
	pand	%xmm0, %xmm3
	por	%xmm2, %xmm3
	pcmpeqb	%xmm1, %xmm3
	pand	%xmm0, %xmm5
	por	%xmm4, %xmm5
	pcmpeqb	%xmm1, %xmm5
	por	%xmm3, %xmm5
	pmovmskb	%xmm5, %edx
	testl	%edx, %edx
	jne	Lunix_path_BB16_20
	addq	$32, %rcx
	xorl	%ebp, %ebp
	cmpq	%rax, %rcx
	jb	Lunix_path_BB16_39
	jmp	Lunix_path_BB16_7
Lunix_path_BB16_41:
	addq	$16, %rax
Lunix_path_BB16_42:
	cmpq	%r14, %rax
	jb	Lunix_path_BB16_48
	movq	%rax, %rcx
Lunix_path_BB16_44:
	cmpq	%r14, %rcx
	jne	Lunix_path_BB16_55
Lunix_path_BB16_6:
	xorl	%ebp, %ebp
Lunix_path_BB16_7:
	movl	%ebp, %eax
	popq	%rbx
	popq	%r14
	popq	%rbp
	retq
Lunix_path_BB16_46:
	cmpl	$47, %edx
	je	Lunix_path_BB16_44
Lunix_path_BB16_47:
	xorl	%ebp, %ebp
	cmpq	%r14, %rax
	jae	Lunix_path_BB16_7
Lunix_path_BB16_48:
	movq	%rax, %rcx
	incq	%rax
	cmpb	$47, (%rbx,%rcx)
	jne	Lunix_path_BB16_47
	cmpq	%rax, %r14
	jbe	Lunix_path_BB16_44
	movzbl	1(%rbx,%rcx), %edx
	cmpl	$46, %edx
	jne	Lunix_path_BB16_46
	leaq	2(%rcx), %rdx
	cmpq	%rdx, %r14
	jbe	Lunix_path_BB16_44
	movzbl	2(%rbx,%rcx), %edx
	cmpl	$46, %edx
	jne	Lunix_path_BB16_46
	leaq	3(%rcx), %rdx
	cmpq	%rdx, %r14
	jbe	Lunix_path_BB16_44
	cmpb	$47, 3(%rbx,%rcx)
	jne	Lunix_path_BB16_47
	jmp	Lunix_path_BB16_44
Lunix_path_BB16_55:
	movzbl	(%rbx), %eax
	cmpl	$47, %eax
	je	Lunix_path_BB16_8
	cmpl	$46, %eax
	jne	Lunix_path_BB16_60
	movb	$1, %bpl
	cmpq	$1, %r14
	je	Lunix_path_BB16_61
	cmpb	$47, 1(%rbx)
	sete	%bpl
	jmp	Lunix_path_BB16_61
Lunix_path_BB16_8:
	movb	$1, %bpl
Lunix_path_BB16_61:
	movq	%r14, %rcx
	movq	%r14, %rax
	jmp	Lunix_path_BB16_63
	.p2align	4
Lunix_path_BB16_62:
	movq	%rax, %rcx
	testq	%rax, %rax
	je	Lunix_path_BB16_6
Lunix_path_BB16_63:
	decq	%rax
	je	Lunix_path_BB16_69
	movzbl	(%rbx,%rax), %edx
	cmpl	$47, %edx
	je	Lunix_path_BB16_67
	cmpl	$46, %edx
	jne	Lunix_path_BB16_69
	cmpb	$47, -1(%rbx,%rax)
	jne	Lunix_path_BB16_69
Lunix_path_BB16_67:
	movq	%r14, %rcx
	subq	%rax, %rcx
	cmpq	$8, %rcx
	jne	Lunix_path_BB16_62
	movq	%rbx, %rdi
	movq	%rax, %rsi
	callq	_unix_path.filler.trimmed_blocks_len
	jmp	Lunix_path_BB16_62
Lunix_path_BB16_69:
	xorl	%eax, %eax
	movq	%rcx, %rdx
	movq	%rbx, %rsi
	jmp	Lunix_path_BB16_73
Lunix_path_BB16_70:
	xorl	%edi, %edi
Lunix_path_BB16_71:
	addq	%r8, %rdi
Lunix_path_BB16_72:
	addq	%rdi, %rax
	leaq	(%rbx,%rax), %rsi
	xorl	%ebp, %ebp
	movq	%rcx, %rdx
	subq	%rax, %rdx
	je	Lunix_path_BB16_7
Lunix_path_BB16_73:
	testb	$1, %bpl
	je	Lunix_path_BB16_81
	movq	%rdx, %r8
	decq	%r8
	je	Lunix_path_BB16_103
	leaq	-1(%rdx), %r9
	addq	$-2, %rdx
	xorl	%edi, %edi
	jmp	Lunix_path_BB16_77
	.p2align	4
Lunix_path_BB16_76:
	incq	%rdi
	cmpq	%rdi, %r9
	je	Lunix_path_BB16_104
Lunix_path_BB16_77:
	movzbl	1(%rsi,%rdi), %r10d
	cmpl	$47, %r10d
	je	Lunix_path_BB16_76
	cmpl	$46, %r10d
	jne	Lunix_path_BB16_105
	cmpq	%rdi, %rdx
	je	Lunix_path_BB16_104
	cmpb	$47, 2(%rsi,%rdi)
	je	Lunix_path_BB16_76
	.p2align	4
Lunix_path_BB16_105:
	incq	%rdi
	cmpb	$47, (%rsi)
	jne	Lunix_path_BB16_72
	jmp	Lunix_path_BB16_109
	.p2align	4
Lunix_path_BB16_81:
	cmpq	$1, %rdx
	je	Lunix_path_BB16_86
	cmpb	$46, (%rsi)
	jne	Lunix_path_BB16_86
	cmpb	$46, 1(%rsi)
	jne	Lunix_path_BB16_86
	movb	$1, %bpl
	cmpq	$2, %rdx
	je	Lunix_path_BB16_7
	cmpb	$47, 2(%rsi)
	je	Lunix_path_BB16_7
Lunix_path_BB16_86:
	cmpq	$15, %rdx
	ja	Lunix_path_BB16_91
	xorl	%r8d, %r8d
	.p2align	4
Lunix_path_BB16_88:
	cmpb	$47, (%rsi,%r8)
	je	Lunix_path_BB16_96
	incq	%r8
	cmpq	%r8, %rdx
	jne	Lunix_path_BB16_88
	movq	%rdx, %r8
	subq	%r8, %rdx
	jne	Lunix_path_BB16_97
	jmp	Lunix_path_BB16_70
	.p2align	4
Lunix_path_BB16_91:
	movq	%rdx, %rdi
	addq	$-16, %rdi
	je	Lunix_path_BB16_95
	xorl	%r9d, %r9d
	.p2align	4
Lunix_path_BB16_93:
	movdqu	(%rsi,%r9), %xmm0
	pcmpeqb	Lunix_path_CPI16_1(%rip), %xmm0
	pmovmskb	%xmm0, %r8d
	orl	$65536, %r8d
	rep		bsfl	%r8d, %r8d
	cmpw	$15, %r8w
	jbe	Lunix_path_BB16_107
	addq	$16, %r9
	cmpq	%rdi, %r9
	jb	Lunix_path_BB16_93
Lunix_path_BB16_95:
	movdqu	(%rsi,%rdi), %xmm0
	pcmpeqb	Lunix_path_CPI16_1(%rip), %xmm0
	pmovmskb	%xmm0, %r8d
	orl	$65536, %r8d
	rep		bsfl	%r8d, %r8d
	addq	%rdi, %r8
Lunix_path_BB16_96:
	subq	%r8, %rdx
	je	Lunix_path_BB16_70
Lunix_path_BB16_97:
	addq	%r8, %rsi
	incq	%rsi
	leaq	-1(%rdx), %r9
	xorl	%edi, %edi
	jmp	Lunix_path_BB16_99
	.p2align	4
Lunix_path_BB16_98:
	incq	%rdi
	cmpq	%rdi, %rdx
	je	Lunix_path_BB16_106
Lunix_path_BB16_99:
	movzbl	-1(%rsi,%rdi), %r10d
	cmpl	$47, %r10d
	je	Lunix_path_BB16_98
	cmpl	$46, %r10d
	jne	Lunix_path_BB16_71
	cmpq	%rdi, %r9
	je	Lunix_path_BB16_106
	cmpb	$47, (%rsi,%rdi)
	je	Lunix_path_BB16_98
	jmp	Lunix_path_BB16_71
Lunix_path_BB16_103:
	movl	$1, %edi
	cmpb	$47, (%rsi)
	jne	Lunix_path_BB16_72
	jmp	Lunix_path_BB16_109
Lunix_path_BB16_104:
	movq	%r8, %rdi
	incq	%rdi
	cmpb	$47, (%rsi)
	jne	Lunix_path_BB16_72
	jmp	Lunix_path_BB16_109
Lunix_path_BB16_106:
	movq	%rdx, %rdi
	jmp	Lunix_path_BB16_71
Lunix_path_BB16_107:
	movzwl	%r8w, %r8d
	addq	%r9, %r8
	subq	%r8, %rdx
	jne	Lunix_path_BB16_97
	jmp	Lunix_path_BB16_70
Lunix_path_BB16_109:
	movb	$1, %bpl
	jmp	Lunix_path_BB16_7
Lunix_path_BB16_60:
	xorl	%ebp, %ebp
	jmp	Lunix_path_BB16_61
	.section	__TEXT,__literal16,16byte_literals
	.p2align	4, 0x0
Lunix_path_CPI17_0:
	.space	16,208
Lunix_path_CPI17_1:
	.space	16,47
Lunix_path_CPI17_2:
	.space	16,46
Lunix_path_CPI17_3:
	.byte	254
	.byte	254
	.byte	254
	.byte	254
	.byte	254
	.byte	254
	.byte	254
	.byte	254
	.space	1
	.space	1
	.space	1
	.space	1
	.space	1
	.space	1
	.space	1
	.space	1
Lunix_path_CPI17_4:
	.byte	46
	.byte	46
	.byte	46
	.byte	46
	.byte	46
	.byte	46
	.byte	46
	.byte	46
	.space	1
	.space	1
	.space	1
	.space	1
	.space	1
	.space	1
	.space	1
	.space	1
Lunix_path_CPI17_5:
	.byte	47
	.byte	47
	.byte	47
	.byte	47
	.byte	47
	.byte	47
	.byte	47
	.byte	47
	.space	1
	.space	1
	.space	1
	.space	1
	.space	1
	.space	1
	.space	1
	.space	1
	.section	__TEXT,__text,regular,pure_instructions
	.p2align	4
## path_within::check::check_escape
_path_within.check.check_escape:
	testq	%rsi, %rsi
	je	Lunix_path_BB17_3
	pushq	%rbp
	pushq	%r14
	pushq	%rbx
	subq	$16, %rsp
	movq	%rdi, %rbx
	cmpb	$47, (%rdi)
	jne	Lunix_path_BB17_4
Lunix_path_BB17_2:
	xorl	%eax, %eax
	jmp	Lunix_path_BB17_109
Lunix_path_BB17_3:
	movb	$2, %al
	retq
Lunix_path_BB17_4:
	movq	%rsi, %r14
	movzbl	(%rbx), %ecx
	cmpl	$47, %ecx
	je	Lunix_path_BB17_12
	cmpl	$46, %ecx
	jne	Lunix_path_BB17_11
	cmpq	$1, %r14
	je	Lunix_path_BB17_12
	movzbl	1(%rbx), %eax
	cmpl	$47, %eax
	je	Lunix_path_BB17_12
	cmpl	$46, %eax
	jne	Lunix_path_BB17_11
	cmpq	$2, %r14
	je	Lunix_path_BB17_12
	cmpb	$47, 2(%rbx)
	je	Lunix_path_BB17_12
Lunix_path_BB17_11:
	movzbl	-1(%rbx,%r14), %eax
	andb	$-2, %al
	cmpb	$46, %al
	jne	Lunix_path_BB17_76
Lunix_path_BB17_12:
	movzbl	(%rbx), %ecx
Lunix_path_BB17_13:
	movb	$1, %bpl
	cmpb	$47, %cl
	je	Lunix_path_BB17_18
	movzbl	%cl, %eax
	cmpl	$46, %eax
	jne	Lunix_path_BB17_17
	cmpq	$1, %r14
	je	Lunix_path_BB17_18
	cmpb	$47, 1(%rbx)
	sete	%bpl
	jmp	Lunix_path_BB17_18
Lunix_path_BB17_17:
	xorl	%ebp, %ebp
Lunix_path_BB17_18:
	movq	%r14, %rcx
	movq	%r14, %rax
	jmp	Lunix_path_BB17_20
	.p2align	4
Lunix_path_BB17_19:
	movq	%rax, %rcx
	testq	%rax, %rax
	je	Lunix_path_BB17_75
Lunix_path_BB17_20:
	decq	%rax
	je	Lunix_path_BB17_26
	movzbl	(%rbx,%rax), %edx
	cmpl	$47, %edx
	je	Lunix_path_BB17_24
	cmpl	$46, %edx
	jne	Lunix_path_BB17_26
	cmpb	$47, -1(%rbx,%rax)
	jne	Lunix_path_BB17_26
Lunix_path_BB17_24:
	movq	%r14, %rcx
	subq	%rax, %rcx
	cmpq	$8, %rcx
	jne	Lunix_path_BB17_19
	movq	%rbx, %rdi
	movq	%rax, %rsi
	callq	_unix_path.filler.trimmed_blocks_len
	jmp	Lunix_path_BB17_19
Lunix_path_BB17_26:
	xorl	%eax, %eax
	movq	%rcx, %rsi
	movq	%rbx, %rdi
	xorl	%edx, %edx
	jmp	Lunix_path_BB17_30
Lunix_path_BB17_27:
	xorl	%r8d, %r8d
Lunix_path_BB17_28:
	addq	%r9, %r8
	incq	%rax
Lunix_path_BB17_29:
	addq	%r8, %rdx
	leaq	(%rbx,%rdx), %rdi
	xorl	%ebp, %ebp
	movq	%rcx, %rsi
	subq	%rdx, %rsi
	je	Lunix_path_BB17_75
Lunix_path_BB17_30:
	testb	$1, %bpl
	je	Lunix_path_BB17_38
	movq	%rsi, %r9
	decq	%r9
	je	Lunix_path_BB17_66
	leaq	-1(%rsi), %r10
	addq	$-2, %rsi
	xorl	%r8d, %r8d
	jmp	Lunix_path_BB17_34
	.p2align	4
Lunix_path_BB17_33:
	incq	%r8
	cmpq	%r8, %r10
	je	Lunix_path_BB17_67
Lunix_path_BB17_34:
	movzbl	1(%rdi,%r8), %r11d
	cmpl	$47, %r11d
	je	Lunix_path_BB17_33
	cmpl	$46, %r11d
	jne	Lunix_path_BB17_68
	cmpq	%r8, %rsi
	je	Lunix_path_BB17_67
	cmpb	$47, 2(%rdi,%r8)
	je	Lunix_path_BB17_33
	.p2align	4
Lunix_path_BB17_68:
	incq	%r8
	cmpb	$47, (%rdi)
	jne	Lunix_path_BB17_29
	jmp	Lunix_path_BB17_2
	.p2align	4
Lunix_path_BB17_38:
	cmpq	$1, %rsi
	je	Lunix_path_BB17_44
	cmpb	$46, (%rdi)
	jne	Lunix_path_BB17_44
	cmpb	$46, 1(%rdi)
	jne	Lunix_path_BB17_44
	movl	$2, %r8d
	cmpq	$2, %rsi
	je	Lunix_path_BB17_73
	cmpb	$47, 2(%rdi)
	jne	Lunix_path_BB17_44
	leaq	-2(%rsi), %r9
	addq	$-3, %rsi
	xorl	%r8d, %r8d
	jmp	Lunix_path_BB17_50
	.p2align	4
Lunix_path_BB17_44:
	cmpq	$15, %rsi
	ja	Lunix_path_BB17_54
	xorl	%r9d, %r9d
	.p2align	4
Lunix_path_BB17_46:
	cmpb	$47, (%rdi,%r9)
	je	Lunix_path_BB17_59
	incq	%r9
	cmpq	%r9, %rsi
	jne	Lunix_path_BB17_46
	movq	%rsi, %r9
	subq	%r9, %rsi
	jne	Lunix_path_BB17_60
	jmp	Lunix_path_BB17_27
	.p2align	4
Lunix_path_BB17_49:
	incq	%r8
	cmpq	%r8, %r9
	je	Lunix_path_BB17_71
Lunix_path_BB17_50:
	movzbl	2(%rdi,%r8), %r10d
	cmpl	$47, %r10d
	je	Lunix_path_BB17_49
	cmpl	$46, %r10d
	jne	Lunix_path_BB17_72
	cmpq	%r8, %rsi
	je	Lunix_path_BB17_71
	cmpb	$47, 3(%rdi,%r8)
	je	Lunix_path_BB17_49
	jmp	Lunix_path_BB17_72
	.p2align	4
Lunix_path_BB17_54:
	movq	%rsi, %r8
	addq	$-16, %r8
	je	Lunix_path_BB17_58
	xorl	%r10d, %r10d
	.p2align	4
Lunix_path_BB17_56:
	movdqu	(%rdi,%r10), %xmm0
	pcmpeqb	Lunix_path_CPI17_1(%rip), %xmm0
	pmovmskb	%xmm0, %r9d
	orl	$65536, %r9d
	rep		bsfl	%r9d, %r9d
	cmpw	$15, %r9w
	jbe	Lunix_path_BB17_70
	addq	$16, %r10
	cmpq	%r8, %r10
	jb	Lunix_path_BB17_56
Lunix_path_BB17_58:
	movdqu	(%rdi,%r8), %xmm0
	pcmpeqb	Lunix_path_CPI17_1(%rip), %xmm0
	pmovmskb	%xmm0, %r9d
	orl	$65536, %r9d
	rep		bsfl	%r9d, %r9d
	addq	%r8, %r9
Lunix_path_BB17_59:
	subq	%r9, %rsi
	je	Lunix_path_BB17_27
Lunix_path_BB17_60:
	addq	%r9, %rdi
	incq	%rdi
	leaq	-1(%rsi), %r10
	xorl	%r8d, %r8d
	jmp	Lunix_path_BB17_62
	.p2align	4
Lunix_path_BB17_61:
	incq	%r8
	cmpq	%r8, %rsi
	je	Lunix_path_BB17_69
Lunix_path_BB17_62:
	movzbl	-1(%rdi,%r8), %r11d
	cmpl	$47, %r11d
	je	Lunix_path_BB17_61
	cmpl	$46, %r11d
	jne	Lunix_path_BB17_28
	cmpq	%r8, %r10
	je	Lunix_path_BB17_69
	cmpb	$47, (%rdi,%r8)
	je	Lunix_path_BB17_61
	jmp	Lunix_path_BB17_28
Lunix_path_BB17_66:
	movl	$1, %r8d
	cmpb	$47, (%rdi)
	jne	Lunix_path_BB17_29
	jmp	Lunix_path_BB17_2
Lunix_path_BB17_67:
	movq	%r9, %r8
	incq	%r8
	cmpb	$47, (%rdi)
	jne	Lunix_path_BB17_29
	jmp	Lunix_path_BB17_2
Lunix_path_BB17_69:
	movq	%rsi, %r8
	jmp	Lunix_path_BB17_28
Lunix_path_BB17_70:
	movzwl	%r9w, %r9d
	addq	%r10, %r9
	subq	%r9, %rsi
	jne	Lunix_path_BB17_60
	jmp	Lunix_path_BB17_27
Lunix_path_BB17_71:
	movq	%r9, %r8
Lunix_path_BB17_72:
	addq	$2, %r8
Lunix_path_BB17_73:
	testq	%rax, %rax
	je	Lunix_path_BB17_2
	decq	%rax
	jmp	Lunix_path_BB17_29
Lunix_path_BB17_75:
	movb	$2, %al
Lunix_path_BB17_109:
	addq	$16, %rsp
	popq	%rbx
	popq	%r14
	popq	%rbp
	retq
Lunix_path_BB17_76:
	cmpq	$17, %r14
	jae	Lunix_path_BB17_80
Lunix_path_BB17_77:
	cmpq	$9, %r14
	jae	Lunix_path_BB17_88
	xorl	%edx, %edx
	jmp	Lunix_path_BB17_106
Lunix_path_BB17_80:
	cmpq	$32, %r14
	ja	Lunix_path_BB17_90
	movdqu	1(%rbx), %xmm0
	pand	Lunix_path_CPI17_0(%rip), %xmm0
	movdqu	(%rbx), %xmm1
	por	%xmm1, %xmm0
	pcmpeqb	Lunix_path_CPI17_1(%rip), %xmm0
	pmovmskb	%xmm0, %eax
	movdqa	%xmm1, (%rsp)
	movzbl	(%rsp), %ecx
	testl	%eax, %eax
	jne	Lunix_path_BB17_83
	movdqu	-17(%rbx,%r14), %xmm0
	movdqu	-16(%rbx,%r14), %xmm1
	pand	Lunix_path_CPI17_0(%rip), %xmm1
	por	%xmm0, %xmm1
	pcmpeqb	Lunix_path_CPI17_1(%rip), %xmm1
	pmovmskb	%xmm1, %eax
	testl	%eax, %eax
	je	Lunix_path_BB17_119
Lunix_path_BB17_83:
	cmpq	$18, %r14
	jbe	Lunix_path_BB17_77
	movq	%r14, %rax
	addq	$-19, %rax
	jne	Lunix_path_BB17_92
	xorl	%eax, %eax
	xorl	%edx, %edx
Lunix_path_BB17_86:
	leaq	-17(%r14), %rsi
	cmpq	%rdx, %rsi
	cmovbq	%rsi, %rdx
	movdqu	(%rbx,%rdx), %xmm0
	movdqu	1(%rbx,%rdx), %xmm1
	pand	Lunix_path_CPI17_0(%rip), %xmm1
	por	%xmm0, %xmm1
	pcmpeqb	Lunix_path_CPI17_1(%rip), %xmm1
	pmovmskb	%xmm1, %esi
	testl	%esi, %esi
	je	Lunix_path_BB17_105
	movdqu	(%rbx,%rax), %xmm0
	movdqu	1(%rbx,%rax), %xmm1
	movdqu	2(%rbx,%rax), %xmm2
	movdqu	3(%rbx,%rax), %xmm3
	movdqa	Lunix_path_CPI17_2(%rip), %xmm4
	movdqa	%xmm2, %xmm5
	pcmpeqb	%xmm4, %xmm5
	movdqa	Lunix_path_CPI17_1(%rip), %xmm6
	pcmpeqb	%xmm6, %xmm3
	pand	%xmm5, %xmm3
	pcmpeqb	%xmm1, %xmm4
	pcmpeqb	%xmm6, %xmm2
	por	%xmm3, %xmm2
	pand	%xmm4, %xmm2
	pcmpeqb	%xmm6, %xmm0
	pcmpeqb	%xmm6, %xmm1
	por	%xmm2, %xmm1
	pand	%xmm0, %xmm1
	pmovmskb	%xmm1, %edx
	orl	$65536, %edx
	rep		bsfl	%edx, %edx
	jmp	Lunix_path_BB17_100
Lunix_path_BB17_88:
	movq	(%rbx), %rcx
	movq	1(%rbx), %xmm0
	pand	Lunix_path_CPI17_3(%rip), %xmm0
	pcmpeqb	Lunix_path_CPI17_4(%rip), %xmm0
	movq	%rcx, %xmm1
	pcmpeqb	Lunix_path_CPI17_5(%rip), %xmm1
	pand	%xmm0, %xmm1
	pmovmskb	%xmm1, %eax
	orl	$256, %eax
	rep		bsfl	%eax, %edx
	cmpb	$8, %dl
	jb	Lunix_path_BB17_106
	cmpq	$17, %r14
	movl	$17, %eax
	cmovbq	%r14, %rax
	movq	-8(%rbx,%rax), %xmm0
	pand	Lunix_path_CPI17_3(%rip), %xmm0
	pcmpeqb	Lunix_path_CPI17_4(%rip), %xmm0
	movq	-9(%rbx,%rax), %xmm1
	pcmpeqb	Lunix_path_CPI17_5(%rip), %xmm1
	pand	%xmm0, %xmm1
	pmovmskb	%xmm1, %edx
	orl	$256, %edx
	rep		bsfl	%edx, %edx
	addq	%rax, %rdx
	addq	$-9, %rdx
	jmp	Lunix_path_BB17_106
Lunix_path_BB17_90:
	movdqa	Lunix_path_CPI17_0(%rip), %xmm0
	movdqu	-33(%rbx,%r14), %xmm1
	movdqu	-32(%rbx,%r14), %xmm2
	movdqu	-17(%rbx,%r14), %xmm3
	movdqu	-16(%rbx,%r14), %xmm4
	pand	%xmm0, %xmm2
	por	%xmm1, %xmm2
	movdqa	Lunix_path_CPI17_1(%rip), %xmm1
	pcmpeqb	%xmm1, %xmm2
	pand	%xmm0, %xmm4
	por	%xmm3, %xmm4
	pcmpeqb	%xmm1, %xmm4
	por	%xmm2, %xmm4
	pmovmskb	%xmm4, %eax
	testl	%eax, %eax
	je	Lunix_path_BB17_101
	leaq	-19(%r14), %rax
Lunix_path_BB17_92:
	xorl	%edx, %edx
	jmp	Lunix_path_BB17_94
	.p2align	4
Lunix_path_BB17_93:
	cmpq	%rax, %rdx
	jae	Lunix_path_BB17_86
Lunix_path_BB17_94:
	movdqu	(%rbx,%rdx), %xmm0
	movdqu	1(%rbx,%rdx), %xmm1
	movdqa	Lunix_path_CPI17_0(%rip), %xmm2
	pand	%xmm1, %xmm2
	por	%xmm0, %xmm2
	pcmpeqb	Lunix_path_CPI17_1(%rip), %xmm2
	pmovmskb	%xmm2, %esi
	testl	%esi, %esi
	je	Lunix_path_BB17_97
	movdqu	2(%rbx,%rdx), %xmm2
	movdqu	3(%rbx,%rdx), %xmm3
	movdqa	Lunix_path_CPI17_2(%rip), %xmm4
	movdqa	%xmm2, %xmm5
	pcmpeqb	%xmm4, %xmm5
	movdqa	Lunix_path_CPI17_1(%rip), %xmm6
	pcmpeqb	%xmm6, %xmm3
	pand	%xmm5, %xmm3
	pcmpeqb	%xmm1, %xmm4
	pcmpeqb	%xmm6, %xmm2
	por	%xmm3, %xmm2
	pand	%xmm4, %xmm2
	pcmpeqb	%xmm6, %xmm0
	pcmpeqb	%xmm6, %xmm1
	por	%xmm2, %xmm1
	pand	%xmm0, %xmm1
	pmovmskb	%xmm1, %esi
	orl	$65536, %esi
	rep		bsfl	%esi, %esi
	cmpw	$15, %si
	jbe	Lunix_path_BB17_99
	addq	$16, %rdx
	jmp	Lunix_path_BB17_93
Lunix_path_BB17_97:
	addq	$16, %rdx
	cmpq	%rax, %rdx
	jb	Lunix_path_BB17_94
	jmp	Lunix_path_BB17_93
Lunix_path_BB17_99:
	movzwl	%si, %eax
Lunix_path_BB17_100:
	addq	%rax, %rdx
	jmp	Lunix_path_BB17_106
Lunix_path_BB17_101:
	movq	%r14, %rdx
	movb	$1, %al
	addq	$-33, %rdx
	je	Lunix_path_BB17_109
	xorl	%esi, %esi
Lunix_path_BB17_103:
	movdqu	(%rbx,%rsi), %xmm2
	movdqu	1(%rbx,%rsi), %xmm3
	movdqu	16(%rbx,%rsi), %xmm4
	movdqu	17(%rbx,%rsi), %xmm5
	pand	%xmm0, %xmm3
	por	%xmm2, %xmm3
	pcmpeqb	%xmm1, %xmm3
	pand	%xmm0, %xmm5
	por	%xmm4, %xmm5
	pcmpeqb	%xmm1, %xmm5
	por	%xmm3, %xmm5
	pmovmskb	%xmm5, %edi
	testl	%edi, %edi
	jne	Lunix_path_BB17_83
	addq	$32, %rsi
	cmpq	%rdx, %rsi
	jb	Lunix_path_BB17_103
	jmp	Lunix_path_BB17_109
Lunix_path_BB17_105:
	addq	$16, %rdx
Lunix_path_BB17_106:
	cmpq	%r14, %rdx
	jb	Lunix_path_BB17_112
	movq	%rdx, %rsi
Lunix_path_BB17_108:
	movb	$1, %al
	cmpq	%r14, %rsi
	jne	Lunix_path_BB17_13
	jmp	Lunix_path_BB17_109
Lunix_path_BB17_110:
	cmpl	$47, %eax
	je	Lunix_path_BB17_108
Lunix_path_BB17_111:
	movb	$1, %al
	cmpq	%r14, %rdx
	jae	Lunix_path_BB17_109
Lunix_path_BB17_112:
	movq	%rdx, %rsi
	incq	%rdx
	cmpb	$47, (%rbx,%rsi)
	jne	Lunix_path_BB17_111
	cmpq	%rdx, %r14
	jbe	Lunix_path_BB17_108
	movzbl	1(%rbx,%rsi), %eax
	cmpl	$46, %eax
	jne	Lunix_path_BB17_110
	leaq	2(%rsi), %rax
	cmpq	%rax, %r14
	jbe	Lunix_path_BB17_108
	movzbl	2(%rbx,%rsi), %eax
	cmpl	$46, %eax
	jne	Lunix_path_BB17_110
	leaq	3(%rsi), %rax
	cmpq	%rax, %r14
	jbe	Lunix_path_BB17_108
	cmpb	$47, 3(%rbx,%rsi)
	jne	Lunix_path_BB17_111
	jmp	Lunix_path_BB17_108
Lunix_path_BB17_119:
	movb	$1, %al
	jmp	Lunix_path_BB17_109
	.section	__TEXT,__literal16,16byte_literals
	.p2align	4, 0x0
Lunix_path_CPI18_0:
	.space	16,47
	.section	__TEXT,__text,regular,pure_instructions
	.p2align	4
## unix_path::path::Path::file_name
_unix_path.path.Path.file_name:
	pushq	%rbp
	pushq	%r15
	pushq	%r14
	pushq	%r13
	pushq	%r12
	pushq	%rbx
	pushq	%rax
	movq	%rdi, %rbx
	testq	%rdx, %rdx
	je	Lunix_path_BB18_9
	movq	%rdx, %r15
	movq	%rsi, %r14
	movq	%rdx, %r12
	movq	%r15, %rax
	jmp	Lunix_path_BB18_2
	.p2align	4
Lunix_path_BB18_8:
	movq	%rax, %r12
	testq	%rax, %rax
	je	Lunix_path_BB18_9
Lunix_path_BB18_2:
	decq	%rax
	je	Lunix_path_BB18_23
	movzbl	(%r14,%rax), %ecx
	cmpl	$47, %ecx
	je	Lunix_path_BB18_6
	cmpl	$46, %ecx
	jne	Lunix_path_BB18_10
	cmpb	$47, -1(%r14,%rax)
	jne	Lunix_path_BB18_10
Lunix_path_BB18_6:
	movq	%r15, %rcx
	subq	%rax, %rcx
	cmpq	$8, %rcx
	jne	Lunix_path_BB18_8
	movq	%r14, %rdi
	movq	%rax, %rsi
	callq	_unix_path.filler.trimmed_blocks_len
	jmp	Lunix_path_BB18_8
Lunix_path_BB18_9:
	pxor	%xmm0, %xmm0
	movdqu	%xmm0, (%rbx)
	movq	$0, 16(%rbx)
	jmp	Lunix_path_BB18_43
Lunix_path_BB18_23:
	movl	$1, %r12d
	xorl	%r15d, %r15d
	cmpb	$46, (%r14)
	movl	$0, %r13d
	movl	$0, %ecx
	jne	Lunix_path_BB18_24
	jmp	Lunix_path_BB18_42
Lunix_path_BB18_10:
	cmpb	$46, -1(%r14,%r12)
	jne	Lunix_path_BB18_24
	cmpb	$46, -2(%r14,%r12)
	jne	Lunix_path_BB18_24
	xorl	%r15d, %r15d
	movl	$0, %r13d
	movl	$0, %ecx
	cmpq	$2, %r12
	je	Lunix_path_BB18_42
	cmpb	$47, -3(%r14,%r12)
	jne	Lunix_path_BB18_24
	addq	$-2, %r12
	movq	%r12, %rax
	jmp	Lunix_path_BB18_15
Lunix_path_BB18_24:
	movq	%r12, %rax
	.p2align	4
Lunix_path_BB18_25:
	cmpq	$15, %rax
	jbe	Lunix_path_BB18_26
	movdqu	-16(%r14,%rax), %xmm0
	addq	$-16, %rax
	pcmpeqb	Lunix_path_CPI18_0(%rip), %xmm0
	pmovmskb	%xmm0, %ecx
	testl	%ecx, %ecx
	je	Lunix_path_BB18_25
	movzwl	%cx, %ecx
	bsrq	%rcx, %rcx
	xorq	$63, %rcx
	subq	%rcx, %rax
	addq	$64, %rax
	movq	%rax, %rbp
	jmp	Lunix_path_BB18_32
Lunix_path_BB18_26:
	incq	%rax
	.p2align	4
Lunix_path_BB18_27:
	cmpq	$1, %rax
	je	Lunix_path_BB18_28
	leaq	-1(%rax), %rbp
	cmpb	$47, -2(%r14,%rax)
	movq	%rbp, %rax
	jne	Lunix_path_BB18_27
Lunix_path_BB18_32:
	xorl	%r15d, %r15d
	movl	$0, %r13d
	movl	$0, %ecx
	subq	%rbp, %r12
	je	Lunix_path_BB18_42
	leaq	(%r14,%rbp), %r15
	movq	%rbp, %rax
	jmp	Lunix_path_BB18_34
	.p2align	4
Lunix_path_BB18_40:
	testq	%rax, %rax
	je	Lunix_path_BB18_41
Lunix_path_BB18_34:
	movl	$1, %r13d
	decq	%rax
	je	Lunix_path_BB18_41
	movzbl	(%r14,%rax), %ecx
	cmpl	$47, %ecx
	je	Lunix_path_BB18_38
	cmpl	$46, %ecx
	jne	Lunix_path_BB18_41
	cmpb	$47, -1(%r14,%rax)
	jne	Lunix_path_BB18_41
Lunix_path_BB18_38:
	movq	%rbp, %rcx
	subq	%rax, %rcx
	cmpq	$8, %rcx
	jne	Lunix_path_BB18_40
	movq	%r14, %rdi
	movq	%rax, %rsi
	callq	_unix_path.filler.trimmed_blocks_len
	jmp	Lunix_path_BB18_40
Lunix_path_BB18_22:
	xorl	%r15d, %r15d
	movl	$0, %r13d
	movl	$0, %ecx
	testq	%rax, %rax
	je	Lunix_path_BB18_42
Lunix_path_BB18_15:
	decq	%rax
	je	Lunix_path_BB18_16
	movzbl	(%r14,%rax), %ecx
	cmpl	$47, %ecx
	je	Lunix_path_BB18_20
	cmpl	$46, %ecx
	jne	Lunix_path_BB18_16
	cmpb	$47, -1(%r14,%rax)
	jne	Lunix_path_BB18_16
Lunix_path_BB18_20:
	movq	%r12, %rcx
	subq	%rax, %rcx
	cmpq	$8, %rcx
	jne	Lunix_path_BB18_22
	movq	%r14, %rdi
	movq	%rax, %rsi
	callq	_unix_path.filler.trimmed_blocks_len
	jmp	Lunix_path_BB18_22
Lunix_path_BB18_28:
	movl	$1, %r13d
	movq	%r14, %r15
Lunix_path_BB18_41:
	movq	%r12, %rcx
Lunix_path_BB18_42:
	movq	%r13, (%rbx)
	movq	%r15, 8(%rbx)
	movq	%rcx, 16(%rbx)
Lunix_path_BB18_43:
	addq	$8, %rsp
	popq	%rbx
	popq	%r12
	popq	%r13
	popq	%r14
	popq	%r15
	popq	%rbp
	retq
Lunix_path_BB18_16:
	xorl	%r15d, %r15d
	xorl	%r13d, %r13d
	xorl	%ecx, %ecx
	jmp	Lunix_path_BB18_42
	.section	__TEXT,__literal16,16byte_literals
	.p2align	4, 0x0
Lunix_path_CPI19_0:
	.space	16,47
	.section	__TEXT,__text,regular,pure_instructions
	.p2align	4
## unix_path::suffixes::ends_with_parts
_unix_path.suffixes.ends_with_parts:
	pushq	%rbp
	pushq	%r15
	pushq	%r14
	pushq	%r13
	pushq	%r12
	pushq	%rbx
	subq	$40, %rsp
	movq	%rcx, %r15
	movq	%rdx, %rbx
	movq	%rdi, %r14
	testq	%rsi, %rsi
	je	Lunix_path_BB19_10
	movq	%rsi, %r12
	movq	%rsi, %rbp
	movq	%r12, %rax
	jmp	Lunix_path_BB19_2
	.p2align	4
Lunix_path_BB19_9:
	movq	%rax, %rbp
	testq	%rax, %rax
	je	Lunix_path_BB19_10
Lunix_path_BB19_2:
	decq	%rax
	je	Lunix_path_BB19_3
	movzbl	(%r14,%rax), %ecx
	cmpl	$47, %ecx
	je	Lunix_path_BB19_7
	cmpl	$46, %ecx
	jne	Lunix_path_BB19_11
	cmpb	$47, -1(%r14,%rax)
	jne	Lunix_path_BB19_11
Lunix_path_BB19_7:
	movq	%r12, %rcx
	subq	%rax, %rcx
	cmpq	$8, %rcx
	jne	Lunix_path_BB19_9
	movq	%r14, %rdi
	movq	%rax, %rsi
	callq	_unix_path.filler.trimmed_blocks_len
	jmp	Lunix_path_BB19_9
Lunix_path_BB19_10:
	xorl	%ebp, %ebp
Lunix_path_BB19_11:
	testq	%r15, %r15
	je	Lunix_path_BB19_21
Lunix_path_BB19_12:
	movq	%r15, %r13
	movq	%r15, %rax
	jmp	Lunix_path_BB19_13
	.p2align	4
Lunix_path_BB19_20:
	movq	%rax, %r13
	testq	%rax, %rax
	je	Lunix_path_BB19_21
Lunix_path_BB19_13:
	decq	%rax
	je	Lunix_path_BB19_14
	movzbl	(%rbx,%rax), %ecx
	cmpl	$47, %ecx
	je	Lunix_path_BB19_18
	cmpl	$46, %ecx
	jne	Lunix_path_BB19_22
	cmpb	$47, -1(%rbx,%rax)
	jne	Lunix_path_BB19_22
Lunix_path_BB19_18:
	movq	%r15, %rcx
	subq	%rax, %rcx
	cmpq	$8, %rcx
	jne	Lunix_path_BB19_20
	movq	%rbx, %rdi
	movq	%rax, %rsi
	callq	_unix_path.filler.trimmed_blocks_len
	jmp	Lunix_path_BB19_20
Lunix_path_BB19_3:
	movl	$1, %ebp
	testq	%r15, %r15
	jne	Lunix_path_BB19_12
Lunix_path_BB19_21:
	xorl	%r13d, %r13d
	jmp	Lunix_path_BB19_22
Lunix_path_BB19_14:
	movl	$1, %r13d
	.p2align	4
Lunix_path_BB19_22:
	cmpq	$1, %r13
	je	Lunix_path_BB19_25
	testq	%r13, %r13
	je	Lunix_path_BB19_24
	cmpb	$46, -1(%rbx,%r13)
	jne	Lunix_path_BB19_32
	cmpb	$46, -2(%rbx,%r13)
	jne	Lunix_path_BB19_32
	movb	$2, %r15b
	xorl	%r12d, %r12d
	cmpq	$2, %r13
	je	Lunix_path_BB19_30
	cmpb	$47, -3(%rbx,%r13)
	jne	Lunix_path_BB19_32
	addq	$-2, %r13
	movq	%r13, %rcx
	movq	%r13, %rax
	jmp	Lunix_path_BB19_37
	.p2align	4
Lunix_path_BB19_25:
	cmpb	$46, (%rbx)
	jne	Lunix_path_BB19_32
	movb	$1, %r15b
	xorl	%r12d, %r12d
Lunix_path_BB19_30:
	movq	$0, 8(%rsp)
	xorl	%ecx, %ecx
	jmp	Lunix_path_BB19_64
	.p2align	4
Lunix_path_BB19_32:
	leaq	1(%r13), %rax
	movq	%r13, %r12
	.p2align	4
Lunix_path_BB19_33:
	cmpq	$15, %r12
	jbe	Lunix_path_BB19_46
	movdqu	-16(%rbx,%r12), %xmm0
	pcmpeqb	Lunix_path_CPI19_0(%rip), %xmm0
	addq	$-16, %r12
	pmovmskb	%xmm0, %ecx
	addq	$-16, %rax
	testl	%ecx, %ecx
	je	Lunix_path_BB19_33
	movzwl	%cx, %eax
	bsrq	%rax, %rax
	xorq	$63, %rax
	subq	%rax, %r12
	addq	$64, %r12
	jmp	Lunix_path_BB19_48
	.p2align	4
Lunix_path_BB19_46:
	cmpq	$1, %rax
	je	Lunix_path_BB19_50
	leaq	-1(%rax), %r12
	cmpb	$47, -2(%rbx,%rax)
	movq	%r12, %rax
	jne	Lunix_path_BB19_46
Lunix_path_BB19_48:
	subq	%r12, %r13
	je	Lunix_path_BB19_49
	leaq	(%rbx,%r12), %rax
	movq	%rax, 16(%rsp)
	movq	%r12, %rcx
	movq	%r12, %rax
	jmp	Lunix_path_BB19_53
	.p2align	4
Lunix_path_BB19_61:
	movq	%rax, %rcx
	testq	%rax, %rax
	je	Lunix_path_BB19_62
Lunix_path_BB19_53:
	movb	$3, %r15b
	decq	%rax
	je	Lunix_path_BB19_54
	movzbl	(%rbx,%rax), %edx
	cmpl	$47, %edx
	je	Lunix_path_BB19_59
	cmpl	$46, %edx
	jne	Lunix_path_BB19_57
	cmpb	$47, -1(%rbx,%rax)
	jne	Lunix_path_BB19_57
Lunix_path_BB19_59:
	movq	%r12, %rcx
	subq	%rax, %rcx
	cmpq	$8, %rcx
	jne	Lunix_path_BB19_61
	movq	%rbx, %rdi
	movq	%rax, %rsi
	callq	_unix_path.filler.trimmed_blocks_len
	jmp	Lunix_path_BB19_61
	.p2align	4
Lunix_path_BB19_45:
	xorl	%r12d, %r12d
	movq	%rax, %rcx
	testq	%rax, %rax
	je	Lunix_path_BB19_30
Lunix_path_BB19_37:
	decq	%rax
	je	Lunix_path_BB19_38
	movzbl	(%rbx,%rax), %edx
	cmpl	$47, %edx
	je	Lunix_path_BB19_43
	cmpl	$46, %edx
	jne	Lunix_path_BB19_41
	cmpb	$47, -1(%rbx,%rax)
	jne	Lunix_path_BB19_41
Lunix_path_BB19_43:
	movq	%r13, %rcx
	subq	%rax, %rcx
	cmpq	$8, %rcx
	jne	Lunix_path_BB19_45
	movq	%rbx, %rdi
	movq	%rax, %rsi
	callq	_unix_path.filler.trimmed_blocks_len
	jmp	Lunix_path_BB19_45
Lunix_path_BB19_50:
	testq	%r13, %r13
	jne	Lunix_path_BB19_51
Lunix_path_BB19_49:
	xorl	%r12d, %r12d
	movq	$0, 8(%rsp)
	xorl	%ecx, %ecx
	xorl	%r15d, %r15d
	jmp	Lunix_path_BB19_64
Lunix_path_BB19_54:
	movq	%r13, 8(%rsp)
	movl	$1, %ecx
	jmp	Lunix_path_BB19_63
Lunix_path_BB19_57:
	movq	%r13, 8(%rsp)
	jmp	Lunix_path_BB19_63
Lunix_path_BB19_62:
	movq	%r13, 8(%rsp)
	xorl	%ecx, %ecx
Lunix_path_BB19_63:
	movq	16(%rsp), %r12
Lunix_path_BB19_64:
	cmpq	$1, %rbp
	movq	%rcx, 32(%rsp)
	je	Lunix_path_BB19_74
	testq	%rbp, %rbp
	je	Lunix_path_BB19_121
	cmpb	$46, -1(%r14,%rbp)
	jne	Lunix_path_BB19_70
	cmpb	$46, -2(%r14,%rbp)
	jne	Lunix_path_BB19_70
	movb	$2, %r13b
	cmpq	$2, %rbp
	je	Lunix_path_BB19_76
	cmpb	$47, -3(%r14,%rbp)
	jne	Lunix_path_BB19_70
	addq	$-2, %rbp
	movq	%rbp, %rcx
	movq	%rbp, %rax
	jmp	Lunix_path_BB19_78
	.p2align	4
Lunix_path_BB19_74:
	cmpb	$46, (%r14)
	jne	Lunix_path_BB19_70
	movb	$1, %r13b
Lunix_path_BB19_76:
	movq	$0, (%rsp)
	xorl	%eax, %eax
	xorl	%ecx, %ecx
	xorl	%ebp, %ebp
	cmpb	%r15b, %r13b
	je	Lunix_path_BB19_108
	jmp	Lunix_path_BB19_121
	.p2align	4
Lunix_path_BB19_70:
	movq	%r12, 16(%rsp)
	leaq	1(%rbp), %rax
	movq	%rbp, %r12
	.p2align	4
Lunix_path_BB19_71:
	cmpq	$15, %r12
	jbe	Lunix_path_BB19_88
	movdqu	-16(%r14,%r12), %xmm0
	pcmpeqb	Lunix_path_CPI19_0(%rip), %xmm0
	addq	$-16, %r12
	pmovmskb	%xmm0, %ecx
	addq	$-16, %rax
	testl	%ecx, %ecx
	je	Lunix_path_BB19_71
	movzwl	%cx, %eax
	bsrq	%rax, %rax
	xorq	$63, %rax
	subq	%rax, %r12
	addq	$64, %r12
	jmp	Lunix_path_BB19_90
	.p2align	4
Lunix_path_BB19_88:
	cmpq	$1, %rax
	je	Lunix_path_BB19_92
	leaq	-1(%rax), %r12
	cmpb	$47, -2(%r14,%rax)
	movq	%r12, %rax
	jne	Lunix_path_BB19_88
Lunix_path_BB19_90:
	subq	%r12, %rbp
	je	Lunix_path_BB19_91
	movq	%rbp, 24(%rsp)
	leaq	(%r14,%r12), %rax
	movq	%rax, (%rsp)
	movq	%r12, %rcx
	movq	%r12, %rax
	jmp	Lunix_path_BB19_95
	.p2align	4
Lunix_path_BB19_103:
	movq	%rax, %rcx
	testq	%rax, %rax
	je	Lunix_path_BB19_104
Lunix_path_BB19_95:
	movb	$3, %r13b
	movb	$1, %bpl
	decq	%rax
	je	Lunix_path_BB19_96
	movzbl	(%r14,%rax), %edx
	cmpl	$47, %edx
	je	Lunix_path_BB19_101
	cmpl	$46, %edx
	jne	Lunix_path_BB19_99
	cmpb	$47, -1(%r14,%rax)
	jne	Lunix_path_BB19_99
Lunix_path_BB19_101:
	movq	%r12, %rcx
	subq	%rax, %rcx
	cmpq	$8, %rcx
	jne	Lunix_path_BB19_103
	movq	%r14, %rdi
	movq	%rax, %rsi
	callq	_unix_path.filler.trimmed_blocks_len
	jmp	Lunix_path_BB19_103
	.p2align	4
Lunix_path_BB19_87:
	movq	%rax, %rcx
	testq	%rax, %rax
	je	Lunix_path_BB19_76
Lunix_path_BB19_78:
	decq	%rax
	je	Lunix_path_BB19_79
	movzbl	(%r14,%rax), %edx
	cmpl	$47, %edx
	je	Lunix_path_BB19_85
	cmpl	$46, %edx
	jne	Lunix_path_BB19_82
	cmpb	$47, -1(%r14,%rax)
	jne	Lunix_path_BB19_82
Lunix_path_BB19_85:
	movq	%rbp, %rcx
	subq	%rax, %rcx
	cmpq	$8, %rcx
	jne	Lunix_path_BB19_87
	movq	%r14, %rdi
	movq	%rax, %rsi
	callq	_unix_path.filler.trimmed_blocks_len
	jmp	Lunix_path_BB19_87
Lunix_path_BB19_92:
	testq	%rbp, %rbp
	jne	Lunix_path_BB19_93
Lunix_path_BB19_91:
	movq	$0, (%rsp)
	xorl	%eax, %eax
	xorl	%ecx, %ecx
	xorl	%ebp, %ebp
	xorl	%r13d, %r13d
	movq	16(%rsp), %r12
	cmpb	%r15b, %r13b
	je	Lunix_path_BB19_108
	jmp	Lunix_path_BB19_121
Lunix_path_BB19_96:
	movq	24(%rsp), %rax
	movl	$1, %ecx
	movq	16(%rsp), %r12
	cmpb	%r15b, %r13b
	je	Lunix_path_BB19_108
	jmp	Lunix_path_BB19_121
Lunix_path_BB19_99:
	movq	24(%rsp), %rax
	movq	16(%rsp), %r12
	cmpb	%r15b, %r13b
	je	Lunix_path_BB19_108
	jmp	Lunix_path_BB19_121
Lunix_path_BB19_104:
	movq	24(%rsp), %rax
	jmp	Lunix_path_BB19_105
Lunix_path_BB19_51:
	movb	$3, %r15b
	movq	%rbx, %r12
	movq	%r13, 8(%rsp)
	xorl	%ecx, %ecx
	jmp	Lunix_path_BB19_64
Lunix_path_BB19_93:
	movb	$3, %r13b
	movq	%rbp, %rax
	movb	$1, %bpl
	movq	%r14, (%rsp)
Lunix_path_BB19_105:
	xorl	%ecx, %ecx
	movq	16(%rsp), %r12
	cmpb	%r15b, %r13b
	jne	Lunix_path_BB19_121
	.p2align	4
Lunix_path_BB19_108:
	testb	%bpl, %bpl
	movq	%rcx, %rbp
	movq	32(%rsp), %r13
	movq	8(%rsp), %rsi
	je	Lunix_path_BB19_22
	cmpq	%rsi, %rax
	jne	Lunix_path_BB19_121
	cmpq	$4, %rsi
	jae	Lunix_path_BB19_111
	testq	%rsi, %rsi
	je	Lunix_path_BB19_22
	movq	(%rsp), %rax
	movzbl	(%rax), %eax
	cmpb	(%r12), %al
	jne	Lunix_path_BB19_115
	cmpq	$1, %rsi
	je	Lunix_path_BB19_22
	movq	(%rsp), %rax
	movzbl	1(%rax), %ecx
	movl	$1, %eax
	cmpb	1(%r12), %cl
	jne	Lunix_path_BB19_120
	cmpq	$2, %rsi
	je	Lunix_path_BB19_22
	movq	(%rsp), %rax
	movzbl	2(%rax), %ecx
	movl	$2, %eax
	cmpb	2(%r12), %cl
	je	Lunix_path_BB19_22
Lunix_path_BB19_120:
	cmpq	%rsi, %rax
	jae	Lunix_path_BB19_22
	jmp	Lunix_path_BB19_121
	.p2align	4
Lunix_path_BB19_111:
	movq	(%rsp), %rdi
	movl	(%rdi), %eax
	cmpl	(%r12), %eax
	jne	Lunix_path_BB19_121
	movq	%r12, %rdx
	callq	_core.cmp.slices.groups_equal.i8.31.core.cmp.numbers.U8PartialEq.
	testb	%al, %al
	jne	Lunix_path_BB19_22
	jmp	Lunix_path_BB19_121
Lunix_path_BB19_115:
	xorl	%eax, %eax
	cmpq	%rsi, %rax
	jae	Lunix_path_BB19_22
	jmp	Lunix_path_BB19_121
Lunix_path_BB19_38:
	xorl	%r12d, %r12d
	movl	$1, %ecx
	movq	$0, 8(%rsp)
	jmp	Lunix_path_BB19_64
Lunix_path_BB19_79:
	movq	$0, (%rsp)
	movl	$1, %ecx
	jmp	Lunix_path_BB19_83
Lunix_path_BB19_41:
	xorl	%r12d, %r12d
	movq	$0, 8(%rsp)
	jmp	Lunix_path_BB19_64
Lunix_path_BB19_82:
	movq	$0, (%rsp)
Lunix_path_BB19_83:
	xorl	%eax, %eax
	xorl	%ebp, %ebp
	cmpb	%r15b, %r13b
	je	Lunix_path_BB19_108
Lunix_path_BB19_121:
	xorl	%eax, %eax
Lunix_path_BB19_122:
	addq	$40, %rsp
	popq	%rbx
	popq	%r12
	popq	%r13
	popq	%r14
	popq	%r15
	popq	%rbp
	retq
Lunix_path_BB19_24:
	movb	$1, %al
	jmp	Lunix_path_BB19_122
	.section	__TEXT,__literal16,16byte_literals
	.p2align	4, 0x0
Lunix_path_CPI20_0:
	.space	16,208
Lunix_path_CPI20_1:
	.space	16,47
Lunix_path_CPI20_2:
	.byte	47
	.byte	47
	.byte	47
	.byte	47
	.byte	47
	.byte	47
	.byte	47
	.byte	47
	.space	1
	.space	1
	.space	1
	.space	1
	.space	1
	.space	1
	.space	1
	.space	1
	.section	__TEXT,__text,regular,pure_instructions
	.p2align	4
## path_keys::decode::path_len
_path_keys.decode.path_len:
	cmpq	$2, %rsi
	jae	Lunix_path_BB20_2
	xorl	%ecx, %ecx
	jmp	Lunix_path_BB20_9
Lunix_path_BB20_2:
	cmpb	$0, (%rdi)
	je	Lunix_path_BB20_4
	xorl	%ecx, %ecx
	jmp	Lunix_path_BB20_9
Lunix_path_BB20_4:
	movzbl	1(%rdi), %eax
	cmpl	$2, %eax
	je	Lunix_path_BB20_8
	cmpl	$1, %eax
	jne	Lunix_path_BB20_6
	addq	$2, %rdi
	addq	$-2, %rsi
	movl	$1, %ecx
	jmp	Lunix_path_BB20_9
Lunix_path_BB20_8:
	addq	$2, %rdi
	addq	$-2, %rsi
	movl	$2, %ecx
	jmp	Lunix_path_BB20_9
Lunix_path_BB20_6:
	xorl	%ecx, %ecx
	jmp	Lunix_path_BB20_9
	.p2align	4
Lunix_path_BB20_13:
	movl	$2, %eax
	movl	$3, %edx
Lunix_path_BB20_48:
	addq	%rdx, %rcx
	addq	%rax, %rdi
	subq	%rax, %rsi
Lunix_path_BB20_9:
	cmpq	$1, %rsi
	je	Lunix_path_BB20_14
	testq	%rsi, %rsi
	je	Lunix_path_BB20_54
	movzbl	(%rdi), %eax
	testb	%al, %al
	jne	Lunix_path_BB20_15
	cmpb	$3, 1(%rdi)
	je	Lunix_path_BB20_13
	.p2align	4
Lunix_path_BB20_15:
	cmpb	$47, %al
	je	Lunix_path_BB20_17
Lunix_path_BB20_16:
	movzbl	%al, %edx
	testl	%edx, %edx
	jne	Lunix_path_BB20_24
	jmp	Lunix_path_BB20_55
	.p2align	4
Lunix_path_BB20_14:
	movzbl	(%rdi), %eax
	cmpb	$47, %al
	jne	Lunix_path_BB20_16
Lunix_path_BB20_17:
	cmpq	$1, %rsi
	je	Lunix_path_BB20_18
	movzbl	1(%rdi), %edx
	cmpl	$47, %edx
	je	Lunix_path_BB20_22
	testl	%edx, %edx
	jne	Lunix_path_BB20_24
	jmp	Lunix_path_BB20_21
Lunix_path_BB20_22:
	cmpq	$3, %rsi
	jb	Lunix_path_BB20_18
	cmpb	$0, 2(%rdi)
	je	Lunix_path_BB20_18
Lunix_path_BB20_24:
	cmpq	$18, %rsi
	ja	Lunix_path_BB20_29
	cmpq	$9, %rsi
	jae	Lunix_path_BB20_27
	xorl	%eax, %eax
	cmpq	%rsi, %rax
	jb	Lunix_path_BB20_42
	jmp	Lunix_path_BB20_41
	.p2align	4
Lunix_path_BB20_29:
	movq	%rsi, %rdx
	xorl	%eax, %eax
	addq	$-19, %rdx
	jne	Lunix_path_BB20_30
Lunix_path_BB20_36:
	leaq	-17(%rsi), %r8
	cmpq	%rax, %r8
	cmovbq	%r8, %rax
	movdqu	(%rdi,%rax), %xmm0
	movdqu	1(%rdi,%rax), %xmm1
	pand	Lunix_path_CPI20_0(%rip), %xmm1
	por	%xmm0, %xmm1
	pxor	%xmm0, %xmm0
	pcmpeqb	%xmm0, %xmm1
	pmovmskb	%xmm1, %r8d
	testl	%r8d, %r8d
	je	Lunix_path_BB20_37
	movdqu	(%rdi,%rdx), %xmm1
	movdqu	1(%rdi,%rdx), %xmm2
	movdqu	2(%rdi,%rdx), %xmm3
	movdqu	3(%rdi,%rdx), %xmm4
	movdqa	Lunix_path_CPI20_1(%rip), %xmm5
	movdqa	%xmm3, %xmm6
	pcmpeqb	%xmm5, %xmm6
	pcmpeqb	%xmm0, %xmm4
	pand	%xmm6, %xmm4
	pcmpeqb	%xmm2, %xmm5
	pcmpeqb	%xmm0, %xmm3
	por	%xmm4, %xmm3
	pand	%xmm5, %xmm3
	pcmpeqb	%xmm0, %xmm1
	pcmpeqb	%xmm0, %xmm2
	por	%xmm3, %xmm2
	pand	%xmm1, %xmm2
	pmovmskb	%xmm2, %eax
	orl	$65536, %eax
	rep		bsfl	%eax, %eax
	jmp	Lunix_path_BB20_39
	.p2align	4
Lunix_path_BB20_35:
	cmpq	%rdx, %rax
	jae	Lunix_path_BB20_36
Lunix_path_BB20_30:
	movdqu	(%rdi,%rax), %xmm0
	movdqu	1(%rdi,%rax), %xmm1
	movdqa	Lunix_path_CPI20_0(%rip), %xmm3
	pand	%xmm1, %xmm3
	por	%xmm0, %xmm3
	pxor	%xmm2, %xmm2
	pcmpeqb	%xmm2, %xmm3
	pmovmskb	%xmm3, %r8d
	testl	%r8d, %r8d
	je	Lunix_path_BB20_31
	movdqu	2(%rdi,%rax), %xmm3
	movdqu	3(%rdi,%rax), %xmm4
	movdqa	Lunix_path_CPI20_1(%rip), %xmm5
	movdqa	%xmm3, %xmm6
	pcmpeqb	%xmm5, %xmm6
	pcmpeqb	%xmm2, %xmm4
	pand	%xmm6, %xmm4
	pcmpeqb	%xmm1, %xmm5
	pcmpeqb	%xmm2, %xmm3
	por	%xmm4, %xmm3
	pand	%xmm5, %xmm3
	pcmpeqb	%xmm2, %xmm0
	pcmpeqb	%xmm2, %xmm1
	por	%xmm3, %xmm1
	pand	%xmm0, %xmm1
	pmovmskb	%xmm1, %r8d
	orl	$65536, %r8d
	rep		bsfl	%r8d, %r8d
	cmpw	$15, %r8w
	jbe	Lunix_path_BB20_33
	addq	$16, %rax
	jmp	Lunix_path_BB20_35
	.p2align	4
Lunix_path_BB20_31:
	addq	$16, %rax
	cmpq	%rdx, %rax
	jb	Lunix_path_BB20_30
	jmp	Lunix_path_BB20_35
Lunix_path_BB20_27:
	movq	(%rdi), %xmm1
	movq	1(%rdi), %xmm2
	pxor	%xmm0, %xmm0
	movdqa	%xmm2, %xmm3
	pcmpeqb	Lunix_path_CPI20_2(%rip), %xmm2
	pcmpeqb	%xmm0, %xmm3
	por	%xmm3, %xmm2
	pcmpeqb	%xmm0, %xmm1
	pand	%xmm2, %xmm1
	pmovmskb	%xmm1, %eax
	orl	$256, %eax
	rep		bsfl	%eax, %eax
	cmpb	$8, %al
	jb	Lunix_path_BB20_40
	cmpq	$17, %rsi
	movl	$17, %eax
	cmovbq	%rsi, %rax
	movq	-9(%rdi,%rax), %xmm1
	movq	-8(%rdi,%rax), %xmm2
	movdqa	%xmm2, %xmm3
	pcmpeqb	Lunix_path_CPI20_2(%rip), %xmm2
	pcmpeqb	%xmm0, %xmm3
	por	%xmm3, %xmm2
	pcmpeqb	%xmm0, %xmm1
	pand	%xmm2, %xmm1
	pmovmskb	%xmm1, %edx
	orl	$256, %edx
	rep		bsfl	%edx, %edx
	addq	%rdx, %rax
	addq	$-9, %rax
	cmpq	%rsi, %rax
	jb	Lunix_path_BB20_42
	jmp	Lunix_path_BB20_41
Lunix_path_BB20_33:
	movzwl	%r8w, %edx
Lunix_path_BB20_39:
	addq	%rdx, %rax
Lunix_path_BB20_40:
	cmpq	%rsi, %rax
	jb	Lunix_path_BB20_42
Lunix_path_BB20_41:
	movq	%rax, %rdx
Lunix_path_BB20_46:
	cmpq	%rsi, %rdx
	je	Lunix_path_BB20_18
	incq	%rdx
	movq	%rdx, %rax
	jmp	Lunix_path_BB20_48
Lunix_path_BB20_37:
	addq	$16, %rax
	cmpq	%rsi, %rax
	jb	Lunix_path_BB20_42
	jmp	Lunix_path_BB20_41
	.p2align	4
Lunix_path_BB20_45:
	testl	%r8d, %r8d
	je	Lunix_path_BB20_46
Lunix_path_BB20_53:
	cmpq	%rax, %rsi
	je	Lunix_path_BB20_18
Lunix_path_BB20_42:
	movq	%rax, %rdx
	incq	%rax
	cmpb	$0, (%rdi,%rdx)
	jne	Lunix_path_BB20_53
	cmpq	%rax, %rsi
	jbe	Lunix_path_BB20_46
	movzbl	1(%rdi,%rdx), %r8d
	cmpl	$47, %r8d
	jne	Lunix_path_BB20_45
	leaq	2(%rdx), %r8
	cmpq	%r8, %rsi
	jbe	Lunix_path_BB20_46
	movzbl	2(%rdi,%rdx), %r8d
	cmpl	$47, %r8d
	jne	Lunix_path_BB20_45
	leaq	3(%rdx), %r8
	cmpq	%r8, %rsi
	jbe	Lunix_path_BB20_46
	cmpb	$0, 3(%rdi,%rdx)
	jne	Lunix_path_BB20_53
	jmp	Lunix_path_BB20_46
Lunix_path_BB20_18:
	xorl	%edx, %edx
	xorl	%eax, %eax
	retq
Lunix_path_BB20_54:
	cmpq	$2, %rcx
	adcq	$-1, %rcx
	movb	$1, %al
	movq	%rcx, %rdx
Lunix_path_BB20_55:
	retq
Lunix_path_BB20_21:
	movl	%edx, %eax
	retq
	.p2align	4
## core::hash::sip::DefaultHasherHasher::write
_core.hash.sip.DefaultHasherHasher.write:
	pushq	%rbx
	movq	40(%rdi), %rax
	movl	%eax, %edx
	negl	%edx
	andl	$7, %edx
	je	Lunix_path_BB21_4
	movzbl	(%rsi), %r9d
	leal	(,%rax,8), %ecx
	shlq	%cl, %r9
	orq	32(%rdi), %r9
	movq	%r9, 32(%rdi)
	leaq	1(%rax), %rcx
	movq	%rcx, 40(%rdi)
	testb	$7, %cl
	je	Lunix_path_BB21_5
	movl	$1, %r8d
	cmpl	$1, %edx
	jne	Lunix_path_BB21_6
	jmp	Lunix_path_BB21_3
Lunix_path_BB21_4:
	xorl	%r8d, %r8d
	jmp	Lunix_path_BB21_28
Lunix_path_BB21_5:
	movq	24(%rdi), %r10
	xorq	%r9, %r10
	movq	8(%rdi), %r11
	movq	(%rdi), %r8
	addq	%r11, %r8
	movq	16(%rdi), %rbx
	rolq	$13, %r11
	addq	%r10, %rbx
	xorq	%r8, %r11
	rolq	$16, %r10
	xorq	%rbx, %r10
	rolq	$32, %r8
	addq	%r11, %rbx
	addq	%r10, %r8
	rolq	$17, %r11
	xorq	%rbx, %r11
	movq	%r11, 8(%rdi)
	rolq	$21, %r10
	xorq	%r8, %r10
	movq	%r10, 24(%rdi)
	rolq	$32, %rbx
	movq	%rbx, 16(%rdi)
	xorq	%r9, %r8
	movq	%r8, (%rdi)
	movq	$0, 32(%rdi)
	xorl	%r9d, %r9d
	movl	$1, %r8d
	cmpl	$1, %edx
	je	Lunix_path_BB21_3
Lunix_path_BB21_6:
	movzbl	1(%rsi), %r10d
	shll	$3, %ecx
	shlq	%cl, %r10
	orq	%r9, %r10
	movq	%r10, 32(%rdi)
	leaq	2(%rax), %rcx
	movq	%rcx, 40(%rdi)
	testb	$7, %cl
	je	Lunix_path_BB21_9
	movl	$2, %r8d
	cmpl	$2, %edx
	je	Lunix_path_BB21_3
	jmp	Lunix_path_BB21_10
Lunix_path_BB21_9:
	movq	24(%rdi), %r9
	xorq	%r10, %r9
	movq	8(%rdi), %r11
	movq	(%rdi), %r8
	addq	%r11, %r8
	movq	16(%rdi), %rbx
	rolq	$13, %r11
	addq	%r9, %rbx
	xorq	%r8, %r11
	rolq	$16, %r9
	xorq	%rbx, %r9
	rolq	$32, %r8
	addq	%r11, %rbx
	addq	%r9, %r8
	rolq	$17, %r11
	xorq	%rbx, %r11
	movq	%r11, 8(%rdi)
	rolq	$21, %r9
	xorq	%r8, %r9
	movq	%r9, 24(%rdi)
	rolq	$32, %rbx
	movq	%rbx, 16(%rdi)
	xorq	%r10, %r8
	movq	%r8, (%rdi)
	movq	$0, 32(%rdi)
	xorl	%r10d, %r10d
	movl	$2, %r8d
	cmpl	$2, %edx
	je	Lunix_path_BB21_3
Lunix_path_BB21_10:
	movzbl	2(%rsi), %r9d
	shll	$3, %ecx
	shlq	%cl, %r9
	orq	%r10, %r9
	movq	%r9, 32(%rdi)
	leaq	3(%rax), %rcx
	movq	%rcx, 40(%rdi)
	testb	$7, %cl
	je	Lunix_path_BB21_13
	movl	$3, %r8d
	cmpl	$3, %edx
	je	Lunix_path_BB21_3
	jmp	Lunix_path_BB21_14
Lunix_path_BB21_13:
	movq	24(%rdi), %r10
	xorq	%r9, %r10
	movq	8(%rdi), %r11
	movq	(%rdi), %r8
	addq	%r11, %r8
	movq	16(%rdi), %rbx
	rolq	$13, %r11
	addq	%r10, %rbx
	xorq	%r8, %r11
	rolq	$16, %r10
	xorq	%rbx, %r10
	rolq	$32, %r8
	addq	%r11, %rbx
	addq	%r10, %r8
	rolq	$17, %r11
	xorq	%rbx, %r11
	movq	%r11, 8(%rdi)
	rolq	$21, %r10
	xorq	%r8, %r10
	movq	%r10, 24(%rdi)
	rolq	$32, %rbx
	movq	%rbx, 16(%rdi)
	xorq	%r9, %r8
	movq	%r8, (%rdi)
	movq	$0, 32(%rdi)
	xorl	%r9d, %r9d
	movl	$3, %r8d
	cmpl	$3, %edx
	je	Lunix_path_BB21_3
Lunix_path_BB21_14:
	movzbl	3(%rsi), %r10d
	shll	$3, %ecx
	shlq	%cl, %r10
	orq	%r9, %r10
	movq	%r10, 32(%rdi)
	leaq	4(%rax), %rcx
	movq	%rcx, 40(%rdi)
	testb	$7, %cl
	jne	Lunix_path_BB21_16
	movq	24(%rdi), %r9
	xorq	%r10, %r9
	movq	8(%rdi), %r11
	movq	(%rdi), %r8
	addq	%r11, %r8
	movq	16(%rdi), %rbx
	rolq	$13, %r11
	addq	%r9, %rbx
	xorq	%r8, %r11
	rolq	$16, %r9
	xorq	%rbx, %r9
	rolq	$32, %r8
	addq	%r11, %rbx
	addq	%r9, %r8
	rolq	$17, %r11
	xorq	%rbx, %r11
	movq	%r11, 8(%rdi)
	rolq	$21, %r9
	xorq	%r8, %r9
	movq	%r9, 24(%rdi)
	rolq	$32, %rbx
	movq	%rbx, 16(%rdi)
	xorq	%r10, %r8
	movq	%r8, (%rdi)
	movq	$0, 32(%rdi)
	xorl	%r10d, %r10d
Lunix_path_BB21_16:
	movl	$4, %r8d
	cmpl	$4, %edx
	je	Lunix_path_BB21_3
	movzbl	4(%rsi), %r9d
	shll	$3, %ecx
	shlq	%cl, %r9
	orq	%r10, %r9
	movq	%r9, 32(%rdi)
	leaq	5(%rax), %rcx
	movq	%rcx, 40(%rdi)
	testb	$7, %cl
	jne	Lunix_path_BB21_20
	movq	24(%rdi), %r10
	xorq	%r9, %r10
	movq	8(%rdi), %r11
	movq	(%rdi), %r8
	addq	%r11, %r8
	movq	16(%rdi), %rbx
	rolq	$13, %r11
	addq	%r10, %rbx
	xorq	%r8, %r11
	rolq	$16, %r10
	xorq	%rbx, %r10
	rolq	$32, %r8
	addq	%r11, %rbx
	addq	%r10, %r8
	rolq	$17, %r11
	xorq	%rbx, %r11
	movq	%r11, 8(%rdi)
	rolq	$21, %r10
	xorq	%r8, %r10
	movq	%r10, 24(%rdi)
	rolq	$32, %rbx
	movq	%rbx, 16(%rdi)
	xorq	%r9, %r8
	movq	%r8, (%rdi)
	movq	$0, 32(%rdi)
	xorl	%r9d, %r9d
Lunix_path_BB21_20:
	movl	$5, %r8d
	cmpl	$5, %edx
	je	Lunix_path_BB21_3
	movzbl	5(%rsi), %r10d
	shll	$3, %ecx
	shlq	%cl, %r10
	orq	%r9, %r10
	movq	%r10, 32(%rdi)
	leaq	6(%rax), %rcx
	movq	%rcx, 40(%rdi)
	testb	$7, %cl
	jne	Lunix_path_BB21_24
	movq	24(%rdi), %r9
	xorq	%r10, %r9
	movq	8(%rdi), %r11
	movq	(%rdi), %r8
	addq	%r11, %r8
	movq	16(%rdi), %rbx
	rolq	$13, %r11
	addq	%r9, %rbx
	xorq	%r8, %r11
	rolq	$16, %r9
	xorq	%rbx, %r9
	rolq	$32, %r8
	addq	%r11, %rbx
	addq	%r9, %r8
	rolq	$17, %r11
	xorq	%rbx, %r11
	movq	%r11, 8(%rdi)
	rolq	$21, %r9
	xorq	%r8, %r9
	movq	%r9, 24(%rdi)
	rolq	$32, %rbx
	movq	%rbx, 16(%rdi)
	xorq	%r10, %r8
	movq	%r8, (%rdi)
	movq	$0, 32(%rdi)
	xorl	%r10d, %r10d
Lunix_path_BB21_24:
	movl	$6, %r8d
	cmpl	$6, %edx
	jne	Lunix_path_BB21_26
Lunix_path_BB21_3:
	movq	%rcx, %rax
Lunix_path_BB21_28:
	testb	$7, %al
	jne	Lunix_path_BB21_33
	orq	32(%rdi), %rdx
	jne	Lunix_path_BB21_33
	movq	24(%rdi), %rcx
	movq	(%rdi), %rdx
	movq	8(%rdi), %r9
	movq	16(%rdi), %r10
	.p2align	4
Lunix_path_BB21_31:
	movq	%r8, %r11
	movq	(%rsi,%r8), %r8
	xorq	%r8, %rcx
	addq	%r9, %rdx
	addq	%rcx, %r10
	rolq	$13, %r9
	rolq	$16, %rcx
	xorq	%rdx, %r9
	xorq	%r10, %rcx
	rolq	$32, %rdx
	addq	%r9, %r10
	addq	%rcx, %rdx
	rolq	$17, %r9
	xorq	%r10, %r9
	movq	%r9, 8(%rdi)
	rolq	$21, %rcx
	xorq	%rdx, %rcx
	movq	%rcx, 24(%rdi)
	rolq	$32, %r10
	movq	%r10, 16(%rdi)
	xorq	%r8, %rdx
	movq	%rdx, (%rdi)
	addq	$8, %rax
	movq	%rax, 40(%rdi)
	leaq	8(%r11), %r8
	decq	%r11
	cmpq	$-8, %r11
	jb	Lunix_path_BB21_31
	leaq	-8(%r8), %rcx
	cmpq	$-8, %rcx
	jb	Lunix_path_BB21_37
Lunix_path_BB21_33:
	movq	32(%rdi), %r10
	leaq	(,%rax,8), %rdx
	incq	%rax
	jmp	Lunix_path_BB21_35
	.p2align	4
Lunix_path_BB21_34:
	incq	%r8
	addq	$8, %rdx
	incq	%rax
	movq	%r9, %r10
	cmpq	$8, %r8
	je	Lunix_path_BB21_37
Lunix_path_BB21_35:
	movzbl	(%rsi,%r8), %r9d
	movl	%edx, %ecx
	andb	$56, %cl
	shlq	%cl, %r9
	orq	%r10, %r9
	movq	%r9, 32(%rdi)
	movq	%rax, 40(%rdi)
	testb	$7, %al
	jne	Lunix_path_BB21_34
	movq	24(%rdi), %r10
	xorq	%r9, %r10
	movq	8(%rdi), %r11
	movq	(%rdi), %rcx
	addq	%r11, %rcx
	movq	16(%rdi), %rbx
	rolq	$13, %r11
	addq	%r10, %rbx
	xorq	%rcx, %r11
	rolq	$16, %r10
	xorq	%rbx, %r10
	rolq	$32, %rcx
	addq	%r11, %rbx
	addq	%r10, %rcx
	rolq	$17, %r11
	xorq	%rbx, %r11
	movq	%r11, 8(%rdi)
	rolq	$21, %r10
	xorq	%rcx, %r10
	movq	%r10, 24(%rdi)
	rolq	$32, %rbx
	movq	%rbx, 16(%rdi)
	xorq	%r9, %rcx
	movq	%rcx, (%rdi)
	movq	$0, 32(%rdi)
	xorl	%r9d, %r9d
	jmp	Lunix_path_BB21_34
Lunix_path_BB21_37:
	popq	%rbx
	retq
Lunix_path_BB21_26:
	movzbl	6(%rsi), %r9d
	shll	$3, %ecx
	shlq	%cl, %r9
	orq	%r10, %r9
	movq	%r9, 32(%rdi)
	addq	$7, %rax
	movq	%rax, 40(%rdi)
	movl	$7, %r8d
	testb	$7, %al
	jne	Lunix_path_BB21_28
	movq	24(%rdi), %r10
	xorq	%r9, %r10
	movq	8(%rdi), %r11
	movq	(%rdi), %rcx
	addq	%r11, %rcx
	movq	16(%rdi), %rbx
	addq	%r10, %rbx
	rolq	$13, %r11
	rolq	$16, %r10
	xorq	%rcx, %r11
	xorq	%rbx, %r10
	rolq	$32, %rcx
	addq	%r11, %rbx
	addq	%r10, %rcx
	rolq	$17, %r11
	xorq	%rbx, %r11
	movq	%r11, 8(%rdi)
	rolq	$21, %r10
	xorq	%rcx, %r10
	movq	%r10, 24(%rdi)
	rolq	$32, %rbx
	movq	%rbx, 16(%rdi)
	xorq	%r9, %rcx
	movq	%rcx, (%rdi)
	movq	$0, 32(%rdi)
	jmp	Lunix_path_BB21_28
	.p2align	4
## unix_bytes::utf8::scans::scan_by_sequence
_unix_bytes.utf8.scans.scan_by_sequence:
	movq	%rsi, %rax
	movq	%rsi, %rcx
	subq	%rdx, %rcx
	je	Lunix_path_BB22_71
	addq	%rdx, %rdi
	jmp	Lunix_path_BB22_5
Lunix_path_BB22_67:
	rep		bsfl	%esi, %esi
	addq	%rdx, %rsi
	.p2align	4
Lunix_path_BB22_68:
	addq	%rsi, %rdi
	subq	%rsi, %rcx
Lunix_path_BB22_69:
	movq	%rcx, %rdx
Lunix_path_BB22_4:
	movq	%rdx, %rcx
	testq	%rdx, %rdx
	je	Lunix_path_BB22_71
Lunix_path_BB22_5:
	movzbl	(%rdi), %esi
	testb	%sil, %sil
	js	Lunix_path_BB22_18
	movl	$1, %esi
	cmpq	$8, %rcx
	jb	Lunix_path_BB22_68
	cmpb	$0, 1(%rdi)
	js	Lunix_path_BB22_68
	cmpq	$16, %rcx
	jb	Lunix_path_BB22_33
	xorl	%edx, %edx
	cmpq	$64, %rcx
	jb	Lunix_path_BB22_13
	movq	%rcx, %rsi
	.p2align	4
Lunix_path_BB22_11:
	movdqu	(%rdi,%rdx), %xmm0
	movdqu	16(%rdi,%rdx), %xmm1
	por	%xmm0, %xmm1
	movdqu	32(%rdi,%rdx), %xmm0
	movdqu	48(%rdi,%rdx), %xmm2
	por	%xmm0, %xmm2
	por	%xmm1, %xmm2
	pmovmskb	%xmm2, %r8d
	testl	%r8d, %r8d
	jne	Lunix_path_BB22_13
	addq	$64, %rdx
	addq	$-64, %rsi
	cmpq	$63, %rsi
	ja	Lunix_path_BB22_11
Lunix_path_BB22_13:
	leaq	-16(%rcx), %r8
	cmpq	%r8, %rdx
	jae	Lunix_path_BB22_16
	.p2align	4
Lunix_path_BB22_14:
	movdqu	(%rdi,%rdx), %xmm0
	pmovmskb	%xmm0, %esi
	testl	%esi, %esi
	jne	Lunix_path_BB22_67
	addq	$16, %rdx
	cmpq	%r8, %rdx
	jb	Lunix_path_BB22_14
Lunix_path_BB22_16:
	movdqu	(%rdi,%r8), %xmm0
	pmovmskb	%xmm0, %edx
	movq	%rcx, %rsi
	testl	%edx, %edx
	je	Lunix_path_BB22_68
	rep		bsfl	%edx, %edx
	addq	%rdx, %r8
	movq	%r8, %rsi
	jmp	Lunix_path_BB22_68
	.p2align	4
Lunix_path_BB22_18:
	leal	62(%rsi), %edx
	cmpb	$29, %dl
	ja	Lunix_path_BB22_28
	movl	$1, %edx
	cmpq	$1, %rcx
	je	Lunix_path_BB22_72
	cmpb	$-64, 1(%rdi)
	jge	Lunix_path_BB22_105
	leaq	2(%rdi), %rsi
	leaq	-2(%rcx), %rdx
	cmpq	$2, %rdx
	jb	Lunix_path_BB22_2
	movzbl	(%rsi), %r8d
	addb	$62, %r8b
	cmpb	$29, %r8b
	ja	Lunix_path_BB22_2
	addq	$-4, %rcx
	xorl	%r9d, %r9d
	.p2align	4
Lunix_path_BB22_24:
	movq	%r9, %r8
	movq	%rcx, %rdx
	cmpb	$-65, 3(%rdi,%r9)
	jg	Lunix_path_BB22_70
	cmpq	$1, %rdx
	jbe	Lunix_path_BB22_27
	movzbl	4(%rdi,%r8), %r10d
	addb	$62, %r10b
	leaq	-2(%rdx), %rcx
	leaq	2(%r8), %r9
	cmpb	$29, %r10b
	jbe	Lunix_path_BB22_24
Lunix_path_BB22_27:
	addq	$2, %r8
	jmp	Lunix_path_BB22_3
Lunix_path_BB22_28:
	movl	%esi, %edx
	andb	$-16, %dl
	cmpb	$-32, %dl
	jne	Lunix_path_BB22_39
	cmpq	$3, %rcx
	jb	Lunix_path_BB22_74
	movzbl	1(%rdi), %edx
	cmpl	$237, %esi
	je	Lunix_path_BB22_45
	cmpl	$224, %esi
	jne	Lunix_path_BB22_46
	movl	%edx, %r8d
	andb	$-32, %r8b
	cmpb	$-96, %r8b
	je	Lunix_path_BB22_47
	jmp	Lunix_path_BB22_78
Lunix_path_BB22_2:
	xorl	%r8d, %r8d
Lunix_path_BB22_3:
	addq	%r8, %rsi
	movq	%rsi, %rdi
	jmp	Lunix_path_BB22_4
Lunix_path_BB22_33:
	movq	(%rdi), %xmm0
	pmovmskb	%xmm0, %edx
	testb	%dl, %dl
	jne	Lunix_path_BB22_35
	movq	-8(%rdi,%rcx), %xmm0
	pmovmskb	%xmm0, %edx
	movq	%rcx, %rsi
	testb	%dl, %dl
	je	Lunix_path_BB22_68
Lunix_path_BB22_35:
	xorl	%esi, %esi
	.p2align	4
Lunix_path_BB22_36:
	cmpb	$0, (%rdi,%rsi)
	js	Lunix_path_BB22_68
	incq	%rsi
	cmpq	%rsi, %rcx
	jne	Lunix_path_BB22_36
	movq	%rcx, %rsi
	jmp	Lunix_path_BB22_68
Lunix_path_BB22_39:
	leal	16(%rsi), %edx
	cmpb	$4, %dl
	ja	Lunix_path_BB22_73
	cmpq	$4, %rcx
	jb	Lunix_path_BB22_79
	movzbl	1(%rdi), %r8d
	cmpl	$240, %esi
	je	Lunix_path_BB22_49
	cmpl	$244, %esi
	jne	Lunix_path_BB22_50
	cmpb	$-112, %r8b
	jl	Lunix_path_BB22_51
	jmp	Lunix_path_BB22_99
Lunix_path_BB22_45:
	cmpb	$-96, %dl
	jl	Lunix_path_BB22_47
	jmp	Lunix_path_BB22_86
Lunix_path_BB22_46:
	cmpb	$-65, %dl
	jg	Lunix_path_BB22_76
Lunix_path_BB22_47:
	cmpb	$-64, 2(%rdi)
	jge	Lunix_path_BB22_76
	addq	$3, %rdi
	addq	$-3, %rcx
	jmp	Lunix_path_BB22_69
Lunix_path_BB22_49:
	leal	112(%r8), %edx
	cmpb	$47, %dl
	jbe	Lunix_path_BB22_51
	jmp	Lunix_path_BB22_85
Lunix_path_BB22_50:
	cmpb	$-64, %r8b
	jge	Lunix_path_BB22_82
Lunix_path_BB22_51:
	cmpb	$-65, 2(%rdi)
	jg	Lunix_path_BB22_82
	cmpb	$-64, 3(%rdi)
	jge	Lunix_path_BB22_82
	addq	$4, %rdi
	addq	$-4, %rcx
	je	Lunix_path_BB22_65
	movq	%rdi, %rsi
	movq	%rcx, %rdx
	.p2align	4
Lunix_path_BB22_55:
	cmpq	$4, %rdx
	jb	Lunix_path_BB22_66
	movzbl	(%rsi), %r8d
	leal	16(%r8), %r9d
	cmpb	$4, %r9b
	ja	Lunix_path_BB22_66
	movzbl	1(%rsi), %r9d
	cmpl	$240, %r8d
	je	Lunix_path_BB22_60
	cmpl	$244, %r8d
	jne	Lunix_path_BB22_61
	cmpb	$-112, %r9b
	jl	Lunix_path_BB22_62
	jmp	Lunix_path_BB22_66
	.p2align	4
Lunix_path_BB22_60:
	addb	$112, %r9b
	cmpb	$47, %r9b
	jbe	Lunix_path_BB22_62
	jmp	Lunix_path_BB22_66
	.p2align	4
Lunix_path_BB22_61:
	cmpb	$-64, %r9b
	jge	Lunix_path_BB22_66
Lunix_path_BB22_62:
	cmpb	$-65, 2(%rsi)
	jg	Lunix_path_BB22_66
	cmpb	$-65, 3(%rsi)
	jg	Lunix_path_BB22_66
	addq	$4, %rsi
	addq	$-4, %rdx
	jne	Lunix_path_BB22_55
Lunix_path_BB22_65:
	xorl	%edx, %edx
Lunix_path_BB22_66:
	subq	%rdx, %rcx
	addq	%rcx, %rdi
	jmp	Lunix_path_BB22_4
Lunix_path_BB22_70:
	addq	$2, %rdx
	jmp	Lunix_path_BB22_3
Lunix_path_BB22_71:
	xorl	%edx, %edx
	retq
Lunix_path_BB22_72:
	movl	$1, %r8d
	subq	%r8, %rax
	retq
Lunix_path_BB22_73:
	movl	$1, %edx
	jmp	Lunix_path_BB22_105
Lunix_path_BB22_74:
	movl	$1, %r8d
	movl	$1, %edx
	cmpq	$1, %rcx
	je	Lunix_path_BB22_106
	movzbl	1(%rdi), %edx
Lunix_path_BB22_76:
	addl	$-224, %esi
	cmpl	$20, %esi
	ja	Lunix_path_BB22_93
	leaq	Lunix_path_JTI22_2(%rip), %rdi
	movslq	(%rdi,%rsi,4), %rsi
	addq	%rdi, %rsi
	jmpq	*%rsi
Lunix_path_BB22_78:
	andb	$-32, %dl
	cmpb	$-96, %dl
	sete	%dl
	jmp	Lunix_path_BB22_104
Lunix_path_BB22_79:
	cmpq	$1, %rcx
	je	Lunix_path_BB22_94
	cmpq	$3, %rcx
	jne	Lunix_path_BB22_95
	movzbl	1(%rdi), %r8d
Lunix_path_BB22_82:
	leal	-224(%rsi), %edx
	cmpl	$20, %edx
	ja	Lunix_path_BB22_89
	leaq	Lunix_path_JTI22_0(%rip), %r9
	movslq	(%r9,%rdx,4), %rdx
	addq	%r9, %rdx
	jmpq	*%rdx
Lunix_path_BB22_84:
	movl	%r8d, %edx
	andb	$-32, %dl
	cmpb	$-96, %dl
	je	Lunix_path_BB22_90
	jmp	Lunix_path_BB22_98
Lunix_path_BB22_85:
	leal	112(%r8), %edx
	cmpb	$47, %dl
	jbe	Lunix_path_BB22_90
	jmp	Lunix_path_BB22_100
Lunix_path_BB22_86:
	cmpb	$-96, %dl
	jmp	Lunix_path_BB22_103
Lunix_path_BB22_87:
	cmpb	$-96, %r8b
	jl	Lunix_path_BB22_90
	jmp	Lunix_path_BB22_101
Lunix_path_BB22_88:
	cmpb	$-112, %r8b
	jl	Lunix_path_BB22_90
	jmp	Lunix_path_BB22_99
Lunix_path_BB22_89:
	cmpb	$-64, %r8b
	jge	Lunix_path_BB22_96
Lunix_path_BB22_90:
	movl	$3, %edx
	cmpb	$-64, 2(%rdi)
	jge	Lunix_path_BB22_96
	jmp	Lunix_path_BB22_105
Lunix_path_BB22_91:
	addb	$112, %dl
	cmpb	$48, %dl
	setb	%dl
	jmp	Lunix_path_BB22_104
Lunix_path_BB22_92:
	cmpb	$-112, %dl
	jmp	Lunix_path_BB22_103
Lunix_path_BB22_93:
	cmpb	$-64, %dl
	jmp	Lunix_path_BB22_103
Lunix_path_BB22_94:
	movq	%rcx, %rdx
	subq	%rcx, %rax
	retq
Lunix_path_BB22_95:
	movzbl	1(%rdi), %r8d
Lunix_path_BB22_96:
	addl	$-224, %esi
	cmpl	$20, %esi
	ja	Lunix_path_BB22_102
	leaq	Lunix_path_JTI22_1(%rip), %rdx
	movslq	(%rdx,%rsi,4), %rsi
	addq	%rdx, %rsi
	jmpq	*%rsi
Lunix_path_BB22_98:
	andb	$-32, %r8b
	cmpb	$-96, %r8b
	sete	%dl
	jmp	Lunix_path_BB22_104
Lunix_path_BB22_99:
	cmpb	$-112, %r8b
	jmp	Lunix_path_BB22_103
Lunix_path_BB22_100:
	addb	$112, %r8b
	cmpb	$48, %r8b
	setb	%dl
	jmp	Lunix_path_BB22_104
Lunix_path_BB22_101:
	cmpb	$-96, %r8b
	jmp	Lunix_path_BB22_103
Lunix_path_BB22_102:
	cmpb	$-64, %r8b
Lunix_path_BB22_103:
	setl	%dl
Lunix_path_BB22_104:
	movzbl	%dl, %edx
	incq	%rdx
Lunix_path_BB22_105:
	movq	%rcx, %r8
Lunix_path_BB22_106:
	subq	%r8, %rax
	retq
	.p2align	2
	.data_region jt32
Lunix_path_22_0_set_84 = Lunix_path_BB22_84-Lunix_path_JTI22_0
Lunix_path_22_0_set_89 = Lunix_path_BB22_89-Lunix_path_JTI22_0
Lunix_path_22_0_set_87 = Lunix_path_BB22_87-Lunix_path_JTI22_0
Lunix_path_22_0_set_85 = Lunix_path_BB22_85-Lunix_path_JTI22_0
Lunix_path_22_0_set_88 = Lunix_path_BB22_88-Lunix_path_JTI22_0
Lunix_path_JTI22_0:
	.long	Lunix_path_22_0_set_84
	.long	Lunix_path_22_0_set_89
	.long	Lunix_path_22_0_set_89
	.long	Lunix_path_22_0_set_89
	.long	Lunix_path_22_0_set_89
	.long	Lunix_path_22_0_set_89
	.long	Lunix_path_22_0_set_89
	.long	Lunix_path_22_0_set_89
	.long	Lunix_path_22_0_set_89
	.long	Lunix_path_22_0_set_89
	.long	Lunix_path_22_0_set_89
	.long	Lunix_path_22_0_set_89
	.long	Lunix_path_22_0_set_89
	.long	Lunix_path_22_0_set_87
	.long	Lunix_path_22_0_set_89
	.long	Lunix_path_22_0_set_89
	.long	Lunix_path_22_0_set_85
	.long	Lunix_path_22_0_set_89
	.long	Lunix_path_22_0_set_89
	.long	Lunix_path_22_0_set_89
	.long	Lunix_path_22_0_set_88
Lunix_path_22_1_set_98 = Lunix_path_BB22_98-Lunix_path_JTI22_1
Lunix_path_22_1_set_102 = Lunix_path_BB22_102-Lunix_path_JTI22_1
Lunix_path_22_1_set_101 = Lunix_path_BB22_101-Lunix_path_JTI22_1
Lunix_path_22_1_set_100 = Lunix_path_BB22_100-Lunix_path_JTI22_1
Lunix_path_22_1_set_99 = Lunix_path_BB22_99-Lunix_path_JTI22_1
Lunix_path_JTI22_1:
	.long	Lunix_path_22_1_set_98
	.long	Lunix_path_22_1_set_102
	.long	Lunix_path_22_1_set_102
	.long	Lunix_path_22_1_set_102
	.long	Lunix_path_22_1_set_102
	.long	Lunix_path_22_1_set_102
	.long	Lunix_path_22_1_set_102
	.long	Lunix_path_22_1_set_102
	.long	Lunix_path_22_1_set_102
	.long	Lunix_path_22_1_set_102
	.long	Lunix_path_22_1_set_102
	.long	Lunix_path_22_1_set_102
	.long	Lunix_path_22_1_set_102
	.long	Lunix_path_22_1_set_101
	.long	Lunix_path_22_1_set_102
	.long	Lunix_path_22_1_set_102
	.long	Lunix_path_22_1_set_100
	.long	Lunix_path_22_1_set_102
	.long	Lunix_path_22_1_set_102
	.long	Lunix_path_22_1_set_102
	.long	Lunix_path_22_1_set_99
Lunix_path_22_2_set_78 = Lunix_path_BB22_78-Lunix_path_JTI22_2
Lunix_path_22_2_set_93 = Lunix_path_BB22_93-Lunix_path_JTI22_2
Lunix_path_22_2_set_86 = Lunix_path_BB22_86-Lunix_path_JTI22_2
Lunix_path_22_2_set_91 = Lunix_path_BB22_91-Lunix_path_JTI22_2
Lunix_path_22_2_set_92 = Lunix_path_BB22_92-Lunix_path_JTI22_2
Lunix_path_JTI22_2:
	.long	Lunix_path_22_2_set_78
	.long	Lunix_path_22_2_set_93
	.long	Lunix_path_22_2_set_93
	.long	Lunix_path_22_2_set_93
	.long	Lunix_path_22_2_set_93
	.long	Lunix_path_22_2_set_93
	.long	Lunix_path_22_2_set_93
	.long	Lunix_path_22_2_set_93
	.long	Lunix_path_22_2_set_93
	.long	Lunix_path_22_2_set_93
	.long	Lunix_path_22_2_set_93
	.long	Lunix_path_22_2_set_93
	.long	Lunix_path_22_2_set_93
	.long	Lunix_path_22_2_set_86
	.long	Lunix_path_22_2_set_93
	.long	Lunix_path_22_2_set_93
	.long	Lunix_path_22_2_set_91
	.long	Lunix_path_22_2_set_93
	.long	Lunix_path_22_2_set_93
	.long	Lunix_path_22_2_set_93
	.long	Lunix_path_22_2_set_92
	.end_data_region
	.section	__TEXT,__literal16,16byte_literals
	.p2align	4, 0x0
Lunix_path_CPI23_0:
	.space	16,192
Lunix_path_CPI23_1:
	.space	16,224
Lunix_path_CPI23_2:
	.space	16,240
Lunix_path_CPI23_3:
	.space	16,194
Lunix_path_CPI23_4:
	.space	16,144
Lunix_path_CPI23_5:
	.space	16,160
Lunix_path_CPI23_6:
	.space	16,244
Lunix_path_CPI23_7:
	.space	16,143
Lunix_path_CPI23_8:
	.space	16,237
Lunix_path_CPI23_9:
	.space	16,159
	.section	__TEXT,__text,regular,pure_instructions
	.p2align	4
## unix_bytes::utf8::scans::scan_by_window
_unix_bytes.utf8.scans.scan_by_window:
	movq	%rdx, %rax
	cmpq	%rsi, %rdx
	jb	Lunix_path_BB23_6
Lunix_path_BB23_1:
	xorl	%edx, %edx
Lunix_path_BB23_2:
	retq
Lunix_path_BB23_3:
	rep		bsfl	%r8d, %r8d
	addq	%rdx, %r8
	.p2align	4
Lunix_path_BB23_4:
	addq	%r8, %rax
Lunix_path_BB23_5:
	cmpq	%rsi, %rax
	jae	Lunix_path_BB23_1
Lunix_path_BB23_6:
	leaq	(%rdi,%rax), %rcx
	movzbl	(%rdi,%rax), %r8d
	movq	%rsi, %r9
	subq	%rax, %r9
	testb	%r8b, %r8b
	js	Lunix_path_BB23_19
	movl	$1, %r8d
	cmpq	$8, %r9
	jb	Lunix_path_BB23_4
	cmpb	$0, 1(%rcx)
	js	Lunix_path_BB23_4
	cmpq	$16, %r9
	jb	Lunix_path_BB23_27
	xorl	%edx, %edx
	cmpq	$64, %r9
	jb	Lunix_path_BB23_14
	movq	%r9, %r8
	.p2align	4
Lunix_path_BB23_12:
	movdqu	(%rcx,%rdx), %xmm0
	movdqu	16(%rcx,%rdx), %xmm1
	por	%xmm0, %xmm1
	movdqu	32(%rcx,%rdx), %xmm0
	movdqu	48(%rcx,%rdx), %xmm2
	por	%xmm0, %xmm2
	por	%xmm1, %xmm2
	pmovmskb	%xmm2, %r10d
	testl	%r10d, %r10d
	jne	Lunix_path_BB23_14
	addq	$64, %rdx
	addq	$-64, %r8
	cmpq	$63, %r8
	ja	Lunix_path_BB23_12
Lunix_path_BB23_14:
	leaq	-16(%r9), %r10
	cmpq	%r10, %rdx
	jae	Lunix_path_BB23_17
	.p2align	4
Lunix_path_BB23_15:
	movdqu	(%rcx,%rdx), %xmm0
	pmovmskb	%xmm0, %r8d
	testl	%r8d, %r8d
	jne	Lunix_path_BB23_3
	addq	$16, %rdx
	cmpq	%r10, %rdx
	jb	Lunix_path_BB23_15
Lunix_path_BB23_17:
	movdqu	(%rcx,%r10), %xmm0
	pmovmskb	%xmm0, %ecx
	movq	%r9, %r8
	testl	%ecx, %ecx
	je	Lunix_path_BB23_4
	rep		bsfl	%ecx, %ecx
	addq	%rcx, %r10
	movq	%r10, %r8
	jmp	Lunix_path_BB23_4
	.p2align	4
Lunix_path_BB23_19:
	leal	62(%r8), %edx
	cmpb	$29, %dl
	ja	Lunix_path_BB23_22
	movl	$1, %edx
	cmpq	$2, %r9
	jb	Lunix_path_BB23_2
	movl	$2, %r9d
	cmpb	$-64, 1(%rcx)
	jl	Lunix_path_BB23_45
	jmp	Lunix_path_BB23_2
Lunix_path_BB23_22:
	movl	%r8d, %edx
	andb	$-16, %dl
	cmpb	$-32, %dl
	jne	Lunix_path_BB23_33
	cmpq	$3, %r9
	jb	Lunix_path_BB23_61
	movzbl	1(%rcx), %edx
	cmpl	$237, %r8d
	je	Lunix_path_BB23_38
	cmpl	$224, %r8d
	jne	Lunix_path_BB23_39
	movl	%edx, %r9d
	andb	$-32, %r9b
	cmpb	$-96, %r9b
	je	Lunix_path_BB23_40
	jmp	Lunix_path_BB23_65
Lunix_path_BB23_27:
	movq	(%rcx), %xmm0
	pmovmskb	%xmm0, %edx
	testb	%dl, %dl
	jne	Lunix_path_BB23_29
	movq	-8(%rdi,%rsi), %xmm0
	pmovmskb	%xmm0, %edx
	testb	%dl, %dl
	je	Lunix_path_BB23_32
Lunix_path_BB23_29:
	xorl	%r8d, %r8d
	.p2align	4
Lunix_path_BB23_30:
	cmpb	$0, (%rcx,%r8)
	js	Lunix_path_BB23_4
	incq	%r8
	cmpq	%r8, %r9
	jne	Lunix_path_BB23_30
Lunix_path_BB23_32:
	movq	%r9, %r8
	jmp	Lunix_path_BB23_4
Lunix_path_BB23_33:
	leal	16(%r8), %r10d
	movl	$1, %edx
	cmpb	$4, %r10b
	ja	Lunix_path_BB23_2
	cmpq	$4, %r9
	jb	Lunix_path_BB23_66
	movzbl	1(%rcx), %r10d
	cmpl	$240, %r8d
	je	Lunix_path_BB23_41
	cmpl	$244, %r8d
	jne	Lunix_path_BB23_42
	cmpb	$-112, %r10b
	jl	Lunix_path_BB23_43
	jmp	Lunix_path_BB23_82
Lunix_path_BB23_38:
	cmpb	$-96, %dl
	jl	Lunix_path_BB23_40
	jmp	Lunix_path_BB23_72
Lunix_path_BB23_39:
	cmpb	$-65, %dl
	jg	Lunix_path_BB23_63
Lunix_path_BB23_40:
	movl	$3, %r9d
	cmpb	$-64, 2(%rcx)
	jl	Lunix_path_BB23_45
	jmp	Lunix_path_BB23_63
Lunix_path_BB23_41:
	leal	112(%r10), %edx
	cmpb	$47, %dl
	jbe	Lunix_path_BB23_43
	jmp	Lunix_path_BB23_71
Lunix_path_BB23_42:
	cmpb	$-64, %r10b
	jge	Lunix_path_BB23_68
Lunix_path_BB23_43:
	cmpb	$-65, 2(%rcx)
	jg	Lunix_path_BB23_68
	movl	$4, %r9d
	cmpb	$-64, 3(%rcx)
	jge	Lunix_path_BB23_68
Lunix_path_BB23_45:
	addq	%rax, %r9
	cmpq	$3, %r9
	setb	%al
	movq	%rsi, %rcx
	subq	%r9, %rcx
	cmpq	$16, %rcx
	setb	%cl
	orb	%al, %cl
	je	Lunix_path_BB23_48
Lunix_path_BB23_46:
	movq	%r9, %rax
	jmp	Lunix_path_BB23_5
	.p2align	4
Lunix_path_BB23_47:
	addq	%r9, %rax
	movq	%rsi, %rcx
	subq	%rax, %rcx
	movq	%rax, %r9
	cmpq	$15, %rcx
	jbe	Lunix_path_BB23_5
Lunix_path_BB23_48:
	movdqu	(%rdi,%r9), %xmm0
	pmovmskb	%xmm0, %eax
	movdqa	%xmm0, -24(%rsp)
	testl	%eax, %eax
	je	Lunix_path_BB23_46
	movzbl	-9(%rsp), %ecx
	movdqu	-3(%rdi,%r9), %xmm2
	movdqu	-2(%rdi,%r9), %xmm3
	movdqu	-1(%rdi,%r9), %xmm1
	movdqa	Lunix_path_CPI23_0(%rip), %xmm4
	movdqa	%xmm0, %xmm5
	pmaxub	%xmm4, %xmm5
	pcmpeqb	%xmm0, %xmm5
	pmovmskb	%xmm5, %edx
	movdqa	Lunix_path_CPI23_3(%rip), %xmm5
	pmaxub	%xmm0, %xmm5
	pcmpeqb	%xmm0, %xmm5
	pmovmskb	%xmm5, %r8d
	movdqa	%xmm1, -40(%rsp)
	cmpw	%r8w, %dx
	jne	Lunix_path_BB23_46
	pmaxub	%xmm1, %xmm4
	pcmpeqb	%xmm1, %xmm4
	movdqa	Lunix_path_CPI23_1(%rip), %xmm5
	pmaxub	%xmm3, %xmm5
	pcmpeqb	%xmm3, %xmm5
	por	%xmm4, %xmm5
	movdqa	Lunix_path_CPI23_2(%rip), %xmm3
	pmaxub	%xmm2, %xmm3
	pcmpeqb	%xmm2, %xmm3
	por	%xmm5, %xmm3
	pmovmskb	%xmm3, %r8d
	addq	%rdx, %r8
	movzwl	%ax, %eax
	cmpl	%eax, %r8d
	jne	Lunix_path_BB23_46
	movdqa	Lunix_path_CPI23_2(%rip), %xmm2
	pcmpeqb	%xmm1, %xmm2
	movdqa	Lunix_path_CPI23_1(%rip), %xmm3
	pcmpeqb	%xmm1, %xmm3
	movdqa	%xmm3, %xmm4
	pandn	%xmm2, %xmm4
	pand	Lunix_path_CPI23_4(%rip), %xmm4
	pand	Lunix_path_CPI23_5(%rip), %xmm3
	por	%xmm4, %xmm3
	pmaxub	%xmm0, %xmm3
	pcmpeqb	%xmm0, %xmm3
	pmovmskb	%xmm3, %eax
	cmpl	$65535, %eax
	jne	Lunix_path_BB23_46
	movdqa	Lunix_path_CPI23_6(%rip), %xmm2
	movdqa	%xmm1, %xmm3
	pcmpeqb	%xmm2, %xmm3
	movdqa	%xmm3, %xmm4
	pandn	%xmm2, %xmm4
	pand	Lunix_path_CPI23_7(%rip), %xmm3
	por	%xmm4, %xmm3
	pcmpeqb	Lunix_path_CPI23_8(%rip), %xmm1
	movdqa	%xmm1, %xmm2
	pandn	%xmm3, %xmm2
	pand	Lunix_path_CPI23_9(%rip), %xmm1
	por	%xmm2, %xmm1
	pmaxub	%xmm1, %xmm0
	pcmpeqb	%xmm1, %xmm0
	pmovmskb	%xmm0, %eax
	cmpl	$65535, %eax
	jne	Lunix_path_BB23_46
	movl	$15, %eax
	cmpb	$-65, %cl
	ja	Lunix_path_BB23_47
	movl	$14, %eax
	cmpb	$-33, -25(%rsp)
	ja	Lunix_path_BB23_47
	xorl	%eax, %eax
	cmpb	$-16, -26(%rsp)
	setb	%al
	leaq	(%rax,%rax,2), %rax
	addq	$13, %rax
	jmp	Lunix_path_BB23_47
Lunix_path_BB23_61:
	movl	$1, %edx
	cmpq	$2, %r9
	jne	Lunix_path_BB23_2
	movzbl	1(%rcx), %edx
Lunix_path_BB23_63:
	addl	$-224, %r8d
	cmpl	$20, %r8d
	ja	Lunix_path_BB23_87
	leaq	Lunix_path_JTI23_2(%rip), %rcx
	movslq	(%rcx,%r8,4), %rsi
	addq	%rcx, %rsi
	jmpq	*%rsi
Lunix_path_BB23_65:
	andb	$-32, %dl
	cmpb	$-96, %dl
	sete	%cl
	movzbl	%cl, %edx
	incq	%rdx
	retq
Lunix_path_BB23_66:
	cmpq	$3, %r9
	jne	Lunix_path_BB23_77
	movzbl	1(%rcx), %r10d
Lunix_path_BB23_68:
	leal	-224(%r8), %edx
	cmpl	$20, %edx
	ja	Lunix_path_BB23_75
	leaq	Lunix_path_JTI23_0(%rip), %rsi
	movslq	(%rsi,%rdx,4), %rdx
	addq	%rsi, %rdx
	jmpq	*%rdx
Lunix_path_BB23_70:
	movl	%r10d, %edx
	andb	$-32, %dl
	cmpb	$-96, %dl
	je	Lunix_path_BB23_76
	jmp	Lunix_path_BB23_81
Lunix_path_BB23_71:
	leal	112(%r10), %edx
	cmpb	$47, %dl
	jbe	Lunix_path_BB23_76
	jmp	Lunix_path_BB23_83
Lunix_path_BB23_72:
	cmpb	$-96, %dl
	setl	%cl
	movzbl	%cl, %edx
	incq	%rdx
	retq
Lunix_path_BB23_73:
	cmpb	$-96, %r10b
	jl	Lunix_path_BB23_76
	jmp	Lunix_path_BB23_84
Lunix_path_BB23_74:
	cmpb	$-112, %r10b
	jl	Lunix_path_BB23_76
	jmp	Lunix_path_BB23_82
Lunix_path_BB23_75:
	cmpb	$-64, %r10b
	jge	Lunix_path_BB23_79
Lunix_path_BB23_76:
	movl	$3, %edx
	cmpb	$-64, 2(%rcx)
	jl	Lunix_path_BB23_2
	jmp	Lunix_path_BB23_79
Lunix_path_BB23_77:
	cmpq	$2, %r9
	jb	Lunix_path_BB23_2
	movzbl	1(%rcx), %r10d
Lunix_path_BB23_79:
	addl	$-224, %r8d
	cmpl	$20, %r8d
	ja	Lunix_path_BB23_88
	leaq	Lunix_path_JTI23_1(%rip), %rcx
	movslq	(%rcx,%r8,4), %rdx
	addq	%rcx, %rdx
	jmpq	*%rdx
Lunix_path_BB23_81:
	andb	$-32, %r10b
	cmpb	$-96, %r10b
	sete	%cl
	movzbl	%cl, %edx
	incq	%rdx
	retq
Lunix_path_BB23_82:
	cmpb	$-112, %r10b
	setl	%cl
	movzbl	%cl, %edx
	incq	%rdx
	retq
Lunix_path_BB23_83:
	addb	$112, %r10b
	cmpb	$48, %r10b
	setb	%cl
	movzbl	%cl, %edx
	incq	%rdx
	retq
Lunix_path_BB23_84:
	cmpb	$-96, %r10b
	setl	%cl
	movzbl	%cl, %edx
	incq	%rdx
	retq
Lunix_path_BB23_85:
	addb	$112, %dl
	cmpb	$48, %dl
	setb	%cl
	movzbl	%cl, %edx
	incq	%rdx
	retq
Lunix_path_BB23_86:
	cmpb	$-112, %dl
	setl	%cl
	movzbl	%cl, %edx
	incq	%rdx
	retq
Lunix_path_BB23_87:
	cmpb	$-64, %dl
	setl	%cl
	movzbl	%cl, %edx
	incq	%rdx
	retq
Lunix_path_BB23_88:
	cmpb	$-64, %r10b
	setl	%cl
	movzbl	%cl, %edx
	incq	%rdx
	retq
	.p2align	2
	.data_region jt32
Lunix_path_23_0_set_70 = Lunix_path_BB23_70-Lunix_path_JTI23_0
Lunix_path_23_0_set_75 = Lunix_path_BB23_75-Lunix_path_JTI23_0
Lunix_path_23_0_set_73 = Lunix_path_BB23_73-Lunix_path_JTI23_0
Lunix_path_23_0_set_71 = Lunix_path_BB23_71-Lunix_path_JTI23_0
Lunix_path_23_0_set_74 = Lunix_path_BB23_74-Lunix_path_JTI23_0
Lunix_path_JTI23_0:
	.long	Lunix_path_23_0_set_70
	.long	Lunix_path_23_0_set_75
	.long	Lunix_path_23_0_set_75
	.long	Lunix_path_23_0_set_75
	.long	Lunix_path_23_0_set_75
	.long	Lunix_path_23_0_set_75
	.long	Lunix_path_23_0_set_75
	.long	Lunix_path_23_0_set_75
	.long	Lunix_path_23_0_set_75
	.long	Lunix_path_23_0_set_75
	.long	Lunix_path_23_0_set_75
	.long	Lunix_path_23_0_set_75
	.long	Lunix_path_23_0_set_75
	.long	Lunix_path_23_0_set_73
	.long	Lunix_path_23_0_set_75
	.long	Lunix_path_23_0_set_75
	.long	Lunix_path_23_0_set_71
	.long	Lunix_path_23_0_set_75
	.long	Lunix_path_23_0_set_75
	.long	Lunix_path_23_0_set_75
	.long	Lunix_path_23_0_set_74
Lunix_path_23_1_set_81 = Lunix_path_BB23_81-Lunix_path_JTI23_1
Lunix_path_23_1_set_88 = Lunix_path_BB23_88-Lunix_path_JTI23_1
Lunix_path_23_1_set_84 = Lunix_path_BB23_84-Lunix_path_JTI23_1
Lunix_path_23_1_set_83 = Lunix_path_BB23_83-Lunix_path_JTI23_1
Lunix_path_23_1_set_82 = Lunix_path_BB23_82-Lunix_path_JTI23_1
Lunix_path_JTI23_1:
	.long	Lunix_path_23_1_set_81
	.long	Lunix_path_23_1_set_88
	.long	Lunix_path_23_1_set_88
	.long	Lunix_path_23_1_set_88
	.long	Lunix_path_23_1_set_88
	.long	Lunix_path_23_1_set_88
	.long	Lunix_path_23_1_set_88
	.long	Lunix_path_23_1_set_88
	.long	Lunix_path_23_1_set_88
	.long	Lunix_path_23_1_set_88
	.long	Lunix_path_23_1_set_88
	.long	Lunix_path_23_1_set_88
	.long	Lunix_path_23_1_set_88
	.long	Lunix_path_23_1_set_84
	.long	Lunix_path_23_1_set_88
	.long	Lunix_path_23_1_set_88
	.long	Lunix_path_23_1_set_83
	.long	Lunix_path_23_1_set_88
	.long	Lunix_path_23_1_set_88
	.long	Lunix_path_23_1_set_88
	.long	Lunix_path_23_1_set_82
Lunix_path_23_2_set_65 = Lunix_path_BB23_65-Lunix_path_JTI23_2
Lunix_path_23_2_set_87 = Lunix_path_BB23_87-Lunix_path_JTI23_2
Lunix_path_23_2_set_72 = Lunix_path_BB23_72-Lunix_path_JTI23_2
Lunix_path_23_2_set_85 = Lunix_path_BB23_85-Lunix_path_JTI23_2
Lunix_path_23_2_set_86 = Lunix_path_BB23_86-Lunix_path_JTI23_2
Lunix_path_JTI23_2:
	.long	Lunix_path_23_2_set_65
	.long	Lunix_path_23_2_set_87
	.long	Lunix_path_23_2_set_87
	.long	Lunix_path_23_2_set_87
	.long	Lunix_path_23_2_set_87
	.long	Lunix_path_23_2_set_87
	.long	Lunix_path_23_2_set_87
	.long	Lunix_path_23_2_set_87
	.long	Lunix_path_23_2_set_87
	.long	Lunix_path_23_2_set_87
	.long	Lunix_path_23_2_set_87
	.long	Lunix_path_23_2_set_87
	.long	Lunix_path_23_2_set_87
	.long	Lunix_path_23_2_set_72
	.long	Lunix_path_23_2_set_87
	.long	Lunix_path_23_2_set_87
	.long	Lunix_path_23_2_set_85
	.long	Lunix_path_23_2_set_87
	.long	Lunix_path_23_2_set_87
	.long	Lunix_path_23_2_set_87
	.long	Lunix_path_23_2_set_86
	.end_data_region
	.section	__TEXT,__literal16,16byte_literals
	.p2align	4, 0x0
Lunix_path_CPI24_0:
	.space	16,208
Lunix_path_CPI24_1:
	.space	16,47
Lunix_path_CPI24_2:
	.space	16,46
Lunix_path_CPI24_3:
	.byte	254
	.byte	254
	.byte	254
	.byte	254
	.byte	254
	.byte	254
	.byte	254
	.byte	254
	.space	1
	.space	1
	.space	1
	.space	1
	.space	1
	.space	1
	.space	1
	.space	1
Lunix_path_CPI24_4:
	.byte	46
	.byte	46
	.byte	46
	.byte	46
	.byte	46
	.byte	46
	.byte	46
	.byte	46
	.space	1
	.space	1
	.space	1
	.space	1
	.space	1
	.space	1
	.space	1
	.space	1
Lunix_path_CPI24_5:
	.byte	47
	.byte	47
	.byte	47
	.byte	47
	.byte	47
	.byte	47
	.byte	47
	.byte	47
	.space	1
	.space	1
	.space	1
	.space	1
	.space	1
	.space	1
	.space	1
	.space	1
	.section	__TEXT,__text,regular,pure_instructions
	.p2align	4
## path_keys::encode::run_len
_path_keys.encode.run_len:
	cmpq	$2, %rsi
	jb	Lunix_path_BB24_5
	cmpb	$46, (%rdi)
	jne	Lunix_path_BB24_5
	cmpb	$46, 1(%rdi)
	jne	Lunix_path_BB24_5
	movl	$2, %eax
	cmpq	$2, %rsi
	je	Lunix_path_BB24_33
	cmpb	$47, 2(%rdi)
	je	Lunix_path_BB24_33
Lunix_path_BB24_5:
	cmpq	$18, %rsi
	ja	Lunix_path_BB24_10
	cmpq	$9, %rsi
	jae	Lunix_path_BB24_8
	xorl	%ecx, %ecx
	cmpq	%rsi, %rcx
	jb	Lunix_path_BB24_23
	jmp	Lunix_path_BB24_22
Lunix_path_BB24_10:
	movq	%rsi, %rax
	xorl	%ecx, %ecx
	addq	$-19, %rax
	jne	Lunix_path_BB24_11
Lunix_path_BB24_17:
	leaq	-17(%rsi), %rdx
	cmpq	%rcx, %rdx
	cmovbq	%rdx, %rcx
	movdqu	(%rdi,%rcx), %xmm0
	movdqu	1(%rdi,%rcx), %xmm1
	pand	Lunix_path_CPI24_0(%rip), %xmm1
	por	%xmm0, %xmm1
	pcmpeqb	Lunix_path_CPI24_1(%rip), %xmm1
	pmovmskb	%xmm1, %edx
	testl	%edx, %edx
	je	Lunix_path_BB24_18
	movdqu	(%rdi,%rax), %xmm0
	movdqu	1(%rdi,%rax), %xmm1
	movdqu	2(%rdi,%rax), %xmm2
	movdqu	3(%rdi,%rax), %xmm3
	movdqa	Lunix_path_CPI24_2(%rip), %xmm4
	movdqa	%xmm2, %xmm5
	pcmpeqb	%xmm4, %xmm5
	movdqa	Lunix_path_CPI24_1(%rip), %xmm6
	pcmpeqb	%xmm6, %xmm3
	pand	%xmm5, %xmm3
	pcmpeqb	%xmm1, %xmm4
	pcmpeqb	%xmm6, %xmm2
	por	%xmm3, %xmm2
	pand	%xmm4, %xmm2
	pcmpeqb	%xmm6, %xmm0
	pcmpeqb	%xmm6, %xmm1
	por	%xmm2, %xmm1
	pand	%xmm0, %xmm1
	pmovmskb	%xmm1, %ecx
	orl	$65536, %ecx
	rep		bsfl	%ecx, %ecx
	jmp	Lunix_path_BB24_20
	.p2align	4
Lunix_path_BB24_16:
	cmpq	%rax, %rcx
	jae	Lunix_path_BB24_17
Lunix_path_BB24_11:
	movdqu	(%rdi,%rcx), %xmm0
	movdqu	1(%rdi,%rcx), %xmm1
	movdqa	Lunix_path_CPI24_0(%rip), %xmm2
	pand	%xmm1, %xmm2
	por	%xmm0, %xmm2
	pcmpeqb	Lunix_path_CPI24_1(%rip), %xmm2
	pmovmskb	%xmm2, %edx
	testl	%edx, %edx
	je	Lunix_path_BB24_12
	movdqu	2(%rdi,%rcx), %xmm2
	movdqu	3(%rdi,%rcx), %xmm3
	movdqa	Lunix_path_CPI24_2(%rip), %xmm4
	movdqa	%xmm2, %xmm5
	pcmpeqb	%xmm4, %xmm5
	movdqa	Lunix_path_CPI24_1(%rip), %xmm6
	pcmpeqb	%xmm6, %xmm3
	pand	%xmm5, %xmm3
	pcmpeqb	%xmm1, %xmm4
	pcmpeqb	%xmm6, %xmm2
	por	%xmm3, %xmm2
	pand	%xmm4, %xmm2
	pcmpeqb	%xmm6, %xmm0
	pcmpeqb	%xmm6, %xmm1
	por	%xmm2, %xmm1
	pand	%xmm0, %xmm1
	pmovmskb	%xmm1, %edx
	orl	$65536, %edx
	rep		bsfl	%edx, %edx
	cmpw	$15, %dx
	jbe	Lunix_path_BB24_14
	addq	$16, %rcx
	jmp	Lunix_path_BB24_16
	.p2align	4
Lunix_path_BB24_12:
	addq	$16, %rcx
	cmpq	%rax, %rcx
	jb	Lunix_path_BB24_11
	jmp	Lunix_path_BB24_16
Lunix_path_BB24_8:
	movq	1(%rdi), %xmm0
	pand	Lunix_path_CPI24_3(%rip), %xmm0
	pcmpeqb	Lunix_path_CPI24_4(%rip), %xmm0
	movq	(%rdi), %xmm1
	pcmpeqb	Lunix_path_CPI24_5(%rip), %xmm1
	pand	%xmm0, %xmm1
	pmovmskb	%xmm1, %eax
	orl	$256, %eax
	rep		bsfl	%eax, %ecx
	cmpb	$8, %cl
	jb	Lunix_path_BB24_21
	cmpq	$17, %rsi
	movl	$17, %eax
	cmovbq	%rsi, %rax
	movq	-8(%rdi,%rax), %xmm0
	pand	Lunix_path_CPI24_3(%rip), %xmm0
	pcmpeqb	Lunix_path_CPI24_4(%rip), %xmm0
	movq	-9(%rdi,%rax), %xmm1
	pcmpeqb	Lunix_path_CPI24_5(%rip), %xmm1
	pand	%xmm0, %xmm1
	pmovmskb	%xmm1, %ecx
	orl	$256, %ecx
	rep		bsfl	%ecx, %ecx
	addq	%rax, %rcx
	addq	$-9, %rcx
	cmpq	%rsi, %rcx
	jb	Lunix_path_BB24_23
	jmp	Lunix_path_BB24_22
Lunix_path_BB24_14:
	movzwl	%dx, %eax
Lunix_path_BB24_20:
	addq	%rax, %rcx
Lunix_path_BB24_21:
	cmpq	%rsi, %rcx
	jb	Lunix_path_BB24_23
Lunix_path_BB24_22:
	movq	%rcx, %rax
	retq
Lunix_path_BB24_18:
	addq	$16, %rcx
	cmpq	%rsi, %rcx
	jb	Lunix_path_BB24_23
	jmp	Lunix_path_BB24_22
	.p2align	4
Lunix_path_BB24_26:
	cmpl	$47, %edx
	je	Lunix_path_BB24_33
Lunix_path_BB24_31:
	cmpq	%rcx, %rsi
	je	Lunix_path_BB24_32
Lunix_path_BB24_23:
	movq	%rcx, %rax
	incq	%rcx
	cmpb	$47, (%rdi,%rax)
	jne	Lunix_path_BB24_31
	cmpq	%rcx, %rsi
	jbe	Lunix_path_BB24_33
	movzbl	1(%rdi,%rax), %edx
	cmpl	$46, %edx
	jne	Lunix_path_BB24_26
	leaq	2(%rax), %rdx
	cmpq	%rdx, %rsi
	jbe	Lunix_path_BB24_33
	movzbl	2(%rdi,%rax), %edx
	cmpl	$46, %edx
	jne	Lunix_path_BB24_26
	leaq	3(%rax), %rdx
	cmpq	%rdx, %rsi
	jbe	Lunix_path_BB24_33
	cmpb	$47, 3(%rdi,%rax)
	jne	Lunix_path_BB24_31
	jmp	Lunix_path_BB24_33
Lunix_path_BB24_32:
	movq	%rsi, %rax
Lunix_path_BB24_33:
	retq
	.section	__TEXT,__literal16,16byte_literals
	.p2align	4, 0x0
Lunix_path_CPI25_0:
	.space	16,47
	.section	__TEXT,__text,regular,pure_instructions
	.p2align	4
## unix_path_c::walks::take_first
_unix_path_c.walks.take_first:
	pushq	%rbp
	pushq	%r15
	pushq	%r14
	pushq	%r13
	pushq	%r12
	pushq	%rbx
	subq	$24, %rsp
	movq	%rdi, %r15
	movq	(%rdx), %r13
	movq	8(%rdx), %r14
	cmpq	%r14, %rsi
	setb	%al
	subq	%r13, %r14
	setb	%dil
	sete	%sil
	orb	%al, %dil
	leaq	(%r15,%r13), %rbp
	leaq	lunix_path__static.0(%rip), %r12
	testb	%dil, %dil
	cmoveq	%rbp, %r12
	orb	%sil, %dil
	je	Lunix_path_BB25_2
Lunix_path_BB25_1:
	xorl	%eax, %eax
	jmp	Lunix_path_BB25_60
Lunix_path_BB25_2:
	movq	%rcx, 8(%rsp)
	movq	%rdx, 16(%rsp)
	movzbl	(%r12), %eax
	movb	$1, %bl
	cmpl	$47, %eax
	je	Lunix_path_BB25_7
	cmpl	$46, %eax
	jne	Lunix_path_BB25_6
	cmpq	$1, %r14
	je	Lunix_path_BB25_7
	cmpb	$47, 1(%r12)
	sete	%bl
	jmp	Lunix_path_BB25_7
Lunix_path_BB25_6:
	xorl	%ebx, %ebx
Lunix_path_BB25_7:
	movq	%r14, %rcx
	movq	%r14, %rax
	jmp	Lunix_path_BB25_9
	.p2align	4
Lunix_path_BB25_8:
	movq	%rax, %rcx
	testq	%rax, %rax
	je	Lunix_path_BB25_1
Lunix_path_BB25_9:
	decq	%rax
	je	Lunix_path_BB25_15
	movzbl	(%r12,%rax), %edx
	cmpl	$47, %edx
	je	Lunix_path_BB25_13
	cmpl	$46, %edx
	jne	Lunix_path_BB25_16
	cmpb	$47, -1(%r12,%rax)
	jne	Lunix_path_BB25_16
Lunix_path_BB25_13:
	movq	%r14, %rcx
	subq	%rax, %rcx
	cmpq	$8, %rcx
	jne	Lunix_path_BB25_8
	movq	%r12, %rdi
	movq	%rax, %rsi
	callq	_unix_path.filler.trimmed_blocks_len
	jmp	Lunix_path_BB25_8
Lunix_path_BB25_15:
	movl	$1, %edx
	testb	%bl, %bl
	movq	16(%rsp), %r11
	movq	8(%rsp), %rbx
	jne	Lunix_path_BB25_30
	jmp	Lunix_path_BB25_34
Lunix_path_BB25_16:
	testb	%bl, %bl
	je	Lunix_path_BB25_24
	leaq	-1(%rcx), %rsi
	leaq	(%r15,%r13), %rdi
	addq	$2, %rdi
	leaq	-2(%rcx), %r8
	xorl	%edx, %edx
	movq	16(%rsp), %r11
	movq	8(%rsp), %rbx
	jmp	Lunix_path_BB25_19
	.p2align	4
Lunix_path_BB25_18:
	incq	%rdx
	cmpq	%rdx, %rsi
	je	Lunix_path_BB25_28
Lunix_path_BB25_19:
	movzbl	-1(%rdi,%rdx), %r9d
	cmpl	$47, %r9d
	je	Lunix_path_BB25_18
	cmpl	$46, %r9d
	jne	Lunix_path_BB25_29
	cmpq	%rdx, %r8
	je	Lunix_path_BB25_28
	cmpb	$47, (%rdi,%rdx)
	je	Lunix_path_BB25_18
	jmp	Lunix_path_BB25_29
Lunix_path_BB25_24:
	cmpb	$46, (%rbp)
	movq	16(%rsp), %r11
	movq	8(%rsp), %rbx
	jne	Lunix_path_BB25_33
	cmpb	$46, 1(%rbp)
	jne	Lunix_path_BB25_33
	movl	$2, %eax
	movl	$2, %esi
	cmpq	$2, %rcx
	jne	Lunix_path_BB25_31
	movl	$2, %edx
	jmp	Lunix_path_BB25_59
Lunix_path_BB25_28:
	movq	%rax, %rdx
Lunix_path_BB25_29:
	incq	%rdx
Lunix_path_BB25_30:
	xorl	%esi, %esi
	cmpb	$47, (%rbp)
	setne	%sil
	movl	$1, %eax
	jmp	Lunix_path_BB25_59
Lunix_path_BB25_31:
	cmpb	$47, 2(%rbp)
	jne	Lunix_path_BB25_33
	leaq	-2(%rcx), %rdi
	leaq	(%r15,%r13), %r8
	addq	$3, %r8
	leaq	-3(%rcx), %r9
	xorl	%edx, %edx
	jmp	Lunix_path_BB25_39
Lunix_path_BB25_33:
	cmpq	$15, %rcx
	ja	Lunix_path_BB25_43
Lunix_path_BB25_34:
	xorl	%eax, %eax
	.p2align	4
Lunix_path_BB25_35:
	cmpb	$47, (%rbp,%rax)
	je	Lunix_path_BB25_48
	incq	%rax
	cmpq	%rax, %rcx
	jne	Lunix_path_BB25_35
	movq	%rcx, %rax
	movq	%rcx, %rsi
	subq	%rax, %rsi
	jne	Lunix_path_BB25_49
Lunix_path_BB25_57:
	xorl	%edx, %edx
	jmp	Lunix_path_BB25_58
Lunix_path_BB25_38:
	incq	%rdx
	cmpq	%rdx, %rdi
	je	Lunix_path_BB25_61
Lunix_path_BB25_39:
	movzbl	-1(%r8,%rdx), %r10d
	cmpl	$47, %r10d
	je	Lunix_path_BB25_38
	cmpl	$46, %r10d
	jne	Lunix_path_BB25_62
	cmpq	%rdx, %r9
	je	Lunix_path_BB25_61
	cmpb	$47, (%r8,%rdx)
	je	Lunix_path_BB25_38
	jmp	Lunix_path_BB25_62
Lunix_path_BB25_43:
	movq	%rcx, %rdx
	addq	$-16, %rdx
	je	Lunix_path_BB25_47
	xorl	%esi, %esi
	.p2align	4
Lunix_path_BB25_45:
	movdqu	(%rbp,%rsi), %xmm0
	pcmpeqb	Lunix_path_CPI25_0(%rip), %xmm0
	pmovmskb	%xmm0, %eax
	orl	$65536, %eax
	rep		bsfl	%eax, %eax
	cmpw	$15, %ax
	jbe	Lunix_path_BB25_56
	addq	$16, %rsi
	cmpq	%rdx, %rsi
	jb	Lunix_path_BB25_45
Lunix_path_BB25_47:
	movdqu	(%rbp,%rdx), %xmm0
	pcmpeqb	Lunix_path_CPI25_0(%rip), %xmm0
	pmovmskb	%xmm0, %eax
	orl	$65536, %eax
	rep		bsfl	%eax, %eax
	addq	%rdx, %rax
Lunix_path_BB25_48:
	movq	%rcx, %rsi
	subq	%rax, %rsi
	je	Lunix_path_BB25_57
Lunix_path_BB25_49:
	leaq	(%rax,%r13), %rdx
	leaq	(%r15,%rdx), %rdi
	incq	%rdi
	leaq	-1(%rsi), %r8
	xorl	%edx, %edx
	jmp	Lunix_path_BB25_51
	.p2align	4
Lunix_path_BB25_50:
	incq	%rdx
	cmpq	%rdx, %rsi
	je	Lunix_path_BB25_55
Lunix_path_BB25_51:
	movzbl	-1(%rdi,%rdx), %r9d
	cmpl	$47, %r9d
	je	Lunix_path_BB25_50
	cmpl	$46, %r9d
	jne	Lunix_path_BB25_58
	cmpq	%rdx, %r8
	je	Lunix_path_BB25_55
	cmpb	$47, (%rdi,%rdx)
	je	Lunix_path_BB25_50
	jmp	Lunix_path_BB25_58
Lunix_path_BB25_55:
	movq	%rsi, %rdx
Lunix_path_BB25_58:
	addq	%rax, %rdx
	movl	$3, %esi
Lunix_path_BB25_59:
	addq	%r13, %rcx
	movq	%r13, (%rbx)
	movq	%rax, 8(%rbx)
	movl	%esi, 16(%rbx)
	movl	$0, 20(%rbx)
	addq	%r13, %rdx
	movq	%rdx, (%r11)
	movq	%rcx, 8(%r11)
	movb	$1, %al
Lunix_path_BB25_60:
	addq	$24, %rsp
	popq	%rbx
	popq	%r12
	popq	%r13
	popq	%r14
	popq	%r15
	popq	%rbp
	retq
Lunix_path_BB25_56:
	movzwl	%ax, %eax
	addq	%rsi, %rax
	movq	%rcx, %rsi
	subq	%rax, %rsi
	jne	Lunix_path_BB25_49
	jmp	Lunix_path_BB25_57
Lunix_path_BB25_61:
	movq	%rdi, %rdx
Lunix_path_BB25_62:
	addq	$2, %rdx
	jmp	Lunix_path_BB25_59
	.section	__TEXT,__literal16,16byte_literals
	.p2align	4, 0x0
Lunix_path_CPI26_0:
	.space	16,47
	.section	__TEXT,__text,regular,pure_instructions
	.p2align	4
## unix_path::path::Path::parent_len
_unix_path.path.Path.parent_len:
	pushq	%r15
	pushq	%r14
	pushq	%r12
	pushq	%rbx
	pushq	%rax
	testq	%rsi, %rsi
	je	Lunix_path_BB26_25
	movq	%rsi, %r14
	movq	%rdi, %rbx
	movq	%rsi, %r15
	movq	%r14, %rax
	jmp	Lunix_path_BB26_3
	.p2align	4
Lunix_path_BB26_2:
	movq	%rax, %r15
	testq	%rax, %rax
	je	Lunix_path_BB26_25
Lunix_path_BB26_3:
	decq	%rax
	je	Lunix_path_BB26_9
	movzbl	(%rbx,%rax), %ecx
	cmpl	$47, %ecx
	je	Lunix_path_BB26_7
	cmpl	$46, %ecx
	jne	Lunix_path_BB26_12
	cmpb	$47, -1(%rbx,%rax)
	jne	Lunix_path_BB26_12
Lunix_path_BB26_7:
	movq	%r14, %rcx
	subq	%rax, %rcx
	cmpq	$8, %rcx
	jne	Lunix_path_BB26_2
	movq	%rbx, %rdi
	movq	%rax, %rsi
	callq	_unix_path.filler.trimmed_blocks_len
	jmp	Lunix_path_BB26_2
Lunix_path_BB26_9:
	movl	$1, %r15d
	cmpb	$46, (%rbx)
	jne	Lunix_path_BB26_17
Lunix_path_BB26_10:
	movb	$1, %r14b
Lunix_path_BB26_11:
	xorl	%edx, %edx
	jmp	Lunix_path_BB26_26
Lunix_path_BB26_12:
	cmpb	$46, -1(%rbx,%r15)
	jne	Lunix_path_BB26_17
	cmpb	$46, -2(%rbx,%r15)
	jne	Lunix_path_BB26_17
	movb	$1, %r14b
	cmpq	$2, %r15
	je	Lunix_path_BB26_11
	cmpb	$47, -3(%rbx,%r15)
	jne	Lunix_path_BB26_17
	addq	$-2, %r15
	movq	%r15, %rdx
	movq	%r15, %rax
	jmp	Lunix_path_BB26_28
Lunix_path_BB26_17:
	movq	%r15, %rax
	.p2align	4
Lunix_path_BB26_18:
	cmpq	$15, %rax
	jbe	Lunix_path_BB26_21
	movdqu	-16(%rbx,%rax), %xmm0
	addq	$-16, %rax
	pcmpeqb	Lunix_path_CPI26_0(%rip), %xmm0
	pmovmskb	%xmm0, %ecx
	testl	%ecx, %ecx
	je	Lunix_path_BB26_18
	movzwl	%cx, %ecx
	bsrq	%rcx, %rcx
	xorq	$63, %rcx
	subq	%rcx, %rax
	addq	$64, %rax
	movq	%rax, %r12
	jmp	Lunix_path_BB26_24
Lunix_path_BB26_21:
	incq	%rax
	.p2align	4
Lunix_path_BB26_22:
	cmpq	$1, %rax
	je	Lunix_path_BB26_10
	leaq	-1(%rax), %r12
	cmpb	$47, -2(%rbx,%rax)
	movq	%r12, %rax
	jne	Lunix_path_BB26_22
Lunix_path_BB26_24:
	cmpq	%r15, %r12
	jne	Lunix_path_BB26_34
Lunix_path_BB26_25:
	xorl	%edx, %edx
	xorl	%r14d, %r14d
Lunix_path_BB26_26:
	movl	%r14d, %eax
	addq	$8, %rsp
	popq	%rbx
	popq	%r12
	popq	%r14
	popq	%r15
	retq
Lunix_path_BB26_27:
	movq	%rax, %rdx
	testq	%rax, %rax
	je	Lunix_path_BB26_11
Lunix_path_BB26_28:
	decq	%rax
	je	Lunix_path_BB26_43
	movzbl	(%rbx,%rax), %ecx
	cmpl	$47, %ecx
	je	Lunix_path_BB26_32
	cmpl	$46, %ecx
	jne	Lunix_path_BB26_26
	cmpb	$47, -1(%rbx,%rax)
	jne	Lunix_path_BB26_26
Lunix_path_BB26_32:
	movq	%r15, %rcx
	subq	%rax, %rcx
	cmpq	$8, %rcx
	jne	Lunix_path_BB26_27
	movq	%rbx, %rdi
	movq	%rax, %rsi
	callq	_unix_path.filler.trimmed_blocks_len
	jmp	Lunix_path_BB26_27
Lunix_path_BB26_34:
	movq	%r12, %rdx
	movq	%r12, %rax
	jmp	Lunix_path_BB26_36
	.p2align	4
Lunix_path_BB26_35:
	movq	%rax, %rdx
	testq	%rax, %rax
	je	Lunix_path_BB26_11
Lunix_path_BB26_36:
	movb	$1, %r14b
	decq	%rax
	je	Lunix_path_BB26_43
	movzbl	(%rbx,%rax), %ecx
	cmpl	$47, %ecx
	je	Lunix_path_BB26_40
	cmpl	$46, %ecx
	jne	Lunix_path_BB26_26
	cmpb	$47, -1(%rbx,%rax)
	jne	Lunix_path_BB26_26
Lunix_path_BB26_40:
	movq	%r12, %rcx
	subq	%rax, %rcx
	cmpq	$8, %rcx
	jne	Lunix_path_BB26_35
	movq	%rbx, %rdi
	movq	%rax, %rsi
	callq	_unix_path.filler.trimmed_blocks_len
	jmp	Lunix_path_BB26_35
Lunix_path_BB26_43:
	movl	$1, %edx
	jmp	Lunix_path_BB26_26
	.section	__TEXT,__literal16,16byte_literals
	.p2align	4, 0x0
Lunix_path_CPI27_0:
	.space	16,47
	.section	__TEXT,__text,regular,pure_instructions
	.p2align	4
## unix_path_c::walks::take_last
_unix_path_c.walks.take_last:
	pushq	%rbp
	pushq	%r15
	pushq	%r14
	pushq	%r13
	pushq	%r12
	pushq	%rbx
	subq	$24, %rsp
	movq	%rdx, %rbx
	movq	%rdi, %r12
	movq	(%rdx), %rdi
	movq	8(%rdx), %r14
	cmpq	%r14, %rsi
	setb	%al
	subq	%rdi, %r14
	setb	%sil
	sete	%dl
	orb	%al, %sil
	leaq	(%r12,%rdi), %r15
	leaq	lunix_path__static.0(%rip), %r13
	testb	%sil, %sil
	cmoveq	%r15, %r13
	orb	%dl, %sil
	je	Lunix_path_BB27_2
Lunix_path_BB27_1:
	xorl	%eax, %eax
	jmp	Lunix_path_BB27_47
Lunix_path_BB27_2:
	movq	%rdi, 8(%rsp)
	movq	%rcx, 16(%rsp)
	movq	%r14, %rbp
	movq	%r14, %rax
	jmp	Lunix_path_BB27_4
	.p2align	4
Lunix_path_BB27_3:
	movq	%rax, %rbp
	testq	%rax, %rax
	je	Lunix_path_BB27_1
Lunix_path_BB27_4:
	decq	%rax
	je	Lunix_path_BB27_10
	movzbl	(%r13,%rax), %ecx
	cmpl	$47, %ecx
	je	Lunix_path_BB27_8
	cmpl	$46, %ecx
	jne	Lunix_path_BB27_12
	cmpb	$47, -1(%r13,%rax)
	jne	Lunix_path_BB27_12
Lunix_path_BB27_8:
	movq	%r14, %rcx
	subq	%rax, %rcx
	cmpq	$8, %rcx
	jne	Lunix_path_BB27_3
	movq	%r13, %rdi
	movq	%rax, %rsi
	callq	_unix_path.filler.trimmed_blocks_len
	jmp	Lunix_path_BB27_3
Lunix_path_BB27_10:
	cmpb	$46, (%r15)
	jne	Lunix_path_BB27_19
	movl	$1, %ebp
	movl	$1, %r13d
	xorl	%ecx, %ecx
	movl	$1, %r12d
	jmp	Lunix_path_BB27_46
Lunix_path_BB27_12:
	cmpb	$46, -1(%r15,%rbp)
	jne	Lunix_path_BB27_19
	cmpb	$46, -2(%r15,%rbp)
	jne	Lunix_path_BB27_19
	movl	$2, %r13d
	cmpq	$2, %rbp
	jne	Lunix_path_BB27_17
	xorl	%ecx, %ecx
	movl	$2, %ebp
	movl	$2, %r12d
	jmp	Lunix_path_BB27_46
Lunix_path_BB27_17:
	cmpb	$47, -3(%r15,%rbp)
	jne	Lunix_path_BB27_19
	leaq	-2(%rbp), %r14
	movq	%r14, %rcx
	movq	%r14, %rax
	movl	$2, %r12d
	jmp	Lunix_path_BB27_30
Lunix_path_BB27_19:
	movq	8(%rsp), %rax
	leaq	(%rax,%r12), %rcx
	addq	$-16, %rcx
	movq	%rbp, %rax
	.p2align	4
Lunix_path_BB27_20:
	cmpq	$15, %rax
	jbe	Lunix_path_BB27_23
	movdqu	(%rcx,%rax), %xmm0
	addq	$-16, %rax
	pcmpeqb	Lunix_path_CPI27_0(%rip), %xmm0
	pmovmskb	%xmm0, %edx
	testl	%edx, %edx
	je	Lunix_path_BB27_20
	movzwl	%dx, %ecx
	bsrq	%rcx, %rcx
	xorq	$63, %rcx
	subq	%rcx, %rax
	addq	$64, %rax
	movq	%rax, %r14
	jmp	Lunix_path_BB27_26
Lunix_path_BB27_23:
	incq	%rax
	.p2align	4
Lunix_path_BB27_24:
	cmpq	$1, %rax
	je	Lunix_path_BB27_44
	leaq	-1(%rax), %r14
	cmpb	$47, -2(%r15,%rax)
	movq	%r14, %rax
	jne	Lunix_path_BB27_24
Lunix_path_BB27_26:
	movq	%rbp, %r12
	subq	%r14, %r12
	jne	Lunix_path_BB27_36
	movl	$1, %r12d
	xorl	%r13d, %r13d
Lunix_path_BB27_28:
	xorl	%ecx, %ecx
	jmp	Lunix_path_BB27_46
Lunix_path_BB27_29:
	movq	%rax, %rcx
	testq	%rax, %rax
	je	Lunix_path_BB27_28
Lunix_path_BB27_30:
	decq	%rax
	je	Lunix_path_BB27_45
	movzbl	(%r15,%rax), %edx
	cmpl	$47, %edx
	je	Lunix_path_BB27_34
	cmpl	$46, %edx
	jne	Lunix_path_BB27_46
	cmpb	$47, -1(%r15,%rax)
	jne	Lunix_path_BB27_46
Lunix_path_BB27_34:
	movq	%r14, %rcx
	subq	%rax, %rcx
	cmpq	$8, %rcx
	jne	Lunix_path_BB27_29
	movq	%r15, %rdi
	movq	%rax, %rsi
	callq	_unix_path.filler.trimmed_blocks_len
	jmp	Lunix_path_BB27_29
Lunix_path_BB27_36:
	movq	%r14, %rcx
	movq	%r14, %rax
	jmp	Lunix_path_BB27_38
	.p2align	4
Lunix_path_BB27_37:
	movq	%rax, %rcx
	testq	%rax, %rax
	je	Lunix_path_BB27_28
Lunix_path_BB27_38:
	movl	$3, %r13d
	decq	%rax
	je	Lunix_path_BB27_45
	movzbl	(%r15,%rax), %edx
	cmpl	$47, %edx
	je	Lunix_path_BB27_42
	cmpl	$46, %edx
	jne	Lunix_path_BB27_46
	cmpb	$47, -1(%r15,%rax)
	jne	Lunix_path_BB27_46
Lunix_path_BB27_42:
	movq	%r14, %rcx
	subq	%rax, %rcx
	cmpq	$8, %rcx
	jne	Lunix_path_BB27_37
	movq	%r15, %rdi
	movq	%rax, %rsi
	callq	_unix_path.filler.trimmed_blocks_len
	jmp	Lunix_path_BB27_37
Lunix_path_BB27_44:
	movl	$3, %r13d
	xorl	%ecx, %ecx
	movq	%rbp, %r12
	jmp	Lunix_path_BB27_46
Lunix_path_BB27_45:
	movl	$1, %ecx
Lunix_path_BB27_46:
	addq	8(%rsp), %rbp
	subq	%r12, %rbp
	movq	16(%rsp), %rax
	movq	%rbp, (%rax)
	movq	%r12, 8(%rax)
	movl	%r13d, 16(%rax)
	movl	$0, 20(%rax)
	addq	(%rbx), %rcx
	movq	%rcx, 8(%rbx)
	movb	$1, %al
Lunix_path_BB27_47:
	addq	$24, %rsp
	popq	%rbx
	popq	%r12
	popq	%r13
	popq	%r14
	popq	%r15
	popq	%rbp
	retq
	.p2align	4
## unix_bytes::lossy::Utf8LossyChunksIterIterator::next
_unix_bytes.lossy.Utf8LossyChunksIterIterator.next:
	pushq	%r15
	pushq	%r14
	pushq	%r12
	pushq	%rbx
	pushq	%rax
	movq	%rdi, %rbx
	movq	8(%rsi), %r15
	testq	%r15, %r15
	je	Lunix_path_BB28_3
	movq	%rsi, %r14
	movq	(%rsi), %r12
	cmpq	$15, %r15
	ja	Lunix_path_BB28_4
Lunix_path_BB28_2:
	movq	%r12, %rdi
	movq	%r15, %rsi
	xorl	%edx, %edx
	callq	_unix_bytes.utf8.scans.scan_by_sequence
	jmp	Lunix_path_BB28_13
Lunix_path_BB28_3:
	pxor	%xmm0, %xmm0
	movdqu	%xmm0, 16(%rbx)
	movdqu	%xmm0, (%rbx)
	movq	$0, 32(%rbx)
	jmp	Lunix_path_BB28_14
Lunix_path_BB28_4:
	movdqu	(%r12), %xmm0
	pmovmskb	%xmm0, %eax
	testl	%eax, %eax
	je	Lunix_path_BB28_10
	orl	$65536, %eax
	rep		bsfl	%eax, %eax
	movq	%r15, %rcx
	subq	%rax, %rcx
	movzbl	(%r12,%rax), %edx
	addb	$62, %dl
	cmpb	$51, %dl
	setb	%dl
	cmpq	$2, %rcx
	setae	%sil
	andb	%dl, %sil
	cmpb	$1, %sil
	jne	Lunix_path_BB28_9
	cmpb	$-65, 1(%r12,%rax)
	jg	Lunix_path_BB28_9
	movq	%r12, %rdi
	movq	%r15, %rsi
	movq	%rax, %rdx
	cmpq	$31, %rcx
	ja	Lunix_path_BB28_12
	callq	_unix_bytes.utf8.scans.scan_by_sequence
	jmp	Lunix_path_BB28_13
Lunix_path_BB28_9:
	movl	$1, %edx
	jmp	Lunix_path_BB28_13
Lunix_path_BB28_10:
	cmpq	$31, %r15
	jbe	Lunix_path_BB28_2
	movq	%r12, %rdi
	movq	%r15, %rsi
	xorl	%edx, %edx
Lunix_path_BB28_12:
	callq	_unix_bytes.utf8.scans.scan_by_window
Lunix_path_BB28_13:
	leaq	(%r12,%rax), %rcx
	leaq	(%rcx,%rdx), %rsi
	subq	%rax, %r15
	subq	%rdx, %r15
	movq	%rsi, (%r14)
	movq	%r15, 8(%r14)
	movq	$1, (%rbx)
	movq	%r12, 8(%rbx)
	movq	%rax, 16(%rbx)
	movq	%rcx, 24(%rbx)
	movq	%rdx, 32(%rbx)
Lunix_path_BB28_14:
	addq	$8, %rsp
	popq	%rbx
	popq	%r12
	popq	%r14
	popq	%r15
	retq
	.section	__TEXT,__literal16,16byte_literals
	.p2align	4, 0x0
Lunix_path_CPI29_0:
	.space	16,208
Lunix_path_CPI29_1:
	.space	16,47
Lunix_path_CPI29_2:
	.space	16,46
Lunix_path_CPI29_3:
	.byte	254
	.byte	254
	.byte	254
	.byte	254
	.byte	254
	.byte	254
	.byte	254
	.byte	254
	.space	1
	.space	1
	.space	1
	.space	1
	.space	1
	.space	1
	.space	1
	.space	1
Lunix_path_CPI29_4:
	.byte	46
	.byte	46
	.byte	46
	.byte	46
	.byte	46
	.byte	46
	.byte	46
	.byte	46
	.space	1
	.space	1
	.space	1
	.space	1
	.space	1
	.space	1
	.space	1
	.space	1
Lunix_path_CPI29_5:
	.byte	47
	.byte	47
	.byte	47
	.byte	47
	.byte	47
	.byte	47
	.byte	47
	.byte	47
	.space	1
	.space	1
	.space	1
	.space	1
	.space	1
	.space	1
	.space	1
	.space	1
	.section	__TEXT,__text,regular,pure_instructions
	.p2align	4
## path_within::outlined::is_names_only
_path_within.outlined.is_names_only:
	testq	%rsi, %rsi
	je	Lunix_path_BB29_3
	xorl	%edx, %edx
	cmpb	$47, (%rdi)
	sete	%dl
	movq	%rsi, %rcx
	subq	%rdx, %rcx
	je	Lunix_path_BB29_3
	leaq	(%rdi,%rdx), %r8
	movzbl	(%r8), %eax
	cmpl	$47, %eax
	je	Lunix_path_BB29_3
	cmpl	$46, %eax
	jne	Lunix_path_BB29_16
	cmpq	$2, %rcx
	jb	Lunix_path_BB29_3
	movzbl	1(%r8), %eax
	cmpl	$47, %eax
	je	Lunix_path_BB29_3
	cmpl	$46, %eax
	jne	Lunix_path_BB29_16
	cmpq	$2, %rcx
	je	Lunix_path_BB29_3
	cmpb	$47, 2(%r8)
	je	Lunix_path_BB29_3
Lunix_path_BB29_16:
	movzbl	-1(%rdi,%rsi), %eax
	andb	$-2, %al
	cmpb	$46, %al
	jne	Lunix_path_BB29_18
Lunix_path_BB29_3:
	xorl	%eax, %eax
	retq
Lunix_path_BB29_18:
	cmpq	$17, %rcx
	jae	Lunix_path_BB29_21
Lunix_path_BB29_19:
	cmpq	$9, %rcx
	jae	Lunix_path_BB29_29
	xorl	%eax, %eax
	jmp	Lunix_path_BB29_46
Lunix_path_BB29_21:
	cmpq	$32, %rcx
	ja	Lunix_path_BB29_31
	movdqu	(%r8), %xmm0
	movdqu	1(%r8), %xmm1
	pand	Lunix_path_CPI29_0(%rip), %xmm1
	por	%xmm0, %xmm1
	pcmpeqb	Lunix_path_CPI29_1(%rip), %xmm1
	pmovmskb	%xmm1, %eax
	testl	%eax, %eax
	jne	Lunix_path_BB29_24
	movdqu	-17(%rdi,%rsi), %xmm0
	movdqu	-16(%rdi,%rsi), %xmm1
	pand	Lunix_path_CPI29_0(%rip), %xmm1
	por	%xmm0, %xmm1
	pcmpeqb	Lunix_path_CPI29_1(%rip), %xmm1
	pmovmskb	%xmm1, %eax
	testl	%eax, %eax
	je	Lunix_path_BB29_61
Lunix_path_BB29_24:
	cmpq	$18, %rcx
	jbe	Lunix_path_BB29_19
	movq	%rcx, %rsi
	addq	$-19, %rsi
	jne	Lunix_path_BB29_33
	xorl	%esi, %esi
	xorl	%eax, %eax
Lunix_path_BB29_27:
	leaq	-17(%rcx), %r9
	cmpq	%rax, %r9
	cmovbq	%r9, %rax
	movdqu	(%r8,%rax), %xmm0
	movdqu	1(%r8,%rax), %xmm1
	pand	Lunix_path_CPI29_0(%rip), %xmm1
	por	%xmm0, %xmm1
	pcmpeqb	Lunix_path_CPI29_1(%rip), %xmm1
	pmovmskb	%xmm1, %r9d
	testl	%r9d, %r9d
	je	Lunix_path_BB29_45
	movdqu	(%r8,%rsi), %xmm0
	movdqu	1(%r8,%rsi), %xmm1
	movdqu	2(%r8,%rsi), %xmm2
	movdqu	3(%r8,%rsi), %xmm3
	movdqa	Lunix_path_CPI29_2(%rip), %xmm4
	movdqa	%xmm2, %xmm5
	pcmpeqb	%xmm4, %xmm5
	movdqa	Lunix_path_CPI29_1(%rip), %xmm6
	pcmpeqb	%xmm6, %xmm3
	pand	%xmm5, %xmm3
	pcmpeqb	%xmm1, %xmm4
	pcmpeqb	%xmm6, %xmm2
	por	%xmm3, %xmm2
	pand	%xmm4, %xmm2
	pcmpeqb	%xmm6, %xmm0
	pcmpeqb	%xmm6, %xmm1
	por	%xmm2, %xmm1
	pand	%xmm0, %xmm1
	pmovmskb	%xmm1, %eax
	orl	$65536, %eax
	rep		bsfl	%eax, %eax
	jmp	Lunix_path_BB29_40
Lunix_path_BB29_29:
	movq	1(%r8), %xmm0
	pand	Lunix_path_CPI29_3(%rip), %xmm0
	pcmpeqb	Lunix_path_CPI29_4(%rip), %xmm0
	movq	(%r8), %xmm1
	pcmpeqb	Lunix_path_CPI29_5(%rip), %xmm1
	pand	%xmm0, %xmm1
	pmovmskb	%xmm1, %eax
	orl	$256, %eax
	rep		bsfl	%eax, %eax
	cmpb	$8, %al
	jb	Lunix_path_BB29_46
	cmpq	$17, %rcx
	movl	$17, %eax
	cmovbq	%rcx, %rax
	movq	-8(%r8,%rax), %xmm0
	pand	Lunix_path_CPI29_3(%rip), %xmm0
	pcmpeqb	Lunix_path_CPI29_4(%rip), %xmm0
	movq	-9(%r8,%rax), %xmm1
	pcmpeqb	Lunix_path_CPI29_5(%rip), %xmm1
	pand	%xmm0, %xmm1
	pmovmskb	%xmm1, %esi
	orl	$256, %esi
	rep		bsfl	%esi, %esi
	addq	%rsi, %rax
	addq	$-9, %rax
	jmp	Lunix_path_BB29_46
Lunix_path_BB29_31:
	movdqu	-33(%r8,%rcx), %xmm1
	movdqu	-32(%r8,%rcx), %xmm2
	movdqa	Lunix_path_CPI29_0(%rip), %xmm0
	pand	%xmm0, %xmm2
	por	%xmm1, %xmm2
	movdqa	Lunix_path_CPI29_1(%rip), %xmm1
	pcmpeqb	%xmm1, %xmm2
	movdqu	-17(%rdi,%rsi), %xmm3
	movdqu	-16(%rdi,%rsi), %xmm4
	pand	%xmm0, %xmm4
	por	%xmm3, %xmm4
	pcmpeqb	%xmm1, %xmm4
	por	%xmm2, %xmm4
	pmovmskb	%xmm4, %eax
	testl	%eax, %eax
	je	Lunix_path_BB29_41
	leaq	-19(%rcx), %rsi
Lunix_path_BB29_33:
	xorl	%eax, %eax
	jmp	Lunix_path_BB29_37
	.p2align	4
Lunix_path_BB29_34:
	movdqu	2(%r8,%rax), %xmm2
	movdqu	3(%r8,%rax), %xmm3
	movdqa	Lunix_path_CPI29_2(%rip), %xmm4
	movdqa	%xmm2, %xmm5
	pcmpeqb	%xmm4, %xmm5
	movdqa	Lunix_path_CPI29_1(%rip), %xmm6
	pcmpeqb	%xmm6, %xmm3
	pand	%xmm5, %xmm3
	pcmpeqb	%xmm1, %xmm4
	pcmpeqb	%xmm6, %xmm2
	por	%xmm3, %xmm2
	pand	%xmm4, %xmm2
	pcmpeqb	%xmm6, %xmm0
	pcmpeqb	%xmm6, %xmm1
	por	%xmm2, %xmm1
	pand	%xmm0, %xmm1
	pmovmskb	%xmm1, %r9d
	orl	$65536, %r9d
	rep		bsfl	%r9d, %r9d
	cmpw	$15, %r9w
	jbe	Lunix_path_BB29_39
	addq	$16, %rax
Lunix_path_BB29_36:
	cmpq	%rsi, %rax
	jae	Lunix_path_BB29_27
Lunix_path_BB29_37:
	movdqu	(%r8,%rax), %xmm0
	movdqu	1(%r8,%rax), %xmm1
	movdqa	Lunix_path_CPI29_0(%rip), %xmm2
	pand	%xmm1, %xmm2
	por	%xmm0, %xmm2
	pcmpeqb	Lunix_path_CPI29_1(%rip), %xmm2
	pmovmskb	%xmm2, %r9d
	testl	%r9d, %r9d
	jne	Lunix_path_BB29_34
	addq	$16, %rax
	cmpq	%rsi, %rax
	jb	Lunix_path_BB29_37
	jmp	Lunix_path_BB29_36
Lunix_path_BB29_39:
	movzwl	%r9w, %esi
Lunix_path_BB29_40:
	addq	%rsi, %rax
	jmp	Lunix_path_BB29_46
Lunix_path_BB29_41:
	movq	%rcx, %rsi
	movb	$1, %al
	addq	$-33, %rsi
	je	Lunix_path_BB29_60
	leaq	(%rdx,%rdi), %r9
	addq	$17, %r9
	xorl	%r10d, %r10d
Lunix_path_BB29_43:
	movdqu	-17(%r9,%r10), %xmm2
	movdqu	-16(%r9,%r10), %xmm3
	movdqu	-1(%r9,%r10), %xmm4
	movdqu	(%r9,%r10), %xmm5
	pand	%xmm0, %xmm3
	por	%xmm2, %xmm3
	pcmpeqb	%xmm1, %xmm3
	pand	%xmm0, %xmm5
	por	%xmm4, %xmm5
	pcmpeqb	%xmm1, %xmm5
	por	%xmm3, %xmm5
	pmovmskb	%xmm5, %r11d
	testl	%r11d, %r11d
	jne	Lunix_path_BB29_24
	addq	$32, %r10
	cmpq	%rsi, %r10
	jb	Lunix_path_BB29_43
	jmp	Lunix_path_BB29_60
Lunix_path_BB29_45:
	addq	$16, %rax
Lunix_path_BB29_46:
	cmpq	%rcx, %rax
	jae	Lunix_path_BB29_57
	leaq	(%rdx,%rdi), %rsi
	addq	$3, %rsi
	jmp	Lunix_path_BB29_50
Lunix_path_BB29_48:
	cmpl	$47, %edi
	je	Lunix_path_BB29_59
Lunix_path_BB29_49:
	cmpq	%rcx, %rax
	jae	Lunix_path_BB29_58
Lunix_path_BB29_50:
	movq	%rax, %rdx
	incq	%rax
	cmpb	$47, -3(%rsi,%rdx)
	jne	Lunix_path_BB29_49
	cmpq	%rax, %rcx
	jbe	Lunix_path_BB29_59
	movzbl	-2(%rsi,%rdx), %edi
	cmpl	$46, %edi
	jne	Lunix_path_BB29_48
	leaq	2(%rdx), %rdi
	cmpq	%rdi, %rcx
	jbe	Lunix_path_BB29_59
	movzbl	-1(%rsi,%rdx), %edi
	cmpl	$46, %edi
	jne	Lunix_path_BB29_48
	leaq	3(%rdx), %rdi
	cmpq	%rdi, %rcx
	jbe	Lunix_path_BB29_59
	cmpb	$47, (%rsi,%rdx)
	jne	Lunix_path_BB29_49
	jmp	Lunix_path_BB29_59
Lunix_path_BB29_57:
	movq	%rax, %rdx
	jmp	Lunix_path_BB29_59
Lunix_path_BB29_58:
	movq	%rcx, %rdx
Lunix_path_BB29_59:
	cmpq	%rcx, %rdx
	sete	%al
Lunix_path_BB29_60:
	retq
Lunix_path_BB29_61:
	movb	$1, %al
	retq
	.section	__TEXT,__literal16,16byte_literals
	.p2align	4, 0x0
Lunix_path_CPI30_0:
	.space	16,208
Lunix_path_CPI30_1:
	.space	16,47
Lunix_path_CPI30_2:
	.space	16,46
Lunix_path_CPI30_3:
	.byte	254
	.byte	254
	.byte	254
	.byte	254
	.byte	254
	.byte	254
	.byte	254
	.byte	254
	.space	1
	.space	1
	.space	1
	.space	1
	.space	1
	.space	1
	.space	1
	.space	1
Lunix_path_CPI30_4:
	.byte	46
	.byte	46
	.byte	46
	.byte	46
	.byte	46
	.byte	46
	.byte	46
	.byte	46
	.space	1
	.space	1
	.space	1
	.space	1
	.space	1
	.space	1
	.space	1
	.space	1
Lunix_path_CPI30_5:
	.byte	47
	.byte	47
	.byte	47
	.byte	47
	.byte	47
	.byte	47
	.byte	47
	.byte	47
	.space	1
	.space	1
	.space	1
	.space	1
	.space	1
	.space	1
	.space	1
	.space	1
	.section	__TEXT,__text,regular,pure_instructions
	.p2align	4
## path_within::write::Layout::resolve_names
_path_within.write.Layout.resolve_names:
	pushq	%rbp
	pushq	%r15
	pushq	%r14
	pushq	%r12
	pushq	%rbx
	subq	$32, %rsp
	movq	%rdx, %r14
	movq	%rsi, %r15
	movq	%rdi, %rbx
	pxor	%xmm0, %xmm0
	movdqa	%xmm0, (%rsp)
	movq	$0, 16(%rsp)
	testq	%rdx, %rdx
	je	Lunix_path_BB30_11
	movzbl	-1(%r15,%r14), %eax
	andb	$-2, %al
	movq	%r14, %r12
	cmpb	$46, %al
	jne	Lunix_path_BB30_12
	movq	%r14, %r12
	movq	%r14, %rax
	jmp	Lunix_path_BB30_3
	.p2align	4
Lunix_path_BB30_10:
	movq	%rax, %r12
	testq	%rax, %rax
	je	Lunix_path_BB30_11
Lunix_path_BB30_3:
	decq	%rax
	je	Lunix_path_BB30_4
	movzbl	(%r15,%rax), %ecx
	cmpl	$47, %ecx
	je	Lunix_path_BB30_8
	cmpl	$46, %ecx
	jne	Lunix_path_BB30_12
	cmpb	$47, -1(%r15,%rax)
	jne	Lunix_path_BB30_12
Lunix_path_BB30_8:
	movq	%r14, %rcx
	subq	%rax, %rcx
	cmpq	$8, %rcx
	jne	Lunix_path_BB30_10
	movq	%r15, %rdi
	movq	%rax, %rsi
	callq	_unix_path.filler.trimmed_blocks_len
	jmp	Lunix_path_BB30_10
Lunix_path_BB30_11:
	xorl	%r12d, %r12d
Lunix_path_BB30_12:
	xorl	%edx, %edx
	jmp	Lunix_path_BB30_13
	.p2align	4
Lunix_path_BB30_18:
	addq	%rax, %rdx
	cmpq	$4, %rdx
	jae	Lunix_path_BB30_19
Lunix_path_BB30_13:
	movq	%rdx, %rax
	cmpq	%r12, %rdx
	jae	Lunix_path_BB30_20
	movzbl	(%r15,%rax), %ecx
	movl	$1, %edx
	cmpl	$47, %ecx
	je	Lunix_path_BB30_18
	cmpl	$46, %ecx
	jne	Lunix_path_BB30_20
	leaq	1(%rax), %rcx
	cmpq	%r12, %rcx
	je	Lunix_path_BB30_18
	movl	$2, %edx
	cmpb	$47, (%r15,%rcx)
	je	Lunix_path_BB30_18
Lunix_path_BB30_20:
	movq	%r12, %rcx
	subq	%rax, %rcx
	je	Lunix_path_BB30_72
Lunix_path_BB30_21:
	leaq	(%r15,%rax), %rdx
	xorl	%edi, %edi
	cmpb	$47, (%rdx)
	sete	%dil
	movq	%rcx, %rsi
	subq	%rdi, %rsi
	je	Lunix_path_BB30_72
	leaq	(%rdx,%rdi), %r8
	movzbl	(%r8), %r9d
	cmpl	$47, %r9d
	je	Lunix_path_BB30_72
	cmpl	$46, %r9d
	jne	Lunix_path_BB30_29
	cmpq	$2, %rsi
	jb	Lunix_path_BB30_72
	movzbl	1(%r8), %r9d
	cmpl	$47, %r9d
	je	Lunix_path_BB30_72
	cmpl	$46, %r9d
	jne	Lunix_path_BB30_29
	cmpq	$2, %rsi
	je	Lunix_path_BB30_72
	cmpb	$47, 2(%r8)
	je	Lunix_path_BB30_72
Lunix_path_BB30_29:
	movzbl	-1(%r15,%r12), %r9d
	andb	$-2, %r9b
	cmpb	$46, %r9b
	je	Lunix_path_BB30_72
	cmpq	$17, %rsi
	jae	Lunix_path_BB30_31
Lunix_path_BB30_44:
	cmpq	$9, %rsi
	jae	Lunix_path_BB30_46
	xorl	%r9d, %r9d
	jmp	Lunix_path_BB30_57
Lunix_path_BB30_4:
	movl	$1, %r12d
	jmp	Lunix_path_BB30_12
Lunix_path_BB30_19:
	movq	%r15, %rdi
	movq	%r12, %rsi
	callq	_unix_path.filler.filler_end_from
	movq	%r12, %rcx
	subq	%rax, %rcx
	jne	Lunix_path_BB30_21
	jmp	Lunix_path_BB30_72
Lunix_path_BB30_31:
	cmpq	$32, %rsi
	ja	Lunix_path_BB30_34
	movdqu	(%r8), %xmm0
	movdqu	1(%r8), %xmm1
	pand	Lunix_path_CPI30_0(%rip), %xmm1
	por	%xmm0, %xmm1
	pcmpeqb	Lunix_path_CPI30_1(%rip), %xmm1
	pmovmskb	%xmm1, %r9d
	testl	%r9d, %r9d
	jne	Lunix_path_BB30_43
	movdqu	-17(%r15,%r12), %xmm0
	movdqu	-16(%r15,%r12), %xmm1
	pand	Lunix_path_CPI30_0(%rip), %xmm1
	por	%xmm0, %xmm1
	pcmpeqb	Lunix_path_CPI30_1(%rip), %xmm1
	pmovmskb	%xmm1, %r9d
	testl	%r9d, %r9d
	je	Lunix_path_BB30_71
Lunix_path_BB30_43:
	cmpq	$18, %rsi
	jbe	Lunix_path_BB30_44
	movq	%rsi, %r10
	addq	$-19, %r10
	jne	Lunix_path_BB30_36
	xorl	%r10d, %r10d
	xorl	%r9d, %r9d
Lunix_path_BB30_54:
	leaq	-17(%rsi), %r11
	cmpq	%r9, %r11
	cmovbq	%r11, %r9
	movdqu	(%r8,%r9), %xmm0
	movdqu	1(%r8,%r9), %xmm1
	pand	Lunix_path_CPI30_0(%rip), %xmm1
	por	%xmm0, %xmm1
	pcmpeqb	Lunix_path_CPI30_1(%rip), %xmm1
	pmovmskb	%xmm1, %r11d
	testl	%r11d, %r11d
	je	Lunix_path_BB30_55
	movdqu	(%r8,%r10), %xmm0
	movdqu	1(%r8,%r10), %xmm1
	movdqu	2(%r8,%r10), %xmm2
	movdqu	3(%r8,%r10), %xmm3
	movdqa	Lunix_path_CPI30_2(%rip), %xmm4
	movdqa	%xmm2, %xmm5
	pcmpeqb	%xmm4, %xmm5
	movdqa	Lunix_path_CPI30_1(%rip), %xmm6
	pcmpeqb	%xmm6, %xmm3
	pand	%xmm5, %xmm3
	pcmpeqb	%xmm1, %xmm4
	pcmpeqb	%xmm6, %xmm2
	por	%xmm3, %xmm2
	pand	%xmm4, %xmm2
	pcmpeqb	%xmm6, %xmm0
	pcmpeqb	%xmm6, %xmm1
	por	%xmm2, %xmm1
	pand	%xmm0, %xmm1
	pmovmskb	%xmm1, %r8d
	orl	$65536, %r8d
	rep		bsfl	%r8d, %r9d
	addq	%r10, %r9
	jmp	Lunix_path_BB30_57
Lunix_path_BB30_46:
	movq	1(%r8), %xmm0
	pand	Lunix_path_CPI30_3(%rip), %xmm0
	pcmpeqb	Lunix_path_CPI30_4(%rip), %xmm0
	movq	(%r8), %xmm1
	pcmpeqb	Lunix_path_CPI30_5(%rip), %xmm1
	pand	%xmm0, %xmm1
	pmovmskb	%xmm1, %r9d
	orl	$256, %r9d
	rep		bsfl	%r9d, %r9d
	cmpb	$8, %r9b
	jb	Lunix_path_BB30_57
	cmpq	$17, %rsi
	movl	$17, %r9d
	cmovbq	%rsi, %r9
	movq	-8(%r8,%r9), %xmm0
	pand	Lunix_path_CPI30_3(%rip), %xmm0
	pcmpeqb	Lunix_path_CPI30_4(%rip), %xmm0
	movq	-9(%r8,%r9), %xmm1
	pcmpeqb	Lunix_path_CPI30_5(%rip), %xmm1
	pand	%xmm0, %xmm1
	pmovmskb	%xmm1, %r8d
	orl	$256, %r8d
	rep		bsfl	%r8d, %r8d
	addq	%r8, %r9
	addq	$-9, %r9
	jmp	Lunix_path_BB30_57
Lunix_path_BB30_34:
	movdqu	-33(%r8,%rsi), %xmm1
	movdqu	-32(%r8,%rsi), %xmm2
	movdqa	Lunix_path_CPI30_0(%rip), %xmm0
	pand	%xmm0, %xmm2
	por	%xmm1, %xmm2
	movdqa	Lunix_path_CPI30_1(%rip), %xmm1
	pcmpeqb	%xmm1, %xmm2
	movdqu	-17(%r15,%r12), %xmm3
	movdqu	-16(%r15,%r12), %xmm4
	pand	%xmm0, %xmm4
	por	%xmm3, %xmm4
	pcmpeqb	%xmm1, %xmm4
	por	%xmm2, %xmm4
	pmovmskb	%xmm4, %r9d
	testl	%r9d, %r9d
	je	Lunix_path_BB30_39
	leaq	-19(%rsi), %r10
Lunix_path_BB30_36:
	xorl	%r9d, %r9d
	jmp	Lunix_path_BB30_37
	.p2align	4
Lunix_path_BB30_50:
	movdqu	2(%r8,%r9), %xmm2
	movdqu	3(%r8,%r9), %xmm3
	movdqa	Lunix_path_CPI30_2(%rip), %xmm4
	movdqa	%xmm2, %xmm5
	pcmpeqb	%xmm4, %xmm5
	movdqa	Lunix_path_CPI30_1(%rip), %xmm6
	pcmpeqb	%xmm6, %xmm3
	pand	%xmm5, %xmm3
	pcmpeqb	%xmm1, %xmm4
	pcmpeqb	%xmm6, %xmm2
	por	%xmm3, %xmm2
	pand	%xmm4, %xmm2
	pcmpeqb	%xmm6, %xmm0
	pcmpeqb	%xmm6, %xmm1
	por	%xmm2, %xmm1
	pand	%xmm0, %xmm1
	pmovmskb	%xmm1, %r11d
	orl	$65536, %r11d
	rep		bsfl	%r11d, %r11d
	cmpw	$15, %r11w
	jbe	Lunix_path_BB30_51
	addq	$16, %r9
Lunix_path_BB30_53:
	cmpq	%r10, %r9
	jae	Lunix_path_BB30_54
Lunix_path_BB30_37:
	movdqu	(%r8,%r9), %xmm0
	movdqu	1(%r8,%r9), %xmm1
	movdqa	Lunix_path_CPI30_0(%rip), %xmm2
	pand	%xmm1, %xmm2
	por	%xmm0, %xmm2
	pcmpeqb	Lunix_path_CPI30_1(%rip), %xmm2
	pmovmskb	%xmm2, %r11d
	testl	%r11d, %r11d
	jne	Lunix_path_BB30_50
	addq	$16, %r9
	cmpq	%r10, %r9
	jb	Lunix_path_BB30_37
	jmp	Lunix_path_BB30_53
Lunix_path_BB30_51:
	movzwl	%r11w, %r8d
	addq	%r8, %r9
	jmp	Lunix_path_BB30_57
Lunix_path_BB30_39:
	movq	%rsi, %r9
	addq	$-33, %r9
	je	Lunix_path_BB30_71
	leaq	(%rax,%rdi), %r10
	addq	%r15, %r10
	addq	$17, %r10
	xorl	%r11d, %r11d
Lunix_path_BB30_42:
	movdqu	-17(%r10,%r11), %xmm2
	movdqu	-16(%r10,%r11), %xmm3
	movdqu	-1(%r10,%r11), %xmm4
	movdqu	(%r10,%r11), %xmm5
	pand	%xmm0, %xmm3
	por	%xmm2, %xmm3
	pcmpeqb	%xmm1, %xmm3
	pand	%xmm0, %xmm5
	por	%xmm4, %xmm5
	pcmpeqb	%xmm1, %xmm5
	por	%xmm3, %xmm5
	pmovmskb	%xmm5, %ebp
	testl	%ebp, %ebp
	jne	Lunix_path_BB30_43
	addq	$32, %r11
	cmpq	%r9, %r11
	jb	Lunix_path_BB30_42
	jmp	Lunix_path_BB30_71
Lunix_path_BB30_55:
	addq	$16, %r9
Lunix_path_BB30_57:
	cmpq	%rsi, %r9
	jae	Lunix_path_BB30_58
	addq	%rdi, %rax
	subq	%rax, %r12
	leaq	(%r15,%rax), %rdi
	addq	$3, %rdi
	jmp	Lunix_path_BB30_60
Lunix_path_BB30_63:
	cmpl	$47, %r8d
	je	Lunix_path_BB30_70
Lunix_path_BB30_68:
	cmpq	%rsi, %r9
	jae	Lunix_path_BB30_69
Lunix_path_BB30_60:
	movq	%r9, %rax
	incq	%r9
	cmpb	$47, -3(%rdi,%rax)
	jne	Lunix_path_BB30_68
	cmpq	%r9, %rsi
	jbe	Lunix_path_BB30_70
	movzbl	-2(%rdi,%rax), %r8d
	cmpl	$46, %r8d
	jne	Lunix_path_BB30_63
	leaq	2(%rax), %r8
	cmpq	%r8, %rsi
	jbe	Lunix_path_BB30_70
	movzbl	-1(%rdi,%rax), %r8d
	cmpl	$46, %r8d
	jne	Lunix_path_BB30_63
	leaq	3(%rax), %r8
	cmpq	%r8, %rsi
	jbe	Lunix_path_BB30_70
	cmpb	$47, (%rdi,%rax)
	jne	Lunix_path_BB30_68
	jmp	Lunix_path_BB30_70
Lunix_path_BB30_58:
	movq	%r9, %rax
Lunix_path_BB30_70:
	cmpq	%rsi, %rax
	jne	Lunix_path_BB30_72
Lunix_path_BB30_71:
	leaq	1(%rcx), %rax
	movl	$1, %esi
	movq	$-1, %rdi
	movq	%rdx, %r15
	movq	%rcx, %r14
	jmp	Lunix_path_BB30_73
Lunix_path_BB30_69:
	movq	%r12, %rax
	cmpq	%rsi, %rax
	je	Lunix_path_BB30_71
Lunix_path_BB30_72:
	movq	%rsp, %rdi
	movq	%r15, %rsi
	movq	%r14, %rdx
	callq	_path_within.backward.count_resolved
	movq	8(%rsp), %rdi
	movq	16(%rsp), %rax
	xorl	%esi, %esi
Lunix_path_BB30_73:
	movq	%r15, (%rbx)
	movq	%r14, 8(%rbx)
	movq	%rdi, 16(%rbx)
	movq	%rax, 24(%rbx)
	movq	%rsi, 32(%rbx)
	addq	$32, %rsp
	popq	%rbx
	popq	%r12
	popq	%r14
	popq	%r15
	popq	%rbp
	retq
	.section	__TEXT,__literal16,16byte_literals
	.p2align	4, 0x0
Lunix_path_CPI31_0:
	.space	16,47
	.section	__TEXT,__text,regular,pure_instructions
	.p2align	4
## path_within::backward::count_resolved
_path_within.backward.count_resolved:
	pushq	%r15
	pushq	%r14
	pushq	%rbx
	movq	%rdx, %r15
	movq	%rsi, %r14
	movq	%rdi, %rbx
	testq	%rdx, %rdx
	je	Lunix_path_BB31_11
	movzbl	-1(%r14,%r15), %eax
	andb	$-2, %al
	movq	%r15, %rsi
	cmpb	$46, %al
	jne	Lunix_path_BB31_12
	movq	%r15, %rsi
	movq	%r15, %rax
	jmp	Lunix_path_BB31_3
	.p2align	4
Lunix_path_BB31_10:
	movq	%rax, %rsi
	testq	%rax, %rax
	je	Lunix_path_BB31_11
Lunix_path_BB31_3:
	decq	%rax
	je	Lunix_path_BB31_4
	movzbl	(%r14,%rax), %ecx
	cmpl	$47, %ecx
	je	Lunix_path_BB31_8
	cmpl	$46, %ecx
	jne	Lunix_path_BB31_12
	cmpb	$47, -1(%r14,%rax)
	jne	Lunix_path_BB31_12
Lunix_path_BB31_8:
	movq	%r15, %rcx
	subq	%rax, %rcx
	cmpq	$8, %rcx
	jne	Lunix_path_BB31_10
	movq	%r14, %rdi
	movq	%rax, %rsi
	callq	_unix_path.filler.trimmed_blocks_len
	jmp	Lunix_path_BB31_10
Lunix_path_BB31_11:
	xorl	%esi, %esi
Lunix_path_BB31_12:
	xorl	%eax, %eax
	xorl	%ecx, %ecx
Lunix_path_BB31_13:
	xorl	%edx, %edx
	jmp	Lunix_path_BB31_14
Lunix_path_BB31_29:
	incq	%rdx
	.p2align	4
Lunix_path_BB31_30:
	testq	%rdi, %rdi
	je	Lunix_path_BB31_33
Lunix_path_BB31_14:
	movq	%rsi, %r8
	incq	%rsi
	movq	%r8, %rdi
	.p2align	4
Lunix_path_BB31_15:
	cmpq	$15, %rdi
	jbe	Lunix_path_BB31_18
	movdqu	-16(%r14,%rdi), %xmm0
	pcmpeqb	Lunix_path_CPI31_0(%rip), %xmm0
	addq	$-16, %rdi
	pmovmskb	%xmm0, %r9d
	addq	$-16, %rsi
	testl	%r9d, %r9d
	je	Lunix_path_BB31_15
	movzwl	%r9w, %esi
	bsrq	%rsi, %rsi
	xorq	$63, %rsi
	subq	%rsi, %rdi
	addq	$64, %rdi
	jmp	Lunix_path_BB31_21
	.p2align	4
Lunix_path_BB31_18:
	cmpq	$1, %rsi
	je	Lunix_path_BB31_19
	leaq	-1(%rsi), %rdi
	cmpb	$47, -2(%r14,%rsi)
	movq	%rdi, %rsi
	jne	Lunix_path_BB31_18
	jmp	Lunix_path_BB31_21
	.p2align	4
Lunix_path_BB31_19:
	xorl	%edi, %edi
Lunix_path_BB31_21:
	cmpq	$1, %rdi
	movq	%rdi, %rsi
	adcq	$-1, %rsi
	subq	%rdi, %r8
	je	Lunix_path_BB31_30
	cmpq	$1, %r8
	jne	Lunix_path_BB31_26
	cmpb	$46, (%r14,%rdi)
	je	Lunix_path_BB31_30
	jmp	Lunix_path_BB31_24
	.p2align	4
Lunix_path_BB31_26:
	cmpq	$2, %r8
	ja	Lunix_path_BB31_24
	cmpb	$46, (%r14,%rdi)
	jne	Lunix_path_BB31_24
	cmpb	$46, 1(%r14,%rdi)
	je	Lunix_path_BB31_29
	.p2align	4
Lunix_path_BB31_24:
	testq	%rdx, %rdx
	je	Lunix_path_BB31_31
	decq	%rdx
	jmp	Lunix_path_BB31_30
	.p2align	4
Lunix_path_BB31_31:
	incq	%rax
	addq	%r8, %rcx
	incq	%rcx
	testq	%rdi, %rdi
	jne	Lunix_path_BB31_13
	xorl	%edx, %edx
Lunix_path_BB31_33:
	testq	%r15, %r15
	je	Lunix_path_BB31_35
	xorl	%esi, %esi
	cmpb	$47, (%r14)
	cmoveq	%rsi, %rdx
Lunix_path_BB31_35:
	movq	%rdx, (%rbx)
	movq	%rax, 8(%rbx)
	movq	%rcx, 16(%rbx)
	popq	%rbx
	popq	%r14
	popq	%r15
	retq
Lunix_path_BB31_4:
	movl	$1, %esi
	jmp	Lunix_path_BB31_12
	.section	__TEXT,__literal16,16byte_literals
	.p2align	4, 0x0
Lunix_path_CPI32_0:
	.space	16,47
	.section	__TEXT,__text,regular,pure_instructions
	.p2align	4
## path_within::backward::put_names_before
_path_within.backward.put_names_before:
	pushq	%rbp
	pushq	%r15
	pushq	%r14
	pushq	%r13
	pushq	%r12
	pushq	%rbx
	subq	$40, %rsp
	movq	%r8, %rbx
	movq	%rdx, %r14
	movq	%rsi, %r12
	movq	%rdi, %r15
	testq	%rcx, %rcx
	je	Lunix_path_BB32_10
	movq	%rcx, %rbp
	movzbl	-1(%r14,%rcx), %eax
	andb	$-2, %al
	cmpb	$46, %al
	jne	Lunix_path_BB32_11
	movq	%rbp, %r13
	movq	%rbp, %rax
	jmp	Lunix_path_BB32_4
	.p2align	4
Lunix_path_BB32_3:
	movq	%rax, %r13
	testq	%rax, %rax
	je	Lunix_path_BB32_10
Lunix_path_BB32_4:
	decq	%rax
	je	Lunix_path_BB32_54
	movzbl	(%r14,%rax), %ecx
	cmpl	$47, %ecx
	je	Lunix_path_BB32_8
	cmpl	$46, %ecx
	jne	Lunix_path_BB32_12
	cmpb	$47, -1(%r14,%rax)
	jne	Lunix_path_BB32_12
Lunix_path_BB32_8:
	movq	%rbp, %rcx
	subq	%rax, %rcx
	cmpq	$8, %rcx
	jne	Lunix_path_BB32_3
	movq	%r14, %rdi
	movq	%rax, %rsi
	callq	_unix_path.filler.trimmed_blocks_len
	jmp	Lunix_path_BB32_3
Lunix_path_BB32_10:
	xorl	%r13d, %r13d
	testq	%rbx, %rbx
	jne	Lunix_path_BB32_13
	jmp	Lunix_path_BB32_55
Lunix_path_BB32_11:
	movq	%rbp, %r13
Lunix_path_BB32_12:
	testq	%rbx, %rbx
	je	Lunix_path_BB32_55
Lunix_path_BB32_13:
	leaq	-1(%r15), %r10
	leaq	15(%r15), %r9
	xorl	%ebp, %ebp
Lunix_path_BB32_14:
	testb	$1, %bpl
	jne	Lunix_path_BB32_55
	xorl	%eax, %eax
	jmp	Lunix_path_BB32_18
Lunix_path_BB32_16:
	incq	%rax
	.p2align	4
Lunix_path_BB32_17:
	testq	%rdi, %rdi
	je	Lunix_path_BB32_55
Lunix_path_BB32_18:
	movq	%r13, %rcx
	leaq	1(%r13), %rdx
	movq	%r13, %rdi
	.p2align	4
Lunix_path_BB32_19:
	cmpq	$15, %rdi
	jbe	Lunix_path_BB32_22
	movdqu	-16(%r14,%rdi), %xmm0
	pcmpeqb	Lunix_path_CPI32_0(%rip), %xmm0
	addq	$-16, %rdi
	pmovmskb	%xmm0, %esi
	addq	$-16, %rdx
	testl	%esi, %esi
	je	Lunix_path_BB32_19
	movzwl	%si, %edx
	bsrq	%rdx, %rdx
	xorq	$63, %rdx
	subq	%rdx, %rdi
	addq	$64, %rdi
	jmp	Lunix_path_BB32_25
	.p2align	4
Lunix_path_BB32_22:
	cmpq	$1, %rdx
	je	Lunix_path_BB32_24
	leaq	-1(%rdx), %rdi
	cmpb	$47, -2(%r14,%rdx)
	movq	%rdi, %rdx
	jne	Lunix_path_BB32_22
	jmp	Lunix_path_BB32_25
	.p2align	4
Lunix_path_BB32_24:
	xorl	%edi, %edi
Lunix_path_BB32_25:
	xorl	%edx, %edx
	testq	%rdi, %rdi
	setne	%dl
	sete	%bpl
	movq	%rdi, %r13
	subq	%rdx, %r13
	movq	%rcx, %rdx
	subq	%rdi, %rdx
	je	Lunix_path_BB32_17
	leaq	(%r14,%rdi), %rsi
	cmpq	$1, %rdx
	jne	Lunix_path_BB32_28
	cmpb	$46, (%rsi)
	je	Lunix_path_BB32_17
	jmp	Lunix_path_BB32_31
	.p2align	4
Lunix_path_BB32_28:
	cmpq	$2, %rdx
	ja	Lunix_path_BB32_31
	cmpb	$46, (%rsi)
	jne	Lunix_path_BB32_31
	cmpb	$46, 1(%rsi)
	je	Lunix_path_BB32_16
	.p2align	4
Lunix_path_BB32_31:
	testq	%rax, %rax
	je	Lunix_path_BB32_33
	decq	%rax
	jmp	Lunix_path_BB32_17
	.p2align	4
Lunix_path_BB32_33:
	movq	%rdx, %rax
	notq	%rax
	addq	%r12, %rax
	leaq	(%r15,%rax), %r11
	movq	%r11, %r8
	subq	%rsi, %r8
	cmpq	%rdx, %r8
	movq	%r11, 32(%rsp)
	jae	Lunix_path_BB32_36
	cmpq	$4, %rdx
	jb	Lunix_path_BB32_35
	leaq	(%r10,%r12), %rsi
	subq	%rcx, %rsi
	subq	%r14, %rsi
	cmpq	$32, %rsi
	jae	Lunix_path_BB32_39
Lunix_path_BB32_35:
	xorl	%esi, %esi
Lunix_path_BB32_48:
	addq	%rdi, %rsi
	addq	%r10, %r12
	subq	%rcx, %r12
	.p2align	4
Lunix_path_BB32_49:
	movzbl	(%r14,%rsi), %edx
	movb	%dl, (%r12,%rsi)
	incq	%rsi
	cmpq	%rsi, %rcx
	jne	Lunix_path_BB32_49
	jmp	Lunix_path_BB32_50
Lunix_path_BB32_36:
	movq	%r11, %rdi
	movq	%rax, %r12
	movq	%rbx, 24(%rsp)
	movq	%r15, 8(%rsp)
	movq	%r10, %r15
	movq	%r9, (%rsp)
	callq	_memmove
	movq	(%rsp), %r9
	movq	%r15, %r10
	movq	8(%rsp), %r15
	movq	24(%rsp), %rbx
	movq	%r12, %rax
Lunix_path_BB32_50:
	testq	%rax, %rax
	je	Lunix_path_BB32_52
	movq	32(%rsp), %rcx
	movb	$47, -1(%rcx)
Lunix_path_BB32_52:
	movq	%rax, %r12
	decq	%rbx
	jne	Lunix_path_BB32_14
	jmp	Lunix_path_BB32_56
Lunix_path_BB32_39:
	cmpq	$32, %rdx
	movq	%r10, 16(%rsp)
	jae	Lunix_path_BB32_41
	xorl	%esi, %esi
	jmp	Lunix_path_BB32_45
Lunix_path_BB32_41:
	movq	%rdx, %rsi
	andq	$-32, %rsi
	leaq	16(%r14), %r8
	addq	%rdi, %r8
	movq	%r9, %r11
	leaq	(%r9,%r12), %r10
	movq	%rdi, %r9
	subq	%rcx, %r9
	addq	%r10, %r9
	xorl	%r10d, %r10d
	.p2align	4
Lunix_path_BB32_42:
	movdqu	-16(%r8,%r10), %xmm0
	movups	(%r8,%r10), %xmm1
	movdqu	%xmm0, -16(%r9,%r10)
	movups	%xmm1, (%r9,%r10)
	addq	$32, %r10
	cmpq	%r10, %rsi
	jne	Lunix_path_BB32_42
	cmpq	%rsi, %rdx
	movq	16(%rsp), %r10
	movq	%r11, %r9
	je	Lunix_path_BB32_50
	testb	$28, %dl
	je	Lunix_path_BB32_48
Lunix_path_BB32_45:
	movq	%r9, (%rsp)
	movq	%r15, 8(%rsp)
	movq	%rsi, %r11
	movq	%rdx, %rsi
	andq	$-4, %rsi
	movq	%rsi, %r8
	subq	%r11, %r8
	leaq	(%r14,%r11), %r9
	addq	%rdi, %r9
	addq	%r12, %r11
	addq	%r10, %r11
	movq	%rdi, %r10
	subq	%rcx, %r10
	addq	%r11, %r10
	xorl	%r11d, %r11d
	.p2align	4
Lunix_path_BB32_46:
	movl	(%r9,%r11), %r15d
	movl	%r15d, (%r10,%r11)
	addq	$4, %r11
	cmpq	%r11, %r8
	jne	Lunix_path_BB32_46
	cmpq	%rsi, %rdx
	movq	8(%rsp), %r15
	movq	16(%rsp), %r10
	movq	(%rsp), %r9
	je	Lunix_path_BB32_50
	jmp	Lunix_path_BB32_48
Lunix_path_BB32_54:
	movl	$1, %r13d
	testq	%rbx, %rbx
	jne	Lunix_path_BB32_13
Lunix_path_BB32_55:
	movq	%r12, %rax
Lunix_path_BB32_56:
	addq	$40, %rsp
	popq	%rbx
	popq	%r12
	popq	%r13
	popq	%r14
	popq	%r15
	popq	%rbp
	retq
	.section	__TEXT,__literal16,16byte_literals
	.p2align	4, 0x0
Lunix_path_CPI33_0:
	.space	16,46
Lunix_path_CPI33_1:
	.space	16,47
	.section	__TEXT,__text,regular,pure_instructions
	.p2align	4
## path_within::normal::is_resolved
_path_within.normal.is_resolved:
	pushq	%rbp
	pushq	%r15
	pushq	%r14
	pushq	%rbx
	subq	$104, %rsp
	movq	%rsi, %rbx
	movq	%rdi, %r14
	testq	%rsi, %rsi
	je	Lunix_path_BB33_9
	movq	%rbx, %rcx
	movq	%rbx, %rax
	jmp	Lunix_path_BB33_3
	.p2align	4
Lunix_path_BB33_2:
	movq	%rax, %rcx
	testq	%rax, %rax
	je	Lunix_path_BB33_9
Lunix_path_BB33_3:
	decq	%rax
	je	Lunix_path_BB33_12
	movzbl	(%r14,%rax), %edx
	cmpl	$47, %edx
	je	Lunix_path_BB33_7
	cmpl	$46, %edx
	jne	Lunix_path_BB33_10
	cmpb	$47, -1(%r14,%rax)
	jne	Lunix_path_BB33_10
Lunix_path_BB33_7:
	movq	%rbx, %rcx
	subq	%rax, %rcx
	cmpq	$8, %rcx
	jne	Lunix_path_BB33_2
	movq	%r14, %rdi
	movq	%rax, %rsi
	callq	_unix_path.filler.trimmed_blocks_len
	jmp	Lunix_path_BB33_2
Lunix_path_BB33_9:
	xorl	%ecx, %ecx
Lunix_path_BB33_10:
	cmpq	%rbx, %rcx
	jae	Lunix_path_BB33_13
Lunix_path_BB33_11:
	xorl	%eax, %eax
	jmp	Lunix_path_BB33_114
Lunix_path_BB33_12:
	movl	$1, %ecx
	cmpq	%rbx, %rcx
	jb	Lunix_path_BB33_11
Lunix_path_BB33_13:
	cmpq	$2, %rcx
	jb	Lunix_path_BB33_31
	cmpq	$18, %rcx
	jae	Lunix_path_BB33_16
	xorl	%edx, %edx
	cmpq	%rcx, %rdx
	jb	Lunix_path_BB33_22
	jmp	Lunix_path_BB33_30
Lunix_path_BB33_16:
	movq	%rcx, %rax
	addq	$-18, %rax
	je	Lunix_path_BB33_20
	xorl	%esi, %esi
	.p2align	4
Lunix_path_BB33_18:
	movdqu	(%r14,%rsi), %xmm0
	movdqu	1(%r14,%rsi), %xmm1
	movdqu	2(%r14,%rsi), %xmm2
	movdqa	Lunix_path_CPI33_0(%rip), %xmm3
	pcmpeqb	%xmm1, %xmm3
	movdqa	Lunix_path_CPI33_1(%rip), %xmm4
	pcmpeqb	%xmm4, %xmm2
	pand	%xmm3, %xmm2
	pcmpeqb	%xmm4, %xmm0
	pcmpeqb	%xmm4, %xmm1
	por	%xmm2, %xmm1
	pand	%xmm0, %xmm1
	pmovmskb	%xmm1, %edx
	orl	$65536, %edx
	rep		bsfl	%edx, %edx
	cmpw	$15, %dx
	jbe	Lunix_path_BB33_21
	addq	$16, %rsi
	cmpq	%rax, %rsi
	jb	Lunix_path_BB33_18
Lunix_path_BB33_20:
	movdqu	(%r14,%rax), %xmm0
	movdqu	1(%r14,%rax), %xmm1
	movdqu	2(%r14,%rax), %xmm2
	movdqa	Lunix_path_CPI33_0(%rip), %xmm3
	pcmpeqb	%xmm1, %xmm3
	movdqa	Lunix_path_CPI33_1(%rip), %xmm4
	pcmpeqb	%xmm4, %xmm2
	pand	%xmm3, %xmm2
	pcmpeqb	%xmm4, %xmm0
	pcmpeqb	%xmm4, %xmm1
	por	%xmm2, %xmm1
	pand	%xmm0, %xmm1
	pmovmskb	%xmm1, %edx
	orl	$65536, %edx
	rep		bsfl	%edx, %edx
	addq	%rax, %rdx
	cmpq	%rcx, %rdx
	jb	Lunix_path_BB33_22
	jmp	Lunix_path_BB33_30
Lunix_path_BB33_21:
	movzwl	%dx, %edx
	addq	%rsi, %rdx
	cmpq	%rcx, %rdx
	jae	Lunix_path_BB33_30
Lunix_path_BB33_22:
	leaq	-2(%rcx), %rax
	leaq	-1(%rcx), %rsi
	jmp	Lunix_path_BB33_25
	.p2align	4
Lunix_path_BB33_23:
	cmpl	$47, %edi
	je	Lunix_path_BB33_30
Lunix_path_BB33_24:
	incq	%rdx
	cmpq	%rdx, %rcx
	je	Lunix_path_BB33_31
Lunix_path_BB33_25:
	cmpb	$47, (%r14,%rdx)
	jne	Lunix_path_BB33_24
	cmpq	%rdx, %rsi
	je	Lunix_path_BB33_30
	movzbl	1(%r14,%rdx), %edi
	cmpl	$46, %edi
	jne	Lunix_path_BB33_23
	cmpq	%rdx, %rax
	je	Lunix_path_BB33_30
	cmpb	$47, 2(%r14,%rdx)
	jne	Lunix_path_BB33_24
Lunix_path_BB33_30:
	cmpq	%rcx, %rdx
	jne	Lunix_path_BB33_11
Lunix_path_BB33_31:
	testq	%rbx, %rbx
	je	Lunix_path_BB33_46
	movzbl	(%r14), %r15d
	movb	$1, %bpl
	cmpl	$47, %r15d
	je	Lunix_path_BB33_38
	cmpl	$46, %r15d
	jne	Lunix_path_BB33_37
	cmpq	$1, %rbx
	je	Lunix_path_BB33_38
	cmpb	$47, 1(%r14)
	sete	%bpl
	jmp	Lunix_path_BB33_38
Lunix_path_BB33_37:
	xorl	%ebp, %ebp
Lunix_path_BB33_38:
	movq	%rbx, %rcx
	movq	%rbx, %rax
	jmp	Lunix_path_BB33_40
	.p2align	4
Lunix_path_BB33_39:
	movq	%rax, %rcx
	testq	%rax, %rax
	je	Lunix_path_BB33_46
Lunix_path_BB33_40:
	decq	%rax
	je	Lunix_path_BB33_47
	movzbl	(%r14,%rax), %edx
	cmpl	$47, %edx
	je	Lunix_path_BB33_44
	cmpl	$46, %edx
	jne	Lunix_path_BB33_49
	cmpb	$47, -1(%r14,%rax)
	jne	Lunix_path_BB33_49
Lunix_path_BB33_44:
	movq	%rbx, %rcx
	subq	%rax, %rcx
	cmpq	$8, %rcx
	jne	Lunix_path_BB33_39
	movq	%r14, %rdi
	movq	%rax, %rsi
	callq	_unix_path.filler.trimmed_blocks_len
	jmp	Lunix_path_BB33_39
Lunix_path_BB33_46:
	movb	$1, %al
	jmp	Lunix_path_BB33_114
Lunix_path_BB33_47:
	movw	$0, 12(%rsp)
	movl	$0, 8(%rsp)
	movl	$1, %edx
	testb	%bpl, %bpl
	je	Lunix_path_BB33_72
	movb	$1, %r8b
	cmpb	$47, %r15b
	jne	Lunix_path_BB33_73
	jmp	Lunix_path_BB33_65
Lunix_path_BB33_49:
	movw	$0, 12(%rsp)
	movl	$0, 8(%rsp)
	testb	%bpl, %bpl
	je	Lunix_path_BB33_56
	leaq	-1(%rcx), %rsi
	leaq	-2(%rcx), %rdi
	xorl	%edx, %edx
	jmp	Lunix_path_BB33_52
	.p2align	4
Lunix_path_BB33_51:
	incq	%rdx
	cmpq	%rdx, %rsi
	je	Lunix_path_BB33_62
Lunix_path_BB33_52:
	movzbl	1(%r14,%rdx), %r8d
	cmpl	$47, %r8d
	je	Lunix_path_BB33_51
	cmpl	$46, %r8d
	jne	Lunix_path_BB33_63
	cmpq	%rdx, %rdi
	je	Lunix_path_BB33_62
	cmpb	$47, 2(%r14,%rdx)
	je	Lunix_path_BB33_51
	jmp	Lunix_path_BB33_63
Lunix_path_BB33_56:
	cmpb	$46, %r15b
	jne	Lunix_path_BB33_60
	cmpb	$46, 1(%r14)
	jne	Lunix_path_BB33_60
	cmpq	$2, %rcx
	jne	Lunix_path_BB33_66
	movw	$0, 20(%rsp)
	movl	$0, 16(%rsp)
	xorl	%r8d, %r8d
	jmp	Lunix_path_BB33_74
Lunix_path_BB33_60:
	cmpq	$16, %rcx
	jb	Lunix_path_BB33_72
Lunix_path_BB33_68:
	movq	%rcx, %rax
	addq	$-16, %rax
	je	Lunix_path_BB33_72
	movl	$16, %edx
	.p2align	4
Lunix_path_BB33_70:
	movdqu	-16(%r14,%rdx), %xmm0
	pcmpeqb	Lunix_path_CPI33_1(%rip), %xmm0
	pmovmskb	%xmm0, %esi
	xorl	%r8d, %r8d
	testl	%esi, %esi
	jne	Lunix_path_BB33_73
	cmpq	%rax, %rdx
	leaq	16(%rdx), %rdx
	jb	Lunix_path_BB33_70
	jmp	Lunix_path_BB33_73
Lunix_path_BB33_62:
	movq	%rax, %rdx
Lunix_path_BB33_63:
	incq	%rdx
	movb	$1, %r8b
	cmpb	$47, %r15b
	jne	Lunix_path_BB33_73
Lunix_path_BB33_65:
	movq	%r14, 64(%rsp)
	movq	%rbx, 72(%rsp)
	movq	%rdx, 80(%rsp)
	movq	%rcx, 88(%rsp)
	movw	$1, 96(%rsp)
	movl	8(%rsp), %eax
	movl	%eax, 98(%rsp)
	movzwl	12(%rsp), %eax
	movw	%ax, 102(%rsp)
	leaq	64(%rsp), %rdi
	jmp	Lunix_path_BB33_113
Lunix_path_BB33_66:
	cmpb	$47, 2(%r14)
	sete	%al
	cmpq	$16, %rcx
	setb	%dl
	orb	%al, %dl
	je	Lunix_path_BB33_68
Lunix_path_BB33_72:
	xorl	%r8d, %r8d
Lunix_path_BB33_73:
	movzwl	12(%rsp), %eax
	movw	%ax, 20(%rsp)
	movl	8(%rsp), %eax
	movl	%eax, 16(%rsp)
Lunix_path_BB33_74:
	leaq	3(%r14), %rdi
	xorl	%edx, %edx
	movq	%rcx, %rsi
	jmp	Lunix_path_BB33_77
	.p2align	4
Lunix_path_BB33_75:
	xorl	%r8d, %r8d
Lunix_path_BB33_76:
	addq	%r8, %rdx
	addq	$2, %rdx
	xorl	%r8d, %r8d
	movq	%rcx, %rsi
	subq	%rdx, %rsi
	je	Lunix_path_BB33_96
Lunix_path_BB33_77:
	movl	%r8d, %eax
	testb	$1, %r8b
	jne	Lunix_path_BB33_96
	leaq	(%r14,%rdx), %r8
	cmpq	$1, %rsi
	je	Lunix_path_BB33_91
	cmpb	$46, (%r8)
	jne	Lunix_path_BB33_91
	cmpb	$46, 1(%r8)
	jne	Lunix_path_BB33_91
	cmpq	$2, %rsi
	je	Lunix_path_BB33_75
	cmpb	$47, 2(%r8)
	jne	Lunix_path_BB33_91
	leaq	-2(%rsi), %r9
	leaq	(%rdi,%rdx), %r10
	addq	$-3, %rsi
	xorl	%r8d, %r8d
	jmp	Lunix_path_BB33_85
	.p2align	4
Lunix_path_BB33_84:
	incq	%r8
	cmpq	%r8, %r9
	je	Lunix_path_BB33_90
Lunix_path_BB33_85:
	movzbl	-1(%r10,%r8), %r11d
	cmpl	$47, %r11d
	je	Lunix_path_BB33_84
	cmpl	$46, %r11d
	jne	Lunix_path_BB33_76
	cmpq	%r8, %rsi
	je	Lunix_path_BB33_90
	cmpb	$47, (%r10,%r8)
	je	Lunix_path_BB33_84
	jmp	Lunix_path_BB33_76
	.p2align	4
Lunix_path_BB33_90:
	movq	%r9, %r8
	jmp	Lunix_path_BB33_76
Lunix_path_BB33_91:
	cmpq	$15, %rsi
	ja	Lunix_path_BB33_97
	xorl	%eax, %eax
	.p2align	4
Lunix_path_BB33_93:
	cmpb	$47, (%r8,%rax)
	je	Lunix_path_BB33_102
	incq	%rax
	cmpq	%rax, %rsi
	jne	Lunix_path_BB33_93
	movq	%rsi, %rax
	subq	%rax, %rsi
	jne	Lunix_path_BB33_103
Lunix_path_BB33_111:
	xorl	%edi, %edi
	jmp	Lunix_path_BB33_112
Lunix_path_BB33_96:
	xorb	$1, %al
	jmp	Lunix_path_BB33_114
Lunix_path_BB33_97:
	movq	%rsi, %rdi
	addq	$-16, %rdi
	je	Lunix_path_BB33_101
	xorl	%r9d, %r9d
	.p2align	4
Lunix_path_BB33_99:
	movdqu	(%r8,%r9), %xmm0
	pcmpeqb	Lunix_path_CPI33_1(%rip), %xmm0
	pmovmskb	%xmm0, %eax
	orl	$65536, %eax
	rep		bsfl	%eax, %eax
	cmpw	$15, %ax
	jbe	Lunix_path_BB33_110
	addq	$16, %r9
	cmpq	%rdi, %r9
	jb	Lunix_path_BB33_99
Lunix_path_BB33_101:
	movdqu	(%r8,%rdi), %xmm0
	pcmpeqb	Lunix_path_CPI33_1(%rip), %xmm0
	pmovmskb	%xmm0, %eax
	orl	$65536, %eax
	rep		bsfl	%eax, %eax
	addq	%rdi, %rax
Lunix_path_BB33_102:
	subq	%rax, %rsi
	je	Lunix_path_BB33_111
Lunix_path_BB33_103:
	leaq	(%rax,%r14), %rdi
	leaq	(%rdx,%rdi), %r8
	incq	%r8
	leaq	-1(%rsi), %r9
	xorl	%edi, %edi
	jmp	Lunix_path_BB33_105
	.p2align	4
Lunix_path_BB33_104:
	incq	%rdi
	cmpq	%rdi, %rsi
	je	Lunix_path_BB33_109
Lunix_path_BB33_105:
	movzbl	-1(%r8,%rdi), %r10d
	cmpl	$47, %r10d
	je	Lunix_path_BB33_104
	cmpl	$46, %r10d
	jne	Lunix_path_BB33_112
	cmpq	%rdi, %r9
	je	Lunix_path_BB33_109
	cmpb	$47, (%r8,%rdi)
	je	Lunix_path_BB33_104
	jmp	Lunix_path_BB33_112
Lunix_path_BB33_109:
	movq	%rsi, %rdi
Lunix_path_BB33_112:
	addq	%rdx, %rax
	addq	%rdi, %rax
	movq	%r14, 24(%rsp)
	movq	%rbx, 32(%rsp)
	movq	%rax, 40(%rsp)
	movq	%rcx, 48(%rsp)
	movb	%bpl, 56(%rsp)
	movb	$0, 57(%rsp)
	movl	16(%rsp), %eax
	movl	%eax, 58(%rsp)
	movzwl	20(%rsp), %eax
	movw	%ax, 62(%rsp)
	leaq	24(%rsp), %rdi
Lunix_path_BB33_113:
	callq	_path_within.normal.are_names
Lunix_path_BB33_114:
	andb	$1, %al
	addq	$104, %rsp
	popq	%rbx
	popq	%r14
	popq	%r15
	popq	%rbp
	retq
Lunix_path_BB33_110:
	movzwl	%ax, %eax
	addq	%r9, %rax
	subq	%rax, %rsi
	jne	Lunix_path_BB33_103
	jmp	Lunix_path_BB33_111
	.section	__TEXT,__literal16,16byte_literals
	.p2align	4, 0x0
Lunix_path_CPI34_0:
	.space	16,208
Lunix_path_CPI34_1:
	.space	16,47
Lunix_path_CPI34_2:
	.space	16,46
Lunix_path_CPI34_3:
	.byte	254
	.byte	254
	.byte	254
	.byte	254
	.byte	254
	.byte	254
	.byte	254
	.byte	254
	.space	1
	.space	1
	.space	1
	.space	1
	.space	1
	.space	1
	.space	1
	.space	1
Lunix_path_CPI34_4:
	.byte	46
	.byte	46
	.byte	46
	.byte	46
	.byte	46
	.byte	46
	.byte	46
	.byte	46
	.space	1
	.space	1
	.space	1
	.space	1
	.space	1
	.space	1
	.space	1
	.space	1
Lunix_path_CPI34_5:
	.byte	47
	.byte	47
	.byte	47
	.byte	47
	.byte	47
	.byte	47
	.byte	47
	.byte	47
	.space	1
	.space	1
	.space	1
	.space	1
	.space	1
	.space	1
	.space	1
	.space	1
	.section	__TEXT,__text,regular,pure_instructions
	.p2align	4
## path_within::normal::are_names
_path_within.normal.are_names:
	movq	16(%rdi), %rsi
	movq	24(%rdi), %rcx
	movq	%rcx, %r8
	movb	$1, %al
	subq	%rsi, %r8
	je	Lunix_path_BB34_82
	pushq	%rbp
	pushq	%r15
	pushq	%r14
	pushq	%r12
	pushq	%rbx
	movq	(%rdi), %rdx
	leaq	(%rdx,%rsi), %r9
	xorl	%r11d, %r11d
	cmpb	$47, (%r9)
	movzbl	33(%rdi), %edi
	sete	%r11b
	movq	%r8, %r10
	subq	%r11, %r10
	je	Lunix_path_BB34_52
	leaq	(%r9,%r11), %rbx
	movzbl	(%rbx), %ebp
	cmpl	$47, %ebp
	je	Lunix_path_BB34_52
	cmpl	$46, %ebp
	jne	Lunix_path_BB34_9
	cmpq	$2, %r10
	jb	Lunix_path_BB34_52
	movzbl	1(%rbx), %ebp
	cmpl	$47, %ebp
	je	Lunix_path_BB34_52
	cmpl	$46, %ebp
	jne	Lunix_path_BB34_9
	cmpq	$2, %r10
	je	Lunix_path_BB34_52
	cmpb	$47, 2(%rbx)
	je	Lunix_path_BB34_52
Lunix_path_BB34_9:
	movzbl	-1(%rdx,%rcx), %ebp
	andb	$-2, %bpl
	cmpb	$46, %bpl
	je	Lunix_path_BB34_52
	cmpq	$17, %r10
	jae	Lunix_path_BB34_13
Lunix_path_BB34_11:
	cmpq	$9, %r10
	jae	Lunix_path_BB34_21
	xorl	%r14d, %r14d
	jmp	Lunix_path_BB34_37
Lunix_path_BB34_13:
	cmpq	$32, %r10
	ja	Lunix_path_BB34_23
	movdqu	(%rbx), %xmm0
	movdqu	1(%rbx), %xmm1
	pand	Lunix_path_CPI34_0(%rip), %xmm1
	por	%xmm0, %xmm1
	pcmpeqb	Lunix_path_CPI34_1(%rip), %xmm1
	pmovmskb	%xmm1, %ebp
	testl	%ebp, %ebp
	jne	Lunix_path_BB34_16
	movdqu	-17(%rdx,%rcx), %xmm0
	movdqu	-16(%rdx,%rcx), %xmm1
	pand	Lunix_path_CPI34_0(%rip), %xmm1
	por	%xmm0, %xmm1
	pcmpeqb	Lunix_path_CPI34_1(%rip), %xmm1
	pmovmskb	%xmm1, %ebp
	testl	%ebp, %ebp
	je	Lunix_path_BB34_50
Lunix_path_BB34_16:
	cmpq	$18, %r10
	jbe	Lunix_path_BB34_11
	movq	%r10, %r15
	addq	$-19, %r15
	jne	Lunix_path_BB34_25
	xorl	%r15d, %r15d
	xorl	%r14d, %r14d
Lunix_path_BB34_19:
	leaq	-17(%r10), %r12
	cmpq	%r14, %r12
	cmovbq	%r12, %r14
	movdqu	(%rbx,%r14), %xmm0
	movdqu	1(%rbx,%r14), %xmm1
	pand	Lunix_path_CPI34_0(%rip), %xmm1
	por	%xmm0, %xmm1
	pcmpeqb	Lunix_path_CPI34_1(%rip), %xmm1
	pmovmskb	%xmm1, %ebp
	testl	%ebp, %ebp
	je	Lunix_path_BB34_36
	movdqu	(%rbx,%r15), %xmm0
	movdqu	1(%rbx,%r15), %xmm1
	movdqu	2(%rbx,%r15), %xmm2
	movdqu	3(%rbx,%r15), %xmm3
	movdqa	Lunix_path_CPI34_2(%rip), %xmm4
	movdqa	%xmm2, %xmm5
	pcmpeqb	%xmm4, %xmm5
	movdqa	Lunix_path_CPI34_1(%rip), %xmm6
	pcmpeqb	%xmm6, %xmm3
	pand	%xmm5, %xmm3
	pcmpeqb	%xmm1, %xmm4
	pcmpeqb	%xmm6, %xmm2
	por	%xmm3, %xmm2
	pand	%xmm4, %xmm2
	pcmpeqb	%xmm6, %xmm0
	pcmpeqb	%xmm6, %xmm1
	por	%xmm2, %xmm1
	pand	%xmm0, %xmm1
	pmovmskb	%xmm1, %ebx
	orl	$65536, %ebx
	rep		bsfl	%ebx, %r14d
	addq	%r15, %r14
	jmp	Lunix_path_BB34_37
Lunix_path_BB34_21:
	movq	1(%rbx), %xmm0
	pand	Lunix_path_CPI34_3(%rip), %xmm0
	pcmpeqb	Lunix_path_CPI34_4(%rip), %xmm0
	movq	(%rbx), %xmm1
	pcmpeqb	Lunix_path_CPI34_5(%rip), %xmm1
	pand	%xmm0, %xmm1
	pmovmskb	%xmm1, %ebp
	orl	$256, %ebp
	rep		bsfl	%ebp, %r14d
	cmpb	$8, %r14b
	jb	Lunix_path_BB34_37
	cmpq	$17, %r10
	movl	$17, %r14d
	cmovbq	%r10, %r14
	movq	-8(%rbx,%r14), %xmm0
	pand	Lunix_path_CPI34_3(%rip), %xmm0
	pcmpeqb	Lunix_path_CPI34_4(%rip), %xmm0
	movq	-9(%rbx,%r14), %xmm1
	pcmpeqb	Lunix_path_CPI34_5(%rip), %xmm1
	pand	%xmm0, %xmm1
	pmovmskb	%xmm1, %ebx
	orl	$256, %ebx
	rep		bsfl	%ebx, %ebx
	addq	%rbx, %r14
	addq	$-9, %r14
	jmp	Lunix_path_BB34_37
Lunix_path_BB34_23:
	movdqu	-33(%rbx,%r10), %xmm1
	movdqu	-32(%rbx,%r10), %xmm2
	movdqa	Lunix_path_CPI34_0(%rip), %xmm0
	pand	%xmm0, %xmm2
	por	%xmm1, %xmm2
	movdqa	Lunix_path_CPI34_1(%rip), %xmm1
	pcmpeqb	%xmm1, %xmm2
	movdqu	-17(%rdx,%rcx), %xmm3
	movdqu	-16(%rdx,%rcx), %xmm4
	pand	%xmm0, %xmm4
	por	%xmm3, %xmm4
	pcmpeqb	%xmm1, %xmm4
	por	%xmm2, %xmm4
	pmovmskb	%xmm4, %ebp
	testl	%ebp, %ebp
	je	Lunix_path_BB34_32
	leaq	-19(%r10), %r15
Lunix_path_BB34_25:
	xorl	%r14d, %r14d
	jmp	Lunix_path_BB34_29
	.p2align	4
Lunix_path_BB34_26:
	movdqu	2(%rbx,%r14), %xmm2
	movdqu	3(%rbx,%r14), %xmm3
	movdqa	Lunix_path_CPI34_2(%rip), %xmm4
	movdqa	%xmm2, %xmm5
	pcmpeqb	%xmm4, %xmm5
	movdqa	Lunix_path_CPI34_1(%rip), %xmm6
	pcmpeqb	%xmm6, %xmm3
	pand	%xmm5, %xmm3
	pcmpeqb	%xmm1, %xmm4
	pcmpeqb	%xmm6, %xmm2
	por	%xmm3, %xmm2
	pand	%xmm4, %xmm2
	pcmpeqb	%xmm6, %xmm0
	pcmpeqb	%xmm6, %xmm1
	por	%xmm2, %xmm1
	pand	%xmm0, %xmm1
	pmovmskb	%xmm1, %ebp
	orl	$65536, %ebp
	rep		bsfl	%ebp, %ebp
	cmpw	$15, %bp
	jbe	Lunix_path_BB34_31
	addq	$16, %r14
Lunix_path_BB34_28:
	cmpq	%r15, %r14
	jae	Lunix_path_BB34_19
Lunix_path_BB34_29:
	movdqu	(%rbx,%r14), %xmm0
	movdqu	1(%rbx,%r14), %xmm1
	movdqa	Lunix_path_CPI34_0(%rip), %xmm2
	pand	%xmm1, %xmm2
	por	%xmm0, %xmm2
	pcmpeqb	Lunix_path_CPI34_1(%rip), %xmm2
	pmovmskb	%xmm2, %ebp
	testl	%ebp, %ebp
	jne	Lunix_path_BB34_26
	addq	$16, %r14
	cmpq	%r15, %r14
	jb	Lunix_path_BB34_29
	jmp	Lunix_path_BB34_28
Lunix_path_BB34_31:
	movzwl	%bp, %ebx
	addq	%rbx, %r14
	jmp	Lunix_path_BB34_37
Lunix_path_BB34_32:
	movq	%r10, %r14
	addq	$-33, %r14
	je	Lunix_path_BB34_50
	leaq	(%rsi,%r11), %r15
	addq	%rdx, %r15
	addq	$17, %r15
	xorl	%r12d, %r12d
Lunix_path_BB34_34:
	movdqu	-17(%r15,%r12), %xmm2
	movdqu	-16(%r15,%r12), %xmm3
	movdqu	-1(%r15,%r12), %xmm4
	movdqu	(%r15,%r12), %xmm5
	pand	%xmm0, %xmm3
	por	%xmm2, %xmm3
	pcmpeqb	%xmm1, %xmm3
	pand	%xmm0, %xmm5
	por	%xmm4, %xmm5
	pcmpeqb	%xmm1, %xmm5
	por	%xmm3, %xmm5
	pmovmskb	%xmm5, %ebp
	testl	%ebp, %ebp
	jne	Lunix_path_BB34_16
	addq	$32, %r12
	cmpq	%r14, %r12
	jb	Lunix_path_BB34_34
	jmp	Lunix_path_BB34_50
Lunix_path_BB34_36:
	addq	$16, %r14
Lunix_path_BB34_37:
	cmpq	%r10, %r14
	jae	Lunix_path_BB34_48
	addq	%rsi, %r11
	movq	%rcx, %rbx
	subq	%r11, %rbx
	leaq	(%rdx,%r11), %r15
	addq	$3, %r15
	jmp	Lunix_path_BB34_41
Lunix_path_BB34_39:
	cmpl	$47, %ebp
	je	Lunix_path_BB34_49
Lunix_path_BB34_40:
	cmpq	%r10, %r14
	jae	Lunix_path_BB34_51
Lunix_path_BB34_41:
	movq	%r14, %r11
	incq	%r14
	cmpb	$47, -3(%r15,%r11)
	jne	Lunix_path_BB34_40
	cmpq	%r14, %r10
	jbe	Lunix_path_BB34_49
	movzbl	-2(%r15,%r11), %ebp
	cmpl	$46, %ebp
	jne	Lunix_path_BB34_39
	leaq	2(%r11), %r12
	cmpq	%r12, %r10
	jbe	Lunix_path_BB34_49
	movzbl	-1(%r15,%r11), %ebp
	cmpl	$46, %ebp
	jne	Lunix_path_BB34_39
	leaq	3(%r11), %r12
	cmpq	%r12, %r10
	jbe	Lunix_path_BB34_49
	cmpb	$47, (%r15,%r11)
	jne	Lunix_path_BB34_40
	jmp	Lunix_path_BB34_49
Lunix_path_BB34_48:
	movq	%r14, %r11
Lunix_path_BB34_49:
	cmpq	%r10, %r11
	jne	Lunix_path_BB34_52
Lunix_path_BB34_50:
	cmpb	$47, (%r9)
	setne	%al
	jmp	Lunix_path_BB34_81
Lunix_path_BB34_51:
	movq	%rbx, %r11
	cmpq	%r10, %r11
	je	Lunix_path_BB34_50
Lunix_path_BB34_52:
	leaq	1(%rdx), %r9
	jmp	Lunix_path_BB34_55
	.p2align	4
Lunix_path_BB34_53:
	xorl	%edi, %edi
Lunix_path_BB34_54:
	addq	%rsi, %r10
	addq	%rdi, %r10
	xorl	%edi, %edi
	movq	%rcx, %r8
	movq	%r10, %rsi
	subq	%r10, %r8
	je	Lunix_path_BB34_81
Lunix_path_BB34_55:
	testb	$1, %dil
	jne	Lunix_path_BB34_80
	leaq	(%rdx,%rsi), %rdi
	cmpq	$1, %r8
	je	Lunix_path_BB34_61
	cmpb	$46, (%rdi)
	jne	Lunix_path_BB34_61
	cmpb	$46, 1(%rdi)
	jne	Lunix_path_BB34_61
	cmpq	$2, %r8
	je	Lunix_path_BB34_80
	cmpb	$47, 2(%rdi)
	je	Lunix_path_BB34_80
Lunix_path_BB34_61:
	cmpq	$15, %r8
	ja	Lunix_path_BB34_66
	xorl	%r10d, %r10d
	.p2align	4
Lunix_path_BB34_63:
	cmpb	$47, (%rdi,%r10)
	je	Lunix_path_BB34_71
	incq	%r10
	cmpq	%r10, %r8
	jne	Lunix_path_BB34_63
	movq	%r8, %r10
	subq	%r10, %r8
	jne	Lunix_path_BB34_72
	jmp	Lunix_path_BB34_53
	.p2align	4
Lunix_path_BB34_66:
	movq	%r8, %r11
	addq	$-16, %r11
	je	Lunix_path_BB34_70
	xorl	%ebx, %ebx
	.p2align	4
Lunix_path_BB34_68:
	movdqu	(%rdi,%rbx), %xmm0
	pcmpeqb	Lunix_path_CPI34_1(%rip), %xmm0
	pmovmskb	%xmm0, %r10d
	orl	$65536, %r10d
	rep		bsfl	%r10d, %r10d
	cmpw	$15, %r10w
	jbe	Lunix_path_BB34_79
	addq	$16, %rbx
	cmpq	%r11, %rbx
	jb	Lunix_path_BB34_68
Lunix_path_BB34_70:
	movdqu	(%rdi,%r11), %xmm0
	pcmpeqb	Lunix_path_CPI34_1(%rip), %xmm0
	pmovmskb	%xmm0, %edi
	orl	$65536, %edi
	rep		bsfl	%edi, %r10d
	addq	%r11, %r10
Lunix_path_BB34_71:
	subq	%r10, %r8
	je	Lunix_path_BB34_53
Lunix_path_BB34_72:
	leaq	(%r10,%rsi), %r11
	addq	%r9, %r11
	leaq	-1(%r8), %rbx
	xorl	%edi, %edi
	jmp	Lunix_path_BB34_74
	.p2align	4
Lunix_path_BB34_73:
	incq	%rdi
	cmpq	%rdi, %r8
	je	Lunix_path_BB34_78
Lunix_path_BB34_74:
	movzbl	-1(%r11,%rdi), %ebp
	cmpl	$47, %ebp
	je	Lunix_path_BB34_73
	cmpl	$46, %ebp
	jne	Lunix_path_BB34_54
	cmpq	%rdi, %rbx
	je	Lunix_path_BB34_78
	cmpb	$47, (%r11,%rdi)
	je	Lunix_path_BB34_73
	jmp	Lunix_path_BB34_54
	.p2align	4
Lunix_path_BB34_78:
	movq	%r8, %rdi
	jmp	Lunix_path_BB34_54
Lunix_path_BB34_79:
	movzwl	%r10w, %r10d
	addq	%rbx, %r10
	subq	%r10, %r8
	jne	Lunix_path_BB34_72
	jmp	Lunix_path_BB34_53
Lunix_path_BB34_80:
	xorl	%eax, %eax
Lunix_path_BB34_81:
	popq	%rbx
	popq	%r12
	popq	%r14
	popq	%r15
	popq	%rbp
Lunix_path_BB34_82:
	retq
	.section	__TEXT,__literal16,16byte_literals
	.p2align	4, 0x0
Lunix_path_CPI35_0:
	.space	16,47
Lunix_path_CPI35_1:
	.byte	47
	.byte	47
	.byte	47
	.byte	47
	.byte	47
	.byte	47
	.byte	47
	.byte	47
	.space	1
	.space	1
	.space	1
	.space	1
	.space	1
	.space	1
	.space	1
	.space	1
	.section	__TEXT,__text,regular,pure_instructions
	.p2align	4
## unix_path::stems::has_slash
_unix_path.stems.has_slash:
	cmpq	$3, %rsi
	ja	Lunix_path_BB35_4
	testq	%rsi, %rsi
	je	Lunix_path_BB35_8
	cmpb	$47, (%rdi)
	sete	%cl
	movq	%rsi, %rax
	shrq	%rax
	cmpb	$47, (%rdi,%rax)
	sete	%dl
	cmpb	$47, -1(%rdi,%rsi)
	sete	%al
	orb	%cl, %al
	orb	%dl, %al
Lunix_path_BB35_3:
	retq
Lunix_path_BB35_4:
	cmpq	$8, %rsi
	ja	Lunix_path_BB35_6
	movd	-4(%rdi,%rsi), %xmm0
	movd	(%rdi), %xmm1
	punpckldq	%xmm0, %xmm1
	pcmpeqb	Lunix_path_CPI35_1(%rip), %xmm1
	pmovmskb	%xmm1, %eax
	testb	%al, %al
	setne	%al
	retq
Lunix_path_BB35_6:
	cmpq	$32, %rsi
	ja	Lunix_path_BB35_9
	leaq	-8(%rsi), %rax
	cmpq	$8, %rax
	movl	$8, %ecx
	cmovbq	%rax, %rcx
	cmpq	$16, %rax
	movl	$16, %edx
	cmovbq	%rax, %rdx
	movq	(%rdi,%rcx), %xmm0
	movq	(%rdi), %xmm1
	punpcklqdq	%xmm0, %xmm1
	movq	(%rdi,%rdx), %xmm0
	movq	-8(%rdi,%rsi), %xmm2
	punpcklqdq	%xmm2, %xmm0
	movdqa	Lunix_path_CPI35_0(%rip), %xmm2
	pcmpeqb	%xmm2, %xmm0
	pcmpeqb	%xmm2, %xmm1
	jmp	Lunix_path_BB35_11
Lunix_path_BB35_8:
	xorl	%eax, %eax
	retq
Lunix_path_BB35_9:
	cmpq	$65, %rsi
	jae	Lunix_path_BB35_13
	movdqu	(%rdi), %xmm0
	movdqu	16(%rdi), %xmm1
	movdqu	-32(%rdi,%rsi), %xmm2
	movdqu	-16(%rdi,%rsi), %xmm3
	movdqa	Lunix_path_CPI35_0(%rip), %xmm4
	pcmpeqb	%xmm4, %xmm2
	pcmpeqb	%xmm4, %xmm0
	por	%xmm2, %xmm0
	pcmpeqb	%xmm4, %xmm3
	pcmpeqb	%xmm4, %xmm1
	por	%xmm3, %xmm1
Lunix_path_BB35_11:
	por	%xmm0, %xmm1
	pmovmskb	%xmm1, %eax
	testl	%eax, %eax
	setne	%al
	retq
Lunix_path_BB35_13:
	xorl	%eax, %eax
	movq	%rsi, %rcx
	.p2align	4
Lunix_path_BB35_14:
	movdqu	(%rdi,%rax), %xmm1
	movdqu	16(%rdi,%rax), %xmm2
	movdqu	32(%rdi,%rax), %xmm3
	movdqu	48(%rdi,%rax), %xmm4
	movdqa	Lunix_path_CPI35_0(%rip), %xmm0
	pcmpeqb	%xmm0, %xmm3
	pcmpeqb	%xmm0, %xmm1
	por	%xmm3, %xmm1
	pcmpeqb	%xmm0, %xmm4
	pcmpeqb	%xmm0, %xmm2
	por	%xmm4, %xmm2
	por	%xmm1, %xmm2
	pmovmskb	%xmm2, %edx
	testl	%edx, %edx
	jne	Lunix_path_BB35_16
	addq	$64, %rax
	addq	$-64, %rcx
	cmpq	$63, %rcx
	ja	Lunix_path_BB35_14
Lunix_path_BB35_16:
	cmpq	$32, %rcx
	jb	Lunix_path_BB35_21
	movq	%rsi, %rcx
	subq	%rax, %rcx
	addq	%rdi, %rax
	.p2align	4
Lunix_path_BB35_18:
	movdqu	(%rax), %xmm1
	movdqu	16(%rax), %xmm2
	pcmpeqb	%xmm0, %xmm2
	pcmpeqb	%xmm0, %xmm1
	por	%xmm2, %xmm1
	pmovmskb	%xmm1, %edx
	testl	%edx, %edx
	jne	Lunix_path_BB35_20
	addq	$-32, %rcx
	addq	$32, %rax
	cmpq	$31, %rcx
	ja	Lunix_path_BB35_18
	jmp	Lunix_path_BB35_21
Lunix_path_BB35_20:
	movb	$1, %al
	cmpq	$31, %rcx
	ja	Lunix_path_BB35_3
Lunix_path_BB35_21:
	movdqu	-32(%rdi,%rsi), %xmm1
	movdqu	-16(%rdi,%rsi), %xmm2
	pcmpeqb	%xmm0, %xmm2
	pcmpeqb	%xmm0, %xmm1
	por	%xmm2, %xmm1
	pmovmskb	%xmm1, %eax
	testl	%eax, %eax
	setne	%al
	retq
	.globl	_unix_path_as_path
	.p2align	4
_unix_path_as_path:
	pushq	%r15
	pushq	%r14
	pushq	%r13
	pushq	%r12
	pushq	%rbx
	movq	%rcx, %rbx
	movq	%rsi, %r14
	xorl	%r15d, %r15d
	testq	%rdi, %rdi
	sete	%r15b
	shll	$12, %r15d
	addq	%rdi, %r15
	movq	(%rdx), %r12
	movq	8(%rdx), %r13
	cmpq	%r13, %rsi
	setb	%al
	subq	%r12, %r13
	setb	%cl
	leaq	lunix_path__static.0(%rip), %rdx
	sete	%sil
	orb	%al, %cl
	addq	%r12, %r15
	testb	%cl, %cl
	cmovneq	%rdx, %r15
	orb	%sil, %cl
	je	Lunix_path_BB36_1
Lunix_path_BB36_10:
	xorl	%ecx, %ecx
	jmp	Lunix_path_BB36_11
Lunix_path_BB36_1:
	movq	%r13, %rcx
	movq	%r13, %rax
	jmp	Lunix_path_BB36_2
	.p2align	4
Lunix_path_BB36_9:
	movq	%rax, %rcx
	testq	%rax, %rax
	je	Lunix_path_BB36_10
Lunix_path_BB36_2:
	decq	%rax
	je	Lunix_path_BB36_3
	movzbl	(%r15,%rax), %edx
	cmpl	$47, %edx
	je	Lunix_path_BB36_7
	cmpl	$46, %edx
	jne	Lunix_path_BB36_11
	cmpb	$47, -1(%r15,%rax)
	jne	Lunix_path_BB36_11
Lunix_path_BB36_7:
	movq	%r13, %rcx
	subq	%rax, %rcx
	cmpq	$8, %rcx
	jne	Lunix_path_BB36_9
	movq	%r15, %rdi
	movq	%rax, %rsi
	callq	_unix_path.filler.trimmed_blocks_len
	jmp	Lunix_path_BB36_9
Lunix_path_BB36_3:
	movl	$1, %ecx
Lunix_path_BB36_11:
	cmpq	%r12, %r14
	cmovbq	%r14, %r12
	movq	%r12, (%rbx)
	movq	%rcx, 8(%rbx)
	popq	%rbx
	popq	%r12
	popq	%r13
	popq	%r14
	popq	%r15
	retq
	.section	__TEXT,__literal16,16byte_literals
	.p2align	4, 0x0
Lunix_path_CPI37_0:
	.space	16,46
Lunix_path_CPI37_1:
	.space	16,47
	.section	__TEXT,__text,regular,pure_instructions
	.globl	_unix_path_canonical
	.p2align	4
_unix_path_canonical:
	pushq	%rbp
	pushq	%r15
	pushq	%r14
	pushq	%r13
	pushq	%r12
	pushq	%rbx
	subq	$56, %rsp
	movq	%rcx, %r12
	xorl	%ebp, %ebp
	testq	%rdi, %rdi
	sete	%bpl
	shll	$12, %ebp
	movq	%rdi, (%rsp)
	leaq	(%rdi,%rbp), %rbx
	xorl	%ecx, %ecx
	testq	%rdx, %rdx
	sete	%cl
	shll	$12, %ecx
	movq	%rdx, 8(%rsp)
	movq	%rcx, 16(%rsp)
	leaq	(%rdx,%rcx), %r14
	testq	%rsi, %rsi
	movq	%r14, 48(%rsp)
	je	Lunix_path_BB37_9
	movq	%rsi, %r13
	movq	%rsi, %r15
	movq	%r13, %rax
	jmp	Lunix_path_BB37_3
	.p2align	4
Lunix_path_BB37_2:
	movq	%rax, %r15
	testq	%rax, %rax
	je	Lunix_path_BB37_9
Lunix_path_BB37_3:
	decq	%rax
	je	Lunix_path_BB37_10
	movzbl	(%rbx,%rax), %ecx
	cmpl	$47, %ecx
	je	Lunix_path_BB37_7
	cmpl	$46, %ecx
	jne	Lunix_path_BB37_12
	cmpb	$47, -1(%rbx,%rax)
	jne	Lunix_path_BB37_12
Lunix_path_BB37_7:
	movq	%r13, %rcx
	subq	%rax, %rcx
	cmpq	$8, %rcx
	jne	Lunix_path_BB37_2
	movq	%rbx, %rdi
	movq	%rax, %rsi
	callq	_unix_path.filler.trimmed_blocks_len
	jmp	Lunix_path_BB37_2
Lunix_path_BB37_9:
	xorl	%r15d, %r15d
	xorl	%r13d, %r13d
	jmp	Lunix_path_BB37_69
Lunix_path_BB37_10:
	movl	$1, %r13d
	testq	%r12, %r12
	jne	Lunix_path_BB37_66
Lunix_path_BB37_11:
	movq	%r12, %rdx
	jmp	Lunix_path_BB37_64
Lunix_path_BB37_12:
	cmpq	$18, %r15
	jae	Lunix_path_BB37_14
	xorl	%r13d, %r13d
	cmpq	%r15, %r13
	jb	Lunix_path_BB37_20
	jmp	Lunix_path_BB37_29
Lunix_path_BB37_14:
	movq	%r15, %rax
	addq	$-18, %rax
	je	Lunix_path_BB37_18
	movq	(%rsp), %rcx
	leaq	(%rcx,%rbp), %rdx
	addq	$2, %rdx
	xorl	%ecx, %ecx
	.p2align	4
Lunix_path_BB37_16:
	movdqu	-2(%rdx,%rcx), %xmm0
	movdqu	-1(%rdx,%rcx), %xmm1
	movdqu	(%rdx,%rcx), %xmm2
	movdqa	Lunix_path_CPI37_0(%rip), %xmm3
	pcmpeqb	%xmm1, %xmm3
	movdqa	Lunix_path_CPI37_1(%rip), %xmm4
	pcmpeqb	%xmm4, %xmm2
	pand	%xmm3, %xmm2
	pcmpeqb	%xmm4, %xmm0
	pcmpeqb	%xmm4, %xmm1
	por	%xmm2, %xmm1
	pand	%xmm0, %xmm1
	pmovmskb	%xmm1, %esi
	orl	$65536, %esi
	rep		bsfl	%esi, %esi
	cmpw	$15, %si
	jbe	Lunix_path_BB37_19
	addq	$16, %rcx
	cmpq	%rax, %rcx
	jb	Lunix_path_BB37_16
Lunix_path_BB37_18:
	movdqu	(%rbx,%rax), %xmm0
	movdqu	1(%rbx,%rax), %xmm1
	movdqu	2(%rbx,%rax), %xmm2
	movdqa	Lunix_path_CPI37_0(%rip), %xmm3
	pcmpeqb	%xmm1, %xmm3
	movdqa	Lunix_path_CPI37_1(%rip), %xmm4
	pcmpeqb	%xmm4, %xmm2
	pand	%xmm3, %xmm2
	pcmpeqb	%xmm4, %xmm0
	pcmpeqb	%xmm4, %xmm1
	por	%xmm2, %xmm1
	pand	%xmm0, %xmm1
	pmovmskb	%xmm1, %ecx
	orl	$65536, %ecx
	rep		bsfl	%ecx, %r13d
	addq	%rax, %r13
	cmpq	%r15, %r13
	jb	Lunix_path_BB37_20
	jmp	Lunix_path_BB37_29
Lunix_path_BB37_19:
	movzwl	%si, %r13d
	addq	%rcx, %r13
	cmpq	%r15, %r13
	jae	Lunix_path_BB37_29
Lunix_path_BB37_20:
	movq	(%rsp), %rax
	addq	%rbp, %rax
	addq	$2, %rax
	leaq	-2(%r15), %rcx
	leaq	-1(%r15), %rdx
	jmp	Lunix_path_BB37_23
	.p2align	4
Lunix_path_BB37_21:
	cmpl	$47, %esi
	je	Lunix_path_BB37_29
Lunix_path_BB37_22:
	incq	%r13
	cmpq	%r13, %r15
	je	Lunix_path_BB37_28
Lunix_path_BB37_23:
	cmpb	$47, -2(%rax,%r13)
	jne	Lunix_path_BB37_22
	cmpq	%r13, %rdx
	je	Lunix_path_BB37_29
	movzbl	-1(%rax,%r13), %esi
	cmpl	$46, %esi
	jne	Lunix_path_BB37_21
	cmpq	%r13, %rcx
	je	Lunix_path_BB37_29
	cmpb	$47, (%rax,%r13)
	jne	Lunix_path_BB37_22
	jmp	Lunix_path_BB37_29
Lunix_path_BB37_28:
	movq	%r15, %r13
Lunix_path_BB37_29:
	cmpq	%r15, %r12
	jae	Lunix_path_BB37_66
	movq	%r13, %rax
	cmpq	%r15, %r13
	jae	Lunix_path_BB37_37
	movq	(%rsp), %rax
	leaq	(%rax,%rbp), %rcx
	incq	%rcx
	leaq	-1(%r15), %rdx
	movq	%r13, %rax
	jmp	Lunix_path_BB37_33
	.p2align	4
Lunix_path_BB37_32:
	incq	%rax
	cmpq	%rax, %r15
	je	Lunix_path_BB37_11
Lunix_path_BB37_33:
	movzbl	-1(%rcx,%rax), %esi
	cmpl	$47, %esi
	je	Lunix_path_BB37_32
	cmpl	$46, %esi
	jne	Lunix_path_BB37_37
	cmpq	%rax, %rdx
	je	Lunix_path_BB37_11
	cmpb	$47, (%rcx,%rax)
	je	Lunix_path_BB37_32
Lunix_path_BB37_37:
	movq	%r12, %rdx
	cmpq	%r15, %rax
	jae	Lunix_path_BB37_64
	movq	(%rsp), %rcx
	addq	%rbp, %rcx
	addq	$2, %rcx
	leaq	-1(%r15), %rdi
	xorl	%r12d, %r12d
Lunix_path_BB37_39:
	movq	%r15, %rsi
	subq	%rax, %rsi
	cmpq	$18, %rsi
	jae	Lunix_path_BB37_42
	xorl	%r8d, %r8d
	cmpq	%rsi, %r8
	jae	Lunix_path_BB37_41
Lunix_path_BB37_48:
	leaq	(%rcx,%rax), %rdi
	leaq	-2(%rsi), %r9
	leaq	-1(%rsi), %r10
	jmp	Lunix_path_BB37_51
	.p2align	4
Lunix_path_BB37_49:
	cmpl	$47, %r11d
	je	Lunix_path_BB37_57
Lunix_path_BB37_50:
	incq	%r8
	cmpq	%r8, %rsi
	je	Lunix_path_BB37_56
Lunix_path_BB37_51:
	cmpb	$47, -2(%rdi,%r8)
	jne	Lunix_path_BB37_50
	cmpq	%r8, %r10
	je	Lunix_path_BB37_57
	movzbl	-1(%rdi,%r8), %r11d
	cmpl	$46, %r11d
	jne	Lunix_path_BB37_49
	cmpq	%r8, %r9
	je	Lunix_path_BB37_57
	cmpb	$47, (%rdi,%r8)
	jne	Lunix_path_BB37_50
	jmp	Lunix_path_BB37_57
Lunix_path_BB37_42:
	movq	%rsi, %rdi
	addq	$-18, %rdi
	je	Lunix_path_BB37_46
	leaq	(%rcx,%rax), %r8
	xorl	%r9d, %r9d
	.p2align	4
Lunix_path_BB37_44:
	movdqu	-2(%r8,%r9), %xmm0
	movdqu	-1(%r8,%r9), %xmm1
	movdqu	(%r8,%r9), %xmm2
	movdqa	Lunix_path_CPI37_0(%rip), %xmm3
	pcmpeqb	%xmm1, %xmm3
	movdqa	Lunix_path_CPI37_1(%rip), %xmm4
	pcmpeqb	%xmm4, %xmm2
	pand	%xmm3, %xmm2
	pcmpeqb	%xmm4, %xmm0
	pcmpeqb	%xmm4, %xmm1
	por	%xmm2, %xmm1
	pand	%xmm0, %xmm1
	pmovmskb	%xmm1, %r10d
	orl	$65536, %r10d
	rep		bsfl	%r10d, %r10d
	cmpw	$15, %r10w
	jbe	Lunix_path_BB37_47
	addq	$16, %r9
	cmpq	%rdi, %r9
	jb	Lunix_path_BB37_44
Lunix_path_BB37_46:
	leaq	(%rbx,%rax), %r8
	movdqu	(%r8,%rdi), %xmm0
	movdqu	1(%r8,%rdi), %xmm1
	movdqu	2(%r8,%rdi), %xmm2
	movdqa	Lunix_path_CPI37_0(%rip), %xmm3
	pcmpeqb	%xmm1, %xmm3
	movdqa	Lunix_path_CPI37_1(%rip), %xmm4
	pcmpeqb	%xmm4, %xmm2
	pand	%xmm3, %xmm2
	pcmpeqb	%xmm4, %xmm0
	pcmpeqb	%xmm4, %xmm1
	por	%xmm2, %xmm1
	pand	%xmm0, %xmm1
	pmovmskb	%xmm1, %r8d
	orl	$65536, %r8d
	rep		bsfl	%r8d, %r8d
	addq	%rdi, %r8
	leaq	-1(%r15), %rdi
	cmpq	%rsi, %r8
	jb	Lunix_path_BB37_48
Lunix_path_BB37_41:
	addq	%r8, %r12
	incq	%r12
	addq	%r8, %rax
	cmpq	%r15, %rax
	jb	Lunix_path_BB37_59
	jmp	Lunix_path_BB37_63
Lunix_path_BB37_56:
	movq	%rsi, %r8
Lunix_path_BB37_57:
	leaq	-1(%r15), %rdi
	addq	%r8, %r12
	incq	%r12
	addq	%r8, %rax
	cmpq	%r15, %rax
	jb	Lunix_path_BB37_59
	jmp	Lunix_path_BB37_63
	.p2align	4
Lunix_path_BB37_58:
	incq	%rax
	cmpq	%rax, %r15
	je	Lunix_path_BB37_65
Lunix_path_BB37_59:
	movzbl	-2(%rcx,%rax), %esi
	cmpl	$47, %esi
	je	Lunix_path_BB37_58
	cmpl	$46, %esi
	jne	Lunix_path_BB37_63
	cmpq	%rax, %rdi
	je	Lunix_path_BB37_65
	cmpb	$47, -1(%rcx,%rax)
	je	Lunix_path_BB37_58
Lunix_path_BB37_63:
	cmpq	%r15, %rax
	jb	Lunix_path_BB37_39
	jmp	Lunix_path_BB37_65
Lunix_path_BB37_47:
	movzwl	%r10w, %r8d
	addq	%r9, %r8
	leaq	-1(%r15), %rdi
	cmpq	%rsi, %r8
	jae	Lunix_path_BB37_41
	jmp	Lunix_path_BB37_48
Lunix_path_BB37_64:
	xorl	%r12d, %r12d
Lunix_path_BB37_65:
	addq	%r13, %r12
	cmpq	%r12, %rdx
	jb	Lunix_path_BB37_124
Lunix_path_BB37_66:
	movq	%r14, %rax
	subq	%rbx, %rax
	cmpq	%r13, %rax
	jae	Lunix_path_BB37_69
	cmpq	$4, %r13
	jb	Lunix_path_BB37_68
	cmpq	$32, %rax
	jae	Lunix_path_BB37_127
Lunix_path_BB37_68:
	xorl	%eax, %eax
Lunix_path_BB37_136:
	movq	%r13, %rdx
	movq	%rax, %rcx
	andq	$3, %rdx
	je	Lunix_path_BB37_139
	movq	%rax, %rcx
	.p2align	4
Lunix_path_BB37_138:
	movzbl	(%rbx,%rcx), %esi
	movb	%sil, (%r14,%rcx)
	incq	%rcx
	decq	%rdx
	jne	Lunix_path_BB37_138
Lunix_path_BB37_139:
	subq	%r13, %rax
	cmpq	$-4, %rax
	ja	Lunix_path_BB37_70
	movq	(%rsp), %rax
	addq	%rbp, %rax
	addq	$3, %rax
	movq	8(%rsp), %rdx
	movq	16(%rsp), %rsi
	addq	%rsi, %rdx
	addq	$3, %rdx
	.p2align	4
Lunix_path_BB37_141:
	movzbl	-3(%rax,%rcx), %esi
	movb	%sil, -3(%rdx,%rcx)
	movzbl	-2(%rax,%rcx), %esi
	movb	%sil, -2(%rdx,%rcx)
	movzbl	-1(%rax,%rcx), %esi
	movb	%sil, -1(%rdx,%rcx)
	movzbl	(%rax,%rcx), %esi
	movb	%sil, (%rdx,%rcx)
	addq	$4, %rcx
	cmpq	%rcx, %r13
	jne	Lunix_path_BB37_141
	jmp	Lunix_path_BB37_70
Lunix_path_BB37_69:
	movq	%r14, %rdi
	movq	%rbx, %rsi
	movq	%r13, %rdx
	callq	_memmove
Lunix_path_BB37_70:
	movq	%r13, %r12
	movq	%r13, %r14
	cmpq	%r15, %r13
	jae	Lunix_path_BB37_77
	movq	(%rsp), %rax
	addq	%rbp, %rax
	incq	%rax
	leaq	-1(%r15), %rcx
	movq	%r12, %r14
	jmp	Lunix_path_BB37_73
	.p2align	4
Lunix_path_BB37_72:
	incq	%r14
	cmpq	%r14, %r15
	je	Lunix_path_BB37_124
Lunix_path_BB37_73:
	movzbl	-1(%rax,%r14), %edx
	cmpl	$47, %edx
	je	Lunix_path_BB37_72
	cmpl	$46, %edx
	jne	Lunix_path_BB37_77
	cmpq	%r14, %rcx
	je	Lunix_path_BB37_124
	cmpb	$47, (%rax,%r14)
	je	Lunix_path_BB37_72
Lunix_path_BB37_77:
	cmpq	%r15, %r14
	jae	Lunix_path_BB37_124
	movq	8(%rsp), %rax
	movq	16(%rsp), %rdx
	leaq	(%rdx,%rax), %rcx
	incq	%rcx
	movq	%rcx, 40(%rsp)
	movq	(%rsp), %rcx
	leaq	2(%rbp,%rcx), %r11
	leaq	15(%rbp,%rcx), %rcx
	movq	%rcx, 32(%rsp)
	leaq	16(%rdx,%rax), %rcx
	movq	%rcx, 24(%rsp)
	addq	%rdx, %rax
	addq	$3, %rax
	movq	%rax, 8(%rsp)
	leaq	-1(%r15), %r10
Lunix_path_BB37_79:
	movq	%r12, %r13
	leaq	(%rbx,%r14), %rax
	movq	%r15, %rcx
	subq	%r14, %rcx
	cmpq	$18, %rcx
	jae	Lunix_path_BB37_81
	xorl	%ebp, %ebp
	cmpq	%rcx, %rbp
	jb	Lunix_path_BB37_87
	jmp	Lunix_path_BB37_96
	.p2align	4
Lunix_path_BB37_81:
	movq	%rcx, %rdx
	addq	$-18, %rdx
	je	Lunix_path_BB37_85
	leaq	(%r11,%r14), %rdi
	xorl	%esi, %esi
	.p2align	4
Lunix_path_BB37_83:
	movdqu	-2(%rdi,%rsi), %xmm0
	movdqu	-1(%rdi,%rsi), %xmm1
	movdqu	(%rdi,%rsi), %xmm2
	movdqa	Lunix_path_CPI37_0(%rip), %xmm3
	pcmpeqb	%xmm1, %xmm3
	movdqa	Lunix_path_CPI37_1(%rip), %xmm4
	pcmpeqb	%xmm4, %xmm2
	pand	%xmm3, %xmm2
	pcmpeqb	%xmm4, %xmm0
	pcmpeqb	%xmm4, %xmm1
	por	%xmm2, %xmm1
	pand	%xmm0, %xmm1
	pmovmskb	%xmm1, %r8d
	orl	$65536, %r8d
	rep		bsfl	%r8d, %r8d
	cmpw	$15, %r8w
	jbe	Lunix_path_BB37_86
	addq	$16, %rsi
	cmpq	%rdx, %rsi
	jb	Lunix_path_BB37_83
Lunix_path_BB37_85:
	movdqu	(%rax,%rdx), %xmm0
	movdqu	1(%rax,%rdx), %xmm1
	movdqu	2(%rax,%rdx), %xmm2
	movdqa	Lunix_path_CPI37_0(%rip), %xmm3
	pcmpeqb	%xmm1, %xmm3
	movdqa	Lunix_path_CPI37_1(%rip), %xmm4
	pcmpeqb	%xmm4, %xmm2
	pand	%xmm3, %xmm2
	pcmpeqb	%xmm4, %xmm0
	pcmpeqb	%xmm4, %xmm1
	por	%xmm2, %xmm1
	pand	%xmm0, %xmm1
	pmovmskb	%xmm1, %esi
	orl	$65536, %esi
	rep		bsfl	%esi, %ebp
	addq	%rdx, %rbp
	cmpq	%rcx, %rbp
	jb	Lunix_path_BB37_87
	jmp	Lunix_path_BB37_96
Lunix_path_BB37_86:
	movzwl	%r8w, %ebp
	addq	%rsi, %rbp
	cmpq	%rcx, %rbp
	jae	Lunix_path_BB37_96
	.p2align	4
Lunix_path_BB37_87:
	leaq	(%r11,%r14), %rdx
	leaq	-2(%rcx), %rsi
	leaq	-1(%rcx), %rdi
	jmp	Lunix_path_BB37_90
	.p2align	4
Lunix_path_BB37_88:
	cmpl	$47, %r8d
	je	Lunix_path_BB37_96
Lunix_path_BB37_89:
	incq	%rbp
	cmpq	%rbp, %rcx
	je	Lunix_path_BB37_95
Lunix_path_BB37_90:
	cmpb	$47, -2(%rdx,%rbp)
	jne	Lunix_path_BB37_89
	cmpq	%rbp, %rdi
	je	Lunix_path_BB37_96
	movzbl	-1(%rdx,%rbp), %r8d
	cmpl	$46, %r8d
	jne	Lunix_path_BB37_88
	cmpq	%rbp, %rsi
	je	Lunix_path_BB37_96
	cmpb	$47, (%rdx,%rbp)
	jne	Lunix_path_BB37_89
	jmp	Lunix_path_BB37_96
	.p2align	4
Lunix_path_BB37_95:
	movq	%rcx, %rbp
Lunix_path_BB37_96:
	leaq	-1(%rax), %rsi
	leaq	1(%rbp), %r12
	movq	48(%rsp), %rcx
	leaq	(%rcx,%r13), %rdi
	movq	%rdi, %rcx
	subq	%rsi, %rcx
	cmpq	%r12, %rcx
	jae	Lunix_path_BB37_99
	cmpq	$4, %r12
	jb	Lunix_path_BB37_98
	movq	40(%rsp), %rcx
	addq	%r13, %rcx
	subq	%rax, %rcx
	cmpq	$32, %rcx
	jae	Lunix_path_BB37_102
Lunix_path_BB37_98:
	xorl	%ecx, %ecx
Lunix_path_BB37_111:
	movl	%ebp, %r8d
	notl	%r8d
	movq	%rcx, %rdx
	testb	$3, %r8b
	je	Lunix_path_BB37_114
	leal	1(%rbp), %r8d
	andl	$3, %r8d
	movq	%rcx, %rdx
	.p2align	4
Lunix_path_BB37_113:
	movzbl	(%rsi,%rdx), %r9d
	movb	%r9b, (%rdi,%rdx)
	incq	%rdx
	decq	%r8
	jne	Lunix_path_BB37_113
Lunix_path_BB37_114:
	movq	%rbp, %rsi
	subq	%rcx, %rsi
	cmpq	$3, %rsi
	jb	Lunix_path_BB37_117
	movq	8(%rsp), %rcx
	addq	%r13, %rcx
	.p2align	4
Lunix_path_BB37_116:
	movzbl	-1(%rax,%rdx), %esi
	movb	%sil, -3(%rcx,%rdx)
	movzbl	(%rax,%rdx), %esi
	movb	%sil, -2(%rcx,%rdx)
	movzbl	1(%rax,%rdx), %esi
	movb	%sil, -1(%rcx,%rdx)
	movzbl	2(%rax,%rdx), %esi
	movb	%sil, (%rcx,%rdx)
	addq	$4, %rdx
	cmpq	%rdx, %r12
	jne	Lunix_path_BB37_116
	jmp	Lunix_path_BB37_117
	.p2align	4
Lunix_path_BB37_99:
	movq	%r12, %rdx
	movq	%r13, (%rsp)
	movq	%rbx, %r13
	movq	%r10, %rbx
	movq	%r11, %r12
	callq	_memmove
	movq	%r12, %r11
	leaq	1(%rbp), %r12
	movq	%rbx, %r10
	movq	%r13, %rbx
	movq	(%rsp), %r13
Lunix_path_BB37_117:
	addq	%r13, %r12
	addq	%r14, %rbp
	cmpq	%r15, %rbp
	jb	Lunix_path_BB37_120
Lunix_path_BB37_118:
	movq	%rbp, %r14
	cmpq	%r15, %rbp
	jb	Lunix_path_BB37_79
	jmp	Lunix_path_BB37_124
	.p2align	4
Lunix_path_BB37_119:
	incq	%rbp
	cmpq	%rbp, %r15
	je	Lunix_path_BB37_124
Lunix_path_BB37_120:
	movzbl	-2(%r11,%rbp), %eax
	cmpl	$47, %eax
	je	Lunix_path_BB37_119
	cmpl	$46, %eax
	jne	Lunix_path_BB37_118
	cmpq	%rbp, %r10
	je	Lunix_path_BB37_124
	cmpb	$47, -1(%r11,%rbp)
	je	Lunix_path_BB37_119
	jmp	Lunix_path_BB37_118
Lunix_path_BB37_102:
	cmpq	$32, %r12
	jae	Lunix_path_BB37_104
	xorl	%ecx, %ecx
	jmp	Lunix_path_BB37_108
Lunix_path_BB37_104:
	movq	%r12, %rcx
	andq	$-32, %rcx
	movq	32(%rsp), %rdx
	addq	%r14, %rdx
	movq	24(%rsp), %r8
	addq	%r13, %r8
	xorl	%r9d, %r9d
	.p2align	4
Lunix_path_BB37_105:
	movdqu	-16(%rdx,%r9), %xmm0
	movdqu	(%rdx,%r9), %xmm1
	movdqu	%xmm0, -16(%r8,%r9)
	movdqu	%xmm1, (%r8,%r9)
	addq	$32, %r9
	cmpq	%r9, %rcx
	jne	Lunix_path_BB37_105
	cmpq	%rcx, %r12
	je	Lunix_path_BB37_117
	testb	$28, %r12b
	je	Lunix_path_BB37_111
Lunix_path_BB37_108:
	movq	%rcx, %rdx
	movq	%r12, %rcx
	andq	$-4, %rcx
	.p2align	4
Lunix_path_BB37_109:
	movl	(%rsi,%rdx), %r8d
	movl	%r8d, (%rdi,%rdx)
	addq	$4, %rdx
	cmpq	%rdx, %rcx
	jne	Lunix_path_BB37_109
	cmpq	%rcx, %r12
	je	Lunix_path_BB37_117
	jmp	Lunix_path_BB37_111
Lunix_path_BB37_124:
	movq	%r12, %rax
	addq	$56, %rsp
	popq	%rbx
	popq	%r12
	popq	%r13
	popq	%r14
	popq	%r15
	popq	%rbp
	retq
Lunix_path_BB37_127:
	cmpq	$32, %r13
	jae	Lunix_path_BB37_129
	xorl	%eax, %eax
	jmp	Lunix_path_BB37_133
Lunix_path_BB37_129:
	movq	%r13, %rax
	andq	$-32, %rax
	movq	(%rsp), %rcx
	addq	%rbp, %rcx
	addq	$16, %rcx
	movq	8(%rsp), %rdx
	movq	16(%rsp), %rsi
	addq	%rsi, %rdx
	addq	$16, %rdx
	xorl	%esi, %esi
	.p2align	4
Lunix_path_BB37_130:
	movdqu	-16(%rcx,%rsi), %xmm0
	movdqu	(%rcx,%rsi), %xmm1
	movdqu	%xmm0, -16(%rdx,%rsi)
	movdqu	%xmm1, (%rdx,%rsi)
	addq	$32, %rsi
	cmpq	%rsi, %rax
	jne	Lunix_path_BB37_130
	cmpq	%rax, %r13
	je	Lunix_path_BB37_70
	testb	$28, %r13b
	je	Lunix_path_BB37_136
Lunix_path_BB37_133:
	movq	%rax, %rcx
	movq	%r13, %rax
	andq	$-4, %rax
	.p2align	4
Lunix_path_BB37_134:
	movl	(%rbx,%rcx), %edx
	movl	%edx, (%r14,%rcx)
	addq	$4, %rcx
	cmpq	%rcx, %rax
	jne	Lunix_path_BB37_134
	cmpq	%rax, %r13
	je	Lunix_path_BB37_70
	jmp	Lunix_path_BB37_136
	.section	__TEXT,__literal16,16byte_literals
	.p2align	4, 0x0
Lunix_path_CPI38_0:
	.space	16,47
	.section	__TEXT,__text,regular,pure_instructions
	.globl	_unix_path_check_entries
	.p2align	4
_unix_path_check_entries:
	pushq	%rbp
	pushq	%r15
	pushq	%r14
	pushq	%r13
	pushq	%r12
	pushq	%rbx
	subq	$168, %rsp
	movq	%r9, %r14
	movl	%r8d, %r15d
	movq	%rcx, %rbp
	movq	%rdx, %rbx
	xorl	%eax, %eax
	testq	%rdi, %rdi
	sete	%al
	shll	$12, %eax
	movq	%rdi, 56(%rsp)
	movq	%rax, 8(%rsp)
	addq	%rax, %rdi
	xorl	%r12d, %r12d
	testq	%rdx, %rdx
	sete	%r12b
	shll	$12, %r12d
	addq	%r12, %rdx
	movq	%rdi, 96(%rsp)
	movq	%rsi, 64(%rsp)
	movq	%rdx, 32(%rsp)
	callq	_path_archive.records.split
	movl	%eax, %ecx
	movl	$2, %eax
	cmpb	$1, %cl
	jne	Lunix_path_BB38_211
	movq	%rdx, %rsi
	movl	$3, %eax
	cmpq	%rdx, %rbp
	jb	Lunix_path_BB38_211
	movq	%r12, 16(%rsp)
	movq	%rbx, (%rsp)
	movq	56(%rsp), %rax
	movq	8(%rsp), %rcx
	addq	%rax, %rcx
	movq	%rcx, 80(%rsp)
	movq	64(%rsp), %r12
	movq	%r12, 88(%rsp)
	cmpq	$20, %rsi
	movq	%rsi, 24(%rsp)
	movq	%r14, 136(%rsp)
	movl	%r15d, 124(%rsp)
	ja	Lunix_path_BB38_4
	leaq	80(%rsp), %rdx
	movq	(%rsp), %rax
	movq	16(%rsp), %rcx
	leaq	(%rax,%rcx), %rdi
	callq	_core.slice.sort.small.insertion_sort.fd4dfef4a36ac24b.
	jmp	Lunix_path_BB38_18
Lunix_path_BB38_4:
	movq	(%rsp), %rbp
	movq	16(%rsp), %r14
	leaq	(%r14,%rbp), %rbx
	movq	40(%rbx), %rax
	movq	48(%rbx), %rsi
	cmpq	%rsi, %r12
	cmovbq	%r12, %rsi
	cmpq	%rax, %rsi
	cmovbq	%rsi, %rax
	leaq	(%rcx,%rax), %rdi
	subq	%rax, %rsi
	callq	_path_archive.slot.without_dot
	movq	%rax, %r15
	movq	%rdx, %r13
	movq	(%rbx), %rax
	movq	8(%rbx), %rsi
	cmpq	%rsi, %r12
	cmovbq	%r12, %rsi
	cmpq	%rax, %rsi
	cmovbq	%rsi, %rax
	movq	96(%rsp), %rcx
	leaq	(%rcx,%rax), %rdi
	subq	%rax, %rsi
	callq	_path_archive.slot.without_dot
	movq	%rdx, %rcx
	movq	%r15, %rdi
	movq	%r13, %rsi
	movq	%rax, %rdx
	callq	_unix_path.compare.compare
	movq	56(%rbx), %rcx
	movq	64(%rbx), %rdx
	movq	24(%rbx), %rsi
	cmpq	%rsi, %rdx
	setae	%dil
	addb	%dil, %dil
	cmpq	%rsi, %rdx
	movq	16(%rbx), %rdx
	movzbl	%dil, %esi
	movl	$1, %edi
	cmovnel	%esi, %edi
	cmpq	%rdx, %rcx
	setae	%sil
	addb	%sil, %sil
	cmpq	%rdx, %rcx
	movzbl	%sil, %ecx
	cmovel	%edi, %ecx
	cmpb	$1, %al
	movzbl	%al, %eax
	cmovel	%ecx, %eax
	movl	%eax, 48(%rsp)
	leaq	(%r14,%rbp), %r12
	addq	$104, %r12
	movl	$2, %r14d
	testb	%al, %al
	je	Lunix_path_BB38_10
	.p2align	4
Lunix_path_BB38_5:
	movq	-24(%r12), %rax
	movq	-16(%r12), %rsi
	movq	64(%rsp), %rbp
	cmpq	%rsi, %rbp
	cmovbq	%rbp, %rsi
	cmpq	%rax, %rsi
	cmovbq	%rsi, %rax
	movq	56(%rsp), %rcx
	movq	8(%rsp), %rdx
	leaq	(%rcx,%rdx), %rbx
	leaq	(%rbx,%rax), %rdi
	subq	%rax, %rsi
	callq	_path_archive.slot.without_dot
	movq	%rax, %r15
	movq	%rdx, %r13
	movq	-64(%r12), %rax
	movq	-56(%r12), %rsi
	cmpq	%rsi, %rbp
	cmovbq	%rbp, %rsi
	cmpq	%rax, %rsi
	cmovbq	%rsi, %rax
	leaq	(%rbx,%rax), %rdi
	subq	%rax, %rsi
	callq	_path_archive.slot.without_dot
	movq	%rdx, %rcx
	movq	%r15, %rdi
	movq	%r13, %rsi
	movq	%rax, %rdx
	callq	_unix_path.compare.compare
	movq	-8(%r12), %rcx
	movq	(%r12), %rdx
	movq	-40(%r12), %rsi
	cmpq	%rsi, %rdx
	setae	%dil
	addb	%dil, %dil
	cmpq	%rsi, %rdx
	movq	-48(%r12), %rdx
	movzbl	%dil, %esi
	movl	$1, %edi
	cmovnel	%esi, %edi
	cmpq	%rdx, %rcx
	setae	%sil
	addb	%sil, %sil
	cmpq	%rdx, %rcx
	movzbl	%sil, %ecx
	cmovel	%edi, %ecx
	cmpb	$1, %al
	je	Lunix_path_BB38_7
	movzbl	%al, %ecx
Lunix_path_BB38_7:
	testb	%cl, %cl
	movq	24(%rsp), %r9
	je	Lunix_path_BB38_13
	incq	%r14
	addq	$40, %r12
	cmpq	%r14, %r9
	jne	Lunix_path_BB38_5
	jmp	Lunix_path_BB38_15
	.p2align	4
Lunix_path_BB38_9:
	incq	%r14
	addq	$40, %r12
	cmpq	%r14, %r9
	je	Lunix_path_BB38_17
Lunix_path_BB38_10:
	movq	-24(%r12), %rax
	movq	-16(%r12), %rsi
	movq	64(%rsp), %rbp
	cmpq	%rsi, %rbp
	cmovbq	%rbp, %rsi
	cmpq	%rax, %rsi
	cmovbq	%rsi, %rax
	movq	56(%rsp), %rcx
	movq	8(%rsp), %rdx
	leaq	(%rcx,%rdx), %rbx
	leaq	(%rbx,%rax), %rdi
	subq	%rax, %rsi
	callq	_path_archive.slot.without_dot
	movq	%rax, %r15
	movq	%rdx, %r13
	movq	-64(%r12), %rax
	movq	-56(%r12), %rsi
	cmpq	%rsi, %rbp
	cmovbq	%rbp, %rsi
	cmpq	%rax, %rsi
	cmovbq	%rsi, %rax
	leaq	(%rbx,%rax), %rdi
	subq	%rax, %rsi
	callq	_path_archive.slot.without_dot
	movq	%rdx, %rcx
	movq	%r15, %rdi
	movq	%r13, %rsi
	movq	%rax, %rdx
	callq	_unix_path.compare.compare
	movq	-8(%r12), %rcx
	movq	(%r12), %rdx
	movq	-40(%r12), %rsi
	cmpq	%rsi, %rdx
	setae	%dil
	addb	%dil, %dil
	cmpq	%rsi, %rdx
	movq	-48(%r12), %rdx
	movzbl	%dil, %esi
	movl	$1, %edi
	cmovnel	%esi, %edi
	cmpq	%rdx, %rcx
	setae	%sil
	addb	%sil, %sil
	cmpq	%rdx, %rcx
	movzbl	%sil, %ecx
	cmovel	%edi, %ecx
	cmpb	$1, %al
	je	Lunix_path_BB38_12
	movzbl	%al, %ecx
Lunix_path_BB38_12:
	testb	%cl, %cl
	movq	24(%rsp), %r9
	je	Lunix_path_BB38_9
Lunix_path_BB38_13:
	cmpq	%r9, %r14
	jae	Lunix_path_BB38_16
	bsrq	%r9, %rcx
	xorl	$63, %ecx
	addl	%ecx, %ecx
	xorl	$126, %ecx
	leaq	80(%rsp), %r8
	movq	(%rsp), %rax
	movq	16(%rsp), %rdx
	leaq	(%rax,%rdx), %rdi
	xorl	%esi, %esi
	movq	%r9, %rdx
	callq	_core.slice.sort.unstable.quicksort.fd4dfef4a36ac24b.
Lunix_path_BB38_15:
	movq	24(%rsp), %r9
	jmp	Lunix_path_BB38_20
Lunix_path_BB38_16:
	cmpb	$0, 48(%rsp)
	jne	Lunix_path_BB38_19
Lunix_path_BB38_17:
	movq	%r9, %rdx
	shrq	%rdx
	subq	%rdx, %r9
	leaq	(%r9,%r9,4), %rax
	movq	(%rsp), %rcx
	movq	16(%rsp), %rsi
	leaq	(%rcx,%rsi), %rdi
	leaq	(%rdi,%rax,8), %rsi
	callq	_core.slice.edits.mirror.24.path_archive.slot.Slot.
Lunix_path_BB38_18:
	movq	24(%rsp), %r9
Lunix_path_BB38_19:
	testq	%r9, %r9
	je	Lunix_path_BB38_210
Lunix_path_BB38_20:
	movq	(%rsp), %rax
	movq	16(%rsp), %rcx
	leaq	(%rcx,%rax), %r14
	addq	$32, %r14
	xorl	%eax, %eax
	xorl	%r12d, %r12d
	xorl	%esi, %esi
	movq	32(%rsp), %rdi
	jmp	Lunix_path_BB38_23
	.p2align	4
Lunix_path_BB38_21:
	cmpq	$5, -16(%r14)
	setb	%al
	cmovbq	%r12, %rsi
	movq	%r12, %rcx
Lunix_path_BB38_22:
	movq	%rcx, (%r14)
	incq	%r12
	addq	$40, %r14
	cmpq	%r12, %r9
	je	Lunix_path_BB38_35
Lunix_path_BB38_23:
	cmpb	$1, %al
	jne	Lunix_path_BB38_21
	movq	%rsi, (%rsp)
	leaq	(,%rsi,8), %rax
	leaq	(%rax,%rax,4), %rdx
	movq	8(%rdi,%rdx), %rax
	movq	64(%rsp), %rcx
	movq	%rcx, %rsi
	cmpq	%rax, %rcx
	jb	Lunix_path_BB38_26
	movq	%rax, %rsi
Lunix_path_BB38_26:
	movq	(%rdi,%rdx), %rax
	cmpq	%rax, %rsi
	cmovbq	%rsi, %rax
	movq	56(%rsp), %rcx
	movq	%rdx, 16(%rsp)
	movq	8(%rsp), %rdx
	leaq	(%rcx,%rdx), %r15
	leaq	(%r15,%rax), %rdi
	subq	%rax, %rsi
	callq	_path_archive.slot.without_dot
	movq	%rax, %rbx
	movq	%rdx, %rbp
	movq	-32(%r14), %rax
	movq	-24(%r14), %rsi
	movq	64(%rsp), %rcx
	cmpq	%rsi, %rcx
	cmovbq	%rcx, %rsi
	cmpq	%rax, %rsi
	cmovbq	%rsi, %rax
	leaq	(%r15,%rax), %rdi
	subq	%rax, %rsi
	callq	_path_archive.slot.without_dot
	movq	%rax, %r13
	movq	%rdx, %r15
	movq	%rax, %rdi
	movq	%rdx, %rsi
	movq	%rbx, %rdx
	movq	%rbp, %rcx
	callq	_path_archive.outlined.starts_with
	testb	%al, %al
	je	Lunix_path_BB38_32
	movq	%rbx, %rdi
	movq	%rbp, %rsi
	movq	%r13, %rdx
	movq	%r15, %rcx
	callq	_path_archive.outlined.starts_with
	movq	32(%rsp), %rdi
	movq	16(%rsp), %rcx
	movq	16(%rdi,%rcx), %rdx
	testb	%al, %al
	je	Lunix_path_BB38_31
	movq	-16(%r14), %rax
	movq	%rdx, %rcx
	xorq	$1, %rcx
	xorq	$2, %rax
	orq	%rcx, %rax
	movq	(%rsp), %rsi
	movq	%rsi, %rcx
	movq	24(%rsp), %r9
	je	Lunix_path_BB38_30
	movq	%r12, %rcx
Lunix_path_BB38_30:
	testq	%rdx, %rdx
	cmoveq	%rsi, %rcx
	movb	$1, %al
	jmp	Lunix_path_BB38_22
Lunix_path_BB38_31:
	movb	$1, %al
	cmpq	$4, %rdx
	jbe	Lunix_path_BB38_34
	.p2align	4
Lunix_path_BB38_32:
	cmpq	$5, -16(%r14)
	movq	(%rsp), %rsi
	cmovbq	%r12, %rsi
	movb	$1, %al
	movq	%r12, %rcx
Lunix_path_BB38_33:
	movq	32(%rsp), %rdi
	movq	24(%rsp), %r9
	jmp	Lunix_path_BB38_22
Lunix_path_BB38_34:
	movq	(%rsp), %rsi
	movq	%rsi, %rcx
	jmp	Lunix_path_BB38_33
Lunix_path_BB38_35:
	movl	$0, 72(%rsp)
	movl	$0, 75(%rsp)
	movq	64(%rsp), %rax
	movq	56(%rsp), %rdx
	movq	8(%rsp), %rsi
	leaq	(%rdx,%rsi), %rcx
	addq	%rcx, %rax
	movq	%rax, 128(%rsp)
	leaq	-16(%rsi,%rdx), %rax
	movq	%rax, 152(%rsp)
	leaq	(%rsi,%rdx), %rax
	decq	%rax
	movq	%rax, 144(%rsp)
	xorl	%r11d, %r11d
	xorl	%r10d, %r10d
	xorl	%r8d, %r8d
	movq	$0, 112(%rsp)
	movq	$0, 104(%rsp)
	jmp	Lunix_path_BB38_38
	.p2align	4
Lunix_path_BB38_36:
	movl	40(%rsp), %edx
	movl	43(%rsp), %esi
	movl	%esi, 83(%rsp)
	movl	%edx, 80(%rsp)
	movl	%r14d, %edx
	movq	%rdx, 112(%rsp)
	movq	%rcx, 104(%rsp)
	movq	%rax, %r11
	movq	56(%rsp), %r8
Lunix_path_BB38_37:
	movl	80(%rsp), %eax
	movl	83(%rsp), %ecx
	movl	%ecx, 75(%rsp)
	movl	%eax, 72(%rsp)
	incq	%r10
	cmpq	%r9, %r10
	je	Lunix_path_BB38_207
Lunix_path_BB38_38:
	leaq	(,%r10,8), %rax
	leaq	(%rax,%rax,4), %r13
	movq	16(%rdi,%r13), %r12
	movb	$1, %al
	movq	%rax, 56(%rsp)
	movb	$1, %r14b
	cmpq	$4, %r12
	je	Lunix_path_BB38_55
	movq	%r8, (%rsp)
	movq	%r11, 48(%rsp)
	movq	%r10, 16(%rsp)
	movq	8(%rdi,%r13), %r14
	movq	64(%rsp), %rax
	cmpq	%r14, %rax
	movq	%r14, 160(%rsp)
	cmovbq	%rax, %r14
	movq	%r13, 8(%rsp)
	movq	(%rdi,%r13), %r15
	cmpq	%r15, %r14
	cmovbq	%r14, %r15
	movq	96(%rsp), %rax
	leaq	(%rax,%r15), %rbp
	movq	%r14, %rbx
	subq	%r15, %rbx
	movq	%rbp, %rdi
	movq	%rbx, %rsi
	callq	_path_archive.outlined.has_root_or_parent_dir
	testb	%al, %al
	je	Lunix_path_BB38_41
	xorl	%r14d, %r14d
	movq	32(%rsp), %rdi
	movq	24(%rsp), %r9
	movq	16(%rsp), %r10
	movq	48(%rsp), %r11
	movq	(%rsp), %r8
	jmp	Lunix_path_BB38_54
	.p2align	4
Lunix_path_BB38_41:
	cmpq	$15, %rbx
	ja	Lunix_path_BB38_46
	testq	%rbx, %rbx
	movq	32(%rsp), %rdi
	movq	24(%rsp), %r9
	movq	16(%rsp), %r10
	movq	48(%rsp), %r11
	movq	(%rsp), %r8
	je	Lunix_path_BB38_51
	xorl	%ecx, %ecx
	.p2align	4
Lunix_path_BB38_44:
	cmpb	$0, (%rbp,%rcx)
	je	Lunix_path_BB38_52
	incq	%rcx
	cmpq	%rcx, %rbx
	jne	Lunix_path_BB38_44
	jmp	Lunix_path_BB38_61
Lunix_path_BB38_46:
	movq	%rbx, %rax
	addq	$-16, %rax
	movq	32(%rsp), %rdi
	movq	24(%rsp), %r9
	movq	16(%rsp), %r10
	movq	48(%rsp), %r11
	movq	(%rsp), %r8
	je	Lunix_path_BB38_50
	xorl	%edx, %edx
	.p2align	4
Lunix_path_BB38_48:
	movdqu	(%rbp,%rdx), %xmm0
	pxor	%xmm1, %xmm1
	pcmpeqb	%xmm0, %xmm1
	pmovmskb	%xmm1, %ecx
	orl	$65536, %ecx
	rep		bsfl	%ecx, %ecx
	cmpw	$15, %cx
	jbe	Lunix_path_BB38_60
	addq	$16, %rdx
	cmpq	%rax, %rdx
	jb	Lunix_path_BB38_48
Lunix_path_BB38_50:
	movdqu	(%rbp,%rax), %xmm0
	pxor	%xmm1, %xmm1
	pcmpeqb	%xmm0, %xmm1
	pmovmskb	%xmm1, %ecx
	orl	$65536, %ecx
	rep		bsfl	%ecx, %ecx
	addq	%rax, %rcx
	cmpq	%rbx, %rcx
	jb	Lunix_path_BB38_53
	jmp	Lunix_path_BB38_61
Lunix_path_BB38_51:
	xorl	%ecx, %ecx
Lunix_path_BB38_52:
	cmpq	%rbx, %rcx
	jae	Lunix_path_BB38_61
Lunix_path_BB38_53:
	xorl	%r14d, %r14d
Lunix_path_BB38_54:
	movq	8(%rsp), %r13
Lunix_path_BB38_55:
	movq	24(%rdi,%r13), %rax
	movl	$0, 43(%rsp)
	movl	$0, 40(%rsp)
	movb	$1, %dl
	movq	%rax, %rcx
Lunix_path_BB38_56:
	cmpb	$1, %r8b
	jne	Lunix_path_BB38_36
	cmpq	%r11, %rax
	setb	%sil
	andb	%sil, %dl
	cmpb	$1, %dl
	jne	Lunix_path_BB38_59
	movl	40(%rsp), %edx
	movl	43(%rsp), %esi
	movl	%esi, 83(%rsp)
	movl	%edx, 80(%rsp)
	movb	$1, %r8b
	movl	%r14d, %edx
	movq	%rdx, 112(%rsp)
	movq	%rcx, 104(%rsp)
	movq	%rax, %r11
	jmp	Lunix_path_BB38_37
	.p2align	4
Lunix_path_BB38_59:
	movl	72(%rsp), %eax
	movl	75(%rsp), %ecx
	movl	%ecx, 83(%rsp)
	movl	%eax, 80(%rsp)
	movb	$1, %r8b
	jmp	Lunix_path_BB38_37
Lunix_path_BB38_60:
	movzwl	%cx, %ecx
	addq	%rdx, %rcx
	cmpq	%rbx, %rcx
	jb	Lunix_path_BB38_53
Lunix_path_BB38_61:
	cmpq	$4, %r12
	movq	8(%rsp), %r13
	jbe	Lunix_path_BB38_64
Lunix_path_BB38_62:
	movq	32(%rdi,%r13), %rax
	cmpq	%r10, %rax
	jne	Lunix_path_BB38_71
	movl	$0, 43(%rsp)
	movl	$0, 40(%rsp)
	xorl	%edx, %edx
	movq	$0, 56(%rsp)
	xorl	%eax, %eax
	xorl	%ecx, %ecx
	xorl	%r14d, %r14d
	jmp	Lunix_path_BB38_56
Lunix_path_BB38_64:
	movq	152(%rsp), %rax
	leaq	(%rax,%r14), %rdx
	movq	144(%rsp), %rax
	addq	%r14, %rax
	subq	%r15, %r14
	incq	%r14
	movq	%rbx, %rcx
	.p2align	4
Lunix_path_BB38_65:
	cmpq	$15, %rcx
	jbe	Lunix_path_BB38_68
	addq	$-16, %rcx
	movdqu	(%rdx), %xmm0
	pcmpeqb	Lunix_path_CPI38_0(%rip), %xmm0
	pmovmskb	%xmm0, %esi
	addq	$-16, %rdx
	addq	$-16, %r14
	addq	$-16, %rax
	testl	%esi, %esi
	je	Lunix_path_BB38_65
	movzwl	%si, %eax
	bsrq	%rax, %rax
	xorq	$63, %rax
	subq	%rax, %rcx
	addq	$64, %rcx
	movq	%rcx, %r14
	movq	%rbx, %rax
	subq	%r14, %rax
	jne	Lunix_path_BB38_75
	jmp	Lunix_path_BB38_53
	.p2align	4
Lunix_path_BB38_68:
	cmpq	$1, %r14
	je	Lunix_path_BB38_74
	decq	%r14
	cmpb	$47, (%rax)
	leaq	-1(%rax), %rax
	jne	Lunix_path_BB38_68
	movq	%rbx, %rax
	subq	%r14, %rax
	jne	Lunix_path_BB38_75
	jmp	Lunix_path_BB38_53
Lunix_path_BB38_71:
	shlq	$3, %rax
	leaq	(%rax,%rax,4), %r15
	movq	(%rdi,%r15), %rax
	movq	8(%rdi,%r15), %rsi
	movq	64(%rsp), %r14
	cmpq	%rsi, %r14
	cmovbq	%r14, %rsi
	cmpq	%rax, %rsi
	cmovbq	%rsi, %rax
	movq	96(%rsp), %r12
	leaq	(%r12,%rax), %rdi
	subq	%rax, %rsi
	callq	_path_archive.slot.without_dot
	movq	%rax, %rbx
	movq	%rdx, %rbp
	movq	32(%rsp), %rax
	movq	(%rax,%r13), %rax
	movq	32(%rsp), %rcx
	movq	8(%rcx,%r13), %rsi
	cmpq	%rsi, %r14
	cmovbq	%r14, %rsi
	cmpq	%rax, %rsi
	cmovbq	%rsi, %rax
	leaq	(%r12,%rax), %rdi
	subq	%rax, %rsi
	callq	_path_archive.slot.without_dot
	movq	%rdx, %rcx
	movq	%rbx, %rdi
	movq	%rbp, %rsi
	movq	%rax, %rdx
	callq	_path_archive.outlined.starts_with
	movq	32(%rsp), %rdi
	movb	$2, %r14b
	testb	%al, %al
	je	Lunix_path_BB38_73
	cmpq	$2, 16(%rdi,%r13)
	sete	%r14b
	addb	$3, %r14b
Lunix_path_BB38_73:
	movq	24(%rdi,%r13), %rax
	movq	24(%rdi,%r15), %rcx
	movl	$0, 43(%rsp)
	movl	$0, 40(%rsp)
	movb	$1, %dl
	movb	$1, %sil
	movq	%rsi, 56(%rsp)
	movq	24(%rsp), %r9
	movq	16(%rsp), %r10
	movq	48(%rsp), %r11
	movq	(%rsp), %r8
	jmp	Lunix_path_BB38_56
Lunix_path_BB38_74:
	xorl	%r14d, %r14d
	movq	%rbx, %rax
	subq	%r14, %rax
	je	Lunix_path_BB38_53
Lunix_path_BB38_75:
	cmpq	$1, %rax
	jne	Lunix_path_BB38_77
	cmpb	$46, (%rbp,%r14)
	je	Lunix_path_BB38_53
Lunix_path_BB38_77:
	cmpl	$0, 124(%rsp)
	movq	8(%rsp), %r13
	je	Lunix_path_BB38_62
	testq	%r12, %r12
	jne	Lunix_path_BB38_62
	movq	64(%rsp), %rax
	movq	160(%rsp), %rdx
	cmpq	%rdx, %rax
	jbe	Lunix_path_BB38_85
	movq	96(%rsp), %rcx
	leaq	(%rcx,%rdx), %r15
	incq	%r15
	incq	%rdx
	subq	%rdx, %rax
	cmpq	$15, %rax
	ja	Lunix_path_BB38_86
	xorl	%r12d, %r12d
	testq	%rax, %rax
	je	Lunix_path_BB38_105
	.p2align	4
Lunix_path_BB38_82:
	cmpb	$0, (%r15,%r12)
	je	Lunix_path_BB38_92
	incq	%r12
	cmpq	%r12, %rax
	jne	Lunix_path_BB38_82
	movq	%rax, %r12
	jmp	Lunix_path_BB38_92
Lunix_path_BB38_85:
	xorl	%r12d, %r12d
	movq	128(%rsp), %r15
	jmp	Lunix_path_BB38_105
Lunix_path_BB38_86:
	addq	$-16, %rax
	je	Lunix_path_BB38_90
	xorl	%ecx, %ecx
	.p2align	4
Lunix_path_BB38_88:
	movdqu	(%r15,%rcx), %xmm0
	pxor	%xmm1, %xmm1
	pcmpeqb	%xmm0, %xmm1
	pmovmskb	%xmm1, %edx
	orl	$65536, %edx
	rep		bsfl	%edx, %edx
	cmpw	$15, %dx
	jbe	Lunix_path_BB38_91
	addq	$16, %rcx
	cmpq	%rax, %rcx
	jb	Lunix_path_BB38_88
Lunix_path_BB38_90:
	movdqu	(%r15,%rax), %xmm0
	pxor	%xmm1, %xmm1
	pcmpeqb	%xmm0, %xmm1
	pmovmskb	%xmm1, %ecx
	orl	$65536, %ecx
	rep		bsfl	%ecx, %r12d
	addq	%rax, %r12
	jmp	Lunix_path_BB38_92
Lunix_path_BB38_91:
	movzwl	%dx, %r12d
	addq	%rcx, %r12
Lunix_path_BB38_92:
	cmpq	$15, %r12
	ja	Lunix_path_BB38_97
	testq	%r12, %r12
	je	Lunix_path_BB38_102
	xorl	%ecx, %ecx
	.p2align	4
Lunix_path_BB38_95:
	cmpb	$0, (%r15,%rcx)
	je	Lunix_path_BB38_104
	incq	%rcx
	cmpq	%rcx, %r12
	jne	Lunix_path_BB38_95
	jmp	Lunix_path_BB38_105
Lunix_path_BB38_97:
	movq	%r12, %rax
	addq	$-16, %rax
	je	Lunix_path_BB38_101
	xorl	%edx, %edx
	.p2align	4
Lunix_path_BB38_99:
	movdqu	(%r15,%rdx), %xmm0
	pxor	%xmm1, %xmm1
	pcmpeqb	%xmm0, %xmm1
	pmovmskb	%xmm1, %ecx
	orl	$65536, %ecx
	rep		bsfl	%ecx, %ecx
	cmpw	$15, %cx
	jbe	Lunix_path_BB38_103
	addq	$16, %rdx
	cmpq	%rax, %rdx
	jb	Lunix_path_BB38_99
Lunix_path_BB38_101:
	movdqu	(%r15,%rax), %xmm0
	pxor	%xmm1, %xmm1
	pcmpeqb	%xmm0, %xmm1
	pmovmskb	%xmm1, %ecx
	orl	$65536, %ecx
	rep		bsfl	%ecx, %ecx
	addq	%rax, %rcx
	jmp	Lunix_path_BB38_104
Lunix_path_BB38_102:
	xorl	%r12d, %r12d
	jmp	Lunix_path_BB38_105
Lunix_path_BB38_103:
	movzwl	%cx, %ecx
	addq	%rdx, %rcx
Lunix_path_BB38_104:
	movb	$5, %r14b
	cmpq	%r12, %rcx
	movq	8(%rsp), %r13
	jb	Lunix_path_BB38_55
Lunix_path_BB38_105:
	movq	%rbp, %rdi
	movq	%rbx, %rsi
	callq	_path_archive.slot.without_dot
	testq	%rdx, %rdx
	je	Lunix_path_BB38_168
	movq	%rax, %r13
	movq	%rdx, %rbp
	movzbl	(%rax), %eax
	movb	$1, %r14b
	cmpl	$47, %eax
	je	Lunix_path_BB38_112
	cmpl	$46, %eax
	jne	Lunix_path_BB38_111
	cmpq	$1, %rbp
	je	Lunix_path_BB38_112
	cmpb	$47, 1(%r13)
	sete	%r14b
	jmp	Lunix_path_BB38_112
Lunix_path_BB38_111:
	xorl	%r14d, %r14d
Lunix_path_BB38_112:
	movq	%rbp, %rcx
	movq	%rbp, %rax
	jmp	Lunix_path_BB38_114
	.p2align	4
Lunix_path_BB38_113:
	movq	%rax, %rcx
	testq	%rax, %rax
	je	Lunix_path_BB38_168
Lunix_path_BB38_114:
	decq	%rax
	je	Lunix_path_BB38_120
	movzbl	(%r13,%rax), %edx
	cmpl	$47, %edx
	je	Lunix_path_BB38_118
	cmpl	$46, %edx
	jne	Lunix_path_BB38_120
	cmpb	$47, -1(%r13,%rax)
	jne	Lunix_path_BB38_120
Lunix_path_BB38_118:
	movq	%rbp, %rcx
	subq	%rax, %rcx
	cmpq	$8, %rcx
	jne	Lunix_path_BB38_113
	movq	%r13, %rdi
	movq	%rax, %rsi
	callq	_unix_path.filler.trimmed_blocks_len
	jmp	Lunix_path_BB38_113
Lunix_path_BB38_168:
	xorl	%ebx, %ebx
	jmp	Lunix_path_BB38_169
Lunix_path_BB38_120:
	leaq	1(%r13), %rax
	leaq	3(%r13), %rdx
	leaq	2(%r13), %rsi
	xorl	%ebx, %ebx
	movq	%rcx, %r8
	xorl	%edi, %edi
	jmp	Lunix_path_BB38_124
Lunix_path_BB38_121:
	xorl	%r9d, %r9d
Lunix_path_BB38_122:
	addq	%r10, %r9
Lunix_path_BB38_123:
	addq	%r9, %rdi
	incq	%rbx
	xorl	%r14d, %r14d
	movq	%rcx, %r8
	subq	%rdi, %r8
	je	Lunix_path_BB38_167
Lunix_path_BB38_124:
	testb	$1, %r14b
	je	Lunix_path_BB38_132
	movq	%r8, %r10
	decq	%r10
	je	Lunix_path_BB38_160
	leaq	-1(%r8), %r11
	leaq	(%rsi,%rdi), %r14
	addq	$-2, %r8
	xorl	%r9d, %r9d
	jmp	Lunix_path_BB38_128
	.p2align	4
Lunix_path_BB38_127:
	incq	%r9
	cmpq	%r9, %r11
	je	Lunix_path_BB38_161
Lunix_path_BB38_128:
	movzbl	-1(%r14,%r9), %ebp
	cmpl	$47, %ebp
	je	Lunix_path_BB38_127
	cmpl	$46, %ebp
	jne	Lunix_path_BB38_162
	cmpq	%r9, %r8
	je	Lunix_path_BB38_161
	cmpb	$47, (%r14,%r9)
	je	Lunix_path_BB38_127
	jmp	Lunix_path_BB38_162
	.p2align	4
Lunix_path_BB38_132:
	leaq	(%rdi,%r13), %r11
	cmpq	$1, %r8
	je	Lunix_path_BB38_138
	cmpb	$46, (%r11)
	jne	Lunix_path_BB38_138
	cmpb	$46, 1(%r11)
	jne	Lunix_path_BB38_138
	movl	$2, %r9d
	cmpq	$2, %r8
	je	Lunix_path_BB38_123
	cmpb	$47, 2(%r11)
	jne	Lunix_path_BB38_138
	leaq	-2(%r8), %r10
	leaq	(%rdx,%rdi), %r11
	addq	$-3, %r8
	xorl	%r9d, %r9d
	jmp	Lunix_path_BB38_144
	.p2align	4
Lunix_path_BB38_138:
	cmpq	$15, %r8
	ja	Lunix_path_BB38_148
	xorl	%r10d, %r10d
	.p2align	4
Lunix_path_BB38_140:
	cmpb	$47, (%r11,%r10)
	je	Lunix_path_BB38_153
	incq	%r10
	cmpq	%r10, %r8
	jne	Lunix_path_BB38_140
	movq	%r8, %r10
	subq	%r10, %r8
	jne	Lunix_path_BB38_154
	jmp	Lunix_path_BB38_121
	.p2align	4
Lunix_path_BB38_143:
	incq	%r9
	cmpq	%r9, %r10
	je	Lunix_path_BB38_165
Lunix_path_BB38_144:
	movzbl	-1(%r11,%r9), %ebp
	cmpl	$47, %ebp
	je	Lunix_path_BB38_143
	cmpl	$46, %ebp
	jne	Lunix_path_BB38_166
	cmpq	%r9, %r8
	je	Lunix_path_BB38_165
	cmpb	$47, (%r11,%r9)
	je	Lunix_path_BB38_143
	jmp	Lunix_path_BB38_166
	.p2align	4
Lunix_path_BB38_148:
	movq	%r8, %r9
	addq	$-16, %r9
	je	Lunix_path_BB38_152
	xorl	%r14d, %r14d
	.p2align	4
Lunix_path_BB38_150:
	movdqu	(%r11,%r14), %xmm0
	pcmpeqb	Lunix_path_CPI38_0(%rip), %xmm0
	pmovmskb	%xmm0, %r10d
	orl	$65536, %r10d
	rep		bsfl	%r10d, %r10d
	cmpw	$15, %r10w
	jbe	Lunix_path_BB38_164
	addq	$16, %r14
	cmpq	%r9, %r14
	jb	Lunix_path_BB38_150
Lunix_path_BB38_152:
	movdqu	(%r11,%r9), %xmm0
	pcmpeqb	Lunix_path_CPI38_0(%rip), %xmm0
	pmovmskb	%xmm0, %r10d
	orl	$65536, %r10d
	rep		bsfl	%r10d, %r10d
	addq	%r9, %r10
Lunix_path_BB38_153:
	subq	%r10, %r8
	je	Lunix_path_BB38_121
Lunix_path_BB38_154:
	leaq	(%r10,%rdi), %r11
	addq	%rax, %r11
	leaq	-1(%r8), %r14
	xorl	%r9d, %r9d
	jmp	Lunix_path_BB38_156
	.p2align	4
Lunix_path_BB38_155:
	incq	%r9
	cmpq	%r9, %r8
	je	Lunix_path_BB38_163
Lunix_path_BB38_156:
	movzbl	-1(%r11,%r9), %ebp
	cmpl	$47, %ebp
	je	Lunix_path_BB38_155
	cmpl	$46, %ebp
	jne	Lunix_path_BB38_122
	cmpq	%r9, %r14
	je	Lunix_path_BB38_163
	cmpb	$47, (%r11,%r9)
	je	Lunix_path_BB38_155
	jmp	Lunix_path_BB38_122
Lunix_path_BB38_160:
	movl	$1, %r9d
	jmp	Lunix_path_BB38_123
Lunix_path_BB38_161:
	movq	%r10, %r9
Lunix_path_BB38_162:
	incq	%r9
	jmp	Lunix_path_BB38_123
Lunix_path_BB38_163:
	movq	%r8, %r9
	jmp	Lunix_path_BB38_122
Lunix_path_BB38_164:
	movzwl	%r10w, %r10d
	addq	%r14, %r10
	subq	%r10, %r8
	jne	Lunix_path_BB38_154
	jmp	Lunix_path_BB38_121
Lunix_path_BB38_165:
	movq	%r10, %r9
Lunix_path_BB38_166:
	addq	$2, %r9
	jmp	Lunix_path_BB38_123
Lunix_path_BB38_167:
	cmpq	$1, %rbx
	adcq	$-1, %rbx
Lunix_path_BB38_169:
	movq	%r15, %rdi
	movq	%r12, %rsi
	callq	_path_archive.slot.without_dot
	testq	%rdx, %rdx
	movq	32(%rsp), %rdi
	movq	24(%rsp), %r9
	movq	16(%rsp), %r10
	movq	48(%rsp), %r11
	movq	(%rsp), %r8
	movq	8(%rsp), %r13
	je	Lunix_path_BB38_62
	movq	%rax, %r12
	movq	%rdx, %r14
	movq	%rax, %rbp
	movzbl	(%r12), %eax
	movb	$1, %r15b
	cmpl	$47, %eax
	je	Lunix_path_BB38_175
	cmpl	$46, %eax
	jne	Lunix_path_BB38_174
	cmpq	$1, %r14
	je	Lunix_path_BB38_175
	cmpb	$47, 1(%rbp)
	sete	%r15b
	jmp	Lunix_path_BB38_175
Lunix_path_BB38_174:
	xorl	%r15d, %r15d
Lunix_path_BB38_175:
	movq	%r14, %rcx
	movq	%r14, %rax
	jmp	Lunix_path_BB38_177
	.p2align	4
Lunix_path_BB38_176:
	movq	%rax, %rcx
	testq	%rax, %rax
	movq	8(%rsp), %r13
	je	Lunix_path_BB38_62
Lunix_path_BB38_177:
	decq	%rax
	je	Lunix_path_BB38_183
	movzbl	(%rbp,%rax), %edx
	cmpl	$47, %edx
	je	Lunix_path_BB38_181
	cmpl	$46, %edx
	jne	Lunix_path_BB38_183
	cmpb	$47, -1(%rbp,%rax)
	jne	Lunix_path_BB38_183
Lunix_path_BB38_181:
	movq	%r14, %rcx
	subq	%rax, %rcx
	cmpq	$8, %rcx
	jne	Lunix_path_BB38_176
	movq	%rbp, %rdi
	movq	%rax, %rsi
	callq	_unix_path.filler.trimmed_blocks_len
	movq	(%rsp), %r8
	movq	48(%rsp), %r11
	movq	16(%rsp), %r10
	movq	24(%rsp), %r9
	movq	32(%rsp), %rdi
	jmp	Lunix_path_BB38_176
Lunix_path_BB38_183:
	xorl	%eax, %eax
	movq	%rcx, %rsi
	.p2align	4
Lunix_path_BB38_184:
	movb	$5, %r14b
	testb	$1, %r15b
	jne	Lunix_path_BB38_54
	cmpq	$1, %rsi
	je	Lunix_path_BB38_200
	cmpb	$46, (%rbp)
	jne	Lunix_path_BB38_200
	cmpb	$46, 1(%rbp)
	jne	Lunix_path_BB38_200
	movl	$2, %edx
	cmpq	$2, %rsi
	je	Lunix_path_BB38_198
	cmpb	$47, 2(%rbp)
	jne	Lunix_path_BB38_200
	leaq	-2(%rsi), %rdi
	addq	$-3, %rsi
	xorl	%edx, %edx
	jmp	Lunix_path_BB38_192
	.p2align	4
Lunix_path_BB38_191:
	incq	%rdx
	cmpq	%rdx, %rdi
	je	Lunix_path_BB38_196
Lunix_path_BB38_192:
	movzbl	2(%rbp,%rdx), %r8d
	cmpl	$47, %r8d
	je	Lunix_path_BB38_191
	cmpl	$46, %r8d
	jne	Lunix_path_BB38_197
	cmpq	%rdx, %rsi
	je	Lunix_path_BB38_196
	cmpb	$47, 3(%rbp,%rdx)
	je	Lunix_path_BB38_191
	jmp	Lunix_path_BB38_197
Lunix_path_BB38_196:
	movq	%rdi, %rdx
Lunix_path_BB38_197:
	addq	$2, %rdx
	movq	32(%rsp), %rdi
	movq	(%rsp), %r8
Lunix_path_BB38_198:
	subq	$1, %rbx
	movq	8(%rsp), %r13
	jb	Lunix_path_BB38_55
	addq	%rdx, %rax
	leaq	(%r12,%rax), %rbp
	xorl	%r15d, %r15d
	movq	%rcx, %rsi
	subq	%rax, %rsi
	jne	Lunix_path_BB38_184
	jmp	Lunix_path_BB38_62
Lunix_path_BB38_200:
	cmpq	$16, %rsi
	jb	Lunix_path_BB38_205
	movq	%rsi, %rax
	addq	$-16, %rax
	je	Lunix_path_BB38_205
	movl	$16, %ecx
Lunix_path_BB38_203:
	movdqu	-16(%rbp,%rcx), %xmm0
	pcmpeqb	Lunix_path_CPI38_0(%rip), %xmm0
	pmovmskb	%xmm0, %edx
	testl	%edx, %edx
	jne	Lunix_path_BB38_205
	cmpq	%rax, %rcx
	leaq	16(%rcx), %rcx
	jb	Lunix_path_BB38_203
Lunix_path_BB38_205:
	movq	%rbp, %rdi
	callq	_path_archive.outlined.has_root_or_parent_dir
	testb	%al, %al
	movq	32(%rsp), %rdi
	movq	24(%rsp), %r9
	movq	16(%rsp), %r10
	movq	48(%rsp), %r11
	movq	(%rsp), %r8
	movq	8(%rsp), %r13
	jne	Lunix_path_BB38_55
	jmp	Lunix_path_BB38_62
Lunix_path_BB38_207:
	testb	%r8b, %r8b
	movq	136(%rsp), %rcx
	je	Lunix_path_BB38_210
	movzbl	112(%rsp), %eax
	movq	%r11, (%rcx)
	movq	104(%rsp), %rdx
	movq	%rdx, 8(%rcx)
	movl	%eax, 16(%rcx)
	movl	$0, 20(%rcx)
	movl	$1, %eax
	jmp	Lunix_path_BB38_211
Lunix_path_BB38_210:
	xorl	%eax, %eax
Lunix_path_BB38_211:
	addq	$168, %rsp
	popq	%rbx
	popq	%r12
	popq	%r13
	popq	%r14
	popq	%r15
	popq	%rbp
	retq
	.globl	_unix_path_check_request
	.p2align	4
_unix_path_check_request:
	pushq	%r14
	pushq	%rbx
	pushq	%rax
	xorl	%eax, %eax
	testq	%rdi, %rdi
	sete	%cl
	testq	%rsi, %rsi
	je	Lunix_path_BB39_1
	movb	%cl, %al
	shll	$12, %eax
	addq	%rax, %rdi
	movl	$1, %eax
	cmpb	$47, (%rdi)
	je	Lunix_path_BB39_17
	movq	%rdi, %rbx
	movq	%rsi, %r14
	callq	_path_within.check.check_escape
	testb	%al, %al
	je	Lunix_path_BB39_4
	movq	%r14, %rsi
	cmpq	$15, %r14
	ja	Lunix_path_BB39_10
	xorl	%ecx, %ecx
	.p2align	4
Lunix_path_BB39_7:
	cmpb	$0, (%rbx,%rcx)
	je	Lunix_path_BB39_16
	incq	%rcx
	cmpq	%rcx, %rsi
	jne	Lunix_path_BB39_7
	xorl	%eax, %eax
Lunix_path_BB39_17:
	addq	$8, %rsp
	popq	%rbx
	popq	%r14
	retq
Lunix_path_BB39_1:
	xorl	%ecx, %ecx
Lunix_path_BB39_16:
	xorl	%eax, %eax
	cmpq	%rsi, %rcx
	setb	%al
	leal	(%rax,%rax,2), %eax
	addq	$8, %rsp
	popq	%rbx
	popq	%r14
	retq
Lunix_path_BB39_4:
	movl	$2, %eax
	addq	$8, %rsp
	popq	%rbx
	popq	%r14
	retq
Lunix_path_BB39_10:
	movq	%rsi, %rax
	addq	$-16, %rax
	movq	%rbx, %rcx
	je	Lunix_path_BB39_15
	xorl	%edx, %edx
	.p2align	4
Lunix_path_BB39_12:
	movdqu	(%rcx,%rdx), %xmm0
	pxor	%xmm1, %xmm1
	pcmpeqb	%xmm0, %xmm1
	pmovmskb	%xmm1, %edi
	orl	$65536, %edi
	rep		bsfl	%edi, %edi
	cmpw	$15, %di
	jbe	Lunix_path_BB39_13
	addq	$16, %rdx
	cmpq	%rax, %rdx
	jb	Lunix_path_BB39_12
Lunix_path_BB39_15:
	movdqu	(%rcx,%rax), %xmm0
	pxor	%xmm1, %xmm1
	pcmpeqb	%xmm0, %xmm1
	pmovmskb	%xmm1, %ecx
	orl	$65536, %ecx
	rep		bsfl	%ecx, %ecx
	addq	%rax, %rcx
	jmp	Lunix_path_BB39_16
Lunix_path_BB39_13:
	movzwl	%di, %ecx
	addq	%rdx, %rcx
	jmp	Lunix_path_BB39_16
	.section	__TEXT,__literal16,16byte_literals
	.p2align	4, 0x0
Lunix_path_CPI40_0:
	.space	16,47
	.section	__TEXT,__text,regular,pure_instructions
	.globl	_unix_path_common_dir
	.p2align	4
_unix_path_common_dir:
	xorl	%eax, %eax
	testq	%rdi, %rdi
	sete	%al
	shll	$12, %eax
	leaq	(%rdi,%rax), %r8
	xorl	%r9d, %r9d
	testq	%rdx, %rdx
	sete	%r9b
	shll	$12, %r9d
	addq	%rdx, %r9
	cmpq	%rsi, %rcx
	cmovbq	%rcx, %rsi
	cmpq	$15, %rsi
	ja	Lunix_path_BB40_6
	cmpq	$7, %rsi
	ja	Lunix_path_BB40_13
	testq	%rsi, %rsi
	je	Lunix_path_BB40_17
	movzbl	(%r8), %ecx
	cmpb	(%r9), %cl
	jne	Lunix_path_BB40_17
	cmpq	$1, %rsi
	jne	Lunix_path_BB40_27
Lunix_path_BB40_5:
	movq	%rsi, %rcx
	jmp	Lunix_path_BB40_18
Lunix_path_BB40_6:
	leaq	-16(%rsi), %rdx
	xorl	%r10d, %r10d
	cmpq	$64, %rsi
	jb	Lunix_path_BB40_11
	.p2align	4
Lunix_path_BB40_7:
	movdqu	(%r8,%r10), %xmm0
	movdqu	16(%r8,%r10), %xmm1
	movdqu	32(%r8,%r10), %xmm2
	movdqu	48(%r8,%r10), %xmm3
	movdqu	(%r9,%r10), %xmm4
	pcmpeqb	%xmm0, %xmm4
	movdqu	16(%r9,%r10), %xmm0
	pcmpeqb	%xmm1, %xmm0
	pand	%xmm4, %xmm0
	movdqu	32(%r9,%r10), %xmm1
	pcmpeqb	%xmm2, %xmm1
	movdqu	48(%r9,%r10), %xmm2
	pcmpeqb	%xmm3, %xmm2
	pand	%xmm1, %xmm2
	pand	%xmm0, %xmm2
	pmovmskb	%xmm2, %ecx
	cmpl	$65535, %ecx
	jne	Lunix_path_BB40_11
	addq	$64, %r10
	addq	$-64, %rsi
	cmpq	$63, %rsi
	ja	Lunix_path_BB40_7
	jmp	Lunix_path_BB40_11
	.p2align	4
Lunix_path_BB40_9:
	movdqu	(%r8,%r10), %xmm0
	movdqu	(%r9,%r10), %xmm1
	pcmpeqb	%xmm0, %xmm1
	pmovmskb	%xmm1, %ecx
	notl	%ecx
	rep		bsfl	%ecx, %ecx
	cmpw	$15, %cx
	jbe	Lunix_path_BB40_15
	addq	$16, %r10
Lunix_path_BB40_11:
	cmpq	%rdx, %r10
	jb	Lunix_path_BB40_9
	movdqu	(%r8,%rdx), %xmm0
	movdqu	(%r9,%rdx), %xmm1
	pcmpeqb	%xmm0, %xmm1
	pmovmskb	%xmm1, %ecx
	notl	%ecx
	rep		bsfl	%ecx, %ecx
	addq	%rdx, %rcx
	jmp	Lunix_path_BB40_18
Lunix_path_BB40_13:
	movq	(%r8), %xmm0
	movq	(%r9), %xmm1
	pcmpeqb	%xmm0, %xmm1
	pmovmskb	%xmm1, %ecx
	notl	%ecx
	orl	$256, %ecx
	rep		bsfl	%ecx, %ecx
	cmpb	$8, %cl
	jb	Lunix_path_BB40_18
	movq	-8(%r8,%rsi), %xmm0
	movq	-8(%r9,%rsi), %xmm1
	pcmpeqb	%xmm0, %xmm1
	pmovmskb	%xmm1, %ecx
	notl	%ecx
	orl	$256, %ecx
	rep		bsfl	%ecx, %ecx
	addq	%rsi, %rcx
	addq	$-8, %rcx
	jmp	Lunix_path_BB40_18
Lunix_path_BB40_17:
	xorl	%ecx, %ecx
	jmp	Lunix_path_BB40_18
Lunix_path_BB40_15:
	movzwl	%cx, %ecx
	addq	%r10, %rcx
Lunix_path_BB40_18:
	addq	%rdi, %rax
	addq	$-16, %rax
	.p2align	4
Lunix_path_BB40_19:
	cmpq	$15, %rcx
	jbe	Lunix_path_BB40_22
	movdqu	(%rax,%rcx), %xmm0
	addq	$-16, %rcx
	pcmpeqb	Lunix_path_CPI40_0(%rip), %xmm0
	pmovmskb	%xmm0, %edx
	testl	%edx, %edx
	je	Lunix_path_BB40_19
	movzwl	%dx, %eax
	bsrq	%rax, %rax
	xorq	$63, %rax
	subq	%rax, %rcx
	addq	$64, %rcx
	movq	%rcx, %rax
	retq
Lunix_path_BB40_22:
	incq	%rcx
	.p2align	4
Lunix_path_BB40_23:
	cmpq	$1, %rcx
	je	Lunix_path_BB40_26
	leaq	-1(%rcx), %rax
	cmpb	$47, -2(%r8,%rcx)
	movq	%rax, %rcx
	jne	Lunix_path_BB40_23
	retq
Lunix_path_BB40_26:
	xorl	%eax, %eax
	retq
Lunix_path_BB40_27:
	movzbl	1(%r8), %edx
	movl	$1, %ecx
	cmpb	1(%r9), %dl
	jne	Lunix_path_BB40_18
	cmpq	$2, %rsi
	je	Lunix_path_BB40_5
	movzbl	2(%r8), %edx
	movl	$2, %ecx
	cmpb	2(%r9), %dl
	jne	Lunix_path_BB40_18
	cmpq	$3, %rsi
	je	Lunix_path_BB40_5
	movzbl	3(%r8), %edx
	movl	$3, %ecx
	cmpb	3(%r9), %dl
	jne	Lunix_path_BB40_18
	cmpq	$4, %rsi
	je	Lunix_path_BB40_5
	movzbl	4(%r8), %edx
	movl	$4, %ecx
	cmpb	4(%r9), %dl
	jne	Lunix_path_BB40_18
	cmpq	$5, %rsi
	je	Lunix_path_BB40_5
	movzbl	5(%r8), %edx
	movl	$5, %ecx
	cmpb	5(%r9), %dl
	jne	Lunix_path_BB40_18
	cmpq	$6, %rsi
	je	Lunix_path_BB40_5
	movzbl	6(%r8), %ecx
	cmpb	6(%r9), %cl
	movl	$6, %ecx
	cmoveq	%rsi, %rcx
	jmp	Lunix_path_BB40_18
	.globl	_unix_path_compare
	.p2align	4
_unix_path_compare:
	pushq	%rax
	xorl	%eax, %eax
	testq	%rdi, %rdi
	sete	%al
	shll	$12, %eax
	addq	%rax, %rdi
	xorl	%eax, %eax
	testq	%rdx, %rdx
	sete	%al
	shll	$12, %eax
	addq	%rax, %rdx
	callq	_unix_path.compare.compare
	movzbl	%al, %eax
	decl	%eax
	popq	%rcx
	retq
	.globl	_unix_path_components
	.p2align	4
_unix_path_components:
	pushq	%r15
	pushq	%r14
	pushq	%rbx
	movq	%rdx, %rbx
	xorl	%eax, %eax
	testq	%rdi, %rdi
	sete	%cl
	testq	%rsi, %rsi
	je	Lunix_path_BB42_10
	movq	%rsi, %r14
	movq	%rdi, %r15
	movb	%cl, %al
	shll	$12, %eax
	addq	%rax, %r15
	movq	%rsi, %rcx
	movq	%r14, %rax
	jmp	Lunix_path_BB42_2
	.p2align	4
Lunix_path_BB42_9:
	movq	%rax, %rcx
	testq	%rax, %rax
	je	Lunix_path_BB42_10
Lunix_path_BB42_2:
	decq	%rax
	je	Lunix_path_BB42_3
	movzbl	(%r15,%rax), %edx
	cmpl	$47, %edx
	je	Lunix_path_BB42_7
	cmpl	$46, %edx
	jne	Lunix_path_BB42_11
	cmpb	$47, -1(%r15,%rax)
	jne	Lunix_path_BB42_11
Lunix_path_BB42_7:
	movq	%r14, %rcx
	subq	%rax, %rcx
	cmpq	$8, %rcx
	jne	Lunix_path_BB42_9
	movq	%r15, %rdi
	movq	%rax, %rsi
	callq	_unix_path.filler.trimmed_blocks_len
	jmp	Lunix_path_BB42_9
Lunix_path_BB42_10:
	xorl	%ecx, %ecx
	jmp	Lunix_path_BB42_11
Lunix_path_BB42_3:
	movl	$1, %ecx
Lunix_path_BB42_11:
	movq	$0, (%rbx)
	movq	%rcx, 8(%rbx)
	popq	%rbx
	popq	%r14
	popq	%r15
	retq
	.globl	_unix_path_ends_in_slash
	.p2align	4
_unix_path_ends_in_slash:
	pushq	%rbp
	pushq	%r14
	pushq	%rbx
	subq	$32, %rsp
	movq	%rsi, %rbx
	xorl	%r14d, %r14d
	testq	%rdi, %rdi
	sete	%r14b
	shll	$12, %r14d
	addq	%rdi, %r14
	xorps	%xmm0, %xmm0
	movaps	%xmm0, (%rsp)
	movq	$0, 16(%rsp)
	testq	%rsi, %rsi
	je	Lunix_path_BB43_1
	movq	%rbx, %rcx
	movq	%rbx, %rax
	jmp	Lunix_path_BB43_3
	.p2align	4
Lunix_path_BB43_10:
	movq	%rax, %rcx
	testq	%rax, %rax
	je	Lunix_path_BB43_11
Lunix_path_BB43_3:
	decq	%rax
	je	Lunix_path_BB43_4
	movzbl	(%r14,%rax), %edx
	cmpl	$47, %edx
	je	Lunix_path_BB43_8
	cmpl	$46, %edx
	jne	Lunix_path_BB43_12
	cmpb	$47, -1(%r14,%rax)
	jne	Lunix_path_BB43_12
Lunix_path_BB43_8:
	movq	%rbx, %rcx
	subq	%rax, %rcx
	cmpq	$8, %rcx
	jne	Lunix_path_BB43_10
	movq	%r14, %rdi
	movq	%rax, %rsi
	callq	_unix_path.filler.trimmed_blocks_len
	jmp	Lunix_path_BB43_10
Lunix_path_BB43_1:
	xorl	%ebp, %ebp
	jmp	Lunix_path_BB43_13
Lunix_path_BB43_4:
	movl	$1, %ecx
	jmp	Lunix_path_BB43_12
Lunix_path_BB43_11:
	xorl	%ecx, %ecx
Lunix_path_BB43_12:
	cmpq	%rbx, %rcx
	setb	%bpl
Lunix_path_BB43_13:
	movq	%rsp, %rdi
	movq	%r14, %rsi
	movq	%rbx, %rdx
	callq	_unix_path.path.Path.file_name
	andb	(%rsp), %bpl
	movl	%ebp, %eax
	addq	$32, %rsp
	popq	%rbx
	popq	%r14
	popq	%rbp
	retq
	.globl	_unix_path_ends_with
	.p2align	4
_unix_path_ends_with:
	pushq	%rbx
	movq	%rdx, %rax
	movq	%rdi, %rdx
	xorl	%edi, %edi
	testq	%rdx, %rdx
	sete	%dil
	shll	$12, %edi
	addq	%rdx, %rdi
	xorl	%edx, %edx
	testq	%rax, %rax
	sete	%dl
	shll	$12, %edx
	addq	%rax, %rdx
	testq	%rsi, %rsi
	je	Lunix_path_BB44_1
	movzbl	-1(%rdi,%rsi), %r8d
	cmpb	$47, %r8b
	je	Lunix_path_BB44_1
	leaq	(%rdi,%rsi), %rax
	cmpq	$1, %rsi
	je	Lunix_path_BB44_23
	cmpb	$46, %r8b
	jne	Lunix_path_BB44_23
	xorl	%r9d, %r9d
	testq	%rcx, %rcx
	je	Lunix_path_BB44_2
	cmpb	$47, -2(%rax)
	jne	Lunix_path_BB44_9
	jmp	Lunix_path_BB44_2
Lunix_path_BB44_23:
	testq	%rcx, %rcx
	je	Lunix_path_BB44_1
Lunix_path_BB44_9:
	movzbl	-1(%rdx,%rcx), %r8d
	cmpb	$47, %r8b
	jne	Lunix_path_BB44_10
Lunix_path_BB44_1:
	xorl	%r9d, %r9d
Lunix_path_BB44_2:
	subq	%r9, %rsi
	subq	%r9, %rcx
	callq	_unix_path.suffixes.ends_with_parts
	popq	%rbx
	retq
Lunix_path_BB44_10:
	leaq	(%rdx,%rcx), %r9
	cmpq	$1, %rcx
	je	Lunix_path_BB44_13
	cmpb	$46, %r8b
	jne	Lunix_path_BB44_13
	cmpb	$47, -2(%r9)
	je	Lunix_path_BB44_1
Lunix_path_BB44_13:
	cmpq	%rsi, %rcx
	movq	%rsi, %r10
	cmovbq	%rcx, %r10
	movq	$-1, %r11
	xorl	%r8d, %r8d
	.p2align	4
Lunix_path_BB44_14:
	movzbl	(%rax,%r11), %ebx
	cmpb	$47, %bl
	je	Lunix_path_BB44_18
	cmpb	(%r9,%r11), %bl
	jne	Lunix_path_BB44_18
	incq	%r8
	decq	%r11
	cmpq	%r8, %r10
	jne	Lunix_path_BB44_14
	movq	%r10, %r8
Lunix_path_BB44_18:
	movq	%rsi, %rax
	subq	%r8, %rax
	je	Lunix_path_BB44_20
	cmpb	$47, -1(%rdi,%rax)
	jne	Lunix_path_BB44_22
Lunix_path_BB44_20:
	movq	%rcx, %rax
	movq	%rcx, %r9
	subq	%r8, %rax
	je	Lunix_path_BB44_2
	cmpb	$47, -1(%rdx,%rax)
	movq	%r8, %r9
	je	Lunix_path_BB44_2
Lunix_path_BB44_22:
	xorl	%eax, %eax
	popq	%rbx
	retq
	.globl	_unix_path_entries_scratch
	.p2align	4
_unix_path_entries_scratch:
	pushq	%rbx
	subq	$16, %rsp
	xorl	%eax, %eax
	testq	%rdi, %rdi
	sete	%al
	shll	$12, %eax
	addq	%rax, %rdi
	xorl	%ebx, %ebx
	leaq	8(%rsp), %rdx
	xorl	%ecx, %ecx
	callq	_path_archive.records.split
	testb	$1, %al
	cmovneq	%rdx, %rbx
	movq	%rbx, %rax
	addq	$16, %rsp
	popq	%rbx
	retq
	.globl	_unix_path_equal
	.p2align	4
_unix_path_equal:
	pushq	%rbx
	movq	%rdx, %rax
	movq	%rdi, %rdx
	xorl	%edi, %edi
	testq	%rdx, %rdx
	sete	%dil
	shll	$12, %edi
	addq	%rdx, %rdi
	xorl	%edx, %edx
	testq	%rax, %rax
	sete	%dl
	shll	$12, %edx
	addq	%rax, %rdx
	cmpq	%rcx, %rsi
	jne	Lunix_path_BB46_4
	testq	%rsi, %rsi
	je	Lunix_path_BB46_3
	movzbl	-1(%rdi,%rsi), %r8d
	cmpb	-1(%rdx,%rsi), %r8b
	je	Lunix_path_BB46_3
	cmpb	$47, %r8b
	jne	Lunix_path_BB46_7
	jmp	Lunix_path_BB46_3
Lunix_path_BB46_4:
	testq	%rsi, %rsi
	je	Lunix_path_BB46_3
	movzbl	-1(%rdi,%rsi), %r8d
	cmpb	$47, %r8b
	je	Lunix_path_BB46_3
Lunix_path_BB46_7:
	leaq	(%rdi,%rsi), %rax
	cmpq	$1, %rsi
	je	Lunix_path_BB46_11
	cmpb	$46, %r8b
	jne	Lunix_path_BB46_11
	testq	%rcx, %rcx
	je	Lunix_path_BB46_3
	cmpb	$47, -2(%rax)
	jne	Lunix_path_BB46_12
	jmp	Lunix_path_BB46_3
Lunix_path_BB46_11:
	testq	%rcx, %rcx
	je	Lunix_path_BB46_3
Lunix_path_BB46_12:
	movzbl	-1(%rdx,%rcx), %r8d
	cmpb	$47, %r8b
	je	Lunix_path_BB46_3
	leaq	(%rdx,%rcx), %r9
	cmpq	$1, %rcx
	je	Lunix_path_BB46_16
	cmpb	$46, %r8b
	jne	Lunix_path_BB46_16
	cmpb	$47, -2(%r9)
	je	Lunix_path_BB46_3
Lunix_path_BB46_16:
	cmpq	%rsi, %rcx
	movq	%rsi, %r10
	cmovbq	%rcx, %r10
	movq	$-1, %r11
	xorl	%r8d, %r8d
	.p2align	4
Lunix_path_BB46_17:
	movzbl	(%rax,%r11), %ebx
	cmpb	$47, %bl
	je	Lunix_path_BB46_21
	cmpb	(%r9,%r11), %bl
	jne	Lunix_path_BB46_21
	incq	%r8
	decq	%r11
	cmpq	%r8, %r10
	jne	Lunix_path_BB46_17
	movq	%r10, %r8
Lunix_path_BB46_21:
	movq	%rsi, %rax
	subq	%r8, %rax
	je	Lunix_path_BB46_23
	cmpb	$47, -1(%rdi,%rax)
	jne	Lunix_path_BB46_25
Lunix_path_BB46_23:
	movq	%rcx, %rax
	subq	%r8, %rax
	je	Lunix_path_BB46_3
	cmpb	$47, -1(%rdx,%rax)
	jne	Lunix_path_BB46_25
Lunix_path_BB46_3:
	callq	_unix_path.compare.compare
	cmpb	$1, %al
	sete	%al
	popq	%rbx
	retq
Lunix_path_BB46_25:
	xorl	%eax, %eax
	popq	%rbx
	retq
	.globl	_unix_path_escapes
	.p2align	4
_unix_path_escapes:
	pushq	%rax
	xorl	%eax, %eax
	testq	%rdi, %rdi
	sete	%al
	shll	$12, %eax
	addq	%rax, %rdi
	callq	_path_within.check.check_escape
	testb	%al, %al
	sete	%al
	popq	%rcx
	retq
	.section	__TEXT,__literal16,16byte_literals
	.p2align	4, 0x0
Lunix_path_CPI48_0:
	.space	16,46
Lunix_path_CPI48_1:
	.space	16,47
	.section	__TEXT,__text,regular,pure_instructions
	.globl	_unix_path_extension
	.p2align	4
_unix_path_extension:
	pushq	%rbp
	pushq	%r15
	pushq	%r14
	pushq	%r13
	pushq	%r12
	pushq	%rbx
	pushq	%rax
	xorl	%ebp, %ebp
	testq	%rdi, %rdi
	sete	%al
	testq	%rsi, %rsi
	je	Lunix_path_BB48_9
	movq	%rdx, %rbx
	movq	%rsi, %r12
	movq	%rdi, %r15
	movb	%al, %bpl
	shll	$12, %ebp
	leaq	(%rdi,%rbp), %r14
	movq	%rsi, %r13
	movq	%r12, %rax
	jmp	Lunix_path_BB48_3
	.p2align	4
Lunix_path_BB48_2:
	movq	%rax, %r13
	testq	%rax, %rax
	je	Lunix_path_BB48_9
Lunix_path_BB48_3:
	decq	%rax
	je	Lunix_path_BB48_10
	movzbl	(%r14,%rax), %ecx
	cmpl	$47, %ecx
	je	Lunix_path_BB48_7
	cmpl	$46, %ecx
	jne	Lunix_path_BB48_18
	movzbl	-1(%r14,%rax), %ecx
	cmpb	$47, %cl
	jne	Lunix_path_BB48_13
Lunix_path_BB48_7:
	movq	%r12, %rcx
	subq	%rax, %rcx
	cmpq	$8, %rcx
	jne	Lunix_path_BB48_2
	movq	%r14, %rdi
	movq	%rax, %rsi
	callq	_unix_path.filler.trimmed_blocks_len
	jmp	Lunix_path_BB48_2
Lunix_path_BB48_10:
	movzbl	(%r14), %eax
	andb	$-2, %al
	cmpb	$46, %al
	jne	Lunix_path_BB48_18
	jmp	Lunix_path_BB48_9
Lunix_path_BB48_13:
	cmpb	$46, %cl
	jne	Lunix_path_BB48_18
	cmpq	$2, %r13
	je	Lunix_path_BB48_9
	cmpb	$47, -3(%r14,%r13)
	je	Lunix_path_BB48_9
Lunix_path_BB48_18:
	movq	%r12, %rcx
	movq	%r12, %rax
	jmp	Lunix_path_BB48_20
	.p2align	4
Lunix_path_BB48_19:
	movq	%rax, %rcx
	testq	%rax, %rax
	je	Lunix_path_BB48_9
Lunix_path_BB48_20:
	decq	%rax
	je	Lunix_path_BB48_26
	movzbl	(%r14,%rax), %edx
	cmpl	$47, %edx
	je	Lunix_path_BB48_24
	cmpl	$46, %edx
	jne	Lunix_path_BB48_34
	movzbl	-1(%r14,%rax), %edx
	cmpb	$47, %dl
	jne	Lunix_path_BB48_29
Lunix_path_BB48_24:
	movq	%r12, %rcx
	subq	%rax, %rcx
	cmpq	$8, %rcx
	jne	Lunix_path_BB48_19
	movq	%r14, %rdi
	movq	%rax, %rsi
	callq	_unix_path.filler.trimmed_blocks_len
	jmp	Lunix_path_BB48_19
Lunix_path_BB48_26:
	movzbl	(%r14), %eax
	andb	$-2, %al
	cmpb	$46, %al
	jne	Lunix_path_BB48_34
	jmp	Lunix_path_BB48_9
Lunix_path_BB48_29:
	cmpb	$46, %dl
	jne	Lunix_path_BB48_34
	cmpq	$2, %rcx
	je	Lunix_path_BB48_9
	cmpb	$47, -3(%r14,%rcx)
	je	Lunix_path_BB48_9
Lunix_path_BB48_34:
	leaq	(%r15,%rbp), %rax
	addq	$-16, %rax
	movq	%rcx, %rdx
	.p2align	4
Lunix_path_BB48_35:
	cmpq	$15, %rdx
	jbe	Lunix_path_BB48_40
	movdqu	(%rax,%rdx), %xmm0
	addq	$-16, %rdx
	movdqa	Lunix_path_CPI48_0(%rip), %xmm1
	pcmpeqb	%xmm0, %xmm1
	pmovmskb	%xmm1, %esi
	movl	$127, %r8d
	movl	$127, %r9d
	bsrq	%rsi, %r9
	xorq	$63, %r9
	movl	$64, %edi
	movl	$64, %esi
	subq	%r9, %rsi
	pcmpeqb	Lunix_path_CPI48_1(%rip), %xmm0
	pmovmskb	%xmm0, %r9d
	bsrq	%r9, %r8
	xorq	$63, %r8
	subq	%r8, %rdi
	cmpq	%rdi, %rsi
	movq	%rdi, %r8
	cmovaq	%rsi, %r8
	testq	%r8, %r8
	je	Lunix_path_BB48_35
	cmpq	%rsi, %rdi
	cmovaq	%rdi, %rsi
	leaq	(%rsi,%rdx), %rdi
	addq	%rsi, %rdx
	decq	%rdx
	testq	%rdx, %rdx
	jne	Lunix_path_BB48_38
	jmp	Lunix_path_BB48_9
Lunix_path_BB48_40:
	leaq	(%r15,%rbp), %rax
	decq	%rax
	.p2align	4
Lunix_path_BB48_41:
	testq	%rdx, %rdx
	je	Lunix_path_BB48_9
	movzbl	(%rax,%rdx), %esi
	decq	%rdx
	andb	$-2, %sil
	cmpb	$46, %sil
	jne	Lunix_path_BB48_41
	leaq	1(%rdx), %rdi
	testq	%rdx, %rdx
	je	Lunix_path_BB48_9
Lunix_path_BB48_38:
	cmpb	$47, (%r14,%rdx)
	jne	Lunix_path_BB48_46
Lunix_path_BB48_9:
	xorl	%eax, %eax
Lunix_path_BB48_49:
	addq	$8, %rsp
	popq	%rbx
	popq	%r12
	popq	%r13
	popq	%r14
	popq	%r15
	popq	%rbp
	retq
Lunix_path_BB48_46:
	xorl	%eax, %eax
	cmpq	%rcx, %rdx
	je	Lunix_path_BB48_49
	cmpb	$47, -2(%r14,%rdi)
	je	Lunix_path_BB48_49
	notq	%rdx
	addq	%rdx, %rcx
	subq	%rcx, %r13
	movq	%r13, (%rbx)
	movq	%rcx, 8(%rbx)
	movb	$1, %al
	jmp	Lunix_path_BB48_49
	.globl	_unix_path_file_name
	.p2align	4
_unix_path_file_name:
	pushq	%rbp
	pushq	%r15
	pushq	%r14
	pushq	%r12
	pushq	%rbx
	subq	$32, %rsp
	movq	%rdx, %rbx
	movq	%rsi, %r14
	xorl	%r15d, %r15d
	testq	%rdi, %rdi
	sete	%r15b
	shll	$12, %r15d
	addq	%rdi, %r15
	xorps	%xmm0, %xmm0
	movaps	%xmm0, (%rsp)
	movq	$0, 16(%rsp)
	movq	%rsp, %rdi
	movq	%r15, %rsi
	movq	%r14, %rdx
	callq	_unix_path.path.Path.file_name
	movzbl	(%rsp), %ebp
	cmpb	$1, %bpl
	jne	Lunix_path_BB49_13
	movq	16(%rsp), %r12
	testq	%r14, %r14
	je	Lunix_path_BB49_11
	movq	%r14, %rcx
	movq	%r14, %rax
	jmp	Lunix_path_BB49_3
	.p2align	4
Lunix_path_BB49_10:
	movq	%rax, %rcx
	testq	%rax, %rax
	je	Lunix_path_BB49_11
Lunix_path_BB49_3:
	decq	%rax
	je	Lunix_path_BB49_4
	movzbl	(%r15,%rax), %edx
	cmpl	$47, %edx
	je	Lunix_path_BB49_8
	cmpl	$46, %edx
	jne	Lunix_path_BB49_12
	cmpb	$47, -1(%r15,%rax)
	jne	Lunix_path_BB49_12
Lunix_path_BB49_8:
	movq	%r14, %rcx
	subq	%rax, %rcx
	cmpq	$8, %rcx
	jne	Lunix_path_BB49_10
	movq	%r15, %rdi
	movq	%rax, %rsi
	callq	_unix_path.filler.trimmed_blocks_len
	jmp	Lunix_path_BB49_10
Lunix_path_BB49_11:
	xorl	%ecx, %ecx
	jmp	Lunix_path_BB49_12
Lunix_path_BB49_4:
	movl	$1, %ecx
Lunix_path_BB49_12:
	subq	%r12, %rcx
	movq	%rcx, (%rbx)
	movq	%r12, 8(%rbx)
Lunix_path_BB49_13:
	cmpb	$1, %bpl
	sete	%al
	addq	$32, %rsp
	popq	%rbx
	popq	%r12
	popq	%r14
	popq	%r15
	popq	%rbp
	retq
	.section	__TEXT,__literal16,16byte_literals
	.p2align	4, 0x0
Lunix_path_CPI50_0:
	.space	16,46
	.section	__TEXT,__text,regular,pure_instructions
	.globl	_unix_path_file_prefix
	.p2align	4
_unix_path_file_prefix:
	pushq	%r15
	pushq	%r14
	pushq	%r13
	pushq	%r12
	pushq	%rbx
	subq	$32, %rsp
	movq	%rdx, %rbx
	movq	%rsi, %r14
	xorl	%r15d, %r15d
	testq	%rdi, %rdi
	sete	%r15b
	shll	$12, %r15d
	addq	%rdi, %r15
	pxor	%xmm0, %xmm0
	movdqa	%xmm0, (%rsp)
	movq	$0, 16(%rsp)
	movq	%rsp, %rdi
	movq	%r15, %rsi
	movq	%r14, %rdx
	callq	_unix_path.path.Path.file_name
	cmpb	$1, (%rsp)
	jne	Lunix_path_BB50_20
	movq	16(%rsp), %r13
	testq	%r14, %r14
	je	Lunix_path_BB50_11
	movq	%r14, %r12
	movq	%r14, %rax
	jmp	Lunix_path_BB50_4
	.p2align	4
Lunix_path_BB50_3:
	movq	%rax, %r12
	testq	%rax, %rax
	je	Lunix_path_BB50_11
Lunix_path_BB50_4:
	decq	%rax
	je	Lunix_path_BB50_12
	movzbl	(%r15,%rax), %ecx
	cmpl	$47, %ecx
	je	Lunix_path_BB50_8
	cmpl	$46, %ecx
	jne	Lunix_path_BB50_13
	cmpb	$47, -1(%r15,%rax)
	jne	Lunix_path_BB50_13
Lunix_path_BB50_8:
	movq	%r14, %rcx
	subq	%rax, %rcx
	cmpq	$8, %rcx
	jne	Lunix_path_BB50_3
	movq	%r15, %rdi
	movq	%rax, %rsi
	callq	_unix_path.filler.trimmed_blocks_len
	jmp	Lunix_path_BB50_3
Lunix_path_BB50_11:
	xorl	%r12d, %r12d
	jmp	Lunix_path_BB50_13
Lunix_path_BB50_12:
	movl	$1, %r12d
Lunix_path_BB50_13:
	pxor	%xmm0, %xmm0
	movdqa	%xmm0, (%rsp)
	movq	$0, 16(%rsp)
	movq	%rsp, %rdi
	movq	%r15, %rsi
	movq	%r14, %rdx
	callq	_unix_path.path.Path.file_name
	cmpb	$1, (%rsp)
	jne	Lunix_path_BB50_20
	subq	%r13, %r12
	movq	16(%rsp), %rcx
	xorl	%eax, %eax
	testq	%rcx, %rcx
	setne	%al
	movq	8(%rsp), %rdx
	addq	%rax, %rdx
	subq	%rax, %rcx
	cmpq	$15, %rcx
	ja	Lunix_path_BB50_21
	testq	%rcx, %rcx
	je	Lunix_path_BB50_28
	xorl	%esi, %esi
	.p2align	4
Lunix_path_BB50_17:
	cmpb	$46, (%rdx,%rsi)
	je	Lunix_path_BB50_27
	incq	%rsi
	cmpq	%rsi, %rcx
	jne	Lunix_path_BB50_17
	movq	%rcx, %rsi
	jmp	Lunix_path_BB50_27
Lunix_path_BB50_20:
	xorl	%eax, %eax
	jmp	Lunix_path_BB50_29
Lunix_path_BB50_21:
	addq	$-16, %rcx
	je	Lunix_path_BB50_25
	xorl	%edi, %edi
	.p2align	4
Lunix_path_BB50_23:
	movdqu	(%rdx,%rdi), %xmm0
	pcmpeqb	Lunix_path_CPI50_0(%rip), %xmm0
	pmovmskb	%xmm0, %esi
	orl	$65536, %esi
	rep		bsfl	%esi, %esi
	cmpw	$15, %si
	jbe	Lunix_path_BB50_26
	addq	$16, %rdi
	cmpq	%rcx, %rdi
	jb	Lunix_path_BB50_23
Lunix_path_BB50_25:
	movdqu	(%rdx,%rcx), %xmm0
	pcmpeqb	Lunix_path_CPI50_0(%rip), %xmm0
	pmovmskb	%xmm0, %edx
	orl	$65536, %edx
	rep		bsfl	%edx, %esi
	addq	%rcx, %rsi
	jmp	Lunix_path_BB50_27
Lunix_path_BB50_26:
	movzwl	%si, %esi
	addq	%rdi, %rsi
Lunix_path_BB50_27:
	addq	%rsi, %rax
Lunix_path_BB50_28:
	movq	%r12, (%rbx)
	movq	%rax, 8(%rbx)
	movb	$1, %al
Lunix_path_BB50_29:
	addq	$32, %rsp
	popq	%rbx
	popq	%r12
	popq	%r13
	popq	%r14
	popq	%r15
	retq
	.section	__TEXT,__literal16,16byte_literals
	.p2align	4, 0x0
Lunix_path_CPI51_0:
	.space	16,46
Lunix_path_CPI51_1:
	.space	16,47
	.section	__TEXT,__text,regular,pure_instructions
	.globl	_unix_path_file_stem
	.p2align	4
_unix_path_file_stem:
	pushq	%rbp
	pushq	%r15
	pushq	%r14
	pushq	%r13
	pushq	%r12
	pushq	%rbx
	subq	$40, %rsp
	movq	%rdx, %r13
	movq	%rsi, %r12
	movq	%rdi, %r14
	xorl	%ebx, %ebx
	testq	%rdi, %rdi
	sete	%bl
	shll	$12, %ebx
	leaq	(%rdi,%rbx), %r15
	pxor	%xmm0, %xmm0
	movdqa	%xmm0, 16(%rsp)
	movq	$0, 32(%rsp)
	leaq	16(%rsp), %rdi
	movq	%r15, %rsi
	movq	%r12, %rdx
	callq	_unix_path.path.Path.file_name
	movzbl	16(%rsp), %ebp
	cmpb	$1, %bpl
	jne	Lunix_path_BB51_24
	movq	%r13, 8(%rsp)
	movq	32(%rsp), %r13
	testq	%r12, %r12
	je	Lunix_path_BB51_11
	movq	%r12, %rdx
	movq	%r12, %rax
	jmp	Lunix_path_BB51_3
	.p2align	4
Lunix_path_BB51_10:
	movq	%rax, %rdx
	testq	%rax, %rax
	je	Lunix_path_BB51_11
Lunix_path_BB51_3:
	decq	%rax
	je	Lunix_path_BB51_4
	movzbl	(%r15,%rax), %ecx
	cmpl	$47, %ecx
	je	Lunix_path_BB51_8
	cmpl	$46, %ecx
	jne	Lunix_path_BB51_12
	cmpb	$47, -1(%r15,%rax)
	jne	Lunix_path_BB51_12
Lunix_path_BB51_8:
	movq	%r12, %rcx
	subq	%rax, %rcx
	cmpq	$8, %rcx
	jne	Lunix_path_BB51_10
	movq	%r15, %rdi
	movq	%rax, %rsi
	callq	_unix_path.filler.trimmed_blocks_len
	jmp	Lunix_path_BB51_10
Lunix_path_BB51_11:
	xorl	%edx, %edx
	jmp	Lunix_path_BB51_12
Lunix_path_BB51_4:
	movl	$1, %edx
Lunix_path_BB51_12:
	movq	%rdx, %rax
	subq	%r13, %rax
	leaq	(%r15,%rax), %rcx
	addq	%rdx, %r15
	xorl	%esi, %esi
	.p2align	4
Lunix_path_BB51_13:
	leaq	(%rsi,%r13), %rdi
	cmpq	$15, %rdi
	jbe	Lunix_path_BB51_14
	movdqu	-16(%r15,%rsi), %xmm0
	movdqa	Lunix_path_CPI51_0(%rip), %xmm1
	pcmpeqb	%xmm0, %xmm1
	pmovmskb	%xmm1, %edi
	movl	$127, %r9d
	movl	$127, %r10d
	bsrq	%rdi, %r10
	xorq	$63, %r10
	movl	$64, %r8d
	movl	$64, %edi
	subq	%r10, %rdi
	pcmpeqb	Lunix_path_CPI51_1(%rip), %xmm0
	pmovmskb	%xmm0, %r10d
	bsrq	%r10, %r9
	xorq	$63, %r9
	subq	%r9, %r8
	cmpq	%r8, %rdi
	movq	%r8, %r9
	cmovaq	%rdi, %r9
	addq	$-16, %rsi
	testq	%r9, %r9
	je	Lunix_path_BB51_13
	cmpq	%rdi, %r8
	cmovaq	%r8, %rdi
	addq	%r13, %rdi
	leaq	(%rdi,%rsi), %r8
	leaq	(%rsi,%rdi), %rdx
	decq	%rdx
	testq	%rdx, %rdx
	jne	Lunix_path_BB51_21
	jmp	Lunix_path_BB51_23
Lunix_path_BB51_14:
	addq	%rdx, %rbx
	addq	%rbx, %r14
	leaq	(%rsi,%r14), %rdx
	decq	%rdx
	negq	%rsi
	.p2align	4
Lunix_path_BB51_15:
	cmpq	%rsi, %r13
	je	Lunix_path_BB51_23
	movzbl	(%rdx), %edi
	andb	$-2, %dil
	incq	%rsi
	decq	%rdx
	cmpb	$46, %dil
	jne	Lunix_path_BB51_15
	movq	%r13, %rdx
	subq	%rsi, %rdx
	leaq	1(%rdx), %r8
	testq	%rdx, %rdx
	je	Lunix_path_BB51_23
Lunix_path_BB51_21:
	cmpb	$47, (%rcx,%rdx)
	je	Lunix_path_BB51_23
	cmpb	$47, -2(%rcx,%r8)
	cmovneq	%rdx, %r13
Lunix_path_BB51_23:
	movq	8(%rsp), %rcx
	movq	%rax, (%rcx)
	movq	%r13, 8(%rcx)
Lunix_path_BB51_24:
	cmpb	$1, %bpl
	sete	%al
	addq	$40, %rsp
	popq	%rbx
	popq	%r12
	popq	%r13
	popq	%r14
	popq	%r15
	popq	%rbp
	retq
	.section	__TEXT,__literal16,16byte_literals
	.p2align	4, 0x0
Lunix_path_CPI52_0:
	.space	16,208
Lunix_path_CPI52_1:
	.space	16,47
Lunix_path_CPI52_2:
	.byte	47
	.byte	47
	.byte	47
	.byte	47
	.byte	47
	.byte	47
	.byte	47
	.byte	47
	.space	1
	.space	1
	.space	1
	.space	1
	.space	1
	.space	1
	.space	1
	.space	1
	.section	__TEXT,__text,regular,pure_instructions
	.globl	_unix_path_from_key
	.p2align	4
_unix_path_from_key:
	pushq	%rbp
	pushq	%r15
	pushq	%r14
	pushq	%r13
	pushq	%r12
	pushq	%rbx
	pushq	%rax
	movq	%rcx, %r12
	movq	%rdx, %r15
	movq	%rsi, %rbx
	xorl	%r14d, %r14d
	testq	%rdi, %rdi
	sete	%r14b
	shll	$12, %r14d
	addq	%rdi, %r14
	xorl	%r13d, %r13d
	testq	%rdx, %rdx
	sete	%bpl
	movq	%r14, %rdi
	callq	_path_keys.decode.path_len
	cmpb	$1, %al
	jne	Lunix_path_BB52_4
	cmpq	%rdx, %r12
	jb	Lunix_path_BB52_5
	movb	%bpl, %r13b
	shll	$12, %r13d
	leaq	(%r15,%r13), %rcx
	cmpq	$2, %rbx
	jb	Lunix_path_BB52_7
	cmpb	$0, (%r14)
	je	Lunix_path_BB52_74
Lunix_path_BB52_7:
	xorl	%esi, %esi
Lunix_path_BB52_8:
	leaq	1(%rdx), %rdi
	leaq	(%r15,%r13), %r8
	addq	$16, %r8
	leaq	(%r15,%r13), %r9
	incq	%r9
	movq	%r9, (%rsp)
	jmp	Lunix_path_BB52_11
	.p2align	4
Lunix_path_BB52_9:
	incq	%r10
	movq	%r10, %r11
Lunix_path_BB52_10:
	addq	%r10, %rsi
	addq	%r11, %r14
	subq	%r11, %rbx
Lunix_path_BB52_11:
	movq	%rdi, %r10
	subq	%rsi, %r10
	je	Lunix_path_BB52_14
	cmpq	%r10, %rbx
	jne	Lunix_path_BB52_14
	leaq	-1(%rbx), %r10
	jmp	Lunix_path_BB52_46
	.p2align	4
Lunix_path_BB52_14:
	cmpq	$2, %rbx
	jae	Lunix_path_BB52_17
	testq	%rbx, %rbx
	je	Lunix_path_BB52_5
	movzbl	(%r14), %r10d
	jmp	Lunix_path_BB52_21
	.p2align	4
Lunix_path_BB52_17:
	movzbl	(%r14), %r10d
	testb	%r10b, %r10b
	jne	Lunix_path_BB52_21
	cmpb	$3, 1(%r14)
	jne	Lunix_path_BB52_21
	leaq	2(%rsi), %r15
	movw	$11822, (%rcx,%rsi)
	movl	$2, %r11d
	movl	$3, %r10d
	cmpq	%rdx, %r15
	jae	Lunix_path_BB52_10
	movb	$47, (%rcx,%r15)
	jmp	Lunix_path_BB52_10
	.p2align	4
Lunix_path_BB52_21:
	cmpb	$47, %r10b
	je	Lunix_path_BB52_23
	movzbl	%r10b, %r10d
	jmp	Lunix_path_BB52_25
Lunix_path_BB52_23:
	cmpq	$2, %rbx
	jb	Lunix_path_BB52_5
	movzbl	1(%r14), %r10d
	cmpl	$47, %r10d
	je	Lunix_path_BB52_26
Lunix_path_BB52_25:
	testl	%r10d, %r10d
	jne	Lunix_path_BB52_28
	jmp	Lunix_path_BB52_5
Lunix_path_BB52_26:
	cmpq	$2, %rbx
	je	Lunix_path_BB52_5
	cmpb	$0, 2(%r14)
	je	Lunix_path_BB52_5
Lunix_path_BB52_28:
	cmpq	$18, %rbx
	ja	Lunix_path_BB52_31
	cmpq	$9, %rbx
	jae	Lunix_path_BB52_39
	xorl	%r11d, %r11d
	cmpq	%rbx, %r11
	jb	Lunix_path_BB52_67
	jmp	Lunix_path_BB52_44
Lunix_path_BB52_31:
	movq	%rbx, %r10
	xorl	%r11d, %r11d
	addq	$-19, %r10
	jne	Lunix_path_BB52_35
Lunix_path_BB52_32:
	leaq	-17(%rbx), %r15
	cmpq	%r11, %r15
	cmovbq	%r15, %r11
	movdqu	(%r14,%r11), %xmm0
	movdqu	1(%r14,%r11), %xmm1
	pand	Lunix_path_CPI52_0(%rip), %xmm1
	por	%xmm0, %xmm1
	pxor	%xmm0, %xmm0
	pcmpeqb	%xmm0, %xmm1
	pmovmskb	%xmm1, %ebp
	testl	%ebp, %ebp
	je	Lunix_path_BB52_64
	movdqu	(%r14,%r10), %xmm1
	movdqu	1(%r14,%r10), %xmm2
	movdqu	2(%r14,%r10), %xmm3
	movdqu	3(%r14,%r10), %xmm4
	movdqa	Lunix_path_CPI52_1(%rip), %xmm5
	movdqa	%xmm3, %xmm6
	pcmpeqb	%xmm5, %xmm6
	pcmpeqb	%xmm0, %xmm4
	pand	%xmm6, %xmm4
	pcmpeqb	%xmm2, %xmm5
	pcmpeqb	%xmm0, %xmm3
	por	%xmm4, %xmm3
	pand	%xmm5, %xmm3
	pcmpeqb	%xmm0, %xmm1
	pcmpeqb	%xmm0, %xmm2
	por	%xmm3, %xmm2
	pand	%xmm1, %xmm2
	pmovmskb	%xmm2, %r11d
	orl	$65536, %r11d
	rep		bsfl	%r11d, %r11d
	jmp	Lunix_path_BB52_42
	.p2align	4
Lunix_path_BB52_34:
	cmpq	%r10, %r11
	jae	Lunix_path_BB52_32
Lunix_path_BB52_35:
	movdqu	(%r14,%r11), %xmm0
	movdqu	1(%r14,%r11), %xmm1
	movdqa	Lunix_path_CPI52_0(%rip), %xmm3
	pand	%xmm1, %xmm3
	por	%xmm0, %xmm3
	pxor	%xmm2, %xmm2
	pcmpeqb	%xmm2, %xmm3
	pmovmskb	%xmm3, %ebp
	testl	%ebp, %ebp
	je	Lunix_path_BB52_38
	movdqu	2(%r14,%r11), %xmm3
	movdqu	3(%r14,%r11), %xmm4
	movdqa	Lunix_path_CPI52_1(%rip), %xmm5
	movdqa	%xmm3, %xmm6
	pcmpeqb	%xmm5, %xmm6
	pcmpeqb	%xmm2, %xmm4
	pand	%xmm6, %xmm4
	pcmpeqb	%xmm1, %xmm5
	pcmpeqb	%xmm2, %xmm3
	por	%xmm4, %xmm3
	pand	%xmm5, %xmm3
	pcmpeqb	%xmm2, %xmm0
	pcmpeqb	%xmm2, %xmm1
	por	%xmm3, %xmm1
	pand	%xmm0, %xmm1
	pmovmskb	%xmm1, %ebp
	orl	$65536, %ebp
	rep		bsfl	%ebp, %ebp
	cmpw	$15, %bp
	jbe	Lunix_path_BB52_41
	addq	$16, %r11
	jmp	Lunix_path_BB52_34
	.p2align	4
Lunix_path_BB52_38:
	addq	$16, %r11
	cmpq	%r10, %r11
	jb	Lunix_path_BB52_35
	jmp	Lunix_path_BB52_34
Lunix_path_BB52_39:
	movq	(%r14), %xmm1
	movq	1(%r14), %xmm2
	pxor	%xmm0, %xmm0
	movdqa	%xmm2, %xmm3
	pcmpeqb	Lunix_path_CPI52_2(%rip), %xmm2
	pcmpeqb	%xmm0, %xmm3
	por	%xmm3, %xmm2
	pcmpeqb	%xmm0, %xmm1
	pand	%xmm2, %xmm1
	pmovmskb	%xmm1, %r10d
	orl	$256, %r10d
	rep		bsfl	%r10d, %r11d
	cmpb	$8, %r11b
	jb	Lunix_path_BB52_43
	cmpq	$17, %rbx
	movl	$17, %r10d
	cmovbq	%rbx, %r10
	movq	-9(%r14,%r10), %xmm1
	movq	-8(%r14,%r10), %xmm2
	movdqa	%xmm2, %xmm3
	pcmpeqb	Lunix_path_CPI52_2(%rip), %xmm2
	pcmpeqb	%xmm0, %xmm3
	por	%xmm3, %xmm2
	pcmpeqb	%xmm0, %xmm1
	pand	%xmm2, %xmm1
	pmovmskb	%xmm1, %r11d
	orl	$256, %r11d
	rep		bsfl	%r11d, %r11d
	addq	%r10, %r11
	addq	$-9, %r11
	cmpq	%rbx, %r11
	jb	Lunix_path_BB52_67
	jmp	Lunix_path_BB52_44
Lunix_path_BB52_41:
	movzwl	%bp, %r10d
Lunix_path_BB52_42:
	addq	%r10, %r11
Lunix_path_BB52_43:
	cmpq	%rbx, %r11
	jb	Lunix_path_BB52_67
Lunix_path_BB52_44:
	movq	%r11, %r10
Lunix_path_BB52_45:
	cmpq	%rbx, %r10
	je	Lunix_path_BB52_5
Lunix_path_BB52_46:
	cmpq	$15, %r10
	ja	Lunix_path_BB52_50
	testq	%r10, %r10
	je	Lunix_path_BB52_62
	cmpq	$1, %r10
	jne	Lunix_path_BB52_55
	xorl	%r11d, %r11d
	jmp	Lunix_path_BB52_58
	.p2align	4
Lunix_path_BB52_50:
	movq	%r10, %r11
	addq	$-16, %r11
	je	Lunix_path_BB52_61
	leaq	-17(%r10), %r12
	shrq	$4, %r12
	je	Lunix_path_BB52_59
	incq	%r12
	movq	%r12, %r13
	andq	$-2, %r13
	leaq	(%r8,%rsi), %rbp
	xorl	%r15d, %r15d
	.p2align	4
Lunix_path_BB52_53:
	movdqu	(%r14,%r15), %xmm0
	movdqa	Lunix_path_CPI52_1(%rip), %xmm1
	movdqa	%xmm0, %xmm2
	pminub	%xmm1, %xmm2
	pcmpeqb	%xmm0, %xmm2
	paddb	%xmm0, %xmm2
	pxor	%xmm3, %xmm3
	pcmpeqb	%xmm3, %xmm0
	movdqa	%xmm0, %xmm4
	pandn	%xmm2, %xmm4
	pand	%xmm1, %xmm0
	por	%xmm4, %xmm0
	movdqu	%xmm0, -16(%rbp,%r15)
	movdqu	16(%r14,%r15), %xmm0
	movdqa	%xmm0, %xmm2
	pminub	%xmm1, %xmm2
	pcmpeqb	%xmm0, %xmm2
	paddb	%xmm0, %xmm2
	pcmpeqb	%xmm3, %xmm0
	movdqa	%xmm0, %xmm3
	pandn	%xmm2, %xmm3
	pand	%xmm1, %xmm0
	por	%xmm3, %xmm0
	movdqu	%xmm0, (%rbp,%r15)
	addq	$32, %r15
	addq	$-2, %r13
	jne	Lunix_path_BB52_53
	testb	$1, %r12b
	jne	Lunix_path_BB52_60
	jmp	Lunix_path_BB52_61
Lunix_path_BB52_55:
	movl	%r10d, %r15d
	andl	$14, %r15d
	movq	(%rsp), %r9
	leaq	(%r9,%rsi), %r12
	xorl	%r11d, %r11d
	.p2align	4
Lunix_path_BB52_56:
	movzbl	(%r14,%r11), %ebp
	cmpb	$48, %bpl
	movl	%ebp, %r13d
	sbbb	$0, %r13b
	testb	%bpl, %bpl
	movzbl	%r13b, %ebp
	movl	$47, %r13d
	cmovel	%r13d, %ebp
	movb	%bpl, -1(%r12,%r11)
	movzbl	1(%r14,%r11), %r9d
	cmpb	$48, %r9b
	movl	%r9d, %ebp
	sbbb	$0, %bpl
	testb	%r9b, %r9b
	movzbl	%bpl, %r9d
	cmovel	%r13d, %r9d
	movb	%r9b, (%r12,%r11)
	addq	$2, %r11
	cmpq	%r11, %r15
	jne	Lunix_path_BB52_56
	testb	$1, %r10b
	je	Lunix_path_BB52_62
Lunix_path_BB52_58:
	leaq	(%rcx,%rsi), %r9
	movzbl	(%r14,%r11), %ebp
	cmpb	$48, %bpl
	movl	%ebp, %r15d
	sbbb	$0, %r15b
	testb	%bpl, %bpl
	movzbl	%r15b, %ebp
	movl	$47, %r15d
	cmovnel	%ebp, %r15d
	movb	%r15b, (%r9,%r11)
	jmp	Lunix_path_BB52_62
Lunix_path_BB52_59:
	xorl	%r15d, %r15d
Lunix_path_BB52_60:
	leaq	(%rcx,%rsi), %r9
	movdqu	(%r14,%r15), %xmm0
	movdqa	Lunix_path_CPI52_1(%rip), %xmm1
	movdqa	%xmm0, %xmm2
	pminub	%xmm1, %xmm2
	pcmpeqb	%xmm0, %xmm2
	paddb	%xmm0, %xmm2
	pxor	%xmm3, %xmm3
	pcmpeqb	%xmm0, %xmm3
	movdqa	%xmm3, %xmm0
	pandn	%xmm2, %xmm0
	pand	%xmm1, %xmm3
	por	%xmm0, %xmm3
	movdqu	%xmm3, (%r9,%r15)
Lunix_path_BB52_61:
	movdqu	(%r14,%r11), %xmm0
	movdqa	Lunix_path_CPI52_1(%rip), %xmm1
	movdqa	%xmm0, %xmm2
	pminub	%xmm1, %xmm2
	pcmpeqb	%xmm0, %xmm2
	paddb	%xmm0, %xmm2
	pxor	%xmm3, %xmm3
	pcmpeqb	%xmm0, %xmm3
	movdqa	%xmm3, %xmm0
	pandn	%xmm2, %xmm0
	pand	%xmm1, %xmm3
	por	%xmm0, %xmm3
	leaq	(%rcx,%rsi), %r9
	movdqu	%xmm3, (%r11,%r9)
Lunix_path_BB52_62:
	leaq	(%r10,%rsi), %r11
	cmpq	%rdx, %r11
	jae	Lunix_path_BB52_9
	movb	$47, (%rcx,%r11)
	jmp	Lunix_path_BB52_9
Lunix_path_BB52_64:
	addq	$16, %r11
	cmpq	%rbx, %r11
	jb	Lunix_path_BB52_67
	jmp	Lunix_path_BB52_44
	.p2align	4
Lunix_path_BB52_65:
	testl	%ebp, %ebp
	je	Lunix_path_BB52_45
Lunix_path_BB52_66:
	cmpq	%r11, %rbx
	je	Lunix_path_BB52_5
Lunix_path_BB52_67:
	movq	%r11, %r10
	incq	%r11
	cmpb	$0, (%r14,%r10)
	jne	Lunix_path_BB52_66
	cmpq	%r11, %rbx
	jbe	Lunix_path_BB52_45
	movzbl	1(%r14,%r10), %ebp
	cmpl	$47, %ebp
	jne	Lunix_path_BB52_65
	leaq	2(%r10), %r15
	cmpq	%r15, %rbx
	jbe	Lunix_path_BB52_45
	movzbl	2(%r14,%r10), %ebp
	cmpl	$47, %ebp
	jne	Lunix_path_BB52_65
	leaq	3(%r10), %r15
	cmpq	%r15, %rbx
	jbe	Lunix_path_BB52_45
	cmpb	$0, 3(%r14,%r10)
	jne	Lunix_path_BB52_66
	jmp	Lunix_path_BB52_45
Lunix_path_BB52_4:
	xorl	%edx, %edx
Lunix_path_BB52_5:
	movabsq	$-9223372036854775808, %rcx
	cmpq	%rcx, %rdx
	cmovbq	%rdx, %rcx
	cmpb	$1, %al
	movq	$-5, %rax
	cmoveq	%rcx, %rax
	addq	$8, %rsp
	popq	%rbx
	popq	%r12
	popq	%r13
	popq	%r14
	popq	%r15
	popq	%rbp
	retq
Lunix_path_BB52_74:
	movzbl	1(%r14), %esi
	cmpl	$2, %esi
	je	Lunix_path_BB52_78
	cmpl	$1, %esi
	jne	Lunix_path_BB52_7
	addq	$2, %r14
	addq	$-2, %rbx
	movl	$1, %esi
	testq	%rdx, %rdx
	je	Lunix_path_BB52_8
	movb	$47, (%rcx)
	jmp	Lunix_path_BB52_8
Lunix_path_BB52_78:
	addq	$2, %r14
	addq	$-2, %rbx
	cmpq	$2, %rdx
	jb	Lunix_path_BB52_81
	leaq	lunix_path__static.9(%rip), %rsi
	movq	%rcx, %rdi
	subq	%rsi, %rdi
	cmpq	$1, %rdi
	movw	$12078, (%rcx)
	movl	$2, %esi
	jmp	Lunix_path_BB52_8
Lunix_path_BB52_81:
	movl	$2, %esi
	cmpq	$1, %rdx
	jne	Lunix_path_BB52_8
	movb	$46, (%rcx)
	jmp	Lunix_path_BB52_8
	.section	__TEXT,__literal16,16byte_literals
	.p2align	4, 0x0
Lunix_path_CPI53_0:
	.space	16,47
	.section	__TEXT,__text,regular,pure_instructions
	.globl	_unix_path_hash
	.p2align	4
_unix_path_hash:
	pushq	%rbp
	pushq	%r15
	pushq	%r14
	pushq	%r13
	pushq	%r12
	pushq	%rbx
	subq	$88, %rsp
	movabsq	$8387220255154660723, %r13
	movabsq	$8317987319222330741, %rcx
	movabsq	$7816392313619706465, %r8
	movabsq	$7237128888997146477, %r14
	xorl	%ebp, %ebp
	testq	%rdi, %rdi
	sete	%al
	pxor	%xmm0, %xmm0
	movdqu	%xmm0, 40(%rsp)
	movq	%rcx, 8(%rsp)
	movq	%r14, 16(%rsp)
	movq	%r8, 24(%rsp)
	movq	%r13, 32(%rsp)
	testq	%rsi, %rsi
	je	Lunix_path_BB53_1
	movq	%rsi, %rbx
	movq	%rdi, %r15
	movb	%al, %bpl
	shll	$12, %ebp
	leaq	(%rdi,%rbp), %rax
	movq	%rax, 72(%rsp)
	movzbl	(%rax), %eax
	movb	$1, %r12b
	cmpl	$47, %eax
	je	Lunix_path_BB53_7
	cmpl	$46, %eax
	jne	Lunix_path_BB53_6
	cmpq	$1, %rbx
	je	Lunix_path_BB53_7
	leaq	(%r15,%rbp), %rax
	cmpb	$47, 1(%rax)
	sete	%r12b
	jmp	Lunix_path_BB53_7
Lunix_path_BB53_1:
	xorl	%eax, %eax
	jmp	Lunix_path_BB53_86
Lunix_path_BB53_6:
	xorl	%r12d, %r12d
Lunix_path_BB53_7:
	movq	%rbx, %rax
	movq	%rbx, (%rsp)
	jmp	Lunix_path_BB53_8
	.p2align	4
Lunix_path_BB53_18:
	movq	%rax, (%rsp)
	testq	%rax, %rax
	je	Lunix_path_BB53_19
Lunix_path_BB53_8:
	decq	%rax
	je	Lunix_path_BB53_9
	leaq	(%r15,%rbp), %rcx
	movzbl	(%rcx,%rax), %ecx
	cmpl	$47, %ecx
	je	Lunix_path_BB53_16
	cmpl	$46, %ecx
	jne	Lunix_path_BB53_9
	leaq	(%r15,%rbp), %rcx
	cmpb	$47, -1(%rcx,%rax)
	jne	Lunix_path_BB53_9
Lunix_path_BB53_16:
	movq	%rbx, %rcx
	subq	%rax, %rcx
	cmpq	$8, %rcx
	jne	Lunix_path_BB53_18
	leaq	(%r15,%rbp), %rdi
	movq	%rax, %rsi
	callq	_unix_path.filler.trimmed_blocks_len
	jmp	Lunix_path_BB53_18
Lunix_path_BB53_9:
	leaq	(%r15,%rbp), %rax
	incq	%rax
	movq	%rax, 64(%rsp)
	leaq	(%r15,%rbp), %rax
	addq	$3, %rax
	movq	%rax, 56(%rsp)
	addq	%r15, %rbp
	addq	$2, %rbp
	xorl	%r13d, %r13d
	movq	(%rsp), %rbx
	movq	%rbx, %rax
	jmp	Lunix_path_BB53_10
Lunix_path_BB53_12:
	movl	$1, %ecx
Lunix_path_BB53_28:
	addq	%rcx, %r13
	cmpb	$47, (%r14)
	leaq	lunix_path__static.8(%rip), %rax
	leaq	lunix_path__static.5(%rip), %r14
	cmoveq	%rax, %r14
Lunix_path_BB53_69:
	movzbl	(%r14), %eax
	orq	$12032, %rax
Lunix_path_BB53_84:
	movq	%rax, 80(%rsp)
	leaq	8(%rsp), %rdi
	leaq	80(%rsp), %rsi
	callq	_core.hash.sip.DefaultHasherHasher.write
	xorl	%r12d, %r12d
	movq	%rbx, %rax
	subq	%r13, %rax
	je	Lunix_path_BB53_85
Lunix_path_BB53_10:
	movq	72(%rsp), %rcx
	leaq	(%rcx,%r13), %r14
	testb	$1, %r12b
	je	Lunix_path_BB53_29
	movq	%rax, %rdx
	decq	%rdx
	je	Lunix_path_BB53_12
	leaq	-1(%rax), %rsi
	movq	%rbp, %rdi
	addq	%r13, %rdi
	addq	$-2, %rax
	xorl	%ecx, %ecx
	jmp	Lunix_path_BB53_21
	.p2align	4
Lunix_path_BB53_25:
	incq	%rcx
	cmpq	%rcx, %rsi
	je	Lunix_path_BB53_26
Lunix_path_BB53_21:
	movzbl	-1(%rdi,%rcx), %r8d
	cmpl	$47, %r8d
	je	Lunix_path_BB53_25
	cmpl	$46, %r8d
	jne	Lunix_path_BB53_27
	cmpq	%rcx, %rax
	je	Lunix_path_BB53_26
	cmpb	$47, (%rdi,%rcx)
	je	Lunix_path_BB53_25
	jmp	Lunix_path_BB53_27
	.p2align	4
Lunix_path_BB53_29:
	cmpq	$1, %rax
	je	Lunix_path_BB53_43
	cmpb	$46, (%r14)
	jne	Lunix_path_BB53_43
	cmpb	$46, 1(%r14)
	jne	Lunix_path_BB53_43
	movl	$2, %ecx
	cmpq	$2, %rax
	je	Lunix_path_BB53_42
	cmpb	$47, 2(%r14)
	jne	Lunix_path_BB53_43
	leaq	-2(%rax), %rdx
	movq	56(%rsp), %rcx
	leaq	(%rcx,%r13), %rsi
	addq	$-3, %rax
	xorl	%ecx, %ecx
	jmp	Lunix_path_BB53_35
	.p2align	4
Lunix_path_BB53_43:
	cmpq	$15, %rax
	ja	Lunix_path_BB53_48
	xorl	%r15d, %r15d
	.p2align	4
Lunix_path_BB53_45:
	cmpb	$47, (%r14,%r15)
	je	Lunix_path_BB53_54
	incq	%r15
	cmpq	%r15, %rax
	jne	Lunix_path_BB53_45
	movq	%rax, %r15
	subq	%r15, %rax
	jne	Lunix_path_BB53_56
	jmp	Lunix_path_BB53_55
	.p2align	4
Lunix_path_BB53_39:
	incq	%rcx
	cmpq	%rcx, %rdx
	je	Lunix_path_BB53_40
Lunix_path_BB53_35:
	movzbl	-1(%rsi,%rcx), %edi
	cmpl	$47, %edi
	je	Lunix_path_BB53_39
	cmpl	$46, %edi
	jne	Lunix_path_BB53_41
	cmpq	%rcx, %rax
	je	Lunix_path_BB53_40
	cmpb	$47, (%rsi,%rcx)
	je	Lunix_path_BB53_39
	jmp	Lunix_path_BB53_41
	.p2align	4
Lunix_path_BB53_48:
	movq	%rax, %rcx
	addq	$-16, %rcx
	je	Lunix_path_BB53_53
	xorl	%edx, %edx
	.p2align	4
Lunix_path_BB53_50:
	movdqu	(%r14,%rdx), %xmm0
	pcmpeqb	Lunix_path_CPI53_0(%rip), %xmm0
	pmovmskb	%xmm0, %esi
	orl	$65536, %esi
	rep		bsfl	%esi, %esi
	cmpw	$15, %si
	jbe	Lunix_path_BB53_51
	addq	$16, %rdx
	cmpq	%rcx, %rdx
	jb	Lunix_path_BB53_50
Lunix_path_BB53_53:
	movdqu	(%r14,%rcx), %xmm0
	pcmpeqb	Lunix_path_CPI53_0(%rip), %xmm0
	pmovmskb	%xmm0, %edx
	orl	$65536, %edx
	rep		bsfl	%edx, %r15d
	addq	%rcx, %r15
Lunix_path_BB53_54:
	subq	%r15, %rax
	je	Lunix_path_BB53_55
Lunix_path_BB53_56:
	leaq	(%r15,%r13), %rcx
	addq	64(%rsp), %rcx
	leaq	-1(%rax), %rdx
	xorl	%r12d, %r12d
	jmp	Lunix_path_BB53_57
	.p2align	4
Lunix_path_BB53_61:
	incq	%r12
	cmpq	%r12, %rax
	je	Lunix_path_BB53_62
Lunix_path_BB53_57:
	movzbl	-1(%rcx,%r12), %esi
	cmpl	$47, %esi
	je	Lunix_path_BB53_61
	cmpl	$46, %esi
	jne	Lunix_path_BB53_63
	cmpq	%r12, %rdx
	je	Lunix_path_BB53_62
	cmpb	$47, (%rcx,%r12)
	je	Lunix_path_BB53_61
	jmp	Lunix_path_BB53_63
Lunix_path_BB53_26:
	movq	%rdx, %rcx
Lunix_path_BB53_27:
	incq	%rcx
	jmp	Lunix_path_BB53_28
Lunix_path_BB53_62:
	movq	%rax, %r12
Lunix_path_BB53_63:
	movq	%r15, %rbx
	cmpq	$8, %r15
	jb	Lunix_path_BB53_65
	.p2align	4
Lunix_path_BB53_64:
	leaq	8(%rsp), %rdi
	movq	%r14, %rsi
	callq	_core.hash.sip.DefaultHasherHasher.write
	addq	$8, %r14
	addq	$-8, %rbx
	cmpq	$7, %rbx
	ja	Lunix_path_BB53_64
Lunix_path_BB53_65:
	addq	%r15, %r13
	addq	%r12, %r13
	testq	%rbx, %rbx
	je	Lunix_path_BB53_66
	cmpq	$1, %rbx
	jne	Lunix_path_BB53_70
	movq	(%rsp), %rbx
	jmp	Lunix_path_BB53_69
Lunix_path_BB53_66:
	movl	$47, %eax
Lunix_path_BB53_83:
	movq	(%rsp), %rbx
	jmp	Lunix_path_BB53_84
Lunix_path_BB53_70:
	cmpq	$2, %rbx
	ja	Lunix_path_BB53_73
	movq	(%rsp), %rbx
	jmp	Lunix_path_BB53_72
Lunix_path_BB53_73:
	cmpq	$3, %rbx
	jne	Lunix_path_BB53_75
	movzbl	(%r14), %eax
	movzwl	1(%r14), %ecx
	shll	$8, %ecx
	addq	%rcx, %rax
	addq	$788529152, %rax
	jmp	Lunix_path_BB53_83
Lunix_path_BB53_51:
	movzwl	%si, %r15d
	addq	%rdx, %r15
	subq	%r15, %rax
	jne	Lunix_path_BB53_56
Lunix_path_BB53_55:
	xorl	%r12d, %r12d
	movq	%r15, %rbx
	cmpq	$8, %r15
	jae	Lunix_path_BB53_64
	jmp	Lunix_path_BB53_65
Lunix_path_BB53_75:
	cmpq	$4, %rbx
	ja	Lunix_path_BB53_77
	movl	(%r14), %ecx
	movabsq	$201863462912, %rax
	jmp	Lunix_path_BB53_82
Lunix_path_BB53_40:
	movq	%rdx, %rcx
Lunix_path_BB53_41:
	addq	$2, %rcx
Lunix_path_BB53_42:
	addq	%rcx, %r13
	leaq	lunix_path__static.10(%rip), %r14
Lunix_path_BB53_72:
	movzwl	(%r14), %eax
	orq	$3080192, %rax
	jmp	Lunix_path_BB53_84
Lunix_path_BB53_77:
	cmpq	$7, %rbx
	je	Lunix_path_BB53_81
	cmpq	$5, %rbx
	jne	Lunix_path_BB53_80
	movzbl	(%r14), %eax
	movl	1(%r14), %ecx
	shlq	$8, %rcx
	orq	%rax, %rcx
	movabsq	$51677046505472, %rax
	jmp	Lunix_path_BB53_82
Lunix_path_BB53_81:
	movzwl	(%r14), %eax
	movzbl	2(%r14), %ecx
	movl	3(%r14), %edx
	shlq	$24, %rdx
	shll	$16, %ecx
	orq	%rax, %rcx
	orq	%rdx, %rcx
	movabsq	$3386706919782612992, %rax
	jmp	Lunix_path_BB53_82
Lunix_path_BB53_80:
	movzwl	(%r14), %eax
	movl	2(%r14), %ecx
	shlq	$16, %rcx
	orq	%rax, %rcx
	movabsq	$13229323905400832, %rax
Lunix_path_BB53_82:
	orq	%rcx, %rax
	jmp	Lunix_path_BB53_83
Lunix_path_BB53_85:
	movq	8(%rsp), %rcx
	movq	16(%rsp), %r14
	movq	24(%rsp), %r8
	movq	32(%rsp), %r13
	movq	48(%rsp), %rax
	shlq	$56, %rax
	orq	40(%rsp), %rax
	jmp	Lunix_path_BB53_86
Lunix_path_BB53_19:
	xorl	%eax, %eax
	movabsq	$8317987319222330741, %rcx
	movabsq	$7816392313619706465, %r8
Lunix_path_BB53_86:
	xorq	%rax, %r13
	addq	%r14, %rcx
	rolq	$13, %r14
	addq	%r13, %r8
	xorq	%rcx, %r14
	rolq	$16, %r13
	xorq	%r8, %r13
	rolq	$32, %rcx
	addq	%r14, %r8
	addq	%r13, %rcx
	rolq	$17, %r14
	xorq	%r8, %r14
	rolq	$21, %r13
	rolq	$32, %r8
	xorq	%rcx, %r13
	xorq	%rax, %rcx
	xorq	$255, %r8
	addq	%r14, %rcx
	addq	%r13, %r8
	rolq	$13, %r14
	xorq	%rcx, %r14
	rolq	$16, %r13
	rolq	$32, %rcx
	xorq	%r8, %r13
	addq	%r14, %r8
	rolq	$17, %r14
	addq	%r13, %rcx
	xorq	%r8, %r14
	rolq	$21, %r13
	xorq	%rcx, %r13
	rolq	$32, %r8
	addq	%r14, %rcx
	addq	%r13, %r8
	rolq	$13, %r14
	xorq	%rcx, %r14
	rolq	$16, %r13
	rolq	$32, %rcx
	xorq	%r8, %r13
	addq	%r14, %r8
	rolq	$17, %r14
	addq	%r13, %rcx
	xorq	%r8, %r14
	rolq	$21, %r13
	xorq	%rcx, %r13
	rolq	$32, %r8
	addq	%r14, %rcx
	addq	%r13, %r8
	rolq	$13, %r14
	xorq	%rcx, %r14
	rolq	$16, %r13
	xorq	%r8, %r13
	addq	%r14, %r8
	rolq	$17, %r14
	rolq	$21, %r13
	movq	%r8, %rax
	rolq	$32, %rax
	xorq	%r14, %r13
	xorq	%r8, %rax
	xorq	%r13, %rax
	addq	$88, %rsp
	popq	%rbx
	popq	%r12
	popq	%r13
	popq	%r14
	popq	%r15
	popq	%rbp
	retq
	.globl	_unix_path_is_absolute
	.p2align	4
_unix_path_is_absolute:
	testq	%rsi, %rsi
	je	Lunix_path_BB54_1
	xorl	%eax, %eax
	testq	%rdi, %rdi
	sete	%al
	shll	$12, %eax
	cmpb	$47, (%rdi,%rax)
	sete	%al
	retq
Lunix_path_BB54_1:
	xorl	%eax, %eax
	retq
	.section	__TEXT,__literal16,16byte_literals
	.p2align	4, 0x0
Lunix_path_CPI55_0:
	.space	16,46
Lunix_path_CPI55_1:
	.space	16,47
	.section	__TEXT,__text,regular,pure_instructions
	.globl	_unix_path_is_canonical
	.p2align	4
_unix_path_is_canonical:
	pushq	%r15
	pushq	%r14
	pushq	%r12
	pushq	%rbx
	pushq	%rax
	movq	%rsi, %r15
	movq	%rdi, %rbx
	xorl	%r12d, %r12d
	testq	%rdi, %rdi
	sete	%r12b
	shll	$12, %r12d
	leaq	(%rdi,%r12), %r14
	testq	%rsi, %rsi
	je	Lunix_path_BB55_10
	movq	%r15, %rcx
	movq	%r15, %rax
	jmp	Lunix_path_BB55_2
	.p2align	4
Lunix_path_BB55_9:
	movq	%rax, %rcx
	testq	%rax, %rax
	je	Lunix_path_BB55_10
Lunix_path_BB55_2:
	decq	%rax
	je	Lunix_path_BB55_3
	movzbl	(%r14,%rax), %edx
	cmpl	$47, %edx
	je	Lunix_path_BB55_7
	cmpl	$46, %edx
	jne	Lunix_path_BB55_11
	cmpb	$47, -1(%r14,%rax)
	jne	Lunix_path_BB55_11
Lunix_path_BB55_7:
	movq	%r15, %rcx
	subq	%rax, %rcx
	cmpq	$8, %rcx
	jne	Lunix_path_BB55_9
	movq	%r14, %rdi
	movq	%rax, %rsi
	callq	_unix_path.filler.trimmed_blocks_len
	jmp	Lunix_path_BB55_9
Lunix_path_BB55_10:
	xorl	%ecx, %ecx
Lunix_path_BB55_11:
	cmpq	%r15, %rcx
	jae	Lunix_path_BB55_13
Lunix_path_BB55_12:
	xorl	%eax, %eax
	jmp	Lunix_path_BB55_33
Lunix_path_BB55_3:
	movl	$1, %ecx
	cmpq	%r15, %rcx
	jb	Lunix_path_BB55_12
Lunix_path_BB55_13:
	movb	$1, %al
	cmpq	$2, %rcx
	jb	Lunix_path_BB55_33
	cmpq	$18, %rcx
	jae	Lunix_path_BB55_16
	xorl	%edx, %edx
	cmpq	%rcx, %rdx
	jb	Lunix_path_BB55_23
	jmp	Lunix_path_BB55_32
Lunix_path_BB55_16:
	movq	%rcx, %rax
	addq	$-18, %rax
	je	Lunix_path_BB55_21
	leaq	(%r12,%rbx), %rdx
	addq	$2, %rdx
	xorl	%esi, %esi
	.p2align	4
Lunix_path_BB55_18:
	movdqu	-2(%rdx,%rsi), %xmm0
	movdqu	-1(%rdx,%rsi), %xmm1
	movdqu	(%rdx,%rsi), %xmm2
	movdqa	Lunix_path_CPI55_0(%rip), %xmm3
	pcmpeqb	%xmm1, %xmm3
	movdqa	Lunix_path_CPI55_1(%rip), %xmm4
	pcmpeqb	%xmm4, %xmm2
	pand	%xmm3, %xmm2
	pcmpeqb	%xmm4, %xmm0
	pcmpeqb	%xmm4, %xmm1
	por	%xmm2, %xmm1
	pand	%xmm0, %xmm1
	pmovmskb	%xmm1, %edi
	orl	$65536, %edi
	rep		bsfl	%edi, %edi
	cmpw	$15, %di
	jbe	Lunix_path_BB55_19
	addq	$16, %rsi
	cmpq	%rax, %rsi
	jb	Lunix_path_BB55_18
Lunix_path_BB55_21:
	movdqu	(%r14,%rax), %xmm0
	movdqu	1(%r14,%rax), %xmm1
	movdqu	2(%r14,%rax), %xmm2
	movdqa	Lunix_path_CPI55_0(%rip), %xmm3
	pcmpeqb	%xmm1, %xmm3
	movdqa	Lunix_path_CPI55_1(%rip), %xmm4
	pcmpeqb	%xmm4, %xmm2
	pand	%xmm3, %xmm2
	pcmpeqb	%xmm4, %xmm0
	pcmpeqb	%xmm4, %xmm1
	por	%xmm2, %xmm1
	pand	%xmm0, %xmm1
	pmovmskb	%xmm1, %edx
	orl	$65536, %edx
	rep		bsfl	%edx, %edx
	addq	%rax, %rdx
	cmpq	%rcx, %rdx
	jb	Lunix_path_BB55_23
	jmp	Lunix_path_BB55_32
Lunix_path_BB55_19:
	movzwl	%di, %edx
	addq	%rsi, %rdx
	cmpq	%rcx, %rdx
	jae	Lunix_path_BB55_32
Lunix_path_BB55_23:
	leaq	(%r12,%rbx), %rax
	addq	$2, %rax
	leaq	-2(%rcx), %rsi
	leaq	-1(%rcx), %rdi
	jmp	Lunix_path_BB55_24
	.p2align	4
Lunix_path_BB55_27:
	cmpl	$47, %r8d
	je	Lunix_path_BB55_32
Lunix_path_BB55_30:
	incq	%rdx
	cmpq	%rdx, %rcx
	je	Lunix_path_BB55_31
Lunix_path_BB55_24:
	cmpb	$47, -2(%rax,%rdx)
	jne	Lunix_path_BB55_30
	cmpq	%rdx, %rdi
	je	Lunix_path_BB55_32
	movzbl	-1(%rax,%rdx), %r8d
	cmpl	$46, %r8d
	jne	Lunix_path_BB55_27
	cmpq	%rdx, %rsi
	je	Lunix_path_BB55_32
	cmpb	$47, (%rax,%rdx)
	jne	Lunix_path_BB55_30
	jmp	Lunix_path_BB55_32
Lunix_path_BB55_31:
	movq	%rcx, %rdx
Lunix_path_BB55_32:
	cmpq	%rcx, %rdx
	sete	%al
Lunix_path_BB55_33:
	addq	$8, %rsp
	popq	%rbx
	popq	%r12
	popq	%r14
	popq	%r15
	retq
	.globl	_unix_path_is_utf8
	.p2align	4
_unix_path_is_utf8:
	pushq	%rbx
	movq	%rsi, %rbx
	movq	%rdi, %rax
	xorl	%edi, %edi
	testq	%rax, %rax
	sete	%dil
	shll	$12, %edi
	addq	%rax, %rdi
	cmpq	$31, %rsi
	ja	Lunix_path_BB56_2
	movq	%rbx, %rsi
	xorl	%edx, %edx
	callq	_unix_bytes.utf8.scans.scan_by_sequence
	cmpq	%rbx, %rax
	setae	%al
	popq	%rbx
	retq
Lunix_path_BB56_2:
	movq	%rbx, %rsi
	xorl	%edx, %edx
	callq	_unix_bytes.utf8.scans.scan_by_window
	cmpq	%rbx, %rax
	setae	%al
	popq	%rbx
	retq
	.section	__TEXT,__literal16,16byte_literals
	.p2align	4, 0x0
Lunix_path_CPI57_0:
	.space	16,47
Lunix_path_CPI57_1:
	.space	16,46
	.section	__TEXT,__text,regular,pure_instructions
	.globl	_unix_path_key
	.p2align	4
_unix_path_key:
	pushq	%rbp
	pushq	%r15
	pushq	%r14
	pushq	%r13
	pushq	%r12
	pushq	%rbx
	subq	$24, %rsp
	movq	%rcx, %r15
	movq	%rsi, %r12
	xorl	%r14d, %r14d
	testq	%rdi, %rdi
	sete	%r14b
	shll	$12, %r14d
	addq	%rdi, %r14
	movq	%rdx, 16(%rsp)
	testq	%rdx, %rdx
	sete	15(%rsp)
	leaq	2(%rsi), %r13
	cmpq	%rcx, %r13
	jbe	Lunix_path_BB57_37
	testq	%r12, %r12
	je	Lunix_path_BB57_9
	movzbl	(%r14), %eax
	cmpl	$47, %eax
	je	Lunix_path_BB57_6
	cmpl	$46, %eax
	jne	Lunix_path_BB57_9
	cmpq	$1, %r12
	je	Lunix_path_BB57_6
	cmpb	$47, 1(%r14)
	jne	Lunix_path_BB57_9
Lunix_path_BB57_6:
	movl	$2, %r13d
	jmp	Lunix_path_BB57_10
Lunix_path_BB57_9:
	xorl	%r13d, %r13d
Lunix_path_BB57_10:
	xorl	%edx, %edx
	jmp	Lunix_path_BB57_12
	.p2align	4
Lunix_path_BB57_11:
	addq	%rbp, %rdx
	cmpq	$4, %rdx
	jae	Lunix_path_BB57_36
Lunix_path_BB57_12:
	movq	%rdx, %rbp
	cmpq	%r12, %rdx
	jae	Lunix_path_BB57_17
	movzbl	(%r14,%rbp), %eax
	movl	$1, %edx
	cmpl	$47, %eax
	je	Lunix_path_BB57_11
	cmpl	$46, %eax
	jne	Lunix_path_BB57_17
	leaq	1(%rbp), %rax
	cmpq	%r12, %rax
	je	Lunix_path_BB57_11
	movl	$2, %edx
	cmpb	$47, (%r14,%rax)
	je	Lunix_path_BB57_11
Lunix_path_BB57_17:
	movq	%r12, %rbx
	subq	%rbp, %rbx
	je	Lunix_path_BB57_37
Lunix_path_BB57_18:
	addq	%r14, %rbp
	jmp	Lunix_path_BB57_21
Lunix_path_BB57_19:
	movq	%rbp, %rdi
	movq	%rbx, %rsi
	callq	_unix_path.filler.filler_end_from
	.p2align	4
Lunix_path_BB57_20:
	addq	%rax, %rbp
	subq	%rax, %rbx
	je	Lunix_path_BB57_37
Lunix_path_BB57_21:
	movq	%rbp, %rdi
	movq	%rbx, %rsi
	callq	_path_keys.encode.run_len
	cmpq	$1, %rbx
	je	Lunix_path_BB57_27
	cmpb	$46, (%rbp)
	jne	Lunix_path_BB57_27
	cmpb	$46, 1(%rbp)
	jne	Lunix_path_BB57_27
	cmpq	$2, %rbx
	je	Lunix_path_BB57_26
	cmpb	$47, 2(%rbp)
	jne	Lunix_path_BB57_27
Lunix_path_BB57_26:
	movl	$2, %ecx
	jmp	Lunix_path_BB57_28
	.p2align	4
Lunix_path_BB57_27:
	leaq	1(%rax), %rcx
Lunix_path_BB57_28:
	addq	%rcx, %r13
	addq	%rax, %rbp
	subq	%rax, %rbx
	xorl	%edx, %edx
	jmp	Lunix_path_BB57_30
	.p2align	4
Lunix_path_BB57_29:
	addq	%rax, %rdx
	cmpq	$4, %rdx
	jae	Lunix_path_BB57_19
Lunix_path_BB57_30:
	movq	%rdx, %rax
	cmpq	%rbx, %rdx
	jae	Lunix_path_BB57_20
	movzbl	(%rbp,%rax), %ecx
	movl	$1, %edx
	cmpl	$47, %ecx
	je	Lunix_path_BB57_29
	cmpl	$46, %ecx
	jne	Lunix_path_BB57_20
	leaq	1(%rax), %rcx
	cmpq	%rbx, %rcx
	je	Lunix_path_BB57_29
	movl	$2, %edx
	cmpb	$47, (%rbp,%rcx)
	je	Lunix_path_BB57_29
	jmp	Lunix_path_BB57_20
Lunix_path_BB57_36:
	movq	%r14, %rdi
	movq	%r12, %rsi
	callq	_unix_path.filler.filler_end_from
	movq	%rax, %rbp
	movq	%r12, %rbx
	subq	%rbp, %rbx
	jne	Lunix_path_BB57_18
Lunix_path_BB57_37:
	cmpq	%r13, %r15
	jb	Lunix_path_BB57_89
	xorl	%ebp, %ebp
	movzbl	15(%rsp), %eax
	movb	%al, %bpl
	shll	$12, %ebp
	movq	16(%rsp), %r15
	leaq	(%r15,%rbp), %rbx
	testq	%r12, %r12
	je	Lunix_path_BB57_46
	movzbl	(%r14), %eax
	cmpl	$47, %eax
	je	Lunix_path_BB57_43
	cmpl	$46, %eax
	jne	Lunix_path_BB57_46
	cmpq	$1, %r12
	je	Lunix_path_BB57_43
	cmpb	$47, 1(%r14)
	jne	Lunix_path_BB57_46
Lunix_path_BB57_43:
	xorl	%ecx, %ecx
	cmpb	$47, %al
	setne	%cl
	shll	$8, %ecx
	addl	$256, %ecx
	movw	%cx, (%rbx)
	movl	$2, %r13d
	jmp	Lunix_path_BB57_47
Lunix_path_BB57_46:
	xorl	%r13d, %r13d
Lunix_path_BB57_47:
	xorl	%edx, %edx
	jmp	Lunix_path_BB57_49
	.p2align	4
Lunix_path_BB57_48:
	addq	%rax, %rdx
	cmpq	$4, %rdx
	jae	Lunix_path_BB57_88
Lunix_path_BB57_49:
	movq	%rdx, %rax
	cmpq	%r12, %rdx
	jae	Lunix_path_BB57_54
	movzbl	(%r14,%rax), %ecx
	movl	$1, %edx
	cmpl	$47, %ecx
	je	Lunix_path_BB57_48
	cmpl	$46, %ecx
	jne	Lunix_path_BB57_54
	leaq	1(%rax), %rcx
	cmpq	%r12, %rcx
	je	Lunix_path_BB57_48
	movl	$2, %edx
	cmpb	$47, (%r14,%rcx)
	je	Lunix_path_BB57_48
Lunix_path_BB57_54:
	subq	%rax, %r12
	je	Lunix_path_BB57_89
Lunix_path_BB57_55:
	addq	%rax, %r14
	movq	%rbp, %rax
	addq	%r15, %rbp
	addq	$16, %rbp
	addq	%r15, %rax
	incq	%rax
	movq	%rax, 16(%rsp)
	jmp	Lunix_path_BB57_58
Lunix_path_BB57_56:
	movq	%r14, %rdi
	movq	%r12, %rsi
	callq	_unix_path.filler.filler_end_from
	.p2align	4
Lunix_path_BB57_57:
	addq	%rax, %r14
	subq	%rax, %r12
	je	Lunix_path_BB57_89
Lunix_path_BB57_58:
	movq	%r13, %r15
	movq	%r14, %rdi
	movq	%r12, %rsi
	callq	_path_keys.encode.run_len
	cmpq	$1, %r12
	je	Lunix_path_BB57_64
	cmpb	$46, (%r14)
	jne	Lunix_path_BB57_64
	cmpb	$46, 1(%r14)
	jne	Lunix_path_BB57_64
	cmpq	$2, %r12
	je	Lunix_path_BB57_63
	cmpb	$47, 2(%r14)
	jne	Lunix_path_BB57_64
Lunix_path_BB57_63:
	movw	$768, (%rbx,%r15)
	movl	$2, %r13d
	jmp	Lunix_path_BB57_81
	.p2align	4
Lunix_path_BB57_64:
	cmpq	$15, %rax
	ja	Lunix_path_BB57_68
	testq	%rax, %rax
	je	Lunix_path_BB57_80
	xorl	%ecx, %ecx
	cmpq	$1, %rax
	jne	Lunix_path_BB57_73
	xorl	%edx, %edx
	jmp	Lunix_path_BB57_76
	.p2align	4
Lunix_path_BB57_68:
	movq	%rax, %rcx
	addq	$-16, %rcx
	je	Lunix_path_BB57_79
	leaq	-17(%rax), %rsi
	shrq	$4, %rsi
	je	Lunix_path_BB57_77
	incq	%rsi
	movq	%rsi, %rdi
	andq	$-2, %rdi
	leaq	(%r15,%rbp), %r8
	xorl	%edx, %edx
	.p2align	4
Lunix_path_BB57_71:
	movdqu	(%r14,%rdx), %xmm0
	movdqa	Lunix_path_CPI57_0(%rip), %xmm1
	movdqa	Lunix_path_CPI57_1(%rip), %xmm2
	movdqa	%xmm0, %xmm3
	pminub	%xmm2, %xmm3
	pcmpeqb	%xmm0, %xmm3
	movdqa	%xmm0, %xmm4
	psubb	%xmm3, %xmm4
	pcmpeqb	%xmm1, %xmm0
	pandn	%xmm4, %xmm0
	movdqu	%xmm0, -16(%r8,%rdx)
	movdqu	16(%r14,%rdx), %xmm0
	pminub	%xmm0, %xmm2
	pcmpeqb	%xmm0, %xmm2
	movdqa	%xmm0, %xmm3
	psubb	%xmm2, %xmm3
	pcmpeqb	%xmm1, %xmm0
	pandn	%xmm3, %xmm0
	movdqu	%xmm0, (%r8,%rdx)
	addq	$32, %rdx
	addq	$-2, %rdi
	jne	Lunix_path_BB57_71
	testb	$1, %sil
	jne	Lunix_path_BB57_78
	jmp	Lunix_path_BB57_79
Lunix_path_BB57_73:
	movl	%eax, %esi
	andl	$14, %esi
	movq	16(%rsp), %rdx
	leaq	(%rdx,%r15), %rdi
	xorl	%r8d, %r8d
	xorl	%edx, %edx
	.p2align	4
Lunix_path_BB57_74:
	movzbl	(%r14,%rdx), %r9d
	cmpb	$47, %r9b
	movl	%r9d, %r10d
	adcb	$0, %r10b
	cmpb	$47, %r9b
	movzbl	%r10b, %r9d
	cmovel	%r8d, %r9d
	movb	%r9b, -1(%rdi,%rdx)
	movzbl	1(%r14,%rdx), %r9d
	cmpb	$47, %r9b
	movl	%r9d, %r10d
	adcb	$0, %r10b
	cmpb	$47, %r9b
	movzbl	%r10b, %r9d
	cmovel	%r8d, %r9d
	movb	%r9b, (%rdi,%rdx)
	addq	$2, %rdx
	cmpq	%rdx, %rsi
	jne	Lunix_path_BB57_74
	testb	$1, %al
	je	Lunix_path_BB57_80
Lunix_path_BB57_76:
	leaq	(%rbx,%r15), %rsi
	movzbl	(%r14,%rdx), %edi
	cmpb	$47, %dil
	movl	%edi, %r8d
	adcb	$0, %r8b
	cmpb	$47, %dil
	movzbl	%r8b, %edi
	cmovel	%ecx, %edi
	movb	%dil, (%rsi,%rdx)
	jmp	Lunix_path_BB57_80
Lunix_path_BB57_77:
	xorl	%edx, %edx
Lunix_path_BB57_78:
	leaq	(%rbx,%r15), %rsi
	movdqu	(%r14,%rdx), %xmm0
	movdqa	Lunix_path_CPI57_1(%rip), %xmm1
	pminub	%xmm0, %xmm1
	pcmpeqb	%xmm0, %xmm1
	movdqa	%xmm0, %xmm2
	psubb	%xmm1, %xmm2
	pcmpeqb	Lunix_path_CPI57_0(%rip), %xmm0
	pandn	%xmm2, %xmm0
	movdqu	%xmm0, (%rsi,%rdx)
Lunix_path_BB57_79:
	movdqu	(%r14,%rcx), %xmm0
	movdqa	Lunix_path_CPI57_1(%rip), %xmm1
	pminub	%xmm0, %xmm1
	pcmpeqb	%xmm0, %xmm1
	movdqa	%xmm0, %xmm2
	pcmpeqb	Lunix_path_CPI57_0(%rip), %xmm0
	psubb	%xmm1, %xmm2
	pandn	%xmm2, %xmm0
	leaq	(%rbx,%r15), %rdx
	movdqu	%xmm0, (%rcx,%rdx)
Lunix_path_BB57_80:
	leaq	(%rbx,%r15), %rcx
	movb	$0, (%rax,%rcx)
	leaq	1(%rax), %r13
Lunix_path_BB57_81:
	addq	%r15, %r13
	addq	%rax, %r14
	subq	%rax, %r12
	xorl	%edx, %edx
	jmp	Lunix_path_BB57_83
	.p2align	4
Lunix_path_BB57_82:
	addq	%rax, %rdx
	cmpq	$4, %rdx
	jae	Lunix_path_BB57_56
Lunix_path_BB57_83:
	movq	%rdx, %rax
	cmpq	%r12, %rdx
	jae	Lunix_path_BB57_57
	movzbl	(%r14,%rax), %ecx
	movl	$1, %edx
	cmpl	$47, %ecx
	je	Lunix_path_BB57_82
	cmpl	$46, %ecx
	jne	Lunix_path_BB57_57
	leaq	1(%rax), %rcx
	cmpq	%r12, %rcx
	je	Lunix_path_BB57_82
	movl	$2, %edx
	cmpb	$47, (%r14,%rcx)
	je	Lunix_path_BB57_82
	jmp	Lunix_path_BB57_57
Lunix_path_BB57_88:
	movq	%r14, %rdi
	movq	%r12, %rsi
	callq	_unix_path.filler.filler_end_from
	subq	%rax, %r12
	jne	Lunix_path_BB57_55
Lunix_path_BB57_89:
	movq	%r13, %rax
	addq	$24, %rsp
	popq	%rbx
	popq	%r12
	popq	%r13
	popq	%r14
	popq	%r15
	popq	%rbp
	retq
	.section	__TEXT,__literal16,16byte_literals
	.p2align	4, 0x0
Lunix_path_CPI58_0:
	.space	16,47
	.section	__TEXT,__text,regular,pure_instructions
	.globl	_unix_path_next
	.p2align	4
_unix_path_next:
	pushq	%rbx
	movq	%rdi, %rax
	xorl	%edi, %edi
	testq	%rax, %rax
	sete	%dil
	shll	$12, %edi
	addq	%rax, %rdi
	movq	(%rdx), %rax
	movq	8(%rdx), %r8
	cmpq	%r8, %rsi
	setb	%r9b
	subq	%rax, %r8
	setb	%r10b
	leaq	lunix_path__static.0(%rip), %r11
	sete	%bl
	orb	%r9b, %r10b
	leaq	(%rdi,%rax), %r9
	testb	%r10b, %r10b
	cmovneq	%r11, %r9
	orb	%bl, %r10b
	je	Lunix_path_BB58_2
	xorl	%eax, %eax
	popq	%rbx
	retq
Lunix_path_BB58_2:
	movzbl	(%r9), %r10d
	cmpl	$47, %r10d
	je	Lunix_path_BB58_46
	cmpl	$46, %r10d
	jne	Lunix_path_BB58_7
	cmpq	$1, %r8
	je	Lunix_path_BB58_46
	cmpb	$47, 1(%r9)
	je	Lunix_path_BB58_46
	leaq	-1(%r8), %r11
	jmp	Lunix_path_BB58_8
Lunix_path_BB58_7:
	movq	%r8, %r11
	decq	%r11
	je	Lunix_path_BB58_25
Lunix_path_BB58_8:
	movzbl	(%r9,%r11), %ebx
	cmpl	$47, %ebx
	je	Lunix_path_BB58_46
	cmpl	$46, %ebx
	jne	Lunix_path_BB58_11
	cmpb	$47, -1(%r9,%r11)
	jne	Lunix_path_BB58_11
Lunix_path_BB58_46:
	callq	_unix_path_c.walks.take_first
	popq	%rbx
	retq
Lunix_path_BB58_11:
	cmpb	$46, %r10b
	jne	Lunix_path_BB58_24
	cmpb	$46, 1(%r9)
	jne	Lunix_path_BB58_24
	movl	$2, %r10d
	movl	$2, %esi
	cmpq	$2, %r8
	jne	Lunix_path_BB58_15
	movl	$2, %edi
	jmp	Lunix_path_BB58_45
Lunix_path_BB58_15:
	cmpb	$47, 2(%r9)
	jne	Lunix_path_BB58_24
	leaq	-2(%r8), %r11
	addq	$-3, %r8
	xorl	%edi, %edi
	jmp	Lunix_path_BB58_17
Lunix_path_BB58_24:
	cmpq	$15, %r8
	ja	Lunix_path_BB58_29
Lunix_path_BB58_25:
	xorl	%esi, %esi
	.p2align	4
Lunix_path_BB58_26:
	cmpb	$47, (%r9,%rsi)
	je	Lunix_path_BB58_35
	incq	%rsi
	cmpq	%rsi, %r8
	jne	Lunix_path_BB58_26
	movq	%r8, %rsi
	jmp	Lunix_path_BB58_35
Lunix_path_BB58_21:
	incq	%rdi
	cmpq	%rdi, %r11
	je	Lunix_path_BB58_22
Lunix_path_BB58_17:
	movzbl	2(%r9,%rdi), %ebx
	cmpl	$47, %ebx
	je	Lunix_path_BB58_21
	cmpl	$46, %ebx
	jne	Lunix_path_BB58_23
	cmpq	%rdi, %r8
	je	Lunix_path_BB58_22
	cmpb	$47, 3(%r9,%rdi)
	je	Lunix_path_BB58_21
	jmp	Lunix_path_BB58_23
Lunix_path_BB58_29:
	movq	%r8, %rdi
	addq	$-16, %rdi
	je	Lunix_path_BB58_34
	xorl	%r10d, %r10d
	.p2align	4
Lunix_path_BB58_31:
	movdqu	(%r9,%r10), %xmm0
	pcmpeqb	Lunix_path_CPI58_0(%rip), %xmm0
	pmovmskb	%xmm0, %esi
	orl	$65536, %esi
	rep		bsfl	%esi, %esi
	cmpw	$15, %si
	jbe	Lunix_path_BB58_32
	addq	$16, %r10
	cmpq	%rdi, %r10
	jb	Lunix_path_BB58_31
Lunix_path_BB58_34:
	movdqu	(%r9,%rdi), %xmm0
	pcmpeqb	Lunix_path_CPI58_0(%rip), %xmm0
	pmovmskb	%xmm0, %esi
	orl	$65536, %esi
	rep		bsfl	%esi, %esi
	addq	%rdi, %rsi
	jmp	Lunix_path_BB58_35
Lunix_path_BB58_32:
	movzwl	%si, %esi
	addq	%r10, %rsi
Lunix_path_BB58_35:
	subq	%rsi, %r8
	je	Lunix_path_BB58_36
	addq	%rsi, %r9
	incq	%r9
	leaq	-1(%r8), %r10
	xorl	%edi, %edi
	jmp	Lunix_path_BB58_38
	.p2align	4
Lunix_path_BB58_42:
	incq	%rdi
	cmpq	%rdi, %r8
	je	Lunix_path_BB58_43
Lunix_path_BB58_38:
	movzbl	-1(%r9,%rdi), %r11d
	cmpl	$47, %r11d
	je	Lunix_path_BB58_42
	cmpl	$46, %r11d
	jne	Lunix_path_BB58_44
	cmpq	%rdi, %r10
	je	Lunix_path_BB58_43
	cmpb	$47, (%r9,%rdi)
	je	Lunix_path_BB58_42
	jmp	Lunix_path_BB58_44
Lunix_path_BB58_36:
	xorl	%edi, %edi
	jmp	Lunix_path_BB58_44
Lunix_path_BB58_43:
	movq	%r8, %rdi
Lunix_path_BB58_44:
	addq	%rsi, %rdi
	movl	$3, %r10d
Lunix_path_BB58_45:
	movq	%rax, (%rcx)
	movq	%rsi, 8(%rcx)
	movl	%r10d, 16(%rcx)
	movl	$0, 20(%rcx)
	addq	%rdi, (%rdx)
	movb	$1, %al
	popq	%rbx
	retq
Lunix_path_BB58_22:
	movq	%r11, %rdi
Lunix_path_BB58_23:
	addq	$2, %rdi
	jmp	Lunix_path_BB58_45
	.globl	_unix_path_next_ancestor
	.p2align	4
_unix_path_next_ancestor:
	pushq	%r15
	pushq	%r14
	pushq	%r12
	pushq	%rbx
	pushq	%rax
	movq	%rsi, %rbx
	movq	(%rdx), %r15
	cmpq	%r15, %rsi
	jb	Lunix_path_BB59_2
	movq	%rcx, %r14
	movq	%rdx, %r12
	xorl	%eax, %eax
	testq	%rdi, %rdi
	sete	%al
	shll	$12, %eax
	addq	%rdi, %rax
	movq	%rax, %rdi
	movq	%r15, %rsi
	callq	_unix_path.path.Path.parent_len
	cmpb	$1, %al
	movq	$-1, %rax
	cmoveq	%rdx, %rax
	movq	%rax, (%r12)
	movq	$0, (%r14)
	movq	%r15, 8(%r14)
Lunix_path_BB59_2:
	cmpq	%r15, %rbx
	setae	%al
	addq	$8, %rsp
	popq	%rbx
	popq	%r12
	popq	%r14
	popq	%r15
	retq
	.section	__TEXT,__literal16,16byte_literals
	.p2align	4, 0x0
Lunix_path_CPI60_0:
	.space	16,47
	.section	__TEXT,__text,regular,pure_instructions
	.globl	_unix_path_next_back
	.p2align	4
_unix_path_next_back:
	pushq	%rbx
	movq	%rdi, %rax
	xorl	%edi, %edi
	testq	%rax, %rax
	sete	%dil
	shll	$12, %edi
	addq	%rax, %rdi
	movq	(%rdx), %r8
	movq	8(%rdx), %rax
	cmpq	%rax, %rsi
	setb	%r9b
	subq	%r8, %rax
	setb	%r10b
	leaq	lunix_path__static.0(%rip), %r11
	sete	%bl
	orb	%r9b, %r10b
	leaq	(%rdi,%r8), %r9
	testb	%r10b, %r10b
	cmovneq	%r11, %r9
	orb	%bl, %r10b
	je	Lunix_path_BB60_2
	xorl	%eax, %eax
	popq	%rbx
	retq
Lunix_path_BB60_2:
	movzbl	-1(%r9,%rax), %r10d
	addb	$-48, %r10b
	cmpb	$-3, %r10b
	ja	Lunix_path_BB60_15
	movq	%rax, %r10
	.p2align	4
Lunix_path_BB60_4:
	cmpq	$15, %r10
	jbe	Lunix_path_BB60_5
	movdqu	-16(%r9,%r10), %xmm0
	addq	$-16, %r10
	pcmpeqb	Lunix_path_CPI60_0(%rip), %xmm0
	pmovmskb	%xmm0, %r11d
	testl	%r11d, %r11d
	je	Lunix_path_BB60_4
	movzwl	%r11w, %r11d
	bsrq	%r11, %r11
	xorq	$63, %r11
	subq	%r11, %r10
	addq	$64, %r10
	movq	%r10, %r11
	jmp	Lunix_path_BB60_11
Lunix_path_BB60_5:
	incq	%r10
	.p2align	4
Lunix_path_BB60_6:
	cmpq	$1, %r10
	je	Lunix_path_BB60_7
	leaq	-1(%r10), %r11
	cmpb	$47, -2(%r9,%r10)
	movq	%r11, %r10
	jne	Lunix_path_BB60_6
Lunix_path_BB60_11:
	movl	$1, %r10d
	movl	$1, %ebx
	cmpq	$2, %r11
	jb	Lunix_path_BB60_14
	movzbl	-2(%r9,%r11), %r9d
	addb	$-48, %r9b
	cmpb	$-3, %r9b
	ja	Lunix_path_BB60_15
	leaq	-1(%r11), %r10
	movq	%r11, %rbx
	jmp	Lunix_path_BB60_14
Lunix_path_BB60_15:
	callq	_unix_path_c.walks.take_last
	popq	%rbx
	retq
Lunix_path_BB60_7:
	xorl	%r10d, %r10d
	xorl	%ebx, %ebx
Lunix_path_BB60_14:
	addq	%rbx, %r8
	subq	%rbx, %rax
	movq	%r8, (%rcx)
	movq	%rax, 8(%rcx)
	movq	$3, 16(%rcx)
	addq	(%rdx), %r10
	movq	%r10, 8(%rdx)
	movb	$1, %al
	popq	%rbx
	retq
	.globl	_unix_path_next_chunk
	.p2align	4
_unix_path_next_chunk:
	pushq	%r15
	pushq	%r14
	pushq	%rbx
	subq	$64, %rsp
	movq	(%rdx), %r15
	subq	%r15, %rsi
	jb	Lunix_path_BB61_4
	movq	%rcx, %r14
	movq	%rdx, %rbx
	xorl	%eax, %eax
	testq	%rdi, %rdi
	sete	%al
	shll	$12, %eax
	addq	%rdi, %rax
	addq	%r15, %rax
	movq	%rax, 8(%rsp)
	movq	%rsi, 16(%rsp)
	leaq	24(%rsp), %rdi
	leaq	8(%rsp), %rsi
	callq	_unix_bytes.lossy.Utf8LossyChunksIterIterator.next
	cmpb	$1, 24(%rsp)
	jne	Lunix_path_BB61_4
	movq	40(%rsp), %rax
	movq	56(%rsp), %rcx
	movq	%r15, (%r14)
	movq	%rax, 8(%r14)
	movq	%rcx, 16(%r14)
	addq	%r15, %rax
	addq	%rcx, %rax
	movq	%rax, (%rbx)
	movb	$1, %al
	jmp	Lunix_path_BB61_5
Lunix_path_BB61_4:
	xorl	%eax, %eax
Lunix_path_BB61_5:
	addq	$64, %rsp
	popq	%rbx
	popq	%r14
	popq	%r15
	retq
	.globl	_unix_path_parent
	.p2align	4
_unix_path_parent:
	pushq	%rbx
	movq	%rdx, %rbx
	xorl	%eax, %eax
	testq	%rdi, %rdi
	sete	%al
	shll	$12, %eax
	addq	%rax, %rdi
	callq	_unix_path.path.Path.parent_len
	cmpb	$1, %al
	jne	Lunix_path_BB62_2
	movq	$0, (%rbx)
	movq	%rdx, 8(%rbx)
Lunix_path_BB62_2:
	cmpb	$1, %al
	sete	%al
	popq	%rbx
	retq
	.section	__TEXT,__literal16,16byte_literals
	.p2align	4, 0x0
Lunix_path_CPI63_0:
	.space	16,47
	.section	__TEXT,__text,regular,pure_instructions
	.globl	_unix_path_relative_path
	.p2align	4
_unix_path_relative_path:
	pushq	%rbp
	pushq	%r15
	pushq	%r14
	pushq	%r13
	pushq	%r12
	pushq	%rbx
	subq	$216, %rsp
	movq	%r9, %rbx
	movq	%r8, %r13
	movq	%rdx, %r8
	movq	%rsi, %r15
	xorl	%eax, %eax
	testq	%rdi, %rdi
	sete	%al
	shll	$12, %eax
	movq	%rax, 48(%rsp)
	movq	%rdi, 72(%rsp)
	leaq	(%rdi,%rax), %r12
	xorl	%edx, %edx
	testq	%r8, %r8
	sete	%dl
	shll	$12, %edx
	movq	%r8, 16(%rsp)
	movq	%rdx, 8(%rsp)
	addq	%r8, %rdx
	xorl	%r14d, %r14d
	testq	%r13, %r13
	sete	7(%rsp)
	testq	%rsi, %rsi
	movq	%rcx, 24(%rsp)
	je	Lunix_path_BB63_3
	movzbl	(%r12), %eax
	testq	%rcx, %rcx
	je	Lunix_path_BB63_6
	cmpb	$47, %al
	sete	%al
	cmpb	$47, (%rdx)
	sete	%cl
	xorb	%al, %cl
	je	Lunix_path_BB63_5
	jmp	Lunix_path_BB63_17
Lunix_path_BB63_3:
	testq	%rcx, %rcx
	je	Lunix_path_BB63_7
	cmpb	$47, (%rdx)
	je	Lunix_path_BB63_17
Lunix_path_BB63_5:
	xorl	%ebp, %ebp
	jmp	Lunix_path_BB63_8
Lunix_path_BB63_6:
	movb	$1, %bpl
	cmpb	$47, %al
	jne	Lunix_path_BB63_8
	jmp	Lunix_path_BB63_17
Lunix_path_BB63_7:
	movb	$1, %bpl
Lunix_path_BB63_8:
	movq	%rdx, 80(%rsp)
	movq	%r12, %rdi
	movq	%r15, %rsi
	callq	_path_within.outlined.is_names_only
	testb	%al, %al
	je	Lunix_path_BB63_16
	movq	16(%rsp), %rax
	movq	8(%rsp), %rcx
	leaq	(%rax,%rcx), %rdi
	movq	24(%rsp), %rsi
	callq	_path_within.outlined.is_names_only
	testb	%al, %al
	je	Lunix_path_BB63_16
	movq	24(%rsp), %rbp
	cmpq	%r15, %rbp
	movq	%r15, %rax
	cmovbq	%rbp, %rax
	cmpq	$15, %rax
	ja	Lunix_path_BB63_30
	cmpq	$7, %rax
	movq	16(%rsp), %rcx
	movq	8(%rsp), %rdx
	leaq	(%rcx,%rdx), %r11
	ja	Lunix_path_BB63_35
	testq	%rax, %rax
	je	Lunix_path_BB63_57
	movzbl	(%r12), %ecx
	cmpb	(%r11), %cl
	jne	Lunix_path_BB63_57
	cmpq	$1, %rax
	jne	Lunix_path_BB63_360
Lunix_path_BB63_15:
	movq	%rax, %rcx
	jmp	Lunix_path_BB63_58
Lunix_path_BB63_16:
	pxor	%xmm0, %xmm0
	movdqa	%xmm0, 96(%rsp)
	movq	$0, 112(%rsp)
	movdqa	%xmm0, 144(%rsp)
	movq	$0, 160(%rsp)
	leaq	96(%rsp), %rdi
	movq	%r12, %rsi
	movq	%r15, %rdx
	callq	_path_within.backward.count_resolved
	leaq	144(%rsp), %rdi
	movq	16(%rsp), %rax
	movq	8(%rsp), %rcx
	leaq	(%rax,%rcx), %rsi
	movq	24(%rsp), %rdx
	callq	_path_within.backward.count_resolved
	movq	144(%rsp), %rax
	subq	96(%rsp), %rax
	jae	Lunix_path_BB63_18
Lunix_path_BB63_17:
	movq	$-8, %rax
	jmp	Lunix_path_BB63_458
Lunix_path_BB63_18:
	movq	%rbx, 136(%rsp)
	jbe	Lunix_path_BB63_20
	movq	152(%rsp), %rcx
	movq	%rcx, 32(%rsp)
	movq	160(%rsp), %rcx
	movq	%rax, %r15
	addq	104(%rsp), %r15
	movq	80(%rsp), %r11
	jmp	Lunix_path_BB63_417
Lunix_path_BB63_20:
	movq	104(%rsp), %rax
	movq	%rax, 88(%rsp)
	movq	152(%rsp), %rax
	movq	%rax, 32(%rsp)
	testq	%r15, %r15
	movq	16(%rsp), %rax
	movq	8(%rsp), %rcx
	leaq	(%rax,%rcx), %r11
	je	Lunix_path_BB63_34
	movzbl	-1(%r12,%r15), %eax
	andb	$-2, %al
	cmpb	$46, %al
	jne	Lunix_path_BB63_42
	movq	%r15, %rbx
	movq	%r15, %rax
	jmp	Lunix_path_BB63_24
	.p2align	4
Lunix_path_BB63_23:
	movq	%rax, %rbx
	testq	%rax, %rax
	je	Lunix_path_BB63_34
Lunix_path_BB63_24:
	decq	%rax
	je	Lunix_path_BB63_47
	movzbl	(%r12,%rax), %ecx
	cmpl	$47, %ecx
	je	Lunix_path_BB63_28
	cmpl	$46, %ecx
	jne	Lunix_path_BB63_43
	cmpb	$47, -1(%r12,%rax)
	jne	Lunix_path_BB63_43
Lunix_path_BB63_28:
	movq	%r15, %rcx
	subq	%rax, %rcx
	cmpq	$8, %rcx
	jne	Lunix_path_BB63_23
	movq	%r12, %rdi
	movq	%rax, %rsi
	callq	_unix_path.filler.trimmed_blocks_len
	movq	16(%rsp), %rcx
	movq	8(%rsp), %rdx
	leaq	(%rcx,%rdx), %r11
	jmp	Lunix_path_BB63_23
Lunix_path_BB63_30:
	leaq	-16(%rax), %rdx
	cmpq	$64, %rax
	movq	16(%rsp), %rcx
	movq	8(%rsp), %rsi
	leaq	(%rcx,%rsi), %r11
	jb	Lunix_path_BB63_37
	xorl	%esi, %esi
	.p2align	4
Lunix_path_BB63_32:
	movdqu	(%r12,%rsi), %xmm0
	movdqu	16(%r12,%rsi), %xmm1
	movdqu	32(%r12,%rsi), %xmm2
	movdqu	48(%r12,%rsi), %xmm3
	movdqu	(%r11,%rsi), %xmm4
	pcmpeqb	%xmm0, %xmm4
	movdqu	16(%r11,%rsi), %xmm0
	pcmpeqb	%xmm1, %xmm0
	pand	%xmm4, %xmm0
	movdqu	32(%r11,%rsi), %xmm1
	pcmpeqb	%xmm2, %xmm1
	movdqu	48(%r11,%rsi), %xmm2
	pcmpeqb	%xmm3, %xmm2
	pand	%xmm1, %xmm2
	pand	%xmm0, %xmm2
	pmovmskb	%xmm2, %ecx
	cmpl	$65535, %ecx
	jne	Lunix_path_BB63_40
	addq	$64, %rsi
	addq	$-64, %rax
	cmpq	$63, %rax
	ja	Lunix_path_BB63_32
	jmp	Lunix_path_BB63_40
Lunix_path_BB63_34:
	xorl	%ebx, %ebx
	testb	%bpl, %bpl
	jne	Lunix_path_BB63_44
Lunix_path_BB63_48:
	movq	24(%rsp), %rbp
	movzbl	-1(%r11,%rbp), %eax
	andb	$-2, %al
	cmpb	$46, %al
	movq	88(%rsp), %r14
	movq	32(%rsp), %r15
	jne	Lunix_path_BB63_313
	movq	24(%rsp), %rbp
	movq	%rbp, %rax
	jmp	Lunix_path_BB63_51
	.p2align	4
Lunix_path_BB63_50:
	movq	%rax, %rbp
	testq	%rax, %rax
	je	Lunix_path_BB63_312
Lunix_path_BB63_51:
	decq	%rax
	je	Lunix_path_BB63_311
	movzbl	(%r11,%rax), %ecx
	cmpl	$47, %ecx
	je	Lunix_path_BB63_55
	cmpl	$46, %ecx
	jne	Lunix_path_BB63_313
	cmpb	$47, -1(%r11,%rax)
	jne	Lunix_path_BB63_313
Lunix_path_BB63_55:
	movq	24(%rsp), %rcx
	subq	%rax, %rcx
	cmpq	$8, %rcx
	jne	Lunix_path_BB63_50
	movq	%r11, %rdi
	movq	%rax, %rsi
	callq	_unix_path.filler.trimmed_blocks_len
	movq	16(%rsp), %rcx
	movq	8(%rsp), %rdx
	leaq	(%rcx,%rdx), %r11
	jmp	Lunix_path_BB63_50
Lunix_path_BB63_35:
	movq	(%r12), %xmm0
	movq	(%r11), %xmm1
	pcmpeqb	%xmm0, %xmm1
	pmovmskb	%xmm1, %ecx
	notl	%ecx
	orl	$256, %ecx
	rep		bsfl	%ecx, %ecx
	cmpb	$8, %cl
	jb	Lunix_path_BB63_58
	movq	-8(%r12,%rax), %xmm0
	movq	-8(%r11,%rax), %xmm1
	pcmpeqb	%xmm0, %xmm1
	pmovmskb	%xmm1, %ecx
	notl	%ecx
	orl	$256, %ecx
	rep		bsfl	%ecx, %ecx
	addq	%rax, %rcx
	addq	$-8, %rcx
	jmp	Lunix_path_BB63_58
Lunix_path_BB63_37:
	xorl	%esi, %esi
	jmp	Lunix_path_BB63_40
	.p2align	4
Lunix_path_BB63_38:
	movdqu	(%r12,%rsi), %xmm0
	movdqu	(%r11,%rsi), %xmm1
	pcmpeqb	%xmm0, %xmm1
	pmovmskb	%xmm1, %eax
	notl	%eax
	rep		bsfl	%eax, %eax
	cmpw	$15, %ax
	jbe	Lunix_path_BB63_45
	addq	$16, %rsi
Lunix_path_BB63_40:
	cmpq	%rdx, %rsi
	jb	Lunix_path_BB63_38
	movdqu	(%r12,%rdx), %xmm0
	movdqu	(%r11,%rdx), %xmm1
	pcmpeqb	%xmm0, %xmm1
	pmovmskb	%xmm1, %eax
	notl	%eax
	rep		bsfl	%eax, %ecx
	addq	%rdx, %rcx
	jmp	Lunix_path_BB63_58
Lunix_path_BB63_42:
	movq	%r15, %rbx
Lunix_path_BB63_43:
	testb	%bpl, %bpl
	je	Lunix_path_BB63_48
Lunix_path_BB63_44:
	xorl	%ebp, %ebp
	movq	88(%rsp), %r14
	movq	32(%rsp), %r15
Lunix_path_BB63_313:
	movq	%r14, %rcx
	subq	%r15, %rcx
	jbe	Lunix_path_BB63_335
	movq	48(%rsp), %rax
	movq	72(%rsp), %rdx
	addq	%rax, %rdx
	addq	$-16, %rdx
	xorl	%eax, %eax
Lunix_path_BB63_315:
	testb	$1, %al
	jne	Lunix_path_BB63_363
	xorl	%esi, %esi
	jmp	Lunix_path_BB63_319
Lunix_path_BB63_317:
	incq	%rsi
	.p2align	4
Lunix_path_BB63_318:
	testq	%rdi, %rdi
	je	Lunix_path_BB63_336
Lunix_path_BB63_319:
	movq	%rbx, %r8
	leaq	1(%rbx), %rax
	movq	%rbx, %rdi
	.p2align	4
Lunix_path_BB63_320:
	cmpq	$15, %rdi
	jbe	Lunix_path_BB63_323
	movdqu	(%rdx,%rdi), %xmm0
	pcmpeqb	Lunix_path_CPI63_0(%rip), %xmm0
	addq	$-16, %rdi
	pmovmskb	%xmm0, %r9d
	addq	$-16, %rax
	testl	%r9d, %r9d
	je	Lunix_path_BB63_320
	movzwl	%r9w, %eax
	bsrq	%rax, %rax
	xorq	$63, %rax
	subq	%rax, %rdi
	addq	$64, %rdi
	jmp	Lunix_path_BB63_326
	.p2align	4
Lunix_path_BB63_323:
	cmpq	$1, %rax
	je	Lunix_path_BB63_325
	leaq	-1(%rax), %rdi
	cmpb	$47, -2(%r12,%rax)
	movq	%rdi, %rax
	jne	Lunix_path_BB63_323
	jmp	Lunix_path_BB63_326
	.p2align	4
Lunix_path_BB63_325:
	xorl	%edi, %edi
Lunix_path_BB63_326:
	xorl	%r9d, %r9d
	testq	%rdi, %rdi
	setne	%r9b
	sete	%al
	movq	%rdi, %rbx
	subq	%r9, %rbx
	subq	%rdi, %r8
	je	Lunix_path_BB63_318
	cmpq	$1, %r8
	jne	Lunix_path_BB63_329
	cmpb	$46, (%r12,%rdi)
	je	Lunix_path_BB63_318
	jmp	Lunix_path_BB63_332
	.p2align	4
Lunix_path_BB63_329:
	cmpq	$2, %r8
	ja	Lunix_path_BB63_332
	cmpb	$46, (%r12,%rdi)
	jne	Lunix_path_BB63_332
	cmpb	$46, 1(%r12,%rdi)
	je	Lunix_path_BB63_317
	.p2align	4
Lunix_path_BB63_332:
	testq	%rsi, %rsi
	je	Lunix_path_BB63_334
	decq	%rsi
	jmp	Lunix_path_BB63_318
Lunix_path_BB63_334:
	decq	%rcx
	jne	Lunix_path_BB63_315
	jmp	Lunix_path_BB63_337
Lunix_path_BB63_335:
	xorl	%eax, %eax
	movq	%r15, %rcx
	subq	%r14, %rcx
	ja	Lunix_path_BB63_338
Lunix_path_BB63_364:
	xorl	%r10d, %r10d
	xorl	%r8d, %r8d
	jmp	Lunix_path_BB63_365
Lunix_path_BB63_336:
	movb	$1, %al
Lunix_path_BB63_337:
	movq	%r15, %rcx
	subq	%r14, %rcx
	jbe	Lunix_path_BB63_364
Lunix_path_BB63_338:
	movq	16(%rsp), %rdx
	movq	8(%rsp), %rsi
	addq	%rsi, %rdx
	addq	$-16, %rdx
	xorl	%r10d, %r10d
	xorl	%r8d, %r8d
Lunix_path_BB63_339:
	testb	$1, %r10b
	jne	Lunix_path_BB63_459
	movq	%r8, 40(%rsp)
	xorl	%esi, %esi
	jmp	Lunix_path_BB63_343
Lunix_path_BB63_341:
	incq	%rsi
	.p2align	4
Lunix_path_BB63_342:
	testq	%rdi, %rdi
	je	Lunix_path_BB63_359
Lunix_path_BB63_343:
	movq	%rbp, %r8
	leaq	1(%rbp), %r9
	movq	%rbp, %rdi
	.p2align	4
Lunix_path_BB63_344:
	cmpq	$15, %rdi
	jbe	Lunix_path_BB63_347
	movdqu	(%rdx,%rdi), %xmm0
	pcmpeqb	Lunix_path_CPI63_0(%rip), %xmm0
	addq	$-16, %rdi
	pmovmskb	%xmm0, %r10d
	addq	$-16, %r9
	testl	%r10d, %r10d
	je	Lunix_path_BB63_344
	movzwl	%r10w, %r9d
	bsrq	%r9, %r9
	xorq	$63, %r9
	subq	%r9, %rdi
	addq	$64, %rdi
	jmp	Lunix_path_BB63_350
	.p2align	4
Lunix_path_BB63_347:
	cmpq	$1, %r9
	je	Lunix_path_BB63_349
	leaq	-1(%r9), %rdi
	cmpb	$47, -2(%r11,%r9)
	movq	%rdi, %r9
	jne	Lunix_path_BB63_347
	jmp	Lunix_path_BB63_350
	.p2align	4
Lunix_path_BB63_349:
	xorl	%edi, %edi
Lunix_path_BB63_350:
	xorl	%r9d, %r9d
	testq	%rdi, %rdi
	setne	%r9b
	sete	%r10b
	movq	%rdi, %rbp
	subq	%r9, %rbp
	subq	%rdi, %r8
	je	Lunix_path_BB63_342
	cmpq	$1, %r8
	jne	Lunix_path_BB63_353
	cmpb	$46, (%r11,%rdi)
	je	Lunix_path_BB63_342
	jmp	Lunix_path_BB63_356
	.p2align	4
Lunix_path_BB63_353:
	cmpq	$2, %r8
	ja	Lunix_path_BB63_356
	cmpb	$46, (%r11,%rdi)
	jne	Lunix_path_BB63_356
	cmpb	$46, 1(%r11,%rdi)
	je	Lunix_path_BB63_341
	.p2align	4
Lunix_path_BB63_356:
	testq	%rsi, %rsi
	je	Lunix_path_BB63_358
	decq	%rsi
	jmp	Lunix_path_BB63_342
Lunix_path_BB63_358:
	movq	40(%rsp), %rsi
	addq	%rsi, %r8
	incq	%r8
	decq	%rcx
	jne	Lunix_path_BB63_339
	jmp	Lunix_path_BB63_365
Lunix_path_BB63_359:
	movb	$1, %r10b
	movq	40(%rsp), %r8
Lunix_path_BB63_365:
	movq	%r10, 56(%rsp)
	cmpq	%r14, %r15
	movq	%r14, %r10
	cmovbq	%r15, %r10
	testb	%al, %al
	je	Lunix_path_BB63_367
	movq	%r8, %rcx
	movq	%r10, %r9
	jmp	Lunix_path_BB63_416
Lunix_path_BB63_367:
	movq	48(%rsp), %rax
	movq	72(%rsp), %rcx
	leaq	(%rcx,%rax), %r14
	addq	$-16, %r14
	movq	16(%rsp), %rax
	movq	8(%rsp), %rcx
	leaq	(%rax,%rcx), %r15
	addq	$-16, %r15
	addq	%rcx, %rax
	movq	%rax, 16(%rsp)
	movq	%r10, %rax
	movq	%r8, %rdx
	movq	%r13, 64(%rsp)
Lunix_path_BB63_368:
	movq	%rdx, 48(%rsp)
	movq	%rax, 8(%rsp)
	xorl	%eax, %eax
	jmp	Lunix_path_BB63_371
Lunix_path_BB63_369:
	incq	%rax
	.p2align	4
Lunix_path_BB63_370:
	testq	%r13, %r13
	je	Lunix_path_BB63_415
Lunix_path_BB63_371:
	movq	%rbx, %rsi
	leaq	1(%rbx), %rcx
	movq	%rbx, %r13
	.p2align	4
Lunix_path_BB63_372:
	cmpq	$15, %r13
	jbe	Lunix_path_BB63_375
	movdqu	(%r14,%r13), %xmm0
	pcmpeqb	Lunix_path_CPI63_0(%rip), %xmm0
	addq	$-16, %r13
	pmovmskb	%xmm0, %edx
	addq	$-16, %rcx
	testl	%edx, %edx
	je	Lunix_path_BB63_372
	movzwl	%dx, %ecx
	bsrq	%rcx, %rcx
	xorq	$63, %rcx
	subq	%rcx, %r13
	addq	$64, %r13
	jmp	Lunix_path_BB63_378
	.p2align	4
Lunix_path_BB63_375:
	cmpq	$1, %rcx
	je	Lunix_path_BB63_377
	leaq	-1(%rcx), %r13
	cmpb	$47, -2(%r12,%rcx)
	movq	%r13, %rcx
	jne	Lunix_path_BB63_375
	jmp	Lunix_path_BB63_378
	.p2align	4
Lunix_path_BB63_377:
	xorl	%r13d, %r13d
Lunix_path_BB63_378:
	cmpq	$1, %r13
	movq	%r13, %rbx
	adcq	$-1, %rbx
	subq	%r13, %rsi
	je	Lunix_path_BB63_370
	leaq	(%r12,%r13), %rdi
	cmpq	$1, %rsi
	jne	Lunix_path_BB63_381
	cmpb	$46, (%rdi)
	je	Lunix_path_BB63_370
	jmp	Lunix_path_BB63_384
	.p2align	4
Lunix_path_BB63_381:
	cmpq	$2, %rsi
	ja	Lunix_path_BB63_384
	cmpb	$46, (%rdi)
	jne	Lunix_path_BB63_384
	cmpb	$46, 1(%rdi)
	je	Lunix_path_BB63_369
	.p2align	4
Lunix_path_BB63_384:
	testq	%rax, %rax
	je	Lunix_path_BB63_386
	decq	%rax
	jmp	Lunix_path_BB63_370
Lunix_path_BB63_386:
	testb	$1, 56(%rsp)
	jne	Lunix_path_BB63_415
	movq	%r8, 40(%rsp)
	xorl	%ecx, %ecx
	jmp	Lunix_path_BB63_390
Lunix_path_BB63_388:
	incq	%rcx
	.p2align	4
Lunix_path_BB63_389:
	testq	%rax, %rax
	je	Lunix_path_BB63_415
Lunix_path_BB63_390:
	movq	%rbp, %r8
	leaq	1(%rbp), %rdx
	movq	%rbp, %rax
	.p2align	4
Lunix_path_BB63_391:
	cmpq	$15, %rax
	jbe	Lunix_path_BB63_394
	movdqu	(%r15,%rax), %xmm0
	pcmpeqb	Lunix_path_CPI63_0(%rip), %xmm0
	addq	$-16, %rax
	pmovmskb	%xmm0, %r9d
	addq	$-16, %rdx
	testl	%r9d, %r9d
	je	Lunix_path_BB63_391
	movzwl	%r9w, %edx
	bsrq	%rdx, %rdx
	xorq	$63, %rdx
	subq	%rdx, %rax
	addq	$64, %rax
	jmp	Lunix_path_BB63_397
	.p2align	4
Lunix_path_BB63_394:
	cmpq	$1, %rdx
	je	Lunix_path_BB63_396
	leaq	-1(%rdx), %rax
	cmpb	$47, -2(%r11,%rdx)
	movq	%rax, %rdx
	jne	Lunix_path_BB63_394
	jmp	Lunix_path_BB63_397
Lunix_path_BB63_396:
	xorl	%eax, %eax
Lunix_path_BB63_397:
	xorl	%edx, %edx
	testq	%rax, %rax
	setne	%dl
	sete	%r9b
	movq	%r9, 56(%rsp)
	movq	%rax, %rbp
	subq	%rdx, %rbp
	subq	%rax, %r8
	je	Lunix_path_BB63_389
	leaq	(%r11,%rax), %rdx
	cmpq	$1, %r8
	jne	Lunix_path_BB63_400
	cmpb	$46, (%rdx)
	je	Lunix_path_BB63_389
	jmp	Lunix_path_BB63_403
Lunix_path_BB63_400:
	cmpq	$2, %r8
	ja	Lunix_path_BB63_403
	cmpb	$46, (%rdx)
	jne	Lunix_path_BB63_403
	cmpb	$46, 1(%rdx)
	je	Lunix_path_BB63_388
Lunix_path_BB63_403:
	testq	%rcx, %rcx
	je	Lunix_path_BB63_405
	decq	%rcx
	jmp	Lunix_path_BB63_389
Lunix_path_BB63_405:
	decq	%r10
	movq	40(%rsp), %rcx
	addq	%r8, %rcx
	incq	%rcx
	movq	%rcx, 40(%rsp)
	movq	%r10, %r9
	cmpq	%r8, %rsi
	jne	Lunix_path_BB63_414
	cmpq	$3, %rsi
	ja	Lunix_path_BB63_410
	addq	16(%rsp), %rax
	xorl	%edx, %edx
Lunix_path_BB63_408:
	movzbl	(%rdi,%rdx), %ecx
	cmpb	(%rax,%rdx), %cl
	jne	Lunix_path_BB63_412
	incq	%rdx
	cmpq	%rdx, %rsi
	jne	Lunix_path_BB63_408
	jmp	Lunix_path_BB63_413
Lunix_path_BB63_410:
	movl	(%rdi), %eax
	movq	40(%rsp), %rcx
	movq	%r10, %r9
	cmpl	(%rdx), %eax
	jne	Lunix_path_BB63_414
	movq	%r10, 72(%rsp)
	callq	_core.cmp.slices.groups_equal.i8.31.core.cmp.numbers.U8PartialEq.
	movq	72(%rsp), %r10
	movq	80(%rsp), %r11
	movq	40(%rsp), %rcx
	movq	%r10, %r9
	testb	%al, %al
	jne	Lunix_path_BB63_413
	jmp	Lunix_path_BB63_414
Lunix_path_BB63_412:
	movq	40(%rsp), %rcx
	movq	%r10, %r9
	cmpq	%rsi, %rdx
	jb	Lunix_path_BB63_414
Lunix_path_BB63_413:
	movq	48(%rsp), %rcx
	movq	8(%rsp), %r9
Lunix_path_BB63_414:
	movq	%r9, %rax
	movq	%rcx, %rdx
	testq	%r13, %r13
	movq	64(%rsp), %r13
	movq	40(%rsp), %r8
	jne	Lunix_path_BB63_368
	jmp	Lunix_path_BB63_416
Lunix_path_BB63_415:
	movq	48(%rsp), %rcx
	movq	8(%rsp), %r9
	movq	64(%rsp), %r13
Lunix_path_BB63_416:
	subq	%r9, 32(%rsp)
	movq	88(%rsp), %r15
	subq	%r9, %r15
	xorl	%r14d, %r14d
Lunix_path_BB63_417:
	xorl	%eax, %eax
	movzbl	7(%rsp), %edx
	movq	24(%rsp), %rbp
	jmp	Lunix_path_BB63_418
Lunix_path_BB63_57:
	xorl	%ecx, %ecx
	jmp	Lunix_path_BB63_58
Lunix_path_BB63_45:
	movzwl	%ax, %ecx
	addq	%rsi, %rcx
Lunix_path_BB63_58:
	movq	48(%rsp), %rax
	movq	72(%rsp), %rdx
	addq	%rdx, %rax
	addq	$-16, %rax
	.p2align	4
Lunix_path_BB63_59:
	cmpq	$15, %rcx
	jbe	Lunix_path_BB63_62
	movdqu	(%rax,%rcx), %xmm0
	addq	$-16, %rcx
	pcmpeqb	Lunix_path_CPI63_0(%rip), %xmm0
	pmovmskb	%xmm0, %edx
	testl	%edx, %edx
	je	Lunix_path_BB63_59
	movzwl	%dx, %eax
	bsrq	%rax, %rax
	xorq	$63, %rax
	subq	%rax, %rcx
	addq	$64, %rcx
	movq	%rcx, %r14
	cmpq	%r14, %r15
	ja	Lunix_path_BB63_67
	jmp	Lunix_path_BB63_83
Lunix_path_BB63_62:
	incq	%rcx
	.p2align	4
Lunix_path_BB63_63:
	cmpq	$1, %rcx
	je	Lunix_path_BB63_66
	leaq	-1(%rcx), %r14
	cmpb	$47, -2(%r12,%rcx)
	movq	%r14, %rcx
	jne	Lunix_path_BB63_63
	cmpq	%r14, %r15
	ja	Lunix_path_BB63_67
	jmp	Lunix_path_BB63_83
Lunix_path_BB63_66:
	xorl	%r14d, %r14d
	cmpq	%r14, %r15
	jbe	Lunix_path_BB63_83
Lunix_path_BB63_67:
	movzbl	(%r12,%r14), %eax
	cmpl	$47, %eax
	je	Lunix_path_BB63_83
	cmpl	$46, %eax
	jne	Lunix_path_BB63_75
	leaq	1(%r14), %rax
	cmpq	%rax, %r15
	jbe	Lunix_path_BB63_83
	movzbl	(%r12,%rax), %eax
	cmpl	$47, %eax
	je	Lunix_path_BB63_83
	cmpl	$46, %eax
	jne	Lunix_path_BB63_75
	leaq	2(%r14), %rax
	cmpq	%rax, %r15
	jbe	Lunix_path_BB63_83
	cmpq	%r14, %rbp
	jbe	Lunix_path_BB63_83
	cmpb	$47, 2(%r12,%r14)
	jne	Lunix_path_BB63_76
	jmp	Lunix_path_BB63_83
Lunix_path_BB63_75:
	cmpq	%r14, %rbp
	jbe	Lunix_path_BB63_83
Lunix_path_BB63_76:
	movzbl	(%r11,%r14), %eax
	cmpl	$47, %eax
	je	Lunix_path_BB63_83
	cmpl	$46, %eax
	jne	Lunix_path_BB63_84
	leaq	1(%r14), %rax
	cmpq	%rax, %rbp
	jbe	Lunix_path_BB63_83
	movzbl	(%r11,%rax), %eax
	cmpl	$47, %eax
	je	Lunix_path_BB63_83
	cmpl	$46, %eax
	jne	Lunix_path_BB63_84
	leaq	2(%r14), %rax
	cmpq	%rax, %rbp
	jbe	Lunix_path_BB63_83
	cmpb	$47, (%r11,%rax)
	jne	Lunix_path_BB63_84
Lunix_path_BB63_83:
	xorl	%r14d, %r14d
Lunix_path_BB63_84:
	addq	%r14, %r12
	subq	%r14, %r15
	je	Lunix_path_BB63_89
	movzbl	(%r12), %eax
	movl	$257, %ecx
	movq	%rcx, 56(%rsp)
	cmpl	$47, %eax
	je	Lunix_path_BB63_92
	cmpl	$46, %eax
	jne	Lunix_path_BB63_91
	cmpq	$1, %r15
	je	Lunix_path_BB63_92
	xorl	%eax, %eax
	cmpb	$47, 1(%r12)
	cmovneq	%rax, %rcx
	movq	%rcx, 56(%rsp)
	jmp	Lunix_path_BB63_92
Lunix_path_BB63_89:
	movq	$0, 56(%rsp)
Lunix_path_BB63_90:
	movq	$0, 32(%rsp)
	jmp	Lunix_path_BB63_101
Lunix_path_BB63_91:
	movq	$0, 56(%rsp)
Lunix_path_BB63_92:
	movq	%r15, %rax
	movq	%r15, 32(%rsp)
	jmp	Lunix_path_BB63_94
	.p2align	4
Lunix_path_BB63_93:
	movq	%rax, 32(%rsp)
	testq	%rax, %rax
	je	Lunix_path_BB63_90
Lunix_path_BB63_94:
	decq	%rax
	je	Lunix_path_BB63_100
	movzbl	(%r12,%rax), %ecx
	cmpl	$47, %ecx
	je	Lunix_path_BB63_98
	cmpl	$46, %ecx
	jne	Lunix_path_BB63_101
	cmpb	$47, -1(%r12,%rax)
	jne	Lunix_path_BB63_101
Lunix_path_BB63_98:
	movq	%r15, %rcx
	subq	%rax, %rcx
	cmpq	$8, %rcx
	jne	Lunix_path_BB63_93
	movq	%r12, %rdi
	movq	%rax, %rsi
	callq	_unix_path.filler.trimmed_blocks_len
	movq	16(%rsp), %rcx
	movq	8(%rsp), %rdx
	leaq	(%rcx,%rdx), %r11
	jmp	Lunix_path_BB63_93
Lunix_path_BB63_100:
	movl	$1, %eax
	movq	%rax, 32(%rsp)
Lunix_path_BB63_101:
	addq	%r14, %r11
	subq	%r14, %rbp
	movq	%r11, 80(%rsp)
	movq	%r13, 64(%rsp)
	movq	%rbx, 136(%rsp)
	je	Lunix_path_BB63_106
	movzbl	(%r11), %eax
	cmpl	$47, %eax
	je	Lunix_path_BB63_107
	cmpl	$46, %eax
	jne	Lunix_path_BB63_108
	cmpq	$1, %rbp
	jne	Lunix_path_BB63_109
Lunix_path_BB63_107:
	xorl	%r10d, %r10d
	jmp	Lunix_path_BB63_110
Lunix_path_BB63_106:
	movq	$0, 24(%rsp)
	movb	$1, %r10b
	jmp	Lunix_path_BB63_120
Lunix_path_BB63_108:
	movb	$1, %r10b
	jmp	Lunix_path_BB63_110
Lunix_path_BB63_109:
	cmpb	$47, 1(%r11)
	setne	%r10b
Lunix_path_BB63_110:
	movq	%rbp, %rax
	movq	%rbp, 24(%rsp)
	jmp	Lunix_path_BB63_112
	.p2align	4
Lunix_path_BB63_111:
	movq	%rax, 24(%rsp)
	testq	%rax, %rax
	je	Lunix_path_BB63_119
Lunix_path_BB63_112:
	decq	%rax
	je	Lunix_path_BB63_118
	movzbl	(%r11,%rax), %ecx
	cmpl	$47, %ecx
	je	Lunix_path_BB63_116
	cmpl	$46, %ecx
	jne	Lunix_path_BB63_120
	cmpb	$47, -1(%r11,%rax)
	jne	Lunix_path_BB63_120
Lunix_path_BB63_116:
	movq	%rbp, %rcx
	subq	%rax, %rcx
	cmpq	$8, %rcx
	jne	Lunix_path_BB63_111
	movq	%r11, %rdi
	movq	%rax, %rsi
	movl	%r10d, %r15d
	callq	_unix_path.filler.trimmed_blocks_len
	movl	%r15d, %r10d
	movq	80(%rsp), %r11
	jmp	Lunix_path_BB63_111
Lunix_path_BB63_118:
	movl	$1, %eax
	movq	%rax, 24(%rsp)
	jmp	Lunix_path_BB63_120
Lunix_path_BB63_119:
	movq	$0, 24(%rsp)
Lunix_path_BB63_120:
	movq	48(%rsp), %rax
	addq	%r14, %rax
	movq	72(%rsp), %rcx
	leaq	(%rcx,%rax), %rdx
	addq	$2, %rdx
	movq	%rdx, 200(%rsp)
	leaq	1(%rcx,%rax), %rdx
	movq	%rdx, 192(%rsp)
	movq	%rax, 48(%rsp)
	addq	%rcx, %rax
	addq	$3, %rax
	movq	%rax, 176(%rsp)
	movq	8(%rsp), %rcx
	addq	%r14, %rcx
	movq	16(%rsp), %rax
	leaq	(%rax,%rcx), %rdx
	addq	$2, %rdx
	movq	%rdx, 40(%rsp)
	leaq	1(%rax,%rcx), %rdx
	movq	%rdx, 208(%rsp)
	addq	%rcx, %rax
	addq	$3, %rax
	movq	%rax, 184(%rsp)
	xorl	%r14d, %r14d
	xorl	%ecx, %ecx
	.p2align	4
Lunix_path_BB63_121:
	movq	%r14, %r9
	leaq	(%r12,%r14), %r15
	movq	32(%rsp), %r13
	subq	%r14, %r13
	movq	%r14, 16(%rsp)
	movq	%r15, 88(%rsp)
	je	Lunix_path_BB63_129
	testl	$256, 56(%rsp)
	jne	Lunix_path_BB63_136
	cmpq	$1, %r13
	je	Lunix_path_BB63_178
	cmpb	$46, (%r15)
	jne	Lunix_path_BB63_178
	cmpb	$46, 1(%r15)
	jne	Lunix_path_BB63_178
	cmpq	$2, %r13
	jne	Lunix_path_BB63_176
	leaq	(%r11,%rcx), %rax
	movq	%rax, 8(%rsp)
	xorl	%eax, %eax
	movq	24(%rsp), %rbx
	subq	%rcx, %rbx
	je	Lunix_path_BB63_460
	leaq	2(%r9), %r14
	movb	$2, %bpl
	movq	$0, 56(%rsp)
	xorl	%edi, %edi
	testb	$1, %r10b
	jne	Lunix_path_BB63_131
	jmp	Lunix_path_BB63_206
	.p2align	4
Lunix_path_BB63_129:
	leaq	(%r11,%rcx), %rax
	movq	%rax, 8(%rsp)
	xorl	%ebp, %ebp
	movq	24(%rsp), %rbx
	movl	$0, %eax
	movq	%r9, %r14
	movl	$0, %edi
	movl	$0, %r15d
	subq	%rcx, %rbx
	je	Lunix_path_BB63_260
	testb	$1, %r10b
	je	Lunix_path_BB63_206
Lunix_path_BB63_131:
	cmpq	$1, %rbx
	movq	8(%rsp), %r15
	je	Lunix_path_BB63_150
	cmpb	$46, (%r15)
	jne	Lunix_path_BB63_150
	cmpb	$46, 1(%r11,%rcx)
	jne	Lunix_path_BB63_150
	movb	$2, %r10b
	cmpq	$2, %rbx
	jne	Lunix_path_BB63_148
	movq	%rbp, %r11
	movl	$2, %ebp
	jmp	Lunix_path_BB63_217
	.p2align	4
Lunix_path_BB63_136:
	movq	%r13, %rax
	decq	%rax
	je	Lunix_path_BB63_143
	leaq	-1(%r13), %rdx
	movq	200(%rsp), %rsi
	addq	%r9, %rsi
	leaq	-2(%r13), %rdi
	xorl	%r14d, %r14d
	jmp	Lunix_path_BB63_139
	.p2align	4
Lunix_path_BB63_138:
	incq	%r14
	cmpq	%r14, %rdx
	je	Lunix_path_BB63_144
Lunix_path_BB63_139:
	movzbl	-1(%rsi,%r14), %r8d
	cmpl	$47, %r8d
	je	Lunix_path_BB63_138
	cmpl	$46, %r8d
	jne	Lunix_path_BB63_145
	cmpq	%r14, %rdi
	je	Lunix_path_BB63_144
	cmpb	$47, (%rsi,%r14)
	je	Lunix_path_BB63_138
	jmp	Lunix_path_BB63_145
Lunix_path_BB63_143:
	movl	$1, %r14d
	jmp	Lunix_path_BB63_146
Lunix_path_BB63_144:
	movq	%rax, %r14
Lunix_path_BB63_145:
	incq	%r14
Lunix_path_BB63_146:
	cmpb	$47, (%r15)
	setne	%bpl
Lunix_path_BB63_147:
	xorl	%edi, %edi
	xorl	%eax, %eax
	jmp	Lunix_path_BB63_204
Lunix_path_BB63_148:
	cmpb	$47, 2(%r11,%rcx)
	jne	Lunix_path_BB63_150
	movq	%rbp, %r11
	leaq	-2(%rbx), %rdx
	movq	184(%rsp), %rsi
	addq	%rcx, %rsi
	leaq	-3(%rbx), %r8
	xorl	%ebp, %ebp
	jmp	Lunix_path_BB63_156
	.p2align	4
Lunix_path_BB63_150:
	cmpq	$15, %rbx
	ja	Lunix_path_BB63_160
	leaq	(%r11,%rcx), %rdx
	xorl	%r8d, %r8d
	.p2align	4
Lunix_path_BB63_152:
	cmpb	$47, (%rdx,%r8)
	je	Lunix_path_BB63_165
	incq	%r8
	cmpq	%r8, %rbx
	jne	Lunix_path_BB63_152
	movq	%rbx, %r8
	movq	%rbp, %r11
	movq	%rbx, %rdx
	subq	%r8, %rdx
	jne	Lunix_path_BB63_166
Lunix_path_BB63_174:
	xorl	%ebp, %ebp
	jmp	Lunix_path_BB63_175
	.p2align	4
Lunix_path_BB63_155:
	incq	%rbp
	cmpq	%rbp, %rdx
	je	Lunix_path_BB63_239
Lunix_path_BB63_156:
	movzbl	-1(%rsi,%rbp), %r9d
	cmpl	$47, %r9d
	je	Lunix_path_BB63_155
	cmpl	$46, %r9d
	jne	Lunix_path_BB63_240
	cmpq	%rbp, %r8
	je	Lunix_path_BB63_239
	cmpb	$47, (%rsi,%rbp)
	je	Lunix_path_BB63_155
	jmp	Lunix_path_BB63_240
Lunix_path_BB63_160:
	movq	%rbx, %rdx
	addq	$-16, %rdx
	je	Lunix_path_BB63_164
	leaq	(%r11,%rcx), %r8
	xorl	%esi, %esi
	.p2align	4
Lunix_path_BB63_162:
	movdqu	(%r8,%rsi), %xmm0
	pcmpeqb	Lunix_path_CPI63_0(%rip), %xmm0
	pmovmskb	%xmm0, %r9d
	orl	$65536, %r9d
	rep		bsfl	%r9d, %r9d
	cmpw	$15, %r9w
	jbe	Lunix_path_BB63_173
	addq	$16, %rsi
	cmpq	%rdx, %rsi
	jb	Lunix_path_BB63_162
Lunix_path_BB63_164:
	leaq	(%r11,%rcx), %rsi
	movdqu	(%rdx,%rsi), %xmm0
	pcmpeqb	Lunix_path_CPI63_0(%rip), %xmm0
	pmovmskb	%xmm0, %esi
	orl	$65536, %esi
	rep		bsfl	%esi, %r8d
	addq	%rdx, %r8
Lunix_path_BB63_165:
	movq	%rbp, %r11
	movq	%rbx, %rdx
	subq	%r8, %rdx
	je	Lunix_path_BB63_174
Lunix_path_BB63_166:
	leaq	(%r8,%rcx), %rsi
	addq	208(%rsp), %rsi
	leaq	-1(%rdx), %r9
	xorl	%ebp, %ebp
	jmp	Lunix_path_BB63_168
	.p2align	4
Lunix_path_BB63_167:
	incq	%rbp
	cmpq	%rbp, %rdx
	je	Lunix_path_BB63_172
Lunix_path_BB63_168:
	movzbl	-1(%rsi,%rbp), %r10d
	cmpl	$47, %r10d
	je	Lunix_path_BB63_167
	cmpl	$46, %r10d
	jne	Lunix_path_BB63_175
	cmpq	%rbp, %r9
	je	Lunix_path_BB63_172
	cmpb	$47, (%rsi,%rbp)
	je	Lunix_path_BB63_167
	jmp	Lunix_path_BB63_175
Lunix_path_BB63_172:
	movq	%rdx, %rbp
Lunix_path_BB63_175:
	addq	%r8, %rbp
	movb	$3, %r10b
	movq	%r15, %r9
	jmp	Lunix_path_BB63_218
Lunix_path_BB63_173:
	movzwl	%r9w, %r8d
	addq	%rsi, %r8
	movq	%rbp, %r11
	movq	%rbx, %rdx
	subq	%r8, %rdx
	jne	Lunix_path_BB63_166
	jmp	Lunix_path_BB63_174
Lunix_path_BB63_176:
	cmpb	$47, 2(%r15)
	jne	Lunix_path_BB63_178
	leaq	-2(%r13), %rax
	movq	176(%rsp), %rdx
	addq	%r9, %rdx
	leaq	-3(%r13), %rsi
	xorl	%r14d, %r14d
	jmp	Lunix_path_BB63_184
	.p2align	4
Lunix_path_BB63_178:
	cmpq	$15, %r13
	ja	Lunix_path_BB63_188
	xorl	%eax, %eax
	.p2align	4
Lunix_path_BB63_180:
	cmpb	$47, (%r15,%rax)
	je	Lunix_path_BB63_193
	incq	%rax
	cmpq	%rax, %r13
	jne	Lunix_path_BB63_180
	movq	%r13, %rax
	movq	%r13, %rdx
	subq	%rax, %rdx
	jne	Lunix_path_BB63_194
Lunix_path_BB63_202:
	xorl	%r14d, %r14d
	jmp	Lunix_path_BB63_203
	.p2align	4
Lunix_path_BB63_183:
	incq	%r14
	cmpq	%r14, %rax
	je	Lunix_path_BB63_241
Lunix_path_BB63_184:
	movzbl	-1(%rdx,%r14), %edi
	cmpl	$47, %edi
	je	Lunix_path_BB63_183
	cmpl	$46, %edi
	jne	Lunix_path_BB63_242
	cmpq	%r14, %rsi
	je	Lunix_path_BB63_241
	cmpb	$47, (%rdx,%r14)
	je	Lunix_path_BB63_183
	jmp	Lunix_path_BB63_242
Lunix_path_BB63_188:
	movq	%r13, %rdx
	addq	$-16, %rdx
	je	Lunix_path_BB63_192
	xorl	%esi, %esi
	.p2align	4
Lunix_path_BB63_190:
	movdqu	(%r15,%rsi), %xmm0
	pcmpeqb	Lunix_path_CPI63_0(%rip), %xmm0
	pmovmskb	%xmm0, %eax
	orl	$65536, %eax
	rep		bsfl	%eax, %eax
	cmpw	$15, %ax
	jbe	Lunix_path_BB63_201
	addq	$16, %rsi
	cmpq	%rdx, %rsi
	jb	Lunix_path_BB63_190
Lunix_path_BB63_192:
	movdqu	(%r15,%rdx), %xmm0
	pcmpeqb	Lunix_path_CPI63_0(%rip), %xmm0
	pmovmskb	%xmm0, %eax
	orl	$65536, %eax
	rep		bsfl	%eax, %eax
	addq	%rdx, %rax
Lunix_path_BB63_193:
	movq	%r13, %rdx
	subq	%rax, %rdx
	je	Lunix_path_BB63_202
Lunix_path_BB63_194:
	leaq	(%rax,%r9), %rsi
	addq	192(%rsp), %rsi
	leaq	-1(%rdx), %rdi
	xorl	%r14d, %r14d
	jmp	Lunix_path_BB63_196
	.p2align	4
Lunix_path_BB63_195:
	incq	%r14
	cmpq	%r14, %rdx
	je	Lunix_path_BB63_200
Lunix_path_BB63_196:
	movzbl	-1(%rsi,%r14), %r8d
	cmpl	$47, %r8d
	je	Lunix_path_BB63_195
	cmpl	$46, %r8d
	jne	Lunix_path_BB63_203
	cmpq	%r14, %rdi
	je	Lunix_path_BB63_200
	cmpb	$47, (%rsi,%r14)
	je	Lunix_path_BB63_195
	jmp	Lunix_path_BB63_203
Lunix_path_BB63_200:
	movq	%rdx, %r14
Lunix_path_BB63_203:
	addq	%rax, %r14
	movb	$3, %bpl
	movq	%r15, %rdi
Lunix_path_BB63_204:
	leaq	(%r11,%rcx), %rdx
	movq	%rdx, 8(%rsp)
	movq	$0, 56(%rsp)
	movq	24(%rsp), %rbx
	subq	%rcx, %rbx
	je	Lunix_path_BB63_244
	addq	%r9, %r14
	testb	$1, %r10b
	jne	Lunix_path_BB63_131
Lunix_path_BB63_206:
	movq	%rbp, %r11
	movq	%rbx, %rdx
	decq	%rdx
	movq	8(%rsp), %r15
	je	Lunix_path_BB63_213
	leaq	-1(%rbx), %rsi
	movq	40(%rsp), %r8
	addq	%rcx, %r8
	leaq	-2(%rbx), %r9
	xorl	%ebp, %ebp
	jmp	Lunix_path_BB63_209
	.p2align	4
Lunix_path_BB63_208:
	incq	%rbp
	cmpq	%rbp, %rsi
	je	Lunix_path_BB63_214
Lunix_path_BB63_209:
	movzbl	-1(%r8,%rbp), %r10d
	cmpl	$47, %r10d
	je	Lunix_path_BB63_208
	cmpl	$46, %r10d
	jne	Lunix_path_BB63_215
	cmpq	%rbp, %r9
	je	Lunix_path_BB63_214
	cmpb	$47, (%r8,%rbp)
	je	Lunix_path_BB63_208
	jmp	Lunix_path_BB63_215
Lunix_path_BB63_213:
	movl	$1, %ebp
	jmp	Lunix_path_BB63_216
Lunix_path_BB63_214:
	movq	%rdx, %rbp
Lunix_path_BB63_215:
	incq	%rbp
Lunix_path_BB63_216:
	cmpb	$47, (%r15)
	setne	%r10b
Lunix_path_BB63_217:
	xorl	%r9d, %r9d
	xorl	%r8d, %r8d
Lunix_path_BB63_218:
	testq	%r13, %r13
	je	Lunix_path_BB63_258
	movl	$1, %esi
	movzbl	%r11b, %edx
	leaq	Lunix_path_JTI63_0(%rip), %r11
	movslq	(%r11,%rdx,4), %rdx
	addq	%r11, %rdx
	jmpq	*%rdx
Lunix_path_BB63_220:
	leaq	lunix_path__static.8(%rip), %rdi
	movl	$1, %r11d
	leaq	lunix_path__static.8(%rip), %rdx
	movzbl	%r10b, %eax
	leaq	Lunix_path_JTI63_1(%rip), %r10
	movslq	(%r10,%rax,4), %rax
	addq	%r10, %rax
	jmpq	*%rax
	.p2align	4
Lunix_path_BB63_221:
	movl	$2, %esi
	leaq	lunix_path__static.10(%rip), %rdi
	movl	$1, %r11d
	leaq	lunix_path__static.8(%rip), %rdx
	movzbl	%r10b, %eax
	leaq	Lunix_path_JTI63_1(%rip), %r10
	movslq	(%r10,%rax,4), %rax
	addq	%r10, %rax
	jmpq	*%rax
	.p2align	4
Lunix_path_BB63_222:
	movl	$1, %r11d
	leaq	lunix_path__static.8(%rip), %rdx
	movzbl	%r10b, %esi
	leaq	Lunix_path_JTI63_1(%rip), %r10
	movslq	(%r10,%rsi,4), %r15
	addq	%r10, %r15
	movq	%rax, %rsi
	jmpq	*%r15
	.p2align	4
Lunix_path_BB63_223:
	leaq	lunix_path__static.5(%rip), %rdi
	movl	$1, %r11d
	leaq	lunix_path__static.8(%rip), %rdx
	movzbl	%r10b, %eax
	leaq	Lunix_path_JTI63_1(%rip), %r10
	movslq	(%r10,%rax,4), %rax
	addq	%r10, %rax
	jmpq	*%rax
Lunix_path_BB63_224:
	leaq	lunix_path__static.5(%rip), %rdx
	jmp	Lunix_path_BB63_227
	.p2align	4
Lunix_path_BB63_225:
	movl	$2, %r11d
	leaq	lunix_path__static.10(%rip), %rdx
	jmp	Lunix_path_BB63_227
	.p2align	4
Lunix_path_BB63_226:
	movq	%r9, %rdx
	movq	%r8, %r11
Lunix_path_BB63_227:
	cmpq	%r11, %rsi
	jne	Lunix_path_BB63_243
	addq	%rcx, %rbp
	cmpq	$4, %rsi
	movq	16(%rsp), %r9
	leaq	(%r12,%r9), %r15
	jae	Lunix_path_BB63_235
	movb	$1, %r10b
	movq	%rbp, %rcx
	testq	%rsi, %rsi
	movq	80(%rsp), %r11
	je	Lunix_path_BB63_121
	movzbl	(%rdi), %eax
	cmpb	(%rdx), %al
	jne	Lunix_path_BB63_237
	movq	%rbp, %rcx
	cmpq	$1, %rsi
	je	Lunix_path_BB63_121
	movzbl	1(%rdi), %ecx
	movl	$1, %eax
	cmpb	1(%rdx), %cl
	jne	Lunix_path_BB63_238
	movq	%rbp, %rcx
	cmpq	$2, %rsi
	je	Lunix_path_BB63_121
	movzbl	2(%rdi), %edi
	movl	$2, %eax
	movq	%rbp, %rcx
	cmpb	2(%rdx), %dil
	je	Lunix_path_BB63_121
	jmp	Lunix_path_BB63_238
	.p2align	4
Lunix_path_BB63_235:
	movl	(%rdi), %eax
	cmpl	(%rdx), %eax
	jne	Lunix_path_BB63_245
	callq	_core.cmp.slices.groups_equal.i8.31.core.cmp.numbers.U8PartialEq.
	movq	16(%rsp), %r9
	movb	$1, %r10b
	movq	%rbp, %rcx
	testb	%al, %al
	movq	80(%rsp), %r11
	jne	Lunix_path_BB63_121
	jmp	Lunix_path_BB63_245
Lunix_path_BB63_237:
	xorl	%eax, %eax
Lunix_path_BB63_238:
	movq	%rbp, %rcx
	cmpq	%rsi, %rax
	jae	Lunix_path_BB63_121
	jmp	Lunix_path_BB63_245
Lunix_path_BB63_201:
	movzwl	%ax, %eax
	addq	%rsi, %rax
	movq	%r13, %rdx
	subq	%rax, %rdx
	jne	Lunix_path_BB63_194
	jmp	Lunix_path_BB63_202
Lunix_path_BB63_239:
	movq	%rdx, %rbp
Lunix_path_BB63_240:
	addq	$2, %rbp
	jmp	Lunix_path_BB63_217
Lunix_path_BB63_241:
	movq	%rax, %r14
Lunix_path_BB63_242:
	addq	$2, %r14
	movb	$2, %bpl
	jmp	Lunix_path_BB63_147
Lunix_path_BB63_243:
	movq	88(%rsp), %r15
	movq	16(%rsp), %r9
	movzbl	(%r15), %eax
	movb	$1, %bpl
	cmpl	$47, %eax
	jne	Lunix_path_BB63_246
	jmp	Lunix_path_BB63_250
Lunix_path_BB63_244:
	xorl	%ebx, %ebx
Lunix_path_BB63_245:
	movzbl	(%r15), %eax
	movb	$1, %bpl
	cmpl	$47, %eax
	je	Lunix_path_BB63_250
Lunix_path_BB63_246:
	cmpl	$46, %eax
	jne	Lunix_path_BB63_249
	cmpq	$1, %r13
	je	Lunix_path_BB63_250
	cmpb	$47, 1(%r15)
	sete	%bpl
	jmp	Lunix_path_BB63_250
Lunix_path_BB63_249:
	xorl	%ebp, %ebp
Lunix_path_BB63_250:
	movq	%r13, %rcx
	movq	%r13, %rax
	jmp	Lunix_path_BB63_252
	.p2align	4
Lunix_path_BB63_251:
	movq	%rax, %rcx
	testq	%rax, %rax
	je	Lunix_path_BB63_258
Lunix_path_BB63_252:
	decq	%rax
	je	Lunix_path_BB63_264
	movzbl	(%r15,%rax), %edx
	cmpl	$47, %edx
	je	Lunix_path_BB63_256
	cmpl	$46, %edx
	jne	Lunix_path_BB63_264
	cmpb	$47, -1(%r15,%rax)
	jne	Lunix_path_BB63_264
Lunix_path_BB63_256:
	movq	%r13, %rcx
	subq	%rax, %rcx
	cmpq	$8, %rcx
	jne	Lunix_path_BB63_251
	movq	%r15, %rdi
	movq	%rax, %rsi
	callq	_unix_path.filler.trimmed_blocks_len
	movq	16(%rsp), %r9
	jmp	Lunix_path_BB63_251
Lunix_path_BB63_258:
	xorl	%r15d, %r15d
Lunix_path_BB63_259:
	movq	%rbx, %rbp
Lunix_path_BB63_260:
	movq	8(%rsp), %rbx
	movq	%rbx, %rdi
	movq	%rbp, %rsi
	callq	_path_within.outlined.is_names_only
	pxor	%xmm0, %xmm0
	movdqa	%xmm0, 112(%rsp)
	movdqa	%xmm0, 96(%rsp)
	movq	$0, 128(%rsp)
	testb	%al, %al
	je	Lunix_path_BB63_262
	leaq	1(%rbp), %rcx
	movb	$1, 128(%rsp)
	movl	$0, 129(%rsp)
	movl	$0, 132(%rsp)
	movq	$-1, 32(%rsp)
	movq	128(%rsp), %rax
	movq	%rbx, %r11
	jmp	Lunix_path_BB63_263
Lunix_path_BB63_262:
	leaq	96(%rsp), %rdi
	movq	%rbx, %rsi
	movq	%rbp, %rdx
	callq	_path_within.write.Layout.resolve_names
	movq	96(%rsp), %r11
	movq	104(%rsp), %rbp
	movq	112(%rsp), %rax
	movq	%rax, 32(%rsp)
	movq	120(%rsp), %rcx
	movq	128(%rsp), %rax
Lunix_path_BB63_263:
	movq	64(%rsp), %r13
	xorl	%r14d, %r14d
	movzbl	7(%rsp), %edx
Lunix_path_BB63_418:
	movb	%dl, %r14b
	shll	$12, %r14d
	leaq	(%r14,%r13), %rbx
	testq	%r15, %r15
	je	Lunix_path_BB63_420
	decq	%r15
	movabsq	$6148914691236517205, %rdx
	cmpq	%rdx, %r15
	cmovaeq	%rdx, %r15
	leaq	(%r15,%r15,2), %r15
	addq	$2, %r15
	movq	$-1, %rdx
	cmovbq	%rdx, %r15
	addq	%rcx, %r15
	cmovbq	%rdx, %r15
	cmpq	136(%rsp), %r15
	jbe	Lunix_path_BB63_422
	jmp	Lunix_path_BB63_457
Lunix_path_BB63_420:
	testq	%rcx, %rcx
	je	Lunix_path_BB63_425
	leaq	-1(%rcx), %r15
	cmpq	136(%rsp), %r15
	ja	Lunix_path_BB63_457
Lunix_path_BB63_422:
	leaq	1(%r15), %rsi
	testb	$1, %al
	jne	Lunix_path_BB63_426
	testq	%rcx, %rcx
	je	Lunix_path_BB63_430
	movq	%rbx, %rdi
	movq	%r11, %rdx
	movq	%rbp, %rcx
	movq	32(%rsp), %r8
	callq	_path_within.backward.put_names_before
	movq	%rax, %r14
	cmpq	$3, %r14
	jb	Lunix_path_BB63_457
	jmp	Lunix_path_BB63_451
Lunix_path_BB63_264:
	movq	%r15, %r12
	movq	48(%rsp), %rsi
	addq	72(%rsp), %rsi
	leaq	(%r9,%rsi), %rax
	incq	%rax
	leaq	(%r9,%rsi), %rdx
	addq	$3, %rdx
	addq	%r9, %rsi
	addq	$2, %rsi
	xorl	%r15d, %r15d
	movq	%rcx, %r8
	xorl	%edi, %edi
	jmp	Lunix_path_BB63_268
Lunix_path_BB63_265:
	xorl	%r9d, %r9d
Lunix_path_BB63_266:
	addq	%r10, %r9
Lunix_path_BB63_267:
	addq	%r9, %rdi
	incq	%r15
	xorl	%ebp, %ebp
	movq	%rcx, %r8
	subq	%rdi, %r8
	je	Lunix_path_BB63_259
Lunix_path_BB63_268:
	testb	$1, %bpl
	je	Lunix_path_BB63_276
	movq	%r8, %r10
	decq	%r10
	je	Lunix_path_BB63_304
	leaq	-1(%r8), %r11
	leaq	(%rsi,%rdi), %r14
	addq	$-2, %r8
	xorl	%r9d, %r9d
	jmp	Lunix_path_BB63_272
	.p2align	4
Lunix_path_BB63_271:
	incq	%r9
	cmpq	%r9, %r11
	je	Lunix_path_BB63_305
Lunix_path_BB63_272:
	movzbl	-1(%r14,%r9), %ebp
	cmpl	$47, %ebp
	je	Lunix_path_BB63_271
	cmpl	$46, %ebp
	jne	Lunix_path_BB63_306
	cmpq	%r9, %r8
	je	Lunix_path_BB63_305
	cmpb	$47, (%r14,%r9)
	je	Lunix_path_BB63_271
	jmp	Lunix_path_BB63_306
	.p2align	4
Lunix_path_BB63_276:
	leaq	(%r12,%rdi), %r11
	cmpq	$1, %r8
	je	Lunix_path_BB63_282
	cmpb	$46, (%r11)
	jne	Lunix_path_BB63_282
	cmpb	$46, 1(%r11)
	jne	Lunix_path_BB63_282
	movl	$2, %r9d
	cmpq	$2, %r8
	je	Lunix_path_BB63_267
	cmpb	$47, 2(%r11)
	jne	Lunix_path_BB63_282
	leaq	-2(%r8), %r10
	leaq	(%rdx,%rdi), %r11
	addq	$-3, %r8
	xorl	%r9d, %r9d
	jmp	Lunix_path_BB63_288
	.p2align	4
Lunix_path_BB63_282:
	cmpq	$15, %r8
	ja	Lunix_path_BB63_292
	xorl	%r10d, %r10d
	.p2align	4
Lunix_path_BB63_284:
	cmpb	$47, (%r11,%r10)
	je	Lunix_path_BB63_297
	incq	%r10
	cmpq	%r10, %r8
	jne	Lunix_path_BB63_284
	movq	%r8, %r10
	subq	%r10, %r8
	jne	Lunix_path_BB63_298
	jmp	Lunix_path_BB63_265
	.p2align	4
Lunix_path_BB63_287:
	incq	%r9
	cmpq	%r9, %r10
	je	Lunix_path_BB63_309
Lunix_path_BB63_288:
	movzbl	-1(%r11,%r9), %ebp
	cmpl	$47, %ebp
	je	Lunix_path_BB63_287
	cmpl	$46, %ebp
	jne	Lunix_path_BB63_310
	cmpq	%r9, %r8
	je	Lunix_path_BB63_309
	cmpb	$47, (%r11,%r9)
	je	Lunix_path_BB63_287
	jmp	Lunix_path_BB63_310
	.p2align	4
Lunix_path_BB63_292:
	movq	%r8, %r9
	addq	$-16, %r9
	je	Lunix_path_BB63_296
	xorl	%r14d, %r14d
	.p2align	4
Lunix_path_BB63_294:
	movdqu	(%r11,%r14), %xmm0
	pcmpeqb	Lunix_path_CPI63_0(%rip), %xmm0
	pmovmskb	%xmm0, %r10d
	orl	$65536, %r10d
	rep		bsfl	%r10d, %r10d
	cmpw	$15, %r10w
	jbe	Lunix_path_BB63_308
	addq	$16, %r14
	cmpq	%r9, %r14
	jb	Lunix_path_BB63_294
Lunix_path_BB63_296:
	movdqu	(%r11,%r9), %xmm0
	pcmpeqb	Lunix_path_CPI63_0(%rip), %xmm0
	pmovmskb	%xmm0, %r10d
	orl	$65536, %r10d
	rep		bsfl	%r10d, %r10d
	addq	%r9, %r10
Lunix_path_BB63_297:
	subq	%r10, %r8
	je	Lunix_path_BB63_265
Lunix_path_BB63_298:
	leaq	(%r10,%rdi), %r11
	addq	%rax, %r11
	leaq	-1(%r8), %r14
	xorl	%r9d, %r9d
	jmp	Lunix_path_BB63_300
	.p2align	4
Lunix_path_BB63_299:
	incq	%r9
	cmpq	%r9, %r8
	je	Lunix_path_BB63_307
Lunix_path_BB63_300:
	movzbl	-1(%r11,%r9), %ebp
	cmpl	$47, %ebp
	je	Lunix_path_BB63_299
	cmpl	$46, %ebp
	jne	Lunix_path_BB63_266
	cmpq	%r9, %r14
	je	Lunix_path_BB63_307
	cmpb	$47, (%r11,%r9)
	je	Lunix_path_BB63_299
	jmp	Lunix_path_BB63_266
Lunix_path_BB63_304:
	movl	$1, %r9d
	jmp	Lunix_path_BB63_267
Lunix_path_BB63_305:
	movq	%r10, %r9
Lunix_path_BB63_306:
	incq	%r9
	jmp	Lunix_path_BB63_267
Lunix_path_BB63_307:
	movq	%r8, %r9
	jmp	Lunix_path_BB63_266
Lunix_path_BB63_308:
	movzwl	%r10w, %r10d
	addq	%r14, %r10
	subq	%r10, %r8
	jne	Lunix_path_BB63_298
	jmp	Lunix_path_BB63_265
Lunix_path_BB63_309:
	movq	%r10, %r9
Lunix_path_BB63_310:
	addq	$2, %r9
	jmp	Lunix_path_BB63_267
Lunix_path_BB63_425:
	movl	$1, %esi
	xorl	%r15d, %r15d
	testb	$1, %al
	je	Lunix_path_BB63_457
Lunix_path_BB63_426:
	movq	%r11, %rdx
	movq	%r14, %r11
	movq	%rbp, %rax
	notq	%rax
	leaq	(%rsi,%rax), %r14
	leaq	(%rbx,%r14), %r12
	movq	%r12, %rcx
	subq	%rdx, %rcx
	cmpq	%rbp, %rcx
	jae	Lunix_path_BB63_429
	movq	%rbp, %r8
	movq	%rdx, %rbp
	cmpq	$4, %r8
	movq	%r8, 24(%rsp)
	jb	Lunix_path_BB63_428
	leaq	(%r11,%rsi), %rdx
	movq	%r8, %rdi
	subq	%rdx, %rdi
	subq	%r13, %rdi
	addq	%rbp, %rdi
	cmpq	$-33, %rdi
	jbe	Lunix_path_BB63_433
Lunix_path_BB63_428:
	xorl	%ecx, %ecx
Lunix_path_BB63_442:
	movq	%r8, %rdx
	movq	%rcx, %rdi
	andq	$3, %rdx
	je	Lunix_path_BB63_445
	movq	%rbp, %r10
	leaq	(%r11,%rcx), %rdi
	addq	%rsi, %rdi
	addq	%r13, %rax
	addq	%rdi, %rax
	xorl	%r8d, %r8d
	movq	%rcx, %rdi
	.p2align	4
Lunix_path_BB63_444:
	movzbl	(%r10,%rdi), %r9d
	movb	%r9b, (%rax,%r8)
	incq	%rdi
	incq	%r8
	cmpq	%r8, %rdx
	jne	Lunix_path_BB63_444
Lunix_path_BB63_445:
	movq	24(%rsp), %rdx
	subq	%rdx, %rcx
	cmpq	$-4, %rcx
	ja	Lunix_path_BB63_448
	movq	%rdx, %rax
	subq	%rdi, %rax
	leaq	(%rdi,%rbp), %rcx
	addq	$3, %rcx
	addq	%rdi, %r11
	addq	%rsi, %r11
	subq	%rdx, %r11
	addq	%r11, %r13
	xorl	%edx, %edx
	.p2align	4
Lunix_path_BB63_447:
	movzbl	-3(%rcx,%rdx), %esi
	movb	%sil, -1(%r13,%rdx)
	movzbl	-2(%rcx,%rdx), %esi
	movb	%sil, (%r13,%rdx)
	movzbl	-1(%rcx,%rdx), %esi
	movb	%sil, 1(%r13,%rdx)
	movzbl	(%rcx,%rdx), %esi
	movb	%sil, 2(%r13,%rdx)
	addq	$4, %rdx
	cmpq	%rdx, %rax
	jne	Lunix_path_BB63_447
	jmp	Lunix_path_BB63_448
Lunix_path_BB63_429:
	movq	%r12, %rdi
	movq	%rdx, %rsi
	movq	%rbp, %rdx
	callq	_memmove
Lunix_path_BB63_448:
	testq	%r14, %r14
	je	Lunix_path_BB63_457
	movb	$47, -1(%r12)
	cmpq	$3, %r14
	jb	Lunix_path_BB63_457
	jmp	Lunix_path_BB63_451
Lunix_path_BB63_430:
	movq	%rsi, %r14
	cmpq	$3, %r14
	jb	Lunix_path_BB63_457
Lunix_path_BB63_451:
	addq	$-3, %r14
	movabsq	$-6148914691236517205, %rcx
	movq	%r14, %rax
	mulq	%rcx
	shrq	%rdx
	incq	%rdx
	jmp	Lunix_path_BB63_453
	.p2align	4
Lunix_path_BB63_455:
	movw	$11822, (%rax)
	testq	%r14, %r14
	je	Lunix_path_BB63_452
Lunix_path_BB63_456:
	movb	$47, -1(%rbx,%r14)
Lunix_path_BB63_452:
	addq	$-3, %r14
	decq	%rdx
	je	Lunix_path_BB63_457
Lunix_path_BB63_453:
	leaq	(%rbx,%r14), %rax
	leaq	lunix_path__static.10(%rip), %rcx
	movq	%rax, %rsi
	subq	%rcx, %rsi
	cmpq	$1, %rsi
	ja	Lunix_path_BB63_455
	movw	$11822, (%rbx,%r14)
	testq	%r14, %r14
	jne	Lunix_path_BB63_456
	jmp	Lunix_path_BB63_452
Lunix_path_BB63_457:
	movabsq	$-9223372036854775808, %rax
	cmpq	%rax, %r15
	cmovbq	%r15, %rax
Lunix_path_BB63_458:
	addq	$216, %rsp
	popq	%rbx
	popq	%r12
	popq	%r13
	popq	%r14
	popq	%r15
	popq	%rbp
	retq
Lunix_path_BB63_433:
	cmpq	$32, %r8
	jae	Lunix_path_BB63_435
	xorl	%ecx, %ecx
	jmp	Lunix_path_BB63_439
Lunix_path_BB63_47:
	movl	$1, %ebx
	testb	%bpl, %bpl
	jne	Lunix_path_BB63_44
	jmp	Lunix_path_BB63_48
Lunix_path_BB63_311:
	movl	$1, %ebp
	jmp	Lunix_path_BB63_313
Lunix_path_BB63_312:
	xorl	%ebp, %ebp
	jmp	Lunix_path_BB63_313
Lunix_path_BB63_435:
	movq	%r8, %rcx
	andq	$-32, %rcx
	subq	%r8, %rdx
	addq	%r13, %rdx
	addq	$15, %rdx
	xorl	%edi, %edi
	movq	%rbp, %r8
	.p2align	4
Lunix_path_BB63_436:
	movdqu	(%r8,%rdi), %xmm0
	movdqu	16(%r8,%rdi), %xmm1
	movdqu	%xmm0, -16(%rdx,%rdi)
	movdqu	%xmm1, (%rdx,%rdi)
	addq	$32, %rdi
	cmpq	%rdi, %rcx
	jne	Lunix_path_BB63_436
	movq	24(%rsp), %r8
	cmpq	%rcx, %r8
	je	Lunix_path_BB63_448
	testb	$28, %r8b
	je	Lunix_path_BB63_442
Lunix_path_BB63_439:
	movq	%rcx, %rdx
	movq	%r8, %rcx
	andq	$-4, %rcx
	movq	%rcx, %rdi
	subq	%rdx, %rdi
	leaq	(%rdx,%rbp), %r8
	addq	%r11, %rdx
	addq	%rsi, %rdx
	addq	%r13, %rdx
	addq	%rax, %rdx
	xorl	%r9d, %r9d
	.p2align	4
Lunix_path_BB63_440:
	movl	(%r8,%r9), %r10d
	movl	%r10d, (%rdx,%r9)
	addq	$4, %r9
	cmpq	%r9, %rdi
	jne	Lunix_path_BB63_440
	movq	24(%rsp), %r8
	cmpq	%rcx, %r8
	je	Lunix_path_BB63_448
	jmp	Lunix_path_BB63_442
Lunix_path_BB63_360:
	movzbl	1(%r12), %edx
	movl	$1, %ecx
	cmpb	1(%r11), %dl
	jne	Lunix_path_BB63_58
	cmpq	$2, %rax
	je	Lunix_path_BB63_15
	movzbl	2(%r12), %edx
	movl	$2, %ecx
	cmpb	2(%r11), %dl
	jne	Lunix_path_BB63_58
	cmpq	$3, %rax
	je	Lunix_path_BB63_15
	movzbl	3(%r12), %edx
	movl	$3, %ecx
	cmpb	3(%r11), %dl
	jne	Lunix_path_BB63_58
	cmpq	$4, %rax
	je	Lunix_path_BB63_15
	movzbl	4(%r12), %edx
	movl	$4, %ecx
	cmpb	4(%r11), %dl
	jne	Lunix_path_BB63_58
	movq	%rbp, %r8
	movq	%rbx, %rdi
	movq	%r13, %rsi
	cmpq	$5, %rax
	jne	Lunix_path_BB63_470
Lunix_path_BB63_469:
	movq	%rax, %rcx
	movq	%rsi, %r13
	movq	%rdi, %rbx
	movq	16(%rsp), %rax
	movq	8(%rsp), %rdx
	leaq	(%rax,%rdx), %r11
	movq	%r8, %rbp
	jmp	Lunix_path_BB63_58
Lunix_path_BB63_363:
	movb	$1, %al
	movq	%r15, %rcx
	subq	%r14, %rcx
	ja	Lunix_path_BB63_338
	jmp	Lunix_path_BB63_364
Lunix_path_BB63_459:
	movb	$1, %r10b
	jmp	Lunix_path_BB63_365
Lunix_path_BB63_460:
	xorl	%ebx, %ebx
	movzbl	(%r15), %eax
	movb	$1, %bpl
	cmpl	$47, %eax
	jne	Lunix_path_BB63_246
	jmp	Lunix_path_BB63_250
Lunix_path_BB63_470:
	movzbl	5(%r12), %edx
	movl	$5, %ecx
	movq	16(%rsp), %r9
	movq	8(%rsp), %r10
	leaq	(%r9,%r10), %r11
	cmpb	5(%r11), %dl
	movq	%rsi, %r13
	movq	%rdi, %rbx
	movq	%r8, %rbp
	jne	Lunix_path_BB63_58
	cmpq	$6, %rax
	je	Lunix_path_BB63_469
	movzbl	6(%r12), %ecx
	movq	16(%rsp), %rdx
	movq	8(%rsp), %r9
	leaq	(%rdx,%r9), %r11
	cmpb	6(%r11), %cl
	movl	$6, %ecx
	cmoveq	%rax, %rcx
	movq	%rsi, %r13
	movq	%rdi, %rbx
	movq	%r8, %rbp
	jmp	Lunix_path_BB63_58
	.p2align	2
	.data_region jt32
Lunix_path_63_0_set_220 = Lunix_path_BB63_220-Lunix_path_JTI63_0
Lunix_path_63_0_set_223 = Lunix_path_BB63_223-Lunix_path_JTI63_0
Lunix_path_63_0_set_221 = Lunix_path_BB63_221-Lunix_path_JTI63_0
Lunix_path_63_0_set_222 = Lunix_path_BB63_222-Lunix_path_JTI63_0
Lunix_path_JTI63_0:
	.long	Lunix_path_63_0_set_220
	.long	Lunix_path_63_0_set_223
	.long	Lunix_path_63_0_set_221
	.long	Lunix_path_63_0_set_222
Lunix_path_63_1_set_227 = Lunix_path_BB63_227-Lunix_path_JTI63_1
Lunix_path_63_1_set_224 = Lunix_path_BB63_224-Lunix_path_JTI63_1
Lunix_path_63_1_set_225 = Lunix_path_BB63_225-Lunix_path_JTI63_1
Lunix_path_63_1_set_226 = Lunix_path_BB63_226-Lunix_path_JTI63_1
Lunix_path_JTI63_1:
	.long	Lunix_path_63_1_set_227
	.long	Lunix_path_63_1_set_224
	.long	Lunix_path_63_1_set_225
	.long	Lunix_path_63_1_set_226
	.end_data_region
	.section	__TEXT,__literal16,16byte_literals
	.p2align	4, 0x0
Lunix_path_CPI64_0:
	.space	16,47
	.section	__TEXT,__text,regular,pure_instructions
	.globl	_unix_path_request_is_root
	.p2align	4
_unix_path_request_is_root:
	pushq	%r15
	pushq	%r14
	pushq	%r12
	pushq	%rbx
	pushq	%rax
	movq	%rdi, %r14
	xorl	%r12d, %r12d
	testq	%rdi, %rdi
	sete	%r12b
	shll	$12, %r12d
	leaq	(%rdi,%r12), %rbx
	testq	%rsi, %rsi
	je	Lunix_path_BB64_12
	movq	%rsi, %r15
	movzbl	-1(%rbx,%rsi), %eax
	andb	$-2, %al
	cmpb	$46, %al
	jne	Lunix_path_BB64_2
	movq	%r15, %rdx
	movq	%r15, %rax
	jmp	Lunix_path_BB64_4
	.p2align	4
Lunix_path_BB64_11:
	movq	%rax, %rdx
	testq	%rax, %rax
	je	Lunix_path_BB64_12
Lunix_path_BB64_4:
	decq	%rax
	je	Lunix_path_BB64_5
	movzbl	(%rbx,%rax), %ecx
	cmpl	$47, %ecx
	je	Lunix_path_BB64_9
	cmpl	$46, %ecx
	jne	Lunix_path_BB64_13
	cmpb	$47, -1(%rbx,%rax)
	jne	Lunix_path_BB64_13
Lunix_path_BB64_9:
	movq	%r15, %rcx
	subq	%rax, %rcx
	cmpq	$8, %rcx
	jne	Lunix_path_BB64_11
	movq	%rbx, %rdi
	movq	%rax, %rsi
	callq	_unix_path.filler.trimmed_blocks_len
	jmp	Lunix_path_BB64_11
Lunix_path_BB64_12:
	xorl	%edx, %edx
	jmp	Lunix_path_BB64_13
Lunix_path_BB64_2:
	movq	%r15, %rdx
	jmp	Lunix_path_BB64_13
Lunix_path_BB64_5:
	movl	$1, %edx
Lunix_path_BB64_13:
	leaq	(%r12,%r14), %rax
	addq	$-16, %rax
	xorl	%ecx, %ecx
	jmp	Lunix_path_BB64_14
Lunix_path_BB64_29:
	incq	%rcx
	.p2align	4
Lunix_path_BB64_31:
	testq	%rsi, %rsi
	je	Lunix_path_BB64_32
Lunix_path_BB64_14:
	movq	%rdx, %rdi
	incq	%rdx
	movq	%rdi, %rsi
	.p2align	4
Lunix_path_BB64_15:
	cmpq	$15, %rsi
	jbe	Lunix_path_BB64_18
	movdqu	(%rax,%rsi), %xmm0
	pcmpeqb	Lunix_path_CPI64_0(%rip), %xmm0
	addq	$-16, %rsi
	pmovmskb	%xmm0, %r8d
	addq	$-16, %rdx
	testl	%r8d, %r8d
	je	Lunix_path_BB64_15
	movzwl	%r8w, %edx
	bsrq	%rdx, %rdx
	xorq	$63, %rdx
	subq	%rdx, %rsi
	addq	$64, %rsi
	jmp	Lunix_path_BB64_21
	.p2align	4
Lunix_path_BB64_18:
	cmpq	$1, %rdx
	je	Lunix_path_BB64_19
	leaq	-1(%rdx), %rsi
	cmpb	$47, -2(%rbx,%rdx)
	movq	%rsi, %rdx
	jne	Lunix_path_BB64_18
	jmp	Lunix_path_BB64_21
	.p2align	4
Lunix_path_BB64_19:
	xorl	%esi, %esi
Lunix_path_BB64_21:
	cmpq	$1, %rsi
	movq	%rsi, %rdx
	adcq	$-1, %rdx
	subq	%rsi, %rdi
	je	Lunix_path_BB64_31
	cmpq	$1, %rdi
	jne	Lunix_path_BB64_26
	cmpb	$46, (%rbx,%rsi)
	je	Lunix_path_BB64_31
	jmp	Lunix_path_BB64_24
	.p2align	4
Lunix_path_BB64_26:
	cmpq	$2, %rdi
	ja	Lunix_path_BB64_24
	cmpb	$46, (%rbx,%rsi)
	jne	Lunix_path_BB64_24
	cmpb	$46, 1(%rbx,%rsi)
	je	Lunix_path_BB64_29
	.p2align	4
Lunix_path_BB64_24:
	testq	%rcx, %rcx
	je	Lunix_path_BB64_25
	decq	%rcx
	jmp	Lunix_path_BB64_31
Lunix_path_BB64_32:
	movb	$1, %al
	jmp	Lunix_path_BB64_33
Lunix_path_BB64_25:
	xorl	%eax, %eax
Lunix_path_BB64_33:
	addq	$8, %rsp
	popq	%rbx
	popq	%r12
	popq	%r14
	popq	%r15
	retq
	.section	__TEXT,__literal16,16byte_literals
	.p2align	4, 0x0
Lunix_path_CPI65_0:
	.space	16,208
Lunix_path_CPI65_1:
	.space	16,47
Lunix_path_CPI65_2:
	.space	16,46
Lunix_path_CPI65_3:
	.byte	254
	.byte	254
	.byte	254
	.byte	254
	.byte	254
	.byte	254
	.byte	254
	.byte	254
	.space	1
	.space	1
	.space	1
	.space	1
	.space	1
	.space	1
	.space	1
	.space	1
Lunix_path_CPI65_4:
	.byte	46
	.byte	46
	.byte	46
	.byte	46
	.byte	46
	.byte	46
	.byte	46
	.byte	46
	.space	1
	.space	1
	.space	1
	.space	1
	.space	1
	.space	1
	.space	1
	.space	1
Lunix_path_CPI65_5:
	.byte	47
	.byte	47
	.byte	47
	.byte	47
	.byte	47
	.byte	47
	.byte	47
	.byte	47
	.space	1
	.space	1
	.space	1
	.space	1
	.space	1
	.space	1
	.space	1
	.space	1
	.section	__TEXT,__text,regular,pure_instructions
	.globl	_unix_path_resolved
	.p2align	4
_unix_path_resolved:
	pushq	%rbp
	pushq	%r15
	pushq	%r14
	pushq	%r13
	pushq	%r12
	pushq	%rbx
	subq	$72, %rsp
	movq	%rcx, 40(%rsp)
	movq	%rdx, %r14
	movq	%rsi, %rbp
	movq	%rdi, %r12
	xorl	%eax, %eax
	testq	%rdi, %rdi
	sete	%al
	shll	$12, %eax
	movq	%rax, 16(%rsp)
	leaq	(%rdi,%rax), %r13
	xorl	%r15d, %r15d
	testq	%rdx, %rdx
	sete	%r15b
	shll	$12, %r15d
	leaq	(%rdx,%r15), %rbx
	testq	%rsi, %rsi
	je	Lunix_path_BB65_60
	movzbl	(%r13), %eax
	xorl	%edx, %edx
	cmpl	$47, %eax
	sete	%dl
	movq	%rbp, %rcx
	subq	%rdx, %rcx
	je	Lunix_path_BB65_50
	leaq	(%rdx,%r13), %rsi
	movzbl	(%rsi), %edi
	cmpl	$47, %edi
	je	Lunix_path_BB65_50
	cmpl	$46, %edi
	jne	Lunix_path_BB65_9
	cmpq	$2, %rcx
	jb	Lunix_path_BB65_50
	movzbl	1(%rsi), %edi
	cmpl	$47, %edi
	je	Lunix_path_BB65_50
	cmpl	$46, %edi
	jne	Lunix_path_BB65_9
	cmpq	$2, %rcx
	je	Lunix_path_BB65_50
	cmpb	$47, 2(%rsi)
	je	Lunix_path_BB65_50
Lunix_path_BB65_9:
	movzbl	-1(%r13,%rbp), %edi
	andb	$-2, %dil
	cmpb	$46, %dil
	je	Lunix_path_BB65_50
	cmpq	$17, %rcx
	jae	Lunix_path_BB65_13
Lunix_path_BB65_11:
	cmpq	$9, %rcx
	jae	Lunix_path_BB65_21
	xorl	%edi, %edi
	jmp	Lunix_path_BB65_37
Lunix_path_BB65_13:
	cmpq	$32, %rcx
	ja	Lunix_path_BB65_23
	movdqu	(%rsi), %xmm0
	movdqu	1(%rsi), %xmm1
	pand	Lunix_path_CPI65_0(%rip), %xmm1
	por	%xmm0, %xmm1
	pcmpeqb	Lunix_path_CPI65_1(%rip), %xmm1
	pmovmskb	%xmm1, %edi
	testl	%edi, %edi
	jne	Lunix_path_BB65_16
	movdqu	-17(%r13,%rbp), %xmm0
	movdqu	-16(%r13,%rbp), %xmm1
	pand	Lunix_path_CPI65_0(%rip), %xmm1
	por	%xmm0, %xmm1
	pcmpeqb	Lunix_path_CPI65_1(%rip), %xmm1
	pmovmskb	%xmm1, %edi
	testl	%edi, %edi
	je	Lunix_path_BB65_61
Lunix_path_BB65_16:
	cmpq	$18, %rcx
	jbe	Lunix_path_BB65_11
	movq	%rcx, %r8
	addq	$-19, %r8
	jne	Lunix_path_BB65_25
	xorl	%r8d, %r8d
	xorl	%edi, %edi
Lunix_path_BB65_19:
	leaq	-17(%rcx), %r9
	cmpq	%rdi, %r9
	cmovbq	%r9, %rdi
	movdqu	(%rsi,%rdi), %xmm0
	movdqu	1(%rsi,%rdi), %xmm1
	pand	Lunix_path_CPI65_0(%rip), %xmm1
	por	%xmm0, %xmm1
	pcmpeqb	Lunix_path_CPI65_1(%rip), %xmm1
	pmovmskb	%xmm1, %r9d
	testl	%r9d, %r9d
	je	Lunix_path_BB65_36
	movdqu	(%rsi,%r8), %xmm0
	movdqu	1(%rsi,%r8), %xmm1
	movdqu	2(%rsi,%r8), %xmm2
	movdqu	3(%rsi,%r8), %xmm3
	movdqa	Lunix_path_CPI65_2(%rip), %xmm4
	movdqa	%xmm2, %xmm5
	pcmpeqb	%xmm4, %xmm5
	movdqa	Lunix_path_CPI65_1(%rip), %xmm6
	pcmpeqb	%xmm6, %xmm3
	pand	%xmm5, %xmm3
	pcmpeqb	%xmm1, %xmm4
	pcmpeqb	%xmm6, %xmm2
	por	%xmm3, %xmm2
	pand	%xmm4, %xmm2
	pcmpeqb	%xmm6, %xmm0
	pcmpeqb	%xmm6, %xmm1
	por	%xmm2, %xmm1
	pand	%xmm0, %xmm1
	pmovmskb	%xmm1, %esi
	orl	$65536, %esi
	rep		bsfl	%esi, %edi
	addq	%r8, %rdi
	jmp	Lunix_path_BB65_37
Lunix_path_BB65_21:
	movq	1(%rsi), %xmm0
	pand	Lunix_path_CPI65_3(%rip), %xmm0
	pcmpeqb	Lunix_path_CPI65_4(%rip), %xmm0
	movq	(%rsi), %xmm1
	pcmpeqb	Lunix_path_CPI65_5(%rip), %xmm1
	pand	%xmm0, %xmm1
	pmovmskb	%xmm1, %edi
	orl	$256, %edi
	rep		bsfl	%edi, %edi
	cmpb	$8, %dil
	jb	Lunix_path_BB65_37
	cmpq	$17, %rcx
	movl	$17, %edi
	cmovbq	%rcx, %rdi
	movq	-8(%rsi,%rdi), %xmm0
	pand	Lunix_path_CPI65_3(%rip), %xmm0
	pcmpeqb	Lunix_path_CPI65_4(%rip), %xmm0
	movq	-9(%rsi,%rdi), %xmm1
	pcmpeqb	Lunix_path_CPI65_5(%rip), %xmm1
	pand	%xmm0, %xmm1
	pmovmskb	%xmm1, %esi
	orl	$256, %esi
	rep		bsfl	%esi, %esi
	addq	%rsi, %rdi
	addq	$-9, %rdi
	jmp	Lunix_path_BB65_37
Lunix_path_BB65_23:
	movdqu	-33(%rsi,%rcx), %xmm1
	movdqu	-32(%rsi,%rcx), %xmm2
	movdqa	Lunix_path_CPI65_0(%rip), %xmm0
	pand	%xmm0, %xmm2
	por	%xmm1, %xmm2
	movdqa	Lunix_path_CPI65_1(%rip), %xmm1
	pcmpeqb	%xmm1, %xmm2
	movdqu	-17(%r13,%rbp), %xmm3
	movdqu	-16(%r13,%rbp), %xmm4
	pand	%xmm0, %xmm4
	por	%xmm3, %xmm4
	pcmpeqb	%xmm1, %xmm4
	por	%xmm2, %xmm4
	pmovmskb	%xmm4, %edi
	testl	%edi, %edi
	je	Lunix_path_BB65_32
	leaq	-19(%rcx), %r8
Lunix_path_BB65_25:
	xorl	%edi, %edi
	jmp	Lunix_path_BB65_27
	.p2align	4
Lunix_path_BB65_26:
	cmpq	%r8, %rdi
	jae	Lunix_path_BB65_19
Lunix_path_BB65_27:
	movdqu	(%rsi,%rdi), %xmm0
	movdqu	1(%rsi,%rdi), %xmm1
	movdqa	Lunix_path_CPI65_0(%rip), %xmm2
	pand	%xmm1, %xmm2
	por	%xmm0, %xmm2
	pcmpeqb	Lunix_path_CPI65_1(%rip), %xmm2
	pmovmskb	%xmm2, %r9d
	testl	%r9d, %r9d
	je	Lunix_path_BB65_30
	movdqu	2(%rsi,%rdi), %xmm2
	movdqu	3(%rsi,%rdi), %xmm3
	movdqa	Lunix_path_CPI65_2(%rip), %xmm4
	movdqa	%xmm2, %xmm5
	pcmpeqb	%xmm4, %xmm5
	movdqa	Lunix_path_CPI65_1(%rip), %xmm6
	pcmpeqb	%xmm6, %xmm3
	pand	%xmm5, %xmm3
	pcmpeqb	%xmm1, %xmm4
	pcmpeqb	%xmm6, %xmm2
	por	%xmm3, %xmm2
	pand	%xmm4, %xmm2
	pcmpeqb	%xmm6, %xmm0
	pcmpeqb	%xmm6, %xmm1
	por	%xmm2, %xmm1
	pand	%xmm0, %xmm1
	pmovmskb	%xmm1, %r9d
	orl	$65536, %r9d
	rep		bsfl	%r9d, %r9d
	cmpw	$15, %r9w
	jbe	Lunix_path_BB65_31
	addq	$16, %rdi
	jmp	Lunix_path_BB65_26
Lunix_path_BB65_30:
	addq	$16, %rdi
	cmpq	%r8, %rdi
	jb	Lunix_path_BB65_27
	jmp	Lunix_path_BB65_26
Lunix_path_BB65_31:
	movzwl	%r9w, %esi
	addq	%rsi, %rdi
	jmp	Lunix_path_BB65_37
Lunix_path_BB65_32:
	movq	%rcx, %rdi
	addq	$-33, %rdi
	je	Lunix_path_BB65_61
	movq	16(%rsp), %r8
	addq	%rdx, %r8
	addq	%r12, %r8
	addq	$17, %r8
	xorl	%r9d, %r9d
Lunix_path_BB65_34:
	movdqu	-17(%r8,%r9), %xmm2
	movdqu	-16(%r8,%r9), %xmm3
	movdqu	-1(%r8,%r9), %xmm4
	movdqu	(%r8,%r9), %xmm5
	pand	%xmm0, %xmm3
	por	%xmm2, %xmm3
	pcmpeqb	%xmm1, %xmm3
	pand	%xmm0, %xmm5
	por	%xmm4, %xmm5
	pcmpeqb	%xmm1, %xmm5
	por	%xmm3, %xmm5
	pmovmskb	%xmm5, %r10d
	testl	%r10d, %r10d
	jne	Lunix_path_BB65_16
	addq	$32, %r9
	cmpq	%rdi, %r9
	jb	Lunix_path_BB65_34
	jmp	Lunix_path_BB65_61
Lunix_path_BB65_36:
	addq	$16, %rdi
Lunix_path_BB65_37:
	cmpq	%rcx, %rdi
	jae	Lunix_path_BB65_48
	addq	16(%rsp), %rdx
	leaq	(%r12,%rdx), %rsi
	addq	$3, %rsi
	jmp	Lunix_path_BB65_41
Lunix_path_BB65_39:
	cmpl	$47, %r8d
	je	Lunix_path_BB65_49
Lunix_path_BB65_40:
	cmpq	%rcx, %rdi
	jae	Lunix_path_BB65_61
Lunix_path_BB65_41:
	movq	%rdi, %rdx
	incq	%rdi
	cmpb	$47, -3(%rsi,%rdx)
	jne	Lunix_path_BB65_40
	cmpq	%rdi, %rcx
	jbe	Lunix_path_BB65_49
	movzbl	-2(%rsi,%rdx), %r8d
	cmpl	$46, %r8d
	jne	Lunix_path_BB65_39
	leaq	2(%rdx), %r8
	cmpq	%r8, %rcx
	jbe	Lunix_path_BB65_49
	movzbl	-1(%rsi,%rdx), %r8d
	cmpl	$46, %r8d
	jne	Lunix_path_BB65_39
	leaq	3(%rdx), %r8
	cmpq	%r8, %rcx
	jbe	Lunix_path_BB65_49
	cmpb	$47, (%rsi,%rdx)
	jne	Lunix_path_BB65_40
	jmp	Lunix_path_BB65_49
Lunix_path_BB65_48:
	movq	%rdi, %rdx
Lunix_path_BB65_49:
	cmpq	%rcx, %rdx
	je	Lunix_path_BB65_61
Lunix_path_BB65_50:
	cmpl	$47, %eax
	je	Lunix_path_BB65_60
	cmpl	$46, %eax
	jne	Lunix_path_BB65_57
	cmpq	$1, %rbp
	je	Lunix_path_BB65_60
	movzbl	1(%r13), %eax
	cmpl	$47, %eax
	je	Lunix_path_BB65_60
	cmpl	$46, %eax
	jne	Lunix_path_BB65_57
	cmpq	$3, %rbp
	jb	Lunix_path_BB65_60
	cmpb	$47, 2(%r13)
	je	Lunix_path_BB65_60
Lunix_path_BB65_57:
	cmpb	$46, -1(%r13,%rbp)
	jne	Lunix_path_BB65_65
	cmpq	$1, %rbp
	je	Lunix_path_BB65_60
	cmpb	$47, -2(%r13,%rbp)
	je	Lunix_path_BB65_65
Lunix_path_BB65_60:
	movq	%r13, %rdi
	movq	%rbp, %rsi
	callq	_path_within.normal.is_resolved
	testb	%al, %al
	je	Lunix_path_BB65_65
Lunix_path_BB65_61:
	cmpq	40(%rsp), %rbp
	ja	Lunix_path_BB65_125
	movq	%rbx, %rax
	subq	%r13, %rax
	cmpq	%rbp, %rax
	jae	Lunix_path_BB65_97
	cmpq	$4, %rbp
	jb	Lunix_path_BB65_64
	cmpq	$32, %rax
	jae	Lunix_path_BB65_101
Lunix_path_BB65_64:
	xorl	%eax, %eax
Lunix_path_BB65_119:
	movq	%rbp, %rdx
	movq	%rax, %rcx
	andq	$3, %rdx
	je	Lunix_path_BB65_122
	movq	%rax, %rcx
	.p2align	4
Lunix_path_BB65_121:
	movzbl	(%r13,%rcx), %esi
	movb	%sil, (%rbx,%rcx)
	incq	%rcx
	decq	%rdx
	jne	Lunix_path_BB65_121
Lunix_path_BB65_122:
	subq	%rbp, %rax
	cmpq	$-4, %rax
	ja	Lunix_path_BB65_125
	movq	16(%rsp), %rax
	addq	%r12, %rax
	addq	$3, %rax
	leaq	(%r15,%r14), %rdx
	addq	$3, %rdx
	.p2align	4
Lunix_path_BB65_124:
	movzbl	-3(%rax,%rcx), %esi
	movb	%sil, -3(%rdx,%rcx)
	movzbl	-2(%rax,%rcx), %esi
	movb	%sil, -2(%rdx,%rcx)
	movzbl	-1(%rax,%rcx), %esi
	movb	%sil, -1(%rdx,%rcx)
	movzbl	(%rax,%rcx), %esi
	movb	%sil, (%rdx,%rcx)
	addq	$4, %rcx
	cmpq	%rcx, %rbp
	jne	Lunix_path_BB65_124
	jmp	Lunix_path_BB65_125
Lunix_path_BB65_65:
	movq	%r15, 32(%rsp)
	pxor	%xmm0, %xmm0
	movdqa	%xmm0, 48(%rsp)
	movq	$0, 64(%rsp)
	testq	%rbp, %rbp
	movq	%r12, 8(%rsp)
	je	Lunix_path_BB65_75
	cmpb	$47, (%r13)
	sete	%r15b
	movzbl	-1(%r13,%rbp), %eax
	andb	$-2, %al
	movq	%rbp, %r12
	cmpb	$46, %al
	jne	Lunix_path_BB65_77
	movq	%rbp, %rax
	jmp	Lunix_path_BB65_69
	.p2align	4
Lunix_path_BB65_68:
	movq	%rax, %r12
	testq	%rax, %rax
	je	Lunix_path_BB65_76
Lunix_path_BB65_69:
	decq	%rax
	je	Lunix_path_BB65_98
	movzbl	(%r13,%rax), %ecx
	cmpl	$47, %ecx
	je	Lunix_path_BB65_73
	cmpl	$46, %ecx
	jne	Lunix_path_BB65_77
	cmpb	$47, -1(%r13,%rax)
	jne	Lunix_path_BB65_77
Lunix_path_BB65_73:
	movq	%rbp, %rcx
	subq	%rax, %rcx
	cmpq	$8, %rcx
	jne	Lunix_path_BB65_68
	movq	%r13, %rdi
	movq	%rax, %rsi
	callq	_unix_path.filler.trimmed_blocks_len
	jmp	Lunix_path_BB65_68
Lunix_path_BB65_75:
	xorl	%r15d, %r15d
Lunix_path_BB65_76:
	xorl	%r12d, %r12d
Lunix_path_BB65_77:
	xorl	%edx, %edx
	jmp	Lunix_path_BB65_79
	.p2align	4
Lunix_path_BB65_78:
	addq	%rax, %rdx
	cmpq	$4, %rdx
	jae	Lunix_path_BB65_103
Lunix_path_BB65_79:
	movq	%rdx, %rax
	cmpq	%r12, %rdx
	jae	Lunix_path_BB65_84
	movzbl	(%r13,%rax), %ecx
	movl	$1, %edx
	cmpl	$47, %ecx
	je	Lunix_path_BB65_78
	cmpl	$46, %ecx
	jne	Lunix_path_BB65_84
	leaq	1(%rax), %rcx
	cmpq	%r12, %rcx
	je	Lunix_path_BB65_78
	movl	$2, %edx
	cmpb	$47, (%r13,%rcx)
	je	Lunix_path_BB65_78
Lunix_path_BB65_84:
	movq	%r12, %rdx
	subq	%rax, %rdx
	je	Lunix_path_BB65_159
Lunix_path_BB65_85:
	leaq	(%rax,%r13), %rsi
	xorl	%edi, %edi
	cmpb	$47, (%rsi)
	sete	%dil
	movq	%rdx, %rcx
	subq	%rdi, %rcx
	je	Lunix_path_BB65_159
	leaq	(%rsi,%rdi), %r8
	movzbl	(%r8), %r9d
	cmpl	$47, %r9d
	je	Lunix_path_BB65_159
	cmpl	$46, %r9d
	jne	Lunix_path_BB65_93
	cmpq	$2, %rcx
	jb	Lunix_path_BB65_159
	movzbl	1(%r8), %r9d
	cmpl	$47, %r9d
	je	Lunix_path_BB65_159
	cmpl	$46, %r9d
	jne	Lunix_path_BB65_93
	cmpq	$2, %rcx
	je	Lunix_path_BB65_159
	cmpb	$47, 2(%r8)
	je	Lunix_path_BB65_159
Lunix_path_BB65_93:
	movzbl	-1(%r13,%r12), %r9d
	andb	$-2, %r9b
	cmpb	$46, %r9b
	je	Lunix_path_BB65_159
	cmpq	$17, %rcx
	movq	%r14, 24(%rsp)
	jae	Lunix_path_BB65_104
Lunix_path_BB65_95:
	cmpq	$9, %rcx
	jae	Lunix_path_BB65_126
	xorl	%r9d, %r9d
	jmp	Lunix_path_BB65_142
Lunix_path_BB65_97:
	movq	%rbx, %rdi
	movq	%r13, %rsi
	movq	%rbp, %rdx
	callq	_memmove
Lunix_path_BB65_125:
	movq	%rbp, %rdx
	jmp	Lunix_path_BB65_213
Lunix_path_BB65_98:
	movl	$1, %r12d
	jmp	Lunix_path_BB65_77
Lunix_path_BB65_101:
	cmpq	$32, %rbp
	jae	Lunix_path_BB65_112
	xorl	%eax, %eax
	jmp	Lunix_path_BB65_116
Lunix_path_BB65_103:
	movq	%r13, %rdi
	movq	%r12, %rsi
	callq	_unix_path.filler.filler_end_from
	movq	%r12, %rdx
	subq	%rax, %rdx
	jne	Lunix_path_BB65_85
	jmp	Lunix_path_BB65_159
Lunix_path_BB65_104:
	cmpq	$32, %rcx
	ja	Lunix_path_BB65_128
	movdqu	(%r8), %xmm0
	movdqu	1(%r8), %xmm1
	pand	Lunix_path_CPI65_0(%rip), %xmm1
	por	%xmm0, %xmm1
	pcmpeqb	Lunix_path_CPI65_1(%rip), %xmm1
	pmovmskb	%xmm1, %r9d
	testl	%r9d, %r9d
	jne	Lunix_path_BB65_107
	movdqu	-17(%r13,%r12), %xmm0
	movdqu	-16(%r13,%r12), %xmm1
	pand	Lunix_path_CPI65_0(%rip), %xmm1
	por	%xmm0, %xmm1
	pcmpeqb	Lunix_path_CPI65_1(%rip), %xmm1
	pmovmskb	%xmm1, %r9d
	testl	%r9d, %r9d
	je	Lunix_path_BB65_156
Lunix_path_BB65_107:
	cmpq	$18, %rcx
	jbe	Lunix_path_BB65_95
	movq	%rcx, %r10
	addq	$-19, %r10
	jne	Lunix_path_BB65_130
	xorl	%r10d, %r10d
	xorl	%r9d, %r9d
Lunix_path_BB65_110:
	leaq	-17(%rcx), %r11
	cmpq	%r9, %r11
	cmovbq	%r11, %r9
	movdqu	(%r8,%r9), %xmm0
	movdqu	1(%r8,%r9), %xmm1
	pand	Lunix_path_CPI65_0(%rip), %xmm1
	por	%xmm0, %xmm1
	pcmpeqb	Lunix_path_CPI65_1(%rip), %xmm1
	pmovmskb	%xmm1, %r11d
	testl	%r11d, %r11d
	je	Lunix_path_BB65_141
	movdqu	(%r8,%r10), %xmm0
	movdqu	1(%r8,%r10), %xmm1
	movdqu	2(%r8,%r10), %xmm2
	movdqu	3(%r8,%r10), %xmm3
	movdqa	Lunix_path_CPI65_2(%rip), %xmm4
	movdqa	%xmm2, %xmm5
	pcmpeqb	%xmm4, %xmm5
	movdqa	Lunix_path_CPI65_1(%rip), %xmm6
	pcmpeqb	%xmm6, %xmm3
	pand	%xmm5, %xmm3
	pcmpeqb	%xmm1, %xmm4
	pcmpeqb	%xmm6, %xmm2
	por	%xmm3, %xmm2
	pand	%xmm4, %xmm2
	pcmpeqb	%xmm6, %xmm0
	pcmpeqb	%xmm6, %xmm1
	por	%xmm2, %xmm1
	pand	%xmm0, %xmm1
	pmovmskb	%xmm1, %r8d
	orl	$65536, %r8d
	rep		bsfl	%r8d, %r9d
	addq	%r10, %r9
	jmp	Lunix_path_BB65_142
Lunix_path_BB65_112:
	movq	%rbp, %rax
	andq	$-32, %rax
	movq	16(%rsp), %rcx
	addq	%r12, %rcx
	addq	$16, %rcx
	leaq	(%r15,%r14), %rdx
	addq	$16, %rdx
	xorl	%esi, %esi
	.p2align	4
Lunix_path_BB65_113:
	movdqu	-16(%rcx,%rsi), %xmm0
	movdqu	(%rcx,%rsi), %xmm1
	movdqu	%xmm0, -16(%rdx,%rsi)
	movdqu	%xmm1, (%rdx,%rsi)
	addq	$32, %rsi
	cmpq	%rsi, %rax
	jne	Lunix_path_BB65_113
	cmpq	%rax, %rbp
	je	Lunix_path_BB65_125
	testb	$28, %bpl
	je	Lunix_path_BB65_119
Lunix_path_BB65_116:
	movq	%rax, %rcx
	movq	%rbp, %rax
	andq	$-4, %rax
	.p2align	4
Lunix_path_BB65_117:
	movl	(%r13,%rcx), %edx
	movl	%edx, (%rbx,%rcx)
	addq	$4, %rcx
	cmpq	%rcx, %rax
	jne	Lunix_path_BB65_117
	cmpq	%rax, %rbp
	je	Lunix_path_BB65_125
	jmp	Lunix_path_BB65_119
Lunix_path_BB65_126:
	movq	1(%r8), %xmm0
	pand	Lunix_path_CPI65_3(%rip), %xmm0
	pcmpeqb	Lunix_path_CPI65_4(%rip), %xmm0
	movq	(%r8), %xmm1
	pcmpeqb	Lunix_path_CPI65_5(%rip), %xmm1
	pand	%xmm0, %xmm1
	pmovmskb	%xmm1, %r9d
	orl	$256, %r9d
	rep		bsfl	%r9d, %r9d
	cmpb	$8, %r9b
	jb	Lunix_path_BB65_142
	cmpq	$17, %rcx
	movl	$17, %r9d
	cmovbq	%rcx, %r9
	movq	-8(%r8,%r9), %xmm0
	pand	Lunix_path_CPI65_3(%rip), %xmm0
	pcmpeqb	Lunix_path_CPI65_4(%rip), %xmm0
	movq	-9(%r8,%r9), %xmm1
	pcmpeqb	Lunix_path_CPI65_5(%rip), %xmm1
	pand	%xmm0, %xmm1
	pmovmskb	%xmm1, %r8d
	orl	$256, %r8d
	rep		bsfl	%r8d, %r8d
	addq	%r8, %r9
	addq	$-9, %r9
	jmp	Lunix_path_BB65_142
Lunix_path_BB65_128:
	movdqu	-33(%r8,%rcx), %xmm1
	movdqu	-32(%r8,%rcx), %xmm2
	movdqa	Lunix_path_CPI65_0(%rip), %xmm0
	pand	%xmm0, %xmm2
	por	%xmm1, %xmm2
	movdqa	Lunix_path_CPI65_1(%rip), %xmm1
	pcmpeqb	%xmm1, %xmm2
	movdqu	-17(%r13,%r12), %xmm3
	movdqu	-16(%r13,%r12), %xmm4
	pand	%xmm0, %xmm4
	por	%xmm3, %xmm4
	pcmpeqb	%xmm1, %xmm4
	por	%xmm2, %xmm4
	pmovmskb	%xmm4, %r9d
	testl	%r9d, %r9d
	je	Lunix_path_BB65_137
	leaq	-19(%rcx), %r10
Lunix_path_BB65_130:
	xorl	%r9d, %r9d
	jmp	Lunix_path_BB65_134
Lunix_path_BB65_131:
	movdqu	2(%r8,%r9), %xmm2
	movdqu	3(%r8,%r9), %xmm3
	movdqa	Lunix_path_CPI65_2(%rip), %xmm4
	movdqa	%xmm2, %xmm5
	pcmpeqb	%xmm4, %xmm5
	movdqa	Lunix_path_CPI65_1(%rip), %xmm6
	pcmpeqb	%xmm6, %xmm3
	pand	%xmm5, %xmm3
	pcmpeqb	%xmm1, %xmm4
	pcmpeqb	%xmm6, %xmm2
	por	%xmm3, %xmm2
	pand	%xmm4, %xmm2
	pcmpeqb	%xmm6, %xmm0
	pcmpeqb	%xmm6, %xmm1
	por	%xmm2, %xmm1
	pand	%xmm0, %xmm1
	pmovmskb	%xmm1, %r11d
	orl	$65536, %r11d
	rep		bsfl	%r11d, %r11d
	cmpw	$15, %r11w
	jbe	Lunix_path_BB65_136
	addq	$16, %r9
Lunix_path_BB65_133:
	cmpq	%r10, %r9
	jae	Lunix_path_BB65_110
Lunix_path_BB65_134:
	movdqu	(%r8,%r9), %xmm0
	movdqu	1(%r8,%r9), %xmm1
	movdqa	Lunix_path_CPI65_0(%rip), %xmm2
	pand	%xmm1, %xmm2
	por	%xmm0, %xmm2
	pcmpeqb	Lunix_path_CPI65_1(%rip), %xmm2
	pmovmskb	%xmm2, %r11d
	testl	%r11d, %r11d
	jne	Lunix_path_BB65_131
	addq	$16, %r9
	cmpq	%r10, %r9
	jb	Lunix_path_BB65_134
	jmp	Lunix_path_BB65_133
Lunix_path_BB65_136:
	movzwl	%r11w, %r8d
	addq	%r8, %r9
	jmp	Lunix_path_BB65_142
Lunix_path_BB65_137:
	movq	%rcx, %r9
	addq	$-33, %r9
	je	Lunix_path_BB65_156
	movq	16(%rsp), %r10
	addq	%rax, %r10
	addq	%rdi, %r10
	movq	8(%rsp), %r11
	addq	%r11, %r10
	addq	$17, %r10
	xorl	%r11d, %r11d
Lunix_path_BB65_139:
	movdqu	-17(%r10,%r11), %xmm2
	movdqu	-16(%r10,%r11), %xmm3
	movdqu	-1(%r10,%r11), %xmm4
	movdqu	(%r10,%r11), %xmm5
	pand	%xmm0, %xmm3
	por	%xmm2, %xmm3
	pcmpeqb	%xmm1, %xmm3
	pand	%xmm0, %xmm5
	por	%xmm4, %xmm5
	pcmpeqb	%xmm1, %xmm5
	por	%xmm3, %xmm5
	pmovmskb	%xmm5, %r14d
	testl	%r14d, %r14d
	movq	24(%rsp), %r14
	jne	Lunix_path_BB65_107
	addq	$32, %r11
	cmpq	%r9, %r11
	jb	Lunix_path_BB65_139
	jmp	Lunix_path_BB65_156
Lunix_path_BB65_141:
	addq	$16, %r9
Lunix_path_BB65_142:
	cmpq	%rcx, %r9
	jae	Lunix_path_BB65_153
	leaq	(%rax,%rdi), %r8
	negq	%rdi
	addq	%rdx, %rdi
	movq	16(%rsp), %r10
	addq	%r9, %r10
	addq	%r10, %r8
	movq	8(%rsp), %r10
	addq	%r8, %r10
	addq	$3, %r10
	jmp	Lunix_path_BB65_146
Lunix_path_BB65_144:
	cmpl	$47, %r11d
	je	Lunix_path_BB65_155
Lunix_path_BB65_145:
	incq	%r10
	cmpq	%rcx, %r9
	jae	Lunix_path_BB65_154
Lunix_path_BB65_146:
	movq	%r9, %r8
	incq	%r9
	cmpb	$47, -3(%r10)
	jne	Lunix_path_BB65_145
	cmpq	%r9, %rcx
	jbe	Lunix_path_BB65_155
	movzbl	-2(%r10), %r11d
	cmpl	$46, %r11d
	jne	Lunix_path_BB65_144
	leaq	2(%r8), %r11
	cmpq	%r11, %rcx
	jbe	Lunix_path_BB65_155
	movzbl	-1(%r10), %r11d
	cmpl	$46, %r11d
	jne	Lunix_path_BB65_144
	leaq	3(%r8), %r11
	cmpq	%r11, %rcx
	jbe	Lunix_path_BB65_155
	cmpb	$47, (%r10)
	jne	Lunix_path_BB65_145
	jmp	Lunix_path_BB65_155
Lunix_path_BB65_153:
	movq	%r9, %r8
	jmp	Lunix_path_BB65_155
Lunix_path_BB65_154:
	movq	%rdi, %r8
Lunix_path_BB65_155:
	cmpq	%rcx, %r8
	jne	Lunix_path_BB65_159
Lunix_path_BB65_156:
	leaq	1(%rdx), %rcx
	testb	%r15b, %r15b
	je	Lunix_path_BB65_187
	cmpq	$1, %rcx
	adcq	$0, %rcx
	cmpq	40(%rsp), %rcx
	jbe	Lunix_path_BB65_189
	movq	%rcx, %rdx
	jmp	Lunix_path_BB65_213
Lunix_path_BB65_159:
	leaq	48(%rsp), %rdi
	movq	%r13, %rsi
	movq	%rbp, %rdx
	callq	_path_within.backward.count_resolved
	movq	56(%rsp), %r8
	movq	64(%rsp), %rsi
	testb	%r15b, %r15b
	je	Lunix_path_BB65_162
	cmpq	$1, %rsi
	movq	%rsi, %r12
	adcq	$0, %r12
	cmpq	40(%rsp), %r12
	ja	Lunix_path_BB65_212
	testq	%rsi, %rsi
	je	Lunix_path_BB65_179
	leaq	1(%rbx), %rdi
	movq	%r12, %rsi
	movq	%r13, %rdx
	movq	%rbp, %rcx
	callq	_path_within.backward.put_names_before
	movq	%rax, %r15
	cmpq	$3, %r15
	jae	Lunix_path_BB65_180
	jmp	Lunix_path_BB65_211
Lunix_path_BB65_162:
	movq	48(%rsp), %rax
	testq	%rax, %rax
	je	Lunix_path_BB65_167
	decq	%rax
	movabsq	$6148914691236517205, %rcx
	cmpq	%rcx, %rax
	cmovaeq	%rcx, %rax
	leaq	(%rax,%rax,2), %r14
	addq	$2, %r14
	movq	$-1, %rax
	cmovbq	%rax, %r14
	addq	%rsi, %r14
	cmovbq	%rax, %r14
	cmpq	40(%rsp), %r14
	ja	Lunix_path_BB65_164
	leaq	1(%r14), %r15
	testq	%rsi, %rsi
	movq	%r15, %rsi
	jne	Lunix_path_BB65_170
	jmp	Lunix_path_BB65_171
Lunix_path_BB65_167:
	testq	%rsi, %rsi
	je	Lunix_path_BB65_186
	leaq	-1(%rsi), %r14
	movq	%r14, %rdx
	cmpq	40(%rsp), %r14
	ja	Lunix_path_BB65_213
Lunix_path_BB65_170:
	movq	%rbx, %rdi
	movq	%r13, %rdx
	movq	%rbp, %rcx
	callq	_path_within.backward.put_names_before
	movq	%rax, %r15
Lunix_path_BB65_171:
	cmpq	$3, %r15
	jb	Lunix_path_BB65_164
Lunix_path_BB65_172:
	addq	$-3, %r15
	movabsq	$-6148914691236517205, %rcx
	movq	%r15, %rax
	mulq	%rcx
	shrq	%rdx
	incq	%rdx
	jmp	Lunix_path_BB65_174
	.p2align	4
Lunix_path_BB65_176:
	movw	$11822, (%rax)
	testq	%r15, %r15
	je	Lunix_path_BB65_173
Lunix_path_BB65_177:
	movb	$47, -1(%rbx,%r15)
Lunix_path_BB65_173:
	addq	$-3, %r15
	decq	%rdx
	je	Lunix_path_BB65_164
Lunix_path_BB65_174:
	leaq	(%rbx,%r15), %rax
	leaq	lunix_path__static.10(%rip), %rcx
	movq	%rax, %rsi
	subq	%rcx, %rsi
	cmpq	$1, %rsi
	ja	Lunix_path_BB65_176
	movw	$11822, (%rbx,%r15)
	testq	%r15, %r15
	jne	Lunix_path_BB65_177
	jmp	Lunix_path_BB65_173
Lunix_path_BB65_179:
	movq	%r12, %r15
	cmpq	$3, %r15
	jb	Lunix_path_BB65_211
Lunix_path_BB65_180:
	leaq	-3(%r15), %rax
	movabsq	$-6148914691236517205, %rcx
	mulq	%rcx
	shrq	%rdx
	movq	32(%rsp), %rax
	addq	%r14, %rax
	addq	$-2, %rax
	incq	%rdx
	jmp	Lunix_path_BB65_182
	.p2align	4
Lunix_path_BB65_185:
	movb	$47, -1(%rax,%r15)
Lunix_path_BB65_181:
	addq	$-3, %r15
	decq	%rdx
	je	Lunix_path_BB65_211
Lunix_path_BB65_182:
	leaq	(%rax,%r15), %rcx
	leaq	lunix_path__static.10(%rip), %rsi
	movq	%rcx, %rdi
	subq	%rsi, %rdi
	cmpq	$1, %rdi
	ja	Lunix_path_BB65_184
	movw	$11822, (%rax,%r15)
	cmpq	$3, %r15
	je	Lunix_path_BB65_181
	jmp	Lunix_path_BB65_185
	.p2align	4
Lunix_path_BB65_184:
	movw	$11822, (%rcx)
	cmpq	$3, %r15
	je	Lunix_path_BB65_181
	jmp	Lunix_path_BB65_185
Lunix_path_BB65_186:
	xorl	%edx, %edx
	jmp	Lunix_path_BB65_213
Lunix_path_BB65_187:
	movq	%rcx, %rbp
	testq	%rcx, %rcx
	je	Lunix_path_BB65_195
	movq	%rdx, %r14
	cmpq	40(%rsp), %rdx
	jbe	Lunix_path_BB65_196
	jmp	Lunix_path_BB65_213
Lunix_path_BB65_189:
	movq	%rdx, %r15
	notq	%r15
	movq	%rcx, %rbp
	addq	%rcx, %r15
	leaq	(%rbx,%r15), %r13
	incq	%r13
	movq	%r13, %rcx
	subq	%rsi, %rcx
	cmpq	%rdx, %rcx
	jae	Lunix_path_BB65_207
	cmpq	$4, %rdx
	jb	Lunix_path_BB65_192
	leaq	(%rbx,%rbp), %rcx
	movq	16(%rsp), %rsi
	addq	%r12, %rsi
	addq	8(%rsp), %rsi
	subq	%rsi, %rcx
	cmpq	$32, %rcx
	jae	Lunix_path_BB65_216
Lunix_path_BB65_192:
	xorl	%ecx, %ecx
	movq	8(%rsp), %r8
Lunix_path_BB65_193:
	movq	%r12, %rdx
	subq	%rcx, %rdx
	subq	%rax, %rdx
	movq	16(%rsp), %rsi
	addq	%rcx, %rsi
	addq	%rax, %r8
	addq	%rsi, %r8
	addq	32(%rsp), %rcx
	addq	%rax, %rcx
	addq	%rbp, %rcx
	subq	%r12, %rcx
	addq	%r14, %rcx
	xorl	%eax, %eax
Lunix_path_BB65_194:
	movzbl	(%r8,%rax), %esi
	movb	%sil, (%rcx,%rax)
	incq	%rax
	cmpq	%rax, %rdx
	jne	Lunix_path_BB65_194
	jmp	Lunix_path_BB65_208
Lunix_path_BB65_195:
	xorl	%r14d, %r14d
Lunix_path_BB65_196:
	movq	%r14, %r15
	subq	%rdx, %r15
	leaq	(%rbx,%r15), %r13
	movq	%r13, %rcx
	subq	%rsi, %rcx
	cmpq	%rdx, %rcx
	jae	Lunix_path_BB65_202
	movq	%r12, %rcx
	notq	%rcx
	cmpq	$4, %rdx
	jb	Lunix_path_BB65_199
	movq	%rbp, %rdi
	cmpq	$1, %rbp
	adcq	$0, %rdi
	movq	16(%rsp), %r8
	leaq	(%r8,%r12), %r8
	addq	8(%rsp), %r8
	subq	%rbx, %r8
	subq	%rdi, %r8
	cmpq	$-33, %r8
	jbe	Lunix_path_BB65_214
Lunix_path_BB65_199:
	xorl	%esi, %esi
	movq	24(%rsp), %r11
	movq	8(%rsp), %r9
Lunix_path_BB65_200:
	subq	%rsi, %r12
	subq	%rax, %r12
	movq	16(%rsp), %rdx
	addq	%rsi, %rdx
	addq	%rax, %r9
	addq	%rdx, %r9
	movq	32(%rsp), %rdx
	addq	%rsi, %rdx
	addq	%rax, %rdx
	cmpq	$1, %rbp
	adcq	$0, %rbp
	addq	%rdx, %rcx
	addq	%rbp, %rcx
	addq	%rcx, %r11
	xorl	%eax, %eax
Lunix_path_BB65_201:
	movzbl	(%r9,%rax), %ecx
	movb	%cl, (%r11,%rax)
	incq	%rax
	cmpq	%rax, %r12
	jne	Lunix_path_BB65_201
	jmp	Lunix_path_BB65_203
Lunix_path_BB65_202:
	movq	%r13, %rdi
	callq	_memmove
Lunix_path_BB65_203:
	testq	%r15, %r15
	je	Lunix_path_BB65_164
	movb	$47, -1(%r13)
	cmpq	$3, %r15
	jae	Lunix_path_BB65_172
Lunix_path_BB65_164:
	movq	%r14, %rdx
	jmp	Lunix_path_BB65_213
Lunix_path_BB65_207:
	movq	%r13, %rdi
	callq	_memmove
Lunix_path_BB65_208:
	testq	%r15, %r15
	je	Lunix_path_BB65_210
	movb	$47, -1(%r13)
	movq	%rbp, %r12
	cmpq	$3, %r15
	jae	Lunix_path_BB65_180
	jmp	Lunix_path_BB65_211
Lunix_path_BB65_210:
	movq	%rbp, %r12
Lunix_path_BB65_211:
	movb	$47, (%rbx)
Lunix_path_BB65_212:
	movq	%r12, %rdx
Lunix_path_BB65_213:
	movq	%rdx, %rax
	addq	$72, %rsp
	popq	%rbx
	popq	%r12
	popq	%r13
	popq	%r14
	popq	%r15
	popq	%rbp
	retq
Lunix_path_BB65_214:
	cmpq	$32, %rdx
	jae	Lunix_path_BB65_218
	xorl	%esi, %esi
	movq	24(%rsp), %r11
	movq	8(%rsp), %r9
	jmp	Lunix_path_BB65_222
Lunix_path_BB65_216:
	cmpq	$32, %rdx
	jae	Lunix_path_BB65_225
	xorl	%ecx, %ecx
	movq	8(%rsp), %r8
	jmp	Lunix_path_BB65_229
Lunix_path_BB65_218:
	movq	%rdx, %rsi
	andq	$-32, %rsi
	movq	16(%rsp), %r8
	addq	%rax, %r8
	movq	8(%rsp), %r9
	addq	%r9, %r8
	addq	$16, %r8
	movq	32(%rsp), %r9
	addq	%rax, %r9
	addq	%r9, %rdi
	subq	%r12, %rdi
	movq	24(%rsp), %r9
	addq	%r9, %rdi
	addq	$15, %rdi
	xorl	%r9d, %r9d
Lunix_path_BB65_219:
	movdqu	-16(%r8,%r9), %xmm0
	movdqu	(%r8,%r9), %xmm1
	movdqu	%xmm0, -16(%rdi,%r9)
	movdqu	%xmm1, (%rdi,%r9)
	addq	$32, %r9
	cmpq	%r9, %rsi
	jne	Lunix_path_BB65_219
	cmpq	%rsi, %rdx
	movq	24(%rsp), %r11
	movq	8(%rsp), %r9
	je	Lunix_path_BB65_203
	testb	$28, %dl
	je	Lunix_path_BB65_200
Lunix_path_BB65_222:
	movq	%rsi, %r10
	movq	%rdx, %rsi
	andq	$-4, %rsi
	movq	%rsi, %rdi
	subq	%r10, %rdi
	movq	16(%rsp), %r8
	addq	%rax, %r8
	addq	%r10, %r9
	addq	%r9, %r8
	movq	32(%rsp), %r9
	addq	%rax, %r9
	addq	%r10, %r9
	movq	%rbp, %r10
	cmpq	$1, %rbp
	adcq	$0, %r10
	addq	%rcx, %r9
	addq	%r10, %r9
	addq	%r11, %r9
	xorl	%r10d, %r10d
Lunix_path_BB65_223:
	movl	(%r8,%r10), %r11d
	movl	%r11d, (%r9,%r10)
	addq	$4, %r10
	cmpq	%r10, %rdi
	jne	Lunix_path_BB65_223
	cmpq	%rsi, %rdx
	movq	24(%rsp), %r11
	movq	8(%rsp), %r9
	jne	Lunix_path_BB65_200
	jmp	Lunix_path_BB65_203
Lunix_path_BB65_225:
	movq	%rdx, %rcx
	andq	$-32, %rcx
	movq	16(%rsp), %rsi
	addq	%rax, %rsi
	movq	8(%rsp), %rdi
	addq	%rdi, %rsi
	addq	$16, %rsi
	movq	32(%rsp), %rdi
	addq	%rax, %rdi
	addq	%rbp, %rdi
	subq	%r12, %rdi
	addq	%r14, %rdi
	addq	$16, %rdi
	xorl	%r8d, %r8d
Lunix_path_BB65_226:
	movdqu	-16(%rsi,%r8), %xmm0
	movdqu	(%rsi,%r8), %xmm1
	movdqu	%xmm0, -16(%rdi,%r8)
	movdqu	%xmm1, (%rdi,%r8)
	addq	$32, %r8
	cmpq	%r8, %rcx
	jne	Lunix_path_BB65_226
	cmpq	%rcx, %rdx
	movq	8(%rsp), %r8
	je	Lunix_path_BB65_208
	testb	$28, %dl
	je	Lunix_path_BB65_193
Lunix_path_BB65_229:
	movq	%rcx, %r9
	movq	%rdx, %rcx
	andq	$-4, %rcx
	movq	%rcx, %rsi
	subq	%r9, %rsi
	movq	16(%rsp), %rdi
	addq	%rax, %rdi
	addq	%r9, %r8
	addq	%r8, %rdi
	movq	32(%rsp), %r8
	addq	%rax, %r8
	addq	%r9, %r8
	addq	%rbp, %r8
	subq	%r12, %r8
	addq	%r14, %r8
	xorl	%r9d, %r9d
Lunix_path_BB65_230:
	movl	(%rdi,%r9), %r10d
	movl	%r10d, (%r8,%r9)
	addq	$4, %r9
	cmpq	%r9, %rsi
	jne	Lunix_path_BB65_230
	cmpq	%rcx, %rdx
	movq	8(%rsp), %r8
	jne	Lunix_path_BB65_193
	jmp	Lunix_path_BB65_208
	.globl	_unix_path_starts_with
	.p2align	4
_unix_path_starts_with:
	movq	%rcx, %r8
	movq	%rdx, %rcx
	movq	%rsi, %rdx
	movq	%rdi, %rsi
	xorl	%edi, %edi
	testq	%rsi, %rsi
	sete	%r10b
	xorl	%eax, %eax
	testq	%rcx, %rcx
	sete	%r9b
	testq	%r8, %r8
	je	Lunix_path_BB66_7
	subq	$24, %rsp
	movb	%r10b, %dil
	shll	$12, %edi
	addq	%rdi, %rsi
	movb	%r9b, %al
	shll	$12, %eax
	addq	%rax, %rcx
	pxor	%xmm0, %xmm0
	movdqa	%xmm0, (%rsp)
	movq	$0, 16(%rsp)
	cmpq	%rdx, %r8
	movq	%rdx, %rax
	cmovbq	%r8, %rax
	cmpq	$15, %rax
	ja	Lunix_path_BB66_8
	cmpq	$7, %rax
	ja	Lunix_path_BB66_15
	testq	%rdx, %rdx
	je	Lunix_path_BB66_18
	movzbl	(%rsi), %edi
	cmpb	(%rcx), %dil
	jne	Lunix_path_BB66_19
	cmpq	$1, %rax
	jne	Lunix_path_BB66_47
Lunix_path_BB66_6:
	movq	%rax, %rdi
	jmp	Lunix_path_BB66_20
Lunix_path_BB66_7:
	movb	$1, %al
	andb	$1, %al
	retq
Lunix_path_BB66_8:
	leaq	-16(%rax), %r9
	xorl	%r10d, %r10d
	cmpq	$64, %rax
	jb	Lunix_path_BB66_13
	.p2align	4
Lunix_path_BB66_9:
	movdqu	(%rsi,%r10), %xmm0
	movdqu	16(%rsi,%r10), %xmm1
	movdqu	32(%rsi,%r10), %xmm2
	movdqu	48(%rsi,%r10), %xmm3
	movdqu	(%rcx,%r10), %xmm4
	pcmpeqb	%xmm0, %xmm4
	movdqu	16(%rcx,%r10), %xmm0
	pcmpeqb	%xmm1, %xmm0
	pand	%xmm4, %xmm0
	movdqu	32(%rcx,%r10), %xmm1
	pcmpeqb	%xmm2, %xmm1
	movdqu	48(%rcx,%r10), %xmm2
	pcmpeqb	%xmm3, %xmm2
	pand	%xmm1, %xmm2
	pand	%xmm0, %xmm2
	pmovmskb	%xmm2, %edi
	cmpl	$65535, %edi
	jne	Lunix_path_BB66_13
	addq	$64, %r10
	addq	$-64, %rax
	cmpq	$63, %rax
	ja	Lunix_path_BB66_9
	jmp	Lunix_path_BB66_13
	.p2align	4
Lunix_path_BB66_11:
	movdqu	(%rsi,%r10), %xmm0
	movdqu	(%rcx,%r10), %xmm1
	pcmpeqb	%xmm0, %xmm1
	pmovmskb	%xmm1, %eax
	notl	%eax
	rep		bsfl	%eax, %eax
	cmpw	$15, %ax
	jbe	Lunix_path_BB66_17
	addq	$16, %r10
Lunix_path_BB66_13:
	cmpq	%r9, %r10
	jb	Lunix_path_BB66_11
	movdqu	(%rsi,%r9), %xmm0
	movdqu	(%rcx,%r9), %xmm1
	pcmpeqb	%xmm0, %xmm1
	pmovmskb	%xmm1, %eax
	notl	%eax
	rep		bsfl	%eax, %edi
	addq	%r9, %rdi
	jmp	Lunix_path_BB66_20
Lunix_path_BB66_15:
	movq	(%rsi), %xmm0
	movq	(%rcx), %xmm1
	pcmpeqb	%xmm0, %xmm1
	pmovmskb	%xmm1, %edi
	notl	%edi
	orl	$256, %edi
	rep		bsfl	%edi, %edi
	cmpb	$8, %dil
	jb	Lunix_path_BB66_20
	movq	-8(%rsi,%rax), %xmm0
	movq	-8(%rcx,%rax), %xmm1
	pcmpeqb	%xmm0, %xmm1
	pmovmskb	%xmm1, %edi
	notl	%edi
	orl	$256, %edi
	rep		bsfl	%edi, %edi
	addq	%rax, %rdi
	addq	$-8, %rdi
	jmp	Lunix_path_BB66_20
Lunix_path_BB66_17:
	movzwl	%ax, %edi
	addq	%r10, %rdi
	jmp	Lunix_path_BB66_20
Lunix_path_BB66_18:
	movb	$1, %al
	xorl	%edi, %edi
	cmpq	%rdx, %rdi
	jb	Lunix_path_BB66_22
	jmp	Lunix_path_BB66_28
Lunix_path_BB66_19:
	xorl	%edi, %edi
Lunix_path_BB66_20:
	movb	$1, %al
	cmpq	%rdi, %r8
	jbe	Lunix_path_BB66_24
	cmpq	%rdx, %rdi
	jae	Lunix_path_BB66_28
Lunix_path_BB66_22:
	movzbl	(%rsi,%rdi), %r9d
	cmpw	$47, %r9w
	jne	Lunix_path_BB66_31
Lunix_path_BB66_28:
	xorl	%r9d, %r9d
	testb	%al, %al
	je	Lunix_path_BB66_34
Lunix_path_BB66_29:
	movzbl	(%rcx,%rdi), %eax
	cmpw	$47, %ax
	je	Lunix_path_BB66_34
	movzwl	%ax, %eax
	incl	%eax
	cmpw	%ax, %r9w
	je	Lunix_path_BB66_35
Lunix_path_BB66_39:
	testq	%rdi, %rdi
	je	Lunix_path_BB66_50
	movzbl	-1(%rsi,%rdi), %r9d
	cmpb	$47, %r9b
	je	Lunix_path_BB66_41
	xorl	%eax, %eax
	decq	%rdi
	je	Lunix_path_BB66_37
	cmpb	$46, %r9b
	jne	Lunix_path_BB66_37
	cmpb	$47, -1(%rsi,%rdi)
	je	Lunix_path_BB66_41
	jmp	Lunix_path_BB66_50
Lunix_path_BB66_24:
	movb	$1, %al
	cmpq	%rdx, %r8
	jae	Lunix_path_BB66_37
	cmpb	$47, (%rsi,%r8)
	je	Lunix_path_BB66_37
	cmpb	$47, -1(%rsi,%r8)
	je	Lunix_path_BB66_37
	xorl	%eax, %eax
	cmpq	%rdx, %rdi
	jb	Lunix_path_BB66_22
	jmp	Lunix_path_BB66_28
Lunix_path_BB66_31:
	cmpb	$46, %r9b
	sete	%r10b
	movl	%eax, %r11d
	xorb	$1, %r11b
	orb	%r10b, %r11b
	jne	Lunix_path_BB66_33
	movzbl	(%rcx,%rdi), %r10d
	andb	$-2, %r10b
	cmpb	$46, %r10b
	jne	Lunix_path_BB66_50
Lunix_path_BB66_33:
	movzwl	%r9w, %r9d
	incl	%r9d
	testb	%al, %al
	jne	Lunix_path_BB66_29
Lunix_path_BB66_34:
	xorl	%eax, %eax
	cmpw	%ax, %r9w
	jne	Lunix_path_BB66_39
Lunix_path_BB66_35:
	testq	%rdi, %rdi
	je	Lunix_path_BB66_36
Lunix_path_BB66_41:
	addq	%rdi, %rsi
	subq	%rdi, %rdx
	addq	%rdi, %rcx
	subq	%rdi, %r8
	movq	%rsp, %rdi
	callq	_unix_path.pair.Comparison.rest_after_cut
	movzbl	(%rsp), %eax
	addq	$24, %rsp
	andb	$1, %al
	retq
Lunix_path_BB66_50:
	xorl	%eax, %eax
	addq	$24, %rsp
	andb	$1, %al
	retq
Lunix_path_BB66_36:
	xorl	%eax, %eax
Lunix_path_BB66_37:
	addq	$24, %rsp
	andb	$1, %al
	retq
Lunix_path_BB66_47:
	movzbl	1(%rsi), %r9d
	movl	$1, %edi
	cmpb	1(%rcx), %r9b
	jne	Lunix_path_BB66_20
	cmpq	$2, %rax
	je	Lunix_path_BB66_6
	movzbl	2(%rsi), %r9d
	movl	$2, %edi
	cmpb	2(%rcx), %r9b
	jne	Lunix_path_BB66_20
	cmpq	$3, %rax
	je	Lunix_path_BB66_6
	movzbl	3(%rsi), %r9d
	movl	$3, %edi
	cmpb	3(%rcx), %r9b
	jne	Lunix_path_BB66_20
	cmpq	$4, %rax
	je	Lunix_path_BB66_6
	movzbl	4(%rsi), %r9d
	movl	$4, %edi
	cmpb	4(%rcx), %r9b
	jne	Lunix_path_BB66_20
	cmpq	$5, %rax
	je	Lunix_path_BB66_6
	movzbl	5(%rsi), %r9d
	movl	$5, %edi
	cmpb	5(%rcx), %r9b
	jne	Lunix_path_BB66_20
	cmpq	$6, %rax
	je	Lunix_path_BB66_6
	movzbl	6(%rsi), %edi
	cmpb	6(%rcx), %dil
	movl	$6, %edi
	cmoveq	%rax, %rdi
	jmp	Lunix_path_BB66_20
	.globl	_unix_path_strip_prefix
	.p2align	4
_unix_path_strip_prefix:
	pushq	%rbp
	pushq	%r15
	pushq	%r14
	pushq	%r13
	pushq	%r12
	pushq	%rbx
	subq	$40, %rsp
	movq	%r8, 8(%rsp)
	movq	%rcx, %r12
	movq	%rdx, %rbp
	movq	%rsi, %rbx
	xorl	%r15d, %r15d
	testq	%rdi, %rdi
	sete	%r15b
	shll	$12, %r15d
	addq	%rdi, %r15
	xorl	%r13d, %r13d
	testq	%rdx, %rdx
	sete	7(%rsp)
	testq	%rsi, %rsi
	je	Lunix_path_BB67_9
	movq	%rbx, %r14
	movq	%rbx, %rax
	jmp	Lunix_path_BB67_3
	.p2align	4
Lunix_path_BB67_2:
	movq	%rax, %r14
	testq	%rax, %rax
	je	Lunix_path_BB67_9
Lunix_path_BB67_3:
	decq	%rax
	je	Lunix_path_BB67_24
	movzbl	(%r15,%rax), %ecx
	cmpl	$47, %ecx
	je	Lunix_path_BB67_7
	cmpl	$46, %ecx
	jne	Lunix_path_BB67_10
	cmpb	$47, -1(%r15,%rax)
	jne	Lunix_path_BB67_10
Lunix_path_BB67_7:
	movq	%rbx, %rcx
	subq	%rax, %rcx
	cmpq	$8, %rcx
	jne	Lunix_path_BB67_2
	movq	%r15, %rdi
	movq	%rax, %rsi
	callq	_unix_path.filler.trimmed_blocks_len
	jmp	Lunix_path_BB67_2
Lunix_path_BB67_9:
	xorl	%r14d, %r14d
Lunix_path_BB67_10:
	testq	%r12, %r12
	je	Lunix_path_BB67_68
Lunix_path_BB67_11:
	movzbl	7(%rsp), %eax
	movb	%al, %r13b
	shll	$12, %r13d
	addq	%r13, %rbp
	pxor	%xmm0, %xmm0
	movdqa	%xmm0, 16(%rsp)
	movq	$0, 32(%rsp)
	cmpq	%r14, %r12
	movq	%r14, %rcx
	cmovbq	%r12, %rcx
	cmpq	$15, %rcx
	ja	Lunix_path_BB67_17
	cmpq	$7, %rcx
	ja	Lunix_path_BB67_25
	testq	%r14, %r14
	je	Lunix_path_BB67_28
	movzbl	(%r15), %eax
	cmpb	(%rbp), %al
	jne	Lunix_path_BB67_29
	cmpq	$1, %rcx
	jne	Lunix_path_BB67_63
Lunix_path_BB67_16:
	movq	%rcx, %rax
	jmp	Lunix_path_BB67_30
Lunix_path_BB67_17:
	leaq	-16(%rcx), %rdx
	xorl	%esi, %esi
	cmpq	$64, %rcx
	jb	Lunix_path_BB67_22
	.p2align	4
Lunix_path_BB67_18:
	movdqu	(%r15,%rsi), %xmm0
	movdqu	16(%r15,%rsi), %xmm1
	movdqu	32(%r15,%rsi), %xmm2
	movdqu	48(%r15,%rsi), %xmm3
	movdqu	(%rbp,%rsi), %xmm4
	pcmpeqb	%xmm0, %xmm4
	movdqu	16(%rbp,%rsi), %xmm0
	pcmpeqb	%xmm1, %xmm0
	pand	%xmm4, %xmm0
	movdqu	32(%rbp,%rsi), %xmm1
	pcmpeqb	%xmm2, %xmm1
	movdqu	48(%rbp,%rsi), %xmm2
	pcmpeqb	%xmm3, %xmm2
	pand	%xmm1, %xmm2
	pand	%xmm0, %xmm2
	pmovmskb	%xmm2, %eax
	cmpl	$65535, %eax
	jne	Lunix_path_BB67_22
	addq	$64, %rsi
	addq	$-64, %rcx
	cmpq	$63, %rcx
	ja	Lunix_path_BB67_18
	jmp	Lunix_path_BB67_22
	.p2align	4
Lunix_path_BB67_20:
	movdqu	(%r15,%rsi), %xmm0
	movdqu	(%rbp,%rsi), %xmm1
	pcmpeqb	%xmm0, %xmm1
	pmovmskb	%xmm1, %eax
	notl	%eax
	rep		bsfl	%eax, %eax
	cmpw	$15, %ax
	jbe	Lunix_path_BB67_27
	addq	$16, %rsi
Lunix_path_BB67_22:
	cmpq	%rdx, %rsi
	jb	Lunix_path_BB67_20
	movdqu	(%r15,%rdx), %xmm0
	movdqu	(%rbp,%rdx), %xmm1
	pcmpeqb	%xmm0, %xmm1
	pmovmskb	%xmm1, %eax
	notl	%eax
	rep		bsfl	%eax, %eax
	addq	%rdx, %rax
	jmp	Lunix_path_BB67_30
Lunix_path_BB67_24:
	movl	$1, %r14d
	testq	%r12, %r12
	jne	Lunix_path_BB67_11
	jmp	Lunix_path_BB67_68
Lunix_path_BB67_25:
	movq	(%r15), %xmm0
	movq	(%rbp), %xmm1
	pcmpeqb	%xmm0, %xmm1
	pmovmskb	%xmm1, %eax
	notl	%eax
	orl	$256, %eax
	rep		bsfl	%eax, %eax
	cmpb	$8, %al
	jb	Lunix_path_BB67_30
	movq	-8(%r15,%rcx), %xmm0
	movq	-8(%rbp,%rcx), %xmm1
	pcmpeqb	%xmm0, %xmm1
	pmovmskb	%xmm1, %eax
	notl	%eax
	orl	$256, %eax
	rep		bsfl	%eax, %eax
	addq	%rcx, %rax
	addq	$-8, %rax
	jmp	Lunix_path_BB67_30
Lunix_path_BB67_27:
	movzwl	%ax, %eax
	addq	%rsi, %rax
	jmp	Lunix_path_BB67_30
Lunix_path_BB67_28:
	movb	$1, %cl
	xorl	%eax, %eax
	cmpq	%r14, %rax
	jb	Lunix_path_BB67_32
	jmp	Lunix_path_BB67_43
Lunix_path_BB67_29:
	xorl	%eax, %eax
Lunix_path_BB67_30:
	movb	$1, %cl
	cmpq	%rax, %r12
	jbe	Lunix_path_BB67_34
	cmpq	%r14, %rax
	jae	Lunix_path_BB67_43
Lunix_path_BB67_32:
	movzbl	(%r15,%rax), %edx
	cmpw	$47, %dx
	jne	Lunix_path_BB67_38
Lunix_path_BB67_43:
	xorl	%edx, %edx
	testb	%cl, %cl
	je	Lunix_path_BB67_45
Lunix_path_BB67_44:
	movzbl	(%rbp,%rax), %ecx
	cmpw	$47, %cx
	je	Lunix_path_BB67_45
	movzwl	%cx, %ecx
	incl	%ecx
	cmpw	%cx, %dx
	je	Lunix_path_BB67_52
Lunix_path_BB67_46:
	testq	%rax, %rax
	je	Lunix_path_BB67_62
	movzbl	-1(%r15,%rax), %ecx
	cmpb	$47, %cl
	je	Lunix_path_BB67_53
	decq	%rax
	je	Lunix_path_BB67_62
	cmpb	$46, %cl
	jne	Lunix_path_BB67_62
	cmpb	$47, -1(%r15,%rax)
	je	Lunix_path_BB67_53
	jmp	Lunix_path_BB67_62
Lunix_path_BB67_34:
	movq	%r14, %r13
	subq	%r12, %r13
	jbe	Lunix_path_BB67_37
	cmpb	$47, (%r15,%r12)
	je	Lunix_path_BB67_37
	cmpb	$47, -1(%r15,%r12)
	jne	Lunix_path_BB67_42
Lunix_path_BB67_37:
	addq	%r15, %r12
	jmp	Lunix_path_BB67_55
Lunix_path_BB67_38:
	cmpb	$46, %dl
	sete	%sil
	movl	%ecx, %edi
	xorb	$1, %dil
	orb	%sil, %dil
	jne	Lunix_path_BB67_40
	movzbl	(%rbp,%rax), %esi
	andb	$-2, %sil
	cmpb	$46, %sil
	jne	Lunix_path_BB67_62
Lunix_path_BB67_40:
	movzwl	%dx, %edx
	incl	%edx
	testb	%cl, %cl
	jne	Lunix_path_BB67_44
Lunix_path_BB67_45:
	xorl	%ecx, %ecx
	cmpw	%cx, %dx
	jne	Lunix_path_BB67_46
Lunix_path_BB67_52:
	testq	%rax, %rax
	je	Lunix_path_BB67_62
Lunix_path_BB67_53:
	leaq	(%r15,%rax), %rsi
	subq	%rax, %r14
	addq	%rax, %rbp
	subq	%rax, %r12
	leaq	16(%rsp), %rdi
	movq	%r14, %rdx
	movq	%rbp, %rcx
	movq	%r12, %r8
	callq	_unix_path.pair.Comparison.rest_after_cut
	cmpb	$1, 16(%rsp)
	jne	Lunix_path_BB67_62
	movq	24(%rsp), %r12
	movq	32(%rsp), %r13
Lunix_path_BB67_55:
	xorl	%edx, %edx
	jmp	Lunix_path_BB67_57
	.p2align	4
Lunix_path_BB67_56:
	addq	%rax, %rdx
	cmpq	$4, %rdx
	jae	Lunix_path_BB67_66
Lunix_path_BB67_57:
	movq	%rdx, %rax
	cmpq	%r13, %rdx
	jae	Lunix_path_BB67_67
	movzbl	(%r12,%rax), %ecx
	movl	$1, %edx
	cmpl	$47, %ecx
	je	Lunix_path_BB67_56
	cmpl	$46, %ecx
	jne	Lunix_path_BB67_67
	leaq	1(%rax), %rcx
	cmpq	%r13, %rcx
	je	Lunix_path_BB67_56
	movl	$2, %edx
	cmpb	$47, (%r12,%rcx)
	je	Lunix_path_BB67_56
	jmp	Lunix_path_BB67_67
Lunix_path_BB67_62:
	xorl	%eax, %eax
	jmp	Lunix_path_BB67_80
Lunix_path_BB67_42:
	xorl	%ecx, %ecx
	cmpq	%r14, %rax
	jb	Lunix_path_BB67_32
	jmp	Lunix_path_BB67_43
Lunix_path_BB67_63:
	movzbl	1(%r15), %edx
	movl	$1, %eax
	cmpb	1(%rbp), %dl
	jne	Lunix_path_BB67_30
	cmpq	$2, %rcx
	je	Lunix_path_BB67_16
	movzbl	2(%r15), %edx
	movl	$2, %eax
	cmpb	2(%rbp), %dl
	jne	Lunix_path_BB67_30
	cmpq	$3, %rcx
	je	Lunix_path_BB67_16
	movzbl	3(%r15), %edx
	movl	$3, %eax
	cmpb	3(%rbp), %dl
	jne	Lunix_path_BB67_30
	cmpq	$4, %rcx
	je	Lunix_path_BB67_16
	movzbl	4(%r15), %edx
	movl	$4, %eax
	cmpb	4(%rbp), %dl
	jne	Lunix_path_BB67_30
	cmpq	$5, %rcx
	je	Lunix_path_BB67_16
	movzbl	5(%r15), %edx
	movl	$5, %eax
	cmpb	5(%rbp), %dl
	jne	Lunix_path_BB67_30
	cmpq	$6, %rcx
	je	Lunix_path_BB67_16
	movzbl	6(%r15), %eax
	cmpb	6(%rbp), %al
	movl	$6, %eax
	cmoveq	%rcx, %rax
	jmp	Lunix_path_BB67_30
Lunix_path_BB67_66:
	movq	%r12, %rdi
	movq	%r13, %rsi
	callq	_unix_path.filler.filler_end_from
Lunix_path_BB67_67:
	subq	%rax, %r13
	movq	%r13, %r14
Lunix_path_BB67_68:
	movq	8(%rsp), %r12
	testq	%rbx, %rbx
	je	Lunix_path_BB67_77
	movq	%rbx, %rcx
	movq	%rbx, %rax
	jmp	Lunix_path_BB67_71
	.p2align	4
Lunix_path_BB67_70:
	movq	%rax, %rcx
	testq	%rax, %rax
	je	Lunix_path_BB67_77
Lunix_path_BB67_71:
	decq	%rax
	je	Lunix_path_BB67_78
	movzbl	(%r15,%rax), %edx
	cmpl	$47, %edx
	je	Lunix_path_BB67_75
	cmpl	$46, %edx
	jne	Lunix_path_BB67_79
	cmpb	$47, -1(%r15,%rax)
	jne	Lunix_path_BB67_79
Lunix_path_BB67_75:
	movq	%rbx, %rcx
	subq	%rax, %rcx
	cmpq	$8, %rcx
	jne	Lunix_path_BB67_70
	movq	%r15, %rdi
	movq	%rax, %rsi
	callq	_unix_path.filler.trimmed_blocks_len
	jmp	Lunix_path_BB67_70
Lunix_path_BB67_77:
	xorl	%ecx, %ecx
	jmp	Lunix_path_BB67_79
Lunix_path_BB67_78:
	movl	$1, %ecx
Lunix_path_BB67_79:
	subq	%r14, %rcx
	movq	%rcx, (%r12)
	movq	%r14, 8(%r12)
	movb	$1, %al
Lunix_path_BB67_80:
	addq	$40, %rsp
	popq	%rbx
	popq	%r12
	popq	%r13
	popq	%r14
	popq	%r15
	popq	%rbp
	retq
	.globl	_unix_path_version
	.p2align	4
_unix_path_version:
	movl	$65792, %eax
	retq
	.globl	_unix_path_join_beneath
	.p2align	4
_unix_path_join_beneath:
	pushq	%rbp
	pushq	%r15
	pushq	%r14
	pushq	%r13
	pushq	%r12
	pushq	%rbx
	subq	$72, %rsp
	movq	%r8, %r14
	movq	%rsi, %rbx
	movq	%rdi, %rbp
	xorl	%r15d, %r15d
	testq	%rdi, %rdi
	sete	%r8b
	xorl	%r12d, %r12d
	testq	%rdx, %rdx
	sete	%r12b
	shll	$12, %r12d
	addq	%rdx, %r12
	xorl	%r10d, %r10d
	testq	%r14, %r14
	sete	%al
	testq	%rcx, %rcx
	je	Lunix_path_BB69_7
	movq	$-2, %r13
	cmpb	$47, (%r12)
	je	Lunix_path_BB69_9
	movb	%al, 8(%rsp)
	movq	%r12, %rdi
	movq	%rcx, %rsi
	movq	%rbx, (%rsp)
	movq	%rbp, 16(%rsp)
	movq	%r14, %rbp
	movq	%rcx, %r14
	movq	%r9, %r15
	movl	%r8d, %ebx
	callq	_path_within.check.check_escape
	movl	%ebx, %r8d
	movq	%r15, %r9
	xorl	%r10d, %r10d
	movq	%r14, %rcx
	movq	%rbp, %r14
	movq	16(%rsp), %rbp
	movq	(%rsp), %rbx
	xorl	%r15d, %r15d
	testb	%al, %al
	je	Lunix_path_BB69_9
	cmpq	$15, %rcx
	ja	Lunix_path_BB69_16
	xorl	%esi, %esi
	.p2align	4
Lunix_path_BB69_5:
	cmpb	$0, (%r12,%rsi)
	je	Lunix_path_BB69_8
	incq	%rsi
	cmpq	%rsi, %rcx
	jne	Lunix_path_BB69_5
	jmp	Lunix_path_BB69_10
Lunix_path_BB69_7:
	movb	%al, 8(%rsp)
	movb	$2, %al
	xorl	%esi, %esi
Lunix_path_BB69_8:
	movq	$-4, %r13
	cmpq	%rcx, %rsi
	jae	Lunix_path_BB69_10
Lunix_path_BB69_9:
	movq	%r13, %rax
	jmp	Lunix_path_BB69_73
Lunix_path_BB69_10:
	movb	%r8b, %r15b
	shll	$12, %r15d
	pxor	%xmm0, %xmm0
	movdqa	%xmm0, 48(%rsp)
	movdqa	%xmm0, 32(%rsp)
	movq	$0, 64(%rsp)
	cmpb	$1, %al
	jne	Lunix_path_BB69_12
	leaq	1(%rcx), %rax
	movq	$-1, %r8
	movb	$1, %dl
	jmp	Lunix_path_BB69_13
Lunix_path_BB69_12:
	leaq	32(%rsp), %rdi
	movq	%r12, %rsi
	movq	%rcx, %rdx
	movq	%r9, %r12
	callq	_path_within.write.Layout.resolve_names
	movq	%r12, %r9
	xorl	%r10d, %r10d
	movq	32(%rsp), %r12
	movq	40(%rsp), %rcx
	movq	48(%rsp), %r8
	movq	56(%rsp), %rax
	movzbl	64(%rsp), %edx
Lunix_path_BB69_13:
	movq	%r15, (%rsp)
	leaq	(%r15,%rbp), %r13
	movq	%rbx, %r15
	testq	%rax, %rax
	je	Lunix_path_BB69_23
	leaq	(%rax,%rbx), %r15
	testq	%rbx, %rbx
	je	Lunix_path_BB69_21
	xorl	%esi, %esi
	cmpb	$47, -1(%r13,%rbx)
	sete	%sil
	negq	%rsi
	jmp	Lunix_path_BB69_22
Lunix_path_BB69_16:
	movq	%rcx, %rdx
	addq	$-16, %rdx
	je	Lunix_path_BB69_20
	xorl	%edi, %edi
	.p2align	4
Lunix_path_BB69_18:
	movdqu	(%r12,%rdi), %xmm0
	pxor	%xmm1, %xmm1
	pcmpeqb	%xmm0, %xmm1
	pmovmskb	%xmm1, %esi
	orl	$65536, %esi
	rep		bsfl	%esi, %esi
	cmpw	$15, %si
	jbe	Lunix_path_BB69_31
	addq	$16, %rdi
	cmpq	%rdx, %rdi
	jb	Lunix_path_BB69_18
Lunix_path_BB69_20:
	movdqu	(%r12,%rdx), %xmm0
	pxor	%xmm1, %xmm1
	pcmpeqb	%xmm0, %xmm1
	pmovmskb	%xmm1, %esi
	orl	$65536, %esi
	rep		bsfl	%esi, %esi
	addq	%rdx, %rsi
	jmp	Lunix_path_BB69_8
Lunix_path_BB69_21:
	movq	$-1, %rsi
Lunix_path_BB69_22:
	addq	%rsi, %r15
Lunix_path_BB69_23:
	movq	%rbp, 16(%rsp)
	cmpq	%r9, %r15
	ja	Lunix_path_BB69_72
	movzbl	8(%rsp), %esi
	movb	%sil, %r10b
	shll	$12, %r10d
	leaq	(%r14,%r10), %rbp
	testb	$1, %dl
	je	Lunix_path_BB69_28
	movq	%r15, %rdi
	subq	%rcx, %rdi
	addq	%rbp, %rdi
	movq	%rdi, %rax
	subq	%r12, %rax
	cmpq	%rcx, %rax
	movq	%rdi, 8(%rsp)
	jae	Lunix_path_BB69_30
	cmpq	$4, %rcx
	jb	Lunix_path_BB69_27
	leaq	(%r10,%r15), %rdx
	leaq	(%rdx,%r14), %rax
	subq	%rcx, %rax
	subq	%r12, %rax
	cmpq	$32, %rax
	jae	Lunix_path_BB69_34
Lunix_path_BB69_27:
	xorl	%eax, %eax
Lunix_path_BB69_43:
	movq	%rcx, %rsi
	movq	%rax, %rdx
	andq	$3, %rsi
	je	Lunix_path_BB69_46
	leaq	(%r10,%rax), %rdi
	addq	%r15, %rdi
	subq	%rcx, %rdi
	addq	%r14, %rdi
	xorl	%r8d, %r8d
	movq	%rax, %rdx
	.p2align	4
Lunix_path_BB69_45:
	movzbl	(%r12,%rdx), %r9d
	movb	%r9b, (%rdi,%r8)
	incq	%rdx
	incq	%r8
	cmpq	%r8, %rsi
	jne	Lunix_path_BB69_45
Lunix_path_BB69_46:
	subq	%rcx, %rax
	cmpq	$-4, %rax
	ja	Lunix_path_BB69_49
	movq	%rcx, %rax
	subq	%rdx, %rax
	leaq	(%rdx,%r12), %rsi
	addq	$3, %rsi
	addq	%r10, %rdx
	addq	%r15, %rdx
	subq	%rcx, %rdx
	addq	%r14, %rdx
	addq	$3, %rdx
	xorl	%edi, %edi
	.p2align	4
Lunix_path_BB69_48:
	movzbl	-3(%rsi,%rdi), %r8d
	movb	%r8b, -3(%rdx,%rdi)
	movzbl	-2(%rsi,%rdi), %r8d
	movb	%r8b, -2(%rdx,%rdi)
	movzbl	-1(%rsi,%rdi), %r8d
	movb	%r8b, -1(%rdx,%rdi)
	movzbl	(%rsi,%rdi), %r8d
	movb	%r8b, (%rdx,%rdi)
	addq	$4, %rdi
	cmpq	%rdi, %rax
	jne	Lunix_path_BB69_48
	jmp	Lunix_path_BB69_49
Lunix_path_BB69_28:
	testq	%rax, %rax
	je	Lunix_path_BB69_51
	leaq	1(%r15), %rsi
	movq	%rbp, %rdi
	movq	%r12, %rdx
	movq	%r10, %r12
	callq	_path_within.backward.put_names_before
	movq	%r12, %r10
	jmp	Lunix_path_BB69_51
Lunix_path_BB69_30:
	movq	%r12, %rsi
	movq	%rcx, %rdx
	movq	%r14, 24(%rsp)
	movq	%rcx, %r14
	movq	%r10, %r12
	callq	_memmove
	movq	%r12, %r10
	movq	%r14, %rcx
	movq	24(%rsp), %r14
Lunix_path_BB69_49:
	cmpq	%rcx, %r15
	je	Lunix_path_BB69_51
	movq	8(%rsp), %rax
	movb	$47, -1(%rax)
Lunix_path_BB69_51:
	movq	%rbp, %rax
	subq	%r13, %rax
	cmpq	%rbx, %rax
	jae	Lunix_path_BB69_54
	cmpq	$4, %rbx
	jb	Lunix_path_BB69_53
	cmpq	$32, %rax
	jae	Lunix_path_BB69_57
Lunix_path_BB69_53:
	xorl	%eax, %eax
Lunix_path_BB69_66:
	movq	%rbx, %rdx
	movq	%rax, %rcx
	andq	$3, %rdx
	je	Lunix_path_BB69_69
	movq	%rax, %rcx
	.p2align	4
Lunix_path_BB69_68:
	movzbl	(%r13,%rcx), %esi
	movb	%sil, (%rbp,%rcx)
	incq	%rcx
	decq	%rdx
	jne	Lunix_path_BB69_68
Lunix_path_BB69_69:
	subq	%rbx, %rax
	cmpq	$-4, %rax
	ja	Lunix_path_BB69_72
	movq	16(%rsp), %rax
	movq	(%rsp), %rdx
	addq	%rdx, %rax
	addq	$3, %rax
	leaq	(%r10,%r14), %rdx
	addq	$3, %rdx
	.p2align	4
Lunix_path_BB69_71:
	movzbl	-3(%rax,%rcx), %esi
	movb	%sil, -3(%rdx,%rcx)
	movzbl	-2(%rax,%rcx), %esi
	movb	%sil, -2(%rdx,%rcx)
	movzbl	-1(%rax,%rcx), %esi
	movb	%sil, -1(%rdx,%rcx)
	movzbl	(%rax,%rcx), %esi
	movb	%sil, (%rdx,%rcx)
	addq	$4, %rcx
	cmpq	%rcx, %rbx
	jne	Lunix_path_BB69_71
	jmp	Lunix_path_BB69_72
Lunix_path_BB69_54:
	movq	%rbp, %rdi
	movq	%r13, %rsi
	movq	%rbx, %rdx
	callq	_memmove
Lunix_path_BB69_72:
	movabsq	$-9223372036854775808, %rax
	cmpq	%rax, %r15
	cmovbq	%r15, %rax
Lunix_path_BB69_73:
	addq	$72, %rsp
	popq	%rbx
	popq	%r12
	popq	%r13
	popq	%r14
	popq	%r15
	popq	%rbp
	retq
Lunix_path_BB69_31:
	movzwl	%si, %esi
	addq	%rdi, %rsi
	jmp	Lunix_path_BB69_8
Lunix_path_BB69_57:
	cmpq	$32, %rbx
	jae	Lunix_path_BB69_59
	xorl	%eax, %eax
	jmp	Lunix_path_BB69_63
Lunix_path_BB69_34:
	cmpq	$32, %rcx
	jae	Lunix_path_BB69_36
	xorl	%eax, %eax
	jmp	Lunix_path_BB69_40
Lunix_path_BB69_59:
	movq	%rbx, %rax
	andq	$-32, %rax
	movq	16(%rsp), %rcx
	movq	(%rsp), %rdx
	addq	%rdx, %rcx
	addq	$16, %rcx
	leaq	(%r10,%r14), %rdx
	addq	$16, %rdx
	xorl	%esi, %esi
	.p2align	4
Lunix_path_BB69_60:
	movdqu	-16(%rcx,%rsi), %xmm0
	movdqu	(%rcx,%rsi), %xmm1
	movdqu	%xmm0, -16(%rdx,%rsi)
	movdqu	%xmm1, (%rdx,%rsi)
	addq	$32, %rsi
	cmpq	%rsi, %rax
	jne	Lunix_path_BB69_60
	cmpq	%rax, %rbx
	je	Lunix_path_BB69_72
	testb	$28, %bl
	je	Lunix_path_BB69_66
Lunix_path_BB69_63:
	movq	%rax, %rcx
	movq	%rbx, %rax
	andq	$-4, %rax
	.p2align	4
Lunix_path_BB69_64:
	movl	(%r13,%rcx), %edx
	movl	%edx, (%rbp,%rcx)
	addq	$4, %rcx
	cmpq	%rcx, %rax
	jne	Lunix_path_BB69_64
	cmpq	%rax, %rbx
	je	Lunix_path_BB69_72
	jmp	Lunix_path_BB69_66
Lunix_path_BB69_36:
	movq	%rcx, %rax
	andq	$-32, %rax
	subq	%rcx, %rdx
	addq	%r14, %rdx
	addq	$16, %rdx
	xorl	%esi, %esi
Lunix_path_BB69_37:
	movdqu	(%r12,%rsi), %xmm0
	movdqu	16(%r12,%rsi), %xmm1
	movdqu	%xmm0, -16(%rdx,%rsi)
	movdqu	%xmm1, (%rdx,%rsi)
	addq	$32, %rsi
	cmpq	%rsi, %rax
	jne	Lunix_path_BB69_37
	cmpq	%rax, %rcx
	je	Lunix_path_BB69_49
	testb	$28, %cl
	je	Lunix_path_BB69_43
Lunix_path_BB69_40:
	movq	%rax, %rdx
	movq	%rcx, %rax
	andq	$-4, %rax
	movq	%rax, %rsi
	subq	%rdx, %rsi
	leaq	(%r12,%rdx), %rdi
	addq	%r10, %rdx
	addq	%r15, %rdx
	subq	%rcx, %rdx
	addq	%r14, %rdx
	xorl	%r8d, %r8d
	.p2align	4
Lunix_path_BB69_41:
	movl	(%rdi,%r8), %r9d
	movl	%r9d, (%rdx,%r8)
	addq	$4, %r8
	cmpq	%r8, %rsi
	jne	Lunix_path_BB69_41
	cmpq	%rax, %rcx
	je	Lunix_path_BB69_49
	jmp	Lunix_path_BB69_43
	.section	__TEXT,__literal16,16byte_literals
	.p2align	4, 0x0
Lunix_path_CPI70_0:
	.space	16,208
Lunix_path_CPI70_1:
	.space	16,47
Lunix_path_CPI70_2:
	.space	16,46
Lunix_path_CPI70_3:
	.byte	254
	.byte	254
	.byte	254
	.byte	254
	.byte	254
	.byte	254
	.byte	254
	.byte	254
	.space	1
	.space	1
	.space	1
	.space	1
	.space	1
	.space	1
	.space	1
	.space	1
Lunix_path_CPI70_4:
	.byte	46
	.byte	46
	.byte	46
	.byte	46
	.byte	46
	.byte	46
	.byte	46
	.byte	46
	.space	1
	.space	1
	.space	1
	.space	1
	.space	1
	.space	1
	.space	1
	.space	1
Lunix_path_CPI70_5:
	.byte	47
	.byte	47
	.byte	47
	.byte	47
	.byte	47
	.byte	47
	.byte	47
	.byte	47
	.space	1
	.space	1
	.space	1
	.space	1
	.space	1
	.space	1
	.space	1
	.space	1
	.section	__TEXT,__text,regular,pure_instructions
	.globl	_unix_path_join_in_root
	.p2align	4
_unix_path_join_in_root:
	pushq	%rbp
	pushq	%r15
	pushq	%r14
	pushq	%r13
	pushq	%r12
	pushq	%rbx
	subq	$88, %rsp
	movq	%r9, %r12
	movq	%rsi, %r15
	movq	%rdi, %rbx
	xorl	%r13d, %r13d
	testq	%rdi, %rdi
	sete	%r14b
	xorl	%eax, %eax
	testq	%rdx, %rdx
	sete	%al
	shll	$12, %eax
	addq	%rdx, %rax
	movq	%r8, 8(%rsp)
	testq	%r8, %r8
	sete	%bpl
	cmpq	$15, %rcx
	ja	Lunix_path_BB70_5
	testq	%rcx, %rcx
	je	Lunix_path_BB70_17
	xorl	%esi, %esi
	.p2align	4
Lunix_path_BB70_3:
	cmpb	$0, (%rax,%rsi)
	je	Lunix_path_BB70_10
	incq	%rsi
	cmpq	%rsi, %rcx
	jne	Lunix_path_BB70_3
	jmp	Lunix_path_BB70_14
Lunix_path_BB70_5:
	movq	%rcx, %rdx
	addq	$-16, %rdx
	je	Lunix_path_BB70_9
	xorl	%edi, %edi
	.p2align	4
Lunix_path_BB70_7:
	movdqu	(%rax,%rdi), %xmm0
	pxor	%xmm1, %xmm1
	pcmpeqb	%xmm0, %xmm1
	pmovmskb	%xmm1, %esi
	orl	$65536, %esi
	rep		bsfl	%esi, %esi
	cmpw	$15, %si
	jbe	Lunix_path_BB70_12
	addq	$16, %rdi
	cmpq	%rdx, %rdi
	jb	Lunix_path_BB70_7
Lunix_path_BB70_9:
	movdqu	(%rax,%rdx), %xmm0
	pxor	%xmm1, %xmm1
	pcmpeqb	%xmm0, %xmm1
	pmovmskb	%xmm1, %esi
	orl	$65536, %esi
	rep		bsfl	%esi, %esi
	addq	%rdx, %rsi
Lunix_path_BB70_10:
	cmpq	%rcx, %rsi
	jae	Lunix_path_BB70_13
Lunix_path_BB70_11:
	movq	$-4, %rax
	jmp	Lunix_path_BB70_82
Lunix_path_BB70_12:
	movzwl	%si, %esi
	addq	%rdi, %rsi
	cmpq	%rcx, %rsi
	jb	Lunix_path_BB70_11
Lunix_path_BB70_13:
	testq	%rcx, %rcx
	je	Lunix_path_BB70_17
Lunix_path_BB70_14:
	xorl	%edi, %edi
	.p2align	4
Lunix_path_BB70_15:
	movzbl	(%rax,%rdi), %r8d
	cmpb	$47, %r8b
	jne	Lunix_path_BB70_23
	incq	%rdi
	cmpq	%rcx, %rdi
	jne	Lunix_path_BB70_15
Lunix_path_BB70_17:
	addq	%rcx, %rax
	xorl	%edx, %edx
	movq	%rax, %rsi
Lunix_path_BB70_18:
	pxor	%xmm0, %xmm0
	movdqa	%xmm0, 48(%rsp)
	movdqa	%xmm0, 32(%rsp)
	movq	$0, 64(%rsp)
Lunix_path_BB70_19:
	leaq	32(%rsp), %rdi
	callq	_path_within.write.Layout.resolve_names
	movq	32(%rsp), %rsi
	movq	40(%rsp), %rdx
	movq	48(%rsp), %r8
	movq	56(%rsp), %rax
	movzbl	64(%rsp), %ecx
	xorl	%r11d, %r11d
Lunix_path_BB70_20:
	movb	%r14b, %r13b
	shll	$12, %r13d
	movq	%rbx, 24(%rsp)
	movq	%r13, 16(%rsp)
	addq	%rbx, %r13
	movq	%r15, %rbx
	testq	%rax, %rax
	je	Lunix_path_BB70_27
	leaq	(%rax,%r15), %rbx
	testq	%r15, %r15
	je	Lunix_path_BB70_25
	xorl	%edi, %edi
	cmpb	$47, -1(%r13,%r15)
	sete	%dil
	negq	%rdi
	jmp	Lunix_path_BB70_26
Lunix_path_BB70_23:
	leaq	(%rax,%rdi), %rsi
	movq	%rcx, %rdx
	subq	%rdi, %rdx
	jne	Lunix_path_BB70_34
	xorl	%edx, %edx
	jmp	Lunix_path_BB70_18
Lunix_path_BB70_25:
	movq	$-1, %rdi
Lunix_path_BB70_26:
	addq	%rdi, %rbx
Lunix_path_BB70_27:
	cmpq	%r12, %rbx
	ja	Lunix_path_BB70_81
	movb	%bpl, %r11b
	shll	$12, %r11d
	movq	8(%rsp), %rdi
	leaq	(%rdi,%r11), %r12
	testb	$1, %cl
	je	Lunix_path_BB70_32
	movq	%rbx, %rdi
	subq	%rdx, %rdi
	addq	%r12, %rdi
	movq	%rdi, %rax
	subq	%rsi, %rax
	cmpq	%rdx, %rax
	movq	%rdi, 80(%rsp)
	jae	Lunix_path_BB70_40
	cmpq	$4, %rdx
	jb	Lunix_path_BB70_31
	leaq	(%r11,%rbx), %rcx
	movq	8(%rsp), %rax
	addq	%rcx, %rax
	subq	%rdx, %rax
	subq	%rsi, %rax
	cmpq	$32, %rax
	jae	Lunix_path_BB70_43
Lunix_path_BB70_31:
	xorl	%eax, %eax
Lunix_path_BB70_52:
	movq	%rdx, %rdi
	movq	%rax, %rcx
	andq	$3, %rdi
	je	Lunix_path_BB70_55
	leaq	(%r11,%rax), %r8
	addq	%rbx, %r8
	subq	%rdx, %r8
	addq	8(%rsp), %r8
	xorl	%r9d, %r9d
	movq	%rax, %rcx
	.p2align	4
Lunix_path_BB70_54:
	movzbl	(%rsi,%rcx), %r10d
	movb	%r10b, (%r8,%r9)
	incq	%rcx
	incq	%r9
	cmpq	%r9, %rdi
	jne	Lunix_path_BB70_54
Lunix_path_BB70_55:
	subq	%rdx, %rax
	cmpq	$-4, %rax
	ja	Lunix_path_BB70_58
	movq	%rdx, %rax
	subq	%rcx, %rax
	addq	%rcx, %rsi
	addq	$3, %rsi
	addq	%r11, %rcx
	addq	%rbx, %rcx
	subq	%rdx, %rcx
	movq	8(%rsp), %rdi
	addq	%rdi, %rcx
	addq	$3, %rcx
	xorl	%edi, %edi
	.p2align	4
Lunix_path_BB70_57:
	movzbl	-3(%rsi,%rdi), %r8d
	movb	%r8b, -3(%rcx,%rdi)
	movzbl	-2(%rsi,%rdi), %r8d
	movb	%r8b, -2(%rcx,%rdi)
	movzbl	-1(%rsi,%rdi), %r8d
	movb	%r8b, -1(%rcx,%rdi)
	movzbl	(%rsi,%rdi), %r8d
	movb	%r8b, (%rcx,%rdi)
	addq	$4, %rdi
	cmpq	%rdi, %rax
	jne	Lunix_path_BB70_57
	jmp	Lunix_path_BB70_58
Lunix_path_BB70_32:
	testq	%rax, %rax
	je	Lunix_path_BB70_60
	leaq	1(%rbx), %rax
	movq	%r12, %rdi
	movq	%rsi, %r9
	movq	%rax, %rsi
	movq	%rdx, %rcx
	movq	%r9, %rdx
	movq	%r11, %r14
	callq	_path_within.backward.put_names_before
	movq	%r14, %r11
	jmp	Lunix_path_BB70_60
Lunix_path_BB70_34:
	cmpb	$46, %r8b
	jne	Lunix_path_BB70_84
	cmpq	$2, %rdx
	jb	Lunix_path_BB70_18
	movzbl	1(%rsi), %r8d
	cmpl	$47, %r8d
	je	Lunix_path_BB70_18
	cmpl	$46, %r8d
	jne	Lunix_path_BB70_84
	cmpq	$2, %rdx
	jne	Lunix_path_BB70_83
	movl	$2, %edx
	jmp	Lunix_path_BB70_18
Lunix_path_BB70_40:
	movq	%rdx, %r14
	movq	%r11, %rbp
	callq	_memmove
	movq	%rbp, %r11
	movq	%r14, %rdx
Lunix_path_BB70_58:
	cmpq	%rdx, %rbx
	je	Lunix_path_BB70_60
	movq	80(%rsp), %rax
	movb	$47, -1(%rax)
Lunix_path_BB70_60:
	movq	%r12, %rax
	subq	%r13, %rax
	cmpq	%r15, %rax
	jae	Lunix_path_BB70_63
	cmpq	$4, %r15
	jb	Lunix_path_BB70_62
	cmpq	$32, %rax
	jae	Lunix_path_BB70_66
Lunix_path_BB70_62:
	xorl	%eax, %eax
Lunix_path_BB70_75:
	movq	%r15, %rdx
	movq	%rax, %rcx
	andq	$3, %rdx
	je	Lunix_path_BB70_78
	movq	%rax, %rcx
	.p2align	4
Lunix_path_BB70_77:
	movzbl	(%r13,%rcx), %esi
	movb	%sil, (%r12,%rcx)
	incq	%rcx
	decq	%rdx
	jne	Lunix_path_BB70_77
Lunix_path_BB70_78:
	subq	%r15, %rax
	cmpq	$-4, %rax
	ja	Lunix_path_BB70_81
	movq	24(%rsp), %rax
	movq	16(%rsp), %rdx
	addq	%rdx, %rax
	addq	$3, %rax
	movq	8(%rsp), %rdx
	addq	%r11, %rdx
	addq	$3, %rdx
	.p2align	4
Lunix_path_BB70_80:
	movzbl	-3(%rax,%rcx), %esi
	movb	%sil, -3(%rdx,%rcx)
	movzbl	-2(%rax,%rcx), %esi
	movb	%sil, -2(%rdx,%rcx)
	movzbl	-1(%rax,%rcx), %esi
	movb	%sil, -1(%rdx,%rcx)
	movzbl	(%rax,%rcx), %esi
	movb	%sil, (%rdx,%rcx)
	addq	$4, %rcx
	cmpq	%rcx, %r15
	jne	Lunix_path_BB70_80
	jmp	Lunix_path_BB70_81
Lunix_path_BB70_63:
	movq	%r12, %rdi
	movq	%r13, %rsi
	movq	%r15, %rdx
	callq	_memmove
Lunix_path_BB70_81:
	movabsq	$-9223372036854775808, %rax
	cmpq	%rax, %rbx
	cmovbq	%rbx, %rax
Lunix_path_BB70_82:
	addq	$88, %rsp
	popq	%rbx
	popq	%r12
	popq	%r13
	popq	%r14
	popq	%r15
	popq	%rbp
	retq
Lunix_path_BB70_66:
	cmpq	$32, %r15
	jae	Lunix_path_BB70_68
	xorl	%eax, %eax
	jmp	Lunix_path_BB70_72
Lunix_path_BB70_43:
	cmpq	$32, %rdx
	jae	Lunix_path_BB70_45
	xorl	%eax, %eax
	jmp	Lunix_path_BB70_49
Lunix_path_BB70_68:
	movq	%r15, %rax
	andq	$-32, %rax
	movq	24(%rsp), %rcx
	movq	16(%rsp), %rdx
	addq	%rdx, %rcx
	addq	$16, %rcx
	movq	8(%rsp), %rdx
	addq	%r11, %rdx
	addq	$16, %rdx
	xorl	%esi, %esi
	.p2align	4
Lunix_path_BB70_69:
	movdqu	-16(%rcx,%rsi), %xmm0
	movdqu	(%rcx,%rsi), %xmm1
	movdqu	%xmm0, -16(%rdx,%rsi)
	movdqu	%xmm1, (%rdx,%rsi)
	addq	$32, %rsi
	cmpq	%rsi, %rax
	jne	Lunix_path_BB70_69
	cmpq	%rax, %r15
	je	Lunix_path_BB70_81
	testb	$28, %r15b
	je	Lunix_path_BB70_75
Lunix_path_BB70_72:
	movq	%rax, %rcx
	movq	%r15, %rax
	andq	$-4, %rax
	.p2align	4
Lunix_path_BB70_73:
	movl	(%r13,%rcx), %edx
	movl	%edx, (%r12,%rcx)
	addq	$4, %rcx
	cmpq	%rcx, %rax
	jne	Lunix_path_BB70_73
	cmpq	%rax, %r15
	je	Lunix_path_BB70_81
	jmp	Lunix_path_BB70_75
Lunix_path_BB70_45:
	movq	%rdx, %rax
	andq	$-32, %rax
	subq	%rdx, %rcx
	movq	8(%rsp), %rdi
	addq	%rdi, %rcx
	addq	$16, %rcx
	xorl	%edi, %edi
	.p2align	4
Lunix_path_BB70_46:
	movdqu	(%rsi,%rdi), %xmm0
	movdqu	16(%rsi,%rdi), %xmm1
	movdqu	%xmm0, -16(%rcx,%rdi)
	movdqu	%xmm1, (%rcx,%rdi)
	addq	$32, %rdi
	cmpq	%rdi, %rax
	jne	Lunix_path_BB70_46
	cmpq	%rax, %rdx
	je	Lunix_path_BB70_58
	testb	$28, %dl
	je	Lunix_path_BB70_52
Lunix_path_BB70_49:
	movq	%rax, %rcx
	movq	%rdx, %rax
	andq	$-4, %rax
	movq	%rax, %rdi
	subq	%rcx, %rdi
	leaq	(%rsi,%rcx), %r8
	addq	%r11, %rcx
	addq	%rbx, %rcx
	subq	%rdx, %rcx
	addq	8(%rsp), %rcx
	xorl	%r9d, %r9d
	.p2align	4
Lunix_path_BB70_50:
	movl	(%r8,%r9), %r10d
	movl	%r10d, (%rcx,%r9)
	addq	$4, %r9
	cmpq	%r9, %rdi
	jne	Lunix_path_BB70_50
	cmpq	%rax, %rdx
	je	Lunix_path_BB70_58
	jmp	Lunix_path_BB70_52
Lunix_path_BB70_83:
	cmpb	$47, 2(%rsi)
	je	Lunix_path_BB70_18
Lunix_path_BB70_84:
	movzbl	-1(%rax,%rcx), %r8d
	andb	$-2, %r8b
	cmpb	$46, %r8b
	je	Lunix_path_BB70_18
	cmpq	$17, %rdx
	jae	Lunix_path_BB70_88
Lunix_path_BB70_86:
	cmpq	$9, %rdx
	jae	Lunix_path_BB70_96
	xorl	%r8d, %r8d
	xorl	%r11d, %r11d
	jmp	Lunix_path_BB70_114
Lunix_path_BB70_88:
	cmpq	$32, %rdx
	ja	Lunix_path_BB70_98
	movdqu	(%rsi), %xmm0
	movdqu	1(%rsi), %xmm1
	pand	Lunix_path_CPI70_0(%rip), %xmm1
	por	%xmm0, %xmm1
	pcmpeqb	Lunix_path_CPI70_1(%rip), %xmm1
	pmovmskb	%xmm1, %r8d
	testl	%r8d, %r8d
	jne	Lunix_path_BB70_91
	movdqu	-17(%rax,%rcx), %xmm0
	movdqu	-16(%rax,%rcx), %xmm1
	pand	Lunix_path_CPI70_0(%rip), %xmm1
	por	%xmm0, %xmm1
	pcmpeqb	Lunix_path_CPI70_1(%rip), %xmm1
	pmovmskb	%xmm1, %r8d
	testl	%r8d, %r8d
	je	Lunix_path_BB70_112
Lunix_path_BB70_91:
	cmpq	$18, %rdx
	jbe	Lunix_path_BB70_86
	movq	%rdx, %r9
	addq	$-19, %r9
	jne	Lunix_path_BB70_100
	xorl	%r9d, %r9d
	xorl	%r8d, %r8d
	xorl	%r11d, %r11d
Lunix_path_BB70_94:
	leaq	-17(%rdx), %r10
	cmpq	%r8, %r10
	cmovbq	%r10, %r8
	movdqu	(%rsi,%r8), %xmm0
	movdqu	1(%rsi,%r8), %xmm1
	pand	Lunix_path_CPI70_0(%rip), %xmm1
	por	%xmm0, %xmm1
	pcmpeqb	Lunix_path_CPI70_1(%rip), %xmm1
	pmovmskb	%xmm1, %r10d
	testl	%r10d, %r10d
	je	Lunix_path_BB70_113
	movdqu	(%rsi,%r9), %xmm0
	movdqu	1(%rsi,%r9), %xmm1
	movdqu	2(%rsi,%r9), %xmm2
	movdqu	3(%rsi,%r9), %xmm3
	movdqa	Lunix_path_CPI70_2(%rip), %xmm4
	movdqa	%xmm2, %xmm5
	pcmpeqb	%xmm4, %xmm5
	movdqa	Lunix_path_CPI70_1(%rip), %xmm6
	pcmpeqb	%xmm6, %xmm3
	pand	%xmm5, %xmm3
	pcmpeqb	%xmm1, %xmm4
	pcmpeqb	%xmm6, %xmm2
	por	%xmm3, %xmm2
	pand	%xmm4, %xmm2
	pcmpeqb	%xmm6, %xmm0
	pcmpeqb	%xmm6, %xmm1
	por	%xmm2, %xmm1
	pand	%xmm0, %xmm1
	pmovmskb	%xmm1, %r8d
	orl	$65536, %r8d
	rep		bsfl	%r8d, %r8d
	jmp	Lunix_path_BB70_107
Lunix_path_BB70_96:
	movq	1(%rsi), %xmm0
	pand	Lunix_path_CPI70_3(%rip), %xmm0
	pcmpeqb	Lunix_path_CPI70_4(%rip), %xmm0
	movq	(%rsi), %xmm1
	pcmpeqb	Lunix_path_CPI70_5(%rip), %xmm1
	pand	%xmm0, %xmm1
	pmovmskb	%xmm1, %r8d
	orl	$256, %r8d
	rep		bsfl	%r8d, %r8d
	cmpb	$8, %r8b
	movl	$0, %r11d
	jb	Lunix_path_BB70_114
	cmpq	$17, %rdx
	movl	$17, %r8d
	cmovbq	%rdx, %r8
	movq	-8(%rsi,%r8), %xmm0
	pand	Lunix_path_CPI70_3(%rip), %xmm0
	pcmpeqb	Lunix_path_CPI70_4(%rip), %xmm0
	movq	-9(%rsi,%r8), %xmm1
	pcmpeqb	Lunix_path_CPI70_5(%rip), %xmm1
	pand	%xmm0, %xmm1
	pmovmskb	%xmm1, %r9d
	orl	$256, %r9d
	rep		bsfl	%r9d, %r9d
	addq	%r9, %r8
	addq	$-9, %r8
	jmp	Lunix_path_BB70_114
Lunix_path_BB70_98:
	movdqu	-33(%rsi,%rdx), %xmm1
	movdqu	-32(%rsi,%rdx), %xmm2
	movdqa	Lunix_path_CPI70_0(%rip), %xmm0
	pand	%xmm0, %xmm2
	por	%xmm1, %xmm2
	movdqa	Lunix_path_CPI70_1(%rip), %xmm1
	pcmpeqb	%xmm1, %xmm2
	movdqu	-17(%rax,%rcx), %xmm3
	movdqu	-16(%rax,%rcx), %xmm4
	pand	%xmm0, %xmm4
	por	%xmm3, %xmm4
	pcmpeqb	%xmm1, %xmm4
	por	%xmm2, %xmm4
	pmovmskb	%xmm4, %r8d
	testl	%r8d, %r8d
	je	Lunix_path_BB70_108
	leaq	-19(%rdx), %r9
Lunix_path_BB70_100:
	xorl	%r8d, %r8d
	xorl	%r11d, %r11d
	jmp	Lunix_path_BB70_102
Lunix_path_BB70_101:
	cmpq	%r9, %r8
	jae	Lunix_path_BB70_94
Lunix_path_BB70_102:
	movdqu	(%rsi,%r8), %xmm0
	movdqu	1(%rsi,%r8), %xmm1
	movdqa	Lunix_path_CPI70_0(%rip), %xmm2
	pand	%xmm1, %xmm2
	por	%xmm0, %xmm2
	pcmpeqb	Lunix_path_CPI70_1(%rip), %xmm2
	pmovmskb	%xmm2, %r10d
	testl	%r10d, %r10d
	je	Lunix_path_BB70_105
	movdqu	2(%rsi,%r8), %xmm2
	movdqu	3(%rsi,%r8), %xmm3
	movdqa	Lunix_path_CPI70_2(%rip), %xmm4
	movdqa	%xmm2, %xmm5
	pcmpeqb	%xmm4, %xmm5
	movdqa	Lunix_path_CPI70_1(%rip), %xmm6
	pcmpeqb	%xmm6, %xmm3
	pand	%xmm5, %xmm3
	pcmpeqb	%xmm1, %xmm4
	pcmpeqb	%xmm6, %xmm2
	por	%xmm3, %xmm2
	pand	%xmm4, %xmm2
	pcmpeqb	%xmm6, %xmm0
	pcmpeqb	%xmm6, %xmm1
	por	%xmm2, %xmm1
	pand	%xmm0, %xmm1
	pmovmskb	%xmm1, %r10d
	orl	$65536, %r10d
	rep		bsfl	%r10d, %r10d
	cmpw	$15, %r10w
	jbe	Lunix_path_BB70_106
	addq	$16, %r8
	jmp	Lunix_path_BB70_101
Lunix_path_BB70_105:
	addq	$16, %r8
	cmpq	%r9, %r8
	jb	Lunix_path_BB70_102
	jmp	Lunix_path_BB70_101
Lunix_path_BB70_106:
	movzwl	%r10w, %r9d
Lunix_path_BB70_107:
	addq	%r9, %r8
	jmp	Lunix_path_BB70_114
Lunix_path_BB70_108:
	movq	%rdx, %r8
	addq	$-33, %r8
	je	Lunix_path_BB70_112
	leaq	(%rdi,%rax), %r9
	addq	$17, %r9
	xorl	%r10d, %r10d
Lunix_path_BB70_110:
	movdqu	-17(%r9,%r10), %xmm2
	movdqu	-16(%r9,%r10), %xmm3
	movdqu	-1(%r9,%r10), %xmm4
	movdqu	(%r9,%r10), %xmm5
	pand	%xmm0, %xmm3
	por	%xmm2, %xmm3
	pcmpeqb	%xmm1, %xmm3
	pand	%xmm0, %xmm5
	por	%xmm4, %xmm5
	pcmpeqb	%xmm1, %xmm5
	por	%xmm3, %xmm5
	pmovmskb	%xmm5, %r11d
	testl	%r11d, %r11d
	jne	Lunix_path_BB70_91
	addq	$32, %r10
	cmpq	%r8, %r10
	jb	Lunix_path_BB70_110
Lunix_path_BB70_112:
	xorl	%r11d, %r11d
	jmp	Lunix_path_BB70_127
Lunix_path_BB70_113:
	addq	$16, %r8
Lunix_path_BB70_114:
	cmpq	%rdx, %r8
	jae	Lunix_path_BB70_125
	leaq	(%rdi,%rax), %r9
	addq	$3, %r9
	subq	%rcx, %rdi
	jmp	Lunix_path_BB70_118
Lunix_path_BB70_116:
	cmpl	$47, %ecx
	je	Lunix_path_BB70_126
Lunix_path_BB70_117:
	movq	%rdi, %rax
	addq	%r8, %rax
	je	Lunix_path_BB70_127
Lunix_path_BB70_118:
	movq	%r8, %rax
	incq	%r8
	cmpb	$47, -3(%r9,%rax)
	jne	Lunix_path_BB70_117
	cmpq	%r8, %rdx
	jbe	Lunix_path_BB70_126
	movzbl	-2(%r9,%rax), %ecx
	cmpl	$46, %ecx
	jne	Lunix_path_BB70_116
	leaq	2(%rax), %rcx
	cmpq	%rcx, %rdx
	jbe	Lunix_path_BB70_126
	movzbl	-1(%r9,%rax), %ecx
	cmpl	$46, %ecx
	jne	Lunix_path_BB70_116
	leaq	3(%rax), %rcx
	cmpq	%rcx, %rdx
	jbe	Lunix_path_BB70_126
	cmpb	$47, (%r9,%rax)
	jne	Lunix_path_BB70_117
	jmp	Lunix_path_BB70_126
Lunix_path_BB70_125:
	movq	%r8, %rax
Lunix_path_BB70_126:
	pxor	%xmm0, %xmm0
	movdqa	%xmm0, 48(%rsp)
	movdqa	%xmm0, 32(%rsp)
	movq	$0, 64(%rsp)
	cmpq	%rax, %rdx
	jne	Lunix_path_BB70_19
Lunix_path_BB70_127:
	leaq	1(%rdx), %rax
	movq	$-1, %r8
	movb	$1, %cl
	jmp	Lunix_path_BB70_20
	.globl	_unix_path_key_range_end
	.p2align	4
_unix_path_key_range_end:
	pushq	%rbp
	pushq	%r15
	pushq	%r14
	pushq	%r13
	pushq	%r12
	pushq	%rbx
	pushq	%rax
	xorl	%ebp, %ebp
	testq	%rdi, %rdi
	sete	%al
	testq	%rdx, %rdx
	sete	%r13b
	testq	%rsi, %rsi
	je	Lunix_path_BB71_1
	movq	%rcx, %r12
	movq	%rdx, %r15
	movq	%rsi, %rbx
	movb	%al, %bpl
	shll	$12, %ebp
	movq	%rdi, (%rsp)
	leaq	(%rdi,%rbp), %r14
	movq	%r14, %rdi
	callq	_path_keys.decode.path_len
	movl	%eax, %ecx
	movq	$-5, %rax
	cmpb	$1, %cl
	jne	Lunix_path_BB71_26
	leaq	-1(%rbx), %r8
	cmpq	%r12, %r8
	jae	Lunix_path_BB71_25
	xorl	%r9d, %r9d
	movb	%r13b, %r9b
	shll	$12, %r9d
	leaq	(%r15,%r9), %r12
	movq	%r12, %rax
	subq	%r14, %rax
	cmpq	%rbx, %rax
	jae	Lunix_path_BB71_27
	cmpq	$4, %rbx
	jae	Lunix_path_BB71_7
	xorl	%ecx, %ecx
	movq	(%rsp), %rax
	jmp	Lunix_path_BB71_18
Lunix_path_BB71_1:
	movq	$-6, %rax
	jmp	Lunix_path_BB71_26
Lunix_path_BB71_27:
	movq	%r12, %rdi
	movq	%r14, %rsi
	movq	%rbx, %rdx
	movq	%r8, %r15
	callq	_memmove
	movq	%r15, %r8
	jmp	Lunix_path_BB71_24
Lunix_path_BB71_7:
	cmpq	$32, %rax
	movq	(%rsp), %rax
	jae	Lunix_path_BB71_9
	xorl	%ecx, %ecx
	jmp	Lunix_path_BB71_18
Lunix_path_BB71_9:
	cmpq	$32, %rbx
	jae	Lunix_path_BB71_11
	xorl	%ecx, %ecx
	jmp	Lunix_path_BB71_15
Lunix_path_BB71_11:
	movq	%rbx, %rcx
	andq	$-32, %rcx
	leaq	(%rax,%rbp), %rdx
	addq	$16, %rdx
	leaq	(%r9,%r15), %rsi
	addq	$16, %rsi
	xorl	%edi, %edi
	.p2align	4
Lunix_path_BB71_12:
	movups	-16(%rdx,%rdi), %xmm0
	movups	(%rdx,%rdi), %xmm1
	movups	%xmm0, -16(%rsi,%rdi)
	movups	%xmm1, (%rsi,%rdi)
	addq	$32, %rdi
	cmpq	%rdi, %rcx
	jne	Lunix_path_BB71_12
	cmpq	%rcx, %rbx
	je	Lunix_path_BB71_24
	testb	$28, %bl
	je	Lunix_path_BB71_18
Lunix_path_BB71_15:
	movq	%rcx, %rdx
	movq	%rbx, %rcx
	andq	$-4, %rcx
	.p2align	4
Lunix_path_BB71_16:
	movl	(%r14,%rdx), %esi
	movl	%esi, (%r12,%rdx)
	addq	$4, %rdx
	cmpq	%rdx, %rcx
	jne	Lunix_path_BB71_16
	cmpq	%rcx, %rbx
	je	Lunix_path_BB71_24
Lunix_path_BB71_18:
	movq	%rbx, %rsi
	movq	%rcx, %rdx
	andq	$3, %rsi
	je	Lunix_path_BB71_21
	movq	%rcx, %rdx
	.p2align	4
Lunix_path_BB71_20:
	movzbl	(%r14,%rdx), %edi
	movb	%dil, (%r12,%rdx)
	incq	%rdx
	decq	%rsi
	jne	Lunix_path_BB71_20
Lunix_path_BB71_21:
	subq	%rbx, %rcx
	cmpq	$-4, %rcx
	ja	Lunix_path_BB71_24
	addq	%rbp, %rax
	addq	$3, %rax
	leaq	(%r9,%r15), %rcx
	addq	$3, %rcx
	.p2align	4
Lunix_path_BB71_23:
	movzbl	-3(%rax,%rdx), %esi
	movb	%sil, -3(%rcx,%rdx)
	movzbl	-2(%rax,%rdx), %esi
	movb	%sil, -2(%rcx,%rdx)
	movzbl	-1(%rax,%rdx), %esi
	movb	%sil, -1(%rcx,%rdx)
	movzbl	(%rax,%rdx), %esi
	movb	%sil, (%rcx,%rdx)
	addq	$4, %rdx
	cmpq	%rdx, %rbx
	jne	Lunix_path_BB71_23
Lunix_path_BB71_24:
	movzbl	(%r14,%r8), %eax
	incb	%al
	movb	%al, (%r12,%r8)
Lunix_path_BB71_25:
	movq	%rbx, %rax
Lunix_path_BB71_26:
	addq	$8, %rsp
	popq	%rbx
	popq	%r12
	popq	%r13
	popq	%r14
	popq	%r15
	popq	%rbp
	retq
	.globl	_unix_path_to_string_lossy
	.p2align	4
_unix_path_to_string_lossy:
	pushq	%rbp
	pushq	%r15
	pushq	%r14
	pushq	%r13
	pushq	%r12
	pushq	%rbx
	subq	$88, %rsp
	movq	%rcx, %r15
	movq	%rdx, %rbx
	movq	%rsi, %r14
	xorl	%ebp, %ebp
	testq	%rdi, %rdi
	sete	%bpl
	shll	$12, %ebp
	addq	%rdi, %rbp
	xorl	%r13d, %r13d
	testq	%rdx, %rdx
	sete	8(%rsp)
	movq	%rbp, 16(%rsp)
	movq	%rsi, 24(%rsp)
	leaq	32(%rsp), %rdi
	leaq	16(%rsp), %rsi
	callq	_unix_bytes.lossy.Utf8LossyChunksIterIterator.next
	cmpb	$1, 32(%rsp)
	jne	Lunix_path_BB72_5
	xorl	%r12d, %r12d
	jmp	Lunix_path_BB72_3
	.p2align	4
Lunix_path_BB72_2:
	leaq	32(%rsp), %rdi
	leaq	16(%rsp), %rsi
	callq	_unix_bytes.lossy.Utf8LossyChunksIterIterator.next
	cmpb	$1, 32(%rsp)
	jne	Lunix_path_BB72_6
Lunix_path_BB72_3:
	addq	48(%rsp), %r12
	movq	$-1, %rax
	cmovbq	%rax, %r12
	cmpq	$0, 64(%rsp)
	je	Lunix_path_BB72_2
	addq	$3, %r12
	cmovbq	%rax, %r12
	jmp	Lunix_path_BB72_2
Lunix_path_BB72_5:
	xorl	%r12d, %r12d
	jmp	Lunix_path_BB72_7
Lunix_path_BB72_6:
	cmpq	%r15, %r12
	ja	Lunix_path_BB72_34
Lunix_path_BB72_7:
	movq	%rbp, 16(%rsp)
	movq	%r14, 24(%rsp)
	leaq	32(%rsp), %rdi
	leaq	16(%rsp), %rsi
	callq	_unix_bytes.lossy.Utf8LossyChunksIterIterator.next
	cmpb	$1, 32(%rsp)
	jne	Lunix_path_BB72_34
	movzbl	8(%rsp), %eax
	movb	%al, %r13b
	shll	$12, %r13d
	leaq	(%rbx,%r13), %rax
	movq	%rax, 8(%rsp)
	leaq	(%rbx,%r13), %rax
	addq	$16, %rax
	movq	%rax, 72(%rsp)
	leaq	(%rbx,%r13), %rax
	addq	$3, %rax
	movq	%rax, 80(%rsp)
	xorl	%ebp, %ebp
	jmp	Lunix_path_BB72_11
	.p2align	4
Lunix_path_BB72_9:
	testq	%r9, %r9
	movzbl	(%r14), %eax
	movb	%al, (%rdi)
	cmoveq	%r10, %r11
	movzwl	1(%r11), %eax
	movw	%ax, 1(%rdi)
Lunix_path_BB72_10:
	addq	%rbx, %r15
	leaq	32(%rsp), %rdi
	leaq	16(%rsp), %rsi
	callq	_unix_bytes.lossy.Utf8LossyChunksIterIterator.next
	cmpb	$1, 32(%rsp)
	movq	%r15, %rbp
	jne	Lunix_path_BB72_34
Lunix_path_BB72_11:
	movq	40(%rsp), %rsi
	movq	48(%rsp), %rbx
	movq	64(%rsp), %r9
	xorl	%r15d, %r15d
	testq	%r9, %r9
	setne	%r13b
	leaq	lunix_path__static.0(%rip), %r10
	leaq	lunix_path__static.12(%rip), %r11
	movq	%r11, %r14
	cmoveq	%r10, %r14
	movq	8(%rsp), %rax
	leaq	(%rax,%rbp), %rdi
	movq	%rdi, %rax
	subq	%rsi, %rax
	cmpq	%rbx, %rax
	jae	Lunix_path_BB72_14
	cmpq	$4, %rbx
	jb	Lunix_path_BB72_13
	cmpq	$32, %rax
	jae	Lunix_path_BB72_17
Lunix_path_BB72_13:
	xorl	%eax, %eax
Lunix_path_BB72_26:
	movq	%rbx, %rdx
	movq	%rax, %rcx
	andq	$3, %rdx
	je	Lunix_path_BB72_29
	movq	%rax, %rcx
	.p2align	4
Lunix_path_BB72_28:
	movzbl	(%rsi,%rcx), %r8d
	movb	%r8b, (%rdi,%rcx)
	incq	%rcx
	decq	%rdx
	jne	Lunix_path_BB72_28
Lunix_path_BB72_29:
	subq	%rbx, %rax
	cmpq	$-4, %rax
	ja	Lunix_path_BB72_32
	movq	80(%rsp), %rax
	addq	%rbp, %rax
	.p2align	4
Lunix_path_BB72_31:
	movzbl	(%rsi,%rcx), %edx
	movb	%dl, -3(%rax,%rcx)
	movzbl	1(%rsi,%rcx), %edx
	movb	%dl, -2(%rax,%rcx)
	movzbl	2(%rsi,%rcx), %edx
	movb	%dl, -1(%rax,%rcx)
	movzbl	3(%rsi,%rcx), %edx
	movb	%dl, (%rax,%rcx)
	addq	$4, %rcx
	cmpq	%rcx, %rbx
	jne	Lunix_path_BB72_31
	jmp	Lunix_path_BB72_32
	.p2align	4
Lunix_path_BB72_14:
	movq	%rbx, %rdx
	movl	%r13d, %r15d
	movq	%r9, %r13
	callq	_memmove
	leaq	lunix_path__static.12(%rip), %r11
	leaq	lunix_path__static.0(%rip), %r10
	movq	%r13, %r9
	movl	%r15d, %r13d
	xorl	%r15d, %r15d
Lunix_path_BB72_32:
	movb	%r13b, %r15b
	leaq	(%r15,%r15,2), %r15
	addq	%rbp, %rbx
	movq	8(%rsp), %rax
	leaq	(%rax,%rbx), %rdi
	movq	%rdi, %rax
	subq	%r14, %rax
	cmpq	%r15, %rax
	jb	Lunix_path_BB72_9
	movq	%r14, %rsi
	movq	%r15, %rdx
	callq	_memcpy
	jmp	Lunix_path_BB72_10
Lunix_path_BB72_17:
	cmpq	$32, %rbx
	jae	Lunix_path_BB72_19
	xorl	%eax, %eax
	jmp	Lunix_path_BB72_23
Lunix_path_BB72_19:
	movq	%rbx, %rax
	andq	$-32, %rax
	movq	72(%rsp), %rcx
	addq	%rbp, %rcx
	xorl	%edx, %edx
	.p2align	4
Lunix_path_BB72_20:
	movups	(%rsi,%rdx), %xmm0
	movups	16(%rsi,%rdx), %xmm1
	movups	%xmm0, -16(%rcx,%rdx)
	movups	%xmm1, (%rcx,%rdx)
	addq	$32, %rdx
	cmpq	%rdx, %rax
	jne	Lunix_path_BB72_20
	cmpq	%rax, %rbx
	je	Lunix_path_BB72_32
	testb	$28, %bl
	je	Lunix_path_BB72_26
Lunix_path_BB72_23:
	movq	%rax, %rcx
	movq	%rbx, %rax
	andq	$-4, %rax
	.p2align	4
Lunix_path_BB72_24:
	movl	(%rsi,%rcx), %edx
	movl	%edx, (%rdi,%rcx)
	addq	$4, %rcx
	cmpq	%rcx, %rax
	jne	Lunix_path_BB72_24
	cmpq	%rax, %rbx
	je	Lunix_path_BB72_32
	jmp	Lunix_path_BB72_26
Lunix_path_BB72_34:
	movabsq	$-9223372036854775808, %rax
	cmpq	%rax, %r12
	cmovbq	%r12, %rax
	addq	$88, %rsp
	popq	%rbx
	popq	%r12
	popq	%r13
	popq	%r14
	popq	%r15
	popq	%rbp
	retq
	.globl	_unix_path_join
	.p2align	4
_unix_path_join:
	pushq	%rbp
	pushq	%r15
	pushq	%r14
	pushq	%r13
	pushq	%r12
	pushq	%rbx
	subq	$40, %rsp
	movq	%rsi, %r14
	movq	%rdi, %rsi
	xorl	%r10d, %r10d
	testq	%rdi, %rdi
	sete	%dil
	xorl	%r12d, %r12d
	testq	%rdx, %rdx
	sete	%r12b
	shll	$12, %r12d
	leaq	(%rdx,%r12), %r15
	xorl	%ebx, %ebx
	testq	%r8, %r8
	sete	%al
	testq	%rcx, %rcx
	je	Lunix_path_BB73_3
	cmpb	$47, (%r15)
	jne	Lunix_path_BB73_3
	leaq	lunix_path__static.0(%rip), %rsi
	xorl	%r14d, %r14d
	xorl	%r11d, %r11d
	jmp	Lunix_path_BB73_6
Lunix_path_BB73_3:
	movb	%dil, %r10b
	shll	$12, %r10d
	addq	%r10, %rsi
	xorl	%r11d, %r11d
	testq	%r14, %r14
	je	Lunix_path_BB73_5
	cmpb	$47, -1(%rsi,%r14)
	setne	%dil
	movl	$47, %r10d
	cmovnel	%r10d, %r11d
	movl	%r11d, %r13d
	movl	%edi, %r11d
	jmp	Lunix_path_BB73_7
Lunix_path_BB73_5:
	xorl	%r14d, %r14d
Lunix_path_BB73_6:
	xorl	%r13d, %r13d
Lunix_path_BB73_7:
	movzbl	%r11b, %r10d
	leaq	(%r14,%rcx), %rbp
	addq	%r10, %rbp
	cmpq	%rbp, %r9
	jb	Lunix_path_BB73_52
	movq	%r13, 32(%rsp)
	movq	%r12, (%rsp)
	movq	%rdx, 8(%rsp)
	movb	%al, %bl
	shll	$12, %ebx
	leaq	(%r8,%rbx), %r13
	movq	%r13, %rax
	subq	%rsi, %rax
	cmpq	%r14, %rax
	jae	Lunix_path_BB73_11
	cmpq	$4, %r14
	jb	Lunix_path_BB73_10
	cmpq	$32, %rax
	jae	Lunix_path_BB73_14
Lunix_path_BB73_10:
	xorl	%eax, %eax
Lunix_path_BB73_23:
	movq	%r14, %rdi
	movq	%rax, %rdx
	andq	$3, %rdi
	je	Lunix_path_BB73_26
	movq	%rax, %rdx
	.p2align	4
Lunix_path_BB73_25:
	movzbl	(%rsi,%rdx), %r9d
	movb	%r9b, (%r13,%rdx)
	incq	%rdx
	decq	%rdi
	jne	Lunix_path_BB73_25
Lunix_path_BB73_26:
	subq	%r14, %rax
	cmpq	$-4, %rax
	ja	Lunix_path_BB73_29
	leaq	(%rbx,%r8), %rax
	addq	$3, %rax
	.p2align	4
Lunix_path_BB73_28:
	movzbl	(%rsi,%rdx), %edi
	movb	%dil, -3(%rax,%rdx)
	movzbl	1(%rsi,%rdx), %edi
	movb	%dil, -2(%rax,%rdx)
	movzbl	2(%rsi,%rdx), %edi
	movb	%dil, -1(%rax,%rdx)
	movzbl	3(%rsi,%rdx), %edi
	movb	%dil, (%rax,%rdx)
	addq	$4, %rdx
	cmpq	%rdx, %r14
	jne	Lunix_path_BB73_28
	jmp	Lunix_path_BB73_29
Lunix_path_BB73_11:
	movq	%r13, %rdi
	movq	%r14, %rdx
	movq	%rbp, 24(%rsp)
	movq	%rbx, %rbp
	movq	%rcx, %rbx
	movq	%r8, %r12
	movq	%r15, 16(%rsp)
	movq	%r10, %r15
	callq	_memmove
	movq	%r15, %r10
	movq	16(%rsp), %r15
	movq	%r12, %r8
	movq	%rbx, %rcx
	movq	%rbp, %rbx
	movq	24(%rsp), %rbp
Lunix_path_BB73_29:
	testq	%r10, %r10
	je	Lunix_path_BB73_31
	movq	32(%rsp), %rax
	movb	%al, (%r13,%r14)
Lunix_path_BB73_31:
	movq	%rbp, %rax
	subq	%rcx, %rax
	addq	%rax, %r13
	movq	%r13, %rax
	subq	%r15, %rax
	cmpq	%rcx, %rax
	jae	Lunix_path_BB73_34
	cmpq	$4, %rcx
	jae	Lunix_path_BB73_35
	xorl	%eax, %eax
	movq	8(%rsp), %r11
	movq	(%rsp), %r12
	jmp	Lunix_path_BB73_46
Lunix_path_BB73_34:
	movq	%r13, %rdi
	movq	%r15, %rsi
	movq	%rcx, %rdx
	callq	_memmove
	jmp	Lunix_path_BB73_52
Lunix_path_BB73_35:
	leaq	(%rbx,%r14), %rdx
	leaq	(%rdx,%r8), %rax
	addq	%r10, %rax
	subq	%r15, %rax
	cmpq	$32, %rax
	movq	8(%rsp), %r11
	movq	(%rsp), %r12
	jae	Lunix_path_BB73_37
	xorl	%eax, %eax
	jmp	Lunix_path_BB73_46
Lunix_path_BB73_14:
	cmpq	$32, %r14
	jae	Lunix_path_BB73_16
	xorl	%eax, %eax
	jmp	Lunix_path_BB73_20
Lunix_path_BB73_37:
	cmpq	$32, %rcx
	jae	Lunix_path_BB73_39
	xorl	%eax, %eax
	jmp	Lunix_path_BB73_43
Lunix_path_BB73_16:
	movq	%r14, %rax
	andq	$-32, %rax
	leaq	(%rbx,%r8), %rdx
	addq	$16, %rdx
	xorl	%edi, %edi
	.p2align	4
Lunix_path_BB73_17:
	movups	(%rsi,%rdi), %xmm0
	movups	16(%rsi,%rdi), %xmm1
	movups	%xmm0, -16(%rdx,%rdi)
	movups	%xmm1, (%rdx,%rdi)
	addq	$32, %rdi
	cmpq	%rdi, %rax
	jne	Lunix_path_BB73_17
	cmpq	%rax, %r14
	je	Lunix_path_BB73_29
	testb	$28, %r14b
	je	Lunix_path_BB73_23
Lunix_path_BB73_20:
	movq	%rax, %rdx
	movq	%r14, %rax
	andq	$-4, %rax
	.p2align	4
Lunix_path_BB73_21:
	movl	(%rsi,%rdx), %edi
	movl	%edi, (%r13,%rdx)
	addq	$4, %rdx
	cmpq	%rdx, %rax
	jne	Lunix_path_BB73_21
	cmpq	%rax, %r14
	je	Lunix_path_BB73_29
	jmp	Lunix_path_BB73_23
Lunix_path_BB73_39:
	movq	%rcx, %rax
	andq	$-32, %rax
	leaq	(%r12,%r11), %rsi
	addq	$16, %rsi
	leaq	(%rdx,%r10), %rdi
	addq	%r8, %rdi
	addq	$16, %rdi
	xorl	%r9d, %r9d
	.p2align	4
Lunix_path_BB73_40:
	movups	-16(%rsi,%r9), %xmm0
	movups	(%rsi,%r9), %xmm1
	movups	%xmm0, -16(%rdi,%r9)
	movups	%xmm1, (%rdi,%r9)
	addq	$32, %r9
	cmpq	%r9, %rax
	jne	Lunix_path_BB73_40
	cmpq	%rax, %rcx
	je	Lunix_path_BB73_52
	testb	$28, %cl
	je	Lunix_path_BB73_46
Lunix_path_BB73_43:
	movq	%rax, %r9
	movq	%rcx, %rax
	andq	$-4, %rax
	movq	%rax, %rsi
	subq	%r9, %rsi
	leaq	(%r12,%r9), %rdi
	addq	%r11, %rdi
	addq	%r9, %rdx
	movq	%r10, %r13
	addq	%r10, %rdx
	addq	%r8, %rdx
	xorl	%r9d, %r9d
	.p2align	4
Lunix_path_BB73_44:
	movl	(%rdi,%r9), %r10d
	movl	%r10d, (%rdx,%r9)
	addq	$4, %r9
	cmpq	%r9, %rsi
	jne	Lunix_path_BB73_44
	cmpq	%rax, %rcx
	movq	%r13, %r10
	je	Lunix_path_BB73_52
Lunix_path_BB73_46:
	movq	%r10, %r13
	movq	%rcx, %rsi
	movq	%rax, %rdx
	andq	$3, %rsi
	je	Lunix_path_BB73_49
	leaq	(%rbx,%rax), %rdi
	addq	%r14, %rdi
	addq	%r13, %rdi
	addq	%r8, %rdi
	xorl	%r9d, %r9d
	movq	%rax, %rdx
	.p2align	4
Lunix_path_BB73_48:
	movzbl	(%r15,%rdx), %r10d
	movb	%r10b, (%rdi,%r9)
	incq	%rdx
	incq	%r9
	cmpq	%r9, %rsi
	jne	Lunix_path_BB73_48
Lunix_path_BB73_49:
	subq	%rcx, %rax
	cmpq	$-4, %rax
	ja	Lunix_path_BB73_52
	subq	%rdx, %rcx
	addq	%rdx, %r12
	leaq	(%r11,%r12), %rax
	addq	$3, %rax
	addq	%r14, %rbx
	addq	%rdx, %rbx
	addq	%r13, %rbx
	leaq	(%r8,%rbx), %rdx
	addq	$3, %rdx
	xorl	%esi, %esi
	.p2align	4
Lunix_path_BB73_51:
	movzbl	-3(%rax,%rsi), %edi
	movb	%dil, -3(%rdx,%rsi)
	movzbl	-2(%rax,%rsi), %edi
	movb	%dil, -2(%rdx,%rsi)
	movzbl	-1(%rax,%rsi), %edi
	movb	%dil, -1(%rdx,%rsi)
	movzbl	(%rax,%rsi), %edi
	movb	%dil, (%rdx,%rsi)
	addq	$4, %rsi
	cmpq	%rsi, %rcx
	jne	Lunix_path_BB73_51
Lunix_path_BB73_52:
	movq	%rbp, %rax
	addq	$40, %rsp
	popq	%rbx
	popq	%r12
	popq	%r13
	popq	%r14
	popq	%r15
	popq	%rbp
	retq
	.section	__TEXT,__literal16,16byte_literals
	.p2align	4, 0x0
Lunix_path_CPI74_0:
	.space	16,208
Lunix_path_CPI74_1:
	.space	16,47
Lunix_path_CPI74_2:
	.space	16,46
Lunix_path_CPI74_3:
	.byte	254
	.byte	254
	.byte	254
	.byte	254
	.byte	254
	.byte	254
	.byte	254
	.byte	254
	.space	1
	.space	1
	.space	1
	.space	1
	.space	1
	.space	1
	.space	1
	.space	1
Lunix_path_CPI74_4:
	.byte	46
	.byte	46
	.byte	46
	.byte	46
	.byte	46
	.byte	46
	.byte	46
	.byte	46
	.space	1
	.space	1
	.space	1
	.space	1
	.space	1
	.space	1
	.space	1
	.space	1
Lunix_path_CPI74_5:
	.byte	47
	.byte	47
	.byte	47
	.byte	47
	.byte	47
	.byte	47
	.byte	47
	.byte	47
	.space	1
	.space	1
	.space	1
	.space	1
	.space	1
	.space	1
	.space	1
	.space	1
	.section	__TEXT,__text,regular,pure_instructions
	.globl	_unix_path_join_verbatim
	.p2align	4
_unix_path_join_verbatim:
	pushq	%rbp
	pushq	%r15
	pushq	%r14
	pushq	%r13
	pushq	%r12
	pushq	%rbx
	subq	$56, %rsp
	movq	%r9, 8(%rsp)
	movq	%rcx, %rbx
	movq	%rsi, %r15
	xorl	%r9d, %r9d
	testq	%rdi, %rdi
	sete	%r14b
	xorl	%ebp, %ebp
	testq	%rdx, %rdx
	sete	%bpl
	shll	$12, %ebp
	movq	%rdx, 24(%rsp)
	leaq	(%rdx,%rbp), %r13
	movq	%r8, 16(%rsp)
	testq	%r8, %r8
	sete	40(%rsp)
	testq	%rcx, %rcx
	je	Lunix_path_BB74_115
	movzbl	(%r13), %r8d
	movq	$-2, %rax
	cmpl	$47, %r8d
	je	Lunix_path_BB74_165
	movq	%rdi, 32(%rsp)
	cmpl	$46, %r8d
	jne	Lunix_path_BB74_8
	movb	$1, %r12b
	cmpq	$1, %rbx
	je	Lunix_path_BB74_64
	movzbl	1(%r13), %ecx
	cmpl	$47, %ecx
	je	Lunix_path_BB74_64
	cmpl	$46, %ecx
	jne	Lunix_path_BB74_8
	cmpq	$2, %rbx
	je	Lunix_path_BB74_63
	cmpb	$47, 2(%r13)
	je	Lunix_path_BB74_63
Lunix_path_BB74_8:
	movzbl	-1(%r13,%rbx), %ecx
	andb	$-2, %cl
	cmpb	$46, %cl
	je	Lunix_path_BB74_55
	cmpq	$17, %rbx
	jae	Lunix_path_BB74_12
Lunix_path_BB74_10:
	cmpq	$9, %rbx
	jae	Lunix_path_BB74_20
	xorl	%ecx, %ecx
	cmpq	%rbx, %rcx
	jb	Lunix_path_BB74_33
Lunix_path_BB74_49:
	movq	%rcx, %rdx
Lunix_path_BB74_50:
	cmpq	%rbx, %rdx
	jne	Lunix_path_BB74_55
Lunix_path_BB74_51:
	cmpq	$15, %rbx
	ja	Lunix_path_BB74_59
	xorl	%ecx, %ecx
	movq	32(%rsp), %rdi
	xorl	%r9d, %r9d
	.p2align	4
Lunix_path_BB74_53:
	cmpb	$0, (%r13,%rcx)
	je	Lunix_path_BB74_114
	incq	%rcx
	cmpq	%rcx, %rbx
	jne	Lunix_path_BB74_53
	jmp	Lunix_path_BB74_115
Lunix_path_BB74_55:
	movb	$1, %r12b
	cmpl	$47, %r8d
	je	Lunix_path_BB74_64
	cmpl	$46, %r8d
	jne	Lunix_path_BB74_63
	cmpq	$1, %rbx
	je	Lunix_path_BB74_64
	cmpb	$47, 1(%r13)
	sete	%r12b
	jmp	Lunix_path_BB74_64
Lunix_path_BB74_59:
	movq	%rbx, %rax
	addq	$-16, %rax
	movq	32(%rsp), %rdi
	movl	$0, %r9d
	je	Lunix_path_BB74_112
Lunix_path_BB74_60:
	xorl	%edx, %edx
	.p2align	4
Lunix_path_BB74_61:
	movdqu	(%r13,%rdx), %xmm0
	pxor	%xmm1, %xmm1
	pcmpeqb	%xmm0, %xmm1
	pmovmskb	%xmm1, %ecx
	orl	$65536, %ecx
	rep		bsfl	%ecx, %ecx
	cmpw	$15, %cx
	jbe	Lunix_path_BB74_125
	addq	$16, %rdx
	cmpq	%rax, %rdx
	jb	Lunix_path_BB74_61
	jmp	Lunix_path_BB74_113
Lunix_path_BB74_63:
	xorl	%r12d, %r12d
Lunix_path_BB74_64:
	movq	%rbx, %rcx
	movq	%rbx, %rax
	jmp	Lunix_path_BB74_66
	.p2align	4
Lunix_path_BB74_65:
	movq	%rax, %rcx
	testq	%rax, %rax
	je	Lunix_path_BB74_51
Lunix_path_BB74_66:
	decq	%rax
	je	Lunix_path_BB74_72
	movzbl	(%r13,%rax), %edx
	cmpl	$47, %edx
	je	Lunix_path_BB74_70
	cmpl	$46, %edx
	jne	Lunix_path_BB74_72
	cmpb	$47, -1(%r13,%rax)
	jne	Lunix_path_BB74_72
Lunix_path_BB74_70:
	movq	%rbx, %rcx
	subq	%rax, %rcx
	cmpq	$8, %rcx
	jne	Lunix_path_BB74_65
	movq	%r13, %rdi
	movq	%rax, %rsi
	callq	_unix_path.filler.trimmed_blocks_len
	jmp	Lunix_path_BB74_65
Lunix_path_BB74_72:
	xorl	%eax, %eax
	movq	%rcx, %rdx
	movq	%r13, %rsi
	jmp	Lunix_path_BB74_76
Lunix_path_BB74_73:
	xorl	%edi, %edi
Lunix_path_BB74_74:
	addq	%r8, %rdi
Lunix_path_BB74_75:
	addq	%rdi, %rax
	leaq	(%rax,%r13), %rsi
	xorl	%r12d, %r12d
	movq	%rcx, %rdx
	subq	%rax, %rdx
	je	Lunix_path_BB74_51
Lunix_path_BB74_76:
	testb	$1, %r12b
	je	Lunix_path_BB74_84
	movq	%rdx, %r8
	decq	%r8
	je	Lunix_path_BB74_106
	leaq	-1(%rdx), %r9
	addq	$-2, %rdx
	xorl	%edi, %edi
	jmp	Lunix_path_BB74_80
	.p2align	4
Lunix_path_BB74_79:
	incq	%rdi
	cmpq	%rdi, %r9
	je	Lunix_path_BB74_107
Lunix_path_BB74_80:
	movzbl	1(%rsi,%rdi), %r10d
	cmpl	$47, %r10d
	je	Lunix_path_BB74_79
	cmpl	$46, %r10d
	jne	Lunix_path_BB74_108
	cmpq	%rdi, %rdx
	je	Lunix_path_BB74_107
	cmpb	$47, 2(%rsi,%rdi)
	je	Lunix_path_BB74_79
	.p2align	4
Lunix_path_BB74_108:
	incq	%rdi
	cmpb	$47, (%rsi)
	jne	Lunix_path_BB74_75
	jmp	Lunix_path_BB74_111
	.p2align	4
Lunix_path_BB74_84:
	cmpq	$1, %rdx
	je	Lunix_path_BB74_89
	cmpb	$46, (%rsi)
	jne	Lunix_path_BB74_89
	cmpb	$46, 1(%rsi)
	jne	Lunix_path_BB74_89
	cmpq	$2, %rdx
	je	Lunix_path_BB74_111
	cmpb	$47, 2(%rsi)
	je	Lunix_path_BB74_111
Lunix_path_BB74_89:
	cmpq	$15, %rdx
	ja	Lunix_path_BB74_94
	xorl	%r8d, %r8d
	.p2align	4
Lunix_path_BB74_91:
	cmpb	$47, (%rsi,%r8)
	je	Lunix_path_BB74_99
	incq	%r8
	cmpq	%r8, %rdx
	jne	Lunix_path_BB74_91
	movq	%rdx, %r8
	subq	%r8, %rdx
	jne	Lunix_path_BB74_100
	jmp	Lunix_path_BB74_73
	.p2align	4
Lunix_path_BB74_94:
	movq	%rdx, %rdi
	addq	$-16, %rdi
	je	Lunix_path_BB74_98
	xorl	%r9d, %r9d
	.p2align	4
Lunix_path_BB74_96:
	movdqu	(%rsi,%r9), %xmm0
	pcmpeqb	Lunix_path_CPI74_1(%rip), %xmm0
	pmovmskb	%xmm0, %r8d
	orl	$65536, %r8d
	rep		bsfl	%r8d, %r8d
	cmpw	$15, %r8w
	jbe	Lunix_path_BB74_110
	addq	$16, %r9
	cmpq	%rdi, %r9
	jb	Lunix_path_BB74_96
Lunix_path_BB74_98:
	movdqu	(%rsi,%rdi), %xmm0
	pcmpeqb	Lunix_path_CPI74_1(%rip), %xmm0
	pmovmskb	%xmm0, %r8d
	orl	$65536, %r8d
	rep		bsfl	%r8d, %r8d
	addq	%rdi, %r8
Lunix_path_BB74_99:
	subq	%r8, %rdx
	je	Lunix_path_BB74_73
Lunix_path_BB74_100:
	addq	%r8, %rsi
	incq	%rsi
	leaq	-1(%rdx), %r9
	xorl	%edi, %edi
	jmp	Lunix_path_BB74_102
	.p2align	4
Lunix_path_BB74_101:
	incq	%rdi
	cmpq	%rdi, %rdx
	je	Lunix_path_BB74_109
Lunix_path_BB74_102:
	movzbl	-1(%rsi,%rdi), %r10d
	cmpl	$47, %r10d
	je	Lunix_path_BB74_101
	cmpl	$46, %r10d
	jne	Lunix_path_BB74_74
	cmpq	%rdi, %r9
	je	Lunix_path_BB74_109
	cmpb	$47, (%rsi,%rdi)
	je	Lunix_path_BB74_101
	jmp	Lunix_path_BB74_74
Lunix_path_BB74_106:
	movl	$1, %edi
	cmpb	$47, (%rsi)
	jne	Lunix_path_BB74_75
	jmp	Lunix_path_BB74_111
Lunix_path_BB74_107:
	movq	%r8, %rdi
	incq	%rdi
	cmpb	$47, (%rsi)
	jne	Lunix_path_BB74_75
	jmp	Lunix_path_BB74_111
Lunix_path_BB74_109:
	movq	%rdx, %rdi
	jmp	Lunix_path_BB74_74
Lunix_path_BB74_110:
	movzwl	%r8w, %r8d
	addq	%r9, %r8
	subq	%r8, %rdx
	jne	Lunix_path_BB74_100
	jmp	Lunix_path_BB74_73
Lunix_path_BB74_111:
	movq	$-2, %rax
	jmp	Lunix_path_BB74_165
Lunix_path_BB74_12:
	cmpq	$32, %rbx
	ja	Lunix_path_BB74_22
	movdqu	(%r13), %xmm0
	movdqu	1(%r13), %xmm1
	pand	Lunix_path_CPI74_0(%rip), %xmm1
	por	%xmm0, %xmm1
	pcmpeqb	Lunix_path_CPI74_1(%rip), %xmm1
	pmovmskb	%xmm1, %ecx
	testl	%ecx, %ecx
	jne	Lunix_path_BB74_15
	movdqu	-17(%r13,%rbx), %xmm0
	movdqu	-16(%r13,%rbx), %xmm1
	pand	Lunix_path_CPI74_0(%rip), %xmm1
	por	%xmm0, %xmm1
	pcmpeqb	Lunix_path_CPI74_1(%rip), %xmm1
	pmovmskb	%xmm1, %ecx
	testl	%ecx, %ecx
	je	Lunix_path_BB74_47
Lunix_path_BB74_15:
	cmpq	$18, %rbx
	jbe	Lunix_path_BB74_10
	movq	%rbx, %rdx
	addq	$-19, %rdx
	jne	Lunix_path_BB74_24
	xorl	%edx, %edx
	xorl	%ecx, %ecx
Lunix_path_BB74_18:
	leaq	-17(%rbx), %rsi
	cmpq	%rcx, %rsi
	cmovbq	%rsi, %rcx
	movdqu	(%r13,%rcx), %xmm0
	movdqu	1(%r13,%rcx), %xmm1
	pand	Lunix_path_CPI74_0(%rip), %xmm1
	por	%xmm0, %xmm1
	pcmpeqb	Lunix_path_CPI74_1(%rip), %xmm1
	pmovmskb	%xmm1, %esi
	testl	%esi, %esi
	je	Lunix_path_BB74_48
	movdqu	(%r13,%rdx), %xmm0
	movdqu	1(%r13,%rdx), %xmm1
	movdqu	2(%r13,%rdx), %xmm2
	movdqu	3(%r13,%rdx), %xmm3
	movdqa	Lunix_path_CPI74_2(%rip), %xmm4
	movdqa	%xmm2, %xmm5
	pcmpeqb	%xmm4, %xmm5
	movdqa	Lunix_path_CPI74_1(%rip), %xmm6
	pcmpeqb	%xmm6, %xmm3
	pand	%xmm5, %xmm3
	pcmpeqb	%xmm1, %xmm4
	pcmpeqb	%xmm6, %xmm2
	por	%xmm3, %xmm2
	pand	%xmm4, %xmm2
	pcmpeqb	%xmm6, %xmm0
	pcmpeqb	%xmm6, %xmm1
	por	%xmm2, %xmm1
	pand	%xmm0, %xmm1
	pmovmskb	%xmm1, %ecx
	orl	$65536, %ecx
	rep		bsfl	%ecx, %ecx
	jmp	Lunix_path_BB74_31
Lunix_path_BB74_112:
	xorl	%eax, %eax
Lunix_path_BB74_113:
	movdqu	(%r13,%rax), %xmm0
	pxor	%xmm1, %xmm1
	pcmpeqb	%xmm0, %xmm1
	pmovmskb	%xmm1, %ecx
	orl	$65536, %ecx
	rep		bsfl	%ecx, %ecx
	addq	%rax, %rcx
Lunix_path_BB74_114:
	movq	$-4, %rax
	cmpq	%rbx, %rcx
	jb	Lunix_path_BB74_165
Lunix_path_BB74_115:
	movb	%r14b, %r9b
	shll	$12, %r9d
	leaq	(%rdi,%r9), %rsi
	xorl	%eax, %eax
	movq	%rdi, %r8
	testq	%r15, %r15
	je	Lunix_path_BB74_117
	cmpb	$47, -1(%rsi,%r15)
	setne	%cl
	movl	$47, %edx
	cmovnel	%edx, %eax
	movl	%eax, %r11d
	movl	%ecx, %eax
	jmp	Lunix_path_BB74_118
Lunix_path_BB74_117:
	xorl	%r11d, %r11d
Lunix_path_BB74_118:
	movzbl	%al, %r10d
	leaq	(%rbx,%r15), %r12
	addq	%r10, %r12
	cmpq	%r12, 8(%rsp)
	jb	Lunix_path_BB74_164
	xorl	%ecx, %ecx
	movzbl	40(%rsp), %eax
	movb	%al, %cl
	shll	$12, %ecx
	movq	16(%rsp), %rax
	movq	%rcx, 8(%rsp)
	leaq	(%rax,%rcx), %r14
	movq	%r14, %rax
	subq	%rsi, %rax
	cmpq	%r15, %rax
	movq	%rbp, 48(%rsp)
	jae	Lunix_path_BB74_122
	cmpq	$4, %r15
	jb	Lunix_path_BB74_121
	cmpq	$32, %rax
	jae	Lunix_path_BB74_126
Lunix_path_BB74_121:
	xorl	%eax, %eax
Lunix_path_BB74_135:
	movq	%r15, %rdx
	movq	%rax, %rcx
	andq	$3, %rdx
	je	Lunix_path_BB74_138
	movq	%rax, %rcx
	.p2align	4
Lunix_path_BB74_137:
	movzbl	(%rsi,%rcx), %edi
	movb	%dil, (%r14,%rcx)
	incq	%rcx
	decq	%rdx
	jne	Lunix_path_BB74_137
Lunix_path_BB74_138:
	subq	%r15, %rax
	cmpq	$-4, %rax
	ja	Lunix_path_BB74_141
	leaq	(%r9,%r8), %rax
	addq	$3, %rax
	movq	16(%rsp), %rdx
	movq	8(%rsp), %rsi
	addq	%rsi, %rdx
	addq	$3, %rdx
	.p2align	4
Lunix_path_BB74_140:
	movzbl	-3(%rax,%rcx), %esi
	movb	%sil, -3(%rdx,%rcx)
	movzbl	-2(%rax,%rcx), %esi
	movb	%sil, -2(%rdx,%rcx)
	movzbl	-1(%rax,%rcx), %esi
	movb	%sil, -1(%rdx,%rcx)
	movzbl	(%rax,%rcx), %esi
	movb	%sil, (%rdx,%rcx)
	addq	$4, %rcx
	cmpq	%rcx, %r15
	jne	Lunix_path_BB74_140
	jmp	Lunix_path_BB74_141
Lunix_path_BB74_122:
	movq	%r14, %rdi
	movq	%r15, %rdx
	movq	%r15, %rbp
	movq	%r10, %r15
	movq	%r12, 40(%rsp)
	movl	%r11d, %r12d
	callq	_memmove
	movl	%r12d, %r11d
	movq	40(%rsp), %r12
	movq	%r15, %r10
	movq	%rbp, %r15
Lunix_path_BB74_141:
	testq	%r10, %r10
	je	Lunix_path_BB74_143
	movb	%r11b, (%r14,%r15)
Lunix_path_BB74_143:
	movq	%r12, %rax
	subq	%rbx, %rax
	addq	%rax, %r14
	movq	%r14, %rax
	subq	%r13, %rax
	cmpq	%rbx, %rax
	movq	48(%rsp), %r9
	jae	Lunix_path_BB74_146
	cmpq	$4, %rbx
	jb	Lunix_path_BB74_145
	movq	8(%rsp), %rax
	leaq	(%rax,%r15), %rdx
	movq	16(%rsp), %rax
	addq	%r10, %rax
	addq	%rdx, %rax
	movq	24(%rsp), %rcx
	addq	%r9, %rcx
	subq	%rcx, %rax
	cmpq	$32, %rax
	jae	Lunix_path_BB74_149
Lunix_path_BB74_145:
	xorl	%eax, %eax
Lunix_path_BB74_158:
	movq	%rbx, %rdx
	movq	%rax, %rcx
	andq	$3, %rdx
	je	Lunix_path_BB74_161
	movq	8(%rsp), %rcx
	addq	%rax, %rcx
	leaq	(%r15,%r10), %rsi
	addq	%rcx, %rsi
	addq	16(%rsp), %rsi
	xorl	%edi, %edi
	movq	%rax, %rcx
	.p2align	4
Lunix_path_BB74_160:
	movzbl	(%r13,%rcx), %r8d
	movb	%r8b, (%rsi,%rdi)
	incq	%rcx
	incq	%rdi
	cmpq	%rdi, %rdx
	jne	Lunix_path_BB74_160
Lunix_path_BB74_161:
	subq	%rbx, %rax
	cmpq	$-4, %rax
	ja	Lunix_path_BB74_164
	subq	%rcx, %rbx
	addq	%rcx, %r9
	movq	24(%rsp), %rax
	addq	%r9, %rax
	addq	$3, %rax
	movq	8(%rsp), %rdx
	addq	%rcx, %rdx
	addq	%r10, %r15
	addq	%rdx, %r15
	movq	16(%rsp), %rcx
	addq	%r15, %rcx
	addq	$3, %rcx
	xorl	%edx, %edx
	.p2align	4
Lunix_path_BB74_163:
	movzbl	-3(%rax,%rdx), %esi
	movb	%sil, -3(%rcx,%rdx)
	movzbl	-2(%rax,%rdx), %esi
	movb	%sil, -2(%rcx,%rdx)
	movzbl	-1(%rax,%rdx), %esi
	movb	%sil, -1(%rcx,%rdx)
	movzbl	(%rax,%rdx), %esi
	movb	%sil, (%rcx,%rdx)
	addq	$4, %rdx
	cmpq	%rdx, %rbx
	jne	Lunix_path_BB74_163
	jmp	Lunix_path_BB74_164
Lunix_path_BB74_146:
	movq	%r14, %rdi
	movq	%r13, %rsi
	movq	%rbx, %rdx
	callq	_memmove
Lunix_path_BB74_164:
	movabsq	$-9223372036854775808, %rax
	cmpq	%rax, %r12
	cmovbq	%r12, %rax
Lunix_path_BB74_165:
	addq	$56, %rsp
	popq	%rbx
	popq	%r12
	popq	%r13
	popq	%r14
	popq	%r15
	popq	%rbp
	retq
Lunix_path_BB74_125:
	movzwl	%cx, %ecx
	addq	%rdx, %rcx
	movq	$-4, %rax
	cmpq	%rbx, %rcx
	jae	Lunix_path_BB74_115
	jmp	Lunix_path_BB74_165
Lunix_path_BB74_20:
	movq	1(%r13), %xmm0
	pand	Lunix_path_CPI74_3(%rip), %xmm0
	pcmpeqb	Lunix_path_CPI74_4(%rip), %xmm0
	movq	(%r13), %xmm1
	pcmpeqb	Lunix_path_CPI74_5(%rip), %xmm1
	pand	%xmm0, %xmm1
	pmovmskb	%xmm1, %ecx
	orl	$256, %ecx
	rep		bsfl	%ecx, %ecx
	cmpb	$8, %cl
	jb	Lunix_path_BB74_32
	cmpq	$17, %rbx
	movl	$17, %ecx
	cmovbq	%rbx, %rcx
	movq	-8(%r13,%rcx), %xmm0
	pand	Lunix_path_CPI74_3(%rip), %xmm0
	pcmpeqb	Lunix_path_CPI74_4(%rip), %xmm0
	movq	-9(%r13,%rcx), %xmm1
	pcmpeqb	Lunix_path_CPI74_5(%rip), %xmm1
	pand	%xmm0, %xmm1
	pmovmskb	%xmm1, %edx
	orl	$256, %edx
	rep		bsfl	%edx, %edx
	addq	%rdx, %rcx
	addq	$-9, %rcx
	cmpq	%rbx, %rcx
	jb	Lunix_path_BB74_33
	jmp	Lunix_path_BB74_49
Lunix_path_BB74_126:
	cmpq	$32, %r15
	jae	Lunix_path_BB74_128
	xorl	%eax, %eax
	jmp	Lunix_path_BB74_132
Lunix_path_BB74_149:
	cmpq	$32, %rbx
	jae	Lunix_path_BB74_151
	xorl	%eax, %eax
	jmp	Lunix_path_BB74_155
Lunix_path_BB74_22:
	movdqa	Lunix_path_CPI74_0(%rip), %xmm0
	movdqu	-33(%r13,%rbx), %xmm1
	movdqu	-32(%r13,%rbx), %xmm2
	movdqu	-17(%r13,%rbx), %xmm3
	movdqu	-16(%r13,%rbx), %xmm4
	pand	%xmm0, %xmm2
	por	%xmm1, %xmm2
	movdqa	Lunix_path_CPI74_1(%rip), %xmm1
	pcmpeqb	%xmm1, %xmm2
	pand	%xmm0, %xmm4
	por	%xmm3, %xmm4
	pcmpeqb	%xmm1, %xmm4
	por	%xmm2, %xmm4
	pmovmskb	%xmm4, %ecx
	testl	%ecx, %ecx
	je	Lunix_path_BB74_43
	leaq	-19(%rbx), %rdx
Lunix_path_BB74_24:
	xorl	%ecx, %ecx
	jmp	Lunix_path_BB74_26
	.p2align	4
Lunix_path_BB74_25:
	cmpq	%rdx, %rcx
	jae	Lunix_path_BB74_18
Lunix_path_BB74_26:
	movdqu	(%r13,%rcx), %xmm0
	movdqu	1(%r13,%rcx), %xmm1
	movdqa	Lunix_path_CPI74_0(%rip), %xmm2
	pand	%xmm1, %xmm2
	por	%xmm0, %xmm2
	pcmpeqb	Lunix_path_CPI74_1(%rip), %xmm2
	pmovmskb	%xmm2, %esi
	testl	%esi, %esi
	je	Lunix_path_BB74_29
	movdqu	2(%r13,%rcx), %xmm2
	movdqu	3(%r13,%rcx), %xmm3
	movdqa	Lunix_path_CPI74_2(%rip), %xmm4
	movdqa	%xmm2, %xmm5
	pcmpeqb	%xmm4, %xmm5
	movdqa	Lunix_path_CPI74_1(%rip), %xmm6
	pcmpeqb	%xmm6, %xmm3
	pand	%xmm5, %xmm3
	pcmpeqb	%xmm1, %xmm4
	pcmpeqb	%xmm6, %xmm2
	por	%xmm3, %xmm2
	pand	%xmm4, %xmm2
	pcmpeqb	%xmm6, %xmm0
	pcmpeqb	%xmm6, %xmm1
	por	%xmm2, %xmm1
	pand	%xmm0, %xmm1
	pmovmskb	%xmm1, %esi
	orl	$65536, %esi
	rep		bsfl	%esi, %esi
	cmpw	$15, %si
	jbe	Lunix_path_BB74_30
	addq	$16, %rcx
	jmp	Lunix_path_BB74_25
	.p2align	4
Lunix_path_BB74_29:
	addq	$16, %rcx
	cmpq	%rdx, %rcx
	jb	Lunix_path_BB74_26
	jmp	Lunix_path_BB74_25
Lunix_path_BB74_128:
	movq	%r15, %rax
	andq	$-32, %rax
	leaq	(%r9,%r8), %rcx
	addq	$16, %rcx
	movq	16(%rsp), %rdx
	movq	8(%rsp), %rdi
	addq	%rdi, %rdx
	addq	$16, %rdx
	xorl	%edi, %edi
	.p2align	4
Lunix_path_BB74_129:
	movdqu	-16(%rcx,%rdi), %xmm0
	movdqu	(%rcx,%rdi), %xmm1
	movdqu	%xmm0, -16(%rdx,%rdi)
	movdqu	%xmm1, (%rdx,%rdi)
	addq	$32, %rdi
	cmpq	%rdi, %rax
	jne	Lunix_path_BB74_129
	cmpq	%rax, %r15
	je	Lunix_path_BB74_141
	testb	$28, %r15b
	je	Lunix_path_BB74_135
Lunix_path_BB74_132:
	movq	%rax, %rcx
	movq	%r15, %rax
	andq	$-4, %rax
	.p2align	4
Lunix_path_BB74_133:
	movl	(%rsi,%rcx), %edx
	movl	%edx, (%r14,%rcx)
	addq	$4, %rcx
	cmpq	%rcx, %rax
	jne	Lunix_path_BB74_133
	cmpq	%rax, %r15
	je	Lunix_path_BB74_141
	jmp	Lunix_path_BB74_135
Lunix_path_BB74_151:
	movq	%rbx, %rax
	andq	$-32, %rax
	movq	24(%rsp), %rcx
	addq	%r9, %rcx
	addq	$16, %rcx
	addq	%r10, %rdx
	movq	16(%rsp), %rsi
	addq	%rsi, %rdx
	addq	$16, %rdx
	xorl	%esi, %esi
	.p2align	4
Lunix_path_BB74_152:
	movdqu	-16(%rcx,%rsi), %xmm0
	movdqu	(%rcx,%rsi), %xmm1
	movdqu	%xmm0, -16(%rdx,%rsi)
	movdqu	%xmm1, (%rdx,%rsi)
	addq	$32, %rsi
	cmpq	%rsi, %rax
	jne	Lunix_path_BB74_152
	cmpq	%rax, %rbx
	je	Lunix_path_BB74_164
	testb	$28, %bl
	je	Lunix_path_BB74_158
Lunix_path_BB74_155:
	movq	%rax, %rcx
	movq	%rbx, %rax
	andq	$-4, %rax
	movq	%rax, %rdx
	subq	%rcx, %rdx
	leaq	(%r9,%rcx), %rsi
	addq	24(%rsp), %rsi
	addq	8(%rsp), %rcx
	addq	%r15, %rcx
	addq	%r10, %rcx
	addq	16(%rsp), %rcx
	xorl	%edi, %edi
	.p2align	4
Lunix_path_BB74_156:
	movl	(%rsi,%rdi), %r8d
	movl	%r8d, (%rcx,%rdi)
	addq	$4, %rdi
	cmpq	%rdi, %rdx
	jne	Lunix_path_BB74_156
	cmpq	%rax, %rbx
	je	Lunix_path_BB74_164
	jmp	Lunix_path_BB74_158
Lunix_path_BB74_30:
	movzwl	%si, %edx
Lunix_path_BB74_31:
	addq	%rdx, %rcx
Lunix_path_BB74_32:
	cmpq	%rbx, %rcx
	jae	Lunix_path_BB74_49
Lunix_path_BB74_33:
	movq	24(%rsp), %rdx
	leaq	(%rdx,%rbp), %rsi
	addq	$3, %rsi
	jmp	Lunix_path_BB74_36
	.p2align	4
Lunix_path_BB74_34:
	cmpl	$47, %edi
	je	Lunix_path_BB74_50
Lunix_path_BB74_35:
	cmpq	%rcx, %rbx
	je	Lunix_path_BB74_51
Lunix_path_BB74_36:
	movq	%rcx, %rdx
	incq	%rcx
	cmpb	$47, -3(%rsi,%rdx)
	jne	Lunix_path_BB74_35
	cmpq	%rcx, %rbx
	jbe	Lunix_path_BB74_50
	movzbl	-2(%rsi,%rdx), %edi
	cmpl	$46, %edi
	jne	Lunix_path_BB74_34
	leaq	2(%rdx), %rdi
	cmpq	%rdi, %rbx
	jbe	Lunix_path_BB74_50
	movzbl	-1(%rsi,%rdx), %edi
	cmpl	$46, %edi
	jne	Lunix_path_BB74_34
	leaq	3(%rdx), %rdi
	cmpq	%rdi, %rbx
	jbe	Lunix_path_BB74_50
	cmpb	$47, (%rsi,%rdx)
	jne	Lunix_path_BB74_35
	jmp	Lunix_path_BB74_50
Lunix_path_BB74_43:
	movq	%rbx, %rcx
	addq	$-33, %rcx
	je	Lunix_path_BB74_47
	movq	24(%rsp), %rdx
	addq	%rbp, %rdx
	addq	$17, %rdx
	xorl	%esi, %esi
Lunix_path_BB74_45:
	movdqu	-17(%rdx,%rsi), %xmm2
	movdqu	-16(%rdx,%rsi), %xmm3
	movdqu	-1(%rdx,%rsi), %xmm4
	movdqu	(%rdx,%rsi), %xmm5
	pand	%xmm0, %xmm3
	por	%xmm2, %xmm3
	pcmpeqb	%xmm1, %xmm3
	pand	%xmm0, %xmm5
	por	%xmm4, %xmm5
	pcmpeqb	%xmm1, %xmm5
	por	%xmm3, %xmm5
	pmovmskb	%xmm5, %edi
	testl	%edi, %edi
	jne	Lunix_path_BB74_15
	addq	$32, %rsi
	cmpq	%rcx, %rsi
	jb	Lunix_path_BB74_45
	jmp	Lunix_path_BB74_51
Lunix_path_BB74_47:
	leaq	-16(%rbx), %rax
	movq	32(%rsp), %rdi
	xorl	%r9d, %r9d
	jmp	Lunix_path_BB74_60
Lunix_path_BB74_48:
	addq	$16, %rcx
	cmpq	%rbx, %rcx
	jb	Lunix_path_BB74_33
	jmp	Lunix_path_BB74_49
	.globl	_unix_path_with_added_extension
	.p2align	4
_unix_path_with_added_extension:
	pushq	%rbp
	pushq	%r15
	pushq	%r14
	pushq	%r13
	pushq	%r12
	pushq	%rbx
	subq	$40, %rsp
	movq	%r9, 16(%rsp)
	movq	%r8, %r13
	movq	%rcx, %r15
	movq	%rsi, %r12
	movq	%rdi, %r14
	xorl	%ebx, %ebx
	testq	%rdi, %rdi
	sete	%bpl
	xorl	%edi, %edi
	testq	%rdx, %rdx
	sete	%dil
	shll	$12, %edi
	addq	%rdx, %rdi
	testq	%r8, %r8
	sete	7(%rsp)
	movq	%rdi, 24(%rsp)
	movq	%rcx, %rsi
	callq	_unix_path.stems.has_slash
	testb	%al, %al
	je	Lunix_path_BB75_2
	movq	$-7, %rax
	jmp	Lunix_path_BB75_65
Lunix_path_BB75_2:
	movq	%r13, 8(%rsp)
	movb	%bpl, %bl
	shll	$12, %ebx
	leaq	(%r14,%rbx), %rbp
	leaq	lunix_path__static.0(%rip), %rdx
	testq	%r15, %r15
	movq	%r14, %rdi
	movq	%rbx, %r8
	je	Lunix_path_BB75_13
	testq	%r12, %r12
	je	Lunix_path_BB75_13
	movq	%r12, %r13
	movq	%r12, %rax
	jmp	Lunix_path_BB75_6
	.p2align	4
Lunix_path_BB75_5:
	movq	%rax, %r13
	testq	%rax, %rax
	je	Lunix_path_BB75_13
Lunix_path_BB75_6:
	decq	%rax
	je	Lunix_path_BB75_12
	movzbl	(%rbp,%rax), %ecx
	cmpl	$47, %ecx
	je	Lunix_path_BB75_10
	cmpl	$46, %ecx
	jne	Lunix_path_BB75_22
	movzbl	-1(%rbp,%rax), %ecx
	cmpb	$47, %cl
	jne	Lunix_path_BB75_23
Lunix_path_BB75_10:
	movq	%r12, %rcx
	subq	%rax, %rcx
	cmpq	$8, %rcx
	jne	Lunix_path_BB75_5
	movq	%rdi, %r14
	movq	%rbp, %rdi
	movq	%rax, %rsi
	movq	%r8, %rbx
	movq	%rdx, %r13
	callq	_unix_path.filler.trimmed_blocks_len
	movq	%r13, %rdx
	movq	%rbx, %r8
	movq	%r14, %rdi
	jmp	Lunix_path_BB75_5
Lunix_path_BB75_12:
	movzbl	(%rbp), %eax
	andb	$-2, %al
	cmpb	$46, %al
	jne	Lunix_path_BB75_21
Lunix_path_BB75_13:
	xorl	%eax, %eax
	movq	%r12, %r13
	xorl	%ebx, %ebx
	movq	%rdx, 24(%rsp)
	xorl	%r15d, %r15d
Lunix_path_BB75_14:
	movzbl	%al, %r9d
	leaq	(%r9,%r13), %r11
	leaq	(%r15,%r11), %r14
	cmpq	%r14, 16(%rsp)
	jb	Lunix_path_BB75_64
	movq	%r14, 32(%rsp)
	xorl	%ecx, %ecx
	movzbl	7(%rsp), %eax
	movb	%al, %cl
	shll	$12, %ecx
	movq	8(%rsp), %rax
	movq	%rcx, 16(%rsp)
	leaq	(%rax,%rcx), %r14
	movq	%r14, %rax
	subq	%rbp, %rax
	cmpq	%r13, %rax
	jae	Lunix_path_BB75_18
	cmpq	$4, %r13
	jb	Lunix_path_BB75_17
	cmpq	$32, %rax
	jae	Lunix_path_BB75_26
Lunix_path_BB75_17:
	xorl	%eax, %eax
Lunix_path_BB75_35:
	movq	%r13, %rdx
	movq	%rax, %rcx
	andq	$3, %rdx
	je	Lunix_path_BB75_38
	movq	%rax, %rcx
	.p2align	4
Lunix_path_BB75_37:
	movzbl	(%rbp,%rcx), %esi
	movb	%sil, (%r14,%rcx)
	incq	%rcx
	decq	%rdx
	jne	Lunix_path_BB75_37
Lunix_path_BB75_38:
	subq	%r13, %rax
	cmpq	$-4, %rax
	ja	Lunix_path_BB75_41
	leaq	(%r8,%rdi), %rax
	addq	$3, %rax
	movq	8(%rsp), %rdx
	movq	16(%rsp), %rsi
	addq	%rsi, %rdx
	addq	$3, %rdx
	.p2align	4
Lunix_path_BB75_40:
	movzbl	-3(%rax,%rcx), %esi
	movb	%sil, -3(%rdx,%rcx)
	movzbl	-2(%rax,%rcx), %esi
	movb	%sil, -2(%rdx,%rcx)
	movzbl	-1(%rax,%rcx), %esi
	movb	%sil, -1(%rdx,%rcx)
	movzbl	(%rax,%rcx), %esi
	movb	%sil, (%rdx,%rcx)
	addq	$4, %rcx
	cmpq	%rcx, %r13
	jne	Lunix_path_BB75_40
	jmp	Lunix_path_BB75_41
Lunix_path_BB75_18:
	movq	%r14, %rdi
	movq	%rbp, %rsi
	movq	%r13, %rdx
	movq	%r9, %rbp
	movq	%rbx, %r12
	movq	%r15, %rbx
	movq	%r11, %r15
	callq	_memmove
	movq	%r15, %r11
	movq	%rbx, %r15
	movq	%r12, %rbx
	movq	%rbp, %r9
Lunix_path_BB75_41:
	testq	%r9, %r9
	je	Lunix_path_BB75_43
	movb	%bl, (%r14,%r13)
Lunix_path_BB75_43:
	addq	%r11, %r14
	movq	%r14, %rax
	movq	24(%rsp), %r8
	subq	%r8, %rax
	cmpq	%r15, %rax
	jae	Lunix_path_BB75_46
	cmpq	$4, %r15
	jae	Lunix_path_BB75_47
	xorl	%eax, %eax
	movq	32(%rsp), %r14
	jmp	Lunix_path_BB75_58
Lunix_path_BB75_46:
	movq	%r14, %rdi
	movq	%r8, %rsi
	movq	%r15, %rdx
	callq	_memmove
	movq	32(%rsp), %r14
	jmp	Lunix_path_BB75_64
Lunix_path_BB75_47:
	movq	16(%rsp), %rax
	leaq	(%rax,%r13), %rcx
	movq	8(%rsp), %rax
	addq	%r9, %rax
	addq	%rcx, %rax
	subq	%r8, %rax
	cmpq	$32, %rax
	movq	32(%rsp), %r14
	jae	Lunix_path_BB75_49
	xorl	%eax, %eax
	jmp	Lunix_path_BB75_58
Lunix_path_BB75_21:
	movb	$46, %bl
	movb	$1, %al
	movl	$1, %r13d
	jmp	Lunix_path_BB75_14
Lunix_path_BB75_22:
	movb	$46, %bl
	movb	$1, %al
	jmp	Lunix_path_BB75_14
Lunix_path_BB75_23:
	movb	$46, %bl
	movb	$1, %al
	cmpb	$46, %cl
	jne	Lunix_path_BB75_14
	cmpq	$2, %r13
	je	Lunix_path_BB75_13
	cmpb	$47, -3(%rbp,%r13)
	je	Lunix_path_BB75_13
	jmp	Lunix_path_BB75_14
Lunix_path_BB75_26:
	cmpq	$32, %r13
	jae	Lunix_path_BB75_28
	xorl	%eax, %eax
	jmp	Lunix_path_BB75_32
Lunix_path_BB75_49:
	cmpq	$32, %r15
	jae	Lunix_path_BB75_51
	xorl	%eax, %eax
	jmp	Lunix_path_BB75_55
Lunix_path_BB75_28:
	movq	%r13, %rax
	andq	$-32, %rax
	leaq	(%r8,%rdi), %rcx
	addq	$16, %rcx
	movq	8(%rsp), %rdx
	movq	16(%rsp), %rsi
	addq	%rsi, %rdx
	addq	$16, %rdx
	xorl	%esi, %esi
	.p2align	4
Lunix_path_BB75_29:
	movups	-16(%rcx,%rsi), %xmm0
	movups	(%rcx,%rsi), %xmm1
	movups	%xmm0, -16(%rdx,%rsi)
	movups	%xmm1, (%rdx,%rsi)
	addq	$32, %rsi
	cmpq	%rsi, %rax
	jne	Lunix_path_BB75_29
	cmpq	%rax, %r13
	je	Lunix_path_BB75_41
	testb	$28, %r13b
	je	Lunix_path_BB75_35
Lunix_path_BB75_32:
	movq	%rax, %rcx
	movq	%r13, %rax
	andq	$-4, %rax
	.p2align	4
Lunix_path_BB75_33:
	movl	(%rbp,%rcx), %edx
	movl	%edx, (%r14,%rcx)
	addq	$4, %rcx
	cmpq	%rcx, %rax
	jne	Lunix_path_BB75_33
	cmpq	%rax, %r13
	je	Lunix_path_BB75_41
	jmp	Lunix_path_BB75_35
Lunix_path_BB75_51:
	movq	%r15, %rax
	andq	$-32, %rax
	leaq	(%rcx,%r9), %rdx
	movq	8(%rsp), %rsi
	addq	%rsi, %rdx
	addq	$16, %rdx
	xorl	%esi, %esi
	.p2align	4
Lunix_path_BB75_52:
	movups	(%r8,%rsi), %xmm0
	movups	16(%r8,%rsi), %xmm1
	movups	%xmm0, -16(%rdx,%rsi)
	movups	%xmm1, (%rdx,%rsi)
	addq	$32, %rsi
	cmpq	%rsi, %rax
	jne	Lunix_path_BB75_52
	cmpq	%rax, %r15
	je	Lunix_path_BB75_64
	testb	$28, %r15b
	je	Lunix_path_BB75_58
Lunix_path_BB75_55:
	movq	%rax, %rdi
	movq	%r15, %rax
	andq	$-4, %rax
	movq	%rax, %rdx
	subq	%rdi, %rdx
	movq	24(%rsp), %rsi
	addq	%rdi, %rsi
	addq	%r9, %rdi
	addq	%rdi, %rcx
	addq	8(%rsp), %rcx
	xorl	%edi, %edi
	.p2align	4
Lunix_path_BB75_56:
	movl	(%rsi,%rdi), %r8d
	movl	%r8d, (%rcx,%rdi)
	addq	$4, %rdi
	cmpq	%rdi, %rdx
	jne	Lunix_path_BB75_56
	cmpq	%rax, %r15
	je	Lunix_path_BB75_64
Lunix_path_BB75_58:
	movq	%r15, %rdx
	movq	%rax, %rcx
	andq	$3, %rdx
	movq	24(%rsp), %r11
	je	Lunix_path_BB75_61
	movq	16(%rsp), %rcx
	addq	%r13, %rcx
	leaq	(%rax,%r9), %rsi
	addq	%rcx, %rsi
	addq	8(%rsp), %rsi
	xorl	%edi, %edi
	movq	%rax, %rcx
	.p2align	4
Lunix_path_BB75_60:
	movzbl	(%r11,%rcx), %r8d
	movb	%r8b, (%rsi,%rdi)
	incq	%rcx
	incq	%rdi
	cmpq	%rdi, %rdx
	jne	Lunix_path_BB75_60
Lunix_path_BB75_61:
	subq	%r15, %rax
	cmpq	$-4, %rax
	ja	Lunix_path_BB75_64
	subq	%rcx, %r15
	movq	24(%rsp), %rax
	addq	%rcx, %rax
	addq	$3, %rax
	movq	16(%rsp), %rdx
	addq	%r13, %rdx
	addq	%rcx, %rdx
	addq	%r9, %rdx
	movq	8(%rsp), %rcx
	addq	%rdx, %rcx
	addq	$3, %rcx
	xorl	%edx, %edx
	.p2align	4
Lunix_path_BB75_63:
	movzbl	-3(%rax,%rdx), %esi
	movb	%sil, -3(%rcx,%rdx)
	movzbl	-2(%rax,%rdx), %esi
	movb	%sil, -2(%rcx,%rdx)
	movzbl	-1(%rax,%rdx), %esi
	movb	%sil, -1(%rcx,%rdx)
	movzbl	(%rax,%rdx), %esi
	movb	%sil, (%rcx,%rdx)
	addq	$4, %rdx
	cmpq	%rdx, %r15
	jne	Lunix_path_BB75_63
Lunix_path_BB75_64:
	movabsq	$-9223372036854775808, %rax
	cmpq	%rax, %r14
	cmovbq	%r14, %rax
Lunix_path_BB75_65:
	addq	$40, %rsp
	popq	%rbx
	popq	%r12
	popq	%r13
	popq	%r14
	popq	%r15
	popq	%rbp
	retq
	.section	__TEXT,__literal16,16byte_literals
	.p2align	4, 0x0
Lunix_path_CPI76_0:
	.space	16,46
Lunix_path_CPI76_1:
	.space	16,47
	.section	__TEXT,__text,regular,pure_instructions
	.globl	_unix_path_with_extension
	.p2align	4
_unix_path_with_extension:
	pushq	%rbp
	pushq	%r15
	pushq	%r14
	pushq	%r13
	pushq	%r12
	pushq	%rbx
	subq	$40, %rsp
	movq	%r9, 24(%rsp)
	movq	%r8, %r13
	movq	%rsi, %r12
	movq	%rdi, %r14
	xorl	%ebx, %ebx
	testq	%rdi, %rdi
	sete	%bpl
	xorl	%r15d, %r15d
	testq	%rdx, %rdx
	sete	%r15b
	shll	$12, %r15d
	addq	%rdx, %r15
	testq	%r8, %r8
	sete	32(%rsp)
	movq	%r15, %rdi
	movq	%rcx, 8(%rsp)
	movq	%rcx, %rsi
	callq	_unix_path.stems.has_slash
	testb	%al, %al
	je	Lunix_path_BB76_2
	movq	$-7, %rax
	jmp	Lunix_path_BB76_76
Lunix_path_BB76_2:
	movb	%bpl, %bl
	shll	$12, %ebx
	leaq	(%r14,%rbx), %rbp
	testq	%r12, %r12
	movq	%r14, %r11
	movq	%rbx, %r8
	je	Lunix_path_BB76_12
	movq	%r12, %rcx
	movq	%r12, %rax
	movq	%r8, %rbx
	jmp	Lunix_path_BB76_5
	.p2align	4
Lunix_path_BB76_4:
	movq	%rax, %rcx
	testq	%rax, %rax
	je	Lunix_path_BB76_12
Lunix_path_BB76_5:
	decq	%rax
	je	Lunix_path_BB76_11
	movzbl	(%rbp,%rax), %edx
	cmpl	$47, %edx
	je	Lunix_path_BB76_9
	cmpl	$46, %edx
	jne	Lunix_path_BB76_26
	movzbl	-1(%rbp,%rax), %edx
	cmpb	$47, %dl
	jne	Lunix_path_BB76_23
Lunix_path_BB76_9:
	movq	%r12, %rcx
	subq	%rax, %rcx
	cmpq	$8, %rcx
	jne	Lunix_path_BB76_4
	movq	%rbp, %rdi
	movq	%rax, %rsi
	movq	%r11, %r14
	callq	_unix_path.filler.trimmed_blocks_len
	movq	%rbx, %r8
	movq	%r14, %r11
	jmp	Lunix_path_BB76_4
Lunix_path_BB76_11:
	movzbl	(%rbp), %eax
	andb	$-2, %al
	cmpb	$46, %al
	jne	Lunix_path_BB76_26
Lunix_path_BB76_12:
	xorl	%eax, %eax
	xorl	%ecx, %ecx
Lunix_path_BB76_13:
	movq	8(%rsp), %rbx
	xorl	%edx, %edx
	cmpb	$1, %al
	movq	%r13, 16(%rsp)
	jne	Lunix_path_BB76_15
	testq	%rbx, %rbx
	movl	$46, %eax
	cmovnel	%eax, %edx
	setne	%al
	movl	%edx, %edi
	movq	%rcx, %r12
	movl	%eax, %edx
	jmp	Lunix_path_BB76_16
Lunix_path_BB76_15:
	leaq	lunix_path__static.0(%rip), %r15
	xorl	%edi, %edi
	xorl	%ebx, %ebx
Lunix_path_BB76_16:
	movzbl	%dl, %r10d
	leaq	(%r12,%r10), %r13
	leaq	(%rbx,%r13), %r9
	cmpq	%r9, 24(%rsp)
	jb	Lunix_path_BB76_75
	xorl	%ecx, %ecx
	movzbl	32(%rsp), %eax
	movb	%al, %cl
	shll	$12, %ecx
	movq	16(%rsp), %rax
	movq	%rcx, 24(%rsp)
	leaq	(%rax,%rcx), %r14
	movq	%r14, %rax
	subq	%rbp, %rax
	cmpq	%r12, %rax
	movq	%r9, 8(%rsp)
	jae	Lunix_path_BB76_20
	cmpq	$4, %r12
	jb	Lunix_path_BB76_19
	cmpq	$32, %rax
	jae	Lunix_path_BB76_37
Lunix_path_BB76_19:
	xorl	%eax, %eax
Lunix_path_BB76_46:
	movq	%r12, %rdx
	movq	%rax, %rcx
	andq	$3, %rdx
	je	Lunix_path_BB76_49
	movq	%rax, %rcx
	.p2align	4
Lunix_path_BB76_48:
	movzbl	(%rbp,%rcx), %esi
	movb	%sil, (%r14,%rcx)
	incq	%rcx
	decq	%rdx
	jne	Lunix_path_BB76_48
Lunix_path_BB76_49:
	subq	%r12, %rax
	cmpq	$-4, %rax
	ja	Lunix_path_BB76_52
	leaq	(%r8,%r11), %rax
	addq	$3, %rax
	movq	16(%rsp), %rdx
	movq	24(%rsp), %rsi
	addq	%rsi, %rdx
	addq	$3, %rdx
	.p2align	4
Lunix_path_BB76_51:
	movzbl	-3(%rax,%rcx), %esi
	movb	%sil, -3(%rdx,%rcx)
	movzbl	-2(%rax,%rcx), %esi
	movb	%sil, -2(%rdx,%rcx)
	movzbl	-1(%rax,%rcx), %esi
	movb	%sil, -1(%rdx,%rcx)
	movzbl	(%rax,%rcx), %esi
	movb	%sil, (%rdx,%rcx)
	addq	$4, %rcx
	cmpq	%rcx, %r12
	jne	Lunix_path_BB76_51
	jmp	Lunix_path_BB76_52
Lunix_path_BB76_20:
	movq	%rdi, 32(%rsp)
	movq	%r14, %rdi
	movq	%rbp, %rsi
	movq	%r12, %rdx
	movq	%r10, %rbp
	callq	_memmove
	movq	32(%rsp), %rdi
	movq	%rbp, %r10
Lunix_path_BB76_52:
	testq	%r10, %r10
	je	Lunix_path_BB76_54
	movb	%dil, (%r14,%r12)
Lunix_path_BB76_54:
	addq	%r13, %r14
	movq	%r14, %rax
	subq	%r15, %rax
	cmpq	%rbx, %rax
	jae	Lunix_path_BB76_57
	cmpq	$4, %rbx
	leaq	(%rbx,%r13), %r9
	jb	Lunix_path_BB76_56
	movq	24(%rsp), %rax
	leaq	(%rax,%r12), %rcx
	movq	16(%rsp), %rax
	addq	%r10, %rax
	addq	%rcx, %rax
	subq	%r15, %rax
	cmpq	$32, %rax
	jae	Lunix_path_BB76_60
Lunix_path_BB76_56:
	xorl	%eax, %eax
Lunix_path_BB76_69:
	movq	%rbx, %rdx
	movq	%rax, %rcx
	andq	$3, %rdx
	je	Lunix_path_BB76_72
	movq	24(%rsp), %rcx
	addq	%rax, %rcx
	addq	%rcx, %r13
	addq	16(%rsp), %r13
	xorl	%esi, %esi
	movq	%rax, %rcx
	.p2align	4
Lunix_path_BB76_71:
	movzbl	(%r15,%rcx), %edi
	movb	%dil, (%r13,%rsi)
	incq	%rcx
	incq	%rsi
	cmpq	%rsi, %rdx
	jne	Lunix_path_BB76_71
Lunix_path_BB76_72:
	subq	%rbx, %rax
	cmpq	$-4, %rax
	ja	Lunix_path_BB76_75
	subq	%rcx, %rbx
	leaq	(%rcx,%r15), %rax
	addq	$3, %rax
	movq	24(%rsp), %rdx
	addq	%r12, %rdx
	addq	%rcx, %rdx
	addq	%r10, %rdx
	movq	16(%rsp), %rcx
	addq	%rdx, %rcx
	addq	$3, %rcx
	xorl	%edx, %edx
	.p2align	4
Lunix_path_BB76_74:
	movzbl	-3(%rax,%rdx), %esi
	movb	%sil, -3(%rcx,%rdx)
	movzbl	-2(%rax,%rdx), %esi
	movb	%sil, -2(%rcx,%rdx)
	movzbl	-1(%rax,%rdx), %esi
	movb	%sil, -1(%rcx,%rdx)
	movzbl	(%rax,%rdx), %esi
	movb	%sil, (%rcx,%rdx)
	addq	$4, %rdx
	cmpq	%rdx, %rbx
	jne	Lunix_path_BB76_74
	jmp	Lunix_path_BB76_75
Lunix_path_BB76_57:
	movq	%r14, %rdi
	movq	%r15, %rsi
	movq	%rbx, %rdx
	callq	_memmove
	movq	8(%rsp), %r9
Lunix_path_BB76_75:
	movabsq	$-9223372036854775808, %rax
	cmpq	%rax, %r9
	cmovbq	%r9, %rax
Lunix_path_BB76_76:
	addq	$40, %rsp
	popq	%rbx
	popq	%r12
	popq	%r13
	popq	%r14
	popq	%r15
	popq	%rbp
	retq
Lunix_path_BB76_23:
	cmpb	$46, %dl
	jne	Lunix_path_BB76_26
	cmpq	$2, %rcx
	je	Lunix_path_BB76_12
	cmpb	$47, -3(%rbp,%rcx)
	je	Lunix_path_BB76_12
Lunix_path_BB76_26:
	movb	$1, %al
	leaq	(%r8,%r11), %rsi
	addq	$-16, %rsi
	movq	%rcx, %rdx
	.p2align	4
Lunix_path_BB76_27:
	cmpq	$15, %rdx
	jbe	Lunix_path_BB76_32
	movdqu	(%rsi,%rdx), %xmm0
	addq	$-16, %rdx
	movdqa	Lunix_path_CPI76_0(%rip), %xmm1
	pcmpeqb	%xmm0, %xmm1
	pmovmskb	%xmm1, %edi
	movl	$127, %r9d
	movl	$127, %r10d
	bsrq	%rdi, %r10
	xorq	$63, %r10
	movl	$64, %r8d
	movl	$64, %edi
	subq	%r10, %rdi
	pcmpeqb	Lunix_path_CPI76_1(%rip), %xmm0
	pmovmskb	%xmm0, %r10d
	bsrq	%r10, %r9
	xorq	$63, %r9
	subq	%r9, %r8
	cmpq	%r8, %rdi
	movq	%r8, %r9
	cmovaq	%rdi, %r9
	testq	%r9, %r9
	je	Lunix_path_BB76_27
	cmpq	%rdi, %r8
	cmovaq	%r8, %rdi
	leaq	(%rdi,%rdx), %rsi
	addq	%rdi, %rdx
	decq	%rdx
	testq	%rdx, %rdx
	je	Lunix_path_BB76_36
Lunix_path_BB76_30:
	cmpb	$47, (%rbp,%rdx)
	movq	%rbx, %r8
	je	Lunix_path_BB76_13
	cmpb	$47, -2(%rbp,%rsi)
	cmovneq	%rdx, %rcx
	jmp	Lunix_path_BB76_13
Lunix_path_BB76_32:
	movq	%rbx, %r8
	leaq	(%rbx,%r11), %rsi
	decq	%rsi
	.p2align	4
Lunix_path_BB76_33:
	testq	%rdx, %rdx
	je	Lunix_path_BB76_13
	movzbl	(%rsi,%rdx), %edi
	decq	%rdx
	andb	$-2, %dil
	cmpb	$46, %dil
	jne	Lunix_path_BB76_33
	leaq	1(%rdx), %rsi
	testq	%rdx, %rdx
	jne	Lunix_path_BB76_30
Lunix_path_BB76_36:
	movq	%rbx, %r8
	jmp	Lunix_path_BB76_13
Lunix_path_BB76_37:
	cmpq	$32, %r12
	jae	Lunix_path_BB76_39
	xorl	%eax, %eax
	jmp	Lunix_path_BB76_43
Lunix_path_BB76_60:
	cmpq	$32, %rbx
	jae	Lunix_path_BB76_62
	xorl	%eax, %eax
	jmp	Lunix_path_BB76_66
Lunix_path_BB76_39:
	movq	%r12, %rax
	andq	$-32, %rax
	leaq	(%r8,%r11), %rcx
	addq	$16, %rcx
	movq	16(%rsp), %rdx
	movq	24(%rsp), %rsi
	addq	%rsi, %rdx
	addq	$16, %rdx
	xorl	%esi, %esi
	.p2align	4
Lunix_path_BB76_40:
	movdqu	-16(%rcx,%rsi), %xmm0
	movdqu	(%rcx,%rsi), %xmm1
	movdqu	%xmm0, -16(%rdx,%rsi)
	movdqu	%xmm1, (%rdx,%rsi)
	addq	$32, %rsi
	cmpq	%rsi, %rax
	jne	Lunix_path_BB76_40
	cmpq	%rax, %r12
	je	Lunix_path_BB76_52
	testb	$28, %r12b
	je	Lunix_path_BB76_46
Lunix_path_BB76_43:
	movq	%rax, %rcx
	movq	%r12, %rax
	andq	$-4, %rax
	.p2align	4
Lunix_path_BB76_44:
	movl	(%rbp,%rcx), %edx
	movl	%edx, (%r14,%rcx)
	addq	$4, %rcx
	cmpq	%rcx, %rax
	jne	Lunix_path_BB76_44
	cmpq	%rax, %r12
	je	Lunix_path_BB76_52
	jmp	Lunix_path_BB76_46
Lunix_path_BB76_62:
	movq	%rbx, %rax
	andq	$-32, %rax
	leaq	(%rcx,%r10), %rdx
	movq	16(%rsp), %rsi
	addq	%rsi, %rdx
	addq	$16, %rdx
	xorl	%esi, %esi
	.p2align	4
Lunix_path_BB76_63:
	movdqu	(%r15,%rsi), %xmm0
	movdqu	16(%r15,%rsi), %xmm1
	movdqu	%xmm0, -16(%rdx,%rsi)
	movdqu	%xmm1, (%rdx,%rsi)
	addq	$32, %rsi
	cmpq	%rsi, %rax
	jne	Lunix_path_BB76_63
	cmpq	%rax, %rbx
	je	Lunix_path_BB76_75
	testb	$28, %bl
	je	Lunix_path_BB76_69
Lunix_path_BB76_66:
	movq	%rax, %rdi
	movq	%rbx, %rax
	andq	$-4, %rax
	movq	%rax, %rdx
	subq	%rdi, %rdx
	leaq	(%r15,%rdi), %rsi
	addq	%r10, %rdi
	addq	%rdi, %rcx
	addq	16(%rsp), %rcx
	xorl	%edi, %edi
	.p2align	4
Lunix_path_BB76_67:
	movl	(%rsi,%rdi), %r8d
	movl	%r8d, (%rcx,%rdi)
	addq	$4, %rdi
	cmpq	%rdi, %rdx
	jne	Lunix_path_BB76_67
	cmpq	%rax, %rbx
	je	Lunix_path_BB76_75
	jmp	Lunix_path_BB76_69
	.section	__TEXT,__literal16,16byte_literals
	.p2align	4, 0x0
Lunix_path_CPI77_0:
	.space	16,47
	.section	__TEXT,__text,regular,pure_instructions
	.globl	_unix_path_with_file_name
	.p2align	4
_unix_path_with_file_name:
	pushq	%rbp
	pushq	%r15
	pushq	%r14
	pushq	%r13
	pushq	%r12
	pushq	%rbx
	subq	$40, %rsp
	movq	%r9, %r15
	movq	%rcx, %rbx
	xorl	%ebp, %ebp
	testq	%rdi, %rdi
	sete	%bpl
	shll	$12, %ebp
	leaq	(%rdi,%rbp), %r13
	xorl	%ecx, %ecx
	movq	%rdx, 24(%rsp)
	testq	%rdx, %rdx
	sete	%cl
	shll	$12, %ecx
	movq	%rcx, 16(%rsp)
	movq	%r8, (%rsp)
	testq	%r8, %r8
	sete	8(%rsp)
	testq	%rsi, %rsi
	je	Lunix_path_BB77_21
	movq	%rsi, %r12
	movq	%rdi, %r14
	movq	%rsi, %rcx
	movq	%r12, %rax
	jmp	Lunix_path_BB77_3
	.p2align	4
Lunix_path_BB77_2:
	movq	%rax, %rcx
	testq	%rax, %rax
	je	Lunix_path_BB77_22
Lunix_path_BB77_3:
	decq	%rax
	je	Lunix_path_BB77_9
	movzbl	(%r13,%rax), %edx
	cmpl	$47, %edx
	je	Lunix_path_BB77_7
	cmpl	$46, %edx
	jne	Lunix_path_BB77_13
	movzbl	-1(%r13,%rax), %edx
	cmpb	$47, %dl
	jne	Lunix_path_BB77_10
Lunix_path_BB77_7:
	movq	%r12, %rcx
	subq	%rax, %rcx
	cmpq	$8, %rcx
	jne	Lunix_path_BB77_2
	movq	%r13, %rdi
	movq	%rax, %rsi
	callq	_unix_path.filler.trimmed_blocks_len
	jmp	Lunix_path_BB77_2
Lunix_path_BB77_9:
	movzbl	(%r13), %eax
	andb	$-2, %al
	cmpb	$46, %al
	jne	Lunix_path_BB77_13
	jmp	Lunix_path_BB77_22
Lunix_path_BB77_10:
	cmpb	$46, %dl
	jne	Lunix_path_BB77_13
	cmpq	$2, %rcx
	je	Lunix_path_BB77_22
	cmpb	$47, -3(%r13,%rcx)
	je	Lunix_path_BB77_22
Lunix_path_BB77_13:
	leaq	(%r14,%rbp), %rdx
	addq	$-16, %rdx
	movq	%rcx, %rax
	.p2align	4
Lunix_path_BB77_14:
	cmpq	$15, %rax
	jbe	Lunix_path_BB77_17
	movdqu	(%rdx,%rax), %xmm0
	addq	$-16, %rax
	pcmpeqb	Lunix_path_CPI77_0(%rip), %xmm0
	pmovmskb	%xmm0, %esi
	testl	%esi, %esi
	je	Lunix_path_BB77_14
	movzwl	%si, %edx
	bsrq	%rdx, %rdx
	xorq	$63, %rdx
	subq	%rdx, %rax
	addq	$64, %rax
	movq	%rax, %r14
	jmp	Lunix_path_BB77_20
Lunix_path_BB77_17:
	incq	%rax
	.p2align	4
Lunix_path_BB77_18:
	cmpq	$1, %rax
	je	Lunix_path_BB77_21
	leaq	-1(%rax), %r14
	cmpb	$47, -2(%r13,%rax)
	movq	%r14, %rax
	jne	Lunix_path_BB77_18
Lunix_path_BB77_20:
	cmpq	%rcx, %r14
	jne	Lunix_path_BB77_36
Lunix_path_BB77_21:
	xorl	%r12d, %r12d
Lunix_path_BB77_22:
	movq	24(%rsp), %rax
	movq	16(%rsp), %rcx
	leaq	(%rax,%rcx), %rbp
	testq	%rbx, %rbx
	je	Lunix_path_BB77_25
	cmpb	$47, (%rbp)
	jne	Lunix_path_BB77_25
	leaq	lunix_path__static.0(%rip), %r13
	xorl	%r12d, %r12d
	xorl	%eax, %eax
	jmp	Lunix_path_BB77_28
Lunix_path_BB77_25:
	xorl	%eax, %eax
	testq	%r12, %r12
	je	Lunix_path_BB77_27
	cmpb	$47, -1(%r13,%r12)
	setne	%cl
	movl	$47, %edx
	cmovnel	%edx, %eax
	movl	%eax, %edi
	movl	%ecx, %eax
	jmp	Lunix_path_BB77_29
Lunix_path_BB77_27:
	xorl	%r12d, %r12d
Lunix_path_BB77_28:
	xorl	%edi, %edi
Lunix_path_BB77_29:
	movzbl	%al, %r9d
	leaq	(%r12,%rbx), %r14
	addq	%r9, %r14
	cmpq	%r14, %r15
	jb	Lunix_path_BB77_83
	xorl	%ecx, %ecx
	movzbl	8(%rsp), %eax
	movb	%al, %cl
	shll	$12, %ecx
	movq	(%rsp), %rax
	movq	%rcx, 8(%rsp)
	leaq	(%rax,%rcx), %r15
	movq	%r15, %rax
	subq	%r13, %rax
	cmpq	%r12, %rax
	jae	Lunix_path_BB77_33
	cmpq	$4, %r12
	jb	Lunix_path_BB77_32
	cmpq	$32, %rax
	jae	Lunix_path_BB77_44
Lunix_path_BB77_32:
	xorl	%eax, %eax
Lunix_path_BB77_54:
	movq	%r12, %rdx
	movq	%rax, %rcx
	andq	$3, %rdx
	je	Lunix_path_BB77_57
	movq	%rax, %rcx
	.p2align	4
Lunix_path_BB77_56:
	movzbl	(%r13,%rcx), %esi
	movb	%sil, (%r15,%rcx)
	incq	%rcx
	decq	%rdx
	jne	Lunix_path_BB77_56
Lunix_path_BB77_57:
	subq	%r12, %rax
	cmpq	$-4, %rax
	ja	Lunix_path_BB77_60
	movq	(%rsp), %rax
	movq	8(%rsp), %rdx
	addq	%rdx, %rax
	addq	$3, %rax
	.p2align	4
Lunix_path_BB77_59:
	movzbl	(%r13,%rcx), %edx
	movb	%dl, -3(%rax,%rcx)
	movzbl	1(%r13,%rcx), %edx
	movb	%dl, -2(%rax,%rcx)
	movzbl	2(%r13,%rcx), %edx
	movb	%dl, -1(%rax,%rcx)
	movzbl	3(%r13,%rcx), %edx
	movb	%dl, (%rax,%rcx)
	addq	$4, %rcx
	cmpq	%rcx, %r12
	jne	Lunix_path_BB77_59
	jmp	Lunix_path_BB77_60
Lunix_path_BB77_33:
	movq	%r14, 32(%rsp)
	movq	%rbx, %r14
	movq	%rdi, %rbx
	movq	%r15, %rdi
	movq	%r13, %rsi
	movq	%r12, %rdx
	movq	%r9, %r13
	callq	_memmove
	movq	%rbx, %rdi
	movq	%r14, %rbx
	movq	32(%rsp), %r14
	movq	%r13, %r9
Lunix_path_BB77_60:
	testq	%r9, %r9
	je	Lunix_path_BB77_62
	movb	%dil, (%r15,%r12)
Lunix_path_BB77_62:
	movq	%r14, %rax
	subq	%rbx, %rax
	addq	%rax, %r15
	movq	%r15, %rax
	subq	%rbp, %rax
	cmpq	%rbx, %rax
	jae	Lunix_path_BB77_65
	cmpq	$4, %rbx
	jb	Lunix_path_BB77_64
	movq	8(%rsp), %rax
	leaq	(%rax,%r12), %rcx
	movq	(%rsp), %rax
	addq	%rcx, %rax
	addq	%r9, %rax
	subq	%rbp, %rax
	cmpq	$32, %rax
	jae	Lunix_path_BB77_68
Lunix_path_BB77_64:
	xorl	%eax, %eax
Lunix_path_BB77_77:
	movq	%rbx, %rdx
	movq	%rax, %rcx
	andq	$3, %rdx
	je	Lunix_path_BB77_80
	movq	8(%rsp), %rcx
	leaq	(%rcx,%rax), %rsi
	addq	%r12, %rsi
	addq	%r9, %rsi
	addq	(%rsp), %rsi
	xorl	%edi, %edi
	movq	%rax, %rcx
	.p2align	4
Lunix_path_BB77_79:
	movzbl	(%rbp,%rcx), %r8d
	movb	%r8b, (%rsi,%rdi)
	incq	%rcx
	incq	%rdi
	cmpq	%rdi, %rdx
	jne	Lunix_path_BB77_79
Lunix_path_BB77_80:
	subq	%rbx, %rax
	cmpq	$-4, %rax
	ja	Lunix_path_BB77_83
	subq	%rcx, %rbx
	movq	16(%rsp), %rdx
	addq	%rcx, %rdx
	movq	24(%rsp), %rax
	addq	%rdx, %rax
	addq	$3, %rax
	movq	8(%rsp), %rdx
	addq	%r12, %rdx
	addq	%rcx, %rdx
	addq	%r9, %rdx
	movq	(%rsp), %rcx
	addq	%rdx, %rcx
	addq	$3, %rcx
	xorl	%edx, %edx
	.p2align	4
Lunix_path_BB77_82:
	movzbl	-3(%rax,%rdx), %esi
	movb	%sil, -3(%rcx,%rdx)
	movzbl	-2(%rax,%rdx), %esi
	movb	%sil, -2(%rcx,%rdx)
	movzbl	-1(%rax,%rdx), %esi
	movb	%sil, -1(%rcx,%rdx)
	movzbl	(%rax,%rdx), %esi
	movb	%sil, (%rcx,%rdx)
	addq	$4, %rdx
	cmpq	%rdx, %rbx
	jne	Lunix_path_BB77_82
	jmp	Lunix_path_BB77_83
Lunix_path_BB77_65:
	movq	%r15, %rdi
	movq	%rbp, %rsi
	movq	%rbx, %rdx
	callq	_memmove
Lunix_path_BB77_83:
	movq	%r14, %rax
	addq	$40, %rsp
	popq	%rbx
	popq	%r12
	popq	%r13
	popq	%r14
	popq	%r15
	popq	%rbp
	retq
Lunix_path_BB77_36:
	movq	%r14, %r12
	movq	%r14, %rax
	jmp	Lunix_path_BB77_38
	.p2align	4
Lunix_path_BB77_37:
	movq	%rax, %r12
	testq	%rax, %rax
	je	Lunix_path_BB77_21
Lunix_path_BB77_38:
	decq	%rax
	je	Lunix_path_BB77_46
	movzbl	(%r13,%rax), %ecx
	cmpl	$47, %ecx
	je	Lunix_path_BB77_42
	cmpl	$46, %ecx
	jne	Lunix_path_BB77_22
	cmpb	$47, -1(%r13,%rax)
	jne	Lunix_path_BB77_22
Lunix_path_BB77_42:
	movq	%r14, %rcx
	subq	%rax, %rcx
	cmpq	$8, %rcx
	jne	Lunix_path_BB77_37
	movq	%r13, %rdi
	movq	%rax, %rsi
	callq	_unix_path.filler.trimmed_blocks_len
	jmp	Lunix_path_BB77_37
Lunix_path_BB77_44:
	cmpq	$32, %r12
	jae	Lunix_path_BB77_47
	xorl	%eax, %eax
	jmp	Lunix_path_BB77_51
Lunix_path_BB77_68:
	cmpq	$32, %rbx
	jae	Lunix_path_BB77_70
	xorl	%eax, %eax
	jmp	Lunix_path_BB77_74
Lunix_path_BB77_46:
	movl	$1, %r12d
	jmp	Lunix_path_BB77_22
Lunix_path_BB77_47:
	movq	%r12, %rax
	andq	$-32, %rax
	movq	(%rsp), %rcx
	movq	8(%rsp), %rdx
	addq	%rdx, %rcx
	addq	$16, %rcx
	xorl	%edx, %edx
	.p2align	4
Lunix_path_BB77_48:
	movdqu	(%r13,%rdx), %xmm0
	movups	16(%r13,%rdx), %xmm1
	movdqu	%xmm0, -16(%rcx,%rdx)
	movups	%xmm1, (%rcx,%rdx)
	addq	$32, %rdx
	cmpq	%rdx, %rax
	jne	Lunix_path_BB77_48
	cmpq	%rax, %r12
	je	Lunix_path_BB77_60
	testb	$28, %r12b
	je	Lunix_path_BB77_54
Lunix_path_BB77_51:
	movq	%rax, %rcx
	movq	%r12, %rax
	andq	$-4, %rax
	.p2align	4
Lunix_path_BB77_52:
	movl	(%r13,%rcx), %edx
	movl	%edx, (%r15,%rcx)
	addq	$4, %rcx
	cmpq	%rcx, %rax
	jne	Lunix_path_BB77_52
	cmpq	%rax, %r12
	je	Lunix_path_BB77_60
	jmp	Lunix_path_BB77_54
Lunix_path_BB77_70:
	movq	%rbx, %rax
	andq	$-32, %rax
	movq	24(%rsp), %rdx
	movq	16(%rsp), %rsi
	addq	%rsi, %rdx
	addq	$16, %rdx
	leaq	(%rcx,%r9), %rsi
	movq	(%rsp), %rdi
	addq	%rdi, %rsi
	addq	$16, %rsi
	xorl	%edi, %edi
	.p2align	4
Lunix_path_BB77_71:
	movdqu	-16(%rdx,%rdi), %xmm0
	movups	(%rdx,%rdi), %xmm1
	movdqu	%xmm0, -16(%rsi,%rdi)
	movups	%xmm1, (%rsi,%rdi)
	addq	$32, %rdi
	cmpq	%rdi, %rax
	jne	Lunix_path_BB77_71
	cmpq	%rax, %rbx
	je	Lunix_path_BB77_83
	testb	$28, %bl
	je	Lunix_path_BB77_77
Lunix_path_BB77_74:
	movq	%rax, %rdi
	movq	%rbx, %rax
	andq	$-4, %rax
	movq	%rax, %rdx
	subq	%rdi, %rdx
	movq	16(%rsp), %rsi
	addq	%rdi, %rsi
	addq	24(%rsp), %rsi
	addq	%rdi, %rcx
	addq	%r9, %rcx
	addq	(%rsp), %rcx
	xorl	%edi, %edi
	.p2align	4
Lunix_path_BB77_75:
	movl	(%rsi,%rdi), %r8d
	movl	%r8d, (%rcx,%rdi)
	addq	$4, %rdi
	cmpq	%rdi, %rdx
	jne	Lunix_path_BB77_75
	cmpq	%rax, %rbx
	je	Lunix_path_BB77_83
	jmp	Lunix_path_BB77_77
	.section	__TEXT,__const
lunix_path__static.0:
	.byte	0
lunix_path__static.5:
	.byte	46
lunix_path__static.8:
	.byte	47
lunix_path__static.9:
	.ascii	"./"
lunix_path__static.10:
	.space	2,46
lunix_path__static.12:
	.ascii	"\357\277\275"
.subsections_via_symbols
